#!/bin/sh
# Removes what install.sh has copied below PREFIX, and nothing else.
set -eu
unset CDPATH
usage='usage: ./uninstall.sh [PREFIX]

Removes what ./install.sh PREFIX has copied below PREFIX, and nothing else. Without PREFIX that is /usr/local.'

fail() {
    printf 'uninstall.sh: %s\n' "$1" >&2
    exit 1
}

[ $# -le 1 ] || fail "one PREFIX is wanted; ./uninstall.sh --help tells more"
case ${1-/usr/local} in
-h | --help)
    printf '%s\n' "$usage"
    exit
    ;;
'') fail 'PREFIX is empty' ;;
-*) fail "there is no option $1; ./uninstall.sh --help tells more" ;;
\~*) fail "within quotes ~ is no folder: write PREFIX without quotes, or \$HOME in the place of ~" ;;
/*) prefix=${1-/usr/local} ;;
*) prefix=$PWD/$1 ;;
esac
case $0 in */*) cd -- "${0%/*}" ;; esac
[ -e "$prefix/libexec/b-words.sh" ] || fail "b isn't installed below $prefix"
find bin libexec share ! -type d | while read -r file; do rm -f "$prefix/$file"; done
find linux-* ! -type d | while read -r file; do rm -f "$prefix/${file#*/}"; done
find lib examples class docs README.md PROVED ! -type d | while read -r file; do rm -f "$prefix/share/b/$file"; done
made=$(sort -r "$prefix/share/b/folders" 2>/dev/null) || made=''
rm -f "$prefix/share/b/folders"
printf '%s\n' "$made" | while IFS= read -r it; do rmdir "$prefix$it" 2>/dev/null || :; done
echo "b was removed from $prefix"
