#!/bin/sh
# Copies the program for this processor, its page of the manual, its completions and its texts below PREFIX, and nothing
# else.
set -eu
unset CDPATH
usage='usage: ./install.sh [PREFIX]

Copies b below PREFIX, and nothing else: the command into PREFIX/bin, the program into PREFIX/libexec, and its texts
into PREFIX/share. Without PREFIX that is /usr/local. ./uninstall.sh PREFIX removes it.

  ./install.sh ~/.local     for you alone; ~/.local/bin has to be in your PATH
  sudo ./install.sh         for all'

fail() {
    printf 'install.sh: %s\n' "$1" >&2
    exit 1
}

[ $# -le 1 ] || fail "one PREFIX is wanted; ./install.sh --help tells more"
case ${1-/usr/local} in
-h | --help)
    printf '%s\n' "$usage"
    exit
    ;;
'') fail 'PREFIX is empty' ;;
-*) fail "there is no option $1; ./install.sh --help tells more" ;;
\~*) fail "within quotes ~ is no folder: write PREFIX without quotes, or \$HOME in the place of ~" ;;
/*) prefix=${1-/usr/local} ;;
*) prefix=$PWD/$1 ;;
esac
case $prefix in
*'
') fail 'PREFIX ends in a newline' ;;
esac
case $0 in */*) cd -- "${0%/*}" ;; esac
machine=$(uname -s | tr '[:upper:]' '[:lower:]')-$(uname -m)
[ -d "$machine" ] || fail "there is no program for $machine here; docs/MACHINES.md tells what to take"
"$machine/libexec/b" --version >/dev/null 2>&1 ||
    fail "the program for $machine doesn't start here; sha256sum -c PROVED tells whether all files are whole"

# Makes a folder with those above it, and notes what was made below PREFIX, for uninstall.sh.
made=''
folder() {
    [ -n "$1" ] && [ ! -d "$1" ] || return 0
    folder "${1%/*}"
    mkdir "$1"
    case $1/ in "$prefix"/*) made="$made${1#"$prefix"}/
" ;; esac
}

# What is copied can be read by all, whatever the mask is and however the archive was unpacked. A new file takes the
# place of an old one, so that a program that runs goes on, and there is always one of the two.
umask 022
put() {
    to=$2/${1##*/} new=$2/.${1##*/}.new
    if [ -h "$to" ]; then rm -f "$to"; fi
    [ ! -d "$to" ] || fail "$to is a folder"
    folder "$2"
    rm -f "$new"
    cp -P "$1" "$new"
    [ -h "$1" ] || chmod u+w,go-w,a+rX "$new"
    mv -f "$new" "$to"
}
copy() {
    for file in "$1"/*; do
        if [ -d "$file" ] && ! [ -h "$file" ]; then
            # What is for teachers isn't copied to where pupils read.
            case $file in class/*/solutions | class/*/drawn) ;; *) copy "$file" "$2/${file##*/}" ;; esac
        elif [ -e "$file" ]; then
            put "$file" "$2"
        fi
    done
}
for part in bin libexec share; do copy "$part" "$prefix/$part"; done
copy "$machine" "$prefix"
for part in lib examples class docs; do copy "$part" "$prefix/share/b/$part"; done
for file in README.md PROVED; do put "$file" "$prefix/share/b"; done
printf '%s' "$made" >>"$prefix/share/b/folders"
echo "b is in $prefix/bin, and its texts are in $prefix/share/b"
