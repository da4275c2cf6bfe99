#!/usr/bin/env bash
# Runs the program `b` with these words, and first proves and builds it where it isn't built of just these sources. Its
# core, the program `bgo`, is proved first, and answers what it can until all is proved. Where neither was ever built,
# an unproved run answers first, if it can. With --prove before the words none of these does. With --prove=core the
# core alone is proved, and answers. With --prove --keep, what the kit keeps of each check stays, for those who change
# the sources.
set -u
unset CDPATH
export PATH
top=$(readlink -f "${BASH_SOURCE[0]}")
top=${top%/*}
program=$top/crates/b/out/b
core=$top/crates/bgo/out/bgo
no_program=200 # the status where there is no program to run, which is none of the program's own
lacks_tool=136 # that of the core where only the whole program can answer

say() { printf 'b: %s\n' "$1" >&2; }

fail() {
    say "$1"
    exit "$no_program"
}

# Puts what a program is built of into `sources`: crates.txt, and the folders of each crate that it lists up to its own.
find_sources() {
    local crate
    sources=(crates.txt)
    while IFS=:' ' read -r crate _; do
        [ -d "$top/crates/$crate/src" ] && sources+=("crates/$crate/"{src,specs,proofs})
        [ "$crate" != "${1##*/}" ] || break
    done <"$top/crates.txt"
}

# The names of the sources, with their places on the disk and the times of their last changes, which no one can set.
# Where these stay, the sources do. This and the next call change the folder.
list_sources() { cd "$top" && find "${sources[@]}" -type f -printf '%p %i %C@\n' 2>/dev/null; }

digest_sources() {
    cd "$top" && find "${sources[@]}" -type f -print0 2>/dev/null | LC_ALL=C sort -z | xargs -0 sha256sum
}

# Puts the line of the kit on the path into `kit`; nothing where there is none.
find_kit() {
    kit=$(readlink -f "$(type -P rt)")
    kit=${kit%/*/*}/KIT-ID
    if [ -r "$kit" ]; then kit=$(<"$kit"); else kit=''; fi
}

# Beside a program stand the kit and the digests of the sources that it was built of, and a list of these, which saves
# reading them. A copy of all has another list, and the same digests.
is_stale() {
    local list out=${1%/*}
    [ -x "$1" ] && [ -e "$out/digests" ] || return 0
    find_sources "$1"
    find_kit
    [ -z "$kit" ] || [ "$kit" = "$(<"$out/kit")" ] || return 0
    list=$(list_sources)
    [ "$list" != "$(<"$out/list")" ] || return 1
    [ "$(digest_sources)" = "$(<"$out/digests")" ] || return 0
    { echo "$list" >"$out/list"; } 2>/dev/null
    return 1
}

prove_first='' keep=()
case ${1-} in
--prove=core) program=$core ;;&
--prove | --prove=core)
    prove_first=1
    shift
    [ "${1-}" != --keep ] || { keep=(--keep) && shift; }
    ;;
esac
if is_stale "$program"; then
    # shellcheck source=tools/start
    . "$top/tools/start"
    start "$@"
elif [ "${#keep[@]}" -gt 0 ] && [ ! -d "$top/crates/bword/out/incremental" ]; then
    say "all is proved, and nothing was kept of it: after rm -rf crates/*/out, --prove --keep proves and keeps it"
fi
[ -z "$prove_first" ] || [ $# -gt 0 ] || exit 0
# shellcheck disable=SC2034
library=$top/lib
# shellcheck source=share/pack/words.sh
. "$top/share/pack/words.sh"
shopt -s execfail
# shellcheck disable=SC2093
exec "$program" "$@"
fail "the program doesn't start"
