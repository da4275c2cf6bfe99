# shellcheck shell=sh
# Reads the words of a command line, for the script `b`, and puts others in their place: for a name of the library after
# --with the path of its file in the folder `library`; and for a FILE `-` of a command that runs no source, standard
# input. A path, as each word with a slash or a point is one, stays, and so do the values of --made and --lines, and all
# else. --write and --diff it does whole, by the program that `program` names: `format --write FILE`, and both of
# `check --fix FILE` and `port FILE`.
b_command=${1-} b_with='' b_over='' b_at=0 b_words='' b_some='' b_write='' b_clash='' b_file='' b_files=0 b_fix=''

b_fail() {
    printf 'error: %s\n' "$1" >&2
    exit "${2-133}"
}

# Looks for --write and --diff among the words of `format`, `check` and `port`, for a word that doesn't go with them, and
# for FILE.
b_look() {
    b_skip=''
    shift
    for b_word; do
        case $b_skip$b_over:$b_word in
        skip*) b_skip='' ;;
        :--) b_over=over ;;
        :--write | :--diff)
            [ "${b_write:-$b_word}" = "$b_word" ] || b_clash=$b_write
            b_write=$b_word
            ;;
        :--fix) b_fix=yes ;;
        :--edition | :--with) b_skip=skip ;;
        :--check | :--json | :--help | :-h) b_clash=$b_word ;;
        :-) b_file=/dev/stdin b_files=$((b_files + 1)) ;;
        :-?*) ;;
        *) b_file=$b_word b_files=$((b_files + 1)) ;;
        esac
    done
    b_over=''
}

# The mode, the owner, the group and the number of names of a file.
b_about() {
    # shellcheck disable=SC2012
    LC_ALL=C ls -ldn -- "$1" | {
        read -r b_mode b_links b_owner b_group _
        echo "$b_mode $b_owner $b_group $b_links"
    }
}

# Stops where a new file must not take the place of FILE.
b_stop() {
    [ ! -h "$b_file" ] || b_fail 'FILE is a link, so nothing is written'
    [ -f "$b_file" ] || b_fail 'FILE is no plain file, so nothing is written'
    [ -w "$b_file" ] || b_fail 'FILE must not be written, so nothing is'
    b_was=$(b_about "$b_file")
    [ "${b_was##* }" = 1 ] || b_fail 'FILE has several names (hard links), so nothing is written'
}

# Has the program write what it makes of FILE into the new file. `check --fix` and `port` write something of a source at
# fault, too.
b_make() {
    b_status=0
    # shellcheck disable=SC2154
    "$program" "$@" >"$b_new" || b_status=$?
    case $b_command:$b_status in
    *:0 | check:1 | check:132 | port:1 | port:132) ;;
    *)
        [ "$b_status" != 133 ] || echo 'error: FILE stays as it is' >&2
        exit "$b_status"
        ;;
    esac
}

# Shows what would change in FILE.
b_differ() {
    [ "$b_file" != /dev/stdin ] || b_fail 'what would change is shown of a file alone'
    [ -e "$b_file" ] || exec "$program" "$@" >/dev/null
    b_new=$(mktemp) || b_fail 'no file can be made'
    trap 'rm -f "$b_new"' EXIT
    trap 'exit 129' HUP
    trap 'exit 130' INT
    trap 'exit 143' TERM
    b_make "$@"
    case $b_command in port) b_made=ported ;; *) b_made=mended ;; esac
    diff -u -L "$b_file" -L "$b_file $b_made" -- "$b_file" "$b_new" || [ "$?" = 1 ] || b_fail 'FILE can not be compared'
    exit "$b_status"
}

# Removes what killed calls left beside FILE: the number of each is in the names of its files.
b_clear() {
    for b_left in "${b_file%/*}"/.b-format.*; do
        [ -f "$b_left" ] || continue
        b_by=${b_left##*/.b-format.}
        b_by=${b_by%%.*}
        case $b_by in '' | *[!0-9]*) continue ;; esac
        case $(b_about "$b_left") in *" $(id -u) "*) ;; *) continue ;; esac
        kill -0 "$b_by" 2>/dev/null || rm -f "$b_left"
    done
}

# Exchanges FILE and the new file in one step, by `mv` where it knows how, else by the system call `renameat2`. Fails
# where neither can.
b_swap() {
    mv --exchange -T -- "$b_new" "$b_file" 2>/dev/null || perl -e '
        my ($new, $file, $machine) = @ARGV;
        my $number = {x86_64 => 316, aarch64 => 276}->{$machine} or exit 1;
        exit(syscall($number, -100, $new, -100, $file, 2) != 0)' "$b_new" "$b_file" "$(uname -m)" 2>/dev/null
}

# Gives the name of FILE to the new file, if FILE has its old bytes. Where the two can be exchanged, FILE comes back if
# it was another one by then, as where an editor saves by a rename. Else a second name keeps the old file, so that it
# comes back if an editor wrote into it meanwhile; a save by a rename between two calls is lost then.
b_take() {
    cmp -s "$b_file" "$b_new.old" || b_fail 'FILE has changed meanwhile, so nothing is written'
    if b_swap; then
        if cmp -s "$b_new" "$b_new.old"; then return; fi
        if b_swap; then b_fail 'FILE has changed meanwhile, so nothing is written'; fi
        trap - EXIT
        b_fail "FILE has changed meanwhile, and what was written then is in $b_new"
    fi
    ln "$b_file" "$b_new.was" 2>/dev/null || :
    cmp -s "$b_file" "$b_new.old" || b_fail 'FILE has changed meanwhile, so nothing is written'
    mv -f "$b_new" "$b_file" || b_fail 'FILE stays as it is'
    if [ -e "$b_new.was" ] && ! cmp -s "$b_new.was" "$b_new.old"; then
        mv -f "$b_new.was" "$b_file" || b_fail 'FILE has changed meanwhile, and what was written then is lost'
        b_fail 'FILE has changed meanwhile, so nothing is written'
    fi
}

# Puts what the program makes of FILE in its place. A new file beside it gets its mode and its owner and then the
# new bytes, is written to the disk, and takes the name. Until then FILE has its old bytes, and a FILE that has others
# by then keeps them.
b_replace() {
    case $b_file in /* | ./* | ../*) ;; *) b_file=./$b_file ;; esac
    # A file that isn't there the program tells itself.
    [ -e "$b_file" ] || [ -h "$b_file" ] || exec "$program" "$@" >/dev/null
    b_clear
    b_stop
    b_new=$(mktemp "${b_file%/*}/.b-format.$$.XXXXXX") || b_fail 'no file can be made beside FILE, so nothing is written'
    trap 'rm -f "$b_new" "$b_new.old" "$b_new.was"' EXIT
    trap 'exit 129' HUP
    trap 'exit 130' INT
    trap 'exit 143' TERM
    cp -p "$b_file" "$b_new" || b_fail 'FILE stays as it is'
    cp "$b_new" "$b_new.old" || b_fail 'FILE stays as it is'
    b_make "$@"
    cmp -s "$b_file" "$b_new.old" || b_fail 'FILE has changed meanwhile, so nothing is written'
    if cmp -s "$b_file" "$b_new"; then exit "$b_status"; fi
    [ "$b_was" = "$(b_about "$b_new")" ] || b_fail "the mode and the owner of FILE can't be kept, so nothing is written"
    sync "$b_new" || b_fail 'FILE stays as it is'
    b_take
    exit "$b_status"
}

# Has `b_put` name the path of a LIB that is a name of the library: the name, how it is written, and what comes before
# it.
b_lib() {
    case $1 in
    '' | -* | *[./]*) return ;;
    esac
    b_put=$3\$library/$2.b
    # shellcheck disable=SC2154
    if ! [ -f "$library/$1.b" ]; then
        b_names=$(cd -- "$library" && printf ', %s' *.b | sed 's/\.b,/,/g; s/\.b$//')
        echo "note: the library has ${b_names#, }" >&2
    fi
}

# Tells that the words don't go together.
b_refuse() {
    b_fail "the argument '$1' cannot be used $2

For more information, try '--help'." 135
}

case $b_command in
format)
    b_look "$@"
    b_fix=''
    [ "$b_write" != --diff ] || b_write=''
    ;;
check) b_look "$@" ;;
port)
    b_look "$@"
    b_fix=''
    ;;
esac
case $b_command$b_fix:$b_write:$b_clash in
*::* | *:--help | *:-h) ;;
format:--write:--check | *yes:*:--* | port:*:--write | port:*:--diff) b_refuse "$b_write" "with '$b_clash'" ;;
check:*) b_refuse "$b_write" "without '--fix'" ;;
esac

case $b_command in
compile | go | try | list | map | check | names | trace | count | show | format | port)
    for b_word; do
        b_at=$((b_at + 1))
        b_put="\${$b_at}"
        case $b_over$b_with$b_command$b_fix:$b_word in
        over*) ;;
        with*)
            b_lib "$b_word" "$b_put" ''
            b_with=''
            ;;
        file*) b_with='' ;;
        "$b_command$b_fix:--") b_over=over ;;
        "$b_command$b_fix:--with") b_with=with ;;
        "$b_command:--made" | "$b_command:--lines" | "$b_command:--rules") b_with='file' ;;
        "$b_command$b_fix:--with="*) b_lib "${b_word#--with=}" "\${$b_at#--with=}" --with= ;;
        format:--write | checkyes:--write | checkyes:--diff | port:--write | port:--diff) b_put='' ;;
        list:- | map:- | check:- | checkyes:- | names:- | format:- | port:-) b_put=/dev/stdin ;;
        esac
        # A long text is seldom copied, so that many words are quick.
        b_some="$b_some${b_put:+ \"$b_put\"}"
        [ "${#b_some}" -lt 2000 ] || { b_words=$b_words$b_some && b_some=''; }
    done
    eval "set -- $b_words$b_some"
    ;;
esac
# Where there isn't one FILE, the program tells it.
if [ -n "$b_write" ] && [ "$b_files" = 1 ] && [ -z "$b_clash" ]; then
    [ "$b_write" = --write ] || b_differ "$@"
    b_replace "$@"
fi
