# Completes the words of b. Written by tools/manual.
_b() {
    local words=''
    COMPREPLY=()
    if [ "$COMP_CWORD" -eq 1 ]; then
        words='compile run go try migrate verify list map check find names trace count show format port help --help --version'
        mapfile -t COMPREPLY < <(compgen -W "$words" -- "${COMP_WORDS[COMP_CWORD]}")
        return
    fi
    if [ "${COMP_WORDS[1]}" = help ]; then
        words='compile run go try migrate verify list map check find names trace count show format port'
        [ "$COMP_CWORD" -gt 2 ] || mapfile -t COMPREPLY < <(compgen -W "$words" -- "${COMP_WORDS[COMP_CWORD]}")
        return
    fi
    case ${COMP_WORDS[COMP_CWORD - 1]} in
    --edition) words='1 2' ;;
    --steps | --from | --last | --function | --input) return ;;
    --made | --lines)
        mapfile -t COMPREPLY < <(compgen -f -- "${COMP_WORDS[COMP_CWORD]}")
        return
        ;;
    --with)
        mapfile -t COMPREPLY < <(
            compgen -W 'host input numbers print raise strings test vectors' -- "${COMP_WORDS[COMP_CWORD]}"
            compgen -f -- "${COMP_WORDS[COMP_CWORD]}"
        )
        return
        ;;
    esac
    if [ -n "$words" ]; then
        mapfile -t COMPREPLY < <(compgen -W "$words" -- "${COMP_WORDS[COMP_CWORD]}")
        return
    fi
    case ${COMP_WORDS[1]} in
    compile) words='--edition --with --help' ;;
    run) words='--steps --no-limit --where --help' ;;
    go) words='--edition --steps --no-limit --where --careful --with --code --made --lines --names --help' ;;
    try) words='--edition --steps --no-limit --with --help' ;;
    migrate) words='--help' ;;
    verify) words='--help' ;;
    list) words='--edition --with --code --made --lines --names --help' ;;
    map) words='--edition --with --code --made --lines --names --svg --steps --help' ;;
    check) words='--write --diff --edition --with --json --fix --rules --help' ;;
    find) words='--edition --json --help' ;;
    names) words='--edition --with --json --help' ;;
    trace) words='--edition --with --code --made --lines --names --steps --from --last --function --help' ;;
    count) words='--edition --with --code --made --lines --names --steps --no-limit --json --help' ;;
    show) words='--edition --with --code --made --lines --names --steps --from --last --input --careful --help' ;;
    format) words='--write --edition --check --help' ;;
    port) words='--write --diff --edition --with --help' ;;
    esac
    case ${COMP_WORDS[COMP_CWORD]} in
    -*) mapfile -t COMPREPLY < <(compgen -W "$words" -- "${COMP_WORDS[COMP_CWORD]}") ;;
    *) mapfile -t COMPREPLY < <(compgen -f -- "${COMP_WORDS[COMP_CWORD]}") ;;
    esac
}
complete -o filenames -F _b b
