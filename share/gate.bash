# Completions of gate for bash, which tools/completions makes of the help.
_gate() {
    local word=${COMP_WORDS[COMP_CWORD]} command=${COMP_WORDS[1]} words=
    COMPREPLY=()
    ((COMP_CWORD > 1)) || command=
    case "$command ${COMP_WORDS[COMP_CWORD - 1]}" in
        "try --coin") words="" ;;
        "try --psbt") mapfile -t COMPREPLY < <(compgen -f -- "$word") ;;
        "try --height") words="" ;;
        "try --policy") words="core-22 core-25 core-26 core-27 core-28 core-29 core-30 knots-29" ;;
        "try --set") words="" ;;
        "try --tip") words="" ;;
        "try --time") words="" ;;
        "try --verdict") words="ok soft hard" ;;
        "try "*) words="- --coin --psbt --height --policy --set --tip --time --verdict --json --help" ;;
        "check "*) words="- --help" ;;
        "run "*)
            words="--explain --explain-json --strict --help"
            [[ $word == -* ]] || mapfile -t COMPREPLY < <(compgen -f -- "$word")
            ;;
        "lanes --workers") words="1 2 4 8 16 32 64" ;;
        "lanes "*) words="--workers --journal --explain --help" ;;
        "audit "*) words="--explain --explain-json --help" ;;
        "rules "*) words="--help" ;;
        "settings "*) words="--help" ;;
        "explain "*) words="--help" ;;
        "help "*) words="try check run lanes audit rules settings explain" ;;
        " "*) words="try check run lanes audit rules settings explain help --help --version" ;;
    esac
    mapfile -t -O "${#COMPREPLY[@]}" COMPREPLY < <(compgen -W "$words" -- "$word")
}
complete -F _gate gate
