# Completion of tlcheck for bash: source this file, or put it into the folder of bash-completion.
_tlcheck() {
    local here=${COMP_WORDS[COMP_CWORD]} words=
    case $COMP_CWORD:${COMP_WORDS[1]} in
    1:*) words='once run audit stream merge doctor view explain help --help --version' ;;
    *:once) words='--workers --manager --show --explain-faults --summary --deny --format --rule --link --from --to --waive --midway --help' ;;
    *:run) words='--workers --show --explain-faults --summary --deny --midway --help' ;;
    *:audit) words='--workers --show --explain-faults --summary --deny --format --rule --link --from --to --waive --midway --help' ;;
    *:stream) words='--workers --setup --manager --show --explain-faults --midway --help' ;;
    *:merge) words='--explain-faults --help' ;;
    *:doctor) words='--explain-faults --help' ;;
    *:view) words='--row --out --explain-faults --help' ;;
    2:help) words='once run audit stream merge doctor view explain' ;;
    2:explain) words="--help $("$1" explain 2> /dev/null | cut -d : -f 1)" ;;
    esac
    COMPREPLY=()
    if [[ $COMP_CWORD -gt 1 && ${COMP_WORDS[COMP_CWORD - 1]} == --deny ]]; then
        COMPREPLY=($(compgen -W 'refused empty' -- "$here"))
    elif [[ $COMP_CWORD -gt 1 && ${COMP_WORDS[COMP_CWORD - 1]} == --format ]]; then
        COMPREPLY=($(compgen -W 'text json junit html' -- "$here"))
    elif [[ $COMP_CWORD -gt 1 && ${COMP_WORDS[COMP_CWORD - 1]} == --rule ]]; then
        COMPREPLY=($(compgen -W "$("$1" explain 2> /dev/null | sed -n 's/^\([A-Z][0-9]*\):.*/\1/p')" -- "$here"))
    elif [[ $COMP_CWORD -gt 1 && ${COMP_WORDS[COMP_CWORD - 1]} == --workers ]]; then
        COMPREPLY=($(compgen -W '0 1 2 3 4 5 6 7 8 9 10 11 12 13 14 15 16' -- "$here"))
    elif [[ $here == -* || $COMP_CWORD -eq 1 || ${COMP_WORDS[1]} == explain || ${COMP_WORDS[1]} == help ]]; then
        COMPREPLY=($(compgen -W "$words" -- "$here"))
    fi
}
complete -o default -F _tlcheck tlcheck
