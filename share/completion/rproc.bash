# Completes the words of rproc and of the programs beside it, of each by its name.
_rproc() {
    local word=${COMP_WORDS[COMP_CWORD]} before=${COMP_WORDS[COMP_CWORD - 1]} command=${COMP_WORDS[0]##*/}
    COMPREPLY=()
    case $command:$before:$word in
    rproc:check:*) [ ! -d firmware ] || COMPREPLY=($(cd firmware && compgen -f -- "$word")) ;;
    rproc:*) [ "$COMP_CWORD" -ne 1 ] || COMPREPLY=($(compgen -W "run check demo storm audit" -- "$word")) ;;
    rproc-golden:--junit:*) COMPREPLY=($(compgen -f -- "$word")) ;;
    rproc-golden:*:-*) COMPREPLY=($(compgen -W "--write --strict --junit --help" -- "$word")) ;;
    rproc-golden:*) COMPREPLY=($(compgen -d -- "$word")) ;;
    rproc-explain:--at:*) COMPREPLY=($(compgen -W "last" -- "$word")) ;;
    rproc-explain:*:-*) COMPREPLY=($(compgen -W "--at --help" -- "$word")) ;;
    rproc-explain:*) [ "${COMP_WORDS[1]}" != --at ] || COMPREPLY=($(compgen -f -- "$word")) ;;
    rproc-lint:*:-*) COMPREPLY=($(compgen -W "--strict --json --quiet --help --version" -- "$word")) ;;
    rproc-lint:*) COMPREPLY=($(compgen -f -- "$word")) ;;
    rproc-chart:*:-*) COMPREPLY=($(compgen -W "--from --to --page" -- "$word")) ;;
    rproc-dump:*:-*) COMPREPLY=($(compgen -W "-q" -- "$word")) ;;
    esac
}
complete -o filenames -F _rproc rproc rproc-chart rproc-dump rproc-explain rproc-golden rproc-lint
