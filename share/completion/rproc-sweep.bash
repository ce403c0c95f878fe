# Completes the words of rproc-sweep: its options, what they take, and scripts.
_rproc_sweep() {
    local word=${COMP_WORDS[COMP_CWORD]} before=${COMP_WORDS[COMP_CWORD - 1]}
    case $before in
    --without) COMPREPLY=($(compgen -W "payloads steps numbers" -- "$word")) ;;
    --chart) COMPREPLY=($(compgen -d -- "$word")) ;;
    --expect | --write) COMPREPLY=($(compgen -f -- "$word")) ;;
    --script | --jobs) ;;
    *)
        case $word in
        -*) COMPREPLY=($(compgen -W "--without --expect --write --chart --script --jobs --help" -- "$word")) ;;
        *) COMPREPLY=($(compgen -f -X '!*.script' -- "$word") $(compgen -d -- "$word")) ;;
        esac
        ;;
    esac
}
complete -o filenames -F _rproc_sweep rproc-sweep
