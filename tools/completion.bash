# Completes the words of ./fsw in bash: source tools/completion.bash
_fsw() {
    local words='lockstep run check bridge gen soak image pack picture page json pcap test build new doctor
        --version --help'
    local word=${COMP_WORDS[COMP_CWORD]}
    COMPREPLY=()
    if ((COMP_CWORD == 1)); then
        mapfile -t COMPREPLY < <(compgen -W "$words" -- "$word")
        return
    fi
    case ${COMP_WORDS[1]} in
        lockstep) ;;
        picture) words='--from --to --script' ;;
        page) words='--script --other' ;;
        pcap) words='--script' ;;
        new) words='plain threads' ;;
        build) words='--library --target x86_64 aarch64' ;;
        *) return ;;
    esac
    if [[ $word == -* ]]; then
        mapfile -t COMPREPLY < <(compgen -W "$words" -- "$word")
    else
        mapfile -t COMPREPLY < <(compgen -f -- "$word")
    fi
}
complete -o filenames -F _fsw fsw ./fsw
