# source <(nghi completions bash)
_nghi() {
    local current=${COMP_WORDS[COMP_CWORD]} options= choices=
    if [ "$COMP_CWORD" -eq 1 ]; then
        COMPREPLY=($(compgen -W 'check programs knows play judge draw build watch explain new completions --help --version' -- "$current"))
        return
    fi
    COMPREPLY=()
    case ${COMP_WORDS[1]} in
        check) options='--deny --json' choices='' ;;
        programs) options='--party --json' choices='' ;;
        knows) options='--party --at --term --json' choices='' ;;
        play) options='--order --moves --json' choices='' ;;
        judge) options='--ours --json' choices='' ;;
        draw) options='-o --order --as --force --json' choices='' ;;
        build) options='-o --force --json' choices='' ;;
        watch) options='--html --once --json' choices='' ;;
        explain) options='--json' choices='R1 R2 R3 R4 R5 R6 R7 R8 R9 R10 R11 R12 R13 R20 R21 R22 R24 W1 W2 W3 W4 W5' ;;
        new) options='--json' choices='' ;;
        completions) options='--json' choices='bash zsh fish' ;;
    esac
    case $current in
        -*) COMPREPLY=($(compgen -W "$options --help" -- "$current")) ;;
        *) COMPREPLY=($(compgen -W "$choices" -- "$current")) ;;
    esac
}
complete -o default -F _nghi nghi
