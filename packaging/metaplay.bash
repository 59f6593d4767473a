# Completions of metaplay for bash. Made by packaging/make_manual.py.
_metaplay() {
    local word=${COMP_WORDS[COMP_CWORD]} options=""
    COMPREPLY=()
    if [ "$COMP_CWORD" -eq 1 ]; then
        mapfile -t COMPREPLY < <(compgen -W "show prepare check play over list info certify help --help --version -V" -- "$word")
        return
    fi
    case ${COMP_WORDS[COMP_CWORD - 1]} in
        --profile) mapfile -t COMPREPLY < <(compgen -W "core print" -- "$word"); return ;;
        --allow) mapfile -t COMPREPLY < <(compgen -W "held-deletion emf-plus" -- "$word"); return ;;
        --out-dir) compopt -o dirnames; return ;;
    esac
    case ${COMP_WORDS[1]} in
        show) options="--fit --profile --allow --help" ;;
        prepare) options="--profile --allow --help" ;;
        check) options="--help" ;;
        play) options="--bands --fit --help" ;;
        over) options="--help" ;;
        list) options="--profile --allow --help" ;;
        info) options="--profile --allow --help" ;;
        certify) options="--out-dir --replace --profile --allow --help" ;;
    esac
    case $word in
        -*) mapfile -t COMPREPLY < <(compgen -W "$options" -- "$word") ;;
        *) compopt -o default ;;
    esac
}
complete -F _metaplay metaplay
