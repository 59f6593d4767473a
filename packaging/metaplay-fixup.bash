# Completions of metaplay-fixup for bash. Made by packaging/make_fixup_manual.py.
_metaplay_fixup() {
    local word=${COMP_WORDS[COMP_CWORD]}
    COMPREPLY=()
    case ${COMP_WORDS[COMP_CWORD - 1]} in
        --alpha) mapfile -t COMPREPLY < <(compgen -W "white" -- "$word"); return ;;
        --allow) mapfile -t COMPREPLY < <(compgen -W "held-deletion emf-plus" -- "$word"); return ;;
        --out-dir|--fonts) mapfile -t COMPREPLY < <(compgen -d -- "$word"); compopt -o filenames; return ;;
    esac
    case $word in
        -*) mapfile -t COMPREPLY < <(compgen -W "--out-dir --report --fonts --map --instead --fallback --code-page --text-only --strokes --alpha --drop-emf-plus --bound --check --allow --verify --version --help" -- "$word") ;;
        *) compopt -o default ;;
    esac
}
complete -F _metaplay_fixup metaplay-fixup
