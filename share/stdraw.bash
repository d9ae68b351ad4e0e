# Completion of stdraw's words for bash. ./stdraw install puts it in place; or source it.
_stdraw() {
    local forms='visibility tessellation constrained polyline dominance'
    local now=${COMP_WORDS[COMP_CWORD]} at=$COMP_CWORD
    case $at,${COMP_WORDS[1]},${COMP_WORDS[at - 1]} in
        1,*) mapfile -t COMPREPLY < <(compgen -W 'draw query test join meet orient session check gen bench' -- "$now") ;;
        2,draw,* | 4,bench,*) mapfile -t COMPREPLY < <(compgen -W "$forms" -- "$now") ;;
        3,draw,polyline | 5,bench,polyline) mapfile -t COMPREPLY < <(compgen -W 'left middle right' -- "$now") ;;
    esac
}
complete -o default -F _stdraw stdraw ./stdraw
