# Completes the verbs and settings of modeller in bash, and files behind `<` and `>`. Read it by
# `. docs/modeller.bash`, or from ~/.bashrc.
_modeller() {
    local word=${COMP_WORDS[COMP_CWORD]} settings=
    COMPREPLY=()
    if [[ $word == [\<\>]* || ${COMP_WORDS[COMP_CWORD - 1]} == [\<\>]* ]]; then
        mapfile -t COMPREPLY < <(compgen -f -- "${word##*[<>]}")
        compopt -o filenames 2>/dev/null
        return
    fi
    if [ "$COMP_CWORD" -eq 1 ]; then
        mapfile -t COMPREPLY < <(compgen -W 'render height shade mesh check contour count text solid replay forge' -- "$word")
        return
    fi
    case ${COMP_WORDS[1]} in
        render | count) settings='x0= x1= y0= y1= z= w= h=' ;;
        height | shade) settings='x0= x1= y0= y1= z0= z1= w= h= d=' ;;
        mesh) settings='x0= x1= y0= y1= z0= z1= n= nx= ny= nz=' ;;
        contour) settings='x0= x1= y0= y1= z= n=' ;;
        forge) settings='x0= x1= y0= y1= z= w= h= seed= solids=' ;;
    esac
    mapfile -t COMPREPLY < <(compgen -W "$settings" -- "$word")
    [ ${#COMPREPLY[@]} -gt 0 ] && compopt -o nospace 2>/dev/null
}
complete -o default -F _modeller modeller ./modeller
