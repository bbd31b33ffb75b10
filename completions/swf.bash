# Completion of swf for bash. Made by tools/make-command.

_swf()
{
    local current=${COMP_WORDS[COMP_CWORD]} options=" --steps --calls " word option= mode= ended= values=
    COMPREPLY=()
    for word in "${COMP_WORDS[@]:1:COMP_CWORD-1}"; do
        if [[ $option ]]; then
            # bash parts a word at its `=`, which is then a word of its own
            [[ $word == "=" ]] || option=
        elif [[ ! $ended && $word == "--" ]]; then
            ended=1
        elif [[ ! $ended && $word =~ ^(--steps|--calls)$ ]]; then
            option=$word
            options=${options/ $word / }
        elif [[ $ended || $word != -* ]]; then
            mode=$word
        fi
    done
    if [[ $option ]]; then
        case $option in
            --steps) values="1 1000 1000000" ;;
            --calls) values="manual http" ;;
        esac
        COMPREPLY=($(compgen -W "$values" -- "${current#=}"))
    elif [[ ! $ended && $current == -* ]]; then
        COMPREPLY=($(compgen -W "$options" -- "$current"))
    elif [[ ! $mode ]]; then
        COMPREPLY=($(compgen -W "check session show" -- "$current"))
    fi
}
complete -F _swf swf
