# Completion of bumbazeel's command line, for bash.
_bumbazeel() {
    local word=${COMP_WORDS[COMP_CWORD]} before=${COMP_WORDS[COMP_CWORD - 1]} command=${COMP_WORDS[1]:-} options
    if [ "$COMP_CWORD" = 1 ] || { [ "$command" = help ] && [ "$COMP_CWORD" = 2 ]; }; then
        mapfile -t COMPREPLY < <(compgen -W 'collect status list check sheet words serve help --help --version' -- "$word")
        return
    fi
    case $before in
    --page) mapfile -t COMPREPLY < <(compgen -W '07h 08h' -- "$word") && return ;;
    --area | --data-area | -d) mapfile -t COMPREPLY < <(compgen -W '1 2 3 4' -- "$word") && return ;;
    --host-generate | -g | --rae) mapfile -t COMPREPLY < <(compgen -W '0 1' -- "$word") && return ;;
    --output-dir | --hold) mapfile -t COMPREPLY < <(compgen -d -- "$word") && return ;;
    esac
    if [[ $word == -* ]]; then
        # the options are those that the command's help lists
        options=$("${COMP_WORDS[0]}" "$command" --help 2>/dev/null | grep -oE '^ +(-[a-z], )?--[a-z0-9-]+' | grep -oE -- '--[a-z0-9-]+')
        mapfile -t COMPREPLY < <(compgen -W "$options" -- "$word")
    else
        mapfile -t COMPREPLY < <(compgen -f -- "$word")
    fi
}
complete -o filenames -F _bumbazeel bumbazeel
