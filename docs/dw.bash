# Completion of dw for bash. Read it in with
#
#     source docs/dw.bash
#
# or copy it to ~/.local/share/bash-completion/completions/dw, where bash finds it by itself. `./install` puts it into
# such a place too.

_dw() {
    local current=${COMP_WORDS[COMP_CWORD]} previous=${COMP_WORDS[COMP_CWORD - 1]}
    local commands="show moves judge list help"
    local command="" options="" word
    # bash cuts --memo=lru into three words.
    if [ "$current" = "=" ]; then
        current=""
    elif [ "$previous" = "=" ] && [ "$COMP_CWORD" -ge 2 ]; then
        previous=${COMP_WORDS[COMP_CWORD - 2]}
    fi
    for word in "${COMP_WORDS[@]:1:COMP_CWORD-1}"; do
        case $word in
            show | moves | judge | list | help) command=$word && break ;;
        esac
    done
    case $command in
        show | moves) options="--board --pdn --problem --json -h --help" ;;
        judge) options="-n --board --pdn --problem --positions --memo --cache -h --help" ;;
        list) options="-n --board --pdn --problem --positions --memo --cache --lines --after -h --help" ;;
        help) options="" ;;
        *) options="-h --help -V --version" ;;
    esac
    COMPREPLY=()
    case $previous in
        --board) COMPREPLY=($(compgen -W "10 8" -- "$current")) && return ;;
        --memo) COMPREPLY=($(compgen -W "none lru slots deep" -- "$current")) && return ;;
        -n | --problem | --positions | --cache | --lines | --after) return ;;
    esac
    case $command:$current in
        *:-*) COMPREPLY=($(compgen -W "$options" -- "$current")) ;;
        :* | help:*) COMPREPLY=($(compgen -W "$commands" -- "$current")) ;;
        *)
            compopt -o filenames 2>/dev/null
            mapfile -t COMPREPLY < <(compgen -f -- "$current")
            ;;
    esac
}

complete -F _dw dw
