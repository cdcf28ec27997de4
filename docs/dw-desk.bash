# Completion of dw-desk for bash. Read it in with
#
#     source docs/dw-desk.bash
#
# or copy it to ~/.local/share/bash-completion/completions/dw-desk, where bash finds it by itself. `./install` puts it
# into such a place too.

_dw_desk() {
    local current=${COMP_WORDS[COMP_CWORD]} previous=${COMP_WORDS[COMP_CWORD - 1]}
    local commands="find check solution moves page same certify mend token help"
    local command="" options="" word
    # bash cuts --memo=lru into three words.
    if [ "$current" = "=" ]; then
        current=""
    elif [ "$previous" = "=" ] && [ "$COMP_CWORD" -ge 2 ]; then
        previous=${COMP_WORDS[COMP_CWORD - 2]}
    fi
    for word in "${COMP_WORDS[@]:1:COMP_CWORD-1}"; do
        case $word in
            find | check | solution | moves | page | same | certify | mend | token | help) command=$word && break ;;
        esac
    done
    case $command in
        find)
            options="-n --board --pdn --problem --most --each --later --json --solution --memo --cache --progress"
            options="$options -h --help"
            ;;
        check) options="-n --board --pdn --problem --most --faults --json --memo --cache --progress -h --help" ;;
        solution) options="-n --board --pdn --problem --most --lines --json --memo --cache --progress -h --help" ;;
        page)
            options="-n --board --pdn --problem --most --lines --title --lang --solutions --tries --numbers --memo"
            options="$options --cache --progress -h --help"
            ;;
        moves) options="-n --board --pdn --problem --part --json --memo --cache --progress -h --help" ;;
        same) options="--board --pdn --problem --json -h --help" ;;
        certify) options="-n --board --pdn --problem --memo --cache --progress -h --help" ;;
        mend) options="-n --board --pdn --problem --each --part --json --memo --cache --progress -h --help" ;;
        token) options="--board --pdn --problem --line -h --help" ;;
        help) options="" ;;
        *) options="-h --help -V --version" ;;
    esac
    COMPREPLY=()
    case $previous in
        --board) COMPREPLY=($(compgen -W "10 8" -- "$current")) && return ;;
        --memo) COMPREPLY=($(compgen -W "none lru slots deep" -- "$current")) && return ;;
        --lang) COMPREPLY=($(compgen -W "en nl fr ru" -- "$current")) && return ;;
        --solutions) COMPREPLY=($(compgen -W "after end none" -- "$current")) && return ;;
        --tries) COMPREPLY=($(compgen -W "none all" -- "$current")) && return ;;
        -n | --problem | --most | --each | --later | --part | --lines | --cache | --line | --title) return ;;
    esac
    case $command:$current in
        *:-*) COMPREPLY=($(compgen -W "$options" -- "$current")) ;;
        :* | help:*) COMPREPLY=($(compgen -W "$commands" -- "$current")) ;;
        *)
            compopt -o filenames 2>/dev/null
            mapfile -t COMPREPLY < <(compgen -f -- "$current")
            ;;
    esac
}

complete -F _dw_desk dw-desk
