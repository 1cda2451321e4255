# Completes the words of kineo in bash: `. completions/kineo.bash`, then `kineo re<TAB>`.

# The options of a command.
_kineo_options() {
    case $1 in
        replay) echo --script --feeds --parts --rules --landmarks --top --trace ;;
        demo) echo --seed --records ;;
    esac
}

# Answers with each candidate that goes on from what stands after the last comma of $1 and doesn't stand before it.
_kineo_list() {
    local typed=$1 before='' last=$1 candidate
    shift
    if [[ $typed == *,* ]]; then
        before=${typed%,*},
        last=${typed##*,}
    fi
    for candidate; do
        if [[ $candidate == "$last"* && ",$before" != *",$candidate,"* ]]; then
            COMPREPLY+=("$before$candidate")
        fi
    done
}

# Answers with files that go on from what stands after the last comma of $1.
_kineo_files() {
    local typed=$1 before='' file
    [[ $typed == *,* ]] && before=${typed%,*},
    while IFS= read -r file; do
        COMPREPLY+=("$before$file")
    done < <(compgen -f -- "${typed##*,}")
    compopt -o filenames 2>/dev/null
}

# Answers with the options of command $1 that go on from $2 and weren't given yet.
_kineo_left() {
    local option given=" ${COMP_WORDS[*]:2:COMP_CWORD-2} "
    for option in $(_kineo_options "$1"); do
        if [[ $option == "$2"* && $given != *" $option "* ]]; then
            COMPREPLY+=("$option")
        fi
    done
}

_kineo() {
    local typed=${COMP_WORDS[COMP_CWORD]} option=${COMP_WORDS[COMP_CWORD-1]}
    COMPREPLY=()
    if [ "$COMP_CWORD" -eq 1 ]; then
        _kineo_list "$typed" replay demo
        return
    fi
    # bash parts `--name=value` at the `=`.
    if [ "$typed" = = ]; then
        typed=''
    elif [ "$option" = = ]; then
        option=${COMP_WORDS[COMP_CWORD-2]}
    fi
    case $option in
        --script) _kineo_files "$typed" ;;
        --feeds) _kineo_files "$typed" ;;
        --rules) _kineo_list "$typed" in out said tags rank expo hops close ;;
        --parts | --landmarks | --top | --seed | --records) ;;
        *) _kineo_left "${COMP_WORDS[1]}" "$typed" ;;
    esac
}

complete -F _kineo kineo
