# Completes the words of vq and of its tools in bash: source this file, or let tools/install put it where bash looks.
_vq() {
    COMPREPLY=()
    # Only a first word is completed.
    if [ "$COMP_CWORD" -eq 1 ]; then
        mapfile -t COMPREPLY < <(compgen -W '--check --upgrade --replay --rounds --audit --hosts --generate' -- "${COMP_WORDS[1]}")
    fi
}

# The options of a tool, and the values that an option takes; else names of files.
_vq_tool() {
    local word=${COMP_WORDS[COMP_CWORD]} before=${COMP_WORDS[COMP_CWORD - 1]} options formats=
    case ${1##*/} in
        vq-run) options='--vq --check --upgrade --replay --rounds --audit --hosts --generate --help --version' ;;
        vq-explain) options='--vq --format --faults --no-warnings --help --version' formats='text gcc json' ;;
        vq-draw) options='--script --turns --help --version' ;;
        vq-race) options='--memory --vqc --help --version' ;;
        vq-order) options='--vq --format --help --version' formats='svg dot' ;;
        *) options='--rounds --random --starve --all --seed --turns --vq --help --version' ;;
    esac
    if [ "$before" = --format ]; then
        mapfile -t COMPREPLY < <(compgen -W "$formats" -- "$word")
    elif [ "${word:0:1}" = - ]; then
        mapfile -t COMPREPLY < <(compgen -W "$options" -- "$word")
    else
        mapfile -t COMPREPLY < <(compgen -f -- "$word")
    fi
}
complete -F _vq vq
complete -o filenames -F _vq_tool vq-run vq-explain vq-draw vq-order vq-schedule vq-race
