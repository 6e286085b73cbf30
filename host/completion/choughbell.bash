# Completion of the command in bash: commands, the options that each takes, numbers of explain, and files.
_choughbell() {
    local word=$2 before=$3 command=${COMP_WORDS[1]} options
    COMPREPLY=()
    if [ "$COMP_CWORD" = 1 ]; then
        mapfile -t COMPREPLY < <(compgen -W 'cut rows check batch pack unpack covers mend show explain --help --version' -- "$word")
        return
    fi
    case $command in
    cut) options='--list --path --packed --output --count --each --plain --quiet --json' ;;
    rows) options='--list --path --packed --output --quiet --json' ;;
    check) options='--quiet --json' ;;
    batch) options='--list --path --packed --output --folder --quiet --json' ;;
    pack | unpack | mend) options='--output --quiet --json' ;;
    show) options='--list --path --packed --output --quiet' ;;
    covers) options='--narrow --wide --packed --quiet --json' ;;
    explain) options= ;;
    *) return ;;
    esac
    case $before in
    -e | --path) return ;;
    -d | --folder) mapfile -t COMPREPLY < <(compgen -d -- "$word") && return ;;
    -l | --list | -o | --output | --narrow | --wide) mapfile -t COMPREPLY < <(compgen -f -- "$word") && return ;;
    esac
    case $word in
    -*) mapfile -t COMPREPLY < <(compgen -W "$options --help --version" -- "$word") ;;
    *) if [ "$command" = explain ]; then
        mapfile -t COMPREPLY < <(compgen -W '0 1 2 3 4 5 6 7 8 9 10 11 12 13 20 64 66 73 74' -- "$word")
    elif [ "$command" != covers ]; then
        mapfile -t COMPREPLY < <(compgen -f -- "$word")
    fi ;;
    esac
}
complete -o filenames -F _choughbell choughbell
