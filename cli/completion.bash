# Bash completion for mirvashol: commands, their options, and files by what they are (.spt tables, .spl lists, .spx traces) where
# such files are there, else any file. `install` puts it below PREFIX/share/bash-completion/completions.

# _mirvashol_files WORD EXTENSION..: files with one of the extensions, and folders. Where there are none, readline's own completion
# offers any file.
_mirvashol_files() {
    local word=$1 file extension
    shift
    while IFS= read -r file; do
        for extension; do
            case $file in
            *."$extension") COMPREPLY+=("$file") ;;
            esac
        done
    done < <(compgen -f -- "$word")
    while IFS= read -r file; do
        COMPREPLY+=("$file")
    done < <(compgen -d -- "$word")
}

_mirvashol() {
    local word=${COMP_WORDS[COMP_CWORD]} before=${COMP_WORDS[COMP_CWORD - 1]} command=${COMP_WORDS[1]}
    local commands="compile types judge run show explain install build demo test bench help"
    COMPREPLY=()
    compopt -o filenames 2>/dev/null

    if [ "$COMP_CWORD" = 1 ]; then
        compopt +o filenames 2>/dev/null
        mapfile -t COMPREPLY < <(compgen -W "$commands --help --version" -- "$word")
        return
    fi

    # What an option takes.
    case $before in
    --table)
        _mirvashol_files "$word" spt
        return
        ;;
    -o | --values | --log) return ;;
    esac

    # Options, unless `--` has ended them.
    local i ended="" place=0
    for ((i = 2; i < COMP_CWORD; i++)); do
        case ${COMP_WORDS[i]} in
        --) ended=yes ;;
        -o | --table | --values | --log) [ -n "$ended" ] && place=$((place + 1)) || i=$((i + 1)) ;;
        -?*) [ -z "$ended" ] || place=$((place + 1)) ;;
        *) place=$((place + 1)) ;;
        esac
    done
    case $ended$word in
    -*)
        local options="--help"
        case $command in
        compile | types) options="-o -q --help" ;;
        judge | run) options="-q --help" ;;
        show) options="--table --values --log --help" ;;
        esac
        compopt +o filenames 2>/dev/null
        mapfile -t COMPREPLY < <(compgen -W "$options" -- "$word")
        return
        ;;
    esac

    # Names, by their place among the names.
    case $command-$place in
    compile-0 | types-0 | judge-0 | run-0) _mirvashol_files "$word" spt ;;
    judge-* | run-1) _mirvashol_files "$word" spl ;;
    run-2) _mirvashol_files "$word" spx ;;
    show-0) _mirvashol_files "$word" spt spl spx ;;
    explain-0)
        compopt +o filenames 2>/dev/null
        mapfile -t COMPREPLY < <(compgen -W "refused ending 1 2 3 4 5 6 7 8 9 10 11 12 13 14 15" -- "$word")
        ;;
    help-0)
        compopt +o filenames 2>/dev/null
        mapfile -t COMPREPLY < <(compgen -W "$commands" -- "$word")
        ;;
    esac
}
complete -o default -F _mirvashol mirvashol
