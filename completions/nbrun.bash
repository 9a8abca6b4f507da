# Completions of nbrun for bash. Files follow most options; a value that is no file gets none.
_nbrun() {
    local word=$2 before=$3
    if [[ ${COMP_WORDS[1]} == report && $COMP_CWORD == 2 ]]; then
        COMPREPLY=($(compgen -W "script page notebook" -- "$word"))
        return
    fi
    if [[ $COMP_CWORD == 1 && -n $word && graph == "$word"* ]]; then
        COMPREPLY=(graph)
        return
    fi
    case $before in
    -p | --parameters | -r | --parameters_raw | --start-timeout | --execution-timeout | --allow-error-name | --exercise) return ;;
    -k | --kernel)
        local folder found=()
        for folder in /usr/local/share/jupyter/kernels /usr/share/jupyter/kernels; do
            [ -d "$folder" ] && found+=("$(ls "$folder")")
        done
        COMPREPLY=($(compgen -W "${found[*]}" -- "$word"))
        return
        ;;
    --kernel-path | --cwd)
        compopt -o filenames
        COMPREPLY=($(compgen -d -- "$word"))
        return
        ;;
    esac
    if [[ $word == -* ]]; then
        COMPREPLY=($(compgen -W "--help -h --version --jobs --exercise -p --parameters -r --parameters_raw -k --kernel --kernel-path --cwd \
            --start-timeout --execution-timeout --prepare-only --report-mode --merge-streams --allow-errors --allow-error-name --interrupt \
            --no-heartbeat" -- "$word"))
        return
    fi
    compopt -o filenames
    COMPREPLY=($(compgen -f -- "$word"))
}
complete -F _nbrun nbrun
