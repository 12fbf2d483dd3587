# Completion of puigneht for bash: commands and options are those of its own --help; then the values that an option
# takes, and files: DSF files, and folders.

_puigneht_files() {
    local IFS=$'\n'
    compopt -o filenames 2> /dev/null
    COMPREPLY=($(compgen -d -- "$2"))
    COMPREPLY+=($(compgen -f -- "$2" | grep -iE "$1"))
}

_puigneht() {
    local word=${COMP_WORDS[COMP_CWORD]} before=${COMP_WORDS[COMP_CWORD - 1]} help
    # --rate=VALUE comes as three words
    [ "$before" = = ] && before=${COMP_WORDS[COMP_CWORD - 2]}
    [ "$word" = = ] && { before=${COMP_WORDS[COMP_CWORD - 1]}; word=; }
    COMPREPLY=()
    case $before in
    -r | --rate) COMPREPLY=($(compgen -W '88200 176400 352800' -- "$word")); return ;;
    -c | --cutoff) COMPREPLY=($(compgen -W 'standard low wide' -- "$word")); return ;;
    --format) COMPREPLY=($(compgen -W 'auto wav rf64' -- "$word")); return ;;
    --by) COMPREPLY=($(compgen -W 'frame second minute' -- "$word")); return ;;
    -g | --gain | -j | --jobs) return ;;
    -s | --sheet | --taps) _puigneht_files '' "$word"; return ;;
    -o | --folder) _puigneht_files '^$' "$word"; return ;;
    -a | --album) _puigneht_files '\.wav$' "$word"; return ;;
    esac
    help=$("${COMP_WORDS[0]}" --help 2> /dev/null) || return
    if [[ $word == -* ]]; then
        COMPREPLY=($(compgen -W "$(grep -oE -- '(^|[ ,|[])--?[a-zA-Z][a-z-]*' <<< "$help" | tr -d ' ,|[' | sort -u)" -- "$word"))
        return
    fi
    if ((COMP_CWORD == 1)); then
        COMPREPLY=($(compgen -W "$(sed -nE 's/^( *|usage: )puigneht \[?([a-z]+)\]?( .*|$)/\2/p' <<< "$help")" -- "$word"))
        [ ${#COMPREPLY[@]} = 0 ] || [ -z "$word" ] || return
        local commands=("${COMPREPLY[@]}")
        _puigneht_files '\.dsf$' "$word"
        COMPREPLY=("${commands[@]}" "${COMPREPLY[@]}")
        return
    fi
    _puigneht_files '\.(dsf|wav)$' "$word"
}

complete -F _puigneht puigneht
