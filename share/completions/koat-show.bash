# Completions of `koat-show` for bash.
_koat_show() {
    local word=${COMP_WORDS[COMP_CWORD]} command=${COMP_WORDS[1]} options='--best --facts --pivots --seconds --help'
    COMPREPLY=()
    if [ "$COMP_CWORD" = 1 ]; then
        COMPREPLY=($(compgen -W 'explain lint json class at run proof page many serve gallery endless --help' -- "$word"))
        return
    fi
    case $command in
        page) options="$options --without-picture --run" ;;
        json) options="$options --run --proof" ;;
        gallery) options="$options --jobs" ;;
        proof) options="$options --proof" ;;
        run) options="$options --steps --seed" ;;
        many) options="$options --jobs --memory --resume --retry --html --pages --part" ;;
        serve) options='--port --seconds --memory --help' ;;
    esac
    case $word in
        -*) COMPREPLY=($(compgen -W "$options" -- "$word")) ;;
        *) local IFS=$'\n'
           compopt -o filenames 2>/dev/null
           COMPREPLY=($(compgen -f -- "$word")) ;;
    esac
}
complete -F _koat_show koat-show
