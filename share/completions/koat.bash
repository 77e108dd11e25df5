# Completions of `koat` for bash.
_koat() {
    local word=${COMP_WORDS[COMP_CWORD]} before=${COMP_WORDS[COMP_CWORD - 1]} command=${COMP_WORDS[1]}
    local ending='!*.@(koat|its)'
    COMPREPLY=()
    if [ "$COMP_CWORD" = 1 ]; then
        COMPREPLY=($(compgen -W 'best facts analyse prove certify check replay lasso lp while translate generate selfrun --help --version' -- "$word"))
        return
    fi
    case $before:$command:$word in
        --pivots:*) COMPREPLY=($(compgen -W '10000 100000 1000000' -- "$word")) && return ;;
        *:best:-* | *:analyse:-* | *:prove:-* | *:facts:-* | *:certify:-* | *:while:-*)
            COMPREPLY=($(compgen -W '--pivots' -- "$word")) && return ;;
        *:generate:* | *:selfrun:*) return ;;
    esac
    [ "$command" != lp ] || ending='!*.lp'
    case $command in while | translate) ending='!*.while' ;; esac
    [ "$COMP_CWORD" = 2 ] || [ "$command" != check ] || ending='!*.proof'
    [ "$COMP_CWORD" = 2 ] || [ "$command" != replay ] || ending='!*.run'
    [ "$COMP_CWORD" = 2 ] || [ "$command" != lasso ] || ending='!*.lasso'
    local IFS=$'\n'
    compopt -o filenames 2>/dev/null
    shopt -q extglob || { local on=1 && shopt -s extglob; }
    COMPREPLY=($(compgen -d -- "$word") $(compgen -f -X "$ending" -- "$word"))
    [ -z "$on" ] || shopt -u extglob
    [ ${#COMPREPLY[@]} != 0 ] || COMPREPLY=($(compgen -f -- "$word"))
}
complete -F _koat koat
