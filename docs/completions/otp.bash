# Completions of otp for bash: source this file.
_otp() {
    local commands="prove settle explain check least bound confirm audit same reverse integrate replay hub trace template mend drill"
    local word=${COMP_WORDS[COMP_CWORD]} command=${COMP_WORDS[1]} ending=
    COMPREPLY=()
    if [ "$COMP_CWORD" -eq 1 ]; then
        COMPREPLY=($(compgen -W "$commands help --help --version" -- "$word"))
        return
    fi
    case $command:$word in
        help:*) [ "$COMP_CWORD" -eq 2 ] && COMPREPLY=($(compgen -W "$commands" -- "$word")); return ;;
        prove:-*|settle:-*) COMPREPLY=($(compgen -W "--tp1 --budget" -- "$word")); return ;;
        explain:-*) COMPREPLY=($(compgen -W "--tp1" -- "$word")); return ;;
        trace:-*) COMPREPLY=($(compgen -W "--session --hub" -- "$word")); return ;;
        least:-*) COMPREPLY=($(compgen -W "--cert" -- "$word")); return ;;
        template:-*) COMPREPLY=($(compgen -W "--tp1 --sites-differ --chars-differ" -- "$word")); return ;;
        template:*) COMPREPLY=($(compgen -W "plain tomb ins del upd" -- "$word")); return ;;
        mend:-*) COMPREPLY=($(compgen -W "--tp1 --edits --budget" -- "$word")); return ;;
        drill:*) COMPREPLY=($(compgen -W "$(seq 16)" -- "$word")); return ;;
    esac
    # The first file is a function; a second one is what the command reads beside it.
    [ "$COMP_CWORD" -eq 2 ] && ending=.ot
    compopt -o filenames 2>/dev/null
    COMPREPLY=($(compgen -f -X "!*$ending" -- "$word") $(compgen -d -- "$word"))
}
complete -F _otp otp ./otp
