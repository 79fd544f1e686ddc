# Completion of html2text for bash.
_html2text() {
    local word=${COMP_WORDS[COMP_CWORD]} before=${COMP_WORDS[COMP_CWORD - 1]}
    # bash takes `--references=file` apart at the `=`.
    if [[ $word == = ]]; then
        word=
    elif [[ $before == = ]]; then
        before=${COMP_WORDS[COMP_CWORD - 2]}
    fi
    case $before in
    --width | --max-bytes)
        COMPREPLY=()
        ;;
    --references)
        COMPREPLY=($(compgen -f -- "$word"))
        ;;
    *)
        if [[ $word == -* ]]; then
            local options='--width --rich --no-decorate --footnotes --shared-footnotes --references --max-bytes --help'
            COMPREPLY=($(compgen -W "$options" -- "$word"))
        else
            COMPREPLY=($(compgen -f -- "$word"))
        fi
        ;;
    esac
}
complete -o filenames -F _html2text html2text
