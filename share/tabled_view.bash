# Completions of tabled_view for bash.
_tabled_view() {
    local word=${COMP_WORDS[COMP_CWORD]} before=${COMP_WORDS[COMP_CWORD-1]}
    case $before in
        -s|--style) COMPREPLY=($(compgen -W 'empty blank ascii psql markdown modern sharp rounded modern_rounded extended dots re_structured_text ascii_rounded' -- "$word")); return ;;
        -C|--color) COMPREPLY=($(compgen -W 'auto always never' -- "$word")); return ;;
        --frame-color) COMPREPLY=($(compgen -W 'black red green yellow blue magenta cyan white' -- "$word")); return ;;
        -d|--separator|--columns|-n|--head|-t|--title|--footer|-l|--left|--center|-r|--right|-o|--outline|-m|--mark|-w|--width) return ;;
    esac
    if [[ $word == -* ]]; then
        COMPREPLY=($(compgen -W '--csv --spaces --separator --fill --header --no-header --columns --head --row-numbers --style --title --footer --left --center --right --no-numbers --outline --mark --width --terminal --wrap --truncate --color --stripes --frame-color --raw --help --version --styles' -- "$word"))
    else
        COMPREPLY=($(compgen -f -- "$word"))
    fi
}
complete -o filenames -F _tabled_view tabled_view
