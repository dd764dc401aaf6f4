# Completion of man-page for bash: its words, names of pages by section, files.
# shellcheck disable=SC2207 # what is read has a line for each word
_man_page() {
    local word=${COMP_WORDS[COMP_CWORD]} before=${COMP_WORDS[COMP_CWORD - 1]} earlier section=() IFS=$'\n'
    COMPREPLY=()
    case $before in
    -M | --manpath | -C | --config-file)
        compopt -o filenames
        COMPREPLY=($(compgen -d -- "$word"))
        return
        ;;
    -P | --pager) COMPREPLY=($(compgen -c -- "$word")) && return ;;
    -s | -S | --sections) COMPREPLY=($(compgen -W $'1\n2\n3\n4\n5\n6\n7\n8' -- "$word")) && return ;;
    -[LmrEpO] | --locale | --systems | --prompt | --encoding | --preprocessor | --option) return ;;
    esac
    case $word in
    -*)
        COMPREPLY=($(compgen -W $'-a\n-f\n-i\n-I\n-k\n-K\n-l\n-L\n-m\n-M\n-O\n-P\n-r\n-s\n-w\n--all\n--apropos\n--ascii\n--faces
--global-apropos\n--help\n--ignore-case\n--limits\n--links\n--local-file\n--locale\n--manpath\n--match-case\n--names\n--no-subpages
--option\n--pager\n--prompt\n--sections\n--sgr\n--systems\n--version\n--warnings\n--whatis\n--where' -- "$word"))
        return
        ;;
    */*)
        compopt -o filenames
        COMPREPLY=($(compgen -f -- "$word"))
        return
        ;;
    esac
    for earlier in "${COMP_WORDS[@]:1:COMP_CWORD-1}"; do
        case $earlier in
        -l | --local-file)
            compopt -o filenames
            COMPREPLY=($(compgen -f -- "$word"))
            return
            ;;
        [0-9] | [0-9][a-z]* | n | l) section=(-s "$earlier") ;;
        esac
    done
    COMPREPLY=($(man-page "${section[@]}" --names -- "$word" 2>/dev/null | sed 's/(.*//' | sort -u))
}
complete -F _man_page man-page
