# Completion of `confsolve`, `confsolve-view` and `confsolve-site` for bash: commands, options with
# their values, and files by their place among the words. It needs no other package. `. completions/confsolve.bash`
# takes it into a shell; tools/install puts it where bash-completion looks.

# Adds what begins as the word does, of the words given.
_confsolve_words() {
    local word
    for word in "$@"; do
        [[ $word != "$_confsolve_current"* ]] || COMPREPLY+=("$word")
    done
}

# Adds folders, and files with this ending; all files without an ending, or where no file has it.
_confsolve_files() {
    local file found=
    compopt -o filenames 2>/dev/null
    while IFS= read -r file; do
        if [ -d "${file/#\~\//$HOME/}" ]; then
            COMPREPLY+=("$file")
        elif [[ $file == *"${1-}" ]]; then
            COMPREPLY+=("$file")
            found=1
        fi
    done < <(compgen -f -- "$_confsolve_current")
    [ -n "$found" ] || [ -z "${1-}" ] || { COMPREPLY=(); _confsolve_files; }
}

# Reads the words up to the one that is completed. Sets that one, `_confsolve_current`; the option
# whose value it is, `_confsolve_option`; the words before it that are neither options nor values,
# `_confsolve_plain`; and `_confsolve_named`, where a `--` stands before it. The options that take a
# value are given. Bash splits `--order=small` into three words.
_confsolve_read() {
    local at word
    _confsolve_current=${COMP_WORDS[COMP_CWORD]}
    _confsolve_option=
    _confsolve_plain=()
    _confsolve_named=
    for ((at = 1; at < COMP_CWORD; at++)); do
        word=${COMP_WORDS[at]}
        if [ -n "$_confsolve_option" ]; then
            [ "$word" = = ] || _confsolve_option=
        elif [ -n "$_confsolve_named" ]; then
            _confsolve_plain+=("$word")
        elif [ "$word" = -- ]; then
            _confsolve_named=1
        elif [[ " $* " == *" $word "* ]]; then
            _confsolve_option=$word
        elif [[ $word != -?* ]]; then
            _confsolve_plain+=("$word")
        fi
    done
    [ -z "$_confsolve_option" ] || [ "$_confsolve_current" != = ] || _confsolve_current=
}

_confsolve() {
    local _confsolve_current _confsolve_option _confsolve_plain _confsolve_named place
    COMPREPLY=()
    _confsolve_read --budget --order --log
    case $_confsolve_option in
        --budget) return ;;
        --order) _confsolve_words first small former; return ;;
        --log) _confsolve_files; return ;;
    esac
    if [ ${#_confsolve_plain[@]} -eq 0 ]; then
        _confsolve_words solve reconfigure session core check verify gen
        [[ $_confsolve_current != -* ]] || _confsolve_words --help --version --prove
        return
    fi
    if [[ -z $_confsolve_named && $_confsolve_current == -* ]]; then
        case ${_confsolve_plain[0]} in
            solve | reconfigure) _confsolve_words --budget --order --log -- ;;
            session | core) _confsolve_words --budget --order -- ;;
            check | verify) _confsolve_words -- ;;
        esac
        return
    fi
    place=${_confsolve_plain[0]}:${#_confsolve_plain[@]}
    case $place in
        solve:1 | reconfigure:1 | session:1 | core:1 | check:1 | verify:1) _confsolve_files .conf ;;
        reconfigure:2 | session:2 | verify:2 | check:3) _confsolve_files .json ;;
        check:2 | session:3) _confsolve_files ;;
    esac
}

_confsolve_view() {
    local _confsolve_current _confsolve_option _confsolve_plain _confsolve_named
    COMPREPLY=()
    _confsolve_read --failed --by-way --only --weights
    [ -z "$_confsolve_option" ] || return
    case ${_confsolve_plain[0]-}:${#_confsolve_plain[@]} in
        :0)
            _confsolve_words plan picture steps breaks page
            [[ $_confsolve_current != -* ]] || _confsolve_words --help --version --prove
            ;;
        plan:1 | plan:2 | picture:1 | steps:1 | steps:2 | breaks:2 | page:1) _confsolve_files .json ;;
        breaks:1) _confsolve_files .conf ;;
        page:2) _confsolve_files ;;
        plan:*) [[ $_confsolve_current != -* ]] || _confsolve_words --only --weights --table ;;
        picture:*) [[ $_confsolve_current != -* ]] || _confsolve_words --svg --table --failed ;;
        steps:*) [[ $_confsolve_current != -* ]] || _confsolve_words --failed --by-way ;;
    esac
}

_confsolve_site() {
    local _confsolve_current _confsolve_option _confsolve_plain _confsolve_named
    COMPREPLY=()
    _confsolve_read --goal --extra --from
    case $_confsolve_option in
        --goal) _confsolve_words none fewest keep spread:; return ;;
        --extra) _confsolve_files .conf; return ;;
        --from) _confsolve_files .json; return ;;
    esac
    case ${_confsolve_plain[0]-}:${#_confsolve_plain[@]} in
        :0)
            _confsolve_words model former table
            [[ $_confsolve_current != -* ]] || _confsolve_words --help --version --prove
            ;;
        *:1 | *:2 | former:3) _confsolve_files .csv ;;
        model:3)
            if [[ $_confsolve_current == -* ]]; then
                _confsolve_words --goal --extra
            else
                _confsolve_files .csv
            fi
            ;;
        model:4) [[ $_confsolve_current != -* ]] || _confsolve_words --goal --extra ;;
        table:3) _confsolve_files .json ;;
        table:4) [[ $_confsolve_current != -* ]] || _confsolve_words --from ;;
    esac
}

complete -F _confsolve confsolve
complete -F _confsolve_view confsolve-view
complete -F _confsolve_site confsolve-site
