# Completion of bash for omf, omf_map, omf_expand, and omf-explain, -depends, -compare, -headers and -picture. Read it by `source`, or put it where bash-completion looks.

# _omf_files WORD ENDING..: paths that begin so with one of these endings, or none, and folders.
_omf_files() {
    local word=$1 path ending
    shift
    COMPREPLY=()
    while IFS= read -r path; do
        if [ -d "$path" ]; then
            COMPREPLY+=("$path")
            continue
        fi
        for ending in "$@"; do
            # shellcheck disable=SC2254
            case ${path##*/} in $ending) COMPREPLY+=("$path") && break ;; esac
        done
    done < <(compgen -f -- "$word")
    # Where nothing has such a name, any file will do.
    [ "${#COMPREPLY[@]}" -gt 0 ] || while IFS= read -r path; do COMPREPLY+=("$path"); done < <(compgen -f -- "$word")
    compopt -o filenames 2>/dev/null
}

# _omf_word COMMAND PLACE WORD: what may be an argument of a command, at a place from 1.
_omf_word() {
    case $1:$2 in
    asm:1) _omf_files "$3" '*.s' '*.asm' ;;
    asm:2) mapfile -t COMPREPLY < <(compgen -W "$(_omf_object)" -- "$3") ;;
    asm:*) _omf_files "$3" '*macros*' '*.mac' ;;
    dump:1 | compact:1) _omf_files "$3" '*' ;;
    run:1) _omf_files "$3" '*script*' ;;
    list:1) _omf_files "$3" '*.o' ;;
    list:2) _omf_files "$3" '*.s' ;;
    linkrt:2) mapfile -t COMPREPLY < <(compgen -W '1 2 3 4 5 6 7 8 9 10 11 12 13 14 15 16' -- "$3") ;;
    lib:1 | link:1 | rtl:1 | linkrt:1 | compact:2) _omf_files "$3" '*' ;;
    lib:* | link:* | rtl:*) _omf_files "$3" '*.o' '*.lib' '*lib*' ;;
    linkrt:*) _omf_files "$3" '*' ;;
    omf_map:1) mapfile -t COMPREPLY < <(compgen -W "link rtl linkrt" -- "$3") ;;
    omf_map:2) if [ "$(_omf_mapped)" = linkrt ]; then _omf_word linkrt 2 "$3"; else _omf_word link 2 "$3"; fi ;;
    omf_map:*) _omf_word "$(_omf_mapped)" "$2" "$3" ;;
    omf_expand:1) _omf_files "$3" '*.s' '*.asm' ;;
    omf_expand:*) _omf_files "$3" '*macros*' '*.mac' ;;
    stress:* | dump:* | compact:* | run:* | list:*) COMPREPLY=() ;;
    esac
}

# The command whose link omf_map maps: it takes its arguments but for the output.
_omf_mapped() {
    local place
    for place in "${!COMP_WORDS[@]}"; do
        [[ ${COMP_WORDS[place]##*/} = omf_map ]] && printf '%s\n' "${COMP_WORDS[place + 1]}" && return
    done
}

# The name of the object of the source that was given: main.s makes main.o.
_omf_object() {
    local source=${COMP_WORDS[COMP_CWORD - 1]}
    printf '%s.o\n' "${source%.*}"
}

_omf() {
    # made: words of the shell
    local commands="asm lib link rtl linkrt dump compact run list stress" explained="asm lib link rtl linkrt dump compact run list omf_map omf_expand"
    # end
    local word=${COMP_WORDS[COMP_CWORD]} first=1
    [ "${COMP_WORDS[0]##*/}" = omf-explain ] && commands="$explained --all"
    # All faults are those of sources.
    [ "${COMP_WORDS[1]}" = --all ] && [ "$COMP_CWORD" -gt 1 ] && first=2 commands="asm omf_expand"
    if [ "$COMP_CWORD" -eq "$first" ]; then
        mapfile -t COMPREPLY < <(compgen -W "$commands" -- "$word")
    else
        _omf_word "${COMP_WORDS[first]}" $((COMP_CWORD - first)) "$word"
    fi
}

_omf_map() { _omf_word omf_map "$COMP_CWORD" "${COMP_WORDS[COMP_CWORD]}"; }

_omf_expand() { _omf_word omf_expand "$COMP_CWORD" "${COMP_WORDS[COMP_CWORD]}"; }

_omf_depends() {
    _omf_files "${COMP_WORDS[COMP_CWORD]}" '*.s' '*.asm'
}

# _omf_first_files MOST: any file, for as many arguments as that.
_omf_first_files() {
    COMPREPLY=()
    [ "$COMP_CWORD" -le "$1" ] && _omf_files "${COMP_WORDS[COMP_CWORD]}" '*'
}

_omf_compare() { _omf_first_files 3; }

_omf_headers() { _omf_first_files 1; }

_omf_picture() { _omf_first_files 1; }

complete -F _omf omf omf-explain
complete -F _omf_map omf_map
complete -F _omf_expand omf_expand
complete -F _omf_depends omf-depends
complete -F _omf_compare omf-compare
complete -F _omf_headers omf-headers
complete -F _omf_picture omf-picture
