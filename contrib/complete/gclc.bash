# Completion of gclc for bash: first the forms, then the files and options of the form.

_gclc_usage='svg FILE, latex FILE, system FILE, show FILE, prove FILE [--workers N], check LOG [FILE], trial NUMBER WORKERS, sample FILE, carry LOG FILE FIGURE'

# The files that end as asked, and folders.
_gclc_files() {
    compopt -o filenames
    mapfile -t COMPREPLY < <(compgen -f -X "!*.$1" -- "$2"; compgen -d -- "$2")
}

_gclc() {
    local current=${COMP_WORDS[COMP_CWORD]} forms form words=() word files=0 place=0 options=()
    COMPREPLY=()
    IFS=, read -r -a forms <<<"${_gclc_usage//, /,}"
    if ((COMP_CWORD == 1)); then
        mapfile -t COMPREPLY < <(compgen -W "${forms[*]%% *}" -- "$current")
        return
    fi
    for form in "${forms[@]}"; do
        [[ ${form%% *} == "${COMP_WORDS[1]}" ]] && read -r -a words <<<"${form//[\[\]]/}"
    done
    if [[ ${COMP_WORDS[COMP_CWORD - 1]} == --workers ]]; then
        mapfile -t COMPREPLY < <(compgen -W "1 2 4 8 16" -- "$current")
        return
    fi
    # How many files are named already; the next one that the form names is completed.
    for word in "${COMP_WORDS[@]:2:COMP_CWORD - 2}"; do
        case $word in
            --workers) files=$((files - 1)) ;;
            *) files=$((files + 1)) ;;
        esac
    done
    for word in "${words[@]:1}"; do
        case $word in
            --*) [[ " ${COMP_WORDS[*]} " == *" $word "* ]] || options+=("$word") ;;
            FILE | LOG | FIGURE)
                if ((place++ == files)) && [[ $current != -* ]]; then
                    if [[ $word == LOG ]]; then _gclc_files log "$current"; else _gclc_files gcl "$current"; fi
                fi
                ;;
        esac
    done
    ((files > 0)) && mapfile -t -O ${#COMPREPLY[@]} COMPREPLY < <(compgen -W "${options[*]}" -- "$current")
}

complete -o default -F _gclc gclc
