# Completion of tempura-course for bash.

_tempura_course() {
    local word=${COMP_WORDS[COMP_CWORD]} before=${COMP_WORDS[COMP_CWORD - 1]} mode=${COMP_WORDS[1]} at lessons=
    COMPREPLY=()
    for ((at = 1; at <= 12; at++)); do
        lessons+=$(printf '%02d-mend %02d-write ' "$at" "$at")" "
    done
    # bash takes `--lesson=04-mend` for three words
    if [[ $word == = ]]; then
        word=
    elif [[ $before == = ]]; then
        before=${COMP_WORDS[COMP_CWORD - 2]}
    fi
    case $before in
    --with | --course)
        mapfile -t COMPREPLY < <(compgen -d -- "$word")
        return
        ;;
    check | --lesson)
        mapfile -t COMPREPLY < <(compgen -W "$lessons" -- "$word")
        return
        ;;
    --seconds | --memory) return ;;
    esac
    if ((COMP_CWORD == 1)); then
        mapfile -t COMPREPLY < <(compgen -W "check grade --help" -- "$word")
        return
    fi
    case $mode:$word in
    check:-*) mapfile -t COMPREPLY < <(compgen -W "--with --course --seconds --memory" -- "$word") ;;
    grade:-*) mapfile -t COMPREPLY < <(compgen -W "--lesson --with --course --seconds --memory" -- "$word") ;;
    check:*) mapfile -t COMPREPLY < <(compgen -f -- "$word") ;;
    grade:*) mapfile -t COMPREPLY < <(compgen -d -- "$word") ;;
    esac
}

complete -o filenames -F _tempura_course tempura-course
