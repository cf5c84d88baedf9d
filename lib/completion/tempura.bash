# Completion of tempura, and of the tools beside it, for bash.

_tempura() {
    local word=${COMP_WORDS[COMP_CWORD]} before=${COMP_WORDS[COMP_CWORD - 1]} first at
    local options="--inputs --states --reductions --order --trace --use --seconds --megabytes"
    COMPREPLY=()
    # bash takes `--order=last` for three words
    if [[ $word == = ]]; then
        word=
    elif [[ $before == = ]]; then
        before=${COMP_WORDS[COMP_CWORD - 2]}
    fi
    for ((at = 1; at < COMP_CWORD; at++)); do
        if [[ ${COMP_WORDS[at]} != --last ]]; then
            first=${COMP_WORDS[at]}
            break
        fi
    done
    case $before in
    --inputs | --with)
        mapfile -t COMPREPLY < <(compgen -f -- "$word")
        return
        ;;
    --order)
        mapfile -t COMPREPLY < <(compgen -W "first last" -- "$word")
        return
        ;;
    --use)
        mapfile -t COMPREPLY < <(compgen -W "bits lists signals" -- "$word")
        return
        ;;
    --states | --reductions | --seconds | --megabytes | -e) return ;;
    esac
    case $first in
    "") mapfile -t COMPREPLY < <(compgen -W "run print convert check drill explain --cases --last --build --attest --version --help" -- "$word") ;;
    run | print | --cases)
        if [[ $word == -* ]]; then
            mapfile -t COMPREPLY < <(compgen -W "$options $([[ $first == --cases ]] || printf %s -e)" -- "$word")
        else
            mapfile -t COMPREPLY < <(compgen -f -X '!*.tempura' -- "$word"; compgen -d -- "$word")
            ((${#COMPREPLY[@]})) || mapfile -t COMPREPLY < <(compgen -f -- "$word")
        fi
        ;;
    convert) mapfile -t COMPREPLY < <(compgen -f -- "$word") ;;
    check)
        if [[ $word == -* ]]; then
            mapfile -t COMPREPLY < <(compgen -W "--with" -- "$word")
        else
            mapfile -t COMPREPLY < <(compgen -f -- "$word")
        fi
        ;;
    drill) [[ $word != -* ]] || mapfile -t COMPREPLY < <(compgen -W "--states --reductions --order" -- "$word") ;;
    explain)
        mapfile -t COMPREPLY < <(compgen -W "$("${COMP_WORDS[0]}" explain 2>/dev/null | tr ' ' '\n')" -- "$word")
        compopt +o filenames
        ;;
    --attest) mapfile -t COMPREPLY < <(compgen -d -- "$word") ;;
    esac
}

# what a tool can be told stands in its page
_tempura_tool() {
    local word=${COMP_WORDS[COMP_CWORD]} before=${COMP_WORDS[COMP_CWORD - 1]}
    COMPREPLY=()
    if [[ $word == = ]]; then
        word=
    elif [[ $before == = ]]; then
        before=${COMP_WORDS[COMP_CWORD - 2]}
    fi
    case $before:$word in
    --use:*) mapfile -t COMPREPLY < <(compgen -W "bits lists signals" -- "$word") ;;
    --ports:* | --states:* | --random:* | --seed:*) ;;
    --clock:* | --when:* | --signals:* | --scope:* | --signed:* | --rename:* | --format:*) ;;
    --most:* | --from:* | --to:* | --every:*) ;;
    *:-*)
        mapfile -t COMPREPLY < <(compgen -W "$("${COMP_WORDS[0]}" --help 2>/dev/null |
            sed -n 's/^  \(--[a-z-]*\) .*/\1/p')" -- "$word")
        ;;
    *) mapfile -t COMPREPLY < <(compgen -f -- "$word") ;;
    esac
}

complete -o filenames -F _tempura tempura
complete -o filenames -F _tempura_tool tempura-core tempura-diff tempura-judge tempura-lint tempura-sweep tempura-why vcd-inputs vcd-trace
