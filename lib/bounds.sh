# Bounds for a run from outside: seconds of the processor, and megabytes of memory. Read by bin/tempura, which sets
# `seconds` and `megabytes`, each empty where there is no such bound.
# shellcheck shell=sh disable=SC2154,SC3045 # what its reader sets; the letters of ulimit, which each sh of Linux has

# Refuses the words for the sake of an option that sets a bound.
refuse_bound() {
    echo "tempura: $1 stands once, with a whole number from $(least_bound "$1") to 1000000" >&2
    echo "words refused"
    exit 12
}

# the least that an option sets: with much less memory the program isn't started
least_bound() {
    case $1 in
    --megabytes) echo 16 ;;
    *) echo 1 ;;
    esac
}

# Keeps the bound that an option sets. Where the call itself has less already, that is the bound.
keep_bound() {
    case $2 in
    '' | *[!0-9]* | ????????*) refuse_bound "$1" ;;
    esac
    if [ "$2" -lt "$(least_bound "$1")" ] || [ "$2" -gt 1000000 ]; then refuse_bound "$1"; fi
    number=$2
    while [ "${number#0}" != "$number" ]; do number=${number#0}; done
    case $1 in
    --seconds)
        [ -z "$seconds" ] || refuse_bound "$1"
        had=$(ulimit -t) seconds=$number
        [ "$had" = unlimited ] || [ "$had" -ge "$seconds" ] || seconds=$had
        ;;
    --megabytes)
        [ -z "$megabytes" ] || refuse_bound "$1"
        had=$(ulimit -v) megabytes=$number
        [ "$had" = unlimited ] || [ "$((had / 1024))" -ge "$megabytes" ] || megabytes=$((had / 1024))
        ;;
    esac
}

# Bounds this process and what it becomes. At the end of the seconds comes a signal that tells, and one second later one
# that nothing withstands; no dump of the memory is left behind.
set_bounds() {
    ulimit -c 0
    if [ -n "$seconds" ]; then
        ulimit -S -t "$seconds" || return
        had=$(ulimit -H -t)
        [ "$had" != unlimited ] && [ "$had" -le "$((seconds + 1))" ] || ulimit -H -t "$((seconds + 1))" || return
    fi
    [ -z "$megabytes" ] || ulimit -v "$((megabytes * 1024))"
}

# Runs the program on these words, within the bounds where there are some. A run that is past one ends with 21, and
# standard error says which. A signal that would end this script ends the run first.
run_program() {
    if [ -z "$seconds$megabytes" ]; then
        "$program" "$@"
        return
    fi
    exec 8<&0 # what runs beside a shell would have no input
    (
        set_bounds || exit 20
        exec "$program" "$@" <&8 8<&-
    ) &
    run=$!
    exec 8<&-
    for signal in HUP INT TERM; do
        # shellcheck disable=SC2064 # this signal, and this run
        trap "kill $run; trap - $signal; kill -s $signal $$" "$signal"
    done
    exec 7>&2 2>/dev/null # where a shell says what it thinks of the signal by which a run ends
    wait "$run"
    status=$?
    exec 2>&7 7>&-
    trap - HUP INT TERM
    tell_bound
    return "$status"
}

# Says which bound a run is past, by its status, and sets that to 21; or that it was ended by another signal.
tell_bound() {
    signal=
    [ "$status" -le 128 ] || signal=$(kill -l "$status" 2>/dev/null)
    case $seconds:$megabytes:$status:$signal in
    *:?*:16:)
        echo "tempura: the run was past --megabytes $megabytes, and was refused memory" >&2
        status=21
        ;;
    ?*:*:XCPU)
        echo "tempura: the run was past --seconds $seconds, and was ended" >&2
        status=21
        ;;
    *:[A-Z]*) echo "tempura: the run was ended by the signal $signal" >&2 ;;
    esac
}
