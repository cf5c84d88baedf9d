# Answers by the same sources, compiled and not proved, where no proved program of them is there: by `rt try`, which
# compiles them anew for each call, and gives the output at the end, or none past its bounds. Read by bin/tempura.
# shellcheck shell=sh disable=SC2154 # what its reader sets

# what the program refuses as too long begins behind this
SOURCE_LIMIT=1048576
TABLE_LIMIT=16777216

say_unproved() {
    if ! command -v rt >/dev/null 2>&1; then
        if find_proved; then
            echo "tempura: a source is newer than the proved program, which --last runs; the command rt of the Rattle" \
                "toolchain, which builds a newer one, is not on the PATH" >&2
        else
            echo "tempura: no proved program is here, and the command rt of the Rattle toolchain, which proves and" \
                "builds it, is not on the PATH" >&2
        fi
        exit 20
    fi
    if find_proved; then
        echo "tempura: a source is newer than the proved program; so this answer, in a minute or two, comes from the" \
            "sources, compiled but not proved on this machine" >&2
        echo "tempura: --build proves and builds them once, in $(how_long), and then answers come at once; --last runs" \
            "the program of commit $(recorded commit)" >&2
    else
        echo "tempura: this answer, in a minute or two, comes from the same sources as the proved program, compiled but" \
            "not proved on this machine" >&2
        echo "tempura: bin/tempura --build proves and builds them once, in $(how_long), and then answers come at once" >&2
    fi
}

# Makes the folder `work`, which goes when this script ends.
make_work() {
    work=$(mktemp -d) || exit 20
    trap 'rm -rf "$work"; end_watch' EXIT
    trap 'exit 20' HUP INT PIPE TERM
}

waited() {
    echo "compiling the sources and running them, $(($(date +%s) - began)) seconds"
}

# a try with these words, whose output goes to `told` and `said`
try() {
    began=$(date +%s)
    begin_watch waited
    (cd "$here/crates/tempura" && exec rt try "$@") >"$work/told" 2>"$work/said" </dev/null
    end_watch
}

# The program ends with 20 where a word is no UTF-8.
stop_on_bytes() {
    python3 -c 'import os, sys; [os.fsencode(it).decode("utf-8") for it in sys.argv[1:]]' "$@" 2>/dev/null || exit 20
}

# Sets `given` to the whole path of a file, or of a copy of what is no file by its name, one byte longer than the limit
# at most; to nothing where it can't be read.
give() {
    given=
    if [ ! -r "$1" ] || [ -d "$1" ]; then
        return
    fi
    case $1 in
    /dev/* | /proc/*) ;;
    /*) [ ! -f "$1" ] || given=$1 ;;
    *) [ ! -f "$1" ] || given=$(pwd)/$1 ;;
    esac
    if [ -z "$given" ]; then
        given=$work/$3
        head -c "$(($2 + 1))" <"$1" >"$given" || given=
    fi
}

# why a try gave no answer, by what it wrote
why_no_answer() {
    if grep -q 'no-answer: the program wrote more than' "$1"; then
        echo "the run writes more than 1 MiB, which is the most that it can give without the proved program"
    elif grep -q 'no-answer: the program did not end within the time limit' "$1"; then
        echo "the run takes more than 60 seconds, which is the most that it has without the proved program"
    else
        echo "compiling the sources or running them gave no answer:"
        grep -v '^| ' "$1" | tail -n 6 | cut -c 1-200
    fi
}

# Shows the refused line that an end line names, of FILE as `given`, of TABLE as `given_table` or of TRACE as `given_trace`.
show_place() {
    if [ "$status" -eq 10 ] && [ -n "$given" ]; then
        point_where "$1" "$given"
    elif [ "$status" -eq 11 ] && [ -n "$given_table" ]; then
        point_at "${1#inputs refused: line }" 0 <"$given_table" >&2
    elif [ "$status" -eq 17 ] && [ -n "$given_trace" ]; then
        point_at "${1#other refused: line }" 0 <"$given_trace" >&2
    fi
}

# Tells what a try has answered, for FILE as `given`, TABLE as `given_table` and TRACE as `given_trace`, and ends with its
# status.
tell_answer() {
    line=$(tail -n 1 "$work/said")
    case $line in
    "run=ended status="*" proved=no")
        place_behind <"$work/told"
        status=${line#run=ended status=}
        status=${status%% *}
        if [ -t 2 ]; then
            show_place "$(tail -n 1 "$work/told")"
        fi
        exit "$status"
        ;;
    esac
    why_no_answer "$work/said" | sed 's/^/tempura: /' >&2
    echo "tempura: for an answer without these bounds, bin/tempura --build proves and builds the program" >&2
    exit 20
}

# Runs the words by a try, with FILE as `source`, TABLE as `table` and TRACE as `trace`; SIZE stays.
run_unproved() {
    # fewer words than a mode and a FILE are refused in any case, and more than these too
    case $files:$mode in
    1:run | 1:print | 1:convert | 1:check | 1:drill) ;;
    *)
        stop_on_bytes "$@"
        echo "words refused"
        exit 12
        ;;
    esac
    say_unproved
    stop_on_bytes "$@"
    make_work
    first='' options=yes awaits=''
    for word do
        shift
        case $awaits:$options:$word in
        table:*) word=table ;;
        trace:*) word=trace ;;
        other:*) ;;
        :yes:-- | :yes:--inputs= | :yes:--with=) ;;
        :yes:--inputs=*) word=--inputs=table ;;
        :yes:--with=*) word=--with=trace ;;
        :yes:-?*) ;;
        *) if [ -z "$first" ]; then first=$word; elif [ "$mode" != drill ]; then word=source; fi ;;
        esac
        await_behind "$word"
        set -- "$@" "$word"
    done
    set -- -- "$@"
    given_table=
    if [ -n "$table" ]; then
        give "$table" "$TABLE_LIMIT" table
        given_table=$given
        [ -z "$given" ] || set -- --data "table=$given" "$@"
    fi
    given_trace=
    if [ -n "$trace" ]; then
        give "$trace" "$TABLE_LIMIT" trace
        given_trace=$given
        [ -z "$given" ] || set -- --data "trace=$given" "$@"
    fi
    if [ "$mode" = convert ]; then
        give "$source" "$TABLE_LIMIT" source
        given_table=$given
    elif [ "$mode" = drill ]; then
        given=
    else
        give "$source" "$SOURCE_LIMIT" source
    fi
    [ -z "$given" ] || set -- --data "source=$given" "$@"
    try "$@"
    tell_answer
}

# Writes the FILE `source` and its words into the folder of the cases, under a number.
write_case() {
    join_libraries
    give "$source" "$SOURCE_LIMIT" "cases/$1"
    { echo run; cat "$work/options"; echo --; if [ -n "$given" ]; then echo '{}'; else echo source; fi; } \
        >"$work/cases/$1.args"
    if [ -z "$given" ]; then
        : >"$work/cases/$1"
    elif [ "$given" != "$work/cases/$1" ]; then
        head -c "$((SOURCE_LIMIT + 1))" <"$given" >"$work/cases/$1"
    fi
}

# Tells what a try has answered for the FILE under a number, and sets `status`.
tell_case() {
    line=$(grep "^case=$1 run=" "$work/said")
    case $line in
    *" run=ended status="*)
        awk -v name="$1" '/^== [0-9]+$/ { inside = $2 == name; next } inside' "$work/told" | place_behind
        status=${line#*status=}
        status=${status%% *}
        ;;
    *)
        sed -n "/^case=$(($1 - 1)) /,/^case=$1 /p" "$work/said" >"$work/why"
        [ -s "$work/why" ] || cat "$work/said" >"$work/why"
        why_no_answer "$work/why" | sed 's/^/tempura: /' >&2
        status=20
        ;;
    esac
}

# Runs each FILE by one try of all. The words are the options, `--`, and the files.
run_cases_unproved() {
    say_unproved
    stop_on_bytes "$@"
    make_work
    mkdir "$work/cases" || exit 20
    : >"$work/options"
    while [ "$1" != -- ]; do
        case $1 in
        --inputs=) echo "$1" ;;
        --inputs) echo "--inputs=table"; shift ;;
        --inputs=*) echo "--inputs=table" ;;
        *) printf '%s\n' "$1" ;;
        esac >>"$work/options"
        shift
    done
    shift
    count=10000 # of as many digits for each, so that they come in this order
    for source do
        count=$((count + 1))
        write_case "$count"
    done
    if [ -n "$table" ]; then
        give "$table" "$TABLE_LIMIT" table
        [ -n "$given" ] || table=
    fi
    try ${table:+--data "table=$given"} --cases "$work/cases"
    ended=0
    count=10000
    for source do
        count=$((count + 1))
        printf '== %s\n' "$source"
        tell_case "$count"
        echo "status $status"
        [ "$ended" -ne 0 ] || ended=$status
    done
    exit "$ended"
}
