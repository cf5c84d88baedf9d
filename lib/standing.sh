# What could stand where a source was refused. Read by bin/tempura, which sets `program`, the program that was proved.
# shellcheck shell=sh disable=SC2154 # what its reader sets

# The symbols and the words that are tried, those first that stand where many can. Not tried are `<-`, `<>` and `>=`:
# where no more could stand than are shown, each of them would be read as two symbols.
tried='+ - * div mod [ = < > <= := gets and or proj ; . , ) ] } : | then else do until ( { true false empty more skip
not next if while repeat for forall exists always keep fin halt stable sometimes len list input display define run'
most=8       # that are shown
longest=8192 # bytes in front of the place, as each try reads them again

# Whether this could stand behind the text in `before`: whether both are a source, or the beginning of one.
stands() {
    answer=$("$program" print /dev/stdin 2>/dev/null <<TEXT
$before $1
TEXT
    )
    case $?:$answer in
    0:* | 10:*': unfinished') ;;
    *) return 1 ;;
    esac
}

# Adds to `found`, unless there are too many already.
add_found() {
    found="$found $1"
    count=$((count + 1))
    [ "$count" -le "$most" ]
}

# Sets `found`, and `count`: the number of what was found, which is too great where there is more. Names and numbers
# count as one each.
find_standing() {
    found='' count=0
    if stands A; then
        add_found 'a name'
    elif stands a; then
        add_found 'a lower-case name'
    fi
    ! stands 0 || add_found 'a number'
    set -f
    for each in $tried; do
        ! stands "$each" || add_found "\`$each\`" || break
    done
    set +f
}

# Shows what could stand at this line and column of a file, where that isn't too much. Bytes that the language doesn't
# have stand in comments alone, and are blanks in a try.
show_standing() {
    length=$(($(head -n "$(($1 - 1))" <"$3" | wc -c) + $2 - 1))
    [ "$length" -le "$longest" ] || return 0
    before=$(head -c "$length" <"$3" | LC_ALL=C tr '\000\200-\377' '[ *]' && echo .)
    before=${before%.}
    find_standing
    if [ "$count" -eq 0 ]; then
        echo "nothing could stand here: the source ends in front of it"
    elif [ "$count" -le "$most" ]; then
        echo "could stand here:$found"
    fi
}
