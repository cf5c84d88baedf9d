# The program that was proved: where it is kept, of which sources it is, how it is built and exchanged, and what is
# recorded of it. Read by bin/tempura, bin/install and .ci/run, which set `here`, the checkout or the place of the
# installation, and `lib`, the folder of this file.
#
# In a checkout out/proved has a folder for each program that was kept, by number, with `program` and `record` in it, and
# the file `now` names the one that is run. A newer one is made whole in a folder of its own before `now` is exchanged for
# another file, so a run finds the old program or the new one; the one before stays for those that have just found it.
# An installation has `program` and `record` beside this file.
# shellcheck shell=sh disable=SC2154 # what its reader sets

if [ -f "$lib/record" ]; then
    is_installed=yes
else
    is_installed=
fi

# Sets `program` and `record`, and tells whether there is a program that was proved.
find_proved() {
    if [ -n "$is_installed" ]; then
        program=$lib/program record=$lib/record
    else
        { read -r now <"$here/out/proved/now"; } 2>/dev/null || return 1
        program=$here/out/proved/$now/program record=$here/out/proved/$now/record
    fi
    [ -x "$program" ] && [ -f "$record" ]
}

# what the record says of one thing
recorded() {
    sed -n "/^[0-9a-f]\{64\}  /q; s/^$1: //p" "$record"
}

# the crates that the program is made of, by crates.txt, each behind those that it stands on, and itself the last
crates_of_program() {
    awk '
    function visit(name,    n, i, below) {
        if (name in seen || !(name in uses)) return
        seen[name] = 1
        n = split(uses[name], below, " ")
        for (i = 1; i <= n; i++) visit(below[i])
        print name
    }
    $1 ~ /:$/ { name = $1; sub(/:$/, "", name); uses[name] = $0; sub(/^[^:]*:/, "", uses[name]) }
    END { visit("tempura") }' "$1/crates.txt"
}

# the sources that the program is made of, with their sums, in a fixed order
sums_of_sources() {
    (cd "$1" && { echo crates.txt; echo HANDLES
        crates_of_program . | while IFS= read -r crate; do
            find "crates/$crate" -name out -prune -o -type f \( -name '*.rt' -o -name '*.antt' \) -print
        done; } | LC_ALL=C sort | tr '\n' '\0' | xargs -0 sha256sum --)
}

# the sums of the sources that the record has
recorded_sums() {
    sed -n '/^[0-9a-f]\{64\}  /p' "$record"
}

sum_of() {
    sha256sum | cut -c 1-64
}

# Whether the program found is that of the sources as they are: none is newer than the build, or all are the same though.
is_current() {
    [ -z "$is_installed" ] || return 0
    [ -n "$(find "$here/crates" "$here/crates.txt" "$here/HANDLES" \( -name out -o -name must-fail \) -prune -o \
        \( -type d -o -name '*.rt' -o -name '*.antt' -o -name crates.txt -o -name HANDLES \) \
        -newer "$record" -print | head -n 1)" ] || return 0
    looked=$(mktemp "$here/out/looked.XXXXXX" 2>/dev/null)
    [ "$(sums_of_sources "$here" | sum_of)" = "$(recorded sources)" ]
    same=$?
    if [ -n "$looked" ]; then
        # so the next call need not compare them again
        [ "$same" -ne 0 ] || touch -r "$looked" "$record" 2>/dev/null
        rm -f "$looked"
    fi
    return "$same"
}

# a sum that tells machines apart and names none; nothing where this can't be told
this_machine() {
    for file in /etc/machine-id /var/lib/dbus/machine-id; do
        if [ -s "$file" ]; then
            { printf 'tempura '; cat "$file"; } | sum_of | cut -c 1-16
            return
        fi
    done
}

# what git calls the sources, where it knows them
commit_of_checkout() {
    { [ -e "$here/.git" ] && git -C "$here" describe --tags --always --dirty 2>/dev/null; } || echo unknown
}

version_here() {
    cat "$lib/VERSION" 2>/dev/null || cat "$here/VERSION"
}

# Keeps a program that was proved and built, with its record: the file, the verdict's line, the seconds that it took, a
# file as old as the beginning of the build, and the sums of the sources at that time.
keep_program() {
    made=$1 verdict=$2 took=$3 started=$4 sums=$5
    find_proved || now=0
    mkdir -p "$here/out/proved" || return 1
    next=$((now + 1))
    folder=$here/out/proved/$next
    rm -rf "$folder"
    mkdir "$folder" && cp "$made" "$folder/program" && chmod 755 "$folder/program" || return 1
    machine=$(this_machine)
    {
        echo "version: $(version_here)"
        echo "commit: $(commit_of_checkout)"
        echo "toolchain: $(rt version 2>/dev/null | head -n 1)"
        echo "verdict: $verdict"
        echo "machine: ${machine:-unknown}"
        echo "seconds: $took"
        echo "program: $(sum_of <"$folder/program")"
        echo "sources: $(sum_of <"$sums")"
        cat "$sums"
    } >"$folder/record" || return 1
    touch -r "$started" "$folder/record"
    echo "$next" >"$here/out/proved/now.$$" && mv -f "$here/out/proved/now.$$" "$here/out/proved/now" || return 1
    for old in "$here/out/proved/"*/; do
        case $old in
        */"$next"/ | */"$now"/) ;;
        *) rm -rf "$old" ;;
        esac
    done
}

# how long a build takes here, in words
how_long() {
    if find_proved && [ -z "$is_installed" ] && [ "$(recorded machine)" = "$(this_machine)" ] &&
        [ "$(recorded seconds)" -gt 600 ] 2>/dev/null; then
        echo "$((($(recorded seconds) + 59) / 60)) minutes here the last time"
    elif [ "$(getconf _NPROCESSORS_ONLN 2>/dev/null || echo 2)" -gt 1 ] 2>/dev/null; then
        echo "about 40 to 80 minutes here"
    else
        echo "about 80 to 160 minutes here, on one processor"
    fi
}

# How far the build is, by its log: the crate at hand, its place among all that are built, and how many of its
# functions were checked where the log tells. The crates are built in the order of crates.txt's lists, each after
# those that it stands on. The log names a crate when it begins with what an earlier check kept, and when it is done.
progress() {
    crates_of_program "$here" | awk '
    function at(name, done) {
        if (!(name in place) || place[name] < now || place[name] == now && !done) return
        now = place[name] + done; functions = ""
    }
    NR == FNR { place[$1] = ++count; crate[count] = $1; next }
    FNR == 1 { now = 1 }
    /^rt: [a-z_]+: (begins|another)/ { name = $2; sub(/:$/, "", name); at(name, 0) }
    /^rt: chose --jobs [0-9]+ for / { at($NF, 0) }
    /^crate [a-z_]+: / { name = $2; sub(/:$/, "", name); at(name, 1) }
    /^so far: / { functions = " (" $3 " of " $5 " functions)" }
    END {
        if (now > count) now = count
        if (now) printf "proving %s, %d of %d%s", crate[now], now, count, functions
    }' - "$here/out/build.log" 2>/dev/null
}

# Says on a terminal, in one line, what a function prints, anew every two seconds, until `end_watch` or this script ends.
watcher=
begin_watch() {
    [ -t 2 ] || return 0
    while sleep 2 && kill -0 "$$" 2>/dev/null; do
        printf '\r\033[Ktempura: %s' "$("$1")" >&2
    done &
    watcher=$!
}

end_watch() {
    [ -n "$watcher" ] || return 0
    kill "$watcher" 2>/dev/null
    wait "$watcher" 2>/dev/null
    watcher=
    printf '\r\033[K' >&2
}

fail_build() {
    echo "tempura: the build failed: $1" >&2
    exit 20
}

# Waits until no other build works in this checkout; the system lets go of it when the build ends, in whatever way.
take_turn() {
    exec 9>"$here/out/building" || exit 20
    command -v flock >/dev/null 2>&1 || return 0 # then rt alone has one of two wait
    if ! flock -n 9; then
        echo "tempura: another build is under way in this checkout; waiting for it" >&2
        flock 9
    fi
}

# Proves and builds the program, and exchanges it for the one before. Without words the program answers 12, words
# refused: so a run of it that ends with 12 was built.
prove_and_build() {
    log=$here/out/build.log
    echo "tempura: proving and building the program, which takes $(how_long) (log: $log)" >&2
    started=$(mktemp "$here/out/started.XXXXXX") && sums=$(mktemp "$here/out/sums.XXXXXX") || exit 20
    trap 'rm -f "$started" "$sums"; end_watch' EXIT
    trap 'exit 20' HUP INT PIPE TERM
    sums_of_sources "$here" >"$sums"
    before=$(date +%s)
    begin_watch progress
    (cd "$here/crates/tempura" && rt run) >"$log" 2>&1 </dev/null
    status=$?
    end_watch
    if [ "$status" -ne 12 ] || [ ! -x "$here/crates/tempura/out/tempura" ]; then
        echo "tempura: the end of the log is:" >&2
        tail -n 5 "$log" | cut -c 1-300 >&2
        fail_build "see $log"
    fi
    [ "$(sums_of_sources "$here" | sum_of)" = "$(sum_of <"$sums")" ] ||
        fail_build "a source changed meanwhile; build again"
    took=$(($(date +%s) - before))
    keep_program "$here/crates/tempura/out/tempura" \
        "$(sed -n -e '/^logic=/p' -e '/^rt: nothing has changed since the last proved build/p' "$log" | tail -n 1)" \
        "$took" "$started" "$sums" || fail_build "the program can't be kept in $here/out/proved"
    echo "tempura: proved and built in $took seconds" >&2
}

build() {
    if [ -n "$is_installed" ]; then
        echo "tempura: this is an installed program, which was proved before; --build works in a checkout" >&2
        exit 12
    fi
    if find_proved && is_current; then
        echo "tempura: the program of these sources is proved and built already" >&2
        return 0
    fi
    if ! command -v rt >/dev/null 2>&1; then
        echo "tempura: the command rt of the Rattle toolchain, which proves and builds it, is not on the PATH" >&2
        exit 20
    fi
    mkdir -p "$here/out" || exit 20
    take_turn
    if find_proved && is_current; then # by the build that was waited for
        echo "tempura: the program of these sources is proved and built already" >&2
        return 0
    fi
    prove_and_build
}

# where a program was proved
proved_where() {
    machine=$(this_machine)
    if [ -z "$machine" ] || [ "$(recorded machine)" = unknown ]; then
        echo "proved and built, on a machine that can't be told"
    elif [ "$(recorded machine)" = "$machine" ]; then
        echo "proved and built on this machine"
    else
        echo "proved and built on another machine"
    fi
}

# the name, the commit, the toolchain, and whether this was proved here
version() {
    echo "tempura $(version_here)"
    if [ -n "$is_installed" ] && find_proved; then
        echo "commit $(recorded commit)"
        echo "toolchain $(recorded toolchain)"
        proved_where
        return
    fi
    echo "commit $(commit_of_checkout)"
    echo "toolchain $({ command -v rt >/dev/null && rt version 2>/dev/null; } || echo "none: rt is not on the PATH")"
    if ! find_proved; then
        echo "not proved on this machine: a run compiles these sources, and --build proves them"
    elif is_current; then
        echo "$(proved_where), of these sources"
    else
        echo "a source is newer than the program, which was $(proved_where), of commit $(recorded commit)"
    fi
}

# Computes the sums of the program, and of the sources in a checkout, again, and compares them with the record.
attest() {
    checkout=${1-}
    if ! find_proved; then
        echo "tempura: no proved program is here; --build makes one" >&2
        exit 20
    fi
    [ -n "$checkout" ] || [ -n "$is_installed" ] || checkout=$here
    differs=0
    found=$(sum_of <"$program")
    if [ "$found" = "$(recorded program)" ]; then
        echo "program: $found, as recorded"
    else
        echo "program: $found, where $(recorded program) is recorded"
        differs=1
    fi
    if [ -z "$checkout" ]; then
        echo "sources: $(recorded sources) is recorded; --attest CHECKOUT compares them"
    elif [ ! -f "$checkout/crates.txt" ]; then
        echo "tempura: $checkout is no checkout of tempura" >&2
        exit 12
    else
        found=$(sums_of_sources "$checkout" | sum_of)
        if [ "$found" = "$(recorded sources)" ]; then
            echo "sources: $found, $(recorded_sums | wc -l) files, as recorded"
        else
            echo "sources: $found, where $(recorded sources) is recorded; these differ:"
            { recorded_sums; sums_of_sources "$checkout"; } | LC_ALL=C sort | uniq -u | cut -c 67- |
                LC_ALL=C sort -u | sed 's/^/  /'
            differs=1
        fi
    fi
    for name in version commit toolchain verdict; do
        echo "$name: $(recorded "$name")"
    done
    return "$differs"
}
