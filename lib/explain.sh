# What an end or a refusal means, from the page on them. Read by bin/tempura, which sets `here`, `lib` and `is_installed`.
# shellcheck shell=sh disable=SC2154 # what its reader sets

# An entry of the page begins with a heading that names its words, each in backticks. Prints the entry that is asked
# for: that of which a word is what is asked, or else of which a word stands in it, in front or behind a colon, so that
# a whole end line can be given; of these the last in the line, which says most. A number is a status. Without a word it
# lists the words.
explain() {
    page=$lib/ENDS.md
    [ -f "$page" ] || page=$here/docs/ENDS.md
    LC_ALL=C awk -v asked="$1" -v is_installed="$is_installed" '
    function words_of(heading,    n, i, part) {
        n = split(heading, part, "`")
        for (i = 2; i <= n; i += 2) { word[++words] = part[i]; entry_of[words] = entries }
    }
    function lower(text) { gsub(/[ \t]+/, " ", text); sub(/^ /, "", text); sub(/ $/, "", text); return tolower(text) }
    /^### `/ { entries++; words_of($0); inside = 1; text[entries] = ""; next }
    /^##? / { inside = 0; next }
    inside { text[entries] = text[entries] $0 "\n" }
    function tell(entry,    i, names) {
        for (i = 1; i <= words; i++) if (entry_of[i] == entry) names = names (names == "" ? "" : ", ") word[i]
        print names
        body = text[entry]
        gsub(/\n```[a-z]*\n/, "\n", body)
        sub(/\n+$/, "\n", body)
        if (is_installed) gsub(/bin\/tempura/, "tempura", body)
        printf "%s", body
    }
    END {
        asked = lower(asked)
        for (i = 1; i <= words; i++) if (lower(word[i]) == asked) { tell(entry_of[i]); exit }
        for (i = 1; i <= entries && asked ~ /^[0-9]+$/; i++) if (index(text[i], "\nStatus " asked ".") == 1) { tell(i); exit }
        best = 0
        for (i = 1; i <= words && asked != ""; i++) {
            at = index(": " asked, ": " lower(word[i]))
            if (at > best || at == best && at > 0 && length(word[i]) > length(word[found])) { best = at; found = i }
        }
        if (best) { tell(entry_of[found]); exit }
        for (i = 1; i <= words; i++) print word[i]
        exit (asked == "" ? 0 : 12)
    }' "$page" >"${explained:=$(mktemp)}"
    status=$?
    if [ "$status" -eq 12 ]; then
        echo "tempura: no end and no refusal has this name; tempura explain lists them" >&2
    else
        cat "$explained"
    fi
    rm -f "$explained"
    return "$status"
}
