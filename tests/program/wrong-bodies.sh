# tests/wrong_bodies: no wrong body goes stale there. The gate tries none of these, but each fits the sources: its crate is
# one of crates.txt, and its lines are `file:`, of a file of that crate, `old:` and `new:`, as the kit wants them. Each old
# text stands once in the file, as the pairs before it left it.

# unfit FOLDER EDIT: why an edit doesn't fit the crate of this folder; nothing where it does.
unfit() {
    awk -v folder="$1" '
        function amiss(why) { if (reason == "") reason = why }
        function load(path, line) {
            while ((getline line <path) > 0) text[path] = text[path] line "\n"
            close(path)
        }
        { word = $1; value = substr($0, length(word) + 2) }
        word !~ /^(file|old|new):$/ || (word == "new:") != has_old { amiss("line " FNR " is: " $0) }
        word == "file:" {
            path = folder "/" value
            if (!(path in text)) load(path)
            if (text[path] == "") amiss("no file " value)
        }
        word == "old:" {
            has_old = 1
            old = value
            at = index(text[path], old)
            if (old == "" || !at) amiss("no place has: " old)
            else if (index(substr(text[path], at + 1), old)) amiss("more than one place has: " old)
        }
        word == "new:" {
            has_old = 0
            pairs++
            if (value == old) amiss("the new text is the old")
            text[path] = substr(text[path], 1, at - 1) value substr(text[path], at + length(old))
        }
        END {
            if (has_old || !pairs) amiss("it has no new text")
            print reason
        }
    ' "$2"
}

sed -n 's/^\([a-z0-9_]*\):.*/\1/p' "$root/crates.txt" >crates
find "$root/tests/wrong_bodies" -type f | sort >edits
while read -r edit; do
    name=${edit#"$root/tests/wrong_bodies/"}
    crate=${name%%/*}
    reason='it is no CRATE/NAME.edit'
    case $name in
        */*/*) ;;
        */*.edit) reason=$(unfit "$root/crates/$crate" "$edit") ;;
    esac
    grep -q -x -F -e "$crate" crates || reason='its crate is none of crates.txt'
    if [ -z "$reason" ]; then
        pass "wrong body $name"
    else
        fail "wrong body $name" "$reason"
    fi
done <edits
