# docs/FAULTS.md: each fault of the sources stands there once, by its number and name, and no other does. It has one
# table, each row of which begins with the type of the fault, or the command whose own it is, its number and its name.
awk '
    /^[|] [A-Za-z]+ [0-9]+ [A-Z][A-Za-z0-9]* [|]/ { print $2, $3, $4 }
' "$root/docs/FAULTS.md" | sort >written.faults

# In the sources a type has numbers from its first `= N` on, or in the arms of its `number`; those of commands stand in
# the texts of their lines, but for that which all have that write a file. The faults of a header and of a payload are
# told as a datagram's.
find "$root"/crates/*/src -name '*.rt' -exec awk '
    function found(kind, number, name) {
        if (kind == "RtpFault") kind = "Refusal"
        if (kind == "PayloadFault") { kind = "Refusal"; number += 6 }
        print kind, number, name
    }
    FNR == 1 || /^}/ { kind = "" }
    FNR == 1 || /^    }/ { in_number = 0 }
    /pub fn number[(]/ { in_number = 1 }
    /^pub enum [A-Za-z]*Fault [{]/ { kind = $3; number = 0 }
    kind != "" && /^    [A-Z][A-Za-z0-9]* = [0-9]+,/ { number = $3 + 0; found(kind, number, $1) }
    kind != "" && number && /^    [A-Z][A-Za-z0-9]*,/ { number++; name = $1; sub(",", "", name); found(kind, number, name) }
    in_number && $1 ~ /(Fault|Refusal)::/ && $3 ~ /^[0-9]+,$/ {
        split($1, part, "::"); sub("[(].*", "", part[2]); found(part[1], $3 + 0, part[2])
    }
    / => "[a-z]+ [0-9]+ [A-Z][A-Za-z0-9]*",$/ && !/OutputIsInput/ { split($0, part, "\""); print part[2] }
' {} + | sort >known.faults

if [ ! -s known.faults ]; then
    fail 'faults' 'the sources have none'
elif cmp -s written.faults known.faults; then
    pass "faults: docs/FAULTS.md has the $(wc -l <known.faults | tr -d ' ') of the sources"
else
    comm -13 written.faults known.faults >lacking.faults
    comm -23 written.faults known.faults >added.faults
    while read -r fault; do
        fail "faults: $fault" 'docs/FAULTS.md lacks it'
    done <lacking.faults
    while read -r fault; do
        fail "faults: $fault" 'it stands in docs/FAULTS.md, and not in the sources, or twice'
    done <added.faults
fi
