# The worked examples of examples/: each script or text that has an answer beside it.
for text in "$root"/examples/*.trace "$root"/examples/*.rehearse "$root"/examples/*.sdp; do
    answer=${text%.*}.out
    if [ -e "$answer" ]; then
        command=${text##*.}
        "$program" "$command" <"$text" >out 2>err
        status=$?
        example=${text##*/}
        says "$example" 0 "$(cat "$answer")" ''
        # By the other path the answer is the same.
        if [ "$command" = trace ]; then
            sed 's/^A /C /; s/^B /A /; s/^C /B /' "$text" >in
            "$program" trace <in >out 2>err
            status=$?
            says "$example, by the other path" 0 "$(cat "$answer")" ''
        fi
    fi
done
sed '4s/^A /B /' "$root/examples/last-sample-differs.trace" >in
"$program" trace <in >out 2>err
status=$?
says 'last-sample-differs.trace, by both paths' 0 "$(cat "$root/examples/last-sample-differs.out")" ''

# No file of examples/ goes stale: each is a text with its answer, or that answer, or has a test.
for file in "$root"/examples/*; do
    name=${file##*/}
    if [ "${file%.out}" = "$file" ] && [ -e "${file%.*}.out" ]; then
        pass "$name has its answer"
    elif grep -q -F -e "/examples/$name" -e "\$files/$name" "$root"/tests/program/*.sh; then
        pass "$name is in a test"
    elif [ "${file%.out}" != "$file" ] && ls "${file%.out}".[!o]* >/dev/null 2>&1; then
        pass "$name is an answer"
    else
        fail "$name" 'no test runs it'
    fi
done

# Nor does a recording: each has a test.
for file in "$recordings"/*.pcap*; do
    name=${file##*/}
    if grep -q -w -F -e "${name%%.*}" "$root/tests/program/import.sh" "$root/tests/program/inspect.sh"; then
        pass "$name is in a test"
    else
        fail "$name" 'no test runs it'
    fi
done
