# `install`, in a clone whose `rt` has the built program: the three files, of which two have every word that --help tells.
mkdir -p clone/crates/st2110/src bin
cp -R "$root/st2110" "$root/tools" "$root/install" clone
echo 'st2110:' >clone/crates.txt
cat >bin/rt <<END
#!/bin/sh
[ "\$1" != run ] || { mkdir -p out && cp "$program" out/st2110; }
END
chmod +x bin/rt
install() {
    PATH=$room/bin:$PATH ST2110_ROOMS=1 "$@" >out 2>err
    status=$?
}
page=share/man/man1/st2110.1
words=share/bash-completion/completions/st2110
: >clone/crates/st2110/src/main.rt
install clone/install 'a prefix'
grep -v 'proving' err >rest
mv rest err
says 'install: what it says' 0 "$room/a prefix/bin/st2110
$room/a prefix/$page
$room/a prefix/$words" "install: $room/a prefix/bin is not in PATH"
alike 'install: the program' 'a prefix/bin/st2110' "$program"
if [ "$(find 'a prefix' -type f | wc -l)" -eq 3 ] && [ "$('a prefix/bin/st2110' --version)" = "st2110 $version" ]; then
    pass 'install: three files, and the program runs'
else
    fail 'install: three files, and the program runs' "$(find 'a prefix')"
fi
if head -n 1 "a prefix/$page" | grep -q -F -e " \"st2110 $version\" "; then
    pass 'install: the page says the version'
else
    fail 'install: the page says the version' "$(head -n 1 "a prefix/$page")"
fi
mkdir home
HOME=$room/home install clone/install
alike 'install: below the home folder' "home/.local/$page" "a prefix/$page"
PATH=$PATH:$room/home/.local/bin HOME=$room/home install clone/install
says 'install: again, into a folder of PATH' 0 "$room/home/.local/bin/st2110
$room/home/.local/$page
$room/home/.local/$words" ''

# What --help tells of commands and options stands in both files, and its texts in the page.
sed 's/\\-/-/g; s/\\e/\\/g; s/^\\&//' "a prefix/$page" >page
# lacking FILE: the lines of standard input that a file lacks.
lacking() {
    while IFS= read -r line; do
        grep -q -F -e "$line" "$1" || printf "'%s' " "$line"
    done
}
# offer WORD..: what bash offers for the last word.
offer() {
    bash -c '. "$0" && COMP_WORDS=("$@") COMP_CWORD=$(($# - 1)) && _st2110 && printf "%s\n" "${COMPREPLY[@]}"' \
        "a prefix/$words" st2110 "$@"
}
# offer_at LINE: what it offers at the end of a line of words.
offer_at() {
    # shellcheck disable=SC2016
    bash -c '. "$0" && COMP_LINE=$1 COMP_POINT=${#1} && read -r -a COMP_WORDS <<<"$1." &&
        COMP_CWORD=$((${#COMP_WORDS[@]} - 1)) && COMP_WORDS[COMP_CWORD]=${COMP_WORDS[COMP_CWORD]%.} &&
        _st2110 && printf "%s\n" "${COMPREPLY[@]}"' "a prefix/$words" "$1" | paste -s -d ' '
}
commands=$("$program" --help | sed -n '/^Commands:/,/^$/s/^  \([a-z]*\) .*/\1/p')
for command in '' $commands; do
    [ "$command" != help ] || continue
    # shellcheck disable=SC2086
    "$program" $command --help >told
    lacks=$({
        sed '/^[A-Z][a-z]*:$/d; s/^Usage: //; s/^ *//; s/   *.*//' told
        sed -n 's/^  .*[^ ]   *//p' told
    } | lacking page)
    if [ -z "$lacks" ]; then
        pass "install: the page has the help of st2110 $command"
    else
        fail "install: the page has the help of st2110 $command" "it lacks $lacks"
    fi
    if ! command -v bash >/dev/null; then
        echo 'skipped: completions, since there is no bash'
        continue
    fi
    # shellcheck disable=SC2086
    offer $command - >offered
    lacks=$(sed -n 's/^  *\(-.*\)/\1/p' told | grep -o -E -e '(^|, )--?[A-Za-z-]+' | sed 's/^, //' | lacking offered)
    if [ -z "$lacks" ]; then
        pass "install: the options of st2110 $command"
    else
        fail "install: the options of st2110 $command" "it lacks $lacks"
    fi
done
if command -v bash >/dev/null; then
    lacks=$(offer '' >offered && printf '%s\n' "$commands" | lacking offered)
    begun=$(offer re | tr '\n' ' ')
    if [ -z "$lacks$(offer send '')" ] && [ "$begun" = 'rehearse receive report ' ]; then
        pass 'install: the commands, and files behind one'
    else
        fail 'install: the commands, and files behind one' "it lacks $lacks"
    fi
fi

# Behind some options their values are offered; bash puts behind a colon what follows it.
if command -v bash >/dev/null; then
    while IFS='|' read -r line wanted; do
        offered=$(offer_at "$line")
        if [ "$offered" = "$wanted" ]; then
            pass "install: what is offered behind '$line'"
        else
            fail "install: what is offered behind '$line'" "'$offered' in place of '$wanted'"
        fi
    done <<'END'
st2110 send --out f.cap --paths |a b both
st2110 send --paths b|b both
st2110 send --paths=bo|both
st2110 process --job |limit:nominal limit:video gain: ycc444 ycc422 wipe:columns: wipe:rows: key
st2110 process --job ycc|ycc444 ycc422
st2110 process --job limit:v|video
st2110 process --job wipe:|columns: rows:
st2110 send --pa|--paths
END
fi

# Words that it doesn't know, and a prefix that can't be written to: a file is in its place.
install clone/install --frobnicate
if [ "$status" = 2 ] && [ ! -s out ] && grep -q '^usage: ./install' err; then
    pass 'install: refused words'
else
    fail 'install: refused words' "status $status: $(cat err)"
fi
install clone/install --help
if [ "$status" = 0 ] && [ ! -s err ] && grep -q '^usage: ./install' out; then
    pass 'install: --help'
else
    fail 'install: --help' "status $status: $(cat err)"
fi
install clone/install page
tail -n 1 err >last
mv last err
says 'install: where it may not write' 1 '' "install: $room/page/bin/st2110 was not written"
