# The launcher, `st2110` at the root, in a clone with an `rt` that puts the built program where the
# kit's would, also for its part. The clone has two crates.
mkdir -p clone/crates/st2110/src clone/crates/script_program/src bin elsewhere
cp -R "$root/st2110" "$root/tools" clone
printf '%s\n' st2110: script_program: >clone/crates.txt
: >clone/crates/st2110/src/main.rt
: >clone/crates/script_program/src/main.rt
# It notes what it is asked for, and in which crate. A file of the room asks something of it: the
# crate that `refused` names isn't proved; the proof of the one that `held` names doesn't end; the
# program's build ends once a launcher has said what stands in `awaited`, or after 20 s; where there is
# `untried`, nothing can be tried.
cat >bin/rt <<END
#!/bin/sh
if [ "\$1" = version ]; then
    cat "$room/kit"
    exit
fi
crate=\${PWD##*/}
if [ "\$1" = try ]; then
    shift 2
    echo "\$PWD" >>"$room/tries"
    [ ! -e "$room/untried" ] || exit 2
    "$program" "\$@"
    status=\$?
    echo "run=ended status=\$status runners=1 proved=no" >&2
    exit "\$status"
fi
echo "\$* in \$PWD" >>"$room/built"
[ ! -e out/proved ] || echo "kept \$crate" >>"$room/built"
waits() {
    [ "\$(cat "$room/held" 2>/dev/null)" = "\$crate" ] && return
    [ "\$1" = run ] && [ -e "$room/awaited" ] && ! grep -q -f "$room/awaited" "$room/said"
}
turns=0
while [ \$turns -lt 200 ] && waits "\$1"; do
    sleep 0.1
    turns=\$((turns + 1))
done
if [ "\$(cat "$room/refused" 2>/dev/null)" = "\$crate" ]; then
    seq 30
    exit 1
fi
mkdir -p out && : >out/proved
[ "\$1" != run ] || cp "$program" "out/\$crate"
END
chmod +x bin/rt
echo 'rattle-kit-13f logic 0123456789abcdef' >kit
ST2110_ROOMS=1
XDG_CACHE_HOME=$room/cache
export ST2110_ROOMS XDG_CACHE_HOME
ln -s ../clone/st2110 elsewhere/link
ln -s "$room/elsewhere/link" bin/far
wide=$PATH
PATH=$room/bin:$PATH

# launch WORD..: as `run`, by any launcher, and on the first script. What it says is then in `said`.
launch() {
    "$@" <"$root/examples/first-datagram.trace" >out 2>said
    status=$?
    : >err
}
begins='st2110: proving and building the program; from nothing that takes 5 GB of disk'
begins_part="st2110: proving and building what trace, sdp and rehearse need; the other commands' crates are proved at\
 their first use"
# tells NAME TEXT: whether the launcher said just this.
tells() {
    expect "$2" >want.said
    if cmp -s said want.said; then
        pass "$1"
    else
        fail "$1" "'$(head -c 300 said)' in place of '$2'"
    fi
}

# Where python3 or rt isn't found: a folder has what the launcher needs besides.
mkdir bare
ln -s "$(command -v dirname)" bare/dirname
PATH=$room/bare launch clone/st2110 trace
says 'launcher: no python3' 125 '' ''
tells 'launcher: no python3, what it says' \
    "st2110: the program isn't built, and python3, for which the kit's rt is written, isn't found"
ln -s "$(python3 -c 'import sys; print(sys.executable)')" bare/python3
PATH=$room/bare launch clone/st2110 trace
says 'launcher: no rt' 125 '' ''
tells 'launcher: no rt, what it says' \
    "st2110: the program isn't built, and the command rt of the Rattle kit isn't found"
echo script_program >refused
launch clone/st2110 trace
rm -f refused
says 'launcher: a build that fails' 125 '' ''
crates=$(cd clone && pwd -P)/crates
tells 'launcher: a build that fails, what it says' "$begins_part
st2110: proving script_program, crate 1 of 1, 0 min so far, about 1 more
$(seq 11 30)
st2110: the program was not built; the whole text of the build is in $crates/script_program/out/launcher/script_program.log"
# Two first runs at once: one builds, and the other waits for it.
# first_two WORD..: asks for the version, and meanwhile launches these words.
first_two() {
    : >built
    : >said
    rm -f first
    echo waits >awaited
    clone/st2110 --version >first 2>&1 &
    until [ -s first ]; do
        sleep 0.1
    done
    launch elsewhere/link "$@"
    wait $!
    rm -f awaited
}
first_two trace
says 'launcher: two first runs at once' 0 "kept 1
$frame" ''
if [ "$(wc -l <built)" -eq 1 ] && [ "$(tail -n 1 first)" = "st2110 $version" ]; then
    pass 'launcher: two first runs at once, and one build'
else
    fail 'launcher: two first runs at once, and one build' "$(cat built first)"
fi
tells 'launcher: the second says that it waits' \
    'st2110: another run builds the program; this one waits for it'

# By each way to name it, the program runs at once, in the folder where the person stands.
by() {
    way=$1
    shift
    launch "$@"
    says "launcher: $way" 0 "kept 1
$frame" ''
    tells "launcher: $way, in silence" ''
}
by 'by its whole name' "$room/clone/st2110" trace
by 'by a relative path' clone/st2110
by 'by a relative link' elsewhere/link trace
by 'by a link to a link, found by its name' far trace
CDPATH=$room:/tmp
export CDPATH
by 'with CDPATH set' clone/st2110 trace
by 'with CDPATH set, by sh' sh clone/st2110 trace
unset CDPATH
# Without words it is `trace`, and says at a terminal alone that it reads a script. `script` of
# util-linux makes a terminal.
by 'without words, from a file' clone/st2110
"$room/clone/st2110" <"$root/examples/first-datagram.trace" 2>&1 | cat >out
status=0
says 'launcher: without words, into a pipe' 0 "kept 1
$frame" ''
cat "$root/examples/first-datagram.trace" | clone/st2110 >out 2>err
status=$?
says 'launcher: without words, from a pipe' 0 "kept 1
$frame" ''
# at_terminal WORD..: as `launch`, where what is typed is the first script and then the end.
at_terminal() {
    script -q -e -c "$* >out 2>said" /dev/null <"$root/examples/first-datagram.trace" >/dev/null
    status=$?
    : >err
}
if script --version 2>/dev/null | grep -q util-linux; then
    at_terminal clone/st2110
    says 'launcher: without words, at a terminal' 0 "kept 1
$frame" ''
    tells 'launcher: without words, at a terminal, what it says' \
        "st2110: reading a script from standard input, up to Ctrl-D; 'st2110 --help' tells the commands"
    at_terminal clone/st2110 trace
    says 'launcher: trace, at a terminal' 0 "kept 1
$frame" ''
    tells 'launcher: trace, at a terminal, in silence' ''
else
    echo "skipped: the launcher at a terminal, since there is no script of util-linux"
fi

# Another command waits where the part is being built, and then has the whole program built, which all
# commands have from then on. The part is made one that ends otherwise, so that it shows which is started.
reported='receiver YCbCr-4:2:2 8 4 2 60/1 pt 96 ssrc any
frame 900 present 8 missing 8 contested 0
missing row 1 columns 0 to 3
end'
spoil() {
    printf '#!/bin/sh\nexit 9\n' >clone/crates/script_program/out/script_program
}
# by_part NAME WORD..: whether the launcher starts the spoilt part, in silence.
by_part() {
    way=$1
    shift
    launch clone/st2110 "$@"
    says "launcher: $way" 9 '' ''
    tells "launcher: $way, in silence" ''
}
spoil
for words in '' trace '-v trace' 'sdp text' '--quiet --verbose rehearse' help 'help send' -h -V; do
    # shellcheck disable=SC2086
    by_part "the part for '$words'" $words
done
rm -rf clone/crates/*/out
first_two report g.rcv
says 'launcher: a command of the whole program' 0 "$reported" ''
tells 'launcher: a command of the whole program, what it says' \
    "st2110: another run builds the program; this one waits for it
$begins
st2110: proving st2110, crate 1 of 1, 0 min so far, about 2 more"
spoil
by 'the whole program, for all commands' clone/st2110 trace
cd elsewhere || exit 125
"$room/clone/st2110" send --out here.cap --max 42 ../row.pic >../out 2>../err
status=$?
cd .. || exit 125
says 'launcher: files are named from where the person stands' 0 'sent 1' ''
if [ -e elsewhere/here.cap ]; then
    pass 'launcher: the file stands there'
else
    fail 'launcher: the file stands there' 'it does not'
fi

# A source that is newer builds it anew, and so does one of a crate that it stands on, but no other.
# What only the whole program stands on leaves its commands to the part.
sleep 1
touch clone/crates/st2110/src/main.rt
by_part 'a newer source of the whole program' trace
launch clone/st2110 report g.rcv
says 'launcher: a newer source' 0 "$reported" ''
tells 'launcher: a newer source, what it says' "$begins
st2110: proving st2110, crate 1 of 1, 0 min so far, about 2 more"
for name in low left right other; do
    mkdir -p "clone/crates/$name/src"
    : >"clone/crates/$name/src/lib.rt"
done
sleep 1
printf '%s\n' low: 'other: low' 'st2110: left right clap # the program' 'right: low' 'left: low' \
    'script_program: left' >clone/crates.txt
launch clone/st2110 report g.rcv
tells 'launcher: other crates' "$begins
st2110: proving low, crate 1 of 4, 0 min so far, about 5 more
st2110: proving left, crate 2 of 4, 0 min so far, about 4 more
st2110: proving right, crate 3 of 4, 0 min so far, about 3 more
st2110: proving st2110, crate 4 of 4, 0 min so far, about 2 more"
sleep 1
touch clone/crates/other/src/lib.rt
by 'a newer source that it does not stand on' clone/st2110 trace
touch clone/crates/left/src/lib.rt
launch clone/st2110 report g.rcv
tells 'launcher: a newer source below it' "$begins
st2110: proving left, crate 1 of 2, 0 min so far, about 3 more
st2110: proving st2110, crate 2 of 2, 0 min so far, about 2 more"
sleep 1
touch clone/crates/left/src/lib.rt
launch clone/st2110 trace
says 'launcher: other crates of the part' 0 "kept 1
$frame" ''
tells 'launcher: other crates of the part, what it says' "$begins_part
st2110: proving low, crate 1 of 3, 0 min so far, about 3 more
st2110: proving left, crate 2 of 3, 0 min so far, about 2 more
st2110: proving script_program, crate 3 of 3, 0 min so far, about 1 more"
sleep 1
touch clone/crates/right/src/lib.rt
spoil
by_part 'a newer source that the part does not stand on' trace
touch clone/crates/left/src/lib.rt
launch clone/st2110 trace
tells 'launcher: a newer source below the part' "$begins_part
st2110: proving left, crate 1 of 2, 0 min so far, about 2 more
st2110: proving script_program, crate 2 of 2, 0 min so far, about 1 more"

# Side by side, each crate is proved in a room, and the program is built in the clone.
ST2110_ROOMS=2
rooms=$room/cache/woqtarish
anew() {
    rm -rf clone/crates/*/out
    : >built
    : >tries
}
anew
launch clone/st2110 report g.rcv
says 'launcher: in rooms' 0 "$reported" ''
tells 'launcher: in rooms, what it says' "$begins
st2110: proving low, crate 1 of 4, 0 min so far, about 4 more
st2110: proving left, crate 2 of 4, 0 min so far, about 3 more
st2110: proving right, crate 3 of 4, 0 min so far, about 3 more
st2110: proving st2110, crate 4 of 4, 0 min so far, about 2 more"
sed 's,in .*/\([^/]*\)/crates/,in \1 ,; s/--jobs [1-9][0-9]*/--jobs N/' built | sort >order
expect 'lib --jobs N in 1 left
lib --jobs N in 1 low
lib --jobs N in 2 right
run --jobs N -- --version in clone st2110' >want.order
if cmp -s order want.order; then
    pass 'launcher: in rooms, where each is proved'
else
    fail 'launcher: in rooms, where each is proved' "$(cat built)"
fi
if [ -z "$(ls "$rooms")" ]; then
    pass 'launcher: the rooms are cleared'
else
    fail 'launcher: the rooms are cleared' "$(ls "$rooms"/*)"
fi
anew
launch clone/st2110 --version
says 'launcher: the part in rooms' 0 "st2110 $version" ''
tells 'launcher: the part in rooms, what it says' "$begins_part
st2110: proving low, crate 1 of 3, 0 min so far, about 3 more
st2110: proving left, crate 2 of 3, 0 min so far, about 2 more
st2110: proving script_program, crate 3 of 3, 0 min so far, about 1 more"
if [ -z "$(ls "$rooms")" ] && [ ! -e clone/crates/st2110/out/st2110 ]; then
    pass 'launcher: the part in rooms, which are cleared, and no more'
else
    fail 'launcher: the part in rooms, which are cleared, and no more' "$(ls "$rooms"/* clone/crates/st2110/out)"
fi
# A kit that doesn't take in one room what another proved has the clone alone.
for kit in 'rattle-kit-13b logic 0123456789abcdef' 'rattle-kit-9 logic 0123456789abcdef' 'of another kind'; do
    echo "$kit" >kit
    anew
    launch clone/st2110 --version
    says "launcher: $kit" 0 "st2110 $version" ''
    if [ "$(sed 's,.*/\([^/]*\)/crates/.*,\1,' built | sort -u)" = clone ]; then
        pass "launcher: $kit, where each is proved"
    else
        fail "launcher: $kit, where each is proved" "$(cat built)"
    fi
done
echo 'rattle-kit-14 logic 0123456789abcdef' >kit
# One that is stopped ends its proofs, and the next one goes on with what they left, also of the part.
anew
echo left >held
clone/st2110 --version >first 2>&1 &
turns=0
until [ $turns -eq 100 ] || grep -q crates/left built; do
    sleep 0.1
    turns=$((turns + 1))
done
kill -TERM $!
wait $!
status=$?
: >out
: >err
says 'launcher: stopped' 143 '' ''
if [ "$(tail -n 1 first)" = 'st2110: stopped; the next run goes on where this one was' ]; then
    pass 'launcher: stopped, what it says'
else
    fail 'launcher: stopped, what it says' "$(cat first)"
fi
rm -f held
sleep 0.3
none 'launcher: stopped, with its proofs' "$rooms"/*/1/crates/left/out
: >clone/crates/low/src/new.rt
rm -f clone/crates/low/src/lib.rt
: >built
echo right >refused
launch clone/st2110 report g.rcv
rm -f refused
says 'launcher: a crate that is not proved' 125 '' ''
if grep -q -x 'kept low' built && [ "$(tail -n 1 said)" = \
    "st2110: the program was not built; the whole text of the build is in $crates/st2110/out/launcher/right.log" ]; then
    pass 'launcher: it goes on where it was'
else
    fail 'launcher: it goes on where it was' "$(cat built said)"
fi
if [ "$(ls "$rooms"/*/1/crates/low/src)" = new.rt ]; then
    pass 'launcher: a room has the sources as they stand'
else
    fail 'launcher: a room has the sources as they stand' "$(ls "$rooms"/*/1/crates/low/src)"
fi

# What reads standard input alone is tried meanwhile, and the proved program gets the same.
# shown NAME TEXT: whether the launcher said just this of a try.
shown() {
    if [ "$(grep 'not yet' said)" = "$2" ]; then
        pass "$1"
    else
        fail "$1" "$(cat said)"
    fi
}
# untried NAME: whether nothing was tried.
untried() {
    if [ -s tries ]; then
        fail "$1" "tried in $(cat tries)"
    else
        pass "$1"
    fi
}
anew
echo 'not yet proved: frame' >awaited
launch clone/st2110 trace
says 'launcher: tried' 0 "kept 1
$frame" ''
shown 'launcher: tried, what it says' "st2110: not yet proved: kept 1
st2110: not yet proved: $frame"
if grep -q '/crates/script_program$' tries; then
    pass 'launcher: the part is tried'
else
    fail 'launcher: the part is tried' "$(cat tries)"
fi
anew
echo 'not yet proved: st2110: script' >awaited
echo format | clone/st2110 >out 2>said
status=$?
rm -f awaited
tail -n 1 said >err
says 'launcher: tried without words, at fault' 1 '' 'st2110: script 1'
shown 'launcher: tried at fault, what it says' 'st2110: not yet proved: st2110: script 1'
anew
: >untried
launch clone/st2110 trace
rm -f untried
says "launcher: what can't be tried" 0 "kept 1
$frame" ''
shown "launcher: what can't be tried, in silence" ''
anew
{
    head -n 2 "$root/examples/first-datagram.trace"
    head -c 17000000 /dev/zero | tr '\0' '\n'
    tail -n 1 "$root/examples/first-datagram.trace"
} | clone/st2110 trace >out 2>said
status=$?
tail -n 1 said >err
# It is longer than a script may be: the line behind those that end within 16,777,216 octets is at fault.
front=$(head -n 2 "$root/examples/first-datagram.trace" | wc -c)
says 'launcher: an input that is too large to be tried' 1 '' "st2110: script $((16777219 - front))"
untried 'launcher: an input that is too large'
# An input that can't be kept, by a `head` that fails. The next run gives the program its own.
anew
printf '#!/bin/sh\nexit 1\n' >bin/head
chmod +x bin/head
launch clone/st2110 trace
rm -f bin/head
says "launcher: an input that can't be kept" 125 '' ''
tail -n 1 said >last
mv last said
tells "launcher: an input that can't be kept, what it says" \
    "st2110: standard input can't be read, or not be kept: the program stands now, so run it again"
by "behind an input that couldn't be kept" clone/st2110 trace
anew
launch clone/st2110 --help
untried 'launcher: a command that does not read'
ST2110_ROOMS=1
anew
launch clone/st2110 trace
says 'launcher: one room' 0 "kept 1
$frame" ''
untried 'launcher: one room'

# The version: with the commit where the clone is a repository, and a + where a file of its crates
# isn't as the commit has it. Words beside it leave the line to the program.
# version_is NAME WORD LINE: whether the launcher, asked for the version so, prints just this line.
version_is() {
    launch clone/st2110 "$2"
    says "launcher: $1" 0 "$3" ''
}
version_is 'the version where there is no repository' --version "st2110 $version"
if command -v git >/dev/null; then
    in_clone() {
        GIT_CONFIG_GLOBAL=/dev/null git -C clone -c user.name=n -c user.email=n -c commit.gpgsign=false "$@"
    }
    printf 'out/\n' >clone/.gitignore
    in_clone init -q
    in_clone add .
    in_clone commit -q -m first
    hash=$(in_clone rev-parse --short HEAD)
    version_is 'the version and the commit' --version "st2110 $version ($hash)"
    version_is 'the version and the commit, in short' -V "st2110 $version ($hash)"
    launch elsewhere/link --version
    says 'launcher: the version and the commit, by a link' 0 "st2110 $version ($hash)" ''
    : >clone/notes
    version_is 'the version, a file beside the crates is new' --version "st2110 $version ($hash)"
    : >clone/crates/st2110/new
    version_is 'the version, a file of a crate is new' --version "st2110 $version ($hash+)"
    rm -f clone/crates/st2110/new
    echo '# more' >>clone/crates.txt
    version_is 'the version, a file differs' --version "st2110 $version ($hash+)"
    in_clone checkout -q crates.txt
    launch clone/st2110 --version --verbose
    says 'launcher: the version with another word' 0 "st2110 $version" ''
    PATH=$room/bare:$room/bin launch clone/st2110 --version
    says 'launcher: the version without git' 0 "st2110 $version" ''
    (clone/st2110 --version >/dev/full) 2>err
    status=$?
    : >out
    says 'launcher: the version, on a full device' 3 '' ''
    rm -rf clone/.git
else
    echo "skipped: the launcher's commit, since there is no git"
fi

# A file in the place of the folder `out`: that it can't be written to holds for root, too.
rm -rf clone/crates/*/out
for crate in script_program st2110; do
    : >"clone/crates/$crate/out"
    launch clone/st2110 trace
    says "launcher: where it may not write, $crate" 125 '' ''
    tells "launcher: where it may not write, $crate, in one line" \
        "st2110: the program isn't built, and $crates/$crate/out can't be written to"
    rm -f "clone/crates/$crate/out"
done
launch clone/st2110 --help
says 'launcher: --help of a program that is not built' 0 "$(cat out)" ''
case $(cat out) in
    *Usage:*receive*) pass 'launcher: --help tells the commands' ;;
    *) fail 'launcher: --help tells the commands' "$(cat out)" ;;
esac

# A file that reaches its greatest size is a device's fault, and no signal that kills the program.
launch clone/st2110 report g.rcv
{
    octets 5332305049433031 0008 0400 0100 0000003C 00000001
    head -c 524288 /dev/zero
} >large.pic
(ulimit -f 1 && clone/st2110 send --out large.cap large.pic) >out 2>err
status=$?
says 'launcher: the greatest size of a file' 3 '' 'st2110: device'

# Ctrl-C, which ends what records into a pipe, lets the program finish with what came.
mkfifo recorder
interrupted() {
    { cat "$root/examples/$1" && sleep 1; } >recorder &
    shift
    timeout -s INT 0.3 "$@" <recorder >out 2>err
    wait
}
interrupted path-a.cap clone/st2110 receive --window 900 --state recorded.rcv -
status=0
says 'launcher: Ctrl-C of a pipe that receive reads' 0 'delivered 1
frame 900 present 12 missing 4 contested 0' ''
interrupted recordings/loopback.pcap clone/st2110 -v inspect -
grep -q '^flows 1' out && pass 'launcher: Ctrl-C of a pipe that inspect reads' ||
    fail 'launcher: Ctrl-C of a pipe that inspect reads' "$(cat out err)"
interrupted path-a.cap clone/st2110 receive --window 900 --state - /dev/stdin
: >out
says 'launcher: Ctrl-C of a pipe that is no recorder' 0 '' ''
rm -f recorder recorded.rcv
PATH=$wide
unset ST2110_ROOMS XDG_CACHE_HOME
