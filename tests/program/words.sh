# The words of the command line: help and version, and words that are refused.
#
# holds_words NAME WORD..: whether the last run ended well, silent on standard error, and printed
# each word.
holds_words() {
    name=$1
    shift
    lacks=
    for word in "$@"; do
        grep -q -F -e "$word" out || lacks="$lacks '$word'"
    done
    if [ "$status" = 0 ] && [ ! -s err ] && [ -z "$lacks" ]; then
        pass "$name"
    else
        fail "$name" "status $status, without$lacks: $(head -c 200 err)"
    fi
}

# The version is that of the top heading of CHANGELOG.md.
for asked in --version -V; do
    run $asked
    # (the launcher says the commit too: launcher.sh)
    [ "$program" != "$root/st2110" ] || sed -i 's/ ([0-9a-f]*+\{0,1\})$//' out
    says "$asked" 0 "st2110 $version" ''
done
for asked in --help -h help; do
    run $asked
    holds_words "$asked" 'Usage: st2110' trace sdp rehearse migrate send receive merge process report loop \
        import inspect export follow convert picture --verbose --quiet --help --version
done

# Of each command the help has every option and file.
while read -r command options; do
    for asked in "$command --help" "$command -h" "help $command"; do
        # shellcheck disable=SC2086
        run $asked
        # shellcheck disable=SC2086
        holds_words "$asked" "Usage: st2110 $command" --help --verbose --quiet $options
    done
done <<'END'
trace
sdp --write --a --b --pt 96 ADDR:PORT [FILE]
rehearse
migrate --sdp --out FILE <CAPTURE>
send --out --pt --first --base --ssrc --max --paths --sdp --progress 96 1400 <PICTURE>...
receive --sdp --a --b --window --ssrc --state --refusals --progress any [ADDR:]PORT <RECORDING>...
merge --state <LEFT> <RIGHT> [MORE]...
process --job --ts --fill --hold --sdp --out --pt --first --base --ssrc --max 96 1400 <STATE>...
report <STATE>
loop --max --limit 1400 100000 <PICTURE>
import --sdp --a --b --out --progress [ADDR:]PORT <RECORDING>...
inspect --sdp --format --pt --a --b --json --progress 96 [ADDR:]PORT <RECORDING>...
export --a ADDR:PORT --b --out --paced --start SECONDS FILE <CAPTURE>
follow --sdp --a --b --window --ssrc --eager --out --pictures --report --fill --hold --progress any 8 [ADDR:]PORT <RECORDING>...
convert --from --as --nth --rate FORM 25/1 <IN> <OUT>
picture --ts --fill --hold --mark --as FORM y4m ppm raw --out <STATE>
END

# Words that are refused, and nothing is written: rows are WORDS|TEXT|USAGE, as `misworded` has them.
twice='cannot be used multiple times'
no_value='but none was supplied'
digit='invalid digit found in string'
start='invalid value'
seconds="for '--start <SECONDS>': it isn't seconds below 4294967296, with up to nine digits behind a point"
rate='a rate from 1 to 300 pictures a second, as 60 or 60000/1001'
process='process --job <JOB> --ts <TS> --fill <A,B,C> --out <FILE>'
while IFS='|' read -r words text usage; do
    # shellcheck disable=SC2086
    run $words
    misworded "refused: $words" "$text" "$usage"
done <<END
frobnicate|unrecognized subcommand 'frobnicate'|[OPTIONS] [COMMAND]
help frobnicate|unrecognized subcommand 'frobnicate'|[OPTIONS] [COMMAND]
Trace|unrecognized subcommand 'Trace'\n\n  tip: a similar subcommand exists: 'trace'|[OPTIONS] [COMMAND]
trase|unrecognized subcommand 'trase'\n\n  tip: a similar subcommand exists: 'trace'|[OPTIONS] [COMMAND]
--frobnicate|unexpected argument '--frobnicate' found|[OPTIONS] [COMMAND]
-x|unexpected argument '-x' found|[OPTIONS] [COMMAND]
trace examples|unexpected argument 'examples' found|trace [OPTIONS]
trace sdp|unexpected argument 'sdp' found|trace [OPTIONS]
trace --out f.cap|unexpected argument '--out' found|trace [OPTIONS]
trace --verbose --verbose|the argument '--verbose' $twice|trace [OPTIONS]
sdp q.sdp q.sdp|unexpected argument 'q.sdp' found|sdp [OPTIONS] [FILE]
sdp --sdp q.sdp|unexpected argument '--sdp' found\n\n  tip: to pass '--sdp' as a value, use '-- --sdp'|sdp [OPTIONS] [FILE]
sdp --write|a value is required for '--write <S B W H N/D>' $no_value|-
sdp --write RGB|$missing\n  --a <ADDR:PORT>|sdp --write <S B W H N/D> --a <ADDR:PORT> [FILE]
sdp --a 10.0.0.1:5004|$missing\n  --write <S B W H N/D>|sdp --a <ADDR:PORT> --write <S B W H N/D> [FILE]
sdp --b 10.0.0.1:5004|$missing\n  --a <ADDR:PORT>\n  --write <S B W H N/D>|sdp --a <ADDR:PORT> --write <S B W H N/D> --b <ADDR:PORT> [FILE]
sdp --pt 97 q.sdp|$missing\n  --a <ADDR:PORT>\n  --write <S B W H N/D>|sdp --a <ADDR:PORT> --write <S B W H N/D> --pt <N> <FILE>
sdp --write RGB --a 10.0.0.1:5004 q.sdp|the argument '--write <S B W H N/D>' cannot be used with '[FILE]'|sdp --write <S B W H N/D> --a <ADDR:PORT> [FILE]
sdp --write RGB --a 10.0.0.1:5004 --pt 128|invalid value '128' for '--pt <N>': 128 is not in 0..=127|-
sdp --write RGB --a 10.0.0.1:5004|invalid value 'RGB' for '--write <S B W H N/D>': sampling, depth, width, height and rate, as YCbCr-4:2:2 10 1920 1080 60000/1001|-
rehearse --max 40|unexpected argument '--max' found|rehearse [OPTIONS]
migrate|$missing\n  --sdp <FILE>\n  --out <FILE>\n  <CAPTURE>|migrate --sdp <FILE> --out <FILE> <CAPTURE>
migrate old.cap|$missing\n  --sdp <FILE>\n  --out <FILE>|migrate --sdp <FILE> --out <FILE> <CAPTURE>
migrate --sdp q.sdp --out no-words.cap|$missing\n  <CAPTURE>|migrate --sdp <FILE> --out <FILE> <CAPTURE>
migrate --sdp q.sdp old.cap|$missing\n  --out <FILE>|migrate --sdp <FILE> --out <FILE> <CAPTURE>
migrate --out no-words.cap old.cap|$missing\n  --sdp <FILE>|migrate --sdp <FILE> --out <FILE> <CAPTURE>
migrate --sdp q.sdp --out no-words.cap old.cap old.cap|unexpected argument 'old.cap' found|migrate [OPTIONS] --sdp <FILE> --out <FILE> <CAPTURE>
migrate --sdp q.sdp --out no-words.cap --out no-words.cap old.cap|the argument '--out <FILE>' $twice|migrate [OPTIONS] --sdp <FILE> --out <FILE> <CAPTURE>
migrate --sdp q.sdp old.cap --out|a value is required for '--out <FILE>' $no_value|-
send|$missing\n  --out <FILE>\n  <PICTURE>...|send --out <FILE> <PICTURE>...
send --out no-words.cap|$missing\n  <PICTURE>...|send --out <FILE> <PICTURE>...
send p.pic|$missing\n  --out <FILE>|send --out <FILE> <PICTURE>...
send p.pic --out|a value is required for '--out <FILE>' $no_value|-
send p.pic --paths|a value is required for '--paths <PATHS>' $no_value\n  [possible values: a, b, both]|-
send --ou no-words.cap p.pic|unexpected argument '--ou' found\n\n  tip: a similar argument exists: '--out'|send --out <FILE> <PICTURE>...
send --out no-words.cap --out no-words.cap p.pic|the argument '--out <FILE>' $twice|send [OPTIONS] --out <FILE> <PICTURE>...
send --out no-words.cap --pt 128 p.pic|invalid value '128' for '--pt <N>': 128 is not in 0..=127|-
send --out no-words.cap --pt 256 p.pic|invalid value '256' for '--pt <N>': 256 is not in 0..=127|-
send --out no-words.cap --pt -1 p.pic|unexpected argument '-1' found\n\n  tip: to pass '-1' as a value, use '-- -1'|send [OPTIONS] --out <FILE> <PICTURE>...
send --out no-words.cap --pt x p.pic|invalid value 'x' for '--pt <N>': $digit|-
send --out no-words.cap --pt SDP --sdp q.sdp p.pic|invalid value 'SDP' for '--pt <N>': $digit|-
send --out no-words.cap --pt sdp p.pic|$missing\n  --sdp <FILE>|send --out <FILE> --sdp <FILE> --pt <N> <PICTURE>...
send --out no-words.cap --first 4294967296 p.pic|invalid value '4294967296' for '--first <N>': 4294967296 is not in 0..=4294967295|-
send --out no-words.cap --base 4294967296 p.pic|invalid value '4294967296' for '--base <TS>': 4294967296 is not in 0..=4294967295|-
send --out no-words.cap --ssrc any p.pic|invalid value 'any' for '--ssrc <N>': $digit|-
send --out no-words.cap --max 4294967296 p.pic|invalid value '4294967296' for '--max <OCTETS>': 4294967296 is not in 0..=4294967295|-
send --out no-words.cap --paths c p.pic|invalid value 'c' for '--paths <PATHS>'\n  [possible values: a, b, both]|-
send --out no-words.cap --paths A p.pic|invalid value 'A' for '--paths <PATHS>'\n  [possible values: a, b, both]|-
send --out no-words.cap --paths bot p.pic|invalid value 'bot' for '--paths <PATHS>'\n  [possible values: a, b, both]\n\n  tip: a similar value exists: 'both'|-
send --out no-words.cap --window 900 p.pic|unexpected argument '--window' found\n\n  tip: to pass '--window' as a value, use '-- --window'|send --out <FILE> <PICTURE>...
receive|$missing\n  --window <TS[,TS..]\0174all\0174first:N>\n  --state <FILE>\n  <RECORDING>...|receive --window <TS[,TS..]|all|first:N> --state <FILE> <RECORDING>...
receive --window 900 --state no-words.rcv|$missing\n  <RECORDING>...|receive --window <TS[,TS..]|all|first:N> --state <FILE> <RECORDING>...
receive --window 900 old.cap|$missing\n  --state <FILE>|receive --window <TS[,TS..]|all|first:N> --state <FILE> <RECORDING>...
receive --state no-words.rcv old.cap|$missing\n  --window <TS[,TS..]\0174all\0174first:N>|receive --window <TS[,TS..]|all|first:N> --state <FILE> <RECORDING>...
receive --window 900 --state no-words.rcv --refusals=yes old.cap|unexpected value 'yes' for '--refusals' found; no more were expected|receive --window <TS[,TS..]|all|first:N> --state <FILE> --refusals <RECORDING>...
receive --window 900 --state no-words.rcv --pt 96 old.cap|unexpected argument '--pt' found\n\n  tip: to pass '--pt' as a value, use '-- --pt'|receive --window <TS[,TS..]|all|first:N> --state <FILE> <RECORDING>...
merge|$missing\n  --state <FILE>\n  <LEFT>\n  <RIGHT>|merge --state <FILE> <LEFT> <RIGHT> [MORE]...
merge --state no-words.rcv|$missing\n  <LEFT>\n  <RIGHT>|merge --state <FILE> <LEFT> <RIGHT> [MORE]...
merge --state no-words.rcv g.rcv|$missing\n  <RIGHT>|merge --state <FILE> <LEFT> <RIGHT> [MORE]...
merge --state no-words.rcv g.rcv g.rcv --out g.rcv|unexpected argument '--out' found\n\n  tip: to pass '--out' as a value, use '-- --out'|merge --state <FILE> <LEFT> <RIGHT> [MORE]...
merge g.rcv g.rcv|$missing\n  --state <FILE>|merge --state <FILE> <LEFT> <RIGHT> [MORE]...
process|$missing\n  --job <JOB>\n  --ts <TS>\n  --fill <A,B,C>\n  --out <FILE>\n  <STATE>...|$process <STATE>...
process --job gain:1 --ts 900 --fill 0,0,0 --out no-words.cap|$missing\n  <STATE>...|$process <STATE>...
process --ts 900 --fill 0,0,0 --out no-words.cap g.rcv|$missing\n  --job <JOB>|$process <STATE>...
process --job gain:1 --fill 0,0,0 --out no-words.cap g.rcv|$missing\n  --ts <TS>|$process <STATE>...
process --job gain:1 --ts 900 --out no-words.cap g.rcv|$missing\n  --fill <A,B,C>|$process <STATE>...
process --job gain:1 --ts 900 --fill 0,0,0 g.rcv|$missing\n  --out <FILE>|$process <STATE>...
process --job gain:1 --ts x --fill 0,0,0 --out no-words.cap g.rcv|invalid value 'x' for '--ts <TS>': $digit|-
process --job gain:1 --ts 4294967296 --fill 0,0,0 --out no-words.cap g.rcv|invalid value '4294967296' for '--ts <TS>': 4294967296 is not in 0..=4294967295|-
process --job gain:1 --ts 900 --fill 0,0,0 --pt sdp --out no-words.cap g.rcv|invalid value 'sdp' for '--pt <N>': $digit|-
export --a 239.1.1.1:5004 --out no-words.pcap --start 5 old.cap|$missing\n  --paced|export --a <ADDR:PORT> --out <FILE> --paced --start <SECONDS> <CAPTURE>
export --a 239.1.1.1:5004 --out no-words.pcap --paced --start 1.0000000000 old.cap|$start '1.0000000000' $seconds|-
export --a 239.1.1.1:5004 --out no-words.pcap --paced --start 4294967296 old.cap|$start '4294967296' $seconds|-
export --a 239.1.1.1:5004 --out no-words.pcap --paced --start 1. old.cap|$start '1.' $seconds|-
export --a 239.1.1.1:5004 --out no-words.pcap --paced --start +1 old.cap|$start '+1' $seconds|-
export --a 239.1.1.1:5004 --out no-words.pcap --paced --start 1.-1 old.cap|$start '1.-1' $seconds|-
process --job gain:1 --ts 900 --fill 0,0,0 --pt 128 --out no-words.cap g.rcv|invalid value '128' for '--pt <N>': 128 is not in 0..=127|-
process --job gain:1 --ts 900 --fill 0,0,0 --paths b --out no-words.cap g.rcv|unexpected argument '--paths' found\n\n  tip: a similar argument exists: '--pt'|$process --pt <N> <STATE>...
report|$missing\n  <STATE>|report <STATE>
report g.rcv g.rcv|unexpected argument 'g.rcv' found|report [OPTIONS] <STATE>
report --state g.rcv|unexpected argument '--state' found\n\n  tip: to pass '--state' as a value, use '-- --state'|report [OPTIONS] <STATE>
loop|$missing\n  <PICTURE>|loop <PICTURE>
loop p.pic p.pic|unexpected argument 'p.pic' found|loop [OPTIONS] <PICTURE>
loop --max 4294967296 p.pic|invalid value '4294967296' for '--max <OCTETS>': 4294967296 is not in 0..=4294967295|-
loop --limit x p.pic|invalid value 'x' for '--limit <TURNS>': $digit|-
loop --limit 18446744073709551616 p.pic|invalid value '18446744073709551616' for '--limit <TURNS>': number too large to fit in target type|-
loop --out no-words.cap p.pic|unexpected argument '--out' found\n\n  tip: to pass '--out' as a value, use '-- --out'|loop [OPTIONS] <PICTURE>
import|$missing\n  --sdp <FILE>\n  --out <FILE>\n  <RECORDING>...|import --sdp <FILE> --out <FILE> <RECORDING>...
import r.pcap|$missing\n  --sdp <FILE>\n  --out <FILE>|import --sdp <FILE> --out <FILE> <RECORDING>...
import --sdp q.sdp r.pcap|$missing\n  --out <FILE>|import --sdp <FILE> --out <FILE> <RECORDING>...
import --out no-words.cap r.pcap|$missing\n  --sdp <FILE>|import --sdp <FILE> --out <FILE> <RECORDING>...
import --sdp q.sdp --out no-words.cap|$missing\n  <RECORDING>...|import --sdp <FILE> --out <FILE> <RECORDING>...
import --sdp q.sdp --out no-words.cap --window 900 r.pcap|unexpected argument '--window' found\n\n  tip: to pass '--window' as a value, use '-- --window'|import --sdp <FILE> --out <FILE> <RECORDING>...
import --sdp q.sdp --out no-words.cap --a r.pcap|$missing\n  <RECORDING>...|import --sdp <FILE> --out <FILE> --a <[ADDR:]PORT> <RECORDING>...
inspect|$missing\n  <RECORDING>...|inspect <RECORDING>...
inspect --window 900 r.pcap|unexpected argument '--window' found\n\n  tip: to pass '--window' as a value, use '-- --window'|inspect [OPTIONS] <RECORDING>...
inspect --sdp q.sdp --format RGB r.pcap|the argument '--sdp <FILE>' cannot be used with '--format <S B W H N/D>'|inspect --sdp <FILE> <RECORDING>...
inspect --pt 97 r.pcap|$missing\n  --format <S B W H N/D>|inspect --format <S B W H N/D> --pt <N> <RECORDING>...
export|$missing\n  --a <ADDR:PORT>\n  --out <FILE>\n  <CAPTURE>|export --a <ADDR:PORT> --out <FILE> <CAPTURE>
export --a 239.1.1.1:5004 old.cap|$missing\n  --out <FILE>|export --a <ADDR:PORT> --out <FILE> <CAPTURE>
export --out no-words.pcap old.cap|$missing\n  --a <ADDR:PORT>|export --a <ADDR:PORT> --out <FILE> <CAPTURE>
export --a 239.1.1.1:5004 --out no-words.pcap|$missing\n  <CAPTURE>|export --a <ADDR:PORT> --out <FILE> <CAPTURE>
export --a 239.1.1.1:5004 --out no-words.pcap old.cap old.cap|unexpected argument 'old.cap' found|export [OPTIONS] --a <ADDR:PORT> --out <FILE> <CAPTURE>
convert|$missing\n  <IN>\n  <OUT>|convert <IN> <OUT>
convert p.pic|$missing\n  <OUT>|convert <IN> <OUT>
convert p.pic no-words.cap p.pic|unexpected argument 'p.pic' found|convert [OPTIONS] <IN> <OUT>
convert --from raw p.pic no-words.cap|invalid value 'raw' for '--from <FORM>'\n  [possible values: picture, y4m, ppm]|-
convert --as y4 p.pic no-words.cap|invalid value 'y4' for '--as <FORM>'\n  [possible values: picture, y4m, ppm, raw]\n\n  tip: a similar value exists: 'y4m'|-
convert --nth x p.pic no-words.cap|invalid value 'x' for '--nth <N>': $digit|-
convert --rate 25:1 no-such-file no-words.cap|invalid value '25:1' for '--rate <N/D>': $rate|-
convert --rate 0 p.pic p.pic|invalid value '0' for '--rate <N/D>': $rate|-
convert --rate 301 p.pic no-words.cap|invalid value '301' for '--rate <N/D>': $rate|-
picture|$missing\n  --ts <TS>\n  --out <FILE>\n  <STATE>|picture --ts <TS> --out <FILE> <STATE>
picture --ts 900 --out no-words.pic|$missing\n  <STATE>|picture --ts <TS> --out <FILE> <STATE>
picture --ts 900 g.rcv|$missing\n  --out <FILE>|picture --ts <TS> --out <FILE> <STATE>
picture --out no-words.pic g.rcv|$missing\n  --ts <TS>|picture --ts <TS> --out <FILE> <STATE>
picture --ts x --out no-words.pic g.rcv|invalid value 'x' for '--ts <TS>': $digit|-
picture --ts 900 --as Y4M --out no-words.pic g.rcv|invalid value 'Y4M' for '--as <FORM>'\n  [possible values: picture, y4m, ppm, raw]|-
picture --ts 900 --out no-words.pic g.rcv g.rcv|unexpected argument 'g.rcv' found|picture [OPTIONS] --ts <TS> --out <FILE> <STATE>
END

# No command has a version of its own. The usage has what is always needed, and the option that the
# tip names.
while IFS='|' read -r command options files; do
    run "$command" --version
    misworded "refused: $command --version" \
        "unexpected argument '--version' found\n\n  tip: a similar argument exists: '--verbose'" \
        "$command$options --verbose$files"
done <<END
trace||
sdp|| [FILE]
rehearse||
migrate| --sdp <FILE> --out <FILE>| <CAPTURE>
send| --out <FILE>| <PICTURE>...
merge| --state <FILE>| <LEFT> <RIGHT> [MORE]...
process|${process#process}| <STATE>...
report|| <STATE>
loop|| <PICTURE>
import| --sdp <FILE> --out <FILE>| <RECORDING>...
inspect|| <RECORDING>...
export| --a <ADDR:PORT> --out <FILE>| <CAPTURE>
follow|| <RECORDING>...
convert|| <IN> <OUT>
picture| --ts <TS> --out <FILE>| <STATE>
END
run receive --version
misworded 'refused: receive --version' \
    "unexpected argument '--version' found\n\n  tip: a similar argument exists: '--verbose'" \
    'receive --window <TS[,TS..]|all|first:N> --state <FILE> --verbose <RECORDING>...'
"$program" "$(printf '\377')" >out 2>err </dev/null
status=$?
says 'a word that is no text' 2 '' 'error: the command line is no UTF-8 text'
none 'refused words write no capture' no-words.cap
none 'refused words write no receiver' no-words.rcv
none 'refused words write no recording' no-words.pcap
none 'refused words write no picture' no-words.pic
