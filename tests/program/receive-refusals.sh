# receive --refusals: how many datagrams were refused for which reason, of more than a receiver
# keeps, and of more than one octet or two can count.
head='00000384 00000001 0000'

# copies COUNT DIGITS: so many records of one datagram, by path B.
copies() {
    digits=$(printf '%s' "$2" | tr -d ' ')
    size=$((11 + ${#digits} / 2))
    octets "01 0000000000000000 $(printf '%04X' $((size - 11))) $digits" >copies.rec
    while [ "$(wc -c <copies.rec)" -lt $(($1 * size)) ]; do
        cat copies.rec copies.rec >twice.rec
        mv twice.rec copies.rec
    done
    head -c $(($1 * size)) copies.rec
}

# Each refusal alone: COUNT LINE|DATAGRAM.
while IFS='|' read -r line datagram; do
    {
        octets 5332304341503031
        copies "${line##* }" "$datagram"
    } >tally.cap
    run receive --state tally.rcv --sdp q.sdp --window 900 --ssrc 1 --refusals tally.cap
    case $line in
        outside*) told="outside the window ${line##* }" ;;
        *) told="refused ${line##* } ($(echo "$line" | cut -d ' ' -f 4,3 | awk '{ print $2, $1 }'))" ;;
    esac
    says "tally: $line alone" 0 "delivered ${line##* }
$line
$blank" "  kept 0 of ${line##* } datagrams; $told"
done <<END
refused 1 ShortHeader 1001|
refused 2 BadVersion 1002|40E00001 $head 0008 0000 0000 $u
refused 3 ShortExtension 1003|90E00001 00000384 00000001 BEDE FFFF 00000000 0000 0008 0000 0000 $u
refused 4 BadPadding 1004|A0E00001 $head 0008 0000 0000 $u 00
refused 5 WrongPayloadType 1005|80E40001 $head 0008 0000 0000 $u
refused 6 WrongSource 1006|80E00001 00000384 00000002 0000 0008 0000 0000 $u
refused 7 ShortPayloadHeader 1007|80E00001 $head 0004
refused 8 TooManySegments 1008|80E00001 $head 0004 0000 8000 0004 0000 8002 0004 0001 8000 $u
refused 9 SecondField 1009|80E00001 $head 0004 8000 0000 80108011
refused 10 BadLength 1010|80E00001 $head 0006 0000 0000 801080118012
refused 11 BadOffset 1011|80E00001 $head 0004 0000 0001 80108011
refused 12 RowOutside 1|80E00001 $head 0004 0002 0000 80108011
refused 12 RowOutside 1012|80E00001 $head 0004 0002 0000 80108011
refused 12 RowOutside 70012|80E00001 $head 0004 0002 0000 80108011
refused 13 ColumnsOutside 1013|80E00001 $head 0008 0000 0002 $u
refused 14 ShortData 1|80E00001 $head 0008 0000 0000 80108011801280
refused 14 ShortData 1014|80E00001 $head 0008 0000 0000 80108011801280
refused 14 ShortData 70014|80E00001 $head 0004 0000 8000 0004 0000 8002 0004 0001 0000 $u
outside 1015|80E00001 00000385 00000001 0000 0008 0000 0000 $u
END

# Those of two captures, in the order of their numbers, whatever came first, and one datagram that
# is kept.
{
    octets 5332304341503031
    copies 260 "80E00001 $head 0008 0000 0000 80108011801280"
    copies 2 "80E00001 00000385 00000001 0000 0008 0000 0000 $u"
    copies 1 "$d1"
    copies 300 "80E00001 $head 0004 0002 0000 80108011"
} >tally.cap
{
    octets 5332304341503031
    copies 70 "40E00001 $head 0008 0000 0000 $u"
    copies 800 "80E00001 $head 0008 0000 0000 80108011801280"
    copies 3 ''
} >other.cap
run receive --state tally.rcv --sdp q.sdp --window 900 --refusals tally.cap other.cap
says 'tally: of two captures' 0 "delivered 1436
refused 1 ShortHeader 3
refused 2 BadVersion 70
refused 12 RowOutside 300
refused 14 ShortData 1060
outside 2
$frame" '  kept 1 of 1436 datagrams; outside the window 2; refused 1433 (1060 ShortData, 300 RowOutside, 70 BadVersion)'
rm -f tally.cap other.cap copies.rec
