# Pictures of each sampling and depth, sent, received, reported and processed: payload type 100, 4 by
# 2 pixels, 30000/1001 frames a second. Each is 3003 ticks behind the last; with the second the
# timestamps begin anew.
early=4294966296
late=2003
stamp='00000001'

# grouped DIGITS: a row's octets as a receiver's file has them, with the state 1 before each pgroup.
grouped() {
    printf '%s' "$1" | sed "s/.\{$((2 * size))\}/01&/g"
}

# Where the samples of a row lie, in the order of its octets: column and component.
places() {
    case $sampling in
        YCbCr-4:2:2) echo '0 1,0 0,0 2,1 0,2 1,2 0,2 2,3 0' ;;
        YCbCr-4:4:4) echo '0 1,0 0,0 2,1 1,1 0,1 2,2 1,2 0,2 2,3 1,3 0,3 2' ;;
        RGB) echo '0 0,0 1,0 2,1 0,1 1,1 2,2 0,2 1,2 2,3 0,3 1,3 2' ;;
    esac
}

# asked ROW: a line of a script for each sample of a row.
asked() {
    places | tr , '\n' | sed "s/^/cell $early $1 /"
}

# values TEXT: a line of trace's output for each value.
values() {
    echo "$1" | tr ' ' '\n' | sed 's/^/value /'
}

# What each kind comes to. A packet has one row, so that a picture has two.
kind() {
    kind="$sampling, $depth bits"
    packet=$((20 + ${#upper} / 2))
    count=$((2 * $(places | tr , '\n' | wc -l)))
    long=$(printf '%04X' $((${#upper} / 2)))
    raster="$code 0004 0002 00007530 000003E9"
    front="5332305243563031 $raster 64 00 00000000 02"
    reported="receiver $sampling $depth 4 2 30000/1001 pt 100 ssrc any"
    first_row="8064FFFE FFFFFC18 $stamp 0000 $long 0000 0000 $upper"
    second_row="80E4FFFF FFFFFC18 $stamp 0000 $long 0001 0000"
    printf '%s\n' 'm=video 5004 RTP/AVP 100' 'a=rtpmap:100 raw/90000' \
        "a=fmtp:100 sampling=$sampling; width=4; height=2; depth=$depth; $sdp_end" >kind.sdp
    octets "5332305049433031 $raster $upper $lower" >early.pic
    octets "5332305049433031 $raster $next_upper $next_lower" >late.pic
    kind_sent
    kind_received
    kind_differs
    kind_valued
    kind_processed
}
sdp_end='exactframerate=30000/1001; colorimetry=BT709; PM=2110GPM; SSN=ST2110-20:2017'

# recorded MOMENT DIGITS: the record of a datagram by path A.
recorded() {
    digits=$(printf '%s' "$2" | tr -d ' \n')
    printf '00 %016X %04X %s' "$1" $((${#digits} / 2)) "$digits"
}

# Two pictures as a capture: packet numbers go on from 65534, over what 16 bits hold.
kind_sent() {
    run send --sdp kind.sdp --pt 100 --first 65534 --base $early --max $packet --out kind.cap \
        early.pic late.pic
    says "$kind: sent" 0 'sent 4' ''
    {
        octets 5332304341503032 "$(printf '%04X' "$(wc -c <kind.sdp)")"
        cat kind.sdp
        octets "$(recorded 0 "$first_row")" "$(recorded 1 "$second_row $lower")" \
            "$(recorded 2 "80640000 000007D3 $stamp 0001 $long 0000 0000 $next_upper")" \
            "$(recorded 3 "80E40001 000007D3 $stamp 0001 $long 0001 0000 $next_lower")"
    } >want.cap
    alike "$kind: sent, the capture" kind.cap want.cap
}

# That capture, received by its text, and what is reported of it.
kind_received() {
    run receive --window $early,$late --state kind.rcv kind.cap
    says "$kind: received" 0 "delivered 4
frame $early present $count missing 0 contested 0
frame $late present $count missing 0 contested 0" ''
    holds "$kind: received, the receiver" kind.rcv "$front FFFFFC18 $(grouped "$upper$lower")
        000007D3 $(grouped "$next_upper$next_lower")"
    run report kind.rcv
    says "$kind: reported" 0 "$reported
frame $early present $count missing 0 contested 0
frame $late present $count missing 0 contested 0
end" ''
}

# The first picture alone, and its lower row once more, in which one sample is another.
kind_differs() {
    octets 5332304341503031 "$(recorded 0 "$first_row")" "$(recorded 1 "$second_row $lower")" \
        "$(recorded 2 "$second_row $differs")" >differs.cap
    run receive --sdp kind.sdp --window $early,$late --state differs.rcv differs.cap
    says "$kind: a sample that differs" 0 "delivered 3
frame $early present $((count - 1)) missing 0 contested 1
frame $late present 0 missing $count contested 0" ''
    nothing=$(grouped "$next_upper$next_lower" | sed "s/01.\{$((2 * size))\}/00/g")
    holds "$kind: a sample that differs, the receiver" differs.rcv "$front
        FFFFFC18 $(grouped "$upper") $contested 000007D3 $nothing"
    run report differs.rcv
    says "$kind: a sample that differs, reported" 0 "$reported
frame $early present $((count - 1)) missing 0 contested 1
contested row 1 column $column $component
frame $late present 0 missing $count contested 0
missing row 0 columns 0 to 3
missing row 1 columns 0 to 3
end" ''
}

# The first picture's samples as numbers.
kind_valued() {
    feed trace "format $sampling $depth 4 2 30000/1001
open 100 any $early
A $(printf '%s' "$first_row" | tr -d ' ')
B $(printf '%s' "$second_row$lower" | tr -d ' ')
$(asked 0)
$(asked 1)
"
    says "$kind: values" 0 "kept 65534
kept 65535
$(values "$upper_values")
$(values "$lower_values")
frame $early present $count missing 0 contested 0" ''
}

# The first picture in its nominal range, as one packet.
kind_processed() {
    run process --job limit:nominal --ts $early --fill 0,0,0 --pt 100 --base $late \
        --out limited.cap kind.rcv
    says "$kind: processed" 0 'sent 1' ''
    limited="$long 0000 8000 $long 0001 0000 $limited_upper $limited_lower"
    holds "$kind: processed, the capture" limited.cap "5332304341503032 0000
        $(recorded 0 "80E40000 000007D3 $stamp 0000 $limited")"
}

# Of each kind: sampling, depth, their codes in a file, and the octets of a pgroup; the values of the
# first picture's two rows; their octets; the second picture's; the first one's in nominal range
# (luma and RGB 16 to 235, Cb and Cr 16 to 240, times 2^(depth - 8)); its lower row with another value
# of one sample, and that sample's column and component; the lower row of a receiver that took both, a
# state before each pgroup: behind 02 the mask, and the sample as 0.
while read -r sampling depth code size; do
    read -r upper_values
    read -r lower_values
    read -r upper lower
    read -r next_upper next_lower
    read -r limited_upper limited_lower
    read -r differs column component
    read -r contested
    kind
done <<'END'
YCbCr-4:2:2 8 0008 4
0 255 165 76 32 119 182 139
218 216 67 84 224 208 254 0
00FFA54C2077B68B DAD84354E0D0FE00
8C7C12661013DDF8 8F0F31CF20DCA721
10EBA54C2077B68B DAD84354E0D0F010
DAD84354E0D1FE00 2 Y
01DAD84354020002E000FE00
YCbCr-4:2:2 10 000A 5
0 1023 930 831 868 959 286 304
7 78 39 122 163 89 1023 0
003FFE8B3FD93BF47930 01C4E09C7A28C59FFC00
28A60BC864850C64D0E3 743B8B189CC807AC68F1
103ACE8B3FD93AC47930 1004E1007A28C59F0040
01C4E09C7A28C59FFC01 3 Y
0101C4E09C7A02000828C59FFC00
YCbCr-4:2:2 12 000C 6
0 4095 1027 1964 1069 2236 1995 1976
3009 2753 2294 3644 3992 2893 4095 0
000FFF4037AC42D8BC7CB7B8 BC1AC18F6E3CF98B4DFFF000
8136D88094ABC5D1DE306DB1 2A18550D980CCBD80EAA5AF6
100EB04037AC42D8BC7CB7B8 BC1AC18F6E3CF00B4DF00100
BC0AC18F6E3CF98B4DFFF000 0 Cb
020001000AC18F6E3C01F98B4DFFF000
YCbCr-4:2:2 16 0010 8
0 65535 12447 19403 17629 55392 18617 24486
47285 33128 49628 41332 5398 20639 65535 0
0000FFFF309F4BCB44DDD86048B95FA6 B8B58168C1DCA1741516509FFFFF0000
8910F41353FA562149D490BE21ED978D 467FA62049CC3AD56D79CBA3927BAFA1
1000EB00309F4BCB44DDD86048B95FA6 B8B58168C1DCA1741516509FF0001000
B8B58168C1DCA1741516509FFFFE0000 2 Cr
01B8B58168C1DCA1740200041516509F00000000
YCbCr-4:4:4 8 0108 3
0 255 93 70 252 71 123 42 248 223 94 76
5 109 243 0 25 237 120 189 127 155 254 0
00FF5D46FC477B2AF8DF5E4C 056DF30019ED78BD7F9BFE00
33748B90D97C62036AA13028 40898902E30D5BD927095AF3
10EB5D46EB477B2AF0DF5E4C 106DF01019ED78BD7F9BEB10
056DF30018ED78BD7F9BFE00 1 Y
01056DF30200020000ED0178BD7F019BFE00
YCbCr-4:4:4 10 010A 15
0 1023 690 908 859 776 533 1001 877 494 823 156
406 448 341 872 940 989 244 62 177 517 1023 0
003FFACB8CD6F08857E9DB5EECDC9C 659C055768EB3DD3D03E2C605FFC00
B0F7C5428392D750ECC95651F06A2B B272E67D2AA540640A8C58AA2DFAC0
103ACACB8CD6F08857ACDB5EECDC9C 659C055768EB3C03D0402C605EB040
659C055768EB3DD3D03E2C605FFC01 3 Cr
020800659C055768EB3DD3D03E2C605FFC00
YCbCr-4:4:4 12 010C 9
0 4095 2145 1785 962 2973 2092 678 975 1374 509 109
1508 3964 1553 1560 2325 800 3837 4004 2417 1115 4095 0
000FFF8616F93C2B9D82C2A63CF55E1FD06D 5E4F7C611618915320EFDFA497145BFFF000
6D7E4FE4D4D712B786DCA016B276E6D4E6A6 1F5207D14FE82DA730F1CC1A1E88393CD7F9
100EB08616F93C2B9D82C2A63CF55E1FD100 5E4EB0611618915320EFDEB097145BEB0100
5E4F7C611618915321EFDFA497145BFFF000 1 Cr
0200205E4F7C61161891500001EFDFA497145BFFF000
YCbCr-4:4:4 16 0110 6
0 65535 36166 23353 7084 32130 49841 23701 5224 36784 28857 45333
55165 42818 8379 25619 62341 51932 57729 18429 58500 30399 65535 0
0000FFFF8D465B391BAC7D82C2B15C9514688FB070B9B115 D77DA74220BB6413F385CADCE18147FDE48476BFFFFF0000
E0DF9F77A5F70210D859BCD7176E56F34A59E8605DF53E0B 8A6B3D52C85BA3F9FFA93AE3DBB16F27727995A3D47D7E05
1000EB008D465B391BAC7D82C2B15C9514688FB070B9B115 D77DA74220BB6413EB00CADCE18147FDE48476BFEB001000
D77DA74220BB6413F385CADCE18147FDE48476BEFFFF0000 3 Cb
01D77DA74220BB016413F385CADC01E18147FDE4840200010000FFFF0000
RGB 8 0208 3
0 255 48 148 97 10 202 105 45 132 45 180
191 6 5 189 198 56 132 153 119 78 254 0
00FF3094610ACA692D842DB4 BF0605BDC6388499774EFE00
11A84A7EE6131684BE68BDEC A19E0CBB330E3A95677E394A
10EB30946110CA692D842DB4 BF1010BDC6388499774EEB10
BF0604BDC6388499774EFE00 0 B
020004BF060001BDC63801849977014EFE00
RGB 10 020A 15
0 1023 684 725 84 902 362 984 411 786 867 830
263 736 1014 490 736 296 313 83 97 727 1023 0
003FFAB2D5153865ABD866F12D8F3E 41EE0FD9EAB81284E453186D7FFC00
722E7C24A1BBD3C9F973E82405DB6C CCDF2D0A875B365E339DEBA6C642F5
103ACAB2D5153865ABAC66F12D8F3E 41EE0EB1EAB81284E453186D7EB040
41EE0FD9EAB81284E453186D7FF800 3 G
02040041EE0FD9EAB81284E453186D700000
RGB 12 020C 9
0 4095 957 1962 3377 3429 992 2864 3553 1935 1155 3062
3731 2806 2285 2978 3766 2403 1011 1180 3602 380 4095 0
000FFF3BD7AAD31D653E0B30DE178F483BF6 E93AF68EDBA2EB69633F349CE1217CFFF000
48FEC578DCFD53342E7FA9F601FF347111C3 42A520B5FC95882A3A36B96E5A74E360B846
100EB03BD7AAD31D653E0B30DE178F483BF6 E93AF68EDBA2EB09633F349CE1217CEB0100
E93AF68EDBA2EB69633F249CE1217CFFF000 2 R
01E93AF68EDBA2EB696302000100049CE1217CFFF000
RGB 16 0210 6
0 65535 19733 44167 37383 30811 37228 232 21472 56547 1550 4674
25131 24347 39221 38499 38120 54164 48216 53507 16959 10190 65535 0
0000FFFF4D15AC879207785B916C00E853E0DCE3060E1242 622B5F1B9935966394E8D394BC58D103423F27CEFFFF0000
14CF8040DE10D1A7D9D955B59E117E3E969FEC03AE3D00C5 74A5DBF24FBA5569203B2721E56588E292BE77C35ECF87AF
1000EB004D15AC879207785B916C100053E0DCE310001242 622B5F1B9935966394E8D394BC58D103423F27CEEB001000
622B5F1A9935966394E8D394BC58D103423F27CEFFFF0000 0 G
020002622B0000993501966394E8D39401BC58D103423F0127CEFFFF0000
END
