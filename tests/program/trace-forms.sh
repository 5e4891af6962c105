# The forms of a script's lines: what is of its form, and which line is at fault where one is not. `format` and `open`
# are the first lines of most of these scripts.
# Where one line is not of its form, and nothing is printed: the line at fault, and the script.
at_fault trace 'a script ends before its first lines' <<END
1|
2|\n
4|\n\r\n\n
2|$format\n
3|$format\n\n
2|$format
4|\n\n$format\n
END
at_fault trace 'a line stands where it may not' <<END
1|open 96 any 900\n
1|A -\n
1|cell 900 0 0 0\n
2|$format\nA -\n
2|$format\n$format\n
3|$open\n$format\n
3|$open\nopen 96 any 900\n
4|\n$format\n\ncell 900 0 0 0\n
END
at_fault trace 'single spaces, and words as they are spelled' <<END
1| $format\n
1|format  YCbCr-4:2:2 8 4 2 60/1\n
1|format YCbCr-4:2:2 8 4 2 60/1 \n
1|format\tYCbCr-4:2:2 8 4 2 60/1\n
1|Format YCbCr-4:2:2 8 4 2 60/1\n
1|format\n
1|picture 00\n
3|$open\nA\n
3|$open\na -\n
3|$open\nC -\n
3|$open\nA - \n
3|$open\nA  -\n
3|$open\n\r
END
at_fault trace 'samplings as they are spelled, and depths' <<END
1|format YCbCr-4:2:0 8 4 2 60/1\n
1|format ycbcr-4:2:2 8 4 2 60/1\n
1|format RGB  8 4 2 60/1\n
1|format rgb 8 4 2 60/1\n
1|format  8 4 2 60/1\n
1|format RGB 9 4 2 60/1\n
1|format RGB 0 4 2 60/1\n
1|format RGB x 4 2 60/1\n
END
at_fault trace 'numbers of one to ten digits, of 32 bits' <<END
1|format RGB 8  2 60/1\n
1|format RGB 8 4294967296 2 60/1\n
1|format RGB 8 00000000004 2 60/1\n
1|format RGB 8 +4 2 60/1\n
1|format RGB 8 -4 2 60/1\n
1|format RGB 8 4a 2 60/1\n
1|format RGB 8 4 2 60\n
1|format RGB 8 4 2 60/\n
1|format RGB 8 4 2 /1\n
1|format RGB 8 4 2 60/1/1\n
1|format RGB 8 4 2 60 1\n
1|format RGB 8 4 2 60/1\r
END
at_fault trace 'a payload type to 127, a source, a window' <<END
2|$format\nopen 128 any 900\n
2|$format\nopen x any 900\n
2|$format\nopen  any 900\n
2|$format\nopen 96 Any 900\n
2|$format\nopen 96 -1 900\n
2|$format\nopen 96 4294967296 900\n
2|$format\nopen 96 any\n
2|$format\nopen 96 any \n
2|$format\nopen 96 any 900,\n
2|$format\nopen 96 any ,900\n
2|$format\nopen 96 any 900,,901\n
2|$format\nopen 96 any 900, 901\n
2|$format\nopen 96 any -,900\n
2|$format\nopen 96 any 900 901\n
2|$format\nopen 96 any 4294967296\n
END
at_fault trace 'an even number of digits, or - for no octets' <<END
3|$open\nA \n
3|$open\nB \n
3|$open\nA 8\n
3|$open\nA 80E\n
3|$open\nA 8G\n
3|$open\nA 80 E0\n
3|$open\nA --\n
3|$open\nA -80\n
3|$open\nA 0x80\n
3|$open\nB 80\r\r\n
END
at_fault trace 'a cell is named by four numbers' <<END
3|$open\ncell\n
3|$open\ncell 900\n
3|$open\ncell 900 0 0\n
3|$open\ncell 900 0 0 0 0\n
3|$open\ncell 900 0 0 \n
3|$open\ncell 900 0  0\n
3|$open\ncell 900 0 0 Y\n
3|$open\ncell 900 -1 0 0\n
3|$open\ncell 4294967296 0 0 0\n
END
at_fault trace "lines of other scripts than trace's" <<END
3|$open\nstamp 96 0 900 1\n
3|$open\nslide 0 2400\n
END

# What was printed before a fault stays printed, and no frame lines follow it: fault, output and script.
refuses trace 'what was printed stays' <<END
script 6|kept 1\nrefused 1 ShortHeader|$open\nA $d1\nA -\n\nB 8\n
script 4|missing|$open\ncell 900 0 0 0\nopen\n
script 4|kept 1|$open\nA $d1\nA -\r
END

# A refused format or opening ends the run at its line; what follows is not read.
refuses trace 'a format' <<END
format 1 BadWidth||format YCbCr-4:2:2 8 3 2 60/1\nbad\n
format 1 BadWidth||format YCbCr-4:2:2 8 0 0 0/0\n
format 1 BadWidth||format YCbCr-4:4:4 10 6 1 60/1\n
format 1 BadWidth||format RGB 8 8194 2 60/1\n
format 2 BadHeight||format RGB 8 4 0 60/1\n
format 2 BadHeight||format RGB 8 4 8193 0/1\n
format 3 BadRate||format RGB 8 4 2 0/1\n
format 3 BadRate||format RGB 8 4 2 60/0\n
format 3 BadRate||format RGB 8 4 2 301/1\n
format 3 BadRate||format RGB 8 4 2 4294967295/4294967295
END
refuses trace 'an opening' <<END
open 2 BadWindow||$format\nopen 96 any -\nbad\n
open 2 BadWindow||$format\nopen 96 any 1,2,3,4,5,6,7,8,9,10,11,12,13,14,15,16,17\n
END

# Scripts that are run to their end: output and script.
prints trace 'another spelling' <<END
$blank|$open\n
$blank|$open
$blank|format YCbCr-4:2:2 8 4 2 60/1\r\nopen 96 any 900\r\n
$blank|\n\r\n$format\n\n\nopen 96 any 900\n\r\n
$blank|format YCbCr-4:2:2 08 0000000004 02 00060/1\nopen 0000000096 any 0000000900\n
kept 1\n$frame|$open\nA 80e00001000003840000000100000008000000008010801180128013
frame 4294967295 present 0 missing 16 contested 0|$format\nopen 127 4294967295 4294967295\n
kept 1\n$frame|$format\nopen 96 1 900\nB $d1\n
END
prints trace 'a raster of each sampling' <<END
frame 900 present 0 missing 24 contested 0|format YCbCr-4:4:4 8 4 2 60/1\nopen 96 any 900\n
missing\nframe 900 present 0 missing 24 contested 0|format RGB 8 4 2 60000/1001\nopen 96 any 900\ncell 900 1 3 2\n
missing\nmissing\n$blank|$open\ncell 900 1 3 0\ncell 900 1 2 2\n
none\nnone\nnone\nnone\nnone\n$blank|$open\ncell 901 0 0 0\ncell 900 2 0 0\ncell 900 0 4 0\ncell 900 0 0 3\ncell 900 0 3 1\n
none\nnone\n$blank|$open\ncell 900 0 0 256\ncell 900 4294967295 4294967295 4294967295\n
END
prints trace 'outside the window' <<END
outside\n$blank|$open\nA 80E00001000003850000000100000008000000008010801180128013\n
END

# packed-octets: the octets of a pgroup, and its samples in the order in which they are sent. Rows DEPTH|SAMPLING|OCTETS|SAMPLES.
while IFS='|' read -r depth sampling digits samples; do
    pixels=2
    places='0.1 0.0 0.2 1.0'
    if [ "$sampling" = YCbCr-4:4:4 ]; then
        pixels=4
        places='0.1 0.0 0.2 1.1 1.0 1.2 2.1 2.0 2.2 3.1 3.0 3.2'
    fi
    length=$(printf '%04X' $((${#digits} / 2)))
    script="format $sampling $depth $pixels 1 60/1\nopen 96 any 900\nA 80E0000100000384000000010000${length}00000000$digits"
    output='kept 1'
    set -- $samples
    count=$#
    for place in $places; do
        script="$script\ncell 900 0 ${place%.*} ${place#*.}"
        output="$output
value $1"
        shift
    done
    shows trace "packed-octets: $sampling of $depth bits" "$script" "$output
frame 900 present $count missing 0 contested 0"
done <<'END'
10|YCbCr-4:2:2|80040803AC|512 64 512 940
12|YCbCr-4:2:2|800100800EB0|2048 256 2048 3760
16|YCbCr-4:2:2|800010008000EB00|32768 4096 32768 60160
10|YCbCr-4:4:4|800408020010200800408020010200|512 64 512 512 64 512 512 64 512 512 64 512
END
# cut-datagrams: a datagram cut at each octet, within the header of RTP (12), the payload's (8) and the row (8).
script=$open
output=
length=0
while [ $length -lt 28 ]; do
    part=$(printf '%s' "$d1" | cut -c "1-$((2 * length))")
    [ $length != 0 ] || part=-
    script="$script\nA $part"
    case $length in
        ? | 1[01]) refusal='1 ShortHeader' ;;
        1*) refusal='7 ShortPayloadHeader' ;;
        *) refusal='14 ShortData' ;;
    esac
    output="${output}refused $refusal
"
    length=$((length + 1))
done
shows trace 'cut-datagrams' "$script" "$output$blank"
