# Windows of several timestamps, slides, and the numbers of the datagrams that were kept.

# No timestamp or more than 16, and then one that stands twice. What follows is not read.
refuses trace 'a window' <<END
open 3 DoubleTimestamp||$format\nopen 96 any 900,900\n
open 2 BadWindow||$format\nopen 96 any -\nbad\n
open 2 BadWindow||$format\nopen 96 any 1,2,3,4,5,6,7,8,9,10,11,12,13,14,15,16,17\n
open 2 BadWindow||$format\nopen 96 any 1,1,2,3,4,5,6,7,8,9,10,11,12,13,14,15,16\n
open 3 DoubleTimestamp||$format\nopen 96 any 1,2,3,4,5,6,7,8,9,10,11,12,13,14,15,1\n
open 3 DoubleTimestamp||$format\nopen 96 any 900,0900\nbad\n
END
shows trace 'the frames of a window, in its order' "$format
open 96 any 901,900
A $d1" "kept 1
frame 901 present 0 missing 16 contested 0
$frame"
shows trace 'sixteen timestamps' "$format
open 96 any 1,2,3,4,5,6,7,8,9,10,11,12,13,14,15,16
A 80E0000700000010000000010000000800000000$u
A 80E0000800000011000000010000000800000000$u" "kept 7
outside
frame 1 present 0 missing 16 contested 0
frame 2 present 0 missing 16 contested 0
frame 3 present 0 missing 16 contested 0
frame 4 present 0 missing 16 contested 0
frame 5 present 0 missing 16 contested 0
frame 6 present 0 missing 16 contested 0
frame 7 present 0 missing 16 contested 0
frame 8 present 0 missing 16 contested 0
frame 9 present 0 missing 16 contested 0
frame 10 present 0 missing 16 contested 0
frame 11 present 0 missing 16 contested 0
frame 12 present 0 missing 16 contested 0
frame 13 present 0 missing 16 contested 0
frame 14 present 0 missing 16 contested 0
frame 15 present 0 missing 16 contested 0
frame 16 present 8 missing 8 contested 0"
shows trace 'the greatest timestamp and the least' "$format
open 96 any 4294967295,0
A 80E0000300000000000000010000000800000000$u
A 80E00004FFFFFFFF000000010000000800000000$u
cell 0 0 0 0
cell 4294967295 1 0 0" "kept 3
kept 4
value 16
missing
frame 4294967295 present 8 missing 8 contested 0
frame 0 present 8 missing 8 contested 0"

# A slide to any timestamp that the window has is refused, and nothing moves.
shows trace 'slides to what the window has' "$format
open 96 any 900,2400
slide 900
slide 2400" "refused slide 1 InWindow
refused slide 1 InWindow
$blank
frame 2400 present 0 missing 16 contested 0"
shows trace 'a slide to what it has now' "$open
A $d1
slide 2400
slide 2400
slide 0000002400" "kept 1
out 900 present 8 missing 8 contested 0
refused slide 1 InWindow
refused slide 1 InWindow
frame 2400 present 0 missing 16 contested 0"

# The first frame leaves with what it held, the others stay, and the new one is blank, also where its timestamp was in
# the window before.
shows trace 'a timestamp that was in the window before' "$open
A $d1
B 80E00001000003840000000100000008000000008020801180128013
slide 901
slide 900
slide 901" "kept 1
kept 1
out 900 present 7 missing 8 contested 1
out 901 present 0 missing 16 contested 0
out 900 present 0 missing 16 contested 0
frame 901 present 0 missing 16 contested 0"
shows trace 'the first frame leaves, the others stay' "$format
open 96 any 1,2,3
A 80E0000100000002000000010000000800000000$u
A 80E0000200000002000000010000000800010000$u
slide 4
A 80E0000300000004000000010000000800000000$u
slide 5" "kept 1
kept 2
out 1 present 0 missing 16 contested 0
kept 3
out 2 present 16 missing 0 contested 0
frame 3 present 0 missing 16 contested 0
frame 4 present 8 missing 8 contested 0
frame 5 present 0 missing 16 contested 0"

# Only datagrams that are kept, and behind the line `numbers`, are noted.
shows trace 'what is kept before numbers' "$open
A $d1
numbers 1 2
B 80E0000200000384000000010000000800000000$u" "kept 1
kept 2
$frame
absent 1 1"
shows trace 'outside and refused' "$open
numbers 0 4
A 80E0000000000385000000010000000800000000$u
A -
A $d1
B 80E0000200000384000000010000000800000000$u" "outside
refused 1 ShortHeader
kept 1
kept 2
$frame
absent 0 1
absent 3 1"
shows trace 'kept after a slide' "$open
numbers 1 1
slide 7
A 80E0000100000007000000010000000800000000$u" "out 900 present 0 missing 16 contested 0
kept 1
frame 7 present 8 missing 8 contested 0"
shows trace 'the greatest count' "$open
numbers 4294967295 1048576" "$blank
absent 4294967295 1048576"

# A count is from 1 to 1,048,576, and numbers are noted once; a second line is at fault whatever its count.
refuses trace 'numbers' <<END
numbers 2 BadCount||$open\nnumbers 5 0\nbad\n
numbers 2 BadCount|kept 1|$open\nA $d1\nnumbers 0 1048577\n
numbers 2 BadCount||$open\nnumbers 0 4294967295\n
script 5|kept 1|$open\nnumbers 1 2\nA $d1\nnumbers 1 2\n
script 5||$open\nnumbers 1 2\n\nnumbers 1 0\n
END
at_fault trace 'slides and numbers' <<END
3|$open\nnumbers\n
3|$open\nnumbers 1\n
3|$open\nnumbers 1 \n
3|$open\nnumbers  1 2\n
3|$open\nnumbers 1 2 \n
3|$open\nnumbers 1 2 3\n
3|$open\nnumbers 1 -2\n
3|$open\nnumbers 4294967296 1\n
3|$open\nNumbers 1 2\n
3|$open\nslide\n
3|$open\nslide \n
3|$open\nslide x\n
3|$open\nslide -\n
3|$open\nslide 1 2\n
3|$open\nslide 901 \n
3|$open\nslide 4294967296\n
3|$open\nSlide 901\n
1|numbers 1 2\n
2|$format\nnumbers 1 2\n
2|$format\nslide 901\n
END

# Lines of datagrams of these numbers, each with d1's octets. What is missing of 1 number, of the greatest count, and
# beside the bounds of words of 64 bits.
numbered() {
    for number in "$@"; do
        printf 'A 80E0%04X0000038400000001%04X000800000000%s\\n' $((number % 65536)) $((number / 65536)) "$u"
    done
}
numbers() {
    says_kept=
    for number in $3; do
        says_kept="${says_kept}kept $number
"
    done
    frames=$frame
    [ -n "$3" ] || frames=$blank
    shows trace "$1" "$open\nnumbers $2\n$(numbered $3)" "$says_kept$frames$4"
}
numbers 'one number, none noted' '5 1' '' '
absent 5 1'
numbers 'one number, others noted' '5 1' '6 4' '
absent 5 1'
numbers 'one number, noted' '5 1' '6 4 5' ''
numbers '1,048,576 numbers, none noted' '5 1048576' '' '
absent 5 1048576'
numbers '1,048,576 numbers, the last noted' '5 1048576' '1048581 1048580 1048580' '
absent 5 1048575'
numbers 'runs beside the bounds of words' '0 130' '0 63 64 127 129' '
absent 1 62
absent 65 62
absent 128 1'
numbers 'runs beside the bounds of words, and one more' '0 130' '0 63 64 127 129 128 130' '
absent 1 62
absent 65 62'
