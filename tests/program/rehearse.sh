# rehearse: schedules as scripts. `show` are the events of the example rehearsal.
show='send\nsend\narrive 0 A 0\nmerge 1 0\narrive 0 B 1\nslide 0 1500\narrive 0 A 1'
shows rehearse 'a timestamp that comes back' "$two
send
arrive 0 A 0
slide 0 1500
slide 0 0
merge 1 0" 'out 0 0 present 12 missing 4 contested 0
out 0 1500 present 0 missing 16 contested 0
receiver 0
frame 0 present 0 missing 16 contested 0
receiver 1
frame 0 present 0 missing 16 contested 0'
nothing='receiver 0
frame 0 present 0 missing 16 contested 0
receiver 1
frame 0 present 0 missing 16 contested 0'
shows rehearse 'no events' "$two" "$nothing"
shows rehearse 'all is sent, nothing arrives' "$two
send
send
send
send" "$nothing"

# eight-receivers: a chain of merges takes what arrived before them through all, and one against its order takes nothing.
turn "$two" 'receivers 2' 'receivers 8'
chain='send\nsend\narrive 7 B 0'
back=
wanted=
for receiver in 0 1 2 3 4 5 6; do
    chain="$chain\nmerge $((6 - receiver)) $((7 - receiver))"
    back="$back\nmerge $receiver $((receiver + 1))"
    present=12
    [ $receiver -lt 6 ] || present=16
    wanted="${wanted}receiver $receiver
frame 0 present $present missing $((16 - present)) contested 0
"
done
shows rehearse eight-receivers "$turned\n$chain\narrive 7 A 1$back" "${wanted}receiver 7
frame 0 present 16 missing 0 contested 0"

# sixteen-timestamps: of sixteen pictures every other one's second datagram arrives; sixteen slides hand them out.
window=0
shown="picture $u$l"
events=
slides=
wanted=
left='receiver 0'
k=0
while [ $k -lt 16 ]; do
    [ $k = 0 ] || window=$window,$((1500 * k))
    [ $k = 0 ] || shown="$shown\npicture $u$l"
    events="$events\nsend\nsend\narrive 0 A $((2 * k + k % 2))"
    slides="$slides\nslide 0 $((1500 * k + 24000))"
    present=$((12 - 8 * (k % 2)))
    wanted="${wanted}out 0 $((1500 * k)) present $present missing $((16 - present)) contested 0
"
    left="$left
frame $((1500 * k + 24000)) present 0 missing 16 contested 0"
    k=$((k + 1))
done
shows rehearse sixteen-timestamps "$format\nstamp 96 0 0 1\nmax 40\nwindow $window\nreceivers 1\n$shown$events$slides" "$wanted$left"

# CR before LF, empty lines, no LF at the end, leading zeros, digits of either case.
feed rehearse 'format RGB 8 2 1 25/1\r\n\n\nstamp 007 4294967295 4294967295 0\r\nmax 26\nwindow 4294967295,5
receivers 01\npicture aBcDeF012345\n\nsend\narrive 00 B 0\nslide 0 3604'
says 'rehearse: another spelling' 0 'out 0 4294967295 present 6 missing 0 contested 0
receiver 0
frame 5 present 0 missing 6 contested 0
frame 3604 present 0 missing 6 contested 0' ''

# Of the example: the fault, and what stands in the place of what.
while IFS='|' read -r fault old new; do
    turn "$two\n$show\n" "$old" "$new"
    feed rehearse "$turned"
    says "rehearse: $new for $old" 1 '' "st2110: $fault"
done <<END
play 6 BadReceivers|receivers 2|receivers 0
play 6 BadReceivers|receivers 2|receivers 9
play 3 BadWindow|window 0|window -
play 4 DoubleTimestamp|window 0|window 5,5
plan 2 BadPacketSize|max 40|max 23
plan 2 BadPacketSize|max 40|max 9001
format 1 BadWidth|8 4 2 60/1|8 3 2 60/1
script 2|stamp 96|stamp 128
script 2|stamp 96 0 0 1|stamp 96 0 0
script 2|stamp 96 0 0 1|stamp 96 0 0 1\040
script 2|stamp 96|max 96
script 3|max 40|max  40
script 4|window 0|window 0,
script 5|receivers 2|receivers 256
script 6|80168017\npicture|8016801\npicture
script 6|80168017\npicture|801680\npicture
script 6|80168017\npicture|8016801700\npicture
script 6|80168017\npicture|8016801g\npicture
script 8|80168017\npicture|80168017\nsend\npicture
script 8|send\nsend|send \nsend
script 8|send\nsend|Send\nsend
script 10|send\nsend|\n\nfoo\nsend
script 10|arrive 0 A 0|arrive 0 C 0
script 10|arrive 0 A 0|arrive 256 A 0
script 10|arrive 0 A 0|arrive 0 A
script 11|merge 1 0|merge 1 256
script 11|merge 1 0|merge 256 1
script 13|slide 0 1500|slide 0 4294967296
script 13|slide 0 1500|slide 256 0
END

# A script that ends too early has its fault behind its last line; a fault of the script comes before one of the plan or
# the schedule.
at_fault rehearse 'a script ends before its first lines' <<'END'
1|
3|format RGB 8 2 1 25/1\n\n
5|format RGB 8 2 1 25/1\nstamp 0 0 0 0\nmax 1\nwindow -\n
7|format RGB 8 2 1 25/1\nstamp 0 0 0 0\nmax 1\nwindow -\nreceivers 0\nmerge 0 0\nmerge\n
END

# Schedules that are refused, with the place of the event that is not admitted: the place, and the events.
bad_event() {
    while IFS='|' read -r place events; do
        stops rehearse "$1: $events" "$2\n$events" "play 2 BadEvent $place"
    done
}
bad_event 'a window of one timestamp' "$two" <<END
0|slide 0 0
0|merge 0 0
0|arrive 0 A 0
1|send\narrive 2 A 0
4|send\nsend\nsend\nsend\nsend
7|$show\nmerge 1 0
END
turn "$two" 'window 0' 'window 0,1500'
lasting=$turned

# Behind so many sends: no such receiver; not yet sent; in the window already; a receiver merged into itself; nothing
# left to send. What stands behind is not looked at.
sends=
i=0
while [ $i -le 4 ]; do
    for event in 'arrive 2 A 0' 'arrive 255 B 0' 'arrive 0 A 4' 'arrive 1 B 4294967295' 'slide 2 3000' 'slide 0 0' \
        'slide 1 1500' 'merge 2 0' 'merge 0 2' 'merge 0 0' 'merge 1 1'; do
        stops rehearse "behind $i sends: $event" "$lasting$sends\n$event\nslide 0 0" "play 2 BadEvent $i"
    done
    if [ $i -lt 4 ]; then
        event="arrive 0 A $i"
    else
        event=send
    fi
    stops rehearse "behind $i sends: $event" "$lasting$sends\n$event\nslide 0 0" "play 2 BadEvent $i"
    sends="$sends\nsend"
    i=$((i + 1))
done

# Windows are alike as lists: the same timestamps in another order are not.
bad_event 'a window of two timestamps' "$lasting" <<'END'
2|slide 0 3000\nslide 0 0\nslide 1 1500\nslide 1 4500\nmerge 0 1
5|slide 0 3000\nslide 0 0\nslide 1 4500\nslide 1 0\nslide 1 3000\nmerge 0 1
END

# What is tested before the first event, in this order, whatever the events are: the fault, window and receivers.
while IFS='|' read -r fault window receivers; do
    turn "$two" 'window 0' "window $window"
    turn "$turned" 'receivers 2' "receivers $receivers"
    stops rehearse "rehearse: window $window, $receivers receivers" "$turned\nmerge 0 0" "play $fault"
done <<'END'
3 BadWindow|-|0
3 BadWindow|5,5,5,5,5,5,5,5,5,5,5,5,5,5,5,5,5|1
4 DoubleTimestamp|7,7|0
6 BadReceivers|7|0
6 BadReceivers|7|9
6 BadReceivers|7|255
2 BadEvent 0|7|8
END
