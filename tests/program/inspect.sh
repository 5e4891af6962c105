# inspect: the flows of a recording in the order of their first coming. Each card brought 8 datagrams of 224 octets, from
# source 7; 1792 octets in 45.6 and 45.4 ms are 0.31 Mbit/s.
run inspect "$recordings/two-cards.pcapng"
says 'inspect: two cards' 0 'flow 239.1.1.1:5004
  datagrams 8, octets 1792, RTP 8
  payload type 96, source 7: datagrams 8, timestamps 900 to 4500
  from 1795698902.376560750 to 1795698902.422140336, 0.31 Mbit/s
flow 239.1.1.2:5006
  datagrams 8, octets 1792, RTP 8
  payload type 96, source 7: datagrams 8, timestamps 900 to 4500
  from 1795698902.378472575 to 1795698902.423861109, 0.31 Mbit/s
flows 2' ''
# Two recordings of one flow, in either order: the times are the least and the greatest of both, 43.2 ms apart.
for files in 'alike-a alike-b' 'alike-b alike-a'; do
    # shellcheck disable=SC2086
    set -- $files
    run inspect "$recordings/$1.pcap" "$recordings/$2.pcap"
    says "inspect: $files" 0 'flow 239.1.1.1:5004
  datagrams 10, octets 712, RTP 10
  payload type 96, source 7: datagrams 10, timestamps 900 to 4500
  from 1795698904.721024000 to 1795698904.764265000, 0.13 Mbit/s
flows 1' ''
done
# A report of RTCP, whose second octet is 200, on the stream's port: 28 of 720 octets in 101 microseconds.
run inspect "$recordings/ffmpeg.pcap"
says 'inspect: RTCP' 0 'flow 127.0.0.1:5004
  datagrams 7, octets 720, RTP 6, RTCP 1
  payload type 96, source 7: datagrams 6, timestamps 807210377 to 807213977
  from 1795698912.999113000 to 1795698912.999214000, 57.02 Mbit/s
flows 1' ''
# A question of DNS, an empty datagram to the stream's port, a packet of sound; ARP, and ICMP, TCP and IGMP.
run inspect "$recordings/foreign.pcapng"
says 'inspect: foreign traffic' 0 'flow 192.0.2.2:53
  datagrams 1, octets 25, RTP 0
  from 1795698909.532424618 to 1795698909.532424618
flow 192.0.2.2:5004
  datagrams 7, octets 564, RTP 6
  payload type 96, source 7: datagrams 6, timestamps 900 to 4500
  from 1795698909.532572505 to 1795698909.603024567, 0.06 Mbit/s
flow 239.1.1.9:5006
  datagrams 1, octets 300, RTP 1
  payload type 97, source 8: datagrams 1, timestamps 2450223378 to 2450223378
  from 1795698909.635701015 to 1795698909.635701015
flows 3
left out 2 NotIp
left out 10 NotUdp' ''
# The same as objects of JSON, which Python reads where it is there.
run inspect --json "$recordings/foreign.pcapng"
says 'inspect --json: foreign traffic' 0 '{"flow":"192.0.2.2:53","datagrams":1,"octets":25,"rtp":0,"rtcp":0,"streams":[],"other_streams":false,"first":1795698909.532424618,"last":1795698909.532424618,"mbit_per_second":null}
{"flow":"192.0.2.2:5004","datagrams":7,"octets":564,"rtp":6,"rtcp":0,"streams":[{"payload_type":96,"source":7,"datagrams":6,"first_timestamp":900,"last_timestamp":4500}],"other_streams":false,"first":1795698909.532572505,"last":1795698909.603024567,"mbit_per_second":0.06}
{"flow":"239.1.1.9:5006","datagrams":1,"octets":300,"rtp":1,"rtcp":0,"streams":[{"payload_type":97,"source":8,"datagrams":1,"first_timestamp":2450223378,"last_timestamp":2450223378}],"other_streams":false,"first":1795698909.635701015,"last":1795698909.635701015,"mbit_per_second":null}
{"flows":3,"left_out":{"CutShort":0,"NotIp":2,"BadIpHeader":0,"NotUdp":10,"Fragment":0,"BadUdpLength":0}}' ''
if command -v python3 >python3.path; then
    while read -r object; do
        printf '%s' "$object" | python3 -m json.tool >object.out 2>object.err ||
            fail 'inspect --json: an object for Python' "$(cat object.err): $object"
    done <out
    pass 'inspect --json: objects for Python'
fi
run inspect --json "$recordings/cut-block.pcapng"
says_last=$(tail -n 1 out)
if [ "$status" = 1 ] && [ "$(cat err)" = 'st2110: recording 2 Truncated' ] && [ "${says_last%%,*}" = '{"flows":1' ]; then
    pass 'inspect --json: a recording that is cut short'
else
    fail 'inspect --json: a recording that is cut short' "status $status: $(cat err): $says_last"
fi
run inspect "$recordings/two-cards.pcapng"
"$program" inspect - <"$recordings/two-cards.pcapng" >again 2>err
status=$?
: >again.err
if [ "$status" = 0 ] && cmp -s out again && cmp -s err again.err; then
    pass 'inspect: standard input'
else
    fail 'inspect: standard input' "status $status: $(head -c 200 err)"
fi
run inspect "$recordings/loopback.sdp"
says 'inspect: no recording' 1 '' 'st2110: recording 3 BadMagic'
run inspect "$recordings/loopback.pcap" "$recordings/loopback.pcap.gz"
says 'inspect: packed' 1 '' 'st2110: recording 10 Packed'
run inspect no-such-file
says 'inspect: no such file' 3 '' 'st2110: device'
# A pipe, of which what was read to see that it is no capture is given again.
# shellcheck disable=SC2002
cat "$recordings/two-cards.pcapng" | "$program" inspect - >out 2>err
alike 'inspect: a pipe' out again
