#!/bin/sh
# Measures `sdp` on texts of very many items: names made to collide, and plain names of the same
# size. The hasher of the kit's maps has a fixed seed. Each of the six pairs below leaves the hasher
# in one state, whichever of the two follows the pairs before; and behind them all endings give
# hashes of one tag and one first group in a table of up to 4096 groups. So 64 * 256 names are
# sought one behind the other by a reader that keeps them by that hash, and it takes the square of
# their number. Prints both times, and how many times the plain one the other takes, for each number
# of items. Words: how many rounds (3); the best counts.
root=$(CDPATH='' cd -- "$(dirname -- "$0")/.." && pwd) || exit 1
rounds=${1:-3}
folder=$(mktemp -d "${TMPDIR:-/tmp}/st2110-bench.XXXXXX") || exit 1
trap 'rm -rf "$folder"' EXIT
program=$root/st2110
# The launcher looks whether the program is current: once, for a command that its part hasn't, then it is started itself.
"$program" receive --help >/dev/null || exit 1
program=$root/crates/st2110/out/st2110

cat >"$folder/pairs" <<'END'
kLGjrnqKGcC kwyBiha1q3C
NGD0PJEqLXD 5YSJubsr7sP
aLafYjG6YbB ejayASDroXP
ZYwYR2KnSeB fv16PXLb9dJ
BHamYrulAEH OnqbzDkHqjB
-sPdIZ2G5PM O6nGo9-jI5L
END
cat >"$folder/endings" <<'END'
AAAAA ffHAx i6TAP S9TAI 9NYAk zZZAz JnaAr xscAa DFdAM gudA4 gHgAj AMkAi efqAy uK4Av 0nMBN aFPBH
nbUBO 0gUBF NtVB7 NweBu a1gB0 6LyB4 y04BT py6Bb J86BY 0_6BQ _s7BH H_8BS rW-BU PzCC2 3VECc ctECk
rlMCd V8OC1 KFPCL L_PC5 VoUCQ rOWCH xiXCu xTYCJ pZZCE YDwCx YdwCH UmxCC c3xCG wFzCZ sm0CP sL3C6
Pa4CL qO8Cw r6_Co S-_CQ cuADj 11BDK QLCDr jvHDq pALD1 6nTDi PqXDw RhYDs OFZDE pDgDO lhhDu BuhDk
hypDl n0rDs E5rDL l9tDj GvuDB q3yDO rc5DD fX-Dx wUCE9 fDNE2 MYNEj PgUE3 ZtaE3 vqhE8 QrqEQ JduEK
i42EY mv7Es 0f9EB K3GF2 n2IFn llRFi pBTFf 5MUFc GacFy gZkF2 GYlF8 eJpFJ aCuF2 1zwFP 8W0FB K60Fp
uB1FE UM7FL 3B9FE T1_F4 GMAGy S_DGm FaLGw eTSGs 6fXGK p3dGF 8LeG5 08lGE gbtGd bNyGw fh3GH GaDHH
DjHH9 CAJHd KOMHj vDSHF 1PWHN v5ZHl owbHg yiqHk 4atHb _gwH2 mtyHf dv-Hw YdGID 9YHIf 5RIIv MwOIw
02PIT PjSIO eNWIL r8aI_ -8hIb vOiIl BSqIj UHzI4 rY4IB IE-Iy zQCJI vtKJ3 HHRJn _6TJe FVUJx AZVJO
K3WJY ebcJv 0VdJG bGiJW j8mJq RR0JD 6H3JX 2c4Je Te5JI Kk-Ja -zBKo e2BKP vlLKC 0qZKP Y_aKp 7jgKI
OAiKe HhkKG 9psKV GyzKS U30Kb zK5K6 Cw8K2 y_BLu sRILg YEKLr okKLM AQXLJ 2ZaLW VcbLs 5idLI 5efLM
OHiLl AgoLP XYuLi rNzL0 pC1La qs2Lv pz8Lw 108LK -4-Lt 0vCM3 8VDMV auOM_ lfUMP 6MYMV 2wYME b4hM-
L7jMA PDnMC 1VtMM 8JzMa 4WzMe cv0Mz M-0Mk vV8Ma CLJNd b2ONt gpVNy x1aNW JubNW 4KdN0 endNB ROlNg
9fzNS oz3NR uU7NH GMFOW bfFOl kTGOU SCMO0 viMO5 LeNO4 5kOO3 o8OOT QRWOS X9WO4 zqhOK YkqOp SuwOd
NTyOo Ft0Ov cU3OT 7q6Om tQ9OT ucEPi RuQP- RpSPC uKVPM TPVPB eZpPI 53wPE w93P2 iE4PC ce8P6 O2EQc
ZKGQr GTHQ6 qIMQH GSQQ7 9URQW ceSQn P2UQz MueQH YlhQu 87iQT yKqQr EbtQF YP4Qw phBRF sdFRk XPKR2
END

# The items of so many names that collide, 71 octets each, and of plain ones.
alike() {
    awk -v count="$1" '
        NR == FNR { first[NR - 1] = $1; second[NR - 1] = $2; next }
        { for (i = 1; i <= NF; i++) ending[endings++] = $i }
        END {
            for (i = 0; i < count; i++) {
                bits = i % 64
                name = ""
                for (k = 0; k < 6; k++) {
                    name = name (bits % 2 ? second[k] : first[k])
                    bits = int(bits / 2)
                }
                printf "%s%s;", name, ending[int(i / 64)]
            }
        }' "$folder/pairs" "$folder/endings"
}
plain() {
    awk -v count="$1" 'BEGIN {
        rest = sprintf("%063d", 0)
        for (i = 0; i < count; i++) printf "%08d%s;", i, rest
    }'
}

# A text that says a format behind these items.
text() {
    printf 'm=video 5004 RTP/AVP 96\na=rtpmap:96 raw/90000\na=fmtp:96 '
    "$1" "$2"
    printf 'sampling=YCbCr-4:2:2; width=1920; height=1080; exactframerate=60; depth=10; '
    printf 'colorimetry=BT709; PM=2110GPM; SSN=ST2110-20:2017\n'
}

# The microseconds of the best round over a text.
best() {
    least=
    i=0
    while [ "$i" -lt "$rounds" ]; do
        before=$(date +%s%N)
        "$program" sdp <"$1" >/dev/null || exit 1
        spent=$((($(date +%s%N) - before) / 1000))
        if [ -z "$least" ] || [ "$spent" -lt "$least" ]; then least=$spent; fi
        i=$((i + 1))
    done
    echo "$least"
}

# A line: how many items, of how many octets in all, and the times.
line() {
    awk -v count="$1" -v size="$(wc -c <"$2")" -v plain="$3" -v alike="$4" 'BEGIN {
        printf "%-8d %10d %12.1f %12s %8s\n", count, size, plain / 1000,
            alike == "" ? "-" : sprintf("%.1f", alike / 1000),
            alike == "" ? "-" : sprintf("%.2f", alike / plain)
    }'
}

printf '%-8s %10s %12s %12s %8s\n' items octets 'plain, ms' 'alike, ms' times
for count in 1024 4096 16384; do
    text plain "$count" >"$folder/plain"
    text alike "$count" >"$folder/alike"
    plain=$(best "$folder/plain") || exit 1
    alike=$(best "$folder/alike") || exit 1
    line "$count" "$folder/alike" "$plain" "$alike"
done
# As many as a text can have.
text plain 233000 >"$folder/plain"
plain=$(best "$folder/plain") || exit 1
line 233000 "$folder/plain" "$plain" ''
