# Pictures that FFmpeg wrote, read and written again by convert. examples/forms/README.md tells them.

# frame NAME PLACE OCTETS: the planes of a picture of examples/forms/NAME.y4m, of which each has so many octets: those behind
# the stream's line and the lines FRAME.
frame() {
    {
        read -r head
        front=$((${#head} + 1 + $2 * ($3 + 6) + 6))
    } <"$forms/$1.y4m"
    tail -c +$((front + 1)) "$forms/$1.y4m" | head -c "$3"
}

# again NAME C OCTETS: whether both pictures of a stream are read, and written as a stream of one, whose line is C's word.
again() {
    for place in 0 1; do
        run convert --nth $place "$forms/$1.y4m" form.pic
        says "forms: $1, picture $place, read" 0 '' ''
        run convert form.pic form.y4m
        says "forms: $1, picture $place, written" 0 '' ''
        {
            printf 'YUV4MPEG2 W16 H4 F30000:1001 Ip A1:1 C%s\nFRAME\n' "$2"
            frame "$1" $place "$3"
        } >want.y4m
        alike "forms: $1, picture $place, the same" form.y4m want.y4m
    done
    run convert --nth 2 "$forms/$1.y4m" third.pic
    says "forms: $1, no third picture" 1 '' 'st2110: form 7 Truncated'
}

forms=${FORMS:-$root/examples/forms}
again yuv422p 422 128
again yuv422p10le 422p10 256
again yuv422p12le 422p12 256
again yuv422p16le 422p16 256
again yuv444p 444 192
again yuv444p10le 444p10 384
again yuv444p12le 444p12 384
again yuv444p16le 444p16 384

# Pgroups of 4:2:2 at 8 bits are FFmpeg's uyvy422; of RGB at 8 and 16 bits they are a pixmap's raster.
for place in 0 1; do
    run convert --nth $place "$forms/yuv422p.y4m" form.raw
    says "forms: pgroups, picture $place" 0 '' ''
    tail -c +$((128 * place + 1)) "$forms/yuv422p.raw" | head -c 128 >want.raw
    alike "forms: pgroups, picture $place, the same" form.raw want.raw
done
for pixels in rgb24 rgb48be; do
    run convert "$forms/$pixels.ppm" form.pic
    says "forms: $pixels, read" 0 '' ''
    run convert form.pic form.ppm
    says "forms: $pixels, written" 0 '' ''
    alike "forms: $pixels, the same" form.ppm "$forms/$pixels.ppm"
done
