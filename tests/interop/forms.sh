#!/bin/sh
# forms.sh FOLDER [PROGRAM]: makes the pictures of examples/forms anew in a folder, by FFmpeg, and what ffprobe says of each
# (NAME.txt); with a program, whose name begins at /, also runs the cases of tests/program/forms.sh on them, and asks ffprobe
# of what it writes.
set -eu
root=$(CDPATH='' cd -- "$(dirname -- "$0")/../.." && pwd)
cd "$1"

# said FILE: width, height, pixel format, rate and number of pictures.
said() {
    ffprobe -v error -count_frames -show_entries stream=width,height,pix_fmt,r_frame_rate,nb_read_frames -of csv=p=0 "$1"
}

# made RATE: pictures of 16 by 4 with another value at each sample.
made() {
    printf 'nullsrc=size=16x4:rate=%s,format=yuv444p16le,geq=' "$1"
    printf "lum='mod(X*3701+Y*5903+N*1301,60000)+1000':"
    printf "cb='mod(X*1103+Y*7001+N*3001,60000)+2000':cr='mod(X*5003+Y*1709+N*9001,60000)+3000'"
}

for form in yuv422p yuv422p10le yuv422p12le yuv422p16le yuv444p yuv444p10le yuv444p12le yuv444p16le; do
    ffmpeg -v error -y -f lavfi -i "$(made 30000/1001)" -frames:v 2 -pix_fmt $form -strict -1 \
        -f yuv4mpegpipe $form.y4m
    said $form.y4m >$form.txt
done
for form in rgb24 rgb48be; do
    ffmpeg -v error -y -f lavfi -i "$(made 25)" -frames:v 1 -pix_fmt $form -update 1 $form.ppm
    said $form.ppm >$form.txt
done
# 4:2:2 of 8 bits as RFC 4175 has its pgroups: Cb Y Cr Y.
ffmpeg -v error -y -i yuv422p.y4m -f rawvideo -pix_fmt uyvy422 yuv422p.raw

# What ffprobe says of what the program writes of them: the same, of one picture.
[ $# -gt 1 ] || exit 0
program=$2
FORMS=$PWD "$root/tests/program.sh" "$program" forms | grep -v '^passed: '
status=0
for file in *.y4m *.ppm; do
    "$program" convert "$file" written.pic && "$program" convert written.pic "written.${file##*.}"
    sed 's/,[0-9]*$/,1/' "${file%.*}.txt" >want
    said "written.${file##*.}" >got
    if cmp -s want got; then
        printf 'passed: convert: ffprobe of %s\n' "$file"
    else
        printf 'FAILED: convert: %s: ffprobe says %s\n' "$file" "$(cat got)"
        status=1
    fi
done
rm -f want got written.*
exit $status
