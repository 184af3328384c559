#!/usr/bin/env bash
# Y4M streams between ffmpeg and the library, both ways: what the library reads from ffmpeg's streams, and
# what ffmpeg reads from the library's, must be ffmpeg's own raw samples. Needs Debian's ffmpeg, and
# y4m_raw of tests/oracle. Prints a line for each form and size; status 1 if anything differs.
set -euo pipefail

oracle=$(cd "$(dirname "$0")/../oracle" && pwd)
y4m_raw=${CARGO_TARGET_DIR:-$oracle/target}/release/y4m_raw
work=$(mktemp -d)
trap 'rm -r "$work"' EXIT
cd "$work"

# C's name, ffmpeg's name, sampling, depth
forms='420jpeg yuv420p 0 8
422 yuv422p 1 8
420p10 yuv420p10le 0 10
422p10 yuv422p10le 1 10
420p12 yuv420p12le 0 12
422p12 yuv422p12le 1 12'
sizes='64x48 34x21 35x21 1x1 16384x2 2x16384 1920x1080'
frames=3
read=0 refused=0 written=0 different=0

quietly() {
    ffmpeg -nostdin -v error -y "$@"
}

bytes() {
    stat -c %s "$1"
}

while read -r name format sampling depth; do
    for size in $sizes; do
        width=${size%x*} height=${size#*x}
        source=(-f lavfi -i "testsrc=size=$size:rate=1" -frames:v "$frames" -pix_fmt "$format")
        quietly "${source[@]}" -f rawvideo frames.raw

        # ffmpeg's stream, read by the library
        quietly "${source[@]}" -strict -1 -f yuv4mpegpipe theirs.y4m
        header=$(head -n 1 theirs.y4m)
        missing=$((${#header} + 1 + frames * 6 + $(bytes frames.raw) - $(bytes theirs.y4m)))
        status=0
        "$y4m_raw" read < theirs.y4m > ours.raw 2> refusal || status=$?
        theirs=different
        if [[ " $header " != *" C$name "* ]]; then
            theirs="different: $header"
        elif ((missing == 0 && status == 0)) && cmp -s frames.raw ours.raw; then
            theirs=same read=$((read + 1))
        elif ((missing > 0 && status == 1 && width % 2 == 1 && depth > 8)); then
            theirs="$missing bytes missing, $(cat refusal)" refused=$((refused + 1))
        fi

        # the library's stream, read by ffmpeg
        "$y4m_raw" write "$sampling" "$depth" "$width" "$height" < frames.raw > ours.y4m
        quietly -i ours.y4m -fps_mode passthrough -f rawvideo theirs.raw
        ours=different
        if cmp -s frames.raw theirs.raw; then
            ours=same written=$((written + 1))
        fi

        [[ $theirs$ours == *different* ]] && different=$((different + 1))
        echo "C$name $size, $(bytes frames.raw) bytes of samples: ffmpeg's stream $theirs, ours $ours"
    done
done <<< "$forms"

echo "streams of $frames frames: $read of ffmpeg's read, $refused refused, $written of ours read by ffmpeg," \
    "$different different"
((different == 0))
