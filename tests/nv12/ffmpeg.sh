#!/usr/bin/env bash
# Frames with woven chroma between ffmpeg and the library, both ways: what the library weaves must be
# ffmpeg's woven frames, and what each unweaves of the other's must be the planar frames. Needs Debian's
# ffmpeg, and weave_raw of tests/oracle. Prints a line for each form and size, then how many frames were
# compared and how many differ; status 1 if any does.
set -euo pipefail

oracle=$(cd "$(dirname "$0")/../oracle" && pwd)
weave_raw=${CARGO_TARGET_DIR:-$oracle/target}/release/weave_raw
work=$(mktemp -d)
trap 'rm -r "$work"' EXIT
cd "$work"

# ffmpeg's names of the planar and of the woven form, luma columns and luma rows to a chroma sample, depth
forms='yuv420p nv12 2 2 8
yuv444p nv24 1 1 8
yuv420p10le p010le 2 2 10
yuv422p10le p210le 2 1 10
yuv444p10le p410le 1 1 10
yuv420p16le p016le 2 2 16
yuv422p16le p216le 2 1 16
yuv444p16le p416le 1 1 16'
sizes='64x48 34x21 35x21 1x1 16384x2 2x16384 1920x1080'
frames=3
compared=0 different=0 left_out=0

quietly() {
    ffmpeg -nostdin -v error -y "$@"
}

# ffmpeg's conversion: a file and its form, then the result and its form
convert() {
    quietly -f rawvideo -pix_fmt "$2" -video_size "$size" -i "$1" -pix_fmt "$4" -f rawvideo "$3"
}

bytes() {
    stat -c %s "$1"
}

# how many frames of two files differ
differing() {
    if (($(bytes "$1") == 0 || $(bytes "$1") != $(bytes "$2"))); then
        echo "$frames"
    else
        { cmp -l "$1" "$2" || true; } | awk -v frame="$(($(bytes "$1") / frames))" \
            '!seen[int(($1 - 1) / frame)]++ { n++ } END { print n + 0 }'
    fi
}

# compares the frames of two files, after what they are
compare() {
    local n
    n=$(differing "$2" "$3")
    compared=$((compared + frames)) different=$((different + n))
    ((n == 0)) || echo "$planar, $woven, $size, ${source%%=*}: $n $1 differ"
}

while read -r planar woven across down depth; do
    most=$(((1 << depth) - 1))
    noise="format=$planar,geq='random(0)*$most':'random(0)*$most':'$most-random(0)*$most'"
    for size in $sizes; do
        width=${size%x*} height=${size#*x} before=$compared
        sides=("$(((width + across - 1) / across))" "$(((height + down - 1) / down))")
        arguments=("$depth" "$((width * height))" "${sides[@]}")
        for source in "testsrc=size=$size:rate=1" "nullsrc=size=$size:rate=1,$noise"; do
            quietly -f lavfi -i "$source" -frames:v "$frames" -pix_fmt "$planar" -f rawvideo planar.raw

            # the library's woven frames, unwoven by ffmpeg
            "$weave_raw" weave "${arguments[@]}" < planar.raw > ours.woven
            convert ours.woven "$woven" theirs.raw "$planar"
            compare 'woven frames, unwoven by ffmpeg,' theirs.raw planar.raw

            # ffmpeg's woven frames, beside the library's and unwoven by it
            if [[ $woven == p01* ]] && ((width % 2 == 1)); then
                left_out=$((left_out + frames))
                continue
            fi
            convert planar.raw "$planar" theirs.woven "$woven"
            "$weave_raw" unweave "${arguments[@]}" < theirs.woven > ours.raw
            compare 'woven frames' ours.woven theirs.woven
            compare "of ffmpeg's woven frames, unwoven," ours.raw planar.raw
        done
        echo "$planar and $woven, $size: $((compared - before)) frames compared"
    done
done <<< "$forms"

echo "frames compared: $compared, different: $different; ffmpeg's woven frames left out: $left_out"
((different == 0))
