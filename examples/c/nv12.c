/* Takes the chroma of an NV12 frame (8 bits, 4:2:0, U and V samples alternating in one plane) apart,
 * converts the frame to RGB (limited BT.709), prints the mean blue code and how much was clipped, and
 * weaves the chroma together again. Without a file the frame is one of its own, 6 by 4. In the
 * repository, after `(cd crates/dethrowg && rt lib)` and `mkdir -p target`:
 *
 *   cc -std=c99 -Wall -I include examples/c/nv12.c crates/dethrowg/out/libdethrowg.a -o target/nv12_c
 *   target/nv12_c [WIDTH HEIGHT FILE]
 */
#include <stdio.h>
#include <stdlib.h>
#include <string.h>

#include "dethrowg.h"

/* The words for each number of an answer. */
static const char *const words[] = {
#include "../words.inc"
};

static int accepted(const char *what, dethrowg_answer a) {
    if (a.number != DETHROWG_ACCEPTED)
        printf("%s refused: %s (number %llu)\n", what, words[a.number], (unsigned long long)a.number);
    return a.number == DETHROWG_ACCEPTED;
}

static double mean_blue(const uint8_t *rgb, size_t len) {
    uint64_t sum = 0;
    for (size_t i = 2; i < len; i += 3)
        sum += rgb[i];
    return (double)sum * 3 / (double)len;
}

/* The frame's luma plane, then its woven chroma plane, both without padding. */
static int show(uint32_t width, uint32_t height, const uint8_t *y, const uint8_t *uv) {
    uint32_t columns = (width + 1) / 2, rows = (height + 1) / 2;
    size_t y_len = (size_t)width * height, c_len = (size_t)columns * rows;
    dethrowg_codes codes = { .depth = 8, .sampling = DETHROWG_YUV420, .order = DETHROWG_RGB,
                             .range = DETHROWG_LIMITED, .matrix = DETHROWG_BT709 };
    dethrowg_image image = { width, height, width, columns, columns };
    uint8_t *u = malloc(c_len), *v = malloc(c_len), *rgb = malloc(3 * y_len), *again = malloc(2 * c_len);
    if (!u || !v || !rgb || !again)
        return 1;
    if (!accepted("taking apart", dethrowg_unweave8(columns, rows, uv, 2 * c_len, 2 * columns, u, c_len,
                                                    columns, v, c_len, columns)))
        return 1;
    dethrowg_answer a = dethrowg_yuv8_to_rgb(codes, image, y, y_len, u, c_len, v, c_len, rgb, 3 * y_len,
                                             3 * width);
    if (!accepted("conversion", a))
        return 1;
    printf("mean blue %.3f, clipped %llu below 0, %llu above 255\n", mean_blue(rgb, 3 * y_len),
           (unsigned long long)a.below, (unsigned long long)a.above);
    if (!accepted("weaving", dethrowg_weave8(columns, rows, u, c_len, columns, v, c_len, columns, again,
                                             2 * c_len, 2 * columns)))
        return 1;
    printf("woven again: %s\n", memcmp(again, uv, 2 * c_len) ? "another plane" : "the same plane");
    return accepted("a stride below the row",
                    dethrowg_weave8(columns, rows, u, c_len, columns, v, c_len, columns, again, 2 * c_len,
                                    2 * columns - 1));
}

int main(int argc, char **argv) {
    static uint8_t own[6 * 4 + 2 * 3 * 2];
    for (int i = 0; i < 24; i++)
        own[i] = (uint8_t)(60 + 6 * i);
    for (int i = 0; i < 6; i++)
        own[24 + 2 * i] = (uint8_t)(128 + 5 * i), own[25 + 2 * i] = 128;
    if (argc < 4)
        return show(6, 4, own, own + 24);
    uint32_t width = (uint32_t)strtoul(argv[1], NULL, 10), height = (uint32_t)strtoul(argv[2], NULL, 10);
    if (width < 1 || width > 16384 || height < 1 || height > 16384)
        return fprintf(stderr, "the sides are 1 to 16384\n"), 1;
    size_t y_len = (size_t)width * height;
    size_t len = y_len + 2 * (size_t)((width + 1) / 2) * ((height + 1) / 2);
    uint8_t *frame = malloc(len);
    FILE *file = fopen(argv[3], "rb");
    if (!frame || !file || fread(frame, 1, len, file) != len)
        return perror(argv[3]), 1;
    return show(width, height, frame, frame + y_len);
}
