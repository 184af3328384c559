/* Reads a YUV4MPEG2 (Y4M) stream of 8, 10 or 12 bits, converts each frame to RGB (limited BT.709) and
 * prints the mean blue code of each and how much of it was clipped. Without a file it first writes a
 * stream of its own, three frames of 10 bits, and then reads it, whole and cut. In the repository,
 * after `(cd crates/dethrowg && rt lib)` and `mkdir -p target`:
 *
 *   cc -std=c99 -Wall -I include examples/c/y4m.c crates/dethrowg/out/libdethrowg.a -o target/y4m_c
 *   target/y4m_c [FILE]
 */
#include <stdio.h>
#include <stdlib.h>

#include "dethrowg.h"

/* The words for each number of an answer. */
static const char *const words[] = {
#include "../words.inc"
};

/* The planes and the picture for one frame, of either element type. */
typedef struct {
    dethrowg_codes codes;
    dethrowg_image image;
    size_t y_len, c_len, rgb_len;
    void *y, *u, *v, *rgb;
} buffers;

/* ---- the calls of the library */

static dethrowg_y4m_frame read_frame(const uint8_t *stream, size_t len, uint64_t place, buffers *b) {
    const dethrowg_image *i = &b->image;
    if (b->codes.depth == 8)
        return dethrowg_y4m_read8(stream, len, place, b->y, b->y_len, i->y_stride, b->u, b->c_len,
                                  i->u_stride, b->v, b->c_len, i->v_stride);
    return dethrowg_y4m_read16(stream, len, place, b->y, b->y_len, i->y_stride, b->u, b->c_len,
                               i->u_stride, b->v, b->c_len, i->v_stride);
}

static dethrowg_answer convert(buffers *b) {
    uint32_t stride = b->image.width * 3;
    if (b->codes.depth == 8)
        return dethrowg_yuv8_to_rgb(b->codes, b->image, b->y, b->y_len, b->u, b->c_len, b->v, b->c_len,
                                    b->rgb, b->rgb_len, stride);
    return dethrowg_yuv16_to_rgb(b->codes, b->image, b->y, b->y_len, b->u, b->c_len, b->v, b->c_len,
                                 b->rgb, b->rgb_len, stride);
}

/* ---- the stream */

static int refused(uint64_t number, uint64_t place) {
    printf("refused at place %llu: %s (number %llu)\n", (unsigned long long)place, words[number],
           (unsigned long long)number);
    return 1;
}

/* Buffers for what the header says. */
static buffers lend(dethrowg_y4m_frame h) {
    uint32_t columns = (h.width + 1) / 2;
    uint32_t rows = h.sampling == DETHROWG_YUV420 ? (h.height + 1) / 2 : h.height;
    buffers b = {
        .codes = { .depth = h.depth, .sampling = h.sampling, .order = DETHROWG_RGB,
                   .range = DETHROWG_LIMITED, .matrix = DETHROWG_BT709 },
        .image = { h.width, h.height, h.width, columns, columns },
        .y_len = (size_t)h.width * h.height,
        .c_len = (size_t)columns * rows,
        .rgb_len = (size_t)h.width * h.height * 3,
    };
    size_t element = h.depth == 8 ? 1 : 2;
    b.y = malloc(b.y_len * element), b.u = malloc(b.c_len * element), b.v = malloc(b.c_len * element);
    b.rgb = malloc(b.rgb_len * element);
    return b;
}

static double mean_blue(const buffers *b) {
    uint64_t sum = 0;
    for (size_t i = 2; i < b->rgb_len; i += 3)
        sum += b->codes.depth == 8 ? ((uint8_t *)b->rgb)[i] : ((uint16_t *)b->rgb)[i];
    return (double)sum * 3 / (double)b->rgb_len;
}

/* Every frame of a stream; 1 where it is damaged. */
static int show(const uint8_t *stream, size_t len) {
    dethrowg_y4m_frame f = dethrowg_y4m_header(stream, len);
    if (f.number != DETHROWG_ACCEPTED)
        return refused(f.number, 0);
    printf("%u by %u, 4:2:%u, %u bits\n", f.width, f.height, f.sampling == DETHROWG_YUV420 ? 0 : 2,
           f.depth);
    buffers b = lend(f);
    if (!b.y || !b.u || !b.v || !b.rgb)
        return 1;
    uint64_t place = 0;
    for (int n = 0; (f = read_frame(stream, len, place, &b)).found; n++) {
        place = f.next;
        dethrowg_answer a = convert(&b);
        printf("frame %d: mean blue %.3f, clipped %llu below 0, %llu above the largest code\n", n,
               mean_blue(&b), (unsigned long long)a.below, (unsigned long long)a.above);
    }
    free(b.y), free(b.u), free(b.v), free(b.rgb);
    return f.number == DETHROWG_ACCEPTED ? 0 : refused(f.number, place);
}

/* Three frames of 10 bits, 6 by 4, each lighter than the one before; how many bytes they take. */
static size_t write_stream(uint8_t *out, size_t room) {
    static uint16_t y[6 * 4], u[3 * 2], v[3 * 2];
    dethrowg_image image = { 6, 4, 6, 3, 3 };
    size_t len = dethrowg_y4m_write_header(DETHROWG_YUV420, 10, 6, 4, out, room).written;
    for (int n = 0; n < 3; n++) {
        for (int i = 0; i < 24; i++)
            y[i] = (uint16_t)(200 + 200 * n + 10 * i);
        for (int i = 0; i < 6; i++)
            u[i] = (uint16_t)(512 + 20 * i), v[i] = 512;
        len += dethrowg_y4m_write_frame16(DETHROWG_YUV420, 10, image, y, 24, u, 6, v, 6, out + len,
                                          room - len).written;
    }
    return len;
}

int main(int argc, char **argv) {
    static uint8_t own[512];
    if (argc < 2) {
        size_t len = write_stream(own, sizeof own);
        printf("written: %zu bytes\n", len);
        int damaged = show(own, len);
        printf("without the last byte: ");
        return show(own, len - 1) == 1 && !damaged ? 0 : 1;
    }
    FILE *file = fopen(argv[1], "rb");
    if (!file || fseek(file, 0, SEEK_END))
        return perror(argv[1]), 1;
    long len = ftell(file);
    uint8_t *stream = malloc(len > 0 ? (size_t)len : 1);
    rewind(file);
    if (!stream || len < 0 || fread(stream, 1, (size_t)len, file) != (size_t)len)
        return perror(argv[1]), 1;
    return show(stream, (size_t)len);
}
