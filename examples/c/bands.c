/* Converts a large 4:2:0 frame of bytes to RGB in bands of rows and draws a progress bar from what
 * each call answers. Then converts it as a whole, compares the two, and makes a refused call. In the
 * repository, after `(cd crates/dethrowg && rt lib)` and `mkdir -p target`:
 *
 *   cc -std=c99 -Wall -I include examples/c/bands.c crates/dethrowg/out/libdethrowg.a -o target/bands_c
 *   target/bands_c
 */
#include <stdio.h>
#include <string.h>

#include "dethrowg.h"

enum { WIDTH = 4096, HEIGHT = 3000, STRIDE = WIDTH * 3, LIMIT = 64 };
enum { CHROMA_WIDTH = (WIDTH + 1) / 2, CHROMA_HEIGHT = (HEIGHT + 1) / 2 };

static const dethrowg_codes codes = {
    .depth = 8,
    .sampling = DETHROWG_YUV420,
    .order = DETHROWG_RGB,
    .range = DETHROWG_LIMITED,
    .matrix = DETHROWG_BT709,
};

static const dethrowg_image image = {
    .width = WIDTH,
    .height = HEIGHT,
    .y_stride = WIDTH,
    .u_stride = CHROMA_WIDTH,
    .v_stride = CHROMA_WIDTH,
};

static uint8_t y[WIDTH * HEIGHT];
static uint8_t u[CHROMA_WIDTH * CHROMA_HEIGHT];
static uint8_t v[CHROMA_WIDTH * CHROMA_HEIGHT];
static uint8_t banded[STRIDE * HEIGHT], whole[STRIDE * HEIGHT];

/* The words for each number of an answer. */
static const char *const words[] = {
#include "../words.inc"
};

/* ---- the calls of the library */

static dethrowg_band convert_band(uint32_t first) {
    return dethrowg_yuv8_to_rgb_band(codes, image, y, sizeof y, u, sizeof u, v, sizeof v, banded,
                                     sizeof banded, STRIDE, first, LIMIT);
}

static dethrowg_answer convert_whole(void) {
    return dethrowg_yuv8_to_rgb(
        codes, image, y, sizeof y, u, sizeof u, v, sizeof v, whole, sizeof whole, STRIDE);
}

/* ---- the frame, and what is printed */

/* Luma rises from 16 to 235 along the columns, Cb from 16 to 240 along the columns and Cr along the
 * rows. */
static void make_frame(void) {
    for (size_t i = 0; i < sizeof y; i++)
        y[i] = 16 + i % WIDTH * 220 / WIDTH;
    for (size_t i = 0; i < sizeof u; i++) {
        u[i] = 16 + i % CHROMA_WIDTH * 225 / CHROMA_WIDTH;
        v[i] = 16 + i / CHROMA_WIDTH * 225 / CHROMA_HEIGHT;
    }
}

/* The bar, drawn over the one before. */
static void draw(uint64_t rows) {
    static const char full[] = "########################################";
    int length = (int)(sizeof full - 1), part = (int)(rows * length / HEIGHT);
    fprintf(stderr, "\r[%-*.*s] %4d of %d rows", length, part, full, (int)rows, HEIGHT);
}

static void print_refusal(uint64_t number, uint64_t expected, uint64_t received) {
    printf("refused: %s (number %llu, expected %llu, received %llu)\n", words[number],
           (unsigned long long)number, (unsigned long long)expected, (unsigned long long)received);
}

int main(void) {
    make_frame();
    dethrowg_band b = {0};
    uint64_t rows = 0, calls = 0, below = 0, above = 0;
    while (b.next < HEIGHT) {
        b = convert_band((uint32_t)b.next);
        if (b.number != DETHROWG_ACCEPTED) {
            print_refusal(b.number, b.expected, b.received);
            return 1;
        }
        rows += b.rows, calls += 1, below += b.below, above += b.above;
        draw(b.next);
    }
    fprintf(stderr, "\n");
    printf("%llu rows in %llu calls, clipped: %llu below 0, %llu above 255\n",
           (unsigned long long)rows, (unsigned long long)calls, (unsigned long long)below,
           (unsigned long long)above);

    dethrowg_answer a = convert_whole();
    if (a.number != DETHROWG_ACCEPTED) {
        print_refusal(a.number, a.expected, a.received);
        return 1;
    }
    int same = memcmp(banded, whole, sizeof whole) == 0 && below == a.below && above == a.above;
    printf("one whole conversion: %s\n", same ? "the same picture and counts" : "DIFFERENT");

    printf("first row 1, ");
    b = convert_band(1);
    print_refusal(b.number, b.expected, b.received);
    return same ? 0 : 1;
}
