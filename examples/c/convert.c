/* Converts a small 4:2:0 frame of bytes to RGBA, prints the settings used, the picture, how much of
 * it was clipped and one finished row, then a refused call, and a pixel of SMPTE 240 in both modes.
 * In the repository, after `(cd crates/dethrowg && rt lib)` and `mkdir -p target`:
 *
 *   cc -std=c99 -Wall -I include examples/c/convert.c crates/dethrowg/out/libdethrowg.a -o target/convert_c
 *   target/convert_c
 */
#include <stdio.h>

#include "dethrowg.h"

enum { WIDTH = 4, HEIGHT = 3, CHANNELS = 4, STRIDE = WIDTH * CHANNELS };
enum { CHROMA_WIDTH = (WIDTH + 1) / 2, CHROMA_HEIGHT = (HEIGHT + 1) / 2 };

static const dethrowg_codes codes = {
    .depth = 8,
    .sampling = DETHROWG_YUV420,
    .order = DETHROWG_RGBA,
    .range = DETHROWG_LIMITED,
    .matrix = DETHROWG_BT709,
    .packing = DETHROWG_LOW_BITS,
    .mode = DETHROWG_AS_SOURCE,
};

static const dethrowg_image image = {
    .width = WIDTH,
    .height = HEIGHT,
    .y_stride = WIDTH,
    .u_stride = CHROMA_WIDTH,
    .v_stride = CHROMA_WIDTH,
};

static const uint8_t y[WIDTH * HEIGHT] = {
    16, 90, 160, 235,
    30, 100, 170, 200,
    40, 110, 180, 220,
};
static const uint8_t u[CHROMA_WIDTH * CHROMA_HEIGHT] = {128, 90, 150, 128};
static const uint8_t v[CHROMA_WIDTH * CHROMA_HEIGHT] = {128, 160, 100, 128};

/* The words for each number of an answer. */
static const char *const words[] = {
#include "../words.inc"
};

/* ---- the calls of the library */

static dethrowg_settings_used settings(void) {
    return dethrowg_coefficients(codes);
}

static dethrowg_answer convert(uint8_t *rgb, size_t rgb_len) {
    return dethrowg_yuv8_to_rgb(
        codes, image, y, sizeof y, u, sizeof u, v, sizeof v, rgb, rgb_len, STRIDE);
}

static dethrowg_part finished_row(const uint8_t *rgb, size_t rgb_len, uint32_t row) {
    return dethrowg_row8(codes.order, WIDTH, HEIGHT, rgb, rgb_len, STRIDE, row);
}

/* A pixel of SMPTE 240, full range: Y 100, Cb 128, Cr 178. */
static dethrowg_answer convert_smpte240(uint32_t mode, uint8_t rgb[3]) {
    const dethrowg_codes smpte240 = {
        .depth = 8,
        .sampling = DETHROWG_YUV420,
        .order = DETHROWG_RGB,
        .range = DETHROWG_FULL,
        .matrix = DETHROWG_SMPTE240,
        .packing = DETHROWG_LOW_BITS,
        .mode = mode,
    };
    const dethrowg_image pixel = {1, 1, 1, 1, 1};
    const uint8_t luma = 100, cb = 128, cr = 178;
    return dethrowg_yuv8_to_rgb(smpte240, pixel, &luma, 1, &cb, 1, &cr, 1, rgb, 3, 3);
}

/* ---- printing */

static void print_pixels(const uint8_t *pixels, size_t count) {
    for (size_t i = 0; i < count; i++) {
        const uint8_t *p = pixels + i * CHANNELS;
        printf("  %3u %3u %3u %3u", p[0], p[1], p[2], p[3]);
    }
    printf("\n");
}

static void print_refusal(uint64_t number, uint64_t expected, uint64_t received) {
    printf("refused: %s (number %llu, expected %llu, received %llu)\n", words[number],
           (unsigned long long)number, (unsigned long long)expected, (unsigned long long)received);
}

int main(void) {
    uint8_t rgb[STRIDE * HEIGHT] = {0};
    dethrowg_settings_used s = settings();
    printf("settings used: max %u, biases %u and %u, y %u, cr %u, cb %u, g1 %u, g2 %u\n",
           s.max, s.bias_y, s.bias_uv, s.y, s.cr, s.cb, s.g1, s.g2);

    dethrowg_answer a = convert(rgb, sizeof rgb);
    if (a.number != DETHROWG_ACCEPTED) {
        print_refusal(a.number, a.expected, a.received);
        return 1;
    }
    printf("picture:\n");
    for (int row = 0; row < HEIGHT; row++)
        print_pixels(rgb + row * STRIDE, WIDTH);
    printf("clipped of %d components: %llu below 0, %llu above %u\n", 3 * WIDTH * HEIGHT,
           (unsigned long long)a.below, (unsigned long long)a.above, s.max);

    dethrowg_part part = finished_row(rgb, sizeof rgb, 1);
    if (part.number != DETHROWG_ACCEPTED) {
        print_refusal(part.number, part.expected, part.received);
        return 1;
    }
    printf("finished row 1, elements %llu to %llu:\n", (unsigned long long)part.start,
           (unsigned long long)(part.start + part.length - 1));
    print_pixels(rgb + part.start, part.length / CHANNELS);

    printf("destination one element short, ");
    a = convert(rgb, sizeof rgb - 1);
    print_refusal(a.number, a.expected, a.received);

    static const char *const modes[] = {"as in the source", "matched"};
    for (uint32_t mode = DETHROWG_AS_SOURCE; mode <= DETHROWG_MATCHED; mode++) {
        a = convert_smpte240(mode, rgb);
        if (a.number != DETHROWG_ACCEPTED) {
            print_refusal(a.number, a.expected, a.received);
            return 1;
        }
        printf("SMPTE 240, %s: R %u, G %u, B %u\n", modes[mode], rgb[0], rgb[1], rgb[2]);
    }
    return 0;
}
