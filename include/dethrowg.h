/* Dethrowg: from planar Y, Cb, Cr to RGB, for hosts in C and in languages that call C.
 *
 * Link libdethrowg.a (Linux on x86-64-v2, that is with SSE4.2; made by `rt lib` in crates/dethrowg).
 *
 * Samples. Plane u holds Cb and plane v holds Cr. Depth 8 is uint8_t; depths 10 and 12 are uint16_t
 * in the host's byte order, the sample in the low bits or in the high bits, as the packing says.
 * The picture has the depth of its planes and is not packed: 10-bit planes of either packing give
 * components from 0 to 1023 in uint16_t. Alpha is the largest code: 255, 1023 or 4095.
 *
 * Sides are 1 to 16384. Strides and lengths are counted in elements, not in bytes. A length may be
 * larger than the picture needs. The chroma width is ceil(width/2); the chroma height is
 * ceil(height/2) in 4:2:0 and the height in 4:2:2.
 *
 * A buffer is a pointer and the length that follows it. Every function counts on this, also where
 * it refuses, and no question tests it: the pointer is aligned for its element and not null, even
 * at length 0; all elements up to the length can be read, and written where the pointer is not to
 * const, also those that the picture does not need; such a buffer overlaps no other; and no one else
 * writes to the buffers during the call. Buffers that are only read may overlap each other.
 *
 * Threads. No pointer is kept after the call, and nothing else is kept between calls. So all
 * functions may run in several threads at once, also on the same planes, as long as no one writes
 * to a buffer of a call that runs.
 *
 * Stack. A conversion of uint16_t planes, whole or of a band, takes about 100 KiB of the calling
 * thread's stack, in either packing (a thread of 112 KiB that does nothing else is enough); every
 * other function takes less than 16 KiB. No memory is allocated.
 *
 * Bounds. Proved in both modes for BT.601, BT.709 and BT.2020 (matrices 0 to 2): each component is
 * less than 8/5 codes (8 bits), 17/10 (10 bits) or 2 (12 bits) from the standard's exact equation,
 * clamped to the depth, of the pixel's luma and of its chroma as blended here (Cr's tail by the mode)
 * but not rounded. In matched mode SMPTE 240 at 8 bits is less than 8/5 from it too. For bytes this
 * holds always, and for samples in the high bits too, with the equation of the divided samples. For
 * samples in the low bits at 10 and 12 bits it holds where they are within the depth.
 *
 * Three things that a user who measures must know come from the Rust source; the figures stand in
 * docs/DIFFERENCES.md. The first is kept in both modes; matched mode puts the other two right.
 *  - Where chroma lies. Sample k is taken to lie at luma column 2k - 1/2, in 4:2:0 also at luma row
 *    2k - 1/2. The usual places are others; against them chroma in the picture is moved to the
 *    left, in 4:2:0 also upwards: by 1 pixel where it was centred (at 2k + 1/2: JPEG, MPEG-1), by
 *    1/2 pixel where it was co-sited (at 2k: the columns of MPEG-2 and of 4:2:2). Luma is not moved.
 *  - Cr's tail. In 4:2:0, in rows that blend two chroma rows, the last two columns (at an odd width
 *    the last one) take Cb as (3 near + far)/4. As in the source they take Cr as (near + 3 far)/4,
 *    which may show as a reddish edge; matched, they take it as Cb.
 *  - SMPTE 240 at 8 bits. As in the source the weights of red and blue are exchanged; matched, they
 *    are 0.212 and 0.087. At 10 and 12 bits they stand right in both modes.
 *
 * Streams. dethrowg_y4m_* read and write YUV4MPEG2 (Y4M) streams, which lie in memory as a whole: one
 * header line, then frames, each a line and the samples of Y, U and V without padding, uint16_t low
 * byte first. C may be 420jpeg, 422, 420p10, 422p10, 420p12 or 422p12, and is 420jpeg where it is
 * absent. Samples of 10 and 12 bits stand in the low bits (DETHROWG_LOW_BITS).
 *
 * Woven chroma. dethrowg_weave* and dethrowg_unweave* go between a U and a V plane and one plane that
 * has both, as NV12, NV16 and P010 do: in each row U and V samples alternating, U first. Conversions
 * take U and V as two planes.
 */
#ifndef DETHROWG_H
#define DETHROWG_H

#include <stddef.h>
#include <stdint.h>

#ifdef __cplusplus
extern "C" {
#endif

/* The codes. Any other value can be asked too, and is refused. */

enum dethrowg_sampling {
    DETHROWG_YUV420 = 0,
    DETHROWG_YUV422 = 1
};

enum dethrowg_order {
    DETHROWG_RGB = 0,
    DETHROWG_RGBA = 1,
    DETHROWG_BGRA = 2,
    DETHROWG_BGR = 3
};

enum dethrowg_range {
    DETHROWG_LIMITED = 0,
    DETHROWG_FULL = 1
};

enum dethrowg_matrix {
    DETHROWG_BT601 = 0,
    DETHROWG_BT709 = 1,
    DETHROWG_BT2020 = 2,
    DETHROWG_SMPTE240 = 3,
    DETHROWG_BT470_6 = 4,
    DETHROWG_FCC = 5,
    DETHROWG_CUSTOM = 6
};

/* The bits of a uint16_t in which the sample stands. With DETHROWG_HIGH_BITS each sample of Y, U
 * and V is first divided by 2^(16 - depth), rounding down. Depth 8 has low bits only. */
enum dethrowg_packing {
    DETHROWG_LOW_BITS = 0,
    DETHROWG_HIGH_BITS = 1
};

/* As in the Rust source, or with two of its departures put right: the tail of Cr, and the weights of
 * SMPTE 240 at 8 bits (both above). All else is the same in both modes. */
enum dethrowg_mode {
    DETHROWG_AS_SOURCE = 0,
    DETHROWG_MATCHED = 1
};

enum dethrowg_plane {
    DETHROWG_PLANE_U = 0,
    DETHROWG_PLANE_V = 1
};

/* The settings of a conversion. */
typedef struct {
    uint32_t depth;    /* 8, 10 or 12 */
    uint32_t sampling; /* enum dethrowg_sampling */
    uint32_t order;    /* enum dethrowg_order */
    uint32_t range;    /* enum dethrowg_range */
    uint32_t matrix;   /* enum dethrowg_matrix */
    uint32_t packing;  /* enum dethrowg_packing */
    uint32_t mode;     /* enum dethrowg_mode */
    float kr, kb;      /* weights of red and blue for DETHROWG_CUSTOM; the others ignore them */
} dethrowg_codes;

/* The sides of the picture, and the strides of its planes. */
typedef struct {
    uint32_t width, height, y_stride, u_stride, v_stride;
} dethrowg_image;

/* The number is 0 for an accepted call, else that of the first question which got a "no". */
enum dethrowg_number {
    DETHROWG_ACCEPTED = 0,
    DETHROWG_SAMPLING_UNKNOWN = 1,     /* is sampling 0 or 1? */
    DETHROWG_CODE_UNKNOWN = 2,         /* are the other codes (the mode too) and the depth known, and
                                          is the packing one of that depth? */
    DETHROWG_SIDE_ZERO = 3,            /* are both sides at least 1? */
    DETHROWG_SIDE_TOO_LARGE = 4,       /* are both sides at most 16384? */
    DETHROWG_RGB_TOO_SHORT = 5,        /* is the destination long enough? (needed, actual) */
    DETHROWG_RGB_STRIDE_TOO_SMALL = 6, /* is its stride at least width * channels?
                                          (needed, actual) */
    DETHROWG_Y_STRIDE_TOO_SMALL = 7,   /* is the luma stride at least the width?
                                          (width * height, stride * height) */
    DETHROWG_Y_TOO_SHORT = 8,          /* is the luma plane long enough? (needed, actual) */
    DETHROWG_U_STRIDE_TOO_SMALL = 9,   /* 7 of the U plane, with chroma width and height */
    DETHROWG_U_TOO_SHORT = 10,         /* 8 of the U plane */
    DETHROWG_V_STRIDE_TOO_SMALL = 11,  /* 7 of the V plane */
    DETHROWG_V_TOO_SHORT = 12,         /* 8 of the V plane */
    DETHROWG_WEIGHTS_UNUSABLE = 13,    /* custom weights: are both from 0 to 1, is (1 - kr) - kb in
                                          float above 0, and are the two green coefficients together
                                          at most 32767? */
    DETHROWG_NO_SUCH_ROW = 14,         /* is the row below the height? */
    DETHROWG_STREAM_MALFORMED = 16,    /* streams: is the header line well formed, does the place lie
                                          after it and not past the stream's end, and does a
                                          well-formed frame line stand there? */
    DETHROWG_STREAM_UNKNOWN = 17,      /* streams: is C one of the six, of the element type of the
                                          planes, and are both sides 1 to 16384? */
    DETHROWG_FRAME_CUT = 18,           /* streams: does the stream hold the whole frame? */
    DETHROWG_FIRST_ROW_UNUSABLE = 19,  /* bands: is the first row even and below the height, or the
                                          height itself? */
    DETHROWG_PLANE_UNUSABLE = 22       /* weaving: is every plane long enough for its own rows, and its
                                          stride at least its row? */
};

/* expected and received are the two values in parentheses above, else 0. Needed is
 * stride * (height - 1) + the elements of a row. Words for each number: examples/words.inc.
 *
 * below and above tell what was clipped: how many colour components (R, G and B of every pixel;
 * alpha is not counted) lay below 0, and how many above the largest code of the depth, as whole
 * numbers that were not yet clamped. One that was 0 or the largest code itself is not counted. Each is
 * at most 3 * width * height, and 0 where number is not. */
typedef struct {
    uint64_t number, expected, received, below, above;
} dethrowg_answer;

/* The answer to a call for a band: as above, with below and above of the rows written, then how many
 * rows were written and the first row of the next call. Where number is not 0 the rows are 0, and next
 * is the first row that the call was given. */
typedef struct {
    uint64_t number, expected, received, below, above, rows, next;
} dethrowg_band;

/* The settings that a conversion uses: the largest sample of the depth, the biases, and the
 * coefficients in units of 1/8192; g1 and g2 are what green takes off for Cr and for Cb. All 0
 * where number is not. */
typedef struct {
    uint64_t number, expected, received;
    uint32_t max, bias_y, bias_uv, y, cr, cb, g1, g2;
} dethrowg_settings_used;

/* A part of the caller's buffer: its first element and its length. Both are 0 where number is not. */
typedef struct {
    uint64_t number, expected, received, start, length;
} dethrowg_part;

/* The answer to a call that reads a stream. Where the header meets neither 16 nor 17 it has the sides,
 * the sampling and the depth, also if the call is refused for something else; otherwise they are 0.
 * found is 1 where a frame was read; then next is the place after it, where the next call reads. With
 * found 0, next is the place that was given: the call was refused, or number is 0 and the stream
 * ended there. */
typedef struct {
    uint64_t number, expected, received, next;
    uint32_t width, height, sampling, depth, found;
} dethrowg_y4m_frame;

/* The answer to a call that writes a part of a stream: written tells how many bytes, 0 where number is
 * not 0. */
typedef struct {
    uint64_t number, expected, received, written;
} dethrowg_written;

/* The settings that a conversion with the same codes uses. Asks what concerns the codes alone: 1, 2
 * with the depths of both element types, and 13. So an accepted conversion always has them. */
dethrowg_settings_used dethrowg_coefficients(dethrowg_codes codes);

/* Converts a whole picture and counts what was clipped in it. Asks 1 to 13. A refused call changes
 * nothing; an accepted one writes the pixels, the one at row r and column c from element
 * rgb_stride * r + channels * c on, and nothing else. */
dethrowg_answer dethrowg_yuv8_to_rgb(
    dethrowg_codes codes, dethrowg_image image,
    const uint8_t *y, size_t y_len, const uint8_t *u, size_t u_len,
    const uint8_t *v, size_t v_len, uint8_t *rgb, size_t rgb_len, uint32_t rgb_stride);

/* The same for depths 10 and 12. Samples in the low bits that are above the depth's largest are
 * taken as they are. */
dethrowg_answer dethrowg_yuv16_to_rgb(
    dethrowg_codes codes, dethrowg_image image,
    const uint16_t *y, size_t y_len, const uint16_t *u, size_t u_len,
    const uint16_t *v, size_t v_len, uint16_t *rgb, size_t rgb_len, uint32_t rgb_stride);

/* Converts a band: some rows of a picture from row `first` on, so that a host can show how far it is.
 * The buffers are those of the whole picture. Asks 1 to 13 as for the whole picture, then 19. A refused
 * call changes nothing. An accepted one writes limit rows, or those left where they are fewer, made
 * even by dropping one unless they reach the last row. They come out as in the whole picture; all of
 * the destination outside their pixels is kept. At first = height that is 0 rows.
 *
 * A host starts at row 0, calls again with first = b.next, and is done where b.next == image.height.
 * With limits of 2 or more that takes at most ceil(height/2) calls, and if no one else writes between
 * them the destination is then that of one whole conversion, whose counts are the sums of the bands'.
 * A limit of 0 or 1 may write nothing, so a loop must not use it. Bands of one destination must not
 * be converted at the same time: each call is given the whole of it. */
dethrowg_band dethrowg_yuv8_to_rgb_band(
    dethrowg_codes codes, dethrowg_image image,
    const uint8_t *y, size_t y_len, const uint8_t *u, size_t u_len,
    const uint8_t *v, size_t v_len, uint8_t *rgb, size_t rgb_len, uint32_t rgb_stride,
    uint32_t first, uint32_t limit);

/* The same for depths 10 and 12. */
dethrowg_band dethrowg_yuv16_to_rgb_band(
    dethrowg_codes codes, dethrowg_image image,
    const uint16_t *y, size_t y_len, const uint16_t *u, size_t u_len,
    const uint16_t *v, size_t v_len, uint16_t *rgb, size_t rgb_len, uint32_t rgb_stride,
    uint32_t first, uint32_t limit);

/* A finished row of a destination, width * channels long. Asks 2 (the order), 3 to 6 and 14. */
dethrowg_part dethrowg_row8(
    uint32_t order, uint32_t width, uint32_t height,
    const uint8_t *rgb, size_t rgb_len, uint32_t rgb_stride, uint32_t row);

dethrowg_part dethrowg_row16(
    uint32_t order, uint32_t width, uint32_t height,
    const uint16_t *rgb, size_t rgb_len, uint32_t rgb_stride, uint32_t row);

/* The chroma row nearest to a luma row, in the U plane or the V plane, chroma width long: the
 * plane's elements as they stand, not divided. Asks 1, 2 (the plane), 3, 4, 9 to 12 of both planes,
 * and 14. */
dethrowg_part dethrowg_chroma_row8(
    uint32_t sampling, uint32_t plane, uint32_t width, uint32_t height,
    const uint8_t *u, size_t u_len, uint32_t u_stride,
    const uint8_t *v, size_t v_len, uint32_t v_stride, uint32_t row);

dethrowg_part dethrowg_chroma_row16(
    uint32_t sampling, uint32_t plane, uint32_t width, uint32_t height,
    const uint16_t *u, size_t u_len, uint32_t u_stride,
    const uint16_t *v, size_t v_len, uint32_t v_stride, uint32_t row);

/* The header of a stream: what planes to lend. Asks 16 of the header line, then 17 with the depths of
 * both element types. next is the place of the first frame line, 0 where number is not; found is 0. */
dethrowg_y4m_frame dethrowg_y4m_header(const uint8_t *stream, size_t len);

/* Reads the frame whose line stands at a place of the stream, 0 standing for the first one. Asks 16, 17
 * and 18, then 7 to 12 of the lent planes, with the header's sides. Where the stream ends at the place
 * no frame line is judged: with a header that meets neither 16 nor 17 number is 0 and found is 0,
 * whatever planes are lent. Where found is 1 the planes hold the frame's samples at their rows and
 * columns and all else in them is kept; otherwise they are as they were. The planes may not overlap
 * each other nor the stream.
 *
 *     uint64_t place = 0;
 *     dethrowg_y4m_frame f;
 *     while ((f = dethrowg_y4m_read8(stream, len, place, y, ...)).found) {
 *         place = f.next;
 *         convert(y, u, v);
 *     }
 *     if (f.number != DETHROWG_ACCEPTED) ... the stream is damaged from place on */
dethrowg_y4m_frame dethrowg_y4m_read8(
    const uint8_t *stream, size_t len, uint64_t place,
    uint8_t *y, size_t y_len, uint32_t y_stride, uint8_t *u, size_t u_len, uint32_t u_stride,
    uint8_t *v, size_t v_len, uint32_t v_stride);

/* The same for depths 10 and 12. */
dethrowg_y4m_frame dethrowg_y4m_read16(
    const uint8_t *stream, size_t len, uint64_t place,
    uint16_t *y, size_t y_len, uint32_t y_stride, uint16_t *u, size_t u_len, uint32_t u_stride,
    uint16_t *v, size_t v_len, uint32_t v_stride);

/* Writes the header of a stream at the begin of out: W, H and C, 33 bytes at most. Asks 1, 2 of the
 * depth, 3, 4, then 5 of the output's length (bytes needed, out_len). The rest of out is kept. */
dethrowg_written dethrowg_y4m_write_header(
    uint32_t sampling, uint32_t depth, uint32_t width, uint32_t height, uint8_t *out, size_t out_len);

/* Writes a frame at the begin of out: its line, 6 bytes, and the samples as they are. Asks 1, 2 of the
 * depth, 3, 4, 7 to 12, then 5. What a header call and frame calls of the same sampling, depth and
 * sides wrote, one after the other, is a stream that reads back as the same samples. out may not
 * overlap a plane. */
dethrowg_written dethrowg_y4m_write_frame8(
    uint32_t sampling, uint32_t depth, dethrowg_image image,
    const uint8_t *y, size_t y_len, const uint8_t *u, size_t u_len, const uint8_t *v, size_t v_len,
    uint8_t *out, size_t out_len);

/* The same for depths 10 and 12. Samples above the depth's largest are written as they are. */
dethrowg_written dethrowg_y4m_write_frame16(
    uint32_t sampling, uint32_t depth, dethrowg_image image,
    const uint16_t *y, size_t y_len, const uint16_t *u, size_t u_len, const uint16_t *v, size_t v_len,
    uint8_t *out, size_t out_len);

/* Weaves U and V: row r of uv has the samples of row r of u and of v alternating, u first, 2 * width
 * elements. width and height are the sides of the chroma planes, not of the picture. Asks 3, 4, then
 * 22 of u, v and uv. A refused call changes nothing; an accepted one keeps all of uv that lies between
 * the rows or after the last. below and above are 0. Samples are handed on as they stand, so in either
 * packing. uv may not overlap u or v. */
dethrowg_answer dethrowg_weave8(
    uint32_t width, uint32_t height,
    const uint8_t *u, size_t u_len, uint32_t u_stride,
    const uint8_t *v, size_t v_len, uint32_t v_stride,
    uint8_t *uv, size_t uv_len, uint32_t uv_stride);

dethrowg_answer dethrowg_weave16(
    uint32_t width, uint32_t height,
    const uint16_t *u, size_t u_len, uint32_t u_stride,
    const uint16_t *v, size_t v_len, uint32_t v_stride,
    uint16_t *uv, size_t uv_len, uint32_t uv_stride);

/* Takes a woven plane apart into u and v: the undoing of the above, with the same questions. What was
 * woven comes back as the same samples, and what was taken apart is woven to the same samples. No two
 * of the planes may overlap. */
dethrowg_answer dethrowg_unweave8(
    uint32_t width, uint32_t height,
    const uint8_t *uv, size_t uv_len, uint32_t uv_stride,
    uint8_t *u, size_t u_len, uint32_t u_stride,
    uint8_t *v, size_t v_len, uint32_t v_stride);

dethrowg_answer dethrowg_unweave16(
    uint32_t width, uint32_t height,
    const uint16_t *uv, size_t uv_len, uint32_t uv_stride,
    uint16_t *u, size_t u_len, uint32_t u_stride,
    uint16_t *v, size_t v_len, uint32_t v_stride);

#ifdef __cplusplus
}
#endif

#endif
