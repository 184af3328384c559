"""Converts a 4:2:0 frame to RGB, from 8 bits, from 10 bits and from 10 bits in the high bits, and
prints the settings used for each, the pictures, how much of them was clipped, and a refused call. In
the repository, after `(cd crates/dethrowg && rt lib)`:

    python3 examples/python/convert.py
"""
import subprocess
from array import array
from ctypes import CDLL, POINTER, Structure, c_float, c_size_t
from ctypes import c_uint8, c_uint16, c_uint32, c_uint64
from pathlib import Path

ROOT = Path(__file__).resolve().parents[2]
ARCHIVE = ROOT / "crates/dethrowg/out/libdethrowg.a"
SHARED = ROOT / "target/libdethrowg.so"
# line n has the words for number n, quoted
WORDS = [line.strip('",') for line in (ROOT / "examples/words.inc").read_text().splitlines()]

# codes of include/dethrowg.h
YUV420, YUV422 = range(2)
RGB, RGBA, BGRA, BGR = range(4)
LIMITED, FULL = range(2)
BT601, BT709, BT2020, SMPTE240, BT470_6, FCC, CUSTOM = range(7)
LOW_BITS, HIGH_BITS = range(2)
AS_SOURCE, MATCHED = range(2)
CHANNELS = {RGB: 3, RGBA: 4, BGRA: 4, BGR: 3}


class Codes(Structure):
    """The settings of a conversion. What is not given is 0."""

    _fields_ = [
        (name, c_uint32)
        for name in ("depth", "sampling", "order", "range", "matrix", "packing", "mode")
    ] + [("kr", c_float), ("kb", c_float)]


class Image(Structure):
    _fields_ = [
        (name, c_uint32) for name in ("width", "height", "y_stride", "u_stride", "v_stride")
    ]


NUMBER = [(name, c_uint64) for name in ("number", "expected", "received")]


class Answer(Structure):
    _fields_ = NUMBER + [("below", c_uint64), ("above", c_uint64)]


class SettingsUsed(Structure):
    _fields_ = NUMBER + [
        (name, c_uint32) for name in ("max", "bias_y", "bias_uv", "y", "cr", "cb", "g1", "g2")
    ]


def load():
    """The archive as a shared object, with the types of the functions used here."""
    SHARED.parent.mkdir(exist_ok=True)
    subprocess.run(
        ["gcc", "-shared", "-o", SHARED, "-Wl,--whole-archive", ARCHIVE, "-Wl,--no-whole-archive"],
        check=True,
    )
    library = CDLL(str(SHARED))
    library.dethrowg_coefficients.argtypes = [Codes]
    library.dethrowg_coefficients.restype = SettingsUsed
    for function, element in (
        (library.dethrowg_yuv8_to_rgb, c_uint8),
        (library.dethrowg_yuv16_to_rgb, c_uint16),
    ):
        buffer = [POINTER(element), c_size_t]  # elements, length
        function.argtypes = [Codes, Image] + buffer * 4 + [c_uint32]
        function.restype = Answer
    return library


LIBRARY = load()


def accepted(answer):
    """The answer, unless it is a refusal."""
    if answer.number != 0:
        raise ValueError(
            f"{WORDS[answer.number]} (number {answer.number}, "
            f"expected {answer.expected}, received {answer.received})"
        )
    return answer


def settings_used(codes):
    """What a conversion with the same codes works with."""
    used = accepted(LIBRARY.dethrowg_coefficients(codes))
    return {name: getattr(used, name) for name, _ in SettingsUsed._fields_[len(NUMBER) :]}


def convert(codes, width, height, y, u, v):
    """The rows of the picture, each a list of width * channels values from 0 to 2**depth - 1, and how
    many of its components, alpha not counted, were below and above these values before clamping.

    The planes are sequences of samples without gaps between the rows; u is Cb, v is Cr.
    """
    if codes.depth == 8:
        function, element, letter = LIBRARY.dethrowg_yuv8_to_rgb, c_uint8, "B"
    else:
        function, element, letter = LIBRARY.dethrowg_yuv16_to_rgb, c_uint16, "H"
    chroma_width, stride = (width + 1) // 2, width * CHANNELS[codes.order]
    # ctypes cuts a sample that the element cannot hold; array raises an error
    y, u, v = ((element * len(plane))(*array(letter, plane)) for plane in (y, u, v))
    rgb = (element * (stride * height))()
    image = Image(width, height, width, chroma_width, chroma_width)
    answer = accepted(
        function(codes, image, y, len(y), u, len(u), v, len(v), rgb, len(rgb), stride)
    )
    rows = [rgb[stride * row : stride * (row + 1)] for row in range(height)]
    return rows, answer.below, answer.above


def video(depth, packing=LOW_BITS):
    """4:2:0 to RGB, limited BT.709."""
    return Codes(
        depth=depth, sampling=YUV420, order=RGB, range=LIMITED, matrix=BT709, packing=packing
    )


def show(title, codes, y, u, v):
    used = settings_used(codes)
    print(f"{title}, settings used: {used}")
    rows, below, above = convert(codes, 4, 3, y, u, v)
    for row in rows:
        print("".join(f"  {r:4} {g:4} {b:4}" for r, g, b in zip(row[0::3], row[1::3], row[2::3])))
    print(f"clipped of {3 * 4 * 3} components: {below} below 0, {above} above {used['max']}")


def main():
    y = [16, 90, 160, 235, 30, 100, 170, 200, 40, 110, 180, 220]
    u, v = [128, 90, 150, 128], [128, 160, 100, 128]
    show("8 bits", video(8), y, u, v)
    # the same samples times 4
    ten = [[4 * sample for sample in plane] for plane in (y, u, v)]
    show("10 bits", video(10), *ten)
    # the same frame from a camera that puts its samples into the high bits
    high = [[sample << 6 for sample in plane] for plane in ten]
    show("10 bits in the high bits", video(10, HIGH_BITS), *high)
    try:
        convert(video(8), 4, 3, y[:-1], u, v)
    except ValueError as refusal:
        print(f"luma one sample short, refused: {refusal}")


if __name__ == "__main__":
    main()
