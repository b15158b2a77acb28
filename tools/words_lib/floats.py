"""Whole numbers and floats: their texts and their words."""
import re
import struct
from fractions import Fraction

WHOLE = re.compile(r"0|[1-9](_?[0-9])*|0x[0-9a-fA-F](_?[0-9a-fA-F])*")
DIGITS = r"[0-9](_?[0-9])*"
DECIMAL = re.compile(rf"[+-]?({DIGITS}(\.({DIGITS})?)?|\.{DIGITS})([eE][+-]?{DIGITS})?")
SPECIAL = ("inf", "-inf", "nan")


class Bad(Exception):
    """What is wrong, and the line where it stands: its number in a text, 'LINE:COLUMN' in a sheet."""

    def __init__(self, what, line=None):
        super().__init__(what)
        self.line = line


def whole(text, what, line, below=1 << 64):
    if not WHOLE.fullmatch(text.removeprefix("-")):
        raise Bad(f"{what}: '{text}' is no whole number", line)
    n = int(text.replace("_", ""), 0)
    if text.startswith("-") or n >= below:
        raise Bad(f"{what}: {text} is not from 0 to {below - 1}", line)
    return n


def bits64(x):
    return struct.unpack("<Q", struct.pack("<d", x))[0]


def bits32(x):
    return struct.unpack("<I", struct.pack("<f", x))[0]


def float64(word):
    return struct.unpack("<d", struct.pack("<Q", word))[0]


def float32(word):
    return struct.unpack("<f", struct.pack("<I", word))[0]


def nearest32(text):
    """Bits of the f32 nearest to a decimal number, ties to even: by way of f64 a tie may be lost."""
    x = float(text)
    near = bits32(x)
    if x != x or x == 0 or abs(x) == float("inf"):
        return near
    exact = Fraction(text)
    ways = [n for n in (near - 1, near, near + 1) if 0 <= n < 1 << 32 and n % (1 << 31) < 0x7f800000]
    return min(ways, key=lambda n: (abs(Fraction(float32(n)) - exact), n % 2))


def float_word(text, what, line, size=64, below=1 << 64):
    """The bits of a float that a text gives; 'bits:' may give any word below a bound."""
    if text.startswith("bits:"):
        return whole(text[5:], what, line, below)
    try:
        if text not in SPECIAL and not DECIMAL.fullmatch(text):
            raise ValueError
        if abs(float(text)) == float("inf") and text not in SPECIAL:
            raise OverflowError
        return bits64(float(text)) if size == 64 else nearest32(text.replace("_", ""))
    except ValueError:
        raise Bad(f"{what}: '{text}' is no f{size} (a decimal number, inf, -inf, nan or bits:N)", line)
    except OverflowError:
        raise Bad(f"{what}: '{text}' is beyond the f{size}", line)


def float_text(word, size=64):
    """The shortest decimal that gives the same bits, or the bits."""
    if size == 64:
        text = repr(float64(word))
        exact = bits64(float(text)) == word
    elif word >= 1 << 32:
        return f"bits:{word:#x}"
    else:
        x = float32(word)
        text = next((t for t in (f"{x:.{d}g}" for d in range(1, 10)) if same32(t, word)), repr(x))
        exact = same32(text, word)
    if text.endswith(".0") and text != "-0.0":
        text = text[:-2]
    return text if exact else f"bits:{word:#x}"


def same32(text, word):
    try:
        return nearest32(text) == word
    except OverflowError:
        return False
