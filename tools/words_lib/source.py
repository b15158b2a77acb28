"""The tables of a text as C and as Rust."""
import math
import re

from .floats import Bad, float64, float_text
from .layout import BOUNDS, COUNTERS, FRACTIONS, ON, PLACES, WIDTHS, dist_places, row_list

IDENTIFIER = re.compile(r"[A-Za-z_][A-Za-z0-9_]*")
FLOATS = {"machine": set(FRACTIONS.values()), "state": {at + k for at in dist_places() for k in BOUNDS.values()},
          "transition": {1}}


def parts(kind):
    """Where the lines of a row begin, and what they hold."""
    if kind != "state":
        return [(0, "")]
    places = [*PLACES.items(), *((f"counter {letter}", at) for letter, at in COUNTERS.items())]
    return [(0, "action, flags, timer"), *((at, name) for name, at in places), (ON, "transitions of the events")]


def number(word, is_float):
    """The bits of floats in hex, other numbers in decimal where C takes that without a suffix."""
    return f"{word:#x}" if word and is_float or word >= 1 << 63 else str(word)


def row_lines(kind, row, comment):
    """The lines of a row; a comment says what each holds where there are several."""
    starts = parts(kind)
    ends = [at for at, _ in starts[1:]] + [WIDTHS[kind]]
    for (start, what), end in zip(starts, ends):
        line = "    " + ", ".join(number(row[k], k in FLOATS[kind]) for k in range(start, end)) + ","
        yield line + (comment(what) if what else "")


def table_lines(tables, kind, comment):
    """A table's rows, each behind a comment that names it."""
    for label, row in zip(tables.labels[kind], row_list(tables.table(kind), kind)):
        yield "   " + comment(label)
        yield from row_lines(kind, row, comment)


def fraction(tables, name):
    word = tables.framework[name]
    if not math.isfinite(float64(word)):
        raise Bad(f"{name} {float_text(word)} has no literal (an opening refuses it)", tables.framework_lines.get(name))
    return repr(float64(word))


# ---- C

C_HEAD = """#include <stdint.h>

/* no warning for a table that is not used */
#ifndef MAYBENOT_MAY_BE_UNUSED
#if defined(__GNUC__)
#define MAYBENOT_MAY_BE_UNUSED __attribute__((unused))
#else
#define MAYBENOT_MAY_BE_UNUSED
#endif
#endif
"""


def c_comment(text):
    return f" /* {text} */"


def c_table(tables, kind, prefix):
    name, rows, width = f"{prefix}{kind}s", tables.rows(kind), WIDTHS[kind]
    if not rows:  # C has no array of 0
        return [f"static const uint64_t {name}[1] MAYBENOT_MAY_BE_UNUSED = {{0}}; /* no rows: {name}_len is 0 */"]
    head = f"static const uint64_t {name}[{width} * {rows}] MAYBENOT_MAY_BE_UNUSED = {{"
    return [head, *table_lines(tables, kind, c_comment), "};"]


def c_source(tables, name):
    """The constants of the opening, the tables' lengths in words, and the tables; 'name' is an identifier or empty."""
    prefix = f"{name}_" if name else ""
    lines = [C_HEAD]
    lines += [f"static const double {prefix}{f} MAYBENOT_MAY_BE_UNUSED = {fraction(tables, f)};" for f in FRACTIONS]
    lines += [f"static const uint64_t {prefix}opening_time MAYBENOT_MAY_BE_UNUSED = UINT64_C({tables.framework['time']});", ""]
    lens = [f"    {prefix}{kind}s_len = {len(tables.table(kind))}" for kind in WIDTHS]
    lines += ["enum {", ",\n".join(lens), "};"]
    for kind in WIDTHS:
        lines += ["", *c_table(tables, kind, prefix)]
    return "\n".join(lines) + "\n"


# ---- Rust

def rust_comment(text):
    return f" // {text}"


def rust_table(tables, kind, prefix):
    head = f"pub static {prefix}{kind.upper()}S: [u64; {len(tables.table(kind))}] = ["
    rows = list(table_lines(tables, kind, rust_comment))
    body = [head, *rows, "];"] if rows else [head + "];"]
    return ["#[allow(dead_code)]", "#[rustfmt::skip]", *body]


def rust_source(tables, name):
    """The constants of the opening, and the tables; 'name' is an identifier or empty."""
    prefix = f"{name.upper()}_" if name else ""
    constants = [(f.upper(), "f64", fraction(tables, f)) for f in FRACTIONS]
    constants.append(("OPENING_TIME", "u64", str(tables.framework["time"])))
    lines = []
    for what, kind, value in constants:
        lines += ["#[allow(dead_code)]", f"pub const {prefix}{what}: {kind} = {value};"]
    for kind in WIDTHS:
        lines += ["", *rust_table(tables, kind, prefix)]
    return "\n".join(lines) + "\n"
