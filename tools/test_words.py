#!/usr/bin/env python3
"""test_words.py [PROGRAM ..] [TEST ..]: tests of tools/words, and of tools/fuzz by way of test_fuzz.py.

Where a PROGRAM is given, the path of linkrun or of sheet_check, its answers are compared with what 'check' finds."""
import pathlib
import random
import re
import shutil
import struct
import subprocess
import sys
import tempfile
import unittest

sys.dont_write_bytecode = True
HERE = pathlib.Path(__file__).resolve().parent
sys.path.insert(0, str(HERE))
from test_fuzz import FuzzTest  # noqa: E402, F401 (run here too)
from words_lib import drawn  # noqa: E402
from words_lib.check import findings  # noqa: E402
from words_lib.drawn import bits  # noqa: E402
from words_lib.floats import Bad, float_text, nearest32  # noqa: E402
from words_lib.layout import ACTIONS, EVENTS, KINDS, LINKRUN_MAX, OPERATIONS, TIMERS, WIDTHS  # noqa: E402
from words_lib.printing import decode, describe  # noqa: E402
from words_lib.reading import Tables, Text, encode  # noqa: E402
from words_lib.sheet import is_sheet, read_sheet, sheet_of  # noqa: E402
from words_lib.source import c_source, rust_source  # noqa: E402

ROOT = HERE.parent
EXAMPLES = sorted((ROOT / "examples").glob("*.txt"))
PRINTED = sorted((ROOT / "reference/corpus/printed").glob("*.in"))
HEAD = "machine\n state a\n"
PROGRAMS = {}


def packed(words):
    return struct.pack(f"<{len(words)}Q", *words)


def unpacked(data):
    return list(struct.unpack(f"<{len(data) // 8}Q", data[:len(data) // 8 * 8]))


def worked():
    """The worked example of document 01, word by word."""
    state = [0] * 58
    state[0] = 2
    state[3:6] = [1, bits(10.0), bits(10.0)]
    state[32 + 2 * 3:32 + 2 * 3 + 2] = [0, 1]
    header = [0, 0, 0, 1, 1, 1, 1, 0, 1]
    return header + [0, 0, 0, 0, 0, 1] + state + [0, 0x3f800000] + [0x3e800000] + [5, 1, 3, 0]


def answer_of(program, data):
    return subprocess.run([PROGRAMS[program]], input=data, capture_output=True, timeout=60, check=True).stdout


def found(text):
    return list(findings(Text(text).tables()))


def first_refusal(text):
    """The number that check finds first, or 0."""
    return next((number for number, _, _ in findings(Text(text).tables())), 0)


def readable(stream):
    try:
        return bool(decode(stream))
    except Bad:
        return False


def words(*args, data=b"", folder=ROOT):
    """The command, run in a folder."""
    command = [sys.executable, HERE / "words", *args]
    return subprocess.run(command, input=data, cwd=folder, capture_output=True, timeout=60)


class RoundTripTest(unittest.TestCase):
    def test_worked_example(self):
        self.assertEqual(encode((ROOT / "examples/worked.txt").read_text(encoding="utf-8")), worked())

    def test_examples(self):
        for path in EXAMPLES:
            with self.subTest(path.name):
                text = path.read_text(encoding="utf-8")
                w = encode(text)
                self.assertEqual(encode(decode(w)), w)
                self.assertNotIn("raw", decode(w))
                self.assertLessEqual(len(w), LINKRUN_MAX)
                self.assertEqual(found(text), [])

    def test_random_round_trips(self):
        r = random.Random(1)
        layouts = set()
        for k in range(200):
            w = drawn.any_words(r)
            text = decode(w)
            layouts.add("raw " in text)
            self.assertEqual(encode(text), w, f"stream {k}:\n{text}")
        self.assertEqual(layouts, {True, False})

    def test_nearest_f32(self):
        # one more than the middle of two f32, lost on the way through an f64
        self.assertEqual(nearest32("1.00000005960464477540"), 0x3f800001)
        self.assertEqual(nearest32("1.00000005960464477539"), 0x3f800000)
        self.assertEqual(nearest32("0.1"), 0x3dcccccd)
        self.assertEqual(float_text(0x3dcccccd, 32), "0.1")


class ErrorTest(unittest.TestCase):
    def fails(self, text, line, part):
        with self.assertRaises(Bad) as caught:
            encode(text)
        self.assertEqual(caught.exception.line, line)
        self.assertIn(part, str(caught.exception))

    def refuses(self, stream, part):
        with self.assertRaises(Bad) as caught:
            decode(stream)
        self.assertIn(part, str(caught.exception))

    def test_states(self):
        self.fails(HEAD + "  action Send", 3, "'Send' is none of Cancel, SendPadding")
        self.fails(HEAD + "  action Cancel bypass", 3, "Cancel takes no 'bypass'")
        self.fails(HEAD + "  action SendPadding timer All", 3, "SendPadding takes no 'timer'")
        self.fails(HEAD + "  timeout uniform 1", 3, "high is missing")
        self.fails(HEAD + "  timeout uniform 1 2 stop 3", 3, "'stop' is none of start, max")
        self.fails(HEAD + "  timeout uniform 1 2 start", 3, "start is missing")
        self.fails(HEAD + "  counter C Set", 3, "'C' is none of A, B")
        self.fails(HEAD + "  counter A Set uniform 1 2 copy", 3, "counter A: 'copy' is none of start, max")
        self.fails(HEAD + "  word 58 1", 3, "58 is not from 0 to 57")
        self.fails(HEAD + "  max_padding_frac 0", 3, "'max_padding_frac' is no statement of a state")
        self.fails(HEAD + " state a", 3, "already has a state a")
        for name in ("END", "7", "0x7", "a,b", "a*/", "->"):
            self.fails(f"machine\n state {name}", 2, "cannot name a state")

    def test_transitions(self):
        self.fails(HEAD + "\n  on NormalSent -> b 1", 4, "'b' is no state of this machine")
        self.fails(HEAD + "  on NormalSent -> -1 1", 3, "'-1' is no state of this machine")
        self.fails(HEAD + "  on NormalSent -> a", 3, "'a' is no target and probability")
        self.fails(HEAD + "  on NormalSent -> a 1,", 3, "'' is no target and probability")
        self.fails(HEAD + "  on NormalSent a 1", 3, "'->' is missing")
        self.fails(HEAD + "  on Normal -> a 1", 3, "'Normal' is none of NormalRecv")

    def test_sections(self):
        self.fails("state a", 1, "a state stands in a machine")
        self.fails("machine\nframework\n state a", 3, "a state stands in a machine")
        self.fails("machine\nchance 0.5\n state a", 3, "a state stands in a machine")
        self.fails("framework\n rate 1", 2, "'rate' is none of max_padding_frac")
        self.fails("framework 1", 1, "'1' was not expected here")
        self.fails("machine\n time 1", 2, "'time' is no statement of a machine")
        self.fails("machine\n allowed_padding_packets", 2, "allowed_padding_packets is missing")
        self.fails("raw state 1 2", 1, "a state row has 58 words, and here are 2")
        self.fails("raw\n", 1, "machine, state or transition is missing")
        self.fails("raw row 1", 1, "'row' is none of machine, state, transition")
        self.fails("raw transition 0 1\nmachine", 2, "instead of machines")
        self.fails("machine\n\nraw transition 0 1", 3, "instead of machines")
        self.fails("hello", 1, "'hello' is no statement")

    def test_given_twice(self):
        for field in ("max_padding_frac 0", "max_blocking_frac 0", "time 0"):
            self.fails(f"framework\n{field}\n{field}", 3, f"{field[:-2]} is given twice; first in line 2")
        self.fails("framework\nmachine\nframework", 3, "framework is given twice; first in line 1")
        for field in ("allowed_padding_packets 1", "max_padding_frac 0", "allowed_blocked_microsec 1", "max_blocking_frac 0"):
            self.fails(f"machine\n{field}\n{field}", 3, f"{field[:-2]} is given twice; first in line 2")
        for field in ("action Cancel", "timeout uniform 1 1", "duration outside", "limit uniform 1 1"):
            self.fails(HEAD + f"{field}\n{field}", 4, f"{field.split()[0]} is given twice; first in line 3")
        self.fails(HEAD + "counter A Set\ncounter B Set\ncounter A Set", 5, "counter A is given twice; first in line 3")
        self.fails(HEAD + "on Signal -> a 1\non Signal -> a 1", 4, "on Signal is given twice; first in line 3")
        self.fails(HEAD + "word 0 1\nword 1 1\nword 0 1", 5, "word 0 is given twice; first in line 3")
        self.fails(HEAD + "action SendPadding bypass replace bypass", 3, "bypass is given twice")
        self.fails(HEAD + "action Cancel timer All timer All", 3, "timer is given twice")
        self.fails(HEAD + "timeout uniform 1 1 max 2 max 3", 3, "max is given twice")
        self.fails(HEAD + "timeout outside low 2 low 3", 3, "low is given twice")

    def test_numbers(self):
        self.fails(HEAD + "  timeout uniform 1 x", 3, "high: 'x' is no f64")
        self.fails(HEAD + "  timeout uniform 1 1e999", 3, "'1e999' is beyond the f64")
        self.fails("chance 1e39", 1, "'1e39' is beyond the f32")
        self.fails("chance bits:0x100000000", 1, "0x100000000 is not from 0 to 4294967295")
        self.fails("value bits:0x10000000000000000", 1, "is not from 0 to 18446744073709551615")
        self.fails(HEAD + "on Signal -> a bits:0x10000000000000000", 3, "is not from 0 to 18446744073709551615")
        self.fails("machine\n allowed_padding_packets -1", 2, "-1 is not from 0 to")
        self.fails("machine\n allowed_padding_packets 18446744073709551616", 2, "is not from 0 to 18446744073709551615")
        for text in ("007", "1__0", "_1", "1_", "1.0", "0b1", "٣", "--1", "0x", "+1"):
            self.fails(f"machine\n allowed_padding_packets {text}", 2, "is no whole number")
        for text in ("1__0", "٣", "0x1", "infinity", "NaN", "1e", ".", "1,5"):
            self.fails(f"value {text}", 1, "is no f64 (a decimal number, inf, -inf, nan or bits:N)")
        self.assertEqual(encode("value 1_0 .5 1. +1e+0_0 bits:0x1_0")[-5:], [bits(10.0), bits(0.5), bits(1.0), bits(1.0), 16])

    def test_draws_and_calls(self):
        self.fails("chance", 1, "a draw is missing")
        self.fails("value 1\nvalue # none", 2, "a draw is missing")
        self.fails("call 5 NormalSent", 1, "was not expected here")
        self.fails("call 5", 1, "':' is missing")
        self.fails("call : NormalSent", 1, "the call's time is missing")
        self.fails("call 5: PaddingSent", 1, "PaddingSent wants a machine's number")
        self.fails("call 5: Padding", 1, "'Padding' is none of")
        self.fails("call 5: Signal", 1, "'Signal' is none of")
        self.fails("call 5: NormalSent 0 0", 1, "'0' was not expected here")
        for events in (",", "NormalSent,", ",NormalSent", "NormalSent,,NormalSent"):
            self.fails(f"call 5: {events}", 1, "an event is missing")
        self.assertEqual(encode("call 5: # none")[-2:], [5, 0])

    def test_words(self):
        w = worked()
        self.refuses(w[:4], "within the header: 9 words wanted from word 0 on, 4 there")
        self.refuses(w[:50], "within the state table")
        self.refuses(w[:-1], "within the events of call 1")
        self.refuses(w + [7], "1 words are left over")
        self.refuses(w[:4] + [1 << 63] + w[5:], "within the state table")
        chance = len(w) - 5
        self.refuses(w[:chance] + [1 << 32] + w[chance + 1:], "chance draw 0 is 4294967296")


class CheckTest(unittest.TestCase):
    def finds(self, text, *expected):
        self.assertEqual(found(text), list(expected))

    def test_framework_and_machines(self):
        beyond = "not from 0 to 1"
        self.finds("framework\nmax_blocking_frac nan\nmax_padding_frac 1.5",
                   (1, 3, f"the framework's max_padding_frac is 1.5, {beyond}"),
                   (2, 2, f"the framework's max_blocking_frac is nan, {beyond}"))
        self.finds(HEAD + "machine\nmax_blocking_frac -0.5\nmax_padding_frac inf\nstate b",
                   (4, 5, f"max_padding_frac of machine 1 is inf, {beyond}"),
                   (5, 4, f"max_blocking_frac of machine 1 is -0.5, {beyond}"))
        self.finds("machine\nmax_blocking_frac nan\nmax_padding_frac -0.0\nstate b")
        self.finds(HEAD * 16 + "\nmachine", (3, 34, "17 machines, more than 16"), (6, 34, "machine 16 has no states"))
        self.finds(HEAD * 16)

    def test_whole_rows(self):
        for kind, width in (("machine", 6), ("state", 58), ("transition", 2)):
            tables = Tables(Text("").framework, True)
            tables.table(kind).append(0)
            self.assertEqual(list(findings(tables)), [(3, None, f"the {kind} table is not whole rows of {width} words")])

    def test_raw_rows(self):
        state = [0] * 58
        state[32 + 2 * 3:32 + 2 * 3 + 2] = [1, 2]
        rows = ["raw transition 0 0", "raw transition 0 0x3f800000", "raw transition 1 0x3f800000",
                f"raw state {' '.join(map(str, state))}"]
        user = "(machine 0, state 0, NormalSent)"
        machines = ["raw machine 0 0 0 0 0 1", "raw machine 0 0 0 0 1 1", "raw machine 0 0 0 0 1 0xffffffffffffffff"]
        self.finds("\n".join(rows + machines),
                   (10, 3, f"target 1 is neither a state of this machine (1 state), END nor SIGNAL {user}"),
                   (13, 4, f"the probabilities of NormalSent add up to 2 {user}"),
                   (7, 6, "machine 1 has 1 state from row 1 on, beyond the 1 of the table"),
                   (6, 7, "machine 2 has 18446744073709551615 states, more than 100000"))

    def test_transitions(self):
        self.finds(HEAD + "on NormalSent -> a 0.75, END 0.5", (13, 3, "the probabilities of NormalSent add up to 1.25"))
        self.finds(HEAD + "on NormalSent -> 7 1",
                   (10, 3, "target 7 is neither a state of this machine (1 state), END nor SIGNAL"))
        self.finds(HEAD + "on Signal -> a 0.5, SIGNAL 0.25, a 0.25", (11, 3, "target a stands twice for Signal"))
        self.finds(HEAD + "on Signal -> END 0.5, END 0.25", (11, 3, "target END stands twice for Signal"))
        self.finds(HEAD + "on Signal -> a 0\non NormalRecv -> a 2",
                   (12, 4, "probability 2 is not above 0 and at most 1"), (12, 3, "probability 0 is not above 0 and at most 1"))
        self.finds(HEAD + "on Signal -> a bits:0x100000000, 9 0.5",
                   (9, 3, "the probability's word is 4294967296, 2^32 or more"),
                   (10, 3, "target 9 is neither a state of this machine (1 state), END nor SIGNAL"))
        self.finds(HEAD + "on Signal -> a nan, END nan, SIGNAL 1")
        self.finds(HEAD + "on Signal -> a 0.1, END 0.2, SIGNAL 0.7")

    def test_f32_sum(self):
        # added as f64 the probabilities of a row pass 1; as f32, in this order, they do not: 2^-25 is lost each time
        self.finds(HEAD + "on Signal -> a 1, END 2.98023223876953125e-8")
        self.finds(HEAD + "on Signal -> END 2.98023223876953125e-8, a 1")
        self.finds(HEAD + "on Signal -> a 1, END 1.1920928955078125e-7",
                   (13, 3, "the probabilities of Signal add up to 1.0000001"))

    def test_rows_by_word(self):
        two = HEAD + "on NormalSent -> a 1\n state b\n"
        for statements, transitions, first, rows in (
                ("word 56 7\nword 57 1", "1 transition", 7, 1), ("word 57 2", "2 transitions", 0, 1),
                ("word 56 9\non Signal -> b 1", "1 transition", 9, 2), ("word 57 2\non Signal -> b 1", "2 transitions", 1, 2)):
            reason = f"Signal has {transitions} from row {first} on, beyond the {rows} of the table (machine 0, state 1, Signal)"
            self.finds(two + statements, (8, 5, reason))
        self.finds(two + "word 57 1\n")
        self.finds(two + "word 56 99\n")

    def test_actions(self):
        self.finds(HEAD + "action SendPadding", (14, 2, "SendPadding needs a timeout"))
        self.finds(HEAD + "action BlockOutgoing", (14, 2, "BlockOutgoing needs a timeout"),
                   (14, 2, "BlockOutgoing needs a duration"))
        self.finds(HEAD + "action UpdateTimer\ntimeout outside", (14, 2, "UpdateTimer needs a duration"))
        self.finds(HEAD + "word 0 5\nword 1 4\nword 3 3", (14, 3, "action 5 is unknown"))
        self.finds(HEAD + "action Cancel\nword 2 3", (14, 4, "timer 3 is unknown"))
        for action, dist in (("SendPadding", "timeout"), ("UpdateTimer", "duration")):
            self.finds(HEAD + f"action {action}\n{dist} outside\nword 1 4\nword 2 9", (14, 5, "flags 4 are above 3"))
        self.finds(HEAD + "action SendPadding\ntimeout outside\nword 3 3\nword 13 9\nword 8 7",
                   (14, 5, "timeout: kind 3 is unknown"), (14, 6, "limit: kind 9 is unknown"))
        self.finds(HEAD + "action Cancel\nword 1 4\nword 3 9\nword 13 9")
        self.finds(HEAD + "word 1 4\nword 2 9\nword 3 9")

    def test_counters(self):
        self.finds(HEAD + "counter B Set\nword 25 4\nword 26 2\nword 27 3", (14, 4, "counter B: operation 4 is unknown"),
                   (14, 5, "counter B: copy 2 is neither 0 nor 1"), (14, 6, "counter B: kind 3 is unknown"))
        self.finds(HEAD + "counter A Set copy uniform 3 2", (15, 3, "counter A: uniform from 3 to 2, low above high"))
        self.finds(HEAD + "word 26 2\nword 27 3")

    def test_distributions(self):
        pads = HEAD + "action SendPadding\n"
        self.finds(pads + "timeout uniform 3 2", (15, 4, "timeout: uniform from 3 to 2, low above high"))
        self.finds(pads + "timeout uniform nan 2", (15, 4, "timeout: uniform from nan to 2, low is not finite"))
        self.finds(pads + "timeout uniform -inf inf", (15, 4, "timeout: uniform from -inf to inf, low is not finite"))
        self.finds(pads + "timeout uniform 0 inf", (15, 4, "timeout: uniform from 0 to inf, high is not finite"))
        self.finds(pads + "timeout uniform -1e308 1e308\nlimit uniform 2 1",
                   (15, 4, "timeout: uniform from -1e+308 to 1e+308, high - low is infinite"),
                   (15, 5, "limit: uniform from 2 to 1, low above high"))
        self.finds(pads + "timeout uniform 1 2\nword 5 0", (15, 5, "timeout: uniform from 1 to 0, low above high"))
        self.finds(pads + "timeout outside low 3 high 2\nword 3 1", (15, 5, "timeout: uniform from 3 to 2, low above high"))
        self.finds(pads + "timeout outside low 3 high 2 start nan\nduration uniform 3 2")
        self.finds(HEAD + "action Cancel\ntimeout uniform 3 2\nlimit uniform 3 2")

    def test_order(self):
        # a state's events, then 14 over its action and counters, then 15 over the same; the next state behind all of them
        text = HEAD + "counter A Set uniform 3 2\naction SendPadding\non Signal -> a 2\nstate b\non Signal -> a 2\nmachine"
        self.assertEqual([number for number, _, _ in found(text)], [12, 14, 15, 12, 6])

    def test_single_damages(self):
        """One damage to drawn tables is found as its number; harmless changes are not found."""
        r = random.Random(2)
        for number, damages in drawn.DAMAGES.items():
            for damage in damages:
                for _ in range(4):
                    t = drawn.Drawn(r)
                    damage(r, t)
                    self.assertEqual(first_refusal(decode(t.words())), number, decode(t.words()))


class RecordedTest(unittest.TestCase):
    def test_recorded_inputs(self):
        """Check against the first line of each recorded run. 16 and 17 speak of draws, 21 of the stream."""
        numbers = set()
        for path in PRINTED:
            with self.subTest(path.name):
                data = path.read_bytes()
                refusal = int(path.with_suffix(".out").read_text().split()[1])
                numbers.add(refusal)
                if refusal == 21:
                    self.assertTrue(len(data) % 8 or len(data) > 8 * LINKRUN_MAX or not readable(unpacked(data)))
                else:
                    self.assertEqual(first_refusal(decode(unpacked(data))), refusal if refusal < 16 else 0)
        self.assertLessEqual(set(range(18)) | {21}, numbers)


class AgreementTest(unittest.TestCase):
    """Check's first finding is linkrun's refusal of call 0."""

    def setUp(self):
        if "linkrun" not in PROGRAMS:
            self.skipTest("no linkrun given")
        self.numbers = {}

    def agrees(self, text):
        data = packed(encode(text))
        printed = answer_of("linkrun", data)
        refusal = int(printed.split()[1])
        self.assertEqual(first_refusal(text), refusal if refusal < 16 else 0, f"linkrun answers {refusal}:\n{text}")
        self.numbers[refusal] = self.numbers.get(refusal, 0) + 1

    def report(self, what):
        counts = ", ".join(f"{n}: {count}" for n, count in sorted(self.numbers.items()))
        print(f"{sum(self.numbers.values())} damaged {what} agree; refusal: how many are {counts}")

    def test_damaged_words(self):
        r = random.Random(3)
        for number in [*drawn.DAMAGES, *[0] * 8] * 16:
            t = drawn.Drawn(r)
            if number:
                r.choice(drawn.DAMAGES[number])(r, t)
            drawn.damage(r, t, r.choice([0, 0, 1, 2]))
            text = decode(t.words())
            self.assertEqual(encode(text), t.words())
            self.agrees(text)
        self.assertLessEqual(set(range(16)), set(self.numbers))
        self.report("words")

    def test_damaged_texts(self):
        r = random.Random(4)
        for _ in range(300):
            self.agrees(drawn.damaged_text(r))
        self.assertGreater(len(self.numbers), 6)
        self.report("texts")


class SheetAgreementTest(unittest.TestCase):
    """The line of sheet_check is that of what tools/words reads, and of check's first finding."""

    def setUp(self):
        if "sheet_check" not in PROGRAMS:
            self.skipTest("no sheet_check given")
        self.numbers = {}

    def agrees(self, data):
        try:
            tables = read_sheet(data).tables()
        except Bad:
            numbers = (22, 0, 0, 0, 0)
        else:
            rows = (tables.rows(kind) for kind in WIDTHS)
            numbers = (0, *rows, next((number for number, _, _ in findings(tables)), 0))
        line = "".join(str(n).rjust(columns) for n, columns in zip(numbers, (4, 8, 8, 8, 4))) + "\n"
        self.assertEqual(answer_of("sheet_check", data).decode(), line, data)
        verdict = (numbers[0], numbers[4])
        self.numbers[verdict] = self.numbers.get(verdict, 0) + 1

    def test_kept(self):
        for path in (ROOT / "examples").glob("*.sheet"):
            self.agrees(path.read_bytes())

    def test_damaged_tables(self):
        r = random.Random(7)
        for number in drawn.DAMAGES:
            for _ in range(3):
                t = drawn.Drawn(r)
                r.choice(drawn.DAMAGES[number])(r, t)
                self.agrees(sheet_of(Text(decode(t.words())).tables()).encode())
        self.assertLessEqual({(0, n) for n in range(3, 16)}, set(self.numbers))

    def test_damaged_sheets(self):
        r = random.Random(8)
        for _ in range(300):
            self.agrees(drawn.damaged_sheet(r, sheet_of(drawn.any_tables(r)).encode()))
        malformed = self.numbers.get((22, 0), 0)
        self.assertGreater(min(malformed, sum(self.numbers.values()) - malformed), 30)

    def test_sizes(self):
        line = sheet_line(3, 0, 0).encode()
        for count in (0, 262144 // len(line)):
            self.agrees(line * count)
        large = line * (262144 // len(line) + 1)
        self.assertEqual(answer_of("sheet_check", large), b"  23       0       0       0   0\n")


# ---- sheets, in columns that are put together here

MOST = (1 << 64) - 1


def sheet_line(kind, *row):
    return "".join([str(kind).rjust(4), *(str(word).rjust(21) for word in row)]) + "\n"


def as_written(data):
    """Whether a sheet is that of the words in it: what the reader has to judge."""
    widths = {1: 6, 2: 58, 3: 2}
    try:
        rows = [[int(word) for word in line.split()] for line in data.decode("latin-1").splitlines()]
    except ValueError:
        return False
    whole_rows = all(row and len(row) - 1 == widths.get(row[0]) and 0 <= min(row) and max(row) <= MOST for row in rows)
    return whole_rows and "".join(sheet_line(*row) for row in sorted(rows, key=lambda row: row[0])).encode() == data


def three(tables):
    return tables.machines, tables.states, tables.transitions


class SheetTest(unittest.TestCase):
    ONE, TWO, THREE = sheet_line(1, *range(6)), sheet_line(2, *range(58)), sheet_line(3, 4294967295, 1065353216)

    def returns(self, tables):
        """The sheet of the tables, which reads back to them and makes a text of them."""
        sheet = sheet_of(tables).encode()
        again = read_sheet(sheet).tables()
        self.assertEqual(three(again), three(tables))
        self.assertEqual(three(Text(describe(again)).tables()), three(tables))
        return sheet

    def fails(self, sheet, place, part):
        data = sheet.encode("latin-1")
        self.assertFalse(as_written(data))
        with self.assertRaises(Bad) as caught:
            read_sheet(data)
        self.assertEqual(caught.exception.line, place, str(caught.exception))
        self.assertIn(part, str(caught.exception))

    def test_form(self):
        text = Text("\n".join(["raw transition 4294967295 1065353216", "raw machine 0 1 2 3 4 5",
                               f"raw state {' '.join(map(str, range(58)))}", f"raw machine 0 {MOST} 10 0 0 1"]))
        lines = [self.ONE, sheet_line(1, 0, MOST, 10, 0, 0, 1), self.TWO, self.THREE]
        self.assertEqual(self.returns(text.tables()), "".join(lines).encode())
        self.assertEqual([len(line) for line in lines], [131, 131, 1223, 47])
        self.assertEqual(self.THREE, "   3           4294967295           1065353216\n")

    def test_examples(self):
        for path in EXAMPLES:
            with self.subTest(path.name):
                text = path.read_text(encoding="utf-8")
                sheet = self.returns(Text(text).tables())
                again = describe(read_sheet(sheet).tables())
                self.assertNotIn("raw", again)
                self.assertIn(again, decode(encode(text)))

    def test_kept_sheet(self):
        run = words("sheet", "examples/padding.txt")
        self.assertEqual((run.returncode, run.stdout), (0, (ROOT / "examples/padding.sheet").read_bytes()))

    def test_random_round_trips(self):
        r = random.Random(5)
        kinds, layouts = set(), set()
        for _ in range(100):
            for tables in (Text(decode(drawn.any_words(r))).tables(), drawn.any_tables(r)):
                sheet = self.returns(tables)
                self.assertTrue(as_written(sheet))
                self.assertEqual(is_sheet(sheet), bool(sheet))
                kinds.add(tuple(map(bool, three(tables))))
                layouts.add("raw " in describe(tables))
        self.assertEqual((len(kinds), layouts), (8, {True, False}))

    def test_random_damages(self):
        """The reader takes a sheet exactly where the writer would have written it."""
        r = random.Random(6)
        verdicts = {True: 0, False: 0}
        for _ in range(1000):
            data = drawn.damaged_sheet(r, sheet_of(drawn.any_tables(r)).encode())
            try:
                taken = sheet_of(read_sheet(data).tables()).encode() == data
                self.assertTrue(taken, data)
            except Bad as e:
                self.assertRegex(e.line, r"[1-9][0-9]*:[1-9][0-9]*")
                taken = False
            self.assertEqual(taken, as_written(data), data)
            verdicts[taken] += 1
        self.assertGreater(min(verdicts.values()), 100)

    def test_empty(self):
        self.assertEqual(sheet_of(Text("").tables()), "")
        self.assertEqual(three(read_sheet(b"").tables()), ([], [], []))
        self.assertEqual(describe(read_sheet(b"").tables()), "")
        self.fails("\n", "1:1", "the line ends here: a line has 1, 2 or 3 in column 4, and spaces before")

    def test_numbers(self):
        most = read_sheet(sheet_line(3, 18446744073709551615, 0).encode()).tables()
        self.assertEqual(most.transitions, [18446744073709551615, 0])
        beyond = "is not from 0 to 18446744073709551615"
        self.fails(sheet_line(3, 0, 18446744073709551616), "1:27", f"word 1: 18446744073709551616 {beyond}")
        self.fails(sheet_line(3, 99999999999999999999, 0), "1:6", f"word 0: 99999999999999999999 {beyond}")
        self.fails(sheet_line(3, 0, 100000000000000000000), "1:26", f"word 1: 100000000000000000000 {beyond}")

    def test_words(self):
        columns = "word 1 stands in columns 26 to 46, decimal and right-justified, without leading zeros"
        for word, column, found in (
                ("x", 46, "'x'"), ("1x1", 45, "'x'"), ("1 ", 46, "' '"), ("1 1", 45, "' '"), ("", 46, "' '"),
                ("01", 45, "'0'"), ("00", 45, "'0'"), ("0 ", 45, "'0'"), ("0x1", 44, "'0'"), ("-1", 45, "'-'"),
                ("+1", 45, "'+'"), ("1_0", 45, "'_'"), ("1.0", 45, "'.'"), ("\t1", 45, r"'\t'"), ("1\r", 46, r"'\r'"),
                ("\0", 46, r"'\x00'"), ("\xb2", 46, r"'\xb2'")):
            self.fails(self.ONE + sheet_line(3, 0, word), f"2:{column}", f"{found} was not expected here: {columns}")

    def test_kinds(self):
        column = "a line has 1, 2 or 3 in column 4, and spaces before"
        for head, at, found in (("   0", 4, "'0'"), ("   4", 4, "'4'"), ("   x", 4, "'x'"), ("    ", 4, "' '"),
                                ("  11", 3, "'1'"), ("  01", 3, "'0'"), ("1   ", 1, "'1'"), ("  1 ", 3, "'1'"),
                                ("\t  1", 1, r"'\t'"), ("\xef\xbb\xbf   1", 1, r"'\xef'")):
            self.fails(self.ONE + head + self.ONE[4:], f"2:{at}", f"{found} was not expected here: {column}")
        self.fails("   2" + self.ONE[4:], "1:131", "the line ends here: word 6 stands in columns 131 to 151")
        self.fails("   1" + self.TWO[4:], "1:131", "' ' was not expected here: a machine line is 130 columns and a line feed")
        self.fails(self.ONE + "   3" + self.ONE[4:], "2:47", "' ' was not expected here: a transition line is 46 columns")

    def test_order(self):
        for earlier, later, kinds in ((self.TWO, self.ONE, "machine state"), (self.THREE, self.ONE, "machine transition"),
                                      (self.THREE, self.TWO, "state transition")):
            kind, before = kinds.split()
            self.fails(earlier + later, "2:4", f"a {kind} line stands behind a {before} line")
        self.fails(self.ONE + self.TWO + self.THREE * 2 + self.ONE, "5:4", "a machine line stands behind a transition line")

    def test_cuts(self):
        """Each cut within the last line, and a line feed too early, too late or too much."""
        for line, columns in ((self.ONE, 130), (self.THREE, 46)):
            for at in range(1, columns):
                self.fails(self.ONE + line[:at], f"2:{at + 1}", "the sheet ends here")
                self.fails(line[:at] + "\n", f"1:{at + 1}", "the line ends here")
            self.fails(line[:columns], f"1:{columns + 1}", "the sheet ends here")
            self.fails(line[:columns] + " \n", f"1:{columns + 1}", "' ' was not expected here")
            self.fails(line[:columns] + "\r\n", f"1:{columns + 1}", r"'\r' was not expected here")
            self.fails(line + "\n", "2:1", "the line ends here")
            self.fails(line + " ", "2:2", "the sheet ends here")

    def test_check(self):
        """Check finds in a sheet what it finds in a text of the same tables; its places are those of the words."""
        r = random.Random(7)
        for number, damages in drawn.DAMAGES.items():
            t = drawn.Drawn(r)
            r.choice(damages)(r, t)
            tables = Text(decode(t.words())).tables()
            expected = [n for n, _, _ in findings(tables) if n > 2]  # a sheet has no framework
            self.assertEqual(number in expected, number > 2)
            sheet = sheet_of(tables).encode()
            in_sheet = list(findings(read_sheet(sheet).tables()))
            self.assertEqual([n for n, _, _ in in_sheet], expected)
            for _, place, _ in in_sheet:
                line, column = map(int, place.split(":"))
                self.assertRegex(sheet.splitlines()[line - 1][column - 2:].decode(), "^ [0-9]")
        state = [0] * 58
        state[0:2], state[56:58] = [5, 9], [0, 1]
        sheet = sheet_line(1, 0, 0, 0, bits(2.0), 0, 1) + sheet_line(2, *state) + sheet_line(3, 7, 1 << 32)
        self.assertEqual([(number, place) for number, place, _ in findings(read_sheet(sheet.encode()).tables())],
                         [(5, "1:70"), (9, "3:37"), (10, "3:25"), (14, "2:25")])


# ---- the command

class CommandTest(unittest.TestCase):
    def test_usage(self):
        for args in ([], ["enc"], ["encode", "a", "b"], ["text", "a", "b"], ["c", "a", "b", "c"], ["check", "--all"], ["-h"],
                     ["c", "-", "1a"]):
            run = words(*args)
            self.assertEqual((run.returncode, run.stdout), (2, b""), args)
            self.assertTrue(run.stderr)

    def test_help(self):
        run = words("--help")
        self.assertEqual((run.returncode, run.stderr), (0, b""))
        document = (ROOT / "docs/WORDS.md").read_text(encoding="utf-8")
        usage, _, grammar = run.stdout.decode().partition("\n\n")
        self.assertIn("```grammar\n" + grammar + "```", document)
        self.assertIn("tools/words rust FILE", usage)
        self.assertIn("tools/words text [SHEET]", usage)
        names = [*EVENTS, *ACTIONS, *TIMERS, *OPERATIONS, *KINDS, "raw", "chance", "call", "kind:", "bits:", "SHEET", "LINE"]
        for name in filter(None, names):
            self.assertIn(name, grammar)

    def test_help_without_the_document(self):
        with tempfile.TemporaryDirectory() as folder:
            shutil.copytree(HERE, f"{folder}/tools")
            run = subprocess.run([sys.executable, f"{folder}/tools/words", "--help"], capture_output=True, timeout=60)
        self.assertEqual(run.returncode, 1)
        self.assertIn(b"the grammar stands in docs/WORDS.md, which cannot be read: No such file", run.stderr)

    def test_encode_and_decode(self):
        run = words("decode", data=packed(worked()))
        self.assertEqual(run.returncode, 0)
        self.assertEqual(words("encode", "-", data=run.stdout).stdout, packed(worked()))
        run = words("encode", data=b"\xef\xbb\xbfmachine\r\n states\r\n")
        self.assertEqual((run.returncode, run.stderr), (1, b"words: -:2: 'states' is no statement of a machine\n"))
        run = words("decode", data=b"123")
        self.assertEqual((run.returncode, run.stderr), (1, b"words: -: 3 bytes are no whole words of 8 bytes\n"))
        run = words("encode", data=packed(worked()))
        self.assertEqual((run.returncode, run.stderr), (1, b"words: -: not a text (is it words? then: decode)\n"))
        self.assertEqual(words("encode", "no such file").returncode, 1)

    def test_document(self):
        """What docs/WORDS.md shows of runs is printed."""
        document = (ROOT / "docs/WORDS.md").read_text(encoding="utf-8")
        runs = re.findall(r"^```console\n\$ tools/words (.*?)\n(.*?)^```$", document, re.S | re.M)
        self.assertEqual([args.split()[0] for args, _ in runs], ["check", "check", "c", "rust", "text", "check"])
        with tempfile.TemporaryDirectory() as folder:
            for block, name in (("text", "faulty.txt"), ("sheet", "faulty.sheet")):
                faulty = re.search(rf"^```{block}\n(.*?)^```$", document, re.S | re.M)[1]
                (pathlib.Path(folder) / name).write_text(faulty)
            shutil.copytree(ROOT / "examples", f"{folder}/examples")
            for args, printed in runs:
                self.assertEqual(words(*args.split(), folder=folder).stdout.decode(), printed)

    def test_check(self):
        run = words("check", data=b"machine\nstate a\non Signal -> a 2, 7 1\nstate b\nword 56 0\nword 57 1\n")
        line = "refused as 12: probability 2 is not above 0 and at most 1"
        first = run.stdout.decode().split("\n")[0]
        self.assertEqual((run.returncode, run.stderr, first), (1, b"", f"-:3: {line}"))
        run = words("check", data=b"machine\nstate a\non Signal -> b 2")
        reason = b"cannot be read: 'b' is no state of this machine, END or SIGNAL"
        self.assertEqual((run.returncode, run.stdout), (1, b"-:3: " + reason + b"\n"))
        run = words("check", str(ROOT / "examples/worked.txt"))
        self.assertEqual((run.returncode, run.stderr), (0, b""))
        self.assertTrue(run.stdout.endswith(b"worked.txt: no refusal: 1 machine, 1 state, 1 transition\n"))

    def test_sheets(self):
        """A sheet may stand for a text, one of the tables alone."""
        text = "machine\n  state s0\n    action SendPadding\n    timeout uniform 10 10\n    on NormalSent -> s0 1\n"
        sheet = words("sheet", "examples/worked.txt").stdout
        self.assertEqual(words("sheet", data=sheet).stdout, sheet)
        self.assertEqual(words("text", data=sheet).stdout.decode(), text)
        self.assertEqual(words("encode", data=sheet).stdout, packed(encode(text)))
        self.assertEqual(words("check", data=sheet).stdout, b"-: no refusal: 1 machine, 1 state, 1 transition\n")
        for command in ("c", "rust"):
            with_names, without = (re.sub(rb"/[/*].*", b"", words(command, data=data).stdout) for data in (text.encode(), sheet))
            self.assertEqual(with_names, without)
        for command in ("sheet", "text"):
            self.assertEqual(words(command, data=b"").stdout, b"")

    def test_malformed_sheets(self):
        sheet = sheet_line(3, 1, 2) + sheet_line(3, 1, "x")
        for mark in ("", "\ufeff", "\n"):
            data = (mark + sheet).encode()
            place = "1:1" if mark else "2:46"
            for command in ("encode", "c", "rust", "sheet", "text"):
                run = words(command, data=data)
                self.assertEqual((run.returncode, run.stdout), (1, b""))
                self.assertTrue(run.stderr.startswith(f"words: -:{place}: ".encode()), run.stderr)
            run = words("check", data=data)
            self.assertEqual((run.returncode, run.stderr), (1, b""))
            self.assertTrue(run.stdout.startswith(f"-:{place}: refused as 22: ".encode()), run.stdout)
        run = words("text", "examples/padding.txt")
        self.assertEqual(run.stderr.decode().partition(" was ")[0], "words: examples/padding.txt:1:1: '#'")
        run = words("encode", data=packed(encode("framework\nmax_padding_frac 0.6")))  # its first bytes are digits
        self.assertEqual(run.stderr, b"words: -: not a text (is it words? then: decode)\n")


# ---- printed tables: some texts, compiled together under one name each

NO_ROWS = "framework\nmax_padding_frac 5e-324\nmax_blocking_frac -0.0\ntime 0xffffffffffffffff"
NO_TRANSITIONS = """machine
allowed_padding_packets 0xffffffffffffffff
max_padding_frac 0.1
state a
word 31 0x8000000000000000
"""
RAW = "raw machine 1 2 3 4 5 6\nraw transition 4294967295 18446744073709551615"
SOURCES = {"none": NO_ROWS, "few": NO_TRANSITIONS, "rows": RAW, **{p.stem: p.read_text(encoding="utf-8") for p in EXAMPLES}}
C_MAIN = """#include <stdio.h>
#include <string.h>
static void show(const uint64_t *words, size_t n) {
    for (size_t i = 0; i < n; i++) printf("%llu\\n", (unsigned long long)words[i]);
}
static void show_double(double x) { uint64_t w; memcpy(&w, &x, 8); show(&w, 1); }
int main(void) {
"""
C_SHOW = """    show_double({0}max_padding_frac); show_double({0}max_blocking_frac); show(&{0}opening_time, 1);
    show({0}machines, {0}machines_len); show({0}states, {0}states_len); show({0}transitions, {0}transitions_len);
"""
RUST_SHOW = """    println!("{{}}\\n{{}}\\n{{}}", {0}MAX_PADDING_FRAC.to_bits(), {0}MAX_BLOCKING_FRAC.to_bits(), {0}OPENING_TIME);
    for w in {0}MACHINES.iter().chain(&{0}STATES).chain(&{0}TRANSITIONS) {{ println!("{{w}}"); }}
"""


def shown():
    """The words that a program with all the tables has to print."""
    out = []
    for text in SOURCES.values():
        tables = Text(text).tables()
        out += [*tables.framework.values(), *tables.machines, *tables.states, *tables.transitions]
    return out


class SourceTest(unittest.TestCase):
    def setUp(self):
        temporary = tempfile.TemporaryDirectory()
        self.addCleanup(temporary.cleanup)
        self.folder = pathlib.Path(temporary.name)

    def printed(self, source):
        """The tables of each text under its name, and those of one text without a name."""
        return {name or "nameless": source(Text(text).tables(), name) for name, text in [*SOURCES.items(), ("", SOURCES["few"])]}

    def shows(self, compiler, *args):
        done = subprocess.run([compiler, *args, "-o", "program"], cwd=self.folder, capture_output=True, timeout=120)
        self.assertEqual((done.returncode, done.stderr), (0, b""), done.stderr.decode())
        printed = subprocess.run([self.folder / "program"], capture_output=True, timeout=60).stdout
        self.assertEqual([int(w) for w in printed.split()], shown())

    def c(self, compilers, standard, suffix):
        paths = {pathlib.Path(path).resolve() for path in map(shutil.which, compilers) if path}
        if not paths:
            self.skipTest(f"none of {', '.join(compilers)} here")
        # all in the main file, where a table that is not used could be a warning
        source = "".join(self.printed(c_source).values()) + C_MAIN
        source += "".join(C_SHOW.format(f"{name}_") for name in SOURCES) + "    return 0;\n}\n"
        (self.folder / f"main{suffix}").write_text(source)
        for compiler in sorted(paths):
            with self.subTest(compiler.name):
                self.shows(compiler, f"-std={standard}", "-Wall", "-Wextra", "-Werror", "-pedantic", f"main{suffix}")

    def test_c(self):
        self.c(["cc", "gcc", "clang"], "c11", ".c")

    def test_cpp(self):
        self.c(["c++", "g++", "clang++"], "c++17", ".cpp")

    def write_rust(self):
        printed = self.printed(rust_source)
        for name, source in printed.items():
            (self.folder / f"{name}.rs").write_text(source)
        return sorted(printed)

    def test_rust(self):
        if not shutil.which("rustc"):
            self.skipTest("no rustc here")
        source = "".join(f"mod {name};\n" for name in self.write_rust()) + "\nfn main() {\n"
        source += "".join(RUST_SHOW.format(f"{name}::{name.upper()}_") for name in SOURCES) + "}\n"
        (self.folder / "main.rs").write_text(source)
        self.shows("rustc", "--edition=2021", "-D", "warnings", "main.rs")

    def test_rustfmt(self):
        if not shutil.which("rustfmt"):
            self.skipTest("no rustfmt here")
        files = [f"{name}.rs" for name in self.write_rust()]
        run = subprocess.run(["rustfmt", "--edition=2021", "--check", *files], cwd=self.folder, capture_output=True, timeout=60)
        self.assertEqual(run.returncode, 0, run.stdout.decode() + run.stderr.decode())

    def test_no_literal(self):
        run = words("c", data=b"framework\nmax_padding_frac nan")
        self.assertEqual((run.returncode, run.stdout), (1, b""))
        self.assertIn(b"-:2: max_padding_frac nan has no literal", run.stderr)


def main():
    programs = [arg for arg in sys.argv[1:] if "/" in arg]
    for program in programs:
        if not shutil.which(program):
            sys.exit(f"{program}: no such program")
        PROGRAMS[pathlib.Path(program).name] = str(pathlib.Path(program).resolve())
    unittest.main(argv=[arg for arg in sys.argv if arg not in programs or arg == sys.argv[0]])


if __name__ == "__main__":
    main()
