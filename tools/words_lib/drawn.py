"""Random streams of words, and valid tables with damages, for the tests. 'r' is a random.Random."""
from .floats import Bad, bits32, bits64 as bits
from .layout import (COPY, COUNTER_DIST, COUNTERS, EVENTS, FIRST_STATE, FLAGS_AT, MACHINE_MAX, PLACES, STATE, STATE_MAX, STATES,
                     TARGETS, TIMER_AT, WIDTHS, dist_places, pair)
from .printing import decode
from .reading import Text, encode

INF, NAN = bits(float("inf")), 0x7ff8000000000000
BEYOND = [bits(x) for x in (-0.5, -5e-324, 1.0000000000000002, 7.0, float("inf"), float("-inf"))]
EDGES = [0, 1, 2, 3, 4, 5, 58, 99, 1 << 32, 1 << 63, (1 << 64) - 1, bits(0.5), bits(3.0), INF, NAN]


# ---- any words, for round trips

def any_float(r):
    return r.choice([0, bits(r.uniform(0, 1)), bits(r.uniform(-1e9, 1e9)), r.getrandbits(64), INF, 1 << 63, NAN,
                     0x7ff0000000000001])


def any_float32(r):
    return r.choice([0, r.getrandbits(32), 0x3f800000, 0x3f000000, 0x80000000, 0x7fc00000, 0x7f800001, 0xff800000, 1])


def any_dist(r):
    return [r.choice([0, 1, 2]), *(r.choice([0, any_float(r)]) for _ in range(4))]


def any_state(r, machine, rows):
    s = [r.randrange(5), r.randrange(4), r.randrange(3)] + any_dist(r) + any_dist(r) + any_dist(r)
    for _ in range(2):
        s += [r.randrange(4), r.randrange(2)] + any_dist(r)
    for _ in range(13):
        count = r.choice([0, 0, 0, 1, 2, 3])
        s += [len(rows) // 2 if count else 0, count]
        for _ in range(count):
            rows += [r.choice([r.randrange(machine), *TARGETS.values(), 77]), any_float32(r)]
    if r.random() < 0.2:
        s[r.randrange(32)] = r.getrandbits(64)
    return s


def any_calls(r):
    calls = []
    for _ in range(n := r.randrange(6)):
        events = [(r.choice([*range(10), 10, 1 << 63]), r.choice([0, 0, 1, 99])) for _ in range(r.randrange(4))]
        calls += [r.getrandbits(10), len(events)] + [w for e in events for w in e]
    return n, calls


def any_words(r):
    machines, states, rows = [], [], []
    for _ in range(r.randrange(4)):
        n = r.randrange(4)
        machines += [r.getrandbits(8), any_float(r), r.getrandbits(64), any_float(r), len(states) // 58, n]
        for _ in range(n):
            states += any_state(r, n, rows)
    if r.random() < 0.2 and states:  # another layout, or no layout at all
        states[r.randrange(len(states))] = r.getrandbits(r.choice([3, 64]))
    if r.random() < 0.1:
        rows += [1, 2]
    chances = [any_float32(r) for _ in range(r.randrange(20))]
    values = [any_float(r) for _ in range(r.randrange(20))]
    n, calls = any_calls(r)
    header = [any_float(r), any_float(r), r.getrandbits(r.choice([4, 64])), len(machines) // 6, len(states) // 58, len(rows) // 2]
    return header + [len(chances), len(values), n] + machines + states + rows + chances + values + calls


def any_tables(r):
    """Rows of any words, raw: some of each kind, or none."""
    text = Text("")
    for kind, width in WIDTHS.items():
        for _ in range(r.randrange(4)):
            row = [r.choice([r.choice(EDGES), r.getrandbits(r.randrange(1, 65))]) for _ in range(width)]
            text.raw.append((kind, row, [None] * width))
    return text.tables()


# ---- sheets

def damaged_sheet(r, sheet):
    """A sheet's bytes with some bytes changed, put in or taken out, or some lines moved."""
    for _ in range(r.choice([1, 1, 2])):
        lines = sheet.splitlines(keepends=True)
        kind, at = r.randrange(5), r.randrange(len(sheet) + 1)
        if kind == 0:
            r.shuffle(lines)
            sheet = b"".join(lines)
        elif kind == 1:
            sheet = sheet[:at] if r.random() < 0.5 else b"".join(lines[:r.randrange(len(lines) + 1)])
        else:
            new = r.choice([b" ", b"0", b"1", b"9", b"\n", b"\r", b"x", b"\t", b"\xff", b"_", b"+", b""])
            sheet = sheet[:at] + new + sheet[at + (kind < 4):]
    return sheet


# ---- valid tables

def valid_dist(r):
    low = r.uniform(-10, 10)
    return r.choice([[1, bits(low), bits(low + r.choice([0, 1, 1e9])), 0, bits(2.0)], [2, 0, NAN, bits(1.0), 0]])


class Drawn:
    """Tables that an opening takes, as lists of rows; each state has transitions on NormalSent."""

    def __init__(self, r):
        self.fractions = [bits(r.random()), r.choice([0, 1 << 63, bits(1.0)])]
        self.machines, self.states, self.rows = [], [], []
        for _ in range(r.choice([1, 1, 2, 3])):
            n = r.randrange(1, 4)
            self.machines.append([3, r.choice([0, NAN, bits(0.5)]), 9, r.choice([1 << 63, NAN, bits(1.0)]), len(self.states), n])
            for _ in range(n):
                self.states.append(self.state(r, n))

    def state(self, r, n):
        row = [r.randrange(5), r.randrange(4), r.randrange(3)] + [0] * (STATE - 3)
        for at in dist_places():
            row[at:at + 5] = valid_dist(r)
        for at in COUNTERS.values():
            row[at], row[at + COPY] = r.randrange(4), r.randrange(2)
        for event in range(len(EVENTS)):
            if EVENTS[event] == "NormalSent" or r.random() < 0.2:
                targets = r.sample([*range(n), *TARGETS.values()], r.randrange(1, 4))
                row[pair(event):pair(event) + 2] = [len(self.rows), len(targets)]
                self.rows += [[target, r.choice([0x7fc00000, bits32(0.25), bits32(0.1)])] for target in targets]
        return row

    def words(self):
        header = [*self.fractions, 0, len(self.machines), len(self.states), len(self.rows), 0, 0, 0]
        return header + [w for table in (self.machines, self.states, self.rows) for row in table for w in row]


# ---- damages, by the refusal that one of them alone leads to

def fraction(k):
    def change(r, t):
        t.fractions[k] = r.choice([*BEYOND, NAN])
    return change


def machine_word(k, values):
    def change(r, t):
        r.choice(t.machines)[k] = r.choice(values)
    return change


def more_machines(r, t):
    t.machines += [t.machines[0][:] for _ in range(MACHINE_MAX + r.randrange(1, 3) - len(t.machines))]


def past_states(r, t):
    machine = r.choice(t.machines)
    machine[FIRST_STATE] = r.choice([len(t.states), len(t.states) - machine[STATES] + 1, (1 << 64) - 1])


def past_rows(r, t):
    at, count = pair(r.randrange(len(EVENTS))), r.choice([1, 2])
    r.choice(t.states)[at:at + 2] = r.choice([[len(t.rows) - count + 1, count], [0, len(t.rows) + 1], [(1 << 64) - 1, 1],
                                              [1, (1 << 64) - 1]])


def probability(values):
    def change(r, t):
        r.choice(t.rows)[1] = r.choice(values)
    return change


def bad_target(r, t):
    r.choice(t.rows)[0] = r.choice([3, 4294967293, 4294967296, (1 << 64) - 1, 4294967295 + (1 << 32)])


def two_more(first, second):
    """Two transitions more, as the row of some event; the sum of 13 is that of f32."""
    def change(r, t):
        at = pair(r.randrange(len(EVENTS)))
        r.choice(t.states)[at:at + 2] = [len(t.rows), 2]
        t.rows += [first[:], second[:]]
    return change


def acting(action, at, values):
    """A word of a state with an action, and with what that action needs."""
    def change(r, t):
        row = r.choice(t.states)
        row[0] = action
        row[at] = r.choice(values)
    return change


def counting(at, values):
    def change(r, t):
        row, start = r.choice(t.states), r.choice(list(COUNTERS.values()))
        row[start] = r.randrange(1, 4)
        row[start + at] = r.choice(values)
    return change


def bounds(low, high):
    """A Uniform that a state uses, with these bounds."""
    def change(r, t):
        row = r.choice(t.states)
        at, action = r.choice([(PLACES["timeout"], 2), (PLACES["timeout"], 3), (PLACES["duration"], 3), (PLACES["duration"], 4),
                               (PLACES["limit"], 2), (PLACES["limit"], 4), (COUNTERS["A"] + COUNTER_DIST, None),
                               (COUNTERS["B"] + COUNTER_DIST, None)])
        if action is None:
            row[at - COUNTER_DIST] = 3
        else:
            row[0] = action
        row[at:at + 3] = [1, bits(low), bits(high)]
    return change


END, SIGNAL = TARGETS.values()
DAMAGES = {
    1: [fraction(0)],
    2: [fraction(1)],
    3: [more_machines],
    4: [machine_word(1, BEYOND)],
    5: [machine_word(3, BEYOND)],
    6: [machine_word(STATES, [0, STATE_MAX + 1, (1 << 64) - 1])],
    7: [past_states, machine_word(STATES, [STATE_MAX])],
    8: [past_rows],
    9: [probability([1 << 32, (1 << 32) + 0x3f800000, (1 << 64) - 1])],
    10: [bad_target],
    11: [two_more([0, bits32(0.5)], [0, bits32(0.25)]), two_more([END, 0x7fc00000], [END, 0x7fc00000])],
    12: [probability([0, 0x80000000, 0x3f800001, 0x7f800000, 0xbf800000, 0xff800000])],
    13: [two_more([END, bits32(0.75)], [SIGNAL, bits32(0.5)]), two_more([END, bits32(1.0)], [0, 0x34000000])],
    14: [acting(5, 0, [5, (1 << 64) - 1]), acting(1, TIMER_AT, [3, 1 << 32]), acting(2, FLAGS_AT, [4, 1 << 63]),
         acting(4, FLAGS_AT, [4]), acting(2, PLACES["timeout"], [0, 3]), acting(3, PLACES["duration"], [0, 3]),
         acting(4, PLACES["duration"], [0, 7]), acting(2, PLACES["limit"], [3]), counting(0, [4, 1 << 63]),
         counting(COPY, [2, 1 << 32]), counting(COUNTER_DIST, [3])],
    15: [bounds(3.0, 2.0), bounds(float("nan"), 2.0), bounds(0.0, float("inf")), bounds(-1e308, 1e308)],
}
HARMLESS = [acting(0, FLAGS_AT, [4, 1 << 63]), acting(1, FLAGS_AT, [4]), acting(2, TIMER_AT, [3]),
            acting(2, PLACES["duration"], [0, 9]), acting(4, PLACES["timeout"], [0, 9]), acting(1, PLACES["limit"], [9]),
            two_more([END, bits32(1.0)], [0, 0x33000000]), two_more([END, bits32(1.0)], [0, 0x7fc00000])]


def damage(r, t, times):
    """So many random changes: damages, harmless ones, or a word of a state set to an edge."""
    for _ in range(times):
        kind = r.randrange(3)
        if kind == 0:
            r.choice(r.choice(list(DAMAGES.values())))(r, t)
        elif kind == 1:
            r.choice(HARMLESS)(r, t)
        else:
            r.choice(t.states)[r.randrange(STATE)] = r.choice(EDGES)


def damaged_text(r):
    """The text of drawn tables with statements put in behind a state's; drawn again where the text cannot be read."""
    while True:
        lines = decode(Drawn(r).words()).split("\n")
        for _ in range(r.choice([0, 1, 1, 2])):
            at = r.choice([k for k, line in enumerate(lines) if line.startswith("  state")]) + 1
            event, target = r.choice(EVENTS), r.choice(["s0", "END", "2", "7", "0xffffffff"])
            dist = f"uniform {r.choice(['1', '3', 'inf'])} {r.choice(['2', 'nan', '-1e308'])}"
            lines.insert(at, r.choice([
                f"word {r.randrange(STATE)} {r.choice(EDGES)}", f"word {r.randrange(STATE)} {r.choice(EDGES)}",
                f"on {event} -> {target} {r.choice(['1', '0.5', '2', '0', 'nan'])}, SIGNAL {r.choice(['0.5', '0.25'])}",
                f"timeout {dist}", f"counter A Set copy {dist}", "machine", "machine\n max_padding_frac 1.5\n state more"]))
        text = "\n".join(lines)
        try:
            encode(text)
            return text
        except Bad:
            continue
