"""Words to text."""
from .floats import Bad, float_text
from .layout import (ACTION_AT, ACTIONS, ALLOWANCES, BOUNDS, CANCEL, COPY, COUNTER_DIST, COUNTERS, DIST, EVENTS, FIRST_STATE,
                     FLAGS, FLAGS_AT, FRACTIONS, HEADER, KINDS, MACHINE, OPERATIONS, PLACES, STATE, STATES, TARGETS, TIMER_AT,
                     TIMERS, TRANSITION, TRIGGERS, UNIFORM, WIDTHS, WITH_MACHINE, pair, row_list)
from .reading import Line, State


class Words:
    """The parts of a stream of words."""

    def __init__(self, words):
        self.words, self.at = words, 0
        self.header = self.take(HEADER, "the header")
        rows = [self.take(self.header[3 + k] * width, what) for k, (width, what) in enumerate(
            [(MACHINE, "the machine table"), (STATE, "the state table"), (TRANSITION, "the transition table"),
             (1, "the chance draws"), (1, "the value draws")])]
        self.machines, self.states, self.transitions, self.chances, self.values = rows
        for k, w in enumerate(self.chances):
            if w >= 1 << 32:
                raise Bad(f"chance draw {k} is {w}, and has to be below 2^32")
        self.calls = [self.call(k + 1) for k in range(self.header[8])]
        if self.at != len(words):
            raise Bad(f"{len(words) - self.at} words are left over behind the last call")

    def call(self, k):
        time, count = self.take(2, f"call {k}")
        events = self.take(2 * count, f"the events of call {k}")
        return time, list(zip(events[::2], events[1::2]))

    def take(self, n, what):
        if n > len(self.words) - self.at:
            raise Bad(f"the words end within {what}: {n} words wanted from word {self.at} on, {len(self.words) - self.at} there")
        self.at += n
        return self.words[self.at - n:self.at]


# ---- a state

def dist_text(words):
    """A distribution, or nothing where its kind has no name."""
    kind = words[0]
    if not 1 <= kind < len(KINDS):
        return ""
    parts = [KINDS[kind]]
    for name, k in BOUNDS.items():
        if kind == UNIFORM and name in ("low", "high"):
            parts.append(float_text(words[k]))
        elif words[k]:
            parts.append(f"{name} {float_text(words[k])}")
    return " ".join(parts)


def action_text(row):
    kind = row[ACTION_AT]
    if not 1 <= kind < len(ACTIONS):
        return []
    parts = ["action", ACTIONS[kind]]
    if kind == CANCEL and 1 <= row[TIMER_AT] < len(TIMERS):
        parts += ["timer", TIMERS[row[TIMER_AT]]]
    elif kind != CANCEL and row[FLAGS_AT] <= sum(FLAGS.values()):
        parts += [name for name, bit in FLAGS.items() if row[FLAGS_AT] & bit]
    return [" ".join(parts)]


def counter_text(letter, words):
    if not 1 <= words[0] < len(OPERATIONS):
        return []
    copy = "copy" if words[COPY] == 1 else ""
    dist = dist_text(words[COUNTER_DIST:])
    return [" ".join(filter(None, ["counter", letter, OPERATIONS[words[0]], copy, dist]))]


def on_text(event, row, transitions, states):
    first, count = row[pair(event):pair(event) + 2]
    rows = [transitions[TRANSITION * k:TRANSITION * (k + 1)] for k in range(first, first + count)]
    parts = [f"{target_text(target, states)} {float_text(probability, 32)}" for target, probability in rows]
    return [f"on {EVENTS[event]} -> " + ", ".join(parts)] if parts else []


def target_text(word, states):
    return next((n for n, w in TARGETS.items() if w == word), f"s{word}" if word < states else str(word))


def state_text(row, transitions, states):
    """The statements of a state; what they do not say of its row follows as 'word K N'."""
    lines = action_text(row)
    for what, at in PLACES.items():
        dist = dist_text(row[at:at + DIST])
        lines += [f"{what} {dist}"] if dist else []
    for letter, at in COUNTERS.items():
        lines += counter_text(letter, row[at:at + COUNTER_DIST + DIST])
    for event in range(len(EVENTS)):
        lines += on_text(event, row, transitions, states)
    return lines + odd_words(row, lines)


def odd_words(row, lines):
    """'word K N' for each word of the row that the statements do not give (the places of transition rows aside)."""
    state = State("", 0)
    for number, text in enumerate(lines):
        line = Line(number, text)
        state.statement(line.next("a word"), line)
    said = state.row[:]
    for event in state.on:
        said[pair(event):pair(event) + 2] = row[pair(event):pair(event) + 2]
    return [f"word {k} {row[k]}" for k in range(STATE) if said[k] != row[k]]


# ---- the tables

def canonical(p):
    """Whether the tables are laid out as the encoder does: machines' states and their transitions one behind the other."""
    state, transition = 0, 0
    for m in range(0, len(p.machines), MACHINE):
        first, count = p.machines[m + FIRST_STATE], p.machines[m + STATES]
        if first != state or count > len(p.states) // STATE - state:
            return False
        state += count
    if state != len(p.states) // STATE or not p.machines:
        return False
    for s in range(0, len(p.states), STATE):
        for event in range(len(EVENTS)):
            first, count = p.states[s + pair(event):s + pair(event) + 2]
            if count and (first != transition or count > len(p.transitions) // TRANSITION - transition):
                return False
            transition += count
    return transition == len(p.transitions) // TRANSITION


def machine_text(p, m):
    row = p.machines[m:m + MACHINE]
    lines = ["", "machine"]
    for name, k in sorted([*FRACTIONS.items(), *ALLOWANCES.items()], key=lambda x: x[1]):
        if row[k]:
            lines.append(f"  {name} {float_text(row[k]) if name in FRACTIONS else row[k]}")
    for i in range(row[STATES]):
        at = (row[FIRST_STATE] + i) * STATE
        lines.append(f"  state s{i}")
        lines += [f"    {line}" for line in state_text(p.states[at:at + STATE], p.transitions, row[STATES])]
    return lines


def tables_text(p):
    if canonical(p):
        return [line for m in range(0, len(p.machines), MACHINE) for line in machine_text(p, m)]
    tables = zip(WIDTHS, (p.machines, p.states, p.transitions))
    return [f"raw {kind} " + " ".join(map(str, row)) for kind, table in tables for row in row_list(table, kind)]


def describe(p):
    """A text of the tables alone."""
    return "".join(f"{line}\n" for line in tables_text(p)).lstrip("\n")


# ---- a stream of words

def wrapped(key, texts):
    return [f"{key} " + " ".join(texts[k:k + 8]) for k in range(0, len(texts), 8)]


def event_text(kind, machine):
    name = TRIGGERS[kind] if kind < len(TRIGGERS) else f"kind:{kind}"
    return f"{name} {machine}" if machine or name in WITH_MACHINE else name


def call_text(time, events):
    return f"call {time}:" + ("," if events else "").join(" " + event_text(*e) for e in events)


def decode(words):
    p = Words(words)
    lines = ["framework", f"  max_padding_frac {float_text(p.header[0])}",
             f"  max_blocking_frac {float_text(p.header[1])}", f"  time {p.header[2]}"]
    lines += tables_text(p)
    lines += [""] + wrapped("chance", [float_text(w, 32) for w in p.chances])
    lines += wrapped("value", [float_text(w) for w in p.values])
    lines += [call_text(time, events) for time, events in p.calls]
    return "\n".join(lines) + "\n"
