"""Refusals 1 to 15 of an opening, over the tables of a text or a sheet, in the library's order."""
import math

from .floats import bits32, float32, float64, float_text
from .layout import (ABSENT, ACTION_AT, ACTIONS, BOUNDS, CANCEL, COPY, COUNTER_DIST, COUNTERS, EVENTS, FIRST_STATE, FLAGS,
                     FLAGS_AT, FRACTIONS, KINDS, MACHINE, MACHINE_MAX, OPERATIONS, PLACES, STATE, STATE_MAX, STATES, TARGETS,
                     TIMER_AT, TIMERS, TRANSITION, UNIFORM, USES, WIDTHS, pair)


def findings(tables):
    """(number, line, reason) of each refusal. The first is the library's answer; the others stand as if it were mended."""
    yield from framework_findings(tables)
    broken = [kind for kind in WIDTHS if len(tables.table(kind)) % WIDTHS[kind]]
    if broken:
        yield 3, None, f"the {broken[0]} table is not whole rows of {WIDTHS[broken[0]]} words"
        return
    count = tables.rows("machine")
    if count > MACHINE_MAX:
        yield 3, tables.lines["machine"][MACHINE_MAX * MACHINE], f"{count} machines, more than {MACHINE_MAX}"
    for m in range(count):
        yield from machine_findings(tables, m)


def counted(n, what):
    return f"{n} {what}{'' if n == 1 else 's'}"


# ---- refusals 1, 2 and 4 to 7

def framework_findings(tables):
    for number, name in enumerate(FRACTIONS, 1):
        word = tables.framework[name]
        if not 0 <= float64(word) <= 1:
            yield number, tables.framework_lines.get(name), f"the framework's {name} is {float_text(word)}, not from 0 to 1"


def machine_findings(tables, m):
    row, lines = (table[m * MACHINE:(m + 1) * MACHINE] for table in (tables.machines, tables.lines["machine"]))
    for number, (name, k) in enumerate(FRACTIONS.items(), 4):
        if float64(row[k]) < 0 or float64(row[k]) > 1:  # a NaN passes
            yield number, lines[k], f"{name} of machine {m} is {float_text(row[k])}, not from 0 to 1"
    first, count, rows = row[FIRST_STATE], row[STATES], tables.rows("state")
    if count == 0:
        yield 6, lines[STATES], f"machine {m} has no states"
    elif count > STATE_MAX:
        yield 6, lines[STATES], f"machine {m} has {count} states, more than {STATE_MAX}"
    elif first + count > rows:
        reason = f"machine {m} has {counted(count, 'state')} from row {first} on, beyond the {rows} of the table"
        yield 7, lines[FIRST_STATE], reason
    else:
        for s in range(count):
            yield from state_findings(Row(tables, m, s))


# ---- a state

class Row:
    """A row of the state table, as a state of a machine."""

    def __init__(self, tables, m, s):
        first, self.states = tables.machines[m * MACHINE + FIRST_STATE], tables.machines[m * MACHINE + STATES]
        self.tables, self.m, self.s, self.at = tables, m, s, (first + s) * STATE
        self.words = tables.states[self.at:self.at + STATE]

    def given(self, place):
        return self.at + place in self.tables.given

    def line(self, *places):
        """The line of the place that a 'word' statement gives, else of the first place."""
        place = next(filter(self.given, places), places[0])
        return self.tables.lines["state"][self.at + place]

    def user(self, event):
        """Which state's row of transitions it is, where the text's lines do not show it."""
        if self.tables.raw or self.given(pair(event)) or self.given(pair(event) + 1):
            return f" (machine {self.m}, state {self.s}, {EVENTS[event]})"
        return ""

    def target(self, word):
        """A target's name: in a text its state's."""
        names = self.tables.names[self.m] if not self.tables.raw else []
        special = [name for name, target in TARGETS.items() if target == word]
        return special[0] if special else names[word] if word < len(names) else str(word)


def state_findings(row):
    for event in range(len(EVENTS)):
        for number, line, reason in event_findings(row, event):
            yield number, line, reason + row.user(event)
    parts = [(action_codes, action_dists, None), *((counter_codes, counter_dists, letter) for letter in COUNTERS)]
    for codes, _, letter in parts:
        yield from codes(row, letter)
    for _, dists, letter in parts:
        for what, at in dists(row, letter):
            yield from dist_findings(row, what, at)


# ---- refusals 8 to 13

def event_findings(row, event):
    """The transitions of a state on an event."""
    tables, at = row.tables, pair(event)
    first, count = row.words[at:at + 2]
    rows = tables.rows("transition")
    if count == 0:
        return
    if first + count > rows:
        line = row.line(at + 1, at) if count > rows else row.line(at, at + 1)
        yield 8, line, f"{EVENTS[event]} has {counted(count, 'transition')} from row {first} on, beyond the {rows} of the table"
        return
    seen, total, judged = set(), 0.0, True
    for k in range(first * TRANSITION, (first + count) * TRANSITION, TRANSITION):
        target, word = tables.transitions[k:k + TRANSITION]
        for number, reason in transition_findings(row, event, target, word, seen):
            second = number in (9, 12)  # of the row's words: the probability
            judged = judged and not second
            yield number, tables.lines["transition"][k + second], reason
        seen.add(target)
        if judged:
            total = float32(bits32(total + float32(word)))  # the sum of two f32 is rounded once
    if judged and improbable(total):
        yield 13, row.line(at + 1, at), f"the probabilities of {EVENTS[event]} add up to {float_text(bits32(total), 32)}"


def transition_findings(row, event, target, word, seen):
    if word >= 1 << 32:
        yield 9, f"the probability's word is {word}, 2^32 or more"
    if target >= row.states and target not in TARGETS.values():
        yield 10, f"target {target} is neither a state of this machine ({counted(row.states, 'state')}), END nor SIGNAL"
    elif target in seen:
        yield 11, f"target {row.target(target)} stands twice for {EVENTS[event]}"
    if word < 1 << 32 and improbable(float32(word)):
        yield 12, f"probability {float_text(word, 32)} is not above 0 and at most 1"


def improbable(p):
    """At or below 0, or above 1: a NaN passes."""
    return p <= 0 or p > 1


# ---- refusal 14

def action_codes(row, _):
    action = row.words[ACTION_AT]
    if action >= len(ACTIONS):
        yield 14, row.line(ACTION_AT), f"action {action} is unknown"
    elif action == CANCEL and row.words[TIMER_AT] >= len(TIMERS):
        yield 14, row.line(TIMER_AT), f"timer {row.words[TIMER_AT]} is unknown"
    elif ACTIONS[action] in USES:
        flags, last = row.words[FLAGS_AT], sum(FLAGS.values())
        if flags > last:
            yield 14, row.line(FLAGS_AT), f"flags {flags} are above {last}"
        for name in USES[ACTIONS[action]]:
            if name != "limit" and row.words[PLACES[name]] == ABSENT:
                yield 14, row.line(PLACES[name]), f"{ACTIONS[action]} needs a {name}"
            yield from kind_findings(row, name, PLACES[name])


def counter_codes(row, letter):
    at = COUNTERS[letter]
    operation, copy = row.words[at], row.words[at + COPY]
    if operation == 0:
        return
    if operation >= len(OPERATIONS):
        yield 14, row.line(at), f"counter {letter}: operation {operation} is unknown"
    if copy > 1:
        yield 14, row.line(at + COPY), f"counter {letter}: copy {copy} is neither 0 nor 1"
    yield from kind_findings(row, f"counter {letter}", at + COUNTER_DIST)


def kind_findings(row, what, at):
    if row.words[at] >= len(KINDS):
        yield 14, row.line(at), f"{what}: kind {row.words[at]} is unknown"


# ---- refusal 15

def action_dists(row, _):
    """The distributions that the action uses: their names and places."""
    action = row.words[ACTION_AT]
    names = USES.get(ACTIONS[action], []) if action < len(ACTIONS) else []
    return [(name, PLACES[name]) for name in names]


def counter_dists(row, letter):
    at = COUNTERS[letter]
    return [(f"counter {letter}", at + COUNTER_DIST)] if row.words[at] else []


def dist_findings(row, what, at):
    low_at, high_at = at + BOUNDS["low"], at + BOUNDS["high"]
    low, high = float64(row.words[low_at]), float64(row.words[high_at])
    fault = uniform_fault(low, high)
    if row.words[at] == UNIFORM and fault:
        low, high = float_text(row.words[low_at]), float_text(row.words[high_at])
        yield 15, row.line(low_at, high_at, at), f"{what}: uniform from {low} to {high}, {fault}"


def uniform_fault(low, high):
    if not math.isfinite(low):
        return "low is not finite"
    if not math.isfinite(high):
        return "high is not finite"
    if low > high:
        return "low above high"
    return "" if math.isfinite(high - low) else "high - low is infinite"
