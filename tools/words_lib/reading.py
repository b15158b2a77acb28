"""Text to tables and words. The grammar is in docs/WORDS.md."""
import re

from .floats import WHOLE, Bad, float_word, whole
from .layout import (ACTION_AT, ACTIONS, ALLOWANCES, BOUNDS, CANCEL, COPY, COUNTER_DIST, COUNTERS, DIST, EVENTS, FIRST_STATE,
                     FLAGS, FLAGS_AT, FRACTIONS, KINDS, MACHINE, OPERATIONS, PLACES, STATE, STATES, TARGETS, TIMER_AT, TIMERS,
                     TRIGGERS, UNIFORM, WIDTHS, WITH_MACHINE, pair)

NAME = re.compile(r"[^\W\d][\w.-]*")


class Line:
    """A line's tokens, taken from the left."""

    def __init__(self, number, text):
        self.number, self.tokens, self.at = number, text.split(), 0

    def more(self):
        return self.at < len(self.tokens)

    def next(self, what):
        if not self.more():
            raise Bad(f"{what} is missing", self.number)
        self.at += 1
        return self.tokens[self.at - 1]

    def rest(self):
        rest, self.at = self.tokens[self.at:], len(self.tokens)
        return rest

    def is_next(self, word):
        if self.more() and self.tokens[self.at] == word:
            self.at += 1
            return True
        return False

    def end(self):
        if self.more():
            raise Bad(f"'{self.tokens[self.at]}' was not expected here", self.number)


def code(names, text, what, line):
    """The number of a name in a list of names."""
    if text not in names or text == "":
        raise Bad(f"{what}: '{text}' is none of {', '.join(n for n in names if n)}", line)
    return list(names).index(text)


def once(said, key, line):
    """Notes that something is given, and refuses it when it was before."""
    if key in said:
        where = f"; first in line {said[key]}" if said[key] != line else ""
        raise Bad(f"{key} is given twice{where}", line)
    said[key] = line


def read_dist(line, what):
    kind = code(KINDS, line.next(f"the kind of {what}"), what, line.number)
    words, said = [kind] + [0] * (DIST - 1), {}
    if kind == UNIFORM:
        for name in ("low", "high"):
            words[BOUNDS[name]] = float_word(line.next(name), name, line.number)
    names = [name for name in BOUNDS if kind != UNIFORM or name not in ("low", "high")]
    while line.more():
        name = line.next("a word")
        if name not in names:
            raise Bad(f"{what}: '{name}' is none of {', '.join(names)}", line.number)
        once(said, name, line.number)
        words[BOUNDS[name]] = float_word(line.next(name), name, line.number)
    return words


# ---- the sections of a text

class Framework:
    """The opening's fractions and time."""

    def __init__(self):
        self.words = {**{name: 0 for name in FRACTIONS}, "time": 0}
        self.said = {}

    def statement(self, key, line):
        if key not in self.words:
            raise Bad(f"'{key}' is none of {', '.join(self.words)}", line.number)
        once(self.said, key, line.number)
        read = whole if key == "time" else float_word
        self.words[key] = read(line.next(key), key, line.number)


class Machine:
    def __init__(self, line):
        self.row, self.lines = [0] * MACHINE, [line] * MACHINE
        self.states, self.numbers, self.said = [], {}, {}

    def statement(self, key, line):
        places = {**FRACTIONS, **ALLOWANCES}
        if key not in places:
            raise Bad(f"'{key}' is no statement of a machine", line.number)
        once(self.said, key, line.number)
        read = float_word if key in FRACTIONS else whole
        self.row[places[key]] = read(line.next(key), key, line.number)
        self.lines[places[key]] = line.number

    def new_state(self, line):
        name = line.next("a state's name")
        if name in TARGETS or not NAME.fullmatch(name):
            raise Bad(f"'{name}' cannot name a state", line.number)
        if name in self.numbers:
            raise Bad(f"this machine already has a state {name}", line.number)
        self.numbers[name] = len(self.states)
        self.states.append(State(name, line.number))
        return self.states[-1]


class State:
    """A state's row, and for each of its words the line that gives it: the line of 'state' where none does."""

    def __init__(self, name, line):
        self.name = name
        self.row, self.lines = [0] * STATE, [line] * STATE
        self.on = {}  # event -> [(target, probability word)]
        self.on_lines = {}
        self.set = {}  # place -> (value, line), by 'word K N'
        self.said = {}

    def put(self, at, words, line):
        self.row[at:at + len(words)] = words
        self.lines[at:at + len(words)] = [line.number] * len(words)

    def statement(self, key, line):
        if key == "action":
            self.action(line)
        elif key in PLACES:
            once(self.said, key, line.number)
            self.put(PLACES[key], read_dist(line, key), line)
        elif key == "counter":
            self.counter(line)
        elif key == "on":
            self.transitions(line)
        elif key == "word":
            k = whole(line.next("a word's place"), "word", line.number, STATE)
            once(self.said, f"word {k}", line.number)
            self.set[k] = whole(line.next("a value"), "value", line.number), line.number
        else:
            raise Bad(f"'{key}' is no statement of a state", line.number)

    def action(self, line):
        once(self.said, "action", line.number)
        kind = code(ACTIONS, line.next("an action"), "action", line.number)
        flags, timer, said = 0, 0, {}
        while line.more():
            word = line.next("a flag")
            once(said, word, line.number)
            if word == "timer" and kind == CANCEL:
                timer = code(TIMERS, line.next("a timer"), "timer", line.number)
            elif word in FLAGS and kind != CANCEL:
                flags |= FLAGS[word]
            else:
                raise Bad(f"{ACTIONS[kind]} takes no '{word}'", line.number)
        self.put(ACTION_AT, [kind], line)
        self.put(FLAGS_AT, [flags], line)
        self.put(TIMER_AT, [timer], line)

    def counter(self, line):
        letter = line.next("A or B")
        code(COUNTERS, letter, "counter", line.number)
        once(self.said, f"counter {letter}", line.number)
        at = COUNTERS[letter]
        operation = code(OPERATIONS, line.next("an operation"), "operation", line.number)
        self.put(at, [operation, 0] + [0] * DIST, line)
        self.row[at + COPY] = 1 if line.is_next("copy") else 0
        if line.more():
            self.put(at + COUNTER_DIST, read_dist(line, f"counter {letter}"), line)

    def transitions(self, line):
        event = code(EVENTS, line.next("an event"), "event", line.number)
        once(self.said, f"on {EVENTS[event]}", line.number)
        if not line.is_next("->"):
            raise Bad("'->' is missing", line.number)
        self.on[event], self.on_lines[event] = [], line.number
        for part in " ".join(line.rest()).split(","):
            both = part.split()
            if len(both) != 2:
                raise Bad(f"'{part.strip()}' is no target and probability", line.number)
            self.on[event].append((both[0], float_word(both[1], "probability", line.number, 32)))


def target_word(text, numbers, line):
    if text in numbers:
        return numbers[text]
    if text in TARGETS:
        return TARGETS[text]
    if WHOLE.fullmatch(text):
        return whole(text, "target", line)
    raise Bad(f"'{text}' is no state of this machine, END or SIGNAL", line)


# ---- the tables

class Tables:
    """The three tables, for each word the line that gives it, and for each row what it is."""

    def __init__(self, framework, raw):
        self.framework, self.framework_lines, self.raw = framework.words, framework.said, raw
        self.machines, self.states, self.transitions = [], [], []
        self.lines = {"machine": [], "state": [], "transition": []}
        self.labels = {"machine": [], "state": [], "transition": []}
        self.names = []  # of each machine its states' names; none for raw rows
        self.given = set()  # the places in the state table that 'word K N' gives

    def table(self, kind):
        return {"machine": self.machines, "state": self.states, "transition": self.transitions}[kind]

    def rows(self, kind):
        return len(self.table(kind)) // WIDTHS[kind]

    def add(self, kind, row, lines, label):
        self.table(kind).extend(row)
        self.lines[kind].extend(lines)
        self.labels[kind].append(label)

    def add_machine(self, machine):
        """A machine's row, its states and their transitions, behind what there is."""
        label = f"machine {len(self.names)}"
        machine.row[FIRST_STATE], machine.row[STATES] = self.rows("state"), len(machine.states)
        self.names.append([s.name for s in machine.states])
        self.add("machine", machine.row, machine.lines, label)
        for k, state in enumerate(machine.states):
            self.add_state(state, machine.numbers, f"{label}, state {k} ({state.name})")

    def add_state(self, state, numbers, label):
        for event in sorted(state.on):
            line = state.on_lines[event]
            state.row[pair(event):pair(event) + 2] = [self.rows("transition"), len(state.on[event])]
            state.lines[pair(event):pair(event) + 2] = [line, line]
            for target, probability in state.on[event]:
                row = [target_word(target, numbers, line), probability]
                self.add("transition", row, [line, line], f"{label}, {EVENTS[event]} -> {target}")
        for k, (value, line) in state.set.items():
            state.row[k], state.lines[k] = value, line
            self.given.add(len(self.states) + k)
        self.add("state", state.row, state.lines, label)


# ---- a text

class Text:
    """What a description says, section by section."""

    def __init__(self, text):
        self.framework, self.machines = Framework(), []
        self.raw = []  # (kind, row, the line of each of its words)
        self.chances, self.values, self.calls = [], [], []
        self.said = {}
        self.section = None  # what takes the next statement
        for number, full in enumerate(text.split("\n"), 1):
            body = full.split("#")[0].strip()
            if body:
                self.statement(body, Line(number, body.replace("->", " -> ")))

    def statement(self, body, line):
        key = line.next("a word")
        if key == "framework":
            once(self.said, key, line.number)
            self.section = self.framework
        elif key == "machine":
            self.no_mixture(self.raw, line)
            self.machines.append(Machine(line.number))
            self.section = self.machines[-1]
        elif key == "state":
            if not isinstance(self.section, (Machine, State)):
                raise Bad("a state stands in a machine", line.number)
            self.section = self.machines[-1].new_state(line)
        elif key in ("raw", "chance", "value", "call"):
            self.section = None
            self.single(key, body, line)
        elif self.section:
            self.section.statement(key, line)
        else:
            raise Bad(f"'{key}' is no statement, or stands outside its section", line.number)
        line.end()

    def single(self, key, body, line):
        """A statement that no section holds."""
        if key == "raw":
            self.raw_row(line)
        elif key == "chance":
            self.chances += self.draws(key, line, 32, 1 << 32)
        elif key == "value":
            self.values += self.draws(key, line, 64, 1 << 64)
        else:
            line.rest()
            self.calls.append(read_call(body, line.number))

    def no_mixture(self, others, line):
        if others:
            raise Bad("'raw' rows stand instead of machines, not beside them", line.number)

    def raw_row(self, line):
        self.no_mixture(self.machines, line)
        kind = line.next("machine, state or transition")
        code(WIDTHS, kind, "raw", line.number)
        row = [whole(t, "word", line.number) for t in line.rest()]
        if len(row) != WIDTHS[kind]:
            raise Bad(f"a {kind} row has {WIDTHS[kind]} words, and here are {len(row)}", line.number)
        self.raw.append((kind, row, [line.number] * len(row)))

    def draws(self, key, line, size, below):
        texts = [line.next("a draw")] + line.rest()
        return [float_word(t, key, line.number, size, below) for t in texts]

    def tables(self):
        """The three tables: machines' states and their transitions one behind the other, or the raw rows."""
        tables = Tables(self.framework, bool(self.raw))
        for machine in self.machines:
            tables.add_machine(machine)
        for kind, row, lines in self.raw:
            label = f"{'machine' if kind == 'machine' else kind + ' row'} {tables.rows(kind)}"
            tables.add(kind, row, lines, label)
        return tables

    def words(self):
        tables = self.tables()
        out = [self.framework.words[name] for name in (*FRACTIONS, "time")]
        out += [tables.rows(kind) for kind in WIDTHS] + [len(self.chances), len(self.values), len(self.calls)]
        out += tables.machines + tables.states + tables.transitions + self.chances + self.values
        for time, events in self.calls:
            out += [time, len(events)] + [w for e in events for w in e]
        return out


def read_call(body, number):
    """A call's time and events."""
    head, colon, rest = body.partition(":")
    line = Line(number, head)
    line.next("call")
    time = whole(line.next("the call's time"), "time", number)
    line.end()
    if not colon:
        raise Bad("':' is missing behind the call's time", number)
    return time, [read_event(Line(number, part)) for part in rest.split(",")] if rest.strip() else []


def read_event(line):
    name, n = line.next("an event"), line.number
    kind = whole(name[5:], "kind", n) if name.startswith("kind:") else code(TRIGGERS, name, "event", n)
    if name in WITH_MACHINE and not line.more():
        raise Bad(f"{name} wants a machine's number", n)
    machine = whole(line.next("machine"), "machine", n) if line.more() else 0
    line.end()
    return kind, machine


def encode(text):
    return Text(text).words()
