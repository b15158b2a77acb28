"""The names and places of the words of the tables. docs/FORMATS.md says what they mean."""

EVENTS = ("NormalRecv PaddingRecv TunnelRecv NormalSent PaddingSent TunnelSent BlockingBegin BlockingEnd "
          "LimitReached CounterZero TimerBegin TimerEnd Signal").split()
INTERNAL = {"LimitReached", "CounterZero", "Signal"}
TRIGGERS = [event for event in EVENTS if event not in INTERNAL]
WITH_MACHINE = {"PaddingSent", "BlockingBegin", "TimerBegin", "TimerEnd"}

# the names of codes, from 0 on; '' has no name
ACTIONS = ["", "Cancel", "SendPadding", "BlockOutgoing", "UpdateTimer"]
FLAGS = {"bypass": 1, "replace": 2}
TIMERS = ["Action", "Internal", "All"]
OPERATIONS = ["", "Increment", "Decrement", "Set"]
KINDS = ["", "uniform", "outside"]
ABSENT, UNIFORM = 0, 1
CANCEL = 1
TARGETS = {"END": 4294967295, "SIGNAL": 4294967294}

# words of a row, and of the header of linkrun's input
MACHINE, STATE, TRANSITION, HEADER = 6, 58, 2, 9
WIDTHS = {"machine": MACHINE, "state": STATE, "transition": TRANSITION}
MACHINE_MAX, STATE_MAX = 16, 100_000
LINKRUN_MAX = 8192  # words that linkrun takes

# words of a machine row
FRACTIONS = {"max_padding_frac": 1, "max_blocking_frac": 3}
ALLOWANCES = {"allowed_padding_packets": 0, "allowed_blocked_microsec": 2}
FIRST_STATE, STATES = 4, 5

# words of a state row
ACTION_AT, FLAGS_AT, TIMER_AT = 0, 1, 2
PLACES = {"timeout": 3, "duration": 8, "limit": 13}
COUNTERS = {"A": 18, "B": 25}
COPY, COUNTER_DIST = 1, 2  # words of a counter, behind its operation
BOUNDS = {"low": 1, "high": 2, "start": 3, "max": 4}  # words of a distribution, behind its kind
DIST = 5
ON = 32

# the distributions that an action uses; it needs all but the limit
USES = {"SendPadding": ["timeout", "limit"], "BlockOutgoing": ["timeout", "duration", "limit"],
        "UpdateTimer": ["duration", "limit"]}


def pair(event):
    """The place of an event's (first transition row, count) in a state row."""
    return ON + 2 * event


def row_list(table, kind):
    """The rows of a table."""
    return [table[k:k + WIDTHS[kind]] for k in range(0, len(table), WIDTHS[kind])]


def dist_places():
    """Where the distributions of a state row begin."""
    return [*PLACES.values(), *(at + COUNTER_DIST for at in COUNTERS.values())]
