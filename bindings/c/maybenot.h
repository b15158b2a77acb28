/* The framework as a C library: libsender.a, built by `rt lib` in crates/sender into its out/, for x86-64 Linux.
 *
 * Every function is total: any words, floats, bytes and lengths may be lent, and what does not fit is refused by number. A call
 * that refuses changes nothing: whatever was lent is as it went in, and all counts of the answer are 0. Nothing is kept between
 * calls but what the sender keeps. There is no allocation, no lock and no global state: calls on different frameworks may run
 * at the same time.
 *
 * All words are uint64_t, times, timeouts and durations are in microseconds, floats in tables are words that hold their bits.
 * docs/FORMATS.md says the same at more length, with what a batch does. This header is C11 and C++11.
 *
 * Contents: the interface's version; the tables; sheets; events; actions; refusals; the structs and functions; the sender's
 * duties; helpers to write tables. */
#ifndef MAYBENOT_H
#define MAYBENOT_H

#include <stdbool.h>
#include <stddef.h>
#include <stdint.h>
#include <string.h>

#ifdef __cplusplus
extern "C" {
#endif

/* ---- The interface's version
 *
 * It is raised whenever a struct below or the width of a row changes, and not where something is added. The archive has a
 * function with the version in its name, and whatever includes this header refers to it: with an archive of another version the
 * program does not link. Nor does one that calls a function which an older archive of its version lacks. */
#define MAYBENOT_INTERFACE 2

#define MAYBENOT_JOINED_(a, b) a##b
#define MAYBENOT_JOINED(a, b) MAYBENOT_JOINED_(a, b)
#define MAYBENOT_INTERFACE_NAME MAYBENOT_JOINED(maybenot_interface_, MAYBENOT_INTERFACE)

uint64_t MAYBENOT_INTERFACE_NAME(void); /* answers the version */

#if defined(__has_attribute)
#if __has_attribute(retain) && __has_attribute(used)
#define MAYBENOT_KEPT __attribute__((used, retain)) /* by a linker that leaves out unused sections, too */
#endif
#endif
#if !defined(MAYBENOT_KEPT) && defined(__GNUC__)
#define MAYBENOT_KEPT __attribute__((used))
#endif
#ifdef MAYBENOT_KEPT
MAYBENOT_KEPT static uint64_t (*const maybenot_interface_linked)(void) = MAYBENOT_INTERFACE_NAME;
#endif

/* ---- The tables
 *
 * Three lists of rows of words, lent with every call: machines, states, transitions. A machine's states stand one behind the
 * other in the state table, and the transitions of a state on one event in the transition table; rows that no machine reaches
 * are not looked at. A field that an action or a counter does not use is ignored. */
enum {
    MAYBENOT_MAX_MACHINES = 16,
    MAYBENOT_MAX_STATES = 100000, /* of a machine */
    MAYBENOT_ROW_EVENTS = 13,     /* pairs in a state row */

    MAYBENOT_MACHINE_WORDS = 6,    /* a row of the machine table */
    MAYBENOT_STATE_WORDS = 58,     /* a row of the state table */
    MAYBENOT_TRANSITION_WORDS = 2, /* a row of the transition table */
    MAYBENOT_PAIR_WORDS = 2,       /* a pair in a state row */
    MAYBENOT_DIST_WORDS = 5,       /* a distribution in a state row */
    MAYBENOT_COUNTER_WORDS = 7,    /* a counter in a state row */
    MAYBENOT_EVENT_WORDS = 2,      /* an event of a batch */
    MAYBENOT_ACTION_WORDS = 6      /* a row of the output */
};

/* Words of a machine row. A fraction that is 0 sets no limit. */
enum {
    MAYBENOT_MACHINE_AT_ALLOWED_PADDING_PACKETS = 0, /* padding that is free before the fractions count */
    MAYBENOT_MACHINE_AT_MAX_PADDING_FRAC = 1,        /* a double: padding of all packets, 0 to 1 */
    MAYBENOT_MACHINE_AT_ALLOWED_BLOCKED_MICROSEC = 2,
    MAYBENOT_MACHINE_AT_MAX_BLOCKING_FRAC = 3, /* a double: blocked time of all time, 0 to 1 */
    MAYBENOT_MACHINE_AT_FIRST_STATE = 4,       /* a row of the state table; the machine starts there */
    MAYBENOT_MACHINE_AT_STATES = 5             /* how many, 1 to MAYBENOT_MAX_STATES */
};

/* Words of a state row, or where its parts begin. */
enum {
    MAYBENOT_STATE_AT_ACTION = 0,    /* enum maybenot_action: taken when the state is entered */
    MAYBENOT_STATE_AT_FLAGS = 1,     /* MAYBENOT_FLAG_BYPASS + MAYBENOT_FLAG_REPLACE; UpdateTimer: replace alone, Cancel: none */
    MAYBENOT_STATE_AT_TIMER = 2,     /* enum maybenot_timer: read for Cancel alone */
    MAYBENOT_STATE_AT_TIMEOUT = 3,   /* a distribution: SendPadding and BlockOutgoing need it */
    MAYBENOT_STATE_AT_DURATION = 8,  /* a distribution: BlockOutgoing and UpdateTimer need it */
    MAYBENOT_STATE_AT_LIMIT = 13,    /* a distribution, or absent: how often the action is taken while the state stays */
    MAYBENOT_STATE_AT_COUNTER_A = 18, /* a counter: how A changes when the state is entered */
    MAYBENOT_STATE_AT_COUNTER_B = 25,
    MAYBENOT_STATE_AT_PAIRS = 32 /* a pair for each enum maybenot_on, in order */
};

/* Words of a pair: a state's transitions on one event. */
enum {
    MAYBENOT_PAIR_AT_FIRST = 0, /* a row of the transition table */
    MAYBENOT_PAIR_AT_COUNT = 1  /* how many; 0: the event does nothing here */
};

/* The events that a state may have transitions on, in the order of its pairs. These are not the numbers of a batch's events
 * (enum maybenot_event): three happen inside the framework. */
enum maybenot_on {
    MAYBENOT_ON_NORMAL_RECV = 0,
    MAYBENOT_ON_PADDING_RECV = 1,
    MAYBENOT_ON_TUNNEL_RECV = 2,
    MAYBENOT_ON_NORMAL_SENT = 3,
    MAYBENOT_ON_PADDING_SENT = 4,
    MAYBENOT_ON_TUNNEL_SENT = 5,
    MAYBENOT_ON_BLOCKING_BEGIN = 6,
    MAYBENOT_ON_BLOCKING_END = 7,
    MAYBENOT_ON_LIMIT_REACHED = 8, /* inside: the state's limit fell to 0 */
    MAYBENOT_ON_COUNTER_ZERO = 9,  /* inside: a counter fell to 0 */
    MAYBENOT_ON_TIMER_BEGIN = 10,
    MAYBENOT_ON_TIMER_END = 11,
    MAYBENOT_ON_SIGNAL = 12 /* inside: another machine signals */
};

/* Words of a transition row. The probabilities of a state's transitions on one event add up to at most 1; what is left of 1 is
 * the probability that nothing happens. */
enum {
    MAYBENOT_TRANSITION_AT_TARGET = 0,     /* a state's number in its machine, from 0, or one of the two below */
    MAYBENOT_TRANSITION_AT_PROBABILITY = 1 /* a float (32 bits), above 0 and at most 1 */
};

#define MAYBENOT_STATE_END UINT64_C(4294967295)    /* a target: the machine ends */
#define MAYBENOT_STATE_SIGNAL UINT64_C(4294967294) /* a target: the machine signals the others and stays where it is */

/* Words of a distribution. A sample is what is drawn + start, cut at 0 and, where max is above 0, at max. */
enum {
    MAYBENOT_DIST_AT_KIND = 0, /* enum maybenot_dist */
    MAYBENOT_DIST_AT_LOW = 1,  /* doubles from here on; low and high: Uniform alone */
    MAYBENOT_DIST_AT_HIGH = 2,
    MAYBENOT_DIST_AT_START = 3,
    MAYBENOT_DIST_AT_MAX = 4
};

enum maybenot_dist {
    MAYBENOT_DIST_ABSENT = 0,
    MAYBENOT_DIST_UNIFORM = 1, /* a value draw from low to below high; none where low = high */
    MAYBENOT_DIST_OUTSIDE = 2  /* any other: the sender draws from it, and any value is taken as it is; not with words (24) */
};

/* Words of a counter. Without copy and distribution it changes by 1. */
enum {
    MAYBENOT_COUNTER_AT_OPERATION = 0, /* enum maybenot_operation */
    MAYBENOT_COUNTER_AT_COPY = 1,      /* 1: the other counter's value from before; 0: a sample */
    MAYBENOT_COUNTER_AT_DIST = 2       /* a distribution */
};

enum maybenot_operation {
    MAYBENOT_COUNTER_NONE = 0,
    MAYBENOT_COUNTER_INCREMENT = 1,
    MAYBENOT_COUNTER_DECREMENT = 2,
    MAYBENOT_COUNTER_SET = 3
};

/* ---- Sheets: the three tables as text
 *
 * A line for each row: its kind in 4 columns, its words in 21 columns each, then a line feed. All numbers are decimal,
 * right-justified with spaces before them and no leading zeros. The machines' lines come first, then the states', then the
 * transitions'. A table without rows has no lines, so the empty text is a sheet. */
enum {
    MAYBENOT_MACHINE_KIND = 1,
    MAYBENOT_STATE_KIND = 2,
    MAYBENOT_TRANSITION_KIND = 3
};

enum {
    MAYBENOT_KIND_COLUMNS = 4,
    MAYBENOT_WORD_COLUMNS = 21,

    /* bytes of a line, with its line feed: 131, 1223 and 47 */
    MAYBENOT_MACHINE_LINE = MAYBENOT_KIND_COLUMNS + MAYBENOT_WORD_COLUMNS * MAYBENOT_MACHINE_WORDS + 1,
    MAYBENOT_STATE_LINE = MAYBENOT_KIND_COLUMNS + MAYBENOT_WORD_COLUMNS * MAYBENOT_STATE_WORDS + 1,
    MAYBENOT_TRANSITION_LINE = MAYBENOT_KIND_COLUMNS + MAYBENOT_WORD_COLUMNS * MAYBENOT_TRANSITION_WORDS + 1
};

/* Bytes of the sheet of so many rows; a constant where these are. */
#define MAYBENOT_SHEET_LEN(machines, states, transitions)                                                                    \
    (MAYBENOT_MACHINE_LINE * (size_t)(machines) + MAYBENOT_STATE_LINE * (size_t)(states)                                     \
     + MAYBENOT_TRANSITION_LINE * (size_t)(transitions))

/* ---- Events: what happened, two words each. A batch is a list of them, in the order in which they happened. */
enum {
    MAYBENOT_EVENT_AT_KIND = 0,   /* enum maybenot_event */
    MAYBENOT_EVENT_AT_MACHINE = 1 /* the machine's number, where the kind has one */
};

enum maybenot_event {
    MAYBENOT_NORMAL_RECV = 0,
    MAYBENOT_PADDING_RECV = 1,
    MAYBENOT_TUNNEL_RECV = 2,
    MAYBENOT_NORMAL_SENT = 3,
    MAYBENOT_PADDING_SENT = 4, /* of a machine */
    MAYBENOT_TUNNEL_SENT = 5,
    MAYBENOT_BLOCKING_BEGIN = 6, /* by a machine */
    MAYBENOT_BLOCKING_END = 7,
    MAYBENOT_TIMER_BEGIN = 8, /* of a machine */
    MAYBENOT_TIMER_END = 9    /* of a machine */
};

/* ---- Actions: what to do, six words each; 0 where a kind does not use a word. At most one for each machine. */
enum {
    MAYBENOT_ACTION_AT_MACHINE = 0,
    MAYBENOT_ACTION_AT_KIND = 1,  /* enum maybenot_action */
    MAYBENOT_ACTION_AT_FLAGS = 2, /* MAYBENOT_FLAG_BYPASS + MAYBENOT_FLAG_REPLACE */
    MAYBENOT_ACTION_AT_TIMER = 3, /* enum maybenot_timer */
    MAYBENOT_ACTION_AT_TIMEOUT = 4,
    MAYBENOT_ACTION_AT_DURATION = 5
};

enum maybenot_action {
    MAYBENOT_NO_ACTION = 0, /* in a state row alone */
    MAYBENOT_CANCEL = 1,
    MAYBENOT_SEND_PADDING = 2,
    MAYBENOT_BLOCK_OUTGOING = 3,
    MAYBENOT_UPDATE_TIMER = 4
};

enum { MAYBENOT_FLAG_BYPASS = 1, MAYBENOT_FLAG_REPLACE = 2 };

enum maybenot_timer { MAYBENOT_TIMER_ACTION = 0, MAYBENOT_TIMER_INTERNAL = 1, MAYBENOT_TIMER_ALL = 2 };

/* ---- Refusals: why a call was refused, in the order in which they are looked for but for 16 and 17, which come last, and 24,
 * which comes behind 15. */
enum maybenot_refusal {
    MAYBENOT_ACCEPTED = 0,
    MAYBENOT_FRAMEWORK_PADDING_FRACTION = 1,
    MAYBENOT_FRAMEWORK_BLOCKING_FRACTION = 2,
    MAYBENOT_TABLE_SIZE = 3,
    MAYBENOT_MACHINE_PADDING_FRACTION = 4,
    MAYBENOT_MACHINE_BLOCKING_FRACTION = 5,
    MAYBENOT_NUMBER_OF_STATES = 6,
    MAYBENOT_STATES_BEYOND_TABLE = 7,
    MAYBENOT_TRANSITIONS_BEYOND_TABLE = 8,
    MAYBENOT_PROBABILITY_WORD = 9,
    MAYBENOT_UNKNOWN_TARGET = 10,
    MAYBENOT_REPEATED_TARGET = 11,
    MAYBENOT_PROBABILITY = 12,
    MAYBENOT_PROBABILITY_SUM = 13,
    MAYBENOT_UNKNOWN_CODE = 14,
    MAYBENOT_UNIFORM_BOUNDS = 15,
    MAYBENOT_DRAWS_USED_UP = 16,
    MAYBENOT_DRAW_OUT_OF_RANGE = 17,
    MAYBENOT_FRAMEWORK_MISFIT = 18,
    MAYBENOT_EVENT_LIST = 19,
    MAYBENOT_OUTPUT_SIZE = 20,
    MAYBENOT_SHEET_FORM = 22, /* 21 is not this library's */
    MAYBENOT_SHEET_ROOM = 23,
    MAYBENOT_DRAWN_OUTSIDE = 24 /* with words alone */
};

/* A refusal in words. */
static inline const char *maybenot_refusal_text(uint64_t refusal) {
    switch (refusal) {
    case 0: return "accepted";
    case 1: return "the framework's padding fraction is outside 0 to 1";
    case 2: return "the framework's blocking fraction is outside 0 to 1";
    case 3: return "a table or the rows to be listed are not whole rows, or there are more than 16 machines";
    case 4: return "a machine's padding fraction is below 0 or above 1";
    case 5: return "a machine's blocking fraction is below 0 or above 1";
    case 6: return "a machine has no states, or more than 100,000";
    case 7: return "a machine's states reach beyond the state table";
    case 8: return "a state's transitions reach beyond the transition table";
    case 9: return "the word of a probability is 2^32 or more";
    case 10: return "a transition's target is neither a state of its machine nor a special one";
    case 11: return "a target stands twice among the transitions of an event";
    case 12: return "a probability is at or below 0, or above 1";
    case 13: return "the probabilities of an event's transitions add up to 0 or less, or to more than 1";
    case 14: return "a code is unknown, or a timeout or duration that the action needs is absent";
    case 15: return "the bounds of a Uniform are not finite, in the wrong order or too far apart";
    case 16: return "a draw was needed beyond the end of a tape";
    case 17: return "a draw is out of the range that it was asked for";
    case 18: return "the framework is not one of these tables, or its number of ended machines is wrong";
    case 19: return "the event list has an odd number of words or a kind above 9";
    case 20: return "the output is shorter than a row for each machine, or than the rows to be listed";
    case 22: return "a line of the sheet is malformed or misplaced";
    case 23: return "a lent table or the lent sheet is too small";
    case 24: return "a used distribution is drawn outside, and draws from words are Uniform alone";
    default: return "a refusal that this version of the header does not know";
    }
}

/* ---- The framework: kept by the sender, written by maybenot_batch and maybenot_batch_words alone. It may be copied, and stored
 * as it is for a program of the same version of the interface. */
typedef struct maybenot_machine_runtime {
    uint64_t current_state; /* MAYBENOT_STATE_END: ended */
    uint64_t state_limit;
    uint64_t padding_sent;
    uint64_t normal_sent;
    uint64_t blocking_duration;
    uint64_t machine_start;
    uint64_t allowed_blocked_microsec;
    uint64_t counter_a;
    uint64_t counter_b;
} maybenot_machine_runtime;

typedef struct maybenot_framework {
    maybenot_machine_runtime runtime[MAYBENOT_MAX_MACHINES];
    uint64_t machines;
    uint64_t ended; /* how many machines have ended; a batch refuses another number as 18 */
    uint64_t current_time;
    uint64_t signal_pending; /* 0 none, 1 all machines, 2 + m all but machine m */
    double max_padding_frac;
    double max_blocking_frac;
    uint64_t framework_start;
    uint64_t normal_sent_packets;
    uint64_t padding_sent_packets;
    uint64_t blocking_duration;
    uint64_t blocking_started;
    uint64_t blocking_active; /* on where it is not 0 */
} maybenot_framework;

typedef struct maybenot_opened {
    uint64_t refusal; /* enum maybenot_refusal; look at it before the rest */
    uint64_t chance_used;
    uint64_t value_used;
    maybenot_framework framework;
} maybenot_opened;

typedef struct maybenot_reply {
    uint64_t refusal; /* enum maybenot_refusal; look at it before the rest */
    uint64_t actions; /* how many rows were written */
    uint64_t chance_used;
    uint64_t value_used;
} maybenot_reply;

typedef struct maybenot_opened_words {
    uint64_t refusal;    /* enum maybenot_refusal; look at it before the rest */
    uint64_t words_used; /* every word that was tried, from the front */
    maybenot_framework framework;
} maybenot_opened_words;

typedef struct maybenot_reply_words {
    uint64_t refusal;    /* enum maybenot_refusal; look at it before the rest */
    uint64_t actions;    /* how many rows were written */
    uint64_t words_used; /* every word that was tried, from the front */
} maybenot_reply_words;

typedef struct maybenot_sheet_rows {
    uint64_t refusal;  /* enum maybenot_refusal; look at it before the rest */
    uint64_t machines; /* how many rows were read into each table */
    uint64_t states;
    uint64_t transitions;
} maybenot_sheet_rows;

typedef struct maybenot_sheet_bytes {
    uint64_t refusal; /* enum maybenot_refusal; look at it before the rest */
    uint64_t bytes;   /* how many were written */
} maybenot_sheet_bytes;

typedef struct maybenot_due {
    uint64_t refusal; /* enum maybenot_refusal; look at it before the rest */
    uint64_t rows;    /* how many were written */
} maybenot_due;

/* ---- The functions
 *
 * Each pointer comes with its length in elements; a length of 0 may come with NULL. What is only read (const) may overlap.
 * What is written (the framework, the output, the due list, the tables of a reader, the sheet of a writer) may not overlap
 * anything else that is lent, and nobody else may write or read it during the call; what stands behind the part that was
 * written stays. Pointers are aligned as their types are.
 *
 * Draws: the library draws no random numbers. They are lent in one of two ways:
 *   words    maybenot_opening_words, maybenot_batch_words: one tape of random words, which serves every Uniform. The library
 *            works the draws out. The first choice, where no distribution is drawn outside (24)
 *   tapes    maybenot_opening, maybenot_batch: `chances` and `values`, draws that the sender has worked out. A chance draw c is
 *            0 <= c < 1, a value draw is of the distribution that asks for it
 * Each tape is read from the front. The answer says how much was taken of each: the next call starts behind that. A draw or word
 * that was taken must not be lent again, or what is padded can be foretold. A framework takes calls of both ways in any order.
 *
 * From words: a chance is the top 24 bits of a word over 2^24. A Uniform value is low + (high - low) * u with u the top 53 bits
 * over 2^53, each operation rounded; where that is high or more the next word is tried; low = high takes no word. */

/* Opens a framework with the machines of these tables. Takes a value draw for the limit of each start state that has one. */
maybenot_opened maybenot_opening(
    double max_padding_frac, double max_blocking_frac, uint64_t time,
    const uint64_t *machines, size_t machines_len,
    const uint64_t *states, size_t states_len,
    const uint64_t *transitions, size_t transitions_len,
    const double *values, size_t values_len);

/* Runs a batch of events on the framework, and writes a row for each action to take, in the order of machines. The tables are
 * the opening's. For n events and M machines, n * (M + 1) + M + 2 chance draws and five times as many value draws are enough
 * (counted from the steps, not proved), and 6 * M words of output. */
maybenot_reply maybenot_batch(
    maybenot_framework *framework,
    const uint64_t *machines, size_t machines_len,
    const uint64_t *states, size_t states_len,
    const uint64_t *transitions, size_t transitions_len,
    uint64_t time,
    const uint64_t *events, size_t events_len,
    const float *chances, size_t chances_len,
    const double *values, size_t values_len,
    uint64_t *out, size_t out_len);

/* Opens a framework, with the limits drawn from words: a word for each start state is enough where none is tried in vain.
 *   16   a needed draw finds no word that serves before the tape's end: lend the same words and more
 *   24   a used distribution is drawn outside, a counter's under copy too; looked for behind the tables, before any draw
 *   the other refusals are those of maybenot_opening; 17 is never given */
maybenot_opened_words maybenot_opening_words(
    double max_padding_frac, double max_blocking_frac, uint64_t time,
    const uint64_t *machines, size_t machines_len,
    const uint64_t *states, size_t states_len,
    const uint64_t *transitions, size_t transitions_len,
    const uint64_t *words, size_t words_len);

/* Runs a batch with draws from words: the answer, the framework and the output are those of maybenot_batch on the draws so
 * worked out. For n events and M machines, six times n * (M + 1) + M + 2 words are enough (counted from the steps, not proved)
 * where none is tried in vain. Few are, but half of them where a high is the next double after its low: on 16 lend more.
 *   16   a needed draw finds no word that serves before the tape's end: lend the same words and more
 *   24   a used distribution is drawn outside, a counter's under copy too; looked for behind the tables, before 18
 *   the other refusals are those of maybenot_batch; 17 is never given */
maybenot_reply_words maybenot_batch_words(
    maybenot_framework *framework,
    const uint64_t *machines, size_t machines_len,
    const uint64_t *states, size_t states_len,
    const uint64_t *transitions, size_t transitions_len,
    uint64_t time,
    const uint64_t *events, size_t events_len,
    const uint64_t *words, size_t words_len,
    uint64_t *out, size_t out_len);

/* Whether every machine has ended; true with no machines. It reads `ended` and `machines` alone, whatever framework is lent, and
 * so costs the same for any number of machines: true exactly where the two are equal, a count above 16 read as 16. */
bool maybenot_all_machines_ended(const maybenot_framework *framework);

/* Writes the rows of a batch in the order in which they fall due, and says how many they are: the smallest timeout first, the
 * lower machine first where these are equal, and rows equal in both in the order in which they came. Cancel and UpdateTimer
 * have timeout 0, and so come early. Any number of rows may be lent, of any machines and with any flags: the kind alone is
 * judged, and each row is copied word for word. `out` needs as many words as the rows have, and the words behind these stay.
 * The call uses no other room: while it runs, the first words of `out` are other numbers. After a batch that wrote to `rows`:
 *     maybenot_due due = maybenot_due_list(rows, MAYBENOT_ACTION_WORDS * reply.actions, out, out_len);
 *   3    the rows are not whole: mend their length
 *   14   a row has a kind other than MAYBENOT_CANCEL to MAYBENOT_UPDATE_TIMER: mend the row; a batch writes none such
 *   20   `out` is shorter than the rows: lend rows_len words */
maybenot_due maybenot_due_list(
    const uint64_t *rows, size_t rows_len,
    uint64_t *out, size_t out_len);

/* Reads a sheet into the three tables, and says how many rows each got. It judges the form alone, with any number of rows: what
 * they say is for the opening to judge, which is lent the rows that were read and not the rest of the room. For states,
 * sheet_len / MAYBENOT_STATE_LINE rows are always room enough, and so for the others with their lines.
 *   22   some byte is not the one that maybenot_sheet_write would have put there: the sheet is damaged, cut or none
 *   23   the form is good, and a table is too small: lend larger ones */
maybenot_sheet_rows maybenot_sheet_read(
    const uint8_t *sheet, size_t sheet_len,
    uint64_t *machines, size_t machines_len,
    uint64_t *states, size_t states_len,
    uint64_t *transitions, size_t transitions_len);

/* Writes the sheet of the three tables, whatever their words, and says how many bytes it has; no 0 byte follows them.
 *   3    a table is not whole rows: mend its length. More than 16 machines are not refused here
 *   23   the lent sheet is too small: lend MAYBENOT_SHEET_LEN of the rows */
maybenot_sheet_bytes maybenot_sheet_write(
    const uint64_t *machines, size_t machines_len,
    const uint64_t *states, size_t states_len,
    const uint64_t *transitions, size_t transitions_len,
    uint8_t *sheet, size_t sheet_len);

/* ---- The sender's duties
 *
 * The theorem that no padding budget is overdrawn is about a sender that keeps these.
 *
 * With every call: lend the framework that the last call left, unaltered, and the tables of its opening.
 *
 * What to report, as soon as it happens, and once:
 *   NormalSent       a normal packet is put on a queue to be sent
 *   PaddingSent m    the padding of machine m's SendPadding is put on a queue, or replaced by another packet (below). Never
 *                    without a SendPadding of m that was returned before this batch and not yet reported, and at most once
 *                    for m in a batch
 *   TunnelSent       a packet of any kind goes out, after its NormalSent or PaddingSent
 *   TunnelRecv       a whole packet comes in, before NormalRecv or PaddingRecv, which say what it turned out to be
 *   BlockingBegin m  the timeout of machine m's BlockOutgoing is over, whether or not the end of blocking moved
 *   BlockingEnd      blocking is over
 *   TimerBegin m     machine m's internal timer was started, or its end moved
 *   TimerEnd m       machine m's internal timer has run out (not: was cancelled)
 *
 * What to do with a row. Each machine has one action timer and one internal timer; there is one blocking for all.
 *   SendPadding      set the machine's action timer to now + timeout, in place of what it held; then send a padding packet.
 *                    bypass: it goes out during blocking too, if that blocking has bypass; else, while blocking is on, it is
 *                    queued and waits, or is dropped and not reported.
 *                    replace: a packet that is already queued may go in its place; PaddingSent is reported all the same
 *   BlockOutgoing    set the machine's action timer to now + timeout, in place of what it held; then hold outgoing packets for
 *                    the duration. Where blocking is on: with replace the new end holds, else the later of both; where the
 *                    end moves, bypass becomes this row's
 *   UpdateTimer      set the internal timer to now + duration: with replace in any case, else where it is idle or ends earlier
 *   Cancel           clear the action timer, the internal timer, or both; nothing is reported
 * A machine without a row keeps what it has pending. The rows of a batch may be taken in any order; a sender that arms its
 * timers from the front of a list makes it with maybenot_due_list.
 *
 * After a refused opening or batch nothing has happened: keep the events, and
 *   16               try again with longer tapes: the same draws or words, and more behind them
 *   17               the draw that was asked for was out of its range: try again with fresh draws, and mend their source
 *   18               give up: the framework was written by someone else, or the tables are others; open anew
 *   19               mend the list: the event that is not one, the odd word
 *   20               lend a longer output
 *   1 to 15          give up: the fractions or the tables are wrong, and will be refused again
 *   24               lend two tapes in place of words, always: the tables will be refused again
 * Dropping events instead is safe for the budgets only if none of them is a PaddingSent. */

/* ---- Helpers to write tables and events */

static inline uint64_t maybenot_word_of_double(double x) {
    uint64_t word;
    memcpy(&word, &x, sizeof word);
    return word;
}

static inline uint64_t maybenot_word_of_float(float x) {
    uint32_t bits;
    memcpy(&bits, &x, sizeof bits);
    return bits;
}

/* A machine row of `states` states from `first_state` on. */
static inline void maybenot_put_machine(uint64_t *row, uint64_t allowed_padding_packets, double max_padding_frac,
                                        uint64_t allowed_blocked_microsec, double max_blocking_frac,
                                        uint64_t first_state, uint64_t states) {
    row[MAYBENOT_MACHINE_AT_ALLOWED_PADDING_PACKETS] = allowed_padding_packets;
    row[MAYBENOT_MACHINE_AT_MAX_PADDING_FRAC] = maybenot_word_of_double(max_padding_frac);
    row[MAYBENOT_MACHINE_AT_ALLOWED_BLOCKED_MICROSEC] = allowed_blocked_microsec;
    row[MAYBENOT_MACHINE_AT_MAX_BLOCKING_FRAC] = maybenot_word_of_double(max_blocking_frac);
    row[MAYBENOT_MACHINE_AT_FIRST_STATE] = first_state;
    row[MAYBENOT_MACHINE_AT_STATES] = states;
}

/* A distribution; `dist` points into a state row, as state + MAYBENOT_STATE_AT_TIMEOUT. */
static inline void maybenot_put_dist(uint64_t *dist, enum maybenot_dist kind, double low, double high, double start, double max) {
    dist[MAYBENOT_DIST_AT_KIND] = kind;
    dist[MAYBENOT_DIST_AT_LOW] = maybenot_word_of_double(low);
    dist[MAYBENOT_DIST_AT_HIGH] = maybenot_word_of_double(high);
    dist[MAYBENOT_DIST_AT_START] = maybenot_word_of_double(start);
    dist[MAYBENOT_DIST_AT_MAX] = maybenot_word_of_double(max);
}

static inline void maybenot_put_uniform(uint64_t *dist, double low, double high) {
    maybenot_put_dist(dist, MAYBENOT_DIST_UNIFORM, low, high, 0.0, 0.0);
}

static inline void maybenot_put_constant(uint64_t *dist, double value) {
    maybenot_put_uniform(dist, value, value);
}

/* What a state does when it is entered; timeout, duration and limit are put by maybenot_put_dist. */
static inline void maybenot_put_action(uint64_t *state, enum maybenot_action action, uint64_t flags) {
    state[MAYBENOT_STATE_AT_ACTION] = action;
    state[MAYBENOT_STATE_AT_FLAGS] = flags;
}

static inline void maybenot_put_cancel(uint64_t *state, enum maybenot_timer timer) {
    state[MAYBENOT_STATE_AT_ACTION] = MAYBENOT_CANCEL;
    state[MAYBENOT_STATE_AT_TIMER] = timer;
}

/* A counter; `counter` points into a state row, as state + MAYBENOT_STATE_AT_COUNTER_A. Its distribution, if any, is put at
 * counter + MAYBENOT_COUNTER_AT_DIST. */
static inline void maybenot_put_counter(uint64_t *counter, enum maybenot_operation operation, bool copy) {
    counter[MAYBENOT_COUNTER_AT_OPERATION] = operation;
    counter[MAYBENOT_COUNTER_AT_COPY] = copy;
}

/* The transitions of a state on an event: `count` rows of the transition table from `first` on. */
static inline void maybenot_put_pair(uint64_t *state, enum maybenot_on event, uint64_t first, uint64_t count) {
    uint64_t *pair = state + MAYBENOT_STATE_AT_PAIRS + MAYBENOT_PAIR_WORDS * (size_t)event;
    pair[MAYBENOT_PAIR_AT_FIRST] = first;
    pair[MAYBENOT_PAIR_AT_COUNT] = count;
}

static inline void maybenot_put_transition(uint64_t *row, uint64_t target, float probability) {
    row[MAYBENOT_TRANSITION_AT_TARGET] = target;
    row[MAYBENOT_TRANSITION_AT_PROBABILITY] = maybenot_word_of_float(probability);
}

/* An event; `machine` is 0 where the kind has none. */
static inline void maybenot_put_event(uint64_t *event, enum maybenot_event kind, uint64_t machine) {
    event[MAYBENOT_EVENT_AT_KIND] = kind;
    event[MAYBENOT_EVENT_AT_MACHINE] = machine;
}

#ifdef __cplusplus
}
#endif

#endif
