/* A sender in simulated time: one machine, normal packets at random, timers, and random words from a seed. Prints a line for each
 * action and, at the end, the budget used; fails where it is overdrawn.
 *
 *     sender [seed] [milliseconds] */
#include <inttypes.h>
#include <stdio.h>
#include <stdlib.h>
#include <string.h>

#include <maybenot.h>

#define LENGTH(a) (sizeof(a) / sizeof((a)[0]))

enum { WAITS, PADS, RESTS, STATES };
enum { MOST_EVENTS = 8, MOST_WORDS = 6 * (MOST_EVENTS * 2 + 3) }; /* enough for one machine, see maybenot_batch_words */

static const uint64_t idle = UINT64_MAX; /* of a timer */
static const uint64_t allowed_padding = 5;
static const double machine_frac = 0.4, framework_frac = 0.5;

static uint64_t machines[MAYBENOT_MACHINE_WORDS];
static uint64_t states[STATES * MAYBENOT_STATE_WORDS];
static uint64_t transitions[4 * MAYBENOT_TRANSITION_WORDS];

#define TABLES machines, LENGTH(machines), states, LENGTH(states), transitions, LENGTH(transitions)

typedef struct sender {
    maybenot_framework framework;
    uint64_t seed;
    uint64_t time, next_normal;
    uint64_t padding_due, timer_due;
    uint64_t events[MOST_EVENTS * MAYBENOT_EVENT_WORDS]; /* what no accepted batch has taken yet */
    size_t events_len;
    uint64_t words[MOST_WORDS]; /* random words that no accepted call has taken yet */
    uint64_t normal, padding; /* what the budgets count */
} sender;

/* A normal packet starts a burst of two to six padding packets, and a timer ends the rest after it. */
static void put_tables(void) {
    uint64_t *pads = states + PADS * MAYBENOT_STATE_WORDS, *rests = states + RESTS * MAYBENOT_STATE_WORDS;
    maybenot_put_machine(machines, allowed_padding, machine_frac, 0, 0.0, 0, STATES);

    maybenot_put_pair(states, MAYBENOT_ON_NORMAL_SENT, 0, 1);
    maybenot_put_transition(transitions, PADS, 1.0f);

    maybenot_put_action(pads, MAYBENOT_SEND_PADDING, 0);
    maybenot_put_uniform(pads + MAYBENOT_STATE_AT_TIMEOUT, 100.0, 2000.0);
    maybenot_put_uniform(pads + MAYBENOT_STATE_AT_LIMIT, 2.0, 6.0);
    maybenot_put_pair(pads, MAYBENOT_ON_NORMAL_SENT, 1, 1);
    maybenot_put_transition(transitions + 2, PADS, 0.5f);
    maybenot_put_pair(pads, MAYBENOT_ON_PADDING_SENT, 2, 1);
    maybenot_put_transition(transitions + 4, PADS, 1.0f);
    maybenot_put_pair(pads, MAYBENOT_ON_LIMIT_REACHED, 3, 1);
    maybenot_put_transition(transitions + 6, RESTS, 1.0f);

    maybenot_put_action(rests, MAYBENOT_UPDATE_TIMER, MAYBENOT_FLAG_REPLACE);
    maybenot_put_constant(rests + MAYBENOT_STATE_AT_DURATION, 1500.0);
    maybenot_put_pair(rests, MAYBENOT_ON_TIMER_END, 0, 1);
}

/* Stands for the sender's own source of random words; this one (splitmix64) can be foretold. */
static uint64_t word(sender *s) {
    uint64_t z = s->seed += UINT64_C(0x9e3779b97f4a7c15);
    z = (z ^ (z >> 30)) * UINT64_C(0xbf58476d1ce4e5b9);
    z = (z ^ (z >> 27)) * UINT64_C(0x94d049bb133111eb);
    return z ^ (z >> 31);
}

/* Words that were taken are not lent again. */
static void drop_words(sender *s, uint64_t taken) {
    memmove(s->words, s->words + taken, (MOST_WORDS - taken) * sizeof s->words[0]);
    for (size_t k = MOST_WORDS - taken; k < MOST_WORDS; k++)
        s->words[k] = word(s);
}

static void happened(sender *s, enum maybenot_event kind) {
    maybenot_put_event(s->events + s->events_len, kind, 0);
    s->events_len += MAYBENOT_EVENT_WORDS;
}

static void act(sender *s, const uint64_t *row) {
    uint64_t timeout = row[MAYBENOT_ACTION_AT_TIMEOUT], duration = row[MAYBENOT_ACTION_AT_DURATION];
    printf("%9" PRIu64 "  ", s->time);
    switch (row[MAYBENOT_ACTION_AT_KIND]) {
    case MAYBENOT_SEND_PADDING:
        printf("SendPadding in %" PRIu64 "\n", timeout);
        s->padding_due = s->time + timeout;
        break;
    case MAYBENOT_UPDATE_TIMER:
        printf("UpdateTimer to %" PRIu64 "\n", duration);
        s->timer_due = s->time + duration;
        happened(s, MAYBENOT_TIMER_BEGIN);
        break;
    default: /* BlockOutgoing and Cancel stand in none of these states */
        abort();
    }
}

/* Arms the timers by the rows of a batch, the next due first. */
static void arm(sender *s, const uint64_t *rows, size_t rows_len) {
    uint64_t due[MAYBENOT_ACTION_WORDS];
    maybenot_due list = maybenot_due_list(rows, rows_len, due, LENGTH(due));
    if (list.refusal != MAYBENOT_ACCEPTED) /* these are rows of a batch, and there is room for them */
        abort();
    for (uint64_t k = 0; k < list.rows; k++)
        act(s, due + k * MAYBENOT_ACTION_WORDS);
}

static bool open_framework(sender *s) {
    maybenot_opened_words opened = maybenot_opening_words(framework_frac, 0.0, s->time, TABLES, s->words, LENGTH(s->words));
    if (opened.refusal != MAYBENOT_ACCEPTED) {
        fprintf(stderr, "the opening: %s\n", maybenot_refusal_text(opened.refusal));
        return false;
    }
    s->framework = opened.framework;
    drop_words(s, opened.words_used);
    return true;
}

/* Hands over what happened, and acts on the answer. The events stay in the list until a batch has taken them. */
static bool batch(sender *s) {
    maybenot_reply_words r;
    for (int tries = 0; tries < 3; tries++) {
        uint64_t out[MAYBENOT_ACTION_WORDS]; /* one machine, so at most one row */
        r = maybenot_batch_words(&s->framework, TABLES, s->time, s->events, s->events_len, s->words, LENGTH(s->words), out,
                                 LENGTH(out));
        if (r.refusal == MAYBENOT_ACCEPTED) {
            s->events_len = 0;
            drop_words(s, r.words_used);
            arm(s, out, r.actions * MAYBENOT_ACTION_WORDS);
            return true;
        }
        if (r.refusal != MAYBENOT_DRAWS_USED_UP)
            break; /* the same again would be refused again */
        drop_words(s, LENGTH(s->words)); /* too many were tried in vain */
    }
    fprintf(stderr, "a batch: %s\n", maybenot_refusal_text(r.refusal));
    return false;
}

/* Lets happen what is due now. */
static void serve(sender *s) {
    if (s->timer_due <= s->time) {
        s->timer_due = idle;
        happened(s, MAYBENOT_TIMER_END);
    }
    if (s->padding_due <= s->time) {
        s->padding_due = idle;
        s->padding++;
        happened(s, MAYBENOT_PADDING_SENT);
        happened(s, MAYBENOT_TUNNEL_SENT);
    }
    if (s->next_normal <= s->time) {
        s->next_normal = s->time + 1 + word(s) % 3000;
        s->normal++;
        happened(s, MAYBENOT_NORMAL_SENT);
        happened(s, MAYBENOT_TUNNEL_SENT);
    }
}

static bool run(sender *s, uint64_t end) {
    for (;;) {
        uint64_t next = s->next_normal < s->padding_due ? s->next_normal : s->padding_due;
        next = next < s->timer_due ? next : s->timer_due;
        if (next >= end)
            return true;
        s->time = next;
        serve(s);
        while (s->events_len > 0)
            if (!batch(s))
                return false;
    }
}

static bool within_budget(const sender *s) {
    double padding = (double)s->padding, packets = (double)(s->normal + s->padding);
    bool own = s->padding <= allowed_padding + 2 || padding - 2.0 < machine_frac * packets;
    bool all = padding <= framework_frac * packets + (double)(allowed_padding + 4);
    printf("%" PRIu64 " normal packets, %" PRIu64 " padding: %s\n", s->normal, s->padding, own && all ? "within" : "OVERDRAWN");
    return own && all;
}

int main(int argc, char **argv) {
    static sender s;
    s.seed = argc > 1 ? strtoull(argv[1], NULL, 10) : 1;
    uint64_t milliseconds = argc > 2 ? strtoull(argv[2], NULL, 10) : 100;
    s.padding_due = s.timer_due = idle;
    put_tables();
    drop_words(&s, MOST_WORDS);
    if (!open_framework(&s) || !run(&s, 1000 * milliseconds))
        return 1;
    return within_budget(&s) ? 0 : 1;
}
