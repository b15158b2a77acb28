/* Prints what crosses between a sender and the archive: the widths of rows and lines, where
 * parts of rows begin, codes, and each struct's fields. layout/N.txt is what it prints for
 * the interface's version N. */
#include <stdio.h>

#include "maybenot.h"

#define NUMBER(name) printf("%s %llu\n", #name, (unsigned long long)name)
#define STRUCT(type) printf("%s %zu\n", #type, sizeof(type))
#define FIELD(type, field) printf("  %s %zu %zu\n", #field, offsetof(type, field), sizeof(((type *)0)->field))

static void print_widths(void) {
    NUMBER(MAYBENOT_MAX_MACHINES);
    NUMBER(MAYBENOT_MAX_STATES);
    NUMBER(MAYBENOT_ROW_EVENTS);
    NUMBER(MAYBENOT_MACHINE_WORDS);
    NUMBER(MAYBENOT_STATE_WORDS);
    NUMBER(MAYBENOT_TRANSITION_WORDS);
    NUMBER(MAYBENOT_ACTION_WORDS);
    NUMBER(MAYBENOT_KIND_COLUMNS);
    NUMBER(MAYBENOT_WORD_COLUMNS);
    NUMBER(MAYBENOT_MACHINE_LINE);
    NUMBER(MAYBENOT_STATE_LINE);
    NUMBER(MAYBENOT_TRANSITION_LINE);
}

static void print_offsets(void) {
    NUMBER(MAYBENOT_MACHINE_AT_ALLOWED_PADDING_PACKETS);
    NUMBER(MAYBENOT_MACHINE_AT_MAX_PADDING_FRAC);
    NUMBER(MAYBENOT_MACHINE_AT_ALLOWED_BLOCKED_MICROSEC);
    NUMBER(MAYBENOT_MACHINE_AT_MAX_BLOCKING_FRAC);
    NUMBER(MAYBENOT_MACHINE_AT_FIRST_STATE);
    NUMBER(MAYBENOT_MACHINE_AT_STATES);
    NUMBER(MAYBENOT_STATE_AT_ACTION);
    NUMBER(MAYBENOT_STATE_AT_FLAGS);
    NUMBER(MAYBENOT_STATE_AT_TIMER);
    NUMBER(MAYBENOT_STATE_AT_TIMEOUT);
    NUMBER(MAYBENOT_STATE_AT_DURATION);
    NUMBER(MAYBENOT_STATE_AT_LIMIT);
    NUMBER(MAYBENOT_STATE_AT_COUNTER_A);
    NUMBER(MAYBENOT_STATE_AT_COUNTER_B);
    NUMBER(MAYBENOT_STATE_AT_PAIRS);
    NUMBER(MAYBENOT_COUNTER_AT_DIST);
    NUMBER(MAYBENOT_ACTION_AT_MACHINE);
    NUMBER(MAYBENOT_ACTION_AT_KIND);
    NUMBER(MAYBENOT_ACTION_AT_TIMEOUT);
}

static void print_codes(void) {
    NUMBER(MAYBENOT_STATE_END);
    NUMBER(MAYBENOT_STATE_SIGNAL);
    NUMBER(MAYBENOT_CANCEL);
    NUMBER(MAYBENOT_SEND_PADDING);
    NUMBER(MAYBENOT_BLOCK_OUTGOING);
    NUMBER(MAYBENOT_UPDATE_TIMER);
    NUMBER(MAYBENOT_DIST_ABSENT);
    NUMBER(MAYBENOT_DIST_UNIFORM);
    NUMBER(MAYBENOT_COUNTER_INCREMENT);
    NUMBER(MAYBENOT_COUNTER_DECREMENT);
    NUMBER(MAYBENOT_COUNTER_SET);
    NUMBER(MAYBENOT_DRAWS_USED_UP);
    NUMBER(MAYBENOT_DRAW_OUT_OF_RANGE);
    NUMBER(MAYBENOT_DRAWN_OUTSIDE);
    NUMBER(MAYBENOT_MACHINE_KIND);
    NUMBER(MAYBENOT_STATE_KIND);
    NUMBER(MAYBENOT_TRANSITION_KIND);
    NUMBER(MAYBENOT_TABLE_SIZE);
    NUMBER(MAYBENOT_SHEET_FORM);
    NUMBER(MAYBENOT_SHEET_ROOM);
    NUMBER(MAYBENOT_UNKNOWN_CODE);
    NUMBER(MAYBENOT_OUTPUT_SIZE);
}

static void print_framework(void) {
    STRUCT(maybenot_machine_runtime);
    FIELD(maybenot_machine_runtime, current_state);
    FIELD(maybenot_machine_runtime, state_limit);
    FIELD(maybenot_machine_runtime, padding_sent);
    FIELD(maybenot_machine_runtime, normal_sent);
    FIELD(maybenot_machine_runtime, blocking_duration);
    FIELD(maybenot_machine_runtime, machine_start);
    FIELD(maybenot_machine_runtime, allowed_blocked_microsec);
    FIELD(maybenot_machine_runtime, counter_a);
    FIELD(maybenot_machine_runtime, counter_b);
    STRUCT(maybenot_framework);
    FIELD(maybenot_framework, runtime);
    FIELD(maybenot_framework, machines);
    FIELD(maybenot_framework, ended);
    FIELD(maybenot_framework, current_time);
    FIELD(maybenot_framework, signal_pending);
    FIELD(maybenot_framework, max_padding_frac);
    FIELD(maybenot_framework, max_blocking_frac);
    FIELD(maybenot_framework, framework_start);
    FIELD(maybenot_framework, normal_sent_packets);
    FIELD(maybenot_framework, padding_sent_packets);
    FIELD(maybenot_framework, blocking_duration);
    FIELD(maybenot_framework, blocking_started);
    FIELD(maybenot_framework, blocking_active);
}

static void print_answers(void) {
    STRUCT(maybenot_opened);
    FIELD(maybenot_opened, refusal);
    FIELD(maybenot_opened, chance_used);
    FIELD(maybenot_opened, value_used);
    FIELD(maybenot_opened, framework);
    STRUCT(maybenot_reply);
    FIELD(maybenot_reply, refusal);
    FIELD(maybenot_reply, actions);
    FIELD(maybenot_reply, chance_used);
    FIELD(maybenot_reply, value_used);
    STRUCT(maybenot_opened_words);
    FIELD(maybenot_opened_words, refusal);
    FIELD(maybenot_opened_words, words_used);
    FIELD(maybenot_opened_words, framework);
    STRUCT(maybenot_reply_words);
    FIELD(maybenot_reply_words, refusal);
    FIELD(maybenot_reply_words, actions);
    FIELD(maybenot_reply_words, words_used);
    STRUCT(maybenot_sheet_rows);
    FIELD(maybenot_sheet_rows, refusal);
    FIELD(maybenot_sheet_rows, machines);
    FIELD(maybenot_sheet_rows, states);
    FIELD(maybenot_sheet_rows, transitions);
    STRUCT(maybenot_sheet_bytes);
    FIELD(maybenot_sheet_bytes, refusal);
    FIELD(maybenot_sheet_bytes, bytes);
    STRUCT(maybenot_due);
    FIELD(maybenot_due, refusal);
    FIELD(maybenot_due, rows);
}

int main(void) {
    print_widths();
    print_offsets();
    print_codes();
    print_framework();
    print_answers();
    return 0;
}
