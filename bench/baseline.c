/*
 * The checker's job as a plain C program, to measure the checker's work against.
 *
 *     baseline <CASES
 *
 * It reads the cases that the program `suite` reads, as cases/cases.py describes them, and prints
 * the same lines. All tables are static: the limits of the format bound every one of them. A case
 * writes what it goes on to read, so nothing is cleared between cases.
 */

#include <stdbool.h>
#include <stdint.h>
#include <stdio.h>
#include <stdlib.h>
#include <string.h>

enum {
    LONGEST_FILE = 65535,
    MOST_PROCESSES = 8,
    MOST_CHANNELS = 16,
    MOST_STATES = 512,
    MOST_CLAUSES = 32,
    VALUE_COUNT = 4
};

/* What a case may hold. */
enum { LONGEST_PART = 66000, MOST_CUT_NUMBERS = 24, MOST_LENT = 24 };

/* What the first place of a lent row holds; the next is one further from zero. */
enum { FIRST_PLACE = 60000, FIRST_STAMP = -60000 };

/* Where the fields stand in a case and in a record. */
enum { EXTRA_AT = 1, CUT_SIZE_AT = 3, RUN_SIZE_AT = 5, CONDITION_SIZE_AT = 9, CASE_HEAD = 13 };
enum { KIND_AT = 2, BODY_AT = 4, MESSAGE_AT = 10, STAMP_AT = 14, VALUES_AT = 18, CLOCK_AT = 34 };

/* The shortest state record has one clock number, so no file holds more states than this. */
enum { MOST_RECORDS = LONGEST_FILE / (CLOCK_AT + 2) };

/* A power of two over twice MOST_RECORDS: a probe always ends at an empty slot, and soon. */
enum { SLOT_BITS = 12, SLOT_COUNT = 1 << SLOT_BITS };

/* 6 is the search in two calls, and the search here. */
enum question { SEARCH = 1, CONSISTENT, SATISFIES, MESSAGES, SHOWN, EACH = 7, RECORD };

enum kind {
    RUN_HEAD = 1,
    CHANNEL = 2,
    STATE = 3,
    END = 4,
    CONDITION_HEAD = 16,
    LOCAL_CLAUSE = 17,
    CHANNEL_CLAUSE = 18
};

enum event { START, INTERNAL, SEND, RECEIVE };

enum comparison { EQUAL = 1, OTHER_THAN, AT_MOST, AT_LEAST };

enum test {
    COUNT_AT_MOST = 1,
    COUNT_AT_LEAST,
    COUNT_EXACTLY,
    SOME_STAMP_EQUALS,
    NO_STAMP_EQUALS,
    EVERY_STAMP_AT_LEAST,
    SOME_STAMP_AT_MOST,
    COUNT_ODD,
    COUNT_OTHER_THAN
};

enum reason {
    ACCEPTED,
    TOO_LONG,
    CUT_SHORT,
    WRONG_LENGTH,
    WRONG_KIND,
    OVER_LIMIT,
    WRONG_FORMAT,
    WRONG_NAME,
    WRONG_FIELD,
    WRONG_START,
    WRONG_SIDE,
    WRONG_PAIRING,
    CIRCLE,
    WRONG_CLOCK,
    NOT_LINEAR,
    NO_ROOM,
    WRONG_CUT,
    NO_CHANNEL
};

enum { NOBODY = -1 };

struct file {
    const char *name;
    size_t size;
    unsigned char bytes[LONGEST_PART];
};

struct record {
    const unsigned char *bytes;
    size_t length;
    unsigned kind;
};

struct refusal {
    const struct file *file;
    enum reason reason;
    size_t place;
    bool is_after_end;
};

struct state {
    const unsigned char *bytes;
    unsigned process;
    unsigned number;
    unsigned event;
    unsigned channel;
    uint32_t message;
    int32_t stamp;
    struct state *partner;   /* a send's receive or a receive's send, null where there is none */
    struct state *next_send; /* the sender's next send on the same channel */
    uint16_t clock[MOST_PROCESSES];
};

struct channel {
    unsigned from;
    unsigned to;
    uint32_t count;           /* of messages in transit at the cut */
    struct state *first_send; /* of those that still matter to the search */
    struct state *last_send;
};

struct clause {
    unsigned kind;
    unsigned subject; /* the process of a local clause, the channel of a channel clause */
    unsigned value;
    unsigned test; /* or the comparison */
    uint32_t operand;
};

/* A slot that an earlier run filled is an empty one. */
struct slot {
    uint64_t run;
    struct state *send;
};

/* The messages in transit on a channel, looked at for a stamp. */
struct transit {
    uint32_t count;
    uint32_t equal;
    int32_t lowest; /* the highest number there is where the channel is empty */
};

static struct file run_file = {.name = "run"};
static struct file condition_file = {.name = "cond"};
static unsigned asked_cut[MOST_CUT_NUMBERS];
static unsigned asked_cut_size;

static uint64_t run_number;
static unsigned process_count;
static unsigned channel_count;
static unsigned channels_read;
static unsigned clause_count;
static unsigned clauses_read;
static size_t record_count;

/* Row entry 0 stays zero: its clock is what a first state takes over from the state ahead of it. */
static struct state states[MOST_PROCESSES][MOST_STATES + 1];
static unsigned state_count[MOST_PROCESSES];
static struct state *in_file_order[MOST_RECORDS];
static struct channel channels[MOST_CHANNELS];
static struct clause clauses[MOST_CLAUSES];
static struct slot slots[SLOT_COUNT];
static unsigned cut[MOST_PROCESSES];

static unsigned u16_at(const unsigned char *bytes)
{
    return bytes[0] | (unsigned)bytes[1] << 8;
}

static uint32_t u32_at(const unsigned char *bytes)
{
    return u16_at(bytes) | (uint32_t)u16_at(bytes + 2) << 16;
}

static int32_t i32_at(const unsigned char *bytes)
{
    return (int32_t)u32_at(bytes);
}

static struct refusal nothing_refused(void)
{
    return (struct refusal){.reason = ACCEPTED};
}

static struct refusal refused(const struct file *file, enum reason reason, size_t place)
{
    return (struct refusal){.file = file, .reason = reason, .place = place};
}

/* Both files: record by record */

static enum reason read_frame(const struct file *file, size_t place, struct record *record)
{
    size_t left = file->size - place;
    const unsigned char *bytes = file->bytes + place;

    if (left < 2)
        return CUT_SHORT;
    size_t length = u16_at(bytes);
    if (length < BODY_AT)
        return WRONG_LENGTH;
    if (length > left)
        return CUT_SHORT;
    *record = (struct record){bytes, length, u16_at(bytes + KIND_AT)};
    return ACCEPTED;
}

/* The kind is judged ahead of its length. */
static enum reason judge_kind(const struct record *record, unsigned kind, size_t length)
{
    if (record->kind != kind)
        return WRONG_KIND;
    return record->length == length ? ACCEPTED : WRONG_LENGTH;
}

static struct refusal read_records(const struct file *file,
                                   enum reason (*take)(const struct record *))
{
    size_t place = 0;
    struct record record;

    if (file->size > LONGEST_FILE)
        return refused(file, TOO_LONG, 0);
    do {
        enum reason reason = read_frame(file, place, &record);
        if (reason == ACCEPTED)
            reason = take(&record);
        if (reason != ACCEPTED)
            return refused(file, reason, place);
        place += record.length;
    } while (record.kind != END);
    if (place < file->size)
        return (struct refusal){file, WRONG_KIND, place, .is_after_end = true};
    return nothing_refused();
}

/* A run, record by record */

static enum reason take_run_head(const struct record *record)
{
    enum reason reason = judge_kind(record, RUN_HEAD, 10);
    if (reason != ACCEPTED)
        return reason;
    if (u16_at(record->bytes + BODY_AT) != 1)
        return WRONG_FORMAT;
    process_count = u16_at(record->bytes + BODY_AT + 2);
    channel_count = u16_at(record->bytes + BODY_AT + 4);
    if (process_count < 1 || process_count > MOST_PROCESSES || channel_count > MOST_CHANNELS)
        return OVER_LIMIT;
    channels_read = 0;
    record_count = 0;
    memset(state_count, 0, sizeof state_count);
    return ACCEPTED;
}

static enum reason take_channel(const struct record *record)
{
    enum reason reason = judge_kind(record, CHANNEL, 10);
    if (reason != ACCEPTED)
        return reason;
    unsigned number = u16_at(record->bytes + BODY_AT);
    unsigned from = u16_at(record->bytes + BODY_AT + 2);
    unsigned to = u16_at(record->bytes + BODY_AT + 4);
    if (number != channels_read || from >= process_count || to >= process_count || from == to)
        return WRONG_NAME;
    channels[channels_read++] = (struct channel){.from = from, .to = to};
    return ACCEPTED;
}

/* Names come ahead of the limit, and the limit ahead of the other fields. */
static enum reason judge_state(const struct state *state)
{
    bool carries = state->event == SEND || state->event == RECEIVE;

    if (state->process >= process_count || (carries && state->channel >= channel_count))
        return WRONG_NAME;
    if (state_count[state->process] == MOST_STATES)
        return OVER_LIMIT;
    if (state->event > RECEIVE)
        return WRONG_FIELD;
    if (!carries && (state->channel != 0 || state->message != 0))
        return WRONG_FIELD;
    if (state->event != SEND && state->stamp != 0)
        return WRONG_FIELD;
    if ((state->event == START) != (state_count[state->process] == 0))
        return WRONG_START;
    if (state->event == SEND && channels[state->channel].from != state->process)
        return WRONG_SIDE;
    if (state->event == RECEIVE && channels[state->channel].to != state->process)
        return WRONG_SIDE;
    return ACCEPTED;
}

/* States of a process stand in its own order, so each channel's chain of sends does too. */
static void chain_send(struct state *send)
{
    struct channel *channel = &channels[send->channel];
    if (channel->first_send == NULL)
        channel->first_send = send;
    else
        channel->last_send->next_send = send;
    channel->last_send = send;
}

static void keep_state(const struct state *state)
{
    unsigned number = ++state_count[state->process];
    struct state *kept = &states[state->process][number];
    *kept = *state;
    kept->number = number;
    in_file_order[record_count++] = kept;
    if (kept->event == SEND)
        chain_send(kept);
}

static enum reason take_state(const struct record *record)
{
    const unsigned char *bytes = record->bytes;
    enum reason reason = judge_kind(record, STATE, CLOCK_AT + 2 * (size_t)process_count);
    if (reason != ACCEPTED)
        return reason;
    struct state state = {
        .bytes = bytes,
        .process = u16_at(bytes + BODY_AT),
        .event = u16_at(bytes + BODY_AT + 2),
        .channel = u16_at(bytes + BODY_AT + 4),
        .message = u32_at(bytes + MESSAGE_AT),
        .stamp = i32_at(bytes + STAMP_AT),
    };
    reason = judge_state(&state);
    if (reason == ACCEPTED)
        keep_state(&state);
    return reason;
}

static enum reason take_run_end(const struct record *record)
{
    if (record->length != BODY_AT)
        return WRONG_LENGTH;
    for (unsigned process = 0; process < process_count; process++)
        if (state_count[process] == 0)
            return WRONG_START;
    return ACCEPTED;
}

static enum reason take_run_record(const struct record *record)
{
    if (record->bytes == run_file.bytes)
        return take_run_head(record);
    if (channels_read < channel_count)
        return take_channel(record);
    return record->kind == END ? take_run_end(record) : take_state(record);
}

/* A run, over all records */

static struct refusal refused_state(const struct state *state, enum reason reason)
{
    return refused(&run_file, reason, (size_t)(state->bytes - run_file.bytes));
}

/* The slot of the send of this message, or the empty slot where it belongs. */
static struct slot *slot_of(unsigned channel, uint32_t message)
{
    uint32_t mixed = (message ^ (uint32_t)channel << 28) * UINT32_C(2654435769);
    struct slot *slot = &slots[mixed >> (32 - SLOT_BITS)];
    while (slot->run == run_number &&
           (slot->send->message != message || slot->send->channel != channel))
        slot = slot == &slots[SLOT_COUNT - 1] ? slots : slot + 1;
    return slot;
}

/* Fills the slots and gives the first record that is a second send, or their number. */
static size_t first_second_send(void)
{
    size_t fault = record_count;
    for (size_t record = 0; record < record_count; record++) {
        struct state *state = in_file_order[record];
        if (state->event != SEND)
            continue;
        struct slot *slot = slot_of(state->channel, state->message);
        if (slot->run != run_number)
            *slot = (struct slot){run_number, state};
        else if (fault == record_count)
            fault = record;
    }
    return fault;
}

/* A receive may stand before its send in the file, so all sends are known before this starts. */
static size_t first_wrong_receive(void)
{
    for (size_t record = 0; record < record_count; record++) {
        struct state *state = in_file_order[record];
        if (state->event != RECEIVE)
            continue;
        const struct slot *slot = slot_of(state->channel, state->message);
        if (slot->run != run_number || slot->send->partner != NULL)
            return record;
        slot->send->partner = state;
        state->partner = slot->send;
    }
    return record_count;
}

static struct refusal pair_messages(void)
{
    run_number++;
    size_t by_send = first_second_send();
    size_t by_receive = first_wrong_receive();
    size_t first = by_send < by_receive ? by_send : by_receive;
    if (first < record_count)
        return refused_state(in_file_order[first], WRONG_PAIRING);
    return nothing_refused();
}

/* A receive waits for the state just ahead of its send. */
static bool is_ready(const struct state *state, const unsigned *done)
{
    if (state->event != RECEIVE)
        return true;
    return state->partner->number - 1 <= done[state->partner->process];
}

static void work_out_clock(struct state *state)
{
    memcpy(state->clock, (state - 1)->clock, sizeof state->clock);
    if (state->event == RECEIVE) {
        const struct state *ahead = state->partner - 1;
        for (unsigned process = 0; process < process_count; process++)
            if (ahead->clock[process] > state->clock[process])
                state->clock[process] = ahead->clock[process];
    }
    state->clock[state->process] = (uint16_t)state->number;
}

/*
 * Each process goes as far as it can until none can go on. What is left then waits for something
 * that is left itself, so it is on a circle or after one.
 */
static void work_out_clocks(unsigned *done)
{
    bool moved;
    do {
        moved = false;
        for (unsigned process = 0; process < process_count; process++) {
            while (done[process] < state_count[process] &&
                   is_ready(&states[process][done[process] + 1], done)) {
                work_out_clock(&states[process][++done[process]]);
                moved = true;
            }
        }
    } while (moved);
}

static bool clock_agrees(const struct state *state)
{
    const unsigned char *recorded = state->bytes + CLOCK_AT;
    for (size_t process = 0; process < process_count; process++)
        if (u16_at(recorded + 2 * process) != state->clock[process])
            return false;
    return true;
}

static struct refusal judge_clocks(void)
{
    unsigned done[MOST_PROCESSES] = {0};
    work_out_clocks(done);
    for (size_t record = 0; record < record_count; record++)
        if (in_file_order[record]->number > done[in_file_order[record]->process])
            return refused_state(in_file_order[record], CIRCLE);
    for (size_t record = 0; record < record_count; record++)
        if (!clock_agrees(in_file_order[record]))
            return refused_state(in_file_order[record], WRONG_CLOCK);
    return nothing_refused();
}

static struct refusal judge_run(void)
{
    struct refusal refusal = read_records(&run_file, take_run_record);
    if (refusal.reason == ACCEPTED)
        refusal = pair_messages();
    if (refusal.reason == ACCEPTED)
        refusal = judge_clocks();
    return refusal;
}

/* A condition */

static enum reason take_condition_head(const struct record *record)
{
    enum reason reason = judge_kind(record, CONDITION_HEAD, 6);
    if (reason != ACCEPTED)
        return reason;
    clauses_read = 0;
    clause_count = u16_at(record->bytes + BODY_AT);
    return clause_count <= MOST_CLAUSES ? ACCEPTED : OVER_LIMIT;
}

static enum reason take_local_clause(const struct record *record)
{
    const unsigned char *body = record->bytes + BODY_AT;
    if (record->length != 14)
        return WRONG_LENGTH;
    struct clause clause = {LOCAL_CLAUSE, u16_at(body), u16_at(body + 2), u16_at(body + 4),
                            u32_at(body + 6)};
    if (clause.subject >= process_count || clause.value >= VALUE_COUNT)
        return WRONG_NAME;
    if (clause.test < EQUAL || clause.test > AT_LEAST)
        return WRONG_FIELD;
    clauses[clauses_read++] = clause;
    return ACCEPTED;
}

static enum reason take_channel_clause(const struct record *record)
{
    const unsigned char *body = record->bytes + BODY_AT;
    if (record->length != 12)
        return WRONG_LENGTH;
    struct clause clause = {CHANNEL_CLAUSE, u16_at(body), 0, u16_at(body + 2), u32_at(body + 4)};
    if (clause.subject >= channel_count)
        return WRONG_NAME;
    if (clause.test < COUNT_AT_MOST || clause.test > COUNT_OTHER_THAN)
        return WRONG_FIELD;
    if (clause.test == COUNT_ODD || clause.test == COUNT_OTHER_THAN)
        return NOT_LINEAR;
    clauses[clauses_read++] = clause;
    return ACCEPTED;
}

static enum reason take_condition_record(const struct record *record)
{
    if (record->bytes == condition_file.bytes)
        return take_condition_head(record);
    if (clauses_read == clause_count)
        return judge_kind(record, END, BODY_AT);
    if (record->kind == LOCAL_CLAUSE)
        return take_local_clause(record);
    return record->kind == CHANNEL_CLAUSE ? take_channel_clause(record) : WRONG_KIND;
}

static struct refusal judge_run_and_condition(void)
{
    struct refusal refusal = judge_run();
    if (refusal.reason == ACCEPTED)
        refusal = read_records(&condition_file, take_condition_record);
    return refusal;
}

/* The search */

static bool is_received(const struct state *send, const struct channel *channel)
{
    return send->partner != NULL && send->partner->number <= cut[channel->to];
}

/* The cut only moves up, so what has come through by now never has to be looked at again. */
static void drop_received(struct channel *channel)
{
    while (channel->first_send != NULL && channel->first_send->number <= cut[channel->from] &&
           is_received(channel->first_send, channel))
        channel->first_send = channel->first_send->next_send;
}

/* Counts messages, not sends less receives: the cut may have a receive and not yet its send. */
static struct transit in_transit(struct channel *channel, int32_t operand)
{
    struct transit transit = {.lowest = INT32_MAX};
    drop_received(channel);
    const struct state *send = channel->first_send;
    for (; send != NULL && send->number <= cut[channel->from]; send = send->next_send) {
        if (is_received(send, channel))
            continue;
        transit.count++;
        transit.equal += send->stamp == operand;
        if (send->stamp < transit.lowest)
            transit.lowest = send->stamp;
    }
    return transit;
}

static bool comparison_holds(unsigned comparison, int32_t value, int32_t constant)
{
    switch (comparison) {
    case EQUAL:
        return value == constant;
    case OTHER_THAN:
        return value != constant;
    case AT_MOST:
        return value <= constant;
    default:
        return value >= constant;
    }
}

static int mover_by_local_clause(const struct clause *clause)
{
    const struct state *state = &states[clause->subject][cut[clause->subject]];
    int32_t value = i32_at(state->bytes + VALUES_AT + 4 * clause->value);
    bool holds = comparison_holds(clause->test, value, (int32_t)clause->operand);
    return holds ? NOBODY : (int)clause->subject;
}

/* The stamps are looked at only where there are any. */
static int mover_by_stamps(struct channel *channel, const struct clause *clause)
{
    int sender = (int)channel->from;
    int receiver = (int)channel->to;
    int32_t stamp = (int32_t)clause->operand;
    struct transit transit = {.lowest = INT32_MAX};
    if (channel->count > 0)
        transit = in_transit(channel, stamp);

    switch (clause->test) {
    case SOME_STAMP_EQUALS:
        return transit.equal > 0 ? NOBODY : sender;
    case NO_STAMP_EQUALS:
        return transit.equal == 0 ? NOBODY : receiver;
    case EVERY_STAMP_AT_LEAST:
        return transit.lowest >= stamp ? NOBODY : receiver;
    default:
        return transit.count > 0 && transit.lowest <= stamp ? NOBODY : sender;
    }
}

/* Only sends put messages in and only receives take them out: that names who has to move. */
static int mover_by_channel_clause(const struct clause *clause)
{
    struct channel *channel = &channels[clause->subject];
    int sender = (int)channel->from;
    int receiver = (int)channel->to;

    switch (clause->test) {
    case COUNT_AT_MOST:
        return channel->count <= clause->operand ? NOBODY : receiver;
    case COUNT_AT_LEAST:
        return channel->count >= clause->operand ? NOBODY : sender;
    case COUNT_EXACTLY:
        if (channel->count == clause->operand)
            return NOBODY;
        return channel->count < clause->operand ? sender : receiver;
    default:
        return mover_by_stamps(channel, clause);
    }
}

/* A chosen state that is before another stays before all that come after that other. */
static int mover_by_clocks(void)
{
    for (unsigned later = 0; later < process_count; later++) {
        const uint16_t *clock = states[later][cut[later]].clock;
        for (unsigned earlier = 0; earlier < process_count; earlier++)
            if (earlier != later && clock[earlier] >= cut[earlier])
                return (int)earlier;
    }
    return NOBODY;
}

static int mover_by_clauses(void)
{
    for (unsigned number = 0; number < clause_count; number++) {
        const struct clause *clause = &clauses[number];
        int mover = clause->kind == LOCAL_CLAUSE ? mover_by_local_clause(clause)
                                                 : mover_by_channel_clause(clause);
        if (mover != NOBODY)
            return mover;
    }
    return NOBODY;
}

/* A message that the cut has both ends of isn't in transit, whichever end it came to first. */
static bool has_other_end(const struct state *end)
{
    return end->partner != NULL && end->partner->number <= cut[end->partner->process];
}

static void move_on(int mover)
{
    const struct state *entered = &states[mover][++cut[mover]];
    struct channel *channel = &channels[entered->channel];
    if (entered->event == SEND && !has_other_end(entered))
        channel->count++;
    else if (entered->event == RECEIVE && has_other_end(entered))
        channel->count--;
}

/* After a move everything is tested again: a clause that held may hold no longer. */
static bool find_first_cut(void)
{
    for (unsigned process = 0; process < process_count; process++)
        cut[process] = 1;
    for (;;) {
        int mover = mover_by_clauses();
        if (mover == NOBODY)
            mover = mover_by_clocks();
        if (mover == NOBODY)
            return true;
        if (cut[mover] == state_count[mover])
            return false;
        move_on(mover);
    }
}

/* The questions */

static void print_refusal(struct refusal refusal)
{
    printf("refused %s %d %zu\n", refusal.file->name, (int)refusal.reason, refusal.place);
}

static void print_cut(void)
{
    puts("found");
    for (unsigned process = 0; process < process_count; process++)
        printf("state %u %u\n", process, cut[process]);
    for (unsigned number = 0; number < channel_count; number++) {
        struct transit transit = in_transit(&channels[number], 0);
        if (transit.count == 0)
            printf("channel %u 0 -\n", number);
        else
            printf("channel %u %u %d\n", number, (unsigned)transit.count, (int)transit.lowest);
    }
}

/* The numbers in the places that no cut was written to show that they are as they were. */
static void print_places(unsigned lent, unsigned written)
{
    fputs("places", stdout);
    for (unsigned place = 0; place < lent; place++)
        printf(" %u", place < written ? cut[place] : FIRST_PLACE + place);
    putchar('\n');
}

static struct refusal judge_for_search(unsigned lent)
{
    struct refusal refusal = judge_run_and_condition();
    if (refusal.reason == ACCEPTED && lent < process_count)
        return refused(&run_file, NO_ROOM, 0);
    return refusal;
}

static void answer_search(unsigned lent)
{
    struct refusal refusal = judge_for_search(lent);
    bool is_found = refusal.reason == ACCEPTED && find_first_cut();
    if (refusal.reason != ACCEPTED)
        print_refusal(refusal);
    else if (is_found)
        print_cut();
    else
        puts("none");
    print_places(lent, is_found ? process_count : 0);
}

static struct refusal take_asked_cut(void)
{
    if (asked_cut_size != process_count)
        return refused(&run_file, WRONG_CUT, 0);
    for (unsigned process = 0; process < process_count; process++) {
        cut[process] = asked_cut[process];
        if (cut[process] < 1 || cut[process] > state_count[process])
            return refused(&run_file, WRONG_CUT, 0);
    }
    return nothing_refused();
}

static void answer_consistent(void)
{
    struct refusal refusal = judge_run();
    if (refusal.reason == ACCEPTED)
        refusal = take_asked_cut();
    if (refusal.reason != ACCEPTED)
        print_refusal(refusal);
    else
        puts(mover_by_clocks() == NOBODY ? "yes" : "no");
}

/* For the clauses at a cut that was asked about: no search has brought the counts there. */
static bool asked_cut_satisfies(void)
{
    for (unsigned number = 0; number < channel_count; number++)
        channels[number].count = in_transit(&channels[number], 0).count;
    return mover_by_clauses() == NOBODY && mover_by_clocks() == NOBODY;
}

static void answer_satisfies(void)
{
    struct refusal refusal = judge_run_and_condition();
    if (refusal.reason == ACCEPTED)
        refusal = take_asked_cut();
    if (refusal.reason != ACCEPTED)
        print_refusal(refusal);
    else
        puts(asked_cut_satisfies() ? "yes" : "no");
}

static void print_count(struct transit transit)
{
    if (transit.count == 0)
        puts("empty");
    else
        printf("count %u %d\n", (unsigned)transit.count, (int)transit.lowest);
}

static void answer_messages(unsigned channel)
{
    struct refusal refusal = judge_run();
    if (refusal.reason == ACCEPTED)
        refusal = take_asked_cut();
    if (refusal.reason == ACCEPTED && channel >= channel_count)
        refusal = refused(&run_file, NO_CHANNEL, 0);
    if (refusal.reason != ACCEPTED)
        print_refusal(refusal);
    else
        print_count(in_transit(&channels[channel], 0));
}

/* How many bytes of the refused record there are. */
static size_t shown_size(struct refusal refusal)
{
    if (refusal.reason == ACCEPTED || refusal.reason == TOO_LONG || refusal.reason >= NO_ROOM)
        return 0;
    size_t left = refusal.file->size - refusal.place;
    if (refusal.is_after_end || left < 2)
        return left;
    size_t length = u16_at(refusal.file->bytes + refusal.place);
    return length < left ? length : left;
}

/* Whether a cut is found makes no difference here, so none is sought. */
static void answer_shown(unsigned lent)
{
    struct refusal refusal = judge_for_search(lent);
    bool of_a_record = refusal.reason != ACCEPTED && refusal.reason != TOO_LONG && refusal.reason < NO_ROOM;
    size_t size = shown_size(refusal);
    if (of_a_record)
        printf("shown %s %zu %zu ", refusal.file->name, refusal.place, size);
    else
        fputs("shown run 0 0 ", stdout);
    if (size == 0)
        putchar('-');
    for (size_t byte = 0; byte < size; byte++)
        printf("%02x", refusal.file->bytes[refusal.place + byte]);
    putchar('\n');
}

static void print_counts(const struct transit *listed, unsigned written, unsigned lent)
{
    fputs("places", stdout);
    for (unsigned place = 0; place < lent; place++)
        printf(" %u", place < written ? (unsigned)listed[place].count : FIRST_PLACE + place);
    putchar('\n');
}

/* An empty channel has no lowest stamp, so its place is as it was. */
static void print_stamps(const struct transit *listed, unsigned written, unsigned lent)
{
    fputs("stamps", stdout);
    for (unsigned place = 0; place < lent; place++) {
        bool has_stamp = place < written && listed[place].count > 0;
        printf(" %d", has_stamp ? (int)listed[place].lowest : FIRST_STAMP - (int)place);
    }
    putchar('\n');
}

static void answer_each(unsigned lent_counts, unsigned lent_stamps)
{
    struct transit listed[MOST_CHANNELS];
    unsigned written = 0;
    struct refusal refusal = judge_run();
    if (refusal.reason == ACCEPTED)
        refusal = take_asked_cut();
    if (refusal.reason == ACCEPTED && (lent_counts < channel_count || lent_stamps < channel_count))
        refusal = refused(&run_file, NO_ROOM, 0);
    if (refusal.reason == ACCEPTED) {
        puts("counted");
        for (; written < channel_count; written++)
            listed[written] = in_transit(&channels[written], 0);
    } else {
        print_refusal(refusal);
    }
    print_counts(listed, written, lent_counts);
    print_stamps(listed, written, lent_stamps);
}

/* A record by itself, beside the numbers that the head has. */
static enum reason judge_alone(const struct record *record, size_t place)
{
    bool has_head = run_file.size >= 10;
    size_t processes = has_head ? u16_at(run_file.bytes + 6) : 0;
    size_t channels_end = 10 + 10 * (has_head ? (size_t)u16_at(run_file.bytes + 8) : 0);
    if (place == 0) {
        enum reason reason = judge_kind(record, RUN_HEAD, 10);
        if (reason == ACCEPTED && u16_at(record->bytes + BODY_AT) != 1)
            return WRONG_FORMAT;
        return reason;
    }
    if (place < channels_end)
        return judge_kind(record, CHANNEL, 10);
    return record->kind == END ? judge_kind(record, END, 4) : judge_kind(record, STATE, CLOCK_AT + 2 * processes);
}

static void print_record(const struct record *record)
{
    const unsigned char *bytes = record->bytes;
    if (record->kind == RUN_HEAD)
        printf("record head %u %u", u16_at(bytes + 6), u16_at(bytes + 8));
    else if (record->kind == CHANNEL)
        printf("record channel %u %u %u", u16_at(bytes + 4), u16_at(bytes + 6), u16_at(bytes + 8));
    else if (record->kind == STATE)
        printf("record state %u %u %u %lu %lu", u16_at(bytes + 4), u16_at(bytes + 6), u16_at(bytes + 8),
               (unsigned long)u32_at(bytes + MESSAGE_AT), (unsigned long)u32_at(bytes + STAMP_AT));
    else
        fputs("record end", stdout);
}

static void answer_record(size_t place)
{
    struct record record;
    enum reason reason = place > run_file.size ? CUT_SHORT : read_frame(&run_file, place, &record);
    if (reason == ACCEPTED)
        reason = judge_alone(&record, place);
    if (reason != ACCEPTED) {
        print_refusal(refused(&run_file, reason, place));
        return;
    }
    print_record(&record);
    printf(" next %zu\n", place + record.length);
}

static unsigned lent_places(unsigned said)
{
    return said < MOST_LENT ? said : MOST_LENT;
}

static void answer(unsigned question, unsigned extra)
{
    unsigned lent = lent_places(extra);
    switch (question) {
    case SEARCH:
        answer_search(lent);
        break;
    case CONSISTENT:
        answer_consistent();
        break;
    case SATISFIES:
        answer_satisfies();
        break;
    case MESSAGES:
        answer_messages(extra);
        break;
    case SHOWN:
        answer_shown(lent);
        break;
    case EACH:
        answer_each(lent_places(extra & 0xff), lent_places(extra >> 8));
        break;
    case RECORD:
        answer_record(extra);
        break;
    default:
        answer_search(lent);
    }
}

/* The cases */

static bool read_part(unsigned char *bytes, size_t room, size_t size)
{
    return size <= room && fread(bytes, 1, size, stdin) == size;
}

static bool read_file(struct file *file, size_t size)
{
    file->size = size;
    return read_part(file->bytes, sizeof file->bytes, size);
}

static bool read_asked_cut(unsigned size)
{
    unsigned char bytes[2 * MOST_CUT_NUMBERS];
    if (!read_part(bytes, sizeof bytes, 2 * (size_t)size))
        return false;
    for (unsigned number = 0; number < size; number++)
        asked_cut[number] = u16_at(bytes + 2 * number);
    asked_cut_size = size;
    return true;
}

static bool read_case(const unsigned char *head)
{
    return read_asked_cut(u16_at(head + CUT_SIZE_AT)) &&
           read_file(&run_file, u32_at(head + RUN_SIZE_AT)) &&
           read_file(&condition_file, u32_at(head + CONDITION_SIZE_AT));
}

int main(void)
{
    unsigned char head[CASE_HEAD];
    size_t got;
    while ((got = fread(head, 1, sizeof head, stdin)) == sizeof head && read_case(head))
        answer(head[0], u16_at(head + EXTRA_AT));
    if (got != 0)
        puts("cut short");
    return EXIT_SUCCESS;
}
