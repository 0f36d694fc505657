/* The deepest stack of a call: a thread's stack is painted, the check is called on sheets that go deepest, and what was
 * painted over is counted. usage: stack MOST COUNTER; it fails where a call takes more than MOST bytes, or one of the dispatcher, with its
 * caller's frame, more than COUNTER. */
#define _GNU_SOURCE
#include "../include/channel_check.h"
#include <pthread.h>
#include <stdio.h>
#include <stdlib.h>
#include <string.h>

enum { SIZE = 1 << 20, PAINT = 0xc3, MESSAGES = CHANNEL_CHECK_TRACE_BYTES / 6, EVENTS = 2 * MESSAGES };

static char text[16384];
static size_t len;
static uint64_t scratch[CHANNEL_CHECK_SCRATCH_WORDS];
static uint8_t trace[CHANNEL_CHECK_TRACE_BYTES], output[CURE_SHEET_OUTPUT_BYTES];
static const char table[] = "from to verdict\n65535 32768 1\n65535 32767 0\n"; /* all may send to board 15 alone */
static uint16_t held[SHEET_MESSAGES_OUTPUT_NUMBERS], up[EVENTS], down[EVENTS], course[TAPS_CHECK_OUTPUT_NUMBERS]; /* the sheet's events, and the last of them first */
static size_t events;
static uint32_t code;
static uint8_t sheets[DISPATCHER_PLACES * DISPATCHER_SHEET_BYTES];
static uint64_t words[DISPATCHER_WORDS];
static dispatcher_answer told;
static uint8_t *top; /* where the caller's frame stands */

/* what each call said of the last sheet */
static struct {
    channel_check_answer check, permitted;
    trace_check_answer replayed;
    choice_check_answer chosen;
    struct { uint32_t word, one; } opened, stepped, switched, told, cancelled;
    monitor_standing_answer stands;
    sheet_messages_answer listed;
    sheet_races_answer raced;
    rounds_check_answer repeated;
    senders_check_answer judged;
    cure_sheet_answer cured;
    taps_check_answer untapped, fits, clashes;
    channel_check_answer served;
} said;

static taps_check_answer tap(const uint16_t *list, size_t count) {
    return taps_check((const uint8_t *)text, len, scratch, CHANNEL_CHECK_SCRATCH_WORDS, list, count, list, count, course, TAPS_CHECK_OUTPUT_NUMBERS);
}

static void *run(void *unused) {
    const uint8_t *t = (const uint8_t *)text;
    enum { WORDS = CHANNEL_CHECK_SCRATCH_WORDS };
    top = __builtin_frame_address(0);
    said.check = channel_check(t, len, code, scratch, WORDS, trace, CHANNEL_CHECK_TRACE_BYTES);
    said.replayed = trace_check(t, len, code, scratch, WORDS, trace, said.check.word == CHANNEL_CHECK_LOCKED ? 2 * said.check.three : 0);
    said.chosen = choice_check(t, len, code, scratch, WORDS, trace, CHANNEL_CHECK_TRACE_BYTES);
    monitor_answer a = monitor_open(t, len, code, scratch, WORDS);
    said.opened.word = a.word, said.opened.one = a.one;
    a = monitor_step(a.next, CHANNEL_CHECK_SEND, 0, t, len, scratch, WORDS);
    said.stepped.word = a.word, said.stepped.one = a.one;
    a = monitor_switch(a.next, code, t, len, scratch, WORDS);
    said.switched.word = a.word, said.switched.one = a.one;
    said.stands = monitor_standing(a.next, t, len, scratch, WORDS);
    said.listed = sheet_messages(t, len, scratch, WORDS, held, SHEET_MESSAGES_OUTPUT_NUMBERS);
    said.raced = sheet_races(t, len, code, scratch, WORDS, held, SHEET_MESSAGES_OUTPUT_NUMBERS);
    said.repeated = rounds_check(t, len, code, scratch, WORDS, trace, CHANNEL_CHECK_TRACE_BYTES);
    said.judged = senders_check((const uint8_t *)table, sizeof table - 1);
    said.permitted = permitted_check(t, len, code, scratch, WORDS, trace, CHANNEL_CHECK_TRACE_BYTES, (const uint8_t *)table, sizeof table - 1);
    said.cured = cure_sheet(t, len, scratch, WORDS, output, CURE_SHEET_OUTPUT_BYTES);
    said.untapped = tap(up, 0);
    said.fits = tap(up, events);
    said.clashes = tap(down, events);
    return unused;
}

/* a job of the text alone, up to its last turn; and once more, cancelled */
static void *serve(void *unused) {
    const uint32_t size = (uint32_t)len;
    top = __builtin_frame_address(0);
    told = dispatcher_admit(dispatcher_empty(), sheets, sizeof sheets, &size, 1, &code, 1, words, DISPATCHER_WORDS);
    while (told.word == DISPATCHER_ADMITTED || told.word == DISPATCHER_UNANSWERED)
        told = dispatcher_turn(told.next, sheets, sizeof sheets, &size, 1, &code, 1, words, DISPATCHER_WORDS, trace, CHANNEL_CHECK_TRACE_BYTES);
    said.told.word = told.word, said.told.one = told.one, said.served = told.answer;
    told = dispatcher_admit(told.next, sheets, sizeof sheets, &size, 1, &code, 1, words, DISPATCHER_WORDS);
    told = dispatcher_cancel(told.next, 1, sheets, sizeof sheets, &size, 1, &code, 1, words, DISPATCHER_WORDS);
    said.cancelled.word = told.word, said.cancelled.one = told.one;
    return unused;
}

/* bytes of a painted stack that a call used, with its caller's frame */
static size_t used(void *(*run)(void *)) {
    static uint8_t *stack;
    pthread_attr_t a;
    pthread_t t;
    if (!stack) stack = aligned_alloc(4096, SIZE);
    memset(stack, PAINT, SIZE);
    if (pthread_attr_init(&a) || pthread_attr_setstack(&a, stack, SIZE) || pthread_create(&t, &a, run, NULL) || pthread_join(t, NULL)) {
        perror("thread");
        exit(2);
    }
    uint8_t *lowest = stack;
    while (*lowest == PAINT) lowest++;
    return (size_t)(top - lowest);
}

static void line(const char *kind, int one, int two) { len += (size_t)sprintf(text + len, "%s %d %d\n", kind, one, two); }

enum { ON_A_LEVEL = 14, LEVELS = 9 };

/* a level's messages, each from a board of its own: to board 15, where the last two race, or to that same board */
static void level(int races) {
    for (int m = 0; m < ON_A_LEVEL; m++) line("M", m, races ? 15 : m);
    if (races) line("P", 2 * ON_A_LEVEL - 3, 2 * ON_A_LEVEL - 1);
}

/* nine levels of sheets, with messages that race, and one call more at the deepest where it is to be refused */
static void levels(int refused) {
    for (int n = 0; n < LEVELS; n++) {
        line("S", n, 0);
        level(1);
        if (n < LEVELS - 1 || refused) line("C", (n + 1) % LEVELS, 0);
    }
}

/* nine levels by choices, each of a level more or of an empty sheet, and a race on the deepest: the last list alone locks. The check refuses A rows */
static void choosing(int refused) {
    (void)refused;
    for (int n = 0; n < LEVELS; n++) {
        line("S", n, 0);
        if (n < LEVELS - 1) line("A", LEVELS, n + 1);
        level(n == LEVELS - 1);
    }
    line("S", LEVELS, 0);
}

/* the most messages, and a race of the last two */
static void messages(int refused) {
    line("S", 0, 0);
    for (int m = 0; m < MESSAGES + refused; m++) line("M", m % 13, m < MESSAGES - 2 ? (m + 1) % 13 : 15);
    line("P", EVENTS - 3, EVENTS - 1);
}

/* A sheet; its messages, or its refusal by all calls but choice_check where is_chosen; whether the table forbids one of them. */
typedef struct { void (*make)(int); int messages; uint32_t refusal; int is_chosen, is_forbidden; } sheet;
static const sheet all[] = {
    {levels, ON_A_LEVEL * LEVELS, 0, 0, 0},
    {messages, MESSAGES, 0, 0, 1},
    {levels, 0, CHANNEL_CHECK_REFUSAL_DEPTH, 0, 0},
    {messages, 0, CHANNEL_CHECK_REFUSAL_PLACE, 0, 0},
    {choosing, 0, CHANNEL_CHECK_REFUSAL_ROW, 1, 0},
};

/* the answers are looked at, so that what was measured is the path that was meant */
static void says(const char *call, uint32_t word, uint32_t expected, uint32_t one, uint32_t number) {
    if (word == expected && (number == 0 || one == number)) return;
    printf("FAILED: stack, code %u: %s said %u %u, expected %u %u\n", code, call, word, one, expected, number);
    exit(1);
}

/* the races of all these sheets lock an eager channel */
static uint32_t is_eager(void) { return code != CHANNEL_CHECK_LAZY_FREE_RUNNING && code != CHANNEL_CHECK_LAZY_FIFO; }

static void accepted(const sheet *s) {
    uint32_t locks = is_eager();
    says("channel_check", said.check.word, locks, 0, 0);
    says("trace_check", said.replayed.word, locks ? TRACE_CHECK_STUCK : TRACE_CHECK_OPEN, 0, 0);
    says("choice_check", said.chosen.word, locks, 0, 0);
    says("monitor_open", said.opened.word, MONITOR_TAKEN, 0, 0);
    says("monitor_step", said.stepped.word, MONITOR_TAKEN, 0, 0);
    says("monitor_switch", said.switched.word, MONITOR_TAKEN, 0, 0);
    says("monitor_standing", said.stands.word, MONITOR_STANDING_OPEN, 0, 0);
    says("sheet_messages", said.listed.word, SHEET_MESSAGES_LISTED, said.listed.one, (uint32_t)(events / 2));
    says("sheet_races", said.raced.word, SHEET_RACES_LISTED, said.raced.one != 0, locks);
    says("rounds_check", said.repeated.word, 2 * said.listed.one > CHANNEL_CHECK_MESSAGES ? CHANNEL_CHECK_REFUSED : locks, said.repeated.rounds, 2 * said.listed.one > CHANNEL_CHECK_MESSAGES ? 0 : locks);
    says("permitted_check", said.permitted.word, s->is_forbidden ? CHANNEL_CHECK_REFUSED : locks, said.permitted.one, s->is_forbidden ? CHANNEL_CHECK_REFUSAL_FORBIDDEN : 0);
    says("cure_sheet", said.cured.word, CURE_SHEET_WRITTEN, 0, 0);
    says("taps_check, no list", said.untapped.word, TAPS_CHECK_FIT, said.untapped.one, (uint32_t)events);
    says("taps_check, all events", said.fits.word, TAPS_CHECK_FIT, said.fits.one, (uint32_t)events);
    says("taps_check, the last first", said.clashes.word, TAPS_CHECK_CLASH, 0, 0);
    says("dispatcher_turn", said.told.word, DISPATCHER_ANSWERED, 0, 0);
    says("dispatcher_turn, the check's answer", (uint32_t)memcmp(&said.served, &said.check, sizeof said.check), 0, 0, 0);
    says("dispatcher_cancel", said.cancelled.word, DISPATCHER_CANCELLED, 0, 0);
}

static void refused(const sheet *s) {
    uint32_t locks = is_eager(), n = s->refusal;
    says("channel_check", said.check.word, CHANNEL_CHECK_REFUSED, said.check.one, n);
    says("trace_check", said.replayed.word, TRACE_CHECK_REFUSED, said.replayed.one, n);
    if (!s->is_chosen) says("choice_check", said.chosen.word, CHOICE_CHECK_REFUSED, said.chosen.one, n);
    else says("choice_check, on the last list", said.chosen.word, locks, said.chosen.choices, locks ? (1 << CHOICE_CHECK_OPTIONS) - 1 : 0);
    says("monitor_open", said.opened.word, MONITOR_REFUSED, said.opened.one, n);
    says("monitor_step", said.stepped.word, MONITOR_REFUSED, said.stepped.one, n);
    says("monitor_switch", said.switched.word, MONITOR_REFUSED, said.switched.one, n);
    says("monitor_standing", said.stands.word, MONITOR_STANDING_REFUSED, said.stands.one, n);
    says("sheet_messages", said.listed.word, SHEET_MESSAGES_REFUSED, said.listed.one, n);
    says("sheet_races", said.raced.word, SHEET_RACES_REFUSED, said.raced.one, n);
    says("rounds_check", said.repeated.word, ROUNDS_CHECK_REFUSED, said.repeated.one, n);
    says("permitted_check", said.permitted.word, CHANNEL_CHECK_REFUSED, said.permitted.one, n);
    says("cure_sheet", said.cured.word, CURE_SHEET_REFUSED, said.cured.one, n);
    says("taps_check", said.untapped.word, TAPS_CHECK_REFUSED, said.untapped.one, n);
    says("dispatcher_admit", said.told.word, DISPATCHER_REFUSED, said.told.one, n);
    says("dispatcher_cancel", said.cancelled.word, DISPATCHER_REFUSED, said.cancelled.one, CHANNEL_CHECK_REFUSAL_HELD);
}

static size_t deepest, counter; /* of the calls on one sheet, and of the dispatcher's */

/* all six channels */
static void measure(const sheet *s) {
    len = (size_t)sprintf(text, "kind one two\n");
    s->make(s->refusal != 0);
    memcpy(sheets, text, len < DISPATCHER_SHEET_BYTES ? len : DISPATCHER_SHEET_BYTES);
    events = 2 * (size_t)s->messages;
    for (size_t i = 0; i < events; i++) up[i] = (uint16_t)i, down[i] = (uint16_t)(events - 1 - i);
    for (code = 0; code < CHANNEL_CHECK_CHANNELS; code++) {
        size_t n = used(run), m = used(serve);
        says("senders_check", said.judged.word, SENDERS_CHECK_SOUND, 0, 0);
        if (s->refusal == 0) accepted(s);
        else refused(s);
        if (n > deepest) deepest = n;
        if (m > counter) counter = m;
    }
}

int main(int argc, char **argv) {
    const size_t most_said = CHANNEL_CHECK_STACK_BYTES; /* by the header, of every call */
    size_t most = argc > 1 ? (size_t)atol(argv[1]) : most_said, counters = argc > 2 ? (size_t)atol(argv[2]) : most_said;
    for (size_t i = 0; i < sizeof all / sizeof *all; i++) measure(&all[i]);
    printf("stack: %zu bytes at the deepest, %zu allowed; %zu in the dispatcher, %zu allowed\n", deepest, most, counter, counters);
    return deepest > most || counter > counters || deepest > most_said || counter > most_said;
}
