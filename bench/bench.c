/* Runs one implementation on one fixed sheet: for callgrind to count.
 * usage: bench proved|careful SHEET MESSAGES [CALL] [CODE]; a call, or all, on a channel, or all six. The call `empty` is trace_check of no steps.
 *        bench proved|careful SHEET MESSAGES counter JOBS; the sheet as so many jobs of a dispatcher, a line a call.
 *        bench text SHEET MESSAGES; the sheet itself. */
#include "check.h"
#include <ctype.h>
#include <stdio.h>
#include <stdlib.h>
#include <string.h>

enum { ROWS = 512 };
static char text[16384];
static size_t len;
static int rows;

/* a row, as long as the file may have one more */
static void line(const char *kind, int one, int two) {
    if (rows++ < ROWS) len += (size_t)sprintf(text + len, "%s %d %d\n", kind, one, two);
}

static void begin(void) {
    len = (size_t)sprintf(text, "kind one two\nS 0 0\n");
    rows = 1;
}

/* The last two race, and all the others are consumed beside them: the longest trace. */
static void longest_trace(int n) {
    begin();
    for (int m = 0; m < n; m++) {
        int racing = m >= n - 2;
        line("M", racing ? m % 2 : m % 13, racing ? 15 : (m + 1) % 13);
    }
    line("P", 2 * n - 3, 2 * n - 1);
}

/* Each message is sent after the receive of the one before: one long chain over the boards. */
static void chain(int n) {
    begin();
    for (int m = 0; m < n; m++) {
        line("M", m % 16, (m + 1) % 16);
        if (m > 0) line("P", 2 * m - 1, 2 * m);
    }
}

/* The chain, but for its last message, which nothing orders after the others: its receive is put after the one before, a race. */
static void last_race(int n) {
    chain(n - 1);
    line("M", (n + 3) % 16, (n - 1) % 16);
    line("P", 2 * n - 3, 2 * n - 1);
}

/* The cure with the most rows: 16 receives of a board ahead of 24 sends of it, a block later; with 127 messages 512 rows to write. */
static void most_rows(int n) {
    begin();
    for (int i = 0; i < 16; i++) line("M", 1 + i % 14, 0);
    line("B", 0, 0);
    for (int i = 0; i < 24; i++) line("M", 0, 1 + i % 14);
    for (int i = 40; i < n; i++) line("M", 15, 15);
}

/* As many P rows as the file has room for, each after the last on one of two boards: the later messages first. */
static void dense(int n) {
    begin();
    for (int m = 0; m < n; m++) line("M", 0, 1);
    for (int m = n - 2; m >= 0; m--) {
        line("P", 2 * m, 2 * m + 2);
        line("P", 2 * m + 1, 2 * m + 3);
    }
    for (int m = 0; m + 2 < n; m++) line("P", 2 * m, 2 * m + 4);
}

/* The chain, with each of its P rows given twice. */
static void chain_twice(int n) {
    chain(n);
    for (int m = 1; m < n; m++) line("P", 2 * m - 1, 2 * m);
}

/* Calls of a sheet with one message and P rows, all of one order, as many as the file has room for. */
static void order_rows(int n) {
    begin();
    for (int i = 0; i < n; i++) line("C", 1, 0);
    line("S", 1, 0);
    line("M", 3, 3);
    for (int i = 0; i < 504 - n; i++) line("P", 0, 1);
}

/* 40 blocks of three messages and a few P rows each; n is not used. */
static void few(int n) {
    (void)n;
    begin();
    for (int b = 0; b < 40; b++) {
        line("M", 0, 1);
        line("M", 0, 1);
        line("M", 1, 0);
        line("P", 0, 2);
        line("P", 1, 3);
        line("P", 3, 4);
        line("P", 0, 5);
        line("B", 0, 0);
    }
}

/* Case 2 of the paper: a small sheet; n is not used. */
static void case_2(int n) {
    (void)n;
    begin();
    line("M", 0, 1);
    line("M", 2, 1);
    line("P", 1, 3);
}

/* 1,024 calls of a sheet that is still open, and after them in sheet 0 so many messages. */
static void calling(int messages) {
    begin();
    for (int i = 0; i < 31; i++) line("C", 1, 0);
    line("C", 2, 0);
    for (int i = 0; i < messages; i++) line("M", 0, 1);
    line("S", 1, 0);
    for (int i = 0; i < 32; i++) line("C", 2, 0);
    line("S", 2, 0);
}

/* 1,024 calls of empty sheets; n is not used. */
static void calls(int n) {
    (void)n;
    calling(0);
}

/* 1,024 calls of a sheet of blocks: several hundred thousand of them. */
static void blocks(int n) {
    calls(n);
    for (int i = 0; i < 440; i++) line("B", 0, 0);
}

/* The same with one message, the last that is walked: who looks for its row passes all the blocks. */
static void late_message(int n) {
    (void)n;
    calling(1);
    for (int i = 0; i < 440; i++) line("B", 0, 0);
}

static const channel_check_answer *expected; /* where a sheet is for one answer alone */

/* 8,192 bytes and 512 rows, all of them read: the last row, which is refused, has one field that takes the rest. */
static void refused(int n) {
    static const channel_check_answer last_row = {CHANNEL_CHECK_REFUSED, CHANNEL_CHECK_REFUSAL_ROW, ROWS + 1, 0};
    (void)n;
    expected = &last_row;
    begin();
    for (int i = 0; i < 128; i++) line("M", 10 + i % 6, 10 + i % 5);
    line("B", 0, 0);
    for (int i = 0; i < 128; i++) line("M", 15, 15);
    while (rows < ROWS - 1) line("P", 100 + rows % 128, 228 + rows % 28); /* forwards, so that no circle is refused ahead of that row */
    len += (size_t)sprintf(text + len, "P 255 ");
    while (len < CHANNEL_CHECK_TEXT_BYTES - 1) text[len++] = '1';
    text[len++] = '\n';
}

/* As the longest trace, but the first two race: a search that goes deep first comes to them last. */
static void early_race(int n) {
    begin();
    for (int m = 0; m < n; m++) line("M", m < 2 ? m : (m - 2) % 13, m < 2 ? 15 : (m - 1) % 13);
    line("P", 1, 3);
}

/* Pairs of boards, each with messages in order at both ends: free on all channels but 0. */
static void streams(int n) {
    begin();
    for (int m = 0; m < n; m++) line("M", m / 2 % 8, 8 + m / 2 % 8);
    for (int m = 0; m < n; m++) {
        int next = m % 2 == 0 ? m + 1 : m + 15;
        if (next >= n) continue;
        line("P", 2 * m, 2 * next);
        line("P", 2 * m + 1, 2 * next + 1);
    }
}

/* Eight A rows after a chain: 256 lists, each a walk of n messages, free; with a race in the second sheet, the second list locks. */
static void choosing(int n, int race) {
    begin();
    for (int m = 0; m < n - 16; m++) {
        line("M", m % 13, (m + 1) % 13);
        if (m > 0) line("P", 2 * m - 1, 2 * m);
    }
    for (int i = 0; i < 8; i++) line("A", 1, 2);
    line("S", 1, 0);
    for (int m = 0; m < 2; m++) line("M", 13, 14);
    line("S", 2, 0);
    for (int m = 0; m < 2; m++) line("M", 14 + m, 13);
    if (race) line("P", 1, 3);
}

static void choices(int n) { choosing(n, 0); }
static void choices_locked(int n) { choosing(n, 1); }

/* The lists of two taps. A sheet that does not fill them has empty ones. */
static uint16_t first[1024], second[1024];
static size_t first_len, second_len;

/* Messages that nothing orders, and both lists full: the events as they are numbered. */
static void taps_up(int n) {
    begin();
    for (int m = 0; m < n; m++) line("M", m % 13, (m + 1) % 13);
    first_len = second_len = (size_t)(2 * n);
    for (int x = 0; x < 2 * n; x++) first[x] = second[x] = (uint16_t)x;
}

/* The same with the messages from the last to the first. */
static void taps_down(int n) {
    taps_up(n);
    for (int x = 0; x < 2 * n; x++) first[x] = second[x] = (uint16_t)(2 * (n - 1 - x / 2) + x % 2);
}

/* One list has the sends from the last to the first, the other the receives from the first to the last. */
static void taps_crossed(int n) {
    taps_up(n);
    first_len = second_len = (size_t)n;
    for (int m = 0; m < n; m++) first[m] = (uint16_t)(2 * (n - 1 - m)), second[m] = (uint16_t)(2 * m + 1);
}

/* Both full, one the other way round: every event would have to precede itself. */
static void taps_clash(int n) {
    taps_up(n);
    for (int x = 0; x < 2 * n; x++) second[x] = (uint16_t)(2 * n - 1 - x);
}

/* The output of all races: room for every one, unless the sheet is one on which they are only counted. */
static uint16_t races[1 << 17];
static size_t races_len = sizeof races / sizeof *races;

/* One board receives all messages in order, and nothing orders their sends: nearly each two race, on every eager channel. */
static void many_races(int n) {
    begin();
    for (int m = 0; m < n; m++) {
        line("M", m % 15, 15);
        if (m > 0) line("P", 2 * m - 1, 2 * m + 1);
    }
}

static void races_counted(int n) {
    many_races(n);
    races_len = 0;
}

/* The table of permitted senders forbids a message from board 15 to itself: the last message. */
static int forbids;

static void forbidden(int n) {
    begin();
    for (int m = 0; m < n - 1; m++) line("M", m % 13, (m + 1) % 13);
    line("M", 15, 15);
    forbids = 1;
}

static void forbidden_chain(int n) {
    chain(n - 1);
    line("M", 15, 15);
    forbids = 1;
}

/* Rounds: each message answered, so that no number of rounds locks. */
static void answered(int n) {
    begin();
    for (int m = 0; m < n; m += 2) {
        line("M", m % 16, (m + 1) % 16);
        line("M", (m + 1) % 16, m % 16);
        line("P", 1, 2);
        line("P", 0, 3);
        line("B", 0, 0);
    }
}

/* A sheet unrolled into one walk of twice its messages: a sheet 0 that calls it twice. */
static void twice(void (*make)(int), int n) {
    static char once[sizeof text];
    make(n / 2);
    memcpy(once, text, len + 1);
    char *rest = strchr(strchr(once, '\n') + 1, '\n') + 1; /* after the heading and S 0 0 */
    begin();
    line("C", 1, 0);
    line("C", 1, 0);
    line("S", 1, 0);
    len += (size_t)sprintf(text + len, "%s", rest);
}

static void longest_twice(int n) { twice(longest_trace, n); }
static void last_race_twice(int n) { twice(last_race, n); }
static void answered_twice(int n) { twice(answered, n); }
static void chain_again(int n) { twice(chain, n); }

static const struct { const char *name; void (*make)(int); } sheets[] = {
    {"longest-trace", longest_trace}, {"chain", chain}, {"dense", dense}, {"calls", calls}, {"blocks", blocks}, {"refused", refused},
    {"chain-twice", chain_twice}, {"last-race", last_race}, {"most-rows", most_rows}, {"order-rows", order_rows}, {"few", few}, {"case-2", case_2},
    {"early-race", early_race}, {"streams", streams}, {"choices", choices}, {"choices-locked", choices_locked},
    {"taps-up", taps_up}, {"taps-down", taps_down}, {"taps-crossed", taps_crossed}, {"taps-clash", taps_clash},
    {"many-races", many_races}, {"races-counted", races_counted}, {"late-message", late_message},
    {"forbidden", forbidden}, {"forbidden-chain", forbidden_chain}, {"answered", answered},
    {"twice-longest-trace", longest_twice}, {"twice-last-race", last_race_twice}, {"twice-answered", answered_twice}, {"twice-chain", chain_again},
};

/* A word and its numbers, and what each board waits for. */
static void say_waits(const char *what, uint32_t word, uint32_t one, uint32_t two, const uint16_t *waits) {
    printf("%s: %u %u %u, waits", what, word, one, two);
    for (size_t b = 0; b < CHANNEL_CHECK_BOARDS; b++) printf(" %u", waits[b]);
    printf("\n");
}

/* A run opened, the check's own steps fed to the monitor one at a time, where it then stands, and a switch at its end. */
static void watch(int proved, uint32_t code, const uint8_t *steps, uint32_t count, uint64_t *scratch) {
    enum { WORDS = CHANNEL_CHECK_SCRATCH_WORDS };
    const uint8_t *sheet = (const uint8_t *)text;
    monitor_answer a = (proved ? monitor_open : careful_monitor_open)(sheet, len, code, scratch, WORDS);
    unsigned sum = a.word;
    for (uint32_t i = 0; i < count; i++) {
        a = (proved ? monitor_step : careful_monitor_step)(a.next, steps[2 * i], steps[2 * i + 1], sheet, len, scratch, WORDS);
        sum = 31 * sum + a.word;
    }
    monitor_standing_answer s = (proved ? monitor_standing : careful_monitor_standing)(a.next, sheet, len, scratch, WORDS);
    say_waits("standing", s.word, s.one, s.two, s.waits);
    a = (proved ? monitor_switch : careful_monitor_switch)(a.next, 5, sheet, len, scratch, WORDS);
    for (size_t i = 0; i < sizeof a.next.done / 8; i++) sum = 31 * sum + (unsigned)(a.next.done[i] ^ a.next.way[i] ^ a.next.done[i] >> 32);
    printf("watched: %u %u %u, %u\n", a.word, a.one, a.two, sum);
}

static void replay(int proved, uint32_t code, uint64_t *scratch, const uint8_t *trace, size_t trace_len) {
    trace_check_answer t = (proved ? trace_check : careful_trace_check)((const uint8_t *)text, len, code, scratch, CHANNEL_CHECK_SCRATCH_WORDS, trace, trace_len);
    say_waits("replayed", t.word, t.one, t.two, t.waits);
}

/* The call that is asked for; NULL: all but `empty`. */
static const char *only;

static int is_asked(const char *call) { return !only || strcmp(only, call) == 0; }

static void choose(int proved, uint32_t code, uint64_t *scratch) {
    uint8_t trace[CHANNEL_CHECK_TRACE_BYTES] = {0};
    unsigned sum = 0;
    choice_check_answer l = (proved ? choice_check : careful_choice_check)((const uint8_t *)text, len, code, scratch, CHANNEL_CHECK_SCRATCH_WORDS, trace, CHANNEL_CHECK_TRACE_BYTES);
    for (size_t i = 0; i < sizeof trace; i++) sum = 31 * sum + trace[i];
    printf("choices: %u %u %u %u %u %u, trace %u\n", l.word, l.one, l.two, l.three, l.length, l.choices, sum);
}

/* The check, and its answer, with a sum of the trace so that two implementations can be compared; then the calls that take its steps. */
static void run(int proved, uint32_t code) {
    static uint64_t scratch[CHANNEL_CHECK_SCRATCH_WORDS];
    static uint8_t trace[CHANNEL_CHECK_TRACE_BYTES];
    channel_check_answer a = (proved ? channel_check : careful_check)((const uint8_t *)text, len, code, scratch, CHANNEL_CHECK_SCRATCH_WORDS, trace, CHANNEL_CHECK_TRACE_BYTES);
    unsigned sum = 0;
    for (size_t i = 0; i < sizeof trace; i++) sum = 31 * sum + trace[i];
    printf("%zu bytes, code %u: %u %u %u %u, trace %u\n", len, code, a.word, a.one, a.two, a.three, sum);
    if (expected && memcmp(&a, expected, sizeof a) != 0) fprintf(stderr, "FAILED: another answer than the sheet is for\n"), exit(1);
    uint32_t steps = a.word == 1 ? a.three : 0;
    if (is_asked("trace_check")) replay(proved, code, scratch, trace, 2 * steps);
    if (is_asked("choice_check")) choose(proved, code, scratch);
    if (is_asked("monitor_step") || is_asked("monitor_standing")) watch(proved, code, trace, steps, scratch);
}

/* All races of the sheet: the answer, and a sum of the output. */
static void list(int proved, uint32_t code) {
    static uint64_t scratch[CHANNEL_CHECK_SCRATCH_WORDS];
    sheet_races_answer a = (proved ? sheet_races : careful_sheet_races)((const uint8_t *)text, len, code, scratch, CHANNEL_CHECK_SCRATCH_WORDS, races, races_len);
    unsigned sum = 0;
    for (size_t i = 0; i < sizeof races / sizeof *races; i++) sum = 31 * sum + races[i];
    printf("races: %u %u %u, output %u\n", a.word, a.one, a.two, sum);
}

/* The sheet repeated: the answer, and a sum of the trace. */
static void repeat(int proved, uint32_t code) {
    static uint64_t scratch[CHANNEL_CHECK_SCRATCH_WORDS];
    static uint8_t trace[CHANNEL_CHECK_TRACE_BYTES];
    rounds_check_answer a = (proved ? rounds_check : careful_rounds_check)((const uint8_t *)text, len, code, scratch, CHANNEL_CHECK_SCRATCH_WORDS, trace, CHANNEL_CHECK_TRACE_BYTES);
    unsigned sum = 0;
    for (size_t i = 0; i < sizeof trace; i++) sum = 31 * sum + trace[i];
    printf("repeated: %u %u %u %u %u, trace %u\n", a.word, a.one, a.two, a.three, a.rounds, sum);
}

/* The messages of the sheet, once, since it is given no channel: the answer, and a sum of the output. */
static void tell_messages(int proved) {
    static uint64_t scratch[CHANNEL_CHECK_SCRATCH_WORDS];
    static uint16_t output[SHEET_MESSAGES_OUTPUT_NUMBERS];
    sheet_messages_answer a = (proved ? sheet_messages : careful_sheet_messages)((const uint8_t *)text, len, scratch, CHANNEL_CHECK_SCRATCH_WORDS, output, SHEET_MESSAGES_OUTPUT_NUMBERS);
    unsigned sum = 0;
    for (size_t i = 0; i < SHEET_MESSAGES_OUTPUT_NUMBERS; i++) sum = 31 * sum + output[i];
    printf("messages: %u %u %u, output %u\n", a.word, a.one, a.two, sum);
}

static void replay_nothing(int proved, uint32_t code) {
    static uint64_t scratch[CHANNEL_CHECK_SCRATCH_WORDS];
    const uint8_t none = 0;
    replay(proved, code, scratch, &none, 0);
}

/* 64 rules that partition the pairs, a sender and four receivers each; all permit, but for the last where the sheet is for one that forbids. */
static char table[2048];
static size_t table_len;

static void partition(void) {
    table_len = (size_t)sprintf(table, "from to verdict\n");
    for (int i = 0; i < 64; i++) table_len += (size_t)sprintf(table + table_len, "%d %d %d\n", 1 << i / 4, 15 << 4 * (i % 4), i < 63 || !forbids);
}

/* The check of the sheet with that table. */
static void permit(int proved, uint32_t code) {
    static uint64_t scratch[CHANNEL_CHECK_SCRATCH_WORDS];
    static uint8_t trace[CHANNEL_CHECK_TRACE_BYTES];
    channel_check_answer a = (proved ? permitted_check : careful_permitted_check)((const uint8_t *)text, len, code, scratch, CHANNEL_CHECK_SCRATCH_WORDS, trace, CHANNEL_CHECK_TRACE_BYTES, (const uint8_t *)table, table_len);
    printf("with a table: %u %u %u %u\n", a.word, a.one, a.two, a.three);
}

static void judge_table(int proved) {
    senders_check_answer a = (proved ? senders_check : careful_senders_check)((const uint8_t *)table, table_len);
    printf("table: %u %u %u %u\n", a.word, a.one, a.two, a.three);
}

/* The cure, once, since it is given no channel: its answer, and a sum of the whole output. */
static void cure(int proved) {
    static uint64_t scratch[CHANNEL_CHECK_SCRATCH_WORDS];
    static uint8_t output[CURE_SHEET_OUTPUT_BYTES];
    cure_sheet_answer a = (proved ? cure_sheet : careful_cure_sheet)((const uint8_t *)text, len, scratch, CHANNEL_CHECK_SCRATCH_WORDS, output, CURE_SHEET_OUTPUT_BYTES);
    unsigned sum = 0;
    for (size_t i = 0; i < sizeof output; i++) sum = 31 * sum + output[i];
    printf("cured: %u %u %u, output %u\n", a.word, a.one, a.two, sum);
}

/* The sheet admitted so often, each on the next channel, and turns until idle: a line a call, with a sum of the words and the trace. */
static void counter(int proved, uint32_t jobs) {
    static uint8_t sheets[DISPATCHER_PLACES * DISPATCHER_SHEET_BYTES], trace[CHANNEL_CHECK_TRACE_BYTES];
    static uint64_t words[DISPATCHER_WORDS];
    uint32_t lengths[DISPATCHER_PLACES], codes[DISPATCHER_PLACES];
    dispatcher_answer a = {0};
    a.next = (proved ? dispatcher_empty : careful_dispatcher_empty)();
    for (uint32_t p = 0; p < DISPATCHER_PLACES; p++) {
        memcpy(sheets + p * DISPATCHER_SHEET_BYTES, text, len < DISPATCHER_SHEET_BYTES ? len : DISPATCHER_SHEET_BYTES);
        lengths[p] = (uint32_t)len;
        codes[p] = p % 6;
    }
    for (uint32_t i = 0; i < jobs || a.word != 1; i++) {
        uint64_t sum = 0;
        if (i < jobs)
            a = (proved ? dispatcher_admit : careful_dispatcher_admit)(a.next, sheets, sizeof sheets, lengths, DISPATCHER_PLACES, codes, DISPATCHER_PLACES, words, DISPATCHER_WORDS);
        else
            a = (proved ? dispatcher_turn : careful_dispatcher_turn)(a.next, sheets, sizeof sheets, lengths, DISPATCHER_PLACES, codes, DISPATCHER_PLACES, words, DISPATCHER_WORDS, trace, sizeof trace);
        for (size_t k = 0; k < DISPATCHER_WORDS; k++) sum = 31 * sum + words[k];
        for (size_t k = 0; k < sizeof trace; k++) sum = 31 * sum + trace[k];
        printf("%u %u %u, %u %u %u %u, %llu\n", a.word, a.one, a.two, a.answer.word, a.answer.one, a.answer.two, a.answer.three, (unsigned long long)sum);
    }
}

/* Two taps, once: the answer, and a sum of the whole output. */
static void tap(int proved) {
    static uint64_t scratch[CHANNEL_CHECK_SCRATCH_WORDS];
    static uint16_t output[TAPS_CHECK_OUTPUT_NUMBERS];
    taps_check_answer a = (proved ? taps_check : careful_taps_check)((const uint8_t *)text, len, scratch, CHANNEL_CHECK_SCRATCH_WORDS, first, first_len, second, second_len, output, TAPS_CHECK_OUTPUT_NUMBERS);
    unsigned sum = 0;
    for (size_t i = 0; i < TAPS_CHECK_OUTPUT_NUMBERS; i++) sum = 31 * sum + output[i];
    printf("tapped: %u %u %u, output %u\n", a.word, a.one, a.two, sum);
}

/* The calls that are given a channel. The check is always made: others take its steps. */
static void on_channel(int proved, uint32_t code) {
    if (only && strcmp(only, "empty") == 0) replay_nothing(proved, code);
    else run(proved, code);
    if (is_asked("permitted_check")) permit(proved, code);
    if (is_asked("sheet_races")) list(proved, code);
    if (is_asked("rounds_check")) repeat(proved, code);
}

int main(int argc, char **argv) {
    uint32_t from = 0, to = 6;
    if (argc < 4) return 2;
    for (size_t i = 0; i < sizeof sheets / sizeof *sheets; i++)
        if (strcmp(argv[2], sheets[i].name) == 0) sheets[i].make(atoi(argv[3]));
    if (len == 0) return 2;
    if (strcmp(argv[1], "text") == 0) return fwrite(text, 1, len, stdout) != len;
    int proved = strcmp(argv[1], "proved") == 0;
    if (argc > 5 && strcmp(argv[4], "counter") == 0) return counter(proved, (uint32_t)atoi(argv[5])), 0;
    for (int i = 4; i < argc; i++)
        if (isdigit((unsigned char)*argv[i])) from = (uint32_t)atoi(argv[i]), to = from + 1;
        else only = argv[i];
    partition();
    for (uint32_t code = from; code < to; code++) on_channel(proved, code);
    if (is_asked("cure_sheet")) cure(proved);
    if (is_asked("senders_check")) judge_table(proved);
    if (is_asked("taps_check")) tap(proved);
    if (is_asked("sheet_messages")) tell_messages(proved);
    return 0;
}
