/* The C face, called on every kind of answer with a guard page right behind each buffer: the answer, and the bytes of trace
 * and scratch, on all eleven refusals and both words, with exact and larger buffers, odd codes and empty text; trace_check on
 * every word and on traces of every length up to two beyond the limit; choice_check on every word, with lists of every length; the
 * monitor; cure_sheet on every refusal, with texts of 512 rows and one row more; the dispatcher's calls; senders_check on every word, and
 * permitted_check on each refusal, in its order; taps_check on every word and refusal, with lists of many lengths; and what a sheet holds,
 * with outputs of many lengths; and rounds_check, with the limits over two walks. The header's enumerators have the numbers that all of this is written in, and the header, the archive and
 * the file VERSION are of one version. */
#define _GNU_SOURCE
#include "../include/channel_check.h"
#include "../include/channel_check_words.h"
/* VERSION_NUMBER is the file VERSION, as one number */
#if CHANNEL_CHECK_VERSION != VERSION_NUMBER
#error "the header is not of the version that the file VERSION says"
#endif
#include <stdio.h>
#include <stdlib.h>
#include <string.h>
#include <strings.h>
#include <sys/mman.h>
#include <unistd.h>

#define H "kind one two\n"
#define NUMBER_OVER "512" /* one over the largest number of a field */
enum { WORDS = CHANNEL_CHECK_SCRATCH_WORDS, BYTES = CHANNEL_CHECK_TRACE_BYTES, PAINT = 0xa5, CODES = 6 };
enum { MESSAGES = BYTES / 6, EVENTS = 2 * MESSAGES, LAST = EVENTS - 1 };

static int failures, calls;
static int seen[3][12]; /* by word, and by refusal */

/* ------------------------------------------------------------------ buffers */

typedef struct { uint8_t *from, *at, *guard; size_t page; } buffer;

/* size bytes that end where a page that cannot be touched begins; they, and what stands ahead of them, are painted */
static buffer lend(size_t size) {
    size_t page = (size_t)sysconf(_SC_PAGESIZE), room = (size / page + 2) * page;
    uint8_t *from = mmap(NULL, room + page, PROT_READ | PROT_WRITE, MAP_PRIVATE | MAP_ANONYMOUS, -1, 0);
    if (from == MAP_FAILED || mprotect(from + room, page, PROT_NONE) != 0) {
        perror("guard page");
        exit(2);
    }
    memset(from, PAINT, room);
    return (buffer){from, from + room - size, from + room, page};
}

static void give_back(buffer b) { munmap(b.from, (size_t)(b.guard - b.from) + b.page); }

static int painted(const uint8_t *from, const uint8_t *to) {
    while (from < to && *from == PAINT) from++;
    return from == to;
}

static int zero(const uint8_t *from, const uint8_t *to) {
    while (from < to && *from == 0) from++;
    return from == to;
}

/* ------------------------------------------------------------------ one call */

typedef struct { const char *name; const char *text; size_t len; } sheet;

static void expect(int holds, sheet s, uint32_t code, const char *what) {
    if (holds) return;
    printf("FAILED: %s, code %u: %s\n", s.name, code, what);
    failures++;
}

/* what a call that may write steps, or a sheet, leaves: those bytes, its scratch, untouched on refusals 1 and 2, and the text; all are
 * given back */
static void left(sheet s, uint32_t code, buffer text, buffer scratch, buffer output, int untouched, const void *bytes, size_t written) {
    size_t cleared = untouched ? 0 : 8 * (size_t)WORDS;
    expect(memcmp(output.at, bytes, written) == 0, s, code, "bytes written");
    expect(painted(output.at + written, output.guard), s, code, "bytes behind those written");
    expect(zero(scratch.at, scratch.at + cleared), s, code, "scratch words not zero");
    expect(painted(scratch.at + cleared, scratch.guard), s, code, "scratch words touched");
    expect(painted(scratch.from, scratch.at) && painted(output.from, output.at), s, code, "bytes ahead of a buffer");
    expect(memcmp(text.at, s.text, s.len) == 0 && painted(text.from, text.at), s, code, "the text was written to");
    give_back(text), give_back(scratch), give_back(output);
}

static void call(sheet s, uint32_t code, size_t words, size_t bytes, channel_check_answer e, const void *steps) {
    buffer text = lend(s.len), scratch = lend(words * 8), trace = lend(bytes);
    memcpy(text.at, s.text, s.len);
    channel_check_answer a = channel_check(text.at, s.len, code, (uint64_t *)scratch.at, words, trace.at, bytes);
    calls++;
    if (a.word < 3) seen[a.word][a.word == 2 && a.one < 12 ? a.one : 0]++;
    if (a.word != e.word || a.one != e.one || a.two != e.two || a.three != e.three)
        printf("  expected %u %u %u %u, got %u %u %u %u\n", e.word, e.one, e.two, e.three, a.word, a.one, a.two, a.three);
    expect(a.word == e.word && a.one == e.one && a.two == e.two && a.three == e.three, s, code, "answer");
    left(s, code, text, scratch, trace, e.word == 2 && e.one <= 2, steps, e.word == 1 ? 2 * (size_t)e.three : 0);
}

static void exact_and_larger(sheet s, uint32_t code, channel_check_answer e, const void *steps) {
    call(s, code, WORDS, BYTES, e, steps);
    call(s, code, WORDS + 3, BYTES + 5, e, steps);
    call(s, code, WORDS, 2 * BYTES, e, steps);
    call(s, code, WORDS + 1, BYTES, e, steps);
    call(s, code, 2 * WORDS, BYTES, e, steps);
}

static sheet named(const char *name, const char *text) { return (sheet){name, text, strlen(text)}; }

static void is_free(sheet s, const char *codes) {
    for (; *codes; codes++) exact_and_larger(s, (uint32_t)(*codes - '0'), (channel_check_answer){0, 0, 0, 0}, "");
}

static void is_locked(sheet s, const char *codes, uint32_t e, uint32_t x, uint32_t count, const void *steps) {
    for (; *codes; codes++) exact_and_larger(s, (uint32_t)(*codes - '0'), (channel_check_answer){1, e, x, count}, steps);
}

static void is_refused(sheet s, uint32_t number, uint32_t line) {
    for (uint32_t code = 0; code < CODES; code++) exact_and_larger(s, code, (channel_check_answer){2, number, line, 0}, "");
}

/* ------------------------------------------------------------------ sheets made by repeating a line */

static char made[16384];

static void begin(const char *head) { strcpy(made, head); }
static void repeat(const char *line, int times) { while (times-- > 0) strcat(made, line); }
static void order(int x, int y) { sprintf(made + strlen(made), "P %d %d\n", x, y); }

/* ------------------------------------------------------------------ free and locked */

/* all messages but two on a board of their own, then two that race: send and deliver the last, all of the others, send the first */
static void longest(void) {
    uint8_t steps[BYTES], *at = steps;
    begin(H "S 0 0\n");
    repeat("M 3 3\n", MESSAGES - 2);
    repeat("M 0 1\nM 2 1\n", 1);
    order(LAST - 2, LAST);
    *at++ = 0, *at++ = MESSAGES - 1, *at++ = 1, *at++ = MESSAGES - 1;
    for (int m = 0; m < MESSAGES - 2; m++)
        for (uint8_t kind = 0; kind < 3; kind++) *at++ = kind, *at++ = (uint8_t)m;
    *at++ = 0, *at++ = MESSAGES - 2;
    is_locked(named("a long trace", made), "0245", MESSAGES - 1, LAST - 2, 3 * MESSAGES - 3, steps);
    is_free(named("a long trace", made), "13");
}

static void words(void) {
    is_free(named("sheet 1", H "S 0 0\n"), "012345");
    sheet two = named("sheet 2", H "S 0 0\nM 0 1\nM 2 1\nP 1 3\n");
    is_locked(two, "0245", 1, 1, 3, "\0\1\1\1\0\0");
    is_free(two, "13");
    sheet three = named("sheet 3", H "S 0 0\nM 0 1\nM 0 1\nP 0 2\nP 1 3\n");
    is_locked(three, "0", 1, 1, 3, "\0\0\0\1\1\1");
    is_free(three, "12345");
    sheet seven = named("sheet 7", H "S 0 0\nM 0 2\nM 0 1\nM 1 2\nP 0 2\nP 3 4\nP 1 5\n");
    is_locked(seven, "0", 2, 1, 6, "\0\0\0\1\1\1\2\1\0\2\1\2");
    is_free(seven, "12345");
    is_free(named("sheet 6", H "S 0 0\nM 3 3\n"), "012345");
    is_locked(named("columns in another order", "two kind one\n0 S 0\n1 M 0\n2 M 1\n1 P 2\n"), "0245", 0, 2, 2, "\0\0\1\0");
    longest();
}

/* accepted at a limit: the neighbours past it are among the refusals */
static void limits(void) {
    begin(H "S 0 0\n");
    repeat("B 0 0\n", 511);
    is_free(named("512 rows", made), "012345");
    begin(H "S 31 0\nM 15 15\nS 0 0\nC 31 0\n");
    repeat("M 0 1\n", MESSAGES - 1);
    is_free(named("sheet 31, board 15, the most messages", made), "012345");
    begin(H "S 0 0\n");
    repeat("M 0 1\n", MESSAGES);
    order(LAST - 2, LAST);
    is_free(named("the last event, lazy", made), "13");
    begin(H "S 0 0\n");
    repeat("C 1 0\n", 31);
    repeat("C 2 0\nS 1 0\n", 1);
    repeat("C 2 0\n", 32);
    repeat("S 2 0\n", 1);
    is_free(named("1,024 calls", made), "012345");
    is_free(named("level 8", H "S 0 0\nC 1 0\nS 1 0\nC 2 0\nS 2 0\nC 3 0\nS 3 0\nC 4 0\nS 4 0\nC 5 0\nS 5 0\nC 6 0\nS 6 0\nC 7 0\nS 7 0\nC 8 0\nS 8 0\nM 0 1\n"), "012345");
}

/* ------------------------------------------------------------------ refusals */

static const struct { const char *name, *text; uint32_t number, line; } refused[] = {
    {"3 empty", "", 3, 0},
    {"4 a name twice", "kind one one\nS 0 0\n", 4, 1},
    {"4 another name", "kind one too\nS 0 0\n", 4, 1},
    {"4 two spaces", "kind  one two\nS 0 0\n", 4, 1},
    {"4 a fourth name", "kind one two two\nS 0 0\n", 4, 1},
    {"4 without its end", "kind one two", 4, 1},
    {"4 empty line", "\n", 4, 1},
    {"5 leading zero", H "S 0 0\nM 0 01\n", 5, 3},
    {"5 a number too large", H "S 0 0\nM " NUMBER_OVER " 0\n", 5, 3},
    {"5 no digit", H "S 0 0\nM 0 -1\n", 5, 3},
    {"5 empty field", H "S 0 0\nM 0 \n", 5, 3},
    {"5 fourth field", H "S 0 0\nM 0 1 0\n", 5, 3},
    {"5 two fields", H "S 0 0\nM 0\n", 5, 3},
    {"5 letter", H "S 0 0\nA 0 0\n", 5, 3},
    {"5 small letter", H "S 0 0\nm 0 1\n", 5, 3},
    {"5 two letters", H "S 0 0\nMM 0 1\n", 5, 3},
    {"5 unused field of S", H "S 0 1\n", 5, 2},
    {"5 unused field of B", H "S 0 0\nB 1 0\n", 5, 3},
    {"5 unused field of C", H "S 0 0\nC 0 1\n", 5, 3},
    {"5 no line end", H "S 0 0\nM 0 1", 5, 3},
    {"5 an empty row", H "S 0 0\n\n", 5, 3},
    {"5 ahead of 6 on a row", H "M 16 " NUMBER_OVER "\n", 5, 2},
    {"6 on a row ahead of 5 behind", H "M 0 1\nX\n", 6, 2},
    {"6 message before S", H "M 0 1\nS 0 0\n", 6, 2},
    {"6 block before S", H "B 0 0\nS 0 0\n", 6, 2},
    {"6 call before S", H "C 0 0\nS 0 0\n", 6, 2},
    {"6 sheet over 31", H "S 32 0\n", 6, 2},
    {"6 sheet opened twice", H "S 0 0\nS 1 0\nS 0 0\n", 6, 4},
    {"6 call over 31", H "S 0 0\nC 32 0\n", 6, 3},
    {"6 source over 15", H "S 0 0\nM 16 0\n", 6, 3},
    {"6 target over 15", H "S 0 0\nM 0 16\n", 6, 3},
    {"6 P on two boards", H "S 0 0\nM 0 1\nP 0 1\n", 6, 4},
    {"6 P of one event", H "S 0 0\nM 0 0\nP 1 1\n", 6, 4},
    {"6 P of an event not there", H "S 0 0\nM 0 0\nP 0 2\n", 6, 4},
    {"6 P of another block", H "S 0 0\nM 0 0\nB 0 0\nP 0 1\n", 6, 5},
    {"7 no sheet 0", H "S 1 0\nC 2 0\n", 7, 0},
    {"7 no sheet at all", H, 7, 0},
    {"7 the first absent call", H "S 0 0\nS 1 0\nC 9 0\nC 8 0\n", 7, 4},
    {"8 depth", H "S 0 0\nC 0 0\n", 8, 3},
    {"8 ahead of 10", H "S 0 0\nM 0 0\nC 0 0\n", 8, 4},
    {"11 circle", H "S 0 0\nM 0 1\nM 1 0\nP 1 2\nP 3 0\n", 11, 6},
    {"11 circle of two rows", H "S 0 0\nM 0 1\nM 0 1\nP 0 2\nP 2 0\n", 11, 6},
    {"11 circle of a message to its own board", H "S 0 0\nM 0 0\nP 1 0\n", 11, 4},
    {"11 in a sheet that nobody calls", H "S 0 0\nS 1 0\nM 0 0\nB 0 0\nM 0 0\nP 1 0\n", 11, 7},
    {"11 at the first row of two", H "S 0 0\nM 0 0\nP 1 0\nP 1 0\n", 11, 4},
    {"6 ahead of 11 on one row", H "S 0 0\nM 0 1\nP 1 0\n", 6, 4},
    {"6 ahead of 11 behind", H "S 0 0\nM 0 0\nM 16 0\nP 1 0\n", 6, 4},
    {"11 ahead of 5 behind", H "S 0 0\nM 0 0\nP 1 0\nX\n", 11, 4},
    {"11 ahead of 7", H "S 1 0\nM 0 0\nP 1 0\n", 11, 4},
    {"11 ahead of 8", H "S 0 0\nC 0 0\nS 1 0\nM 0 0\nP 1 0\n", 11, 6},
};

/* the call at level 8 is call 1,025 too; with one call more ahead of it, the one that leads to level 8 is */
static void depth_and_calls(int more, uint32_t number, uint32_t line) {
    begin(H "S 0 0\nC 31 0\n");
    repeat("C 29 0\n", more);
    repeat("C 1 0\nS 31 0\n", 1);
    repeat("C 30 0\n", 35);
    repeat("S 30 0\n", 1);
    repeat("C 29 0\n", 28);
    repeat("S 29 0\nS 1 0\nC 2 0\nS 2 0\nC 3 0\nS 3 0\nC 4 0\nS 4 0\nC 5 0\nS 5 0\nC 6 0\nS 6 0\nC 7 0\nS 7 0\nC 8 0\nS 8 0\nC 9 0\nS 9 0\n", 1);
    is_refused(named("8 and 9", made), number, line);
}

static void at_lengths(void) {
    begin(H "S 0 0\n");
    repeat("B 0 0\n", 1362);
    repeat("\n", 1);
    is_refused((sheet){"8,192 bytes are read", made, 8192}, 5, 514);
    is_refused((sheet){"3 length 8,193", strcat(made, "\n"), 8193}, 3, 0);
    begin(H "S 0 0\n");
    repeat("B 0 0\n", 512);
    is_refused(named("5 row 513", made), 5, 514);
    begin(H "S 0 0\n");
    repeat("M 0 1\n", MESSAGES + 1);
    is_refused(named("6 a message too many", made), 6, MESSAGES + 3);
    begin(H "S 0 0\n");
    repeat("C 1 0\n", 32);
    repeat("S 1 0\n", 1);
    repeat("C 2 0\n", 32);
    repeat("S 2 0\n", 1);
    is_refused(named("9 calls", made), 9, 36);
    begin(H "S 0 0\nC 1 0\nC 1 0\nM 0 0\nS 1 0\n");
    repeat("M 0 1\n", MESSAGES / 2);
    is_refused(named("10 messages", made), 10, 5);
    depth_and_calls(0, 8, 86);
    depth_and_calls(1, 9, 85);
}

static void refusals(void) {
    static const uint32_t odd[] = {6, 255, UINT32_MAX};
    sheet one = named("1 channel", H "S 0 0\n"), none = {"nothing lent", "", 0}, two = named("2 bench", H "S 0 0\nM 0 1\nM 2 1\nP 1 3\n");
    channel_check_answer channel = {2, 1, 0, 0}, bench = {2, 2, 0, 0};
    for (int i = 0; i < 3; i++) {
        exact_and_larger(one, odd[i], channel, "");
        call(none, odd[i], 0, 0, channel, "");
    }
    for (uint32_t code = 0; code < CODES; code++) {
        call(two, code, WORDS - 1, BYTES, bench, "");
        call(two, code, WORDS, BYTES - 1, bench, "");
        call(two, code, WORDS + 9, 0, bench, "");
        call(two, code, 0, BYTES + 9, bench, "");
        call(none, code, 0, 0, bench, "");
    }
    for (size_t i = 0; i < sizeof refused / sizeof *refused; i++) is_refused(named(refused[i].name, refused[i].text), refused[i].number, refused[i].line);
    at_lengths();
}

/* ------------------------------------------------------------------ trace_check */

static int trace_words[5];

#define TRACE(w, o, t) ((trace_check_answer){.word = w, .one = o, .two = t})

/* one call, with a guard page behind text, scratch and trace */
static void replay(sheet s, uint32_t code, size_t words, const void *steps, size_t bytes, trace_check_answer e) {
    buffer text = lend(s.len), scratch = lend(words * 8), trace = lend(bytes);
    memcpy(text.at, s.text, s.len);
    memcpy(trace.at, steps, bytes);
    trace_check_answer a = trace_check(text.at, s.len, code, (uint64_t *)scratch.at, words, trace.at, bytes);
    calls++;
    if (a.word < 5) trace_words[a.word]++;
    if (a.word != e.word || a.one != e.one || a.two != e.two)
        printf("  expected %u %u %u, got %u %u %u (%zu bytes)\n", e.word, e.one, e.two, a.word, a.one, a.two, bytes);
    expect(a.word == e.word && a.one == e.one && a.two == e.two, s, code, "trace verdict");
    for (int b = 0; b < TRACE_CHECK_BOARDS; b++) /* of these traces one alone is stuck: board 1 waits for event 1 */
        expect(a.waits[b] == (e.word == 1 && b == 1 ? 1 : TRACE_CHECK_NO_WAIT), s, code, "what a board waits for");
    size_t cleared = e.word == 4 && e.one <= 2 ? 0 : 8 * (size_t)WORDS;
    expect(zero(scratch.at, scratch.at + cleared) && painted(scratch.at + cleared, scratch.guard), s, code, "scratch behind a trace");
    expect(painted(scratch.from, scratch.at) && painted(trace.from, trace.at), s, code, "bytes ahead of a buffer");
    expect(memcmp(trace.at, steps, bytes) == 0 && memcmp(text.at, s.text, s.len) == 0, s, code, "what was lent to be read was written to");
    give_back(text), give_back(scratch), give_back(trace);
}

/* each message sent, delivered and consumed before the next: the longest trace there is, short of a step, of a byte, whole, and a step too long */
static void longest_traces(void) {
    static uint8_t steps[BYTES + 2];
    begin(H "S 0 0\n");
    repeat("M 0 1\n", MESSAGES);
    sheet all = named("the most messages", made);
    for (int i = 0; i < 3 * MESSAGES; i++) steps[2 * i] = (uint8_t)(i % 3), steps[2 * i + 1] = (uint8_t)(i / 3);
    for (uint32_t code = 0; code < CODES; code++) {
        replay(all, code, WORDS, steps, BYTES - 2, TRACE(2, 0, 0));
        replay(all, code, WORDS, steps, BYTES - 1, TRACE(4, 12, 0));
        replay(all, code, WORDS, steps, BYTES, TRACE(0, 0, 0));
        replay(all, code, WORDS, steps, BYTES + 2, TRACE(4, 12, 0));
    }
}

static void traces(void) {
    static uint8_t wrong[BYTES + 2];
    sheet one = named("sheet 1", H "S 0 0\n"), two = named("sheet 2", H "S 0 0\nM 0 1\nM 2 1\nP 1 3\n");
    replay(one, 0, WORDS, "", 0, TRACE(0, 0, 0));
    replay(two, 0, WORDS, "", 0, TRACE(2, 0, 0));
    replay(two, 0, WORDS, "\0\1\1\1\0\0", 6, TRACE(1, 0, 0));
    replay(two, 1, WORDS, "\0\1\1\1\0\0", 6, TRACE(2, 0, 0));
    replay(two, 0, WORDS, "\0\0\1\0\2\0\0\1\1\1\2\1", 12, TRACE(0, 0, 0));
    replay(two, 0, WORDS, "\0\0\1\0\2\0\0\1\1\1\2\1\2\1", 14, TRACE(3, 6, 0));
    replay(two, 0, WORDS, "\0\0\1\0\1\1", 6, TRACE(3, 2, 0));
    replay(two, 0, WORDS, "\0\2", 2, TRACE(3, 0, 0));
    replay(two, 6, WORDS, "\0", 1, TRACE(4, 1, 0));
    replay(two, 0, WORDS - 1, "\0", 1, TRACE(4, 2, 0));
    replay(two, 0, WORDS + 3, "\0", 1, TRACE(4, 12, 0));
    replay(named("no sheet", ""), 0, WORDS, "\0\0", 2, TRACE(4, 3, 0));
    memset(wrong, 3, sizeof wrong);
    for (size_t n = 1; n <= BYTES + 2; n++) {
        trace_check_answer refusal = TRACE(4, 12, 0), first = TRACE(3, 0, 0);
        replay(two, 0, WORDS, wrong, n, n % 2 || n > BYTES ? refusal : first);
    }
    longest_traces();
    for (int w = 0; w < 5; w++)
        if (!trace_words[w]) printf("FAILED: trace_check never said %d\n", w), failures++;
}

/* ------------------------------------------------------------------ choice_check */

static int choice_words[3];

/* one call, with a guard page behind text, scratch and trace */
static void choose(sheet s, uint32_t code, size_t words, size_t bytes, choice_check_answer e, const void *steps) {
    buffer text = lend(s.len), scratch = lend(words * 8), trace = lend(bytes);
    memcpy(text.at, s.text, s.len);
    choice_check_answer a = choice_check(text.at, s.len, code, (uint64_t *)scratch.at, words, trace.at, bytes);
    calls++;
    if (a.word < 3) choice_words[a.word]++;
    if (memcmp(&a, &e, sizeof a) != 0)
        printf("  expected %u %u %u %u, list %u %u; got %u %u %u %u, list %u %u\n", e.word, e.one, e.two, e.three, e.length, e.choices, a.word, a.one, a.two, a.three, a.length, a.choices);
    expect(memcmp(&a, &e, sizeof a) == 0, s, code, "answer over the lists");
    left(s, code, text, scratch, trace, e.word == 2 && e.one <= 2, steps, e.word == 1 ? 2 * (size_t)e.three : 0);
}

static void chosen(sheet s, uint32_t code, choice_check_answer e, const void *steps) {
    choose(s, code, WORDS, BYTES, e, steps);
    choose(s, code, WORDS + 3, BYTES + 5, e, steps);
}

/* sheet 1 is free and sheet 2 locked: with n A rows, all but the last taking sheet 1, the last one decides first that locks */
static void last_of(int n) {
    uint8_t steps[6] = {0, 1, 1, 1, 0, 0};
    begin(H "S 0 0\n");
    repeat("A 1 2\n", n);
    repeat("S 1 0\nS 2 0\nM 0 1\nM 2 1\nP 1 3\n", 1);
    chosen(named("the last A row locks", made), 0, (choice_check_answer){1, 1, 1, 3, (uint32_t)n, UINT32_C(1) << (n - 1)}, steps);
    chosen(named("the last A row, lazy", made), 1, (choice_check_answer){0, 0, 0, 0, 0, 0}, "");
}

#define LOCKED "M 0 1\nM 2 1\nP 1 3\n"

static void choices(void) {
    const choice_check_answer is_free = {0, 0, 0, 0, 0, 0};
    for (int n = 1; n <= 8; n++) last_of(n);
    chosen(named("no A row, free", H "S 0 0\n"), 0, is_free, "");
    chosen(named("no A row, locked", H "S 0 0\n" LOCKED), 0, (choice_check_answer){1, 1, 1, 3, 0, 0}, "\0\1\1\1\0\0");
    chosen(named("m locks", H "S 0 0\nA 1 2\nS 1 0\n" LOCKED "S 2 0\n"), 0, (choice_check_answer){1, 1, 1, 3, 1, 0}, "\0\1\1\1\0\0");
    chosen(named("one row met twice", H "S 0 0\nC 3 0\nC 3 0\nS 3 0\nA 1 2\nS 1 0\nS 2 0\n" LOCKED), 0, (choice_check_answer){1, 1, 1, 3, 2, 2}, "\0\1\1\1\0\0");
    chosen(named("a list that is shorter", H "S 0 0\nA 1 2\nS 1 0\nA 2 3\nS 2 0\nS 3 0\n" LOCKED), 0, (choice_check_answer){1, 1, 1, 3, 2, 2}, "\0\1\1\1\0\0");
    begin(H "S 0 0\n");
    repeat("A 1 1\n", 9);
    repeat("S 1 0\n", 1);
    chosen(named("13 ninth A row", made), 0, (choice_check_answer){2, 13, 11, 0, 0, 0}, "");
    chosen(named("13 in a later list, ahead of a lock", H "S 0 0\nA 1 2\nS 1 0\n" LOCKED "S 2 0\nA 3 3\nA 3 3\nA 3 3\nA 3 3\nA 3 3\nA 3 3\nA 3 3\nA 3 3\nS 3 0\n"), 0,
           (choice_check_answer){2, 13, 16, 0, 0, 0}, "");
    chosen(named("8 ahead of a lock", H "S 0 0\nA 1 2\nS 1 0\n" LOCKED "S 2 0\nC 2 0\n"), 0, (choice_check_answer){2, 8, 9, 0, 0, 0}, "");
    chosen(named("8 ahead of 13", H "S 0 0\nA 0 0\n"), 0, (choice_check_answer){2, 8, 3, 0, 0, 0}, "");
    chosen(named("6 before any S", H "A 0 0\nS 0 0\n"), 0, (choice_check_answer){2, 6, 2, 0, 0, 0}, "");
    chosen(named("6 m over 31", H "S 0 0\nA 32 0\n"), 0, (choice_check_answer){2, 6, 3, 0, 0, 0}, "");
    chosen(named("6 n over 31", H "S 0 0\nA 0 32\n"), 0, (choice_check_answer){2, 6, 3, 0, 0, 0}, "");
    chosen(named("7 m absent", H "S 0 0\nA 1 2\nS 2 0\n"), 0, (choice_check_answer){2, 7, 3, 0, 0, 0}, "");
    chosen(named("7 n absent", H "S 0 0\nA 1 2\nS 1 0\n"), 0, (choice_check_answer){2, 7, 3, 0, 0, 0}, "");
    chosen(named("1", H "S 0 0\nA 1 2\n"), 6, (choice_check_answer){2, 1, 0, 0, 0, 0}, "");
    choose(named("2 scratch", H "S 0 0\n"), 0, WORDS - 1, BYTES, (choice_check_answer){2, 2, 0, 0, 0, 0}, "");
    choose(named("2 trace", H "S 0 0\n"), 0, WORDS, BYTES - 1, (choice_check_answer){2, 2, 0, 0, 0, 0}, "");
    chosen(named("3", ""), 0, (choice_check_answer){2, 3, 0, 0, 0, 0}, "");
    is_refused(named("5 an A row for the check", H "S 0 0\nA 0 0\n"), 5, 3);
    replay(named("5 an A row for the trace check", H "S 0 0\nA 0 0\n"), 0, WORDS, "", 0, TRACE(4, 5, 3));
    for (int w = 0; w < 3; w++)
        if (!choice_words[w]) printf("FAILED: choice_check never said %d\n", w), failures++;
}

/* ------------------------------------------------------------------ the monitor */

static int monitor_words[3][3]; /* by call and word */

/* what every call of the monitor promises of its buffers; the answer's numbers, and the monitor handed back */
static monitor_answer watch(sheet s, int which, monitor m, uint32_t code, uint32_t kind, uint32_t message, size_t words, uint32_t e[3]) {
    buffer text = lend(s.len), scratch = lend(words * 8);
    memcpy(text.at, s.text, s.len);
    uint64_t *w = (uint64_t *)scratch.at;
    monitor_answer a = which == 0   ? monitor_open(text.at, s.len, code, w, words)
                       : which == 1 ? monitor_step(m, kind, message, text.at, s.len, w, words)
                                    : monitor_switch(m, code, text.at, s.len, w, words);
    calls++;
    if (a.word < 3) monitor_words[which][a.word]++;
    if (a.word != e[0] || a.one != e[1] || a.two != e[2])
        printf("  expected %u %u %u, got %u %u %u (call %d, %u %u)\n", e[0], e[1], e[2], a.word, a.one, a.two, which, kind, message);
    expect(a.word == e[0] && a.one == e[1] && a.two == e[2], s, code, "monitor's answer");
    size_t cleared = e[0] == 2 && e[1] <= 2 ? 0 : 8 * (size_t)WORDS;
    expect(zero(scratch.at, scratch.at + cleared) && painted(scratch.at + cleared, scratch.guard), s, code, "scratch behind a monitor's call");
    expect(painted(scratch.from, scratch.at), s, code, "bytes ahead of a buffer");
    expect(memcmp(text.at, s.text, s.len) == 0 && painted(text.from, text.at), s, code, "the text was written to");
    static const monitor zeros;
    const monitor *back = which == 0 ? &zeros : &m;
    if (a.word != 0) expect(memcmp(&a.next, back, offsetof(monitor, code) + sizeof a.next.code) == 0, s, code, "the monitor handed back");
    give_back(text), give_back(scratch);
    return a;
}

#define SAYS(...) ((uint32_t[3]){__VA_ARGS__})

static int standing_words[4];

/* where a run stands; board 1 is the one that waits, for the event, if any does */
static void stands(sheet s, monitor m, size_t words, uint32_t e[3], uint16_t event) {
    buffer text = lend(s.len), scratch = lend(words * 8);
    memcpy(text.at, s.text, s.len);
    monitor_standing_answer a = monitor_standing(m, text.at, s.len, (uint64_t *)scratch.at, words);
    calls++;
    if (a.word < 4) standing_words[a.word]++;
    expect(a.word == e[0] && a.one == e[1] && a.two == e[2], s, m.code, "where a run stands");
    for (int b = 0; b < CHANNEL_CHECK_BOARDS; b++) expect(a.waits[b] == (b == 1 ? event : TRACE_CHECK_NO_WAIT), s, m.code, "what a board waits for");
    left(s, m.code, text, scratch, lend(0), e[0] == 3 && e[1] <= 2, NULL, 0);
}

static monitor opened(sheet s, uint32_t code) { return watch(s, 0, (monitor){0}, code, 0, 0, WORDS, SAYS(0, 0, 0)).next; }

/* a step that is taken */
static monitor on(sheet s, monitor m, uint32_t kind, uint32_t message) { return watch(s, 1, m, 0, kind, message, WORDS + 3, SAYS(0, 0, 0)).next; }

static void monitors(void) {
    sheet two = named("sheet 2", H "S 0 0\nM 0 1\nM 2 1\nP 1 3\n"), none = named("no sheet", ""), wrong = named("a row that is none", H "S 0 0\nX\n");
    monitor m = opened(two, 0), forged = {.code = 6};
    expect(m.code == 0 && m.done[0] == 0 && m.way[0] == 0, two, 0, "opened");
    watch(two, 1, m, 0, 1, 0, WORDS, SAYS(1, 0, 0)); /* not under way */
    watch(two, 1, m, 0, 3, 0, WORDS, SAYS(1, 0, 0));
    watch(two, 1, m, 0, 0, 2, WORDS, SAYS(1, 0, 0));
    watch(two, 1, m, 0, UINT32_MAX, UINT32_MAX, WORDS, SAYS(1, 0, 0));
    m = on(two, m, 0, 1);
    expect(m.done[0] == 4 && m.way[0] == 4, two, 0, "sent");
    m = on(two, m, 1, 1);
    expect(m.way[0] == 0 && m.buffers[1].held[0] == 4, two, 0, "delivered");
    stands(two, m, WORDS, SAYS(2, 0, 0), TRACE_CHECK_NO_WAIT);
    m = on(two, m, 0, 0);
    watch(two, 1, m, 0, 1, 0, WORDS, SAYS(1, 0, 0)); /* board 1 holds message 1 */
    stands(two, m, WORDS + 3, SAYS(1, 0, 0), 1);
    stands(two, m, WORDS - 1, SAYS(3, 2, 0), TRACE_CHECK_NO_WAIT);
    stands(none, m, WORDS, SAYS(3, 3, 0), TRACE_CHECK_NO_WAIT);
    stands(wrong, m, WORDS, SAYS(3, 5, 3), TRACE_CHECK_NO_WAIT);
    stands(two, forged, WORDS, SAYS(3, 1, 0), TRACE_CHECK_NO_WAIT);
    stands(named("no message", H "S 0 0\n"), opened(two, 0), WORDS, SAYS(0, 0, 0), TRACE_CHECK_NO_WAIT);
    m = watch(two, 2, m, 1, 0, 0, WORDS, SAYS(0, 0, 0)).next;
    expect(m.code == 1 && m.done[0] == 5 && m.way[0] == 1 && m.buffers[1].held[0] == 4, two, 1, "switched");
    m = on(two, m, 1, 0); /* the lazy board takes it too */
    watch(two, 2, m, 0, 0, 0, WORDS, SAYS(2, 14, 0));
    watch(two, 2, m, 5, 0, 0, WORDS, SAYS(2, 14, 0));
    watch(two, 2, m, 3, 0, 0, WORDS, SAYS(0, 0, 0));
    watch(two, 2, m, 6, 0, 0, WORDS, SAYS(2, 1, 0));
    watch(two, 2, m, 0, 0, 0, WORDS - 1, SAYS(2, 2, 0));
    watch(none, 2, m, 0, 0, 0, WORDS, SAYS(2, 3, 0)); /* ahead of 14 */
    watch(wrong, 2, m, 0, 0, 0, WORDS, SAYS(2, 5, 3));
    m = on(two, on(two, m, 2, 0), 2, 1);
    expect(m.done[0] == 15 && m.buffers[1].held[0] == 0, two, 1, "finished");
    m = on(two, on(two, opened(two, 3), 0, 0), 0, 1);
    watch(two, 2, m, 5, 0, 0, WORDS, SAYS(2, 14, 0)); /* two under way */
    watch(two, 2, m, 4, 0, 0, WORDS, SAYS(0, 0, 0));
    watch(two, 0, m, 6, 0, 0, WORDS, SAYS(2, 1, 0));
    watch(two, 0, m, 0, 0, 0, WORDS - 1, SAYS(2, 2, 0));
    watch(none, 0, m, 5, 0, 0, WORDS, SAYS(2, 3, 0));
    watch(two, 1, forged, 0, 0, 0, WORDS, SAYS(2, 1, 0));
    watch(two, 1, m, 0, 0, 0, WORDS - 1, SAYS(2, 2, 0));
    watch(wrong, 1, m, 0, 0, 0, WORDS + 1, SAYS(2, 5, 3));
    for (int c = 0; c < 3; c++)
        for (int w = 0; w < 3; w++)
            if (!monitor_words[c][w] && !(w == 1 && c != 1)) printf("FAILED: call %d of the monitor never said %d\n", c, w), failures++;
}

/* ------------------------------------------------------------------ cure_sheet */

static int cure_words[2], cure_refused[16];

/* one call, with a guard page behind text, scratch and output; `cured` is the text to be written, where one is */
static void cure(sheet s, size_t words, size_t bytes, cure_sheet_answer e, const char *cured) {
    buffer text = lend(s.len), scratch = lend(words * 8), output = lend(bytes);
    memcpy(text.at, s.text, s.len);
    cure_sheet_answer a = cure_sheet(text.at, s.len, (uint64_t *)scratch.at, words, output.at, bytes);
    calls++;
    if (a.word < 2) cure_words[a.word]++;
    if (a.word == 1 && a.one < 16) cure_refused[a.one]++;
    if (memcmp(&a, &e, sizeof a) != 0) printf("  expected %u %u %u, got %u %u %u\n", e.word, e.one, e.two, a.word, a.one, a.two);
    expect(memcmp(&a, &e, sizeof a) == 0, s, 0, "answer of the cure");
    left(s, 0, text, scratch, output, e.word == 1 && e.one == 2, cured, e.word == 0 ? e.one : 0);
}

enum { OUT = CURE_SHEET_OUTPUT_BYTES };

/* on exact and larger buffers, and on each that is too short */
static void cures_to(sheet s, const char *cured) {
    cure_sheet_answer e = {0, (uint32_t)strlen(cured), 0}, bench = {1, 2, 0};
    cure(s, WORDS, OUT, e, cured);
    cure(s, WORDS + 3, OUT + 5, e, cured);
    cure(s, 2 * WORDS, 2 * OUT, e, cured);
    cure(s, WORDS - 1, OUT, bench, "");
    cure(s, WORDS, OUT - 1, bench, "");
    cure(s, WORDS + 9, 0, bench, "");
    cure(s, 0, OUT + 9, bench, "");
}

static void cure_refuses(sheet s, uint32_t number, uint32_t line) {
    cure(s, WORDS, OUT, (cure_sheet_answer){1, number, line}, "");
    cure(s, WORDS + 3, OUT + 5, (cure_sheet_answer){1, number, line}, "");
    cure(s, WORDS - 1, OUT, (cure_sheet_answer){1, 2, 0}, "");
}

/* 16 receives of board 0, each directly before each of 24 sends of it a block later: 384 P rows. With n messages in all it is n + 385 rows. */
static void rows_at_the_limit(void) {
    static char cured[16384];
    for (int n = 127; n <= 128; n++) {
        begin(H "S 0 0\n");
        repeat("M 1 0\n", 16);
        repeat("B 0 0\n", 1);
        repeat("M 0 1\n", 24);
        repeat("M 15 15\n", n - 40);
        strcpy(cured, H "S 0 0\n");
        for (int m = 0; m < n; m++) strcat(cured, m < 16 ? "M 1 0\n" : m < 40 ? "M 0 1\n" : "M 15 15\n");
        for (int x = 1; x < 32; x += 2)
            for (int y = 32; y < 80; y += 2) sprintf(cured + strlen(cured), "P %d %d\n", x, y);
        if (n == 127) cures_to(named("512 rows to write", made), cured);
        else cure_refuses(named("15 513 rows to write", made), 15, 0);
    }
}

static void cures(void) {
    cures_to(named("no message", H "S 0 0\n"), H "S 0 0\n");
    cures_to(named("sheet 2", H "S 0 0\nM 0 1\nM 2 1\nP 1 3\n"), H "S 0 0\nM 0 1\nM 2 1\n");
    cures_to(named("sheet 3", H "S 0 0\nM 0 1\nM 0 1\nP 0 2\nP 1 3\n"), H "S 0 0\nM 0 1\nM 0 1\nP 0 2\n");
    cures_to(named("free already", H "S 0 0\nM 0 1\nM 1 0\nP 1 2\nP 0 3\n"), H "S 0 0\nM 0 1\nM 1 0\nP 1 2\n");
    cures_to(named("its own board", H "S 0 0\nM 3 3\nP 0 1\n"), H "S 0 0\nM 3 3\n");
    cures_to(named("an order through another board", H "S 0 0\nM 0 2\nM 0 1\nM 1 2\nP 0 2\nP 3 4\nP 1 5\n"), H "S 0 0\nM 0 2\nM 0 1\nM 1 2\nP 0 2\nP 3 4\n");
    cures_to(named("two receives ahead of a send", H "S 0 0\nM 0 1\nM 2 1\nP 1 3\nM 1 0\nP 3 4\n"), H "S 0 0\nM 0 1\nM 2 1\nM 1 0\nP 1 4\nP 3 4\n");
    cures_to(named("by x and then y", H "S 0 0\nM 0 1\nM 0 2\nM 0 3\nP 0 4\nP 0 2\nM 1 0\nP 1 6\n"), H "S 0 0\nM 0 1\nM 0 2\nM 0 3\nM 1 0\nP 0 2\nP 0 4\nP 1 6\n");
    cures_to(named("blocks and a call", "two kind one\n0 S 1\n1 M 0\n0 S 0\n1 M 0\n0 C 1\n1 M 0\n"), H "S 0 0\nM 0 1\nM 0 1\nM 0 1\nP 0 2\nP 2 4\n");
    rows_at_the_limit();
    for (size_t i = 0; i < sizeof refused / sizeof *refused; i++) cure_refuses(named(refused[i].name, refused[i].text), refused[i].number, refused[i].line);
    cure_refuses(named("5 an A row for the cure", H "S 0 0\nA 0 0\n"), 5, 3);
    begin(H "S 0 0\n");
    repeat("B 0 0\n", 1362);
    repeat("\n", 1);
    cure_refuses((sheet){"8,192 bytes are read", made, 8192}, 5, 514);
    cure_refuses((sheet){"3 length 8,193", strcat(made, "\n"), 8193}, 3, 0);
    begin(H "S 0 0\nC 1 0\nC 1 0\nM 0 0\nS 1 0\n");
    repeat("M 0 1\n", MESSAGES / 2);
    cure_refuses(named("10 messages", made), 10, 5);
    begin(H "S 0 0\n");
    repeat("C 1 0\n", 32);
    repeat("S 1 0\n", 1);
    repeat("C 2 0\n", 32);
    repeat("S 2 0\n", 1);
    cure_refuses(named("9 calls", made), 9, 36);
    for (int n = 2; n < 16; n++)
        if (!cure_refused[n] && (n < 12 || n == 15)) printf("FAILED: the cure never refused with %d\n", n), failures++;
    if (!cure_words[0]) printf("FAILED: nothing was cured\n"), failures++;
}

/* ------------------------------------------------------------------ the dispatcher */

enum { ALL_WORDS = DISPATCHER_WORDS, SLOT = DISPATCHER_SHEET_BYTES };

static int words_said[6], refusals_said[18];
static uint64_t kept[ALL_WORDS]; /* the words as the last call left them */

/* which of the places the dispatcher's jobs are in */
static int held(const dispatcher *d, size_t place) {
    for (uint32_t i = 0; i < d->queue.held; i++)
        if (d->queue.jobs[i].place == place) return 1;
    return 0;
}

/* One call, with a guard page behind each slice lent: 0 admit a sheet in a place, 1 turn, 2 cancel a number. Words of free places hold
 * anything ahead of it. */
static dispatcher_answer serve(dispatcher d, int which, uint32_t number, sheet s, uint32_t code, size_t place, size_t words, size_t bytes, uint32_t e[3]) {
    buffer sheets = lend(place * SLOT + s.len), lengths = lend(4 * (place + 1)), codes = lend(4 * (place + 1)), lent = lend(words * 8), trace = lend(bytes);
    uint64_t *w = (uint64_t *)lent.at, *was = malloc(words * 8 + 8);
    uint32_t size = (uint32_t)s.len;
    memcpy(sheets.at + place * SLOT, s.text, s.len);
    memcpy(lengths.at + 4 * place, &size, 4);
    memcpy(codes.at + 4 * place, &code, 4);
    for (size_t p = 0; p < DISPATCHER_PLACES; p++)
        if (held(&d, p) && (p + 1) * WORDS <= words) memcpy(w + p * WORDS, kept + p * WORDS, 8 * WORDS);
    memcpy(was, w, words * 8);
    dispatcher_answer a =
        which == 0   ? dispatcher_admit(d, sheets.at, place * SLOT + s.len, (uint32_t *)lengths.at, place + 1, (uint32_t *)codes.at, place + 1, w, words)
        : which == 1 ? dispatcher_turn(d, sheets.at, place * SLOT + s.len, (uint32_t *)lengths.at, place + 1, (uint32_t *)codes.at, place + 1, w, words, trace.at, bytes)
                     : dispatcher_cancel(d, number, sheets.at, place * SLOT + s.len, (uint32_t *)lengths.at, place + 1, (uint32_t *)codes.at, place + 1, w, words);
    calls++;
    if (a.word < 6) words_said[a.word]++;
    if (a.word == 5 && a.one < 18) refusals_said[a.one]++;
    if (a.word != e[0] || a.one != e[1] || a.two != e[2]) printf("  expected %u %u %u, got %u %u %u (call %d)\n", e[0], e[1], e[2], a.word, a.one, a.two, which);
    expect(a.word == e[0] && a.one == e[1] && a.two == e[2], s, code, "dispatcher's answer");
    int untouched = a.word == 5 && a.one <= 2;
    expect(!untouched || memcmp(w, was, words * 8) == 0, s, code, "words behind refusal 1 or 2");
    for (size_t p = 0; !untouched && p < DISPATCHER_PLACES; p++) {
        uint8_t *from = (uint8_t *)(w + p * WORDS);
        if (!held(&a.next, p)) expect(zero(from, from + 8 * WORDS), s, code, "words of a free place");
        if (held(&a.next, p) && held(&d, p)) expect(memcmp(from, was + p * WORDS, 8 * WORDS) == 0, s, code, "words of a held job");
    }
    if (words > ALL_WORDS) expect(painted(lent.at + 8 * (size_t)ALL_WORDS, lent.guard), s, code, "words behind the last place");
    expect(painted(trace.at + (a.answer.word == 1 ? 2 * a.answer.three : 0), trace.guard), s, code, "trace bytes behind the steps");
    expect(painted(lent.from, lent.at) && painted(trace.from, trace.at) && painted(sheets.from, sheets.at), s, code, "bytes ahead of a buffer");
    if (a.word == 1 || a.word == 5) expect(memcmp(&a.next, &d, sizeof d) == 0, s, code, "the dispatcher handed back");
    if (!untouched) memcpy(kept, w, sizeof kept);
    free(was), give_back(sheets), give_back(lengths), give_back(codes), give_back(lent), give_back(trace);
    return a;
}

/* turns of a job of n messages, held alone, up to its last */
static dispatcher_answer answered(dispatcher d, sheet s, uint32_t number, int n) {
    for (int t = 0; t < 2 * n; t++) d = serve(d, 1, 0, s, 0, 0, ALL_WORDS, BYTES, SAYS(2, number, 0)).next;
    return serve(d, 1, 0, s, 9, 7, ALL_WORDS + 3, BYTES + 5, SAYS(3, number, 0));
}

static void dispatchers(void) {
    sheet two = named("sheet 2", H "S 0 0\nM 0 1\nM 2 1\nP 1 3\n"), empty = named("sheet 1", H "S 0 0\n"), none = named("no sheet", ""), wrong = named("a row that is none", H "S 0 0\nX\n");
    dispatcher d = dispatcher_empty();
    serve(d, 1, 0, two, 0, 0, ALL_WORDS, BYTES, SAYS(1, 0, 0));
    serve(d, 1, 0, two, 0, 0, ALL_WORDS - 1, BYTES, SAYS(5, 2, 0)); /* ahead of idle */
    serve(d, 1, 0, two, 0, 0, ALL_WORDS, BYTES - 1, SAYS(5, 2, 0));
    serve(d, 0, 0, two, 6, 0, ALL_WORDS - 1, 0, SAYS(5, 1, 0));
    serve(d, 0, 0, two, 0, 0, ALL_WORDS - 1, 0, SAYS(5, 2, 0));
    serve(d, 0, 0, none, 0, 0, ALL_WORDS, 0, SAYS(5, 3, 0));
    serve(d, 0, 0, wrong, 0, 0, ALL_WORDS + 3, 0, SAYS(5, 5, 3));
    serve(d, 2, 0, two, 0, 0, ALL_WORDS, 0, SAYS(5, 17, 0));
    serve(d, 2, 0, two, 0, 0, 0, 0, SAYS(5, 2, 0));
    d = serve(d, 0, 0, two, 0, 0, ALL_WORDS, 0, SAYS(0, 0, 0)).next;
    dispatcher_answer a = answered(d, two, 0, 2);
    expect(a.answer.word == 1 && a.answer.one == 1 && a.answer.two == 1 && a.answer.three == 3, two, 0, "locked as by the check");
    d = serve(a.next, 0, 0, two, 1, 0, ALL_WORDS, 0, SAYS(0, 1, 0)).next;
    a = answered(d, two, 1, 2);
    expect(a.answer.word == 0 && a.answer.one == 0 && a.answer.three == 0, two, 1, "free as by the check");
    d = serve(a.next, 0, 0, empty, 0, 0, ALL_WORDS, 0, SAYS(0, 2, 0)).next;
    d = answered(d, empty, 2, 0).next;
    for (uint32_t p = 0; p < DISPATCHER_PLACES; p++) d = serve(d, 0, 0, two, p % CODES, p, ALL_WORDS, 0, SAYS(0, 3 + p, p)).next;
    serve(d, 0, 0, two, 6, 7, ALL_WORDS, 0, SAYS(5, 16, 0)); /* no place free: no code to judge */
    serve(d, 0, 0, two, 0, 7, ALL_WORDS - 1, 0, SAYS(5, 2, 0));
    d = serve(d, 2, 5, two, 0, 0, ALL_WORDS, 0, SAYS(4, 5, 0)).next;
    serve(d, 2, 5, two, 0, 0, ALL_WORDS, 0, SAYS(5, 17, 0));
    d = serve(d, 1, 0, two, 0, 0, ALL_WORDS, BYTES, SAYS(2, 3, 0)).next;
    d = serve(d, 0, 0, two, 0, 2, ALL_WORDS, 0, SAYS(0, 11, 2)).next; /* the lowest free place, behind the last */
    static const uint32_t order[] = {4, 6, 7, 8, 9, 10, 3, 11, 4};
    for (int i = 0; i < 9; i++) d = serve(d, 1, 0, two, 0, 0, ALL_WORDS, BYTES, SAYS(2, order[i], 0)).next;
    for (int w = 0; w < 6; w++)
        if (!words_said[w]) printf("FAILED: the dispatcher never said %d\n", w), failures++;
    for (int n = 1; n < 18; n++)
        if (!refusals_said[n] && (n <= 3 || n == 5 || n >= 16)) printf("FAILED: the dispatcher never refused with %d\n", n), failures++;
}

/* ------------------------------------------------------------------ senders_check and permitted_check */

#define T "from to verdict\n"
#define ALL T "65535 65535 1\n"
#define MASTER T "1 65535 1\n65534 1 1\n65534 65534 0\n" /* board 0 sends to all, and all send to it */

static int table_words[4], permitted_refused[20];

/* one call, with a guard page behind the table */
static void judge(const char *name, const char *bytes, size_t len, senders_check_answer e) {
    sheet s = {name, bytes, len};
    buffer table = lend(len);
    memcpy(table.at, bytes, len);
    senders_check_answer a = senders_check(table.at, len);
    calls++;
    if (a.word < 4) table_words[a.word]++;
    if (memcmp(&a, &e, sizeof a) != 0) printf("  expected %u %u %u %u, got %u %u %u %u\n", e.word, e.one, e.two, e.three, a.word, a.one, a.two, a.three);
    expect(memcmp(&a, &e, sizeof a) == 0, s, 0, "judgement of a table");
    expect(memcmp(table.at, bytes, len) == 0 && painted(table.from, table.at), s, 0, "the table was written to");
    give_back(table);
}

static void judged(const char *name, const char *table, uint32_t word, uint32_t one, uint32_t two, uint32_t three) {
    judge(name, table, strlen(table), (senders_check_answer){word, one, two, three});
}

/* one call, with a guard page behind each of the four buffers */
static void permit(sheet s, const char *table, uint32_t code, size_t words, size_t bytes, channel_check_answer e, const void *steps) {
    buffer text = lend(s.len), scratch = lend(words * 8), trace = lend(bytes), rules = lend(strlen(table));
    memcpy(text.at, s.text, s.len);
    memcpy(rules.at, table, strlen(table));
    channel_check_answer a = permitted_check(text.at, s.len, code, (uint64_t *)scratch.at, words, trace.at, bytes, rules.at, strlen(table));
    calls++;
    if (a.word == 2 && a.one < 20) permitted_refused[a.one]++;
    if (memcmp(&a, &e, sizeof a) != 0) printf("  expected %u %u %u %u, got %u %u %u %u\n", e.word, e.one, e.two, e.three, a.word, a.one, a.two, a.three);
    expect(memcmp(&a, &e, sizeof a) == 0, s, code, "answer with a table");
    expect(memcmp(rules.at, table, strlen(table)) == 0 && painted(rules.from, rules.at), s, code, "the table was written to");
    give_back(rules);
    left(s, code, text, scratch, trace, e.word == 2 && e.one <= 2, steps, e.word == 1 ? 2 * (size_t)e.three : 0);
}

static void permits(const char *name, const char *text, const char *table, channel_check_answer e, const void *steps) {
    for (uint32_t code = 0; code < 6; code += 5) {
        permit(named(name, text), table, code, WORDS, BYTES, e, steps);
        permit(named(name, text), table, code, WORDS + 3, BYTES + 5, e, steps);
    }
}

/* rules that partition the pairs: four senders by four receivers, a rule a pair of sets of one sender and four receivers */
static void rules_of(int n) {
    begin(T);
    for (int i = 0; i < 64 && i < n; i++) sprintf(made + strlen(made), "%d %d 1\n", 1 << i / 4, 15 << 4 * (i % 4));
    repeat("0 0 1\n", n - 64);
}

static void tables(void) {
    judged("all", ALL, 0, 0, 0, 0);
    judged("one master", MASTER, 0, 0, 0, 0);
    rules_of(64);
    judged("64 rules", made, 0, 0, 0, 0);
    rules_of(63);
    judged("63 of the 64 rules", made, 1, 252, 0, 0);
    rules_of(65);
    judged("65 rules", made, 3, 18, 66, 0);
    judged("no rule", T, 1, 0, 0, 0);
    judged("3 to 5 in no rule", T "65527 65535 1\n8 65503 0\n", 1, 53, 0, 0);
    judged("3 to 5 in two rules, both permit", T "0 0 0\n65535 65535 1\n8 32 1\n8 32 1\n", 2, 53, 3, 4);
    judged("the last pair", T "32767 65535 1\n32768 32767 1\n", 1, 255, 0, 0);
    judged("a set over 65,535", T "65536 0 1\n", 3, 18, 2, 0);
    judged("a leading zero", ALL "01 0 1\n", 3, 18, 3, 0);
    judged("a verdict of 2", T "65535 65535 2\n", 3, 18, 2, 0);
    judged("two spaces", T "65535  65535 1\n", 3, 18, 2, 0);
    judged("four fields", T "65535 65535 1 1\n", 3, 18, 2, 0);
    judged("no line end", T "65535 65535 1", 3, 18, 2, 0);
    judged("an empty line", ALL "\n", 3, 18, 3, 0);
    judged("names in another order", "to from verdict\n65535 65535 1\n", 3, 18, 1, 0);
    judged("names without their end", "from to verdict", 3, 18, 1, 0);
    judged("no byte", "", 3, 18, 0, 0);
    begin("");
    repeat("\n", 8192);
    judged("8,192 bytes", made, 3, 18, 1, 0);
    repeat("\n", 1);
    judged("8,193 bytes", made, 3, 18, 0, 0);
    for (int w = 0; w < 4; w++)
        if (!table_words[w]) printf("FAILED: senders_check never said %d\n", w), failures++;
}

static void permissions(void) {
    channel_check_answer is_free = {0, 0, 0, 0};
    const char *two = H "S 0 0\nM 0 1\nM 2 1\nP 1 3\n", *gap = T "65534 65535 1\n";
    permits("all permitted, locked", two, ALL, (channel_check_answer){1, 1, 1, 3}, "\0\1\1\1\0\0");
    permits("all permitted, free", H "S 0 0\nM 3 3\n", ALL, is_free, "");
    permits("one master, free", H "S 0 0\nM 0 1\nM 1 0\nM 0 0\n", MASTER, is_free, "");
    permits("19 for 2 to 1", two, MASTER, (channel_check_answer){2, 19, 4, 0}, "");
    permits("19 for a board to itself", H "S 0 0\nM 0 1\nB 0 0\nM 3 3\n", MASTER, (channel_check_answer){2, 19, 5, 0}, "");
    permits("19 for the first met, not the lowest line", H "S 1 0\nM 2 1\nS 0 0\nM 3 1\nC 1 0\n", MASTER, (channel_check_answer){2, 19, 5, 0}, "");
    permits("19 in a sheet that is called", H "S 0 0\nM 0 1\nC 1 0\nM 3 1\nS 1 0\nM 0 2\nM 2 1\n", MASTER, (channel_check_answer){2, 19, 8, 0}, "");
    permits("a message that no walk meets", H "S 0 0\nM 0 1\nS 1 0\nM 2 1\n", MASTER, is_free, "");
    permits("18 for a gap", two, gap, (channel_check_answer){2, 18, 0, 0}, "");
    permits("18 for a clash", two, ALL "1 1 1\n", (channel_check_answer){2, 18, 0, 0}, "");
    permits("18 for a line", two, ALL "1 1 2\n", (channel_check_answer){2, 18, 3, 0}, "");
    permits("18 for the length", two, "", (channel_check_answer){2, 18, 0, 0}, "");
    permits("3 ahead of 18", "", gap, (channel_check_answer){2, 3, 0, 0}, "");
    permits("18 ahead of 4", "kind one one\n", gap, (channel_check_answer){2, 18, 0, 0}, "");
    permits("4", "kind one one\n", ALL, (channel_check_answer){2, 4, 1, 0}, "");
    permits("6 ahead of 19", H "S 0 0\nM 2 1\nM 16 0\n", MASTER, (channel_check_answer){2, 6, 4, 0}, "");
    permits("11 ahead of 19", H "S 0 0\nM 2 1\nM 0 0\nP 3 2\n", MASTER, (channel_check_answer){2, 11, 5, 0}, "");
    begin(H "S 0 0\nC 1 0\nC 1 0\nM 0 0\nS 1 0\n");
    repeat("M 2 1\n", MESSAGES / 2);
    permits("10 ahead of 19", made, MASTER, (channel_check_answer){2, 10, 5, 0}, "");
    permit(named("1 ahead of 18", two), gap, 6, WORDS, BYTES, (channel_check_answer){2, 1, 0, 0}, "");
    permit(named("2 for the scratch", two), gap, 0, WORDS - 1, BYTES, (channel_check_answer){2, 2, 0, 0}, "");
    permit(named("2 for the trace", two), gap, 0, WORDS, BYTES - 1, (channel_check_answer){2, 2, 0, 0}, "");
    for (int n = 1; n < 20; n++)
        if (!permitted_refused[n] && (n <= 4 || n == 6 || n == 10 || n == 11 || n >= 18)) printf("FAILED: with a table %d never came\n", n), failures++;
}

/* ------------------------------------------------------------------ taps_check */

static int tap_words[3], tap_refused[21];

typedef struct { const uint16_t *events; size_t count; } list;

#define LIST(...) ((list){(const uint16_t[]){__VA_ARGS__}, sizeof((const uint16_t[]){__VA_ARGS__}) / 2})
static const list none_seen = {(const uint16_t[]){0}, 0};

static buffer lend_list(list l) {
    buffer b = lend(2 * l.count);
    memcpy(b.at, l.events, 2 * l.count);
    return b;
}

static void take_list(sheet s, list l, buffer b) {
    expect(memcmp(b.at, l.events, 2 * l.count) == 0 && painted(b.from, b.at), s, 0, "a list was written to");
    give_back(b);
}

/* one call, with a guard page behind text, scratch, lists and output; `course` is the course to be written, where one is */
static void tap(sheet s, list first, list second, size_t words, size_t numbers, taps_check_answer e, const uint16_t *course) {
    buffer text = lend(s.len), scratch = lend(words * 8), output = lend(2 * numbers), one = lend_list(first), two = lend_list(second);
    memcpy(text.at, s.text, s.len);
    taps_check_answer a = taps_check(text.at, s.len, (uint64_t *)scratch.at, words, (const uint16_t *)one.at, first.count, (const uint16_t *)two.at,
                                     second.count, (uint16_t *)output.at, numbers);
    calls++;
    if (a.word < 3) tap_words[a.word]++;
    if (a.word == 2 && a.one < 21) tap_refused[a.one]++;
    if (memcmp(&a, &e, sizeof a) != 0) printf("  expected %u %u %u, got %u %u %u\n", e.word, e.one, e.two, a.word, a.one, a.two);
    expect(memcmp(&a, &e, sizeof a) == 0, s, 0, "answer on two taps");
    take_list(s, first, one), take_list(s, second, two);
    left(s, 0, text, scratch, output, e.word == 2 && e.one == 2, course, e.word == 0 ? 2 * (size_t)e.one : 0);
}

enum { NUMBERS = TAPS_CHECK_OUTPUT_NUMBERS };

/* on exact and larger buffers, and on each that is too short */
static void taps_say(sheet s, list first, list second, taps_check_answer e, const uint16_t *course) {
    taps_check_answer bench = {2, 2, 0};
    tap(s, first, second, WORDS, NUMBERS, e, course);
    tap(s, first, second, WORDS + 3, NUMBERS + 5, e, course);
    tap(s, first, second, 2 * WORDS, 2 * NUMBERS, e, course);
    tap(s, first, second, WORDS - 1, NUMBERS, bench, NULL);
    tap(s, first, second, WORDS, NUMBERS - 1, bench, NULL);
    tap(s, first, second, WORDS + 9, 0, bench, NULL);
    tap(s, first, second, 0, NUMBERS + 9, bench, NULL);
}

static void taps_fit(sheet s, list first, list second, list course) {
    taps_say(s, first, second, (taps_check_answer){0, (uint32_t)course.count, 0}, course.events);
}

static void taps_clash(sheet s, list first, list second, uint32_t event) { taps_say(s, first, second, (taps_check_answer){1, event, 0}, NULL); }

static void taps_refuse(sheet s, list first, list second, uint32_t number, uint32_t line) {
    taps_say(s, first, second, (taps_check_answer){2, number, line}, NULL);
}

/* all events, both lists full: the messages from the last to the first, and the same with its first two exchanged */
static void full_lists(void) {
    static uint16_t down[EVENTS], other[EVENTS], long_list[70000];
    begin(H "S 0 0\n");
    repeat("M 0 1\n", MESSAGES);
    sheet s = named("all events", made);
    for (int i = 0; i < EVENTS; i++) down[i] = other[i] = (uint16_t)((MESSAGES - 1 - i / 2) * 2 + i % 2);
    other[0] = LAST - 3, other[2] = LAST - 1;
    taps_fit(s, (list){down, EVENTS}, (list){down, EVENTS}, (list){down, EVENTS});
    taps_fit(s, (list){down, EVENTS}, none_seen, (list){down, EVENTS});
    taps_fit(s, none_seen, (list){down, EVENTS}, (list){down, EVENTS});
    taps_clash(s, (list){down, EVENTS}, (list){other, EVENTS}, LAST - 3);
    for (size_t i = 0; i < 70000; i++) long_list[i] = (uint16_t)(i % EVENTS);
    taps_refuse(s, (list){long_list, EVENTS + 1}, none_seen, 20, 1);
    taps_refuse(s, (list){long_list, EVENTS}, (list){long_list, 70000}, 20, 2);
    taps_refuse(s, (list){long_list, 70000}, (list){long_list, 70000}, 20, 1);
}

/* the sheets of the lists below: no message, two whose receives are ordered, three that nothing orders */
static sheet no_event(void) { return named("no event", H "S 0 0\n"); }
static sheet sheet_two(void) { return named("sheet 2", H "S 0 0\nM 0 1\nM 2 1\nP 1 3\n"); }
static sheet unordered(void) { return named("three messages", H "S 0 0\nM 0 1\nM 2 3\nM 4 5\n"); }

/* lists that one course of events obeys */
static void courses(void) {
    sheet two = sheet_two();
    taps_fit(no_event(), none_seen, none_seen, none_seen);
    taps_fit(two, none_seen, none_seen, LIST(0, 1, 2, 3));
    taps_fit(two, LIST(3), LIST(2), LIST(0, 1, 2, 3));
    taps_fit(two, LIST(2, 0), none_seen, LIST(2, 0, 1, 3));
    taps_fit(two, none_seen, LIST(2, 1), LIST(0, 2, 1, 3));
    taps_fit(two, LIST(0, 1, 2, 3), LIST(0, 1, 2, 3), LIST(0, 1, 2, 3));
    taps_fit(unordered(), LIST(4, 2), LIST(2, 0), LIST(4, 2, 0, 1, 3, 5));
}

/* lists by which an event would have to precede itself */
static void clashes(void) {
    sheet two = sheet_two(), three = unordered();
    taps_clash(two, LIST(0, 2), LIST(2, 0), 0);
    taps_clash(two, LIST(3, 2), none_seen, 2);
    taps_clash(two, none_seen, LIST(3, 0), 0);
    taps_clash(three, LIST(2, 4, 0), LIST(4, 2), 2); /* 0 is left over behind the circle, and lower */
    taps_clash(three, LIST(5, 2), LIST(3, 4), 2);    /* neither list alone: 4 5 2 3 4 */
    taps_clash(three, LIST(0, 1, 3, 2), none_seen, 2);
}

/* an event not in the sheet, or twice in one list */
static void wrong_lists(void) {
    sheet two = sheet_two();
    taps_refuse(no_event(), LIST(0), none_seen, 20, 1);
    taps_refuse(no_event(), none_seen, LIST(0), 20, 2);
    taps_refuse(two, LIST(4), none_seen, 20, 1);
    taps_refuse(two, none_seen, LIST(4), 20, 2);
    taps_refuse(two, LIST(4), LIST(4), 20, 1);
    taps_refuse(two, LIST(0, 0), LIST(65535), 20, 1);
    taps_refuse(two, LIST(3, 0), LIST(1, 2, 1), 20, 2);
    taps_refuse(two, LIST(65535), none_seen, 20, 1);
    taps_refuse(two, none_seen, LIST(EVENTS), 20, 2);
    taps_refuse(two, LIST(0, 1, 2, 3, 0), none_seen, 20, 1);
}

/* the sheet's refusals come ahead of the lists' */
static void refused_sheets(void) {
    for (size_t i = 0; i < sizeof refused / sizeof *refused; i++) {
        taps_refuse(named(refused[i].name, refused[i].text), none_seen, none_seen, refused[i].number, refused[i].line);
        taps_refuse(named(refused[i].name, refused[i].text), LIST(0, 0), LIST(65535), refused[i].number, refused[i].line);
    }
    taps_refuse(named("5 an A row for two taps", H "S 0 0\nA 0 0\n"), none_seen, none_seen, 5, 3);
    begin(H "S 0 0\n");
    repeat("B 0 0\n", 1362);
    repeat("\n\n", 1);
    taps_refuse((sheet){"3 length 8,193", made, 8193}, LIST(0), none_seen, 3, 0);
    begin(H "S 0 0\nC 1 0\nC 1 0\nM 0 0\nS 1 0\n");
    repeat("M 0 1\n", MESSAGES / 2);
    taps_refuse(named("10 messages", made), LIST(0), none_seen, 10, 5);
    begin(H "S 0 0\n");
    repeat("C 1 0\n", 32);
    repeat("S 1 0\n", 1);
    repeat("C 2 0\n", 32);
    repeat("S 2 0\n", 1);
    taps_refuse(named("9 calls", made), LIST(0), none_seen, 9, 36);
}

static void taps(void) {
    courses();
    clashes();
    wrong_lists();
    full_lists();
    refused_sheets();
    for (int n = 2; n < 21; n++)
        if (!tap_refused[n] && (n < 12 || n == 20)) printf("FAILED: two taps were never refused with %d\n", n), failures++;
    if (!tap_words[0] || !tap_words[1]) printf("FAILED: two taps never fit, or never clashed\n"), failures++;
}

/* ------------------------------------------------------------------ what a sheet holds */

static int message_words[2], race_words[2], held_refused[12];

/* one call, with a guard page behind text, scratch and output; `told` are the numbers to be written */
static void messages(sheet s, size_t words, size_t numbers, sheet_messages_answer e, const uint16_t *told) {
    buffer text = lend(s.len), scratch = lend(words * 8), output = lend(2 * numbers);
    memcpy(text.at, s.text, s.len);
    sheet_messages_answer a = sheet_messages(text.at, s.len, (uint64_t *)scratch.at, words, (uint16_t *)output.at, numbers);
    calls++;
    if (a.word < 2) message_words[a.word]++;
    if (a.word == 1 && a.one < 12) held_refused[a.one]++;
    if (memcmp(&a, &e, sizeof a) != 0) printf("  expected %u %u %u, got %u %u %u\n", e.word, e.one, e.two, a.word, a.one, a.two);
    expect(memcmp(&a, &e, sizeof a) == 0, s, 0, "answer on messages");
    left(s, 0, text, scratch, output, e.word == 1 && e.one == 2, told, e.word == 0 ? 6 * (size_t)e.one : 0);
}

enum { TOLD = SHEET_MESSAGES_OUTPUT_NUMBERS };

static void messages_say(sheet s, sheet_messages_answer e, const uint16_t *told) {
    sheet_messages_answer bench = {1, 2, 0};
    messages(s, WORDS, TOLD, e, told);
    messages(s, WORDS + 3, TOLD + 5, e, told);
    messages(s, WORDS - 1, TOLD, bench, NULL);
    messages(s, WORDS, TOLD - 1, bench, NULL);
    messages(s, 0, 0, bench, NULL);
}

/* the pairs of a code's races, on outputs of every length up to two numbers more than they need */
static void races(sheet s, uint32_t code, size_t words, sheet_races_answer e, const uint16_t *pairs, size_t numbers) {
    buffer text = lend(s.len), scratch = lend(words * 8), output = lend(2 * numbers);
    memcpy(text.at, s.text, s.len);
    sheet_races_answer a = sheet_races(text.at, s.len, code, (uint64_t *)scratch.at, words, (uint16_t *)output.at, numbers);
    calls++;
    if (a.word < 2) race_words[a.word]++;
    if (a.word == 1 && a.one < 12) held_refused[a.one]++;
    if (memcmp(&a, &e, sizeof a) != 0) printf("  expected %u %u %u, got %u %u %u\n", e.word, e.one, e.two, a.word, a.one, a.two);
    expect(memcmp(&a, &e, sizeof a) == 0, s, code, "answer on races");
    left(s, code, text, scratch, output, e.word == 1 && e.one <= 2, pairs, e.word == 0 ? 4 * (size_t)e.two : 0);
}

static void races_say(sheet s, uint32_t code, uint32_t count, const uint16_t *pairs) {
    for (uint32_t numbers = 0; numbers <= 2 * count + 2; numbers++) {
        uint32_t listed = numbers / 2 < count ? numbers / 2 : count;
        races(s, code, WORDS + numbers % 3, (sheet_races_answer){0, count, listed}, pairs, numbers);
    }
    races(s, code, WORDS - 1, (sheet_races_answer){1, 2, 0}, NULL, 2 * count);
    races(s, 6, WORDS, (sheet_races_answer){1, 1, 0}, NULL, 2 * count);
}

#define TOLD_AS(...) ((const uint16_t[]){__VA_ARGS__})

static void holdings(void) {
    sheet two = named("sheet 2", H "S 0 0\nM 0 1\nM 2 1\nP 1 3\n"), called = named("called twice", H "S 0 0\nM 0 1\nC 1 0\nC 1 0\nS 1 0\nB 0 0\nM 3 2\n");
    messages_say(named("sheet 1", H "S 0 0\n"), (sheet_messages_answer){0, 0, 0}, NULL);
    messages_say(two, (sheet_messages_answer){0, 2, 0}, TOLD_AS(3, 0, 1, 4, 2, 1));
    messages_say(called, (sheet_messages_answer){0, 3, 0}, TOLD_AS(3, 0, 1, 8, 3, 2, 8, 3, 2));
    messages_say(named("3", ""), (sheet_messages_answer){1, 3, 0}, NULL);
    messages_say(named("5 an A row", H "S 0 0\nA 0 0\n"), (sheet_messages_answer){1, 5, 3}, NULL);
    messages_say(named("11", H "S 0 0\nM 0 1\nM 1 0\nP 1 2\nP 3 0\n"), (sheet_messages_answer){1, 11, 6}, NULL);
    for (uint32_t code = 0; code < CHANNEL_CHECK_CHANNELS; code++) {
        int lazy = code == CHANNEL_CHECK_LAZY_FREE_RUNNING || code == CHANNEL_CHECK_LAZY_FIFO;
        races_say(two, code, lazy ? 0 : 1, TOLD_AS(1, 1));
        races_say(named("three to one board", H "S 0 0\nM 0 3\nM 1 3\nM 2 3\nP 1 3\nP 3 5\n"), code, lazy ? 0 : 3, TOLD_AS(1, 1, 2, 1, 2, 3));
    }
    races(named("3", ""), 0, WORDS, (sheet_races_answer){1, 3, 0}, NULL, 4);
    races(named("5 an A row", H "S 0 0\nA 0 0\n"), 0, WORDS, (sheet_races_answer){1, 5, 3}, NULL, 4);
    if (!message_words[0] || !race_words[0] || !held_refused[1] || !held_refused[2] || !held_refused[3] || !held_refused[5] || !held_refused[11])
        printf("FAILED: what a sheet holds: an answer never came\n"), failures++;
    if (channel_check_version() != CHANNEL_CHECK_VERSION) printf("FAILED: the archive's version is %u\n", channel_check_version()), failures++;
}

/* ------------------------------------------------------------------ an exchange that is repeated */

static int round_words[3], round_refused[12], round_counts[3];

/* one call, with a guard page after text, scratch and trace */
static void repeated(sheet s, uint32_t code, size_t words, size_t bytes, rounds_check_answer e, const void *steps) {
    buffer text = lend(s.len), scratch = lend(words * 8), trace = lend(bytes);
    memcpy(text.at, s.text, s.len);
    rounds_check_answer a = rounds_check(text.at, s.len, code, (uint64_t *)scratch.at, words, trace.at, bytes);
    calls++;
    if (a.word < 3) round_words[a.word]++;
    if (a.word == 2 && a.one < 12) round_refused[a.one]++;
    if (a.rounds < 3) round_counts[a.rounds]++;
    if (memcmp(&a, &e, sizeof a) != 0)
        printf("  expected %u %u %u %u %u, got %u %u %u %u %u\n", e.word, e.one, e.two, e.three, e.rounds, a.word, a.one, a.two, a.three, a.rounds);
    expect(memcmp(&a, &e, sizeof a) == 0, s, code, "answer on rounds");
    left(s, code, text, scratch, trace, e.word == 2 && e.one <= 2, steps, e.word == 1 ? 2 * (size_t)e.three : 0);
}

static void rounds_say(sheet s, const char *codes, rounds_check_answer e, const void *steps) {
    for (; *codes; codes++) {
        uint32_t code = (uint32_t)(*codes - '0');
        repeated(s, code, WORDS, BYTES, e, steps);
        repeated(s, code, WORDS + 3, BYTES + 5, e, steps);
        repeated(s, code, WORDS - 1, BYTES, (rounds_check_answer){2, 2, 0, 0, 0}, "");
        repeated(s, code, WORDS, BYTES - 1, (rounds_check_answer){2, 2, 0, 0, 0}, "");
    }
    repeated(s, 6, 0, 0, (rounds_check_answer){2, 1, 0, 0, 0}, "");
}

/* the limits over two walks: half of the messages, and half of the calls, are the most */
static void rounds_at_limits(void) {
    begin(H "S 0 0\n");
    repeat("M 0 1\nM 1 0\nP 1 2\nP 0 3\nB 0 0\n", 2);
    rounds_say(named("a reply each", made), "012345", (rounds_check_answer){0, 0, 0, 0, 0}, "");
    begin(H "S 0 0\n");
    repeat("M 0 0\n", MESSAGES / 2);
    rounds_say(named("half of the messages", made), "012345", (rounds_check_answer){0, 0, 0, 0, 0}, "");
    repeat("M 0 0\n", 1);
    rounds_say(named("10 on the second walk", made), "012345", (rounds_check_answer){2, 10, MESSAGES / 2 + 2, 0, 0}, "");
    begin(H "S 0 0\nM 0 1\nM 2 1\nP 1 3\n");
    repeat("M 5 5\n", MESSAGES / 2);
    rounds_say(named("10 ahead of a lock", made), "012345", (rounds_check_answer){2, 10, MESSAGES / 2 + 2, 0, 0}, "");
    begin(H "S 0 0\n");
    repeat("C 1 0\n", 16);
    repeat("S 1 0\n", 1);
    repeat("C 2 0\n", 31);
    repeat("S 2 0\n", 1);
    rounds_say(named("512 calls", made), "012345", (rounds_check_answer){0, 0, 0, 0, 0}, "");
    begin(H "S 0 0\n");
    repeat("C 1 0\n", 16);
    repeat("C 2 0\nS 1 0\n", 1);
    repeat("C 2 0\n", 31);
    repeat("S 2 0\n", 1);
    rounds_say(named("9 on the second walk", made), "012345", (rounds_check_answer){2, 9, 51, 0, 0}, "");
}

static void repeats(void) {
    sheet one = named("one message", H "S 0 0\nM 0 1\n"), two = named("sheet 2", H "S 0 0\nM 0 1\nM 2 1\nP 1 3\n");
    rounds_say(one, "0", (rounds_check_answer){1, 1, 1, 3, 2}, "\0\0\0\1\1\1");
    rounds_say(one, "12345", (rounds_check_answer){0, 0, 0, 0, 0}, "");
    rounds_say(two, "0245", (rounds_check_answer){1, 1, 1, 3, 1}, "\0\1\1\1\0\0");
    rounds_say(two, "13", (rounds_check_answer){0, 0, 0, 0, 0}, "");
    rounds_say(named("sheet 1", H "S 0 0\n"), "012345", (rounds_check_answer){0, 0, 0, 0, 0}, "");
    rounds_say(named("3", ""), "012345", (rounds_check_answer){2, 3, 0, 0, 0}, "");
    rounds_say(named("5 an A row", H "S 0 0\nA 0 0\n"), "012345", (rounds_check_answer){2, 5, 3, 0, 0}, "");
    rounds_say(named("11", H "S 0 0\nM 0 1\nM 1 0\nP 1 2\nP 3 0\n"), "012345", (rounds_check_answer){2, 11, 6, 0, 0}, "");
    rounds_at_limits();
    if (!round_words[0] || !round_counts[1] || !round_counts[2] || !round_refused[1] || !round_refused[2] || !round_refused[9] || !round_refused[10])
        printf("FAILED: repeated: an answer never came\n"), failures++;
}

/* ------------------------------------------------------------------ the header's enumerators */

/* enumerators count from a number on, in the order of the paper's table or of the call's cases */
static void in_order(int from, const int *numbers, size_t count, const char *names) {
    for (size_t i = 0; i < count; i++)
        if (numbers[i] != from + (int)i) failures++, printf("FAILED: number %d of %s is %d\n", (int)i, names, numbers[i]);
}
#define IN_ORDER(from, ...) in_order(from, (const int[]){__VA_ARGS__}, sizeof (const int[]){__VA_ARGS__} / sizeof(int), #__VA_ARGS__)

/* a refusal's word is its enumerator's name */
static void worded(int number, const char *name) {
    if (strcasecmp(channel_check_refusal_words[number], name) == 0) return;
    failures++, printf("FAILED: refusal %d, %s, has the word %s\n", number, name, channel_check_refusal_words[number]);
}
#define REFUSALS(R) \
    R(CHANNEL), R(BENCH), R(LENGTH), R(HEADING), R(ROW), R(PLACE), R(ABSENT), R(DEPTH), R(CALLS), R(MESSAGES), R(CIRCLE), R(TRACE), R(CHOICES), \
        R(SWITCH), R(ROWS), R(JOBS), R(HELD), R(TABLE), R(FORBIDDEN), R(TAP)
#define NUMBER(NAME) CHANNEL_CHECK_REFUSAL_##NAME
#define WORDED(NAME) worded(CHANNEL_CHECK_REFUSAL_##NAME, #NAME)

static void enumerators(void) {
    IN_ORDER(1, REFUSALS(NUMBER));
    REFUSALS(WORDED);
    IN_ORDER(0, CHANNEL_CHECK_EAGER_FREE_RUNNING, CHANNEL_CHECK_LAZY_FREE_RUNNING, CHANNEL_CHECK_EAGER_FIFO, CHANNEL_CHECK_LAZY_FIFO, CHANNEL_CHECK_SYNCHRONOUS, CHANNEL_CHECK_TOKEN_RING, CHANNEL_CHECK_CHANNELS);
    IN_ORDER(0, CHANNEL_CHECK_SEND, CHANNEL_CHECK_DELIVER, CHANNEL_CHECK_CONSUME);
    IN_ORDER(0, CHANNEL_CHECK_FREE, CHANNEL_CHECK_LOCKED, CHANNEL_CHECK_REFUSED);
    IN_ORDER(0, TRACE_CHECK_FINISHED, TRACE_CHECK_STUCK, TRACE_CHECK_OPEN, TRACE_CHECK_NOT_ALLOWED, TRACE_CHECK_REFUSED);
    IN_ORDER(0, CHOICE_CHECK_FREE, CHOICE_CHECK_LOCKED, CHOICE_CHECK_REFUSED);
    IN_ORDER(0, MONITOR_TAKEN, MONITOR_FORBIDDEN, MONITOR_REFUSED);
    IN_ORDER(0, CURE_SHEET_WRITTEN, CURE_SHEET_REFUSED);
    IN_ORDER(0, DISPATCHER_ADMITTED, DISPATCHER_IDLE, DISPATCHER_UNANSWERED, DISPATCHER_ANSWERED, DISPATCHER_CANCELLED, DISPATCHER_REFUSED);
    IN_ORDER(0, SENDERS_CHECK_SOUND, SENDERS_CHECK_GAP, SENDERS_CHECK_CLASH, SENDERS_CHECK_REFUSED);
    IN_ORDER(0, TAPS_CHECK_FIT, TAPS_CHECK_CLASH, TAPS_CHECK_REFUSED);
    IN_ORDER(0, MONITOR_STANDING_FINISHED, MONITOR_STANDING_STUCK, MONITOR_STANDING_OPEN, MONITOR_STANDING_REFUSED);
    IN_ORDER(0, SHEET_MESSAGES_LISTED, SHEET_MESSAGES_REFUSED);
    IN_ORDER(0, SHEET_RACES_LISTED, SHEET_RACES_REFUSED);
    IN_ORDER(0, ROUNDS_CHECK_FREE, ROUNDS_CHECK_LOCKED, ROUNDS_CHECK_REFUSED);
}

int main(void) {
    enumerators();
    traces();
    choices();
    monitors();
    cures();
    dispatchers();
    tables();
    permissions();
    taps();
    holdings();
    repeats();
    words();
    limits();
    refusals();
    for (int n = 0; n < 12; n++)
        if (seen[2][n] == 0 && n > 0) failures++, printf("FAILED: refusal %d never came\n", n);
    if (seen[0][0] == 0 || seen[1][0] == 0) failures++, printf("FAILED: a word never came\n");
    printf("face: %d calls, %d failures\n", calls, failures);
    return failures != 0;
}
