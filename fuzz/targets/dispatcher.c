/* dispatcher_empty, dispatcher_admit, dispatcher_turn and dispatcher_cancel: a byte for the number of calls, the calls, three bytes each, the text, of which an
 * admission takes the first lines or all. Calls are made on one value: admissions, turns, cancellations, calls that are lent less, and values and words with
 * forged bytes or from an earlier call. While nothing is forged the careful C program makes the same calls, and a job's answer and steps are channel_check's. */
#include "../harness.h"

ON_ALL_SIDES(dispatcher_empty, careful_dispatcher_empty);
ON_ALL_SIDES(dispatcher_admit, careful_dispatcher_admit);
ON_ALL_SIDES(dispatcher_turn, careful_dispatcher_turn);
ON_ALL_SIDES(dispatcher_cancel, careful_dispatcher_cancel);

enum { PLACES = DISPATCHER_PLACES, SHEET = DISPATCHER_SHEET_BYTES, ALL = DISPATCHER_WORDS + 3, TURNS = 600, HEAD = offsetof(dispatcher, boards) };
enum { ADMIT, TURN, CANCEL };
enum { WORDS_ROOM = SCRATCH, TRACE_ROOM = OUTPUT, SHEETS_ROOM = BUFFERS, LENGTHS_ROOM, CODES_ROOM };

/* One side, with its words and its trace, which end at the end of their memory; and its last answer. */
typedef struct {
    uint64_t *words;
    uint8_t *trace;
    dispatcher_answer told;
} side;

/* What a call is lent beside words and trace, and how much of these; and the number that is cancelled. */
typedef struct {
    uint8_t *sheets;
    uint32_t *lengths, *codes, number;
    size_t sheets_len, lengths_len, codes_len, words_len, trace_len;
} lending;

/* What is known of the dispatcher: its words; what the check answers to the sheet of each place; an earlier value. The careful C program reads no forged values. */
static struct {
    lending lent;
    side sides[SIDES];
    int is_forged, turns;
    uint64_t words[ALL];
    unsigned zero; /* bit p: the words of place p are known to be zero, and need not be cleared again */
    channel_check_answer expected[PLACES];
    uint8_t steps[PLACES][STEPS];
    dispatcher kept;
} all;

static void stop_at(const char *what, const dispatcher_answer *a) {
    trial t;
    memset(&t, 0, sizeof t);
    t.answers[SHIPPED].check = (channel_check_answer){a->word, a->one, a->two, a->answer.word};
    stop(what, &t);
}

/* Bit p: a job is in place p; a value is read as far as each job has a place of its own. */
static unsigned places_in(const dispatcher_queue *q) {
    unsigned taken = 0;
    for (uint32_t i = 0; i < PLACES && i < q->held; i++) {
        if (q->jobs[i].place >= PLACES || taken >> q->jobs[i].place & 1) break;
        taken |= 1u << q->jobs[i].place;
    }
    return taken;
}

static dispatcher_answer ask(int which, int kind) {
    const lending *l = &all.lent;
    const side *s = &all.sides[which];
    uint64_t *words = s->words + ALL - l->words_len;
    dispatcher v = s->told.next;
#define LENT l->sheets, l->sheets_len, l->lengths, l->lengths_len, l->codes, l->codes_len, words, l->words_len
    if (kind == ADMIT) return dispatcher_admit_on[which](v, LENT);
    if (kind == CANCEL) return dispatcher_cancel_on[which](v, l->number, LENT);
    return dispatcher_turn_on[which](v, LENT, s->trace + STEPS - l->trace_len, l->trace_len);
#undef LENT
}

/* The words of all sides are those that are known: looked at after every call but a turn that is not a job's last, which writes none. */
static void words_are_known(const dispatcher_answer *a) {
    for (int i = 0; i < (all.is_forged ? CAREFUL : SIDES); i++)
        if (memcmp(all.words, all.sides[i].words, sizeof all.words) != 0) stop_at("words after a dispatcher's call", a);
}

/* What the header says of the words: those of free places are zero but on refusals 1 and 2, and an admission writes those of its place. */
static void know_words(int kind, const dispatcher_answer *a) {
    unsigned taken = places_in(&a->next.queue);
    size_t own = a->two % PLACES * WORDS;
    for (size_t p = 0; p < PLACES && (a->word != DISPATCHER_REFUSED || a->one > 2); p++)
        if (!((taken | all.zero) >> p & 1)) memset(all.words + p * WORDS, 0, 8 * WORDS);
    if (a->word != DISPATCHER_REFUSED || a->one > 2) all.zero = ~taken;
    if (kind == ADMIT && a->word == DISPATCHER_ADMITTED) memcpy(all.words + own, all.sides[SHIPPED].words + own, 8 * WORDS);
}

/* What it says of value and trace, whatever was handed in. */
static void keeps_promise(const side *s, int kind, const dispatcher *before) {
    const dispatcher_answer *a = &s->told;
    int locked = kind == TURN && a->word == DISPATCHER_ANSWERED && a->answer.word == CHANNEL_CHECK_LOCKED;
    size_t written = locked ? 2 * (size_t)a->answer.three : 0;
    if ((a->word == DISPATCHER_REFUSED || a->word == DISPATCHER_IDLE) && memcmp(&a->next, before, sizeof *before) != 0) stop_at("a dispatcher that was to be left as it was", a);
    if (a->word != DISPATCHER_ANSWERED && (a->answer.word | a->answer.one | a->answer.two | a->answer.three)) stop_at("an answer without one", a);
    if (written > STEPS) stop_at("more steps than a trace has", a);
    if (!all_are(s->trace + written, STEPS - written, PAINT)) stop_at("trace bytes after a dispatcher's steps", a);
    if (!is_painted_ahead((uint8_t *)s->words) || !is_painted_ahead(s->trace)) stop_at("bytes ahead of a dispatcher's buffer", a);
}

/* What was not forged: a job is admitted if the check accepts its sheet, and its number is the next. */
static void is_admitted(const dispatcher_answer *a, uint32_t given) {
    const lending *l = &all.lent;
    size_t p = a->two, from = p * SHEET < l->sheets_len ? p * SHEET : l->sheets_len, most = l->sheets_len - from;
    memset(all.steps[p], PAINT, STEPS);
    all.expected[p] = channel_check(l->sheets + from, l->lengths[p] < most ? l->lengths[p] : most, l->codes[p], spare_scratch(), WORDS, all.steps[p], STEPS);
    if (all.expected[p].word == CHANNEL_CHECK_REFUSED) stop_at("a job whose sheet the check refuses", a);
    if (a->one != given || a->next.given != given + 1) stop_at("a job's number", a);
}

static void is_answered(const dispatcher_answer *a, size_t p) {
    if (memcmp(&a->answer, &all.expected[p], sizeof a->answer) != 0) stop_at("another answer than the check's", a);
    if (memcmp(all.sides[SHIPPED].trace, all.steps[p], STEPS) != 0) stop_at("other steps than the check's", a);
}

static void agrees(int which) {
    const side *s = &all.sides[which], *shipped = &all.sides[SHIPPED];
    if (memcmp(&s->told, &shipped->told, offsetof(dispatcher_answer, next)) != 0) stop_at("a dispatcher's answer", &s->told);
    if (memcmp(s->trace, shipped->trace, STEPS) != 0) stop_at("a dispatcher's trace", &s->told);
    if (which == GUIDED && memcmp(&s->told.next, &shipped->told.next, sizeof(dispatcher)) != 0) stop_at("a dispatcher's value", &s->told);
}

/* One call on all sides: they agree, and each keeps its promise. */
static const dispatcher_answer *serve(int kind) {
    const dispatcher_answer *a = &all.sides[SHIPPED].told;
    static dispatcher before;
    before = a->next;
    for (int i = 0; i < (all.is_forged ? CAREFUL : SIDES); i++) {
        static dispatcher own;
        side *s = &all.sides[i];
        own = s->told.next;
        memset(s->trace, PAINT, STEPS);
        s->told = ask(i, kind);
        keeps_promise(s, kind, &own);
        agrees(i);
    }
    know_words(kind, a);
    if (a->word != DISPATCHER_UNANSWERED) words_are_known(a);
    if (!all.is_forged && kind == ADMIT && a->word == DISPATCHER_ADMITTED) is_admitted(a, before.given);
    if (!all.is_forged && kind == TURN && a->word == DISPATCHER_ANSWERED) is_answered(a, before.queue.jobs[0].place);
    return a;
}

/* The text's first lines, or all of it, as the sheet of the place that an admission takes. */
static void lend_lines(const uint8_t *text, size_t len, size_t lines, uint32_t code) {
    lending *l = &all.lent;
    unsigned taken = places_in(&all.sides[SHIPPED].told.next.queue);
    size_t p = 0, size = 0;
    while (p < PLACES && taken >> p & 1) p++;
    if (p == PLACES) return;
    if (lines == 0) size = len;
    for (; lines > 0 && size < len; size++) lines -= text[size] == '\n';
    size_t from = p * SHEET, most = from < l->sheets_len ? l->sheets_len - from : 0, copied = size < SHEET ? size : SHEET;
    if (most > 0) memcpy(l->sheets + from, text, copied < most ? copied : most);
    l->lengths[p] = (uint32_t)size;
    l->codes[p] = code;
}

static int has_turns(void) { return all.turns++ < TURNS; }

/* A call that is lent less: words, a trace, lengths or codes. */
static void lend_less(int kind, size_t by) {
    lending whole = all.lent, *l = &all.lent;
    if (by % 4 == 0) l->words_len = DISPATCHER_WORDS - 1 - by / 4;
    if (by % 4 == 1) l->trace_len = STEPS - 1 - by / 4;
    if (by % 4 == 2) l->lengths_len = by / 4 % (PLACES + 1), l->lengths += PLACES - l->lengths_len;
    if (by % 4 == 3) l->codes_len = by / 4 % (PLACES + 1), l->codes += PLACES - l->codes_len;
    serve(kind == TURN && !has_turns() ? CANCEL : kind);
    all.lent = whole;
}

/* A byte of the value, or of a word, is another; or the value is that of an earlier call. */
static void forge(uint8_t kind, uint8_t a, uint8_t b) {
    size_t at = a % 2 ? b % HEAD : (a / 2 * (size_t)256 + b) % sizeof(dispatcher), word = (a / 2 * (size_t)256 + b) % ALL;
    words_are_known(&all.sides[SHIPPED].told);
    all.is_forged = 1;
    for (int i = 0; i < CAREFUL; i++) {
        side *s = &all.sides[i];
        if (kind % 8 == 7) s->told.next = all.kept;
        else if (a % 4 == 2) ((uint8_t *)(s->words + word))[kind / 8 % 8] ^= (uint8_t)(1u << b % 8);
        else ((uint8_t *)&s->told.next)[at] = (uint8_t)(kind / 8 * 33);
    }
    memcpy(all.words, all.sides[SHIPPED].words, sizeof all.words);
    all.zero = 0;
}

static void turn_until_idle(size_t most) {
    for (size_t i = 0; i < most && has_turns(); i++)
        if (serve(TURN)->word == DISPATCHER_IDLE) break;
}

/* An admission, turns, a cancellation, a call that is lent less, a value kept or forged. */
static void call(uint8_t kind, uint8_t a, uint8_t b, const uint8_t *text, size_t len) {
    lend_lines(text, len, b, code_by(a));
    all.lent.number = a;
    if (kind % 8 < 2) serve(ADMIT);
    if (kind % 8 == 2 || kind % 8 == 3) turn_until_idle(a + (size_t)1);
    if (kind % 8 == 4) serve(CANCEL);
    if (kind % 8 == 5) lend_less(kind / 8 % 3, b);
    if (kind % 8 == 6 && kind < 128) all.kept = all.sides[SHIPPED].told.next;
    if ((kind % 8 == 6 && kind > 127) || kind == 7 || kind == 255) forge(kind, a, b);
}

/* An empty dispatcher on each side. Its words are painted: the first call clears those of free places. */
static void empty(size_t sheets_len) {
    uint32_t *lengths = (uint32_t *)painted_room(LENGTHS_ROOM, 0, 4 * PLACES), *codes = (uint32_t *)painted_room(CODES_ROOM, 0, 4 * PLACES);
    all.lent = (lending){painted_room(SHEETS_ROOM, 0, sheets_len), lengths, codes, 0, sheets_len, PLACES, PLACES, ALL, STEPS};
    for (int i = 0; i < SIDES; i++) {
        side *s = &all.sides[i];
        s->words = (uint64_t *)painted_room(WORDS_ROOM, i, sizeof all.words);
        s->trace = painted_room(TRACE_ROOM, i, STEPS);
        memset(&s->told, 0, sizeof s->told);
        s->told.next = dispatcher_empty_on[i]();
    }
    all.is_forged = all.turns = 0;
    all.zero = 0;
    all.kept = all.sides[SHIPPED].told.next;
    memset(all.words, PAINT, sizeof all.words);
}

void try_input(input *in) {
    static const size_t sheets[8] = {PLACES * SHEET, PLACES * SHEET, PLACES * SHEET, PLACES * SHEET + 1, PLACES * SHEET - 1, SHEET, 3 * SHEET / 2, 0};
    const lending *l = &all.lent;
    size_t sheets_len = sheets[take_byte(in) % 8], asked = 3 * (size_t)take_byte(in), calls_len, len;
    const uint8_t *calls = take_bytes(in, asked, &calls_len), *text = take_text(in, &len);
    empty(sheets_len);
    for (size_t i = 0; i + 2 < calls_len; i += 3) call(calls[i], calls[i + 1], calls[i + 2], text, len);
    words_are_known(&all.sides[SHIPPED].told);
    if (!is_painted_ahead(l->sheets) || !is_painted_ahead((uint8_t *)l->lengths) || !is_painted_ahead((uint8_t *)l->codes)) stop_at("bytes ahead of what is lent to be read", &all.sides[SHIPPED].told);
}
