/* The same algorithm as the proved check, written carefully in C: what its instructions are compared with.
 * Nothing here is proved, and nothing is shared with crates/. */
#include "check.h"
#include <string.h>

enum { W = 8, ROWS = 512, SHEETS = 32, BOARDS = 16, MESSAGES = 256, EVENTS = 2 * MESSAGES, LEVELS = 8, CALLS = 1024, CHOICES = 8 };
enum { NUMBER_MOST = 511, WORDS = EVENTS * W, TRACE = 6 * MESSAGES, TEXT = 8192 };

typedef struct { uint32_t number, line; } refusal; /* number 0: none */

/* ------------------------------------------------------------------ relation rows */

static inline int test(const uint64_t *words, size_t y, size_t x) { return words[y * W + x / 64] >> (x % 64) & 1; }
static inline void mark(uint64_t *words, size_t y, size_t x) { words[y * W + x / 64] |= UINT64_C(1) << (x % 64); }
static inline void copy(uint64_t *words, size_t to, const uint64_t *other, size_t from) {
    for (size_t i = 0; i < W; i++) words[to * W + i] = other[from * W + i];
}
static inline void join(uint64_t *words, size_t to, const uint64_t *other, size_t from) {
    for (size_t i = 0; i < W; i++) words[to * W + i] |= other[from * W + i];
}
/* x is put before y, among the rows from .. to - 1 */
static void insert(uint64_t *words, size_t x, size_t y, size_t from, size_t to) {
    if (test(words, y, x)) return;
    for (size_t b = from; b < to; b++)
        if (b == y || test(words, b, y)) {
            join(words, b, words, x);
            mark(words, b, x);
        }
}

/* ------------------------------------------------------------------ the sheet file */

typedef struct {
    uint8_t kind[ROWS];
    uint16_t one[ROWS], two[ROWS];
    uint16_t start[SHEETS];
    size_t count;
} sheet;

/* three fields of a line from `at`; the position after its end, or 0 */
static size_t cut(const uint8_t *text, size_t len, size_t at, size_t from[3], size_t to[3]) {
    size_t field = 0;
    from[0] = at;
    for (size_t i = at; i < len; i++) {
        if (text[i] == ' ') {
            to[field] = i;
            if (++field == 3) return 0;
            from[field] = i + 1;
        } else if (text[i] == '\n') {
            to[field] = i;
            return field == 2 ? i + 1 : 0;
        }
    }
    return 0;
}

static inline int number_up_to(const uint8_t *text, size_t from, size_t to, size_t digits, unsigned most) {
    size_t n = to - from;
    unsigned value = 0;
    if (n == 0 || n > digits || (n > 1 && text[from] == '0')) return -1;
    for (size_t i = from; i < to; i++) {
        unsigned digit = text[i] - '0';
        if (digit > 9) return -1;
        value = value * 10 + digit;
    }
    return value <= most ? (int)value : -1;
}

static int number(const uint8_t *text, size_t from, size_t to) { return number_up_to(text, from, to, 3, NUMBER_MOST); }

static int named(const uint8_t *text, size_t from, size_t to, const char *name) {
    size_t n = strlen(name);
    return to - from == n && memcmp(text + from, name, n) == 0;
}

static int formed(uint8_t kind, int one, int two, int choices) {
    if (kind == 'M' || kind == 'P' || (choices && kind == 'A')) return 1;
    if (two != 0) return 0;
    return kind == 'S' || kind == 'C' || (kind == 'B' && one == 0);
}

/* the field of the heading that has the name, or 3 */
static size_t column_of(const uint8_t *text, const size_t from[3], const size_t to[3], const char *name) {
    for (size_t f = 0; f < 3; f++)
        if (named(text, from[f], to[f], name)) return f;
    return 3;
}

/* the columns of kind, one and two; the position after the heading, or 0 */
static size_t heading(const uint8_t *text, size_t len, size_t column[3]) {
    static const char *names[3] = {"kind", "one", "two"};
    size_t from[3], to[3], at = cut(text, len, 0, from, to);
    for (size_t c = 0; at != 0 && c < 3; c++)
        if ((column[c] = column_of(text, from, to, names[c])) == 3) return 0;
    return at;
}

/* row `row` from `at`, A rows where `choices` says so; the position after it, or 0 */
static size_t row_at(const uint8_t *text, size_t len, size_t at, const size_t column[3], int choices, sheet *s, size_t row) {
    size_t from[3], to[3], next = cut(text, len, at, from, to);
    if (next == 0 || to[column[0]] - from[column[0]] != 1) return 0;
    uint8_t kind = text[from[column[0]]];
    int one = number(text, from[column[1]], to[column[1]]), two = number(text, from[column[2]], to[column[2]]);
    if (one < 0 || two < 0 || !formed(kind, one, two, choices)) return 0;
    s->kind[row] = kind;
    s->one[row] = (uint16_t)one;
    s->two[row] = (uint16_t)two;
    return next;
}

/* the open block: its messages, the boards of its events, and their order in the words */
typedef struct { size_t messages; uint8_t boards[EVENTS]; uint64_t *words; } block;

/* the number of the refusal, or 0; a message's two rows of the order are made anew, so what the words hold does not matter */
static uint32_t place_message(block *open, size_t a, size_t b) {
    size_t send = 2 * open->messages, receive = send + 1;
    if (a >= BOARDS || b >= BOARDS || open->messages == MESSAGES) return 6;
    open->boards[send] = (uint8_t)a;
    open->boards[receive] = (uint8_t)b;
    memset(open->words + send * W, 0, 2 * W * sizeof *open->words);
    mark(open->words, receive, send);
    open->messages++;
    return 0;
}

static uint32_t place_order(block *open, size_t x, size_t y) {
    size_t events = 2 * open->messages;
    if (x >= events || y >= events || x == y || open->boards[x] != open->boards[y]) return 6;
    if (test(open->words, x, y)) return 11;
    insert(open->words, x, y, 0, events);
    return 0;
}

static uint32_t place_sheet(sheet *s, size_t n, size_t row) {
    if (n >= SHEETS || s->start[n] != 0) return 6;
    s->start[n] = (uint16_t)(row + 1);
    return 0;
}

/* the refusal's number, or 0, of a row that is well formed */
static uint32_t place(sheet *s, block *open, size_t row) {
    size_t one = s->one[row], two = s->two[row];
    if (row == 0 && s->kind[row] != 'S') return 6;
    if (s->kind[row] == 'M') return place_message(open, one, two);
    if (s->kind[row] == 'P') return place_order(open, one, two);
    open->messages = 0;
    if (s->kind[row] == 'S') return place_sheet(s, one, row);
    return one < SHEETS && two < SHEETS ? 0 : 6; /* B, C and A; what a row does not use is 0 */
}

/* refusal 7, or none */
static refusal present(const sheet *s) {
    if (s->start[0] == 0) return (refusal){7, 0};
    for (size_t i = 0; i < s->count; i++)
        if (s->kind[i] == 'C' || s->kind[i] == 'A')
            if (s->start[s->one[i]] == 0 || (s->kind[i] == 'A' && s->start[s->two[i]] == 0)) return (refusal){7, (uint32_t)i + 2};
    return (refusal){0, 0};
}

/* the words hold the order of the open block */
static refusal read(const uint8_t *text, size_t len, sheet *s, uint64_t *words, int choices) {
    size_t column[3];
    block open;
    open.messages = 0;
    open.words = words;
    if (len == 0 || len > TEXT) return (refusal){3, 0};
    size_t at = heading(text, len, column);
    if (at == 0) return (refusal){4, 1};
    memset(s->start, 0, sizeof s->start);
    for (s->count = 0; at < len; s->count++) {
        uint32_t line = (uint32_t)s->count + 2;
        at = s->count < ROWS ? row_at(text, len, at, column, choices, s, s->count) : 0;
        if (at == 0) return (refusal){5, line};
        uint32_t given = place(s, &open, s->count);
        if (given != 0) return (refusal){given, line};
    }
    return present(s);
}

/* ------------------------------------------------------------------ expansion */

typedef struct {
    size_t calls, first, count, choices;
    uint32_t options; /* bit k: A row k takes its second sheet */
    uint64_t *words;
    uint64_t past[BOARDS * W];
    uint8_t boards[EVENTS];
} walk;

static void open_block(walk *w) {
    for (size_t x = 2 * w->first; x < 2 * w->count; x++) {
        join(w->past, w->boards[x], w->words, x);
        mark(w->past, w->boards[x], x);
    }
    w->first = w->count;
}

static void message(walk *w, uint8_t a, uint8_t b) {
    size_t send = 2 * w->count, receive = send + 1;
    w->boards[send] = a;
    w->boards[receive] = b;
    copy(w->words, send, w->past, a);
    copy(w->words, receive, w->past, b);
    join(w->words, receive, w->words, send);
    mark(w->words, receive, send);
    w->count++;
}

static refusal walk_sheets(const sheet *s, walk *w) {
    size_t from[LEVELS], level = 0;
    for (size_t row = s->start[0];;) {
        uint32_t line = (uint32_t)row + 2;
        switch (row < s->count ? s->kind[row] : 'S') {
        case 'M':
            if (w->count == MESSAGES) return (refusal){10, line};
            message(w, s->one[row], s->two[row]);
            row++;
            break;
        case 'P':
            insert(w->words, 2 * w->first + s->one[row], 2 * w->first + s->two[row], 2 * w->first, 2 * w->count);
            row++;
            break;
        case 'B': /* an empty block costs its row */
            open_block(w);
            do row++;
            while (row < s->count && s->kind[row] == 'B');
            break;
        case 'C':
        case 'A':
            if (level == LEVELS) return (refusal){8, line};
            if (w->calls == CALLS) return (refusal){9, line};
            if (s->kind[row] == 'A' && w->choices == CHOICES) return (refusal){13, line};
            w->calls++;
            open_block(w);
            from[level++] = row;
            row = s->start[s->kind[row] == 'A' && w->options >> w->choices++ & 1 ? s->two[row] : s->one[row]];
            break;
        default:
            if (level == 0) return (refusal){0, 0};
            open_block(w);
            row = from[--level] + 1;
        }
    }
}

static refusal expand(const sheet *s, walk *w, uint32_t options) {
    memset(w->past, 0, sizeof w->past);
    w->calls = w->first = w->count = w->choices = 0;
    w->options = options;
    refusal r = walk_sheets(s, w);
    if (r.number) return r;
    for (size_t x = 0; x < 2 * w->count; x++)
        if (test(w->words, x, x)) return (refusal){11, 0};
    return r;
}

/* ------------------------------------------------------------------ races */

enum rule { BY_EVENT, BY_ORIGIN, NEVER };
static const enum rule rules[6] = {BY_EVENT, NEVER, BY_ORIGIN, NEVER, BY_ORIGIN, BY_ORIGIN};

/* the bits of the sends in a word */
static const uint64_t sends = UINT64_C(0x5555555555555555);

/* the events of word i that race with e: before its receive, on its board, and not, or with their send not, at or before its send */
static inline uint64_t race_word(const walk *w, const uint64_t *on, enum rule rule, size_t e, size_t i) {
    size_t send = 2 * e, receive = send + 1;
    uint64_t reached = w->words[send * W + i];
    if (i == send / 64) reached |= UINT64_C(1) << (send % 64);
    uint64_t outside = ~reached;
    if (rule == BY_ORIGIN) {
        outside &= sends;
        outside |= outside << 1;
    }
    return w->words[receive * W + i] & on[w->boards[receive] * W + i] & outside;
}

static int lowest_race(const walk *w, enum rule rule, size_t *e, size_t *x) {
    uint64_t on[BOARDS * W];
    if (rule == NEVER) return 0;
    memset(on, 0, sizeof on);
    for (size_t k = 0; k < 2 * w->count; k++) mark(on, w->boards[k], k);
    for (*e = 0; *e < w->count; ++*e)
        for (size_t i = 0; i < W; i++) {
            uint64_t word = race_word(w, on, rule, *e, i);
            if (word) return *x = 64 * i + (size_t)__builtin_ctzll(word), 1;
        }
    return 0;
}

/* ------------------------------------------------------------------ run state and step rules */

enum to_send { SEND_ALWAYS, NO_EARLIER, CHANNEL_EMPTY };
enum to_deliver { DELIVER_ALWAYS, IN_ORDER, ALONE };
typedef struct { int eager; enum to_send to_send; enum to_deliver to_deliver; } channel;
static const channel channels[6] = {
    {1, SEND_ALWAYS, DELIVER_ALWAYS}, {0, SEND_ALWAYS, DELIVER_ALWAYS}, {1, SEND_ALWAYS, IN_ORDER},
    {0, SEND_ALWAYS, IN_ORDER},       {1, NO_EARLIER, DELIVER_ALWAYS},  {1, CHANNEL_EMPTY, ALONE},
};

typedef struct { uint64_t done[W], way[W], held[BOARDS][W]; } run;
typedef struct { uint64_t on[BOARDS * W], to[BOARDS * W]; } masks;

static int ready(const walk *w, const masks *k, const run *r, size_t x) {
    const uint64_t *before = w->words + x * W, *on = k->on + w->boards[x] * W;
    if (r->done[x / 64] >> (x % 64) & 1) return 0;
    for (size_t i = 0; i < W; i++)
        if (before[i] & on[i] & ~r->done[i]) return 0;
    return 1;
}

static int has(const uint64_t *row, size_t x) { return row[x / 64] >> (x % 64) & 1; }
static int is_empty(const uint64_t *row) {
    uint64_t any = 0;
    for (size_t i = 0; i < W; i++) any |= row[i];
    return any == 0;
}

static int may_send(const walk *w, const masks *k, channel c, const run *r, size_t m) {
    if (!ready(w, k, r, 2 * m) || (c.eager && !is_empty(r->held[w->boards[2 * m]]))) return 0;
    if (c.to_send == NO_EARLIER) {
        const uint64_t *before = w->words + (2 * m + 1) * W;
        for (size_t i = 0; i < W; i++)
            if (before[i] & r->way[i]) return 0;
    }
    return c.to_send != CHANNEL_EMPTY || is_empty(r->way);
}

static int may_deliver(const walk *w, const masks *k, channel c, const run *r, size_t m) {
    size_t send = 2 * m, target = w->boards[send + 1];
    if (!has(r->way, send) || (c.eager && !is_empty(r->held[target]))) return 0;
    if (c.to_deliver == DELIVER_ALWAYS) return 1;
    uint64_t others[W];
    memcpy(others, r->way, sizeof others);
    others[send / 64] &= ~(UINT64_C(1) << (send % 64));
    if (c.to_deliver == ALONE) return is_empty(others);
    for (size_t i = 0; i < W; i++)
        if (w->words[send * W + i] & others[i] & k->to[target * W + i]) return 0;
    return 1;
}

static int may_consume(const walk *w, const masks *k, const run *r, size_t m) {
    return has(r->held[w->boards[2 * m + 1]], 2 * m) && ready(w, k, r, 2 * m + 1);
}

/* ------------------------------------------------------------------ the schedule */

/* the messages not yet sent, as bits of their sends */
static void unsent(const run *r, uint64_t row[W]) {
    for (size_t i = 0; i < W; i++) row[i] = ~r->done[i] & sends;
}

/* of those, the sends before e's, and e's */
static void needed(const walk *w, size_t e, uint64_t row[W]) {
    uint64_t own = row[2 * e / 64] & UINT64_C(1) << (2 * e % 64);
    for (size_t i = 0; i < W; i++) row[i] &= w->words[2 * e * W + i];
    row[2 * e / 64] |= own;
}

static int choose(const walk *w, const masks *k, channel c, const run *r, const uint64_t anywhere[W], size_t e, uint8_t *kind, size_t *message) {
    size_t n = w->count, m;
    uint64_t row[W];
#define EACH(test) \
    for (size_t i = 0; i < W; i++) \
        for (uint64_t bits = row[i]; bits; bits &= bits - 1) { \
            m = (64 * i + (size_t)__builtin_ctzll(bits)) / 2; \
            if (m < n && (test)) return *message = m, 1; \
        }
    *kind = 2;
    memcpy(row, anywhere, sizeof row);
    EACH(may_consume(w, k, r, m))
    *kind = 1;
    if (may_deliver(w, k, c, r, e)) return *message = e, 1;
    for (size_t i = 0; i < W; i++) row[i] = r->way[i] & w->words[2 * e * W + i] >> 1; /* whose receive is before e's send */
    EACH(may_deliver(w, k, c, r, m))
    *kind = 0;
    unsent(r, row);
    needed(w, e, row);
    EACH(may_send(w, k, c, r, m))
    *kind = 1;
    memcpy(row, r->way, sizeof row);
    EACH(may_deliver(w, k, c, r, m))
    *kind = 0;
    unsent(r, row);
    EACH(may_send(w, k, c, r, m))
#undef EACH
    return 0;
}

static void flip(uint64_t *row, size_t x) { row[x / 64] ^= UINT64_C(1) << (x % 64); }

static void boards_masks(const walk *w, masks *k) {
    memset(k, 0, sizeof *k);
    for (size_t m = 0; m < w->count; m++) {
        mark(k->on, w->boards[2 * m], 2 * m);
        mark(k->on, w->boards[2 * m + 1], 2 * m + 1);
        mark(k->to, w->boards[2 * m + 1], 2 * m);
    }
}

static void take(const walk *w, run *r, uint8_t kind, size_t m) {
    uint64_t *held = r->held[w->boards[2 * m + 1]];
    if (kind == 0) flip(r->done, 2 * m), flip(r->way, 2 * m);
    if (kind == 1) flip(r->way, 2 * m), flip(held, 2 * m);
    if (kind == 2) flip(held, 2 * m), flip(r->done, 2 * m + 1);
}

static size_t schedule(const walk *w, channel c, size_t e, uint8_t *trace) {
    masks k;
    run r;
    uint64_t anywhere[W] = {0}; /* what the buffers hold together */
    boards_masks(w, &k);
    memset(&r, 0, sizeof r);
    for (size_t i = 0; i < 3 * w->count; i++) {
        uint8_t kind;
        size_t m;
        if (!choose(w, &k, c, &r, anywhere, e, &kind, &m)) return i;
        take(w, &r, kind, m);
        if (kind) flip(anywhere, 2 * m);
        trace[2 * i] = kind;
        trace[2 * i + 1] = (uint8_t)m;
    }
    return 3 * w->count;
}

/* ------------------------------------------------------------------ a trace from another tool */

static int may(const walk *w, const masks *k, channel c, const run *r, uint8_t kind, size_t m) {
    if (m >= w->count) return 0;
    switch (kind) {
    case 0: return may_send(w, k, c, r, m);
    case 1: return may_deliver(w, k, c, r, m);
    case 2: return may_consume(w, k, r, m);
    default: return 0;
    }
}

static trace_check_answer told(uint32_t word, uint32_t one, uint32_t two) {
    trace_check_answer a = {word, one, two, {0}};
    memset(a.waits, 0xff, sizeof a.waits);
    return a;
}

/* the lowest event before x on its board that is not done */
static uint16_t waits_for(const walk *w, const masks *k, const run *r, size_t x) {
    const uint64_t *before = w->words + x * W, *on = k->on + w->boards[x] * W;
    for (size_t i = 0; i < W; i++) {
        uint64_t left = before[i] & on[i] & ~r->done[i];
        if (left) return (uint16_t)(64 * i + (size_t)__builtin_ctzll(left));
    }
    return TRACE_CHECK_NO_WAIT;
}

/* for each board, what the lowest message held there whose receive is unready waits for */
static void board_waits(const walk *w, const masks *k, const run *r, uint16_t *waits) {
    for (size_t b = 0; b < BOARDS; b++)
        for (size_t i = 0; i < W && waits[b] == TRACE_CHECK_NO_WAIT; i++)
            for (uint64_t bits = r->held[b][i]; bits && waits[b] == TRACE_CHECK_NO_WAIT; bits &= bits - 1)
                waits[b] = waits_for(w, k, r, 64 * i + (size_t)__builtin_ctzll(bits) + 1);
}

/* the first n bits of the row are set */
static int all_set(const uint64_t *row, size_t n) {
    for (size_t i = 0; i < n / 64; i++)
        if (row[i] != UINT64_MAX) return 0;
    return n % 64 == 0 || (~row[n / 64] & ((UINT64_C(1) << n % 64) - 1)) == 0;
}

/* where a run stands: finished, stuck with what each board waits for, or open */
static trace_check_answer stand(const walk *w, const masks *k, channel c, const run *r) {
    if (all_set(r->done, 2 * w->count)) return told(0, 0, 0);
    for (size_t m = 0; m < w->count; m++)
        if (may_send(w, k, c, r, m) || may_deliver(w, k, c, r, m) || may_consume(w, k, r, m)) return told(2, 0, 0);
    trace_check_answer a = told(1, 0, 0);
    board_waits(w, k, r, a.waits);
    return a;
}

static trace_check_answer replay(const walk *w, channel c, const uint8_t *trace, size_t len) {
    masks k;
    run r;
    boards_masks(w, &k);
    memset(&r, 0, sizeof r);
    for (size_t i = 0; i < len / 2; i++) {
        if (!may(w, &k, c, &r, trace[2 * i], trace[2 * i + 1])) return told(3, (uint32_t)i, 0);
        take(w, &r, trace[2 * i], trace[2 * i + 1]);
    }
    return stand(w, &k, c, &r);
}

trace_check_answer careful_trace_check(const uint8_t *text, size_t text_len, uint32_t code, uint64_t *scratch, size_t scratch_len,
                                       const uint8_t *trace, size_t trace_len) {
    sheet s;
    walk w;
    if (code > 5) return told(4, 1, 0);
    if (scratch_len < WORDS) return told(4, 2, 0);
    trace_check_answer a = told(4, 12, 0);
    if (trace_len % 2 == 0 && trace_len <= TRACE) {
        refusal r = read(text, text_len, &s, scratch, 0);
        w.words = scratch;
        if (!r.number) r = expand(&s, &w, 0);
        a = r.number ? told(4, r.number, r.line) : replay(&w, channels[code], trace, trace_len);
    }
    memset(scratch, 0, WORDS * 8);
    return a;
}

/* ------------------------------------------------------------------ the check */

static channel_check_answer judge(const uint8_t *text, size_t len, uint32_t code, uint64_t *scratch, uint8_t *trace) {
    sheet s;
    walk w;
    size_t e, x;
    refusal r = read(text, len, &s, scratch, 0);
    w.words = scratch;
    if (!r.number) r = expand(&s, &w, 0);
    if (r.number) return (channel_check_answer){2, r.number, r.line, 0};
    if (rules[code] == NEVER || !lowest_race(&w, rules[code], &e, &x)) return (channel_check_answer){0, 0, 0, 0};
    size_t steps = schedule(&w, channels[code], e, trace);
    return (channel_check_answer){1, (uint32_t)e, (uint32_t)x, (uint32_t)steps};
}

channel_check_answer careful_check(const uint8_t *text, size_t text_len, uint32_t code, uint64_t *scratch, size_t scratch_len,
                                   uint8_t *trace, size_t trace_len) {
    if (code > 5) return (channel_check_answer){2, 1, 0, 0};
    if (scratch_len < WORDS || trace_len < TRACE) return (channel_check_answer){2, 2, 0, 0};
    channel_check_answer a = judge(text, text_len, code, scratch, trace);
    memset(scratch, 0, WORDS * 8);
    return a;
}

/* ------------------------------------------------------------------ rounds */

/* A second walk goes on where the first ended. One round's race is looked for between them; its steps need one more walk. */
static rounds_check_answer judge_rounds(const uint8_t *text, size_t len, uint32_t code, uint64_t *scratch, uint8_t *trace) {
    sheet s;
    walk w;
    size_t e, x;
    refusal r = read(text, len, &s, scratch, 0);
    w.words = scratch;
    if (!r.number) r = expand(&s, &w, 0);
    if (r.number) return (rounds_check_answer){2, r.number, r.line, 0, 0};
    int once = lowest_race(&w, rules[code], &e, &x);
    open_block(&w);
    r = walk_sheets(&s, &w);
    if (r.number) return (rounds_check_answer){2, r.number, r.line, 0, 0};
    if (once) expand(&s, &w, 0);
    else if (!lowest_race(&w, rules[code], &e, &x)) return (rounds_check_answer){0, 0, 0, 0, 0};
    size_t steps = schedule(&w, channels[code], e, trace);
    return (rounds_check_answer){1, (uint32_t)e, (uint32_t)x, (uint32_t)steps, once ? 1 : 2};
}

rounds_check_answer careful_rounds_check(const uint8_t *text, size_t text_len, uint32_t code, uint64_t *scratch, size_t scratch_len,
                                         uint8_t *trace, size_t trace_len) {
    if (code > 5) return (rounds_check_answer){2, 1, 0, 0, 0};
    if (scratch_len < WORDS || trace_len < TRACE) return (rounds_check_answer){2, 2, 0, 0, 0};
    rounds_check_answer a = judge_rounds(text, text_len, code, scratch, trace);
    memset(scratch, 0, WORDS * 8);
    return a;
}

/* ------------------------------------------------------------------ choices */

/* Every list is walked, m ahead of n; the first that locks is remembered, and walked once more for its steps. */
static choice_check_answer judge_lists(const uint8_t *text, size_t len, uint32_t code, uint64_t *scratch, uint8_t *trace) {
    sheet s;
    walk w;
    uint32_t options = 0;
    choice_check_answer lock = {0, 0, 0, 0, 0, 0};
    refusal r = read(text, len, &s, scratch, 1);
    w.words = scratch;
    if (r.number) return (choice_check_answer){2, r.number, r.line, 0, 0, 0};
    for (;;) {
        size_t e, x;
        r = expand(&s, &w, options);
        if (r.number) return (choice_check_answer){2, r.number, r.line, 0, 0, 0};
        if (!lock.word && rules[code] != NEVER && lowest_race(&w, rules[code], &e, &x))
            lock = (choice_check_answer){1, (uint32_t)e, (uint32_t)x, 0, (uint32_t)w.choices, options};
        size_t last = w.choices;
        while (last > 0 && options >> (last - 1) & 1) last--;
        if (last == 0) break;
        options = (options & ((UINT32_C(1) << last) - 1)) | UINT32_C(1) << (last - 1);
    }
    if (!lock.word) return lock;
    if (w.choices > 0) expand(&s, &w, lock.choices);
    lock.three = (uint32_t)schedule(&w, channels[code], lock.one, trace);
    return lock;
}

choice_check_answer careful_choice_check(const uint8_t *text, size_t text_len, uint32_t code, uint64_t *scratch, size_t scratch_len,
                                         uint8_t *trace, size_t trace_len) {
    if (code > 5) return (choice_check_answer){2, 1, 0, 0, 0, 0};
    if (scratch_len < WORDS || trace_len < TRACE) return (choice_check_answer){2, 2, 0, 0, 0, 0};
    choice_check_answer a = judge_lists(text, text_len, code, scratch, trace);
    memset(scratch, 0, WORDS * 8);
    return a;
}

/* ------------------------------------------------------------------ the monitor */

/* the sheet of a monitor's call, walked into w; the refusal, with the scratch cleared but on 1 and 2 */
static refusal watch(const uint8_t *text, size_t len, uint32_t code, uint64_t *scratch, size_t scratch_len, walk *w) {
    sheet s;
    if (code > 5) return (refusal){1, 0};
    if (scratch_len < WORDS) return (refusal){2, 0};
    refusal r = read(text, len, &s, scratch, 0);
    w->words = scratch;
    if (!r.number) r = expand(&s, w, 0);
    return r;
}

static void leave(refusal r, uint64_t *scratch) {
    if (r.number == 0 || r.number > 2) memset(scratch, 0, WORDS * 8);
}

monitor_answer careful_monitor_open(const uint8_t *text, size_t text_len, uint32_t code, uint64_t *scratch, size_t scratch_len) {
    walk w;
    monitor_answer a = {0};
    refusal r = watch(text, text_len, code, scratch, scratch_len, &w);
    if (r.number) a.word = 2, a.one = r.number, a.two = r.line;
    else a.next.code = code;
    leave(r, scratch);
    return a;
}

static run run_of(const monitor *state) {
    run r;
    memcpy(r.done, state->done, sizeof r.done);
    memcpy(r.way, state->way, sizeof r.way);
    memcpy(r.held, state->buffers, sizeof r.held);
    return r;
}

monitor_answer careful_monitor_step(monitor state, uint32_t kind, uint32_t message, const uint8_t *text, size_t text_len,
                                    uint64_t *scratch, size_t scratch_len) {
    walk w;
    monitor_answer a = {1, 0, 0, state};
    refusal r = watch(text, text_len, state.code, scratch, scratch_len, &w);
    if (r.number) {
        a.word = 2, a.one = r.number, a.two = r.line;
    } else if (kind < 3 && message < w.count) {
        masks k;
        run now = run_of(&state);
        boards_masks(&w, &k);
        if (may(&w, &k, channels[state.code], &now, (uint8_t)kind, message)) {
            take(&w, &now, (uint8_t)kind, message);
            memcpy(a.next.done, now.done, sizeof now.done);
            memcpy(a.next.way, now.way, sizeof now.way);
            memcpy(a.next.buffers, now.held, sizeof now.held);
            a.word = 0;
        }
    }
    leave(r, scratch);
    return a;
}

static unsigned messages_in(const uint64_t *row) {
    unsigned n = 0;
    for (size_t i = 0; i < W; i++) n += (unsigned)__builtin_popcountll(row[i] & sends);
    return n;
}

monitor_answer careful_monitor_switch(monitor state, uint32_t code, const uint8_t *text, size_t text_len, uint64_t *scratch,
                                      size_t scratch_len) {
    walk w;
    monitor_answer a = {0, 0, 0, state};
    refusal r = watch(text, text_len, code, scratch, scratch_len, &w);
    int crowded = 0;
    for (size_t b = 0; b < BOARDS; b++) crowded |= messages_in(state.buffers[b].held) >= 2;
    if (!r.number && ((channels[code].eager && crowded) || (code == 5 && messages_in(state.way) >= 2))) r.number = 14;
    if (r.number) a.word = 2, a.one = r.number, a.two = r.line;
    else a.next.code = code;
    leave(r, scratch);
    return a;
}

monitor_standing_answer careful_monitor_standing(monitor state, const uint8_t *text, size_t text_len, uint64_t *scratch, size_t scratch_len) {
    walk w;
    masks k;
    refusal r = watch(text, text_len, state.code, scratch, scratch_len, &w);
    trace_check_answer t = told(3, r.number, r.line);
    if (!r.number) {
        run now = run_of(&state);
        boards_masks(&w, &k);
        t = stand(&w, &k, channels[state.code], &now);
    }
    leave(r, scratch);
    monitor_standing_answer a = {t.word, t.one, t.two, {0}};
    memcpy(a.waits, t.waits, sizeof a.waits);
    return a;
}

/* ------------------------------------------------------------------ the messages of a sheet */

/* The walk for its messages alone, with no order: the M row of each, until so many are met. */
static refusal meet(const sheet *s, size_t asked, uint16_t *rows, size_t *met) {
    size_t from[LEVELS], level = 0, calls = 0, row = s->start[0];
    for (*met = 0; *met < asked;) {
        while (row < s->count && (s->kind[row] == 'B' || s->kind[row] == 'P')) row++;
        uint32_t line = (uint32_t)row + 2;
        uint8_t kind = row < s->count ? s->kind[row] : 'S';
        if (kind == 'M') {
            if (*met == MESSAGES) return (refusal){10, line};
            rows[(*met)++] = (uint16_t)row++;
        } else if (kind == 'C') {
            if (level == LEVELS) return (refusal){8, line};
            if (calls++ == CALLS) return (refusal){9, line};
            from[level++] = row;
            row = s->start[s->one[row]];
        } else {
            if (level == 0) break;
            row = from[--level] + 1;
        }
    }
    return (refusal){0, 0};
}

sheet_messages_answer careful_sheet_messages(const uint8_t *text, size_t text_len, uint64_t *scratch, size_t scratch_len, uint16_t *output,
                                             size_t output_len) {
    sheet s;
    uint16_t rows[MESSAGES];
    size_t count = 0;
    if (scratch_len < WORDS || output_len < 3 * MESSAGES) return (sheet_messages_answer){1, 2, 0};
    refusal r = read(text, text_len, &s, scratch, 0);
    if (!r.number) r = meet(&s, SIZE_MAX, rows, &count);
    memset(scratch, 0, WORDS * 8);
    if (r.number) return (sheet_messages_answer){1, r.number, r.line};
    for (size_t m = 0; m < count; m++) {
        output[3 * m] = rows[m] + 2;
        output[3 * m + 1] = s.one[rows[m]];
        output[3 * m + 2] = s.two[rows[m]];
    }
    return (sheet_messages_answer){0, (uint32_t)count, 0};
}

/* ------------------------------------------------------------------ the cure */

/* what stands directly before each send, on its board: the row of its receive, which the cured order does not need, takes it */
static void cover_rows(walk *w) {
    uint64_t on[BOARDS * W];
    memset(on, 0, sizeof on);
    for (size_t k = 0; k < 2 * w->count; k++) mark(on, w->boards[k], k);
    for (size_t e = 0; e < w->count; e++) {
        const uint64_t *row = w->words + 2 * e * W, *mask = on + w->boards[2 * e] * W;
        uint64_t hidden[W] = {0};
        for (size_t i = 0; i < W; i++)
            for (uint64_t left = row[i] & sends; left; left &= left - 1)
                join(hidden, 0, w->words, 64 * i + (size_t)__builtin_ctzll(left));
        for (size_t i = 0; i < W; i++) w->words[(2 * e + 1) * W + i] = row[i] & ~(hidden[i] | (row[i] >> 1 & sends)) & mask[i];
    }
}

static size_t put_number(uint8_t *out, unsigned n) {
    if (n < 10) return out[0] = (uint8_t)('0' + n), 1;
    if (n < 100) return out[0] = (uint8_t)('0' + n / 10), out[1] = (uint8_t)('0' + n % 10), 2;
    out[0] = (uint8_t)('0' + n / 100);
    out[1] = (uint8_t)('0' + n / 10 % 10);
    out[2] = (uint8_t)('0' + n % 10);
    return 3;
}

static size_t put_row(uint8_t *out, uint8_t letter, unsigned one, unsigned two) {
    size_t at = 2;
    out[0] = letter;
    out[1] = ' ';
    at += put_number(out + at, one);
    out[at++] = ' ';
    at += put_number(out + at, two);
    out[at++] = '\n';
    return at;
}

/* the P rows, counted: each is a bit in the row of a receive */
static size_t count_orders(const walk *w) {
    size_t n = 0;
    for (size_t e = 0; e < w->count; e++) {
        const uint64_t *row = w->words + (2 * e + 1) * W;
        for (size_t i = 0; i < W; i++)
            if (row[i]) n += (size_t)__builtin_popcountll(row[i]);
    }
    return n;
}

/* the P rows of the events of word i, by x and then y: from the first message with one of them before its send to the last */
static size_t put_orders(const walk *w, size_t i, uint8_t *out) {
    const uint64_t *column = w->words + W + i; /* word i of e's receive stands 2 W e words on */
    uint64_t events = 0;
    size_t at = 0, first = w->count, end = 0;
    for (size_t e = 0; e < w->count; e++)
        if (column[2 * W * e]) {
            events |= column[2 * W * e];
            if (e < first) first = e;
            end = e + 1;
        }
    for (; events; events &= events - 1) {
        unsigned b = (unsigned)__builtin_ctzll(events);
        for (size_t e = first; e < end; e++)
            if (column[2 * W * e] >> b & 1) at += put_row(out + at, 'P', 64 * (unsigned)i + b, (unsigned)(2 * e));
    }
    return at;
}

static cure_sheet_answer cure(const uint8_t *text, size_t len, uint64_t *scratch, uint8_t *output) {
    static const char heading[] = "kind one two\n";
    sheet s;
    walk w;
    refusal r = read(text, len, &s, scratch, 0);
    w.words = scratch;
    if (!r.number) r = expand(&s, &w, 0);
    if (r.number) return (cure_sheet_answer){1, r.number, r.line};
    cover_rows(&w);
    size_t at = sizeof heading - 1;
    if (1 + w.count + count_orders(&w) > ROWS) return (cure_sheet_answer){1, 15, 0};
    memcpy(output, heading, at);
    at += put_row(output + at, 'S', 0, 0);
    for (size_t m = 0; m < w.count; m++) at += put_row(output + at, 'M', w.boards[2 * m], w.boards[2 * m + 1]);
    for (size_t i = 0; i < W; i++) at += put_orders(&w, i, output + at);
    return (cure_sheet_answer){0, (uint32_t)at, 0};
}

cure_sheet_answer careful_cure_sheet(const uint8_t *text, size_t text_len, uint64_t *scratch, size_t scratch_len, uint8_t *output,
                                     size_t output_len) {
    if (scratch_len < WORDS || output_len < 8192) return (cure_sheet_answer){1, 2, 0};
    cure_sheet_answer a = cure(text, text_len, scratch, output);
    memset(scratch, 0, WORDS * 8);
    return a;
}

/* ------------------------------------------------------------------ the dispatcher */

enum { PLACES = 8, SHEET = TEXT };

dispatcher careful_dispatcher_empty(void) { return (dispatcher){0}; }

/* bit p: a job is in place p; the queue is read as far as each job has a place of its own, and is as long */
static unsigned places_of(dispatcher_queue *q) {
    unsigned taken = 0;
    for (uint32_t i = 0; i < PLACES && i < q->held; i++) {
        if (q->jobs[i].place >= PLACES || taken >> q->jobs[i].place & 1) {
            q->held = i;
            break;
        }
        taken |= 1u << q->jobs[i].place;
    }
    return taken;
}

/* free places that stand together are cleared at once */
static void clear_free(unsigned taken, uint64_t *words) {
    for (size_t p = 0, end; p < PLACES; p = end + 1) {
        for (end = p; end < PLACES && !(taken >> end & 1);) end++;
        if (p < end) memset(words + p * WORDS, 0, (end - p) * WORDS * 8);
    }
}

static dispatcher_answer *saying(dispatcher_answer *a, uint32_t word, uint32_t one, uint32_t two) {
    a->word = word;
    a->one = one;
    a->two = two;
    return a;
}

/* the sheet in place p, read and walked into its words; refused or held */
static void take_in(dispatcher_answer *a, size_t p, uint32_t code, unsigned taken, const uint8_t *text, size_t len, uint64_t *words) {
    sheet s;
    walk w;
    dispatcher *d = &a->next;
    refusal r = read(text, len, &s, words + p * WORDS, 0);
    w.words = words + p * WORDS;
    if (!r.number) r = expand(&s, &w, 0);
    if (r.number) {
        clear_free(taken, words);
        saying(a, 5, r.number, r.line);
        return;
    }
    d->queue.jobs[d->queue.held++] = (dispatcher_job){d->given, 0, (uint16_t)w.count, (uint8_t)p, (uint8_t)code};
    memset(&d->races[p], 0, sizeof d->races[p]);
    memset(&d->boards[p], 0, sizeof d->boards[p]);
    memcpy(d->boards[p].on, w.boards, 2 * w.count);
    clear_free(taken | 1u << p, words);
    saying(a, 0, d->given++, (uint32_t)p);
}

dispatcher_answer careful_dispatcher_admit(dispatcher state, const uint8_t *sheets, size_t sheets_len, const uint32_t *lengths,
                                           size_t lengths_len, const uint32_t *codes, size_t codes_len, uint64_t *words, size_t words_len) {
    dispatcher_answer a = {0, 0, 0, {0, 0, 0, 0}, state};
    unsigned taken = places_of(&a.next.queue);
    size_t p = 0;
    while (p < PLACES && taken >> p & 1) p++;
    if (p == PLACES) return *saying(&a, 5, words_len < PLACES * WORDS ? 2 : 16, 0);
    uint32_t code = p < codes_len ? codes[p] : 6, len = p < lengths_len ? lengths[p] : 0;
    if (code > 5) return *saying(&a, 5, 1, 0);
    if (words_len < PLACES * WORDS) return *saying(&a, 5, 2, 0);
    if (state.given > 65535 || len > SHEET) {
        clear_free(taken, words);
        return *saying(&a, 5, state.given > 65535 ? 16 : 3, 0);
    }
    size_t from = p * SHEET < sheets_len ? p * SHEET : sheets_len, most = sheets_len - from;
    take_in(&a, p, code, taken, sheets + from, len < most ? len : most, words);
    return a;
}

/* the lowest event that races with message t / 2, in the half of its row that turn t looks at */
static void look(dispatcher_race *race, const uint64_t *words, const uint8_t *boards, size_t count, enum rule rule, size_t t) {
    size_t e = t / 2, send = 2 * e, receive = send + 1, from = t % 2 ? W / 2 : 0, to = t % 2 ? W : W / 2;
    if (race->found || rule == NEVER || e >= count) return;
    for (size_t i = from; i < to; i++) {
        uint64_t reached = words[send * W + i];
        if (i == send / 64) reached |= UINT64_C(1) << (send % 64);
        uint64_t outside = ~reached;
        if (rule == BY_ORIGIN) {
            outside &= sends;
            outside |= outside << 1;
        }
        for (uint64_t bits = words[receive * W + i] & outside; bits; bits &= bits - 1) {
            size_t x = 64 * i + (size_t)__builtin_ctzll(bits);
            if (x < 2 * count && boards[x] == boards[receive]) {
                *race = (dispatcher_race){1, (uint32_t)e, (uint32_t)x};
                return;
            }
        }
    }
}

/* the check's answer of a job, from the race that its turns found */
static channel_check_answer conclude(const dispatcher_race *race, uint64_t *words, const uint8_t *boards, const dispatcher_job *j, uint8_t *trace) {
    walk w;
    if (!race->found || race->message >= j->count) return (channel_check_answer){0, 0, 0, 0};
    w.words = words;
    w.count = j->count;
    memcpy(w.boards, boards, sizeof w.boards);
    for (size_t x = 0; x < 2 * w.count; x++)
        if (boards[x] >= BOARDS) return (channel_check_answer){0, 0, 0, 0};
    size_t steps = schedule(&w, channels[j->code], race->message, trace);
    return (channel_check_answer){1, race->message, race->event, (uint32_t)steps};
}

dispatcher_answer careful_dispatcher_turn(dispatcher state, const uint8_t *sheets, size_t sheets_len, const uint32_t *lengths,
                                          size_t lengths_len, const uint32_t *codes, size_t codes_len, uint64_t *words, size_t words_len,
                                          uint8_t *trace, size_t trace_len) {
    (void)sheets, (void)sheets_len, (void)lengths, (void)lengths_len, (void)codes, (void)codes_len;
    dispatcher_answer a = {0, 0, 0, {0, 0, 0, 0}, state};
    dispatcher *d = &a.next;
    if (words_len < PLACES * WORDS || trace_len < TRACE) return *saying(&a, 5, 2, 0);
    unsigned taken = places_of(&d->queue);
    if (d->queue.held == 0) {
        clear_free(taken, words);
        return *saying(&a, 1, 0, 0);
    }
    dispatcher_job j = d->queue.jobs[0];
    uint64_t *own = words + j.place * WORDS;
    for (size_t i = 1; i < d->queue.held; i++) d->queue.jobs[i - 1] = d->queue.jobs[i];
    if (j.turns == 2u * j.count) {
        a.answer = conclude(&d->races[j.place], own, d->boards[j.place].on, &j, trace);
        d->queue.held--;
        clear_free(taken & ~(1u << j.place), words);
        return *saying(&a, 3, j.number, 0);
    }
    look(&d->races[j.place], own, d->boards[j.place].on, j.count, rules[j.code % 6], j.turns);
    j.turns++;
    d->queue.jobs[d->queue.held - 1] = j;
    clear_free(taken, words);
    return *saying(&a, 2, j.number, 0);
}

dispatcher_answer careful_dispatcher_cancel(dispatcher state, uint32_t number, const uint8_t *sheets, size_t sheets_len, const uint32_t *lengths,
                                            size_t lengths_len, const uint32_t *codes, size_t codes_len, uint64_t *words, size_t words_len) {
    (void)sheets, (void)sheets_len, (void)lengths, (void)lengths_len, (void)codes, (void)codes_len;
    dispatcher_answer a = {0, 0, 0, {0, 0, 0, 0}, state};
    dispatcher_queue *q = &a.next.queue;
    if (words_len < PLACES * WORDS) return *saying(&a, 5, 2, 0);
    unsigned taken = places_of(q);
    uint32_t at = 0;
    while (at < q->held && q->jobs[at].number != number) at++;
    if (at < q->held) {
        taken &= ~(1u << q->jobs[at].place);
        for (uint32_t i = at + 1; i < q->held; i++) q->jobs[i - 1] = q->jobs[i];
        q->held--;
        saying(&a, 4, number, 0);
    } else {
        saying(&a, 5, 17, 0);
    }
    clear_free(taken, words);
    return a;
}

/* ------------------------------------------------------------------ permitted senders */

enum { RULES = 64 };
typedef struct { uint16_t from, to; uint8_t verdict; } rule_record;
typedef struct { rule_record rules[RULES]; size_t count; } sender_table;

static refusal read_table(const uint8_t *table, size_t len, sender_table *t) {
    size_t from[3], to[3];
    if (len == 0 || len > TEXT) return (refusal){18, 0};
    size_t at = cut(table, len, 0, from, to);
    if (at == 0 || !named(table, from[0], to[0], "from") || !named(table, from[1], to[1], "to") || !named(table, from[2], to[2], "verdict"))
        return (refusal){18, 1};
    for (t->count = 0; at < len; t->count++) {
        uint32_t line = (uint32_t)t->count + 2;
        if (t->count == RULES) return (refusal){18, line};
        size_t next = cut(table, len, at, from, to);
        if (next == 0) return (refusal){18, line};
        int a = number_up_to(table, from[0], to[0], 5, 65535), b = number_up_to(table, from[1], to[1], 5, 65535);
        int v = number_up_to(table, from[2], to[2], 5, 1);
        if (a < 0 || b < 0 || v < 0) return (refusal){18, line};
        t->rules[t->count] = (rule_record){(uint16_t)a, (uint16_t)b, (uint8_t)v};
        at = next;
    }
    return (refusal){0, 0};
}

/* sender by sender, the receivers in some rule and those in two as sets */
static senders_check_answer judge_table(const sender_table *t) {
    for (unsigned a = 0; a < BOARDS; a++) {
        unsigned once = 0, twice = 0;
        for (size_t i = 0; i < t->count; i++)
            if (t->rules[i].from >> a & 1) {
                twice |= once & t->rules[i].to;
                once |= t->rules[i].to;
            }
        unsigned faulty = (~once | twice) & 0xffff, lines[2], found = 0;
        if (!faulty) continue;
        unsigned b = (unsigned)__builtin_ctz(faulty);
        for (size_t i = 0; i < t->count && found < 2; i++)
            if ((t->rules[i].from >> a & 1) && (t->rules[i].to >> b & 1)) lines[found++] = (unsigned)i + 2;
        return found ? (senders_check_answer){2, BOARDS * a + b, lines[0], lines[1]} : (senders_check_answer){1, BOARDS * a + b, 0, 0};
    }
    return (senders_check_answer){0, 0, 0, 0};
}

senders_check_answer careful_senders_check(const uint8_t *table, size_t table_len) {
    sender_table t;
    refusal r = read_table(table, table_len, &t);
    if (r.number) return (senders_check_answer){3, r.number, r.line, 0};
    return judge_table(&t);
}

/* the line of message m's M row */
static uint32_t line_of(const sheet *s, size_t m) {
    uint16_t rows[MESSAGES];
    size_t met;
    meet(s, m + 1, rows, &met);
    return rows[m] + 2u;
}

static channel_check_answer judge_permitted(const uint8_t *text, size_t len, uint32_t code, uint64_t *scratch, uint8_t *trace,
                                            const uint8_t *table, size_t table_len) {
    sheet s;
    walk w;
    size_t e, x;
    sender_table t;
    uint16_t permitted[BOARDS] = {0};
    if (len == 0 || len > TEXT) return (channel_check_answer){2, 3, 0, 0};
    refusal r = read_table(table, table_len, &t);
    if (!r.number && judge_table(&t).word != 0) r.number = 18, r.line = 0;
    if (!r.number) r = read(text, len, &s, scratch, 0);
    w.words = scratch;
    if (!r.number) r = expand(&s, &w, 0);
    if (r.number) return (channel_check_answer){2, r.number, r.line, 0};
    for (unsigned a = 0; a < BOARDS; a++)
        for (size_t i = 0; i < t.count; i++)
            if ((t.rules[i].from >> a & 1) && t.rules[i].verdict) permitted[a] |= t.rules[i].to;
    for (size_t m = 0; m < w.count; m++)
        if (!(permitted[w.boards[2 * m]] >> w.boards[2 * m + 1] & 1)) return (channel_check_answer){2, 19, line_of(&s, m), 0};
    if (rules[code] == NEVER || !lowest_race(&w, rules[code], &e, &x)) return (channel_check_answer){0, 0, 0, 0};
    return (channel_check_answer){1, (uint32_t)e, (uint32_t)x, (uint32_t)schedule(&w, channels[code], e, trace)};
}

channel_check_answer careful_permitted_check(const uint8_t *text, size_t text_len, uint32_t code, uint64_t *scratch, size_t scratch_len,
                                             uint8_t *trace, size_t trace_len, const uint8_t *table, size_t table_len) {
    if (code > 5) return (channel_check_answer){2, 1, 0, 0};
    if (scratch_len < WORDS || trace_len < TRACE) return (channel_check_answer){2, 2, 0, 0};
    channel_check_answer a = judge_permitted(text, text_len, code, scratch, trace, table, table_len);
    memset(scratch, 0, WORDS * 8);
    return a;
}

/* ------------------------------------------------------------------ two taps */

/* the members are events of the sheet, and none is there twice */
static int each_once(const uint16_t *list, size_t len, size_t events) {
    uint64_t seen[W] = {0};
    for (size_t i = 0; i < len; i++) {
        if (list[i] >= events || has(seen, list[i])) return 0;
        mark(seen, 0, list[i]);
    }
    return 1;
}

static void link_list(uint64_t *words, const uint16_t *list, size_t len, size_t events) {
    for (size_t i = 1; i < len; i++) insert(words, list[i - 1], list[i], 0, events);
}

/* nothing that is left is before event k */
static int is_next(const uint64_t *words, const uint64_t *left, size_t k) {
    for (size_t i = 0; i < W; i++)
        if (words[k * W + i] & left[i]) return 0;
    return 1;
}

/* the lowest event that is left and has nothing left before it; without a circle there is one */
static size_t next_event(const uint64_t *words, const uint64_t *left) {
    for (size_t i = 0; i < W; i++)
        for (uint64_t bits = left[i]; bits; bits &= bits - 1) {
            size_t k = 64 * i + (size_t)__builtin_ctzll(bits);
            if (is_next(words, left, k)) return k;
        }
    return EVENTS;
}

static taps_check_answer taps(const uint8_t *text, size_t len, uint64_t *scratch, const uint16_t *first, size_t first_len, const uint16_t *second,
                              size_t second_len, uint16_t *output) {
    sheet s;
    walk w;
    refusal r = read(text, len, &s, scratch, 0);
    w.words = scratch;
    if (!r.number) r = expand(&s, &w, 0);
    if (r.number) return (taps_check_answer){2, r.number, r.line};
    size_t events = 2 * w.count;
    if (!each_once(first, first_len, events)) return (taps_check_answer){2, 20, 1};
    if (!each_once(second, second_len, events)) return (taps_check_answer){2, 20, 2};
    link_list(scratch, first, first_len, events);
    link_list(scratch, second, second_len, events);
    for (size_t x = 0; x < events; x++)
        if (test(scratch, x, x)) return (taps_check_answer){1, (uint32_t)x, 0};
    uint64_t left[W] = {0};
    for (size_t x = 0; x < events; x++) mark(left, 0, x);
    for (size_t i = 0; i < events; i++) {
        size_t k = next_event(scratch, left);
        output[i] = (uint16_t)k;
        flip(left, k);
    }
    return (taps_check_answer){0, (uint32_t)events, 0};
}

taps_check_answer careful_taps_check(const uint8_t *text, size_t text_len, uint64_t *scratch, size_t scratch_len, const uint16_t *first,
                                     size_t first_len, const uint16_t *second, size_t second_len, uint16_t *output, size_t output_len) {
    if (scratch_len < WORDS || output_len < 512) return (taps_check_answer){2, 2, 0};
    taps_check_answer a = taps(text, text_len, scratch, first, first_len, second, second_len, output);
    memset(scratch, 0, WORDS * 8);
    return a;
}

/* ------------------------------------------------------------------ all races */

/* e and x of each race, while there is room for the pair; how many races there are */
static uint32_t list_races(const walk *w, enum rule rule, uint16_t *output, size_t room) {
    uint64_t on[BOARDS * W];
    size_t found = 0, used = (2 * w->count + 63) / 64;
    if (rule == NEVER) return 0;
    memset(on, 0, sizeof on);
    for (size_t k = 0; k < 2 * w->count; k++) mark(on, w->boards[k], k);
    for (size_t e = 0; e < w->count; e++)
        for (size_t i = 0; i < used; i++) {
            uint64_t word = race_word(w, on, rule, e, i);
            for (; word && found < room; word &= word - 1, found++) {
                output[2 * found] = (uint16_t)e;
                output[2 * found + 1] = (uint16_t)(64 * i + (size_t)__builtin_ctzll(word));
            }
            if (word) found += (size_t)__builtin_popcountll(word);
        }
    return (uint32_t)found;
}

sheet_races_answer careful_sheet_races(const uint8_t *text, size_t text_len, uint32_t code, uint64_t *scratch, size_t scratch_len,
                                       uint16_t *output, size_t output_len) {
    walk w;
    sheet_races_answer a = {0, 0, 0};
    refusal r = watch(text, text_len, code, scratch, scratch_len, &w);
    if (r.number) a.word = 1, a.one = r.number, a.two = r.line;
    else {
        a.one = list_races(&w, rules[code], output, output_len / 2);
        a.two = a.one < output_len / 2 ? a.one : (uint32_t)(output_len / 2);
    }
    leave(r, scratch);
    return a;
}
