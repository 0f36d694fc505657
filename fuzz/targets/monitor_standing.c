/* monitor_standing: a byte for the number of the check's own steps to begin with, one for the code in force, one for the number of steps, one for the number
 * of bits forged, the steps, two bytes each, the bits, two bytes each, the text. The state is made here, step by step. Under the code of its steps it
 * stands where trace_check says; under any code where the careful C program says, forged ones too, read bit by bit. */
#include "../harness.h"

ON_ALL_SIDES(monitor_standing, careful_monitor_standing);

enum { STEPS_MOST = 64, BITS = 8 * offsetof(monitor, code) };

/* The state, and the same with no bits but those of the sheet's own events, which is how it is read. */
static monitor state, plain;
/* A held message's receive is done, as no call leaves it: which board then waits is not compared. */
static int is_loose;
static uint16_t messages[SHEET_MESSAGES_OUTPUT_NUMBERS];

static void ask(const trial *t, int side, answer *a) {
    a->standing = monitor_standing_on[side](side == CAREFUL ? plain : state, BYTES_OF(t, TEXT, side), WORDS_OF(t, SCRATCH, side));
    if (a->word != MONITOR_STANDING_STUCK && !all_are((const uint8_t *)a->standing.waits, sizeof a->standing.waits, 255)) stop("waits on another word than stuck", t);
    if (is_loose) memset(a->standing.waits, 0, sizeof a->standing.waits);
}

static void flip(uint64_t *row, size_t x) { row[x / 64] ^= UINT64_C(1) << x % 64; }

/* An allowed step. */
static void take(uint8_t kind, uint8_t m) {
    uint64_t *held = state.buffers[messages[3 * m + 2]].held;
    if (kind != CHANNEL_CHECK_CONSUME) flip(state.way, 2 * (size_t)m);
    if (kind != CHANNEL_CHECK_SEND) flip(held, 2 * (size_t)m);
    if (kind != CHANNEL_CHECK_DELIVER) flip(state.done, 2 * (size_t)m + (kind == CHANNEL_CHECK_CONSUME));
}

/* One bit of the rows, which stand one after the other; two bytes tell which. */
static void forge(input *bits) {
    size_t low = take_byte(bits), high = take_byte(bits);
    flip((uint64_t *)&state, (low + 256 * high) % BITS);
}

/* The first of the check's steps, then those of the input, up to one that is not allowed. */
static trace_check_answer run(const trial *t, size_t lead, const uint8_t *more, size_t len) {
    static uint8_t trace[STEPS + 2 * STEPS_MOST];
    channel_check_answer c = check_of(t, t->code, trace);
    size_t steps = c.word == CHANNEL_CHECK_LOCKED ? c.three : 0, bytes = 2 * (lead < steps ? lead : steps);
    memcpy(trace + bytes, more, len);
    bytes = bytes + len < STEPS ? bytes + len : STEPS;
    trace_check_answer r = replay_of(t, t->code, trace, bytes - bytes % 2);
    if (r.word == TRACE_CHECK_NOT_ALLOWED) {
        bytes = 2 * (size_t)r.one;
        r = replay_of(t, t->code, trace, bytes);
    }
    for (size_t i = 0; r.word <= TRACE_CHECK_OPEN && i + 1 < bytes; i += 2) take(trace[i], trace[i + 1]);
    return r;
}

/* A row with no bits but those of the sends of the sheet's messages. */
static void keep_sends(uint64_t *row, uint32_t count) {
    for (size_t x = 0; x < CHANNEL_CHECK_EVENTS; x++)
        if ((x % 2 == 1 || x >= 2 * count) && row[x / 64] >> x % 64 & 1) flip(row, x);
}

static void read_forged(uint32_t count) {
    keep_sends(plain.way, count);
    for (size_t b = 0; b < CHANNEL_CHECK_BOARDS; b++) {
        keep_sends(plain.buffers[b].held, count);
        for (size_t i = 0; i < MONITOR_ROW_WORDS; i++) is_loose |= (plain.buffers[b].held[i] & plain.done[i] >> 1) != 0;
    }
}

void try_input(input *in) {
    trial t = begin(in);
    size_t lead = take_byte(in), force = take_byte(in), asked = 2 * (size_t)(take_byte(in) % (STEPS_MOST + 1)), forged = take_byte(in) % 8, len;
    const uint8_t *more = take_bytes(in, asked, &len);
    input bits = {NULL, 0};
    bits.at = take_bytes(in, 2 * forged, &bits.left);
    lend_sheet(&t, in);
    memset(&state, 0, sizeof state);
    sheet_messages_answer m = sheet_messages(t.buffers[TEXT].given, t.buffers[TEXT].size, spare_scratch(), WORDS, messages, SHEET_MESSAGES_OUTPUT_NUMBERS);
    trace_check_answer r = run(&t, lead, more, len - len % 2);
    state.code = force > 7 ? t.code : code_by((unsigned)force);
    for (size_t i = 0; i < forged; i++) forge(&bits);
    plain = state;
    is_loose = 0;
    if (forged && m.word == SHEET_MESSAGES_LISTED) read_forged(m.one);
    const monitor_standing_answer *a = &ask_all(&t, ask)->standing;
    cleared(&t, MONITOR_STANDING_REFUSED);
    if (forged || force <= 7 || a->word == MONITOR_STANDING_REFUSED) return;
    if (a->word != r.word || memcmp(a->waits, r.waits, sizeof r.waits) != 0) stop("a run that stands elsewhere than its steps", &t);
}
