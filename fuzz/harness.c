/* The shared part of the fuzz targets: see harness.h. */
#define _GNU_SOURCE
#include "harness.h"
#include <stdio.h>
#include <stdlib.h>
#include <sys/mman.h>

enum { AHEAD = 64, ROOM = 1 << 19, GUARD = 1 << 16, TEXT_MOST = CHANNEL_CHECK_TEXT_BYTES + 256 };

extern uint32_t guided_channel_check_version(void);
int LLVMFuzzerInitialize(int *argc, char ***argv);
int LLVMFuzzerTestOneInput(const uint8_t *data, size_t size);

/* ------------------------------------------------------------------ an input, taken apart */

uint8_t take_byte(input *in) {
    if (in->left == 0) return 0;
    in->left--;
    return *in->at++;
}

size_t take_number(input *in) {
    size_t low = take_byte(in), high = take_byte(in) % 8;
    return low + 256 * (high == 7 ? 255 : high);
}

const uint8_t *take_bytes(input *in, size_t asked, size_t *len) {
    const uint8_t *bytes = in->at;
    *len = asked < in->left ? asked : in->left;
    in->at += *len;
    in->left -= *len;
    return bytes;
}

size_t length_by(unsigned bits, size_t least) {
    const size_t lengths[8] = {least, least, least, least + 1, 2 * least, least, least - 1, 0};
    return lengths[bits % 8];
}

uint32_t code_by(unsigned bits) {
    static const uint32_t codes[8] = {0, 1, 2, 3, 4, 5, 6, UINT32_MAX};
    return codes[bits % 8];
}

/* ------------------------------------------------------------------ the text */

typedef struct {
    uint8_t bytes[TEXT_MOST];
    size_t len;
} text;

static void put(text *t, uint8_t byte) {
    if (t->len < TEXT_MOST) t->bytes[t->len++] = byte;
}

/* A number from `from`, two larger; where it ends. */
static size_t put_larger(text *t, size_t from, size_t to) {
    unsigned value = 0;
    char digits[16];
    while (from < to && t->bytes[from] >= '0' && t->bytes[from] <= '9' && value < 10000) value = 10 * value + t->bytes[from++] - '0';
    int count = snprintf(digits, sizeof digits, "%u", value + 2);
    for (int i = 0; i < count; i++) put(t, (uint8_t)digits[i]);
    return from;
}

/* The last line again, perhaps with its numbers two larger. */
static void put_again(text *t, int larger) {
    size_t from = t->len - 1, to = t->len;
    while (from > 0 && t->bytes[from - 1] != '\n') from--;
    while (from < to) {
        if (larger && t->bytes[from] >= '0' && t->bytes[from] <= '9') from = put_larger(t, from, to);
        else put(t, t->bytes[from++]);
    }
}

const uint8_t *take_text(input *in, size_t *len) {
    static text t;
    t.len = 0;
    while (in->left > 0) {
        uint8_t byte = take_byte(in);
        if (byte < 128 || t.len == 0 || t.bytes[t.len - 1] != '\n') put(&t, byte);
        else
            for (int i = 0; i <= byte % 64 && t.len < TEXT_MOST; i++) put_again(&t, byte >= 192);
    }
    *len = t.len;
    return t.bytes;
}

/* ------------------------------------------------------------------ what a call is lent */

/* The proved code is not compiled with the address sanitizer: what it touches after a buffer is caught by a page, and ahead of it by paint. */
uint8_t *painted_room(int which, int side, size_t size) {
    static uint8_t *rooms[ROOMS][SIDES];
    uint8_t **room = &rooms[which][side];
    if (!*room) {
        *room = mmap(NULL, ROOM + GUARD, PROT_READ | PROT_WRITE, MAP_PRIVATE | MAP_ANONYMOUS, -1, 0);
        if (*room == MAP_FAILED || mprotect(*room + ROOM, GUARD, PROT_NONE) != 0) exit(2);
    }
    return (uint8_t *)memset(*room + ROOM - size - AHEAD, PAINT, size + AHEAD) + AHEAD;
}

int all_are(const uint8_t *bytes, size_t count, int value) {
    return count == 0 || (bytes[0] == value && memcmp(bytes, bytes + 1, count - 1) == 0);
}

int is_painted_ahead(const uint8_t *at) { return all_are(at - AHEAD, AHEAD, PAINT); }

trial begin(input *in) {
    trial t;
    memset(&t, 0, sizeof t);
    t.code = code_by(take_byte(in));
    t.lengths = take_byte(in);
    return t;
}

void lend(trial *t, int which, const void *given, size_t size) {
    buffer *b = &t->buffers[which];
    b->given = given;
    b->size = size;
    for (int side = 0; side < SIDES; side++) {
        b->at[side] = painted_room(which, side, size);
        if (given) memcpy(b->at[side], given, size);
    }
}

void lend_sheet(trial *t, input *in) {
    size_t len;
    const uint8_t *bytes = take_text(in, &len);
    lend(t, TEXT, bytes, len);
    lend(t, SCRATCH, NULL, 8 * length_by(t->lengths, WORDS));
}

/* ------------------------------------------------------------------ a call, made on all sides */

void stop(const char *what, const trial *t) {
    const answer *a = &t->answers[SHIPPED];
    fprintf(stderr, "DIFFERENCE: %s; code %u, answer %u %u %u, third number %u\n", what, t->code, a->word, a->one, a->two, a->check.three);
    if (t->buffers[TEXT].given) {
        fprintf(stderr, "the text, %zu bytes:\n", t->buffers[TEXT].size);
        fwrite(t->buffers[TEXT].given, 1, t->buffers[TEXT].size, stderr);
    }
    abort();
}

static void is_left(const trial *t, const buffer *b, int side) {
    if (!b->at[side]) return;
    if (!is_painted_ahead(b->at[side])) stop("bytes ahead of a buffer", t);
    if (b->given && memcmp(b->at[side], b->given, b->size) != 0) stop("what was lent to be read was written to", t);
}

const answer *ask_all(trial *t, asking *ask) {
    memset(t->answers, 0, sizeof t->answers);
    for (int side = 0; side < SIDES; side++) {
        ask(t, side, &t->answers[side]);
        if (memcmp(&t->answers[side], &t->answers[SHIPPED], sizeof(answer)) != 0) stop("the answers", t);
        for (int which = 0; which < BUFFERS; which++) is_left(t, &t->buffers[which], side);
    }
    return &t->answers[SHIPPED];
}

void cleared(const trial *t, uint32_t refused) {
    const answer *a = &t->answers[SHIPPED];
    const buffer *b = &t->buffers[SCRATCH];
    size_t zero = a->word == refused && a->one <= 2 ? 0 : 8 * WORDS;
    if (zero > b->size) stop("an answer without a scratch", t);
    for (int side = 0; side < SIDES; side++)
        if (!all_are(b->at[side], zero, 0) || !all_are(b->at[side] + zero, b->size - zero, PAINT)) stop("the scratch", t);
}

const answer *ask_on_sheet(trial *t, input *in, size_t least, size_t size, asking *ask, uint32_t refused) {
    lend_sheet(t, in);
    lend(t, OUTPUT, NULL, size * length_by(t->lengths / 8, least));
    const answer *a = ask_all(t, ask);
    cleared(t, refused);
    return a;
}

void wrote(const trial *t, size_t bytes) {
    const buffer *b = &t->buffers[OUTPUT];
    if (bytes > b->size) stop("more written than there is room for", t);
    for (int side = 0; side < SIDES; side++) {
        if (memcmp(b->at[side], b->at[SHIPPED], bytes) != 0) stop("the output", t);
        if (!all_are(b->at[side] + bytes, b->size - bytes, PAINT)) stop("bytes of the output after what was written", t);
    }
}

/* ------------------------------------------------------------------ beside a trial */

uint64_t *spare_scratch(void) {
    static uint64_t scratch[WORDS];
    return scratch;
}

channel_check_answer check_of(const trial *t, uint32_t code, uint8_t *steps) {
    static uint8_t unread[STEPS];
    return channel_check(t->buffers[TEXT].given, t->buffers[TEXT].size, code, spare_scratch(), WORDS, steps ? steps : unread, STEPS);
}

trace_check_answer replay_of(const trial *t, uint32_t code, const uint8_t *trace, size_t len) {
    return trace_check(t->buffers[TEXT].given, t->buffers[TEXT].size, code, spare_scratch(), WORDS, trace, len);
}

/* channel_check_version reads nothing: every target asks it once. */
int LLVMFuzzerInitialize(int *argc, char ***argv) {
    (void)argc, (void)argv;
    if (channel_check_version() == CHANNEL_CHECK_VERSION && guided_channel_check_version() == CHANNEL_CHECK_VERSION) return 0;
    fprintf(stderr, "DIFFERENCE: the version\n");
    abort();
}

int LLVMFuzzerTestOneInput(const uint8_t *data, size_t size) {
    input in = {data, size};
    try_input(&in);
    return 0;
}
