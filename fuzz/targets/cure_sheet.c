/* cure_sheet: what is written is cured to itself, and is free on all channels. */
#include "../harness.h"

ON_ALL_SIDES(cure_sheet, careful_cure_sheet);

static void ask(const trial *t, int side, answer *a) {
    a->cure = cure_sheet_on[side](BYTES_OF(t, TEXT, side), WORDS_OF(t, SCRATCH, side), BYTES_OF(t, OUTPUT, side));
}

static void is_cured(const trial *t, const uint8_t *text, size_t len) {
    static uint8_t again[CURE_SHEET_OUTPUT_BYTES], steps[STEPS];
    cure_sheet_answer a = cure_sheet(text, len, spare_scratch(), WORDS, again, sizeof again);
    if (a.word != CURE_SHEET_WRITTEN || a.one != len || memcmp(again, text, len) != 0) stop("a cured sheet is cured to another", t);
    for (uint32_t code = 0; code < CHANNEL_CHECK_CHANNELS; code++)
        if (channel_check(text, len, code, spare_scratch(), WORDS, steps, sizeof steps).word != CHANNEL_CHECK_FREE) stop("a cured sheet is not free", t);
}

void try_input(input *in) {
    trial t = begin(in);
    const cure_sheet_answer *a = &ask_on_sheet(&t, in, CURE_SHEET_OUTPUT_BYTES, 1, ask, CURE_SHEET_REFUSED)->cure;
    wrote(&t, a->word == CURE_SHEET_WRITTEN ? a->one : 0);
    if (a->word == CURE_SHEET_WRITTEN) is_cured(&t, t.buffers[OUTPUT].at[SHIPPED], a->one);
}
