/* taps_check: a number for each list's length, the lists, two bytes an event, the text. A course has each event once and obeys both lists. */
#include "../harness.h"

ON_ALL_SIDES(taps_check, careful_taps_check);

enum { LIST_MOST = 2048 };
static uint16_t lists[2][LIST_MOST];

static void ask(const trial *t, int side, answer *a) {
    a->taps = taps_check_on[side](BYTES_OF(t, TEXT, side), WORDS_OF(t, SCRATCH, side), NUMBERS_OF(t, FIRST, side), NUMBERS_OF(t, SECOND, side), NUMBERS_OF(t, OUTPUT, side));
}

static void lend_list(trial *t, input *in, int which, size_t asked) {
    uint16_t *list = lists[which - FIRST];
    size_t count = asked < in->left / 2 ? asked : in->left / 2;
    if (count > LIST_MOST) count = LIST_MOST;
    for (size_t i = 0; i < count; i++) list[i] = (uint16_t)take_number(in);
    lend(t, which, list, 2 * count);
}

static void obeys(const trial *t, const size_t *at, int which) {
    const uint16_t *list = lists[which - FIRST];
    for (size_t i = 1; i < t->buffers[which].size / 2; i++)
        if (at[list[i - 1]] >= at[list[i]]) stop("a course against a list", t);
}

static void is_course(const trial *t, const uint16_t *course, size_t events) {
    size_t at[CHANNEL_CHECK_EVENTS];
    memset(at, 255, sizeof at);
    for (size_t i = 0; i < events; i++) {
        if (course[i] >= events || at[course[i]] != SIZE_MAX) stop("a course with an event twice, or of no sheet", t);
        at[course[i]] = i;
    }
    for (size_t m = 0; m < events / 2; m++)
        if (at[2 * m] > at[2 * m + 1]) stop("a course with a message received ahead of its send", t);
    obeys(t, at, FIRST);
    obeys(t, at, SECOND);
}

void try_input(input *in) {
    trial t = begin(in);
    size_t first = take_number(in), second = take_number(in);
    lend_list(&t, in, FIRST, first);
    lend_list(&t, in, SECOND, second);
    const taps_check_answer *a = &ask_on_sheet(&t, in, TAPS_CHECK_OUTPUT_NUMBERS, 2, ask, TAPS_CHECK_REFUSED)->taps;
    wrote(&t, a->word == TAPS_CHECK_FIT ? 2 * (size_t)a->one : 0);
    if (a->word == TAPS_CHECK_FIT) is_course(&t, (const uint16_t *)t.buffers[OUTPUT].at[SHIPPED], a->one);
}
