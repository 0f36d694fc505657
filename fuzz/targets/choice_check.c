/* choice_check: where channel_check takes the sheet there are no A rows, and the two answer alike. */
#include "../harness.h"

ON_ALL_SIDES(choice_check, careful_choice_check);

static void ask(const trial *t, int side, answer *a) {
    a->choice = choice_check_on[side](BYTES_OF(t, TEXT, side), t->code, WORDS_OF(t, SCRATCH, side), BYTES_OF(t, OUTPUT, side));
}

/* The check's answer and steps, with no list. */
static void is_the_checks(const trial *t, const choice_check_answer *a) {
    static uint8_t steps[STEPS];
    channel_check_answer c = check_of(t, t->code, steps);
    if (c.word == CHANNEL_CHECK_REFUSED) return;
    if (a->word != c.word || a->one != c.one || a->two != c.two || a->three != c.three || a->length != 0 || a->choices != 0)
        stop("another answer than the check's to a sheet without choices", t);
    if (memcmp(steps, t->buffers[OUTPUT].at[SHIPPED], 2 * (size_t)c.three) != 0) stop("other steps than the check's", t);
}

void try_input(input *in) {
    trial t = begin(in);
    const choice_check_answer *a = &ask_on_sheet(&t, in, STEPS, 1, ask, CHOICE_CHECK_REFUSED)->choice;
    wrote(&t, a->word == CHOICE_CHECK_LOCKED ? 2 * (size_t)a->three : 0);
    if (a->length > CHOICE_CHECK_OPTIONS || a->choices >> a->length != 0) stop("a list with more options than it has", &t);
    if (a->word != CHOICE_CHECK_REFUSED) is_the_checks(&t, a);
}
