/* rounds_check: where one round is locked it is channel_check's answer, with the same steps; what it refuses and channel_check does not is 9 or 10; and a
 * sheet that calls the text's sheet 0 twice, where one can be written, is locked exactly where this is, with the same race and steps on two rounds. */
#define _GNU_SOURCE
#include "../harness.h"

ON_ALL_SIDES(rounds_check, careful_rounds_check);

static void ask(const trial *t, int side, answer *a) {
    a->rounds = rounds_check_on[side](BYTES_OF(t, TEXT, side), t->code, WORDS_OF(t, SCRATCH, side), BYTES_OF(t, OUTPUT, side));
}

/* One round, as the check judges it. */
static void is_as_once(const trial *t, const rounds_check_answer *a) {
    static uint8_t steps[STEPS];
    channel_check_answer c = check_of(t, t->code, steps);
    if (c.word == CHANNEL_CHECK_REFUSED) {
        if (a->word != ROUNDS_CHECK_REFUSED || a->one != c.one || a->two != c.two) stop("another refusal than the check's", t);
        return;
    }
    if (a->word == ROUNDS_CHECK_REFUSED) {
        if (a->one != CHANNEL_CHECK_REFUSAL_CALLS && a->one != CHANNEL_CHECK_REFUSAL_MESSAGES) stop("a refusal that no second walk gives", t);
        return;
    }
    if ((c.word == CHANNEL_CHECK_LOCKED) != (a->rounds == 1)) stop("one round, and the check says otherwise", t);
    if (a->rounds != 1) return;
    if (a->one != c.one || a->two != c.two || a->three != c.three) stop("another race or count than the check's", t);
    if (memcmp(steps, t->buffers[OUTPUT].at[SHIPPED], 2 * (size_t)c.three) != 0) stop("other steps than the check's", t);
}

/* The text with its sheet 0 as sheet 31, called twice by a new sheet 0; 0 where the text is not of the plain form that this needs. */
static size_t unrolled(const trial *t, char *out, size_t room) {
    static const char head[] = "kind one two\nS 0 0\n", calls[] = "C 31 0\nC 31 0\nS 31 0\n";
    const char *text = t->buffers[TEXT].given;
    size_t len = t->buffers[TEXT].size, after = sizeof head - 1;
    if (len < after || memcmp(text, head, after) != 0 || len + sizeof calls > room) return 0;
    if (memmem(text, len, "C 0 0\n", 6) || memmem(text, len, "S 31 0\n", 7)) return 0;
    memcpy(out, head, after);
    memcpy(out + after, calls, sizeof calls - 1);
    memcpy(out + after + sizeof calls - 1, text + after, len - after);
    return len + sizeof calls - 1;
}

static void is_as_unrolled(const trial *t, const rounds_check_answer *a) {
    static char text[CHANNEL_CHECK_TEXT_BYTES];
    static uint8_t steps[STEPS];
    size_t len = unrolled(t, text, sizeof text);
    if (len == 0) return;
    channel_check_answer c = channel_check((const uint8_t *)text, len, t->code, spare_scratch(), WORDS, steps, STEPS);
    if (c.word == CHANNEL_CHECK_REFUSED) return; /* it has three rows, two calls and a level more */
    if ((c.word == CHANNEL_CHECK_LOCKED) != (a->word == ROUNDS_CHECK_LOCKED)) stop("unrolled it is judged otherwise", t);
    if (a->rounds != 2) return;
    if (a->one != c.one || a->two != c.two || a->three != c.three) stop("another race or count than unrolled", t);
    if (memcmp(steps, t->buffers[OUTPUT].at[SHIPPED], 2 * (size_t)c.three) != 0) stop("other steps than unrolled", t);
}

void try_input(input *in) {
    trial t = begin(in);
    const rounds_check_answer *a = &ask_on_sheet(&t, in, STEPS, 1, ask, ROUNDS_CHECK_REFUSED)->rounds;
    wrote(&t, a->word == ROUNDS_CHECK_LOCKED ? 2 * (size_t)a->three : 0);
    if (a->rounds > 2 || (a->rounds != 0) != (a->word == ROUNDS_CHECK_LOCKED)) stop("another number of rounds than the word has", &t);
    if (a->word == ROUNDS_CHECK_REFUSED && a->one <= 2) return;
    is_as_once(&t, a);
    if (a->word != ROUNDS_CHECK_REFUSED) is_as_unrolled(&t, a);
}
