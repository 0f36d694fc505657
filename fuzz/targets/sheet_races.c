/* sheet_races: a number for the output's length, the text. The first race is the one that the check names, and there is none exactly where it says free;
 * they stand by message and then by event, each once; an output of no numbers gives the same count. */
#include "../harness.h"

ON_ALL_SIDES(sheet_races, careful_sheet_races);

static void ask(const trial *t, int side, answer *a) {
    a->races = sheet_races_on[side](BYTES_OF(t, TEXT, side), t->code, WORDS_OF(t, SCRATCH, side), NUMBERS_OF(t, OUTPUT, side));
}

static void are_in_order(const trial *t, const uint16_t *pairs, uint32_t count) {
    for (uint32_t i = 1; i < count; i++)
        if (pairs[2 * i - 2] > pairs[2 * i] || (pairs[2 * i - 2] == pairs[2 * i] && pairs[2 * i - 1] >= pairs[2 * i + 1])) stop("races out of order", t);
}

static void is_the_checks(const trial *t, const sheet_races_answer *a, const uint16_t *pairs) {
    channel_check_answer c = check_of(t, t->code, NULL);
    if (a->word == SHEET_RACES_REFUSED) {
        if (c.word != CHANNEL_CHECK_REFUSED || c.one != a->one || c.two != a->two) stop("another refusal than the check's", t);
        return;
    }
    if (c.word != (a->one > 0 ? CHANNEL_CHECK_LOCKED : CHANNEL_CHECK_FREE)) stop("races, and the check says otherwise", t);
    if (a->two > 0 && (pairs[0] != c.one || pairs[1] != c.two)) stop("another first race than the check names", t);
}

/* No numbers are lent, at the end of the output. */
static void counts_the_same(const trial *t, const sheet_races_answer *a) {
    const buffer *b = &t->buffers[OUTPUT];
    sheet_races_answer n = sheet_races(t->buffers[TEXT].given, t->buffers[TEXT].size, t->code, spare_scratch(), WORDS, (uint16_t *)(b->at[SHIPPED] + b->size), 0);
    if (n.word != SHEET_RACES_LISTED || n.one != a->one || n.two != 0) stop("another count with no output", t);
}

void try_input(input *in) {
    trial t = begin(in);
    size_t numbers = take_number(in);
    lend_sheet(&t, in);
    lend(&t, OUTPUT, NULL, 2 * numbers);
    const sheet_races_answer *a = &ask_all(&t, ask)->races;
    const uint16_t *pairs = (const uint16_t *)t.buffers[OUTPUT].at[SHIPPED];
    cleared(&t, SHEET_RACES_REFUSED);
    wrote(&t, a->word == SHEET_RACES_LISTED ? 4 * (size_t)a->two : 0);
    if (a->word == SHEET_RACES_REFUSED && a->one <= 2) return;
    is_the_checks(&t, a, pairs);
    if (a->word == SHEET_RACES_REFUSED) return;
    if (a->two != (a->one < numbers / 2 ? a->one : numbers / 2)) stop("more or fewer races listed than there is room for", &t);
    are_in_order(&t, pairs, a->two);
    counts_the_same(&t, a);
}
