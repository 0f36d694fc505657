/* permitted_check: a byte for a quarter of the table's length, the table, the text. Where neither 18 nor 19 applies the answer is the check's. */
#include "../harness.h"

ON_ALL_SIDES(permitted_check, careful_permitted_check);

static void ask(const trial *t, int side, answer *a) {
    a->check = permitted_check_on[side](BYTES_OF(t, TEXT, side), t->code, WORDS_OF(t, SCRATCH, side), BYTES_OF(t, OUTPUT, side), BYTES_OF(t, FIRST, side));
}

/* The line of 19 is that of a message of the walk. */
static void is_a_messages_line(const trial *t, uint32_t line) {
    static uint16_t output[SHEET_MESSAGES_OUTPUT_NUMBERS];
    sheet_messages_answer a = sheet_messages(t->buffers[TEXT].given, t->buffers[TEXT].size, spare_scratch(), WORDS, output, SHEET_MESSAGES_OUTPUT_NUMBERS);
    for (uint32_t m = 0; a.word == SHEET_MESSAGES_LISTED && m < a.one; m++)
        if (output[3 * m] == line) return;
    stop("19 with the line of no message", t);
}

static void is_the_checks(const trial *t, const channel_check_answer *a) {
    channel_check_answer c = check_of(t, t->code, NULL);
    if (memcmp(&c, a, sizeof c) != 0) stop("another answer than the check's", t);
}

void try_input(input *in) {
    trial t = begin(in);
    size_t len, asked = 4 * (size_t)take_byte(in);
    const uint8_t *table = take_bytes(in, asked, &len);
    lend(&t, FIRST, table, len);
    const channel_check_answer *a = &ask_on_sheet(&t, in, STEPS, 1, ask, CHANNEL_CHECK_REFUSED)->check;
    wrote(&t, a->word == CHANNEL_CHECK_LOCKED ? 2 * (size_t)a->three : 0);
    if (a->word == CHANNEL_CHECK_REFUSED && a->one == CHANNEL_CHECK_REFUSAL_FORBIDDEN) is_a_messages_line(&t, a->two);
    else if (a->word != CHANNEL_CHECK_REFUSED || (a->one > 2 && a->one != CHANNEL_CHECK_REFUSAL_TABLE)) is_the_checks(&t, a);
}
