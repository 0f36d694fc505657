/* senders_check: the whole input is the table, told as a text is. */
#include "../harness.h"

ON_ALL_SIDES(senders_check, careful_senders_check);

static void ask(const trial *t, int side, answer *a) { a->table = senders_check_on[side](BYTES_OF(t, TEXT, side)); }

void try_input(input *in) {
    trial t;
    size_t len;
    memset(&t, 0, sizeof t);
    const uint8_t *table = take_text(in, &len);
    lend(&t, TEXT, table, len);
    const senders_check_answer *a = &ask_all(&t, ask)->table;
    if (a->word > SENDERS_CHECK_REFUSED || (a->word == SENDERS_CHECK_REFUSED && a->one != CHANNEL_CHECK_REFUSAL_TABLE)) stop("no such answer", &t);
    if (a->word == SENDERS_CHECK_CLASH && (a->two < 2 || a->three <= a->two || a->three > SENDERS_CHECK_RULES + 1)) stop("the lines of a clash", &t);
}
