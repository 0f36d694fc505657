/* sheet_messages: the line named of each message is an M row with its two boards; the cure has the same messages in the same order; and the sheet is
 * refused exactly as the check refuses it. */
#include "../harness.h"
#include <stdio.h>

ON_ALL_SIDES(sheet_messages, careful_sheet_messages);

static void ask(const trial *t, int side, answer *a) {
    a->messages = sheet_messages_on[side](BYTES_OF(t, TEXT, side), WORDS_OF(t, SCRATCH, side), NUMBERS_OF(t, OUTPUT, side));
}

/* The field of the line that `from` begins, up to a space or the line's end. */
static const char *field_of(const char *from, unsigned field) {
    for (; field > 0; from++) field -= *from == ' ';
    return from;
}

static int is_field(const char *field, const char *value) {
    size_t n = strlen(value);
    return strncmp(field, value, n) == 0 && (field[n] == ' ' || field[n] == '\n');
}

/* The column of the heading with the name. */
static unsigned column_of(const char *heading, const char *name) {
    unsigned column = 0;
    while (column < 2 && !is_field(field_of(heading, column), name)) column++;
    return column;
}

/* The text is that of a sheet that is accepted, with a byte of zero after it. */
static int is_message_row(const char *text, unsigned line, unsigned sender, unsigned receiver) {
    char one[8], two[8];
    const char *row = text;
    for (; line > 1 && row; line--) row = strchr(row, '\n') ? strchr(row, '\n') + 1 : NULL;
    if (!row || !*row) return 0;
    snprintf(one, sizeof one, "%u", sender);
    snprintf(two, sizeof two, "%u", receiver);
    return is_field(field_of(row, column_of(text, "kind")), "M") && is_field(field_of(row, column_of(text, "one")), one) &&
           is_field(field_of(row, column_of(text, "two")), two);
}

/* The cure writes the M rows as the walk meets them, from its third line on. */
static void has_the_cures_messages(const trial *t, const uint16_t *output, uint32_t count) {
    static char cured[CURE_SHEET_OUTPUT_BYTES + 1];
    cure_sheet_answer a = cure_sheet(t->buffers[TEXT].given, t->buffers[TEXT].size, spare_scratch(), WORDS, (uint8_t *)cured, CURE_SHEET_OUTPUT_BYTES);
    if (a.word != CURE_SHEET_WRITTEN) return; /* more rows than a sheet may have */
    cured[a.one] = 0;
    const char *row = cured;
    for (int i = 0; i < 2; i++) row = strchr(row, '\n') + 1;
    for (uint32_t m = 0; m < count; m++, row = strchr(row, '\n') + 1) {
        char expected[32];
        snprintf(expected, sizeof expected, "M %u %u\n", output[3 * m + 1], output[3 * m + 2]);
        if (strncmp(row, expected, strlen(expected)) != 0) stop("another message than the cure's", t);
    }
    if (*row == 'M') stop("fewer messages than the cure has", t);
}

static void lists_rows(const trial *t, const uint16_t *output, uint32_t count) {
    static char text[CHANNEL_CHECK_TEXT_BYTES + 1];
    memcpy(text, t->buffers[TEXT].given, t->buffers[TEXT].size);
    text[t->buffers[TEXT].size] = 0;
    for (uint32_t m = 0; m < count; m++)
        if (!is_message_row(text, output[3 * m], output[3 * m + 1], output[3 * m + 2])) stop("a line that is not the message's", t);
}

void try_input(input *in) {
    trial t = begin(in);
    const sheet_messages_answer *a = &ask_on_sheet(&t, in, SHEET_MESSAGES_OUTPUT_NUMBERS, 2, ask, SHEET_MESSAGES_REFUSED)->messages;
    wrote(&t, a->word == SHEET_MESSAGES_LISTED ? 6 * (size_t)a->one : 0);
    if (a->word == SHEET_MESSAGES_REFUSED && a->one == CHANNEL_CHECK_REFUSAL_BENCH) return;
    channel_check_answer c = check_of(&t, CHANNEL_CHECK_LAZY_FIFO, NULL);
    if ((a->word == SHEET_MESSAGES_REFUSED) != (c.word == CHANNEL_CHECK_REFUSED)) stop("refused by one call and not by the other", &t);
    if (a->word == SHEET_MESSAGES_REFUSED) {
        if (a->one != c.one || a->two != c.two) stop("another refusal than the check's", &t);
        return;
    }
    const uint16_t *output = (const uint16_t *)t.buffers[OUTPUT].at[SHIPPED];
    lists_rows(&t, output, a->one);
    has_the_cures_messages(&t, output, a->one);
}
