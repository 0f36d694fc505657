/* pendant.c: the pendant's program. It takes whatever file it finds and any channel, and says free,
   locked with the steps that stop the boards and what each board then waits for, or refused with the
   line's text. It never fails: the calls take any bytes.
   usage: pendant CHANNEL FILE. It returns 0 free, 1 locked, 2 refused, 3 where it cannot read. */
#include <channel_check.h>
#include <channel_check_words.h>
#include <stdio.h>
#include <stdlib.h>

static uint8_t text[CHANNEL_CHECK_TEXT_BYTES + 1], trace[CHANNEL_CHECK_TRACE_BYTES];
static uint64_t scratch[CHANNEL_CHECK_SCRATCH_WORDS];
static uint16_t messages[SHEET_MESSAGES_OUTPUT_NUMBERS];

/* A channel as it was typed: a number, or something that no channel has. */
static uint32_t channel_of(const char *word) {
    char *end;
    unsigned long code = strtoul(word, &end, 10);
    return *word == '\0' || *end != '\0' || code > UINT32_MAX ? UINT32_MAX : (uint32_t)code;
}

/* The file's bytes, one more than a sheet may have at the most; or what is wrong, told. */
static int read_file(const char *name, size_t *length) {
    FILE *file = fopen(name, "rb");
    if (file == NULL) {
        perror(name);
        return 0;
    }
    *length = fread(text, 1, sizeof text, file);
    int whole = !ferror(file);
    if (!whole) perror(name);
    fclose(file);
    return whole;
}

/* Prints a line of the file, with a dot for each byte that is not plain. */
static void print_line(size_t length, uint32_t line) {
    size_t at = 0;
    for (uint32_t n = 1; n < line && at < length; at++)
        if (text[at] == '\n') n++;
    for (; at < length && text[at] != '\n'; at++) putchar(text[at] >= ' ' && text[at] <= '~' ? text[at] : '.');
    putchar('\n');
}

static void print_message(uint32_t m) {
    const uint16_t *of = messages + 3 * m;
    printf("message %u (board %u to board %u, line %u)", m, of[1], of[2], of[0]);
}

/* What each board waits for after the steps in the trace. */
static void print_waits(size_t length, uint32_t code, uint32_t steps) {
    trace_check_answer t =
        trace_check(text, length, code, scratch, CHANNEL_CHECK_SCRATCH_WORDS, trace, 2 * (size_t)steps);
    for (uint32_t b = 0; b < TRACE_CHECK_BOARDS; b++) {
        if (t.waits[b] == TRACE_CHECK_NO_WAIT) continue;
        printf("board %u waits for the %s of ", b, t.waits[b] % 2 ? "receive" : "send");
        print_message(t.waits[b] / 2u);
        putchar('\n');
    }
}

static void print_locked(size_t length, uint32_t code, channel_check_answer a) {
    sheet_messages(text, length, scratch, CHANNEL_CHECK_SCRATCH_WORDS, messages, SHEET_MESSAGES_OUTPUT_NUMBERS);
    printf("locked: ");
    print_message(a.one);
    printf(" races with the %s of ", a.two % 2 ? "receive" : "send");
    print_message(a.two / 2);
    putchar('\n');
    for (uint32_t i = 0; i < a.three; i++) {
        printf("%s ", channel_check_step_words[trace[2 * i]]);
        print_message(trace[2 * i + 1]);
        putchar('\n');
    }
    print_waits(length, code, a.three);
}

static void print_refused(size_t length, channel_check_answer a) {
    printf("refused: %s", channel_check_refusal_words[a.one]);
    if (a.two == 0) {
        putchar('\n');
        return;
    }
    printf(", line %u: ", a.two);
    print_line(length, a.two);
}

int main(int count, char **words) {
    size_t length;
    if (count != 3) {
        fprintf(stderr, "usage: pendant CHANNEL FILE\n");
        return 3;
    }
    if (!read_file(words[2], &length)) return 3;
    uint32_t code = channel_of(words[1]);
    channel_check_answer a =
        channel_check(text, length, code, scratch, CHANNEL_CHECK_SCRATCH_WORDS, trace, sizeof trace);
    if (a.word == CHANNEL_CHECK_FREE) printf("free\n");
    if (a.word == CHANNEL_CHECK_LOCKED) print_locked(length, code, a);
    if (a.word == CHANNEL_CHECK_REFUSED) print_refused(length, a);
    if (fflush(stdout) != 0 || ferror(stdout)) {
        perror("standard output");
        return 3;
    }
    return (int)a.word;
}
