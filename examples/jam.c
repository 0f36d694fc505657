/* jam.c: reads a message sheet from standard input and says whether some timing can stop its boards
   on channel 0, and by which steps. It returns the answer's word: 0 free, 1 locked, 2 refused; and 3
   where the sheet cannot be read. */
#include <channel_check.h>
#include <channel_check_words.h>
#include <stdio.h>

int main(void) {
    static uint8_t text[CHANNEL_CHECK_TEXT_BYTES + 1], trace[CHANNEL_CHECK_TRACE_BYTES];
    static uint64_t scratch[CHANNEL_CHECK_SCRATCH_WORDS];
    size_t length = fread(text, 1, sizeof text, stdin);
    if (ferror(stdin)) {
        perror("standard input");
        return 3;
    }
    channel_check_answer a = channel_check(text, length, CHANNEL_CHECK_EAGER_FREE_RUNNING, scratch,
                                           CHANNEL_CHECK_SCRATCH_WORDS, trace, sizeof trace);
    if (a.word == CHANNEL_CHECK_FREE) puts("free");
    if (a.word == CHANNEL_CHECK_LOCKED) printf("locked: message %u races with event %u\n", a.one, a.two);
    if (a.word == CHANNEL_CHECK_REFUSED)
        printf("refused: %s, line %u\n", channel_check_refusal_words[a.one], a.two);
    for (uint32_t i = 0; i < a.three; i++)
        printf("%s %d\n", channel_check_step_words[trace[2 * i]], trace[2 * i + 1]);
    return (int)a.word;
}
