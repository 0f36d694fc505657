/* channel_check_words.h: the words of the refusals, the channels and the steps, to print. */
#ifndef CHANNEL_CHECK_WORDS_H
#define CHANNEL_CHECK_WORDS_H

#include "channel_check.h"

/* By channel_check_refusal, 1 to CHANNEL_CHECK_REFUSAL_TAP; there is no refusal 0. */
static const char *const channel_check_refusal_words[CHANNEL_CHECK_REFUSAL_TAP + 1] = {
    "",
    "channel", "bench", "length", "heading", "row", "place", "absent", "depth", "calls", "messages",
    "circle", "trace", "choices", "switch", "rows", "jobs", "held", "table", "forbidden", "tap"};

/* By channel_check_channel. */
static const char *const channel_check_channel_words[CHANNEL_CHECK_CHANNELS] = {
    "eager free-running", "lazy free-running", "eager FIFO", "lazy FIFO", "synchronous", "token ring"};

/* By channel_check_step. */
static const char *const channel_check_step_words[CHANNEL_CHECK_CONSUME + 1] = {"send", "deliver", "consume"};

#endif
