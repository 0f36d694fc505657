/* What all fuzz targets share. A target takes its input apart, lends buffers, and makes its call on three sides: the library as it is shipped,
 * the same proved code with coverage counters, which guides the search, and the careful C program of bench/. The harness holds them to one
 * answer and the buffers to what the header promises. */
#ifndef FUZZ_HARNESS_H
#define FUZZ_HARNESS_H

#include "../bench/check.h"
#include <string.h>

enum { SHIPPED, GUIDED, CAREFUL, SIDES };
enum { WORDS = CHANNEL_CHECK_SCRATCH_WORDS, STEPS = CHANNEL_CHECK_TRACE_BYTES, PAINT = 0xa5 };

/* The call on each side, as CALL_on[SIDE]. */
#define ON_ALL_SIDES(call, careful) \
    extern __typeof__(call) guided_##call; \
    static __typeof__(call) *const call##_on[SIDES] = {call, guided_##call, careful}

/* ------------------------------------------------------------------ an input, taken apart */

typedef struct {
    const uint8_t *at;
    size_t left;
} input;

/* Where nothing is left a byte is 0. */
uint8_t take_byte(input *in);

/* A number of two bytes, the low one first. Of the high one three bits count, and all three set stand for 255: so numbers reach the limits and go
 * far beyond them, and most stay near. */
size_t take_number(input *in);

/* So many bytes, or as many as are left. */
const uint8_t *take_bytes(input *in, size_t asked, size_t *len);

/* The length of a buffer, by three bits: mostly exact, else larger, too short or none. */
size_t length_by(unsigned bits, size_t least);

/* A code, by three bits: two of eight are none. */
uint32_t code_by(unsigned bits);

/* ------------------------------------------------------------------ what a call is lent */

enum { TEXT, SCRATCH, OUTPUT, FIRST, SECOND, BUFFERS };

/* A buffer ends at a page that cannot be touched, on each side at one of its own, and the bytes ahead of it are painted. One to be read holds what
 * is given; one to be written is painted too. */
typedef struct {
    const void *given;
    size_t size; /* in bytes */
    uint8_t *at[SIDES];
} buffer;

typedef union {
    struct {
        uint32_t word, one, two;
    };
    channel_check_answer check;
    trace_check_answer replay;
    monitor_answer watch; /* a target copies its fields one by one: between them are bytes of no meaning */
    choice_check_answer choice;
    monitor_standing_answer standing;
    cure_sheet_answer cure;
    senders_check_answer table;
    taps_check_answer taps;
    sheet_messages_answer messages;
    sheet_races_answer races;
    rounds_check_answer rounds;
} answer;

typedef struct {
    uint32_t code;
    unsigned lengths; /* the byte of the buffers' lengths: three bits for the scratch, three for the output */
    buffer buffers[BUFFERS];
    answer answers[SIDES];
} trial;

/* A buffer's pointer and length on a side, in bytes, in words of 64 bits and in numbers of 16. */
#define BYTES_OF(t, which, side) (t)->buffers[which].at[side], (t)->buffers[which].size
#define WORDS_OF(t, which, side) (uint64_t *)(t)->buffers[which].at[side], (t)->buffers[which].size / 8
#define NUMBERS_OF(t, which, side) (uint16_t *)(t)->buffers[which].at[side], (t)->buffers[which].size / 2

/* The code and the byte of the lengths, the two bytes that most inputs begin with. */
trial begin(input *in);

void lend(trial *t, int which, const void *given, size_t size);

/* The rest of the input is the text, and a scratch is lent. In the text a byte of 128 or more at the start of a line stands for the line before it, again: with 128
 * to 191 so often, 1 to 64, and with 192 to 255 as often with all its numbers two larger each time. So a few bytes reach the largest sheets. */
void lend_sheet(trial *t, input *in);

/* The text, as the input tells it. */
const uint8_t *take_text(input *in, size_t *len);

/* ------------------------------------------------------------------ a call, made on all sides */

typedef void asking(const trial *t, int side, answer *a);

/* Makes the call. The answers are the same; what was lent to be read is unchanged, and so are the bytes ahead of all buffers. */
const answer *ask_all(trial *t, asking *ask);

/* The scratch is as the header says: untouched where the answer is refusal 1 or 2, else its least words are zero, and the rest is untouched. */
void cleared(const trial *t, uint32_t refused);

/* The usual call: the rest of the input is the sheet; an output is lent, of at least so many elements of a size; the call is made, and the scratch looked at. */
const answer *ask_on_sheet(trial *t, input *in, size_t least, size_t size, asking *ask, uint32_t refused);

/* So many bytes of the output were written, the same on all sides; the rest is untouched. */
void wrote(const trial *t, size_t bytes);

/* Says what is wrong, with the answer and the text, and aborts. */
void stop(const char *what, const trial *t);

/* All bytes have the value. */
int all_are(const uint8_t *bytes, size_t count, int value);

/* ------------------------------------------------------------------ buffers beside a trial */

/* A painted buffer of its own for a side, by a number under ROOMS that no buffer of a trial has; and whether the bytes ahead of it are still painted. */
enum { ROOMS = BUFFERS + 3 };
uint8_t *painted_room(int which, int side, size_t size);
int is_painted_ahead(const uint8_t *at);

/* Other calls on the same sheet, with a scratch that serves nothing else. */
uint64_t *spare_scratch(void);
channel_check_answer check_of(const trial *t, uint32_t code, uint8_t *steps); /* steps: NULL where they are not asked for */
trace_check_answer replay_of(const trial *t, uint32_t code, const uint8_t *trace, size_t len);

/* A target's own: takes one input. */
void try_input(input *in);

#endif
