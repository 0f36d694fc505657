/* channel_check.h: the proved channel check, for C and C++.
 *
 * Boards exchange messages over a channel. A message sheet says which messages, and which events
 * come before which. The calls below judge such sheets. A whole program:
 *
 *     #include <channel_check.h>
 *     #include <channel_check_words.h>
 *     #include <stdio.h>
 *
 *     int main(void) {
 *         static uint8_t text[CHANNEL_CHECK_TEXT_BYTES + 1], trace[CHANNEL_CHECK_TRACE_BYTES];
 *         static uint64_t scratch[CHANNEL_CHECK_SCRATCH_WORDS];
 *         size_t length = fread(text, 1, sizeof text, stdin);
 *         if (ferror(stdin)) return 3;
 *         channel_check_answer a =
 *             channel_check(text, length, CHANNEL_CHECK_EAGER_FIFO, scratch,
 *                           CHANNEL_CHECK_SCRATCH_WORDS, trace, sizeof trace);
 *         if (a.word == CHANNEL_CHECK_FREE) puts("free");
 *         if (a.word == CHANNEL_CHECK_LOCKED)
 *             printf("locked: message %u races with event %u\n", a.one, a.two);
 *         if (a.word == CHANNEL_CHECK_REFUSED)
 *             printf("refused: %s, line %u\n", channel_check_refusal_words[a.one], a.two);
 *         return (int)a.word;
 *     }
 *
 * Link libchannel_check.a or libchannel_check.so (x86-64); in a package
 * `pkg-config --cflags --libs channel-check` prints the words for it.
 *
 * The calls, by task:
 *
 *     judge a sheet on a channel                        channel_check
 *     judge it repeated, any number of times            rounds_check
 *     list its messages, with their lines and boards    sheet_messages
 *     list all races of a channel                       sheet_races
 *     write the loosest sheet that is free              cure_sheet
 *     judge a file with choices                         choice_check
 *     judge a trace from another tool                   trace_check
 *     follow a run step by step                         monitor_open, _step, _switch, _standing
 *     fit two probes' lists to one course of events     taps_check
 *     judge a table of permitted senders                senders_check
 *     judge a sheet with such a table                   permitted_check
 *     serve up to eight jobs, a turn at a time          dispatcher_empty, _admit, _turn, _cancel
 *     hold header and library together                  channel_check_version
 *
 * A sheet file is text. Its first line is `kind one two`; every other line is a row of three
 * fields, one space between, ended by byte 10:
 *
 *     S n 0   opens sheet n; the check walks sheet 0, and what it calls
 *     M a b   a message from board a to board b
 *     P x y   event x comes before event y; message k of the block has send 2k, receive 2k + 1
 *     B 0 0   opens the next block: what came before it on a board is before what follows
 *     C n 0   calls sheet n, and opens the next block
 *     A m n   for choice_check alone: calls sheet m or sheet n
 *
 * Messages are numbered 0, 1, 2 .. as the walk meets them; message m has the events 2m, its send,
 * and 2m + 1, its receive. docs/SHEETS.md has the limits and the refusals.
 *
 * Each answer is a struct:
 *
 * word                  which of the call's cases it is: one of the enumerators beside the call.
 * one, two, three       the numbers of that case. Those that a case does not name are 0.
 *
 * The last case of every call is refused: `one` is then a channel_check_refusal, and `two` its
 * line, 0 where it has none. channel_check_words.h has the words of refusals, channels and steps,
 * to print.
 *
 * What holds of every call:
 *
 * - A buffer is a pointer and the number of its elements. The pointer is valid for that number
 *   and aligned for its type; with 0 elements any pointer but NULL is taken. A buffer that is
 *   written to overlaps no other.
 * - Any bytes, numbers and lengths are taken; unfit ones are refused. A call always returns, and
 *   stays inside its buffers.
 * - It is reentrant: the library has no static data that changes, allocates nothing, keeps
 *   nothing between calls, and uses no function of the C library but memcpy, memmove and memset.
 *   Several threads may call at a time, with buffers of their own.
 * - CHANNEL_CHECK_STACK_BYTES of stack hold it, with the structs that are handed in and back.
 * - It has no unwind tables: a debugger's backtrace from inside a call stops there.
 *
 * Types have the prefix channel_check_, or that of their call. Short names of some are declared
 * too (monitor, dispatcher and others, at the end), unless CHANNEL_CHECK_NO_SHORT_NAMES is
 * defined, for programs that have such names of their own. */
#ifndef CHANNEL_CHECK_H
#define CHANNEL_CHECK_H

#include <stddef.h>
#include <stdint.h>

#ifdef __cplusplus
extern "C" {
#endif

/* ---------------------------------------------------------- the version */

/* The version of this header: 10000 major + 100 minor + patch. Structs are passed by value, so
 * the archive must be of the same version as the header that a program was compiled with:
 * channel_check_version() says the archive's. */
#define CHANNEL_CHECK_VERSION 10100
uint32_t channel_check_version(void);

/* ---------------------------------------------------------- what every call is about */

/* The limits of a sheet: the messages of a block, and of all that a sheet calls; their events;
 * boards; channels; the bytes of its text. */
#define CHANNEL_CHECK_MESSAGES 256
#define CHANNEL_CHECK_EVENTS (2 * CHANNEL_CHECK_MESSAGES)
#define CHANNEL_CHECK_BOARDS 16
#define CHANNEL_CHECK_CHANNELS 6
#define CHANNEL_CHECK_TEXT_BYTES 8192

/* The least lengths of a scratch, in words of 64 bits, and of a trace that is written to: a bit
 * for each pair of events, and three steps of two bytes for each message. Shorter ones are
 * refusal 2. */
#define CHANNEL_CHECK_ROW_WORDS (CHANNEL_CHECK_EVENTS / 64)
#define CHANNEL_CHECK_SCRATCH_WORDS (CHANNEL_CHECK_EVENTS * CHANNEL_CHECK_ROW_WORDS)
#define CHANNEL_CHECK_TRACE_BYTES (2 * 3 * CHANNEL_CHECK_MESSAGES)

/* The stack that holds any call. */
#define CHANNEL_CHECK_STACK_BYTES 32768

/* The channels, for `code`. On an eager one a board sends, or takes a delivery, only while its
 * buffer is empty. */
enum channel_check_channel {
    CHANNEL_CHECK_EAGER_FREE_RUNNING = 0,
    CHANNEL_CHECK_LAZY_FREE_RUNNING = 1,
    CHANNEL_CHECK_EAGER_FIFO = 2,
    CHANNEL_CHECK_LAZY_FIFO = 3,
    CHANNEL_CHECK_SYNCHRONOUS = 4, /* and eager */
    CHANNEL_CHECK_TOKEN_RING = 5   /* and eager */
};

/* The steps of a trace, two bytes each: one of these, and then the message. A message is sent,
 * delivered to its receiver's buffer, and consumed. */
enum channel_check_step {
    CHANNEL_CHECK_SEND = 0,
    CHANNEL_CHECK_DELIVER = 1,
    CHANNEL_CHECK_CONSUME = 2
};

/* The refusals, and the line that each reports. The first that applies is given: 1 to 4 in this
 * order; then row by row 5, 6 and 11, in this order on one row; then 7; then 8, 9 and 10 as the
 * calls are walked. Of the others each says which call gives it, and after which. */
enum channel_check_refusal {
    /* no such channel */
    CHANNEL_CHECK_REFUSAL_CHANNEL = 1,
    /* scratch, trace, words or output too short */
    CHANNEL_CHECK_REFUSAL_BENCH = 2,
    /* a text of 0 bytes, or of more than CHANNEL_CHECK_TEXT_BYTES */
    CHANNEL_CHECK_REFUSAL_LENGTH = 3,
    /* the first line is not the heading: line 1 */
    CHANNEL_CHECK_REFUSAL_HEADING = 4,
    /* form, letter, number, unused field or line end of a row, or a row too many: its line */
    CHANNEL_CHECK_REFUSAL_ROW = 5,
    /* a row, or a number in it, that may not stand there: its line */
    CHANNEL_CHECK_REFUSAL_PLACE = 6,
    /* no sheet 0: line 0; or a call to an absent sheet: its line */
    CHANNEL_CHECK_REFUSAL_ABSENT = 7,
    /* a call at the deepest level: its line */
    CHANNEL_CHECK_REFUSAL_DEPTH = 8,
    /* a call too many: its line */
    CHANNEL_CHECK_REFUSAL_CALLS = 9,
    /* a message too many in the walk: its row's line */
    CHANNEL_CHECK_REFUSAL_MESSAGES = 10,
    /* a P row that puts an event of its block before itself: its line */
    CHANNEL_CHECK_REFUSAL_CIRCLE = 11,
    /* trace_check: a trace of odd length, or too long; directly after 2 */
    CHANNEL_CHECK_REFUSAL_TRACE = 12,
    /* choice_check: an A row too many in one walk, after 8 and 9 on that row: its line */
    CHANNEL_CHECK_REFUSAL_CHOICES = 13,
    /* monitor_switch: the state does not fit the new channel; after all others */
    CHANNEL_CHECK_REFUSAL_SWITCH = 14,
    /* cure_sheet: more rows to write than a sheet may have; after all others */
    CHANNEL_CHECK_REFUSAL_ROWS = 15,
    /* dispatcher_admit: no place free, or all numbers given out; directly after 2 */
    CHANNEL_CHECK_REFUSAL_JOBS = 16,
    /* dispatcher_cancel: a number that is not held; directly after 2 */
    CHANNEL_CHECK_REFUSAL_HELD = 17,
    /* senders_check, permitted_check: a table malformed: its first bad line, 0 for its length;
     * or, to permitted_check, not sound: 0; directly after 3 */
    CHANNEL_CHECK_REFUSAL_TABLE = 18,
    /* permitted_check: a message that the table forbids, after all others: its row's line */
    CHANNEL_CHECK_REFUSAL_FORBIDDEN = 19,
    /* taps_check: an event not in the sheet, or twice in a list, after all others: 1 or 2, the
     * list */
    CHANNEL_CHECK_REFUSAL_TAP = 20
};

/* ---------------------------------------------------------- the check */

enum channel_check_word {
    /* no timing that the channel allows can stop the boards */
    CHANNEL_CHECK_FREE = 0,
    /* some timing stops them. one: the race's message; two: the event that it races with; three:
     * steps in the trace */
    CHANNEL_CHECK_LOCKED = 1,
    /* 1 to 11 */
    CHANNEL_CHECK_REFUSED = 2
};

typedef struct {
    uint32_t word, one, two, three;
} channel_check_answer;

/* Says whether some timing that the channel allows can stop the boards of a message sheet.
 *
 * text, text_len        the sheet file's bytes; only read.
 * code                  the channel.
 * scratch, scratch_len  CHANNEL_CHECK_SCRATCH_WORDS words or more to work in; their contents do
 *                       not matter. Refusals 1 and 2 leave them untouched. After every other
 *                       answer the first CHANNEL_CHECK_SCRATCH_WORDS are zero, and the rest
 *                       unchanged.
 * trace, trace_len      CHANNEL_CHECK_TRACE_BYTES or more for the steps. On locked the first 2 *
 *                       three hold the steps that stop the boards, from the start, and the rest
 *                       is unchanged; after every other answer all are unchanged. */
channel_check_answer channel_check(const uint8_t *text, size_t text_len, uint32_t code,
                                   uint64_t *scratch, size_t scratch_len, uint8_t *trace,
                                   size_t trace_len);

/* ---------------------------------------------------------- an exchange that is repeated */

enum rounds_check_word {
    /* however often the exchange is repeated, no timing can stop the boards */
    ROUNDS_CHECK_FREE = 0,
    /* some timing stops them. one, two, three: as channel_check's, on so many rounds; rounds: the
     * fewest that lock, 1 or 2 */
    ROUNDS_CHECK_LOCKED = 1,
    /* 1 to 11, 9 and 10 over two walks */
    ROUNDS_CHECK_REFUSED = 2
};

typedef struct {
    uint32_t word, one, two, three, rounds;
} rounds_check_answer;

/* The check of an exchange that is repeated, each board going on to its next round as soon as it
 * has done its own part of the last. k rounds are the walk of sheet 0 made k times, one after the
 * other, each beginning with a new block. Messages are numbered on: message m of round r, from 0,
 * is r times the messages of one round, plus m.
 *
 * All arguments, and the buffers at exit, are as channel_check's.
 *
 * locked: with rounds 1 the answer and the trace are channel_check's own; with 2 they are those of
 * two rounds. Refused: as channel_check for one walk; then 9 or 10, as the second walk meets them,
 * the limits counted over both. So a sheet of more than CHANNEL_CHECK_MESSAGES / 2 messages is
 * refused, even if one round of it is locked: two rounds of it are more than a walk holds.
 *
 * Proved, over every number of rounds without a bound: free exactly when on any number of rounds
 * every allowed order can be carried on until all is consumed; locked exactly when on some number
 * of rounds some allowed order ends stuck; the steps handed back are such an order of `rounds`
 * rounds, and no fewer lock. */
rounds_check_answer rounds_check(const uint8_t *text, size_t text_len, uint32_t code,
                                 uint64_t *scratch, size_t scratch_len, uint8_t *trace,
                                 size_t trace_len);

/* ---------------------------------------------------------- a trace from any tool */

enum trace_check_word {
    /* all its steps are allowed, and after them all events are done */
    TRACE_CHECK_FINISHED = 0,
    /* all are allowed; after them no step is, and not all events are done. waits: see below */
    TRACE_CHECK_STUCK = 1,
    /* all are allowed, and the run can go on */
    TRACE_CHECK_OPEN = 2,
    /* one: the index, from 0, of the first step that is not allowed */
    TRACE_CHECK_NOT_ALLOWED = 3,
    /* 1 to 12 */
    TRACE_CHECK_REFUSED = 4
};

/* The longest trace that is taken; and what stands in `waits` for a board that waits for no
 * event. */
#define TRACE_CHECK_TRACE_BYTES CHANNEL_CHECK_TRACE_BYTES
#define TRACE_CHECK_BOARDS CHANNEL_CHECK_BOARDS
#define TRACE_CHECK_NO_WAIT 65535

/* waits, by board, on stuck: where the board's buffer holds a message whose receive is not ready,
 * the event that the lowest such message waits for, which is the lowest on that board that is
 * before the receive and not yet done; else TRACE_CHECK_NO_WAIT. On every other word all are
 * TRACE_CHECK_NO_WAIT. */
typedef struct {
    uint32_t word, one, two;
    uint16_t waits[TRACE_CHECK_BOARDS];
} trace_check_answer;

/* Says what the step rules say of a trace, from any tool, on a sheet and a channel.
 *
 * text, code, scratch   as channel_check's, and so is the scratch at exit.
 * trace, trace_len      the steps, two bytes each, at most TRACE_CHECK_TRACE_BYTES; only read.
 *
 * A step with a wrong code or an unknown message is not allowed, and neither is one after a
 * finished run. The steps that channel_check hands back where a sheet is locked are stuck here.
 * All of this is proved for every text and trace. */
trace_check_answer trace_check(const uint8_t *text, size_t text_len, uint32_t code,
                               uint64_t *scratch, size_t scratch_len, const uint8_t *trace,
                               size_t trace_len);

/* ---------------------------------------------------------- a choice between two sheets */

enum choice_check_word {
    /* every choice list's sheet is free */
    CHOICE_CHECK_FREE = 0,
    /* one, two, three: the check's of the first list that locks; length: its options; choices:
     * bit k set where its A row k, from 0, takes its second sheet */
    CHOICE_CHECK_LOCKED = 1,
    /* 1 to 11 or 13 */
    CHOICE_CHECK_REFUSED = 2
};

/* The most options of a list. */
#define CHOICE_CHECK_OPTIONS 8

typedef struct {
    uint32_t word, one, two, three, length, choices;
} choice_check_answer;

/* The check of a sheet file with choices: a row `A m n` walks sheet m or sheet n, as a call. A
 * choice list fixes one option for each A row as the walk meets it; one row met twice is two
 * options. Lists are ordered with the earlier A row deciding first, and m ahead of n.
 *
 * All arguments, and the buffers at exit, are as channel_check's; the trace is that of the list
 * named.
 *
 * A refusal in any list comes before any lock, the first list's first. On files without A rows
 * the answer is channel_check's. Every other call refuses an A row with 5. */
choice_check_answer choice_check(const uint8_t *text, size_t text_len, uint32_t code,
                                 uint64_t *scratch, size_t scratch_len, uint8_t *trace,
                                 size_t trace_len);

/* ---------------------------------------------------------- a live monitor */

/* The state of one run, a value that is handed in and handed back: the events done (event x is
 * bit x % 64 of word x / 64), the messages under way, as bits of their sends, each board's buffer
 * in the same form, and the channel code in force. No other bit is set: not one of a receive
 * under way or in a buffer, and none after the sheet's last message. */
#define MONITOR_ROW_WORDS CHANNEL_CHECK_ROW_WORDS
typedef struct {
    uint64_t held[MONITOR_ROW_WORDS];
} channel_check_monitor_buffer;
typedef struct {
    uint64_t done[MONITOR_ROW_WORDS], way[MONITOR_ROW_WORDS];
    channel_check_monitor_buffer buffers[CHANNEL_CHECK_BOARDS];
    uint32_t code;
} channel_check_monitor;

enum monitor_word {
    /* opened, stepped or switched */
    MONITOR_TAKEN = 0,
    /* a step that the rules forbid, a wrong step code, or an unknown message */
    MONITOR_FORBIDDEN = 1,
    /* 1 to 11 or 14 */
    MONITOR_REFUSED = 2
};

/* next is the monitor to go on with. Forbidden and refused hand back the one that was handed in,
 * bit for bit; a refused opening one of all zeros. */
typedef struct {
    uint32_t word, one, two;
    channel_check_monitor next;
} channel_check_monitor_answer;

/* Each call is lent the sheet's text and scratch again; both are as channel_check's, and so is
 * the scratch at exit.
 *
 * monitor_open    a run at its start, on a channel: all zeros but for the code.
 * monitor_step    a step by its code, `kind`, and message, under the channel in force.
 * monitor_switch  another channel; the state passes over whole. Refusal 14: to an eager one while
 *                 some board holds two messages or more, or to the token ring while two or more
 *                 are under way.
 *
 * Proved over every list of steps and switches from an opened monitor, each call with that same
 * text: the monitor handed back is that of the step rules, every bit of it, each step under the
 * code in force, and so are the answers. Where no switch to another code was taken (refused ones
 * do not count), the steps answered MONITOR_TAKEN, in their order, are an allowed order on that
 * channel: trace_check says of them where the run stands, and channel_check's verdict speaks of
 * it. Whether a run with such a switch can lock is not claimed. Of any other monitor or text only
 * the refusals and the scratch are. */
channel_check_monitor_answer monitor_open(const uint8_t *text, size_t text_len, uint32_t code,
                                          uint64_t *scratch, size_t scratch_len);
channel_check_monitor_answer monitor_step(channel_check_monitor state, uint32_t kind,
                                          uint32_t message, const uint8_t *text, size_t text_len,
                                          uint64_t *scratch, size_t scratch_len);
channel_check_monitor_answer monitor_switch(channel_check_monitor state, uint32_t code,
                                            const uint8_t *text, size_t text_len,
                                            uint64_t *scratch, size_t scratch_len);

enum monitor_standing_word {
    /* all is consumed */
    MONITOR_STANDING_FINISHED = 0,
    /* no step is allowed, and not all is consumed: waits has what each board waits for */
    MONITOR_STANDING_STUCK = 1,
    /* some step is allowed */
    MONITOR_STANDING_OPEN = 2,
    /* 1 for the state's own code, 2 to 11 */
    MONITOR_STANDING_REFUSED = 3
};

/* waits: on stuck, for each board the event that its lowest unready message waits for, or
 * TRACE_CHECK_NO_WAIT; on every other word TRACE_CHECK_NO_WAIT throughout. */
typedef struct {
    uint32_t word, one, two;
    uint16_t waits[CHANNEL_CHECK_BOARDS];
} monitor_standing_answer;

/* Says where a monitored run stands, by the step rules under the code in force. The monitor is
 * only read; text and scratch are as monitor_step's. Proved for every monitor, read bit by bit;
 * of one that calls with that same text have left it is the state that the rules give. */
monitor_standing_answer monitor_standing(channel_check_monitor state, const uint8_t *text,
                                         size_t text_len, uint64_t *scratch, size_t scratch_len);

/* ---------------------------------------------------------- what a sheet holds */

enum sheet_messages_word {
    SHEET_MESSAGES_LISTED = 0, /* one: the messages of the walk */
    SHEET_MESSAGES_REFUSED = 1 /* 2 to 11 */
};

/* The least length of the output, in numbers of 16 bits: three for each of the most messages. */
#define SHEET_MESSAGES_OUTPUT_NUMBERS (3 * CHANNEL_CHECK_MESSAGES)

typedef struct {
    uint32_t word, one, two;
} sheet_messages_answer;

/* Lists the messages that the walk of a sheet meets, in walk order.
 *
 * text, scratch         as channel_check's, and so is the scratch at exit.
 * output, output_len    SHEET_MESSAGES_OUTPUT_NUMBERS or more. It gets three numbers a message:
 *                       the line of its own M row, its sender, its receiver. The rest is
 *                       unchanged, and so is all of it on a refusal. */
sheet_messages_answer sheet_messages(const uint8_t *text, size_t text_len, uint64_t *scratch,
                                     size_t scratch_len, uint16_t *output, size_t output_len);

enum sheet_races_word {
    /* one: how many races there are, two: how many of them stand in the output */
    SHEET_RACES_LISTED = 0,
    /* 1, 2 for the scratch alone, 3 to 11 */
    SHEET_RACES_REFUSED = 1
};

typedef struct {
    uint32_t word, one, two;
} sheet_races_answer;

/* Lists all races of a sheet on a channel, by message and then by event: exactly the races, each
 * once, and the first is the one that channel_check names.
 *
 * text, code, scratch   as channel_check's, and so is the scratch at exit.
 * output, output_len    any length, 0 too. It gets e and x of the first races, as many whole
 *                       pairs as it holds. The rest is unchanged, and so is all of it on a
 *                       refusal. */
sheet_races_answer sheet_races(const uint8_t *text, size_t text_len, uint32_t code,
                               uint64_t *scratch, size_t scratch_len, uint16_t *output,
                               size_t output_len);

/* ---------------------------------------------------------- the loosest cure */

enum cure_sheet_word {
    CURE_SHEET_WRITTEN = 0, /* one: the bytes written */
    CURE_SHEET_REFUSED = 1  /* 2 to 11 or 15 */
};

/* The least length of the output, in bytes. */
#define CURE_SHEET_OUTPUT_BYTES CHANNEL_CHECK_TEXT_BYTES

typedef struct {
    uint32_t word, one, two;
} cure_sheet_answer;

/* Writes the loosest sheet that is free and keeps a sheet's messages: sends stay before their
 * receives, and an order stays only where it ends in a send, closed transitively.
 *
 * text, scratch         as channel_check's, and so is the scratch at exit.
 * output, output_len    CURE_SHEET_OUTPUT_BYTES or more for the text. Only the first `one`
 *                       change; on a refusal none do.
 *
 * The text: `kind one two`, `S 0 0`, the M rows as the walk meets them, then `P x y` for each x
 * before y on one board with no event of any board between them, but for a message's own send and
 * receive, by x and then y. A sheet that is free already is written too.
 *
 * Proved of every text written: this library reads it, with the same messages and exactly that
 * order, which lies inside the old one; it is free on all channels; and every sheet of the same
 * messages that is accepted, free on channel 0 and ordered inside the old order is ordered inside
 * this one. */
cure_sheet_answer cure_sheet(const uint8_t *text, size_t text_len, uint64_t *scratch,
                             size_t scratch_len, uint8_t *output, size_t output_len);

/* ---------------------------------------------------------- several jobs, a turn at a time */

/* The places for jobs, the bytes of sheet that are lent for each, and the words that are lent for
 * all. */
#define DISPATCHER_PLACES 8
#define DISPATCHER_SHEET_BYTES CHANNEL_CHECK_TEXT_BYTES
#define DISPATCHER_WORDS (DISPATCHER_PLACES * CHANNEL_CHECK_SCRATCH_WORDS)
#define DISPATCHER_EVENTS CHANNEL_CHECK_EVENTS

/* The unrefused turns after its admission within which a job that is not cancelled is answered;
 * and how many numbers there are for jobs. */
#define DISPATCHER_TURNS (DISPATCHER_PLACES * (DISPATCHER_EVENTS + 1))
#define DISPATCHER_NUMBERS 65536

/* A dispatcher of jobs, each an accepted sheet on a channel, which a turn at a time takes to the
 * check's answer. It is a value, handed in and handed back: the jobs in the order of their turns,
 * the head first; how many numbers were given out; and of each place what the race search of its
 * job has found, and the board of each of its events. The causal order of a job is in the words
 * of its place. */
typedef struct {
    uint32_t number, turns;
    uint16_t count;
    uint8_t place, code;
} channel_check_dispatcher_job;
typedef struct {
    channel_check_dispatcher_job jobs[DISPATCHER_PLACES];
    uint32_t held;
} channel_check_dispatcher_queue;
typedef struct {
    uint32_t found, message, event;
} channel_check_dispatcher_race;
typedef struct {
    uint8_t on[DISPATCHER_EVENTS];
} channel_check_dispatcher_boards;
typedef struct {
    channel_check_dispatcher_queue queue;
    uint32_t given;
    channel_check_dispatcher_race races[DISPATCHER_PLACES];
    channel_check_dispatcher_boards boards[DISPATCHER_PLACES];
} channel_check_dispatcher;

enum dispatcher_word {
    /* one: the job's number; two: its place */
    DISPATCHER_ADMITTED = 0,
    /* a turn with no job held */
    DISPATCHER_IDLE = 1,
    /* a turn of job one */
    DISPATCHER_UNANSWERED = 2,
    /* the last turn of job one, which leaves; answer: the check's */
    DISPATCHER_ANSWERED = 3,
    /* job one leaves */
    DISPATCHER_CANCELLED = 4,
    /* an admission: 1, 2, 16, 3 to 11; a turn: 2; a cancellation: 2 or 17 */
    DISPATCHER_REFUSED = 5
};

/* answer is all zeros but on answered. next is the dispatcher to go on with: idle and refused
 * hand back the one that was handed in, bit for bit. */
typedef struct {
    uint32_t word, one, two;
    channel_check_answer answer;
    channel_check_dispatcher next;
} channel_check_dispatcher_answer;

/* Every call is lent, of all places:
 *
 * sheets, sheets_len    DISPATCHER_SHEET_BYTES a place, of which the first lengths[p] are the
 *                       sheet of place p; bytes that are not lent are not there. Only read.
 * lengths, codes        a sheet's length and a channel a place; one that is not lent counts as 0
 *                       bytes, and as no channel. Only read.
 * words, words_len      DISPATCHER_WORDS or more, a place's CHANNEL_CHECK_SCRATCH_WORDS after the
 *                       other's. A held job's are written by its admission alone, and are to be
 *                       lent as the last call left them. Those of free places are zero after
 *                       every call but refusals 1 and 2, which touch none; those after all places
 *                       are unchanged.
 * trace, trace_len      to a turn: as channel_check's. It changes only where a job is answered
 *                       locked, in the bytes of the steps.
 *
 * dispatcher_empty    no job held, and no number given out.
 * dispatcher_admit    the sheet and the channel lent in the lowest free place are a new job,
 *                     which goes after the last. Its number is 0 first, and then one more each
 *                     time, up to DISPATCHER_NUMBERS - 1. A sheet longer than
 *                     DISPATCHER_SHEET_BYTES is refusal 3. With no place free: 2, then 16. A
 *                     refused admission gives out no number.
 * dispatcher_turn     takes the head of the queue. A job of n messages is answered on its own
 *                     turn number 2n + 1 and leaves; ahead of that it goes after the last.
 *                     Refusal 2 also with no job held.
 * dispatcher_cancel   the job with the number leaves; the others stay in their order.
 *
 * An admission reads the sheet once. A turn and a cancellation read no sheets, lengths and codes:
 * a job's answer cannot depend on another's text, nor on its own changed since. A turn that is
 * not a job's last looks at half a row of the causal order of one message.
 *
 * Proved over every list of calls from dispatcher_empty, each taking the dispatcher that the last
 * call left: the queue, the places, the numbers and the answers are as said; a job not cancelled
 * is answered within DISPATCHER_TURNS unrefused turns of its admission; and, while every call is
 * lent its words as the last call left them, calls refused with 1 or 2 not counted, its answer is
 * exactly channel_check's for the sheet and the channel that it was admitted with: the word, the
 * three numbers and the bytes of the trace. Of any other dispatcher or words the refusals, what
 * is unchanged and what is zero are proved. */
channel_check_dispatcher dispatcher_empty(void);
channel_check_dispatcher_answer dispatcher_admit(channel_check_dispatcher state,
                                                 const uint8_t *sheets, size_t sheets_len,
                                                 const uint32_t *lengths, size_t lengths_len,
                                                 const uint32_t *codes, size_t codes_len,
                                                 uint64_t *words, size_t words_len);
channel_check_dispatcher_answer dispatcher_turn(channel_check_dispatcher state,
                                                const uint8_t *sheets, size_t sheets_len,
                                                const uint32_t *lengths, size_t lengths_len,
                                                const uint32_t *codes, size_t codes_len,
                                                uint64_t *words, size_t words_len, uint8_t *trace,
                                                size_t trace_len);
channel_check_dispatcher_answer dispatcher_cancel(channel_check_dispatcher state, uint32_t number,
                                                  const uint8_t *sheets, size_t sheets_len,
                                                  const uint32_t *lengths, size_t lengths_len,
                                                  const uint32_t *codes, size_t codes_len,
                                                  uint64_t *words, size_t words_len);

/* ---------------------------------------------------------- who may send to whom */

enum senders_check_word {
    /* each ordered pair of boards is in exactly one rule */
    SENDERS_CHECK_SOUND = 0,
    /* one: the lowest pair that is not in exactly one rule; it is in none */
    SENDERS_CHECK_GAP = 1,
    /* one: that pair, which is in two or more; two, three: the lines of its first two rules */
    SENDERS_CHECK_CLASH = 2,
    /* 18 */
    SENDERS_CHECK_REFUSED = 3
};

/* The most rules of a table, and the longest table in bytes. A pair is CHANNEL_CHECK_BOARDS times
 * its sender, plus its receiver. */
#define SENDERS_CHECK_RULES 64
#define SENDERS_CHECK_TABLE_BYTES CHANNEL_CHECK_TEXT_BYTES

typedef struct {
    uint32_t word, one, two, three;
} senders_check_answer;

/* Judges a table of permitted senders: its names line `from to verdict`, then at most
 * SENDERS_CHECK_RULES rules, a line each: two sets of boards as decimal numbers (bit k is board
 * k) and 1 for permitted or 0, with the spacing, number and line-end rules of the sheet file; at
 * least one byte. All lines are read ahead of the judgement.
 *
 * table, table_len      the table's bytes; only read. */
senders_check_answer senders_check(const uint8_t *table, size_t table_len);

/* The check of a sheet with a table of permitted senders: the answer is a channel_check_word, and
 * refusals are 1 to 11, 18 and 19. All arguments but the table, and the buffers at exit, are as
 * channel_check's.
 *
 * Refused with 18: a table that is malformed or not sound, ahead of all that is said of the sheet
 * but its length. With 19: the first message in walk order that the table forbids, once the walk
 * has ended. With a sound table that forbids no message of the walk, answer, trace and scratch
 * are those of channel_check. */
channel_check_answer permitted_check(const uint8_t *text, size_t text_len, uint32_t code,
                                     uint64_t *scratch, size_t scratch_len, uint8_t *trace,
                                     size_t trace_len, const uint8_t *table, size_t table_len);

/* ---------------------------------------------------------- one course of events for two lists */

enum taps_check_word {
    TAPS_CHECK_FIT = 0,    /* one: the events written to the output, which are all of the sheet's */
    TAPS_CHECK_CLASH = 1,  /* one: the lowest event that would have to precede itself */
    TAPS_CHECK_REFUSED = 2 /* 2 to 11 or 20 */
};

/* The least length of the output, in numbers of 16 bits. */
#define TAPS_CHECK_OUTPUT_NUMBERS 512

typedef struct {
    uint32_t word, one, two;
} taps_check_answer;

/* Says whether two lists of events, each in the order that a probe saw them, fit one course of
 * events of a sheet, and writes it.
 *
 * text, scratch         as channel_check's, and so is the scratch at exit.
 * first, second         the lists: event numbers; only read. Any length is taken, 0 too.
 * output, output_len    TAPS_CHECK_OUTPUT_NUMBERS or more for the course. Only the first `one`
 *                       change, and only on fit.
 *
 * fit: some order of all events obeys "before" and both lists; the one written always takes the
 * lowest event that has nothing left before it by all three. clash: an event would have to
 * precede itself by "before" and the lists' orders, closed transitively; no lower one would. All
 * of this is proved for every text and every two lists. */
taps_check_answer taps_check(const uint8_t *text, size_t text_len, uint64_t *scratch,
                             size_t scratch_len, const uint16_t *first, size_t first_len,
                             const uint16_t *second, size_t second_len, uint16_t *output,
                             size_t output_len);

/* ---------------------------------------------------------- short names of types */

#ifndef CHANNEL_CHECK_NO_SHORT_NAMES
typedef channel_check_monitor_buffer monitor_buffer;
typedef channel_check_monitor monitor;
typedef channel_check_monitor_answer monitor_answer;
typedef channel_check_dispatcher_job dispatcher_job;
typedef channel_check_dispatcher_queue dispatcher_queue;
typedef channel_check_dispatcher_race dispatcher_race;
typedef channel_check_dispatcher_boards dispatcher_boards;
typedef channel_check_dispatcher dispatcher;
typedef channel_check_dispatcher_answer dispatcher_answer;
#endif

#ifdef __cplusplus
}
#endif

#endif
