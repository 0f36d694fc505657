/* channel_check: on locked, trace_check finds its steps stuck; and the wired channels give one verdict, which locks eager free-running too. */
#include "../harness.h"

ON_ALL_SIDES(channel_check, careful_check);

static void ask(const trial *t, int side, answer *a) {
    a->check = channel_check_on[side](BYTES_OF(t, TEXT, side), t->code, WORDS_OF(t, SCRATCH, side), BYTES_OF(t, OUTPUT, side));
}

static void ends_stuck(const trial *t, const channel_check_answer *a) {
    if (replay_of(t, t->code, t->buffers[OUTPUT].at[SHIPPED], 2 * (size_t)a->three).word != TRACE_CHECK_STUCK) stop("steps that do not end stuck", t);
}

/* Request (j): codes 2, 4 and 5 give the same word and race, and code 0 locks with them, at the same message or a lower one. */
static void is_as_wired(const trial *t, const channel_check_answer *a) {
    channel_check_answer other = check_of(t, t->code == 2 ? 5 : 2, NULL), free_running = check_of(t, 0, NULL);
    if (other.word != a->word || other.one != a->one || other.two != a->two) stop("another verdict on another wired channel", t);
    if (a->word == CHANNEL_CHECK_LOCKED && (free_running.word != CHANNEL_CHECK_LOCKED || free_running.one > a->one)) stop("no lock on code 0, or a later one", t);
}

void try_input(input *in) {
    trial t = begin(in);
    const channel_check_answer *a = &ask_on_sheet(&t, in, STEPS, 1, ask, CHANNEL_CHECK_REFUSED)->check;
    wrote(&t, a->word == CHANNEL_CHECK_LOCKED ? 2 * (size_t)a->three : 0);
    if (a->word == CHANNEL_CHECK_LOCKED) ends_stuck(&t, a);
    if (a->word != CHANNEL_CHECK_REFUSED && (t.code == 2 || t.code == 4 || t.code == 5)) is_as_wired(&t, a);
}
