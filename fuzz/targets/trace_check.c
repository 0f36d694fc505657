/* trace_check: a number for the trace's length, the trace, the text. A trace cut off at the step that is not allowed is allowed. */
#include "../harness.h"

ON_ALL_SIDES(trace_check, careful_trace_check);

static void ask(const trial *t, int side, answer *a) {
    a->replay = trace_check_on[side](BYTES_OF(t, TEXT, side), t->code, WORDS_OF(t, SCRATCH, side), BYTES_OF(t, FIRST, side));
}

void try_input(input *in) {
    trial t = begin(in);
    size_t len, asked = take_number(in);
    const uint8_t *trace = take_bytes(in, asked, &len);
    lend(&t, FIRST, trace, len);
    lend_sheet(&t, in);
    const trace_check_answer *a = &ask_all(&t, ask)->replay;
    cleared(&t, TRACE_CHECK_REFUSED);
    if (a->word != TRACE_CHECK_STUCK && !all_are((const uint8_t *)a->waits, sizeof a->waits, 255)) stop("waits on another word than stuck", &t);
    if (a->word != TRACE_CHECK_NOT_ALLOWED) return;
    if (replay_of(&t, t.code, trace, 2 * (size_t)a->one).word > TRACE_CHECK_OPEN) stop("a trace that is not allowed ahead of the step named", &t);
}
