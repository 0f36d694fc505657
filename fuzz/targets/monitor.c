/* monitor_open, monitor_step and monitor_switch: a byte for the number of calls, the calls, two bytes each, the text. A first byte over 7 is a switch;
 * else its bits 0 and 1 are a step's code, and bit 2 is bit 8 of the message, so that messages after the last can be told. All sides hand back one
 * state, bit for bit. The steps taken on one channel are a trace that is allowed there, and the run stands as it does. */
#include "../harness.h"

ON_ALL_SIDES(monitor_open, careful_monitor_open);
ON_ALL_SIDES(monitor_step, careful_monitor_step);
ON_ALL_SIDES(monitor_switch, careful_monitor_switch);

enum { CALLS_MOST = 48, STATE = offsetof(monitor, code) + sizeof(uint32_t) };
enum { OPENS, STEPS_ON, SWITCHES };

/* The run as it was last handed back; the next call; and the steps taken since the opening. */
static struct {
    monitor state;
    int call;
    uint32_t kind, message, to;
    uint8_t taken[2 * CALLS_MOST];
    size_t steps;
    int switched;
} run;

static void ask(const trial *t, int side, answer *a) {
    monitor_answer m;
    if (run.call == OPENS) m = monitor_open_on[side](BYTES_OF(t, TEXT, side), t->code, WORDS_OF(t, SCRATCH, side));
    else if (run.call == STEPS_ON) m = monitor_step_on[side](run.state, run.kind, run.message, BYTES_OF(t, TEXT, side), WORDS_OF(t, SCRATCH, side));
    else m = monitor_switch_on[side](run.state, run.to, BYTES_OF(t, TEXT, side), WORDS_OF(t, SCRATCH, side));
    a->word = m.word, a->one = m.one, a->two = m.two;
    memcpy(&a->watch.next, &m.next, STATE);
}

/* One call, and what it hands back: forbidden and refused the state that was handed in, a refused opening all zeros. */
static void make(trial *t) {
    static const monitor zeros;
    lend(t, SCRATCH, NULL, 8 * length_by(run.call == OPENS ? 0 : t->lengths, WORDS));
    const answer *a = ask_all(t, ask);
    cleared(t, MONITOR_REFUSED);
    if (a->word != MONITOR_TAKEN && memcmp(&a->watch.next, run.call == OPENS ? &zeros : &run.state, STATE) != 0) stop("a state that was to be left as it was", t);
    if (run.call == STEPS_ON && a->word == MONITOR_TAKEN) {
        run.taken[2 * run.steps] = (uint8_t)run.kind;
        run.taken[2 * run.steps++ + 1] = (uint8_t)run.message;
    }
    if (run.call == SWITCHES && a->word == MONITOR_TAKEN && run.to != run.state.code) run.switched = 1;
    memcpy(&run.state, &a->watch.next, STATE);
}

static void stands_as_its_steps(const trial *t) {
    trace_check_answer r = replay_of(t, t->code, run.taken, 2 * run.steps);
    monitor_standing_answer s = monitor_standing(run.state, t->buffers[TEXT].given, t->buffers[TEXT].size, spare_scratch(), WORDS);
    if (r.word > TRACE_CHECK_OPEN) stop("steps taken that are no allowed trace", t);
    if (s.word != r.word || memcmp(s.waits, r.waits, sizeof s.waits) != 0) stop("a run that stands elsewhere than its steps", t);
}

void try_input(input *in) {
    trial t = begin(in);
    size_t len, asked = 2 * (size_t)(take_byte(in) % (CALLS_MOST + 1));
    const uint8_t *calls = take_bytes(in, asked, &len);
    memset(&run, 0, sizeof run);
    lend_sheet(&t, in);
    make(&t);
    int is_open = t.answers[SHIPPED].word == MONITOR_TAKEN;
    for (size_t i = 0; i + 1 < len; i += 2) {
        run.call = calls[i] > 7 ? SWITCHES : STEPS_ON;
        run.kind = calls[i] % 4;
        run.to = code_by(calls[i]);
        run.message = calls[i + 1] + calls[i] / 4 * UINT32_C(256);
        make(&t);
    }
    if (is_open && !run.switched) stands_as_its_steps(&t);
}
