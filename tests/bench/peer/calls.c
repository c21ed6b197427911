/* The six calls: lengths first, then the judges in their order, then the work. */
#include <string.h>

#include "parts.h"
#include "peer.h"

/* Writes an answer; gives its number. */
static uint32_t tell(uint64_t *answer, enum refusal refusal, uint64_t companion, uint64_t third,
                     uint64_t fourth)
{
    answer[0] = refusal;
    answer[1] = companion;
    answer[2] = third;
    answer[3] = fourth;
    return refusal;
}

/* The refusal of a wrong length, which an answer of the wrong length cannot hold. */
static uint32_t tell_length(uint64_t *answer, size_t answer_length)
{
    return answer_length == ANSWER ? tell(answer, LENGTH_WRONG, 0, 0, 0) : LENGTH_WRONG;
}

uint32_t peer_read_plan(const uint8_t *text, size_t text_length,
                        uint32_t *scripts, size_t scripts_length,
                        uint32_t *plan, size_t plan_length,
                        uint64_t *answer, size_t answer_length)
{
    if (plan_length != PLAN || answer_length != ANSWER) {
        return tell_length(answer, answer_length);
    }
    enum refusal refusal = LENGTH_WRONG;
    uint64_t companion = 0;
    if (scripts_length == SCRIPTS) {
        refusal = read_text(text, text_length, scripts, (struct plan *)plan, &companion);
    }
    if (refusal != ACCEPTED) {
        memset(plan, 0, PLAN * sizeof *plan);
    }
    return tell(answer, refusal, companion, 0, 0);
}

uint32_t peer_fresh_start(const uint32_t *plan, size_t plan_length,
                          uint64_t *state, size_t state_length,
                          uint16_t *cache, size_t cache_length,
                          uint32_t *boxes, size_t boxes_length,
                          uint64_t *answer, size_t answer_length)
{
    if (plan_length != PLAN || state_length != STATE || cache_length != CACHE
        || boxes_length != BOXES || answer_length != ANSWER) {
        return tell_length(answer, answer_length);
    }
    if (!plan_is_possible((const struct plan *)plan)) {
        return tell(answer, PLAN_IMPOSSIBLE, 0, 0, 0);
    }
    memset(state, 0, STATE * sizeof *state);
    memset(cache, 0, CACHE * sizeof *cache);
    memset(boxes, 0, BOXES * sizeof *boxes);
    return tell(answer, ACCEPTED, 0, 0, 0);
}

/* Judges the plan, and then the tables. */
static enum refusal judge_tables(const struct machine *machine)
{
    if (!plan_is_possible(machine->plan)) {
        return PLAN_IMPOSSIBLE;
    }
    if (!tables_are_whole(machine->plan, machine->state, machine->cache, machine->boxes)) {
        return TABLE_DAMAGED;
    }
    return ACCEPTED;
}

/* Runs a machine that was judged. */
static uint32_t run_judged(const struct machine *machine, uint64_t limit, uint64_t *answer)
{
    uint64_t done = run_steps(machine, limit);
    bool ended = machine->state->windows == all_windows(machine->plan);
    return tell(answer, ACCEPTED, 0, done, ended);
}

uint32_t peer_step(const uint32_t *plan, size_t plan_length,
                   const uint32_t *scripts, size_t scripts_length,
                   uint64_t *state, size_t state_length,
                   uint16_t *cache, size_t cache_length,
                   uint32_t *boxes, size_t boxes_length,
                   uint8_t *log, size_t log_length,
                   uint64_t *answer, size_t answer_length)
{
    return peer_run(plan, plan_length, scripts, scripts_length, state, state_length,
                    cache, cache_length, boxes, boxes_length, log, log_length, 1,
                    answer, answer_length);
}

uint32_t peer_run(const uint32_t *plan, size_t plan_length,
                  const uint32_t *scripts, size_t scripts_length,
                  uint64_t *state, size_t state_length,
                  uint16_t *cache, size_t cache_length,
                  uint32_t *boxes, size_t boxes_length,
                  uint8_t *log, size_t log_length,
                  uint64_t limit,
                  uint64_t *answer, size_t answer_length)
{
    if (plan_length != PLAN || scripts_length != SCRIPTS || state_length != STATE
        || cache_length != CACHE || boxes_length != BOXES || answer_length != ANSWER) {
        return tell_length(answer, answer_length);
    }
    struct machine machine = {
        (const struct plan *)plan, scripts, (struct state *)state, cache, boxes, log, 0, EVERYONE
    };
    enum refusal refusal = judge_tables(&machine);
    if (refusal != ACCEPTED) {
        return tell(answer, refusal, 0, 0, 0);
    }
    machine.room = room_of(machine.plan, log_length);
    if (!state_is_possible(machine.plan, machine.state, machine.room)) {
        return tell(answer, STATE_IMPOSSIBLE, 0, 0, 0);
    }
    return run_judged(&machine, limit, answer);
}

uint32_t peer_run_kept(const uint32_t *plan, size_t plan_length,
                       const uint32_t *scripts, size_t scripts_length,
                       uint64_t *state, size_t state_length,
                       uint16_t *cache, size_t cache_length,
                       uint32_t *boxes, size_t boxes_length,
                       uint8_t *kept, size_t kept_length,
                       uint32_t domain, uint64_t part, uint64_t limit,
                       uint64_t *answer, size_t answer_length)
{
    if (plan_length != PLAN || scripts_length != SCRIPTS || state_length != STATE
        || cache_length != CACHE || boxes_length != BOXES || answer_length != ANSWER
        || kept_length % RECORD != 0 || kept_length / RECORD != part) {
        return tell_length(answer, answer_length);
    }
    struct machine machine = {
        (const struct plan *)plan, scripts, (struct state *)state, cache, boxes, kept, part, domain
    };
    enum refusal refusal = judge_tables(&machine);
    if (refusal != ACCEPTED) {
        return tell(answer, refusal, 0, 0, 0);
    }
    if (!state_is_possible(machine.plan, machine.state, part)) {
        return tell(answer, STATE_IMPOSSIBLE, 0, 0, 0);
    }
    if (domain >= machine.plan->domains) {
        return tell(answer, DOMAIN_UNDECLARED, 0, 0, 0);
    }
    return run_judged(&machine, limit, answer);
}

uint32_t peer_log(const uint32_t *plan, size_t plan_length,
                  const uint64_t *state, size_t state_length,
                  const uint8_t *log, size_t log_length,
                  uint32_t domain,
                  uint64_t *answer, size_t answer_length)
{
    const struct plan *judged = (const struct plan *)plan;
    const struct state *now = (const struct state *)state;
    (void)log; /* only its length tells where a part begins */
    if (plan_length != PLAN || state_length != STATE || answer_length != ANSWER) {
        return tell_length(answer, answer_length);
    }
    if (!plan_is_possible(judged)) {
        return tell(answer, PLAN_IMPOSSIBLE, 0, 0, 0);
    }
    uint64_t room = room_of(judged, log_length);
    if (!state_is_possible(judged, now, room)) {
        return tell(answer, STATE_IMPOSSIBLE, 0, 0, 0);
    }
    if (domain >= judged->domains) {
        return tell(answer, DOMAIN_UNDECLARED, 0, 0, 0);
    }
    return tell(answer, ACCEPTED, 0, RECORD * room * domain, RECORD * now->records[domain]);
}
