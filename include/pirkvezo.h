/* Pirkvezo: reads a plan of domains, cache shares, windows and padded switches, and runs it tick by tick.
 *
 * Every function is total and proved to meet its contract for every input: it returns 0, or the number of the refusal
 * that docs/HOST.md lists. It keeps nothing between calls: all that it works on is lent by the caller, each array as a
 * pointer and a number of elements. The caller sees to it that
 *   - each pointer points to that many elements, aligned as C aligns the type (of an empty array it is still not null);
 *   - no array that a call may write overlaps another that it is lent;
 *   - nothing else reads or writes a lent array during the call, but that several calls may read the same one.
 */
#ifndef PIRKVEZO_H
#define PIRKVEZO_H

#include <stddef.h>
#include <stdint.h>

#ifdef __cplusplus
extern "C" {
#endif

/* How many elements the lent arrays have. A text, a log and an `out` have any length; a `kept` has
 * 8 * `part` bytes. */
#define PIRKVEZO_PLAN 92
#define PIRKVEZO_STATE 18
#define PIRKVEZO_ANSWER 4
#define PIRKVEZO_SCRIPTS 2048
#define PIRKVEZO_CACHE 272
#define PIRKVEZO_BOXES 64
#define PIRKVEZO_WEIGHTS 8
#define PIRKVEZO_FRAME 32
#define PIRKVEZO_SCRIPT 256

/* The most bytes of a text that is read, and so of one that is written. */
#define PIRKVEZO_TEXT 32768

/* Reads a plan text. Accepted: the scripts and the plan are written, and 0 is returned. Refused: the scripts stay, and
 * the plan is all zeros; with a plan or an answer of another length the plan stays too. A pad is 376 at least: a text
 * with a smaller one is refused with 3, and by the other calls a plan with a smaller one with 12.
 * answer: number, companion, 0, 0. */
uint32_t pirkvezo_read_plan(const uint8_t *text, size_t text_length,
                            uint32_t *scripts, size_t scripts_length,
                            uint32_t *plan, size_t plan_length,
                            uint64_t *answer, size_t answer_length);

/* A fresh start under a plan: state, cache table and boxes are zeroed, whatever they held. Refused: they stay.
 * answer: number, companion, 0, 0. */
uint32_t pirkvezo_fresh_start(const uint32_t *plan, size_t plan_length,
                              uint64_t *state, size_t state_length,
                              uint16_t *cache, size_t cache_length,
                              uint32_t *boxes, size_t boxes_length,
                              uint64_t *answer, size_t answer_length);

/* One step, an op or a switch: the same as pirkvezo_run with limit 1. A switch empties the kernel's sets and L1, and
 * then reads line 60, for 100 ticks. So every window but the run's first starts with 61 in the cache table at index 12
 * (L1) and at index 256 (the front of set 60), and with 0 in the rest of L1 and of the kernel's sets, 256 to 271. The
 * run's last switch leaves all of these 0. */
uint32_t pirkvezo_step(const uint32_t *plan, size_t plan_length,
                       const uint32_t *scripts, size_t scripts_length,
                       uint64_t *state, size_t state_length,
                       uint16_t *cache, size_t cache_length,
                       uint32_t *boxes, size_t boxes_length,
                       uint8_t *log, size_t log_length,
                       uint64_t *answer, size_t answer_length);

/* At most `limit` steps. State, cache table, boxes and log are rewritten; refused, they stay.
 * answer: number, companion, the steps done, and 1 where the run has ended, 0 where the limit came first. */
uint32_t pirkvezo_run(const uint32_t *plan, size_t plan_length,
                      const uint32_t *scripts, size_t scripts_length,
                      uint64_t *state, size_t state_length,
                      uint16_t *cache, size_t cache_length,
                      uint32_t *boxes, size_t boxes_length,
                      uint8_t *log, size_t log_length,
                      uint64_t limit,
                      uint64_t *answer, size_t answer_length);

/* The log query and its status query: where one domain's records so far stand in the lent log.
 * answer: number, companion, the offset of the first byte in the log, and the number of bytes (0 and 0 where refused). */
uint32_t pirkvezo_log(const uint32_t *plan, size_t plan_length,
                      const uint64_t *state, size_t state_length,
                      const uint8_t *log, size_t log_length,
                      uint32_t domain,
                      uint64_t *answer, size_t answer_length);

/* A frame by weights: the domains of `count` windows, shared out by the weights of eight domains and laid in turns. The
 * frame's numbers behind the last window are 0. Refused for the count or the weights (15): all of them are 0. Refused
 * for a length (11): the frame stays. answer: number, companion, 0, 0. */
uint32_t pirkvezo_frame(uint32_t count,
                        const uint32_t *weights, size_t weights_length,
                        uint32_t *frame, size_t frame_length,
                        uint64_t *answer, size_t answer_length);

/* How many steps a run from a fresh start can take at most: the ops stored in the eight scripts, each up to its end, and
 * windows times run. With at least that limit such a run ends. Nothing but the answer is written.
 * answer: number, companion, the bound (0 where refused), 0. */
uint32_t pirkvezo_step_bound(const uint32_t *plan, size_t plan_length,
                             const uint32_t *scripts, size_t scripts_length,
                             uint64_t *answer, size_t answer_length);

/* Writes a plan and its scripts to the start of `out` as their canonical text: lines in a fixed
 * order, each in one spelling without a needless space or zero, as `(domain 0(share 400)(may 1))`.
 * docs/PLANS.md has the form. Refused, in this order; `out` stays:
 *   - 11: plan, scripts or answer of another length;
 *   - 12: a plan and scripts that no accepted text gives. The plan is impossible, or a number at or
 *     after a script's end or in the part of an undeclared domain is not 0, or the canonical text
 *     has over 32,768 bytes;
 *   - 17, with the length needed as companion: `out` is shorter than that.
 * Accepted: what stands in `out` past the text stays. The text is read back as the same plan and
 * scripts; equal plans and scripts give equal texts; no text that gives them is shorter. So an
 * `out` as long as the text that they were read from always has room, and so has one of 32,768
 * bytes. answer: number, companion, the bytes written (0 where refused), 0. */
uint32_t pirkvezo_write_plan(const uint32_t *plan, size_t plan_length,
                             const uint32_t *scripts, size_t scripts_length,
                             uint8_t *out, size_t out_length,
                             uint64_t *answer, size_t answer_length);

/* The latest that a domain can finish a window: the most ticks from the window's end until the
 * switch has emptied L1 and read line 60, that read's 100 ticks counted, in any run from a fresh
 * start and whatever any script holds. It comes from the plan alone. Accepted: `script` holds 256
 * stored ops for the domain, 0 behind the last. Its first window finishes exactly then, whatever the
 * other scripts hold, where its part of the log has room for 256 records. The script of a domain
 * that does not have the plan's first window begins with all sixteen messages: a send to each of
 * the domains 0 to 7, then a receive from each. Refused, in this order; `script` stays:
 *   - 11: plan, script or answer of another length;
 *   - 12: an impossible plan;
 *   - 18, with the domain as companion: it is not declared, has no window, or has a window of fewer
 *     than 4,000 or more than 20,000 ticks.
 * answer: number, companion, the ticks (0 where refused; 360 at most), 0. */
uint32_t pirkvezo_latest(const uint32_t *plan, size_t plan_length,
                         uint32_t domain,
                         uint32_t *script, size_t script_length,
                         uint64_t *answer, size_t answer_length);

/* A run that keeps one domain's log alone: at most `limit` steps, just as pirkvezo_run makes them.
 * `part` says how many records each domain has room for: with a full log of L bytes that is
 * L / (8 * domains), rounded down. `kept` is the part of `domain` alone, of exactly 8 * `part` bytes,
 * with its record k at byte 8 * k. Records of other domains are stored nowhere, but such a domain
 * too goes idle when it has `part` of them.
 * Accepted: state, cache table, boxes and answer are what pirkvezo_run gives with a full log of that
 * `part`, and `kept` is what it leaves in this domain's part of it. The domain's log so far is the
 * first 8 * state[10 + domain] bytes of `kept`; the bytes behind it stay.
 * Refused, in this order; all but the answer stays:
 *   - 11: an array of another length than pirkvezo_run takes, or a `kept` of another length than
 *     8 * `part` (any length, where that number is over 64 bits);
 *   - 12, 13, 14: as pirkvezo_run; of 14, a domain may have at most `part` records;
 *   - 4, with 0 as companion: the domain is not declared.
 * answer: number, companion, the steps done, and 1 where the run has ended, 0 where the limit came
 * first. */
uint32_t pirkvezo_run_kept(const uint32_t *plan, size_t plan_length,
                           const uint32_t *scripts, size_t scripts_length,
                           uint64_t *state, size_t state_length,
                           uint16_t *cache, size_t cache_length,
                           uint32_t *boxes, size_t boxes_length,
                           uint8_t *kept, size_t kept_length,
                           uint32_t domain, uint64_t part, uint64_t limit,
                           uint64_t *answer, size_t answer_length);

#ifdef __cplusplus
}
#endif

#endif
