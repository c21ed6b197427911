/* A whole list of calls: a plan is read, started, run in parts and to its end, and each domain's
 * log is asked for; then runs limited by the step bound; then calls that are refused, which change
 * nothing; then frames by weights; then a plan written back; then how late a domain can finish, with
 * runs that do so; then steps on cache tables of the host's own; then runs that keep one domain's
 * log; then the least pad, and what a switch's touch leaves in the cache table.
 * tests/host/expected.txt is what it prints. */
#include <inttypes.h>
#include <stdio.h>
#include <string.h>

#include "pirkvezo.h"

#define LOG 16384
#define OUT 210
#define PART 4
#define KEPT (8 * PART)

/* All that a host lends. */
static uint32_t scripts[PIRKVEZO_SCRIPTS];
static uint32_t plan[PIRKVEZO_PLAN];
static uint64_t state[PIRKVEZO_STATE];
static uint16_t cache[PIRKVEZO_CACHE];
static uint32_t boxes[PIRKVEZO_BOXES];
static uint8_t log_bytes[LOG];
static uint64_t answer[PIRKVEZO_ANSWER];
static uint32_t frame[PIRKVEZO_FRAME];
static uint8_t out[OUT];
static uint32_t script[PIRKVEZO_SCRIPT];
static uint8_t kept[KEPT + 1];

static const char *const settled =
    "(pad 376)\n"
    "(domain 0 (share 400) (may 1))\n"
    "(domain 1 (share 300) (may))\n"
    "(window 0 (length 400))\n"
    "(window 1 (length 300))\n"
    "(run 1)\n"
    "(op 0 (write 3))\n"
    "(op 0 (read 3))\n"
    "(op 0 (send 1 77))\n"
    "(op 1 (receive 0))\n"
    "(op 1 (read 100))\n";

/* Fourteen colours and one right to send; the other domain has the fifteenth colour. */
static const char *const long_windows =
    "(pad 376)\n"
    "(domain 0 (share 934) (may 1))\n"
    "(domain 1 (share 66) (may))\n"
    "(window 0 (length 4000))\n"
    "(window 1 (length 20000))\n"
    "(run 1)\n";

/* Two lines of set 0, which has four ways. */
static const char *const reads =
    "(pad 376)\n"
    "(domain 0 (share 400) (may))\n"
    "(window 0 (length 400))\n"
    "(run 1)\n"
    "(op 0 (read 256))\n"
    "(op 0 (read 64))\n";

/* What was called, what it returned, and its answer. */
static void print_call(const char *call, uint32_t number)
{
    printf("%s: %" PRIu32 "; answer %" PRIu64 " %" PRIu64 " %" PRIu64 " %" PRIu64 "\n",
           call, number, answer[0], answer[1], answer[2], answer[3]);
}

static uint32_t read_text(const char *text)
{
    return pirkvezo_read_plan((const uint8_t *)text, strlen(text), scripts, PIRKVEZO_SCRIPTS,
                              plan, PIRKVEZO_PLAN, answer, PIRKVEZO_ANSWER);
}

static uint32_t start(void)
{
    return pirkvezo_fresh_start(plan, PIRKVEZO_PLAN, state, PIRKVEZO_STATE, cache, PIRKVEZO_CACHE,
                                boxes, PIRKVEZO_BOXES, answer, PIRKVEZO_ANSWER);
}

static uint32_t step(void)
{
    return pirkvezo_step(plan, PIRKVEZO_PLAN, scripts, PIRKVEZO_SCRIPTS, state, PIRKVEZO_STATE,
                         cache, PIRKVEZO_CACHE, boxes, PIRKVEZO_BOXES, log_bytes, LOG,
                         answer, PIRKVEZO_ANSWER);
}

static uint32_t run(uint64_t limit)
{
    return pirkvezo_run(plan, PIRKVEZO_PLAN, scripts, PIRKVEZO_SCRIPTS, state, PIRKVEZO_STATE,
                        cache, PIRKVEZO_CACHE, boxes, PIRKVEZO_BOXES, log_bytes, LOG, limit,
                        answer, PIRKVEZO_ANSWER);
}

static uint32_t ask(uint32_t domain)
{
    return pirkvezo_log(plan, PIRKVEZO_PLAN, state, PIRKVEZO_STATE, log_bytes, LOG, domain,
                        answer, PIRKVEZO_ANSWER);
}

static uint32_t bound(size_t plan_length, size_t scripts_length)
{
    return pirkvezo_step_bound(plan, plan_length, scripts, scripts_length, answer, PIRKVEZO_ANSWER);
}

/* A record is eight bytes: kind, 0, value (two bytes), clock (four), little end first. */
static void print_record(uint32_t domain, const uint8_t *r)
{
    static const char *const kinds[] = {
        "?", "hit1", "hit2", "miss", "sent", "got", "empty", "denied", "ran", "barred"};
    unsigned value = r[2] + 256u * r[3];
    uint32_t clock = r[4] + 256u * r[5] + 65536u * r[6] + 16777216u * r[7];
    printf("(seen %" PRIu32 " %" PRIu32 " (%s %u))\n", domain, clock, kinds[r[0] <= 9 ? r[0] : 0], value);
}

/* One domain's records so far: the answer says where they stand. */
static void print_log(uint32_t domain)
{
    print_call("log", ask(domain));
    for (uint64_t at = 0; at < answer[3]; at += 8) {
        print_record(domain, log_bytes + answer[2] + at);
    }
}

/* A run in parts: no step, one, two more, and the rest up to the end. */
static void accepted_calls(void)
{
    print_call("read_plan", read_text(settled));
    print_call("step_bound", bound(PIRKVEZO_PLAN, PIRKVEZO_SCRIPTS));
    print_call("fresh_start", start());
    print_call("run, limit 0", run(0));
    print_call("step", step());
    print_log(0);
    print_call("run, limit 2", run(2));
    print_call("run, limit 1000", run(1000));
    print_call("run after the end", run(1000));
    printf("(end %" PRIu64 " %" PRIu64 ")\n", state[0], state[1]);
    print_log(0);
    print_log(1);
}

/* The limit that always suffices: asked for first, and one step less does not. */
static void bounded_run(void)
{
    print_call("step_bound after the run", bound(PIRKVEZO_PLAN, PIRKVEZO_SCRIPTS));
    uint64_t limit = answer[2];
    print_call("fresh_start again", start());
    print_call("run, one step less than the bound", run(limit - 1));
    print_call("fresh_start once more", start());
    print_call("run, the bound", run(limit));
}

/* Each is told why. */
static void refused_calls(void)
{
    print_call("log of an undeclared domain", ask(2));

    state[1] += 1;
    print_call("run, the clock wrong after the end", run(1));
    state[1] -= 1;

    boxes[0] = 5;
    print_call("run, a full box without the right", run(1));
    boxes[0] = 0;

    plan[84] += 65536;
    print_call("run, a colour mask of 17 bits", run(1));
    print_call("fresh_start, the same", start());
    print_call("log, the same", ask(0));
    print_call("step_bound, the same", bound(PIRKVEZO_PLAN, PIRKVEZO_SCRIPTS));
    print_call("step_bound, the same and scripts of 2,047 numbers", bound(PIRKVEZO_PLAN, PIRKVEZO_SCRIPTS - 1));
    plan[84] -= 65536;
    print_call("step_bound, a plan of 91 numbers", bound(PIRKVEZO_PLAN - 1, PIRKVEZO_SCRIPTS));
    memset(answer, 255, sizeof answer);
    print_call("step_bound, an answer of 3 numbers",
               pirkvezo_step_bound(plan, PIRKVEZO_PLAN, scripts, PIRKVEZO_SCRIPTS, answer, PIRKVEZO_ANSWER - 1));

    print_call("fresh_start, a plan of 91 numbers",
               pirkvezo_fresh_start(plan, PIRKVEZO_PLAN - 1, state, PIRKVEZO_STATE, cache, PIRKVEZO_CACHE,
                                    boxes, PIRKVEZO_BOXES, answer, PIRKVEZO_ANSWER));
    memset(answer, 255, sizeof answer);
    print_call("fresh_start, an answer of 3 numbers",
               pirkvezo_fresh_start(plan, PIRKVEZO_PLAN, state, PIRKVEZO_STATE, cache, PIRKVEZO_CACHE,
                                    boxes, PIRKVEZO_BOXES, answer, PIRKVEZO_ANSWER - 1));
}

/* A refused reading leaves the scripts, and its plan is all zeros, which no other call takes. */
static void refused_readings(void)
{
    print_call("read_plan, pad 375", read_text("(pad 375)\n"));
    print_call("read_plan, no text", read_text(""));
    print_call("read_plan, sixteen colours",
               read_text("(pad 376)\n(domain 0 (share 500) (may))\n(domain 1 (share 500) (may))\n"
                         "(window 0 (length 1))\n(run 1)\n"));
    print_call("fresh_start, the plan beside a refused reading", start());
}

/* All that the calls of a run may write, to see that a refused call writes none of it. */
struct tables {
    uint32_t scripts[PIRKVEZO_SCRIPTS];
    uint64_t state[PIRKVEZO_STATE];
    uint16_t cache[PIRKVEZO_CACHE];
    uint32_t boxes[PIRKVEZO_BOXES];
    uint8_t log[LOG];
};

static void copy_tables(struct tables *copy)
{
    memset(copy, 0, sizeof *copy);
    memcpy(copy->scripts, scripts, sizeof scripts);
    memcpy(copy->state, state, sizeof state);
    memcpy(copy->cache, cache, sizeof cache);
    memcpy(copy->boxes, boxes, sizeof boxes);
    memcpy(copy->log, log_bytes, sizeof log_bytes);
}

static uint32_t make(uint32_t count, const uint32_t *weights, size_t weights_length, size_t frame_length)
{
    return pirkvezo_frame(count, weights, weights_length, frame, frame_length, answer, PIRKVEZO_ANSWER);
}

static void print_frame(void)
{
    printf("the frame:");
    for (size_t i = 0; i < PIRKVEZO_FRAME; i++) {
        printf(" %" PRIu32, frame[i]);
    }
    printf("\n");
}

/* The windows of a plan by weights. With another length nothing is written; without a frame it is all zeros. */
static void frames(void)
{
    static const uint32_t weights[PIRKVEZO_WEIGHTS] = {3, 2, 2}, none[PIRKVEZO_WEIGHTS];
    print_call("frame, 7 by 3 2 2", make(7, weights, PIRKVEZO_WEIGHTS, PIRKVEZO_FRAME));
    print_frame();
    print_call("frame, 7 weights", make(8, weights, PIRKVEZO_WEIGHTS - 1, PIRKVEZO_FRAME));
    print_call("frame, 31 numbers", make(8, weights, PIRKVEZO_WEIGHTS, PIRKVEZO_FRAME - 1));
    memset(answer, 255, sizeof answer);
    print_call("frame, an answer of 3 numbers",
               pirkvezo_frame(8, weights, PIRKVEZO_WEIGHTS, frame, PIRKVEZO_FRAME, answer, PIRKVEZO_ANSWER - 1));
    print_frame();
    print_call("frame, 33 windows", make(33, weights, PIRKVEZO_WEIGHTS, PIRKVEZO_FRAME));
    print_frame();
    print_call("frame, all weights 0", make(7, none, PIRKVEZO_WEIGHTS, PIRKVEZO_FRAME));
}

/* The buffer is full of a byte that no text has. */
static uint32_t write_text(size_t plan_length, size_t scripts_length, size_t out_length,
                           size_t answer_length)
{
    memset(out, '#', sizeof out);
    return pirkvezo_write_plan(plan, plan_length, scripts, scripts_length, out, out_length,
                               answer, answer_length);
}

static uint32_t write_to(size_t out_length)
{
    return write_text(PIRKVEZO_PLAN, PIRKVEZO_SCRIPTS, out_length, PIRKVEZO_ANSWER);
}

/* The call, the text where there is one, and whether the rest of the buffer is as it was. */
static void print_writing(const char *call, uint32_t number)
{
    size_t written = number == 0 ? answer[2] : 0, at = written;
    print_call(call, number);
    if (number == 0) {
        printf("[%.*s]\n", (int)written, (const char *)out);
    }
    while (at < OUT && out[at] == '#') {
        at++;
    }
    printf("the other %zu bytes: %s\n", OUT - written, at == OUT ? "untouched" : "changed");
}

/* What cannot be written leaves the buffer: first what is wrong, then what has no room. */
static void refused_writings(void)
{
    print_writing("write_plan, a plan of 91 numbers",
                  write_text(PIRKVEZO_PLAN - 1, PIRKVEZO_SCRIPTS, OUT, PIRKVEZO_ANSWER));
    print_writing("write_plan, scripts of 2,047 numbers",
                  write_text(PIRKVEZO_PLAN, PIRKVEZO_SCRIPTS - 1, OUT, PIRKVEZO_ANSWER));
    memset(answer, 255, sizeof answer);
    print_writing("write_plan, an answer of 3 numbers",
                  write_text(PIRKVEZO_PLAN, PIRKVEZO_SCRIPTS, OUT, PIRKVEZO_ANSWER - 1));

    plan[84] += 65536;
    print_writing("write_plan, a colour mask of 17 bits", write_to(OUT));
    print_writing("write_plan, the same and no room", write_to(0));
    print_writing("write_plan, the same and scripts of 2,047 numbers",
                  write_text(PIRKVEZO_PLAN, PIRKVEZO_SCRIPTS - 1, OUT, PIRKVEZO_ANSWER));
    plan[84] -= 65536;

    scripts[4] = scripts[0];
    print_writing("write_plan, an op behind a script's end", write_to(OUT));
    scripts[4] = 0;
    scripts[512] = scripts[0];
    print_writing("write_plan, an op of an undeclared domain", write_to(OUT));
    scripts[512] = 0;

    print_writing("write_plan, a buffer of 0 bytes", write_to(0));
    print_writing("write_plan, one byte short", write_to(202));
}

/* A plan written back: the text that is written gives the same plan and scripts. */
static void writings(void)
{
    static uint32_t scripts_before[PIRKVEZO_SCRIPTS], plan_before[PIRKVEZO_PLAN];
    print_call("read_plan again", read_text(settled));
    memcpy(scripts_before, scripts, sizeof scripts);
    memcpy(plan_before, plan, sizeof plan);
    refused_writings();
    print_writing("write_plan, as many bytes as it has", write_to(203));
    print_writing("write_plan, more than it has", write_to(OUT));
    memset(scripts, 255, sizeof scripts);
    memset(plan, 255, sizeof plan);
    print_call("read_plan, the text written",
               pirkvezo_read_plan(out, answer[2], scripts, PIRKVEZO_SCRIPTS, plan, PIRKVEZO_PLAN,
                                  answer, PIRKVEZO_ANSWER));
    int same = memcmp(scripts_before, scripts, sizeof scripts) == 0
               && memcmp(plan_before, plan, sizeof plan) == 0;
    printf("plan and scripts: %s\n", same ? "the same" : "others");
}

/* The buffer is full of a number that no op has. */
static uint32_t latest(uint32_t domain, size_t plan_length, size_t script_length, size_t answer_length)
{
    memset(script, 255, sizeof script);
    return pirkvezo_latest(plan, plan_length, domain, script, script_length, answer, answer_length);
}

static uint32_t latest_of(uint32_t domain)
{
    return latest(domain, PIRKVEZO_PLAN, PIRKVEZO_SCRIPT, PIRKVEZO_ANSWER);
}

/* The call, and all of the buffer after it: each number, and how often it stands there in a row. */
static void print_latest(const char *call, uint32_t number)
{
    print_call(call, number);
    printf("the script:");
    for (size_t at = 0, next; at < PIRKVEZO_SCRIPT; at = next) {
        for (next = at + 1; next < PIRKVEZO_SCRIPT && script[next] == script[at];) {
            next++;
        }
        printf(" %" PRIu32, script[at]);
        if (next - at > 1) {
            printf(" x %zu", next - at);
        }
    }
    printf("\n");
}

/* First a wrong length, then an impossible plan, then what is wrong with the domain. Windows of others
 * are not looked at. */
static void refused_latest(void)
{
    print_latest("latest, a plan of 91 numbers", latest(0, PIRKVEZO_PLAN - 1, PIRKVEZO_SCRIPT, PIRKVEZO_ANSWER));
    print_latest("latest, a script of 255 numbers", latest(0, PIRKVEZO_PLAN, PIRKVEZO_SCRIPT - 1, PIRKVEZO_ANSWER));
    memset(answer, 255, sizeof answer);
    print_latest("latest, an answer of 3 numbers", latest(0, PIRKVEZO_PLAN, PIRKVEZO_SCRIPT, PIRKVEZO_ANSWER - 1));

    plan[84] += 65536;
    print_latest("latest, a colour mask of 17 bits", latest_of(0));
    print_latest("latest, the same and a domain that is not declared", latest_of(2));
    print_latest("latest, the same and a script of 255 numbers",
                 latest(2, PIRKVEZO_PLAN, PIRKVEZO_SCRIPT - 1, PIRKVEZO_ANSWER));
    plan[84] -= 65536;

    print_latest("latest, a domain that is not declared", latest_of(2));
    print_latest("latest, the largest number of a domain", latest_of(UINT32_MAX));
    plan[21] = 0;
    print_latest("latest, a domain without a window", latest_of(1));
    plan[21] = 1;
    plan[52] = 3999;
    print_latest("latest, a window of 3,999 ticks", latest_of(0));
    plan[52] = 4000;
    plan[53] = 20001;
    print_latest("latest, a window of 20,001 ticks", latest_of(1));
    print_latest("latest, the domain beside it", latest_of(0));
    plan[53] = 20000;
}

/* The ticks of the switch that comes next, by the cache table: each flush takes 8, and the kernel's
 * sets one more for each line, L1 two more for each dirty line; the touch takes 100. */
static uint64_t switch_ticks(void)
{
    uint64_t ticks = 8 + 8 + 100;
    for (size_t at = 0; at < 16; at++) {
        ticks += cache[at] >= 32768 ? 2 : 0;
    }
    for (size_t at = 256; at < PIRKVEZO_CACHE; at++) {
        ticks += cache[at] != 0 ? 1 : 0;
    }
    return ticks;
}

/* The script runs in its domain's first window, which has this index and ends then, up to its switch.
 * Other domains have no ops. */
static void late_run(uint32_t domain, uint64_t window, uint64_t end)
{
    memset(scripts, 0, sizeof scripts);
    memcpy(scripts + PIRKVEZO_SCRIPT * domain, script, sizeof script);
    print_call("fresh_start, with this script", start());
    while (state[0] < window && step() == 0) {
    }
    for (size_t op = 0; op < PIRKVEZO_SCRIPT && script[op] != 0; op++) {
        step();
    }
    printf("clock %" PRIu64 " in window %" PRIu64 ", which finishes %" PRIu64 " ticks after its end\n",
           state[1], state[0], state[1] - end + switch_ticks());
    print_call("step, the switch", step());
    printf("clock %" PRIu64 " in window %" PRIu64 "\n", state[1], state[0]);
}

/* How late a domain can finish, and a script that does so. */
static void latest_finishes(void)
{
    print_call("read_plan, long windows", read_text(long_windows));
    refused_latest();
    plan[12] = 0;
    print_latest("latest, domain 0 without its right to send", latest_of(0));
    print_latest("latest, domain 1 without a box", latest_of(1));
    plan[12] = 2;
    plan[13] = 1;
    print_latest("latest, domain 1 with a right to send too", latest_of(1));
    plan[13] = 0;
    print_latest("latest, domain 0", latest_of(0));
    late_run(0, 0, 4000);
    print_latest("latest, domain 1", latest_of(1));
    late_run(1, 1, 24376);
}

/* A step on a fresh start but for what the host lends: the position in the script, line 0 dirty in L1,
 * and the lines 64, 128, 192 and one more number in set 0. Line 0 goes back to the front of its set
 * before the line that is read is sought there. */
static void lent_step(const char *call, uint64_t position, uint16_t last)
{
    print_call("fresh_start", start());
    state[2] = position;
    cache[0] = 32769;
    cache[16] = 65;
    cache[17] = 129;
    cache[18] = 193;
    cache[19] = last;
    print_call(call, step());
    printf("set 0: %u %u %u %u\n", cache[16], cache[17], cache[18], cache[19]);
    print_log(0);
}

static void lent_tables(void)
{
    print_call("read_plan, reads", read_text(reads));
    lent_step("step, the set full", 0, 257);
    lent_step("step, an empty way", 1, 0);
    lent_step("step, the line there already", 1, 1);
    lent_step("step, a line of another set", 0, 2);
}

static uint32_t keep(size_t kept_length, uint32_t domain, uint64_t part, uint64_t limit)
{
    return pirkvezo_run_kept(plan, PIRKVEZO_PLAN, scripts, PIRKVEZO_SCRIPTS, state, PIRKVEZO_STATE,
                             cache, PIRKVEZO_CACHE, boxes, PIRKVEZO_BOXES, kept, kept_length,
                             domain, part, limit, answer, PIRKVEZO_ANSWER);
}

/* A run of one step with a part that is right. */
static uint32_t keep_step(uint32_t domain)
{
    return keep(KEPT, domain, PART, 1);
}

/* Another length of the part first, whatever else is wrong, and an undeclared domain last. The bytes
 * of 2^61 records are 0 in 64 bits. */
static void refused_keeping(void)
{
    print_call("run_kept, one byte short", keep(KEPT - 1, 0, PART, 1));
    print_call("run_kept, one byte more", keep(KEPT + 1, 0, PART, 1));
    print_call("run_kept, no bytes for 2^61 records", keep(0, 0, UINT64_C(1) << 61, 1));
    print_call("run_kept, 32 bytes for 2^61 + 4 records", keep(KEPT, 0, (UINT64_C(1) << 61) + PART, 1));
    print_call("run_kept, the most records", keep(KEPT, 2, UINT64_MAX, 1));
    print_call("run_kept, scripts of 2,047 numbers",
               pirkvezo_run_kept(plan, PIRKVEZO_PLAN, scripts, PIRKVEZO_SCRIPTS - 1, state, PIRKVEZO_STATE,
                                 cache, PIRKVEZO_CACHE, boxes, PIRKVEZO_BOXES, kept, KEPT,
                                 0, PART, 1, answer, PIRKVEZO_ANSWER));
    memset(answer, 255, sizeof answer);
    print_call("run_kept, an answer of 3 numbers",
               pirkvezo_run_kept(plan, PIRKVEZO_PLAN, scripts, PIRKVEZO_SCRIPTS, state, PIRKVEZO_STATE,
                                 cache, PIRKVEZO_CACHE, boxes, PIRKVEZO_BOXES, kept, KEPT,
                                 0, PART, 1, answer, PIRKVEZO_ANSWER - 1));

    state[11] = PART + 1;
    boxes[0] = 5;
    plan[84] += 65536;
    print_call("run_kept, everything wrong", keep(KEPT - 1, 2, PART, 1));
    print_call("run_kept, all but the length", keep_step(2));
    plan[84] -= 65536;
    print_call("run_kept, all but length and plan", keep_step(2));
    boxes[0] = 0;
    print_call("run_kept, records over the part and no such domain", keep_step(2));
    print_call("run_kept, records over another domain's part", keep_step(0));
    state[11] = 0;
    print_call("run_kept, a domain that is not declared", keep_step(2));
    print_call("run_kept, the largest number of a domain", keep_step(UINT32_MAX));
}

/* Whether the part holds from here on what it was filled with, a byte that no record begins with. */
static int is_unwritten(size_t at)
{
    while (at < sizeof kept && kept[at] == '#') {
        at++;
    }
    return at == sizeof kept;
}

/* A fresh start, a kept run to the end, the kept domain's records and whether the rest is as it was. */
static void kept_run(const char *call, uint32_t domain, uint64_t part)
{
    size_t at = 0;
    memset(kept, '#', sizeof kept);
    start();
    print_call(call, keep(8 * part, domain, part, 1000));
    for (; at < 8 * state[10 + domain]; at += 8) {
        print_record(domain, kept + at);
    }
    printf("the other %zu bytes: %s\n", sizeof kept - at, is_unwritten(at) ? "untouched" : "changed");
    printf("records %" PRIu64 " and %" PRIu64 "; (end %" PRIu64 " %" PRIu64 ")\n", state[10], state[11],
           state[0], state[1]);
}

/* The same run with everyone's log, whose parts hold as many records. */
static void whole_run_beside(uint32_t domain)
{
    static struct tables one, all;
    copy_tables(&one);
    start();
    memset(log_bytes, '#', sizeof log_bytes);
    print_call("run with everyone's log",
               pirkvezo_run(plan, PIRKVEZO_PLAN, scripts, PIRKVEZO_SCRIPTS, state, PIRKVEZO_STATE,
                            cache, PIRKVEZO_CACHE, boxes, PIRKVEZO_BOXES, log_bytes, 2 * KEPT, 1000,
                            answer, PIRKVEZO_ANSWER));
    copy_tables(&all);
    memcpy(one.log, all.log, sizeof one.log);
    int same = memcmp(&one, &all, sizeof one) == 0 && memcmp(kept, log_bytes + KEPT * domain, KEPT) == 0;
    printf("state, tables and the domain's part: %s\n", same ? "the same" : "others");
}

static void kept_runs(void)
{
    static struct tables before, after;
    print_call("read_plan once more", read_text(settled));
    print_call("fresh_start", start());
    memset(kept, '#', sizeof kept);
    copy_tables(&before);
    refused_keeping();
    copy_tables(&after);
    int same = memcmp(&before, &after, sizeof before) == 0 && is_unwritten(0);
    printf("tables and part after the refused calls: %s\n", same ? "as before" : "changed");

    kept_run("run_kept, domain 0, parts of 4 records", 0, PART);
    whole_run_beside(0);
    kept_run("run_kept, domain 1, parts of 4 records", 1, PART);
    whole_run_beside(1);
    kept_run("run_kept, domain 1, parts of 2 records: domain 0 is idle before it sends", 1, 2);
    kept_run("run_kept, domain 1, parts without room", 1, 0);
    print_call("run_kept after the end", keep(0, 1, 0, 1));
}

/* What L1 and the kernel's sets hold: each number that is not 0, with its index. */
static void print_l1_and_kernel(void)
{
    size_t found = 0;
    printf("L1 and the kernel's sets:");
    for (size_t at = 0; at < PIRKVEZO_CACHE; at = at == 15 ? 256 : at + 1) {
        if (cache[at] != 0) {
            printf("%s %u at index %zu", found == 0 ? "" : ",", cache[at], at);
            found++;
        }
    }
    printf("%s\n", found == 0 ? " empty" : "");
}

/* A pad of 375 is too short, in a text and in a plan; 376 is taken. */
static void least_pad(void)
{
    static char short_pad[256];
    strcpy(short_pad, settled);
    memcpy(short_pad, "(pad 375)", 9);
    print_call("read_plan, a whole plan with pad 375", read_text(short_pad));
    print_call("read_plan, with pad 376", read_text(settled));
    plan[0] = 375;
    print_call("fresh_start, a plan with pad 375", start());
    print_call("run, the same", run(1));
    print_call("step_bound, the same", bound(PIRKVEZO_PLAN, PIRKVEZO_SCRIPTS));
    plan[0] = 376;
    print_call("fresh_start, with pad 376", start());
}

/* Line 60 is in both caches after the switch between the two windows, and in neither after the last.
 * The host may lend it wherever a line of the kernel's may be: not in L1 after the end. */
static void touched_tables(void)
{
    print_l1_and_kernel();
    print_call("run, the first window and its switch", run(4));
    print_l1_and_kernel();
    print_call("run, to the end", run(1000));
    print_l1_and_kernel();

    cache[12] = 61;
    print_call("run, line 60 in L1 after the end", run(1));
    cache[12] = 0;
    cache[256] = 61;
    print_call("run, line 60 in set 60 after the end", run(1));

    print_call("fresh_start", start());
    cache[256] = 61;
    cache[12] = 61;
    print_call("step, line 60 in both caches in the first window", step());
    cache[12] = 32829;
    print_call("step, the same and dirty", step());
    cache[13] = 61;
    print_call("step, line 60 at another index", step());
}

/* A state and a table that no run leaves: the clock 212 ticks past the first window's end, a dirty line at
 * each index of L1, and the kernel's sets full. No switch takes more, and its touch is done in the tick in
 * which the next window starts. */
static void longest_switch(void)
{
    print_call("fresh_start", start());
    for (uint16_t line = 0; line < 16; line++) {
        cache[line] = (uint16_t)(32769 + line);
    }
    for (uint16_t at = 0; at < 16; at++) {
        cache[256 + at] = (uint16_t)(61 + at / 4 + 64 * (at % 4));
    }
    state[1] = 613;
    print_call("step, the clock 213 past the end", step());
    state[1] = 612;
    printf("clock %" PRIu64 ", and the switch takes %" PRIu64 " ticks\n", state[1], switch_ticks());
    print_call("step, the clock 212 past the end", step());
    printf("clock %" PRIu64 " in window %" PRIu64 "\n", state[1], state[0]);
    print_l1_and_kernel();
}

int main(void)
{
    static struct tables before, after;
    accepted_calls();
    bounded_run();
    copy_tables(&before);
    refused_calls();
    refused_readings();
    copy_tables(&after);
    printf("tables after the refused calls: %s\n", memcmp(&before, &after, sizeof before) == 0 ? "as before" : "changed");
    frames();
    writings();
    latest_finishes();
    lent_tables();
    kept_runs();
    least_pad();
    touched_tables();
    longest_switch();
    return 0;
}
