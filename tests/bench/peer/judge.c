/* Judges what is lent: whether a text gives this plan, whether the cache table and the boxes are
 * whole, and whether a run of the plan can be in this state.
 *
 * Where rows are short the loops go to their end and gather what is wrong, which costs less than
 * leaving them early; nearly everything that is lent is good. */
#include <string.h>

#include "parts.h"

/* Shares, recipients and colours. */
static bool domains_are_possible(const struct plan *plan)
{
    uint32_t all = (UINT32_C(1) << plan->domains) - 1;
    uint32_t sum = 0, next = 0;
    for (uint32_t domain = 0; domain < plan->domains; domain++) {
        uint32_t share = plan->share[domain];
        /* with the sum in its bounds no colour is shifted out below */
        if (share == 0 || share > ALL_SHARES - sum) {
            return false;
        }
        uint32_t count = colours_of_share(share);
        uint32_t others = all & ~(UINT32_C(1) << domain);
        if (count == 0 || (plan->may[domain] & ~others) != 0
            || plan->colours[domain] != ((UINT32_C(1) << count) - 1) << next) {
            return false;
        }
        sum += share;
        next += count;
    }
    uint32_t unused = 0;
    for (uint32_t domain = plan->domains; domain < DOMAINS; domain++) {
        unused |= plan->share[domain] | plan->may[domain] | plan->colours[domain];
    }
    return next <= DOMAIN_COLOURS && unused == 0;
}

/* The windows, and the ticks that all their repeats take. */
static bool windows_are_possible(const struct plan *plan)
{
    uint32_t wrong = 0, lengths = 0;
    for (uint32_t window = 0; window < plan->windows; window++) {
        uint32_t length = plan->window_length[window];
        wrong |= plan->window_domain[window] >= plan->domains;
        wrong |= length - 1 >= MOST_LENGTH;
        lengths += length;
    }
    for (uint32_t window = plan->windows; window < WINDOWS; window++) {
        wrong |= plan->window_domain[window] | plan->window_length[window];
    }
    uint64_t pass = lengths + (uint64_t)plan->windows * plan->pad;
    return wrong == 0 && plan->run * pass <= MOST_TICKS;
}

bool plan_is_possible(const struct plan *plan)
{
    return plan->pad >= LEAST_PAD && plan->pad <= MOST_PAD
        && plan->run >= 1 && plan->run <= MOST_RUN
        && plan->domains >= 1 && plan->domains <= DOMAINS
        && plan->windows >= 1 && plan->windows <= WINDOWS
        && domains_are_possible(plan) && windows_are_possible(plan);
}

/* L1: each line at its own index, and of one of these colours. */
static bool l1_is_whole(const uint16_t *cache, uint32_t colours)
{
    for (uint32_t index = 0; index < L1; index++) {
        uint32_t entry = cache[index];
        if (entry == 0) {
            continue;
        }
        uint32_t line = (entry & ~(uint32_t)DIRTY) - 1;
        if (line >= LINES || line % L1 != index || !(colours >> colour_of_line(line) & 1)) {
            return false;
        }
    }
    return true;
}

/* A set that is not empty: lines of this set, no two the same, and empties behind them. */
static bool set_is_whole(const uint16_t *set, uint32_t number)
{
    for (uint32_t way = 0; way < WAYS; way++) {
        uint32_t entry = set[way];
        if (entry == 0) {
            continue;
        }
        if (entry > LINES || (entry - 1) % SETS != number || (way > 0 && set[way - 1] == 0)) {
            return false;
        }
        for (uint32_t before = 0; before < way; before++) {
            if (set[before] == entry) {
                return false;
            }
        }
    }
    return true;
}

static bool l2_is_whole(const uint16_t *sets)
{
    for (uint32_t number = 0; number < SETS; number++) {
        const uint16_t *set = sets + WAYS * number;
        uint64_t whole;
        memcpy(&whole, set, sizeof whole);
        if (whole != 0 && !set_is_whole(set, number)) {
            return false;
        }
    }
    return true;
}

/* The eight boxes of one sender: words, and none for whom it may not send to. */
static bool row_is_whole(const uint32_t *row, uint32_t may)
{
    for (uint32_t recipient = 0; recipient < DOMAINS; recipient++) {
        uint32_t most = may >> recipient & 1 ? MOST_VALUE + 1 : 0;
        if (row[recipient] > most) {
            return false;
        }
    }
    return true;
}

static bool boxes_are_whole(const struct plan *plan, const uint32_t *boxes)
{
    for (uint32_t sender = 0; sender < DOMAINS; sender++) {
        const uint32_t *row = boxes + DOMAINS * sender;
        uint32_t any = 0;
        for (uint32_t recipient = 0; recipient < DOMAINS; recipient++) {
            any |= row[recipient];
        }
        if (any != 0 && !row_is_whole(row, plan->may[sender])) {
            return false;
        }
    }
    return true;
}

bool tables_are_whole(const struct plan *plan, const struct state *state, const uint16_t *cache,
                      const uint32_t *boxes)
{
    uint32_t colours = 0;
    if (state->windows < all_windows(plan)) {
        uint32_t domain = plan->window_domain[(uint32_t)state->windows % plan->windows];
        colours = plan->colours[domain] | UINT32_C(1) << KERNEL_COLOUR;
    }
    return l1_is_whole(cache, colours) && l2_is_whole(cache + L1) && boxes_are_whole(plan, boxes);
}

struct place place_of(const struct plan *plan, const struct state *state)
{
    struct place place;
    uint32_t windows = (uint32_t)state->windows;
    uint32_t passes = windows / plan->windows;
    uint64_t before = 0, pass = 0;
    place.window = windows % plan->windows;
    place.ended = windows == all_windows(plan);
    for (uint32_t window = 0; window < plan->windows; window++) {
        before = window == place.window ? pass : before;
        pass += plan->window_length[window] + plan->pad;
    }
    place.start = passes * pass + before;
    return place;
}

static bool clock_is_possible(const struct plan *plan, const struct state *state)
{
    struct place place = place_of(plan, state);
    uint64_t spare = place.ended ? 0 : plan->window_length[place.window] + MOST_PAST_END;
    return state->clock >= place.start && state->clock - place.start <= spare;
}

bool state_is_possible(const struct plan *plan, const struct state *state, uint64_t room)
{
    if (state->windows > all_windows(plan) || !clock_is_possible(plan, state)) {
        return false;
    }
    uint64_t wrong = 0;
    for (uint32_t domain = 0; domain < plan->domains; domain++) {
        wrong |= state->position[domain] > SCRIPT;
        wrong |= state->records[domain] > room;
    }
    for (uint32_t domain = plan->domains; domain < DOMAINS; domain++) {
        wrong |= state->position[domain] | state->records[domain];
    }
    return wrong == 0;
}
