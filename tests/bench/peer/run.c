/* Ops, switches, and runs of both. */
#include <string.h>

#include "parts.h"

/* What a record says of an op. */
enum seen {
    SEEN_HIT1 = 1,
    SEEN_HIT2,
    SEEN_MISS,
    SEEN_SENT,
    SEEN_GOT,
    SEEN_EMPTY,
    SEEN_DENIED,
    SEEN_RAN,
    SEEN_BARRED
};

/* The kernel's lines that a message touches: its own, which a switch touches too, and one for each
 * box. */
enum { MESSAGE_LINE = 60, FIRST_BOX_LINE = 61 };

enum {
    HIT1_TICKS = 1,
    HIT2_TICKS = 10,
    MISS_TICKS = 100,
    WRITE_BACK_TICKS = 4,
    BARRED_TICKS = 5,
    MESSAGE_TICKS = 5,
    FLUSH_TICKS = 8,
    FLUSH_DIRTY_TICKS = 2
};

struct outcome {
    uint32_t ticks;
    enum seen seen;
    uint32_t value;
};

/* Puts an entry first in its set. Each before it moves one way back, up to where it stood or to
 * the first empty; of a full set without it the last drops out. Gives whether it was there. */
static inline bool put_first(uint16_t *set, uint16_t entry)
{
    uint16_t moved = entry;
    for (int way = 0; way < WAYS; way++) {
        uint16_t held = set[way];
        set[way] = moved;
        if (held == entry) {
            return true;
        }
        if (held == 0) {
            return false;
        }
        moved = held;
    }
    return false;
}

static inline uint16_t *set_of(uint16_t *cache, uint32_t line)
{
    return cache + L1 + WAYS * (line % SETS);
}

/* One access; dirty is DIRTY for a write and 0 for a read. Adds its ticks. A dirty line that it
 * replaces goes back to its set before the line is looked for, which it may push out of L2. */
static inline enum seen access_line(uint16_t *cache, uint32_t line, uint32_t dirty,
                                    uint32_t *ticks)
{
    uint16_t *slot = &cache[line % L1];
    uint16_t entry = (uint16_t)(line + 1);
    uint16_t held = *slot;
    if ((held & ~DIRTY) == entry) {
        *slot = (uint16_t)(held | dirty);
        *ticks += HIT1_TICKS;
        return SEEN_HIT1;
    }
    *slot = (uint16_t)(entry | dirty);
    if (held & DIRTY) {
        uint16_t written = (uint16_t)(held & ~DIRTY);
        put_first(set_of(cache, written - 1u), written);
        *ticks += WRITE_BACK_TICKS;
    }
    if (put_first(set_of(cache, line), entry)) {
        *ticks += HIT2_TICKS;
        return SEEN_HIT2;
    }
    *ticks += MISS_TICKS;
    return SEEN_MISS;
}

static inline void touch(const struct machine *machine, uint32_t domain, uint32_t line,
                         uint32_t dirty, struct outcome *outcome)
{
    outcome->value = line;
    if (line >= LINES || !(machine->plan->colours[domain] >> colour_of_line(line) & 1)) {
        outcome->ticks = BARRED_TICKS;
        outcome->seen = SEEN_BARRED;
        return;
    }
    outcome->ticks = 0;
    outcome->seen = access_line(machine->cache, line, dirty, &outcome->ticks);
}

/* The part of a message that sender and recipient share; false where it is denied. */
static inline bool open_box(const struct machine *machine, uint32_t sender, uint32_t recipient,
                            struct outcome *outcome)
{
    outcome->ticks = MESSAGE_TICKS;
    access_line(machine->cache, MESSAGE_LINE, 0, &outcome->ticks);
    if (!may_send(machine->plan, sender, recipient)) {
        outcome->seen = SEEN_DENIED;
        return false;
    }
    uint32_t line = FIRST_BOX_LINE + SETS * box_of(sender, recipient);
    access_line(machine->cache, line, DIRTY, &outcome->ticks);
    return true;
}

static inline void send_word(const struct machine *machine, uint32_t domain, uint32_t recipient,
                             uint32_t word, struct outcome *outcome)
{
    outcome->value = recipient;
    if (open_box(machine, domain, recipient, outcome)) {
        machine->boxes[box_of(domain, recipient)] = word + 1;
        outcome->seen = SEEN_SENT;
    }
}

static inline void receive_word(const struct machine *machine, uint32_t domain, uint32_t sender,
                                struct outcome *outcome)
{
    outcome->value = sender;
    if (!open_box(machine, sender, domain, outcome)) {
        return;
    }
    uint32_t *box = &machine->boxes[box_of(sender, domain)];
    if (*box == 0) {
        outcome->seen = SEEN_EMPTY;
        return;
    }
    outcome->seen = SEEN_GOT;
    outcome->value = *box - 1;
    *box = 0;
}

/* Does the op that a number stands for; false where it stands for none, which ends the script. */
static inline bool do_op(const struct machine *machine, uint32_t domain, uint32_t number,
                         struct outcome *outcome)
{
    uint32_t other = number >> OP_OTHER_SHIFT & OP_OTHER_MASK;
    uint32_t value = number & MOST_VALUE;
    switch (number >> OP_KIND_SHIFT) {
    case OP_READ:
        if (other != 0) {
            return false;
        }
        touch(machine, domain, value, 0, outcome);
        return true;
    case OP_WRITE:
        if (other != 0) {
            return false;
        }
        touch(machine, domain, value, DIRTY, outcome);
        return true;
    case OP_SEND:
        if (other >= DOMAINS) {
            return false;
        }
        send_word(machine, domain, other, value, outcome);
        return true;
    case OP_RECEIVE:
        if (other >= DOMAINS || value != 0) {
            return false;
        }
        receive_word(machine, domain, other, outcome);
        return true;
    case OP_COMPUTE:
        if (other != 0 || value == 0 || value > MOST_COMPUTE) {
            return false;
        }
        outcome->ticks = value;
        outcome->seen = SEEN_RAN;
        outcome->value = value;
        return true;
    default:
        return false;
    }
}

/* Kind, 0, value and clock, low bytes first: the processor's own order, for the library beside
 * which this is timed is built for x86-64 alone. */
#if !defined(__BYTE_ORDER__) || __BYTE_ORDER__ != __ORDER_LITTLE_ENDIAN__
#error "a record would be stored with its high bytes first"
#endif
static inline void write_record(uint8_t *at, const struct outcome *outcome, uint64_t clock)
{
    uint64_t record = (uint64_t)outcome->seen | (uint64_t)outcome->value << 16 | clock << 32;
    memcpy(at, &record, sizeof record);
}

static inline uint64_t least_of(uint64_t first, uint64_t second)
{
    return first < second ? first : second;
}

/* Where a domain's records go; null where they are not kept. */
static inline uint8_t *part_of(const struct machine *machine, uint32_t domain)
{
    if (machine->kept == EVERYONE) {
        return machine->log + RECORD * machine->room * domain;
    }
    return machine->kept == domain ? machine->log : NULL;
}

/* Does ops of the running domain until its window is over or so many are done; gives how many.
 * What the loop needs is in variables of its own: a byte of the log could be a byte of anything
 * else for all that the compiler knows. */
static inline uint64_t run_ops_into(uint8_t *part, bool is_kept, const struct machine *lent,
                                    uint32_t domain, uint64_t end, uint64_t most)
{
    const struct machine machine = *lent;
    const uint32_t *script = machine.scripts + SCRIPT * domain;
    uint64_t position = machine.state->position[domain];
    uint64_t records = machine.state->records[domain];
    uint64_t clock = machine.state->clock;
    uint64_t done = 0;
    struct outcome outcome;
    /* each op moves both on by one, so the nearer end is known beforehand */
    most = least_of(most, least_of(SCRIPT - position, machine.room - records));
    while (done < most && clock < end
           && do_op(&machine, domain, script[position + done], &outcome)) {
        clock += outcome.ticks;
        if (is_kept) {
            write_record(part + RECORD * (records + done), &outcome, clock);
        }
        done++;
    }
    machine.state->position[domain] = position + done;
    machine.state->records[domain] = records + done;
    machine.state->clock = clock;
    return done;
}

/* The same loop twice, so that neither asks at each op whether its record is kept. */
static uint64_t run_ops(const struct machine *machine, uint32_t domain, uint64_t end, uint64_t most)
{
    uint8_t *part = part_of(machine, domain);
    return part == NULL ? run_ops_into(NULL, false, machine, domain, end, most)
                        : run_ops_into(part, true, machine, domain, end, most);
}

/* Counts, of sixteen entries, those that have the top bit once `more` is added to each. Four at a
 * time are added up in one word: none comes to 65,536, so none carries into the next. */
static inline uint32_t count_of_sixteen(const uint16_t *entries, uint64_t more)
{
    const uint64_t each = UINT64_C(0x0001000100010001);
    uint64_t sums = 0;
    for (int first = 0; first < 16; first += 4) {
        uint64_t four;
        memcpy(&four, entries + first, sizeof four);
        sums += (four + more * each) >> 15 & each;
    }
    return (uint32_t)(sums * each >> 48);
}

/* Empties the kernel's sets and then L1; gives the ticks that both take. */
static uint32_t flush(uint16_t *cache)
{
    uint16_t *kernel = cache + L1 + WAYS * SETS_OF_A_COLOUR * KERNEL_COLOUR;
    uint32_t valid = count_of_sixteen(kernel, DIRTY - 1);
    uint32_t dirty = count_of_sixteen(cache, 0);
    memset(kernel, 0, WAYS * SETS_OF_A_COLOUR * sizeof *kernel);
    memset(cache, 0, L1 * sizeof *cache);
    return FLUSH_TICKS + valid + FLUSH_TICKS + FLUSH_DIRTY_TICKS * dirty;
}

/* Takes the line that a switch has touched out of both caches, which hold no other line of its set
 * and of its index then. */
static void forget_touched(uint16_t *cache)
{
    cache[MESSAGE_LINE % L1] = 0;
    set_of(cache, MESSAGE_LINE)[0] = 0;
}

/* Ends a window. Flush and touch are counted as the machine has them, although it shows nowhere:
 * the least pad covers the longest overrun of an op, the dearest flush and the touch together. */
static void switch_window(const struct machine *machine, uint64_t end, uint64_t next)
{
    struct state *state = machine->state;
    uint64_t clock = state->clock < end ? end : state->clock;
    uint32_t ticks = flush(machine->cache);
    access_line(machine->cache, MESSAGE_LINE, 0, &ticks);
    clock += ticks;
    state->clock = clock < next ? next : clock;
    state->windows++;
}

uint64_t run_steps(const struct machine *machine, uint64_t limit)
{
    const struct plan *plan = machine->plan;
    struct place place = place_of(plan, machine->state);
    uint64_t left = limit;
    uint64_t windows = all_windows(plan);
    while (machine->state->windows < windows) {
        uint64_t end = place.start + plan->window_length[place.window];
        left -= run_ops(machine, plan->window_domain[place.window], end, left);
        if (left == 0) {
            break;
        }
        place.start = end + plan->pad;
        switch_window(machine, end, place.start);
        left--;
        place.window = place.window + 1 == plan->windows ? 0 : place.window + 1;
        if (machine->state->windows == windows) {
            forget_touched(machine->cache);
        }
    }
    return limit - left;
}
