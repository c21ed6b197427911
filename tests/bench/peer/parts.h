/* What the peer's files share: sizes, limits, the layout of a plan and of a state, refusals. */
#ifndef PEER_PARTS_H
#define PEER_PARTS_H

#include <stdbool.h>
#include <stddef.h>
#include <stdint.h>

/* How many elements the lent arrays have. */
enum {
    PLAN = 92,
    STATE = 18,
    ANSWER = 4,
    SCRIPTS = 2048,
    CACHE = 272,
    BOXES = 64
};

/* How many there may be of each. */
enum {
    DOMAINS = 8,
    WINDOWS = 32,
    SCRIPT = 256 /* ops in the script of one domain */
};

/* Smallest and largest numbers of a plan, where they are not 0 or 1. */
enum {
    LEAST_PAD = 376,
    MOST_PAD = 1000000,
    MOST_RUN = 1000,
    MOST_LENGTH = 1000000,
    ALL_SHARES = 1000, /* shares are in thousandths */
    MOST_TEXT = 32768,
    MOST_VALUE = 65535,
    MOST_COMPUTE = 200
};
#define MOST_TICKS UINT64_C(4294967295)

/* The cache table: L1, then L2 in sets. */
enum {
    LINES = 4096,
    L1 = 16,
    SETS = 64,
    WAYS = 4,
    SETS_OF_A_COLOUR = 4,
    DOMAIN_COLOURS = 15,
    KERNEL_COLOUR = 15,
    DIRTY = 32768
};

/* An op begins before its window's end, and the dearest takes one tick more than this. */
enum { MOST_PAST_END = 212 };

/* Bytes of a record. */
enum { RECORD = 8 };

/* Why a call is refused: the numbers that docs/HOST.md lists. */
enum refusal {
    ACCEPTED = 0,
    TEXT_TOO_LONG = 1,
    SHAPE_BROKEN = 2,
    NUMBER_OUTSIDE = 3,
    DOMAIN_UNDECLARED = 4,
    LINE_MISSING_OR_SECOND = 5,
    SHARE_WITHOUT_COLOUR = 6,
    SHARES_TOO_MANY = 7,
    RECIPIENT_OWN_OR_REPEATED = 8,
    TICKS_TOO_MANY = 9,
    ONE_TOO_MANY = 10,
    LENGTH_WRONG = 11,
    PLAN_IMPOSSIBLE = 12,
    TABLE_DAMAGED = 13,
    STATE_IMPOSSIBLE = 14,
    COLOURS_TOO_MANY = 16 /* 15 is for frames, which the peer does not make */
};

/* The kinds of a stored op. */
enum op_kind { OP_READ = 1, OP_WRITE, OP_SEND, OP_RECEIVE, OP_COMPUTE };

/* A stored op: its kind, the other domain, and a value, which is MOST_VALUE at most. */
enum {
    OP_KIND_SHIFT = 20,
    OP_OTHER_SHIFT = 16,
    OP_OTHER_MASK = 15
};

/* The 92 numbers of a plan, in their order. */
struct plan {
    uint32_t pad;
    uint32_t run;
    uint32_t domains;
    uint32_t windows;
    uint32_t share[DOMAINS];
    uint32_t may[DOMAINS];
    uint32_t window_domain[WINDOWS];
    uint32_t window_length[WINDOWS];
    uint32_t colours[DOMAINS];
};

/* The 18 numbers of a state, in their order. */
struct state {
    uint64_t windows;
    uint64_t clock;
    uint64_t position[DOMAINS];
    uint64_t records[DOMAINS];
};

/* Both are laid over lent arrays, so neither may have a gap. */
typedef char plan_has_no_gap[sizeof(struct plan) == PLAN * sizeof(uint32_t) ? 1 : -1];
typedef char state_has_no_gap[sizeof(struct state) == STATE * sizeof(uint64_t) ? 1 : -1];

/* What a step works on, all of it judged before. */
struct machine {
    const struct plan *plan;
    const uint32_t *scripts;
    struct state *state;
    uint16_t *cache;
    uint32_t *boxes;
    uint8_t *log;
    uint64_t room; /* records in one domain's part of the log */
    uint32_t kept; /* the domain whose part is all of the log; EVERYONE where each has one */
};
enum { EVERYONE = DOMAINS };

/* Where a run stands: the window that is running or, after the end, none. */
struct place {
    bool ended;
    uint32_t window; /* its number among the plan's windows */
    uint64_t start;
};

/* The nearest number of colours: half of one is added, so that an exact half goes up. */
static inline uint32_t colours_of_share(uint32_t share)
{
    return (share * DOMAIN_COLOURS + ALL_SHARES / 2) / ALL_SHARES;
}

static inline uint32_t colour_of_line(uint32_t line)
{
    return line % SETS / SETS_OF_A_COLOUR;
}

static inline bool may_send(const struct plan *plan, uint32_t sender, uint32_t recipient)
{
    return plan->may[sender] >> recipient & 1;
}

static inline uint32_t box_of(uint32_t sender, uint32_t recipient)
{
    return DOMAINS * sender + recipient;
}

static inline uint64_t room_of(const struct plan *plan, size_t log_length)
{
    return log_length / (RECORD * (size_t)plan->domains);
}

static inline uint64_t all_windows(const struct plan *plan)
{
    return (uint64_t)plan->run * plan->windows;
}

/* Reader: on acceptance both are written; on refusal the scripts stay, and the plan is of no
 * use. */
enum refusal read_text(const uint8_t *text, size_t length, uint32_t *scripts, struct plan *plan,
                       uint64_t *companion);

/* Judges. The tables are judged with the state's count of windows, before the state itself is. */
bool plan_is_possible(const struct plan *plan);
bool tables_are_whole(const struct plan *plan, const struct state *state, const uint16_t *cache,
                      const uint32_t *boxes);
bool state_is_possible(const struct plan *plan, const struct state *state, uint64_t room);

/* Where a state stands in the run of its plan. */
struct place place_of(const struct plan *plan, const struct state *state);

/* Does at most so many steps from there on; gives how many it did. */
uint64_t run_steps(const struct machine *machine, uint64_t limit);

#endif
