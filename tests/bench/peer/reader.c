/* Reads a plan text in one pass.
 *
 * A taker gets the place that the reading has reached, skips spaces, takes one token and gives the
 * place behind it, or NULL where the text is refused. The plan is filled as the lines come; ops
 * wait in a draft, since the lent scripts must stay as they are until the whole text is good. */
#include <string.h>

#include "parts.h"

enum { MOST_DIGITS = 10 };

struct reader {
    const uint8_t *text;
    const uint8_t *end;
    struct plan *plan;
    enum refusal refusal;
    uint64_t companion;
    uint32_t ops[DOMAINS];
    /* where each domain is first named as a recipient, or NULL */
    const uint8_t *named[DOMAINS];
    uint32_t draft[DOMAINS][SCRIPT];
};

static const uint8_t *refuse(struct reader *reader, enum refusal refusal, uint64_t companion)
{
    reader->refusal = refusal;
    reader->companion = companion;
    return NULL;
}

static const uint8_t *refuse_at(struct reader *reader, enum refusal refusal, const uint8_t *at)
{
    return refuse(reader, refusal, (uint64_t)(at - reader->text));
}

/* Whether a run of other bytes ends before this place. */
static inline bool run_ends(const struct reader *reader, const uint8_t *at)
{
    if (at == reader->end) {
        return true;
    }
    switch (*at) {
    case '(':
    case ')':
    case ' ':
    case '\n':
        return true;
    default:
        return false;
    }
}

static inline const uint8_t *skip_spaces(const struct reader *reader, const uint8_t *at)
{
    while (at != reader->end && *at == ' ') {
        at++;
    }
    return at;
}

static inline bool line_ends(const struct reader *reader, const uint8_t *at)
{
    return at == reader->end || *at == '\n';
}

/* How long a word is that the source spells out. */
#define LENGTH(word) (sizeof(word) - 1)

/* Whether the token here is this word. */
static inline bool is_word(const struct reader *reader, const uint8_t *at, const char *word,
                           size_t length)
{
    return (size_t)(reader->end - at) >= length && memcmp(at, word, length) == 0
        && run_ends(reader, at + length);
}

#define IS_WORD(reader, at, word) is_word(reader, at, word, LENGTH(word))

static inline const uint8_t *take_bracket(struct reader *reader, const uint8_t *at, uint8_t bracket)
{
    at = skip_spaces(reader, at);
    if (at == reader->end || *at != bracket) {
        return refuse_at(reader, SHAPE_BROKEN, at);
    }
    return at + 1;
}

/* An opening bracket and this word behind it. */
static inline const uint8_t *take_opened(struct reader *reader, const uint8_t *at,
                                         const char *word, size_t length)
{
    at = take_bracket(reader, at, '(');
    if (at == NULL) {
        return NULL;
    }
    at = skip_spaces(reader, at);
    if (!is_word(reader, at, word, length)) {
        return refuse_at(reader, SHAPE_BROKEN, at);
    }
    return at + length;
}

#define TAKE_OPENED(reader, at, word) take_opened(reader, at, word, LENGTH(word))

/* A number between two limits. A longer run of digits wraps, and is refused for its length. */
static inline const uint8_t *take_number(struct reader *reader, const uint8_t *at, uint32_t least,
                                         uint32_t most, uint32_t *number)
{
    const uint8_t *first = skip_spaces(reader, at);
    uint64_t value = 0;
    at = first;
    while (at != reader->end && *at >= '0' && *at <= '9') {
        value = value * 10 + (*at - '0');
        at++;
    }
    if (at == first || !run_ends(reader, at)) {
        return refuse_at(reader, SHAPE_BROKEN, first);
    }
    if (at - first > MOST_DIGITS || value < least || value > most) {
        return refuse_at(reader, NUMBER_OUTSIDE, first);
    }
    *number = (uint32_t)value;
    return at;
}

/* So many closing brackets, then the line's end. */
static inline const uint8_t *take_close(struct reader *reader, const uint8_t *at, int brackets)
{
    for (; brackets > 0; brackets--) {
        at = take_bracket(reader, at, ')');
        if (at == NULL) {
            return NULL;
        }
    }
    at = skip_spaces(reader, at);
    return line_ends(reader, at) ? at : refuse_at(reader, SHAPE_BROKEN, at);
}

/* The number of a domain that a line above declares. */
static inline const uint8_t *take_declared(struct reader *reader, const uint8_t *at,
                                           uint32_t *domain)
{
    const uint8_t *first = skip_spaces(reader, at);
    at = take_number(reader, first, 0, DOMAINS - 1, domain);
    if (at != NULL && *domain >= reader->plan->domains) {
        return refuse_at(reader, DOMAIN_UNDECLARED, first);
    }
    return at;
}

/* A line of one number that may come once: 0 stands for not yet. */
static const uint8_t *take_single(struct reader *reader, const uint8_t *at, const uint8_t *bracket,
                                  uint32_t least, uint32_t most, uint32_t *place)
{
    uint32_t number;
    at = take_number(reader, at, least, most, &number);
    if (at == NULL) {
        return NULL;
    }
    at = take_close(reader, at, 1);
    if (at == NULL) {
        return NULL;
    }
    if (*place != 0) {
        return refuse_at(reader, LINE_MISSING_OR_SECOND, bracket);
    }
    *place = number;
    return at;
}

/* The recipients up to their closing bracket, which stays. */
static const uint8_t *take_recipients(struct reader *reader, const uint8_t *at, uint32_t own,
                                      uint32_t *mask)
{
    *mask = 0;
    for (;;) {
        at = skip_spaces(reader, at);
        if (at != reader->end && *at == ')') {
            return at;
        }
        const uint8_t *first = at;
        uint32_t recipient;
        at = take_number(reader, at, 0, DOMAINS - 1, &recipient);
        if (at == NULL) {
            return NULL;
        }
        if (recipient == own || (*mask >> recipient & 1)) {
            return refuse_at(reader, RECIPIENT_OWN_OR_REPEATED, first);
        }
        *mask |= UINT32_C(1) << recipient;
        if (reader->named[recipient] == NULL) {
            reader->named[recipient] = first;
        }
    }
}

static const uint8_t *take_domain(struct reader *reader, const uint8_t *at)
{
    struct plan *plan = reader->plan;
    const uint8_t *first = skip_spaces(reader, at);
    uint32_t domain, share, mask;
    at = take_number(reader, first, 0, DOMAINS - 1, &domain);
    if (at == NULL) {
        return NULL;
    }
    if (domain != plan->domains) {
        return refuse_at(reader, DOMAIN_UNDECLARED, first);
    }
    if ((at = TAKE_OPENED(reader, at, "share")) == NULL
        || (at = take_number(reader, at, 1, ALL_SHARES, &share)) == NULL
        || (at = take_bracket(reader, at, ')')) == NULL
        || (at = TAKE_OPENED(reader, at, "may")) == NULL
        || (at = take_recipients(reader, at, domain, &mask)) == NULL
        || (at = take_close(reader, at, 2)) == NULL) {
        return NULL;
    }
    plan->share[domain] = share;
    plan->may[domain] = mask;
    plan->domains++;
    return at;
}

static const uint8_t *take_window(struct reader *reader, const uint8_t *at, const uint8_t *bracket)
{
    struct plan *plan = reader->plan;
    uint32_t domain, length;
    if ((at = take_declared(reader, at, &domain)) == NULL
        || (at = TAKE_OPENED(reader, at, "length")) == NULL
        || (at = take_number(reader, at, 1, MOST_LENGTH, &length)) == NULL
        || (at = take_close(reader, at, 2)) == NULL) {
        return NULL;
    }
    if (plan->windows == WINDOWS) {
        return refuse_at(reader, ONE_TOO_MANY, bracket);
    }
    plan->window_domain[plan->windows] = domain;
    plan->window_length[plan->windows] = length;
    plan->windows++;
    return at;
}

/* An op's word and its numbers, up to its closing bracket. */
static inline const uint8_t *take_act(struct reader *reader, const uint8_t *at, uint32_t *act)
{
    enum op_kind kind;
    uint32_t other = 0, value = 0;
    at = skip_spaces(reader, at);
    if (IS_WORD(reader, at, "read")) {
        kind = OP_READ;
        at = take_number(reader, at + LENGTH("read"), 0, MOST_VALUE, &value);
    } else if (IS_WORD(reader, at, "write")) {
        kind = OP_WRITE;
        at = take_number(reader, at + LENGTH("write"), 0, MOST_VALUE, &value);
    } else if (IS_WORD(reader, at, "send")) {
        kind = OP_SEND;
        at = take_number(reader, at + LENGTH("send"), 0, DOMAINS - 1, &other);
        at = at == NULL ? NULL : take_number(reader, at, 0, MOST_VALUE, &value);
    } else if (IS_WORD(reader, at, "receive")) {
        kind = OP_RECEIVE;
        at = take_number(reader, at + LENGTH("receive"), 0, DOMAINS - 1, &other);
    } else if (IS_WORD(reader, at, "compute")) {
        kind = OP_COMPUTE;
        at = take_number(reader, at + LENGTH("compute"), 1, MOST_COMPUTE, &value);
    } else {
        return refuse_at(reader, SHAPE_BROKEN, at);
    }
    *act = (uint32_t)kind << OP_KIND_SHIFT | other << OP_OTHER_SHIFT | value;
    return at;
}

static const uint8_t *take_op(struct reader *reader, const uint8_t *at, const uint8_t *bracket)
{
    uint32_t domain, act;
    if ((at = take_declared(reader, at, &domain)) == NULL
        || (at = take_bracket(reader, at, '(')) == NULL
        || (at = take_act(reader, at, &act)) == NULL
        || (at = take_close(reader, at, 2)) == NULL) {
        return NULL;
    }
    if (reader->ops[domain] == SCRIPT) {
        return refuse_at(reader, ONE_TOO_MANY, bracket);
    }
    reader->draft[domain][reader->ops[domain]++] = act;
    return at;
}

/* A whole line from its first bracket on; gives the line's end. */
static const uint8_t *take_line(struct reader *reader, const uint8_t *bracket)
{
    struct plan *plan = reader->plan;
    const uint8_t *at = take_bracket(reader, bracket, '(');
    if (at == NULL) {
        return NULL;
    }
    at = skip_spaces(reader, at);
    if (IS_WORD(reader, at, "op")) {
        return take_op(reader, at + LENGTH("op"), bracket);
    }
    if (IS_WORD(reader, at, "window")) {
        return take_window(reader, at + LENGTH("window"), bracket);
    }
    if (IS_WORD(reader, at, "domain")) {
        return take_domain(reader, at + LENGTH("domain"));
    }
    if (IS_WORD(reader, at, "pad")) {
        return take_single(reader, at + LENGTH("pad"), bracket, LEAST_PAD, MOST_PAD, &plan->pad);
    }
    if (IS_WORD(reader, at, "run")) {
        return take_single(reader, at + LENGTH("run"), bracket, 1, MOST_RUN, &plan->run);
    }
    return refuse_at(reader, SHAPE_BROKEN, at);
}

static bool take_lines(struct reader *reader)
{
    const uint8_t *at = reader->text;
    for (;;) {
        at = skip_spaces(reader, at);
        if (!line_ends(reader, at)) {
            at = take_line(reader, at);
            if (at == NULL) {
                return false;
            }
        }
        if (at == reader->end) {
            return true;
        }
        at++;
    }
}

/* The first place in the text that names a recipient which no line declares, or NULL. */
static const uint8_t *first_undeclared(const struct reader *reader)
{
    const uint8_t *first = NULL;
    for (uint32_t domain = reader->plan->domains; domain < DOMAINS; domain++) {
        const uint8_t *named = reader->named[domain];
        if (named != NULL && (first == NULL || named < first)) {
            first = named;
        }
    }
    return first;
}

/* Hands out the colours upwards, each domain's behind those of the one before. Shares that are
 * rounded one by one can give more than there are, so that is looked at before any is handed
 * out. */
static bool share_out(struct reader *reader)
{
    struct plan *plan = reader->plan;
    uint32_t sum = 0, total = 0, next = 0;
    for (uint32_t domain = 0; domain < plan->domains; domain++) {
        sum += plan->share[domain];
        total += colours_of_share(plan->share[domain]);
    }
    if (sum > ALL_SHARES) {
        refuse(reader, SHARES_TOO_MANY, sum);
        return false;
    }
    if (total > DOMAIN_COLOURS) {
        refuse(reader, COLOURS_TOO_MANY, total);
        return false;
    }
    for (uint32_t domain = 0; domain < plan->domains; domain++) {
        uint32_t count = colours_of_share(plan->share[domain]);
        if (count == 0) {
            refuse(reader, SHARE_WITHOUT_COLOUR, domain);
            return false;
        }
        plan->colours[domain] = ((UINT32_C(1) << count) - 1) << next;
        next += count;
    }
    return true;
}

/* What only the whole text tells. */
static bool close_plan(struct reader *reader)
{
    const struct plan *plan = reader->plan;
    if (plan->pad == 0 || plan->domains == 0 || plan->windows == 0 || plan->run == 0) {
        refuse_at(reader, LINE_MISSING_OR_SECOND, reader->end);
        return false;
    }
    const uint8_t *undeclared = first_undeclared(reader);
    if (undeclared != NULL) {
        refuse_at(reader, DOMAIN_UNDECLARED, undeclared);
        return false;
    }
    if (!share_out(reader)) {
        return false;
    }
    uint64_t pass = 0;
    for (uint32_t window = 0; window < plan->windows; window++) {
        pass += plan->window_length[window] + plan->pad;
    }
    if (plan->run * pass > MOST_TICKS) {
        refuse(reader, TICKS_TOO_MANY, 0);
        return false;
    }
    return true;
}

enum refusal read_text(const uint8_t *text, size_t length, uint32_t *scripts, struct plan *plan,
                       uint64_t *companion)
{
    struct reader reader;
    *companion = 0;
    if (length > MOST_TEXT) {
        return TEXT_TOO_LONG;
    }
    reader.text = text;
    reader.end = text + length;
    reader.plan = plan;
    memset(plan, 0, sizeof *plan);
    memset(reader.ops, 0, sizeof reader.ops);
    for (uint32_t domain = 0; domain < DOMAINS; domain++) {
        reader.named[domain] = NULL;
    }
    if (!take_lines(&reader) || !close_plan(&reader)) {
        *companion = reader.companion;
        return reader.refusal;
    }
    for (uint32_t domain = 0; domain < DOMAINS; domain++) {
        uint32_t *script = scripts + SCRIPT * domain;
        uint32_t ops = reader.ops[domain];
        memcpy(script, reader.draft[domain], ops * sizeof *script);
        memset(script + ops, 0, (SCRIPT - ops) * sizeof *script);
    }
    return ACCEPTED;
}
