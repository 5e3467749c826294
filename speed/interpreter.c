/* The interpreter: expressions by recursion over their records, values of 256 bits in four limbs, delayed
 * stores in a second store under a mask. A stop met in an expression leaves by longjmp.
 */
#include "interpreter.h"

#include <setjmp.h>
#include <stdlib.h>
#include <string.h>

enum { LIMBS = 4, RETURNS = 16, DIGIT = 48, RECORD = 80 };
enum { FACILITY = 13, OPERATION = 5, EXPRESSION = 8, ACTION = 7, STATE = 7 };
enum { SEQUENCING = 1, PLAIN = 3, INPUT = 4, COMPUTED = 5 };

/* The numbers of the operators' words (docs/IMAGE.md). */
enum {
    UNEQUAL = 3, AND = 7, OR = 8, COMPLEMENT = 10, LESS = 15, GREATER = 17, XOR = 21, SUM = 22, DIFFERENCE = 23,
    EQUAL = 24, AT_LEAST = 25, AT_MOST = 26, JOIN = 38, EXTEND = 40, HEAD = 41, TAIL = 42
};

struct value {
    uint64_t limb[LIMBS]; /* the lowest first */
    unsigned length;
};

struct facility {
    unsigned kind, dimensions, words_first, words_last, bits_first, bits_last, place;
    unsigned words, bits, bytes; /* bytes of a word */
};

/* Bits of one word of the store. */
struct part {
    unsigned facility, word, from, count;
};

struct next {
    unsigned plain, calls, returns, state, called;
};

struct interpreter {
    const uint8_t *expressions, *actions, *operations, *states;
    unsigned state_count, facility_count;
    int sequencing; /* the sequencing register, or -1 */
    int sequenced;  /* it was stored to in this cycle */
    size_t size;    /* of the store */
    uint8_t *store, *waiting, *mask;
    uint64_t conflicts;
    struct next next;
    jmp_buf stopped;
    struct facility facilities[];
};

static unsigned two(const uint8_t *at)
{
    return at[0] | (unsigned)at[1] << 8;
}

static uint32_t four(const uint8_t *at)
{
    return two(at) | (uint32_t)two(at + 2) << 16;
}

static void set_four(uint8_t *at, uint32_t number)
{
    for (int i = 0; i < 4; i++)
        at[i] = (uint8_t)(number >> (8 * i));
}

/* ---- Values. */

static struct value zero(unsigned length)
{
    struct value v = {{0, 0, 0, 0}, length};
    return v;
}

static struct value small(uint64_t number, unsigned length)
{
    struct value v = zero(length);
    v.limb[0] = number;
    return v;
}

/* Only the bits of its length are kept. */
static struct value cut(struct value v, unsigned length)
{
    v.length = length;
    for (unsigned i = 0; i < LIMBS; i++) {
        if (length <= 64 * i)
            v.limb[i] = 0;
        else if (length < 64 * (i + 1))
            v.limb[i] &= ~(uint64_t)0 >> (64 * (i + 1) - length);
    }
    return v;
}

static struct value shift_up(struct value v, unsigned by)
{
    struct value r = zero(v.length);
    unsigned whole = by / 64, rest = by % 64;
    for (unsigned i = whole; i < LIMBS; i++) {
        r.limb[i] = v.limb[i - whole] << rest;
        if (rest > 0 && i > whole)
            r.limb[i] |= v.limb[i - whole - 1] >> (64 - rest);
    }
    return r;
}

static struct value shift_down(struct value v, unsigned by)
{
    struct value r = zero(v.length);
    unsigned whole = by / 64, rest = by % 64;
    for (unsigned i = 0; i + whole < LIMBS; i++) {
        r.limb[i] = v.limb[i + whole] >> rest;
        if (rest > 0 && i + whole + 1 < LIMBS)
            r.limb[i] |= v.limb[i + whole + 1] << (64 - rest);
    }
    return r;
}

static struct value sum(struct value a, struct value b, uint64_t carry, unsigned length)
{
    for (unsigned i = 0; i < LIMBS; i++) {
        uint64_t half = a.limb[i] + b.limb[i], whole = half + carry;
        carry = (half < a.limb[i]) | (whole < half);
        a.limb[i] = whole;
    }
    return cut(a, length);
}

static struct value complement(struct value v)
{
    for (unsigned i = 0; i < LIMBS; i++)
        v.limb[i] = ~v.limb[i];
    return v;
}

static int order(struct value a, struct value b)
{
    for (unsigned i = LIMBS; i-- > 0;)
        if (a.limb[i] != b.limb[i])
            return a.limb[i] < b.limb[i] ? -1 : 1;
    return 0;
}

static unsigned ones(struct value v)
{
    unsigned count = 0;
    for (unsigned i = 0; i < LIMBS; i++)
        count += (unsigned)__builtin_popcountll(v.limb[i]);
    return count;
}

/* The number, or a large one for anything that does not fit. */
static uint64_t number(struct value v)
{
    return v.limb[1] | v.limb[2] | v.limb[3] ? UINT64_MAX : v.limb[0];
}

static unsigned longer(struct value a, struct value b)
{
    return a.length > b.length ? a.length : b.length;
}

static struct value logical(unsigned operator, struct value a, struct value b)
{
    struct value r = zero(longer(a, b));
    for (unsigned i = 0; i < LIMBS; i++) {
        if (operator == AND)
            r.limb[i] = a.limb[i] & b.limb[i];
        else
            r.limb[i] = operator == OR ? a.limb[i] | b.limb[i] : a.limb[i] ^ b.limb[i];
    }
    return r;
}

static struct value join(struct value a, struct value b)
{
    a = shift_up(a, b.length);
    for (unsigned i = 0; i < LIMBS; i++)
        a.limb[i] |= b.limb[i];
    a.length += b.length;
    return a;
}

static struct value binary(unsigned operator, struct value a, struct value b)
{
    switch (operator) {
    case AND:
    case OR:
    case XOR:
        return logical(operator, a, b);
    case SUM:
        return sum(a, b, 0, longer(a, b) + 1);
    case DIFFERENCE:
        return sum(a, complement(b), 1, longer(a, b) + 1);
    case EQUAL:
        return small(order(a, b) == 0, 1);
    case UNEQUAL:
        return small(order(a, b) != 0, 1);
    case LESS:
        return small(order(a, b) < 0, 1);
    case GREATER:
        return small(order(a, b) > 0, 1);
    case AT_LEAST:
        return small(order(a, b) >= 0, 1);
    case AT_MOST:
        return small(order(a, b) <= 0, 1);
    default:
        return join(a, b);
    }
}

static struct value prefix(unsigned operator, struct value a)
{
    switch (operator) {
    case COMPLEMENT:
        return cut(complement(a), a.length);
    case DIFFERENCE:
        return sum(zero(a.length), complement(a), 1, a.length + 1);
    case OR:
        return small(ones(a) > 0, 1);
    case AND:
        return small(ones(a) == a.length, 1);
    case XOR:
        return small(ones(a) & 1, 1);
    default:
        return small(ones(a), 16);
    }
}

static struct value counted(unsigned operator, struct value a, unsigned count)
{
    struct value r = a;
    switch (operator) {
    case HEAD:
        return cut(shift_down(a, a.length - count), count);
    case TAIL:
        return cut(a, count);
    default:
        for (unsigned i = 1; i < count; i++)
            r = join(r, a);
        return r;
    }
}

/* ---- Parts of words. A word's bytes stand the most significant first. */

static uint8_t *word_at(struct interpreter *self, uint8_t *store, struct part p)
{
    struct facility *f = &self->facilities[p.facility];
    return store + f->place + (size_t)p.word * f->bytes;
}

static struct value load(struct interpreter *self, uint8_t *store, struct part p)
{
    struct facility *f = &self->facilities[p.facility];
    unsigned low = f->bits - p.from - p.count, skip = low % 8;
    const uint8_t *byte = word_at(self, store, p) + f->bytes - 1 - low / 8;
    struct value v = zero(p.count);
    v.limb[0] = *byte >> skip;
    for (unsigned at = 8 - skip; at < p.count; at += 8) {
        uint64_t bits = *--byte;
        v.limb[at / 64] |= bits << at % 64;
        if (at % 64 > 56 && at / 64 + 1 < LIMBS)
            v.limb[at / 64 + 1] |= bits >> (64 - at % 64);
    }
    return cut(v, p.count);
}

/* Eight bits of a value from a place that may lie before its first. */
static uint8_t eight(struct value v, int at)
{
    if (at < 0)
        return (uint8_t)(v.limb[0] << -at);
    uint64_t bits = v.limb[at / 64] >> at % 64;
    if (at % 64 > 56 && at / 64 + 1 < LIMBS)
        bits |= v.limb[at / 64 + 1] << (64 - at % 64);
    return (uint8_t)bits;
}

static void put(struct interpreter *self, uint8_t *store, struct part p, struct value v)
{
    struct facility *f = &self->facilities[p.facility];
    unsigned low = f->bits - p.from - p.count;
    uint8_t *byte = word_at(self, store, p) + f->bytes - 1 - low / 8;
    struct value all = cut(complement(zero(0)), p.count);
    for (int at = -(int)(low % 8); at < (int)p.count; at += 8, byte--)
        *byte = (uint8_t)((*byte & ~eight(all, at)) | (eight(v, at) & eight(all, at)));
}

/* An earlier delayed store of this cycle named one of these bits. */
static int is_named(struct interpreter *self, struct part p)
{
    return ones(load(self, self->mask, p)) > 0;
}

/* ---- Expressions. */

static struct value evaluate(struct interpreter *self, unsigned n);

static void stop(struct interpreter *self, int digit)
{
    longjmp(self->stopped, digit);
}

static unsigned position(struct interpreter *self, unsigned first, unsigned last, uint64_t at)
{
    uint64_t least = first < last ? first : last, most = first < last ? last : first;
    if (at < least || at > most)
        stop(self, 1);
    return (unsigned)(first <= last ? at - first : first - at);
}

static struct part locate(struct interpreter *self, const uint8_t *record)
{
    struct facility *f = &self->facilities[record[1]];
    struct part p = {record[1], 0, 0, f->bits};
    unsigned a = two(record + 2), b = two(record + 4), mark = record[0];
    if (mark >= 6 || (mark == 4 && f->dimensions == 2)) {
        p.word = position(self, f->words_first, f->words_last, number(evaluate(self, a)));
        if (mark == 4)
            return p;
    }
    if (mark == 4 || mark == 6) {
        p.from = position(self, f->bits_first, f->bits_last, number(evaluate(self, mark == 4 ? a : b)));
        p.count = 1;
    } else if (mark != 3) {
        unsigned first = mark == 5 ? a : b, last = mark == 5 ? b : two(record + 6);
        p.from = position(self, f->bits_first, f->bits_last, first);
        p.count = position(self, f->bits_first, f->bits_last, last) - p.from + 1;
    }
    return p;
}

static struct value reference(struct interpreter *self, const uint8_t *record)
{
    struct part p = locate(self, record);
    struct facility *f = &self->facilities[p.facility];
    if (f->kind != COMPUTED)
        return load(self, self->store, p);
    return cut(shift_down(evaluate(self, f->place), f->bits - p.from - p.count), p.count);
}

static struct value constant(struct interpreter *self, unsigned n)
{
    const uint8_t *record = self->expressions + EXPRESSION * n;
    unsigned length = record[1] + 1u, records = (length + DIGIT - 1) / DIGIT;
    struct value v = zero(length);
    for (unsigned i = 0; i < records; i++) {
        const uint8_t *digit = record - EXPRESSION * (records - 1 - i) + 2;
        v = shift_up(v, DIGIT);
        v.limb[0] |= four(digit) | (uint64_t)two(digit + 4) << 32;
    }
    return v;
}

/* Which of so many arms a value takes, from 1: the last for 0. */
static unsigned chosen(struct value condition, unsigned arms)
{
    uint64_t value = number(condition);
    return value == 0 ? arms : (unsigned)value;
}

static struct value conditional(struct interpreter *self, const uint8_t *record)
{
    unsigned arms = two(record + 6), arm = two(record + 4);
    unsigned steps = arms - chosen(evaluate(self, two(record + 2)), arms);
    for (; steps > 0; steps--)
        arm = two(self->expressions + EXPRESSION * arm + 2);
    record = self->expressions + EXPRESSION * arm;
    return evaluate(self, two(record + (record[0] == 8 ? 2 : 4)));
}

static struct value evaluate(struct interpreter *self, unsigned n)
{
    const uint8_t *record = self->expressions + EXPRESSION * n;
    unsigned mark = record[0], a = two(record + 2), b = two(record + 4);
    if (mark == 1)
        return constant(self, n);
    if (mark < 8)
        return reference(self, record);
    if (mark == 10)
        return conditional(self, record);
    if (mark >= 192)
        return counted(mark - 192, evaluate(self, a), b);
    if (mark >= 128)
        return prefix(mark - 128, evaluate(self, a));
    struct value left = evaluate(self, a);
    return binary(mark - 64, left, evaluate(self, b));
}

/* ---- Actions. */

static void run_actions(struct interpreter *self, unsigned first, unsigned count);

static void delay(struct interpreter *self, struct part p, struct value v)
{
    put(self, self->waiting, p, v);
    put(self, self->mask, p, complement(zero(0)));
    if ((int)p.facility == self->sequencing)
        self->sequenced = 1;
}

static void store(struct interpreter *self, const uint8_t *record)
{
    int delayed = record[0] % 2 == 1, count = record[0] <= 2 ? 1 : 2;
    struct part parts[2];
    for (int i = 0; i < count; i++)
        parts[i] = locate(self, self->expressions + EXPRESSION * two(record + 1 + 2 * i));
    struct value v = evaluate(self, two(record + 1 + 2 * count));
    if (delayed && (is_named(self, parts[0]) || (count == 2 && is_named(self, parts[1]))))
        self->conflicts++;
    for (int i = 0; i < count; i++) {
        struct value piece = i + 1 < count ? shift_down(v, parts[1].count) : v;
        if (delayed)
            delay(self, parts[i], piece);
        else
            put(self, self->store, parts[i], piece);
    }
}

/* An IF without ELSE has one arm and may take none. */
static void choose(struct interpreter *self, unsigned n)
{
    const uint8_t *record = self->actions + ACTION * n;
    struct value condition = evaluate(self, two(record + 1));
    unsigned arm = n + 1, steps = 0;
    if (record[0] == 11)
        steps = chosen(condition, two(record + 3)) - 1;
    else if (number(condition) == 0)
        return;
    for (; steps > 0; steps--)
        arm += 1 + two(self->actions + ACTION * arm + 1);
    run_actions(self, arm + 1, two(self->actions + ACTION * arm + 1));
}

static void goto_state(struct interpreter *self, const uint8_t *record)
{
    if (record[0] == 8) {
        self->next.calls++;
        self->next.called = two(record + 1);
    } else {
        self->next.plain++;
        self->next.returns += record[0] == 9;
        self->next.state = two(record + 1);
    }
}

/* Answers the number of the record after this action. */
static unsigned run_action(struct interpreter *self, unsigned n)
{
    const uint8_t *record = self->actions + ACTION * n;
    switch (record[0]) {
    case 5:
        put(self, self->store, locate(self, self->expressions + EXPRESSION * two(record + 1)), small(1, 1));
        break;
    case 6:
        record = self->operations + OPERATION * two(record + 1);
        run_actions(self, two(record + 1), two(record + 3));
        break;
    case 7:
    case 8:
    case 9:
        goto_state(self, record);
        break;
    case 10:
    case 11:
        choose(self, n);
        return n + 1 + two(record + (record[0] == 10 ? 3 : 5));
    default:
        store(self, record);
    }
    return n + 1;
}

static void run_actions(struct interpreter *self, unsigned first, unsigned count)
{
    for (unsigned n = first; n < first + count;)
        n = run_action(self, n);
}

/* ---- Cycles. */

static void begin(struct interpreter *self, const uint8_t *store, const uint8_t *stimulus)
{
    memcpy(self->store, store, self->size);
    memset(self->mask, 0, self->size);
    memset(&self->next, 0, sizeof self->next);
    self->sequenced = 0;
    self->conflicts = 0;
    for (unsigned i = 0; i < self->facility_count; i++) {
        struct facility *f = &self->facilities[i];
        size_t bytes = (size_t)f->words * f->bytes;
        if (f->kind == PLAIN)
            memset(self->store + f->place, 0, bytes);
        if (f->kind == INPUT) {
            memcpy(self->store + f->place, stimulus, bytes);
            stimulus += bytes;
        }
    }
}

static void land(struct interpreter *self)
{
    for (size_t i = 0; i < self->size; i++)
        self->store[i] = (uint8_t)((self->store[i] & ~self->mask[i]) | (self->waiting[i] & self->mask[i]));
}

static struct part register_part(struct interpreter *self)
{
    struct part p = {(unsigned)self->sequencing, 0, 0, self->facilities[self->sequencing].bits};
    return p;
}

static unsigned bearer(struct interpreter *self)
{
    struct value v = load(self, self->store, register_part(self));
    for (unsigned i = 0; i < self->state_count; i++)
        if (order(v, constant(self, two(self->states + STATE * i + 1))) == 0)
            return i;
    stop(self, 3);
    return 0;
}

/* The plain next state, once the stores have landed. */
static unsigned plain_next(struct interpreter *self, unsigned state)
{
    if (self->next.plain > 0)
        return self->next.state;
    if (self->sequenced)
        return bearer(self);
    if (state + 1 == self->state_count)
        stop(self, 6);
    return state + 1;
}

/* S2, S4, S3, S6, S5 in this order; then the record as it will be. */
static void advance(struct interpreter *self, uint8_t *record)
{
    unsigned held = four(record + 12);
    if (self->next.plain + (unsigned)self->sequenced > 1 || self->next.calls > 1)
        stop(self, 2);
    if (self->next.returns > 0) {
        if (held == 0)
            stop(self, 4);
        self->next.state = four(record + 16 + 4 * --held);
        set_four(record + 16 + 4 * held, 0);
    }
    land(self);
    unsigned entered = plain_next(self, four(record + 4));
    if (self->next.calls > 0) {
        if (held == RETURNS)
            stop(self, 5);
        set_four(record + 16 + 4 * held++, entered);
        entered = self->next.called;
    }
    if (self->sequencing >= 0)
        put(self, self->store, register_part(self), constant(self, two(self->states + STATE * entered + 1)));
    set_four(record + 4, entered);
    set_four(record + 8, four(record + 8) + 1);
    set_four(record + 12, held);
}

uint32_t interpreter_cycle(struct interpreter *self, uint8_t *store, uint8_t *record, const uint8_t *stimulus,
                           uint64_t *conflicts)
{
    uint8_t after[RECORD];
    if (four(record + 8) == UINT32_MAX)
        return 7;
    int digit = setjmp(self->stopped);
    if (digit != 0)
        return (uint32_t)digit;
    begin(self, store, stimulus);
    const uint8_t *state = self->states + STATE * four(record + 4);
    run_actions(self, two(state + 3), two(state + 5));
    memcpy(after, record, sizeof after);
    advance(self, after);
    memcpy(record, after, sizeof after);
    memcpy(store, self->store, self->size);
    *conflicts += self->conflicts;
    return 0;
}

/* ---- The image taken apart once. */

static unsigned span(unsigned first, unsigned last)
{
    return (first < last ? last - first : first - last) + 1;
}

static struct facility facility(const uint8_t *record)
{
    struct facility f = {record[0],        record[1],        two(record + 3),  two(record + 5),
                         two(record + 7),  two(record + 9),  two(record + 11), 1, 1, 1};
    f.words = f.dimensions == 2 ? span(f.words_first, f.words_last) : 1;
    f.bits = f.dimensions == 0 ? 1 : span(f.bits_first, f.bits_last);
    f.bytes = (f.bits + 7) / 8;
    return f;
}

static int has_memory(struct interpreter *self)
{
    size_t size = self->size > 0 ? self->size : 1;
    self->store = malloc(size);
    self->waiting = calloc(size, 1);
    self->mask = malloc(size);
    return self->store != NULL && self->waiting != NULL && self->mask != NULL;
}

struct interpreter *interpreter_new(const uint8_t *image)
{
    unsigned count = four(image + 4);
    struct interpreter *self = calloc(1, sizeof *self + count * sizeof self->facilities[0]);
    if (self == NULL)
        return NULL;
    self->facility_count = count;
    self->state_count = four(image + 36);
    self->operations = image + four(image + 16);
    self->expressions = image + four(image + 24);
    self->actions = image + four(image + 32);
    self->states = image + four(image + 40);
    self->sequencing = -1;
    for (unsigned i = 0; i < count; i++) {
        struct facility f = facility(image + four(image + 8) + FACILITY * i);
        self->facilities[i] = f;
        if (f.kind == SEQUENCING)
            self->sequencing = (int)i;
        if (f.kind != COMPUTED)
            self->size = f.place + (size_t)f.words * f.bytes;
    }
    if (!has_memory(self)) {
        interpreter_free(self);
        return NULL;
    }
    return self;
}

void interpreter_free(struct interpreter *self)
{
    if (self == NULL)
        return;
    free(self->store);
    free(self->waiting);
    free(self->mask);
    free(self);
}
