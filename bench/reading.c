/* Document 01 and requests read in C: the product's columns and algorithms (docs/ARCHITECTURE.md), a store lent by pointer. FORM says how each call tests the form
 * of the store first, as the product's calls do. 0: not at all. 1, plain: row by row over all rows. 2, quick: row by row over those in use, and the
 * rest of each column compared with zero as memory. */
#include <stdbool.h>
#include <string.h>
#include "flarebutton.h"
enum { OBJECTS = 64, PLACES = 1024, ROWS = PLACES + 1, CALLS = 4096 };
enum { OPEN, COMMITTED, ABORTED };
enum { PLAIN, BALANCE, DEPOSIT, WITHDRAW, READ, WRITE, ADJUST, COUNT, PUT, TAKE, LOOK, OPERATIONS, SHORT = OPERATIONS, STILL, FOUND, LACKED, CLASSES };
enum { UNANSWERED, FAIL, OK, VALUE }; /* an answer's a, and 1 */
typedef struct {
    size_t objects, count, listed;
    uint8_t kind[OBJECTS], state[ROWS], object[ROWS], operation[ROWS], outcome[ROWS];
    uint16_t parent[ROWS], holder[ROWS], place[ROWS], order[PLACES];
    int64_t opening[OBJECTS], argument[ROWS], value[ROWS];
} Store;
typedef struct { uint32_t code, a; int64_t b; } Answer;
static Answer done(uint32_t a, int64_t b) { return (Answer){0, a, b}; }
static Answer refusal(uint32_t code) { return (Answer){code, 0, 0}; }

/* The serial objects. Bit i of `outcomes`: outcome i is allowed. */
static const struct { uint8_t kind, outcomes; int64_t least, most, value_least, value_most; } operations[OPERATIONS] = {
    [BALANCE] = {'A', 1 << UNANSWERED | 1 << VALUE, 0, 0, 0, 2024000000},
    [DEPOSIT] = {'A', 1 << UNANSWERED | 1 << OK, 1, 1000000, 0, 0},
    [WITHDRAW] = {'A', 1 << UNANSWERED | 1 << OK | 1 << FAIL, 1, 1000000, 0, 0},
    [READ] = {'R', 1 << UNANSWERED | 1 << VALUE, 0, 0, 0, 1000000000},
    [WRITE] = {'R', 1 << UNANSWERED | 1 << OK, 0, 1000000000, 0, 0},
    [ADJUST] = {'K', 1 << UNANSWERED | 1 << OK, -1000000, 1000000, 0, 0},
    [COUNT] = {'K', 1 << UNANSWERED | 1 << VALUE, 0, 0, -2024000000, 2024000000},
    [PUT] = {'S', 1 << UNANSWERED | 1 << OK | 1 << FAIL, 0, 31, 0, 0},
    [TAKE] = {'S', 1 << UNANSWERED | 1 << OK | 1 << FAIL, 0, 31, 0, 0},
    [LOOK] = {'S', 1 << UNANSWERED | 1 << VALUE, 0, 31, 0, 1},
};
/* An answer's class is its operation's number; a withdrawal that failed has SHORT, an adjustment by 0 STILL, which conflicts with nothing. A put or
 * take that failed and a look change nothing: FOUND the part in, or LACKED it. An answer's number is its part, or its value, or else its argument. The
 * last four entries conflict if the row's number stands so to the column's. */
enum { PASS, CONFLICT, EQUAL, UNEQUAL, AT_LEAST, AT_MOST };
typedef struct { uint8_t class; int64_t number; } Answered;
static const uint8_t table[CLASSES][CLASSES] = {
    [BALANCE] = {[DEPOSIT] = CONFLICT, [WITHDRAW] = AT_LEAST}, [WITHDRAW] = {[BALANCE] = AT_MOST, [WITHDRAW] = CONFLICT},
    [DEPOSIT] = {[BALANCE] = CONFLICT, [SHORT] = CONFLICT}, [SHORT] = {[DEPOSIT] = CONFLICT},
    [READ] = {[WRITE] = UNEQUAL}, [WRITE] = {[READ] = UNEQUAL, [WRITE] = UNEQUAL},
    [ADJUST] = {[COUNT] = CONFLICT}, [COUNT] = {[ADJUST] = CONFLICT},
    [PUT] = {[PUT] = EQUAL, [LACKED] = EQUAL}, [LACKED] = {[PUT] = EQUAL},
    [TAKE] = {[TAKE] = EQUAL, [FOUND] = EQUAL}, [FOUND] = {[TAKE] = EQUAL},
};
static uint8_t class_of(uint8_t operation, int64_t argument, uint8_t outcome, int64_t value) {
    switch (operation) {
    case WITHDRAW: return outcome == FAIL ? SHORT : WITHDRAW;
    case ADJUST: return argument == 0 ? STILL : ADJUST;
    case PUT: return outcome == FAIL ? FOUND : PUT;
    case TAKE: return outcome == FAIL ? LACKED : TAKE;
    case LOOK: return value == 1 ? FOUND : LACKED;
    default: return operation;
    }
}
static Answered answered(uint8_t operation, int64_t argument, uint8_t outcome, int64_t value) {
    return (Answered){class_of(operation, argument, outcome, value), outcome == VALUE && operation != LOOK ? value : argument};
}
static bool conflict(Answered row, Answered column) {
    switch (table[row.class][column.class]) {
    case PASS: return false;
    case EQUAL: return row.number == column.number;
    case UNEQUAL: return row.number != column.number;
    case AT_LEAST: return row.number >= column.number;
    case AT_MOST: return row.number <= column.number;
    default: return true;
    }
}
static bool is_kind(uint8_t letter) { return letter == 'A' || letter == 'R' || letter == 'K' || letter == 'S'; }
static bool opens(uint8_t kind, int64_t opening) {
    return is_kind(kind) && (kind == 'K' ? -1000000000 : 0) <= opening && opening <= (kind == 'S' ? 4294967295 : 1000000000);
}
static bool fits(uint8_t kind, uint32_t operation, int64_t argument) {
    if (OPERATIONS <= operation || operations[operation].kind != kind) return false;
    return operations[operation].least <= argument && argument <= operations[operation].most;
}
static bool allows(uint8_t operation, uint8_t outcome, int64_t value) {
    int64_t least = outcome == VALUE ? operations[operation].value_least : 0, most = outcome == VALUE ? operations[operation].value_most : 0;
    return outcome <= VALUE && (operations[operation].outcomes >> outcome & 1) && least <= value && value <= most;
}
static bool is_in(int64_t state, int64_t part) { return state >> part & 1; }
/* Not asked of a register: see last_written. */
static int64_t after(int64_t state, uint8_t operation, int64_t argument) {
    if (operation == DEPOSIT || operation == ADJUST) return state + argument;
    if (operation == WITHDRAW && argument <= state) return state - argument;
    if (operation == PUT) return state | (int64_t)1 << argument;
    if (operation == TAKE) return state & ~((int64_t)1 << argument);
    return state;
}
static uint8_t outcome_of(int64_t state, uint8_t operation, int64_t argument) {
    switch (operation) {
    case BALANCE: case READ: case COUNT: case LOOK: return VALUE;
    case WITHDRAW: return state < argument ? FAIL : OK;
    case PUT: return is_in(state, argument) ? FAIL : OK;
    case TAKE: return is_in(state, argument) ? OK : FAIL;
    default: return OK;
    }
}
static int64_t value_of(int64_t state, uint8_t operation, int64_t argument, uint8_t outcome) {
    return outcome != VALUE ? 0 : operation == LOOK ? is_in(state, argument) : state;
}

/* The form, each rule in document 01's words. */
/* 0 to 64 objects and 0 to 1,024 transactions; as many places. */
static bool counts_fine(const Store *s) { return s->objects <= OBJECTS && s->count <= PLACES && s->listed <= PLACES; }
/* Each object's kind known and its opening in range. */
static bool object_fine(const Store *s, uint32_t o) { return opens(s->kind[o], s->opening[o]); }
/* Each parent's number lower than the child's and never an access. */
static bool parent_fine(const Store *s, uint32_t k) { return s->parent[k] < k && s->operation[s->parent[k]] == PLAIN; }
/* Each transaction open, committed or aborted. */
static bool state_fine(const Store *s, uint32_t k) { return s->state[k] <= ABORTED; }
/* Object, operation and argument of an access fit; its result is of a shape that its operation allows, or it has none. */
static bool access_fine(const Store *s, uint32_t k) {
    return s->object[k] < s->objects && fits(s->kind[s->object[k]], s->operation[k], s->argument[k]) &&
           allows(s->operation[k], s->outcome[k], s->value[k]);
}
static bool access_blank(const Store *s, uint32_t k) {
    return s->object[k] == 0 && s->operation[k] == PLAIN && s->argument[k] == 0 && s->outcome[k] == UNANSWERED && s->value[k] == 0;
}
/* Of each row, the holder towards which it was climbed through last, and 1: the next climb towards that holder ends there. A climb that misses its
 * holder leaves wrong ones, but with it the test ends. */
typedef struct { uint16_t towards[ROWS]; } Climbs;
static bool at_or_above(const Store *s, uint32_t holder, uint32_t x, Climbs *climbs) {
    for (; holder < x; x = s->parent[x]) {
        if (climbs->towards[x] == holder + 1) return true;
        climbs->towards[x] = holder + 1;
    }
    return x == holder;
}
/* An answered access is on exactly one list, that of a transaction at or above it, or on none; an unanswered one is on none. */
static bool list_fine(const Store *s, uint32_t k, Climbs *climbs) {
    return s->outcome[k] != UNANSWERED && s->place[k] <= s->listed && s->order[s->place[k] - 1] == k && at_or_above(s, s->holder[k], k, climbs);
}
static bool list_blank(const Store *s, uint32_t k) { return s->place[k] == 0 && s->holder[k] == 0; }
/* What is kept of a list's order gives exactly one order. */
static bool order_fine(const Store *s, uint32_t i) { return s->order[i] != 0 && s->order[i] <= s->count && s->place[s->order[i]] == i + 1; }
static bool row_fine(const Store *s, uint32_t k, Climbs *climbs) {
    return parent_fine(s, k) && state_fine(s, k) && (s->operation[k] == PLAIN ? access_blank(s, k) : access_fine(s, k)) &&
           (s->place[k] == 0 ? list_blank(s, k) : list_fine(s, k, climbs));
}
/* Unused entries and fields are zero: the root's row, and past the last row, object and place in use, one by one or as memory. */
static bool row_unused(const Store *s, uint32_t k) { return s->parent[k] == 0 && s->state[k] == 0 && access_blank(s, k) && list_blank(s, k); }
static bool rest_unused_by_row(const Store *s) {
    for (uint32_t o = s->objects; o < OBJECTS; o++)
        if (s->kind[o] != 0 || s->opening[o] != 0) return false;
    for (uint32_t k = s->count + 1; k < ROWS; k++)
        if (!row_unused(s, k)) return false;
    for (uint32_t i = s->listed; i < PLACES; i++)
        if (s->order[i] != 0) return false;
    return true;
}
/* A run of bytes is zero if the first is, and each is as the next. */
static bool is_zero(const void *run, size_t size) {
    const uint8_t *bytes = run;
    return size == 0 || (bytes[0] == 0 && memcmp(bytes, bytes + 1, size - 1) == 0);
}
static bool rest_unused_by_column(const Store *s) {
#define ZERO_FROM(column, k) is_zero(s->column + (k), sizeof s->column - (k) * sizeof *s->column)
    size_t rows = s->count + 1;
    return ZERO_FROM(kind, s->objects) && ZERO_FROM(opening, s->objects) && ZERO_FROM(parent, rows) && ZERO_FROM(state, rows) &&
           ZERO_FROM(object, rows) && ZERO_FROM(operation, rows) && ZERO_FROM(argument, rows) && ZERO_FROM(outcome, rows) && ZERO_FROM(value, rows) &&
           ZERO_FROM(holder, rows) && ZERO_FROM(place, rows) && ZERO_FROM(order, s->listed);
}
static bool in_form(const Store *s) {
    if (!counts_fine(s) || !row_unused(s, 0)) return false;
    for (uint32_t o = 0; o < s->objects; o++)
        if (!object_fine(s, o)) return false;
    for (uint32_t i = 0; i < s->listed; i++)
        if (!order_fine(s, i)) return false;
    Climbs climbs;
    memset(climbs.towards, 0, (s->count + 1) * sizeof *climbs.towards);
    for (uint32_t k = 1; k <= s->count; k++)
        if (!row_fine(s, k, &climbs)) return false;
    return FORM == 1 ? rest_unused_by_row(s) : rest_unused_by_column(s);
}

/* The calls. */
static Answer open_store(Store *s, uint32_t objects, const uint8_t *kind, const int64_t *opening) {
    memset(s, 0, sizeof *s);
    if (objects == 0 || OBJECTS < objects) return refusal(14);
    for (uint32_t o = 0; o < objects; o++)
        if (!opens(kind[o], opening[o])) return refusal(14);
    s->objects = objects;
    for (uint32_t o = 0; o < objects; o++) s->kind[o] = kind[o], s->opening[o] = opening[o];
    return done(objects, 0);
}
static bool aborted_above(const Store *s, uint32_t x) {
    while (x != 0)
        if (s->state[x = s->parent[x]] == ABORTED) return true;
    return false;
}
static uint32_t inactive_code(const Store *s, uint32_t t) { return s->state[t] != OPEN ? 4 : aborted_above(s, t) ? 5 : 0; }
static Answer create(Store *s, uint32_t parent, bool access, uint32_t object, uint32_t operation, int64_t argument) {
    uint32_t code;
    if (FORM && !in_form(s)) return refusal(15);
    if (s->count < parent) return refusal(1);
    if (s->operation[parent] != PLAIN) return refusal(3);
    if ((code = inactive_code(s, parent)) != 0) return refusal(code);
    if (access && s->objects <= object) return refusal(6);
    if (access && !fits(s->kind[object], operation, argument)) return refusal(7);
    if (s->count == PLACES) return refusal(8);
    uint32_t t = ++s->count;
    s->parent[t] = parent;
    s->object[t] = object;
    s->operation[t] = operation;
    s->argument[t] = argument;
    return done(t, 0);
}

/* The work of one object, linked by holder: the first of each holder and the next of each access; 0 is none. */
typedef struct { uint16_t head[ROWS], next[ROWS]; } Chains;
static void link_work(const Store *s, uint8_t object, Chains *chains) {
    memset(chains->head, 0, (s->count + 1) * sizeof *chains->head);
    for (uint32_t i = s->listed; 0 < i; i--) {
        uint16_t x = s->order[i - 1];
        if (s->object[x] != object) continue;
        chains->next[x] = chains->head[s->holder[x]];
        chains->head[s->holder[x]] = x;
    }
}
static int64_t replayed(const Store *s, const Chains *chains, int64_t opening, uint32_t t) {
    int64_t state = t == 0 ? opening : replayed(s, chains, opening, s->parent[t]);
    for (uint32_t x = chains->head[t]; x != 0; x = chains->next[x]) state = after(state, s->operation[x], s->argument[x]);
    return state;
}
/* A register needs no replay: the last write of the nearest holder that has one, from t upward, or the opening. The order is gone through from its end, so that the
 * first write met of a holder is its last; 0 is none. */
static int64_t last_written(const Store *s, uint8_t object, uint32_t t) {
    uint16_t last[ROWS];
    memset(last, 0, (s->count + 1) * sizeof *last);
    for (uint32_t i = s->listed; 0 < i; i--) {
        uint16_t x = s->order[i - 1];
        if (s->object[x] == object && s->operation[x] == WRITE && last[s->holder[x]] == 0) last[s->holder[x]] = x;
    }
    while (t != 0 && last[t] == 0) t = s->parent[t];
    return last[t] == 0 ? s->opening[object] : s->argument[last[t]];
}
static int64_t state_for(const Store *s, uint32_t t) {
    uint8_t object = s->object[t];
    Chains chains;
    if (s->kind[object] == 'R') return last_written(s, object, t);
    link_work(s, object, &chains);
    return replayed(s, &chains, s->opening[object], t);
}
/* The lowest access that t must wait for, or 0. */
static uint32_t first_wait(const Store *s, uint32_t t, Answered asked) {
    bool above[ROWS];
    memset(above, 0, s->count + 1);
    for (uint32_t x = t; x != 0; x = s->parent[x]) above[x] = true;
    above[0] = true;
    for (uint32_t x = 1; x <= s->count; x++)
        if (s->place[x] != 0 && s->object[x] == s->object[t] && !above[s->holder[x]] &&
            conflict(asked, answered(s->operation[x], s->argument[x], s->outcome[x], s->value[x])))
            return x;
    return 0;
}
static void append(Store *s, uint32_t x, uint32_t holder) {
    s->order[s->listed++] = x;
    s->place[x] = s->listed;
    s->holder[x] = holder;
}
static Answer respond(Store *s, uint32_t t) {
    uint32_t code;
    if (FORM && !in_form(s)) return refusal(15);
    if (s->count < t) return refusal(1);
    if (t == 0) return refusal(2);
    if (s->operation[t] == PLAIN) return refusal(9);
    if ((code = inactive_code(s, t)) != 0) return refusal(code);
    if (s->outcome[t] != UNANSWERED) return refusal(10);
    int64_t state = state_for(s, t);
    uint8_t outcome = outcome_of(state, s->operation[t], s->argument[t]);
    int64_t value = value_of(state, s->operation[t], s->argument[t], outcome);
    uint32_t wait = first_wait(s, t, answered(s->operation[t], s->argument[t], outcome, value));
    if (wait != 0) return (Answer){13, s->holder[wait], wait};
    s->outcome[t] = outcome;
    s->value[t] = value;
    append(s, t, t);
    return done(outcome - 1u, value);
}

/* What the masked ones hold goes out of the order, and the rest closes up. Returns how much went. */
static uint32_t sift(Store *s, const bool *mask, uint16_t *out) {
    uint32_t stay = 0, gone = 0;
    for (uint32_t i = 0; i < s->listed; i++) {
        uint16_t x = s->order[i];
        if (mask[s->holder[x]]) out[gone++] = x;
        else s->order[stay++] = x, s->place[x] = stay;
    }
    s->listed = stay;
    return gone;
}
static uint32_t finish_code(const Store *s, uint32_t t) {
    if (FORM && !in_form(s)) return 15;
    return s->count < t ? 1 : t == 0 ? 2 : inactive_code(s, t);
}
static Answer commit(Store *s, uint32_t t) {
    bool mask[ROWS];
    uint16_t moved[PLACES];
    uint32_t code = finish_code(s, t);
    if (code != 0) return refusal(code);
    if (s->operation[t] != PLAIN && s->outcome[t] == UNANSWERED) return refusal(12);
    for (uint32_t k = t + 1; s->operation[t] == PLAIN && k <= s->count; k++)
        if (s->parent[k] == t && s->state[k] == OPEN) return (Answer){11, k, 0};
    memset(mask, 0, s->count + 1);
    mask[t] = true;
    for (uint32_t i = 0, gone = sift(s, mask, moved); i < gone; i++) append(s, moved[i], s->parent[t]);
    s->state[t] = COMMITTED;
    return done(t, 0);
}
static Answer drop(Store *s, uint32_t t) {
    bool mask[ROWS];
    uint16_t dropped[PLACES];
    uint32_t code = finish_code(s, t);
    if (code != 0) return refusal(code);
    memset(mask, 0, t);
    mask[t] = true;
    for (uint32_t k = t + 1; k <= s->count; k++) mask[k] = mask[s->parent[k]];
    for (uint32_t i = 0, gone = sift(s, mask, dropped); i < gone; i++) s->order[s->listed + i] = s->place[dropped[i]] = s->holder[dropped[i]] = 0;
    s->state[t] = ABORTED;
    return done(t, 0);
}

/* The run file, in which an opening or an argument may be negative. */
typedef struct { const uint8_t *at, *end; } Text;
typedef struct { uint8_t letter; uint32_t t, object, operation; int64_t argument; } Call;
typedef struct { uint32_t objects, calls; uint8_t kind[OBJECTS]; int64_t opening[OBJECTS]; Call call[CALLS]; } File;
static bool read_number(Text *in, uint8_t stop, uint32_t *n) {
    if (in->at == in->end || 9u < (uint32_t)*in->at - '0') return false;
    uint64_t v = *in->at++ - '0';
    for (; in->at != in->end; in->at++) {
        uint32_t digit = (uint32_t)*in->at - '0';
        if (9u < digit) return *n = v, *in->at++ == stop;
        if (v == 0 || UINT32_MAX < (v = v * 10 + digit)) return false;
    }
    return false;
}
static bool read_signed(Text *in, uint8_t stop, int64_t *n) {
    bool negative = in->at != in->end && *in->at == '-';
    uint32_t size;
    in->at += negative;
    if (!read_number(in, stop, &size) || (negative && size == 0)) return false;
    *n = negative ? -(int64_t)size : size;
    return true;
}
/* The letter before a space, or 0. */
static uint8_t read_letter(Text *in) {
    if (in->end - in->at < 2 || in->at[1] != ' ') return 0;
    in->at += 2;
    return in->at[-2];
}
static bool read_object(Text *in, uint8_t *kind, int64_t *opening) {
    *kind = read_letter(in);
    return is_kind(*kind) && read_signed(in, '\n', opening);
}
static bool read_call(Text *in, Call *c) {
    switch (c->letter = read_letter(in)) {
    case 'U': return read_number(in, ' ', &c->t) && read_number(in, ' ', &c->object) && read_number(in, ' ', &c->operation) &&
                     read_signed(in, '\n', &c->argument);
    case 'N': case 'G': case 'C': case 'B': return read_number(in, '\n', &c->t);
    default: return false;
    }
}
/* The first wrong or missing line from 1, or 0. */
static uint32_t read_file(Text in, File *f) {
    uint32_t line = 1;
    if (!read_number(&in, '\n', &f->objects) || OBJECTS < f->objects) return line;
    for (uint32_t i = 0; i < f->objects; i++)
        if (line++, !read_object(&in, &f->kind[i], &f->opening[i])) return line;
    if (line++, !read_number(&in, '\n', &f->calls) || CALLS < f->calls) return line;
    for (uint32_t i = 0; i < f->calls; i++)
        if (line++, !read_call(&in, &f->call[i])) return line;
    return in.at == in.end ? 0 : line + 1;
}
static uint8_t *put_number(uint8_t *out, uint64_t n, uint8_t stop) {
    uint8_t digits[20], k = 0;
    do digits[k++] = '0' + n % 10; while ((n /= 10) != 0);
    while (k != 0) *out++ = digits[--k];
    *out++ = stop;
    return out;
}
static uint8_t *put_answer(uint8_t *out, Answer r) {
    out = put_number(put_number(out, r.code, ' '), r.a, ' ');
    if (r.b < 0) *out++ = '-';
    return put_number(out, r.b < 0 ? -r.b : r.b, '\n');
}
static Answer make_call(Store *s, const Call *c) {
    switch (c->letter) {
    case 'N': return create(s, c->t, false, 0, PLAIN, 0);
    case 'U': return create(s, c->t, true, c->object, c->operation, c->argument);
    case 'G': return respond(s, c->t);
    case 'C': return commit(s, c->t);
    default: return drop(s, c->t);
    }
}
size_t reading_run(const uint8_t *input, size_t input_length, uint8_t *output, size_t output_length) {
    if (output_length < FLAREBUTTON_OUTPUT) return 0;
    if (FLAREBUTTON_INPUT <= input_length) return put_answer(output, refusal(16)) - output;
    File file;
    uint32_t wrong = read_file((Text){input, input + input_length}, &file);
    if (wrong != 0) return put_answer(output, (Answer){16, wrong, 0}) - output;
    Store store;
    Answer opened = open_store(&store, file.objects, file.kind, file.opening);
    uint8_t *out = put_answer(output, opened);
    for (uint32_t i = 0; opened.code == 0 && i < file.calls; i++) out = put_answer(out, make_call(&store, &file.call[i]));
    return out - output;
}
