/* Calls zkir_step with right and with damaged arguments, and compares all that is lent with what it must be. */
#include "check.h"
#include "zkir.h"

#define MEMORY_BYTES 64
#define ROOM 4 /* records of the list, the last of which is never lent */
#define LIMB_LIMIT ((uint64_t)1 << 30)

struct call {
    struct zkir_lent state;
    uint8_t memory[MEMORY_BYTES];
    struct zkir_pending list[ROOM];
    size_t memory_length, list_length, count;
    uint64_t mode;
};

static int same_state(const struct zkir_lent *left, const struct zkir_lent *right) {
    int same = left->pc == right->pc && left->halted == right->halted;
    for (int n = 0; n < ZKIR_REGISTERS; n++)
        same = same && left->kinds[n] == right->kinds[n] && left->bounds[n] == right->bounds[n] &&
               left->values[n] == right->values[n];
    return same;
}

static int same_memory(const struct call *left, const struct call *right) {
    int same = 1;
    for (int i = 0; i < MEMORY_BYTES; i++)
        same = same && left->memory[i] == right->memory[i];
    return same;
}

static int same_list(const struct call *left, const struct call *right) {
    int same = 1;
    for (int i = 0; i < ROOM; i++)
        same = same && left->list[i].value == right->list[i].value && left->list[i].bound == right->list[i].bound &&
               left->list[i].pc == right->list[i].pc;
    return same;
}

/* Makes the call and compares its answer, and what was lent with what is in `after`, its count too. */
static void expect(const char *name, struct call c, const struct call *after, uint64_t code, uint64_t particular) {
    struct zkir_stepped told =
        zkir_step(&c.state, c.memory, c.memory_length, c.list, c.list_length, c.count, c.mode);
    check(told.code == code, name, "code");
    check(told.particular == particular, name, "particular");
    check(told.count == after->count, name, "count");
    check(same_state(&c.state, &after->state), name, "state");
    check(same_memory(&c, after), name, "memory");
    check(same_list(&c, after), name, "list");
}

static void refused(const char *name, const struct call *c, uint64_t code, uint64_t particular) {
    expect(name, *c, c, code, particular);
}

static uint32_t word(uint32_t opcode, uint32_t at7, uint32_t at11, uint32_t at15) {
    return opcode | at7 << 7 | at11 << 11 | at15 << 15;
}

static void put_word(struct call *c, size_t at, uint32_t word) {
    for (int i = 0; i < 4; i++)
        c->memory[at + i] = (uint8_t)(word >> (8 * i));
}

static void whole(struct call *c, int n, uint8_t bound, uint64_t value) {
    c->state.kinds[n] = 0;
    c->state.bounds[n] = bound;
    c->state.values[n] = value;
}

static void accumulated(struct call *c, int n, uint8_t bound, uint64_t low, uint64_t high) {
    whole(c, n, bound, low + LIMB_LIMIT * high);
    c->state.kinds[n] = 1;
}

/* A call that is right: the word at pc 0, R1 at 2^40 - 1 with bound 40, three records lent, none in use. */
static struct call right_call(uint64_t mode, uint32_t word) {
    static const struct call nothing;
    struct call c = nothing;
    put_word(&c, 0, word);
    whole(&c, 1, 40, 1099511627775u);
    for (int i = 0; i < ROOM; i++)
        c.list[i].value = c.list[i].pc = c.list[i].bound = 0xa5;
    c.memory_length = MEMORY_BYTES;
    c.list_length = ROOM - 1;
    c.mode = mode;
    return c;
}

static void append(struct call *after, uint64_t value, uint8_t bound, uint64_t pc) {
    struct zkir_pending pending = {value, bound, pc};
    after->list[after->count++] = pending;
}

static void on_and_stops(void) {
    for (uint64_t mode = ZKIR_PLAIN; mode <= ZKIR_DEFERRED; mode++) {
        struct call c = right_call(mode, 49), after = c;
        after.state.pc = 4;
        expect("Ecall", c, &after, ZKIR_ECALL, 0);
        put_word(&c, 0, 50);
        after = c;
        after.state.halted = 1;
        expect("Ebreak", c, &after, ZKIR_EBREAK, 0);
        c = right_call(mode, word(9, 2, 0, 5));
        c.state.halted = 1;
        after = c;
        after.state.pc = 4;
        whole(&after, 2, 4, 5);
        if (mode == ZKIR_DEFERRED)
            accumulated(&after, 2, 4, 5, 0);
        expect("Addi R2,R0,5 of a halted state", c, &after, ZKIR_FUEL, 0);
        c = right_call(mode, word(39, 0, 1, 60));
        after = c;
        after.state.pc = 4;
        put_word(&after, 60, 0xffffffff);
        expect("Sw R1,60(R0)", c, &after, ZKIR_FUEL, 0);
    }
}

static void lists(void) {
    struct call c = right_call(ZKIR_PLAIN, word(1, 2, 1, 1)), after = c;
    after.state.pc = 4;
    whole(&after, 2, 41, 1099511627774u);
    append(&after, 1099511627774u, 41, 0);
    expect("plain Add", c, &after, ZKIR_FUEL, 0);
    c.list_length = after.count = 0;
    after.list[0] = c.list[0];
    expect("plain Add without a list", c, &after, ZKIR_FUEL, 0);
    c = right_call(ZKIR_DEFERRED, word(1, 2, 1, 1));
    after = c;
    after.state.pc = 4;
    accumulated(&after, 2, 41, 2097150, 2097150);
    expect("deferred Add", c, &after, ZKIR_FUEL, 0);
    for (uint64_t mode = ZKIR_PLAIN; mode <= ZKIR_DEFERRED; mode++) {
        c = right_call(mode, 0);
        put_word(&c, 8, word(3, 2, 1, 1));
        c.state.pc = 8;
        c.count = 2;
        after = c;
        after.state.pc = 12;
        whole(&after, 2, 64, 1);
        append(&after, 1, 64, 8);
        expect("Mul", c, &after, ZKIR_FUEL, 0);
        c.count = 3;
        refused("Mul with a full list", &c, ZKIR_LIST_FULL, 8);
    }
}

static void refused_word(const char *name, uint32_t word, uint64_t pc, size_t memory_length, uint64_t code,
                         uint64_t particular) {
    for (uint64_t mode = ZKIR_PLAIN; mode <= ZKIR_DEFERRED; mode++) {
        struct call c = right_call(mode, word);
        whole(&c, 1, 6, 60);
        c.state.pc = pc;
        c.memory_length = memory_length;
        refused(name, &c, code, particular);
    }
}

static void refusals(void) {
    refused_word("Div R3,R1,R0", word(5, 3, 1, 0), 0, MEMORY_BYTES, ZKIR_DIVISOR_ZERO, 0);
    refused_word("Lw R3,4(R1)", word(35, 3, 1, 4), 0, MEMORY_BYTES, ZKIR_BEYOND, 64);
    refused_word("Lw R3,0(R1) in 62 bytes", word(35, 3, 1, 0), 0, 62, ZKIR_BEYOND, 62);
    refused_word("Sh R2,2(R1) in 60 bytes", word(38, 1, 2, 2), 0, 60, ZKIR_BEYOND, 62);
    refused_word("Sw R2,1(R1)", word(39, 1, 2, 1), 0, MEMORY_BYTES, ZKIR_MISALIGNED, 61);
    refused_word("opcode 51", 51, 0, MEMORY_BYTES, ZKIR_BAD_OPCODE, 51);
    refused_word("Slli by 64", word(19, 0, 0, 64), 0, MEMORY_BYTES, ZKIR_UNUSED_BITS, word(19, 0, 0, 64));
    refused_word("pc 2", 50, 2, MEMORY_BYTES, ZKIR_PC_MISALIGNED, 2);
    refused_word("pc 64", 50, 64, MEMORY_BYTES, ZKIR_PC_BEYOND, 64);
    refused_word("no memory", 50, 0, 0, ZKIR_PC_BEYOND, 0);
}

static void wrong_numbers(void) {
    static const uint64_t modes[] = {2, 256, (uint64_t)1 << 32, UINT64_MAX};
    for (int i = 0; i < 4; i++) {
        struct call c = right_call(modes[i], 50);
        refused("mode", &c, ZKIR_MALFORMED, 0);
    }
    struct call c = right_call(ZKIR_PLAIN, 50);
    c.count = ROOM;
    refused("count beyond the list", &c, ZKIR_MALFORMED, 0);
    c.list_length = 0;
    c.count = 1;
    refused("count without a list", &c, ZKIR_MALFORMED, 0);
}

static void damaged_bytes(uint64_t mode) {
    struct call c = right_call(mode, 50);
    struct zkir_lent *s = &c.state;
    const struct { const char *name; uint8_t *at, byte; } damages[] = {
        {"halt mark 2", &s->halted, 2},      {"halt mark 255", &s->halted, 255},   {"kind 2", &s->kinds[1], 2},
        {"kind 255", &s->kinds[15], 255},    {"bound 65", &s->bounds[1], 65},      {"bound 255", &s->bounds[15], 255},
        {"R0 accumulated", &s->kinds[0], 1}, {"R0 with a bound", &s->bounds[0], 1},
    };
    for (size_t i = 0; i < sizeof damages / sizeof *damages; i++) {
        uint8_t old = *damages[i].at;
        *damages[i].at = damages[i].byte;
        refused(damages[i].name, &c, ZKIR_MALFORMED, 0);
        *damages[i].at = old;
    }
    s->values[0] = 1;
    refused("R0 not zero", &c, ZKIR_MALFORMED, 0);
}

static void limbs(void) {
    struct call c = right_call(ZKIR_DEFERRED, 50), after;
    accumulated(&c, 5, 64, LIMB_LIMIT - 1, LIMB_LIMIT - 1);
    after = c;
    after.state.halted = 1;
    expect("largest limbs", c, &after, ZKIR_EBREAK, 0);
    c.mode = ZKIR_PLAIN;
    refused("an accumulated register in a plain step", &c, ZKIR_MALFORMED, 0);
    c.mode = ZKIR_DEFERRED;
    accumulated(&c, 5, 64, 0, LIMB_LIMIT);
    refused("high limb of 2^30", &c, ZKIR_MALFORMED, 0);
}

int main(void) {
    on_and_stops();
    lists();
    refusals();
    wrong_numbers();
    damaged_bytes(ZKIR_PLAIN);
    damaged_bytes(ZKIR_DEFERRED);
    limbs();
    return report();
}
