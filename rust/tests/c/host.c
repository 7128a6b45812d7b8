/* Calls zkir_run with right and with damaged arguments, and compares every byte that is lent with what it must be. */
#include "check.h"
#include "zkir.h"

#define ROOM 512 /* of each buffer: what lies behind the part that is lent must stay as it was */
#define MEMORY_BYTES 64
#define LIMB_LIMIT 0x40000000u

struct call {
    uint8_t state[ROOM], memory[ROOM], answer[ROOM];
    size_t state_length, memory_length, answer_length;
    uint64_t fuel, mode;
};

static void put(uint8_t *bytes, size_t at, uint64_t number) {
    for (int i = 0; i < 8; i++)
        bytes[at + i] = (uint8_t)(number >> (8 * i));
}

static size_t record(int n) { return ZKIR_HEADER_BYTES + ZKIR_RECORD_BYTES * (size_t)n; }

static int same(const uint8_t *left, const uint8_t *right) {
    for (int i = 0; i < ROOM; i++)
        if (left[i] != right[i])
            return 0;
    return 1;
}

/* A call that is right: a fresh state, and Addi R1,R0,-1; Add R2,R1,R1; Ebreak. */
static struct call right_call(uint64_t mode) {
    static const uint8_t program[12] = {0x89, 0x80, 0xff, 0xff, 0x01, 0x89, 0, 0, 0x32, 0, 0, 0};
    struct call c;
    for (int i = 0; i < ROOM; i++) {
        c.state[i] = i < ZKIR_STATE_BYTES ? 0 : 0xa5;
        c.memory[i] = i < 12 ? program[i] : i < MEMORY_BYTES ? 0 : 0xa5;
        c.answer[i] = 0xa5;
    }
    c.state_length = ZKIR_STATE_BYTES;
    c.memory_length = MEMORY_BYTES;
    c.answer_length = ZKIR_ANSWER_BYTES;
    c.fuel = 1000;
    c.mode = mode;
    return c;
}

/* Makes the call and compares its result, and the three buffers with those of `after`. */
static void expect(const char *name, const struct call *given, const struct call *after, uint64_t code) {
    struct call c = *given;
    uint64_t told =
        zkir_run(c.state, c.state_length, c.memory, c.memory_length, c.answer, c.answer_length, c.fuel, c.mode);
    check(told == code, name, "result");
    check(same(c.state, after->state), name, "state");
    check(same(c.memory, after->memory), name, "memory");
    check(same(c.answer, after->answer), name, "answer");
}

static void answered(struct call *after, uint64_t code, uint64_t steps, uint64_t particular) {
    put(after->answer, 0, code);
    put(after->answer, 8, steps);
    put(after->answer, 16, particular);
}

static void whole(struct call *c, int n, uint8_t bound, uint64_t value) {
    c->state[record(n) + 1] = bound;
    put(c->state, record(n) + 8, value);
}

static void accumulated(struct call *c, int n, uint8_t bound, uint64_t low, uint64_t high) {
    whole(c, n, bound, low);
    c->state[record(n)] = 1;
    put(c->state, record(n) + 16, high);
}

static void the_example_program(void) {
    struct call plain = right_call(ZKIR_PLAIN), deferred = right_call(ZKIR_DEFERRED), after = plain;
    put(after.state, 0, 8);
    after.state[8] = 1;
    answered(&after, ZKIR_EBREAK, 3, 0);
    whole(&after, 1, 64, 1099511627775u);
    whole(&after, 2, 64, 1099511627774u);
    expect("plain run", &plain, &after, ZKIR_EBREAK);
    accumulated(&after, 1, 64, 1048575, 1048575);
    accumulated(&after, 2, 64, 2097150, 2097150);
    expect("deferred run", &deferred, &after, ZKIR_EBREAK);
}

/* One word at pc 0 with R1 at 60 and R2 at 7, refused or stopped; pc and memory's length may differ. */
static void one_word(const char *name, uint32_t word, uint64_t pc, size_t memory_length, uint64_t code,
                     uint64_t particular) {
    for (uint64_t mode = ZKIR_PLAIN; mode <= ZKIR_DEFERRED; mode++) {
        struct call c = right_call(mode), after;
        for (int i = 0; i < 4; i++)
            c.memory[i] = (uint8_t)(word >> (8 * i));
        whole(&c, 1, 6, 60);
        whole(&c, 2, 3, 7);
        put(c.state, 0, pc);
        c.memory_length = memory_length;
        after = c;
        answered(&after, code, code == ZKIR_ECALL, particular);
        if (code == ZKIR_ECALL)
            put(after.state, 0, pc + 4);
        expect(name, &c, &after, code);
    }
}

static void stops_and_refusals(void) {
    one_word("Ecall", 49, 0, MEMORY_BYTES, ZKIR_ECALL, 0);
    one_word("Div R3,R2,R0", 5 | 3 << 7 | 2 << 11, 0, MEMORY_BYTES, ZKIR_DIVISOR_ZERO, 0);
    one_word("Lw R3,4(R1)", 35 | 3 << 7 | 1 << 11 | 4 << 15, 0, MEMORY_BYTES, ZKIR_BEYOND, 64);
    one_word("Lw R3,0(R1) in 62 bytes", 35 | 3 << 7 | 1 << 11, 0, 62, ZKIR_BEYOND, 62);
    one_word("Sh R2,2(R1) in 60 bytes", 38 | 1 << 7 | 2 << 11 | 2 << 15, 0, 60, ZKIR_BEYOND, 62);
    one_word("Sw R2,1(R1)", 39 | 1 << 7 | 2 << 11 | 1 << 15, 0, MEMORY_BYTES, ZKIR_MISALIGNED, 61);
    one_word("word 0", 0, 0, MEMORY_BYTES, ZKIR_BAD_OPCODE, 0);
    one_word("opcode 51", 51, 0, MEMORY_BYTES, ZKIR_BAD_OPCODE, 51);
    one_word("Slli by 64", 19 | 64 << 15, 0, MEMORY_BYTES, ZKIR_UNUSED_BITS, 19 | 64 << 15);
    one_word("pc 2", 50, 2, MEMORY_BYTES, ZKIR_PC_MISALIGNED, 2);
    one_word("pc 64", 50, 64, MEMORY_BYTES, ZKIR_PC_BEYOND, 64);
    one_word("memory of 3 bytes", 50, 0, 3, ZKIR_PC_BEYOND, 0);
    one_word("no memory", 50, 0, 0, ZKIR_PC_BEYOND, 0);
}

static void fuel_and_halt(void) {
    struct call c = right_call(ZKIR_PLAIN), after;
    c.fuel = 0;
    after = c;
    answered(&after, ZKIR_FUEL, 0, 0);
    expect("fuel 0", &c, &after, ZKIR_FUEL);
    c.state[8] = 1;
    after = c;
    answered(&after, ZKIR_EBREAK, 0, 0);
    expect("halted", &c, &after, ZKIR_EBREAK);
}

/* The call is refused (9): nothing changes but an answer of 24 bytes. */
static void malformed(const char *name, const struct call *c) {
    struct call after = *c;
    if (c->answer_length == ZKIR_ANSWER_BYTES)
        answered(&after, ZKIR_MALFORMED, 0, 0);
    expect(name, c, &after, ZKIR_MALFORMED);
}

static void wrong_modes(void) {
    static const uint64_t modes[] = {2, 256, (uint64_t)1 << 32, UINT64_MAX};
    for (int i = 0; i < 4; i++) {
        struct call c = right_call(modes[i]);
        malformed("mode", &c);
    }
}

static void wrong_lengths(uint64_t mode) {
    static const size_t states[] = {0, 399, 401, 424}, answers[] = {0, 8, 23, 25, 48};
    for (int i = 0; i < 4; i++) {
        struct call c = right_call(mode);
        c.state_length = states[i];
        malformed("state of another length", &c);
    }
    for (int i = 0; i < 5; i++) {
        struct call c = right_call(mode);
        c.answer_length = answers[i];
        malformed("answer of another length", &c);
    }
}

static void damaged_bytes(uint64_t mode) {
    static const struct { const char *name; size_t at; uint8_t byte; } damages[] = {
        {"halt mark 2", 8, 2},           {"halt mark 255", 8, 255},       {"filler of the header", 9, 1},
        {"filler of the header", 15, 1}, {"kind 2", 40, 2},               {"kind 255", 376, 255},
        {"bound 65", 41, 65},            {"filler of a record", 42, 1},   {"filler of a record", 383, 128},
        {"second number", 56, 1},        {"second number", 399, 128},     {"R0 accumulated", 16, 1},
        {"R0 with a bound", 17, 1},      {"filler of R0", 18, 1},         {"R0 not zero", 24, 1},
        {"R0 not zero", 31, 128},        {"second number of R0", 32, 1},
    };
    for (size_t i = 0; i < sizeof damages / sizeof *damages; i++) {
        struct call c = right_call(mode);
        c.state[damages[i].at] = damages[i].byte;
        malformed(damages[i].name, &c);
    }
}

static void damaged_limbs(void) {
    struct call c = right_call(ZKIR_DEFERRED), plain = right_call(ZKIR_PLAIN), after;
    accumulated(&c, 5, 64, LIMB_LIMIT - 1, LIMB_LIMIT - 1);
    c.fuel = 0;
    after = c;
    answered(&after, ZKIR_FUEL, 0, 0);
    expect("largest limbs", &c, &after, ZKIR_FUEL);
    accumulated(&c, 5, 64, LIMB_LIMIT, 0);
    malformed("low limb of 2^30", &c);
    accumulated(&c, 5, 64, 0, LIMB_LIMIT);
    malformed("high limb of 2^30", &c);
    accumulated(&plain, 15, 0, 0, 0);
    malformed("an accumulated register in a plain run", &plain);
}

int main(void) {
    the_example_program();
    stops_and_refusals();
    fuel_and_halt();
    wrong_modes();
    for (uint64_t mode = ZKIR_PLAIN; mode <= ZKIR_DEFERRED; mode++) {
        wrong_lengths(mode);
        damaged_bytes(mode);
    }
    damaged_limbs();
    return report();
}
