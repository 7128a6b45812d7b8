/* Calls zkir_checkpoint_write and zkir_checkpoint_read with right and with damaged arguments, and compares all that is
 * lent with what it must be. */
#include "check.h"
#include "zkir.h"

#define FILL 0xa5
#define SPARE 8 /* bytes behind each buffer that are not lent: they must stay as they were */
#define PAGE ZKIR_PAGE_BYTES

/* An image of two pages, of memory of three: those at 0 and 8,192 hold something. Where its parts begin, and where it ends. */
#define MEMORY_BYTES (3 * PAGE)
#define STATE 40
#define FIRST 440
#define SECOND 4544
#define END 8648

static uint8_t state[ZKIR_STATE_BYTES], memory[ZKIR_MOST_MEMORY_BYTES], image[END];

static int is_filled(const uint8_t *bytes, size_t from, size_t until) {
    int filled = 1;
    for (size_t i = from; i < until; i++)
        filled = filled && bytes[i] == FILL;
    return filled;
}

static int same(const uint8_t *left, const uint8_t *right, size_t length) {
    int same = 1;
    for (size_t i = 0; i < length; i++)
        same = same && left[i] == right[i];
    return same;
}

static void set(uint8_t *bytes, size_t length, uint8_t byte) {
    for (size_t i = 0; i < length; i++)
        bytes[i] = byte;
}

static void put(uint8_t *bytes, uint32_t number) {
    for (int i = 0; i < 4; i++)
        bytes[i] = (uint8_t)(number >> (8 * i));
}

static void entry(uint8_t *bytes, uint32_t kind, uint32_t offset, uint32_t length) {
    put(bytes, kind);
    put(bytes + 4, offset);
    put(bytes + 8, length);
}

static void told_is(const char *name, struct zkir_told told, uint64_t code, uint64_t length) {
    check(told.code == code, name, "code");
    check(told.particular == 0, name, "particular");
    check(told.length == length, name, "length");
}

/* The machine, with R1 whole and R2 in limbs, and its image, as docs/MACHINE.md has it. */
static void make_machine(void) {
    zkir_fresh(state, 12);
    zkir_set_value(state, 1, UINT64_MAX);
    state[zkir_record(2)] = 1;
    zkir_put(state + zkir_record(2) + 8, 5);
    zkir_put(state + zkir_record(2) + 16, 0x3fffffff);
    memory[17] = 7;
    memory[3 * PAGE - 1] = 9;
    put(image, 3);
    entry(image + 4, 1, STATE, 400);
    entry(image + 16, 2, FIRST, 4104);
    entry(image + 28, 2, SECOND, 4104);
    for (int i = 0; i < ZKIR_STATE_BYTES; i++)
        image[STATE + i] = state[i];
    image[FIRST + 8 + 17] = 7;
    zkir_put(image + SECOND, 2 * PAGE);
    image[END - 1] = 9;
}

/* Writes into so many bytes; the image is expected where it is done, else nothing. */
static void writes(const char *name, size_t state_length, size_t memory_length, size_t image_length, uint64_t code,
                   uint64_t length) {
    static uint8_t written[END + PAGE + SPARE];
    set(written, sizeof written, FILL);
    told_is(name, zkir_checkpoint_write(state, state_length, memory, memory_length, written, image_length), code, length);
    check(code != 0 || same(written, image, length), name, "image");
    check(is_filled(written, length, sizeof written), name, "byte behind the image");
}

static void writing(void) {
    writes("an image", 400, MEMORY_BYTES, END, 0, END);
    writes("an image, much room", 400, MEMORY_BYTES, END + PAGE, 0, END);
    writes("a byte too few", 400, MEMORY_BYTES, END - 1, ZKIR_BAD_IMAGE, 0);
    writes("no room", 400, MEMORY_BYTES, 0, ZKIR_BAD_IMAGE, 0);
    writes("no memory, a byte too few", 400, 0, ZKIR_IMAGE_BYTES(0) - 1, ZKIR_BAD_IMAGE, 0);
    writes("a state of 399 bytes", 399, MEMORY_BYTES, 0, ZKIR_MALFORMED, 0);
    writes("a state of no bytes", 0, MEMORY_BYTES, END, ZKIR_MALFORMED, 0);
    writes("memory of no whole pages", 400, MEMORY_BYTES - 1, 0, ZKIR_MALFORMED, 0);
    writes("memory of a byte", 400, 1, END, ZKIR_MALFORMED, 0);
    state[8] = 2;
    writes("halt mark 2", 400, MEMORY_BYTES, 0, ZKIR_MALFORMED, 0);
    state[8] = 0;
    state[zkir_record(0)] = 1;
    writes("R0 accumulated", 400, MEMORY_BYTES, END, ZKIR_MALFORMED, 0);
    state[zkir_record(0)] = 0;
}

/* Reads so many bytes of the image; the machine is expected where it is done, else nothing. */
static void reads(const char *name, size_t image_length, size_t state_length, size_t memory_length, uint64_t code) {
    static uint8_t read_state[ZKIR_STATE_BYTES + SPARE], read_memory[ZKIR_MOST_MEMORY_BYTES + PAGE + SPARE];
    size_t done = code == 0;
    set(read_state, sizeof read_state, FILL);
    set(read_memory, sizeof read_memory, FILL);
    told_is(name, zkir_checkpoint_read(image, image_length, read_state, state_length, read_memory, memory_length), code, 0);
    check(!done || same(read_state, state, ZKIR_STATE_BYTES), name, "state");
    check(!done || same(read_memory, memory, memory_length), name, "memory");
    check(is_filled(read_state, done * ZKIR_STATE_BYTES, sizeof read_state), name, "byte of the state");
    check(is_filled(read_memory, done * memory_length, sizeof read_memory), name, "byte of the memory");
}

static void reading(void) {
    reads("an image", END, 400, MEMORY_BYTES, 0);
    reads("an image into all memory", END, 400, ZKIR_MOST_MEMORY_BYTES, 0);
    reads("a page beyond memory", END, 400, 2 * PAGE, ZKIR_BAD_IMAGE);
    reads("no memory", END, 400, 0, ZKIR_BAD_IMAGE);
    reads("a byte missing", END - 1, 400, MEMORY_BYTES, ZKIR_BAD_IMAGE);
    reads("a page missing", SECOND, 400, MEMORY_BYTES, ZKIR_BAD_IMAGE);
    reads("a count alone", 4, 400, MEMORY_BYTES, ZKIR_BAD_IMAGE);
    reads("nothing", 0, 400, MEMORY_BYTES, ZKIR_BAD_IMAGE);
    reads("a state of 399 bytes", 0, 399, MEMORY_BYTES, ZKIR_MALFORMED);
    reads("a state of 401 bytes", END, 401, MEMORY_BYTES, ZKIR_MALFORMED);
    reads("memory of no whole pages", 0, 400, MEMORY_BYTES + 1, ZKIR_MALFORMED);
    reads("memory of a page too many", END, 400, ZKIR_MOST_MEMORY_BYTES + PAGE, ZKIR_MALFORMED);
}

static void damaged_bytes(void) {
    static const struct { const char *name; size_t at; uint8_t byte; } damages[] = {
        {"count 2", 0, 2},                    {"count 4", 0, 4},
        {"count of 2^31 more", 3, 0x80},      {"kind of the state", 4, 2},
        {"kind of a page", 16, 1},            {"a table into itself", 8, 4},
        {"a gap", 20, 0xb9},                  {"an overlap", 32, 0xbf},
        {"an offset that wraps", 23, 0xff},   {"length of the state", 12, 0x91},
        {"length of a page", 24, 0},          {"halt mark 2", STATE + 8, 2},
        {"filler of the state", STATE + 9, 1}, {"kind 2 of R1", STATE + 40, 2},
        {"bound 65 of R1", STATE + 41, 65},   {"second number of R1", STATE + 56, 1},
        {"limb of R2", STATE + 75, 0x40},     {"R0 accumulated", STATE + 16, 1},
        {"a page at no multiple", FIRST, 1},  {"a page out of order", FIRST + 1, 0x30},
        {"a page twice", SECOND + 1, 0},      {"a page at the end of memory", SECOND + 1, 0x30},
        {"a page far beyond", SECOND + 7, 0x80}, {"a page of zeros", FIRST + 8 + 17, 0},
        {"the last page of zeros", END - 1, 0},
    };
    for (size_t i = 0; i < sizeof damages / sizeof *damages; i++) {
        uint8_t *at = image + damages[i].at, old = *at;
        *at = damages[i].byte;
        reads(damages[i].name, END, 400, MEMORY_BYTES, ZKIR_BAD_IMAGE);
        *at = old;
    }
    put(image, UINT32_MAX);
    reads("count 2^32 - 1", END, 400, MEMORY_BYTES, ZKIR_BAD_IMAGE);
    put(image, 3);
    for (uint64_t below = 1; below <= PAGE; below += PAGE - 1) {
        zkir_put(image + SECOND, 0 - below);
        reads("a page at the end of addresses", END, 400, MEMORY_BYTES, ZKIR_BAD_IMAGE);
    }
    zkir_put(image + SECOND, 2 * PAGE);
    reads("the image again", END, 400, MEMORY_BYTES, 0);
}

static void the_largest(void) {
    static uint8_t full[ZKIR_MOST_IMAGE_BYTES], read_state[ZKIR_STATE_BYTES], read_memory[ZKIR_MOST_MEMORY_BYTES];
    set(memory, sizeof memory, 1);
    told_is("sixteen pages", zkir_checkpoint_write(state, 400, memory, sizeof memory, full, sizeof full), 0, sizeof full);
    told_is("sixteen pages", zkir_checkpoint_read(full, sizeof full, read_state, 400, read_memory, sizeof read_memory), 0, 0);
    check(same(read_memory, memory, sizeof memory) && same(read_state, state, 400), "sixteen pages", "machine");
}

int main(void) {
    make_machine();
    writing();
    reading();
    damaged_bytes();
    the_largest();
    return report();
}
