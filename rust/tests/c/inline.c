/* The header's own functions, over the bytes of a state. */
#include "check.h"
#include "zkir.h"

static void numbers(void) {
    static const uint8_t bytes[8] = {8, 7, 6, 5, 4, 3, 2, 0xff};
    uint8_t written[8];
    check(zkir_get(bytes) == 0xff02030405060708u, "a number", "reading");
    zkir_put(written, 0xff02030405060708u);
    for (int i = 0; i < 8; i++)
        check(written[i] == bytes[i], "a number", "byte");
    check(zkir_bits(0) == 0 && zkir_bits(1) == 1 && zkir_bits(255) == 8 && zkir_bits(256) == 9, "bits", "number");
    check(zkir_bits(UINT64_MAX) == 64, "bits", "largest number");
}

static void fresh_state(void) {
    uint8_t state[ZKIR_STATE_BYTES + 1];
    for (int i = 0; i <= ZKIR_STATE_BYTES; i++)
        state[i] = 0xa5;
    zkir_fresh(state, 0x0102);
    check(state[0] == 2 && state[1] == 1, "a fresh state", "pc");
    for (int i = 2; i < ZKIR_STATE_BYTES; i++)
        check(state[i] == 0, "a fresh state", "byte");
    check(state[ZKIR_STATE_BYTES] == 0xa5, "a fresh state", "byte behind it");
    zkir_set_pc(state, 0x0304);
    check(zkir_pc(state) == 0x0304 && !zkir_is_halted(state), "a fresh state", "pc or mark");
    state[8] = 1;
    check(zkir_is_halted(state), "a halted state", "mark");
}

static void registers(void) {
    uint8_t state[ZKIR_STATE_BYTES];
    zkir_fresh(state, 0);
    state[16 + 24 * 15] = 1;
    zkir_put(state + 24 + 24 * 15, 5);
    zkir_put(state + 32 + 24 * 15, 3);
    check(zkir_is_accumulated(state, 15) && zkir_value(state, 15) == 5 + (3u << 20), "R15", "value");
    zkir_put(state + 24 + 24 * 15, 0x3fffffff);
    zkir_put(state + 32 + 24 * 15, 0x3fffffff);
    check(zkir_value(state, 15) == 1048575u + ((uint64_t)1022 << 20), "R15, as P7 has it", "value");
    zkir_set_value(state, 15, UINT64_MAX);
    check(!zkir_is_accumulated(state, 15) && zkir_value(state, 15) == UINT64_MAX, "R15 set", "value");
    check(zkir_bound(state, 15) == 64 && zkir_get(state + 32 + 24 * 15) == 0, "R15 set", "bound or second number");
    zkir_set_value(state, 0, 7);
    check(zkir_value(state, 0) == 0 && zkir_bound(state, 0) == 0, "R0", "value");
}

static void both_forms_of_a_state(void) {
    static const struct zkir_lent nothing;
    struct zkir_lent lent = nothing;
    lent.values[2] = 7;
    lent.kinds[3] = 1;
    lent.values[3] = 0x3fffffff + ((uint64_t)0x3fffffff << 30);
    check(zkir_lent_value(&lent, 2) == 7, "R2 of a record", "value");
    check(zkir_lent_value(&lent, 3) == 1048575u + ((uint64_t)1022 << 20), "R3 of a record", "value");
}

static void room_for_texts(void) {
    static const uint8_t text[] = "a: b:\n\nc:\n";
    check(zkir_words_needed(text, 10) == 16 && zkir_words_needed(text, 0) == 4, "a text", "bytes for its words");
    check(zkir_labels_needed(text, 10) == 9 && zkir_labels_needed(text, 1) == 0, "a text", "numbers for its labels");
}

static void room_for_images(void) {
    static uint8_t memory[3 * ZKIR_PAGE_BYTES];
    check(zkir_image_needed(memory, 0) == 416 && zkir_image_needed(memory, sizeof memory) == 416, "zeros", "bytes of an image");
    memory[ZKIR_PAGE_BYTES - 1] = 1;
    check(zkir_image_needed(memory, ZKIR_PAGE_BYTES) == 4532 && zkir_is_held(memory, 0), "a page", "bytes of an image");
    memory[2 * ZKIR_PAGE_BYTES] = 255;
    check(zkir_image_needed(memory, sizeof memory) == 8648, "two pages of three", "bytes of an image");
    check(!zkir_is_held(memory, ZKIR_PAGE_BYTES), "a page of zeros", "hold");
    check(ZKIR_IMAGE_BYTES(16) == ZKIR_MOST_IMAGE_BYTES, "sixteen pages", "bytes of an image");
}

int main(void) {
    numbers();
    fresh_state();
    registers();
    both_forms_of_a_state();
    room_for_texts();
    room_for_images();
    return report();
}
