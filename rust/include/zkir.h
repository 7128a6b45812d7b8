/* The host's calls of the proved zkIR core, a run, a single step, an assembler and a printer, and what writes and reads
 * checkpoints, with what a host needs around them.
 *
 * The run is in libzkir_run.a, the step in libzkir_step.a, assembler and printer in libzkir_text.a, the calls for
 * checkpoints in libzkir_checkpoint.a, as a distribution has them (tools/dist); in the repository `tools/archives` makes
 * them, of the crates host, lent, text and checkpoint, as libhost.a and so on. An archive calls nothing but memcpy, or
 * another of what a compiler calls by itself: memmove, memset, memcmp. It needs no heap, no file and no thread.
 *
 * examples/host.c is a whole host, examples/checkpoint.c breaks a run off and goes on. */
#ifndef ZKIR_H
#define ZKIR_H

#include <stddef.h>
#include <stdint.h>

#ifdef __cplusplus
extern "C" {
#endif

/* The state, 400 bytes, every number little-endian: a header, then sixteen records, of R0 to R15.
 *
 *   header   pc (8), halt mark 0 or 1, 7 zeros
 *   record   kind 0 (whole) or 1 (accumulated), bound 0 to 64, 6 zeros, two numbers of 8:
 *            the value and 0 if it is whole, else the low and the high limb, each below 2^30
 *
 * R0's record is all zeros. An accumulated register's value is low + 2^20 * high, modulo 2^40. */
#define ZKIR_REGISTERS 16
#define ZKIR_HEADER_BYTES 16
#define ZKIR_RECORD_BYTES 24
#define ZKIR_STATE_BYTES 400

/* The answer, three little-endian numbers of 8: code, steps, particular. Steps are the instructions completed. */
#define ZKIR_ANSWER_BYTES 24

/* The modes. A plain run or step refuses a state with an accumulated register. */
#define ZKIR_PLAIN 0
#define ZKIR_DEFERRED 1

/* The codes, with the particular of each; it is 0 at the others. */
#define ZKIR_FUEL 0          /* the fuel is used up; of a step: the run goes on */
#define ZKIR_DIVISOR_ZERO 1  /* pc */
#define ZKIR_BEYOND 2        /* missing: the first byte of the access that memory lacks */
#define ZKIR_MISALIGNED 3    /* address, which is no multiple of the access's size */
#define ZKIR_BAD_OPCODE 4    /* word, whose opcode is 0 or over 50 */
#define ZKIR_UNUSED_BITS 5   /* word, with unused bits set or a shift amount over 63 */
#define ZKIR_PC_MISALIGNED 6 /* pc, which is no multiple of 4 */
#define ZKIR_PC_BEYOND 7     /* pc, whose four bytes reach beyond memory */
#define ZKIR_LIST_FULL 8     /* pc; zkir_run lends no list and never answers it */
#define ZKIR_MALFORMED 9     /* an argument is malformed */
#define ZKIR_BAD_LINE 10     /* line, the first bad one of a text; no run or step answers it */
#define ZKIR_BAD_IMAGE 11    /* the image breaks a rule, or has no room; no run or step answers it */
#define ZKIR_EBREAK 64       /* the state is halted, its pc at the Ebreak */
#define ZKIR_ECALL 65        /* the pc is behind the Ecall */

/* Runs at most `fuel` instructions from the state's pc, over memory from address 0, and returns the code.
 *
 * A wrong length, mode or state is refused: 9 is returned, state and memory stay as they were, and the answer becomes
 * 9, 0, 0 if it has 24 bytes, else it isn't written.
 *
 * The caller lends three pieces of memory that do not overlap, each with at least as many bytes as its length says. No
 * pointer is null, even if its length is 0. Nothing is kept after the call, and calls on different states may run at
 * the same time. */
uint64_t zkir_run(uint8_t *state, size_t state_length, uint8_t *memory, size_t memory_length, uint8_t *answer,
                  size_t answer_length, uint64_t fuel, uint64_t mode);

/* ---- What a host writes around the run: numbers in bytes, and a state's fields. Registers are 0 to 15. */

static inline uint64_t zkir_get(const uint8_t *bytes) {
    uint64_t number = 0;
    for (int i = 7; i >= 0; i--)
        number = number << 8 | bytes[i];
    return number;
}

static inline void zkir_put(uint8_t *bytes, uint64_t number) {
    for (int i = 0; i < 8; i++)
        bytes[i] = (uint8_t)(number >> (8 * i));
}

/* Not halted, every register whole, 0, with bound 0. */
static inline void zkir_fresh(uint8_t *state, uint64_t pc) {
    for (int i = 0; i < ZKIR_STATE_BYTES; i++)
        state[i] = 0;
    zkir_put(state, pc);
}

static inline uint64_t zkir_pc(const uint8_t *state) { return zkir_get(state); }

static inline void zkir_set_pc(uint8_t *state, uint64_t pc) { zkir_put(state, pc); }

static inline int zkir_is_halted(const uint8_t *state) { return state[8]; }

static inline size_t zkir_record(unsigned n) { return ZKIR_HEADER_BYTES + (size_t)ZKIR_RECORD_BYTES * n; }

static inline int zkir_is_accumulated(const uint8_t *state, unsigned n) { return state[zkir_record(n)]; }

static inline unsigned zkir_bound(const uint8_t *state, unsigned n) { return state[zkir_record(n) + 1]; }

/* All 64 bits of a whole register; low + 2^20 * high, modulo 2^40, of an accumulated one. */
static inline uint64_t zkir_value(const uint8_t *state, unsigned n) {
    uint64_t first = zkir_get(state + zkir_record(n) + 8), second = zkir_get(state + zkir_record(n) + 16);
    return zkir_is_accumulated(state, n) ? (first + (second << 20)) & 0xffffffffffu : first;
}

/* The bits that a number needs, 0 for 0. */
static inline unsigned zkir_bits(uint64_t number) {
    unsigned bits = 0;
    for (; number != 0; number >>= 1)
        bits++;
    return bits;
}

/* Makes the register whole, with the value and the bound that it needs: so a host writes the result of an Ecall. R0 stays
 * as it is. */
static inline void zkir_set_value(uint8_t *state, unsigned n, uint64_t value) {
    if (n == 0)
        return;
    state[zkir_record(n)] = 0;
    state[zkir_record(n) + 1] = (uint8_t)zkir_bits(value);
    zkir_put(state + zkir_record(n) + 8, value);
    zkir_put(state + zkir_record(n) + 16, 0);
}

static inline uint64_t zkir_steps(const uint8_t *answer) { return zkir_get(answer + 8); }

static inline uint64_t zkir_particular(const uint8_t *answer) { return zkir_get(answer + 16); }

/* What a code means. */
static inline const char *zkir_words(uint64_t code) {
    switch (code) {
    case ZKIR_FUEL: return "the fuel is used up";
    case ZKIR_DIVISOR_ZERO: return "the instruction divides by zero";
    case ZKIR_BEYOND: return "the access reaches beyond memory";
    case ZKIR_MISALIGNED: return "the access is not at a multiple of its size";
    case ZKIR_BAD_OPCODE: return "the word's opcode is 0 or over 50";
    case ZKIR_UNUSED_BITS:
        return "the word has bits set that its instruction leaves unused, or a shift amount over 63";
    case ZKIR_PC_MISALIGNED: return "the pc is not a multiple of 4";
    case ZKIR_PC_BEYOND: return "the instruction reaches beyond memory";
    case ZKIR_LIST_FULL: return "the instruction needs a check, and the list of pending checks is full";
    case ZKIR_MALFORMED: return "an argument is malformed";
    case ZKIR_BAD_LINE: return "the text has a bad line";
    case ZKIR_BAD_IMAGE: return "the image breaks a rule of checkpoints, or has no room for one";
    case ZKIR_EBREAK: return "the program stopped by itself";
    case ZKIR_ECALL: return "the program asks its host for a service";
    default: return "no code";
    }
}

/* ---- A single step. */

/* The state as a record. Halt mark, kinds and bounds are as above, and so is R0: all zeros. The value of an accumulated
 * register is low + 2^30 * high here. */
struct zkir_lent {
    uint64_t pc;
    uint8_t halted;
    uint8_t kinds[ZKIR_REGISTERS];
    uint8_t bounds[ZKIR_REGISTERS];
    uint64_t values[ZKIR_REGISTERS];
};

/* As zkir_value. */
static inline uint64_t zkir_lent_value(const struct zkir_lent *state, unsigned n) {
    uint64_t low = state->values[n] & 0x3fffffffu, high = state->values[n] >> 30;
    return state->kinds[n] ? (low + (high << 20)) & 0xffffffffffu : state->values[n];
}

/* A pending check: a result, the bits noted of it, which are over 40, and the pc of its instruction. */
struct zkir_pending {
    uint64_t value;
    uint8_t bound;
    uint64_t pc;
};

/* What a step answers: code, particular, and how many records of the list are now in use. */
struct zkir_stepped {
    uint64_t code;
    uint64_t particular;
    size_t count;
};

/* Takes one step from the state's pc, over memory from address 0, whether the state is halted or not.
 *
 * The list has `list_length` records, of which the first `count` are in use. Add and Mul in the plain mode, and Mul
 * alone in the deferred one, append a check where the result's bound is over 40, and are refused (8) if the list is
 * full. A list_length of 0 means that none is lent: then none is listed and none refused.
 *
 * A wrong mode, count or record is refused (9). A refused step changes nothing that is lent.
 *
 * What is lent does not overlap, and no pointer is null, even if its length is 0. Nothing is kept after the call, and
 * calls on different states may run at the same time. */
struct zkir_stepped zkir_step(struct zkir_lent *state, uint8_t *memory, size_t memory_length, struct zkir_pending *list,
                              size_t list_length, size_t count, uint64_t mode);

/* What the calls below answer: code 0 and the bytes written, 0 of a checkpoint that is read; or a refusal, with its particular,
 * and the length 0. */
struct zkir_told {
    uint64_t code;
    uint64_t particular;
    uint64_t length;
};

/* ---- Programs as texts, in the language of docs/LANGUAGE.md. */

/* Room that always suffices: for the words, 4 bytes a line; for labels, 3 numbers a colon; for a print, 22 bytes a word, which
 * are those of "Addi R15, R15, -65536" and its LF. */
#define ZKIR_WORD_BYTES 4
#define ZKIR_LABEL_NUMBERS 3
#define ZKIR_PRINTED_BYTES 22

/* Puts the words of the text, four bytes each, into the front of `words`; the bytes behind them stay. Lines are counted from 1.
 *
 * `labels` is room for the text's labels, and is all zeros afterwards, whatever the answer. Refused are, in this order:
 * too few `labels` (9), a text with a bad line (10), too few `words` (9). Then `words` stays as it was. With twice the room
 * that labels need they are found sooner.
 *
 * What is lent does not overlap, and no pointer is null, even if its length is 0. Nothing is kept after the call. */
struct zkir_told zkir_assemble(const uint8_t *text, size_t text_length, uint8_t *words, size_t words_length,
                               uint64_t *labels, size_t labels_length);

/* Puts the text of the words, a line for each, into the front of `text`; the bytes behind it stay. Assembled, it gives these
 * words again.
 *
 * Refused are, in this order: a length of `words` that is no multiple of 4 (9), a word that is no instruction (4 or 5, with the
 * first such word), too short a `text` (9). Then `text` stays as it was.
 *
 * What is lent does not overlap, and no pointer is null, even if its length is 0. Nothing is kept after the call. */
struct zkir_told zkir_print(const uint8_t *words, size_t words_length, uint8_t *text, size_t text_length);

static inline size_t zkir_count(const uint8_t *text, size_t text_length, uint8_t byte) {
    size_t count = 0;
    for (size_t i = 0; i < text_length; i++)
        count += text[i] == byte;
    return count;
}

/* Bytes of `words`, and numbers of `labels`, that suffice for the text. */
static inline size_t zkir_words_needed(const uint8_t *text, size_t text_length) {
    return ZKIR_WORD_BYTES * (zkir_count(text, text_length, '\n') + 1);
}

static inline size_t zkir_labels_needed(const uint8_t *text, size_t text_length) {
    return ZKIR_LABEL_NUMBERS * zkir_count(text, text_length, ':');
}

/* ---- Checkpoints: a state and its memory as an image, from which the run goes on elsewhere. docs/MACHINE.md has its bytes. */

/* Memory is a multiple of a page, 0 too, and at most sixteen pages. An image holds the pages that have a nonzero byte. */
#define ZKIR_PAGE_BYTES 4096
#define ZKIR_MOST_MEMORY_BYTES 65536
#define ZKIR_IMAGE_BYTES(pages) (416 + (size_t)4116 * (pages))
#define ZKIR_MOST_IMAGE_BYTES 66272

/* Puts the image of the state's 400 bytes and the memory into the front of `image`; the bytes behind it stay. The length is the
 * image's.
 *
 * Refused are, in this order: a memory of another length, or bytes that are no state's (9), too short an `image` (11). Then
 * `image` stays as it was.
 *
 * `image` overlaps neither of the others, and no pointer is null, even if its length is 0. Nothing is kept after the call. */
struct zkir_told zkir_checkpoint_write(const uint8_t *state, size_t state_length, const uint8_t *memory,
                                       size_t memory_length, uint8_t *image, size_t image_length);

/* The state's 400 bytes and the memory become those whose image this is, to its last byte; pages that it doesn't hold become
 * zeros. The length is 0. With memory of the same length a run then goes on, in the same mode, as it would have gone on; the
 * image does not hold that length.
 *
 * Refused are, in this order: a memory or a state of another length (9), bytes that are the image of no state and memory of that
 * length (11). Then state and memory stay as they were.
 *
 * What is lent does not overlap, and no pointer is null, even if its length is 0. Nothing is kept after the call. */
struct zkir_told zkir_checkpoint_read(const uint8_t *image, size_t image_length, uint8_t *state, size_t state_length,
                                      uint8_t *memory, size_t memory_length);

/* Whether the page at that address has a nonzero byte. */
static inline int zkir_is_held(const uint8_t *memory, size_t address) {
    return zkir_count(memory + address, ZKIR_PAGE_BYTES, 0) < ZKIR_PAGE_BYTES;
}

/* The bytes of the image of a memory that has whole pages. */
static inline size_t zkir_image_needed(const uint8_t *memory, size_t memory_length) {
    size_t pages = 0;
    for (size_t address = 0; address < memory_length; address += ZKIR_PAGE_BYTES)
        pages += zkir_is_held(memory, address) != 0;
    return ZKIR_IMAGE_BYTES(pages);
}

#ifdef __cplusplus
}
#endif

#endif
