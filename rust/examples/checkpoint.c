/* A host in C that breaks a run off after every ten steps, keeps the machine in a file, and goes on from the file alone,
 * in both modes: it ends as the unbroken run does.
 *
 *     cc -I include examples/checkpoint.c libzkir_run.a libzkir_text.a libzkir_checkpoint.a -o checkpoint && ./checkpoint
 *
 * It prints what examples/checkpoint.rs prints. */
#include <inttypes.h>
#include <stdio.h>
#include <string.h>

#include "zkir.h"

#define FUEL 1000000
#define SITTING 10

/* Puts the sum of 1 to n at the start of page n. What sums leave in R1 and R3 nothing else reads: deferred, it stays in
 * limbs. */
static const char program[] = "Addi R4, R0, 61440\nAddi R5, R0, -1\nagain:\nAddi R1, R1, 1\nAdd R2, R2, R1\nAdd R3, R3, R5\n"
                              "Addi R6, R6, 4096\nSw R6, R2, 0\nBne R6, R4, again\nEbreak\n";

struct machine {
    uint8_t state[ZKIR_STATE_BYTES], memory[ZKIR_MOST_MEMORY_BYTES];
    uint64_t code, steps;
};

static void fresh(struct machine *m) {
    uint64_t labels[ZKIR_LABEL_NUMBERS];
    memset(m, 0, sizeof *m);
    zkir_fresh(m->state, 0);
    zkir_assemble((const uint8_t *)program, strlen(program), m->memory, sizeof m->memory, labels, ZKIR_LABEL_NUMBERS);
}

static void run(struct machine *m, uint64_t fuel, uint64_t mode) {
    uint8_t answer[ZKIR_ANSWER_BYTES];
    m->code = zkir_run(m->state, sizeof m->state, m->memory, sizeof m->memory, answer, sizeof answer, fuel, mode);
    m->steps += zkir_steps(answer);
}

/* Writes the machine's image to the file and returns its length, 0 where that fails. */
static size_t save(const struct machine *m, FILE *file) {
    static uint8_t image[ZKIR_MOST_IMAGE_BYTES];
    struct zkir_told told = zkir_checkpoint_write(m->state, sizeof m->state, m->memory, sizeof m->memory, image, sizeof image);
    rewind(file);
    return fwrite(image, 1, told.length, file) == told.length ? told.length : 0;
}

/* Makes the machine the one whose image the file holds, and returns the code. */
static uint64_t load(struct machine *m, FILE *file, size_t length) {
    static uint8_t image[ZKIR_MOST_IMAGE_BYTES];
    rewind(file);
    length = fread(image, 1, length, file);
    return zkir_checkpoint_read(image, length, m->state, sizeof m->state, m->memory, sizeof m->memory).code;
}

static void print_held(const struct machine *m, size_t length) {
    unsigned limbs = 0;
    printf("  after %" PRIu64 " steps, at pc %" PRIu64 ": %zu pages, %zu bytes, in limbs", m->steps, zkir_pc(m->state),
           (length - ZKIR_IMAGE_BYTES(0)) / (ZKIR_IMAGE_BYTES(1) - ZKIR_IMAGE_BYTES(0)), length);
    for (unsigned n = 0; n < ZKIR_REGISTERS; n++)
        if (zkir_is_accumulated(m->state, n)) {
            printf(" R%u", n);
            limbs++;
        }
    printf("%s\n", limbs == 0 ? " none" : "");
}

/* Each sitting has nothing but the file that the one before it left. Whether every image was saved and loaded. */
static int run_in_sittings(struct machine *m, uint64_t mode, FILE *file) {
    for (fresh(m), run(m, SITTING, mode); m->code == ZKIR_FUEL; run(m, SITTING, mode)) {
        size_t length = save(m, file);
        if (length == 0)
            return 0;
        print_held(m, length);
        memset(m->state, 0xa5, sizeof m->state);
        memset(m->memory, 0xa5, sizeof m->memory);
        if (load(m, file, length) != 0)
            return 0;
    }
    return 1;
}

static void print_summary(const char *mode, const char *how, const struct machine *m) {
    printf("%s, %s: %s: %s; steps %" PRIu64 ", pc %" PRIu64 ", R2 %" PRIu64 ", R3 %" PRIu64 "\n", mode, how,
           m->code == ZKIR_EBREAK ? "ebreak" : "stopped", zkir_words(m->code), m->steps, zkir_pc(m->state),
           zkir_value(m->state, 2), zkir_value(m->state, 3));
}

/* Whether the broken run ends as the unbroken one. */
static int compare(const char *name, uint64_t mode, FILE *file) {
    static struct machine unbroken, resumed;
    fresh(&unbroken);
    run(&unbroken, FUEL, mode);
    print_summary(name, "unbroken", &unbroken);
    printf("%s, broken off after every %d steps:\n", name, SITTING);
    if (!run_in_sittings(&resumed, mode, file))
        return 0;
    print_summary(name, "broken off", &resumed);
    if (memcmp(&unbroken, &resumed, sizeof unbroken) != 0)
        return 0;
    printf("%s: state and memory are the same, byte for byte\n", name);
    return 1;
}

int main(void) {
    FILE *file = tmpfile();
    if (file == NULL)
        return 1;
    return !(compare("plain", ZKIR_PLAIN, file) && compare("deferred", ZKIR_DEFERRED, file));
}
