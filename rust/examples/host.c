/* A host in C: runs a zkIR program in both modes, serves its Ecalls, and prints how it ended and its registers.
 *
 *     cc -I include examples/host.c libzkir_run.a -o host && ./host [FILE]
 *
 * FILE holds the program's bytes, at most 65,536, which become the start of that much memory. Without one it is a program that
 * asks for the double of 21. An Ecall doubles R1. */
#include <inttypes.h>
#include <stdio.h>
#include <string.h>

#include "zkir.h"

#define MEMORY_BYTES 65536
#define FUEL 1000000

/* Addi R1,R0,21; Ecall; Addi R2,R1,-1; Ebreak */
static const uint8_t program[] = {0x89, 0x80, 0x0a, 0x00, 0x31, 0, 0, 0, 0x09, 0x89, 0xff, 0xff, 0x32, 0, 0, 0};

static int load(const char *path, uint8_t *memory) {
    memset(memory, 0, MEMORY_BYTES);
    if (path == NULL) {
        memcpy(memory, program, sizeof program);
        return 1;
    }
    FILE *file = fopen(path, "rb");
    if (file == NULL) {
        perror(path);
        return 0;
    }
    size_t length = fread(memory, 1, MEMORY_BYTES, file);
    int is_whole = length < MEMORY_BYTES || fgetc(file) == EOF;
    fclose(file);
    if (!is_whole)
        fprintf(stderr, "%s: longer than %d bytes, which is all of memory\n", path, MEMORY_BYTES);
    return is_whole;
}

/* Runs until the program stops other than for an Ecall, and returns the code. */
static uint64_t serve(uint8_t *state, uint8_t *memory, uint8_t *answer, uint64_t *steps, uint64_t mode) {
    uint64_t code;
    *steps = 0;
    do {
        code = zkir_run(state, ZKIR_STATE_BYTES, memory, MEMORY_BYTES, answer, ZKIR_ANSWER_BYTES, FUEL - *steps, mode);
        *steps += zkir_steps(answer);
        if (code == ZKIR_ECALL)
            zkir_set_value(state, 1, 2 * zkir_value(state, 1));
    } while (code == ZKIR_ECALL);
    return code;
}

static void print_registers(const uint8_t *state) {
    for (unsigned n = 0; n < ZKIR_REGISTERS; n++)
        if (zkir_value(state, n) != 0)
            printf("R%u %" PRIu64 "%s\n", n, zkir_value(state, n), zkir_is_accumulated(state, n) ? " in limbs" : "");
}

int main(int count, char **words) {
    static uint8_t state[ZKIR_STATE_BYTES], memory[MEMORY_BYTES], answer[ZKIR_ANSWER_BYTES];
    for (uint64_t mode = ZKIR_PLAIN; mode <= ZKIR_DEFERRED; mode++) {
        uint64_t code, steps;
        if (!load(count > 1 ? words[1] : NULL, memory))
            return 1;
        zkir_fresh(state, 0);
        code = serve(state, memory, answer, &steps, mode);
        printf("%s: %s; particular %" PRIu64 ", steps %" PRIu64 ", pc %" PRIu64 "\n",
               mode == ZKIR_PLAIN ? "plain" : "deferred", zkir_words(code), zkir_particular(answer), steps, zkir_pc(state));
        print_registers(state);
    }
    return 0;
}
