/* Calls zkir_assemble and zkir_print with right and with damaged arguments, and compares all that is lent with what it must be. */
#include "check.h"
#include "zkir.h"

#define ROOM 64 /* of each buffer: what lies behind the part that is written must stay as it was */
#define FILL 0xa5

static size_t length_of(const char *text) {
    size_t length = 0;
    while (text[length] != 0)
        length++;
    return length;
}

static const uint8_t *bytes_of(const char *text) { return (const uint8_t *)text; }

/* The written bytes, then the fill. */
static int holds(const uint8_t *bytes, const uint8_t *written, size_t length) {
    int same = 1;
    for (size_t i = 0; i < ROOM; i++)
        same = same && bytes[i] == (i < length ? written[i] : FILL);
    return same;
}

static void told_is(const char *name, struct zkir_told told, uint64_t code, uint64_t particular, uint64_t length) {
    check(told.code == code, name, "code");
    check(told.particular == particular, name, "particular");
    check(told.length == length, name, "length");
}

/* Assembles into so many bytes, with room of so many numbers for labels; `words` are those that must be written. */
static void assembles(const char *text, size_t words_length, size_t labels_length, uint64_t code, uint64_t particular,
                      const uint8_t *words, size_t length) {
    uint8_t written[ROOM];
    uint64_t labels[ROOM];
    int cleared = 1;
    for (int i = 0; i < ROOM; i++)
        written[i] = labels[i] = FILL;
    told_is(text, zkir_assemble(bytes_of(text), length_of(text), written, words_length, labels, labels_length), code,
            particular, length);
    for (size_t i = 0; i < ROOM; i++)
        cleared = cleared && labels[i] == (i < labels_length ? 0 : FILL);
    check(holds(written, words, length), text, "words");
    check(cleared, text, "labels");
}

static void refuses(const char *text, size_t words_length, size_t labels_length, uint64_t code, uint64_t particular) {
    assembles(text, words_length, labels_length, code, particular, bytes_of(""), 0);
}

static void texts(void) {
    static const uint8_t words[] = {0x89, 0x80, 0xff, 0xff, 0x2f, 0xe0, 0xff, 0xff, 0x32, 0, 0, 0};
    const char *text = "again:\nAddi R1, R0, -1\n Jal R0, again \r\nend :\nEbreak";
    assembles(text, 12, 6, 0, 0, words, 12);
    assembles(text, ROOM, ROOM, 0, 0, words, 12);
    assembles(text, zkir_words_needed(bytes_of(text), length_of(text)), zkir_labels_needed(bytes_of(text), length_of(text)), 0,
              0, words, 12);
    assembles("", 0, 0, 0, 0, words, 0);
    assembles("\n\n", 0, 0, 0, 0, words, 0);
    refuses(text, 11, 6, ZKIR_MALFORMED, 0);
    refuses(text, 0, 6, ZKIR_MALFORMED, 0);
    refuses(text, 12, 5, ZKIR_MALFORMED, 0);
    refuses(text, 12, 0, ZKIR_MALFORMED, 0);
}

static void bad_lines(void) {
    refuses("Ebreak\nAddi R1, R0\nAddi", ROOM, 0, ZKIR_BAD_LINE, 2);
    refuses("Ebreak\nEbreak\n\tEbreak", 0, 0, ZKIR_BAD_LINE, 3);
    refuses("a:\nb:\na:\n", 0, 9, ZKIR_BAD_LINE, 3);
    refuses("a:\nb:\na:\n", 0, 8, ZKIR_MALFORMED, 0);
    refuses("Jal R0, nowhere", ROOM, 0, ZKIR_BAD_LINE, 1);
    refuses("Slli R1, R1, 64", ROOM, 0, ZKIR_BAD_LINE, 1);
    refuses("Ebreak\r", ROOM, 0, ZKIR_BAD_LINE, 1);
}

static void prints(const char *name, const uint8_t *words, size_t words_length, size_t text_length, uint64_t code,
                   uint64_t particular, const char *text) {
    uint8_t written[ROOM];
    for (int i = 0; i < ROOM; i++)
        written[i] = FILL;
    told_is(name, zkir_print(words, words_length, written, text_length), code, particular, length_of(text));
    check(holds(written, bytes_of(text), length_of(text)), name, "text");
}

static void words(void) {
    static const uint8_t three[] = {0x89, 0xff, 0, 0x80, 0xaf, 0xe7, 0xff, 0xff, 0x32, 0, 0, 0};
    static const uint8_t bad[] = {0x32, 0, 0, 0, 0xb2, 0, 0, 0, 0x33, 0, 0, 0};
    const char *text = "Addi R15, R15, -65535\nJal R15, -4\nEbreak\n";
    prints("three words", three, 12, length_of(text), 0, 0, text);
    prints("three words, much room", three, 12, ROOM, 0, 0, text);
    prints("one word", three, 4, ZKIR_PRINTED_BYTES, 0, 0, "Addi R15, R15, -65535\n");
    prints("no word", three, 0, 0, 0, 0, "");
    prints("too little room", three, 12, length_of(text) - 1, ZKIR_MALFORMED, 0, "");
    prints("eleven bytes", three, 11, ROOM, ZKIR_MALFORMED, 0, "");
    prints("eleven bad bytes", bad, 11, ROOM, ZKIR_MALFORMED, 0, "");
    prints("unused bits", bad, 12, 0, ZKIR_UNUSED_BITS, 0xb2, "");
    prints("no opcode", bad + 8, 4, ROOM, ZKIR_BAD_OPCODE, 0x33, "");
}

int main(void) {
    texts();
    bad_lines();
    words();
    return report();
}
