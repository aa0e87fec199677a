/* read_message: checks the message on standard input and says what it holds, with its sheet, or why it is refused and where.
 *
 *     bin/build oul_c
 *     cc -I include examples/read_message.c target/staticlib/liboul_c.a -o read_message        (on x86-64 Linux)
 *     ./read_message <tests/outside/01-whole-case.msg
 */
#include "oul.h"

#include <stdio.h>

/* one byte more than a message may have, so that a longer one is refused with OUL_TOO_LONG */
static unsigned char message[OUL_MESSAGE_MAX + 1];
static size_t length;

static unsigned char sheet[OUL_SHEET_MAX];

/* PID is the second known segment; its field 3 holds the patient's number, which has at most 20 bytes. */
enum { PID = 2, NUMBER = 3, NUMBER_MAX = 20 };

static unsigned char number[NUMBER_MAX];

/* The segment with its name, where there is one with that ordinal. */
static void tell_segment(size_t ordinal) {
    size_t told[3];
    printf(", segment %zu", ordinal);
    if (oul_segment(message, length, ordinal, told) == 0)
        printf(" (%.3s)", (const char *)message + told[0]);
}

static void tell_refusal(size_t refusal, size_t segment, size_t field) {
    size_t told[3];
    printf("refused with %zu", refusal);
    oul_spot(message, length, refusal, told);
    if (told[0] != 0)
        printf(", line %zu, byte %zu", told[0], told[1]);
    if (segment != 0)
        tell_segment(segment);
    if (field != 0)
        printf(", field %zu", field);
    printf("\n");
}

/* Whether the message is refused. */
static int tell_message(void) {
    size_t told[3];
    size_t refusal = oul_check(message, length, told);
    if (refusal != 0) {
        tell_refusal(refusal, told[0], told[1]);
        return 1;
    }
    printf("%zu specimens, %zu orders, %zu results", told[0], told[1], told[2]);
    oul_part_text(message, length, PID, NUMBER, 1, number, sizeof number, told);
    printf(" of patient %.*s\n", (int)told[0], (const char *)number);
    oul_to_sheet(message, length, sheet, sizeof sheet, told);
    fwrite(sheet, 1, told[0], stdout);
    return 0;
}

static int fail(const char *words) {
    perror(words);
    return 2;
}

/* What could be read of a message before a read failed is no message. */
int main(void) {
    length = fread(message, 1, sizeof message, stdin);
    if (ferror(stdin))
        return fail("read_message: standard input");
    int refused = tell_message();
    if (fflush(stdout) != 0 || ferror(stdout))
        return fail("read_message: standard output");
    return refused;
}
