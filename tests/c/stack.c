/* stack FILE..: gives each call every file, on a stack that was filled with a pattern before, and prints how many bytes of it the call wrote at most. tests/faces
 * holds these to what include/oul.h says. For the machine's own C compiler.
 */
#include "oul.h"

#include <stdio.h>
#include <string.h>
#include <ucontext.h>

enum { STACK = 1 << 19, INPUT = 1 << 20, PATTERN = 0xA5 };

/* mode, sent and control, each with its length */
#define GIVEN (const unsigned char *)"T", 1, (const unsigned char *)"20240401093000", 14, (const unsigned char *)"K", 1

static unsigned char stack[STACK];
static unsigned char input[INPUT];
static unsigned char out[OUL_SHEET_MAX];
static size_t length;
static size_t told[3];
static ucontext_t here, there;

static void nothing(void) {
}

static void check(void) {
    oul_check(input, length, told);
}

static void locate(void) {
    oul_locate(input, length, 2, 5, 2, told);
}

/* a part with a text, one without, and MSH-2 */
static void part_text(void) {
    oul_part_text(input, length, 2, 5, 1, out, sizeof out, told);
    oul_part_text(input, length, 2, 3, 9, out, sizeof out, told);
    oul_part_text(input, length, 1, 2, 1, out, sizeof out, told);
}

static void to_sheet(void) {
    oul_to_sheet(input, length, out, sizeof out, told);
}

static void to_message(void) {
    oul_to_message(input, length, out, sizeof out, told);
}

static void segment(void) {
    oul_segment(input, length, 2, told);
}

static void spot(void) {
    oul_spot(input, length, OUL_BYTES, told);
    oul_spot(input, length, OUL_SEGMENT, told);
    oul_spot(input, length, OUL_SHEET_BYTES, told);
}

static void csv_count(void) {
    oul_csv_count(input, length, told);
}

static void csv_sheet(void) {
    oul_csv_sheet(input, length, 1, GIVEN, out, sizeof out, told);
}

/* at the version line, the heading line and each sheet behind them */
static void csv_next(void) {
    told[2] = 0;
    do
        oul_csv_next(input, length, told[2], GIVEN, out, sizeof out, told);
    while (told[2] < length);
}

static void csv_spot(void) {
    oul_csv_spot(input, length, told);
}

/* the first is what a context takes by itself */
static struct {
    const char *name;
    void (*call)(void);
    size_t most;
} calls[] = {
    {"nothing", nothing, 0},
    {"oul_check", check, 0},
    {"oul_locate", locate, 0},
    {"oul_part_text", part_text, 0},
    {"oul_to_sheet", to_sheet, 0},
    {"oul_to_message", to_message, 0},
    {"oul_segment", segment, 0},
    {"oul_spot", spot, 0},
    {"oul_csv_count", csv_count, 0},
    {"oul_csv_sheet", csv_sheet, 0},
    {"oul_csv_next", csv_next, 0},
    {"oul_csv_spot", csv_spot, 0},
};

enum { CALLS = sizeof calls / sizeof *calls };

/* How many bytes of the stack a call writes. */
static size_t depth(void (*call)(void)) {
    size_t left = 0;
    memset(stack, PATTERN, sizeof stack);
    getcontext(&there);
    there.uc_stack.ss_sp = stack;
    there.uc_stack.ss_size = sizeof stack;
    there.uc_link = &here;
    makecontext(&there, call, 0);
    swapcontext(&here, &there);
    while (left < sizeof stack && stack[left] == PATTERN)
        left++;
    return sizeof stack - left;
}

static int measure(const char *name) {
    FILE *file = fopen(name, "rb");
    if (file == NULL)
        return 0;
    length = fread(input, 1, sizeof input, file);
    fclose(file);
    for (size_t i = 0; i < CALLS; i++) {
        size_t now = depth(calls[i].call);
        if (now > calls[i].most)
            calls[i].most = now;
    }
    return 1;
}

int main(int count, char **names) {
    for (int i = 1; i < count; i++) {
        if (!measure(names[i])) {
            fprintf(stderr, "stack: %s can't be read\n", names[i]);
            return 1;
        }
    }
    for (size_t i = 1; i < CALLS; i++)
        printf("%s %zu\n", calls[i].name, calls[i].most - calls[0].most);
    return 0;
}
