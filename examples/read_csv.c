/* read_csv: goes through the commercial centre's file on standard input sheet by sheet, and says what the message of each holds, or why it is refused and where.
 *
 *     bin/build oul_c
 *     cc -I include examples/read_csv.c target/staticlib/liboul_c.a -o read_csv        (on x86-64 Linux)
 *     ./read_csv <tests/outside/004-csv-v4-full-width.csv
 */
#include "oul.h"

#include <stdio.h>

/* a limit of this program; the library has none */
enum { FILE_LIMIT = 1 << 22 };

static unsigned char file[FILE_LIMIT + 1];
static size_t length;

static unsigned char sheet[OUL_SHEET_MAX];
static unsigned char message[OUL_MESSAGE_MAX];

/* Writes the sheet that starts at a place. No column has its mode, its sent and its control, which is K and the sheet's number. */
static size_t make_sheet(size_t at, size_t number, size_t told[3]) {
    char control[24];
    int digits = snprintf(control, sizeof control, "K%zu", number);
    return oul_csv_next(file, length, at, (const unsigned char *)"T", 1, (const unsigned char *)"20240401093000", 14, (const unsigned char *)control,
                        (size_t)digits, sheet, sizeof sheet, told);
}

/* Goes on to the place behind the sheet. Whether the sheet is refused. */
static int tell_sheet(size_t *at, size_t number) {
    size_t told[3];
    size_t refusal = make_sheet(*at, number, told);
    *at = told[2];
    if (refusal == 0)
        refusal = oul_to_message(sheet, told[0], message, sizeof message, told);
    if (refusal != 0) {
        printf("sheet %zu: refused with %zu, line %zu\n", number, refusal, told[0]);
        return 1;
    }
    oul_check(message, told[0], told);
    printf("sheet %zu: %zu specimens, %zu orders, %zu results\n", number, told[0], told[1], told[2]);
    return 0;
}

/* Whether the file or a sheet is refused. */
static int tell_file(void) {
    size_t told[3];
    size_t refusal = oul_csv_count(file, length, told);
    if (refusal != 0) {
        oul_csv_spot(file, length, told);
        printf("refused with %zu, line %zu\n", refusal, told[0]);
        return 1;
    }
    size_t count = told[0], at = told[1];
    int refused = 0;
    for (size_t number = 1; number <= count; number++)
        refused |= tell_sheet(&at, number);
    return refused;
}

static int fail(const char *words) {
    perror(words);
    return 2;
}

int main(void) {
    length = fread(file, 1, sizeof file, stdin);
    if (ferror(stdin))
        return fail("read_csv: standard input");
    if (length > FILE_LIMIT) {
        fprintf(stderr, "read_csv: the file has more than 4,194,304 bytes\n");
        return 2;
    }
    int refused = tell_file();
    if (fflush(stdout) != 0 || ferror(stdout))
        return fail("read_csv: standard output");
    return refused;
}
