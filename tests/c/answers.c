/* answers: reads cases from standard input and writes the library's answers to standard output, by way of include/oul.h. tests/compare holds them against the
 * independent Rust program.
 *
 * A case is seven numbers of eight bytes, the lowest byte first, and the input: the call (0 check, 1 locate, 2 part_text, 3 to_sheet, 4 to_message, 5 segment, 6 spot,
 * 7 csv_count, 8 csv_sheet, 9 csv_next, 10 csv_spot), three numbers (locate, part_text: ordinal, field, component; segment: ordinal, 0, 0; spot: the refusal, 0, 0;
 * csv_sheet: which sheet, 0, 0; csv_next: the place, 0, 0; else 0, 0, 0), the room of the lent buffer (0 where none is lent), the salt of what the buffer holds before,
 * and the length of the input. Behind the input of csv_sheet and csv_next stand the lengths of mode, sent and control, as such numbers, and then the three. An answer is
 * four such numbers, what the call returned and told, and for a call that writes the lent buffer, with GUARD bytes behind it. Where there is no input, no text or no
 * room the call is given NULL.
 */
#include "oul.h"

#include <stdio.h>
#include <string.h>

enum { CHECK, LOCATE, PART_TEXT, TO_SHEET, TO_MESSAGE, SEGMENT, SPOT, CSV_COUNT, CSV_SHEET, CSV_NEXT, CSV_SPOT };
enum { MODE, SENT, CONTROL, TEXTS };
enum { INPUT = 1 << 20, TEXT = 1 << 17, ROOM = 1 << 17, GUARD = 16 };

/* what stands in told before a call: no call leaves it */
static const size_t UNTOLD = (size_t)-1;

static unsigned char input[INPUT];
static unsigned char texts[TEXTS][TEXT];
static size_t lengths[TEXTS];
static unsigned char buffer[ROOM + GUARD];
static unsigned char before[256 + ROOM + GUARD];

struct ask {
    size_t call, one, two, three, room, salt, length;
};

/* What a buffer holds before a call: the byte i is 7 times (i + salt). */
static void prepare(void) {
    for (size_t i = 0; i < sizeof before; i++)
        before[i] = (unsigned char)(7 * i);
}

/* Fills the buffer; how many bytes of it are shown. */
static size_t lend(const struct ask *a) {
    memcpy(buffer, before + a->salt, a->room + GUARD);
    return a->room + GUARD;
}

static int has_texts(const struct ask *a) {
    return a->call == CSV_SHEET || a->call == CSV_NEXT;
}

static int writes(const struct ask *a) {
    return a->call == PART_TEXT || a->call == TO_SHEET || a->call == TO_MESSAGE || has_texts(a);
}

static int read_texts(void) {
    if (fread(lengths, sizeof lengths, 1, stdin) != 1)
        return 0;
    for (int i = 0; i < TEXTS; i++) {
        if (lengths[i] > TEXT || fread(texts[i], 1, lengths[i], stdin) != lengths[i])
            return 0;
    }
    return 1;
}

static const unsigned char *text(int i) {
    return lengths[i] ? texts[i] : NULL;
}

/* mode, sent and control, each with its length */
#define GIVEN text(MODE), lengths[MODE], text(SENT), lengths[SENT], text(CONTROL), lengths[CONTROL]

static int answer(const struct ask *a) {
    size_t said[4] = {UNTOLD, UNTOLD, UNTOLD, UNTOLD};
    size_t lent = writes(a) ? lend(a) : 0;
    const unsigned char *from = a->length ? input : NULL;
    unsigned char *out = a->room ? buffer : NULL;
    switch (a->call) {
    case CHECK:
        said[0] = oul_check(from, a->length, said + 1);
        break;
    case LOCATE:
        said[0] = oul_locate(from, a->length, a->one, a->two, a->three, said + 1);
        break;
    case PART_TEXT:
        said[0] = oul_part_text(from, a->length, a->one, a->two, a->three, out, a->room, said + 1);
        break;
    case TO_SHEET:
        said[0] = oul_to_sheet(from, a->length, out, a->room, said + 1);
        break;
    case TO_MESSAGE:
        said[0] = oul_to_message(from, a->length, out, a->room, said + 1);
        break;
    case SEGMENT:
        said[0] = oul_segment(from, a->length, a->one, said + 1);
        break;
    case SPOT:
        said[0] = oul_spot(from, a->length, a->one, said + 1);
        break;
    case CSV_COUNT:
        said[0] = oul_csv_count(from, a->length, said + 1);
        break;
    case CSV_SHEET:
        said[0] = oul_csv_sheet(from, a->length, a->one, GIVEN, out, a->room, said + 1);
        break;
    case CSV_NEXT:
        said[0] = oul_csv_next(from, a->length, a->one, GIVEN, out, a->room, said + 1);
        break;
    case CSV_SPOT:
        said[0] = oul_csv_spot(from, a->length, said + 1);
        break;
    default:
        return 0;
    }
    return fwrite(said, sizeof said, 1, stdout) == 1 && fwrite(buffer, 1, lent, stdout) == lent && fflush(stdout) == 0;
}

int main(void) {
    struct ask a;
    prepare();
    while (fread(&a, sizeof a, 1, stdin) == 1) {
        int good = a.length <= INPUT && a.salt <= 255 && a.room <= ROOM;
        if (!good || fread(input, 1, a.length, stdin) != a.length || (has_texts(&a) && !read_texts()) || !answer(&a)) {
            fprintf(stderr, "answers: no case\n");
            return 1;
        }
    }
    return 0;
}
