/* oul.h: the library for C. Link target/staticlib/liboul_c.a (`bin/build oul_c`), for x86-64 Linux.
 *
 * Every call takes any bytes, always returns, and keeps no pointer. It answers 0, or the number of the one refusal that is met first (enum oul_refusal; docs/USER.md
 * says what to do about each). It always fills told[0] to told[2], which the caller lends:
 *
 *     answer 0     what was asked for, as each call says
 *     a refusal    told[0] the known segment, or the line of a sheet; told[1] the field; told[2] 0, but for oul_csv_next. Each is 0 where none is named.
 *
 * A lent buffer in the sense of demand 1 (docs/DEMANDS.md) is the room bytes at out: a refusal leaves every byte of it. told is no lent buffer but the answer: a
 * refusal writes it, too.
 *
 * A pointer is to as many bytes as the length after it says. A length may be 0; its pointer may then be NULL. What a call is lent to read may overlap nothing that
 * it is lent to write, told among it.
 *
 * The library keeps no state: any number of threads may call it at once. It takes no memory but the stack, so many bytes at most (measured,
 * not proved), beside what memcpy and memset take:
 *
 *     oul_check         2048
 *     oul_locate        2304
 *     oul_part_text     2560
 *     oul_to_sheet      5632
 *     oul_to_message    2048
 *     oul_segment        256
 *     oul_spot           256
 *     oul_csv_count   274432
 *     oul_csv_sheet   278528
 *     oul_csv_next     86016
 *     oul_csv_spot    274432
 *
 * The archive defines these eleven symbols and no others, and asks for memcpy and memset.
 */
#ifndef OUL_H
#define OUL_H

#include <stddef.h>

/* The minor number grows with what is added, the major one with what is changed or taken away. */
#define OUL_VERSION_MAJOR 1
#define OUL_VERSION_MINOR 3

/* The most bytes of a message and of a sheet: buffers that hold any. A file has no limit. */
#define OUL_MESSAGE_MAX 32768
#define OUL_SHEET_MAX 65536

#ifdef __cplusplus
extern "C" {
#endif

/* Why an input is refused. */
enum oul_refusal {
    /* a message */
    OUL_TOO_LONG = 10,       /* longer than OUL_MESSAGE_MAX */
    OUL_HEADER = 11,         /* the first nine bytes are no header; an empty message */
    OUL_BYTES = 12,          /* a byte or a shift; oul_spot tells where */
    OUL_SEGMENT = 13,        /* no final 0D, a segment too long, or a bad name; oul_spot tells where */
    OUL_TOO_MANY = 14,       /* more than 512 segments */
    OUL_ORDER = 15,          /* a segment out of order, or missing at the end */
    OUL_MISSING = 20,        /* required, but empty */
    OUL_NULL = 21,           /* exactly "" */
    OUL_REPEATED = 22,       /* a repetition where one value is read */
    OUL_ESCAPE = 23,         /* a bare subcomponent separator, a bad escape, or a component too many */
    OUL_LONG = 24,           /* a text or a number too long */
    OUL_VALUE = 25,          /* any other rule of a value */
    OUL_STATUS = 26,         /* the value against the status */
    OUL_DIFFERS = 27,        /* ORC-2 differs from OBR-2 */
    /* a part of a message, a sheet of a file */
    OUL_NO_ORDINAL = 30,     /* no known segment, or no sheet, has this ordinal */
    OUL_ZERO = 31,           /* field or component 0 */
    /* a sheet */
    OUL_SHEET_TOO_LONG = 40, /* longer than OUL_SHEET_MAX */
    OUL_SHEET_BYTES = 41,    /* a byte or a shift, or no final 0A; oul_spot tells where */
    OUL_KEY = 42,            /* a wrong or missing key */
    OUL_LINE_VALUE = 43,     /* a line's value breaks its rule */
    OUL_OVERFLOW = 44,       /* the message would pass OUL_MESSAGE_MAX bytes or 512 segments */
    /* a message, a sheet or a text */
    OUL_ROOM = 45,           /* the lent buffer is too short */
    /* a file; oul_csv_spot tells in which line */
    OUL_QUOTING = 50,        /* an item that is not quoted as it must be, or a line that does not end in CR LF */
    OUL_COLUMNS = 51,        /* no version or heading line, a bad column count, or a row with another count */
    OUL_UNCONVERTED = 52,    /* a byte that can't be converted, as half-width kana */
    OUL_HEADER_DIFFERS = 53, /* a patient key or the class differs among the rows of one result number */
    OUL_RETURNS = 54         /* a result number that comes back after another */
};

/* what OUL_LINE_VALUE was called up to version 1.2 */
#define OUL_LINE OUL_LINE_VALUE

/* Checks a message. Answer 0: it keeps every rule; told: the counts of SPM, OBR and OBX. Refusals 10 to 27. */
size_t oul_check(const unsigned char *message, size_t length, size_t told[3]);

/* Finds a component of a field of the known segment with that ordinal; all three count from 1. Answer 0: told: where the part starts in the message, how
 * long it is, and 0. The part is still escaped and lies in the first repetition; an absent one has length 0. The check's refusals first, then 31, then 30. */
size_t oul_locate(const unsigned char *message, size_t length, size_t ordinal, size_t field, size_t component, size_t told[3]);

/* Writes the text of the part that oul_locate finds, without its escapes, into the room bytes at out. Answer 0: told: how many bytes the text has, 0 and 0; the bytes
 * past it stay. The refusals of oul_locate first; then 23, with the ordinal and the field in told, where the part has a bare subcomponent separator or a bad escape: a part
 * that the check does not read may, and MSH-2 always does; then 45 where the room is too short. 4,096 bytes, the most of a segment, hold any text. */
size_t oul_part_text(const unsigned char *message, size_t length, size_t ordinal, size_t field, size_t component, unsigned char *out, size_t room, size_t told[3]);

/* Writes the sheet of a message into the room bytes at out. Answer 0: told: how many bytes the sheet has, 0 and 0; the bytes past it stay. Refusals 10 to 27, then 45
 * where the room is too short; OUL_SHEET_MAX bytes hold any sheet. */
size_t oul_to_sheet(const unsigned char *message, size_t length, unsigned char *out, size_t room, size_t told[3]);

/* Writes the message of a sheet in the same way; OUL_MESSAGE_MAX bytes hold any message. Refusals 40 to 45, with the line in told[0]. */
size_t oul_to_message(const unsigned char *sheet, size_t length, unsigned char *out, size_t room, size_t told[3]);

/* Finds the known segment with that ordinal, which counts from 1, in any bytes, checked or not. Answer 0: told: where it starts, how many bytes it has without its 0D,
 * and 0; its name is its first three bytes. Refusal 30 where there is none. */
size_t oul_segment(const unsigned char *message, size_t length, size_t ordinal, size_t told[3]);

/* Tells where a text breaks the rule of the refusal 12, 13 or 41 that it was given. Answer 0, always; told: the line (a message's segments are its lines, of all names)
 * and the byte, each counted from 1, and 0. Three zeros for any other number, and for a text of more than OUL_SHEET_MAX bytes. The place is
 *     12, 41    the first byte that breaks the byte and shift rule, or behind the last byte where a shift or the final 0A is missing
 *     13        the start of the first segment that is too long or badly named (the text's fourth byte is the field separator), or of the rest that has no 0D */
size_t oul_spot(const unsigned char *text, size_t length, size_t refusal, size_t told[3]);

/* The commercial centre's file (docs/CSV.md): all rows with one result number make a sheet.
 *
 * Counts the sheets of a file. Answer 0: it keeps every rule of a file; told: how many sheets it has, where its first row starts (counted from 0; the file's length
 * where there is no row), and 0. Refusals 50 to 54, which name no place. */
size_t oul_csv_count(const unsigned char *file, size_t length, size_t told[3]);

/* Writes one sheet of a file, counted from 1, into the room bytes at out. Mode, sent and control are the values of those keys, which no column has. Answer 0: told: how
 * many bytes the sheet has, 0 and 0; the bytes past it stay. Such a sheet keeps every rule, so that oul_to_message refuses it with 44 or 45 alone. Refusals 50 to 54, then
 * 30 where there is no such sheet, then 40 to 43 with the line of the sheet in told[0] (41 is a fault of mode, sent or control), then 45; OUL_SHEET_MAX bytes hold any
 * sheet. */
size_t oul_csv_sheet(const unsigned char *file, size_t length, size_t which, const unsigned char *mode, size_t mode_length, const unsigned char *sent,
                     size_t sent_length, const unsigned char *control, size_t control_length, unsigned char *out, size_t room, size_t told[3]);

/* Writes the sheet whose rows start at a place, counted from 0, in the same way. told[2], for a refusal too: the place behind these rows, or the file's length where there
 * are none. So a file that oul_csv_count has counted is gone through once: from its first row on, and from each place behind to the next sheet.
 *
 * It takes any bytes and any place, and looks at nothing else: rows are the lines from there on, as far as they are well quoted and have the number of the first.
 * Refusals 50 where the line at the place is badly quoted, 30 where there is none; 52 and 53 of these rows; then 40 to 43 and 45 as above. */
size_t oul_csv_next(const unsigned char *file, size_t length, size_t at, const unsigned char *mode, size_t mode_length, const unsigned char *sent,
                    size_t sent_length, const unsigned char *control, size_t control_length, unsigned char *out, size_t room, size_t told[3]);

/* Tells in which line a file is refused by 50 to 54. Answer 0, always; told: the line, counted from 1, 0 where the file isn't refused; 0 and 0. CR LF in quotes ends no
 * line; a line that is missing is the one behind the last. */
size_t oul_csv_spot(const unsigned char *file, size_t length, size_t told[3]);

#ifdef __cplusplus
}
#endif

#endif
