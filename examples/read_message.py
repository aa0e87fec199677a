#!/usr/bin/env python3
"""read_message LIBRARY: as read_message.c, from Python: checks the message on standard input and says what it holds, with its sheet, or why it is refused and where.

The library is the archive as a shared one, for x86-64 Linux:

    bin/build oul_c
    cc -shared -Wl,--whole-archive target/staticlib/liboul_c.a -Wl,--no-whole-archive -o liboul.so
    python3 examples/read_message.py ./liboul.so <tests/outside/01-whole-case.msg
"""
import ctypes
import os
import sys

MESSAGE_MAX = 32768
SHEET_MAX = 65536

# PID is the second known segment; its field 3 holds the patient's number, which has at most 20 bytes.
PID, NUMBER, NUMBER_MAX = 2, 3, 20

SIZE = ctypes.c_size_t
TOLD = SIZE * 3
TEXT = [ctypes.c_char_p, SIZE]
CALLS = {
    'oul_check': TEXT + [TOLD],
    'oul_part_text': TEXT + [SIZE, SIZE, SIZE] + TEXT + [TOLD],
    'oul_to_sheet': TEXT + TEXT + [TOLD],
    'oul_segment': TEXT + [SIZE, TOLD],
    'oul_spot': TEXT + [SIZE, TOLD],
}


def load(path):
    """The shared library, with the types that include/oul.h gives the calls."""
    library = ctypes.CDLL(path)
    for name, types in CALLS.items():
        call = getattr(library, name)
        call.argtypes = types
        call.restype = SIZE
    return library


def ask(call, text, *more):
    """The call's answer, and what it told."""
    told = TOLD()
    answer = call(text, len(text), *more, told)
    return answer, list(told)


def refusal_told(library, message, refusal, segment, field):
    words = f'refused with {refusal}'
    _, (line, byte, _) = ask(library.oul_spot, message, refusal)
    if line:
        words += f', line {line}, byte {byte}'
    if segment:
        words += f', segment {segment}'
        none, (start, _, _) = ask(library.oul_segment, message, segment)
        if not none:
            words += f' ({message[start:start + 3].decode()})'
    if field:
        words += f', field {field}'
    return words


def message_told(library, message):
    """What is to be printed, and whether the message is refused."""
    refusal, told = ask(library.oul_check, message)
    if refusal:
        return refusal_told(library, message, refusal, told[0], told[1]).encode() + b'\n', 1
    patient = ctypes.create_string_buffer(NUMBER_MAX)
    _, (bytes_of_patient, _, _) = ask(library.oul_part_text, message, PID, NUMBER, 1, patient, NUMBER_MAX)
    sheet = ctypes.create_string_buffer(SHEET_MAX)
    _, (length, _, _) = ask(library.oul_to_sheet, message, sheet, SHEET_MAX)
    return b'%d specimens, %d orders, %d results of patient %s\n' % (*told, patient.raw[:bytes_of_patient]) + sheet.raw[:length], 0


def read_all(most):
    """Standard input up to so many bytes. What could be read before a read failed is no message."""
    text = b''
    while len(text) < most and (more := os.read(0, most - len(text))):
        text += more
    return text


def write_all(text):
    while text:
        text = text[os.write(1, text):]


def main():
    if len(sys.argv) != 2:
        sys.exit(__doc__)
    library = load(sys.argv[1])
    try:
        place = 'standard input'
        # one byte more than a message may have, so that a longer one is refused with 10
        message = read_all(MESSAGE_MAX + 1)
        words, refused = message_told(library, message)
        place = 'standard output'
        write_all(words)
    except OSError as trouble:
        print(f'read_message: {place}: {trouble.strerror}', file=sys.stderr)
        sys.exit(2)
    sys.exit(refused)


main()
