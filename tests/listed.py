"""The listed cases, the built programs that tests ask, and the count of what passed."""
import os
import subprocess
import sys
import typing

TESTS = os.path.dirname(os.path.abspath(__file__))
TOP = os.path.dirname(TESTS)
RUN = os.path.join(TOP, 'bin', 'run')
held = []


def octets(text):
    """The bytes of a text in hexadecimal: pieces joined by +, with *N behind one that is repeated; - is no byte at all."""
    pieces = (piece.partition('*') for piece in text.split('+'))
    return b'' if text == '-' else b''.join(bytes.fromhex(piece) * int(times or 1) for piece, _, times in pieces)


class Case(typing.NamedTuple):
    call: str
    given: bytes
    numbers: list  # further arguments, as they stand: a fetch has three, the text of a part these and the room of the lent buffer, a conversion the room
    answer: list   # its words: 'ok' and what is given, or 'refused' and three numbers

    @property
    def refused(self):
        return self.answer[0] == 'refused'

    @property
    def text(self):
        """What a fetch, the text of a part or a conversion gives."""
        return octets(''.join(self.answer[1:]))


def rows(name):
    """The columns of each line that is no comment."""
    with open(os.path.join(TESTS, name)) as lines:
        return [line.rstrip('\n').split('\t') for line in lines if not line.startswith('#')]


def cases(name):
    """The cases of tests/cases.tsv or tests/edges.tsv."""
    return [Case(call, bytes.fromhex(given), rest[:-1], rest[-1].split()) for call, given, *rest in rows(name)]


def requests(name):
    """The cases of a list of tests/requests, by their names. A pair is given as its two bytes, and its answer is one word."""
    found = {}
    for case, _, call, *arguments, answer in rows(f'requests/{name}'):
        given, *further = [''.join(arguments)] if call == 'pair' else arguments
        found[case] = Case(call, octets(given), further, answer.split())
    return found


def read(*path):
    """The bytes of a file of the repository."""
    with open(os.path.join(TOP, *path), 'rb') as file:
        return file.read()


def message(name):
    """A message or a file of tests/outside."""
    return read('tests', 'outside', name)


def outside():
    """The check of each message of tests/outside."""
    return [Case('check', message(name), [], answer.replace('accepted', 'ok').split()) for name, _, _, answer, *_ in rows('outside/index.tsv')]


def files():
    """The count of each of the commercial centre's files of tests/outside, by their names, with the line where it is refused."""
    return {name: (Case('csv_count', message(name), [], answer.split()), int(line)) for name, _, _, answer, line, _ in rows('outside/csv.tsv')}


def words(program):
    """The arguments that a program has beside its `stdin` and `stdout` in crates."""
    path = os.path.join(TOP, 'crates', program, 'args')
    return read(path).decode().splitlines() if os.path.exists(path) else []


def need(*programs, builder='bin/build'):
    """Ends the test with a line where a program is not built."""
    for name in programs:
        if not os.path.exists(os.path.join(TOP, 'target', 'bin', name)):
            sys.exit(f'{name} is not built: {builder} builds it')


def run(program, given, *arguments):
    """A built program's run: its exit status, and what stands on standard output and standard error."""
    words = [word if isinstance(word, bytes) else str(word) for word in arguments]
    return subprocess.run([RUN, program, *words], input=given, capture_output=True)


def hold(what, said, expected):
    """A test: what is said is what is expected."""
    held.append(said == expected)
    if said != expected:
        print(f'{what}: {said!r:.500} and not {expected!r:.500}')


def finish():
    """The last line of a test."""
    failed = held.count(False)
    print(f'{len(held) - failed} passed, {failed} failed')
    sys.exit(1 if failed else 0)
