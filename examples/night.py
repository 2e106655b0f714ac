#!/usr/bin/env python3
"""A night in Python: prints the suite of the grammar file that its second argument names, or that standard input has. The first
is the shared library, made of the archive:

    gcc -shared -o libvanchiluk.so -Wl,--whole-archive crates/calls/out/libcalls.a -Wl,--no-whole-archive
    python3 examples/night.py ./libvanchiluk.so decks/deck.packed
"""
import ctypes
import sys

DONE, NEXT, FINISHED, REFUSED = range(4)
MOST_OCTETS, MOST_WORDS, MOST_TABLE, MOST_NUMBERS = 17417, 8707, 896, 4096


class Refused(Exception):
    pass


class Vanchiluk:
    """The five calls. A slice is a ctypes array of c_uint8 or c_uint16; an answer's values come as a list."""

    def __init__(self, path):
        self.library = ctypes.CDLL(path)

    def call(self, name, *slices):
        answer = (ctypes.c_uint64 * 4)()
        lent = [part for one in slices for part in (one, ctypes.c_size_t(len(one)))]
        function = getattr(self.library, 'vanchiluk_' + name)
        function.restype = None
        function(*lent, answer)
        kind, *values = answer
        if kind == REFUSED:
            raise Refused(values[0], values[1])
        return kind, values

    def unpack(self, file, words):
        return self.call('unpack', file, words)[1][0]

    def pack(self, words, file):
        return self.call('pack', words, file)[1][0]

    def tables(self, words, table):
        return self.call('tables', words, table)[1][0]

    def next(self, words, table, marks, sentence, derivation):
        """Target and both lengths, or None where no rule is unused."""
        kind, values = self.call('next', words, table, marks, sentence, derivation)
        return values if kind == NEXT else None

    def replay(self, words, list_, sentence):
        return self.call('replay', words, list_, sentence)[1][0]


def octets(count, content=b''):
    return (ctypes.c_uint8 * count)(*content)


def words_of(count, content=()):
    return (ctypes.c_uint16 * count)(*content)


def suite(vanchiluk, file):
    words = words_of(MOST_WORDS)
    count = vanchiluk.unpack(octets(len(file), file), words)
    words = words_of(count, words[:count])
    table = words_of(MOST_TABLE)
    rules = vanchiluk.tables(words, table) - 5 * words[0]
    yield 'suite', words[0], words[1], rules
    marks, sentence, derivation = octets(rules), words_of(MOST_NUMBERS), words_of(MOST_NUMBERS)
    sentences = 0
    while handed := vanchiluk.next(words, table, marks, sentence, derivation):
        target, tokens, uses = handed
        yield target, tokens, *sentence[:tokens], uses, *derivation[:uses]
        sentences += 1
    yield 'end', sentences


def main():
    if len(sys.argv) > 2:
        with open(sys.argv[2], 'rb') as file:
            content = file.read(MOST_OCTETS + 1)
    else:
        content = sys.stdin.buffer.read(MOST_OCTETS + 1)
    try:
        for line in suite(Vanchiluk(sys.argv[1]), content):
            print(*line)
    except Refused as refused:
        print('refused', *refused.args)


if __name__ == '__main__':
    main()
