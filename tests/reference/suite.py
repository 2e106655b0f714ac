#!/usr/bin/env python3
"""A reference for the suite program, written from document 01 alone: what it prints for the octets of its standard input.

    suite.py < FILE

Words are read and tables worked out by tables.py beside it, and trees built and listed by handout.py.
"""
import sys

from handout import Grammar, its_table, sentence_and_derivation
from tables import Refused

MOST_READ = 17418
MOST_OCTETS = 17414


def packed(words):
    """The file: version octet 1, the number of octets that follow, then each word, high octet first."""
    octets = b"".join(word.to_bytes(2, "big") for word in words)
    return b"\x01" + len(octets).to_bytes(2, "big") + octets


def unpacked(file):
    """The words of a file; or Refused 1 or 2."""
    if len(file) == 0 or file[0] != 1:
        raise Refused(1, 0)
    if len(file) < 3:
        raise Refused(2, 1)
    said = file[1] * 256 + file[2]
    if said % 2 == 1 or said > MOST_OCTETS or said != len(file) - 3:
        raise Refused(2, 1)
    return [file[i] * 256 + file[i + 1] for i in range(3, len(file), 2)]


class Night:
    """The sentences of a grammar from clear marks until every rule is used, as (target, sentence, derivation)."""

    def __init__(self, words):
        table = its_table(words)
        grammar = Grammar(words, table)
        self.rules = grammar.rules
        self.totals = table[5 * grammar.n:]
        self.sentences = []
        used = set()
        for target in range(len(self.rules)):
            if target not in used:
                sentence, derivation = sentence_and_derivation(grammar.tree(target))
                used.update(derivation)
                self.sentences.append((target, sentence, derivation))


def lines(file):
    """The lines that the program prints, for its whole input."""
    try:
        words = unpacked(file[:MOST_READ])
        night = Night(words)
    except Refused as refused:
        yield "refused", *refused.args
        return
    yield "suite", words[0], words[1], len(night.rules)
    for target, sentence, derivation in night.sentences:
        yield target, len(sentence), *sentence, len(derivation), *derivation
    yield "end", len(night.sentences)


def printed(file):
    """What the program prints, octet by octet."""
    return "".join(" ".join(map(str, items)) + "\n" for items in lines(file)).encode()


if __name__ == "__main__":
    sys.stdout.buffer.write(printed(sys.stdin.buffer.read()))
