#!/usr/bin/env python3
"""A reference for the calls `next` and `replay`, written from document 01 alone, and the cases that crate handout_runs runs.

    handout.py stdin     the cases, as handout_runs reads them
    handout.py stdout    what handout_runs must print of them

Trees are built as the document defines the tree of a rule, and listed as it defines listings. A list is replayed by rewriting
a list of symbols. Words are read, and tables worked out, by tables.py beside it. Nothing is done for speed.

A case is a line. WORDS, LIST, TABLE and MARKS are numbers, and N*W stands for N times W.

    replay THOUSANDS ROOM, NAME : WORDS = LIST            the sentence buffer has 1000 * THOUSANDS + ROOM words
    next TOKENS RULES, NAME : WORDS = TABLE ; MARKS       the sentence buffer has TOKENS words, the derivation buffer RULES
    whole night, NAME : WORDS                             next again and again, from clear marks, with the table of `tables`

The answers are

    replay .. : done LISTED kept            or    refused NUMBER PLACE kept
    next .. : next TARGET LISTED LISTED kept, marks MARKS    or    finished kept, ..    or    refused NUMBER PLACE kept, ..
    whole night, NAME : and after it a line TARGET LISTED LISTED again for each sentence, and at the end finished or
        refused NUMBER PLACE, the number of sentences, and how many of 256 marks are then 1

LISTED is the length of a sentence or a derivation and then its numbers, or, where there are more than 40, `sum` and what they
are as digits to the base 31, modulo 1,000,003. `kept` says that what lies past the written lengths, or all of both buffers where
nothing is written, has its old content. `again` says that the replay of the derivation gives the same sentence.
"""
import functools
import sys

from tables import (D, Refused, chain, doubled, doublings, drawn, fullest, grammar, many_of, print_asked, read, shuffled, spelled,
                    sum_of, table_of, wrapping)

MOST_NUMBERS = 4096
MOST_RULES = 256
UNBOUNDED = 10 ** 9


# ---------------------------------------------------------------- the reference

@functools.cache
def table_of_words(words):
    return table_of(list(words), UNBOUNDED)


def its_table(words):
    """The grammar's table, in as much room as it needs; or Refused 4, 5, 6 or 7. A night asks for it again and again."""
    return table_of_words(tuple(words))


class Grammar:
    """What the words and the table say, by the document's names. A tree is a rule's number and its symbols' trees; the tree of
    a terminal is the terminal."""

    def __init__(self, words, table):
        self.n, self.start, self.rules = read(words)
        self.chosen = table[1:5 * self.n:5]
        self.context_rule = table[3:5 * self.n:5]
        self.place = table[4:5 * self.n:5]

    def opened(self, symbol):
        """The tree of a symbol that is opened by chosen rules."""
        return self.of_rule(self.chosen[symbol]) if symbol < self.n else Token(symbol)

    def of_rule(self, number):
        return Use(number, [self.opened(symbol) for symbol in self.rules[number][1]])

    def tree(self, number):
        """The tree of a rule: it follows the context choices from the start to the rule's left side, puts the rule there, and
        opens every other nonterminal by its chosen rule."""
        tree = self.of_rule(number)
        leaf = self.rules[number][0]
        while leaf != self.start:
            above, place = self.context_rule[leaf], self.place[leaf]
            leaf, symbols = self.rules[above]
            tree = Use(above, [tree if i == place else self.opened(symbol) for i, symbol in enumerate(symbols)])
        return tree


class Token:
    def __init__(self, number):
        self.number = number

    def listing(self):
        """A terminal's listing is itself."""
        return [self]


class Use:
    def __init__(self, number, symbols):
        self.number = number
        self.symbols = symbols

    def listing(self):
        """A rule's listing is its number, then its symbols' listings in order."""
        return [self] + [item for symbol in self.symbols for item in symbol.listing()]


def sentence_and_derivation(tree):
    """The terminals in the order of the listing, and the rule numbers."""
    listed = tree.listing()
    return [item.number for item in listed if isinstance(item, Token)], [item.number for item in listed if isinstance(item, Use)]


def next_of(words, table, marks, tokens, rules):
    """The target, its sentence and derivation, and the marks afterwards; or None and the marks, where it is Finished; or
    Refused. The buffers have so many tokens and rules."""
    its = its_table(words)
    if table[:len(its)] != its:
        raise Refused(8, 0)
    count = len(read(words)[2])
    if len(marks) < count:
        raise Refused(9, count)
    unused = [rule for rule in range(count) if marks[rule] == 0]
    if not unused:
        return None, marks
    sentence, derivation = sentence_and_derivation(Grammar(words, table).tree(unused[0]))
    if tokens < len(sentence):
        raise Refused(3, len(sentence))
    if rules < len(derivation):
        raise Refused(10, len(derivation))
    after = [1 if mark == 0 and rule in derivation else mark for rule, mark in enumerate(marks)]
    return (unused[0], sentence, derivation), after


def replay_of(words, numbers, room):
    """The sentence of a leftmost derivation; or Refused."""
    n, start, rules = read(words)
    if len(numbers) > MOST_NUMBERS:
        raise Refused(12, MOST_NUMBERS)
    form = [start]
    for place, number in enumerate(numbers):
        leftmost = next((i for i, symbol in enumerate(form) if symbol < n), None)
        if leftmost is None or number >= len(rules) or rules[number][0] != form[leftmost]:
            raise Refused(11, place)
        form[leftmost:leftmost + 1] = rules[number][1]
    if any(symbol < n for symbol in form):
        raise Refused(11, len(numbers))
    if room < len(form):
        raise Refused(3, len(form))
    return form


# ---------------------------------------------------------------- cases

def derivation_of(words, rule=0):
    """The derivation of a rule's tree, by the table of the words."""
    return sentence_and_derivation(Grammar(words, its_table(words)).tree(rule))[1]


def doubling_list(top):
    """The leftmost derivation from X(top), whose rule is rule 0, down to X0, whose rule is rule top."""
    return [0] if top == 0 else [0] + 2 * [number + 1 for number in doubling_list(top - 1)]


LEFT = grammar(1, 1, 0, [(0, [0, 1]), (0, [])])
RIGHT = grammar(1, 1, 0, [(0, [1, 0]), (0, [])])
WIDE = grammar(1, 1, 0, [(0, [0] + [1] * 31), (0, [1] * 32)])
MIDDLE = grammar(1, 2, 0, [(0, [1, 0, 2]), (0, [])])
# S gives A B, A gives token 3, B gives token 4
PAIR = grammar(3, 2, 0, [(0, [1, 2]), (1, [3]), (2, [4])])
# S gives S S, a token, nothing
AMBIGUOUS = grammar(1, 1, 0, [(0, [0, 0]), (0, [1]), (0, [])])
SUM = sum_of([10, 8, 6, 4, 2, 1], 3)
NO_RULES = [1, 0, 0]
TREELESS = grammar(2, 1, 0, [(0, [2]), (0, [1])])
UNREACHED = grammar(2, 1, 0, [(0, [2]), (1, [2, 2])])


def replays():
    """Name, words, list and room."""
    # document 01, "Sample grammars"
    yield 'D', D, [0, 2, 4], 10
    yield 'D, ends early', D, [0, 2], 10
    yield 'D, 3 after the sentence is complete', D, [0, 3, 3], 10
    yield 'D, empty list', D, [], 10
    yield 'D, longer', D, [1, 2, 5, 1, 3, 0, 2, 4], 10
    yield 'one empty rule', [1, 0, 0, 0, 0], [0], 10
    yield 'S gives S, S gives a', [1, 1, 0, 0, 1, 0, 0, 1, 1], [0, 1], 10
    yield 'S gives S three times', [1, 1, 0, 0, 1, 0, 0, 1, 1], [0, 0, 0, 1], 10

    # 3: the room is exact, one less, none, more
    yield 'exact room', D, [1, 2, 5, 1, 3, 0, 2, 4], 6
    yield 'one short', D, [1, 2, 5, 1, 3, 0, 2, 4], 5
    yield 'room for one', D, [1, 2, 5, 1, 3, 0, 2, 4], 1
    yield 'no room', D, [1, 2, 5, 1, 3, 0, 2, 4], 0
    yield 'one more', D, [1, 2, 5, 1, 3, 0, 2, 4], 7
    yield 'empty sentence, no room', [1, 0, 0, 0, 0], [0], 0
    yield 'one token, no room', D, [0, 2, 4], 0
    yield 'one token, exact room', D, [0, 2, 4], 1

    # 11
    yield 'number is R', D, [6], 10
    yield 'number is R, later', D, [0, 2, 6], 10
    yield 'number is 256', D, [0, 256, 4], 10
    yield 'number is 65535', D, [65535], 10
    yield 'number is 65534', D, [0, 65534], 10
    yield 'first number of another nonterminal', D, [2, 4], 10
    yield 'second number of another nonterminal', D, [0, 0], 10
    yield 'R after the sentence is complete', D, [0, 3, 6], 10
    yield 'one number only', D, [1], 10
    yield 'ends early before the last nonterminal', D, [1, 3, 0], 10
    yield 'ends early after a token', D, [1, 3], 10
    yield 'leftmost', PAIR, [0, 1, 2], 10
    yield 'rightmost, not leftmost', PAIR, [0, 2, 1], 10
    yield 'rightmost of D, not leftmost', D, [1, 0, 3, 3], 10
    yield 'no rules, empty list', NO_RULES, [], 10
    yield 'no rules, a number', NO_RULES, [0], 10
    yield 'ambiguous, left branch', AMBIGUOUS, [0, 0, 1, 2, 1], 10
    yield 'ambiguous, right branch', AMBIGUOUS, [0, 1, 0, 2, 1], 10
    yield 'ambiguous, one too many', AMBIGUOUS, [0, 1, 0, 2, 1, 2], 10
    yield 'ambiguous, one too few', AMBIGUOUS, [0, 1, 0, 2], 10
    yield 'equal rules, the first', grammar(1, 1, 0, [(0, [1]), (0, [1])]), [0], 10
    yield 'equal rules, the second', grammar(1, 1, 0, [(0, [1]), (0, [1])]), [1], 10
    yield 'start is 1', grammar(2, 1, 1, [(0, [2]), (1, [0, 0])]), [1, 0, 0], 10
    yield 'start is 1, its rule second', grammar(2, 1, 1, [(0, [2]), (1, [0, 0])]), [0, 1, 0], 10

    # 12, and lists as long as may be
    yield '4,096 numbers nested on the left', LEFT, [0] * 4095 + [1], 4095
    yield '4,096 numbers nested on the right', RIGHT, [0] * 4095 + [1], 4095
    yield '4,096 numbers nested in the middle', MIDDLE, [0] * 4095 + [1], 8190
    yield '4,096 numbers nested in the middle, one short', MIDDLE, [0] * 4095 + [1], 8189
    yield '4,095 numbers', LEFT, [0] * 4094 + [1], 4095
    yield '4,097 numbers', LEFT, [0] * 4096 + [1], 4096
    yield '4,096 numbers, ends early', LEFT, [0] * 4096, 5000
    yield '4,096 numbers, the last does not apply', LEFT, [0] * 4094 + [1, 1], 5000
    # each rule but the last spends one symbol of 32 on the nonterminal: no replay of 4,096 numbers has more tokens
    yield 'longest sentence', WIDE, [0] * 4095 + [1], 126977
    yield 'longest sentence, one short', WIDE, [0] * 4095 + [1], 126976
    yield 'longest sentence, more room', WIDE, [0] * 4095 + [1], 131073
    yield 'longest sentence, room of 65,536 less', WIDE, [0] * 4095 + [1], 61441
    # 2,047 uses of S S make 2,048 S
    yield 'S S on the left, closed by nothing', AMBIGUOUS, [0] * 2047 + [2] * 2048, 0
    yield 'S S on the left, closed by tokens', AMBIGUOUS, [0] * 2047 + [1] * 2048, 2048
    yield 'S S on the right, closed by tokens', AMBIGUOUS, [0, 1] * 19 + [1], 20

    # order: 4, 12, 11, 3
    yield '4 before 12', D[:-1], [0] * 4097, 0
    yield '4 before 11', D + [0], [6], 0
    yield '4 before 3', D[:-1] + [7], [0, 2, 4], 0
    yield '4, no words', [], [0], 10
    yield '4, words end before the start', [3, 4], [], 10
    yield '4, 257 rules', grammar(1, 1, 0, [(0, [1])] * 257), [0], 10
    yield '12 before 11, the first does not apply', D, [6] * 4097, 10
    yield '12 before 11, ends early', LEFT, [0] * 4097, 10
    yield '12 before 3', LEFT, [0] * 4096 + [1], 0
    yield '11 before 3, ends early', D, [1, 2, 5, 1, 3], 0
    yield '11 before 3, does not apply', D, [1, 2, 5, 1, 3, 0, 2, 0], 0
    yield '11 before 3, after the sentence', D, [0, 2, 4, 4], 0

    # grammars that 5, 6 and 7 refuse
    yield 'though 5 at 1', TREELESS, [0], 10
    yield 'though 5 at 1, into the treeless', TREELESS, [1], 10
    yield 'though 6 at 1', UNREACHED, [0], 10
    yield 'though 6 at 1, by the unreached rule', UNREACHED, [1], 10
    yield 'though 7 at 0', doubled(11), doubling_list(11), 2048
    yield 'though 7, by another rule', grammar(13, 1, 0, [(0, [13]), (0, [12])] + [(i + 1, [i, i]) for i in range(11, 0, -1)] +
                                               [(1, [13])]), [0], 10
    yield '256 rules, the last', grammar(1, 256, 0, [(0, [1 + i]) for i in range(256)]), [255], 10
    yield '256 rules, number 256', grammar(1, 256, 0, [(0, [1 + i]) for i in range(256)]), [256], 10
    yield '128 nonterminals', chain(shuffled), derivation_of(chain(shuffled)), 1
    yield 'highest token', grammar(1, 1024, 0, [(0, [1024, 1, 1024])]), [0], 10


def changed(table, at, by=1):
    """The table with the word at an index larger."""
    return table[:at] + [(table[at] + by) % 65536] + table[at + 1:]


def nexts():
    """Name, words, table, marks, tokens and rules."""
    its = its_table(D)
    clear = [0] * 6

    # document 01's suite of D, call by call, with exact room
    yield 'D, first call', D, its, clear, 1, 2
    yield 'D, second call', D, its, [1, 0, 0, 1, 0, 0], 3, 4
    yield 'D, third call', D, its, [1, 1, 0, 1, 0, 0], 1, 3
    yield 'D, fourth call', D, its, [1, 1, 1, 1, 1, 0], 2, 3
    yield 'D, fifth call', D, its, [1] * 6, 2, 3
    one = [1, 0, 0, 0, 0]
    yield 'one empty rule', one, its_table(one), [0], 0, 1
    yield 'one empty rule, used', one, its_table(one), [1], 0, 0
    two = [1, 1, 0, 0, 1, 0, 0, 1, 1]
    yield 'S gives S, S gives a', two, its_table(two), [0, 0], 1, 2
    yield 'S gives S, S gives a, second only', two, its_table(two), [1, 0], 1, 1
    yield 'S gives S, S gives a, first only', two, its_table(two), [0, 1], 1, 2
    yield 'S gives S, S gives a, both used', two, its_table(two), [1, 1], 1, 2

    # 3 and 10: rule 1 of D has 3 tokens and 4 numbers
    ones = [1, 0, 0, 1, 0, 0]
    yield 'more room', D, its, ones, 100, 100
    yield 'one token more', D, its, ones, 4, 4
    yield 'one number more', D, its, ones, 3, 5
    yield '3, one short', D, its, ones, 2, 4
    yield '3, no room', D, its, ones, 0, 4
    yield '10, one short', D, its, ones, 3, 3
    yield '10, no room', D, its, ones, 3, 0
    yield '10, more room for tokens', D, its, ones, 100, 3
    yield '3 before 10', D, its, ones, 2, 3
    yield '3 before 10, no room', D, its, ones, 0, 0
    yield '3, more room for numbers', D, its, ones, 2, 100
    yield '10 of an empty sentence', one, its_table(one), [0], 0, 0

    # marks: anything but 0 is used and stays
    yield 'marks 7 and 255 are used', D, its, [7, 255, 2, 3, 128, 0], 9, 9
    yield 'marks 7 and 255 stay in the derivation', D, its, [7, 0, 0, 255, 0, 0], 9, 9
    yield 'mark 2 of a chosen rule', D, its, [0, 0, 0, 2, 0, 0], 9, 9
    yield 'marks 255, finished', D, its, [255] * 6, 0, 0
    yield 'only the last unused', D, its, [1, 1, 1, 1, 1, 0], 9, 9
    yield 'only the third unused', D, its, [1, 1, 0, 1, 1, 1], 9, 9
    yield 'surplus marks', D, its, clear + [0, 0, 7], 9, 9
    yield 'surplus marks of 0 are no rules', D, its, [1] * 6 + [0, 0], 9, 9
    yield 'surplus marks, 256', D, its, clear + [0] * 250, 9, 9
    yield 'surplus marks, 257', D, its, [1] * 5 + [0] * 252, 9, 9
    yield '9, one short', D, its, [0] * 5, 9, 9
    yield '9, one short and all used', D, its, [1] * 5, 9, 9
    yield '9, no marks', D, its, [], 9, 9
    yield '9, one mark', D, its, [0], 9, 9

    # 8: the first 5N + R words count, and no others
    yield 'surplus table words', D, its + [0, 65535, 1], clear, 9, 9
    yield 'surplus table words, many', D, its + [50505] * 900, clear, 9, 9
    yield '8, one word short', D, its[:-1], clear, 9, 9
    yield '8, no table', D, [], clear, 9, 9
    yield '8, nonterminals only', D, its[:15], clear, 9, 9
    for at in range(len(its)):
        yield f'8, word {at} larger', D, changed(its, at), clear, 9, 9
    for at in [0, 1, 2, 3, 4, 5, 12, 14, 15, 20]:
        yield f'8, word {at} smaller', D, changed(its, at, -1), clear, 9, 9
    yield '8, word 20 of rule 5, which is used', D, changed(its, 20), [0, 0, 0, 0, 0, 1], 9, 9
    yield '8, all zero', D, [0] * 21, clear, 9, 9
    yield '8, moved by one', D, [0] + its, clear, 9, 9
    # rule 5 is the sign's second: with one token more its total is another, with another token the table is the same
    yield '8, of a grammar with a longer rule 5', D, its_table(D[:-3] + [2, 2, 6, 6]), clear, 9, 9
    yield 'of a grammar with another token in rule 5', D, its_table(D[:-1] + [3]), clear, 9, 9
    tied = grammar(1, 2, 0, [(0, [1]), (0, [2])])
    yield 'tie, the lowest rule is chosen', tied, [2, 0, 0, 65535, 65535, 2, 2], [1, 0], 9, 9
    yield '8, tie, the higher rule chosen', tied, [2, 1, 0, 65535, 65535, 2, 2], [1, 0], 9, 9
    places = grammar(2, 1, 0, [(0, [1, 1]), (1, [])])
    yield 'tie, the leftmost place', places, [3, 0, 0, 65535, 65535, 1, 1, 2, 0, 0, 3, 3], [1, 0], 9, 9
    yield '8, tie, the second place', places, [3, 0, 0, 65535, 65535, 1, 1, 2, 0, 1, 3, 3], [1, 0], 9, 9
    yield '8, the context rule and place of the start are 0', one, [1, 0, 0, 0, 0, 1], [0], 9, 9
    yield '8, least counts tokens only', one, [0, 0, 0, 65535, 65535, 0], [0], 9, 9

    # 4, 5, 6 and 7, whatever table there is
    yield '4', D[:-1], its, clear, 9, 9
    yield '4, no words', [], [], [], 0, 0
    yield '4, last symbol too large', D[:-1] + [7], its, clear, 9, 9
    yield '4, 257 rules', grammar(1, 1, 0, [(0, [1])] * 257), [2, 0, 0, 65535, 65535] + [2] * 257, [0] * 257, 9, 9
    yield '4, 129 nonterminals', grammar(129, 0, 0, []), [], [], 9, 9
    yield '5', TREELESS, [2, 0, 0, 65535, 65535, 0, 0, 1, 1, 0, 2, 1], [0, 0], 9, 9
    yield '5 at 0', NO_RULES, [0, 0, 0, 65535, 65535], [], 9, 9
    yield '5, second nonterminal without rules', [2, 0, 0, 0, 0], [1, 0, 0, 65535, 65535, 1, 0, 0, 0, 0, 1], [0], 9, 9
    yield '6', UNREACHED, [2, 0, 0, 65535, 65535, 3, 1, 0, 65535, 65535, 2, 3], [0, 0], 9, 9
    no_context = [1, 0, 0, 65535, 65535, 1, 1, 65535, 65535, 65535, 1, 65535]
    yield '6, with no context in the table', [2, 0, 0, 0, 0, 1, 0], no_context, [0, 0], 9, 9
    eleven = doubled(11)
    # Xi has size 3 * 2^i - 1 and rule 11 - i, and hangs on the rule before that
    uncut = [word for i in range(12) for word in [3 * 2 ** i - 1, 11 - i, 6144 - 3 * 2 ** i, 10 - i, 0]]
    uncut = uncut[:-2] + [65535, 65535] + [6143] * 12
    yield '7, with its figures', eleven, uncut, [0] * 12, 5000, 5000
    cut = [word if word == 65535 else min(word, 4097) for word in uncut]
    yield '7, with figures cut to 4,097', eleven, cut, [0] * 12, 5000, 5000
    yield '7 at 0, four tokens', sum_of([10, 8, 6, 4, 2, 1], 4), [], [], 0, 0
    yield '7, the size looks small in 16 bits', wrapping(16), [], [], 0, 0
    yield '7, 32 of size 2048', many_of(2048, 32), [], [], 0, 0

    # order: 4, 5, 6, 7, 8, 9, Finished, 3, 10
    yield '4 before all', D[:-1], [], [], 0, 0
    yield '4 before 5', [1, 0, 0, 0], [], [], 0, 0
    yield '5 before 6', grammar(3, 1, 0, [(0, [3]), (1, [3]), (2, [2])]), [], [], 0, 0
    yield '5 before 7', grammar(13, 1, 11, doublings(11, 13)), [], [], 0, 0
    yield '5 before 8', TREELESS, [], [0, 0], 9, 9
    yield '5 before 9', TREELESS, [], [], 0, 0
    yield '5 before Finished', TREELESS, [], [1, 1], 9, 9
    yield '6 before 7', grammar(13, 1, 11, doublings(11, 13) + [(12, [])]), [], [], 0, 0
    yield '6 before 8', UNREACHED, [], [0, 0], 9, 9
    yield '6 before 9', UNREACHED, [], [], 0, 0
    yield '6 before Finished', UNREACHED, [], [1, 1], 9, 9
    yield '7 before 8', eleven, [], [0] * 12, 5000, 5000
    yield '7 before 9', eleven, [], [], 0, 0
    yield '7 before Finished', eleven, [], [1] * 12, 0, 0
    yield '8 before 9', D, its[:-1], [], 9, 9
    yield '8 before Finished', D, changed(its, 20), [1] * 6, 9, 9
    yield '8 before 3', D, changed(its, 20), clear, 0, 0
    yield '9 before Finished', D, its, [1] * 5, 0, 0
    yield '9 before 3', D, its, [0] * 5, 0, 0
    yield 'Finished before 3', D, its, [1] * 6, 0, 0

    # larger ones
    ten = doubled(10)
    yield 'X10, exact room', ten, its_table(ten), [0] * 11, 1024, 2047
    yield 'X10, 3', ten, its_table(ten), [0] * 11, 1023, 2047
    yield 'X10, 10', ten, its_table(ten), [0] * 11, 1024, 2046
    yield 'X10, only X0 unused', ten, its_table(ten), [1] * 10 + [0], 1024, 2047
    yield 'totals 4,096, exact room', SUM, its_table(SUM), [0] * 12, 1369, 2727
    yield 'totals 4,096, 3', SUM, its_table(SUM), [0] * 12, 1368, 2727
    yield 'totals 4,096, 10', SUM, its_table(SUM), [0] * 12, 1369, 2726
    links = chain(shuffled)
    yield 'chain, only the last unused', links, its_table(links), [1] * 127 + [0], 1, 128
    yield 'chain, 10', links, its_table(links), [0] * 128, 1, 127
    equal = grammar(1, 1, 0, [(0, [1])] * 256)
    yield '256 rules, exact marks', equal, its_table(equal), [1] * 255 + [0], 1, 1
    yield '256 rules, 9', equal, its_table(equal), [1] * 255, 1, 1
    yield '256 rules, surplus mark', equal, its_table(equal), [1] * 256 + [0], 1, 1


DRAWN = 60


def nights():
    """Name and words."""
    # document 01, "Sample grammars"
    yield 'D', D
    yield 'one empty rule', [1, 0, 0, 0, 0]
    yield 'S gives S, S gives a', [1, 1, 0, 0, 1, 0, 0, 1, 1]
    yield 'no rules', NO_RULES
    yield 'second nonterminal without rules', [2, 0, 0, 0, 0]
    yield 'second nonterminal not reached', [2, 0, 0, 0, 0, 1, 0]
    yield 'words end before the start', [3, 4]
    yield 'no words', []
    yield 'X10', doubled(10)
    yield 'X11', doubled(11)
    yield 'X10 X8 X6 X4 X2 X1 and three tokens', SUM
    yield 'X10 X8 X6 X4 X2 X1 and four tokens', sum_of([10, 8, 6, 4, 2, 1], 4)

    # one sentence uses all rules
    yield 'chain', chain(list)
    yield 'chain, shuffled', chain(shuffled)
    # nonterminal i gives a token, or the next; the chosen rule is the first
    yield 'chain with an end at each link', \
        grammar(40, 1, 0, [rule for i in range(40) for rule in [(i, [40]), (i, [i + 1, 40] if i < 39 else [40, 40])]])
    yield '256 rules, all equal', grammar(1, 1, 0, [(0, [1])] * 256)
    yield '256 rules, each a token', grammar(1, 256, 0, [(0, [256 - i]) for i in range(256)])
    yield 'fullest grammar, shuffled', fullest(shuffled)

    # S is nonterminal 0, A 1, B 2, and N is a token
    yield 'S gives S only by a higher rule', grammar(1, 1, 0, [(0, [1]), (0, [0])])
    yield 'S gives S S, nothing', grammar(1, 0, 0, [(0, [0, 0]), (0, [])])
    yield 'S gives S S, a token, nothing', AMBIGUOUS
    yield 'S gives S a S b S', grammar(1, 2, 0, [(0, [0, 1, 0, 2, 0]), (0, []), (0, [1])])
    yield 'equal rules twice', grammar(2, 1, 0, [(0, [1, 1]), (0, [1, 1]), (1, [2]), (1, [2])])
    yield 'tie of chosen rules', grammar(2, 2, 0, [(1, [3]), (1, [2]), (0, [1, 1]), (0, [1, 2, 3]), (1, [])])
    yield 'tie of context rules', grammar(2, 2, 0, [(1, [2]), (0, [2, 1]), (0, [1, 3]), (1, [3])])
    yield 'tie of places', grammar(2, 1, 0, [(0, [2, 1, 1]), (1, [2]), (1, [2, 2])])
    yield 'empty rules beside tokens', grammar(3, 1, 0, [(0, [1, 3, 2]), (1, []), (2, []), (1, [2, 2]), (2, [3])])
    yield 'a longer way is the smaller context', grammar(4, 1, 0, [(0, [3, 4, 4, 4, 4, 4]), (0, [1]), (1, [2]), (2, [3]), (3, []),
                                                                   (3, [4])])
    yield 'the target is used again by its own context', grammar(2, 1, 0, [(0, [1, 1]), (1, [2]), (1, [0]), (0, [])])
    yield 'unit cycle', grammar(2, 2, 0, [(0, [1]), (1, [0]), (0, [2]), (1, [3])])
    yield 'start is last', grammar(3, 1, 2, [(0, [3]), (1, [0, 0]), (2, [1, 0]), (2, [2, 2, 3]), (1, [2])])
    yield 'a rule names the start', grammar(2, 1, 0, [(0, [1]), (1, [0, 2, 0]), (1, [2])])
    yield 'context in the middle of nonterminals', grammar(4, 3, 0, [(0, [1, 2, 3]), (1, [4]), (2, [5]), (3, [6]), (2, [1, 3]),
                                                                     (1, [2, 2]), (3, [])])
    # whatever comes
    for seed in range(DRAWN):
        yield f'drawn {seed}', drawn(seed)


# ---------------------------------------------------------------- their text

def listed(numbers):
    if len(numbers) <= 40:
        return ' '.join(map(str, [len(numbers)] + numbers))
    value = 0
    for number in numbers:
        value = (value * 31 + number) % 1000003
    return f'{len(numbers)} sum {value}'


def refusal(refused):
    number, place = refused.args
    return f'refused {number} {place}'


def replay_answered(words, numbers, room):
    try:
        return f'done {listed(replay_of(words, numbers, room))} kept'
    except Refused as refused:
        return f'{refusal(refused)} kept'


def next_answered(words, table, marks, tokens, rules):
    try:
        handed, after = next_of(words, table, marks, tokens, rules)
        answer = 'finished' if handed is None else f'next {handed[0]} {listed(handed[1])} {listed(handed[2])}'
    except Refused as refused:
        answer, after = refusal(refused), marks
    return ' '.join([f'{answer} kept, marks'] + [str(mark) for mark in after])


def night_answered(words):
    """The lines of a night."""
    marks = [0] * MOST_RULES
    lines = []
    try:
        table = its_table(words)
        while True:
            handed, marks = next_of(words, table, marks, UNBOUNDED, UNBOUNDED)
            if handed is None:
                end = 'finished'
                break
            target, sentence, derivation = handed
            if replay_of(words, derivation, UNBOUNDED) != sentence:
                sys.exit(f'the reference disagrees with itself on the words {spelled(words)}')
            lines.append(f' {target} {listed(sentence)} {listed(derivation)} again')
    except Refused as refused:
        end = refusal(refused)
    return lines + [f' {end}, sentences {len(lines)}, marks {marks.count(1)}']


def texts():
    """Each case's line, and what works out its answer."""
    for name, words, numbers, room in replays():
        head = f'replay {room // 1000} {room % 1000}, {name} :'
        yield f'{head} {spelled(words)} = {spelled(numbers)}', \
            lambda: f'{head} {replay_answered(words, numbers, room)}'
    for name, words, table, marks, tokens, rules in nexts():
        head = f'next {tokens} {rules}, {name} :'
        yield f'{head} {spelled(words)} = {spelled(table)} ; {spelled(marks)}', \
            lambda: f'{head} {next_answered(words, table, marks, tokens, rules)}'
    for name, words in nights():
        head = f'whole night, {name} :'
        yield f'{head} {spelled(words)}', lambda: '\n'.join([head] + night_answered(words))


if __name__ == '__main__':
    print_asked(texts())
