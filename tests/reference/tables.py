#!/usr/bin/env python3
"""A reference for the call `tables`, written from document 01 alone, and the cases that crate table_runs runs.

    tables.py stdin     the cases, as table_runs reads them
    tables.py stdout    what table_runs must print of them

Whole numbers are unbounded here. Each figure is found by going round over the document's equations until nothing
changes; nothing is done for speed. A case is a line

    ROOM NAME : WORDS

WORDS are numbers, and N*W stands for N times W. The table buffer has ROOM words. The answer's line is

    ROOM NAME : done LENGTH kept TEST alone, TABLE        or        ROOM NAME : refused NUMBER PLACE kept TEST

`kept` says that what lies past the written length, or all of the buffer where the call refused, has its old content.
TEST is what `test` says of the words and the buffer afterwards: its N START RULES, or not its. `alone`
says that it answers `not its` for each table that has one word larger by one.
"""
import pathlib
import sys

MOST_NONTERMINALS = 128
MOST_TERMINALS = 1024
MOST_RULES = 256
MOST_SYMBOLS = 32
MOST_TABLE = 5 * MOST_NONTERMINALS + MOST_RULES
MOST_TOTAL = 4096
NO_RULE = 65535


# ---------------------------------------------------------------- the reference

class Refused(Exception):
    """Refusal number and place."""


def read(words):
    """N, the start, and the rules as (left side, symbols); or Refused 4. The words are judged from the left."""

    def word(place, accept):
        if place == len(words) or not accept(words[place]):
            raise Refused(4, place)
        return words[place]

    n = word(0, lambda w: 1 <= w <= MOST_NONTERMINALS)
    t = word(1, lambda w: w <= MOST_TERMINALS)
    start = word(2, lambda w: w < n)
    rules = []
    at = 3
    while at < len(words):
        left = word(at, lambda w: len(rules) < MOST_RULES and w < n)
        k = word(at + 1, lambda w: w <= MOST_SYMBOLS)
        rules.append((left, [word(at + 2 + i, lambda w: w < n + t) for i in range(k)]))
        at += 2 + k
    return n, start, rules


def sizes_of(symbols, n, least):
    """The sizes of symbols, or None where one of them has no complete tree so far."""
    sizes = [least[s] if s < n else 1 for s in symbols]
    return None if None in sizes else sizes


def leasts(n, rules):
    """Least of each nonterminal, None where it has no complete tree."""
    least = [None] * n
    changed = True
    while changed:
        changed = False
        for left, symbols in rules:
            sizes = sizes_of(symbols, n, least)
            if sizes is not None and (least[left] is None or 1 + sum(sizes) < least[left]):
                least[left] = 1 + sum(sizes)
                changed = True
    return least


def reached_from(n, start, rules):
    """The nonterminals that occur in a form derived from the start."""
    reached = {start}
    changed = True
    while changed:
        changed = False
        for left, symbols in rules:
            new = {s for s in symbols if s < n} - reached
            if left in reached and new:
                reached |= new
                changed = True
    return reached


def contexts(n, start, rules, least):
    """Context, context rule and place of each nonterminal. All have complete trees and are reached."""
    context = [None] * n
    context[start] = 0

    def offers():
        for number, (left, symbols) in enumerate(rules):
            for place, a in enumerate(symbols):
                if a < n and a != start and context[left] is not None:
                    others = symbols[:place] + symbols[place + 1:]
                    yield a, context[left] + 1 + sum(sizes_of(others, n, least)), number, place

    changed = True
    while changed:
        changed = False
        for a, size, _, _ in offers():
            if context[a] is None or size < context[a]:
                context[a] = size
                changed = True
    choice = [(NO_RULE, NO_RULE)] * n
    # from the last offer to the first: the lowest rule stays, and in it the leftmost place
    for a, size, number, place in reversed(list(offers())):
        if size == context[a]:
            choice[a] = (number, place)
    return context, choice


def table_of(words, room):
    """The words of the table, for a buffer of room words; or Refused."""
    n, start, rules = read(words)
    least = leasts(n, rules)
    for a in range(n):
        if least[a] is None:
            raise Refused(5, a)
    reached = reached_from(n, start, rules)
    for a in range(n):
        if a not in reached:
            raise Refused(6, a)
    size = [1 + sum(sizes_of(symbols, n, least)) for _, symbols in rules]
    context, choice = contexts(n, start, rules, least)
    total = [context[left] + size[number] for number, (left, _) in enumerate(rules)]
    for number in range(len(rules)):
        if total[number] > MOST_TOTAL:
            raise Refused(7, number)
    table = []
    for a in range(n):
        chosen = min(r for r, (left, _) in enumerate(rules) if left == a and size[r] == least[a])
        table += [least[a], chosen, context[a], choice[a][0], choice[a][1]]
    table += total
    if room < len(table):
        raise Refused(3, len(table))
    return table


# ---------------------------------------------------------------- grammars

def grammar(n, t, start, rules):
    """The words of a grammar whose rules are given as (left side, symbols)."""
    words = [n, t, start]
    for left, symbols in rules:
        words += [left, len(symbols)] + symbols
    return words


def doublings(top, token):
    """The rules of X0 to X(top), the highest first: nonterminal i is Xi, which gives X(i-1) twice, and X0 a token.
    The size of Xi is 3 * 2^i - 1."""
    return [(i, [i - 1, i - 1]) for i in range(top, 0, -1)] + [(0, [token])]


def doubled(top):
    """X0 to X(top), started at X(top), whose rule is rule 0."""
    return grammar(top + 1, 1, top, doublings(top, top + 1))


def sum_of(parts, tokens):
    """Nonterminals 0 to 10 are X0 to X10, 11 is the start, which gives Xi for each part i and then tokens, and 12 is
    the token. The start's rule is rule 0, X10's rule 1."""
    return grammar(12, 1, 11, [(11, parts + [12] * tokens)] + doublings(10, 12))


def wrapping(bits):
    """The start, whose rule is rule 0, gives one doubling X and tokens, as few of both as make its size, above 4,096,
    look like at most 4,096 in the low bits. There is one tree, so each total is that size."""
    top = 0
    while True:
        for tokens in range(MOST_SYMBOLS):
            size = 1 + (3 * 2 ** top - 1) + tokens
            if size >= 2 ** bits and size % 2 ** bits <= MOST_TOTAL:
                x = top + 1
                return grammar(x + 1, 1, x, [(x, [top] + [x + 1] * tokens)] + doublings(top, x + 1))
        top += 1


def many_of(size, copies):
    """The start gives A so many times, and A has the size: it gives doublings, each once, from the largest down, and
    tokens. With X0 to Xm below it A is nonterminal m + 1 and the start m + 2. Rule 0 is the start's, rule 1 is A's."""
    parts = []
    rest = size - 1
    for i in range(size.bit_length(), -1, -1):
        if 3 * 2 ** i - 1 <= rest:
            parts.append(i)
            rest -= 3 * 2 ** i - 1
    a = parts[0] + 1
    token = a + 2
    return grammar(a + 2, 1, a + 1, [(a + 1, [a] * copies), (a, parts + [token] * rest)] + doublings(a - 1, token))


def zigzag(items, group=1):
    """Neighbours at opposite ends: the first in front, the second last, the third behind the first and so on. A walk over
    this order, from either end, meets one link of a chain before the link that it hangs on, and the next one after.
    Groups of so many items stay together."""
    items = list(items)
    groups = [items[i:i + group] for i in range(0, len(items), group)]
    return [item for one in groups[0::2] + groups[1::2][::-1] for item in one]


def zigzag_of_pairs(items):
    return zigzag(items, 2)


class Draw:
    """Numbers that look random and are always the same: a linear congruential generator."""

    def __init__(self, seed):
        self.state = seed

    def below(self, bound):
        self.state = (self.state * 1103515245 + 12345) % 2 ** 31
        return self.state // 2 ** 16 % bound


def shuffled(items):
    draw = Draw(1)
    items = list(items)
    out = []
    while items:
        out.append(items.pop(draw.below(len(items))))
    return out


def drawn(seed):
    """A small grammar: up to 5 nonterminals, a rule for each and some more, of up to 4 symbols, half of which are
    nonterminals."""
    draw = Draw(seed)
    n = 1 + draw.below(5)
    t = 1 + draw.below(2)

    def symbol():
        return draw.below(n) if draw.below(2) else n + draw.below(t)

    lefts = list(range(n)) + [draw.below(n) for _ in range(draw.below(2 * n + 2))]
    rules = [(lefts.pop(draw.below(len(lefts))), [symbol() for _ in range(draw.below(5))]) for _ in range(len(lefts))]
    return grammar(n, t, draw.below(n), rules)


def reverse(items):
    return list(items)[::-1]


def chain(order, names=lambda i: i):
    """128 nonterminals, each gives the next and the last a token; the rules in some order, the first link named by
    names(0), the second names(1) and so on. The first is the start."""
    rules = [(names(i), [names(i + 1)] if i < 127 else [128]) for i in range(128)]
    return grammar(128, 1, names(0), order(rules))


def fullest(order, links=126):
    """As many words as may be: 128 nonterminals, 256 rules of 32 symbols. The start is 0. Nonterminal i below links
    gives i + 1 and 31 tokens by two rules, in one of them before the tokens and in the other after; the nonterminals
    from links on give 32 tokens by both. Where 127 is not in that chain, the start's second rule names it instead."""
    token = 1151
    rules = []
    for i in range(128):
        if i < links:
            rules += [(i, [i + 1] + [token] * 31), (i, [token] * 31 + [127 if i == 0 and links < 127 else i + 1])]
        else:
            rules += [(i, [token] * 32)] * 2
    return grammar(128, 1024, 0, order(rules))


def fullest_sums(order):
    """As many words as may be: nonterminal i below 127 gives 127, 31 times, and i + 1, by two equal rules; 127 gives 32
    tokens, size 33. The size of i is 33 + 1024 * (127 - i)."""
    rules = [(i, [127] * 31 + [i + 1]) for i in range(127) for _ in range(2)] + [(127, [1151] * 32)] * 2
    return grammar(128, 1024, 0, order(rules))


D = [3, 4, 0, 0, 1, 1, 0, 3, 1, 3, 0, 1, 2, 2, 4, 1, 1, 5, 2, 0, 2, 1, 6]
ROOM = 900
DRAWN = 100


def cases():
    """Name, words and room. The table of D has 21 words; ROOM is more than any table has."""
    # document 01, "Sample grammars"
    yield 'D', D, ROOM
    yield 'one empty rule', [1, 0, 0, 0, 0], ROOM
    yield 'S gives S, S gives a', [1, 1, 0, 0, 1, 0, 0, 1, 1], ROOM
    yield 'no rules', [1, 0, 0], ROOM
    yield 'second nonterminal without rules', [2, 0, 0, 0, 0], ROOM
    yield 'second nonterminal not reached', [2, 0, 0, 0, 0, 1, 0], ROOM
    yield 'words end before the start', [3, 4], ROOM
    yield 'no words', [], ROOM
    # rule i is nonterminal i's, so all are reached from the start, 0, and the last gives nothing
    yield '128 nonterminals', grammar(128, 0, 0, [(i, [i + 1] * (i < 127)) for i in range(128)]), ROOM
    yield '129 nonterminals', grammar(129, 0, 0, [(i, [i + 1] * (i < 128)) for i in range(129)]), ROOM
    yield 'k of 32', grammar(1, 1, 0, [(0, [1] * 32)]), ROOM
    yield 'k of 33', grammar(1, 1, 0, [(0, [1] * 33)]), ROOM
    yield '256 rules, all equal', grammar(1, 1, 0, [(0, [1])] * 256), ROOM
    yield '257 rules, all equal', grammar(1, 1, 0, [(0, [1])] * 257), ROOM
    # in the doublings nonterminal i is Xi, and the highest has rule 0, the next rule 1 and so on
    yield 'X10', doubled(10), ROOM
    yield 'X11', doubled(11), ROOM
    yield 'X10 X8 X6 X4 X2 X1 and three tokens', sum_of([10, 8, 6, 4, 2, 1], 3), ROOM
    yield 'X10 X8 X6 X4 X2 X1 and four tokens', sum_of([10, 8, 6, 4, 2, 1], 4), ROOM

    # 4 where the layout is broken further on; the runs of the layout alone have the rest
    yield 'D without its last word', D[:-1], ROOM
    yield 'D and a 0', D + [0], ROOM
    yield 'start not below N', [3, 4, 3] + D[3:], ROOM
    yield 'last symbol too large', D[:-1] + [7], ROOM

    # buffers: 3 comes last, and its place is the length needed
    yield 'D, exact room', D, 21
    yield 'D, one word more', D, 22
    yield 'D, one short', D, 20
    yield 'D, room for one', D, 1
    yield 'D, no room', D, 0
    yield '5 before 3', [1, 0, 0], 0
    yield '6 before 3', [2, 0, 0, 0, 0, 1, 0], 0
    yield '7 before 3', doubled(11), 0
    yield '4 before 3', [3, 4], 0
    yield 'fullest grammar, exact room', fullest(list), MOST_TABLE
    yield 'fullest grammar, one short', fullest(list), 895

    # the sizes wrap to small ones in so many bits
    for bits in [16, 32, 64]:
        yield f'looks small in {bits} bits', wrapping(bits), ROOM
    # 1 + 32 * 2048 and 1 + 32 * 4096 look like 1 in 16 bits; A alone is within the limit
    yield '32 of size 2048', many_of(2048, 32), ROOM
    yield '32 of size 4096', many_of(4096, 32), ROOM
    yield '31 of size 4095', many_of(4095, 31), ROOM
    yield 'one of size 4095', many_of(4095, 1), ROOM
    yield 'one of size 4096', many_of(4096, 1), ROOM
    # 32 to the 127th and more: wider than any machine word
    yield 'every rule 32 of the next', grammar(128, 1, 0, [(i, [i + 1] * 32) for i in range(128)]), ROOM

    # 7 at another rule than the first. The start, 0, gives a by rule 0 and X11, which is nonterminal 12, by rule 1
    above = [(i + 1, [i, i]) for i in range(11, 0, -1)] + [(1, [13])]
    yield 'only rule 0 is within the limit', grammar(13, 1, 0, [(0, [13]), (0, [12])] + above), ROOM
    # A, nonterminal 12, gives a, or a a; the start, 11, gives A, doublings and one token, 4,096 with the first
    tokens = [13]
    body = [(11, [12, 10, 8, 6, 4, 2, 1] + tokens), (12, tokens)] + doublings(10, 13)
    yield 'A is chosen within the limit', grammar(13, 1, 11, body), ROOM
    yield 'only the last rule is above', grammar(13, 1, 11, body + [(12, tokens * 2)]), ROOM
    yield 'only the first rule is above', grammar(13, 1, 11, [(12, tokens * 2)] + body), ROOM

    # chains of 128 in several orders of the rules, and of the names
    for name, order in [('forward', list), ('reverse', reverse), ('zigzag', zigzag), ('shuffled', shuffled)]:
        yield f'chain, {name}', chain(order), ROOM
    yield 'chain, reverse, named from the end', chain(reverse, lambda i: 127 - i), ROOM
    yield 'chain, forward, named from the end', chain(list, lambda i: 127 - i), ROOM
    yield 'chain, forward, named by zigzag', chain(list, lambda i: zigzag(range(128))[i]), ROOM
    # the fullest grammar forward stands above, with its exact room
    for name, order in [('reverse', reverse), ('zigzag', zigzag_of_pairs), ('shuffled', shuffled)]:
        yield f'fullest grammar, {name}', fullest(order), ROOM
    # the chain has one link more, and the totals are 127 * 32 + 33
    yield 'fullest grammar, 4097', fullest(list, 127), ROOM
    # the sizes grow steadily to 130,081 and pass 4,096 and 65,536 on the way
    yield 'fullest grammar, 130081', fullest_sums(zigzag_of_pairs), ROOM

    # 5. From here on nonterminal 0 is S, 1 A, 2 B, and N is a token
    yield '5, A gives A only', grammar(2, 1, 0, [(0, [2]), (0, [1]), (1, [1])]), ROOM
    yield '5, S needs A', grammar(2, 1, 0, [(0, [1]), (1, [1])]), ROOM
    yield '5, A and B need each other', grammar(3, 1, 0, [(0, [3]), (1, [2]), (2, [3, 1])]), ROOM
    yield '5, A without rules and not named', grammar(2, 1, 0, [(0, [2])]), ROOM
    yield '5 at B before 6 at A', grammar(3, 1, 0, [(0, [3]), (1, [3]), (2, [2])]), ROOM
    yield '5 before 7', grammar(13, 1, 11, doublings(11, 13)), ROOM

    # 6
    yield '6, B named by A only, A not reached', grammar(3, 1, 0, [(0, [3]), (1, [2]), (2, [3])]), ROOM
    yield '6, A named by B only, B not reached', grammar(3, 1, 0, [(0, [3]), (2, [1]), (1, [3])]), ROOM
    yield '6, A and B name each other', grammar(3, 1, 0, [(0, [3]), (1, [2]), (2, [1]), (2, [3])]), ROOM
    yield '6, A names itself', grammar(2, 1, 0, [(0, [2]), (1, [1, 1]), (1, [])]), ROOM
    yield '6, A reached and B not', grammar(3, 1, 0, [(0, [1]), (1, [3]), (2, [1])]), ROOM
    yield '6, S named by A only', grammar(2, 1, 0, [(0, [2]), (1, [0])]), ROOM
    yield '6, start is 1 and names nothing', grammar(2, 1, 1, [(0, [1]), (1, [])]), ROOM
    yield '6 before 7', grammar(13, 1, 11, doublings(11, 13) + [(12, [])]), ROOM
    yield 'reached, A through S and B through A', grammar(3, 1, 0, [(1, [2]), (2, [3]), (0, [1])]), ROOM
    yield 'reached, by a rule that is not chosen', grammar(2, 1, 0, [(0, [2]), (0, [2, 2, 1]), (1, [])]), ROOM
    yield 'reached, start is 1', grammar(2, 1, 1, [(0, [1]), (0, []), (1, [0])]), ROOM

    # cycles
    yield 'unit cycle, A and B and a token each', grammar(2, 2, 0, [(0, [1]), (1, [0]), (0, [2]), (1, [3])]), ROOM
    yield 'unit cycle, one token', grammar(2, 1, 0, [(0, [1]), (1, [0]), (1, [2])]), ROOM
    yield 'unit cycle of three, token first', grammar(3, 1, 1, [(2, [3]), (0, [1]), (1, [2]), (2, [0])]), ROOM
    yield 'nullable, S gives S S', grammar(1, 0, 0, [(0, [0, 0]), (0, [])]), ROOM
    yield 'nullable, S gives S', grammar(1, 0, 0, [(0, [0]), (0, [])]), ROOM
    yield 'nullable, A and B through each other', \
        grammar(3, 1, 0, [(0, [1, 2]), (1, [2, 1]), (1, []), (2, [1, 2]), (2, [])]), ROOM
    # the empty rule of A has size 1, a token too: fewest tokens do not decide
    yield 'fewest tokens is not least', grammar(2, 1, 0, [(0, [1, 1]), (0, [2]), (1, [])]), ROOM
    yield 'context is shorter through a longer way', \
        grammar(4, 1, 0, [(0, [3, 4, 4, 4, 4, 4]), (0, [1]), (1, [2]), (2, [3]), (3, [])]), ROOM

    # ties
    yield 'tie, chosen rule', grammar(1, 1, 0, [(0, [1, 1]), (0, [1]), (0, [1])]), ROOM
    yield 'tie, chosen of tokens and nonterminals', grammar(2, 1, 0, [(1, []), (0, [1, 2]), (0, [2, 1]), (0, [2, 2])]), ROOM
    yield 'tie, chosen rule lowest though found last', \
        grammar(4, 1, 0, [(0, [1]), (0, [4] * 4), (1, [2]), (2, [3]), (3, [4])]), ROOM
    yield 'tie, chosen of equal rules', grammar(2, 0, 0, [(0, [1]), (0, [1]), (1, []), (1, [])]), ROOM
    yield 'tie, context rule', grammar(2, 1, 0, [(1, []), (0, [2, 1]), (0, [1, 2])]), ROOM
    yield 'tie, context rule of different left sides', \
        grammar(4, 0, 0, [(2, [3]), (1, [3]), (0, [1]), (0, [2]), (3, [])]), ROOM
    yield 'tie, context rule lowest though settled last', \
        grammar(4, 1, 0, [(2, [3]), (1, [3, 4]), (0, [2, 4]), (0, [1]), (2, []), (1, []), (3, [])]), ROOM
    yield 'tie, context place', grammar(2, 1, 0, [(0, [2, 1, 1, 1]), (1, [2])]), ROOM
    yield 'tie, a lower rule before a place further left', grammar(2, 1, 0, [(0, [2, 2, 1]), (0, [1, 2, 2]), (1, [2])]), ROOM
    yield 'context, the open leaf counts nothing', grammar(2, 1, 0, [(0, [1]), (1, [2, 2, 2, 2])]), ROOM
    yield 'context, another A beside it counts', grammar(2, 1, 0, [(0, [1, 1]), (0, [1, 2, 2, 2]), (1, [2, 2, 2, 2])]), ROOM
    yield 'context of the start is 0 though rules name it', grammar(2, 1, 0, [(0, [1]), (1, [0]), (1, [2])]), ROOM

    # whatever comes
    for seed in range(DRAWN):
        yield f'drawn {seed}', drawn(seed), ROOM


# ---------------------------------------------------------------- their text

def spelled(words):
    """Numbers, with N*W for three and more that are equal."""
    out = []
    at = 0
    while at < len(words):
        end = at
        while end < len(words) and words[end] == words[at]:
            end += 1
        if end - at > 2:
            out.append(f'{end - at}*{words[at]}')
        else:
            out += [str(words[at])] * (end - at)
        at = end
    return ' '.join(out)


def answered(words, room):
    try:
        table = table_of(words, room)
        rules = len(table) - 5 * words[0]
        return f'done {len(table)} kept its {words[0]} {words[2]} {rules} alone, ' + ' '.join(map(str, table))
    except Refused as refused:
        number, place = refused.args
        return f'refused {number} {place} kept not its'


def texts():
    """Each case's line, and what works out its answer."""
    for name, words, room in cases():
        head = f'{room} {name} :'
        yield f'{head} {spelled(words)}', lambda: f'{head} {answered(words, room)}'


def print_asked(texts):
    """Prints what the program's one argument asks for: the cases, or the answers."""
    program = pathlib.Path(sys.argv[0]).name
    if sys.argv[1:] not in (['stdin'], ['stdout']):
        sys.exit(f'usage: {program} stdin | stdout')
    if sys.argv[1] == 'stdin':
        print(f'# Written by tests/reference/{program}, which says what a line means and has a remark on each case.')
    for case, answer in texts:
        print((case if sys.argv[1] == 'stdin' else answer()).rstrip())


if __name__ == '__main__':
    print_asked(texts())
