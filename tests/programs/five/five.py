"""The five calls from Python on D: a line for each, the four numbers of the answer and what was written."""
import pathlib
import sys

sys.dont_write_bytecode = True
sys.path.insert(0, str(pathlib.Path(__file__).resolve().parents[3] / 'examples'))
from night import NEXT, Refused, Vanchiluk, octets, words_of  # noqa: E402

DECK = [3, 4, 0, 0, 1, 1, 0, 3, 1, 3, 0, 1, 2, 2, 4, 1, 1, 5, 2, 0, 2, 1, 6]
vanchiluk = Vanchiluk(sys.argv[1])


def show(name, numbers, *written):
    print(name, *numbers, *(number for one in written for number in (':', *one)))


def refused(name, call):
    try:
        call()
    except Refused as refusal:
        show(name, [3, *refusal.args, 0])


file, words, table, marks = octets(60), words_of(30), words_of(30), octets(6, [1])
sentence, derivation = words_of(10), words_of(10)
length = vanchiluk.pack(words_of(23, DECK), file)
show('pack', [0, length, 0, 0], file[:length])
count = vanchiluk.unpack(octets(length, file[:length]), words)
show('unpack', [0, count, 0, 0], words[:count])
words = words_of(count, words[:count])
length = vanchiluk.tables(words, table)
show('tables', [0, length, 0, 0], table[:length])
target, tokens, rules = vanchiluk.next(words, table, marks, sentence, derivation)
show('next', [NEXT, target, tokens, rules], sentence[:tokens], derivation[:rules], marks)
tokens = vanchiluk.replay(words, words_of(3, [0, 2, 4]), sentence)
show('replay', [0, tokens, 0, 0], sentence[:tokens])
refused('replay', lambda: vanchiluk.replay(words, words_of(2, [0, 2]), sentence))
refused('replay', lambda: vanchiluk.replay(words, words_of(3, [0, 2, 4]), words_of(0)))
