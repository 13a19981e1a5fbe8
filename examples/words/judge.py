"""Judges words.c: runs the text of a program as it stands, and compiles nothing."""

import operator
import pathlib
import sys

sys.dont_write_bytecode = True
sys.path.insert(0, str(pathlib.Path(__file__).resolve().parent.parent))
from judging import judge

OWN = """: abs dup 0 < if 0 swap - then ; : min over over < if drop else swap drop then ;
: max over over < if swap drop else drop then ;
: gcd dup if swap over % gcd else drop abs then ;"""


class Wrong(Exception):
    pass


def wrapped(number):
    return (number + 2**63) % 2**64 - 2**63


def quotient(a, b):
    if b == 0:
        raise Wrong("!zero")
    return abs(a) // abs(b) * (1 if (a < 0) == (b < 0) else -1)


TWO = {
    "+": operator.add, "-": operator.sub, "*": operator.mul, "/": quotient,
    "%": lambda a, b: a - b * quotient(a, b),
    "<": lambda a, b: int(a < b), "=": lambda a, b: int(a == b),
}
MOVES = {
    "dup": (1, lambda a: [a, a]), "drop": (1, lambda a: []),
    "swap": (2, lambda a, b: [b, a]), "over": (2, lambda a, b: [a, b, a]),
}


class Run:
    def __init__(self, meanings, numbers):
        self.meanings, self.numbers = meanings, numbers
        if len(numbers) > 256:
            raise Wrong("!stack")

    def take(self, count):
        if len(self.numbers) < count:
            raise Wrong("!stack")
        taken = self.numbers[len(self.numbers) - count:]
        del self.numbers[len(self.numbers) - count:]
        return taken

    def put(self, numbers):
        self.numbers += [wrapped(number) for number in numbers]
        if len(self.numbers) > 256:
            raise Wrong("!stack")

    def skip(self, words, at):
        """The place behind the `else` or the `then` of the `if` in which this one stands."""
        depth = 0
        while True:
            at += 1
            if words[at] == "then" and depth == 0 or words[at] == "else" and depth == 0:
                return at
            depth += (words[at] == "if") - (words[at] == "then")

    def do(self, name, depth):
        if depth > 256:
            raise Wrong("!depth")
        words, at = self.meanings[name], 0
        while at < len(words):
            word = words[at]
            if word == "if":
                if self.take(1) == [0]:
                    at = self.skip(words, at)
            elif word == "else":
                at = self.skip(words, at)
            elif word == "then":
                pass
            elif word in TWO:
                self.put([TWO[word](*self.take(2))])
            elif word in MOVES:
                count, made = MOVES[word]
                self.put(made(*self.take(count)))
            elif word.lstrip("-").isdigit():
                self.put([int(word)])
            else:
                self.do(word, depth + 1)
            at += 1


def program(packets):
    meanings = {}
    for text in [OWN] + [packet.decode() for packet in packets]:
        for meaning in text.split(";"):
            if meaning.split():
                colon, name, *words = meaning.split()
                assert colon == ":"
                meanings[name] = words

    def answer(packet):
        try:
            try:
                numbers = [wrapped(int(number)) for number in packet.decode().split()]
            except ValueError:
                raise Wrong("!number")
            run = Run(meanings, numbers)
            run.do("main", 0)
            return " ".join(str(number) for number in run.numbers).encode()
        except Wrong as wrong:
            return str(wrong).encode()

    return answer


sys.setrecursionlimit(10000)
judge(__file__, program)
