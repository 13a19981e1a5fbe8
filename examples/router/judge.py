"""Judges router.c: looks at every pattern that fits, and takes the first kind of part at the first
difference."""

import pathlib
import sys

sys.dont_write_bytecode = True
sys.path.insert(0, str(pathlib.Path(__file__).resolve().parent.parent))
from judging import judge

LITERAL, PARAMETER, REST = range(3)


def fits(pattern, path):
    """The kinds of the pattern's parts and the values of its parameters, or none."""
    kinds, values = [], []
    for at, part in enumerate(pattern):
        if part == b"*":
            return (kinds + [REST], values) if at < len(path) else None
        if at >= len(path):
            return None
        if part[:1] == b":":
            kinds.append(PARAMETER)
            values.append(part[1:] + b"=" + path[at])
        elif part == path[at]:
            kinds.append(LITERAL)
        else:
            return None
    return (kinds, values) if len(pattern) == len(path) else None


def router(packets):
    assert packets[-1] == b""
    lines = b"".join(packet.rstrip(b"\n") + b"\n" for packet in packets[:-1]).splitlines()
    rules = [line.split(b" ", 1) for line in lines]

    def answer(path):
        found = None
        for pattern, target in rules:
            fit = path[:1] == b"/" and fits(pattern.split(b"/")[1:], path.split(b"/")[1:])
            if fit and (found is None or fit[0] <= found[0]):
                found = (fit[0], b"\n".join([target] + fit[1]))
        return found[1] if found else b"!none"

    return answer


judge(__file__, router)
