"""Judges store.c, by a dictionary."""

import pathlib
import sys

sys.dont_write_bytecode = True
sys.path.insert(0, str(pathlib.Path(__file__).resolve().parent.parent))
from judging import judge


def store(packets):
    kept = {}

    def answer(packet):
        word, _, rest = packet.partition(b" ")
        key, space, value = rest.partition(b" ")
        if packet == b"count":
            return b"%d" % len(kept)
        if not 1 <= len(key) <= 32 or len(value) > 256:
            return b"!command"
        if word == b"set" and space:
            if key not in kept and len(kept) == 1000:
                return b"!full"
            kept[key] = value
            return b"ok"
        if word == b"get" and not space:
            return kept.get(key, b"!none")
        if word == b"del" and not space:
            return b"!none" if kept.pop(key, None) is None else b"ok"
        return b"!command"

    for packet in packets:
        answer(packet)
    return answer


judge(__file__, store)
