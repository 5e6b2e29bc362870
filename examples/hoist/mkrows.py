#!/usr/bin/env python3
"""Makes the bytes from outside for a run out of a text: rows.txt gives hoist.rows.

usage: mkrows.py [ROWS-TEXT PLAN-TEXT ROWS]     without arguments: rows.txt hoist.plan.txt hoist.rows beside this file

Lines of the text: TICK PARTITION BYTE, in the order of ticks, and at the end TICKS ticks. A partition's number is its
place among the partition lines of the plan's text. In ROWS each tick has one byte that says how many bytes come,
and for each of them the partition and the byte.
"""
import os
import sys


def lines(path):
    """The lines of a text that say something: their numbers and words."""
    with open(path, encoding='utf-8') as text:
        for number, line in enumerate(text, 1):
            words = line.split('#')[0].split()
            if words:
                yield number, words


def byte(word):
    """'x' is the letter's byte; a number is -128 to 255."""
    if len(word) == 3 and word[0] == word[2] == "'":
        return word[1].encode('ascii')[0]
    value = int(word, 0)
    if not -128 <= value <= 255:
        raise ValueError
    return value & 255


def make(rows_text, plan_text):
    partitions = [words[1] for _, words in lines(plan_text) if words[0] == 'partition']
    rows = bytearray()
    tick, coming = 0, bytearray()               # the tick at hand, and what comes in it
    end = None
    for number, words in lines(rows_text):
        def wrong(what):
            sys.exit(f'{rows_text}:{number}: {what}')
        if end is not None:
            wrong('the number of ticks stands in the last line; write this one above it')
        try:
            at = int(words[0])
            if words[1:] == ['ticks']:
                end = at
            else:
                _, partition, what = words
                event = bytes([partitions.index(partition), byte(what)])
        except ValueError:
            wrong(f"write TICK PARTITION BYTE, with one of {', '.join(partitions)} and 'x' or -128 to 255; or TICKS ticks")
        if at < tick or at == end == tick and coming:
            wrong(f'tick {at} is too early, behind tick {tick}; write the ticks in order, and more of them than the last')
        if at > tick:                           # nothing comes in the ticks between
            rows += bytes([len(coming) // 2]) + coming + bytes(at - tick - 1)
            tick, coming = at, bytearray()
        if end is None:
            coming += event
            if len(coming) > 2 * 255:
                wrong('more than 255 bytes in one tick; write some of them to the next')
    if end is None:
        sys.exit(f'{rows_text}: there is no end; write TICKS ticks in the last line')
    return bytes(rows)


if __name__ == '__main__':
    folder = os.path.dirname(os.path.abspath(__file__))
    names = sys.argv[1:] or [os.path.join(folder, name) for name in ('rows.txt', 'hoist.plan.txt', 'hoist.rows')]
    if len(names) != 3:
        sys.exit('usage: mkrows.py [ROWS-TEXT PLAN-TEXT ROWS]')
    made = make(names[0], names[1])
    with open(names[2], 'wb') as out:
        out.write(made)
