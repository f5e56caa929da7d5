#!/usr/bin/env python3
"""Writes a large valid script of the program `titleplant` to standard output.

    generate.py --kind KIND [--rows N] [--seed N] [--side 8|16] [--examiners N] [--townships N] [--parties N] [--sections N]

deeds        plain deeds and releases of one examiner, each a transaction of its own       (for `alone`)
sheets       sheets of whole sections, after a few deeds                                   (for `alone`)
chains       deeds and releases of sections with a chain of a section among each four      (for `alone`)
parts        deeds and releases of parts of eight sections, with a chain of a cell for each (for `alone`)
townships    deeds and releases of whole townships                                         (for `alone`)
sections     the same of whole sections                                                    (for `alone`)
quarters     the same of quarter sections                                                  (for `alone`)
cells        the same of single cells                                                      (for `alone`)
plats        sheets of whole townships, after a few deeds                                  (for `alone`)
plants       sheets of everything, after a few deeds                                       (for `alone`)
bargains     transactions of eight deeds in a section, each with the section's sheet       (for `alone`)
owners       sheets of eight sections, or of N, in which many parties own                  (for `alone`)
many         sheets of 36 sections, or of N, after a twentieth of the steps are deeds there (for `alone`)
turns        the same, sheets and deeds by turns                                           (for `alone`)
histories    deeds in 64 sections and chains of them, of tens of entries                   (for `alone`)
unions       deeds and releases of half a hundred squares of ten acres of a section each   (for `alone`)
interleaved  eight examiners at work at once, in transactions of up to 20 steps            (for `run`)
fifty        the same by fifty examiners                                                   (for `run`)
short        the same in transactions of two deeds of single cells                         (for `run`)
long         one examiner's transactions of 5,000 deeds of single cells each               (for `run`)
reviewed     the same, then a chain of each of those cells in the same transaction         (for `run`)
crowd        9,999 examiners, or a third of the rows, open at once, with deeds of cells    (for `run`)
refused      as many examiners have read a section, and one more posts there in vain       (for `run`)
own          so many examiners' transactions of two deeds and a sheet, in own townships    (for `office`)
shared       the same, all in one section                                                  (for `office`)

The same options give the same script. The rows counted are all of its rows, declarations among them. With a
side of 8 a single cell is a quarter of a quarter of a quarter, as it was before a section had 16 by 16 cells; deeds, sheets and
interleaved have no part smaller than that, and are the same script at both sides.
"""

import argparse
import random
import sys

TOWNSHIPS = [f"T{number}N R{range_}W" for number in range(1, 9) for range_ in range(1, 9)]
PARTIES = [f"PARTY {number}" for number in range(1, 201)]
QUARTERS = ["NE1/4", "NW1/4", "SW1/4", "SE1/4"]
HALVES = ["N1/2", "S1/2", "E1/2", "W1/2"]
ESTATES = ["S", "O", "M", "SO", "SM", "OM", "SOM"]
EXAMINERS = 8
QUARTERINGS = {8: 3, 16: 4}


def section(chance):
    return f"{chance.choice(chance.townships)} sec {chance.randint(1, 36)}"


def tract(chance):
    """A section, or a half, a quarter or a smaller part of one."""
    whole = section(chance)
    depth = chance.choice([0, 1, 1, 2, 2, 3])
    if depth == 0:
        return whole
    steps = [chance.choice(QUARTERS) for _ in range(depth - 1)]
    return f"{whole} {chance.choice(QUARTERS + HALVES)}{''.join(steps)}"


def quarters(chance, count):
    return "".join(chance.choice(QUARTERS) for _ in range(count))


def cell(chance):
    """A single cell: as many quarters as it takes down to one."""
    return f"{section(chance)} {quarters(chance, chance.quarterings)}"


def instrument(chance, document, where):
    """The fields of a deed or a release, after the examiner's."""
    estates = chance.choice(ESTATES)
    grantee = chance.choice(chance.parties)
    grantor = "UNITED STATES" if chance.random() < 0.7 else chance.choice([name for name in chance.parties if name != grantee])
    if chance.random() < 0.1:
        return f"release,{document},{grantor},{grantee},{estates},{where}"
    kind, share = chance.choice([("I", "1/2"), ("I", "1/1"), ("W", "1/4"), ("W", "1/64"), ("W", "1/1024")])
    reserve = f"{estates[0]}1/4096" if chance.random() < 0.1 else ""
    return f"deed,{document},{grantor},{grantee},{estates},{kind}{share},{reserve},{where}"


def deeds(chance, count):
    for document in range(1, count + 1):
        yield f"1,{instrument(chance, document, tract(chance))}"


def deeds_of(where):
    """Deeds and releases of tracts that a function gives."""

    def steps(chance, count):
        for document in range(1, count + 1):
            yield f"1,{instrument(chance, document, where(chance))}"

    return steps


def sheets_of(where):
    """Sheets of tracts that a function gives, after a few deeds."""

    def steps(chance, count):
        posted = min(count // 100, 200)
        yield from deeds(chance, posted)
        for _ in range(count - posted):
            yield f"1,sheet,{where(chance)}"

    return steps


def chains(chance, count):
    for document in range(1, count + 1):
        if document % 4 == 0:
            yield f"1,chain,{section(chance)}"
        else:
            yield f"1,{instrument(chance, document, section(chance))}"


def parts(chance, count):
    """Every second step asks for the chain of a cell of one of the eight sections."""
    for document in range(1, count + 1):
        where = f"{chance.townships[0]} sec {chance.randint(1, 8)} {chance.choice(QUARTERS)}{chance.choice(QUARTERS)}"
        if document % 2 == 0:
            yield f"1,chain,{where}{quarters(chance, chance.quarterings - 2)}"
        else:
            yield f"1,{instrument(chance, document, where)}"


def one_of(chance, sections):
    """One of the first sections, which go on in the next township after 36."""
    number = chance.randint(1, sections) - 1
    return f"{chance.townships[number // 36]} sec {number % 36 + 1}"


def part_of(chance, sections):
    """A square of one of the first sections, of ten acres or of forty."""
    return f"{one_of(chance, sections)} {quarters(chance, chance.choice([2, 3]))}"


def bargains(chance, count):
    """Transactions of eleven rows: a begin, eight deeds of parts of a section, its sheet, a commit."""
    for document in range(1, count // 11 * 11 + 1):
        turn = document % 11
        if turn == 1:
            where = section(chance)
            yield "1,begin"
        elif turn == 10:
            yield f"1,sheet,{where}"
        elif turn == 0:
            yield "1,commit"
        else:
            yield f"1,{instrument(chance, document, f'{where} {quarters(chance, chance.choice([1, 2, 3]))}')}"


def owners(chance, count):
    """Deeds of parts of some sections, 75 for each but at most a fiftieth of the steps, and then sheets of these sections."""
    posted = min(count // 50, 75 * chance.sections)
    for document in range(1, posted + 1):
        yield f"1,{instrument(chance, document, part_of(chance, chance.sections))}"
    for _ in range(count - posted):
        yield f"1,sheet,{one_of(chance, chance.sections)}"


def many(chance, count):
    """Deeds of parts of some sections, a twentieth of the steps, and then sheets of these sections."""
    posted = count // 20
    for document in range(1, posted + 1):
        yield f"1,{instrument(chance, document, part_of(chance, chance.sections))}"
    for _ in range(count - posted):
        yield f"1,sheet,{one_of(chance, chance.sections)}"


def turns(chance, count):
    """Of twenty steps one is a deed of a part of some sections, and the others are sheets of these sections."""
    for document in range(1, count + 1):
        if document % 20 == 0:
            yield f"1,{instrument(chance, document, part_of(chance, chance.sections))}"
        else:
            yield f"1,sheet,{one_of(chance, chance.sections)}"


def histories(chance, count):
    """Deeds of parts of 64 sections, a twentieth of the steps and at most 2,000, and then chains of these sections."""
    posted = min(count // 20, 2_000)
    places = [section(chance) for _ in range(64)]
    for document in range(1, posted + 1):
        yield f"1,{instrument(chance, document, f'{chance.choice(places)} {quarters(chance, chance.choice([1, 2]))}')}"
    for _ in range(count - posted):
        yield f"1,chain,{chance.choice(places)}"


def union(chance):
    """Fifty of the squares of ten acres of a section, in 919 bytes at most."""
    squares = [f"{first}{second}{third}" for first in QUARTERS for second in QUARTERS for third in QUARTERS]
    return f'"{section(chance)} {", ".join(chance.sample(squares, 50))}"'


def interleaved_by(examiners):
    """Each turn is that of an examiner by chance; a transaction has up to 20 steps, and one of ten is aborted."""

    def steps(chance, count):
        left = [0] * (examiners + 1)
        for document in range(1, count + 1):
            examiner = chance.randint(1, examiners)
            if left[examiner] == 0:
                left[examiner] = chance.randint(2, 21)
                yield f"{examiner},begin"
            elif left[examiner] == 1:
                left[examiner] = 0
                yield f"{examiner},{'abort' if chance.random() < 0.1 else 'commit'}"
            else:
                left[examiner] -= 1
                if chance.random() < 0.3:
                    yield f"{examiner},sheet,{tract(chance)}"
                else:
                    yield f"{examiner},{instrument(chance, document, tract(chance))}"

    return steps


def short(chance, count):
    """Each turn is that of an examiner by chance: it begins, posts a deed, posts another, commits."""
    turns = [0] * (EXAMINERS + 1)
    for document in range(1, count + 1):
        examiner = chance.randint(1, EXAMINERS)
        turn = turns[examiner]
        turns[examiner] = (turn + 1) % 4
        if turn in (1, 2):
            yield f"{examiner},{instrument(chance, document, cell(chance))}"
        else:
            yield f"{examiner},{'begin' if turn == 0 else 'commit'}"


def long(chance, count):
    for document in range(1, count + 1):
        turn = document % 5002
        if turn == 1:
            yield "1,begin"
        elif turn == 0:
            yield "1,commit"
        else:
            yield f"1,{instrument(chance, document, cell(chance))}"


def reviewed(chance, count):
    places = []
    for document in range(1, count + 1):
        turn = document % 10002
        if turn == 1:
            yield "1,begin"
        elif turn == 0:
            yield "1,commit"
        elif turn <= 5001:
            places.append(cell(chance))
            yield f"1,{instrument(chance, document, places[-1])}"
        else:
            yield f"1,chain,{places.pop()}"


def crowd(chance, count):
    """All examiners begin, then each posts deeds in its turn, and at last all commit."""
    examiners = min(9_999, count // 3)
    yield from (f"{examiner},begin" for examiner in range(1, examiners + 1))
    for document in range(1, count - 2 * examiners + 1):
        yield f"{document % examiners + 1},{instrument(chance, document, cell(chance))}"
    yield from (f"{examiner},commit" for examiner in range(1, examiners + 1))


def refused(chance, count):
    """All examiners but the first begin and ask for the sheet of a section, and then the first posts in it."""
    where = f"{chance.townships[0]} sec 1"
    readers = min(9_998, count // 3)
    yield from (f"{examiner},begin" for examiner in range(2, readers + 2))
    yield from (f"{examiner},sheet,{where}" for examiner in range(2, readers + 2))
    yield "1,begin"
    for document in range(1, count - 2 * readers):
        yield f"1,{instrument(chance, document, where)}"


def transactions(chance, count, where):
    """The examiners' transactions in turn, each of a sheet and two deeds in the section that a function gives."""
    turns = [f"{examiner},{word}" for examiner in range(1, chance.examiners + 1) for word in ("begin", "sheet", "deed", "deed", "commit")]
    for document in range(1, count // len(turns) * len(turns) + 1):
        turn = turns[(document - 1) % len(turns)]
        examiner, word = turn.split(",")
        place = where(int(examiner))
        if word == "sheet":
            yield f"{turn},{place}"
        elif word == "deed":
            yield f"{examiner},{instrument(chance, document, f'{place} {quarters(chance, chance.quarterings)}')}"
        else:
            yield turn


def own(chance, count):
    yield from transactions(chance, count, lambda examiner: f"{chance.townships[examiner - 1]} sec {chance.randint(1, 36)}")


def shared(chance, count):
    yield from transactions(chance, count, lambda examiner: f"{chance.townships[0]} sec 1")


KINDS = {
    "deeds": deeds,
    "sheets": sheets_of(section),
    "chains": chains,
    "parts": parts,
    "townships": deeds_of(lambda chance: chance.choice(chance.townships)),
    "sections": deeds_of(section),
    "quarters": deeds_of(lambda chance: f"{section(chance)} {chance.choice(QUARTERS)}"),
    "cells": deeds_of(cell),
    "plats": sheets_of(lambda chance: chance.choice(chance.townships)),
    "plants": sheets_of(lambda chance: "everything"),
    "bargains": bargains,
    "owners": owners,
    "many": many,
    "turns": turns,
    "histories": histories,
    "unions": deeds_of(union),
    "interleaved": interleaved_by(EXAMINERS),
    "fifty": interleaved_by(50),
    "short": short,
    "long": long,
    "reviewed": reviewed,
    "crowd": crowd,
    "refused": refused,
    "own": own,
    "shared": shared,
}


def main():
    options = argparse.ArgumentParser(description="Writes a large valid script of the program titleplant.")
    options.add_argument("--kind", choices=sorted(KINDS), required=True)
    options.add_argument("--rows", type=int, default=10_000, help="all rows, at most 100000 (default 10000)")
    options.add_argument("--seed", type=int, default=1)
    options.add_argument("--examiners", type=int, choices=range(1, 65), default=8, metavar="N", help="of an office (default 8)")
    options.add_argument("--townships", type=int, choices=range(1, 65), default=64, metavar="N", help="declared (default 64)")
    options.add_argument("--parties", type=int, choices=range(2, 201), default=200, metavar="N", help="declared (default 200)")
    options.add_argument("--sections", type=int, choices=range(1, 2_305), metavar="N", help="of owners (default 8), many and turns (36)")
    options.add_argument("--side", type=int, choices=sorted(QUARTERINGS), default=16, help="cells of a section's side (default 16)")
    asked = options.parse_args()
    chance = random.Random(asked.seed)
    asked.sections = asked.sections or (36 if asked.kind in ("many", "turns") else 8)
    chance.townships, chance.parties = TOWNSHIPS[:asked.townships], PARTIES[:asked.parties]
    declared = [f"township,{name}" for name in chance.townships] + [f"party,{name}" for name in chance.parties]
    if not len(declared) + 36 <= asked.rows <= 100_000:
        options.error(f"--rows has to be from {len(declared) + 36} to 100000")
    if asked.kind == "own" and asked.examiners > asked.townships:
        options.error("--kind own wants a township for each examiner")
    if asked.sections > 36 * asked.townships:
        options.error("--sections has to be at most 36 for each township")
    chance.quarterings = QUARTERINGS[asked.side]
    chance.sections = asked.sections
    chance.examiners = asked.examiners
    steps = KINDS[asked.kind](chance, asked.rows - len(declared))
    sys.stdout.writelines(f"{row}\n" for row in declared)
    sys.stdout.writelines(f"{row}\n" for row in steps)


if __name__ == "__main__":
    main()
