#!/usr/bin/env python3
"""Compares the lines that bench/run had the two programs write, and prints a table of their times.

The folder has files STYLE-NUMBER.PASS.PROGRAM, each of lines FIRST SECOND KIND ANSWER NANOSECONDS.
"""
import pathlib
import sys

PROGRAMS = ("proved", "plain")
STYLES = ("small", "large", "sparse", "hard", "hand")
KINDS = {"P": "reliance", "R": "restraint"}


def read(path):
    """The answer and the time of each question, by rule numbers and kind."""
    rows = [line.split() for line in path.read_text().splitlines()]
    return {tuple(row[:3]): (row[3], int(row[4])) for row in rows}


def merge(passes):
    """Of each question every answer that was given, and the least of its times."""
    if any(one.keys() != passes[0].keys() for one in passes):
        sys.exit("a pass has other questions than the first")
    return {
        asked: ({one[asked][0] for one in passes}, min(one[asked][1] for one in passes)) for asked in passes[0]
    }


def collect(folder, style, program):
    """What a program wrote for all volumes of a style."""
    found = {}
    for volume in sorted(folder.glob(f"{style}-*.vol")):
        passes = [read(path) for path in sorted(folder.glob(f"{volume.stem}.*.{program}"))]
        found |= {(volume.stem, *asked): answer for asked, answer in merge(passes).items()}
    return found


def differences(sides):
    """The questions that do not have one and the same answer, 0 or 1, everywhere."""
    both = sides["proved"].keys() | sides["plain"].keys()
    given = {asked: [sides[program].get(asked, ({"none"},))[0] for program in PROGRAMS] for asked in both}
    return {asked: one for asked, one in given.items() if one not in ([{"0"}] * 2, [{"1"}] * 2)}


def figures(times):
    """Median, total, the time that 99 of 100 do not exceed, and the worst."""
    times = sorted(times)
    return times[(len(times) - 1) // 2], sum(times), times[(len(times) * 99 + 99) // 100 - 1], times[-1]


def ratio(over, under):
    return f"{over / under:.2f}" if under else "-"


def row(style, letter, sides):
    asked = [one for one in sides["plain"] if one[3] == letter and one in sides["proved"]]
    proved, plain = (figures([sides[program][one][1] for one in asked]) for program in PROGRAMS)
    yeses = sum(sides["plain"][one][0] == {"1"} for one in asked)
    times = [f"{a:,} / {b:,}" for a, b in zip(proved, plain)]
    return [style, KINDS[letter], f"{len(asked):,}", f"{yeses:,}", *times, ratio(proved[0], plain[0]), ratio(proved[1], plain[1])]


def main():
    folder = pathlib.Path(sys.argv[1])
    head = ["style", "kind", "pairs", "yeses", "median", "total", "99 %", "worst", "median, ratio", "total, ratio"]
    print("Nanoseconds a call, proved / plain; the ratio is of proved to plain.\n")
    print("|", " | ".join(head), "|")
    print("|" + "---|" * len(head))
    differing = {}
    for style in STYLES:
        sides = {program: collect(folder, style, program) for program in PROGRAMS}
        differing |= differences(sides)
        for letter in KINDS:
            print("|", " | ".join(row(style, letter, sides)), "|")
    print()
    for asked, answers in sorted(differing.items()):
        print("differs:", *asked, "proved", *sorted(answers[0]), "plain", *sorted(answers[1]))
    print("differences", len(differing))
    sys.exit(1 if differing else 0)


main()
