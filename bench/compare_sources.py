#!/usr/bin/env python3
"""Compares the lines that bench/sources had the two programs write, and prints a table of their times.

The folder has files PASS.PROGRAM, each of lines RULE SOURCE MATCHES UNSATISFIED NANOSECONDS NANOSECONDS.
"""
import pathlib
import sys

# what the plain program searches in place of a source: it knows lists of rows only
PLAIN = {"table": "table", "pile": "table", "volume": "volume"}


def read(path):
    """The counts and the times of each line, by rule and source."""
    rows = [line.split() for line in path.read_text().splitlines()]
    return {tuple(row[:2]): (tuple(row[2:4]), tuple(map(int, row[4:]))) for row in rows}


def merge(folder, program):
    """Of each rule and source every pair of counts that was given, and the least of each time."""
    passes = [read(path) for path in sorted(folder.glob(f"*.{program}"))]
    return {
        key: ({one[key][0] for one in passes}, [min(times) for times in zip(*(one[key][1] for one in passes))])
        for key in passes[0]
    }


def times(proved, plain):
    return [f"{proved / 1000:,.1f} / {plain / 1000:,.1f}", f"{proved / plain:.2f}" if plain else "-"]


def main():
    folder = pathlib.Path(sys.argv[1])
    proved, plain = merge(folder, "proved"), merge(folder, "plain")
    head = ["rule", "source", "matches", "unsatisfied", "matches, µs", "ratio", "unsatisfied, µs", "ratio"]
    print("Microseconds for all of a rule's matches, proved / plain; a ratio is of proved to plain.\n")
    print("|", " | ".join(head), "|")
    print("|" + "---|" * len(head))
    differing = []
    for (rule, source), (counts, proved_times) in proved.items():
        plain_counts, plain_times = plain[rule, PLAIN[source]]
        if counts != plain_counts or len(counts) != 1:
            differing.append((rule, source, counts, plain_counts))
        columns = [column for pair in zip(proved_times, plain_times) for column in times(*pair)]
        print("|", " | ".join([rule, source, *min(counts), *columns]), "|")
    print()
    for rule, source, *both in differing:
        print("differs:", rule, source, "proved", *sorted(both[0]), "plain", *sorted(both[1]))
    print("differences", len(differing))
    sys.exit(1 if differing else 0)


main()
