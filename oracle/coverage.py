"""Reads lcov from standard input and reports on the Rust's lines (started by `coverage`)."""

import sys
from collections import defaultdict
from pathlib import Path

HERE = Path(__file__).resolve().parent


def explained():
    """The lines that unreached.txt explains: {file: {line, ...}}"""
    lines = defaultdict(set)
    for row in (HERE / "unreached.txt").read_text().splitlines():
        if row and not row.startswith("#"):
            file, span, _ = row.split(maxsplit=2)
            first, _, last = span.partition("-")
            lines[file].update(range(int(first), int(last or first) + 1))
    return lines


def measured():
    """For each file its lines and its branches: (file, what): {place: times reached}"""
    counts, file = defaultdict(dict), None
    for row in sys.stdin:
        key, _, value = row.strip().partition(":")
        fields = value.split(",")
        if key == "SF":
            file = Path(value).name
        elif key == "DA":
            counts[file, "lines"][int(fields[0]), ] = int(fields[1])
        elif key == "BRDA":
            *place, times = fields
            counts[file, "branches"][tuple(map(int, place))] = 0 if times == "-" else int(times)
    return counts


def main():
    known, failed = explained(), False
    for (file, what), counts in sorted(measured().items()):
        own = len((HERE / "mvt/src" / file).read_text().splitlines())
        counts = {place: times for place, times in counts.items() if place[0] <= own}
        missed = {place for place, times in counts.items() if times == 0}
        unexplained = {place[0] for place in missed if place[0] not in known[file]}
        print(f"{file}: {len(counts) - len(missed)} of {len(counts)} {what} reached; "
              f"of the {len(missed)} others, unreached.txt explains {len(missed) - len(unexplained)}")
        for line in sorted(unexplained):
            failed = True
            print(f"  not reached: {file} line {line}")
    sys.exit(failed)


if __name__ == "__main__":
    main()
