"""Compares other rules for `bounded_by` with document 01's (started by `rules`).

overlap  document 01's: the bounding rectangle and the box overlap, edges counted
always   no test at all
exact    the segment and the closed box have a point in common
strict   as overlap, edges not counted
"""

import itertools
from pathlib import Path

import cases
import keep

DRIVERS = Path(__file__).resolve().parent / "target/rules"
RANDOM_CLIPS = 200_000


def small_clips():
    """Every segment from 3 below to 3 above every box from 0 to 1, 2 or 3."""
    for width, height in itertools.product(range(1, 4), repeat=2):
        xs, ys = range(-3, width + 4), range(-3, height + 4)
        for segment in itertools.product(xs, ys, xs, ys):
            yield (*segment, 0, width, 0, height)


def as_job(kind):
    def make(clip):
        x1, y1, x2, y2, *box = clip
        return cases.job(kind, box, [[(x1, y1), (x2, y2)]]).hex()
    return make


def as_clip(clip):
    return " ".join(map(str, clip))


def ask(rule, kind, lines):
    keep.DRIVER = DRIVERS / f"driver-{rule}"
    return keep.ask(kind, lines)


def whole(clip, answer):
    """A clip's answer, `none` taken as the segment as given."""
    return as_clip(clip[:4]) if answer == "none" else answer


def size(clip):
    """Small boxes first, then small numbers."""
    x_min, x_max, y_min, y_max = clip[4:]
    return x_max - x_min + y_max - y_min, sum(map(abs, clip)), clip


def compare(title, clips, kind, to_line):
    lines = [to_line(clip) for clip in clips]
    usual = ask("overlap", kind, lines)
    for rule in ("always", "exact", "strict"):
        other = ask(rule, kind, lines)
        if kind == "clips":
            pairs = [(whole(clip, a), whole(clip, b)) for clip, a, b in zip(clips, usual, other)]
        else:
            pairs = list(zip(usual, other))
        changed = [(size(clip), clip, a, b) for clip, (a, b) in zip(clips, pairs) if a != b]
        print(f"{title}, {rule}: {len(changed)} of {len(clips)} differ")
        if changed:
            _, clip, a, b = min(changed)
            print(f"  smallest: {as_clip(clip[:4])} in box {as_clip(clip[4:])}: {a} becomes {b}")


def main():
    small = list(small_clips())
    random = list(cases.clips(cases.Random(cases.KEPT_SEED), RANDOM_CLIPS))
    compare("small clips", small, "clips", as_clip)
    compare("random clips", random, "clips", as_clip)
    compare("small two-point lines", small, "jobs", as_job(cases.LINE))
    compare("small two-point rings", small, "jobs", as_job(cases.POLYGON))
    compare("random two-point lines", random, "jobs", as_job(cases.LINE))


if __name__ == "__main__":
    main()
