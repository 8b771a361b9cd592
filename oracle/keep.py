#!/usr/bin/env python3
"""Writes the kept answers: keep.py FOLDER, or keep.py --from-kept

With a FOLDER the Rust is asked. For each kind a text file, case and answer by turns
on a line with a tab between them; and from these texts, for each replay program,
its cases in binary (KIND-1.bin and so on) and what it must print (PROGRAM.out).
Without the Rust, --from-kept writes the cases and what is printed anew from the
texts in answers/, and copies them to the programs. README.md has the layouts.
"""

import shutil
import struct
import subprocess
import sys
from pathlib import Path

import cases
import document
import refusals
from reading import Fault, vertices

ORACLE = Path(__file__).resolve().parent
DRIVER = ORACLE / "target/release/driver"
BINARY_LIMIT = 65_536  # bytes, so that a program with a bounded buffer reads each file
ASKED = ["jobs", "states", "clips", "params", "commands", "tiles"]
PROGRAMS = {"replay_words": ["params", "commands"], "replay_clip": ["clips"], "replay_read": ["readings"],
            "replay_jobs": ["jobs"], "replay_states": ["states"], "replay_tiles": ["tiles"]}
STATES_ROOM = 1_024  # the longest word list that replay_states lends
READINGS_ROOM = 1_024  # the longest list of numbers that replay_read lends


# The texts

def ask(kind, lines):
    """The driver's answers, one for each line."""
    given = "".join(line + "\n" for line in lines)
    run = subprocess.run([DRIVER, kind], input=given, capture_output=True, text=True)
    if run.returncode != 0:
        sys.exit(f"the driver failed: {run.stderr.strip()}")
    return run.stdout.splitlines()


def keep(folder, kind):
    lines = list(cases.lines(kind))
    answers = ask(kind, lines)
    pairs = list(zip(lines, answers, strict=True))
    (folder / f"{kind}.txt").write_text("".join(f"{case}\t{answer}\n" for case, answer in pairs))
    outside = sum(answer.startswith("outside") for answer in answers)
    return f"{kind}: {len(pairs)} cases, {outside} of them outside the comparison"


def kept(folder, kind):
    """Cases and answers of a text."""
    return [line.split("\t") for line in (folder / f"{kind}.txt").read_text().splitlines()]


def keep_readings(folder):
    """Every kept list of words with its vertices, by an independent reading."""
    lists = sorted({answer for _, answer in kept(folder, "jobs") if answer.startswith("words")})
    pairs = [(words, [n for vertex in vertices(words) for n in vertex])
             for words in ([int(n) for n in answer.split()[2:]] for answer in lists)]
    (folder / "readings.txt").write_text("".join(
        f"{' '.join(map(str, words))}\t{' '.join(map(str, numbers))}\n" for words, numbers in pairs))
    return f"readings: {len(pairs)} lists of words"


# What a replay prints

def row(*numbers):
    return " ".join(map(str, numbers)) + "\n"


def column(words):
    return f"words {len(words)}\n" + "".join(f"{word}\n" for word in words)


def refused(number, accepted=0):
    return f"refused {number} at {accepted}\n"


def told(text, call, *arguments):
    """The text of what a call of document 01 answers, or of its refusal."""
    try:
        answer = call(*arguments)
    except document.Refused as fault:
        return refused(fault.number, fault.accepted)
    return text(answer)


# The replays: for each case its numbers and what is printed. The Rust's answer is used where it has one.

def is_outside(answer):
    return answer.startswith("outside")


def integers(text):
    return [int(n) for n in text.split()]


def params(pairs):
    for case, answer in pairs:
        yield integers(case), row(answer, case)


def commands(pairs):
    def by_document(name, count):
        return told(lambda word: row(word, name, count), document.command, name, count)

    for case, answer in pairs:
        yield integers(case), by_document(*integers(case)) if is_outside(answer) else row(answer, case)
    for case in refusals.commands():
        yield case, by_document(*case)


def clips(pairs):
    def by_document(x1, y1, x2, y2, *box):
        return told(lambda ends: row(*ends[0], *ends[1]), document.clip, (x1, y1), (x2, y2), box)

    for case, answer in pairs:
        numbers = integers(case)
        if is_outside(answer):
            yield numbers, by_document(*numbers)
        else:  # where the Rust says none, the segment stays as given
            yield numbers, row(*numbers[:4]) if answer == "none" else row(answer)
    for case in refusals.clips():
        yield case, by_document(*case)


def whole(data):
    """Whether a file can be given in numbers."""
    return len(data) % 4 == 0


def jobs(pairs):
    for case, answer in pairs:
        data = bytes.fromhex(case)
        if not is_outside(answer):
            yield document.unsigned(data), column(answer.split()[2:])
        elif whole(data):
            yield document.unsigned(data), told(column, document.job, data)
    for data in refusals.jobs():
        yield document.unsigned(data), told(column, document.job, data)


def point_numbers(point):
    return [0, 0, 0] if point is None else [1, *point]


def state_rows(kind, box, raw, before, last, place, count, used):
    """A state: kind and box, its three points, its three figures."""
    return [[kind, *box], point_numbers(raw), point_numbers(before), point_numbers(last), [place, count, used]]


def call_numbers(room, call, *arguments):
    """A call as a record: its number, the lent list's length, its arguments."""
    if call == "carry":
        return [3, room, *(n for numbers in state_rows(*arguments[0]) for n in numbers)]
    if call == "new":
        kind, box = arguments
        return [0, room, kind, *box]
    return [1, room, *arguments[0]] if call == "add" else [2, room]


def state_text(rows, words):
    return "".join(row(*numbers) for numbers in rows) + column(words)


def kept_point(text):
    return None if text == "-" else tuple(map(int, text.split(",")))


def job_states(case, answer):
    """The calls of a job, and the Rust's state and words after each."""
    kind, box, _ = document.job_parts(bytes.fromhex(case))
    calls = document.job_calls(bytes.fromhex(case))
    for call, state in zip(calls, answer.split("; ")[1:], strict=True):
        _, count, place, raw, before, last, used, *words = state.split()
        rows = state_rows(kind, box, *map(kept_point, (raw, before, last)), place, count, used)
        yield call_numbers(STATES_ROOM, *call), state_text(rows, words)


STATE_FIELDS = ("kind", "box", "raw", "before", "last", "place", "count", "used")


def carried(encoder, state):
    """The encoder with another state, over the same list."""
    for name, value in zip(STATE_FIELDS, state, strict=True):
        setattr(encoder, name, value)
    return encoder


def document_states(calls):
    """Calls by document 01: a refusal, if there is one, and then the state and the words. Where no encoder can be made there is a state of zeros."""
    encoder = None
    for room, call, *arguments in calls:
        text = ""
        if call == "new":
            encoder = document.Encoder(0, (0, 0, 0, 0), room)
        encoder.room = room
        try:
            if call == "carry":
                encoder = carried(encoder, *arguments)
            else:
                encoder = document.called(encoder, call, *arguments, room=room)
        except document.Refused as fault:
            text = refused(fault.number)
        rows = state_rows(*(getattr(encoder, name) for name in STATE_FIELDS))
        yield call_numbers(room, call, *arguments), text + state_text(rows, encoder.words())


def states(pairs):
    for case, answer in pairs:
        if is_outside(answer):
            calls = [(STATES_ROOM, *call) for call in document.job_calls(bytes.fromhex(case))]
            yield from document_states(calls)
        else:
            yield from job_states(case, answer)
    for calls in refusals.states():
        yield from document_states(calls)


def vertex_rows(numbers):
    """How many vertices there are, and each on a line."""
    return row(len(numbers) // 3) + "".join(row(*numbers[at:at + 3]) for at in range(0, len(numbers), 3))


def readings(pairs):
    for case, answer in pairs:
        yield [READINGS_ROOM, *integers(case)], vertex_rows(integers(answer))
    for room, words in refusals.readings():
        try:
            text = vertex_rows([n for vertex in vertices(words, room) for n in vertex])
        except Fault as fault:
            text = refused(*fault.args)
        yield [room, *words], text


def tile_text(outcomes, tags, data):
    """What the program tiles prints, then the key and value index of each tag."""
    lines = [f"refused {n}\n" if n else "ok\n" for n in outcomes] + [f"bytes {len(data)}\n"]
    lines += [data[at:at + 32].hex() + "\n" for at in range(0, len(data), 32)]
    return "".join(lines) + "".join(row(*tags[at:at + 2]) for at in range(0, len(tags), 2))


def rust_tile(answer):
    outcomes, tags, data = (part.split()[1:] for part in answer.split("; "))
    numbers = integers(" ".join(outcomes).replace("refused ", "").replace("ok", "0"))
    return tile_text(numbers, tags, bytes.fromhex("".join(data[1:])))


def document_tile(data):
    run = document.Run(data)
    return tile_text(run.outcomes, run.tags, run.tile.out)


def tiles(pairs):
    for case, answer in pairs:
        data = bytes.fromhex(case)
        if not is_outside(answer):
            yield document.unsigned(data), rust_tile(answer)
        elif whole(data):
            yield document.unsigned(data), document_tile(data)
    for data in [*refusals.tiles(), *refusals.strict_tiles()]:
        yield document.unsigned(data), document_tile(data)


REPLAYED = {f.__name__: f for f in (params, commands, clips, readings, jobs, states, tiles)}


def write_cases(folder, kind, records):
    """Whole records only, each behind its length, in as many files as the limit asks for."""
    files = [b""]
    for record in records:
        data = cases.le([len(record), *record])
        if len(files[-1]) + len(data) > BINARY_LIMIT:
            files.append(b"")
        files[-1] += data
    for number, data in enumerate(files, 1):
        (folder / f"{kind}-{number}.bin").write_bytes(data)


def derive(folder):
    """The programs' cases and what they print, from the texts of a folder."""
    for old in [*folder.glob("*.bin"), *folder.glob("*.out")]:
        old.unlink()
    for program, kinds in PROGRAMS.items():
        printed = ""
        for kind in kinds:
            pairs = list(REPLAYED[kind](kept(folder, kind)))
            write_cases(folder, kind, [record for record, _ in pairs])
            printed += "".join(text for _, text in pairs)
        (folder / f"{program}.out").write_text(printed)


def copy_to_programs(folder):
    for program, kinds in PROGRAMS.items():
        crate = ORACLE.parent / "crates" / program
        for old in (crate / "data").glob("*.bin"):
            old.unlink()
        for kind in kinds:
            for file in sorted(folder.glob(f"{kind}-*.bin")):
                shutil.copyfile(file, crate / "data" / file.name)
        shutil.copyfile(folder / f"{program}.out", crate / "stdout")


def main(arguments):
    if len(arguments) != 1:
        sys.exit("usage: keep.py FOLDER | --from-kept")
    if arguments == ["--from-kept"]:
        derive(ORACLE / "answers")
        copy_to_programs(ORACLE / "answers")
        return
    folder = Path(arguments[0])
    for kind in ASKED:
        print(keep(folder, kind))
    print(keep_readings(folder))
    derive(folder)


if __name__ == "__main__":
    main(sys.argv[1:])
