"""A survey written as text, and its file (docs/RULES.md, section 11): a job whose points are doubles, with the map that puts them on the grid."""
import jobtext
from texts import Wrong, double, surveyed


def said(line):
    """The words of a line without its comment."""
    return line.split("#")[0].split()


def is_survey(lines):
    """Whether a line 'transform' makes the text a survey; it may stand anywhere."""
    return any(said(line)[:1] == ["transform"] for line in lines)


def read(name, lines):
    """The map's six coefficients, and the job's kind, box, and parts of surveyed points."""
    coefficients, rest = None, []
    for at, line in enumerate(lines, 1):
        words, place = said(line), f"{name}:{at}"
        if words[:1] != ["transform"]:
            rest.append(line)
            continue
        if coefficients is not None:
            raise Wrong(f"{place}: a second line 'transform'; one map is for all points")
        if len(words) != 7:
            raise Wrong(f"{place}: a map is six numbers: a b c d e f, for a*x + b*y + c and d*x + e*y + f")
        coefficients = [double(word, place) for word in words[1:]]
        rest.append("")  # the lines behind it keep their numbers
    return coefficients, *jobtext.read(name, rest, surveyed)


def packed(coefficients, kind, edges, parts):
    points = [number for part in parts for x_y in part for number in x_y]
    return jobtext.head(kind, edges, parts) + b"".join(coefficients + points)
