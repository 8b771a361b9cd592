"""A job written as text, and its job file (document 01, "Job file")."""
import struct

from texts import Wrong, box, kind_of, point


def read(name, lines, point_of=point):
    """The job's kind, box, and parts of points; `point_of` reads a point's words."""
    kind, edges, parts = None, None, []
    for at, line in enumerate(lines, 1):
        words, place = line.split("#")[0].split(), f"{name}:{at}"
        if not words:
            continue
        if words[0] == "kind":
            if len(words) != 2:
                raise Wrong(f"{place}: write 'kind point', 'kind line' or 'kind polygon'")
            kind = kind_of(words[1], place)
        elif words[0] == "box":
            edges = box(words, place)
        elif words[0] == "part":
            if len(words) != 1:
                raise Wrong(f"{place}: 'part' stands alone; its points follow, one to a line")
            parts.append([])
        elif not parts:
            raise Wrong(f"{place}: a line 'part' comes before the first point")
        else:
            parts[-1].append(point_of(words, place))
    if kind is None:
        raise Wrong(f"{name}: no line 'kind point', 'kind line' or 'kind polygon'")
    if edges is None:
        raise Wrong(f"{name}: no line 'box x_min x_max y_min y_max'")
    return kind, edges, parts


def head(kind, edges, parts):
    """The file up to its points: kind, box, and each part's end."""
    out, end = struct.pack("<I4iI", kind, *edges, len(parts)), 0
    for part in parts:
        end += len(part)
        out += struct.pack("<I", end)
    return out


def packed(kind, edges, parts):
    out = head(kind, edges, parts)
    for part in parts:
        for x_y in part:
            out += struct.pack("<2i", *x_y)
    return out
