"""Lists of edges, read as docs/commands/import.md describes them."""

import re

from network import Fault, Item, weighed


def rows(text, first=1):
    """The lines that have words and are no comments: number, line, words."""
    for number, line in enumerate(text.split(b"\n"), first):
        words = re.findall(rb"[^\t\r ,]+", line)
        if words and words[0][:1] not in (b"#", b"%"):
            yield number, line, words


def is_utf8(text):
    try:
        text.decode()
    except UnicodeDecodeError:
        return False
    return True


def line_fault(line):
    """The kind of fault that a line has as a whole, or None."""
    if not is_utf8(line):
        return "NotUtf8"
    if re.search(rb"[\x00-\x08\x0a-\x0c\x0e-\x1f\x7f]", line):
        return "ControlCharacter"
    return "LongLine" if len(line) > 65536 else None


def is_heading(lines):
    """Whether the first line has no numbers at its front, and the second has two."""
    fronts = [[] if line_fault(line) else [word.isdigit() for word in words[:2]] for _, line, words in lines[:2]]
    return fronts == [[False, False], [True, True]]


def has_gap(line):
    """Whether nothing stands before the first comma or between two, and a word behind it."""
    return re.search(rb"(?:^|,)[\t\r ]*,[\t\r ,]*[^\t\r ,]", line) is not None


def places(lines, columns):
    """The places of columns that are named by numbers or headings, and whether one is named by a heading."""
    found = []
    for column in columns:
        if column.isdigit():
            found.append(int(column) - 1)
        elif not lines or column.encode() not in lines[0][2]:
            raise Fault("NoHeading", lines[0][0] if lines else 0)
        else:
            found.append(lines[0][2].index(column.encode()))
    return found, not all(column.isdigit() for column in columns)


def parts(words, columns, number):
    """The ends of an edge, and its weight or None."""
    if columns is None:
        if len(words) not in (2, 3):
            raise Fault("OneWord" if len(words) == 1 else "TooManyWords", number)
        return words[:2], words[2] if len(words) == 3 else None
    if max(columns[:2]) >= len(words):
        raise Fault("NoColumn", number)
    return [words[at] for at in columns[:2]], words[columns[2]] if len(columns) == 3 and columns[2] < len(words) else None


def read(text, options):
    """The edges of a text."""
    lines = list(rows(text))
    columns, headed = places(lines, options.columns) if options.columns else (None, False)
    if not options.header and not options.columns and is_heading(lines):
        raise Fault("Heading", lines[0][0])
    for number, line, words in lines[1 if options.header or headed else 0 :]:
        fault = line_fault(line) or ("EmptyPlace" if has_gap(line) and not options.gaps else None)
        if fault:
            raise Fault(fault, number)
        ends, weight = parts(words, columns, number)
        yield Item({number}, ends, *((options.scale or 1, False) if weight is None else weighed(weight, options.scale, number)))


def guesses(text, options):
    """The lines that tell what was guessed of a text."""
    told = []
    lines = list(rows(text))
    if lines and not options.header and not options.columns:
        front = b" ".join(lines[0][2][:2]).lower()
        if front in (b"source target", b"from to", b"src dst", b"fromnodeid tonodeid", b"node1 node2", b"id1 id2"):
            told.append("the first line looks like headings, and was taken for an edge (--header passes over it)\n")
    if not options.columns and options.scale is None and any(len(words) == 3 and all(word.isdigit() for word in words) for _, _, words in lines):
        told.append("of three numbers in a line the third was taken for a weight (--columns FROM,TO[,WEIGHT] says which are meant)\n")
    return "".join(told).encode()
