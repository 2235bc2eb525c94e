"""Arrays in NumPy's files, written and read from what docs/formats.md says alone, and by NumPy where it is there."""

import io
import re
import struct

try:
    import numpy
except ImportError:
    numpy = None

MOST = 4294967295
#: How a type is read: its bytes and whether it has a sign.
TYPES = {"|u1": ("B", 1), "<u2": ("H", 2), "<u4": ("I", 4), "<u8": ("Q", 8), "<i4": ("i", 4), "<i8": ("q", 8)}


def spelled(shape, words):
    """The file of words with a shape, byte for byte as `numpy.save` writes it."""
    header = f"{{'descr': '<u4', 'fortran_order': False, 'shape': {tuple(shape)}, }}"
    blanks = 64 - (10 + len(header) + 1) % 64
    text = (header + " " * blanks + "\n").encode()
    data = b"\x93NUMPY\x01\x00" + struct.pack("<H", len(text)) + text + struct.pack(f"<{len(words)}I", *words)
    if numpy is not None:
        file = io.BytesIO()
        numpy.save(file, numpy.array(words, "<u4").reshape(shape))
        assert file.getvalue() == data, (shape, header)
    return data


def written(draws, kind, values):
    """A file of one axis with a type, its header in one of the ways that are read."""
    is_second = draws.random() < 0.3
    order = draws.choice(["False", "False", "True"])
    text = f"{{'descr': '{kind}', 'fortran_order': {order}, 'shape': ({len(values)},), }}" + " " * draws.choice([0, 1, 7, 60]) + "\n"
    length = struct.pack("<I" if is_second else "<H", len(text))
    front = b"\x93NUMPY" + (b"\x02\x00" if is_second else b"\x01\x00") + length + text.encode()
    return front + struct.pack(f"<{len(values)}{TYPES[kind][0]}", *values)


def header_words(text):
    """What stands for the type and between the parentheses of the shape; None where a header is spelled otherwise."""
    found = re.fullmatch(rb"\{'descr': '([^']*)', 'fortran_order': (?:True|False), 'shape': \(([^)]*)\), \} *\n", text, re.DOTALL)
    return found and found.groups()


def fault_of_array(data):
    """The first fault of a file as an array of one axis, None where it has none (docs/formats.md)."""
    if data[:6] != b"\x93NUMPY":
        return "Magic"
    if data[6:8] not in (b"\x01\x00", b"\x02\x00"):
        return "Version"
    size = 2 if data[6] == 1 else 4
    if len(data) < 8 + size:
        return "Header"
    length = int.from_bytes(data[8 : 8 + size], "little")
    header, body = data[8 + size : 8 + size + length], data[8 + size + length :]
    if len(header) < length or (words := header_words(header)) is None:
        return "Header"
    kind, shape = words
    if kind.decode("latin-1") not in TYPES:
        return "Kind"
    if not re.fullmatch(rb"(0|[1-9][0-9]*),", shape) or (count := int(shape[:-1])) > MOST:
        return "Shape"
    letter, width = TYPES[kind.decode("latin-1")]
    if len(body) != count * width:
        return "Length"
    return "Value" if any(not 0 <= value <= MOST for value in struct.unpack(f"<{count}{letter}", body)) else None
