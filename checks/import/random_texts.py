"""Random texts of the three formats, from small alphabets, so that parallel edges, self-loops and chains meet often; and damage."""

NAMES = ["a", "b", "c", "d", "7", "007", "x_y", "Zoë", "東", "🐝", "e\u0301", "\u200b", "\ufeffa", "é"]
GOOD = ["1", "0", "5", "007", "2", "12"]
DECIMALS = ["1.5", ".5", "2.", "0.25", "1.26", "2e3", "1E-3", "15e-1", "1e+2", "0.0005", "4294967.2954", "18446744073709551615e-15", "0e99999999999", "1e-99999"]
BAD = ["4294967296", "9" * 40, ".", "2e", "-1", "-0.5", "-", "+1", "0x1", "x", "1_0", "١", "18446744073709551616e-12", "1e99999999999", "4294967295.5", "4294967295.4", "1.5"]
BYTES = {
    "edges": [b"\xff", b"\0", b"\x01", b"\x7f", b"\xc3", b"\xed\xa0\x80", b"\x0c", b"\x1b", b" ", b",", b"\n", b"#", b"%", b"\r", b"0", b"."],
    "matrix-market": [b"\xff", b"\0", b"\x7f", b" ", b",", b"\n", b"%", b"\r", b"0", b"1", b"9", b".", b"-"],
    "dot": [b'"', b"\\", b"{", b"}", b"[", b"]", b";", b",", b"=", b":", b"<", b">", b"-", b"/", b"*", b"#", b"\n", b" ", b"a", b"\0", b"\xff", b"+"],
}


def options(draws, form):
    """The words of some options that a format has."""
    words = []
    if form == "edges":
        words += draws.choice([[], [], [], ["--header"], ["--numbers"], ["--header", "--numbers"]])
        words += draws.choice([[], [], ["--delimiter", "any"]])
        words += draws.choice([[]] * 9 + [["--columns", "1,2"], ["--columns", "2,1,3"], ["--columns", "1,3,2"]])
    elif draws.random() < 0.5:
        words += ["--undirected"]
    if draws.random() < 0.5:
        words += ["--scale", draws.choice(["1", "2", "3", "10", "1000", "7"] * 3 + ["4294967295"])]
    words += ["--drop-loops"] if draws.random() < 0.7 else []
    words += ["--parallel", draws.choice(["min", "max", "first"])] if draws.random() < 0.7 else []
    return " ".join(words)


def weight(draws, words):
    """A weight: a good one nearly always."""
    if draws.random() < 0.02:
        return draws.choice(BAD)
    return draws.choice(GOOD * 3 + (DECIMALS * 2 if "--scale" in words else ["4294967295"]))


def edges(draws, words):
    numbers = "--numbers" in words
    few = [str(draws.randrange(9)) for _ in range(5)] + ["03", "65535"] if numbers else draws.sample(NAMES, 6) + ["n1", '"q"', "a#"]

    def line():
        kind = draws.random()
        if kind < 0.1:
            return draws.choice(["", "# \0x", "% x", " ,\t", "\r", " #"])
        parts = [draws.choice(few), draws.choice(few), *([weight(draws, words)] if kind < 0.6 else [])]
        if kind > 0.99:
            parts = draws.choice([parts[:1], [*parts, "1", "z"], ["-1", "65536"], ["x", "1"]])
        return draws.choice(["", "", " "]) + draws.choice([" ", "\t", ",", "  ", ", ", " ,\t"]).join(parts) + draws.choice(["", "", "\r", " "])

    return "\n".join(line() for _ in range(draws.choice([0, 1, 2, 2, 3, 5, 8, 13, 21]))) + draws.choice(["", "\n"])


def matrix(draws, words):
    field, nodes = draws.choice(["pattern", "integer", "real", "Real"]), draws.choice([1, 2, 3, 5, 8])
    symmetry = draws.choice(["symmetric", "general", "SYMMETRIC"] if "--undirected" in words else ["symmetric"] * 9 + ["general"])
    rows = [f"%%MatrixMarket matrix coordinate {field} {symmetry}", f"{nodes} {nodes} {{}}"]
    entries = 0
    for _ in range(draws.choice([0, 1, 2, 3, 5, 8, 13])):
        row = [str(draws.randint(1, nodes)), str(draws.randint(1, nodes)), *([] if field == "pattern" else [weight(draws, words)])]
        entries += 1
        if draws.random() < 0.01:
            row = draws.choice([row[:1], row[:2], [*row, "1"], ["0", *row[1:]], [str(nodes + 1), *row[1:]]])
        rows.append(draws.choice([" ", "\t", "  "]).join(row) + draws.choice(["", "", " "]))
    rows[1] = rows[1].format(entries + (draws.choice([-1, 1]) if draws.random() < 0.03 else 0))
    for _ in range(draws.choice([0, 0, 1, 2])):
        rows.insert(draws.randint(1, len(rows)), draws.choice(["% 1 2", "", "%", " \t"]))
    return draws.choice(["\n", "\n", "\r\n"]).join(rows) + draws.choice(["", "\n"])


def dot(draws, words):
    directed = "--undirected" in words and draws.random() < 0.6
    few = [*draws.sample(NAMES, 5), "node1", '"a b"', '"node"', '"a"', "-1", ".5", '"{"', '"//"']
    few = [name if name[0] in '"-.' or name.isdigit() or name.isidentifier() or not name.isascii() else "b" for name in few]

    def attribute():
        value = draws.choice(["red", '"a\\"b"', '"x\\\ny"', "<b<i>x</i>>", "3", '"/*"', '"\n#"'])
        key = draws.choice(["color", '"k k"', "label", "Weight"])
        return [key, "=", value] if draws.random() < 0.4 else ["weight", "=", f'"{weight(draws, words)}"']

    def attributes():
        parts = ["["]
        for _ in range(draws.choice([0, 1, 1, 2, 3])):
            parts += [*attribute(), *draws.choice([[], [","], [";"]])]
        return [*parts, "]"]

    def node():
        return [draws.choice(few), *draws.choice([[]] * 7 + [[":", "p"], [":", '"q"', ":", "ne"]])]

    def statement(deep):
        kind = draws.random()
        if kind < 0.15:
            return [*node(), *(attributes() if draws.random() < 0.3 else [])]
        if kind < 0.2:
            return [draws.choice(["node", "graph", "NODE"]), *attributes()]
        if kind < 0.22:
            return ["edge", "[", "color", "=", "red", "]"] if draws.random() < 0.9 else ["Edge", "[", "weight", "=", "2", "]"]
        if kind < 0.25:
            return ["rankdir", "=", draws.choice(["LR", '"\\"', "<x>"]) if draws.random() < 0.9 else "TB"]
        if kind < 0.35:
            return [*draws.choice([[], ["subgraph"], ["subgraph", "s"], ["SubGraph", '"s"']]), "{", *statements(deep + 1), "}"] if deep < 4 else node()
        parts = node()
        for _ in range(draws.choice([1, 1, 1, 2, 3])):
            parts += ["--" if directed == (draws.random() < 0.003) else "->", *node()]
        return parts + (attributes() if draws.random() < 0.5 else [])

    def statements(deep):
        return [token for _ in range(draws.choice([0, 1, 2, 3, 5])) for token in [*statement(deep), *draws.choice([[";"], []])]]

    tokens = [*draws.choice([[], [], ["strict"]]), ("digraph" if directed else draws.choice(["graph", "Graph"])), *draws.choice([[], ["g"], ['"g"']])]
    tokens += ["{", *statements(0), *statements(0), "}"]
    gaps = draws.choice([[" "], [" ", "\n", "\t", "\r\n"], [" ", "\n", " /* a -- b */ ", " // }\n", "\n# { \"\n", "/*\n*/"]])
    tight = draws.random() < 0.3
    text = draws.choice(["", "", "\n", "# x\n"])
    for token in tokens:
        text += ("" if tight and (token in "{}[];,=:" or text[-1:] in "{}[];,=:") else draws.choice(gaps)) + token
    return text + draws.choice(["", "\n", "\r\n", " // end"])


def damaged(draws, text, form):
    """A text of which some bytes are deleted, repeated, exchanged for others, or exchanged among each other; the first line of a matrix rarely."""
    begin = text.find(b"\n") if form == "matrix-market" and draws.random() < 0.8 else 0
    for _ in range(draws.choice([1, 1, 2, 3])):
        at = draws.randint(min(begin, len(text)), len(text))
        end = min(len(text), at + draws.choice([1, 1, 1, 2, 5, 20]))
        middle = draws.choice([b"", text[at:end] * 2, draws.choice(BYTES[form]), draws.choice(BYTES[form]) + text[at:end], text[at:end][::-1]])
        text = text[:at] + middle + text[end:]
    return text


TEXTS = {"edges": edges, "matrix-market": matrix, "dot": dot}


def cases(draws, number):
    """So many random cases of each format, every other one damaged: words, text."""
    for form, made in TEXTS.items():
        for at in range(number):
            words = options(draws, form)
            text = made(draws, words).encode()
            yield f"{form} {words}".strip(), damaged(draws, text, form) if at % 2 else text
