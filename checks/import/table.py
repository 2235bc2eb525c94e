"""Texts by hand with their outcome, written without the readers: (words, text, outcome).

An outcome is `NAMES: LINKS` or `#NODES: LINKS`, with `; dropped 1` and the like; or `KINDS LINES`, of which any may be told: `?WHAT` where docs/commands/import.md names no
kind, 0 where no line is told. Other texts, with the whole of what is told, and invalid arguments stand in cases/import_*.toml."""

PARALLEL = "edges --parallel "
MATRIX, LARGE = "matrix-market", "0 1 4294967295"
SYMMETRIC, GENERAL = b"%%MatrixMarket matrix coordinate real symmetric\n", b"%%MatrixMarket matrix coordinate pattern general\n"
KINDS = "Zoë é e\u0301 東京 אב नी 🐝 \u200b \ufeffb \u00a0 \u2028 \U0010ffff \x80 ﬁ".replace(" ", "|")


def path(number):
    """The links of a path, as the table writes them."""
    return ", ".join(f"{at} {at + 1}" for at in range(number - 1))


def edges_of(steps, number):
    """The lines of a ring's edges with some steps."""
    return b"".join(b"%d %d\n" % (at, (at + step) % number) for step in steps for at in range(number))


def nested(deep):
    """A graph with a node in subgraphs so deep."""
    return b"graph{" + b"{" * deep + b"a" + b"}" * deep + b"}"


EDGES = [
    ("edges", b"# who\nann bob 3\nbob, cid\n", "ann|bob|cid: 0 1 3, 1 2"),
    ("edges", b"a b\r\n\r\nb\tc ,007\r\n,\t\n %x \xff\0\nc d 0", "a|b|c|d: 0 1, 1 2 7, 2 3 0"),
    ("edges", b"b a 4294967295", "b|a: " + LARGE),
    ("edges", b"".join(f"{name} x\n".encode() for name in KINDS.split("|")),
     KINDS.split("|")[0] + "|x|" + "|".join(KINDS.split("|")[1:]) + ": 0 1" + "".join(f", {at} 1" for at in range(2, 15))),
    ("edges", b"\n\n# a b\n", "?no-nodes 0"), ("edges --header", b"a b\n", "?no-nodes 0"),
    ("edges --header", b"# x\n\nfrom to \xff weight, and more\na b 2\n", "a|b: 0 1 2"),
    ("edges", b"from to weight\na b 2\n", "BadWeight 1"),
    ("edges", b"from to weight\n0 1 2\n", "Heading 1"), ("edges --header", b"from to weight\na 1 2\n", "a|1: 0 1 2"),
    ("edges", b"\n# x\na b\n\n1 2\nc", "Heading 3"), ("edges", b"a 1\n1 2", "a|1|2: 0 1, 1 2"), ("edges", b"a b", "a|b: 0 1"),
    ("edges --columns 1,2", b"a b\n1 2", "a|b|1|2: 0 1, 2 3"), ("edges", b"a\n1 2", "OneWord 1"), ("edges", b"a\x7f b\n1 2", "ControlCharacter 1"),
    ("edges", b"a,,5", "EmptyPlace 1"), ("edges", b"a b\n ,b c", "EmptyPlace 2"), ("edges", b"a, ,b", "EmptyPlace 1"), ("edges", b"a,b,,", "a|b: 0 1"),
    ("edges --delimiter any", b",a,,5", "a|5: 0 1"), ("edges --columns 2,3", b"20 1 2 x\n21 2 3", "1|2|3: 0 1, 1 2"),
    ("edges --columns 3,1,2", b"a 5 b\nc 7 a\nc 9", "NoColumn 3"), ("edges --columns 1,3,2", b"a 5 b", "a|b: 0 1 5"),
    ("edges --columns 1,2,4", b"a b\nb c 5 6", "a|b|c: 0 1, 1 2 6"), ("edges --columns to,from", b"# x\nfrom to\na b", "b|a: 0 1"),
    ("edges --columns from,to", b"from whom\na b", "NoHeading 1"),
    ("edges", b"a b\nc\n", "OneWord 2"), ("edges", b"a b 1 2", "TooManyWords 1"), ("edges", b"a b\n\n\xc3 b\n", "NotUtf8 3"),
    ("edges", b"a b\x7f", "ControlCharacter 1"), ("edges", b"a\x0bb", "ControlCharacter 1"),
    ("edges", b"a b 1.0\n", "Decimal 1"),
    ("edges", b"a b 1x", "BadWeight 1"), ("edges", b"a b +1", "BadWeight 1"),
    ("edges", b"a b\nc c 2\n", "?self-loop 2"), ("edges --drop-loops", b"a b\nc c 2\n", "a|b|c: 0 1; dropped 1"),
    ("edges --drop-loops", b"a a", "a: ; dropped 1"), ("edges", b"a b\nc d\nb a 2\n", "?parallel 3"), ("edges", b"a b\nb a\nc c\nd", "OneWord 4"),
    (PARALLEL + "min", b"a b 5\nc d\nb a 2\na b 9", "a|b|c|d: 0 1 2, 2 3; merged 2"),
    (PARALLEL + "max", b"a b 5\nb a 2\na b 9", "a|b: 0 1 9; merged 2"), (PARALLEL + "first", b"b a 5\na b 2\na b 9", "b|a: 0 1 5; merged 2"),
    ("edges --scale 10", b"a b\nb c .05\nc d 0.049\nd e 2.\ne f 15e-1\nf a 1E2", "a|b|c|d|e|f: 0 1 10, 1 2, 2 3 0, 3 4 20, 4 5 15, 5 0 1000; rounded 2"),
    ("edges --scale 1", b"a b 4294967295.4", f"a|b: {LARGE}; rounded 1"), ("edges --scale 1", b"a b 4294967295.5", "WeightTooLarge 1"),
    ("edges --scale 2", b"a b 2147483648", "WeightTooLarge 1"), ("edges --scale 4294967295", b"a b", "a|b: " + LARGE),
    ("edges --scale 1", b"a b 18446744073709551615e-19", "a|b: 0 1 2; rounded 1"), ("edges --scale 1", b"a b 18446744073709551616e-19", "TooManyDigits 1"),
    ("edges --scale 1", b"a b -1.5", "Negative 1"), ("edges --scale 1", b"a b 1e-99999999999999999999", "a|b: 0 1 0; rounded 1"),
    ("edges --scale 1", b"a b 1e99999999999999999999", "WeightTooLarge 1"), ("edges --scale 1", b"a b 0e99999999999999999999", "a|b: 0 1 0"),
    ("edges --numbers", b"3 1\n0 5 2", "#6: 3 1, 0 5 2"), ("edges --numbers", b"0 1\n1 a", "NoNumber 2"), ("edges --numbers", b"0 -1", "NoNumber 1"),
    ("edges --numbers", b"0 65535", "#65536: 0 65535"), ("edges --numbers", b"0 65536", "NumberTooLarge 1"), ("edges --numbers --drop-loops", b"9 9", "#10: ; dropped 1"),
    ("edges", b"# " + b"x" * 10_000_000 + b"\na b\n", "a|b: 0 1"), ("edges", b"a b\na " + b"x" * 10_000_000, "LongLine 2"),
    ("edges", b"a " + b"x" * 65_534, "a|" + "x" * 65_534 + ": 0 1"), ("edges", b"a " + b"x" * 65_535, "LongLine 1"),
    ("edges --numbers", edges_of([1], 65_536), f"#65536: {path(65_536)}, 65535 0"), ("edges", edges_of([1], 65_537), "TooManyNodes 65536"),
    ("edges", b"".join(b"hub %d\n" % at for at in range(4096)), "hub|" + "|".join(map(str, range(4096))) + ": " + ", ".join(f"0 {at}" for at in range(1, 4097))),
    ("edges", b"".join(b"hub %d\n" % at for at in range(4097)), "?neighbours 0"), ("edges", edges_of([1, 2, 3, 4], 65_536) + b"0 9\n", "?links 0"),
]
MATRICES = [
    (MATRIX, SYMMETRIC + b"% c\n\n3 3 2\n2 1 4\n3 2 1\n", "#3: 1 0 4, 2 1"), (MATRIX + " --undirected", GENERAL.upper() + b"2 2 1\r\n1 2", "#2: 0 1"),
    (MATRIX, SYMMETRIC.replace(b"\n", b"\r\n") + b"4 4 0", "#4: "), (MATRIX, GENERAL + b"2 2 1\n1 2", "Directed 1"),
    (MATRIX + " --scale 2 --drop-loops", SYMMETRIC + b"2 2 2\n1 1 .3\n2 1 1.3\n", "#2: 1 0 3; dropped 1; rounded 2"),
    (MATRIX, SYMMETRIC + b"2 2 1\n2 1 1.0", "Decimal 3"), (MATRIX, SYMMETRIC + b"2 2 1\n2 1 -1", "Negative 3"), (MATRIX, SYMMETRIC + b"2 2 1\n2 1 x", "BadWeight 3"),
    (MATRIX, b"2 2 1\n1 2\n", "NoHeader 1"),
    (MATRIX, SYMMETRIC + b"% 2 2 1\n", "NoSize 0|2|3"),
    (MATRIX, SYMMETRIC + b"2 2\n", "BadSize 2"), (MATRIX, SYMMETRIC + b"2 2 -1\n", "BadSize 2"), (MATRIX, SYMMETRIC + b"2 2 %d" % 2**64, "BadSize|TooFewEntries 0|1|2"),
    (MATRIX, SYMMETRIC.replace(b" ", b",\t") + b"1 1 0", "#1: "), (MATRIX, SYMMETRIC + b"2 3 0\n", "NotSquare 2"),
    (MATRIX, SYMMETRIC + b"65536 65536 1\n65536 1 1", "#65536: 65535 0"), (MATRIX, SYMMETRIC + b"65537 65537 0", "TooManyNodes 2"),
    (MATRIX, SYMMETRIC + b"2 2 1\n0 1 1", "BadIndex 3"), (MATRIX, SYMMETRIC + b"2 2 1\n3 1 1", "BadIndex 3"), (MATRIX, SYMMETRIC + b"2 2 1\n2 1\n", "NoValue 3"),
    (MATRIX + " --undirected", GENERAL + b"2 2 1\n2 1 1\n", "ValueInPattern 3"), (MATRIX, SYMMETRIC + b"2 2 0\n\n2 1 1\n", "TooManyEntries 4"),
    (MATRIX, SYMMETRIC + b"2 2 2\n2 1 1\n", "TooFewEntries 0|2|3|4"), (MATRIX + " --undirected", GENERAL + b"2 2 2\n1 2\n2 1", "?parallel 4"),
    (MATRIX, SYMMETRIC + b"2 2 1\n2 2 1\n", "?self-loop 3"), (MATRIX, SYMMETRIC + b"2 2 1\n\xff", "BadIndex|NotUtf8|OneWord 3"), (MATRIX, SYMMETRIC + b"2 2 1\n2 1 1\0", "BadWeight|ControlCharacter 3"),
    (MATRIX, SYMMETRIC + b"%" + b"x" * 10_000_000 + b"\n1 1 0", "#1: "),
]
GRAPHS = [
    ("dot", b"graph { a; b -- c -- a [weight=2] d }", "a|b|c|d: 1 2 2, 2 0 2"), ("dot", b"STRICT Graph \"g\" {\r\n}\r\n", "?no-nodes 0"),
    ("dot --undirected", b"strict digraph g{a->b:n:ne->\"c d\";node[x=1]edge[y=<<b>>,z=\"\\\"\"]k=v}", "a|b|c d: 0 1, 1 2"),
    ("dot", b"graph{//x\n/*{\n*/\n#}\na--b[weight=1][weight=\"3\";color=red weight=2,l=x]}", "a|b: 0 1 2"),
    ("dot", 'graph{Zoë--"東 京" -1--.5 2.--"node"}'.encode(), "Zoë|東 京|-1|.5|2.|node: 0 1, 2 3, 4 5"),
    ("dot", b"graph{subgraph s{a{b--c}}subgraph{d}a--d}", "a|b|c|d: 1 2, 0 3"), ("dot --scale 4", b"graph{a--b--c[weight=.3]}", "a|b|c: 0 1, 1 2; rounded 2"),
    ("dot", nested(64), "a: "), ("dot", nested(65), "TooDeep 1"), ("dot", b"\ndigraph{}", "Directed 2"), ("dot", b"graph{\na->b}", "WrongEdge 2"),
    ("dot --undirected", b"digraph{a->b\nb--c}", "WrongEdge 2"), ("dot", b"graph{a--\n{b}}", "SubgraphEnd 1|2"), ("dot", b"graph{{b}\n--a}", "SubgraphEnd 1|2"),
    ("dot", b"graph{edge[weight=2]}", "DefaultWeight 1"), ("dot", b"graph{a[x]}", "NoValue 1"), ("dot", b'graph{"a\\n"}', "Escape 1"), ("dot", b"graph{\n<b>--c}", "HtmlName 2"),
    ("dot", b'graph{a\n"b\n}', "UnclosedString 2|3"), ("dot", b"graph{}\n/*", "UnclosedComment 1|2"), ("dot", b"graph{a[l=<<b>", "UnclosedHtml 1"),
    ("dot", b"graph{\na", "UnclosedGraph 1|2"), ("dot", b"graph{a--b[weight=x]}", "BadWeight 1"), ("dot", b"graph{a--b[weight=-2]}", "Negative 1"),
    ("dot", b"graph{a--b[weight=0.5]}", "Decimal 1"), ("dot", b"graph{\na--a}", "?self-loop 2"), ("dot", b"graph{a--b\nb--a}", "?parallel 2"),
    ("dot --drop-loops --parallel max", b"graph{a--a--b--a[weight=7]b--a}", "a|b: 0 1 7; dropped 1; merged 2"),
    ("dot", b"graph{a--}", "?syntax 1"), ("dot", b"graph{}\n{}", "?syntax 2"), ("dot", b"graph{a\n--node}", "?syntax 2"), ("dot", b"graph{a\0}", "?syntax 1"),
    ("dot", b"\xef\xbb\xbfgraph{}", "?syntax 1"), ("dot", b"graph{\xff}", "NotUtf8 1"), ("dot", b'graph{"a\nb"}', "ControlCharacter 1|2"), ("dot", b"graph{a;;}", "?syntax 1"), ("dot", b"graph{1a}", "BadNumeral 1"),
    ("dot", b'graph{\n""--""--""}', "BadName 2"), ("dot", b'graph{""\n"\n"}', "ControlCharacter 2|3"), ("dot", b"graph{a\n #\n}", "?syntax 2"), ("dot", b'graph{"a"+"b"}', "?syntax 1"), ("dot", b"graph{a\f}", "?syntax 1"), ("dot", b"graph{/*\xff*/a}", "a: "),
    ("dot", b"graph{a--b[weight=x weight=2]}", "BadWeight 1"), ("dot", b"graph{a--b\nb--a\nc--c}", "?self-loop 3"), ("dot", b"graph{a[l=<\xff>]}", "NotUtf8 1"), ("dot", b"graph{{a}[x=1]}", "?syntax 1"),
    ("dot", b"graph{a//" + b"x" * 10_000_000 + b"\n}", "a: "), ("dot", b"graph{" + b" -- ".join(b"%d" % at for at in range(65_537)) + b"}", "TooManyNodes 1"),
]
CASES = EDGES + MATRICES + GRAPHS
