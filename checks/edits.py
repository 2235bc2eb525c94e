"""What an edit is: a bug that is planted in a crate, which the prover has to refuse. Those in crates/NAME/must-fail/ are tried by each run of
the gate, those in crates/NAME/planted/ by `checks/planted`."""

import pathlib
import re

TOP = pathlib.Path(__file__).resolve().parent.parent
FUNCTION = re.compile(r"^( *)(?:pub(?:\([a-z]+\))? )?(?:const )?fn (\w+)", re.M)
IMPLEMENTATION = re.compile(r"^impl(?:<.*?>)? (?:(\w+)(?:<.*?>)? for )?(\w+)", re.M)
REASON = "refused by: "


class Edit:
    """An edit: its name, a remark on what it does, the clauses that refuse it, the texts that it changes, and the functions in which they stand."""

    def __init__(self, path, folder):
        self.name, self.folder = path.stem, folder
        remarks = [line.removeprefix("# ") for line in path.read_text().splitlines() if line.startswith("# ")]
        self.remark = next((it for it in remarks if not it.startswith(REASON)), "")
        self.clauses = next((it.removeprefix(REASON) for it in remarks if it.startswith(REASON)), "")
        self.pairs = list(self.read(path))
        texts = {file: (folder / file).read_text() for file, _, _ in self.pairs}
        self.functions = {(file, enclosing(texts[file], texts[file].find(old))) for file, old, _ in self.pairs}

    @staticmethod
    def read(path):
        """The changes of an edit: a file, a text that stands in it once, and what comes in its place."""
        file = old = None
        for line in path.read_text().splitlines():
            if line.startswith("file: "):
                file = line.removeprefix("file: ").strip()
            elif line.startswith("old: "):
                old = line.removeprefix("old: ")
            elif line.startswith("new:"):
                yield file, old, line.removeprefix("new:").removeprefix(" ")

    def applied(self, texts, folder):
        """The texts with this edit, beside others, or None where one of its own does not stand there once."""
        texts = dict(texts)
        for file, old, new in self.pairs:
            text = texts[file] if file in texts else (folder / file).read_text()
            if text.count(old) != 1:
                return None
            texts[file] = text.replace(old, new)
        return texts

    def places(self):
        """Where it changes something: `module::function`, `Type::function`, or a file."""
        found = []
        for file, old, _ in self.pairs:
            text = (self.folder / file).read_text()
            place = place_of(file, text, text.find(old)) if file.startswith("src/") else file
            found += [place] if place not in found else []
        return found


def words_of(text):
    return re.findall(r"\w+|\s+|[^\w\s]+", text)


def change(old, new):
    """What comes in place of what, without the words that stand before and behind both."""
    before, after = words_of(old.strip()), words_of(new.strip())
    while before and after and before[0] == after[0]:
        before, after = before[1:], after[1:]
    while before and after and before[-1] == after[-1]:
        before, after = before[:-1], after[:-1]
    return "".join(before).strip(), "".join(after).strip()


def enclosing(text, at):
    """The name of the function in which a place stands; empty where it stands before all."""
    names = [found[2] for found in FUNCTION.finditer(text) if found.start() <= at]
    return names[-1] if names else ""


def place_of(file, text, at):
    """The function in which a place of a source stands, behind its type or module; the file where it stands in none."""
    at += len(text[at:]) - len(text[at:].lstrip())
    before = [found for found in FUNCTION.finditer(text) if found.start() <= at]
    if not before:
        return file
    last = before[-1]
    end = re.compile(rf"^{last[1]}\}}", re.M).search(text, last.end())
    if end and end.start() < at:
        return file
    owners = [found for found in IMPLEMENTATION.finditer(text) if found.start() < last.start()]
    owner = owners[-1][2] if last[1] and owners else pathlib.Path(file).stem
    return f"{owner}::{last[2]}"
