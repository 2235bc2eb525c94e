"""The studio that a notebook opens: what it begins with, who is answered, and that it ends."""

import json
import urllib.error
import urllib.request

from support import EXAMPLES, raised, skip

import unison
from unison import _programs
from unison.command import launchers

WAIT = 60  # seconds
MODEL = "const p = chance(0.5);\nfield s = 0;\nnext s = random() < p;\n"


def begun(*texts, **words):
    """A studio, and what its page begins with."""
    if not any(path.is_file() for path in launchers()) or not _programs.are_there():
        skip("there is no command that runs the studio")
    studio = unison.studio(*texts, show=False, **words)
    with urllib.request.urlopen(f"{studio.link}start", timeout=WAIT) as answer:
        return studio, json.load(answer)


def test_a_model_and_a_network_are_there():
    network = unison.Network(3, [(0, 1), (1, 2)], set={"s": {2: 1}})
    studio, start = begun(unison.Model(MODEL), network)
    with studio:
        assert (start["modelName"], start["model"]) == ("own.model", MODEL)
        assert (start["networkName"], start["network"]) == ("network.toml", network.text)
        assert studio.link in studio._repr_html_() and studio.link in repr(studio) and studio.is_open


def test_files_and_programs_are_taken():
    studio, start = begun(EXAMPLES / "distance.rules", str(EXAMPLES / "path.toml"))
    with studio:
        assert (start["modelName"], start["network"]) == ("distance.rules", (EXAMPLES / "path.toml").read_text())
    studio, start = begun(unison.Program("field s = 0; next s = (s + 1);"))
    with studio:
        assert (start["modelName"], start["model"]) == ("own.rules", "field s = 0;\nnext s = (s + 1);\n")


def test_it_ends():
    studio, start = begun()
    assert start["gallery"]
    studio.close()
    studio.close()
    assert not studio.is_open and repr(studio) == "<Studio, closed>"
    assert isinstance(raised(urllib.error.URLError, lambda: urllib.request.urlopen(studio.link, timeout=WAIT)).reason, ConnectionRefusedError)


def test_what_is_refused():
    raised(ValueError, lambda: unison.studio(network=unison.Network(1, []), show=False))
    raised(ValueError, lambda: unison.studio(port=70000, show=False))
    raised(TypeError, lambda: unison.studio(port="80", show=False))
    if any(path.is_file() for path in launchers()) and _programs.are_there():
        raised(RuntimeError, lambda: unison.studio("there/is/none.model", show=False))
