"""Makes the wheel of the package, for pip: the sources in `unison`, and the library that `library/build` has made.

A backend of its own, since it needs neither setuptools nor wheel: `pip install ./python` works without a network. `./release` makes a wheel by it
that has the proved programs besides (packages/README.md). Of the same files it makes the same bytes.
"""

import base64
import hashlib
import io
import os
import re
import stat
import sysconfig
import zipfile
from pathlib import Path

HERE = Path(__file__).resolve().parent
PACKED = 6  # how far files are packed, from 0 to 9
FILE = stat.S_IFREG | 0o644
COMMANDS = "[console_scripts]\nunison = unison.command:main\n"
PLACES = [HERE.parent / "library" / "out" / "libunison.so", HERE / "unison" / "libunison.so"]


def version():
    """The version of all that is made of this repository."""
    return re.search(r'^__version__ = "(.*)"$', (HERE / "unison" / "__init__.py").read_text(encoding="utf-8"), re.MULTILINE)[1]


def project():
    """What `[project]` says: its texts by key, with the version, and the packages of each extra."""
    text = (HERE / "pyproject.toml").read_text(encoding="utf-8")
    texts = dict(re.findall(r'^([a-z-]+) = "([^"]*)"$', text.partition("[project]")[2], re.MULTILINE))
    return {**texts, "version": version()}, re.findall(r'^([a-z]+) = \["([^"]*)"\]$', text.partition("[project.optional-dependencies]")[2], re.MULTILINE)


def metadata(texts, extras):
    lines = [
        "Metadata-Version: 2.1",
        f"Name: {texts['name']}",
        f"Version: {texts['version']}",
        f"Summary: {texts['description']}",
        f"Requires-Python: {texts['requires-python']}",
        "Description-Content-Type: text/markdown",
    ]
    for extra, package in extras:
        lines += [f"Provides-Extra: {extra}", f"Requires-Dist: {package}; extra == '{extra}'"]
    return "\n".join(lines) + "\n\n" + (HERE / texts["readme"]).read_text(encoding="utf-8")


def library():
    """The library's file: that of UNISON_LIBRARY where it is set, else the one that library/build has made."""
    named = os.environ.get("UNISON_LIBRARY")
    places = [Path(named)] if named else PLACES
    for place in places:
        if place.is_file():
            return place
    raise SystemExit(f"unison: libunison.so is not there ({' or '.join(map(str, places))}): run library/build first")


def package():
    """The files of the package, by their names in the wheel."""
    sources = [path for path in sorted((HERE / "unison").rglob("*")) if path.suffix == ".py" or path.name == "py.typed"]
    return {path.relative_to(HERE).as_posix(): path.read_bytes() for path in sources}


def wheel(tag, files):
    """A wheel with these files, each with its mode, and all that tells of it: its name and its bytes."""
    texts, extras = project()
    about = f"{texts['name']}-{texts['version']}.dist-info"
    told = {
        "METADATA": metadata(texts, extras),
        "WHEEL": f"Wheel-Version: 1.0\nGenerator: wheel_maker\nRoot-Is-Purelib: false\nTag: {tag}\n",
        "entry_points.txt": COMMANDS,
    }
    files = {**files, **{f"{about}/{name}": (text.encode(), FILE) for name, text in told.items()}}
    rows = [f"{name},sha256={digest(content)},{len(content)}\n" for name, (content, _) in files.items()]
    files[f"{about}/RECORD"] = ("".join(rows) + f"{about}/RECORD,,\n").encode(), FILE
    return f"{texts['name']}-{texts['version']}-{tag}.whl", packed(files)


def packed(files):
    """The bytes of a wheel with these files."""
    made = io.BytesIO()
    with zipfile.ZipFile(made, "w", zipfile.ZIP_DEFLATED, compresslevel=PACKED) as archive:
        for path, (content, mode) in files.items():
            entry = zipfile.ZipInfo(path)  # (its time is the first that there is)
            entry.external_attr = mode << 16
            archive.writestr(entry, content, zipfile.ZIP_DEFLATED, PACKED)
    return made.getvalue()


def write_wheel(directory, tag, files):
    """Writes a wheel with these files into a folder, and returns its name."""
    name, content = wheel(tag, {path: (content, FILE) for path, content in files.items()})
    (Path(directory) / name).write_bytes(content)
    return name


def digest(content):
    return base64.urlsafe_b64encode(hashlib.sha256(content).digest()).rstrip(b"=").decode()


def build_wheel(wheel_directory, config_settings=None, metadata_directory=None):
    """The wheel with the library in it, for this kind of machine and any Python from 3.9 on."""
    platform = re.sub("[-.]", "_", sysconfig.get_platform())
    return write_wheel(wheel_directory, f"py3-none-{platform}", {**package(), "unison/libunison.so": library().read_bytes()})


def build_editable(wheel_directory, config_settings=None, metadata_directory=None):
    """A wheel that names this folder, so that the package is taken from here, and the library from library/out."""
    return write_wheel(wheel_directory, "py3-none-any", {"unison.pth": f"{HERE}\n".encode()})


def build_sdist(sdist_directory, config_settings=None):
    raise SystemExit("unison: there is no source distribution: the library is built from the whole repository")
