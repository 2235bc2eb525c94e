"""Where each file stands in a package: below a prefix, as /usr, in an archive or a Debian package; in a wheel below the package `unison`."""

import stat

import writers
from parts import HOME, TOP, kit, lines, wheel_maker

FILE, PROGRAM, LINK = stat.S_IFREG | 0o644, stat.S_IFREG | 0o755, stat.S_IFLNK | 0o777
PAGES = "share/doc/unison"
GALLERY = (".model", ".rules", ".toml", ".names", "README.md", "cookbook.md")  # what the studio shows of examples and docs
LEFT_OUT = (".py", "/check", "/tables")  # scripts for those who change the repository
PKG_CONFIG = """prefix=${{pcfiledir}}/../..
includedir=${{prefix}}/include
libdir=${{prefix}}/lib

Name: unison
Description: Synchronous programs on networks, by proved calls
Version: {version}
Cflags: -I${{includedir}}
Libs: -L${{libdir}} -lunison
"""


def home(parts):
    """The files of the folder in which the launcher stands with its programs, by their paths in it: content and mode."""
    files = {
        "unison": ((HOME / "unison").read_bytes(), PROGRAM),
        "commands.sh": ((HOME / "commands.sh").read_bytes(), FILE),
        "page.html": ((TOP / "viewer" / "page.html").read_bytes(), FILE),
        "names": (lines(path.stem for path in parts.repository.files("docs/commands")), FILE),
        "levels": (lines(" ".join([level, *sorted(kit.LEVELS.get(level, ()))]) for level in parts.levels), FILE),
        "version": (lines([parts.version]), FILE),
    }
    files.update(studio(parts))
    return {**files, **{f"{it.level}/{it.name}": (it.content, PROGRAM) for it in parts.programs}}


def studio(parts):
    """The files of the studio: its server and its page, the modules of the viewer, and programs to begin with."""
    own = [path for path in parts.repository.files("studio") if path.parts[1] in ("start", "service", "page", "gallery.json")]
    modules = [path for path in parts.repository.files("viewer") if path.suffix in (".js", ".css")]
    files = {str(path): ((TOP / path).read_bytes(), PROGRAM if path.name == "start" else FILE) for path in [*own, *modules]}
    shown = [path for path in parts.repository.files("examples", "docs/cookbook.md") if str(path).endswith(GALLERY)]
    return {**files, **{f"gallery/{path}": ((TOP / path).read_bytes(), FILE) for path in shown}}


def pages(parts):
    """README, pages and examples, in a folder in which the commands of the pages can be given; a license, where there is one."""
    listed = parts.repository.files("README.md", "LICENSE*", "docs", "examples", "library/README.md", "library/call.c")
    return {f"{PAGES}/{path}": ((TOP / path).read_bytes(), FILE) for path in listed if not str(path).endswith(LEFT_OUT)}


def below_prefix(parts):
    """All files of a package, by their paths below a prefix."""
    return {
        "bin/unison": (b"../lib/unison/unison", LINK),
        **{f"lib/unison/{path}": it for path, it in home(parts).items()},
        "include/unison.h": ((TOP / "library" / "unison.h").read_bytes(), FILE),
        "lib/pkgconfig/unison.pc": (PKG_CONFIG.format(version=parts.version).encode(), FILE),
        **{f"lib/{it.name}": (it.content, FILE) for it in parts.libraries},
        "share/man/man1/unison.1.gz": (writers.gz((TOP / "docs" / "unison.1").read_bytes(), 0), FILE),
        "share/bash-completion/completions/unison": (parts.completion(), FILE),
        **pages(parts),
    }


def in_wheel(parts):
    """The files of the wheel: the package for Python, with the library and the programs in it."""
    files = {path: (content, FILE) for path, content in wheel_maker.package().items()}
    files.update({f"unison/{it.name}": (it.content, FILE) for it in parts.libraries if it.name.endswith(".so")})
    return {**files, **{f"unison/programs/{path}": it for path, it in home(parts).items()}}
