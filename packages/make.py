"""Makes the three packages, and a manifest of them."""

import layout
import manifest
import writers
from parts import wheel_maker

#: The fields of the Debian package. Debian has a package `unison` of its own, which synchronises files: its program has the same name.
DEBIAN_NAME = "unison-networks"
OTHERS = ("unison", "unison-gtk", "unison-2.51+4.13.1", "unison-2.51+4.13.1-gtk", "unison-2.52", "unison-2.52-gtk")
DESCRIPTION = """Synchronous programs on networks, proved
 Runs cellular automata, epidemics and graph algorithms in rounds or by
 asynchronous steps, by programs that are proved to agree. For processors
 of the level x86-64-v2 and above."""


def control(parts):


    """The fields of the control file of the Debian package, but for its size."""
    return {
        "Package": DEBIAN_NAME,
        "Version": parts.version,
        "Architecture": "amd64",
        "Maintainer": "Unison <unison@localhost>",
        "Section": "science",
        "Priority": "optional",
        "Depends": f"bash, libc6 (>= {'.'.join(map(str, parts.glibc()))})",
        "Conflicts": ", ".join(OTHERS),
        "Description": DESCRIPTION,
    }


def archive(parts):


    """The name and the bytes of the archive."""
    name, files = f"unison-{parts.version}-linux-x86_64", layout.below_prefix(parts)
    files["manifest.txt"] = manifest.text(parts, files, "sha256sum --check --quiet manifest.txt, in this folder"), layout.FILE
    return f"{name}.tar.gz", writers.tar_gz(files, parts.repository.time, f"{name}/")


def debian(parts):


    """The name and the bytes of the Debian package."""
    place = "usr/lib/unison/manifest.txt"
    files = {f"usr/{path}": it for path, it in layout.below_prefix(parts).items()}
    files[place] = manifest.text(parts, files, f"sha256sum --check --quiet {place}, in the folder /"), layout.FILE
    return f"{DEBIAN_NAME}_{parts.version}_amd64.deb", writers.deb(control(parts), files, parts.repository.time)


def wheel(parts):


    """The name and the bytes of the wheel, of which the name says what C library it needs."""
    place, files = "unison/programs/manifest.txt", layout.in_wheel(parts)
    files[place] = manifest.text(parts, files, f"sha256sum --check --quiet {place}, in the folder that has the package"), layout.FILE
    major, minor = parts.glibc()
    return wheel_maker.wheel(f"py3-none-manylinux_{major}_{minor}_x86_64", files)


def packages(parts):
    """The packages and their manifest, by the names of their files."""
    made = dict([archive(parts), debian(parts), wheel(parts)])
    files = {name: (content, layout.FILE) for name, content in made.items()}
    return {**made, "manifest.txt": manifest.text(parts, files, "sha256sum --check --quiet manifest.txt, in this folder")}


def write(parts, folder):
    """Writes them into a folder, and gives their names."""
    made = packages(parts)
    folder.mkdir(parents=True, exist_ok=True)
    for name, content in made.items():
        (folder / name).write_bytes(content)
    return list(made)
