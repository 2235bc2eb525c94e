"""What a package says of itself: of which commit it was made, what the prover said of its programs, and a sum of each of its files."""

import hashlib
import stat


def verdicts(parts):
    """A line for each program and library: its level, a sum of its sources, and the verdict as the prover printed it."""
    for it in [*parts.programs, *parts.libraries]:
        yield f"{it.name} for {it.level}, of sources {it.note['sources'][:16]}: {it.note['verdict']}"


def about(parts):


    """What is said of a package: version, levels, commit, kit, verdicts."""
    return [
        f"unison {parts.version} for linux-x86_64, levels {' '.join(parts.levels)}",
        f"made of commit {parts.repository.commit}",
        f"proved with {parts.kit}",
        *verdicts(parts),
    ]


def text(parts, files, check):
    """The manifest, which `sha256sum --check` reads: what is said of the package in lines that begin with #, and a line for each file."""
    sums = [f"{hashlib.sha256(content).hexdigest()}  {path}\n" for path, (content, mode) in sorted(files.items()) if stat.S_ISREG(mode)]
    return "".join([*(f"# {line}\n" for line in [*about(parts), f"to check these files: {check}"]), *sums]).encode()
