"""The command `unison`, which the package brings: it runs proved programs with the words of the repository's `./unison`."""

from __future__ import annotations

import os
import shutil
import sys
from pathlib import Path
from typing import List

HERE = Path(__file__).resolve().parent


def launchers() -> List[Path]:
    """Where the script that chooses a program for each command is looked for, in this order: in the package, and at the top of a checkout."""
    top = HERE.parent.parent
    return [HERE / "programs" / "unison", *([top / "unison"] if (top / "crates.txt").is_file() else [])]


def main() -> None:
    """Runs the command line in the place of this process."""
    bash = shutil.which("bash")
    if bash is None:
        sys.exit("unison: there is no bash here, by which the command runs the programs: install it, and put it on the PATH")
    for launcher in launchers():
        if launcher.is_file():
            os.execv(bash, [bash, str(launcher), *sys.argv[1:]])
    sys.exit(
        "unison: this package was installed without programs (" + " or ".join(map(str, launchers())) + "): "
        "install the wheel that ./release makes, or give the commands as ./unison at the top of a checkout"
    )


if __name__ == "__main__":
    main()
