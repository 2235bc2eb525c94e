"""What is tried of packages: each installed into a folder of its own, where no `rt` and nothing of this repository is on the PATH."""

import gzip
import hashlib
import json
import os
import pathlib
import re
import shutil
import signal
import subprocess
import sys
import tarfile
import urllib.request

import parts
import refusals
from parts import TOP, kit

#: All that the command needs beside Bash, of which the first is that of its first line.
TOOLS = ("env", "bash", "readlink", "dirname", "mktemp", "rm", "tee", "cat", "head", "sed")
REPORTS = TOP / "examples" / "reports"
CANONICAL = "field dist = 4294967295;\nnext dist = (dist min least (n.dist + 1));\n"
EXAMPLE = "share/doc/unison/library/call.c"
DISTANCE = ("examples/distance.rules", "examples/path.toml", "--rounds", "2")


class Tally:
    """Counts and tells what became of each trial."""

    passed = failed = 0

    def tell(self, what, well, why=""):
        self.passed, self.failed = self.passed + bool(well), self.failed + (not well)
        print(f"packages: {what}: {'ok' if well else 'FAILED'}", flush=True)
        if not well and why:
            print(why.rstrip())

    def equal(self, what, found, wanted):
        self.tell(what, found == wanted, f"found:\n{found}\nwanted:\n{wanted}")

    def skip(self, what, why):
        print(f"packages: {what}: skipped: {why}", flush=True)

    def end(self):
        print(f"{self.passed} passed, {self.failed} failed")
        return self.failed > 0


class Installed:
    """A package that is installed in a folder: its name, the folder of its command, and the root of its files, as its manifest names them."""

    def __init__(self, name, command, root, manifest, work):
        self.name, self.command, self.root, self.manifest = name, command, root, root / manifest
        self.folder = work / f"in_{name}"
        self.folder.mkdir()
        self.path = f"{command}:{tools(work)}"

    def run(self, text, **more):
        """What a command line of Bash prints, with its status, in the package's own folder."""
        environment = {"PATH": self.path, "HOME": str(self.folder), "PYTHONDONTWRITEBYTECODE": "1", **more}
        how = {"cwd": self.folder, "env": environment, "stdin": subprocess.DEVNULL, "capture_output": True, "text": True}
        done = subprocess.run([shutil.which("bash"), "-c", text], **how)
        return done.stdout, done.stderr, done.returncode

    def unison(self, *words, **more):
        return self.run(" ".join(["unison", *map(str, words)]), **more)


def tools(work):
    """A folder with the tools that the command needs, and nothing else."""
    folder = work / "tools"
    if not folder.is_dir():
        folder.mkdir()
        for name in TOOLS:
            (folder / name).symlink_to(shutil.which(name))
    return folder


def commands_of_readme():
    """The commands of the picture in README.md, as they are given where the package is installed."""
    return re.sub(r"(?m)^ {4}|\./(?=unison )", "", "\n".join(re.findall(r"(?m)^ {4}\./unison .*$", (TOP / "README.md").read_text())))


def try_readme(tally, it):


    """The picture of README.md."""
    done = it.run(commands_of_readme())
    picture = it.folder / "rule_90.svg"
    same = picture.is_file() and picture.read_bytes() == (TOP / "docs" / "pictures" / "rule_90.svg").read_bytes()
    tally.tell(f"{it.name}: the commands of README.md make its picture", done == ("", "", 0) and same, f"{done}")


def try_five(tally, it):


    """The five commands, and large ones, against the reports of the repository."""
    report = (REPORTS / "distance-path-2.txt").read_text()
    replayed = (REPORTS / "replay-swap-pair-ahead.txt").read_text()
    replay = ("examples/swap.rules", "examples/pair.toml", "examples/schedules/ahead.txt", "--stop", 10)
    tally.equal(f"{it.name}: check", it.unison("check", DISTANCE[0]), (CANONICAL, "", 0))
    tally.equal(f"{it.name}: lockstep", it.unison("lockstep", *DISTANCE), (report, "", 0))
    tally.equal(f"{it.name}: run", it.unison("run", *DISTANCE, "--workers", 2), (report, "", 0))
    tally.equal(f"{it.name}: replay", it.unison("replay", *replay), (replayed, "", 0))
    tally.equal(f"{it.name}: compare", it.unison("compare", *DISTANCE, "--workers", 2), ("same\n", "", 0))
    tally.equal(f"{it.name}: standard input", it.unison("check", "-", "<", DISTANCE[0]), (CANONICAL, "", 0))
    large = f"unison large lockstep {DISTANCE[0]} path.net --rounds 2 --set 'dist=*:4294967295' --set dist=0:0"
    packed = f"unison pack network {DISTANCE[1]} > path.net && {large}"
    tally.equal(f"{it.name}: pack and large", it.run(packed), (report, "", 0))


def try_models(tally, it):


    """A model in the place of a program, with values for its constants."""
    model = "const wanted = 2;\nfield s = 0;\nnext s = s or count(n.s) >= wanted;\n"
    (it.folder / "threshold.model").write_text(model)
    for wanted, words in ((2, []), (1, ["--const", "wanted=1"]), (7, ["--const=wanted=7"])):
        expected = f"field s = 0;\nnext s = ((s != 0) max (count n.s >= {wanted}));\n"
        tally.equal(f"{it.name}: a model, {' '.join(words) or 'as it stands'}", it.unison("check", "threshold.model", *words), (expected, "", 0))
    told = it.unison("check", "threshold.model", "--const", "other=1")
    tally.tell(f"{it.name}: a constant that the model does not have", told[0] == "" and "UnknownGiven" in told[1] and told[2] == 3, f"{told}")
    told = it.unison("check", DISTANCE[0], "--const", "wanted=1")
    tally.tell(f"{it.name}: a constant for no model", told[0] == "" and "--const" in told[1] and told[2] == 2, f"{told}")


def try_words(tally, it, of):


    """Help, version, and what is told of mistakes."""
    told, missing, status = it.unison("help")
    own = "By unison itself:" in told and "prove" not in told and "./unison" not in told and "lockstep" in told
    tally.tell(f"{it.name}: help", own and not missing and status == 0, told)
    told = it.unison("help lockstep")[0]
    tally.tell(f"{it.name}: help of a command", "--rounds" in told and "--const <NAME=VALUE>" in told and "./unison" not in told, told)
    tally.equal(f"{it.name}: --version", it.unison("--version"), (f"unison {of.version}\n", "", 0))
    told = it.unison("lockstep", DISTANCE[0], "nowhere.toml", "--rounds", 2)
    tally.tell(f"{it.name}: a file that is not there", told[1].startswith("fault: file") and "nowhere.toml" in told[1] and told[2] == 1, f"{told}")
    python = f"{it.path}:{pathlib.Path(sys.executable).parent}"
    told = it.unison("lockstpe", PATH=python)
    tally.tell(f"{it.name}: the nearest command", told[1].endswith("the nearest one is `lockstep`\n") and told[2] == 2, f"{told}")


def try_page(tally, it):


    """A page for a browser."""
    page, told, status = it.unison("page", *DISTANCE[:3], "0..2")
    viewer, behind = (TOP / "viewer" / "page.html").read_text().split("@RUN@")
    whole = page.startswith(viewer) and page.endswith(behind) and len(page) > len(viewer) + len(behind)
    tally.tell(f"{it.name}: a page, with the package's viewer", whole and not told and status == 0, told)


def try_studio(tally, it):
    """The studio: its page, and what it begins with, by the files of the package."""
    environment = {"PATH": f"{it.path}:{pathlib.Path(sys.executable).parent}", "HOME": str(it.folder), "PYTHONDONTWRITEBYTECODE": "1"}
    how = {"cwd": it.folder, "env": environment, "stdin": subprocess.DEVNULL, "stdout": subprocess.PIPE, "stderr": subprocess.DEVNULL, "text": True}
    with subprocess.Popen([shutil.which("bash"), "-c", "exec unison studio --no-open"], **how) as process:
        link = process.stdout.readline().strip()
        try:
            got = [urllib.request.urlopen(link + place, timeout=60).read().decode() for place in ("", "viewer/colours.js", "start")]
        finally:
            process.send_signal(signal.SIGINT)
    start = json.loads(got[2])
    told = (start["called"], len(start["gallery"]) > 30, process.wait())
    tally.equal(f"{it.name}: the studio", (got[0][:15], got[1], *told), ("<!doctype html>", (TOP / "viewer/colours.js").read_text(), "unison", True, 0))


def try_levels(tally, it, of):


    """Which programs are run."""
    for level in of.levels:
        tally.equal(f"{it.name}: UNISON_CPU={level}", it.unison("check", DISTANCE[0], UNISON_CPU=level), (CANONICAL, "", 0))
    told = it.unison("check", DISTANCE[0], UNISON_CPU="z80")
    named = f": {' '.join(of.levels)}\n"
    tally.tell(f"{it.name}: a level that is not there", told[0] == "" and told[1].endswith(named) and told[2] == 1, f"{told}")
    other = it.folder / "other"
    other.mkdir()
    (other / "unison_cli").write_text("#!/usr/bin/env bash\necho other $*\n")
    (other / "unison_cli").chmod(0o755)
    told = it.unison("check", DISTANCE[0], UNISON_PROGRAMS=other)
    tally.equal(f"{it.name}: programs of the folder in UNISON_PROGRAMS", told, (f"other check {DISTANCE[0]}\n", "", 0))


def try_manifest(tally, it, of):


    """The manifest of a package."""
    text = it.manifest.read_text()
    done = it.run(f"cd {it.root} && {shutil.which('sha256sum')} --check --quiet {it.manifest.relative_to(it.root)}")
    tally.equal(f"{it.name}: sha256sum finds the files of the manifest as they were", done, ("", "", 0))
    told = [f"# made of commit {of.repository.commit}", f"# proved with {of.kit}"]
    told += [f"# {part.name} for {part.level}, of sources {part.note['sources'][:16]}: {part.note['verdict']}" for part in of.programs]
    missing = [line for line in told if line not in text.splitlines()]
    tally.equal(f"{it.name}: commit, kit and verdicts in the manifest", missing, [])


def try_files(tally, it, others=()):
    """The manifest names each file, but itself and those of the installer, and no file names the folder of the repository or of its user."""
    named = set(re.findall(r"(?m)^[0-9a-f]{64}  (.*)$", it.manifest.read_text()))
    there = {str(path.relative_to(it.root)) for path in it.root.rglob("*") if path.is_file() and not path.is_symlink()}
    there = {path for path in there if not path.startswith(others)} if others else there
    tally.equal(f"{it.name}: the manifest names each file", there - named, {str(it.manifest.relative_to(it.root))})
    private = [path for path in sorted(named) if is_private((it.root / path).read_bytes())]
    tally.equal(f"{it.name}: no file names the folder of the repository or the user's", private, [])


def is_private(content):
    """Whether a file names the folder of the repository, or of its user; a quick program names that in which it is built."""
    quick = str(TOP / "quick" / "out").encode()
    return any(word in content.replace(quick, b"") for word in (str(TOP).encode() + b"/", str(pathlib.Path.home()).encode() + b"/"))


def try_commands(tally, it, of):
    """What each package can do, in a folder with the examples."""
    if not (it.folder / "examples").exists():
        (it.folder / "examples").symlink_to(TOP / "examples")
    for trial in (try_readme, try_five, try_models, try_page, try_studio):
        trial(tally, it)
    for trial in (try_words, try_levels, try_manifest):
        trial(tally, it, of)


def try_manual(tally, it, prefix):


    """The page of the manual."""
    page = prefix / "share" / "man" / "man1" / "unison.1.gz"
    if man := shutil.which("man"):
        found = it.run(f"{man} -M {prefix}/share/man -w unison", PATH=os.environ["PATH"])[0].strip()
        tally.equal(f"{it.name}: man finds the page", found, str(page))
    plain = gzip.decompress(page.read_bytes())
    tally.tell(f"{it.name}: the page of the manual", plain == (TOP / "docs" / "unison.1").read_bytes())


def try_completion(tally, it, prefix):
    """Bash completes a command when the file is read."""
    text = f"""source {prefix}/share/bash-completion/completions/unison
        found=$(complete -p unison)
        COMP_WORDS=(unison lockst) COMP_CWORD=1 COMP_LINE='unison lockst' COMP_POINT=13
        name=${{found##*-F }}
        "${{name%% *}}" unison lockst unison
        echo "${{COMPREPLY[@]}}" """
    tally.equal(f"{it.name}: Bash completes lockst", it.run(text), ("lockstep\n", "", 0))


def try_library(tally, it, prefix):
    """The example in C, by the words of pkg-config, with the shared object and with the archive."""
    lacking = [name for name in ("cc", "pkg-config") if not shutil.which(name)]
    for what, file in (("the shared object", "libunison.so"), ("the archive", "libunison.a")):
        trial = f"{it.name}: the example in C, with {what}"
        if lacking or not (prefix / "lib" / file).is_file():
            tally.skip(trial, f"there is no {lacking[0]}" if lacking else "the package was made without it")
            continue
        linked = f"{prefix}/lib/{file}" if file.endswith(".a") else "$(pkg-config --libs unison)"
        text = f"cc -std=c11 -o call {prefix}/{EXAMPLE} $(pkg-config --cflags unison) {linked}"
        built = it.run(text, PATH=os.environ["PATH"], PKG_CONFIG_PATH=f"{prefix}/lib/pkgconfig")
        told = it.run(f"./call check {DISTANCE[0]}", LD_LIBRARY_PATH=f"{prefix}/lib")
        tally.tell(trial, built[2] == 0 and told == (CANONICAL, "", 0), f"{built}\n{told}")


def try_prefix(tally, it, of, prefix):
    """What a package below a prefix can do, by its own examples."""
    (it.folder / "examples").symlink_to(prefix / "share" / "doc" / "unison" / "examples")
    try_commands(tally, it, of)
    try_manual(tally, it, prefix)
    try_completion(tally, it, prefix)
    try_library(tally, it, prefix)
    try_files(tally, it)


def try_archive(tally, of, work, file):


    """The archive, unpacked."""
    with tarfile.open(file) as archive:
        owners = {(it.uid, it.gid, it.uname, it.gname, it.mtime) for it in archive}
        archive.extractall(work / "archive")
    tally.equal("archive: files have no owners, and the time of the commit", owners, {(0, 0, "", "", of.repository.time)})
    root = work / "archive" / file.name[: -len(".tar.gz")]
    try_prefix(tally, Installed("archive", root / "bin", root, "manifest.txt", work), of, root)


def try_debian(tally, of, work, file):


    """The Debian package: unpacked, installed by dpkg, and in a root of its own."""
    if not shutil.which("dpkg-deb"):
        return tally.skip("debian", "there is no dpkg-deb")
    root = work / "debian"
    subprocess.run(["dpkg-deb", "--extract", file, root], check=True)
    fields = subprocess.run(["dpkg-deb", "--field", file, "Package", "Version", "Architecture"], capture_output=True, text=True, check=True).stdout
    tally.equal("debian: its fields", fields, f"Package: unison-networks\nVersion: {of.version}\nArchitecture: amd64\n")
    try_prefix(tally, Installed("debian", root / "usr" / "bin", root, "usr/lib/unison/manifest.txt", work), of, root / "usr")
    try_dpkg(tally, work, file)
    return try_clean_root(tally, of, root)


def try_dpkg(tally, work, file):
    """dpkg installs it into an empty root, and finds its files as they were."""
    root, words = work / "root", ["dpkg", "--force-depends", "--force-not-root", "--force-bad-path"]
    (root / "var" / "lib" / "dpkg" / "updates").mkdir(parents=True)
    (root / "var" / "lib" / "dpkg" / "status").touch()
    how = {"capture_output": True, "text": True, "env": {**os.environ, "LC_ALL": "C"}}
    done = subprocess.run([*words, f"--root={root}", "--install", file], **how)
    there = (root / "usr" / "bin" / "unison").is_symlink()
    tally.tell("debian: dpkg installs it", done.returncode == 0 and there, done.stdout + done.stderr)
    done = subprocess.run([*words, f"--root={root}", "--verify", "unison-networks"], **how)
    tally.equal("debian: dpkg verifies its files", (done.stdout, done.returncode), ("", 0))


def linked_with(program):
    """The files of the libraries that a program is linked with, and its loader."""
    return re.findall(r"(/\S+) \(0x", subprocess.run(["ldd", program], capture_output=True, text=True).stdout)


def put_file(file, place):
    place.parent.mkdir(parents=True, exist_ok=True)
    shutil.copy2(file, place)


def put_tools(root):
    """Puts the tools into a root, with what they and the programs are linked with. The names of the libraries of the programs."""
    libraries = set()
    for name in TOOLS:
        tool = pathlib.Path(shutil.which(name)).resolve()
        put_file(tool, root / "usr" / "bin" / name)
        libraries.update(linked_with(tool))
    of_programs = {it for program in (root / "usr" / "lib" / "unison").glob("*/unison_*") for it in linked_with(program)}
    for library in libraries | of_programs:
        put_file(library, root / library.lstrip("/"))
    return sorted(pathlib.Path(it).name for it in of_programs)


def try_clean_root(tally, of, root):
    """The commands of README.md in a root that has the package and the tools alone, and nothing else of this machine."""
    linked = put_tools(root)
    if of.programs[0].is_proved():
        tally.equal("debian: the programs are linked with the C library alone", linked, ["ld-linux-x86-64.so.2", "libc.so.6"])
    (root / "tmp").mkdir()
    (root / "tmp" / "examples").symlink_to("/usr/share/doc/unison/examples")
    enter = ["chroot", root] if os.geteuid() == 0 else ["unshare", "--map-root-user", "chroot", root]
    how = {"stdin": subprocess.DEVNULL, "capture_output": True, "text": True, "env": {"PATH": f"{os.environ['PATH']}:/usr/sbin:/usr/bin"}}
    try:
        able = subprocess.run([*enter, "/usr/bin/bash", "-c", "true"], **how).returncode == 0
    except OSError:
        able = False
    if not able:
        return tally.skip("debian: in a clean root", "chroot is not allowed here")
    text = f"cd /tmp && {commands_of_readme()}\nunison check examples/distance.rules"
    done = subprocess.run([*enter, "/usr/bin/bash", "-c", text], **how)
    picture = (root / "tmp" / "rule_90.svg").read_bytes() == (TOP / "docs" / "pictures" / "rule_90.svg").read_bytes()
    return tally.tell("debian: in a clean root", picture and (done.stdout, done.returncode) == (CANONICAL, 0), done.stdout + done.stderr)


def try_wheel(tally, of, work, file):


    """The wheel, in an environment of its own."""
    place = work / "wheel"
    made = subprocess.run([sys.executable, "-m", "venv", place], capture_output=True, text=True)
    if made.returncode:
        return tally.skip("wheel", "venv makes none here")
    words = [place / "bin" / "python", "-m", "pip", "install", "--no-index", "--disable-pip-version-check", "--no-compile", file]
    done = subprocess.run(words, capture_output=True, text=True)
    tally.tell("wheel: pip installs it", done.returncode == 0, done.stdout + done.stderr)
    if done.returncode:
        return None
    root = next((place / "lib").glob("python3*/site-packages"))
    it = Installed("wheel", place / "bin", root, "unison/programs/manifest.txt", work)
    try_commands(tally, it, of)
    others = tuple(path.name for path in root.iterdir() if path.name != "unison")
    try_files(tally, it, others)
    return try_import(tally, it, of)


def try_import(tally, it, of):
    """The package for Python, with its own library."""
    told = it.run("python -c 'import unison; print(unison.__version__, unison.__file__)'", LC_ALL="C.UTF-8")
    tally.equal("wheel: import unison", told, (f"{of.version} {it.root}/unison/__init__.py\n", "", 0))
    if not of.libraries:
        return tally.skip("wheel: a call of the library", "the package was made without it")
    text = f"unison.lockstep(unison.Program.from_file('{DISTANCE[0]}'), unison.Network.from_file('{DISTANCE[1]}'), 2).report()"
    told = it.run(f'python -c "import unison; print({text}, end=str())"')
    return tally.equal("wheel: a call of the library", told, ((REPORTS / "distance-path-2.txt").read_text(), "", 0))


def try_choice(tally, work):
    """The launcher chooses the highest level that this processor is of, and goes past those whose flags it does not have."""
    folder = work / "choice"
    for name in (*kit.LEVELS, "default", "beyond"):
        (folder / name).mkdir(parents=True)
        (folder / name / "unison_lab").write_text(f"#!/usr/bin/env bash\necho {name}\n")
        (folder / name / "unison_lab").chmod(0o755)
    for name in ("unison", "commands.sh"):
        shutil.copy2(TOP / "packages" / name, folder)
    (folder / "names").write_text("watch\n")
    needs = [f"{level} {' '.join(flags)}\n" for level, flags in kit.LEVELS.items()]
    (folder / "levels").write_text("".join(["beyond sse2 a_flag_of_no_processor\n", *needs, "default\n"]))
    environment = {"PATH": str(tools(work))}
    told = subprocess.run([folder / "unison", "watch"], env=environment, capture_output=True, text=True)
    without = {name: value for name, value in os.environ.items() if name != "UNISON_CPU"}
    words = [sys.executable, "-c", "import kit; print(kit.level())"]
    wanted = subprocess.run(words, cwd=TOP / "first_use", env=without, capture_output=True, text=True)
    tally.equal("the launcher chooses the level of this processor", (told.stdout, told.stderr), (wanted.stdout, ""))


def try_command(tally, work):
    """The package's command where it was not installed from a wheel of ./release: it is the checkout's ./unison, or says what to do."""
    words = [sys.executable, "-m", "unison.command", "--version"]
    told = {}
    alone = work / "alone" / "unison"
    alone.mkdir(parents=True)
    shutil.copy2(TOP / "python" / "unison" / "command.py", alone)
    usual = os.environ["PATH"]
    for what, folder, path in (("checkout", TOP / "python", usual), ("alone", alone.parent, usual), ("no bash", alone.parent, "/nowhere")):
        environment = {**os.environ, "PYTHONPATH": str(folder), "PATH": path, "PYTHONDONTWRITEBYTECODE": "1"}
        done = subprocess.run(words, env=environment, cwd=work, capture_output=True, text=True)
        told[what] = (done.stdout, done.stderr, done.returncode)
    tally.equal("the command in a checkout is ./unison", told["checkout"], (f"unison {parts.wheel_maker.version()}\n", "", 0))
    out, error, status = told["alone"]
    tally.tell("the command without programs says what to do", (out, status) == ("", 1) and "install the wheel that ./release makes" in error, error)
    out, error, status = told["no bash"]
    tally.tell("the command without bash says what to do", (out, status) == ("", 1) and "there is no bash here" in error, error)


def try_listed(tally, of, made):
    """The manifest beside the packages names them with their sums."""
    files = sorted(path for path in made.iterdir() if path.name != "manifest.txt")
    sums = [f"{hashlib.sha256(path.read_bytes()).hexdigest()}  {path.name}" for path in files]
    told = [line for line in (made / "manifest.txt").read_text().splitlines() if not line.startswith("#")]
    tally.equal("the manifest of the packages", told, sums)


def all_of(tally, of, work, made):


    """All trials of the packages in a folder."""
    refusals.all_of(tally, work)
    try_choice(tally, work)
    try_command(tally, work)
    try_listed(tally, of, made)
    try_archive(tally, of, work, next(made.glob("*.tar.gz")))
    try_debian(tally, of, work, next(made.glob("*.deb")))
    try_wheel(tally, of, work, next(made.glob("*.whl")))
