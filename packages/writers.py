"""Writes packages, of the same files the same bytes: names are sorted, times are that of the commit, and owners have no names."""

import gzip
import hashlib
import io
import pathlib
import stat
import tarfile

PACKED = 6  # how far files are packed, from 0 to 9


def folders_of(paths):
    """The folders in which these paths stand, each before those in it."""
    return sorted({str(folder) for path in paths for folder in pathlib.PurePosixPath(path).parents if str(folder) != "."})


def entry(path, mode, time):


    """A member of an archive, which belongs to nobody by name."""
    it = tarfile.TarInfo(path)
    it.mode, it.mtime = stat.S_IMODE(mode), time
    return it


def add_file(archive, path, content, mode, time):


    """Adds a file or a link, of which the content is where it leads."""
    it = entry(path, mode, time)
    if stat.S_ISLNK(mode):
        it.type, it.linkname = tarfile.SYMTYPE, content.decode()
        archive.addfile(it)
    else:
        it.size = len(content)
        archive.addfile(it, io.BytesIO(content))


def gz(content, time):
    """The content as gzip packs it, with no name in it."""
    packed = io.BytesIO()
    with gzip.GzipFile(filename="", mode="wb", compresslevel=PACKED, fileobj=packed, mtime=time) as stream:
        stream.write(content)
    return packed.getvalue()


def tar_gz(files, time, before=""):
    """A packed archive of files, by their paths with a text before each."""
    plain = io.BytesIO()
    with tarfile.open(fileobj=plain, mode="w", format=tarfile.GNU_FORMAT) as archive:
        for folder in folders_of(f"{before}{path}" for path in files):
            it = entry(folder, 0o755, time)
            it.type = tarfile.DIRTYPE
            archive.addfile(it)
        for path, (content, mode) in sorted(files.items()):
            add_file(archive, f"{before}{path}", content, mode, time)
    return gz(plain.getvalue(), time)


def member(name, content, time):
    """A member of an archive of `ar`, which begins at an even place."""
    head = f"{name:<16}{time:<12}{0:<6}{0:<6}{'100644':<8}{len(content):<10}`\n"
    return head.encode() + content + b"\n" * (len(content) % 2)


def md5sums(files):
    """What `dpkg --verify` compares installed files with."""
    sums = [f"{hashlib.md5(content).hexdigest()}  {path}\n" for path, (content, mode) in sorted(files.items()) if stat.S_ISREG(mode)]
    return "".join(sums).encode()


def deb(fields, files, time):
    """A Debian package of these fields of its control file and files below /."""
    size = sum(len(content) for content, _ in files.values()) // 1024
    control = "".join(f"{name}: {value}\n" for name, value in {**fields, "Installed-Size": size}.items()).encode()
    about = {"control": (control, 0o644), "md5sums": (md5sums(files), 0o644)}
    members = [("debian-binary", b"2.0\n"), ("control.tar.gz", tar_gz(about, time, "./")), ("data.tar.gz", tar_gz(files, time, "./"))]
    return b"!<arch>\n" + b"".join(member(name, content, time) for name, content in members)
