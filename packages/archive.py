"""Files in memory, and archives of them whose bytes depend on nothing else: no clock, no owner, no order of a folder."""
import gzip
import hashlib
import io
import os
import tarfile
import zipfile
from dataclasses import dataclass


@dataclass(frozen=True)
class Entry:
    """A file, or a symbolic link to a path."""
    data: bytes = b""
    mode: int = 0o644
    link: str = ""


# Files by their paths, which have no slash at either end.
Tree = dict[str, Entry]


def sha256(data: bytes) -> str:
    return hashlib.sha256(data).hexdigest()


def folders(tree: Tree) -> set[str]:
    """The folders that the files of a tree lie in."""
    found = set()
    for path in tree:
        while path := os.path.dirname(path):
            found.add(path)
    return found


def tar(tree: Tree, top: str, time: int) -> bytes:
    """A tar of a tree, with every path below `top`. Each folder comes before what is in it."""
    out = io.BytesIO()
    with tarfile.open(fileobj=out, mode="w", format=tarfile.USTAR_FORMAT) as archive:
        for path in sorted({"", *folders(tree), *tree}):
            it = tree.get(path)
            head = tarfile.TarInfo(os.path.join(top, path) if path else top)
            head.mtime, head.uname, head.gname = time, "root", "root"
            if it is None:
                head.type, head.mode = tarfile.DIRTYPE, 0o755
            elif it.link:
                head.type, head.mode, head.linkname = tarfile.SYMTYPE, 0o777, it.link
            else:
                head.mode, head.size = it.mode, len(it.data)
            archive.addfile(head, io.BytesIO(it.data if it else b""))
    return out.getvalue()


def gzipped(data: bytes) -> bytes:
    out = io.BytesIO()
    with gzip.GzipFile(filename="", mode="wb", fileobj=out, mtime=0, compresslevel=9) as file:
        file.write(data)
    return out.getvalue()


def ar(members: dict[str, bytes], time: int) -> bytes:
    """An archive of `ar`, as a Debian package is one. A member begins at an even place."""
    parts = [b"!<arch>\n"]
    for name, data in members.items():
        parts.append(f"{name:<16}{time:<12}{0:<6}{0:<6}{0o100644:<8o}{len(data):<10}`\n".encode("ascii"))
        parts.append(data + b"\n" * (len(data) % 2))
    return b"".join(parts)


def zipped(tree: Tree) -> bytes:
    """A zip of a tree, in the tree's order. Its files have the earliest time that a zip can say."""
    out = io.BytesIO()
    with zipfile.ZipFile(out, "w", zipfile.ZIP_DEFLATED) as archive:
        for path, it in tree.items():
            head = zipfile.ZipInfo(path, (1980, 1, 1, 0, 0, 0))
            # The upper half holds the mode of a file, as Unix has it: 0o100000 says that it is a file.
            head.external_attr, head.compress_type, head.create_system = (0o100000 | it.mode) << 16, zipfile.ZIP_DEFLATED, 3
            archive.writestr(head, it.data)
    return out.getvalue()
