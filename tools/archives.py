"""A wheel of the Python package with the library in it, that package's own sources, and a .tar.gz of all, for systems that aren't
Debian's."""

import io
import os
import tarfile
from typing import Dict, List

import layout
from debian import glibc_of, packed
from layout import Entry

import building  # (layout says where it lies)


def wheel(library: List[Entry], epoch: int, folder: str) -> str:
    """Makes the wheel, and tells its name."""
    shared = layout.shared_library(library)
    glibc = glibc_of([shared.data]).replace(".", "_")
    platform = f"manylinux_{glibc}_{os.uname().machine}"
    return os.path.join(folder, building.write_wheel(folder, platform, shared.data, layout.bytes_of("LICENSE"), epoch))


def sources(epoch: int, folder: str) -> str:
    """Makes the archive of the Python package's sources, and tells its name."""
    return os.path.join(folder, building.write_sources(folder, epoch))


def archive(programs: Dict[str, bytes], library: List[Entry], epoch: int, folder: str) -> str:
    """Makes the .tar.gz, and tells its name."""
    name = f"tiuvrokk-{layout.revision()}-linux-{os.uname().machine}"
    entries = layout.all_entries(programs, library)
    documents = ("README.md", "LICENSE", "CHANGELOG.md", "docs/protocol.md", "docs/replicas.md")
    entries += [Entry(it, layout.bytes_of(it)) for it in documents]
    made, data = os.path.join(folder, f"{name}.tar.gz"), io.BytesIO()
    with tarfile.open(fileobj=data, mode="w", format=tarfile.PAX_FORMAT) as file:
        for entry in sorted(entries):
            told = tarfile.TarInfo(f"{name}/{entry.path}")
            told.mtime, told.mode, told.size = epoch, entry.mode, len(entry.data)
            if entry.link:
                told.type, told.linkname, told.mode = tarfile.SYMTYPE, entry.link, 0o777
            file.addfile(told, io.BytesIO(entry.data))
    with open(made, "wb") as written:
        written.write(packed(data.getvalue()))
    return made
