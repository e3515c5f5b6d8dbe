"""Packages for Debian: what is in each, what it says of itself, and how dpkg-deb makes it."""

import gzip
import hashlib
import os
import re
import subprocess
import tempfile
from email.utils import formatdate
from typing import Dict, Iterable, List, NamedTuple

import layout
from layout import Entry

import building  # (layout says where it lies)

MAINTAINER = "Tiuvrokk maintainers <maintainers@users.noreply.tiuvrokk.example>"
ABOUT = """ Tiuvrokk keeps records in memory, and answers queries over freshly loaded
 data at once, before a whole index is built: loaded runs are merged where
 queries look. Key-range locks separate transactions. Its code is proved to
 meet its contracts. It is not durable: the store ends with its process.
 .
"""
PYTHON = "lib/python3/dist-packages"
UNITS = ["amserve.service", "amreplica@.service"]
COPYRIGHT = """Format: https://www.debian.org/doc/packaging-manuals/copyright-format/1.0/
Upstream-Name: tiuvrokk

Files: *
"""


class Package(NamedTuple):
    """A package: its files below /usr, those that dpkg itself reads, and settings, which stand where their paths say."""

    name: str
    section: str
    needs: List[str]
    about: str
    entries: List[Entry]
    control: List[Entry] = []
    settings: List[Entry] = []
    is_for_all: bool = False
    suggests: str = ""


def architecture() -> str:
    """This machine's, as Debian names it."""
    machine = os.uname().machine
    return {"x86_64": "amd64", "aarch64": "arm64"}.get(machine, machine)


def packed(data: bytes) -> bytes:
    """Data by gzip, with no time in it."""
    return gzip.compress(data, 9, mtime=0)


def glibc_of(programs: Iterable[bytes]) -> str:
    """The version of the C library that programs need; no older one is known to be enough than what wheels begin at."""
    found = {(int(high), int(low)) for data in programs for high, low in re.findall(rb"GLIBC_(\d+)\.(\d+)", data)}
    return ".".join(map(str, max({(2, 17), *found})))


def packages(programs: Dict[str, bytes], library: List[Entry]) -> List[Package]:
    """The programs, the library for C, what a program needs to be compiled with it, and the Python package."""
    at_home = layout.library_at(library, f"lib/{os.uname().machine}-linux-gnu")
    shared = layout.shared_library(at_home)
    name = f"libtiuvrokk{layout.version().partition('.')[0]}"
    return [
        programs_package(programs),
        library_package(name, shared),
        development_package(name, [it for it in at_home if it != shared]),
        python_package(name),
    ]


def programs_package(programs: Dict[str, bytes]) -> Package:
    entries = layout.program_entries(programs) + layout.manual_entries([1, 7]) + layout.completion_entries()
    entries += [Entry(f"lib/systemd/system/{it}", layout.bytes_of(f"packaging/{it}")) for it in UNITS]
    entries.append(Entry("share/doc/tiuvrokk/replicas.md.gz", packed(layout.bytes_of("docs/replicas.md"))))
    needs = [f"libc6 (>= {glibc_of(programs.values())})", "python3 (>= 3.9)"]
    about = "This package has the programs and their manuals."
    # What an administrator changes there stays as it is where a newer package is installed.
    settings = [Entry("etc/default/amserve", layout.bytes_of("packaging/amserve.default"))]
    # A replica needs nothing more on its own machine: etcd's members may lie on others.
    return Package("tiuvrokk", "database", needs, about, entries, settings=settings, suggests="etcd-client, etcd-server")


def library_package(name: str, shared: Entry) -> Package:
    revision, major = layout.revision(), layout.version().partition(".")[0]
    shlibs = Entry("shlibs", f"libtiuvrokk {major} {name} (>= {revision})\n".encode())
    # Since which version the library has each call, by which a program needs that version, and no newer one.
    symbols = Entry("symbols", layout.bytes_of(f"packaging/{name}.symbols"))
    triggers = Entry("triggers", b"activate-noawait ldconfig\n")
    needs = [f"libc6 (>= {glibc_of([shared.data])})"]
    return Package(name, "libs", needs, "This package has the shared library for C.", [shared], [shlibs, symbols, triggers])


def development_package(library: str, rest: List[Entry]) -> Package:
    place = "share/doc/libtiuvrokk-dev/examples"
    entries = [*rest, *layout.manual_entries([3])]
    entries += [Entry(f"{place}/{name}", layout.bytes_of(f"examples/{name}")) for name in ("embed.c", "embed.cpp")]
    about = "This package has what a program needs to be compiled with the library."
    return Package("libtiuvrokk-dev", "libdevel", [f"{library} (= {layout.revision()})"], about, entries)


def python_package(library: str) -> Package:
    entries = layout.package_entries("python/tiuvrokk", PYTHON)
    # By these Python and pip know the package, and pip that it is dpkg's to remove.
    about = {"METADATA": building.metadata(), "INSTALLER": b"debian\n"}
    entries += [Entry(f"{PYTHON}/{building.information_folder()}/{name}", data) for name, data in about.items()]
    entries.append(Entry("share/doc/python3-tiuvrokk/examples/embed.py", layout.bytes_of("examples/embed.py")))
    # What Python compiles where it may write is no file of the package, so it would stay.
    removal = Entry("prerm", f"#!/bin/sh\nset -e\nrm -rf /usr/{PYTHON}/tiuvrokk/__pycache__\n".encode(), 0o755)
    needs = ["python3 (>= 3.9)", f"{library} (>= {layout.revision()})"]
    said = "This package has the Python package."
    return Package("python3-tiuvrokk", "python", needs, said, entries, [removal], is_for_all=True)


def documents(package: Package, epoch: int) -> List[Entry]:
    """What each package has to say of itself."""
    licence = layout.bytes_of("LICENSE").decode()
    holder = re.search(r"Copyright \(c\) (.*)", licence)
    terms = "".join(f" {line or '.'}\n" for line in licence.splitlines())
    written = f"{COPYRIGHT}Copyright: {holder.group(1) if holder else MAINTAINER}\nLicense: Expat\n{terms}"
    told = f"tiuvrokk ({layout.revision()}) unstable; urgency=medium\n\n  * CHANGELOG.md of the sources has what changed.\n\n"
    changes = f"{told} -- {MAINTAINER}  {formatdate(epoch)}\n"
    place = f"share/doc/{package.name}"
    return [Entry(f"{place}/copyright", written.encode()), Entry(f"{place}/changelog.gz", packed(changes.encode()))]


def control_of(package: Package, entries: List[Entry]) -> bytes:
    """The fields of a package."""
    fields = {
        "Package": package.name,
        "Source": "tiuvrokk",
        "Version": layout.revision(),
        "Architecture": "all" if package.is_for_all else architecture(),
        "Maintainer": MAINTAINER,
        "Installed-Size": str(sum(1 + len(it.data) // 1024 for it in entries)),
        "Depends": ", ".join(package.needs),
        "Section": package.section,
        "Priority": "optional",
        "Description": f"transactional keyed store ({package.name})",
    }
    if package.section.startswith("lib"):
        fields["Multi-Arch"] = "same"
    if package.suggests:
        fields["Suggests"] = package.suggests
    lines = "".join(f"{name}: {value}\n" for name, value in sorted(fields.items(), key=lambda it: it[0] == "Description"))
    return f"{lines}{ABOUT} {package.about}\n".encode()


def in_debian(entry: Entry) -> Entry:
    """Where an entry stands there; manuals are by gzip."""
    if entry.path.startswith("share/man/"):
        entry = entry._replace(path=f"{entry.path}.gz", data=packed(entry.data))
    return entry._replace(path=f"usr/{entry.path}")


def make(package: Package, epoch: int, folder: str) -> str:
    """Makes one package by dpkg-deb, and tells its name."""
    entries = [in_debian(it) for it in [*package.entries, *documents(package, epoch)]]
    # (dpkg has those of settings elsewhere)
    sums = "".join(f"{hashlib.md5(it.data).hexdigest()}  {it.path}\n" for it in sorted(entries) if not it.link)
    entries += package.settings
    control = [Entry("control", control_of(package, entries)), Entry("md5sums", sums.encode()), *package.control]
    if package.settings:
        control.append(Entry("conffiles", "".join(f"/{it.path}\n" for it in package.settings).encode()))
    made = os.path.join(folder, f"{package.name}_{layout.revision()}_{'all' if package.is_for_all else architecture()}.deb")
    environment = {**os.environ, "SOURCE_DATE_EPOCH": str(epoch), "DPKG_DEB_THREADS_MAX": "1"}
    with tempfile.TemporaryDirectory() as root:
        layout.write([*entries, *(it._replace(path=f"DEBIAN/{it.path}") for it in control)], root)
        settle(root, epoch)
        words = ["dpkg-deb", "--root-owner-group", "-Zxz", "--build", root, made]
        subprocess.run(words, env=environment, stdout=subprocess.DEVNULL, check=True)
    return made


def settle(root: str, epoch: int) -> None:
    """Has all below a folder be of that time, and each folder open to all."""
    for folder, folders, files in os.walk(root, topdown=False):
        os.chmod(folder, 0o755)
        for name in [*folders, *files]:
            os.utime(os.path.join(folder, name), (epoch, epoch), follow_symlinks=False)
    os.utime(root, (epoch, epoch))
