"""Makes the wheel of the package, for `pip install ./python`, which calls `build_wheel`, and for ./package, and an archive of the
package's own sources (`build_sdist`), of which pip makes the same wheel. No C is compiled, and nothing but Python's own library
is needed.

The library goes into the wheel where there is one: the one that the environment's TIUVROKK_LIBRARY names, or else the one that
lies beside the package. Without one the wheel is for any machine, and the library is looked for where a program uses it."""

import base64
import gzip
import hashlib
import io
import os
import re
import sysconfig
import tarfile
import time
import zipfile
from typing import Any, Dict, List, Optional

HERE = os.path.dirname(os.path.abspath(__file__))
PACKAGE = os.path.join(HERE, "tiuvrokk")
SUMMARY = "A transactional keyed store inside a program"
# The first second that a zip file knows.
EARLIEST = 315532800


def bytes_of(path: str) -> bytes:
    with open(path, "rb") as file:
        return file.read()


def version() -> str:
    found = re.search(rb'(?m)^__version__ = "(.*)"', bytes_of(os.path.join(PACKAGE, "__init__.py")))
    if not found:
        raise ValueError("the package has no version")
    return found.group(1).decode()


def shared_name() -> str:
    """The name of the library, as the package looks for it."""
    return f"libtiuvrokk.so.{version().partition('.')[0]}"


def modules() -> Dict[str, bytes]:
    """The files of the package."""
    names = sorted(it for it in os.listdir(PACKAGE) if it.endswith((".py", ".typed")))
    return {f"tiuvrokk/{name}": bytes_of(os.path.join(PACKAGE, name)) for name in names}


def sum_of(data: bytes) -> str:
    """A sum as wheels write it."""
    return base64.urlsafe_b64encode(hashlib.sha256(data).digest()).rstrip(b"=").decode()


def metadata() -> bytes:
    """What the package says of itself, wherever it is installed."""
    about = f"Metadata-Version: 2.1\nName: tiuvrokk\nVersion: {version()}\nLicense: MIT\nRequires-Python: >=3.9\n"
    return f"{about}Summary: {SUMMARY}\n".encode()


def information_folder() -> str:
    """Where that stands, beside the package."""
    return f"tiuvrokk-{version()}.dist-info"


def documents(tag: str, licence: Optional[bytes]) -> Dict[str, bytes]:
    """What a wheel says of itself."""
    is_pure = "true" if tag.endswith("-any") else "false"
    said = f"Wheel-Version: 1.0\nGenerator: tiuvrokk\nRoot-Is-Purelib: {is_pure}\nTag: {tag}\n"
    found = {"METADATA": metadata(), "WHEEL": said.encode()}
    if licence is not None:
        found["LICENSE"] = licence
    return {f"{information_folder()}/{name}": data for name, data in found.items()}


def write_wheel(folder: str, platform: str, library: Optional[bytes], licence: Optional[bytes], epoch: int) -> str:
    """Makes a wheel for a platform, and tells its name."""
    files = modules()
    if library is not None:
        files[f"tiuvrokk/{shared_name()}"] = library
    return write_files(folder, platform, files, licence, epoch)


def write_files(folder: str, platform: str, files: Dict[str, bytes], licence: Optional[bytes], epoch: int) -> str:
    """Makes a wheel of some files."""
    tag = f"py3-none-{platform}"
    files.update(documents(tag, licence))
    record = f"{information_folder()}/RECORD"
    lines = [f"{path},sha256={sum_of(data)},{len(data)}\n" for path, data in files.items()]
    files[record] = f"{''.join(lines)}{record},,\n".encode()
    name = f"tiuvrokk-{version()}-{tag}.whl"
    with zipfile.ZipFile(os.path.join(folder, name), "w") as file:
        for path, data in files.items():
            year, month, day, hour, minute, second, *_ = time.gmtime(max(epoch, EARLIEST))
            told = zipfile.ZipInfo(path, (year, month, day, hour, minute, second))
            told.external_attr = 0o100644 << 16
            told.compress_type = zipfile.ZIP_DEFLATED
            file.writestr(told, data)
    return name


def found_library() -> Optional[bytes]:
    """The library, where there is one."""
    beside = os.path.join(PACKAGE, shared_name())
    named = os.environ.get("TIUVROKK_LIBRARY") or (beside if os.path.exists(beside) else None)
    return None if named is None else bytes_of(named)


def found_licence() -> Optional[bytes]:
    """The licence: beside this file in the archive of the sources, and else at the top of the repository."""
    places = [os.path.join(folder, "LICENSE") for folder in (HERE, os.path.dirname(HERE))]
    return next((bytes_of(it) for it in places if os.path.exists(it)), None)


def epoch_told() -> int:
    """The time of all files, so that what is made of the same sources is the same to the bit."""
    return int(os.environ.get("SOURCE_DATE_EPOCH", EARLIEST))


def get_requires_for_build_editable(config_settings: Any = None) -> List[str]:
    return []


def build_editable(wheel_directory: str, config_settings: Any = None, metadata_directory: Optional[str] = None) -> str:
    """What `pip install -e ./python` installs: the name of this folder, where the package is looked for."""
    return write_files(wheel_directory, "any", {"tiuvrokk.pth": f"{HERE}\n".encode()}, None, EARLIEST)


def get_requires_for_build_wheel(config_settings: Any = None) -> List[str]:
    return []


def build_wheel(wheel_directory: str, config_settings: Any = None, metadata_directory: Optional[str] = None) -> str:
    library = found_library()
    platform = "any" if library is None else re.sub(r"\W", "_", sysconfig.get_platform())
    return write_wheel(wheel_directory, platform, library, found_licence(), epoch_told())


def build_sdist(sdist_directory: str, config_settings: Any = None) -> str:
    return write_sources(sdist_directory, epoch_told())


def write_sources(folder: str, epoch: int) -> str:
    """Makes the archive of the sources, without a library, and tells its name."""
    files = {name: bytes_of(os.path.join(HERE, name)) for name in ("building.py", "pyproject.toml")}
    files.update(modules())
    files["PKG-INFO"] = metadata()
    licence = found_licence()
    if licence is not None:
        files["LICENSE"] = licence
    name, made = f"tiuvrokk-{version()}", io.BytesIO()
    with tarfile.open(fileobj=made, mode="w", format=tarfile.PAX_FORMAT) as file:
        for path, data in sorted(files.items()):
            told = tarfile.TarInfo(f"{name}/{path}")
            told.mtime, told.mode, told.size = max(epoch, EARLIEST), 0o644, len(data)
            file.addfile(told, io.BytesIO(data))
    with open(os.path.join(folder, f"{name}.tar.gz"), "wb") as written:
        written.write(gzip.compress(made.getvalue(), 9, mtime=0))
    return f"{name}.tar.gz"
