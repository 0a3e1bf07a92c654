"""Packs the Python package, with the shared library inside: a build backend as PEP 517 and PEP 660 have it.

    pip install callers/python                      (pip calls the functions below)
    python3 callers/python/backend.py FOLDER        (writes the wheel into a folder and says its name)

Python's standard library is all that it needs. The shared library is the one that LANECOCKLE_LIB names (the file or its
folder), else the one beside the package's modules, as a source archive has it, else target/staticlib of the project.
The same files give the same bytes: times are SOURCE_DATE_EPOCH, or 1980, and names are in order.
"""

import base64
import gzip
import hashlib
import io
import os
import re
import sys
import tarfile
import time
import zipfile
from pathlib import Path
from typing import Any, Dict, List, Optional

HERE = Path(__file__).resolve().parent
PACKAGE = HERE / "lanecockle"
LIBRARY = "liblanecockle.so"
NAME = "lanecockle"
SUMMARY = "HUB3 payment slips, wage files, wet slips and check digits, judged by a proved library"
COMMAND = "lanecockle.command:main"
PYTHON = ">=3.8"

#: The first moment that a wheel, which is a zip file, can tell.
FIRST = 315532800

#: The machines that a library may be for, by their numbers in ELF files.
MACHINES = {62: "x86_64", 183: "aarch64"}

#: The newest version of glibc on which a `manylinux2014` wheel may count.
MANYLINUX = (2, 17)

Settings = Optional[Dict[str, Any]]
Files = Dict[str, bytes]


# ----------------------------------------------------------------------------------------------------------------------
# What goes in


def version() -> str:
    """The package's version, which tools/tables writes into tables.py."""
    told = re.search(r'^VERSION = "([0-9.]+)"$', (PACKAGE / "tables.py").read_text("utf-8"), re.MULTILINE)
    if told is None:
        raise SystemExit(f"{PACKAGE / 'tables.py'} tells no version; tools/tables --write writes it")
    return told.group(1)


def description() -> str:
    """The user's README: beside this file in a source archive, in callers/release in the project."""
    for path in (HERE / "README.md", HERE.parent / "release" / "README.md"):
        if path.is_file():
            return path.read_text("utf-8")
    return SUMMARY + "\n"


def library() -> bytes:
    """The shared library's bytes."""
    named = os.environ.get("LANECOCKLE_LIB")
    if named:
        given = Path(named)
        places = [given / LIBRARY if given.is_dir() else given]
    else:
        places = [PACKAGE / LIBRARY, HERE.parents[1] / "target" / "staticlib" / LIBRARY]
    for path in places:
        if path.is_file():
            return path.read_bytes()
    looked = " and no ".join(str(path) for path in places)
    raise SystemExit(
        f"lanecockle: there is no {looked}; write it with callers/build, or name it or its folder in LANECOCKLE_LIB"
    )


def modules() -> Files:
    """The package's own files by their names in a wheel: modules and what they read, without the shared library."""
    files = {}
    for path in sorted(PACKAGE.rglob("*")):
        inside = path.relative_to(HERE)
        hidden = any(part.startswith((".", "__pycache__")) for part in inside.parts)
        if path.is_file() and not hidden and path.name != LIBRARY and not path.name.endswith(("~", ".pyc")):
            files[inside.as_posix()] = path.read_bytes()
    return files


def packed_files() -> Files:
    """The package's files, the shared library among them."""
    return {**modules(), f"{PACKAGE.name}/{LIBRARY}": library()}


def platform(shared: bytes) -> str:
    """The platform that a shared library is for, as wheels name it.

    `manylinux2014` promises that no library but those of every Linux is needed, and of glibc nothing newer than 2.17:
    liblanecockle.so needs memcpy and memset alone. A linker that packs relocations asks for a newer glibc (GLIBC_ABI).
    """
    machine = MACHINES.get(int.from_bytes(shared[18:20], "little"))
    if shared[:6] != b"\x7fELF\x02\x01" or machine is None:
        raise SystemExit("lanecockle: the shared library is for no machine that is known here")
    needed = [(int(first), int(second)) for first, second in re.findall(rb"GLIBC_([0-9]+)\.([0-9]+)", shared)]
    is_old = max(needed, default=(0, 0)) <= MANYLINUX and b"GLIBC_ABI" not in shared
    return f"manylinux2014_{machine}" if is_old else f"linux_{machine}"


# ----------------------------------------------------------------------------------------------------------------------
# What a wheel tells of itself


def metadata() -> bytes:
    """METADATA: name, version and the user's README."""
    head = [
        "Metadata-Version: 2.1", f"Name: {NAME}", f"Version: {version()}", f"Summary: {SUMMARY}",
        f"Requires-Python: {PYTHON}", "Classifier: Operating System :: POSIX :: Linux", "Classifier: Typing :: Typed",
        "Classifier: Natural Language :: Croatian", "Classifier: Natural Language :: English",
        "Description-Content-Type: text/markdown; charset=UTF-8",
    ]
    return ("\n".join(head) + "\n\n" + description()).encode()


def dist_info(tag: str) -> Files:
    """The files about a wheel, without RECORD."""
    folder = f"{NAME}-{version()}.dist-info"
    is_pure = "true" if tag.endswith("-any") else "false"
    wheel = ["Wheel-Version: 1.0", f"Generator: {NAME}", f"Root-Is-Purelib: {is_pure}", f"Tag: {tag}", ""]
    return {
        f"{folder}/METADATA": metadata(),
        f"{folder}/WHEEL": "\n".join(wheel).encode(),
        f"{folder}/entry_points.txt": f"[console_scripts]\n{NAME} = {COMMAND}\n".encode(),
    }


def record(files: Files) -> bytes:
    """RECORD: each file with its sha256 and its size, and RECORD itself with neither."""
    lines = []
    for name, data in files.items():
        digest = base64.urlsafe_b64encode(hashlib.sha256(data).digest()).rstrip(b"=").decode()
        lines.append(f"{name},sha256={digest},{len(data)}")
    return "\n".join(lines + [f"{record_name()},,", ""]).encode()


def record_name() -> str:
    """Where RECORD stands in a wheel."""
    return f"{NAME}-{version()}.dist-info/RECORD"


# ----------------------------------------------------------------------------------------------------------------------
# Written


def moment() -> int:
    """The time that every packed file has, in seconds since 1970."""
    return max(FIRST, int(os.environ.get("SOURCE_DATE_EPOCH", FIRST)))


def mode(name: str) -> int:
    """A packed file's permissions: a shared library may be executed, as a linker leaves it."""
    return 0o755 if name.endswith(".so") else 0o644


def write_wheel(folder: str, tag: str, files: Files) -> str:
    """Writes a wheel of some files and what it tells of itself; its name."""
    files = {**dict(sorted(files.items())), **dist_info(tag)}
    files[record_name()] = record(files)
    name = f"{NAME}-{version()}-{tag}.whl"
    with zipfile.ZipFile(Path(folder) / name, "w") as wheel:
        for inside, data in files.items():
            entry = zipfile.ZipInfo(inside, time.gmtime(moment())[:6])
            entry.compress_type = zipfile.ZIP_DEFLATED
            entry.create_system = 3
            entry.external_attr = (0o100000 | mode(inside)) << 16
            wheel.writestr(entry, data)
    return name


def binary_tag() -> str:
    """The tag of a wheel with the shared library: any Python 3, and the library's platform."""
    return f"py3-none-{platform(library())}"


# ----------------------------------------------------------------------------------------------------------------------
# What pip calls


def get_requires_for_build_wheel(config_settings: Settings = None) -> List[str]:
    """Nothing is needed to build a wheel."""
    return []


get_requires_for_build_sdist = get_requires_for_build_editable = get_requires_for_build_wheel


def prepare_metadata_for_build_wheel(metadata_directory: str, config_settings: Settings = None) -> str:
    """Writes what the wheel will tell of itself; the name of its folder."""
    for name, data in dist_info(binary_tag()).items():
        path = Path(metadata_directory) / name
        path.parent.mkdir(exist_ok=True)
        path.write_bytes(data)
    return f"{NAME}-{version()}.dist-info"


def build_wheel(
    wheel_directory: str, config_settings: Settings = None, metadata_directory: Optional[str] = None
) -> str:
    """Writes the wheel, with the shared library inside the package; its name."""
    return write_wheel(wheel_directory, binary_tag(), packed_files())


def build_editable(
    wheel_directory: str, config_settings: Settings = None, metadata_directory: Optional[str] = None
) -> str:
    """Writes a wheel that leads to this folder, where the package is edited; its name."""
    return write_wheel(wheel_directory, "py3-none-any", {f"{NAME}.pth": f"{HERE}\n".encode()})


def build_sdist(sdist_directory: str, config_settings: Settings = None) -> str:
    """Writes a source archive: the package with the shared library, this backend and the README; its name."""
    root = f"{NAME}-{version()}"
    files = {**packed_files(), "PKG-INFO": metadata(), "README.md": description().encode()}
    for name in ("backend.py", "pyproject.toml"):
        files[name] = (HERE / name).read_bytes()
    written = io.BytesIO()
    with tarfile.open(fileobj=written, mode="w", format=tarfile.PAX_FORMAT) as archive:
        for name, data in sorted(files.items()):
            entry = tarfile.TarInfo(f"{root}/{name}")
            entry.size, entry.mtime, entry.mode = len(data), moment(), mode(name)
            archive.addfile(entry, io.BytesIO(data))
    (Path(sdist_directory) / f"{root}.tar.gz").write_bytes(gzip.compress(written.getvalue(), mtime=moment()))
    return f"{root}.tar.gz"


def main() -> None:
    """Writes the wheel into the folder that is named, and says so."""
    if len(sys.argv) != 2:
        raise SystemExit("usage: backend.py FOLDER")
    folder = Path(sys.argv[1])
    folder.mkdir(parents=True, exist_ok=True)
    print(folder / build_wheel(str(folder)))


if __name__ == "__main__":
    main()
