"""The wheel of the tools with the programs inside, for pip in an environment."""
from __future__ import annotations

import re
from pathlib import Path

import packing

GLIBC = re.compile(rb"\x00GLIBC_2\.(\d+)(?=\x00)")  # versions of the C library's functions that a program names


def tag_of(programs: bytes) -> str:
    """The tag of a wheel for Linux on x86-64, with the least C library that the programs in it run with."""
    versions = [int(number) for number in GLIBC.findall(programs)]
    if not versions:
        raise SystemExit("package: the program names no version of the C library")
    return f"py3-none-manylinux_2_{max(versions)}_x86_64"


def write(prefix: Path, folder: Path) -> Path:
    """Writes the wheel of what is staged; links are left out, as pip makes none."""
    paths = sorted(path for path in prefix.rglob("*") if path.is_file() and not path.is_symlink())
    names = {path: path.relative_to(prefix).as_posix() for path in paths}
    by_place = {
        f"scripts/{name.removeprefix('bin/')}" if name.startswith("bin/") else f"data/{name}": path
        for path, name in names.items()
    }
    linked = (path for path in paths if path.suffix == ".so" or path.parent.parent.name == "libexec")
    programs = b"".join(path.read_bytes() for path in linked)
    return folder / packing.write_wheel(folder, tag_of(programs), by_place)
