"""Packs the tools for pip, with the standard library alone: a build by setuptools would have to download it.

pip calls these functions (PEP 517); nothing is written beside the sources.
"""
from __future__ import annotations

import base64
import hashlib
import tarfile
import tomllib
import zipfile
from pathlib import Path
from typing import Any

TOP = Path(__file__).resolve().parent
ANYWHERE = "py3-none-any"  # the tag of a wheel without programs
STAMP = (2020, 1, 1, 0, 0, 0)  # of each file, so that equal sources give equal bytes


def build_wheel(wheel_directory: str, config_settings: Any = None, metadata_directory: str | None = None) -> str:
    """Writes the wheel of the tools alone and gives its name."""
    return write_wheel(Path(wheel_directory), ANYWHERE, {})


def write_wheel(folder: Path, tag: str, data: dict[str, Path]) -> str:
    """Writes a wheel and gives its name. data: further files by their places in an environment, which keep their modes:
    scripts/NAME is a command, data/PATH lies there."""
    project = read_project()
    stem = stem_of(project)
    more = {f"{stem}.data/{place}": path for place, path in data.items()}
    files = {**sources(), **{name: path.read_bytes() for name, path in more.items()}}
    files |= metadata(project, f"{stem}.dist-info", tag)
    record = f"{stem}.dist-info/RECORD"
    rows = [f"{name},sha256={digest(content)},{len(content)}" for name, content in files.items()]
    files[record] = "\n".join([*rows, f"{record},,", ""]).encode()
    name = f"{stem}-{tag}.whl"
    with zipfile.ZipFile(folder / name, "w", zipfile.ZIP_DEFLATED) as wheel:
        for path, content in files.items():
            entry = zipfile.ZipInfo(path, STAMP)
            if path in more:
                entry.external_attr = more[path].stat().st_mode << 16
            wheel.writestr(entry, content, zipfile.ZIP_DEFLATED)
    return name


def build_sdist(sdist_directory: str, config_settings: Any = None) -> str:
    """Writes an archive of the sources and gives its name."""
    project = read_project()
    name = f"{stem_of(project)}.tar.gz"
    with tarfile.open(Path(sdist_directory) / name, "w:gz") as archive:
        for path in (*sources(), "pyproject.toml", "packing.py", "README.md"):
            archive.add(TOP / path, f"{stem_of(project)}/{path}")
    return name


def read_project() -> dict[str, Any]:
    return tomllib.loads((TOP / "pyproject.toml").read_text(encoding="utf-8"))["project"]


def stem_of(project: dict[str, Any]) -> str:
    """The name and version, as file names have them."""
    return f"{project['name'].replace('-', '_')}-{project['version']}"


def sources() -> dict[str, bytes]:
    """The package's files by their paths."""
    paths = sorted(path for path in (TOP / "streetsim").rglob("*") if path.suffix in (".py", ".html", ".js", ".csv"))
    return {path.relative_to(TOP).as_posix(): path.read_bytes() for path in paths}


def metadata(project: dict[str, Any], folder: str, tag: str) -> dict[str, bytes]:
    """The files that tell pip what the wheel is and which commands it has."""
    extras = project["optional-dependencies"]
    lines = [
        "Metadata-Version: 2.1",
        f"Name: {project['name']}",
        f"Version: {project['version']}",
        f"Summary: {project['description']}",
        f"Requires-Python: {project['requires-python']}",
        *(f"Requires-Dist: {one}" for one in project["dependencies"]),
        *(f"Provides-Extra: {extra}" for extra in extras),
        *(f"Requires-Dist: {one}; extra == '{extra}'" for extra, names in extras.items() for one in names),
    ]
    wheel = ["Wheel-Version: 1.0", "Generator: packing", "Root-Is-Purelib: true", f"Tag: {tag}"]
    commands = ["[console_scripts]", *(f"{name} = {place}" for name, place in project["scripts"].items())]
    texts = {"METADATA": lines, "WHEEL": wheel, "entry_points.txt": commands}
    return {f"{folder}/{name}": "\n".join([*text, ""]).encode() for name, text in texts.items()}


def digest(content: bytes) -> str:
    return base64.urlsafe_b64encode(hashlib.sha256(content).digest()).rstrip(b"=").decode()
