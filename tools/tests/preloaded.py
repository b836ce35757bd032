"""Libraries of C that are loaded before a program (data/*.c), and the tools that they are built with."""
import shutil
import subprocess
from pathlib import Path


def found(name):
    """A tool of the kit's, else of the path, else none."""
    rt = shutil.which("rt")
    kit = Path(rt).resolve().parents[1] / "toolchain/bin" / name if rt else None
    return str(kit) if kit and kit.exists() else shutil.which(name)


def why_not():
    """Why no library can be built here, or none."""
    missing = [name for name in ("clang", "ld.lld") if found(name) is None]
    return f"there is no {missing[0]} to build a library with" if missing else None


def library_of(source, folder):
    """Builds the library of a source, which includes no header, in a folder."""
    built = folder / source.with_suffix(".so").name
    words = ["-shared", "-fPIC", "-O1", "-nostdlib", f"--ld-path={found('ld.lld')}", "-o", built, source]
    subprocess.run([found("clang"), *words], check=True, timeout=60)
    return built
