"""Finds the program (the simulator) that the tools run, and says what is known of its proofs.

Proved is what is known to be: a program whose SHA-256 stands in the record that ./build and ./test write, or that a
package installs. A program without proofs is known by its mark. Of any other nothing is known.
"""
import contextlib
import functools
import hashlib
import os
import shutil
import sys
from enum import Enum
from pathlib import Path

from streetsim.base.files import Fault, FilePath, read_json
from streetsim.base.places import PREFIX, PROGRAM, RECORD, TOP, installed

VARIABLE = "STREETSIM_PROGRAM"
ELSEWHERE = "STREETSIM_PROVED"  # names the record of another clone or package
UNBUILT = "STREETSIM_UNBUILT"  # where it is set, nothing counts as built in the repository
BUILT = "crates/street_sim/out/street_sim"  # where `./build` of the repository puts it
UNPROVED = "unproved/street_sim"  # where `./build --unproved` does
MARK = b"\nstreetsim: NOT PROVED\n"  # the last bytes of a program without proofs, wherever it was copied to
UNPROVED_NOTE = "NOT PROVED: made by a program without proofs (./build --unproved)"  # of what such a program made
UNKNOWN_NOTE = "not known to be proved: no record here names the program that made it"  # of what another one made
HELP = (
    f"simulator's program (default: ${VARIABLE}, else the one that is installed with the tools, or the one that "
    "was built in the repository)"
)
RECORD_HELP = (
    f"record of another clone or package (its {RECORD}) that calls the program proved: output names this record, and "
    f"is not sealed (default: ${ELSEWHERE})"
)
AT_END: list[str] = []  # lines that a command says once it is done
BUILDS = f"`./build` in streetsim's repository makes {BUILT}, in half an hour, and `./build --unproved` one without"


def find_program(program: str | None = None) -> str:
    """The path of the program that is given (a path or a command's name), else of the one that STREETSIM_PROGRAM names,
    else of the one that is installed with the tools, else of the one that was built in their repository; Fault where
    there is none. The repository's script `streetsim` stands for the program that was built there: no tool starts a
    build. Tells once, on standard error, of a program that is not known to be proved: see warn_of_proof."""
    named = program or os.environ.get(VARIABLE) or installed(PROGRAM) or (None if PREFIX else built_in(TOP))
    if not named:
        raise Fault(f"no simulator: give --program PATH or set {VARIABLE}; {BUILDS} proofs, in minutes")
    executable = shutil.which(named)
    if executable is None:
        raise Fault(f"{named}: no program that can be run; {BUILDS} proofs, in minutes")
    path = of_script(Path(executable).resolve())
    refuse_record(str(path))
    if proof_of(str(path)) is not Proof.PROVED:
        warn_of_proof(path)
    return str(path)


def built_in(repository: Path) -> Path | None:
    """The program that was built in a repository: the proved one, else the one without proofs, else none."""
    if os.environ.get(UNBUILT):
        return None
    paths = (repository / name for name in (BUILT, UNPROVED))
    return next((path for path in paths if os.access(path, os.X_OK)), None)


def of_script(path: Path) -> Path:
    """The program for which a path stands: that which was built beside the repository's script `streetsim`, else the
    path itself; Fault where nothing was built there."""
    if path.name != "streetsim" or not (path.parent / "crates/street_sim").is_dir():
        return path
    built = built_in(path.parent)
    if built is None:
        advice = "run `./build` there first, or `./build --unproved`, which takes minutes"
        raise Fault(f"{path.parent}: the simulator is not built: {advice}")
    return built


class Proof(Enum):
    """What is known of a program's proofs, in the words of a sentence about it."""

    PROVED = "proved"
    UNPROVED = "NOT PROVED"
    UNKNOWN = "not known to be proved"


@functools.cache
def program_digest(path: str) -> str | None:
    """The SHA-256, in hex, of a file's bytes, reckoned once in a process; None where it cannot be read."""
    with contextlib.suppress(OSError), open(path, "rb") as file:
        return hashlib.file_digest(file, "sha256").hexdigest()
    return None


@functools.cache
def proved_in(record: FilePath) -> frozenset[str]:
    """The SHA-256 of all programs that a record names as proved; Fault where it cannot be read or is none."""
    content = read_json(record, ("files",))
    try:
        sums = [*content["files"].values(), *content.get("earlier", ())]
        return frozenset(total for total in sums if isinstance(total, str))
    except (AttributeError, TypeError):
        raise Fault(f"{record}: is no record of what was proved") from None


def proof_of_digest(digest: str | None) -> Proof:
    """What is known here of the program with a SHA-256: PROVED or UNKNOWN."""
    with contextlib.suppress(Fault):
        if digest in proved_in((PREFIX or TOP) / RECORD):
            return Proof.PROVED
    return Proof.UNKNOWN


def proof_of(path: str) -> Proof:
    """What is known here of the program at a path."""
    return Proof.UNPROVED if is_marked(path) else proof_of_digest(program_digest(path))


@functools.cache
def is_marked(path: str) -> bool:
    """Whether a program is one that `./build --unproved` made, by the mark at its end; false where it cannot be read.
    Looked up once for a path."""
    with contextlib.suppress(OSError), open(path, "rb") as file:
        file.seek(-len(MARK), os.SEEK_END)
        return file.read() == MARK
    return False


def elsewhere() -> str:
    """Who says that a program of which nothing is known here is proved, to stand in a sentence; empty for nobody."""
    return f"proved elsewhere, says {os.environ[ELSEWHERE]}" if os.environ.get(ELSEWHERE) else ""


def refuse_record(path: str) -> None:
    """Fault where a record of another clone or package is named that cannot be of the program: it does not name its
    SHA-256, or the program has the mark of one without proofs."""
    record = os.environ.get(ELSEWHERE)
    if record and is_marked(path):
        raise Fault(f"{path}: NOT PROVED, by its own mark: no record, as {record}, makes it a proved one")
    if record and program_digest(path) not in proved_in(record):
        raise Fault(f"{record}: names no program with the SHA-256 of {path}")


def proof_words(path: str) -> str:
    """What is known of the program at a path, in the words of a sentence about it."""
    proof = proof_of(path)
    return (proof is Proof.UNKNOWN and elsewhere()) or proof.value


def proof_note(path: str) -> dict[str, str]:
    """What a setting says of a program's proofs: nothing of a proved one, of another one `unproved`: a sentence."""
    proof = proof_of(path)
    if proof is Proof.PROVED:
        return {}
    told = elsewhere()
    unknown = f"{told}: {UNKNOWN_NOTE.partition(': ')[2]}" if told else UNKNOWN_NOTE
    return {"unproved": UNPROVED_NOTE if proof is Proof.UNPROVED else unknown}


@functools.cache
def warn_of_proof(path: Path, kind: str = "program") -> None:
    """Says on standard error that a program, or the library, is not known to be proved, and what to do; once in
    a process. Of one of which nothing is known a command says so once it is done, so that a fault is one line."""
    tops = [*path.parents, *([] if PREFIX else [TOP])]
    built = any((top / "build").is_file() for top in tops)
    makes = "`./test`" if kind == "library" else "`./build`"
    advice = f"{makes} makes the proved one" if built else "ask for a package that was proved"
    if proof_of(str(path)) is Proof.UNPROVED:
        print_line(f"NOT PROVED: this program was built without proofs: {advice}")
        return
    told = elsewhere()
    line = f"this {kind} is {told}" if told else f"not known to be proved: no record names this {kind}: {advice}"
    if "streetsim.cli.commands" in sys.modules:
        AT_END.append(line)
    else:
        print_line(line)


def print_line(line: str) -> None:
    """Prints a line of a program on standard error."""
    print(f"streetsim: {line}", file=sys.stderr, flush=True)


def tell_at_end() -> None:
    """Prints what warn_of_proof has kept for the end of a command."""
    for line in AT_END:
        print_line(line)
