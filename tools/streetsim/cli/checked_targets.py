"""Checks what streetsim-check is given, by its parsed arguments."""
import argparse
import contextlib
import io
import os
import shutil
import sys
import tempfile
from collections.abc import Iterator, Sequence
from functools import partial

from streetsim.base import program
from streetsim.base.files import Fault, drop_output, reading
from streetsim.base.program import program_digest
from streetsim.base.progress import Slow
from streetsim.base.unpacking import TooMuch, lifted
from streetsim.cli import report as report_words
from streetsim.cli.checking import remake_folder, remake_run, remake_study, write_files
from streetsim.cli.given_words import refuse_other_words
from streetsim.cli.report import remake_text
from streetsim.cli.studying import ORIGIN_FILE
from streetsim.model.folder import LIGHTS
from streetsim.report.folder_differences import ComparedNumbers, folder_differences
from streetsim.report.page_elements import Mismatch, numbers_in, page_mismatches
from streetsim.report.page_seal import COUNTS, NAMES, Seal, seal_of, sealed_files
from streetsim.report.page_sealing import sealed_again, tools_sum

NAMED_AT_MOST = 3  # differences that the line names
PAGE_BYTES_AT_MOST = 1 << 28  # bytes of a page


def check_by(args: argparse.Namespace) -> int:
    """Checks what is given: makes the runs again and prints one line; gives 0 where each number is that of a run, 1
    where one is not, and 2 where nobody reads the line. Fault where it could not be checked, whatever it was."""
    try:
        status = check_target(args)
        sys.stdout.flush()
        return status
    except BrokenPipeError:
        drop_output()
        return 2
    except Fault:
        raise
    except Exception as fault:
        raise Fault(f"{args.target}: could not be checked: {type(fault).__name__}: {fault}") from None


def check_target(args: argparse.Namespace) -> int:
    """Checks what the words name, and prints the result; gives 0 where it is that of a run, else 1."""
    args.program = program.find_program(args.program)
    program.AT_END.clear()  # the line of the result says it
    study = os.path.exists(f"{args.target}/{ORIGIN_FILE}")
    if args.study and not study:
        raise Fault("--study is of a study's folder")
    if os.path.isdir(args.target):
        return check_folder(args, study)
    return check_page(args)


@contextlib.contextmanager
def silent() -> Iterator[None]:
    """Drops, while the block runs, what commands print."""
    with contextlib.redirect_stdout(io.StringIO()), contextlib.redirect_stderr(io.StringIO()):
        yield


def check_page(args: argparse.Namespace) -> int:
    """Checks a sealed page, and prints the result; gives the status as `main` does. Fault where it is not sealed, its
    seal was changed, or it cannot be made again."""
    text = page_text(args.target)
    seal = seal_of(args.target, text)
    with Slow(f"running again what made {args.target}"):
        page_anew = remake_page(args, seal)
    mismatches = page_mismatches(text, page_anew)
    note = ""
    if seal.content["tools"] != tools_sum():
        note = "; the page names other tools than these" + (", so that options may differ, too" if mismatches else "")
    runs = sum(len(plan["seeds"]) for plan in seal.content["plans"])
    same_program = all(plan["program"] == program_digest(args.program) for plan in seal.content["plans"])
    program_text = "the program that made it" if same_program else "another program than the one that made it"
    again = f"{runs} run{'s' * (runs != 1)} made again by {program_text}, which is {program.proof_words(args.program)}"
    good = f"each of the {numbers_in(page_anew):,} numbers on the page is that of a run"
    return tell_result(args.target, mismatches, good, f" ({again}){note}")


def page_text(path: str) -> str:
    """The text of a page, with all that is in its file; Fault where it cannot be read, has more than PAGE_BYTES_AT_MOST
    bytes or is no UTF-8."""
    with reading(path), open(path, "rb") as file:
        content = file.read(-1 if lifted() else PAGE_BYTES_AT_MOST + 1)
        if len(content) > PAGE_BYTES_AT_MOST and not lifted():
            raise TooMuch(f"has more than {PAGE_BYTES_AT_MOST:,} bytes")
        return content.decode()


def tell_result(target: str, mismatches: Sequence[Mismatch], good: str, note: str) -> int:
    """Prints the one line of the result; gives the status. good: what to say where nothing differs; note: what to add
    in any case."""
    if not mismatches:
        print(f"{target}: {good}{note}")
        return 0
    named = "; ".join(mismatch.in_words() for mismatch in mismatches[:NAMED_AT_MOST])
    more = f"; and {len(mismatches) - NAMED_AT_MOST:,} more" if len(mismatches) > NAMED_AT_MOST else ""
    places_text = "1 place is" if len(mismatches) == 1 else f"{len(mismatches):,} places are"
    print(f"{target}: {places_text} not what the runs give: {named}{more}{note}")
    return 1


def remake_page(args: argparse.Namespace, seal: Seal) -> str:
    """The page that the sealed files and words give now, with a seal of its own; Fault where they give none."""
    with tempfile.TemporaryDirectory() as temporary:
        try:
            write_files(temporary, sealed_files(seal, args.target))
            return remake_from_files(args, seal, temporary)
        except (Fault, LookupError, TypeError, ValueError, AttributeError, OSError) as fault:
            reason = str(fault).removeprefix(f"{args.target}: ").replace(f"{temporary}/", "")
            raise Fault(f"{args.target}: what is sealed in it gives no such page: {reason}") from None


def remake_from_files(args: argparse.Namespace, seal: Seal, temporary: str) -> str:
    """The page, of sealed files that were unpacked into the folder `temporary`; runs are written there too. Where they
    give none it raises one of the exceptions that remake_page tells as a Fault."""
    plans, needed = seal.content["plans"], ["x", "-o", "x"]
    refuse_other_words(report_words.parser(), seal.content["words"], needed, report_words.ELSEWHERE, args.target)
    folders = [f"{temporary}/out-{at}" for at in range(len(plans))]
    for plan, folder in zip(plans, folders, strict=True):
        with silent():
            remake_run(args, plan, temporary, folder)
        if os.path.exists(lights := f"{temporary}/{os.path.dirname(plan['run'])}/{LIGHTS}"):
            shutil.copy(lights, folder)
    files = {name: f"{temporary}/{name}" for name in seal.content["files"] if "/" not in name}
    names = ["--names", files[NAMES]] if NAMES in files else []
    counts = [files[name] for name in sorted(files.keys() - {NAMES}, key=lambda name: int(name[len(COUNTS) :]))]
    arguments = [*folders, *seal.content["words"], *names, *(["--counts", *counts] if counts else [])]
    plan_names = ["--plans", *(plan["name"] for plan in plans)]
    sealing = partial(sealed_again, stated_seal=seal, page=args.target, other_paths=files)
    return remake_text([*arguments, *plan_names, "-o", args.target], sealing)


def check_folder(args: argparse.Namespace, study: bool) -> int:
    """Checks a folder of a run, or of a study, and prints the result; gives the status as `main` does. Fault where the
    folder does not keep what made it, or cannot be made again."""
    counts = ComparedNumbers()
    with tempfile.TemporaryDirectory() as temporary, Slow(f"running again what made {args.target}"):
        with silent():
            folder_anew = (remake_study if study else remake_folder)(args, f"{temporary}/out")
        mismatches = [Mismatch(*difference) for difference in folder_differences(args.target, folder_anew, counts)]
    again = f"made again by a program that is {program.proof_words(args.program)}"
    good = f"each of the {counts.numbers:,} numbers in {counts.files} files is that of a run"
    return tell_result(args.target, mismatches, good, f" ({again})")
