"""streetsim-example: the files of an example, put into a folder."""
import filecmp
import os
import shutil
from pathlib import Path

from streetsim.base.files import Fault
from streetsim.base.helping import nearest
from streetsim.base.places import examples, example_files
from streetsim.base.words import Parser


def parser() -> Parser:
    """The parser of the words that streetsim-example takes."""
    tool_parser = Parser(
        prog="streetsim-example",
        examples=(
            "streetsim-example corridor",
            "streetsim-example sessions --out walk",
        ),
        description="Puts the files of an example into a folder; without a name, says which examples there are.",
    )
    tool_parser.add_argument("name", metavar="NAME", nargs="?", help="name of the example, such as corridor")
    tool_parser.add_argument(
        "--out", metavar="DIR", help="output folder (default: of the example's name, here)"
    )
    return tool_parser


def target_paths(example: Path, folder: Path) -> dict[Path, Path]:
    """{file of an example: where it goes in a folder}; Fault where something else of that name is there already."""
    begin = example if example.is_dir() else example.parent
    targets = {path: folder / path.relative_to(begin) for path in example_files(example)}
    for path, target in targets.items():
        if os.path.lexists(target) and not is_same(path, target):
            raise Fault(f"{target} is there, and is another file; give another folder by --out")
    return targets


def is_same(path: Path, target: Path) -> bool:
    """Whether a file is there that has the same bytes as that of a path; a link is none."""
    return target.is_file() and not target.is_symlink() and filecmp.cmp(path, target, shallow=False)


def copy_example(example: Path, folder: Path) -> int:
    """Copies an example into a folder, which is made, and gives how many files it has; Fault where that fails, before
    any is copied where one is there already, else with those left that were copied."""
    targets = target_paths(example, folder)
    try:
        for path, target in targets.items():
            if target.exists():
                continue
            target.parent.mkdir(parents=True, exist_ok=True)
            shutil.copy(path, target)
    except OSError as fault:
        raise Fault(f"{fault.filename}: {fault.strerror}") from None
    return len(targets)


def count_of_files(files: int) -> str:
    """A number of files in words, such as '3 files'."""
    return f"{files} file{'' if files == 1 else 's'}"


def main(arguments: list[str]) -> int:
    """Runs streetsim-example: copies the files of the example and prints how many, or prints which examples there are;
    gives status 0."""
    args = parser().parse_args(arguments)
    known_examples = examples()
    if args.name is None:
        counts = (f"{name}: {count_of_files(len(example_files(path)))}" for name, path in known_examples.items())
        print(*counts, sep="\n")
        return 0
    if args.name not in known_examples:
        message = f"there is no example {args.name!r}, but {', '.join(known_examples) or 'none'}"
        raise Fault(message + nearest(args.name, known_examples))
    folder = Path(args.out or args.name)
    print(f"{count_of_files(copy_example(known_examples[args.name], folder))} in {folder}")
    return 0
