"""streetsim-check: runs again what made a page, a run's folder or a study's, and says whether each number is theirs."""
from streetsim.base.words import Parser, add_jobs
from streetsim.cli.words import add_simulator


def parser() -> Parser:
    """The parser of the words that streetsim-check takes."""
    tool_parser = Parser(
        prog="streetsim-check",
        examples=(
            "streetsim-check report.html",
            "streetsim-check zero --jobs 2",
        ),
        description="Runs again what made a page of streetsim-report --sealed, a folder of streetsim-run or one of "
        "streetsim-study, and says in one line whether each number is that of a run, or which are not. It shows that "
        "numbers are the simulation's, not that the street will do so. Status 1 where one is not, 2 where it could not "
        "be checked.",
    )
    tool_parser.add_argument("target", metavar="PAGE|DIR", help="what to check: a page (.html), or a folder")
    add_simulator(tool_parser)
    add_jobs(tool_parser)
    tool_parser.add_argument("--study", metavar="FILE", help="study file from which a folder was made")
    return tool_parser


def main(arguments: list[str]) -> int:
    """Runs streetsim-check, as check_by says."""
    args = parser().parse_args(arguments)
    from streetsim.cli.checked_targets import check_by  # which loads what runs

    return check_by(args)
