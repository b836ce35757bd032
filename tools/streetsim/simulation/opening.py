"""Opens a session of the words of SUMO's command line."""
import os
import sys
from collections.abc import Iterable, Mapping, Sequence
from contextlib import redirect_stderr
from io import StringIO
from pathlib import Path
from random import randrange
from tempfile import TemporaryDirectory

from streetsim.base.files import FilePath, whole_file
from streetsim.base.words import ROUNDS, names_in
from streetsim.cli.sumo_words import IMPORTED
from streetsim.control.works_asked import all_works
from streetsim.control.works_sites import with_works
from streetsim.model.mapping import read_map
from streetsim.model.replications import DRAWN
from streetsim.model.runs import read_own_run
from streetsim.observe.sumo_kinds import DETAILS, OutputFile
from streetsim.simulation.confining import why_not_written
from streetsim.simulation.errors import FatalTraCIError
from streetsim.model.kept_imports import keep_files, key_of, read_kept
from streetsim.simulation.options import LOGS, NO_FILE, read_options, unwritten_of, warnings_of
from streetsim.simulation.script_settings import ScriptSettings
from streetsim.simulation.session import TraciSession
from streetsim.simulation.street_facts import read_facts
from streetsim.simulation.writing import SERVED

Options = Mapping[str, str]


def open_session(arguments: Sequence[str]) -> TraciSession:
    """A session, by the words of SUMO's command line without SUMO's name; tells on standard error what differs from
    SUMO. FatalTraCIError or Fault where it cannot be imported or started."""
    options = with_seed(read_options([*arguments]))
    with TemporaryDirectory() as folder:
        return import_session(Path(folder), options)


def with_seed(options: Options) -> Options:
    """The options with a seed that is drawn, where they ask for one (random)."""
    return {**options, "seed": str(randrange(1 << 31))} if is_on(options.get("random", "false")) else options


def import_session(folder: Path, options: Options) -> TraciSession:
    """The session of some options (long names), imported into a folder; tells warnings as write_warnings does. Output
    files are written that are asked for. FatalTraCIError where they name no network, or a file that may not be written,
    Fault where the import or the run cannot be made."""
    names = ("route-files", "additional-files")
    routes, additional = ([part.strip() for part in options.get(name, "").split(",") if part.strip()] for name in names)
    if not options.get("net-file"):
        raise FatalTraCIError("no network: give -n NET or -c CONFIGURATION")
    arguments = [options["net-file"], *additional]
    arguments += [argument for name in sorted(IMPORTED & options.keys()) for argument in (f"--{name}", options[name])]
    arguments += ["--ignore-route-errors"] if is_on(options.get("ignore-route-errors", "false")) else []
    files = [options["net-file"], *additional, *routes, *filter(None, [options.get("drivers")])]
    messages = import_or_take_kept(folder, arguments, routes, files)
    try:
        facts = read_facts(options["net-file"], additional, routes)
        run, mapping = read_own_run(folder / "run.jsonl"), read_map(folder / "map.json")
        works = all_works([options.get("close", "")], mapping, run.start(), None)
        run, mapping, works_notes = with_works(run, mapping, folder / "map.json", works)
        session = TraciSession(run, mapping, script_settings_of(options), facts, options)
    except Exception:
        write_warnings(messages, options)
        raise
    try:
        write_warnings(messages + notes_of(session, works_notes), options)
        prefix = options.get("output-prefix", "")
        paths, details = output_paths(options), frozenset(name for name in DETAILS if is_on(options.get(name, "false")))
        refuse_outside(paths.values())
        further = [one._replace(path=with_prefix(prefix, one.path)) for one in facts.outputs]
        outside = {one: why for one in further if (why := why_not_written([str(one.path)])) is not None}
        wished = [OutputFile(kind, path, details) for kind, path in paths.items()]
        wished += [one for one in further if one not in outside]
        unopened = session.write(wished) if wished else []
        tell_always(options, [*facts.unwritten, *outside.values(), *unopened])
    except Exception:
        session.finish()
        raise
    return session


def import_or_take_kept(folder: Path, arguments: Sequence[str], routes: Sequence[str], files: Sequence[str]) -> str:
    """Imports into a folder, as run.jsonl and map.json, or takes the import of equal words and files that is kept;
    gives what was said. files: all that the words and routes name. Fault where the import cannot be made."""
    all_words = [str(folder.parent.resolve()), *arguments, "--routes", *routes]
    run, mapping, key = folder / "run.jsonl", folder / "map.json", key_of(all_words, files)
    if key is not None and (kept := read_kept(key)) is not None:
        run.write_text(kept.run, encoding="utf-8", newline="")
        mapping.write_text(kept.map, encoding="utf-8", newline="")
        return kept.messages
    with redirect_stderr(StringIO()) as messages:
        import_files([*arguments, "-o", str(run), "--map", str(mapping)], routes)
    if key is not None and key == key_of(all_words, files):  # no file has changed meanwhile
        keep_files(key, run, mapping, messages.getvalue())
    return messages.getvalue()


def import_files(arguments: Sequence[str], routes: Sequence[str]) -> None:
    """Imports by the words of streetsim-import and the files of routes; trips, and vehicles and flows without a route,
    get ways, which is told on standard error. Fault where the import cannot be made."""
    from streetsim.cli import import_ as importing  # which a start with a kept import does not need
    from streetsim.sumo.demand import Unrouted

    try:
        importing.main([*arguments, *(["--routes", *routes] if routes else [])], keeps=False)
    except Unrouted:
        how = "shortest by free speed, signals and volumes, as of streetsim-import --trips"
        print(f"warning: trips have the ways that are {how} (better ways: streetsim-route)", file=sys.stderr)
        importing.main([*arguments, "--trips", *routes], keeps=False)


def script_settings_of(options: Options) -> ScriptSettings:
    """What the words of streetsim-run among some options ask of a run."""
    return ScriptSettings(
        rounds=int(options.get("rounds", ROUNDS)),
        merging=options.get("merge") != "none",
        driven=options.get("lights") != "listed",
        stops=options.get("stops") != "none",
        rescue=int(options.get("rescue", 0)),
        priority=names_in(options.get("priority", "")),
        drawn=options.get("departures") == DRAWN,
        seen=int(options["seen"]) if "seen" in options else None,
        choosing=True,
    )


def notes_of(session: TraciSession, works_notes: Iterable[str]) -> str:
    """Lines on who gives way without a light, on works, and on what a session does otherwise than SUMO; empty without
    any."""
    lines = []
    if session.yielding.lines:
        gaps = "in the gaps of the vehicles of the route files; those that the script adds are in no gaps"
        lines.append(f"{session.yielding.summary()}, {gaps}")
    lines += [*works_notes, *(f"warning: {text}" for text in session.notes)]
    return "".join(f"{line}\n" for line in lines)


def tell_always(options: Options, unwritten: Iterable[str]) -> None:
    """Tells on standard error, also with --no-warnings, which files that are asked for are not written, by options and
    (unwritten: a text each) by additional files, and which seed was drawn."""
    texts = [*unwritten_of(options), *dict.fromkeys(unwritten)]
    if is_on(options.get("random", "false")):
        texts.append(f"--random drew --seed {options['seed']}, which repeats the run")
    sys.stderr.writelines(f"streetsim: {text}\n" for text in texts)


def output_paths(options: Options) -> dict[str, str]:
    """{kind: path} of the output files that options ask for, kinds as in SERVED."""
    asked = {kind: options.get(name, NO_FILE[0]) for name, kind in SERVED.items()}
    prefix = options.get("output-prefix", "")
    return {kind: with_prefix(prefix, path) for kind, path in asked.items() if path not in NO_FILE}


def with_prefix(prefix: str, path: FilePath) -> str:
    """The path of a file, with a text (that of --output-prefix) before its name."""
    folder, name = os.path.split(path)
    return os.path.join(folder, prefix + name)


def written_paths(options: Options) -> list[str]:
    """The paths of all files that options ask for, without those of additional files."""
    return [*log_paths(options), *output_paths(options).values()]


def log_paths(options: Options) -> list[str]:
    """The paths of the files that get what the import says."""
    return sorted({options[name] for name in LOGS if options.get(name)})


def refuse_outside(paths: Iterable[str]) -> None:
    """FatalTraCIError for a file that may not be written there."""
    if (why := why_not_written(paths)) is not None:
        raise FatalTraCIError(why)


def is_on(value: str) -> bool:
    """Whether the value of a yes-or-no option, perhaps empty, means yes."""
    return value.lower() in ("", "true", "1", "yes", "on", "t")


def write_warnings(messages: str, options: Options) -> None:
    """Writes what the import said, and which options have no effect, to standard error (unless --no-warnings) and to
    the log files. Fault where one cannot be written."""
    messages = "".join(f"warning: {text}\n" for text in warnings_of(options)) + messages
    if not is_on(options.get("no-warnings", "false")):
        sys.stderr.write(messages)
    refuse_outside(log_paths(options))
    for path in log_paths(options):
        with whole_file(path) as file:
            file.write(messages)
