"""The words of SUMO's command line: which are done here, which have no effect here, and which are refused."""
import re
from collections.abc import Callable, Mapping
from difflib import get_close_matches

from streetsim.base.files import Fault, seconds
from streetsim.base.words import FALSE, MOST_ROUNDS
from streetsim.cli.sumo_words import IMPORTED
from streetsim.control.bus_planned import MOST_SEEN
from streetsim.model.replications import DRAWN, LISTED
from streetsim.observe.sumo_kinds import DETAILS
from streetsim.simulation.errors import FatalTraCIError
from streetsim.simulation.writing import SERVED
from streetsim.sumo.configuration import NOWHERE as NO_FILE, OUTPUT, SILENT, is_one, read_configuration, usual_name

SHORT = {
    "-c": "configuration-file", "-n": "net-file", "-r": "route-files", "-a": "additional-files", "-b": "begin",
    "-e": "end", "-v": "verbose", "-W": "no-warnings", "-l": "log", "-t": "duration-log.statistics",
    "-w": "weight-files", "-x": "weight-attribute", "-H": "human-readable-time", "-s": "route-steps",
    "-X": "xml-validation", "-S": "start", "-g": "gui-settings-file", "-Q": "quit-on-end", "-G": "game", "-d": "delay",
    "-B": "breakpoints", "-D": "demo", "-T": "disable-textures", "-C": "save-configuration",
}
INPUTS = {
    "configuration-file", "net-file", "route-files", "additional-files", "step-length", "time-to-teleport",
    "output-prefix", "rounds", "ignore-route-errors", "merge", "lights", "stops", "rescue", "priority", "seen",
    "close", "departures", "random", "writes",
}
SAVED = "save-configuration"  # the file to which the options are written; no run is made
LOGS = ("log", "message-log", "error-log")  # files that get what the import says
# What would change the demand or the run, and what to do instead.
REFUSED = {
    "scale": "make the routes of the demand that is wanted",
    "load-state": "a run repeats exactly: start it again and step to the time",
    "mesosim": "there are no queues of the mesoscopic model here",
}
# SUMO's files that are not written here, and what to do instead.
NOT_WRITTEN = {
    r"emission|battery|elechybrid|chargingstations|overheadwire|substations": "emissions and power are not reckoned; "
    "SUMO's emissionsDrivingCycle reads --fcd-output",
    r"person": "there are no persons",
    r"collision": "nobody collides",
    r"save-state": "simulation.saveState of a script writes states",
    SAVED: "streetsim-sumo writes it alone, and makes no run",
    r"save-": "sumo itself writes it",
    r"^device|railsignal": "there are no such devices",
    r"lanedata": "--edgedata-output has the sums of edges, --fcd-output each vehicle",
    "": "--fcd-output has each vehicle in each second",
}
# SUMO's options that have no effect: what is otherwise here.
CHANGES = {
    "collision.action": ": vehicles do not collide",
    "no-internal-links": ": nobody drives inside a junction, whose seconds and metres count",
    "waiting-time-memory": ": accumulated waiting times are of the whole trip",
    "lateral-resolution": ": vehicles fill their lane, and nobody overtakes in it",
    "step-method.ballistic": ": vehicles go whole cells in a second",
    "device.rerouting.probability": ": nobody looks for another way but by vehicle.changeTarget and the like",
    "max-depart-delay": ": a vehicle without room waits until there is some",
    "ignore-junction-blocker": ": a vehicle in a junction blocks only vehicles that leave the same lane",
    "default.carfollowmodel": ": all vehicles drive by the machine's rules; --dawdle changes these",
    "default.speeddev": ": all vehicles wish the limit; --dawdle changes how they drive",
    "num-clients": "", "remote-port": "", "verbose": "", "no-step-log": "", "step-log.period": "",
}
DONE_ANYWAY = ("ignore-route-errors", "vehroute-output.last-route")
WARNED_ALONE = ("waiting-time-memory",)  # what scripts are told, and no run
DONE_BY_TOOL = ("duration-log.statistics",)  # by streetsim-sumo
# SUMO's further options and their families.
WITHOUT_EFFECT = re.compile(
    r"weight.*|load-state\..*|junction-taz|(netstate-dump|save-state|[\w-]+-output)\..*|step-method\.ballistic"
    r"|extrapolate-departpos|lateral-resolution|no-internal-links|ignore-.*|collision\..*|max-.*|scale-suffix"
    r"|time-to-(teleport\..*|impatience)|startup-wait-threshold|(sloppy|eager|emergency)-insert|random-depart-offset"
    r"|lanechange\..*|tls\..*|railsignal.*|default\..*|overhead-wire\..*|emergencydecel\..*|parking\..*|use-stop-ended"
    r"|pedestrian\..*|ride\..*|persontrip\..*|routing-algorithm|astar\..*|railway\..*|replay-rerouting"
    r"|(person-)?device\..*|emissions\..*|phemlight-.*|meso-.*|duration-log\.statistics"
)


def is_time(value: str) -> bool:
    """Whether a text is a time, as SUMO writes them."""
    try:
        seconds(value)
    except ValueError:
        return False
    return True


# By option: which values are taken, and what is said of others.
VALUE_CHECKS: dict[str, tuple[Callable[[str], bool], str]] = {
    "step-length": (is_one, "steps are of one second: leave it out"),
    "end": (is_time, "is no time"),
    "rounds": (lambda value: value.isdecimal() and int(value) <= MOST_ROUNDS, f"is not 0 to {MOST_ROUNDS}"),
    "merge": (("turns", "none").__contains__, "is not turns or none"),
    "lights": (("actuated", "listed").__contains__, "is not actuated or listed"),
    "stops": (("made", "none").__contains__, "is not made or none"),
    "departures": ((DRAWN, LISTED).__contains__, f"is not {DRAWN} or {LISTED}"),
    "rescue": (str.isdecimal, "is no whole number of seconds"),
    "seen": (lambda value: value.isdecimal() and 1 <= int(value) <= MOST_SEEN, f"is not 1 to {MOST_SEEN}"),
}


def read_options(arguments: list[str]) -> dict[str, str]:
    """SUMO's options, {long name: text}, empty where a word has no value. A first word without "-" names the
    configuration; words count before those of a configuration. FatalTraCIError for what SUMO does not know either, what
    is refused here, and a configuration that cannot be read."""
    options, index = {}, 0
    if arguments and not str(arguments[0]).startswith("-"):
        options["configuration-file"], index = str(arguments[0]), 1
    while index < len(arguments):
        word, _, option_text = str(arguments[index]).partition("=")
        index += 1
        if not option_text and index < len(arguments) and is_value(str(arguments[index])):
            option_text, index = str(arguments[index]), index + 1
        options[long_name(word)] = option_text
    if "configuration-file" in options:
        try:
            options = {**read_configuration(options["configuration-file"]), **options}
        except Fault as fault:
            raise FatalTraCIError(str(fault)) from None
    for name, option_text in options.items():
        check_option(name, option_text)
    return options


def is_value(argument: str) -> bool:
    """Whether a word is the value of the option before it: it does not begin with "-", or is a number below 0."""
    return not argument.startswith("-") or re.match(r"-[\d.]", argument) is not None


def long_name(argument: str) -> str:
    """The long name of an option, of a word as -n or --net-file; FatalTraCIError where it is no option, or an unknown
    short one. Unknown long ones are refused by check_option."""
    if not argument.startswith("-") or argument in ("-", "--"):
        raise FatalTraCIError(f"{argument!r} is no option: options begin with '--'")
    if not argument.startswith("--"):
        if argument not in SHORT:
            raise FatalTraCIError(f"No option with the name '{argument.removeprefix('-')}' exists.")
        return SHORT[argument]
    return usual_name(argument.removeprefix("--"))


def check_option(name: str, option_text: str) -> None:
    """FatalTraCIError for an option (long name, text of its value) that is unknown, has a wrong value, or is one of
    REFUSED."""
    is_on = option_text.lower() not in FALSE
    if name in VALUE_CHECKS and not VALUE_CHECKS[name][0](option_text):
        raise FatalTraCIError(f"--{name} {option_text}: {VALUE_CHECKS[name][1]}")
    if name in REFUSED and is_on and not (name == "scale" and is_one(option_text)):
        raise FatalTraCIError(f"--{name} {option_text}: streetsim has nothing for it; {REFUSED[name]}")
    is_known = name in INPUTS or name in IMPORTED or name in REFUSED or name in LOGS
    if not (is_known or OUTPUT.fullmatch(name) or SILENT.fullmatch(name) or WITHOUT_EFFECT.fullmatch(name)):
        matches = get_close_matches(name, (*INPUTS, *IMPORTED, *REFUSED, *LOGS, *SERVED, *SHORT.values(), *CHANGES), 1)
        nearest = f" The nearest is --{matches[0]}." if matches else ""
        raise FatalTraCIError(f"No option with the name '{name}' exists.{nearest}")


def unwritten_of(options: Mapping[str, str]) -> list[str]:
    """Texts on the files that options ask for and that are not written here."""
    texts = []
    for name, path in options.items():
        is_asked = path not in NO_FILE and path.lower() not in FALSE
        if OUTPUT.fullmatch(name) and name not in SERVED and is_asked:
            instead = next(text for pattern, text in NOT_WRITTEN.items() if re.search(pattern, name))
            texts.append(f"--{name} {path} is not written: {instead}")
    return texts


def warnings_of(options: Mapping[str, str]) -> list[str]:
    """Texts on SUMO's options that were given and have no effect here, but for those that change no run in SUMO."""
    lacking = [
        name for name in options
        if name in WARNED_ALONE
        or WITHOUT_EFFECT.fullmatch(name) and not SILENT.fullmatch(name) and not OUTPUT.fullmatch(name)
        and name not in (*DETAILS, *DONE_ANYWAY)
    ]
    warnings = [
        f"--{name} {options[name]}".rstrip() + f" has no effect here{CHANGES.get(name, '')}" for name in lacking
        if name not in IMPORTED and name not in DONE_BY_TOOL
    ]  # fmt: skip
    if "writes" in options and "remote-port" not in options:
        warnings.append(f"--writes {options['writes']} has no effect here: it is for clients of streetsim-sumo")
    if not options.get("time-to-teleport", "-1").startswith("-") and options["time-to-teleport"] != "0":
        time = options["time-to-teleport"]
        warnings.append(f"--time-to-teleport {time} has no effect here: nobody teleports; --rescue {time} rescues")
    return warnings
