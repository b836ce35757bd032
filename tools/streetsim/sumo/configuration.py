"""SUMO's configuration files: the options that they set, by their long names."""
import os
import re
from collections.abc import Mapping
from functools import partial

from streetsim.base.files import Fault, elements
from streetsim.base.report import Report
from streetsim.base.words import FALSE

# Files whose paths are beside the configuration: those that are read, and those that are written.
FILES = ("net-file", "route-files", "additional-files")
WRITTEN = (
    *(f"{kind}-output" for kind in (
        "tripinfo", "summary", "fcd", "queue", "vehroute", "statistic", "stop", "lanechange", "edgedata",
    )), "log", "message-log", "error-log",
)  # fmt: skip
SYNONYMS = {
    "net": "net-file",
    "routes": "route-files",
    "additional": "additional-files",
    "configuration": "configuration-file",
    "tripinfo": "tripinfo-output",
    "summary": "summary-output",
    "vehroutes": "vehroute-output",
    "personroutes": "personroute-output",
    "statistics-output": "statistic-output",
    **dict.fromkeys(("ndump", "netstate", "netstate-output"), "netstate-dump"),
    "dump-empty-edges": "netstate-dump.empty-edges",
    "dump-precision": "netstate-dump.precision",
    "log-file": "log",
    "suppress-warnings": "no-warnings",
    "no-duration-log": "duration-log.disable",
    "save-config": "save-configuration",
    "save-config.relative": "save-configuration.relative",
    "save-template.commented": "save-commented",
    "weights": "weight-files",
    "measure": "weight-attribute",
    "data-files": "edgedata-files",
    "abs-rand": "random",
    "srand": "seed",
    "carfollow.model": "default.carfollowmodel",
    "meso.ignore-lanes.by-vclass": "meso-ignore-lanes-by-vclass",
    "with-taz": "device.rerouting.with-taz",
    "routing-threads": "device.rerouting.threads",
}
# By the part before its last point: that of other names of options.
FAMILIES = {
    "vehroutes": "vehroute-output",
    **dict.fromkeys(("netstate", "netstate-output"), "netstate-dump"),
    "device.routing": "device.rerouting",
    "person-device.routing": "person-device.rerouting",
}

# What SUMO says and shows, its speed and its looks: of no effect on what is simulated;
# and `end`, as under SUMO's TraCI.
SILENT = re.compile(
    r"end|verbose|no-warnings|no-step-log|step-log\..*|duration-log\.disable|print-options|aggregate-warnings|language"
    r"|threads|xml-validation.*|precision.*|human-readable-time|write-license|start|quit-on-end|game.*|demo|delay"
    r"|breakpoints|disable-textures|registry-viewport|window-.*|tracker-interval|osg-view|gui-.*|edgedata-files"
    r"|remote-port|num-clients|save-configuration\..*|save-commented|waiting-time-memory|device\.rerouting\.threads"
    r"|thread-rngs|route-steps"
)
OUTPUT = re.compile(
    r"[\w-]+-output|netstate-dump|save-(configuration|template|schema|state\.\w+)|device\.[\w.-]+\.(file|output)"
)
NOWHERE = ("NUL", "NULL", "nul", "/dev/null")  # for SUMO: do not write it
DEFAULTS = ("begin", "end", "seed", "ignore-route-errors")  # that stand for the words of the import
SUPPORTED = {"net-file", "route-files", "additional-files", *DEFAULTS}
DONE_OTHERWISE = {  # what a configuration asks for otherwise than it is done here, and what to do
    "step-length": "steps are of one second",
    "time-to-teleport": "streetsim-run --rescue says after how many seconds of standing a vehicle is taken out "
    "and entered anew",
    "scale": "make the routes of the demand that is wanted",
    "tls.all-off": "its lights work; a network without them is made by netconvert",
}


def usual_name(name: str) -> str:
    """The name of an option that SUMO has by several."""
    family, _, rest = name.rpartition(".")
    rest = "explicit" if rest == "knownveh" else rest
    return SYNONYMS.get(name) or (f"{FAMILIES.get(family, family)}.{rest}" if family else name)


def read_configuration(path: str) -> dict[str, str]:
    """The options that a configuration (.sumocfg) sets, {long name: value as text}; the paths of FILES and WRITTEN are
    made those from the folder of the command, several with commas between. Of an option that is set twice the last
    counts, unless it has no value. Fault where the file cannot be read or is no XML."""
    options = {}
    for element in elements(path):
        for setting in element.iter():
            value = setting.get("value", setting.get("v", (setting.text or "").strip()))
            if value:
                options[usual_name(setting.tag)] = value
    path_from_here = partial(os.path.join, os.path.dirname(path))
    for name in WRITTEN:
        if options.get(name, NOWHERE[0]) not in NOWHERE:
            options[name] = path_from_here(options[name])
    for name in FILES:
        if name in options:
            options[name] = ",".join(path_from_here(part.strip()) for part in options[name].split(",") if part.strip())
    return options


def files_named(path: str, options: Mapping[str, str]) -> tuple[str, list[str], list[str]]:
    """(network, additional files, files of routes) that the options of a configuration name, as read_configuration
    gives them; path: of the configuration, for the Fault where it names no network."""
    if not options.get("net-file"):
        raise Fault(f"{path}: names no network (net-file)")
    additional, routes = (
        [part for part in options.get(name, "").split(",") if part] for name in ("additional-files", "route-files")
    )
    return options["net-file"], additional, routes


def tell_options(options: Mapping[str, str], report: Report) -> None:
    """Reports the options of a configuration that are not done here, outputs too, but for those of SILENT."""
    for name, setting in options.items():
        off = setting.lower() in FALSE
        if name in SUPPORTED or SILENT.fullmatch(name) or off or (name in ("step-length", "scale") and is_one(setting)):
            continue
        if OUTPUT.fullmatch(name):
            report.ignored[f"{name} of the configuration (streetsim-run --sumo-output writes SUMO's files)"] += 1
        elif name in DONE_OTHERWISE:
            report.warn(f"the configuration's {name} {setting} is not done: {DONE_OTHERWISE[name]}")
        else:
            report.ignored[f"{name} of the configuration"] += 1


def is_one(value: str) -> bool:
    """Whether a text is the number 1; False for a text that is no number."""
    try:
        return float(value) == 1
    except ValueError:
        return False
