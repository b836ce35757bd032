"""What a live page is made of: its data and its scripts."""
import base64
import gzip
import json
from pathlib import Path

from streetsim.base.files import Fault, FilePath, Json
from streetsim.live.facts import streets_and_areas
from streetsim.live.page_texts import claim_of
from streetsim.live.world import PageRun
from streetsim.model.mapping import Map, MapTurn
from streetsim.model.names import Names, wind
from streetsim.model.runs import Run
from streetsim.observe.junction_layout import turn_name

FOLDER = Path(__file__).parent
PICTURES = FOLDER.parent / "report"
# In the order in which they stand in the page.
SCRIPT_NAMES = (
    "bridge", "movements", "bars", "colours", "elements", "world", "view", "plan_editor", "charts", "tables", "works",
    "chosen", "wave", "controls", "live",
)
SCRIPTS = (PICTURES / "drawing.js", PICTURES / "charts.js", *(FOLDER / f"{name}.js" for name in SCRIPT_NAMES))
TURN_WORDS = {"L": "left", "T": "straight", "R": "right", "U": "back"}  # by the names of junction tables
INNER = ("", "second", "third", "fourth", "fifth")
MOST_BYTES = 100_000_000  # of the packed data; browsers are slow with more


def page_links(run: Run, mapping: Map, streets: dict[str, str]) -> list[Json]:
    """The links as the page reads them: number, name (of its edge), street, from (where one comes from, a wind), lanes
    (how many), words (which of its street's lanes each is), cells, metres, limit (cells a step), begin and end (nodes),
    points. streets: names by edge."""
    load_links = run.load.command["links"]
    edges = mapping.links_of.items()
    greatest_index = {edge: max(max(mapping.links[link].lanes) for link in links) for edge, links in edges}
    return [
        {
            "number": number, "name": link.edge, "street": streets.get(link.edge, ""),
            "from": wind(link.shape[-1], link.shape[-2]), "lanes": lanes,
            "words": [lane_word(index, greatest_index[link.edge]) for index in link.lanes], "cells": cells,
            "metres": link.metres, "limit": limit, "begin": begin, "end": end, "points": link.shape,
        }
        for link, (number, begin, end, lanes, cells, limit) in zip(mapping.links, load_links, strict=True)
    ]


def lane_word(index: int, greatest_index: int) -> str:
    """Which lane of its street one is, by its index in SUMO, 0 to greatest_index from the right; empty where there is
    one."""
    if not greatest_index:
        return ""
    if index in (0, greatest_index):
        return "left lane" if index else "right lane"
    if greatest_index == 2:
        return "middle lane"
    return f"{INNER[index] if index < len(INNER) else 'inner'} lane from the right"


def page_nodes(run: Run, mapping: Map, areas: dict[str, list]) -> list[Json]:
    """The nodes as the page reads them: number, name, x and y (metres), area (points), light: {name, size: of its
    state, up to the greatest place that a turn here has}, None without one. areas: outlines by junction."""
    names = Names(mapping)
    lights: dict[int, Json] = {node: {"name": name, "size": 0} for name, node in mapping.signals}
    for turn in mapping.turns:
        node = mapping.links[turn.link].end
        if node in lights and turn.light == lights[node]["name"]:
            lights[node]["size"] = max(lights[node]["size"], turn.index + 1)
    return [
        {
            "number": number, "name": names.junction(name) or name, "x": x, "y": y, "area": areas.get(name, []),
            "light": lights.get(number),
        }
        for (number, *_), (name, x, y, *_) in zip(run.load.command["nodes"], mapping.nodes, strict=True)
    ]


def turn_kind(mapping: Map, turn: MapTurn) -> str:
    """Which way a turn leads, of TURN_WORDS."""
    return TURN_WORDS[turn_name(mapping.links[turn.link].shape, mapping.links[turn.next].shape)]


def page_data(page_run: PageRun, map_path: FilePath = "") -> Json:
    """What the page knows of a run beside what it is told: links, nodes, turns (a list each), cars (names), sizes
    (cells, by the numbers of vehicles with more than one), start, dawdle (0 to 1), signals (the commands of its own for
    lights), yields (how many), giving (nodes) and claim (a text). map_path: to find the imported network, empty: not
    looked for."""
    run, mapping = page_run.run, page_run.mapping
    streets, areas = streets_and_areas(mapping, map_path) if map_path else ({}, {})
    sizes = {number: line.command.get("size", 1) for number, line in enumerate(run.enters)}
    return {
        "links": page_links(run, mapping, streets), "nodes": page_nodes(run, mapping, areas),
        "turns": [
            [turn.link, turn.lane, turn.next, turn.next_lane, turn.light, turn.index, turn_kind(mapping, turn)]
            for turn in mapping.turns
        ],
        "cars": mapping.cars, "sizes": {number: size for number, size in sizes.items() if size > 1},
        "start": run.start(), "dawdle": run.load.command.get("dawdle", 0) / 1000,
        "signals": [command for _, command in run.signals() if command["node"] not in page_run.givers],
        "yields": len(mapping.yields), "giving": sorted(page_run.givers), "claim": claim_of(page_run),
    }


def pack_text(value: bytes) -> str:
    """Bytes as a page holds them: gzip in base 64; equal bytes give equal texts."""
    return base64.b64encode(gzip.compress(value, mtime=0)).decode()


def live_page(page_run: PageRun, map_path: FilePath = "") -> bytes:
    """The page as bytes, which asks the bridge; arguments as of page_data. Fault where it is larger than MOST_BYTES."""
    data = json.dumps(page_data(page_run, map_path), separators=(",", ":")).encode()
    parts = {
        "@DATA@": pack_text(data),
        "/*SCRIPTS*/": "\n".join(path.read_text(encoding="utf-8") for path in SCRIPTS),
    }
    text = (FOLDER / "live.html").read_text(encoding="utf-8")
    for mark, part in parts.items():
        text = text.replace(mark, part)
    if len(text) > MOST_BYTES:
        raise Fault(f"{page_run.run.path}: {len(text):,} bytes are too much for a page")
    return text.encode()
