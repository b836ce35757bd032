"""Hostile files by kind, and a process that tries them: each in a fork of its own, whose time and memory it tells."""
import base64
import contextlib
import gzip
import io
import json
import os
import re
import resource
import struct
import sys
import tempfile
import traceback
import zlib
from pathlib import Path

from support import FORK, MAP, NUMBERED, PROGRAM
from streetsim.base.files import Fault, status_of

MOST_SECONDS, MOST_BYTES = 10, 512 << 20  # of each, of the processor, and above the peak of a small valid file
MEGA = 1 << 20
SLOW = ("2 GB", "many members", "an element with")  # marks of forms that take a second or more
FIRST = ("net", "run", "counts", "counts of SUMO")  # kinds with which the others share a reader
LARGE = ("16 MB", "900,000", "4,000,000", "6,000,000", "16,000,000")  # of others that are large


def bomb(begin, piece, end=b"", megas=2048):
    """A gzip file of some KB to 2 MB that unpacks to so many MB: a begin, a piece again and again, an end."""
    block = zlib.compressobj(9, zlib.DEFLATED, -15)
    told = (piece * (MEGA // len(piece) + 1))[: MEGA // len(piece) * len(piece)]
    first = block.compress(begin) + block.flush(zlib.Z_FULL_FLUSH)
    middle = block.compress(told) + block.flush(zlib.Z_FULL_FLUSH)
    last = block.compress(end) + block.flush()
    return gzip.compress(b"")[:10] + first + middle * megas + last + struct.pack("<2I", 0, 0)


def packed_forms(valid, piece):
    """Hostile gzip files, whatever is in them. valid: of a kind; piece: what may stand in it many times."""
    whole = gzip.compress(valid)
    at = valid.index(piece) if piece in valid else len(valid)
    return {
        "2 GB of blanks": bomb(valid[:at], b" " * 64),
        "2 GB of lines": bomb(valid[:at], b"\n" * 64),
        "2 GB of NUL": bomb(b"", bytes(64)),
        "2 GB of valid pieces": bomb(valid[:at], piece),
        "2 GB of a piece that does not end": bomb(valid[: at + max(2, len(piece) // 2)], b"x" * 64),
        "many members": whole + gzip.compress(b"\n" * MEGA) * 2000,
        "gzip in gzip": gzip.compress(bomb(valid, b" " * 64)),
        "cut off": whole[:-9],
        "cut off in its head": whole[:7],
        "another sum": whole[:-8] + bytes(8),
        "another block": whole[:10] + b"\xff" * 20 + whole[30:],
        "bytes behind it": whole + b"x" * 99,
    }


def xml_forms(root, head, child):
    """Hostile XML with a root, whose first child would be `child`; head: attributes of the root."""
    begin, end = f"<{root}{head}>".encode(), f"</{root}>".encode()
    tag = child.split()[0].strip("<>/")
    laughs = "".join(f'<!ENTITY l{i} "{f"&l{i - 1};" * 10}">' for i in range(1, 10))
    body = {
        "an attribute of 16 MB": b'<%b id="' % tag.encode() + b"x" * (16 * MEGA) + b'"/>',
        "an attribute of 16 MB of >": b'<%b id="' % tag.encode() + b">" * (16 * MEGA) + b'"/>',
        "a name of 16 MB": b"<" + b"x" * (16 * MEGA) + b"/>",
        "a comment of 16 MB": b"<!--" + b"<x>" * (5 * MEGA) + b"-->",
        "an instruction of 16 MB": b"<?x " + b"<x>" * (5 * MEGA) + b"?>",
        "a text of 16 MB": b"x" * (16 * MEGA),
        "a section of 16 MB": b"<![CDATA[" + b"<x>" * (5 * MEGA) + b"]]>",
        "blanks of 16 MB": b" " * (16 * MEGA),
        "900,000 attributes": b"<x " + b"".join(b'a%d="" ' % at for at in range(900_000)) + b"/>",
        "a depth of 100,000": b"<a>" * 100_000 + b"</a>" * 100_000,
        "a depth of 4,000,000": b"<a>" * 4_000_000,
        "an element with 1,200,000 in it": f"<{tag}>".encode() + b"<a/>" * 1_200_000 + f"</{tag}>".encode(),
        "3,000,000 begins": b"<" * 3_000_000,
    }
    forms = {name: gzip.compress(begin + text + end, 1) for name, text in body.items()}
    forms["entities in entities"] = f'<!DOCTYPE {root} [<!ENTITY l0 "ha">{laughs}]>'.encode() + begin + b"&l9;" + end
    large = "x" * 1_000_000
    forms["an entity of 1 MB"] = f'<!DOCTYPE {root} [<!ENTITY x "{large}">]>'.encode() + begin + b"&x;" * 9_999 + end
    forms["the same in UTF-16"] = forms["an entity of 1 MB"].decode().encode("utf-16")
    forms["a file as entity"] = f'<!DOCTYPE {root} [<!ENTITY x SYSTEM "/dev/zero">]>'.encode() + begin + b"&x;" + end
    forms["another file as DTD"] = f'<!DOCTYPE {root} SYSTEM "/dev/zero">'.encode() + begin + b"<" + end
    return forms


def json_forms(begin, end):
    """Hostile JSON, between a begin and an end of an object."""
    body = {
        "a depth of 1,000,000": b"[" * MEGA,
        "objects of 1,000,000": b'{"a":' * MEGA,
        "6,000,000 objects": b"[" + b"{}," * 6_000_000 + b"{}]",
        "6,000,000 lists": b"[" + b"[]," * 6_000_000 + b"[]]",
        "a number of 4 MB": b"7" * (4 * MEGA),
        "a text without an end": b'"' + b"x" * (16 * MEGA),
        "a mark without an end": b'"\\ud800' * MEGA,
        "NaN": b"NaN",
        "infinity": b"1e999",
    }
    return {name: gzip.compress(begin + text + end, 1) for name, text in body.items()}


def table_forms(head, row):
    """Hostile CSV tables, of a head and a valid row."""
    body = {
        "a line of 16 MB": b"x" * (16 * MEGA),
        "16,000,000 cells": b"," * (16 * MEGA),
        "a quote that is not closed": b'"' + row * 500_000,
        "a cell of 1 MB": b'"' + b"x" * MEGA + b'"' + row,
        "NUL": bytes(MEGA),
        "no UTF-8": b"\xff" * MEGA,
        "a number of 4 MB": row.replace(b"9", b"9" * (4 * MEGA)),
        "a row of one value": b"a\n",
    }
    forms = {name: gzip.compress(head + text, 1) for name, text in body.items()}
    forms["columns of 16 MB"] = gzip.compress(b"x," * (8 * MEGA), 1)
    return {**forms, "heads twice": gzip.compress(head * 300_000)}


def semantic_net():
    """Networks whose numbers or lists are hostile."""
    first = '<lane id="a_0" index="0" speed="13.89" length="75.0"'
    changed = {
        "a length of 1e12": (first, first.replace("75.0", "1e12")),
        "a length of 1e308": (first, first.replace("75.0", "1e308")),
        "a length of no number": (first, first.replace("75.0", "nan")),
        "a speed of NaN": (first, first.replace("13.89", "nan")),
        "a point of NaN": ('shape="0,0 75.0,0"', 'shape="nan,0 0,0"'),
    }
    return {name: FORK.replace(old, new, 1).encode() for name, (old, new) in changed.items()}


def semantic_routes():
    """Demands that are too many or too large."""
    told = {
        "a flow of 1e9": '<flow id="f" begin="0" end="99" number="1000000000" from="a" to="b"/>',
        "a flow of 1e18 an hour": '<flow id="f" begin="0" end="99" vehsPerHour="1e18" from="a" to="b"/>',
        "a flow each 1e-12 s": '<flow id="f" begin="0" end="99" period="1e-12" from="a" to="b"/>',
        "a flow without an end": '<flow id="f" begin="0" end="1e11" period="1e-3" from="a" to="b"/>',
        "a departure of 1e300": '<vehicle id="v" depart="1e300"><route edges="a b"/></vehicle>',
        "a departure of NaN": '<vehicle id="v" depart="nan"><route edges="a b"/></vehicle>',
    }
    return {name: f"<routes>{text}</routes>".encode() for name, text in told.items()}


def semantic_additional():
    """Additional files whose numbers are hostile."""
    light = '<tlLogic id="B" type="static" programID="1" offset="{}"><phase duration="{}" state="GG"/>{}</tlLogic>'
    told = {
        "a phase of 1e18 s": light.format(0, "1e18", ""),
        "a phase of NaN": light.format(0, "nan", ""),
        "an offset of 1e300": light.format("1e300", 9, ""),
        "a state of 3 MB": light.format(0, 9, f'<phase duration="9" state="{"G" * 3_000_000}"/>'),
        "a detector each 1e-12 s": '<inductionLoop id="d" lane="a_0" pos="9" period="1e-12" file="x"/>',
        "a detector at 1e300": '<inductionLoop id="d" lane="a_0" pos="1e300" period="9" file="x"/>',
    }
    return {name: f"<additional>{text}</additional>".encode() for name, text in told.items()}


LOAD = json.dumps({"cmd": "load", **NUMBERED})
ENTER = '{"cmd":"enter","plan":[0,1],"lane":0,"depart":9}\n'


def semantic_run():
    """Run files whose numbers or lists are hostile."""
    signal = '{"cmd":"signal","node":1,"offset":0,"phases":%s}\n'
    told = {
        "cells of 1e12": LOAD.replace("10, 5]", f"{10**12}, 5]") + "\n" + ENTER,
        "a link of 1e18": LOAD.replace("[1, 1, 2, 1", f"[{10**18}, 1, 2, 1") + "\n" + ENTER,
        "a node of 1e18": LOAD.replace("[2, 1, 2]]", f"[{10**18}, 1, 2]]") + "\n" + ENTER,
        "a phase of 1e18 s": f"{LOAD}\n{signal % '[[1000000000000000000,[[0,0,1]]]]'}{ENTER}",
        "a departure below 0": f"{LOAD}\n{ENTER.replace(':9', ':-1000000000000000000')}",
        "a line of another link": f'{LOAD}\n{ENTER}{{"cmd":"close","link":{10**18},"lane":0,"first":0,"last":1}}\n',
        "a line without a command": f"{LOAD}\n[1]\n",
        "no load": ENTER,
    }
    long = f"[{'0,' * 999_999}1]"
    told["a plan of 1,000,000 links"] = f"{LOAD}\n{ENTER.replace('[0,1]', long)}"
    return {name: text.encode() for name, text in told.items()}


def semantic_map():
    """Maps whose numbers or lists are hostile."""
    text = json.dumps({**MAP, "cars": ["v"]})
    told = {
        "cells of 1e12": text.replace('1, 10, 5, 75.0', f'1, {10**12}, 5, 75.0', 1),
        "a node of 1e18": text.replace('[0], 0, 1', f'[0], 0, {10**18}', 1),
        "turns of another link": text.replace('[0, 0, 1, 0, "L"', f'[{10**18}, 0, 1, 0, "L"', 1),
        "nodes that are numbers": text.replace('"nodes": [', '"nodes": [1, ', 1),
        **{f"its first {size} bytes": text[:size] for size in range(0, len(text) - 2, len(text) // 8)},
        "a map of texts": json.dumps({name: "x" for name in MAP}),
    }
    return {name: one.encode() for name, one in told.items()}


def semantic_study():
    """Studies whose numbers or keys are hostile."""
    begin, seeds = 'run = "run.jsonl"\nmap = "map.json"\n', 'seeds = "1-2"\n'
    told = {
        **{
            f"{key} = {value}": f'{begin}{key} = {value}\n{"" if key == "seeds" else seeds}[variant.a]\n'
            for key in ("until", "seeds", "rounds", "base", "variant") for value in ("[[]]", "{}", "nan")
        },
        "1e9 seeds": begin + 'seeds = "1-1000000000"\n[variant.a]\n',
        "a seed of 1e300": begin + f'seeds = "1-{10**300}"\n[variant.a]\n',
        "an end of 1e300": begin + f'seeds = "1-2"\nuntil = {10**300}\n[variant.a]\n',
        "rounds of 1e9": begin + 'seeds = "1-2"\nrounds = 1000000000\n[variant.a]\n',
        "a depth of 100,000": begin + "seeds = " + "[" * 100_000,
        "keys of 100,000 parts": ".".join("a" * 100_000) + " = 1\n",
        "a run that has no end": 'run = "/dev/zero"\nmap = "map.json"\nseeds = "1-2"\n[variant.a]\n',
        "a key twice": begin * 2,
        "a text that does not end": 'run = """' + "x" * 3_000_000,
        "200,000 variants": begin + 'seeds = "1-2"\n' + "".join(f"[variant.v{at}]\n" for at in range(100_000)),
        "16 MB": b"#".decode() * (16 * MEGA),
    }
    return {name: one.encode() for name, one in told.items()}


def rows_forms():
    """Hostile rows.bin: what heads promise, and what is packed."""
    head = struct.Struct("<6I")

    def part(data, clock=1, seconds=1, stays=0, rows=0, closed=0, size=None):
        packed = zlib.compress(data, 9)
        return head.pack(len(packed) if size is None else size, clock, seconds, stays, rows, closed) + packed

    most = 2**32 - 1
    stay = struct.pack("<5I", 1, 0, 1, 0, 1)[4:]
    return {
        "4e9 seconds": part(b"", seconds=most),
        "4e9 rows": part(b"", rows=most),
        "4e9 stays": part(b"", stays=most),
        "4e9 stretches": part(b"", closed=most),
        "4e9 bytes": part(b"", size=most),
        "1 GB packed": part(bytes(1 << 28)),
        "more than it promises": part(bytes(999)),
        "less than it promises": part(bytes(9), stays=9, rows=9),
        "a stay of 4e9 seconds": part(struct.pack("<4I", 0, 1, 0, most) + bytes(7), stays=1, rows=1),
        "a stay that begins at 4e9": part(struct.pack("<4I", 0, 1, most, 1) + bytes(7), stays=1, rows=1),
        "a vehicle of 4e9": part(struct.pack("<4I", most, 1, 0, 1) + bytes(7), stays=1, rows=1)[:-1],
        "a clock of 4e9": part(stay + bytes(7), clock=most, stays=1, rows=2),
        "no head": b"x" * 23,
        "a head alone": head.pack(9, 1, 1, 1, 1, 1),
        "bytes behind": part(b"") + b"x",
        "no zlib": head.pack(9, 1, 1, 0, 0, 0) + b"x" * 9,
        "zlib that is cut off": part(b"")[:-3],
        **{f"its first {size} bytes": part(bytes(23 * 99), stays=99, rows=99)[:size] for size in range(1, 24, 2)},
        "bytes behind the packed ones": head.pack(11, 1, 1, 0, 0, 0) + zlib.compress(b"") + b"xxx",
    }


def record_forms():
    """Hostile records of a run: what heads promise."""
    head, row = struct.Struct("<4I"), struct.Struct("<4I")
    most = 2**32 - 1
    blocks = {
        "4e9 rows": head.pack(1, most, 0, 0),
        "4e9 arrived": head.pack(1, 0, most, 0),
        "4e9 taken out": head.pack(1, 0, 0, most),
        "a clock of 4e9": head.pack(most, 0, 0, 0),
        "a vehicle of 4e9": head.pack(1, 1, 0, 0) + row.pack(most, 0, 0, 0),
        "a million rows, none there": head.pack(1, 1_000_000, 0, 0),
        "half a head": b"x" * 9,
        "half a row": head.pack(1, 1, 0, 0) + b"x",
        "clocks that fall": head.pack(9, 0, 0, 0) + head.pack(1, 0, 0, 0),
        "blanks": b" " * MEGA,
    }
    valid = head.pack(1, 2, 0, 0) + row.pack(0, 0, 9, 1) + row.pack(1, 0, 5, 1)
    return blocks | {f"its first {size} bytes": valid[:size] for size in range(1, len(valid), 2)}


def page_forms():
    """Hostile pages: what is sealed in them, and what is around it."""
    from streetsim.report.page_seal import BEGIN, END, PACK

    plan = {"name": "", "run": "plan-1/x", "map": "plan-1/map.json", "words": [], "again": [], "seeds": [1]}
    files = {"plan-1/x": "0" * 64, "plan-1/map.json": "0" * 64}
    whole = {"form": 2, "plans": [{**plan, "several": False, "program": ""}], "files": files, "words": []}
    whole = {**whole, "beside": [], "tools": "0" * 64}

    def page(content, pack=b"", more=""):
        text = content if isinstance(content, str) else json.dumps(content)
        told = base64.b64encode(pack).decode()
        packs = "".join(f'<script type="text/plain" class="sealed" title="{name}">{told}</script>' for name in files)
        return f"<html>{more}{BEGIN}{text}{END}\n{packs}".encode()

    big = zlib.compressobj(9)
    stream = big.compress(b"") + b"".join(big.compress(bytes(MEGA)) for _ in range(512)) + big.flush()
    return {
        "512 MB packed": page(whole, stream),
        "a seal of 1,000,000 lists": page("[" * MEGA),
        "a seal of 6,000,000 objects": page("[" + "{}," * 6_000_000 + "{}]"),
        "a seal without an end": page("").split(END.encode())[0] + b" " * (16 * MEGA),
        "300,000 begins of seals": BEGIN.encode() * 300_000,
        "300,000 begins of packed files": page(whole, more=f"{PACK.pattern.split('(')[0]}" * 300_000),
        "1,000,000 plans": page({**whole, "plans": [1] * 1_000_000}),
        "1,000,000 seeds": page({**whole, "plans": [{**whole["plans"][0], "seeds": [1] * 1_000_000}]}),
        "100,000 files": page({**whole, "files": {**files, **{f"plan-1/{at}": "0" * 64 for at in range(100_000)}}}),
        "a number of 4 MB": page('{"form":' + "7" * (4 * MEGA) + "}"),
        "no zlib": page(whole, b"x" * MEGA),
        "a seal that is a list": page([]),
        "a seal that is null": page("null"),
        "plans that are null": page({**whole, "plans": None}),
        "blanks of 32 MB": b" " * (32 * MEGA),
        "no UTF-8": b"\xff" * MEGA,
        "2 GB in gzip": bomb(page(whole), b" " * 64),
    }


def imported(*words):
    """What imports a file, in the place of None in the words."""
    from streetsim.cli import import_

    return lambda path: import_.main([*(path if one is None else one for one in words), "-o", "r", "--map", "m"])


def run_of(*words):
    """What runs a file, in the place of None in the words."""
    from streetsim.cli import run

    more = ("--until", "60", "--junctions", "--out", "out", "--program", PROGRAM or "/bin/true")
    return lambda path: run.main([*(path if one is None else one for one in words), *more])


def whole(read):
    """What reads a file to its end."""
    return lambda path: 0 * sum(1 for _ in read(path))


def kinds(folder):
    """By kind (kind, name of its file, a function that reads it, valid bytes, {name: hostile bytes}); writes to the
    folder what the functions read beside it."""
    from streetsim.cli import check
    from streetsim.demand.matrices import read_matrices
    from streetsim.demand.reading import read_counts
    from streetsim.model.mapping import map_from
    from streetsim.model.names import read_own
    from streetsim.model.record import RecordReader, open_record
    from streetsim.model.rows import frames_in
    from streetsim.model.tables import SEEDS, read_table
    from streetsim.search.study_variants import read_study

    own_map, cell = {**MAP, "cars": ["v"]}, b"a,,0,60,9\n"
    mapping, run, light = json.dumps(own_map).encode(), f"{LOAD}\n{ENTER}".encode(), b'<vType id="t"/>'
    Path(folder, "net.xml").write_text(FORK)
    Path(folder, "run.jsonl").write_bytes(run)
    Path(folder, "map.json").write_bytes(mapping)
    vehicle, edge = b'<vehicle id="v" depart="0"><route edges="a b"/></vehicle>', re.search("<edge.*?</edge>", FORK)[0]
    counts, matrix, names = b"from,to,begin,end,vehicles\n", b"from,to,vehicles,begin,end\n", b"id,name\n"
    study = b'run = "run.jsonl"\nmap = "map.json"\nseeds = "1-2"\nuntil = 60\n[variant.a]\n'
    seen = b'<data><interval begin="0" end="60"><edge id="a" left="9"/></interval></data>'
    relation = b'<tazRelation from="a" to="b" count="9"/>'
    relations = b'<data><interval begin="0" end="60">' + relation + b"</interval></data>"
    routes, additional = b"<routes>%b</routes>" % vehicle, b"<additional>%b</additional>" % light
    seeds = ",".join(SEEDS).encode() + b"\n"
    found = {
        "net": ("x.net.xml", imported(None), FORK.encode(), edge.encode(),
                lambda: xml_forms("net", ' version="1.9"', "<edge>")),
        "routes": ("x.rou.xml", imported("net.xml", "--routes", None, "--end", "99"), routes, vehicle,
                   lambda: xml_forms("routes", "", "<vehicle>")),
        "additional": ("x.add.xml", imported("net.xml", None), additional, light,
                       lambda: xml_forms("additional", "", "<x>")),
        "run": ("x.jsonl", run_of(None, "--map", "map.json"), run, ENTER.encode(),
                lambda: json_forms(b'{"cmd":"load","x":', b"}\n")),
        "map": ("x.json", run_of("run.jsonl", "--map", None), mapping, b'"cars"',
                lambda: json_forms(b'{"nodes":', b"}")),
        "counts": ("x.csv", whole(lambda path: read_counts([path])), counts + cell, cell,
                   lambda: table_forms(counts, cell)),
        "counts of SUMO": ("x.xml", whole(lambda path: read_counts([path])), seen, b'<edge id="a" left="9"/>',
                           lambda: xml_forms("data", "", "<interval>")),
        "matrix": ("m.csv", whole(lambda path: read_matrices([path], None)), matrix + b"a,b,9,0,60\n",
                   b"a,b,9,0,60\n", lambda: table_forms(matrix, b"a,b,9,0,60\n")),
        "matrix of SUMO": ("m.xml", whole(lambda path: read_matrices([path], None)), relations, relation,
                           lambda: xml_forms("data", "", "<interval>")),
        "names": ("n.csv", lambda path: read_own(path, map_from("", MAP)) or 0, names + b"a,9\n", b"a,9\n",
                  lambda: table_forms(names, b"a,9\n")),
        "table": ("t.csv", whole(lambda path: read_table(path, SEEDS)), seeds + b"1,9,9,9,9\n", b"1,9,9,9,9\n",
                  lambda: table_forms(seeds, b"1,9,9,9,9\n")),
        "study": ("x.toml", whole(lambda path: [read_study(path, "/bin/false")]), study, b"until = 60\n", dict),
        "rows": ("rows.bin", whole(lambda path: frames_in(path, 1)), b"", None, rows_forms),
        "record": ("record", whole(lambda path: RecordReader(open_record(path), path)), b"", None, record_forms),
        "page": ("x.html", lambda path: check.main([path, "--program", "/bin/true"]), b"", None, page_forms),
    }
    semantic = {
        "net": semantic_net, "routes": semantic_routes, "additional": semantic_additional, "run": semantic_run,
        "map": semantic_map, "study": semantic_study,
    }
    for kind, (name, read, valid, piece, forms) in found.items():
        packed, more = packed_forms(valid, piece) if piece else {}, semantic.get(kind, dict)()
        yield kind, name, read, valid, {**packed, **forms(), **more}


def read_and_exit(read, path, told):
    """Reads a file in a fork, and ends that with the status of a tool; told: a descriptor, for what it tells."""
    status = 9
    try:
        os.dup2(told, 1)
        os.dup2(told, 2)
        resource.setrlimit(resource.RLIMIT_CPU, (4 * MOST_SECONDS, 4 * MOST_SECONDS))
        status = status_of(lambda _: read(path))
    except BaseException:
        traceback.print_exc()
    finally:
        sys.stderr.flush()
        os._exit(status)


def tried(read, path):
    """How a fork of this process reads a file: its status, what it told, seconds of the processor, as others may take
    it meanwhile, and its peak of memory in bytes."""
    with tempfile.TemporaryFile() as told:
        child = os.fork()
        if not child:
            read_and_exit(read, path, told.fileno())
        _, status, used = os.wait4(child, 0)
        told.seek(0)
        seconds, text = used.ru_utime + used.ru_stime, told.read().decode(errors="replace")
        return os.waitstatus_to_exitcode(status), text, seconds, used.ru_maxrss << 10


def load(read, path):
    """Reads a valid file in this process, so that its forks have all modules."""
    told = io.StringIO()
    with contextlib.redirect_stdout(told), contextlib.redirect_stderr(told), contextlib.suppress(Fault):
        read(path)


def main(wanted, is_quick):
    """Tries the hostile files of some kinds, all where none is named; prints a line of JSON for each, and for the valid
    one of each kind, whose name is empty. is_quick: those that take a second of two kinds alone."""
    with tempfile.TemporaryDirectory() as folder:
        os.chdir(folder)
        for kind, name, read, valid, forms in kinds(folder):
            if wanted and kind not in wanted:
                continue
            Path(name).write_bytes(valid)
            load(read, name)
            for form, content in {"": valid, **forms}.items():
                slow, large = (any(mark in form for mark in marks) for marks in (SLOW, LARGE))
                if is_quick and (slow and kind not in FIRST[:2] or large and kind not in FIRST):
                    continue
                Path(name).write_bytes(content)
                result = tried(read, name)
                print(json.dumps([kind, form, len(content), *result]), flush=True)


if __name__ == "__main__":
    main([word for word in sys.argv[1:] if word != "--quick"], "--quick" in sys.argv)
