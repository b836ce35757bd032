#!/usr/bin/python3
"""Starts the simulator that STREETSIM_REAL names, passes on what goes in and out, and writes the lines and the record
of each run into a new folder of STREETSIM_SEEN, also where nobody asked for the record. What the simulator has recorded
is passed on before its reply to the step.
"""
import os
import select
import subprocess
import sys
from pathlib import Path

CHUNK = 1 << 16


def new_folder():
    """A folder of its own for this run, numbered as runs begin."""
    number = 0
    while True:
        folder = Path(os.environ["STREETSIM_SEEN"]) / f"{number:04}"
        try:
            folder.mkdir()
            return folder
        except FileExistsError:
            number += 1


def write(pipe, data):
    """Writes all bytes."""
    while data:
        data = data[os.write(pipe, data) :]


def pass_on(source, target, file):
    """Passes on what a pipe has now, and writes it to a file; target None: to that alone."""
    while True:
        try:
            data = os.read(source, CHUNK)
        except BlockingIOError:
            return
        if not data:
            return
        file.write(data)
        if target is not None:
            write(target, data)


def main():
    """Runs the simulator to its end; gives its status."""
    real, folder, words = os.environ["STREETSIM_REAL"], new_folder(), sys.argv[1:]
    target, words = (os.open(words[1], os.O_WRONLY), words[2:]) if words[:1] == ["--record"] else (None, words)
    recorded, there = os.pipe()
    os.set_blocking(recorded, False)
    made = subprocess.Popen(
        [real, "--record", f"/dev/fd/{there}", *words],
        stdin=subprocess.PIPE, stdout=subprocess.PIPE, pass_fds=[there], bufsize=0,
    )  # fmt: skip
    os.close(there)
    asked, told = 0, made.stdout.fileno()
    with open(folder / "lines", "wb", buffering=0) as lines, open(folder / "record", "wb", buffering=0) as record:
        sources = [asked, told, recorded]
        while told in sources:
            ready, _, _ = select.select(sources, [], [])
            pass_on(recorded, target, record)
            if asked in ready:
                data = os.read(asked, CHUNK)
                lines.write(data)
                write(made.stdin.fileno(), data)
                if not data:
                    made.stdin.close()
                    sources.remove(asked)
            if told in ready:
                data = os.read(told, CHUNK)
                pass_on(recorded, target, record)
                write(1, data)
                sources = sources if data else []
    return made.wait()


if __name__ == "__main__":
    if sys.argv[1:2] == ["--help"]:
        os.execv(os.environ["STREETSIM_REAL"], [os.environ["STREETSIM_REAL"], "--help"])
    sys.exit(main())
