"""A session that is kept: killed at any moment, on disks that are full, and beside a second program.

What is wanted is told by docs/LINES.md. The replies that are wanted come from runs that nothing ends.
"""
import json
import os
import random
import re
import resource
import shutil
import signal
import subprocess
import threading
import time
import unittest

from support import PROGRAM, Case, needs_simulator

from test_program import EXAMPLES, NOT_LOADED, ProgramCase

# So many runs are ended at a random moment, with these numbers of workers in turn.
KILLS = 300
WORKERS = (1, 3, 64)
LOAD = {
    "cmd": "load",
    "nodes": [[n, 1, 2] for n in range(1, 6)],
    "links": [[10 * n, n, n + 1, 2, 20, 5] for n in range(1, 5)],
    "turns": [[10 * n, lane, 10 * n + 10, lane] for n in range(1, 4) for lane in (0, 1)],
    "zone": 0,
    "dawdle": 300,
    "change": 500,
    "seed": 4711,
}
PLAN = [10, 20, 30, 40]
CHANGES = ("load", "enter", "advance", "signal", "close", "reopen", "takeout", "meter")


def random_lines(seed, count):
    """A session of commands of all kinds, some of them refused, some questions."""
    draw = random.Random(seed)
    lines = [json.dumps(LOAD)]
    for _ in range(count - 1):
        link, lane = draw.choice((10, 20, 30, 40)), draw.randrange(3)
        first = draw.randrange(20)
        command = draw.choices(
            [
                {"cmd": "enter", "plan": PLAN[: draw.randrange(1, 5)], "lane": lane, "depart": draw.randrange(40)},
                {"cmd": "advance", "steps": draw.randrange(4)},
                {"cmd": "signal", "node": 2, "offset": 0, "phases": [[draw.randrange(1, 9), [[10, 0, 20]]]]},
                {"cmd": draw.choice(("close", "reopen")), "link": link, "lane": lane, "first": first, "last": first},
                {"cmd": "takeout", "car": draw.randrange(30)},
                {"cmd": "meter", "link": link, "lane": lane, "cell": first, "period": draw.randrange(3)},
                {"cmd": "vehicle", "car": draw.randrange(30)},
                {"cmd": "lane", "link": link, "lane": lane},
                {"cmd": "read", "meter": draw.randrange(4)},
                {"cmd": "count"},
            ],
            [6, 6, 1, 2, 1, 1, 2, 2, 1, 2],
        )[0]
        lines.append(json.dumps(command))
    return lines


def changes(line, reply):
    """Whether a line that was answered so is kept."""
    return json.loads(line)["cmd"] in CHANGES and '"error":' not in reply and '"starved":' not in reply


def questions(session):
    """Lines that ask for what a state has: counts, vehicles, lanes, detectors; and again after 40 steps, by which
    signals, closures and the draws show."""
    links = sorted({int(number) for number in re.findall(r"[0-9]+", session) if len(number) < 4})[:60]
    asked = ['{"cmd":"count"}', *(f'{{"cmd":"vehicle","car":{car}}}' for car in range(30))]
    asked += [f'{{"cmd":"lane","link":{link},"lane":{lane}}}' for link in links for lane in (0, 1)]
    asked += [f'{{"cmd":"read","meter":{meter}}}' for meter in range(4)]
    return "".join(f"{line}\n" for line in [*asked, '{"cmd":"advance","steps":40}', *asked])


def replies_to(lines, words=("--endless",)):
    """What the program replies to these lines in one run that nothing ends."""
    text = "".join(f"{line}\n" for line in lines)
    done = subprocess.run([PROGRAM, *words], input=text, capture_output=True, text=True, timeout=60, check=True)
    return done.stdout.splitlines()


class Client:
    """Sends lines to a session that is kept, and notes what it was answered, until the program is killed."""

    def __init__(self, file, workers, lines, per_write, delay):
        self.program = subprocess.Popen(
            [PROGRAM, "--keep", file, "--workers", str(workers)],
            stdin=subprocess.PIPE, stdout=subprocess.PIPE, stderr=subprocess.DEVNULL,
        )
        self.answered = []
        self.lines = lines
        self.per_write = per_write
        killer = threading.Timer(delay, self.program.kill)
        killer.start()
        reader = threading.Thread(target=self.read)
        reader.start()
        try:
            self.send()
        except BrokenPipeError:
            pass
        reader.join()
        killer.cancel()
        self.program.wait()
        try:
            self.program.stdin.close()
        except BrokenPipeError:
            pass
        self.program.stdout.close()

    def send(self):
        for at in range(0, len(self.lines), self.per_write):
            part = "".join(f"{line}\n" for line in self.lines[at : at + self.per_write])
            self.program.stdin.write(part.encode())
            self.program.stdin.flush()
        self.program.stdin.close()

    def read(self):
        """Whole replies alone count: a client cannot use part of one."""
        got = b""
        while part := self.program.stdout.read1(65536):
            got += part
        self.answered = got.decode().split("\n")[:-1]


@needs_simulator
class Killed(Case):
    def test_at_random_moments_nothing_that_was_answered_is_lost(self):
        """At each start the file has what was answered, and replies go on as those of a run that nothing ended."""
        draw = random.Random(17)
        until = time.monotonic() + 240
        lines = random_lines(seed=5, count=600)
        wanted = replies_to(lines)
        kept = [at for at, (line, reply) in enumerate(zip(lines, wanted)) if changes(line, reply)]
        self.assertGreater(len(kept), 200)
        kills = ended = 0
        while kills < KILLS and time.monotonic() < until:
            file = self.folder / f"day-{kills}.jsonl"
            begun = 0
            for _ in range(5):
                workers = WORKERS[kills % len(WORKERS)]
                client = Client(file, workers, lines[begun:], draw.choice((1, 7, 200)), draw.uniform(0.0005, 0.03))
                kills += 1
                # All that was answered is as in one run, and what it changed is in the file.
                self.assertEqual(client.answered, wanted[begun : begun + len(client.answered)])
                whole = file.read_text().rsplit("\n", 1)[0].split("\n") if file.exists() else []
                whole = [line for line in whole if line]
                self.assertEqual(whole, [lines[at] for at in kept[: len(whole)]])
                answered = begun + len(client.answered)
                self.assertGreaterEqual(len(whole), sum(at < answered for at in kept))
                # The next run goes on behind what is in the file: a question that was not answered is asked again.
                begun = max(answered, kept[len(whole) - 1] + 1 if whole else 0)
                ended += begun == len(lines)
                if begun == len(lines):
                    break
            file.unlink(missing_ok=True)
        self.assertGreaterEqual(kills, KILLS // 3)

    def test_a_line_that_was_cut_off_is_not_done(self):
        """The file is cut after each byte: the commands are those of its whole lines."""
        file = self.folder / "day.jsonl"
        lines = random_lines(seed=9, count=12)
        text = "".join(f"{line}\n" for line, reply in zip(lines, replies_to(lines)) if changes(line, reply))
        for cut in range(len(json.dumps(LOAD)) - 2, len(text) + 1, 3):
            file.write_text(text[:cut])
            whole = text[:cut].rsplit("\n", 1)[0] + "\n" if "\n" in text[:cut] else ""
            count = '{"cmd":"count"}'
            told = replies_to([count], ("--keep", str(file)))
            self.assertEqual(told, replies_to([*whole.splitlines(), count])[-1:])
            self.assertEqual(file.read_text(), whole)


class Kept(ProgramCase):
    def test_each_example_has_the_same_replies_and_its_file_is_a_session(self):
        for session in sorted(EXAMPLES.glob("*.jsonl")):
            for words in (["--endless"], ["--keep", "a.jsonl"], ["--keep", "a.jsonl", "--unsynced"]):
                for workers in (1, 3):
                    with self.subTest(session=session.stem, words=words, workers=workers):
                        (self.folder / "a.jsonl").unlink(missing_ok=True)
                        told = self.ends([*words, "--workers", workers], session.read_text())
                        self.assertEqual(told, session.with_suffix(".out").read_text())
            # What it has kept leads, served as a session or gone on from, to the state of the whole session.
            kept, asked = (self.folder / "a.jsonl").read_text(), questions(session.read_text())
            count, lines = asked.count("\n"), kept.count("\n")
            wanted = self.ends(["--endless"], session.read_text() + asked).splitlines()[-count:]
            self.assertEqual(self.ends([], kept + asked).splitlines()[-count:], wanted)
            resumed = f"streetsim: {lines} lines of a.jsonl were done again\n" if lines else ""
            self.assertEqual(self.ends(["--keep", "a.jsonl"], asked, error=resumed).splitlines(), wanted)

    def test_there_is_no_end_of_calls(self):
        self.assertEqual(self.ends(["--endless"], '{"cmd":"count"}\n' * 70_000), NOT_LOADED * 70_000)

    def test_the_version_is_told(self):
        self.assertEqual(self.ends(["--version"]), "streetsim 1.0.0\n")

    def test_a_bad_line_stops_it_and_stays(self):
        text = (EXAMPLES / "one-vehicle.jsonl").read_text()
        for bad in ("no command\n", '{"cmd":"takeout","car":9}\n'):
            (self.folder / "a.jsonl").write_text(text + bad + '{"cmd":"advance","steps":1}\n{"cmd"')
            line = len(text.splitlines()) + 1
            self.ends(["--keep", "a.jsonl"], '{"cmd":"count"}\n', 1, f"streetsim: bad tape at line {line}\n")
            self.assertEqual((self.folder / "a.jsonl").read_text(), text + bad + '{"cmd":"advance","steps":1}\n{"cmd"')

    def test_what_is_no_file_is_not_kept_in(self):
        (self.folder / "folder").mkdir()
        os.mkfifo(self.folder / "fifo")
        for name in ("folder", "fifo", "/dev/full"):
            self.ends(["--keep", name], '{"cmd":"count"}\n', 1, f"streetsim: cannot read {name}\n")
        self.ends(["--keep", "nowhere/a"], '{"cmd":"count"}\n', 1, "streetsim: cannot write nowhere/a\n")

    def test_a_second_program_is_told(self):
        first = subprocess.Popen(
            [PROGRAM, "--keep", "a.jsonl"], stdin=subprocess.PIPE, stdout=subprocess.PIPE, cwd=self.folder
        )
        self.addCleanup(first.stdout.close)
        first.stdin.write(b'{"cmd":"count"}\n')
        first.stdin.flush()
        self.assertEqual(first.stdout.readline().decode(), NOT_LOADED)
        self.ends(["--keep", "a.jsonl"], '{"cmd":"count"}\n', 1, "streetsim: a.jsonl is in use\n")
        first.stdin.close()
        self.assertEqual(first.wait(), 0)

    def test_a_reply_that_can_not_go_out_leaves_what_is_kept(self):
        load = (EXAMPLES / "one-vehicle.jsonl").read_text().splitlines(keepends=True)[0]
        with open("/dev/full", "wb") as full:
            done = subprocess.run(
                [PROGRAM, "--keep", "a.jsonl"], input=load.encode(), stdout=full, stderr=subprocess.PIPE, check=False,
                cwd=self.folder,
            )
        self.assertEqual((done.returncode, done.stderr), (1, b"streetsim: cannot write standard output\n"))
        self.assertEqual((self.folder / "a.jsonl").read_text(), load)


class Placed(ProgramCase):
    """What stands where, and what was cut off."""

    def setUp(self):
        super().setUp()
        self.text = "".join((EXAMPLES / "one-vehicle.jsonl").read_text().splitlines(keepends=True)[:3])
        self.count = '{"admitted":1,"arrived":1,"buffers":0,"cells":0,"clock":5,"taken":0,"waiting":0}\n'
        self.file = self.folder / "a.jsonl"

    def goes_on(self, name="a.jsonl", cut=b"", words=()):
        """A session goes on from the three lines of a file, and saves what is behind them."""
        lost = f"{self.file.resolve()}.lost"
        said = f"streetsim: {len(cut)} bytes behind the lines of {name} are now in {lost}\n" if cut else ""
        error = f"{said}streetsim: 3 lines of {name} were done again\n"
        self.assertEqual(self.ends(["--keep", name, *words], '{"cmd":"count"}\n', error=error), self.count)
        self.assertEqual(self.file.read_text(), self.text)
        self.assertFalse((self.folder / "a.jsonl.new").exists())

    def test_what_is_cut_off_is_saved(self):
        saved = b""
        for torn in (b'{"cmd":"adv', b"\0" * 100, b"\0" * 100 + b"\n", b'{"cm\0\0d"}\nno command\n', b"\xff"):
            for words in ((), ("--unsynced",)):
                self.file.write_bytes(self.text.encode() + torn)
                self.goes_on(cut=torn, words=words)
                saved += torn
                self.assertEqual((self.folder / "a.jsonl.lost").read_bytes(), saved)

    def test_a_file_of_another_stays(self):
        for text in (b"a", b"\xef\xbb\xbf{", b" \t[1, 2", b'"' * 9000, b"{" * 1_048_577):
            self.file.write_bytes(text)
            self.ends(["--keep", "a.jsonl"], '{"cmd":"count"}\n', 1, "streetsim: bad tape at line 1\n")
            self.assertEqual(self.file.read_bytes(), text)
        self.assertFalse((self.folder / "a.jsonl.lost").exists())

    def test_a_file_of_nul_bytes_is_a_new_session(self):
        text = b"\0" * 100 + b"\n"
        self.file.write_bytes(text)
        error = f"streetsim: 101 bytes behind the lines of a.jsonl are now in {self.file.resolve()}.lost\n"
        self.assertEqual(self.ends(["--keep", "a.jsonl"], '{"cmd":"count"}\n', error=error), NOT_LOADED)
        self.assertEqual((self.file.read_bytes(), (self.folder / "a.jsonl.lost").read_bytes()), (b"", text))

    def test_a_map_that_is_given_by_mistake_is_saved(self):
        text = '{"nodes":' + "[" * 60_000
        self.file.write_text(text)
        error = f"streetsim: 60009 bytes behind the lines of a.jsonl are now in {self.file.resolve()}.lost\n"
        self.assertEqual(self.ends(["--keep", "a.jsonl"], '{"cmd":"count"}\n', error=error), NOT_LOADED)
        self.assertEqual((self.file.read_text(), (self.folder / "a.jsonl.lost").read_text()), ("", text))

    def test_streams_that_are_the_file_are_told(self):
        self.file.write_text(self.text)
        for stream, told in (("<", "cannot read standard input"), (">>", "cannot write standard output")):
            done = subprocess.run(
                ["bash", "-c", f'"$0" --keep a.jsonl {stream} a.jsonl', PROGRAM], capture_output=True, text=True,
                timeout=20, cwd=self.folder, check=False, stdin=subprocess.DEVNULL,
            )
            self.assertEqual((done.returncode, done.stderr), (1, f"streetsim: {told}\n"))
            self.assertEqual(self.file.read_text(), self.text)

    def test_what_is_told_never_goes_into_the_file(self):
        """Standard error is closed, or is the file: then nothing is told, and the status alone says so."""
        for error, status, told in (("2>&-", 0, self.count), ("2>> a.jsonl", 1, "")):
            for more in ((), ("--unsynced",)):
                self.file.write_text(self.text)
                found = self.ends_closed(error, ["--keep", "a.jsonl", *more], '{"cmd":"count"}\n')
                self.assertEqual(found, (status, told))
                self.assertEqual(self.file.read_text(), self.text)

    def test_a_link_leads_to_the_file(self):
        (self.folder / "other").mkdir()
        (self.folder / "other/link").symlink_to("../a.jsonl")
        self.file.write_text(self.text + "{")
        self.goes_on("other/link", b"{")
        self.assertTrue((self.folder / "other/link").is_symlink())
        self.assertEqual([path.name for path in (self.folder / "other").iterdir()], ["link"])

    def test_the_file_is_new_and_has_the_rights_of_the_old(self):
        self.file.write_text(self.text)
        (self.folder / "a.jsonl.new").write_text("of a program that ended")
        self.file.chmod(0o640)
        with open(self.file, "rb") as old:
            self.goes_on()
            found = self.file.stat()
            self.assertNotEqual(found.st_ino, os.fstat(old.fileno()).st_ino)
        self.assertEqual(found.st_mode & 0o777, 0o640)

    def test_a_file_of_several_names_is_cut_off(self):
        self.file.write_text(self.text + "{")
        os.link(self.file, self.folder / "b.jsonl")
        self.goes_on(cut=b"{")
        self.assertTrue((self.folder / "b.jsonl").samefile(self.file))

    @unittest.skipUnless(os.geteuid() == 0 and shutil.which("mount"), "no right to mount")
    def test_a_file_that_is_mounted_is_cut_off(self):
        (self.folder / "b.jsonl").write_text(self.text + "{")
        self.file.write_text("")
        if subprocess.run(["mount", "--bind", self.folder / "b.jsonl", self.file], check=False).returncode:
            self.skipTest("no right to mount")
        self.addCleanup(subprocess.run, ["umount", self.file], check=False)
        self.goes_on(cut=b"{")
        self.assertEqual((self.folder / "b.jsonl").read_text(), self.text)

    @unittest.skipUnless(os.geteuid() == 0 and shutil.which("setpriv"), "no other user to run as")
    def test_a_folder_that_can_not_be_written(self):
        """A whole file goes on as it stands; what would have to be saved stops it."""
        self.file.write_text(self.text)
        self.file.chmod(0o666)
        self.folder.chmod(0o755)
        words = ["setpriv", "--reuid", "65534", "--regid", "65534", "--clear-groups", PROGRAM, "--keep", "a.jsonl"]
        for text, status, told in ((self.text, 0, self.count), (self.text + "{", 1, "")):
            self.file.write_text(text)
            done = subprocess.run(
                words, input='{"cmd":"count"}\n', capture_output=True, text=True, timeout=20, cwd=self.folder,
                check=False,
            )
            if "setpriv" in done.stderr or "denied" in done.stderr:
                self.skipTest("no other user to run as")
            self.assertEqual((done.returncode, done.stdout, self.file.read_text()), (status, told, text))
        self.assertEqual(done.stderr, "streetsim: cannot write a.jsonl\n")


class Page(ProgramCase):
    def test_the_five_lines_of_the_page(self):
        """As printed, but for the program's place and a shorter sleep."""
        text = (EXAMPLES.parent / "docs/LINES.md").read_text()
        lines = re.search(r"by `kill -9` or.*?```sh\n(.*?)```", text, re.S)[1]
        self.assertEqual(lines.count("\n"), 5)
        script = lines.replace("./streetsim", PROGRAM).replace("examples/", f"{EXAMPLES}/")
        script = script.replace("sleep 9", "sleep 2").replace("sleep 3", "sleep 1")
        done = subprocess.run(
            ["bash", "-c", script], capture_output=True, text=True, timeout=60, cwd=self.folder, check=True
        )
        session = (EXAMPLES / "one-vehicle.jsonl").read_text().splitlines(keepends=True)
        replies = (EXAMPLES / "one-vehicle.out").read_text().splitlines(keepends=True)
        count = '{"admitted":1,"arrived":1,"buffers":0,"cells":0,"clock":5,"taken":0,"waiting":0}\n'
        self.assertEqual(done.stdout, "".join([*replies, *session[:3], count, *replies[:3]]))
        self.assertIn("streetsim: 3 lines of day.jsonl were done again\n", done.stderr)


class Full(ProgramCase):
    def grown_to(self, limit, lines, error):
        """A run in which no file may grow beyond so many bytes, which tells this first: its replies."""
        def limits():
            signal.signal(signal.SIGXFSZ, signal.SIG_IGN)
            resource.setrlimit(resource.RLIMIT_FSIZE, (limit, limit))

        done = subprocess.run(
            [PROGRAM, "--keep", "a.jsonl"], input="".join(lines), capture_output=True, text=True, check=False,
            cwd=self.folder, preexec_fn=limits,
        )
        self.assertEqual((done.returncode, done.stderr), (1, error + "streetsim: cannot write a.jsonl\n"))
        return done.stdout

    def test_a_file_that_may_not_grow(self):
        """At each size: the file goes back to what was answered, and the session goes on when there is room again."""
        lines = (EXAMPLES / "one-vehicle.jsonl").read_text().splitlines(keepends=True)[:3]
        replies = (EXAMPLES / "one-vehicle.out").read_text().splitlines(keepends=True)[:3]
        for limit in range(len(lines[0]), len("".join(lines)) - 1, 9):
            (self.folder / "a.jsonl").write_text(lines[0])
            # Both lines come in one read, so none of them is answered.
            error = "streetsim: 1 lines of a.jsonl were done again\n"
            self.assertEqual(self.grown_to(limit, lines[1:], error), "")
            self.assertEqual((self.folder / "a.jsonl").read_text(), lines[0])
            self.assertEqual(self.ends(["--keep", "a.jsonl"], "".join(lines[1:]), error=error), "".join(replies[1:]))
            self.assertEqual((self.folder / "a.jsonl").read_text(), "".join(lines))

    @unittest.skipUnless(os.geteuid() == 0 and shutil.which("mount"), "no right to mount")
    def test_a_disk_that_is_full_and_gets_room_again(self):
        disk = self.folder / "disk"
        disk.mkdir()
        if subprocess.run(["mount", "-t", "tmpfs", "-o", "size=64k", "tmpfs", disk], check=False).returncode:
            self.skipTest("no right to mount")
        self.addCleanup(subprocess.run, ["umount", disk], check=False)
        load = (EXAMPLES / "one-vehicle.jsonl").read_text().splitlines(keepends=True)[0]
        self.ends(["--keep", disk / "a.jsonl"], load)
        with open(disk / "other", "wb", buffering=0) as other:
            try:
                while other.write(b"x" * 4096):
                    pass
            except OSError:
                pass
        enter = '{"cmd":"enter","plan":[10],"lane":0,"depart":0}\n'
        name = disk / "a.jsonl"
        done = subprocess.run(
            [PROGRAM, "--keep", name], input=enter * 200, capture_output=True, text=True, check=False, timeout=60
        )
        self.assertEqual(done.returncode, 1)
        self.assertTrue(done.stderr.endswith(f"streetsim: cannot write {name}\n"), done.stderr)
        (disk / "other").unlink()
        answered = done.stdout.count("\n")
        told = subprocess.run(
            [PROGRAM, "--keep", name], input='{"cmd":"count"}\n', capture_output=True, text=True, check=True, timeout=60
        )
        self.assertGreaterEqual(json.loads(told.stdout)["admitted"], answered)


if __name__ == "__main__":
    unittest.main()
