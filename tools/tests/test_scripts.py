"""Scripts of one program that meet: a tape's last place, and one that is silent while another is served."""
import json
import os
import subprocess
import threading
from concurrent.futures import ThreadPoolExecutor

from support import PROGRAM, Case, needs_simulator

COUNT = '{"cmd":"count"}\n'
NOT_LOADED = '{"error":1,"name":"NotLoaded"}\n'
FULL = '{"error":23,"name":"Full"}\n'
SECONDS = 60


@needs_simulator
class Scripts(Case):
    def test_the_call_that_finds_no_place_is_full(self):
        script = self.write("counts.jsonl", COUNT * 2)
        done = subprocess.run(
            [PROGRAM, "--calls", "3", script, script], capture_output=True, text=True, timeout=SECONDS, check=False
        )
        self.assertEqual((done.returncode, done.stderr), (0, ""))
        self.assertIn(done.stdout, (NOT_LOADED * 3 + FULL, NOT_LOADED + FULL + NOT_LOADED * 2))

    def test_the_tape_has_the_calls_of_all_where_the_first_script_made_none(self):
        """A script that is empty makes no call, and so does one that is not there."""
        script, empty = self.write("counts.jsonl", COUNT * 2), self.write("empty.jsonl", "")
        tape = self.folder / "run.tape"
        for first, status in ((empty, 0), (self.folder / "none.jsonl", 1)):
            with self.subTest(first=first):
                words = [PROGRAM, "--tape", tape, first, script, script]
                done = subprocess.run(words, capture_output=True, text=True, timeout=SECONDS, check=False)
                self.assertEqual((done.returncode, done.stdout), (status, NOT_LOADED * 4))
                calls = [json.loads(line) for line in tape.read_text().splitlines()[1:]]
                self.assertEqual(sorted(call["session"] for call in calls), [1, 1, 2, 2])
                tape.unlink()

    def test_a_silent_script_holds_up_no_other(self):
        for first in (0, 1):
            with self.subTest(first=first):
                self.serve_one_after_the_other(first)

    def serve_one_after_the_other(self, first):
        """Two pipes as scripts: the one is written, more than a pipe holds, while the other is open and silent."""
        pipes = [self.folder / f"{first}.{name}" for name in ("one", "two")]
        for pipe in pipes:
            os.mkfifo(pipe)
        program = subprocess.Popen([PROGRAM, *pipes], stdout=subprocess.PIPE, stderr=subprocess.PIPE, text=True)
        self.addCleanup(program.communicate)

        def stop():
            program.kill()
            for pipe in pipes:
                os.close(os.open(pipe, os.O_RDONLY | os.O_NONBLOCK))

        # Where the program waits for the silent one, the writer waits too, until this ends both.
        watch = threading.Timer(SECONDS, stop)
        watch.start()
        self.addCleanup(watch.cancel)
        # The program opens them in the order of the words, and each opening waits for the other side: the
        # writers wait side by side.
        with ThreadPoolExecutor(len(pipes)) as pool:
            ends = list(pool.map(lambda pipe: open(pipe, "w"), pipes))
        for end in (ends[first], ends[1 - first]):
            end.write("\n" * 200_000 + COUNT)
            end.close()
        replies, error = program.communicate(timeout=SECONDS)
        self.assertEqual((program.returncode, replies, error), (0, NOT_LOADED * 2, ""))
