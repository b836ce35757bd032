"""How the commands begin: what Ctrl-C and SIGTERM do while Python still reads their modules, and where a library takes
their exceptions for its own."""
import os
import signal
import subprocess
import sys
import time
import unittest
from contextlib import redirect_stderr
from io import StringIO
from pathlib import Path
from unittest.mock import patch

from support import TOOLS, Case
from test_install import COMMANDS

from streetsim.base.files import RECEIVED_SIGNALS, end_again, end_by_signal, status_of, tell_dropped, whole_file

# In the place of a module that all commands read: it says that it is read, and waits.
SLOW = """import time
print("reading", flush=True)
time.sleep(WAIT)
"""


class Starting(Case):
    def begun(self, name, wait, **more):
        """A command that is reading its modules."""
        self.write("gzip.py", SLOW.replace("WAIT", str(wait)))
        variables = {**os.environ, "PYTHONPATH": str(self.folder), "PYTHONDONTWRITEBYTECODE": "1"}
        command = subprocess.Popen(
            [TOOLS / f"streetsim-{name}"],
            env=variables, stdout=subprocess.PIPE, stderr=subprocess.PIPE, text=True, **more,
        )
        self.addCleanup(command.kill)
        self.assertEqual(command.stdout.readline(), "reading\n")
        return command

    def test_a_signal_ends_each_command_with_one_line(self):
        for name in COMMANDS:
            for number, called in ((signal.SIGINT, "Ctrl-C"), (signal.SIGTERM, "SIGTERM")):
                with self.subTest(name, signal=called):
                    command = self.begun(name, 600, preexec_fn=lambda: signal.signal(signal.SIGINT, signal.SIG_DFL))
                    command.send_signal(number)
                    told = f"streetsim-{name}: ended by {called}: nothing was written\n"
                    self.assertEqual((*command.communicate(timeout=60), command.returncode), ("", told, 128 + number))

    def test_a_signal_before_any_module_of_the_tools_is_read_ends_each_with_one_line(self):
        """While Python reads what the site has for all programs."""
        self.write("sitecustomize.py", SLOW.replace("WAIT", "0.5"))
        variables = {**os.environ, "PYTHONPATH": str(self.folder), "PYTHONDONTWRITEBYTECODE": "1"}
        pipes = {"stdout": subprocess.PIPE, "stderr": subprocess.PIPE, "text": True}
        heard = {"preexec_fn": lambda: signal.signal(signal.SIGINT, signal.SIG_DFL)}
        for name in COMMANDS:
            begun = [TOOLS / f"streetsim-{name}"]
            with self.subTest(name), subprocess.Popen(begun, env=variables, **pipes, **heard) as command:
                self.assertEqual(command.stdout.readline(), "reading\n")
                command.send_signal(signal.SIGINT)
                told = f"streetsim-{name}: ended by Ctrl-C: nothing was written\n"
                self.assertEqual((*command.communicate(timeout=60), command.returncode), ("", told, 130))

    def test_a_command_in_the_background_hears_none(self):
        command = self.begun("compare", 0.5, preexec_fn=lambda: signal.signal(signal.SIGINT, signal.SIG_IGN))
        command.send_signal(signal.SIGINT)
        said = command.communicate(timeout=60)[1]
        self.assertEqual(command.returncode, 2, said)
        self.assertIn("streetsim-compare: the following arguments are required", said)

    def test_what_nohup_began_hears_no_hangup(self):
        command = self.begun("compare", 0.5, preexec_fn=lambda: signal.signal(signal.SIGHUP, signal.SIG_IGN))
        command.send_signal(signal.SIGHUP)
        command.communicate(timeout=60)
        self.assertEqual(command.returncode, 2)


class Asked(Case):
    def test_a_fault_that_a_signal_brought_about_is_told_as_its_end(self):
        """As matplotlib has it, which takes what is raised in it for a wrong setting."""

        def main(_):
            try:
                signal.raise_signal(signal.SIGINT)
            except BaseException:
                raise ValueError("wrong setting") from None

        before = signal.signal(signal.SIGINT, end_by_signal)
        self.addCleanup(signal.signal, signal.SIGINT, before)
        self.addCleanup(RECEIVED_SIGNALS.clear)
        kept = patch("streetsim.base.files.KEPT_NOTES", [])  # of tests before, in this process
        kept.start()
        self.addCleanup(kept.stop)
        with redirect_stderr(StringIO()) as said:
            self.assertEqual(status_of(main), 130)
        self.assertIn(": ended by Ctrl-C: nothing was written\n", said.getvalue())
        for number, name in ((signal.SIGTERM, "SIGTERM"), (signal.SIGHUP, "SIGHUP")):
            RECEIVED_SIGNALS[:] = [number]
            with redirect_stderr(StringIO()) as said:
                self.assertEqual(status_of(lambda _: int("wrong")), 128 + number)
            self.assertIn(f": ended by {name}: nothing was written\n", said.getvalue())
        RECEIVED_SIGNALS.clear()
        with self.assertRaisesRegex(ValueError, "wrong"):
            status_of(lambda _: int("wrong"))

    def test_what_is_kept_is_told(self):
        """A file that has taken its name is, one that is gone again is not."""
        def main(_):
            for name in ("there", "gone"):
                with whole_file(f"{self.folder}/{name}") as file:
                    file.write(name)
            Path(self.folder, "gone").unlink()
            signal.raise_signal(signal.SIGINT)

        self.addCleanup(signal.signal, signal.SIGINT, signal.signal(signal.SIGINT, end_by_signal))
        self.addCleanup(RECEIVED_SIGNALS.clear)
        with redirect_stderr(StringIO()) as said, patch("streetsim.base.files.KEPT_NOTES", []):
            self.assertEqual(status_of(main), 130)
        self.assertEqual(said.getvalue().partition(": ")[2], f"ended by Ctrl-C: kept: {self.folder}/there\n")

    def test_an_end_that_got_lost_comes_again(self):
        """As where Python forgets a module's lock, and drops what is raised meanwhile, of which nothing is said. What
        cleans up after the signal is left alone, however long it takes."""
        for number, status, name in ((signal.SIGTERM, 143, "SIGTERM"), (signal.SIGINT, 130, "Ctrl-C")):
            with self.subTest(name):
                ended = []

                class Lost:
                    def __del__(self):
                        signal.raise_signal(number)

                def main(_):
                    Lost()
                    try:
                        time.sleep(60)
                    finally:
                        time.sleep(0.7)
                        ended.append("cleaned up")

                for one, how in ((number, end_by_signal), (signal.SIGALRM, end_again)):
                    self.addCleanup(signal.signal, one, signal.signal(one, how))
                self.addCleanup(RECEIVED_SIGNALS.clear)
                begin = time.monotonic()
                with redirect_stderr(StringIO()) as said, patch.object(sys, "unraisablehook", tell_dropped):
                    try:
                        left = status_of(main)
                    except SystemExit as raised:
                        left = raised.code
                self.assertEqual((left, ended), (status, ["cleaned up"]))
                self.assertLess(time.monotonic() - begin, 10)
                self.assertEqual(said.getvalue().partition(": ")[2], f"ended by {name}: nothing was written\n")
                RECEIVED_SIGNALS.clear()

    def test_what_else_is_dropped_is_told(self):
        class Wrong:
            def __del__(self):
                raise ValueError("wrong setting")

        with redirect_stderr(StringIO()) as said, patch.object(sys, "unraisablehook", tell_dropped):
            Wrong()
        self.assertIn("ValueError: wrong setting", said.getvalue())


if __name__ == "__main__":
    unittest.main()
