"""Each request for memory of the proved program street_memory is refused in turn: it alone, and with all after it.

The program judges its answers itself. What it writes is the same whichever one request is refused.
"""
import unittest

from preloaded import why_not
from refusing import NEVER, RefusingCase
from support import TOOLS

TOP = TOOLS.parent
CRATE = TOP / "crates/street_memory"
PROGRAM = CRATE / "out/street_memory"
REASON = why_not() if PROGRAM.exists() else f"there is no {PROGRAM.relative_to(TOP)}: build it by ./test"


@unittest.skipIf(REASON, REASON or "")
class RefusedMemory(RefusingCase):
    def refusing(self, first, last):
        return self.run_refusing([PROGRAM], first, last)

    def check(self, run, status, output):
        """It ends so, and what it was given is freed."""
        told = (
            f"request {run.number} of {run.requests}: status {run.status}, {run.unfreed} blocks not freed\n"
            f"{run.output.decode()}"
        )
        self.assertEqual((run.status, run.unfreed), (status, 0), told)
        self.assertEqual(run.output, output, told)

    def test_each_request_alone_and_with_all_after_it(self):
        wanted = (CRATE / "stdout").read_bytes()
        ample = self.refusing(NEVER, NEVER)
        self.check(ample, 0, wanted)
        self.assertGreater(ample.requests, 0, "the library was not loaded before the program")
        # What was refused is asked for once more, so a run may make more requests than with ample memory.
        alone = self.refuse_each(lambda n: self.refusing(n, n), lambda run: self.check(run, 0, wanted))
        after = self.refuse_each(lambda n: self.refusing(n, NEVER), lambda run: self.check(run, 0, run.output))
        self.assertGreaterEqual(alone, ample.requests)
        self.assertGreaterEqual(after, ample.requests)


if __name__ == "__main__":
    unittest.main()
