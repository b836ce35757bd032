"""A cluster of dask.distributed on this machine, for tests."""
import os
import signal
import socket
import subprocess
import time
from pathlib import Path

from support import Case, needs_package

# The tools go by Debian's Python, for which Debian's packages are.
DEBIAN = "/usr/bin/python3"


def has_distributed():
    words = [DEBIAN, "-c", "import distributed"]
    return Path(DEBIAN).exists() and subprocess.run(words, capture_output=True, check=False).returncode == 0


needs_distributed = needs_package("python3-distributed", has_distributed())


def free_port():
    with socket.socket() as one:
        one.bind(("127.0.0.1", 0))
        return one.getsockname()[1]


class ClusterCase(Case):
    """A real scheduler and two real workers on this machine."""

    def start(self, *words):
        place = self.folder / "dask"
        place.mkdir(exist_ok=True)
        with open(place / f"{words[0]}-{time.time_ns()}.log", "w", encoding="utf-8") as log:
            process = subprocess.Popen(
                [DEBIAN, "-m", "distributed.cli." + words[0], *words[1:]], cwd=place, stdout=log, stderr=log
            )
        self.addCleanup(process.wait)
        self.addCleanup(process.kill)
        return process

    def cluster(self):
        port = free_port()
        self.start("dask_scheduler", "--host", "127.0.0.1", "--port", str(port), "--no-dashboard")
        words = ["--host", "127.0.0.1", "--nthreads", "1", "--no-nanny", "--no-dashboard"]
        workers = [
            self.start(
                "dask_worker", f"tcp://127.0.0.1:{port}", *words, "--local-directory", str(self.folder / f"w{at}")
            )
            for at in (1, 2)
        ]
        self.wait_for(port)
        return port, workers

    def wait_for(self, port):
        script = (
            f"from distributed import Client; Client('127.0.0.1:{port}', timeout=100).wait_for_workers(2, timeout=100)"
        )
        subprocess.run([DEBIAN, "-c", script], check=True, capture_output=True, timeout=200)

    def kill_worker_during(self, workers, words):
        """Runs a tool, during which the first worker that has run something is killed, by its number."""
        begins = [(worker, self.time_of_runs(worker.pid)) for worker in workers]
        with subprocess.Popen(list(map(str, words)), stdout=subprocess.PIPE, stderr=subprocess.PIPE, text=True) as tool:
            ran, ended = [], None
            while not ran and ended is None:
                time.sleep(0.005)
                ended = tool.poll()
                ran = [worker for worker, begin in begins if self.time_of_runs(worker.pid) > begin]
            for worker in ran[:1]:
                os.kill(worker.pid, signal.SIGKILL)
            try:
                told = tool.communicate(timeout=300)
            except subprocess.TimeoutExpired:
                tool.kill()
                raise
        self.assertIsNone(ended, "the tool ended before its worker was killed")
        self.assertEqual(tool.returncode, 0, told[1])

    def time_of_runs(self, pid):
        """Processor seconds of the programs that a process has run."""
        fields = Path(f"/proc/{pid}/stat").read_text().rpartition(")")[2].split()
        return sum(map(int, fields[13:15])) / os.sysconf("SC_CLK_TCK")
