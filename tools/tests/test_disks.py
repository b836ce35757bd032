"""A session that is kept, by its calls of the system: what is synced before a reply goes out, and each call failing in
turn, on a disk that forgets what was not synced."""
import os
import unittest
from concurrent.futures import ThreadPoolExecutor

from disks import Disk, Fault, File, Noting
from preloaded import why_not
from support import PROGRAM, Case, needs_simulator
from test_kept import random_lines
from trials import COUNT, ERRORS, LOST, NAME, RECORD, Contradicted, LinkedTrial, Session, Trial, record_of, text_of

WORKERS = (1, 4)
TORN = b'{"cmd":"torn'
LASTING = ("fsync", "fdatasync", "rename", "ftruncate")


@needs_simulator
@unittest.skipIf(why_not(), why_not())
class NotingCase(Case):
    """A test that looks at the calls of the program."""

    def setUp(self):
        super().setUp()
        self.noting = Noting(self.folder)

    def place(self, name, text=None):
        """A new folder, and in it the file with this text, if there is one."""
        folder = self.folder.resolve() / name
        folder.mkdir()
        if text is not None:
            (folder / NAME).write_bytes(text)
        return folder


def what_is_made(disk, call):
    """What a call writes, or that it syncs the log; none of another call."""
    file = disk.open.get(call.file)
    known = {RECORD: "record", NAME: "log"}
    name = next((known[name] for name in known if disk.names.get(disk.place(name.encode())) is file), None)
    if call.name == "write":
        return "replies" if call.file == 1 else name if isinstance(file, File) else None
    return "sync" if (call.name, name) == ("fdatasync", "log") and isinstance(file, File) else None


def reads_of(calls, disk):
    """Behind each read of standard input: its bytes, what is then made, each kind once where it comes in a row, what is
    written of each kind, and the names of calls that have something outlive the machine."""
    groups = []
    for call in calls:
        disk.do(call)
        if (call.name, call.file) == ("read", 0):
            groups.append((call.answer, [], {}, []))
        elif groups and (kind := what_is_made(disk, call)):
            _size, kinds, written, _lasting = groups[-1]
            kinds += [kind] * (kinds[-1:] != [kind])
            written[kind] = written.get(kind, b"") + b"".join(call.words[:1])
        if groups and call.name in LASTING:
            groups[-1][3].append(call.name)
    return groups


class Order(NotingCase):
    """Sessions of several reads, of which some have questions alone: what is made behind each read, byte by byte."""

    def setUp(self):
        super().setUp()
        lines = [*random_lines(seed=3, count=160), *[COUNT] * 900, *random_lines(seed=4, count=30)[1:]]
        self.session = Session(lines, record_of(lines, self.folder))

    def wanted(self, first, last, words):
        """What is to be made for the lines from one place to another, and what is to be written."""
        one, written = self.session, {}
        if "--record" in words and one.ends[last] > one.ends[first]:
            written["record"] = one.record[one.ends[first] : one.ends[last]]
        if changed := [one.lines[at] for at in one.places if first <= at < last]:
            written["log"] = text_of(changed)
            if "--unsynced" not in words:
                written["sync"] = b""
        if last > first:
            written["replies"] = text_of(one.replies[first:last])
        return written

    def check_order(self, *words):
        """Each read is followed by the record of its lines, what is kept of them, a sync of that, and their replies."""
        folder, text = self.place("-".join(words)), text_of(self.session.lines)
        run = self.noting.run([PROGRAM, "--keep", NAME, *words], text, folder)
        end = first = reads = 0
        seen = set()
        for size, kinds, written, lasting in reads_of(run.calls, Disk(folder)):
            end, reads = end + size, reads + 1
            last = text[:end].count(b"\n")
            wanted = self.wanted(first, last, words)
            self.assertEqual((kinds, written), (list(wanted), wanted))
            self.assertEqual(lasting, ["fdatasync"] * ("sync" in wanted))
            seen.add(tuple(kinds))
            first = last
        self.assertEqual((run.status, last), (0, len(self.session.lines)))
        self.assertEqual(len(seen), 3, "reads that change, reads that ask, and the end")
        self.assertLessEqual(reads, len(text) // 2_048, "a read takes what is there, up to 4,096 bytes")

    def test_each_reply_follows_a_sync(self):
        for workers in WORKERS:
            self.check_order("--workers", str(workers))
            self.check_order("--workers", str(workers), "--record", RECORD)
        self.check_order("--endless")

    def test_nothing_is_synced_where_it_is_not_asked_for(self):
        for workers in WORKERS:
            self.check_order("--workers", str(workers), "--unsynced")
            self.check_order("--workers", str(workers), "--unsynced", "--record", RECORD)


class Begin(NotingCase):
    """What has the file outlive the machine before the first read."""

    def begin_of(self, words, folder):
        """The calls before the first read that have something outlive the machine, with the names of their files."""
        names, found = {}, []
        for call in self.noting.run([PROGRAM, *words], b"", folder).calls:
            if (call.name, call.file) == ("read", 0):
                break
            if call.name == "open":
                names[call.answer] = os.path.normpath(folder / call.words[0].decode())
            elif call.name == "rename":
                found.append((call.name, *(os.path.normpath(folder / name.decode()) for name in call.words)))
            elif call.name in LASTING:
                found.append((call.name, names[call.file]))
        return found

    def anew(self, folder):
        """A new file is synced and gets the name, and then its folder is synced."""
        new, file = f"{folder}/{NAME}.new", f"{folder}/{NAME}"
        return [("fsync", new), ("rename", new, file), ("fsync", str(folder))]

    def test_the_name_stays_before_the_first_read(self):
        for workers in WORKERS:
            for more in ([], ["--record", RECORD], ["--endless"]):
                folder = self.place(f"{workers}{more}")
                words = ["--keep", NAME, "--workers", str(workers), *more]
                self.assertEqual(self.begin_of(words, folder), self.anew(folder))
                self.assertEqual(self.begin_of(words, folder), self.anew(folder))

    def test_what_is_cut_off_stays_before_the_file_is_written_anew(self):
        for workers in WORKERS:
            folder = self.place(str(workers), TORN)
            begin = self.begin_of(["--keep", NAME, "--workers", str(workers)], folder)
            self.assertEqual(begin[:2], [("fsync", f"{folder}/{LOST}"), ("fsync", str(folder))])
            self.assertEqual(begin[2:], self.anew(folder))

    def test_the_folder_is_that_of_the_file_and_not_of_a_link(self):
        folder, other = self.place("file", b""), self.place("link")
        (other / "link").symlink_to(folder / NAME)
        self.assertEqual(self.begin_of(["--keep", "link"], other), self.anew(folder))

    def test_nothing_is_synced_where_it_is_not_asked_for(self):
        for workers in WORKERS:
            folder = self.place(str(workers), TORN)
            begin = self.begin_of(["--keep", NAME, "--unsynced", "--workers", str(workers)], folder)
            self.assertEqual(begin, [("ftruncate", f"{folder}/{NAME}")])


class Faults(NotingCase):
    """Each call fails in turn, or moves half its bytes; then a second program goes on, and a third on what a crash
    would leave."""

    def setUp(self):
        super().setUp()
        self.session = Session(random_lines(seed=6, count=150))

    def check_run(self, kind, words, text, fault):
        """A run of which calls fail so, and what goes on behind it."""
        place = self.folder / f"run-{fault.number}-{fault.error}"
        trial = kind(self.session, self.noting, words, place, text)
        try:
            trial.go_on(fault)
            trial.check_crashes()
            # The next program goes on from the file as the system shows it; what it then answers is on the disk.
            trial.go_on()
            trial.check_crashes()
        except Contradicted as why:
            why.add_note(f"{fault}, with {words}")
            raise

    def fail_each(self, words, text, kind=Trial, many=1):
        """Runs of which each call fails in turn, in each way, and so many from it on. How many."""
        calls = kind(self.session, self.noting, words, self.folder / "calls", text).go_on()
        count = sum(call.name != "close" for call in calls)
        self.assertGreater(count, 15)
        with ThreadPoolExecutor(len(os.sched_getaffinity(0))) as pool:
            faults = [Fault(number, error, many) for number in range(1, count + 1) for error in ERRORS]
            runs = [pool.submit(self.check_run, kind, words, text, fault) for fault in faults]
            return len([run.result() for run in runs])

    def test_each_call_fails_from_an_empty_folder(self):
        for workers in WORKERS:
            self.assertGreater(self.fail_each(["--workers", str(workers)], None), 60)

    def test_each_call_fails_behind_a_torn_file(self):
        for workers in WORKERS:
            self.assertGreater(self.fail_each(["--workers", str(workers)], self.session.begin(40, TORN)), 60)

    def test_each_call_and_the_next_three_fail(self):
        """Those too by which a failed sync is withdrawn."""
        self.assertGreater(self.fail_each([], self.session.begin(40, TORN), many=4), 60)

    def test_each_call_fails_where_the_file_has_two_names(self):
        """So it is cut off, and not written anew."""
        self.assertGreater(self.fail_each([], self.session.begin(40, TORN), LinkedTrial), 60)


if __name__ == "__main__":
    unittest.main()
