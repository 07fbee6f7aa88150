"""The program on a bucket in a file: what comes back, what is told of the file, and what is left where the process is killed or the
device fails."""
import base64, errno, json, os, random, resource, signal, subprocess, tempfile, threading, unittest
from typing import IO, Any, Callable

from tests import journal, journal_files
from tests.files import failing
from tests.program import RunsTest, begun, path

# How many processes are killed at the most, and for how many seconds.
KILLS = int(os.environ.get("KILLS", 500))

WRITES = "put app.port ODA=\ncreate app.host a3Y=\nupdate app.port 1 ODE=\ndelete app.host\nput empty -\npurge app.port\nput app.port ODI=\n"
BATCHES = "batch 3\nput a MQ==\ndelete a\nput app.port -\nbatch 1\ncreate b Yg==\nbatch 2\nput c Yw==\nbad\n"
READS = "keys >\nstatus\nhistory app.port\nhistory app.host\nhistory empty\nhistory a\nhistory b\nget app.port 3\nplace app.port\n"
FAULT = "kvbucket: FileFault\n"
# So many bytes a file begins with before its records.
BEGINNING = 64
# When records are brought onto the disk.
SYNCS = ("each", "1", "3", "1000", "close")


def word(value: bytes) -> str:
    return base64.b64encode(value).decode()


def numbered(first: int, count: int) -> str:
    """So many puts, each of a key and a value of its own, by its revision."""
    return "".join("put k%d %s\n" % (i, word(b"value %d" % i)) for i in range(first, first + count))


def small_files(size: int) -> Callable[[], None]:
    """For a process whose files have at most so many bytes, and that is told so by a refused write."""
    def limit() -> None:
        signal.signal(signal.SIGXFSZ, signal.SIG_IGN)
        resource.setrlimit(resource.RLIMIT_FSIZE, (size, size))
    return limit


def feed(to: IO[bytes], first: int) -> None:
    """Writes puts and batches of two, each put of the revision that it gets, until nobody reads them."""
    try:
        for revision in range(first, first + 300_000, 5):
            to.write((numbered(revision, 3) + "batch 2\n" + numbered(revision + 3, 2)).encode())
            to.flush()
        to.close()
    except BrokenPipeError:
        pass


def revisions(answers: str) -> list[int]:
    """The revisions of the writes that were answered, of batches too."""
    told = []
    for line in answers.splitlines():
        answer = json.loads(line)
        told += answer.get("revisions", [answer["revision"]] if "revision" in answer else [])
    return told


class ProgramJournal(RunsTest):
    def setUp(self) -> None:
        folder = tempfile.TemporaryDirectory()
        self.addCleanup(folder.cleanup)
        self.folder = folder.name
        self.file = os.path.join(self.folder, "settings.kv")

    def run_on(self, script: str, *arguments: str, wanted: int = 0, faults: str = "", **given: Any) -> str:
        """Runs a script on the file, and gives its answers."""
        done: subprocess.CompletedProcess[bytes] = subprocess.run([path, "--journal", self.file, *arguments], input=script.encode(), capture_output=True, timeout=120, **given)
        self.assertEqual((done.returncode, done.stderr.decode()), (wanted, faults), done.stdout[-200:])
        return done.stdout.decode()

    def in_memory(self, script: str, *arguments: str) -> str:
        done = subprocess.run([path, *arguments], input=script.encode(), capture_output=True, timeout=120)
        self.assertEqual((done.returncode, done.stderr), (0, b""))
        return done.stdout.decode()

    def dumped(self, *arguments: str, faults: str = "") -> str:
        done = subprocess.run([path, "--dump", self.file, *arguments], stdin=subprocess.DEVNULL, capture_output=True, timeout=120)
        self.assertEqual((done.returncode, done.stderr.decode()), (0, faults))
        return done.stdout.decode()

    def data(self) -> bytes:
        with open(self.file, "rb") as file:
            return file.read()

    def put_data(self, data: bytes) -> None:
        with open(self.file, "wb") as file:
            file.write(data)

    def away(self) -> None:
        if os.path.exists(self.file):
            os.unlink(self.file)

    def kept(self) -> list[Any]:
        """What the file tells, by a reader of its own."""
        return [entry[1:] for entry in journal.read(self.data()).entries]


class Kept(ProgramJournal):
    def test_answers_are_those_of_a_bucket_in_memory(self) -> None:
        script = WRITES + BATCHES + READS + "watch >\ntake 1 9\ncompact 3\nseal\nput a MQ==\nbatch 1\nput a -\nstop 1\nstatus\nbatch 4\nput a -\n"
        self.assertEqual(self.run_on(script), self.in_memory(script))
        self.away()
        script = "put a one two\nget a\ncreate b x\nupdate b 2 \nhistory b\n"
        self.assertEqual(self.run_on(script, "--text"), self.in_memory(script, "--text"))

    def test_a_bucket_comes_back(self) -> None:
        whole = self.in_memory(WRITES + "compact 2\n" + WRITES + BATCHES + "seal\n" + READS, "--history", "3").splitlines()
        answers = []
        for script in (WRITES, "compact 2\n" + WRITES, BATCHES, "seal\n", READS):
            answers += self.run_on(script, "--history", "3").splitlines()
        self.assertEqual(answers, whole)

    def test_each_form_of_sync_keeps_all(self) -> None:
        for when in SYNCS:
            with self.subTest(when):
                self.away()
                self.run_on(WRITES + BATCHES, "--sync", when)
                self.assertEqual(self.run_on(READS), self.in_memory(WRITES + BATCHES + READS)[len(self.in_memory(WRITES + BATCHES)):])

    def test_records_are_those_of_the_page(self) -> None:
        self.run_on("put a MQ==\ncreate b -\ndelete a 1\npurge b\nbatch 2\nput c Yw==\npurge c\ncompact 3\nseal\n")
        self.assertEqual(self.kept(), [("put", "a", b"1"), ("put", "b", b""), ("delete", "a", b""), ("purge", "b", b""),
                                       ("batch", [("put", "c", b"c"), ("purge", "c", b"")]), ("compact", 3), ("seal",), ("closed", 6)])

    def test_what_is_refused_is_not_kept(self) -> None:
        self.run_on("create a MQ==\ncreate a Mg==\nupdate a 7 Mg==\ncompact 9\nput .a MQ==\nbad\nget a\nbatch 2\nput b -\ncreate a -\nbatch 1\n")
        self.assertEqual(self.kept(), [("put", "a", b"1"), ("closed", 1)])

    def test_an_answer_comes_behind_its_record(self) -> None:
        with begun("--journal", self.file) as run:
            for revision in range(1, 20):
                run.stdin.write(numbered(revision, 1).encode())
                run.stdin.flush()
                self.assertEqual(run.stdout.readline(), b'{"revision":%d}\n' % revision)
                self.assertEqual(self.kept(), [("put", "k%d" % i, b"value %d" % i) for i in range(1, revision + 1)])


    def test_what_takes_the_place_of_a_file_has_its_permissions(self) -> None:
        self.put_data(b"")
        os.chmod(self.file, 0o600)
        for script in ("put a MQ==\n", "put a Mg==\n" * 40 + "compact 41\n"):
            number = os.stat(self.file).st_ino
            self.run_on(script)
            found = os.stat(self.file)
            self.assertNotEqual(found.st_ino, number)
            self.assertEqual(found.st_mode & 0o777, 0o600)

    def test_a_link_stays_a_link(self) -> None:
        link = self.file + ".link"
        os.symlink(os.path.basename(self.file), link)
        for script in ("put a MQ==\n", "put a Mg==\n" * 40 + "compact 41\n"):
            # the file is made, and then replaced by a checkpoint
            done = subprocess.run([path, "--journal", link], input=script.encode(), capture_output=True, timeout=120)
            self.assertEqual((done.returncode, done.stderr), (0, b""))
            self.assertTrue(os.path.islink(link) and not os.path.islink(self.file))
        self.assertEqual(self.kept()[-1], ("closed", 41))


class Told(ProgramJournal):
    def test_a_torn_end_is_cut_off_and_told(self) -> None:
        self.run_on(WRITES)
        whole = self.data()
        for torn in (bytes(17), b"\0\0\0\x09noise", os.urandom(3)):
            with self.subTest(torn):
                self.put_data(whole + torn)
                self.run_on("", faults="kvbucket: dropped %d bytes at the end of %s\n" % (len(torn), self.file))
                self.assertTrue(self.data().startswith(whole))
        last = len(whole) - 21
        self.put_data(whole[:-1])
        self.run_on("status\n", faults="kvbucket: dropped %d bytes at the end of %s\n" % (len(whole) - 1 - last, self.file))
        self.assertEqual(len(journal.read(self.data()).entries), len(journal.read(whole).entries))

    def test_a_file_of_another_bucket_is_refused(self) -> None:
        self.run_on(WRITES)
        before = self.data()
        for arguments in (("--bucket", "other"), ("--history", "2"), ("--value-limit", "9"), ("--write-limit", "9"), ("--revision-limit", "9")):
            with self.subTest(arguments):
                self.assertEqual(self.run_on(WRITES, *arguments, wanted=1, faults="kvbucket: OtherBucket\n"), "")
                self.assertEqual(self.data(), before)

    def test_a_damaged_file_is_refused_with_the_place(self) -> None:
        self.run_on(WRITES)
        whole = self.data()
        place = len(whole) // 2
        good = journal.read(whole[:place]).end
        for data, at in ((whole[:place] + bytes([whole[place] ^ 1]) + whole[place + 1:], good), (b"no journal", 0), (whole[1:], 0)):
            with self.subTest(data[:9]):
                self.put_data(data)
                self.assertEqual(self.run_on(WRITES, wanted=1, faults="kvbucket: FileDamaged at byte %d\n" % at), "")
                self.assertEqual(self.data(), data)

    def test_a_file_that_another_process_holds_is_busy(self) -> None:
        with begun("--journal", self.file) as first:
            first.stdin.write(b"put a MQ==\n")
            first.stdin.flush()
            self.assertEqual(first.stdout.readline(), b'{"revision":1}\n')
            self.assertEqual(self.run_on("put b Mg==\n", wanted=1, faults="kvbucket: FileBusy\n"), "")
            # a dump takes no lock
            self.assertEqual(self.dumped(), "put a MQ==\n")
            first.stdin.close()
            self.assertEqual(first.wait(120), 0)
        self.assertEqual(self.run_on("put b Mg==\n"), '{"revision":2}\n')

    def test_a_file_that_cannot_be_had_is_a_fault(self) -> None:
        for name in (self.folder, os.path.join(self.folder, "none", "at.kv"), "/dev/full", ""):
            self.check(name, ["--journal", name], 1, faults=FAULT)

    def test_options_that_clash_are_faults_in_the_arguments(self) -> None:
        for arguments in (["--journal", self.file, "--race", "2"], ["--dump", self.file, "--race", "2"], ["--journal", self.file, "--dump", self.file],
                          ["--sync", "each"], ["--sync", "3", "--dump", self.file], ["--journal", self.file, "--sync", "0"], ["--dump", self.file, "--text"],
                          ["--journal", self.file, "--sync", "never"], ["--journal", self.file, "--sync", ""], ["--journal"]):
            self.check(" ".join(arguments), arguments, 2, faults="error: ", exact=False)
        for option in ("--journal", "--dump"):
            self.check("limits of " + option, [option, self.file, "--history", "65"], 2, faults="kvbucket: BadConfig\n", input=b"put a -\n")
        self.assertFalse(os.path.exists(self.file))

    def test_the_first_clash_is_told_before_anything_is_read(self) -> None:
        for arguments, clash in ((["--journal", self.file, "--race", "2"], "--race can't be used with --journal or --dump"),
                                 (["--dump", self.file, "--race", "2", "--text"], "--race can't be used with --journal or --dump"),
                                 (["--dump", self.file, "--text"], "--dump can't be used with --text"),
                                 (["--journal", self.file, "--dump", self.file], "--journal can't be used with --dump"),
                                 (["--sync", "each"], "--sync needs --journal"),
                                 (["--journal", self.file, "--sync", "0"], "--sync takes each, close or a number from 1")):
            self.check(" ".join(arguments), arguments, 2, faults="error: %s\n\nFor more information, try '--help'.\n" % clash, input=b"put a -\n")
        self.assertFalse(os.path.exists(self.file))

    def test_an_output_that_fails_is_told_behind_the_torn_end(self) -> None:
        self.run_on("put a MQ==\n")
        self.put_data(self.data() + bytes(5))
        torn = "kvbucket: dropped 5 bytes at the end of %s\n" % self.file
        with open("/dev/full", "wb") as full:
            self.check("a run", ["--journal", self.file], 1, faults=torn + "kvbucket: WriteFault\n", standard_output=full, input=b"put b Mg==\n")
            self.check("a dump", ["--dump", self.file], 1, faults="kvbucket: WriteFault\n", standard_output=full)
        # the write was made before its answer could not be written
        self.assertEqual(self.kept(), [("put", "a", b"1"), ("closed", 1), ("put", "b", b"2"), ("closed", 2)])


class Failing(ProgramJournal):
    def setUp(self) -> None:
        super().setUp()
        room = tempfile.TemporaryDirectory()
        self.addCleanup(room.cleanup)
        self.library = failing.library(room.name)

    def fails_each(self, arguments: list[str], script: str, prepare: Callable[[], object], told: str = "", may_go_on: bool = False) -> str:
        """Runs the script with each of its calls of the file failing in turn: what was answered has to be there in the end, and the
        whole is what a beginning of the script leads to. It gives the calls of a run in which none fails, and which is told so of the file."""
        states = [self.in_memory("".join(script.splitlines(keepends=True)[:lines]) + READS).splitlines()[-9:] for lines in range(len(script.splitlines()) + 1)]
        prepare()
        whole = failing.ran(self.library, self.folder, ["--journal", self.file, *arguments], script.encode(), 0, 0, False)
        self.assertEqual((whole.returncode, whole.stderr.decode()), (0, told))
        calls = failing.calls(self.library)
        for at in range(1, len(calls) + 1):
            for how in (errno.EIO, errno.ENOSPC, -errno.ENOSPC):
                for once in (False, True):
                    with self.subTest(call=calls[at - 1], at=at, how=how, once=once):
                        prepare()
                        done = failing.ran(self.library, self.folder, ["--journal", self.file, *arguments], script.encode(), at, how, once)
                        if may_go_on and done.returncode == 0:
                            # a checkpoint has failed, and the old file has all
                            self.assertEqual((done.stdout, done.stderr), (whole.stdout, told.encode()))
                        else:
                            self.assertEqual(done.returncode, 1)
                            self.assertIn(done.stderr.decode(), (FAULT, told + FAULT))
                        self.assertTrue(whole.stdout.startswith(done.stdout))
                        self.assertTrue(done.stdout == b"" or done.stdout.endswith(b"\n"))
                        answered = len(done.stdout.splitlines())
                        # a file that is made has nothing, or all that it begins with
                        self.assertFalse(os.path.exists(self.file) and 0 < len(self.data()) < BEGINNING)
                        again = subprocess.run([path, "--journal", self.file, *arguments], input=READS.encode(), capture_output=True, timeout=120)
                        self.assertEqual(again.returncode, 0, again.stderr)
                        # a line more may have been done than was answered
                        self.assertIn(again.stdout.decode().splitlines(), states[answered:])
        return calls

    def test_each_call_may_fail_of_a_new_file(self) -> None:
        script = "put app.port ODA=\nput a MQ==\ncompact 1\nseal\n"
        for when in ("each", "2", "close"):
            calls = self.fails_each(["--sync", when], script, self.away)
            self.assertEqual(set("owslkrntip") - set(calls) - set("ki"), set(), calls)

    def test_each_call_may_fail_of_a_file_with_a_torn_end(self) -> None:
        self.run_on("")
        empty = self.data()[:BEGINNING] + bytes(5)
        calls = self.fails_each([], "put app.port ODA=\ndelete a\n", lambda: self.put_data(empty),
                                "kvbucket: dropped 5 bytes at the end of %s\n" % self.file)
        self.assertIn("t", calls)

    def test_a_full_disk_ends_the_run_behind_what_was_answered(self) -> None:
        for when in ("each", "4", "close"):
            with self.subTest(when):
                self.away()
                answers = self.run_on(numbered(1, 1000), "--sync", when, wanted=1, faults=FAULT, preexec_fn=small_files(4096))
                count = len(answers.splitlines())
                self.assertEqual(revisions(answers), list(range(1, count + 1)))
                self.assertTrue(20 < count < 1000)
                done = subprocess.run([path, "--journal", self.file], input=b"status\nkeys >\n", capture_output=True, timeout=120)
                status, keys = map(json.loads, done.stdout.splitlines())
                self.assertEqual((status["last"], keys["keys"]), (count, ["k%d" % i for i in range(1, count + 1)]))


class Killed(ProgramJournal):
    def test_a_killed_process_leaves_all_that_was_answered(self) -> None:
        chance = random.Random(7)
        told = last = 0
        for kills in range(KILLS):
            if kills % 10 == 0:
                self.away()
                last = 0
            answered = self.killed_after(chance.random() * 0.1, SYNCS[kills % len(SYNCS)], last + 1)
            told += len(answered)
            before, last = last, self.last()
            # all that was answered is there, and whole batches
            self.assertEqual(answered, list(range(before + 1, before + 1 + len(answered))))
            self.assertGreaterEqual(last, before + len(answered))
            self.assertNotEqual((last - before) % 5, 4)
            # and the whole is what the first lines lead to
            self.assertEqual(self.written(), [("k%d" % i, b"value %d" % i) for i in range(1, last + 1)][-1000:])
        print("%d processes killed, %d writes answered" % (KILLS, told))
        self.assertGreater(told, 0)

    def last(self) -> int:
        """The last revision; what a torn end lost is told."""
        done = subprocess.run([path, "--journal", self.file], input=b"status\n", capture_output=True, timeout=120)
        self.assertEqual(done.returncode, 0, done.stderr)
        last = json.loads(done.stdout)["last"]
        assert isinstance(last, int)
        return last

    def written(self) -> list[tuple[str, bytes]]:
        """The last writes of the file, by its dump."""
        puts = [line.split() for line in self.dumped().splitlines() if line.startswith("put ")]
        return [(key, base64.b64decode(value)) for _, key, value in puts[-1000:]]

    def killed_after(self, seconds: float, when: str, first: int) -> list[int]:
        """Writes until the process is killed, and gives the revisions that were answered."""
        process = begun("--journal", self.file, "--sync", when)
        feeder = threading.Thread(target=feed, args=(process.stdin, first))
        killer = threading.Timer(seconds, process.send_signal, [signal.SIGKILL])
        feeder.start()
        killer.start()
        answers = process.stdout.read().decode()
        process.wait()
        feeder.join()
        process.stdout.close()
        return revisions(answers[:answers.rfind("\n") + 1])


class Dumped(ProgramJournal):
    def test_a_dump_makes_the_file_anew(self) -> None:
        script = WRITES + BATCHES + "compact 3\n" + WRITES + "watch >\ntake 1 2\ncompact 4\nput app.name ////\nbatch 0\nseal\n"
        for history in ("1", "3"):
            with self.subTest(history):
                self.away()
                self.run_on(script, "--history", history)
                before, entries = self.data(), self.kept()
                dump = self.dumped("--history", history)
                self.assertEqual(self.data(), before)
                reads = self.run_on(READS, "--history", history)
                self.away()
                self.assertTrue(self.run_on(dump + READS, "--history", history).endswith(reads))
                self.assertEqual(self.kept(), entries)
                self.assertEqual(self.dumped("--history", history), dump)

    def test_a_dump_is_the_commands_of_the_records(self) -> None:
        self.run_on("create a MQ==\nupdate a 1 -\ndelete a 2\nbatch 2\ncreate b Yg==\npurge a\ncompact 1\nseal\n")
        self.assertEqual(self.dumped(), "put a MQ==\nput a -\ndelete a\nbatch 2\nput b Yg==\npurge a\ncompact 1\nseal\n")

    def test_a_dump_of_long_values_is_read_again(self) -> None:
        value = os.urandom(1_048_576)
        self.run_on("put a %s\nput b %s\n" % (word(value), word(value[:1])))
        self.assertEqual(self.in_memory(self.dumped() + "keys >\n").splitlines()[-1], '{"keys":["a","b"]}')

    def test_a_dump_tells_of_the_file(self) -> None:
        self.check("none", ["--dump", self.file], 1, faults=FAULT)
        self.assertFalse(os.path.exists(self.file))
        self.run_on(WRITES)
        self.check("other", ["--dump", self.file, "--history", "2"], 1, faults="kvbucket: OtherBucket\n")
        self.put_data(self.data() + bytes(5))
        self.dumped(faults="kvbucket: left out 5 bytes at the end of %s\n" % self.file)


class BehindACheckpoint(ProgramJournal):
    # What is stored behind these: of a, whose history is longer than what is kept, the last two puts, of b nothing, and all that
    # came behind the floor.
    SCRIPT = "put a MQ==\nput b Mg==\nput a Mw==\ndelete b\nput a NQ==\ncompact 4\ndelete c\nput d -\npurge d\n"
    STORED = [(3, "put", "a", b"3"), (5, "put", "a", b"5"), (6, "delete", "c", b""), (7, "put", "d", b""), (8, "purge", "d", b"")]
    LINES = "put a Mw==\nput a NQ==\ndelete c\nput d -\npurge d\n"

    def begin(self, sealed: bool = False) -> None:
        """Makes the file one that begins with a checkpoint of what is stored behind the script."""
        self.run_on("", "--history", "2")
        self.put_data(journal_files.checkpointed(self.data(), self.STORED, 8, 4, 4, sealed))

    def entries(self, dump: str) -> list[Any]:
        """What the keys have behind a script, but for the revisions."""
        answers = self.in_memory(dump + "history a\nhistory b\nhistory c\nhistory d\nkeys >\n", "--history", "2").splitlines()[-5:]
        told = [json.loads(answer) for answer in answers]
        return [[(entry["op"], entry.get("value")) for entry in answer["entries"]] if "entries" in answer else answer for answer in told]

    def test_a_dump_is_the_commands_of_what_is_stored(self) -> None:
        self.begin()
        before = self.data()
        self.assertEqual(self.dumped("--history", "2"), self.LINES)
        self.assertEqual(self.data(), before)
        self.assertEqual(self.entries(self.LINES), self.entries(self.SCRIPT))

    def test_the_entries_behind_it_count(self) -> None:
        self.begin()
        self.put_data(journal_files.framed(self.data(), [b"\0\0\0\0\1\1e" + b"9", b"\0\0\0\0\5" + (7).to_bytes(8, "big")]))
        # the floor clears c, and takes the put of d away
        self.assertEqual(self.dumped("--history", "2"), "put a Mw==\nput a NQ==\npurge d\nput e OQ==\n")

    def test_writes_that_have_ended_are_ended_behind_the_dump(self) -> None:
        self.begin(True)
        self.assertEqual(self.dumped("--history", "2"), self.LINES + "seal\n")

    def test_a_torn_end_is_told(self) -> None:
        self.begin()
        self.put_data(self.data() + bytes(7))
        self.assertEqual(self.dumped("--history", "2", faults="kvbucket: left out 7 bytes at the end of %s\n" % self.file), self.LINES)

    def test_a_checkpoint_that_is_no_buckets_is_damage(self) -> None:
        self.run_on("", "--history", "2")
        self.put_data(journal_files.checkpointed(self.data(), self.STORED, 8, 9, 4, False))
        for option in ("--dump", "--journal"):
            self.check(option, [option, self.file, "--history", "2"], 1, faults="kvbucket: FileDamaged at byte ", exact=False)

    def test_runs_go_on_behind_it(self) -> None:
        reads = "history a\nhistory b\nhistory c\nhistory d\nkeys >\nget a 3\nget a 1\nget d\nstatus\nwatch > from=5\ntake 1 9\n"
        more = "put b Ng==\nupdate a 3 -\nupdate a 5 Nw==\ncompact 4\ncompact 6\nbatch 2\nput e -\ndelete b\n"
        whole = self.in_memory(self.SCRIPT + reads + more, "--history", "2").splitlines()[self.SCRIPT.count("\n"):]
        before = self.in_memory(self.SCRIPT + more, "--history", "2")
        again = self.in_memory(self.SCRIPT + more + reads, "--history", "2")[len(before):].splitlines()
        self.begin()
        checkpoint = self.data()
        self.assertEqual(self.run_on(reads + more, "--history", "2").splitlines(), whole)
        for _ in range(2):
            self.assertEqual(self.run_on(reads, "--history", "2").splitlines(), again)
        self.assertTrue(self.data().startswith(checkpoint))
        behind = [entry for entry in self.kept()[len(self.STORED) + 1:] if entry[0] != "closed"]
        self.assertEqual(behind, [("put", "b", b"6"), ("put", "a", b"7"), ("compact", 4), ("compact", 6), ("batch", [("put", "e", b""), ("delete", "b", b"")])])

    def test_a_run_finds_that_writes_have_ended(self) -> None:
        self.begin(True)
        self.assertEqual(self.run_on("put a MQ==\nstatus\n", "--history", "2"), "".join(
            self.in_memory(self.SCRIPT + "seal\nput a MQ==\nstatus\n", "--history", "2").splitlines(True)[-2:]))

    def test_a_run_drops_a_torn_end(self) -> None:
        self.begin()
        whole = self.data()
        self.put_data(whole + bytes(7))
        self.run_on("", "--history", "2", faults="kvbucket: dropped 7 bytes at the end of %s\n" % self.file)
        self.assertTrue(self.data().startswith(whole))
        self.assertEqual(self.run_on("get a\n", "--history", "2"), self.in_memory(self.SCRIPT + "get a\n", "--history", "2").splitlines(True)[-1])

    def test_one_that_no_acts_lead_to_is_refused(self) -> None:
        # every write above the floor is stored, and this one is not
        lost = [write for write in self.STORED if write[0] != 7]
        self.run_on("", "--history", "2")
        # it is told where the checkpoint begins: behind the frame of the configuration
        at = 25 + int.from_bytes(self.data()[17:21], "big")
        self.put_data(journal_files.checkpointed(self.data(), lost, 8, 4, 4, False))
        before = self.data()
        self.assertEqual(self.run_on("put a MQ==\n", "--history", "2", wanted=1, faults="kvbucket: FileDamaged at byte %d\n" % at), "")
        self.assertEqual(self.data(), before)


class Shrinking(Failing):
    # twelve writes of one key, of which one is kept
    SCRIPT = "".join("put a %s\n" % word(b"value %d" % i) for i in range(1, 13)) + "compact 11\nput b MQ==\nseal\n"

    def test_a_compaction_replaces_the_file(self) -> None:
        for when in ("each", "3", "close"):
            with self.subTest(when):
                self.away()
                self.run_on(self.SCRIPT.replace("compact 11\n", ""), "--sync", when)
                long = len(self.data())
                self.away()
                self.assertEqual(self.run_on(self.SCRIPT, "--sync", when), self.in_memory(self.SCRIPT))
                self.assertLess(2 * len(self.data()), long)
                self.assertFalse(os.path.exists(self.file + ".checkpoint"))
                self.assertEqual(self.run_on(READS), self.in_memory(self.SCRIPT + READS)[len(self.in_memory(self.SCRIPT)):])

    def test_each_call_may_fail(self) -> None:
        calls = self.fails_each([], self.SCRIPT, self.away, may_go_on=True)
        # synced before it is renamed, and the folder behind
        self.assertIn("wsnos", calls)


if __name__ == "__main__":
    unittest.main()
