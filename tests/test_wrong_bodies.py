"""Each wrong body of each crate, or of those that CRATES names, is refused by the contract of the function that it is in. It needs the
kit, and the libraries below each crate as `rt ci` or a build left them. As many crates are tried side by side as JOBS says, or as there
are processors, those with most to do first. Where GATE names the file that a running `rt ci` is written to, a crate is tried once that
has proved the libraries below it, two at a time until it ends: so they take the processors that proofs leave idle."""
import concurrent.futures, os, re, tempfile, threading, time, unittest
from typing import Iterator, NamedTuple, Optional

from scripts import kit
from tests import wrong_bodies
from tests.wrong_bodies import Batch, Body, Change, Told, Tried, Unreadable

JOBS = int(os.environ.get("JOBS") or len(os.sched_getaffinity(0)))
NAMED = os.environ.get("CRATES", "").split()
GATE = os.environ.get("GATE", "")
BESIDE_GATE = 2
# What `rt ci` says of a crate whose library stands: that this run proved it, or that an earlier run on this machine did.
PROVED = re.compile(r"rt: (\w+) (?:proved$|is kept: )")
# A body of this function that means the same as the one that stands there, which nothing may refuse: neither by itself, nor beside the wrong
# body of the function that it calls.
SAME = Body("kv_frames", "same", "kv_frames::table::Crc32c::with_bytes", (Change("src/table.rt", "self.with_byte(crc, *byte)", "self.with_byte(crc, (*byte))"),))
CALLED = "kv_frames::table::Crc32c::with_byte"


class Outcome(NamedTuple):
    bodies: list[Body]
    not_refused: list[str]
    checks: int
    seconds: float


def work_of(crate: str) -> int:
    """By what crates compare that take longer: how large one is, and how many wrong bodies it has."""
    folder = wrong_bodies.folder_of(crate)
    size = sum(os.path.getsize(os.path.join(at, name)) for part in ("src", "proofs") for at, _, names in os.walk(os.path.join(folder, part)) for name in names)
    return size * len(wrong_bodies.bodies_of(crate))


def outcome_of(crate: str) -> Outcome:
    """What came of the wrong bodies of a crate, and of one that is none in that crate whose libraries are proved soonest."""
    start = time.monotonic()
    with tempfile.TemporaryDirectory() as folder:
        tried, bodies = Tried(crate, wrong_bodies.kept_for(crate, folder)), wrong_bodies.bodies_of(crate)
        lost = tried.not_refused([*bodies, SAME] if crate == SAME.crate else bodies)
    return Outcome(bodies, lost, tried.checks, time.monotonic() - start)


class Gate:
    """A run of `rt ci`, by what it has written so far."""

    def __init__(self, path: str) -> None:
        self.path = path

    def lines(self) -> list[str]:
        try:
            return wrong_bodies.read_text(self.path).splitlines()
        except FileNotFoundError:
            return []

    def has_ended(self) -> bool:
        return not self.path or any(it.startswith("-- the gate: ") for it in self.lines())

    def has_proved(self, crates: list[str]) -> bool:
        return not self.path or set(crates) <= {it[1] for it in map(PROVED.match, self.lines()) if it}


class Turns:
    """Which crate is tried next, and when: of those whose libraries are proved the one with most to do."""

    def __init__(self, crates: list[str], gate: Gate, lanes: int) -> None:
        self.left, self.gate, self.lanes, self.running = sorted(crates, key=work_of, reverse=True), gate, lanes, 0
        self.below = {it: [below.name for below in kit.crate(it).below()] for it in crates}
        self.lock = threading.Lock()

    def take(self) -> Optional[str]:
        """The crate that is tried now, if there is one."""
        with self.lock:
            ended = self.gate.has_ended()
            ready = [it for it in self.left if self.gate.has_proved(self.below[it])]
            if not ready and ended:
                self.left.clear()
            if not ready or self.running >= (self.lanes if ended else min(self.lanes, BESIDE_GATE)):
                return None
            self.running += 1
            self.left.remove(ready[0])
            return ready[0]

    def outcomes(self) -> Iterator[tuple[str, Outcome]]:
        """What came of each crate that one worker tries, one after the other."""
        while self.left:
            crate = self.take()
            if crate is None:
                time.sleep(1)
                continue
            yield crate, outcome_of(crate)
            with self.lock:
                self.running -= 1


class WrongBodies(unittest.TestCase):
    @unittest.skipUnless(kit.command(), "the Rattle kit's command rt is not on the path: install the kit")
    def test_each_is_refused(self) -> None:
        crates = NAMED or wrong_bodies.crates()
        # its first use sets a signal's handler, which only the main thread may
        kit.builder()
        turns, tried = Turns(crates, Gate(GATE), JOBS), dict[str, Outcome]()
        with concurrent.futures.ThreadPoolExecutor(JOBS) as pool:
            for found in [pool.submit(lambda: list(turns.outcomes())) for _ in range(JOBS)]:
                tried.update(found.result())
            for crate in crates:
                with self.subTest("%s: the libraries below it are proved" % crate):
                    self.assertIn(crate, tried)
            for crate, outcome in tried.items():
                refused = len(outcome.bodies) - len(set(outcome.not_refused) - {SAME.name})
                print("%s: %d wrong bodies refused, in %d checks, %.0f s" % (crate, refused, outcome.checks, outcome.seconds), flush=True)
                for body in outcome.bodies:
                    with self.subTest("%s/%s" % (crate, body.name)):
                        self.assertNotIn(body.name, outcome.not_refused)
                if crate == SAME.crate:
                    with self.subTest("a body that means the same is not refused, beside a wrong one of what it calls"):
                        self.assertIn(CALLED, [it.function for it in outcome.bodies])
                        self.assertIn(SAME.name, outcome.not_refused)


class InTurn(unittest.TestCase):
    """When a crate is tried beside a running gate, without a prover."""

    def turns(self, *told: str) -> Turns:
        with tempfile.NamedTemporaryFile("w", delete=False) as file:
            file.write("".join(line + "\n" for line in told))
        self.addCleanup(os.unlink, file.name)
        return Turns(["kv_keys", "kv_frames", "kv_model", "kv_store"], Gate(file.name), 3)

    @unittest.skipUnless(kit.command(), "the Rattle kit's command rt is not on the path: install the kit")
    def test_a_crate_waits_for_the_libraries_below_it(self) -> None:
        kept = "rt: kv_keys is kept: an earlier run on this machine proved the same files over the same libraries"
        for told, taken in (((), {"kv_keys", "kv_frames", None}), ((kept, "-- the gate: 9 s"), {"kv_keys", "kv_frames", "kv_model", None}),
                            (("rt: kv_keys proved", "rt: kv_trie NOT PROVED", "-- the gate: 9 s"), {"kv_keys", "kv_frames", "kv_model", None})):
            with self.subTest(told):
                turns = self.turns(*told)
                self.assertEqual({turns.take() for _ in range(4)}, taken)

    @unittest.skipUnless(kit.command(), "the Rattle kit's command rt is not on the path: install the kit")
    def test_two_are_tried_beside_the_gate_and_all_behind_it(self) -> None:
        proved = ["rt: %s proved" % it for it in ("kv_keys", "kv_model", "kv_trie")]
        for told, number in ((proved, BESIDE_GATE), ([*proved, "-- the gate: 9 s"], 3)):
            with self.subTest(told):
                turns = self.turns(*told)
                self.assertEqual(sum(turns.take() is not None for _ in range(4)), number)

    @unittest.skipUnless(kit.command(), "the Rattle kit's command rt is not on the path: install the kit")
    def test_none_is_waited_for_behind_the_gate(self) -> None:
        turns = self.turns("rt: kv_keys NOT PROVED", "-- the gate: 9 s")
        while turns.take():
            pass
        self.assertEqual(turns.left, [])


class Batches(unittest.TestCase):
    """What may be tried in one check, and what a check says, without a prover."""

    def body(self, function: str, *changes: tuple[str, str]) -> Body:
        return Body("kv_frames", function, "kv_frames::crc::" + function, tuple(Change("src/crc.rt", old, new) for old, new in changes))

    def test_bodies_of_two_functions_are_tried_together(self) -> None:
        batch, others = wrong_bodies.batch_of([self.body("shifted", ("POLYNOMIAL: u32", "POLYNOMIAL:  u32")), self.body("other", ("0x82F6_3B78", "0"))])
        self.assertEqual(([it.name for it in batch.bodies], others), (["shifted", "other"], []))
        self.assertIn("POLYNOMIAL:  u32 = 0;", batch.texts["src/crc.rt"].whole())

    def test_bodies_of_one_function_or_place_are_not(self) -> None:
        first = self.body("shifted", ("0x82F6_3B78", "0"))
        for second in (self.body("shifted", ("POLYNOMIAL: u32", "POLYNOMIAL:  u32")), self.body("other", ("0x82F6_3B78;", "1;"))):
            with self.subTest(second.function):
                self.assertEqual(wrong_bodies.batch_of([first, second])[1], [second])

    def test_each_body_can_be_put_in_its_place(self) -> None:
        for crate in wrong_bodies.crates():
            for body in wrong_bodies.bodies_of(crate):
                with self.subTest("%s/%s" % (crate, body.name)):
                    self.assertTrue(Batch(crate).takes(body))

    def test_a_text_that_is_not_there_once_is_told(self) -> None:
        for old in ("no such text", "POLYNOMIAL"):
            with self.subTest(old), self.assertRaises(Unreadable):
                Batch("kv_frames").takes(self.body("shifted", (old, "")))

    def test_a_function_is_refused_by_its_own_proof(self) -> None:
        for said, is_refused in (("not proved", True), ("no proof: expected answers in ./proofs/a/f/Answers.antt; `search` did not prove `returns`", True),
                                 ("proved", False), ("no proof: it calls `k::a::g`, which is not proved", False), ("could not tell", False),
                                 ("no proof: expected answers in ./proofs/a/f/Answers.antt; `search` did not prove `returns`; it calls `k::a::g`, which is not proved", True),
                                 ("not proved; it calls `k::a::g`, which is not proved", False)):
            with self.subTest(said):
                self.assertEqual(Told(["fn k::a::f: " + said]).is_refused("k::a::f"), is_refused)
        own = "./proofs/a/f/Answers.antt:5:13: error: `returns`: no proof"
        self.assertTrue(Told([own, "fn k::a::f: not proved; it calls `k::a::g`, which is not proved"]).is_refused("k::a::f"))


if __name__ == "__main__":
    unittest.main()
