"""Compactions, and memory that they keep level: a script of 300,000 writes, or as many as WRITES says, over a thousand keys, with a
compaction each 10,000 and a watch that is taken from each 1,000; and one of a third as many. Each line of the answers has to be the
one that is worked out here, from the last write of each key. No more than 11,000 writes may be stored, so each compaction has to
make room for the next writes; and the longer run may take no more than a few MB of memory above the shorter one."""
import base64, os, threading, time, unittest
from typing import Any, Collection, Iterator

from tests import program

WRITES = int(os.environ.get("WRITES", 300_000))
BEHIND = b'{"code":20,"error":"WatchBehind","watch":1}\n'
BAD_FLOOR = b'{"code":19,"error":"BadFloor"}\n'
EMPTY = b'{"empty":true,"watch":1}\n'
NUMBERS = b'{"bucket":"kv","history":1,"last":%d,"sealed":false,"stored":%d,"values":%d,"watches":1}\n'


def compacted(last: int, keys: Collection[bytes]) -> Iterator[tuple[bytes, list[bytes]]]:
    """The end of 10,000 writes: a compaction of all of them leaves the puts that were the last of their keys."""
    yield b"compact %d\n" % last, [b'{"compacted":%d}\n' % last]
    yield b"compact %d\n" % (last - 1), [BAD_FLOOR]
    yield b"status\n", [NUMBERS % (last, len(keys), len(keys))]
    yield b"keys >\n", [b'{"keys":[%s]}\n' % b",".join(b'"%s"' % key for key in keys)]


def session(writes: int) -> Iterator[tuple[bytes, list[bytes]]]:
    """Each line of the script, with the lines that answer it."""
    yield b"watch >\n", [b'{"watch":1}\n']
    keys: dict[bytes, bytes] = {}
    waiting = [b'{"marker":true,"watch":1}\n']
    for n in range(1, writes + 1):
        key = b"k%d" % (n % 1_000)
        keys.pop(key, None)
        if n % 7 == 3:
            line, shown = b"delete %s\n" % key, b'{"key":"%s","op":"DEL","revision":%d,"size":0,"watch":1}\n' % (key, n)
        else:
            keys[key] = value = base64.b64encode(b"%016d" % n)
            line, shown = b"put %s %s\n" % (key, value), b'{"key":"%s","op":"PUT","revision":%d,"size":16,"value":"%s","watch":1}\n' % (key, n, value)
        waiting.append(shown)
        yield line, [b'{"revision":%d}\n' % n]
        if n % 10_000 == 0:
            yield b"compact %d\n" % n, [BEHIND]
        if n % 1_000 == 0:
            yield b"take 1 1000000\n", waiting + [EMPTY]
            waiting = []
        if n % 10_000 == 0:
            yield from compacted(n, keys)


def write(run: Any, writes: int) -> None:
    try:
        for line, _ in session(writes):
            run.stdin.write(line)
        run.stdin.flush()
    except BrokenPipeError:
        pass


def fault_of(run: Any, writes: int) -> str:
    """The first line that is answered otherwise, if there is one."""
    for line, answers in session(writes):
        for wanted in answers:
            seen = run.stdout.readline()
            if seen != wanted:
                return "%r is answered by %r, and not by %r" % (line, seen, wanted)
    return ""


def memory_of(run: Any) -> float:
    """The most memory that the process has held so far, in MB."""
    with open("/proc/%d/status" % run.pid) as file:
        return next(int(line.split()[1]) for line in file if line.startswith("VmHWM:")) / 1024


class Compactions(unittest.TestCase):
    def peak_of(self, writes: int) -> float:
        """Runs the script, and tells how much memory the process held at most, or 0 where it answers otherwise."""
        start = time.time()
        run = program.begun("--write-limit", "11000")
        writer = threading.Thread(target=write, args=(run, writes))
        writer.start()
        fault = fault_of(run, writes)
        peak = memory_of(run) if not fault else 0
        if fault:
            run.kill()
        writer.join()
        rest = run.communicate()[0]
        print("%d writes with compactions: %.1f s, %.1f MB at most" % (writes, time.time() - start, peak))
        with self.subTest("%d writes" % writes):
            self.assertEqual(fault, "")
        with self.subTest("the end of %d writes" % writes):
            self.assertEqual((run.returncode, rest), (0, b""))
        return peak

    def test_memory_stays_level(self) -> None:
        short, long = self.peak_of(WRITES // 3), self.peak_of(WRITES)
        with self.subTest("the memory"):
            self.assertTrue(0 < long < short + 4, "%.1f MB, and %.1f MB for three times as many" % (short, long))


if __name__ == "__main__":
    unittest.main()
