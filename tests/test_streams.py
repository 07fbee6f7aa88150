"""The program on a pipe and on a terminal that stay open, where each answer has to be there before the next line is written, and
on scripts with many lines and large answers, which it has to answer in time and in little memory."""
import base64, os, pty, select, subprocess, threading, unittest
from typing import Callable, Iterable

from tests import program

LINES = [(b"put a MQ==\n", b'{"revision":1}\n'), (b"watch >\n", b'{"watch":1}\n'), (b"# nothing\nget b\n", b'{"code":12,"error":"KeyNotFound"}\n'),
         (b"take 1 1\n", b'{"key":"a","op":"PUT","revision":1,"size":1,"value":"MQ==","watch":1}\n')]
# Seconds that are longer than an answer takes, however much else the machine does.
LONG = 300


def answered(output: int, wanted: bytes) -> bytes:
    """What comes within so many seconds as nothing here takes, as many bytes as are wanted."""
    seen = b""
    while len(seen) < len(wanted) and select.select([output], [], [], LONG)[0]:
        more = os.read(output, len(wanted) - len(seen))
        if not more:
            break
        seen += more
    return seen


class WhileMoreIsAwaited(unittest.TestCase):
    def talks(self, standard_input: int, writes: int, ends: Callable[[], object]) -> None:
        """Writes each line when the answer to the one before is there, and then ends the input."""
        run = program.begun(standard_input=standard_input)
        self.addCleanup(run.stdout.close)
        os.close(standard_input)
        for line, answer in LINES:
            with self.subTest(line):
                os.write(writes, line)
                self.assertEqual(answered(run.stdout.fileno(), answer), answer)
        ends()
        with self.subTest("the end"):
            rest = answered(run.stdout.fileno(), b"x")
            try:
                self.assertEqual((rest, run.wait(LONG)), (b"", 0))
            except subprocess.TimeoutExpired:
                run.kill()
                self.fail("it does not end")

    def test_it_answers_a_pipe_before_the_next_line(self) -> None:
        read_end, write_end = os.pipe()
        self.talks(read_end, write_end, lambda: os.close(write_end))

    def test_it_answers_a_terminal_before_the_next_line(self) -> None:
        held, terminal = pty.openpty()
        self.addCleanup(os.close, held)
        self.talks(terminal, held, lambda: os.write(held, b"\x04"))


class LongScripts(unittest.TestCase):
    def streamed(self, name: str, script: Iterable[bytes], lines: int, seconds: float, megabytes: int) -> bytes:
        """Runs a script of many pieces, counts the lines that come, and compares its processor time and its memory with bounds.
        The system counts to the memory what this process held when it began the run, so that has to be little."""
        run = program.begun()
        self.addCleanup(run.stdout.close)

        def write() -> None:
            for piece in script:
                run.stdin.write(piece)
            run.stdin.close()

        writer = threading.Thread(target=write)
        writer.start()
        seen, last = 0, b""
        while piece := run.stdout.read1(1 << 20):
            seen, last = seen + piece.count(b"\n"), (last + piece)[-200:]
        writer.join()
        _, status, usage = os.wait4(run.pid, 0)
        run.returncode = os.waitstatus_to_exitcode(status)
        took, peak = usage.ru_utime + usage.ru_stime, usage.ru_maxrss // 1024
        print("%s: %.1f s, %d MB at most" % (name, took, peak))
        with self.subTest(name):
            self.assertEqual((run.returncode, seen), (0, lines))
        with self.subTest("the time of " + name):
            self.assertLess(took, seconds)
        with self.subTest("the memory of " + name):
            self.assertLess(peak, megabytes)
        return last

    def test_a_million_puts_and_gets_stay_within_their_bounds(self) -> None:
        script = (b"put k%d MQ==\nget k%d\n" % (i % 1000, i % 1000) for i in range(500_000))
        last = self.streamed("1,000,000 lines of put and get", script, 1_000_000, 60, 400)
        with self.subTest("the last answer"):
            self.assertEqual(last[last.index(b"{"):].splitlines(True)[-1], b'{"key":"k999","op":"PUT","revision":500000,"size":1,"value":"MQ=="}\n')

    # A value of 1 MiB, whose answer has 1.4 MB: what waits is no more than 64 KiB and one answer.
    def test_reads_of_a_large_value_stay_within_their_bounds(self) -> None:
        large = base64.b64encode(bytes(1 << 20))
        self.streamed("2,000 reads of 1 MiB", [b"put a " + large + b"\n", 2_000 * b"get a\n"], 2_001, 120, 40)

    def test_a_take_of_large_values_stays_within_its_bounds(self) -> None:
        large = base64.b64encode(bytes(1 << 20))
        puts = [piece for i in range(24) for piece in (b"put k%d " % i, large, b"\n")]
        self.streamed("one take of 24 values of 1 MiB", puts + [b"watch >\ntake 1 1000000\n"], 24 + 1 + 24 + 2, 120, 24 + 40)

    def test_a_million_reads_stay_within_their_bounds(self) -> None:
        script = [b"put a " + base64.b64encode(bytes(100)) + b"\n"] + 1_000 * [1_000 * b"get a\n"]
        self.streamed("1,000,000 reads of 100 bytes", script, 1_000_001, 60, 40)


if __name__ == "__main__":
    unittest.main()
