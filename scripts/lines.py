#!/usr/bin/env python3
"""Tells a program lines, and measures what they cost: the processor time that it took for them, and the memory that it has.

    lines.py PROGRAM    prints the memory that three million puts over a thousand keys take, with a compaction every 100,000 of
                        them, without a watch and with one that takes as it goes
"""
import os, subprocess, sys, threading
from typing import Mapping, Optional, Sequence

# A value of 16 bytes, in base64.
VALUE = "MDEyMzQ1Njc4OTAxMjM0NQ=="


# As ./kvbucket starts the program: with pages of 2 MiB, where the system gives such to who asks.
ENVIRONMENT = {"GLIBC_TUNABLES": "glibc.malloc.hugetlb=1", **os.environ}


class Program:
    """A program that runs, and waits for lines."""

    def __init__(self, path: str, environment: Optional[Mapping[str, str]] = None, arguments: Sequence[str] = ()) -> None:
        self.path = path
        self.process = subprocess.Popen([path, *arguments], stdin=subprocess.PIPE, stdout=subprocess.PIPE, env=environment or ENVIRONMENT)
        assert self.process.stdin and self.process.stdout
        self.lines, self.answers = self.process.stdin, self.process.stdout
        self.sent = self.answered = self.refused = 0
        self.has_ended = False
        self.news = threading.Condition()
        threading.Thread(target=self.count_answers, daemon=True).start()

    def count_answers(self) -> None:
        while answers := os.read(self.answers.fileno(), 1 << 20):
            with self.news:
                self.answered += answers.count(b"\n")
                self.refused += answers.count(b'"error"')
                self.news.notify()
        with self.news:
            self.has_ended = True
            self.news.notify()

    def processor_time(self) -> int:
        with open(f"/proc/{self.process.pid}/schedstat", encoding="ascii") as told:
            return int(told.read().split()[0])

    def megabytes(self) -> int:
        with open(f"/proc/{self.process.pid}/status", encoding="ascii") as told:
            return next(int(line.split()[1]) // 1024 for line in told if line.startswith("VmRSS"))

    def tell(self, lines: str, answers: int) -> float:
        """Writes lines, waits for so many answers, and returns the microseconds that they took."""
        before = self.processor_time()
        self.lines.write(lines.encode())
        self.lines.flush()
        self.sent += answers
        with self.news:
            self.news.wait_for(lambda: self.has_ended or self.answered >= self.sent)
        if self.answered < self.sent:
            sys.exit("%s ended before it had answered" % self.path)
        return (self.processor_time() - before) / 1000

    def put(self, keys: Sequence[int]) -> float:
        """Puts to each key, and returns the microseconds a put."""
        return self.tell("".join(f"put device.{key}.state {VALUE}\n" for key in keys), len(keys)) / len(keys)

    def end(self) -> None:
        """Ends the program, which has to have answered each line, and refused none."""
        self.lines.close()
        if self.process.wait() != 0 or self.refused:
            sys.exit("%s: %d lines were refused" % (self.path, self.refused))


def three_million(path: str, watched: bool) -> None:
    """Three million puts over a thousand keys with a compaction every 100,000: the memory after each million."""
    program = Program(path)
    told = []
    if watched:
        program.tell("watch >\ntake 1 1\n", 2)
    for hundred_thousand in range(1, 31):
        for _ in range(10):
            program.put([key % 1_000 for key in range(10_000)])
            if watched:
                program.tell("take 1 10000\n", 10_000)
        program.tell(f"compact {hundred_thousand * 100_000}\n", 1)
        if hundred_thousand % 10 == 0:
            told.append(f"{program.megabytes()} MB")
    print(f"3000000 puts, {'with' if watched else 'without'} a watch: " + ", ".join(told) + " after each million")
    program.end()


def main() -> None:
    for watched in False, True:
        three_million(sys.argv[1], watched)


if __name__ == "__main__":
    main()
