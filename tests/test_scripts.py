"""Each worked script through the program: its arguments and its lines have to give its answers and status 0. Then each again, once
for each request for memory that it makes, with that one refused: the program then writes the whole text with status 0, or whole lines
from its beginning with status 1 and `kvbucket: OutOfMemory` on standard error. Of a script that makes more requests than MOST a sample
is refused, spread over all, which is printed. In a race a write may be refused alone, which is told in its line; then only the number
of replies is compared."""
import os, unittest
from typing import Sequence

from tests import program
from tests.memory import refusing
from tests.worked import scripts


def writes_of_race(text: bytes) -> int:
    return text.count(b',"worker":')


def ends_well(run: refusing.Run, text: bytes) -> bool:
    status, written, faults = run.status, run.out, run.err
    if status == 0 and b'"error":"OutOfMemory","worker":' in written:
        return writes_of_race(written) == writes_of_race(text)
    if status == 0:
        return written == text
    whole_lines = written == b"" or written.endswith(b"\n")
    return status == 1 and faults == b"kvbucket: OutOfMemory\n" and text.startswith(written) and whole_lines


class Scripts(refusing.RefusingTest):
    def refused(self, name: str, command: Sequence[str], stdin: str, text: bytes) -> int:
        """Runs a script with each of its requests refused, and answers how many were."""
        _, requests = self.counted(command, stdin)
        runs = self.in_turn(command, requests, stdin)
        wrong = ["refused request %d of %d: status %d, %r %r" % (it.at, requests, it.status, it.out[-200:], it.err[-200:])
                 for it in runs if not ends_well(it, text)]
        met = sum(it.is_refused for it in runs)
        if refusing.told_of(requests):
            print("%s: %d requests%s" % (name, requests, refusing.told_of(requests)))
        self.assertEqual(wrong, [])
        self.assertTrue(requests and met, "no request for memory was refused")
        return met

    def test_each_script_has_its_answers_and_ends_well_with_any_request_refused(self) -> None:
        count = refusals = 0
        for script in scripts():
            command, stdin = [program.path, *script.arguments], os.path.join(self.folder, script.name)
            with open(stdin, "wb") as file:
                file.write(script.input)
            count += 1
            with self.subTest(script.name):
                plain = refusing.ran(command, stdin, {}, refusing.LONGEST)
                self.assertEqual((plain.returncode, plain.stdout, plain.stderr), (0, script.output, b""))
                refusals += self.refused(script.name, command, stdin, script.output)
        print("%d scripts, %d requests refused in turn" % (count, refusals))
        self.assertTrue(count)


if __name__ == "__main__":
    unittest.main()
