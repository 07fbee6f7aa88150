"""The worked scripts on a bucket of vilgoued, over the library for C: the answers have to be those of the program. Those of a race are
left out, which is of threads of the program."""
import unittest
from typing import Any, Dict

import vilgoued
from tests.replay import replay
from tests.worked import scripts


class Scripts(unittest.TestCase):
    def test_each_script_has_the_answers_of_the_program(self) -> None:
        for script in scripts():
            if not script.is_race:
                settings: Dict[str, Any] = dict(script.settings)
                with self.subTest(script.name), vilgoued.Bucket("kv", **settings) as bucket:
                    self.assertEqual(replay(bucket, script), script.output.decode().splitlines())


if __name__ == "__main__":
    unittest.main()
