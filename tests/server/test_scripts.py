"""The worked scripts on a NATS server: the answers have to be those that ./kvbucket gives, but for the differences that are listed
here."""
import os, unittest
from typing import Any, cast

from tests.replay import replay
from tests.worked import scripts
from vilgoued.nats import Bucket

server = os.environ.get("VILGOUED_SERVER", "")

# What asks for something that a server doesn't have, but for races, which are of threads in one process.
LEFT_OUT = {
    "batch-and-limits": "a server makes no writes in one step",
    "batch-cut-off": "a server makes no writes in one step",
    "batches": "a server makes no writes in one step",
    "compaction": "a server has no floors",
    "compaction-and-watches": "a server has no floors",
    "compaction-frees-the-journal": "a server has no floors",
    "hostile-place-alone": "place tells of the hash trie",
    "named-bucket-and-revision-limit": "revisions have no limit there",
    "named-bucket-and-write-limit": "writes have no limit there",
    "places-that-collide": "place tells of the hash trie",
    "revision-limit": "revisions have no limit there",
    "sixty-four-watches": "watches have no limit there",
    "text-values": "a server counts no entry that was overwritten as stored",
    "write-limit-and-seal": "writes have no limit there",
}

# What is answered otherwise, and why: the lines that are not answered there.
DIFFERS = {
    "a-watch-that-lags": (
        "a watch is handed nothing that was overwritten before it was asked for",
        ['{"key":"k","op":"PUT","revision":1,"size":1,"value":"MQ==","watch":1}',
         '{"key":"k","op":"PUT","revision":2,"size":1,"value":"Mg==","watch":1}',
         '{"key":"k","op":"DEL","revision":3,"size":0,"watch":1}',
         '{"key":"k","op":"PURGE","revision":4,"size":0,"watch":1}',
         '{"key":"k","op":"PUT","revision":1,"size":1,"watch":2}',
         '{"key":"k","op":"PUT","revision":2,"size":1,"watch":2}',
         '{"key":"k","op":"PUT","revision":5,"size":1,"watch":2}'],
    ),
    "initial-of-its-moment": (
        "a watch is handed nothing that was overwritten before it was asked for",
        ['{"key":"k","op":"PUT","revision":1,"size":1,"value":"MQ==","watch":1}',
         '{"key":"k","op":"PUT","revision":2,"size":1,"value":"Mg==","watch":1}'],
    ),
}


class Scripts(unittest.TestCase):
    def test_each_script_has_the_answers_of_the_program_but_for_what_is_listed(self) -> None:
        for script in scripts():
            if script.name not in LEFT_OUT and not script.is_race:
                with self.subTest(script.name), Bucket(server, "script-" + script.name, **cast(Any, script.settings)) as bucket:
                    wanted = script.output.decode().splitlines()
                    for line in DIFFERS.get(script.name, ("", []))[1]:
                        wanted.remove(line)
                    self.assertEqual(replay(bucket, script), wanted)

    def test_what_is_listed_is_there(self) -> None:
        self.assertLessEqual(set(LEFT_OUT) | set(DIFFERS), {script.name for script in scripts()})


if __name__ == "__main__":
    unittest.main()
