"""The arguments that the program refuses, its help and its version, and what it answers where the arguments ask for more."""
import unittest

from scripts import kit
from tests.program import RunsTest


class Arguments(RunsTest):
    def test_a_name_that_is_none_of_a_bucket_is_refused(self) -> None:
        self.check("a name with a dot", ["--bucket", "my.bucket"], 2, faults="kvbucket: BadBucket\n")
        self.check("an empty name", ["--bucket", ""], 2, faults="kvbucket: BadBucket\n")
        self.check("a name of 65 bytes", ["--bucket", 65 * "a"], 2, faults="kvbucket: BadBucket\n")
        self.check("a name of 64 bytes", ["--bucket", 64 * "a"], 0)

    def test_a_limit_outside_its_range_is_refused(self) -> None:
        self.check("a history of 0", ["--history", "0"], 2, faults="kvbucket: BadConfig\n")
        self.check("a history of 65", ["--history", "65"], 2, faults="kvbucket: BadConfig\n")
        self.check("a write limit of 0", ["--write-limit", "0"], 2, faults="kvbucket: BadConfig\n")
        self.check("a value limit of 1,048,577", ["--value-limit", "1048577"], 2, faults="kvbucket: BadConfig\n")
        self.check("a revision limit of 0", ["--revision-limit", "0"], 2, faults="kvbucket: BadConfig\n")
        self.check("the name before the numbers", ["--bucket", "", "--history", "0"], 2, faults="kvbucket: BadBucket\n")

    def test_a_value_that_is_missing_or_no_number_is_refused(self) -> None:
        self.check("no name", ["--bucket"], 2, faults="a value is required for '--bucket <NAME>'", exact=False)
        self.check("a history that is no number", ["--history", "x"], 2, faults="invalid value 'x' for '--history <N>'", exact=False)
        self.check("a history of 21 digits", ["--history", 21 * "1"], 2, faults="invalid value", exact=False)

    def test_a_race_of_other_than_1_to_16_workers_is_refused(self) -> None:
        self.check("a race of none", ["--race", "0"], 2, faults="invalid value '0' for '--race <N>'", exact=False)
        self.check("a race of seventeen", ["--race", "17"], 2, faults="invalid value '17' for '--race <N>'", exact=False)
        self.check("a race of no number", ["--race", "x"], 2, faults="invalid value 'x' for '--race <N>'", exact=False)
        self.check("two races", ["--race", "1", "--race", "2"], 2, faults="cannot be used multiple times", exact=False)
        self.check("a race of a bad bucket", ["--race", "1", "--bucket", "", "--history", "0"], 2, faults="kvbucket: BadBucket\n", input=b"put a -\n")
        self.check("a race with a bad history", ["--race", "1", "--history", "0"], 2, faults="kvbucket: BadConfig\n", input=b"seal\n")

    def test_text_is_given_once_and_with_no_value(self) -> None:
        self.check("text twice", ["--text", "--text"], 2, faults="cannot be used multiple times", exact=False)
        self.check("text with a value", ["--text=yes"], 2, faults="unexpected value 'yes' for '--text'", exact=False)
        self.check("text with a word", ["--text", "yes"], 2, faults="unexpected argument 'yes'", exact=False)
        self.check("text before a bad history", ["--text", "--history", "0"], 2, faults="kvbucket: BadConfig\n")

    def test_an_argument_that_there_is_not_is_refused(self) -> None:
        self.check("an argument that there is not", ["--colour"], 2, faults="unexpected argument '--colour'", exact=False)
        self.check("an argument that is no text", ["--bucket", b"\xff"], 2, faults="kvbucket: argument 2 is not UTF-8\n")

    def test_help_tells_of_each_way_to_run_it(self) -> None:
        for word in "--help", "-h":
            self.check("help", [word], 0, text="Usage: kvbucket", exact=False)
            self.check("help tells of races", [word], 0, text="--race N", exact=False)
            self.check("help tells of values as text", [word], 0, text="--text ", exact=False)
            for name in "OutOfMemory", "ReadFault", "WriteFault", "NoReader", "BadBucket", "BadConfig":
                self.check("help tells what to do after " + name, [word], 0, text=name, exact=False)

    def test_the_version_names_the_logic_of_its_proof(self) -> None:
        for word in "--version", "-V":
            self.check("the version", [word], 0, text="kvbucket 0.1.0, proved with Rattle's %s\n" % kit.logic())


class Answers(RunsTest):
    def test_a_race_answers_its_refusals_its_writes_and_its_watches(self) -> None:
        self.check("a race of one", ["--race", "1"], 0, input=b"put a -\nget a\nput a -",
                   text='{"code":16,"error":"BadCommand"}\n{"revision":1,"worker":1}\n{"revision":2,"worker":1}\n')
        self.check("a race of four, with one write", ["--race=4"], 0, input=b"watch a meta\r\nput a MQ==\r\n",
                   text='{"revision":1,"worker":1}\n{"marker":true,"watch":1}\n{"key":"a","op":"PUT","revision":1,"size":1,"watch":1}\n')
        self.check("a race of sixteen, with no lines", ["--race", "16"], 0)

    def test_a_line_is_read_up_to_its_limit_and_with_no_line_feed_at_the_end(self) -> None:
        self.check("a last line with no line feed", [], 0, text='{"revision":1}\n', input=b"put a -")
        self.check("the name in a status", ["--bucket", "b-1_B"], 0, input=b"status\n",
                   text='{"bucket":"b-1_B","history":1,"last":0,"sealed":false,"stored":0,"values":0,"watches":0}\n')
        self.check("a long comment, and lines at the limit", [], 0, input=b"#" + 2_000_000 * b"x" + b"\nget " + 1_399_996 * b"a" + b"\r\nget " + 1_399_997 * b"a" + b"\nput a -\n",
                   text='{"code":4,"error":"BadKey"}\n{"code":16,"error":"BadCommand"}\n{"revision":1}\n')

    def test_values_as_text_are_answered_as_text(self) -> None:
        self.check("text, with a last line with no line feed", ["--text"], 0, input=b"put a \r\nget a\nput a x \ty",
                   text='{"revision":1}\n{"key":"a","op":"PUT","revision":1,"size":0,"value":""}\n{"revision":2}\n')
        self.check("text of every byte below 128 but for the line feed", ["--text"], 0, input=b"put a " + bytes(n for n in range(128) if n != 10) + b"\nstatus\n",
                   text='{"revision":1}\n{"bucket":"kv","history":1,"last":1,"sealed":false,"stored":1,"values":1,"watches":0}\n')
        self.check("bytes that are no text", ["--text"], 0, input=b"put a \xff\nput a \xc3\xa9\nget a\n",
                   text='{"code":16,"error":"BadCommand"}\n{"revision":1}\n{"key":"a","op":"PUT","revision":1,"size":2,"value":"\u00e9"}\n')
        self.check("a race in text", ["--race", "1", "--text"], 0, input=b"watch a\nput a x y\n",
                   text='{"revision":1,"worker":1}\n{"marker":true,"watch":1}\n{"key":"a","op":"PUT","revision":1,"size":3,"value":"x y","watch":1}\n')


if __name__ == "__main__":
    unittest.main()
