"""python/to-nats and python/from-nats: a bucket there and back again, and what goes wrong on the way."""
import os
import socket
import subprocess
import threading
import unittest
from typing import Any, cast

import vilgoued
from tests import program, top
from tests.server.running import Server
from vilgoued.nats import MARKER, Bucket, copy_to

server = os.environ.get("VILGOUED_SERVER", "")
nats_server = os.environ.get("NATS_SERVER", "")
tools = os.path.join(top, "python")

SCRIPT = """put a MQ==
put a Mg==
watch >
put a Mw==
put b.c -
create b.d AA==
delete b.d
purge b.c
delete never
update b.c 7 eA==
put a Mw=
take 1 2
put gone eA==
purge gone"""


def run(tool: str, *arguments: str, script: str = "") -> tuple[int, str, str]:
    """The status of a tool, and what it wrote to standard output and standard error."""
    done = subprocess.run([os.path.join(tools, tool), *arguments], input=script, capture_output=True, text=True, timeout=300)
    return done.returncode, done.stdout, done.stderr


def to_nats(url: str, name: str, *arguments: str, script: str = SCRIPT) -> tuple[int, str, str]:
    return run("to-nats", url, name, "--program", program.path, *arguments, script=script)


def shown(bucket: Any) -> list[tuple[str, str, bytes]]:
    """The retained entries, without their revisions."""
    return [(it.key, it.op, it.value) for it in iter(bucket.watch(">", history=True).__next__, MARKER)]


class Relay:
    """A way to the server that is cut when so many writes went over it: the answer to the last one is not let through."""

    def __init__(self, port: int, writes: int) -> None:
        self._listener = socket.create_server(("127.0.0.1", 0))
        self.url = "nats://127.0.0.1:%d" % self._listener.getsockname()[1]
        threading.Thread(target=self._run, args=(port, writes), daemon=True).start()

    def _run(self, port: int, writes: int) -> None:
        client, _ = self._listener.accept()
        self._listener.close()
        with client, socket.create_connection(("127.0.0.1", port)) as there:
            threading.Thread(target=self._answers, args=(there, client), daemon=True).start()
            while writes > 0:
                data = client.recv(65536)
                writes -= data.count(b"PUB $KV.")
                if writes <= 0:
                    client.shutdown(socket.SHUT_RDWR)
                there.sendall(data)
            there.shutdown(socket.SHUT_RDWR)

    def _answers(self, there: Any, client: Any) -> None:
        try:
            while data := there.recv(65536):
                client.sendall(data)
        except OSError:
            pass


class Moves(unittest.TestCase):
    def test_a_bucket_that_moved_there_and_back_is_the_same(self) -> None:
        for history in ("1", "2", "64"):
            with self.subTest(history):
                status, told, faults = to_nats(server, "copy-" + history, "--history", history)
                self.assertEqual((status, faults), (0, ""))
                self.assertIn("written: ", told)
                status, script, faults = run("from-nats", server, "copy-" + history)
                self.assertEqual((status, faults), (0, ""))
                self.assertEqual(script.split("\n")[0], f"# ./kvbucket --bucket copy-{history} --history {history}")
                self.assertEqual(to_nats(server, "again-" + history, "--history", history, script=script)[0], 0)
                with Bucket(server, "copy-" + history) as first, Bucket(server, "again-" + history) as second:
                    self.assertEqual(shown(first), shown(second))
                again = run("from-nats", server, "again-" + history)[1]
                self.assertEqual(again.split("\n")[1:], script.split("\n")[1:])

    def test_what_is_retained_goes_along_and_a_seal_does_not(self) -> None:
        status, told, _ = to_nats(server, "along", "--history", "2", script=SCRIPT + "\nseal\n")
        self.assertEqual(status, 0)
        self.assertIn("written: 8 entries, of the revisions 2 to 11, which are 1 to 8 there", told)
        self.assertIn("did not go along: the seal", told)
        with Bucket(server, "along") as bucket:
            self.assertEqual(shown(bucket), [
                ("a", "PUT", b"2"), ("a", "PUT", b"3"), ("b.d", "PUT", b"\0"), ("b.d", "DEL", None), ("b.c", "PURGE", None),
                ("never", "DEL", None), ("b.c", "PUT", b"x"), ("gone", "PURGE", None)])

    def test_values_as_text_go_along(self) -> None:
        script = "put port 8080\nput name two words\nput word MQ==\nput sign \N{EURO SIGN}\nput none \ndelete port\n"
        self.assertEqual(to_nats(server, "text", "--text", "--history", "2", script=script)[::2], (0, ""))
        with Bucket(server, "text") as bucket:
            self.assertEqual(shown(bucket), [
                ("port", "PUT", b"8080"), ("name", "PUT", b"two words"), ("word", "PUT", b"MQ=="),
                ("sign", "PUT", "\N{EURO SIGN}".encode()), ("none", "PUT", b""), ("port", "DEL", None)])

    def test_a_bucket_of_python_is_copied_by_its_watch(self) -> None:
        try:
            here = vilgoued.Bucket("settings", history=2)
        except OSError:
            self.skipTest("libvilgoued.so is not there: ./library makes it")
        with here, Bucket(server, "python", history=2) as there:
            here["a"] = b"1"
            here.delete("b")
            here.purge("a")
            for entry in iter(here.watch(">", history=True).__next__, vilgoued.MARKER):
                copy_to(there, cast(vilgoued.Entry, entry))
            self.assertEqual(shown(there), shown(here))

    def test_a_key_that_is_none_here_is_left_out_and_told(self) -> None:
        with Bucket(server, "long") as bucket:
            bucket["a"] = b"1"
            bucket._write("k" * 300, b"2")
        status, script, faults = run("from-nats", server, "long")
        self.assertEqual((status, script.split("\n")[1:]), (1, ["put a MQ==", ""]))
        self.assertIn("left out: revision 2", faults)


class Faults(unittest.TestCase):
    def refused(self, done: tuple[int, str, str], *told: str) -> None:
        status, _, faults = done
        self.assertEqual(status, 1, faults)
        self.assertNotIn("Traceback", faults)
        for text in told:
            self.assertIn(text, faults)

    def test_where_there_is_no_server_one_sentence_says_so(self) -> None:
        with socket.create_server(("127.0.0.1", 0)) as free:
            url = "nats://127.0.0.1:%d" % free.getsockname()[1]
        self.refused(to_nats(url, "none"), "there is no server at 127.0.0.1:")
        self.refused(run("from-nats", url, "none"), "there is no server at 127.0.0.1:")
        self.refused(to_nats("http://127.0.0.1", "none"), "no URL of a NATS server")

    def test_where_there_is_no_bucket_one_sentence_says_so(self) -> None:
        self.refused(run("from-nats", server, "no-such"), "there is no bucket no-such")
        with Server(nats_server, keeps_buckets=False) as other:
            self.refused(to_nats(other.url, "none"), "keeps buckets")

    def test_a_bucket_with_another_history_is_refused(self) -> None:
        Bucket(server, "other", history=2).close()
        self.refused(to_nats(server, "other", "--history", "3"), "the bucket other is there, with history 2 and not 3")

    def test_a_bucket_that_has_had_writes_is_refused(self) -> None:
        with Bucket(server, "full") as bucket:
            bucket["a"] = b"1"
        self.refused(to_nats(server, "full"), "has had writes, up to revision 1, and nothing was written")

    def test_a_history_over_the_limit_writes_nothing(self) -> None:
        self.refused(to_nats(server, "bad", "--history", "65"), "nothing was written")

    def test_a_value_too_large_is_told_with_how_far_it_came(self) -> None:
        with Server(nats_server, "max_payload: 1000") as small:
            script = "put a MQ==\nput b Mg==\nput c %s\nput d Mw==\n" % ("AAAA" * 400)
            self.refused(to_nats(small.url, "large", script=script), "revision 3, key c: ValueTooLarge: 1200 bytes",
                         "written: 2 entries, of the revisions 1 to 2, which are 1 to 2 there")
            status, told, _ = to_nats(small.url, "large", "--after", "3", script=script)
            self.assertEqual(status, 0)
            self.assertIn("written: 1 entries, of the revisions 4 to 4, which are 3 to 3 there", told)

    def test_a_connection_that_is_lost_is_told_with_how_far_it_came(self) -> None:
        relay = Relay(int(server.rpartition(":")[2]), 5)
        script = "".join("put k%d MQ==\n" % number for number in range(20))
        self.refused(to_nats(relay.url, "lost", script=script), "ConnectionError", "may be there or not", "written: 4 entries")

    def test_a_password_in_the_url_lets_it_in(self) -> None:
        with Server(nats_server, 'authorization { user: u, password: "p:w" }') as guarded:
            self.refused(run("from-nats", guarded.url, "a"), "Authorization Violation")
            Bucket(guarded.url.replace("//", "//u:p%3Aw@"), "a").close()
            self.assertEqual(run("from-nats", guarded.url.replace("//", "//u:p%3Aw@"), "a")[0], 0)

    def test_a_bucket_goes_on_behind_a_connection_that_is_lost(self) -> None:
        with Bucket(server, "back") as bucket:
            bucket["a"] = b"1"
            cast(socket.socket, bucket._server._socket).shutdown(socket.SHUT_RDWR)
            self.assertEqual(bucket["a"], b"1")


if __name__ == "__main__":
    unittest.main()
