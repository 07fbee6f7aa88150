"""A server that speaks TLS, and who may connect: a password, a token, a certificate."""
import os
import shutil
import ssl
import subprocess
import tempfile
import threading
import unittest
from typing import cast

from tests.server.running import Server
from vilgoued.nats import MARKER, Bucket, Entry

nats_server = os.environ["NATS_SERVER"]


@unittest.skipUnless(shutil.which("openssl"), "there is no openssl to make certificates: apt-get install openssl")
class Tls(unittest.TestCase):
    certificate = key = ""

    @classmethod
    def setUpClass(cls) -> None:
        room = tempfile.TemporaryDirectory()
        cls.addClassCleanup(room.cleanup)
        cls.certificate, cls.key = (os.path.join(room.name, name) for name in ("certificate", "key"))
        command = ["openssl", "req", "-x509", "-newkey", "rsa:2048", "-nodes", "-days", "2", "-subj", "/CN=test", "-addext",
                   "subjectAltName=IP:127.0.0.1", "-keyout", cls.key, "-out", cls.certificate]
        subprocess.run(command, check=True, stdin=subprocess.DEVNULL, capture_output=True)

    def server(self, more: str = "") -> Server:
        return Server(nats_server, 'tls { cert_file: "%s", key_file: "%s"\n%s }' % (self.certificate, self.key, more))

    def context(self) -> ssl.SSLContext:
        return ssl.create_default_context(cafile=self.certificate)

    def url(self, server: Server, user: str = "") -> str:
        return "tls://%s127.0.0.1:%d" % (user, server.port)

    def test_all_calls_go_by_tls(self) -> None:
        with self.server() as server, Bucket(self.url(server), "a", tls=self.context()) as bucket:
            self.assertIsInstance(bucket._server._socket, ssl.SSLSocket)
            bucket["a"] = b"1"
            self.assertEqual((bucket["a"], bucket.keys()), (b"1", ["a"]))
            bucket["large"] = bytes(300_000)
            self.assertEqual(len(bucket["large"]), 300_000)
            watch = bucket.watch(">", updates=True)
            timer = threading.Timer(0.1, bucket.put, ("b", b"2"))
            timer.start()
            self.assertEqual(cast(Entry, next(watch.follow(300))).key, "b")
            timer.join()
            for number in range(20):
                bucket["c"] = b"%d" % number
            self.assertEqual([it.value for it in watch.follow(0) if not it.marker], [b"19"])

    def test_a_certificate_that_nobody_vouches_for_is_refused(self) -> None:
        with self.server() as server, self.assertRaisesRegex(ConnectionError, "CERTIFICATE_VERIFY_FAILED"):
            Bucket("nats://127.0.0.1:%d" % server.port, "a")

    def test_a_server_without_tls_is_refused_where_it_is_asked_for(self) -> None:
        with Server(nats_server) as server, self.assertRaisesRegex(ConnectionError, "the server speaks no TLS"):
            Bucket(self.url(server), "a")

    def test_a_certificate_of_ones_own_lets_it_in(self) -> None:
        with self.server('ca_file: "%s", verify: true' % self.certificate) as server:
            with self.assertRaises(ConnectionError):
                Bucket(self.url(server), "a", tls=self.context())
            context = self.context()
            context.load_cert_chain(self.certificate, self.key)
            with Bucket(self.url(server), "a", tls=context) as bucket:
                bucket["a"] = b"1"
                self.assertEqual([it.marker or it.key for it in bucket.watch(">")], ["a", True])


class Credentials(unittest.TestCase):
    def test_a_token_in_the_url_lets_it_in(self) -> None:
        with Server(nats_server, 'authorization { token: "s3/cret" }') as server:
            at = server.url.replace("nats://", "")
            with self.assertRaisesRegex(ConnectionError, "Authorization Violation"):
                Bucket("nats://" + at, "a")
            with Bucket("nats://s3%2Fcret@" + at, "a") as bucket:
                self.assertEqual(list(bucket.watch(">").follow(0)), [MARKER])


if __name__ == "__main__":
    unittest.main()
