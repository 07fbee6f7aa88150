"""Journal files: the reader of tests/journal.py against the sample that the tests of the crates write and read."""
import ast, os, re, struct, unittest

from tests import journal

TOP = os.path.join(os.path.dirname(__file__), "..")
SAMPLE = os.path.join(TOP, "crates", "kv_durable_tests", "src", "sample.rt")

ENTRIES = [
    (0, "put", "app.port", b"80"), (24, "put", "app.host", b"kv"), (48, "delete", "app.port", b""),
    (0, "purge", "app.host", b""), (0, "put", "app.port", b""), (22, "compact", 3), (43, "seal"), (0, "closed", 5)]
ENDS = [70, 94, 118, 140, 162, 184, 205, 218, 239]


def sample() -> bytes:
    with open(SAMPLE) as file:
        return b"".join(map(ast.literal_eval, re.findall(r'b"[^"]*"', file.read())))


def turned(data: bytes, place: int) -> bytes:
    return data[:place] + bytes([data[place] ^ 1]) + data[place + 1:]


class TestJournal(unittest.TestCase):
    def test_checksums_are_those_of_the_standard(self) -> None:
        for data, crc in ((b"123456789", 0xE3069283), (bytes(32), 0x8A9136AA), (bytes(range(32)), 0x46DD794E)):
            self.assertEqual(journal.crc32c(data), crc)

    def test_the_sample_is_read(self) -> None:
        read = journal.read(sample())
        self.assertEqual(read[:6], (0x0123456789ABCDEF, "settings", 2, 1_048_576, 1_000_000, 4_294_967_295))
        self.assertEqual(read.entries, ENTRIES)
        self.assertEqual((read.end, read.damaged), (239, False))

    def test_each_beginning_is_its_whole_entries(self) -> None:
        data = sample()
        for length in range(ENDS[0], len(data)):
            read = journal.read(data[:length])
            whole = sum(end <= length for end in ENDS)
            self.assertEqual((read.entries, read.end, read.damaged), (ENTRIES[:whole - 1], ENDS[whole - 1], False))

    def test_a_turned_bit_is_damage_or_a_torn_end(self) -> None:
        data = sample()
        for place in range(ENDS[0], len(data)):
            read = journal.read(turned(data, place))
            whole = sum(end <= place for end in ENDS)
            self.assertEqual((read.entries, read.damaged), (ENTRIES[:whole - 1], place < 218))

    def test_a_batch_is_its_records(self) -> None:
        records = (b"\1\10app.port80", b"\3\10app.host", b"\4")
        payload = struct.pack(">IB", 7, 10) + b"".join(struct.pack(">I", len(record)) + record for record in records)
        self.assertEqual(journal.entry(payload), (7, "batch", [("put", "app.port", b"80"), ("purge", "app.host", b""), ("seal",)]))

    def test_other_bytes_are_no_journal(self) -> None:
        data = sample()
        for other in (b"", data[:69], data[1:], turned(data, 8), turned(data, 16), turned(data, 30)):
            self.assertRaises(journal.NoJournal, journal.read, other)


if __name__ == "__main__":
    unittest.main()
