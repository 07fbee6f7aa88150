"""from-nats URL NAME: prints a script that gives the entries that the bucket NAME of a NATS server retains, when ./kvbucket runs it
with the arguments that stand in its first line. Revisions are given anew, from 1.

The status is 0 where the script gives all entries, 1 where it does not, or where others wrote meanwhile: then standard error says
why, and of which revisions; 2 for a fault in the arguments."""
from __future__ import annotations

import argparse
import sys
from base64 import b64encode
from typing import Optional

from .nats import Bucket, Entry, KvError, is_key

LONGEST = 1_048_576
MOST = 1_000_000


def line(entry: Entry) -> str:
    """The command that writes this entry."""
    if entry.op == "PUT":
        return "put %s %s" % (entry.key, b64encode(entry.value or b"").decode() or "-")
    return "%s %s" % ("delete" if entry.op == "DEL" else "purge", entry.key)


def fault(entry: Entry, written: int) -> Optional[str]:
    """Why no script can write this entry, or None."""
    if not is_key(entry.key):
        return "it is no key here"
    if entry.size > LONGEST:
        return "its value has %d bytes, and here it has at most %d" % (entry.size, LONGEST)
    if written == MOST:
        return "a bucket takes at most %d writes here" % MOST
    return None


def main() -> None:
    parser = argparse.ArgumentParser(prog="from-nats", description=__doc__, formatter_class=argparse.RawDescriptionHelpFormatter)
    parser.add_argument("url")
    parser.add_argument("name")
    asked = parser.parse_args()
    written, last, left_out = 0, 0, 0
    try:
        with Bucket(asked.url, asked.name, make=False) as bucket:
            begun = bucket.status()
            print("# ./kvbucket --bucket %s --history %d" % (asked.name, begun.history))
            for entry in bucket.watch(">", history=True):
                if entry.marker:
                    break
                reason = fault(entry, written)
                if reason is None:
                    print(line(entry))
                    written += 1
                else:
                    print("from-nats: left out: revision %d, key %s: %s" % (entry.revision, entry.key, reason), file=sys.stderr)
                    left_out += 1
                last = entry.revision
            now = bucket.status().last
            if now != begun.last:
                print("from-nats: others wrote meanwhile, the revisions %d to %d: what these replaced may be left out" % (begun.last + 1, now),
                      file=sys.stderr)
                left_out += 1
    except (KvError, OSError, ValueError) as error:
        sys.exit("from-nats: %s\nrevisions up to %d are in the script, %d in all" % (error, last, written))
    sys.exit(left_out > 0)


if __name__ == "__main__":
    main()
