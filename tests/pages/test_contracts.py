"""docs/contracts.md is what scripts/contracts.py writes from the sources."""
import unittest

from scripts import contracts


class Contracts(unittest.TestCase):
    def test_page_is_what_the_sources_say(self) -> None:
        with open(contracts.PAGE, encoding="utf-8") as file:
            self.assertEqual(file.read(), contracts.page(), "run ./scripts/contracts.py")

    def test_each_crate_that_users_name_has_calls(self) -> None:
        named = [line.removeprefix("## ") for line in contracts.page().splitlines() if line.startswith("## ")]
        for crate in ("kv_keys", "kv_trie", "kv_store", "kv_watch", "kv_bucket", "kv_run", "kv_c"):
            self.assertIn(crate, named)
