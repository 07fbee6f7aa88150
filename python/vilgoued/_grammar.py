"""The grammar of names (docs/semantics.md), where no library looks at them."""
from __future__ import annotations

import re
from typing import List, Pattern, Type

from ._arguments import Name, name_of
from .refusals import BadBucket, BadFilter, BadKey, KvError

_TOKEN = rb"[-/_=A-Za-z0-9]+"
_BUCKET = re.compile(rb"[-_A-Za-z0-9]{1,64}")
_KEY = re.compile(rb"%s(\.%s)*" % (_TOKEN, _TOKEN))
_FILTER = re.compile(rb"((%s|\*)\.)*(%s|\*|>)" % (_TOKEN, _TOKEN))


def _is(grammar: Pattern[bytes], text: bytes) -> bool:
    return len(text) <= 255 and grammar.fullmatch(text) is not None


def _checked(text: Name, grammar: Pattern[bytes], refusal: Type[KvError]) -> str:
    """The text, where it is of the grammar. Nothing else may come into a line of the protocol."""
    data = name_of(text)
    if not _is(grammar, data):
        raise refusal()
    return data.decode()


def is_key(text: Name) -> bool:
    """Whether the text is a key."""
    return _is(_KEY, name_of(text))


def bucket_of(text: Name) -> str:
    return _checked(text, _BUCKET, BadBucket)


def key_of(text: Name) -> str:
    return _checked(text, _KEY, BadKey)


def filter_of(text: Name) -> str:
    return _checked(text, _FILTER, BadFilter)


def filters_of(text: Name) -> List[str]:
    parts = name_of(text).split(b",")
    if len(parts) > 16:
        raise BadFilter("a list has at most 16 filters: ask once more for the rest")
    return [filter_of(part) for part in parts]
