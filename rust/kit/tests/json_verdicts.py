"""Says of each document on standard input, one a line in hexadecimal, what Python's own reader reads.

A line of output is `-` for a document that is no JSON, and else its value, with texts in hexadecimal.
"""

import json
import sys


class Number(str):
    """A number as it is written."""


class Object(list):
    """Keys and their values."""


def refuse(word):
    raise ValueError(word)


def members(pairs):
    if len({key for key, _ in pairs}) != len(pairs):
        raise ValueError("a key stands twice")
    return Object(pairs)


def text(value):
    return '"' + value.encode("utf-8").hex() + '"'


def shown(value):
    if value is None or value is True or value is False:
        return {None: "null", True: "true", False: "false"}[value]
    if isinstance(value, Number):
        return str(value)
    if isinstance(value, str):
        return text(value)
    if isinstance(value, Object):
        return "{" + ",".join(text(key) + ":" + shown(it) for key, it in value) + "}"
    return "[" + ",".join(shown(it) for it in value) + "]"


def verdict(document):
    try:
        value = json.loads(
            document.decode("utf-8"),
            parse_int=Number,
            parse_float=Number,
            parse_constant=refuse,
            object_pairs_hook=members,
        )
        return shown(value)
    except (ValueError, RecursionError):
        return "-"


documents = sys.stdin.read().split("\n")
print("\n".join(verdict(bytes.fromhex(document)) for document in documents))
