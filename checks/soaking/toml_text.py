"""Writes values as TOML with an entry on each line, so that lines can be left out of it one by one."""
import re
from typing import Any

BARE = re.compile(r"[A-Za-z0-9_-]+")


class Raw(str):
    """What stands in the text as it is, as a number in another form, or a value of another kind."""


def text_of(text: str) -> str:
    """A text in quotes."""

    def escaped(found: re.Match[str]) -> str:
        letter = found[0]
        return {'"': '\\"', "\\": "\\\\", "\n": "\\n", "\t": "\\t"}.get(letter, f"\\u{ord(letter):04x}")

    return '"' + re.sub(r'["\\\x00-\x1f\x7f]', escaped, text) + '"'


def key_of(key: str) -> str:
    """A key, in quotes where it needs them."""
    return key if BARE.fullmatch(key) else text_of(key)


def inline(value: Any) -> str:
    """A value in a line; texts in an array have a line each."""
    if isinstance(value, Raw):
        return str(value)
    if isinstance(value, bool):
        return "true" if value else "false"
    if isinstance(value, str):
        return text_of(value)
    if isinstance(value, dict):
        entries = [f"{key_of(key)} = {inline(each)}" for key, each in value.items()]
        return "{ " + ", ".join(entries) + " }" if entries else "{}"
    if isinstance(value, list):
        items = [inline(each) for each in value]
        if len(items) > 1 and any(isinstance(each, (str, dict)) and not isinstance(each, Raw) for each in value):
            return "[\n" + "".join(f"  {item},\n" for item in items) + "]"
        return "[" + ", ".join(items) + "]"
    return str(value)


def is_tables(value: Any) -> bool:
    """Whether a value is an array of tables that can have headers."""
    return isinstance(value, list) and bool(value) and all(isinstance(each, dict) for each in value)


def lines_of(table: dict[str, Any], path: tuple[str, ...]) -> list[str]:
    """The lines of a table behind its header: the entries of one line, and then its tables."""
    has_header = {key for key, value in table.items() if is_tables(value) or isinstance(value, dict) and value}
    lines = [f"{key_of(key)} = {inline(value)}" for key, value in table.items() if key not in has_header]
    for key in [key for key in table if key in has_header]:
        below = (*path, key)
        name = ".".join(map(key_of, below))
        if isinstance(table[key], dict):
            lines += [f"[{name}]", *lines_of(table[key], below)]
        else:
            for each in table[key]:
                lines += [f"[[{name}]]", *lines_of(each, below)]
    return lines


def toml_of(document: dict[str, Any]) -> bytes:
    """The text of a document."""
    return "".join(line + "\n" for line in lines_of(document, ())).encode(errors="surrogateescape")
