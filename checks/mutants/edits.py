"""Wrong bodies as edits of files, and many of them in one source.

An edit is a file with a line `file:`, pairs of lines `old:` and `new:`, each old text standing once in that file, and a
line `case:` that names the case of `examples/check` that fails by it. Its folder is the crate whose file it changes, or
`bin`. An old text is an expression, or whole statements that end with a semicolon, so that a program can have the old
text and the new ones, and choose.
"""
import pathlib
from collections.abc import Iterable
from dataclasses import dataclass

HERE = pathlib.Path(__file__).resolve().parent
TOP = HERE.parent.parent
# the crate by which a program chooses: it is made for that program alone
CHOICE = "mutant_choice"


class BadEdit(Exception):
    """An edit cannot be read or applied."""


@dataclass(frozen=True)
class Edit:
    """A wrong body: its name, the crate and the file that it changes, what it changes, and the case that finds it."""

    name: str
    crate: str
    file: str
    pairs: tuple[tuple[str, str], ...]
    case: str

    @property
    def path(self) -> pathlib.Path:
        """The file that it changes, from the top of the repository."""
        folder = pathlib.Path("bin") if self.crate == "bin" else pathlib.Path("crates", self.crate)
        return folder / self.file


def read_edit(path: pathlib.Path) -> Edit:
    """The edit that a file has."""
    fields: dict[str, list[str]] = {"file": [], "old": [], "new": [], "case": []}
    for line in path.read_text().splitlines():
        name, found, value = line.partition(": ")
        if found and name in fields:
            fields[name].append(value)
    one = [len(fields[name]) for name in ("file", "case")]
    if one != [1, 1] or not fields["old"] or len(fields["old"]) != len(fields["new"]):
        raise BadEdit(f"{path}: an edit has one `file:`, one `case:`, and pairs of `old:` and `new:`; mend it")
    crate = path.parent.name
    return Edit(
        f"{crate}/{path.stem}", crate, fields["file"][0], tuple(zip(fields["old"], fields["new"])), fields["case"][0]
    )


def all_edits() -> list[Edit]:
    """The edits that stand here, in the order of their names."""
    return [read_edit(path) for path in sorted(HERE.glob("*/*.edit"))]


def put(text: str, old: str, new: str, edit: Edit) -> str:
    """The text with another in the place of the one that stands there once."""
    if text.count(old) != 1:
        times = text.count(old)
        raise BadEdit(f"{edit.name}: `{old}` stands {times} times in {edit.path}; write it as it stands there, once")
    return text.replace(old, new)


def applied(edit: Edit, text: str) -> str:
    """A source with this edit alone."""
    for old, new in edit.pairs:
        text = put(text, old, new, edit)
    return text


def chosen(old: str, news: Iterable[tuple[int, str]]) -> str:
    """A text that is the old one, or that of the number by which a program is chosen."""
    is_statement = old.endswith(";")
    text = f"{{ {old} }}"
    for number, new in news:
        text = f"{{ {new} }} else {text}"
        text = f"if {CHOICE}::is_chosen({number}) {text}"
        text = text if is_statement else f"{{ {text} }}"
    return text if is_statement else f"({text})"


def together(edits: Iterable[tuple[int, Edit]], text: str) -> str:
    """A source with all these edits, each chosen by its number."""
    news: dict[str, list[tuple[int, str]]] = {}
    edit_of = {}
    for number, edit in edits:
        for old, new in edit.pairs:
            news.setdefault(old, []).append((number, new))
            edit_of[old] = edit
    for old, choices in news.items():
        text = put(text, old, chosen(old, choices), edit_of[old])
    return text
