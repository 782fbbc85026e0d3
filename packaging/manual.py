"""The manual pages, in the language of man(7): ipbus(1) and ipbus-session(5)."""
import re
from typing import List

from packaging import facts


def plain(text: str) -> str:
    """A line of a page without the signs of Markdown, safe as a line of man(7)."""
    text = re.sub(r"\[([^\]]*)\]\([^)]*\)", r"\1", text)
    text = text.replace("\\", "\\e").replace("`", "").replace("**", "").replace("-", "\\-")
    return ("\\&" + text) if text[:1] in (".", "'") else text


def head(name: str, number: int, title: str) -> List[str]:
    """The first lines of a page."""
    return [
        f'.TH {name.upper()} {number} "" "ipbus {facts.version()}" "{title}"',
        ".SH NAME",
        f"{plain(name)} \\- {plain(title)}",
    ]


def program_page() -> str:
    """ipbus(1)."""
    lines = head("ipbus", 1, "control hub for boards that speak IPbus 2.0")
    lines.append(".SH SYNOPSIS")
    for command in facts.commands():
        words = " ".join(f"\\fI{word}\\fR" for word in command.words)
        lines += [f".B ipbus {command.name}", words or "\\&", ".br"]
    lines += [
        ".SH DESCRIPTION",
        "The program reads its input from standard input and writes one text to standard output.",
        "A session document (see",
        ".BR ipbus\\-session (5))",
        "names register tables, boards and scripts.",
        ".SH COMMANDS",
    ]
    for command in facts.commands():
        lines += [".TP", f".B {command.name} {' '.join(command.words)}".rstrip(), plain(command.does) + "."]
    lines.append(".SH EXIT STATUS")
    for status, means in STATUSES:
        lines += [".TP", f".B {status}", plain(means)]
    lines.append(".SH EXAMPLES")
    lines += [".nf", "ipbus run < session.toml", "ipbus serve 5000 64 < session.toml", ".fi"]
    lines += [".SH FILES", ".TP", ".I share/doc/ipbus/", "The guides: SESSIONS.md, OPERATING.md, FORMATS.md and others."]
    lines += [".TP", ".I share/ipbus/provenance", "The sources and the kit with which this program was proved, or that it was not."]
    lines += ["The program says these lines on standard error where a word is", ".BR \\-\\-version ."]
    lines += [".SH SEE ALSO", ".BR ipbus\\-session (5)"]
    return "\n".join(lines) + "\n"


STATUSES = (
    ("0", "All that was asked for was done. For audit: the transcript fits."),
    ("1", "The text shows what was not done: a timeout, an error, a denied operation, an overlap, audit no."),
    ("2", "The words are no command. Nothing was read."),
    ("3", "The input is refused. One line says why."),
    ("4", "The input could not be read."),
    ("5", "The output could not be written."),
    ("6", "Memory ran out."),
    ("7", "A link to a board could not be made."),
    ("8", "The port could not be opened, or a connection not be accepted."),
)


def said_of(head: str, cell: str) -> str:
    """What a cell says below its head, as a sentence."""
    if head == "Default":
        return "Required." if cell == "required" else f"Default: {cell}."
    return cell[:1].upper() + cell[1:].rstrip(".") + "."


def table_lines(rows: List[List[str]]) -> List[str]:
    """A table of FORMATS.md as a list of terms."""
    lines = []
    for row in rows[1:]:
        said = [said_of(head, cell) for head, cell in zip(rows[0][1:], row[1:]) if cell]
        lines += [".TP", f".B {plain(row[0])}", plain(" ".join(said))]
    return lines


def session_page() -> str:
    """ipbus-session(5)."""
    lines = head("ipbus-session", 5, "session documents of ipbus")
    lines += [
        ".SH DESCRIPTION",
        "A session document is TOML 1.1 in UTF\\-8, at most 16,777,216 bytes.",
        "The tables below are those of FORMATS.md, which also has the refusals and their order.",
    ]
    for heading in ("Session documents", "Register tables", "Scripts", "Access policies"):
        lines.append(f".SH {heading.upper()}")
        for rows in facts.tables(facts.section(heading)):
            lines += [f".SS {plain(rows[0][0])}", *table_lines(rows)]
    lines += [".SH EXAMPLE", "A document that has every key:", ".PP", ".nf"]
    lines += [plain(line) or "\\&" for line in facts.example().splitlines()]
    lines += [".fi", ".SH SEE ALSO", ".BR ipbus (1)"]
    return "\n".join(lines) + "\n"
