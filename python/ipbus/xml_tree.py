"""An XML file as a tree of elements that know their line, and what is wrong with a file, told by file and line."""

from __future__ import annotations

import pathlib
from xml.parsers import expat

from ipbus.errors import BadDocument


class BadXml(BadDocument):
    """What cannot be meant: the file, the line there, and why."""

    advice = ""


class Element:
    """An element: where it begins, its attributes, and the elements in it."""

    def __init__(self, file: pathlib.Path, line: int, name: str, attributes: dict[str, str]) -> None:
        self.file = file
        self.line = line
        self.name = name
        self.attributes = attributes
        self.elements: list[Element] = []

    def refused(self, why: str) -> BadXml:
        """The refusal of this element."""
        return BadXml(self.note(why))

    def note(self, text: str) -> str:
        """A line about this element, for those who read standard error."""
        return f"{self.file}:{self.line}: {text}"


def read_xml(file: pathlib.Path, named_by: Element | None = None) -> Element:
    """The root of an XML file, which an element may name. `BadXml` if it is none, or cannot be read."""
    try:
        data = file.read_bytes()
    except OSError as error:
        if named_by is not None:
            raise named_by.refused(f"{file} cannot be read: {error.strerror}") from None
        raise BadXml(f"{file}: {error.strerror}") from None
    parser = expat.ParserCreate()
    parser.SetParamEntityParsing(expat.XML_PARAM_ENTITY_PARSING_NEVER)
    document = Element(file, 1, "", {})
    path = [document]

    def begin(name: str, attributes: dict[str, str]) -> None:
        element = Element(file, parser.CurrentLineNumber, name, attributes)
        path[-1].elements.append(element)
        path.append(element)

    def end(_name: str) -> None:
        path.pop()

    parser.StartElementHandler = begin
    parser.EndElementHandler = end
    try:
        parser.Parse(data, True)
    except expat.ExpatError as error:
        raise BadXml(f"{file}:{error.lineno}: no XML: {expat.ErrorString(error.code)}") from None
    except ValueError as error:  # an encoding that Python does not know
        raise BadXml(f"{file}:1: no XML: {error}") from None
    return document.elements[0]
