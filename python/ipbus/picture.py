"""A picture in SVG, put together from boxes, lines, arrows and texts."""

from __future__ import annotations

from collections.abc import Sequence
from xml.sax.saxutils import escape

INK, LINE, PROVED, OUTSIDE, LOST, PALE = "#222222", "#555555", "#e3eefa", "#f4f0e6", "#b3261e", "#9aa7b5"


class Picture:
    """A picture of so many units."""

    def __init__(self, width: int, height: int, title: str) -> None:
        self.parts: list[str] = [
            f'<svg xmlns="http://www.w3.org/2000/svg" viewBox="0 0 {width} {height}" width="{width}" height="{height}"'
            f' role="img" font-family="Helvetica, Arial, sans-serif" font-size="14">',
            f"<title>{escape(title)}</title>",
            f'<rect x="0" y="0" width="{width}" height="{height}" fill="#ffffff"/>',
        ]

    def box(self, x: float, y: float, width: float, height: float, fill: str = "#ffffff", dashed: bool = False) -> None:
        """A box with round corners."""
        dash = ' stroke-dasharray="6 4"' if dashed else ""
        self.parts.append(
            f'<rect x="{x}" y="{y}" width="{width}" height="{height}" rx="6" fill="{fill}" stroke="{LINE}"{dash}/>'
        )

    def text(
        self,
        x: float,
        y: float,
        text: str,
        size: int = 14,
        anchor: str = "middle",
        weight: str = "normal",
        color: str = INK,
    ) -> None:
        """A line of text, whose middle, start or end stands at x."""
        self.parts.append(
            f'<text x="{x}" y="{y}" text-anchor="{anchor}" font-size="{size}" font-weight="{weight}" fill="{color}">'
            f"{escape(text)}</text>"
        )

    def labelled(
        self, x: float, y: float, width: float, height: float, lines: Sequence[str], fill: str = "#ffffff"
    ) -> None:
        """A box with a line of text for each of these, the first one bold."""
        self.box(x, y, width, height, fill)
        top = y + height / 2 - 9 * (len(lines) - 1) + 5
        for number, line in enumerate(lines):
            size, weight = (12, "normal") if number else (14, "bold")
            self.text(x + width / 2, top + 18 * number, line, size, weight=weight)

    def line(
        self, x1: float, y1: float, x2: float, y2: float, color: str = LINE, dashed: bool = False, width: float = 1.5
    ) -> None:
        """A line between two points."""
        dash = ' stroke-dasharray="6 4"' if dashed else ""
        self.parts.append(
            f'<line x1="{x1}" y1="{y1}" x2="{x2}" y2="{y2}" stroke="{color}" stroke-width="{width}"{dash}/>'
        )

    def arrow(self, x1: float, y1: float, x2: float, y2: float, color: str = LINE, both: bool = False) -> None:
        """A line with a head at its second end, or at both."""
        self.line(x1, y1, x2, y2, color)
        self.head(x1, y1, x2, y2, color)
        if both:
            self.head(x2, y2, x1, y1, color)

    def head(self, x1: float, y1: float, x2: float, y2: float, color: str) -> None:
        """The head of an arrow at its second end."""
        length = ((x2 - x1) ** 2 + (y2 - y1) ** 2) ** 0.5
        along, across = ((x2 - x1) / length, (y2 - y1) / length), ((y1 - y2) / length, (x2 - x1) / length)
        back = (x2 - 9 * along[0], y2 - 9 * along[1])
        corners = [(x2, y2)] + [(back[0] + side * across[0], back[1] + side * across[1]) for side in (4, -4)]
        points = " ".join(f"{x:.1f},{y:.1f}" for x, y in corners)
        self.parts.append(f'<polygon points="{points}" fill="{color}"/>')

    def svg(self) -> str:
        """The text of the picture."""
        return "\n".join([*self.parts, "</svg>", ""])
