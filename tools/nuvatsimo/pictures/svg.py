"""Elements of SVG, as texts. Places are whole pixels at scale 1, from the left and the top."""

from __future__ import annotations

from html import escape

from nuvatsimo.texts import GREATEST


def size(width: int, height: int) -> str:
    """Returns what a picture of this size begins with."""
    place = f"width='{width}' height='{height}' viewBox='0 0 {width} {height}'"
    return f"<svg xmlns='http://www.w3.org/2000/svg' {place}>\n"


def shown(text: str) -> str:
    """Returns a text as content of an element. The greatest offset is the end of the file."""
    return escape(text.replace(str(GREATEST), "end"), quote=False)


def line(kind: str, x1: int, y1: int, x2: int, y2: int) -> str:
    """Returns a line of this class."""
    return f"<line class='{kind}' x1='{x1}' y1='{y1}' x2='{x2}' y2='{y2}'/>"


def box(kind: str, x: int, y: int, width: int, height: int) -> str:
    """Returns a box of this class."""
    place = f"x='{x}' y='{y}' width='{width}' height='{height}'"
    return f"<rect class='{kind}' {place} rx='3'/>"


def label(kind: str, x: int, y: int, text: str) -> str:
    """Returns a label of this class."""
    return f"<text class='{kind}' x='{x}' y='{y}'>{text}</text>"


def titled(title: str, content: str) -> str:
    """Returns a group with its title, in a line of its own."""
    return f"<g><title>{title}</title>{content}</g>\n"
