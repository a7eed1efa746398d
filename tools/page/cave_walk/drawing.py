"""The drawing of a map as a module: a graph of `cave map`, laid out by `dot`, as SVG for a page.

    drawn = drawing.of(graph)      # drawn.svg, drawn.titles

Colours are taken out of the drawing and classes put in, so that a page can show it by day and by
night: `place` with `seen`, `dark` or `forced`, and `way` with `seen`. A place carries its number, a
way its two.
"""

import re
import subprocess
import xml.etree.ElementTree as tree
from itertools import takewhile
from typing import NamedTuple

from .steps import Stop

SVG = "http://www.w3.org/2000/svg"
HOVER = "{http://www.w3.org/1999/xlink}title"
PLACE, WAY = re.compile(r"\d+"), re.compile(r"(\d+)\.(\d+)")
EDGE = re.compile(r"\d+->(\d+\.\d+)|(\d+\.\d+)->\d+|(\d+->\d+)")
CAPTION = re.compile(r"^  graph \[labelloc=.*\n", re.MULTILINE)
LABEL = re.compile(r'^  (\d+) \[label="((?:[^"\\]|\\.)*)"', re.MULTILINE)
OWN_LINE = re.compile(r"\+ \S|= \w|visits \d")
THICK, DARK = "2.5", ("#cccccc", "gray80")
TAKEN_OUT = """fill stroke stroke-width stroke-dasharray font-family font-size id
style""".split()


class Drawing(NamedTuple):
    """A map as it is laid out: the drawing, and the titles of its places."""

    svg: str
    titles: dict[str, str]


def child_of(element: tree.Element, name: str) -> tree.Element:
    """A part of a drawing, which `dot` always draws."""
    found = element.find(f"{{{SVG}}}{name}")
    if found is None:
        raise Stop(f"what dot draws has no {name}")
    return found


def titles_of(graph: str) -> dict[str, str]:
    """The title of each place by its number, as its label has it on separate lines."""
    found = dict[str, str]()
    for number, label in LABEL.findall(graph):
        shown = [re.sub(r"\\(.)", r"\1", it) for it in re.split(r"\\n", label) if it]
        rows = [*shown[:1], *takewhile(lambda it: not OWN_LINE.match(it), shown[1:])]
        found[number] = " ".join(rows).replace("&amp;", "&").removeprefix(number).strip()
    return found


def classes_of(kind: str, shapes: list[tree.Element]) -> list[str]:
    """The classes of a place or a way, by the colours and the pens of its shapes."""
    pens = {it.get("stroke-width") for it in shapes}
    fills = {it.get("fill") for it in shapes}
    found = [kind] + ["seen"] * (THICK in pens) + ["dark"] * bool(fills & {*DARK})
    return found + ["forced"] * any(it.tag.endswith("}ellipse") for it in shapes)


def unwrap(group: tree.Element) -> None:
    """Puts the text that is shown on hover into the title of a group, for the link around it."""
    for wrap in group.findall(f"{{{SVG}}}g"):
        link = child_of(wrap, "a")
        tree.SubElement(group, f"{{{SVG}}}title").text = link.get(HOVER, "").strip("\n")
        group.extend(link)
        group.remove(wrap)


def mark(group: tree.Element) -> None:
    """Puts the classes and numbers of a group in, and takes its colours out."""
    title = child_of(group, "title")
    name = (title.text or "").strip()
    group.remove(title)
    unwrap(group)
    shapes = [it for it in group.iter() if it is not group]
    hollow = [it for it in shapes if it.get("fill") == "none" and it.tag.endswith("}polygon")]
    edge = EDGE.fullmatch(name)
    for it in shapes if WAY.fullmatch(name) else []:
        it.set("class", "ground")
    if PLACE.fullmatch(name):
        group.set("class", " ".join(classes_of("place", shapes)))
        group.set("data-place", name)
    elif edge or WAY.fullmatch(name):
        group.set("class", " ".join(classes_of("way", shapes) + ["label"] * (not edge)))
        way = next(filter(None, edge.groups())) if edge else name
        group.set("data-way", way.replace("->", "."))
        group.set("aria-hidden", "true")
    for it in [group, *shapes]:
        for attribute in TAKEN_OUT:
            it.attrib.pop(attribute, None)
    for it in hollow:
        it.set("class", "hollow")


def frame_of(polygon: tree.Element) -> str:
    """The box of the drawing, in the drawing's own units, as a viewBox."""
    points = [[float(it) for it in point.split(",")] for point in polygon.get("points", "").split()]
    left, top = (min(column) for column in zip(*points))
    right, bottom = (max(column) for column in zip(*points))
    return " ".join(f"{it:.2f}" for it in (left, top, right - left, bottom - top))


def of(graph: str) -> Drawing:
    """The drawing of a graph: what a page has inside its element `svg`, and the titles."""
    tree.register_namespace("", SVG)
    drawn = subprocess.run(["dot", "-Tsvg"], input=CAPTION.sub("", graph).encode(),
                           capture_output=True)
    if drawn.returncode:
        raise Stop(f"dot ends with status {drawn.returncode}: {drawn.stderr.decode().strip()}")
    try:
        root = tree.fromstring(drawn.stdout)
    except tree.ParseError as wrong:
        raise Stop(f"what dot draws can't be read: {wrong}") from None
    whole = child_of(root, "g")
    ground = child_of(whole, "polygon")
    frame = frame_of(ground)
    for it in [ground, *whole.findall(f"{{{SVG}}}title")]:
        whole.remove(it)
    groups = whole.findall(f"{{{SVG}}}g")
    for group in groups:
        mark(group)
    box = tree.Element(f"{{{SVG}}}svg", {"id": "drawing", "viewBox": frame, "data-whole": frame,
                                         "role": "group", "aria-label": "The map of the cave"})
    edges = [it for it in groups if "label" not in it.get("class", "").split()
             and it.get("data-way")]
    others = [it for it in groups if it not in edges]
    for name, its in ("ways", edges), ("trails", list[tree.Element]()), ("places", others):
        tree.SubElement(box, f"{{{SVG}}}g", {"id": name}).extend(its)
    return Drawing(tree.tostring(box, encoding="unicode"), titles_of(graph))
