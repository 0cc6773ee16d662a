#!/usr/bin/env python3
"""Checks a picture of a panel: plain SVG 1.1, with the places as circles.

  check_svg.py FILE                   the file is plain SVG 1.1, with one group whose id is `places`
           --places PLACES            the circles of that group are these places, a line `x y` each, in this order
           --text TEXT                some text of the picture has TEXT; can be given more than once
  check_svg.py --selftest

Plain means: well-formed XML, the root an `svg` of version 1.1 in the SVG namespace with a view box, no element and no
namespace but those listed here, no script, no event attribute, no style sheet, no declaration of a document type or of
an entity, and no reference to anything outside the file. A place (x, y) is a circle with cx = x and cy = 65536 - y.
Each fault is told on standard error; the status is then 1.
"""

import argparse
import re
import sys
from pathlib import Path
from xml.etree.ElementTree import ParseError, XMLParser

from checking import run_selftest
from meaning import PANEL_SIDE

SVG = "http://www.w3.org/2000/svg"
XML = "http://www.w3.org/XML/1998/namespace"
XLINK = "http://www.w3.org/1999/xlink"
ELEMENTS = {
    "svg",
    "g",
    "defs",
    "title",
    "desc",
    "rect",
    "circle",
    "ellipse",
    "line",
    "polyline",
    "polygon",
    "path",
    "text",
    "tspan",
    "linearGradient",
    "stop",
    "clipPath",
    "pattern",
}
XML_ATTRIBUTES = {"space", "lang"}
PLACES = "places"


class Picture:
    """What the XML parser finds: faults, the circles of the places, and texts."""

    def __init__(self):
        self.faults = []
        self.circles = []
        self.texts = []
        self.ids = []
        self._open = []

    # what the parser calls

    def start(self, tag, attributes):
        """An element begins."""
        space, name = split_name(tag)
        if space != SVG or name not in ELEMENTS:
            self.faults.append(f"an element {tag}")
        if not self._open:
            self._check_root(name, attributes)
        elif name == "svg":
            self.faults.append("an svg within the svg")
        for key, value in attributes.items():
            self._check_attribute(name, key, value)
        if "id" in attributes:
            self.ids.append((name, attributes["id"]))
        self._open.append((name, attributes.get("id")))
        if name == "circle" and ("g", PLACES) in self._open:
            self.circles.append(attributes)
        if name == "text":
            self.texts.append("")

    def end(self, tag):
        """An element ends."""
        self._open.pop()

    def data(self, text):
        """A text."""
        if "text" in [name for name, _ in self._open]:
            self.texts[-1] += text

    def doctype(self, name, public, system):
        """A document type is declared."""
        self.faults.append(f"a document type {name}")

    def pi(self, target, text=None):
        """A processing instruction."""
        self.faults.append(f"a processing instruction {target}")

    def close(self):
        """The file ends."""
        groups = [name for name, found in self.ids if found == PLACES]
        if groups != ["g"]:
            self.faults.append(f"not one group with the id {PLACES}, but {groups}")
        every = [found for _, found in self.ids]
        self.faults += [f"the id {found} more than once" for found in sorted(set(every)) if every.count(found) > 1]

    # what is looked at

    def _check_root(self, name, attributes):
        if name != "svg":
            self.faults.append(f"the root is {name}")
        if attributes.get("version") != "1.1":
            self.faults.append(f"the version is {attributes.get('version')}")
        box = attributes.get("viewBox", "").split()
        if len(box) != 4 or None in map(number, box) or number(box[2]) <= 0 or number(box[3]) <= 0:
            self.faults.append(f"the view box is {' '.join(box)!r}")

    def _check_attribute(self, element, key, value):
        space, name = split_name(key)
        said = f'{name}="{value[:40]}" of {element}'
        if name.lower().startswith("on"):
            self.faults.append(f"an event attribute {said}")
        elif name == "href" and not value.startswith("#"):
            self.faults.append(f"a reference {said}")
        elif space == XML and name not in XML_ATTRIBUTES or space not in (None, XML, XLINK):
            self.faults.append(f"an attribute {said}")
        elif re.search(r"url\s*\(\s*['\"]?(?!#)|@import|javascript:", re.sub(r"/\*.*?\*/|\\", "", value), re.I):
            self.faults.append(f"a reference {said}")

    def check_places(self, places):
        """Notes where the circles are not these places."""
        found = [tuple(number(circle.get(key, "")) for key in ("cx", "cy")) for circle in self.circles]
        wanted = [(x, PANEL_SIDE - y) for x, y in places]
        if len(found) != len(wanted):
            self.faults.append(f"{len(found)} circles for {len(wanted)} places")
        for at, (circle, place) in enumerate(zip(found, wanted)):
            if circle != place:
                self.faults.append(f"circle {at} is at {circle}, not {place}")
                return

    def check_circles(self):
        """Notes circles that cannot be seen."""
        for at, circle in enumerate(self.circles):
            if not (number(circle.get("r", "")) or 0) > 0:
                self.faults.append(f"circle {at} has the radius {circle.get('r')!r}")
                return

    def check_text(self, wanted):
        """Notes a text that is missing."""
        if not any(wanted in text for text in self.texts):
            self.faults.append(f"no text {wanted!r}")


def split_name(name):
    """The namespace, or None, and the name in it."""
    if name.startswith("{"):
        space, name = name[1:].split("}", 1)
        return space, name
    return None, name


def number(word):
    """A plain decimal number, or None."""
    return float(word) if re.fullmatch(r"-?[0-9]+(\.[0-9]+)?", word) else None


def read_places(text):
    """Places, a line `x y` each."""
    return [tuple(map(int, line.split(" "))) for line in text.splitlines()]


def faults_of(data, places=None, texts=()):
    """What is wrong with a picture."""
    picture = Picture()
    parser = XMLParser(target=picture)
    try:
        parser.feed(data)
        parser.close()
    except ParseError as error:
        return [*picture.faults, f"no well-formed XML: {error}"]
    picture.check_circles()
    if places is not None:
        picture.check_places(places)
    for wanted in texts:
        picture.check_text(wanted)
    return picture.faults


# ---- the self-test --------------------------------------------------------------------------------------------

GOOD = """<?xml version="1.0" encoding="UTF-8"?>
<svg xmlns="http://www.w3.org/2000/svg" version="1.1" width="300" height="300" viewBox="-9 -9 65554 65554">
<title>a panel</title>
<defs><linearGradient id="shades"><stop offset="0" stop-color="#fff"/></linearGradient></defs>
<rect x="0" y="0" width="65536" height="65536" fill="url(#shades)"/>
<g id="places" fill="black">
<circle cx="0" cy="65536" r="400"/>
<circle cx="16384" cy="32768" r="400"><title>1</title></circle>
</g>
<circle cx="9" cy="9" r="1"/>
<text x="0" y="65536" xml:space="preserve">level <tspan>2</tspan> &amp; more</text>
</svg>
"""
WRONG = (
    ("</g>", "", "no well-formed XML"),
    ("<svg xmlns", "<svg a", "an element svg"),
    ('version="1.1"', 'version="1.2"', "the version is 1.2"),
    ('version="1.1" ', "", "the version is None"),
    ('viewBox="-9 -9 65554 65554"', "", "the view box is ''"),
    ("65554 65554", "65554 0", "the view box is"),
    ("<title>a panel</title>", "<script>1</script>", "an element {http://www.w3.org/2000/svg}script"),
    ("<title>a panel</title>", '<image href="#a"/>', "an element {http://www.w3.org/2000/svg}image"),
    ("<title>a panel</title>", "<style>a</style>", "an element {http://www.w3.org/2000/svg}style"),
    ("<title>a panel</title>", '<b xmlns="http://example.org/"/>', "an element {http://example.org/}b"),
    ("<title>a panel</title>", '<svg version="1.1" viewBox="0 0 1 1"/>', "an svg within"),
    ("<rect ", '<rect onclick="a" ', 'an event attribute onclick="a" of rect'),
    ("<rect ", '<rect OnLoad="a" ', "an event attribute"),
    ("<rect ", '<rect href="other.svg" ', "a reference href"),
    ("<rect ", '<rect xmlns:l="http://www.w3.org/1999/xlink" l:href="http://a/" ', "a reference href"),
    ("<rect ", '<rect style="fill: URL( \'a.png\')" ', "a reference style"),
    ("url(#shades)", "url(b.svg#shades)", "a reference fill"),
    ("url(#shades)", "url(  b)", "a reference fill"),
    ("<rect ", '<rect xml:base="http://a/" ', "an attribute base"),
    ("<rect ", '<rect xmlns:i="http://example.org/" i:label="a" ', "an attribute label"),
    ("<svg ", '<!DOCTYPE svg SYSTEM "a.dtd"><svg ', "a document type svg"),
    ("<svg ", '<!DOCTYPE svg [<!ENTITY a "b">]><svg ', "a document type svg"),
    ("<svg ", '<?xml-stylesheet href="a.css"?><svg ', "a processing instruction xml-stylesheet"),
    ('id="places"', 'id="dots"', "not one group"),
    ('<rect x="0"', '<rect id="places" x="0"', "not one group"),
    ('<rect x="0"', '<rect id="shades" x="0"', "the id shades more than once"),
    ('cx="16384"', 'cx="16385"', "circle 1 is at (16385.0, 32768.0), not (16384, 32768)"),
    ('cx="16384"', 'cx="1e4"', "circle 1 is at (None, 32768.0)"),
    ('cy="65536" r="400"', 'cy="0" r="400"', "circle 0 is at (0.0, 0.0), not (0, 65536)"),
    ('<circle cx="0" cy="65536" r="400"/>', "", "1 circles for 2 places"),
    ("</g>", '<circle cx="0" cy="0" r="1"/></g>', "3 circles for 2 places"),
    ('r="400"/>', 'r="0"/>', "circle 0 has the radius '0'"),
    ('r="400"/>', "/>", "circle 0 has the radius None"),
    ("level", "label", "no text 'level 2 &'"),
)


def selftest(checks):
    """A good picture has no fault, and each picture with a slip has the fault that it is to have."""
    places = read_places("0 0\n16384 32768\n")
    checks.same(faults_of(GOOD, places, ["level 2 &", "more"]), [], "the good picture")
    checks.same(faults_of(GOOD), [], "the good picture, with no places given")
    checks.same(faults_of(GOOD, places[::-1])[0], "circle 0 is at (0.0, 65536.0), not (16384, 32768)")
    for old, new, fault in WRONG:
        checks.same(GOOD.count(old) > 0, True, f"{old} is in the picture")
        found = faults_of(GOOD.replace(old, new, 1), places, ["level 2 &"])
        checks.holds(any(it.startswith(fault) for it in found), f"{new}: {found}")
    checks.holds(faults_of(""), "an empty file is at fault")
    checks.holds(faults_of("<g>"), "a file that is cut is at fault")


def main():
    """Checks a file."""
    parser = argparse.ArgumentParser(
        description=__doc__, formatter_class=argparse.RawDescriptionHelpFormatter
    )
    parser.add_argument("file", metavar="FILE", type=Path, nargs="?")
    parser.add_argument("--places", metavar="PLACES", type=Path)
    parser.add_argument("--text", action="append", default=[])
    parser.add_argument("--selftest", action="store_true")
    asked = parser.parse_args()
    if asked.selftest:
        run_selftest(selftest)
        return 0
    if asked.file is None:
        parser.error("FILE is needed")
    places = read_places(asked.places.read_text()) if asked.places else None
    faults = faults_of(asked.file.read_bytes(), places, asked.text)
    for fault in faults:
        print(f"check_svg: {asked.file}: {fault}", file=sys.stderr)
    return 1 if faults else 0


if __name__ == "__main__":
    sys.exit(main())
