#!/usr/bin/env python3
"""The reference part of docs/API.md, printed from the sources.

usage: tools/api.py                    prints the reference
       tools/api.py --write PAGE..     brings the marked parts of pages up to
                                       date
       tools/api.py --check PAGE..     ends with 1 if one is out of date, or
                                       if a public item has no text, does not
                                       say its errors or has a `requires`
       tools/api.py --selftest         tries itself on a small source

It reads crates.txt, and of each crate the root and the files that it names by
`mod`. Of each public item it prints the signature, with no body, no clause and
no ghost item, and its text. What the root re-exports has its public name.

A marked part of a page stands between the lines `<!-- api -->` and
`<!-- end api -->`, which is the reference, or between `<!-- quote FILE -->`
and `<!-- end quote -->`, which is a file in a fenced block. The mark
`<!-- quote FILE: NAME -->` is for the part of a file between the lines
`// NAME` and `// end`.
"""

import argparse
import os
import re
import sys
import tempfile
from collections import Counter
from dataclasses import dataclass, field

from checking import run_selftest

TOP = os.path.dirname(os.path.dirname(os.path.abspath(__file__)))

# Crates with public items that a user has no call for.
INTERNAL = ("kit_tests", "worked_figures")

# Traits of std whose impls a block shows. Others are named below it.
SHOWN_TRAITS = ("From", "TryFrom", "FromStr")


# ---- a source ---------------------------------------------------------------

COMMENT = r"//[^\n]*"
STRING = r'"(?:\\.|[^"\\])*"'
CHARACTER = r"'(?:\\u\{\w+\}|\\.|[^\\'\n])'"
HIDDEN = re.compile(f"{COMMENT}|{STRING}|{CHARACTER}", re.DOTALL)
ITEM = re.compile(
    r"(?P<public>pub(?:\(\w+\))? )?(?:const (?=fn\b)|unsafe )?"
    r"(?P<kind>fn|struct|enum|trait|const|static|type|impl|mod|use)\b\s*(?P<name>\w*)"
)
CLAUSE = re.compile(r"(?:requires|ensures|ghost)\b")


@dataclass
class Item:
    """An item of a source, or a field, a variant or a method of one."""

    kind: str
    name: str
    public: bool
    place: str
    text: str
    attributes: list
    signature: str = ""
    members: list = field(default_factory=list)
    # whether it has private fields
    hides: bool = False
    # whether it has a `requires`
    requires: bool = False
    # the modules in which it stands
    module: tuple = ()
    # its public name, if it has one, and the heading of its block
    shown: str = ""
    title: str = ""


class Source:
    """A file, and a copy of it whose comments and strings are blank."""

    def __init__(self, path, text):
        self.path = path
        self.text = text
        self.mask = HIDDEN.sub(
            lambda m: re.sub(r"[^\n]", " ", m.group()), text
        )

    def about(self):
        """What the lines `//!` at the head say."""
        head = re.match(r"(?://![^\n]*\n)*", self.text).group()
        return "\n".join(line[3:].strip() for line in head.splitlines())

    def place(self, at):
        """The line of an index."""
        line = self.text.count("\n", 0, at) + 1
        return f"{self.path}:{line}"

    def past_space(self, at, text=None):
        """The next index that is no space."""
        return re.compile(r"\s*").match(text or self.text, at).end()

    def line_at(self, at):
        """The rest of a line."""
        return self.text[at:].split("\n", 1)[0]

    def past_bracket(self, at):
        """The index past the bracket that closes the one here."""
        depth = 0
        for i in range(at, len(self.mask)):
            depth += (self.mask[i] in "([{") - (self.mask[i] in ")]}")
            if depth == 0:
                return i + 1
        raise ValueError(f"{self.place(at)}: this bracket is not closed")

    def find(self, at, marks):
        """The next index, outside of brackets, of one of these marks."""
        while at < len(self.mask) and self.mask[at] not in marks:
            at = self.past_bracket(at) if self.mask[at] in "([{" else at + 1
        return at

    def parts(self, at, end):
        """Where each item or member begins, with its text and attributes."""
        lines, attributes = [], []
        while (at := self.past_space(at)) < end:
            line = self.line_at(at)
            if line.startswith("//"):
                if line.startswith("///"):
                    lines.append(line[3:].strip())
                at += len(line)
            elif line.startswith("#"):
                close = self.past_bracket(at + line.index("["))
                attributes.append(self.text[at:close])
                at = close
            else:
                at = yield at, "\n".join(lines), attributes
                lines, attributes = [], []

    def items(self, at=0, end=None):
        """The items from one index to another."""
        found = []
        parts = self.parts(at, len(self.text) if end is None else end)
        part = next(parts, None)
        while part is not None:
            at, text, attributes = part
            if self.line_at(at).startswith("ghost "):
                end_of_item = self.find(at, ";") + 1
            else:
                item, end_of_item = self.item(at, text, attributes)
                found += [item] if item else []
            part = following(parts, end_of_item)
        return found

    def item(self, at, text, attributes):
        """The item that begins here, and where it ends.

        There is none of a module that is written out here, as of tests.
        """
        match = ITEM.match(self.mask, at)
        if match is None:
            raise ValueError(f"{self.place(at)}: this is no known item")
        item = Item(match["kind"], match["name"], match["public"] == "pub ",
                    self.place(at), text, attributes)
        if item.kind in ("const", "static", "type", "use", "mod"):
            end = self.find(at, ";")
            written_out = self.mask.find("{", at, end)
            if item.kind == "mod" and written_out >= 0:
                return None, self.past_bracket(written_out)
            item.signature = dedented(self.text[at:end])
            return item, end + 1
        head = self.head_end(at)
        item.signature = dedented(self.text[at:head])
        body = self.past_clauses(head)
        item.requires = self.mask.startswith("requires", head)
        if self.mask[body] == ";":
            return item, body + 1
        end = self.past_bracket(body)
        if item.kind in ("struct", "enum"):
            self.read_members(item, body + 1, end - 1)
        elif item.kind in ("trait", "impl"):
            item.members = self.items(body + 1, end - 1)
        return item, end

    def head_end(self, at):
        """Where a signature ends."""
        while self.mask[at] not in "{;":
            if self.mask[at - 1].isspace() and CLAUSE.match(self.mask, at):
                break
            at = self.past_bracket(at) if self.mask[at] in "([" else at + 1
        return at

    def past_clauses(self, at):
        """Where the body begins, or the semicolon stands."""
        while CLAUSE.match(self.mask, at):
            end = self.past_bracket(self.mask.index("{", at))
            at = self.past_space(end, self.mask)
        return at

    def read_members(self, item, at, end):
        """The public fields of a struct, or the variants of an enum."""
        parts = self.parts(at, end)
        part = next(parts, None)
        while part is not None:
            at, text, attributes = part
            comma = self.comma(at, end)
            line = self.text[at:comma].strip()
            match = re.match(r"(pub )?(ghost )?(\w+)", line)
            public = item.kind == "enum" or match[1] is not None
            if public and not match[2]:
                item.members.append(
                    Item("member", match[3], True, self.place(at), text,
                         attributes, dedented(line))
                )
            item.hides |= not public and not match[2]
            part = following(parts, comma + 1)

    def comma(self, at, end):
        """The next comma outside of brackets, or the end."""
        depth = 0
        while at < end and (self.mask[at] != "," or depth > 0):
            if self.mask[at] in "([{":
                at = self.past_bracket(at)
                continue
            depth += self.mask[at] == "<"
            depth -= self.mask[at] == ">" and self.mask[at - 1] not in "-="
            at += 1
        return at


def following(parts, at):
    """The next part from an index on, if there is one."""
    try:
        return parts.send(at)
    except StopIteration:
        return None


def dedented(text):
    """A signature as it would stand at the left margin."""
    first, *lines = text.rstrip().split("\n")
    margin = min((len(line) - len(line.lstrip()) for line in lines), default=0)
    lines = [first] + [line[margin:] for line in lines]
    return "\n".join(lines).removesuffix(",")


# ---- a crate ----------------------------------------------------------------

@dataclass
class Crate:
    """A crate, with what is public of it."""

    line: str
    about: str
    program: bool
    items: list = field(default_factory=list)
    impls: list = field(default_factory=list)
    # public names of items of other crates, with the paths to them
    handed_on: list = field(default_factory=list)

    @property
    def name(self):
        return re.match(r"\w+", self.line)[0]

    def types(self):
        return [item for item in self.items if item.kind in TYPES]

    def constants(self):
        return [item for item in self.items if item.kind == "const"]

    def functions(self):
        return [item for item in self.items if item.kind == "fn"]


TYPES = ("struct", "enum", "trait", "type")


def read(path):
    with open(path, encoding="utf-8") as file:
        return file.read()


def read_crates(top):
    lines = (line.partition("#")[0].strip()
             for line in read(f"{top}/crates.txt").splitlines())
    return [read_crate(top, line) for line in lines if line]


def read_crate(top, line):
    name = re.match(r"\w+", line)[0]
    folder = f"crates/{name}/src"
    program = os.path.exists(f"{top}/{folder}/main.rt")
    root = f"{folder}/main.rt" if program else f"{folder}/lib.rt"
    source = Source(root, read(f"{top}/{root}"))
    crate = Crate(line, source.about(), program)
    if not program and name not in INTERNAL:
        modules = {}
        read_module(top, folder, source, (), True, modules)
        names = exported(crate, modules)
        # Modules that are named as the crate come first.
        for path in sorted(modules, key=lambda path: not is_main(name, path)):
            read_public(crate, path, modules[path], names)
    return crate


def read_module(top, folder, source, path, public, modules):
    """A module, and those that it names by `mod`."""
    items = source.items()
    modules[path] = items, public
    for item in items:
        if item.kind == "mod" and "#[cfg(test)]" not in item.attributes:
            file = f"{folder}/{item.name}.rt"
            inner = Source(file, read(f"{top}/{file}"))
            read_module(top, f"{folder}/{item.name}", inner,
                        path + (item.name,), public and item.public, modules)


def is_main(crate, path):
    """Whether a module is the root, or is named as its crate."""
    first = path[0].split("_")[0] if path else crate
    return crate in (first, f"{first}s")


def exported(crate, modules):
    """The public name of each item that the root re-exports."""
    names = {}
    for item in modules[()][0]:
        if item.kind != "use" or not item.public:
            continue
        path, _, last = item.signature.removeprefix("pub use ").rpartition(
            "::"
        )
        module = tuple(path.removeprefix("crate::").split("::"))
        for word in last.strip("{}").split(","):
            old, _, new = word.strip().partition(" as ")
            if module in modules:
                names[module + (old,)] = new or old
            elif old:
                crate.handed_on.append((new or old, path))
    return names


def read_public(crate, path, module, names):
    """Puts what is public of a module into its crate."""
    items, public = module
    for item in items:
        item.module = path
        if item.kind == "impl":
            crate.impls.append(item)
        elif item.public and item.kind not in ("mod", "use"):
            full = path + (item.name,)
            item.shown = names.get(full) or (public and "::".join(full)) or ""
            if item.shown:
                crate.items.append(item)


# ---- an impl ----------------------------------------------------------------

def head_of(impl):
    """The trait of an impl, or nothing, and the type."""
    head = impl.signature.removeprefix("impl").strip()
    if head.startswith("<"):
        depth = 0
        for i, mark in enumerate(head):
            depth += (mark == "<") - (mark == ">" and head[i - 1] != "-")
            if depth == 0:
                head = head[i + 1:].strip()
                break
    trait, sign, target = head.partition(" for ")
    return (trait, target) if sign else ("", trait)


def bare(path):
    """The last name of a path, with no parameters."""
    return re.sub(r"<.*", "", path, flags=re.DOTALL).split("::")[-1].strip("&")


def owner(crate, impl):
    """The item in whose block an impl stands, if it is public."""
    trait, target = head_of(impl)
    for item in crate.types():
        if item.kind == "type" and item.module == impl.module:
            if target in (item.name, item.signature.partition(" = ")[2]):
                return item
    for name in (bare(target), bare(trait)):
        for item in crate.types():
            if item.kind != "type" and item.name == name:
                return item
    return None


def derived(item):
    words = (re.match(r"#\[derive\((.*)\)\]", attribute, re.DOTALL)
             for attribute in item.attributes)
    return [word.strip() for match in words if match
            for word in match[1].split(",") if word.strip()]


def told_methods(impl):
    """The methods of an impl that a user reads of."""
    trait, _ = head_of(impl)
    return [item for item in impl.members
            if item.kind == "fn" and (item.text if trait else item.public)]


# ---- what is wrong ----------------------------------------------------------

def wrongs(crates):
    """What is wrong with the public items."""
    for crate in crates:
        inherent = [item for impl in crate.impls if owner(crate, impl)
                    for item in told_methods(impl)]
        for item in crate.items:
            for part in [item] + item.members:
                yield from wrongs_of(part)
        for item in inherent:
            yield from wrongs_of(item)


def wrongs_of(item):
    if not item.text.strip():
        yield f"{item.place}: {item.name} has no text"
    result = item.signature.rpartition("->")[2]
    if item.kind == "fn" and "Result<" in result:
        if "# Errors" not in item.text:
            yield f"{item.place}: {item.name} does not say its errors"
    if item.requires:
        yield f"{item.place}: {item.name} has a requires"


# ---- the reference ----------------------------------------------------------

class Reference:
    """The reference of all crates."""

    def __init__(self, crates):
        self.crates = crates
        self.anchors = {}
        self.faults = set()
        self.traits = {}
        counts = Counter(item.shown for crate in crates
                         for item in crate.types())
        for crate in crates:
            for item in crate.items:
                item.title = {
                    "const": f"Constants of {crate.name}",
                    "fn": f"Functions of {crate.name}",
                }.get(item.kind, item.shown)
                if item.kind in TYPES and counts[item.shown] > 1:
                    item.title = f"{crate.name}::{item.shown}"
                self.anchors[crate.name, item.shown] = slug(item.title)
            for impl in crate.impls:
                trait, target = map(bare, head_of(impl))
                if trait == "Error":
                    self.faults.add(target)
                self.traits.setdefault(trait, []).append(target)
        self.own = {item.name for crate in crates for item in crate.items
                    if item.kind == "trait"}

    def text(self):
        parts = [self.contents()] + [self.section(c) for c in self.crates]
        return "\n\n".join(parts)

    def contents(self):
        return "\n".join(self.contents_of(crate) for crate in self.crates)

    def contents_of(self, crate):
        links = [f"[`{item.title}`](#{slug(item.title)})"
                 for item in self.ordered(crate)]
        for items in (crate.constants(), crate.functions()):
            if items:
                title = items[0].title
                word = title.split()[0].lower()
                links.append(f"[{word}](#{slug(title)})")
        line = f"- [{crate.name}](#{slug(f'Crate {crate.name}')})"
        return f"{line}: {', '.join(links)}" if links else line

    def ordered(self, crate):
        """The types of a crate, faults last."""
        return sorted(crate.types(), key=lambda item: item.name in self.faults)

    def section(self, crate):
        parts = [f"## Crate {crate.name}"]
        about = self.prose(crate, crate.about)
        if crate.program or crate.name in INTERNAL:
            kind = "A program" if crate.program else "For the kit alone"
            about = uncapitalised(about.removeprefix(f"{crate.name}: "))
            return "\n\n".join(parts + [f"{kind}: {about}"])
        parts += [about, f"Its line in crates.txt: `{crate.line}`"]
        for name, path in crate.handed_on:
            link = self.link(crate, f"{path}::{name}", name)
            parts.append(f"It hands on {link} of `{path}`.")
        parts += [self.block(crate, item) for item in self.ordered(crate)]
        for items in (crate.constants(), crate.functions()):
            if items:
                parts.append(self.group(crate, items))
        return "\n\n".join(parts)

    def block(self, crate, item):
        """A type or a trait, with what belongs to it."""
        code = [declaration(item)]
        told = list(item.members)
        traits = derived(item)
        for impl in crate.impls:
            if owner(crate, impl) is item:
                self.add_impl(impl, code, told, traits)
        parts = [f"### `{item.title}`", self.prose(crate, item.text),
                 fenced("\n\n".join(code), "rust"),
                 "\n".join(self.note(crate, part) for part in told),
                 self.remark(crate, item, traits)]
        return "\n\n".join(part for part in parts if part)

    def add_impl(self, impl, code, told, traits):
        """Shows an impl in a block, or names its trait."""
        trait = bare(head_of(impl)[0])
        methods = told_methods(impl)
        if methods:
            code.append(with_members(impl.signature, methods, ";"))
            told += methods
        elif trait in self.own or trait in SHOWN_TRAITS:
            code.append(f"{impl.signature} {{ .. }}")
        elif trait in STD_TRAITS:
            traits.append(trait)

    def remark(self, crate, item, traits):
        """What stands below the list of a block."""
        remarks = []
        if item.kind == "type":
            base = bare(item.signature.partition(" = ")[2])
            link = self.link(crate, base, base)
            if link.startswith("["):
                remarks.append(f"It is a {link}, with its calls.")
        if item.kind == "trait" and item.name in self.traits:
            names = dict.fromkeys(self.traits[item.name])
            links = (self.link(crate, name, name) for name in names)
            remarks.append(f"Types that have it: {', '.join(links)}.")
        if item.name in self.faults:
            remarks.append("[Its numbers and texts](REFUSALS.md).")
        if traits:
            names = ", ".join(f"`{name}`" for name in traits)
            remarks.append(f"Traits: {names}.")
        return " ".join(remarks)

    def group(self, crate, items):
        """All constants, or all functions."""
        code = "\n".join(f"{item.signature};" for item in items)
        notes = "\n".join(self.note(crate, item) for item in items)
        return f"### {items[0].title}\n\n{fenced(code, 'rust')}\n\n{notes}"

    def note(self, crate, item):
        """The line of an item in the list below a block."""
        names = re.findall(r"\w+", item.signature)
        faults = [f"[`{name}`](REFUSALS.md)" for name in dict.fromkeys(names)
                  if name in self.faults or name == "AllocError"]
        types = f" ({', '.join(faults)})" if faults else ""
        text, sign, errors = item.text.partition("# Errors")
        text = self.prose(crate, text)
        if sign:
            errors = uncapitalised(self.prose(crate, errors))
            text = f"{text} Errors{types}: {errors}"
        elif types:
            text = f"{text.removesuffix('.')}{types}."
        name = item.shown or item.name
        number, colon, rest = text.partition(": ")
        if colon and number.isdigit():
            return f"- `{name}`, {number}: {rest}"
        return f"- `{name}`: {text}"

    def prose(self, crate, text):
        """A text as one line, with links."""
        return re.sub(
            r"\[`([^`]+)`\](?:\(([\w:]+)\))?",
            lambda m: self.link(crate, m[2] or m[1], m[1]),
            " ".join(text.split()),
        )

    def link(self, crate, path, shown):
        """A link to the block of an item, or the bare name if it has none."""
        parts = path.removeprefix("crate::").split("::")
        own = [(crate.name, parts[0])]
        if len(parts) > 1:
            own.append((parts[0], parts[1]))
        others = [key for key in self.anchors if key[1] == parts[0]]
        for key in own + others:
            if key in self.anchors:
                return f"[`{shown}`](#{self.anchors[key]})"
        return f"`{shown}`"


STD_TRAITS = ("Default", "Display", "Error")


def uncapitalised(text):
    """A text that follows a colon."""
    return text[:1].lower() + text[1:] if text[1:2].islower() else text


def declaration(item):
    """A type or a trait, with its public members."""
    if item.kind == "trait":
        return with_members(item.signature, item.members, ";")
    if item.kind == "struct" and "(" in item.signature:
        return f"{without_private(item.signature)};"
    if not item.members and not item.hides:
        return f"{item.signature};"
    if not item.members:
        return f"{item.signature} {{ /* private fields */ }}"
    last = "\n    // and private fields" if item.hides else ""
    return with_members(item.signature, item.members, ",", last)


def without_private(signature):
    """A tuple struct without its fields if one of them is private."""
    head, bracket, fields = signature.partition("(")
    if bracket and re.search(r"(?:^|,)\s*(?!pub )\w", fields):
        return f"{head}(/* private fields */)"
    return signature


def with_members(head, members, mark, last=""):
    lines = [re.sub("^", "    ", item.signature, flags=re.MULTILINE) + mark
             for item in members]
    return "\n".join([f"{head} {{"] + lines) + f"{last}\n}}"


def fenced(code, language):
    return f"```{language}\n{code}\n```"


def slug(title):
    """The anchor of a heading."""
    return re.sub(r"[^\w\- ]", "", title.lower()).replace(" ", "-")


# ---- pages ------------------------------------------------------------------

MARKED = re.compile(
    r"(?P<open><!-- (?:api|quote (?P<file>[^\s:]+)(?:: (?P<name>[^>]+?))?) "
    r"-->\n).*?(?P<close><!-- end (?:api|quote) -->)",
    re.DOTALL,
)


def brought_up(top, page):
    """A page with its marked parts as they should be."""
    def part(match):
        if match["file"] is None:
            inner = Reference(read_crates(top)).text()
        else:
            inner = quoted(top, match["file"], match["name"])
        return f"{match['open']}\n{inner}\n\n{match['close']}"
    return MARKED.sub(part, page)


def quoted(top, file, name):
    """A file, or its named part, in a fenced block."""
    text = read(f"{top}/{file}")
    if name is not None:
        part = re.search(rf"(?ms)^// {re.escape(name)}\n(.*?)^// end$", text)
        if part is None:
            sys.exit(f"{file}: it has no part between // {name} and // end")
        text = part[1]
    language = "rust" if file.endswith(".rt") else "text"
    return fenced(text.rstrip("\n"), language)


def headings_twice(page):
    """The headings of a page that have one anchor."""
    lines = re.sub(r"(?ms)^```.*?^```", "", page).splitlines()
    counts = Counter(slug(line.lstrip("# ")) for line in lines
                     if line.startswith("#"))
    return [anchor for anchor, count in counts.items() if count > 1]


def write(top, pages):
    for path in pages:
        old = read(path)
        new = brought_up(top, old)
        if new != old:
            with open(path, "w", encoding="utf-8") as file:
                file.write(new)


def check(top, pages):
    """Whether nothing is wrong and all pages are up to date; tells what is
    not."""
    good = True
    for line in wrongs(read_crates(top)):
        print(line)
        good = False
    for path in pages:
        page = read(path)
        if brought_up(top, page) != page:
            print(f"{path}: out of date; run tools/api.py --write {path}")
            good = False
        for title in headings_twice(page):
            print(f"{path}: two headings have the anchor {title}")
            good = False
    return good


# ---- a small source ---------------------------------------------------------

SMALL_CRATES = """
# remarks are skipped
low:
high: low  # and so is this
run: high
"""

SMALL_ROOT = """//! Numbers that are low,
//! and no others.
#![tactic(auto)]

mod hidden;
pub mod low;

pub use hidden::Deep;
pub use low::{Fault, LOWEST, Low as Least, Net, Pair, check};
"""

SMALL_LOW = """//! The head of a module is no text of its items.
ghost use Rattle.std.specs.Prelude.{\u25cc\u2261\u25cc, []};

use std::error::Error;

/// The lowest, of [`Least`](crate::Least).
pub const LOWEST: [u8; 2] = [b'{', 1];

static TABLE: [[u8; 2]; 1] = [[1, 2]];

/// A low number; see [`check`].
#[derive(Clone, Copy)]
pub struct Low<'a, P: Net> {
    /// The number.
    pub number: &'a u8,
    plan: P,
    /// It is low.
    pub ghost low: { number < 2 ^ 2, 3 },
}

/// A pair.
pub type Pair = (u8, u8);

impl Net for Pair {
    fn level(&self) -> u8 {
        self.0
    }
}

/// 9: it is "not low".
#[derive(Debug)]
pub struct Fault(pub u8);

impl Error for Fault {}

impl<'a, P: Net> Low<'a, P> {
    ghost use Rattle.low.specs.Low.{is_low};

    /// Makes one.
    ///
    /// # Errors
    /// The first of these: 9 for a high
    /// number.
    #[tactic(auto, using(crate::proofs::Low::low))]
    pub fn new(
        number: &'a u8,
        plan: P,
    ) -> Result<Low<'a, P>, Fault>
        ensures good { result \u2261 { x = 1 } }
        ensures more { \u22a4 }
    {
        // Braces in remarks and strings do not count: }
        let text = "}";
        Err(Fault(*number))
    }

    // A private one.
    fn half(self) -> u8 {
        *self.number / 2
    }

    pub(crate) fn whole(self) -> u8 {
        *self.number
    }
}

impl<'a, P: Net> Net for Low<'a, P> {
    ghost level = { \u03bb l. l.number };

    fn level(&self) -> u8 {
        0
    }
}

/// What every net has.
pub trait Net {
    ghost level: { Self \u2192 \u2115 };

    /// The level.
    fn level(&self) -> u8
        ensures { result \u2261 level self.now };
}

pub fn check(number: u8) -> Result<(), Fault>
where
    u8: Copy,
{
    Err(Fault(number))
}

/// It is not handed on by the root.
pub fn other(number: u8)
    requires low { number < 2 }
    ensures { \u22a4 }
{}
"""

SMALL_HIDDEN = """/// Deep in a module that is not public.
pub enum Deep {
    /// With a pair.
    Pair(u8, Vec<u8>),
    /// With none.
    None,
}

pub struct Unseen;

#[cfg(test)]
mod tests {
    use super::*;
}
"""

SMALL_REFERENCE = """- [low](#crate-low): [`Least`](#least), \
[`Pair`](#pair), [`Net`](#net), [`Deep`](#deep), [`Fault`](#fault), \
[constants](#constants-of-low), [functions](#functions-of-low)
- [high](#crate-high)
- [run](#crate-run)

## Crate low

Numbers that are low, and no others.

Its line in crates.txt: `low:`

### `Least`

A low number; see [`check`](#functions-of-low).

```rust
pub struct Low<'a, P: Net> {
    pub number: &'a u8,
    // and private fields
}

impl<'a, P: Net> Low<'a, P> {
    pub fn new(
        number: &'a u8,
        plan: P,
    ) -> Result<Low<'a, P>, Fault>;
}

impl<'a, P: Net> Net for Low<'a, P> { .. }
```

- `number`: The number.
- `new`: Makes one. Errors ([`Fault`](REFUSALS.md)): the first of these: 9 \
for a high number.

Traits: `Clone`, `Copy`.

### `Pair`

A pair.

```rust
pub type Pair = (u8, u8);

impl Net for Pair { .. }
```

### `Net`

What every net has.

```rust
pub trait Net {
    fn level(&self) -> u8;
}
```

- `level`: The level.

Types that have it: [`Pair`](#pair), `Low`.

### `Deep`

Deep in a module that is not public.

```rust
pub enum Deep {
    Pair(u8, Vec<u8>),
    None,
}
```

- `Pair`: With a pair.
- `None`: With none.

### `Fault`

9: it is "not low".

```rust
pub struct Fault(pub u8);
```

[Its numbers and texts](REFUSALS.md). Traits: `Debug`, `Error`.

### Constants of low

```rust
pub const LOWEST: [u8; 2] = [b'{', 1];
```

- `LOWEST`: The lowest, of [`Least`](#least).

### Functions of low

```rust
pub fn check(number: u8) -> Result<(), Fault>
where
    u8: Copy;
pub fn other(number: u8);
```

- `check`:  ([`Fault`](REFUSALS.md)).
- `low::other`: It is not handed on by the root.

## Crate high

It hands all on.

Its line in crates.txt: `high: low`

It hands on [`Net`](#net) of `low`.

## Crate run

A program: it runs."""

SMALL_PAGE = """# Small

<!-- quote crates/low/src/hidden.rt -->
old
<!-- end quote -->

<!-- quote crates/high/src/lib.rt: a part -->
<!-- end quote -->
"""


def selftest(checks):
    """The reference of a small source, what is wrong with it, and a page."""
    with tempfile.TemporaryDirectory() as top:
        for path, text in {
            "crates.txt": SMALL_CRATES,
            "crates/low/src/lib.rt": SMALL_ROOT,
            "crates/low/src/low.rt": SMALL_LOW,
            "crates/low/src/hidden.rt": SMALL_HIDDEN,
            "crates/high/src/lib.rt": "//! It hands all on.\n// a part\n"
                                      "pub use low::Net;\n// end\n",
            "crates/run/src/main.rt": "//! run: it runs.\nfn main() {}\n",
        }.items():
            os.makedirs(os.path.dirname(f"{top}/{path}"), exist_ok=True)
            with open(f"{top}/{path}", "w", encoding="utf-8") as file:
                file.write(text)
        crates = read_crates(top)
        checks.same(Reference(crates).text(), SMALL_REFERENCE)
        check, other = (
            f"crates/low/src/low.rt:{line}"
            for line, text in enumerate(SMALL_LOW.splitlines(), 1)
            if text.startswith("pub fn")
        )
        checks.same(list(wrongs(crates)),
                    [f"{check}: check has no text",
                     f"{check}: check does not say its errors",
                     f"{other}: other has a requires"])
        page = brought_up(top, SMALL_PAGE)
        for quoted in (SMALL_HIDDEN, "pub use low::Net;\n"):
            checks.holds(f"```rust\n{quoted}```\n" in page, quoted)
        checks.same(brought_up(top, page), page)
        twice = headings_twice("# A b\n```\n# a\n```\n## `A` b\n")
        checks.same(twice, ["a-b"])


def main():
    parser = argparse.ArgumentParser(
        description="The reference part of docs/API.md, from the sources."
    )
    mode = parser.add_mutually_exclusive_group()
    mode.add_argument("--write", nargs="+", metavar="PAGE")
    mode.add_argument("--check", nargs="+", metavar="PAGE")
    mode.add_argument("--selftest", action="store_true")
    options = parser.parse_args()
    if options.selftest:
        run_selftest(selftest)
    elif options.write:
        write(TOP, options.write)
    elif options.check:
        sys.exit(not check(TOP, options.check))
    else:
        print(Reference(read_crates(TOP)).text())


if __name__ == "__main__":
    main()
