"""The public items of the crates that callers name, as their sources have them."""
import functools
import pathlib
import re
from typing import NamedTuple

ROOT = pathlib.Path(__file__).resolve().parent.parent
LIBRARIES = ("uri_pct", "uri_parts", "uri_ops", "error_laws", "fluent_uri")
# The other crates that callers name, which have their own items alone.
BESIDE = (
    "uri_relative", "uri_mend", "uri_basic", "uri_order", "uri_query", "uri_idna", "uri_links",
)
ITEM = re.compile(
    r"(?P<vis>pub )?(?:final )?(?:const )?(?P<what>fn|struct|enum|trait|type|const|static) "
    r"(?P<name>\w+)"
)
IMPL = re.compile(r"impl(?:<.*?>)? (?:(?P<trait>[\w:]+(?:<.*>)?) for )?(?P<type>\w+)")
# What an implementation of a trait of std says in the place of clauses.
SAID = {
    "Clone": "is_clone", "Debug": "debug_output", "Default": "is_default",
    "Display": "output|styled_output", "From": "from_gives", "Hash": "hash_input", "Ord": "cmp",
    "PartialEq": "eq", "PartialOrd": "partial_cmp", "TryFrom": "try_from_gives",
}
# What src/lib.rt of fluent_uri makes public.
PUBLIC = re.compile(
    r"^(?P<indent> *)pub (?:mod (?P<module>\w+) \{|type (?P<type>\w+)"
    r"|use (?P<path>[\w:]+?)::(?:\{(?P<names>[^}]*)\}|(?P<name>\w+));)", re.M
)


class Item(NamedTuple):
    file: str
    owner: str  # the type or trait that has it, or nothing
    block: str  # the head of the impl that has it, or nothing
    what: str
    name: str
    signature: str
    contract: list = []  # its clauses, line by line
    doc: list = []
    is_hidden: bool = False

    @property
    def path(self):
        return f"{self.owner}::{self.name}" if self.owner else self.name


class Module(NamedTuple):
    name: str
    about: str
    items: list  # each item with what it has


def signature_of(lines, at):
    """The item's head in one line, without its contract and its body."""
    taken = []
    for line in map(str.strip, lines[at:]):
        if re.match(r"(requires|ensures|ghost)\b", line) or line == "{":
            break
        taken.append(line)
        if line.endswith((";", "{", "}")):
            break
    text = re.sub(r"\s+", " ", " ".join(taken))
    text = re.sub(r"\( ", "(", re.sub(r",? \)", ")", text))
    if " const " in f" {text}" and "fn " not in text:
        text = re.sub(r" = [^;]*;$", ";", text)
    return text.rstrip(" {;,")


def contract_of(lines, at):
    """The clauses of the function whose head begins at a line, as deep as its head."""
    indent = len(lines[at]) - len(lines[at].lstrip())
    clauses = []
    for line in lines[at:]:
        word = line.strip()
        is_clause = re.match(r"(requires|ensures)\b", word)
        if word in ("{", "{}", ";") or not clauses and word.endswith(("{", ";")) and not is_clause:
            break
        if is_clause or clauses:
            clauses.append(line[indent:].rstrip(";"))
            if word.endswith(";"):
                break
    return clauses


def doc_above(lines, at):
    """The doc comment above a line, and whether it is hidden."""
    doc, is_hidden = [], False
    while at > 0 and (line := lines[at - 1].strip()).startswith(("///", "#[", "ghost use")):
        at -= 1
        if line.startswith("///"):
            doc.insert(0, line[4:])
        is_hidden |= line == "#[doc(hidden)]"
    return doc, is_hidden


def said_of(lines, at, trait):
    """The members by which an implementation of a trait of std says what its calls return."""
    names = SAID.get(re.match(r"(?:\w+::)*(\w+)", trait)[1], "$")
    end = lines.index("}", at) if not lines[at].endswith("}") else at
    return re.findall(rf"^    (ghost (?:{names}) = .*?;)$", "\n".join(lines[at:end]), re.M | re.S)


def derived_above(file, lines, at, owner):
    """The traits of std that a type derives, of those that say what their calls return. What they
    say is of the type of its field, if it has one alone."""
    text = " ".join(lines[at : lines.index("}", at)]) if lines[at].endswith("{") else ""
    held = re.findall(r"(?:^|\s)(?:pub(?:\(crate\))? )?\w+: (\w+)", text.partition("{")[2])
    while at > 0 and lines[at - 1].startswith(("///", "#[")):
        at -= 1
        if found := re.match(r"#\[derive(?:_where)?\((.*)\)\]", lines[at]):
            for it in found[1].split(", "):
                if it in (*SAID, "Eq"):
                    yield Item(file, owner, "", "derive", it, held[0] if len(held) == 1 else "")


@functools.cache
def items_of(path):
    """Each item of a source file, and last the variants of its enums."""
    file, lines = str(path.relative_to(ROOT)), path.read_text(encoding="utf-8").splitlines()
    found, variants = [], []
    owner = trait = block = top = ""
    for at, line in enumerate(lines):
        indent = len(line) - len(line.lstrip())
        doc = functools.partial(doc_above, lines, at)
        if line and not line.startswith((" ", "/", "#", "}", ")", "where")):
            owner = trait = block = top = ""
            if it := IMPL.match(line):
                owner, trait, block = it["type"], it["trait"], line.rstrip(" {")
                if owner == "String" and (own := re.match(r"From<(\w+)", trait or "")):
                    owner = own[1]
                if trait:
                    said = said_of(lines, at, trait)
                    found.append(Item(file, owner, block, "impl", trait, block, said))
        it = ITEM.match(line.strip())
        if top == "enum" and re.match(r"    [A-Z]", line):
            name = re.match(r"\w+", line.strip())[0]
            sign = line.strip().rstrip(",{ ")
            variants.append(Item(file, owner, "", "variant", name, sign, [], *doc()))
        if not it or indent not in (0, 4) or indent and trait:
            continue
        what, name = it["what"], it["name"]
        is_top = not indent or what == "type" and not owner
        if it["vis"] and (is_top or owner) or not is_top and top == "trait":
            clauses = contract_of(lines, at) if what == "fn" else []
            of = ("", "") if is_top else (owner, block)
            found.append(Item(file, *of, what, name, signature_of(lines, at), clauses, *doc()))
        if is_top and it["vis"] and what in ("trait", "enum", "struct"):
            owner, top = name, what
            found += derived_above(file, lines, at, name)
    return found + variants


@functools.cache
def sources():
    """The items of the libraries below fluent_uri, and its own."""
    return [
        it
        for name in LIBRARIES
        for path in sorted((ROOT / "crates" / name / "src").rglob("*.rt"))
        for it in items_of(path)
    ]


def is_of_crate(item):
    """Whether an item is of its module, and not of a type."""
    return not (item.owner or item.what == "impl" or item.is_hidden)


def is_named(item, name, crate):
    """Whether the crate's item has this name, or is public in its module of this name."""
    if not is_of_crate(item) or not item.file.startswith(f"crates/{crate}/"):
        return False
    is_of_module = name.islower() and item.what != "fn" and item.file.endswith(f"/{name}.rt")
    return item.name == name or is_of_module


def of_crate(name):
    """The public modules of a crate that callers name beside fluent_uri, as one."""
    folder = ROOT / "crates" / name / "src"
    lines = (folder / "lib.rt").read_text(encoding="utf-8").splitlines()
    about = "\n".join(it[4:] for it in lines if it.startswith("//!"))
    files = [folder / f"{it[1]}.rt" for at, line in enumerate(lines)
             if (it := re.match(r"pub mod (\w+);", line)) and lines[at - 1] != "#[doc(hidden)]"]
    return Module(name, about, [
        (it, [own for own in items_of(path) if own.owner == it.name])
        for path in files for it in items_of(path) if is_of_crate(it)
    ])


def modules():
    """The public modules with their items, and the names that no source has."""
    text = (ROOT / "crates/fluent_uri/src/lib.rt").read_text(encoding="utf-8")
    lines, lacking, done = text.splitlines(), [], set()
    found = above = [Module("fluent_uri", "", [])]
    for it in PUBLIC.finditer(text):
        above = above[: len(it["indent"]) // 4 + 1]
        if it["module"]:
            doc, _ = doc_above(lines, text.count("\n", 0, it.start()))
            above = [*above, Module(f"{above[-1].name}::{it['module']}", " ".join(doc), [])]
            found = [*found, above[-1]]
        crate = (it["path"] or "").partition("::")[0]
        crate = crate if crate in LIBRARIES else "fluent_uri"
        for name in re.findall(r"\w+", it["type"] or it["names"] or it["name"] or ""):
            own = [item for item in sources() if name != "self" and is_named(item, name, crate)]
            if name != "self" and not own:
                lacking.append(f"{above[-1].name}: {name} is nowhere")
            for item in own:
                if item.name not in done:
                    done.add(item.name)
                    members = [member for member in sources() if member.owner == item.name]
                    above[-1].items.append((item, members))
    return [*found, *map(of_crate, BESIDE)], lacking


def called(members):
    """What a type or trait has that is public, by name: several of its impls may have one name."""
    grouped = {}
    for it in members:
        if not it.is_hidden and it.what in ("fn", "const", "variant"):
            grouped.setdefault(it.name, []).append(it)
    return grouped
