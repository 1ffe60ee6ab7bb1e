"""The page of the public items as HTML: with contracts, doc comments, contents, and a search."""
import functools
import html
import re

from api_examples import examples, place_of
from api_items import ROOT, called, signature_of, sources

HEAD = """<!doctype html>
<meta charset="utf-8">
<meta name="color-scheme" content="light dark">
<title>fluent_uri</title>
<style>
body { font-family: sans-serif; max-width: 60em; margin: 1em auto; padding: 0 1em; }
pre { overflow-x: auto; border-left: 3px solid; padding-left: 1em; }
input { position: sticky; top: 0; width: 100%; font-size: 120%; }
</style>
<input placeholder="a name, such as normalize" aria-label="search by name" autofocus>
"""
ABOUT = """<section data-name="The public items of fluent_uri">
<h1 id="The public items of fluent_uri">The public items of fluent_uri</h1>
<p>
In a contract <code>x.now</code> is what a reference <code>x</code> points to at the call,
<code>x.new</code> what it points to at the return, and <code>x.entry</code> a value as it was
passed. A record says several things: each is a field, which its file explains. A ghost member of an
<code>impl</code> says what the calls of the trait return."""
FOOT = """<script>
document.querySelector("input").addEventListener("input", (event) => {
    const word = event.target.value.toLowerCase();
    for (const it of document.querySelectorAll("section"))
        it.hidden = !it.dataset.name.toLowerCase().includes(word);
});
</script>
"""


@functools.cache
def records():
    """Each record of the definitions, with its file: its fields are what a contract says."""
    return {
        name: path.relative_to(ROOT)
        for path in sorted(ROOT.glob("crates/*/specs/**/*.antt"))
        for name in re.findall(r"^pub record (Is\w+)", path.read_text(encoding="utf-8"), re.M)
    }


def head_of_example(program):
    """What says in which function an example is, and the lines above it that stand for its head, if
    it is not the whole of a function."""
    for file, lines in examples():
        if (at := place_of(program, lines)) is not None and lines[at].startswith(" "):
            while at >= 0 and not (found := re.match(r" *(?:pub )?fn (\w+)", lines[at])):
                at -= 1
            return f"In `{found[1]}` of `{file}`:", [f"{signature_of(lines, at)} {{ .. }}", ""]
    return "", []


def words(line):
    """A line of text with its code and its bold words marked. An empty one ends a paragraph."""
    text = re.sub(r"`([^`]*)`", r"<code>\1</code>", html.escape(line, quote=False))
    return re.sub(r"^# (.*)$", r"<b>\1</b>", text) or "<p>"


def code(lines):
    return ["<pre>", *map(html.escape, lines), "</pre>", "<p>"]


def shown_doc(lines):
    """The lines of a doc comment. An example has the head of the function that it is from."""
    program = None
    for line in lines:
        if line.startswith("```") and program is None:
            program = []
        elif line.startswith("```"):
            said, above = head_of_example(program)
            yield from (words(said), "<p>", *code([*above, *program]))
            program = None
        elif program is not None:
            program.append(line)
        elif line.startswith("|"):
            yield f"<code>{html.escape(line)}</code><br>"
        else:
            yield words(line)
    yield "<p>"


def paragraphs(doc):
    """The paragraphs of a doc comment: an example is one."""
    held, is_code = [[]], False
    for line in doc:
        is_code ^= line.startswith("```")
        if line or is_code:
            held[-1].append(line)
        else:
            held.append([])
    return [it for it in held if it]


def heading(level, name):
    name = html.escape(name)
    return (f'</section><section data-name="{name}">',
            f'<h{level} id="{name}"><code>{name}</code></h{level}>', "<p>")


def shown(same, level):
    """The lines of an item, or of one that several types have, which says each thing once."""
    yield from heading(level, same[0].path)
    yield from code(line for it in same
                    for line in [*[f"// {it.block}"] * bool(it.block), it.signature, *it.contract])
    named = re.findall(r"\w+", " ".join(line for it in same for line in it.contract))
    if named := [it for it in dict.fromkeys(named) if it in records()]:
        links = ", ".join(f"`{it}` in `{records()[it]}`" for it in named)
        yield from (words(f"Records in the contract: {links}."), "<p>")
    said = []
    for it in same:
        new = [part for part in paragraphs(it.doc) if part not in said]
        said += new
        if new and it is not same[0]:
            yield from (words(f"Of `{it.block}`:"), "<p>")
        for part in new:
            yield from shown_doc(part)


def implemented(members):
    """What the implementations of traits of std say, and the traits without a word of that."""
    derived = [it for it in members if it.what == "derive"]
    held = {(it.signature, it.name) for it in derived}
    said = [it for it in members if it.what == "impl" and it.contract]
    said += [it for it in sources() if it.contract and (it.owner, it.name) in held]
    if said:
        yield from code(line for it in said
                        for line in [it.signature, *(f"    {line}" for line in it.contract)])
    if derived:
        names = ", ".join(f"`{it.name}`" for it in derived)
        yield from (words(f"Derives {names}: by what it holds, in order."), "<p>")
    if names := sorted({it.name for it in members if it.what == "impl"}):
        yield from (words("Implements " + ", ".join(f"`{it}`" for it in names) + "."), "<p>")


def as_html(modules):
    """The page: a section for each module and item, after links to them."""
    links, out = ["<nav>"], []
    for module in modules:
        links.append(f'<p><a href="#{module.name}">{module.name}</a>:')
        out += [*heading(2, module.name), *map(words, module.about.splitlines()), "<p>"]
        for item, members in module.items:
            links.append(f'<a href="#{item.name}">{item.name}</a>')
            out += shown([item], 3)
            for same in called(members).values():
                out += shown(same, 4)
            out += implemented(members)
    page = "\n".join([*links, "</nav>", ABOUT, *out, "</section>", ""])
    return HEAD + re.sub(r"(<p>\n)+", "<p>\n", page) + FOOT
