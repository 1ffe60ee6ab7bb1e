"""The contents of the public items: a line for each, by task."""
import fnmatch
import re

from api_items import called

HEAD = """# The public items, by task

`tools/api` writes this page from the sources. `tools/api --html out/api.html` writes the items with
their contracts and doc comments, with a search by name: the packages for Debian have that page as
`/usr/share/doc/libfluent-uri-dev/api.html`. What the words of contracts mean is in
`docs/CONCEPTS.md`, "Terms". `Uri`, `UriRef`, `Iri` and `IriRef` have the calls of `Reference`.
"""
# Items of a module that have one line together, and what that says of them.
TOGETHER = (
    ("fluent_uri::kind", r"\w+Kind", "The four kinds, as types."),
    ("fluent_uri::build", r"\w*(?:Start|End)", "The states of a builder: which step was the last."),
    (
        "fluent_uri::pct_enc::encoder",
        "I?(?:Userinfo|RegName|Path|Query|Fragment)|Port",
        "The encoders of the components, as types.",
    ),
    ("fluent_uri::pct_enc::table", "[A-Z_]+", "The sets of rules of the RFCs, as constants."),
)
# Each task, and the items that it has: the name of a module, or of an item with the type that has
# it, in which `*` is anything. An item is of the first task that names it.
TASKS = {
    "Parse": "Uri UriRef Iri IriRef Reference Reference::parse ParseError* Reference::as_str"
             " Reference::borrow Reference::into_string Reference::to_owned fluent_uri::kind",
    "Take apart": "Reference::scheme Reference::authority Reference::path Reference::query"
                  " Reference::fragment Reference::has_* fluent_uri::component fluent_uri::net",
    "Normalise": "Reference::normalize fluent_uri::normalize",
    "Compare, and hash": "uri_order",
    "Resolve": "Reference::resolve_against fluent_uri::resolve uri_basic uri_relative",
    "Mend links": "uri_mend",
    "Keep links once": "uri_links",
    "Build, and change": "Reference::builder Reference::*fragment fluent_uri::build",
    "Convert between kinds, and to ASCII": "Iri::* IriRef::* ConvertError Reference::to_uri*"
                                           " uri_idna",
    "Read and write percent-encoded text": "fluent_uri::pct_enc",
    "The pairs of a query": "uri_query",
    "Encoders": "fluent_uri::pct_enc::encoder",
    "Sets of characters": "fluent_uri::pct_enc::table",
    "Traits for generic code": "Ri RiMaybeRef RiMaybeRef::* RefOf WithOwned",
    "Laws, which a proof uses by calling them": "fluent_uri::laws",
}


def first_sentence(doc):
    """The first sentence of a doc comment."""
    lines = doc[: doc.index("")] if "" in doc else doc
    found = re.match(r"(?:`[^`]*`|[^`])*?\.(?=\s+[A-Z`]|$)", " ".join(lines))
    return (found[0] if found else " ".join(lines)).replace("|", "\\|")


def task_of(module, name):
    """The task that has an item, if one does."""
    owner = name.partition("::")[0]
    for title, names in TASKS.items():
        for it in names.split():
            if it == module or fnmatch.fnmatchcase(name, it) and (it != owner or it == name):
                return title
    return None


def about(module, name, doc):
    """What the line of an item says."""
    for of, names, said in TOGETHER:
        if module == of and re.fullmatch(names, name):
            return said
    return first_sentence(doc)


def contents(modules):
    """The page of the items of modules, and the items that lack a doc comment or a task."""
    lines, lacking = {it: {} for it in TASKS}, []
    for module, item, members in ((it.name, *one) for it in modules for one in it.items):
        named = [[item], *called(members).values()]
        lacking += [f"no doc comment: {it.file}: {it.path}"
                    for same in named for it in same if not it.doc]
        for it in (same[0] for same in named if same[0].what != "variant"):
            if title := task_of(module, it.path):
                said = f"{about(module, it.path, it.doc)} | `{module}` |"
                lines[title].setdefault(said, []).append(f"`{it.path}`")
            else:
                lacking.append(f"no task of tools/api_contents.py: {it.path}")
    out = [HEAD]
    for title, its in lines.items():
        out += [f"\n## {title}\n", "| Item | What it does | From |", "|---|---|---|"]
        out += [f"| {', '.join(names)} | {said}" for said, names in its.items()]
    return "\n".join(out) + "\n", lacking
