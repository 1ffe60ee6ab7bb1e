"""Runs the Turtle and TriG suites of the W3C, as the source of Debian's serd has them, by rdflib as
it is and with iri_parsers. usage: suite.py SERD/test"""

import logging
import pathlib
import sys

import iri_parsers
import rdflib
from rdflib import plugin
from rdflib.compare import isomorphic
from rdflib.exceptions import ParserError
from rdflib.namespace import RDF, Namespace
from rdflib.parser import Parser, create_input_source
from rdflib.plugins.parsers import notation3, trig

MF = Namespace("http://www.w3.org/2001/sw/DataAccess/tests/test-manifest#")
RDFT = Namespace("http://www.w3.org/ns/rdftest#")
SUITES = {
    "TurtleTests": ("http://www.w3.org/2013/TurtleTests/", "nt", rdflib.Graph),
    "TriGTests": ("http://www.w3.org/2013/TriGTests/", "nquads", rdflib.ConjunctiveGraph),
}
PARSERS = {
    "stock": {"TurtleTests": notation3.TurtleParser, "TriGTests": trig.TrigParser},
    "ours": {"TurtleTests": iri_parsers.TurtleParser, "TriGTests": iri_parsers.TrigParser},
}


def parsed(parser, file, base, graph):
    """The graph of a file, by a parser."""
    with file.open("rb") as data:
        source = create_input_source(file=data, publicID=base + file.name)
        parser().parse(source, graph)
    return graph


def tests(folder, name):
    """Each test of a suite: its name, its type, its file, and the file of what is wanted."""
    file = folder / name / "manifest.ttl"
    manifest = rdflib.Graph().parse(file, format="turtle", publicID=file.as_uri())
    for it in sorted(manifest.subjects(MF.action)):
        kind = manifest.value(it, RDF.type)
        action, wanted = manifest.value(it, MF.action), manifest.value(it, MF.result)
        yield it.rpartition("#")[2], kind, *(
            file.parent / at.rpartition("/")[2] if at else None for at in (action, wanted)
        )


def passes(suite, kind, action, wanted, parser):
    """Whether a test passes. Where rdflib cannot read the graph that is wanted, none does."""
    base, format, graph = SUITES[suite]
    is_negative = "Negative" in kind
    try:
        found = parsed(parser, action, base, graph())
    except Exception:
        return is_negative
    if is_negative:
        return False
    if wanted is None:
        return True
    try:
        read = parsed(plugin.get(format, Parser), wanted, base, graph())
    except ParserError:
        return False
    return named(found) == named(read) and isomorphic(found, read)


def named(graph):
    """The names of the graphs with triples of a data set; none of a graph."""
    graphs = graph.contexts() if isinstance(graph, rdflib.ConjunctiveGraph) else ()
    return {it.identifier for it in graphs if len(it) and isinstance(it.identifier, rdflib.URIRef)}


def run(folder):
    """The names of the tests that pass by each, and how many there are."""
    passed, count = {it: set() for it in PARSERS}, 0
    for suite in SUITES:
        for name, *test in tests(folder, suite):
            count += 1
            for which, parsers in PARSERS.items():
                if passes(suite, *test, parsers[suite]):
                    passed[which].add(f"{suite}: {name}")
    return passed["stock"], passed["ours"], count


if __name__ == "__main__":
    logging.disable()
    stock, ours, count = run(pathlib.Path(sys.argv[1]))
    print(f"{count} tests: {len(stock)} pass by rdflib, {len(ours)} with iri_parsers")
    for it in sorted(stock - ours):
        print(f"lost: {it}")
    for it in sorted(ours - stock):
        print(f"gained: {it}")
