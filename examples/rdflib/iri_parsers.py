"""Parsers for rdflib that resolve relative IRIs by RFC 3986, section 5.2, and check every IRI.

    iri_parsers.register()
    graph = rdflib.Graph().parse("data.ttl")

rdflib has no place to say how IRIs are resolved. So the classes here are its parsers, with methods
whose code is rdflib's own, where `join` and `urljoin` are the function `resolve`.
"""

import re
from functools import lru_cache
from types import FunctionType

from fluent_uri import Iri, Uri, batch
from rdflib import URIRef, plugin
from rdflib.parser import Parser
from rdflib.plugins.parsers import notation3, rdfxml, trig

_PAST_ASCII = re.compile("[^\x00-\x7f]")


def resolve(base, reference):
    """Returns the target of an IRI reference against a base, whose fragment plays no part, by the
    basic algorithm, as RDF asks for it (RFC 3986, section 5.2). Raises `ValueError`."""
    return str(_base(base).resolve(reference, basic=True))


_base = lru_cache(16)(Iri.parse)


def iri(text):
    """Returns the `URIRef` of an absolute IRI. Raises `ValueError` for any other text, which no RDF
    graph may have (RDF 1.1 Concepts, section 3.2)."""
    Iri.parse(text)
    return _term(text)


def _term(text):
    """The term of a text that was checked: `URIRef` would look for some characters again."""
    return str.__new__(URIRef, text)


def invalid_iris(graph):
    """Returns the set of the `URIRef`s of a graph that are not absolute IRIs."""
    found = list({it for triple in graph for it in triple if isinstance(it, URIRef)})
    return {it for it, valid in zip(found, batch.is_valid(found, Iri)) if not valid}


def _with_names(function, **names):
    """A function with the same code, for which these names of its module are others."""
    made = FunctionType(
        function.__code__,
        {**function.__globals__, **names},
        function.__name__,
        function.__defaults__,
        function.__closure__,
    )
    made.__kwdefaults__ = function.__kwdefaults__
    return made


class _Sink(notation3.RDFSink):
    def newSymbol(self, *args):
        # An IRI in `<>` comes from `resolve`, which checked it. A prefixed name may have characters
        # past ASCII that RFC 3987 does not have, as U+FFFD: the grammar of Turtle decides.
        text = args[0]
        Uri.parse(text if text.isascii() else _PAST_ASCII.sub("x", text))
        return _term(text)


class _InTurtle:
    """What reads IRIs in Turtle, TriG and Notation3."""

    _uri_ref2 = _with_names(notation3.SinkParser.uri_ref2, join=resolve)

    def uri_ref2(self, argstr, i, res):
        try:
            return self._uri_ref2(argstr, i, res)
        except ValueError as error:
            self.BadSyntax(argstr, i, f"malformed IRI: {error}")


class _TurtleSinkParser(_InTurtle, notation3.SinkParser):
    pass


class _TrigSinkParser(_InTurtle, trig.TrigSinkParser):
    pass


class TurtleParser(notation3.TurtleParser):
    """Parses Turtle. Raises `BadSyntax` if an IRI is malformed or has no target."""

    parse = _with_names(
        notation3.TurtleParser.parse, RDFSink=_Sink, SinkParser=_TurtleSinkParser
    )


class N3Parser(notation3.N3Parser):
    """Parses Notation3."""

    parse = _with_names(notation3.N3Parser.parse, TurtleParser=TurtleParser)


class TrigParser(trig.TrigParser):
    """Parses TriG."""

    parse = _with_names(trig.TrigParser.parse, RDFSink=_Sink, TrigSinkParser=_TrigSinkParser)


class _XmlHandler(rdfxml.RDFXMLHandler):
    startElementNS = _with_names(rdfxml.RDFXMLHandler.startElementNS, urljoin=resolve)

    def absolutize(self, uri):
        base = self.current.base
        try:
            return iri(uri if base is None else resolve(base, uri))
        except ValueError as error:
            self.error(f"malformed IRI {uri!r}: {error}")


class XmlParser(rdfxml.RDFXMLParser):
    """Parses RDF/XML. Raises `ParserError` if an IRI is malformed or has no target."""

    parse = _with_names(
        rdfxml.RDFXMLParser.parse,
        create_parser=_with_names(rdfxml.create_parser, RDFXMLHandler=_XmlHandler),
    )


NAMES = {
    "TurtleParser": ("turtle", "ttl", "text/turtle"),
    "N3Parser": ("n3", "text/n3"),
    "TrigParser": ("trig", "application/trig"),
    "XmlParser": ("xml", "application/rdf+xml"),
}


def register():
    """Makes these the parsers of rdflib for their formats."""
    for parser, names in NAMES.items():
        for it in names:
            plugin.register(it, Parser, __name__, parser)
