"""Tests iri_parsers, and runs the suites of Turtle and TriG by them where SERD_TESTS names the
folder `test` of the source of serd."""

import logging
import os
import pathlib
import sys
import unittest

import iri_parsers
import rdflib
import suite
from rdflib import URIRef
from rdflib.exceptions import ParserError
from rdflib.plugins.parsers.notation3 import BadSyntax

sys.path.append(str(pathlib.Path(__file__).resolve().parents[1]))

import differences  # noqa: E402 (it is beside the examples)

iri_parsers.register()
logging.disable()
BASE = "http://a/b/c/d;p?q"
# RFC 3986, section 5.4.
EXAMPLES = """g:h g:h; g http://a/b/c/g; ./g http://a/b/c/g; g/ http://a/b/c/g/; /g http://a/g;
//g http://g; ?y http://a/b/c/d;p?y; g?y http://a/b/c/g?y; #s http://a/b/c/d;p?q#s;
g#s http://a/b/c/g#s; g?y#s http://a/b/c/g?y#s; ;x http://a/b/c/;x; g;x http://a/b/c/g;x;
g;x?y#s http://a/b/c/g;x?y#s; . http://a/b/c/; ./ http://a/b/c/; .. http://a/b/; ../ http://a/b/;
../g http://a/b/g; ../.. http://a/; ../../ http://a/; ../../g http://a/g; ../../../g http://a/g;
../../../../g http://a/g; /./g http://a/g; /../g http://a/g; g. http://a/b/c/g.; .g http://a/b/c/.g;
g.. http://a/b/c/g..; ..g http://a/b/c/..g; ./../g http://a/b/g; ./g/. http://a/b/c/g/;
g/./h http://a/b/c/g/h; g/../h http://a/b/c/h; g;x=1/./y http://a/b/c/g;x=1/y;
g;x=1/../y http://a/b/c/y; g?y/./x http://a/b/c/g?y/./x; g?y/../x http://a/b/c/g?y/../x;
g#s/./x http://a/b/c/g#s/./x; g#s/../x http://a/b/c/g#s/../x; http:g http:g"""
EXAMPLES = [it.split() for it in EXAMPLES.replace(";\n", "; ").split("; ")]
XML = (
    '<r:RDF xmlns:r="http://www.w3.org/1999/02/22-rdf-syntax-ns#" xmlns:x="http://x/" {}>'
    '<r:Description r:about="{}"><x:y r:resource="{}"/></r:Description></r:RDF>'
)


def subjects(text, format, base=BASE):
    graph = rdflib.ConjunctiveGraph().parse(data=text, format=format, publicID=base)
    return {str(it) for it in graph.subjects()}


class Parsers(unittest.TestCase):
    def test_the_examples_of_the_rfc(self):
        self.assertEqual(len(EXAMPLES), 41)
        for reference, target in [*EXAMPLES, ("", BASE)]:
            self.assertEqual(iri_parsers.resolve(BASE, reference), target, reference)
            for format in ("turtle", "n3", "trig"):
                found = subjects(f"<{reference}> <p:p> 1 .", format)
                self.assertEqual(found, {target}, (reference, format))
            found = subjects(XML.format("", reference, ""), "xml")
            self.assertEqual(found, {target}, reference)

    def test_bases(self):
        for text, wanted in (
            ("@base <../e/> . <f> <p:p> 1 .", "http://a/b/e/f"),
            ("BASE <//g/h>\n<f> <p:p> 1 .", "http://g/f"),
            ("@base <x:/y/z> . <../f> <p:p> 1 .", "x:/f"),
            ("@prefix q: <../e/> . q:f <p:p> 1 .", "http://a/b/e/f"),
            ("PREFIX q: <#>\nq:f <p:p> 1 .", "http://a/b/c/d;p?q#f"),
            ("@base <é/> . <ü> <p:p> 1 .", "http://a/b/c/é/ü"),
        ):
            for format in ("turtle", "trig"):
                self.assertEqual(subjects(text, format), {wanted}, text)
        base = 'xml:base="http://h/i/#j"'
        self.assertEqual(subjects(XML.format(base, "../k", ""), "xml"), {"http://h/k"})
        made = XML.format('xml:base="c/"', "d", "")
        self.assertEqual(subjects(made, "xml", "x:/a/b"), {"x:/a/c/d"})
        # The fragment of a base plays no part (RFC 3986, section 5.1).
        self.assertEqual(subjects("<> <p:p> 1 .", "turtle", "http://a/b#c"), {"http://a/b"})

    def test_a_malformed_iri_is_an_error(self):
        for it in ("a b", "http://a b/", "%zz", "//[1", "a|b", "\\u0020", "\\uD800", "x:%"):
            for format in ("turtle", "n3", "trig"):
                with self.assertRaises(BadSyntax, msg=(it, format)) as caught:
                    subjects(f"<ok> <p:p> 1 .\n<{it}> <p:p> 1 .", format)
                self.assertEqual(caught.exception.lines, 1, (it, format))
        for it in ("a b", "http://a b/", "%zz", "x:%"):
            for made in (XML.format("", it, ""), XML.format("", "", it)):
                self.assertRaises(ParserError, subjects, made, "xml")
        # A local name may escape a character that an IRI must not have.
        for it in ("q:a\\%zz", "q:a\\#b\\#c"):
            self.assertRaises(BadSyntax, subjects, f"@prefix q: <x:> . {it} <p:p> 1 .", "turtle")

    def test_terms_of_a_graph(self):
        graph = rdflib.Graph()
        graph.add((URIRef("http://a/é"), URIRef("p:p"), rdflib.Literal("a b")))
        self.assertEqual(iri_parsers.invalid_iris(graph), set())
        for it in ("rel", "http://a b/", "x:%", "", "http://[/"):
            graph.add((URIRef(it), URIRef("p:p"), URIRef("x:y")))
            self.assertIn(URIRef(it), iri_parsers.invalid_iris(graph))
        for it in (None, 1, b"a:b"):
            self.assertRaises(TypeError, iri_parsers.iri, it)
            self.assertRaises(TypeError, iri_parsers.resolve, BASE, it)

    def test_texts_may_be_long(self):
        long = "x/../" * 200_000
        self.assertEqual(subjects(f"<{long}y> <p:p> 1 .", "turtle"), {"http://a/b/c/y"})

    def test_differences(self):
        def is_kept(text):
            with self.assertLogs("rdflib.term") as logs:
                logging.getLogger("rdflib.term").warning("(one line at least)")
                URIRef(text)
            return len(logs.output) == 1

        def is_iri(text):
            try:
                return bool(iri_parsers.iri(text))
            except ValueError:
                return False

        logging.disable(logging.NOTSET)
        self.addCleanup(logging.disable)
        stock = {"resolve": rdflib.plugins.parsers.notation3.join, "iri": is_kept}
        ours = {"resolve": iri_parsers.resolve, "iri": is_iri}
        differences.check(self, "rdflib", rdflib.__version__, stock, ours)
        wrong = [it for it, target in EXAMPLES if stock["resolve"](BASE, it) != target]
        if rdflib.__version__ == "6.1.1":
            self.assertEqual(len(wrong), 8)

    def test_the_parsers_of_rdflib_are_as_they_were(self):
        stock = rdflib.plugins.parsers.notation3
        self.assertNotIn("iri_parsers", stock.join.__module__)
        self.assertIs(stock.TurtleParser.parse.__globals__["SinkParser"], stock.SinkParser)


class Suite(unittest.TestCase):
    def test_no_test_is_lost(self):
        folder = os.environ.get("SERD_TESTS")
        if not folder:
            self.skipTest("SERD_TESTS names no suite (apt-get source serd)")
        stock, ours, count = suite.run(pathlib.Path(folder))
        print(f"\nrdflib: {count} tests of the suites: {len(stock)} pass, {len(ours)} with ours")
        self.assertGreater(count, 600)
        self.assertEqual(stock - ours, set())


if __name__ == "__main__":
    unittest.main()
