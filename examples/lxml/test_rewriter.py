"""Tests link_rewriter."""

import copy
import pathlib
import random
import sys
import unittest

import lxml.html
from fluent_uri import Iri, ParseError, Uri
from link_rewriter import _links, make_links_absolute, make_links_relative
from lxml import etree

sys.path.append(str(pathlib.Path(__file__).resolve().parents[1]))

import differences  # noqa: E402 (it is beside the examples)

PAGE = "http://example.com/d/page.html#top"
# A link of each kind that lxml finds, and its target by RFC 3986, section 5.2.
LINKS = (
    ("g", "http://example.com/d/g"),
    ("../g?y#s", "http://example.com/g?y#s"),
    ("/g", "http://example.com/g"),
    ("//h/g", "http://h/g"),
    ("?y", "http://example.com/d/page.html?y"),
    ("#s", "http://example.com/d/page.html#s"),
    ("", "http://example.com/d/page.html"),
    ("mailto:a@b", "mailto:a@b"),
    ("http://h/a", "http://h/a"),
)
PLACES = (
    '<a href="{}">x</a>',
    '<img src="{}" longdesc="{}">',
    '<form action="{}"><button formaction="{}"></button></form>',
    '<blockquote cite="{}"></blockquote>',
    '<object data="{}"></object>',
    '<table background="{}"></table>',
    '<param valuetype="ref" value="{}">',
)

# Of generated pages.
ELEMENTS = "a img object meta style p form base param".split()
ATTRIBUTES = """href src srcset style codebase data archive classid ping content http-equiv poster
value valuetype action profile imagesrcset""".split()
FIXED = {"http-equiv": "refresh", "valuetype": "ref"}
BASES = ["http://h/a/b", "http://h", "x:/a/b", "http://h/a'(b)/c,d?e", "urn:a:b", "http://h/é/?a#f"]
LINK = ["a", "/", "..", "?", "#", ":", "x:", "http:", "//", "h", " ", "%", "%41", "é", "|", "["]
LINK += [",", "'", '"', "(", ")", "\\", "\n", "url", "=", ";", "1x", "0", "@", "<", "\u3000"]
CSS = ["url(", "url('", 'url("', ")", "')", '")', "@import ", "@import '", "'", '"', "a", "b c"]
CSS += ["{", "\\28 ", "\\", " ", "\\\n", "\n", "/*", "*/"]


def links_in(tree):
    return len(list(_links(list(tree.iter(etree.Element)))))


def tree_of(html):
    return lxml.html.document_fromstring(f"<!DOCTYPE html><html>{html}</html>")


def links_of(tree):
    return [(it[0].tag, it[1], it[2]) for it in tree.iterlinks()]


def absolute(html, base=PAGE):
    tree = tree_of(html)
    return tree, make_links_absolute(tree, base)


class Rewriter(unittest.TestCase):
    def test_links_are_made_absolute_as_lxml_does(self):
        for link, target in LINKS:
            html = "".join(it.format(link, link) for it in PLACES)
            stock = tree_of(html)
            stock.make_links_absolute(PAGE.partition("#")[0])
            ours, rejected = absolute(html)
            self.assertEqual(links_of(ours), links_of(stock), link)
            self.assertEqual({it[2] for it in links_of(ours)}, {target})
            self.assertEqual(rejected, [])

    def test_links_that_are_no_references_are_mended(self):
        for link, target in (
            (" a b\n", "http://example.com/d/a%20b"),
            ("?x=[1]", "http://example.com/d/page.html?x=%5B1%5D"),
            ("50%", "http://example.com/d/50%25"),
            ("é|ü", "http://example.com/d/é%7Cü"),
            ("1:2", "http://example.com/d/1:2"),
        ):
            tree, rejected = absolute(f'<a href="{link}">x</a>')
            self.assertEqual(tree.find(".//a").get("href"), target)
            self.assertEqual(rejected, [])
        # The name of a map is not a link.
        tree, _ = absolute('<img usemap="#m">')
        self.assertEqual(tree.find(".//img").get("usemap"), "#m")
        tree, _ = absolute('<a href="é">x</a>', Uri(PAGE))
        self.assertEqual(tree.find(".//a").get("href"), "http://example.com/d/%C3%A9")

    def test_a_link_without_a_target_stays(self):
        bad = "http://a b/"
        html = f'<a href="{bad}" ping="p {bad}">x</a><img srcset="a.png 1x" src="//[x">'
        for rewrite in (make_links_absolute, make_links_relative):
            tree = tree_of(html)
            rejected = rewrite(tree, PAGE)
            self.assertEqual(tree.find(".//a").get("href"), bad)
            self.assertEqual(tree.find(".//img").get("src"), "//[x")
            told = [(it.element.tag, it.attribute, it.link) for it in rejected]
            # (a space parts two links of `ping`)
            self.assertEqual(told, [("a", "href", bad), ("img", "src", "//[x")])
            self.assertTrue(all(isinstance(it.error, ParseError) for it in rejected))
        tree = tree_of(html)
        tree.find(".//a").set("href", "a")
        made = etree.tostring(tree)
        for base in ("a b", "/rel", "", "http://[/"):
            self.assertRaises(ParseError, make_links_absolute, tree, base)
        for base in (None, 1, b"http://h/"):
            self.assertRaises(TypeError, make_links_absolute, tree, base)
        self.assertEqual(etree.tostring(tree), made)

    def test_a_base_of_the_page(self):
        html = '<head><base target="t" href="../e/"><base href="no"></head><a href="f#g">x</a>'
        tree, _ = absolute(html)
        self.assertEqual(tree.find(".//a").get("href"), "http://example.com/e/f#g")
        self.assertEqual([dict(it.attrib) for it in tree.iter("base")], [{"target": "t"}, {}])
        tree = tree_of(html)
        make_links_relative(tree, PAGE)
        self.assertEqual(tree.find(".//a").get("href"), "../e/f#g")
        # A base that is malformed, or has no hierarchy, stays, and the page is the base.
        for it in ("http://a b/", "urn:a:b"):
            tree, rejected = absolute(f'<base href="{it}"><a href="f">x</a>')
            self.assertEqual(tree.find(".//a").get("href"), "http://example.com/d/f")
            self.assertEqual([it.link for it in rejected], [it])
            self.assertEqual(tree.find(".//base").get("href"), it)

    def test_images_of_many_sizes(self):
        # HTML, section 4.8.4.2.
        for given, wanted in (
            ("a.png 1x, b.png 2x", "P/a.png 1x, P/b.png 2x"),
            ("a.png", "P/a.png"),
            ("a.png, b.png 2x", "P/a.png, P/b.png 2x"),
            (" a.png,b.png 2x", " P/a.png,b.png 2x"),
            ("a.png, ,b,c.png 1w,d.png", "P/a.png, ,P/b,c.png 1w,P/d.png"),
            ("a.png x(1,2) 3w, b.png", "P/a.png x(1,2) 3w, P/b.png"),
            ("a|b.png 1x", "P/a%7Cb.png 1x"),
            (", ,", ", ,"),
            ("a.png (", "P/a.png ("),
            ("a\u3000b.png 1x", "P/a\u3000b.png 1x"),
        ):
            tree, rejected = absolute(f'<img srcset="{given}">')
            found = tree.find(".//img").get("srcset")
            self.assertEqual(found, wanted.replace("P", "http://example.com/d"))
            self.assertEqual(rejected, [])

    def test_style_sheets(self):
        for given, wanted in (
            ("a{b:url(c.png)}", 'a{b:url("P/c.png")}'),
            ("a{b:url( 'c d.png' ) URL(e)}", 'a{b:url( "P/c%20d.png" ) URL("P/e")}'),
            ('@import "c.css" screen;', '@import "P/c.css" screen;'),
            ("@IMPORT url(c.css);", '@IMPORT url("P/c.css");'),
            ("a{b:url(c\\28 1\\))}", 'a{b:url("P/c(1)")}'),
            ('a{b:url("c\\\nd")}', 'a{b:url("P/cd")}'),
            ("a{b:url()}", "a{b:url()}"),
            ("a{b:url(c d)}", "a{b:url(c d)}"),
            ("a{b:url(c url(d) url(e)}", 'a{b:url(c url(d) url("P/e")}'),
            ("/* url(c) */ url(/*)", '/* url(c) */ url("http://example.com/*")'),
            ("a{b:'url(c)' url('c)d')}", "a{b:'url(c)' url(\"P/c)d\")}"),
            ("a{b:my-url(c) \\url(c) x '", "a{b:my-url(c) \\url(c) x '"),
            ("@import/**/'c' 'd';", "@import/**/\"P/c\" 'd';"),
            ("@importer 'c'; @import x 'c'", "@importer 'c'; @import x 'c'"),
            ("url('c\nd') url(e", "url('c\nd') url(e"),
            ("a{b:url(\\110000)}", 'a{b:url("P/\ufffd")}'),
        ):
            base = PAGE if "\ufffd" not in wanted else Uri(PAGE)
            wanted = wanted.replace("P/", "http://example.com/d/").replace("\ufffd", "%EF%BF%BD")
            tree, _ = absolute(f"<style>{given}</style>", base)
            self.assertEqual(tree.find(".//style").text, wanted)
            tree = tree_of("<p>x</p>")
            tree.find(".//p").set("style", given)
            make_links_absolute(tree, base)
            self.assertEqual(tree.find(".//p").get("style"), wanted)

    def test_a_refresh(self):
        # HTML, section 4.2.5.3.
        for given, wanted in (
            ("5; url=a", "5; url=P/a"),
            ("0;URL = 'a b'", "0;URL = P/a%20b"),
            ("0, a", "0, P/a"),
            ("0 a", "0 P/a"),
            ('1.5;url="a"; b', "1.5;url=P/a"),
            ("5", "5"),
            ("0 ; ", "0 ; "),
            ("x; url=a", "x; url=a"),
            ("0;url:a", "0;url:a"),
        ):
            tree = tree_of('<meta http-equiv="Refresh"><meta name="x">')
            for it in tree.iter("meta"):
                it.set("content", given)
            make_links_absolute(tree, PAGE)
            found = [it.get("content") for it in tree.iter("meta")]
            self.assertEqual(found, [wanted.replace("P", "http://example.com/d"), given])

    def test_an_object_with_a_codebase(self):
        html = '<object codebase="c/" data="d" archive="e f"></object>'
        tree, _ = absolute(html)
        wanted = {
            "codebase": "http://example.com/d/c/",
            "data": "http://example.com/d/c/d",
            "archive": "http://example.com/d/c/e http://example.com/d/c/f",
        }
        self.assertEqual(dict(tree.find(".//object").attrib), wanted)
        tree, rejected = absolute('<object codebase="//[x" data="d"></object>')
        self.assertEqual(dict(tree.find(".//object").attrib), {"codebase": "//[x", "data": "d"})
        self.assertEqual({it.attribute for it in rejected}, {"codebase", "data"})

    def test_relative_links_lead_to_the_same_targets(self):
        html = "".join(it.format(link, link) for it in PLACES for link, _ in LINKS)
        html += '<img srcset="a 1x, b/c 2x"><style>a{b:url(c)}</style>'
        html += '<object codebase="c/" data="d" archive="../e f"></object>'
        wanted, _ = absolute(html)
        for prefers in (False, True):
            tree = tree_of(html)
            self.assertEqual(make_links_relative(tree, PAGE, prefers), [])
            text = etree.tostring(tree)
            self.assertNotIn(b"http://example.com", text)
            make_links_absolute(tree, PAGE)
            self.assertEqual(etree.tostring(tree), etree.tostring(wanted))
        tree = tree_of('<img srcset="./,a 1x"><a href="/x">x</a>')
        meta = [tree.makeelement("meta", {"http-equiv": "refresh"}) for _ in range(3)]
        for it, link in zip(meta, ("0;url=./'a", "0;./url=a", "0 ./;")):
            it.set("content", link)
            tree.append(it)
        make_links_relative(tree, PAGE)
        self.assertEqual(tree.find(".//img").get("srcset"), "./,a 1x")
        self.assertEqual([it.get("content") for it in meta], ["0;url=./'a", "0;./url=a", "0 ./;"])
        self.assertEqual(tree.find(".//a").get("href"), "../x")
        tree = tree_of('<a href="/x">x</a>')
        make_links_relative(tree, PAGE, prefer_relative_path=False)
        self.assertEqual(tree.find(".//a").get("href"), "/x")
        # A list or a style sheet has no empty link.
        tree = tree_of('<a ping="page.html">x</a><style>a{b:url(page.html)}</style>')
        make_links_relative(tree, PAGE)
        address = "http://example.com/d/page.html"
        self.assertEqual(tree.find(".//a").get("ping"), address)
        self.assertEqual(tree.find(".//style").text, f'a{{b:url("{address}")}}')

    def test_generated_pages(self):
        dice = random.Random(1)

        def text(pieces, most):
            return "".join(dice.choice(pieces) for _ in range(dice.randrange(most)))

        for at in range(300):
            tree = tree_of("<head></head><body></body>")
            for _ in range(dice.randrange(1, 8)):
                element = etree.SubElement(tree.find(".//body"), dice.choice(ELEMENTS))
                for key in dice.sample(ATTRIBUTES, 4):
                    made = text(CSS if key == "style" else LINK, 8)
                    made = f"0;{made}" if key == "content" else made
                    element.set(key, FIXED.get(key, made))
                if element.tag == "style":
                    element.text = text(CSS, 12)
            page = BASES[at % len(BASES)]
            count = links_in(tree)
            others = copy.deepcopy(tree)
            rejected = make_links_absolute(tree, page)
            made = etree.tostring(tree)
            self.assertEqual(links_in(tree), count)
            make_links_absolute(tree, page)
            self.assertEqual(etree.tostring(tree), made)
            told = [(it.attribute, it.link) for it in rejected]
            rejected = make_links_relative(others, page, at % 2 == 0)
            self.assertEqual([(it.attribute, it.link) for it in rejected], told)
            make_links_absolute(others, page)
            self.assertEqual(etree.tostring(others), made)

    def test_trees_of_other_kinds(self):
        xml = '<h:p xmlns:h="http://www.w3.org/1999/xhtml"><h:a href="b"/><!-- c --><?d e?></h:p>'
        tree = etree.ElementTree(etree.fromstring(xml))
        self.assertEqual(make_links_absolute(tree, Iri(PAGE)), [])
        self.assertEqual(tree.getroot()[0].get("href"), "http://example.com/d/b")
        for it in (None, "<a>", b"<a>", 1):
            self.assertRaises((AttributeError, TypeError), make_links_absolute, it, PAGE)

    def test_much(self):
        count = 20_000
        style = "a{b:url(c)}" * count + "url(" + " " * count + "@import" + " " * count
        html = f'<style>{style}</style><img srcset="{"a 1x," * count}">'
        tree, rejected = absolute(html + f'<a href="{"../" * count}x">y</a>')
        self.assertEqual(rejected, [])
        self.assertEqual(tree.find(".//style").text.count('url("http://example.com/d/c")'), count)
        sizes = tree.find(".//img").get("srcset")
        self.assertEqual(sizes.count("http://example.com/d/a 1x,"), count)
        self.assertEqual(tree.find(".//a").get("href"), "http://example.com/x")

    def test_differences(self):
        def calls(rewrite):
            def attribute(name, key, value, base="http://h/a/b"):
                tree = tree_of(f"<{name}></{name}>")
                it = next(tree.iter(name))
                it.set(key, value)
                rewrite(tree, base)
                return it.get(key)

            def based(bases, link):
                tree = tree_of(f"<head>{bases}</head><a href={link}>x</a>")
                rewrite(tree, "http://h/a/b")
                return tree.find(".//a").get("href")

            def href(link, base="http://h/a/b"):
                return attribute("a", "href", link, base)

            return {"attribute": attribute, "based": based, "href": href}

        stock = calls(lambda tree, base: tree.make_links_absolute(base))
        version = ".".join(map(str, etree.LXML_VERSION[:3]))
        differences.check(self, "lxml", version, stock, calls(make_links_absolute))


if __name__ == "__main__":
    unittest.main()
