"""References over each path of each call, by a Python that counts all of them (a debug build): many
calls leave as many as there were."""

import gc
import sys
import unittest

import fluent_uri
from fluent_uri import Iri, IriRef, Uri, UriRef, batch, decode
from test_types import CALLS, wrong

ROUNDS, MOST = 25, 15
LONG = "%7e" * 3000
VALUES = [Uri("HTTP://u@h:1/a/./b?c#d"), UriRef("//[::1]/%7e"), Iri("x://é/ü"), IriRef(f"é{LONG}")]


def results():
    """Each call that returns something, by a name."""
    for value in VALUES:
        name = type(value).__name__
        yield f"{name} parsed", lambda value=value: type(value).parse(str(value))
        yield f"{name} made", lambda value=value: type(value)(text=str(value))
        yield f"{name} tried", lambda value=value: type(value).try_parse(str(value))
        yield f"{name} tried and rejected", lambda value=value: type(value).try_parse("a b")
        yield f"{name} itself", lambda value=value: type(value).parse(value)
        yield f"{name} of another kind", lambda value=value: [
            it.try_parse(value) for it in (Uri, UriRef, Iri, IriRef)
        ]
        for text in [str(value), value, f"{value} b", f"{value} é"]:
            for call in [type(value).mend, type(value).mend_link]:
                yield f"{name} {call.__name__}", lambda call=call, text=text: call(text)
        yield f"{name} is valid", lambda value=value: [
            type(value).is_valid(it) for it in (value, str(value), "a b", "\ud800")
        ]
        yield f"{name} normalised", lambda value=value: value.normalize()
        yield f"{name} twice", lambda value=value: value.normalize().normalize()
        yield f"{name} by path", lambda value=value: [value / "a/", value.parent, value.segments]
        yield f"{name} by pairs", lambda value=value: value.with_query({"a": "&"}).query_pairs()
        yield f"{name} said", lambda value=value: [str(value), repr(value), hash(value)]
        yield f"{name} compared", lambda value=value: [value == it for it in VALUES]
        yield f"{name} copied", lambda value=value: value.__reduce_ex__(4)
        for part in "scheme authority userinfo host port path query fragment host_kind".split():
            yield f"{name}.{part}", lambda value=value, part=part: getattr(value, part)
        if hasattr(value, "to_uri"):
            yield f"{name} as a URI", lambda value=value: value.to_uri()
        if hasattr(value, "resolve"):
            base = value.with_fragment(None)
            for other in ["../a", LONG, UriRef("b"), base]:
                for normalize in [False, True]:
                    yield f"{name} resolves {str(other)[:9]}", (
                        lambda base=base, other=other, normalize=normalize: base.resolve(
                            other, normalize=normalize
                        )
                    )
            yield f"{name} relativizes", lambda value=value: value.relativize(value)
    texts = ["HTTP://A", "a b", "é", "\ud800", f"x:{LONG}"]
    yield "pairs", lambda: IriRef("?a=1&&b&é=%C3%A9&").query_pairs()
    yield "batch.parse", lambda: batch.parse(texts, Iri)
    yield "batch.normalize", lambda: batch.normalize(texts, Iri)
    yield "batch.parse, mended", lambda: batch.parse([*texts, *VALUES], IriRef, mend=True)
    yield "batch.is_valid", lambda: batch.is_valid([*texts, *VALUES], Iri)
    yield "batch.parse of values", lambda: batch.parse(VALUES, IriRef)
    yield "batch.normalize_column", lambda: batch.normalize_column(*batch.column(texts)).texts()


def errors():
    """Each call that raises something, by a name."""
    for name, (call, _) in CALLS.items():
        for kind in wrong():
            yield f"{name} of {kind}", lambda call=call, kind=kind: call(wrong()[kind])
    for text in ["a b", "%zz", "//[::", "\ud800", "é" + LONG + "%"]:
        for kind in [Uri, UriRef, Iri, IriRef]:
            yield f"{kind.__name__}({text[:9]!r})", lambda kind=kind, text=text: kind(text)
        for value in VALUES[::2]:
            yield f"resolve {text[:9]!r}", lambda value=value, text=text: value.resolve(text)
            yield f"relativize {text[:9]!r}", lambda value=value, text=text: value.relativize(text)
            for call in [value.mend, value.mend_link, value.join_link]:
                yield f"mend {text[:9]!r}", lambda call=call, text=text: call(f" //{text}\n")
        yield f"decode {text[:9]!r}", lambda text=text: decode(text)
    yield "an opaque base", lambda: Uri("x:a").resolve("b")
    yield "a host that has no name in ASCII", lambda: Iri("x://a..é").to_uri(ascii_host=True)
    yield "a path from `//`", lambda: Uri("x:/a").resolve(".//b", basic=True)
    yield "basic and normalize", lambda: Uri("x:/a").resolve("b", basic=True, normalize=True)
    yield "a text that is none", lambda: batch.parse(["a:b"] * 5 + [5])
    yield "a normal form of none", lambda: batch.normalize(["A:b"] * 5 + [5])
    yield "words that are not there", lambda: Uri()
    yield "words that are too many", lambda: Uri("a:b", "c")
    yield "a word of another name", lambda: Uri(uri="a:b")
    yield "no kind", lambda: fluent_uri.Reference("a:b")
    yield "a value that is not of the kind", lambda: Uri.parse(Iri("x:é"))
    for given in [5, Iri, Uri, None]:
        yield "_to_uri", lambda given=given: Uri("a:b")._to_uri(given)
        yield "_to_uri_with_ascii_host", (
            lambda given=given: Uri("a:b")._to_uri_with_ascii_host(given)
        )
        yield "_relativize", lambda given=given: Iri("a:b")._relativize("c", given)


@unittest.skipUnless(hasattr(sys, "gettotalrefcount"), "this Python does not count references")
class References(unittest.TestCase):
    def check(self, name, call):
        """By how many references all there are grow in many calls: more than once, as what is
        cached on the way grows once, and cycles are freed at times."""
        for _ in range(4):
            call()
            before = sys.gettotalrefcount()
            for _ in range(ROUNDS):
                call()
            grown = abs(sys.gettotalrefcount() - before)
            if grown < MOST:
                return
            gc.collect()
        self.fail(f"{name}: {grown} references in {ROUNDS} calls")

    def test_each_call_that_returns(self):
        for name, call in results():
            self.check(name, call)

    def test_each_call_that_raises(self):
        def without(call):
            try:
                call()
            except Exception:
                pass

        for name, call in errors():
            self.check(name, lambda call=call: without(call))


if __name__ == "__main__":
    unittest.main()
