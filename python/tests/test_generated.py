"""Generated calls, of each public call with right and wrong arguments, of the compiled module and
by ctypes: both return the same, or raise the same. GENERATED_SECONDS (6) says how long, and
GENERATED_SEED (1) which. What differs is printed with the shortest texts that were found for it."""

import copy
import os
import random
import time
import unittest
from array import array

import fluent_uri
import fluent_uri.parse
from packages import imported_anew

SECONDS = float(os.environ.get("GENERATED_SECONDS", "6"))
SEED = int(os.environ.get("GENERATED_SEED", "1"))
PIECES = (
    "a A z0 - . .. ... ~ _ / // /. /.. /../ ? # : @ [ ] ! $ & ' ( ) * + , ; = % %4 %41 %7e %2F "
    "%c3%a9 %E2%80%8E %80 %ff http HTTP s: x:y file 80 :443 [::1] [1:2::3] [v1.a] 127.0.0.1 é ü "
    "漢 𐌀 \u200e \u202e \ue000 \ud800 < > \" \\ ^ ` { | } \0 \x7f"
).split(" ") + [" ", "\n", "", "é" * 700, "%7e" * 1500, "/.." * 900, "a" * 2040]
# Those of which most texts are a reference.
GOOD = ["a", "A", "z0", "-", ".", "..", "/", "/./", "/../", "%41", "%7e", "%c3%a9", "é/", "漢", "&=",
        "?", "~", "", "é" * 700, "%7e" * 1500, "/.." * 900, "a" * 2040]
BEGINNINGS = ["", "", "x:", "x:/", "http://", "http://a/", "HTTP://a", "//", "/", "x://u@h:1/p?q#f"]
KINDS = ["Uri", "UriRef", "Iri", "IriRef"]
NAMES = "scheme authority userinfo host port path query fragment host_kind port_number".split()
OTHERS = [None, 0, 1, -1, 2, 2**32 + 2, 7, True, 2.0, 1j, b"", b"a:b", bytearray(b"a%7e"), ["a"],
          [], (), {}, "data", memoryview(b"a:b"), memoryview(b"abcd")[::2], ..., int, range(3)]


class Dice(random.Random):
    """What arguments are drawn from. A text is a tuple of pieces, and a value a kind and a text."""

    def text(self):
        pieces = PIECES if self.random() < 0.3 else GOOD
        return ("text", (self.choice(BEGINNINGS), *self.choices(pieces, k=self.randrange(7))))

    def piece(self):
        return ("text", tuple(self.choices(GOOD, k=self.randrange(3))))

    def value(self):
        return ("value", self.choice(KINDS), self.text()[1])

    def base(self):
        return ("value", self.choice(KINDS[::2]), self.text()[1])

    def any(self):
        return self.choice([*[self.text] * 6, self.value, self.other])()

    def other(self):
        return self.choice([("other", self.choice(OTHERS)), ("kind", self.choice(KINDS))])

    def kind(self):
        return ("kind", self.choice(KINDS)) if self.random() < 0.9 else self.other()

    def component(self):
        return ("component", self.randrange(10)) if self.random() < 0.9 else self.other()

    def name(self):
        return ("other", self.choice(NAMES)) if self.random() < 0.9 else self.any()

    def flag(self):
        return ("other", self.random() < 0.5)

    def texts(self):
        if self.random() < 0.1:
            return self.any()
        made = [self.text() for _ in range(self.randrange(6))]
        if self.random() < 0.1:
            made.append(self.any())
        return ("list", tuple(made))

    def column(self):
        """Data and offsets, at times not of a column."""
        data = b"".join(self.choice([b"a:b", b"HTTP://A", b"\xc3\xa9", b" ", b"\x80", b"%7e"])
                        for _ in range(self.randrange(6)))
        count = self.randrange(6)
        ends = sorted(self.randrange(len(data) + 1) for _ in range(count))
        if self.random() < 0.1:
            self.shuffle(ends)
        if self.random() < 0.1:
            ends.append(len(data) + self.randrange(3))
        made = array(self.choice("IiQqLIIIQH"), ends)
        return ("other", data), ("other", self.choice([made, made.tobytes(), memoryview(made)]))

    def part(self):
        made = {}
        if self.random() < 0.5:
            made["start"] = ("other", self.randrange(-1, 4))
        if self.random() < 0.5:
            made["count"] = ("other", self.choice([None, *range(-1, 5)]))
        if self.random() < 0.5:
            made["validity"] = ("other", bytes(self.randrange(256) for _ in range(2)))
        if self.random() < 0.2:
            made["large"] = self.flag()
        return made


def of_columns(name, *first):
    """A call for columns, with what is drawn before data and offsets, and after them."""
    is_of_base = name in ("resolve_column", "relativize_column")
    before, after = first[:is_of_base], first[is_of_base:]

    def draw(dice):
        words = [*(it(dice) for it in before), *dice.column(), *(it(dice) for it in after)]
        return words, dice.part()

    return lambda package, *words, **more: getattr(package.batch, name)(*words, **more), draw


def plain(*draws, **named):
    return lambda dice: ([it(dice) for it in draws], {k: it(dice) for k, it in named.items()})


CALLS = {
    "parse": (lambda p, kind, text: kind.parse(text), plain(Dice.kind, Dice.any)),
    "kind": (lambda p, kind, text: kind(text), plain(Dice.kind, Dice.any)),
    "try_parse": (lambda p, kind, text: kind.try_parse(text), plain(Dice.kind, Dice.any)),
    "is_valid": (lambda p, kind, text: kind.is_valid(text), plain(Dice.kind, Dice.any)),
    "mend": (lambda p, kind, text: kind.mend(text), plain(Dice.kind, Dice.any)),
    "mend_link": (lambda p, kind, text: kind.mend_link(text), plain(Dice.kind, Dice.any)),
    "join_link": (
        lambda p, value, *words, **more: value.join_link(*words, **more),
        plain(Dice.base, Dice.any, normalize=Dice.flag, scheme_rules=Dice.flag,
              keep_fragment=Dice.flag),
    ),
    "of another kind": (lambda p, kind, it: kind.parse(it), plain(Dice.kind, Dice.value)),
    "is a Reference": (lambda p, it: isinstance(it, p.Reference), plain(Dice.any)),
    "Reference": (lambda p, it: p.Reference(it), plain(Dice.any)),
    "components": (
        lambda p, value: [getattr(value, it) for it in NAMES],
        plain(Dice.value),
    ),
    "normalize": (
        lambda p, value, **more: value.normalize(**more),
        plain(Dice.value, scheme_rules=Dice.flag),
    ),
    "normalize, without a word": (lambda p, value: value.normalize(), plain(Dice.value)),
    "path": (
        lambda p, value: [value.segments, value.encoded_segments, value.name, value.parent],
        plain(Dice.value),
    ),
    "/": (lambda p, value, it: value / it, plain(Dice.value, Dice.any)),
    "with_name": (lambda p, value, it: value.with_name(it), plain(Dice.value, Dice.any)),
    "query_pairs": (
        lambda p, value, **more: value.query_pairs(**more),
        plain(Dice.value, plus_is_space=Dice.flag),
    ),
    "with_query": (
        lambda p, value, *words, **more: value.with_query([words], **more),
        plain(Dice.value, Dice.any, Dice.piece, plus_is_space=Dice.flag),
    ),
    "twice": (lambda p, value: value.normalize().normalize(), plain(Dice.value)),
    "to_uri": (
        lambda p, value, **more: value.to_uri(**more),
        plain(Dice.value, ascii_host=Dice.flag),
    ),
    "_to_uri": (lambda p, value, kind: value._to_uri(kind), plain(Dice.value, Dice.kind)),
    "_to_uri_with_ascii_host": (
        lambda p, value, kind: value._to_uri_with_ascii_host(kind),
        plain(Dice.value, Dice.kind),
    ),
    "ascii_host": (lambda p, value: value.ascii_host, plain(Dice.value)),
    "resolve": (
        lambda p, value, *words, **more: value.resolve(*words, **more),
        plain(Dice.base, Dice.any, basic=Dice.flag, normalize=Dice.flag,
              scheme_rules=Dice.flag, mend=Dice.flag),
    ),
    "relativize": (
        lambda p, value, *words, **more: value.relativize(*words, **more),
        plain(Dice.base, Dice.any, prefer_relative_path=Dice.flag, mend=Dice.flag),
    ),
    "there and back": (
        lambda p, value, it: value.resolve(value.relativize(it)),
        plain(Dice.base, Dice.base),
    ),
    "with_fragment": (lambda p, value, it: value.with_fragment(it), plain(Dice.value, Dice.any)),
    "said": (
        lambda p, value, how: [str(value), repr(value), bytes(value), format(value, how)],
        plain(Dice.value, lambda dice: ("other", dice.choice(["", ">9", "d", 5]))),
    ),
    "compared": (
        lambda p, a, b: [a == b, a != b, hash(a) == hash(b), a < b, a >= b],
        plain(Dice.value, Dice.any),
    ),
    "copied": (
        lambda p, value: [copy.copy(value), copy.deepcopy(value), value.__reduce_ex__(2)[1:]],
        plain(Dice.value),
    ),
    "decode": (lambda p, *words: p.decode(*words), plain(Dice.any, Dice.component)),
    "encode": (
        lambda p, *words, **more: p.encode(*words, **more),
        plain(Dice.any, Dice.component, keep_encoded=Dice.flag),
    ),
    "batch.parse": (lambda p, *words: p.batch.parse(*words), plain(Dice.texts, Dice.kind)),
    "batch.normalize": (
        lambda p, *words, **more: p.batch.normalize(*words, **more),
        plain(Dice.texts, Dice.kind, scheme_rules=Dice.flag),
    ),
    "batch.is_valid": (lambda p, *words: p.batch.is_valid(*words), plain(Dice.texts, Dice.kind)),
    "batch.to_uri": (lambda p, *words: p.batch.to_uri(*words), plain(Dice.texts, Dice.kind)),
    "batch.query": (lambda p, *words: p.batch.query(*words), plain(Dice.texts, Dice.kind)),
    "batch.relativize": (
        lambda p, *words, **more: p.batch.relativize(*words, **more),
        plain(Dice.base, Dice.texts, prefer_relative_path=Dice.flag, mend=Dice.flag),
    ),
    "batch.mend": (lambda p, *words: p.batch.mend(*words), plain(Dice.texts, Dice.kind)),
    "batch.mend_link": (lambda p, *words: p.batch.mend_link(*words), plain(Dice.texts, Dice.kind)),
    "batch.join_links": (
        lambda p, *words, **more: p.batch.join_links(*words, **more),
        plain(Dice.base, Dice.texts, normalize=Dice.flag, scheme_rules=Dice.flag,
              keep_fragment=Dice.flag),
    ),
    "batch, mended": (
        lambda p, name, *words: getattr(p.batch, name)(*words, mend=True),
        plain(lambda dice: ("other", dice.choice(["parse", "normalize", "to_uri", "query"])),
              Dice.texts, Dice.kind),
    ),
    "batch.resolve": (
        lambda p, *words, **more: p.batch.resolve(*words, **more),
        plain(Dice.base, Dice.texts, basic=Dice.flag, normalize=Dice.flag,
              scheme_rules=Dice.flag),
    ),
    "batch.component": (
        lambda p, *words: p.batch.component(*words),
        plain(Dice.texts, Dice.name, Dice.kind),
    ),
    "batch.column": (lambda p, texts: p.batch.column(texts), plain(Dice.texts)),
    "normalize_column": of_columns("normalize_column", Dice.kind),
    "to_uri_column": of_columns("to_uri_column", Dice.kind),
    "mend_column": of_columns("mend_column", Dice.kind),
    "mend_link_column": of_columns("mend_link_column", Dice.kind),
    "is_valid_column": of_columns("is_valid_column", Dice.kind),
    "query_column": of_columns("query_column", Dice.kind),
    "resolve_column": of_columns("resolve_column", Dice.base),
    "relativize_column": of_columns("relativize_column", Dice.base),
    "component_column": of_columns("component_column", Dice.name, Dice.kind),
    "urlsplit": (lambda p, *words: p.parse.urlsplit(*words), plain(Dice.any, Dice.any)),
    "split": (
        lambda p, url: [getattr(p.parse.urlsplit(url), it) for it in
                        ("username", "password", "hostname", "port")]
        + [p.parse.urlsplit(url).geturl()],
        plain(Dice.text),
    ),
    "urljoin": (lambda p, *words: p.parse.urljoin(*words), plain(Dice.any, Dice.any)),
    "urlunsplit": (lambda p, *words: p.parse.urlunsplit(words), plain(*[Dice.piece] * 5)),
    "urldefrag": (lambda p, it: p.parse.urldefrag(it), plain(Dice.any)),
    "quote": (lambda p, *words: p.parse.quote(*words), plain(Dice.any, Dice.piece)),
    "unquote_plus": (lambda p, it: p.parse.unquote_plus(it), plain(Dice.any)),
    "parse_qs": (lambda p, *words: p.parse.parse_qs(*words), plain(Dice.any, Dice.flag)),
    "urlencode": (lambda p, *words: p.parse.urlencode(*words), plain(Dice.any, Dice.flag)),
}


def argument(package, drawn):
    """An argument as it is of a package. A text that is not of a kind is its own value."""
    sort, *its = drawn
    if sort == "text":
        return "".join(its[0])
    if sort == "list":
        return [argument(package, it) for it in its[0]]
    if sort == "kind":
        return getattr(package, its[0])
    if sort == "component":
        return its[0] if its[0] in (5, 6, 7, 9) else package.Component(its[0])
    if sort == "value":
        try:
            return getattr(package, its[0])("".join(its[1]))
        except ValueError:
            return getattr(package, its[0])("x:")
    return its[0]


def shown(made):
    """A result in what is the same in each package."""
    if type(made).__name__ in KINDS:
        return (type(made).__name__, str(made), [shown(getattr(made, it)) for it in NAMES[:9]])
    if isinstance(made, memoryview):
        return made.tobytes()
    if type(made).__name__ == "Column":
        return (made.texts(), bytes(made.data), list(made.offsets), bytes(made.validity))
    if isinstance(made, (list, tuple)):
        return [shown(it) for it in made]
    return repr(made)


def outcome(package, name, drawn):
    words, more = drawn
    try:
        call = CALLS[name][0]
        words = [argument(package, it) for it in words]
        more = {k: argument(package, it) for k, it in more.items()}
        return ("returned", shown(call(package, *words, **more)))
    except Exception as error:
        # (Python names a compiled type with its module)
        said = str(error).replace("'fluent_uri.", "'")
        return ("raised", type(error).__name__, said, repr(vars(error)))


def shorter(drawn):
    """What is drawn, with a piece of a text left out."""
    words, more = drawn
    for at, it in enumerate(words):
        pieces = it[-1] if it[0] in ("text", "value", "list") else ()
        for place in range(len(pieces)):
            less = (*it[:-1], pieces[:place] + pieces[place + 1 :])
            yield [*words[:at], less, *words[at + 1 :]], more


@unittest.skipUnless(fluent_uri.is_compiled, "there is no compiled module")
class Generated(unittest.TestCase):
    def test_both_ways_to_call_agree(self):
        compiled, other = fluent_uri, imported_anew(ctypes="1")
        self.assertEqual((compiled.is_compiled, other.is_compiled), (True, False))
        dice, ends, tried, raised = Dice(SEED), time.monotonic() + SECONDS, 0, 0

        def differs(name, drawn):
            return outcome(compiled, name, drawn) != outcome(other, name, drawn)

        while time.monotonic() < ends:
            for name, (_, draw) in CALLS.items():
                drawn = draw(dice)
                tried += 1
                raised += outcome(compiled, name, drawn)[0] == "raised"
                if not differs(name, drawn):
                    continue
                while True:
                    drawn, before = next(
                        ((it, drawn) for it in shorter(drawn) if differs(name, it)), (None, drawn)
                    )
                    if drawn is None:
                        break
                self.fail(
                    f"GENERATED_SEED={SEED}, call {tried}: {name} {before}:\n"
                    f"{outcome(compiled, name, before)}\n{outcome(other, name, before)}"
                )
        self.assertGreater(tried, 500)
        self.assertGreater(raised, tried / 20)
        self.assertLess(raised, tried * 2 / 3)

    def test_what_differs_is_found_and_made_short(self):
        drawn = [("text", ("x:", "a", "é", "b"))], {}
        for _ in range(3):
            drawn = next(it for it in shorter(drawn) if "é" in it[0][0][1])
        self.assertEqual(drawn, ([("text", ("é",))], {}))


if __name__ == "__main__":
    unittest.main()
