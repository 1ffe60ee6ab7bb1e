"""The texts that are measured, and the rows of the tables of docs/SPEED.md."""
import pathlib
import random

BENCH = pathlib.Path(__file__).resolve().parent
# The table of peers that is drawn, and its lines that have a colour of their own.
PEERS_TITLE = "A URL of the list: nanoseconds, and how often those of fluent_uri"
OURS, LIMIT = "fluent_uri", "the limit"

# The works, by their numbers in both libraries.
PARSE_URI, PARSE_URI_REF, PARSE_IRI, PARSE_IRI_REF = range(4)
NORMALIZE_URI, NORMALIZE_URI_REF, NORMALIZE_IRI, NORMALIZE_IRI_REF = range(4, 8)
RESOLVE_URI, RESOLVE_IRI, RESOLVE_VALUES, RESOLVE_NORMALIZED = range(8, 12)
DECODE, ENCODE, TO_URI, BUILD, LINKS = range(12, 17)
# Those that the port alone has.
COPY, COPY_URI_REF, MEND_URI_REF, MEND_IRI_REF, MEND_COPY = range(17, 22)
WITHOUT_RULES, WITH_RULES = 22, 23
RESOLVE, RESOLVE_BASIC = 24, 25

PLAIN = "https://example.com/over/there/now/and/back?name=ferret#nose-"
USER_AND_PORT = "https://user@example.com:8080/over/there/now?name=ferret#nose"
USER_AND_OCTETS = "https://user@example.com/%E6%B5%8B/%E8%AF%95?name=%41+b#nose1"
FERRET = "foo://example.com/over/there?name=ferret#nose"
IPV6 = "http://[2001:db8::7]:8080/a/b?x#y"
OCTETS_EVERYWHERE = "FOO://%55se%72@EXamp%4ce%2ecom:8042/%4b%2f?%4c%2b#%24%4d"
NO_SLASH = "http:g"
JAPANESE = "http://例え.jp/パス/名前?キー=値#片"
RUSSIAN = "http://пример.рф/путь/к/странице?ключ=значение#якорь"
ASCII = [
    PLAIN,
    USER_AND_PORT,
    USER_AND_OCTETS,
    "http://www.example.org/a/b/c/d/e/f/g.html?x=1&y=2&z=3#section",
    FERRET,
    "http://a.example/%7Efoo/%E3%83%91%E3%82%B9/x?q=%20y#z",
    OCTETS_EVERYWHERE,
    IPV6,
    "a/b/c",
    NO_SLASH,
    "",
]
OTHER_SCRIPTS = [JAPANESE, RUSSIAN, "http://example.fr/déjà/vu/été?où=là-bas#forêt"]
REJECTED = [
    " https://example.com/over/there/now/and/back?name=ferret#no",
    "https://example.com/over/there/now/and/back?name=ferret#nose ",
    "http://exa mple.com/over",
    "http://exa mple",
    "http://example.com:80a/over/there?name=ferret#nose-and-so-on",
    "http://example.com/a%zz",
    JAPANESE,
    RUSSIAN,
]
NORMAL = [
    "http://www.example.org/a/b/c/d.html?x=1&y=2#section",
    "https://example.com/over/there/now/and/back?name=ferret",
    FERRET,
    "http://a/b/c/d;p?q",
]
NOT_NORMAL = [
    "eXAMPLE://a/./b/../b/%63/%7bfoo%7d",
    OCTETS_EVERYWHERE,
    "http://Example.com:80/a/b/../c/./d/%7Efoo?q=%20x",
    "http://[2001:DB8:0:0:0:0:0:7]:8080/%41/b?x",
]
BASE = "http://a/b/c/d;p?q"
DECODED = ["%41", "%C3%A9", "%C3"]
# Of RFC 3986, sections 5.4.1 and 5.4.2; an empty one is between two spaces.
REFERENCES = (
    "g:h g ./g g/ /g //g ?y g?y #s g#s g?y#s ;x g;x g;x?y#s  . ./ .. ../ ../g ../.. ../../ ../../g"
    " ../../../g ../../../../g /./g /../g g. .g g.. ..g ./../g ./g/. g/./h g/../h g;x=1/./y"
    " g;x=1/../y g?y/./x g?y/../x g#s/./x g#s/../x http:g"
).split(" ")
# What the rules of schemes change, and what they leave.
RULED = ["http://example.com", "http://example.com/", "file://localhost/a/b", "foo://example.com"]
# Links that are mended, and some that need not be.
LONG_QUERY = "&".join(f"key{i}=value{i}" for i in range(40))
MENDED = {
    "a reference": "http://www.example.org/a/b/c/d/e.html?x=1&y=2&z=3#section",
    "a long query": f"http://www.example.org/search?{LONG_QUERY}",
    "one space": "http://www.example.org/a/b/c d/e.html?x=1&y=2&z=3#section",
    "one stray `%`": "http://www.example.org/a/b/50%/e.html?x=1&y=2&z=3#section",
    "`[]` twice in the query": "http://www.example.org/a/b/c/d/e.html?x[]=1&y[]=2&z=3#section",
    "`{` and `}` in the path": "http://www.example.org/{id}/b/{name}/e.html?x=1&y=2#sect",
    "a false scheme": "a b:c/d/e.html?x=1&y=2&z=3#section",
    "one space before a long query": f"http://www.example.org/sea rch?{LONG_QUERY}",
    "spaces": "http://h/" + " " * 191,
    "words": "http://h/?q=" + "word " * 38,
    "a Chinese path": "http://h/" + "中文" * 16,
    "rejected": "http://exa mple.com/over/there?name=ferret#nose",
    "a relative reference": "a/b c?d#e",
    "2 kB of words": "http://h/?q=" + "word " * 400,
    "20 kB of words": "http://h/?q=" + "word " * 4000,
    "2 kB of spaces": "http://h/" + " " * 2000,
    "20 kB of spaces": "http://h/" + " " * 20000,
    "2 kB of `%`": "http://h/" + "%" * 2000,
    "20 kB of `%`": "http://h/" + "%" * 20000,
}
SIZES = {"10 kB": 10_000, "100 kB": 100_000, "1 MB": 1_000_000, "10 MB": 10_000_000}


def urls():
    lines = (BENCH / "urls.txt").read_text(encoding="utf-8").split("\n")
    return [line for line in lines if line and not line.startswith("#")]


def drawn(references, count=100_000):
    """So many of the references, the same at each run."""
    return random.Random(1).choices(references, k=count)


def numbered(references, count=100):
    """Each reference followed by so many numbers, the same order at each run."""
    bare = [it.partition("#")[0] for it in references]
    told = [f"{it}{number}" for it in bare for number in range(count)]
    random.Random(1).shuffle(told)
    return told


def long(unit, front="http://a/", size=100_000):
    """The front, and then the unit again and again for so many bytes."""
    return front + unit * (size // len(unit.encode()))


class Row:
    """A work on one text or several, against a base where it is that of resolving. What is told of
    it is instructions a text, or a byte, or one of `parts` that the text has."""

    def __init__(self, label, work, texts, base=BASE, by_byte=False, parts=1):
        self.label, self.work, self.by_byte, self.base = label, work, by_byte, base.encode()
        self.texts = [it.encode() for it in ([texts] if isinstance(texts, str) else texts)]
        self.size = max(sum(map(len, self.texts)), len(self.base))
        is_huge, is_large = self.size > 500_000, self.size > 20_000
        self.few, self.many = (0, 1) if is_huge else (1, 3) if is_large else (10, 110)
        self.calls = len(self.texts) * parts

    def written(self):
        """The row as the programs read it."""
        yield b"%d %d %d %d\n" % (self.work, self.few, self.many, len(self.texts))
        for text in self.texts:
            yield b"%d %d\n%b%b" % (len(text), len(self.base), text, self.base)

    def per(self, of_a_pass):
        """So much of a pass over the texts as a text has, a byte or a part."""
        return of_a_pass / (self.size if self.by_byte else self.calls)

    def told(self, of_a_pass):
        return f"{self.per(of_a_pass):,.{2 if self.by_byte else 0}f}"


def named(work, texts):
    """Rows of texts that are short enough to stand in the table."""
    return [Row(f"`{it}`" if it else "the empty text", work, it) for it in texts]


def by_byte(work, texts):
    return [Row(label, work, text, by_byte=True) for label, text in texts.items()]


def linked(label, references):
    """A row of a new register that notes the references."""
    return Row(label, LINKS, "\n".join(references), parts=len(references))


def tables():
    """The tables in which the port stands beside the original: a title, and rows."""
    octets = {
        "a path of `%41`": long("%41"),
        "a path of `%C3%A9`": long("%C3%A9"),
    }
    ascii_texts = {
        "a path of `abcdefghi/`": long("abcdefghi/"),
        "a query of `abcdefghi&`": long("abcdefghi&", "http://a/?"),
        "a path of `%20` and 29 letters": long("%20" + "a" * 29),
        "a path of `%E6%B5%8B/`": long("%E6%B5%8B/"),
        **octets,
    }
    other_texts = {f"a path of `{it}`": long(it) for it in ["é", "éa", "漢字/"]}
    hosts = {f"`{it}` after `//`": long(it, "//") for it in [":", "@", "a@"]}
    real = urls()
    return {
        "A URL of the list, on average": [
            Row("parsed as a URI", PARSE_URI, real),
            Row("parsed as an IRI", PARSE_IRI, real),
            Row("parsed as a URI and normalised", NORMALIZE_URI, real),
            Row("parsed as an IRI and normalised", NORMALIZE_IRI, real),
            Row("parsed as an IRI and made a URI", TO_URI, real),
        ],
        "Parsed as a URI reference": named(PARSE_URI_REF, ASCII),
        "Parsed as an IRI reference": named(PARSE_IRI_REF, ASCII + OTHER_SCRIPTS),
        "Rejected as a URI reference": named(PARSE_URI_REF, REJECTED),
        "100 kB, parsed as a URI, a byte": by_byte(PARSE_URI, ascii_texts),
        "100 kB, parsed as an IRI, a byte": by_byte(PARSE_IRI, {**ascii_texts, **other_texts}),
        "100 kB, rejected as a URI reference, a byte": by_byte(PARSE_URI_REF, hosts),
        "Parsed and normalised": [
            Row("four normal texts as URI references", NORMALIZE_URI_REF, NORMAL),
            Row("four other texts as URI references", NORMALIZE_URI_REF, NOT_NORMAL),
            Row("four other texts as IRI references", NORMALIZE_IRI_REF, NOT_NORMAL),
            Row(f"`{OCTETS_EVERYWHERE}` as a URI reference", NORMALIZE_URI_REF, OCTETS_EVERYWHERE),
            Row(f"`{IPV6}` as a URI", NORMALIZE_URI, IPV6),
            Row(f"`{IPV6}` as an IRI", NORMALIZE_IRI, IPV6),
            Row("`http://a/` and 10,000 times `../`", NORMALIZE_URI, long("../", size=30_000)),
        ],
        "100 kB, parsed as a URI and normalised, a byte": by_byte(NORMALIZE_URI, octets),
        "100 kB, parsed as an IRI and normalised, a byte": by_byte(
            NORMALIZE_IRI, {**octets, "a path of `%C3`": long("%C3"), "a path of `é`": long("é")}
        ),
        "Resolved against `http://a/b/c/d;p?q`, the 42 references of RFC 3986, section 5.4": [
            Row("both parsed as URIs and resolved", RESOLVE_URI, REFERENCES),
            Row("both parsed as IRIs and resolved", RESOLVE_IRI, REFERENCES),
            Row("resolved alone, as URIs", RESOLVE_VALUES, REFERENCES),
            Row("both parsed, resolved and normalised", RESOLVE_NORMALIZED, REFERENCES),
            Row(f"`{NO_SLASH}` alone, both parsed as URIs and resolved", RESOLVE_URI, NO_SLASH),
        ],
        "Resolved against `http://a/` and 50 kB of segments, a byte": [
            Row(f"`{reference}` against `{segment}`", RESOLVE_VALUES, reference, base, True)
            for segment, base in [(it, long(it, size=50_000)) for it in ["a/", "/", "../"]]
            for reference in ["g", "../g"]
        ],
        "100 kB, other calls, a byte": [
            *(
                Row(f"`to_string` of a decoded path of {label}", DECODE, long(unit), by_byte=True)
                for label, unit in [("letters", "a"), *((f"`{it}`", it) for it in DECODED)]
            ),
            *(
                Row(f"`encode_str::<Data>` of {label}", ENCODE, long(unit, ""), by_byte=True)
                for label, unit in [("letters", "a"), ("`é`", "é"), ("spaces", " ")]
            ),
            *(
                Row(f"`to_uri` of a path of {label}, parsed first", TO_URI, long(unit), by_byte=True)
                for label, unit in [("letters", "a"), ("`é`", "é")]
            ),
        ],
        "Built of its components": named(BUILD, [PLAIN, USER_AND_PORT, USER_AND_OCTETS]),
        "Noted in a new register, a link": [
            linked("each URL of the list once", real),
            linked("100,000 drawn from them", drawn(real)),
            linked("each of them and 0 to 99 after it", numbered(real)),
        ],
    }


def growths(size):
    """The tables that show the port by the size of a text: a title, and a row for each text."""
    units = ["%41", "%C3", "%C3%A9", "é", "/../", "/./", "/%2e%2e/"]
    paths = {f"`{it}`": long(it, "", size) for it in units}
    hosts = {f"`{it}` after `//`": long(it, "//", size) for it in [":", "@", "a@", "["]}
    iris = {label: f"http://a/{path}" for label, path in paths.items()}
    return {
        "By size: parsed as an IRI reference": by_byte(PARSE_IRI_REF, {**iris, **hosts}),
        "By size: parsed as an IRI and normalised": by_byte(NORMALIZE_IRI, iris),
        "By size: resolved against `http://a/b/c/d;p?q`": by_byte(RESOLVE_IRI, paths),
        "By size: `g` resolved against it": [
            Row(label, RESOLVE_IRI, "g", base, by_byte=True) for label, base in iris.items()
        ],
        "By size: `to_string` of its path, decoded": by_byte(DECODE, iris),
    }


def alone():
    """The tables of the port alone: a title, the heads of its works, and for each text a row a
    work."""
    works = {
        "strict parse": PARSE_URI_REF,
        "parse and copy": COPY_URI_REF,
        "copy": COPY,
        "copy, and `mend_owned`": MEND_COPY,
        "`IriRef`: `mend`": MEND_IRI_REF,
        "`UriRef`: `mend`": MEND_URI_REF,
    }
    mended = {f"{label}, {len(text.encode()):,} bytes": text for label, text in MENDED.items()}
    ruled = {"a URL of the list": urls(), **{f"`{it}`": [it] for it in RULED}}
    resolved = [[Row("the 42 references of RFC 3986, section 5.4", it, REFERENCES)
                 for it in (RESOLVE, RESOLVE_BASIC)]]
    for segment in ["a/", "/", "../"]:
        label, base = f"`g` against 50 kB of `{segment}`, a byte", long(segment, size=50_000)
        of_both = (RESOLVE, RESOLVE_BASIC)
        resolved.append([Row(label, it, "g", base, by_byte=True) for it in of_both])
    return {
        "Mending": (
            [*works],
            [[Row(label, it, text) for it in works.values()] for label, text in mended.items()],
        ),
        "Rules of schemes": (
            ["`normalize`", "`RuleSet::DefaultPorts`", "`RuleSet::StandardRules`"],
            [[Row(label, it, texts) for it in (NORMALIZE_URI, WITHOUT_RULES, WITH_RULES)]
             for label, texts in ruled.items()],
        ),
        "The basic algorithm": (["`Resolver`", "`BasicResolver`"], resolved),
    }
