"""Texts compared by their normal forms, against the normal forms that are made."""

import functools
import itertools
import random
import unittest

from fluent_uri import Iri, IriRef, Uri, UriRef, compare, equivalent, sort_key

KINDS = [Uri, UriRef, Iri, IriRef]
TEXTS = [
    *("http://a", "HTTP://A", "http://a:80", "http://a/", "http://a:80/./b/..", "http://%61/"),
    *("http://a/~", "http://a/%7e", "http://a?b", "http://a/?b", "http://a:8080", "https://a"),
    *("file:///a", "file://localhost/a", "FILE://LOCALHOST/%61", "file:/a", "wss://h:443?q"),
    *("http://é/", "http://%C3%A9", "//a", "//A/b/../", "", "a", "a b", "%", "\ud800"),
    *("\uffff", "\U0001f600"),
    *("http://[::1]", "http://[0::1]:80/", "urn:a", "URN:a", "a:/.//b", "a:/b/..//b"),
]


def key_of(text, kind, scheme_rules):
    """The key by the normal form that is made."""
    value = kind.try_parse(text)
    if value is None:
        return 1, text.encode("utf-8", "surrogatepass")
    return 0, bytes(value.normalize(scheme_rules=scheme_rules))


class Keys(unittest.TestCase):
    def holds(self, one, other, kind, scheme_rules):
        ours, theirs = (key_of(it, kind, scheme_rules) for it in (one, other))
        expected = (ours > theirs) - (ours < theirs)
        told = (one, other, kind, scheme_rules)
        found = compare(one, other, kind, scheme_rules=scheme_rules)
        self.assertEqual(found, expected, told)
        is_one = equivalent(one, other, kind, scheme_rules=scheme_rules)
        self.assertIs(is_one, expected == 0, told)
        first, second = (sort_key(it, kind, scheme_rules=scheme_rules) for it in (one, other))
        self.assertEqual((first > second) - (first < second), expected, told)
        self.assertIs(hash(first) == hash(second), expected == 0, told)

    def test_texts_are_in_the_order_of_their_normal_forms(self):
        for kind, rules in itertools.product(KINDS, (False, True)):
            for one, other in itertools.product(TEXTS, TEXTS):
                self.holds(one, other, kind, rules)

    def test_random_texts(self):
        dice = random.Random(1)
        for _ in range(3000):
            one, other = (
                "".join(dice.choice("aA:/?#[]@.%27eE~é") for _ in range(dice.randrange(12)))
                for _ in range(2)
            )
            prefix = dice.choice(["", "http://", "HTTP://a", "file://"])
            self.holds(prefix + one, prefix + other, dice.choice(KINDS), dice.random() < 0.5)

    def test_both_ways_of_sorting_agree(self):
        by_key = sorted(TEXTS, key=sort_key)
        self.assertEqual(by_key, sorted(TEXTS, key=functools.cmp_to_key(compare)))

    def test_values_are_taken_by_their_text(self):
        self.assertTrue(equivalent(Uri("HTTP://a"), Iri("http://a:80")))
        self.assertEqual(compare(UriRef("//a"), "//A", UriRef), 0)
        self.assertEqual(sort_key(Iri("HTTP://é"), Iri), (False, "http://é"))
        self.assertEqual(sort_key(Iri("HTTP://é")), (True, "HTTP://é"))

    def test_other_types_are_errors(self):
        for call in (compare, equivalent):
            for words in (("a", 1), (b"a", "a"), ("a", None), ("a", "b", str), ("a", "b", 0)):
                self.assertRaises(TypeError, call, *words)
        for words in ((1,), (None,), ("a", str)):
            self.assertRaises(TypeError, sort_key, *words)


if __name__ == "__main__":
    unittest.main()
