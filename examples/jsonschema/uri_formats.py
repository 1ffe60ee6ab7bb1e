"""The formats of URIs and IRIs, and the resolving of `$ref`, for jsonschema.

    checker = uri_format_checker(Draft7Validator)
    resolver = UriRefResolver.from_schema(schema)
    Draft7Validator(schema, resolver=resolver, format_checker=checker).validate(instance)
"""

from functools import lru_cache

import jsonschema
from fluent_uri import Iri, IriRef, ParseError, Uri, UriRef
from fluent_uri.parse import urljoin
from jsonschema._utils import URIDict

# The format, its kind, and the first draft that has it.
FORMATS = (
    ("uri", Uri, 3),
    ("uri-reference", UriRef, 6),
    ("iri", Iri, 7),
    ("iri-reference", IriRef, 7),
)
# The drafts before the first that has all of them.
EARLY_DRAFTS = {f"http://json-schema.org/draft-0{it}/schema": it for it in (3, 4, 6)}


def uri_format_checker(validator=jsonschema.Draft202012Validator):
    """Returns a checker of all formats that jsonschema has for the draft. Those of URIs and IRIs
    are checked by the grammar of RFC 3986 or RFC 3987. An instance that is not a string has every
    format."""
    made = jsonschema.FormatChecker(())
    made.checkers = dict(validator.FORMAT_CHECKER.checkers)
    schema = str(validator.META_SCHEMA.get("$schema")).rstrip("#")
    for name, kind, first_draft in FORMATS:
        if first_draft <= EARLY_DRAFTS.get(schema, 7):
            made.checks(name)(_check(kind.is_valid))
    return made


def _check(is_valid):
    return lambda instance: not isinstance(instance, str) or is_valid(instance)


class UriRefResolver(jsonschema.RefResolver):
    """Resolves `$ref` by RFC 3986, section 5.2. Equivalent URIs are those of one document."""

    def __init__(self, base_uri, referrer, store=(), **others):
        others.setdefault("urljoin_cache", lru_cache(1024)(_target_or_text))
        super().__init__(base_uri, referrer, dict(store), **others)
        self.store = _Documents(self.store)
        self.store[base_uri] = referrer

    def resolve(self, ref):
        """Returns the URI of a reference, and what is there. Raises `RefResolutionError` if it
        cannot be mended, or has no target."""
        base = self.resolution_scope
        if not isinstance(ref, str) or not IriRef.is_valid(self._urljoin_cache(base, ref)):
            target(base, ref)
        return super().resolve(ref)


def target(base, reference):
    """Returns where a reference leads from a base, which may be relative or empty. Both are mended,
    as many schemas have a space in the fragment. Raises `RefResolutionError`."""
    try:
        return urljoin(str(IriRef.mend(base)), str(IriRef.mend(reference)))
    except (TypeError, ValueError) as error:
        raise jsonschema.RefResolutionError(f"{reference!r} against {base!r}: {error}") from error


def _target_or_text(base, reference):
    """The target, or the reference itself if it has none. Then it is not a URI, so an `$id` that
    cannot be mended is the URI of nothing."""
    try:
        return target(base, reference)
    except jsonschema.RefResolutionError:
        return reference


class _Documents(URIDict):
    """The documents by the normal forms of their URIs, without an empty fragment."""

    def __init__(self, documents):
        super().__init__()
        self.update(documents)

    def normalize(self, uri):
        try:
            it = IriRef.mend(uri)
        except ParseError:
            return uri
        return str((it.with_fragment(None) if it.fragment == "" else it).normalize())
