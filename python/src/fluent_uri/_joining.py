"""References against a base that may be relative itself."""

from __future__ import annotations

import re

from fluent_uri import Iri, IriRef

_DOT = re.compile("%2[Ee]")


def joined(base: IriRef, reference: IriRef) -> str:
    """The target of a reference against a base without a fragment. If the base is relative, it is
    the reference that leads from any place where the base and then the reference lead."""
    if base.scheme is not None:
        return str(Iri.parse(base).resolve(reference))
    is_rooted = base.authority is not None or base.path.startswith("/")
    if is_rooted or not _is_relative(reference):
        # Any scheme does, as none of the base is left.
        target = str(Iri.parse(f"x:{base if is_rooted else '/'}").resolve(reference))
        return target if reference.scheme is not None else target[2:]
    path, query = reference.path, reference.query
    if path:
        path = _directory(base.path) + path
    else:
        path, query = base.path, base.query if query is None else query
    path = _without_dots(path)
    fragment = reference.fragment
    text = path if query is None else f"{path}?{query}"
    return text if fragment is None else f"{text}#{fragment}"


def _is_relative(it: IriRef) -> bool:
    """Whether a reference has a relative path, which may be empty, and nothing before it."""
    return it.scheme is None and it.authority is None and not it.path.startswith("/")


def _directory(path: str) -> str:
    """The path up to its last `/`. What ends in `..` is whole."""
    before, slash, last = path.rpartition("/")
    return f"{path}/" if _decoded(last) == ".." else before + slash


def _decoded(segment: str) -> str:
    return _DOT.sub(".", segment) if "%" in segment else segment


def _without_dots(path: str) -> str:
    """A relative path without dot segments, but for each `..` that leads out of where it begins."""
    made = []
    is_directory = False
    for it in path.split("/"):
        dots = _decoded(it)
        is_directory = dots in (".", "..")
        if not is_directory:
            made.append(it)
        elif dots == ".." and made and made[-1] != "..":
            made.pop()
        elif dots == "..":
            made.append(dots)
    if is_directory:
        made.append("")
    # Else the path would be empty, or begin with `/`, or its first segment with a scheme.
    is_guarded = path and (made[0] == "" or ":" in made[0])
    return "./" * bool(is_guarded) + "/".join(made)
