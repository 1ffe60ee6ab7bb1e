"""Runs the JSON-Schema test suite of Debian (json-schema-test-suite) by jsonschema as it is, and
with uri_formats: every test of each draft, and those of the formats."""

import json
import pathlib

import jsonschema
from uri_formats import UriRefResolver, uri_format_checker

SUITE = pathlib.Path("/usr/share/json-schema-test-suite")
DRAFTS = {
    "draft3": jsonschema.Draft3Validator,
    "draft4": jsonschema.Draft4Validator,
    "draft6": jsonschema.Draft6Validator,
    "draft7": jsonschema.Draft7Validator,
}


def no_network(uri):
    raise ValueError(f"not of the suite: {uri}")


def remotes():
    """The documents that the suite has for references to another host."""
    return {
        f"http://localhost:1234/{it.relative_to(SUITE / 'remotes').as_posix()}": json.loads(
            it.read_text(encoding="utf-8")
        )
        for it in (SUITE / "remotes").rglob("*.json")
    }


def tests():
    """Each test: its name, the validator, the schema, the instance, and whether it is valid."""
    for draft, validator in DRAFTS.items():
        for file in sorted((SUITE / "tests" / draft).rglob("*.json")):
            for case in json.loads(file.read_text(encoding="utf-8")):
                for it in case["tests"]:
                    name = f"{draft}/{file.stem}: {case['description']}: {it['description']}"
                    yield name, validator, case["schema"], it["data"], it["valid"]


def passes(validator, schema, instance, wanted, resolver, checker):
    """Whether a test passes by a class of resolvers and a checker of formats."""
    handlers = dict.fromkeys(("http", "https", "urn", "file", ""), no_network)
    made = resolver.from_schema(
        schema, id_of=validator.ID_OF, store=remotes(), handlers=handlers
    )
    try:
        found = validator(schema, resolver=made, format_checker=checker).is_valid(instance)
    except Exception:
        # (an error is no verdict)
        return False
    return found == wanted


def run():
    """The names of the tests that pass as it is, and with uri_formats, and how many there are."""
    stock, ours, count = set(), set(), 0
    for name, validator, *test in tests():
        count += 1
        checker = validator.FORMAT_CHECKER
        if passes(validator, *test, jsonschema.RefResolver, checker):
            stock.add(name)
        if passes(validator, *test, UriRefResolver, uri_format_checker(validator)):
            ours.add(name)
    return stock, ours, count


if __name__ == "__main__":
    stock, ours, count = run()
    print(f"{count} tests: {len(stock)} pass by jsonschema, {len(ours)} with uri_formats")
    for it in sorted(stock - ours):
        print(f"lost: {it}")
    for it in sorted(ours - stock):
        print(f"gained: {it}")
