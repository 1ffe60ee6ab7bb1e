#!/usr/bin/python3
"""Compares lists of components with the rules of SPDX 2.3 for documents in JSON that apply to them:
the fields that must be there, those that may be, their types, enumerations and patterns, that each
identifier is given once and each relationship has both its ends, and the expressions of licences.

usage: .ci/spdx.py FILE..       (Debian: python3-jsonschema, python3-license-expression)
"""
import json
import pathlib
import re
import sys
from datetime import datetime

from jsonschema import Draft7Validator, FormatChecker
from license_expression import ExpressionError, ExpressionParseError, Licensing

TEXT = {"type": "string", "minLength": 1}
IDENTITY = {"type": "string", "pattern": r"^SPDXRef-[a-zA-Z0-9.-]+$"}
# An absolute URI without a fragment.
NAMESPACE = r"[A-Za-z][A-Za-z0-9+.-]*:[^\s#]+"
LICENCE = {"type": "string", "format": "licence"}
# Of the algorithms and the relationships of SPDX, those that a document of ours has.
DIGITS = {"SHA1": 40, "SHA256": 64}
RELATIONSHIPS = ["DESCRIBES", "BUILD_TOOL_OF", "DYNAMIC_LINK", "STATIC_LINK", "GENERATED_FROM",
                 "HAS_PREREQUISITE"]
# Of the licences in SPDX's list, those of what is handed on, and what stands for none.
LICENCES = Licensing(["Apache-2.0", "CC0-1.0", "LGPL-2.1-or-later", "MIT", "PostgreSQL",
                      "Unicode-3.0", "blessing", "NOASSERTION", "NONE"])
FORMATS = FormatChecker(formats=[])


@FORMATS.checks("licence", raises=(ExpressionError, ExpressionParseError))
def is_licence(text):
    LICENCES.parse(text, validate=True, strict=True)
    return text != "" and not re.search(r" (and|or|with) ", text)


@FORMATS.checks("date-time", raises=ValueError)
def is_time(text):
    return bool(datetime.strptime(text, "%Y-%m-%dT%H:%M:%SZ"))


def record(required, others=None):
    """An object with these fields, and maybe the others."""
    return {"type": "object", "required": [*required], "additionalProperties": False,
            "properties": {**required, **(others or {})}}


def some(of):
    return {"type": "array", "minItems": 1, "items": of}


CHECKSUM = {"oneOf": [
    record({"algorithm": {"const": name}, "checksumValue": {"pattern": f"^[0-9a-f]{{{count}}}$"}})
    for name, count in DIGITS.items()
]}
LICENSED = {"copyrightText": TEXT, "licenseConcluded": LICENCE, "comment": TEXT}
PACKAGE = record(
    {"SPDXID": IDENTITY, "name": TEXT,
     "downloadLocation": {"pattern": f"^(NOASSERTION|NONE|{NAMESPACE})$"}},
    {"versionInfo": TEXT, "filesAnalyzed": {"type": "boolean"}, "licenseDeclared": LICENCE,
     "checksums": some(CHECKSUM), **LICENSED},
)
# (SPDX 2.3, 8.4: a file has its SHA1)
FILE = record(
    {"SPDXID": IDENTITY, "fileName": {"pattern": r"^\./.+"},
     "checksums": {**some(CHECKSUM),
                   "contains": {"properties": {"algorithm": {"const": "SHA1"}}}}},
    LICENSED,
)
RELATIONSHIP = record({"spdxElementId": IDENTITY, "relatedSpdxElement": IDENTITY,
                       "relationshipType": {"enum": RELATIONSHIPS}})
DOCUMENT = record(
    {"spdxVersion": {"const": "SPDX-2.3"}, "dataLicense": {"const": "CC0-1.0"},
     "SPDXID": {"const": "SPDXRef-DOCUMENT"}, "name": TEXT,
     "documentNamespace": {"pattern": f"^{NAMESPACE}$"},
     "creationInfo": record({
         "created": {"type": "string", "format": "date-time"},
         "creators": some({"pattern": "^(Person|Organization|Tool): ."})})},
    {"packages": some(PACKAGE), "files": some(FILE), "relationships": some(RELATIONSHIP)},
)


def wrong(document):
    """What of a document is against a rule, each as a line."""
    validator = Draft7Validator(DOCUMENT, format_checker=FORMATS)
    if found := [f"{it.json_path}: {it.message}" for it in validator.iter_errors(document)]:
        return found
    ids = ["SPDXRef-DOCUMENT"]
    ids += [it["SPDXID"] for name in ("packages", "files") for it in document.get(name, [])]
    found += [f"given twice: {it}" for it in sorted({it for it in ids if ids.count(it) > 1})]
    relations = document.get("relationships", [])
    ends = {it[end] for it in relations for end in ("spdxElementId", "relatedSpdxElement")}
    found += [f"in a relationship or declared, and not both: {it}"
              for it in sorted(ends ^ {*ids})]
    if not any((it["spdxElementId"], it["relationshipType"]) == ("SPDXRef-DOCUMENT", "DESCRIBES")
               for it in relations):
        found.append("the document describes nothing")
    return found


def main(names):
    documents = {name: json.loads(pathlib.Path(name).read_text(encoding="utf-8")) for name in names}
    found = [f"{name}: {line}" for name, it in documents.items() for line in wrong(it)]
    print(*found, sep="\n", end="\n" * bool(found))
    return bool(found)


if __name__ == "__main__":
    sys.exit(main(sys.argv[1:]) if sys.argv[1:] else __doc__)
