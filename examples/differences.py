"""The rows of docs/IN_USE.md that say what differs, and what each side makes of them."""

import pathlib
import re

PAGE = pathlib.Path(__file__).resolve().parents[1] / "docs" / "IN_USE.md"
ROW = re.compile(r"^\| `(\w+\(.*?)` \| `(.*?)` \| `(.*?)` \|.*\|$", re.MULTILINE)


def result(call, names):
    """What a call returns, or the name of what it raises."""
    try:
        return repr(eval(call, dict(names)))
    except Exception as error:
        return type(error).__name__


def check(test, package, version, stock, ours):
    """Checks the rows of a package: those of its own calls only where it has the page's version."""
    page = PAGE.read_text(encoding="utf-8").replace(r"\|", "\0")
    _, _, section = page.partition(f"\n### {package} ")
    told, _, rows = section.partition("\n")
    rows = [[it.replace("\0", "|") for it in row] for row in ROW.findall(rows.split("\n##")[0])]
    test.assertGreater(len(rows), 4)
    for call, theirs, wanted in rows:
        test.assertEqual(result(call, ours), wanted, call)
        test.assertNotEqual(theirs, wanted)
        if told == version:
            test.assertEqual(result(call, stock), theirs, call)
    if told != version:
        test.skipTest(f"{package} is {version}, and docs/IN_USE.md has {told}")
