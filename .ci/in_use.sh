#!/bin/sh
# Tests what users import with Scrapy, lxml, rdflib and jsonschema (docs/IN_USE.md) over the shared
# library. It asks no host but loopback.
#
# FLUENT_URI_LIBRARY names a shared library to test with, in place of the one that is built of the
# proved archive. SERD_TESTS names the folder `test` of the source of serd (`apt-get source serd`),
# which has the suites of Turtle and TriG.
. "$(dirname "$0")/lib.sh"
# with NAME: a Python that has a package, if one has.
with() {
    for python in "${PYTHON:-/usr/bin/python3}" python3; do
        "$python" -c "import $1" 2> /dev/null && return 0
    done
    return 1
}

found=
for it in scrapy lxml rdflib jsonschema; do
    if with "$it"; then
        found="$found $it"
    else
        skip "examples/$it" "no Python here has $it (Debian: python3-$it)"
    fi
done
[ -n "$found" ] || exit 0
need_library
mkdir "$work/site"
cp -R "$root/python/src/fluent_uri" "$work/site/"
rm -f "$work/site/fluent_uri/"*.so*
cp "$library" "$work/site/fluent_uri/libfluent_uri_c.so.0"
export PYTHONPATH="$work/site" PYTHONDONTWRITEBYTECODE=1

for it in $found; do
    with "$it"
    # The module for calls of one text is of this Python, if it has the headers.
    "$python" "$root/python/build-compiled" "$work/site/fluent_uri" > "$work/log" 2>&1 ||
        grep -q 'not built: there is no' "$work/log" || fail 'the module could not be compiled'
    cd "$root/examples/$it" || exit 2
    "$python" -m unittest -v test_*.py > "$work/log" 2>&1 || fail "a test of examples/$it failed"
    grep "^$it: " "$work/log" | sed 's/^/in_use: /'
    # (SERD_TESTS is no part of ./check)
    why=$(sed -n "/SERD_TESTS/d; s/.*skipped '\(.*\)'/\1/p" "$work/log" | paste -sd ',')
    [ -z "$why" ] || skip "a test of examples/$it" "$why"
    grep '^Ran ' "$work/log" | sed "s/^/in_use: $it: /"
done
"$python" "$root/examples/measure" 1 > "$work/log" 2>&1 || fail 'examples/measure fails'
echo 'in_use: ok'
