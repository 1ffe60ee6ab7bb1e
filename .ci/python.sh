#!/bin/sh
# Tests the Python package over the shared library. FLUENT_URI_LIBRARY names one in place of that of
# the proved archive, and PYTHON_DEBUG the Python that counts references, if it is not python3-dbg.
# GENERATED_SECONDS (6) says how long generated calls are compared, and GENERATED_SEED (1) which.
. "$(dirname "$0")/lib.sh"
# (the packages of Debian are those of its own Python)
python=${PYTHON:-$(command -v /usr/bin/python3 || echo python3)}
if ! "$python" -c 'import sys; sys.exit(sys.version_info < (3, 8))' 2> /dev/null; then
    skip 'the package' 'there is no Python from 3.8 on'
    exit 0
fi
need_library
export PYTHONDONTWRITEBYTECODE=1

# tests PYTHON FOLDER WANTED [MODULE..]: runs these tests, or all, with the package in the folder.
# WANTED says whether the compiled module must make the calls.
tests() {
    runner=$1 PYTHONPATH=$2 wanted=$3
    export PYTHONPATH
    shift 3
    [ $# -gt 0 ] || set -- discover
    "$runner" -c "import fluent_uri, sys; sys.exit(fluent_uri.is_compiled is not $wanted)" \
        > "$work/log" 2>&1 || fail "fluent_uri.is_compiled is not $wanted"
    cd "$root/python/tests" || exit 2
    "$runner" -m unittest "$@" -v > "$work/log" 2>&1 || fail "a test failed ($told)"
    sed -n "s/.*skipped ['\"]\(mypy is\|there is no \(package\|test\.\)\)\(.*\)['\"]$/\1\3/p" \
        "$work/log" | sort -u | while read -r why; do skip 'a test of the package' "$why"; done
    grep '^Ran ' "$work/log" | sed "s/^/python: $told: /"
}

# The tests over the border itself, for what is slow.
border='test_values test_classes test_types test_lies test_batch test_mend'

mkdir "$work/site"
cp -R "$root/python/src/fluent_uri" "$work/site/"
rm -f "$work/site/fluent_uri/"*.so*
cp "$library" "$work/site/fluent_uri/libfluent_uri_c.so.0"
told='by ctypes'
tests "$python" "$work/site" False
export TESTED_ONCE=1
if "$python" "$root/python/build-compiled" "$work/site/fluent_uri" > "$work/log" 2>&1; then
    told='by the compiled module'
    tests "$python" "$work/site" True

    # The module is built with sanitizers, and Python takes each object's memory by malloc.
    asan=$(${CC:-cc} -print-file-name=libasan.so) ubsan=$(${CC:-cc} -print-file-name=libubsan.so)
    if [ -f "$asan" ] && [ -f "$ubsan" ]; then
        cp -R "$work/site" "$work/sanitized"
        CFLAGS='-O1 -g -fsanitize=address,undefined -fno-sanitize-recover=all' \
            "$python" "$root/python/build-compiled" "$work/sanitized/fluent_uri" > "$work/log" 2>&1 ||
            fail 'the compiled module could not be built with sanitizers'
        # The program itself, not a script that starts it, which would be sanitized too.
        program=$("$python" -c 'import sys; print(sys.executable)')
        printf '#!/bin/sh\nexport LD_PRELOAD="%s" %s\nexec "%s" "$@"\n' "$asan $ubsan" \
            'ASAN_OPTIONS=detect_leaks=0 PYTHONMALLOC=malloc' "$program" > "$work/sanitized-python"
        chmod +x "$work/sanitized-python"
        told='with sanitizers'
        # shellcheck disable=SC2086 # (words)
        tests "$work/sanitized-python" "$work/sanitized" True $border test_imports test_threads \
            test_generated
    else
        skip 'the module with sanitizers' "${CC:-cc} has none"
    fi

    debug=${PYTHON_DEBUG:-python3-dbg}
    if ! has "$debug" 'references that are counted'; then
        :
    elif ! "$debug" -c 'import sys; sys.gettotalrefcount()' > "$work/log" 2>&1; then
        fail "$debug counts no references"
    else
        cp -R "$work/site" "$work/debug"
        "$debug" "$root/python/build-compiled" "$work/debug/fluent_uri" > "$work/log" 2>&1 ||
            fail "the compiled module could not be built for $debug"
        told='with references counted'
        # shellcheck disable=SC2086 # (words)
        tests "$debug" "$work/debug" True $border test_references
    fi
else
    grep -q 'not built: there is no' "$work/log" || fail 'the compiled module could not be built'
    skip 'the compiled module' "$(sed 's/^build-compiled: //' "$work/log")"
fi

for it in one other; do
    "$python" "$root/python/make-wheel" "$library" "$work/$it" > "$work/log" 2>&1 ||
        fail 'the wheel could not be made'
done
cmp "$work/one/"*.whl "$work/other/"*.whl > "$work/log" 2>&1 || fail 'two wheels differ'
# What is in it asks for no symbol of a later glibc.
[ -f "$work/one/"*-manylinux_2_17_x86_64.whl ] || fail "the wheel is $(ls "$work/one")"
"$python" -m zipfile -e "$work/one/"*.whl "$work/installed" > "$work/log" 2>&1 ||
    fail 'the wheel could not be unpacked'
works='from fluent_uri import Uri, batch
assert str(Uri.parse("A:%7e").normalize()) == batch.normalize(["A:%7e"])[0] == "a:~"'
PYTHONPATH=$work/installed "$python" -c "$works" > "$work/log" 2>&1 ||
    fail 'the wheel does not work'

# The package as a new user installs it: by the commands of the page, with a home of their own, over
# the archive. Nothing may be left beside the sources.
beside() {
    git -C "$root" status --porcelain --untracked-files=all 2> /dev/null
}
what='the package as it is installed'
if [ -z "$archive" ]; then
    skip "$what" 'a library is given'
elif ! has rt "$what" || ! has cc "$what"; then
    :
elif ! python3 -c 'import ensurepip, venv' 2> /dev/null; then
    skip "$what" 'python3 has no venv (Debian: python3-venv)'
else
    cd "$root" || exit 2
    unset PYTHONPATH PYTHONDONTWRITEBYTECODE
    # The first lines of the section that stand in a fence, but for `./build`.
    awk '/^## /{is = $0 == "## Install"} is && /^    /{print; seen = 1; next} is && seen{exit}' \
        docs/PYTHON.md > "$work/page"
    [ "$(wc -l < "$work/page")" -ge 4 ] || fail 'the page has no commands'
    sed '/^ *\.\/build /d' "$work/page" > "$work/commands"
    before=$(beside)
    HOME=$work ARCHIVE=$archive sh -eu "$work/commands" > "$work/log" 2>&1 ||
        fail 'a command of the page failed'
    installed=$(find "$work" -path '*/bin/python3' | head -n 1)
    (cd / && "$installed" -c "import fluent_uri
assert fluent_uri.__file__.startswith(__import__('sys').prefix)
$works
print(fluent_uri.is_compiled)") > "$work/log" 2>&1 || fail 'what is installed does not work'
    echo "python: installed (compiled: $(cat "$work/log"))"
    FLUENT_URI_LIBRARY=/no/such "$installed" -m pip install --force-reinstall ./python \
        > "$work/log" 2>&1 && fail 'pip installs the package without the shared library'
    grep -q 'fluent_uri: there is no shared library /no/such: build it by' "$work/log" ||
        fail 'pip does not say that the shared library is missing'
    [ "$(beside)" = "$before" ] || fail "left beside the sources: $(beside)"
fi
echo 'python: ok'
