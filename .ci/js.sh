#!/bin/sh
# Tries the package for JavaScript (docs/JAVASCRIPT.md).
#
# usage: sh .ci/js.sh [PART..]      (all parts, if none is named)
#
# JS_SEED (1) and JS_LINES (20000) say of which texts, and of how many, the calls are made, and
# JS_SECONDS (300) after which time a module has failed.
. "$(dirname "$0")/lib.sh"
[ $# -gt 0 ] || set -- support size differ memory stacks programs api rows random types ajv page \
    faults
modules=/usr/share/nodejs suite=/usr/share/json-schema-test-suite
# Chromium leaves folders in it.
TMPDIR=$work
export TMPDIR

# tells WHAT COMMAND..: as `does`, and prints the last line.
tells() {
    does "$@"
    echo "js: $(tail -n 1 "$work/log")"
}

support() {
    has cc 'what the modules are linked with' || return 0
    does 'the heap and its neighbours' cc -std=c11 -O1 -g -Wall -Wextra -fno-builtin \
        -fsanitize=address,undefined -fno-sanitize-recover=all -I"$root/js/build" \
        "$root/js/test/support.c" -o "$work/support"
    tells 'the heap and its neighbours' "$work/support"
}

size() {
    found=$(gzip -9 -n -c "$root/js/wasm/fluent_uri.wasm" | wc -c)
    full=$(gzip -9 -n -c "$root/js/wasm/fluent_uri_full.wasm" | wc -c)
    [ "$found" -le 95000 ] || fail "the core has $found bytes by gzip, and not at most 95,000"
    echo "js: size: by gzip the core has $found bytes, and the full module $full"
}

# calls [CORE]: writes the calls of the full module or of the core, and the lines, into a folder.
calls() {
    folder=$work/${1:-full}
    [ ! -d "$folder" ] || return 0
    mkdir "$folder"
    does 'the calls' python3 "$root/js/test/differ.py" "$folder" "${JS_LINES:-20000}" \
        "${JS_SEED:-1}" "$@"
}

# differs MODULE [CORE]: makes each call of each line by a module and by the archive.
differs() {
    module=$1
    shift
    calls "$@"
    does 'the calls on x86-64' cc -O2 -I"$root/c/include" -I"$folder" "$root/js/test/differ.c" \
        "$root/c/heap.c" "$archive" -o "$folder/differ"
    mkfifo "$folder/x86-64"
    "$folder/differ" < "$folder/lines" > "$folder/x86-64" &
    # (a wrong module may go round in a loop)
    timeout "${JS_SECONDS:-300}" node "$root/js/test/differ.mjs" "$root/js/wasm/$module" \
        "$folder/calls.mjs" < "$folder/lines" 2> "$folder/told" |
        cmp - "$folder/x86-64" > "$work/log" 2>&1 ||
        fail "$module returns something else than the archive for x86-64"
    [ -s "$folder/told" ] || fail "$module made no calls"
    echo "js: differ: $module: $(cat "$folder/told"), as by the archive for x86-64"
}

differ() {
    has cc 'the modules beside the archive for x86-64' || return 0
    need_archive
    differs fluent_uri_full.wasm
    differs fluent_uri.wasm core
}

# over TEST: a test of each module.
over() {
    calls
    tells "$1 of the full module" node "$root/js/test/$1.mjs" \
        "$root/js/wasm/fluent_uri_full.wasm" "$folder/calls.mjs" "$folder/lines"
    calls core
    tells "$1 of the core" node "$root/js/test/$1.mjs" "$root/js/wasm/fluent_uri.wasm" \
        "$folder/calls.mjs" "$folder/lines"
}

memory() { over memory; }
stacks() { over stacks; }

# The package in a new project, as npm installs it without a network, with the tests beside it.
project() {
    [ ! -d "$work/project" ] || return 0
    for it in one other; do
        does 'the package' "$root/js/make" "$work/$it"
    done
    does 'two packages differ' cmp "$work/one/"*.tgz "$work/other/"*.tgz
    mkdir "$work/project"
    printf '{ "private": true }\n' > "$work/project/package.json"
    if has npm 'the installation by npm, in whose place tar unpacks'; then
        (cd "$work/project" && npm install --offline --no-audit --no-fund "$work/one/"*.tgz) \
            > "$work/log" 2>&1 || fail 'npm does not install the package'
    else
        mkdir -p "$work/project/node_modules/fluent-uri"
        tar -xzf "$work/one/"*.tgz -C "$work/project/node_modules/fluent-uri" --strip-components=1
    fi
    cp -R "$root/js/test" "$work/project/test"
    echo "js: the package has $(cat "$work/one/"*.tgz | wc -c) bytes"
}

# has_browser WHAT: whether there is Chromium, and what types into it.
debian_python=${PYTHON:-/usr/bin/python3}
has_browser() {
    has chromium "$1" && has chromedriver "$1" || return 1
    "$debian_python" -c 'import selenium' 2> /dev/null && return 0
    skip "$1" 'there is no python3-selenium'
    return 1
}

# The programs of its page, as modules and by `require`.
programs() {
    project
    for it in mjs cjs; do
        does "the programs of js/README.md, $it" python3 "$root/js/test/programs.py" \
            "$root/js/README.md" $it "$work/project/programs.$it"
        node "$work/project/programs.$it" > "$work/printed" 2> "$work/log" ||
            fail "a program of js/README.md fails, $it"
        does "the programs of js/README.md print something else, $it" \
            cmp "$work/printed" "$work/project/programs.$it.wanted"
        echo "js: programs: the $(wc -l < "$work/printed") lines of js/README.md, $it"
    done
    has_browser 'the package in a page without a bundler' || return 0
    tells 'the package in a page without a bundler' "$debian_python" \
        "$root/js/test/unbundled.py" "$work/project/node_modules/fluent-uri"
}

api() {
    project
    for it in "$work/project/test/"api*.mjs; do
        tells "$(basename "$it")" node --expose-gc "$it"
    done
}

rows() {
    project
    tells rows node "$work/project/test/rows.mjs" "$root"/crates/vectors/data/*.txt
}

random() {
    project
    tells 'random strings' node "$work/project/test/random.mjs" 20000 "${JS_SEED:-1}"
}

types() {
    has tsc 'the types (Debian: node-typescript)' || return 0
    project
    does 'the types' tsc --noEmit --strict --target es2022 --module nodenext \
        --moduleResolution nodenext "$work/project/test/types.ts"
    echo 'js: types: test/types.ts has no error'
}

ajv() {
    for it in "$modules/ajv" "$modules/uri-js" "$suite"; do
        [ -d "$it" ] || { skip 'Ajv over the suite of JSON Schema' "there is no $it"; return 0; }
    done
    project
    NODE_PATH=$modules
    export NODE_PATH
    tells 'Ajv over the suite of JSON Schema' node "$work/project/test/ajv.cjs" "$suite"
    tells 'references beside uri-js' node "$work/project/test/uri-js.cjs"
}

page() {
    has_browser 'the page in a browser' || return 0
    does 'the page' node "$root/js/page/make.mjs" "$work/page.html"
    tells 'the page in a browser' "$debian_python" "$root/js/test/page.py" "$work/page.html"
}

faults() { tells faults python3 "$root/js/test/faults.py"; }

has node 'the package for JavaScript' || exit 0
for it in wasm2wat wat2wasm; do
    has $it 'the modules of the package (Debian: wabt)' || exit 0
done
does 'the modules' "$root/js/build/module"
for part in "$@"; do
    "$part"
done
echo 'js: ok'
