#!/bin/sh
# Tries the extensions of SQLite and PostgreSQL over the proved archive (docs/DATABASES.md).
#
# FUZZ_ROWS (100000) says how many random texts are tried, SERVER_ROWS (100000) how many URLs the
# three servers get, and FLUENT_URI_ARCHIVE names an archive in place of the proved one.
. "$(dirname "$0")/lib.sh"
rows=${FUZZ_ROWS:-100000}
has cc 'the extensions' || exit 0
archive=${FLUENT_URI_ARCHIVE-}
[ -n "$archive" ] || need_archive
does 'the library cannot be built' make -s -C "$root/c" OUT="$work/c" ARCHIVE="$archive" \
    "$work/c/libfluent_uri_c.a"
LIBRARY=$work/c/libfluent_uri_c.a
export LIBRARY

# The number of normal forms changes where any of them does: those of random texts, the rows of
# default ports, and the schemes that have other rules.
{
    does 'the random texts cannot be built' cc -std=c99 -O1 -I"$root/c/include" \
        "$root/postgres/tests/fuzz_rows.c" "$LIBRARY" -o "$work/fuzz_rows"
    "$work/fuzz_rows" 100000 1 | cut -f 4,6 > "$work/forms"
    sed -n 's/^    .*(codes \(".*", [0-9]*\))$/    (\1),/p' \
        "$root/crates/uri_parts/specs/SchemePorts.antt" >> "$work/forms"
    rules=$(sed -n '/^rooted_schemes =/,/^$/p; /^local_schemes =/,/^$/p' \
        "$root/crates/uri_ops/specs/StandardRules.antt" | sha256sum)
    version=$(sed -n 's/^#define FLUENT_URI_NORMAL_VERSION //p' "$root/c/include/fluent_uri.h")
    now="$version $(sha256sum < "$work/forms" | cut -d ' ' -f 1) ${rules%% *}"
    [ "$now" = "$(cat "$root/databases/forms")" ] ||
        fail "normal forms are not those of databases/forms: raise their number (docs/DESIGN.md, \
\"What a normal form is\"), and write there what this line then ends in: $now"
}

of_sqlite='the extension of SQLite'
if ! has sqlite3 "$of_sqlite"; then
    :
elif ! echo '#include <sqlite3.h>' | cc -E - > "$work/none" 2>&1; then
    skip "$of_sqlite" 'there is no sqlite3.h'
else
    sqlite() {
        make -s -C "$root/sqlite" CC=cc OUT="$work/sqlite" "$@"
    }
    does 'sqlite: a test fails' sqlite FUZZ="$rows" check
    sed 's/^/databases: sqlite: /' "$work/log"
    nm -D --defined-only "$work/sqlite/fluent_uri.so" | awk '{ print $NF }' |
        grep -v '^sqlite3_fluenturi_init$' > "$work/log" && fail 'sqlite: it exports other names'
    does 'sqlite: it cannot be installed' sqlite PREFIX=/usr DESTDIR="$work/stage" install
    does 'sqlite: the statements of docs/DATABASES.md' "$root/databases/statements" \
        'Statements for SQLite' sqlite3 -batch -cmd ".load $work/sqlite/fluent_uri" :memory:
    if has valgrind 'the memory of SQLite'; then
        does 'sqlite: with sanitizers or valgrind' sqlite FUZZ_MORE=$((rows / 4)) check-more
    fi
fi

config=${PG_CONFIG:-pg_config}
of_postgres='the extension of PostgreSQL'
if ! has "$config" "$of_postgres"; then
    :
elif [ ! -f "$("$config" --includedir-server)/postgres.h" ]; then
    skip "$of_postgres" 'there are no headers of a server'
elif [ ! -x "$("$config" --bindir)/initdb" ]; then
    skip "$of_postgres" 'there is no server'
elif [ "$(id -u)" = 0 ] && ! id postgres > "$work/none" 2>&1; then
    skip "$of_postgres" 'it does not run as root, and there is no user postgres'
else
    does 'postgres: a test fails' env FUZZ_ROWS="$rows" ROUNDS=500 PORT=$((20000 + $$ % 20000)) \
        "$root/postgres/tests/run"
    sed -n '/^\(fuzz\|sessions\)/s/^/databases: postgres: /p' "$work/log"
    if has python3 'three servers'; then
        does 'postgres: three servers' env PORT=$((20000 + $$ % 20000)) \
            "$root/postgres/tests/servers" "${SERVER_ROWS:-100000}"
        sed -n 's/^servers/databases: postgres/p' "$work/log"
    fi
fi
echo 'databases: passed'
