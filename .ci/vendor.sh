#!/bin/sh
# Tries tools/vendor in scratch repositories. Then it pastes the whole programs of README and
# docs/CALLING.md into one: each must print what the page says.
#
# usage: .ci/vendor.sh [--copies], which leaves the programs out
. "$(dirname "$0")/lib.sh"
copy_tree "$work/tree" src specs proofs
own=$work/own
mkdir -p "$own/crates/app/src"
# vendor ARGUMENT..: calls the script of the tree, and sets `status`
vendor() {
    "$tree/tools/vendor" "$@" > "$work/out" 2> "$work/err"
    status=$?
}

# same PART: whether each copied crate has this part as the tree has it
same() {
    for crate in $copied; do
        diff -r "$tree/crates/$crate/$1" "$own/crates/$crate/$1" || true
    done
}

echo 'fn main() {}' > "$own/crates/app/src/main.rt"
echo 'app: fluent_uri uri_relative' > "$own/crates.txt"
copied='uri_pct uri_parts uri_ops error_laws fluent_uri uri_relative uri_mend'
copied="$copied uri_basic uri_order uri_query uri_idna uri_links"
there="is in $own/crates, and its lines are in crates.txt:"
mark=', copied by tools/vendor of its repository.'
version=$(sed -n 's/^## \([0-9.]*\).*/\1/p' "$tree/CHANGELOG.md" | head -n 1)

vendor "$own"
must 'the status of a first copy' 0 "$status"
# shellcheck disable=SC2086 # (names of crates)
must 'the crates of a first copy' "$(printf '%s\n' app $copied | sort)" "$(ls "$own/crates")"
must 'the sources of a first copy' '' "$(same src)"
must 'the version of a first copy' "vendor: fluent_uri $version $there" "$(head -n 1 "$work/out")"
must 'the lines of a first copy' "$copied app" \
    "$(sed '/^#/d; s/:.*//' "$own/crates.txt" | paste -sd ' ')"
must 'the version in crates.txt' "# fluent_uri $version$mark" "$(head -n 1 "$own/crates.txt")"

sed -i "s/^## $version/## 9.8.7\n\n## $version/" "$tree/CHANGELOG.md"
for crate in $copied; do
    echo '// changed' >> "$tree/crates/$crate/src/lib.rt"
done
rm "$tree/crates/uri_relative/src/ends.rt"
sed -i 's/^uri_links: .*/uri_links: fluent_uri uri_relative/' "$tree/crates.txt"
vendor "$own"
must 'the status of a second copy' 0 "$status"
must 'the versions of a second copy' "vendor: fluent_uri $version was there
vendor: fluent_uri 9.8.7 $there" "$(head -n 2 "$work/out")"
must 'the sources of a second copy' '' "$(same src)"
must 'the proofs of a second copy' '' "$(same proofs)"
must 'the lines of a second copy' \
    'uri_links: fluent_uri uri_relative,app: fluent_uri uri_relative' \
    "$(tail -n 2 "$own/crates.txt" | paste -sd ,)"
must 'the versions in crates.txt' "# fluent_uri 9.8.7$mark" "$(grep '^#' "$own/crates.txt")"
must 'a crate of the user' 'fn main() {}' "$(cat "$own/crates/app/src/main.rt")"

echo '// by hand' >> "$own/crates/uri_pct/src/lib.rt"
echo '// by hand' > "$own/crates/uri_links/src/more.rt"
rm "$own/crates/fluent_uri/LICENSE"
cp "$own/fluent_uri.sha256" "$work/record"
sed -i 's/^## 9.8.7/## 9.8.8/' "$tree/CHANGELOG.md"
vendor "$own"
must 'the status where a copy was changed' 1 "$status"
must 'what was changed' 'vendor: changed by hand since fluent_uri 9.8.7 was copied:
    removed crates/fluent_uri/LICENSE
    changed crates/uri_pct/src/lib.rt
    added crates/uri_links/src/more.rt' "$(sed '$d' "$work/err")"
must 'a changed file' '// by hand' "$(tail -n 1 "$own/crates/uri_pct/src/lib.rt")"
must 'the record where a copy was changed' '' "$(diff "$work/record" "$own/fluent_uri.sha256")"
vendor --replace "$own"
must 'the status of --replace' 0 "$status"
must 'what --replace drops' 4 "$(wc -l < "$work/err")"
must 'the sources after --replace' '' "$(same src)"
must 'the record after --replace' '# fluent_uri 9.8.8' "$(head -n 1 "$own/fluent_uri.sha256")"

mkdir -p "$work/other/crates/uri_relative/src"
echo 'uri_relative:' > "$work/other/crates.txt"
vendor "$work/other"
must 'the status where a crate is no copy' 1 "$status"
must 'what is then copied' uri_relative "$(ls "$work/other/crates")"
vendor "$tree"
must 'the status in the repository itself' 1 "$status"
vendor
must 'the status without a folder' 2 "$status"

# shown PAGE ABOVE: the indented text of a page below this line
shown() {
    awk -v above="$2" '
        $0 == above { found = 1; next }
        found && !/^(    .*)?$/ { exit }
        found { sub(/^    /, ""); lines[++count] = $0; if ($0 != "") last = count }
        END { for (at = 2; at <= last; at++) print lines[at] }' "$root/$1"
}

# session PAGE CRATE: the first session of a page in a fence, below what it shows of the crate
session() {
    awk -v crate="crates/$2/" '
        index($0, crate) { found = 1 }
        found && fenced && /^```/ { exit }
        fenced { print }
        found && /^```console$/ { fenced = 1 }' "$root/$1"
}

# program PAGE CRATE: pastes a whole program of a page, or takes the one of which it shows a part,
# and runs it as the page does
program() {
    own=$work/$2
    mkdir -p "$own/crates/$2/src"
    "$root/tools/vendor" "$own" > "$work/out" || return
    grep "^$2:" "$root/crates.txt" >> "$own/crates.txt"
    shown "$1" "From \`crates/$2/src/main.rt\`:" > "$own/crates/$2/src/main.rt"
    grep -q '^fn main' "$own/crates/$2/src/main.rt" ||
        cp "$root/crates/$2/src/main.rt" "$own/crates/$2/src/main.rt"
    session "$1" "$2" > "$work/session"
    command=$(sed -n '1s/^\$ //p' "$work/session")
    must "$2: the page has a command" 1 "$(echo "$command" | grep -c 'rt try')"
    must "$2: its output" "$(sed 1d "$work/session")" \
        "$(cd "$own/crates/$2" && sh -c "$command" 2> "$work/err")"
}

if [ "${1-}" != --copies ]; then
    program README.md hosts
    program docs/CALLING.md link_report
fi
ends
