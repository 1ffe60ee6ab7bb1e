#!/bin/sh
# Tries tools/release on a copy of the tree that is a release, with a command `rt` that proves
# nothing (release_tree.sh).
. "$(dirname "$0")/lib.sh"

must 'the exports are those of the symbols file' '' "$("$root/debian/write-symbols" --check)"
. "$root/.ci/release_tree.sh"

for it in git dpkg-buildpackage dh dh_python3 lintian aarch64-linux-gnu-gcc aarch64-linux-gnu-g++ \
    qemu-aarch64 cargo node wasm2wat; do
    has "$it" packages || ends
done
dpkg-checkbuilddeps > "$work/out" 2>&1 || {
    skip packages "$(cat "$work/out")"
    ends
}

# An export that goes fails the build.
cc -shared "$work/exports.o" -Wl,-soname,libfluent_uri_c.so.0 -o "$work/whole.so" \
    -Wl,--version-script=c/fluent_uri_c.map
sed 's/^uint32_t fluent_uri_parse(/uint32_t other(/' "$work/exports.c" > "$work/less.c"
cc -O2 -fPIC -w -Ic/include -shared "$work/less.c" -Wl,-soname,libfluent_uri_c.so.0 \
    -Wl,--version-script=c/fluent_uri_c.map -o "$work/less.so"
for it in whole:0 less:1; do
    debian/write-symbols --check "$work/${it%:*}.so" > "$work/out" 2>&1
    must "the exports of a library that is ${it%:*}" "${it#*:}" $?
    dpkg-gensymbols -plibfluent-uri0 -Idebian/libfluent-uri0.symbols -v"$version+" -c4 -q \
        -e"$work/${it%:*}.so" -O/dev/null > "$work/out" 2>&1
    must "the symbols of a later library that is ${it%:*}" "${it#*:}" $?
done
sed -i 's/extern "C" fn fluent_uri_parse(/extern "C" fn other(/' crates/fluent_uri_c/src/*.rt
must 'an export of the sources that is gone' \
    "write-symbols: fluent_uri_parse of $version is gone: the SONAME has to change" \
    "$(debian/write-symbols | head -n 1)"
sed -i 's/extern "C" fn other(/extern "C" fn fluent_uri_parse(/' crates/fluent_uri_c/src/*.rt

# Where cargo is rustup's, it looks for compilers in the home.
RUSTUP_HOME=${RUSTUP_HOME:-$HOME/.rustup}
export RUSTUP_HOME
GIT_CONFIG_NOSYSTEM=1 GIT_AUTHOR_DATE='2026-01-02 00:00:00 +0000' HOME=$work
GIT_COMMITTER_DATE=$GIT_AUTHOR_DATE
export GIT_CONFIG_NOSYSTEM GIT_AUTHOR_DATE GIT_COMMITTER_DATE HOME
for it in user.name:trial user.email:trial@localhost init.defaultBranch:main; do
    git config --global "${it%%:*}" "${it#*:}"
done
git init -q . && git add -A && git commit -q -m "$version" || exit 2

# refuses LINE WORDS..: tools/release makes nothing, and says why
refuses() {
    line=$1
    shift
    tools/release "$@" > "$work/out" 2> "$work/err"
    must "the status of tools/release $*" 1 $?
    must "the line of tools/release $*" "release: $line" "$(tail -n 1 "$work/err")"
    [ ! -e out/release ] || must "what tools/release $* leaves" nothing "$(ls out/release)"
}

# tagged WORD..: the tag has this message, a line a word
tagged() {
    git tag -d "v$version" > "$work/out" 2>&1
    printf '%s\n' "$@" | git tag -a -F - "v$version"
}

passed="Checked-tree: $(git rev-parse 'HEAD^{tree}')"
untold="the message of v$version does not say that ./check passed for this tree"
refuses 'the words are [--anew | --trial] VERSION, or --verify FOLDER in its place'
refuses "there is no annotated tag v$version" "$version"
git tag "v$version"
refuses "there is no annotated tag v$version" "$version"
tagged 'a release'
refuses "$untold" "$version"
tagged './check passed' '' "Checked-tree: $(git rev-parse HEAD)" "Checked-by: $IDENTITY"
refuses "$untold" "$version"
tagged './check passed' '' "$passed" 'Checked-by: rattle-kit-1 logic 0'
refuses "the message of v$version says that ./check passed by rattle-kit-1 logic 0: the kit here \
is $IDENTITY" "$version"
of_release=$(cd tools && python3 -Bc 'from passed import crates, handed_on
print(*[it.name for it in handed_on(crates())])')
tagged './check passed' '' "$passed" "Checked-by: $IDENTITY"
refuses "the message of v$version lacks libfluent_uri_c.a uritool urilines $of_release: tag what \
./check --anew writes" "$version"

# What `rt ci` leaves and says, and what is kept of it.
ends_so='logic=proved functions=3 statements=trusted'
for it in $of_release; do
    mkdir -p "crates/$it/out"
    printf '== %s: its tests\nlogic=proved tests=9\n== %s\nfn %s: proved\n%s\n%s\nrt: %s proved\n' \
        "$it" "$it" "$it" "$AXIOMS" "$ends_so" "$it"
done > "$work/ci"
sed -n '/^== /{/tests$/d; s/^== \(.*\)/rt: \1 is kept: an earlier run proved the same/p;}' \
    "$work/ci" > "$work/ci.kept"
ar rcsD crates/fluent_uri_c/out/libfluent_uri_c.a "$work/exports.o"
for it in uritool urilines; do
    cp "$work/$it" "crates/$it/out/$it"
done
# told: how many crates the message of the tag would name
told() {
    tools/checked "$(tools/checked)" > "$work/out"
    grep -c '^Checked-crate: ' out/check.passed
}
count=$(echo "$of_release" | wc -w)
sed 's/^rt: \(.*\) proved$/rt: \1 NOT PROVED/' "$work/ci" > "$work/ci.not"
tools/checked --keep "$work/ci.not"
must 'the crates that are known where none is proved' 0 "$(told)"
tools/checked --keep "$work/ci.kept"
must 'the crates of which nothing is known' 0 "$(told)"
must 'that nothing is known of them' "$of_release; ./check --anew proves them" \
    "$(sed -n 's/.*kept from other runs: //p' "$work/out")"
tools/checked --keep "$work/ci"
must 'the crates that are proved' "$count" "$(told)"
must 'how the check of a crate ended' "$AXIOMS|$ends_so" \
    "$(sed -n '/^Checked-crate: urilines$/,$s/^    //p' out/check.passed | paste -sd '|')"
must 'the digests of what is built' "$(cd crates && sha256sum fluent_uri_c/out/libfluent_uri_c.a \
    uritool/out/uritool urilines/out/urilines | sed 's|  .*/|  |')" \
    "$(sed -n 's/^Checked-file: //p' out/check.passed)"
tools/checked --keep "$work/ci.kept"
must 'the crates that stay known' "$count" "$(told)"
echo '// another' >> crates/uri_streams/src/lib.rt
git commit -q -a -m another
tools/checked --keep "$work/ci.kept"
must 'the crates that stay known, but those over one that changed' "$((count - 2))" "$(told)"
git reset -q --hard HEAD~
tools/checked --keep "$work/ci"

tree_of_head=$(tools/checked)
must 'the tree that ./check begins with' "${passed#* }" "$tree_of_head"
tools/checked 0
must 'what is written of another tree' 1 "$([ ! -e out/check.passed ] && echo 1)"
tools/checked "$tree_of_head"
git tag -f -a -F out/check.passed "v$version" > "$work/out"
echo more >> README.md
must 'the tree that ./check begins with if there are changes' '' "$(tools/checked)"
tools/checked "$tree_of_head"
must 'what is written if there are changes' 1 "$([ ! -e out/check.passed ] && echo 1)"
refuses 'the tree has changes that are not committed' "$version"
git commit -q -a -m more
refuses "v$version is not what is checked out" "$version"
sed -i 's/^__version__ = .*/__version__ = "9.0.0"/' python/src/fluent_uri/__init__.py
git commit -q -a -m other
refuses "not $version: python/src/fluent_uri/__init__.py has 9.0.0" "$version"
git reset -q --hard "v$version"
sed -i "s/^## $version, .*/## $version, not released yet/" CHANGELOG.md
git commit -q -a -m undated
tools/checked "$(tools/checked)"
git tag -f -a -F out/check.passed "v$version" > "$work/out"
refuses "CHANGELOG.md lacks '## $version, 2026-01-02', the day of debian/changelog in UTC" \
    "$version"
git reset -q --hard HEAD~
tools/checked "$(tools/checked)"
git tag -f -a -F out/check.passed "v$version" > "$work/out"

# A release, and another in another folder on another day.
tools/release "$version" > "$work/out" 2> "$work/err"
must 'the status of a release' 0 $?
[ -d out/release ] || { tail -n 40 "$work/err"; ends; }
address=$(sed -n 's/^Maintainer: .*<\(.*\.example\)>$/\1/p' debian/control)
must 'that an address takes no reports' "${address:+release: $address of debian/control takes no \
reports (SECURITY.md)}" "$(grep 'takes no reports' "$work/err")"
must 'the files of a release' "SHA256SUMS
fluent-uri-$version-api.html
fluent-uri-$version-arm64.proved.txt
fluent-uri-$version-arm64.spdx.json
fluent-uri-$version-source.tar.gz
fluent-uri-$version.html
fluent-uri-$version.proved.txt
fluent-uri-$version.spdx.json
fluent-uri-$version.tgz
fluent-uri-rattle-0.4.1.crate
fluent-uri-tools_${version}_amd64.deb
fluent_uri-$version-py3-none-PLATFORM.whl
fluent_uri-$version.tar.gz
libfluent-uri-dev_${version}_amd64.deb
libfluent-uri-dev_${version}_arm64.deb
libfluent-uri0_${version}_amd64.deb
libfluent-uri0_${version}_arm64.deb
libsqlite3-mod-fluent-uri_${version}_amd64.deb
postgresql-15-fluent-uri_${version}_amd64.deb
python3-fluent-uri_${version}_amd64.deb" \
    "$(LC_ALL=C ls out/release | sed 's/none-.*\.whl/none-PLATFORM.whl/')"
(cd out/release && sha256sum --quiet -c SHA256SUMS)
must 'the digests' 0 $?
must 'what is proved once more of what ./check proved' none \
    "$([ -e "$work/proved" ] && cat "$work/proved" || echo none)"
must 'the statement names the tag' 1 "$(grep -c "the tag v$version, with the tree" \
    "out/release/fluent-uri-$version.proved.txt")"
must 'the statement has a verdict of each crate' "$count uri_pct urilines" \
    "$(grep -B 2 '^    logic=proved ' "out/release/fluent-uri-$version.proved.txt" |
        sed -n 's/^\([a-z].*\)/\1/p' | awk 'NR == 1 { one = $0 } END { print NR, one, $0 }')"
for it in out/release/*.deb; do
    name=$(basename "${it%%_*}")
    rm -rf "$work/files"
    dpkg-deb -x "$it" "$work/files"
    case $it in *arm64*) of=-arm64 ;; *) of= ;; esac
    for file in proved.txt spdx.json; do
        found=$work/files/usr/share/doc/$name/$file
        [ $file = proved.txt ] || found=${found%/*}/fluent-uri.$file
        cmp -s "$found" "out/release/fluent-uri-$version$of.$file"
        must "$file in $it" 0 $?
    done
done
must 'the components that load extensions' 2 \
    "$(grep -c HAS_PREREQUISITE "out/release/fluent-uri-$version.spdx.json")"
must 'the licence and the notice of a library of the kit' 'MIT OR Apache-2.0
Copyright (c) 2020 A. Writer' "$(/usr/bin/python3 -c 'import json, sys
with open(sys.argv[1]) as it:
    (found,) = [it for it in json.load(it)["packages"] if it["name"].endswith("-letters")]
print(found["licenseDeclared"], found["copyrightText"], sep="\n")' \
    "out/release/fluent-uri-$version.spdx.json")"
"$root/.ci/spdx.py" out/release/*.spdx.json > "$work/out" 2>&1
must 'what of the components is against SPDX 2.3' '0 ' "$? $(cat "$work/out")"
must 'what of spoilt components is not found' '' "$(PYTHONPATH=$root/.ci /usr/bin/python3 -Bc '
import copy, json, sys
from spdx import wrong
with open(sys.argv[1]) as it:
    whole = json.load(it)
for path, value in (("name", None), ("other", "a"), ("creationInfo.created", "2026-13-01T00:00:00Z"),
                    ("packages.0.SPDXID", "SPDXRef-other"),
                    ("packages.0.licenseDeclared", "MIT OR"),
                    ("packages.0.licenseDeclared", "Expat"), ("packages.0.other", "a"),
                    ("files.0.checksums.0.checksumValue", "0"),
                    ("files.0.SPDXID", "SPDXRef-DOCUMENT"),
                    ("relationships.0.relationshipType", "LINKS"),
                    ("relationships.0.relationshipType", "STATIC_LINK")):
    spoilt = it = copy.deepcopy(whole)
    *above, last = [int(word) if word.isdigit() else word for word in path.split(".")]
    for word in above:
        it = it[word]
    it.update({last: value}) if value else it.pop(last)
    wrong(spoilt) or print(path, value)
' "out/release/fluent-uri-$version.spdx.json")"
must 'the target of arm64' 1 "$(grep -c 'logic=proved.* target=aarch64-unknown-linux-gnu' \
    "out/release/fluent-uri-$version-arm64.proved.txt")"
rm -rf "$work/files"

# A licence that debian/copyright lacks.
for it in crates/*; do
    echo 'logic=proved functions=3' > "out/$(basename "$it").verdict"
done
echo 'UNICODE LICENSE V3' > "$work/kit/rattle/letters/LICENSE-UNICODE"
sed -i.whole '/^License: Unicode-3.0$/d' debian/copyright
must 'a licence that debian/copyright lacks' \
    "statement: debian/copyright lacks Unicode-3.0, the licence of $work/kit/rattle/letters" \
    "$(SOURCE_DATE_EPOCH=0 tools/statement "$work/said" . LICENSE 2>&1)"
rm "$work/kit/rattle/letters/LICENSE-UNICODE"
mv debian/copyright.whole debian/copyright
for it in out/release/*_amd64.deb; do
    dpkg-deb -x "$it" "$work/files"
done
proved=$tree/out/release/fluent-uri-$version.proved.txt
(cd "$work/files" && sed -n 's|^\([0-9a-f]*\)  /|\1  |p' "$proved" | sha256sum --quiet -c)
must 'the digests of what is installed' 0 $?
for it in bin/uritool bin/urilines share/man/man1/urilines.1.gz include/fluent_uri.h \
    share/bash-completion/completions/uritool share/zsh/vendor-completions/_urilines \
    share/fish/vendor_completions.d/urilines.fish share/fluent-uri/offers lib/python3/dist-packages/fluent_uri/batch.py \
    lib/sqlite3/fluent_uri.so lib/postgresql/15/lib/fluent_uri.so \
    share/postgresql/15/extension/fluent_uri.control; do
    must "the packages have $it" 1 "$([ -e "$work/files/usr/$it" ] && echo 1)"
done
must 'the wheel has the statement' 1 \
    "$(/usr/bin/python3 -m zipfile -l out/release/*.whl | grep -c 'sboms/proved.txt')"
must 'what all may read of the wheel, and how its description begins' '0o100644 # fluent_uri' \
    "$(/usr/bin/python3 -c 'import sys, zipfile
with zipfile.ZipFile(sys.argv[1]) as it:
    (about,) = [name for name in it.namelist() if name.endswith(".dist-info/METADATA")]
    print(*{oct(file.external_attr >> 16) for file in it.infolist()},
          it.read(about).decode().split("\n\n")[1])' out/release/*.whl)"
# A second one is proved from nothing in a folder of its own, which has nothing that is kept.
git clone -q . "$work/another"
cd "$work/another" || exit 2
FUNCTIONS=4 tools/release --anew "$version" > "$work/out" 2> "$work/err"
must 'a release of a crate whose check ends otherwise' \
    "release: the check of uri_pct ended otherwise than for ./check: $AXIOMS" \
    "$(grep '^release: the check' "$work/err")"
mv "$work/uritool" "$work/uritool.same"
cp "$work/urilines" "$work/uritool"
tools/release "$version" > "$work/out" 2> "$work/err"
must 'a release with another program' "release: uritool has the sha256 $(sha256sum \
    < "$work/uritool" | cut -d ' ' -f 1), and ./check built $(sha256sum < "$work/uritool.same" |
    cut -d ' ' -f 1)" "$(tail -n 1 "$work/err")"
mv "$work/uritool.same" "$work/uritool"
rm -f "$work/stores" "$work/proved"
later=
has faketime 'build on another day' && later='faketime -f +40d'
$later tools/release --verify "$tree/out/release" > "$work/out" 2> "$work/err"
must 'the status of a second build' 0 $?
must 'what is proved from nothing' "$(echo "$of_release" | tr ' ' '\n')" "$(cat "$work/proved")"
kept=$work/another/out/release.work/kept
must 'where the checks of a release keep their work' "$kept/rt $kept/rt/work" \
    "$(sort -u "$work/stores")"
must 'the line of a second build' \
    "release: $tree/out/release is $version, byte for byte: 20 files" "$(tail -n 1 "$work/out")"
cp "$tree/LICENSE" "$tree/out/release/fluent-uri-$version.spdx.json"
tools/release --verify "$tree/out/release" > "$work/out" 2> "$work/err"
must 'the status of a release with another file' 1 $?
must 'the line of a release with another file' \
    "release: not as $tree/out/release/SHA256SUMS has it: fluent-uri-$version.spdx.json" \
    "$(cat "$work/err")"
ends
