#!/bin/sh
# Each file of must-not-compile/ is the source of a crate over fluent_uri that the check must
# reject. Its first line, `expect: NAME`, names the error. Nothing is proved here: the errors are
# those of types and borrows.
. "$(dirname "$0")/lib.sh"
set -e

tar -C "$root" --exclude=out -cf - crates crates.txt HANDLES | tar -C "$work" -xf -
echo 'refused: fluent_uri' >> "$work/crates.txt"
crate=$work/crates/refused
mkdir -p "$crate/src" "$crate/specs"
: > "$crate/specs/Lib.antt"

failed=0
for source in "$root"/.ci/must-not-compile/*.txt; do
    name=$(basename "$source" .txt)
    expected=$(sed -n '1s/^expect: //p' "$source")
    { echo '#![tactic(auto)]'; sed 1d "$source"; } > "$crate/src/lib.rt"
    if said=$(cd "$crate" && rt check --jobs 1 --only "" 2>&1); then
        echo "must not compile, and does: $name"
        failed=1
    elif [ -z "$expected" ] || ! printf '%s\n' "$said" | grep -qF "error[$expected]"; then
        echo "must not compile by error[$expected], and does not for another reason: $name"
        printf '%s\n' "$said" | grep 'error' || printf '%s\n' "$said"
        failed=1
    else
        echo "does not compile, as it must not: $name: error[$expected]"
    fi
done
exit $failed
