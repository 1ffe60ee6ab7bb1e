# What stands for a release in release.sh, which reads this file: a copy of the tree that is one
# (`tree`), and a command `rt` that proves nothing. Its archive has the exports of the header, and
# these and its programs do nothing.
has cc 'what stands for the programs' || exit 0

tree=$work/tree
mkdir "$tree" "$work/bin" "$work/kit" "$work/kit/c" "$work/kit/bin"
mkdir -p "$work/kit/rlibs/core.rlib/toolchain" "$work/kit/rlibs/letters.rlib/toolchain" \
    "$work/kit/rattle/letters"
tar -C "$root" --exclude=out --exclude=.git --exclude=mutants --exclude=proofs -cf - . |
    tar -C "$tree" -xf -
cd "$tree" || exit 2
version=$(sed -n 's/^VERSION = //p' c/Makefile)
sed -i "s/^## $version,.*/## $version, 2026-01-02/" CHANGELOG.md
{
    printf 'fluent-uri (%s) unstable; urgency=medium\n\n  * A trial.\n\n' "$version"
    sed -n '/^ -- /{s/>.*/>  Fri, 02 Jan 2026 00:00:00 +0000/;p;q}' debian/changelog
} > "$work/changelog"
mv "$work/changelog" debian/changelog
# (the exports that stand there pass no test)
sed -i 's/^\t\$(MAKE_C) check/\ttrue/' debian/rules
cat > tools/archive <<'ARCHIVE'
#!/bin/sh
mkdir -p out/aarch64
aarch64-linux-gnu-gcc -O2 -fPIC -w -Ic/include -c "$WORK/exports.c" -o "$WORK/exports.aarch64.o"
aarch64-linux-gnu-ar rcsD out/aarch64/libfluent_uri_c.a "$WORK/exports.aarch64.o"
echo 'logic=proved functions=3 target=aarch64-unknown-linux-gnu' > out/aarch64/libfluent_uri_c.verdict
ARCHIVE
cat > js/build/module <<'MODULE'
#!/bin/sh
mkdir -p js/wasm
echo 'a module' | tee js/wasm/fluent_uri.wasm > js/wasm/fluent_uri_full.wasm
MODULE

{
    echo '#include "fluent_uri.h"'
    sed -n '/^uint32_t fluent_uri_/ { :a; /;/!{ N; ba; }; s/;/ { return 0; }/p; }' c/include/fluent_uri.h
} > "$work/exports.c"
for it in urilines:0 uritool:2; do
    echo "int main(void) { return ${it#*:}; }" | cc -x c - -o "$work/${it%:*}" || exit 2
done
cc -O2 -fPIC -w -Ic/include -c "$work/exports.c" -o "$work/exports.o" || exit 2
echo 'int fluent_uri_heap_stands_here;' | cc -fPIC -x c -c - -o "$work/heap.o" || exit 2
ar rcsD "$work/kit/c/liblibc_c.a" "$work/heap.o"
# (a library of the kit that all are linked with, and what its files say)
for it in core:letters letters:; do
    echo "dep ${it#*:}" > "$work/kit/rlibs/${it%:*}.rlib/format"
    : > "$work/kit/rlibs/${it%:*}.rlib/toolchain/checked.a"
done
printf 'Copyright (c) 2020 A. Writer\n\nPermission is hereby granted, free of charge, to any\n%s' \
    'person obtaining a copy of this software' > "$work/kit/rattle/letters/LICENSE-MIT"
echo 'Apache License' > "$work/kit/rattle/letters/LICENSE-APACHE"
cat > "$work/bin/rt" <<'RT'
#!/bin/sh
crate=$(basename "$PWD")
case $1 in
version) echo "$IDENTITY" ;;
doc) echo "$WORK/kit/START-HERE.md" ;;
lib | run)
    echo "$crate" >> "$WORK/proved"
    echo 'crate loaded'
    echo "$AXIOMS"
    echo "logic=proved functions=${FUNCTIONS:-3} incremental=trusted"
    mkdir -p out
    [ "$crate" != fluent_uri_c ] || ar rcsD out/libfluent_uri_c.a "$WORK/exports.o"
    [ "$1" = lib ] || {
        cp "$WORK/$crate" "out/$crate"
        echo "rt: running out/$crate; to give it other input, run that file yourself"
    }
    ;;
esac
RT
chmod +x "$work/bin/rt"
# (the folder of the copy's own that rt keeps its work in is in the file `stores`)
cat > "$work/kit/bin/rt" <<'KIT'
import os
import subprocess
STORE = WORK = "/that/others/share"
def main(words):
    here = os.environ["WORK"]
    with open(f"{here}/stores", "a") as it:
        print(STORE, WORK, file=it)
    return subprocess.call([f"{here}/bin/rt", *words])
KIT
IDENTITY='rattle-kit-0 logic 0' WORK=$work PATH=$work/bin:$PATH
AXIOMS='axioms libc: libc::heap::rattle_alloc (1 of the 3 declared)'
export AXIOMS IDENTITY WORK PATH
