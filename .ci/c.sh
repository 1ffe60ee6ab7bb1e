#!/bin/sh
# Tries the C library over the proved archive, and fuzzes it for FUZZ_SECONDS (60), beside a second
# build where `tools/archive fluent_uri_c` made one.
. "$(dirname "$0")/lib.sh"
second=$root/crates/fluent_uri_c/out/libfluent_uri_c.by-rattle.a
seconds=${FUZZ_SECONDS:-60}

has cc 'the library' || exit 0
need_archive

build() {
    out=$1
    shift
    make -s -C "$root/c" OUT="$work/$out" ARCHIVE="$archive" "$@"
}

does 'gcc: the tests fail' build gcc CC=cc CXX=c++ check
does 'the header, the crate and the library differ' "$root/c/hold" "$work/gcc/libfluent_uri_c.so"
does 'c/hold does not report a change' "$root/c/hold" --trial
does 'a text that no object can be' "$root/c/lengths" "$work/gcc/libfluent_uri_c.so"
does 'c/lengths does not report a call' "$root/c/lengths" --trial
readelf -n "$work/gcc/libfluent_uri_c.so" 2> "$work/log" | grep -q 'x86-64-v2' ||
    fail 'the library does not say which processor it needs'

# On a processor without x86-64-v2 a line says so, and no signal: by the loader, or by the library
# where no loader looks.
if has qemu-x86_64 'an older processor'; then
    cat > "$work/main.c" <<'C'
#include <fluent_uri.h>
int main(void) { return (int)fluent_uri_version() == 0; }
C
    library=$work/gcc/libfluent_uri_c
    does 'a static program' cc -std=c99 -I"$root/c/include" -static "$work/main.c" "$library.a" \
        -o "$work/old.static"
    does 'a program over the shared library' cc -std=c99 -I"$root/c/include" "$work/main.c" \
        "$library.so" -Wl,-rpath,"$work/gcc" -o "$work/old.shared"
    for it in 'static:this processor lacks a feature of x86-64-v2' \
        'shared:CPU ISA level is lower than required'; do
        qemu-x86_64 -cpu Nehalem "$work/old.${it%%:*}" > "$work/log" 2>&1 ||
            fail "a ${it%%:*} program on a processor of x86-64-v2"
        qemu-x86_64 -cpu core2duo "$work/old.${it%%:*}" > "$work/log" 2>&1
        [ $? = 127 ] && [ "$(wc -l < "$work/log")" = 1 ] && grep -qF "${it#*:}" "$work/log" ||
            fail "a ${it%%:*} program on a processor without x86-64-v2"
    done
fi

# What is installed is found by pkg-config, and runs.
does 'it cannot be installed' build gcc CC=cc PREFIX=/usr DESTDIR="$work/stage" install
if has pkg-config 'what is installed'; then
    flags=$(PKG_CONFIG_PATH="$work/stage/usr/lib/pkgconfig" PKG_CONFIG_SYSROOT_DIR="$work/stage" \
        pkg-config --cflags --libs fluent_uri_c) || fail 'pkg-config does not find it'
    # shellcheck disable=SC2086 # (words)
    does 'it cannot be linked as it is installed' cc -std=c99 "$root/c/tests/calls.c" $flags \
        -Wl,-rpath,"$work/stage/usr/lib" -o "$work/installed"
    does 'what is installed fails' "$work/installed"
    # The programs of docs/C.md.
    for it in h hpp; do
        sed -n "/^    #include <fluent_uri.$it>/,/^    }\$/s/^    //p" "$root/docs/C.md" \
            > "$work/example.$it.cc"
        [ $it = h ] && compiler='cc -std=c99 -x c' || compiler='c++ -std=c++17'
        # shellcheck disable=SC2086 # (words)
        does "the program of docs/C.md over fluent_uri.$it" $compiler -Wall -Wextra -Werror \
            "$work/example.$it.cc" -x none $flags -Wl,-rpath,"$work/stage/usr/lib" \
            -o "$work/example.$it"
        "$work/example.$it" >> "$work/printed" || fail "the program over fluent_uri.$it fails"
    done
    printf 'http://%s\n' 'example.com/a/b/~foo' > "$work/wanted"
    printf '%s\n' 'example.com /a/b' 'http://example.com/d' >> "$work/wanted"
    does 'the programs of docs/C.md print other words' cmp "$work/wanted" "$work/printed"
fi

if has valgrind 'memory'; then
    for it in borders calls columns hosts; do
        does "valgrind: $it" valgrind -q --error-exitcode=1 --leak-check=full "$work/gcc/$it.static"
    done
fi

# AddressSanitizer and UndefinedBehaviorSanitizer watch what is written by hand: the tests, and the
# header that they use from C++.
sanitized='-O1 -g -fsanitize=address,undefined -fno-sanitize-recover=all'
# sanitizers_of COMPILER: its tests with sanitizers.
sanitizers_of() {
    for it in borders calls columns hosts orders threads rows; do
        # shellcheck disable=SC2086 # (words)
        does "sanitizers of $1: $it cannot be built" "$1" -std=c99 $sanitized \
            -I"$root/c/include" "$root/c/tests/$it.c" "$work/gcc/libfluent_uri_c.a" -pthread \
            -o "$work/$it"
        does "sanitizers of $1: $it" "$work/$it" "$root"/crates/vectors/data/*.txt
    done
}
# shellcheck disable=SC2086 # (words)
if echo 'int main(void) { return 0; }' | cc $sanitized -x c - -o "$work/none" 2> "$work/log"; then
    sanitizers_of cc
    # shellcheck disable=SC2086 # (words)
    does 'sanitizers of c++: the test cannot be built' c++ -std=c++17 $sanitized \
        -I"$root/c/include" "$root/c/tests/cplusplus.cc" "$work/gcc/libfluent_uri_c.a" \
        -o "$work/cplusplus"
    does 'sanitizers of c++' "$work/cplusplus"
else
    skip 'what is written by hand' 'cc has no sanitizers'
fi

if has clang 'a second compiler'; then
    does 'clang: the tests fail' build clang CC=clang CXX=clang++ check
    sanitizers_of clang
    if echo 'int LLVMFuzzerTestOneInput(void); int LLVMFuzzerTestOneInput(void) { return 0; }' |
        clang -fsanitize=fuzzer,address -x c - -o "$work/none" 2> "$work/log"; then
        fuzzed="$root/c/tests/fuzz.c $work/gcc/libfluent_uri_c.a"
        builds='one build'
        if [ -f "$second" ] && [ -z "$(find "$archive" -newer "$second")" ]; then
            # Both are linked into one program, so the names of the second are others.
            does 'the second build cannot be linked' make -s -C "$root/c" OUT="$work/second" \
                ARCHIVE="$second" "$work/second/fluent_uri_c.o"
            nm --defined-only -g "$work/second/fluent_uri_c.o" |
                sed -n 's/.* \(fluent_uri_.*\)/\1 second_\1/p' > "$work/names"
            does 'the second build cannot be renamed' objcopy --redefine-syms="$work/names" \
                "$work/second/fluent_uri_c.o" "$work/second.o"
            fuzzed="-DSECOND_BUILD $fuzzed $work/second.o"
            builds='two builds'
        else
            skip 'a second build' 'none is as new as the archive (tools/archive makes both)'
        fi
        # shellcheck disable=SC2086 # (words)
        does 'the fuzz target cannot be built' clang -std=c99 -O1 -g -DLIBFUZZER \
            -fsanitize=fuzzer,address,undefined -fno-sanitize-recover=all -I"$root/c/include" \
            $fuzzed -o "$work/fuzz"
        mkdir "$work/corpus"
        printf '\0\11\100HTTP://u@A:80/%%7e/../b?q#f' > "$work/corpus/uri"
        printf '\203\5\100//[::1]/\303\251' > "$work/corpus/iri"
        does 'fuzzing' "$work/fuzz" -max_total_time="$seconds" -max_len=256 -print_final_stats=1 \
            -dict="$root/c/tests/fuzz.dict" -artifact_prefix="$work/" "$work/corpus"
        count=$(sed -n 's/^stat::number_of_executed_units: *//p' "$work/log")
        echo "c: fuzzed $builds with $count texts in $seconds s"
    else
        skip fuzzing 'clang has no libFuzzer'
    fi
fi
echo 'c: passed'
