#!/bin/sh
# Tries ./test on a copy of the tree, with a command `rt` that compiles nothing: it prints what rt
# prints, for as many tests as there are. What is wrong is said by environment variables.
. "$(dirname "$0")/lib.sh"
tree=$work/tree
mkdir "$tree" "$work/bin" "$work/tmp"
tar -C "$root" --exclude=out --exclude=.git -cf - . | tar -C "$tree" -xf -
# These have trials of their own, or take long.
for it in tools/mutants tools/lemmas .ci/build.sh .ci/python.sh; do
    printf '#!/bin/sh\necho "%s: ok"\n' "$it" > "$tree/$it"
done
kit=$(grep -ohE 'rattle-kit-[0-9a-z]+ logic [0-9a-f]+' "$root/README.md" | head -n 1)
cat > "$work/bin/rt" <<'RT'
#!/bin/sh
crate=$(basename "$PWD")
if [ "$1" = version ]; then
    echo "$KIT"
    exit
fi
if [ "$1" = check ]; then
    # What must not compile: the name of each error that a source expects.
    sed -n 's/^expect: \(.*\)/error[\1]/p' "$ROOT"/.ci/must-not-compile/*.txt
    exit 1
fi
echo "$crate" >> "$WORK/ran"
if [ -n "${SLOW-}" ]; then
    echo $$ > "$WORK/slow"
    exec sleep 60
fi
if [ "${CRASHES-}" = "$crate" ]; then
    echo 'src/lib.rt:1:1: error[any]: what the compiler says' >&2
    echo 'run=none proved=no' >&2
    exit 1
fi
fails=0
[ "${FAILS-}" != "$crate" ] || fails=1
case $crate in
vectors)
    rows=$(for it; do case $it in *=*) cat "${it#*=}" ;; esac; done | grep -cv -e '^ *$' -e '^#')
    [ "$fails" = 0 ] || echo 'fail normal.txt:7: expected a, got b'
    echo "rows $((rows - ${LOST-0})) failed $fails"
    exit "$fails"
    ;;
compiled)
    # (rt takes no crate from outside the root)
    [ -z "$(find ../.. -type l)" ] || exit 1
    echo compiled
    ;;
*)
    if [ -f stdout ]; then
        # A program with a stored run.
        [ "$fails" = 0 ] || echo another
        cat stdout
        exit "$(cat status 2> /dev/null || echo 0)"
    fi
    cat $(find src -name '*.rt') | grep -c '^#\[test\]$' | {
        read -r count
        at=$fails
        [ "$fails" = 0 ] || printf 'test wrong ... FAILED\n    checked: fault: what it met\n'
        while [ "$at" -lt "$count" ]; do
            at=$((at + 1))
            echo "test function$at ... ok"
        done
    }
    exit $((fails * 4))
    ;;
esac
RT
printf '#!/bin/sh\necho made "$@"\n' > "$work/bin/make"
chmod +x "$work/bin/rt" "$work/bin/make"
KIT=$kit ROOT=$root WORK=$work TMPDIR=$work/tmp PATH=$work/bin:$PATH
export KIT ROOT WORK TMPDIR PATH
# does STATUS LAST-LINE WORDS..: runs ./test, and compares its status and its last line
does() {
    status=$1 last=$2
    shift 2
    : > "$work/ran"
    ./test "$@" > "$work/out" 2> "$work/err"
    must "the status of ./test $*" "$status" $?
    must "the last line of ./test $*" "$last" "$(tail -n 1 "$work/out")"
}

# says NAME LINE: the last run printed this line, once
says() {
    must "$1" 1 "$(cat "$work/out" "$work/err" | grep -cxF -e "$2")"
}

# refuses LINE WORDS..: ./test runs nothing, and says why
refuses() {
    line=$1
    shift
    does 1 '' "$@"
    must "the line of ./test $*" "test: $line" "$(cat "$work/err")"
    must "what ./test $* runs" '' "$(cat "$work/ran")"
}

cd "$tree" || exit 2
rows=$(sed -n 's/^rows \([0-9]*\).*/\1/p' crates/vectors/stdout)
functions=$(cat crates/*/src/*.rt | grep -c '^#\[test\]$')
: > "$work/ran"
find . | sort > "$work/before"
./test > "$work/out" 2> "$work/err"
must 'the status where all passes' 0 $?
all=$(sed -n '$s/ passed, 0 failed$//p' "$work/out")
must 'at least so many tests' 1 $((all > rows + functions + 8))
must 'the line before the last' 'test: this is tested and not proved; ./check proves' \
    "$(tail -n 2 "$work/out" | head -n 1)"
must 'how many rows and tests' 1 "$(tr -d , < "$work/out" |
    grep -c "^test: $rows rows $functions test functions")"
must 'a line for each thing that is done' 1 \
    "$(grep -c '^test: integration_tests: [0-9]* passed, 0 failed, ' "$work/err")"
must 'the libraries are compiled' compiled "$(grep -x compiled "$work/ran")"
must 'each crate of tests is run once' 'alloc_failure integration_tests' \
    "$(grep -x -e 'alloc_failure' -e '.*_tests' "$work/ran" | sort | paste -sd ' ')"
must 'C and Python are not run' 1 "$(grep -c '^test: not run: C and Python, since ' "$work/out")"
find . | sort > "$work/after"
must 'nothing is left in the tree' '' "$(diff "$work/before" "$work/after")"
must 'nothing is left beside it' '' "$(ls "$work/tmp")"

export FAILS=alloc_failure
does 1 "$((all - 1)) passed, 1 failed"
says 'the function that failed' 'alloc_failure: test wrong ... FAILED'
says 'why it failed' 'alloc_failure:     checked: fault: what it met'
FAILS=vectors
does 1 "$((all - 2)) passed, 2 failed"
must 'the row that differs' 2 "$(grep -c ': fail normal.txt:7: expected a, got b$' "$work/out")"
FAILS=urilines
does 1 '0 passed, 1 failed' urilines
says 'the output that differs' 'urilines: another output than that of the file stdout:'
unset FAILS
count=$(cat crates/integration_tests/src/*.rt | grep -c '^#\[test\]$')
CRASHES=integration_tests does 1 "0 passed, $count failed" integration_tests
says 'what the compiler says' 'integration_tests: src/lib.rt:1:1: error[any]: what the compiler says'
rows=$(grep -hv '^#' crates/vectors/data/[a-z]*.txt | grep -c 'ipv6 ')
LOST=1 does 1 "0 passed, $rows failed" 'ipv6 '
says 'rows that were not run' "vectors: $((rows - 1)) rows were run, and not $rows"
mv tools/reach "$work/reach"
printf '#!/bin/sh\necho wrong\nexit 1\n' > tools/reach
chmod +x tools/reach
does 1 "$((all - 1)) passed, 1 failed"
says 'the script that failed' 'tools/reach: wrong'
mv "$work/reach" tools/reach

does 0 "$rows passed, 0 failed" 'ipv6 '
must 'only the rows are run' vectors "$(cat "$work/ran")"
count=$(sed -n 's/^rows \([0-9]*\).*/\1/p' crates/vectors/stdout)
does 0 "$count passed, 0 failed" vectors
must "the crate of that name, and not the word" 'vectors vectors' "$(paste -sd ' ' "$work/ran")"
does 0 '2 passed, 0 failed' uritool urilines uritool
refuses "no crate is named 'no such word', and no row contains it" 'no such word'
refuses 'crates.txt has no ipv6; a word of rows stands alone' uritool ipv6
refuses 'uri_pct has no tests of its own' uri_pct
refuses 'nothing was run: C and Python, since the kit builds no library that is not proved: '`
    `'./build fluent_uri_c proves and builds it, and then ./test runs them' fluent_uri_c

# What ./build leaves of the exports for C.
mkdir out
echo 'crates/fluent_uri_c/src crates.txt' > out/fluent_uri_c.stamp
does 0 '2 passed, 0 failed' fluent_uri_c
touch crates/fluent_uri_c/src/lib.rt
does 1 '' fluent_uri_c
rm -r out

SLOW=1 interrupted ./test integration_tests alloc_failure
must 'the status of an interrupted run' 1 "$status"
must 'its line' 'test: interrupted' "$(cat "$work/err")"
must 'it prints no verdict' '' "$(cat "$work/out")"
kill -0 "$(cat "$work/slow")" 2> /dev/null
must 'rt ends with it' 1 $?
must 'nothing of it is left' '' "$(ls "$work/tmp")"
ends
