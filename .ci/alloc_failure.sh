#!/bin/sh
# Runs the tests of crates/alloc_failure, as `rt ci` built them, while the n-th request for memory of
# each is denied, for n = 1, 2, .. until none of a test's calls has a denied request.
#
# A test prints `refused: CALL` for a call that returns out of memory. It prints `refused none`
# where the denied request is the one that the test makes itself after its calls. So each of its
# runs has a line `refused: CALL` before the run that prints `refused none`, and none later. That
# finds a call that passes over a denied request, and one that returns out of memory where none
# was denied.
. "$(dirname "$0")/lib.sh"
name=alloc_failure_tests
program=$root/crates/alloc_failure/out/$name
runner=$(dirname "$(rt doc)")/bin/rattle-test
most=100
has gcc 'denied requests' || exit 0
[ -x "$program" ] || fail "there is no $program: rt ci builds it"
does 'deny.c' gcc -O2 -Wall -Wextra -Werror -shared -fPIC -o "$work/deny.so" "$root/.ci/deny.c"
tests=$(cat "$root"/crates/alloc_failure/src/*.rt | grep -c '^#\[test\]$')

# `TEST N LINE` for each line that a test prints, and `ran N HOW MANY` if no test failed or was
# skipped.
said() {
    awk -v n="$1" '
        /^test .* \.\.\. / { test = $2; if ($4 != "ok") print "failed", n, $0; else ran++; next }
        /^    refused/ { sub(/^ */, ""); print test, n, $0; next }
        /^test result: ok\..* 0 failed; 0 ignored; 0 filtered out$/ { print "ran", n, ran }
    ' "$work/run"
}

n=0
: > "$work/said"
until [ "$(grep -c ' refused none$' "$work/said")" -ge "$tests" ] || [ $n = $most ]; do
    n=$((n + 1))
    DENY=$n DENY_IN=$name LD_PRELOAD=$work/deny.so "$runner" "$program" > "$work/run" 2>&1
    said $n >> "$work/said"
    if ! grep -qx "ran $n $tests" "$work/said"; then
        grep -A 3 -e FAILED -e ignored -e 'error' "$work/run" | cut -c1-300
        fail "a test failed or was skipped where request $n is denied"
    fi
done

# The last line of a test is `refused none`, alone in its run, and each run before has another line.
awk -v tests="$tests" '
    $1 == "ran" { next }
    { runs[$1] = runs[$1] " " $2; if ($3 == "refused") { ends++; end[$1] = $2 } else calls[$1, $2] = 1 }
    END {
        for (test in runs) {
            for (n = 1; n < end[test]; n++)
                if (calls[test, n]) denied++
                else { print "alloc_failure: " test ": nothing is said of request " n; wrong = 1 }
            count = split(runs[test], places, " ")
            for (i = 1; i <= count; i++)
                if (calls[test, places[i]] && (!end[test] || places[i] + 0 >= end[test])) {
                    print "alloc_failure: " test ": out of memory in run " places[i] ", in which no request of its calls is denied"
                    wrong = 1
                }
            if (end[test] > most) most = end[test]
        }
        if (ends != tests) { print "alloc_failure: " ends + 0 " of " tests " tests came to an end"; wrong = 1 }
        print "alloc_failure: " denied + 0 " requests denied in turn, in " most + 0 " runs of " tests " tests"
        exit wrong
    }
' "$work/said"
