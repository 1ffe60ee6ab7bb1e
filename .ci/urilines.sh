#!/bin/sh
# Runs the program `urilines` where no contract says what its `main` does with the words, the input
# and the output, and then on lines whose output Python knows (urilines.py). It takes the program
# that `rt ci` built.
. "$(dirname "$0")/lib.sh"
export URILINES="${URILINES:-$root/crates/urilines/out/urilines}"
[ -x "$URILINES" ] || fail "$URILINES is not built"

# is NAME STATUS INPUT OUTPUT WORDS..: what the words print for the input, with `printf`'s escapes.
is() {
    name=$1 wanted=$2 input=$3 output=$4
    shift 4
    printf "$input" > "$work/in"
    printf "$output" > "$work/wanted"
    "$URILINES" "$@" < "$work/in" > "$work/out" 2> "$work/err"
    must "$name: its status" "$wanted" $?
    must "$name: its output" "$(od -c "$work/wanted")" "$(od -c "$work/out")"
}

# tells NAME TEXT: the error output of the last run is this text.
tells() {
    must "$1: the error output" "$2" "$(cat "$work/err")"
}

# holds NAME FOUND WANTED
holds() {
    must "$1" "$3" "$2"
}

is normalize 0 'HTTP://h:80/%%7e\r\nx:' 'http://h/~\r\nx:\n' normalize uri
is empty 0 '' '' normalize uri
is error-line 1 'a b\nx:\n' 'error: unexpected character at index 1\nx:\n' normalize uri
is not-utf8 1 'x:\n\377\nx:\n' 'x:\nerror: not UTF-8 at index 0\nx:\n' normalize iri
is drop 0 'a b\nx:\n' 'x:\n' --errors drop normalize uri
tells drop ''
is stderr 1 'x:\na b\ny:\n' 'x:\ny:\n' normalize uri --errors=stderr
tells stderr 'error: line 2: unexpected character at index 1'
is stop 1 'x:\na b\ny:\n' 'x:\n' normalize uri --errors=stop
tells stop 'error: line 2: unexpected character at index 1'
is too-long 1 'x:345\nx:3456\nx:\n' 'x:345\nerror: line over 5 bytes\nx:\n' normalize uri --max-line 5
is null 1 'HTTP://h\0x:a\nb' 'http://h\0error: unexpected character at index 3\0' normalize uri -0
is scheme-rules 0 'http://a\n' 'http://a/\n' normalize --scheme-rules uri
is resolve 0 '../g\n?y' 'http://a/b/g\nhttp://a/b/c/d;p?y\n' resolve uri 'http://a/b/c/d;p?q'
is resolve-basic 0 '%%2E%%2E/g\n?q\nfoo:a/../b\n' 'http://a/%%2E%%2E/g\nhttp://a/./b?q\nfoo:/b\n' resolve --basic uri 'http://a/./b#f'
is basic-elsewhere 2 '' '' relativize --basic uri http://a
is relativize 1 'http://a/b/x\nhttp://a/b/c/../d:e#f\nhttps://a\na\n' 'x\n./d:e#f\nhttps://a\nerror: target: unexpected character at index 1\n' relativize uri http://a/b/c
is prefer-relative 0 'http://a/x\nhttp://a/b/c/d\nhttp://b/x\n' '../../x\n\n//b/x\n' relativize --prefer-relative uri http://a/b/c/d
is check 0 'x:\na\ny:\n' 'x:\ny:\n' check uri
is invert 0 'x:\na\ny:' 'a\n' check --invert uri
is check-too-long 1 'x:3456\nx:\n' 'x:\n' check uri --max-line 5 --errors stderr
tells check-too-long 'error: line 1: line over 5 bytes'
is invert-too-long 1 'a:3456' 'error: line over 5 bytes\n' check --invert uri --max-line 5 --errors line
is parse 0 'x://h/p\n' '{"scheme":"x","authority":"h","host":"h","host_kind":"reg-name","path":"/p"}\n' parse uri
is query 1 'x:?a=%%26&b\nx:\nx:?\na b\n' '[["a","&"],["b",""]]\n[]\n[]\nerror: unexpected character at index 1\n' query uri
is field 1 'a\tHTTP://h\tb\r\nc\na b\ta b\t\377\n' 'a\thttp://h\tb\r\nerror: no field 2\na b\terror: unexpected character at index 1\t\377\n' normalize uri --field 2
is field-0 2 '' '' normalize uri --field 0
tells field-0 'error: field: the first is 1'
is delimiter 2 '' '' normalize uri --field 1 --delimiter é
tells delimiter 'error: delimiter: not one that the results lack'
# A delimiter that a result or a message may have is none.
is delimiter-space 2 '' '' normalize uri --field 1 --delimiter ' '
is delimiter-tilde 2 '' '' normalize uri --field 1 --delimiter '~'
is delimiter-comma-query 2 '' '' query uri-ref --field 1 --delimiter ,
is delimiter-bar-parse 2 '' '' parse uri --field 1 --delimiter '|'
is delimiter-comma-resolve 2 '' '' resolve uri http://a --field 1 --delimiter ,
is delimiter-alone 2 '' '' normalize uri --delimiter ,
is delimiter-alone-before 2 '' '' --delimiter , normalize uri
tells delimiter-alone-before "$(printf '%s\n' 'error: the following required arguments were not provided:' \
    '  --field <N>' '' 'Usage: urilines [OPTIONS] <COMMAND>' '' "For more information, try '--help'.")"
# The options of all commands may be on both sides of the command.
is delimiter-before 0 'a,HTTP://h\n' 'a,http://h\n' --delimiter , normalize --field 2 uri
is field-before 0 'a,HTTP://h\n' 'a,http://h\n' --field 2 normalize uri --delimiter ,
is options-around 0 'a b\0 HTTP://h/a b\0' 'http://h/a%%20b\0' --errors drop -0 normalize --mend uri --max-line 14
is unique 0 'HTTP://h\nx:\nhttp://h:80\na b\nX:\n' 'http://h\nx:\n' unique uri
tells unique ''
is links 1 'c\nd\n./%%63\na b\n' 'new 0 http://a/c\nnew 1 http://a/d\nknown 0 http://a/c\nerror: reference: unexpected character at index 1\n' links http://a/b
is links-base 2 '' '' links b
tells links-base 'error: base: unexpected character at index 1'
is mend 1 ' http://h/a b?x=[1]\t\r\n/50%%\n1:2\nhttp://a b/\n' 'http://h/a%%20b?x=%%5B1%%5D\r\n/50%%25\n./1:2\nerror: unexpected character at index 8\n' mend uri-ref
is mend-first 1 'HTTP://h/a b\n\n' 'http://h/a%%20b\nerror: unexpected character at index 0\n' --mend normalize uri
is progress 1 'x:\na\n' 'x:\nerror: unexpected character at index 1\n' normalize uri --progress
holds progress-says "$(sed 's/errors, .*/errors/' "$work/err")" '2 lines, 1 errors'
is no-command 2 '' ''
is no-kind 2 '' '' normalize
is wrong-kind 2 '' '' normalize url
is wrong-base 2 '' '' resolve uri a
tells wrong-base 'error: base: unexpected character at index 1'
is two-commands 2 '' '' normalize uri check
"$URILINES" --version > "$work/out" 2> "$work/err"
holds version "$? $(cat "$work/out")" "0 urilines $(sed -n 's/^## \([0-9.]*\).*/\1/p' "$root/CHANGELOG.md" | head -n 1)"
"$URILINES" --help > "$work/out" 2> "$work/err"
holds help "$? $(grep -c -e normalize -e --errors "$work/out")" '0 2'

# A reader that goes away ends it quietly, and a device that is full does not.
{ yes HTTP://h | "$URILINES" normalize uri; echo "$?" > "$work/status"; } 2> "$work/err" | head -n 1 > "$work/out"
holds closed-output "$(cat "$work/status") $(cat "$work/out") $(cat "$work/err")" '0 http://h '
echo x: | "$URILINES" normalize uri > /dev/full 2> "$work/err"
holds full-device "$? $(cat "$work/err")" '3 error: output failed'
# An error output that is full fails a run that writes to it.
printf 'a b\nX:\n' > "$work/in"
"$URILINES" normalize uri --errors stderr < "$work/in" > "$work/out" 2> /dev/full
holds full-error-output "$? $(cat "$work/out")" '3 x:'
"$URILINES" normalize uri < "$work/in" > "$work/out" 2> /dev/full
holds unused-error-output "$?" 1
"$URILINES" normalize uri < / > "$work/out" 2> "$work/err"
holds folder "$? $(cat "$work/err")" '3 error: input failed'
"$URILINES" normalize uri <&- > "$work/out" 2> "$work/err"
holds closed-input "$? $(cat "$work/err")" '3 error: input failed'

yes 'http://h/a?b#c' | { "$URILINES" parse uri; echo "$?" > "$work/status"; } 2> "$work/err" | head -n 1 > "$work/out"
holds closed-output-in-mid-run "$(cat "$work/status") $(cut -c 1-16 "$work/out") $(cat "$work/err")" '0 {"scheme":"http" '

# The recipes of docs/IN_USE.md: a line that is an error fails none, and a full disk fails each.
printf 'HTTP://a\nHTTP://b\na b\nHTTP://c/%%7e\nHTTP://a:80\nx:\n' > "$work/urls.txt"
(cd "$work" && "$URILINES" normalize uri < urls.txt > whole.txt)
holds recipe-whole "$?" 1
(cd "$work" && split -n l/4 --filter='"$URILINES" normalize uri > $FILE || [ $? = 1 ]' urls.txt part.)
holds split "$? $(cat "$work"/part.* | cmp - "$work/whole.txt" && echo equal)" '0 equal'
(cd "$work" && split -n l/4 --filter='"$URILINES" normalize uri > /dev/full || [ $? = 1 ]' urls.txt part.) 2> "$work/err"
holds split-full "$(($? > 0))" 1

# tasks OUTPUT: an engine's tasks, which run the command on each part of the input, and fail if it
# returns any status but 0.
tasks() {
    split -n l/3 "$work/urls.txt" "$work/task." && for part in "$work"/task.*; do
        sh -c '"$URILINES" --errors=drop normalize uri' < "$part" >> "$1" || return 1
    done
}
tasks "$work/mapped" 2> "$work/err"
holds pipe "$? $(sort -u "$work/mapped" | tr '\n' ' ')" '0 http://a http://b http://c/~ x: '
tasks /dev/full 2> "$work/err"
holds pipe-full "$(($? > 0)) $(sort -u "$work/err")" '1 error: output failed'
holds reducer "$(sort "$work/mapped" | uniq | tr '\n' ' ')" 'http://a http://b http://c/~ x: '

# Progress is reported while the run goes on, also if lines are long in coming.
: > "$work/err"
for _ in 1 2 3 4 5 6 7 8 9 10; do
    [ -s "$work/err" ] && break
    echo x:
    sleep 1.1
done | "$URILINES" normalize uri --progress > "$work/out" 2> "$work/err"
holds slow-progress "$(($(wc -l < "$work/out") < 10)) $(sed -n 1p "$work/err" | sed 's/^[0-9]*//')" \
    '1  lines, 0 errors'

# A line is as long as it may be, and a byte longer.
head -c 1048574 /dev/zero | tr '\0' a > "$work/long"
{ printf x:; cat "$work/long"; echo; printf x:a; cat "$work/long"; echo; } | "$URILINES" normalize uri 2> "$work/err" | cut -c 1-20 > "$work/out"
holds longest-line "$(cat "$work/out")" "x:aaaaaaaaaaaaaaaaaa
error: line over 104"

# The output of a line does not wait for the line after it.
mkfifo "$work/fifo"
{ echo HTTP://h; sleep 2; echo "$(cat "$work/out")" > "$work/early"; } > "$work/fifo" &
"$URILINES" normalize uri < "$work/fifo" > "$work/out"
wait $!
holds not-waiting "$(cat "$work/early")" http://h

# No number of lines is too many.
yes 'X:' | head -n 1000000 | "$URILINES" normalize uri > "$work/out" 2> "$work/err"
holds million-lines "$? $(sort "$work/out" | uniq -c | sed 's/^ *//') $(cat "$work/err")" '0 1000000 x: '

python3 -B "$root/.ci/urilines.py"
holds 'lines that Python knows' "$?" 0
ends
