#!/bin/sh
# Runs the program where its output, its arguments or its error output are not as they should be:
# no contract says what `main` does with them. It takes the program that `rt ci` built, or another
# that is named. Then it takes ./uritool of a copy of the tree: with that program in out/, and with
# nothing built. There the program runs unproved, and prints the same after one line of its own.
. "$(dirname "$0")/lib.sh"
built=${1:-$root/crates/uritool/out/uritool}
at_once=${2:-4}
usage='usage: uritool parse KIND TEXT | [--scheme-rules] normalize KIND TEXT | mend KIND TEXT | resolve uri|iri BASE REF | [--scheme-rules] links BASE REF...'
notice='uritool: this run is checked and not yet proved; ./build proves and builds the program'
bad=$(printf 'a\377')

lines() {
    for line; do printf '%s\n' "$line"; done
}

# does FORM: runs $program in that way. What it prints goes to out and err of the current folder,
# and what it must print is in wanted.out and wanted.err.
does() {
    case $1 in
    answer)
        lines authority=h path=/p query=q fragment=f > wanted.out
        "$program" parse uri-ref '//h/p?q#f' > out 2> err ;;
    longest-argument)
        # Of 131,071 bytes at most, which is what Linux gives a program.
        lines "$(printf '%043690d' 0 | tr 0 A)" > wanted.out
        "$program" normalize uri-ref "$(printf '%043690d' 0 | sed 's/0/%41/g')" > out 2> err ;;
    rejected-text)
        lines 'error: unexpected character at index 1' > wanted.err
        "$program" parse uri 'a b' > out 2> err ;;
    no-words)
        lines "$usage" > wanted.err
        "$program" > out 2> err ;;
    argument-not-utf8)
        lines 'error: arguments' > wanted.err
        "$program" parse uri-ref "$bad" > out 2> err ;;
    name-not-utf8)
        lines path=a > wanted.out
        ln -s "$(readlink -f "$program")" "$bad"
        "./$bad" parse uri-ref a > out 2> err ;;
    closed-output)
        lines 'error: output failed' > wanted.err
        "$program" parse uri-ref a >&- 2> err ;;
    full-device)
        lines 'error: output failed' > wanted.err
        "$program" parse uri-ref a > /dev/full 2> err ;;
    rejected-text-closed-error-output)
        "$program" parse uri 'a b' > out 2>&- ;;
    no-words-full-error-output)
        "$program" > out 2> /dev/full ;;
    answer-closed-error-output)
        lines path=a > wanted.out
        "$program" parse uri-ref a > out 2>&- ;;
    esac
}

# The forms, each with the status that it must end with. `rt try` compiles the program for each run,
# so of it only those are tried in which ./uritool does something of its own.
of_script='answer|longest-argument|rejected-text|argument-not-utf8|closed-output'
forms='answer 0
longest-argument 0
rejected-text 1
no-words 2
argument-not-utf8 1
name-not-utf8 0
closed-output 1
full-device 1
rejected-text-closed-error-output 1
no-words-full-error-output 2
answer-closed-error-output 0'

# try FORM STATUS: prints what is wrong with that form. The standard input of a form stays unread.
try() {
    mkdir -p "$work/$way/$1" && cd "$work/$way/$1" || exit 2
    : > out; : > err; : > wanted.out; : > wanted.err
    echo unread > in
    { does "$1"; status=$?; read -r left; } < in
    # The line of an unproved run is there once, and first, where the error output takes it.
    if [ "$way" = unproved ] && [ -s err ]; then
        [ "$(head -n 1 err)" = "$notice" ] || echo "uritool: $way: $1: another first line of the error output"
        sed 1d err > err.program && mv err.program err
    fi
    [ "$status" -eq "$2" ] || echo "uritool: $way: $1: status $status, and not $2"
    [ "$left" = unread ] || echo "uritool: $way: $1: the standard input was read"
    cmp -s out wanted.out || echo "uritool: $way: $1: another output: $(cat out)"
    cmp -s err wanted.err || echo "uritool: $way: $1: another error output: $(cat err)"
}

# try_all WAY PROGRAM [FORMS]: tries each form, or these, several at once
try_all() {
    way=$1 program=$2 running=0
    echo "$forms" | grep -E "^(${3-.*}) " > "$work/forms"
    while read -r form status; do
        runs=$((runs + 1))
        (try "$form" "$status") >> "$work/wrong" &
        running=$((running + 1))
        [ $((running % at_once)) -ne 0 ] || wait
    done < "$work/forms"
    wait
}

[ -x "$built" ] || { echo "uritool: $built is not built"; exit 1; }
runs=0
: > "$work/wrong"
try_all built "$(readlink -f "$built")"
copy_tree "$work/tree" src specs proofs
mkdir "$work/tree/out"
cp "$(readlink -f "$built")" "$work/tree/out/uritool"
echo crates.txt > "$work/tree/out/uritool.stamp"
try_all installed "$work/tree/uritool"
rm -r "$work/tree/out"
try_all unproved "$work/tree/uritool" "$of_script"
cat "$work/wrong"
echo "uritool: $runs runs, $(grep -c . "$work/wrong") wrong"
[ ! -s "$work/wrong" ]
