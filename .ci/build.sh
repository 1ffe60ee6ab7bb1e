#!/bin/sh
# Tries ./build and what ./uritool makes of its builds, on a copy of the tree with a command `rt`
# that proves nothing: it prints what rt prints, and makes a program that prints the word MADE.
. "$(dirname "$0")/lib.sh"
copy_tree "$work/tree" src
mkdir "$work/bin"
kit=$(grep -ohE 'rattle-kit-[0-9a-z]+ logic [0-9a-f]+' "$root/README.md" | head -n 1)
cat > "$work/bin/rt" <<'RT'
#!/bin/sh
crate=$(basename "$PWD")
case $1 in
version) echo "$KIT" ;;
lib)
    if [ -n "${SLOW-}" ]; then
        echo $$ > "$WORK/slow"
        exec sleep 60
    fi
    mkdir -p out
    : > "out/lib$crate.a"
    echo "$crate" >> "$WORK/proved"
    ;;
run)
    echo 'logic=proved stuck=0'
    [ -z "${LINK_FAILS-}" ] || exit 1
    mkdir -p out
    printf '#!/bin/sh\necho %s\n' "$MADE" > "out/$crate"
    chmod +x "out/$crate"
    echo "rt: running out/$crate; to give it other input, run that file yourself"
    exit 2
    ;;
try)
    if [ -n "${LIMIT-}" ]; then
        printf '| %s\n' 'a line of the output' >&2
        echo "checked: no-answer: $LIMIT" >&2
        echo 'run=no-answer proved=no' >&2
        exit 6
    fi
    echo unproved
    echo 'run=ended status=0 proved=no' >&2
    ;;
esac
RT
chmod +x "$work/bin/rt"
# All that the commands need but rt, for a PATH without it.
tools=$work/tools
mkdir "$tools"
for it in sh env readlink grep head dirname; do
    ln -s "$(command -v "$it")" "$tools/$it"
done
ln -s "$(python3 -c 'import sys; print(sys.executable)')" "$tools/python3"
KIT=$kit WORK=$work MADE=first PATH=$work/bin:$PATH
export KIT WORK MADE PATH
# program NAME WANTED: what ./uritool prints
program() {
    must "$1" "$2" "$("$tree/uritool" 2> "$work/err")"
}

cd "$tree" || exit 2
program 'nothing is built' unproved
./build uritool 2> "$work/err"
must 'the status of a build' 0 $?
must 'the last line of a build' "    $tree/out/uritool" "$(tail -n 1 "$work/err")"
must 'only the crates below, bottom up' \
    'uri_pct uri_parts uri_ops error_laws fluent_uri uri_links uri_mend uri_commands' \
    "$(paste -sd ' ' "$work/proved")"
program 'it is built' first
must 'a fresh build has no line of its own' '' "$(cat "$work/err")"

echo '// changed' >> crates/uri_pct/src/lib.rt
program 'a source changed' unproved
LINK_FAILS=1 ./build uritool > "$work/err" 2>&1
must 'the status where the link fails' 1 $?
program 'the link failed after the proof' unproved
other="rattle-kit-0 ${kit#* }"
KIT=$other LINK_FAILS=1 ./build uritool > "$work/err" 2>&1
must 'a failed build names a kit of the same logic' 1 \
    "$(grep -cF "build: the kit here is '$other'; this tree was proved with '$kit'" "$work/err")"
MADE=second ./build uritool 2> "$work/err"
program 'it is built again' second

cp -p crates/uri_pct/src/lib.rt "$work/older.rt"
touch -d 2001-01-01 "$work/older.rt"
cp -p "$work/older.rt" crates/uri_pct/src/lib.rt
program 'an older source is put in the place' unproved
MADE=third ./build uritool 2> "$work/err"
program 'it is built of the older source' third

echo '// changed' >> crates/uri_pct/src/lib.rt
SLOW=1 interrupted ./build uritool
must 'the status of an interrupted build' 1 "$status"
must 'the line of an interrupted build' \
    'build: interrupted; the next ./build goes on from here' "$(cat "$work/err")"
kill -0 "$(cat "$work/slow")" 2> /dev/null
must 'rt ends with an interrupted build' 1 $?
program 'a build was interrupted' unproved
must 'nothing of it is left' 'build.log uritool uritool.stamp uritool.verdict' \
    "$(cd out && echo *)"

KIT='rattle-kit-0 logic 0' ./build uritool 2> "$work/err"
must 'the status with another kit' 0 $?
must 'the line of a kit with another logic' \
    "build: the kit here is 'rattle-kit-0 logic 0'; this tree was proved with '$kit'" \
    "$(head -n 1 "$work/err")"
KIT=$other ./build uritool 2> "$work/err"
must 'no line of a kit with the same logic' 0 "$(grep -c 'the kit here' "$work/err")"
no_rt='rt is not on the PATH: add the folder bin of the Rattle kit (README.md, "Try it")'
PATH=$tools ./build uritool 2> "$work/err"
must 'the status of ./build without rt' 1 $?
must 'the line of ./build without rt' "build: $no_rt" "$(cat "$work/err")"
rm -r out
PATH=$tools ./uritool parse uri a 2> "$work/err"
must 'the status of ./uritool without rt' 126 $?
must 'the line of ./uritool without rt' "uritool: $no_rt" "$(cat "$work/err")"
./build no_crate 2> "$work/err"
must 'the status of an unknown name' 1 $?
must 'the line of an unknown name' 'build: crates.txt has no no_crate' "$(cat "$work/err")"
must 'nothing is made for it' '' "$(ls out 2> /dev/null)"
LIMIT='more than 1048576 bytes' ./uritool parse uri a > "$work/out" 2> "$work/err"
must 'the status of too long an output' 126 $?
must 'the line of too long an output' \
    'uritool: no output: more than 1048576 bytes; ./build proves and builds the program' \
    "$(sed 1d "$work/err")"
# Above U+10FFFF, and a surrogate, of which neither is UTF-8.
for word in "$(printf '\364\220\200\200')" "$(printf '\355\240\200')"; do
    ./uritool parse uri-ref "$word" > "$work/out" 2> "$work/err"
    must 'the status of a word that is not UTF-8' 1 $?
    must 'its error' 'error: arguments' "$(tail -n 1 "$work/err")"
    must 'its output' '' "$(cat "$work/out")"
done
ends
