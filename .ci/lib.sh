# What the scripts of .ci share. A script reads this first: then it has `root`, the top of the
# repository, and `work`, a folder that is gone once the script has ended.
#
# A part whose tool is missing is skipped with a line, which the file SKIPPED gets too, if it is
# named. With CI=true a script that skipped a part fails.
set -u
script=$(basename "$0" .sh)
root=$(cd "$(dirname "$0")/.." && pwd)
work=$(mktemp -d) || exit 2
tried=0 wrong=0

leave() {
    status=$?
    [ "${CI-}" != true ] || [ ! -s "$work/skipped" ] || [ $status != 0 ] || status=1
    rm -rf "$work"
    exit $status
}
trap leave EXIT
trap 'exit 1' HUP INT TERM

# skip WHAT WHY
skip() {
    echo "skipped: $script: $1: $2" | tee -a "$work/skipped" "${SKIPPED:-/dev/null}"
}

# has PROGRAM WHAT: whether there is this program, which that part needs.
has() {
    command -v "$1" > /dev/null && return 0
    skip "$2" "there is no $1"
    return 1
}

# must WHAT WANTED FOUND: counts a trial, and says what differs.
must() {
    tried=$((tried + 1))
    [ "$2" = "$3" ] && return
    wrong=$((wrong + 1))
    printf '%s: %s: %s, and not %s\n' "$script" "$1" "$3" "$2"
}

# ends: ends a script that counts its trials.
ends() {
    echo "$script: $tried trials, $wrong wrong"
    [ "$wrong" = 0 ]
    exit
}

# fail WHY: ends the script, with what its last command printed.
fail() {
    [ ! -s "$work/log" ] || tail -n 60 "$work/log"
    echo "$script: $1"
    exit 1
}

# does WHAT COMMAND..: runs a command that must not fail.
does() {
    what=$1
    shift
    "$@" > "$work/log" 2>&1 || fail "$what"
}

# need_archive: sets `archive` to that of the exports for C, which `rt lib` proves where it is not
# there.
need_archive() {
    archive=$root/crates/fluent_uri_c/out/libfluent_uri_c.a
    [ -f "$archive" ] || (cd "$root/crates/fluent_uri_c" && rt lib --jobs 1) > "$work/log" 2>&1 ||
        fail 'the archive could not be built'
}

# need_library: sets `library` to the shared library that FLUENT_URI_LIBRARY names, or to one of the
# archive.
need_library() {
    library=${FLUENT_URI_LIBRARY-} archive=
    unset FLUENT_URI_LIBRARY FLUENT_URI_CTYPES
    [ -z "$library" ] || return 0
    need_archive
    does 'the shared library could not be built' make -s -C "$root/c" OUT="$work/c" \
        ARCHIVE="$archive" all
    library=$(readlink -f "$work/c/libfluent_uri_c.so.0") || fail 'there is no shared library'
}

# copy_tree FOLDER PART..: copies the scripts and these parts of each crate.
copy_tree() {
    tree=$1
    shift
    mkdir -p "$tree/crates"
    (cd "$root" && cp -R build uritool tools README.md CHANGELOG.md LICENSE crates.txt "$tree" &&
        for part; do cp -R --parents crates/*/"$part" "$tree"; done)
}

# interrupted COMMAND..: ends the command once it has written $work/slow, and sets its `status`.
interrupted() {
    "$@" > "$work/out" 2> "$work/err" &
    ran=$!
    for _ in 1 2 3 4 5 6 7 8 9 10; do
        [ -s "$work/slow" ] && break
        sleep 1
    done
    kill -TERM "$ran"
    wait "$ran"
    status=$?
}
