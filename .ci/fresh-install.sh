#!/bin/sh
# Installs the files of a release on a fresh machine (CONTRIBUTING.md). By hand, as root, with
# debootstrap and the network; it takes 2 GB in TMPDIR.
#
# usage: sh .ci/fresh-install.sh FOLDER [EARLIER]
#
# FOLDER is what tools/release made. EARLIER has the packages of the version before; with none,
# those of FOLDER stand for it, with the version 0.0.9 and a file that the new ones lack. SUITE is
# the release of Debian (bookworm), and MIRROR where it is from. What qemu-x86_64-static,
# qemu-aarch64-static, autopkgtest and chromedriver run is skipped where they are not there.
set -eu
[ $# -ge 1 ] && [ -f "$1/SHA256SUMS" ] || { sed -n 's/^# usage: /usage: /p' "$0" >&2; exit 2; }
root=$(cd "$(dirname "$0")/.." && pwd)
folder=$(cd "$1" && pwd)
[ "$(id -u)" = 0 ] && command -v debootstrap > /dev/null ||
    { echo 'fresh-install: it needs root and debootstrap' >&2; exit 2; }
# All that is mounted here ends with this script.
if [ -z "${FRESH_INSTALL-}" ]; then
    FRESH_INSTALL=1 exec unshare --mount sh "$0" "$@"
fi
work=$(mktemp -d)
trap 'umount -R "$work/root/dev" "$work/root/proc" 2> /dev/null
    rm -rf --one-file-system "$work"' EXIT
trap 'exit 1' HUP INT TERM
machine=$work/root
mkdir "$machine"
version=$(sed -n 's/.*  fluent-uri-\(.*\)-source\.tar\.gz$/\1/p' "$folder/SHA256SUMS")
names='libfluent-uri0 libfluent-uri-dev python3-fluent-uri fluent-uri-tools'
names="$names libsqlite3-mod-fluent-uri postgresql-15-fluent-uri"

(cd "$folder" && sha256sum --quiet -c SHA256SUMS) ||
    { echo 'fresh-install: other files than SHA256SUMS has'; exit 1; }
"$root/.ci/spdx.py" "$folder"/*.spdx.json ||
    { echo 'fresh-install: the components are against SPDX 2.3'; exit 1; }

fail() {
    [ ! -s "$work/log" ] || tail -n 60 "$work/log"
    echo "fresh-install: $1"
    exit 1
}

# inside WHAT COMMAND: runs it in the root file system as root; by user WHAT COMMAND as a user.
# What it prints is in $work/out, and shown only if it fails.
inside() {
    chroot "$machine" /usr/bin/env -i HOME=/root PATH=/usr/sbin:/usr/bin:/sbin:/bin LC_ALL=C.UTF-8 \
        DEBIAN_FRONTEND=noninteractive sh -euc "$2" > "$work/out" 2> "$work/log" || fail "$1"
}
user() {
    chroot --userspec=1000:1000 "$machine" /usr/bin/env -i HOME=/home/user PATH=/usr/bin:/bin \
        LC_ALL=C.UTF-8 sh -euc "cd /home/user; $2" > "$work/out" 2> "$work/log" || fail "$1"
}

# prints WHAT TEXT: the last command printed this text.
prints() {
    printf '%s\n' "$2" | cmp -s - "$work/out" && return
    cat "$work/out"
    fail "$1: other output"
}

# files_of_machine: each file that packages may leave, but for what apt and dpkg keep for themselves
files_of_machine() {
    (cd "$machine" && find . -xdev \( -path ./proc -o -path ./dev -o -path ./tmp -o \
        -path ./home -o -path ./root -o -path ./var/cache -o -path ./var/log -o \
        -path ./var/lib/apt \) -prune -o -print) |
        grep -v -e '^./var/lib/dpkg/[^/]*$' -e '^./var/lib/dpkg/triggers/' | LC_ALL=C sort
}

debootstrap --variant=minbase "${SUITE:-bookworm}" "$machine" \
    "${MIRROR:-http://deb.debian.org/debian}" > "$work/log" 2>&1 ||
    fail 'there is no root file system'
mount -t proc proc "$machine/proc"
mount --rbind /dev "$machine/dev"
mount --make-rslave "$machine/dev"
[ ! -f /etc/resolv.conf ] || cp -L /etc/resolv.conf "$machine/etc/resolv.conf"
echo 'user:x:1000:1000::/home/user:/bin/sh' >> "$machine/etc/passwd"
echo 'user:x:1000:' >> "$machine/etc/group"
mkdir -p "$machine/home/user" "$machine/root/new" "$machine/root/earlier"
cp "$folder"/*_amd64.deb "$folder"/*.whl "$folder"/fluent_uri-*.tar.gz "$machine/root/new/"
if [ $# -gt 1 ]; then
    cp "$2"/*_amd64.deb "$machine/root/earlier/"
else
    for it in $names; do
        dpkg-deb -R "$folder/$it"_*_amd64.deb "$work/earlier"
        sed -i "s/^Version: .*/Version: 0.0.9/; s/(= $version)/(= 0.0.9)/" \
            "$work/earlier/DEBIAN/control"
        touch "$work/earlier/usr/share/doc/$it/dropped"
        if [ "$it" = libfluent-uri0 ]; then
            (cd "$work/earlier/usr/lib"/*-linux-gnu && mv "libfluent_uri_c.so.$version" \
                libfluent_uri_c.so.0.0.9 && ln -sf libfluent_uri_c.so.0.0.9 libfluent_uri_c.so.0)
        fi
        dpkg-deb -b "$work/earlier" "$machine/root/earlier/" > "$work/log"
        rm -r "$work/earlier"
    done
fi
chown -R 1000:1000 "$machine/home/user"

! ls "$machine"/usr/bin/*cc "$machine/usr/bin/rt" "$machine/opt/"* 2> /dev/null ||
    fail 'there is a compiler or a kit'
# (no server is started as it is installed)
printf '#!/bin/sh\nexit 101\n' > "$machine/usr/sbin/policy-rc.d"
chmod 755 "$machine/usr/sbin/policy-rc.d"
inside 'what the packages need is not to be had' \
    'apt-get update; apt-get install -y --no-install-recommends python3 sqlite3 postgresql-15'
files_of_machine > "$work/before"
echo 'fresh-install: a root file system without kit and compiler'

# Installing, upgrading.
inside 'an earlier version is not installed' 'apt-get install -y /root/earlier/*.deb'
inside 'no upgrade' 'apt-get install -y /root/new/*.deb'
inside 'versions' "dpkg-query -W -f '\${Package} \${Version} \${db:Status-Status}\n' $names"
# shellcheck disable=SC2086 # (names)
prints 'an upgrade' "$(printf "%s $version installed\n" $names | LC_ALL=C sort)"
[ -z "$(find "$machine/usr" -name dropped -o -name 'libfluent_uri_c.so.0.0.9')" ] ||
    fail 'the earlier version left a file'
inside 'a package is not whole' "dpkg --verify $names; dpkg --audit"
[ ! -s "$work/out" ] || fail 'a package is not whole'
echo 'fresh-install: installed, and upgraded from an earlier version'

# The first commands of README.md.
parts='scheme=foo
authority=example.com
path=/over/there
query=name=ferret
fragment=nose'
of_install=$(sed -n '/^## Install/,/^## Work/s/^    \(uritool .*\|printf .*\)/\1/p' \
    "$root/README.md")
user 'the commands of "Install" in README.md' "$of_install"
prints 'the commands of "Install" in README.md' "$parts
http://example.com/~user"
first=$(sed -n '/^## Try it/,/^## Use it/s/^    \.\/\(uritool .*\)/\1/p' "$root/README.md")
user 'the first commands of README.md' "$first"
prints 'the first commands of README.md' "$parts
http://example.com/a/b/~foo
http://h/a%20b?x=%5B1%5D
http://a/b/g
new 0 http://x/
known 0 http://x/
new 1 http://x/a/c"
lines=1000000
user "$lines lines" "seq $lines | sed 's|.*|HTTP://Example.com:80/a/./&/%7Euser|' > urls
    seq $lines | sed 's|.*|http://example.com/a/&/~user|' > wanted
    date +%s%N > began; urilines normalize uri < urls > made; date +%s%N > ended; cmp wanted made"
echo "fresh-install: urilines: $lines lines in $((($(cat "$machine/home/user/ended") - \
    $(cat "$machine/home/user/began")) / 1000000)) ms"
rm "$machine/home/user/"*
sed -n '/^## Quick start/,/^## /s/^    //p' "$root/docs/PYTHON.md" \
    > "$machine/home/user/quick-start"
user 'the quick start of docs/PYTHON.md' 'python3 -m doctest quick-start
    python3 -c "import fluent_uri, sys; sys.exit(not fluent_uri.is_compiled)"'
echo 'fresh-install: the first commands of README.md, a million lines, the quick start of PYTHON.md'
mkdir "$machine/home/user/docs" "$machine/home/user/databases"
cp "$root/docs/C.md" "$root/docs/DATABASES.md" "$machine/home/user/docs/"
cp "$root/databases/statements" "$machine/home/user/databases/"
chown -R 1000:1000 "$machine/home/user"
user 'the statements for SQLite of docs/DATABASES.md' "
    databases/statements 'Statements for SQLite' \
        sqlite3 -batch -cmd '.load /usr/lib/sqlite3/fluent_uri' :memory:"
user 'the statements for PostgreSQL of docs/DATABASES.md' "
    pg_virtualenv -v 15 -i '--locale=C.UTF-8 --encoding=UTF8' sh -euc '
        psql -qX -c \"CREATE EXTENSION fluent_uri\"
        databases/statements \"Statements for PostgreSQL\" psql -qAtX'"
echo 'fresh-install: the statements of DATABASES.md in SQLite, and in a cluster of PostgreSQL'

# On an old processor: one line, and no signal.
emulator=$(command -v qemu-x86_64-static || true)
# old WHAT STATUS LINE COMMAND..
old() {
    what=$1 status=$2 line=$3
    shift 3
    found=0
    chroot "$machine" /root/qemu -cpu core2duo "$@" > "$work/out" 2>&1 || found=$?
    [ "$found" = "$status" ] && tail -n 1 "$work/out" | grep -qF "$line" && return
    cat "$work/out"
    fail "$what on a Core 2 Duo: status $found"
}
too_old='this machine lacks a feature of x86-64-v2'
if [ -n "$emulator" ]; then
    cp "$emulator" "$machine/root/qemu"
    for it in uritool urilines; do
        old $it 127 "$too_old" "/usr/bin/$it" --version
        [ "$(wc -l < "$work/out")" = 1 ] || fail "$it says more than a line"
    done
    old 'import fluent_uri' 1 'ImportError: libfluent_uri_c.so.0 needs a processor of x86-64-v2' \
        /usr/bin/python3 -c 'import fluent_uri'
    old 'the extension of SQLite' 1 'CPU ISA level is lower than required' \
        /usr/bin/sqlite3 :memory: '.load /usr/lib/sqlite3/fluent_uri'
    echo 'fresh-install: programs, Python and SQLite say that a Core 2 Duo is too old'
else
    echo 'fresh-install: skipped: there is no qemu-x86_64-static for an old processor'
fi

# Removing and purging.
for it in remove purge; do
    inside "$it" "apt-get install -y /root/new/*.deb; apt-get $it -y $names"
    files_of_machine | diff "$work/before" - > "$work/log" || fail "$it leaves files"
done
echo 'fresh-install: nothing is left after removing, and after purging'

# With a compiler: the programs of docs/C.md, the wheel and the source distribution.
inside 'a compiler' 'apt-get install -y gcc g++ libc6-dev pkg-config python3-dev python3-venv \
    /root/new/libfluent-uri*.deb'
cp -R "$root/debian/tests/examples" "$machine/home/user/"
chown -R 1000:1000 "$machine/home/user"
user 'the programs of docs/C.md' 'sh ./examples .'
prints 'the programs of docs/C.md' "http://example.com/a/b/~foo
example.com /a/b
http://example.com/d"
[ -z "$emulator" ] || old 'a program over the library' 127 \
    'libfluent_uri_c.so.0: CPU ISA level is lower than required' /home/user/example-c
cp "$folder"/*.whl "$folder"/fluent_uri-*.tar.gz "$machine/home/user/"
user 'the source distribution does not say what it needs' 'python3 -m venv venv
    venv/bin/pip install --no-index *.tar.gz > said 2>&1 && exit 1
    grep "fluent_uri: this source distribution has no shared library: install libfluent-uri0" said'
for it in '*.whl' '*.tar.gz'; do
    user "pip install $it" "rm -rf venv; python3 -m venv venv
        export FLUENT_URI_LIBRARY=\$(echo /usr/lib/*/libfluent_uri_c.so.0)
        venv/bin/pip install --no-index $it
        unset FLUENT_URI_LIBRARY
        venv/bin/python -m doctest quick-start
        venv/bin/python -c 'import fluent_uri, sys
sys.exit(not fluent_uri.is_compiled or \"/venv/\" not in fluent_uri.__file__)'"
done
echo 'fresh-install: the programs of C.md, the wheel and the source distribution'

# The packages for Rust and npm in empty projects, offline, by the lines of README.md; the page.
# lines PAGE: what README.md has from this page
lines() {
    sed -n "\\|^From .$1|,/^[F#]/s/^    //p" "$root/README.md"
}
{
    echo 'use fluent_uri::{ParseError, Uri, UriRef}; fn main() -> Result<(), ParseError> {'
    lines docs/RUST.md
    echo 'println!("{target}"); Ok(()) }'
} > "$machine/home/user/main.rs"
{
    echo "import { Uri } from 'fluent-uri';"
    lines js/README.md
} > "$machine/home/user/main.mjs"
cp "$folder"/*.crate "$folder/fluent-uri-$version.tgz" "$machine/home/user/"
# (what stands for a registry, with what the crate takes from one)
cp -R "$root/rust/standins" "$machine/home/user/registry"
chown -R 1000:1000 "$machine/home/user"
inside 'cargo, node and npm' 'apt-get install -y cargo-web librust-serde-dev nodejs npm'
user 'the package for Rust' 'tar -C registry -xf *.crate; cargo init -q project
    for it in registry/*; do echo "{\"files\":{}}" > $it/.cargo-checksum.json; done
    cp -R /usr/share/cargo/registry/. registry; mv main.rs project/src/; cd project; mkdir .cargo
    echo "fluent-uri = { package = \"fluent-uri-rattle\", version = \"0.4.1\" }" >> Cargo.toml
    printf "[source.crates-io]\nreplace-with=\"near\"\n[source.near]\ndirectory=\"../registry\"\n" \
        > .cargo/config.toml
    cargo run -q --offline'
prints 'the package for Rust' 'http://example.com/d'
user 'the package for npm' 'mkdir other; mv main.mjs other/; cd other
    npm install --offline --no-audit --no-fund ../fluent-uri-*.tgz >&2; node main.mjs'
prints 'the package for npm' 'http://example.com/d'
echo 'fresh-install: the packages for Rust and npm in empty projects, offline'
/usr/bin/python3 "$root/js/test/page.py" "$folder/fluent-uri-$version.html" > "$work/out" \
    2> "$work/log" || [ $? = 77 ] || fail 'the page in a browser'
echo "fresh-install: $(tail -n 1 "$work/out")"
if command -v autopkgtest > /dev/null; then
    tar -C "$work" -xf "$folder/fluent-uri-$version-source.tar.gz"
    # (it looks for TMPDIR inside)
    env -u TMPDIR autopkgtest --no-built-binaries "$folder"/*_amd64.deb \
        "$work/fluent-uri-$version/" \
        -- chroot "$machine" > "$work/log" 2>&1 || fail 'autopkgtest'
    grep -E '^(c|python|programs|sqlite|postgresql) +(PASS|FAIL|SKIP)' "$work/log" | sort -u |
        sed 's/^/fresh-install: autopkgtest: /'
else
    echo 'fresh-install: skipped: there is no autopkgtest'
fi

# The packages for arm64, by a cross compiler.
if emulator=$(command -v qemu-aarch64-static); then
    cp "$emulator" "$machine/usr/bin/qemu-aarch64"
    cp "$folder"/*_arm64.deb "$machine/root/new/"
    inside 'no packages for arm64' "apt-get purge -y $names; dpkg --add-architecture arm64
        apt-get update; apt-get install -y gcc-aarch64-linux-gnu g++-aarch64-linux-gnu pkg-config \
            libstdc++6:arm64 /root/new/*_arm64.deb"
    user 'the programs of docs/C.md on aarch64' 'rm -f example*-c*; RUN="qemu-aarch64 -L /"
        CC=aarch64-linux-gnu-gcc CXX=aarch64-linux-gnu-g++
        PKG_CONFIG_LIBDIR=/usr/lib/aarch64-linux-gnu/pkgconfig
        export CC CXX RUN PKG_CONFIG_LIBDIR
        sh ./examples .'
    prints 'the programs of docs/C.md on aarch64' "http://example.com/a/b/~foo
example.com /a/b
http://example.com/d"
    echo 'fresh-install: the programs of C.md over the packages for arm64'
else
    echo 'fresh-install: skipped: there is no qemu-aarch64-static to run programs for arm64'
fi
echo 'fresh-install: passed'
