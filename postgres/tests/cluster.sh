# Sourced by the tests: builds the extension, and starts clusters that have it, all in the folder
# $work. It installs nothing outside of it. $here is the folder postgres/.
config=$(command -v "${PG_CONFIG:-pg_config}")
bin=$($config --bindir)
stage=$work/stage
sources=$work/sources
# The server does not run as root.
as=
if [ "$(id -u)" = 0 ]; then
    as='setpriv --reuid=postgres --regid=postgres --clear-groups'
    chown postgres "$work"
fi
chmod 755 "$work"
C=$(cd "${C:-$here/../c}" && pwd)
export C
export PGTZ=UTC PGUSER=postgres PGHOST="$work" PGPORT="${PORT:-54329}"
started=

fail() {
    echo "postgres: $1" >&2
    exit 1
}

# A copy of the server, since it looks for extensions beside itself, and one of the sources.
prepare() {
    if [ ! -d "$stage$bin" ]; then
        for it in "$bin/.." "$($config --sharedir)"; do
            it=$(cd "$it" && pwd)
            mkdir -p "$stage$it"
            cp -a "$it/." "$stage$it/"
        done
    fi
    rm -rf "$sources"
    mkdir -p "$sources"
    cp -R "$here" "$here/../databases" "$sources/"
    make -s -C "$sources/postgres" PG_CONFIG="$config" > "$work/make.log" 2>&1 &&
        make -s -C "$sources/postgres" PG_CONFIG="$config" install DESTDIR="$stage" \
            >> "$work/make.log" 2>&1 || { cat "$work/make.log"; fail 'the extension is not built'; }
    PATH=$stage$bin:$PATH
}

# make_cluster NAME WORD..: with words for initdb
make_cluster() {
    name=$1
    shift
    rm -rf "${work:?}/$name"
    $as initdb -N -D "$work/$name" -E UTF8 --locale=C.UTF-8 -U postgres "$@" > "$work/initdb.log" ||
        fail "initdb of $name"
}

# start NAME WORD..: with options of the server; LD_PRELOAD is $preload
start() {
    name=$1
    shift
    $as env ${preload:+LD_PRELOAD="$preload"} pg_ctl -s -w -D "$work/$name" -l "$work/$name.log" \
        start -o "-k $work -c fsync=off -c max_wal_size=4GB $*" || {
        tail -n 20 "$work/$name.log"
        fail "the cluster $name does not start"
    }
    started="$started $name"
}

# Stops all clusters.
stop() {
    for it in $started; do
        $as pg_ctl -s -m fast -D "$work/$it" stop || :
    done
    started=
}
preload=
