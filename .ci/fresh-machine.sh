#!/bin/sh
# Runs commands of README.md on a fresh machine (CONTRIBUTING.md). It takes 1 GB in TMPDIR.
#
# usage: sh .ci/fresh-machine.sh [COMMAND..]
#
# With no command it runs those from "Try it" on up to ./test. PACKAGES, if set, are installed in
# place of README.md's, SUITE is the release (bookworm), and MIRROR where it is from.
set -eu
root=$(cd "$(dirname "$0")/.." && pwd)
rt=$(command -v rt) || { echo 'fresh-machine: rt is not on the PATH' >&2; exit 2; }
kit=$(dirname "$(dirname "$(readlink -f "$rt")")")
named=$(sed -n 's/^    apt-get install //p' "$root/README.md")
packages=${PACKAGES-$named}
[ "$(id -u)" = 0 ] && command -v debootstrap > /dev/null ||
    { echo 'fresh-machine: it needs root and debootstrap' >&2; exit 2; }
if [ $# -eq 0 ]; then
    first=$(sed -n '/^## Try it/,/^    .\/test$/s/^    \(.\/.*\)/\1/p' "$root/README.md")
    # A command a word.
    IFS='
'
    # shellcheck disable=SC2086 # (words)
    set -- $first
    unset IFS
fi
work=$(mktemp -d)
trap 'rm -rf "$work"' EXIT
trap 'exit 1' HUP INT TERM
mkdir "$work/root"
# (as debootstrap takes them)
listed=$(echo "$packages" | tr -s ' ' ,)
debootstrap --variant=minbase ${listed:+--include="$listed"} "${SUITE:-bookworm}" "$work/root" \
    "${MIRROR:-http://deb.debian.org/debian}" > "$work/log" 2>&1 ||
    { tail -n 20 "$work/log"; echo 'fresh-machine: there is no root file system'; exit 1; }
mkdir -p "$work/root$kit" "$work/root/home/user"
git clone -q --no-local "$root" "$work/root/home/user/fluent_uri"
echo 'user:x:1000:1000::/home/user:/bin/sh' >> "$work/root/etc/passwd"
echo 'user:x:1000:' >> "$work/root/etc/group"
chown -R 1000:1000 "$work/root/home/user"
cat > "$work/inside" <<'INSIDE'
set -eu
mount --bind "$kit" "$root$kit"
mount -o remount,ro,bind "$root$kit"
mount -t proc proc "$root/proc"
mount --rbind /dev "$root/dev"
exec chroot --userspec=1000:1000 "$root" /usr/bin/env -i HOME=/home/user USER=user \
    PATH="$kit/bin:/usr/local/bin:/usr/bin:/bin" \
    sh -c 'cd /home/user/fluent_uri && eval "$1"' sh "$1"
INSIDE
failed=0
for command; do
    echo "fresh-machine: $command"
    # What it mounts and starts ends with it.
    root=$work/root kit=$kit unshare --mount --pid --fork --kill-child \
        sh "$work/inside" "$command" || failed=1
done
[ "$failed" = 0 ] && echo "fresh-machine: passed, with $packages"
exit "$failed"
