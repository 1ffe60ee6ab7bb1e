#!/bin/sh
# Makes the Rust crate of the sources and tests it. If ORIGINAL names a folder with the source and
# the tests of fluent-uri 0.4.1, the crate is compared with that.
. "$(dirname "$0")/lib.sh"
has cargo 'the Rust crate' || exit 0
"$root/rust/test" ${ORIGINAL:+--original "$ORIGINAL"}
