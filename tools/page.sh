#!/bin/sh
# page.sh: splicerd's page in Debian's Chromium by its driver: a spot goes on air while it is looked at, another covers it; names are
# text, nothing comes from elsewhere, channels are reached by keyboard. Pictures of desktop and phone go to docs/pictures/. Installs
# Debian's browser where there is none (as root). SPLICER_LIB as for splicerd.sh. No part of the gate. The last line is 'N passed, M
# failed'.
set -eu
. "$(dirname "$0")/words.sh"
no_words "$@"
needs_rust 1.82
cd "$(dirname "$0")/.."
work=$PWD/target/splicerd
mkdir -p "$work" docs/pictures
. tools/ran.sh
if ! command -v chromedriver >/dev/null 2>&1; then
    needs apt-get
    [ "$(id -u)" -eq 0 ] || { echo 'page.sh: not root: as root, apt-get install chromium chromium-driver' >&2; exit 2; }
    apt-get install -y --no-install-recommends --no-remove chromium chromium-driver
fi
SPLICER_LIB=$(cd "${SPLICER_LIB:-target/staticlib}" && pwd -P)
CARGO_TARGET_DIR=$work
PICTURES=$PWD/docs/pictures
export CARGO_TARGET_DIR SPLICER_LIB PICTURES

# looked_at: tests/browser.rs
looked_at() {
    (cd splicerd && cargo test --quiet --offline --test browser -- --ignored)
}

ran page looked_at || :
echo "$passed passed, $failed failed"
[ "$failed" -eq 0 ]
