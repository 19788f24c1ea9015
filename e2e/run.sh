#!/bin/sh
# Builds projects with bin/chunkpack and runs what comes out as a page does. Needs Node, and nothing besides.
set -eu
if ! command -v node >/dev/null 2>&1; then
    echo 'skipped: node is not on PATH'
    echo '0 passed, 0 failed'
    exit 0
fi
here=$(CDPATH='' cd -- "$(dirname -- "$0")" && pwd)
exec node "$here/run.mjs"
