#!/usr/bin/env bash
# The gate: rt ci, and then the docs and the program as it built it. The last line is that of rt ci.
set -uo pipefail
cd "$(dirname "$0")/.." || exit 1
mkdir -p bin
exec < /dev/null
rt ci 2>&1 | tee bin/gate.log | sed '$d'
status=${PIPESTATUS[0]}
if [ "$status" -eq 0 ]; then
    EVERY_TEST=1 make --no-print-directory built check-docs check-program || status=1
fi
[ "$status" -eq 0 ] || echo "FAILED: the gate"
tail -n 1 bin/gate.log
exit "$status"
