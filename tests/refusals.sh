#!/usr/bin/env bash
# Reads what `rt ci` said to each must-fail edit: it was refused at a fact, and not because a name is gone. Ends in `N passed, M failed`.
set -u
cd "$(dirname "$0")/.." || exit 1
exec python3 -B tests/checks/refusals.py
