#!/usr/bin/env bash
# Every file under crates/ has a place that the check reads, and every must-fail edit its shape. Ends in `N passed, M failed`.
set -u
cd "$(dirname "$0")/.." || exit 1
exec python3 -B tests/checks/places.py
