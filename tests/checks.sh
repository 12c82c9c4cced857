#!/usr/bin/env bash
# The checks of documents, layout and refusals fail where they must. Ends in `N passed, M failed`.
set -u
cd "$(dirname "$0")/.." || exit 1
exec python3 -B tests/checks/trials.py
