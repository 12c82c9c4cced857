#!/usr/bin/env bash
# The gate fails where it must. Ends in `N passed, M failed`.
exec "$(dirname "$0")/../scripts/try_gate"
