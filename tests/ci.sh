#!/usr/bin/env bash
# .ci/run finds or installs what a machine lacks, or says what it is. Ends in `N passed, M failed`.
exec "$(dirname "$0")/../scripts/try_ci"
