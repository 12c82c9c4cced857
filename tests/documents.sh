#!/usr/bin/env bash
# Holds README.md, docs/AUDIT.md and the header to the source: what is quoted stands there, every statement that is named has a proof and an
# edit, the reading list is whole, and the header declares what is exported. Ends in `N passed, M failed`.
set -u
cd "$(dirname "$0")/.." || exit 1
exec python3 -B tests/checks/documents.py
