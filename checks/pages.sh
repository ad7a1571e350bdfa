#!/usr/bin/env bash
# docs/definitions.md and the line counts of docs/claims.md are up to date, the manual page and the scripts have no fault.
source "$(dirname "${BASH_SOURCE[0]}")/common.bash"
said=()
if command -v python3 >/dev/null 2>&1; then
  tools/definitions.py --check || faults=$((faults + 1))
  said+=('the index of definitions is up to date')
fi
if command -v mandoc >/dev/null 2>&1; then
  mandoc -Tlint -W warning docs/cerealspit.1 || faults=$((faults + 1))
  said+=('mandoc finds no fault in the manual page')
elif command -v man >/dev/null 2>&1; then
  [ -z "$(MANROFFSEQ='' man --warnings -l docs/cerealspit.1 2>&1 >/dev/null)" ] || faults=$((faults + 1))
  said+=('man finds no fault in the manual page')
fi
if command -v shellcheck >/dev/null 2>&1; then
  shellcheck -x -P SCRIPTDIR cerealspit .ci/run checks/*.sh checks/*.bash checks-long/run checks-long/*.sh || faults=$((faults + 1))
  said+=('shellcheck finds no fault in the scripts')
fi
ends pages "$(printf '%s; ' "${said[@]}")skipped what has no tool here"
