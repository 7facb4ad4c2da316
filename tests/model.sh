#!/usr/bin/env bash
# The independent model itself: its own tests, and that the corpus tells each of its one-rule mutants from it (SEED on request).
set -u
cd "$(dirname "${BASH_SOURCE[0]}")/.." || exit 2
bad=0
python3 tests/model/selftest.py || bad=1
python3 tests/model/try_mutants.py "${SEED:-1}" || bad=1
exit $bad
