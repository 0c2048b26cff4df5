#!/bin/sh
# Tries the edits of edits/, which the prover has to refuse: checks/edits.sh [changed | all | tried | CRATE..]
exec python3 "$(dirname "$0")/edits.py" "$@"
