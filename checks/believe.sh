#!/bin/sh
# Lists the definitions that the clauses of a public call, or of a crate's, reach: checks/believe.sh CRATE::CALL | CRATE
exec python3 "$(dirname "$0")/believe.py" "$@"
