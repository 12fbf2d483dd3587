#!/usr/bin/env bash
# Writes inputs of crates/test_reports/data, and stdout: inputs of the level report, and what the report is by the
# original's `convert_frame` and by document 02's rule for overs, which the program has in its own words. On standard
# error it says what each input of overs shows.
# Usage: compare/reports.sh SRC
# SRC is the original's repository.
set -eu
here=$(cd "$(dirname "$0")" && pwd)
figures=$(cd "$here/../crates/test_reports" && pwd)
rm -f "$figures/data/"[0-9]*
{
    "$here/beside.sh" reports "${1:?the folder of the original}" "$figures/data"
    echo "boards 156 right 156"    # by turns.py
} > "$figures/stdout"
