#!/usr/bin/env bash
# Writes stored cases of crates/test_files: inputs, and answers of compare/files, a script of our own. It says how many,
# and needs Python 3 and nothing else.
# Usage: compare/files.sh
set -eu
here=$(cd "$(dirname "$0")" && pwd)
cd "$here/files"
for script in reading writing giving_up; do python3 -B $script.py ../../crates/test_files; done
