#!/usr/bin/env bash
# Writes conversions, refused_settings and refused_lengths of crates/test_conversions/data: what the original's
# `Converter::convert` gives.
# Usage: compare/answers.sh SRC [DATA]
# SRC is the original's repository; DATA the folder that is written to.
set -eu
here=$(cd "$(dirname "$0")" && pwd)
data=$(cd "${2:-$here/../crates/test_conversions/data}" && pwd)
exec "$here/beside.sh" answers "${1:?the folder of the original}" "$data"
