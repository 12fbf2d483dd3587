#!/usr/bin/env bash
# What the comparisons need beside the kit and Rust: the original's one dependency, as a Debian package.
set -eu
apt-get update
apt-get install -y librust-thiserror-dev
