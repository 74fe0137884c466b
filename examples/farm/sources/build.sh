#!/bin/sh
# Builds what $src holds.
set -e
mkdir -p "$out"
cp -r "$src" "$out/src"
