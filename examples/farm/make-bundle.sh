#!/bin/sh
# Makes `bundle` and `info` again from `farm.nix`, with Nix's own tools (Debian's package nix-bin has them).
# Only the derivation texts are written, into a store of its own in a temporary folder.
set -e
cd "$(dirname "$0")"
store=$(mktemp -d)
trap 'chmod -R u+w "$store"; rm -rf "$store"' EXIT
export NIX_STATE_DIR="$store/state" NIX_LOG_DIR="$store/log" NIX_CONF_DIR="$store/conf"
top=$(nix-instantiate --store "$store" farm.nix 2>/dev/null)
../../farm/gather --store "$store" -o . "$top"
