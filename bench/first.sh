#!/bin/sh
# What a stranger does first, timed: a fresh clone, and the README's first command in it, with no kit on PATH.
set -eu
top=$(CDPATH= cd -- "$(dirname -- "$0")/.." && pwd)
folder=$(mktemp -d)
trap 'rm -rf "$folder"' EXIT
begun=$(date +%s%N)
git clone -q "$top" "$folder/nbrun"
cd "$folder/nbrun"
PATH=/usr/bin:/bin ./nbrun examples/toy.ipynb "$folder/toy.ipynb" --kernel-path examples/kernels
echo "clone and first run: $((($(date +%s%N) - begun) / 1000000)) ms"
begun=$(date +%s%N)
PATH=/usr/bin:/bin ./nbrun --version
echo "second start: $((($(date +%s%N) - begun) / 1000000)) ms"
