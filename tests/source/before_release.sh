#!/usr/bin/env bash
# What is too dear for the gate, before a release: the reader of tokens beside Coccinelle on all files of the examples (ten minutes of
# one processor), and how many of the waits that the examples declare a scan has.
#
#     before_release.sh TREE     the whole source of Linux 6.1.192 (source/get-linux 6.1)
set -eu
here=$(dirname -- "$(readlink -f -- "$0")")
python3 -B "$here/readers.py" "$1"
python3 -B "$here/recall.py" "$1"
