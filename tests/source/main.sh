#!/usr/bin/env bash
# Tests source/wqsource by pytest: tests/source/test_*.py. They need Debian's coccinelle; the Linux source, for the examples, is in
# linux_tree.sh. Where coccinelle is missing and can't be installed, the script says that it skipped them, and passes.
set -u
. "$(dirname "$0")/../lib/script.bash"
if ! from_debian spatch coccinelle; then
    skipped "source: coccinelle can't be installed here"
    exit 0
fi
LINUX_6_1=$(bash "$(dirname "$0")/linux_tree.sh") || LINUX_6_1=
export LINUX_6_1
exec timeout 1800 bash "$(dirname "$0")/../pytest.sh" - source -rs
