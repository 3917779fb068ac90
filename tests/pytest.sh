#!/usr/bin/env bash
# Runs tests by pytest, as many at a time as there are processors:
#
#     pytest.sh PROGRAM TEST..
#
# PROGRAM is the wqplan that is tested, or `-` where the tests need none; the files or folders of tests are those of tests/. They need
# Debian's python3-pytest, python3-hypothesis and python3-pytest-xdist, which are installed where they are missing and that may be done;
# else they are named, and the status is 1.
set -u
[ "$1" = - ] || WQPLAN=$(realpath -m -- "$1") || exit 1
export WQPLAN
shift
cd -- "$(dirname "$0")" || exit 1

# has_pytest: whether some Python has all of them. `python` is this one.
has_pytest() {
    for python in python3 /usr/bin/python3; do
        "$python" -c 'import pytest, hypothesis, xdist' 2>/dev/null && return
    done
    return 1
}

packages='python3-pytest python3-hypothesis python3-pytest-xdist'
if ! has_pytest; then
    # (another apt-get may be at work)
    timeout 600 sh -c "apt-get -qq update; DEBIAN_FRONTEND=noninteractive apt-get -qq -y -o DPkg::Lock::Timeout=300 \
        --no-install-recommends install $packages" >/dev/null 2>&1 </dev/null
    if ! has_pytest; then
        echo "pytest: these tests need Debian's $packages, which can't be installed here" >&2
        exit 1
    fi
fi
export PYTHONDONTWRITEBYTECODE=1
exec "$python" -m pytest -q -n "${RT_JOBS:-$(nproc)}" "$@"
