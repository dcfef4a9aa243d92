#!/bin/sh
# Whether the Rattle kit is at hand: nothing and status 0, or one line that says what to do and status 2.
# Every command that needs `rt` asks this first.
if ! command -v rt >/dev/null 2>&1; then
    echo "error: the command 'rt' of the Rattle kit is not on the PATH: install the kit, or add its folder 'bin' to the PATH" >&2
    exit 2
fi
