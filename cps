#!/usr/bin/env bash
# Runs the sequencer: the proved program where it is built, and else its sources, unproved and slower.
name=cps
no_answer=70 # EX_SOFTWARE of sysexits.h, which the program itself never ends with
self=$(readlink -f "$0") && top=$(dirname "$self") && . "$top/run_program" || exit "$no_answer"

run_program cps_main 1 "$@"
# For words that fit no command: the commands of README's table, and where the documents are.
if [ "$status" -eq 2 ]; then
    sed -n 's/^| `\([a-z][^`]*\)` | \(.*\) |$/  \1\t\2/p' "$top/README.md" | tr -d '`' | expand -t 39 >&2
    echo "  First steps: $top/docs/DESK.md; rules, files and statuses: $top/docs/RULES.md, $top/docs/FORMATS.md" >&2
fi
exit "$status"
