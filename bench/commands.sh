#!/usr/bin/env bash
# Runs every command that README.md and docs/CALLS.md show, in a clean clone of what is committed, in the order of the pages, each once:
#
#     bench/commands.sh [CHECKOUT]
#
# CHECKOUT is a checkout with what was proved before, whose folders crates/*/out are copied into the clone, so that it is not proved again. A command is a line of a
# code block that begins with tools/build, cc, cargo or target/bin/; the gate itself, .ci/run, is not run. A command is taken apart at its &&, and fails where a
# part of it does. The programs of target/bin/ have no exit status: one of them fails where it tells something on standard error, or prints nothing.
# The exit status is 1 if a command fails, or a page shows none.
set -euo pipefail
root=$(cd "$(dirname "$0")/.." && pwd)
folder=$(mktemp -d)
trap 'rm -rf "$folder"' EXIT
git clone -q "$root" "$folder/clone"
if [ $# -gt 0 ]; then
    for out in "$1"/crates/*/out; do
        cp -a "$out" "$folder/clone/crates/$(basename "$(dirname "$out")")/out"
    done
fi
cd "$folder/clone"
failed=0

# The commands of a page, a line each.
commands_of() {
    grep -E '^ {4,}(tools/build |cc |cargo |target/bin/)' "$1" | sed 's/^ *//'
}

# A part of a command. What it prints and tells is left in two files.
run_part() {
    bash -c "$1" </dev/null >"$folder/printed" 2>"$folder/told" || return 1
    case "$1" in
    target/bin/*) [ -s "$folder/printed" ] && [ ! -s "$folder/told" ] ;;
    esac
}

# A command, part by part.
run_command() {
    local rest="$1 && "
    while [ -n "$rest" ]; do
        run_part "${rest%%" && "*}" || return 1
        rest=${rest#*" && "}
    done
}

for page in README.md docs/CALLS.md; do
    if ! commands_of "$page" >>"$folder/commands"; then
        echo "FAILED: $page shows no command"
        failed=1
    fi
done
while IFS= read -r command; do
    if run_command "$command"; then
        echo "ran: $command"
    else
        echo "FAILED: $command"
        cat "$folder/printed" "$folder/told"
        failed=1
    fi
done < <(awk '!seen[$0]++' "$folder/commands")
exit "$failed"
