#!/bin/sh
# rows101.sh HEX...   builds the program rows101 and runs it on a tape given as hexadecimal text, as in
#   ./rows101.sh '01 02 01 01 02 00 11 00 00 01 00'
# Spaces are free. The first build proves every crate that the program needs and takes some minutes; later
# ones take over what has not changed. What rt says goes to standard error, and only if it fails.
set -u
here=$(cd "$(dirname "$0")" && pwd) || exit 2

case ${1-} in -h | --help) sed -n '2,5s/^# \{0,1\}//p' "$0"; exit 0 ;; esac

# Each pair of digits becomes an octal escape, which printf turns into the byte.
bytes=$(printf '%s\n' "$*" | awk '
    { text = text $0 }
    END {
        gsub(/[ \t\r]/, "", text); text = tolower(text)
        if (text ~ /[^0-9a-f]/ || length(text) % 2) exit 1
        for (i = 1; i < length(text); i += 2)
            printf "\\%03o", 16 * (index("0123456789abcdef", substr(text, i, 1)) - 1) + index("0123456789abcdef", substr(text, i + 1, 1)) - 1
    }') || { echo "rows101.sh: expected pairs of hexadecimal digits" >&2; exit 2; }

log=$(mktemp) || exit 2
trap 'rm -f "$log"' EXIT

# shellcheck disable=SC2059
printf "$bytes" | (cd "$here/crates/rows101" && rt run) 2>"$log"
status=$?
[ "$status" -eq 0 ] || { cat "$log" >&2; echo "rows101.sh: rows101 was not built, or did not end well" >&2; }
exit "$status"
