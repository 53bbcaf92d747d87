#!/bin/sh
# Each misuse of misuse/*.edit must be refused by the compiler, with the error that the edit names and no
# other. rt's must-fail edits cannot show this: they ask for a proof that fails, and these do not compile.
#
# An edit has six lines:
#   crate: NAME        the crate to misuse
#   file: src/lib.rt   the file to edit, from the crate's folder
#   old: TEXT          a text that stands in that file exactly once
#   new: TEXT          what to put in its place
#   error: NAME        the compiler's name for the error, as in error[NAME]
#   says: TEXT         a part of the error's message
#
# It runs on a copy of the crate and of those below it, and changes nothing in the repository. rt proves the
# crates below first, or takes over what a check on this machine has proved of them.
set -u
cd "$(dirname "$0")" || exit 2
work=$(mktemp -d) || exit 2
trap 'rm -rf "$work"' EXIT
bad=0 tried=0

field() { sed -n "s/^$1: //p" "$2" | head -n 1; }

# Prints the crate NAME and all crates below it.
with_below() {
    NAME=$1 awk '
        { sub(/\r$/, ""); sub(/#.*/, ""); i = index($0, ":"); if (!i) next
          n = substr($0, 1, i - 1); gsub(/[ \t]/, "", n); below[n] = substr($0, i + 1) }
        END { todo[count = 1] = ENVIRON["NAME"]
              for (k = 1; k <= count; k++) {
                  if (todo[k] in seen || !(todo[k] in below)) continue
                  seen[todo[k]] = 1; print todo[k]
                  parts = split(below[todo[k]], part, /[ \t]+/)
                  for (j = 1; j <= parts; j++) if (part[j] != "") todo[++count] = part[j]
              } }' crates.txt
}

for edit in misuse/*.edit; do
    [ -f "$edit" ] || continue
    tried=$((tried + 1))
    crate=$(field crate "$edit") file=$(field file "$edit") error=$(field error "$edit") says=$(field says "$edit")
    old=$(field old "$edit") new=$(field new "$edit")
    if [ -z "$crate" ] || [ -z "$file" ] || [ -z "$error" ] || [ -z "$says" ] || [ -z "$old" ] || [ -z "$new" ]; then
        echo "$edit: a line is missing (crate, file, old, new, error, says)"; bad=1; continue
    fi
    if [ ! -f "crates/$crate/$file" ]; then echo "$edit: no file crates/$crate/$file"; bad=1; continue; fi
    copy=$work/$tried
    mkdir -p "$copy/crates"
    for name in $(with_below "$crate"); do
        grep -E "^$name[ \t]*:" crates.txt >>"$copy/crates.txt"
        mkdir "$copy/crates/$name"
        for part in src specs proofs; do
            [ ! -d "crates/$name/$part" ] || cp -R "crates/$name/$part" "$copy/crates/$name/$part"
        done
    done
    OLD=$old NEW=$new awk '
        { text = text $0 "\n" }
        END { old = ENVIRON["OLD"]; at = index(text, old); if (!at) exit 3
              rest = substr(text, at + length(old)); if (index(rest, old)) exit 4
              printf "%s%s%s", substr(text, 1, at - 1), ENVIRON["NEW"], rest }' "crates/$crate/$file" >"$work/edited"
    case $? in
        0) ;;
        4) echo "$edit: its old text stands more than once in crates/$crate/$file"; bad=1; continue ;;
        *) echo "$edit: its old text does not stand in crates/$crate/$file"; bad=1; continue ;;
    esac
    mv "$work/edited" "$copy/crates/$crate/$file"
    (cd "$copy/crates/$crate" && rt check) >"$work/log" 2>&1
    status=$?
    if [ "$status" -eq 1 ] && grep -F "error[$error]" "$work/log" | grep -qF -- "$says" &&
        [ "$(grep -c ': error' "$work/log")" -eq 1 ]; then
        echo "$edit: refused by the compiler, as it must be ($error)"
    else
        echo "$edit: NOT REFUSED as it must be (status $status, wanted error[$error] alone)"
        grep -E ': error|no proof|not proved' "$work/log" | head -n 5
        bad=1
    fi
done
if [ "$tried" -eq 0 ]; then echo "misuse.sh: no misuse/*.edit"; bad=1; fi
exit "$bad"
