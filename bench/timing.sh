# What the scripts beside this one share; they source it, with the programs in the folder $work. `once LABEL PROGRAM WORD...` runs a program once and keeps its
# least time, in milliseconds, in least["PROGRAM LABEL"]; what is printed under one label must be the same for all programs. `ratio A B` is A / B.
declare -A least
once() {
    local label=$1 program=$2 start end took answer
    shift 2
    start=$(date +%s%N)
    answer=$("$work/$program" "$@")
    end=$(date +%s%N)
    took=$(((end - start) / 1000000))
    if [ -z "${least[$program $label]-}" ] || [ "$took" -lt "${least[$program $label]}" ]; then least[$program $label]=$took; fi
    if [ -e "$work/told $label" ] && [ "$answer" != "$(cat "$work/told $label")" ]; then echo "$program $answer: the other program says otherwise" >&2; exit 1; fi
    printf '%s\n' "$answer" >"$work/told $label"
}

ratio() { awk -v a="$1" -v b="$2" 'BEGIN { printf "%.2f", a / b }'; }
