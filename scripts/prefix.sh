# Sentences on a prefix that does not fit its script, and on views that show no step. ./pct reads this file where there may be one.
# shellcheck shell=sh disable=SC2154

# ---- lines of a prefix

# The number in PREFIX of a line that is no comment and not empty. One past the last is the line past the last of PREFIX.
prefix_line() {
    LC_ALL=C awk -v left="$1" '
        !/^[ \t]*(#.*)?\r?$/ && !--left { is_there = 1; exit }
        END { print is_there ? NR : NR + 1 }
    ' "$prefix_file"
}

# The number in PREFIX, or in FILE after its line %%, of the line of an entry.
entry_line() {
    LC_ALL=C awk -v left="$1" -v is_after="${prefix:+1}" '
        !is_after { is_after = /^%%\r?$/; next }
        /^[ \t]*(#.*)?\r?$/ { next }
        !is_header { is_header = /^schedule /; next }
        !--left { print NR; exit }
    ' "${prefix_file:-$input}"
}

# Shows a line of PREFIX or of FILE as it is there, with its comment.
show_given() {
    printf '%s:%s: %s\n' "${prefix:-$file}" "$1" "$2" >&2
    joined=$input input=${prefix_file:-$input}
    show_line "$1" schedule
    input=$joined
}

# ---- what is refused, or not legal

# Whether FILE is a report or a schedule in the place of a script; says so.
explain_order() {
    IFS= read -r line <"$input"
    case ${line%"$carriage_return"} in
        'report '[12]) given=report ;;
        'schedule '[12]' '*) given=schedule ;;
        *) return 1 ;;
    esac
    case $1 in
        run | check) say "$file is a $given, and no script" ;;
        continue) say "$file is a $given: the script comes first, './pct continue SEED FILE PREFIX'" ;;
        *) say "$file is a $given: the script comes first, './pct $1 FILE PREFIX'" ;;
    esac
}

# Whether the report that was given is whole, so that each of its entries is legal in the script that it is of.
is_whole_report() {
    has_report && [ -n "$(LC_ALL=C sed -n "/$marker_line/,\${/^end /{p;q;};}" "$input")" ]
}

# An entry of the prefix is not legal: the answer is of the entries before it.
explain_illegal() {
    show_given "$(entry_line "$2")" "entry $2 is not legal"
    if [ -z "$difference" ] && is_whole_report; then
        say 'the report that was given is of another script, or of another version of this one, or was edited'
    fi
    case $1 in
        trace | states | lanes | picture) say "'./pct choices $file ${prefix:-$file} $(($2 - 1))' shows what is legal there" ;;
    esac
    [ -z "$selected" ] || explain_empty
}

# Explains what an answer with status 6 or 7 says of the prefix. It fails if there is more to explain, or the answer is about FILE.
explain_prefix() {
    if [ "$status" -eq 6 ]; then
        explain_order "$1"
        return
    fi
    command=$1
    # The last line of a picture is none of these.
    [ "$command" != picture ] || set -- trace
    answer=$(repeat_answer "$@" | sed -n -e '/^refused /p' -e '$p' | head -n 1)
    # A refusal or a notice is some words without patterns.
    # shellcheck disable=SC2086
    set -- $answer
    case "$1 $2 ${prefix:+prefix}" in
        entry*)
            explain_illegal "$command" "$2"
            [ "$command" != continue ]
            ;;
        'refused entry prefix')
            show_given "$(entry_line "$3")" "entry $3 is not legal"
            show_reason entry
            file="$file $prefix"
            show_choices
            ;;
        'refused schedule prefix')
            show_given "$(prefix_line "$3")" "$4"
            show_reason schedule "$4"
            ;;
        *) return 1 ;;
    esac
}

# ---- views that show no step

# Whether there is no prefix; says so.
explain_missing() {
    [ -z "$header" ] || return
    say "there is no prefix, so the run has no step: give a report of './pct run', or a schedule"
}

# Says which of the selected steps and threads the run has not. Its lanes have all threads in the first line, and all steps.
explain_selected() {
    make_folder
    "$program" lanes <"$input" >"$folder/lanes"
    LC_ALL=C awk -F '\t' -v first="${first:-1}" -v threads="$threads" -v entries="$count" '
        NR == 1 { for (i = 2; i <= NF; i++) { is_there[$i] = 1; all = all " " $i }; next }
        NF > 1 { steps++ }
        END {
            if (first + 0 > steps) print "the run has " steps + 0 (steps == 1 ? " step" : " steps")
            named = split(threads, thread, ",")
            for (i = 1; i <= named; i++)
                if (!(thread[i] in is_there)) print "no thread " thread[i] " in " (entries == "" ? "this run" : "the run of these entries") ":" all
        }
    ' "$folder/lanes" >"$folder/lacks"
    if [ -s "$folder/lacks" ]; then
        sed 's/^/pct: /' "$folder/lacks" >&2
    elif ! "$program" trace <"$input" | select_steps | grep -q '^[0-9]'; then
        say 'none of the steps of the run is selected'
    fi
}

explain_empty() {
    explain_missing || [ -z "$selected" ] || explain_selected
}
