# Compares a report that was given as a prefix with the run of its schedule. ./pct reads this file where a report was given.
# shellcheck shell=sh disable=SC2154

# The run of the input: the report of it, or for a program that has none of the prefix alone, its steps.
run_again() {
    case $1 in
        replay) "$program" replay <"$input" ;;
        *) "$program" trace <"$input" ;;
    esac
}

# The first event that differs, as a sentence, or nothing. The events of the report are in the input before the header. If the input
# lacks the end of the schedule, or an entry is not legal, the run has the first events of the report, or else all.
first_difference() {
    run_again "$1" | LC_ALL=C awk -F '\t' '
        function plain(text) { gsub(/[^ -~]/, "?", text); return "\047" substr(text, 1, 200) "\047" }
        { sub(/\r$/, "") }
        FNR == NR {
            if (!stage) stage = $0 == "%%"
            else if (/^schedule /) stage = 2
            else if (stage == 2) is_whole = is_whole || /^end /
            else if (/^report [12]$/) { is_report = 1; count = 0 }
            else if (is_report && /^[0-9]+\.[0-9]+ /) report[++count] = $0
            next
        }
        /^[0-9]+\.[0-9]+ / && NF == 1 { run[++made] = $0 }
        NF > 1 && $6 != "-" {
            phrases = split($6, phrase, ", ")
            for (i = 1; i <= phrases; i++) run[++made] = $2 " " phrase[i]
        }
        /^entry / { is_whole = 0 }
        END {
            for (at = 1; at <= count && at <= made && report[at] == run[at]; at++);
            if (at > made && (at > count || !is_whole)) exit
            there = at > count ? "" : " is " plain(report[at]) " in the report"
            here = at > made ? "" : " is " plain(run[at]) " in this run"
            if (there == "") print "event " at here ", and the report has none"
            else print "event " at there ", and" (here == "" ? " this run has none" : substr(here, 4))
        }
    ' "$input" -
}

# Says so if the run is not the one that the report shows.
compare_report() {
    difference=$(first_difference "$1")
    [ -n "$difference" ] || return
    say "the report that was given is not of this run: $difference"
    say 'of a report only the schedule is followed; this one is of another script, or of another schedule, or was edited'
}
