# Explanations of answers, on standard error. ./pct reads this file where there is something to explain.
# shellcheck shell=sh disable=SC2154

# The number of the first line of the input, from a line on, that the pattern matches.
first_line() {
    LC_ALL=C sed -n "$1,\${/$2/{=;q;}}" "$input"
}

# Shows a line of the input. A byte that is not printable is shown as \xHH. In a script a tab and a last CR are blanks. In a
# schedule a tab and a blank at the end are faults, and are shown likewise.
show_line() {
    LC_ALL=C sed -n "$1{p;q;}" "$input" | head -c 202 | od -An -v -tu1 | awk -v kind="$2" '
        { for (i = 1; i <= NF; i++) byte[++count] = $i + 0 }
        END {
            is_line = count > 0
            if (byte[count] == 10) count--
            if (byte[count] == 13) count--
            if (!count) text = is_line ? "(an empty line)" : "(the end of the text)"
            for (i = 1; i <= count && i <= 200; i++) {
                is_blank = kind == "script" ? byte[i] == 32 || byte[i] == 9 : byte[i] == 32 && i < count
                if (is_blank) text = text " "
                else text = text sprintf(byte[i] > 32 && byte[i] < 127 ? "%c" : "\\x%02X", byte[i])
            }
            print "    " text (count > 200 ? " ..." : "")
        }
    ' >&2
}

# Shows the usual cause of a refusal of this kind, for this reason, and the way to mend it. With a third word the usual cause is left
# out: the explanation has the cause.
show_reason() {
    awk -v kind="$1" -v why="$2" -v has_cause="$3" '
        /^[^ #]/ { is_it = $1 == kind && $2 == why }
        /^  [^ ]/ { is_left_out = has_cause != "" && /^  Usual cause:/ }
        is_it && /^ / && !is_left_out { print }
    ' "$here/docs/reasons.txt" >&2
}

# Shows which word of a refused line of a script it is about, and how to mend it. It fails if no mend of its own is known.
show_word() {
    script_of_input | LC_ALL=C awk -v at="$line" -v why="$why" -f "$here/scripts/refused_word.awk" -f "$here/scripts/mend_word.awk" \
        "$here/docs/forms.txt" - >&2
}

explain_line() {
    printf '%s:%s: %s\n' "$file" "$line" "$fault" >&2
    show_line "$line" "$kind"
    if [ "$kind" = script ] && show_word; then return; fi
    show_reason "$kind" "$why"
}

# The script of the input: what is before a line %%, if there is one.
script_of_input() {
    LC_ALL=C sed "/$marker_line/,\$d" "$input"
}

# From here on the program is pct_inspect: the proved one, or after an answer without proof one that is kept. It may be missing, or
# not current; none is made here.
find_inspect() {
    name=pct_inspect
    program=$here/crates/$name/out/$name
    if is_current; then return; fi
    [ -z "$is_proved" ] || return
    program=$unproved/$name
    is_kept
}

# Shows where the threads are at the entry that `replay` refused, and what may be next. Without a built pct_inspect it says how
# to see that.
show_choices() {
    if ! find_inspect; then
        say "'./pct choices $file' shows where each thread is there, and each entry that is legal"
        return
    fi
    say "here each thread is, and each entry that is legal there ('./pct choices $file'):"
    "$program" choices <"$input" | sed 's/^/    /' | align >&2
}

# Says that a report of `continue` is not of the prefix, since an entry of that is not legal. A view says so in its last line.
explain_notice() {
    [ "$command" = continue ] || return
    # The last line is `entry N is not legal here`.
    # shellcheck disable=SC2046
    set -- $(repeat_answer "$@" | tail -n 1)
    say "entry $2 of the prefix is not legal, and the report is of a run without it: it goes on from the entries before"
    say "'./pct choices' with the same files shows what is legal there"
}

# Explains the refusal that a command gave of the file. An answer with status 7 of a command that follows a prefix may be a report
# or a view instead.
explain_refusal() {
    command=$1
    answer=$(repeat_answer "$@" | head -n 1)
    case $answer in
        'refused '*) ;;
        *)
            explain_notice "$@"
            return
            ;;
    esac
    # A refusal is three or four words without patterns.
    # shellcheck disable=SC2086
    set -- $answer
    kind=$2 number=$3 why=$4
    marker=$(first_line 1 "$marker_line")
    fault=$why
    case $kind in
        script) line=$number ;;
        schedule) line=$((marker + number)) ;;
        entry)
            line=$(($(first_line $((marker + 1)) '^schedule ') + number))
            fault="entry $number is not legal"
            ;;
    esac
    if [ "$name" = pct_inspect ]; then
        explain_line
    elif [ "$command" = replay ] && [ -z "$marker" ]; then
        [ "$kind" = schedule ] || explain_line
        # A last line without a line end has the marker in it, and its explanation says so.
        [ -z "$(LC_ALL=C sed -n "${line:-1}{/^[[:blank:]]*[^#[:blank:]]\{1,\}%%$carriage_return\{0,1\}\$/p;}" "$input")" ] || return
        say "$file has no line %%, so all of it is the script and the schedule is empty; './pct run $file' runs a script"
    elif [ "$command" != replay ] && [ -n "$marker" ]; then
        [ "$line" = "$marker" ] || explain_line
        say "line $marker of $file is %%, so this is an input of replay: './pct replay $file'"
    else
        explain_line
        [ "$kind" != entry ] || show_choices
    fi
}

# Explains the refusal of the tallies of a file, or of several files: the line, which is of the files together, and the usual cause.
explain_tallies() {
    # A refusal is four words without patterns.
    # shellcheck disable=SC2046
    set -- $(repeat_answer "$@")
    kind=$2 line=$3 why=$4 fault=$4
    explain_line
}

# Explains the refusal of the rules or of the report that `expect` was given: the line, in FILE or in REPORT, and the usual cause.
explain_expectation() {
    # A refusal is four words without patterns.
    # shellcheck disable=SC2046
    set -- $(repeat_answer "$@")
    kind=$2 line=$3 why=$4 at=$file:$3
    if [ "$kind" = report ]; then
        marker=$(first_line 1 "$marker_line")
        if [ -z "$marker" ]; then
            say "$file has no line %%, so all of it is rules and the report is empty: './pct expect RULES REPORT'"
            return
        fi
        line=$((marker + line))
        at=$file:$line
        [ -z "$prefix" ] || at=$prefix:$3
    fi
    printf '%s: %s\n' "$at" "$why" >&2
    show_line "$line" script
    show_reason "$kind" "$why"
}

# What the law is about that `audit` or `judge` names by this word.
law_subject() {
    case $1 in
        once) echo 'cleanup handlers and destructors' ;;
        ran_all) echo 'handlers that ran' ;;
        after_end) echo 'what follows the end of a thread' ;;
        process) echo 'processes' ;;
        slot) echo 'thread ids and slots' ;;
        join) echo 'joins' ;;
        cond) echo 'mutexes and condition waits' ;;
        call_once) echo 'pthread_once' ;;
        requests) echo 'cancellation requests' ;;
        keys) echo 'keys' ;;
        leftover) echo 'values that are left' ;;
    esac
}

# Shows the sentence of docs/THEOREM.md on the law of this word: the last field of its row in the table of the laws that are about events
# alone.
show_law() {
    word=$1 LC_ALL=C awk -F ' [|] ' '
        $1 == "| `" ENVIRON["word"] "`" {
            sub(/ [|]$/, "", $3)
            gsub(/`/, "\047", $3)
            count = split("Law: " $3 ".", words, " ")
            text = " "
            for (i = 1; i <= count; i++) {
                if (length(text) + length(words[i]) >= 120) {
                    print text
                    text = "   "
                }
                text = text " " words[i]
            }
            print text
        }
    ' "$here/docs/THEOREM.md" >&2
}

# Explains what `audit` found in a report: the line of the event at which a law fails, or that of the refusal and its usual cause.
explain_audit() {
    # A fault and a refusal are four words without patterns.
    # shellcheck disable=SC2046
    set -- $(repeat_answer "$@")
    if [ "$1" = audit ]; then
        # Event 1 is in line 2.
        line=$(($3 + 1))
        printf '%s:%s: the law of %s fails at this event\n' "$file" "$line" "$(law_subject "$4")" >&2
        show_line "$line" script
    else
        explain_report "$3" "$4"
    fi
}

# Explains the refusal of a report that is the whole input: its line and the usual cause.
explain_report() {
    line=$1
    printf '%s:%s: %s\n' "$file" "$line" "$2" >&2
    show_line "$line" script
    show_reason report "$2"
}

# Explains what `judge` found in a report: for each law that fails the line of the first event at which it does, and the sentence of the
# law; or the refusal.
explain_findings() {
    make_folder
    repeat_answer "$@" >"$folder/findings"
    while read -r law verb number why; do
        case $law$verb in
            refusedreport) explain_report "$number" "$why" ;;
            *event)
                # Event 1 is in line 2.
                line=$((number + 1))
                printf '%s:%s: the law of %s fails at this event\n' "$file" "$line" "$(law_subject "$law")" >&2
                show_line "$line" script
                show_law "$law"
                ;;
        esac
    done <"$folder/findings"
}

# Explains the refusal of the rules of an expectation: the line, which is one of the rules' own file, and the usual cause.
explain_rules() {
    # A refusal is four words without patterns.
    # shellcheck disable=SC2046
    set -- $(repeat_answer "$@" | head -n 1)
    kind=$2 why=$4 fault=$4
    marker=$(first_line 1 "$marker_line")
    if [ -z "$marker" ]; then
        say "$file has no line %%, so it has no rules: name a file of rules after it"
        return
    fi
    line=$((marker + $3))
    printf '%s:%s: %s\n' "${rules:-$file}" "$([ -n "$rules" ] && echo "$3" || echo "$line")" "$fault" >&2
    show_line "$line" "$kind"
    show_reason "$kind" "$why"
}

# ---- words that are refused

explain_words() {
    awk -f "$here/scripts/refused_words.awk" -- "$@" >&2
}

# ---- runs that do not end complete

# The report that was written. A second run of several workers may be another one, so their report is kept.
written_report() {
    if [ -n "$keeps" ]; then cat "$folder/answer"; else repeat_answer "$@"; fi
}

# The script and the report, as the views read them.
followed() {
    script_of_input
    [ -z "$(script_of_input | tail -c 1)" ] || echo
    echo '%%'
    cat "$folder/report"
}

# Writes the script and the views of the report that an explanation is read from into files. It fails if no program shows them.
look() {
    find_inspect || return
    script_of_input >"$folder/script"
    followed >"$folder/followed"
    "$program" trace <"$folder/followed" >"$folder/trace"
    "$program" choices <"$folder/followed" >"$folder/choices"
    grep -q "^verdict $verdict" "$folder/trace"
}

# Explains what is in these files by an awk script and its variables. The cause that it finds, if any, is then in $cause.
explain_by() {
    rm -f "$folder/found"
    script=$1
    shift
    file=$file found=$folder/found LC_ALL=C awk -f "$here/scripts/run_facts.awk" -f "$here/scripts/$script.awk" "$@" >&2
    cause=''
    [ ! -s "$folder/found" ] || cause=$(cat "$folder/found")
}

# Explains the report of a run that ended by a stop or a deadlock, or used up its budget.
explain_run() {
    case $1 in
        run | replay | continue) ;;
        *) return ;;
    esac
    make_folder
    written_report "$@" >"$folder/report"
    verdict=$(LC_ALL=C sed -n '/^verdict /{s///p;q;}' "$folder/report")
    is_seen='' cause=''
    if look; then is_seen=yes; fi
    case $verdict in
        deadlock) explain_deadlock ;;
        budget) explain_budget "$1" ;;
        *) explain_stop ;;
    esac
}

# Says which command shows what is not shown here.
explain_unseen() {
    printf '%s: %s\n' "$file" "$verdict" >&2
    say "with its report in a file, './pct $1 $file REPORT' shows $2"
}

explain_deadlock() {
    if [ -n "$is_seen" ]; then
        explain_by deadlock "$folder/script" "$folder/trace" "$folder/choices"
        if [ -n "$cause" ]; then
            show_reason cause "$cause"
            return
        fi
        # The others may wait for a thread that waits so.
        for why in condition semaphore mutex process a once thread; do
            if grep -q "waits for $why " "$folder/choices"; then break; fi
        done
        show_reason deadlock "$why"
    else
        explain_unseen choices 'what each thread waits for'
    fi
}

explain_budget() {
    budget=$(LC_ALL=C sed -n '/^schedule /{s/^schedule [12] \([0-9]*\) .*/\1/p;q;}' "$folder/report")
    if [ -n "$is_seen" ]; then
        explain_by budget budget="$budget" "$folder/script" "$folder/trace" "$folder/choices"
    else
        explain_unseen trace 'the loop that took the steps'
    fi
    if [ -n "$cause" ]; then
        show_reason cause "$cause"
        return
    fi
    case $1 in
        run) echo "  Mend: end the loop, or give the run more steps: '--budget N' allows up to 200000." >&2 ;;
        *) echo '  Mend: end the loop, or give the run more steps: BUDGET in the header of its schedule may be up to 200000.' >&2 ;;
    esac
}

# The script and the schedule without its last entry, as the views read them. A pct_inspect without `states` refuses that word.
before_last() {
    LC_ALL=C awk '
        is_header && $1 == "end" { exit }
        is_header { if (held != "") print held; held = $0; next }
        { print; is_header = is_marker && /^schedule / }
        $0 == "%%" { is_marker = 1 }
    ' "$folder/followed"
}

# The last step of the trace is the one that was stopped.
explain_stop() {
    if [ -n "$is_seen" ]; then
        line=$(LC_ALL=C awk -F '\t' 'NF == 6 { at = $3 } END { sub(/.*:/, "", at); print at }' "$folder/trace")
        step=$(LC_ALL=C awk -F '\t' 'NF == 6 { step = $1 " of thread " $2; at = $3 } END { sub(/:.*/, "", at); print step " in " at }' "$folder/trace")
        printf '%s:%s: %s, step %s\n' "$file" "$line" "$verdict" "$step" >&2
        show_line "$line" script
        before_last | "$program" states >"$folder/states"
        explain_by stop stop="${verdict#* }" "$folder/script" "$folder/trace" "$folder/choices" "$folder/states"
    else
        explain_unseen trace 'the step that was stopped'
    fi
    show_reason stop "${verdict#* }" "$cause"
}
