# Surveys the scripts of a folder that have an expectation beside them, and writes the results in the form of the Test Anything Protocol,
# version 13. ./pct reads this file for `test`.
# shellcheck shell=sh disable=SC2154

# The words after `test`: a folder, and --seeds with a number of seeds.
read_test_words() {
    shift
    seeds=100 folder_given=''
    while [ "$#" -gt 0 ]; do
        case $1 in
            --seeds=*) seeds=${1#*=} ;;
            --seeds)
                [ "$#" -gt 1 ] || refuse_word '--seeds has no number after it'
                shift
                seeds=$1
                ;;
            -?*) refuse_word "$1 is no option of test" ;;
            *)
                [ -z "$folder_given" ] || refuse_word "$1: test has one folder"
                folder_given=$1
                ;;
        esac
        shift
    done
    [ -n "$folder_given" ] || refuse_word 'test has no folder'
    case $seeds in
        '' | 0* | *[!0-9]* | ???????*) refuse_word "$seeds is no number of seeds from 1 to 100000" ;;
    esac
    [ "$seeds" -le 100000 ] || refuse_word "$seeds is no number of seeds from 1 to 100000"
    if [ ! -d "$folder_given" ] || [ ! -r "$folder_given" ] || [ ! -x "$folder_given" ]; then
        say "$folder_given is no folder that can be read"
        exit 66
    fi
    make_folder
}

# A line of the diagnostic of a test, and a word of the shell as it is typed.
tell() {
    printf '# %s\n' "$1"
}

quoted() {
    case $1 in
        *[!A-Za-z0-9_./-]* | '') printf "'%s'" "$(printf '%s' "$1" | sed "s/'/'\\\\''/g")" ;;
        *) printf '%s' "$1" ;;
    esac
}

# The result of a test with this name. A # in a name would begin a directive.
result() {
    number=$((number + 1))
    [ "$1" = ok ] || failures=$((failures + 1))
    printf '%s %s - %s\n' "$1" "$number" "$(printf '%s' "$2" | tr '\n' ' ' | sed 's/#/\\#/g')"
}

# The lines of a survey of which a rule fails: with `expect` in a run, and with `some` in all.
failed_lines() {
    LC_ALL=C awk -F '\t' -v kind="$1" '
        NF == 5 {
            split($2, holds, " ")
            split($3, fails, " ")
            split($5, first, " ")
            if (kind == "expect" ? fails[2] > 0 : holds[2] == 0) print $1, fails[2], holds[2] + fails[2], first[2]
        }
    '
}

# What a rule that fails says: its line, the runs, and the command that shows one.
tell_failure() {
    rule=$(sed -n "$2{p;q;}" "$rules")
    script=$(quoted "$file")
    if [ "$1" = expect ]; then
        tell "line $2, $rule: fails in $3 of $4 runs, first with seed $5"
        tell "shown by: ./pct run --seed $5 $script"
    else
        tell "line $2, $rule: holds in none of $4 runs"
        tell "shown by: ./pct survey $4 $script $(quoted "$rules")"
    fi
}

# The test of an expectation: NAME.expect or NAME.some, and NAME.pct.
test_rules() {
    rules=$1 kind=${1##*.} file=${1%.*}.pct
    test_name=${rules##*/}
    if [ ! -f "$rules" ] || [ ! -r "$rules" ]; then
        result 'not ok' "$test_name"
        tell "$rules is no file that can be read"
        return
    fi
    if [ ! -e "$file" ]; then
        result 'not ok' "$test_name"
        tell "there is no script $file beside it"
        return
    fi
    if [ ! -f "$file" ] || [ ! -r "$file" ]; then
        result 'not ok' "$test_name"
        tell "$file is no file that can be read"
        return
    fi
    { LC_ALL=C sed "/$marker_line/,\$d" "$file" && printf '\n%%%%\n' && cat -- "$rules"; } >"$folder/input" || exit 126
    "$program" survey "$seeds" <"$folder/input" >"$folder/answer"
    status=$?
    case $status in
        0 | 14)
            failed_lines "$kind" <"$folder/answer" >"$folder/failed"
            if [ -s "$folder/failed" ]; then
                result 'not ok' "$test_name"
                while read -r line fails runs seed; do tell_failure "$kind" "$line" "$fails" "$runs" "$seed"; done <"$folder/failed"
            else
                result ok "$test_name"
            fi
            ;;
        *)
            result 'not ok' "$test_name"
            tell "status $status: $(head -n 1 "$folder/answer")"
            tell "shown by: ./pct survey $seeds $(quoted "$file") $(quoted "$rules")"
            ;;
    esac
}

# All tests of a folder, in the order of their names. A folder without a test fails.
test_folder() {
    number=0 failures=0
    echo 'TAP version 13'
    for given in "$folder_given"/*.expect "$folder_given"/*.some; do
        if [ -e "$given" ] || [ -L "$given" ]; then printf '%s\n' "$given"; fi
    done | LC_ALL=C sort >"$folder/tests"
    while IFS= read -r given; do test_rules "$given"; done <"$folder/tests"
    if [ "$number" -eq 0 ]; then
        result 'not ok' "$folder_given"
        tell 'the folder has no expectation: no file NAME.expect or NAME.some'
    fi
    printf '1..%s\n' "$number"
    [ "$failures" -eq 0 ]
}
