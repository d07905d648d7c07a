# Says which of the words of a command is not accepted, and why. The words are the arguments, without FILE.

BEGIN {
    range("--seed", "0", "18446744073709551615")
    range("--budget", "1", "200000")
    range("--passes", "4", "16")
    range("--slots", "1", "64")
    range("--workers", "1", "16")
    range("--turns", "1", "200000")
    sentence = on_command(ARGV[1])
    if (sentence != "") print sentence
}

function range(option, low, high) {
    least[option] = low
    largest[option] = high
}

function on_command(command) {
    if (ARGC < 2) return "a command is missing"
    if (command == "run") return on_run()
    if (command ~ /^(replay|check|expect|audit|judge|points|build)$/) return on_plain(command)
    if (command == "demo") return on_number("demo", 2, "0", "4294967295")
    if (command == "sample") return on_number("sample", 2, "1", "10000")
    if (command == "tally") return on_tally()
    if (command == "sum") return on_sum()
    if (command == "survey") return on_survey()
    if (command == "continue") return on_continue()
    if (command ~ /^(trace|choices|states|lanes|picture)$/) return on_view(command)
    if (command ~ /^--(version|help)$/) return too_many(command, 1)
    if (tolower(command) ~ /^(run|replay|check|expect|audit|judge|points|build|demo|sample|continue|trace|choices|states|lanes|picture|tally|sum|survey|test)$/) return command ": commands are in lower case"
    return command ": no such command"
}

# A view. Its options that are accepted are not among the words, and "-" and a range such as "-8" are none.
function on_view(command,   i, option) {
    for (i = 2; i < ARGC; i++) {
        if (ARGV[i] !~ /^-[^0-9]/) continue
        option = ARGV[i]
        sub(/=.*/, "", option)
        return option " is no option of " command "; it has " (command ~ /^(choices|states)$/ ? "none" : "--threads and --events")
    }
    return too_many(command, 4)
}

function on_continue(   i) {
    if (ARGC > 3 && ARGV[2] !~ /^[0-9]+$/) return ARGV[2] " is no SEED: \047./pct continue SEED FILE [PREFIX [N]]\047"
    for (i = 3; i < ARGC; i++) if (ARGV[i] ~ /^-[^0-9]/) return ARGV[i] " is no option of continue; it has none"
    return on_number("continue", 5, least["--seed"], largest["--seed"])
}

# The seeds of a tally: two numbers, of which the second is not less than the first, and less than 1000000 more.
function on_tally(   i) {
    for (i = 2; i <= 3; i++) {
        if (ARGC <= i) return "tally: " (i == 2 ? "its first" : "its last") " seed is missing, 1 to " largest["--seed"]
        if (!is_in(ARGV[i], "1", largest["--seed"])) return ARGV[i] ": a seed of tally is a number from 1 to " largest["--seed"]
    }
    if (ARGC > 4) return ARGV[4] ~ /^-/ ? ARGV[4] ": tally has no options" : too_many("tally", 4)
    if (!is_in(ARGV[3], stripped(ARGV[2]), largest["--seed"])) return ARGV[3] ": the last seed is less than the first"
    return "tally takes at most 1000000 seeds at once; sum adds tallies"
}

# The number of seeds of a survey, which has no leading zeros, and its options. FILE and RULES are not among the words.
function on_survey(   i, option) {
    if (ARGC < 3) return "survey: the number of seeds is missing, 1 to 100000"
    if (ARGV[2] ~ /^0/ || !is_in(ARGV[2], "1", "100000")) return ARGV[2] ": the number of seeds of survey is one from 1 to 100000, without leading zeros"
    for (i = 3; i < ARGC; i++) {
        if (ARGV[i] !~ /^-/) continue
        option = ARGV[i]
        sub(/=.*/, "", option)
        if (option !~ /^--(budget|passes|slots)$/) return option " is no option of survey; it has --budget, --passes and --slots"
    }
    return "survey has a number of seeds, options, FILE and RULES; --budget is 1 to 200000, --passes 4 to 16, --slots 1 to 64, each at most once"
}

function on_sum() {
    return ARGV[2] ": sum has no options"
}

# A command without options; FILE and PREFIX, if it has them, are not among the words.
function on_plain(command) {
    if (ARGC < 3) return ""
    if (ARGV[2] ~ /^-/) return ARGV[2] ": " command " has no options"
    return too_many(command, 1)
}

# A command that begins with a number, and has so many words.
function on_number(command, words, low, high) {
    if (ARGC < 3) return command ": its number is missing, " low " to " high
    if (!is_in(ARGV[2], low, high)) return ARGV[2] ": " command " takes a number from " low " to " high
    return too_many(command, words)
}

function too_many(command, words) {
    return ARGC > words + 1 ? ARGV[words + 1] ": a word too many for " command : ""
}

function on_run(   i, option, value, sign, seen) {
    for (i = 2; i < ARGC; i++) {
        option = ARGV[i]
        if (option !~ /^-/) return option ": a second FILE"
        sign = index(option, "=")
        if (sign) option = substr(option, 1, sign - 1)
        if (!(option in least)) return option ": run has no such option" (option ~ /^-[^-]/ ? "; a FILE with this name is ./" option : "")
        if (option in seen) return option ": it is given twice"
        seen[option] = 1
        if (!sign && i + 1 == ARGC) return option ": its value is missing, " least[option] " to " largest[option]
        value = sign ? substr(ARGV[i], sign + 1) : ARGV[++i]
        if (!is_in(value, least[option], largest[option])) return option " " value ": the value is a number from " least[option] " to " largest[option]
    }
    return ""
}

function stripped(value) {
    sub(/^0+/, "", value)
    return value == "" ? "0" : value
}

function is_in(value, low, high) {
    if (value !~ /^[0-9]+$/ || length(value) > 20) return 0
    value = stripped(value)
    return !is_below(value, low) && !is_below(high, value)
}

# Of two numbers without leading zeros, as texts: 2^64 is past what awk counts exactly.
function is_below(a, b) {
    return length(a) < length(b) || length(a) == length(b) && (a "") < (b "")
}
