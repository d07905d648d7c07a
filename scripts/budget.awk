# Says of a run that used up its budget in which loop its last steps were. It reads the script and the answers of `trace` and of
# `choices`; `budget` is the number of steps. In the environment `file` is the name of the script, and `found` a file that gets the
# name of a cause, if one was found. run_facts.awk has the events that explanations use.

FNR == 1 { input++ }

# ---- the loops of the script

input == 1 {
    read_script()
    $0 = $0
    line[FNR] = $0
    if ($1 == "fn") { function_name = $2; function_line[$2] = FNR }
    if ($1 ~ /^(fn|if|while|pthread_cleanup_push)$/) opener[++depth] = FNR
    if ($1 == "while") { loops_in[function_name]++; loop[function_name, loops_in[function_name]] = FNR }
    if (($1 == "end" || $1 == "pthread_cleanup_pop") && depth) end_of[opener[depth--]] = FNR
    next
}

# ---- the steps of the run

# For each thread and loop: how many steps the thread had made when it was last outside the loop, and how often it has
# come to the line `while` since.
input == 2 && split($0, field, "\t") == 6 {
    read_step()
    made[who]++
    thread_at[steps] = who
    if (where !~ /^[A-Za-z0-9_]+:[0-9]+$/) next
    colon = index(where, ":")
    name = substr(where, 1, colon - 1)
    at = substr(where, colon + 1) + 0
    function_at[steps] = name
    if (field[6] ~ /^(call|done) /) is_at_point[who] = who in requested
    for (i = 1; i <= loops_in[name]; i++) follow(who, loop[name, i])
}

input == 3 && split($0, field, "\t") == 6 { cancelability[field[1]] = field[5] }

function follow(t, start) {
    if (at < start || at > end_of[start] || doing ~ /^return /) {
        outside[t, start] = made[t]
        rounds[t, start] = rounds_since[t, start] = 0
    } else if (at == start) {
        if (!rounds[t, start]++) outside[t, start] = made[t] - 1
        if (t in requested) rounds_since[t, start]++
    }
}

END {
    printf "%s: the budget of %d step%s is used up, and the run could go on\n", file, budget, budget == 1 ? "" : "s"
    half = int(steps / 2)
    for (i = half + 1; i <= steps; i++) if (++share[thread_at[i]] > share[busiest]) busiest = thread_at[i]
    start = innermost(busiest)
    if (start) show_loop(start)
    else show_function()
}

# The innermost loop that the thread was in for at least half of its share of the steps: of these loops the one that it
# entered last.
function innermost(t,   name, i, start, best, inside) {
    for (name in loops_in) for (i = 1; i <= loops_in[name]; i++) {
        start = loop[name, i]
        inside = made[t] - outside[t, start]
        if (rounds[t, start] < 2 || 2 * inside < share[t]) continue
        if (!best || inside < steps_in || inside == steps_in && start > best) { best = start; steps_in = inside }
    }
    return best
}

function show_loop(start) {
    printf "%s:%d: thread %s made its last %d steps in this loop, lines %d to %d\n", file, start, busiest, steps_in, start, end_of[start]
    show_line(start)
    show_request(busiest, start)
}

# Why a thread that went through the loop with a request pending did not act on it. At an optional point it may go on.
function show_request(t, start,   text) {
    if (rounds_since[t, start] < 2 || cancelability[t] ~ /asynchronous/) return
    text = on_request(t, cancelability[t], is_at_point[t] ? "" : "it came to no cancellation point in this loop")
    if (text == "") return
    print "  " text
    print (cancelability[t] ~ /^disable/ ? "pending_disabled" : "pending_loop") >ENVIRON["found"]
}

# The function with the most steps of the thread in the last half of the run.
function show_function(   i, name, best, count) {
    for (i = half + 1; i <= steps; i++) {
        if (thread_at[i] != busiest || !(i in function_at)) continue
        name = function_at[i]
        if (++count[name] > count[best]) best = name
    }
    if (best == "") return
    printf "%s:%d: thread %s made %d of the last %d steps in this function, and no loop has most of them\n", file, function_line[best], busiest, count[best], steps - half
    show_line(function_line[best])
}

function show_line(number,   text) {
    text = line[number]
    sub(/^[ \t]+/, "", text)
    printf "    %s\n", text
}
