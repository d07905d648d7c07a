# Says of a deadlock what each thread waits for, and what would have ended the wait. It reads the script and the answers of
# `trace` and of `choices`. In the environment `file` is the name of the script, and `found` a file that gets the name of a cause, if
# one was found. run_facts.awk has the events that explanations use.

BEGIN { most = 10 }
FNR == 1 { input++ }
input == 1 { read_script() }
input == 2 { read_step() }

# ---- the threads that have not ended

input == 3 && split($0, field, "\t") == 6 {
    t = field[1]
    thread[++threads] = t
    is_here[t] = 1
    line_of[t] = field[2] == "-" ? 0 : substr(field[2], index(field[2], ":") + 1)
    statement[t] = field[3]
    wait = field[4]
    sub(/^.*waits for /, "", wait)
    wait_of[t] = wait
    cancelability[t] = field[5]
    if (match(wait, /(held|called) by /)) next_of[t] = substr(wait, RSTART + RLENGTH)
    else if (wait ~ /^thread /) { next_of[t] = substr(wait, 8); is_joined[next_of[t]] = 1 }
}
END {
    printf "%s: deadlock after %d step%s: no thread can go on, and %d ha%s not ended\n", file, steps, steps == 1 ? "" : "s", threads, threads == 1 ? "s" : "ve"
    for (i = 1; i <= threads && i <= most; i++) show(thread[i])
    if (threads > most) printf "  and %d more\n", threads - most
    show_cycle()
    for (i = 1; i <= threads; i++) find_cause(thread[i])
    if (cause != "") print cause >ENVIRON["found"]
}

function show(t,   reason) {
    printf "%s: thread %s waits for %s: %s\n", file (line_of[t] ? ":" line_of[t] : ""), t, wait_of[t], statement[t]
    reason = reason_of(t, wait_of[t])
    if (reason != "") printf "    %s\n", reason
    reason = pending_at(t)
    if (reason != "") printf "    %s\n", reason
}

function pending_at(t) {
    return on_request(t, cancelability[t], statement[t] ~ /^pthread_(mutex_lock|once) / ? call_of(statement[t]) " is no cancellation point" : "")
}

function call_of(text) { return substr(text, 1, index(text, " ") - 1) }

# Why nothing ends a wait.
function reason_of(t, wait,   word, key) {
    if (is_timed(t)) return "a schedule of format 1 has no \047expire\047: under it the time of no wait expires"
    split(wait, word, " ")
    if (word[1] == "mutex") return on_mutex(t, mutex_of(wait), next_of[t])
    if (word[1] == "once") return on_once(t, control_of(wait), next_of[t])
    if (word[1] == "condition") return on_condition(t, word[3], process_of(t) " " word[3])
    if (word[1] == "semaphore") {
        key = process_of(t) " " word[2]
        return key in posted ? "the last sem_post " word[2] ": " posted[key] "; no count is left" : "no sem_post " word[2] " was made in this process"
    }
    if (word[1] == "a") return "nothing ends this wait: scripts have no signals"
    return ""
}

# Whether a thread is in a wait whose time has not expired. Under format 2 it is no deadlock, since the time may expire.
function is_timed(t) { return statement[t] ~ /^(pthread_cond|sem)_timedwait / && wait_of[t] ~ /^(condition|semaphore) / }

function mutex_of(wait,   word) {
    split(wait, word, " ")
    sub(/,$/, "", word[2])
    return word[2]
}

function control_of(wait,   word) {
    split(wait, word, " ")
    sub(/,$/, "", word[3])
    return word[3]
}

# The thread whose step made a thread the one that has a mutex or a once control. A child has those of its parent.
function maker(t, name, made,   part) {
    split(t, part, ".")
    while (!(part[1] "." part[2] " " name in made) && part[1] in parent_of) part[1] = parent_of[part[1]]
    return part[1] "." part[2]
}

# When the owner of a mutex acquired it, and why it does not unlock it.
function on_mutex(t, m, owner,   holder, text) {
    holder = maker(owner, m, acquired)
    text = "thread " owner (owner == t ? " itself" : "")
    if (holder " " m in acquired) text = text " acquired " m " in " acquired[holder " " m]
    if (holder != owner) text = text ", before the fork"
    if (owner == t) return text ": a second lock waits for its own unlock"
    if (owner in is_here) return text
    if (!(owner in ended)) return text ", and the process has no such thread: it was forked with the mutex locked"
    if (!is_canceled[owner]) return text ", and ended in step " ended[owner] " without an unlock"
    return text ", " ending[owner] ", and ended in step " ended[owner] " without an unlock: " on_handlers(owner, m)
}

# When the init routine of a once control was called, and why it does not return.
function on_once(t, o, caller,   at, text) {
    at = maker(caller, o, routine_called)
    text = "thread " caller (caller == t ? " itself" : "") " called the init routine"
    if (at " " o in routine_called) text = text " " routine_called[at " " o]
    if (at != caller) text = text ", before the fork"
    if (caller == t) return text ": pthread_once on " o " in its own routine waits for the return of the routine"
    return text ", and " (ending[caller] ~ /^began to exit/ ? ending[caller] : "it has not returned")
}

# The calls for a condition variable that could have ended a wait.
function on_condition(t, c, key,   text) {
    if (!(key in signaled)) return "no signal and no broadcast of " c " was made in this process"
    if (key in lost) text = "the last " lost_name[key] " of " c " that found no thread: " lost[key]
    else text = "each signal and broadcast of " c " unblocked another wait; the last: " signaled[key]
    return text (t in began ? ". This wait began in step " began[t] : "")
}

# A cycle of threads, each of which waits for the next one.
function show_cycle(   i, t, seen, start, text) {
    for (i = 1; i <= threads && start == ""; i++) {
        split("", seen)
        for (t = thread[i]; t in next_of && !(t in seen); t = next_of[t]) seen[t] = 1
        if (t in seen) start = t
    }
    if (start == "" || next_of[start] == start) return
    text = "thread " start
    for (t = next_of[start]; t != start; t = next_of[t]) text = text " waits for " t ", which"
    printf "  Cycle: %s waits for %s.\n", text, start
}

# ---- the cause, by the name that docs/reasons.txt has. The first one of these holds, of any thread.

function find_cause(t,   found, held_by, called_by) {
    held_by = wait_of[t] ~ /^mutex / ? next_of[t] : ""
    called_by = wait_of[t] ~ /^once / ? next_of[t] : ""
    if (is_timed(t)) found = "no_expiry"
    else if (held_by == t) found = "own_lock"
    else if (held_by in ended && !is_canceled[held_by]) found = "ended_owner"
    else if (held_by in ended) found = unlocking_handler(held_by, mutex_of(wait_of[t])) == "" ? "canceled_owner" : ""
    else if (called_by == t) found = "own_routine"
    else if (called_by != "" && t in is_joined && pending_at(t) != "") found = "pending_once"
    else if (t in is_joined && pending_at(t) != "") found = cancelability[t] ~ /^disable/ ? "pending_disabled" : "pending_lock"
    else if (wait_of[held_by] ~ /^(semaphore|condition) /) found = "waiting_owner"
    else if (wait_of[called_by] ~ /^(semaphore|condition) / || wait_of[called_by] ~ /^(mutex|thread) / && is_in_cycle(t)) found = "waiting_routine"
    else if (wait_of[t] ~ /^condition / && !(process_of(t) " " substr(wait_of[t], 20) in signaled)) found = "no_signal"
    if (found != "" && (cause == "" || rank(found) < rank(cause))) cause = found
}

# Whether a thread waits for others that wait for it.
function is_in_cycle(t,   next_one, seen) {
    for (next_one = next_of[t]; next_one != t && next_one in next_of && !(next_one in seen); next_one = next_of[next_one]) seen[next_one] = 1
    return next_one == t
}

function rank(name) { return index("no_expiry canceled_owner ended_owner own_lock own_routine pending_lock pending_disabled pending_once waiting_owner waiting_routine no_signal", name) }
