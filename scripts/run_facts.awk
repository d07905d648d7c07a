# Functions of deadlock.awk, budget.awk and stop.awk: what the steps of a run did. They read the script, line by line, and the answer of
# `trace`. A thread is P.T here, and a mutex or a key of a process P has the key `P NAME`.

BEGIN { file = ENVIRON["file"] }

# ---- the script

# Remembers which functions unlock which mutexes.
function read_script(   word) {
    gsub(/\r/, " ")
    split($0, word, " ")
    if (word[1] == "fn") in_function = word[2]
    if (word[1] == "pthread_mutex_unlock") unlocks[in_function, word[2]] = 1
}

# ---- the steps

# Reads a line of the trace: `who` made the step, in `process`, at the statement `doing`.
function read_step(   field, events, event, i) {
    if (split($0, field, "\t") != 6) return
    steps = field[1]
    who = field[2]
    process = process_of(who)
    doing = field[4]
    where = field[3]
    if (where ~ /^[A-Za-z0-9_]+:[0-9]+$/) line_of[who] = substr(where, index(where, ":") + 1)
    else if (where !~ /^in /) line_of[who] = 0
    events = split(field[6], event, ", ")
    for (i = 1; i <= events; i++) note(event[i])
}

function process_of(t) { return substr(t, 1, index(t, ".") - 1) }

# The step that is read, with the thread that made it or without.
function this_step() { return "step " steps place(line_of[who]) }

function this_step_of() { return "step " steps ", thread " who place(line_of[who]) }

function place(line) { return line ? ", " file ":" line : "" }

# Remembers an event.
function note(text,   word) {
    split(text, word, " ")
    note_thread(word)
    note_end(word)
    note_wait(word)
    note_call(word)
    if (word[1] == "fork") note_fork(word[2])
    if (word[1] == "state") state_since[who] = this_step()
    if (word[1] == "type") type_since[who] = this_step()
    if (word[1] == "key") key_made[process " " word[2]] = this_step_of()
    if (word[1] == "key_delete") key_deleted[process " " word[2]] = this_step_of()
}

# Creations, joins, detaches and requests, by the thread that is named.
function note_thread(word,   other) {
    other = process "." word[2]
    if (word[1] == "create") {
        created[other] = this_step_of()
        if (word[3] == "detached") detached[other] = "created detached in " this_step_of()
    }
    if (word[1] == "joined") joined[other] = this_step_of()
    if (word[1] == "detach") detached[other] = "detached in " this_step_of()
    if (word[1] == "request" && !(other in requested)) requested[other] = "step " steps place(line_of[who])
    if (word[1] == "call" && word[2] == "pthread_join") join_began[who] = this_step()
}

# How threads and processes end. At the end of a thread it has the handlers that it had pushed.
function note_end(word,   i) {
    if (word[1] == "ending") {
        ending[who] = (word[2] == "canceled" ? "acted on a request in " : "began to end in ") this_step()
        is_canceled[who] = word[2] == "canceled"
        delete called[who]
        for (i = 1; i <= handlers[who]; i++) handlers_at_end[who] = handlers_at_end[who] " " pushed[who, i]
    }
    if (word[1] == "ended") ended[who] = steps
    if (word[1] == "exit" && !(process in exit_began)) exit_began[process] = this_step_of()
    if (word[1] == "exit") ending[who] = "began to exit the process in " this_step()
}

# The cleanup handlers of a thread, and the function that was called last without a `do`.
function note_call(word) {
    if (word[1] == "push") pushed[who, ++handlers[who]] = word[2]
    if (word[1] == "pop") handlers[who]--
    if (word[1] == "pop" && word[4] == "run") called[who] = "the handler " word[2] ", which a pop called in " this_step()
    if (word[1] == "handler") called[who] = "the cleanup handler " word[2] ", called in " this_step()
    if (word[1] == "once" && word[3] == "call") routine_called[who " " word[2]] = routine_in(doing) " in " this_step()
    if (word[1] == "at_exit") called[who] = "the exit function " word[2] ", called in " this_step()
    if (word[1] == "dtor") called[who] = "the destructor " word[4] ", called in " this_step()
}

# The init routine in the text of a pthread_once.
function routine_in(text,   word) {
    split(text, word, " ")
    return word[3]
}

# Mutexes, condition variables and semaphores.
function note_wait(word,   key) {
    key = process " " word[2]
    if (word[1] == "acquire") {
        owner[key] = who
        acquired[who " " word[2]] = this_step()
    }
    if (word[1] == "release") {
        delete owner[key]
        released[key] = this_step_of()
    }
    if (word[1] == "call" && word[2] ~ /^pthread_cond_(timed)?wait$/) began[who] = steps
    if (word[1] == "post") posted[key] = this_step_of()
    if (word[1] != "signal" && word[1] != "broadcast") return
    signaled[key] = this_step_of()
    if (word[3] != 0) return
    lost[key] = this_step_of()
    lost_name[key] = word[1]
}

# A child has the mutexes of its parent, with their owners, and one thread, that forked.
function note_fork(child,   key, part) {
    parent_of[child] = process
    forked[child] = this_step_of()
    others_at_fork[child] = others_of(process)
    for (key in owner) {
        split(key, part, " ")
        if (part[1] == process) inherited[child " " part[2]] = child "." substr(owner[key], index(owner[key], ".") + 1)
    }
    for (key in inherited) if (index(key, child " ") == 1) owner[key] = inherited[key]
}

# The threads of a process, but for the one that makes the step, that have not ended.
function others_of(p,   t, all) {
    if (who != p ".1" && !(p in parent_of) && !((p ".1") in ended)) all = " " p ".1"
    for (t in created) if (process_of(t) == p && t != who && !(t in ended)) all = all " " t
    return all
}

# ---- sentences

# Why a thread does not act on its request, from the field of `choices` on its cancelability, or nothing. `why_enabled` is the cause
# if the state is enable.
function on_request(t, cancelability, why_enabled,   text) {
    if (cancelability !~ /request pending$/ || t in ending) return ""
    text = "A request is pending for thread " t (t in requested ? " since " requested[t] : "")
    if (cancelability ~ /^disable/) return text ": its cancelability is disabled" (t in state_since ? ", since " state_since[t] : "") "."
    return why_enabled == "" ? "" : text ": " why_enabled "."
}

# The newest handler that a thread had at its end and that has an unlock of a mutex, or nothing.
function unlocking_handler(t, m,   name, i) {
    for (i = split(handlers_at_end[t], name, " "); i > 0; i--) if ((name[i], m) in unlocks) return name[i]
    return ""
}

function on_handlers(t, m,   handler) {
    if (handlers_at_end[t] == "") return "it had pushed no handler"
    handler = unlocking_handler(t, m)
    return handler == "" ? "no handler that it had pushed unlocks " m : "its handler " handler " has an unlock of " m
}
