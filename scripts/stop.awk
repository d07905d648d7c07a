# Says of a run that was stopped what the operand was, and which step before matters for the stop. It reads the script, the answers
# of `trace` and of `choices`, and that of `states` before the last step, which may be empty. `stop` is the name of the stop. In the
# environment `found` is a file that gets a word if something was said. run_facts.awk has the events that explanations use.

FNR == 1 { input++ }
input == 1 { read_script() }
input == 2 { read_step() }

# What a thread is in, and its locals; the globals of its process.
input == 3 && split($0, field, "\t") == 6 { is_in[field[1]] = field[4] }
input == 4 && split($0, field, "\t") == 5 && field[1] == who { frames = field[3] }
input == 4 && split($0, field, "\t") == 6 && field[1] == process { globals = field[2] }

END {
    words = split(doing, word, " ")
    sentence = sentence_on(stop)
    if (sentence == "") exit
    print "  " toupper(substr(sentence, 1, 1)) substr(sentence, 2) "."
    print "history" >ENVIRON["found"]
}

function sentence_on(stop) {
    if (stop == "thread_id") return on_number(word[2])
    if (stop == "join_self") return quoted(word[2]) " is the number of the calling thread, " who
    if (stop == "not_joinable") return on_detached(process "." value_of(word[2]))
    if (stop ~ /^(join_twice|detach_joined)$/) return on_joiner(value_of(word[2]))
    if (stop == "key_id") return on_key(word[1] == "pthread_getspecific" ? word[3] : word[2])
    if (stop == "not_owner") return on_owner(word[1] == "pthread_mutex_unlock" ? word[2] : word[words])
    if (stop == "cond_two_mutexes") return on_other_wait(word[words - 1])
    if (stop == "async_call") return "the cancelability type of thread " who " is asynchronous since " type_since[who]
    if (stop == "enable_in_handler") return who in called ? "thread " who " is in " called[who] : ""
    if (stop ~ /^(exit|fork)_in_ending$/) return who in ending ? "thread " who " " ending[who] (who in called ? ", and is in " called[who] : "") : ""
    if (stop == "exit_twice") return process in exit_began ? "exit began in process " process " in " exit_began[process] : ""
    if (stop == "fork_child_call") return on_fork(process)
    return ""
}

# ---- operands

# The value of an operand before the step: a number, or that of a local of the newest frame or of a global. Nothing without `states`.
function value_of(w,   value) {
    if (w ~ /^[0-9]+$/) return w
    value = value_in(frames, w, 2)
    return value == "" ? value_in(globals, w, 1) : value
}

# The value of a name in a field of `states`. A frame is its function, and then names and values; globals are each a name and a value.
function value_in(text, name, from,   part, parts, i) {
    if (from == 2) sub(/,.*/, "", text)
    gsub(/,/, "", text)
    parts = split(text, part, " ")
    for (i = from; i < parts; i += 2) if (part[i] == name) return part[i + 1]
    return ""
}

function quoted(w) { return w ~ /^[0-9]+$/ ? w : "'" w "'" }

# The beginning of a sentence on an operand whose value is known: nothing for a number.
function on_value(w, n) { return w == n ? "" : quoted(w) " is " n ": " }

# ---- threads

function on_number(w,   n, t, text) {
    n = value_of(w)
    if (n == "") return ""
    t = process "." n
    text = on_value(w, n)
    if (t in joined) return text "thread " t " was joined in " joined[t] on_others()
    if (t in ended) return text "thread " t " was " detached[t] ", and ended in step " ended[t]
    if (was_in_parent(n)) return text "thread " n " is one of a parent, and child " process " has the thread alone that forked"
    return text "no thread of process " process " ever had this number"
}

function was_in_parent(n,   p) {
    for (p = parent_of[process]; p != ""; p = parent_of[p]) if (n == 1 || (p "." n) in created) return 1
    return 0
}

# The threads that may have been meant: those that were neither joined nor detached.
function on_others(   t, all) {
    if (word[1] != "pthread_join") return ""
    for (t in created) if (t != who && process_of(t) == process && !(t in joined) && !(t in detached)) all = all (all == "" ? "" : ", ") t
    return all == "" ? "" : "; not joined: " all
}

function on_detached(t) {
    return t in detached ? "thread " t " was " detached[t] : ""
}

# The thread that joins thread n, or, if n is not known, the one that is in a join.
function on_joiner(n,   t, found) {
    for (t in is_in) {
        if (t == who || process_of(t) != process || is_in[t] !~ /^in pthread_join /) continue
        if (n == "" && found != "") return ""
        if (n == "" || (is_in[t] " ") ~ "^in pthread_join " n "[ ,]") found = t
    }
    return found == "" ? "" : "thread " found " is in this join since " join_began[found]
}

function on_fork(p) {
    if (!(p in forked)) return ""
    return "process " p " was forked in " forked[p] (others_at_fork[p] == "" ? "" : ", and of the threads of its parent had not ended:" others_at_fork[p])
}

# ---- keys, mutexes and condition variables

function on_key(w,   n, p, text) {
    n = value_of(w)
    if (n == "") return ""
    text = on_value(w, n)
    for (p = process; p != ""; p = parent_of[p]) if ((p " " n) in key_deleted) return text "key " n " was deleted in " key_deleted[p " " n]
    return text "no key of process " process " had this number up to here"
}

function on_owner(m,   key, holder) {
    key = process " " m
    if (key in owner) {
        holder = owner[key]
        return "mutex " m " is owned by thread " holder ((holder " " m) in acquired ? ", which acquired it in " acquired[holder " " m] : "")
    }
    if (key in released) return "mutex " m " has no owner: it was released in " released[key]
    return "mutex " m " has no owner: no thread of process " process " has locked it"
}

function on_other_wait(c,   t) {
    for (t in is_in) if (t != who && process_of(t) == process && (is_in[t] ",") ~ "^in pthread_cond_(timed)?wait " c " " && is_in[t] !~ /unblocked|acts/)
        return "thread " t " is " is_in[t] " since step " began[t]
    return ""
}
