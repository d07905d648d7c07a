# Functions of refused_word.awk: which fault of docs/forms.txt a word is, and the text of its mend for the refused line.

# Remembers the fault and its word. A fault without a name has a sentence that is enough. Returns nothing, before the sentence.
function known(name, w) {
    is_known = 1
    fault = name
    culprit = w
    return ""
}

# ---- faults

# Of an operator, or a word with one: a comparison in an `if` or a `while`, an assignment, or an expression. It finds the sides.
function fault_of_operator(w,   sign) {
    sign = sign_in(w)
    if (word[1] == "global" && words == 4 && w == "=") return "with_value"
    if (word[1] ~ /^(set|add)$/ && words == 4 && w == "=") return "equals_sign"
    if (keyword() !~ /^(if|while)$/ || sign !~ /^(==|!=|<=|>=|<|>)$/) return "operator"
    return fault_of_comparison(keyword() == "while", sign)
}

function fault_of_comparison(is_loop, sign) {
    find_sides()
    if (number == 0 && sign ~ /^(!=|>)$/) return "not_zero"
    if (number == 0 && sign == "==" && !is_loop) return "zero"
    if (sign ~ /^[!=]=$/ && !is_loop) return "equal"
    if (sign ~ /^[!=]=$/) return sign == "!=" ? "differ_loop" : "equal_loop"
    if (!is_loop || sign ~ /^>/) return "order"
    if (sign == "<=") number++
    return "order_loop"
}

# The first word without the syntax of C.
function keyword() { return keyword_of(word[1]) }

function keyword_of(w) {
    sub(/[^A-Za-z0-9_].*$/, "", w)
    return w
}

function rest_of_line(   i, all) {
    for (i = 2; i <= words; i++) all = all (i == 2 ? "" : " ") word[i]
    return all
}

function sign_in(w) {
    return match(w, /==|!=|<=|>=|<|>|=/) ? substr(w, RSTART, RLENGTH) : ""
}

# The two sides of the comparison in the line, or others as an example.
function find_sides(   all, side) {
    variable = "v"
    number = 3
    all = word[1] " " rest_of_line()
    sub(/^[a-z]+/, "", all)
    gsub(/[ (){};]/, "", all)
    if (split(all, side, /==|!=|<=|>=|<|>/) != 2) return
    if (is_name(side[1]) && is_number(side[2])) { variable = side[1]; number = side[2] + 0 }
    if (is_name(side[2]) && is_number(side[1])) { variable = side[2]; number = side[1] + 0 }
}

function fault_of_address(w,   i) {
    for (i = 2; i <= words && word[i] != w; i++);
    return place_of(i) == "V" ? "address_value" : "address"
}

function fault_of_syntax(   i) {
    for (i = 2; i <= words; i++) if (is_operator(word[i]) && keyword() ~ /^(if|while)$/) return fault_of_operator(word[i])
    if (word[1] ~ /^pthread_create[^A-Za-z0-9_]/) return "pthread_create"
    if (is_timed()) return "timed_wait"
    return plain_line() == "" ? "form" : "syntax"
}

# Of a number of words that no form has.
function fault_of_count(w,   i, part, parts) {
    if (w == "sem" && words == 2) return keep("missing_count")
    if (w == "fn" && words == 2) return keep("missing_parameter")
    if (w == "once" && words == 3 && open) return keep("once_call")
    if (w ~ /^pthread_once$/ && words == 2) return keep("missing_routine")
    if (w == "pthread_create" && words == 4) return keep(word[3] in declared ? "create_result" : "pthread_create")
    if (is_timed()) return keep("timed_wait")
    for (i = 1; i <= forms[w]; i++) {
        parts = split(form[w, i], part, " ")
        if (parts != words + 1) continue
        if (part[parts] == "DEST") return keep("missing_result")
        if (parts == 2 && part[parts] == "V") return keep("missing_value")
    }
    return ""
}

function keep(name) {
    known(name, word[1])
    return name
}

# Of a name that is not declared as a kind.
function fault_of_name(w, kind,   other) {
    if (first[line_declaring(w)] == "fn" && word[1] ~ /^pthread_(join|detach|cancel)$/) return "thread_name"
    if (is_timed() && kind != "function" && first[line_declaring(w)] ~ /^(mutex|cond|sem|once)$/) return "timed_wait"
    if (word[1] == "pthread_cond_wait" && first[line_declaring(word[2])] == "mutex" && first[line_declaring(word[3])] == "cond") return "other_order"
    if (word[1] ~ /^pthread_once$/ && first[line_declaring(word[2])] == "fn" && first[line_declaring(word[3])] == "once") return "other_order"
    if (w in declared) return ""
    if (w in local_in) return kind == "variable" ? "local_elsewhere" : ""
    for (other in declared) if (tolower(other) == tolower(w)) return ""
    if (kind == "condition variable") return "undeclared_cond"
    if (kind == "semaphore") return "undeclared_sem"
    if (kind == "once control") return "undeclared_once"
    return "undeclared_" (kind == "function" ? "fn" : kind)
}

function is_timed() { return keyword_of(word[1]) ~ /^(pthread_cond|sem)_timedwait$/ }

# ---- the line as it should be

# The refused line without the syntax of C, if that is a statement.
function plain_line(   all, part, parts, i, line) {
    all = word[1] (words > 1 ? " " rest_of_line() : "")
    gsub(/[(),;]/, " ", all)
    gsub(/&/, "", all)
    parts = split(all, part, " ")
    for (i = 1; i <= forms[part[1]] && line == ""; i++) line = line_in_form(form[part[1], i], part, parts)
    return line
}

# Words as a line of this form, or nothing.
function line_in_form(its, part, parts,   place, i, line, w) {
    if (split(its, place, " ") != parts) return ""
    line = part[1]
    for (i = 2; i <= parts; i++) {
        w = part[i]
        if (w == "NULL") w = place[i] == "V" ? 0 : "-"
        if (place[i] ~ /^[a-z]+$/) {
            if (tolower(w) != place[i] && tolower(w) != "pthread_cancel_" place[i]) return ""
            w = place[i]
        } else if (!is_accepted(w, place[i])) return ""
        line = line " " w
    }
    return line
}

# The line of a wait with a time, by the names in it that are declared, and others as an example.
function timed_line(   all, part, parts, i, name) {
    all = word[1] " " rest_of_line()
    gsub(/[^A-Za-z0-9_]/, " ", all)
    parts = split(all, part, " ")
    for (i = parts; i > 1; i--) name[first[line_declaring(part[i])]] = part[i]
    for (i = parts; i > 1; i--) if (is_declared(part[i], "DEST") && !is_number(part[i])) name["result"] = part[i]
    all = part[1] " " ("result" in name ? name["result"] : "-")
    if (part[1] == "sem_timedwait") return all " " ("sem" in name ? name["sem"] : "s")
    return all " " ("cond" in name ? name["cond"] : "c") " " ("mutex" in name ? name["mutex"] : "m")
}

# The line of an assignment, or nothing.
function assignment_line(   all, name, value) {
    all = word[1] rest_of_line()
    gsub(/ |;$/, "", all)
    name = all
    sub(/[^A-Za-z0-9_].*$/, "", name)
    value = substr(all, length(name) + 1)
    if (value == "++") return "add " name " 1"
    if (value == "--") return "add " name " 4294967295"
    if (value !~ /^([+-]|:)?=[A-Za-z0-9_]+$/) return ""
    sub(/^([+-]|:)?=/, "", value)
    if (all ~ /\+=/) return "add " name " " value
    if (all ~ /-=/) return is_number(value) ? "add " name " " minus(value) : ""
    return "set " name " " value
}

# 2^32 less a number, modulo 2^32.
function minus(n) { return sprintf("%.0f", n == 0 ? 0 : 4294967296 - n) }

# The line with its negative number modulo 2^32, or its words as they are.
function line_of_words(   i, all) {
    for (i = 1; i <= words; i++) all = all (i == 1 ? "" : " ") (fault == "negative" && word[i] == culprit ? minus(-culprit) : word[i])
    return all
}

function mended_line() {
    if (fault == "assignment") return assignment_line()
    if (fault == "timed_wait") return timed_line()
    return fault == "syntax" ? plain_line() : line_of_words()
}

# ---- the text

# The text of a mend with the words of the line. It is empty if one of them is.
function filled(text,   i) {
    for (i = 1; i <= 9; i++) text = put(text, "{" i "}", word[i])
    text = put(text, "{word}", culprit)
    text = put(text, "{name}", name_in(culprit))
    text = put(text, "{line}", mended_line())
    text = put(text, "{fn}", second[function_at])
    text = put(text, "{variable}", variable)
    text = put(text, "{number}", number)
    return put(text, "{minus}", minus(number))
}

function name_in(w) {
    gsub(/[^A-Za-z0-9_]/, "", w)
    return w
}

function put(text, key, value,   at_key) {
    if (index(text, key) && value == "") return ""
    while (at_key = index(text, key)) text = substr(text, 1, at_key - 1) value substr(text, at_key + length(key))
    return text
}
