# Says of a refused line of a script which word, or which other line, the refusal is about, and how to mend it where that is
# known. It reads docs/forms.txt and then the script. `at` and `why` are of the answer `refused script LINE WHY`. The status is 1
# if there is no way to mend it here. mend_word.awk has the functions on the mend.

# ---- docs/forms.txt

FNR == NR && $1 == "limit" { limit[$2] = $3; next }
FNR == NR && $1 == "mend" {
    name_of_fault = substr($2, 1, length($2) - 1)
    mend[name_of_fault] = substr($0, index($0, ": ") + 2)
    next
}
FNR == NR && $1 == "point" { for (i = 2; i <= NF; i++) is_point[$i] = 1; next }
FNR == NR && $1 == "-" {
    colon = index($0, ": ")
    names = split(substr($0, 3, colon - 3), name_of_note, " ")
    for (i = 1; i <= names; i++) note[name_of_note[i]] = substr($0, colon + 2)
    next
}
FNR == NR {
    if (NF && $1 !~ /^#/) form[$1, ++forms[$1]] = $0
    next
}

# ---- the script

# A script has far fewer lines than 10000 that are not empty. Of a text with more the others do not matter.
{
    gsub(/\r/, " ")
    $0 = $0
    if (!NF || $1 ~ /^#/ || lines >= 10000 && FNR != at) next
    line_of[++lines] = FNR
    text[FNR] = $0
    first[FNR] = $1
    second[FNR] = $2
}
END {
    for (n = 1; n <= lines; n++) survey(line_of[n])
    words = split(text[at], word, " ")
    sentence = sentence_on(word[1])
    if (sentence != "") show_mended(sentence)
    exit !is_known
}

# What a line declares, opens and closes. Of the refused line: what is open there.
function survey(line,   parts, part, i) {
    if (line == at) note_position()
    if (first[line] == "fn" || is_declaration(first[line])) {
        counted[first[line]]++
        if (!(second[line] in declared)) declared[second[line]] = line
    }
    if (first[line] == "fn") {
        parts = split(text[line], part, " ")
        for (i = 3; i <= parts; i++) {
            is_local[line, part[i]] = 1
            if (!(part[i] in local_in)) local_in[part[i]] = line
        }
        function_line = line
    } else if (depth) statements++
    if (line == at) function_at = function_line
    if (first[line] ~ /^(fn|if|while|pthread_cleanup_push)$/) opener[++depth] = line
    if (first[line] == "else") else_of[opener[depth]] = line
    if (first[line] ~ /^(end|pthread_cleanup_pop)$/ && depth) {
        if (first[line] == "end") { last_end = line; ended_by_last = opener[depth] }
        depth--
    }
    if (line == at) { count_at = counted[first[line]]; statements_at = statements }
}

function note_position(   i) {
    open = depth ? opener[depth] : 0
    open_push = 0
    for (i = depth; i > 0 && !open_push; i--) if (first[opener[i]] == "pthread_cleanup_push") open_push = opener[i]
    open_function = depth ? opener[1] : 0
    end_before = last_end
    closed_before = ended_by_last
    else_before = else_of[open]
}

function sentence_on(w) {
    if (why == "unknown_word") return w in forms ? on_argument() : on_keyword(w)
    if (why == "word_count") return on_count(w)
    if (why == "bad_name" || why == "bad_number") return on_argument()
    if (why == "unknown_name") return on_unknown_name()
    if (why == "misplaced") return open ? on_open_function() : on_no_function()
    if (why == "stray_end") return on_stray_end(w)
    if (why == "pop_unmatched") return on_pop()
    if (why == "unclosed") return on_unclosed(w)
    if (why == "name_twice") return on_name_twice()
    if (why == "too_many") return on_too_many(w)
    if (why == "return_in_push") return "The push of line " open_push " is open here."
    if (why == "not_plain") return on_not_plain()
    if (why == "no_main") return on_no_main()
    return ""
}

# ---- words

function quoted(w) { return "'" w "'" }

# The line that declares a name outside functions, or 0.
function line_declaring(w) { return w in declared ? declared[w] : 0 }

# Whether a word begins a declaration of one line.
function is_declaration(w) { return w ~ /^(global|mutex|cond|sem|once)$/ }

function is_name(w) { return w ~ /^[A-Za-z_][A-Za-z0-9_]*$/ && length(w) <= 31 }

function is_number(w) { return w ~ /^[0-9]+$/ && length(w) <= 10 && w + 0 <= 4294967295 }

# The form of the refused line: the first with as many words and the same fixed words, or else with as many words.
function its_form(   i, k, parts, part, is_same, best) {
    for (i = forms[word[1]]; i >= 1; i--) {
        parts = split(form[word[1], i], part, " ")
        is_same = parts == words
        for (k = 2; k <= parts; k++) if (part[k] ~ /^[a-z]+$/ && part[k] != word[k]) is_same = 0
        if (is_same) return form[word[1], i]
        if (parts == words) best = form[word[1], i]
    }
    return best == "" ? form[word[1], 1] : best
}

function all_forms(w,   i, all) {
    all = quoted(form[w, 1])
    for (i = 2; i <= forms[w]; i++) all = all " or " quoted(form[w, i])
    return all
}

# The word of each form at this place, as in `'enable' or 'disable'`.
function choices_at(w, place,   i, part, all) {
    for (i = 1; i <= forms[w]; i++)
        if (split(form[w, i], part, " ") >= place) all = all (all == "" ? "" : " or ") quoted(part[place])
    return all
}

# The place of a word in the form of the refused line: for `fn` all after the name are locals.
function place_of(i,   part, parts) {
    parts = split(its_form(), part, " ")
    return word[1] == "fn" ? (i == 2 ? "NAME" : "LOCAL") : i <= parts ? part[i] : ""
}

function meaning_of(place) {
    if (place == "V") return "V, a number or the name of a variable"
    if (place == "N") return "N, a number from 0 to 32767"
    if (place == "VAR") return "VAR, the name of a variable"
    if (place == "DEST") return "DEST, the name of a variable, or '-' to drop the result"
    if (place == "FN") return "FN, the name of a function"
    if (place == "FN?") return "FN?, the name of a function, or '-' for none"
    if (place == "M") return "M, the name of a mutex"
    if (place == "C") return "C, the name of a condition variable"
    if (place == "S") return "S, the name of a semaphore"
    if (place == "O") return "O, the name of a once control"
    return "a name"
}

function is_accepted(w, place) {
    if (place == "V") return is_number(w) || is_name(w)
    if (place == "N") return is_number(w) && w + 0 <= 32767
    if (place == "DEST" || place == "FN?") return w == "-" || is_name(w)
    if (place ~ /^[A-Z]+$/) return is_name(w)
    return index(choices_at(word[1], 2), quoted(w)) || w == place
}

# ---- sentences on words

function is_operator(w) { return w ~ /^(==|!=|<|>|<=|>=|=|\+|\*|\/|%|&&|\|\||!.*|\+=|-=)$/ }

# What a word is that another language has, or nothing.
function on_habit(w) {
    if (w ~ /["']/) return known("string", w) quoted(w) " is a string or a part of one. There are no strings: 'emit V' takes a number or a variable."
    if (w ~ /^(#|\/\/|\/\*)/) return known("comment", w) "A comment is a line of its own: there is none after a statement."
    if (is_operator(w))
        return known(fault_of_operator(w), w) quoted(w) " is an operator, and there are no expressions: V is one number or one variable, and counts as true if it is not 0."
    if (w ~ /^[A-Za-z0-9_]+(==|!=|<|>|=|\+|\*|\/|%)/)
        return known(fault_of_operator(w), w) quoted(w) " is an expression, and there are none: V is one number or one variable, and counts as true if it is not 0."
    if (w ~ /^[{}]/ || w ~ /[{}]$/) return known("brace", w) "There are no braces: 'end' closes a function, an 'if' and a 'while'."
    if (w ~ /^&./) return known(fault_of_address(w), w) quoted(w) " has the '&' of C: a statement has the name of the variable alone."
    if (w ~ /[(),;]/) return known(fault_of_syntax(), w) quoted(w) " has the syntax of C: words are separated by blanks, without brackets, commas and semicolons."
    return ""
}

function on_count(w,   i, sentence, all) {
    if (w in is_point) return known("point_argument", w) quoted(w) " is a cancellation point, called by its name alone, without arguments. " note[w]
    fault = fault_of_count(w)
    for (i = 2; i <= words && sentence == ""; i++) sentence = on_habit(word[i])
    all = "Its form is " all_forms(w) ", and " count_after(w) "."
    if (form[w, 1] ~ /DEST/) all = all " DEST is a variable, or '-' to drop the result."
    return all (sentence == "" ? "" : " " sentence)
}

function count_after(w) {
    if (words == 1) return "no word is after it"
    return words == 2 ? "1 word is after " quoted(w) : (words - 1) " words are after " quoted(w)
}

function on_argument(   i, w, place, habit) {
    for (i = 2; i < words && is_accepted(word[i], place_of(i)); i++);
    w = word[i]
    place = place_of(i)
    if (w ~ /^-[0-9]+$/) return known("negative", w) quoted(w) " is a negative number, and there are none" (w > -4294967296 ? sprintf(": modulo 2^32 it is %.0f.", 4294967296 + w) : ".")
    if (why == "bad_number" && w ~ /^[0-9]+$/) return known("", w) quoted(w) " is above " (place == "N" ? "32767" : "4294967295") ", the largest number here."
    if (length(w) > 31 && w ~ /^[A-Za-z_][A-Za-z0-9_]*$/) return known("", w) quoted(w) " has " length(w) " bytes, and a name has at most 31."
    if (place !~ /^[A-Z]+[?]?$/) return known(w == "joinable" ? w : plain_line() == "" ? "one_of" : "syntax", w) quoted(w) " is in the place of " choices_at(word[1], i) "."
    habit = on_habit(w)
    if (habit != "") return habit
    if (is_timed()) known("timed_wait", w)
    return quoted(w) " is in the place of " meaning_of(place) "."
}

# A word that begins no line.
function on_keyword(w,   base, names, i, prefix) {
    if (w ~ /.%%$/) return known("line_end", w) "The script's last line has no line end, so %% is not a line of its own."
    if (w in note) return known("", w) quoted(w) ": " note[w]
    if (first[line_declaring(w)] == "fn") return on_function(w, words > 1 && (is_number(word[2]) || is_name(word[2])) ? word[2] : 0)
    if (w ~ /^(\/\/|\/\*|;|--)/) return known("", w) "A comment is a line that begins with '#'."
    base = w
    sub(/[^A-Za-z0-9_].*$/, "", base)
    if (base != w && base != "") return on_base(w, base)
    base = tolower(w)
    if (base in forms) return known("lower_case", w) "It is " all_forms(base) ", in lower case."
    if (base in is_point) return known("lower_case", w) "It is " quoted(base) ", in lower case."
    if (word[2] ~ /^([+*\/-]?=|:=|\+\+|--)/) return on_assignment(w)
    names = split("pthread_ pthread_mutex_ pthread_cond_ pthread_cleanup_ sem_", prefix, " ")
    for (i = 1; i <= names; i++) if ((prefix[i] base) in forms) return known("whole_name", w) "Is it " all_forms(prefix[i] base) "?"
    if (w ~ /^["']/) return on_habit(w)
    return quoted(w) " begins no declaration and no statement."
}

function on_assignment(w) {
    return known("assignment", w) "There is no assignment as in C: 'set " w " V' gives " w " the value V, and 'add " w " V' adds V to it."
}

function on_function(w, value) {
    return known("", w) quoted(w) " is a function of this script, line " declared[w] ": 'do " w " " value "' calls it."
}

# A word that begins with a word of the language or of the script and goes on as in C.
function on_base(w, base) {
    if (w ~ /=/ || w ~ /(\+\+|--);?$/) return on_assignment(base)
    if (base in forms) return known(fault_of_syntax(), w) quoted(w) " has the syntax of C: it is " all_forms(base) ", without brackets, commas and semicolons."
    if (base in note) return known("", w) quoted(base) ": " note[base]
    if (base in is_point) return known("", w) quoted(w) " has the syntax of C: a cancellation point is called by its name alone, " quoted(base) "."
    if (first[line_declaring(base)] == "fn") return on_function(base, "V")
    return quoted(w) " has the syntax of C, and " quoted(base) " begins no declaration and no statement."
}

# ---- sentences on names

function kind_of_line(line) {
    if (first[line] == "cond") return "condition variable"
    if (first[line] == "sem") return "semaphore"
    if (first[line] == "once") return "once control"
    return first[line] == "fn" ? "function" : first[line]
}

# The kind of declaration that a place needs.
function kind_at(place) {
    if (place == "M") return "mutex"
    if (place == "C") return "condition variable"
    if (place == "S") return "semaphore"
    if (place == "O") return "once control"
    return place ~ /^FN/ ? "function" : "variable"
}

function is_declared(w, place) {
    if (w == "-" || is_number(w)) return 1
    if (kind_at(place) == "variable") return (function_at, w) in is_local || first[line_declaring(w)] == "global"
    return w in declared && kind_of_line(declared[w]) == kind_at(place)
}

function on_unknown_name(   i, w, kind, sentence, other) {
    for (i = 2; i < words && (place_of(i) ~ /^[a-z]+$/ || is_declared(word[i], place_of(i))); i++);
    w = word[i]
    kind = kind_at(place_of(i))
    if (w == "NULL") return known("", w) "'NULL' is no name here: write '-' for a result or a function that is not needed, and 0 for a value."
    sentence = "In " quoted(its_form()) " the word " quoted(w) " has to be a " kind
    if (kind == "variable") sentence = sentence ", a local of " quoted(second[function_at]) " or a global"
    known(fault_of_name(w, kind), w)
    if ((function_at, w) in is_local) return sentence ", and it is a local of " quoted(second[function_at]) ", line " function_at "."
    if (w in declared) return sentence ", and it is a " kind_of_line(declared[w]) ", line " declared[w] "." on_thread_name(w)
    if (w in local_in) return sentence ", and it is a local of " quoted(second[local_in[w]]) ", line " local_in[w] "."
    for (other in declared) if (tolower(other) == tolower(w)) return sentence "; line " declared[other] " declares " quoted(other) "."
    return sentence ", and nothing of this name is declared."
}

function on_thread_name(w) {
    if (first[declared[w]] != "fn" || word[1] !~ /^pthread_(join|detach|cancel)$/) return ""
    return " A thread is named by the number that pthread_create gave to its second DEST."
}

function on_name_twice(   i, k) {
    if (declared[word[2]] < at) return quoted(word[2]) " is a " kind_of_line(declared[word[2]]) " already, line " declared[word[2]] "."
    for (i = 3; i <= words; i++) for (k = i + 1; k <= words; k++) if (word[i] == word[k]) return quoted(word[i]) " is twice on this line."
    return ""
}

# Each function that a line names, from the left, until one has a statement that is not plain.
function on_not_plain(   i, n, line, inside) {
    for (i = 2; i <= words; i++) {
        if (place_of(i) !~ /^FN/ || word[i] == "-") continue
        for (n = 1; n <= lines; n++) {
            line = line_of[n]
            if (first[line] == "fn") inside = second[line] == word[i]
            else if (inside && !is_declaration(first[line]) && first[line] !~ /^(emit|set|add|if|else|end|return|pthread_mutex_lock|pthread_mutex_unlock)$/)
                return quoted(word[i]) " has " quoted(first[line]) " in line " line "."
        }
    }
    return ""
}

function on_no_main(   w) {
    for (w in declared) if (first[line_declaring(w)] == "fn" && tolower(w) == "main") return known("main_case", w) "The function of line " declared[w] " is " quoted(w) ": upper and lower case differ."
    return counted["fn"] ? "The script has functions, and none of them is 'main'." : ""
}

# ---- sentences on blocks

function opened(line) {
    if (first[line] == "fn") return "function " quoted(second[line]) " of line " line
    return (first[line] == "pthread_cleanup_push" ? "push" : quoted(first[line])) " of line " line
}

function on_open_function(   sentence) {
    if (is_declaration(word[1])) known("declaration", word[1])
    if (word[1] == "fn") known("missing_end", word[1])
    sentence = "The " opened(open_function) " is open here"
    if (open != open_function) sentence = sentence ", and in it the " opened(open)
    if (end_before > open_function) return sentence ". The last 'end' before, in line " end_before ", closes the " opened(closed_before) "."
    return sentence ", and no 'end' comes before."
}

function on_no_function() {
    if (!end_before) return "No function begins before this line: a statement is between a line 'fn' and its 'end'."
    return "No function is open here: the last 'end', in line " end_before ", closes the " opened(closed_before) "."
}

function on_stray_end(w) {
    if (!open) return on_no_function()
    if (first[open] == "if") return "The " opened(open) " has an 'else' already, in line " else_before "."
    return "The innermost open block here is the " opened(open) ", and an 'else' belongs to an 'if'."
}

function on_pop() {
    if (!open) return on_no_function()
    if (open_push) return "The innermost open block here is the " opened(open) ", and the push of line " open_push " is outside it."
    return "The innermost open block here is the " opened(open) ", and no push is open."
}

function on_unclosed(w) {
    if (w == "end" || w == "else") return known("missing_pop", w) "The push of line " open " is open here: its pop has to come before this " quoted(w) "."
    if (w == "pthread_cleanup_push") return "The text ends, and this push has no pop."
    if (last_end > at) return known("last_end", w) "No 'end' is left for this " quoted(w) ": the last one, in line " last_end ", closes the " opened(ended_by_last) "."
    return known("last_end", w) "The text ends, and this " quoted(w) " has no 'end'."
}

function on_too_many(w) {
    if (w == "fn" && count_at <= limit["fn"]) return "This line has " (words - 2) " locals, the parameter counted, and a function has at most " limit["local"] "."
    if (w == "fn") return "This is function " count_at " of the script, which has at most " limit["fn"] "."
    if (w in limit) return "This is " kind_of_line(at) " " count_at " of the script, which has at most " limit[w] "."
    return "This is statement line " statements_at " of the script, which has at most " limit["statement"] "."
}

# ---- the output

# Shows a sentence, and on a line of its own the way to mend the fault: the rest of a note after its `Mend:`, or that of the fault.
function show_mended(text,   from, way) {
    from = index(text, " Mend: ")
    show(from ? substr(text, 1, from - 1) : text)
    if (from) way = substr(text, from + 7)
    else if (fault in mend) way = filled(mend[fault])
    if (way != "") show("Mend: " way)
}

# Shows a text, in lines of at most 118 bytes where its words allow that.
function show(text,   parts, part, i, line) {
    parts = split(text, part, " ")
    line = " "
    for (i = 1; i <= parts; i++) {
        if (length(line) + length(part[i]) > 117 && line !~ /^ +$/) { print line; line = "   " }
        line = line " " part[i]
    }
    print line
}
