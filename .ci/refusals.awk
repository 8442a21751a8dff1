# Reads the log of a must-fail edit. A line for each function that was refused and for each law that an error names, its fields between tabs:
#   name, account, goal, quote
# account: 'own' if a fact of it no longer holds ('law' for a law); 'callee' if nothing of its own fails and it calls a function that is not proved; 'place' if
# its proof files lost a place, so that the proof rather than a fact fails, or a law cannot be read. A proof rests on the contracts of the functions called,
# not on their code: what fails in it is its own, also where a function that it calls is refused too. A goal for which no file has an answer and that the
# prover does not prove is a fact, unless the files lost a place: a goal is named after the conditions on the way to it, so an answer may be lost by its name.
# In a proof by hand (Proof.antt) every step of the walk
# names the code that it walks: an error in a step is a lost place whatever it says, and only an error in a law beside the walk is one of a fact.
# goal: what the first error in its proof files names, or else the first goal that is not proved. quote: what that error says, in its own words, shortened:
#   - of two types, sides or indices that differ, the statement of where they do, as computed if the error has that, else as printed;
#   - of numbers at which a goal fails, the first three; of a goal that no proof was found of, that statement, and the first value at which it is false,
#     if the prover names one;
#   - in each term modules and the way to a name are left out, and it ends in '..' after 60 bytes, at a blank; a term in the prover's own words is its head and '..'.

function short(s) {
    s = " " s
    gsub(/\. /, "\001 ", s)                                  # the point of a λ
    gsub(/\.now/, "", s)                                     # what stands behind a reference
    gsub(/([^][ ().{},`]+\.)+/, "", s)                       # modules before a name, the way to a name
    gsub(/\001/, ".", s)
    sub(/^ +/, "", s)
    if (s ~ /^\([A-Za-z0-9_]+\)$/) s = substr(s, 2, length(s) - 2)
    gsub(/\|/, "\\|", s)
    return s
}

# The text cut at a blank before the end.
function cut(s, end) {
    if (length(s) <= end || !index(substr(s, 1, end), " ")) return s
    s = substr(s, 1, end)
    sub(/ [^ ]*$/, "", s)
    return s " .."
}

# Whether a term is in the prover's own words.
function own_words(s) {
    return s ~ /Pre Post|Learnt|locals|bytes\]|\?[0-9]|^Post /
}

# A term, shortened.
function term(s) {
    s = short(s)
    if (!own_words(s)) return "`" cut(s, 60) "`"
    if (match(s, /^[A-Z][A-Za-z]+/)) return "`" substr(s, 1, RLENGTH) " ..`"
    return "`..`"
}

# A statement with every term in it shortened.
function terms(s,    part, count, k, said) {
    count = split(s, part, "`")
    for (k = 1; k <= count; k++) said = said (k % 2 ? part[k] : term(part[k]))
    return said
}

# The numbers at which a need fails: the first three of terms that are not in the prover's own words.
function numbers(s,    part, count, k, said, kept, left) {
    count = split(s, part, "`")
    for (k = 2; k < count; k += 2) {
        if (kept == 3 || own_words(short(part[k]))) left = ", .."
        else {
            sub(/,? *$/, "", part[k + 1])
            said = said (kept++ ? ", " : "") term(part[k]) part[k + 1]
        }
    }
    return said == "" ? "" : said left
}

# The text from a mark on, without what stands before it; the text up to the first of an end.
function from(s, mark,    at) {
    at = index(s, mark)
    return at ? substr(s, at) : ""
}

function after(s, mark) {
    s = from(s, mark)
    return substr(s, length(mark) + 1)
}

function upto(s, end,    at) {
    at = index(s, end)
    return at ? substr(s, 1, at + length(end) - 1) : s
}

# What an error says, shortened.
function quote(text,    part) {
    gsub(/ +/, " ", text)
    if (text ~ /`search`: no proof of `/) {
        part = upto(from(text, "no proof of `"), "` was found")
        if (!own_words(short(part)) || !index(text, "no proof was found of ")) return terms(part)
        part = from(text, "no proof was found of ")          # fields of the goal
        sub(/\. .*/, "", part)
        return part
    }
    if (index(text, "the goal fails, at ")) {
        part = after(text, "the goal fails, at ")
        sub(/\. It read.*/, "", part)
        part = numbers(part)
        return part == "" ? "the goal does not follow from what it read" : "the goal fails, at " part
    }
    part = after(text, "computed as far as they go, ")
    if (part == "") part = after(text, "as printed, ")
    if (part == "") part = text
    sub(/ (one side|both [a-z]+)( \([a-z]+\))? (is|are) shown computed.*/, "", part)
    if (index(part, "the two indices are")) return terms(upto(part, "(the expected type's)"))
    if (index(part, "(found)")) return terms(upto(part, "(found)"))
    if (index(part, "lands at index")) return terms(upto(from(part, "lands at index"), "has `") upto(after(part, "` has `"), "`"))
    if (index(part, "but this has type `")) return terms(upto(part, "but this has type `") upto(after(part, "but this has type `"), "`"))
    sub(/\. [A-Z].*/, "", part)
    return terms(part)
}

# Whether an error says that a fact does not hold.
function of_a_fact(need, text) {
    if (need ~ /-spec$/) return 0
    return text ~ /the goal does not follow|no proof of|the two (types|sides) (first )?differ|the two indices are|but this has type|lands at index|are absurd/
}

# Whether what an error names is a step of a walk by hand: the file names the code that it walks, and the statement speaks of the program logic.
# What cannot be looked up counts as one.
function walk_step(file, name,    line, lines, by_hand, inside, said) {
    while ((getline line < file) > 0) {
        lines++
        if (line ~ /\.Code as code$/) by_hand = 1
        sub(/^ *(pub )?/, "", line)
        if (index(line, name " : ") == 1) inside = 1
        else if (index(line, name " ") == 1 || line ~ /^unfolding /) inside = 0
        if (inside) said = said line
    }
    close(file)
    return !lines || by_hand && (said == "" || said ~ /𝓤|Sq |Stays |statement/)
}

# The name between the first two backticks.
function quoted(s) {
    sub(/^[^`]*`/, "", s)
    sub(/`.*/, "", s)
    return s
}

# The function whose proof file this is, in the folder proofs/FUNCTION or proofs/TYPE/FUNCTION: of a cycle, in a folder proofs/+CYCLE, the one with whose
# name the goal begins.
function proved_by(file, need,    name) {
    name = file
    sub(/\/[A-Za-z]+\.antt$/, "", name)
    sub(/^.*\/proofs\//, "", name)
    sub(/^proofs\//, "", name)
    gsub(/\//, "::", name)
    if (name !~ /^\+/) return name
    sub(/^(invariant|decreases)-/, "", need)
    sub(/-.*/, "", need)
    return need
}

# Takes up the error that was read last: its first line and the lines after it.
function take_error(    place, need, text, name) {
    if (error == "") return
    text = error
    error = ""
    place = text
    sub(/: error: .*/, "", place)
    sub(/^.*: error: /, "", text)
    if (text ~ /was not admitted|(was|were) not checked/) return
    need = text
    sub(/^`/, "", need)
    sub(/`.*/, "", need)
    sub(/^`[^`]*`: /, "", text)
    sub(/:[0-9]+:[0-9]+$/, "", place)
    if (place !~ /\/proofs\/.*\/(Answers|Invariants|Proof)\.antt$/) {
        if (!of_a_fact(need, text)) unread[need] = 1
        if (!(need in laws)) { laws[need] = quote(text); law[++law_count] = need }
        return
    }
    name = proved_by(place, need)
    if (!of_a_fact(need, text) || place ~ /\/Proof\.antt$/ && walk_step(place, need)) lost[name] = need
    if (!(name in first)) {
        first[name] = need
        why[name] = quote(text)
    }
}

# Takes up the note that was read last. Of a goal that is not proved it stands before the line of its function; what the goal states, and values at which
# it is false, come after all functions.
function take_note(    text, goal, of) {
    if (note == "") return
    text = note
    note = ""
    gsub(/ +/, " ", text)
    if (text ~ /^note: src\/[^ ]*: it is not proved that /) {
        goal = text
        sub(/`\).*/, "", goal)
        sub(/.*\(`/, "", goal)
        if (!open_count++) open_first = goal
        return
    }
    goal = quoted(text)
    of = text
    sub(/^note: `[^`]*` of /, "", of)
    if (of == text) return
    sub(/\.antt .*/, ".antt", of)
    of = proved_by(of, goal)
    if (text ~ /\.antt must prove: /) {
        sub(/^.*\.antt must prove: /, "", text)
        sub(/ names you can use, by step:.*/, "", text)
        if (!((of, goal) in states)) states[of, goal] = text
    } else if (text ~ /\.antt may be false: the known facts allow /) {
        sub(/^.*the known facts allow /, "", text)
        sub(/: help: .*/, "", text)
        if (!((of, goal) in allowed)) allowed[of, goal] = text
    }
}

# What is said of a goal that no answer and no search proves.
function unproved(name, goal,    said, part, count, k) {
    said = (name, goal) in states ? "no proof of " term(states[name, goal]) : "no proof"
    if (!((name, goal) in allowed)) return said
    count = split(allowed[name, goal], part, "`")
    for (k = 2; k + 2 <= count; k += 4) {
        if (!own_words(short(part[k])) && !own_words(short(part[k + 2]))) return said ", false at " term(part[k]) " = " term(part[k + 2])
    }
    return said
}

/^  / { if (error != "") error = error " " $0; else if (note != "") note = note " " $0; next }
{ take_error(); take_note() }
/: error: / { error = $0; next }
/^note: / { note = $0; next }
/^fn [^ ]*: (not proved|no proof)/ {
    name = $2
    sub(/:$/, "", name)
    bare = name
    sub(/^[^:]*::/, "", bare)
    refused[++refused_count] = name
    if (bare in lost || bare in first) {
        account[bare] = bare in lost ? "place" : "own"
    } else if (open_count) {
        account[bare] = "own"
        open_goal[bare] = open_first
    } else account[bare] = $0 ~ /: not proved|it calls/ ? "callee" : "place"   # nothing of its own fails: a function that it calls, or another of its cycle
    open_count = 0
    open_first = ""
    next
}
/^fn / { open_count = 0; open_first = "" }
END {
    take_error()
    take_note()
    for (k = 1; k <= refused_count; k++) {
        name = refused[k]
        bare = name
        sub(/^[^:]*::/, "", bare)
        if (bare in open_goal) { first[bare] = open_goal[bare]; why[bare] = unproved(bare, open_goal[bare]) }
        print name "\t" account[bare] "\t" first[bare] "\t" why[bare]
    }
    for (k = 1; k <= law_count; k++) print law[k] "\t" (law[k] in unread ? "place" : "law") "\t" law[k] "\t" laws[law[k]]
}
