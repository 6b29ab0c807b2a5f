# shellcheck disable=all # this is awk, and no shell
# What is wrong with the bad line of a refused text, beside explain.awk. `bad` is the line, `above` the one above it, and `ended` is
# 1 where the line has its LF. Whatever is said of a line is true of no good line at its place, so it is never wrong; where nothing
# fits, nothing is said. What the line says is repeated only after the tests of its bytes.

BEGIN {
    # what the fields of a kind of line are, in words and by letters: w a fixed word, n the name that it brings, u a user, r a role,
    # s a set, g the set of a goal, l a clearance or label, d a rule number
    fields["role"] = "role, name"
    letters["role"] = "wn"
    fields["user"] = "user, name, clearance"
    letters["user"] = "wnl"
    fields["has"] = "has, user, role"
    letters["has"] = "wur"
    fields["assign"] = "assign, administrative role, positive set, negative set, target role"
    letters["assign"] = "wrssr"
    fields["revoke"] = "revoke, administrative role, target role"
    letters["revoke"] = "wrr"
    fields["goal"] = "goal, set"
    letters["goal"] = "wg"
    fields["end"] = "end"
    letters["end"] = "w"
    fields["step"] = "assign or revoke, actor, rule number, user"
    letters["step"] = "wudu"
    fields["join"] = "join, name, clearance"
    letters["join"] = "wnl"
    fields["leave"] = "leave, user"
    letters["leave"] = "wu"
    fields["typing"] = "name, label, plus set, minus set"
    letters["typing"] = "rlss"
    # in this order the lines of a policy come
    split("arbac role user has assign revoke goal end", order, " ")
    for (place in order) rank[order[place]] = place + 0
    most["role"] = 128
    most["user"] = 64
    most["assign"] = most["revoke"] = 256
    most["goal"] = 32
}

# Says what is wrong with the bad line by the refusal's number and line.
function tell_hint(number, at,    kind, hint) {
    if (number == 11 || number == 15) hint = bytes_hint(at)
    if (hint == "") {
        last = split(bad, field, "\t")
        kind = kind_of(field[1])
        if (number == 12) hint = "A policy has at most " most[kind] " " kind " lines."
        else if (number == 13) hint = undeclared_hint(kind)
        else if (number == 16) hint = place_hint(kind, at)
        else if (number == 21) hint = names_hint()
        else hint = kind_hint(kind, at)
    }
    if (hint != "") print hint
}

# The kind of the bad line by its first field; none where no line of its text begins so.
function kind_of(word) {
    if (refused == "policy") return word in rank ? word : ""
    if (is_typing) return bad == "end" ? "end" : "typing"
    if (word == "assign" || word == "revoke") return "step"
    return word == "join" || word == "leave" || word == "end" ? word : ""
}

# What no line has, whatever its kind. What passes has a tab, a comma or '-' only where one can stand.
function bytes_hint(at,    padded) {
    if (above == "end") return "The line above is 'end', and no byte may follow it."
    if (!ended) return "It is the last line and has no LF. Each line ends in one LF, the last one too."
    if (bad == "") return "No line of a text is empty."
    if (substr(bad, 1, 3) == "\357\273\277") return "It begins with a byte order mark. A text begins with its first word."
    if (substr(bad, length(bad)) == "\r") return "It ends in a CR, as lines from Windows do. Lines end in one LF and have no CR."
    if (match(bad, /[^A-Za-z0-9_,\t-]/)) return "Its byte " RSTART (substr(bad, RSTART, 1) == " " ? \
        " is a blank. Fields are parted by one tab, and no name has a blank." : \
        " is one that no line has. Names have ASCII letters, digits and '_' only.")
    if (at == 1 && refused == "policy") return "The first line of a policy is 'arbac', a tab and '1'."
    if (at == 1) return "The first line of a typing is 'typing', a tab and '1'; that of a trace is 'trace', a tab and '1'."
    padded = "\t" bad "\t"
    if (match(padded, /\t\t/)) return "Its field " tabs(substr(padded, 1, RSTART)) " is blank." \
        " Fields are parted by one tab, and the empty set is '-'."
    if (padded ~ /[\t,],|,\t/) return "It has a comma without a name on both sides."
    if (padded ~ /[^\t]-|-[^\t]/) return "It has a '-' that is not alone in its field." \
        " Alone it is the empty set, and no name has it."
    return ""
}

# How many tabs there are in a text.
function tabs(part) {
    return gsub(/\t/, "", part)
}

# What no line of its kind has, and what no line has at its place.
function kind_hint(kind, at,    hint, place) {
    if (is_typing && kind != "end" && at - 1 > count["role"]) return "Each role has its line above, and only 'end' can follow."
    if (is_typing && kind == "end" && at - 1 <= count["role"]) {
        return "It comes too early: the line of role " name_of["role", at - 1] " must stand here."
    }
    if (!(kind in fields) && refused == "policy") return "Its first field must be role, user, has, assign, revoke, goal or end."
    if (!(kind in fields)) return "Its first field must be assign, revoke, join, leave or end."
    if (last != length(letters[kind])) {
        return "It has " many(last, "field") ", and must have " length(letters[kind]) ": " fields[kind] "."
    }
    for (place = 1; place <= last && hint == ""; place++) hint = field_hint(place, field[place], substr(letters[kind], place, 1))
    if (hint == "" && refused == "policy") hint = policy_hint(kind)
    return hint
}

# What no field of its letter has.
function field_hint(place, content, letter,    its, list, seen, i) {
    its = "Its field " place
    for (i = split(content, list, ","); i > 0; i--) {
        if (length(list[i]) > 32) return its " has a name of " length(list[i]) " bytes. A name has at most 32."
        if (letter ~ /[sg]/ && list[i] in seen) return its " has the name " list[i] " twice."
        seen[list[i]]
    }
    if (letter ~ /[nur]/ && content ~ /[,-]/) return its " must be one name."
    if (letter == "l" && content != "L" && content != "H") return its " must be L or H."
    if (letter == "d" && content !~ /^[1-9][0-9]?[0-9]?$/) return its " must be a rule number: 1 to 3 digits, the first one not 0."
    if (letter == "g" && content == "-") return "A goal has at least one role."
    return ""
}

# What no line of a policy has below the lines above it.
function policy_hint(kind,    over) {
    split(above, over, "\t")
    if (rank[kind] < rank[over[1]]) return "It comes too late: " kind " lines stand above " over[1] " lines."
    if (kind == "end" && !count["goal"]) return "No goal line stands above it, and a policy has at least one."
    if ((kind, field[2]) in declared) return "Line " declared[kind, field[2]] " declares the " kind " " field[2] " already."
    if (kind == "has" && (field[2], field[3]) in has_at) return "It stands at line " has_at[field[2], field[3]] " already."
    return ""
}

# The first name of the bad line that is not known from the policy or from the lines above it.
function undeclared_hint(kind,    place, letter, list, all, i) {
    for (place = 1; place <= last; place++) {
        letter = substr(letters[kind], place, 1)
        if (letter == "u" && !(field[place] in clearance)) return undeclared("user", field[place])
        if (letter !~ /[rsg]/ || field[place] == "-") continue
        all = split(field[place], list, ",")
        for (i = 1; i <= all; i++) {
            if (!(("role", list[i]) in declared)) return undeclared("role", list[i])
        }
    }
    return ""
}

# That a name is not known: a trace knows also those who join.
function undeclared(kind, name) {
    if (refused == "policy") return "No " kind " line above declares the " kind " " name "."
    return "The policy has no " kind " " name (kind == "user" ? ", and nobody of this name joins on a line above." : ".")
}

# That there is no room for the name of a join line, and which names count.
function names_hint() {
    return "A policy and a trace have at most " most["user"] " user names together. The policy lists " (count["user"] + 0) \
        ", and the join lines above have " (people - count["user"]) " more. A name counts once, also after its user has left."
}

# What a line of the evidence asks of the policy and does not find there.
function place_hint(kind, at,    role, rules) {
    role = name_of["role", at - 1]
    if (kind == "typing" && field[1] "" != role "") {
        return "The line of role " role " must stand here: a typing has the roles in the policy's order."
    }
    rules = count[field[1]] + 0
    if (kind == "step" && field[3] + 0 > rules) {
        return "The policy has " many(rules, field[1] " rule") ", and the step names rule " field[3] "."
    }
    return undeclared_hint(kind)
}
