# shellcheck disable=all # this is awk, and no shell
# The words of bin/explain for a verdict, over the lines of the two texts. What is wrong with a bad line stands in explain_line.awk.
#
# `answer` is the line of check. The operands are the lines of policy.txt after `text=policy`, and those of evidence.txt after
# `text=evidence`. The texts of a verdict are good, so their lines can be printed as they are. Of a refused text the last line given
# is the bad one, which is printed nowhere here, and the lines above it are good.
#
# Names may look like numbers, so they are compared as strings, with "" put behind, or as places of an array. What may be long is
# printed by print: printf has a limit in some awks.

BEGIN {
    split(answer, said, "\t")
    if (said[1] == "REFUSED") refused = said[2] < 14 ? "policy" : "evidence"
}

text == refused && FNR == said[3] { bad = $0; next }
text == refused { above = $0 }
text == "policy" { take_policy(FNR, $0) }
text == "evidence" { take_evidence(FNR, $0) }

END {
    if (said[1] == "SAFE") safe()
    else if (said[1] == "ATTACKED") attacked(said[2], said[3], said[4])
    else if (said[1] == "UNPROVED") unproved(said[2], said[3])
    else if (said[1] == "BROKEN") broken(said[2])
    else if (said[1] == "SHORT") short(said[2])
    else tell_hint(said[2], said[3])
}

# ---- the texts

# Takes a good line of the policy: where it stands and what it says, by its kind and its place among that kind; what it declares;
# and what is held at the start, since step 0.
function take_policy(at, line,    field, kind, place) {
    split(line, field, "\t")
    kind = field[1]
    place = ++count[kind]
    at_of[kind, place] = at
    line_of[kind, place] = line
    name_of[kind, place] = field[2]
    if (kind == "role" || kind == "user") declared[kind, field[2]] = at
    if (kind == "user") take_person(field[2], field[3], "policy.txt line " at)
    if (kind == "has") {
        has_at[field[2], field[3]] = at
        holds[field[2], field[3]] = 0
    }
}

# Takes a good line of the evidence: the kind of evidence, the sets of a role, or a step and who joins by it.
function take_evidence(at, line,    field) {
    evidence[at] = line
    split(line, field, "\t")
    if (at == 1) is_typing = field[1] == "typing"
    else if (is_typing) {
        label[field[1]] = field[2]
        plus[field[1]] = field[3]
        minus[field[1]] = field[4]
    } else if (field[1] == "join") take_person(field[2], field[3], "evidence.txt line " at)
}

# Takes somebody by a user line or a join line: the clearance, and where it stands. Who is known already stays as before.
function take_person(name, level, where) {
    if (name in clearance) return
    person[++people] = name
    clearance[name] = level
    entered[name] = where
}

# Whether a name is in a set as it is written.
function within(name, set) {
    return index("," set ",", "," name ",") > 0
}

# The set with a name added.
function added(name, set) {
    return within(name, set) ? set : set == "-" ? name : set "," name
}

# ---- words

# So many of a thing.
function many(number, thing) {
    return (number == 0 ? "no" : number) " " thing (number == 1 ? "" : "s")
}

# A set in words: its names, or NONE where it has none.
function names(set, none) {
    if (set == "-" || set == "") return none
    gsub(/,/, ", ", set)
    return set
}

# A line of the policy, and where it stands.
function cited(kind, place) {
    return "policy.txt line " at_of[kind, place] ": " line_of[kind, place]
}

# The same in a list that may be long: at most the first 200 bytes of the line.
function briefly(kind, place,    line) {
    line = line_of[kind, place]
    return "policy.txt line " at_of[kind, place] ": " (length(line) > 200 ? substr(line, 1, 200) " ..." : line)
}

# The roles that a user holds, in the policy's order.
function held_by(user,    place, set) {
    for (place = 1; place <= count["role"]; place++) {
        if ((user, name_of["role", place]) in holds) set = set "," name_of["role", place]
    }
    return names(substr(set, 2), "nothing")
}

# ---- SAFE

# What is shown, of what, and what is not.
function safe() {
    print "SAFE: the typing is accepted. No run of administrative steps, however long, lets a user with clearance L hold all roles"
    print "of a goal. A run starts from the holdings that policy.txt lists. In it any number of people may join, with either"
    print "clearance and no roles, and people may leave and lose all roles; nobody comes back."
    print ""
    print "Judged were " many(said[2], "role") ", " many(said[3], "assign rule") ", " many(said[4], "revoke rule") " and " \
        many(said[5], "goal") ". The plus and minus sets of the typing have " many(said[6], "name") "."
    print ""
    print "It says nothing about holdings or rules that policy.txt does not list, nothing about people who join with roles, and"
    print "nothing about these rules in one directory with those of another policy: for that the two have to be merged."
}

# ---- traces

# Puts the step of a number at hand: who joins with which clearance, who leaves, or who does what to whom, and then the fields of the
# rule that it names.
function take_step(number,    field, rule) {
    split(evidence[number + 1], field, "\t")
    step["kind"] = field[1]
    if (field[1] == "join" || field[1] == "leave") {
        step["user"] = field[2]
        step["clearance"] = field[3]
        return
    }
    step["actor"] = field[2]
    step["number"] = field[3]
    step["user"] = field[4]
    split(line_of[field[1], field[3]], rule, "\t")
    step["role"] = rule[2]
    step["positive"] = rule[3]
    step["negative"] = rule[4]
    step["target"] = field[1] == "assign" ? rule[5] : rule[3]
}

# What the step at hand does.
function deed() {
    if (step["kind"] == "join") return step["user"] " joins, with clearance " step["clearance"] " and no roles"
    if (step["kind"] == "leave") return step["user"] " leaves, and loses " held_by(step["user"])
    if (step["kind"] == "assign") return step["actor"] " gives " step["target"] " to " step["user"]
    return step["actor"] " takes " step["target"] " from " step["user"]
}

# Says what the step at hand does, and by which rule where it is by one.
function tell_step(number) {
    print "Step " number ", evidence.txt line " (number + 1) ": " deed()
    if (step["kind"] == "assign" || step["kind"] == "revoke") {
        print "    by " step["kind"] " rule " step["number"] ", " briefly(step["kind"], step["number"])
    }
}

# Follows the steps up to the last of a number in what users hold and who has left, and says each where TOLD.
function follow(last, told,    number) {
    for (number = 1; number <= last; number++) {
        take_step(number)
        if (told) tell_step(number)
        if (step["kind"] == "assign") holds[step["user"], step["target"]] = number
        else if (step["kind"] == "revoke") delete holds[step["user"], step["target"]]
        else if (step["kind"] == "leave") follow_leave(step["user"], number + 1)
    }
}

# Follows that a user leaves by a line of the trace, with all roles.
function follow_leave(user, at,    place) {
    left[user] = "evidence.txt line " at
    for (place = 1; place <= count["role"]; place++) delete holds[user, name_of["role", place]]
}

# What a user holds, or that the user has left.
function standing(user) {
    return user in left ? "has left, " left[user] : "holds " held_by(user)
}

# Since when a user holds a role.
function since(user, role) {
    if (holds[user, role]) return "given by step " holds[user, role]
    return "held from the start, policy.txt line " has_at[user, role]
}

# The steps, and the user with the goal that is reached.
function attacked(steps, user, goal,    list, last, place) {
    if (steps == 0) print "ATTACKED: the trace has no steps, and the state at the start is bad."
    else print "ATTACKED: the steps of the trace can be taken one after another, and the state after the last one is bad."
    print ""
    follow(steps, 1)
    if (steps > 0) print ""
    print user ", whose clearance is L (" entered[user] "), " (steps > 0 ? "then " : "") "holds all roles of goal " goal ":"
    last = split(name_of["goal", goal], list, ",")
    for (place = 1; place <= last; place++) print "    " list[place] ", " since(user, list[place])
    print cited("goal", goal)
}

# The step that can't be taken, and why.
function broken(number) {
    print "BROKEN: step " number " of the trace can't be taken" (number > 1 ? "; the steps before it can." : ".")
    print "This is no attack, and it doesn't show that the policy is safe either."
    print ""
    follow(number - 1, 0)
    take_step(number)
    print "evidence.txt line " (number + 1) ": " evidence[number + 1]
    if (step["kind"] == "join") broken_presence("A name that is listed or has joined never joins again; nobody comes back:", step["user"])
    else if (step["kind"] == "leave") broken_presence("Only who is present can leave:", step["user"])
    else broken_rule(step["actor"], step["user"])
}

# Why a user can't join or leave: what is asked, and where the user is listed or joined, and has left.
function broken_presence(asked, user) {
    print ""
    print asked
    print "    " user (("user", user) in declared ? " is listed, " : " joined, ") entered[user]
    if (user in left) print "    " user " has left, " left[user]
}

# What the step at hand takes by its rule, and what is held before it.
function broken_rule(actor, user,    both) {
    both = user "" != actor ""
    print cited(step["kind"], step["number"])
    print ""
    print "By " step["kind"] " rule " step["number"] ", " deed() ". For this, all of these must hold:"
    print "    " actor (both ? " and " user " are present" : " is present")
    print "    " actor " holds " step["role"]
    if (step["kind"] == "revoke") print "    " user " holds " step["target"]
    else {
        if (step["positive"] != "-") print "    " user " holds all of the positive set: " names(step["positive"])
        if (step["negative"] != "-") print "    " user " holds none of the negative set: " names(step["negative"])
        print "    " user " does not yet hold " step["target"]
    }
    print "Before this step:"
    print "    " actor " " standing(actor)
    if (both) print "    " user " " standing(user)
}

# The goals, and what users with clearance L who are present hold after the last step.
function short(steps,    place, low) {
    if (steps == 0) print "SHORT: the trace has no steps, and at the start no user with clearance L holds all roles of a goal."
    else {
        print "SHORT: the steps of the trace can be taken one after another, " steps " in all, but after the last one no user with"
        print "clearance L holds all roles of a goal. Only the last state counts."
    }
    print "This is no attack, and it doesn't show that the policy is safe either: that takes a typing."
    print ""
    for (place = 1; place <= count["goal"]; place++) print cited("goal", place)
    print ""
    follow(steps, 0)
    for (place = 1; place <= people; place++) {
        if (clearance[person[place]] != "L" || person[place] in left) continue
        if (!low++) print "The users with clearance L who are present then hold:"
        print "    " person[place] ": " held_by(person[place])
    }
    if (!low) print "No user with clearance L is present then."
}

# ---- typings

# The part that fails first.
function unproved(part, number) {
    print "UNPROVED: the typing is not accepted. It fails first at " (part == "holdings" ? "the holdings of user " : \
        part == "goal" ? "goal " : part " rule ") number "."
    print "This does not mean that there is an attack: this typing doesn't show that the policy is safe, and another one might."
    print ""
    if (part == "holdings") unproved_holdings(number)
    else if (part == "assign") unproved_assign(number)
    else if (part == "revoke") unproved_revoke(number)
    else unproved_goal(number)
}

# Says the typing's lines of the roles that are marked, in the policy's order.
function tell_typing(marked,    place) {
    print ""
    print "The typing says of the roles concerned (name, label, plus set, minus set):"
    for (place = 1; place <= count["role"]; place++) {
        if (name_of["role", place] in marked) print "evidence.txt line " (place + 1) ": " evidence[place + 1]
    }
}

# Marks the names of a set.
function mark(set, marked,    list, place) {
    if (set == "-" || set == "") return
    for (place = split(set, list, ","); place > 0; place--) marked[list[place]]
}

# Says what is known of a user: the closure of what is held and absent at first.
function tell_closure(user, held, absent) {
    print "Of a user who " user " this is known at first:"
    print "   - held: " names(held, "no role")
    print "   - absent: " names(absent, "no role")
    print "and then by the typing, as long as it adds a role:"
    print "   - the plus set of a held role is held"
    print "   - the minus set of a held role is absent"
    print "   - a role is absent when its plus set has an absent role"
    print ""
}

# A user's holdings, and when they pass.
function unproved_holdings(number,    user, place, has, marked) {
    user = name_of["user", number]
    print cited("user", number)
    for (place = 1; place <= count["has"]; place++) {
        if (name_of["has", place] "" != user "") continue
        print cited("has", place)
        split(line_of["has", place], has, "\t")
        marked[has[3]]
    }
    print ""
    print "The typing must show of each role that " user " holds:"
    print "   - its label is at most the clearance of " user ", " clearance[user]
    print "   - its minus set shares nothing with the roles of " user
    print "   - its plus set lies within the roles of " user
    tell_typing(marked)
}

# The roles whose set has a name, in the policy's order; SETS is the plus or the minus sets.
function having(name, sets,    place, role, found) {
    for (place = 1; place <= count["role"]; place++) {
        role = name_of["role", place]
        if (within(name, sets[role])) found = found "," role
    }
    return substr(found, 2)
}

# An assign rule, and when it passes.
function unproved_assign(number,    rule, target, against, marked) {
    split(line_of["assign", number], rule, "\t")
    target = rule[5]
    against = having(target, minus)
    print cited("assign", number)
    print ""
    tell_closure("is given " target " by this rule", rule[3], added(target, rule[4]))
    print "The typing must show one of these three:"
    print "1. Nobody holds " rule[2] ", the administrative role: its plus set and its minus set share a role."
    print "2. Nobody is given " target " by this rule: a role is both held and absent."
    print "3. What the typing says stays true when " target " is given. For this, all four must hold:"
    print "   - the label of " target ", " label[target] ", is at most the highest label among the held roles (L if none is held)"
    print "   - each role with " target " in its minus set is absent: " names(against, "there is none")
    print "   - the minus set of " target " lies within the absent roles without " target ": " names(minus[target], "it is empty")
    print "   - the plus set of " target " lies within the held roles with " target " added: " names(plus[target], "it is empty")
    mark(rule[2] "," target, marked)
    mark(rule[3], marked)
    mark(rule[4], marked)
    mark(against, marked)
    tell_typing(marked)
}

# A revoke rule, and when it passes.
function unproved_revoke(number,    rule, marked) {
    split(line_of["revoke", number], rule, "\t")
    print cited("revoke", number)
    print ""
    print "The typing must show one of these two:"
    print "1. Nobody holds " rule[2] ", the administrative role: its plus set and its minus set share a role."
    print "2. No role other than " rule[3] ", the target role, has " rule[3] " in its plus set."
    mark(rule[2] "," rule[3], marked)
    mark(having(rule[3], plus), marked)
    tell_typing(marked)
}

# A goal, and when it passes.
function unproved_goal(number,    goal, marked) {
    goal = name_of["goal", number]
    print cited("goal", number)
    print ""
    tell_closure("holds all roles of this goal", goal, "-")
    print "The typing must show that this is no user with clearance L, by one of these two:"
    print "1. A held role is labelled H."
    print "2. A role is both held and absent."
    mark(goal, marked)
    tell_typing(marked)
}
