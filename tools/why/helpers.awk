# Helpers: flags, counters and timers, whose states calls change; and the timers that finish at a moment. given counts the events of timers
# that an entry gives, which are given_type[1 ..] with given_data[1 ..].

# The helpers of a configuration, in its order, with the states that they begin with.
function read_helpers(root, kinds, k, i, n) {
    split("input_boolean counter timer", kinds, " ")
    for (k = 1; k <= 3; k++) {
        n = get(root, kinds[k])
        for (i = 1; n && i <= size[n]; i++) {
            helper[++helpers] = kinds[k] "." key[n, i]
            first_state[helpers] = k == 3 ? "idle" : first_of(k, get(part[n, i], "initial"))
            has_kind[kinds[k]] = 1
        }
    }
}

function first_of(k, n, digits) {
    if (k == 1) return n && is_yes(n) ? "on" : "off"
    digits = n ? word[n] : "0"
    sub(/^0+/, "", digits)
    return digits == "" ? "0" : digits
}

# A segment begins.
function begin_helpers(i) {
    for (i = 1; i <= helpers; i++) {
        stands_since[helper[i]] = starts + 1
        state_of[helper[i]] = first_state[i]
        attributes_of[helper[i]] = "{}"
        line_of[helper[i]] = here
        delete due_of[helper[i]]
    }
}

# The changes that a step makes.
function take_changes(list, i, n, e, state) {
    for (i = 1; i <= size[list]; i++) {
        n = part[list, i]
        e = word[get(n, "entity")]
        state = word[get(n, "text")]
        change(e, 1, state, "{}")
        note_number(e, state)
        if (kind[get(n, "event")] != "null") give(word[get(n, "event")], e)
        if (state == "active") due_of[e] = millis(time) + word[get(n, "span")]
        else delete due_of[e]
    }
    entry_is = "helped"
}

# The timers that are over at a moment.
function finish_timers(i, now) {
    now = millis(time)
    finished = ""
    for (i = 1; i <= helpers; i++) {
        if (!(helper[i] in due_of) || due_of[helper[i]] > now) continue
        delete due_of[helper[i]]
        change(helper[i], 1, "idle", "{}")
        give("timer.finished", helper[i])
        finished = finished (finished == "" ? "" : " and ") helper[i]
    }
    entry_is = "moment"
}

function give(event, e) {
    given_type[++given] = event
    given_data[given] = printed("{\"entity_id\":\"" e "\"}")
}

# Milliseconds since 1970 of a moment as a trace prints it.
function millis(moment, y, m, d) {
    y = substr(moment, 1, 4) + 0
    m = substr(moment, 6, 2) + 0
    y -= m <= 2
    d = int((153 * (m + (m > 2 ? -3 : 9)) + 2) / 5) + substr(moment, 9, 2) + y * 365 + int(y / 4) - int(y / 100) + int(y / 400) - 719469
    return ((d * 24 + substr(moment, 12, 2)) * 60 + substr(moment, 15, 2)) * 60000 + substr(moment, 18, 2) * 1000 + substr(moment, 21, 3)
}

# The best answer of an event trigger to the events of timers.
function given_answer(t, i, best, found, why) {
    best = "apart"
    for (i = 1; i <= given; i++) {
        event_type = given_type[i]
        event_data = given_data[i]
        found = event_answer(t)
        if (rank(found) > rank(best)) {
            best = found
            why = reason
        }
    }
    reason = why
    return best
}

# The better one of the answers of a trigger to a moment, and to the timers that finish there.
function both_answer(t, k, found, why) {
    found = moment_answer(t, k)
    why = reason
    if (!changed) return found
    reason = ""
    k = change_answer(t, k)
    if (rank(k) >= rank(found)) return k
    reason = why
    return found
}

# Whether a service can be the one that changed the helpers of this step.
function is_helping(service, domain) {
    domain = service
    sub(/\..*/, "", domain)
    if (!(domain in has_kind) || service !~ /^(input_boolean\.(turn_on|turn_off|toggle)|counter\.(increment|decrement|reset|set_value)|timer\.(start|pause|cancel|finish))$/) return 0
    return !changed || index(entity[1], domain ".") == 1
}

function may_help(a, k, found) {
    for (k in names) {
        split(k, found, SUBSEP)
        if (found[1] == a && found[2] == "service" && is_helping(found[3])) return 1
    }
    return any_service[a]
}

# What a step changed, in words.
function change_words(list, i, out, span) {
    for (i = 1; i <= size[list]; i++) {
        span = word[get(part[list, i], "span")]
        out = out (i > 1 ? ", " : " ") entity[i] (old_state[i] == new_state[i] ? ", which stays " : " from " quoted(old_state[i]) " to ") quoted(new_state[i])
        if (span != "null") out = out (new_state[i] == "active" ? " for " : " with ") span / 1000 " s" (new_state[i] == "active" ? "" : " left")
    }
    return "changed" (out == "" ? " no helper" : out)
}
