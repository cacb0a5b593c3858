# Which automations an entry may have asked to run, by their triggers (docs/FORMATS.md, docs/MEANING.md). Decided is whether it moves a
# trigger on states, on numbers of states, on events or on starts; another one may fire where the entry is one at which such can. The entry
# is told by `entry_is` (start, ask, event, moment, change, helped or other) and what stands beside it, as why.awk sets it.

# The answer of an automation: fires, may, off or no (one of its triggers looks at this), or apart. `because` has a row for each such
# trigger, and `movers` names those that fire or may.
function answer(a, i, best, found, list) {
    because = movers = ""
    if (entry_is == "ask") return name[a] in asked ? "fires" : "apart"
    if (entered_at[a] == here) return "apart"
    list = triggers[a]
    best = "apart"
    for (i = 1; i <= size[list]; i++) {
        if (is_disabled(part[list, i])) continue
        reason = ""
        found = trigger_answer(part[list, i])
        if (found == "apart") continue
        because = because "        trigger " (i - 1) ", " trigger_words(part[list, i]) ": " reason "\n"
        if (found != "no") movers = movers (movers == "" ? "" : " or ") "trigger " (i - 1) ", " trigger_words(part[list, i])
        if (rank(found) > rank(best)) best = found
    }
    if (best == "apart" || best == "no") return best
    if (!on[a]) return "off"
    return entry_is != "start" && turned_at[a] == here ? "no" : best
}

function rank(found) {
    return index("apart no may fires", found)
}

function trigger_kind(t) {
    return word[either(t, "trigger", "platform")]
}

function trigger_words(t, k) {
    k = trigger_kind(t)
    if (k == "state") return k " of " watched(t) asked_side(t, "from") asked_side(t, "to")
    if (k == "numeric_state") return k " of " watched(t) asked_side(t, "above") asked_side(t, "below")
    if (k == "event") return "event " listed(get(t, "event_type"))
    if (k == "time") return "time " listed(get(t, "at"))
    return k
}

function watched(t) {
    return listed(get(t, "entity_id")) (get(t, "attribute") ? ", attribute " listed(get(t, "attribute")) : "")
}

# What a trigger asks for by a key, or by its negation.
function asked_side(t, side) {
    if (get(t, side)) return " " side " " any_of(get(t, side))
    return get(t, "not_" side) ? " not " side " " any_of(get(t, "not_" side)) : ""
}

function any_of(n, out) {
    out = kind[n] == "null" ? "any" : listed(n)
    gsub(/, /, " or ", out)
    return out
}

function trigger_answer(t, k) {
    k = trigger_kind(t)
    if (entry_is == "start") return k == "homeassistant" ? says("fires", "met") : "apart"
    if (k == "event" && given) return given_answer(t)
    if (entry_is == "moment") return both_answer(t, k)
    if (entry_is == "event") return k == "event" ? event_answer(t) : "apart"
    return entry_is == "change" || entry_is == "helped" ? change_answer(t, k) : "apart"
}

# The answer to the changes of entities.
function change_answer(t, k) {
    if (k == "template") return changes ? held(t, says("may", "met if its template became true")) : "apart"
    if (k == "state" || k == "numeric_state") return changes_answer(t, k)
    return "apart"
}

function says(found, why) {
    reason = why
    return found
}

function has_hold(t, n, i) {
    n = get(t, "for")
    if (!n || kind[n] != "map") return n && word[n] !~ /^[0:]*$/
    for (i = 1; i <= size[n]; i++) if (word[part[n, i]] !~ /^0*$/) return 1
    return 0
}

# A trigger with a `for` does not fire where it moves.
function held(t, found) {
    if (!has_hold(t) || found == "no" || found == "apart") return found
    return says("no", reason ", and fires at the moment at which its `for` is over")
}

function moment_answer(t, k) {
    if (k == "time" || k == "time_pattern") return passes ? says("may", "fires if a time of it has passed") : says("no", "not met, no time passed")
    if (!has_hold(t)) return "apart"
    return passes ? says("may", "fires if its `for` is over") : says("no", "not met, no time passed")
}

function event_answer(t, i, list, given) {
    if (!is_among(get(t, "event_type"), 0, event_type)) return "apart"
    list = get(t, "event_data")
    for (i = 1; list && i <= size[list]; i++) {
        given = get(event_data, key[list, i])
        if (!given) return says("no", "not met, the event has no " quoted(key[list, i]))
        if (!agrees(part[list, i], given)) return says("no", "not met, the event's " quoted(key[list, i]) " is another")
    }
    return says("fires", "met")
}

# Whether a given value is the configured one; between lists, and between maps, it is taken to be.
function agrees(n, given, text) {
    text = word[n]
    if (kind[n] == "list" || kind[n] == "map" || kind[n] == "null") return kind[n] == kind[given]
    if (kind[n] == "plain" && text ~ /^-?(0|[1-9][0-9]*)(\.[0-9]+)?$/) return kind[given] == "number" && word[given] + 0 == text + 0
    if (kind[n] == "plain" && is_flag(text)) return kind[given] == "flag" && (word[given] == "true") == is_yes(n)
    return kind[given] == "text" && word[given] == text
}

# The best answer of the changes of entities that a trigger looks at.
function changes_answer(t, k, i, best, found, why) {
    best = "apart"
    for (i = 1; i <= changed; i++) {
        if (!is_among(get(t, "entity_id"), 1, entity[i])) continue
        found = held(t, k == "state" ? state_answer(t, i) : numeric_answer(t, i))
        if (rank(found) > rank(best)) {
            best = found
            why = reason
        }
    }
    reason = why
    return best
}

# The state rule on change i.
function state_answer(t, i, old, now) {
    if (!stands[i]) return says("no", "not met, an entity that goes moves no state trigger")
    if (get(t, "attribute")) {
        old = stood[i] ? get(printed(old_attributes[i]), word[get(t, "attribute")]) : 0
        now = get(printed(new_attributes[i]), word[get(t, "attribute")])
        if (shown[old] == shown[now]) return says("no", "not met, the attribute is what it was")
        return sides_answer(t, has_text(old), word[old], has_text(now), word[now])
    }
    if (stood[i] && old_state[i] == new_state[i]) {
        if (has_sides(t) || has_hold(t)) return says("no", "not met, the state is what it was")
        if (old_attributes[i] == new_attributes[i]) return says("no", "not met, nothing changed")
    }
    return sides_answer(t, stood[i], old_state[i], 1, new_state[i])
}

function has_text(n) {
    return n && kind[n] != "null" && kind[n] != "list" && kind[n] != "map"
}

function has_sides(t) {
    return get(t, "from") || get(t, "to") || get(t, "not_from") || get(t, "not_to")
}

# Whether the old text and the new one, where there are such, are those that the trigger asks for.
function sides_answer(t, has_old, old, has_new, new) {
    if (!fits(t, "from", has_old, old))
        return says("no", has_old ? "not met, `" side "` does not allow that it was " quoted(old) : "not met, `from` does not allow that it was not there")
    if (!fits(t, "to", has_new, new))
        return says("no", "not met, `" side "` does not allow " (has_new ? quoted(new) : "a value that is no text"))
    return says("fires", "met")
}

function fits(t, of_side, has, text, n) {
    side = of_side
    n = get(t, side)
    if (n) return kind[n] == "null" || has && is_among(n, 0, text)
    side = "not_" side
    n = get(t, side)
    return !n || !has || !is_among(n, 0, text)
}

# A numeric trigger moves where a reported number comes into its bounds; whether the last number was out of them is told for a state's
# alone.
function numeric_answer(t, i, text, number) {
    if (!stands[i] || by_switch) return says("no", "not met, no number is reported")
    text = new_state[i]
    if (get(t, "attribute")) {
        number = get(printed(new_attributes[i]), word[get(t, "attribute")])
        text = has_text(number) ? word[number] : ""
    }
    if (!is_number(text)) return says("no", "not met, what is reported is no number")
    if (!is_within(t, text)) return says("no", "not met, " text " is not in its bounds")
    if (get(t, "attribute")) return says("may", "met if the number before was not in its bounds")
    if (number_before[i] != "" && is_within(t, number_before[i])) return says("no", "not met, the number before, " number_before[i] ", was in its bounds too")
    return says("fires", "met")
}

function is_number(text) {
    return text ~ /^[+-]?[0-9]+(\.[0-9]+)?$/ && text + 0 <= 1000000000000 && text + 0 >= -1000000000000
}

function is_within(t, text) {
    return (!get(t, "above") || text + 0 > word[get(t, "above")] + 0) && (!get(t, "below") || text + 0 < word[get(t, "below")] + 0)
}
