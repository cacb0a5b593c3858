# Tells of one line of a trace what it says, and what the trace tells of why: of a step its run, the automation, what asked for it, and how
# it ended; of another line which runs began at it, or why none did. The trace is TRACE and the line WANTED, counted from 1, of the
# environment. The trace is read twice: up to the lines that matter, and then all of it.

BEGIN {
    FS = "\n"
    trace = ENVIRON["TRACE"]
    wanted = ENVIRON["WANTED"] + 0
    most = 50
    if (find() && boot()) {
        rewind()
        while (next_line()) take()
        for (i = 1; i <= abouts; i++) settle(about[i])
        tell()
        exit 0
    }
    print "hearth: " fault | "cat >&2"
    close("cat >&2")
    exit status
}

function refuse(line) {
    fault = "trace line " line ": T"
    status = 11
    return 0
}

# The first reading: the line that is wanted, the runs that it is about, and between which lines stands what may have asked for them.
function find(is_first) {
    wanted_run = run_of_wanted()
    while (next_line()) {
        if (here == 1) {
            opening = text
            has_calls = index(text, "script:")
        }
        if (is == "line" && act == "reload" && index(rest, "script:")) has_calls = 1
        is_first = is == "step" && !(number in first_step)
        if (is_first) {
            first_step[number] = here
            from_line[number] = earliest()
            if (!has_calls && here > wanted && from_line[number] > wanted) break
            if (here > wanted && wanted_begins && from_line[number] <= wanted && abouts < most) concern(number)
        }
        if (has_calls && is == "step") note_step(is_first)
        if (is == "line") split("", in_burst)
        if (here == wanted) {
            wanted_is = is
            if (is != "boot" && !printed(text)) return refuse(here)
            if (is == "step") concern(number)
            wanted_begins = begins_runs()
            if (!wanted_begins && !has_calls) break
        }
    }
    if (wanted_is) {
        follow_called()
        return 1
    }
    if (broken || !here) return refuse(here ? broken : 1)
    fault = "the trace has " here (here == 1 ? " line" : " lines")
    status = 1
    return 0
}

# A run that is told of.
function concern(run) {
    about[++abouts] = run
    is_about[run] = 1
    if (!low || from_line[run] < low) low = from_line[run]
    if (first_step[run] > high) high = first_step[run]
}

# Whether a line can ask for runs.
function begins_runs() {
    return is == "boot" || is == "again" || is == "line" && act !~ /^(refused|shut|restart)$/ || act ~ /^(fired|switched|triggered|started|helped)$/ && is == "step"
}

# The first line: the configuration, the switches, the time.
function boot(cut, tail, stored, a) {
    cut = index(opening, "\",\"stored\":")
    tail = cut ? printed("{" substr(opening, cut + 2, length(opening) - cut - 2)) : 0
    if (!has_keys(tail, "stored start zone") && !has_keys(tail, "stored last start zone")) return refuse(1)
    time = word[get(tail, "start")]
    configure(plain_text(substr(opening, 20, cut - 20)))
    stored = get(tail, "stored")
    for (a = 1; a <= units; a++) {
        if (of_script[a]) continue
        on[a] = initial[a] != -1 ? initial[a] : get(stored, name[a]) ? word[get(stored, name[a])] == "true" : 1
        turned_at[a] = 1
    }
    opening = "Hearth was started at " time " in the zone " quoted(word[get(tail, "zone")]) ", with " counted(automations, "automation") " and " \
        (kind[stored] == "null" ? "no stored switches" : "the stored switches " shown[stored])
    lasting = nodes
    return 1
}

# ---- the second reading: what each line changes, and where it matters, what it says and whom it may have asked to run

function take(i) {
    forget(lasting)
    matters = here == wanted || here >= low && here < high
    entry_is = "other"
    changed = changes = by_switch = given = 0
    said = ""
    if (is == "boot") {
        entry_is = "start"
        said = opening
        begin_helpers()
    } else if (is == "again") {
        entry_is = "start"
        said = "all began anew, behind the restart of line " (here - 1)
        begin_helpers()
    } else if (is == "line") take_command(act == "reload" || act == "report" && !matters ? 0 : printed(rest))
    else if (is == "step") take_item(act == "call" && !matters && !is_about[number] ? 0 : printed(rest))
    else said = "all is done, after " counted(here - 1, "entry")
    if (here == wanted) {
        wanted_said = said
        wanted_time = time
        wanted_asks = entry_is == "ask"
        wanted_act = act
        wanted_skips = wanted_asks && skips
        wanted_turn = is ~ /^(boot|again|end)$/ ? "" : is == "line" ? "line " number " of source " turn : "the turn of source " turn
    }
    if (here > wanted) look_behind()
    if (begins_runs()) ask_all()
    for (i = 1; i <= abouts; i++) follow(about[i])
    if (is == "line" || is == "again") {
        last_of_all = here
        last_said = said
    }
    lines = here
}

# What follows the line that is wanted: which runs go on before the next line of a source, and whether all that it began has had its steps.
function look_behind() {
    if (is == "line") past_wanted = 1
    if (is == "step" && !past_wanted && !is_about[number] && !(number in moved_at)) {
        moved[++moves] = number
        moved_at[number] = here
    }
    if (was_quiet(wanted)) all_begun = 1
    if (is == "again" && !all_begun && !cut_at) cut_at = here - 1
}

# Whether this line tells that no step was due at some time behind an earlier one.
function was_quiet(line) {
    return is == "end" || is == "line" && turn in line_before && (sources == 1 || line_before[turn] >= line)
}

function take_command(n) {
    if (act == "report") take_report()
    else if (act == "gone") change(word[get(n, "gone")], 0, "", "")
    else if (act == "event") take_event(n)
    else if (act == "moment") take_moment(word[get(n, "moment")])
    else if (act == "switch") turn_automation(substr(word[get(n, "switch")], 12), word[get(n, "to")] == "on", is_true(n, "stop_actions"))
    else if (act == "trigger") {
        ask_for(n)
        asked[substr(word[get(n, "trigger")], 12)] = 1
    } else if (act == "restart") take_restart()
    else if (act == "reload") take_reload()
    said = command_words(n)
}

function take_report(e, tail, state) {
    match(rest, /^\{"report":"[a-z0-9_.]+/)
    e = substr(rest, 12, RLENGTH - 11)
    tail = substr(rest, RLENGTH + 11)
    match(tail, /^"([^"\\]|\\.)*"/)
    state = plain_text(substr(tail, 2, RLENGTH - 2))
    tail = substr(tail, RLENGTH + 15)
    change(e, 1, state, substr(tail, 1, length(tail) - 1))
    note_number(e, state)
}

# The number of a changed state, and the one before it.
function note_number(e, state) {
    number_before[changed] = number_since[e] == starts + 1 ? number_in[e] : ""
    if (!is_number(state)) return
    number_since[e] = starts + 1
    number_in[e] = state
}

# An entity has this state from here on, or none.
function change(e, is_there, state, attributes, i) {
    entry_is = "change"
    i = ++changed
    entity[i] = e
    stood[i] = stands_since[e] == starts + 1
    old_state[i] = state_of[e]
    old_attributes[i] = attributes_of[e]
    old_line[i] = line_of[e]
    stands[i] = is_there
    new_state[i] = state
    new_attributes[i] = attributes
    if (stood[i] != is_there || stood[i] && (old_state[i] != state || old_attributes[i] != attributes)) changes++
    stands_since[e] = is_there ? starts + 1 : 0
    state_of[e] = state
    attributes_of[e] = attributes
    line_of[e] = here
}

function is_true(n, name) {
    return word[get(n, name)] == "true"
}

function take_event(n) {
    entry_is = "event"
    event_type = word[get(n, "event")]
    event_data = get(n, "data")
}

function take_moment(moment) {
    entry_is = "moment"
    passes = moment > time
    if (passes) time = moment
    finish_timers()
}

function ask_for(n) {
    entry_is = "ask"
    split("", asked)
    skips = is_true(n, "skip_condition")
}

function take_restart(a) {
    starts++
    end_runs(0)
    for (a = 1; a <= units; a++) if (in_force[a] && !of_script[a] && initial[a] != -1) set_switch(a, initial[a])
}

# Another configuration: which units go on, which are others now, which are new and which are gone; the switches of those that come, and
# what becomes of the entities of automations.
function take_reload(a, b, count) {
    entry_is = "change"
    by_switch = 1
    count = units
    kept = others_told = new_told = gone_told = ""
    split("", was_in_force)
    for (a in in_force) if (in_force[a]) was_in_force[a] = 1
    configure(plain_text(substr(rest, 12, length(rest) - 13)))
    lasting = nodes
    for (a = 1; a <= count; a++) {
        if (!(a in was_in_force)) continue
        b = name[a] in number_of ? number_of[name[a]] : 0
        if (!b) drop_unit(a)
        else if (a == b || form_of[a] == form_of[b]) kept++
        if (b && b != a) take_place(a, b)
    }
    for (b = count + 1; b <= units; b++) {
        if (number_before_reload[name[b]]) continue
        new_told = new_told (new_told == "" ? "" : ", ") whole_name(b)
        entered_at[b] = turned_at[b] = here
        on[b] = initial[b] != -1 ? initial[b] : 1
        if (!of_script[b]) change("automation." name[b], 1, on[b] ? "on" : "off", "{}")
    }
}

# A unit goes, and its runs end.
function drop_unit(a) {
    gone_told = gone_told (gone_told == "" ? "" : ", ") whole_name(a)
    end_runs(a)
    if (of_script[a]) return
    show_switch(a)
    change("automation." name[a], 0, "", "")
}

# A unit takes the place of the one that had its name. It is another one as it is written: how it is read is not asked.
function take_place(a, b) {
    on[b] = on[a]
    turned_at[b] = turned_at[a]
    if (form_of[a] == form_of[b]) return
    others_told = others_told (others_told == "" ? "" : ", ") whole_name(b)
    entered_at[b] = here
    end_runs(a)
    ends_as[endings] = "may"
    if (of_script[b] || initial[b] == -1 || initial[b] == on[b]) return
    show_switch(a)
    set_switch(b, initial[b])
    change("automation." name[b], 1, on[b] ? "on" : "off", "{}")
}

# The entity of an automation, as its switch stands before it changes.
function show_switch(a) {
    stands_since["automation." name[a]] = starts + 1
    state_of["automation." name[a]] = on[a] ? "on" : "off"
    attributes_of["automation." name[a]] = "{}"
}

function set_switch(a, to) {
    if (on[a] != to) turned_at[a] = here
    on[a] = to
}

# An automation is turned on or off; its own entity tells so.
function turn_automation(who, to, stops, a) {
    a = number_of[who]
    entry_is = "change"
    by_switch = 1
    if (!a) return
    show_switch(a)
    change("automation." who, 1, to ? "on" : "off", "{}")
    set_switch(a, to)
    if (!to && stops) end_runs(a)
}

# Whose runs this line ends: those of an automation, or all (0).
function end_runs(a) {
    ending[++endings] = here
    ends_of[endings] = a
    ends_as[endings] = "sure"
}

function take_item(n, i, list, inner) {
    inner = get(n, act)
    if (act == "fired") take_event(inner)
    else if (act == "switched") {
        for (i = 1; i <= size[inner]; i++) turn_automation(word[get(part[inner, i], "automation")], is_true(part[inner, i], "on"), is_true(part[inner, i], "stop"))
    } else if (act == "helped") take_changes(inner)
    else if (act == "triggered") {
        ask_for(inner)
        list = get(inner, "automations")
        for (i = 1; i <= size[list]; i++) asked[word[part[list, i]]] = 1
    }
    if (act == "started") {
        entry_is = "ask"
        split("", asked)
        skips = 1
        list = get(inner, "scripts")
        for (i = 1; i <= size[list]; i++) asked["script." word[part[list, i]]] = 1
    } else if (act == "halted") {
        for (i = 1; i <= size[inner]; i++) if ("script." word[part[inner, i]] in number_of) end_runs(number_of["script." word[part[inner, i]]])
    }
    service = act == "call" ? word[get(inner, "service")] : act == "halted" ? "script.turn_off" : ""
    if (act == "started") service = is_true(inner, "waits") ? "script." word[part[list, 1]] : "script.turn_on"
    said = n ? item_words(n) : ""
}

# The answers of the automations to a line that matters; and to each other one of those in mode restart whose runs are told of, since a new
# run ends the one before.
function ask_all(a) {
    for (a = 1; a <= units; a++) {
        if (!in_force[a] || !matters && !replaces[a]) continue
        found[here, a] = of_script[a] && entry_is != "ask" ? "apart" : answer(a)
        moved_by[here, a] = movers
        if (here == wanted) why[a] = because
        if (here == wanted) was_off[a] = on[a] ? 0 : turned_at[a]
        if (replaces[a] && found[here, a] ~ /fires|may/) {
            end_runs(a)
            ends_as[endings] = found[here, a] == "fires" && !conditions[a] ? "sure" : "may"
        }
    }
    if (matters) sentence[here] = (is == "step" ? "run " number " " : "") said
}

# ---- the runs that are told of

function follow(run) {
    if (here < first_step[run]) {
        if (here >= from_line[run] && is == "step" && number < run && !starts_and_waits()) may_queue[run] = 1
        return
    }
    if (here == first_step[run]) find_askers(run)
    if (is == "step" && number == run) take_step(run, ++steps[run])
    else if (!quiet_at[run] && was_quiet(step_line[run, steps[run]])) quiet_at[run] = here
}

# A run that took no further step, and that nothing ended, is of no automation whose script goes on.
function settle(run, a, n) {
    n = steps[run]
    if (!quiet_at[run] || last_act[run] == "failed" || first_ender(run, step_line[run, n], quiet_at[run])) return
    for (a = 1; a <= units; a++) if (goes_on(a, n)) may_be[run, a] = 0
}

# Which automations the run can be of, by the lines that can have asked for it; a run that waited in a queue begins at a step of an earlier
# one.
function find_askers(run, line, a) {
    for (line = from_line[run]; line < here; line++) {
        for (a = 1; a <= units; a++) {
            if (found[line, a] !~ /fires|may/) continue
            may_be[run, a] = 1
            if (mode[a] == "restart") replaces[a] = 1
        }
    }
    for (a = 1; a <= units; a++) if (in_force[a] && mode[a] == "queued" && may_queue[run]) may_be[run, a] = 1
}

function take_step(run, n, a) {
    step_line[run, n] = here
    if (here == wanted) wanted_step = n
    step_said[run, n] = said
    step_behind[run, n] = last_of_all
    behind_said[run, n] = last_said
    last_act[run] = act
    last_branch[run] = branch
    take_call(run, n)
    quiet_at[run] = 0
    for (a = 1; a <= units; a++) if (may_be[run, a] && !(can_do(a) && is_planned(a, n))) may_be[run, a] = 0
}

# Whether this can be the step n of an automation's script, as far as that goes without a block.
function is_planned(a, n) {
    if (n > planned[a]) return !is_whole[a]
    if (act ~ /^(call|started|halted)$/ && plan_call[a, n] != "" && plan_call[a, n] != service) return 0
    if (act == "helped" && plan_call[a, n] != "" && !is_helping(plan_call[a, n])) return 0
    return act == "failed" || (act == "nothing") == (plan[a, n] !~ /^(acted|called)$/)
}

# Whether the script of an automation goes on at once behind its step n.
function goes_on(a, n) {
    return n < planned[a] && plan[a, n] !~ /^(began|called|tested|stopped|ended the wait)/
}

# Whether an automation's actions hold what this step did.
function can_do(a) {
    if (branch != "[]" && !splits[a]) return 0
    if (act == "fired") return (a, "event", event_type) in names
    if (act ~ /^(call|started|halted)$/) return may_call(a, service)
    if (act == "helped") return may_help(a)
    if (act == "triggered") return may_call(a, "automation.trigger")
    if (act == "switched") return may_call(a, "automation.turn_on") || may_call(a, "automation.turn_off") || may_call(a, "automation.toggle")
    return 1
}

function may_call(a, what) {
    return any_service[a] || (a, "service", what) in names
}
