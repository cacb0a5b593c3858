# Scripts that are called: which run a caller waits for, and where it goes on. A step that starts a script and waits has its second place
# where the run that it started has ended; which run that is stands in no line. So it is looked for among those that can have begun then.

# The run whose step the wanted line is, as far as a look at that line tells.
function run_of_wanted(line, i, field) {
    for (i = 0; i < wanted && (getline line <trace) > 0; i++) continue
    close(trace)
    return i == wanted && split(line, field, /[:,]/) > 4 && field[1] == "{\"worker\"" ? field[4] : 0
}

# The first reading: a step may begin a call that waits, or be the place behind one. Of runs that are told of, `called` gathers those that
# they can have called: those that can have been asked for at the call, and those that had a step since the last line of a source.
function note_step(is_first, k, run) {
    if (is_first) for (k in open_of_told) if (from_line[number] <= open_of_told[k]) add_called(number, k)
    k = number SUBSEP branch
    if (k in open_call) {
        went_on[open_call[k]] = here
        if (k in open_of_told) for (run in in_burst) if (first_step[run] > open_call[k]) add_called(run, k)
        delete open_call[k]
        delete open_of_told[k]
    }
    if (starts_and_waits()) {
        open_call[k] = here
        caller_at[here] = number
        if (number == wanted_run || number in is_about) open_of_told[k] = here
    }
    in_burst[number] = 1
}

function starts_and_waits() {
    return act == "started" && rest ~ /"waits":true\}\}$/
}

# A run, if it is later than the caller in this place, can be one that it called.
function add_called(run, k, part) {
    split(k, part, SUBSEP)
    if (run + 0 > part[1] + 0) called[run] = 1
}

# Behind the first reading these are followed too, without being told of.
function follow_called(run) {
    for (run in called) if (!(run in is_about) && abouts < most) concern(run + 0)
}

# The second reading: the step of a run that is told of begins a call that waits, or is the place behind one.
function take_call(run, n) {
    if ((run, branch) in open_step) {
        behind_call[run, n] = open_step[run, branch]
        delete open_step[run, branch]
    }
    if (!starts_and_waits()) return
    open_step[run, branch] = n
    script_called[run, n] = service
    unit_called[run, n] = number_of[service]
}

# The run that step n of a run called, in words; `nobody` where none is found. It is of the script, later than its caller, and asked for there
# or queued. Where the caller goes on at its step i, it had ended: with one source, since its last line.
function called_words(run, n, i, j, found, line, a, list, sure, sures) {
    line = step_line[run, n]
    a = unit_called[run, n]
    for (j = 1; j <= abouts; j++) {
        found = about[j]
        if (found <= run || !can_be_called(found, line, a) || i && !has_ended(found, run, i)) continue
        list = list (list == "" ? "" : " or ") "run " found
        if (!is_called(found, line, a)) continue
        sure = found
        sures++
    }
    nobody = list == ""
    if (sures == 1) return "run " sure " of " script_called[run, n]
    return "the run of " script_called[run, n] " that it had started at line " line (nobody ? "" : " (perhaps " list ")")
}

function can_be_called(run, line, a) {
    if (first_step[run] <= line || !may_be[run, a]) return 0
    return may_begin(run, line, a) || mode[a] == "queued" && may_queue[run]
}

# Whether a run that can be called is no other script's, and asked for by no other line.
function is_called(run, line, a, other) {
    for (other = 1; other <= units; other++) if (other != a && may_be[run, other]) return 0
    if (mode[a] == "queued" && may_queue[run]) return 1
    for (other = from_line[run]; other < first_step[run]; other++) if (other != line && may_begin(run, other, a)) return 0
    return 1
}

# Whether a run can have ended right before the step i of its caller.
function has_ended(run, caller, i, last, j) {
    last = step_line[run, steps[run]]
    if (last > step_line[caller, i]) return 0
    if (several_sources || step_behind[run, steps[run]] == step_behind[caller, i]) return 1
    for (j = 1; j <= endings; j++)
        if (ending[j] >= step_behind[caller, i] && ending[j] < step_line[caller, i] && (!ends_of[j] || may_be[run, ends_of[j]])) return 1
    return 0
}

# Where a run goes on at its step i, behind a call that waited.
function behind_words(run, i, out) {
    out = called_words(run, behind_call[run, i], i)
    return "went on, since " out " had ended" (nobody ? ", or none began" : "")
}

# A run whose last step is a call that waits.
function waiting_words(run, n, ender, out) {
    out = "the end of " called_words(run, n, 0)
    ender = first_ender(run, step_line[run, n], 0)
    return ender ? "it waited for " out " when line " ender " " verb : "it waits for " out
}

# Who waits for the run that a line started.
function caller_words(line) {
    return "run " caller_at[line] " waited for its end" (line in went_on ? ", and went on at line " went_on[line] : "")
}
