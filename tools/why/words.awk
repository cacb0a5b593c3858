# What is told, in words.

function counted(n, what) {
    return n " " (n == 1 ? what : what ~ /y$/ ? substr(what, 1, length(what) - 1) "ies" : what "s")
}

# A text as it is where it is one plain word, else in quotes.
function quoted(text) {
    if (text ~ /^[A-Za-z0-9_.:+-]+$/) return text
    gsub(/\\/, "\\\\", text)
    gsub(/"/, "\\\"", text)
    gsub(/\n/, "\\n", text)
    gsub(/\r/, "\\r", text)
    gsub(/\t/, "\\t", text)
    gsub(/[\001-\037\177]/, "?", text)
    return "\"" text "\""
}

function with_data(n) {
    return n && size[n] ? " with " shown[n] : ""
}

function code_words(code) {
    return code " (./hearth explain " code ")"
}

function command_words(n) {
    if (act == "report") return report_words()
    if (act == "gone") return entity[1] " was reported gone" (stood[1] ? "" : ", which was not there")
    if (act == "event") return "the event " quoted(event_type) " came" with_data(event_data)
    if (act == "moment") return (passes ? "the time became " time : "a moment came that is not later than " time ", and passed no time") (finished == "" ? "" : ", and " finished " finished")
    if (act == "switch") return word[get(n, "switch")] " was turned " word[get(n, "to")] runs_words(n)
    if (act == "trigger") return word[get(n, "trigger")] " was asked to run, " (skips ? "whatever its conditions" : "if its conditions hold")
    if (act == "restart") return "all was restarted: no states, no runs"
    if (act == "reload") return reload_words()
    if (act == "refused") return "the line was refused with " code_words(word[get(n, "refused")]) " and changed nothing"
    return get(n, "lost") ? "the source was lost" : "the source was too long"
}

function reload_words(out) {
    if (others_told new_told gone_told == "") return "the same automations and scripts came into force again, and all goes on"
    out = "another configuration came into force:"
    if (others_told != "") out = out " changed " others_told ";"
    if (new_told != "") out = out " new " new_told ";"
    if (gone_told != "") out = out " gone " gone_told ";"
    return kept ? out " " kept " as before" : substr(out, 1, length(out) - 1)
}

function runs_words(n) {
    if (word[get(n, "to")] == "on") return ""
    return is_true(n, "stop_actions") ? ", and its runs ended" : ", and its runs go on"
}

function report_words(out) {
    out = entity[1] " was reported as " quoted(new_state[1]) (new_attributes[1] == "{}" ? "" : " with " new_attributes[1])
    if (!stood[1]) return out ", and was not there before"
    if (old_state[1] != new_state[1]) return out ", and was " quoted(old_state[1]) " before (line " old_line[1] ")"
    return out (old_attributes[1] == new_attributes[1] ? ", just as before" : ", as before, with other attributes") " (line " old_line[1] ")"
}

function item_words(n, inner, i, out) {
    inner = get(n, act)
    if (act == "call") {
        for (i = 1; i <= size[get(inner, "target")]; i++) out = out (i > 1 ? ", " : " for ") word[part[get(inner, "target"), i]]
        return "called " word[get(inner, "service")] out with_data(get(inner, "data"))
    }
    if (act == "fired") return "fired the event " quoted(event_type) with_data(event_data)
    if (act == "failed") return "failed with " code_words(word[inner])
    if (act == "switched") {
        for (i = 1; i <= size[inner]; i++) out = out (i > 1 ? ", " : "") "turned " automation_in(part[inner, i]) (is_true(part[inner, i], "on") ? " on" : " off")
        return out == "" ? "turned no automation on or off" : out
    }
    if (act == "started") {
        for (i = 1; i <= size[get(inner, "scripts")]; i++) out = out (i > 1 ? ", " : " ") "script." word[part[get(inner, "scripts"), i]]
        return "started" (out == "" ? " no script" : out) with_data(get(inner, "data")) (is_true(inner, "waits") ? ", and waits for the end of that run" : "")
    }
    if (act == "halted") {
        for (i = 1; i <= size[inner]; i++) out = out (i > 1 ? ", " : " ") "script." word[part[inner, i]]
        return "ended the runs of" (out == "" ? " no script" : out)
    }
    if (act == "helped") return change_words(inner)
    if (act == "triggered") {
        for (i = 1; i <= size[get(inner, "automations")]; i++) out = out (i > 1 ? ", " : " ") "automation." word[part[get(inner, "automations"), i]]
        return "asked" (out == "" ? " no automation" : out) " to run, " (skips ? "whatever the conditions" : "if the conditions hold")
    }
    return ""
}

function automation_in(n) {
    return "automation." word[get(n, "automation")]
}

# ---- the answer

function tell() {
    if (wanted_is == "step") {
        read_run(about[1])
        wanted_said = "run " about[1] " " step_words(about[1], wanted_step)
    }
    print "line " wanted " of " lines ": " wanted_said
    if (wanted_turn != "") print "    " wanted_turn ", at " wanted_time
    if (wanted_is == "step") tell_run(about[1])
    if (wanted_begins) tell_begun()
    if (wanted_is == "line") tell_moved()
    if (broken) print "line " broken " is no line that may stand there: nothing from it on was read"
    else if (!ended) print "the trace has no end line: the run was cut short"
}

function may_begin(run, line, a) {
    return may_be[run, a] && found[line, a] ~ /fires|may/
}

# The automations that the run can be of, and the lines that can have asked for it.
function read_run(run, a, line, by, any) {
    whose = askers = ""
    asker_line = 0
    owners = asker_count = queues = 0
    for (a = 1; a <= units; a++) {
        if (!may_be[run, a]) continue
        whose = whose (owners++ ? " or " : "") whole_name(a)
        owner = a
        if (mode[a] == "queued" && may_queue[run]) queues = 1
    }
    for (line = from_line[run]; line < first_step[run]; line++) {
        by = ""
        for (a = any = 0; ++a <= units;) {
            if (!may_begin(run, line, a)) continue
            any = 1
            if (moved_by[line, a] != "") by = by "        by " (owners > 1 ? whole_name(a) ", " : "its ") moved_by[line, a] "\n"
        }
        if (any) asker_line = line
        if (any) askers = askers "    " (asker_count++ ? "or " : "") "asked for by line " line ": " sentence[line] "\n" by
    }
    if (queues) askers = askers "    " (asker_count ? "or it" : "it") " waited in the queue behind an earlier run, asked for by an earlier line\n"
}

function tell_run(run, i, behind) {
    read_run(run)
    print "run " run " of " (owners ? whose : "an automation that can't be told") (owners > 1 ? " (the trace does not tell which)" : "")
    printf "%s", askers
    for (i = 1; i <= steps[run]; i++) {
        if (steps[run] > 20 && i > 10 && i <= steps[run] - 10) {
            if (i == 11) print "    .. " counted(steps[run] - 20, "step")
            continue
        }
        behind = step_behind[run, i]
        if (i > 1 && behind != step_behind[run, i - 1]) print "    then, behind line " behind ": " behind_said[run, i]
        print "    line " step_line[run, i] (step_line[run, i] == wanted ? ", this one" : "") ": it " step_words(run, i)
    }
    print "    " ending_words(run, step_line[run, steps[run]], step_in_plan(run, steps[run]))
    if (asker_count == 1 && !queues && asker_line in caller_at) print "    " caller_words(asker_line)
}

# What the configuration tells of a step: that of an automation whose script has no block before it.
function step_in_plan(run, i) {
    return owners == 1 && i <= planned[owner] ? plan[owner, i] : ""
}

function step_words(run, i) {
    if (step_said[run, i] != "") return step_said[run, i]
    if ((run, i) in behind_call) return behind_words(run, i)
    if (step_in_plan(run, i) != "") return step_in_plan(run, i)
    return "took a step that shows nothing outside (a test, variables, a choice, or the begin or end of a delay, wait or block)"
}

# How the run ended, as far as the trace tells; `step` is its last one, where the configuration tells which that is.
function ending_words(run, last, step, waits_on, ender) {
    if (last_act[run] == "failed" && last_branch[run] == "[]") return "it ended at line " last ": it failed"
    if (!quiet_at[run]) return "the trace stops before it tells whether a further step came"
    if ((run, steps[run]) in script_called) return waiting_words(run, steps[run])
    if (step ~ /^began/) {
        ender = first_ender(run, last, 0)
        return "the " substr(step, 9) " that began at line " last (ender ? " was not over when line " ender " " verb : " is not over")
    }
    waits_on = step == "" && (last_act[run] == "nothing" || last_branch[run] != "[]") && may_wait(run)
    ender = first_ender(run, last, waits_on ? 0 : quiet_at[run])
    if (waits_on)
        return "no step follows: it ended at line " last ", or a delay or wait of it is not over" (ender ? "; if so, line " ender " " verb : "")
    if (step == "tested a condition" && !(steps[run] == planned[owner] && is_whole[owner])) step = "the condition did not hold"
    else if (step == "stopped") step = "by its `stop`"
    else if (step == "ended the wait" && steps[run] < planned[owner]) step = "its wait timed out"
    else step = "that was its last step"
    return "it ended at line " last ": " step (ender ? ", or line " ender " " verb " before its next one" : "")
}

function may_wait(run, a) {
    for (a = 1; a <= units; a++) if (may_be[run, a] && waits[a]) return 1
    return !owners
}

# The first line from `last` on, and before `until`, that ends the run if it has not ended yet; `verb` says how surely.
function first_ender(run, last, until, i) {
    for (i = 1; i <= endings; i++) {
        if (ending[i] < last || until && ending[i] >= until || ends_of[i] && !may_be[run, ends_of[i]]) continue
        verb = !ends_of[i] || owners == 1 && ends_as[i] == "sure" ? "ended it" : "may have ended it"
        return ending[i]
    }
    return 0
}

# The runs that began at the line, and the automations that it concerns and that began none.
function tell_begun(i, a, run, begun, none, all) {
    for (i = 1; i <= abouts; i++) {
        run = about[i]
        if (first_step[run] <= wanted) continue
        read_run(run)
        for (a = 1; a <= units && !may_begin(run, wanted, a); a++) continue
        if (a > units) continue
        for (a = 1; a <= units; a++) if (may_begin(run, wanted, a)) begun[a] = 1
        if (asker_count == 1 && !queues) print "it asked for this run:"
        else print "it may have asked for this run:"
        tell_run(run)
    }
    for (a = 1; a <= units; a++) {
        if (found[wanted, a] == "") continue
        all++
        if (found[wanted, a] == "apart") none++
        else if (!(a in begun)) tell_none(a)
    }
    if (abouts == most) print "further runs may have begun at it"
    if (wanted_act == "started") return
    if (none == all) print "no automation has a trigger for such a line: no run began"
    else if (none) print "no other automation has a trigger for such a line"
}

# Which runs went on behind a line of a source, before the next one.
function tell_moved(i, out) {
    for (i = 1; i <= moves; i++) out = out (i == 1 ? "" : ", ") "run " moved[i] " (line " moved_at[moved[i]] ")"
    if (out != "") print "behind it went on: " out
}

function tell_none(a, how) {
    how = found[wanted, a]
    if (how ~ /fires|may/ && (!all_begun || cut_at)) {
        print whole_name(a) ": " (cut_at ? "line " cut_at " restarted all" : "the trace stops") " before it tells whether a run of it began"
        printf "%s", why[a]
        return
    }
    if (how == "off") how = "it was turned off" (was_off[a] == 1 ? " from the start" : " (line " was_off[a] ")")
    else if (how == "no") how = "no trigger of it fired"
    else how = (how == "may" ? "no trigger of it fired, or " : wanted_asks ? "" : "its trigger fired, but ") refusal(a)
    print whole_name(a) " began no run: " how
    printf "%s", why[a]
}

# Why an attempt came to nothing.
function refusal(a, by_test, by_mode) {
    if (conditions[a] && !wanted_skips) by_test = "a condition did not hold"
    if (mode[a] == "single") by_mode = "a run of it had not ended (mode single)"
    else if (mode[a] == "queued") by_mode = "a run of it had not ended, and this one waits or found the queue full"
    else if (mode[a] == "parallel") by_mode = "as many runs of it as may be had not ended (mode parallel)"
    return by_test (by_test != "" && by_mode != "" ? ", or " : "") by_mode
}
