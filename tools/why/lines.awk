# The lines of a trace, read one after the other: each has the form of docs/TRACE.md, but what stands in attributes and data is not looked
# at.

# What a line is: boot, line, step, again or end, or nothing. Its parts are then in `turn` (the source or worker), `number` (of the line
# or the run), `branch`, `rest` (the command or item) and `act` (which one that is).
function scan(text, head, field) {
    is = act = ""
    if (text !~ /\}$/ || text ~ /[\001-\037]/) return 0
    if (match(text, /^\{"source":(0|[1-9][0-9]*),"number":(0|[1-9][0-9]*),"cmd":\{/)) is = "line"
    else if (match(text, /^\{"worker":(0|[1-9][0-9]*),"run":[1-9][0-9]*,"branch":\[((0|[1-9][0-9]*)(,(0|[1-9][0-9]*))*)?\],"item":\{/)) is = "step"
    else if (text ~ /^\{"boot":\{"config":"/) is = "boot"
    else if (text ~ /^\{"again":[1-9][0-9]*\}$/) is = "again"
    else if (text ~ /^\{"end":[1-9][0-9]*\}$/) is = "end"
    if (is == "line" || is == "step") {
        head = substr(text, 1, RLENGTH - 1)
        rest = substr(text, RLENGTH, length(text) - RLENGTH)
        split(head, field, /[:,]/)
        turn = field[2] + 0
        number = field[4] + 0
        branch = is == "step" ? substr(head, index(head, "["), index(head, "]") - index(head, "[") + 1) : ""
        act = is == "step" ? item_of(rest) : command_of(rest)
        if (act == "") is = ""
    }
    return is != ""
}

function command_of(text) {
    if (text ~ /^\{"report":"[a-z0-9_]+\.[a-z0-9_]+","state":"([^"\\]|\\.)*","attributes":\{.*\}\}$/) return "report"
    if (text ~ /^\{"moment":"[12][0-9][0-9][0-9]-[01][0-9]-[0-3][0-9]T[0-2][0-9]:[0-5][0-9]:[0-5][0-9]\.[0-9][0-9][0-9]Z"\}$/) return "moment"
    if (text ~ /^\{"event":"([^"\\]|\\.)*","data":\{.*\}\}$/) return "event"
    if (text ~ /^\{"gone":"[a-z0-9_]+\.[a-z0-9_]+"\}$/) return "gone"
    if (text ~ /^\{"switch":"automation\.[a-z0-9_]+","to":"(on|off)","stop_actions":(true|false)\}$/) return "switch"
    if (text ~ /^\{"trigger":"automation\.[a-z0-9_]+","skip_condition":(true|false)\}$/) return "trigger"
    if (text ~ /^\{"restart":true\}$/) return "restart"
    if (text ~ /^\{"reload":"([^"\\]|\\.)*"\}$/) return "reload"
    if (text ~ /^\{"refused":"L([1-9]|10|12|13|14)"\}$/) return "refused"
    return text ~ /^\{"(lost|too_long)":true\}$/ ? "shut" : ""
}

function item_of(text) {
    if (text ~ /^\{"nothing":true\}$/) return "nothing"
    if (text ~ /^\{"call":\{"service":"[a-z0-9_]+\.[a-z0-9_]+","target":\[[a-z0-9_.",]*\],"data":\{.*\}\}\}$/) return "call"
    if (text ~ /^\{"fired":\{"event":"([^"\\]|\\.)*","data":\{.*\}\}\}$/) return "fired"
    if (text ~ /^\{"switched":\[[a-z0-9_{}":,]*\]\}$/) return "switched"
    if (text ~ /^\{"triggered":\{"automations":\[[a-z0-9_",]*\],"skip_condition":(true|false)\}\}$/) return "triggered"
    if (text ~ /^\{"started":\{"scripts":\[[a-z0-9_",]*\],"data":\{.*\},"waits":(true|false)\}\}$/) return "started"
    if (text ~ /^\{"halted":\[[a-z0-9_",]*\]\}$/) return "halted"
    if (text ~ /^\{"helped":\[(\{"entity":"[a-z0-9_]+\.[a-z0-9_]+","text":"[a-z0-9-]+","span":(null|[0-9]+),"event":(null|"timer\.[a-z]+")\},?)*\]\}$/) return "helped"
    return text ~ /^\{"failed":"F[1-7]"\}$/ ? "failed" : ""
}

# The next line of the trace, if it may stand there: the first is a boot and no other, each source's lines are counted, behind a restart an
# again line stands and nowhere else one, and nothing stands behind the end line. Else the trace is read no further, and `broken` is the
# line where it ends so.
function next_line() {
    if (ended || broken || (getline text <trace) <= 0) return 0
    here++
    if (!scan(text) || (is == "boot") != (here == 1) || is == "line" && (turn > 15 || number != lines_of[turn]++ + 0) ||
        (is == "again") != due || due && text != "{\"again\":" (++agains) "}" || is == "end" && text != "{\"end\":" (here - 1) "}") {
        broken = here
        return 0
    }
    ended = is == "end"
    due = is == "line" && act == "restart"
    if (is == "again") {
        forget_lines()
        opened_at = here
    }
    if (is == "line") {
        if (turn in last_line) line_before[turn] = last_line[turn]
        else if (++sources > 1) several_sources = 1
        last_line[turn] = here
    }
    return 1
}

# At the begin of a segment each source may put a line, whatever its earlier lines are.
function forget_lines(k) {
    for (k in last_line) {
        delete last_line[k]
        delete line_before[k]
    }
    sources = 0
}

# From the front again.
function rewind(k) {
    close(trace)
    forget_lines()
    for (k in lines_of) delete lines_of[k]
    here = ended = broken = due = agains = opened_at = 0
}

# From which line on a run that takes its first step now can have begun, in this segment. A source's line stands only if no step was due at
# some time since its line before there; while there is one source, none was due when its last line came.
function earliest(k, from, line) {
    from = opened_at ? opened_at : 1
    for (k in line_before) {
        line = sources == 1 ? last_line[k] : line_before[k] + 1
        if (line > from) from = line
    }
    return from
}
