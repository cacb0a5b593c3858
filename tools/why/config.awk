# The automations and scripts of a configuration, as far as a trace is explained by them: names, modes, triggers, how many conditions, and
# which services and events their actions name. units counts them from 1, those that a reload brings behind those before it: in_force[a]
# tells whether unit a is there now, number_of[NAME] which one has a name now, and of_script[a] whether it is a script.

function configure(text, root, list, scripts, i, listed_before) {
    root = yaml(text)
    split("", number_before_reload)
    for (i in number_of) number_before_reload[i] = number_of[i]
    split("", number_of)
    split("", is_script)
    split("", in_force)
    automations = 0
    listed_before = script_names
    script_names = ""
    if (kind[root] == "map") {
        scripts = get(root, "script")
        # (a reload brings no helpers: those of the boot stay)
        if (!configured) read_helpers(root)
        root = get(root, "automation")
    }
    configured = 1
    has_scripts = scripts && size[scripts]
    if (has_scripts) for (i = 1; i <= size[scripts]; i++) {
        is_script["script." key[scripts, i]] = 1
        script_names = script_names " " key[scripts, i]
    }
    other_scripts = script_names != listed_before
    list = as_list(root)
    for (i = 1; i <= size[list]; i++) automation(part[list, i])
    if (has_scripts) for (i = 1; i <= size[scripts]; i++) script("script." key[scripts, i], part[scripts, i])
}

# The number of the unit of this name, where it is a new one; 0 where the one that had the name goes on: it is written as before, but for
# what is not looked at, and none of its calls is another one since there are other scripts.
function entered(called, n, is_called, a, form) {
    form = written(n, 1)
    a = number_before_reload[called]
    if (!a || form_of[a] != form || names_script[a] && other_scripts) {
        a = ++units
        name[a] = called
        form_of[a] = form
        of_script[a] = is_called
    }
    in_force[a] = 1
    number_of[called] = a
    return a == number_before_reload[called] ? 0 : a
}

# All that is written in a node; of a whole automation or script not what makes no difference.
function written(n, is_whole_unit, i, out) {
    if (kind[n] != "list" && kind[n] != "map") return kind[n] "\003" word[n] "\001"
    for (i = 1; i <= size[n]; i++)
        if (!is_whole_unit || key[n, i] !~ /^(alias|id|description|icon|fields|trace|max_exceeded)$/) out = out key[n, i] "\002" written(part[n, i], 0)
    return kind[n] "\004" out "\005"
}

function script(called, n, u, m) {
    u = entered(called, n, 1)
    if (!u) return
    mode[u] = get(n, "mode") ? word[get(n, "mode")] : "single"
    m = as_list(get(n, "sequence"))
    read_actions(u, m)
    plan_steps(u, m)
}

# A unit's name as that of an entity.
function whole_name(a) {
    return (of_script[a] ? "" : "automation.") name[a]
}

# A list as it is; nothing for null; else the one node.
function as_list(n, list) {
    if (n && kind[n] == "list") return n
    list = node("list", "")
    if (n && kind[n] != "null") add(list, "", n)
    return list
}

function either(n, first, second) {
    return get(n, first) ? get(n, first) : get(n, second)
}

function automation(n, a, m) {
    automations++
    a = entered(free_name(get(n, "alias") ? get(n, "alias") : get(n, "id")), n, 0)
    if (!a) return
    mode[a] = get(n, "mode") ? word[get(n, "mode")] : "single"
    triggers[a] = as_list(either(n, "triggers", "trigger"))
    conditions[a] = enabled_parts(as_list(either(n, "conditions", "condition")))
    m = get(n, "initial_state")
    initial[a] = m ? is_yes(m) : -1
    m = as_list(either(n, "actions", "action"))
    read_actions(a, m)
    plan_steps(a, m)
}

# The slug of a text; where an earlier automation has it, the first free one of NAME_2, NAME_3 and so on.
function free_name(n, slug, i) {
    slug = n ? tolower(word[n]) : ""
    gsub(/[^a-z0-9]+/, "_", slug)
    gsub(/^_|_$/, "", slug)
    if (slug == "") slug = "unnamed"
    if (!(slug in number_of)) return slug
    for (i = 2; (slug "_" i) in number_of; i++) continue
    return slug "_" i
}

function is_flag(text) {
    return tolower(text) ~ /^(true|yes|on|false|no|off)$/
}

function is_yes(n) {
    return tolower(word[n]) ~ /^(true|yes|on)$/
}

function is_disabled(n) {
    return kind[n] == "map" && get(n, "enabled") && !is_yes(get(n, "enabled"))
}

function enabled_parts(list, i, count) {
    for (i = 1; i <= size[list]; i++) count += !is_disabled(part[list, i])
    return count + 0
}

function is_template(text) {
    return text ~ /\{\{|\{%|\{#/
}

# What the actions may do: names[a, "service", S] and names[a, "event", E] for each that they name, any_service[a] where a service is a
# template, waits[a] where they hold a delay or a wait.
function read_actions(a, n, i, k, m) {
    if (!n) return
    for (i = 1; i <= size[n]; i++) {
        k = key[n, i]
        m = part[n, i]
        if (k == "delay" || k ~ /^wait_/) waits[a] = 1
        if (has_scripts && (k == "action" || k == "service") && (is_template(word[m]) || calls_script(word[m]))) waits[a] = 1
        if ((k == "action" || k == "service") && (is_template(word[m]) || word[m] ~ /^script\./)) names_script[a] = 1
        if (k == "parallel") splits[a] = 1
        if (kind[m] == "plain" || kind[m] == "text") {
            if (k == "action" || k == "service") {
                if (is_template(word[m])) any_service[a] = 1
                else names[a, "service", word[m]] = 1
            } else if (k == "event") names[a, "event", word[m]] = 1
        }
        read_actions(a, m)
    }
}

# The steps of a script up to its first block, in words: plan[a, 1 .. planned[a]], and whether these are all of it.
function plan_steps(a, list, i, n, s) {
    for (i = 1; i <= size[list]; i++) {
        n = part[list, i]
        if (is_disabled(n)) continue
        if (kind[n] != "map" || get(n, "condition") || get(n, "and") || get(n, "or") || get(n, "not")) plan[a, ++planned[a]] = "tested a condition"
        else if (get(n, "delay")) two_steps(a, "delay")
        else if (get(n, "wait_template") || get(n, "wait_for_trigger")) two_steps(a, "wait")
        else if (get(n, "stop")) plan[a, ++planned[a]] = "stopped"
        else if (get(n, "variables")) plan[a, ++planned[a]] = "set variables"
        else if (get(n, "action") || get(n, "service") || get(n, "event")) {
            s = word[either(n, "action", "service")]
            plan[a, ++planned[a]] = calls_script(s) ? "called" : "acted"
            if (!is_template(s)) plan_call[a, planned[a]] = s
            if (calls_script(s)) plan[a, ++planned[a]] = "went on"
            if (has_scripts && is_template(s)) return
        } else return
    }
    if (!planned[a]) plan[a, ++planned[a]] = "had nothing to do"
    is_whole[a] = 1
}

# Whether a service is a script, the end of whose run the next step waits for.
function calls_script(service) {
    return service in is_script && service !~ /^script\.(turn_on|turn_off|toggle)$/
}

function two_steps(a, what) {
    plan[a, ++planned[a]] = "began a " what
    plan[a, ++planned[a]] = "ended the " what
}

# The texts of a node, each split at commas where `parted` says so, into texts[1 ..].
function read_texts(n, parted, list, i, j, count, pieces, total) {
    list = as_list(n)
    total = 0
    for (i = 1; i <= size[list]; i++) {
        count = parted ? split(word[part[list, i]], pieces, ",") : 0
        if (!parted) texts[++total] = word[part[list, i]]
        for (j = 1; j <= count; j++) {
            gsub(/^[ \t]+|[ \t]+$/, "", pieces[j])
            texts[++total] = pieces[j]
        }
    }
    return total
}

# The texts, with commas between them.
function listed(n, i, count, out) {
    count = read_texts(n, 0)
    for (i = 1; i <= count; i++) out = out (i > 1 ? ", " : "") texts[i]
    gsub(/[\001-\037\177]/, "?", out)
    return out
}

function is_among(n, parted, text, i, count) {
    count = read_texts(n, parted)
    for (i = 1; i <= count; i++) if (texts[i] == text) return 1
    return 0
}
