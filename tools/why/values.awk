# Values as a trace prints them, read into a tree of numbered nodes: kind[n] is null, flag, number, text, list or map, word[n] is what a
# leaf says, and shown[n] how it is printed. A list or map has size[n] parts part[n, i] from 1; in a map each has its key[n, i].

function node(of_kind, text) {
    kind[++nodes] = of_kind
    word[nodes] = text
    size[nodes] = 0
    return nodes
}

function add(n, name, m) {
    part[n, ++size[n]] = m
    key[n, size[n]] = name
    at_key[n, name] = m
}

# What stands under a key of a map; 0 where nothing does.
function get(n, name) {
    return (n, name) in at_key ? at_key[n, name] : 0
}

# Whether the keys of a map are these, in this order.
function has_keys(n, names, i, keys) {
    if (kind[n] != "map") return 0
    for (i = 1; i <= size[n]; i++) keys = keys (i > 1 ? " " : "") key[n, i]
    return keys == names
}

# The value that a text is the print of; 0 where it is none.
function printed(text, n) {
    source = text
    at = 1
    depth = 0
    n = value()
    return n && at > length(source) ? n : 0
}

function value(first, from, n) {
    if (depth > 64) return 0
    from = at
    first = substr(source, at, 1)
    if (first == "{" || first == "[") {
        depth++
        n = parts(first)
        depth--
    }
    else if (first == "\"") n = string() ? node("text", got) : 0
    else if (match(substr(source, at, 40), /^(null|true|false|-?[0-9]+(\.[0-9]+)?)/)) {
        at += RLENGTH
        first = substr(source, from, RLENGTH)
        n = node(first == "null" ? "null" : first ~ /e$/ ? "flag" : "number", first)
    }
    if (n) shown[n] = substr(source, from, at - from)
    return n
}

# A list or a map, from its bracket.
function parts(opening, n, m, name, closing) {
    n = node(opening == "{" ? "map" : "list", "")
    closing = opening == "{" ? "}" : "]"
    if (substr(source, ++at, 1) == closing) {
        at++
        return n
    }
    for (;;) {
        name = ""
        if (opening == "{") {
            if (!string()) return 0
            name = got
            if ((n, name) in at_key || substr(source, at++, 1) != ":") return 0
        }
        m = value()
        if (!m) return 0
        add(n, name, m)
        name = substr(source, at++, 1)
        if (name == closing) return n
        if (name != ",") return 0
    }
}

# A string, from its opening quote: whether it is one. Its text is then in `got`.
function string(rest, sign) {
    if (substr(source, at++, 1) != "\"") return 0
    got = ""
    for (;;) {
        rest = substr(source, at)
        if (!match(rest, /["\\]/)) return 0
        got = got substr(rest, 1, RSTART - 1)
        at += RSTART
        if (substr(rest, RSTART, 1) == "\"") return 1
        sign = substr(rest, RSTART + 1, 1)
        at++
        if (sign == "u") {
            if (substr(rest, RSTART + 2, 4) !~ /^00[01][0-9a-f]$/) return 0
            at += 4
            got = got "\\" substr(rest, RSTART + 1, 5)
        } else if (index("\"\\nrt", sign) && sign != "") got = got plain_sign(sign)
        else return 0
    }
}

function plain_sign(sign) {
    return sign == "n" ? "\n" : sign == "r" ? "\r" : sign == "t" ? "\t" : sign
}

# A long string without its quotes, at once.
function plain_text(text) {
    gsub(/\\\\/, "\001", text)
    gsub(/\\n/, "\n", text)
    gsub(/\\r/, "\r", text)
    gsub(/\\t/, "\t", text)
    gsub(/\\"/, "\"", text)
    gsub(/\001/, "\\", text)
    return text
}

# Lets go of all nodes behind this one.
function forget(n, i) {
    for (; nodes > n; nodes--)
        for (i = 1; i <= size[nodes]; i++) delete at_key[nodes, key[nodes, i]]
}
