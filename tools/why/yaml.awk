# The tree of a configuration's text. The program has taken this text before its trace begins, so no fault is looked for: of a text outside
# the profile (docs/FORMATS.md) some tree comes. Leaves are null, plain (as written) or text (in quotes or a block).

function yaml(text, i) {
    sub(/^\357\273\277/, "", text)
    rows = split(text, row, "\n")
    for (i = 1; i <= rows; i++) sub(/\r$/, "", row[i])
    now_at = 1
    to_content()
    if (row[now_at] ~ /^---[ ]*(#.*)?$/) {
        now_at++
        to_content()
    }
    return now_at > rows ? node("null", "") : block(indent(), -1)
}

# To the next row that is not blank.
function to_content() {
    while (now_at <= rows && row[now_at] ~ /^ *(#.*)?$/) now_at++
}

function indent() {
    match(row[now_at], /^ */)
    return RLENGTH
}

function is_item(text) {
    return text ~ /^-( |$)/
}

# How many bytes a row's key and its colon take; 0 where it begins by no key.
function key_size(text) {
    if (text ~ /^'/) return match(text, /^'([^']|'')*' *:( |$)/) ? colon_size(text) : 0
    if (text ~ /^"/) return match(text, /^"([^"\\]|\\.)*" *:( |$)/) ? colon_size(text) : 0
    if (text ~ /^[[{|>#]/ || is_item(text)) return 0
    if (!match(text, /:( |$)/)) return 0
    return substr(text, 1, RSTART) ~ / #/ ? 0 : RSTART
}

function colon_size(text) {
    return substr(text, RLENGTH, 1) == ":" ? RLENGTH : RLENGTH - 1
}

function is_empty(text) {
    return text ~ /^ *( #.*)?$/ || text ~ /^#/
}

# The node at this column of the row; what holds it stands at `hold`.
function block(column, hold, text, n) {
    text = substr(row[now_at], column + 1)
    if (yaml_depth > 64 || !is_item(text) && !key_size(text)) return scalar(text, hold)
    yaml_depth++
    n = is_item(text) ? block_list(column) : block_map(column)
    yaml_depth--
    return n
}

function block_list(column, n, text) {
    n = node("list", "")
    while (now_at <= rows && indent() == column && is_item(substr(row[now_at], column + 1))) {
        text = substr(row[now_at], column + 2)
        if (is_empty(text)) {
            now_at++
            to_content()
            add(n, "", now_at <= rows && indent() > column ? block(indent(), column) : node("null", ""))
        } else {
            row[now_at] = substr(row[now_at], 1, column) " " text
            add(n, "", block(indent(), column))
        }
        to_content()
    }
    return n
}

function block_map(column, n, text, taken, name) {
    n = node("map", "")
    while (now_at <= rows && indent() == column) {
        text = substr(row[now_at], column + 1)
        taken = key_size(text)
        if (!taken) break
        name = unquoted(substr(text, 1, taken - 1))
        text = substr(text, taken + 1)
        if (!is_empty(text)) {
            sub(/^ +/, "", text)
            add(n, name, scalar(text, column))
        } else {
            now_at++
            to_content()
            if (now_at <= rows && indent() > column) add(n, name, block(indent(), column))
            else if (now_at <= rows && indent() == column && is_item(substr(row[now_at], column + 1))) add(n, name, block_list(column))
            else add(n, name, node("null", ""))
        }
        to_content()
    }
    return n
}

# A key without its quotes and blanks.
function unquoted(text) {
    sub(/ +$/, "", text)
    if (text ~ /^'/) return single(substr(text, 2, length(text) - 2))
    if (text ~ /^"/) return double(substr(text, 2, length(text) - 2))
    return text
}

function single(text) {
    gsub(/''/, "'", text)
    return text
}

# A text in double quotes; of the numbered escapes those of ASCII.
function double(text, out, sign, digits) {
    while (match(text, /\\/)) {
        out = out substr(text, 1, RSTART - 1)
        sign = substr(text, RSTART + 1, 1)
        digits = sign == "x" ? 2 : sign == "u" ? 4 : sign == "U" ? 8 : 0
        if (digits) out = out numbered(substr(text, RSTART + 2, digits))
        else out = out (sign == "_" ? "\302\240" : sign == "e" ? "\033" : sign == "0" ? "" : plain_sign(sign))
        text = substr(text, RSTART + 2 + digits)
    }
    return out text
}

function numbered(digits, i, n) {
    for (i = 1; i <= length(digits); i++) n = n * 16 + index("0123456789abcdef", tolower(substr(digits, i, 1))) - 1
    return n > 0 && n < 128 ? sprintf("%c", n) : "\\u" digits
}

# A scalar that begins with this text; its further rows are deeper than `hold`.
function scalar(text, hold, n) {
    if (text ~ /^[|>]/) return literal(text, hold)
    if (text ~ /^[[{]/) {
        flow_text = text
        flow_at = 1
        n = flow()
        now_at++
        return n
    }
    if (text ~ /^'/) return yaml_quoted(text, "^'([^']|'')*'")
    if (text ~ /^"/) return yaml_quoted(text, "^\"([^\"\\\\]|\\\\.)*\"")
    return plain(text, hold)
}

function leaf(text) {
    return text == "" || text == "~" || tolower(text) == "null" ? node("null", "") : node("plain", text)
}

function plain(text, hold, ends) {
    ends = sub(/ +#.*$/, "", text)
    sub(/ +$/, "", text)
    now_at++
    return leaf(ends ? text : text further(hold))
}

# The further rows of a plain scalar, each behind its fold.
function further(hold, out, breaks, i, text, ends) {
    for (i = now_at; i <= rows && !ends; i++) {
        text = row[i]
        if (text ~ /^ *$/) {
            breaks = breaks "\n"
            continue
        }
        match(text, /^ */)
        if (RLENGTH <= hold || text ~ /^ *#/) break
        sub(/^ +/, "", text)
        ends = sub(/ +#.*$/, "", text)
        sub(/ +$/, "", text)
        out = out (breaks == "" ? " " : breaks) text
        breaks = ""
        now_at = i + 1
    }
    return out
}

# A quoted scalar, over as many rows as it takes.
function yaml_quoted(text, form, breaks, more) {
    while (!match(text, form) && now_at < rows) {
        more = row[++now_at]
        gsub(/^ +| +$/, "", more)
        if (more == "") breaks = breaks "\n"
        else {
            if (text ~ /^"/ && text ~ /[^\\](\\\\)*\\$/) text = substr(text, 1, length(text) - 1) breaks more
            else {
                sub(/ +$/, "", text)
                text = text (breaks == "" ? " " : breaks) more
            }
            breaks = ""
        }
    }
    now_at++
    text = substr(text, 2, RLENGTH - 2)
    return node("text", form ~ /^\^'/ ? single(text) : double(text))
}

# A block scalar, without regard of its folds' breaks: what is asked of it is which words it has.
function literal(text, hold, out, i, depth) {
    for (i = ++now_at; i <= rows; i++) {
        if (row[i] !~ /^ *$/) {
            match(row[i], /^ */)
            if (RLENGTH <= hold || depth && RLENGTH < depth) break
            if (!depth) depth = RLENGTH
        }
        out = out substr(row[i], depth + 1) "\n"
        now_at = i + 1
    }
    sub(/\n+$/, "", out)
    if (text ~ /^>/) gsub(/\n/, " ", out)
    return node("text", out)
}

# A node in brackets on one row.
function flow(n, sign, name, from) {
    flow_blanks()
    sign = substr(flow_text, flow_at, 1)
    if (sign != "[" && sign != "{" || yaml_depth > 64) return flow_scalar(0)
    yaml_depth++
    n = node(sign == "[" ? "list" : "map", "")
    flow_at++
    for (flow_blanks(); flow_at <= length(flow_text) && substr(flow_text, flow_at, 1) !~ /[]}]/; flow_blanks()) {
        from = flow_at
        if (sign == "[") add(n, "", flow())
        else {
            name = word[flow_scalar(1)]
            flow_blanks()
            if (substr(flow_text, flow_at, 1) == ":") {
                flow_at++
                add(n, name, flow())
            } else add(n, name, node("null", ""))
        }
        flow_blanks()
        if (substr(flow_text, flow_at, 1) == "," || flow_at == from) flow_at++
    }
    flow_at++
    yaml_depth--
    return n
}

function flow_blanks() {
    while (substr(flow_text, flow_at, 1) == " ") flow_at++
}

# A scalar in brackets; a key's plain one ends before its colon.
function flow_scalar(is_key, rest, text, form) {
    rest = substr(flow_text, flow_at)
    if (rest ~ /^['"]/) {
        form = rest ~ /^'/ ? "^'([^']|'')*'" : "^\"([^\"\\\\]|\\\\.)*\""
        match(rest, form)
        flow_at += RLENGTH > 0 ? RLENGTH : length(rest)
        text = substr(rest, 2, RLENGTH - 2)
        return node("text", rest ~ /^'/ ? single(text) : double(text))
    }
    match(rest, /^[^],[{}]*/)
    text = substr(rest, 1, RLENGTH)
    if (is_key && match(text, /:( |$)/)) text = substr(text, 1, RSTART - 1)
    flow_at += length(text) > 0 ? length(text) : (rest ~ /^[],:}]/ ? 0 : 1)
    gsub(/^ +| +$/, "", text)
    return leaf(text)
}
