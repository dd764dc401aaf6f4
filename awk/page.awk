# Reads formatted pages, in which bold characters are struck over themselves and underlined ones over `_`, and prints what
# they say of something.
#
#   faces    none: as plain text; on: with escape sequences; off: as they come
#   option   a word: only the paragraphs of that option, each below its heading
#   list     1: only the options, each as it stands before its paragraph
#   links    1: addresses, and pages that are named in bold, underlined or below SEE ALSO, are links of the terminal (OSC 8)
#   tag      a word: the rows that it leads to, as tags of GNU Global: of headings, of options, with their dashes or
#            without, and of other words before a paragraph of their own
#
# It ends with 9 where no option was found. Where half of the rows of a section begin in bold the others don't count.

# How many bytes the character at a place of a row has.
function size(row, at,   first) {
    first = substr(row, at, 1)
    return first < "\300" ? 1 : first < "\340" ? 2 : first < "\360" ? 3 : 4
}

# A row without what is struck over.
function text_of(row) {
    if (index(row, "\010")) gsub(/([\001-\177]|[\300-\337].|[\340-\357]..|[\360-\367]...)\010/, "", row)
    return row
}

# Where the characters end in a row that have so many bytes without what is struck over.
function end_of(row, bytes,   at, next_at) {
    for (at = 1; bytes > 0; at = next_at) {
        next_at = at + size(row, at)
        if (substr(row, next_at, 1) == "\010") next_at++
        else bytes -= next_at - at
    }
    return at - 1
}

# A row with escape sequences.
function escaped(row,   at, next_at, one, under, look, before, out) {
    for (at = 1; at <= length(row); at = next_at) {
        next_at = at + size(row, at)
        one = substr(row, at, next_at - at)
        look = 0
        if (substr(row, next_at, 1) == "\010") {
            under = one
            at = next_at + 1
            next_at = at + size(row, at)
            one = substr(row, at, next_at - at)
            look = under == one && !(one == "_" && before == 4) ? 1 : 4
        }
        if (look != before) out = out (before ? "\033[" (before == 1 ? 22 : 24) "m" : "") (look ? "\033[" look "m" : "")
        before = look
        out = out one
    }
    return out (before ? "\033[" (before == 1 ? 22 : 24) "m" : "")
}

# A row, or a part of it, with the faces that are asked for.
function shown(row) { return faces == "none" ? text_of(row) : faces == "on" && index(row, "\010") ? escaped(row) : row }

function put_row(row) { print shown(row) }

function depth(row) { return match(row, /[^ ]/) - 1 }

function head(row) {
    sub(/^ +/, "", row)
    sub(/  +.*/, "", row)
    return row
}

# Whether a row begins with a bold character.
function is_bold(at,   from, bytes) {
    from = depth(row[at]) + 1
    bytes = size(row[at], from)
    return substr(row[at], from + bytes, bytes + 1) == "\010" substr(row[at], from, bytes)
}

# A row that stands above deeper ones or before a gap, or above such a row. A line that is spread has gaps, too; what goes
# on after it is as deep.
function is_tag(at,   deep) {
    deep = depth(text[at])
    if (deep < 1) return 0
    if (head(text[at]) != substr(text[at], deep + 1))
        return depth(text[at + 1]) != deep || is_option(at + 1) || is_bold(at + 1)
    if (depth(text[at + 1]) == deep) return is_option(at) && is_option(at + 1) && is_tag(at + 1)
    return depth(text[at + 1]) > deep
}

function is_option(at) { return text[at] ~ /^ *[-+]+[^-+ ]/ }

# A row without what is struck over, and with a byte 1 where bold or underlined characters begin or end.
function cut_text(row,   at, next_at, over, one, look, before, out) {
    for (at = 1; at <= length(row); at = next_at) {
        next_at = at + size(row, at)
        over = ""
        if (substr(row, next_at, 1) == "\010") {
            over = substr(row, at, next_at - at)
            at = next_at + 1
            next_at = at + size(row, at)
        }
        one = substr(row, at, next_at - at)
        look = over == "" ? 0 : over == one ? 1 : 4
        out = out (look == before ? "" : "\001") one
        before = look
    }
    return out
}

# Whether a word is one of those before a paragraph: the first, or an option among options.
function has_option(at, word,   cut, n, i, words) {
    if (!index(text[at], word)) return 0
    cut = head(cut_text(row[at]))
    sub(/^\001/, "", cut)
    n = split(cut, words, /[][ ,|=<>()\001]+/)
    for (i = 1; i <= n; i++) if (words[i] == word && (i == 1 || word ~ /^[-+]/ && is_option(at))) return 1
    return 0
}

# Whether a word leads to a row.
function has_tag(at,   n, i, words) {
    if (text[at] ~ /^[^ ]/) return text[at] == tag || index(text[at], tag " ") == 1
    if (!index(text[at], tag) || !is_tag(at)) return 0
    return has_option(at, tag) || has_option(at, "-" tag) || has_option(at, "--" tag)
}

# Looks for what stands first in a text of all that is a link.
function look_for(text, what, named) {
    if (match(text, what)) note(RSTART, RLENGTH, named)
}

# Notes what stands at a place of a text, if nothing was found before it.
function note(at, length_of, named) {
    if (from && at >= from) return
    from = at
    bytes = length_of
    kind = named
}

# The same of a page's name with its section, which is bold or underlined, or stands below SEE ALSO.
function look_for_page(row, text,   past, at) {
    while (match(substr(text, past + 1), "[A-Za-z0-9_.:+-]+\\([1-9][a-z]*\\)")) {
        at = past + RSTART
        past += RSTART + RLENGTH - 1
        if (below == "SEE ALSO" || is_struck(row, at)) return note(at, past - at + 1, "man:")
    }
}

# Whether the character at a place of a row's text is struck over.
function is_struck(row, at) {
    at = end_of(row, at - 1) + 1
    return substr(row, at + size(row, at), 1) == "\010"
}

# A row whose addresses, and the pages that it names, are links.
function linked(row,   text, out, end) {
    for (;;) {
        text = text_of(row)
        from = 0
        look_for(text, "https?://[^][ <>\"()]*[^][ <>\"().,;:]", "")
        look_for(text, "[A-Za-z0-9_.+-]+@[A-Za-z0-9-]+\\.[A-Za-z0-9.-]*[A-Za-z0-9]", "mailto:")
        look_for_page(row, text)
        if (!from) return out shown(row)
        end = end_of(row, from - 1)
        out = out shown(substr(row, 1, end)) "\033]8;;" kind substr(text, from, bytes) "\007"
        row = substr(row, end + 1)
        end = end_of(row, bytes)
        out = out shown(substr(row, 1, end)) "\033]8;;\007"
        row = substr(row, end + 1)
    }
}

# Prints a heading once.
function put_heading() {
    if (heading == put) return
    if (put) print ""
    put_row(put = heading)
}

# Prints the paragraph of the tag at a row, from the first of those that share it, and gives its last row.
function put_paragraph(at,   deep, last) {
    deep = depth(text[at])
    while (is_option(at - 1) && depth(text[at - 1]) == deep && is_tag(at - 1)) at--
    last = at
    while (last < NR && depth(text[last + 1]) == deep && is_option(last + 1) && is_tag(last + 1) && depth(text[last]) == deep)
        last++
    while (last < NR && (text[last + 1] == "" || depth(text[last + 1]) > deep)) last++
    for (end = last; text[end] == ""; ) end--
    if (heading == put) print ""
    else put_heading()
    for (; at <= end; at++) put_row(row[at])
    return last
}

links {
    if (/^[^ ]/) below = text_of($0)
    print linked($0)
    next
}

{
    row[NR] = $0
    text[NR] = text_of($0)
}

END {
    if (links) exit
    for (at = 1; at <= NR; at++)
        if (text[at] ~ /^[^ ]/ && tag == "") section = at
        else if (tag != "" ? has_tag(at) : is_tag(at) && (list ? is_option(at) : has_option(at, option))) {
            found[at]
            bold[section] += is_bold(at) ? 1 : -1
        }
    for (at = 1; at <= NR; at++) {
        if (text[at] ~ /^[^ ]/ && tag == "") heading = row[section = at]
        if (!(at in found) || bold[section] >= 0 && !is_bold(at)) continue
        if (tag != "") print tag, at, "-", text[at]
        else if (list) {
            put_heading()
            put_row("       " head(row[at]))
        } else at = put_paragraph(at)
    }
    if (tag == "" && !put) exit 9
}
