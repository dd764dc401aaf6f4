# Reads what `ls` prints of folders of pages, and prints pages as NAME(SECTION).
#
#   begins   how the names begin
#   only     a section, or how it begins
#   near     a name: asks in one line whether at most three pages of the nearest names were meant, which come of it where
#            a letter becomes another, goes, is added, or changes places with the next, at most twice and for a third of
#            the letters
function least(a, b) { return a < b ? a : b }

function distance(s, t,   i, j, m, n, other) {
    m = length(s)
    n = length(t)
    for (i = 0; i <= m; i++) d[i, 0] = i
    for (j = 0; j <= n; j++) d[0, j] = j
    for (i = 1; i <= m; i++)
        for (j = 1; j <= n; j++) {
            other = substr(s, i, 1) != substr(t, j, 1)
            d[i, j] = least(least(d[i - 1, j], d[i, j - 1]) + 1, d[i - 1, j - 1] + other)
            if (i > 1 && j > 1 && substr(s, i, 1) == substr(t, j - 1, 1) && substr(s, i - 1, 1) == substr(t, j, 1))
                d[i, j] = least(d[i, j], d[i - 2, j - 2] + 1)
        }
    return d[m, n]
}

BEGIN {
    size = length(near)
    most = size < 3 ? 1 : least(2, int(size / 3))
}

{
    sub(/\.(gz|xz|bz2|zst)$/, "")
    at = match($0, /\.[^.]*$/)
    if (at < 2 || /:$/) next
    name = substr($0, 1, at - 1)
    section = substr($0, at + 1)
    page = name "(" section ")"
    if (!size) {
        if (index(name, begins) == 1 && index(section, only) == 1 && !(page in seen)) print page
        seen[page]
        next
    }
    more = length(name) - size
    if (more > most || -more > most || page in seen) next
    seen[page]
    far = distance(near, name)
    if (far <= most && count[far]++ < 3) found[far] = found[far] (count[far] > 1 ? ", " : "") page
}

END {
    for (far = 0; far <= most; far++)
        if (found[far]) {
            print "; did you mean " found[far] "?"
            exit
        }
}
