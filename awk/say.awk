# Prints lines of man-page, without control characters and bytes that are no UTF-8. Before join.awk it is its `clean`.

function clean(text,   out, one) {
    while (match(text, character)) {
        one = substr(text, RSTART, RLENGTH)
        if (one !~ /^\302[\200-\237]/) out = out one
        text = substr(text, RSTART + RLENGTH)
    }
    return out
}

BEGIN {
    more = "[\200-\277]"
    character = "[ -~]+|[\302-\337]" more "|\340[\240-\277]" more "|[\341-\357]" more more "|\360[\220-\277]" more more \
        "|[\361-\364]" more more more
}

!joins { print "man-page: " clean($0) }
