# Prints the words of man-page, from the table sh/options, in rows of at most 78 cells.

$3 !~ /^(passed|refused|tag)$/ {
    word = ($1 == "--" ? "" : "-" $1 " ") "--" $2
    if (length(row word) > 76) {
        print row ","
        row = ""
    }
    row = row (row ? ", " : "") word
}

END { print row }
