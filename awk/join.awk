# Reads a page, and prints it with the pages in it that its lines `.so` name, 64 and 64 MiB at most. These lie in the
# folder of the page, NULBIKO_FOLDER, or, where that is man1, man3 or the like, in the folder above it; where there is no
# folder, none is read. Only the first 64 KiB of each page are looked at. What `fold` cut is joined again: a line of 65521
# bytes goes on in the next.
#
# What is wrong is reported on standard error, by `clean` of say.awk. It ends with 2 where a page isn't there, and with 1 where
# the page has equations or pictures that it doesn't define itself.

# Tells what is wrong, which comes to this status.
function tell(worse, what) {
    print "man-page: " clean(ENVIRON["NULBIKO_PAGE"] ": " what) > "/dev/stderr"
    if (status < worse) status = worse
}

# A path as one word of a shell.
function quoted(path) {
    gsub(/\047/, "\047\\\047\047", path)
    return "\047" path "\047"
}

# Whether there is a file.
function is_there(path,   line, read) {
    read = (getline line < path)
    close(path)
    return read >= 0
}

# Joins the page of this place, where there is one, packed or not. A shell sees no name but of plain characters.
function join_place(place,   end) {
    if (place in open || is_there(place)) return join(place, 0)
    if (place ~ /^.*\/man[^\/]*\/[A-Za-z0-9_.+:@%,=-]*$/ || name ~ /^[A-Za-z0-9_.+:@%,=\/-]*$/)
        for (end in unpack) if (is_there(place end)) return join(unpack[end] " <" quoted(place end) " | fold -b -w 65521", 1)
    return 0
}

# Joins the page that a page names.
function join_named(name) {
    if (!folder || ("/" name "/") ~ /^\/\/|\/\.\.\// || !join_place(root "/" name) && !join_place(folder "/" name))
        tell(2, "leads to " name ", which is no page beside it")
}

# Joins what comes of a file or a command, which isn't read already.
function join(source, is_command,   line, seen) {
    if (source in open || ++parts > 64) {
        if (!over) tell(2, "leads on and on")
        return over = 1
    }
    open[source]
    while ((is_command ? (source | getline line) : (getline line < source)) > 0 && !over) {
        joined += length(line) + 1
        if (joined > most && !over) over = 1
        if (over == 1 && joined > most) tell(2, "leads to more than " most " bytes")
        else seen = pass(line, seen)
    }
    close(source)
    delete open[source]
    if (is_cut) put("")
    return 1
}

# Prints a line, or the next part of one.
function put(line) {
    is_cut = length(line) == 65521
    printf "%s%s", line, is_cut ? "" : "\n"
}

# Prints a line of a page, of which so much was seen, and gives what is seen then.
function pass(line, seen,   word) {
    if (is_cut || seen > 65536 || line !~ /^[.\047]/) {
        put(line)
        return seen + length(line) + 1
    }
    word = substr(line, 2)
    sub(/^[ \t]+/, "", word)
    if (word ~ /^so[ \t]/) {
        sub(/^so[ \t]+/, "", word)
        sub(/[ \t].*/, "", word)
        join_named(word)
    } else {
        put(line)
        if (word ~ /^de1?[ \t]+EQ/) own["EQ"]
        if (word ~ /^de1?[ \t]+PS/) own["PS"]
        if (word ~ /^EQ([ \t]|$)/ && !("EQ" in own)) equations = 1
        if (word ~ /^PS([ \t]|$)/ && !("PS" in own)) pictures = 1
    }
    return seen + length(line) + 1
}

BEGIN {
    joins = 1
    most = 67108864
    unpack[".gz"] = "gzip -dc"
    unpack[".bz2"] = "bzip2 -dc"
    unpack[".xz"] = "xz -dc"
    unpack[".zst"] = "zstd -dcq"
    folder = ENVIRON["NULBIKO_FOLDER"]
    sub(/\/\.$/, "", folder)
    root = folder
    if (folder ~ /\/man[0-9lnop][^\/]*$/) sub(/\/[^\/]*$/, "", root)
}

{ seen = pass($0, seen) }

END {
    if (is_cut) put("")
    if (equations) tell(1, "has equations (eqn), which are shown as they are written")
    if (pictures) tell(1, "has pictures (pic), which are shown as they are written")
    exit status
}
