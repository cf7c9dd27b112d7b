# For: a page with the text of each page that a line `.so FILE` names in the line's place: five in one another, and 100 in all, below one folder only.
# Needs: any awk, sh, and head with -c; gzip, xz, bzip2 or zstd for pages that are packed so.
# Use: TREE=/usr/share/man BESIDE=/usr/share/man/man1 LC_ALL=C awk -f so.awk < PAGE
#
# A name is that of a file below TREE, or beside the page where it has no slash, also without the end of a packed file. At most 64 MiB of a file are
# read. What is said of a fault begins with WHO. Status: 3 where a file isn't there, is further up, or there are too many.
BEGIN {
    tree = ENVIRON["TREE"]
    beside = ENVIRON["BESIDE"]
    who = ENVIRON["WHO"] ? ENVIRON["WHO"] : "so.awk"
    status = taken = 0
}
{ give($0, 0) }
END { exit status }

# (closed at once, as mawk would wait for it where another command ends)
function fault(text) {
    print who ": " text | "cat 1>&2"
    close("cat 1>&2")
    status = 3
}

# A text as a word of the shell.
function quoted(text,    parts, count, i, whole) {
    count = split(text, parts, "'")
    whole = parts[1]
    for (i = 2; i <= count; i++) whole = whole "'\\''" parts[i]
    return "'" whole "'"
}

function tool_of(path) {
    if (path ~ /\.gz$/) return "gzip -dc"
    if (path ~ /\.xz$/) return "xz -dc"
    if (path ~ /\.bz2$/) return "bzip2 -dc"
    if (path ~ /\.zst$/) return "zstd -dcq"
    return "cat"
}

# The command that prints the page of a name in a folder; nothing where there is no such file. (Pipes and devices are no files here.)
function source_of(folder, name,    ends, count, i, path) {
    count = split(":.gz:.xz:.bz2:.zst", ends, ":")
    for (i = 1; i <= count; i++) {
        path = quoted(folder "/" name ends[i])
        if (system("test -f " path) == 0) return tool_of(name ends[i]) " < " path " | head -c 67108864"
    }
    return ""
}

# The name in a line, of which quotes, a comment and blanks at its end are no part.
function name_in(line) {
    sub(/^[.'][ \t]*so[ \t]*/, "", line)
    sub(/\\".*$/, "", line)
    sub(/[ \t\r]+$/, "", line)
    if (line ~ /^"/) line = substr(line, 2)
    sub(/".*$/, "", line)
    if (index(line, tree "/") == 1) line = substr(line, length(tree) + 2)
    return line
}

# Prints a line, or the page that it names.
function give(line, depth,    name, source) {
    if (line !~ /^[.'][ \t]*so([ \t]|$)/) {
        print line
        return
    }
    if (depth == 5 || taken == 100) {
        if (!is_said++) fault("too many pages that name another one")
        return
    }
    taken++
    name = name_in(line)
    source = name ~ /^\/|^$|(^|\/)\.\.(\/|$)/ ? "" : source_of(tree, name)
    if (source == "" && name ~ /^[^\/]+$/ && name !~ /^\.\.?$/) source = source_of(beside, name)
    if (source == "") fault("there is no " name)
    else if (source in reading) fault(name " names itself")
    else give_page(source, depth + 1)
}

function give_page(source, depth,    line) {
    reading[source] = 1
    while ((source | getline line) > 0) give(line, depth)
    close(source)
    delete reading[source]
}
