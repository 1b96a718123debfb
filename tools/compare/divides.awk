# Prints the divisions in files of Rattle, a line each: file:line, a tab, and the literal or the name in capitals by
# which is divided, or - where it is neither alone or a function divides. Comments, `ghost use` items, contract text and
# texts are no source; where `plain` is set, what is left of each line without them is printed instead. It fails where
# the end of a file is inside of one of these.

# What is source of a line. The state `within` is the pattern of what ends a text or a `ghost use`, and `open` counts the
# brackets of a clause that are open.
function bare(line,    left, found) {
    while (line != "") {
        if (open) {
            if (!match(line, /"([^"\\]|\\.)*"|[{}]/)) return left
            found = substr(line, RSTART, RLENGTH)
            line = substr(line, RSTART + RLENGTH)
            if (found == "{") open++
            else if (found == "}") open--
            continue
        }
        if (within != "") {
            if (!match(line, within)) return left
            within = ""
            line = substr(line, RSTART + RLENGTH)
            continue
        }
        if (!match(line, /\/\/|b'(\\.[^']*|[^'\\])'|"|^ *(requires|ensures)( +[a-z0-9_]+)? *[{]|^ *ghost use /)) return left line
        found = substr(line, RSTART, RLENGTH)
        left = left substr(line, 1, RSTART - 1)
        line = substr(line, RSTART + RLENGTH)
        if (found == "//") return left
        if (found == "\"") within = "^([^\"\\\\]|\\\\.)*\""
        else if (found ~ /[{]$/) open = 1
        else if (found ~ /use/) within = ";"
        else left = left "b" # a byte is no literal to divide by
    }
    return left
}

# What stands after a place of a line, to the end of the file.
function ahead(rest, line) {
    while (++line <= count) rest = rest " " lines[line]
    sub(/^ +/, "", rest)
    return rest
}

function divisor(sign, rest,    literal) {
    if (!match(rest, /^(0x[0-9A-Fa-f_]+|[0-9][0-9_]*|[A-Z][A-Z0-9_]*)/)) return "-"
    literal = substr(rest, 1, RLENGTH)
    rest = substr(rest, RLENGTH + 1)
    if (rest ~ /^[A-Za-z0-9_]/) return "-"
    sub(/^ +/, "", rest)
    # A function of the literal; and an assignment divides by all that follows it.
    if (rest ~ /^[.([]/ || (sign ~ /=/ && rest !~ /^;/)) return "-"
    return literal
}

function look(line,    rest, word, before) {
    rest = lines[line]
    while (match(rest, /[\/%]=?|[A-Za-z0-9_]+/)) {
        word = substr(rest, RSTART, RLENGTH)
        before = substr(rest, 1, RSTART - 1)
        rest = substr(rest, RSTART + RLENGTH)
        if (word ~ /^[\/%]/) print file ":" line "\t" divisor(word, ahead(rest, line))
        else if (word ~ named && (before ~ /::$/ || ahead(rest, line) ~ /^\(/)) print file ":" line "\t-"
    }
}

# Of the file that has been read.
function look_all(    line) {
    for (line = 1; line <= count; line++) if (plain) print lines[line]; else look(line)
    if (within != "" || open) {
        print file ": its end is inside of a text, a contract or a ghost use" > "/dev/stderr"
        bad = 1
    }
    within = ""
    open = 0
}

BEGIN { named = "(^|_)([us]?div|rem|mod|divide|divmod|divrem|modulo|quotient|remainder|euclid|multiple)[0-9]*(_|$)" }
FNR == 1 { look_all() }
{
    file = FILENAME
    count = FNR
    gsub(/\t/, " ")
    lines[FNR] = bare($0)
}
END {
    look_all()
    exit bad
}
