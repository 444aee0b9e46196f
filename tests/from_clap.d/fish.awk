# Prints rows, as tests/from_clap.d/rows.rs describes them, for each record of a fish script. `bin`
# is the program.
BEGIN {
    OFS = "\t"
    hints["-r"] = "Unknown"
    hints["-r -F"] = "AnyPath"
    hints["-r -f"] = "Other"
    hints["-r -f -a \"(__fish_complete_directories)\""] = "DirPath"
    hints["-r -f -a \"(__fish_complete_command)\""] = "CommandName"
    hints["-r -f -a \"(__fish_complete_users)\""] = "Username"
    hints["-r -f -a \"(__fish_print_hostnames)\""] = "Hostname"
}
/^complete -c / {
    path = bin
    rest = $0
    if ($4 == "-n") {
        split($0, parts, "\"")
        add_names(parts[2])
        rest = substr($0, index($0, parts[2]) + length(parts[2]) + 1)
    }
    help = ""
    if (match(rest, / -d '([^'\\]|\\.)*'/)) {
        help = plain(substr(rest, RSTART + 5, RLENGTH - 6))
        rest = substr(rest, 1, RSTART - 1) substr(rest, RSTART + RLENGTH)
    }
    value = match(rest, / -r( |$)/) ? substr(rest, RSTART + 1) : ""
    find_words(value == "" ? rest : substr(rest, 1, RSTART - 1))
    print_rows("")
    if (help != "") {
        print_rows("\thelp\t" help)
    }
    if (value in hints) {
        print_rows("\thint\t" hints[value])
    }
    sub(/^-r -f -a "/, "", value)
    $0 = value
}
# A possible value. Each value except the first has a line of its own.
/\\t'.*'"?$/ {
    at = index($0, "\\t'")
    name = substr($0, 1, at - 1)
    help = substr($0, at + 3)
    sub(/'"?$/, "", help)
    print_rows("\tvalue\t" name)
    if (help != "") {
        print_rows("\thelp of " name "\t" plain(plain(help)))
    }
}

# Adds the names that a condition has to the path.
function add_names(condition,    pieces, fields, count, i) {
    count = split(condition, pieces, "; ")
    split(pieces[1], fields, " ")
    if (fields[2] != "") {
        path = path " " fields[2]
    }
    for (i = 2; i <= count; i++) {
        split(pieces[i], fields, " ")
        if (fields[2] != "not") {
            path = path " " fields[3]
        }
    }
}

# Sets `words` to the shorts and longs of a record, or to the name of a child.
function find_words(text,    fields, count, is_argument, i) {
    split("", words)
    word_count = 0
    is_argument = text ~ / -[sl] /
    count = split(text, fields, " ")
    for (i = 1; i < count; i++) {
        if (is_argument && fields[i] ~ /^-[sl]$/) {
            words[++word_count] = (fields[i] == "-s" ? "-" : "--") fields[i + 1]
        } else if (!is_argument && fields[i] == "-a") {
            gsub(/"/, "", fields[i + 1])
            words[++word_count] = fields[i + 1]
        }
    }
}

# Prints a row for each word, with a tab and the texts of a kind, or with none.
function print_rows(texts,    i) {
    for (i = 1; i <= word_count; i++) {
        print path, words[i] texts
    }
}

# Returns a text without the backslashes that quote the next character.
function plain(text,    read) {
    while (match(text, /\\./)) {
        read = read substr(text, 1, RSTART - 1) substr(text, RSTART + 1, 1)
        text = substr(text, RSTART + 2)
    }
    return read text
}
