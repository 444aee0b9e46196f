# Prints rows, as tests/from_clap.d/rows.rs describes them, of a zsh script. `bin` is the program.
BEGIN {
    OFS = "\t"
    path = bin
    hints["_default"] = "Unknown"
    hints[""] = "Other"
    hints["_files"] = "AnyPath"
    hints["_files -/"] = "DirPath"
    hints["_absolute_command_paths"] = "ExecutablePath"
    hints["_command_names -e"] = "CommandName"
    hints["_cmdstring"] = "CommandString"
    hints["_cmdambivalent"] = "CommandWithArguments"
    hints["_users"] = "Username"
    hints["_hosts"] = "Hostname"
    hints["_urls"] = "Url"
    hints["_email_addresses"] = "EmailAddress"
}
/^ *case \$(state|line\[[0-9]+\]) in$/ { stack[++depth] = path; is_state = /\$state/; next }
/^ *esac$/ { path = stack[depth--] }
/^ *\([^ ()]+\)$/ {
    if (!is_state) {
        gsub(/[ ()]/, "")
        print stack[depth], $0
        path = stack[depth] " " $0
    }
    is_state = 0
}
# The function that lists the children of a path, and below it their names and descriptions.
/^ *":: :/ { list_of[path] = substr($2, 2, length($2) - 2) }
/^_.*_commands\(\) \{$/ { list = substr($1, 1, length($1) - 2) }
/^ *'/ {
    while (!/' \\$/ && (getline line) > 0) {
        $0 = $0 "\n" line
    }
    sub(/^ *'(\([^)]*\))?/, "")
    sub(/' \\$/, "")
    gsub(/'\\''/, "'")
    if (/^\*?-/) {
        match($0, /\[([^]\\]|\\.)*\]/)
        word = substr($0, 1, RSTART - 1)
        gsub(/[*+=]/, "", word)
        print_rows(word, substr($0, RSTART + 1, RLENGTH - 2), substr($0, RSTART + RLENGTH))
    } else if (sub(/^(\*[^:]*:|:)?:/, "")) {
        match($0, /( -- ([^:\\]|\\.)*)?:/)
        print_rows("<" substr($0, 1, RSTART - 1) ">", substr($0, RSTART + 4, RLENGTH - 5),
            substr($0, RSTART + RLENGTH - 1))
    } else {
        children[list] = children[list] $0 "\n"
    }
}
END {
    for (path in list_of) {
        count = split(children[list_of[path]], lines, "\n")
        for (i = 1; i < count; i++) {
            at = index(lines[i], ":")
            print_help(substr(lines[i], 1, at - 1), "help", substr(lines[i], at + 1))
        }
    }
}

# Prints the rows of an option, a flag or a positional. `rest` ends with the values.
function print_rows(word, help, rest,    outer, count, lines, at, name, i) {
    print path, word
    print_help(word, "help", help)
    if (!match(rest, /:([^:\\]|\\.)*$/)) {
        return
    }
    rest = substr(rest, RSTART + 1)
    if (rest in hints) {
        print path, word, "hint", hints[rest]
        return
    }
    outer = rest ~ /^\(\(/ ? 2 : 1
    count = split(substr(rest, outer + 1, length(rest) - 2 * outer), lines, outer == 2 ? "\n" : " ")
    for (i = 1; i <= count; i++) {
        at = index(lines[i] "\\:\"", "\\:\"")
        name = substr(lines[i], 1, at - 1)
        print path, word, "value", name
        print_help(word, "help of " name, substr(lines[i], at + 3, length(lines[i]) - at - 3))
    }
}

# Prints the row of a help text, if there is one, without the backslashes that quote the next
# character.
function print_help(word, kind, help,    read) {
    while (match(help, /\\./)) {
        read = read substr(help, 1, RSTART - 1) substr(help, RSTART + 1, 1)
        help = substr(help, RSTART + 2)
    }
    if (read help != "") {
        print path, word, kind, read help
    }
}
