# Prints rows, as tests/from_clap.d/rows.rs describes them, for each option, flag and child of a
# bash script: words and possible values. `bin` is the program.
BEGIN { OFS = "\t" }
/^            [^ ]+,[^ ]+\)$/ {
    split($1, parts, ",")
    word = substr(parts[2], 1, length(parts[2]) - 1)
    label = parts[1]
}
/^                cmd=/ {
    split($0, parts, "\"")
    if (label == "\"") {
        root = parts[2]
    } else {
        below[label, word] = parts[2]
    }
}
/^        [^ ]+\)$/ { label = substr($1, 1, length($1) - 1) }
/^            opts=/ { split($0, parts, "\""); options[label] = parts[2] }
/^                -[^ ]*\)$/ { word = substr($1, 1, length($1) - 1) }
/^                    COMPREPLY=\(\$\(compgen -W / {
    split($0, parts, "\"")
    values[label, word] = parts[2]
}
END { walk(root, bin) }

# Prints the rows of a label, and of the labels below it. Values of positionals are skipped.
function walk(label, path,    words, count, names, name_count, i, j) {
    count = split(options[label], words, " ")
    for (i = 1; i <= count; i++) {
        if (words[i] ~ /^-/ || (label, words[i]) in below) {
            print path, words[i]
        }
        name_count = split(values[label, words[i]], names, " ")
        for (j = 1; j <= name_count; j++) {
            print path, words[i], "value", names[j]
        }
        if ((label, words[i]) in below) {
            walk(below[label, words[i]], path " " words[i])
        }
    }
}
