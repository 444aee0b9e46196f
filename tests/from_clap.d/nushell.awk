# Prints rows, as tests/from_clap.d/rows.rs describes them, of a Nushell script: for each line the
# word and its help text, and for each block the child.
BEGIN { OFS = "\t" }
/^  export extern / {
    split($0, parts, "\"")
    path = parts[2]
    if (match(path, / [^ ]*$/)) {
        print substr(path, 1, RSTART - 1), substr(path, RSTART + 1)
    }
}
/^    -/ {
    word = $1
    sub(/:$/, "", word)
    print path, word
    if (sub(/^[^#]* # /, "")) {
        print path, word, "help", $0
    }
}
