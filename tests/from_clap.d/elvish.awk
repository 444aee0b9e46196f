# Prints rows, as tests/from_clap.d/rows.rs describes them, for each line of an Elvish script: words
# and help texts. If a help text is missing, the script has the word without its dashes instead.
BEGIN { OFS = "\t" }
/^        &'/ { split($0, parts, "'"); path = parts[2]; gsub(/;/, " ", path) }
/^            cand / {
    word = bare = $2
    sub(/^--?/, "", bare)
    sub(/^ *cand [^ ]* '/, "")
    sub(/'$/, "")
    gsub(/''/, "'")
    print path, word
    if ($0 != bare) {
        print path, word, "help", $0
    }
}
