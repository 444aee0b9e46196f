# Prints rows, as tests/from_clap.d/rows.rs describes them, for each line of a PowerShell script:
# words and help texts. If a help text is missing, the script has the word without its dashes
# instead.
BEGIN { OFS = "\t" }
/^        '.*' \{$/ { split($0, parts, "'"); path = parts[2]; gsub(/;/, " ", path) }
/^            \[CompletionResult\]/ {
    split($0, parts, "'")
    word = bare = parts[2]
    sub(/^--?/, "", bare)
    sub(/.*\[CompletionResultType\]::[A-Za-z]*, '/, "")
    sub(/'\)$/, "")
    gsub(/''/, "'")
    print path, word
    if ($0 != bare) {
        print path, word, "help", $0
    }
}
