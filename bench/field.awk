# Reads the benchmark's JSON, which has one row a line.

# what a row says under a name, without its quotes
function field(name,    text) {
    if (!match($0, "\"" name "\": [^,}]*"))
        return ""
    text = substr($0, RSTART, RLENGTH)
    sub(/^[^:]*: /, "", text)
    gsub(/"/, "", text)
    return text
}
