# Shows a person what the list program printed: at most twelve of the stops, the first and the last among them.
# Run as: awk -v sample=NAME -f examples/show.awk
function grouped(number,    text, end) {
    text = number ""
    end = length(text) - 3
    for (; end > 0; end -= 3)
        text = substr(text, 1, end) "," substr(text, end + 1)
    return text
}

NR == 1 && $1 == "corners" {
    stops = $2
    printf "%s has %s stops. Some of them, from the shortest to the sharpest:\n\n", sample, grouped(stops)
    printf "%6s  %10s  %14s  %12s\n", "stop", "bits", "squared error", "levels kept"
    next
}

NR == 1 { print sample ": " $0; exit 1 }

# the first, and one for each eleventh of the way
NR == 2 || int((NR - 2) * 11 / (stops - 1)) > int((NR - 3) * 11 / (stops - 1)) {
    printf "%6s  %10s  %14s  %12s\n", grouped(NR - 1), grouped($1), grouped($2), grouped($3)
}
