# Plots from the benchmark's JSON, which has one row or one corner a line, as SVG on standard output.
# Usage: awk -v plot=stops -f bench/field.awk -f bench/plot.awk bench.json     error against bits, all stops of a sample
#        awk -v plot=levels -f bench/field.awk -f bench/plot.awk bench.json    time against nonzero levels, ours and fast

function log10(x) { return log(x) / log(10) }

# the picture's coordinates: bits or levels to the right, error or time upward by its logarithm
function right(x) { return left_edge + (x - low_x) / (high_x - low_x) * (right_edge - left_edge) }
function up(y) { return bottom_edge - (log10(y) - low_y) / (high_y - low_y) * (bottom_edge - top_edge) }

function text(x, y, anchor, more, words) {
    printf "<text x=\"%.1f\" y=\"%.1f\" text-anchor=\"%s\"%s>%s</text>\n", x, y, anchor, more, words
}

function line(x, y, to_x, to_y, look) {
    printf "<line x1=\"%.1f\" y1=\"%.1f\" x2=\"%.1f\" y2=\"%.1f\" %s/>\n", x, y, to_x, to_y, look
}

# 1234567 as 1,234,567
function grouped(x,    digits, parts) {
    digits = sprintf("%.0f", x)
    while (length(digits) > 3) {
        parts = "," substr(digits, length(digits) - 2) parts
        digits = substr(digits, 1, length(digits) - 3)
    }
    return digits parts
}

function power(exponent) {
    return exponent < 0 ? sprintf("%.*f", -exponent, 10 ^ exponent) : grouped(10 ^ exponent)
}

function frame(title, note, name_x, name_y, step_x,    x, exponent, part, y) {
    left_edge = 90; right_edge = 720; top_edge = 70; bottom_edge = 450
    print "<svg xmlns=\"http://www.w3.org/2000/svg\" viewBox=\"0 0 860 520\" width=\"860\" height=\"520\" font-family=\"sans-serif\" font-size=\"13\" fill=\"#222\">"
    print "<rect width=\"860\" height=\"520\" fill=\"white\"/>"
    text(left_edge, 28, "start", " font-size=\"18\" font-weight=\"bold\"", title)
    text(left_edge, 50, "start", " fill=\"#555\"", note)
    for (x = low_x; x <= high_x; x += step_x) {
        line(right(x), top_edge, right(x), bottom_edge, "stroke=\"#ddd\"")
        text(right(x), bottom_edge + 20, "middle", "", grouped(x))
    }
    for (exponent = low_y; exponent <= high_y; exponent++) {
        y = up(10 ^ exponent)
        line(left_edge, y, right_edge, y, "stroke=\"#bbb\"")
        text(left_edge - 8, y + 4, "end", "", power(exponent))
        for (part = 2; part < 10 && exponent < high_y; part++)
            line(left_edge, up(part * 10 ^ exponent), right_edge, up(part * 10 ^ exponent), "stroke=\"#eee\"")
    }
    line(left_edge, bottom_edge, right_edge, bottom_edge, "stroke=\"#222\"")
    line(left_edge, top_edge, left_edge, bottom_edge, "stroke=\"#222\"")
    text((left_edge + right_edge) / 2, 495, "middle", "", name_x)
    text(0, 0, "middle", sprintf(" transform=\"translate(22 %.0f) rotate(-90)\"", (top_edge + bottom_edge) / 2), name_y)
}

# a step of 1, 2 or 5 times a power of ten that divides a length into 4 to 10 parts
function step_for(length_x,    step) {
    step = 10 ^ int(log10(length_x / 4))
    if (length_x / step > 20)
        step *= 5
    else if (length_x / step > 10)
        step *= 2
    return step
}

function whole_below(x) { return x >= 0 || x == int(x) ? int(x) : int(x) - 1 }

/"machine":/ { machine = field("machine"); kind = field("kind"); emulator = field("emulator") }

/"stops":/ { sample = field("still"); blocks = blocks_of[sample]; sub(/\.raw$/, "", sample) }

/^    \[/ {
    gsub(/[\[\],]/, " ")
    split($0, pair, " ")
    bits[++stops] = pair[1]
    error[stops] = pair[2]
}

/"group"/ { blocks_of[field("still")] = field("blocks") }

/"group": "levels"/ {
    job = field("job") == "price" || field("job") == "budget" ? field("job") field("point") : field("job")
    if (!(field("nonzero") in place_of)) {
        count_at[++levels] = field("nonzero") + 0
        place_of[field("nonzero")] = levels
    }
    at = place_of[field("nonzero")]
    time[job, "ours", at] = field("ours") + 0
    time[job, "fast", at] = field("fast") + 0
    time[job, "table", at] = field("table") + 0
}

# mean squared error of a sample of the picture; the stop without error lies below every logarithm
function plot_stops(    i, samples, y, path) {
    samples = 64 * blocks
    low_x = 0; high_x = bits[stops]
    low_y = whole_below(log10(error[stops - 1] / samples)); high_y = whole_below(log10(error[1] / samples)) + 1
    if (low_y < high_y - 5)
        low_y = high_y - 5
    frame("All stops of " sample, sprintf("%s corners of %s blocks; the last has no error, at %s bits", grouped(stops), grouped(blocks), grouped(bits[stops])), "bits of the still's AC coefficients", "mean squared error of a sample", step_for(high_x))
    for (i = 1; i < stops; i++) {
        y = error[i] / samples
        if (log10(y) >= low_y)
            path = path sprintf("M%.1f %.1fh0", right(bits[i]), up(y))
    }
    printf "<path d=\"%s\" stroke=\"#0b5fa5\" stroke-width=\"3\" stroke-linecap=\"round\" fill=\"none\"/>\n", path
    line(right(bits[stops]), bottom_edge - 14, right(bits[stops]), bottom_edge, "stroke=\"#c0392b\" stroke-width=\"3\"")
    print "<circle cx=\"530\" cy=\"92\" r=\"3\" fill=\"#0b5fa5\"/>"
    text(542, 96, "start", "", "a stop")
    line(530, 106, 530, 120, "stroke=\"#c0392b\" stroke-width=\"3\"")
    text(542, 118, "start", "", "the stop without error")
}

# one line for a job and a side; its name stands at its end
function curve(job, side, colour, dashes, words,    i, path, end) {
    for (i = 1; i <= levels; i++)
        if (time[job, side, i] > 0) {
            path = path sprintf("%s%.1f %.1f", path == "" ? "M" : "L", right(count_at[i]), up(time[job, side, i]))
            end = i
        }
    if (end == "")
        return
    printf "<path d=\"%s\" stroke=\"%s\" stroke-width=\"2\"%s fill=\"none\"/>\n", path, colour, dashes
    names++
    name_at[names] = up(time[job, side, end]) + 4
    name_look[names] = " fill=\"" colour "\""
    name_words[names] = words
}

# the names of the curves from the top down, apart from each other
function place_names(    i, next_one, last) {
    last = -15
    while (1) {
        next_one = 0
        for (i = 1; i <= names; i++)
            if (!placed[i] && (!next_one || name_at[i] < name_at[next_one]))
                next_one = i
        if (!next_one)
            return
        placed[next_one] = 1
        last = name_at[next_one] > last + 15 ? name_at[next_one] : last + 15
        text(right_edge + 4, last, "start", name_look[next_one], name_words[next_one])
    }
}

function is_shown(key) { return key !~ /^(price(free|75|25)|budget(100|75|25))/ }

function plot_levels(    key, greatest, least, solid, dashed, dotted) {
    least = 1e9
    for (key in time)
        if (time[key] > 0 && is_shown(key)) {
            greatest = time[key] > greatest ? time[key] : greatest
            least = time[key] < least ? time[key] : least
        }
    low_x = 0; high_x = 64
    low_y = whole_below(log10(least)); high_y = whole_below(log10(greatest)) + 1
    frame("Time against nonzero levels", "price and budget at half of the bit range; " machine " (" kind "), emulator: " emulator, "nonzero AC levels of a block", "ns a block", 8)
    solid = ""; dashed = " stroke-dasharray=\"7 4\""; dotted = " stroke-dasharray=\"2 3\""
    curve("list", "ours", "#c0392b", solid, "list, ours")
    curve("list", "fast", "#c0392b", dashed, "list, fast")
    curve("budget50", "ours", "#2e7d32", solid, "budget, ours")
    curve("budget50", "fast", "#2e7d32", dashed, "budget, fast")
    curve("price50", "ours", "#0b5fa5", solid, "price, ours")
    curve("price50", "table", "#0b5fa5", dotted, "price, table")
    curve("price50", "fast", "#0b5fa5", dashed, "price, fast")
    curve("thinning", "ours", "#666", solid, "thinning, ours")
    curve("thinning", "fast", "#666", dashed, "thinning, fast")
    place_names()
    line(110, 88, 150, 88, "stroke=\"#222\" stroke-width=\"2\"")
    text(158, 92, "start", "", "ours: proved")
    line(110, 108, 150, 108, "stroke=\"#222\" stroke-width=\"2\"" dashed)
    text(158, 112, "start", "", "fast: plain C without proofs")
    line(110, 128, 150, 128, "stroke=\"#222\" stroke-width=\"2\"" dotted)
    text(158, 132, "start", "", "table: plain C, every pair tried")
}

END {
    if (plot == "stops")
        plot_stops()
    else
        plot_levels()
    print "</svg>"
}
