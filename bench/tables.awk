# The tables of docs/PERFORMANCE.md from the benchmark's JSON, which has one row a line, as Markdown on standard output.
# Usage: awk -f bench/field.awk -f bench/tables.awk bench.json

# 1234567 as 1,234,567; nothing as a dash
function whole(x,    digits, parts) {
    if (x == "" || x == 0)
        return "-"
    digits = sprintf("%.0f", x)
    while (length(digits) > 3) {
        parts = "," substr(digits, length(digits) - 2) parts
        digits = substr(digits, 1, length(digits) - 3)
    }
    return digits parts
}

function ratio(x, y) { return x > 0 && y > 0 ? sprintf("%.2f", x / y) : "-" }

/"machine":/ { print field("machine") " (" field("kind") "), compiled for " field("compiled_for") ", emulator: " field("emulator") "." }

/"compiler":/ { print "Compiler of the plain C: " field("compiler") "." }

/"group":/ {
    still = field("still")
    group = field("group")
    if (!(still in blocks)) {
        stills[group] = stills[group] (stills[group] == "" ? "" : "\n") still
        blocks[still] = field("blocks")
        nonzero[still] = field("nonzero")
    }
    where = still SUBSEP field("job") SUBSEP field("point")
    for (side = 1; side <= split("ours fast table independent", names, " "); side++)
        time[where, names[side]] = field(names[side]) + 0
}

# one job on the real stills, a row a point; the table search prices only
function real(title, job, points,    i, j, many, list, count, point, at, table) {
    table = job == "price"
    print "\n### " title "\n"
    print "| Still | Blocks | Nonzero | Point | Ours | " (table ? "Table | " : "") "Fast | Independent | " (table ? "Ours to table | " : "") "Ours to fast |"
    print "|---|---|---|---|---|---|---|---|" (table ? "---|---|" : "")
    many = split(stills["sample"], list, "\n")
    count = split(points, point, " ")
    for (i = 1; i <= many; i++)
        for (j = 1; j <= count; j++) {
            at = list[i] SUBSEP job SUBSEP (point[j] == "-" ? "" : point[j])
            printf "| %s | %s | %.1f | %s | %s | ", list[i], whole(blocks[list[i]]), nonzero[list[i]], point[j], whole(time[at, "ours"])
            if (table)
                printf "%s | ", whole(time[at, "table"])
            printf "%s | %s | ", whole(time[at, "fast"]), whole(time[at, "independent"])
            if (table)
                printf "%s | ", ratio(time[at, "ours"], time[at, "table"])
            printf "%s |\n", ratio(time[at, "ours"], time[at, "fast"])
        }
}

function pair(still, job, point) {
    return whole(time[still, job, point, "ours"]) " / " whole(time[still, job, point, "fast"])
}

# all jobs on a group of made stills, ours / fast
function made(title, group,    i, many, list) {
    print "\n### " title "\n"
    print "| Still | Blocks | Nonzero | Price, free | Price at 50 | List | Budget at 50 | Thinning |"
    print "|---|---|---|---|---|---|---|---|"
    many = split(stills[group], list, "\n")
    for (i = 1; i <= many; i++)
        printf "| %s | %s | %.0f | %s | %s | %s | %s | %s |\n", list[i], whole(blocks[list[i]]), nonzero[list[i]], pair(list[i], "price", "free"), pair(list[i], "price", "50"), pair(list[i], "list", ""), pair(list[i], "budget", "50"), pair(list[i], "thinning", "")
}

END {
    real("Price", "price", "free 75 50 25")
    real("List", "list", "-")
    real("Budget", "budget", "100 75 50 25")
    real("Thinning", "thinning", "-")
    made("Growth with blocks, ours / fast", "blocks")
    made("Growth with nonzero levels, ours / fast", "levels")
    made("Worst cases, ours / fast", "worst")
}
