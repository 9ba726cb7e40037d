# The tables of bench/run, in Markdown, from its files times, which may be empty, and counts; or those of bench/cycles, where `model` names a
# processor, from lines SET WORK SIDE CYCLES. A column for each set of keys.
FILENAME ~ /times$/ { value["ns", $1, $2, $3] = $4; middle[$1, $2, $3] = $5; timed = 1; next }
{ value[model ? "cycles" : "instructions", $1, $2, $3] = $4; core[$1, $2, $3] = $5; test[$1, $2, $3] = $6; if (!seen[$1]++) sets[++k] = $1 }

function figure(x,    s) { # 12345 as 12,345
    s = sprintf("%d", x)
    while (match(s, /[0-9][0-9][0-9][0-9](,|$)/)) s = substr(s, 1, RSTART) "," substr(s, RSTART + 1)
    return s
}
function head(title, first,    i, line, rule) {
    line = "| " first " |"; rule = "|---|"
    for (i = 1; i <= k; i++) { line = line " " sets[i] " |"; rule = rule "---:|" }
    print "\n" title "\n\n" line "\n" rule
}
function cell(what, s, w, side) {
    if (what == "rate") return middle[s, w, side] > 0 ? figure(1e6 / middle[s, w, side]) : ""
    return figure(value[what, s, w, side]) (what == "ns" ? " (" figure(middle[s, w, side]) ")" : "")
}
function table(title, what, names, labels,    i, j, w, side, label, line, n) {
    head(title, "Request")
    n = split(names, side, " "); split(labels, label, ",")
    for (w = 1; w <= m; w++) for (j = 1; j <= n; j++) {
        line = "| " (j == 1 ? works[w] ": " : "") label[j] " |"
        for (i = 1; i <= k; i++) line = line " " cell(what, sets[i], works[w], side[j]) " |"
        print line
    }
}
# Ratios of two sides, each beside the goal where there is one; those above it are bold.
function ratios(title, side, other, goals, what,    w, i, s, x, y, line, most) {
    head(title, "Request")
    for (w = 1; w <= asked; w++) {
        line = "| " works[w] " |"
        for (i = 1; i <= k; i++) {
            s = sets[i]; most = goals == "all" ? 1 : goal[goals, works[w], s ~ /^8-/ ? 8 : 24]
            x = value[what, s, works[w], side]; y = value[what, s, works[w], other]
            line = line " " sprintf(most && x / y > most ? "**%.2f**" : "%.2f", x / y) (most ? sprintf(" of %.2f", most) : "") " |"
            if (most) { rows[goals, side, what]++; met[goals, side, what] += x / y <= most }
        }
        print line
    }
}
function summary(label, goals, side,    n, line) {
    line = "| " label " | " rows[goals, side, whats[1]] " |"
    for (n = 1; n <= kinds; n++) line = line " " met[goals, side, whats[n]] " |"
    print line
}
function inside(    i, j, s, x, line, part) {
    head("Instructions inside.", "Part")
    split("the soundness test in a call from outside,the table's test,`key_agent_is_sound` with the state's copy,one inner list: the core's part," \
        "one inner signature: the core's part,the crate and the bench around one inner call,and around the two of a list,the signer of russh," \
        "that of the other sides", part, ",")
    for (j = 1; j <= 9; j++) {
        line = "| " part[j] " |"
        for (i = 1; i <= k; i++) {
            s = sets[i]
            x = j == 1 ? test[s, "list", "outer"] : j == 2 ? test[s, "list", "table"] : j == 3 ? count(s, "is_sound", "outer-sound") : \
                j == 4 ? core[s, "list", "inner"] : j == 5 ? core[s, "sign", "inner"] : \
                j == 6 ? count(s, "list", "inner") - core[s, "list", "inner"] : \
                j == 7 ? count(s, "list", "inner-asked") - core[s, "list", "inner-asked"] : count(s, "sign", j == 8 ? "signer" : "own")
            line = line " " figure(x) " |"
        }
        print line
    }
}
function count(s, w, side) { return value["instructions", s, w, side] }
END {
    m = split("list,sign,add,lock,unlock,empty,remove+add,longer+shorter", works, ","); asked = 6 # those with goals, and empty
    goal["one", "list", 8] = 0.6; goal["one", "sign", 8] = 0.25; goal["whole", "list", 8] = 0.85; goal["whole", "sign", 8] = 0.65
    for (j = 3; j <= 5; j++) { goal["one", works[j], 8] = 0.8; goal["whole", works[j], 8] = 1 }
    goal["one", "list", 24] = 0.65; goal["one", "sign", 24] = 0.55
    one = "inner outer table bare"; whole = "inner-asked outer-asked table-asked bare-asked russh"
    labels = "inner,from outside,table with its test,table without,russh"

    kinds = split(model ? "cycles" : timed ? "instructions ns" : "instructions", whats, " ")
    name["instructions"] = "Instructions"; name["ns"] = "Nanoseconds"; name["cycles"] = "Cycles (" model ", estimated)"
    if (model) m = asked
    for (n = 1; n <= kinds; n++) {
        what = whats[n]; rounds = what == "ns" ? ", best round (middle)" : ""
        table(name[what] " of one call" (rounds ? rounds : ", all answers lent") ".", what, one, labels)
        table(name[what] " of a whole request" rounds ".", what, whole, labels)
    }
    if (timed) {
        table("Thousands of calls a second, all answers lent, by the middle round.", "rate", one, labels)
        table("Thousands of whole requests a second, by the middle round.", "rate", whole, labels)
    }
    if (!model) inside()
    for (n = 1; n <= kinds; n++) {
        what = whats[n]; of = name[what] (what == "ns" ? " (best rounds)" : "")
        ratios(of " of one inner call, with the crate, by russh's `respond`; the goal; bold where it is missed.", "inner", "russh", "one", what)
        ratios(of " of a whole request by inner calls, with the crate, by russh's `respond`.", "inner-asked", "russh", "whole", what)
        ratios(of " of one call from outside, by the table with its test.", "outer", "table", "all", what)
        ratios(of " of a whole request from outside, by the table with its test.", "outer-asked", "table-asked", "all", what)
        ratios(of " of one inner call, with the crate, by the table without its test; no goal.", "inner", "bare", "", what)
    }
    line = "| Goal | Cells |"; rule = "|---|---:|"
    for (n = 1; n <= kinds; n++) { line = line " In " (whats[n] == "ns" ? "nanoseconds" : whats[n]) " |"; rule = rule "---:|" }
    print "\nGoals met, of the cells that have one.\n\n" line "\n" rule
    summary("one inner call by russh", "one", "inner")
    summary("a whole request by inner calls by russh", "whole", "inner-asked")
    summary("one call from outside by the table with its test", "all", "outer")
    summary("a whole request from outside by the table with its test", "all", "outer-asked")
}
