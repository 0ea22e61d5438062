# Reads the lines of functions.awk with "crate name edit" and "crate - crate" among them, then docs/CONTRACTS.md. A line for each thing that does not
# fit, and status 1 if there is one. docs/CONTRACTS.md says what form is read.

function fault(text) {
    print "audit: " text
    faults++
}

# Two functions of one crate may have one name: each then has to state, and what one asks is asked.
function take_function(at) {
    at = $1 "::" $2
    if (!(at in known)) {
        known[at] = 1
        stating[at] = 1
    }
    if ($3 == "open") open[at] = 1
    if ($4 != "states") stating[at] = 0
    if ($5 == "asks") asking[at] = 1
}

# How many wrong answers a cell names, each a name, with words of explanation in brackets behind it.
function wrong_answers(cell, at,    items, n, i, count, had) {
    gsub(/ \([^)]*\)/, "", cell)
    gsub(/\*\*/, "", cell)
    n = split(cell, items, ", ")
    for (i = 1; i <= n; i++) {
        if (items[i] !~ /^[a-z][a-z0-9_]*$/) {
            fault(at ": a wrong answer is a name, not '" items[i] "'")
        } else if (!(items[i] in had)) {
            had[items[i]] = 1
            count++
        }
    }
    return count + 0
}

# A row of a crate: a call that asks for nothing has three cells, one that asks has what it asks, and why, as its second of four.
function take_row(cells, n,    at) {
    if (cells[1] !~ /^`[A-Za-z_0-9:]+\([^`]*\)`$/) {
        fault(section ": a row begins with a call, not '" cells[1] "'")
        return
    }
    at = section "::" substr(cells[1], 2, index(cells[1], "(") - 2)
    if (!(at in known)) fault(at ": a row for a function that does not exist")
    else if (!(at in open)) fault(at ": a row for a function that no other crate can call")
    if (at in row) fault(at ": two rows")
    row[at] = 1
    if (n != 3 && n != 4) fault(at ": its row has neither three cells nor four")
    if (n == 3 && at in asking) fault(at ": asks for something, and its row does not say why")
    if (n == 4 && !(at in asking)) fault(at ": asks for nothing, and its row says that it does")
    if (wrong_answers(cells[n], at) < 2) fault(at ": fewer than two wrong answers")
}

# A row of the functions that no row of a crate is for: crate, functions, why.
function take_listed(cells, into,    names, n, i, crate) {
    crate = cells[1]
    gsub(/`/, "", crate)
    n = split(cells[2], names, ", ")
    for (i = 1; i <= n; i++) {
        gsub(/`/, "", names[i])
        if (!((crate "::" names[i]) in known)) fault(crate "::" names[i] ": listed, and does not exist")
        if (cells[3] == "") fault(crate "::" names[i] ": listed without a reason")
        if (into == "inside") inside[crate "::" names[i]] = 1
        else exempt[crate "::" names[i]] = 1
    }
}

# The edits that a line names: in a crate's part its own, elsewhere behind the crate's name.
function take_edits(line,    words) {
    while (match(line, /[a-z_]* ?\*\*[a-z0-9_]+\*\*/)) {
        split(substr(line, RSTART, RLENGTH), words, /\*\*/)
        sub(/ $/, "", words[1])
        if (section in crates) words[1] = section
        if (!((words[1] "/" words[2]) in edits)) fault(words[1] "/must-fail/" words[2] ".edit: named, and does not exist")
        named[words[1] "/" words[2]] = 1
        line = substr(line, RSTART + RLENGTH)
    }
}

FNR == NR && $3 == "edit" { edits[$1 "/" $2] = 1; next }
FNR == NR && $3 == "crate" { crates[$1] = 1; next }
FNR == NR && $3 == "unread" { fault($1 ": its root passes on " $2 " in a form that is not read here"); next }
FNR == NR { take_function(); next }

/^## / { section = substr($0, 4) }
{ take_edits($0) }
/^\| / {
    line = substr($0, 3)
    sub(/ \|$/, "", line)
    n = split(line, cells, / \| /)
    if (cells[1] == "call" || cells[1] == "crate") next
    if (section in crates) take_row(cells, n)
    if (section == "Inside one crate") take_listed(cells, "inside")
    if (section == "Without a statement") take_listed(cells, "exempt")
}

END {
    for (at in known) {
        if (at in open && !(at in row) && !(at in exempt)) fault(at ": a public function without a row")
        if (!(at in open) && at in asking && !(at in inside) && !(at in exempt)) fault(at ": asks for something, and is not listed as inner")
        if (!stating[at] && !(at in exempt)) fault(at ": states no result, and is not listed as an exception")
        if (at in inside && (at in open || !(at in asking))) fault(at ": listed as inner, and is not")
    }
    for (edit in edits) {
        if (!(edit in named)) {
            sub(/\//, "/must-fail/", edit)
            fault(edit ".edit: no row names it")
        }
    }
    exit faults > 0
}
