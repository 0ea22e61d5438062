# Reads the sources of crates, each crate's root before its other files. A line for each public function: its crate, its name (a method's behind its
# type), "open" if other crates can call it and "shut" if not, "states" if it has an ensures, "asks" if it has a requires. A line "crate name unread"
# for what a root passes on in a form that is not read here.

function start_file(    parts, n) {
    n = split(FILENAME, parts, "/")
    crate = parts[2]
    module = parts[n]
    sub(/\.rt$/, "", module)
    is_root = module == "lib" || module == "main"
    type = ""
    name = ""
}

# A name that a root passes on from a module.
function pass_name(from, what) {
    passed[crate, from, what] = 1
    passed_type[crate, what] = 1
    waits[crate " " from "::" what] = crate SUBSEP from SUBSEP what
}

# What a root passes on: `pub use module::name;`, `pub use module::{name, name};` on one line or several, or `pub mod module;`.
function pass_on(line,    parts, names, n, i) {
    sub(/;.*$/, "", line)
    if (line ~ /^pub use [a-z_0-9]+::[A-Za-z_0-9]+$/) {
        split(substr(line, 9), parts, "::")
        pass_name(parts[1], parts[2])
    } else if (line ~ /^pub use [a-z_0-9]+::\{[A-Za-z_0-9, ]+\}$/) {
        split(substr(line, 9), parts, "::")
        gsub(/[{} ]/, "", parts[2])
        sub(/,$/, "", parts[2])
        n = split(parts[2], names, ",")
        for (i = 1; i <= n; i++) pass_name(parts[1], names[i])
    } else if (line ~ /^pub mod [a-z_0-9]+$/) {
        passed_module[crate, substr(line, 9)] = 1
    } else {
        gsub(/ /, "", line)
        print crate, line, "unread"
    }
}

# Whether another crate can call the function: a program's functions serve no one else.
function standing() {
    if (module == "main" || !((crate, "root") in library)) {
        return "shut"
    }
    if (is_root || (crate, module) in passed_module) {
        return "open"
    }
    if (type != "") {
        return (crate, type) in passed_type ? "open" : "shut"
    }
    return (crate, module, name) in passed ? "open" : "shut"
}

FNR == 1 { start_file() }
FNR == 1 && module == "lib" { library[crate, "root"] = 1 }
FNR == 1 { begun = "" }
is_root && (begun != "" || /^pub (use|mod) /) {
    begun = begun (begun == "" ? "" : " ") $0
    if (/;/) {
        gsub(/  +/, " ", begun)
        pass_on(begun)
        begun = ""
    }
}
/^pub (struct|enum|const) / { seen[crate, module, substr($3, 1, match($3 " ", /[^A-Za-z_0-9]/) - 1)] = 1 }
/^impl/ { type = $0; sub(/^impl(<[^>]*>)? */, "", type); sub(/[^A-Za-z_0-9].*$/, "", type) }
/^}/ { type = "" }
/^ *pub ([a-z]+ |"C" )*fn / {
    name = $0
    sub(/^.* fn /, "", name)
    sub(/[^A-Za-z_0-9].*$/, "", name)
    seen[crate, module, name] = 1
    states = "-"
    asks = "-"
}
name != "" && /^ *ensures / { states = "states" }
name != "" && /^ *requires / { asks = "asks" }
name != "" && /\{$/ && !/^ *(ensures|requires) / {
    print crate, (type == "" ? name : type "::" name), standing(), states, asks
    name = ""
}
END {
    for (what in waits) {
        if (!(waits[what] in seen)) {
            print what, "unread"
        }
    }
}
