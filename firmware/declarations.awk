# The C declarations that the proved source calls for, one to a line: each `#[repr(C)]` struct and each `#[no_mangle]` function.
# A slice is a pointer and a length; a reference to an array or a number is a pointer.

BEGIN {
    # records of lower crates, which have the Rust's names there
    names["ObserverCounts"] = "counts"
    names["PacketContinuityBudget"] = "budget"
    names["TrafficPlan"] = "plan"
    names["LentSocketAddr"] = "socket_addr"
}

# C's name of a struct: TestkitWritten is `struct testkit_written`, and so is Written.
function tag(name,    k, letter, out) {
    if (name in names) return "struct testkit_" names[name]
    for (k = 1; k <= length(name); k++) {
        letter = substr(name, k, 1)
        out = out (k > 1 && letter ~ /[A-Z]/ ? "_" : "") tolower(letter)
    }
    return "struct " (out ~ /^testkit_/ ? "" : "testkit_") out
}

function type(name) {
    sub(/^.*::/, "", name)
    if (name == "usize") return "size_t"
    if (name == "bool") return "bool"
    if (name ~ /^[ui](8|16|32|64)$/) return (name ~ /^u/ ? "uint" : "int") substr(name, 2) "_t"
    return tag(name)
}

function declare(name, form,    const, count) {
    if (form ~ /^\[/) {
        count = form
        sub(/^.*; */, "", count)
        sub(/ *;.*$/, "", form)
        return type(substr(form, 2)) " " name "[" count
    }
    if (form !~ /^&/) return type(form) " " name
    const = (form ~ /^&mut /) ? "" : "const "
    sub(/^&(mut )?/, "", form)
    if (form ~ /^\[.*;/) {
        count = form
        sub(/^.*; */, "", count)
        sub(/ *;.*$/, "", form)
        return const type(substr(form, 2)) " " name "[" count
    }
    if (form ~ /^\[/) return const type(substr(form, 2, length(form) - 2)) " *" name ", size_t " name "_length"
    return const type(form) " *" name
}

# The parameters or fields of "name: form, ..".
function declare_all(text, separator,    parts, count, k, at, out) {
    count = split(text, parts, ",")
    for (k = 1; k <= count; k++) {
        gsub(/^ +| +$/, "", parts[k])
        sub(/^(pub|mut) /, "", parts[k])
        at = index(parts[k], ": ")
        if (at) out = out (out == "" ? "" : separator) declare(substr(parts[k], 1, at - 1), substr(parts[k], at + 2))
    }
    return out
}

function finish(    head, result, parameters) {
    gsub(/[ \t]+/, " ", item)
    if (item ~ /^pub struct/) {
        match(item, /\{.*\}/)
        head = substr(item, 12, RSTART - 13)
        print tag(head) " { " declare_all(substr(item, RSTART + 1, RLENGTH - 2), "; ") "; };"
    } else {
        match(item, /\(.*\)/)
        head = substr(item, 1, RSTART - 1)
        result = substr(item, RSTART + RLENGTH)
        sub(/^.* /, "", head)
        sub(/^ -> /, "", result)
        sub(/ +$/, "", result)
        parameters = declare_all(substr(item, index(item, "(") + 1, RSTART + RLENGTH - index(item, "(") - 2), ", ")
        print type(result) " " head "(" (parameters == "" ? "void" : parameters) ");"
    }
    item = ""
}

{ sub(/^ *\/\/.*$/, "") }
/^#\[(repr\(C\)|(unsafe\()?no_mangle\)?)\]$/ { open = 1; item = ""; next }
/^#\[/ { next }
open && item ~ /^pub extern/ && /^ +(ensures|requires)/ { open = 0; finish(); next }
open { item = item " " $0; sub(/^ +/, "", item) }
open && item ~ /^pub struct/ && /^}$/ { open = 0; finish() }
