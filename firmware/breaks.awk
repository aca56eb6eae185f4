# Ways to break a header, one to a line: KIND FROM TO A B, tab-separated. In the lines FROM to TO the words A and B change places; or, of the
# kinds size, number and refusal, A becomes B.
#   enumerator   two enumerators of one enum that have different values
#   size         a number: an enumerator's, the version's, an array's
#   field        two fields of one struct that have one type
#   parameter    two parameters of one call that have one type: of a static inline call where it is declared, and where it is defined
#   argument     two arguments that a static inline call hands on; not two lengths of a list of returns, of which the shortest decides
#   number       the number in brackets behind a name, in a comment
#   refusal      a number of a call's list of refusals, left out; not one that the call has by `as testkit_..` too
function say(kind, from, to, a, b) {
    if (kind == "argument" && a ~ decides && b ~ decides) return
    if (!said[kind, from, a, b]++) printf "%s\t%d\t%d\t%s\t%s\n", kind, from, to, a, b
}
BEGIN { decides = "^(return_timestamps|lengths|returned|numbers)_length$" }

function pairs(kind, from, to,    i, j) {
    for (i = 1; i <= n; i++) for (j = i + 1; j <= n; j++) if (type[i] == type[j] && name[i] != name[j] && (kind != "enumerator" || value[i] != value[j])) say(kind, from, to, name[i], name[j])
}

function split_all(text, kind,    parts, count, k, item) {
    n = 0
    count = split(text, parts, ",")
    for (k = 1; k <= count; k++) {
        item = parts[k]
        gsub(/^ +| +$/, "", item)
        if (item == "" || item == "void") continue
        n++
        if (kind == "argument") { name[n] = item; type[n] = ""; continue }
        sub(/\[[0-9]+\]$/, "", item)
        match(item, /[a-z_0-9]+$/)
        name[n] = substr(item, RSTART)
        type[n] = substr(item, 1, RSTART - 1)
    }
}

/^\/\*/ { begun = NR; split("", numbers); before = ""; by_another = 0 }
/^\/\*/, /\*\/$/ {
    last = NR
    by_another = by_another || /as testkit_record_received_tpdu/
    rest = $0
    while (match(rest, /\([0-9]+\)/)) {
        if ((before substr(rest, 1, RSTART - 1)) ~ /TESTKIT_[A-Z0-9_]+[ *]+$/) {
            number = substr(rest, RSTART, RLENGTH)
            numbers[number] = 1
            say("number", NR, NR, number, "(" (substr(number, 2) + 1) ")")
        }
        rest = substr(rest, RSTART + RLENGTH)
    }
    before = $0
}
{ line = $0; gsub(/\/\*[^*]*\*\//, "", line); sub(/\/\*.*$/, "", line) }
/^#define TESTKIT_VERSION_[A-Z]+ [0-9]+$/ { say("size", NR, NR, $3, $3 + 1) }
/^enum.*\{$/ { inside = "enum"; from = NR; n = 0; next }
/^struct [a-z_]+ \{$/ { inside = "struct"; from = NR; n = 0; next }
/^};/ {
    if (inside == "enum") pairs("enumerator", from, NR)
    if (inside == "struct") pairs("field", from, NR)
    inside = ""
    next
}
inside == "enum" && line ~ / = [0-9]+/ {
    n++
    match(line, /TESTKIT_[A-Z0-9_]+/)
    name[n] = substr(line, RSTART, RLENGTH)
    match(line, /= [0-9]+/)
    value[n] = substr(line, RSTART + 2, RLENGTH - 2)
    type[n] = ""
    say("size", NR, NR, value[n], value[n] + 1)
    next
}
inside == "struct" && line ~ /;/ {
    n++
    sub(/;.*$/, "", line)
    if (match(line, /\[[0-9]+\]$/)) {
        count = substr(line, RSTART + 1, RLENGTH - 2)
        say("size", NR, NR, count, count + 1)
        line = substr(line, 1, RSTART - 1)
    }
    match(line, /[a-z_0-9]+$/)
    name[n] = substr(line, RSTART)
    type[n] = substr(line, 1, RSTART - 1)
    next
}
/^[a-z].*testkit_[a-z_]+\(/ {
    inside = "call"
    from = NR
    text = ""
    if (!/^static inline/ && last == NR - 1)
        for (number in numbers) if (!(by_another && number ~ /^\((1|21)\)$/)) say("refusal", begun, last, number, "")
}
inside == "call" { text = text " " line }
inside == "call" && /\);?$/ {
    sub(/^[^(]*\(/, "", text)
    sub(/\);?$/, "", text)
    split_all(text, "parameter")
    pairs("parameter", from, NR)
    inside = ""
}
/^    .*(= |return )testkit_[a-z_]+\($/ { inside = "body"; from = NR + 1; text = ""; next }
inside == "body" { text = text " " line }
inside == "body" && /\);$/ {
    sub(/\);$/, "", text)
    split_all(text, "argument")
    pairs("argument", from, NR)
    inside = ""
}
