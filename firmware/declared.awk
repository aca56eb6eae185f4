# What a C header declares, one to a line. Comments are left out.
#     ..          its structs and its functions, in the form that declarations.awk writes
#     NAME VALUE  with -v enumerators=1, instead: each enumerator, and each macro whose value is a number
#     KIND ..     with -v inlines=1, instead: each static inline function up to its body, behind `declared` or `defined`
# Otherwise the static inline functions are left out, which have no counterpart in the archive, and the structs that only they use.
{
    line = $0
    while (1) {
        if (comment) {
            at = index(line, "*/")
            if (!at) { line = ""; break }
            line = substr(line, at + 2)
            comment = 0
        }
        at = index(line, "/*")
        if (!at) break
        text = text " " substr(line, 1, at - 1)
        line = substr(line, at + 2)
        comment = 1
    }
    if (line ~ /^#define [A-Z_0-9]+ [0-9]+ *$/) {
        split(line, words, " ")
        defined = defined words[2] " " words[3] "\n"
    }
    if (line !~ /^#/ && line !~ /^extern "C"/) text = text " " line
}

# Prints the enumerators of the text between two braces.
function enumerators_of(body,    parts, count, k, at) {
    count = split(body, parts, ",")
    for (k = 1; k <= count; k++) {
        gsub(/ /, "", parts[k])
        at = index(parts[k], "=")
        if (!at) { print "declared: an enumerator without a value: " parts[k] >"/dev/stderr"; exit 1 }
        print substr(parts[k], 1, at - 1), substr(parts[k], at + 1)
    }
}

END {
    gsub(/[ \t]+/, " ", text)
    gsub(/\( /, "(", text)
    while (match(text, /enum( [a-z_]+)? \{[^}]*\};/)) {
        item = substr(text, RSTART, RLENGTH)
        text = substr(text, 1, RSTART - 1) substr(text, RSTART + RLENGTH)
        if (enumerators) {
            match(item, /\{[^}]*\}/)
            enumerators_of(substr(item, RSTART + 1, RLENGTH - 2))
        }
    }
    if (enumerators) { printf "%s", defined; exit }
    # a static inline function goes up to its semicolon, or to the brace that closes its body
    while (match(text, /static inline /)) {
        rest = substr(text, RSTART)
        text = substr(text, 1, RSTART - 1)
        match(rest, /[;{]/)
        at = RSTART
        if (inlines) {
            head = substr(rest, 1, at - 1)
            sub(/ +$/, "", head)
            print (substr(rest, at, 1) == "{" ? "defined " : "declared ") head
        }
        if (substr(rest, at, 1) == "{")
            for (depth = 1; depth && at < length(rest);) {
                at++
                letter = substr(rest, at, 1)
                if (letter == "{") depth++
                if (letter == "}") depth--
            }
        text = text substr(rest, at + 1)
    }
    if (inlines) exit
    while (match(text, /struct [a-z_]+ \{[^}]*\};/)) {
        item = substr(text, RSTART, RLENGTH)
        if (item !~ /^struct testkit_(sheet|table) /) print item
        text = substr(text, 1, RSTART - 1) substr(text, RSTART + RLENGTH)
    }
    count = split(text, items, ";")
    for (k = 1; k <= count; k++) {
        gsub(/^[ }]+|[ }]+$/, "", items[k])
        if (items[k] != "") print items[k] ";"
    }
}
