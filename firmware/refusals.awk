# The refusals that a C header lists for each call of the archive, one call to a line: NAME 0 N N .., the numbers rising. They are those of
# the comment before the call: TESTKIT_NAME (N), each number of `TESTKIT_NAME (N) to TESTKIT_NAME (M)`, and, for `as testkit_call`, the
# refusals of that call. A call whose comment has none is left out.
/^\/\*/ { comment = "" }
/^\/\*/, /\*\/$/ { line = $0; sub(/^ ?\/?\*+\/? */, "", line); comment = comment " " line; next }
/^[a-z].*[ *]testkit_[a-z_]+\(/ {
    if (/^static inline/) { comment = ""; next }
    name = $0
    sub(/\(.*$/, "", name)
    sub(/^.*[ *]/, "", name)
    names[++count] = name
    text[name] = comment
    comment = ""
}

# Notes the refusals of a call among those of another.
function add(name, to,    rest, word, n, upper) {
    if (seen[to, name]++) return
    rest = text[name]
    gsub(/[ \t]+/, " ", rest)
    while (match(rest, /TESTKIT_[A-Z0-9_]+ \([0-9]+\)( to TESTKIT_[A-Z0-9_]+ \([0-9]+\))?|as testkit_[a-z_]+/)) {
        word = substr(rest, RSTART, RLENGTH)
        rest = substr(rest, RSTART + RLENGTH)
        if (word ~ /^as /) { add(substr(word, 4), to); continue }
        upper = word
        sub(/^[^(]*\(/, "", word)
        sub(/^.*\(/, "", upper)
        for (n = word + 0; n <= upper + 0; n++) refuses[to, n] = some[to] = 1
    }
}

END {
    for (k = 1; k <= count; k++) {
        add(names[k], names[k])
        if (!some[names[k]]) continue
        line = names[k] " 0"
        for (n = 1; n < 256; n++) if (refuses[names[k], n]) line = line " " n
        print line
    }
}
