# From the structs that declarations.awk writes, C code:
#   -v wanted=asserts   an assertion for the size and alignment of each struct and the offset and size of each field, by the rules that
#                       C and #[repr(C)] have in common: a field stands at the next multiple of its alignment, and a struct ends at a
#                       multiple of its own
#   -v wanted=fields    for each struct a function that compares all of its fields (answers.c)
/^struct [a-z_]+ \{/ {
    name = $2
    body = $0
    sub(/^[^{]*\{ */, "", body)
    sub(/ *\};$/, "", body)
    count[name] = split(body, parts, /; */)
    if (parts[count[name]] == "") count[name]--
    for (k = 1; k <= count[name]; k++) {
        at = match(parts[k], / [a-z_0-9]+(\[[0-9]+\])?$/)
        type[name, k] = substr(parts[k], 1, at - 1)
        field[name, k] = substr(parts[k], at + 1)
        elements[name, k] = 1
        if (match(field[name, k], /\[[0-9]+\]$/)) {
            elements[name, k] = substr(field[name, k], RSTART + 1, RLENGTH - 2) + 0
            field[name, k] = substr(field[name, k], 1, RSTART - 1)
        }
    }
    structs[++structs_count] = name
}

function fail(message) {
    print "layout: " message >"/dev/stderr"
    exit 1
}

# The size of a type, and its alignment in `alignment`.
function measure(form,    inner) {
    if (form in sizes) {
        alignment = alignments[form]
        return sizes[form]
    }
    if (form !~ /^struct /) fail("what is " form "?")
    inner = form
    sub(/^struct /, "", inner)
    if (!(inner in count)) fail("no " form)
    lay_out(inner)
    alignment = alignments[form]
    return sizes[form]
}

function lay_out(name,    k, at, most, size, own) {
    if (("struct " name) in sizes) return
    at = 0
    most = 1
    for (k = 1; k <= count[name]; k++) {
        size = measure(type[name, k]) * elements[name, k]
        own = alignment
        if (own > most) most = own
        if (at % own) at += own - at % own
        offsets[name, k] = at
        widths[name, k] = size
        at += size
    }
    if (at % most) at += most - at % most
    sizes["struct " name] = at
    alignments["struct " name] = most
}

function basic(name, size) { sizes[name] = size; alignments[name] = size }

# The leaves of a struct: its fields, and those of the structs within, each with its path and its width; an array in parts of 8 bytes.
function leaves_of(name, path,    k, inner, part) {
    for (k = 1; k <= count[name]; k++) {
        if (type[name, k] ~ /^struct /) {
            inner = type[name, k]
            sub(/^struct /, "", inner)
            leaves_of(inner, path field[name, k] ".")
        } else if (elements[name, k] > 1) {
            for (part = 0; part < widths[name, k]; part += 8) {
                leaf[++leaves] = path field[name, k] " + " part
                leaf_width[leaves] = 8
                leaf_array[leaves] = 1
            }
        } else {
            leaf[++leaves] = path field[name, k]
            leaf_width[leaves] = widths[name, k]
            leaf_array[leaves] = 0
        }
    }
}

END {
    basic("uint8_t", 1)
    basic("bool", 1)
    basic("uint16_t", 2)
    basic("uint32_t", 4)
    basic("uint64_t", 8)
    basic("size_t", 8)
    if (!structs_count) fail("no struct")
    for (i = 1; i <= structs_count; i++) lay_out(structs[i])
    if (wanted == "asserts") {
        print "#include \"testkit.h\""
        print "#ifdef __cplusplus"
        print "#define ASSERT static_assert"
        print "#define ALIGNMENT alignof"
        print "#else"
        print "#define ASSERT _Static_assert"
        print "#define ALIGNMENT _Alignof"
        print "#endif"
        for (i = 1; i <= structs_count; i++) {
            name = structs[i]
            printf "ASSERT(sizeof(struct %s) == %d, \"the size of %s\");\n", name, sizes["struct " name], name
            printf "ASSERT(ALIGNMENT(struct %s) == %d, \"the alignment of %s\");\n", name, alignments["struct " name], name
            for (k = 1; k <= count[name]; k++) {
                printf "ASSERT(offsetof(struct %s, %s) == %d, \"the offset of %s.%s\");\n", name, field[name, k], offsets[name, k], name, field[name, k]
                printf "ASSERT(sizeof(((struct %s *)0)->%s) == %d, \"the size of %s.%s\");\n", name, field[name, k], widths[name, k], name, field[name, k]
            }
        }
        print "int layout(void);"
        print "int layout(void) { return 0; }"
        exit
    }
    for (i = 1; i <= structs_count; i++) {
        name = structs[i]
        leaves = 0
        leaves_of(name, "")
        printf "static const struct leaf leaves_of_%s[] = {\n", name
        for (k = 1; k <= leaves; k++) printf "    {\"%s\", %d},\n", leaf[k], leaf_width[k]
        printf "};\nstatic unsigned char told_%s[%d][%d];\n", name, leaves, leaves
        printf "static void compare_%s(const char *what, struct %s found, struct %s due)\n{\n", name, name, name
        printf "    uint64_t f[%d], d[%d];\n", leaves, leaves
        for (k = 1; k <= leaves; k++) {
            if (leaf_array[k]) {
                printf "    memcpy(&f[%d], found.%s, 8);\n    memcpy(&d[%d], due.%s, 8);\n", k - 1, leaf[k], k - 1, leaf[k]
            } else {
                printf "    f[%d] = (uint64_t)found.%s;\n    d[%d] = (uint64_t)due.%s;\n", k - 1, leaf[k], k - 1, leaf[k]
            }
        }
        printf "    compare(what, \"%s\", leaves_of_%s, %d, f, d, &told_%s[0][0]);\n}\n", name, name, leaves, name
        table = table sprintf("    {\"%s\", leaves_of_%s, %d, &told_%s[0][0]},\n", name, name, leaves, name)
    }
    printf "static const struct told all_told[] = {\n%s};\n", table
}
