# How much stack each exported call can use, from its compiled code alone: reads `objdump -dr --no-show-raw-insn` of the archive and prints
#     bound NAME BYTES       the return address, and below it the deepest frames of the call and of all that it calls
#     below NAME BYTES       how far a function writes below its own stack pointer (the red zone of the x86-64 ABI), where it does
#     registers LETTER..     the registers besides the general ones that are named: x, y or z for %xmm, %ymm or %zmm, others by their names
#     beyond NAME..          the instructions that are none of the lists below: of x87, MMX, SSE3 and above, BMI, and those of a kernel
# Every path through a function is followed, and the stack pointer must have one value at each instruction. What cannot be followed (another
# change of the stack pointer, an unknown callee, an indirect call, functions that call each other in a circle) ends the run with status 1.
#   -v memory=BYTES          what memcpy, memmove, memset and memcmp are taken to use each, their return address included
#   -v deep='NAME=TIMES ..'  functions that may call themselves, and how often one within the other: a limit that the source has

function fail(message) {
    print "frames: " message >"/dev/stderr"
    failed = 1
    exit 1
}

function hex(text,    k, value, negative) {
    text = tolower(text)
    negative = sub(/^-/, "", text)
    sub(/^0x/, "", text)
    value = 0
    for (k = 1; k <= length(text); k++) value = value * 16 + index("0123456789abcdef", substr(text, k, 1)) - 1
    return negative ? -value : value
}

# What `and` with this mask makes the stack pointer a multiple of: 64 for 0xffffffffffffffc0.
function alignment_of(mask,    value) {
    value = hex(substr(mask, length(mask) - 2))
    return 4096 - value
}

# The function that a call or a jump out of its function leads to: by its relocation, else by the symbol that objdump puts behind it.
function target(f, k,    name) {
    name = relocation[f, k]
    if (name == "") {
        name = words[f, k]
        if (!match(name, /<.*>/)) return ""
        name = substr(name, RSTART + 1, RLENGTH - 2)
        sub(/\+0x[0-9a-f]+$/, "", name)
        return object_of[f] SUBSEP name
    }
    sub(/[-+]0x[0-9a-f]+$/, "", name)
    sub(/^\.text\./, "", name)
    return (object_of[f] SUBSEP name) in first ? object_of[f] SUBSEP name : name
}

# Notes that instruction k of f runs with this many bytes of stack in use.
function reach(f, k, depth) {
    if (!((f, k) in op)) fail(name_of[f] " runs out of its code")
    if ((f, k) in at_depth) {
        if (at_depth[f, k] != depth) fail(name_of[f] ": two depths at " address[f, k])
        return
    }
    at_depth[f, k] = depth
    queue[++queued] = k
}

function deeper(f, depth) { if (depth > most[f]) most[f] = depth }

function follow(f,    k, depth, name, rest, displacement, callee, next_k, indirect, head) {
    queued = 0
    head = 0
    indirect = -1
    reach(f, first[f], 8)
    while (1) {
        while (head < queued) {
            k = queue[++head]
            depth = at_depth[f, k]
            name = op[f, k]
            rest = words[f, k]
            deeper(f, depth)
            # memory below the stack pointer
            if (match(rest, /-0x[0-9a-f]+\(%rsp/)) {
                displacement = -hex(substr(rest, RSTART, RLENGTH - 5))
                if (rest ~ /\(%rsp,/) displacement = 128
                if (displacement > below[f]) below[f] = displacement
                deeper(f, depth + displacement)
            }
            if (name ~ /^pushq?$/) depth += 8
            else if (name ~ /^popq?$/) depth -= 8
            else if (name == "sub" && rest ~ /^\$0x[0-9a-f]+,%rsp$/) depth += hex(substr(rest, 2, index(rest, ",") - 2))
            else if (name == "add" && rest ~ /^\$0x[0-9a-f]+,%rsp$/) depth -= hex(substr(rest, 2, index(rest, ",") - 2))
            else if (name == "lea" && rest ~ /^-?0x[0-9a-f]+\(%rsp\),%rsp$/) depth -= hex(substr(rest, 1, index(rest, "(") - 1))
            else if (name == "and" && rest ~ /^\$0xf+[0-9a-f]*0,%rsp$/) depth += alignment_of(substr(rest, 2, index(rest, ",") - 2)) - 1
            else if (name == "mov" && rest == "%rsp,%rbp") frame_depth[f] = depth
            else if (name == "mov" && rest == "%rbp,%rsp" && f in frame_depth) depth = frame_depth[f]
            else if (name == "lea" && rest ~ /^-?0x[0-9a-f]+\(%rbp\),%rsp$/ && f in frame_depth)
                depth = frame_depth[f] - hex(substr(rest, 1, index(rest, "(") - 1))
            else if (name == "leave" && f in frame_depth) depth = frame_depth[f] - 8
            else if (name !~ /^(cmp|test)/ && rest ~ /(^|,)%[re]?sp$/ || name ~ /^(leave|enter|popf|pushf)/)
                fail(name_of[f] ": cannot follow '" name " " rest "'")
            deeper(f, depth)
            next_k = k + 1
            if (name == "ret") {
                if (depth != 8) fail(name_of[f] ": returns with " depth " bytes of stack")
                continue
            }
            if (name == "ud2" || name == "hlt") continue
            if (name ~ /^call/) {
                if (rest ~ /\*/) fail(name_of[f] ": an indirect call")
                callee = target(f, k)
                calls[f, ++call_count[f]] = callee
                call_depth[f, call_count[f]] = depth
            } else if (name ~ /^(notrack )?jmp/ && rest ~ /\*/) {
                if (indirect >= 0 && indirect != depth) fail(name_of[f] ": indirect jumps at two depths")
                indirect = depth
                continue
            } else if (name ~ /^j/) {
                callee = relocation[f, k] == "" && target(f, k) == f ? "" : target(f, k)
                if (callee == "") {
                    if (!((f, hex(rest_word(rest))) in by_address)) fail(name_of[f] ": a jump to nowhere: " rest)
                    reach(f, by_address[f, hex(rest_word(rest))], depth)
                } else {
                    calls[f, ++call_count[f]] = callee
                    call_depth[f, call_count[f]] = depth - 8
                }
                if (name == "jmp") continue
            }
            reach(f, next_k, depth)
        }
        # what only an indirect jump reaches: the targets of a table have its depth
        if (indirect < 0) break
        for (k = first[f]; k <= last[f]; k++) if (!((f, k) in at_depth) && op[f, k] !~ /^(nop|data16|cs|xchg)/) break
        if (k > last[f]) break
        reach(f, k, indirect)
    }
}

function rest_word(rest) { sub(/ .*$/, "", rest); return rest }

# The most stack that a call of f uses, its return address included.
function bound(f,    k, callee, here, own, self) {
    if (f in bounds) return bounds[f]
    if (f ~ /^(memcpy|memmove|memset|memcmp)$/) return memory
    if (!(f in first)) fail("an unknown function is called: " f)
    if (open[f]) fail("functions call each other in a circle through " name_of[f])
    open[f] = 1
    own = most[f]
    self = 0
    for (k = 1; k <= call_count[f]; k++) {
        callee = calls[f, k]
        if (callee == f) {
            if (!(name_of[f] in times)) fail(name_of[f] " calls itself, and no limit is known")
            if (call_depth[f, k] > self) self = call_depth[f, k]
            continue
        }
        here = call_depth[f, k] + bound(callee)
        if (here > own) own = here
    }
    open[f] = 0
    bounds[f] = own + (self ? self * times[name_of[f]] : 0)
    return bounds[f]
}

# Whether an instruction is of SSE or SSE2, or a general one that every x86-64 processor has. The lists are wider than what the archive has
# today, so that another version of the compiler is not refused without need.
function known(text,    name, at) {
    sub(/^((data16|cs|rep|repn?z|notrack) +)+/, "", text)
    at = index(text, " ")
    name = at ? substr(text, 1, at - 1) : text
    if (name == "pextrw") return text ~ /,%[er][a-z0-9]+$/ # to memory it is of SSE4.1
    if (name ~ /^mov([aul]?p|hp|hlp|lhp|mskp|ntp)[sd]$/ || name ~ /^mov(lh|hl)ps$/ || name ~ /^mov(s[sd]|d|q|dq[au]|ntdq|nti)$/) return 1
    if (name ~ /^(add|sub|mul|div|min|max|sqrt)[ps][sd]$/ || name ~ /^(rcp|rsqrt)[ps]s$/ || name ~ /^cmp(|eq|lt|le|unord|neq|nlt|nle|ord)[ps][sd]$/) return 1
    if (name ~ /^(and|andn|or|xor|shuf|unpckl|unpckh)p[sd]$/ || name ~ /^u?comis[sd]$/ || name ~ /^cvtt?[a-z0-9]+2[a-z0-9]+$/) return 1
    if (name ~ /^p(add|sub)[bwdq]$/ || name ~ /^p(add|sub)us?[bw]$/ || name ~ /^p(add|sub)s[bw]$/ || name ~ /^pmul(lw|hw|huw|udq)$/) return 1
    if (name ~ /^p(and|andn|or|xor|maddwd|sadbw|insrw|movmskb|avg[bw]|(min|max)(ub|sw)|cmp(eq|gt)[bwd]|ack(sswb|ssdw|uswb)|shuf(d|hw|lw)|unpck[lh](bw|wd|dq|qdq))$/) return 1
    if (name ~ /^ps(ll|rl)([wdq]|dq)$/ || name ~ /^psra[wd]$/) return 1
    if (name ~ /^(adc|add|and|bs[fr]|bt[crs]?|cmp|dec|div|idiv|imul|inc|lea|mov|movabs|mul|neg|nop|not|or|pop|push|rc[lr]|ro[lr]|sa[lr]|sbb|sh[lr]|shld|shrd|sub|test|xadd|xchg|xor)[bwlq]?$/) return 1
    if (name ~ /^(bswap|call|cltd|cltq|cqto|cwtd|cwtl|cbtw|hlt|j[a-z]+|leave|[lms]fence|prefetch(nta|t[012])|ret|ud2|cmov[a-z]+|set[a-z]+|mov[sz][bwl][wlq]|movslq|(movs|stos|cmps|scas|lods)[bwlq]?|endbr64)q?$/) return 1
    return 0
}

BEGIN {
    if (memory == "") fail("-v memory is not given")
    n = split(deep, parts, " ")
    for (k = 1; k <= n; k++) {
        split(parts[k], pair, "=")
        times[pair[1]] = pair[2]
    }
}

/file format elf64-x86-64$/ { object = $1; sub(/:$/, "", object); next }
/^[0-9a-f]+ <.*>:$/ {
    name = $0
    sub(/^[0-9a-f]+ </, "", name)
    sub(/>:$/, "", name)
    f = object SUBSEP name
    if (f in first) fail("two functions are called " name)
    functions[++function_count] = f
    object_of[f] = object
    name_of[f] = name
    first[f] = ++instruction
    last[f] = instruction - 1
    instruction--
    next
}
/^\t+[0-9a-f]+: R_X86_64_/ {
    split($0, parts, /[ \t]+/)
    if (parts[3] ~ /PLT32$/ || op[f, instruction] ~ /^(call|j)/) relocation[f, instruction] = parts[4]
    next
}
/^ *[0-9a-f]+:\t/ {
    line = $0
    place = line
    sub(/:.*$/, "", place)
    sub(/^ +/, "", place)
    sub(/^ *[0-9a-f]+:\t */, "", line)
    sub(/ +$/, "", line)
    instruction++
    last[f] = instruction
    address[f, instruction] = place
    by_address[f, hex(place)] = instruction
    at = index(line, " ")
    op[f, instruction] = at ? substr(line, 1, at - 1) : line
    rest = at ? substr(line, at + 1) : ""
    sub(/^ +/, "", rest)
    sub(/ +#.*$/, "", rest)
    words[f, instruction] = rest
    if (!known(line)) beyond[op[f, instruction]] = 1
    if (line ~ /(^| )nop[wl]? /) next # padding, which may be written with %cs:
    gsub(/%[de]s:\(%r[ds]i\)/, "", line) # what a string instruction works on
    while (match(line, /%([xyz]?mm[0-9]+|k[0-7]|st|[cd]r[0-9]+|[c-gs]s([^a-z]|$))/)) {
        register = substr(line, RSTART + 1, RLENGTH - 1)
        sub(/mm[0-9]+$|[^a-z0-9]$/, "", register)
        named[register == "" ? "mm" : register] = 1
        line = substr(line, RSTART + RLENGTH)
    }
}

END {
    if (failed) exit 1
    if (!function_count) fail("no function found")
    for (i = 1; i <= function_count; i++) follow(functions[i])
    for (i = 1; i <= function_count; i++) if (name_of[functions[i]] ~ /^testkit_/) print "bound", name_of[functions[i]], bound(functions[i])
    for (i = 1; i <= function_count; i++) if (below[functions[i]]) print "below", name_of[functions[i]], below[functions[i]]
    line = "registers"
    for (register in named) line = line " " register
    print line
    line = "beyond"
    for (name in beyond) line = line " " name
    if (line != "beyond") print line
}
