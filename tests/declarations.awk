# The library's functions, structs and numbers as one of its three declarations has them, a line each, in one form:
#   awk -v of=rattle -f tests/declarations.awk crates/legrudda/src/*.rt crates/field/src/answer.rt
#   awk -v of=header -f tests/declarations.awk include/legrudda.h
#   awk -v of=client -f tests/declarations.awk rust/legrudda/src/*.rs
# A slice is one argument, in the header and in the client a pointer `x` and a count `x_len`. What cannot be read is an error.
function trim(s) { gsub(/[ \t\n]+/, " ", s); sub(/^ /, "", s); sub(/ $/, "", s); return s }
function bad(what) { print "declarations: " of ": cannot read: " trim(what) > "/dev/stderr"; failed = 1 }

# The text from the first match of a pattern on, its match left out; "" where there is none.
function after(s, pattern) { return match(s, pattern) ? substr(s, RSTART + RLENGTH) : "" }

# The text up to the first match of a pattern.
function upto(s, pattern) { return match(s, pattern) ? substr(s, 1, RSTART - 1) : s }

# A type as Rattle writes it.
function type_of(t) {
    t = trim(t)
    if (of == "header") {
        if (t == "uint32_t") return "u32"
        if (t == "uint64_t") return "u64"
        if (t == "int32_t") return "i32"
        if (t == "size_t") return "usize"
        if (t == "void") return "()"
        if (t ~ /^const uint(32|64)_t [*]$/) return "*const u" substr(t, 11, 2)
        if (t ~ /^uint(32|64)_t [*]$/) return "*mut u" substr(t, 5, 2)
        if (t ~ /^Legrudda[A-Za-z]+$/) return substr(t, 9)
    }
    if (t == "Words") return "*const u32"
    if (t == "WordsMut") return "*mut u32"
    if (t ~ /^(u32|u64|i32|usize|[(][)]|[A-Z][A-Za-z]*)$/) return t
    if (t ~ /^\[u32; [0-9]+\]$/ || t ~ /^&(mut )?\[u(32|64)\]$/ || t ~ /^[*](const|mut) u(32|64)$/) return t
    bad("type " t)
    return t
}

# `name: type` of an argument or a field.
function named(a,    name, size) {
    a = trim(a)
    if (of != "header") {
        sub(/^pub /, "", a)
        if (a !~ /^[a-z_0-9]+: /) bad(a)
        return upto(a, ": ") ": " type_of(after(a, ": "))
    }
    size = ""
    if (a ~ /\[[0-9]+\]$/) { size = after(a, "[[]"); sub(/\]$/, "", size); a = upto(a, "[[]") }
    if (!match(a, /[a-z_0-9]+$/)) bad(a)
    name = substr(a, RSTART)
    a = type_of(substr(a, 1, RSTART - 1))
    return name ": " (size == "" ? a : "[" a "; " size "]")
}

# All of a list, with pointers and their counts as slices.
function all(list, separator,    parts, n, i, k, one, next_one, name, kind, out) {
    n = split(list, parts, separator)
    k = 0
    for (i = 1; i <= n; i++) if (trim(parts[i]) != "" && trim(parts[i]) != "void") parts[++k] = named(parts[i])
    out = ""
    for (i = 1; i <= k; i++) {
        one = parts[i]
        if (one ~ /: [*]/) {
            name = upto(one, ": ")
            kind = after(one, ": [*]")
            next_one = i < k ? parts[i + 1] : ""
            if (next_one != name "_len: usize") bad("a pointer without its count: " one)
            i++
            one = name ": &" (kind ~ /^mut/ ? "mut " : "") "[" after(kind, " ") "]"
        }
        out = out (out == "" ? "" : ", ") one
    }
    return out
}

function say_function(name, list, result) {
    print "fn " name "(" all(list, ",") ") -> " (trim(result) == "" ? "()" : type_of(result))
}

function say_struct(name, list) { print "struct " name " { " all(list, of == "header" ? ";" : ",") " }" }

# A number by the letters of its name alone, which Rattle and C write in two ways.
function say_number(name, number) { gsub(/_/, "", name); print "number " tolower(name) " = " number }

function structs_in_rust(s, start,    body) {
    while (s = after(s, start)) {
        body = after(s, "pub struct ")
        say_struct(upto(body, " [{]"), upto(after(body, "[{]"), "[}]"))
    }
}

# The client's text with the declarations that its macro makes written out.
function expanded(s,    macro, name, pattern, rest, out, calls, n, i, one, takes, kinds, writes, declared) {
    if (s !~ /macro_rules! /) return s
    macro = after(s, "macro_rules! ")
    name = upto(macro, " ") "! [{]"
    pattern = upto(after(macro, "pub fn [$]name[(]"), "[)] -> [$]answer;")
    rest = after(macro, "\n}\n")
    out = upto(s, "macro_rules! ") upto(rest, name)
    rest = after(rest, name)
    n = split(upto(rest, "[}]"), calls, ";")
    for (i = 1; i <= n; i++) {
        one = trim(calls[i])
        if (one == "") continue
        if (one !~ /^[a-z_0-9]+[(][^)]*[)] [(][A-Za-z]+, [A-Za-z]+[)] [(][^)]*[)] -> [A-Za-z]+$/) { bad(one); continue }
        takes = after(one, "[(]")
        kinds = after(takes, "[(]")
        writes = after(kinds, "[(]")
        declared = pattern
        sub(/[$][(][$]takes: [$]a,[)][*]/, listed(upto(takes, "[)]")), declared)
        sub(/[$][(][$]writes: [$]b,[)][*]/, listed(upto(writes, "[)]")), declared)
        gsub(/[$]three/, upto(kinds, ","), declared)
        gsub(/[$]last/, upto(after(kinds, ", "), "[)]"), declared)
        out = out "\npub fn " upto(one, "[(]") "(" declared ") -> " after(one, "-> ") ";\n"
    }
    return out after(rest, "[}]")
}
function listed(s) { return s == "" ? "" : s "," }

FNR == 1 { file++; text[file] = "" }
{
    line = $0
    if (of != "header") sub(/\/\/.*/, "", line)
    if (of == "header" && line ~ /^#/) line = ""
    text[file] = text[file] line "\n"
}

END {
    for (f = 1; f <= file; f++) {
        s = text[f]
        if (of == "rattle") {
            structs_in_rust(s, "#\\[repr\\(C\\)\\]")
            rest = after(s, "pub enum Refusal [{]")
            if (rest != "") {
                rest = upto(rest, "[}]")
                while (match(rest, /[A-Za-z0-9]+ = [0-9]+/)) {
                    one = substr(rest, RSTART, RLENGTH)
                    rest = substr(rest, RSTART + RLENGTH)
                    say_number(upto(one, " ="), after(one, "= "))
                }
                if (match(s, /Ok\(\(\)\) => [0-9]+/)) say_number("Done", substr(s, RSTART + 10, RLENGTH - 10))
            }
            while (s = after(s, "#\\[unsafe\\(no_mangle\\)\\]\npub extern \"C\" fn ")) {
                rest = upto(after(s, "[(]"), "\n *(requires|ensures)|[{]")
                gsub(/&'a /, "\\&", rest)
                say_function(upto(s, "[(<]"), upto(rest, "[)]( ->|\n|$)"), after(rest, "[)] -> "))
            }
        }
        if (of == "client") {
            structs_in_rust(s, "#\\[repr\\(C\\)\\]")
            if (s ~ /extern "C"/) {
                s = expanded(s)
                while (s = after(s, "pub (safe )?fn ")) {
                    rest = upto(after(s, "[(]"), ";")
                    say_function(upto(s, "[(]"), upto(rest, "[)]( ->|$)"), after(rest, "[)] -> "))
                }
            }
        }
        if (of == "header") {
            while (match(s, /\/[*]/)) s = substr(s, 1, RSTART - 1) " " after(substr(s, RSTART), "[*]\\/")
            enumerators = upto(after(s, "enum [{]"), "[}]")
            n = split(enumerators, parts, ",")
            for (i = 1; i <= n; i++) {
                one = trim(parts[i])
                if (one !~ /^LEGRUDDA_[A-Z0-9_]+ = [0-9]+$/) bad(one)
                say_number(upto(substr(one, 10), " ="), after(one, "= "))
            }
            while (match(s, /typedef struct [{][^}]*[}] [A-Za-z]+;/)) {
                one = substr(s, RSTART, RLENGTH)
                s = substr(s, 1, RSTART - 1) substr(s, RSTART + RLENGTH)
                name = after(one, "[}] ")
                say_struct(type_of(upto(name, ";")), upto(after(one, "[{]"), "[}]"))
            }
            n = split(s, parts, ";")
            for (i = 1; i <= n; i++) {
                one = trim(parts[i])
                if (one !~ /legrudda_/) continue
                if (!match(one, /[A-Za-z0-9_]+ legrudda_[a-z0-9_]+[(][^()]*[)]$/)) { bad(one); continue }
                one = substr(one, RSTART)
                say_function(upto(after(one, " "), "[(]"), upto(after(one, "[(]"), "[)]$"), upto(one, " "))
            }
        }
    }
    exit failed
}
