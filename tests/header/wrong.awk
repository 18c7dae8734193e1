# Makes wrong headers out of the right one, each with one mistake: FOLDER/1.h, FOLDER/2.h, .., and prints a line for each: its number, what must find it, and
# what is wrong. What must find it is
#
#   calls    the C program that calls every function, without the list made of the sources
#   types    the C compiler, by the list
#   names    the reading of the header, by the list: to C it means the same
#
#     awk -v folder=FOLDER -f wrong.awk cocklejoist.h
{ line[NR] = $0 }

# a header in which line `at` is `text`, and line `also`, if it is not 0, is `other`
function wrong(kind, what, at, text, also, other,    i, file) {
    made++
    file = folder "/" made ".h"
    for (i = 1; i <= NR; i++) print (i == at ? text : i == also ? other : line[i]) > file
    close(file)
    print made, kind, what
}

function number(text,    i, n) {
    if (text !~ /^0x/) return text + 0
    for (i = 3; i <= length(text); i++) n = n * 16 + index("0123456789ABCDEF", substr(text, i, 1)) - 1
    return n
}

# ---- constants
function constant(at,    word, n) {
    split(line[at], word, " ")
    n = number(word[3])
    wrong("calls", word[2] " one more", at, "#define " word[2] " " (n + 1))
    wrong("calls", word[2] " one less", at, "#define " word[2] " " (n - 1))
    wrong("calls", word[2] " two more", at, "#define " word[2] " " (n + 2))
    wrong("calls", word[2] " two less", at, "#define " word[2] " " (n - 2))
    if (n < 100000000) wrong("calls", word[2] " with a digit more", at, "#define " word[2] " " n "0")
    wrong("calls", word[2] " not there", at, "")
}

# ---- refusals. No call answers CJ_MEMORY_OUTSIDE, so that only the list tells that it is another number, or not there.
function refusal(at,    word, n, kind, next_word) {
    split(line[at], word, " ")
    n = number(word[3])
    kind = word[1] == "CJ_MEMORY_OUTSIDE" ? "types" : "calls"
    wrong(kind, word[1] " one more", at, word[1] " = " (n + 1) ",")
    wrong(kind, word[1] " far off", at, word[1] " = " (n * 11 + 100) ",")
    if (n < 10) wrong(kind, word[1] " with its digit twice", at, word[1] " = " (n ? n * 11 : 1) ",")
    wrong(kind, word[1] " not there", at, "")
    if (split(line[at + 1], next_word, " ") < 3 || next_word[2] != "=") return
    wrong("calls", word[1] " and " next_word[1] " swapped", at, word[1] " = " number(next_word[3]) ",", at + 1, next_word[1] " = " n ",")
}

# ---- structs
function other_type(type) {
    if (type == "uint32_t") return "int32_t"
    if (type == "int32_t") return "uint32_t"
    if (type == "uint64_t") return "int64_t"
    if (type == "cj_register") return "cj_fraction"
    return "cj_register"
}
function other_width(type) {
    if (type == "uint64_t") return "uint32_t"
    if (type == "int32_t") return "int64_t"
    if (type == "uint32_t") return "uint64_t"
    return type == "cj_stepped" ? "cj_walked" : "cj_stepped"
}

function member(at,    word) {
    split(line[at], word, " ")
    wrong("types", struct "." word[2] " is " other_type(word[1]), at, "    " other_type(word[1]) " " word[2])
    wrong("types", struct "." word[2] " is " other_width(word[1]), at, "    " other_width(word[1]) " " word[2])
    wrong("calls", struct "." word[2] " not there", at, "")
    wrong("types", struct " has a field more before " word[2], at, "    uint64_t more;\n" line[at])
    if (line[at + 1] ~ /^    [a-z]/) wrong("calls", struct ": " word[2] " and what follows it swapped", at, line[at + 1], at + 1, line[at])
}

# ---- functions
function joined(    i, text) {
    for (i = 1; i <= count; i++) if (part[i] != "") text = text (text == "" ? "" : ", ") part[i]
    return text == "" ? "void" : text
}

# the type of a parameter as it is written before its name, and its name
function type_of(parameter) { sub(/[a-z_]+$/, "", parameter); return parameter }
function name_of(parameter) { sub(/^.*[ *]/, "", parameter); return parameter }

# a header in which one parameter, or two, are others
function with_other(kind, what, at, i, first, second,    kept, next_kept) {
    kept = part[i]
    part[i] = first
    if (second != "") { next_kept = part[i + 1]; part[i + 1] = second }
    wrong(kind, name ": " what, at, head joined() ");")
    part[i] = kept
    if (second != "") part[i + 1] = next_kept
}

# on this machine size_t and uint64_t are one type by two names
function same_type(one, other) {
    sub(/^size_t $/, "uint64_t ", one)
    sub(/^size_t $/, "uint64_t ", other)
    return one == other
}

function wrong_types(at, i,    type, word) {
    type = type_of(part[i])
    word = name_of(part[i])
    with_other("calls", "no " word, at, i, "")
    if (type == "const uint8_t *") {
        with_other("types", word " may be changed", at, i, "uint8_t *" word)
        with_other("types", word " is of signed bytes", at, i, "const int8_t *" word)
    } else if (type ~ /\*$/) {
        with_other("types", word " is only read", at, i, "const " type word)
        with_other("types", word " is of words", at, i, "uint32_t *" word)
    } else if (type == "size_t ") {
        with_other("types", word " has 32 bits", at, i, "uint32_t " word)
        with_other("names", word " is uint64_t", at, i, "uint64_t " word)
    } else {
        sub(/ $/, "", type)
        with_other("types", word " is " other_type(type), at, i, other_type(type) " " word)
        with_other("types", word " is " other_width(type), at, i, other_width(type) " " word)
    }
}

# a parameter and the next one swapped: both whole, and their names alone, which no compiler and no call can see
function wrong_order(at, i,    one, other) {
    one = part[i]
    other = part[i + 1]
    with_other(same_type(type_of(one), type_of(other)) ? "names" : "types", name_of(one) " and " name_of(other) " swapped", at, i, other, one)
    if (type_of(one) == type_of(other)) return
    with_other("names", "the names of " name_of(one) " and " name_of(other) " swapped", at, i, type_of(one) name_of(other), type_of(other) name_of(one))
}

function routine(at,    answer, list, i) {
    head = substr(line[at], 1, index(line[at], "("))
    answer = name = head
    sub(/ .*$/, "", answer)
    sub(/^[^ ]* /, "", name)
    sub(/\($/, "", name)
    list = substr(line[at], length(head) + 1)
    sub(/\);$/, "", list)
    count = list == "void" ? 0 : split(list, part, /, /)
    wrong("calls", name " not there", at, "")
    wrong("calls", name " by another name", at, answer " " name "s(" list ");")
    wrong("types", name " answers " other_type(answer), at, other_type(answer) " " name "(" list ");")
    wrong("types", name " answers " other_width(answer), at, other_width(answer) " " name "(" list ");")
    wrong("calls", name " takes one number more", at, head (count ? list ", " : "") "uint32_t more);")
    for (i = 1; i <= count; i++) wrong_types(at, i)
    for (i = 1; i < count; i++) wrong_order(at, i)
}

END {
    for (n = 1; n <= NR; n++) {
        if (line[n] ~ /^#define CJ_/) constant(n)
        else if (line[n] ~ /^    CJ_[A-Z_]+ = [0-9]/) refusal(n)
        else if (line[n] ~ /^typedef struct /) { split(line[n], words, " "); struct = words[3] }
        else if (line[n] ~ /^} cj_/) struct = ""
        else if (struct && line[n] ~ /^    [a-z]/) member(n)
        else if (line[n] ~ /^[a-z_0-9]+ cj_[a-z_]+\(.*\);$/) routine(n)
    }
}
