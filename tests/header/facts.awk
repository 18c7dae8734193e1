# Makes a C file that compiles only with a header that says what the sources say: each number, and of each struct and function every type, place and size.
#
#     awk -f facts.awk NUMBERS DECLARATIONS
#
# NUMBERS is what numbers.awk prints, DECLARATIONS what rattle.awk prints. An array of a negative size does not compile, nor does a function that is
# declared again with another type, nor, with warnings as errors, a pointer to another type.
function holds(name, fact) { print "typedef char " name "[(" fact ") ? 1 : -1];" }

BEGIN { print "#include \"cocklejoist.h\"\n" }

FILENAME == ARGV[1] { holds("number_" $1, $1 " == " $2); next }

/^struct / {
    name = $2
    fields = $0
    sub(/^struct [a-z_]+ \{ /, "", fields)
    sub(/ \};$/, "", fields)
    print "\ntypedef struct {"
    count = split(fields, field, /; */)
    for (i = 1; i <= count; i++) if (field[i] != "") print "    " field[i] ";"
    print "} source_" name ";"
    holds("size_" name, "sizeof(" name ") == sizeof(source_" name ")")
    body = ""
    for (i = 1; i <= count; i++) {
        if (field[i] == "") continue
        split(field[i], word, " ")
        holds("place_" name "_" word[2], "offsetof(" name ", " word[2] ") == offsetof(source_" name ", " word[2] ")")
        body = body "    " word[1] " *" word[2] " = &x->" word[2] ";\n    (void)" word[2] ";\n"
    }
    print "void types_" name "(" name " *x);\nvoid types_" name "(" name " *x)\n{\n" body "}"
    next
}

{ functions = functions $0 "\n" }

END { print "\n#ifdef __cplusplus\nextern \"C\" {\n#endif\n" functions "#ifdef __cplusplus\n}\n#endif" }
