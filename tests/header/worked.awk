# Makes a C program of the worked calls in the header: those lines of the comment above a function that are set in by four spaces, each function's in
# a block of its own. A function without one, or whose worked call does not call it, fails.
#
#     awk -f worked.awk cocklejoist.h
BEGIN { print "#undef NDEBUG\n#include <assert.h>\n\n#include \"cocklejoist.h\"" }

/^\/\*$/ { code = "" }
/^ \*     / { code = code substr($0, 4) "\n" }

/^[a-z_0-9]+ cj_[a-z_]+\(.*\);$/ {
    name = substr($2, 1, index($2, "(") - 1)
    if (index(code, name "(") == 0) {
        print "worked: the comment of " name " has no worked call of it" > "/dev/stderr"
        failed = 1
        exit 1
    }
    print "\nstatic void worked_" name "(void)\n{\n" code "}"
    calls = calls "    worked_" name "();\n"
    code = ""
}

END {
    if (failed) exit 1
    print "\nint main(void)\n{\n" calls "    return 0;\n}"
}
