# The header taken apart: a line for each number that it names, 'number NAME', and each struct and function that it declares, without comments, as rattle.awk
# prints them. A line that is none of these fails, so that nothing in the header is passed over.
#
#     awk -f header.awk cocklejoist.h
function fail(text) {
    print FILENAME ":" FNR ": " text > "/dev/stderr"
    exit 1
}

# the line without its comments; a comment may go on over lines
{
    line = $0
    text = ""
    while (line != "") {
        at = index(line, inside ? "*/" : "/*")
        if (!at) {
            if (!inside) text = text line
            break
        }
        if (!inside) text = text substr(line, 1, at - 1)
        line = substr(line, at + 2)
        inside = !inside
    }
    gsub(/^ +| +$/, "", text)
}
text == "" { next }

text ~ /^#(ifndef COCKLEJOIST_H|define COCKLEJOIST_H|include <std(def|int)\.h>|ifdef __cplusplus|endif)$/ { next }
text ~ /^#define CJ_[A-Z_]+ (0x)?[0-9A-F]+$/ {
    split(text, word, " ")
    print "number " word[2]
    next
}
text == "extern \"C\" {" { next }
text == "enum {" { numbers = 1; next }
numbers && text == "};" { numbers = 0; next }
numbers && text ~ /^CJ_[A-Z_]+ = [0-9]+,?$/ {
    split(text, word, " ")
    print "number " word[1]
    next
}
text ~ /^typedef struct cj_[a-z]+ \{$/ {
    split(text, word, " ")
    struct = word[3]
    fields = ""
    next
}
struct && text == "} " struct ";" { print "struct " struct " {" fields " };"; struct = ""; next }
struct && text ~ /^[a-z_0-9]+ [a-z_]+;$/ { fields = fields " " text; next }
!struct && text ~ /^[a-z_0-9]+ cj_[a-z_]+\([a-z_0-9 ,*]+\);$/ { print text; next }
text == "}" { next }
{ fail("this line is not read by any test: " $0) }
