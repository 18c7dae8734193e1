# The names that C has for the types of Rattle and of Rust, for rattle.awk and rust.awk.
function fail(text) {
    print FILENAME ":" FNR ": " text > "/dev/stderr"
    failed = 1
    exit 1
}

# a struct X is cj_x to C; but cj_read is a function, so what it answers has another name
function c_type(type) {
    if (type ~ /^[ui](8|16|32|64)$/) return (type ~ /^u/ ? "uint" : "int") substr(type, 2) "_t"
    if (type == "usize") return "size_t"
    if (type == "Read") return "cj_record"
    if (type ~ /^[A-Z][A-Za-z]*$/) return "cj_" tolower(type)
    fail("the type '" type "' has no name in C here")
}

# a variable as C declares it
function variable(type, name) { return type (type ~ /\*$/ ? "" : " ") name }

# the part before the first ": ", and the part after it
function name_of(field) { return substr(field, 1, index(field, ": ") - 1) }
function type_of(field) { return substr(field, index(field, ": ") + 2) }

# "fn f(a: T, b: U) -> V": its name, its parameters one by one, and its answer
function split_function(line) {
    if (line !~ /^fn [a-z_0-9]+\(.*\) -> [A-Za-z0-9]+$/) fail("this function cannot be read: " line)
    sub(/^fn /, "", line)
    function_name = substr(line, 1, index(line, "(") - 1)
    answer = line
    sub(/^.*\) -> /, "", answer)
    line = substr(line, index(line, "(") + 1)
    sub(/\) -> .*$/, "", line)
    parameters = split(line, parameter, /, /)
}

function print_struct(name, fields) { print "struct " c_type(name) " {" fields " };" }
function print_function(list) { print c_type(answer) " " function_name "(" (list == "" ? "void" : list) ");" }
