# What the tests in Rust declare of the library, as C declares it: each #[repr(C)] struct, and each function cj_.. of an extern "C" block, one to a line. A struct with
# another field than a plain one is the tests' own, and is left out, as is a function with another name, which is the system's; were it the library's, it would be missed.
#
#     awk -f types.awk -f rust.awk FILE.rs ..
function c_parameter(field,    name, type) {
    name = name_of(field)
    type = type_of(field)
    if (type ~ /^\*const /) return variable("const " c_type(substr(type, 8)) " *", name)
    if (type ~ /^\*mut /) return variable(c_type(substr(type, 6)) " *", name)
    return variable(c_type(type), name)
}

{ sub(/^ +/, "") }

/^#\[repr\(C\)\]$/ { flat = 1; next }
flat && /^#\[derive\(.*\)\]$/ { next }
flat && /^pub struct [A-Za-z]+ \{$/ { struct = $3; fields = ""; flat = 0; plain = 1; next }
flat { fail("a struct is expected behind #[repr(C)]") }
struct && /^pub [a-z_]+: [A-Za-z0-9]+,$/ {
    sub(/^pub /, "")
    sub(/,$/, "")
    fields = fields " " variable(c_type(type_of($0)), name_of($0)) ";"
    next
}
struct && /^}$/ { if (plain) print_struct(struct, fields); struct = ""; next }
struct { plain = 0; next }

/^extern "C" \{$/ { block = 1; next }
block && /^}$/ { block = 0; next }
block && !/^(pub )?fn cj_/ { next }
block {
    sub(/^pub /, "")
    sub(/;$/, "")
    split_function($0)
    list = ""
    for (i = 1; i <= parameters; i++) list = list (i > 1 ? ", " : "") c_parameter(parameter[i])
    print_function(list)
    next
}
/repr\(C\)|extern "C"|fn cj_/ && !/^\/\/|extern "C" fn/ { fail("this line stands where it is not read: " $0) }
