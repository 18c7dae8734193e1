# What the library exports, as C declares it: each #[repr(C)] struct and each #[unsafe(no_mangle)] function of the Rattle sources, one to a line. A slice
# is a pointer and a length, whose name is `len` where the function has one slice, and X_len for a slice X otherwise.
#
#     awk -f types.awk -f rattle.awk FILE.rt ..
function slices(    i, n) {
    for (i = 1; i <= parameters; i++) if (parameter[i] ~ /\[u8\]$/) n++
    return n
}

function c_parameter(field,    name, type, changed) {
    name = name_of(field)
    type = type_of(field)
    if (type !~ /^&/) return variable(c_type(type), name)
    changed = sub(/^&mut /, "", type)
    if (!changed) sub(/^&/, "", type)
    if (type != "[u8]") return variable((changed ? "" : "const ") c_type(type) " *", name)
    return variable((changed ? "" : "const ") "uint8_t *", name) ", size_t " (slices() == 1 ? "len" : name "_len")
}

/^#\[repr\(C\)\]$/ { flat = 1; next }
flat && /^#\[derive\(.*\)\]$/ { next }
flat && /^pub struct [A-Za-z]+ \{$/ { struct = $3; fields = ""; flat = 0; next }
flat { fail("a struct is expected behind #[repr(C)]") }
struct && /^    pub [a-z_]+: [A-Za-z0-9]+,$/ {
    sub(/^ *pub /, "")
    sub(/,$/, "")
    fields = fields " " variable(c_type(type_of($0)), name_of($0)) ";"
    next
}
struct && /^}$/ { print_struct(struct, fields); struct = ""; next }
struct { fail("this field cannot be read: " $0) }

/^#\[unsafe\(no_mangle\)\]$/ { exported = 1; next }
exported {
    if (!sub(/^pub extern "C" fn /, "fn ")) fail("a function of C is expected behind #[unsafe(no_mangle)]")
    split_function($0)
    list = ""
    for (i = 1; i <= parameters; i++) list = list (i > 1 ? ", " : "") c_parameter(parameter[i])
    print_function(list)
    exported = 0
    next
}
/no_mangle|repr\(C\)|extern "C"/ && !/^ *\/\// { fail("this line stands where it is not read: " $0) }
