# Compares what the calls took with the table of docs/MANUAL.md: a row for each function, its name, the call, instructions, bytes of stack.
#
#     awk -f within.awk DECLARATIONS STACK INSTRUCTIONS MANUAL.md
#
# DECLARATIONS is what rattle.awk prints; STACK and INSTRUCTIONS have lines 'FUNCTION NUMBER', the second perhaps none. More than the manual says fails;
# where it is less by a fifth or more, a line says so.
function compare(name, what, taken, told) {
    if (taken > told) { print "header: " name " takes " taken " " what ", and the manual says " told; failed = 1 }
    else if (taken * 5 < told * 4) print "header: " name " takes " taken " " what "; the manual's " told " could come down"
}

FILENAME == ARGV[1] {
    if (/^struct/) next
    name = $2
    sub(/\(.*$/, "", name)
    order[++count] = name
    next
}
FILENAME == ARGV[2] { if ($2 + 0 > stack[$1] + 0) stack[$1] = $2; next }
FILENAME == ARGV[3] { counted = 1; if ($2 + 0 > instructions[$1] + 0) instructions[$1] = $2; next }

/^\| `cj_[a-z_]+` \|/ {
    split($0, cell, / *\| */)
    name = cell[2]
    gsub(/`/, "", name)
    gsub(/,/, "", cell[4])
    gsub(/,/, "", cell[5])
    if (cell[4] !~ /^[0-9]+$/ || cell[5] !~ /^[0-9]+$/) next
    told[name] = 1
    told_instructions[name] = cell[4] + 0
    told_stack[name] = cell[5] + 0
}

END {
    for (i = 1; i <= count; i++) {
        name = order[i]
        if (!(name in told)) { print "header: the manual does not say what " name " takes"; failed = 1; continue }
        if (!(name in stack)) { print "header: the stack of " name " was not measured"; failed = 1; continue }
        compare(name, "bytes of stack", stack[name] + 0, told_stack[name])
        if (!counted) continue
        if (!(name in instructions)) { print "header: the instructions of " name " were not counted"; failed = 1; continue }
        compare(name, "instructions", instructions[name] + 0, told_instructions[name])
    }
    exit failed
}
