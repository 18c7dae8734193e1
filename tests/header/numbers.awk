# The one list of the interface's numbers, read off the sources: 'NAME NUMBER' for each name of the file names, sorted by first use.
#
#     awk -v crates=DIRECTORY -f numbers.awk names SPEC.antt ..
#
# SPEC.antt .. are all specs of all crates. A case that a definition called number_of, or .._number, gives a number to and that names does not have fails,
# and so does a name whose places have different numbers, or have none.
function fail(text) {
    print "numbers: " text > "/dev/stderr"
    failed = 1
    exit 1
}

# NUMBER, or NUMBER ^ NUMBER
function value(text,    word, n, i) {
    if (text ~ /^[0-9]+$/) return text + 0
    if (text !~ /^[0-9]+ \^ [0-9]+$/) return -1
    split(text, word, / \^ /)
    n = 1
    for (i = 0; i < word[2]; i++) n *= word[1]
    return n
}

function found(place, text) {
    place = file " " place
    if (!(place in named)) return
    if (place in number) fail(place " has two numbers")
    if (value(text) < 0) fail(place " is not a number: " text)
    number[place] = value(text)
}

# the case that a clause is about: of '(A.NoRoom p)' and of 'A.NoRoom' it is NoRoom, and of 'number (Ok x)', which has a parameter before it, Ok
function case_of(text) {
    sub(/^[a-z_]+ \(/, "(", text)
    sub(/^\(/, "", text)
    sub(/[ )].*$/, "", text)
    sub(/^[A-Za-z]*\./, "", text)
    return text
}

FILENAME == ARGV[1] {
    if ($0 == "" || /^#/) next
    if (NF < 3 || NF > 4) fail("names has a line that cannot be read: " $0)
    places++
    name[places] = $1
    place_of[places] = $2 " " $3 (NF == 4 ? " " $4 : "")
    named[place_of[places]] = 1
    next
}

FNR == 1 { file = substr(FILENAME, length(crates) + 2); type = "" }

# a definition, by cases or not
/^[A-Za-z_]+ ([a-z_]+ )?([A-Za-z.]+|\([A-Za-z.]+( [a-z]+)*\)) = [0-9]/ {
    split($0, side, / = /)
    word = $1
    clause = word " " case_of(substr(side[1], length(word) + 2))
    found(clause, side[2])
    if (word ~ /(^|_)number/ && !((file " " clause) in named)) fail(file " numbers a case that the file names does not have: " clause)
}
/^[A-Za-z_]+ = [0-9]/ { split($0, side, / = /); found(side[1], side[2]) }

# a record's bound, and the first number of a data type's case
/^pub (record|data) / { type = $3; kind = $2 }
/^[^ ]/ && !/^pub (record|data) / && !/^--/ { type = "" }
type && kind == "record" && /^  pub [a-z_-]+ : .* ≤ [0-9]+( \^ [0-9]+)?$/ {
    bound = $0
    sub(/^.* ≤ /, "", bound)
    found(type "." $2, bound)
}
type && kind == "data" && /^  [a-z_-]+ : / && $0 ~ (" " type " ") {
    answer = $0
    sub("^.* " type " ", "", answer)
    while (answer != "" && answer !~ /^[0-9]/) if (!sub(/^[^ ]+ */, "", answer)) break
    sub(/ .*$/, "", answer)
    if (answer ~ /^[0-9]+$/) found(type "." $1, answer)
    if (type == "Whitens" && !((file " " type "." $1) in named)) fail(file " has a case that the file names does not have: " type "." $1)
}

END {
    if (failed) exit 1
    for (i = 1; i <= places; i++) {
        if (!(place_of[i] in number)) fail("no number stands at " place_of[i] ", which is to have that of " name[i])
        n = number[place_of[i]]
        if (!(name[i] in all)) { all[name[i]] = n; order[++count] = name[i] }
        else if (all[name[i]] != n) fail(name[i] " is " all[name[i]] " at one place of the sources, and " n " at " place_of[i])
    }
    for (i = 1; i <= count; i++) printf "%s %d\n", order[i], all[order[i]]
}
