# Prints the names of a listing's lines of one kind, one per line, as the bytes in the file: of symbols, or of
# the lines that `kind` names, which is A, D, R, S, V, X or Y.
#
#     elfsee show FILE | LC_ALL=C awk -f examples/names.awk
#     elfsee show --gnu FILE | LC_ALL=C awk -v kind=V -f examples/names.awk
#
# It runs in any POSIX awk. docs/FORMAT.md describes the columns; tests/machine/format.py runs this.
# How much wider than its usual width a field is.
function grown(field, width) {
    return length(field) > width ? length(field) - width : 0
}
# The value of two hexadecimal digits.
function value(digits) {
    return 16 * (index("0123456789abcdef", substr(digits, 1, 1)) - 1) \
        + index("0123456789abcdef", substr(digits, 2, 1)) - 1
}
# The bytes that a name of a listing stands for; sets CUT if they are not all of the name.
function bytes_of(text,    bytes, at, kind) {
    bytes = ""
    cut = 0
    while ((at = index(text, "\\")) > 0) {
        bytes = bytes substr(text, 1, at - 1)
        kind = substr(text, at + 1, 1)
        if (kind == "x")
            bytes = bytes sprintf("%c", value(substr(text, at + 2, 2)))
        else if (kind == "+")
            cut = 1
        else
            bytes = bytes "\\"
        text = substr(text, at + (kind == "x" ? 4 : 2))
    }
    return bytes text
}
# Where the name of a line begins.
function name_at() {
    if (kind == "A") return 43 + grown($2, 5)
    if (kind == "S") return 105
    if (kind == "R") return 64 + grown($4, 10)
    if (kind == "D") return 43 + grown($2, 5)
    if (kind == "V") return 34
    if (kind == "X") return 28 + grown($3, 10)
    return 85 + grown($3, 10)
}
BEGIN { if (kind == "") kind = "Y" }
substr($0, 1, 1) == kind { print bytes_of(substr($0, name_at())) }
