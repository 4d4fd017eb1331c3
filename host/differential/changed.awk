# Prints what a wrong copy of the second program changes, as a source that
# compiles quickly: of each function that is as in the right one the declaration
# alone, the others whole; everything else as it stands. No function is static,
# and each has `copied_` before its name, so that what it calls is found in the
# whole program that changed.awk made of the right one.
#
#   awk -f changed.awk RIGHT COPY
#   awk -f changed.awk -v whole=1 RIGHT RIGHT      all functions whole
#
# Exit status: 0; 2 if anything else than functions differs (a table, say), so
# that the copy must be compiled as it stands. Then nothing counts that was
# printed.
#
# It goes by how the sources are laid out: what stands outside of functions
# begins in the first column, and a brace there ends it.

# Ends the item in hand, which is a function if a brace opened its body.
function end_item() {
    if (FNR == NR)
        known[item] = 1
    else if (is_function)
        print_function()
    else if ((item in known) || item ~ /^static [^={]*\);\n$/ || item ~ /^static [^=]*\) [{][^\n]*[}]\n$/)
        printf "%s", (whole || item !~ /\);\n$/ ? item : substr(item, length("static ") + 1))
    else
        exit 2
    item = head = ""
    is_function = inside = 0
}

function print_function(    text) {
    text = !whole && (item in known) ? substr(head, 1, length(head) - 1) ";\n" : item
    sub(/^static /, "", text)
    printf "%s", text
}

# The includes are over: from here on the functions have their other names.
function rename(    name) {
    for (name in names)
        printf "#define %s copied_%s\n", name, name
    renamed = 1
}

# Comments outside of functions, and blank lines.
!inside && item == "" && /^\/\*/ { commented = 1 }
commented {
    if (/\*\/$/)
        commented = 0
    next
}
item == "" && /^$/ { next }

FNR != NR && !renamed && !/^#/ { rename() }

item == "" && FNR == NR && /^static [^=]*\(/ {
    name = $0
    sub(/\(.*/, "", name)
    sub(/.*[ *]/, "", name)
    names[name] = 1
}

{ item = item $0 "\n" }
/^#/ && !inside { end_item(); next }
!inside && /^[{]$/ { is_function = inside = 1; next }
!inside && /[{]$/ { inside = 1; next }
inside && /^[}];?$/ { end_item(); next }
!inside && /[;}]$/ { end_item(); next }
!inside { head = item }
