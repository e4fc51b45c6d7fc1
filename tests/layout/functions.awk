# Prints each Rattle function of over 60 lines, its contract included; the exit status is 1 where there is one.
/^ *(pub )?(extern "C" )?fn [a-z_]/ {
    first = FNR
    match($0, /^ */)
    indent = RLENGTH
    name = $0
    sub(/^.*fn /, "", name)
    sub(/[^a-z0-9_].*/, "", name)
}
first && /^ *}$/ {
    match($0, /^ */)
    if (RLENGTH == indent) {
        if (FNR - first + 1 > 60) { print FILENAME ": " name " has " FNR - first + 1 " lines"; bad = 1 }
        first = 0
    }
}
END { exit bad }
