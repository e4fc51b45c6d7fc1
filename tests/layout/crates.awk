# Holds crates.txt to what it must say: each crate names all that it reaches, the later ones first, and only crates above it.
# Reads crates.txt; -v folders is the list of the folders under crates/. Prints what is wrong; the exit status is 1 where something is.
function wrong(text) { print "crates.txt: " text; bad = 1 }

/^#/ || NF == 0 { if (/^#/) comment = NR; next }

{
    name = $1
    first = 2
    if ($2 == "staticlib:") first = 3
    else if (sub(/:$/, "", name) == 0) { wrong("line " NR " has no colon behind its first word"); next }
    if (name in place) wrong(name " stands twice")
    if (comment != NR - 1) wrong(name " has no comment above it")
    place[name] = ++crates
    last = crates
    for (i = first; i <= NF; i++) {
        if (!($i in place)) { wrong(name " names " $i ", which does not stand above it"); continue }
        if (place[$i] >= last) wrong(name " names " $i " out of order")
        last = place[$i]
        named[name, $i]
    }
    for (d in place)
        if ((name, d) in named)
            for (e in place)
                if (((d, e) in named) && !((name, e) in named)) wrong(name " names " d " but not " e ", which that one reaches")
}

END {
    many = split(folders, folder, " ")
    for (i = 1; i <= many; i++) {
        if (!(folder[i] in place)) wrong("crates/" folder[i] " is not listed")
        there[folder[i]]
    }
    for (c in place) if (!(c in there)) wrong(c " has no folder")
    exit bad
}
