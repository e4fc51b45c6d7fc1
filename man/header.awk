# The header as parts of the manual page: with -v part=description its first comment, with -v part=types the lengths, numbers and answers, with
# -v part=functions each function with what is said of it.

/^#include/ || /^#(ifndef|ifdef|endif)/ || /^#define RULEFILE_H$/ || /^extern "C" [{]$/ || /^}$/ { next }

# a comment, up to its end
/^\/\*/ { block(); comment = ""; within = 1; sub(/^\/\*/, " *") }
within {
    line = $0
    ended = sub(/ *\*\/$/, "", line)
    sub(/^ \* ?/, "", line) || sub(/^   /, "", line)
    comment = comment line "\n"
    if (ended) within = 0
    next
}

/^$/ { block(); next }
{ code = code $0 "\n" }
END { block() }

# what a comment and the code behind it come to
function block(    names, rest) {
    if (comment == "" && code == "") return
    rest = code
    while (match(rest, /rulefile_[a-z_]+\(/)) {
        names = names (names == "" ? "" : ", ") substr(rest, RSTART, RLENGTH - 1)
        rest = substr(rest, RSTART + RLENGTH)
    }
    kind = blocks++ == 0 ? "description" : (names == "" ? "types" : "functions")
    if (kind == part) {
        if (names != "") print ".SS " names
        prose(comment)
        listing(code)
    }
    comment = code = ""
}

# paragraphs, and items that begin with a dash
function prose(text,    all, count, at, line, paragraph) {
    count = split(text, all, "\n")
    for (at = 1; at <= count; at++) {
        line = all[at]
        if (line == "" || line ~ /^  - /) { told(paragraph); paragraph = "" }
        if (line == "") continue
        if (paragraph != "") sub(/^ +/, "", line)
        paragraph = paragraph (paragraph == "" ? "" : " ") line
    }
    told(paragraph)
}

function told(paragraph) {
    if (paragraph == "") return
    if (sub(/^  - /, "", paragraph)) print ".IP \\(bu 2"
    else print ".PP"
    print roff(paragraph)
}

function listing(text,    all, count, at) {
    if (text == "") return
    count = split(text, all, "\n")
    print ".PP\n.EX"
    for (at = 1; at < count; at++) print literal(all[at])
    print ".EE"
}
