# Text as roff: for the other scripts of this folder.

# prose with `code` in it, as one line
function roff(text,    result) {
    text = escaped(text)
    while (match(text, /`[^`]*`/)) {
        result = result substr(text, 1, RSTART - 1) "\\fB" substr(text, RSTART + 1, RLENGTH - 2) "\\fR"
        text = substr(text, RSTART + RLENGTH)
    }
    return guarded(result text)
}

# a line that stays as it is
function literal(text) {
    return guarded(escaped(text))
}

function escaped(text) {
    gsub(/\\/, "\\e", text)
    gsub(/-/, "\\-", text)
    gsub(/'/, "\\(aq", text)
    gsub(/\^/, "\\(ha", text)
    gsub(/~/, "\\(ti", text)
    return text
}

# a line that begins with a dot is no request
function guarded(text) {
    return text ~ /^\./ ? "\\&" text : text
}
