# What a command's --help says, as an item of the manual page. Reads the overview and then the command's help; what both end with is said once on the
# page. With -v notes=1 it is that end alone, and with -v notes=2 what stands in it of the exit status.

FNR == 1 { part++ }
{ lines[part, ++many[part]] = $0 }

END {
    same = 0
    while (same < many[1] && same < many[2] && lines[1, many[1] - same] == lines[2, many[2] - same]) same++
    if (same == 0 || lines[2, 1] !~ /^usage: /) {
        print "man: what --help says has another form" > "/dev/stderr"
        exit 1
    }
    if (notes) said(joined(many[2] - same + 1, many[2]))
    else item(many[2] - same)
}

# the lines from one to another as one
function joined(from, to,    text, at) {
    for (at = from; at <= to; at++) text = text (text == "" ? "" : " ") lines[2, at]
    return text
}

function said(text,    at) {
    at = index(text, "Exit status: ")
    if (notes == 1) print roff(at > 0 ? substr(text, 1, at - 2) : text)
    else if (at > 0) print roff(substr(text, at + length("Exit status: ")))
}

function item(last,    usage, at, text) {
    usage = substr(lines[2, 1], length("usage: ") + 1)
    print ".TP\n.B " literal(usage)
    for (at = 2; at <= last; at++) {
        if (lines[2, at] != "") text = text (text == "" ? "" : " ") lines[2, at]
        if (text != "" && (lines[2, at] == "" || at == last)) {
            print (paragraphs++ ? ".IP\n" : "") roff(begun(text))
            text = ""
        }
    }
}

# the first paragraph without the name before it
function begun(text) {
    if (match(text, /^rulefile [a-z]+: /)) {
        text = substr(text, RLENGTH + 1)
        text = toupper(substr(text, 1, 1)) substr(text, 2)
    }
    return text
}
