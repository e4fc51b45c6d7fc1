# The words of docs/REFUSALS.md in the order of their numbers, as strings of C.
BEGIN { FS = " *[|] *" }
/^[|] [0-9]+ [|]/ {
    if ($2 != ++numbers) {
        print "docs/REFUSALS.md: number " $2 " where " numbers " should stand" > "/dev/stderr"
        exit 1
    }
    printf "    \"%s\",\n", $3
}
END { if (numbers == 0) exit 1 }
