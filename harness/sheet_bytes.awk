# Of each struct of a page: the bytes that the picture shows in members are those that the sheet says are carried.
/^<h2>/ { name = $0; carried = -1; drawn = 0; size = 0 }
/^<p>size / { size = $2 + 0 }
/^bytes: / { carried = $2 + 0 }
/^<tr><th>[0-9]/ {
    rest = $0
    while (match(rest, /<td colspan="[0-9]+" class="c/)) {
        cell = substr(rest, RSTART, RLENGTH)
        split(cell, parts, "\"")
        drawn += parts[2]
        rest = substr(rest, RSTART + RLENGTH)
    }
}
/^<table class="bytes">/ { picture = 1 }
/^<\/table>/ && picture {
    picture = 0
    if (size <= 4096) {
        compared++
        if (drawn != carried) { print name ": " drawn " bytes drawn, " carried " carried"; wrong = 1 }
    }
}
END { if (wrong || !compared) exit 1 }
