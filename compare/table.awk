# A Markdown table of rows whose cells are apart by tabs; the first is the head. Whole numbers get their commas. With
# -v unlike=1 it fails where the last cell of a row is not 0.
BEGIN { FS = "\t" }

function commas(text,    rest) {
    if (text !~ /^[0-9]+(\.[0-9]+)?$/)
        return text
    match(text, /^[0-9]+/)
    rest = substr(text, RLENGTH + 1)
    text = substr(text, 1, RLENGTH)
    while (match(text, /^[0-9][0-9][0-9][0-9]+/))
        text = substr(text, 1, RLENGTH - 3) "," substr(text, RLENGTH - 2)
    return text rest
}

{
    columns = NF
    for (i = 1; i <= NF; i++) {
        cell[NR, i] = commas($i)
        if (length(cell[NR, i]) > width[i])
            width[i] = length(cell[NR, i])
    }
    if (unlike && NR > 1 && $NF != 0)
        failed = 1
}

END {
    for (row = 1; row <= NR; row++) {
        line = "|"
        for (i = 1; i <= columns; i++)
            line = line sprintf(" %*s |", cell[row, i] ~ /^[0-9.,e-]+$/ ? width[i] : -width[i], cell[row, i])
        print line
        if (row == 1) {
            line = "|"
            for (i = 1; i <= columns; i++)
                line = line "---|"
            print line
        }
    }
    exit failed
}
