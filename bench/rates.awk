# Prints the sheet that the program rates prints, from rows that have no fault and names in ASCII.
function level(risk, percent) { return int((risk * percent + 99) / 100) }

function baht(satang,  whole, text) {
    whole = int(satang / 100)
    text = sprintf(".%02d", satang % 100)
    while (whole >= 1000) {
        text = sprintf(",%03d", whole % 1000) text
        whole = int(whole / 1000)
    }
    return sprintf("%13s", whole text)
}

function levels(risk) { return baht(level(risk, 190)) baht(level(risk, 133)) baht(level(risk, 57)) }

BEGIN {
    printf "%32s%39s%39s\n", "", "One lot outright", "One lot of a spread"
    printf "%-32s%13s%13s%13s%13s%13s%13s\n", "Baht per lot", "Initial", "Maintenance", "Force", "Initial", "Maintenance", "Force"
}

NF == 0 || $1 ~ /^#/ { next }

{
    name = $0
    sub(/^[ \t]*[0-9]+[ \t]+[0-9]+[ \t]+/, "", name)
    if (length(name) > 32) {
        print name
        name = ""
    }
    printf "%-32s%s%s\n", name, levels($1), levels($2)
}
