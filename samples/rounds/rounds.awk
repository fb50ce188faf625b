# Writes the sections of a file: what follows '% once' stands once, what follows '% each' once for each round, from 0 on.
# A word {Ar+B} stands for A times the number of the round, and B more; in '% once' the round is the number of rounds.
# Usage: awk -v rounds=N -f rounds.awk FILE
function filled(line, round,    word, place) {
    while (match(line, /\{[0-9]+r\+[0-9]+\}/)) {
        word = substr(line, RSTART + 1, RLENGTH - 2)
        place = index(word, "r+")
        line = substr(line, 1, RSTART - 1) (substr(word, 1, place - 1) * round + substr(word, place + 2)) substr(line, RSTART + RLENGTH)
    }
    return line
}
function close_section(    round, i) {
    if (each) {
        for (round = 0; round < rounds; round++) for (i = 0; i < count; i++) print filled(lines[i], round)
    } else {
        for (i = 0; i < count; i++) print filled(lines[i], rounds)
    }
    count = 0
}
/^% / { close_section(); each = ($2 == "each"); next }
{ lines[count++] = $0 }
END { close_section() }
