# Writes a deck of 20,000 cards with 4,000 names. Each card but the first uses a name, of an earlier card or of a later one.
function card(name, statement) {
    printf " %-8s%s\n", name, statement
}
BEGIN {
    card("START", "BEW")
    for (n = 1; n <= 3999; n++) card("N" n, "LVI,$X1,N" (n * 1999) % 3999 + 1)
    for (n = 1; n <= 15999; n++) card("", "L(BU,64),N" (n * 2003) % 3999 + 1 "+0.1")
    card("", "END,START")
}
