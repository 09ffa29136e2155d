# Cuts a family into files in `room`: its jobs, what they give, and in `list` the names, statuses and words. README.md tells its form.

# Writes the text of a line that begins with %: \123 is a byte, and \*5*X is five times X.
function spell(text,    at, n) {
    while ((at = index(text, "\\")) != 0) {
        printf "%s", substr(text, 1, at - 1) >job
        if (substr(text, at + 1, 1) == "*") {
            text = substr(text, at + 2)
            at = index(text, "*")
            repeat(substr(text, at + 1, 1), substr(text, 1, at - 1) + 0, job)
            text = substr(text, at + 2)
        } else {
            n = 64 * substr(text, at + 1, 1) + 8 * substr(text, at + 2, 1) + substr(text, at + 3, 1)
            printf "%c", n >job
            text = substr(text, at + 4)
        }
    }
    printf "%s", text >job
}
function repeat(text, times, file,    many, long) {
    long = text
    for (many = 1; 2 * many <= times && length(long) < 4096; many *= 2) long = long long
    for (; times >= many; times -= many) printf "%s", long >file
    for (; times > 0; times--) printf "%s", text >file
}
# Writes a card or a line so many times, with the number of the turn in place of #.
function cards(text, file,    at, times, k) {
    at = index(text, " ")
    times = substr(text, 2, at - 2) + 0
    text = substr(text, at + 1)
    at = index(text, "#")
    if (!at) repeat(text "\n", times, file)
    for (k = 1; at && k <= times; k++) print substr(text, 1, at - 1) k substr(text, at + 1) >file
}
function close_case() {
    if (number) { close(job); close(out) }
}
/^= / { close_case(); number++; name = substr($0, 3); words = "run"; job = room "/" number ".job"; out = room "/" number ".out"; given = 1
        printf "" >job; printf "" >out; next }
/^[$]/ { words = substr($0, 3); next }
/^> / { given = 0; print name, substr($0, 3), words >list; next }
!given && /^@/ { cards($0, out); next }
!given { print >out; next }
/^%/ { spell(substr($0, 2)); next }
/^@/ { cards($0, job); next }
{ print >job }
