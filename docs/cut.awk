# Cuts a page for docs/run. In `room` it lays the files that the page shows (a fence with a word and a name, as ```deck one.txt)
# and in `work` a script of its commands (the lines `$ ..` of each fence ```console, and those of comments <!-- lines of: .. -->
# and <!-- all lines of: .. -->), and for each command what it has to write. A line a command goes to `list`: its number, its
# line in the page, how it is compared (all, lines or every), and the command. What is wrong with the page goes to `faults`.
function fault(text) { print page ":" NR ": " text >faults }
function command(text, how) {
    number++
    kind = how
    script = work "/script"
    wanted = work "/" number ".wanted"
    printf "" >wanted
    left = missing != "" && text ~ missing
    shown = text
    gsub(/\\\n */, "", shown)
    print number, NR, (left ? "left" : how), shown >list
    if (left) text = ":"
    print "exec >" work "/" number ".got 2>&1\n(exit ${status-0})\n" text "\nstatus=$?" >script
}
# A row of a table that follows a comment: the code of its first cell.
function row(text,    at, cell, more) {
    gsub(/\\\|/, "\001", text)
    split(substr(text, 2), cells, "|")
    cell = cells[1]
    while ((at = index(cell, "`")) != 0) {
        cell = substr(cell, at + 1)
        at = index(cell, "`")
        if (at == 0) { fault("a code without an end"); return }
        more = substr(cell, 1, at - 1)
        gsub(/\001/, "|", more)
        print more >wanted
        cell = substr(cell, at + 1)
    }
}
# A cell without its blanks and its code marks; a code that parts cards by `|` has line ends there.
function plain(cell) {
    gsub(/^ +| +$|`/, "", cell)
    gsub(/\001/, "|", cell)
    return cell
}
# The cards of an atlas: `_` is nine blanks, and `A:` a name.
function lay(text, file,    n, k) {
    n = split(text, some, / \| /)
    for (k = 1; k <= n; k++) {
        if (some[k] ~ /^_/) some[k] = "         " substr(some[k], 2)
        else if (match(some[k], /^[A-Z0-9]+: ?/))
            some[k] = sprintf(" %-8s%s", substr(some[k], 1, index(some[k], ":") - 1), substr(some[k], RLENGTH + 1))
        print some[k] >file
    }
    return n
}
# A row of the atlas: its deck has the fault, and the card of the repair, where it is one, has none.
function faulty(text,    k) {
    gsub(/\\\|/, "\001", text)
    k = split(substr(text, 2), cells, "|")
    if (k < 4 || cells[2] !~ /^ `[^`]*` $/) return
    lay(plain(cells[2]), room "/atlas." NR)
    close_command()
    command("./stretch run < atlas." NR " | sed 's/^CARD [0-9]* //'", "all")
    print plain(cells[1]) >wanted
    if (cells[4] !~ /^ `[^`]*` $/) return
    text = plain(cells[4])
    if (text ~ /^\//) print "         END,32.0" >(room "/repair." NR)
    lay(text, room "/repair." NR)
    if (text !~ /^\/|END,/) print "         END,32.0" >(room "/repair." NR)
    close_command()
    command("./stretch assemble < repair." NR " | head -n 1", "all")
    print "OBJECT" >wanted
}
function close_command() {
    if (number) close(wanted)
}
# A fence may stand in a list, three columns in.
fence == "" && /^   ```/ { inset = 1; sub(/^   /, "") }
fence != "" && inset { sub(/^   /, "") }
length($0) > (/^\|/ ? wide : 120) { fault("a line of " length($0) " characters") }
fence == "" && /^```/ {
    fence = $1
    sub(/^```/, "", fence)
    if (NF > 2 || (NF == 2 && fence == "")) fault("a fence with too many words")
    if (fence == "") fence = "text"
    file = NF == 2 ? room "/" $2 : ""
    if (file != "") printf "" >file
    given = 0
    next
}
fence != "" && /^```/ {
    if (file != "") close(file)
    fence = ""
    file = ""
    inset = 0
    more = 0
    next
}
fence == "console" && more { text = text "\n" $0; more = $0 ~ /\\$/; if (!more) { close_command(); command(text, "all") } next }
fence == "console" && /^[$] / {
    text = substr($0, 3)
    given = 1
    more = text ~ /\\$/
    if (!more) { close_command(); command(text, "all") }
    next
}
fence == "console" { if (given) print >wanted; else fault("a console that begins with no command"); next }
fence != "" && file != "" { print >file; next }
fence != "" {
    if (fence != "sh" && /^[ $]*(\.\/(stretch|chart)|tools\/[a-z]+)( |$)/) fault("a command that is not run")
    if (/^.........END,/) fault("a deck without a name")
    next
}
/^    .*(\.\/(stretch|chart)|tools\/[a-z]+) / { fault("a command that is not run") }
/^    .....END,/ || /^    .........END,/ { fault("a deck without a name") }
/^<!-- (all )?lines of: .* -->$/ {
    close_command()
    text = $0
    how = text ~ /^<!-- all/ ? "every" : "lines"
    sub(/^<!-- (all )?lines of: /, "", text)
    sub(/ -->$/, "", text)
    command(text, how)
    table = 1
    next
}
/^<!-- atlas -->$/ { atlas = 1; next }
atlas && /^\|/ { if (++atlas > 3) faulty($0); next }
atlas > 1 { atlas = 0 }
table && /^\|/ { table++; if (table > 3) row($0); next }
table > 1 && !/^\|/ { table = 0 }
END {
    if (fence != "") fault("a fence without an end")
    if (table == 1) fault("a comment without a table")
}
