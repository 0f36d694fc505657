# A manual page from a page of docs/: headings, paragraphs, lists, tables and indented commands as roff has them.
# usage: awk -v name=NAME -v section=N -v line='what it is' -v version=V -v day=D [-v header=HEADER.h] -f page.awk PAGE.md
# With a header, its prototypes are the synopsis.
function roff(s) {
    gsub(/\\/, "\\e", s)
    gsub(/-/, "\\-", s)
    gsub(/\*\*/, "", s)
    while (match(s, /`[^`]*`/)) s = substr(s, 1, RSTART - 1) "\\fB" substr(s, RSTART + 1, RLENGTH - 2) "\\fP" substr(s, RSTART + RLENGTH)
    return s
}
# at most 72 letters a line, and no line that begins with a mark of roff's own
function put(s,    words, n, i, text) {
    n = split(s, words, " ")
    text = ""
    for (i = 1; i <= n; i++) {
        if (text != "" && length(text) + length(words[i]) > 70) { print text; text = "" }
        text = (text == "" ? words[i] : text " " words[i])
        if (text ~ /^[.']/) text = "\\&" text
        if (words[i] ~ /[.]$/) { print text; text = "" } # a sentence ends its line
    }
    if (text != "") print text
}
function flush() { if (paragraph != "") { if (!fresh) print ".PP"; put(roff(paragraph)); paragraph = ""; fresh = 0 } }
function code(on) { if (on && !coded) { flush(); if (!fresh) print ".PP"; print ".nf"; coded = 1 } else if (!on && coded) { print ".fi"; coded = 0; fresh = 0 } }
function cells(s,    n, i, part, out) {
    n = split(substr(s, 3, length(s) - 4), part, / \| /)
    print ".TP"
    print ".B " roff(part[1])
    out = part[2]
    for (i = 3; i <= n; i++) if (part[i] != "") out = out "; " (heads[i] != "" ? heads[i] " " : "") part[i]
    put(roff(out == "" ? "(none)" : out))
}
function synopsis(    text, on) {
    print ".SH SYNOPSIS"
    print ".nf"
    print "#include <" name ".h>"
    print ""
    while ((getline text < header) > 0) {
        if (text ~ /^[a-z_0-9]+ [a-z_]+\(/) on = 1
        if (on) print roff(text)
        if (text ~ /;$/) on = 0
    }
    print ".fi"
}
BEGIN {
    printf ".TH %s %s %s \"Channel check %s\" \"Channel check\"\n", toupper(name), section, day, version
    print ".SH NAME"
    print roff(name) " \\- " roff(line)
    if (header != "") synopsis()
    print ".SH DESCRIPTION"
    fresh = 1
}
/^# / { next }
/^!\[/ { next }
/^## / { flush(); code(0); print ".SH " toupper(roff(substr($0, 4))); fresh = 1; next }
/^\|--/ { next }
/^\| / { flush(); code(0); if (!table) { table = 1; n = split(substr($0, 3, length($0) - 4), heads, / \| /); next } cells($0); fresh = 0; next }
{ table = 0 }
/^      ?[^ ]/ || /^    [^ ]/ { code(1); s = $0; sub(/^ +/, "", s); s = roff(s); if (s ~ /^[.']/) s = "\\&" s; print s; next }
/^$/ { flush(); code(0); next }
/^- / { flush(); code(0); print ".IP \\(bu 2"; fresh = 1; paragraph = substr($0, 3); next }
{ code(0); s = $0; sub(/^ +/, "", s); paragraph = (paragraph == "" ? s : paragraph " " s) }
END { flush(); code(0); print ".SH SEE ALSO"; print ".BR channel_tool (1)," ; print ".BR check_sheet (1)," ; print (section == 3 ? ".BR channel_sheet (5)" : ".BR channel_check (3)") }
