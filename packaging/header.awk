# Prints a header as a page of the manual in Markdown: comments at the left margin are text, all else is code as it is. The first sentence
# says what the header is, behind its name, and ends in the first line or a later one: awk -v name=PAGE -v version=V -f header.awk HEADER
function plain(line) {
    if (line !~ /^    /) gsub(/[\\`*_{}<>#$@~^|]|\[|\]/, "\\\\&", line)
    return line
}
# begins or ends a block of code
function code(begins) {
    if (begins != is_code) print begins ? "~~~~" : "~~~~\n"
    is_code = begins
}
/^\/\*/ { is_text = 1 }
is_text {
    code(0)
    is_last = sub(/ *\*\/$/, "")
    sub(/^(\/\*| \*) ?/, "")
    if (!is_named) {
        about = about (about == "" ? "" : " ") $0
        if (is_named = match(about, /\.( |$)/)) {
            summary = substr(about, 1, RSTART - 1)
            sub(/^[^ ]*: /, "", summary)
            printf "%% %s(3) Gerfmuod %s\n\n# NAME\n\n%s - %s\n\n# DESCRIPTION\n\n", plain(name), version, plain(name), plain(summary)
            print plain(substr(about, RSTART + 2))
        }
    } else {
        print plain($0)
    }
    if (is_last) {
        is_text = 0
        print ""
    }
    next
}
/./ || is_code {
    code(1)
    print
}
END { code(0) }
