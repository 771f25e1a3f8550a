# Prints the commands of some sections of a page as a script of sh: awk -v sections='|HEADING|HEADING|' -f page.awk PAGE. Commands are
# blocks of sh and indented lines. Another block of code becomes the file that the text above it names last for its language.
function name_of(line, language,    ending) {
    ending = language == "python" ? "py" : language == "fortran" ? "f90" : language
    return match(line, "[A-Za-z]+[.]" ending "`") ? substr(line, RSTART, RLENGTH - 1) : ""
}
/^#+ / && !language { is_chosen = index(sections, "|" substr($0, index($0, " ") + 1) "|") }
/^```/ && language {
    if (is_chosen && file) print "END"
    language = file = ""
    next
}
/^```/ {
    language = substr($0, 4)
    file = language == "sh" ? "" : name_of(text, language)
    if (is_chosen && file) print "cat > " file " << 'END'"
    next
}
language {
    if (is_chosen && (file || language == "sh")) print
    next
}
/^    / {
    if (is_chosen) print substr($0, 5)
    next
}
/[^ ]/ { text = $0 }
