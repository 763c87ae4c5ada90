# Makes reasons.h of docs/errors.tsv: of each reason, fault and limit the status that it comes with, number, name and
# advice. No sentence has a value.
BEGIN {
    FS = "\t"
    status["reason"] = 1
    status["input"] = 3
    status["file"] = status["key"] = status["schema"] = status["master"] = 4
    status["limit"] = 9
    print "/* Made of docs/errors.tsv by reasons.awk. */"
    print "static const struct { uint32_t status, number; const char *name, *advice; } REASONS[] = {"
}
$1 in status {
    says = $6
    gsub(/`/, "", says)
    gsub(/\\/, "\\\\", says)
    gsub(/"/, "\\\"", says)
    printf "{%d, %d, \"%s\", \"%s\"},\n", status[$1], $2, $3, says
}
END { print "{0, 0, \"unknown\", \"see docs/ERRORS.md\"}};" }
