#!/bin/sh
# A manual page with its places filled in: page.sh PAGE VERSION FUNCTIONS REFUSALS. @VERSION@ is the version; a line @FUNCTIONS@ becomes the names of the
# library's functions, and a line @REFUSALS@ the refusals with their words.
set -eu
awk -v version="$2" -v functions="$3" -v refusals="$4" -v quote="'" '
    /^@FUNCTIONS@$/ {
        while ((getline name <functions) > 0) {
            if (before != "") printf ".BR %s ,\n", before
            before = name
        }
        printf ".B %s\n", before
        next
    }
    /^@REFUSALS@$/ {
        while ((getline line <refusals) > 0) {
            split(line, row, "\t")
            gsub(/\\/, "\\e", row[2])
            gsub(quote, "\\(aq", row[2])
            printf ".TP\n.B %s\n%s\n", row[1], row[2]
        }
        next
    }
    { gsub(/@VERSION@/, version); print }
' "$1"
