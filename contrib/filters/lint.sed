# For: lint of generated pages: what asciidoctor, pod2man, pandoc and others write for other formatters goes away, and lines and columns stay.
# Needs: any sed.
# Use: LC_ALL=C sed -f lint.sed PAGE | mandoc -T lint, which ci/mandoc-lint does

# pod2man translates a character for a dash
s/^\.\([[:blank:]]*\)ds -- \\(\*W-.*$/.\1ds -- --/
s/^\.tr \\(\*W-.*$/.\\"/
# fonts of pandoc and others (in as many bytes)
s/^\.[[:blank:]]*ftr .*$/.\\"/
s/\\f\[[CV]\]/\\fR\\\&/g
s/\\f\[[CV][RBIW]\]/\\fR\\fR/g
s/\\f\[[CV]BI\]/\\fR\\\&\\\&/g
# macros in compatibility mode
s/^\.\( *\)de1 /.\1de /
s/^\.\( *\)am1 /.\1am /
# asciidoctor has links by macros of groff
s/^\.als MTO URL$/.\\"/
s/^\.[[:blank:]]*mso www\.tmac$/.\\"/
s/^\.[[:blank:]]*LINKSTYLE .*$/.\\"/
# lengths of rows, and a trap for the next one
s/^\.[[:blank:]]*ll\([[:blank:]].*\)\{0,1\}$/.\\"/
s/^\.[[:blank:]]*it 1 an-trap$/.\\"/
