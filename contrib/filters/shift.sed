# For: macros of a page that use `.shift`, which the profile leaves out: what is behind it in the macro counts the arguments from the next one on, and a
#     loop over them becomes a condition for each of nine.
# Needs: any sed.
# Use: LC_ALL=C sed -f shift.sed PAGE | LC_ALL=C sed -f known.sed | mandoc

/^\.[[:blank:]]*de1\{0,1\}[[:blank:]]/,/^\.[[:blank:]]*\.[[:blank:]]*$/!b
# The hold space has one s for each shift in the macro
/^\.[[:blank:]]*de1\{0,1\}[[:blank:]]/ {
x
s/.*//
x
}
/^\.[[:blank:]]*shift[[:blank:]]*$/ {
x
s/$/s/
x
d
}
/^\.[[:blank:]]*while .*\\\\n\[\.\$].*\\{/b gather
b shifted
: gather
$!N
/\n\.[[:blank:]]*\\}/!{
$!b gather
}
/\n\.[[:blank:]]*shift[[:blank:]]*\n/!b
s//\
/
s/while/if/
: shifted
G
: count
/\n$/ {
s///
/\n/!b
# a loop is copied, until no argument is left
/\\\\\$[1-9*@]/!d
p
s/$/\
s/
}
s/\\\\\$\*/\\\\$1 \\\\$2 \\\\$3 \\\\$4 \\\\$5 \\\\$6 \\\\$7 \\\\$8 \\\\$9/g
s/\\\\\$@/"\\\\$1" "\\\\$2" "\\\\$3" "\\\\$4" "\\\\$5" "\\\\$6" "\\\\$7" "\\\\$8" "\\\\$9"/g
s/\\\\\$9//g
s/\\\\\$8/\\\\$9/g
s/\\\\\$7/\\\\$8/g
s/\\\\\$6/\\\\$7/g
s/\\\\\$5/\\\\$6/g
s/\\\\\$4/\\\\$5/g
s/\\\\\$3/\\\\$4/g
s/\\\\\$2/\\\\$3/g
s/\\\\\$1/\\\\$2/g
s/\\\\n\[\.\$]/&-1/g
s/s$//
b count
