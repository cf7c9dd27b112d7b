# For: bullets and numbers of lists that DocBook writes by moves to the left: each becomes the tag of a paragraph.
# Needs: any sed.
# Use: LC_ALL=C sed -f docbook.sed PAGE | mandoc

# Up to eight lines from a `.RS 4` on are looked at
/^\.RS 4$/b gather
/^\.RS 4\n/b gather
/\n/ {
P
D
}
b
: gather
/\(\n.*\)\{7\}/!{
$!N
$!b gather
}
s/^\.RS 4\n\.ie n \\{\\\n\\h'-04' \{0,1\}\([^\n]*\)\\h'+0[0-9]'\\c\n\.\\}\n\.el \\{\\\n\(\.sp -1\n\)\{0,1\}\(\.IP [^\n]*\n\)\{0,1\}\.\\}\(\n\)\{0,1\}/.RS 0\
.IP "\1" 4\4/
P
D
