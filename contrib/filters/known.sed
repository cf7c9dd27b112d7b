# For: roff of real pages that the profile leaves out, written so that it is inside it; it stands in front of the program.
# Needs: any sed.
# Use: LC_ALL=C sed -f known.sed PAGE | mandoc

# what is kept is of one page, and sed -i has several
1 {
x
s/.*//
x
t begin
}
: begin
/\\/ {
# characters by their numbers
/\\N'/ {
s/\\N'34'/\\(dq/g
s/\\N'39'/\\(aq/g
s/\\N'45'/-/g
s/\\N'94'/\\(ha/g
s/\\N'96'/\\(ga/g
s/\\N'126'/\\(ti/g
}
/\\\[/ {
s/\\\[char34\]/\\(dq/g
s/\\\[char39\]/\\(aq/g
s/\\\[char45\]/-/g
s/\\\[char94\]/\\(ha/g
s/\\\[char96\]/\\(ga/g
s/\\\[char126\]/\\(ti/g
# glyphs that are there by other names
s/\\\[mc\]/\\[u00B5]/g
s/\\\[tmu\]/\\(mu/g
s/\\\[bv\]/|/g
s/\\\[ell\]/\\[u2113]/g
}
# a number that grows by one where a macro prints it
/\\n+/s/^\(\.[A-Z].*\)\\n+\[\([^]\\]*\)\]/.nr \2 +1\
\1\\n[\2]/
s/\\(mc/\\[u00B5]/g
s/\\(bv/|/g
}
# the rest is about requests, and macros that begin with P or S
/^[.']/!b
/^\.[A-OQRT-Z]/b
# bash(1) has regions that rbash(1) and bash-builtins(7) leave out: they set a register, and read all of it
/^\.nr zY 1$/ {
x
/Y/!s/$/Y/
x
}
/^\.nr zZ 1$/ {
x
/Z/!s/$/Z/
x
}
/^\.if \\n(z[YZ]=1 \.ig z[YZ]$/ {
G
s/^\.if \\n(z\([YZ]\)=1 \(\.ig z\1\)\n.*\1.*$/\2/
t
d
}
# pages of X define macros of the names of pictures
/^\.[[:blank:]]*de P[SE]/ {
s/de P/de xP/
x
/P/!s/$/P/
x
}
/^\.P[SE]/ {
G
/\n.*P/s/^\./.x/
s/\n.*//
}
# mksh(1) gives Dd another name, to take the date of its revision
/^\.rn Dd xD$/,/^\.\.$/d
# pod2man writes a dash by a character that it translates
s/^\.\([[:blank:]]*\)ds -- \\(\*W-.*$/.\1ds -- --/
/^\.tr \\(\*W-$/d
# fonts of other names
/^\. *ftr /d
# macros in compatibility mode, and other names of macros
s/^\.\( *\)de1 /.\1de /
s/^\.\( *\)am1 /.\1am /
s/^\. *als \([^ ]\{1,\}\) \([^ ]\{1,\}\).*$/.de \1\
.\2 \\\\$@\
../
# a request that prints the rest of its line
s/^[.'][[:blank:]]*nop[[:blank:]]\{1,\}\([.']\)/\\\&\1/
s/^[.'][[:blank:]]*nop[[:blank:]]\{1,\}//
# asciidoc asks for a blank row right after a heading, where mandoc(1) prints none
/^\.S[HS]\([[:blank:]].*\)\{0,1\}$/ {
$!N
s/\n\.sp\([[:blank:]].*\)\{0,1\}$//
P
D
}
