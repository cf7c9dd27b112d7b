# For: characters as mandoc(1) spells them in ASCII, where the program prints `<?>` for them, or another spelling: š is s, ² is ^2.
# Needs: any awk.
# Use: LC_ALL=C awk -f ascii.awk PAGE | mandoc -T ascii
#
# A character stands in a page as it is in UTF-8, or by its number, as \[u0161], or by one of eight names. A letter with an accent is the letter.
BEGIN {
    for (i = 128; i < 256; i++) value[sprintf("%c", i)] = i
    mark = "[\302-\357\\\\]"
    table = \
        "O ÒÔÕŌŎŐƆƟƠǑǪǬǾΟ;U ÙÛŨŪŬŮŰŲƯǓǕǗǙǛ;I ÌÎÏĨĪĬĮİƖƗǏΙ;u ũūŭůűųưǔǖǘǚǜ;A ÀÂÃĀĂĄǍǞǠǺΑ;o ºōŏőơǒǫǭǿ˚ο;| ¦ǀ⎜⎟⎡⎢⎣⎤⎥⎦⎪;E ÈÊËĒĔĖĘĚƐΕ;G ĜĞĠĢƓƔǤǦǴ;" \
        "a ªāăąǎǟǡǻ;Y ¥ÝŶŸƱƳΥ;g ĝğġģǥǧǵ;l ĺļľŀłƚƛ;C ĆĈĊČƇ♣;D ĎĐƉƊƋ♦;L £ĹĻĽĿŁ;N ŃŅŇƝǸΝ;T ŢŤŦƬƮΤ;c ¢ćĉċčƈ;i ĩīĭįıǐ;S ŚŜŞŠ♠;Z ŹŻŽƵΖ;e ēĕėęě;" \
        "n ńņňƞǹ;s śŝşšſ;t ţťŧƫƭ;H ĤĦΗ♥;K ĶƘǨΚ;d ďđƌƍ;y ýÿŷƴ;z źżžƶ;/ ⁄⎛⎠;2 Ƨƨƻ;B ƁƂΒ;R ŔŖŘ;W ŴƜǷ;ZH ƷƸǮ;\\&. ·˙⋅;\\- ¯‾⎯;j ĵǰȷ;k ķƙǩ;r ŕŗř;" \
        "zh ƹƺǯ;! ¡ǃ;, ¸˛;5 Ƽƽ;6 Ƅƅ;<epsilon> εϵ;<phi> φϕ;<theta> θϑ;@ Əǝ;AE ǢǼ;DZ ǄǱ;Dz ǅǲ;P ƤΡ;\\(dq ¨˝;\\(ti ˜∼;\\e ⎝⎞;ae ǣǽ;b ƀƃ;dz ǆǳ;" \
        "h ĥħ;p ƥ℘;v ˇ⇓;w ŵƿ;x ¤⊗;!== ≢;+ ⊕;,\\- ⎧;/h ℏ;1/8 ⅛;3 Ǝ;3/8 ⅜;5/8 ⅝;7/8 ⅞;<**> ‡;<*> †;<< ≪;<= ☜;<> ◊;<Aleph> ℵ;<Gamma> Γ;<Im> ℑ;" \
        "<Lambda> Λ;<Phi> Φ;<Pi> Π;<Psi> Ψ;<Re> ℜ;<Theta> Θ;<Xi> Ξ;<angle> ∠;<chi> χ;<coproduct> ∐;<cr> ↵;<degree> °;<del> ∂;" \
        "<element\\ of> ∈;<eta> η;<for\\ all> ∀;<infinity> ∞;<integral> ∫;<intersection> ∩;<iota> ι;<kappa> κ;<micro> µ;<nabla> ∇;" \
        "<not\\ element\\ of> ∉;<not\\ subset> ⊄;<not\\ superset> ⊅;<nu> ν;<omega> ω;<paragraph> ¶;<permille> ‰;<perpendicular> ⊥;<pi> ϖ;" \
        "<product> ∏;<proper\\ subset> ⊂;<proper\\ superset> ⊃;<proportional\\ to> ∝;<psi> ψ;<rho> ρ;<section> §;<sigma> ς;<sqrt> √;" \
        "<subset\\ or\\ equal> ⊆;<such\\ that> ∋;<sum> ∑;<superset\\ or\\ equal> ⊇;<tau> τ;<there\\ exists> ∃;<therefore> ∴;<union> ∪;" \
        "<upsilon> υ;<xi> ξ;<zeta> ζ;=> ☞;=\\(ti ≅;>> ≫;? ¿;Dh Ð;F Ƒ;HV Ƕ;IJ Ĳ;J Ĵ;LJ Ǉ;Lj ǈ;M Μ;NJ Ǌ;Ng Ŋ;Nj ǋ;OE Œ;OI Ƣ;SH Ʃ;Th Þ;V Ʋ;X Χ;" \
        "YR Ʀ;[] □;\\& ­;\\(aq\\(aq ″;\\(aqn ŉ;\\(ga ˘;\\(ga\\- ⎩;\\(ha ⇑;\\(ha1 ¹;\\(ha2 ²;\\(ha3 ³;\\(ha=v ⇕;\\(hav ↕;\\(ti| ⌉;\\-+ ∓;" \
        "\\-. ⎫;\\-\\(aq ⎭;\\-\\(ti ≃;\\e/ ✓;_| ⌋;dh ð;f ƒ;ff ﬀ;ffi ﬃ;ffl ﬄ;fi ﬁ;fl ﬂ;hv ƕ;ij ĳ;lj ǉ;ng ŋ;nj ǌ;oe œ;oi ƣ;q ĸ;sh ƪ;th þ;tm ™;" \
        "ts ƾ;{ ⎨;{} ∅;|= ǂ;|\\(ti ⌈;|_ ⌊;|| ǁ;} ⎬"
    count = split(table, row, ";")
    for (i = 1; i <= count; i++) take_row(row[i])
    count = split("mc µ;sc §;de °;S1 ¹;S2 ²;S3 ³;sd ″;tm ™", row, ";")
    for (i = 1; i <= count; i++) spelled["\\(" substr(row[i], 1, 2)] = spelled["\\[" substr(row[i], 1, 2) "]"] = spelled[substr(row[i], 4)]
}

# Takes a row of the table: a spelling as roff has it, and the characters that it is for.
function take_row(row,    blank, at, character) {
    blank = match(row, / [^ ]*$/)
    for (at = blank + 1; at <= length(row); at += length(character)) {
        character = substr(row, at, value[substr(row, at, 1)] < 224 ? 2 : 3)
        spelled[character] = spelled[numbered(character)] = substr(row, 1, blank - 1)
    }
}

# A character by its number.
function numbered(character,    code, i) {
    code = value[substr(character, 1, 1)] % (length(character) == 2 ? 32 : 16)
    for (i = 2; i <= length(character); i++) code = code * 64 + value[substr(character, i, 1)] - 128
    return sprintf("\\[u%04X]", code)
}

# A line is parted at what a character may begin with. What is behind a backslash is part of another escape.
{
    count = split($0, part, mark)
    printf "%s", part[1]
    at = length(part[1]) + 1
    is_behind = 0
    for (i = 2; i <= count; i++) {
        first = substr($0, at, 1)
        at += length(part[i]) + 1
        token = ""
        if (!is_behind && match(part[i], /^(\[(u[0-9A-F]+|[a-zS][a-z123])\]|\([a-zS][a-z123]|[\200-\277]+)/)) token = first substr(part[i], 1, RLENGTH)
        if (token in spelled) printf "%s%s", spelled[token], substr(part[i], RLENGTH + 1)
        else printf "%s%s", first, part[i]
        is_behind = first == "\\" && !is_behind && part[i] == ""
    }
    print ""
}
