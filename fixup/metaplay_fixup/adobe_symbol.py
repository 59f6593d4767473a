"""Adobe's Symbol encoding, by names of glyphs.

Fonts of the family Standard Symbols PS have Symbol's glyphs, but no character map of Windows' symbol encoding. Their
map is marked as one of Unicode, and in some versions of the font it is, while others have this encoding in it.
"""

ENCODED_FAMILY = "standard symbols ps"
"""The family, in small letters, whose glyphs are found by this encoding."""

_FIRST_HALF = """
space exclam universal numbersign existential percent ampersand suchthat
parenleft parenright asteriskmath plus comma minus period slash
zero one two three four five six seven
eight nine colon semicolon less equal greater question
congruent Alpha Beta Chi Delta Epsilon Phi Gamma
Eta Iota theta1 Kappa Lambda Mu Nu Omicron
Pi Theta Rho Sigma Tau Upsilon sigma1 Omega
Xi Psi Zeta bracketleft therefore bracketright perpendicular underscore
radicalex alpha beta chi delta epsilon phi gamma
eta iota phi1 kappa lambda mu nu omicron
pi theta rho sigma tau upsilon omega1 omega
xi psi zeta braceleft bar braceright similar
"""
_SECOND_HALF = """
Euro Upsilon1 minute lessequal fraction infinity florin club
diamond heart spade arrowboth arrowleft arrowup arrowright arrowdown
degree plusminus second greaterequal multiply proportional partialdiff bullet
divide notequal equivalence approxequal ellipsis arrowvertex arrowhorizex carriagereturn
aleph Ifraktur Rfraktur weierstrass circlemultiply circleplus emptyset intersection
union propersuperset reflexsuperset notsubset propersubset reflexsubset element notelement
angle gradient registerserif copyrightserif trademarkserif product radical dotmath
logicalnot logicaland logicalor arrowdblboth arrowdblleft arrowdblup arrowdblright arrowdbldown
lozenge angleleft registersans copyrightsans trademarksans summation parenlefttp parenleftex
parenleftbt bracketlefttp bracketleftex bracketleftbt bracelefttp braceleftmid braceleftbt braceex
"""
_LAST_CODES = """
angleright integral integraltp integralex integralbt parenrighttp parenrightex
parenrightbt bracketrighttp bracketrightex bracketrightbt bracerighttp bracerightmid bracerightbt
"""

SYMBOL_NAMES: dict[int, str] = {
    **dict(enumerate(_FIRST_HALF.split(), 0x20)),
    **dict(enumerate(_SECOND_HALF.split(), 0xA0)),
    **dict(enumerate(_LAST_CODES.split(), 0xF1)),
}
"""The glyph of each code from 20 to 7E and from A0 to FE, but for F0, which the encoding leaves open."""
