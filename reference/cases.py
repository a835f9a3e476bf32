#!/usr/bin/env python3
"""Writes the input of the program `sheets` and what it must print, and checks the reference against answers worked out by hand.

Each case is a comment, a sheet in the test encoding ("/" byte 10, "~" byte 200,
"^" byte 9) and the answer that the rules give, found without the program.
"""

import pathlib
import sys

import reference

CASES = []


def case(comment, sheet, expected):
    CASES.append((comment, sheet, expected))


def padded(head, size, tail="/"):
    """head, then spaces, then tail: size bytes in all."""
    return head + " " * (size - len(head) - len(tail)) + tail


AB = "posts a signals b:1 rule "
A_B = "post a: b/"
GATE = "post fill: full/post gate: open/"
FIVE = "post z: a b c d e/"
FIVE_OUT = "posts z signals a:1,b:1,c:1,d:1,e:1 rule "
EIGHT = "".join(f"post {n}: {n}1/" for n in "abcdefgh")
EIGHT_OUT = "posts a,b,c,d,e,f,g,h signals " + ",".join(
    f"{n}1:{k}" for k, n in enumerate("abcdefgh", 1)
)
S31 = " ".join(f"s{k}" for k in range(31))
S32 = " ".join(f"s{k}" for k in range(32))
S32_OUT = ",".join(f"s{k}:1" for k in range(32))
WORDS_199 = "b" + "&b" * 99
WORDS_201 = "b" + "&b" * 100


# Number 1
case("no bytes", "", "hold 1")
case("one byte that is no line end", "a", "hold 1")
case("one byte, a line end: an empty line", "/", "hold 3 1")
case("4096 bytes, good", padded(A_B + "rule b", 4096), AB + "p0")
case("4097 bytes, else good", padded(A_B + "rule b", 4097), "hold 1")
case("4096 bytes without the last line end", padded(A_B + "rule ", 4096, "b"), "hold 1")
case("good but for the last line end", A_B + "rule b", "hold 1")
case("a post line alone without its line end", "post a: b", "hold 1")
case("the last line end is missing behind a bad byte in line 1: 1 comes first", "post ~: b/rule b", "hold 1")
case("4097 bytes and a bad byte at once: 1 comes first", padded("~/" + A_B + "rule b", 4097), "hold 1")
case("the rule line is missing and so is the line end: 1 comes first", "post a: b/post c: d", "hold 1")

# Number 2
case("byte 200 in the post's name", "post a~: b/rule b/", "hold 2 1")
case("byte 200 among the signals", "post a: b~/rule b/", "hold 2 1")
case("byte 200 in the rule", A_B + "rule b~/", "hold 2 2")
case("byte 200 alone in a line that begins with neither word", A_B + "~/rule b/", "hold 2 2")
case("tab in a post line", "post^a: b/rule b/", "hold 2 1")
case("tab between words of a rule", A_B + "rule b^& b/", "hold 2 2")
case("tab right behind rule: no rule line, and a tab may stand nowhere", A_B + "rule^b/", "hold 2 2")
case("capital in a post's name", "post A: b/rule b/", "hold 2 1")
case("time sign in a post line", "post a: G/rule b/", "hold 2 1")
case("hyphen in a signal's name", "post a: b-c/rule b/", "hold 2 1")
case("bracket in a post line", "post a: (b)/rule b/", "hold 2 1")
case("capital first letter of Post", "Post a: b/rule b/", "hold 2 1")
case("capital first letter of Rule", A_B + "Rule b/", "hold 2 2")
case("capital in a rule that is no time sign", A_B + "rule Y b/", "hold 2 2")
case("colon in a rule", A_B + "rule b: b/", "hold 2 2")
case("- alone in a rule", A_B + "rule b - b/", "hold 2 2")
case("- at the end of a rule", A_B + "rule b -/", "hold 2 2")
case("> alone in a rule", A_B + "rule b > b/", "hold 2 2")
case("-> split by a space", A_B + "rule b - > b/", "hold 2 2")
case("-> split by a line end", A_B + "rule b -/> b/", "hold 2 2")
case("two hyphens before >", A_B + "rule b --> b/", "hold 2 2")
case("> behind ->", A_B + "rule b ->> b/", "hold 2 2")
case("-> without spaces is one word", A_B + "rule b->b/", AB + "p0 !0 1|0")
case("->- : the second hyphen is in no word", A_B + "rule b->-b/", "hold 2 2")
case("doubled signs && are two words, so not 2 but 9", A_B + "rule b && b/", "hold 9 2 3")
case("rules G b is no rule line, so G may not stand in it", A_B + "rules G b/", "hold 2 2")
case("rule(b) is no rule line, so a bracket may not stand in it", A_B + "rule(b)/", "hold 2 2")
case("digits, underscore and colon are allowed bytes of a line that is neither", A_B + "9_: a/rule b/", "hold 3 2")

# Number 3
case("post without a space", "post/rule b/", "hold 3 1")
case("post and a space, no colon", "post /rule b/", "hold 3 1")
case("post line without a colon", "post a/rule b/", "hold 3 1")
case("post line without a colon, with a signal", "post a b/rule b/", "hold 3 1")
case("colon ends the post line", "post a:/rule b/", "hold 3 1")
case("no space behind the colon", "post a:b/rule b/", "hold 3 1")
case("two colons", "post a: b: c/rule b/", "hold 3 1")
case("two colons in a row", "post a:: b/rule b/", "hold 3 1")
case("second colon at the end", "post a: b:/rule b/", "hold 3 1")
case("second colon as a signal", "post a: :/rule b/", "hold 3 1")
case("colon right behind post", "post: a b/rule b/", "hold 3 1")
case("posts is not post", "posts a: b/rule b/", "hold 3 1")
case("rules is not rule, in line 1", "rules a/rule b/", "hold 3 1")
case("space before post", " post a: b/rule b/", "hold 3 1")
case("empty line first", "/post a: b/rule b/", "hold 3 1")
case("empty line between posts and rule", A_B + "/rule b/", "hold 3 2")
case("rule line first", "rule b/", "hold 3 1")
case("rule line first, a post line behind it", "rule b/post a: b/", "hold 3 1")
case("rule without a space", GATE + "rule/", "hold 3 3")
case("space before rule", A_B + " rule b/", "hold 3 2")
case("a post line alone: the rule line is missing", A_B, "hold 3 2")
case("eight post lines: the rule line is missing", EIGHT, "hold 3 9")
case("second rule line", A_B + "rule b/rule b/", "hold 3 3")
case("post line behind the rule", A_B + "rule b/post c: d/", "hold 3 3")
case("empty line behind the rule", A_B + "rule b//", "hold 3 3")
case("unknown line behind the rule", A_B + "rule b/abc/", "hold 3 3")

# Number 4
case("eight post lines", EIGHT + "rule h1/", EIGHT_OUT + " rule p7")
case("nine post lines", EIGHT + "post i: i1/rule h1/", "hold 4 9")
case("nine post lines and no rule: the ninth comes first", EIGHT + "post i: i1/", "hold 4 9")
case("ten post lines: the ninth is answered", EIGHT + "post i: i1/post j: j1/rule h1/", "hold 4 9")

# Number 5
case("post's name of 12 letters", "post abcdefghijkl: b/rule b/", "posts abcdefghijkl signals b:1 rule p0")
case("post's name of 13 letters", "post abcdefghijklm: b/rule b/", "hold 5 1")
case("signal's name of 12 letters", "post a: abcdefghijkl/rule abcdefghijkl/", "posts a signals abcdefghijkl:1 rule p0")
case("signal's name of 13 letters", "post a: abcdefghijklm/rule b/", "hold 5 1")
case("digits and underscores inside names", "post a_1_: b9 c__ z0_/rule b9 & c__/", "posts a_1_ signals b9:1,c__:1,z0_:1 rule p0 p1 0&1")
case("digit first in a post's name", "post 9a: b/rule b/", "hold 5 1")
case("digit first in a signal's name", "post a: 9b/rule b/", "hold 5 1")
case("underscore first in a post's name", "post _a: b/rule b/", "hold 5 1")
case("underscore first in a signal's name", "post a: _b/rule b/", "hold 5 1")
case("post named post", "post post: b/rule b/", "hold 5 1")
case("post named rule", "post rule: b/rule b/", "hold 5 1")
case("post named true", "post true: b/rule b/", "hold 5 1")
case("post named false", "post false: b/rule b/", "hold 5 1")
case("signal named post", "post a: post/rule b/", "hold 5 1")
case("signal named rule", "post a: rule/rule b/", "hold 5 1")
case("signal named true", "post a: true/rule true/", "hold 5 1")
case("signal named false", "post a: b false/rule b/", "hold 5 1")
case("names that only begin with reserved words", "post posts: rules trues false1/rule trues/", "posts posts signals rules:1,trues:1,false1:1 rule p1")
case("empty post's name", "post : b/rule b/", "hold 5 1")
case("space in a post's name", "post a c: b/rule b/", "hold 5 1")
case("space before the colon", "post a : b/rule b/", "hold 5 1")
case("two spaces behind post", "post  a: b/rule b/", "hold 5 1")
case("one empty signal's name", "post a: /rule b/", "hold 5 1")
case("two spaces behind the colon", "post a:  b/rule b/", "hold 5 1")
case("doubled space between signals", "post a: b  c/rule b/", "hold 5 1")
case("space at the end of a post line", "post a: b /rule b/", "hold 5 1")

# Number 6
case("a post's name again as a post", A_B + "post a: c/rule b/", "hold 6 2")
case("a signal's name again in its line", "post a: b b/rule b/", "hold 6 1")
case("a signal's name again in a later line", A_B + "post c: d b/rule b/", "hold 6 2")
case("a post's name as its own signal", "post a: a/rule a/", "hold 6 1")
case("an earlier post's name as a signal", A_B + "post c: a/rule b/", "hold 6 2")
case("an earlier signal's name as a post", A_B + "post b: c/rule b/", "hold 6 2")
case("a later post takes a name that was free", A_B + "post c: d/rule b & d/", "posts a,c signals b:1,d:2 rule p0 p1 0&1")

# Number 7
case("32 signals of one post", f"post a: {S32}/rule s31/", f"posts a signals {S32_OUT} rule p31")
case("33rd signal in one line", f"post a: {S32} t/rule s0/", "hold 7 1")
case("32nd signal in a second line", f"post a: {S31}/post c: t/rule t/", "posts a,c signals " + S32_OUT.replace("s31:1", "t:2") + " rule p31")
case("33rd signal in a second line", f"post a: {S32}/post c: t/rule s0/", "hold 7 2")
case("8 posts with 4 signals each", "".join(f"post {n}: {n}0 {n}1 {n}2 {n}3/" for n in "abcdefgh") + "rule h3 U a0/",
     "posts a,b,c,d,e,f,g,h signals " + ",".join(f"{n}{i}:{k}" for k, n in enumerate("abcdefgh", 1) for i in range(4)) + " rule p31 p0 0U1")

# Number 8
case("199 words", A_B + f"rule {WORDS_199}/", AB + "p0")
case("200 words", A_B + f"rule !{WORDS_199}/", AB + "p0 !0 1&0")
case("201 words", A_B + f"rule {WORDS_201}/", "hold 8 2")
case("200 words with spaces around each", A_B + "rule  " + "  ".join("!" + WORDS_199) + "  /", AB + "p0 !0 1&0")

# Number 9
case("no words: the end is word 1", GATE + "rule /", "hold 9 3 1")
case("only spaces: the end is word 1", GATE + "rule     /", "hold 9 3 1")
case("end behind a prefix", GATE + "rule G/", "hold 9 3 2")
case("end behind an until", GATE + "rule open U/", "hold 9 3 3")
case("end behind an arrow", GATE + "rule open ->/", "hold 9 3 3")
case("end with a bracket open", GATE + "rule (open/", "hold 9 3 3")
case("end with one of two brackets open", GATE + "rule ((open)/", "hold 9 3 5")
case("end behind 200 words is word 201", A_B + "rule " + "b&" * 100 + "/", "hold 9 2 201")
case("two operands", GATE + "rule open full/", "hold 9 3 2")
case("a constant behind an operand", GATE + "rule open true/", "hold 9 3 2")
case("an operand behind a closing bracket", GATE + "rule (open) full/", "hold 9 3 4")
case("a prefix behind an operand", GATE + "rule open ! full/", "hold 9 3 2")
case("a time sign behind an operand", GATE + "rule open X full/", "hold 9 3 2")
case("an opening bracket behind an operand", GATE + "rule open (full)/", "hold 9 3 2")
case("a closing bracket with none open", GATE + "rule open )/", "hold 9 3 2")
case("one closing bracket too many", GATE + "rule (open))/", "hold 9 3 4")
case("a closing bracket first", GATE + "rule ) open/", "hold 9 3 1")
case("empty brackets", GATE + "rule ()/", "hold 9 3 2")
case("a closing bracket behind a sign", GATE + "rule (open &)/", "hold 9 3 4")
case("& first", GATE + "rule & open/", "hold 9 3 1")
case("U first", GATE + "rule U open/", "hold 9 3 1")
case("-> first", GATE + "rule -> open/", "hold 9 3 1")
case("| behind a prefix", GATE + "rule ! | open/", "hold 9 3 2")
case("two arrows", GATE + "rule open -> -> full/", "hold 9 3 3")
case("9a is no name, so 9 and not 10", GATE + "rule 9a/", "hold 9 3 1")
case("a digit alone", GATE + "rule open & 1/", "hold 9 3 3")
case("underscore first", GATE + "rule _open/", "hold 9 3 1")
case("reserved word post", GATE + "rule post/", "hold 9 3 1")
case("reserved word rule", GATE + "rule rule/", "hold 9 3 1")
case("reserved word rule behind a prefix", GATE + "rule G rule open/", "hold 9 3 2")
case("a run of thirteen letters", GATE + "rule abcdefghijklm/", "hold 9 3 1")
case("a run that is no name where no operand is wanted", GATE + "rule open 9a/", "hold 9 3 2")
case("a time sign and a digit are two words", GATE + "rule X9/", "hold 9 3 2")
case("the first of two misplaced words is answered", GATE + "rule open & & open )/", "hold 9 3 3")

# Number 10
case("a post's name", GATE + "rule gate/", "hold 10 3 1")
case("an unknown name", GATE + "rule shut/", "hold 10 3 1")
case("an unknown name of 12 letters", GATE + "rule open U abcdefghijkl/", "hold 10 3 3")
case("signs and brackets are counted as words", GATE + "rule G(open->shut)/", "hold 10 3 5")
case("the first of two unknown names is answered", GATE + "rule open & shut & gate/", "hold 10 3 3")
case("constants are no names", GATE + "rule true & (false | gate)/", "hold 10 3 6")
case("an unknown name that shortening would drop", GATE + "rule false & shut/", "hold 10 3 3")
case("runs are as long as possible: openfull is one unknown name", GATE + "rule openfull/", "hold 10 3 1")

# Number 11
case("64 parts: 63 times !", A_B + "rule " + "!" * 63 + "b/", AB + "p0 " + " ".join(f"!{k}" for k in range(63)))
case("65 parts: 64 times !", A_B + "rule " + "!" * 64 + "b/", "hold 11 2")
case("64 parts with time signs and two signals", "post a: b c/rule " + "X" * 30 + "b U " + "G" * 31 + "c/",
     "posts a signals b:1,c:1 rule p0 " + " ".join(f"X{k}" for k in range(30)) + " p1 " + " ".join(f"G{k}" for k in range(31, 62)) + " 30U62")
case("65 parts with time signs and two signals", "post a: b c/rule " + "X" * 31 + "b U " + "G" * 31 + "c/", "hold 11 2")
case("64 parts, each written twice and counted once", A_B + "rule " + "F" * 62 + "b U " + "F" * 62 + "b/",
     AB + "p0 " + " ".join(f"F{k}" for k in range(62)) + " 62U62")
case("65 parts, most written twice", A_B + "rule " + "F" * 63 + "b U " + "F" * 63 + "b/", "hold 11 2")
case("over 64 parts as written, 1 when shortened", A_B + "rule " + "!" * 100 + "b & false/", AB + "false")
case("over 64 parts as written, 64 when shortened", A_B + "rule true & " + "!" * 63 + "b & true/", AB + "p0 " + " ".join(f"!{k}" for k in range(63)))
case("65 parts when shortened, though a constant is dropped", A_B + "rule true & " + "!" * 64 + "b/", "hold 11 2")
case("199 prefixes on a constant shorten to a constant", A_B + "rule " + "!" * 199 + "true/", AB + "false")
case("over 64 parts beneath a sign that drops them", A_B + "rule b & (true | " + "X" * 90 + "b)/", AB + "p0")

# Order within a line
case("2 before 3 on one line: capital and no colon", "post A/rule b/", "hold 2 1")
case("2 before 3: bad byte in a line that begins with neither word", "pos-t a: b/rule b/", "hold 2 1")
case("2 before 3: rule line first, with a bad byte", "rule b - b/", "hold 2 1")
case("3 before 8: rule line first, with 201 words", f"rule {WORDS_201}/", "hold 3 1")
case("3 before 9: rule line first, with a misplaced word", "rule b b/", "hold 3 1")
case("2 before 4: ninth post line with a bad byte", EIGHT + "post I: i1/rule a1/", "hold 2 9")
case("3 before 4: ninth post line without a colon", EIGHT + "post x/", "hold 3 9")
case("4 before 5: ninth post line with a bad name", EIGHT + "post 9: i1/rule a1/", "hold 4 9")
case("4 before 6: ninth post line with a name again", EIGHT + "post a: i1/rule a1/", "hold 4 9")
case("4 before 7: ninth post line with many signals", EIGHT + f"post i: {S32}/rule a1/", "hold 4 9")
case("2 before 5: bad name, then a bad byte", "post 9: b B/rule b/", "hold 2 1")
case("3 before 5: bad name and two colons", "post 9: b: c/rule b/", "hold 3 1")
case("3 before 6: a name again and no space behind the colon", A_B + "post a:a/rule b/", "hold 3 2")
case("2 before 6: a name again, then a bad byte", "post a: a A/rule b/", "hold 2 1")
case("5 of an earlier name before 6 of a later one", "post a: 9 a/rule b/", "hold 5 1")
case("6 of an earlier name before 5 of a later one", "post a: b b 9/rule b/", "hold 6 1")
case("6 of the post's name before 5 of its signal", A_B + "post a: 9/rule b/", "hold 6 2")
case("5 of the post's name before 6 of its signal", A_B + "post 9: a/rule b/", "hold 5 2")
case("an empty name again is 5", "post a:   b/rule b/", "hold 5 1")
case("5 before 7: the 33rd signal is no name", f"post a: {S32} 9/rule s0/", "hold 5 1")
case("6 before 7: the 33rd signal stands again", f"post a: {S32} s0/rule s0/", "hold 6 1")
case("7 of an earlier name before 5 of a later one", f"post a: {S32} t 9/rule s0/", "hold 7 1")
case("7 of an earlier name before 6 of a later one", f"post a: {S32} t s0/rule s0/", "hold 7 1")
case("2 before 7: a bad byte behind the 33rd signal", f"post a: {S32} t T/rule s0/", "hold 2 1")
case("6 of a post's name where 32 signals stand before", f"post a: {S32}/post s0: t/rule s0/", "hold 6 2")
case("2 before 8: 201 words and a bad byte", A_B + f"rule {WORDS_201} ~/", "hold 2 2")
case("8 before 9: 201 words, the first misplaced", A_B + f"rule &{WORDS_199} b/", "hold 8 2")
case("8 before 10: 201 words with an unknown name", A_B + f"rule c{WORDS_201[1:]}/", "hold 8 2")
case("8 before 11: 201 words and over 64 parts", A_B + "rule " + "!" * 200 + "b/", "hold 8 2")
case("2 before 9: a misplaced word, then a bad byte", A_B + "rule b b :/", "hold 2 2")
case("9 before 10 though 10's word stands earlier", GATE + "rule shut & open full/", "hold 9 3 4")
case("9 at the end before 10 at word 1", GATE + "rule gate &/", "hold 9 3 3")
case("9 for a run that is no name before 10 at word 1", GATE + "rule gate & 9a/", "hold 9 3 3")
case("9 before 11: over 64 parts and no operand", A_B + "rule " + "!" * 70 + "/", "hold 9 2 71")
case("10 before 11: over 64 parts of an unknown name", A_B + "rule " + "!" * 70 + "c/", "hold 10 2 71")

# Order of lines
case("3 of an earlier line before 2 of a later one", "post a/rule B/", "hold 3 1")
case("5 of an earlier line before 2 of a later one", "post 9: b/~/", "hold 5 1")
case("6 of an earlier line before 3 of a later one", "post a: a/post/", "hold 6 1")
case("7 of an earlier line before 2 of a later one", f"post a: {S32} t/post ~/", "hold 7 1")
case("2 of line 2 before 2 of line 3", A_B + "post C: d/rule Y/", "hold 2 2")
case("5 of a post line before 9 of the rule", A_B + "post c: /rule /", "hold 5 2")
case("bad post line before a missing rule line", "post a: b /", "hold 5 1")
case("2 of the rule line before a line that follows", A_B + "rule b ~/rule b/", "hold 2 2")
case("8 of the rule line before a line that follows", A_B + f"rule {WORDS_201}/~/", "hold 8 2")
case("9 of the rule line before a line that follows", A_B + "rule b b/rule b/", "hold 9 2 2")
case("10 of the rule line before a line that follows", A_B + "rule c//", "hold 10 2 1")
case("11 of the rule line before a line that follows", A_B + "rule " + "X" * 64 + "b/~/", "hold 11 2")
case("behind the rule: 2 before 3 in a second rule line", A_B + "rule b/rule B/", "hold 2 3")
case("behind the rule: 2 before 3 in a post line", A_B + "rule b/post C: d/", "hold 2 3")
case("behind the rule: 2 before 3 in a line that begins with neither word", A_B + "rule b/~/", "hold 2 3")
case("behind the rule: a time sign is allowed in a second rule line only, so 3", A_B + "rule b/rule G b/", "hold 3 3")
case("behind the rule: a time sign in another line is 2", A_B + "rule b/G b/", "hold 2 3")
case("behind the rule: 3 before 8 in a second rule line", A_B + f"rule b/rule {WORDS_201}/", "hold 3 3")
case("behind the rule: 3 before 9 in a second rule line", A_B + "rule b/rule /", "hold 3 3")
case("behind the rule: 3 before 6 in a post line", A_B + "rule b/post a: b/", "hold 3 3")
case("behind the rule: 3 and not 4 at a ninth post line", EIGHT + "rule a1/post i: i1/", "hold 3 10")
case("behind the rule: 3 of the first such line before 2 of the next", A_B + "rule b//~/", "hold 3 3")

# Grouping and precedence of all signs
GROUPING = [
    ("prefix before U", "! a U b", "p0 !0 p1 1U2"),
    ("brackets keep U beneath the prefix", "!(a U b)", "p0 p1 0U1 !2"),
    ("prefix before &", "F a & b", "p0 F0 p1 1&2"),
    ("U groups to the right", "a U b U c", "p0 p1 p2 1U2 0U3"),
    ("U brought to the left by brackets", "(a U b) U c", "p0 p1 0U1 p2 2U3"),
    ("U before &", "a U b & c", "p0 p1 0U1 p2 2&3"),
    ("U before &, on the right", "a & b U c", "p0 p1 p2 1U2 0&3"),
    ("& before |", "a & b | c", "p0 p1 0&1 p2 2|3"),
    ("& before |, on the right", "a | b & c", "p0 p1 p2 1&2 0|3"),
    ("& groups to the right", "a & b & c", "p0 p1 p2 1&2 0&3"),
    ("| groups to the right", "a | b | c", "p0 p1 p2 1|2 0|3"),
    ("-> groups to the right", "a -> b -> c", "p0 !0 p1 !2 p2 3|4 1|5"),
    ("-> brought to the left by brackets", "(a -> b) -> c", "p0 !0 p1 1|2 !3 p2 4|5"),
    ("| before ->", "a | b -> c", "p0 p1 0|1 !2 p2 3|4"),
    ("U before ->", "a U b -> c", "p0 p1 0U1 !2 p2 3|4"),
    ("all levels at once", "a -> b | c & d U !e", "p0 !0 p1 p2 p3 p4 !5 4U6 3&7 2|8 1|9"),
    ("all levels at once, loosest in the middle", "a U b & c | d -> e", "p0 p1 0U1 p2 2&3 p3 4|5 !6 p4 7|8"),
    ("four prefixes in a row", "X F G ! a", "p0 !0 G1 F2 X3"),
    ("prefixes on both sides of U", "X a U G b", "p0 X0 p1 G2 1U3"),
    ("words without spaces", "FGa->XbUc", "p0 G0 F1 !2 p1 X4 p2 5U6 3|7"),
    ("many spaces before, between and behind", "   a   &  (  b )  ", "p0 p1 0&1"),
    ("brackets within brackets", "((a))", "p0"),
]
for comment, rule, parts in GROUPING:
    case("grouping: " + comment, FIVE + f"rule {rule}/", FIVE_OUT + parts)

# Shortening at reading
SHORTENING = [
    ("a & a & b is a & b", "a & a & b", "p0 p1 0&1"),
    ("a | a | b is a | b", "a | a | b", "p0 p1 0|1"),
    ("a & a is a", "a & a", "p0"),
    ("a | a is a", "a | a", "p0"),
    ("true -> a is a", "true -> a", "p0"),
    ("false -> a is true", "false -> a", "true"),
    ("a -> true is true", "a -> true", "true"),
    ("a -> false is !a", "a -> false", "p0 !0"),
    ("a -> a is !a | a", "a -> a", "p0 !0 1|0"),
    ("!!a stays", "!!a", "p0 !0 !1"),
    ("!!true is true", "!!true", "true"),
    ("true alone", "true", "true"),
    ("false alone", "false", "false"),
    ("constants on either side of &", "true & a & true", "p0"),
    ("constants on either side of |", "false | a | false", "p0"),
    ("a & false is false", "a & false", "false"),
    ("true | a is true", "true | a", "true"),
    ("!(a & false) is true", "!(a & false)", "true"),
    ("beneath a time sign", "G (a & true)", "p0 G0"),
    ("X (a & a) is X a", "X (a & a)", "p0 X0"),
    ("time signs on constants stay", "X true & F false | G true", "true X0 false F2 1&3 G0 4|5"),
    ("a U true stays", "a U true", "p0 true 0U1"),
    ("a U a stays", "a U a", "p0 0U0"),
    ("(a & b) & a stays", "(a & b) & a", "p0 p1 0&1 2&0"),
    ("(b & a) & a stays", "(b & a) & a", "p1 p0 0&1 2&1"),
    ("a & (b & a) stays", "a & (b & a)", "p0 p1 1&0 0&2"),
    ("a | (a & b) stays", "a | (a & b)", "p0 p1 0&1 0|2"),
    ("a & !a stays", "a & !a", "p0 !0 0&1"),
    ("a & b and b & a are not equal", "(a & b) | (b & a)", "p0 p1 0&1 1&0 2|3"),
    ("equal operands that are no signals", "(a & b) & (a & b) & c", "p0 p1 0&1 p2 2&3"),
    ("equal only after shortening", "(a & true) | (false | a)", "p0"),
    ("F a and true U a are not equal", "F a & (true U a)", "p0 F0 true 2U0 1&3"),
]
for comment, rule, parts in SHORTENING:
    case("shortening: " + comment, FIVE + f"rule {rule}/", FIVE_OUT + parts)

# Owners and the walk
case("the gate", GATE + "rule G (open -> full)/", "posts fill,gate signals full:1,open:2 rule p1 !0 p0 1|2 G3")
case("owners of three posts with 2, 1 and 3 signals", "post x: a b/post y: c/post z: d e f/rule f U a/",
     "posts x,y,z signals a:1,b:1,c:2,d:3,e:3,f:3 rule p5 p0 0U1")
case("names in other than alphabetical order", "post z: m/post a: k b/rule b | m/", "posts z,a signals m:1,k:2,b:2 rule p2 p0 0|1")
case("walk: a shared part stands once, where it is first met", FIVE + "rule (a U b) & X (a U b) | G a/", FIVE_OUT + "p0 p1 0U1 X2 2&3 G0 4|5")
case("walk: left before right, not by signal number", FIVE + "rule e & (d | (c U (b & a)))/", FIVE_OUT + "p4 p3 p2 p1 p0 3&4 2U5 1|6 0&7")
case("walk: the right operand uses the left one", FIVE + "rule b U !b/", FIVE_OUT + "p1 !0 0U1")
case("walk: a part that only shortened parts share", FIVE + "rule X (a & a) | F a/", FIVE_OUT + "p0 X0 F0 1|2")
case("8 posts, a rule over all signals", EIGHT + "rule G(a1&b1&c1&d1&e1&f1&g1&h1)/",
     EIGHT_OUT + " rule p0 p1 p2 p3 p4 p5 p6 p7 6&7 5&8 4&9 3&10 2&11 1&12 0&13 G14")
case("32 signals, a rule over all of them: 63 parts", f"post a: {S32}/rule " + "|".join(S32.split()) + "/",
     f"posts a signals {S32_OUT} rule " + " ".join(f"p{k}" for k in range(32)) + " " + " ".join(f"{30 - k}|{31 + k}" for k in range(31)))
case("two posts may name nothing in the rule", GATE + "rule true/", "posts fill,gate signals full:1,open:2 rule true")


def main():
    sys.setrecursionlimit(20_000)
    folder = pathlib.Path(__file__).resolve().parent.parent
    text = "".join(f"# {comment}\n{sheet}\n" for comment, sheet, _ in CASES)
    wrong = 0
    sheets = reference.decode_sheets(text.encode("ascii"))
    assert len(sheets) == len(CASES)
    for number, (sheet, (comment, _, expected)) in enumerate(zip(sheets, CASES), 1):
        got = reference.answer(sheet)
        if got != expected:
            wrong += 1
            print(f"{number} {comment}\n  by hand   {expected}\n  reference {got}")
    crate = folder / "crates" / "sheets"
    (crate / "stdin").write_text(text, encoding="ascii")
    answers = "".join(f"{number} {expected}\n" for number, (_, _, expected) in enumerate(CASES, 1))
    (crate / "stdout").write_text(answers, encoding="ascii")
    print(f"{len(CASES)} cases, {wrong} differ from the answer by hand, {len(text)} bytes")
    return 1 if wrong else 0


if __name__ == "__main__":
    sys.exit(main())
