"""The texts of the test: those that are accepted, with entries, and those that are refused, with the number that document 02 gives them."""

DIGITS = "/".join(f"'{d}'" for d in range(10))
CLOSING = {"(": ")", "[": "]"}


def text_of(*lines): return "".join(line + "\n" for line in lines).encode("latin-1")


def quoted(word): return "".join(f"'{c}'" for c in word)


def nested(brackets, inside=""):
    """Something in brackets, the outermost bracket first."""
    return brackets + inside + "".join(CLOSING[b] for b in reversed(brackets))


MIXED = "([" * 9


# ---------------------------------------------------------------- accepted: group, text, entries

# What a society would write.
REGISTERS = [
    ("date", text_of("A=DD'.'DD'.'", f"D={DIGITS}"), ["01.12.", "1.2.", "31.1", "3112", ""]),
    ("year", text_of("Y='1'('7'/'8')DD['.']", f"D={DIGITS}"), ["1789.", "1801.", "1901.", "179.", "17"]),
    ("day and month", text_of("A=N' 'M'.'", "N=DD/D", f"D={DIGITS}", f"M={quoted('jan')}/{quoted('feb')}"),
     ["3 jan.", "12 feb.", "12 mar.", "7 ja"]),
    ("age", text_of("A=NU'.'", "N=DN/D", f"D={DIGITS}", "U='y'/'m'/'w'/'d'"), ["42y.", "7d.", "13", "y.", "118m.118m."]),
    ("age with a fraction", text_of("A=N(' 'F/)'.'/F'.'", "F=N'/'N", "N=DN/D", f"D={DIGITS}"), ["1 1/2.", "3/4.", "12.", "1 1.", "1/"]),
    ("sign", text_of("S=('+'/'-'/)N'.'", "N=('1'/'2'/'3')N/"), ["+12.", "-3.", "21.", "+.", "-4."]),
    ("initials", text_of("A=CA/'.'", "C=('J'/'M')'.'[' '/'.']S", "S=' '/"), ["J. M. .", "M...", "J.M..", "J. "]),
    ("rites", text_of(f"R={quoted('bap')}/{quoted('bur')}/'b'"), ["bap.", "bur.", "b", "ba", "x"]),
    ("longest first", text_of("A=('a''b''c'/'a''b'/'a')'.'"), ["abc.", "ab.", "a.", "abd."]),
    ("first that succeeds", text_of("A=('a'/'a''b')'.'", "B='a'/'b'A/'.'"), ["ab.", "a.", "ba."]),
    ("balanced brackets", text_of("P='('P')'P/'.'/"), ["(()).", "()().", "(().", "()", ")("]),
    ("as many of each", text_of("S=[A'c']BC'.'", "A='a'A'b'/", "B='a'B/", "C='b'C'c'/"), ["aabbcc.", "abc.", "aabbc.", "abbcc.", "c."]),
    ("list", text_of("L=W(','L/)", "W='x'W/'x'"), ["x,xx,x.", "x,.", "xxx.", ",x."]),
    ("remark", text_of("A=W(['.']/' 'A)'.'", "W=('o'/'k')W/'o'/'k'"), ["ok ok.", "ok.", "o k", "ok x."]),
    ("looked at, then taken", text_of("A=['a'['b']]B'b'", "B='a'/'b'"), ["ab", "aa", "bb", "a"]),
]

# Empty rows, and what always fails.
SMALL = [(line, text_of(line), ["", "a."]) for line in (
    "A=", "A=/", "A=//", "A=()", "A=[]", "A=(/)", "A=[/]", "A=()[]()", "A=[()]", "A=([])",
    "A=%", "A=(%)", "A=[%]", "A=%/", "A=/%", "A=%%/[%]/(%/%)",
    "A='a'/", "A=/'a'", "A='a''.'", "A=['a']", "A=['a']'a'['.']", "A='a'[%]/'a'", "A=[%]/'a'", "A=[['a']]", "A=('a'%/'a')'.'")]

# Letters without lines.
MISSING = [
    ("missing", text_of("A=B"), ["", "a"]),
    ("missing in brackets", text_of("A=(B)/'a'", "C=[D]/'a'"), ["a"]),
    ("missing after a byte", text_of("A='a'B/'a'"), ["ab", "b", ""]),
    ("missing before another row", text_of("A='b'/B/'a'"), ["ab"]),
    ("missing behind what fails", text_of("A=%B/[%B]C/'a'"), ["ab"]),
    ("missing behind what succeeds", text_of("A=/B", "C='a'/B"), ["ab"]),
    ("missing in what is looked at", text_of("A=['a'/B]'a'", "C=[[B]]"), ["ab", "ba"]),
    ("missing, or out of text", text_of("A=B'x'/'b'", "B='a'C/'b'"), ["ba", "bb", "bx", "a"]),
    ("missing letters first", text_of("Z=YX'a'", "X=W", "Y="), ["a"]),
]

# Loops; some lines loop at some places only, or look as if they did.
LOOPS = [(text.decode().strip().replace("\n", " "), text, entries) for text, entries in (
    (text_of("A=A"), ["", "a"]),
    (text_of("A=(A)"), ["a"]),
    (text_of("A=[A]'a'"), ["a"]),
    (text_of("A=([(A)])/"), ["a"]),
    (text_of("A=A/"), ["a"]),
    (text_of("A=/A"), ["a"]),
    (text_of("A=A'a'/'a'"), ["aa."]),
    (text_of("A='a'/A"), ["ab", "b"]),
    (text_of("A='a'A/A"), ["aab", "aa"]),
    (text_of("A=()[]A"), ["a"]),
    (text_of("A=%A/[%]A/'a'"), ["ab"]),
    (text_of("A=B", "B=C", "C=A"), ["a"]),
    (text_of("A=BC", "B=", "C=A"), ["a"]),
    (text_of("A=BA/'.'", "B='a'/"), ["aa.", "b"]),
    (text_of("A=(B/C)", "B='b'[A]", "C='c'(A)/[A]'d'"), ["bcd", "cbb", "cc"]),
    (text_of("A=['a']A'b'/'b'"), ["ab", "b", ""]),
    (text_of("A='x'B/C", "B=A", "C=['y'](C)/'z'"), ["xxy", "xz", "xxx"]),
    (text_of("A=B", "B='a'C/D", "C=B'b'/A"), ["aab", "ac", "a"]),
    (text_of("A=B/C", "B='a'%/'b'B", "C=(['a']'a'C/D)", "D=(E)", "E='c'/([D])"), ["aac", "aad", "bba"]),
    (text_of(*(f"{x}={y}" for x, y in zip("ABCDEFGHIJKLMNOPQRSTUVWXYZ", "BCDEFGHIJKLMNOPQRSTUVWXYZA"))), ["a"]),
)]

# What stands between quotes.
QUOTES = [(f"quoted byte {b}", b"A='" + bytes([b]) + b"'\n", [bytes([b]), "a"]) for b in b"A/'()[]%=.\n\r \0\x7f\x80\xff"] + [
    ("quoted bytes that look like a text", b"A=('\n''B''=')'/'\nC=''''''\n", [b"\nB=/", b"''", b"\nB"]),
    ("quoted bytes that would be brackets", b"A=('(')[')']\n", [b"()", b")("]),
    ("quoted capitals are no letters", b"B='A'A/'C'\n", [b"AB", b"C"]),
]

# Limits.
LIMITS = [
    ("16 round brackets", text_of("A=" + nested("(" * 16, "'a'/'b'") + "'.'"), ["a.", "b.", ".", "b"]),
    ("16 square brackets", text_of("A=" + nested("[" * 16, "'a'") + "'a'"), ["ab", "ba"]),
    ("16 mixed brackets", text_of("A=" + nested(MIXED[:16], "/B"), "B=" + nested(MIXED[1:17], "'a'")), ["a", ""]),
    ("16 brackets, a row in each", text_of("A=" + "('a'/" * 16 + "'b'" + ")" * 16), ["ab", "b", "c"]),
    ("16 brackets, two times", text_of("A=" + nested("(" * 16) + nested("[" * 16, "'a'") + "'a'"), ["a", "b"]),
    ("16 brackets around a loop", text_of("A=" + nested(MIXED[:16], "A") + "/'a'"), ["a"]),
    ("20 brackets side by side", text_of("A=" + "('a'/)[]" * 10 + "'.'"), ["aaaaaaaaaa.", "aaa.", "aaaaaaaaaaa."]),
    ("26 letters", text_of("A=" + "/".join(f"'{x}'{x}" for x in "BCDEFGHIJKLMNOPQRSTUVWXYZ"), "Z='.'", "Y=Z"), ["Z.", "Y.", "B.", "A"]),
    ("26 letters from the last", text_of(*(f"{x}='{x.lower()}'" for x in "ZYXWVUTSRQPONMLKJIHGFEDCBA")), ["zyxa", "mno"]),
    ("allowance 256: 253 slashes", text_of("A=" + "/" * 253), ["", "a"]),
    ("allowance 256: 84 failures, a slash", text_of("A=" + "%" * 84 + "/"), ["a"]),
    ("allowance 256: 84 brackets, a slash", text_of("A=/" + "()[]" * 42), ["a"]),
    ("allowance 256: 84 letters", text_of("A=" + "B" * 83, "B=%"), ["a"]),
    ("allowance 254: 63 bytes", b"A=" + b"/".join(b"'%c'" % b for b in range(193, 256)) + b"\n", [bytes([193, 224, 254, 255, 192, 0])]),
    ("allowance 255: a row of 84 bytes", b"A=" + b"".join(b"'%c'" % (i % 12) for i in range(84)) + b"\n", [bytes(range(12))]),
]

ACCEPTED = REGISTERS + SMALL + MISSING + LOOPS + QUOTES + LIMITS


# ---------------------------------------------------------------- refused: number, text

# 15, by what is wrong: the end of the text, its lines, the bytes of a line, brackets, quotes, a second definition.
NOT_OF_THE_FORM = [
    b"", b"A", b"A=", b"A='a'", b"A=\nB", b"A=\nB=", b"A=\nB=()", b"A=\n ", b"A=\n\0", b"A=\n'",
    b"\n", b"\nA=\n", b"A=\n\n", b"A=\n\nB=\n", b"A=\r\n", b"A='a'\r\n", b" A=\n", b"A =\n", b"A= \n", b"A='a' 'b'\n", b"A=\t\n",
    b"A\n", b"AB\n", b"A:\n", b"AB=\n", b"=\n", b"=A\n", b"a=\n", b"@=\n", b"[=\n", b"1=\n", b"A'='\n", b"'A'=\n",
    b"A=x\n", b"A==\n", b"A=B=\n", b"A=@\n", b"A=\xc4\n", b"A=\0\n", b'A="a"\n',
    b"A=(\n", b"A=)\n", b"A=(]\n", b"A=[)\n", b"A=[\n", b"A=]\n", b"A=())\n", b"A=[A]]\n", b"A=([)]\n", b"A=(\n)\n",
    b"A=(", b"A=(/", b"A=(B", b"A=('a'", b"A=" + b"(" * 16, text_of("A=" + "(" * 16 + "]"), text_of("A=" + nested("(" * 16) + ")"),
    b"A='a\n", b"A='\n", b"A='", b"A='a", b"A=''", b"A=''\n", b"A=''''\n", b"A='ab'\n", b"A='ab\n", b"A='aB\n", b"A=''a'\n", b"A='a'\n'\n",
    b"A=\nA=\n", b"A=B\nB=A\nA=B\n", b"A=\nA=x\n", b"A=\nB=\nB",
]

SEVENTEEN = nested("(" * 17)

TOO_DEEP = [
    text_of("A=" + SEVENTEEN), text_of("A=" + nested("[" * 17)), text_of("A=" + nested(MIXED[:17])), text_of("A=" + nested(MIXED[1:18])),
    b"A=" + b"(" * 17, b"A=" + b"(" * 40, text_of("A=", "B='('", "C=%/" + nested("(" * 16, "A/[B]")), text_of("A=" + "(" * 16 + "['a']"),
]

TOO_MANY = [
    text_of("A=" + "/" * 254), text_of("A=" + "%" * 85), text_of("A=" + "%" * 84 + "//"), text_of("A=" + "()" * 85),
    text_of("A=" + "B" * 84 + "/"), text_of("A=" + "'/'" * 85), text_of("A=" + "/" * 150, "B=(" + "/" * 150 + ")"),
]

# 15 or 16, "whichever comes first in the text", and both before 17.
FIRST = [
    (15, text_of("A=", "A=" + SEVENTEEN)), (16, text_of("A=" + SEVENTEEN, "A=")),
    (15, text_of("A=x" + SEVENTEEN)), (16, text_of("A=" + SEVENTEEN + "x")),
    (15, text_of("A=" + nested("(" * 16, "x") + SEVENTEEN)), (16, text_of("A=" + nested("(" * 17, "x"))),
    (15, text_of("A=" + "/" * 254 + "x")), (15, b"A=" + b"/" * 254), (16, text_of("A=" + "/" * 254 + SEVENTEEN)),
]

REFUSED = [(15, text) for text in NOT_OF_THE_FORM] + [(16, text) for text in TOO_DEEP] + [(17, text) for text in TOO_MANY] + FIRST

# The long texts that the program makes: number, length, the byte that fills them, the last byte.
LONG = [(17, 200000, b"/", b"\n"), (17, 200000, b"%", b"\n"), (15, 200000, b"/", b"/"), (15, 200000, b"%", b"%")]


def long_text(length, byte, last): return b"A=" + byte * (length - 3) + last
