"""Sentences on floats, where all of them are read: each with inputs that are accepted, and inputs that are refused.

An input is a text, or octets in hexadecimal after `M`, the version marker. See make.py.
"""

TEXT = [
    ("A float has e or E and an exponent.", "1e0 1.5E-3 -2.e+10", "1e", "1e+", "1.5ee1", "1e1.", ".5e0"),
    ("It has no leading zeros, but its exponent may.", "0.5e00 10e-01", "00e0", "01.5e0"),
    ("A float's zero may have a sign.", "0e0 -0e0 -0.0e9", "-e0", "+0e0"),
    ("Underscores stand in a float where they stand in a decimal, and none in its exponent.", "1_0.5_0e1", "1_.5e0", "1_e0",
     "1e1_0"),
    ("A float is the nearest double, and of two the even one.", "9007199254740993e0 9007199254740995e0 5e-324",
     "9007199254740993e", "9007199254740993f0"),
    ("What is nearer to 0 than to another double is 0.", "2.4703282292062327e-324 -1e-400", "1e-400e"),
    ("What is past the greatest double, rounded to one, is refused.", "1.7976931348623158e308", "1.7976931348623159e308", "-1e309"),
    ("nan is a float, and no symbol.", "nan (nan) nanx", "nan::1", "{nan:1}"),
    ("+inf and -inf, where no identifier goes on, are floats.", "+inf (a-inf) (+infx)", "+infx", "-inf::1"),
    ("The shortest digits that read as a float are written, and of these the nearest.", "0.30000000000000004e0 100e0 1.5e22",
     "0.3e0;"),
    ("Of two that are as near the even ones are written.", "68719476736.015625e0 2.98023223876953125e-8", "1e0 68e0.5"),
    ("In binary 0 has no octets, what binary32 has four, and all else eight.", "0e0 -0e0 16777216e0 16777217e0 0.1e0",
     "0e0 16777217e"),
    ("Floats stand where other values stand.", "a::1e0 [1e0,nan] {a:-inf,b:1e0}", "1e0::a", "{1e0:a}", "[1e0 nan]"),
]

BINARY = [
    ("A float has no octets, four or eight.", "M 40 44 3F C0 00 00 48 3F B9 99 99 99 99 99 9A", "M 41 00", "M 42 3C 00",
     "M 45 00 00 00 00 00", "M 49 00 00 00 00 00 00 00 00 00", "M 44 3F C0 00"),
    ("Its length may be a VarUInt.", "M 4E 80 4E 84 3F C0 00 00", "M 4E 81 00", "M 4E 84 3F C0", "M 4E"),
    ("A zero may have a sign.", "M 44 80 00 00 00 48 80 00 00 00 00 00 00 00", "M 41 80"),
    ("Whatever is no number is nan.", "M 44 7F C0 00 00 44 FF 80 00 01 48 7F F0 00 00 00 00 00 01", "M 43 7F C0 00"),
    ("The others without end are +inf and -inf.", "M 44 7F 80 00 00 48 FF F0 00 00 00 00 00 00", "M 46 7F F0 00 00 00 00"),
    ("Floats of four octets are those of eight with the same value.", "M 44 00 00 00 01 48 36 A0 00 00 00 00 00 00",
     "M 47 36 A0 00 00 00 00 00"),
    ("Floats stand where other values stand.", "M E7 81 84 44 3F C0 00 00 B2 40 4F D2 84 40", "M E7 81 84 44 3F C0 00",
     "M B1 44 3F C0 00 00", "M E4 81 84 41 00"),
]

TABLES = [
    ("floats_text", "Of floats in text.", "stream", b"", TEXT),
    ("floats_binary", "Of floats in binary.", "stream", b"", BINARY),
]
