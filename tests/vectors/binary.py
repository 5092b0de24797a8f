"""Sentences of the binary encoding: each with inputs that are accepted, and inputs that are refused.

An input is octets in hexadecimal after `M`, the version marker, or after `hex`. See make.py.
"""
MARKER = b"\xE0\x01\x00\xEA"


def moment(length, rest, offset="80"):
    """A timestamp with this descriptor, 2000-01-01T00:00 in UTC, and what follows."""
    return f"M {length} {offset} 0F D0 81 81 80 80 {rest}".strip()


ENCODING = [
    ("A binary stream begins with the version marker E0 01 00 EA.", "M", "hex E0 01", "hex E0 01 01 EA"),
    ("After it stand values, NOP pads and further markers at top level, and markers nowhere else.",
     "M 21 05 01 FF E0 01 00 EA 11", "M B4 E0 01 00 EA"),
    ("Each marker sets the symbol table back to the system's.", "M E7 81 83 D4 87 B2 81 61 71 0A E0 01 00 EA 71 04",
     "M E7 81 83 D4 87 B2 81 61 E0 01 00 EA 71 0A"),
    ("Octets that look like another version's marker are none.", "M E0 01 00 EA", "M 11 E0 02 00 EA"),
    ("A VarUInt has seven bits an octet, the greatest first.", "M 63 C0 0F D0", "M 63 C0 D0 0F"),
    ("The last octet of a VarUInt, and no other, has its high bit set.", "M 8E 83 61 62 63", "M 8E 03 61 62 63"),
    ("A VarInt's first octet has the sign in its second bit, and six bits of magnitude.", "M 53 40 C1 01 52 C1 0F",
     "M 56 08 00 00 00 80 01"),
    ("An exponent is at least -2147483647.", "M 56 47 7F 7F 7F FF 01", "M 56 48 00 00 00 80 01"),
    ("A UInt is a magnitude, the greatest octet first.", "M 22 01 02", "M 22 01"),
    ("An Int is a sign in the first octet's high bit and a magnitude, the greatest octet first.",
     "M 53 C1 80 0F 53 C1 01 02", "M 53 C1 80"),
    ("A VarUInt has at most nine octets.", "M 8E 00 00 00 00 00 00 00 00 81 61", "M 8E 00 00 00 00 00 00 00 00 00 81 61"),
    ("A VarInt has at most nine octets.", "M 5A 40 00 00 00 00 00 00 00 81 05", "M 5B 40 00 00 00 00 00 00 00 00 81 05"),
    ("A VarUInt may have leading zeros.", "M D3 00 84 11", "M D3 00 FF 11"),
    ("A descriptor has the type in its high four bits and the length in its low four.", "M 83 61 62 63", "M 84 61 62 63"),
    ("A length below 14 is the body's.", "M 8D 61 62 63 64 65 66 67 68 69 6A 6B 6C 6D", "M B1 82 61"),
    ("After the length 14 a VarUInt has the body's.", "M 8E 8E 61 62 63 64 65 66 67 68 69 6A 6B 6C 6D 6E",
     "M B3 8E 82 61"),
    ("The length 15 is the null of the type.", "M 0F 1F 2F 3F 4F 5F 6F 7F 8F 9F AF BF CF DF", "M EF", "M FF"),
]

SCALARS = [
    ("The type 0 with another length than 15 is a pad of so many octets, of any value.",
     "M 00 02 FF E0 0E 83 E0 01 00 11", "M 03 FF FF", "M B2 03 FF"),
    ("A NOP pad may be the whole of a list.", "M B3 02 11 11", "M B3 03 11 11"),
    ("The bools are 10, 11 and 1F.", "M 10 11 1F", "M 12 00 00", "M 1E"),
    ("The types 2 and 3 are ints with and without a sign, whose body is a UInt.", "M 21 05 31 05 22 00 05", "M B2 22 05"),
    ("An int has a magnitude below 2 to the power of 128.", "M 2E 90 FF FF FF FF FF FF FF FF FF FF FF FF FF FF FF FF",
     "M 3E 91 01 00 00 00 00 00 00 00 00 00 00 00 00 00 00 00 00"),
    ("An int without octets is 0.", "M 20", "M 30"),
    ("The int 0 has no sign.", "M 31 01", "M 32 00 00"),
    ("Of the floats the null alone is read.", "M 4F", "M 40", "M 44 3F 80 00 00", "M 4E"),
    ("A decimal is a VarInt, the exponent, and an Int, the coefficient, in the rest of the body.",
     "M 52 C1 0F 53 C3 80 01", "M 52 41 0F"),
    ("A decimal's coefficient is below 2 to the power of 128.",
     "M 5E 91 80 7F FF FF FF FF FF FF FF FF FF FF FF FF FF FF FF",
     "M 5E 92 80 01 00 00 00 00 00 00 00 00 00 00 00 00 00 00 00 00"),
    ("A decimal's coefficient without octets is 0.", "M 51 C2", "M 51 42"),
    ("A decimal without a body is 0 with the exponent 0.", "M 50", "M B1 5E"),
    ("A decimal's zero may have a sign.", "M 52 C1 80", "M 52 81"),
    ("A symbol's body is a UInt, its id.", "M 71 04 72 00 09", "M 71 0A", "M 72 01 04"),
    ("A symbol without a body is $0.", "M 70", "M B1 7E"),
    ("A string is UTF-8.", "M 84 C3 A9 0A 22", "M 81 C3", "M 83 ED A0 80", "M 82 C0 80"),
    ("A clob has any octets.", "M 93 61 22 FF", "M 94 61 22 FF"),
    ("A blob has any octets.", "M A3 00 7F FF", "M A4 00 7F FF"),
    ("A symbol value with the id 2 is no version marker.", "M E7 81 83 D4 87 B2 81 61 71 02 71 0A", "M 72 00 0A"),
]

CONTAINERS = [
    ("A list's body is values.", "M B3 21 05 11", "M B1 21 05", "M B2 11"),
    ("An S-expression's body is values.", "M C3 71 04 B0", "M C1 71 04", "M C3 71 04"),
    ("A struct's body is fields: a VarUInt, the id of the name, and a value.", "M D5 84 21 05 85 10", "M D2 84 21",
     "M D3 84 10 85", "M D2 8A 10"),
    ("After D1 a VarUInt has the length of a struct that has fields.", "M D1 82 84 11", "M D1 80", "M D1"),
    ("Whether the ids after D1 rise is not checked.", "M D1 84 85 20 84 20", "M D1 84 85 20 8A 20"),
    ("The id before a NOP pad in a struct means nothing.", "M D5 FE 01 FF 84 11", "M D4 FE 11 84 11"),
    ("A NOP pad in a struct has an id before it.", "M D2 80 00", "M D1 81 00"),
    ("An annotation wrapper has a length of 3 to 13.", "M E3 81 84 11", "M E1 81", "M E2 81 84"),
    ("Or it has the length 14, and after it a VarUInt of at least 3.", "M EE 83 81 84 11", "M EE 82 81 84", "M EE 80"),
    ("E0 in a container is no wrapper.", "M B4 E3 81 84 11", "M B1 E0", "M B3 E3 81 84 11"),
    ("Then comes how many octets the annotations have, and these, VarUInts with an id each.",
     "M E5 82 84 85 21 05 E5 82 00 84 21 05", "M E4 81 04 21 05", "M E5 82 84 8A 21 05"),
    ("There is at least one annotation.", "M E4 81 80 21 05", "M E3 80 21 05"),
    ("The octets of the annotations leave some for the value.", "M E5 82 84 85 21 05", "M E5 84 84 85 86 87",
     "M E3 85 84 85"),
    ("One value fills the rest of the wrapper.", "M E4 81 84 21 05", "M E4 81 84 11 11", "M E4 81 84 22 05"),
    ("The value is no wrapper.", "M E7 81 84 B4 E3 81 84 11", "M E6 81 84 E3 81 84 11", "M E6 81 84 E0 01 00 EA"),
    ("The value is no NOP pad.", "M E5 81 84 B2 01 FF", "M E4 81 84 01 FF", "M E3 81 84 00"),
    ("The type 15 is illegal.", "M DF", "M F0", "M F1 00"),
]

TIMESTAMPS = [
    ("A timestamp's body begins with the offset, a VarInt of minutes.", moment("67", "", "FC"), moment("68", "", "0B A0"),
     moment("68", "", "4B A0"), "M 60"),
    ("The offset minus zero is the unknown one.", moment("67", "", "C0"), "M 61 C0"),
    ("Then comes the year, a VarUInt of 1 to 9999.", "M 63 C0 4E 8F 62 C0 81", "M 63 C0 4E 90", "M 62 C0 80"),
    ("Then the month.", "M 64 C0 0F D0 8C", "M 64 C0 0F D0 8D", "M 64 C0 0F D0 80"),
    ("Then the day, which that month has.", "M 65 C0 0F D0 82 9D", "M 65 C0 0F D1 82 9D", "M 65 C0 0F D0 81 80"),
    ("Then the hour and minute together.", "M 67 C0 0F D0 81 81 97 BB", "M 66 C0 0F D0 81 81 97",
     "M 67 C0 0F D0 81 81 98 80", "M 67 C0 0F D0 81 81 97 BC"),
    ("Then the second, of 0 to 59.", moment("68", "BB"), moment("68", "BC"), moment("68", "3B")),
    ("Each field is a VarUInt, and ends in the body.", moment("69", "00 BB"), moment("69", "00 00")),
    ("After the second comes a fraction: a VarInt, the exponent, and an Int, the coefficient.", moment("6A", "80 C1 05"),
     moment("69", "80 41")),
    ("A fraction's coefficient without octets is 0.", moment("69", "80 C1"), moment("6A", "80 41 41")),
    ("A fraction has at most 38 digits.", moment("69", "80 E6"), moment("69", "80 E7")),
    ("The fields are in UTC, and text shows them with the offset added.",
     "M 67 BC 0F D0 81 81 97 9E 67 FC 0F D0 81 81 80 9E", "M 67 81 4E 8F 8C 9F 97 BB"),
    ("The unknown offset counts as 0.", "M 67 C0 4E 8F 8C 9F 97 BB", "M 67 C1 81 81 81 80 80"),
    ("A fraction is at least 0.", moment("6A", "80 C1 00"), moment("6A", "80 C1 81")),
    ("A fraction is below 1.", moment("6A", "80 C2 63"), moment("6A", "80 C2 64")),
    ("A fraction of zero with an exponent above -1 is none.", moment("69", "80 81"), moment("6A", "80 80 01")),
    ("A fraction of zero with an exponent of -1 or less keeps its digits.", moment("69", "80 C3"),
     moment("6A", "80 C3 81")),
    ("A fraction of minus zero is zero.", moment("6A", "80 C1 80"), moment("6A", "80 C1 8A")),
    ("To the year, month or day, the offset is read and means nothing.", "M 64 0B A0 0F D0 65 FC 0F D0 81 81",
     "M 67 0B A0 0F D0 81 81 80", "M 63 40 0F D0"),
]

# A VarUInt of nine octets, the greatest that there is, and its eight octets that do not end it.
GREATEST = "7F 7F 7F 7F 7F 7F 7F 7F FF"
UNENDED = "7F 7F 7F 7F 7F 7F 7F 7F"

ENDINGS = [
    ("A list may say that it has 9223372036854775807 octets, and what there is of it is written.", "M BE 00 00 00 80",
     f"M BE {GREATEST}"),
    ("It may not say so in more than nine octets.", "M BE 00 00 00 00 00 00 00 00 80", f"M BE {UNENDED} 7F"),
    ("A string that says so is refused by its length.", "M 8E 00 81 61", f"M 8E {GREATEST}"),
    ("A NOP pad that says so is cut by the input's end.", "M 0E 00 81 61", f"M 0E {GREATEST}"),
    ("A list's length ends in the container around it.", "M B2 B1 10", "M B2 B3 10"),
    ("As many as 64 containers may be open.", 64 * "[" + 64 * "]", 65 * "["),
    ("What is read of an open value is shown, and in binary nothing of it is written.", "a [b,]", "a [b,"),
]

TABLES = [
    ("binary_heads", "Of the binary encoding: the stream, its numbers and descriptors.", "stream", b"", ENCODING),
    ("binary_scalars", "Of the binary encoding: scalars but timestamps, and NOP pads.", "stream", b"", SCALARS),
    ("binary_containers", "Of the binary encoding: containers and annotations.", "stream", b"", CONTAINERS),
    ("binary_timestamps", "Of the binary encoding: timestamps.", "stream", b"", TIMESTAMPS),
    ("endings", "Of both encodings: lengths, and values that are cut short.", "stream", b"", ENDINGS),
]
