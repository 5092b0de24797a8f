"""Sentences of the text encoding: each with inputs that are accepted, and inputs that are refused.

An input is a text or its bytes. See make.py.
"""
NULLS = ("null null.null null.bool null.int null.float null.decimal null.timestamp null.symbol null.string null.clob "
         "null.blob null.list null.sexp null.struct")

TOKENS = [
    ("Text is UTF-8.", "\"é\"", b"\"\xC3\"", b"'\xC3\x28'"),
    ("White space is the space, tab, LF, VT, FF and CR.", " \t1\n\v\f2\r3", "1\0", "\u00A01", "\uFEFF1"),
    ("A comment goes from // to LF, CR or the end of the input.", "//a\n1 //b\r2 //c", "/ /1", "1 / 2"),
    ("A comment goes from /* to the next */.", "/* a /* b */1/***/", "/* a */ */", "1 /* a"),
    ("Bytes in comments are not checked.", b"//\xFF\x00\n1/*\xC3*/", b"//\xFF\n\xFF"),
    ("A token that begins with a digit, or - and a digit, goes to the next stop character.", "[1,2](3 -4){a:5}6\"b\"7'c'",
     "1a", "-1$", "[1;2]"),
    ("A comment ends it too.", "1/**/2//x", "1/2", "1*/"),
    ("An int is 0, or digits of which the first is another; -0 is 0.", "0 -0 12 -12", "012", "- 1", "-01"),
    ("An int may be hexadecimal.", "0x1F -0X1f", "0x", "0x1G", "00x1"),
    ("An int may be binary.", "0b101 -0B11", "0b", "0b12"),
    ("An int in text has a magnitude below 2 to the power of 128.", "340282366920938463463374607431768211455",
     "340282366920938463463374607431768211456", "-0x100000000000000000000000000000000"),
    ("Single underscores may stand between two digits of an int.", "1_0 0x1_F 0b1_1", "1_", "1__0", "0x_1", "0_x1"),
]

NUMBERS = [
    ("A decimal has a point, with or without digits after it.", "1. 1.50 -0. 0.05", ".5", "00.5", "1.5.", "1.a"),
    ("A decimal has d or D and an exponent.", "1d2 1.5D-1 1d+3 -0d0", "1d", "1d-", "1.5dd1", "d1 1.d+"),
    ("A decimal's exponent is less by the digits after the point.", "1.50d1 1.0d2147483648", "1.0d-2147483648",
     "1d2147483648"),
    ("A number with e or E is a float, and refused.", "null.float", "1e0", "1.5E-3", "1e", "-0E+0"),
    ("Underscores may stand on either side of a decimal's point.", "1_0.5_0 1_0d1", "1_.5", "1._5", "1.5_"),
    ("None stand in exponents.", "1d10", "1d1_0", "1_d1"),
]

TIMESTAMPS = [
    ("A timestamp may be to the year.", "2000T 0001T", "2000 000T", "200T", "0000T", "12345T"),
    ("A timestamp may be to the month.", "2000-01T 2000-12T", "2000-01", "2000-13T", "2000-1T"),
    ("A timestamp may be to the day, with or without T.", "2000-02-29T 2000-01-31", "2000-02-30", "2000-01-1T",
     "2001-02-29T"),
    ("A timestamp may be to the minute, and then has an offset.", "2000-01-02T03:04Z 2000-01-02T03:04+05:06",
     "2000-01-02T03:04", "2000-01-02T03Z", "2000-01-02T24:00Z"),
    ("A timestamp may have seconds, and digits of a fraction after a point.",
     "2000-01-02T03:04:05-06:07 2000-01-02T03:04:05.678Z", "2000-01-02T03:04:60Z", "2000-01-02T03:04:05.Z",
     "2000-01-02T03:04.5Z"),
    ("A fraction in text has at most 38 digits.", "2000-01-02T03:04:05.00000000000000000000000000000000000001Z",
     "2000-01-02T03:04:05.000000000000000000000000000000000000001Z"),
    ("The offset -00:00 is the unknown one, which dates have too.", "2000-01-02T03:04-00:00 2000-01-02",
     "2000-01-02-00:00"),
    ("An offset is at most 23 hours and 59 minutes.", "2000-01-02T03:04+23:59", "2000-01-02T03:04+24:00",
     "2000-01-02T03:04-01:60"),
    ("A timestamp in UTC is of the years 1 to 9999 too.", "0001-01-01T00:00-00:01", "0001-01-01T00:00+00:01",
     "9999-12-31T23:59-00:01"),
    ("Underscores stand in no timestamp.", "2000-01-02T", "2_000T", "2000-01-0_2T"),
]

STRINGS = [
    ("A string stands between double quotes.", "\"a'b\" \"\"", "\"a", "a\""),
    ("Long strings stand between three single quotes, and neighbours are one.", "'''a''' '''b''''''c'''", "'''a''' '''b",
     "'''a''"),
    ("White space and comments may stand between them.", "'''a''' /*x*/ //y\n '''b''' 'c'", "'''a''' /*x"),
    ("A quoted symbol stands between single quotes.", "'a\"b' 'null'", "'a", "'a\n'"),
    ("Two single quotes without a third are the empty symbol.", "'' ['',a]", "'''", "''''"),
    ("Escapes are a b t n f r v 0 ? \" ' \\ / after a backslash.", "\"\\a\\b\\t\\n\\f\\r\\v\\0\\?\\\"\\'\\\\\\/\"",
     "\"\\e\"", "\"\\1\"", "'\\N'"),
    ("\\x has two hexadecimal digits, of a character.", "\"\\x41\\xe9\"", "\"\\x4\"", "\"\\xg0\""),
    ("\\u has four, of a character.", "\"\\u00E9\" '\\u0041'", "\"\\u00E\"", "\"\\u00Eg\""),
    ("\\U has eight, of a character.", "\"\\U0001F600\"", "\"\\U00110000\"", "\"\\U0000D800\"", "\"\\U1F600\""),
    ("A backslash before LF, CR or CR LF vanishes with it.", "\"a\\\nb\\\rc\\\r\nd\"", "\"a\\ \nb\""),
    ("Bytes below 20 are illegal, but for tab, VT and FF.", "\"\t\v\f\" '\t'", "\"\1\"", "'\0'", "'''\x1F'''"),
    ("Line ends are illegal, but for long strings.", "'''a\nb'''", "\"a\nb\"", "\"a\rb\"", "'a\nb'"),
    ("CR and CR LF in long strings are LF.", "'''a\rb\r\nc\n\rd'''", "\"a\r\n\""),
    ("A high surrogate joins with the low one after it, both by \\u.", "\"\\uD83D\\uDE00\"", "\"\\uD83D\"",
     "\"\\uDE00\"", "\"\\uD83D \\uDE00\"", "\"\\uD83D\\U0000DE00\""),
    ("The bytes of each segment are UTF-8.", b"'''\xC3\xA9'''", b"'''\xC3''' '''\xA9'''", b"\"\xED\xA0\x80\""),
    ("An escaped line end leaves the bytes around it together.", b"\"\xC3\\\n\xA9\"", b"\"\xC3\n\xA9\""),
]

SYMBOLS = [
    ("An identifier begins with a letter, _ or $, and goes on with these and digits.", "a _b $c A1_$ $1a", "a#", "é",
     "@a"),
    ("It goes on as far as it can.", "abc1 d[e]", "a-b", "a.b"),
    ("$ with digits alone is a symbol id.", "$4 $4a", "$10", "$99999999999999999999"),
    ("An id may have leading zeros.", "$04", "$010"),
    ("null, true and false are values and no symbols.", "null true false 'true'", "{true:1}", "null::1", "false::a"),
    ("nan is a float, and no symbol.", "nanx 'nan'", "nan", "{nan:1}"),
    ("After null and a point stands the name of a type.", NULLS, "null.ints", "null.", "null. int", "null.Int"),
    ("The name goes on as far as an identifier.", "null.int[] null.int//", "null.int1", "null.int_", "null.int$"),
    ("+inf and -inf, where no identifier goes on, are floats.", "(+infx -infx)", "+inf", "(-inf)", "+infx"),
    ("Operators are symbols without quotes in an S-expression alone.", "(+ a)", "[+]", "+", "{+:1}"),
    ("An operator is as many of nineteen characters as there are.", "(!#%&*+-./;<=>?@^`|~)", "(:)", "(\\)", "(+,)"),
    ("A comment ends an operator.", "(+//x\n+/*y*/-)", "(+/*)", "(+//)"),
    ("- begins a number only where a token begins.", "(-1 - 1 a--1 +-1)", "(1-1)", "(- -1a)"),
    ("$ion_1_0 at top level without quotes and annotations is a version marker.", "$ion_1_0 1 $ion_1_0 $4",
     "$ion_symbol_table::{symbols:[\"a\"]} $10 $ion_1_0 $10"),
    ("With other digits it is a marker of another version.", "$ion_1_ $ion_1 [$ion_1_1] a::$ion_1_1 $ion_1_1::a",
     "$ion_1_1", "$ion_2_0", "1 $ion_10_00", "$ion_01_0"),
    ("In quotes or by its id it is no version marker.", "$ion_symbol_table::{symbols:[\"a\"]} '$ion_1_0' $2 $10",
     "'$ion_1_0' $10"),
]

CONTAINERS = [
    ("A list stands in [ and ], with commas between its values, and may have one at its end.", "[1,2] [1,] []", "[1 2]",
     "[,]", "[1,,2]", "[1", "]", "[1}"),
    ("A struct stands in { and }, with commas between its fields, and may have one at its end.", "{a:1,b:2,} {}",
     "{a:1 b:2}", "{,}", "{a:1", "{a}", "{a:}", "{a:1)"),
    ("An S-expression stands in ( and ), without commas.", "(1 2) () (a())", "(1,2)", "(1", "(]"),
    ("A field's name is a symbol, a string or a long string.", "{a:1,'b':2,$4:3,\"c\":4,'''d''' '''e''':5}", "{1:2}",
     "{null:1}", "{[]:1}", "{$10:1}"),
    ("After it stands a colon.", "{a : 1,b/**/:2}", "{a 1}", "{a::1}", "{a"),
    ("An annotation is a symbol and two colons.", "a::'b'::$4::1 a::[]", "\"a\"::1", "1::2", "a::", "$10::1"),
    ("White space and comments may stand before the colons and after them.", "a /*x*/ :: //y\n b", "a : : b",
     "a :/**/: b"),
    ("Two colons together are one token.", "{a:b::c}", "{a::b}", "{a:b:c}", "{a: :b}"),
]

LOBS = [
    ("{{ begins a lob.", "{{}} {a:{}}", "{{a:1}}", "{{", "{{}"),
    ("A blob is base64 with padding.", "{{aGVsbG8=}} {{aGVsbA==}} {{aGVs}}", "{{aGVsbG8}}", "{{aGVs=}}", "{{a===}}",
     "{{aGVs-_==}}"),
    ("White space may stand anywhere in it.", "{{ aG Vs\nbG8 = }}", "{{aGVs} }", "{{aGVs"),
    ("Bits of its last character that belong to no octet are zero.", "{{aGVsbG8=}}", "{{aGVsbG9=}}", "{{aGVsbH==}}"),
    ("A clob is a string, or long strings.", "{{\"a\"}} {{'''a''' '''b'''}}", "{{\"a\" \"b\"}}", "{{'''a''' \"b\"}}",
     "{{'a'}}", "{{\"a\"} }"),
    ("White space may stand between them.", "{{ \"a\" }} {{\n'''a'''\t'''b''' }}", "{{\"a\"x}}", "{{\"a"),
    ("A clob has bytes from 20 to 7F, and the white space of strings.", "{{\"a\tb\x7F\"}} {{'''a\nb\r'''}}", "{{\"é\"}}",
     "{{\"\1\"}}", "{{\"a\nb\"}}"),
    ("\\x in a clob is an octet.", "{{\"\\xff\\x00\"}}", "{{\"\\xf\"}}", "{{\"\\xfg\"}}"),
    ("A clob has no \\u and no \\U.", "{{\"\\n\\0\\/\"}}", "{{\"\\u0041\"}}", "{{\"\\U00000041\"}}"),
    ("There are no comments in a lob.", "{{//8=}}", "{{\"a\"/**/}}", "{{aGVs//}}x"),
]

# Inputs of which the yardstick says otherwise than the definitions and the program. Ion says only that such a text is
# malformed: one quote after {{ begins no clob, and whether it is refused as a blob's first character or at the
# input's end is the reader's choice. Here a blob is judged four characters at a time, so where less is left the
# input is cut short, as docs/TEXT_INPUT.md says.
OTHERWISE = {"{{'a": "Truncated", "{{'a'": "Truncated", "{{'a'}": "Truncated"}

TABLES = [
    ("text_tokens", "Of the text encoding: bytes, comments and ints.", "stream", b"", TOKENS),
    ("text_numbers", "Of the text encoding: decimals and floats.", "stream", b"", NUMBERS),
    ("text_timestamps", "Of the text encoding: timestamps.", "stream", b"", TIMESTAMPS),
    ("text_strings", "Of the text encoding: strings and quoted symbols.", "stream", b"", STRINGS),
    ("text_symbols", "Of the text encoding: symbols, keywords, operators and version markers.", "stream", b"", SYMBOLS),
    ("text_containers", "Of the text encoding: containers and annotations.", "stream", b"", CONTAINERS),
    ("text_lobs", "Of the text encoding: lobs.", "stream", b"", LOBS),
]
