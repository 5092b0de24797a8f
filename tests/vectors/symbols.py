"""Sentences of symbols and symbol tables, in both encodings: each with inputs that are accepted, and that are refused.

Streams are read with the catalogue below, and `$T` stands for $ion_symbol_table. See make.py.
"""
import binary

# Version 1 of x has p and q, version 3 has r, s and a slot without text; y has u.
CATALOGUE = ('$9::{name:"x",version:1,symbols:["p","q"]} $9::{name:"x",version:3,symbols:["r","s",null]} '
             '$9::{name:"y",symbols:["u"]}')
NAMES = {"name": 4, "version": 5, "imports": 6, "symbols": 7, "max_id": 8}


class Id(int):
    """A symbol value by its id."""


def value(one):
    """A short value in binary: null, an int, a symbol's id, a string, a list, a struct (its fields may be pairs), or octets."""
    if isinstance(one, bytes):
        return one
    if one is None:
        return b"\x0F"
    if isinstance(one, Id):
        return headed(0x70, bytes([one]) if one else b"")
    if isinstance(one, int):
        return headed(0x20 if one >= 0 else 0x30, abs(one).to_bytes((abs(one).bit_length() + 7) // 8, "big"))
    if isinstance(one, str):
        return headed(0x80, one.encode())
    if isinstance(one, list):
        return headed(0xB0, b"".join(map(value, one)))
    fields = one.items() if isinstance(one, dict) else one
    return headed(0xD0, b"".join(bytes([NAMES.get(name, name) | 0x80]) + value(field) for name, field in fields))


def headed(kind, body):
    """A body after its descriptor and length."""
    if len(body) < 14:
        return bytes([kind | len(body)]) + body
    return bytes([kind | 14, len(body) | 0x80]) + body


def under(ids, one):
    """A value with annotations."""
    annotations = bytes(id | 0x80 for id in ids)
    return headed(0xE0, bytes([len(annotations) | 0x80]) + annotations + value(one))


def stream(*values):
    return binary.MARKER + b"".join(map(value, values))


def table(**fields):
    """A declaration with these fields in their order."""
    return under([3], fields)


def ids(*numbers):
    """Symbol values by these ids."""
    return stream(*map(Id, numbers))[4:]


TEXT = [
    ("The system's symbols have the ids 1 to 9.", "$1 $2 $3 $4 $5 $6 $7 $8 $9", "$10"),
    ("$0 has unknown text.", "$0 {$0:$0::1}", "[$0,$10]"),
    ("A declaration is a struct at top level.", '$T::{symbols:["a"]} $10', '[$T::{symbols:["a"]}] $10', '$T::["a"] $10'),
    ("It is no null.", '$T::{symbols:["a"]} $T::null.struct $10', "$T::null.struct $10"),
    ("Its first annotation has the text $ion_symbol_table.", '\'$T\'::b::{symbols:["a"]} $10',
     'b::$T::{symbols:["a"]} $10'),
    ("Its ids are read by the table before it.", '$T::{symbols:["symbols"]} $T::{$10:["a"]} $10',
     '$T::{symbols:["a"],b:$10}'),
    ("Imports are a list of structs.", '$T::{imports:[{name:"x",max_id:2}]} $10 $11', '$T::{imports:({name:"x"})} $10'),
    ("Or they are the symbol $ion_symbol_table, and the present table is kept.",
     '$T::{symbols:["a"]} $T::{imports:$T,symbols:["b"]} $10 $11', '$T::{symbols:["a"]} $T::{symbols:["b"]} $11',
     '$T::{symbols:["a"]} $T::{imports:"$T"} $10'),
    ("The field symbols is a list, in which a string adds its text.",
     '$T::{symbols:["a",\'\'\'b\'\'\' \'\'\'c\'\'\']} $10 $11', '$T::{symbols:"a"} $10'),
    ("Any other element there adds a slot of unknown text.", '$T::{symbols:[null.string,5,b,"c"]} $10 $11 $12 $13',
     "$T::{symbols:[5]} $11"),
    ("Imports come before symbols, whichever field is first.",
     '$T::{symbols:["a"],imports:[{name:"x",max_id:2}]} $10 $12',
     '$T::{symbols:["a"],imports:[{name:"x",max_id:2}]} $13'),
    ("Imports come in their order.", '$T::{imports:[{name:"y",max_id:1},{name:"x",max_id:1}]} $10 $11',
     '$T::{imports:[{name:"y",max_id:0}]} $10'),
    ("Other fields mean nothing.", '$T::{name:[1],symbols:["a"],b:{imports:1}} $10', '$T::{Symbols:["a"]} $10'),
    ("Nor do these fields with other types.", '$T::{imports:a,symbols:["a"]} $10', '$T::{symbols:("a")} $10'),
    ("Nor do elements of imports that are no structs.", '$T::{imports:[5,[{name:"x"}],null.struct],symbols:["a"]} $10',
     '$T::{imports:[5,"x"]} $10'),
    ("Nor do annotations inside.", '$T::{imports:a::[b::{name:c::"y",max_id:d::1}],symbols:e::[f::"a"]} $10 $11',
     "$T::{symbols:$10::[]}"),
    ("An id above the table is refused, in a declaration too.", '$T::{symbols:["a"]} $10::$10', "$T::{b:[$10]}",
     "$T::{$10:1}"),
    ("A user's slot of unknown text is $0.", "$T::{symbols:[null]} $10 {$10:$10::1}", "$T::{symbols:[null]} $10 $11"),
    ("A shared symbol table in a stream is a user value.", '$9::{name:"z",version:1,symbols:["a"]}',
     '$9::{name:"z",version:1} $T::{imports:[{name:"z"}]}'),
    ("A declaration may not have imports or symbols twice.", "$T::{imports:5,symbols:5,name:1,name:2}",
     "$T::{symbols:1,symbols:2}", "$T::{imports:[],imports:5}"),
]

IMPORTS = [
    ("An import with no name that is a string, or an empty one, or $ion, is ignored.",
     '$T::{imports:[{},{name:x,max_id:9},{name:null.string},{name:""},{name:"$ion"}],symbols:["a"]} $10',
     "$T::{imports:[{name:x,max_id:1}]} $10"),
    ("A version that is missing, null, no int or below 1 is 1.",
     '$T::{imports:[{name:"x"},{name:"x",version:null},{name:"x",version:-2},{name:"x",version:a}]} $10 $12 $14 $17',
     '$T::{imports:[{name:"x",version:0}]} $12'),
    ("Where max_id is missing, null, no int or negative, the table of that version comes whole.",
     '$T::{imports:[{name:"x",version:3},{name:"x",max_id:null.int},{name:"y",max_id:-1}]} $10 $14 $15',
     '$T::{imports:[{name:"x",version:3}]} $12'),
    ("It is in the catalogue then.", '$T::{imports:[{name:"y",version:1}]} $10', '$T::{imports:[{name:"x",version:2}]}',
     '$T::{imports:[{name:"z"}]}'),
    ("With max_id the greatest version stands in for one that is missing.",
     '$T::{imports:[{name:"x",version:2,max_id:2}]} $10 $11', '$T::{imports:[{name:"x",version:1,max_id:3}]} $12'),
    ("The table is cut to max_id.", '$T::{imports:[{name:"x",max_id:1}],symbols:["a"]} $10 $11',
     '$T::{imports:[{name:"x",max_id:1}]} $11'),
    ("Or it is filled with slots without text.", '$T::{imports:[{name:"y",max_id:3}],symbols:["a"]} $10 $13',
     '$T::{imports:[{name:"y",max_id:3}]} $12'),
    ("Without any version, all slots are without text.", '$T::{imports:[{name:"z",max_id:3}],symbols:["a"]} $13',
     '$T::{imports:[{name:"z",max_id:3}]} $10'),
    ("A user value may not use such a slot, and a declaration may.",
     '$T::{imports:[{name:"z",max_id:1}]} $T::{$10:$10::[$10],symbols:["a"]} $10',
     '$T::{imports:[{name:"z",max_id:1}]} {$10:1}', '$T::{imports:[{name:"z",max_id:1}]} $10::a'),
    ("An import may not have a name, version or max_id twice.", '$T::{imports:[{name:"x",a:1,a:2}]} $10',
     "$T::{imports:[{name:1,name:2}]}", "$T::{imports:[{version:1,version:a}]}", "$T::{imports:[{max_id:1,max_id:1}]}"),
    ("All ids together are at most 2147483647.", '$T::{imports:[{name:"z",max_id:2147483638}]}',
     '$T::{imports:[{name:"z",max_id:2147483639}]}', '$T::{imports:[{name:"z",max_id:2147483638}],symbols:[5]}'),
]

BINARY = [
    ("In binary too the system's symbols have the ids 1 to 9.", stream() + ids(1, 2, 3, 4, 5, 6, 7, 8, 9),
     stream() + ids(10)),
    ("In binary too $0 has unknown text.", stream(Id(0), {0: under([0], 1)}), stream([Id(0), Id(10)])),
    ("A declaration in binary is a struct at top level.", stream(table(symbols=["a"])) + ids(10),
     stream([table(symbols=["a"])]) + ids(10), stream(under([3], ["a"])) + ids(10)),
    ("A declaration in binary is no null.", stream(table(symbols=["a"]), under([3], b"\xDF")) + ids(10),
     stream(under([3], b"\xDF")) + ids(10)),
    ("Its first annotation is $3, or another id of that text.",
     stream(table(symbols=["$ion_symbol_table"]), under([10, 4], {"symbols": ["a"]})) + ids(10),
     stream(under([4, 3], {"symbols": ["a"]})) + ids(10)),
    ("Its ids in binary are read by the table before it.",
     stream(table(symbols=["symbols"]), under([3], {10: ["a"]})) + ids(10),
     stream(under([3], {"symbols": ["a"], "name": Id(10)}))),
    ("Imports in binary are a list of structs.", stream(table(imports=[{"name": "x", "max_id": 2}])) + ids(10, 11),
     stream(table(imports={"name": "x"})) + ids(10)),
    ("Or they are $3, and the present table is kept.",
     stream(table(symbols=["a"]), table(imports=Id(3), symbols=["b"])) + ids(10, 11),
     stream(table(symbols=["a"]), table(symbols=["b"])) + ids(11)),
    ("A string in the list of symbols adds its text in binary too.", stream(table(symbols=["a", "bc"])) + ids(10, 11),
     stream(table(symbols="a")) + ids(10)),
    ("Any other element in it adds a slot of unknown text in binary too.",
     stream(table(symbols=[b"\x8F", 5, Id(4), "c"])) + ids(10, 11, 12, 13), stream(table(symbols=[5])) + ids(11)),
    ("Imports come before symbols in binary too.",
     stream(table(symbols=["a"], imports=[{"name": "x", "max_id": 2}])) + ids(10, 12),
     stream(table(symbols=["a"], imports=[{"name": "x", "max_id": 2}])) + ids(13)),
    ("Other fields and types mean nothing in binary too.",
     stream(table(name=[1], imports=Id(4), symbols=["a"])) + ids(10), stream(table(symbols=under([4], 5))) + ids(10)),
    ("Annotations inside mean nothing in binary too.", stream(table(symbols=under([4], [under([5], "a")]))) + ids(10),
     stream(table(symbols=under([10], []))) + ids(10)),
    ("Imports without a name are ignored in binary too.",
     stream(table(imports=[{}, {"name": None}, {"name": ""}, {"name": "$ion"}], symbols=["a"])) + ids(10),
     stream(table(imports=[{"name": Id(4), "max_id": 1}])) + ids(10)),
    ("A version in binary that is no int above 0 is 1.", stream(table(imports=[{"name": "x", "version": -1}])) + ids(11),
     stream(table(imports=[{"name": "x", "version": 0}])) + ids(12)),
    ("A table without max_id comes whole, and is there, in binary too.",
     stream(table(imports=[{"name": "x", "version": 3}])) + ids(11),
     stream(table(imports=[{"name": "x", "version": 2}]))),
    ("The greatest version stands in for one that is missing in binary too.",
     stream(table(imports=[{"name": "x", "version": 2, "max_id": 2}])) + ids(10, 11),
     stream(table(imports=[{"name": "z", "version": 2, "max_id": 2}])) + ids(10)),
    ("A table in binary is cut or filled to max_id.",
     stream(table(imports=[{"name": "x", "max_id": 1}, {"name": "y", "max_id": 2}], symbols=["a"])) + ids(10, 11, 13),
     stream(table(imports=[{"name": "y", "max_id": 2}])) + ids(11)),
    ("A declaration in binary may use a slot without text.",
     stream(table(imports=[{"name": "z", "max_id": 1}]), under([3], {10: Id(10), "symbols": ["a"]})) + ids(10),
     stream(table(imports=[{"name": "z", "max_id": 1}]), {10: 1})),
    ("No field that means something is doubled in binary.", stream(under([3], (("name", 1), ("name", 2)))),
     stream(under([3], (("symbols", 1), ("symbols", 2)))), stream(under([3], (("imports", []), ("imports", 5)))),
     stream(table(imports=[(("max_id", 1), ("max_id", 1))]))),
    ("All ids together are at most 2147483647 in binary too.",
     stream(table(imports=[{"name": "z", "max_id": 2147483638}])),
     stream(table(imports=[{"name": "z", "max_id": 2147483639}]))),
    ("A user's slot of unknown text is $0 in binary too.", stream(table(symbols=[5])) + ids(10),
     stream(table(symbols=[5])) + ids(10, 11)),
    ("A shared symbol table in a binary stream is a user value.", stream(under([9], {"name": "z", "symbols": ["a"]})),
     stream(under([9], {"name": "z"}), table(imports=[{"name": "z"}]))),
]


def spelled(rows):
    """Rows with the name of a declaration spelled out."""
    return [(row[0], *(one.replace("$T", "$ion_symbol_table") for one in row[1:])) for row in rows]


TABLES = [
    ("symbols_text", "Of symbols: declarations in text.", "stream", CATALOGUE, spelled(TEXT)),
    ("symbols_imports", "Of symbols: imports in text.", "stream", CATALOGUE, spelled(IMPORTS)),
    ("symbols_binary", "Of symbols: declarations and imports in binary.", "stream", CATALOGUE, BINARY),
]
