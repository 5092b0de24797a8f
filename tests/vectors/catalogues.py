"""Sentences of catalogues: each with ones that are accepted, and that are refused. See make.py."""

# What is run with each catalogue: it imports two symbols of version 1 of x.
STREAM = '$ion_symbol_table::{imports:[{name:"x",version:1,max_id:2}]} $10 $11'
X = '$9::{name:"x",symbols:["p","q"]}'

ENTRIES = [
    ("A catalogue has shared symbol tables at top level.", X, "5", f"[{X}]", f"{X} 5"),
    ("They are structs, and no nulls.", f"$ion_1_0 {X} $ion_1_0", "$9::null.struct", "$9::[]"),
    ("Their first annotation has the text $ion_shared_symbol_table.",
     '$ion_shared_symbol_table::a::{name:"x",symbols:["p","q"]}', 'a::$9::{name:"x"}', '{name:"x"}'),
    ("Their name is a string, not empty, and not $ion.", "$9::{symbols:[\"p\",\"q\"],name:'''x'''}", "$9::{name:x}",
     '$9::{name:""}', '$9::{name:"$ion"}', "$9::{name:null.string}"),
    ("A table has a name.", f'{X} $9::{{name:"y"}}', "$9::{}", '$9::{symbols:["p"]}'),
    ("Their version is at most 2147483647, and 1 where it is missing, null, no int or below 1.", '$9::{name:"x",version:-1,symbols:["p","q"]}',
     '$9::{name:"x",version:2147483648}'),
    ("Their symbols are a list, with slots of unknown text too; missing or of another type, there are none.",
     f'$9::{{name:"z",symbols:5}} {X} $9::{{name:"y",symbols:[5,null]}}', '$9::{name:"x",symbols:("p" "q")}',
     '$9::{name:"x",symbols:["p",5]}'),
    ("They have no imports.", '$9::{name:"x",a:[{imports:1}],symbols:["p","q"]}', '$9::{name:"x",imports:null}',
     '$9::{imports:[],symbols:["'),
    ("None of these fields is doubled.", '$9::{name:"x",a:1,a:2,symbols:["p","q"]}', '$9::{name:"x",name:"x"}',
     "$9::{version:1,version:a}", "$9::{symbols:[],symbols:5}"),
    ("No name and version come twice.", f'{X} $9::{{name:"x",version:2}}', f"{X} {X}",
     '$9::{name:"x"} $9::{version:0,name:"x"}'),
    ("A fault is found at the value's first byte, and before what follows the field is read.", f"/**/ {X}",
     ' $9::{name:5,"', "$9::{version:1 5}"),
    ("A catalogue may have declarations.", '$ion_symbol_table::{symbols:["name"]} $9::{$10:"x",symbols:["p","q"]}',
     '$ion_symbol_table::{imports:[{name:"x"}]}'),
    ("A catalogue may be binary.", "M EE 8C 81 89 D9 84 81 78 87 B4 81 70 81 71", "M 21 05", "M E3 81 89 D0"),
]

TABLES = [
    ("catalogues", "Of catalogues.", "catalogue", STREAM, ENTRIES),
]
