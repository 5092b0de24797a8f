//! Why a stream is refused.
use std::fmt;

macro_rules! reasons {
    ($($name:ident = $number:literal $what:literal),* $(,)?) => {
        /// Why a stream or a catalogue is refused. docs/REFUSALS.md has an example of each.
        #[derive(Clone, Copy, Debug, PartialEq, Eq, Hash)]
        #[non_exhaustive]
        pub enum Reason {
            $(#[doc = $what] $name = $number),*
        }

        impl Reason {
            /// The name, as `ion` prints it.
            pub fn name(self) -> &'static str {
                match self { $(Reason::$name => stringify!($name)),* }
            }

            pub(crate) fn of(number: u32) -> Option<Reason> {
                match number { $($number => Some(Reason::$name),)* _ => None }
            }
        }
    };
}

reasons! {
    Truncated = 1 "The input ends inside a part, or with a container open.",
    BadDescriptor = 2 "A byte that begins no value.",
    BadVar = 3 "A VarUInt or VarInt that is unfinished after nine bytes or its field.",
    Overrun = 4 "A part that goes past the container or annotation wrapper around it.",
    BadVersion = 5 "A version marker of another version than Ion 1.0.",
    BadAnnotation = 6 "An annotation wrapper that is malformed.",
    BadNumber = 7 "A negative int of magnitude zero.",
    BadTimestamp = 8 "A date, time, fraction or offset that does not exist.",
    Range = 9 "A number that Ion has and Cozgelt has not.",
    BadText = 10 "A string or a symbol that is no UTF-8, or has a bad escape.",
    Float = 11 "A float other than `null.float`, without floats or in catalogues.",
    BadToken = 12 "Text that is no token, or one that cannot stand at its place.",
    BadLob = 13 "A malformed blob or clob.",
    DepthLimit = 14 "More containers are open than the limit on depth.",
    ScalarLimit = 15 "A scalar that is longer than its limit.",
    AnnotationLimit = 16 "Annotations of one value that cost more than the limit on scalars.",
    BadSymbol = 17 "A symbol's id that the symbol table has not.",
    UnknownSymbol = 18 "A symbol whose text is unknown.",
    BadTable = 19 "A malformed symbol table, or an import that cannot be found.",
    SymbolLimit = 20 "A symbol table that costs more than its limit.",
    ValueLimit = 21 "A value that is longer than its limit, as binary.",
    SameForm = 22 "Binary is asked for, and the stream is binary.",
    CatalogEntry = 23 "A value of a catalogue that is no shared symbol table, or comes again.",
}

impl fmt::Display for Reason {
    fn fmt(&self, f: &mut fmt::Formatter<'_>) -> fmt::Result {
        f.write_str(self.name())
    }
}
