//! Copies of the source, each with a few small changes: wrong ones, which must be turned down, and right ones, which must pass. They are read, not
//! compiled.

use super::reach::Why::{self, Array, ConstantOfBytes, NotFollowed};
use std::collections::BTreeMap;

/// A file, and a text that stands there once.
type Place = (&'static str, &'static str);

pub enum Change {
    /// In the place of the text.
    Put(Place, &'static str),
    /// Before the text.
    Add(Place, &'static str),
    /// A file that was not there.
    Make(&'static str, &'static str),
}

use Change::{Add, Make, Put};

pub struct Copy {
    pub name: &'static str,
    pub changes: &'static [Change],
    /// Why a wrong copy is turned down, and in which item.
    pub found: Option<(Why, &'static str)>,
}

/// The sources with a copy's changes; none where a text does not stand there just once.
pub fn changed(texts: &BTreeMap<String, String>, copy: &Copy) -> Option<BTreeMap<String, String>> {
    let mut texts = texts.clone();
    for change in copy.changes {
        let ((file, old), new) = match change {
            Put(place, new) => (*place, new.to_string()),
            Add(place, new) => (*place, format!("{new}\n{}", place.1)),
            Make(file, text) => {
                texts.insert(file.to_string(), text.to_string()).is_none().then_some(())?;
                continue;
            }
        };
        let text = texts.get_mut(file).filter(|t| t.matches(old).count() == 1)?;
        *text = text.replacen(old, &new, 1);
    }
    Some(texts)
}

const fn wrong(name: &'static str, why: Why, item: &'static str, changes: &'static [Change]) -> Copy {
    Copy { name, changes, found: Some((why, item)) }
}

const fn right(name: &'static str, changes: &'static [Change]) -> Copy {
    Copy { name, changes, found: None }
}

const IMAGE: &str = "crates/image/src/lib.rt";
const FIELDS: &str = "crates/imagefields/src/lib.rt";
const RULES: &str = "crates/rules/src/lib.rt";

/// A file that is not there.
const ROWS: &str = "crates/imagefields/src/rows.rt";

// ---- what is changed

/// The byte that is stored.
const BYTE: Place = (FIELDS, "(rest % 256) as u8;");
/// The parameter of a field's value.
const VALUE: Place = (FIELDS, "value: u32)");
/// The head of the function that writes the image, and its first call.
const WHOLE: Place = (IMAGE, "fn put_image(out: &mut [u8], b: Board)");
const STATUS: Place = (IMAGE, "put_field(out, 0, 1, b.status as u32)");
/// Where another item goes, in `imagefields`, in `image` and in `rules`.
const HERE: Place = (FIELDS, "// One field at a place,");
const ABOVE: Place = (IMAGE, "// The image at the front of a buffer that has room");
const THERE: Place = (RULES, "// A report. Its nine bits");
const USES: Place = (FIELDS, "use rules::Board;");
const COUNTERS: Place = (RULES, "    pub counters: [u32; 9],");
const BUFFERS: Place = ("crates/buffers/src/lib.rt", "// What is written into lent buffers");

/// Two functions whose contracts have brackets that are none: in comments, in quotes, in names, and in a clause that has a name.
const COMMENTS: &str = "fn low(n: u32) -> u8\n    ensures { ⌜ n ⌝ -- {\n    }\n{ [n as u8][0] }\nfn beside()\n    ensures { ⌜ n ⌝ -- }\n    }\n{ }";
const QUOTES: &str = "fn low(n: u32) -> u8\n    ensures { ⌜ \"{\" ⌝ }\n{ [n as u8][0] }\nfn beside()\n    ensures { ⌜ \"}\" ⌝ }\n{ }";
const NAMES: &str = "fn low(n: u32) -> u8\n    ensures { λ «{». ⌜ n ⌝ }\n{ [n as u8][0] }\nfn beside()\n    ensures { λ «}». ⌜ n ⌝ }\n{ }";
const NAMED: &str = "fn low(n: u32) -> u8\n    ensures right { ⌜ n ⌝ -- /*\n    }\n{ [n as u8][0] }\nfn beside() {\n    // */\n}";
/// A function with a ghost value and a clause that has a name.
const GHOST: &str = "fn beside(n: u32) -> u32\n    ghost { ℕ }\n    requires { λ g. ⌜ n ≡ g ⌝ }\n    ensures same { λ g r. ⌜ r ≡ g ⌝ }\n{ n }";
/// A crate of the kit below `imagefields`.
const KIT: Change = Put(("crates.txt", "imagefields: rules"), "imagefields: io libc rules");
/// A function, and a method of the record, that make an array.
const LOW: &str = "pub fn low(n: u32) -> u8 { [n as u8][0] }";
const BOARD_FRONT: &str = "impl Board { pub fn front(self) -> u8 { let bytes = [self.status]; bytes[0] } }";

// ---- the copies

pub const WRONG: &[Copy] = &[
    // in the code
    wrong("bytes gathered first", Array, "image::put_image", &[Put(STATUS, "0;\n    let bytes = [0; 49]")]),
    wrong("one byte", Array, "imagefields::put_field", &[Put(BYTE, "[(rest % 256) as u8][0];")]),
    wrong("two bytes lent on the spot", Array, "image::put_image", &[Put(STATUS, "put_field(&mut [0, 0], 0, 1, 0)")]),
    wrong("one lent on the spot, by a name", Array, "image::put_image", &[Put(STATUS, "put_field(&mut [IMAGE_LENGTH], 0, 1, 0)")]),
    wrong("a length by name", Array, "image::put_image", &[Put(STATUS, "0;\n    let bytes = [0; IMAGE_LENGTH]")]),
    wrong("a constant inside a function", Array, "imagefields::put_field", &[Put(BYTE, "0;\n        const BYTES: [u8; 1] = [0];")]),
    wrong("a parameter", Array, "imagefields::put_field", &[Put(VALUE, "value: [u8; 4])")]),
    wrong("a parameter in a pair", Array, "imagefields::put_field", &[Put(VALUE, "value: (u32, [u8; 1]))")]),
    wrong("over several lines", Array, "imagefields::put_field", &[Put(VALUE, "value: [\n    u8 /* four */\n    ; 4])")]),
    wrong("arrays of arrays", Array, "imagefields::put_field", &[Put(VALUE, "value: [[u8; 2]; 2])")]),
    wrong("bits", Array, "imagefields::put_field", &[Put(VALUE, "value: [bool; 32])")]),
    wrong("other numbers", Array, "imagefields::put_field", &[Put(VALUE, "value: [u32; 9])")]),
    wrong("a parameter by reference", Array, "image::put_image", &[Put(WHOLE, "fn put_image(out: &mut [u8; 49], b: Board)")]),
    wrong("a result", Array, "imagefields::twos_complement", &[Put((FIELDS, "(v: i16) -> u16"), "(v: i16) -> [u8; 2]")]),
    wrong("the counters as a value", Array, "image::put_image", &[Put(STATUS, "0;\n    let numbers = b.counters")]),
    wrong("the counters by a pattern", Array, "image::put_image", &[Put(STATUS, "0;\n    let Board { counters, .. } = b")]),
    wrong(
        "in the C face",
        Array,
        "calls::save_number",
        &[Put(("crates/calls/src/lib.rt", "image::save(b, out)"), "image::save(b, &mut [0; 49])")],
    ),
    wrong("in a refusal's number", Array, "rules::refusal_number", &[Put((RULES, "cause as u8"), "let numbers = [1, 2]; cause as u8")]),
    wrong("a local with a type's name", Array, "image::put_image", &[Put(STATUS, "0;\n    let u8 = b.status;\n    put_field(&mut [u8], 0, 1, 0)")]),
    wrong("a local with an alias's name", Array, "image::put_image", &[Add(ABOVE, "type low = u8;"), Put(STATUS, "put_field(&mut [low], 0, 1, 0)")]),
    wrong("behind quotes", Array, "imagefields::put_field", &[Put(BYTE, "b'\\\\' + b'\"' + b'\\'' + [0u8][0] + b'\"';")]),
    wrong("behind a range", Array, "imagefields::put_field", &[Put(BYTE, "0; for i in 0..=[1usize, 2][1] {}")]),
    wrong("an attribute in a function", NotFollowed, "image::put_image", &[Put(STATUS, "0;\n    #[cold] { at = 0; }")]),
    wrong("a counter that is written", Array, "image::put_image", &[Put(STATUS, "0;\n    let mut row = b;\n    row.counters[0] = 1")]),
    wrong("a counter that is lent", Array, "image::put_image", &[Put(STATUS, "0;\n    let mut row = b;\n    low(&mut row.counters[0])")]),
    wrong("a part of the counters", Array, "image::put_image", &[Put(STATUS, "low(b.counters[0..4])")]),
    // in a struct, a variant, the record
    wrong("in a struct", Array, "imagefields::Line", &[Add(HERE, "struct Line { bytes: [u8; 49] }"), Put(VALUE, "value: Line)")]),
    wrong("in a local's struct", Array, "imagefields::Line", &[Add(HERE, "struct Line { bytes: [u8; 1] }"), Put(BYTE, "0;\n let line = Line { bytes };")]),
    wrong(
        "in a struct of a struct of another crate",
        Array,
        "rules::Bytes",
        &[Add(THERE, "pub struct Bytes { all: [u8; 2] } pub struct Row { n: u32, bytes: Bytes }"), Put(VALUE, "value: rules::Row)")],
    ),
    wrong(
        "in a struct, behind a comma",
        Array,
        "imagefields::Bytes",
        &[Add(HERE, "struct Bytes([u8; 4]); struct Row(u32, Bytes);"), Put(VALUE, "value: Row)")],
    ),
    wrong(
        "in a variant, behind a comma",
        Array,
        "rules::Bytes",
        &[
            Add(THERE, "pub struct Bytes { all: [u8; 2] }"),
            Put((RULES, "    Buffer = 9,"), "    Buffer = 9, Partly(u32, Bytes),"),
        ],
    ),
    wrong("behind a `pub` of a crate", Array, "imagefields::Line", &[Add(HERE, "struct Line(pub(crate) [u8; 49]);"), Put(VALUE, "value: Line)")]),
    wrong("behind an attribute", Array, "imagefields::Line", &[Add(HERE, "enum Line { Short, Long(#[doc] [u8; 4]) }"), Put(VALUE, "value: Line)")]),
    wrong(
        "a part that is lent of an array",
        Array,
        "imagefields::Line",
        &[Add(HERE, "struct Line<'a> { bytes: &'a [[u8; 2]] }"), Put(VALUE, "value: Line)")],
    ),
    wrong("a part that is not lent", Array, "imagefields::put_field", &[Put(VALUE, "value: [u8])")]),
    wrong("counters that are not the record's", Array, "imagefields::Line", &[Add(HERE, "struct Line { counters: [u32; 9] }"), Put(VALUE, "value: Line)")]),
    wrong(
        "in a type that is named for its method",
        Array,
        "imagefields::Line",
        &[Add(HERE, "struct Line { bytes: [u8; 4] } impl Line { fn low(n: u32) -> u8 { 0 } }"), Put(BYTE, "Line::low(rest);")],
    ),
    wrong(
        "in a variant that a use brings",
        Array,
        "rules::Line",
        &[Add(THERE, "pub enum Line { Limit, Full([u8; 49]) }"), Add(USES, "use rules::Line::Limit as none;"), Put(BYTE, "0; let line = none;")],
    ),
    wrong(
        "in a type of its own, by `Self`",
        Array,
        "imagefields::Line",
        &[
            Add(HERE, "struct Line { bytes: [u8; 2] } struct Row<'a> { src: &'a [u8] } impl<'a> Row<'a> { fn low(self) -> u8 { Self::of() } }"),
            Add(HERE, "impl rules::Row { fn of() -> u8 { let line = Line { bytes }; 0 } }"),
            Put(BYTE, "rest.low();"),
        ],
    ),
    wrong("the record's numbers as bytes, by a name", Array, "rules::Board", &[Add(THERE, "type u32 = u8;")]),
    wrong("in the record", Array, "rules::Board", &[Add(COUNTERS, "    pub spare: [u8; 3],")]),
    wrong("the record's counters as bytes", Array, "rules::Board", &[Put(COUNTERS, "    pub counters: [u8; 36],")]),
    // by a name
    wrong("a type's other name", Array, "image::Line", &[Add(ABOVE, "type Line = [u8; 49];"), Put(WHOLE, "fn put_image(out: &mut Line, b: Board)")]),
    wrong(
        "a name of a name, of another crate",
        Array,
        "rules::Bytes",
        &[
            Add(THERE, "pub type Bytes = [u8; 4];"),
            Add(USES, "use rules::Bytes as Line;"),
            Add(HERE, "type Page = Line;"),
            Put(VALUE, "value: Page)"),
        ],
    ),
    wrong(
        "a name that a crate hands on",
        Array,
        "rules::Bytes",
        &[Add(THERE, "pub type Bytes = [u8; 4];"), Add(BUFFERS, "pub use rules::Bytes;"), Put(VALUE, "value: buffers::Bytes)")],
    ),
    wrong("a constant", Array, "imagefields::BYTES", &[Add(HERE, "const BYTES: [u8; 4] = [0; 4];"), Put(BYTE, "BYTES[left];")]),
    wrong(
        "a constant that a constant names",
        Array,
        "rules::BYTES",
        &[Add(THERE, "pub const BYTES: [u8; 4] = [0; 4];"), Add(HERE, "const LOW: u8 = rules::BYTES[0];"), Put(BYTE, "LOW;")],
    ),
    wrong(
        "a constant by one of two uses",
        Array,
        "buffers::table",
        &[
            Add(BUFFERS, "pub type word = u32; pub const table: [u8; 4] = [4; 4];"),
            Add(USES, "use buffers::word as table; use buffers::table;"),
            Add(HERE, "const FOUR: u8 = table[0];"),
            Put(BYTE, "FOUR;"),
        ],
    ),
    wrong(
        "a constant of a type",
        Array,
        "rules::Board::BYTES",
        &[Add(THERE, "impl Board { pub const BYTES: [u8; 2] = [0; 2]; }"), Put(BYTE, "Board::BYTES[0];")],
    ),
    wrong(
        "a constant of its own type",
        Array,
        "rules::Board::BYTES",
        &[
            Add(THERE, "impl Board { pub const BYTES: [u8; 2] = [0; 2]; pub fn low(self) -> u8 { Self::BYTES[0] } }"),
            Put(STATUS, "put_field(out, 0, 1, b.low() as u32)"),
        ],
    ),
    wrong(
        "behind a ghost use",
        Array,
        "imagefields::rows::table",
        &[
            Add(HERE, "mod rows;"),
            Add(USES, "use crate::rows::table;"),
            Make(ROWS, "ghost use mathlib.Core.Path.{_//_};\npub const table: [u8; 4] = [0; 4];"),
            Put(BYTE, "table[left];"),
        ],
    ),
    wrong("a text as a constant", ConstantOfBytes, "imagefields::BYTES", &[Add(HERE, "const BYTES: &[u8] = b\"[]\";"), Put(BYTE, "BYTES[left];")]),
    wrong("a text in the code", ConstantOfBytes, "imagefields::put_field", &[Put(BYTE, "b\"0\\\"1\"[left];")]),
    wrong(
        "behind a raw text",
        Array,
        "imagefields::low",
        &[Add(HERE, "fn beside() -> usize { r\"\\\".len() } fn low(n: u32) -> u8 { [0][0] } const T: &str = \"\";"), Put(BYTE, "low(rest);")],
    ),
    wrong("a raw text in the code", ConstantOfBytes, "imagefields::put_field", &[Put(BYTE, "br#\"\"01\"\"#[left];")]),
    // by a call
    wrong("a function that makes them", Array, "imagefields::four", &[Add(HERE, "fn four(n: u32) -> [u8; 4] { [0; 4] }"), Put(BYTE, "four(rest)[left];")]),
    wrong(
        "two calls away, in another crate",
        Array,
        "rules::made",
        &[
            Add(THERE, "pub fn first(n: u32) -> u8 { made(n)[0] } fn made(n: u32) -> [u8; 2] { [0, n as u8] }"),
            Add(USES, "use rules::{first as low, Settings};"),
            Put(BYTE, "low(rest);"),
        ],
    ),
    wrong(
        "in a module below",
        Array,
        "imagefields::rows::low",
        &[Add(HERE, "mod rows;"), Make(ROWS, "pub fn low(n: u32) -> u8 { [n as u8][0] }"), Put(BYTE, "rows::low(rest);")],
    ),
    wrong(
        "in a module of the file",
        Array,
        "imagefields::rows::low",
        &[Add(HERE, "mod rows { pub fn low(n: u32) -> u8 { [0][0] } }"), Put(BYTE, "self::rows::low(rest);")],
    ),
    wrong("a method of the record", Array, "rules::Board::front", &[Add(THERE, BOARD_FRONT), Put(STATUS, "put_field(out, 0, 1, b.front())")]),
    wrong("a method by its type", Array, "rules::Board::front", &[Add(THERE, BOARD_FRONT), Put(STATUS, "put_field(out, 0, 1, Board::front(b))")]),
    wrong(
        "with a crate's name beside it",
        Array,
        "buffers::low",
        &[Add(BUFFERS, LOW), Add(HERE, "const buffers: u32 = 1;"), Put(BYTE, "buffers::low(rest);")],
    ),
    wrong(
        "a module's, by a use",
        Array,
        "rules::deep::low",
        &[Add(THERE, "pub mod deep { pub fn low(n: u32) -> u8 { [0][0] } }"), Add(USES, "use rules::deep;"), Put(BYTE, "deep::low(rest);")],
    ),
    wrong("a crate's other name", Array, "rules::low", &[Add(THERE, LOW), Add(USES, "use rules::{self as r};"), Put(BYTE, "r::low(rest);")]),
    wrong("a use in a function", NotFollowed, "imagefields::put_field", &[Add(BUFFERS, LOW), Put(BYTE, "{ use buffers::low; low(rest) };")]),
    wrong(
        "behind a bare `::`",
        NotFollowed,
        "imagefields::put_field",
        &[Add(BUFFERS, "pub fn low(n: u32) -> u8 { 0 }"), Put(BYTE, "::buffers::low(rest);")],
    ),
    wrong(
        "behind a type in brackets",
        NotFollowed,
        "image::put_image",
        &[Add(THERE, BOARD_FRONT), Put(STATUS, "put_field(out, 0, 1, <Board>::front(b))")],
    ),
    // what is not in the source
    wrong("a method of the language", NotFollowed, "imagefields::put_field", &[Put(BYTE, "rest.to_be_bytes()[left];")]),
    wrong("another library's function", NotFollowed, "imagefields::put_field", &[Add(USES, "use bytes::low;"), Put(BYTE, "low(rest);")]),
    wrong("another library's, by its path", NotFollowed, "imagefields::put_field", &[Put(BYTE, "bytes::low(rest);")]),
    wrong("another library's constant", NotFollowed, "imagefields", &[Add(USES, "use bytes::table;"), Put(BYTE, "table[left];")]),
    wrong("another library's, as a type's name", NotFollowed, "imagefields::put_field", &[Add(USES, "use bytes::low as u8;"), Put(BYTE, "u8(rest);")]),
    wrong("another library's constant, by its path", NotFollowed, "imagefields::put_field", &[Put(BYTE, "bytes::table[left];")]),
    wrong(
        "a module of another crate, without a use",
        NotFollowed,
        "imagefields::put_field",
        &[Add(THERE, "pub mod deep { pub fn low(n: u32) -> u8 { 0 } }"), Put(BYTE, "deep::low(rest);")],
    ),
    wrong("another library's type", NotFollowed, "imagefields::put_field", &[Put(VALUE, "value: Bytes)")]),
    wrong("a macro", NotFollowed, "imagefields::put_field", &[Put(BYTE, "low!(rest);")]),
    wrong("a crate without source", NotFollowed, "io", &[KIT, Put(BYTE, "io::buffer()[left];")]),
    wrong(
        "a name that a module hands on from outside",
        NotFollowed,
        "imagefields::rows",
        &[Add(HERE, "mod rows { pub use std::bytes as put_field; }"), Put(BYTE, "rows::put_field()[left];")],
    ),
    wrong("every name of a crate", NotFollowed, "imagefields", &[Add(USES, "use rules::*;")]),
    wrong("what cannot be read", NotFollowed, "imagefields", &[Add(HERE, "trait Low {}")]),
    wrong("a comment in a contract", NotFollowed, "imagefields", &[Add(HERE, COMMENTS), Put(BYTE, "low(rest);")]),
    wrong("a quote in a contract", NotFollowed, "imagefields", &[Add(HERE, QUOTES), Put(BYTE, "low(rest);")]),
    wrong("a name in a contract that is a bracket", NotFollowed, "imagefields", &[Add(HERE, NAMES), Put(BYTE, "low(rest);")]),
    wrong("a comment in a contract with a name", NotFollowed, "imagefields", &[Add(HERE, NAMED), Put(BYTE, "low(rest);")]),
    wrong(
        "a comment in a ghost use",
        NotFollowed,
        "imagefields",
        &[Add(HERE, "ghost use mathlib.Core.Logic.{⊤ -- ; /*\n};\nconst low: [u8; 4] = [0; 4];\n// */"), Put(BYTE, "low[left];")],
    ),
    wrong(
        "a word of the logic elsewhere",
        NotFollowed,
        "imagefields",
        &[
            Add(BUFFERS, "pub fn low(n: u32) -> u8 { 0 }"),
            Add(HERE, "struct Row { ghost: u32 } fn low(n: u32) -> u8 { [0][0] }"),
            Put(BYTE, "low(rest);"),
        ],
    ),
    wrong("a contract in a function", NotFollowed, "imagefields::put_field", &[Put(BYTE, "0; if ensures { let bytes = [0; 4]; }")]),
];

pub const RIGHT: &[Copy] = &[
    right("the same", &[]),
    right("arrays in comments", &[Put(BYTE, "(rest % 256) as u8; // [0; 4] /*\n        /* [u8; 4] /* b\"0\" */ [1, 2] */")]),
    right("a ghost value, and a clause with a name", &[Add(HERE, GHOST), Put(BYTE, "beside(rest) as u8;")]),
    right("a prime in a contract", &[Put((FIELDS, "result ≡ at + 36"), "result' ≡ at + 36")]),
    right("brackets in a contract", &[Put((FIELDS, "result ≡ at + 36"), "result ≡ [u8; 4] { [0, 1] }")]),
    right("a function that saving does not call", &[Add(HERE, "fn beside() -> [u8; 4] { [0; 4] }")]),
    right("what saving does not name", &[Add(HERE, "struct Line { bytes: [u8; 49] } const BYTES: [u8; 2] = [0; 2];")]),
    right("bytes in the report", &[Put((RULES, "pub bits: u16,"), "pub bits: [u8; 2],")]),
    right(
        "a part of what is lent",
        &[Add(HERE, "fn low<'a>(bytes: &'a [u8], limits: &[rules::Limit]) -> u8 { bytes[0] }"), Put(BYTE, "low(&out[0..4]);")],
    ),
    right("a struct that holds a part of what is lent", &[Add(HERE, "struct Row<'a> { bytes: &'a [u8], at: usize }"), Put(VALUE, "value: Row)")]),
    right("single bytes", &[Put(BYTE, "b'[' + b'\\'' + '\"' as u8;")]),
    right(
        "a function of a module below",
        &[Add(HERE, "mod rows;"), Make(ROWS, "pub fn low(n: u32) -> u8 { (n % 256) as u8 }"), Put(BYTE, "crate::rows::low(rest);")],
    ),
    right(
        "a part by an alias, and one that a function gives",
        &[Add(HERE, "type Byte = u8; fn part(bytes: &[Byte]) -> &[u8] { bytes }"), Put(BYTE, "part(out)[0];")],
    ),
    right(
        "a field with a function's name",
        &[Add(HERE, "fn four() -> [u8; 4] { [0; 4] } struct Row { #[doc] four: u32 }"), Put(VALUE, "value: Row)")],
    ),
    right(
        "a module's function, by a use",
        &[Add(THERE, "pub mod deep { pub fn low(n: u32) -> u8 { 0 } }"), Add(USES, "use rules::deep;"), Put(BYTE, "deep::low(rest);")],
    ),
    right("numbers of the language", &[Put(BYTE, "(rest % u32::MAX) as u8;")]),
    right(
        "paths",
        &[
            Add(THERE, "pub fn made(n: u32) -> u8 { 0 }"),
            Add(USES, "use rules::{self as r, Limit};"),
            Add(HERE, "fn low(n: u32) -> u8 { r::made(n) } mod rows { pub mod more { pub fn low(n: u32) -> u8 { super::super::low(n) } } }"),
            Put(BYTE, "rows::more::low(rest);"),
        ],
    ),
    right(
        "methods",
        &[
            Add(THERE, "impl Board { pub fn first(self) -> u8 { Self::of(self) } pub fn of(b: Self) -> u8 { b.status } }"),
            Put(STATUS, "b.first() as usize"),
        ],
    ),
    right("attributes", &[Add(HERE, "#[inline(never)]\nfn low(n: u32) -> u8 { (n % 256) as u8 }"), Put(BYTE, "low(rest);")]),
];
