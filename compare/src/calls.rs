//! Calls of types, in contexts and of sizes that no session has: which there are, random ones, and what both sides answer.

use crate::additions::hex;
use crate::cases::{FLOATS, LEB128, Random, TEXTS, Verdict, lower, removals};
#[cfg(feature = "derive")]
use crate::derived;
use crate::reply::Reply;
use crate::theirs;

/// Which value is read or written, where, by which form of the call, and two numbers that make the context: as in
/// crates/compare_calls/src/call.rt.
#[repr(C)]
#[derive(Clone, Copy)]
pub struct Asked {
    pub kind: u64,
    pub place: usize,
    pub form: u64,
    pub a: u64,
    pub b: u64,
}

type Export = unsafe extern "C" fn(*const Asked, *mut u8, usize, *const u8, usize, *mut u8, usize) -> usize;

include!("exports.rs");

/// What the bytes that make a value are.
#[derive(Clone, Copy, PartialEq)]
enum Given {
    Number,
    Count,
    Any,
}

/// A family of calls: its name, the names of its kinds, the export of the library, and the same by the Rust crate.
struct Family {
    name: &'static str,
    kinds: &'static [&'static str],
    ours: Export,
    theirs: fn(&Asked, &mut [u8], &[u8], &mut Reply),
    given: Given,
}

const NUMBERS: [&str; 12] = ["u8", "u16", "u32", "u64", "u128", "i8", "i16", "i32", "i64", "i128", "f32", "f64"];
/// How many bytes are printed.
const BRIEF: usize = 400;
const STREAMED: [&str; 6] = ["u8", "u32", "i64", "u128", "f32", "f64"];

#[rustfmt::skip]
static FAMILIES: &[Family] = &[
    Family { name: "reads of numbers", kinds: &NUMBERS, ours: rt_read_number, theirs: theirs::read_number, given: Given::Any },
    Family { name: "reads of arrays", ours: rt_read_array, theirs: theirs::read_array, given: Given::Any,
        kinds: &["[u8; 4]", "[i32; 5]", "[u128; 2]", "[f64; 2]", "[[u16; 2]; 2]", "[[[i8; 2]; 3]; 2]", "[[u16; 0]; 3]"] },
    Family { name: "reads of texts", ours: rt_read_text, theirs: theirs::read_text, given: Given::Any,
        kinds: &["&str", "[&str; 3]", "[[&str; 2]; 2]", "&[u8]", "[&[u8]; 3]", "CStr", "[CStr; 2]", "std CStr"] },
    Family { name: "reads of LEB128", ours: rt_read_leb, theirs: theirs::read_leb, given: Given::Any,
        kinds: &["Uleb128", "Sleb128", "[Uleb128; 3]", "[[Sleb128; 2]; 2]"] },
    Family { name: "writes of numbers", kinds: &NUMBERS, ours: rt_write_number, theirs: theirs::write_number, given: Given::Number },
    Family { name: "writes of arrays and references", ours: rt_write_array, theirs: theirs::write_array, given: Given::Number,
        kinds: &["[u8; 4]", "[i32; 5]", "[f32; 3]", "[[u16; 2]; 2]", "[[[i8; 2]; 3]; 2]", "&u16", "&i128", "&f64"] },
    Family { name: "writes of bytes and texts", ours: rt_write_bytes, theirs: theirs::write_bytes, given: Given::Any,
        kinds: &["&[u8]", "[&[u8]; 3]", "&str", "[&str; 2]", "CStr", "std CStr", "Uleb128", "Sleb128"] },
    Family { name: "owned C strings", ours: rt_owned, theirs: theirs::owned, given: Given::Any,
        kinds: &["read CString", "read std CString", "write CString", "write std CString", "CString::new"] },
    Family { name: "bulk reads", ours: rt_bulk, theirs: theirs::bulk, given: Given::Count,
        kinds: &["u8", "u16", "u64", "i32", "i128", "f32", "[u16; 2]", "&str", "Uleb128"] },
    Family { name: "cread", kinds: &NUMBERS, ours: rt_cread, theirs: theirs::cread, given: Given::Any },
    Family { name: "cwrite", kinds: &NUMBERS, ours: rt_cwrite, theirs: theirs::cwrite, given: Given::Number },
    Family { name: "sizes, measures and LEB128 at a cursor", ours: rt_sizes, theirs: theirs::sizes, given: Given::Any,
        kinds: &["size_with(&Endian)", "size_with of arrays", "size_with(&())", "measure_with of bytes", "measure_with of text",
            "Uleb128::read", "Sleb128::read"] },
    Family { name: "reads from streams in pieces", kinds: &STREAMED, ours: rt_ioread, theirs: theirs::ioread, given: Given::Any },
    Family { name: "writes to streams in pieces", kinds: &STREAMED, ours: rt_iowrite, theirs: theirs::iowrite, given: Given::Number },
    #[cfg(feature = "derive")]
    Family { name: "reads of derived structs", kinds: &derived::STRUCTS, ours: rt_read_struct, theirs: derived::read_struct, given: Given::Any },
    #[cfg(feature = "derive")]
    Family { name: "writes of derived structs", kinds: &derived::STRUCTS, ours: rt_write_struct, theirs: derived::write_struct, given: Given::Number },
    #[cfg(feature = "derive")]
    Family { name: "derived structs in bounds and over streams", kinds: &derived::STRUCTS, ours: rt_struct, theirs: derived::other, given: Given::Number },
];

/// One call.
#[derive(Clone)]
pub struct Call {
    family: usize,
    asked: Asked,
    bytes: Vec<u8>,
    given: Vec<u8>,
}

impl Call {
    /// A random call with bytes of at most 2 to the power of `bits`.
    pub fn random(random: &mut Random, bits: u32) -> Call {
        let family = random.below(FAMILIES.len());
        let len = random.size(bits) + if random.chance(50) { random.below(24) } else { 0 };
        let liked: &[usize] = match FAMILIES[family].name {
            "reads of texts" | "bulk reads" | "writes of bytes and texts" | "owned C strings" => &TEXTS,
            "reads of LEB128" | "sizes, measures and LEB128 at a cursor" => &LEB128,
            _ => &FLOATS,
        };
        let mut bytes = random.bytes(len, liked);
        if liked == TEXTS && len > 0 && random.chance(30) {
            bytes[random.below(len)] = 0;
        }
        let wanted = FAMILIES[family].given;
        let given = match wanted {
            Given::Number => (0..3).flat_map(|_| random.number(128).to_le_bytes()).collect(),
            Given::Count => vec![0; random.below(8)],
            Given::Any if random.chance(40) => random.text(len.min(200)).into_bytes(),
            Given::Any => {
                let most = random.below(len.min(500) + 12);
                random.bytes(most, &LEB128)
            }
        };
        let given = if wanted == Given::Number && random.chance(30) { random.bytes(48, &FLOATS) } else { given };
        let delimiter = if !bytes.is_empty() && random.chance(if len > 1 << 12 { 30 } else { 60 }) {
            bytes[random.below(len)]
        } else {
            random.pick(&[0, 0x0a, 0x20, 0xff])
        };
        // (a multiple of eight reads the floats that the bytes are made of)
        let place = random.offset(len) & if random.chance(40) { !7 } else { !0 };
        let asked = Asked {
            kind: random.below(FAMILIES[family].kinds.len()) as u64,
            place,
            form: random.next() % 8,
            a: random.next() % 4 * 256 + u64::from(delimiter),
            b: random.offset(len) as u64 / random.pick(&[1, 1, 2, 3]),
        };
        Call { family, asked, bytes, given }
    }

    /// The answer of the library, and what it left in the bytes.
    fn ours(&self) -> (Vec<u8>, Vec<u8>) {
        let mut bytes = self.bytes.clone();
        let mut room = vec![0u8; 3 * (bytes.len() + self.given.len()) + 1000];
        let ours = FAMILIES[self.family].ours;
        // SAFETY: the export reads and writes these three slices, and keeps none of them.
        let len = unsafe {
            let given = (self.given.as_ptr(), self.given.len());
            ours(&self.asked, bytes.as_mut_ptr(), bytes.len(), given.0, given.1, room.as_mut_ptr(), room.len())
        };
        room.truncate(len);
        (room, bytes)
    }

    /// The same of the Rust crate. Where `quiet`, it reads and is given no other NaN than the one that the library writes.
    fn theirs(&self, quiet: bool) -> (Vec<u8>, Vec<u8>) {
        let mut bytes = self.bytes.clone();
        let mut reply = Reply { bytes: Vec::new(), quiet };
        (FAMILIES[self.family].theirs)(&self.asked, &mut bytes, &self.given, &mut reply);
        (reply.bytes, bytes)
    }

    /// Which kind of call it is, for the summary.
    pub fn kind(&self) -> &'static str {
        FAMILIES[self.family].name
    }

    pub fn compare(&self) -> Verdict {
        let ours = self.ours();
        if ours == self.theirs(false) {
            Verdict::Same
        } else if ours == self.theirs(true) {
            Verdict::Told
        } else {
            Verdict::Differs
        }
    }

    /// Whether the crate lacks a part of it, which types of this program stand for.
    pub fn has_additions(&self) -> bool {
        let family = &FAMILIES[self.family];
        let kind = family.kinds[self.asked.kind as usize];
        match family.name {
            "writes of bytes and texts" => matches!(kind, "Uleb128" | "Sleb128"),
            "owned C strings" => kind == "CString::new",
            "reads of texts" | "bulk reads" => kind.contains("&str") && self.asked.a / 256 % 4 == 3,
            _ => false,
        }
    }

    /// Calls with something left out or simpler, each made as it is wanted, since calls can be large.
    pub fn smaller(&self) -> Box<dyn Iterator<Item = Call> + '_> {
        let asked = self.asked;
        let put = |asked| Call { asked, ..self.clone() };
        let moved = [asked.place, asked.place / 2, asked.place / 4, 1].into_iter();
        let moved =
            moved.filter(move |part| *part > 0 && *part <= asked.place && *part <= self.bytes.len()).map(move |part| {
                let asked = Asked { place: asked.place - part, ..asked };
                Call { family: self.family, asked, bytes: self.bytes[part..].to_vec(), given: self.given.clone() }
            });
        let bytes = removals(&self.bytes).map(move |bytes| Call {
            family: self.family,
            asked,
            bytes,
            given: self.given.clone(),
        });
        let given = removals(&self.given).map(|given| Call { given, ..self.clone() });
        let places = lower(asked.place as u128).into_iter().map(move |place| Asked { place: place as usize, ..asked });
        let forms = (0..asked.form).map(move |form| Asked { form, ..asked });
        let a = [asked.a % 2, asked.a % 256, asked.a / 256 * 256].map(move |a| Asked { a, ..asked });
        let b = lower(u128::from(asked.b)).into_iter().map(move |b| Asked { b: b as u64, ..asked });
        let nothing = std::iter::once(Call { given: Vec::new(), ..self.clone() });
        Box::new(nothing.chain(moved).chain(bytes).chain(given).chain(places.chain(forms).chain(a).chain(b).map(put)))
    }

    /// What shrinks, the most important first.
    pub fn weight(&self) -> Vec<u64> {
        let sum = |bytes: &[u8]| bytes.iter().map(|byte| u64::from(*byte)).sum::<u64>();
        let Asked { place, form, a, b, .. } = self.asked;
        vec![
            (self.bytes.len() + self.given.len()) as u64,
            place as u64,
            b,
            a,
            form,
            sum(&self.bytes) + sum(&self.given),
        ]
    }

    /// The call, and what both sides answer.
    pub fn show(&self) -> String {
        let family = &FAMILIES[self.family];
        let Asked { kind, place, form, a, b } = self.asked;
        let (ours, theirs) = (self.ours(), self.theirs(false));
        format!(
            "{}: {}, form {form}, offset {place}, a {a}, b {b}\n  bytes {}\n  given {}\n  the library: {}, and leaves {}\n  the crate:   {}, and leaves {}\n",
            family.name,
            family.kinds[kind as usize],
            brief(&self.bytes),
            brief(&self.given),
            words(&ours.0),
            brief(&ours.1),
            words(&theirs.0),
            brief(&theirs.1)
        )
    }
}

/// The bytes, with `*` and a count behind one that is repeated, as far as they are brief; the seed and the number of the
/// case give the others.
fn brief(bytes: &[u8]) -> String {
    if bytes.is_empty() {
        return hex(bytes);
    }
    let mut text = String::new();
    for run in bytes.chunk_by(|a, b| a == b) {
        if text.len() > 2 * BRIEF {
            return format!("{text}.. ({} bytes)", bytes.len());
        }
        match run.len() {
            0..8 => text.push_str(&hex(run)),
            count => text.push_str(&format!("{}*{count} ", hex(&run[..1]))),
        }
    }
    text.trim_end().into()
}

/// An answer in words.
fn words(answer: &[u8]) -> String {
    let mut words = Vec::new();
    let mut rest = answer;
    while let Some((letter, tail)) = rest.split_first() {
        let len = match letter {
            b'n' | b'i' => 16,
            b's' => 8,
            _ => 0,
        };
        let Some((number, tail)) = tail.split_at_checked(len) else { break };
        rest = tail;
        let value = number.iter().rev().fold(0u128, |sum, byte| sum << 8 | u128::from(*byte));
        match letter {
            b'n' => words.push(value.to_string()),
            b'i' => words.push((value as i128).to_string()),
            b's' => {
                let (bytes, tail) = rest.split_at((value as usize).min(rest.len()));
                words.push(format!("[{}]", brief(bytes)));
                rest = tail;
            }
            b'k' => words.push("ok".into()),
            b't' => words.push("TooBig".into()),
            b'o' => words.push("BadOffset".into()),
            b'b' => words.push("BadInput".into()),
            b'e' => words.push("the stream ends".into()),
            _ => words.push("another error".into()),
        }
    }
    if words.is_empty() { "nothing".into() } else { words.join(" ") }
}
