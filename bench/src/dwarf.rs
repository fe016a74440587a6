//! Extracts the numbers in LEB128, as they are, from an object file that a C compiler wrote with `-g`.

/// A section of an object file of 64 bits in little-endian order.
pub fn section<'f>(file: &'f [u8], wanted: &str) -> Option<&'f [u8]> {
    let table = word(file, 0x28, 8)?;
    let count = word(file, 0x3c, 2)?;
    let names = word(file, table + word(file, 0x3e, 2)? * 64 + 24, 8)?;
    for at in (0..count).map(|k| table + k * 64) {
        let name = file.get(names + word(file, at, 4)?..)?;
        if name.starts_with(wanted.as_bytes()) && name.get(wanted.len()) == Some(&0) {
            let from = word(file, at + 24, 8)?;
            return file.get(from..from + word(file, at + 32, 8)?);
        }
    }
    None
}

/// Returns the encodings of the codes, tags, attributes and forms in `.debug_abbrev`, as far as it follows DWARF 5.
pub fn abbreviations(file: &[u8]) -> Vec<u8> {
    let mut found = Vec::new();
    let _ = add_abbreviations(&mut Cursor { rest: section(file, ".debug_abbrev").unwrap_or(&[]) }, &mut found);
    found
}

fn word(bytes: &[u8], at: usize, width: usize) -> Option<usize> {
    let bytes = bytes.get(at..at + width)?;
    Some(bytes.iter().rev().fold(0, |word, b| word << 8 | usize::from(*b)))
}

struct Cursor<'s> {
    rest: &'s [u8],
}

impl Cursor<'_> {
    // Reads a number in LEB128, and appends its encoding to `out`. The value returned is right if the number is
    // unsigned.
    fn leb(&mut self, out: &mut Vec<u8>) -> Option<u64> {
        let len = self.rest.iter().position(|b| *b < 0x80)? + 1;
        let (text, rest) = self.rest.split_at(len);
        self.rest = rest;
        out.extend_from_slice(text);
        Some(text.iter().rev().fold(0, |number, b| number << 7 | u64::from(b & 0x7f)))
    }
}

fn add_abbreviations(cursor: &mut Cursor, out: &mut Vec<u8>) -> Option<()> {
    while !cursor.rest.is_empty() {
        if cursor.leb(out)? == 0 {
            continue;
        }
        cursor.leb(out)?;
        cursor.rest = cursor.rest.get(1..)?;
        loop {
            let attribute = cursor.leb(out)?;
            let form = cursor.leb(out)?;
            if form == 0x21 {
                // The value of DW_FORM_implicit_const is signed, and is left out.
                cursor.leb(&mut Vec::new())?;
            }
            if attribute == 0 && form == 0 {
                break;
            }
        }
    }
    Some(())
}
