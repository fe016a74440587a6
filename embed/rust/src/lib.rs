//! The sections of ELF files and the stored files of ZIP archives, read by code that is proved.
//!
//! ```
//! # let file = std::fs::read(std::env::current_exe()?)?;
//! for section in scroll_ffi::Sections::open(&file)? {
//!     let section = section?;
//!     println!("{} {}", section.name.escape_ascii(), section.entry.size);
//! }
//! # Ok::<(), Box<dyn std::error::Error>>(())
//! ```
//!
//! What is read borrows the bytes, and can't outlive them:
//!
//! ```compile_fail,E0505
//! let file = std::fs::read("a.o").unwrap();
//! let section = scroll_ffi::Sections::open(&file).unwrap().next();
//! drop(file);
//! println!("{section:?}");
//! ```
use std::ffi::CStr;
use std::fmt;
use std::iter::FusedIterator;

/// The C functions, and the structs that they fill.
pub mod raw {
    include!(env!("SCROLL_FFI_RS"));
}

/// Why a read or a write failed, and where.
#[derive(Clone, Copy, Debug)]
pub struct Error(pub raw::ScrollError);

impl fmt::Display for Error {
    fn fmt(&self, to: &mut fmt::Formatter<'_>) -> fmt::Result {
        // SAFETY: the function returns a text that is never freed.
        let text = unsafe { CStr::from_ptr(raw::scroll_ffi_text(self.0.code)) };
        write!(to, "offset {}: {}", self.0.offset, text.to_string_lossy())
    }
}

impl std::error::Error for Error {}

/// Returns the error of a call that failed with `code`, which the library stores except for a bad argument.
#[cold]
fn failed(code: i32, error: raw::ScrollError) -> Error {
    Error(raw::ScrollError { code, ..error })
}

/// Returns a part of the bytes, which the library says is inside.
#[inline]
fn part(bytes: &[u8], offset: u64, len: u64) -> &[u8] {
    bytes.get(offset as usize..).and_then(|it| it.get(..len as usize)).unwrap_or_default()
}

/// How many sections are read in one call.
const READY: usize = 32;

/// The sections of an ELF file.
#[derive(Clone, Debug)]
pub struct Sections<'a> {
    file: &'a [u8],
    left: raw::ScrollElfSections,
    /// Sections that have been read: those from `at` to `end` are the next.
    ready: [raw::ScrollElfSection; READY],
    at: usize,
    end: usize,
}

/// A section: its name, and its entry in the table.
#[derive(Clone, Copy, Debug)]
pub struct Section<'a> {
    pub name: &'a [u8],
    pub entry: raw::ScrollElfSection,
}

impl<'a> Section<'a> {
    /// Returns its bytes in the file; `None` if they are not all there.
    pub fn bytes(&self, file: &'a [u8]) -> Option<&'a [u8]> {
        file.get(self.entry.offset as usize..)?.get(..self.entry.size as usize)
    }
}

impl<'a> Sections<'a> {
    /// Reads the header.
    pub fn open(file: &'a [u8]) -> Result<Self, Error> {
        let mut left = raw::ScrollElfSections::default();
        let mut error = raw::ScrollError::default();
        // SAFETY: a slice and references are what the function asks for.
        let code = unsafe { raw::scroll_elf_open(file.as_ptr(), file.len(), &mut left, &mut error) };
        if code < 0 {
            return Err(failed(code, error));
        }
        Ok(Sections { file, left, ready: [raw::ScrollElfSection::default(); READY], at: 0, end: 0 })
    }

    /// Reads as many sections as there is room for. Returns whether there are any.
    #[inline(never)]
    fn refill(&mut self) -> Result<bool, Error> {
        let mut error = raw::ScrollError::default();
        (self.at, self.end) = (0, 0);
        // SAFETY: as above.
        let code = unsafe {
            raw::scroll_elf_fill(
                self.file.as_ptr(), self.file.len(), &mut self.left, self.ready.as_mut_ptr(), READY, &mut self.end,
                &mut error,
            )
        };
        if code < 0 { Err(failed(code, error)) } else { Ok(self.end != 0) }
    }
}

impl<'a> Iterator for Sections<'a> {
    type Item = Result<Section<'a>, Error>;

    #[inline]
    fn next(&mut self) -> Option<Self::Item> {
        if self.at == self.end {
            match self.refill() {
                Ok(true) => {}
                Ok(false) => return None,
                Err(error) => return Some(Err(error)),
            }
        }
        let entry = self.ready[self.at % READY];
        self.at += 1;
        Some(Ok(Section { name: part(self.file, entry.name_offset, entry.name_len), entry }))
    }

    fn size_hint(&self) -> (usize, Option<usize>) {
        (0, Some(self.end - self.at + self.left.left as usize))
    }
}

impl FusedIterator for Sections<'_> {}

/// The stored files of a ZIP archive, in the order in which they lie there.
#[derive(Clone, Debug)]
pub struct Entries<'a> {
    archive: &'a [u8],
    /// The record at the end of the archive.
    pub end: raw::ScrollZipEnd,
    offset: u64,
    limit: u64,
}

/// A stored file.
#[derive(Clone, Copy, Debug)]
pub struct Entry<'a> {
    pub name: &'a [u8],
    pub extra: &'a [u8],
    pub contents: &'a [u8],
    pub header: raw::ScrollZipFile,
}

impl<'a> Entries<'a> {
    /// Finds the record at the end of an archive.
    ///
    /// ```
    /// let empty = b"PK\x05\x06\0\0\0\0\0\0\0\0\0\0\0\0\0\0\0\0\x02\0hi";
    /// let entries = scroll_ffi::Entries::open(empty)?;
    /// assert_eq!(entries.comment(), b"hi");
    /// assert_eq!(entries.count(), 0);
    /// let error = scroll_ffi::Entries::open(b"no archive").unwrap_err();
    /// assert_eq!(error.0.code, scroll_ffi::raw::SCROLL_TRUNCATED);
    /// # Ok::<(), scroll_ffi::Error>(())
    /// ```
    pub fn open(archive: &'a [u8]) -> Result<Self, Error> {
        let mut end = raw::ScrollZipEnd::default();
        let mut error = raw::ScrollError::default();
        // SAFETY: as above.
        let code = unsafe { raw::scroll_zip_open(archive.as_ptr(), archive.len(), &mut end, &mut error) };
        if code < 0 {
            return Err(failed(code, error));
        }
        Ok(Entries { archive, end, offset: 0, limit: u64::from(end.directory_place) })
    }

    /// Returns the comment of the archive.
    pub fn comment(&self) -> &'a [u8] {
        part(self.archive, self.end.comment_offset, self.end.comment_len)
    }
}

impl<'a> Iterator for Entries<'a> {
    type Item = Result<Entry<'a>, Error>;

    fn next(&mut self) -> Option<Self::Item> {
        let archive = self.archive;
        let mut header = raw::ScrollZipFile::default();
        let mut error = raw::ScrollError::default();
        // SAFETY: as above.
        match unsafe {
            raw::scroll_zip_next(
                archive.as_ptr(), archive.len(), &mut self.offset, self.limit, &mut header, &mut error,
            )
        } {
            0 => None,
            1 => Some(Ok(Entry {
                name: part(archive, header.name_offset, header.name_len),
                extra: part(archive, header.extra_offset, header.extra_len),
                contents: part(archive, header.contents_offset, header.contents_len),
                header,
            })),
            code => {
                self.limit = 0;
                Some(Err(failed(code, error)))
            }
        }
    }
}

impl FusedIterator for Entries<'_> {}

/// Writes a stored file into an archive at `offset`, and advances `offset` past it. The numbers come from `header`, but for
/// the offsets and lengths. After an error both are unchanged.
///
/// ```
/// let mut archive = [0; 34];
/// let mut offset = 0;
/// scroll_ffi::put_entry(&mut archive, &mut offset, &Default::default(), b"a", b"", b"hi!")?;
/// assert_eq!(offset, 34);
/// assert!(scroll_ffi::put_entry(&mut archive, &mut offset, &Default::default(), b"b", b"", b"").is_err());
/// assert_eq!((offset, &archive[30..]), (34, &b"ahi!"[..]));
/// # Ok::<(), scroll_ffi::Error>(())
/// ```
pub fn put_entry(
    archive: &mut [u8],
    offset: &mut usize,
    header: &raw::ScrollZipFile,
    name: &[u8],
    extra: &[u8],
    contents: &[u8],
) -> Result<(), Error> {
    let mut error = raw::ScrollError::default();
    // SAFETY: as above.
    let code = unsafe {
        raw::scroll_zip_put(
            archive.as_mut_ptr(), archive.len(), offset, header, name.as_ptr(), name.len(), extra.as_ptr(),
            extra.len(), contents.as_ptr(), contents.len(), &mut error,
        )
    };
    if code < 0 { Err(failed(code, error)) } else { Ok(()) }
}

/// Writes the record at the end of an archive at `offset`, and advances `offset` past it. The numbers come from `end`, but for
/// the offsets and the length. After an error both are unchanged.
pub fn put_end(
    archive: &mut [u8],
    offset: &mut usize,
    end: &raw::ScrollZipEnd,
    comment: &[u8],
) -> Result<(), Error> {
    let mut error = raw::ScrollError::default();
    // SAFETY: as above.
    let code = unsafe {
        raw::scroll_zip_put_end(
            archive.as_mut_ptr(), archive.len(), offset, end, comment.as_ptr(), comment.len(), &mut error,
        )
    };
    if code < 0 { Err(failed(code, error)) } else { Ok(()) }
}
