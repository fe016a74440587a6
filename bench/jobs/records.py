"""Writes records of 5, 12 and 40 numbers for bench/beside_rust.sh jobs: for the library with what tools/derive prints, and in Rust.

    python3 records.py OURS RUST

OURS is the folder of a crate's sources, and RUST a file.
"""

import subprocess
import sys
from pathlib import Path

DERIVE = Path(__file__).resolve().parents[2] / "tools" / "derive"

# The sizes of the fields in bytes.
RECORDS = {
    "five": [2, 4, 2, 4, 4],
    "twelve": [4, 2, 2, 8, 4, 4, 8, 2, 2, 4, 8, 4],
    "forty": [1, 2, 4, 8, 4, 2, 1, 2] * 5,
}


def kind(size):
    return f"u{8 * size}"


def total(sizes, read="record.f{i}"):
    """The sum of the fields."""
    wide = [read.format(i=i) if size == 8 else f"u64::from({read.format(i=i)})" for i, size in enumerate(sizes)]
    return "".join(f".wrapping_add({it})" for it in wide)


def made(sizes):
    """The fields of the record of a byte."""
    return ", ".join(f"f{i}: {f'{kind(size)}::from(byte)' if size > 1 else 'byte'}" for i, size in enumerate(sizes))


def ours(name, sizes, folder):
    title = name.capitalize()
    fields = "".join(f"    pub f{i}: {kind(size)},\n" for i, size in enumerate(sizes))
    (Path(folder) / f"{name}.rt").write_text(
        f"""mod derived;

use scroll::{{LE, Pread, slice}};

// #[derive(Pread, Pwrite)]
#[derive(Clone, Copy)]
pub struct {title} {{
{fields}}}

#[unsafe(no_mangle)]
pub extern "C" fn rt_read_{name}(source: &[u8]) -> u64 {{
    let mut total: u64 = 0;
    for bytes in source.chunks_exact({sum(sizes)}) {{
        match bytes.pread_with::<{title}>(0, LE) {{
            Ok(record) => total = total{total(sizes)},
            Err(_) => break,
        }}
    }}
    total
}}

#[unsafe(no_mangle)]
pub extern "C" fn rt_write_{name}(target: &mut [u8]) -> u64 {{
    let mut offset = 0;
    for i in 0..target.len() {{
        let byte = (i & 0x7f) as u8;
        let record = {title} {{ {made(sizes)} }};
        if slice::gwrite_with(target, record, &mut offset, LE).is_err() {{
            break;
        }}
    }}
    offset as u64
}}
"""
    )


def rust(name, sizes):
    """A struct for `scroll_derive`, one for `zerocopy`, and loops over both and over `byteorder`."""
    title, size = name.capitalize(), sum(sizes)
    places = [sum(sizes[:i]) for i in range(len(sizes))]
    fields = "".join(f"        pub f{i}: {kind(it)},\n" for i, it in enumerate(sizes))
    zeroed = "".join(f"        pub f{i}: {f'U{8 * it}<LittleEndian>' if it > 1 else 'u8'},\n" for i, it in enumerate(sizes))
    get = [f"LittleEndian::read_{kind(it)}(&record[{at}..])" if it > 1 else f"record[{at}]" for it, at in zip(sizes, places)]
    put = [
        f"LittleEndian::write_{kind(it)}(&mut record[{at}..], {kind(it)}::from(byte));" if it > 1 else f"record[{at}] = byte;"
        for it, at in zip(sizes, places)
    ]
    wide = "".join(f".wrapping_add({it})" if n == 8 else f".wrapping_add(u64::from({it}))" for it, n in zip(get, sizes))
    zero_sum = "".join(
        f".wrapping_add(record.f{i}.get())" if it == 8 else f".wrapping_add(u64::from(record.f{i}{'.get()' if it > 1 else ''}))"
        for i, it in enumerate(sizes)
    )
    zero_made = ", ".join(f"f{i}: {f'U{8 * it}::new({kind(it)}::from(byte))' if it > 1 else 'byte'}" for i, it in enumerate(sizes))
    return f"""
pub mod {name} {{
    pub const SIZE: usize = {size};

    #[cfg(feature = "scroll_derive")]
    pub mod derived {{
        use scroll::{{LE, Pread, Pwrite}};

        #[derive(Pread, Pwrite)]
        pub struct {title} {{
{fields}        }}

        #[inline(never)]
        pub fn read(source: &[u8]) -> u64 {{
            let mut offset = 0;
            let mut total: u64 = 0;
            while let Ok(record) = source.gread_with::<{title}>(&mut offset, LE) {{
                total = total{total(sizes)};
            }}
            total
        }}

        #[inline(never)]
        pub fn write(target: &mut [u8]) -> u64 {{
            let mut offset = 0;
            for i in 0..target.len() {{
                let byte = (i & 0x7f) as u8;
                if target.gwrite_with({title} {{ {made(sizes)} }}, &mut offset, LE).is_err() {{
                    break;
                }}
            }}
            offset as u64
        }}
    }}

    #[cfg(feature = "zerocopy")]
    pub mod zero {{
        use byteorder::LittleEndian;
        #[allow(unused_imports)]
        use zerocopy::byteorder::{{U16, U32, U64}};
        use zerocopy::{{AsBytes, FromBytes, LayoutVerified, Unaligned}};

        #[derive(FromBytes, AsBytes, Unaligned)]
        #[repr(C)]
        pub struct {title} {{
{zeroed}        }}

        #[inline(never)]
        pub fn read(source: &[u8]) -> u64 {{
            let mut total: u64 = 0;
            let mut rest = source;
            while let Some((record, after)) = LayoutVerified::<_, {title}>::new_unaligned_from_prefix(rest) {{
                total = total{zero_sum};
                rest = after;
            }}
            total
        }}

        #[inline(never)]
        pub fn write(target: &mut [u8]) -> u64 {{
            let mut offset = 0;
            for (i, place) in target.chunks_exact_mut(super::SIZE).enumerate() {{
                let byte = (i & 0x7f) as u8;
                place.copy_from_slice({title} {{ {zero_made} }}.as_bytes());
                offset += super::SIZE;
            }}
            offset as u64
        }}
    }}

    #[cfg(feature = "byteorder")]
    pub mod hand {{
        use byteorder::{{ByteOrder, LittleEndian}};

        #[inline(never)]
        pub fn read(source: &[u8]) -> u64 {{
            let mut total: u64 = 0;
            for record in source.chunks_exact(super::SIZE) {{
                total = total{wide};
            }}
            total
        }}

        #[inline(never)]
        pub fn write(target: &mut [u8]) -> u64 {{
            let mut offset = 0;
            for (i, record) in target.chunks_exact_mut(super::SIZE).enumerate() {{
                let byte = (i & 0x7f) as u8;
                {" ".join(put)}
                offset += super::SIZE;
            }}
            offset as u64
        }}
    }}
}}
"""


def main():
    folder, path = sys.argv[1:]
    for name, sizes in RECORDS.items():
        ours(name, sizes, folder)
    subprocess.run([sys.executable, str(DERIVE), str(Path(folder).parent)], check=True)
    text = "//! Records of numbers, as bench/jobs/records.py wrote them.\n" + "".join(rust(*it) for it in RECORDS.items())
    Path(path).write_text(text)


if __name__ == "__main__":
    main()
