"""Prints the program that reads and writes values of described structs."""

from typing import List, Sequence, Tuple, Union

from descriptions.counts import UNSIGNED
from descriptions.draw import Drawn
from descriptions.kinds import Ended, Filled, Number, Slice
from descriptions.lists import Listing
from descriptions.nested import Enum
from descriptions.pointers import Pointer, pointers_of
from descriptions.structs import Field, Struct
from descriptions.users import read


def changes_of(struct: Struct) -> List[Tuple[Field, str]]:
    """Returns the fields of a value that the program changes before it is written, and to what."""
    found = []
    for it in struct.fields:
        kind = it.kind
        if it.condition:
            found.append((it, "None"))
        elif isinstance(kind, Number) and kind.of.type in UNSIGNED:
            found.append((it, f"made.{it.name}.wrapping_add(1)"))
        elif isinstance(kind, (Filled, Slice)) or (isinstance(kind, Ended) and kind.byte >= 0):
            found.append((it, '"a b\\n"' if kind.type == "&'a str" else 'b"a b\\n"'))
    return found


def print_digest(of: Union[Struct, Enum]) -> str:
    """Prints a function that adds a value to a digest."""
    name = of.name.lower()
    if isinstance(of, Struct):
        lines = [line for it in of.fields for line in it.lines()] + ["made"]
        value = "value" if len(lines) > 1 else "_value"
    else:
        value, lines = "value", ["match value {"]
        for at, it in enumerate(of.variants):
            names = [f"v{index}" for index in range(len(it.kinds))]
            inside = [line for kind, one in zip(it.kinds, names) for line in kind.lines(f"(*{one})")]
            pattern = f"{of.name}::{it.name}" + (f"({', '.join(names)})" if names else "")
            inside = [f"let made = mix(made, &[{at}]);", *inside, "made"]
            lines += [f"    {pattern} => {{", *(f"        {line}" for line in inside), "    }"]
        lines.append("}")
    body = "".join(f"    {line}\n" for line in lines)
    return f"fn digest_{name}({value}: &{of.type.replace(chr(39) + 'a', chr(39) + '_')}, made: u64) -> u64 {{\n{body}}}\n"


def print_pointed(name: str, kind: Pointer) -> List[str]:
    """Prints the lines that add what a pointer says to a digest."""
    read = "read" if isinstance(kind.target, Listing) else "read_fixed"
    inside = [f"        {it}" for it in [*kind.lines_found(), "made"]]
    return [f"let made = match value.{name}.{read}(from, order) {{", "    Ok(one) => {", *inside, "    }", "    Err(_) => mix(made, &[2]),", "};"]


def print_appended(struct: Struct, type_: str) -> str:
    """Prints a function that adds to a digest what a value is behind others: by a stream where it has a fixed size, which is read
    again, and else behind a vector, and as a list behind itself."""
    name, error = struct.name.lower(), struct.error.name if struct.error else "Error"
    if struct.is_fixed:
        body = f"""    let Ok(()) = bytes.iowrite_with(*value, order) else {{
        return mix(made, &[3]);
    }};
    let made = mix_bytes(made, bytes.as_slice());
    let mut left = bytes.as_slice();
    match left.ioread_with::<{struct.name}>(order) {{
        Ok(again) => digest_{name}(&again, made),
        Err(_) => mix(made, &[4]),
    }}"""
    else:
        body = f"""    let Ok(()) = append_whole::<(), {error}, {type_}>(&mut bytes, value, order, &()) else {{
        return mix(made, &[3]);
    }};
    let made = mix_bytes(made, bytes.as_slice());
    let Ok(mut target) = vec![in alloc; 0u8; 3 * bytes.len()] else {{
        return mix(made, &[4]);
    }};
    let values = [*value, *value];
    match write_list::<(), (), {error}, {type_}, {type_}>(value, &values, target.as_mut_slice(), order, &(), &()) {{
        Ok(size) => mix_bytes(made, &target[..size]),
        Err(_) => mix(made, &[5]),
    }}"""
    head = f"fn appended_{name}(alloc: Global, value: &{type_}, order: Endian, made: u64) -> u64"
    return f"{head} {{\n    let mut bytes: Vec<u8> = Vec::new(alloc);\n{body}\n}}\n"


def print_try(made: Drawn) -> str:
    """Prints what the program runs: a value is read, changed, and written."""
    struct, error = made.struct, made.struct.error
    name, type_ = struct.name.lower(), made.top.type.replace("'a", "'_")
    changes = changes_of(struct)
    arms = "".join(f"        {at} => made.{it.name} = {to},\n" for at, (it, to) in enumerate(changes, 1))
    refusal = "Refusal::Library(Error::from(error))" if error and error.is_small else "Refusal::Library(error)"
    pointed = "".join(f"            {line}\n" for it in pointers_of(struct) for line in print_pointed(*it))
    more = ""
    if error and not error.is_small:
        own = "".join(f'        {error.name}::{it}(number) => Refusal::Own("{it}", number as u64),\n' for it, _ in error.variants)
        refusal = "refusal(error)"
        arms_of = f"        {error.name}::Refused(error) => Refusal::Library(error),\n{own}"
        more = f"fn refusal(error: {error.name}) -> Refusal {{\n    match error {{\n{arms_of}    }}\n}}\n\n"
    return f"""{more}fn change_{name}(value: {type_}, change: usize) -> {type_} {{
    let mut made = value;
    match change {{
{arms}        _ => (),
    }}
    made
}}

{print_appended(struct, type_)}
pub fn try_{name}(alloc: Global, from: &[u8], order: Endian, change: usize, to: &mut [u8]) -> Told {{
    let mut end = 0;
    let read: Result<{struct.name}, {error.name if error else "Error"}> = from.gread_with(&mut end, order);
    match read {{
        Err(error) => Told::Unread({refusal}),
        Ok(value) => {{
            let made = digest_{name}(&value, 0);
{pointed}            let digest = appended_{name}(alloc, &value, order, made);
            match slice::gwrite_with(to, change_{name}(value, change), &mut 0, order) {{
                Err(error) => Told::Unwritten(digest, end, {refusal}),
                Ok(size) => Told::Written(digest, end, size),
            }}
        }}
    }}
}}
"""


def print_tried(made: Drawn) -> str:
    """Prints the module of the program that tries a struct."""
    items = [it for it in made.items if isinstance(it, (Struct, Enum))]
    error = made.struct.error
    names = ", ".join([*(it.name for it in items), *([error.name] if error and not error.is_small else [])])
    texts = [read("tried").replace("@types@", f"crate::{made.struct.name.lower()}::{{{names}}}")]
    return "\n".join([*texts, *map(print_digest, items), print_try(made)])


def print_main(names: Sequence[str]) -> str:
    """Prints the program over modules that have the names of their structs."""
    arms = "".join(f'        "{it}" => try_{it}::try_{it}(alloc, from, order, change, target),\n' for it in names)
    mods = "".join(f"mod {it};\nmod try_{it};\n" for it in names)
    return read("main").replace("@arms@", arms).replace("@mods@", mods)
