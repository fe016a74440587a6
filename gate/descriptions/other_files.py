"""Makes files of the clients' formats by the programs that such files come from; those of DNS by an encoder of its own.

What was asked of a program is compared with what gate/descriptions/other_readers.py reads.
"""

import contextlib
import gzip
import io
import random
import ssl
import subprocess
import tarfile
import zlib
from pathlib import Path
from typing import Callable, Dict, NamedTuple

from descriptions.other_readers import read_tls, read_wasm


class File(NamedTuple):
    """A file, and what is read of it."""

    made: bytes
    fields: str


def make_tls(rng: random.Random, _: Path) -> File:
    context = ssl.SSLContext(ssl.PROTOCOL_TLS_CLIENT)
    context.check_hostname = False
    low, high = rng.choice([(2, 2), (2, 3), (3, 3)])
    versions = [ssl.TLSVersion.TLSv1_2, ssl.TLSVersion.TLSv1_3]
    context.minimum_version, context.maximum_version = versions[low - 2], versions[high - 2]
    context.set_ciphers(rng.choice(["ALL", "ECDHE+AESGCM", "HIGH"]))
    protocols = rng.sample(["h2", "http/1.1", "spdy/3", "x" * rng.randint(1, 200)], rng.randint(0, 4))
    if protocols:
        context.set_alpn_protocols(protocols)
    name = rng.choice(["", "localhost", ".".join(rng.choices(["a", "mail", "example", "x" * 40], k=rng.randint(1, 4)))])
    made = ssl.MemoryBIO()
    client = context.wrap_bio(ssl.MemoryBIO(), made, server_hostname=name or None)
    with contextlib.suppress(ssl.SSLWantReadError):
        client.do_handshake()
    hello = made.read()[5:]
    fields = read_tls(hello)[0].split(" ")
    offers = [b"".join(bytes([len(it)]) + it.encode() for it in protocols).hex()] if protocols else []
    offers += ["0304" * (high == 3) + "0303" * (low == 2)] if high == 3 else []
    is_well = fields[0] == "771" and fields[2] == (name or "-") and [it for it in fields[4:] if it] == offers
    return File(hello, " ".join(fields) if is_well else f"name {name}, then {offers}")


def make_wasm(rng: random.Random, room: Path) -> File:
    functions, exports, imports = rng.randint(0, 9), rng.randint(0, 3), rng.randint(0, 3)
    exports = min(exports, functions)
    kinds = ["(func (param i32))", "(memory 1 3)", "(table 0 funcref)", "(global i64)"]
    text = "".join(f'(import "env" "i{at}" {rng.choice(kinds[:1] + kinds[2:])})' for at in range(imports))
    text += "".join(f"(func $f{at} (param i32 i64) (result i32) i32.const {at * 999})" for at in range(functions))
    text += "".join(f'(export "é{at}" (func $f{at}))' for at in range(exports)) + '(memory 1)(data (i32.const 8) "hi")'
    (room / "m.wat").write_text(f"(module {text})", encoding="utf-8")
    subprocess.run(["wat2wasm", *rng.choice([[], ["--debug-names"]]), "m.wat", "-o", "m.wasm"], cwd=room, check=True)
    made = (room / "m.wasm").read_bytes()
    fields = read_wasm(made)[0]
    found = dict(it.split(":") for it in fields.split(" "))
    is_well = [int(found.get(id_, 0)) for id_ in "237"] == [imports, functions, exports]
    return File(made, fields if is_well else f"{imports} imports, {functions} functions, {exports} exports")


def make_gzip(rng: random.Random, _: Path) -> File:
    data, name = rng.randbytes(rng.randint(0, 300)), rng.choice([b"", b"a.txt", b"x" * 90])
    modified, target = rng.getrandbits(32), io.BytesIO()
    with gzip.GzipFile(name.decode(), "wb", rng.randint(1, 9), target, modified) as file:
        file.write(data)
    made = target.getvalue()
    if rng.random() < 0.5:
        fields = b"".join(b"ab" + len(it).to_bytes(2, "little") + it for it in rng.choices([b"", b"hi", b"x" * 9], k=rng.randint(0, 3)))
        at = 10 + bool(name) * (len(name) + 1)
        made = made[:3] + bytes([made[3] | 0x16]) + made[4:10] + len(fields).to_bytes(2, "little") + fields + made[10:at] + b"so\0\1\2" + made[at:]
    return File(made, f"{modified} {name.hex() or '-'} {zlib.crc32(data)} {len(data)}")


def make_tar(rng: random.Random, _: Path) -> File:
    target, info = io.BytesIO(), tarfile.TarInfo("/".join(rng.choices(["a", "some", "é", "folder"], k=rng.randint(1, 4))))
    info.size, info.mode, info.mtime = rng.choice([0, 1, 511, 512, 513, 2000]), rng.randrange(0o10000), rng.getrandbits(32)
    info.uname, info.uid = rng.choice([("root", 0), ("ann", 1000)])
    kind = rng.choice([tarfile.USTAR_FORMAT, tarfile.GNU_FORMAT])
    with tarfile.open(fileobj=target, mode="w", format=kind) as archive:
        archive.addfile(info, io.BytesIO(rng.randbytes(info.size)))
    name = info.name.encode().ljust(100, b"\0").hex()
    return File(target.getvalue()[:512], f"{name} 48 {info.mode} {info.mtime} {info.size}")


def make_dns(rng: random.Random, _: Path) -> File:
    """Puts a message together, whose names go on where an earlier one has the same labels (RFC 1035, section 4.1.4)."""
    places: Dict[str, int] = {}
    counts = [rng.randint(0, 2), *rng.choices(range(4), k=3)]
    id_, flags = rng.getrandbits(16), rng.getrandbits(16)
    made = b"".join(it.to_bytes(2, "big") for it in (id_, flags, *counts))
    fields = f"{id_} {flags}"

    def put_name(at: int) -> "tuple[bytes, str]":
        labels, found, said = rng.choices(["www", "mail", "example", "com", "x" * 63], k=rng.randint(0, 4)), b"", ""
        for index, label in enumerate(labels):
            rest = ".".join(labels[index:])
            if rest in places:
                return found + (49152 + places[rest]).to_bytes(2, "big"), f"{said}>{places[rest]}"
            places[rest] = at + len(found)
            found += bytes([len(label)]) + label.encode()
            said += f"{label.encode().hex()}."
        return found + b"\0", f"{said}."

    def put_data(kind: int, at: int) -> bytes:
        if kind in (2, 5, 12):
            return put_name(at)[0]
        if kind == 15:
            return rng.randbytes(2) + put_name(at + 2)[0]
        if kind == 16:
            return b"".join(bytes([len(it)]) + it for it in rng.choices([b"", b"v=spf1 -all", b"\xff" * 255], k=rng.randint(0, 3)))
        return rng.randbytes({1: 4, 28: 16}.get(kind, rng.randint(0, 40)))

    for at in range(sum(counts)):
        name, said = put_name(len(made))
        kind, class_ = rng.choice([1, 2, 5, 12, 15, 16, 28, 33, 41]), rng.choice([1, 1, 4096])
        made += name + kind.to_bytes(2, "big") + class_.to_bytes(2, "big")
        fields += f" {said} {kind}"
        if at < counts[0]:
            fields += f" {class_}"
            continue
        data = put_data(kind, len(made) + 6)
        made += rng.randbytes(4) + len(data).to_bytes(2, "big") + data
        fields += f" {data.hex()}"
    return File(made, fields)


MAKERS: Dict[str, Callable[[random.Random, Path], File]] = {"tls": make_tls, "wasm": make_wasm, "gzip": make_gzip, "tar": make_tar, "dns": make_dns}
