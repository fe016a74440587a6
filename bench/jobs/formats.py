"""Makes files for bench/beside_rust.sh jobs by the programs that they come from: first messages of TLS, answers of DNS, a module
of WebAssembly, and headers of gzip and of tar.

    python3 formats.py FOLDER [COUNT]

COUNT is how many messages, and how many headers, there are (400). The files in bench/inputs/ have 8, and so has
crates/described/stdin, the headers of gzip.
"""

import gzip
import io
import random
import subprocess
import sys
from pathlib import Path

sys.path.append(str(Path(__file__).resolve().parents[2] / "gate"))
from descriptions.other_files import make_dns, make_tar, make_tls  # noqa: E402

MESSAGES = 400


def make_member(at: int) -> bytes:
    """The header of a member, every second one with further fields, a comment and a checksum."""
    target = io.BytesIO()
    with gzip.GzipFile(f"folder{at}/file{at * at}.txt", "wb", 9, target, at):
        pass
    # (behind it are two bytes for no data, and eight of checksum and size)
    made = target.getvalue()[:-10]
    if at % 2:
        return made
    return made[:3] + bytes([made[3] | 0x16]) + made[4:10] + b"\x0f\0ab\5\0hellocd\2\0hi" + made[10:] + b"a comment\0\1\2"


def make_module(folder: Path, count: int) -> None:
    imports = "".join(f'(import "env" "import{at}" (func (param i32)))' for at in range(count * 3 // 4))
    functions = "".join(f"(func $f{at} (param {'i32 ' * (at % 9)}) (result i32) i32.const {at * 999})" for at in range(count * 15 // 2))
    exports = "".join(f'(export "function{at}" (func $f{at}))' for at in range(count * 5 // 4))
    (folder / "module.wat").write_text(f"(module {imports} {functions} {exports} (memory 1))", encoding="utf-8")
    subprocess.run(["wat2wasm", "--debug-names", "module.wat", "-o", "module"], cwd=folder, check=True)


def main() -> None:
    folder, count = Path(sys.argv[1]), int(sys.argv[2]) if len(sys.argv) > 2 else MESSAGES
    for name, make in {"hellos": make_tls, "answers": make_dns, "entries": make_tar}.items():
        rng = random.Random(name)
        (folder / name).write_bytes(b"".join(make(rng, folder).made for _ in range(count)))
    (folder / "members").write_bytes(b"".join(map(make_member, range(count))))
    make_module(folder, count)


if __name__ == "__main__":
    main()
