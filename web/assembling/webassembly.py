"""The WebAssembly module, made of the static library modeller_c.

Rattle proves the library, and hands it to LLVM for the processor of this machine. For a browser LLVM's module is taken
from there: its target is changed to WebAssembly with pointers of 64 bits, the kit's clang and linker compile and link
it beside the files of web/module/, and binaryen makes its pointers ones of 32 bits, which every browser knows.
"""
from __future__ import annotations

import os
import pathlib
import re
import shutil
import subprocess
import sys
import tempfile

CRATE = "modeller_c"
EXPORTS = ("modeller_run", "block", "free_block", "fail_at")

_LAYOUT = "e-m:e-p:64:64-p10:8:8-p20:8:8-i64:64-i128:128-n32:64-S128-ni:1:10:20"
_TARGET = "wasm64-unknown-unknown"
_STACK = 1_048_576  # bytes; below it the memory ends, so a run that wants more is stopped by a trap

# Quotients of 128 bits call the functions of wide.c, and are not written out; a conversion between such a number and a
# float, for which there is no function, is. What cannot be reached traps.
_COMPILE = (
    f"--target={_TARGET}", "-mcpu=lime1", "--no-default-config", "-fno-crash-diagnostics", "-ffunction-sections",
    "-fdata-sections", "-mllvm", "-expand-div-rem-bits=128", "-mllvm", "-expand-fp-convert-bits=64", "-mllvm",
    "-trap-unreachable",
)
# What lime1 has of the features that Debian's binaryen tells apart.
_LOWER = (
    "--enable-memory64", "--enable-bulk-memory", "--enable-sign-ext", "--enable-mutable-globals",
    "--enable-nontrapping-float-to-int", "--memory64-lowering", "-O3",
)
_KEEPING = """#!/bin/sh
# rattle compiles the module of LLVM in a folder that it removes, so a copy is kept.
[ -f module.bc ] && cp module.bc '{kept}'
exec '{clang}' "$@"
"""


def module_of(top: pathlib.Path) -> bytes:
    """The module: the library is proved and built where it is not, and then compiled for a browser."""
    kit = _kit()
    if not shutil.which("wasm-opt"):
        raise SystemExit("web/build: wasm-opt is not installed: apt-get install binaryen")
    with tempfile.TemporaryDirectory() as folder:
        room = pathlib.Path(folder)
        bitcode = _bitcode(top, kit, room)
        linked = _linked(top / "web" / "module", kit, bitcode, room)
        return _lowered(linked, room)


def _kit() -> pathlib.Path:
    found = shutil.which("rt")
    if not found:
        raise SystemExit("web/build: the command rt, which proves and builds the library, is not on the path")
    return pathlib.Path(found).resolve().parents[1]


def _bitcode(top: pathlib.Path, kit: pathlib.Path, room: pathlib.Path) -> pathlib.Path:
    """LLVM's module of the library, as rattle makes it for this machine."""
    crate = top / "crates" / CRATE
    _call("rt", "check", "--jobs", "1", cwd=crate)
    kept = room / "library.bc"
    tools = _keeping_tools(kit, room, kept)
    words = [*_words(kit, crate, top), "--incremental", "out/incremental", "--toolchain", tools, "--backend", "llvm"]
    words += ["-o", room / f"lib{CRATE}.a"]
    _call(kit / "bin" / "rattle", "build", *words, cwd=crate)
    if not kept.exists():
        raise SystemExit("web/build: rattle handed no module to clang")
    return kept


def _words(kit: pathlib.Path, crate: pathlib.Path, top: pathlib.Path) -> list[str]:
    """The words by which `rt` has rattle build the library, which say where the libraries below it are."""
    script = (
        "import sys; sys.path.insert(0, sys.argv[1]); import rtlib\n"
        "crate = rtlib.Crate(sys.argv[2], sys.argv[3], {}); crate.out = sys.stderr\n"
        "print('\\n'.join(crate.words(['--jobs', '1'])))"
    )
    command = [sys.executable, "-B", "-c", script, kit / "bin", crate, top]
    return subprocess.run(command, stdout=subprocess.PIPE, text=True, check=True).stdout.splitlines()


def _keeping_tools(kit: pathlib.Path, room: pathlib.Path, kept: pathlib.Path) -> pathlib.Path:
    """The kit's folder of tools, with a clang that keeps the module that it compiles."""
    tools = room / "toolchain"
    (tools / "bin").mkdir(parents=True)
    (tools / "lib").symlink_to(kit / "toolchain" / "lib")
    for tool in (kit / "toolchain" / "bin").iterdir():
        if tool.name != "clang":
            (tools / "bin" / tool.name).symlink_to(tool)
    clang = tools / "bin" / "clang"
    clang.write_text(_KEEPING.format(kept=kept, clang=kit / "toolchain" / "bin" / "clang"))
    clang.chmod(0o755)
    return tools


def _linked(sources: pathlib.Path, kit: pathlib.Path, bitcode: pathlib.Path, room: pathlib.Path) -> pathlib.Path:
    """The module with a memory of 64 bits."""
    clang = kit / "toolchain" / "bin" / "clang"
    native, wide, whole = room / "native.ll", room / "wide.ll", room / "whole.ll"
    _call(clang, "-x", "ir", bitcode, "-Xclang", "-disable-llvm-passes", "-S", "-emit-llvm", "-o", native)
    wide.write_text(retargeted(native.read_text()))
    # first all that LLVM finds out of the products, and then the products themselves
    optimized = room / "optimized.ll"
    _call(clang, *_COMPILE, "-O3", "-S", "-emit-llvm", "-x", "ir", wide, "-o", optimized)
    whole.write_text(with_products(optimized.read_text(), (sources / "product.ll").read_text()))
    objects = [room / "library.o"]
    _call(clang, *_COMPILE, "-O2", "-c", "-x", "ir", whole, "-o", objects[0])
    for name in ("heap", "wide"):
        objects.append(room / f"{name}.o")
        source = ["-ffreestanding", "-nostdinc", "-x", "c", sources / f"{name}.c"]
        _call(clang, *_COMPILE, "-O2", "-c", *source, "-o", objects[-1])
    linked = room / "wide.wasm"
    words = [
        "-mwasm64", "--no-entry", "--gc-sections", "--stack-first", "-z", f"stack-size={_STACK}", "--export-memory",
        "--strip-all", *(f"--export={name}" for name in EXPORTS), *objects, "-o", linked,
    ]
    # lld is the linker of the target that the name by which it is called says
    _call("wasm-ld", *words, executable=kit / "toolchain" / "bin" / "ld.lld")
    return linked


def retargeted(text: str) -> str:
    """LLVM's text of a module, for WebAssembly in place of this machine's processor."""
    text = re.sub(r"^target datalayout = .*$", f'target datalayout = "{_LAYOUT}"', text, flags=re.MULTILINE)
    text = re.sub(r"^target triple = .*$", f'target triple = "{_TARGET}"', text, flags=re.MULTILINE)
    native = r' "(?:probe-stack|stack-probe-size|target-cpu|target-features|tune-cpu)"="[^"]*"'
    lines = [re.sub(native, "", line) if line.startswith("attributes ") else line for line in text.splitlines()]
    left = next((line for line in lines if "llvm.x86" in line or " asm " in line), None)
    if left:
        raise SystemExit(f"web/build: this is of one processor alone: {left.strip()}")
    return "\n".join(lines) + "\n"


def with_products(text: str, product: str) -> str:
    """LLVM's text of a module, in which products of 128 bits are made by `product`."""
    return re.sub(r"= mul (?:nuw |nsw )*i128 ([^,]+), ([^\s,]+)", r"= call i128 @wide_product(i128 \1, i128 \2)", text) + product


def _lowered(linked: pathlib.Path, room: pathlib.Path) -> bytes:
    """The module with a memory of 32 bits."""
    narrow, lowered = room / "narrow.wasm", room / "lowered.wasm"
    narrow.write_bytes(with_narrow_table(linked.read_bytes()))
    _call("wasm-opt", *_LOWER, narrow, "-o", lowered)
    return lowered.read_bytes()


def with_narrow_table(module: bytes) -> bytes:
    """The module with its one table, which is empty, as one of 32 bits: binaryen 108 knows no other."""
    made, at = bytearray(module), 8
    while at < len(made):
        section = made[at]
        length, body = _number(made, at + 1)
        if section == 4:  # tables: one, of functions, whose limits are of 64 bits and have a maximum
            if made[body:body + 3] != b"\x01\x70\x05":
                raise SystemExit("web/build: the linker made another table than was to be expected")
            made[body + 2] = 1
        if section == 9:
            raise SystemExit("web/build: the table of the module is not empty")
        at = body + length
    return bytes(made)


def _number(module: bytes | bytearray, at: int) -> tuple[int, int]:
    """A number of seven bits a byte, lowest first, and where it ends."""
    value = shift = 0
    while True:
        byte = module[at]
        value |= (byte & 127) << shift
        shift, at = shift + 7, at + 1
        if byte < 128:
            return value, at


def _call(*words: object, cwd: pathlib.Path | None = None, executable: pathlib.Path | None = None) -> None:
    """Runs a tool, and says what it said only where it failed."""
    said = [str(word) for word in words]
    ran = subprocess.run(
        said, cwd=cwd, executable=executable, stdout=subprocess.PIPE, stderr=subprocess.STDOUT, text=True,
        env={**os.environ, "LC_ALL": "C.UTF-8"},
    )
    if ran.returncode:
        raise SystemExit(f"web/build: {said[0]} failed:\n{ran.stdout}")
