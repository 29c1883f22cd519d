"""The library for other systems and as a module of WebAssembly, out of the intermediate code of the proved crate roam_c.

The proof of roam_c leaves roam_c.bc beside libroam_c.a: what the toolchain hands to its compiler for Linux on x86-64. It has no
instruction of one processor and calls nothing but the three functions of the heap, so with another triple and another data
layout it is code for each system whose addresses have 64 bits. Nothing is proved anew; docs/THEOREM.md says what is trusted.
Compiled it is by the toolchain's clang, since the code is of its LLVM, and linked by each system's own linker."""
from __future__ import annotations

import os
import re
import shutil
from collections.abc import Callable
from dataclasses import dataclass
from pathlib import Path

from steps import Refused, run, tool

LIB = Path(__file__).resolve().parent
CODE = "roam_c.bc"
LINUX = "x86_64-unknown-linux-gnu"  # what the intermediate code is made for
PLAIN = ["--no-default-config", "-Wno-override-module"]
CALL = re.compile(r"^define [^@\n]*@(roam_[a-z_]+)\(", re.MULTILINE)
# What the code says of the processor and the stack that it is made for.
OF_A_PROCESSOR = re.compile(r'"(?:probe-stack|stack-probe-size|target-cpu|target-features|tune-cpu)"="[^"]*" ?')
# Of WebAssembly what each browser and Node have had since 2020.
WASM = ["bulk-memory", "sign-ext", "nontrapping-fptoint", "mutable-globals"]
FEATURES = ["memory64", "bulk-memory", "sign-ext", "nontrapping-float-to-int", "mutable-globals"]  # binaryen's names
STACK = 1 << 20
TABLES, ELEMENTS = 4, 9  # sections of a module
SYSTEM = """--- !tapi-tbd
tbd-version: 4
targets: [ {target} ]
install-name: '/usr/lib/libSystem.B.dylib'
exports:
  - targets: [ {target} ]
    symbols: [ _malloc, _realloc, _free, _memcpy, _memmove, _memset, _memset_pattern16, _bzero, ___bzero, dyld_stub_binder ]
...
"""


def clang() -> Path:
    """The compiler of the toolchain."""
    driver = shutil.which("rt")
    found = Path(driver).resolve().parent.parent / "toolchain/bin/clang" if driver else None
    if not found or not found.is_file():
        raise Refused("other systems want the toolchain's clang, beside the command 'rt' on PATH", 127)
    return found


def beside(name: str, room: Path) -> Path:
    """A command that the toolchain's clang is by this name, as wasm-ld."""
    link = room / "tools" / name
    if not link.exists():
        link.parent.mkdir(exist_ok=True)
        link.symlink_to(clang())
    return link


def text_of(code: Path, room: Path) -> str:
    """The intermediate code as text."""
    text = room / f"{code.stem}.ll"
    run(clang(), f"--target={LINUX}", *PLAIN, "-x", "ir", code, "-S", "-emit-llvm", "-O0", "-Xclang", "-disable-llvm-passes",
        "-o", text)
    return text.read_text(encoding="utf-8")


def retargeted(text: str, triple: str, room: Path) -> str:
    """The intermediate code of one system as that of another: its triple and its data layout."""
    source, empty = room / "empty.c", room / "empty.ll"
    source.write_text("int none;\n", encoding="ascii")
    run(clang(), f"--target={triple}", *PLAIN, "-S", "-emit-llvm", source, "-o", empty)
    lines = {it.split()[1]: it for it in empty.read_text(encoding="utf-8").splitlines() if it.startswith("target ")}
    for word, line in lines.items():
        text = re.sub(rf"^target {word} = .*$", line, text, flags=re.MULTILINE)
    return OF_A_PROCESSOR.sub("", text)


def compiled(text: str, triple: str, made: Path, *words: str) -> Path:
    """An object file of intermediate code."""
    source = made.with_suffix(".ll")
    source.write_text(retargeted(text, triple, made.parent), encoding="utf-8")
    run(clang(), f"--target={triple}", *PLAIN, "-O3", "-ffunction-sections", *words, "-x", "ir", "-c", source, "-o", made)
    return made


def heap_of(room: Path) -> str:
    """The intermediate code of lib/heap.c. The code of roam_c expects what its functions answer in registers, which C of Windows
    does not; so it is compiled for Linux too, and then takes the same way."""
    made = room / "heap_code.ll"
    builtin = run(os.environ.get("CC", "cc"), "-print-file-name=include").strip()  # stddef.h and stdbool.h
    run(clang(), f"--target={LINUX}", *PLAIN, "-std=c99", "-O2", "-Wall", "-Wextra", "-isystem", builtin, "-S", "-emit-llvm",
        LIB / "heap.c", "-o", made)
    return made.read_text(encoding="utf-8")


# --- WebAssembly. ---


def without_tables(module: bytes) -> bytes:
    """The module without its section of tables: no call of it is indirect, and Node 20 knows no table of 64-bit indices."""
    kept, at = module[:8], 8
    while at < len(module):
        size, shift, end = 0, 0, at + 1
        while True:
            size |= (module[end] & 127) << shift
            shift, end = shift + 7, end + 1
            if module[end - 1] < 128:
                break
        if module[at] == ELEMENTS:
            raise Refused("the code has indirect calls, which the module's table would be wanted for")
        if module[at] != TABLES:
            kept += module[at:end + size]
        at = end + size
    return kept


def make_module(code: Path, room: Path) -> Path:
    """calfrewin.wasm: no imports; the calls of roam.h, `take`, `give` and `memory`. Addresses have 32 bits, numbers of 64 bits
    are BigInt in JavaScript."""
    optimizer, triple, words = tool("wasm-opt"), "wasm64-unknown-unknown", [f"-m{it}" for it in WASM]
    text = text_of(code, room)
    objects = [compiled(text, triple, room / "roam.o", *words)]
    for name in ("heap", "wide"):
        objects.append(room / f"{name}.o")
        run(clang(), f"--target={triple}", *PLAIN, "-O3", *words, "-std=c99", "-ffreestanding", "-Wall", "-Wextra",
            "-Wno-incompatible-library-redeclaration", "-c", LIB / f"wasm/{name}.c", "-o", objects[-1])
    linked, module = room / "linked.wasm", room / "calfrewin.wasm"
    run(beside("wasm-ld", room), "-mwasm64", "--no-entry", "--stack-first", "-z", f"stack-size={STACK}", "--gc-sections",
        "--strip-all", *(f"--export={it}" for it in CALL.findall(text)), *objects, "-o", linked)
    linked.write_bytes(without_tables(linked.read_bytes()))
    run(optimizer, *(f"--enable-{it}" for it in FEATURES), "--memory64-lowering", linked, "-o", module)
    return module


# --- Other systems. ---


def link_linux(target: Target, objects: list[Path], calls: list[str], room: Path) -> list[Path]:
    script, made = room / "calls", room / target.shared
    script.write_text("{ global: roam_*; local: *; };\n", encoding="ascii")
    run(tool("aarch64-linux-gnu-gcc"), "-shared", "-o", made, "-Wl,-soname,libroam.so.1", f"-Wl,--version-script={script}",
        "-Wl,--no-undefined", *objects)
    return [made]


def link_windows(target: Target, objects: list[Path], calls: list[str], room: Path) -> list[Path]:
    """roam.dll, and roam.lib, which the linkers of MinGW and of MSVC take in the place of it."""
    names, made, imported = room / "roam.def", room / target.shared, room / "roam.lib"
    names.write_text("LIBRARY roam.dll\nEXPORTS\n" + "".join(f"  {it}\n" for it in calls), encoding="ascii")
    run(tool("x86_64-w64-mingw32-gcc"), "-shared", "-static-libgcc", "-o", made, *objects, names)
    run(beside("llvm-dlltool", room), "-m", "i386:x86-64", "-d", names, "-l", imported)
    return [made, imported]


def link_macos(target: Target, objects: list[Path], calls: list[str], room: Path) -> list[Path]:
    """libroam.dylib; of the system's library the names alone are wanted, so no SDK."""
    processor, made, system = target.triple.partition("-")[0], room / target.shared, room / "libSystem.tbd"
    system.write_text(SYSTEM.format(target=f"{processor}-macos"), encoding="ascii")
    exported = [word for it in calls for word in ("-exported_symbol", f"_{it}")]
    run(beside("ld64.lld", room), "-arch", processor, "-platform_version", "macos", "11.0", "11.0", "-dylib", "-install_name",
        f"@rpath/{target.shared}", *exported, *objects, system, "-o", made)
    return [made]


@dataclass(frozen=True)
class Target:
    """A system that the library is made for."""

    triple: str
    shared: str  # the file of the shared library
    wheel: str  # how Python calls the system
    runtime: str  # how NuGet calls it
    link: Callable[[Target, list[Path], list[str], Path], list[Path]]
    archive: str = "gnu"  # the format of the static library


TARGETS = {
    "aarch64-linux": Target("aarch64-unknown-linux-gnu", "libroam.so", "manylinux_2_17_aarch64.manylinux2014_aarch64",
                            "linux-arm64", link_linux),
    "x86_64-windows": Target("x86_64-w64-windows-gnu", "roam.dll", "win_amd64", "win-x64", link_windows),
    "aarch64-macos": Target("arm64-apple-macos11", "libroam.dylib", "macosx_11_0_arm64", "osx-arm64", link_macos, "darwin"),
    "x86_64-macos": Target("x86_64-apple-macos11", "libroam.dylib", "macosx_11_0_x86_64", "osx-x64", link_macos, "darwin"),
}


def make_libraries(target: Target, code: Path, room: Path) -> list[Path]:
    """libroam.a and the shared library of a system, with what its linkers want beside it."""
    text = text_of(code, room)
    position = [] if target.shared.endswith(".dll") else ["-fPIC"]
    objects = [compiled(text, target.triple, room / "roam.o", *position),
               compiled(heap_of(room), target.triple, room / "heap.o", *position)]
    static = room / "libroam.a"
    run(beside("llvm-ar", room), f"--format={target.archive}", "rcs", static, *objects)
    return [static, *target.link(target, objects, sorted(CALL.findall(text)), room)]
