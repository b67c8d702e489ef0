"""Compiles the module of the library for WebAssembly: what the kit compiled for x86-64 is retargeted, since
the kit itself makes no such module of code that takes memory.

The module has 64-bit pointers on both targets, so that only the triple, the layout, what names a processor,
and how two registers come back from the two calls for memory are changed. The kit's clang and linker compile
it, by the words by which the kit compiles for WebAssembly. Binaryen's wasm-opt then makes a module with
32-bit memory of it, which every browser of today takes. No verdict speaks of what comes out: tests alone do.
"""
import pathlib
import re
import shutil
from typing import Iterator

import kit_build
import library_build
from kit_build import Unknown
from work import Work

# What the page calls of the module.
EXPORTS = [*library_build.TEXTS, "malloc", "free"]
# How the kit compiles for WebAssembly (its words against known faults of LLVM are among them).
TARGET = "--target=wasm64-unknown-unknown"
WORDS = [TARGET, "-mcpu=lime1",
         *"-mllvm -expand-div-rem-bits=64 -mllvm -expand-fp-convert-bits=64 -ffunction-sections "
          "-fdata-sections -mllvm -trap-unreachable -mllvm -no-x86-call-frame-opt -mllvm "
          "-disable-machine-licm -mllvm -disable-postra-machine-licm -mllvm -sink-common-insts=false "
          "--no-default-config -no-canonical-prefixes -fintegrated-cc1 -fno-crash-diagnostics".split()]
# What the processor of these words has, as wasm-opt calls it.
FEATURES = ["memory64", "bulk-memory", "sign-ext", "nontrapping-float-to-int", "multivalue",
            "mutable-globals", "extended-const"]
STACK = 1 << 20
_PROCESSOR = re.compile(
    r' "(target-cpu|target-features|tune-cpu|frame-pointer|probe-stack|stack-probe-size'
    r'|min-legal-vector-width)"="[^"]*"')
_MEMORY = re.compile(r"declare \{ i64, i64 \} @(rattle_alloc|rattle_realloc)\((.*)\).*\n")
# By the convention of this target two registers come back through memory: NAME, its parameters, what it is
# called with, its types.
SHIM = """define internal {{ i64, i64 }} @{0}({1}) nounwind {{
  %both = alloca [2 x i64], align 16
  call void @{0}_c(ptr %both, {2})
  %is = load i64, ptr %both
  %second = getelementptr i8, ptr %both, i64 8
  %at = load i64, ptr %second
  %one = insertvalue {{ i64, i64 }} poison, i64 %is, 0
  %two = insertvalue {{ i64, i64 }} %one, i64 %at, 1
  ret {{ i64, i64 }} %two
}}
declare void @{0}_c(ptr, {3})
"""


def _shim(name: str, words: str) -> str:
    types = [it.split()[0] for it in words.split(",")]
    taken = ", ".join(f"{it} %a{number}" for number, it in enumerate(types))
    return SHIM.format(name, taken, taken, ", ".join(types))


def retargeted(text: Iterator[str], layout: str) -> Iterator[str]:
    """The lines of a module for x86-64, for WebAssembly."""
    for line in text:
        memory = _MEMORY.fullmatch(line)
        if line.startswith("target datalayout"):
            yield layout
        elif line.startswith("target triple"):
            yield 'target triple = "wasm64-unknown-unknown"\n'
        elif line.startswith("attributes "):
            kept = _PROCESSOR.sub("", line).replace(" uwtable", "")
            # A set of attributes that has become empty can't be read again.
            yield "" if kept.endswith("= { }\n") else kept
        elif memory:
            yield _shim(memory[1], memory[2])
        else:
            yield line


def _layout(work: Work, clang: str, room: pathlib.Path) -> str:
    """The line of a module of this target that says how data lies."""
    (room / "empty.c").write_text("int it;\n", encoding="utf-8")
    kit_build.run(work, room,
                  [clang, TARGET, "--no-default-config", "-S", "-emit-llvm", "empty.c", "-o", "empty.ll"])
    for line in (room / "empty.ll").read_text(encoding="utf-8").splitlines():
        if line.startswith("target datalayout"):
            return f"{line}\n"
    raise Unknown("the kit's clang says nothing of how data lies on wasm64")


def wasm_opt() -> str:
    """The path of Binaryen's wasm-opt, or `Unknown`."""
    found = shutil.which("wasm-opt")
    if found is None:
        raise Unknown("wasm-opt is missing (Debian: apt-get install binaryen)")
    return found


def module_of(work: Work, kit: pathlib.Path, made: pathlib.Path, source: pathlib.Path,
              room: pathlib.Path) -> pathlib.Path:
    """The module for a page, made in a room of the library in a folder; `source` has heap.c."""
    clang, opt = str(kit / "toolchain" / "bin" / "clang"), wasm_opt()
    (room / "tmp").mkdir(exist_ok=True)
    words = (made / library_build.WORDS).read_text(encoding="utf-8").splitlines()
    kit_build.run(work, room, [clang, *words, "-S", "-emit-llvm", "-Xclang", "-disable-llvm-passes",
                               str(made / library_build.MODULE), "-o", "native.ll"])
    layout = _layout(work, clang, room)
    with (open(room / "native.ll", encoding="utf-8", errors="surrogateescape") as text,
          open(room / "page.ll", "w", encoding="utf-8", errors="surrogateescape") as out):
        out.writelines(retargeted(text, layout))
    work.told.tell("compiling the module for WebAssembly")
    kit_build.run(work, room,
                  [clang, *WORDS, "-Wno-override-module", "-O3", "-c", "-x", "ir", "page.ll", "-o", "page.o"],
                  [clang, *WORDS, "-Wno-override-module", "-O3", "-ffreestanding", "-nostdinc",
                   "-fno-builtin", "-std=c11", "-c", str(source / "heap.c"), "-o", "heap.o"])
    shown = [f"--export={it}" for it in EXPORTS]
    kit_build.run(work, room, [str(kit / "toolchain" / "bin" / "ld.lld"), "-flavor", "wasm", "-mwasm64",
                               "--no-entry", "--stack-first", "-z", f"stack-size={STACK}", "--gc-sections",
                               "--threads=1", "--strip-debug", *shown, "-o", "wide.wasm", "page.o", "heap.o"])
    kit_build.run(work, room, [opt, *(f"--enable-{it}" for it in FEATURES), "--memory64-lowering",
                               "wide.wasm", "-o", "page.wasm"])
    return room / "page.wasm"
