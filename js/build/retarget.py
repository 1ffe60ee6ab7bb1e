"""Turns the LLVM module that `rattle build` makes for x86-64 into one for wasm64.

Both targets have pointers of 64 bits, the same sizes and alignments, and are little endian. Of
x86-64 the module has a triple, a layout, attributes of functions, and the intrinsic PSHUFB.
Anything else that could be of x86-64 is an error.
"""
import re

from repository import Failed

TRIPLES = ("x86_64-unknown-linux-gnu", "wasm64-unknown-unknown")
# The first is that of clang for x86-64. What it has beside the second are address spaces 270 to
# 272, a float of 80 bits, and registers narrower than 32 bits: no type of the module is of these.
LAYOUTS = ("e-m:e-p270:32:32-p271:32:32-p272:64:64-i64:64-i128:128-f80:128-n8:16:32:64-S128",
           "e-m:e-p:64:64-p10:8:8-p20:8:8-i64:64-i128:128-n32:64-S128-ni:1:10:20")
# How x86-64 looks for the end of the stack, and which processor it compiles for.
ATTRIBUTES = r'"(?:probe-stack|stack-probe-size|target-cpu)"="[^"]*" ?'
FOREIGN = r"addrspace\(|\bx86_|\basm\b|\bcc ?\d|\b[a-z0-9_]+cc\b"
# The functions outside of the module: the heap, and LLVM's own.
HEAP = {"declare { i64, i64 } @rattle_alloc(i64 noundef, i64 noundef)",
        "declare { i64, i64 } @rattle_realloc(ptr noundef, i64 noundef, i64 noundef, i64 noundef)",
        "declare void @rattle_dealloc(ptr noundef)"}
PSHUFB = "@llvm.x86.ssse3.pshuf.b.128"
# PSHUFB gives 0 where bit 7 of an index is set, and else takes its low four bits. WebAssembly's
# swizzle gives 0 for each index from 16 on. Of an index masked by 0x8F both are one function.
SHUFFLE = """
define internal <16 x i8> @pshufb(<16 x i8> %bytes, <16 x i8> %indices) alwaysinline nounwind {
  %masked = and <16 x i8> %indices, splat (i8 -113)
  %result = call <16 x i8> @llvm.wasm.swizzle(<16 x i8> %bytes, <16 x i8> %masked)
  ret <16 x i8> %result
}
declare <16 x i8> @llvm.wasm.swizzle(<16 x i8>, <16 x i8>)
"""
# What is inlined on x86-64, the parser of a kind. Inlined here too, the core has 102 kB by gzip.
INLINED = ("uri_parts::parse::parse",)


def once(text, old, new):
    if text.count(old) != 1:
        raise Failed(f"`{old}` is there {text.count(old)} times, and not once")
    return text.replace(old, new)


def without_pshufb(text):
    """The text with a function of its own in the place of the intrinsic."""
    if PSHUFB not in text:
        return text
    declared = rf"(?m)^declare <16 x i8> {re.escape(PSHUFB)}\(<16 x i8>, <16 x i8>\)[^\n]*\n"
    text, count = re.subn(declared, "", text)
    if count != 1:
        raise Failed(f"{PSHUFB} is declared {count} times, and not once")
    return text.replace(PSHUFB, "@pshufb") + SHUFFLE


def with_calls(text):
    """The text with what is inlined on x86-64 as functions that all exports call, for each kind."""
    for name in INLINED:
        defined = rf'(?m)^(define internal void @"{name}::<[^"]*>"\([^\n]*\)) #\d+ \{{$'
        text, count = re.subn(defined, r"\1 noinline nounwind {", text)
        if not count:
            raise Failed(f"there is no function {name}")
    return text


def stop_on_unknown(text):
    """Stops at what is of one processor, and at functions that this module would be linked with."""
    # (names of functions and metadata are in quotes)
    bare = re.sub(r'"[^"]*"', '""', text)
    if found := sorted({it[0] for it in re.finditer(rf"(?:{FOREIGN})[^\n]*", bare)}):
        raise Failed(f"of x86-64: {found[0]}")
    if found := sorted(set(re.findall(r'"[\w-]+"="[^"]*"', text))):
        raise Failed(f"the attribute {found[0]}")
    declared = re.findall(r"(?m)^(declare .*?\))(?: #\d+)?$", text)
    if len(declared) != len(re.findall(r"(?m)^declare ", text)):
        raise Failed("a declaration of a form that is not known")
    for it in declared:
        if it not in HEAP and not re.search(r" @llvm\.(?!x86\.|aarch64\.)", it):
            raise Failed(f"the function {it}")


def retargeted(text):
    """The module for wasm64."""
    text = once(text, f'target triple = "{TRIPLES[0]}"', f'target triple = "{TRIPLES[1]}"')
    text = once(text, f'target datalayout = "{LAYOUTS[0]}"', f'target datalayout = "{LAYOUTS[1]}"')
    text = with_calls(without_pshufb(re.sub(ATTRIBUTES, "", text)))
    stop_on_unknown(text)
    return text
