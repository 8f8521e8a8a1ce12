#!/usr/bin/env python3
"""Makes the declarations of the crate nms-sys of include/nms.h: constants, structs with their sizes, and functions.

    packages/nms_sys.py             writes rust/nms-sys/src/lib.rs
    packages/nms_sys.py --compare   says whether that file is what this would write; status 1 if not

The header keeps to a few forms. Text of another form stops this program, so that no declaration is left out.
"""
import os
import re
import sys

TOP = os.path.dirname(os.path.dirname(os.path.realpath(__file__)))
HEADER, CRATE = f"{TOP}/include/nms.h", f"{TOP}/rust/nms-sys/src/lib.rs"
TYPES = {"uint8_t": "u8", "uint16_t": "u16", "uint32_t": "u32", "uint64_t": "u64", "int64_t": "i64", "size_t": "usize", "void": "c_void"}
# The enums whose values stand in fields and arguments of one byte.
BYTES = {"nms_side", "nms_order_side", "nms_state", "nms_kind"}
HEAD = """//! The declarations of nms.h, made of it by packages/nms_sys.py. That header says what each call does.
//!
//! No pointer may be null: the header's inline functions test that, and the `nms_raw_` functions do not.

#![no_std]
#![allow(non_camel_case_types)]

use core::ffi::c_void;
use core::mem::{offset_of, size_of};
"""


class Header:
    """A header's text without its comments. What was read is taken out of it."""

    def __init__(self, text):
        declared = text.partition("/* ---- the calls ---- */")[0]
        self.left = re.sub(r"/\*.*?\*/", "", declared, flags=re.S)

    def take(self, pattern):
        """Each piece of that form, which is then taken out."""
        found = re.findall(pattern, self.left, re.M | re.S)
        self.left = re.sub(pattern, "", self.left, flags=re.M | re.S)
        return found

    def end(self):
        """Stops if anything is left but what C itself needs."""
        self.take(r"^#(?:include|ifndef|ifdef|else|endif|define NMS_H$|define NMS_HOLDS\(|define NMS_(?:BOARD|TERMS)_CLOSED)[^\n]*$")
        self.take(r"^extern \"C\" \{$")
        if self.left.strip():
            sys.exit(f"nms_sys.py: include/nms.h has text of no known form: {self.left.strip()[:200]!r}")


def fitting(pattern, text):
    """The parts of a text of that form, which it has to have."""
    found = re.fullmatch(pattern, text, re.S)
    if not found:
        sys.exit(f"nms_sys.py: include/nms.h has a declaration of no known form: {text!r}")
    return found.groups()


def constants(header):
    for name, text in header.take(r'^#define (NMS_\w+) "([^"\n]*)" *$'):
        yield f'pub const {name}: &str = "{text}";'
    for name, wide, bare in header.take(r"^#define (NMS_\w+) (?:UINT64_C\((\d+)\)|(\d+)) *$"):
        kind = "u64" if wide else "u32" if name in ("NMS_ABI", "NMS_MOST_SHARES") else "usize"
        yield f"pub const {name}: {kind} = {wide or bare};"


def enums(header):
    for name, body in header.take(r"^enum (nms_\w+) \{(.*?)\};$"):
        yield f"\n// enum {name}"
        for item in filter(None, (it.strip() for it in body.split(","))):
            key, value = fitting(r"(NMS_\w+) = (\d+)", item)
            yield f"pub const {key}: {'u8' if name in BYTES else 'u32'} = {value};"


def struct(name, body):
    """A struct. The two handles are never copied, so only they are not Copy."""
    is_handle = name in ("nms_board", "nms_terms")
    yield f"\n#[repr(C)]\n#[derive({'Debug' if is_handle else 'Clone, Copy, Debug, PartialEq, Eq'})]\npub struct {name} {{"
    for item in filter(None, (it.strip() for it in body.split(";"))):
        kind, names = fitting(r"(\w+) (.*)", item)
        for it in names.split(","):
            star, field, many = fitting(r"\s*(\*?)(\w+)(?:\[(\w+)\])?\s*", it)
            rust = f"*mut {TYPES.get(kind, kind)}" if star else TYPES.get(kind, kind)
            yield f"    pub {field}: {f'[{rust}; {many}]' if many else rust},"
    yield "}"
    if not is_handle:
        zero = "// SAFETY: its fields are numbers, and 0 is one of each.\n        unsafe { core::mem::zeroed() }"
        yield f"\nimpl Default for {name} {{\n    fn default() -> Self {{\n        {zero}\n    }}\n}}"


def facts(header):
    """The header's sizes and offsets."""
    yield "\nconst _: () = {"
    for fact in header.take(r'^NMS_HOLDS\((.*?), "[^"]*"\);$'):
        for one in fact.split(" && "):
            size, field, value = fitting(r"(?:sizeof\((nms_\w+|void \*)\)|offsetof\((\w+, \w+)\)) == (\d+)", one.strip())
            yield f"    assert!(offset_of!({field}) == {value});" if field else f"    assert!(size_of::<{size.replace('void *', '*mut c_void')}>() == {value});"
    yield "};"


def functions(header):
    yield '\nunsafe extern "C" {'
    for name, given in header.take(r"^uint32_t (nms_(?:abi|raw_\w+))\(([^)]*)\);\s*?$"):
        words = []
        for it in () if given == "void" else given.split(", "):
            const, kind, star, field = fitting(r"(const )?(\w+) (\*?)(\w+)", it)
            words.append(f"{field}: " + (f"*{'const' if const else 'mut'} " if star else "") + TYPES.get(kind, kind))
        yield f"    pub fn {name}({', '.join(words)}) -> u32;"
    yield "}"


def made():
    """The text of the crate."""
    with open(HEADER, encoding="ascii") as file:
        header = Header(file.read())
    lines = [HEAD, *constants(header), *enums(header)]
    for body, name in header.take(r"^typedef struct \w+ \{(.*?)\} (\w+);$"):
        lines += struct(name, body)
    lines += [*facts(header), *functions(header)]
    header.end()
    return "\n".join(lines) + "\n"


def main(words):
    if words not in ([], ["--compare"]):
        sys.exit(__doc__)
    text = made()
    if words:
        with open(CRATE, encoding="ascii") as file:
            return 0 if file.read() == text else "nms_sys.py: rust/nms-sys/src/lib.rs is not what include/nms.h says: run packages/nms_sys.py"
    with open(CRATE, "w", encoding="ascii") as file:
        file.write(text)
    return 0


if __name__ == "__main__":
    sys.exit(main(sys.argv[1:]))
