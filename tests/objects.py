"""Writes relocatable ELF32 objects of RISC-V, part by part. docs/OBJECTS.md says what each field means."""
import struct
from typing import NamedTuple

NULL, PROGBITS, SYMTAB, STRTAB, RELA, NOBITS, REL = 0, 1, 2, 3, 4, 8, 9
# SHF_ALLOC alone, with SHF_WRITE, and with SHF_EXECINSTR
CONSTANTS, DATA, CODE = 2, 3, 6
LOCAL, GLOBAL = 0, 1
NOTYPE, OBJECT, FUNC = 0, 1, 2
# R_RISCV_32 and others
WORD, CALL_PLT, PCREL_HI20, PCREL_LO12_I, HI20, LO12_I, ADD32, SUB32, RELAX = 1, 19, 23, 24, 26, 27, 35, 39, 51
RA, SP, T0, T1, S0, A0, RETURN = 1, 2, 5, 6, 8, 10, 0x00008067


class Section(NamedTuple):
    """A section: its type, flags and bytes, and sh_link, sh_info and sh_entsize."""
    kind: int
    flags: int = 0
    data: bytes = b''
    link: int = 0
    info: int = 0
    entry: int = 0


class Symbol(NamedTuple):
    name: bytes
    value: int = 0
    bind: int = LOCAL
    kind: int = NOTYPE
    section: int = 0
    size: int = 0


def code(*words):
    return struct.pack('<%dI' % len(words), *words)


def addi(rd, rs1, imm):
    return (imm & 0xFFF) << 20 | rs1 << 15 | rd << 7 | 0x13


def slli(rd, rs1, amount):
    return amount << 20 | rs1 << 15 | 1 << 12 | rd << 7 | 0x13


def add(rd, rs1, rs2):
    return rs2 << 20 | rs1 << 15 | rd << 7 | 0x33


def lui(rd, high):
    return (high & 0xFFFFF) << 12 | rd << 7 | 0x37


def jalr(rd, rs1, imm):
    return (imm & 0xFFF) << 20 | rs1 << 15 | rd << 7 | 0x67


def lw(rd, rs1, imm):
    return (imm & 0xFFF) << 20 | rs1 << 15 | 2 << 12 | rd << 7 | 0x03


def sw(rs1, rs2, imm):
    return (imm >> 5 & 0x7F) << 25 | rs2 << 20 | rs1 << 15 | 2 << 12 | (imm & 0x1F) << 7 | 0x23


def beq(rs1, rs2, distance):
    return ((distance >> 12 & 1) << 31 | (distance >> 5 & 0x3F) << 25 | rs2 << 20 | rs1 << 15 | (distance >> 1 & 0xF) << 8
            | (distance >> 11 & 1) << 7 | 0x63)


def reloc(offset, symbol, kind, addend=0):
    """An entry of a section of relocations."""
    return struct.pack('<IIi', offset, symbol << 8 | kind, addend)


def relocs(entries, about, symbol_table):
    """The section of the entries, which are about the section of an index."""
    return Section(RELA, 0, b''.join(entries), symbol_table, about, 12)


def names(symbols):
    """The bytes of a symbol table, after its zero symbol, and of its string table."""
    entries, strings, place = [bytes(16)], [b'\0'], 1
    for symbol in symbols:
        at = place if symbol.name else 0
        entries.append(struct.pack('<IIIBBH', at, symbol.value, symbol.size, symbol.bind << 4 | symbol.kind, 0, symbol.section))
        if symbol.name:
            strings.append(symbol.name + b'\0')
            place += len(symbol.name) + 1
    return b''.join(entries), b''.join(strings)


def tables(symbols, index):
    """The symbol table, which is the section of an index, and its string table, which is the next."""
    entries, strings = names(symbols)
    first_global = next((i for i, symbol in enumerate(symbols, 1) if symbol.bind), len(symbols) + 1)
    return [Section(SYMTAB, 0, entries, index + 1, first_global, 16), Section(STRTAB, 0, strings)]


def laid_out(sections):
    """The object of the sections after section 0: the file header, their bytes, the section headers, each at a multiple of 4."""
    parts, place = [], 52
    headers = [bytes(40)]
    for section in sections:
        headers.append(struct.pack('<10I', 0, section.kind, section.flags, 0, place, len(section.data), section.link,
                                   section.info, 4, section.entry))
        if section.kind != NOBITS:
            parts.append(section.data + bytes(-len(section.data) % 4))
            place += len(parts[-1])
    header = struct.pack('<16sHHIIIIIHHHHHH', b'\x7fELF\1\1\1', 1, 243, 1, 0, 0, place, 0, 52, 0, 0, 40, len(headers), 0)
    return b''.join([header] + parts + headers)
