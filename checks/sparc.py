"""Instruction words by their fields, after appendix F of The SPARC Architecture Manual, Version 8. It shares nothing with
EEL."""

G0, G1, G2, O0, O1, O2, SP, O7, G6 = 0, 1, 2, 8, 9, 10, 14, 15, 6

# op3 of arithmetic and of loads and stores.
ADD, AND, OR, XOR, SUB, ANDN, ORN, XNOR, ADDX = range(9)
UMUL, SMUL, SUBX, UDIV, SDIV = 10, 11, 12, 14, 15
ADDCC, SUBCC, SLL, SRL, SRA, JMPL, TICC = 0x10, 0x14, 0x25, 0x26, 0x27, 0x38, 0x3a
LD, ST, SWAP = 0, 4, 0xf

NOP = 0x01000000


def signed(value, bits=32):
    """The number that so many low bits stand for."""
    value &= (1 << bits) - 1
    return value - (1 << bits) if value >> bits - 1 else value


class Word:
    """The fields of an instruction word."""

    def __init__(self, value):
        self.op, self.op2, self.op3 = value >> 30, value >> 22 & 7, value >> 19 & 63
        self.rd, self.rs1, self.rs2 = value >> 25 & 31, value >> 14 & 31, value & 31
        self.annul, self.cond = value >> 29 & 1, value >> 25 & 15
        self.imm22 = value & 0x3fffff
        self.simm13 = signed(value, 13) if value >> 13 & 1 else None
        self.disp22, self.disp30 = signed(value, 22), signed(value, 30)
        self.unused = value >> 5 & 0xff   # of a register operand

    def operand(self):
        """The second operand of format 3, as `form3` takes it."""
        return ('r', self.rs2) if self.simm13 is None else ('i', self.simm13)


def sethi(rd, value):
    return rd << 25 | 4 << 22 | value >> 10


def form3(op, rd, op3, rs1, operand):
    """An instruction of format 3. The operand is ('r', register) or ('i', number)."""
    kind, value = operand
    low = value if kind == 'r' else 1 << 13 | value & 0x1fff
    return op << 30 | rd << 25 | op3 << 19 | rs1 << 14 | low


def branch(cond, annul, displacement):
    return annul << 29 | cond << 25 | 2 << 22 | displacement & 0x3fffff


def call(displacement):
    return 1 << 30 | displacement & 0x3fffffff


def set_register(rd, value):
    return [sethi(rd, value), form3(2, rd, OR, rd, ('i', value & 0x3ff))]
