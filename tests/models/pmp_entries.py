"""The sixteen PMP entries, by the RISC-V Privileged Architecture 20211203, section 3.7.1. The model has the bytes that an entry covers, the verdict
on an access, computed byte by byte, and the effect of a write. Independent of the code under test.
"""

OFF, TOR, NA4, NAPOT = 0x00, 0x08, 0x10, 0x18
R, W, X, L = 0x01, 0x02, 0x04, 0x80
BIT = {"r": R, "w": W, "x": X}


def napot(base, size):
    """Returns the pmpaddr of a NAPOT entry."""
    return (base + size // 2 - 1) >> 2


def stored(cfg):
    """Returns a cfg byte after a write: bits 6:5 are 0, and W is 0 if R is."""
    return cfg & 0x9F & ~(0 if cfg & R else W)


class Entries:
    """Sixteen cfg bytes and pmpaddr words, from {number: (cfg, pmpaddr)}."""

    def __init__(self, entries=()):
        self.cfgs, self.addrs = [0] * 16, [0] * 16
        for i, (cfg, addr) in dict(entries).items():
            self.cfgs[i], self.addrs[i] = cfg, addr

    def matching(self, i):
        return self.cfgs[i] & 0x18

    def covers(self, i, byte):
        if self.matching(i) == TOR:
            below = self.addrs[i - 1] if i > 0 else 0
            return 4 * below <= byte < 4 * self.addrs[i]
        if self.matching(i) == NA4:
            return byte // 4 == self.addrs[i]
        if self.matching(i) == NAPOT:
            ones = 0
            while ones < 32 and self.addrs[i] >> ones & 1:
                ones += 1
            return byte >> (ones + 3) == 4 * self.addrs[i] >> (ones + 3)
        return False

    def verdict(self, mode, kind, address, width):
        """Returns the verdict, and the matching entry if there is one; the mode is a letter, and the kind r, w or x."""
        each = range(address, address + width)
        for i in range(16):
            covered = [self.covers(i, byte) for byte in each]
            if not any(covered):
                continue
            if not all(covered):
                return "DeniedPartial", i
            given = mode == "M" and not self.is_locked(i) or self.cfgs[i] & BIT[kind]
            return "Allowed" if given else "Denied", i
        return "AllowedFree" if mode == "M" else "DeniedFree", None

    # ---- the registers pmpcfg and pmpaddr

    def is_locked(self, i):
        return self.cfgs[i] & L != 0

    def cfg_word(self, number):
        return sum(self.cfgs[4 * number + i] << 8 * i for i in range(4))

    def write_cfg_word(self, number, word):
        """Writes each byte unless it is locked."""
        for i in range(4):
            if not self.is_locked(4 * number + i):
                self.cfgs[4 * number + i] = stored(word >> 8 * i & 0xFF)

    def write_addr(self, i, word):
        """Writes an address; a locked TOR entry also locks the address below it."""
        is_lower_bound = i < 15 and self.is_locked(i + 1) and self.matching(i + 1) == TOR
        if not self.is_locked(i) and not is_lower_bound:
            self.addrs[i] = word
