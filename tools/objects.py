"""What an ELF object file of 32 or 64 bits, low octet first, holds: the sizes of its functions and constants, which
of them each needs, what it leaves undefined, and the frame that the compiler gave each function."""

import struct
from collections import namedtuple

Section = namedtuple("Section", "name kind flags offset size link info")
Symbol = namedtuple("Symbol", "name kind section")

WRITE, ALLOC = 1, 2
SYMBOLS, WITH_ADDENDS, WITHOUT_ADDENDS = 2, 4, 9
FUNCTION = 2


class Object:
    def __init__(self, octets):
        self.octets = octets
        if octets[:4] != b"\x7fELF" or octets[5] != 1:
            raise SystemExit("not an ELF object with the low octet first")
        self.wide = octets[4] == 2
        self.sections = self._sections()
        self.symbols = self._symbols()
        self.needs = self._needs()

    def _read(self, form, at):
        return struct.unpack_from("<" + form, self.octets, at)

    def _text(self, at):
        return self.octets[at : self.octets.index(0, at)].decode()

    def _sections(self):
        at, size, count, names = (
            (self._read("Q", 0x28)[0], *self._read("HHH", 0x3A)) if self.wide else (self._read("I", 0x20)[0], *self._read("HHH", 0x2E))
        )
        form = "IIQQQQIIQQ" if self.wide else "IIIIIIIIII"
        rows = [self._read(form, at + size * place) for place in range(count)]
        from_ = rows[names][4]
        return [Section(self._text(from_ + name), kind, flags, offset, length, link, info) for name, kind, flags, _, offset, length, link, info, _, _ in rows]

    def _symbols(self):
        table = next(section for section in self.sections if section.kind == SYMBOLS)
        names = self.sections[table.link].offset
        found = []
        for at in range(table.offset, table.offset + table.size, 24 if self.wide else 16):
            name, *rest = self._read("IBBHQQ" if self.wide else "IIIBBH", at)
            kind, section = (rest[0], rest[2]) if self.wide else (rest[2], rest[4])
            found.append(Symbol(self._text(names + name), kind & 15, section))
        return found

    def relocations(self, of):
        """Each place in a section that names a symbol, and the symbol."""
        for section in self.sections:
            if section.kind not in (WITH_ADDENDS, WITHOUT_ADDENDS) or section.info != of:
                continue
            step = {(True, True): 24, (True, False): 16, (False, True): 12, (False, False): 8}[self.wide, section.kind == WITH_ADDENDS]
            for at in range(section.offset, section.offset + section.size, step):
                place, info = self._read("QQ" if self.wide else "II", at)
                yield place, self.symbols[info >> 32 if self.wide else info >> 8]

    def _needs(self):
        """For each section that is loaded, the loaded ones that it names; itself where a function names itself."""
        loaded = {place for place, section in enumerate(self.sections) if section.flags & ALLOC}

        def named(place):
            return {symbol.section for _, symbol in self.relocations(place) if symbol.section != place or symbol.kind == FUNCTION}

        return {place: named(place) & loaded for place in loaded}

    def undefined(self):
        used = {symbol.name for place in self.needs for _, symbol in self.relocations(place)}
        return sorted({symbol.name for symbol in self.symbols if symbol.section == 0 and symbol.name} & used)

    def home(self, name):
        return next(symbol.section for symbol in self.symbols if symbol.name == name and symbol.section)

    def reached(self, name):
        """The sections of a function and of all that it needs."""
        found, waiting = set(), [self.home(name)]
        while waiting:
            place = waiting.pop()
            if place not in found:
                found.add(place)
                waiting += self.needs[place]
        return found

    def size(self, places=None):
        """Octets of code and constants, and octets of data that is written; unwinding tables are not linked."""
        sizes = [0, 0]
        for place in self.needs if places is None else places:
            section = self.sections[place]
            if not section.name.startswith((".ARM.ex", ".rel.ARM", ".eh_frame")):
                sizes[bool(section.flags & WRITE)] += section.size
        return tuple(sizes)

    def frames(self):
        """The compiler's frame of each function, by its section."""
        found = {}
        for number, section in enumerate(self.sections):
            if section.name != ".stack_sizes":
                continue
            width = 8 if self.wide else 4
            named = dict(self.relocations(number))
            at = 0
            while at < section.size:
                place, at = at, at + width
                frame = shift = 0
                while True:
                    octet = self.octets[section.offset + at]
                    frame, shift, at = frame | (octet & 0x7F) << shift, shift + 7, at + 1
                    if octet < 0x80:
                        break
                found[named[place].section] = frame
        return found

    def depth(self, name):
        """The frames from a function down to the deepest one that it calls, or None where calls recur."""
        return self._depth(self.home(name), self.frames(), ())

    def _depth(self, place, frames, above):
        if place in above:
            return None
        depths = [self._depth(called, frames, (*above, place)) for called in self.needs[place] if called in frames]
        return None if None in depths else frames[place] + max(depths, default=0)
