"""The devices in Python, by the tables of docs/DEVICES.md alone: what a device with its fuses drives and stores, its decompiled
source, and how two fuse files of it differ. None of it is the program's own code, against which it is held.
"""
import re
from collections import namedtuple

# A cell: the row that enables it, None where a pin does while it is low; its data rows; "c" combinational, "r" a register, "rc" either;
# and whether it always drives its pin or never, None where that is for its enable.
Cell = namedtuple("Cell", "enable data kinds always", defaults=[None])


class Device:
    """A device: what its pairs of columns carry, its cells by pin, and its control fuses.

    Of the cells in their order, `polarity` and `kind` are the fuses that say by 0 that a cell inverts and that it is a register;
    `before` says that a register takes the complement in place of its pin. A row is off while the fuse from `switches` on is 0;
    `fixed` has the fuses of one level. `enabling` is the pin that enables registers, `unread` one that no source may read. `mode` is that
    of a chip that has some, with the pins whose AC1 is 0.
    """

    def __init__(self, pins, fuses, pairs, cells, clock=0, enabling=None, reset=None, preset=None, polarity=(), kind=(), before=False,
                 switches=None, fixed=(), unread=None, mode=None):
        self.pins, self.ground, self.fuses, self.pairs, self.cells = pins, pins // 2, fuses, pairs, cells
        self.width, self.clock, self.enabling, self.reset, self.preset = 2 * len(pairs), clock, enabling, reset, preset
        self.polarity, self.kind, self.before = dict(zip(cells, polarity)), dict(zip(cells, kind)), before
        self.switches, self.fixed, self.unread, self.mode = switches, dict(fixed), unread, mode
        ends = [cell.data.stop for cell in cells.values()] + [row + 1 for row in (reset, preset) if row is not None]
        self.rows = max(ends)
        # the fuses that a design chooses one by one
        self.controls = sorted([*self.polarity.values(), *self.kind.values()])

    def inputs(self):
        """The pins that columns carry and that are no cell's."""
        return sorted(set(self.pairs) - set(self.cells))


def blocks(pins, height, registers=()):
    """Cells of so many rows each, from row 0 on. The first row enables, but of a register it is data."""
    cells = {}
    for number, pin in enumerate(pins):
        first, last = height * number, height * (number + 1)
        cells[pin] = Cell(None, range(first, last), "r") if pin in registers else Cell(first, range(first + 1, last), "c")
    return cells


def either(pins, rooms):
    """Cells of either kind behind row 0, each an enable row with its data rows."""
    cells, row = {}, 1
    for pin, room in zip(pins, rooms):
        cells[pin] = Cell(row, range(row + 1, row + 1 + room), "rc")
        row += 1 + room
    return cells


REGISTERS = {"L8": range(0), "R4": range(14, 18), "R6": range(13, 19), "R8": range(12, 20)}
L8 = [2, 1, 3, 18, 4, 17, 5, 16, 6, 15, 7, 14, 8, 13, 9, 11]
R = [2, 19, 3, 18, 4, 17, 5, 16, 6, 15, 7, 14, 8, 13, 9, 12]
L8_24 = [2, 1, 3, 23, 4, 21, 5, 20, 6, 19, 7, 18, 8, 17, 9, 16, 10, 14, 11, 13]
R_24 = [2, 23, 3, 22, 4, 21, 5, 20, 6, 19, 7, 18, 8, 17, 9, 16, 10, 15, 11, 14]
L10 = [2, 1, 3, 22, 4, 21, 5, 20, 6, 19, 7, 18, 8, 17, 9, 16, 10, 15, 11, 13]
V10_24 = [1, 23, 2, 22, 3, 21, 4, 20, 5, 19, 6, 18, 7, 17, 8, 16, 9, 15, 10, 14, 11, 13]
V10_20 = [1, 19, 2, 18, 3, 17, 4, 16, 5, 15, 6, 14, 7, 13, 8, 12, 11, 9]


def pal(mode, pins=20, **controls):
    """A PAL16 or a PAL20 by its mode, or what has its array."""
    top, pairs = (19, (L8, R)) if pins == 20 else (22, (L8_24, R_24))
    registers = [pin + top - 19 for pin in REGISTERS[mode]]
    clocked = {"clock": 1, "enabling": 11 if pins == 20 else 13} if registers else {}
    array = 64 * 2 * len(pairs[0])
    return Device(pins, array + controls.pop("more", 0), pairs[bool(registers)], blocks(range(top, top - 8, -1), 8, registers),
                  **clocked, **controls)


def gal16v8(mode):
    """The GAL16V8 in the place of a PAL16: XOR, AC1, PTD, SYN and AC0."""
    kinds = {2120 + cell: int(19 - cell not in REGISTERS[mode]) for cell in range(8)}
    return pal(mode, more=146, polarity=range(2048, 2056), before=True, switches=2128, fixed={**kinds, 2192: int(mode == "L8"), 2193: 1})


# Of a chip with modes: its pins, the first cell's pin, the pin that enables registers, and its columns in simple, complex and registered mode.
CHIPS = {
    "GAL16V8": (20, 19, 11, {"simple": [2, 1, 3, 19, 4, 18, 5, 17, 6, 14, 7, 13, 8, 12, 9, 11], "complex": L8, "registered": R}),
    "GAL20V8": (24, 22, 13, {"simple": [2, 1, 3, 23, 4, 22, 5, 21, 6, 20, 7, 17, 8, 16, 9, 15, 10, 14, 11, 13], "complex": L8_24,
                             "registered": R_24}),
}


def in_mode(name, mode, zeros=()):
    """A chip in a mode, in which AC1 of these cells is 0: XOR, AC1, PTD, SYN and AC0."""
    pins, top, enabling, pairs = CHIPS[name]
    places, first = range(top, top - 8, -1), 128 * len(pairs[mode])
    cells = blocks(places, 8, zeros if mode == "registered" else ())
    if mode == "simple":
        cells = {pin: Cell(None, range(8 * place, 8 * place + 8), "c", pin in zeros) for place, pin in enumerate(places)}
    kinds = {first + 72 + place: int(pin not in zeros) for place, pin in enumerate(places)}
    clocked = {"clock": 1, "enabling": enabling} if mode == "registered" else {}
    return Device(pins, first + 146, pairs[mode], cells, **clocked, polarity=range(first, first + 8), before=True, switches=first + 80,
                  fixed={**kinds, first + 144: int(mode != "registered"), first + 145: int(mode != "simple")}, mode=(mode, frozenset(zeros)))


def device_of(name, fuses):
    """The device that a file of this name is for: of a chip with modes, in the mode that its fuses say."""
    if name not in CHIPS:
        return DEVICES[name]
    top, first = CHIPS[name][1], DEVICES[name].fuses - 146
    syn, ac0 = fuses[first + 144 : first + 146]
    mode = ("complex" if ac0 else "simple") if syn else "registered"
    zeros = [pin for place, pin in enumerate(range(top, top - 8, -1)) if not fuses[first + 72 + place]]
    return in_mode(name, mode, () if mode == "complex" else zeros)


def gal22v10(more=0, **controls):
    """The GAL22V10, or what has its cells: S0 and S1."""
    cells = either(range(23, 13, -1), [8, 10, 12, 14, 16, 16, 14, 12, 10, 8])
    return Device(24, 5892 + more, V10_24, cells, 1, None, 0, 131, range(5808, 5828, 2), range(5809, 5828, 2), **controls)


DEVICES = {f"P16{mode}": pal(mode) for mode in REGISTERS}
DEVICES["GAL22V10"] = gal22v10()
DEVICES |= {f"GAL16V8{mode.replace('L8', 'C')}": gal16v8(mode) for mode in REGISTERS}
DEVICES |= {f"P20{mode}": pal(mode, 24) for mode in REGISTERS}
DEVICES |= {
    "P20L10": Device(24, 1600, L10, blocks(range(23, 13, -1), 4)),
    "P16P8": pal("L8", more=8, polarity=range(2048, 2056)),
    "P18P8": Device(20, 2600, L8 + [19, 12], blocks(range(19, 11, -1), 9), polarity=range(2592, 2600)),
    "GAL18V10": Device(20, 3540, V10_20, either([*range(19, 10, -1), 9], [8, 8, 8, 8, 10, 10, 8, 8, 8, 8]), 1, None, 0, 95,
                       range(3456, 3476, 2), range(3457, 3476, 2)),
    "ATF22V10C": gal22v10(1, fixed={5892: 0}, unread=4),
}
DEVICES |= {name: in_mode(name, "complex") for name in CHIPS}


class Loop(Exception):
    """The cells wait for each other."""


class Path(Exception):
    """The reset reads a register."""


class Chip:
    """A device with its fuses, a list of 0 and 1."""

    def __init__(self, name, fuses):
        self.name, self.fuses, self.device = name, fuses, device_of(name, fuses)
        device = self.device
        self.pins, self.ground, self.pairs, self.clock = device.pins, device.ground, device.pairs, device.clock
        self.reset, self.preset = device.reset, device.preset
        self.cells = list(device.cells)
        self.registers = [pin for pin, cell in device.cells.items() if cell.kinds == "r" or cell.kinds == "rc" and not fuses[device.kind[pin]]]
        self.rows = {row: self.row(row) for row in range(device.rows)}

    # ---- rows

    def row(self, number):
        """What a row asks, as pairs of a pin and whether it is the lower column; None where it is never true."""
        width, switches = self.device.width, self.device.switches
        levels = self.fuses[width * number : width * number + width]
        asked = []
        for place, pin in enumerate(self.pairs):
            lower, higher = levels[2 * place : 2 * place + 2]
            if lower == higher == 0:
                return None
            if not (lower and higher):
                asked.append((pin, not lower))
        if switches is not None and not self.fuses[switches + number]:
            return None
        return asked

    def enable(self, pin):
        """The row that enables a cell; None where a pin does."""
        return self.device.cells[pin].enable

    def always(self, pin):
        """Whether a cell always drives its pin, or never; None where that is for its enable."""
        return self.device.cells[pin].always

    def data(self, pin):
        """The data rows of a cell."""
        return self.device.cells[pin].data

    def control(self, pin):
        """The polarity fuse: 1 where nothing is complemented at a combinational pin."""
        return self.fuses[self.device.polarity[pin]] if self.device.polarity else 0

    def inverts(self, pin):
        """Whether the pin has the complement of the OR, or of Q."""
        return not self.control(pin) or self.device.before and pin in self.registers

    def takes_complement(self, pin):
        """Whether the register takes the complement of the OR."""
        return self.device.before and bool(self.control(pin))

    # ---- reads

    def never_drives(self, pin):
        row = self.enable(pin)
        return self.always(pin) is False or row is not None and self.rows[row] is None

    def cells_read(self, pin, rows):
        return {other for row in rows for other, _ in self.rows[row] or [] if other in self.cells}

    def rest_reads(self, pin):
        """The cells that a cell reads while it comes to rest."""
        if self.never_drives(pin):
            return set()
        rows = [] if self.enable(pin) is None else [self.enable(pin)]
        return self.cells_read(pin, rows + ([] if pin in self.registers else list(self.data(pin))))

    def load(self):
        """Raises what the program refuses: a loop, or a path from the reset to a register."""
        waits = {pin: self.rest_reads(pin) - set(self.registers) for pin in self.cells}
        done = set()
        while ready := [pin for pin in self.cells if pin not in done and waits[pin] <= done]:
            done.update(ready)
        if len(done) < len(self.cells):
            raise Loop
        seen, front = set(), set() if self.reset is None else self.cells_read(0, [self.reset])
        while front:
            if front & set(self.registers):
                raise Path
            seen |= front
            front = set().union(*(self.rest_reads(pin) for pin in front)) - seen

    def variables(self):
        """The pins whose outside levels count, and the registers."""
        read = {pin for asked in self.rows.values() for pin, _ in asked or []} - set(self.registers)
        return read | ({self.device.enabling} - {None}), set(self.registers)

    # ---- the source

    def reads(self, pin):
        """Whether an equation of the source reads the pin."""
        return any(word == f"p{pin}" for line in self.equations() for word in re.findall(r"p\d+", line.partition("=")[2]))

    def product(self, row):
        words = []
        for pin, lower in self.rows[row]:
            if pin in self.registers:
                words.append(f"{'!' if lower else ''}p{pin}.Q")
            else:
                words.append(f"{'' if lower else '!'}p{pin}")
        return " & ".join(words) or "1"

    def enable_or_zero(self, row):
        return "0" if self.rows[row] is None else self.product(row)

    def equations(self):
        for pin in self.cells:
            register = pin in self.registers
            if not register and self.never_drives(pin):
                continue
            products = [self.product(row) for row in self.data(pin) if self.rows[row] is not None]
            turned = self.takes_complement(pin) if register else self.inverts(pin)
            yield f"{'!' if turned else ''}p{pin}{'.D' if register else ''} = {' # '.join(products) or '0'};"
            if self.enable(pin) is not None:
                yield f"p{pin}.OE = {self.enable_or_zero(self.enable(pin))};"
        first = next((pin for pin in self.cells if pin in self.registers), None)
        for word, row in (("AR", self.reset), ("SP", self.preset)):
            if first is not None and row is not None and self.rows[row] is not None:
                yield f"p{first}.{word} = {self.product(row)};"

    def source(self):
        """The decompiled source."""
        equations = list(self.equations())
        named = sorted({int(pin) for pin in re.findall(r"p(\d+)", " ".join(equations))})
        lines = ["module chip", f"d device '{self.name}';"]
        for pin in named:
            kind = f" istype 'reg,{'invert' if self.inverts(pin) else 'buffer'}'" if pin in self.registers else ""
            lines.append(f"p{pin} pin {pin}{kind};")
        return "\n".join([*lines, "equations", *equations, "end"]) + "\n"


class Rest:
    """A device at rest in many states at once: bit k of a level, of a Q and of all that is worked out of them is that of state k.
    A level is found when it is first looked at.
    """

    def __init__(self, chip, outside, stored, states=1):
        self.chip, self.outside, self.stored, self.found = chip, outside, stored, {}
        self.all = (1 << states) - 1

    def turned(self, value, turns):
        """The value, or where it is turned its complement."""
        return value ^ self.all if turns else value

    def is_true(self, row):
        if self.chip.rows[row] is None:
            return 0
        value = self.all
        for pin, lower in self.chip.rows[row]:
            value &= self.turned(self.carried(pin), not lower)
        return value

    def carried(self, pin):
        """What the lower column of the pin's pair has."""
        return self.turned(self.q(pin), True) if pin in self.chip.registers else self.level(pin)

    def is_reset(self):
        return 0 if self.chip.reset is None else self.once("reset", self.is_true, self.chip.reset)

    def is_preset(self):
        return 0 if self.chip.preset is None else self.is_true(self.chip.preset)

    def q(self, pin):
        return self.stored.get(pin, 0) & ~self.is_reset()

    def drives(self, pin):
        row = self.chip.enable(pin)
        if self.chip.always(pin) is not None:
            return self.all * self.chip.always(pin)
        return self.turned(self.level(self.chip.device.enabling), True) if row is None else self.once(("drives", pin), self.is_true, row)

    def sum(self, pin):
        value = 0
        for row in self.chip.data(pin):
            value |= self.is_true(row)
        return value

    def level(self, pin):
        return self.once(pin, self.driven, pin) if pin in self.chip.cells else self.outside.get(pin, 0)

    def driven(self, pin):
        """The level of a cell's pin: the cell's where it drives, else that from outside."""
        drives = self.drives(pin)
        value = (self.q(pin) if pin in self.chip.registers else self.sum(pin)) if drives else 0
        return drives & self.turned(value, self.chip.inverts(pin)) | ~drives & self.outside.get(pin, 0)

    def once(self, key, work, *words):
        if key not in self.found:
            self.found[key] = work(*words)
        return self.found[key]

    def next_q(self, pin):
        """The Q after a rising clock."""
        taken = self.turned(self.sum(pin), self.chip.takes_complement(pin))
        return (taken | self.is_preset()) & ~self.is_reset()

    def shown(self):
        """The levels of all pins, the Q of each cell, 0 where there is no register, and where each cell drives."""
        chip = self.chip
        qs = [self.q(pin) if pin in chip.registers else 0 for pin in chip.cells]
        return [*map(self.level, range(1, chip.pins + 1)), *qs, *map(self.drives, chip.cells)]

    def stored_then(self):
        """The Qs that stay stored, by pin."""
        return {pin: self.q(pin) for pin in self.chip.registers}

    def seen(self, pin):
        """What a test finds at a cell's pin, in one state."""
        return "LH"[self.level(pin)] if self.drives(pin) else "Z"

    def stepped(self):
        """The Q of each cell after a rising clock; that of a cell without a register is 0."""
        return [self.next_q(pin) if pin in self.chip.registers else 0 for pin in self.chip.cells]


# ---- two files


def differences(a, b, outside, stored, states=1):
    """The states in which two devices show something else at rest, and those in which they don't and a rising clock gives other Qs."""
    first, second = Rest(a, outside, stored, states), Rest(b, outside, stored, states)
    at_rest = clocked = 0
    for one, other in zip(first.shown(), second.shown()):
        at_rest |= one ^ other
    if a.clock:
        for one, other in zip(first.stepped(), second.stepped()):
            clocked |= one ^ other
    return at_rest, clocked & ~at_rest & ~outside.get(a.clock, 0)


def all_states(a, b):
    """Each pin and Q that counts in one of the two, with its level in every state of them all, and how many states these are."""
    (pins, qs), (more, further) = a.variables(), b.variables()
    pins, qs = sorted(pins | more), sorted(qs | further)
    states = 1 << len(pins) + len(qs)
    # of variable k: 2^k states at 0 and as many at 1, over and over
    levels = [((1 << states) - 1) // ((1 << (1 << k)) + 1) << (1 << k) for k in range(len(pins) + len(qs))]
    return dict(zip(pins, levels)), dict(zip(qs, levels[len(pins):])), states


def differ(a, b):
    """Whether the two differ in some state."""
    return any(differences(a, b, *all_states(a, b)))


# ---- drawn fuses


def drawn_mode(rng, name):
    """A device; one with modes in a random one."""
    device = DEVICES[name]
    if not device.mode:
        return device
    mode = rng.choice(["simple", "complex", "registered"])
    return in_mode(name, mode, [pin for pin in device.cells if mode != "complex" and rng.random() < 0.5])


def replacing(pal, name):
    """A chip with modes in the place of a PAL."""
    registers = [pin for pin, cell in DEVICES[pal].cells.items() if cell.kinds == "r"]
    return in_mode(name, "registered" if registers else "complex", registers)


def controls(rng, name, fuses, device=None):
    """Draws the mode, if there are some and the device isn't given, and the control fuses; all switches are on, and those that the device
    fixes have their levels."""
    device = device or drawn_mode(rng, name)
    for fuse in device.controls:
        fuses[fuse] = rng.randrange(2)
    if device.switches is not None:
        fuses[device.switches : device.switches + device.rows] = [1] * device.rows
    for fuse, level in device.fixed.items():
        fuses[fuse] = level


def put_row(chip, number, asked):
    """Sets a row: pairs of a pin and whether it is the lower column; None for zeros."""
    width = chip.device.width
    levels = [int(asked is not None)] * width
    for pin, lower in asked or []:
        levels[2 * chip.pairs.index(pin) + (0 if lower else 1)] = 0
    chip.fuses[width * number : width * number + width] = levels


def product(rng, pins, most):
    """A product of at most so many literals of these pins."""
    return [(pin, rng.random() < 0.5) for pin in rng.sample(pins, rng.randint(0, min(most, len(pins))))]


def draw(rng, name, inputs, rows, literals):
    """Random fuses, whose rows read these inputs, registers and cells that read no later one; at most so many data rows a cell, of at
    most so many literals."""
    fuses = [0] * DEVICES[name].fuses
    controls(rng, name, fuses)
    chip = Chip(name, fuses)
    order = rng.sample(chip.cells, len(chip.cells))
    for pin in chip.cells:
        before = [other for other in order[: order.index(pin)] if other not in chip.registers]
        pins = [other for other in chip.pairs if other in inputs or other in chip.registers or other in before]
        if chip.enable(pin) is not None and rng.random() < 0.9:
            put_row(chip, chip.enable(pin), [] if rng.random() < 0.7 else product(rng, pins, 2))
        data = chip.data(pin)
        for number in rng.sample(data, rng.randint(0, min(rows, len(data)))):
            put_row(chip, number, product(rng, pins, literals))
    for row in (chip.reset, chip.preset):
        if row is not None and rng.random() < 0.5:
            put_row(chip, row, product(rng, [pin for pin in chip.pairs if pin in inputs], 2))
    return fuses


# ---- test vectors


def vectors_of(rng, chip, count):
    """So many vectors of a device from power-up, with random levels, of which a few are those of cells' pins, and some with a pulse of
    the clock; what they expect of all other cells' pins is what the device shows then.
    """
    stored, vectors = {}, []
    for _ in range(count):
        given = [pin for pin in range(1, chip.pins) if pin not in (chip.ground, chip.clock) and (pin not in chip.cells or rng.random() < 0.2)]
        outside = {pin: rng.randrange(2) for pin in given}
        at = Rest(chip, outside, stored)
        pulses = chip.clock and rng.random() < 0.6
        if pulses:
            stepped = dict(zip(chip.cells, at.stepped()))
            at = Rest(chip, outside | {chip.clock: 1}, stepped)
            at = Rest(chip, outside, at.stored_then())
        stored = at.stored_then()
        chars = {pin: str(outside[pin]) for pin in given} | {pin: at.seen(pin) for pin in chip.cells if pin not in given}
        chars |= {chip.clock: "C" if pulses else "0", chip.ground: "N", chip.pins: "N"}
        vectors.append("".join(chars[pin] for pin in range(1, chip.pins + 1)))
    return vectors


# ---- fuse files


def file_of(name, fuses, vectors=()):
    """The fuse file with these fuses, its fuse sum and its transmission sum."""
    width = DEVICES[name].width
    lines = ["drawn*", f"QP{DEVICES[name].pins}*", f"QF{len(fuses)}*", *([f"QV{len(vectors)}*"] if vectors else []), "F0*", "X0*"]
    for first in range(0, len(fuses), width):
        lines.append(f"L{first:04} {''.join(map(str, fuses[first:first + width]))}*")
    groups = [fuses[first : first + 8] for first in range(0, len(fuses), 8)]
    lines.append(f"C{sum(level << bit for group in groups for bit, level in enumerate(group)) % 65536:04X}*")
    lines += [f"V{number:04} {vector}*" for number, vector in enumerate(vectors, 1)]
    text = "\x02" + "\n".join(lines) + "\n\x03"
    return f"{text}{sum(text.encode()) % 65536:04X}".encode()


def fuses_in(name, data):
    """The fuses that a sound file gives."""
    count = DEVICES[name].fuses
    text = data.decode("latin-1").partition("\x02")[2].partition("\x03")[0]
    fields = [field.strip() for field in text.split("*")[1:]]
    default = next((int(field[1]) for field in fields if re.fullmatch(r"F[01]", field)), 0)
    fuses = [default] * count
    for field in fields:
        if match := re.match(r"L(\d+)\s", field):
            levels = [int(char) for char in field[match.end():] if char in "01"]
            fuses[int(match[1]) : int(match[1]) + len(levels)] = levels
    return fuses
