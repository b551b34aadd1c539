"""Random sources with registers of free polarity, and what they mean.

The meaning is worked out from the source's own expressions: which registers are free, and what each name is after each vector, once
it is known which registers invert.
"""
import re

INPUTS = [2, 3, 4, 5, 6, 7, 8, 9, 10, 11, 13]
OUTPUTS = list(range(23, 13, -1))
SMALL = [23, 22, 15, 14]        # the outputs with the fewest rows
VECTORS = 12


class Cell:
    """An output: a register or combinational, and what the source says of it."""

    def __init__(self, rng, pin, registered):
        self.pin, self.name, self.registered = pin, f"o{pin}", registered
        self.negated = rng.random() < 0.2
        self.word = rng.choice(["", "", "", "buffer", "invert"]) if self.registered else ""
        self.raw = self.registered and rng.random() < 0.04
        self.data = self.against = self.enable = None

    def declaration(self, word):
        words = ",".join(["reg"] * self.registered + [word] * (word != ""))
        return "!" * self.negated + f"{self.name} pin {self.pin}" + f" istype '{words}'" * (words != "") + ";"

    def equations(self):
        target, sign = self.name + ".D" * self.raw, ":=" if self.registered else "="
        lines = [f"{target} {sign} {text_of(self.data)};"] if self.data else []
        lines += [f"!{target} {sign} {text_of(self.against)};"] if self.against else []
        return lines + ([f"{self.name}.OE = {text_of(self.enable)};"] if self.enable else [])

    def value(self, read):
        """What the equations give to the name, or to the input of the register."""
        plain = bool(self.data) and holds(self.data, read)
        return plain or bool(self.against) and not holds(self.against, read)


def text_of(expression):
    """A sum of products of literals, each a name and whether it is complemented; maybe the complement of the sum."""
    products, complemented = expression
    text = " # ".join(" & ".join("!" * negative + name for name, negative in product) for product in products)
    return f"!({text})" if complemented else text


def holds(expression, read):
    products, complemented = expression
    return any(all(read(name) != negative for name, negative in product) for product in products) != complemented


def inverted_pins(data):
    """The pins whose polarity fuse S0 is 0 in the fuse file of a GAL22V10."""
    levels = re.search(rb"L5808 ([01]+)\*", data)[1]
    return {pin for k, pin in enumerate(OUTPUTS) if levels[2 * k : 2 * k + 1] == b"0"}


class FreeSource:
    """A source for a GAL22V10 under construction, and a reader of what it means."""

    def __init__(self, rng):
        self.rng = rng
        self.inputs = [f"i{pin}" for pin in rng.sample(INPUTS, rng.randint(4, 11))]
        pins = rng.sample(rng.choice([OUTPUTS, SMALL]), rng.randint(1, 4))
        self.cells = [Cell(rng, pin, pin == pins[-1] or rng.random() < 0.7) for pin in pins]
        self.registers = [cell for cell in self.cells if cell.registered]
        self.controls = {}
        for word in ("AR", "SP"):
            if rng.random() < 0.06:
                self.controls[word] = (rng.choice(self.registers).name, ([self.product(self.inputs)], False))
        self.constant = rng.choice(self.registers).name if rng.random() < 0.1 else None
        before = []
        for cell in self.cells:
            self.assign(cell, before)
            before += [] if cell.registered else [cell.name]
        self.steps = [[rng.randrange(2) for _ in ["clk"] + self.inputs] for _ in range(VECTORS)]

    def product(self, names):
        return [(name, self.rng.random() < 0.4) for name in self.rng.sample(names, min(self.rng.choice([1, 2, 3, 3, 3]), len(names)))]

    def expression(self, names):
        count = self.rng.choice([1, 2, 3, 4, 5, 6, 7, 8])
        return [self.product(names) for _ in range(count)], self.rng.random() < 0.7

    def assign(self, cell, before):
        """Equations that read inputs, registers and, of combinational outputs, those before."""
        rng = self.rng
        names = self.inputs * 2 + [register.name for register in self.registers] + before
        names += [f"{rng.choice(self.registers).name}.Q"] * (rng.random() < 0.06)
        names += [f"{rng.choice(self.registers).name}.FB"] * (rng.random() < 0.1)
        names += ["k"] * (self.constant is not None and rng.random() < 0.4)
        way = rng.random()
        cell.data = self.expression(names) if way < 0.85 else None
        cell.against = self.expression(names) if way > 0.75 else None
        cell.enable = ([self.product(names)], False) if rng.random() < 0.2 else None

    def read_names(self):
        """Every name that some equation of the source reads."""
        said = [e for cell in self.cells for e in (cell.data, cell.against, cell.enable) if e]
        return {name for products, _ in said for product in products for name, _ in product}

    def is_free(self, cell):
        read = self.read_names()
        held = f"{cell.name}.Q" in read or "k" in read and self.constant == cell.name
        return cell.registered and not (cell.word or cell.raw or held or self.controls)

    def first_line(self, cell, inverted):
        """The form of a register's first line in the listing."""
        polarity = "inverted" if cell.pin in inverted else "direct"
        return rf"pin {cell.pin} {cell.name} registered {polarity} \d+ of \d+{' chosen' * self.is_free(cell)}\n"

    def text(self, inverted=None, words={}):
        """The source; with vectors where it is said which pins invert; with other words for some cells."""
        lines = ["module free", "u device 'GAL22V10';", "clk pin 1;"] + [f"{name} pin {name[1:]};" for name in self.inputs]
        lines += [cell.declaration(words.get(cell.pin, cell.word)) for cell in self.cells]
        lines += [f"k = {self.constant}.Q;"] if self.constant else []
        lines += ["equations"] + [line for cell in self.cells for line in cell.equations()]
        lines += [f"{name}.{word} = {text_of(value)};" for word, (name, value) in self.controls.items()]
        if inverted is not None:
            lines += [f"test_vectors ([clk,{','.join(self.inputs)}] -> [{','.join(cell.name for cell in self.cells)}])"]
            lines += [f"[{','.join(drives)}] -> [{','.join(tests)}];" for drives, tests in self.vectors(inverted)]
        return ("\n".join(lines + ["end", ""])).encode("latin-1")

    def reader(self, levels, stored, inverted):
        """What a name reads, by the levels of the inputs and the stored Qs."""
        cells = {cell.name: cell for cell in self.cells}

        def read(name):
            if name == "k":
                return stored[cells[self.constant].pin]
            if name.endswith(".Q"):
                return stored[cells[name[:-2]].pin]
            cell = cells.get(name.removesuffix(".FB"))
            if cell is None:
                return levels[name]
            if cell.registered:
                return (stored[cell.pin] != (cell.pin in inverted)) != cell.negated
            driven = not cell.enable or holds(cell.enable, read)
            return cell.value(read) if driven else cell.negated

        return read

    def vectors(self, inverted):
        """What each vector drives and what it finds, from Q = 0 at power-up."""
        stored = {cell.pin: False for cell in self.registers}
        for pulse, *values in self.steps:
            levels = {"clk": False, **dict(zip(self.inputs, map(bool, values)))}
            read = self.reader(levels, stored, inverted)
            reset, preset = (word in self.controls and holds(self.controls[word][1], read) for word in ("AR", "SP"))
            if reset:
                stored = dict.fromkeys(stored, False)
            if pulse and not reset:
                read = self.reader(levels, stored, inverted)
                stored = {cell.pin: preset or self.next_of(cell, read, inverted) for cell in self.registers}
            read = self.reader(levels, stored, inverted)
            drives = [".C." if pulse else "0"] + [str(value) for value in values]
            yield drives, [self.found(cell, read) for cell in self.cells]

    def next_of(self, cell, read, inverted):
        value = cell.value(read)
        return value if cell.raw else (value != cell.negated) != (cell.pin in inverted)

    def found(self, cell, read):
        if cell.enable and not holds(cell.enable, read):
            return ".Z."
        return "1" if read(cell.name) else "0"
