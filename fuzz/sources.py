"""Random ABEL-HDL sources, half of which or more are compiled, and damaged bytes."""

from chips import DEVICES

# Of each device: pins that are inputs alone and that a source may read, and pins of cells; of a chip with modes those of complex mode.
PINS = {name: ([pin for pin in device.inputs() if pin != device.unread], sorted(device.cells)) for name, device in DEVICES.items()}
OPERATORS = ["&", "&", "#", "#", "$", "!$", "+", "-", "==", "!=", "<", "<=", ">", ">="]
SCRAPS = ["(", ")", "[", "]", "{", "}", ";", "=", ":=", "?=", "..", ".D", ".OE", "'", '"', "//", "@IF", "@REPEAT 3",
          "MACRO", "?a", "^h", "^b1", ".X.", "65536", "0", "end", "equations", "truth_table", "state_diagram",
          "test_vectors", "WHEN", "THEN", "ELSE", "goto", "istype 'reg'", "node", "pin 99", "\x00", "\xff", "\n"]


class Source:
    """A source under construction."""

    def __init__(self, rng):
        self.rng = rng
        self.device = rng.choice(list(PINS))
        inputs, cells = PINS[self.device]
        self.inputs = [f"i{pin}" for pin in rng.sample(inputs, rng.randint(1, 6))]
        self.outputs = [f"o{pin}" for pin in rng.sample(cells, rng.randint(1, 5))]
        self.nodes = [f"n{k}" for k in range(rng.choice([0, 0, 1, 2]))]
        self.before = []

    def is_register(self, name):
        """Whether the name is that of a register. Of the cells that may be either, as all are of a chip with modes, those on even pins are."""
        device = DEVICES[self.device]
        kinds = device.cells[int(name[1:])].kinds if name[0] == "o" else "c"
        return kinds == "r" or name[0] == "o" and (kinds == "rc" or device.mode is not None) and int(name[1:]) % 2 == 0

    def is_read(self, name):
        """Whether the name may be read where no loop is wanted: a register, or one that is assigned before."""
        if name[0] == "o" and int(name[1:]) not in DEVICES[self.device].pairs:
            return False
        return self.is_register(name) or name in self.before

    def leaf(self):
        rng = self.rng
        if rng.random() < 0.01:
            return rng.choice(["zz", ".X.", "3", rng.choice(self.outputs)])
        if rng.random() < 0.04:
            return rng.choice(["0", "1"])
        return rng.choice(self.inputs * 3 + [name for name in self.nodes + self.outputs if self.is_read(name)])

    def expression(self, depth=0):
        rng = self.rng
        if depth > 3 or rng.random() < 0.35:
            return ("!" if rng.random() < 0.3 else "") + self.leaf()
        if rng.random() < 0.1:
            names = rng.sample(self.inputs, rng.randint(1, len(self.inputs)))
            return f"([{','.join(names)}] {rng.choice(['==', '<', '>=', '!='])} {rng.randrange(2 ** len(names))})"
        operator = rng.choice(OPERATORS if rng.random() < 0.2 else OPERATORS[:4])
        return f"({self.expression(depth + 1)} {operator} {self.expression(depth + 1)})"

    def assignment(self, name):
        sign = ":=" if self.is_register(name) else "="
        if self.rng.random() < 0.1:
            sign = "?" + sign
        bang = "!" if self.rng.random() < 0.2 else ""
        statement = f"{bang}{name} {sign} {self.expression()};"
        if self.rng.random() < 0.15:
            statement = f"WHEN {self.expression(3)} THEN {statement} ELSE {bang}{name} {sign} {self.expression(3)};"
        self.before.append(name)
        return statement

    def control(self, name):
        """An equation for a control, mostly for one that the signal has."""
        rng = self.rng
        words = ["OE"]
        if self.is_register(name):
            words = ["OE", "AR", "SP"] if DEVICES[self.device].reset is not None else []
        if rng.random() < 0.05 or not words:
            words = ["OE", "AR", "SP", "CLK"] if rng.random() < 0.2 else []
        if not words:
            return ""
        return f"{name}.{rng.choice(words)} = {' & '.join(rng.sample(self.inputs, min(2, len(self.inputs))))};"

    def counter(self):
        """The registers as a set that counts up where an input says so."""
        names = [name for name in self.outputs if self.is_register(name)]
        step = self.rng.choice(["+ 1", "- 1", f"+ [{','.join(self.inputs[:len(names)])}]"])
        return [f"[{','.join(names)}] := [{','.join(names)}] {step};"] if names else []

    def declarations(self):
        lines = [f"u device '{self.device}';"]
        for name in self.inputs + self.outputs:
            kind = " istype 'reg'" if self.is_register(name) and self.rng.random() < 0.7 else ""
            lines.append(f"{'!' if self.rng.random() < 0.1 else ''}{name} pin {name[1:]}{kind};")
        if self.nodes:
            lines.append(f"{','.join(self.nodes)} node;")
        return lines

    def table(self):
        name = self.rng.choice(self.outputs)
        inputs = self.rng.sample(self.inputs, min(2, len(self.inputs)))
        arrow = ":>" if self.is_register(name) else "->"
        rows = [f"{row} {arrow} {self.rng.choice(['0', '1', '.X.'])};" for row in range(2 ** len(inputs))]
        return [f"truth_table ([{','.join(inputs)}] {arrow} {name})"] + rows

    def goal(self, states):
        """A number that the registers get, maybe with what is assigned on the way."""
        rng = self.rng
        free = [name for name in self.outputs if not self.is_register(name)]
        if free and rng.random() < 0.2:
            return f"{rng.randrange(states)} with {rng.choice(free)} = {self.expression(3)}; endwith"
        return str(rng.randrange(states))

    def transition(self, states):
        rng = self.rng
        choice = rng.randrange(3)
        if choice == 0:
            return f"goto {self.goal(states)};"
        if choice == 1:
            return f"if {self.expression(3)} then {self.goal(states)} else {self.goal(states)};"
        return f"case {self.leaf()}: {self.goal(states)}; {self.expression(3)}: {self.goal(states)}; endcase"

    def diagram(self):
        """The registers as a state diagram that lists some of its states."""
        names = [name for name in self.outputs if self.is_register(name)][:3]
        if not names:
            return []
        count = 2 ** len(names)
        lines = [f"state_diagram [{','.join(names)}]"]
        for state in sorted(self.rng.sample(range(count), self.rng.randint(1, count))):
            lines.append(f"state {state}: {self.transition(count)}")
        return lines

    def vectors(self):
        levels = lambda names: ",".join(self.rng.choice(["0", "1", ".C.", ".X."]) for _ in names)
        tests = lambda names: ",".join(self.rng.choice(["0", "1", ".X.", ".Z."]) for _ in names)
        head = f"test_vectors ([{','.join(self.inputs)}] -> [{','.join(self.outputs)}])"
        return [head] + [f"[{levels(self.inputs)}] -> [{tests(self.outputs)}];" for _ in range(self.rng.randint(1, 6))]

    def text(self):
        rng = self.rng
        lines = ["module fuzz"] + self.declarations() + ["equations"]
        registers = rng.choices([None, self.counter, self.diagram], [70, 15, 15])[0]
        lines += [self.assignment(name) for name in self.nodes + self.outputs if not (registers and self.is_register(name))]
        if registers == self.counter:
            lines += self.counter()
        lines += [self.control(rng.choice(self.outputs)) for _ in range(rng.choice([0, 0, 1, 2]))]
        if registers == self.diagram:
            lines += self.diagram()
        if rng.random() < 0.05:
            lines += self.table()
        if rng.random() < 0.1:
            lines += self.vectors()
        return ("\n".join(lines) + "\nend\n").encode("latin-1")


def source(rng):
    """The bytes of a random source."""
    return Source(rng).text()


def damaged(rng, data, scraps=SCRAPS):
    """The bytes with a few changes: a byte, a cut, a piece twice, a scrap."""
    data = bytearray(data)
    for _ in range(rng.choice([1, 1, 1, 2, 5])):
        at = rng.randrange(len(data) + 1)
        change = rng.randrange(6)
        if change == 0 and at < len(data):
            data[at] = rng.randrange(256)
        elif change == 1:
            del data[at:at + rng.choice([1, 1, 3, 20])]
        elif change == 2:
            data[at:at] = data[at:at + rng.choice([1, 5, 30])]
        elif change == 3:
            data[at:at] = rng.choice(scraps).encode("latin-1")
        elif change == 4 and rng.random() < 0.2:
            del data[at:]
        elif at < len(data):
            data[at] ^= 1 << rng.randrange(8)
    return bytes(data)
