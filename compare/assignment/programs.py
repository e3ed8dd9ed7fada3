"""programs.py FOLDER COUNT [SEED]: random Lua programs, for the compiler alone: they are never run. Every statement and
expression of Lua 5.4 is among them; locals are used wherever they are visible."""
import os, random, sys

BINARY = "+ - * / // % ^ & | ~ << >> ..".split()
COMPARE = "== ~= < <= > >=".split()


class Function:
    """What a function's body may use: visible names by block, whether it has `...`, its loops and labels."""

    def __init__(self, maker, outer, parameters, vararg):
        self.maker, self.rng, self.outer, self.vararg = maker, maker.rng, outer, vararg
        self.blocks, self.room, self.loops = [list(parameters)], maker.rng.choice((5, 15, 40)), []

    # names

    def visible(self):
        return [name for block in self.blocks for name in block]

    def count(self):
        return len(self.visible())

    def name(self):
        rng, mine = self.rng, self.visible()
        outer = self.outer.visible() if self.outer else []
        if mine and rng.random() < 0.75:
            return rng.choice(mine[-rng.choice((3, 200)) :])
        if outer and rng.random() < 0.7:
            return rng.choice(outer[-30:])
        return rng.choice(("g", "h", "print", "t"))

    def settable(self):
        name = self.name()
        return name if name[0] != "c" else "g"  # constants and what is to be closed are not assigned to

    # expressions

    def expression(self, depth=0):
        rng = self.rng
        if depth > 3 or rng.random() < 0.35:
            return self.leaf()
        which = rng.randrange(16)
        one = lambda: self.expression(depth + 1)
        if which < 4:
            return f"({one()} {rng.choice(BINARY)} {one()})"
        if which == 4:
            return f"{self.name()} {rng.choice(BINARY)} {rng.choice(('1', '200', '2.5', '0x10', '-3', 'c_a'))}"
        if which == 5:
            return f"({rng.choice(('1', '7', '300', '2.5'))} {rng.choice(BINARY[:-1])} {one()})"
        if which == 6:
            return f"({one()} {rng.choice(COMPARE)} {one()})"
        if which == 7:
            other = rng.choice(("1", "100", "2.0", "-5", "nil", "'s'", "2.5", "true"))
            return f"({self.name()} {rng.choice(COMPARE)} {other})"
        if which in (8, 9):
            return f"({one()} {rng.choice(('and', 'or'))} {one()})"
        if which == 10:
            return f"({rng.choice(('not ', '- ', '#', '~ '))}{one()})"
        if which == 11:
            return self.call(depth + 1)
        if which == 12:
            return self.table(depth + 1)
        if which == 13:
            return self.index(depth + 1)
        if which == 14:
            return f"({' .. '.join(one() for _ in range(rng.randint(2, 5)))})"
        return self.closure() if depth < 2 else self.leaf()

    def leaf(self):
        constants = "nil", "true", "false", "1", "-70000", "131072", "3.0", "2.25", "'s'", "g"
        return self.rng.choice((self.name(), self.name(), self.name(), "(...)" if self.vararg else "0") + constants)

    def index(self, depth):
        name, at = self.name(), self.name()
        key = self.rng.choice(("1", "300", at, "'a b'", self.expression(depth), "2.5", ""))
        return f"{name}[{key}]" if key else f"{name}.x"

    def several(self, depth, most=3):
        """Expressions, the last of which may give many values."""
        rng = self.rng
        found = [self.expression(depth) for _ in range(rng.randint(0, most))]
        last = rng.randrange(6)
        if last == 0 and self.vararg:
            found.append("...")
        elif last == 1:
            found.append(self.call(depth + 1))
        return found

    def call(self, depth=0):
        rng = self.rng
        values = ", ".join(self.several(depth + 1))
        which = rng.randrange(5)
        if which == 0:
            return f"{self.name()}:m({values})"
        if which == 1:
            return f"{self.name()}.f({values})"
        if which == 2:
            return self.name() + rng.choice((" 's'", " {}", "")) + f"({values})"
        return f"{self.name()}({values})"

    def table(self, depth):
        rng = self.rng
        items = []
        for _ in range(rng.randint(0, 4)):
            key, value = self.expression(depth), self.expression(depth)
            items.append(rng.choice((f"x = {value}", f"[{key} or 1] = {value}", value)))
        if rng.randrange(30) == 0:
            items += [rng.choice(("1", "nil", "g", self.name())) for _ in range(rng.choice((49, 50, 51, 130)))]
        return "{" + ", ".join(items + self.several(depth, 0)) + "}"

    def closure(self):
        return self.maker.function(self)

    # statements

    def block(self, depth, names=(), loop=None):
        self.blocks.append(list(names))
        if loop:
            self.loops.append(loop)
        lines = []
        for _ in range(self.rng.randint(0, 5 if depth < 3 else 2)):
            lines += self.statement(depth)
        if self.rng.randrange(6) == 0 and depth:
            lines.append(self.last())
        if loop:
            self.loops.pop()
        self.blocks.pop()
        return lines

    def last(self):
        rng = self.rng
        which = rng.randrange(5)
        if which == 0 and self.loops:
            return "break"
        if which == 1 and self.loops and self.loops[-1]:
            return f"goto {self.loops[-1]}"
        if which == 2:
            return f"return {self.call()}"
        return f"return {', '.join(self.several(0))}"

    def fresh(self, kind="v"):
        return self.maker.fresh(kind)

    def loop(self, head, depth, names, label):
        """A loop whose body may go to its own end."""
        return [head, "do"] + self.block(depth + 1, names, label) + ["end", f"::{label}::", "end"]

    def statement(self, depth):
        rng = self.rng
        which = rng.randrange(26)
        crowded = self.count() > self.room or depth > 4
        if which < 6 and self.count() < 150:
            names = [self.fresh() for _ in range(rng.choice((1, 1, 1, 2, 3)))]
            values = self.several(0)
            line = "local " + ", ".join(names) + (f" = {', '.join(values)}" if values else "")
            self.blocks[-1] += names
            return [line]
        if which == 6 and not crowded:
            kind, name = rng.choice(("const", "close")), self.fresh("c")
            line = f"local {name} <{kind}> = {self.expression()}"
            self.blocks[-1].append(name)
            return [line]
        if which < 10:
            many = rng.choice((1, 1, 1, 2, 3))
            targets = [rng.choice((self.settable(), self.settable(), self.index(2), "g")) for _ in range(many)]
            return [f"{', '.join(targets)} = {', '.join(self.several(0) or [self.expression()])}"]
        if which < 12:
            call = self.call()
            return [call]
        if crowded:
            return [f"g = {self.expression()}"]
        if which < 15:
            lines = [f"if {self.expression()} then"] + self.block(depth + 1)
            for _ in range(rng.choice((0, 0, 1, 2))):
                lines += [f"elseif {self.expression()} then"] + self.block(depth + 1)
            if rng.randrange(2):
                lines += ["else"] + self.block(depth + 1)
            return lines + ["end"]
        if which == 15:
            label = self.fresh("l")
            return self.loop(f"while {rng.choice((self.expression(), 'true'))} do", depth, [], label)
        if which == 16:
            # the condition sees the body's locals
            self.blocks.append([])
            self.loops.append(None)
            body = [line for _ in range(rng.randint(0, 3)) for line in self.statement(depth + 1)]
            until = self.expression()
            self.loops.pop()
            self.blocks.pop()
            return ["repeat"] + body + [f"until {until}"]
        if which in (17, 18):
            name, label = self.fresh(), self.fresh("l")
            bounds = [self.expression(2) for _ in range(rng.choice((2, 2, 3)))]
            return self.loop(f"for {name} = {', '.join(bounds)} do", depth, [name], label)
        if which in (19, 20):
            names, label = [self.fresh() for _ in range(rng.choice((1, 2, 2, 3)))], self.fresh("l")
            values = self.several(1) or [f"pairs({self.name()})"]
            return self.loop(f"for {', '.join(names)} in {', '.join(values)} do", depth, names, label)
        if which == 21:
            return ["do"] + self.block(depth + 1) + ["end"]
        if which == 22:
            name = self.fresh()
            self.blocks[-1].append(name)
            body = self.closure()
            return [f"local {name} = {body}" if rng.randrange(2) else f"local function {name}{body[8:]}"]
        if which == 23:
            label = self.fresh("l")
            back = f"if {self.expression()} then goto {label} end"
            return [f"::{label}::", "do"] + self.block(depth + 1) + ["end", back]
        if which == 24:
            label = self.fresh("l")
            away = f"if {self.expression()} then goto {label} end"
            before, after = self.block(depth + 1), self.block(depth + 1)
            return ["do", "do"] + before + ["end", away, "do"] + after + ["end", "end", f"::{label}::"]
        return [f"function g.{self.fresh()}{self.maker.function(self)[8:]}"]


class Maker:
    def __init__(self, rng):
        self.rng, self.names, self.depth = rng, 0, 0

    def fresh(self, kind):
        self.names += 1
        return f"{kind}_{self.names}"

    def function(self, outer):
        rng = self.rng
        parameters = [self.fresh("v") for _ in range(rng.choice((0, 1, 1, 2, 3, 5, 12)))]
        vararg = rng.randrange(3) == 0
        self.depth += 1
        inner = Function(self, outer, parameters, vararg)
        lines = []
        if rng.randrange(25) == 0:  # registers far up
            names = [self.fresh("v") for _ in range(rng.choice((100, 180)))]
            if inner.count() + len(names) < 190:
                lines.append("local " + ", ".join(names))
                inner.blocks[-1] += names
        if self.depth < 4:
            for _ in range(rng.randint(0, 7)):
                lines += inner.statement(self.depth)
        if rng.randrange(2):
            lines.append("return " + ", ".join(inner.several(0)))
        self.depth -= 1
        body = "; ".join(lines)
        for word in ("then", "do", "else", "repeat"):
            body = body.replace(word + ";", word)
        return "function(" + ", ".join(parameters + ["..."] * vararg) + ") " + body + " end"


def program(rng):
    maker = Maker(rng)
    return "\n".join(f"g = {maker.function(None)}" for _ in range(4)) + "\n"


def main():
    folder, many = sys.argv[1], int(sys.argv[2])
    rng = random.Random(int(sys.argv[3]) if len(sys.argv) > 3 else 1)
    for i in range(many):
        with open(os.path.join(folder, f"program-{i}.lua"), "w", encoding="utf-8") as out:
            out.write(program(rng))


if __name__ == "__main__":
    main()
