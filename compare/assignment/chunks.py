"""chunks.py: reads binary chunks of Lua 5.4 from standard input, each behind its length in 4 bytes, and
writes their functions, one a line: the number of parameters, then the words. A length of 0 stands for
a file that did not compile. `functions` is that reader, of lundump.c's form."""
import struct, sys

HEADER = b"\x1bLua" + bytes([0x54, 0]) + b"\x19\x93\r\n\x1a\n" + bytes([4, 8, 8]) + struct.pack("<qd", 0x5678, 370.5)


class Chunk:
    def __init__(self, data):
        assert data.startswith(HEADER), "no chunk of Lua 5.4"
        self.data, self.at = data, len(HEADER) + 1  # the count of the main function's upvalues

    def byte(self):
        self.at += 1
        return self.data[self.at - 1]

    def number(self):
        x = 0
        while True:
            b = self.byte()
            x = x << 7 | b & 0x7F
            if b & 0x80:
                return x

    def string(self):
        size = self.number()
        self.at += size - 1 if size else 0

    def function(self, out):
        self.string()  # source
        self.number()  # first line
        self.number()  # last line
        parameters, _vararg, _stack = self.byte(), self.byte(), self.byte()
        n = self.number()
        out.append((parameters, list(struct.unpack_from(f"<{n}I", self.data, self.at))))
        self.at += 4 * n
        for _ in range(self.number()):  # constants
            tag = self.byte()
            if tag in (3, 19):
                self.at += 8
            elif tag in (4, 20):
                self.string()
            else:
                assert tag in (0, 1, 17), tag
        upvalues = self.number()
        self.at += 3 * upvalues
        for _ in range(self.number()):
            self.function(out)
        lines = self.number()
        self.at += lines
        for _ in range(2 * self.number()):
            self.number()
        for _ in range(self.number()):  # local variables
            self.string()
            self.number()
            self.number()
        for _ in range(self.number()):  # upvalues' names
            self.string()


def functions(data):
    chunk, out = Chunk(data), []
    chunk.function(out)
    assert chunk.at == len(data), "bytes left over"
    return out


def stream(source):
    """The functions of each chunk; None where there is none."""
    while head := source.read(4):
        size = struct.unpack("<I", head)[0]
        yield functions(source.read(size)) if size else None


def main():
    for found in stream(sys.stdin.buffer):
        for parameters, words in found or ():
            print(parameters, *words)


if __name__ == "__main__":
    main()
