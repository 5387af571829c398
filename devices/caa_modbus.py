#!/usr/bin/env python3
"""A device for caa_bridge whose objects are coils and registers of a Modbus TCP server, by a table.

    caa_bridge run SCRIPT JOURNAL < answers | python3 caa_modbus.py TABLE HOST [PORT] > answers

Each line of TABLE is about one object of the script; a line that begins with # is a comment:

    object plate coil 12 read discrete 3 within 2 safe 0
    object speed register 40 unit 2 scale 10 read input 17 within 5 safe 0
    ask press_is_down discrete 7 within 1.5

- `object NAME coil ADDRESS` or `object NAME register ADDRESS`: a put writes this coil, or holding register. Addresses are counted from 0
  on, as they are sent.
- `ask NAME KIND ADDRESS`: a question. Nothing is written: a put of a value is well where this is read, and refused where it isn't. KIND is
  coil, discrete (a discrete input), register (a holding register) or input (an input register).
- `read KIND ADDRESS`: a put is well only once the value is read here; else it is refused. Where it is left out, what was written is
  taken to be done.
- `within SECONDS`: how long what is read may take to come to the value (1 if it isn't said).
- `scale NUMBER`: the register has this many times the object's value (1 if it isn't said). A value below 0 is a register's two's
  complement, of 16 bits.
- `unit NUMBER`: the server's unit (1 if it isn't said).
- `safe VALUE`: where the object is brought on `stop`, at the end of the commands and where an answer doesn't come, if the server still
  takes it; in the order of the lines. An object without it is left as it is.

Where the server doesn't answer within SECONDS (--limit, 2 if it isn't said, at least 1), or the connection breaks, this leaves with status 1, and
the program says once that the link broke. What the server itself refuses (an address that it hasn't) is a refused put. It wants pymodbus,
which Debian has as python3-pymodbus.
"""
import argparse
import os
import sys

sys.path.insert(0, os.path.dirname(os.path.abspath(__file__)))
from caa_device import Device, Lost

try:
    from pymodbus.client import ModbusTcpClient
    from pymodbus.exceptions import ModbusException
except ImportError:
    sys.exit("caa_modbus.py: there is no pymodbus (Debian's package is python3-pymodbus)")

KINDS = ("coil", "discrete", "register", "input")
BITS = ("coil", "discrete")
WORDS = {"read": 2, "within": 1, "scale": 1, "unit": 1, "safe": 1}


class Spot:
    """A coil, input or register: its kind and its address."""

    def __init__(self, kind, address):
        if kind not in KINDS or not address.isdigit() or int(address) > 65535:
            raise ValueError(f"{kind} {address} is no coil, discrete, register or input with an address from 0 to 65535")
        self.kind, self.address = kind, int(address)


class Row:
    """What the table says of one object."""

    def __init__(self, words):
        if len(words) < 4 or words[0] not in ("object", "ask"):
            raise ValueError("a line is `object NAME KIND ADDRESS ..` or `ask NAME KIND ADDRESS ..`")
        self.name, spot = words[1], Spot(words[2], words[3])
        said = self.said(words[4:])
        self.write, self.read = (spot, said.get("read")) if words[0] == "object" else (None, spot)
        if self.write and self.write.kind not in ("coil", "register"):
            raise ValueError(f"a {self.write.kind} can't be written")
        if not self.write and ("read" in said or "safe" in said):
            raise ValueError("a question has neither `read` nor `safe`")
        self.limit, self.scale = float(said.get("within", 1)), int(said.get("scale", 1))
        self.unit, self.safe = int(said.get("unit", 1)), said.get("safe")
        if self.scale < 1 or self.limit < 0 or not 0 <= self.unit <= 255:
            raise ValueError("`scale` is above 0, `within` not below 0, `unit` from 0 to 255")

    @staticmethod
    def said(words):
        """The words behind the address, by the first of each."""
        said = {}
        while words:
            word, count = words[0], WORDS.get(words[0], 0)
            if not count or len(words) <= count or word in said:
                raise ValueError(f"`{word}` is unknown, said twice, or lacks a word")
            said[word] = Spot(*words[1:3]) if word == "read" else float(words[1]) if word == "within" else int(words[1])
            words = words[count + 1:]
        return said

    def raw(self, value, spot):
        """What a value is there: a bit, or a word of 16 bits; none where it is neither."""
        if spot.kind in BITS:
            return value if value in (0, 1) else None
        scaled = value * self.scale
        return scaled & 0xFFFF if -0x8000 <= scaled <= 0xFFFF else None


def table_in(path):
    """The rows of a table, by the names of their objects."""
    rows = {}
    with open(path, encoding="utf-8") as lines:
        for number, line in enumerate(lines, 1):
            words = line.split()
            if not words or words[0].startswith("#"):
                continue
            try:
                row = Row(words)
                if row.name in rows:
                    raise ValueError(f"{row.name} has a line already")
            except ValueError as why:
                sys.exit(f"{path}:{number}: {why}")
            rows[row.name] = row
    return rows


class Modbus(Device):
    """The objects of a table, at a server."""

    def __init__(self, rows, host, port, limit):
        self.rows, self.client = rows, ModbusTcpClient(host, port=port, timeout=limit, retries=0, retry_on_empty=False)
        if not self.client.connect():
            sys.exit(f"caa_modbus.py: nobody listens at {host}, port {port}")

    def asked(self, call, *words, **named):
        """The server's answer; none where it refuses."""
        try:
            answer = call(*words, **named)
        except (ModbusException, OSError) as why:
            raise Lost(why) from why
        if answer.isError() and not hasattr(answer, "exception_code"):
            raise Lost(answer)
        return None if answer.isError() else answer

    def read(self, spot, unit):
        """The bit or word there; none where the server refuses."""
        client = self.client
        call = {"coil": client.read_coils, "discrete": client.read_discrete_inputs,
                "register": client.read_holding_registers, "input": client.read_input_registers}[spot.kind]
        answer = self.asked(call, spot.address, 1, slave=unit)
        if answer is None:
            return None
        return int(answer.bits[0]) if spot.kind in BITS else answer.registers[0]

    def write(self, spot, unit, raw):
        """Whether the server took the bit or word."""
        if spot.kind == "coil":
            return self.asked(self.client.write_coil, spot.address, bool(raw), slave=unit) is not None
        return self.asked(self.client.write_register, spot.address, raw, slave=unit) is not None

    def lay(self, values):
        """Objects without a line are told, and nothing is moved then. A question is asked too: by it the machine stands as the script
        begins."""
        missing = [name for name, _ in values if name not in self.rows]
        for name in missing:
            print(f"the table has no line for {name}", file=sys.stderr)
        return not missing and super().lay(values)

    def put(self, name, value):
        row = self.rows.get(name)
        if row is None:
            return False
        for spot in (row.write, row.read):
            if spot and row.raw(value, spot) is None:
                print(f"{name} can't be {value}: that is no {spot.kind}'s value", file=sys.stderr)
                return False
        if row.write and not self.write(row.write, row.unit, row.raw(value, row.write)):
            return False
        return row.read is None or self.reads_back(lambda: self.read(row.read, row.unit), row.raw(value, row.read), row.limit)

    def safe(self):
        for row in self.rows.values():
            if row.safe is not None:
                self.write(row.write, row.unit, row.raw(row.safe, row.write))
        self.client.close()


def main():
    parser = argparse.ArgumentParser(description=__doc__.splitlines()[0])
    parser.add_argument("--limit", type=int, default=2, metavar="SECONDS", help="how many whole seconds an answer of the server is awaited")
    parser.add_argument("table")
    parser.add_argument("host")
    parser.add_argument("port", nargs="?", type=int, default=502)
    words = parser.parse_args()
    if words.limit < 1:
        parser.error("--limit takes a number of seconds from 1 on")
    rows = table_in(words.table)
    sys.exit(Modbus(rows, words.host, words.port, words.limit).serve())


if __name__ == "__main__":
    main()
