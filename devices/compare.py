#!/usr/bin/env python3
"""Tries the devices of this folder with caa_bridge.

compare.py CAA_BRIDGE CAA: plays a script over a device in Python and one in C (where there is a C compiler): whole, with one put refused,
killed at each of its puts, and with the machine lost at each. Then over caa_modbus.py, with a server in another process (where pymodbus
is installed): whole, where mbpoll, if it is installed, must read what the journal tells; and with the server killed, hung and restarted
in mid-play. Each journal must be one that `audit` finds legal; a device that leaves must be told as one broken link, and no put as
refused behind it; and the machine must be left in its safe state wherever somebody could still take it there.
"""
import os
import shutil
import signal
import socket
import subprocess
import sys
import tempfile
import time

HERE = os.path.dirname(os.path.abspath(__file__))
CASES = os.path.join(HERE, "..", "examples", "cases")
SECONDS = 60
PYTHON = next((it for it in (sys.executable, "/usr/bin/python3") if subprocess.run(
    [it, "-c", "import pymodbus.client"], capture_output=True, check=False).returncode == 0), None)

PYTHON_DEVICE = '''
import os, signal, sys
sys.path.insert(0, {here!r})
from caa_device import Device, Lost

class Cell(Device):
    puts = 0
    def put(self, name, value):
        self.puts += 1
        if self.puts == {at}:
            if {way!r} == "killed":
                os.kill(os.getpid(), signal.SIGKILL)
            if {way!r} == "lost":
                raise Lost("the cable")
            return False
        return self.reads_back(lambda: value, value, limit=0.1)
    def safe(self):
        open({safe!r}, "a").write("safe\\n")

sys.exit(Cell().serve())
'''

C_DEVICE = '''
#include "caa_device.h"
#include <signal.h>
static long puts_made = 0;
static enum caa_answer put(void *machine, const char *name, long long value, int back) {
    (void)machine; (void)name; (void)value; (void)back;
    if (++puts_made != AT) return CAA_WELL;
    if (WAY == 'k') raise(SIGKILL);
    return WAY == 'l' ? CAA_LOST : CAA_FAILED;
}
static void safe(void *machine) {
    FILE *told = fopen((const char *)machine, "a");
    if (told) { fputs("safe\\n", told); fclose(told); }
}
int main(int count, char **words) {
    struct caa_device device = { count > 1 ? words[1] : NULL, put, safe };
    return caa_serve(&device, stdin, stdout);
}
'''

SERVER = '''
import sys, time
from pymodbus.datastore import ModbusSequentialDataBlock, ModbusServerContext, ModbusSlaveContext
from pymodbus.server import StartTcpServer

class Slow(ModbusSequentialDataBlock):
    def setValues(self, address, values):
        time.sleep(0.01)
        super().setValues(address, values)

blocks = {it: Slow(0, [0] * 100) for it in ("di", "co", "hr", "ir")}
StartTcpServer(context=ModbusServerContext(ModbusSlaveContext(zero_mode=True, **blocks)), address=("127.0.0.1", int(sys.argv[1])))
'''


def text_of(path):
    with open(path, encoding="utf-8") as it:
        return it.read()


def script_in(folder):
    """production_cell without the puts that its table of values would refuse."""
    path = os.path.join(folder, "script")
    with open(path, "w", encoding="utf-8") as it:
        it.writelines(f"{line}\n" for line in text_of(os.path.join(CASES, "production_cell")).splitlines() if not line.startswith("drill "))
    return path


class Play:
    """A call of the program over a device in another process, and what became of both."""

    def __init__(self, bridge, caa, folder, device, meanwhile=None):
        script, self.journal = script_in(folder), os.path.join(folder, "journal")
        commands, answers = os.pipe(), os.pipe()
        told = {"stderr": subprocess.PIPE, "text": True}
        program = subprocess.Popen([bridge, "sim", "1", script, self.journal], stdin=answers[0], stdout=commands[1], **told)
        partner = subprocess.Popen(device, stdin=commands[0], stdout=answers[1], cwd=folder, **told)
        for end in (*commands, *answers):
            os.close(end)
        if meanwhile:
            meanwhile(self.journal)
        self.told = program.communicate(timeout=SECONDS)[1]
        self.said = partner.communicate(timeout=SECONDS)[1]
        self.status, self.left = program.returncode, partner.returncode
        audit = subprocess.run([caa, "audit"], input=text_of(script) + text_of(self.journal), capture_output=True, text=True, timeout=SECONDS, check=False)
        self.judged = audit.stdout.strip()

    def wrong_whole(self):
        """What is wrong where nothing was refused."""
        if self.status != 0 or self.left != 0 or "refused" in self.told or not self.judged.startswith("legal "):
            return f"status {self.status}, left {self.left}, judged {self.judged}, told {self.told}, said {self.said}"
        return None

    def wrong_refused(self):
        """What is wrong where one put was refused."""
        if self.left != 0 or self.told.count("the device refused it") != 1 or "link" in self.told or not self.judged.startswith("legal "):
            return f"status {self.status}, left {self.left}, judged {self.judged}, told {self.told}, said {self.said}"
        return None

    def wrong_broken(self, left):
        """What is wrong where the device left with this status in mid-play."""
        once = self.told.count("the link is broken") == 1 and self.told.count("the link broke at line") == 1
        if not once or "the device refused it" in self.told or self.left != left or not self.judged.startswith("legal "):
            return f"status {self.status}, left {self.left}, judged {self.judged}, told {self.told}, said {self.said}"
        return None


def python_device(folder, way, at):
    path = os.path.join(folder, "cell.py")
    with open(path, "w", encoding="utf-8") as it:
        it.write(PYTHON_DEVICE.format(here=HERE, way=way, at=at, safe=os.path.join(folder, "safe")))
    return [sys.executable, "-B", path]


def c_device(folder, way, at):
    path = os.path.join(folder, "cell.c")
    with open(path, "w", encoding="utf-8") as it:
        it.write(C_DEVICE)
    words = ["-std=c99", "-Wall", "-Wextra", "-Werror", f"-I{HERE}", f"-DAT={at}", f"-DWAY='{way[0]}'"]
    subprocess.run(["cc", *words, "-o", os.path.join(folder, "cell"), path], check=True)
    return [os.path.join(folder, "cell"), os.path.join(folder, "safe")]


def tried(bridge, caa, make, way, at):
    """What is wrong with a play over a device of this making, to which this comes at its put of this number."""
    with tempfile.TemporaryDirectory() as folder:
        play = Play(bridge, caa, folder, make(folder, way, at))
        wrong = {"whole": play.wrong_whole, "refused": play.wrong_refused, "killed": lambda: play.wrong_broken(-signal.SIGKILL),
                 "lost": lambda: play.wrong_broken(1)}[way]()
        safe = os.path.join(folder, "safe")
        is_safe = os.path.exists(safe) and text_of(safe) == "safe\n"
        return wrong or (None if is_safe == (way != "killed") else f"the safe state: {is_safe}")


def tries_of(bridge, caa, name, make):
    """The tries of one making: whole, one refused, and each of the first puts at which it leaves."""
    objects = sum(line.startswith("object ") for line in text_of(os.path.join(CASES, "production_cell")).splitlines())
    yield f"{name}, whole", lambda: tried(bridge, caa, make, "whole", 0)
    yield f"{name}, one put refused", lambda: tried(bridge, caa, make, "refused", objects + 3)
    for way in ("killed", "lost"):
        for at in range(objects + 1, objects + 75, 1 if name == "Python" else 9):
            yield f"{name}, {way} at put {at}", lambda way=way, at=at: tried(bridge, caa, make, way, at)


class Server:
    """A Modbus server in another process, at a port that nobody has."""

    def __init__(self, folder):
        with socket.socket() as free:
            free.bind(("127.0.0.1", 0))
            self.port = free.getsockname()[1]
        self.path = os.path.join(folder, "server.py")
        with open(self.path, "w", encoding="utf-8") as it:
            it.write(SERVER)
        self.start()

    def start(self):
        self.process = subprocess.Popen([PYTHON, "-B", self.path, str(self.port)], stdout=subprocess.DEVNULL, stderr=subprocess.DEVNULL)
        for _ in range(500):
            with socket.socket() as asked:
                if asked.connect_ex(("127.0.0.1", self.port)) == 0:
                    return
            time.sleep(0.02)

    def kill(self):
        self.process.send_signal(signal.SIGKILL)
        self.process.wait()

    def hang(self):
        self.process.send_signal(signal.SIGSTOP)

    def restart(self):
        self.kill()
        self.start()


def modbus(bridge, caa, way):
    """What is wrong with a play over a Modbus server, to which this comes in mid-play."""
    with tempfile.TemporaryDirectory() as folder:
        server, table = Server(folder), os.path.join(folder, "table")
        names = [line.split()[1] for line in text_of(script_in(folder)).splitlines() if line.startswith("object ")]
        with open(table, "w", encoding="utf-8") as it:
            it.writelines(f"object {name} register {at} read register {at} within 0.5 scale 2\n" for at, name in enumerate(names))

        def meanwhile(journal):
            end = time.monotonic() + SECONDS
            while time.monotonic() < end and (not os.path.exists(journal) or text_of(journal).count("\n") < 60):
                time.sleep(0.002)
            {"killed": server.kill, "hung": server.hang, "restarted": server.restart}[way]()

        words = [PYTHON, "-B", os.path.join(HERE, "caa_modbus.py"), "--limit", "1", table, "127.0.0.1", str(server.port)]
        try:
            play = Play(bridge, caa, folder, words, None if way == "whole" else meanwhile)
            if way != "whole":
                return play.wrong_broken(1) or (None if play.said.count("the machine is lost") == 1 else f"said {play.said}")
            return play.wrong_whole() or wrong_registers(server.port, names, text_of(play.journal))
        finally:
            server.kill()


def wrong_registers(port, names, journal):
    """What is wrong with the registers that another client reads, by the values at the end of the journal."""
    if not shutil.which("mbpoll"):
        return None
    words = ["mbpoll", "-m", "tcp", "-p", str(port), "-a", "1", "-0", "-r", "0", "-c", str(len(names)), "-t", "4", "-1", "127.0.0.1"]
    read = subprocess.run(words, capture_output=True, text=True, timeout=SECONDS, check=False).stdout
    has = [int(line.split()[1]) for line in read.splitlines() if line.startswith("[")]
    values = dict(line.split()[1:] for line in journal.splitlines() if line.startswith("object "))
    wanted = [2 * int(values[name]) for name in names]
    return None if has == wanted else f"registers {has}, wanted {wanted}"


def main():
    bridge, caa = map(os.path.abspath, sys.argv[1:3])
    tries = list(tries_of(bridge, caa, "Python", python_device))
    if shutil.which("cc"):
        tries += tries_of(bridge, caa, "C", c_device)
    else:
        print("there is no C compiler: the device in C isn't tried")
    if PYTHON:
        tries += [(f"Modbus, {way}", lambda way=way: modbus(bridge, caa, way)) for way in ("whole", "killed", "hung", "restarted")]
    else:
        print("there is no pymodbus: the device over Modbus isn't tried")
    faults = [f"{name}: {fault}" for name, trial in tries if (fault := trial())]
    print("\n".join(faults + [f"{len(tries) - len(faults)} plays over devices as they should be, {len(faults)} not"]))
    return 1 if faults else 0


if __name__ == "__main__":
    sys.exit(main())
