# A script of calls on the reference model: python3 session.py < SCRIPT > replies, in the folder of the script's images.
import sys
from bus import Fault
from image import load
from trace import board

NAMES = ("pc", "ie", "im", "ip", "eba", "deba", "dc", "cc")


def show(cpu, index):
    if index < 32:
        return cpu.r[index]
    if index < 40:
        return getattr(cpu, NAMES[index - 32])
    return cpu.bp[index - 40] if index < 44 else None


def reply(cpu, line):
    call, _, word = line.partition(" ")
    if call == "load":
        got = load(cpu.bus, open(word, "rb").read())
        return "load,refused,%d,%d" % got[1:] if got[0] == "refused" else "load,%d" % got[1]
    if call == "lines":
        if int(word, 16) & ~cpu.int_mask:
            return "lines,refused,14"
        cpu.outside = int(word, 16)
        return "lines"
    if call == "look":
        try:
            return "look,%02X" % cpu.bus.read(1, int(word, 16))
        except Fault as fault:
            return "look,refused,%d,%08X,%d" % (fault.cause, fault.home[0], fault.home[1])
    if call == "show":
        value = show(cpu, int(word))
        return "show,refused,15" if value is None else "show,%08X" % value
    if call == "step":
        return "step,%s,%08X" % cpu.step()[:2]
    done = taken = ending = 0
    for _ in range(int(word)):
        kind, value, _ = cpu.step()
        done += kind == "D"
        taken += kind == "X"
        if kind == "S":
            ending = value
            break
    return "run,%d,%d,%d" % (done, taken, ending)


if __name__ == "__main__":
    machine = board()
    for line in sys.stdin.read().splitlines():
        print(reply(machine, line))
