# trace of the reference model: python3 trace.py < image > output
import sys
from bus import Ram, Timer, Port, Fork, Cache
from cpu import Cpu
from image import load


def board():
    bus = Fork(Cache(Ram(bytes(4096))), Fork(Timer(0), Port(64), 16), 4096)
    return Cpu(0x00101137, 0, 0x800, [0xA5A5A5A5] * 32, bus)


def trace(image, watch=None):
    if len(image) > 65536:
        return "refused,0,65536\n"
    cpu = board()
    got = load(cpu.bus, image)
    if got[0] == "refused":
        return "refused,%d,%d\n" % got[1:]
    out, done, taken = ["n,pc,kind,value"], 0, 0
    for n in range(1, 65):
        pc = cpu.pc
        before = (list(cpu.r), cpu.ie, cpu.ip)
        kind, value, more = cpu.step()
        out.append("%d,%08X,%s,%08X" % (n, pc, kind, value))
        done += kind == "D"
        taken += kind == "X"
        if watch:
            watch(n, pc, kind, value, more, before, cpu)
        if kind == "S":
            break
    out.append("end,%d,%d" % (done, taken))
    return "\n".join(out) + "\n"


if __name__ == "__main__":
    sys.stdout.write(trace(sys.stdin.buffer.read()))
