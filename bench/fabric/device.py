# The device of `fpgad_desk random` with one table a cluster, for nextpnr-generic: blocks of one logic element with four inputs, a pin on each side, the
# output at the bottom; pads below and above; switch blocks that join wires of one track; a clock that isn't routed. Its size comes from the environment.
import os

TRACKS, COLUMNS, ROWS = (int(os.environ[name]) for name in ("TRACKS", "COLUMNS", "ROWS"))
PADS, INPUTS = 2, 4
delay = ctx.getDelayFromNS(0.05)


def wire(name, kind, x, y):
    ctx.addWire(name=name, type=kind, x=x, y=y)


def way(start, end, x, y):
    ctx.addPip(name=start + ">" + end, type="WAY", srcWire=start, dstWire=end, delay=delay, loc=Loc(x, y, 0))


def across(x, y, track):
    return "CHANX%d_%d_%d" % (x, y, track)


def up(x, y, track):
    return "CHANY%d_%d_%d" % (x, y, track)


def add_wires():
    wire("CLOCK", "CLOCK", 0, 0)
    for track in range(TRACKS):
        for x in range(1, COLUMNS + 1):
            for y in range(ROWS + 1):
                wire(across(x, y, track), "CHANX", x, y)
        for x in range(COLUMNS + 1):
            for y in range(1, ROWS + 1):
                wire(up(x, y, track), "CHANY", x, y)


def add_block(x, y):
    block = "B%d_%d" % (x, y)
    for name in ["F", "Q", "OUT", "CLK"] + [kind + str(k) for kind in "IP" for k in range(INPUTS)]:
        wire(block + name, "LOCAL", x, y)
    ctx.addBel(name=block, type="GENERIC_SLICE", loc=Loc(x, y, 0), gb=False, hidden=False)
    ctx.addBelInput(bel=block, name="CLK", wire=block + "CLK")
    for k in range(INPUTS):
        ctx.addBelInput(bel=block, name="I[%d]" % k, wire=block + "I%d" % k)
    ctx.addBelOutput(bel=block, name="F", wire=block + "F")
    ctx.addBelOutput(bel=block, name="Q", wire=block + "Q")
    way(block + "F", block + "OUT", x, y)
    way(block + "Q", block + "OUT", x, y)
    way("CLOCK", block + "CLK", x, y)
    for pin in range(INPUTS):
        for k in range(INPUTS):
            way(block + "P%d" % pin, block + "I%d" % k, x, y)
    for track in range(TRACKS):
        sides = [across(x, y - 1, track), up(x - 1, y, track), across(x, y, track), up(x, y, track)]
        way(block + "OUT", sides[0], x, y)
        for pin in range(INPUTS):
            way(sides[pin], block + "P%d" % pin, x, y)


def add_pad(x, y, row, number):
    pad = "PAD%d_%d_%d" % (x, y, number)
    for name in ("I", "O", "EN"):
        wire(pad + name, "LOCAL", x, y)
    ctx.addBel(name=pad, type="GENERIC_IOB", loc=Loc(x, y, number), gb=False, hidden=False)
    ctx.addBelInput(bel=pad, name="I", wire=pad + "I")
    ctx.addBelInput(bel=pad, name="EN", wire=pad + "EN")
    ctx.addBelOutput(bel=pad, name="O", wire=pad + "O")
    way(pad + "O", "CLOCK", x, y)
    for track in range(TRACKS):
        way(pad + "O", across(x, row, track), x, y)
        way(across(x, row, track), pad + "I", x, y)


def join(x, y, track):
    here = [across(x, y, track)] if x >= 1 else []
    here += [across(x + 1, y, track)] if x + 1 <= COLUMNS else []
    here += [up(x, y, track)] if y >= 1 else []
    here += [up(x, y + 1, track)] if y + 1 <= ROWS else []
    for start in here:
        for end in here:
            if start != end:
                way(start, end, x, y)


add_wires()
for x in range(1, COLUMNS + 1):
    for y in range(1, ROWS + 1):
        add_block(x, y)
    for number in range(PADS):
        add_pad(x, 0, 0, number)
        add_pad(x, ROWS + 1, ROWS, number)
for x in range(COLUMNS + 1):
    for y in range(ROWS + 1):
        for track in range(TRACKS):
            join(x, y, track)
ctx.setDelayScaling(0.05, 0.1)
ctx.setLutK(INPUTS)
