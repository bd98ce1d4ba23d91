# Prints how many wires of channels all nets take, once they are routed.
print("channel wires", sum(str(wire).startswith("CHAN") for _, net in ctx.nets for wire, _ in net.wires))
