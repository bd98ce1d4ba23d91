"""A device that is wired as the files of a layout say, run beside the netlist."""
import os, random
from importlib.machinery import SourceFileLoader
from importlib.util import module_from_spec, spec_from_loader

from layout.definition import read_files

HERE = os.path.dirname(os.path.dirname(os.path.abspath(__file__)))


def load(name):
    """The script of that name in bench/ as a module."""
    spec = spec_from_loader(name, SourceFileLoader(name, '%s/%s' % (HERE, name)))
    module = module_from_spec(spec)
    spec.loader.exec_module(module)
    return module


CONFIGURED = load('configured')


class Wiring:
    """What drives each input, clock and output pad: a pad by the net of its input, a BLE by its block and its place there.

    Inside a cluster it goes by the .net file. Between blocks it walks back from an input pin of the block, from node to node of the .route
    file, to an output pin or a pad; which block that is, the .place file says."""

    def __init__(self, files):
        self.globals, self.blocks, self.places, nets = read_files(*files)
        self.back, self.comes, self.leaves = {}, {}, {}
        for name, _, paths in nets:
            for path in paths:
                for a, b in zip(path, path[1:]):
                    if self.back.setdefault(b, a) != a and b[0] != 'SINK':
                        raise ValueError('two nodes lead to %s' % (b,))
                for node in path:
                    if node[0] == 'IPIN':
                        self.comes.setdefault((name, node[1:3] + node[3:] * self.is_pad(node)), node)
                    elif node[0] == 'OPIN':
                        self.leaves[node] = name
        self.at = {self.key(block, place): number for number, (block, place) in enumerate(zip(self.blocks, self.places))}

    def is_pad(self, node):
        """Whether pads are at the node's place: the blocks there are all pads."""
        return any(block['kind'] != '.clb' and place[:2] == node[1:3] for block, place in zip(self.blocks, self.places))

    def key(self, block, place):
        return place[:2] if block['kind'] == '.clb' else place

    def over_fabric(self, net, number):
        """What drives the net as it comes to the block: back over the fabric to an output pin."""
        block, place = self.blocks[number], self.places[number]
        node = self.comes[net, self.key(block, place)]
        seen = set()
        while node[0] != 'OPIN':
            if node in seen:
                raise ValueError('a ring at %s' % (node,))
            seen.add(node)
            node = self.back[node]
        return self.on_pin(node)

    def on_pin(self, node):
        """The pad at an output pin, or the BLE whose net the pin has."""
        if self.is_pad(node):
            return 'pad', self.blocks[self.at[node[1:]]]['pins'][0]
        number = self.at[node[1:3]]
        return self.driver_in(number, self.leaves[node])

    def driver_in(self, number, net):
        for place, ble in enumerate(self.blocks[number]['bles']):
            if ble[0] == net and ble[2] != 'open':
                return 'ble', number, place
        raise ValueError('block %d does not drive %s' % (number, net))

    def over_network(self, net):
        """What drives a global net."""
        for number, block in enumerate(self.blocks):
            if block['kind'] == '.input' and block['pins'][0] == net:
                return 'pad', net
            if any(ble[0] == net and ble[2] != 'open' for ble in block['bles']):
                return self.driver_in(number, net)
        raise ValueError('nothing drives %s' % net)

    def driver(self, net, number):
        """What drives the net as it comes to a pin of the block."""
        return self.over_network(net) if net in self.globals else self.over_fabric(net, number)

    def fed(self, number, word):
        """The name of the net that comes to an input of a BLE, and what drives it."""
        if word.startswith('ble_'):
            place = int(word[4:])
            return self.blocks[number]['bles'][place][0], ('ble', number, place)
        net = self.blocks[number]['pins'][int(word)]
        return net, self.driver(net, number)

    def shown(self):
        """What drives each output pad, in order."""
        return [self.driver(block['pins'][0], number) for number, block in enumerate(self.blocks) if block['kind'] == '.output']


def device_of(netlist, files):
    """The machine that the files wire up, with the tables and latches of the netlist in the BLEs that are named after them."""
    wiring = Wiring(files)
    tables = {out: (ins, cover) for ins, out, cover in netlist.tables}
    latches = {out: (data, kind, control, init) for data, out, kind, control, init in netlist.latches}

    def value_of(net, fed):
        """The value of the table that drives the net, whose inputs come so."""
        machine = CONFIGURED.Netlist('.model m\n')
        machine.tables = [(tables[net][0], net, tables[net][1])]
        value = machine.machine().tables[net]
        drivers = dict(fed)
        return lambda at: value({name: at[driver] for name, driver in drivers.items()})

    placed, stored = {}, {}
    for number, block in enumerate(wiring.blocks):
        for place, (name, ins, _, clock) in enumerate(block['bles']):
            fed = [wiring.fed(number, word) for word in ins]
            if name in tables:
                placed['ble', number, place] = value_of(name, fed)
                continue
            data, kind, _, init = latches[name]
            alone = [net for net, _ in fed] == [data]
            value = (lambda at, driver=fed[0][1]: at[driver]) if alone else value_of(data, fed)
            control = None if clock == 'open' else wiring.over_network(block['pins'][int(clock)])
            stored['ble', number, place] = (value, kind, control, init)
    inputs = [('pad', block['pins'][0]) for block in wiring.blocks if block['kind'] == '.input']
    return CONFIGURED.Machine(inputs, wiring.shown(), placed, stored)


def difference(text, files, cycles=40):
    """The first cycle in which the device shows other values than the netlist; none if all are alike."""
    netlist = CONFIGURED.Netlist(text)
    one, other, draw = netlist.machine(), device_of(netlist, files), random.Random(1)
    if len(one.inputs) != len(other.inputs) or len(one.outputs) != len(other.outputs):
        return 'the pads are not the ports'
    for cycle in range(cycles):
        given = [draw.randint(0, 1) for _ in one.inputs]
        wanted, found = one.cycle(given), other.cycle(given)
        if wanted is None or found is None:
            return None
        if wanted != found:
            return 'cycle %d: the netlist shows %s, the device %s' % (cycle, wanted, found)
    return None
