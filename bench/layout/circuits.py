"""Random circuits and architectures, and what the service makes of them."""
import random, subprocess


def rows(draw, width):
    """The rows of a table: all for the same value."""
    if width == 0:
        return draw.choice([[], ['1'], ['0']])
    value = draw.choice('110')
    return ['%s %s' % (''.join(draw.choice('01-') for _ in range(width)), value) for _ in range(draw.randint(1, 3))]


def netlist(draw):
    """A random netlist, and its ports, tables and latches: with loops, nets that nothing reads, and latches of each kind."""
    width = draw.randint(1, 4)
    inputs = ['i%d' % n for n in range(draw.randint(1, 5))]
    count = draw.randint(1, 16)
    nets = inputs + ['t%d' % n for n in range(count)]
    tables, latches = [], []
    for n in range(count):
        pool = nets if draw.random() < 0.2 else nets[:len(inputs) + n]
        tables.append((draw.sample(pool, min(len(pool), draw.randint(0, width))), 't%d' % n))
    clocks = ['clk'] if draw.random() < 0.7 else [draw.choice(nets)]
    for n in range(draw.randint(0, 5)):
        latches.append((draw.choice(nets), 'q%d' % n, draw.choice(clocks) if draw.random() < 0.9 else None))
    driven = nets + [name for _, name, _ in latches]
    outputs = draw.sample(driven, min(len(driven), draw.randint(1, 5)))
    if any(control == 'clk' for _, _, control in latches):
        inputs = inputs + ['clk']
    lines = ['.model m', '.inputs ' + ' '.join(inputs), '.outputs ' + ' '.join(outputs)]
    for reads, name in tables:
        lines += ['.names ' + ' '.join(reads + [name])] + rows(draw, len(reads))
    for data, name, control in latches:
        kind = '%s %s ' % (draw.choice(['re', 're', 'fe', 'ah', 'al', 'as']), control) if control else ''
        lines.append('.latch %s %s %s%d' % (data, name, kind, draw.randint(0, 1) + 2 * (n % 2)))
    return '\n'.join(lines + ['.end', '']), (inputs, outputs, tables, latches, width)


def architecture(draw, width):
    """A random architecture for tables of that many inputs: its text, and what the definition needs of it."""
    size, inputs = draw.randint(1, 4), 0
    lut = max(width, draw.randint(1, 4))
    inputs = draw.randint(max(2, lut), lut * size + 2)
    sides = ['top', 'bottom', 'left', 'right']
    pins = [(0, draw.sample(sides, draw.randint(1, 2))) for _ in range(inputs)] + [(1, draw.sample(sides, draw.randint(1, 2))) for _ in range(size)] + [(2, ['top'])]
    draw.shuffle(pins)
    pads = draw.randint(1, 4)
    text = 'io_rat %d\nchan_width_io 1\nchan_width_x uniform 1\nchan_width_y uniform 1\n' % pads
    for kind, on in pins:
        text += ('outpin' if kind == 1 else 'inpin') + ' class: %d %s%s\n' % (kind, 'global ' if kind == 2 else '', ' '.join(on))
    text += 'subblocks_per_clb %d\nsubblock_lut_size %d\nFc_type fractional\nFc_output 1\nFc_input 1\nFc_pad 1\nswitch_block_type subset\n' % (size, lut)
    text += 'segment frequency: 1 length: 1 wire_switch: 0 opin_switch: 0 Frac_cb: 1. Frac_sb: 1. Rmetal: 4.16 Cmetal: 81e-15\n'
    text += 'switch 0 buffered: yes R: 786.9 Cin: 7.512e-15 Cout: 10.762e-15 Tdel: 456e-12\n'
    return text, (pads, pins, size, lut)


def write(path, text):
    with open(path, 'w', encoding='latin1') as file:
        file.write(text)


class Case:
    """A circuit and a strip, with the files of its layout."""

    def __init__(self, name, arch, netlist, circuit, device, files):
        self.name, self.arch, self.netlist, self.circuit, self.device, self.files = name, arch, netlist, circuit, device, files

    def size(self):
        _, columns, rows, tracks = self.device
        return ['--tracks', str(tracks), '--columns', str(columns), '--rows', str(rows)]

    def check(self, desk, folder, files):
        """The tool's status and message for the circuit with these files."""
        write(folder + '/my.arch', self.arch)
        write(folder + '/m.blif', self.netlist)
        paths = ['%s/c.%s' % (folder, kind) for kind in ('net', 'place', 'route')]
        for path, text in zip(paths, files):
            write(path, text)
        ended = subprocess.run([desk, 'check', '--arch', folder + '/my.arch', *self.size(), folder + '/m.blif', *paths], capture_output=True, encoding='latin1')
        return ended.returncode, ended.stdout + ended.stderr.strip()


def routed(desk, folder, number):
    """The random circuit of that number with its files, if it is routed."""
    draw = random.Random(number)
    text, circuit = netlist(draw)
    arch, kinds = architecture(draw, circuit[4])
    device = kinds, draw.randint(2, 6), draw.randint(2, 6), draw.randint(4, 10)
    case = Case('circuit %d' % number, arch, text, circuit, device, None)
    write(folder + '/my.arch', arch)
    write(folder + '/m.blif', text)
    ended = subprocess.run([desk, 'route', '--arch', folder + '/my.arch', *case.size(), '--effort', '1', folder + '/m.blif', folder], capture_output=True)
    if ended.returncode != 0:
        return None
    case.files = tuple(open('%s/m.%s' % (folder, kind), encoding='latin1').read() for kind in ('net', 'place', 'route'))
    return case
