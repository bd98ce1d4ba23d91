"""When the files of a layout implement a circuit: a definition that was written from docs/FORMATS.md, and shares nothing with the tool."""
import re


def read_files(net, place, route):
    """What the files say: global nets, blocks, places and nets between blocks."""
    names = [line.split(' ')[1] for line in net.split('\n') if line.startswith('.global ')]
    blocks, block = [], None
    for line in net.split('\n'):
        words = line.split(' ')
        if words[0] in ('.input', '.output', '.clb'):
            block = {'kind': words[0], 'pins': [], 'bles': []}
            blocks.append(block)
        elif words[0] == 'pinlist:':
            block['pins'] = words[1:] if block['kind'] != '.clb' else [None if w == 'open' else w for w in words[1:]]
        elif words[0] == 'subblock:':
            block['bles'].append((words[1], [w for w in words[2:-2] if w != 'open'], words[-2], words[-1]))
    places = [tuple(map(int, line.split(' ')[1:4])) for line in place.split('\n')[5:] if line]
    nets = []
    for line in route.split('\n')[4:]:
        if line.startswith('Net '):
            nets.append((re.match(r'Net \d+ \((.*?)\)(:|$)', line).group(1), [], [[]]))
        elif line.startswith('Block '):
            nets[-1][1].append(int(re.search(r'\(#(\d+)\)', line).group(1)))
        elif line:
            kind, x, y, number = re.match(r'(\w+) \((\d+),(\d+)\) \w+: (\d+)', line).groups()
            nets[-1][2][-1].append((kind, int(x), int(y), int(number)))
            if kind == 'SINK':
                nets[-1][2].append([])
    return names, blocks, places, [(name, listed, [path for path in paths if path]) for name, listed, paths in nets]


def is_edge(device, a, b):
    """Whether an edge of the fabric leads from one node to the other; every pin reaches every track."""
    (_, pins, _, _), columns, rows, tracks, pads = device[0], device[1], device[2], device[3], device[0][0]

    def is_node(node):
        kind, x, y, n = node
        if kind in ('CHANX', 'CHANY'):
            return 0 + (kind == 'CHANX') <= x <= columns and 0 + (kind == 'CHANY') <= y <= rows and n < tracks
        if not 1 <= x <= columns or not 0 <= y <= rows + 1:
            return False
        if y in (0, rows + 1):
            return n < pads
        if kind in ('SOURCE', 'SINK'):
            return n == (kind == 'SOURCE')
        return n < len(pins) and pins[n][0] == (1 if kind == 'OPIN' else 0)

    def beside(pin, wire):
        _, x, y, n = pin
        if y in (0, rows + 1):
            return wire[:3] == ('CHANX', x, min(y, rows))
        around = {'top': ('CHANX', x, y), 'bottom': ('CHANX', x, y - 1), 'right': ('CHANY', x, y), 'left': ('CHANY', x - 1, y)}
        return wire[:3] in [around[side] for side in pins[n][1]]

    def ends(wire):
        kind, x, y, _ = wire
        return {(x - (kind == 'CHANX'), y - (kind == 'CHANY')), (x, y)}

    if not is_node(a) or not is_node(b):
        return False
    two = (a[0][:4], b[0][:4])
    if two in (('SOUR', 'OPIN'), ('IPIN', 'SINK')):
        return a[1:3] == b[1:3] and (a[2] not in (0, rows + 1) or a[3] == b[3])
    if two == ('OPIN', 'CHAN'):
        return beside(a, b)
    if two == ('CHAN', 'IPIN'):
        return beside(b, a)
    return two == ('CHAN', 'CHAN') and a != b and a[3] == b[3] and bool(ends(a) & ends(b))


def is_tree(device, source, sinks, paths):
    """Whether the paths are a tree of edges from the source to just these sinks, by one output pin."""
    pairs = {pair for path in paths for pair in zip(path, path[1:])}
    nodes = {node for path in paths for node in path}
    if not sinks:
        return not nodes
    if not all(is_edge(device, a, b) for a, b in pairs) or len({b for _, b in pairs}) != len(pairs):
        return False
    reached, grown = set(), {source}
    while grown - reached:
        reached |= grown
        grown = {b for a, b in pairs if a in reached}
    return nodes <= reached and source not in {b for _, b in pairs} and len({n for n in nodes if n[0] == 'OPIN'}) == 1 and nodes - {a for a, _ in pairs} == set(sinks)


def wrong(circuit, device, files):
    """The first point at which the files don't implement the circuit; none if they do."""
    inputs, outputs, tables, latches, _ = circuit
    (pads, pins, size, lut), columns, rows, tracks = device
    names, blocks, places, nets = read_files(*files)
    reads = [n for ins, _ in tables for n in ins] + [d for d, _, _ in latches] + [c for _, _, c in latches if c] + outputs
    controls = {c for _, _, c in latches if c}

    def on_pin(block, kind, pin):
        return block['pins'][pin] if pin < len(pins) and pin < len(block['pins']) and pins[pin][0] == kind else None

    def fed(block, word):
        if word.startswith('ble_'):
            return block['bles'][int(word[4:])][0] if int(word[4:]) < len(block['bles']) else None
        return on_pin(block, 0, int(word))

    made = []
    for block in blocks:
        if len(block['bles']) > (size if block['kind'] == '.clb' else 0):
            return 'too many BLEs'
        for name, ins, out, clock in block['bles']:
            gets = [fed(block, word) for word in ins]
            control = None if clock == 'open' else on_pin(block, 2, int(clock))
            if None in gets or len(ins) > lut or (clock != 'open' and control is None) or (out != 'open' and on_pin(block, 1, int(out)) != name):
                return 'a BLE is not fed'
            if len(set(gets)) != len(gets):
                return 'a net comes twice'
            made.append((name, set(gets), control))
    holds = {('table', name): 0 for _, name in tables}
    holds.update({('latch', name): 0 for _, name, _ in latches})
    for name, gets, control in made:
        held = set()
        for ins, out in tables:
            if (name, gets, control) == (out, set(ins), None):
                held.add(('table', out))
        for data, out, clock in latches:
            if (name, gets, control) == (out, {data}, clock):
                held.add(('latch', out))
            for ins, table in tables:
                if data == table and reads.count(table) == 1 and (name, gets, control) == (out, set(ins), clock):
                    held |= {('table', table), ('latch', out)}
        if not held:
            return 'a BLE is neither a table nor a latch'
        for one in held:
            holds[one] += 1
    if any(count != 1 for count in holds.values()):
        return 'a table or latch is not in one BLE'

    def wants(block, net):
        if block['kind'] == '.output':
            return block['pins'][0] == net
        return block['kind'] == '.clb' and any(carried == net and pins[pin][0] != 1 for pin, carried in enumerate(block['pins'][:len(pins)]))

    def drives(block, net):
        if block['kind'] == '.input':
            return block['pins'][0] == net
        return block['kind'] == '.clb' and any(ble[0] == net and ble[2] != 'open' for ble in block['bles'])

    def terminal(kind, number):
        x, y, pad = places[number]
        return (kind, x, y, int(kind == 'SOURCE') if blocks[number]['kind'] == '.clb' else pad)

    for net, listed, paths in nets:
        readers = [n for n, block in enumerate(blocks) if wants(block, net)]
        drivers = [n for n, block in enumerate(blocks) if drives(block, net)]
        sinks = [] if net in controls else [terminal('SINK', n) for n in readers]
        if not any(is_tree(device, terminal('SOURCE', n), sinks, paths) and listed == ([n] + [r for r in readers if r != n] if net in controls else []) for n in drivers):
            return 'net %s is not led' % net
    entries = [net for net, _, _ in nets]
    wanted = {block['pins'][0] for block in blocks if block['kind'] == '.output'} | {n for block in blocks if block['kind'] == '.clb' for p, n in enumerate(block['pins'][:len(pins)]) if n and pins[p][0] != 1}
    if not wanted <= set(entries) or len(set(entries)) != len(entries) or set(names) != controls:
        return 'a net is missing, twice or wrongly global'
    if [block['pins'][0] for block in blocks if block['kind'] == '.input'] != inputs or [block['pins'][0] for block in blocks if block['kind'] == '.output'] != outputs:
        return 'the ports are others'
    for block, (x, y, pad) in zip(blocks, places):
        if not 1 <= x <= columns or not (1 <= y <= rows and pad == 0 if block['kind'] == '.clb' else y in (0, rows + 1) and pad < pads):
            return 'a block is on no place for it'
    if len(set(places)) != len(places) or len(places) != len(blocks):
        return 'two blocks are on one place'
    used = {}
    for _, _, paths in nets:
        for node in {node for path in paths for node in path}:
            used[node] = used.get(node, 0) + 1
    room = {'SOURCE': sum(kind == 1 for kind, _ in pins), 'SINK': sum(kind == 0 for kind, _ in pins)}
    if any(count > (room.get(node[0], 1) if 1 <= node[2] <= rows else 1) for node, count in used.items()):
        return 'a wire or pin is used twice'
    return None
