"""Random changes of the files of a layout."""
import re


def change(draw, texts):
    """One of the texts with a random change, or nothing if the change is none."""
    which = draw.choice([0, 1, 2, 2])
    lines = texts[which].split('\n')[:-1]
    line = draw.randrange(len(lines))
    parts = re.findall(r'[^ ,():#]+|[ ,():#]', lines[line])
    words = [n for n, part in enumerate(parts) if part not in ' ,():#']
    how = draw.choice(['word', 'number', 'number', 'out', 'turn', 'words'])
    if how == 'out':
        del lines[line]
    elif how == 'turn':
        other = draw.choice([draw.randrange(len(lines)), min(line + 1, len(lines) - 1)])
        lines[line], lines[other] = lines[other], lines[line]
    elif words:
        one = draw.choice(words)
        if how == 'words':
            other = draw.choice(words)
            parts[one], parts[other] = parts[other], parts[one]
        elif how == 'number':
            numbers = [n for n in words if parts[n].isdigit()]
            if numbers:
                one = draw.choice(numbers)
                parts[one] = str(max(0, int(parts[one]) + draw.choice([-1, 1])))
        else:
            parts[one] = draw.choice(re.findall(r'[^ ,():#]+', draw.choice(lines)) or ['open'])
        lines[line] = ''.join(parts)
    text = '\n'.join(lines) + '\n'
    return None if text == texts[which] else tuple(text if n == which else old for n, old in enumerate(texts))


# ---- changes of values, by others of their kind: the files keep their form


def put(lines, line, word, value):
    """Puts a word into a line."""
    words = lines[line].split(' ')
    words[word] = str(value)
    lines[line] = ' '.join(words)


def in_turn(draw, lines, places, word):
    """Two words of that number in two of the lines, in turn."""
    one, other = draw.choice(places), draw.choice(places)
    a, b = lines[one].split(' ')[word], lines[other].split(' ')[word]
    put(lines, one, word, b)
    put(lines, other, word, a)


def change_ble(draw, net, pins, size, lut, nets):
    """A BLE's input, name, output or clock, or two BLEs in turn."""
    bles = [n for n, line in enumerate(net) if line.startswith('subblock:')]
    if not bles:
        return
    line, how = draw.choice(bles), draw.choice(['input', 'input', 'name', 'names', 'output', 'clock', 'lines', 'out', 'moved'])
    pin = draw.choice(['open', draw.randrange(len(pins))])
    if how == 'input':
        put(net, line, draw.randint(2, 1 + lut), draw.choice(['open', 'ble_%d' % draw.randrange(size), draw.randrange(len(pins))]))
    elif how == 'name':
        put(net, line, 1, draw.choice(nets))
    elif how == 'names':
        in_turn(draw, net, bles, 1)
    elif how == 'output':
        put(net, line, -2, pin)
    elif how == 'clock':
        put(net, line, -1, pin)
    elif how == 'lines':
        other = draw.choice(bles)
        net[line], net[other] = net[other], net[line]
    else:
        taken = net.pop(line)
        if how == 'moved':
            net.insert(draw.choice(bles), taken)


def change_pins(draw, net, pins, nets):
    """The net on a pin of a cluster, or two pins in turn, with the words of the BLEs or without."""
    clusters = [n for n, line in enumerate(net) if line.startswith('.clb')]
    if not clusters:
        return
    line, how = draw.choice(clusters) + 1, draw.choice(['net', 'turn', 'renumbered'])
    one, other = draw.randrange(len(pins)), draw.randrange(len(pins))
    if how == 'net':
        put(net, line, one + 1, draw.choice(['open'] + nets))
        return
    a, b = net[line].split(' ')[one + 1], net[line].split(' ')[other + 1]
    put(net, line, one + 1, b)
    put(net, line, other + 1, a)
    if how == 'renumbered':
        renamed = {str(one): str(other), str(other): str(one)}
        at = line + 1
        while net[at].startswith('subblock:'):
            words = net[at].split(' ')
            net[at] = ' '.join(words[:2] + [renamed.get(word, word) for word in words[2:]])
            at += 1


def change_place(draw, place, columns, rows, pads):
    """A place, or two places in turn."""
    blocks = range(5, len(place) - 1)
    if not blocks:
        return
    line, other = draw.choice(blocks), draw.choice(blocks)
    words, others = place[line].split(' '), place[other].split(' ')
    if draw.random() < 0.5:
        words[1:4], others[1:4] = others[1:4], words[1:4]
        place[other] = ' '.join(others)
    else:
        y = draw.randint(0, rows + 1)
        words[1:4] = map(str, [draw.randint(1, columns), y, draw.randrange(pads) if y in (0, rows + 1) else 0])
    place[line] = ' '.join(words)


def change_route(draw, route, device):
    """A node's number or place, a node or a path out or twice, nets or ends in turn."""
    (pads, pins, _, _), _, _, tracks = device
    nodes = [n for n, line in enumerate(route) if re.match('SOURCE|SINK|OPIN|IPIN|CHAN', line)]
    heads = [n for n, line in enumerate(route) if line.startswith('Net ')]
    if not nodes:
        return
    line, how = draw.choice(nodes), draw.choice(['number', 'number', 'place', 'out', 'path out', 'path twice', 'names', 'ends'])
    if how == 'number':
        words = route[line].split(' ')
        put(route, line, -1, draw.randrange({'Track:': tracks, 'Pad:': pads, 'Pin:': len(pins), 'Class:': 2}[words[-2]]))
    elif how == 'place':
        x, y = [max(0, int(word) + draw.choice([-1, 0, 1])) for word in re.search(r'\((\d+),(\d+)\)', route[line]).groups()]
        route[line] = re.sub(r'\(\d+,\d+\)', '(%d,%d)' % (x, y), route[line])
    elif how == 'out':
        del route[line]
    elif how in ('path out', 'path twice'):
        first = last = line
        while route[first - 1] and not route[first - 1].startswith('SINK'):
            first -= 1
        while not route[last].startswith('SINK'):
            last += 1
        route[first:last + 1] = route[first:last + 1] * (2 if how == 'path twice' else 0)
    elif how == 'names':
        in_turn(draw, route, heads, 2)
    else:
        sinks = [n for n in nodes if route[n].startswith('SINK')]
        one, other = draw.choice(sinks), draw.choice(sinks)
        for back in (0, 1):
            route[one - back], route[other - back] = route[other - back], route[one - back]


def change_value(draw, circuit, device, texts):
    """The texts with a random change of a value, or nothing if the change is none."""
    net, place, route = (text.split('\n') for text in texts)
    (pads, pins, size, lut), columns, rows, _ = device
    nets = circuit[0] + [name for _, name in circuit[2]] + [name for _, name, _ in circuit[3]]
    where = draw.choice(['ble', 'ble', 'pins', 'place', 'route', 'route', 'route'])
    if where == 'ble':
        change_ble(draw, net, pins, size, lut, nets)
    elif where == 'pins':
        change_pins(draw, net, pins, nets)
    elif where == 'place':
        change_place(draw, place, columns, rows, pads)
    else:
        change_route(draw, route, device)
    changed = tuple('\n'.join(lines) for lines in (net, place, route))
    return None if changed == texts else changed
