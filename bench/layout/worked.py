"""The layouts that the project's examples and worked scripts print."""
import glob, os

from layout.circuits import Case


def read(path):
    with open(path, encoding='latin1', newline='') as file:
        return file.read()


def scripts(root):
    """Each script with the words of its program and what that prints: the examples, and the rows of whole_scripts."""
    for path in sorted(glob.glob(root + '/examples/*.script')):
        words = read(path + '.args').split() if os.path.exists(path + '.args') else []
        yield os.path.basename(path), root, words, path, path + '.stdout'
    rows = root + '/crates/whole_scripts'
    for line in read(rows + '/stdin').split('\n'):
        words = line.split()
        if len(words) > 2 and words[0] != '#' and words[2] == 'fpgad':
            path = '%s/data/%s' % (rows, words[0])
            if os.path.exists(path + '.script') and os.path.exists(path + '.stdout'):
                yield words[0], rows + '/data', words[3:], path + '.script', path + '.stdout'


def option(words, name, default):
    """The value of an option, as `--name VALUE` or `--name=VALUE`."""
    for at, word in enumerate(words):
        if word == '--' + name and at + 1 < len(words):
            return words[at + 1]
        if word.startswith('--%s=' % name):
            return word.split('=', 1)[1]
    return default


def acts_of(lines):
    """What each name asks, in order: the words, and the text after them."""
    acts, at = {}, 0
    while at < len(lines):
        line = lines[at]
        at += 1
        if not line.startswith('@'):
            continue
        name, *words = line[1:].split()
        text = ''
        if words and words[0] in ('upload', 'change'):
            end = lines.index('.', at) if '.' in lines[at:] else len(lines)
            text = '\n'.join(lines[at:end] + [''])
            at = end + 1
        acts.setdefault(name, []).append((words[0] if words else '', text))
    return acts


def replies_of(printed):
    """What each name is answered, in order: the line, and the file after it."""
    replies, name, at = {}, None, 0
    while at < len(printed):
        end = printed.index('\n', at)
        line, at = printed[at:end], end + 1
        words = line.split(' ')
        if words[0] == '==' and len(words) == 2:
            name = words[1]
            continue
        text = ''
        if words[0] == 'text' and len(words) == 3:
            text = printed[at:at + int(words[2])]
            at += int(words[2])
        replies.setdefault(name, []).append((line, text))
    return replies


# what is no more that of the circuit after an act
SPENT = {'upload': ('net', 'place', 'route'), 'change': ('net', 'place', 'route'), 'pack': ('net', 'place', 'route'), 'place': ('place', 'route'), 'route': ('route',)}


def layouts_of(acts, replies):
    """Each netlist with its three files, once they have all been printed."""
    netlist, files, shown = None, {}, set()
    for (act, text), (line, printed) in zip(acts, replies):
        words = line.split(' ')
        if words[0] == 'ok' and act in SPENT:
            netlist = text or netlist
            for kind in SPENT[act]:
                files.pop(kind, None)
        elif words[0] == 'text':
            files[words[1]] = printed
        if len(files) == 3:
            found = netlist, tuple(files[kind] for kind in ('net', 'place', 'route'))
            if found not in shown:
                shown.add(found)
                yield found


def layouts_of_scripts(root):
    """Each layout that a script prints."""
    for name, folder, words, script, stdout in scripts(root):
        lines, arch = read(script).split('\n'), option(words, 'arch', None)
        if arch is None and '.' in lines:
            head = lines.index('.')
            text, lines = '\n'.join(lines[:head] + ['']), lines[head + 1:]
        elif arch is not None and os.path.exists(os.path.join(folder, arch)):
            text = read(os.path.join(folder, arch))
        else:
            continue
        acts, replies = acts_of(lines), replies_of(read(stdout))
        for user in acts:
            if len(acts[user]) != len(replies.get(user, [])):
                continue
            for netlist, files in layouts_of(acts[user], replies[user]):
                size = files[2].split('\n')[0].rstrip('.').split(' ')
                device = None, int(size[2]), int(size[4]), int(option(words, 'tracks', '2'))
                yield Case('%s of %s' % (user, name), text, netlist, None, device, files)
