#!/usr/bin/env python3
"""front.py FOLDER NAME[:GROUP].. -- PROGRAM ARGS..: sockets for the clients of a live service.

PROGRAM ARGS.. is `fpgad_live` with its options. FOLDER/NAME.sock takes what NAME says, without its tag, and gives
the replies, without it too. FOLDER/op.sock takes lines of the operator, which begin with `op `, and gives the
replies with their tag. A socket has mode 0660, and the front's group or GROUP. `front: ready` on standard error:
the service has read its log, and the sockets are there.

- The front alone writes to the service, and only whole lines, each with the tag of its socket. So no byte of a client
  begins a line of the service's input.
- A command is a line, or all of a netlist from its `upload` or `change` to its `.`. It is handed over when all of it
  has come. So what a lost client left unfinished, half a line or a netlist without its `.`, never gets there.
- The service has one command of each name at a time, and one of the operator. So a reply belongs to the connection
  that asked, and all that waits is bounded: a connection has one command, and the reply to the one before. Its next
  command is taken when it has read that reply. If it reads nothing for PATIENCE seconds, it is closed.
- A connection that has said all (and shut its writing half) is closed after its last reply. One that is lost loses
  the commands that are not handed over yet.
- What the front says itself begins with `front: `. No reply of the service does.
- If a service was killed within a netlist, its log may have a beginning of it. The front makes it no netlist, and
  ends it, before the sockets are there.

SIGTERM and SIGINT end the service's input: it answers what it was given, and ends. A second one ends it at once.
The status is the service's, or 128 and the signal that ended it; 1 if a socket can't be made or the folder has
another front, 2 if the words are wrong."""
import asyncio, contextlib, fcntl, os, re, resource, shutil, signal, socket, stat, sys

LINE = 262144      # the most bytes of a line; a netlist with a longer line of words is refused anyway
TEXT = 1048576     # the most bytes of a netlist; a longer one is handed over up to the line that makes it too long
COMMAND = 4096     # the most bytes of a line outside of netlists; a longer one is no command
CLIENTS = 8        # the most connections to one socket
BACKLOG = 64       # how many more may wait until they are taken, or refused
AT_ONCE = 4        # how many of them are taken or refused before other clients have their turn
PIECE = 16384      # about how many bytes of a command are handed over before other clients have their turn
PATIENCE = 60      # the seconds within which a client has to read some of its reply
LOST_PLACE = b"\n.nothing\n.\nplace\n"    # ends a text that may be open, as no netlist
LAST_REPLY = b"line 2 BadNumber\n"        # that to `place`: it comes last, whether a text was open or not


class Refused(Exception):
    """Why a connection is closed."""


def say(message):
    print("front:", message, file=sys.stderr, flush=True)


async def lines_of(reader):
    """The lines of a stream, each with its LF. Others have their turn after each 64 lines."""
    count = 0
    while True:
        try:
            line = await reader.readuntil(b"\n")
        except asyncio.LimitOverrunError:
            raise Refused("the line is too long") from None
        except asyncio.IncompleteReadError as end:
            if end.partial:
                raise Refused("a line without its end is dropped") from None
            return
        yield line
        count += 1
        if count % 64 == 0:
            await asyncio.sleep(0)


async def commands_of(reader):
    """What a name says, command by command, as the service reads it. Each has one reply."""
    text, size = None, 0
    async for line in lines_of(reader):
        said = line[:-1].removesuffix(b"\r")
        if text is not None:
            if said == b".":
                yield bytes(text) + line
                text = None
            elif size <= TEXT:
                text += line
                size += len(said) + 1
        elif re.fullmatch(rb"[ \t\r]*(upload|change)[ \t\r]*", said) and len(said) <= COMMAND:
            text, size = bytearray(line), 0
        elif said.strip(b" \t\r"):
            yield line
    if text is not None:
        raise Refused("a netlist without its end is dropped")


async def operator_lines_of(reader):
    """The lines of the operator. A comment, or a line without a word, has no reply."""
    async for line in lines_of(reader):
        if line.strip(b" \t\r\n") and not line.startswith(b"#"):
            yield line


def pieces_of(tag, command):
    """The lines of a command, each with its tag, some at a time. A line of the operator has its tag already."""
    if tag == b"op":
        yield command
        return
    while command:
        cut = command.find(b"\n", min(PIECE, len(command) - 1)) + 1
        yield tag + b" " + command[:cut - 1].replace(b"\n", b"\n" + tag + b" ") + b"\n"
        command = command[cut:]


def what_follows(says):
    """How much follows the first line of a reply, and how it is counted."""
    word, *more = says.split() or [b""]
    if word == b"text":
        return int(more[1]), len
    return int(more[0]) if word in (b"lines", b"owners") else 0, lambda line: 1


class Service:
    """The service: its input, and its replies by tag."""

    def __init__(self, process, tags):
        self.process, self.is_open, self.input = process, True, asyncio.Lock()
        self.turns = {tag: asyncio.Lock() for tag in tags}
        self.replies = {tag: asyncio.Queue() for tag in tags}
        self.asked = {}    # by tag, the command that is to be answered

    async def ask(self, tag, command, last_reply=None):
        """The reply to a command. If it has several, they are read up to the last one."""
        async with self.turns[tag]:
            self.asked[tag] = command
            for lines in pieces_of(tag, command):
                await self.hand_over(lines)
            reply = await self.replies[tag].get()
            while reply is not None and last_reply not in (None, reply):
                reply = await self.replies[tag].get()
            del self.asked[tag]
            if reply is None:
                raise Refused("the service has ended")
            return reply

    async def hand_over(self, lines):
        async with self.input:
            if not self.is_open:
                raise Refused("the service ends")
            try:
                self.process.stdin.write(lines)
                await self.process.stdin.drain()
            except ConnectionError:
                raise Refused("the service has ended") from None

    async def read_replies(self):
        """Gives each reply to the connection that asked, up to the end of the output."""
        coming = {}
        try:
            async for line in lines_of(self.process.stdout):
                tag, _, says = line.partition(b" ")
                if tag == b"?":    # a line without a form: only one of the operator can have none
                    tag = b"op"
                is_echo = tag == b"op" and self.asked.get(tag, b"").startswith(b"op echo ")    # it may look like any reply
                lines, left, measure = coming.pop(tag, None) or ([], *what_follows(b"" if is_echo else says))
                left -= measure(says) if lines else 0
                lines.append(line if tag == b"op" else says)
                if left > 0:
                    coming[tag] = lines, left, measure
                elif tag in self.asked:
                    self.replies[tag].put_nowait(b"".join(lines))
                else:
                    say(f"nobody asked for {lines[0]!r}")
        except Refused as reason:
            say(f"output: {reason}")
        self.is_open = False
        for replies in self.replies.values():
            replies.put_nowait(None)

    def stop(self):
        """Ends the service's input. The second time, ends the service."""
        if self.is_open:
            self.is_open = False
            self.process.stdin.close()
        elif self.process.returncode is None:
            self.process.terminate()


async def send(writer, reply):
    """Sends a reply, and waits until it has been read, or nothing of it for PATIENCE seconds."""
    writer.write(reply)
    while True:
        left = writer.transport.get_write_buffer_size()
        try:
            return await asyncio.wait_for(writer.drain(), PATIENCE)
        except asyncio.TimeoutError:
            if writer.transport.get_write_buffer_size() == left:
                raise


class Front:
    """The sockets, and their connections."""

    def __init__(self, folder, groups):
        self.folder, self.groups, self.service = folder, groups, None
        self.tags = {name: b"@" + name.encode() for name in groups} | {"op": b"op"}
        self.paths, self.clients, self.busy = [], dict.fromkeys(self.tags.values(), 0), set()

    async def run(self, words):
        """Runs the service. Returns the status."""
        pipe = asyncio.subprocess.PIPE
        try:    # in a session of its own, so that Ctrl-C at a terminal ends the front alone
            process = await asyncio.create_subprocess_exec(*words, stdin=pipe, stdout=pipe, limit=4 * TEXT, start_new_session=True)
        except OSError as error:
            say(error)
            return 1
        self.service = Service(process, self.tags.values())
        for number in (signal.SIGTERM, signal.SIGINT):
            asyncio.get_running_loop().add_signal_handler(number, self.service.stop)
        opening = asyncio.create_task(self.open())
        await self.service.read_replies()
        status = await process.wait()
        say(f"the service ended with status {status}" if status >= 0 else f"signal {-status} ended the service")
        for path in self.paths:
            with contextlib.suppress(FileNotFoundError):
                os.unlink(path)
        if self.busy:
            await asyncio.wait(self.busy, timeout=PATIENCE)
        return 1 if not await opening else status if status >= 0 else 128 - status

    async def open(self):
        """Opens the sockets when the service has read its log. Returns whether they could be made."""
        try:
            names = [tag for tag in self.tags.values() if tag != b"op"]
            await asyncio.gather(*(self.service.ask(tag, LOST_PLACE, LAST_REPLY) for tag in names))
            for name, tag in self.tags.items():
                await self.listen(os.path.join(self.folder, name + ".sock"), tag, self.groups.get(name))
            say("ready")
        except Refused:
            pass    # the service has ended, and says why
        except (OSError, LookupError) as error:
            say(error)
            self.service.stop()
            return False
        return True

    async def listen(self, path, tag, group):
        if os.path.exists(path) and stat.S_ISSOCK(os.stat(path).st_mode):
            os.unlink(path)    # of a front that was killed
        listener = socket.socket(socket.AF_UNIX)
        umask = os.umask(0o177)    # nobody else may connect before the group is the right one
        listener.bind(path)
        os.umask(umask)
        self.paths.append(path)
        if group:
            shutil.chown(path, group=group)
        os.chmod(path, 0o660)
        await asyncio.start_unix_server(
            lambda reader, writer: self.take(tag, reader, writer), sock=listener, limit=LINE, backlog=AT_ONCE)
        listener.listen(BACKLOG)

    async def take(self, tag, reader, writer):
        """Serves a connection."""
        if self.clients[tag] == CLIENTS:
            writer.write(b"front: busy\n")
            return writer.close()
        self.clients[tag] += 1
        writer.transport.set_write_buffer_limits(0)    # so that `drain` waits until all is read
        try:
            await self.serve(tag, reader, writer)
        except (ConnectionError, asyncio.TimeoutError):
            writer.transport.abort()
        except asyncio.CancelledError:
            writer.write(b"front: the service has ended\n")
        finally:
            self.clients[tag] -= 1
            self.busy.discard(asyncio.current_task())
            writer.close()

    async def serve(self, tag, reader, writer):
        try:
            async for command in operator_lines_of(reader) if tag == b"op" else commands_of(reader):
                self.busy.add(asyncio.current_task())
                await send(writer, await self.reply(tag, command))
                self.busy.discard(asyncio.current_task())
        except Refused as reason:
            await send(writer, f"front: {reason}\n".encode())

    async def reply(self, tag, command):
        if tag == b"op" and not command.startswith(b"op "):
            return b"front: not a line of the operator\n"
        return await self.service.ask(tag, command)


def main(words):
    cut = words.index("--") if "--" in words else len(words)
    names, program = words[1:cut], words[cut + 1:]
    groups = dict(name.partition(":")[::2] for name in names)
    if not groups or not program or not all(re.fullmatch("[A-Za-z0-9_]{1,32}", name) and name != "op" for name in groups):
        say("the words are FOLDER NAME[:GROUP].. -- PROGRAM ARGS..")
        return 2
    needed = 64 + (len(groups) + 1) * (1 + CLIENTS + AT_ONCE)    # descriptors
    soft, hard = resource.getrlimit(resource.RLIMIT_NOFILE)
    resource.setrlimit(resource.RLIMIT_NOFILE, (max(soft, min(needed, hard)), hard))
    try:
        fcntl.flock(os.open(words[0], os.O_RDONLY | os.O_DIRECTORY), fcntl.LOCK_EX | fcntl.LOCK_NB)
    except BlockingIOError:
        say(f"{words[0]} has another front")
        return 1
    except OSError as error:
        say(error)
        return 1
    return asyncio.run(Front(words[0], groups).run(program))


if __name__ == "__main__":
    sys.exit(main(sys.argv[1:]))
