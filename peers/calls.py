"""What `strace -y -xx` shows of the calls that touch files of a folder, one a line. Files have their names in
the folder, the folder is `.`, and the number of the process is `PID`. Writes and reads that follow one
another in a file are one line, where each goes on where the one before ended; so are calls that are repeated,
and the pages of a file of which a byte is written as it was read.
"""
import re

STRING = re.compile(r'"((?:\\x[0-9a-f]{2})*)"')
PAGE = 4096
CALL = re.compile(r"^(\w+)\((.*)\) = (-?\d+)(?:<([^>]*)>)?")
# XSMP's SaveComplete, by its opcodes.
COMPLETE = b"\x01\x12"


def decoded(text):
    return bytes.fromhex(text.replace("\\x", ""))


def plain(call):
    return {"linkat": "link", "renameat": "rename", "renameat2": "rename", "unlinkat": "unlink"}.get(call, call)


class Calls:
    def __init__(self, folder):
        self.folder = folder
        self.places, self.moving, self.lines = {}, None, []
        # The byte that was read last, and the file with the pages that were touched.
        self.byte, self.touching = None, None

    def name(self, path):
        """A file of the folder by its name; None for any other."""
        path = path.decode(errors="replace").removesuffix(" (deleted)")
        if path == self.folder:
            return "."
        if not path.startswith(self.folder + "/"):
            return None
        return re.sub(r"\.new-\d+$", ".new-PID", path[len(self.folder) + 1 :])

    def show(self, *words):
        self.flush()
        self.put(" ".join(words))

    def put(self, line):
        if self.lines[-1:] != [line]:
            self.lines.append(line)

    def flush(self):
        if self.touching:
            name, pages = self.touching
            self.touching = None
            self.put("touch %s %d pages" % (name, pages))
        if self.moving:
            what, name, at, end = self.moving
            self.moving = None
            self.put("%s %s %d bytes at %d" % (what, name, end - at, at))

    def is_touch(self, name, at, data):
        """Whether a byte is written as it was read, and of the page behind those that were touched."""
        pages = self.touching[1] if self.touching and self.touching[0] == name else 0
        return self.moving == ("read", name, at, at + 1) and self.byte == data and at == pages * PAGE

    def at_place(self, what, name, at, count, data):
        """Bytes that were written or read at a place."""
        if what == "write" and count == 1 and self.is_touch(name, at, data):
            self.moving = None
            self.touching = (name, at // PAGE + 1)
            return
        if self.touching and (what, count, at) != ("read", 1, self.touching[1] * PAGE):
            self.flush()
        self.moved(what, name, at, count)
        self.byte = data if what == "read" else None

    def moved(self, what, name, at, count):
        """Bytes that were written or read."""
        if self.moving and self.moving[:2] == (what, name) and self.moving[3] == at:
            self.moving = (what, name, self.moving[2], at + count)
            return
        if self.moving:
            self.flush()
        self.moving = (what, name, at, at + count)

    def sequential(self, what, name, number, count):
        if self.touching:
            self.flush()
        at = self.places.get(number, 0)
        self.places[number] = at + count
        self.moved(what, name, at, count)

    def on_descriptor(self, call, words, result):
        found = re.match(r"(\d+)<((?:\\x[0-9a-f]{2})*)(?:>\(deleted\)|>)", words)
        if not found:
            return
        number, name = int(found[1]), self.name(decoded(found[2]))
        if call == "sendto":
            data = STRING.search(words)
            if data and decoded(data[1]).startswith(COMPLETE):
                self.show("send SaveComplete")
        elif call == "bind":
            place = self.name(decoded(STRING.search(words)[1]))
            self.show("bind", ("@" if '@"' in words else "") + str(place))
        elif call == "fchmod":
            self.show("mode", words.rsplit(", ", 1)[1], "of", name or "a socket")
        elif name is None:
            return
        elif call in ("pwrite64", "pread64"):
            self.at_place(call[1:-2], name, int(words.rsplit(", ", 1)[1]), result, STRING.search(words)[1])
        elif call in ("write", "read"):
            self.sequential(call, name, number, result)
        elif call == "flock":
            self.show("lock", name)
        elif call in ("fsync", "fdatasync"):
            self.show("sync", name)
        else:
            self.show(call, name)

    def on_paths(self, call, words, result):
        names = [self.name(decoded(it)) for it in STRING.findall(words)]
        if not any(names):
            return
        if call in ("openat", "open", "creat"):
            self.places[result] = 0
            call = "make" if "O_CREAT" in words else "open"
        self.show(plain(call), *[it or "elsewhere" for it in names])

    def take(self, line):
        found = CALL.match(line)
        if not found:
            return
        call, words, result = found[1], found[2], int(found[3])
        if result < 0:
            if re.match("(link|rename)", call) or call in ("fsync", "fdatasync", "flock"):
                self.show("refused:", plain(call))
        elif re.match(r"\d+<", words):
            self.on_descriptor(call, words, result)
        else:
            self.on_paths(call, words, result)


def calls_of(folder, trace):
    """The lines of a trace."""
    calls = Calls(folder)
    with open(trace) as file:
        for line in file:
            calls.take(line)
    calls.flush()
    return calls.lines
