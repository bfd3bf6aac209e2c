"""What the tests of fbr-lsp share: a client, places in texts, and programs that stand for fbr."""
import json
import pathlib
import queue
import stat
import subprocess
import sys
import threading

import parts

SERVER = parts.TOOLS / "fbr-lsp"
PLANTS = sorted(it.parent.name for it in (parts.TOP / "examples").glob("*/*.fb") if it.parent.name == it.stem)
URI = "file:///plant.fb"
# For what comes on a machine that is busy; nothing waits so long otherwise.
PATIENCE = 60
TEXT_DOCUMENT = {
    "hover": {"contentFormat": ["markdown", "plaintext"]},
    "documentSymbol": {"hierarchicalDocumentSymbolSupport": True},
    "publishDiagnostics": {"relatedInformation": True},
}


def plant(name):
    """The text of a plant of examples/."""
    return (parts.TOP / "examples" / name / f"{name}.fb").read_text(encoding="utf-8")


def framed(message):
    """A message as it goes through the pipe."""
    body = message if isinstance(message, bytes) else json.dumps(message).encode()
    return b"Content-Length: %d\r\n\r\n" % len(body) + body


class Client:
    """A client of a server that it starts."""

    def __init__(self, *words, env=None):
        program = [sys.executable, str(SERVER), *map(str, words)]
        self.job = subprocess.Popen(program, stdin=subprocess.PIPE, stdout=subprocess.PIPE, stderr=subprocess.PIPE, env=env)
        self.came, self.waiting, self.number, self.said = queue.Queue(), [], 0, b""
        self.threads = [threading.Thread(target=it, daemon=True) for it in (self.listen, self.hear)]
        for it in self.threads:
            it.start()

    def listen(self):
        stream = self.job.stdout
        while line := stream.readline():
            length = int(line.partition(b":")[2])
            stream.readline()
            self.came.put(json.loads(stream.read(length)))
        self.came.put(None)

    def hear(self):
        """Keeps what the server says on standard error."""
        self.said = self.job.stderr.read()

    def put(self, data):
        self.job.stdin.write(data)
        self.job.stdin.flush()

    def tell(self, method, **params):
        self.put(framed({"jsonrpc": "2.0", "method": method, "params": params}))

    def next(self, wanted):
        """The first message that is wanted; the others are kept for later."""
        for index, message in enumerate(self.waiting):
            if wanted(message):
                return self.waiting.pop(index)
        while True:
            message = self.came.get(timeout=PATIENCE)
            if message is None:
                raise EOFError("the server has ended")
            if wanted(message):
                return message
            self.waiting.append(message)

    def answer(self, method, **params):
        """The whole answer to a request."""
        self.number += 1
        number = self.number
        self.put(framed({"jsonrpc": "2.0", "id": number, "method": method, "params": params}))
        return self.next(lambda it: it.get("id") == number and "method" not in it)

    def ask(self, method, **params):
        """The result of a request."""
        return self.answer(method, **params)["result"]

    def notified(self, method):
        """The parameters of the next notification of a method."""
        return self.next(lambda it: it.get("method") == method)["params"]

    def start(self, text_document=None):
        found = self.ask("initialize", processId=None, rootUri=None, capabilities={"textDocument": TEXT_DOCUMENT if text_document is None else text_document})
        self.tell("initialized")
        return found

    def open(self, text, uri=URI):
        self.tell("textDocument/didOpen", textDocument={"uri": uri, "languageId": "fb", "version": 1, "text": text})

    def change(self, version, *changes, uri=URI):
        self.tell("textDocument/didChange", textDocument={"uri": uri, "version": version}, contentChanges=list(changes))

    def shown(self, version=1):
        """The diagnostics of a version."""
        return self.next(lambda it: it.get("method") == "textDocument/publishDiagnostics" and it["params"].get("version") == version)["params"]["diagnostics"]

    def at(self, method, position, **rest):
        """The answer to a question about a place."""
        return self.ask(f"textDocument/{method}", textDocument={"uri": URI}, position=position, **rest)

    def end(self):
        """Ends the server as a client does; its status."""
        if self.job.poll() is None:
            self.ask("shutdown")
            self.tell("exit")
        return self.job.wait(timeout=PATIENCE)

    def drop(self):
        """Ends the server in any case."""
        if self.job.poll() is None:
            self.job.kill()
        self.job.wait()
        for it in self.threads:
            it.join()
        for stream in (self.job.stdin, self.job.stdout, self.job.stderr):
            stream.close()


def place(text, words, skip=0):
    """The position `skip` characters behind the beginning of words, which stand once in a text, in lines and UTF-16 code units."""
    if text.count(words) != 1:
        raise ValueError(f"{words!r} stands {text.count(words)} times in the text")
    at = text.index(words) + skip
    line = text.rfind("\n", 0, at) + 1
    return {"line": text.count("\n", 0, at), "character": len(text[line:at].encode("utf-16-le")) // 2}


def between(text, span):
    """What stands in a range, by its UTF-16 code units."""
    lines = text.split("\n")
    ends = []
    for it in (span["start"], span["end"]):
        before = lines[it["line"]].encode("utf-16-le")[: 2 * it["character"]].decode("utf-16-le")
        ends.append(sum(len(line) + 1 for line in lines[: it["line"]]) + len(before))
    return ends


def in_range(text, span):
    """The text in a range."""
    start, end = between(text, span)
    return text[start:end]


def edited(text, action):
    """A text after a code action."""
    (edits,) = action["edit"]["changes"].values()
    for it in edits:
        start, end = between(text, it["range"])
        text = text[:start] + it["newText"] + text[end:]
    return text


class WithServer(parts.Folder):
    """A test with a server that is started, and ended as a client ends it."""

    def server(self, *words, env=None, text_document=None, starts=True):
        program = parts.program()
        made = Client(*(words or ("--fbr", program)), env=env)
        self.addCleanup(made.drop)
        if starts:
            made.start(text_document)
        return made

    def opened(self, text, **how):
        """A server with a text, and what is shown of it."""
        client = self.server(**how)
        client.open(text)
        return client, client.shown()

    def stand_in(self, *lines):
        """A program that stands for fbr: lines of a shell script."""
        path = pathlib.Path(self.folder) / "stand_in"
        path.write_text("#!/bin/sh\n" + "\n".join(lines) + "\n", encoding="utf-8")
        path.chmod(path.stat().st_mode | stat.S_IXUSR)
        return path


def accepted(text):
    """Whether fbr accepts a text."""
    done = subprocess.run([parts.program(), "explain", "-", "--json"], input=text.encode(), capture_output=True)
    return json.loads(done.stdout)["verdict"] == "accepted"


