"""The language server: takes messages, keeps documents, and answers."""
import queue
import sys
import threading
import traceback
from dataclasses import dataclass
from typing import BinaryIO

from . import actions, completion, faults, hover, symbols, wire
from .checks import Checks
from .documents import BadPlace, Document, bytes_of
from .program import Answer, Program

ERROR_MESSAGE, LOG = 1, 4
ENDS = object()


class Refused(Exception):
    """A request that is answered by an error."""

    def __init__(self, code: int, says: str) -> None:
        super().__init__(says)
        self.code, self.says = code, says


@dataclass
class Told:
    """The answer of a run over a version of a text."""

    uri: str
    version: object
    answer: Answer


class Server:
    """A server over two streams, which runs `fbr` over the documents that are open."""

    def __init__(self, stream_in: BinaryIO, stream_out: BinaryIO, program: Program) -> None:
        self.stream_in, self.stream_out = stream_in, stream_out
        self.inbox: queue.Queue = queue.Queue()
        self.checks = Checks(program, lambda uri, version, answer: self.inbox.put(Told(uri, version, answer)))
        self.documents: dict[str, Document] = {}
        self.client: dict = {}
        self.is_initialized = self.is_shut_down = False
        # What was told last of a program that is missing or gave no answer: each is told once.
        self.told = ""
        self.status: int | None = None
        self.requests = {
            "shutdown": self.shutdown,
            "textDocument/hover": self.hover,
            "textDocument/definition": self.definition,
            "textDocument/documentSymbol": self.document_symbol,
            "textDocument/completion": self.completion,
            "textDocument/codeAction": self.code_action,
        }
        self.notifications = {
            "textDocument/didOpen": self.did_open,
            "textDocument/didChange": self.did_change,
            "textDocument/didClose": self.did_close,
        }

    def run(self) -> int:
        """Answers until the client ends it or goes; the status of the process."""
        threading.Thread(target=self.listen, daemon=True).start()
        try:
            while self.status is None:
                try:
                    found = self.inbox.get(timeout=self.checks.wait())
                except queue.Empty:
                    found = None
                self.handle(found)
                self.checks.start_due(self.text_of)
        except BrokenPipeError:
            # Nobody reads any more; Python would say so once more at the end.
            sys.stderr.close()
            self.status = 1
        finally:
            self.checks.stop_all()
        return self.status

    def listen(self) -> None:
        """Puts what comes into the inbox, in a thread of its own."""
        while True:
            try:
                self.inbox.put(wire.read_message(self.stream_in))
            except wire.Malformed as why:
                self.inbox.put(why)
            except (EOFError, OSError, ValueError):
                self.inbox.put(ENDS)
                return

    def handle(self, found: object) -> None:
        """Handles what was in the inbox."""
        if found is ENDS:
            self.status = 0 if self.is_shut_down else 1
        elif isinstance(found, wire.Malformed):
            self.send(id=None, error={"code": found.code, "message": found.says})
        elif isinstance(found, Told):
            self.answered(found)
        elif isinstance(found, dict):
            self.message(found)

    def send(self, **message: object) -> None:
        """Sends a message."""
        wire.write_message(self.stream_out, message)

    def notify(self, method: str, params: dict) -> None:
        """Sends a notification."""
        self.send(method=method, params=params)

    def message(self, message: dict) -> None:
        """Handles a message; whatever goes wrong in it ends no more than it."""
        method, params = message.get("method"), message.get("params")
        if "id" not in message:
            self.notification(method, params if isinstance(params, dict) else {})
        elif isinstance(method, str):
            self.request(message["id"], method, params if isinstance(params, dict) else {})
        elif "result" not in message and "error" not in message:
            self.send(id=None, error={"code": wire.INVALID_REQUEST, "message": "a request has a method"})

    def request(self, number: object, method: str, params: dict) -> None:
        """Answers a request."""
        try:
            answer = {"result": self.result(method, params)}
        except Refused as why:
            answer = {"error": {"code": why.code, "message": why.says}}
        except BadPlace as why:
            answer = {"error": {"code": wire.INVALID_PARAMS, "message": str(why)}}
        except BrokenPipeError:
            raise
        except Exception as why:
            traceback.print_exc()
            answer = {"error": {"code": wire.INTERNAL_ERROR, "message": f"{method}: {type(why).__name__}: {why}"}}
        self.send(id=number if isinstance(number, (int, str)) else None, **answer)

    def result(self, method: str, params: dict) -> object:
        """What a request is answered with; Refused if it cannot be."""
        if method == "initialize":
            return self.initialize(params)
        if not self.is_initialized:
            raise Refused(wire.NOT_INITIALIZED, "initialize comes first")
        if self.is_shut_down:
            raise Refused(wire.INVALID_REQUEST, "the server is shut down")
        if method not in self.requests:
            raise Refused(wire.METHOD_NOT_FOUND, f"there is no {method}")
        return self.requests[method](params)

    def notification(self, method: object, params: dict) -> None:
        """Takes a notification; one that is unknown or wrong is left."""
        if method == "exit":
            self.status = 0 if self.is_shut_down else 1
        elif self.is_initialized and not self.is_shut_down and method in self.notifications:
            try:
                self.notifications[method](params)
            except (Refused, BadPlace) as why:
                self.notify("window/logMessage", {"type": LOG, "message": f"fbr-lsp: {method}: {why}"})
            except BrokenPipeError:
                raise
            except Exception as why:
                traceback.print_exc()
                self.notify("window/logMessage", {"type": LOG, "message": f"fbr-lsp: {method}: {type(why).__name__}: {why}"})

    def can(self, *names: str) -> object:
        """What the client says of itself under these names, one in the other; None if nothing."""
        found: object = self.client
        for name in names:
            found = found.get(name) if isinstance(found, dict) else None
        return found

    def initialize(self, params: dict) -> dict:
        """Says what the server can."""
        if self.is_initialized:
            raise Refused(wire.INVALID_REQUEST, "initialize comes once")
        self.is_initialized = True
        self.client = params.get("capabilities") if isinstance(params.get("capabilities"), dict) else {}
        can = {
            "positionEncoding": "utf-16",
            "textDocumentSync": {"openClose": True, "change": 2},
            "hoverProvider": True,
            "definitionProvider": True,
            "documentSymbolProvider": True,
            "completionProvider": {"triggerCharacters": [".", ":", ">"]},
            "codeActionProvider": {"codeActionKinds": ["quickfix"]},
        }
        return {"capabilities": can, "serverInfo": {"name": "fbr-lsp"}}

    def shutdown(self, _: dict) -> None:
        """Nothing is checked any more; `exit` comes next."""
        self.is_shut_down = True
        self.checks.stop_all()

    def document(self, params: dict) -> Document:
        """The document of some parameters; Refused if it is not open."""
        named = params.get("textDocument")
        uri = named.get("uri") if isinstance(named, dict) else None
        if not isinstance(uri, str) or uri not in self.documents:
            raise Refused(wire.INVALID_PARAMS, f"{uri} is not open")
        return self.documents[uri]

    def did_open(self, params: dict) -> None:
        """A text is open from now on."""
        named = params.get("textDocument")
        if not isinstance(named, dict) or not isinstance(named.get("uri"), str) or not isinstance(named.get("text"), str):
            raise Refused(wire.INVALID_PARAMS, "a document has a URI and a text")
        document = Document(named["uri"], named.get("version"), named["text"])
        self.documents[document.uri] = document
        self.checks.changed(document.uri, is_new=True)

    def did_change(self, params: dict) -> None:
        """A text has changed."""
        document, changes = self.document(params), params.get("contentChanges")
        if not isinstance(changes, list):
            raise Refused(wire.INVALID_PARAMS, "changes are a list")
        document.version = params["textDocument"].get("version")
        # Of changes that are wrong those before have happened, and are checked.
        self.checks.changed(document.uri)
        for it in changes:
            if not isinstance(it, dict) or not isinstance(it.get("text"), str):
                raise Refused(wire.INVALID_PARAMS, "a change has a text")
            if it.get("range") is None:
                document.replace_all(it["text"])
            else:
                document.replace(it["range"], it["text"])

    def did_close(self, params: dict) -> None:
        """A text is not open any more, and nothing is shown of it."""
        document = self.document(params)
        self.checks.closed(document.uri)
        del self.documents[document.uri]
        self.notify("textDocument/publishDiagnostics", {"uri": document.uri, "diagnostics": []})

    def text_of(self, uri: str) -> tuple[object, bytes]:
        """The document as it is now, and its text as `fbr` gets it."""
        document = self.documents[uri]
        return (document, document.version), bytes_of(document.text)

    def answered(self, told: Told) -> None:
        """Shows what `fbr` said, unless the text has changed since."""
        document = self.documents.get(told.uri)
        if document is None or told.version != (document, document.version) or told.uri not in self.checks.runs:
            return
        self.checks.finished(told.uri)
        document.shown = self.shown(document, told.answer)
        made = {"uri": document.uri, "diagnostics": [it.diagnostic for it in document.shown]}
        version = {"version": document.version} if isinstance(document.version, int) else {}
        self.notify("textDocument/publishDiagnostics", made | version)

    def shown(self, document: Document, answer: Answer) -> list[faults.Shown]:
        """What is shown of an answer; what it says of an accepted text is kept."""
        if answer.missing:
            self.tell_once(answer.missing)
            return []
        client = self.can("textDocument", "publishDiagnostics")
        try:
            found = [] if answer.broke else faults.shown_of(document, answer.objects, client if isinstance(client, dict) else {})
        except (TypeError, ValueError, KeyError, AttributeError, IndexError) as why:
            answer = Answer(broke=f"fbr answered JSON of another form ({type(why).__name__}: {why})")
        if answer.broke:
            self.tell_once(answer.broke)
            return [faults.broken(document, answer.broke)]
        self.told = ""
        accepted = next((it for it in answer.objects if it.get("verdict") == "accepted"), None)
        if accepted:
            document.report, document.is_report_of_now = accepted, True
        return found

    def tell_once(self, says: str) -> None:
        """Tells people what is wrong with the program, once until it is another thing."""
        if says != self.told:
            self.told = says
            self.notify("window/showMessage", {"type": ERROR_MESSAGE, "message": f"fbr-lsp: {says}"})

    def hover(self, params: dict) -> dict | None:
        """What is shown of the name at a place."""
        document = self.document(params)
        formats = self.can("textDocument", "hover", "contentFormat")
        return hover.hover(document, document.offset(params.get("position")), isinstance(formats, list) and "markdown" in formats)

    def definition(self, params: dict) -> dict | None:
        """Where the name at a place is declared."""
        document = self.document(params)
        return symbols.definition(document, document.offset(params.get("position")))

    def document_symbol(self, params: dict) -> list[dict]:
        """The outline of a document."""
        found = symbols.symbols(self.document(params))
        if self.can("textDocument", "documentSymbol", "hierarchicalDocumentSymbolSupport"):
            return found
        return symbols.flat(params["textDocument"]["uri"], found)

    def completion(self, params: dict) -> list[dict]:
        """The names that can stand at a place."""
        document = self.document(params)
        return completion.completion(document, document.offset(params.get("position")))

    def code_action(self, params: dict) -> list[dict]:
        """The fixes for what is shown in a range."""
        document, span = self.document(params), params.get("range")
        if not isinstance(span, dict):
            raise BadPlace("a range is an object")
        ends = {name: document.position(document.offset(span.get(name))) for name in ("start", "end")}
        context = params.get("context")
        only = context.get("only") if isinstance(context, dict) else None
        if isinstance(only, list) and not any(str(it) in ("", "quickfix") for it in only):
            return []
        return actions.actions(document, ends)
