"""A client of the adapter, as an editor is one, and what messages say in short."""
import json
import os
import queue
import subprocess
import tempfile
import threading

from rewind_tools.testing import SECONDS, TOOLS, TOP, programs_of

STUCK = f"{TOP}/examples/stuck-program.jsonl"
COMMAND = [f"{TOOLS}/dap"]
REFUSED = (
    "line {}, processor 0 runs the notification of total (0): refused: processor 0's view has"
    " words (0) strictly before total (0) (10 NotYet)"
)


def frame(value):
    """A message as the bytes of its frame."""
    body = value if isinstance(value, bytes) else json.dumps(value).encode()
    return b"Content-Length: %d\r\n\r\n" % len(body) + body


def frames_of(text):
    """The messages of a text of frames."""
    found = []
    while text:
        head, _, rest = text.partition(b"\r\n\r\n")
        length = int(head.removeprefix(b"Content-Length: "))
        found.append(json.loads(rest[:length]))
        text = rest[length:]
    return found


def request(number, command, arguments=None):
    more = {} if arguments is None else {"arguments": arguments}
    return {"seq": number, "type": "request", "command": command, **more}


def short(message):
    """What a message says, in a line."""
    body = message.get("body", {})
    if message["type"] == "response":
        return f"{message['command']}: {'done' if message['success'] else message['message']}"
    if message["event"] == "output":
        return f"{body['category']}: {body['output'].rstrip()}"
    if message["event"] == "stopped":
        hit = f", hit {body['hitBreakpointIds']}" if "hitBreakpointIds" in body else ""
        return f"stopped in {body['threadId']}, {body['reason']}: {body.get('text', '')}{hit}"
    if message["event"] == "breakpoint":
        return f"breakpoint {body['breakpoint']['id']} is {body['breakpoint']['verified']}"
    return message["event"] + (f" {body['exitCode']}" if "exitCode" in body else "")


class Client:
    """An adapter, and what it has said."""

    def __init__(self, command=None, **environment):
        self.room = tempfile.TemporaryDirectory(prefix="rewind-dap-")  # for files that the adapter leaves
        environment = {**os.environ, "TMPDIR": self.room.name, **environment}
        how = {"stdin": -1, "stdout": -1, "stderr": -1, "env": environment}
        self.process = subprocess.Popen(command or COMMAND, **how)
        self.number, self.inbox, self.said = 0, queue.Queue(), []
        threading.Thread(target=self.read_all, daemon=True).start()

    def __enter__(self):
        return self

    def __exit__(self, *fault):
        self.process.kill()
        self.process.wait()
        for it in (self.process.stdin, self.process.stderr):
            it.close()
        self.room.cleanup()

    def read_all(self):
        out = self.process.stdout
        while head := out.readline():
            out.readline()
            self.inbox.put(json.loads(out.read(int(head.split(b":")[1]))))
        self.inbox.put(None)

    def next(self):
        """The next message; None if the adapter has ended."""
        message = self.inbox.get(timeout=SECONDS)
        self.said += [] if message is None else [short(message)]
        return message

    def write(self, data):
        self.process.stdin.write(data)
        self.process.stdin.flush()

    def send(self, command, **arguments):
        self.number += 1
        self.write(frame(request(self.number, command, arguments)))
        return self.number

    def ask(self, command, **arguments):
        """The response to a request; None if the adapter has ended."""
        number = self.send(command, **arguments)
        while (message := self.next()) and message.get("request_seq") != number:
            pass
        return message

    def body(self, command, **arguments):
        """The body of a response that must not be a refusal."""
        response = self.ask(command, **arguments)
        if not response["success"]:
            raise AssertionError(response["message"])
        return response.get("body")

    def until(self, event):
        """The next event of a name; None if the adapter has ended."""
        while (message := self.next()) and message.get("event") != event:
            pass
        return message

    def stop(self, command=None, **arguments):
        """What is said of the next stop, after a request if there is one."""
        if command:
            self.body(command, **arguments)
        return short(self.until("stopped"))

    def launch(self, program=STUCK, processors=2, breaks=(), filters=(), **more):
        """Launches a script: the first stop. With no filters it stops at no line that is refused."""
        self.body("initialize", adapterID="rewind")
        self.body("launch", program=program, processors=processors, **more)
        self.until("initialized")
        self.body("setExceptionBreakpoints", filters=list(filters))
        self.body("setFunctionBreakpoints", breakpoints=[{"name": it} for it in breaks])
        return self.stop("configurationDone")

    def at(self, thread=1):
        """The position: the line of the list, from 0."""
        return self.body("stackTrace", threadId=thread)["stackFrames"][-1]["line"] - 1

    def variables(self, thread=1):
        """What the scopes of a thread show: by the scope's name, names and values."""
        scopes = self.body("scopes", frameId=thread)["scopes"]
        listed = {it["name"]: self.opened(it["variablesReference"]) for it in scopes}
        return {name: {it["name"]: it["value"] for it in found} for name, found in listed.items()}

    def opened(self, number):
        return self.body("variables", variablesReference=number)["variables"]

    def typed(self, text, context="repl"):
        return self.ask("evaluate", expression=text, context=context, frameId=1)

    def answer(self, text, context="repl"):
        response = self.typed(text, context)
        return response["body"]["result"] if response["success"] else response["message"]

    def program(self):
        """The number of the program's process."""
        return programs_of(self.process.pid)[0]

    def status(self):
        """How the adapter ended."""
        while self.next():
            pass
        return self.process.wait(SECONDS)


def script_file(cleanup, lines, name="script.jsonl"):
    """The path of a script with lines, until the cleanup."""
    room = tempfile.TemporaryDirectory(prefix="rewind-dap-")
    cleanup(room.cleanup)
    path = os.path.join(room.name, name)
    with open(path, "w", encoding="utf-8") as it:
        it.write("".join(f"{line if isinstance(line, str) else json.dumps(line)}\n" for line in lines))
    return path
