"""Messages of the protocol: frames on two streams of bytes, and the dispatch to handlers, with the protocol's errors."""
import json
import re

PARSE_ERROR, INVALID_REQUEST, METHOD_NOT_FOUND, INVALID_PARAMS, INTERNAL_ERROR = -32700, -32600, -32601, -32602, -32603
NOT_INITIALIZED = -32002
LENGTH = re.compile(rb"content-length:[ \t]*([0-9]{1,9})[ \t]*\r?\n", re.IGNORECASE)  # in bytes, at most 999,999,999
HEADER = re.compile(rb"[\w-]+:[^\r\n]*\r?\n")


class Wrong(Exception):
    """A refused message: a code of the protocol, and why."""

    def __init__(self, code, why):
        super().__init__(why)
        self.code = code


def bodies(stream):
    """Yields the bytes of each message up to the end of the input. For bytes that are no frame it yields an empty
    body, once, and goes on at the next line that ends in a length."""
    length, in_header, is_lost = None, False, False
    while line := stream.readline(1 << 16):
        found, is_empty = LENGTH.search(line), not line.strip()
        length = int(found[1]) if found else length
        is_good = not in_header if is_empty else HEADER.fullmatch(line) or found and found.start() == 0
        in_header = not is_empty
        if is_empty and length is not None:
            body = stream.read(length)
            if len(body) == length:
                yield body
            length, is_lost = None, False
        elif not is_good and not is_lost:
            is_lost = True
            yield b""


def decoded(body):
    """Returns the message that a body spells. Raises Wrong if it is none."""
    try:
        message = json.loads(body.decode())
    except (ValueError, RecursionError) as error:
        raise Wrong(PARSE_ERROR, f"the body is not JSON: {error}") from None
    if not isinstance(message, dict):
        raise Wrong(INVALID_REQUEST, "a message is an object, and there are no batches")
    return message


def look(value, *path):
    """Returns the member that a path of names leads to, or None."""
    for name in path:
        value = value.get(name) if isinstance(value, dict) else None
    return value


def member(value, kind, *path):
    """Returns the member that a path of names leads to. Raises Wrong unless it is there and of that type."""
    found = look(value, *path)
    if type(found) is not kind:
        raise Wrong(INVALID_PARAMS, f"{'.'.join(path)} is not of type {kind.__name__}")
    return found


class Connection:
    """A client behind two streams, and how far its session is: new, running, or shut down."""

    def __init__(self, source, sink):
        self.source, self.sink, self.state, self.has_ended = source, sink, "new", False

    def send(self, **message):
        body = json.dumps({"jsonrpc": "2.0", **message}).encode()
        self.sink.write(b"Content-Length: %d\r\n\r\n%b" % (len(body), body))
        self.sink.flush()

    def fail(self, number, error):
        self.send(id=number, error={"code": getattr(error, "code", INTERNAL_ERROR), "message": str(error) or error.__doc__})

    def serve(self, service):
        """Takes messages up to `exit` or the end of the input, and returns the status to exit with."""
        for body in bodies(self.source):
            try:
                self.take(service, decoded(body))
            except Wrong as wrong:
                self.fail(None, wrong)
            if self.has_ended:
                break
        return 0 if self.state == "shut down" else 1

    def take(self, service, message):
        """Carries out a request or a notification, and answers a request."""
        number, method, params = (message.get(name) for name in ("id", "method", "params"))
        is_request = type(number) in (int, str)
        if message.get("jsonrpc") != "2.0" or type(method) is not str or "id" in message and not is_request:
            return self.fail(number if is_request else None, Wrong(INVALID_REQUEST, "neither a request nor a notification"))
        try:
            if is_request:
                self.send(id=number, result=self.result(service, method, params))
            elif method == "exit":
                self.has_ended = True
            elif self.state == "running" and method in service.notifications:
                service.notifications[method](params)
        except Exception as error:  # Whatever a message holds, and whatever a handler does, the server goes on.
            if is_request:
                self.fail(number, error)
            else:
                self.send(method="window/logMessage", params={"type": 1, "message": str(error) or error.__doc__})

    def result(self, service, method, params):
        """Returns the result of a request. Raises Wrong if the service doesn't know it, or not in this state."""
        if self.state == "new" and method != "initialize":
            raise Wrong(NOT_INITIALIZED, "the server is not initialized")
        if self.state == "shut down" or self.state == "running" and method == "initialize":
            raise Wrong(INVALID_REQUEST, f"the server is {self.state}")
        if method not in service.requests:
            raise Wrong(METHOD_NOT_FOUND, f"there is no method {method}")
        result = service.requests[method](params)
        self.state = "shut down" if method == "shutdown" else "running"
        return result
