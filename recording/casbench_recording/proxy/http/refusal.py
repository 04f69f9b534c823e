"""The answers of the proxy itself, to requests that it can't pass on."""


def refusal(status: str, why: str) -> bytes:
    """Returns an answer of the proxy itself, after which it closes the connection."""
    body = f"casbench_recording.proxy: {why}\n".encode()
    fields = f"Content-Type: text/plain\r\nContent-Length: {len(body)}\r\nConnection: close\r\n"
    return f"HTTP/1.1 {status}\r\n{fields}\r\n".encode() + body
