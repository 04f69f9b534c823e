"""A connection to an OpenSearch cluster, or to any HTTP server, that sends each request once; with the
options for its URL, credentials and certificates."""

import argparse
import base64
import contextlib
import http.client
import os
import socket
import ssl
import threading
import time
import urllib.parse
from typing import Any, Callable, Dict, Iterable, Iterator, Mapping, NamedTuple, Optional, Union

from .history.format import LONGEST_CLIENT, text_of, value_of
from .history.writing import NoOutcome

Url = urllib.parse.SplitResult

START_PATIENCE = 5.0
"""How many seconds the first connection to the cluster may take."""

PAUSE = 0.1
"""The seconds between two attempts to connect."""

MOST_OF_AN_ANSWER = 16 * 1024 * 1024
"""The maximum length of an answer in bytes."""


class ClusterError(Exception):
    """Why a request to the cluster isn't possible, or failed; for the operator."""


class NoAnswer(NoOutcome):
    """A request was sent at least in part, and no complete answer was received: it is unknown whether it was
    performed."""


class ClusterAnswer(NamedTuple):
    """The answer to a request: the HTTP status and the complete body."""

    status: int
    body: bytes

    @property
    def value(self) -> Any:
        """The value of the body, or None if it isn't JSON that casbench reads."""
        text = text_of(self.body)
        return None if text is None else value_of(text)

    @property
    def members(self) -> Dict[str, Any]:
        """The members of the body, or none if it isn't an object."""
        value = self.value
        return value if isinstance(value, dict) else {}


class ClusterAccess(NamedTuple):
    """How to reach a cluster: its URL, the timeout of a read, the header with the credentials, and the TLS
    context."""

    url: Url
    timeout: float
    credentials: Dict[str, str]
    trust: Optional[ssl.SSLContext]


class Connection:
    """A connection to the cluster. It sends each request once."""

    def __init__(self, cluster: ClusterAccess) -> None:
        url, timeout = cluster.url, cluster.timeout
        self.prefix = url.path.rstrip("/")
        self.headers = {"Content-Type": "application/json", **cluster.credentials}
        # (http.client may have dropped its own reference)
        self.socket: Optional[socket.socket] = None
        self.http: Union[http.client.HTTPConnection, http.client.HTTPSConnection]
        if cluster.trust is not None:
            self.http = http.client.HTTPSConnection(
                str(url.hostname), port_of(url), timeout=timeout, context=cluster.trust
            )
        else:
            self.http = http.client.HTTPConnection(str(url.hostname), port_of(url), timeout=timeout)

    def open(self, patience: float, is_over: Callable[[], bool] = lambda: False) -> None:
        """Connects, unless there is a connection; retries for `patience` seconds, and then raises
        ClusterError.

        This is done before a call is recorded, so that an unreachable cluster leaves no lost calls.
        """
        last = time.monotonic() + patience
        while not self.is_open and not is_over():
            try:
                self.http.connect()
                self.socket = self.http.sock
            except ssl.SSLCertVerificationError as fault:
                self.http.close()
                raise ClusterError(
                    f"the cluster's certificate is not trusted: {fault.verify_message}"
                ) from fault
            except (OSError, http.client.HTTPException) as fault:
                self.http.close()
                if time.monotonic() > last:
                    raise ClusterError(
                        f"can't connect to {self.http.host} port {self.http.port}: {fault}"
                    ) from fault
                time.sleep(PAUSE)

    @property
    def is_open(self) -> bool:
        """Whether there is a connection. A cluster may close it after an answer."""
        return self.http.sock is not None

    def ask(self, method: str, path: str, body: Optional[str] = None) -> ClusterAnswer:
        """Sends a request and returns its complete answer. Raises NoAnswer if none is received in time."""
        self.send(method, path, body)
        return self.receive()

    def send(self, method: str, path: str, body: Optional[str] = None) -> None:
        """Sends one request. Raises NoAnswer where it may not have been sent whole.

        Rule: no retries. `http.client` sends a request once, follows no redirection, and asks no other host.
        After a fault the connection is closed, so that an answer that comes late is never taken for that of
        the next request.
        """
        with self._closed_by_a_fault():
            self.http.request(method, self.prefix + path, body, self.headers)

    def receive(self) -> ClusterAnswer:
        """Returns the complete answer to the request that was sent. Raises NoAnswer if none is received in
        time."""
        with self._closed_by_a_fault():
            response = self.http.getresponse()
            return ClusterAnswer(response.status, body_of(response))

    @contextlib.contextmanager
    def _closed_by_a_fault(self) -> Iterator[None]:
        """Closes the connection if the block fails, and raises NoAnswer."""
        try:
            yield
        except (OSError, http.client.HTTPException) as fault:
            self.http.close()
            raise NoAnswer(str(fault) or type(fault).__name__) from fault

    @contextlib.contextmanager
    def within(self, seconds: float) -> Iterator[None]:
        """Shuts the connection down if the block takes longer than these seconds, however slowly an answer
        arrives."""
        timer = threading.Timer(seconds, self._break_off)
        timer.daemon = True
        timer.start()
        try:
            yield
        finally:
            timer.cancel()

    def _break_off(self) -> None:
        """Shuts the connection down, from another thread than the one that uses it."""
        if self.socket is not None:
            with contextlib.suppress(OSError):
                socket.socket.shutdown(self.socket, socket.SHUT_RDWR)

    def close(self) -> None:
        """Closes the connection."""
        self.http.close()


def body_of(response: http.client.HTTPResponse) -> bytes:
    """Returns the complete body of a response. Raises HTTPException if it is too long."""
    if response.length is not None and response.length <= MOST_OF_AN_ANSWER:
        return response.read()
    body = response.read(MOST_OF_AN_ANSWER + 1) if response.length is None else b""
    if response.length is not None or len(body) > MOST_OF_AN_ANSWER:
        raise http.client.HTTPException(f"the answer is longer than {MOST_OF_AN_ANSWER} bytes")
    return body


def connection_to(url: str, timeout: float = 10.0) -> Connection:
    """Returns a connection to this URL, for a harness. It has no credentials; `timeout` is that of a read, in
    seconds."""
    address = url_of(url)
    return Connection(ClusterAccess(address, timeout, {}, trust_of(address)))


def port_of(url: Url) -> int:
    """Returns the port of the URL."""
    return url.port or (443 if url.scheme == "https" else 80)


def name_of(url: Url) -> str:
    """Returns the host and port of the URL, the name of a node in the line of a call."""
    host = f"[{url.hostname}]" if ":" in str(url.hostname) else url.hostname
    return f"{host}:{port_of(url)}"[:LONGEST_CLIENT]


def url_of(text: str) -> Url:
    """Parses the URL of a cluster. It has no user and no password, since command lines are visible to other
    users."""
    if "," in text or " " in text:
        raise argparse.ArgumentTypeError("it has several URLs, and one is expected")
    url = urllib.parse.urlsplit(text)
    if url.scheme not in ("http", "https") or not url.hostname or url.query or url.fragment:
        raise argparse.ArgumentTypeError("it isn't a URL such as https://host:9200")
    if "@" in url.netloc:
        raise argparse.ArgumentTypeError(
            "set the user and the password in OPENSEARCH_USER and OPENSEARCH_PASSWORD"
        )
    try:
        is_port = url.port != 0
    except ValueError:
        is_port = False
    if not is_port:
        raise argparse.ArgumentTypeError("a port is a number from 1 to 65535")
    return url


def credentials_of(environment: Mapping[str, str]) -> Dict[str, str]:
    """Returns the header with the credentials from the environment; empty if there are none."""
    user, password = environment.get("OPENSEARCH_USER"), environment.get("OPENSEARCH_PASSWORD")
    header = environment.get("OPENSEARCH_HEADER")
    if (user is None) != (password is None):
        raise ClusterError("only one of OPENSEARCH_USER and OPENSEARCH_PASSWORD is set")
    if user is not None and header is not None:
        raise ClusterError("OPENSEARCH_USER and OPENSEARCH_HEADER are both set: set only one of them")
    if user is not None:
        return {"Authorization": "Basic " + base64.b64encode(f"{user}:{password}".encode()).decode()}
    if header is None:
        return {}
    name, colon, value = header.partition(":")
    if not colon or not name.strip() or not header.isprintable() or not header.isascii():
        raise ClusterError("OPENSEARCH_HEADER isn't a header line such as 'Authorization: Bearer ...'")
    return {name.strip(): value.strip()}


class Certificates(NamedTuple):
    """PEM files: trusted CA certificates, and the client certificate with its key (if that isn't in the same
    file)."""

    trusted: Optional[str] = None
    own: Optional[str] = None
    key: Optional[str] = None


def trust_of(url: Url, files: Certificates = Certificates()) -> Optional[ssl.SSLContext]:
    """Returns the TLS context for a URL: trusted CA certificates, and the client certificate if there is one.
    None for http.

    The certificate and the host name of the cluster are always verified: against the given CA certificates
    alone, or else against those of the system.
    """
    if url.scheme != "https":
        return None
    try:
        trust = ssl.create_default_context(cafile=files.trusted)
    except OSError as fault:
        raise ClusterError(f"{files.trusted} has no certificates: {fault}") from fault
    if files.own is not None:
        try:
            # (without a password argument, OpenSSL would ask for one on the terminal)
            trust.load_cert_chain(files.own, files.key, os.environ.get("OPENSEARCH_KEY_PASSWORD", ""))
        except OSError as fault:
            why = "has no certificate with its key, or OPENSEARCH_KEY_PASSWORD isn't its password"
            raise ClusterError(f"{files.own} {why}: {fault}") from fault
    return trust


def add_certificate_options(add: Callable[..., object]) -> None:
    """Adds the options for certificates."""
    add("--ca-file", metavar="FILE", help="trusted CA certificates (PEM)")
    add(
        "--client-cert",
        metavar="FILE",
        help="client certificate (PEM), for clusters that authenticate clients by certificate",
    )
    add(
        "--client-key",
        metavar="FILE",
        help="private key of the client certificate (PEM), if it isn't in the same file",
    )


def certificates_of(
    parser: argparse.ArgumentParser, setting: argparse.Namespace, urls: Iterable[Url]
) -> Certificates:
    """Returns the files named by these options, which are only valid with an https URL."""
    given = [
        name
        for name in ("--ca-file", "--client-cert", "--client-key")
        if getattr(setting, name[2:].replace("-", "_")) is not None
    ]
    if given and all(it.scheme != "https" for it in urls):
        parser.error(f"{given[0]} needs an https URL")
    if setting.client_key is not None and setting.client_cert is None:
        parser.error("--client-key needs --client-cert")
    return Certificates(setting.ca_file, setting.client_cert, setting.client_key)


def number_from(least: float, kind: Callable[[str], float] = int) -> Callable[[str], float]:
    """Returns a parser for numbers that aren't less than `least`."""

    def read(text: str) -> float:
        number = kind(text)
        if not least <= number < 1e9:
            raise argparse.ArgumentTypeError(f"it is less than {least}, or too large")
        return number

    read.__name__ = "number"
    return read
