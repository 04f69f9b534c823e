"""MariaDB's protocol, as much of it as the mapping needs.

A connection sends each statement once; answers come in the order of statements.
"""

import socket
import struct
from typing import List, Optional, Tuple

from casbench_recording.load import Unreachable

Row = List[Optional[str]]

CAPABILITIES = 0x0008_A208
"""What the client can do: a database by its name, the protocol of 4.1 with its transactions and passwords,
and plugins for these."""

QUERY = 3
"""The command that a statement is sent by."""

OK, END, ERROR, NULL = 0x00, 0xFE, 0xFF, 0xFB
"""What packets begin with, and what stands for NULL in a row."""


class MariaDBError(Exception):
    """An error that a server answered, by its number and its text."""


class Connection:
    """A connection to a server, as root and without a password."""

    def __init__(self, port: int, deadline: float, database: str = "mysql") -> None:
        self.count = 0
        try:
            self.socket = socket.create_connection(("127.0.0.1", port), timeout=deadline)
            self.socket.setsockopt(socket.IPPROTO_TCP, socket.TCP_NODELAY, 1)
            self.file = self.socket.makefile("rb")
            self.receive_packet()
            words = b"root\0" + b"\0" + database.encode() + b"\0" + b"mysql_native_password\0"
            self.send_packet(struct.pack("<IIB23x", CAPABILITIES, 1 << 24, 45) + words)
            while self.receive_packet()[0] != OK:
                self.send_packet(b"")  # the server asks for the password by another plugin
        except (OSError, MariaDBError) as fault:
            raise Unreachable(str(fault)) from fault

    def send_packet(self, packet: bytes) -> None:
        """Sends a packet, whose number follows that of the last one."""
        self.socket.sendall(struct.pack("<I", len(packet))[:3] + bytes([self.count]) + packet)
        self.count += 1

    def receive_packet(self) -> bytes:
        """The next packet. Raises MariaDBError if it is an error, or OSError if no whole one came in time."""
        length, self.count = int.from_bytes(self.read(3), "little"), self.read(1)[0] + 1
        packet = self.read(length)
        if packet[0] == ERROR:
            (number,) = struct.unpack_from("<H", packet, 1)
            raise MariaDBError(number, packet[9:].decode(errors="replace"))
        return packet

    def read(self, count: int) -> bytes:
        """So many bytes. Raises ConnectionError if the connection ends before."""
        body = self.file.read(count)
        if len(body) < count:
            raise ConnectionError("no whole answer")
        return body

    def send(self, statement: str) -> None:
        """Sends a statement."""
        self.count = 0
        self.send_packet(bytes([QUERY]) + statement.encode())

    def receive(self) -> List[Row]:
        """The rows that answer the statement that was sent."""
        if self.receive_packet()[0] == OK:
            return []
        for _ in ("the columns", "the rows"):
            packets: List[bytes] = []
            while not packets or packets[-1][0] != END or len(packets[-1]) >= 9:
                packets.append(self.receive_packet())
        return [row_of(it) for it in packets[:-1]]

    def ask(self, statement: str) -> List[Row]:
        """The rows that answer a statement which is sent now."""
        self.send(statement)
        return self.receive()

    def close(self) -> None:
        """Closes the connection."""
        self.file.close()
        self.socket.close()


def row_of(packet: bytes) -> Row:
    """The columns of a row as texts."""
    row: Row = []
    at = 0
    while at < len(packet):
        length, at = length_at(packet, at)
        row.append(None if length is None else packet[at : at + length].decode())
        at += length or 0
    return row


def length_at(packet: bytes, at: int) -> Tuple[Optional[int], int]:
    """The length that stands here, none for NULL, and where the text after it begins."""
    if packet[at] < NULL:
        return packet[at], at + 1
    if packet[at] == NULL:
        return None, at + 1
    size = {0xFC: 2, 0xFD: 3, 0xFE: 8}[packet[at]]
    return int.from_bytes(packet[at + 1 : at + 1 + size], "little"), at + 1 + size
