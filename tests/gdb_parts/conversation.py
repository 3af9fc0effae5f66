"""The model of a conversation with GDB: bytes in, bytes out."""
import re

from gdb_parts.session import Refused, Session


def frame(text):
    body = re.sub(rb"[#$}*]", lambda found: b"}" + bytes([found.group()[0] ^ 32]), text.encode())
    return b"$" + body + b"#%02x" % (sum(body) % 256)


class Conversation:
    """Bytes in, bytes out."""

    def __init__(self, run):
        self.session, self.acknowledges, self.sent, self.has_ended = Session(run), True, b"", False
        self.place, self.body, self.digits = "outside", b"", b""

    def reads(self, given):
        """What is written when these bytes have been read, up to the end of the session."""
        out = b""
        for byte in given:
            if self.has_ended:
                break
            out += self.read(bytes([byte]))
        return out

    def read(self, byte):
        if byte == b"$" and self.place in ("outside", "inside"):
            self.place, self.body = "inside", b""
        elif self.place == "outside":
            return self.sent if byte == b"-" and self.acknowledges else b""
        elif self.place == "inside" and byte == b"#":
            self.place, self.digits = "sum", b""
        elif self.place == "inside":
            self.body += byte
        else:
            self.digits += byte
            if len(self.digits) == 2:
                self.place = "outside"
                return self.packet()
        return b""

    def packet(self):
        is_good = re.fullmatch(rb"[0-9a-fA-F]{2}", self.digits) and int(self.digits, 16) == sum(self.body) % 256
        if not is_good:
            return b"-" if self.acknowledges else self.sends("E02")
        ack = b"+" if self.acknowledges else b""
        self.has_ended = self.body in (b"D", b"k")
        if self.body == b"k":
            return ack
        if self.body == b"QStartNoAckMode":
            self.acknowledges = False
        try:
            return ack + self.sends(self.session.answer(self.body))
        except Refused as refused:
            return ack + self.sends(str(refused))

    def sends(self, text):
        self.sent = frame(text)
        return self.sent
