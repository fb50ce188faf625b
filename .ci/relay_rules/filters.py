"""The filters, a byte a step: each keeps how many bytes it used and the last of them."""


class Filter:
    def __init__(self, kind):
        self.kind, self.used, self.last, self.finished, self.bad = kind, 0, None, False, None

    def holds(self):
        """It keeps a byte of which nothing went out yet."""
        return self.last == 13 if self.kind == "to-lf" else self.kind == "hex-in" and self.used % 2 == 1

    def refuses(self, byte):
        return self.kind == "hex-in" and byte not in b"0123456789abcdefABCDEF"

    def step(self, byte):
        """What this byte makes."""
        last, held = self.last, self.holds()
        self.used, self.last = self.used + 1, byte
        if self.kind == "to-crlf":
            return b"\r\n" if byte == 10 and last != 13 else bytes([byte])
        if self.kind == "to-lf":
            before = b"\r" if held and byte != 10 else b""
            return before + (b"" if byte == 13 else bytes([byte]))
        if self.kind == "hex-out":
            return b"%02x" % byte
        if self.kind == "hex-in":
            return bytes.fromhex((bytes([last, byte])).decode()) if held else b""
        return bytes([byte])

    def run(self, source, target, limit, ends):
        """From source to target until that holds `limit`; with `ends`, the end behind the source too. Says if a bad place is met now."""
        if self.bad is not None or self.finished:
            return False
        used = 0
        while used < len(source) and len(target) < limit:
            if self.refuses(source[used]):
                del source[:used]
                self.bad = self.used
                return True
            target += self.step(source[used])
            used += 1
        del source[:used]
        return bool(ends and not source and (not self.holds() or len(target) < limit) and self.end(target))

    def end(self, target):
        if self.holds() and self.kind == "hex-in":
            self.bad = self.used
            return True
        if self.holds():
            target += b"\r"
        self.finished = True
        return False
