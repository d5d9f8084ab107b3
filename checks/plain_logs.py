"""The logs of the examples, computed from a capture's bytes without zeekoff, in the plain way that these captures
allow: Ethernet or raw IPv4 without fragments, no two connections between the same ends, each TCP connection with both
SYNs or refused, no message of HTTP that is no such message, each body with its length or in chunks, each request and
query answered, and nothing removed before the capture ends. Packets may be lost, doubled, late and cut."""
import collections
import ipaddress
import struct
import time

FIN, SYN, RST, ACK = 1, 2, 4, 16
WEB = {80, 8080}
COLUMNS = {
    "conn": "proto:enum duration:interval orig_bytes:count resp_bytes:count conn_state:string missed_bytes:count "
            "history:string orig_pkts:count orig_ip_bytes:count resp_pkts:count resp_ip_bytes:count",
    "dns": "proto:enum trans_id:count query:string qclass:count qtype:count rcode:count AA:bool TC:bool RD:bool "
           "RA:bool answers:vector[string] TTLs:vector[interval]",
    "http": "trans_depth:count method:string host:string uri:string version:string user_agent:string "
            "request_body_len:count response_body_len:count status_code:count status_msg:string",
    "downloads": "uri:string status:count bytes:count missed:count",
}
LEAST_DOWNLOAD = 100
ALL = "ts:time uid:string id.orig_h:addr id.orig_p:port id.resp_h:addr id.resp_p:port "

Packet = collections.namedtuple("Packet", "number now ends length flags seq ack size payload")
# `body` is the length of the body, `missed` how many of its bytes are not in the capture.
Message = collections.namedtuple("Message", "number now first fields body missed")


def seconds(moment):
    return f"{moment // 1_000_000}.{moment % 1_000_000:06}"


def date(moment):
    return time.strftime("%Y-%m-%d-%H-%M-%S", time.gmtime(moment // 1_000_000))


def records(capture):
    """The moment in microseconds, the bytes and the original length of each record."""
    if struct.unpack_from("<I", capture)[0] != 0xA1B2C3D4:
        raise SystemExit("the example is no little-endian capture in microseconds")
    at = 24
    while at < len(capture):
        second, fraction, captured, original = struct.unpack_from("<4I", capture, at)
        yield second * 1_000_000 + fraction, capture[at + 16 : at + 16 + captured], original
        at += 16 + captured


def packets(capture):
    """The packets of TCP and UDP over IPv4, numbered by their records."""
    is_ethernet, now = struct.unpack_from("<I", capture, 20)[0] == 1, 0
    for number, (moment, frame, _) in enumerate(records(capture)):
        now = max(now, moment)
        packet = frame[14:] if is_ethernet else frame
        if is_ethernet and frame[12:14] != b"\x08\x00" or packet[9] not in (6, 17):
            continue
        length, header = struct.unpack_from(">H", packet, 2)[0], 4 * (packet[0] & 15)
        segment = packet[header:length]
        ports = struct.unpack_from(">HH", segment)
        ends = (packet[12:16], ports[0]), (packet[16:20], ports[1])
        if packet[9] == 17:
            yield Packet(number, now, ends, length, None, 0, 0, length - header - 8, segment[8:])
        else:
            seq, ack, offset, flags = struct.unpack_from(">IIBB", segment, 4)
            start = offset // 16 * 4
            yield Packet(number, now, ends, length, flags, seq, ack, length - header - start, segment[start:])


class Side:
    """A direction: what it sent, and of a stream which packet brought or acknowledged each of its places."""

    def __init__(self):
        self.packets, self.ip_bytes, self.size, self.flags = 0, 0, 0, 0
        self.base, self.fin, self.acked, self.end = None, None, 0, 0
        self.held, self.passed = {}, []

    def place(self, seq):
        return (seq - self.base - 1) % 2**32

    def reach(self):
        return min(self.acked, self.end)

    def put(self, packet):
        if packet.flags & SYN:
            self.base = packet.seq
        if self.base is None:
            return
        start = self.place(packet.seq) if not packet.flags & SYN else 0
        reach = self.reach()
        for place, byte in enumerate(packet.payload, start):
            if place >= reach:
                self.held.setdefault(place, byte)
            self.end = max(self.end, place + 1)
        if packet.flags & FIN:
            self.fin = start + packet.size
            self.end = max(self.end, self.fin)

    def pass_on(self, packet):
        """Each place below the front was passed with the packet that let the front pass it."""
        while len(self.passed) < self.reach() or len(self.passed) in self.held:
            self.passed.append((packet.number, packet.now))

    def missed(self):
        return sum(place not in self.held for place in range(len(self.passed)))

    def stream(self):
        """The bytes up to the front, where one that is not in the capture is a zero, which no head has."""
        return bytes(self.held.get(place, 0) for place in range(len(self.passed)))


class Conn:
    """A connection: its packets, and what each side has sent."""

    def __init__(self, number, packet):
        self.number, self.first, self.last = number, packet.now, packet.now
        self.proto = "udp" if packet.flags is None else "tcp"
        is_answer = (packet.flags or 0) & (SYN | ACK) == SYN | ACK
        self.ends = packet.ends[::-1] if is_answer else packet.ends
        self.history, self.sides, self.datagrams = "", (Side(), Side()), []

    def letters(self, packet):
        flags = packet.flags or 0
        yield "s", flags & SYN and not flags & ACK
        yield "h", flags & SYN and flags & ACK
        yield "d", self.proto == "udp" or packet.size and not flags & RST
        yield "a", flags & ACK and not packet.size and not flags & (SYN | FIN | RST)
        yield "f", flags & FIN
        yield "r", flags & RST

    def add(self, packet):
        side = int(packet.ends != self.ends)
        self.last, own, other = packet.now, self.sides[side], self.sides[1 - side]
        own.packets += 1
        own.ip_bytes += packet.length
        own.size += packet.size
        own.flags |= packet.flags or 0
        for letter, is_shown in self.letters(packet):
            letter = letter if side else letter.upper()
            if is_shown and letter not in self.history:
                self.history += letter
        if self.proto == "udp":
            self.datagrams.append((side, packet))
            return
        own.put(packet)
        if packet.flags & ACK and other.base is not None:
            other.acked = max(other.acked, other.place(packet.ack))
        own.pass_on(packet)
        other.pass_on(packet)

    def has_size(self, side):
        return self.sides[side].packets if self.proto == "udp" else self.sides[side].base is not None

    def size(self, side):
        return self.sides[side].size if self.proto == "udp" else len(self.sides[side].passed)

    def state(self):
        orig, resp = self.sides
        if not resp.packets:
            return "S0"
        if self.proto == "udp" or orig.flags & resp.flags & SYN and orig.flags & resp.flags & FIN:
            return "SF"
        if resp.flags & RST and not resp.flags & SYN:
            return "REJ"
        raise SystemExit("the example has a connection of another state")

    def id(self):
        return [text for host, port in self.ends for text in (str(ipaddress.ip_address(host)), str(port))]

    def row(self, moment, cells):
        return "\t".join([seconds(moment), f"C{self.number}", *self.id(), *map(str, cells)])

    def sizes(self):
        return [self.size(side) if self.has_size(side) else "-" for side in (0, 1)]

    def missed(self):
        return sum(side.missed() for side in self.sides)

    def cells(self):
        return [self.proto, seconds(self.last - self.first), *self.sizes(), self.state(), self.missed(), self.history,
                *(count for side in self.sides for count in (side.packets, side.ip_bytes))]

    def exchanges(self):
        """Each request with its response; an interim response is none."""
        if self.proto == "udp" or self.ends[1][1] not in WEB:
            return []
        requests = list(http_messages(self.sides[0], []))
        responses = http_messages(self.sides[1], [one.first.split(" ")[0] for one in requests])
        return list(zip(requests, responses))

    def dns_messages(self):
        """The side, the packet's number and moment, and the bytes of each message."""
        if self.ends[1][1] != 53:
            return
        for side, packet in self.datagrams:
            yield side, packet.number, packet.now, packet.payload
        for side in (0, 1) if self.proto == "tcp" else ():
            stream, at = self.sides[side].stream(), 0
            while at < len(stream):
                length = int.from_bytes(stream[at : at + 2], "big")
                at += 2 + length
                yield side, *self.sides[side].passed[at - 1], stream[at - length : at]


def body_of(stream, at, fields):
    """The place behind a body, and the places of its bytes."""
    if fields.get("transfer-encoding") != "chunked":
        end = at + int(fields.get("content-length", 0))
        return end, range(at, end)
    places = []
    while True:
        line = stream.index(b"\r\n", at)
        length = int(stream[at:line].split(b";")[0], 16)
        at = line + 2
        if not length:
            while stream[at : at + 2] != b"\r\n":
                at = stream.index(b"\r\n", at) + 2
            return at + 2, places
        places += range(at, at + length)
        at += length + 2


def http_messages(side, asked):
    """The messages of a side; `asked` are the methods that its responses answer."""
    stream, at = side.stream(), 0
    while at < len(stream):
        head = at + stream[at:].index(b"\r\n\r\n") + 4
        first, *lines = stream[at : head - 4].decode().split("\r\n")
        fields = {line.split(":", 1)[0].lower(): line.split(":", 1)[1].strip() for line in lines}
        has_body = not (asked and asked.pop(0) == "HEAD")
        at, places = body_of(stream, head, fields) if has_body else (head, [])
        number, end = side.passed[at - 1]
        moment = side.passed[head - 1][1]
        missed = sum(place not in side.held for place in places)
        yield Message(number, (moment, end), first, fields, len(places), missed)


def name_at(message, at):
    """The name at a place of a DNS message, and the place behind it (RFC 1035, 4.1.4)."""
    labels, behind = [], None
    while message[at]:
        if message[at] >= 0xC0:
            behind = behind or at + 2
            at = struct.unpack_from(">H", message, at)[0] & 0x3FFF
        else:
            labels.append(message[at + 1 : at + 1 + message[at]].decode())
            at += 1 + message[at]
    return ".".join(labels), behind or at + 1


def answers_of(message, at, count):
    for _ in range(count):
        _, at = name_at(message, at)
        kind, _, ttl, length = struct.unpack_from(">HHIH", message, at)
        at += 10
        data = message[at : at + length]
        yield (str(ipaddress.ip_address(data)) if kind in (1, 28) else name_at(message, at)[0]), f"{ttl}.000000"
        at += length


def dns_rows(conn):
    """The packet's number and the row of each response; a query waits for its own."""
    waiting = {}
    for side, number, now, message in sorted(conn.dns_messages(), key=lambda one: one[1]):
        name, flags, _, count = struct.unpack_from(">4H", message)
        query, at = name_at(message, 12)
        kind, name_class = struct.unpack_from(">HH", message, at)
        if not flags >> 15:
            waiting[name] = now, query, kind, name_class
            continue
        asked, query, kind, name_class = waiting.pop(name)
        bits = ["T" if flags >> bit & 1 else "F" for bit in (10, 9, 8, 7)]
        answers = list(zip(*answers_of(message, at + 4, count))) or [["-"], ["-"]]
        cells = [conn.proto, name, query, name_class, kind, flags & 15, *bits, *map(",".join, answers)]
        yield number, now, conn.row(asked, cells)


def http_rows(conn):
    """The packet's number and the row of each response, and that of `downloads`."""
    for depth, (request, response) in enumerate(conn.exchanges(), 1):
        method, uri, version = request.first.split(" ")
        _, code, reason = response.first.split(" ", 2)
        cells = [depth, method, request.fields.get("host", "-"), uri, version[5:], request.fields.get("user-agent", "-"),
                 request.body, response.body, code, reason]
        yield "http", response.number, response.now[1], conn.row(request.now[0], cells)
        if response.body >= LEAST_DOWNLOAD:
            cells = [uri, code, response.body, response.missed]
            yield "downloads", response.number, response.now[1], conn.row(response.now[1], cells)


def log(path, columns, first, last, rows):
    columns = [column.split(":") for column in columns.split()]
    lines = ["#separator \\x09", "#set_separator\t,", "#empty_field\t(empty)", "#unset_field\t-", f"#path\t{path}",
             f"#open\t{date(first)}", "\t".join(["#fields", *(name for name, _ in columns)]),
             "\t".join(["#types", *(kind for _, kind in columns)]), *rows, f"#close\t{date(last)}"]
    return "".join(line + "\n" for line in lines).encode()


def last_moment(capture):
    return max(moment for moment, _, _ in records(capture))


def conns_of(capture):
    conns = {}
    for packet in packets(capture):
        conn = conns.setdefault(frozenset(packet.ends), Conn(len(conns) + 1, packet))
        conn.add(packet)
    return list(conns.values())


def rows_of(capture):
    """The rows of each path, as packet's number, moment and text, in their order."""
    rows = collections.defaultdict(list)
    last = last_moment(capture)
    for conn in conns_of(capture):
        rows["conn"].append((0, last, conn.row(conn.first, conn.cells())))
        rows["dns"] += dns_rows(conn)
        for path, *row in http_rows(conn):
            rows[path].append(tuple(row))
    return {path: sorted(of, key=lambda row: row[0]) for path, of in rows.items() if of}


def logs(capture):
    """The logs by their paths."""
    last = last_moment(capture)
    return {path: log(path, ALL + COLUMNS[path], rows[0][1], last, [row for _, _, row in rows])
            for path, rows in rows_of(capture).items()}
