"""Captures made by hand: frames of Ethernet with IPv4, UDP and TCP in them, with right checksums or wrong ones."""
import ipaddress
import struct

FIN, SYN, RST, PSH, ACK = 1, 2, 4, 8, 16
TCP, UDP = 6, 17


def checksum(words):
    """The one's complement of the one's complement sum of 16-bit words (RFC 1071)."""
    total = sum(struct.unpack(f">{(len(words) + 1) // 2}H", words + b"\0" * (len(words) % 2)))
    while total > 0xFFFF:
        total = (total & 0xFFFF) + (total >> 16)
    return total ^ 0xFFFF


def ethernet(content, kind=0x0800):
    return b"\x02\0\0\0\0\x01\x02\0\0\0\0\x02" + struct.pack(">H", kind) + content


def ipv4(source, target, protocol, payload, fragment=0):
    """A packet of IPv4; `fragment` is the field of flags and offset."""
    ends = ipaddress.ip_address(source).packed + ipaddress.ip_address(target).packed
    header = struct.pack(">BBHHHBBH", 0x45, 0, 20 + len(payload), 1, fragment, 64, protocol, 0) + ends
    return header[:10] + struct.pack(">H", checksum(header)) + header[12:] + payload


def pseudo(source, target, protocol, length):
    ends = ipaddress.ip_address(source).packed + ipaddress.ip_address(target).packed
    return ends + struct.pack(">HH", protocol, length)


def udp(source, target, payload, spoiled=0):
    """A packet of UDP between two ends, as address and port; `spoiled` is what is added to its checksum."""
    segment = struct.pack(">4H", source[1], target[1], 8 + len(payload), 0) + payload
    right = checksum(pseudo(source[0], target[0], UDP, len(segment)) + segment) or 0xFFFF
    segment = segment[:6] + struct.pack(">H", (right + spoiled) % 65535 or 65535) + segment[8:]
    return ipv4(source[0], target[0], UDP, segment)


def tcp(source, target, flags, seq, ack=0, payload=b"", spoiled=0):
    """A packet of TCP between two ends."""
    segment = struct.pack(">HHIIBBHHH", source[1], target[1], seq, ack, 0x50, flags, 8192, 0, 0) + payload
    right = checksum(pseudo(source[0], target[0], TCP, len(segment)) + segment)
    segment = segment[:16] + struct.pack(">H", (right + spoiled) % 65535) + segment[18:]
    return ipv4(source[0], target[0], TCP, segment)


def exchange(client, server, said, answered, spoiled=0):
    """The packets of a connection that is opened, carries a request and its response, and is closed by both sides."""
    there, back = 1000 + 1 + len(said), 5000 + 1 + len(answered)
    yield tcp(client, server, SYN, 1000, spoiled=spoiled)
    yield tcp(server, client, SYN | ACK, 5000, 1001)
    yield tcp(client, server, ACK | PSH, 1001, 5001, said, spoiled)
    yield tcp(server, client, ACK | PSH, 5001, there, answered)
    yield tcp(client, server, FIN | ACK, there, back, spoiled=spoiled)
    yield tcp(server, client, FIN | ACK, back, there + 1)
    yield tcp(client, server, ACK, there + 1, back + 1, spoiled=spoiled)


def capture(records, link=1):
    """A capture of packets, each with its moment in microseconds."""
    whole = struct.pack("<IHHiIII", 0xA1B2C3D4, 2, 4, 0, 0, 262_144, link)
    for moment, frame in records:
        whole += struct.pack("<4I", moment // 1_000_000, moment % 1_000_000, len(frame), len(frame)) + frame
    return whole


def dns_name(name):
    """The labels of a name (RFC 1035, 3.1)."""
    return b"".join(bytes([len(label)]) + label.encode() for label in name.split(".")) + b"\0"


def dns_query(number, name, kind=1):
    return struct.pack(">6H", number, 0x0100, 1, 0, 0, 0) + dns_name(name) + struct.pack(">HH", kind, 1)


def dns_response(number, name, kind=1, rcode=0, answers=()):
    """A response; an answer is its owner, its type (1 A, 5 CNAME) and the address or name that it holds."""
    message = struct.pack(">6H", number, 0x8180 | rcode, 1, len(answers), 0, 0) + dns_name(name) + struct.pack(">HH", kind, 1)
    for owner, answer_kind, data in answers:
        content = ipaddress.ip_address(data).packed if answer_kind == 1 else dns_name(data)
        message += dns_name(owner) + struct.pack(">HHIH", answer_kind, 1, 60, len(content)) + content
    return message
