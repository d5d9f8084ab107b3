"""Small captures for checks/zeek: raw IP packets without checksums, which `-C` leaves unjudged."""
import struct

CLIENT, SERVER = (bytes([10, 0, 0, 1]), 40000), (bytes([10, 0, 0, 2]), 80)
FIN, SYN, RST, ACK = 1, 2, 4, 16
REQUEST = b"GET / HTTP/1.1\r\n\r\n"
ANSWER = b"HTTP/1.1 200 OK\r\nContent-Length: 2\r\n\r\nok"


def capture(*packets):
    """A capture of packets, each a moment in seconds and its bytes from the IP header on."""
    records = (struct.pack("<4I", int(moment), round(moment % 1 * 1_000_000), len(packet), len(packet)) + packet
               for moment, packet in packets)
    return struct.pack("<IHHiIII", 0xA1B2C3D4, 2, 4, 0, 0, 65_535, 101) + b"".join(records)


def ipv4(protocol, source, target, content):
    return struct.pack(">BBHHHBBH4s4s", 0x45, 0, 20 + len(content), 0, 0, 64, protocol, 0, source, target) + content


def tcp(source, target, number, acknowledged, flags, payload=b""):
    header = struct.pack(">HHIIBBHHH", source[1], target[1], number % 2 ** 32, acknowledged % 2 ** 32, 0x50, flags, 65_535, 0, 0)
    return ipv4(6, source[0], target[0], header + payload)


def udp(source, target, payload):
    return ipv4(17, source[0], target[0], struct.pack(">HHHH", source[1], target[1], 8 + len(payload), 0) + payload)


def conversation(begin, request=REQUEST, answer=ANSWER, server=SERVER, number=1000, ends=True):
    """A connection from its SYN on, a packet each 10 ms: what is asked, what is answered, and both ends."""
    asked, told = number + 1 + len(request), 5001 + len(answer)
    packets = [
        tcp(CLIENT, server, number, 0, SYN), tcp(server, CLIENT, 5000, number + 1, SYN | ACK),
        tcp(CLIENT, server, number + 1, 5001, ACK)]
    packets += [tcp(CLIENT, server, number + 1, 5001, ACK, request)] if request else []
    packets += [tcp(server, CLIENT, 5001, asked, ACK, answer)] if answer else []
    if ends:
        packets += [tcp(CLIENT, server, asked, told, FIN | ACK), tcp(server, CLIENT, told, asked + 1, FIN | ACK),
                    tcp(CLIENT, server, asked + 1, told + 1, ACK)]
    return [(begin + 0.01 * place, packet) for place, packet in enumerate(packets)]


def dns_answer(more=b""):
    """A response of DNS to a question for the address of `a.b`, with some bytes behind its last record."""
    name = b"\x01a\x01b\x00"
    return (struct.pack(">6H", 7, 0x8180, 1, 1, 0, 0) + name + struct.pack(">HH", 1, 1)
            + b"\xc0\x0c" + struct.pack(">HHIH", 1, 1, 60, 4) + bytes([192, 0, 2, 7]) + more)
