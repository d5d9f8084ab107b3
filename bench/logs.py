"""`zeekoff run` without scripts of its own, which writes conn.log, dns.log and http.log, beside tshark,
which prints the same facts of each packet, on the capture that `zeekoff gen` makes; and `zeekoff gen`
itself."""
import os
import statistics
import struct
import subprocess
import sys

SYN, FIN, ACK = 2, 1, 16
QUERY = bytes.fromhex("123401000001000000000000") + b"\x03www\x07example\x03com\x00\x00\x01\x00\x01"
REPLY = (bytes.fromhex("123481800001000200000000") + b"\x03www\x07example\x03com\x00\x00\x01\x00\x01"
         + bytes.fromhex("c00c000500010000012c0002c010c010000100010000012c00045db8d822"))
REQUEST = b"GET / HTTP/1.1\r\nHost: a.test\r\n\r\n"
RESPONSE = b"HTTP/1.1 200 OK\r\nContent-Length: 2\r\n\r\nhi"

# The facts of conn.log, dns.log and http.log, as tshark names them.
FACTS = ("frame.time_epoch", "ip.src", "ip.dst", "ip.len", "udp.stream", "udp.srcport", "udp.dstport", "udp.length", "tcp.stream",
         "tcp.srcport", "tcp.dstport", "tcp.flags", "tcp.len", "dns.id", "dns.qry.name", "dns.qry.class", "dns.qry.type",
         "dns.flags.rcode", "dns.flags.authoritative", "dns.flags.truncated", "dns.flags.recdesired", "dns.flags.recavail",
         "dns.cname", "dns.a", "dns.resp.ttl", "http.request.method", "http.host", "http.request.uri", "http.request.version",
         "http.user_agent", "http.content_length", "http.response.code", "http.response.phrase")

# What runs a program once, in a process that is small: the greatest memory of a process counts what its
# parent had as it began.
ONE_RUN = """
import resource, subprocess, sys
done = subprocess.run(sys.argv[2:], cwd=sys.argv[1], stdout=subprocess.DEVNULL, stderr=subprocess.PIPE, text=True)
if done.returncode:
    sys.exit(f"{sys.argv[2]} ended with status {done.returncode}: {done.stderr}")
used = resource.getrusage(resource.RUSAGE_CHILDREN)
print(used.ru_utime + used.ru_stime, used.ru_maxrss * 1024)
"""


def checksum(data):
    data += bytes(len(data) % 2)
    total = sum(struct.unpack(f">{len(data) // 2}H", data))
    while total > 0xFFFF:
        total = (total & 0xFFFF) + (total >> 16)
    return total ^ 0xFFFF


def record(moment, micros, ends, protocol, head, payload):
    """A packet from the first of two ends to the second. `head` is the front of its header behind the ports, up to the
    checksum, and `payload` what stands behind the header."""
    (source, from_port), (target, to_port) = ends
    ports = struct.pack(">HH", from_port, to_port)
    rest = payload if protocol == 17 else b"\x00\x00" + payload
    length = 4 + len(head) + 2 + len(rest)
    pseudo = struct.pack(">IIHH", source, target, protocol, length)
    total = checksum(pseudo + ports + head + b"\x00\x00" + rest)
    if protocol == 17:
        total = total or 0xFFFF
    segment = ports + head + struct.pack(">H", total) + rest
    ip = struct.pack(">BBHHHBBHII", 0x45, 0, 20 + length, 0, 0, 0, protocol, 0, source, target)
    ip = ip[:10] + struct.pack(">H", checksum(ip)) + ip[12:]
    frame = bytes(12) + b"\x08\x00" + ip + segment
    return struct.pack("<IIII", moment, micros, len(frame), len(frame)) + frame


def look_up(moment, client):
    ends = (client, 40_000), (0x0A000035, 53)
    for micros, sent, message in ((0, ends, QUERY), (20_000, ends[::-1], REPLY)):
        yield record(moment, micros, sent, 17, struct.pack(">H", 8 + len(message)), message)


def one_by_one(early, message):
    """Each byte of a message alone, from the last to the first: all but the first early, and twice."""
    for place in range(len(message) - 1, 0, -1):
        yield early, place, message[place : place + 1]
        yield early, place, message[place : place + 1]
    yield early + 5_000, 0, message[:1]


def request(moment, client, cut):
    ends = (client, 40_001), (0x0A000050, 80)

    def segment(micros, sent, flags, number, awaited, payload=b""):
        return record(moment, micros, sent, 6, struct.pack(">IIBBH", number, awaited, 0x50, flags, 0), payload)

    yield segment(0, ends, SYN, 100, 0)
    yield segment(10_000, ends[::-1], SYN | ACK, 500, 101)
    for micros, place, piece in one_by_one(15_000, REQUEST) if cut else [(20_000, 0, REQUEST)]:
        yield segment(micros, ends, ACK, 101 + place, 501, piece)
    for micros, place, piece in one_by_one(25_000, RESPONSE) if cut else [(30_000, 0, RESPONSE)]:
        yield segment(micros, ends[::-1], ACK, 501 + place, 133, piece)
    yield segment(40_000, ends, FIN | ACK, 133, 541)
    yield segment(50_000, ends[::-1], FIN | ACK, 541, 134)
    yield segment(60_000, ends, ACK, 134, 542)


def write_capture(path, count):
    """The capture of `zeekoff gen 0 COUNT`. Returns how many packets it has."""
    packets = 0
    with open(path, "wb", 1 << 20) as file:
        file.write(struct.pack("<IHHiIII", 0xA1B2C3D4, 2, 4, 0, 0, 262_144, 1))
        for k in range(count):
            moment, client = 1_700_000_000 + k, 0x0A010000 + k % 65_536
            for one in look_up(moment, client) if k % 3 == 0 else request(moment, client, k % 3 == 2):
                file.write(one)
                packets += 1
    return packets


def run(folder, words):
    """Processor seconds and greatest memory in bytes of one run."""
    told = subprocess.run([sys.executable, "-S", "-c", ONE_RUN, folder, *words], stdout=subprocess.PIPE, check=True, text=True)
    seconds, peak = told.stdout.split()
    return float(seconds), int(peak)


def measure(folder, programs, rounds):
    """The median seconds and the greatest memory of each program; the first run is not counted."""
    for words in programs.values():
        run(folder, words)
    measured = {name: [] for name in programs}
    for _ in range(rounds):
        for name, words in programs.items():
            measured[name].append(run(folder, words))
    return {name: (statistics.median(s for s, _ in runs), max(m for _, m in runs)) for name, runs in measured.items()}


def say(name, measured):
    print(f"  {name:30} {measured[0]:8.3f} s {measured[1] / 2**20:8.1f} MiB")


def logs(zeekoff, folder, count, rounds):
    """Default logs of a generated capture and of twice that, beside tshark."""
    half, whole = (os.path.join(folder, name) for name in ("half.pcap", "whole.pcap"))
    packets, _ = write_capture(half, count), write_capture(whole, 2 * count)
    summary = subprocess.run([zeekoff, "gen", "0", str(count)], stdout=subprocess.PIPE, check=True, text=True).stdout
    if not summary.startswith(f"packets {packets}\nbytes {os.path.getsize(half)}\n"):
        sys.exit(f"bench/run: the capture is not the generated one, of which gen says\n{summary}")
    fields = [word for fact in FACTS for word in ("-e", fact)]
    measured = measure(folder, {
        "zeekoff run": [zeekoff, "run", "-r", half],
        "zeekoff run, twice as much": [zeekoff, "run", "-r", whole],
        "tshark -T fields": ["tshark", "-n", "-r", half, "-T", "fields", *fields],
    }, rounds)
    print(f"default logs of {count:,} generated conversations: {packets:,} packets, {os.path.getsize(half):,} bytes")
    for name, one in measured.items():
        say(name, one)
    print(f"  time, zeekoff run / tshark: {measured['zeekoff run'][0] / measured['tshark -T fields'][0]:.3f}")
    print(f"  time, twice as much / as much: {measured['zeekoff run, twice as much'][0] / measured['zeekoff run'][0]:.2f}")


def gen(zeekoff, folder, count):
    print(f"zeekoff gen 0 {count}: {' '.join(subprocess.run([zeekoff, 'gen', '0', str(count)], stdout=subprocess.PIPE, check=True, text=True).stdout.split())}")
    say("zeekoff gen", run(folder, [zeekoff, "gen", "0", str(count)]))
