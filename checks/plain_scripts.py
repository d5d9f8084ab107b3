"""What the example scripts have to say and write, computed from a capture's bytes without zeekoff, on the terms of
plain_logs.py. What services.zeek, hooks.zeek and priorities.zeek have to say was worked out by hand: it depends on no
capture, and stands in examples/scripts alone."""
import collections
import ipaddress
import math

import plain_logs
from plain_logs import ALL, COLUMNS, conns_of, last_moment, log, rows_of, seconds


def text(lines):
    return "".join(line + "\n" for line in lines).encode()


def address(host):
    return str(ipaddress.ip_address(host))


def port(conn):
    return f"{conn.ends[1][1]}/{conn.proto}"


def top_talkers(capture):
    """The line at the end of a capture of less than a minute."""
    sent = collections.Counter()
    for conn in conns_of(capture):
        for (host, _), size in zip(conn.ends, conn.sizes()):
            if size != "-":
                sent[host] += size
    host = max(sent, key=sent.get)
    return text([f"{seconds(last_moment(capture))}, {address(host)} sent {sent[host]} bytes (of {len(sent)} hosts)"])


def scan_early(capture, threshold=3):
    tried, lines = collections.defaultdict(list), []
    for conn in conns_of(capture):
        pair = conn.ends[0][0], conn.ends[1][0]
        if conn.state() in ("REJ", "S0") and port(conn) not in tried[pair]:
            tried[pair].append(port(conn))
            if len(tried[pair]) == threshold:
                lines += [f"{address(pair[0])} tried {threshold} ports of {address(pair[1])}", *tried[pair]]
    return text(lines)


def idle(capture, patience=300_000):
    """An entry ends so long after its last write, unless another comes before or the capture ends before."""
    counts, dues, lines, last = {}, {}, [], last_moment(capture)

    def forget(now):
        for due, name in sorted((due, name) for name, due in dues.items() if due <= now):
            lines.append((due, f"{seconds(due)}, no more connections to {name}, {counts.pop(name)} so far"))
            del dues[name]

    for conn in conns_of(capture):
        forget(conn.first)
        counts[port(conn)] = counts.get(port(conn), 0) + 1
        dues[port(conn)] = conn.first + patience
    forget(last)
    return text([line for _, line in lines] + [f"{name} is left, {count} so far" for name, count in counts.items()])


def tick(capture, step=250_000):
    begins, last, lines = [conn.first for conn in conns_of(capture)], last_moment(capture), []
    now, before = begins[0] + step, 0
    while now <= last:
        began = sum(moment < now for moment in begins)
        lines.append(f"{seconds(now)}, {began - before}")
        now, before = now + step, began
    return text([*lines, f"{seconds(last)}, {len(begins) - before}"])


def queries(capture):
    asked, addresses = collections.defaultdict(set), collections.defaultdict(list)
    messages = [(number, side, message, conn) for conn in conns_of(capture) for side, number, _, message in conn.dns_messages()]
    for _, _, message, conn in sorted(messages, key=lambda one: one[0]):
        name, at = plain_logs.name_at(message, 12)
        if not message[2] >> 7:
            asked[name].add(conn.ends[0][0])
            continue
        at += 4
        for _ in range(int.from_bytes(message[6:8], "big")):
            owner, at = plain_logs.name_at(message, at)
            length = int.from_bytes(message[at + 8 : at + 10], "big")
            if message[at : at + 2] == b"\0\1":
                addresses[owner].append(address(message[at + 10 : at + 14]))
            at += 10 + length
    lines = [f"{name}: asked for by {len(hosts)}" for name, hosts in asked.items()]
    for name, known in addresses.items():
        lines += [f"{name}: address {place} of {len(known)} is {one}" for place, one in enumerate(known, 1)]
    return text(lines)


def factor(capture, greatest=6):
    rows = []
    for n in range(greatest + 1):
        divisors = [str(d) for d in range(1, n + 1) if n % d == 0]
        note = "prime" if len(divisors) == 2 else "-"
        rows.append("\t".join([str(n), str(math.factorial(n)), ",".join(divisors) or "(empty)", note]))
    return log("factor", "num:count factorial:count divisors:set[count] note:string", 0, last_moment(capture), rows)


def columns(capture):
    """conn.log with its column more, and web.log."""
    last, rows, web = last_moment(capture), [], []
    for conn in conns_of(capture):
        service = {53: "dns", 80: "http", 8080: "http"}.get(conn.ends[1][1], "-")
        rows.append(conn.row(conn.first, [*conn.cells(), service]))
        if service == "http":
            web.append("\t".join(map(str, [seconds(conn.first), conn.ends[1][1], *conn.sizes(), service])))
    few = "ts:time id.resp_p:port orig_bytes:count resp_bytes:count service:string"
    return log("conn", f"{ALL}{COLUMNS['conn']} service:string", last, last, rows), log("web", few, last, last, web)


def server(capture):
    """http.log with its column more."""
    rows = rows_of(capture)["http"]
    answers = sorted((response.number, response.fields.get("server", "-"))
                     for conn in conns_of(capture) for _, response in conn.exchanges())
    lines = [f"{row}\t{name}" for (_, _, row), (_, name) in zip(rows, answers)]
    return log("http", f"{ALL}{COLUMNS['http']} server:string", rows[0][1], last_moment(capture), lines)


def zeek_columns(capture):
    """conn.log, dns.log and http.log with the columns more that Zeek's have."""
    last, conns = last_moment(capture), conns_of(capture)
    rows = [conn.row(conn.first, [*conn.cells(), "dns" if any(conn.dns_messages()) else "http" if conn.exchanges() else "-"])
            for conn in conns]
    yield "conn", log("conn", f"{ALL}{COLUMNS['conn']} service:string", last, last, rows)
    rows = []
    for conn in conns:
        responses = {number: message for _, number, _, message in conn.dns_messages() if message[2] >> 7}
        for number, now, row in plain_logs.dns_rows(conn):
            asked, rcode = int(row.split("\t")[0].replace(".", "")), responses[number][3] & 15
            cells = [seconds(now - asked), "C_INTERNET", "A", {0: "NOERROR", 3: "NXDOMAIN"}[rcode], "FT"[not any(responses[number][6:12])]]
            rows.append((number, now, "\t".join([row, *cells])))
    rows.sort()
    more = "rtt:interval qclass_name:string qtype_name:string rcode_name:string rejected:bool"
    yield "dns", log("dns", f"{ALL}{COLUMNS['dns']} {more}", rows[0][1], last, [row for _, _, row in rows])
    rows, asked = rows_of(capture)["http"], [(response.number, request.fields) for conn in conns for request, response in conn.exchanges()]
    lines = ["\t".join([row, fields.get("referer", "-"), fields.get("origin", "-"), "-", "-", "-"])
             for (_, _, row), (_, fields) in zip(rows, sorted(asked, key=lambda one: one[0]))]
    more = "referrer:string origin:string info_code:count info_msg:string proxied:set[string]"
    yield "http", log("http", f"{ALL}{COLUMNS['http']} {more}", rows[0][1], last, lines)


def compare(capture):
    """The lines, sorted."""
    lines = []
    for conn in conns_of(capture):
        (orig, orig_port), (resp, resp_port) = conn.ends
        ends = f"{address(orig)}:{orig_port}/{conn.proto} > {address(resp)}:{resp_port}/{conn.proto}, "
        sizes = ", ".join("unknown" if size == "-" else str(size) for size in conn.sizes())
        lines.append(f"{ends}{conn.state()}, {sizes}, {conn.missed()} missed")
        for request, response in conn.exchanges():
            lines += [f"{ends}{', '.join(request.first.split(' ')[:2])}", f"{ends}{response.first.split(' ')[1]}",
                      f"{ends}request, {request.body} bytes", f"{ends}response, {response.body} bytes"]
        for _, _, _, message in conn.dns_messages():
            name, at = plain_logs.name_at(message, 12)
            number, count = (int.from_bytes(message[place : place + 2], "big") for place in (0, 6))
            kind = int.from_bytes(message[at : at + 2], "big")
            lines.append(f"{ends}response, {number}, {message[3] & 15}, {count} answers" if message[2] >> 7
                         else f"{ends}query, {number}, {name}, {kind}")
    return text(sorted(lines))
