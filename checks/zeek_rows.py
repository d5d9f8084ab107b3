"""What the rows of docs/ZEEK.md speak of: scripts and command lines, each with what is to come of it.

Each was worked out by hand from the rules of docs/SPECIFICATION.md. The mark stands in front of the byte of a refusal or
a fault; a script without one is refused at its byte 0, where its declaration begins.
"""
import dataclasses

from zeek_captures import (ACK, ANSWER, CLIENT, REQUEST, SERVER, SYN, capture, conversation, dns_answer, ipv4, tcp, udp)

MARK = "§"


@dataclasses.dataclass
class Refused:
    """A script that is refused, or whose body is at fault, by a rule at the mark."""
    rule: str
    script: str
    options: tuple = ("-b",)
    capture: str = "none.pcap"
    files: dict = dataclasses.field(default_factory=dict)


@dataclasses.dataclass
class Says:
    """A script that runs without a fault, what it says, and the rows of the logs that are named."""
    script: str
    lines: str
    options: tuple = ("-b",)
    capture: str = "none.pcap"
    files: dict = dataclasses.field(default_factory=dict)
    logs: dict = dataclasses.field(default_factory=dict)
    packets: bytes = b""


@dataclasses.dataclass
class Complains:
    """A command line, its status and its complaint."""
    words: list
    status: int
    complaint: str
    files: dict = dataclasses.field(default_factory=dict)
    given: str = "/dev/null"


def body(statements):
    """Statements in a handler of zeek_init."""
    return f"event zeek_init() {{ {statements} }}"


def unknown(*names):
    """Calls of functions that aren't there, each refused at its name."""
    return [Refused("Unknown", body(f"print {MARK}{name}();")) for name in names]


def never(head):
    """A handler that is accepted and never runs."""
    return Says(f"event {head} {{ print 1; }}", "", capture="session.pcap")


def not_there(module):
    """What a module's name stands for isn't there."""
    return Refused("Unknown", body(f"{MARK}{module}();"))


def over(packets, lines, script, options=("-C",)):
    """What a script says beside the default ones over a capture that was made by hand."""
    return Says(script, lines, options, "packets.pcap", packets=packets)


ONE = {"one.zeek": "event zeek_init() { print 1; }"}
DEFAULTS = ()
INFO = """module Mine; export { redef enum Log::ID += { LOG }; type Info: record { a: count &log; b: count &log &default=0; }; }
event zeek_init() &priority=5 { Log::create_stream(LOG, [$columns=Info, $path="mine"]); }
"""
MY_LOG_HOOK = """hook mine(rec: HTTP::Info, id: Log::ID, filter: Log::Filter) { if (rec$uri == "/moved") break; }
event zeek_init() { Log::add_filter(HTTP::LOG, [$name="default", $policy=mine]); }
event HTTP::log_http(rec: HTTP::Info) { print rec$uri; }"""

COMMANDS = {
    "`zeek -r FILE SCRIPT`": [
        Complains(["-r", "none.pcap", "one.zeek"], 1, "zeekoff: word 0 is not understood\n", ONE),
        Complains(["run", "-r", "none.pcap", "one.zeek"], 0, "", ONE)],
    "options behind a script": [
        Complains(["run", "one.zeek", "-r", "none.pcap"], 1, "zeekoff: word 1 is not understood\n", ONE),
        Complains("run -C -b --budget 500 --buffer 500 -r none.pcap one.zeek".split(), 0, "", ONE)],
    "`-e 'print 1;'`": [
        Complains(["run", "-e", "print 1;", "-r", "none.pcap"], 1, "zeekoff: word 1 is not understood\n"),
        Complains(["run", "-r", "none.pcap", "one.zeek"], 0, "", ONE)],
    "`Mine::wait=5` (a redefinition)": [
        Complains(["run", "-r", "none.pcap", "Mine::wait=5"], 9, "zeekoff: no file Mine::wait=5\n"),
        Says("module Mine; export { const wait = 1 &redef; } module Other; redef Mine::wait = 5; event zeek_init() { print Mine::wait; }", "5\n")],
    "`local`, `misc/scan` (no ending, a search path)": [
        Complains(["run", "-r", "none.pcap", "local"], 9, "zeekoff: no file local\n", {"local.zeek": ""}),
        Complains(["run", "-r", "none.pcap", "misc/scan"], 9, "zeekoff: no file misc/scan\n"),
        Complains(["run", "-r", "none.pcap", "local.zeek"], 0, "", {"local.zeek": ""})],
    "`-i eth0`, `-f FILTER`, `-w FILE`": [
        Complains(["run", "-i", "eth0"], 1, "zeekoff: word 1 is not understood\n"),
        Complains(["run", "-f", "port 80", "-r", "none.pcap"], 1, "zeekoff: word 1 is not understood\n"),
        Complains(["run", "-w", "x", "-r", "none.pcap"], 1, "zeekoff: word 1 is not understood\n")],
    "`-r -`": [
        Complains(["run", "-r", "-"], 1, "zeekoff: word 2 is not understood\n"),
        Complains(["list", "-"], 1, "zeekoff: word 1 is not understood\n"),
        Complains(["run", "-r", "/dev/stdin"], 0, "", given="none.pcap")],
    "`-r A -r B`": [
        Complains(["run", "-r", "none.pcap", "-r", "none.pcap"], 1, "zeekoff: word 3 is not understood\n")],
    "`--parse-only SCRIPT`": [
        Complains(["run", "--parse-only", "one.zeek"], 1, "zeekoff: word 1 is not understood\n"),
        Complains(["run", "-r", "/dev/null", "one.zeek"], 3, "zeekoff: /dev/null refused at byte 0\n", ONE),
        Complains(["run", "-r", "/dev/null", "no.zeek"], 2, "zeekoff: no.zeek, byte 0: NoTree\n", {"no.zeek": "print 1;"}),
        Complains(["run", "-r", "none.pcap", "one.zeek"], 0, "", ONE)],
}

LOADS = {
    "`@load misc/scan` (no ending, a search path)": [
        Complains(["run", "-r", "none.pcap", "a.zeek"], 9, "zeekoff: no file misc/scan\n", {"a.zeek": "@load misc/scan\n"}),
        Complains(["run", "-r", "none.pcap", "a.zeek"], 0, "", {"a.zeek": "@load more/b.zeek\n", "more/b.zeek": ""})],
    "`@load ./b` in `more/a.zeek` (its own folder)": [
        Complains(["run", "-r", "none.pcap", "more/a.zeek"], 9, "zeekoff: no file ./b\n",
                  {"more/a.zeek": "@load ./b\n", "more/b.zeek": ""}),
        Complains(["run", "-r", "none.pcap", "more/a.zeek"], 0, "", {"more/a.zeek": "@load more/b.zeek\n", "more/b.zeek": ""})],
    "`@load policy/protocols/conn/vlan-logging`": [
        Complains(["run", "-r", "none.pcap", "a.zeek"], 9, "zeekoff: no file policy/protocols/conn/vlan-logging\n",
                  {"a.zeek": "@load policy/protocols/conn/vlan-logging\n"})],
    "`@load-sigs`, `@if`, `@ifdef`, `@unload`, `@DIR`": [
        Refused("BadByte", f"{MARK}@load-sigs x.sig\n"), Refused("BadByte", f"{MARK}@if ( T )\n"),
        Refused("BadByte", f"{MARK}@ifdef ( Mine )\n"), Refused("BadByte", f"{MARK}@unload x\n"),
        Refused("BadByte", body(f"print {MARK}@DIR;"))],
    "`@load base/protocols/http` under `-b`": [
        Refused("Unknown", "@load base/protocols/http\nevent zeek_init() { print " + MARK + "HTTP::LOG; }"),
        Says("@load base/protocols/http\nevent zeek_init() { print HTTP::LOG; }", "HTTP::LOG\n", DEFAULTS)],
    "`GLOBAL::f()`": [
        Refused("Unknown", "function f() { } " + body(f"{MARK}GLOBAL::f();")),
        Says("function f() { print 1; } module M; " + body("f();"), "1\n")],
    "a name that another module doesn't export": [
        Refused("Unknown", "module A; global x = 1; module B; " + body(f"print {MARK}A::x;")),
        Says("module A; export { global x = 1; } module B; " + body("print A::x;"), "1\n")],
}

EVENTS = {
    "`connection_attempt(c: connection)`": [
        never("connection_attempt(c: connection)"),
        Says('event connection_state_remove(c: connection) { if (c$conn_state == "S0") print c$uid; }', "C13\n",
             capture="session.pcap")],
    "`connection_rejected(c: connection)`": [
        never("connection_rejected(c: connection)"),
        Says('event connection_state_remove(c: connection) { if (c$conn_state == "REJ") print c$uid; }', "C6\n",
             capture="web.pcap")],
    "`connection_finished(c: connection)`": [
        never("connection_finished(c: connection)"),
        Says('event connection_state_remove(c: connection) { if (c$proto == tcp && c$conn_state == "SF") print c$uid; }',
             "C5\nC7\n", capture="web.pcap")],
    "`connection_half_finished(c: connection)`": [
        never("connection_half_finished(c: connection)"),
        over(capture(*(conversation(10)[place] for place in (1, 4, 6))), "SHR\n",
             'event connection_state_remove(c: connection) { if (c$conn_state == "SH" || c$conn_state == "SHR") print c$conn_state; }')],
    "`connection_pending(c: connection)`": [
        never("connection_pending(c: connection)"),
        over(capture(*conversation(10, ends=False)), "S1\n",
             'event connection_state_remove(c: connection) { if (c$conn_state == "S1") print c$conn_state; }')],
    "`connection_partial_close`, `partial_connection`": [
        never("connection_partial_close(c: connection)"), never("partial_connection(c: connection)"),
        over(capture(*conversation(10)[2:]), "OTH\n",
             'event connection_state_remove(c: connection) { if (c$conn_state == "OTH") print c$conn_state; }')],
    "`connection_reset`, of established connections alone": [
        Says("event connection_reset(c: connection) { print c$uid, c$conn_state; }", "C6, REJ\n", capture="web.pcap"),
        Says('event connection_reset(c: connection) { if (c$conn_state in set("RSTO", "RSTR")) print c$uid; }', "", capture="web.pcap")],
    "`connection_timeout`, `successful_connection_remove`": [
        never("connection_timeout(c: connection)"), never("successful_connection_remove(c: connection)"),
        Says("global n = 0; event connection_state_remove(c: connection) { ++n; } event zeek_done() { print n; }", "7\n",
             capture="web.pcap")],
    "`connection_SYN_packet`, `connection_first_ACK`, `new_connection_contents`": [
        Refused("Unknown", f"event connection_SYN_packet(c: connection, pkt: {MARK}SYN_packet) {{ }}"),
        never("connection_first_ACK(c: connection)"), never("new_connection_contents(c: connection)"),
        Says("event new_connection(c: connection) { if (c$proto == tcp) print c$uid; } "
             'event connection_established(c: connection) { print "established", c$uid; }',
             "C5\nestablished, C5\nC6\nC7\nestablished, C7\n", capture="web.pcap")],
    "`udp_request`, `udp_reply`, `udp_session_done`": [
        never("udp_request(u: connection)"), never("udp_reply(u: connection)"), never("udp_session_done(u: connection)"),
        Says("event new_connection(c: connection) { if (c$proto == udp) print c$uid; } "
             "event connection_state_remove(c: connection) { if (c$proto == udp) print c$uid; }", "C1\nC2\nC3\nC4\nC1\nC2\nC3\nC4\n",
             capture="web.pcap")],
    "`new_packet(c: connection, p: pkt_hdr)`, `raw_packet(p: raw_pkt_hdr)`": [
        Refused("Unknown", f"event new_packet(c: connection, p: {MARK}pkt_hdr) {{ }}"),
        Refused("Unknown", f"event raw_packet(p: {MARK}raw_pkt_hdr) {{ }}"),
        Says("global n = 0; event packet_seen(t: time, caplen: count, len: count) { if (n == 0) print caplen, len; ++n; }", "69, 69\n",
             capture="web.pcap")],
    "`tcp_packet`, `tcp_contents`, `udp_contents`, `packet_contents`": [
        never("tcp_packet(c: connection, is_orig: bool, flags: string, seq: count, ack: count, len: count, payload: string)"),
        never("tcp_contents(c: connection, is_orig: bool, seq: count, contents: string)"),
        never("udp_contents(u: connection, is_orig: bool, contents: string)"),
        never("packet_contents(c: connection, contents: string)")],
    "`rexmit_inconsistency`, `conn_weird`, `flow_weird`, `connection_reused`": [
        never("rexmit_inconsistency(c: connection, t1: string, t2: string, tcp_flags: string)"),
        never("conn_weird(name: string, c: connection, addl: string, source: string)"),
        never("flow_weird(name: string, src: addr, dst: addr, addl: string, source: string)"), never("connection_reused(c: connection)")],
    "a handler with fewer parameters": [
        Refused("Arguments", "event new_connection() { }"),
        Says("event new_connection(c: connection) { print 1; }", "1\n" * 7, capture="web.pcap")],
    "`http_header(c: connection, is_orig: bool, name: string, value: string)`": [
        Refused("Arguments", "event http_header(c: connection, is_orig: bool, name: string, value: string) { }"),
        Says("event http_header(c: connection, is_orig: bool, original_name: string, name: string, value: string) "
             '{ if (name == "LOCATION") print original_name; }', "Location\n", capture="web.pcap")],
    "`dns_request(.., original_query: string)`": [
        Refused("Arguments", "event dns_request(c: connection, msg: dns_msg, query: string, qtype: count, qclass: count, "
                "original_query: string) { }"),
        Says("event dns_request(c: connection, msg: dns_msg, query: string, qtype: count, qclass: count) { print query; }",
             "a.example\nh.example\nh.example\nalias.example\n", capture="web.pcap")],
    "`dns_full_request`, `dns_query_reply`, `dns_rejected`": [
        never("dns_full_request()"),
        never("dns_query_reply(c: connection, msg: dns_msg, query: string, qtype: count, qclass: count)"),
        never("dns_rejected(c: connection, msg: dns_msg, query: string, qtype: count, qclass: count)"),
        Says("event dns_end(c: connection, msg: dns_msg) { if (msg$QR && msg$rcode != 0) print c$uid, msg$rcode; }", "C1, 3\n",
             capture="web.pcap")],
    "`dns_SRV_reply`, `dns_CAA_reply`, `dns_EDNS_addl` and others": [
        never("dns_SRV_reply(c: connection, msg: dns_msg, ans: dns_answer, target: string, priority: count, weight: count, "
              "p: count)"),
        Refused("Unknown", f"event dns_EDNS_addl(c: connection, msg: dns_msg, ans: {MARK}dns_edns_additional) {{ }}"),
        Says("event dns_unknown_reply(c: connection, msg: dns_msg, ans: dns_answer) { if (ans$qtype == 33) print ans$query; }", "",
             capture="web.pcap")],
    "`http_begin_entity`, `http_all_headers`, `http_end_entity`, `http_entity_data`": [
        never("http_begin_entity(c: connection, is_orig: bool)"), never("http_end_entity(c: connection, is_orig: bool)"),
        Refused("Unknown", f"event http_all_headers(c: connection, is_orig: bool, hlist: {MARK}mime_header_list) {{ }}"),
        never("http_entity_data(c: connection, is_orig: bool, length: count, data: string)"),
        Says("event http_header(c: connection, is_orig: bool, original_name: string, name: string, value: string) "
             '{ if (name == "LOCATION") print original_name; } '
             "event http_message_done(c: connection, is_orig: bool, stat: http_message_stat) "
             "{ if (!is_orig) print c$uid, stat$body_length; }",
             "Location\nC5, 145\nC5, 6\nC7, 6\nC7, 6\nC7, 6\nC7, 6\nC7, 6\n", capture="web.pcap")],
    "`ssl_client_hello`, `file_new`, `icmp_echo_request`, `smtp_request` and what else comes from other analyzers": [
        never("ssl_established(c: connection)"), Refused("Unknown", f"event file_new(f: {MARK}fa_file) {{ }}"),
        Refused("Unknown", f"event icmp_echo_request(c: connection, info: {MARK}icmp_info, id: count, seq: count, payload: string) {{ }}"),
        never("smtp_request(c: connection, is_orig: bool, command: string, arg: string)")],
    "`analyzer_violation_info`, `protocol_violation`, `analyzer_confirmation_info`": [
        Refused("Unknown", f"event analyzer_violation_info(tag: {MARK}AllAnalyzers::Tag, info: AnalyzerViolationInfo) {{ }}"),
        Says("event dns_violation(c: connection, is_orig: bool, fault: count) { print fault; } "
             "event http_violation(c: connection, is_orig: bool, reason: count) { print reason; }", "", capture="web.pcap")],
    "`event Mine::done()` as a handler, where `Mine` declares no such event": [
        Refused("Unknown", f"event {MARK}Mine::done() {{ }}"),
        Says('module Mine; export { global done: event(); } module Other; event Mine::done() { print "done"; } '
             "event zeek_init() { event Mine::done(); }", "done\n")],
}

TYPES = {
    "`double`, `1.5`": [
        Refused("Unknown", f"global x: {MARK}double;"), Refused("BadByte", body(f"print 1{MARK}.5;")),
        Says(body("print 15;"), "15\n")],
    "`0.5 sec`": [
        Refused("BadByte", body(f"print 0{MARK}.5 sec;")), Says(body("print 500 msec;"), "0.500000\n")],
    "`0xff`": [
        Refused("NoTree", body("print 0xff;")), Says(body('print 255, fmt("%x", 255);'), "255, ff\n")],
    "`[2001:db8::7]` as an address": [
        Refused("NoTree", "global a = [2001:db8::7];"),
        Says('event dns_AAAA_reply(c: connection, msg: dns_msg, ans: dns_answer, a: addr) '
             '{ if (cat(a) == "2001:db8::7") print c$uid; }', "C3\n", capture="web.pcap")],
    "`/re/`, `pattern`": [
        Refused("Unknown", f"global p: {MARK}pattern;"), Refused("NoTree", body('if (/evil/ in "evil") print 1;')),
        Refused("BadByte", body(f'if (/an{MARK}.evil/ in "evil") print 1;')), Refused("BadByte", body(f'if (/{MARK}\\.evil/ in "evil") print 1;')),
        Says(body('local s = "an evil word"; if ("evil" in s) print strstr(s, "evil"), starts_with(s, "an");'), "4, T\n")],
    "`any`": [
        Refused("Unknown", f"function f(x: {MARK}any) {{ }}"), Says("function f(x: count) { print x; } " + body("f(1);"), "1\n")],
    "`opaque of md5`, `file`": [
        Refused("NoTree", "global h: opaque of md5;"), Refused("Unknown", f"global f: {MARK}file;")],
    "`option x = 5;`": [
        Refused("NoTree", "option x = 5;"), Says("const x = 5 &redef; redef x = 6; " + body("print x;"), "6\n")],
    "`type R: record { .. } &redef;`": [
        Refused("NoTree", "type R: record { a: count; } &redef;"),
        Says("type R: record { a: count; }; redef record R += { b: count &default=2; }; " + body("print R($a=1)$b;"), "2\n")],
    "`type E: enum { A = 1 };`": [
        Refused("NoTree", "type E: enum { A = 1 };"), Says("type E: enum { A }; " + body("print A;"), "A\n")],
    "`local r: R;` and then `r$a = 1;`": [
        Refused("Unset", "type R: record { a: count &optional; }; " + body(f"local r: R; {MARK}r$a = 1;")),
        Says("type R: record { a: count &optional; }; " + body("local r = R(); r$a = 1; print r$a;"), "1\n")],
    "`local r = [$a=1];`": [
        Refused("WrongType", body(f"local r = {MARK}[$a=1];")),
        Says("type R: record { a: count; }; " + body("local r = R($a=1); print r$a;"), "1\n")],
    "`local s = { 1, 2 };`, `const s = { 1, 2 } &redef;`": [
        Refused("WrongType", body(f"local s = {MARK}{{ 1, 2 }};")), Refused("WrongType", f"const s = {MARK}{{ 1, 2 }} &redef;"),
        Says("const s: set[count] = { 1, 2 } &redef; " + body("local t = set(1, 2, 3); print |s|, |t|;"), "2, 3\n"),
        Says(body("local s = set(1, 2); print |s|;"), "2\n")],
    "`local t = table([1] = \"a\");`": [
        Refused("WrongType", body(f'local t = {MARK}table([1] = "a");')),
        Says(body('local t: table[count] of string = table([1] = "a"); print t[1];'), "a\n")],
    "`local v = vector();`, `local s = set();`": [
        Refused("WrongType", body(f"local v = {MARK}vector();")), Refused("WrongType", body(f"local s = {MARK}set();")),
        Says(body("local v: vector of count; local s: set[addr]; v += 7; print v[0], |s|;"), "7, 0\n")],
    "`local k = [a, b];`": [
        Refused("WrongType", body(f"local a = 1; local b = 2; local k = {MARK}[a, b];")),
        Says(body("local a = 1; local b = 2; local s = set([1, 2]); if ([a, b] in s) print a, b;"), "1, 2\n"),
        Says("global t: table[count, count] of count; " + body("local a = 1; local b = 2; t[a, b] = 3; print t[a, b];"), "3\n")],
    "`function(x: count): count { .. }` as a value": [
        Refused("NoTree", body("local f = function(x: count): count { return x; };")),
        Says("function f(x: count): count { return x; } " + body("print f(1);"), "1\n")],
    "`f: function(x: count)` as a parameter or a field": [
        Refused("WrongType", f"function g(f: {MARK}function(x: count)) {{ }}"),
        Refused("WrongType", f"type R: record {{ f: {MARK}function(x: count); }};"),
        Says("global f: hook(x: count); hook f(x: count) { print x; } function g(x: count) { hook f(x); } " + body("g(1);"), "1\n")],
    "`function f(x: count &default=5)`": [
        Refused("NoTree", "function f(x: count &default=5) { }"),
        Says("function f(x: count) { print x; } " + body("f(5);"), "5\n")],
    "`addr_set`, `string_set`, `count_set`, `addr_vec`": [
        Refused("Unknown", f"global s: {MARK}addr_set;"), Refused("Unknown", f"global s: {MARK}string_set;"),
        Refused("Unknown", f"global s: {MARK}count_set;"), Refused("Unknown", f"global s: {MARK}addr_vec;"),
        Says("global s: set[addr] = { 10.0.0.1 }; global v: string_vec; " + body("print |s|, |v|;"), "1, 0\n")],
    "`table[conn_id] of ..`, `set[conn_id]`": [
        Refused("WrongType", f"global t: table[{MARK}conn_id] of count;"), Refused("WrongType", f"global s: set[{MARK}conn_id];"),
        Says("global t: table[addr, port, addr, port] of count; event new_connection(c: connection) "
             "{ t[c$id$orig_h, c$id$orig_p, c$id$resp_h, c$id$resp_p] = 1; } event zeek_done() { print |t|; }", "7\n", capture="web.pcap")],
    "a record of another type with the same fields": [
        Refused("WrongType", "type R: record { a: count; }; type Q: record { a: count; }; " + body(f"local q = Q($a=1); local r: R = {MARK}q;")),
        Says("type R: record { a: count; }; type Q: record { a: count; }; " + body("local q = Q($a=1); local r = R($a=q$a); print r$a;"), "1\n")],
    "`www.zeek.org` as its addresses": [
        Refused("BadByte", f"global s: set[addr] = {{ www{MARK}.zeek.org }};"),
        Says("global s: set[addr] = { 192.0.2.7 }; " + body("print 192.0.2.7 in s;"), "T\n")],
    "`\"\\0\"`, `\"\\a\"`, `\"\\101\"`": [
        *(Refused("BadByte", body(f'print "{MARK}\\{escape}";')) for escape in ("0", "a", "101")),
        Says(body(r'print "\x41\x42\t.\n\r\"\\";'), 'AB\t.\n\r"\\\n')],
    "`A::B::c`": [
        Refused("NoTree", body("print A::B::c;")),
        Says("module A; export { global b_c = 1; } module B; " + body("print A::b_c;"), "1\n")],
    "`type R: record { after: R &optional; };`": [
        Refused("Recursive", f"type R: record {{ after: {MARK}R &optional; }};"),
        Says("type R: record { after: count &optional; }; global all: vector of R; " + body("all += R(); all += R($after=0); print all[1]$after;"),
             "0\n")],
    "`local n: count = i;` of an int, `int_to_count(i)`": [
        Refused("WrongType", body(f"local i: int = 5; local n: count = {MARK}i;")), *unknown("int_to_count"),
        Says(body("local i: int = 5; local n = to_count(cat(i)); print n;"), "5\n")],
    "`print 1 min;`": [
        Says(body("print 1 min, network_time();"), "60.000000, 0.000000\n")],
    "`80/icmp`, `icmp`": [
        Refused("Unknown", body(f"print 80/{MARK}icmp;")), Refused("Unknown", body(f"print {MARK}icmp;")),
        Says(body("print 80/tcp, 53/udp, tcp;"), "80/tcp, 53/udp, tcp\n")],
    "`local x = 0; x = x - 1;`": [
        Refused("Overflow", body(f"local x = 0; {MARK}x = x - 1;")), Says(body("local x: int = 0; x = x - 1; print x;"), "-1\n")],
}

ATTRIBUTES = {
    "`e: E &default=A` (an enum word), `n: count &default=limit`": [
        Refused("NotConst", f"type E: enum {{ A, B }}; type R: record {{ e: E &default={MARK}A; }};"),
        Refused("NotConst", f"const limit = 5; type R: record {{ n: count &default={MARK}limit; }};"),
        Says("type E: enum { A, B }; type R: record { e: E; n: count &default=5; }; function r(): R { return R($e=A); } "
             + body("print r()$e, r()$n;"), "A, 5\n")],
    "`&default=f` (a function)": [
        Refused("WrongType", "function f(k: count): count { return k; } "
                f"global t: table[count] of count = table() &default={MARK}f;".replace("= table() ", "")),
        Says("function f(k: count): count { return k * 2; } global t: table[count] of count; "
             "function get(k: count): count { return k in t ? t[k] : f(k); } " + body("print get(4);"), "8\n")],
    "`&create_expire=wait`": [
        Refused("NotConst", f"const wait = 5 min; global s: set[addr] &create_expire={MARK}wait;"),
        Says("global s: set[addr] &create_expire=5 min; " + body("print |s|;"), "0\n")],
    "`&create_expire=-1 sec` (never)": [
        Says("global s: set[addr] &create_expire=-1 sec; event new_connection(c: connection) "
             "{ print |s|; add s[c$id$resp_h]; }", "0\n" * 7, capture="web.pcap"),
        Says("global s: set[addr]; event new_connection(c: connection) { print |s|; add s[c$id$resp_h]; }", "0\n" + "1\n" * 6,
             capture="web.pcap")],
    "`&expire_func=function(..) { .. }`": [
        Refused("NoTree", "global t: table[addr] of count &create_expire=1 min "
                "&expire_func=function(t: table[addr] of count, a: addr): interval { return 0 sec; };"),
        Says("function gone(t: table[addr] of count, a: addr): interval { print a; return 0 sec; } "
             "global t: table[addr] of count &create_expire=10 msec &expire_func=gone; "
             "event new_connection(c: connection) { if (c$proto == tcp) t[c$id$resp_h] = 1; }",
             "10.77.0.2\n10.77.0.2\n", capture="web.pcap")],
    "`local t: table[..] of .. &default=0;`, `table() &default=0`": [
        Refused("NoTree", body("local t: table[addr] of count &default=0;")),
        Refused("NoTree", body("local t: table[addr] of count = table() &default=0;")),
        Says("global t: table[addr] of count &default=0; " + body("t[10.0.0.1] += 1; print t[10.0.0.1], t[10.0.0.2];"), "1, 0\n")],
    "`const t: table[..] of .. = { .. } &default=0`": [
        Refused("Attribute", f"const t: table[count] of count = {{ [1] = 2 }} {MARK}&default=0;"),
        Says("global t: table[count] of count = { [1] = 2 } &default=0; " + body("print t[1], t[5];"), "2, 0\n")],
    "`f: set[addr] &create_expire=1 min;` in a record": [
        Refused("Attribute", f"type R: record {{ f: set[addr] {MARK}&create_expire=1 min; }};"),
        Says("global f: set[string, addr] &create_expire=1 min; " + body('add f["C1", 10.0.0.1]; print ["C1", 10.0.0.1] in f;'),
             "T\n")],
    "`t = table();` of a global with an expiry": [
        Refused("Attribute", "global t: table[addr] of count &create_expire=1 min; " + body(f"{MARK}t = table();")),
        Says("global t: table[addr] of count &create_expire=1 min; "
             + body("t[10.0.0.1] = 1; for (k in t) delete t[k]; print |t|;"), "0\n")],
    "`&is_used`, `&deprecated`, `&raw_output`, `&backend`, `&on_change`, `&ordered`, `&group`, `&default_insert` and others": [
        *(Refused("Attribute", f"global x: set[count] {MARK}&{name};") for name in ("is_used", "is_assigned", "deprecated", "ordered")),
        Refused("Attribute", f"global t: table[count] of count {MARK}&default_insert=1;"),
        Refused("Attribute", f"global x: set[count] {MARK}&backend=1;"), Refused("Attribute", f"global x: set[count] {MARK}&on_change=1;"),
        Refused("Attribute", f"event zeek_init() {MARK}&group=\"g\" {{ }}"), Refused("Attribute", f"global x: count {MARK}&raw_output;")],
    "`type R: record { .. } &log;`": [
        Refused("NoTree", "type R: record { a: count; } &log;"),
        Says(INFO + "module Mine; event zeek_init() { Log::write(LOG, [$a=1]); }", "", logs={"mine.log": ["1\t0"]})],
}

OPERATORS = {
    "`2 * 1 min`": [
        Refused("WrongType", body(f"print 2 * {MARK}1 min;")), Says(body("print 1 min * 2;"), "120.000000\n")],
    "`i / j` of two intervals": [
        Refused("WrongType", body(f"local i = 4 min; local j = 2 min; print i / {MARK}j;")),
        Says(body("local i = 4 min; local j = 2 min; print i >= j * 2, i / 2;"), "T, 120.000000\n")],
    "`+5`": [Refused("NoTree", body("print +5;")), Says(body("print 5;"), "5\n")],
    "`x = y = 1`, `if ((x = f()) > 0)`": [
        Refused("WrongType", body(f"local x = 0; local y = 0; x = {MARK}y = 1;")),
        Refused("WrongType", "function f(): count { return 1; } " + body(f"local x = 0; if (({MARK}x = f()) > 0) print x;")),
        Says("function f(): count { return 1; } " + body("local x = f(); if (x > 0) print x;"), "1\n")],
    "`5 & 3`, `5 ^ 3`, `~5`": [
        Refused("BadByte", body(f"print 5 {MARK}& 3;")), Refused("BadByte", body(f"print 5 {MARK}^ 3;")),
        Refused("BadByte", body(f"print {MARK}~5;"))],
    "`5 | 3`, `1 << 2`, `8 >> 2`": [
        Refused("NoTree", body("print 5 | 3;")), Refused("NoTree", body("print 1 << 2;")), Refused("NoTree", body("print 8 >> 2;")),
        Says(body("print 1 * 4, 8 / 4;"), "4, 2\n")],
    "`s | t` of sets": [
        Refused("NoTree", body("local s = set(1); local t = set(2); print |s | t|;")),
        Says(body("local s = set(1); local t = set(2); local u = copy(s); u += t; s += t; print |u|, |s|;"), "2, 2\n")],
    "`s - t` of sets": [
        Refused("WrongType", body(f"local s = set(1); local t = set(2); s = {MARK}s - t;")),
        Says(body("local s = set(1, 2); local t = set(2); local u = copy(s); u -= t; s -= t; print |u|, |s|;"), "1, 1\n")],
    "`s & t` of sets": [
        Refused("BadByte", body(f"local s = set(1); local t = set(2); s = s {MARK}& t;")),
        Says(body("local s = set(1, 2); local t = set(2); local u = copy(s); for (x in s) if (x !in t) delete u[x]; print |u|;"), "1\n")],
    "`r == q` of records, sets, tables or vectors": [
        Refused("WrongType", body(f"local s = set(1); local t = set(1); print {MARK}s == t;")),
        Says("type R: record { a: count; }; " + body("local r = R($a=1); local q = R($a=1); print r$a == q$a;"), "T\n")],
    "`s <= t` of sets (is it a part)": [
        Refused("WrongType", body(f"local s = set(1); local t = set(1, 2); print {MARK}s <= t;")),
        Says("function within(s: set[count], t: set[count]): bool { for (x in s) if (x !in t) return F; return T; } "
             + body("print within(set(1), set(1, 2)), within(set(3), set(1, 2));"), "T, F\n")],
    "`a in nets` of a `set[subnet]`": [
        Refused("WrongType", "global nets: set[subnet] = { 10.0.0.0/8 }; " + body(f"local a = 10.1.1.1; print a in {MARK}nets;")),
        Says("global nets: set[subnet] = { 10.0.0.0/8 }; function among(a: addr): bool "
             "{ for (net in nets) if (a in net) return T; return F; } " + body("print among(10.1.1.1), among(11.1.1.1);"), "T, F\n")],
    "`s[0]` of a string": [
        Refused("WrongType", body(f'local s = "abc"; print {MARK}s[0];')),
        Says(body('local s = "abc"; print sub_bytes(s, 1, 1);'), "a\n")],
    "`s[1:3]`, `v[1:3]`": [
        Refused("NoTree", body('local s = "abcd"; print s[1:3];')), Refused("NoTree", body("local v = vector(1, 2, 3); print |v[1:3]|;")),
        Says(body('local s = "abcd"; print sub_bytes(s, 2, 2);'), "bc\n")],
    "`v += w` of two vectors": [
        Refused("WrongType", body(f"local v = vector(1); local w = vector(2, 3); v += {MARK}w;")),
        Says(body("local v = vector(1); local w = vector(2, 3); for (i, x in w) v += x; print |v|, v[2];"), "3, 3\n")],
    "`v + 1`, `v == w` on whole vectors": [
        Refused("WrongType", body(f"local v = vector(1); v = {MARK}v + 1;")), Refused("WrongType", body(f"local v = vector(1); print {MARK}v == v;")),
        Says(body("local v = vector(1, 2); for (i in v) v[i] = v[i] + 1; print v[0], v[1];"), "2, 3\n")],
    "`x as count`, `x is count`": [Refused("NoTree", body("print 1 as count;")), Refused("NoTree", body("print 1 is count;"))],
    "`a / 24` of an address": [
        Refused("WrongType", body(f"local a = 10.1.2.3; print {MARK}a / 24;")),
        Says(body("local a = 10.1.2.3; print a in 10.1.2.0/24, addr_to_counts(a)[0] / 256;"), "T, 655618\n")],
    "`|x|` of an address, a record or an interval": [
        Refused("WrongType", body(f"print |{MARK}10.0.0.1|;")), Refused("WrongType", body(f"print |{MARK}1 min|;")),
        Refused("WrongType", "type R: record { a: count; }; " + body(f"local r = R($a=1); print |{MARK}r|;")),
        Says(body('local i: int = -5; print |"abc"|, |set(1)|, |i|;'), "3, 1, 5\n")],
    "`v[5] = 1;` past the end of a vector": [
        Refused("NoIndex", body(f"local v = vector(1); {MARK}v[5] = 1;")),
        Says(body("local v = vector(1); v[|v|] = 2; while (|v| < 6) v += 0; v[5] = 1; print |v|;"), "6\n")],
    "`delete r$a;`": [
        Refused("WrongType", "type R: record { a: count &optional; }; " + body(f"local r = R($a=1); {MARK}delete r$a;")),
        Says("type R: record { a: count &optional; }; " + body("local r = R($a=1); r = R(); print r?$a;"), "F\n")],
    "`delete t;` of a whole table": [
        Refused("WrongType", body(f"local t = set(1, 2); {MARK}delete t;")),
        Says(body("local t = set(1, 2); for (k in t) delete t[k]; print |t|;"), "0\n")],
}

STATEMENTS = {
    "`switch (x) { case 1: .. }`": [
        Refused("NoTree", body("local x = 1; switch (x) { case 1: print 1; break; }")),
        Says(body("local x = 1; if (x == 1) print 1; else if (x == 2) print 2; else print 3;"), "1\n")],
    "`when (x > 1) { .. }`": [
        Refused("NoTree", body("local x = 1; when (x > 1) { print 1; }")),
        Says("global x = 1; event look() { if (x > 1) print x; } " + body("x = 2; schedule 1 sec { look() };"), "2\n")],
    "`const k = 5;`, `global k = 5;` in a body": [
        Refused("NoTree", body("const k = 5;")), Refused("NoTree", body("global k = 5;")), Says(body("local k = 5; print k;"), "5\n")],
    "`for (ch in \"abc\")`": [
        Refused("WrongType", body(f'for (ch in {MARK}"abc") print ch;')),
        Says(body('local s = "abc"; local i = 1; while (i <= |s|) { print sub_bytes(s, i, 1); ++i; }'), "a\nb\nc\n")],
    "`local x` in two blocks of a body": [
        Refused("Twice", body(f"if (T) {{ local x = 1; print x; }} else {{ {MARK}local x = 2; print x; }}")),
        Says(body("local x = 1; if (F) x = 2; print x;"), "1\n")],
    "`for (_, v in t)` over tables of other keys": [
        Refused("WrongType", 'global t: table[count] of count; global u: table[string] of count; '
                + body(f"for (_, v in t) print v; for ({MARK}_, v in u) print v;")),
        Says('global t: table[count] of count = { [1] = 2 }; global u: table[string] of count = { ["a"] = 3 }; '
             + body("for (i, v in t) print v; for (k, v in u) print v;"), "2\n3\n")],
    "`print s;` of a container or a record": [
        Refused("WrongType", body(f"local s = set(1, 2); print {MARK}s;")),
        Refused("WrongType", f"event new_connection(c: connection) {{ print {MARK}c$id; }}"),
        Says(body("local s = set(1, 2); for (x in s) print x;"), "1\n2\n")],
    "`print f, x;` into a file": [
        Refused("Unknown", body(f'local f = {MARK}open("x.txt"); print f, 1;')), Says(body("print 1;"), "1\n")],
    "`redef t += { [2] = \"b\" };` of a table": [
        Refused("WrongType", 'global t: table[count] of string = { [1] = "a" } &redef; redef t += ' + MARK + '{ [2] = "b" };'),
        Says('global t: table[count] of string = { [1] = "a" }; ' + body('t[2] = "b"; print |t|;'), "2\n")],
    "`redef s -= { 1 };`": [
        Refused("NoTree", "global s: set[count] = { 1, 2 } &redef; " + MARK + "redef s -= { 1 };"),
        Says("global s: set[count] = { 1, 2 } &redef; redef s = { 2 }; redef s += { 3 }; " + body("delete s[3]; print |s|;"), "1\n")],
    "a body of more than a million steps": [
        Refused("Spent", body(f"local i = 0; {MARK}while (i < 1000000) ++i;")),
        Says(body("local i = 0; while (i < 1000000) ++i; print i;"), "1000000\n", ("-b", "--budget", "10000000"))],
    "calls in calls, more than 200": [
        Refused("Depth", "function f(n: count): count { " + MARK + "return n == 0 ? 0 : f(n - 1); } " + body("print f(500);")),
        Says("function f(n: count): count { return n == 0 ? 0 : f(n - 1); } " + body("print f(150);"), "0\n")],
    "`redef record Conn::Info$history -= { &log };`": [
        Refused("NoTree", "redef record Conn::Info$history -= { &log };", DEFAULTS),
        Says(body('Log::add_filter(Conn::LOG, [$name="default", $path="short", $include=set("uid", "conn_state", "history"), $exclude=set("history")]);'),
             "", DEFAULTS, "web.pcap",
             logs={"short.log": [f"C{n}\t{state}" for n, state in enumerate("SF SF SF SF SF REJ SF".split(), 1)]})],
    "`assert x > 0;`": [
        Refused("NoTree", body("local x = 1; assert x > 0;")), Says(body("local x = 0; if (! (x > 0)) print x;"), "0\n")],
    "`schedule 1 min { tick() };` in `zeek_init`, again and again": [
        Complains(["run", "-b", "-r", "web.pcap", "a.zeek"], 8, "zeekoff: flood at 1000000.000000\n",
                  {"a.zeek": "event tick() { schedule 1 sec { tick() }; } event zeek_init() { schedule 1 sec { tick() }; }"}),
        Says("global began = F; global n = 0; event tick() { ++n; schedule 1 sec { tick() }; } event new_connection(c: connection) "
             "{ if (began) return; began = T; schedule 1 sec { tick() }; } event zeek_done() { print n; }", "4\n", capture="web.pcap")],
}

FUNCTIONS = {
    "`cat_sep(sep, none, a, b)`": [
        *unknown("cat_sep"), Says(body('local a = 1; local b = 10.0.0.1; print join_string_vec(vector(cat(a), cat(b)), "|");'), "1|10.0.0.1\n")],
    "`string_cat(a, b)`": [*unknown("string_cat"), Says(body('local a = "a"; local b = "b"; print a + b;'), "ab\n")],
    "`ends_with(s, t)`": [
        *unknown("ends_with"),
        Says("function ends(s: string, t: string): bool { return |s| >= |t| && sub_bytes(s, |s| - |t| + 1, |t|) == t; } "
             + body('print ends("a.example", ".example"), ends("le", ".example");'), "T, F\n")],
    "`split_string(s, /,/)`": [
        *unknown("split_string", "split_string1"),
        Says("function parts(s: string, sep: string): string_vec { local v: string_vec; local rest = s; "
             "while (strstr(rest, sep) > 0) { local at = strstr(rest, sep); v += sub_bytes(rest, 1, at - 1); "
             "rest = sub_bytes(rest, at + |sep|, |rest|); } v += rest; return v; } "
             + body('for (i, part in parts("a,,bc", ",")) print i, part;'), "0, a\n1, \n2, bc\n")],
    "`is_v4_addr(a)`, `is_v6_addr(a)`": [
        *unknown("is_v4_addr", "is_v6_addr"), Says(body("local a = 10.0.0.1; print |addr_to_counts(a)| == 1;"), "T\n")],
    "`get_port_transport_proto(p)`, `is_tcp_port(p)`, `port_to_count(p)`": [
        *unknown("get_port_transport_proto", "is_tcp_port", "port_to_count"),
        Says("event new_connection(c: connection) { local p = c$id$resp_p; "
             "if (c$proto == tcp) print p, to_count(sub_bytes(cat(p), 1, |cat(p)| - 4)); }",
             "80/tcp, 80\n81/tcp, 81\n80/tcp, 80\n", capture="web.pcap")],
    "`HTTP::build_url(rec)`, `Conn::conn_state(c, tcp)`, `id_string(c$id)`": [
        *(Refused("Unknown", body(f"print {MARK}{call};"), DEFAULTS) for call in ("HTTP::build_url(1)", "Conn::conn_state(1, 2)", "id_string(1)")),
        Says("event HTTP::log_http(rec: HTTP::Info) { if (rec?$host) print rec$host + rec$uri; } "
             'event connection_state_remove(c: connection) { if (c$uid == "C6") print c$conn_state, '
             'fmt("%s:%s > %s:%s", c$id$orig_h, c$id$orig_p, c$id$resp_h, c$id$resp_p); }',
             "10.77.0.2/moved\n10.77.0.2/index.html\n" + 5 * "x/index.html\n" + "REJ, 10.77.0.1:60658/tcp > 10.77.0.2:81/tcp\n",
             DEFAULTS, "web.pcap")],
    "`clear_table(t)`": [
        *unknown("clear_table"), Says(body("local t = set(1, 2); for (k in t) delete t[k]; print |t|;"), "0\n")],
    "`current_time()`": [*unknown("current_time"), Says(body("print network_time();"), "0.000000\n")],
    "`fmt(\"%.2f\", x)`, `fmt(\"%5d\", n)`, `fmt(\"%T\", t)`": [
        *(Refused("Format", body(f'print fmt({MARK}"%{verb}", 1);')) for verb in (".2f", "5d", "T")),
        Says(body('print fmt("%d %x %s %%", 10, 10, 10.0.0.1);'), "10 a 10.0.0.1 %\n")],
    "`fmt(f, x)`": [
        Refused("Format", body(f'local f = "%d"; print fmt({MARK}f, 1);')), Says(body('print fmt("%d", 1);'), "1\n")],
    "`fmt(\"%s\", s)`, `cat(s)` of a container or a record": [
        Refused("WrongType", body(f'local s = set(1, 2); print fmt("%s", {MARK}s);')),
        Refused("WrongType", body(f"local s = set(1, 2); print cat({MARK}s);")),
        Says(body('local s = set(1, 2); local v: string_vec; for (x in s) v += cat(x); print join_string_vec(v, " ");'), "1 2\n")],
    "`Reporter::info(\"..\")`, `Reporter::warning`": [
        not_there("Reporter::info"), not_there("Reporter::warning"), Says(body('print "..";'), "..\n")],
    "`NOTICE([$note=..])`, `Notice::Type`": [
        Refused("Unknown", body(f"{MARK}NOTICE([$note=1]);")), Refused("Unknown", f"redef enum {MARK}Notice::Type += {{ Mine }};"),
        Says(INFO + "module Mine; event zeek_init() { Log::write(LOG, [$a=1, $b=2]); }", "", logs={"mine.log": ["1\t2"]})],
    "`Site::is_local_addr(a)`, `Site::local_nets`": [
        not_there("Site::is_local_addr"), Refused("Unknown", f"redef {MARK}Site::local_nets += {{ 10.0.0.0/8 }};"),
        Says("const local_nets: set[subnet] = { 10.0.0.0/8 } &redef; function is_local(a: addr): bool "
             "{ for (net in local_nets) if (a in net) return T; return F; } " + body("print is_local(10.1.1.1);"), "T\n")],
    "`redef tcp_inactivity_timeout = ..`, `redef ignore_checksums = T;`, `redef capture_filters = ..`": [
        *(Refused("Unknown", f"redef {MARK}{name} = 1;") for name in ("tcp_inactivity_timeout", "ignore_checksums", "capture_filters")),
        Says("event zeek_init() { print 1; }", "1\n", ("-C", "-b"))],
    "`redef HTTP::ports += { 8008/tcp };`, `redef HTTP::default_capture_password = T;`, `Analyzer::register_for_port`": [
        Refused("Unknown", f"redef {MARK}HTTP::ports += {{ 8008/tcp }};", DEFAULTS),
        Refused("Unknown", f"redef {MARK}HTTP::default_capture_password = T;", DEFAULTS), not_there("Analyzer::register_for_port")],
    "`SumStats::`, `Intel::`, `Input::`, `Config::`, `Files::`, `Weird::`, `Cluster::`, `Broker::`": [
        *map(not_there, ("SumStats::create", "Intel::insert", "Input::add_table", "Config::set_value", "Files::add_analyzer",
                         "Weird::weird", "Cluster::log", "Broker::publish"))],
    "`md5_hash`, `sort`, `rand`, `strftime`, `resize`, `to_int`, `to_addr`, `gsub`, `strip`, `system`, `getenv`, `terminate` and others": [
        *unknown("md5_hash", "sort", "rand", "strftime", "resize", "to_int", "to_addr", "gsub", "strip", "system", "getenv", "terminate")],
}

FRAMEWORK = {
    "`Log::Stream`, `Log::create_stream(LOG, Log::Stream($columns=Info))`": [
        Refused("Unknown", f"redef enum Log::ID += {{ L }}; global s: {MARK}Log::Stream;"),
        Refused("Unknown", "redef enum Log::ID += { L }; type I: record { a: count &log; }; "
                + body(f"Log::create_stream(L, {MARK}Log::Stream($columns=I));")),
        Says(INFO + "module Mine; event zeek_init() { Log::write(LOG, [$a=1]); }", "", logs={"mine.log": ["1\t0"]})],
    "`local f: Log::Filter = ..; Log::add_filter(HTTP::LOG, f);`": [
        Refused("WrongType", body(f'local f: Log::Filter = [$name="x", $path="y"]; Log::add_filter(HTTP::LOG, {MARK}f);'), DEFAULTS),
        Says(body('Log::add_filter(HTTP::LOG, [$name="x", $path="y", $include=set("uri")]);'), "", DEFAULTS, "web.pcap",
             logs={"y.log": ["/moved"] + 6 * ["/index.html"]})],
    "`Log::get_filter(HTTP::LOG, \"default\")` and a change of it": [
        Refused("Unknown", body(f'local f = {MARK}Log::get_filter(HTTP::LOG, "default");'), DEFAULTS),
        Says(body('Log::add_filter(HTTP::LOG, [$name="default", $path="web"]);'), "", DEFAULTS, "web.pcap", logs={"http.log": []})],
    "`[$name=\"default\", $include=set(\"uri\", \"status_code\")]` (other columns in the same file)": [
        Refused("Twice", body(MARK + 'Log::add_filter(HTTP::LOG, [$name="default", $include=set("uri", "status_code")]);'), DEFAULTS),
        Says(body('Log::add_filter(HTTP::LOG, [$name="default", $path="web", $include=set("uri", "status_code")]);'), "", DEFAULTS,
             "web.pcap", logs={"http.log": [], "web.log": ["/moved\t302"] + 6 * ["/index.html\t200"]})],
    "`Log::disable_stream(HTTP::LOG)`, `Log::remove_stream`": [
        Refused("Unknown", body(f"{MARK}Log::disable_stream(HTTP::LOG);"), DEFAULTS),
        Refused("Unknown", body(f"{MARK}Log::remove_stream(HTTP::LOG);"), DEFAULTS),
        Says(body("print Log::remove_default_filter(HTTP::LOG);"), "T\n", DEFAULTS, "web.pcap")],
    "`Log::flush`, `Log::set_buf`, `Log::enable_stream`, `Log::add_default_filter`, `Log::delay`": [
        *(Refused("Unknown", body(f"{MARK}Log::{name}(HTTP::LOG);"), DEFAULTS)
          for name in ("flush", "set_buf", "enable_stream", "add_default_filter", "delay")),
        Says(body('print Log::add_filter(HTTP::LOG, [$name="default"]);'), "T\n", DEFAULTS)],
    "`global log_policy: Log::PolicyHook;`": [
        Refused("Unknown", f"global log_policy: {MARK}Log::PolicyHook;"),
        Says("redef enum Log::ID += { L }; type Info: record { a: count &log; }; "
             "global log_policy: hook(rec: Info, id: Log::ID, filter: Log::Filter); "
             "hook log_policy(rec: Info, id: Log::ID, filter: Log::Filter) { if (rec$a > 1) break; } "
             + body('Log::create_stream(L, [$columns=Info, $path="mine", $policy=log_policy]); Log::write(L, [$a=1]); Log::write(L, [$a=2]);'),
             "", logs={"mine.log": ["1"]})],
    "`hook HTTP::log_policy(rec, id, filter)`, `Conn::log_policy`, `DNS::log_policy`": [
        *(Refused("Unknown", f"hook {MARK}{name}::log_policy(rec: {name}::Info, id: Log::ID, filter: Log::Filter) {{ break; }}", DEFAULTS)
          for name in ("HTTP", "Conn", "DNS")),
        Says(MY_LOG_HOOK, "/moved\n" + 6 * "/index.html\n", DEFAULTS, "web.pcap")],
    "`hook Log::log_stream_policy(rec, id)`": [
        Refused("Unknown", f"hook {MARK}Log::log_stream_policy(rec: HTTP::Info, id: Log::ID) {{ break; }}", DEFAULTS)],
    "`$pred`, `$path_func`, `$writer`, `$config`, `$interv`, `$postprocessor`, `$field_name_map`": [
        *(Refused("Field", body(f'Log::add_filter(HTTP::LOG, [$name="x", {MARK}${name}=1]);'), DEFAULTS)
          for name in ("pred", "path_func", "writer", "config", "interv", "postprocessor", "field_name_map")),
        Says("hook small(rec: Conn::Info, id: Log::ID, filter: Log::Filter) { if (rec$proto != udp) break; } "
             + body('Log::add_filter(Conn::LOG, [$name="udp", $path="udp", $include=set("uid"), $policy=small]);'), "", DEFAULTS,
             "web.pcap", logs={"udp.log": ["C1", "C2", "C3", "C4"]})],
    "`$path=\"logs/web\"`, `$path=\"Web\"`, `$path=p`, `$name=n`": [
        *(Refused("Format", body(f'Log::add_filter(HTTP::LOG, [$name="x", $path={MARK}"{path}"]);'), DEFAULTS) for path in ("logs/web", "Web")),
        Refused("Format", body(f'local p = "web"; Log::add_filter(HTTP::LOG, [$name="x", $path={MARK}p]);'), DEFAULTS),
        Refused("Format", body(f'local n = "x"; Log::add_filter(HTTP::LOG, [$name={MARK}n]);'), DEFAULTS),
        Says(body('print Log::add_filter(HTTP::LOG, [$name="x", $path="web-2"]);'), "T\n", DEFAULTS)],
    "`$include=columns`": [
        Refused("Format", body(f'local columns = set("uri"); Log::add_filter(HTTP::LOG, [$name="x", $path="y", $include={MARK}columns]);'), DEFAULTS),
        Says(body('print Log::add_filter(HTTP::LOG, [$name="x", $path="y", $include=set("uri")]);'), "T\n", DEFAULTS)],
    "`Log::write(id, rec)` by a variable `id`": [
        Refused("WrongType", INFO + "module Mine; function w(id: Log::ID, rec: Info) { Log::write(" + MARK + "id, rec); }"),
        Says(INFO + "module Mine; function w(rec: Info) { Log::write(LOG, rec); } event zeek_init() { w([$a=1]); }", "",
             logs={"mine.log": ["1\t0"]})],
    "`redef Log::default_rotation_interval`, `Log::default_writer`, `LogAscii::use_json`, `LogAscii::output_to_stdout`": [
        *(Refused("Unknown", f"redef {MARK}{name} = T;")
          for name in ("Log::default_rotation_interval", "Log::default_writer", "LogAscii::use_json", "LogAscii::output_to_stdout"))],
}

RECORDS = {
    "`c$conn`, `c$conn$conn_state`": [
        Refused("Field", f"event connection_state_remove(c: connection) {{ print {MARK}c$conn$conn_state; }}", DEFAULTS),
        Says("event connection_state_remove(c: connection) { if (c$proto == tcp) print c$conn_state, c$missed_bytes; }",
             "SF, 0\nREJ, 0\nSF, 0\n", DEFAULTS, "web.pcap")],
    "`c$conn$mine = ..;` for a column of one's own": [
        Refused("Field", "redef record Conn::Info += { mine: string &log &default=\"\"; }; event connection_state_remove(c: connection) "
                f"&priority=5 {{ {MARK}c$conn$mine = \"x\"; }}", DEFAULTS),
        Says("redef record Conn::Info += { mine: string &log &default=\"\"; }; "
             "hook fill(rec: Conn::Info, id: Log::ID, filter: Log::Filter) { rec$mine = \"x\"; } "
             'event zeek_init() { Log::add_filter(Conn::LOG, [$name="default", $policy=fill]); } '
             "event Conn::log_conn(rec: Conn::Info) { print rec$mine; }", "x\n" * 7, DEFAULTS, "web.pcap")],
    "`c$service`": [
        Refused("Field", f"event connection_state_remove(c: connection) {{ print |{MARK}c$service|; }}", DEFAULTS),
        Says("event connection_state_remove(c: connection) { if (c?$http) print c$uid; }", "C5\nC7\n", DEFAULTS, "web.pcap")],
    "`c$tunnel`, `c$vlan`, `c$ssl` and others": [
        *(Refused("Field", f"event new_connection(c: connection) {{ print {MARK}c${name}; }}", DEFAULTS) for name in ("tunnel", "vlan", "ssl"))],
    "`c$http$host`, `c$http$uri`": [
        *(Refused("Field", "event http_reply(c: connection, version: string, code: count, reason: string) "
                  f"{{ print {MARK}c$http${name}; }}", DEFAULTS) for name in ("host", "uri")),
        Says("event http_reply(c: connection, version: string, code: count, reason: string) "
             "{ print c$http$pending[c$http$told]$uri; } "
             "event http_request(c: connection, method: string, original_URI: string, unescaped_URI: string, version: string) "
             "{ if (c$http$pending[c$http$asked]$uri != original_URI) print original_URI; }", "/moved\n" + 6 * "/index.html\n", DEFAULTS, "web.pcap")],
    "`c$http$mine = ..;` for a column of one's own": [
        Refused("Field", "redef record HTTP::Info += { mine: string &log &default=\"\"; }; "
                f"event http_reply(c: connection, version: string, code: count, reason: string) {{ {MARK}c$http$mine = reason; }}", DEFAULTS),
        Says("redef record HTTP::Info += { mine: string &log &default=\"\"; }; "
             "event http_reply(c: connection, version: string, code: count, reason: string) "
             "{ c$http$pending[c$http$told]$mine = reason; } event HTTP::log_http(rec: HTTP::Info) { print rec$mine; }",
             "Moved Temporarily\n" + 6 * "OK\n", DEFAULTS, "web.pcap")],
    "`c$dns$query`": [
        Refused("WrongType", f"event dns_end(c: connection, msg: dns_msg) {{ print {MARK}c$dns$query; }}", DEFAULTS),
        Says("event dns_end(c: connection, msg: dns_msg) { if (msg$QR) print c$dns[msg$id]$query; }",
             "a.example\nh.example\nh.example\nalias.example\n", DEFAULTS, "web.pcap")],
    "`c$id$proto`, `c$orig$state`": [
        Refused("Field", f"event new_connection(c: connection) {{ print {MARK}c$id$proto; }}"),
        Refused("Field", f"event new_connection(c: connection) {{ print {MARK}c$orig$state; }}"),
        Says("event connection_state_remove(c: connection) { if (c$proto == tcp) print c$history; }", "ShADadFf\nSr\nShADaFdf\n",
             capture="web.pcap")],
    "`c$orig$size` that isn't known": [
        Refused("NoField", f"event connection_state_remove(c: connection) {{ if (c$uid == \"C6\") {MARK}print c$resp$size; }}", ("-b",), "web.pcap"),
        Says("event connection_state_remove(c: connection) { if (c$proto == tcp) print c$orig?$size, c$resp?$size ? cat(c$resp$size) : \"-\"; }",
             "T, 587\nT, -\nT, 1200\n", capture="web.pcap")],
    "`rec$service`, `rec$qtype_name`, `rec$rtt`, `rec$referrer`, `DNS::query_types`": [
        Refused("Field", f"event Conn::log_conn(rec: Conn::Info) {{ print {MARK}rec$service; }}", DEFAULTS),
        Refused("Field", f"event DNS::log_dns(rec: DNS::Info) {{ print {MARK}rec$qtype_name; }}", DEFAULTS),
        Refused("Field", f"event DNS::log_dns(rec: DNS::Info) {{ print {MARK}rec$rtt; }}", DEFAULTS),
        Refused("Field", f"event HTTP::log_http(rec: HTTP::Info) {{ print {MARK}rec$referrer; }}", DEFAULTS),
        Refused("Unknown", body(f"print {MARK}DNS::query_types[1];"), DEFAULTS),
        Says("event DNS::log_dns(rec: DNS::Info) { if (rec?$qtype && rec$qtype == 28) print rec$query; }", "h.example\n", DEFAULTS, "web.pcap")],
    "`msg$Z`, `ans$answer_type`, `stat$interrupted`": [
        Refused("Field", f"event dns_end(c: connection, msg: dns_msg) {{ print {MARK}msg$Z; }}"),
        Refused("Field", f"event dns_unknown_reply(c: connection, msg: dns_msg, ans: dns_answer) {{ print {MARK}ans$answer_type; }}"),
        Refused("Field", f"event http_message_done(c: connection, is_orig: bool, stat: http_message_stat) {{ print {MARK}stat$interrupted; }}")],
    "`redef record connection += { mine: count; };`": [
        Refused("Field", f"redef record connection += {{ {MARK}mine: count; }};"),
        Says("redef record connection += { mine: count &default=5; yours: count &optional; }; event new_connection(c: connection) { if (c$uid == \"C1\") print c$mine; }",
             "5\n", capture="web.pcap")],
    "`redef record HTTP::Info += ..` under `-b`": [
        Refused("Unknown", f"redef record {MARK}HTTP::Info += {{ mine: string &log &optional; }};"),
        Says("redef record HTTP::Info += { mine: string &log &default=\"x\"; }; event zeek_init() "
             '{ Log::add_filter(HTTP::LOG, [$name="default", $path="web", $include=set("uri", "mine")]); }', "", DEFAULTS, "web.pcap",
             logs={"web.log": ["/moved\tx"] + 6 * ["/index.html\tx"]})],
}

ROWS = {**COMMANDS, **LOADS, **EVENTS, **TYPES, **ATTRIBUTES, **OPERATORS, **STATEMENTS, **FUNCTIONS, **FRAMEWORK, **RECORDS}


# The rows of the default logs, short.
TOLD = """event Conn::log_conn(rec: Conn::Info) {
    print "conn", rec$uid, rec$conn_state, rec?$orig_bytes ? cat(rec$orig_bytes) : "-", rec?$resp_bytes ? cat(rec$resp_bytes) : "-",
        rec$missed_bytes;
}
event HTTP::log_http(rec: HTTP::Info) {
    print "http", rec$uid, rec$method, rec$uri, rec?$status_code ? cat(rec$status_code) : "-", rec$response_body_len;
}
event DNS::log_dns(rec: DNS::Info) { print "dns", rec$uid, rec?$query ? rec$query : "-", rec?$answers ? |rec$answers| : 0; }
event http_violation(c: connection, is_orig: bool, reason: count) { print "http_violation", is_orig, reason; }
event dns_violation(c: connection, is_orig: bool, fault: count) { print "dns_violation", is_orig, fault; }
"""
DNS_SERVER = (SERVER[0], 53)
OTHER_SERVER = (SERVER[0], 8081)
ICMP = ipv4(1, CLIENT[0], SERVER[0], bytes([8, 0, 0, 0, 0, 1, 0, 1]))
IPV6 = bytes([0x60, 0, 0, 0, 0, 0, 59, 64]) + bytes(32)


def asked(request, answer=b"", **words):
    return capture(*conversation(10, request, answer, **words))


# What the points of docs/ZEEK.md that stand outside of its tables speak of, by how they begin.
POINTS = {
    "**A log of an earlier run stays": [
        Says("", "", DEFAULTS, "none.pcap", files={"conn.log": "an earlier row\n"}, logs={"conn.log": ["an earlier row"]})],
    "Names under `base/` are passed over": [
        Refused("Unknown", body(f"print {MARK}Conn::LOG;")), Says("@load base/nosuch\n" + body("print Conn::LOG;"), "Conn::LOG\n", DEFAULTS)],
    "A file is loaded once, by its spelling": [
        Says("@load a.zeek\n@load ./a.zeek\n@load a.zeek\n", "1\n1\n", files={"a.zeek": body("print 1;")})],
    "A container walks in the order of insertion": [
        Says(body("local s = set(3, 1, 2); for (x in s) { print x; delete s[1]; add s[5]; } print |s|;"), "3\n2\n3\n")],
    "A string has at most 1,048,576 bytes": [
        Refused("TooLong", body(f'local s = "x"; while (|s| < 2000000) {MARK}s += s;'))],
    "`uid` is `C` and the number": [over(asked(REQUEST, ANSWER), "conn, C1, SF, 18, 40, 0\n", "".join(TOLD.split("event HTTP")[:1]))],
    "Each byte from 0x7f on is escaped": [
        Says(INFO.replace("a: count", "a: string") + 'module Mine; event zeek_init() { Log::write(LOG, [$a="\u00e9"]); Log::write(LOG, [$a="#"]); }',
             "", logs={"mine.log": ["\\xc3\\xa9\t0", "\\x23\t0"]})],
    "`duration` is always there": [
        over(capture((10, udp(CLIENT, (SERVER[0], 9), b"x"))), "0.000000\n", "event Conn::log_conn(rec: Conn::Info) { print rec$duration; }")],
    "`history` has the letters": [
        over(capture(*conversation(10), *conversation(11)), "ShADdFf\n", "event Conn::log_conn(rec: Conn::Info) { print rec$history; }")],
    "Lengths of bodies in http.log": [
        over(asked(REQUEST, ANSWER.replace(b": 2", b": 9")), "http, C1, GET, /, 200, 0\nconn, C1, SF, 18, 40, 0\n", TOLD)],
    "A query's columns in dns.log": [
        over(capture((10, udp(CLIENT, DNS_SERVER, b"")), (11, udp(DNS_SERVER, CLIENT, dns_answer()))),
             "dns_violation, T, 1\ndns, C1, -, 1\nconn, C1, SF, 0, 37, 0\n", TOLD)],
    "**IPv4 with TCP or UDP alone is read.**": [over(capture((10, ICMP), (11, IPV6)), "", TOLD)],
    "**A packet with a wrong checksum is passed over": [
        over(asked(REQUEST, ANSWER), "", TOLD, ()),
        over(asked(REQUEST, ANSWER), "http, C1, GET, /, 200, 2\nconn, C1, SF, 18, 40, 0\n", TOLD)],
    "**What a connection speaks its port says**": [
        over(asked(REQUEST, ANSWER, server=OTHER_SERVER), "conn, C1, SF, 18, 40, 0\n", TOLD)],
    "**A connection is removed**": [
        over(capture(*conversation(10), *conversation(15.08)),
             "http, C1, GET, /, 200, 2\nconn, C1, SF, 18, 40, 0\nhttp, C2, GET, /, 200, 2\nconn, C2, SF, 18, 40, 0\n", TOLD)],
    "**The originator is who sent the first packet**": [
        over(capture((10, udp(DNS_SERVER, CLIENT, dns_answer()))), "53/udp, 40000/udp\nconn, C1, S0, 37, -, 0\n",
             TOLD + "event new_connection(c: connection) { print c$id$orig_p, c$id$resp_p; }"),
        over(capture(*conversation(10)[1:]), "40000/tcp, 80/tcp\nconn, C1, SHR, -, 40, 0\n",
             TOLD + "event new_connection(c: connection) { print c$id$orig_p, c$id$resp_p; }")],
    "**A second connection of the same ends within these 5 seconds": [
        over(capture(*conversation(10), *conversation(12, number=70_000)), "http, C1, GET, /, 200, 2\nconn, C1, SF, 18, 40, 0\n", TOLD)],
    "**The base of a stream is the first SYN of its side**": [
        over(capture((10, tcp(CLIENT, SERVER, 1000, 0, SYN)), *conversation(13, number=501_000)),
             "http_violation, T, 8\nconn, C1, SF, 500018, 40, 500000\n", TOLD)],
    "**A TCP connection without its SYNs**": [
        over(capture(*conversation(10)[2:]), "conn, C1, OTH, -, -, 0\n", TOLD)],
    "**Of overlapping fragments, and of bytes that are sent twice": [
        over(capture(*conversation(10, ends=False, answer=b"")[:-1], (11, tcp(CLIENT, SERVER, 1003, 5001, ACK, b"T / HTTP/1.1\r\n\r\n")),
                     (12, tcp(CLIENT, SERVER, 1001, 5001, ACK, b"GEX"))), "http, C1, GET, /, -, 0\nconn, C1, S1, 18, 0, 0\n", TOLD)],
    "**A response is read only behind its request**": [
        over(asked(b"", ANSWER), "conn, C1, SF, 0, 40, 0\n", TOLD),
        over(asked(b"\r\nget / HTTP/1.1\r\n\r\n", ANSWER), "http, C1, get, /, 200, 2\nconn, C1, SF, 20, 40, 0\n", TOLD),
        over(asked(b"GET / HTTP/1.1\r\nA: b\r\n c\r\n\r\n"), "http_violation, T, 2\nconn, C1, SF, 28, 0, 0\n", TOLD)],
    "**The target of a request is UTF-8.**": [
        over(asked(b"GET /\xe9 HTTP/1.1\r\n\r\n"), "http_violation, T, 2\nconn, C1, SF, 19, 0, 0\n", TOLD),
        over(asked(b"GET /\xc3\xa9 HTTP/1.1\r\n\r\n"), "http, C1, GET, /\u00e9, -, 0\nconn, C1, SF, 20, 0, 0\n", TOLD)],
    "**A message of DNS is all of the bytes that carry it**": [
        over(capture((10, udp(CLIENT, DNS_SERVER, dns_answer(b"x")))), "dns_violation, T, 6\nconn, C1, S0, 38, -, 0\n", TOLD)],
    "**Each scheduled event runs at its own due moment": [
        over(capture((10, udp(CLIENT, SERVER, b"x")), (30, udp(CLIENT, SERVER, b"x"))), "11.000000\n12.500000, 10.0.0.1\n",
             "event later() { print network_time(); } function gone(s: set[addr], a: addr): interval { print network_time(), a; return 0 sec; } "
             "global s: set[addr] &create_expire=2500 msec &expire_func=gone; "
             "event new_connection(c: connection) { schedule 1 sec { later() }; add s[c$id$orig_h]; }")],
    "Behind the last packet no entry expires.": [
        over(capture((10, udp(CLIENT, SERVER, b"x"))), "later, 10.000000\ndone, 10.000000, 1\n",
             'event later() { print "later", network_time(); schedule 1 sec { later() }; } global s: set[addr] &create_expire=1 sec; '
             "event new_connection(c: connection) { schedule 60 sec { later() }; add s[c$id$orig_h]; } "
             'event zeek_done() { print "done", network_time(), |s|; }')],
}
