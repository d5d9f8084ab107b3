# Which hosts spoke to an address that no answer of DNS had given them before, each pair once.
# zeekoff run -b -r FILE unasked.zeek
global known: set[addr, addr];

event dns_A_reply(c: connection, msg: dns_msg, ans: dns_answer, a: addr) {
    add known[c$id$orig_h, a];
}

event new_connection(c: connection) {
    if (c$id$resp_p == 53/udp || c$id$resp_p == 53/tcp || [c$id$orig_h, c$id$resp_h] in known) return;
    print c$start_time, c$uid, c$id$orig_h, c$id$resp_h, c$id$resp_p;
    add known[c$id$orig_h, c$id$resp_h];
}
