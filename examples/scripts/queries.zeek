# Which names were asked for, by whom, and which addresses they have.
global asked: table[string] of set[addr];
global addresses: table[string] of vector of addr;

event dns_request(c: connection, msg: dns_msg, query: string, qtype: count, qclass: count) {
    if (query !in asked) asked[query] = set();
    add asked[query][c$id$orig_h];
}

event dns_A_reply(c: connection, msg: dns_msg, ans: dns_answer, a: addr) {
    if (ans$query !in addresses) addresses[ans$query] = vector();
    addresses[ans$query] += a;
}

event zeek_done() {
    for (query, hosts in asked) print fmt("%s: asked for by %d", query, |hosts|);
    for (name, known in addresses) {
        for (i in known) print fmt("%s: address %d of %d is %s", name, i + 1, |known|, known[i]);
    }
}
