# Answers of DNS that don't match what was asked: a response without a query of its number, and a record of another name
# than was asked for or than its aliases lead to.
# zeekoff run -b -r FILE mismatched.zeek
redef record connection += { names: table[count] of set[string]; };

event dns_request(c: connection, msg: dns_msg, query: string, qtype: count, qclass: count) {
    if (msg$id !in c$names) c$names[msg$id] = set();
    add c$names[msg$id][query];
}

event dns_message(c: connection, is_orig: bool, msg: dns_msg, len: count) {
    if (msg$QR && msg$id !in c$names) print network_time(), c$uid, fmt("response %d without a query", msg$id);
}

function judge(c: connection, msg: dns_msg, ans: dns_answer, what: string) {
    if (msg$id in c$names && ans$query !in c$names[msg$id]) print network_time(), c$uid, fmt("%s is %s", ans$query, what);
}

event dns_CNAME_reply(c: connection, msg: dns_msg, ans: dns_answer, name: string) {
    judge(c, msg, ans, name);
    if (msg$id in c$names && ans$query in c$names[msg$id]) add c$names[msg$id][name];
}

event dns_A_reply(c: connection, msg: dns_msg, ans: dns_answer, a: addr) { judge(c, msg, ans, cat(a)); }

event dns_AAAA_reply(c: connection, msg: dns_msg, ans: dns_answer, a: addr) { judge(c, msg, ans, cat(a)); }
