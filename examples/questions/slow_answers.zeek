# Which answers came late: of DNS from the query to its response, of HTTP from the head of a request to that of its response.
# zeekoff run -b -r FILE slow_answers.zeek
const slow = 400 msec &redef;

redef record connection += { queries: table[count] of time; };
redef record connection += { targets: vector of string; requests: vector of time; answered: count &default=0; };

function judge(c: connection, what: string, since: time) {
    if (network_time() - since >= slow) print since, c$uid, c$id$resp_h, what, network_time() - since;
}

event dns_request(c: connection, msg: dns_msg, query: string, qtype: count, qclass: count) {
    if (msg$id !in c$queries) c$queries[msg$id] = network_time();
}

event dns_end(c: connection, msg: dns_msg) {
    if (msg$QR && msg$id in c$queries) judge(c, fmt("DNS %d", msg$id), c$queries[msg$id]);
    if (msg$QR) delete c$queries[msg$id];
}

event http_request(c: connection, method: string, original_URI: string, unescaped_URI: string, version: string) {
    c$targets += original_URI;
    c$requests += network_time();
}

event http_reply(c: connection, version: string, code: count, reason: string) {
    if (code < 200 && code != 101) return;
    judge(c, c$targets[c$answered], c$requests[c$answered]);
    ++c$answered;
}
