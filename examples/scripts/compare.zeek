# A line for each connection, request, response and message of DNS, without times and numbers, so that what two captures
# say of the same traffic can be sorted and compared.
redef record connection += {
    missed: count &default=0;
};

function ends(c: connection): string {
    return fmt("%s:%s > %s:%s", c$id$orig_h, c$id$orig_p, c$id$resp_h, c$id$resp_p);
}

function size(side: endpoint): string {
    return side?$size ? cat(side$size) : "unknown";
}

event content_gap(c: connection, is_orig: bool, seq: count, length: count) {
    c$missed += length;
}

event connection_state_remove(c: connection) {
    print ends(c), c$conn_state, size(c$orig), size(c$resp), fmt("%d missed", c$missed);
}

event http_request(c: connection, method: string, original_URI: string, unescaped_URI: string, version: string) {
    print ends(c), method, original_URI;
}

event http_reply(c: connection, version: string, code: count, reason: string) {
    print ends(c), code;
}

event http_message_done(c: connection, is_orig: bool, stat: http_message_stat) {
    print ends(c), is_orig ? "request" : "response", fmt("%d bytes", stat$body_length);
}

event dns_request(c: connection, msg: dns_msg, query: string, qtype: count, qclass: count) {
    print ends(c), "query", msg$id, query, qtype;
}

event dns_end(c: connection, msg: dns_msg) {
    if (msg$QR) print ends(c), "response", msg$id, msg$rcode, fmt("%d answers", msg$num_answers);
}
