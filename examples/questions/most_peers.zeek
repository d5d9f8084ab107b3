# To how many others each host began connections, the most first behind `sort -nr`.
# zeekoff run -b -r FILE most_peers.zeek | sort -nr
global peers: table[addr] of set[addr];

event new_connection(c: connection) {
    if (c$id$orig_h !in peers) peers[c$id$orig_h] = set();
    add peers[c$id$orig_h][c$id$resp_h];
}

event zeek_done() {
    for (host, others in peers) print fmt("%d %s", |others|, host);
}
