# Counts the connections to each port, and forgets a port once no connection began for a while; what is forgotten is told.
function forgotten(counts: table[port] of count, p: port): interval {
    print network_time(), fmt("no more connections to %s, %d so far", p, counts[p]);
    return 0 sec;
}

global counts: table[port] of count &default=0 &write_expire=300 msec &expire_func=forgotten;

event new_connection(c: connection) {
    counts[c$id$resp_p] += 1;
}

event zeek_done() {
    for (p, n in counts) print fmt("%s is left, %d so far", p, n);
}
