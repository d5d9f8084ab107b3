# Hosts that tried many ports of one host which were refused or not answered. Another script may redef the threshold
# (scan_early.zeek does) or handle the event.
module Scan;

export {
    const threshold = 5 &redef;
    const quiet_states: set[string] = { "REJ", "S0" } &redef;
    global port_scan: event(host: addr, victim: addr, ports: count);
}

global tried: table[addr, addr] of set[port] &create_expire=5 min;

event connection_state_remove(c: connection) {
    if (c$conn_state !in quiet_states) return;
    local host = c$id$orig_h;
    local victim = c$id$resp_h;
    if ([host, victim] !in tried) tried[host, victim] = set();
    add tried[host, victim][c$id$resp_p];
    if (|tried[host, victim]| == threshold)
        event Scan::port_scan(host, victim, threshold);
}

event Scan::port_scan(host: addr, victim: addr, ports: count) {
    print fmt("%s tried %d ports of %s", host, ports, victim);
}
