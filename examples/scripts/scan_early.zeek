# scan.zeek, told after three ports. A file is looked for from the folder in which zeekoff runs, so run this one in its own.
@load scan.zeek

redef Scan::threshold = 3;

event Scan::port_scan(host: addr, victim: addr, ports: count) &priority=-5 {
    for (p in Scan::tried_ports(host, victim)) print p;
}

module Scan;

export {
    global tried_ports: function(host: addr, victim: addr): set[port];
}

function tried_ports(host: addr, victim: addr): set[port] {
    return tried[host, victim];
}
