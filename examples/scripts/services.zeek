# Records with sets in them, a function that takes one, and a table of records. A local of a record type has no value
# before one is given to it, so each begins as a constructor.
type Service: record {
    name: string;
    ports: set[port];
    rfc: count &optional;
};

global services: table[string] of Service;

function describe(service: Service): string {
    local known = service?$rfc ? fmt("RFC %d", service$rfc) : "no RFC";
    return fmt("%s (%s) has %d ports", service$name, known, |service$ports|);
}

event zeek_init() {
    local dns = Service($name="dns", $ports=set(53/udp, 53/tcp), $rfc=1035);
    local web: Service = [$name="web", $ports=set(80/tcp)];
    services[dns$name] = dns;
    services[web$name] = web;

    # A record is handed on by reference: the table's web is the same one.
    web$rfc = 9110;
    add web$ports[8080/tcp];
    services["own"] = Service($name="own");

    for (name, service in services) {
        print describe(service);
        for (p in service$ports) print fmt("  %s", p);
    }
    delete services["own"];
    print "own" in services, |services|;
}
