# Which host sent the most bytes of payload. Once a minute of network time, and at the end, a line says
# the busiest of those that are remembered: each is, until ten minutes after its last connection was over.
module Talkers;

global sent: table[addr] of count = table() &default=0 &write_expire=10 min;
global is_reporting = F;

function busiest(): string {
    local name = "none";
    local most = 0;
    for (host, bytes in sent) {
        if (bytes > most) {
            most = bytes;
            name = cat(host);
        }
    }
    return fmt("%s sent %d bytes (of %d hosts)", name, most, |sent|);
}

event report() {
    print network_time(), busiest();
    schedule 1 min { report() };
}

# The clock of a capture begins with its first packet, so that is when the first minute begins.
event new_connection(c: connection) {
    if (!is_reporting) {
        is_reporting = T;
        schedule 1 min { report() };
    }
}

event connection_state_remove(c: connection) {
    if (c$orig?$size) sent[c$id$orig_h] += c$orig$size;
    if (c$resp?$size) sent[c$id$resp_h] += c$resp$size;
}
