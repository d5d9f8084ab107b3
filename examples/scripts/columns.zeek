# One more column in conn.log, filled by a policy hook before its row is written, and a second log with few columns of
# the web's connections alone.
redef record Conn::Info += {
    service: string &log &optional;
};

hook names_service(rec: Conn::Info, id: Log::ID, filter: Log::Filter) {
    if (rec$id$resp_p == 53/udp || rec$id$resp_p == 53/tcp) rec$service = "dns";
    if (rec$id$resp_p == 80/tcp || rec$id$resp_p == 8080/tcp) rec$service = "http";
    if (filter$name == "web" && (!rec?$service || rec$service != "http")) break;
}

event zeek_init() {
    Log::add_filter(Conn::LOG, [$name="default", $policy=names_service]);
    Log::add_filter(Conn::LOG, [$name="web", $path="web", $policy=names_service,
        $include=set("ts", "id.resp_p", "orig_bytes", "resp_bytes", "service")]);
}
