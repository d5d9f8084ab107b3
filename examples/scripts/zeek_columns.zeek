# The columns that tools for Zeek's logs look for beside those of the default scripts, with Zeek's names and values. They
# stand behind the others: tools find a column by its name in #fields.
redef record Conn::Info += { service: string &log &optional; };
redef record DNS::Info += {
    rtt: interval &log &optional;
    qclass_name: string &log &optional;
    qtype_name: string &log &optional;
    rcode_name: string &log &optional;
    rejected: bool &log &default=F;
};
redef record HTTP::Info += {
    referrer: string &log &optional;
    origin: string &log &optional;
    info_code: count &log &optional;
    info_msg: string &log &optional;
    proxied: set[string] &log &optional;
};

const qclass_names: table[count] of string = { [1] = "C_INTERNET", [3] = "C_CHAOS", [4] = "C_HESOD", [255] = "C_ANY" };
const qtype_names: table[count] of string = {
    [1] = "A", [2] = "NS", [5] = "CNAME", [6] = "SOA", [10] = "NULL", [12] = "PTR", [13] = "HINFO", [15] = "MX", [16] = "TXT",
    [28] = "AAAA", [29] = "LOC", [33] = "SRV", [35] = "NAPTR", [39] = "DNAME", [41] = "EDNS", [43] = "DS", [44] = "SSHFP",
    [46] = "RRSIG", [47] = "NSEC", [48] = "DNSKEY", [50] = "NSEC3", [52] = "TLSA", [64] = "SVCB", [65] = "HTTPS", [99] = "SPF",
    [251] = "IXFR", [252] = "AXFR", [255] = "*", [257] = "CAA"
};
const rcode_names: table[count] of string = {
    [0] = "NOERROR", [1] = "FORMERR", [2] = "SERVFAIL", [3] = "NXDOMAIN", [4] = "NOTIMP", [5] = "REFUSED", [6] = "YXDOMAIN",
    [7] = "YXRRSET", [8] = "NXRRSet", [9] = "NOTAUTH", [10] = "NOTZONE"
};
const proxy_headers: set[string] = { "FORWARDED", "X-FORWARDED-FOR", "X-FORWARDED-FROM", "CLIENT-IP", "VIA",
    "XROXY-CONNECTION", "PROXY-CONNECTION" };

# What each live connection was heard to speak, by its uid.
global spoken: table[string] of string;

event dns_message(c: connection, is_orig: bool, msg: dns_msg, len: count) { spoken[c$uid] = "dns"; }

event http_request(c: connection, method: string, original_URI: string, unescaped_URI: string, version: string) {
    spoken[c$uid] = "http";
}

hook conn_columns(rec: Conn::Info, id: Log::ID, filter: Log::Filter) {
    if (rec$uid in spoken) rec$service = spoken[rec$uid];
}

# Behind the handler that writes conn.log.
event connection_state_remove(c: connection) &priority=-10 { delete spoken[c$uid]; }

function name_of(names: table[count] of string, number: count, prefix: string): string {
    return number in names ? names[number] : fmt("%s-%d", prefix, number);
}

hook dns_columns(rec: DNS::Info, id: Log::ID, filter: Log::Filter) {
    if (rec?$qclass) rec$qclass_name = name_of(qclass_names, rec$qclass, "qclass");
    if (rec?$qtype) rec$qtype_name = name_of(qtype_names, rec$qtype, "query");
    if (!rec?$rcode) return;
    rec$rcode_name = name_of(rcode_names, rec$rcode, "rcode");
    if (rec?$query) rec$rtt = network_time() - rec$ts;
}

# A response that answers a query and has no records.
event dns_end(c: connection, msg: dns_msg) {
    if (msg$QR && msg$id in c$dns && msg$num_queries > 0 && msg$num_answers + msg$num_auth + msg$num_addl == 0)
        c$dns[msg$id]$rejected = T;
}

event http_header(c: connection, is_orig: bool, original_name: string, name: string, value: string) {
    if (!is_orig) return;
    local rec = c$http$pending[c$http$asked];
    if (name == "REFERER") rec$referrer = value;
    if (name == "ORIGIN") rec$origin = value;
    if (name !in proxy_headers) return;
    if (!rec?$proxied) rec$proxied = set();
    add rec$proxied[fmt("%s -> %s", name, value)];
}

# An interim response comes before the one that answers.
event http_reply(c: connection, version: string, code: count, reason: string) {
    if (code < 100 || code > 199) return;
    local rec = c$http$pending[c$http$interim ? c$http$told + 1 : c$http$told];
    rec$info_code = code;
    rec$info_msg = reason;
}

event zeek_init() {
    Log::add_filter(Conn::LOG, [$name="default", $policy=conn_columns]);
    Log::add_filter(DNS::LOG, [$name="default", $policy=dns_columns]);
}
