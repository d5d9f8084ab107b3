# A log of its own: a row for each body that a server sent, with the URI that was asked for. The policy
# hook leaves out what is small; another script can redef Downloads::least, or break in the hook too.
module Downloads;

export {
    redef enum Log::ID += { LOG };

    type Info: record {
        ts: time &log;
        uid: string &log;
        id: conn_id &log;
        uri: string &log;
        status: count &log;
        bytes: count &log;
        missed: count &log;
    };

    const least = 100 &redef;
    global log_download: event(rec: Info);
    global is_wanted: hook(rec: Info, id: Log::ID, filter: Log::Filter);
}

# What was asked for on a connection, in order, and how many of these were answered.
redef record connection += {
    asked: vector of string;
    answered: count &default=0;
    status: count &default=0;
};

event zeek_init() {
    Log::create_stream(LOG, [$columns=Info, $ev=log_download, $path="downloads", $policy=is_wanted]);
}

hook is_wanted(rec: Info, id: Log::ID, filter: Log::Filter) {
    if (rec$bytes < least) break;
}

event http_request(c: connection, method: string, original_URI: string, unescaped_URI: string, version: string) {
    c$asked += unescaped_URI;
}

event http_reply(c: connection, version: string, code: count, reason: string) {
    c$status = code;
}

event http_message_done(c: connection, is_orig: bool, stat: http_message_stat) {
    if (is_orig || c$status < 200) return;
    local uri = c$answered < |c$asked| ? c$asked[c$answered] : "unknown";
    ++c$answered;
    Log::write(LOG, Info($ts=network_time(), $uid=c$uid, $id=c$id, $uri=uri, $status=c$status,
        $bytes=stat$body_length, $missed=stat$content_gap_length));
}
