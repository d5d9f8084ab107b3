# The name of the server as a column of http.log. The default script keeps the rows that wait in c$http$pending, by the
# number of their request; c$http$told is the number of the response that is being read.
redef record HTTP::Info += {
    server: string &log &optional;
};

event http_header(c: connection, is_orig: bool, original_name: string, name: string, value: string) {
    if (is_orig || name != "SERVER" || c$http$interim) return;
    c$http$pending[c$http$told]$server = value;
}
