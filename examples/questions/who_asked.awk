# Who asked for a name, or one below it, when, and what came back.
# awk -v name=shop.example -f who_asked.awk dns.log
BEGIN { FS = OFS = "\t" }
$1 == "#fields" { for (i = 2; i <= NF; i++) at[$i] = i - 1 }
/^#/ { next }
{ query = "." $at["query"] }
substr(query, length(query) - length(name)) == "." name {
    print $at["ts"], $at["id.orig_h"], $at["query"], $at["qtype"], $at["rcode"], $at["answers"]
}
