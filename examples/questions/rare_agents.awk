# Which programs speak HTTP, by the name that they give themselves, and on how many hosts: the rarest first behind `sort -n`.
# awk -f rare_agents.awk http.log | sort -n
BEGIN { FS = OFS = "\t" }
$1 == "#fields" { for (i = 2; i <= NF; i++) at[$i] = i - 1 }
/^#/ { next }
!(($at["user_agent"], $at["id.orig_h"]) in seen) {
    seen[$at["user_agent"], $at["id.orig_h"]]
    hosts[$at["user_agent"]]++
}
END { for (agent in hosts) print hosts[agent], agent }
