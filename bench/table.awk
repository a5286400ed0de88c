# From the bars and the times of the comparing program a line for each workload.
BEGIN { printf "%-32s %9s %9s %9s %10s %8s  %s\n", "workload (ns an item)", "ours", "obvious", "fast", "x obvious", "x fast", "bar" }
/^#/ { next }
FNR == NR { n = split($0, b, "|"); most[b[1]] = b[2]; of[b[1]] = b[3]; next }
{
    name = $0; sub(/ +(obvious|fast|ruphenqo) +[0-9].*/, "", name)
    rest = substr($0, length(name) + 1); split(rest, f, " ")
    t[f[1]] = f[4]
    if (f[1] == "ruphenqo") {
        o = t["ruphenqo"] / t["obvious"]; x = t["ruphenqo"] / t["fast"]
        met = (of[name] == "fast" ? x : o) <= most[name] ? "met" : "NOT MET"
        printf "%-32s %9.3f %9.3f %9.3f %10.2f %8.2f  %s x %s: %s\n", name, t["ruphenqo"], t["obvious"], t["fast"], o, x, most[name], of[name], met
    }
}
