# The instructions of each task, from callgrind's dumps: a dump has the name that bench.c gave it, and later the sum.
BEGIN { FS = "\t" }
sub(/^desc: Trigger: Client Request: /, "") { name = $1 FS $2 FS $3 FS $4; times = $5 }
/^(totals|summary): / && name != "" {
    split($0, sum, " ")
    printf "count\t%s\t%.0f\n", name, sum[2] / times
    name = ""
}
