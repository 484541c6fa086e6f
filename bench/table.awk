# The tables of bench/table, of lines with a pass, a workload, the threads, the cache, who did it, the
# nanoseconds, and how many of 1,000 elements were refused. `table` is which, and `threads` the numbers
# of threads that were asked for. The status is 1 where a figure isn't there that has to be; whether the
# library and the Rattle program ran is told by the lines themselves.

{
    key = $2 " " $3 " " $4 " " $5
    if (!((key, $1) in by_pass))
        ns[key, count[key]++] = $6
    by_pass[key, $1] = $6
    refused[key] += $7
    is_there[$5] = 1
    if ($1 > passes)
        passes = $1
}

# ---- figures ----

function sort_list(n,    i, k, held) {
    for (i = 1; i < n; i++) {
        held = list[i]
        for (k = i; k > 0 && list[k - 1] > held; k--)
            list[k] = list[k - 1]
        list[k] = held
    }
}

function sorted(key,    i) {
    for (i = 0; i < count[key]; i++)
        list[i] = ns[key, i] + 0
    sort_list(count[key])
    return count[key]
}

function number(value) { return sprintf(value < 0.995 ? "%.2f" : "%.1f", value) }

function lacks(key) {
    if (count[key] > 0 && sorted(key) && list[0] > 0)
        return 0
    print "bench/table: no figure for " key > "/dev/stderr"
    is_missing = 1
    return 1
}

# The median, and with the least behind it in brackets.
function median(key) { return lacks(key) ? "?" : number(list[int(count[key] / 2)]) }
function with_least(key) { return lacks(key) ? "?" : number(list[int(count[key] / 2)]) " (" number(list[0]) ")" }

# The median with how many of 1,000 elements were refused, where that is one or more.
function with_refused(key,    each) {
    if (lacks(key))
        return "?"
    each = refused[key] / count[key]
    return number(list[int(count[key] / 2)]) (each >= 1 ? sprintf(", %d refused", each) : "")
}

# The median of the ratios of runs of one pass.
function ratio(key, to,    p, n) {
    if (lacks(key) || lacks(to))
        return "?"
    for (p = 1; p <= passes; p++)
        if ((key, p) in by_pass && by_pass[to, p] > 0)
            list[n++] = by_pass[key, p] / by_pass[to, p]
    sort_list(n)
    return sprintf("%.2f", list[int(n / 2)])
}

# ---- who there is ----

function needs(who) {
    if (who == "pool" || who == "worker" || who ~ /^(mbufpool|parcel)/)
        return is_there["pool"] || is_there["worker"]
    if (who ~ /^rattle/)
        return is_there["rattle"]
    return 1
}

# ---- README: one thread ----

function readme_row(label, one, many, who, has_cache) {
    if (!needs(who))
        return
    printf "| %s | %s | %s |", label, median(one " 1 0 " who), median(many " 1 0 " who)
    if (has_cache)
        printf " %s | %s |\n", median(one " 1 256 " who), median(many " 1 256 " who)
    else
        print " | |"
}

function handed(label, who) {
    if (needs(who))
        printf "| %s | %s |\n", label, median("handover 2 0 " who)
}

function readme(    objects, mbufs) {
    print "| | no cache: single | lists of 32 | cache of 256: single | lists of 32 |"
    print "|---|---|---|---|---|"
    print "| **objects, got and put** | | | | |"
    readme_row("`ring_mp_mc`, the default", "get1", "get32", "ring_mp_mc", 1)
    readme_row("`lf_stack`", "get1", "get32", "lf_stack", 1)
    readme_row("`mbufpool`", "get1", "get32", "mbufpool", 1)
    readme_row("`mbufpool_guard`, its own caches inside", "get1", "get32", "mbufpool_guard", 1)
    readme_row("from C: a pool of values", "get1", "get32", "pool", 0)
    readme_row("from Rattle: a worker's elements", "get1", "get32", "rattle", 1)
    print "| **packets, allocated and freed** | | | | |"
    readme_row("mbufs on `ring_mp_mc`", "pkt1", "pkt32", "ring_mp_mc", 1)
    readme_row("mbufs on `lf_stack`", "pkt1", "pkt32", "lf_stack", 1)
    readme_row("mbufs on `mbufpool`", "pkt1", "pkt32", "mbufpool", 1)
    readme_row("mbufs on `mbufpool_guard`", "pkt1", "pkt32", "mbufpool_guard", 1)
    readme_row("from C: a worker's packets", "pkt1", "pkt32", "worker", 1)
    readme_row("from Rattle: a worker's packets", "pkt1", "pkt32", "rattle", 1)
    print ""
    print "| a packet handed to another thread | |"
    print "|---|---|"
    handed("over an `rte_ring`, a pointer to it", "ring_mp_mc")
    handed("over an `rte_ring`, its 648 bytes copied in and out", "ring_copy")
    handed("over a desk, from C", "worker")
}

# ---- SPEED: words, by several threads ----

function words_rows(workload, cache,    i, who, key) {
    for (i = 1; i <= nb_threads; i++) {
        key = workload " " thread[i] " " cache " "
        printf "| `%s` | %s | %s | %s | %s | %s |", workload, cache, thread[i],
            with_refused(key "ring_mp_mc"), with_refused(key "lf_stack"), with_refused(key "plain")
        if (needs("rattle"))
            printf " %s | %s | %s | %s |", with_refused(key "rattle"),
                ratio(key "rattle", key "ring_mp_mc"), ratio(key "rattle", key "lf_stack"),
                ratio(key "rattle", key "plain")
        print ""
    }
}

function words(    i, n, names) {
    printf "| workload | cache | threads | ring_mp_mc | lf_stack | plain C |"
    print needs("rattle") ? " mbufpool | to ring_mp_mc | to lf_stack | to plain C |" : ""
    print needs("rattle") ? "|---|---|---|---|---|---|---|---|---|---|" : "|---|---|---|---|---|---|"
    n = split("stk1 stk8 stk32 get1 get32 pkt1 pkt32 pkt240 clone1 clone4", names, " ")
    for (i = 1; i <= n; i++) {
        words_rows(names[i], 0)
        if (names[i] !~ /^stk/)
            words_rows(names[i], 256)
    }
}

# ---- SPEED: handlers, and from C ----

function handlers_row(label, one, many, cache, who,    i) {
    if (!needs(who))
        return
    printf "| %s | %s |", label, cache
    for (i = 1; i <= nb_threads; i++)
        printf " %s |", with_least(one " " thread[i] " " cache " " who)
    for (i = 1; i <= nb_threads; i++)
        printf " %s |", with_least(many " " thread[i] " " cache " " who)
    print ""
}

function handlers(    c, cache, i, n, who) {
    printf "| | cache |"
    for (i = 1; i <= nb_threads; i++)
        printf " %s%s |", thread[i], i == 1 ? " thread" : ""
    for (i = 1; i <= nb_threads; i++)
        printf " %s%s%s |", i == 1 ? "lists of 32: " : "", thread[i], i == 1 ? " thread" : ""
    printf "\n|---|---|"
    for (i = 1; i <= 2 * nb_threads; i++)
        printf "---|"
    print ""
    n = split("ring_mp_mc lf_stack stack mbufpool mbufpool_guard", who, " ")
    for (c = 0; c < 2; c++) {
        cache = c * 256
        for (i = 1; i <= n; i++)
            handlers_row("`" who[i] "`", "get1", "get32", cache, who[i])
        if (cache == 0)
            handlers_row("a pool of mbufpool.h", "get1", "get32", cache, "pool")
        for (i = 1; i <= n; i++)
            handlers_row("`" who[i] "`, mbufs", "pkt1", "pkt32", cache, who[i])
        handlers_row("a worker of mbufpool.h", "pkt1", "pkt32", cache, "worker")
    }
}

# ---- README: beside the default ----

function ratios_row(label, one, many, count, cache,    key) {
    key = " " count " " cache " "
    printf "| %s | %s | %s |\n", label, ratio(one key "mbufpool", one key "ring_mp_mc"),
        ratio(many key "mbufpool", many key "ring_mp_mc")
}

function ratios(    i, c) {
    print "| `mbufpool`, of `ring_mp_mc` | single | lists of 32 |"
    print "|---|---|---|"
    if (!needs("mbufpool"))
        return
    for (i = 1; i <= nb_threads; i++)
        ratios_row(thread[i] (thread[i] == 1 ? " lcore" : " lcores") ", no cache", "get1", "get32",
            thread[i], 0)
    ratios_row("1 lcore, a cache of 256", "get1", "get32", 1, 256)
    for (c = 0; c < 2; c++)
        ratios_row("passed to another lcore, " (c ? "a cache of 256" : "no cache"), "pass1", "pass32",
            2, c * 256)
}

# ---- SPEED: got by one lcore and put by another; a hand-over ----

function passed(    c, i, n, who) {
    print "| | cache | lists of 1 | lists of 32 |"
    print "|---|---|---|---|"
    n = split("ring_mp_mc lf_stack stack mbufpool mbufpool_guard", who, " ")
    for (c = 0; c < 2; c++)
        for (i = 1; i <= n; i++)
            if (is_there[who[i]])
                printf "| `%s` | %d | %s | %s |\n", who[i], c * 256,
                    with_least("pass1 2 " c * 256 " " who[i]),
                    with_least("pass32 2 " c * 256 " " who[i])
    if (is_there["pool"])
        printf "| a pool of mbufpool.h | 0 | %s | %s |\n", with_least("pass1 2 0 pool"),
            with_least("pass32 2 0 pool")
    printf "| no pool | 0 | %s | %s |\n", with_least("pass1 2 0 none"), with_least("pass32 2 0 none")
    print ""
    sent()
}

function sent_row(label, cache, who) {
    if (needs(who))
        printf "| %s | %d | %s | %s |\n", label, cache, with_least("send1 2 " cache " " who),
            with_least("send32 2 " cache " " who)
}

function sent(    c, cache, i, n, who) {
    print "| packets, made and freed | cache | lists of 1 | lists of 32 |"
    print "|---|---|---|---|"
    n = split("ring_mp_mc lf_stack stack mbufpool mbufpool_guard", who, " ")
    for (c = 0; c < 2; c++) {
        cache = c * 256
        for (i = 1; i <= n; i++)
            sent_row("mbufs on `" who[i] "`", cache, who[i])
        sent_row("a worker's packets, over 64 desks", cache, "worker")
        sent_row("a worker's packets, as addresses of parcels", cache, "parcel")
        sent_row("a worker's packets, as parcels that are pointers", cache, "parcel_packed")
    }
}

function handovers_row(label, who) {
    if (needs(who))
        printf "| %s | %s | %s |\n", label, with_least("handover 2 0 " who),
            with_least("handover 1 0 " who)
}

function handovers() {
    print "| handed over by | two threads | one thread |"
    print "|---|---|---|"
    handovers_row("`rte_ring`, one producer and consumer", "ring_sp_sc")
    handovers_row("`rte_ring`, many producers and consumers", "ring_mp_mc")
    handovers_row("`rte_ring`, the same, and a line of the packet written and read", "ring_read")
    handovers_row("`rte_ring`, the same, 648 bytes copied in and out", "ring_copy")
    handovers_row("a desk in plain C", "plain")
    handovers_row("a desk from C, `mbufpool_worker_offer` and `_take`", "worker")
    handovers_row("a parcel's address, over such an `rte_ring`", "parcel")
    handovers_row("a parcel that is a pointer, over such an `rte_ring`", "parcel_packed")
}

END {
    nb_threads = split(threads, thread, ",")
    if (table == "readme")
        readme()
    else if (table == "words")
        words()
    else if (table == "handlers")
        handlers()
    else if (table == "passed")
        passed()
    else if (table == "ratios")
        ratios()
    else
        handovers()
    exit is_missing
}
