# Says how far a build is, for the script `deltanet`:
#
#   awk -v passed=SECONDS -v at_once=N -f build_progress.awk of=weights build-weights of=crates crates.txt of=log LOG
#
# LOG is what `rt all check` printed in these seconds, N crates at once. By the weights a build takes as long as its
# longest chain of crates, or as each processor's share where that is longer. What is left takes as many times longer
# than that as what was proved so far did. Crates that were kept from an earlier build take no time.

/^[ \t]*#/ && of != "log" { next }

of == "weights" && NF == 2 { weight[$1] = $2; insert($2) }

of == "crates" && /^[a-z0-9_]+[^#]*:/ {
    name = $1
    sub(/:.*/, "", name)
    sub(/^[^:]*:/, "")
    below[name] = $0
}

of == "log" && /^== / { name = $2; is_kept[name] = 1; next }
of == "log" && name != "" { is_kept[name] = 0 }
of == "log" && /^logic=proved/ { is_proved[name] = 1 }

END {
    for (name in below) {
        crates++
        cost[name] = (name in weight) ? weight[name] : median()
        all += cost[name]
        if (name in is_proved || is_kept[name]) {
            done++
            known += cost[name]
        }
        if (is_kept[name]) cost[name] = 0
        else to_prove[name]
    }
    printf "%d of %d crates are proved, %d percent of the work", done, crates, all ? 100 * known / all + 0.001 : 0
    whole = time_of(to_prove)
    reached = time_of(is_proved)
    # Before a twentieth is done, the time that it took says little.
    if (whole / 20 <= reached && reached < whole) {
        minutes = passed * (whole - reached) / reached / 60
        printf ", some %.0f min left", minutes < 1 ? 1 : minutes
    }
    print ""
}

function insert(number,    i) {
    for (i = ++numbers; i > 1 && sorted[i - 1] > number; i--) sorted[i] = sorted[i - 1]
    sorted[i] = number + 0
}

function median() {
    return numbers ? sorted[int((numbers + 1) / 2)] : 1
}

# How long these crates take by their weights.
function time_of(crates,    name, sum, most) {
    for (name in crates) {
        sum += cost[name]
        if (chain(name) > most) most = chain(name)
    }
    return most > sum / at_once ? most + 0 : sum / at_once
}

# What a crate and the longest chain of crates below it cost.
function chain(name,    words, number, i, under) {
    if (!(name in chains)) {
        number = split(below[name], words, " ")
        for (i = 1; i <= number; i++) if (words[i] in below && chain(words[i]) > under) under = chain(words[i])
        chains[name] = cost[name] + under
    }
    return chains[name]
}
