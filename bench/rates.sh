# shellcheck shell=sh
# Of lines "NAME: COUNT in N ns, EACH ns each" on the input, a round after the other, a table with the
# least and the median of the rounds, and how many there are in a second. To be sourced.
print_rates() {
    printf '| What | Nanoseconds each: least | median | A second, by the median |\n|---|---|---|---|\n'
    sed -n 's/^\(.*\): [0-9]* in [0-9]* ns, \([0-9]*\) ns each$/\1|\2/p' | sort -t'|' -k1,1 -k2,2n |
        awk -F'|' '
            function tell() { if (n) { m = each[int((n + 1) / 2)]; printf "| %s | %d | %d | %d |\n", name, each[1], m, 1000000000 / m } }
            $1 != name { tell(); name = $1; n = 0 }
            { each[++n] = $2 }
            END { tell() }'
}
