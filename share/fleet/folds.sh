# What parallel-text and parallel-files share. What hosts need of it goes to them by parallel's --env, so bash is the shell there.
export FLAMECOLLECT=${FLAMECOLLECT:-flamecollect}
folder=$(mktemp -d)
trap 'rm -rf "$folder"' EXIT

# usage: what stands at the head of a script.
usage() {
    sed -n '2,/^set/s/^# \{0,1\}//p' "$0" >&2
    exit 2
}

# with_one_count: a line of a fold whose last name ends in a number would have two counts, but for a `;` behind that name, which is dropped.
with_one_count() {
    LC_ALL=C sed -E 's/([ \t][0-9]+(\.[0-9]*)?) ([0-9]+)$/\1; \3/'
}
export -f with_one_count

# options_of OPTION..: those of each fold, which the program here must take.
options_of() {
    "$FLAMECOLLECT" fold "$@" < /dev/null > /dev/null 2> "$folder/refused" || [ $? != 2 ] || { cat "$folder/refused" >&2; exit 2; }
    export OPTIONS=${*:+$(printf '%q ' "$@")}
}

# on_hosts PARALLEL'S WORDS..: runs fold_here on hosts, again on another where one is lost. Each run says `status S N` at its end: the worst
# status, and how much it has folded. Answers the worst of all, and 3 where it is not as much as $much, together.
on_hosts() {
    {
        parallel --will-cite --keep-order --retries 4 --sshlogin "$hosts" --env FLAMECOLLECT,OPTIONS,with_one_count,fold_here "$@" 2>&1 >&3 |
            FILE=${file:-} MUCH=$much awk '
                /^status [0-9]+ [0-9]+$/ { if ($2 > worst) worst = $2; all += $3; next }
                /^part [0-9]+: / { print "flamecollect: " ENVIRON["FILE"] ", " $0 > "/dev/stderr"; next }
                { print > "/dev/stderr" }
                END {
                    if (all != ENVIRON["MUCH"]) {
                        printf "%.0f of %.0f were folded\n", all, ENVIRON["MUCH"] > "/dev/stderr"
                        exit 4
                    }
                    exit worst
                }'
    } 3>&1
}

# reduced FILE: the fold of the folds in a file. One run takes 2^30 bytes; more of them is folded in pieces before.
reduced() {
    local size
    while size=$(stat -c %s "$1") && [ "$size" -gt $((2 ** 30)) ]; do
        parallel --will-cite --pipe-part -a "$1" --block 512M "$FLAMECOLLECT fold | with_one_count" > "$1.next"
        [ "$(stat -c %s "$1.next")" -lt "$size" ] || { echo 'the fold has more than 2^30 bytes' >&2; return 3; }
        mv "$1.next" "$1"
    done
    "$FLAMECOLLECT" fold "$1"
}
