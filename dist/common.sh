# Functions that pregel, test and dist/update share. `top` is the folder of the repository.

# Prints these crates and all that they stand on, one a line, in the order of crates.txt.
crates_below() {
    awk -F ': *' -v tops="$*" '
        function want(name,    below, count, i) {
            if (name in wanted || !(name in needs)) return
            wanted[name]
            count = split(needs[name], below, " ")
            for (i = 1; i <= count; i++) want(below[i])
        }
        /^[a-z]/ { names[++last] = $1; needs[$1] = $2 }
        END {
            count = split(tops, top, " ")
            for (i = 1; i <= count; i++) want(top[i])
            for (i = 1; i <= last; i++) if (names[i] in wanted) print names[i]
        }
    ' "$top/crates.txt"
}

# Prints the SHA-256 over all that the program is proved and built from.
sources_sum() {
    (
        cd "$top"
        folders=()
        for name in $(crates_below pregel); do
            for part in src specs proofs; do
                [ ! -d "crates/$name/$part" ] || folders+=("crates/$name/$part")
            done
        done
        find crates.txt HANDLES "${folders[@]}" -type f -print0 | LC_ALL=C sort -z |
            xargs -0 sha256sum | sha256sum | cut -d ' ' -f 1
    )
}

# Prints the line of dist/SOURCES that begins with this word, without the word.
committed() {
    sed -n "s/^$1 //p" "$top/dist/SOURCES" 2>/dev/null || true
}

# Succeeds where this program starts on this machine.
starts() {
    [ -x "$1" ] && "$1" --help >/dev/null 2>&1
}

# Prints the memory that is free, in GB.
free_memory() {
    awk '/^MemAvailable:/ { print int($2 / 1000000) }' /proc/meminfo
}

# Prints how many checks fit side by side: one for each processor, 4 GB of memory for each.
checks_that_fit() {
    local processors room
    processors=$(nproc)
    room=$(($(free_memory) / 4))
    [ "$room" -lt "$processors" ] || room=$processors
    echo $((room < 1 ? 1 : room))
}

# Lets the checks of rt keep the memory that they have freed: to give it back and to ask for it again takes time (docs/GATE.md).
keep_freed_memory() {
    export MIMALLOC_PURGE_DELAY=${MIMALLOC_PURGE_DELAY:--1}
}

# Lets rt and its checks write temporary files to memory, which is quicker (docs/GATE.md), where that has room and may hold programs.
# rt removes what a run of it that was killed has left there.
write_to_memory() {
    local memory=/dev/shm room
    [ -z "${TMPDIR:-}" ] && [ -w "$memory" ] && ! grep -q "^[^ ]* $memory .*noexec" /proc/mounts || return 0
    room=$(df --output=avail -BG "$memory" 2>/dev/null | tail -n 1 | tr -dc 0-9)
    if [ "${room:-0}" -ge 8 ] && [ "$(free_memory)" -ge 20 ]; then export TMPDIR=$memory; fi
}

# Stops with status 1 where Rattle's kit is missing.
require_kit() {
    if ! command -v rt >/dev/null; then
        echo "$1: the command rt of Rattle's kit is missing, and the program is proved and built with it" >&2
        exit 1
    fi
}

# Succeeds where rt keeps what it has proved for later runs: beside the kit, for the owner of that folder. A kit that does so has the
# command `rt ci --anew`, which takes nothing of it.
keeps_proofs() {
    local kept
    [[ $(rt help 2>&1) == *--anew* ]] || return 1
    kept=$(dirname "$(dirname "$(rt doc)")")/rattle-kept
    mkdir -p "$kept" 2>/dev/null && [ -O "$kept" ]
}

# Proves these crates and all that they stand on, in a copy in this folder, as the gate does but with no must-fail edits.
prove_copy() {
    local copy=$1 names name part parts=(HANDLES)
    shift
    mkdir "$copy"
    names=$(crates_below "$@")
    for name in $names; do
        for part in src specs proofs stdin stdout args status data; do
            [ ! -e "$top/crates/$name/$part" ] || parts+=("crates/$name/$part")
        done
    done
    (cd "$top" && cp -r --parents "${parts[@]}" "$copy/")
    printf '^%s:\n' $names | grep -f - "$top/crates.txt" >"$copy/crates.txt"
    (cd "$copy" && keep_freed_memory && write_to_memory && exec rt ci)
}

# Ends the jobs of this shell, each with all that it has started: each is in a process group of its own.
end_jobs() {
    local job
    for job in $(jobs -p); do kill -- "-$job" 2>/dev/null || true; done
    wait
}

# Waits until the output of a run of rt, in the file $2, has told of all but $3 of the crates named after it. Fails where the run,
# process $1, ends before.
await_crates() {
    local run=$1 told=$2 left=$3 names
    shift 3
    names=$(IFS='|' && echo "$*")
    while [ "$(grep -cE "^rt: ($names) (proved|is kept)" "$told")" -lt $(($# - left)) ]; do
        kill -0 "$run" 2>/dev/null || return
        sleep 1
    done
}

# Proves these crates and all that they stand on, for what rt keeps of it, and removes the copy in this folder.
prove_to_keep() {
    prove_copy "$@" || return
    rm -rf "$1"
}

# Proves each of these crates and all that it stands on, one crate after the other, in folders below $1.
prove_each() {
    local name room=$1
    shift
    for name in "$@"; do
        prove_to_keep "$room/$name" "$name" || return
    done
}

# Begins to prove all that pregel stands on, in folders below $1. Notes its jobs in `runs`, and returns when two crates are left.
#
# A run begins with the crates that have most lines of code above them. The threads of workers have few lines for what their proofs take.
# So they would come last, and what stands on them would wait. A second job, with one check at a time, has nothing else to do than them and
# what a run stands on. Where two runs come to a crate, one waits and takes what the other has proved. Each run takes up to half a minute
# to begin and to take what is kept, so the second job makes few.
begin_below() {
    local names
    mapfile -t names < <(crates_below pregel | grep -vx pregel)
    : >"$1/told"
    RT_JOBS=$(checks_that_fit) prove_to_keep "$1/below" "${names[@]}" > >(tee -a "$1/told") &
    runs+=($!)
    RT_JOBS=1 prove_each "$1" hub_ends worker_threads workers &
    runs+=($!)
    await_crates "${runs[0]}" "$1/told" 2 "${names[@]}" || wait "${runs[0]}"
}

# Proves all that the program stands on, and builds it in the folder $1/whole.
#
# A run of rt reckons with more memory than its checks take, and so with few at a time. Where RT_JOBS is set it does not, but then each
# check has one processor. So where rt keeps what a run has proved, pregel has a run of its own, and its check gets two processors or
# more. It looks at what is kept while the last crates below it are proved.
prove_in_stages() {
    local run runs=()
    set -m
    trap 'end_jobs; exit 143' TERM
    if [ "$(free_memory)" -lt 20 ]; then
        export RT_JOBS=${RT_JOBS:-$(checks_that_fit)}
    elif [ -z "${RT_JOBS:-}" ] && [ "$(nproc)" -ge 4 ]; then
        if ! keeps_proofs; then
            export RT_JOBS=$(checks_that_fit)
        elif ! begin_below "$1"; then
            end_jobs
            return 1
        fi
    fi
    prove_copy "$1/whole" pregel &
    runs+=($!)
    for run in "${runs[@]}"; do
        if ! wait "$run"; then
            end_jobs
            return 1
        fi
    done
}

# Proves the program, builds it at $program, and says how far that is. It works in a temporary folder.
prove_program() {
    require_kit pregel
    local room log total began=$SECONDS status=0 line rt= built
    local -A told=()
    room=$(mktemp -d)
    trap '[ -z "$rt" ] || { kill "$rt" && wait "$rt"; } 2>/dev/null || true; rm -rf "$room"' EXIT
    trap 'exit 130' INT
    trap 'exit 143' TERM HUP
    log=$room/log
    built=$room/whole/crates/pregel/out/pregel
    total=$(crates_below pregel | wc -l)
    echo "pregel: proving $total crates and building the program" >&2
    exec {lines}< <(prove_in_stages "$room" 2>&1)
    rt=$!
    while IFS= read -r -u "$lines" line; do
        printf '%s\n' "$line" >>"$log"
        if [[ $line =~ ^rt:\ ([a-z_0-9]+)\ (proved|is\ kept) ]] && [ -z "${told[${BASH_REMATCH[1]}]:-}" ]; then
            told[${BASH_REMATCH[1]}]=yes
            echo "pregel: ${BASH_REMATCH[1]} ${BASH_REMATCH[2]}, ${#told[@]} of $total, $(((SECONDS - began) / 60)) min" >&2
        fi
    done
    wait "$rt" || status=$?
    rt=
    if [ "$status" != 0 ] || [ ! -x "$built" ]; then
        mv "$log" "$room.log"
        grep -E '^rt: .*(NOT PROVED|FAILED|disk|memory)' "$room.log" >&2 || tail -5 "$room.log" >&2
        echo "pregel: the program is not proved; $room.log has all that rt said" >&2
        exit 1
    fi
    mkdir -p "$(dirname "$program")"
    mv "$built" "$program.new"
    mv "$program.new" "$program"
    trap - EXIT INT TERM HUP
    rm -rf "$room"
}

# Succeeds where dist/pregel was built from the sources of this checkout, with the kit of this machine.
is_of_these_sources() {
    [ "$(committed sources)" = "$(sources_sum)" ] && [ "$(committed kit)" = "$(rt version)" ]
}

# Compares dist/pregel with the program that the gate has built. Says what is wrong, if anything is, and fails then.
compare_program() {
    local kit
    if [ "$(committed sources)" != "$(sources_sum)" ]; then
        echo "dist/SOURCES is stale: the sources have changed since; run dist/update and commit what it makes"
        return 1
    fi
    kit=$(rt version)
    if [ "$(committed kit)" != "$kit" ]; then
        echo "dist/pregel is not compared: it was built with $(committed kit), and this machine has $kit"
    elif ! cmp "$top/dist/pregel" "$program"; then
        echo "dist/pregel is not the program that these proofs yield: run dist/update and commit what it makes"
        return 1
    else
        echo "dist/pregel is the program that these proofs yield"
    fi
}
