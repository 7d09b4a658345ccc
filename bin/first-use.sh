# Sourced by bin/leskwyn and bin/compare. What they run is proved and built on first use, and again when a source is newer than
# its last proof. The script that sources this sets `me`, its name.

version=0.15.0
root=$(dirname "$(dirname "$(readlink -f "${BASH_SOURCE[0]}")")")
mark=$root/target/$me.mark # as old as the start of the last proof that succeeded
log=$root/target/$me.log
lock=$root/target/first-use.lock # one for both, since they share what rt keeps in crates/*/out/
trap '' PIPE # a reader that has gone away is a failed write like any other

# Says a line on standard error.
say() { # WORDS..
    printf '%s: %s\n' "$me" "$*" >&2
}

# Says what is wrong, and ends.
trouble() { # WORDS..
    say "$@"
    exit 2
}

# Prints the text.
print() { # TEXT
    printf '%s\n' "$1" 2>/dev/null || trouble "cannot write to standard output"
}

# Prints a source that is newer than the mark, if there is one. What rt keeps in crates/*/out/ is none.
newer() {
    cd "$root" &&
        find crates crates.txt -path 'crates/*/out' ! -path 'crates/*/*/out' -prune -o -newer "$mark" -print -quit
}

# True if the file is there and no source has changed since it was proved.
current() { # FILE
    [ -f "$1" ] && [ -f "$mark" ] && [ -z "$(newer)" ]
}

# ---- the lock: of several first uses at once, one builds

# True if the process runs. One that has ended and that nobody asks for its status has no folder.
runs() { # PROCESS
    kill -0 "$1" 2>/dev/null && { [ ! -d /proc/self ] || [ -e "/proc/$1/cwd" ]; }
}

# Prints the processes that have the folder.
holders() {
    cat "$lock.d/holders" 2>/dev/null
}

# Tells in the folder which processes have it.
hold() { # PROCESSES..
    { printf '%s\n' "$@" >"$lock.d/holders"; } 2>/dev/null || trouble "cannot write in $root/target"
}

# True if none of the processes that have the folder runs; if none is named, once the folder is older than a minute.
abandoned() { # PROCESSES
    local process
    [ -n "$1" ] || [ -n "$(find "$lock.d" -prune -mmin +1 2>/dev/null)" ] || return
    for process in $1; do
        ! runs "$process" || return 1
    done
}

# Takes an abandoned folder over. Of several that try, one makes the folder inside.
take_over() {
    local before
    before=$(holders)
    abandoned "$before" && mkdir "$lock.d/taken-over" 2>/dev/null || return
    [ "$(holders)" != "$before" ] || hold "$$"
    rmdir "$lock.d/taken-over"
    [ "$(holders)" = "$$" ]
}

# Waits for the folder, where there is no flock.
take_folder() {
    local told=no
    until mkdir "$lock.d" 2>/dev/null || take_over; do
        [ "$told" = yes ] || say "another first use is at work, and this one waits for it; if there is none, remove $lock.d"
        told=yes
        sleep 0.2
    done
    lock_folder=$lock.d
    hold "$$"
}

# Waits until no other first use is at work. tools/build and rt inherit the lock: where their caller was killed, the next waits for
# their end.
take_lock() {
    { mkdir -p "$root/target" && exec 9>"$lock"; } 2>/dev/null || trouble "cannot write in $root/target"
    lock_folder=
    if command -v flock >/dev/null; then
        flock -n 9 2>/dev/null && return
        say "another first use is at work, and this one waits for it"
        flock 9 2>/dev/null && return
    fi
    take_folder
}

# Lets the next first use in.
drop_lock() {
    exec 9>&-
    [ -z "$lock_folder" ] || rm -rf "$lock_folder"
}

# ---- progress, by the seconds that docs/PROMISES.md has for each crate

# Prints the crates that CRATE stands on, and CRATE, in the order in which tools/build proves them, each with its seconds.
plan() { # CRATE
    local page=$root/docs/PROMISES.md
    [ -r "$page" ] || page=/dev/null
    "$root/tools/build" order "$1" | awk '
        BEGIN { seconds["claims"] = 130; seconds["trees"] = 40; other = 10 }
        from == "page" && /^## / { timed = /^## Check times/ }
        from == "page" && timed && /^\| `/ { gsub(/[|`]/, " "); seconds[$1] = $3 }
        from == "order" { print $1, $1 in seconds ? int(seconds[$1]) : other }' from=page "$page" from=order -
}

# Begins to tell how far tools/build is. `crates` has all, in their order, and `seconds` what each takes that is still to be proved.
begin_progress() { # CRATE
    local crate took
    every=30 # seconds between two lines where there is no terminal
    began=$SECONDS next=$((SECONDS + every)) line=''
    seconds_left=0 seconds_done=0 spent=0 # all told, of crates to come, of crates proved by now, and what these did take
    crates=()
    declare -gA seconds=()
    while read -r crate took; do
        crates+=("$crate") seconds[$crate]=$took seconds_left=$((seconds_left + took))
    done < <(plan "$1")
    rewritten=no
    [ ! -t 2 ] || [ "${TERM:-dumb}" = dumb ] || rewritten=yes
}

# Tells how long it takes from here, by the pace so far.
time_left() {
    local all=$((seconds_left * (spent + 10) / (seconds_done + 10)))
    local now=$((all - (SECONDS - began - spent)))
    [ "$now" -ge $((all / 10)) ] || now=$((all / 10))
    if [ "$now" -ge 90 ]; then
        printf 'about %d min' $(((now + 30) / 60))
    elif [ "$now" -ge 10 ]; then
        printf 'about %d s' $(((now + 5) / 10 * 10))
    else
        printf 'some seconds'
    fi
}

# Takes in what tools/build says: of a crate that is proved, and of its time unless it was proved before.
hear() { # LINE
    local crate took
    printf '%s\n' "$1" 2>/dev/null >>"$log"
    [[ $1 =~ ^rt:\ ([A-Za-z0-9_]+)\ proved\ \((unchanged)? ]] || return
    crate=${BASH_REMATCH[1]} took=${seconds[${BASH_REMATCH[1]}]-0}
    unset "seconds[$crate]"
    seconds_left=$((seconds_left - took))
    [ -n "${BASH_REMATCH[2]-}" ] || seconds_done=$((seconds_done + took)) spent=$((SECONDS - began))
}

# Tells how far it is: on a terminal in one line that is rewritten, else in a line now and then.
show_progress() {
    local all=${#crates[@]} left=${#seconds[@]} crate now
    now="$me: all $all crates are proved; building"
    for crate in "${crates[@]}"; do
        [ -n "${seconds[$crate]-}" ] || continue
        now="$me: proving $crate, crate $((all - left + 1)) of $all; $(time_left) left"
        break
    done
    if [ "$rewritten" = yes ]; then
        [ "$now" = "$line" ] || printf '\r%s\e[K' "$now" >&2
        line=$now
    elif [ "$SECONDS" -ge "$next" ]; then
        printf '%s\n' "$now" >&2
        next=$((SECONDS + every))
    fi
}

# Takes the line that was rewritten off the terminal.
end_progress() {
    [ "$rewritten" = no ] || printf '\r\e[K' >&2
}

# ---- first use

# Runs tools/build, keeps what it says in the log, and tells how far it is.
run_build() { # WORDS..
    local piece part='' status builder
    exec 7< <(trap - PIPE && cd "$root" && exec tools/build "$@" 2>&1 </dev/null)
    builder=$!
    [ -z "$lock_folder" ] || hold "$$" "$builder"
    show_progress
    while IFS= read -r -t 1 -u 7 piece; status=$?; [ "$status" -ne 1 ]; do
        part+=$piece # a line may come in pieces, with a second between them
        [ "$status" -ne 0 ] || { hear "$part"; part=; }
        show_progress
    done
    [ -z "$part$piece" ] || hear "$part$piece"
    exec 7<&-
    end_progress
    wait "$builder"
}

# Has CRATE proved and built, and FINISH make FILE of what was built; then marks it. What rt keeps goes to crates/*/out/, and these are
# there before the mark, since a new one makes its crate's folder newer.
build() { # FILE WHAT VERB CRATE FINISH
    command -v rt >/dev/null ||
        trouble "the $2 is still to be proved and built, and there is no rt on the path (the Rattle toolchain has it)"
    { rm -f "$mark" && : >"$log"; } 2>/dev/null || trouble "cannot write in $root/target"
    begin_progress "$4"
    (cd "$root/crates" && all=(*/) && mkdir -p "${all[@]/%/out}") 2>/dev/null || trouble "cannot write in $root/crates"
    : >"$mark.new" || trouble "cannot write in $root/target"
    say "proving and building the $2 on first use, $(time_left); log: $log"
    if ! run_build "$3" "$4"; then
        tail -n 20 "$log" >&2
        trouble "tools/build $3 $4 failed; all that it said is in $log"
    fi
    "$5" "$1"
    [ -f "$1" ] || trouble "tools/build $3 $4 left no $1: remove the folder target and try again"
    mv "$mark.new" "$mark" 2>/dev/null || trouble "cannot write in $root/target"
}

# Has FILE built unless it is current.
ready() { # FILE WHAT VERB CRATE FINISH
    current "$1" && return
    take_lock
    current "$1" || build "$@"
    drop_lock
}
