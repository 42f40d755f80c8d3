# Tests of examples/saved, for tests/installed/run: a book across restarts, shared by two gateways.

history=examples/complex.history
followed='1 0 24294 12980' # July Soybeans at a price that is above, within and below in turn
settlement_byte=$((4 * 669)) # of an image: the last settlement of July Corn
image_bytes=$((4 * 952))

writer() {
    timeout 60 "$out/writer" "$@"
}

checker() {
    timeout 60 "$out/checker" "$@"
}

# Waits until a file has so many lines.
wait_for_lines() {
    local file=$1 lines=$2 tries
    for ((tries = 0; tries < 2000; tries++)); do
        [[ -e $file && $(wc -l < "$file") -ge $lines ]] && return
        sleep 0.005
    done
    echo "$file never had $lines lines"
    return 1
}

# Lines that replay answers and the writer passes over.
without_checks() {
    grep -v '^check \|^bare \|^book$' "$1"
}

# The book of each history in one go, with the answers of replay; restarts are held against it.
saved_answers() {
    local file
    for file in "$history" examples/{spot,wheats,corn2014,carried,year}.history; do
        writer "$out/$(basename "$file").image" < "$file" > "$out/answers.txt" || return
        diff <(without_checks "$file" | "$replay") "$out/answers.txt" || return
    done
}

saved_checks() {
    prints $expected/checker.txt "$out/checker" "$out/complex.history.image" < examples/book-orders.txt
}

same_as_uninterrupted() {
    cmp "$out/$(basename "$history").image" "$1"
}

# The writer ended after each of these lines of the history, and run to the end: ended_after IMAGE LINE..
ended_after() {
    local image=$1 from=1 to
    shift
    : > "$out/answers.txt"
    for to in "$@" "$(wc -l < "$history")"; do
        sed -n "$from,${to}p" "$history" | writer "$image" >> "$out/answers.txt" || return
        from=$((to + 1))
    done
    diff <(without_checks "$history" | "$replay") "$out/answers.txt" && same_as_uninterrupted "$image"
}

# Ended between two sheets of a day, then between two days.
saved_ended() {
    ended_after "$out/ended.image" 103 333
}

# Makes rest.txt, the history from the opening of the day at which the saved book stands, by the writer's own word.
make_rest() {
    local standing day=none
    standing=$(writer "$1" 2>&1 < /dev/null) || return
    [[ $standing =~ day\ ([0-9]+\ [0-9]+\ [0-9]+)\  ]] && day=${BASH_REMATCH[1]}
    if [[ $day = none ]]; then
        cp "$history" "$out/rest.txt"
    else
        sed -n "/^open $day /,\$p" "$history" > "$out/rest.txt"
    fi
}

# Ended when 16 May has, and fed that day again without the conversion that it refused: every call of it is refused.
fed_again() {
    local image=$1
    head -n 54 "$history" | writer "$image" > "$out/answers.txt" && make_rest "$image" || return
    sed 2d "$out/rest.txt" | writer "$image" > "$out/answers.txt" || return
    diff <(printf 'refused %d\n' 4 2 2 2 2 2 2 2 2 2) <(head -n 10 "$out/answers.txt") && same_as_uninterrupted "$image"
}

# Across a conversion: ended between two sheets of the day that refuses one, then right after the first that is accepted.
saved_carried() {
    local history=examples/carried.history
    ended_after "$out/carried.image" 49 57 && fed_again "$out/fed-again.image"
}

# Gives the writer 150 lines, and kills it while it is busy with them.
kill_writer() {
    local image=$1 pid
    make_rest "$image" || return
    rm -f "$out/lines" "$out/answers.txt"
    mkfifo "$out/lines" || return
    "$out/writer" "$image" < "$out/lines" > "$out/answers.txt" &
    pid=$!
    # Kept open, so that the writer cannot end before it is killed.
    exec 9<> "$out/lines"
    head -n 150 "$out/rest.txt" >&9
    wait_for_lines "$out/answers.txt" 75
    kill -KILL "$pid"
    wait "$pid" 2> /dev/null
    [[ $? -eq 137 ]]
}

saved_killed() {
    local image=$out/killed.image time
    for time in 1 2 3; do
        kill_writer "$image" || { echo "the writer was not killed"; return 1; }
        exec 9>&-
    done
    make_rest "$image" || return
    ! cmp -s "$history" "$out/rest.txt" || { echo "nothing was kept"; return 1; }
    writer "$image" < "$out/rest.txt" > "$out/answers.txt" && same_as_uninterrupted "$image"
}

# Changes the bit of value 2 of a byte.
flip_bit() {
    local byte
    byte=$(od -An -tu1 -j "$2" -N 1 "$1")
    printf "\\x$(printf %x $((byte ^ 2)))" | dd of="$1" bs=1 seek="$2" conv=notrunc status=none
}

# A gateway that reads its orders from file descriptor 6 + N: start_gateway N IMAGE
start_gateway() {
    mkfifo "$out/orders-$1" || return
    "$out/checker" "$2" < "$out/orders-$1" > "$out/gateway-$1.txt" 2> "$out/gateway-$1.log" &
}

# Asks both gateways, and waits for their Nth answers: ask_both N ORDER
ask_both() {
    echo "$2" >&7
    echo "$2" >&8
    wait_for_lines "$out/gateway-1.txt" "$1" && wait_for_lines "$out/gateway-2.txt" "$1"
}

# The lines of the history from the first that begins so, to the next that begins so; it may be the same.
part_of_history() {
    awk -v from="$1" -v to="$2" 'index($0, from) == 1 { on = 1 } on { print } on && index($0, to) == 1 { exit }' "$history"
}

# Before there is a book, on the second day of the squeeze, when that has ended, and on the third.
ask_while_written() {
    local image=$1 order=$2
    ask_both 1 "$order" || return
    part_of_history found 'open 2024 3 5' | writer "$image" || return
    ask_both 2 "$order" || return
    part_of_history 'open 2024 3 5' end | writer "$image" || return
    ask_both 3 "$order" || return
    part_of_history 'open 2024 3 6' 'open 2024 3 6' | writer "$image" || return
    ask_both 4 "$order"
}

# Then when the file is taken away, when it is back, and when a damaged one stands in its place.
ask_while_lost() {
    local image=$1 order=$2
    mv "$image" "$image.away" && ask_both 5 "$order" || return
    cp "$image.away" "$image.back" && mv "$image.back" "$image" && ask_both 6 "$order" || return
    flip_bit "$image.away" $settlement_byte && mv "$image.away" "$image" && ask_both 7 "$order"
}

saved_two_gateways() {
    local image=$out/shared.image order='1 0 24294 11142' status first second
    start_gateway 1 "$image" && first=$! || return
    start_gateway 2 "$image" && second=$! || return
    exec 7> "$out/orders-1" 8> "$out/orders-2"
    ask_while_written "$image" "$order" > "$out/answers.txt" && ask_while_lost "$image" "$order"
    status=$?
    exec 7>&- 8>&-
    wait "$first" "$second"
    [[ $status -eq 0 ]] && diff $expected/two-gateways.txt "$out/gateway-1.txt" &&
        diff $expected/two-gateways.txt "$out/gateway-2.txt"
}

# The answers of an order after each change of the history, as a checker says them, each once while it stays the same.
answers_in_turn() {
    without_checks "$history" | grep -v '^#' | grep . | sed "s/\$/\ncheck $followed/" | "$replay" | sed -n 'n;p' | sed '
        s/^refused 2$/reject no day open, or one still open/
        s/^refused 14$/reject month not listed/
        s/^within:[0-9]*:[0-9]*$/accept within/
        s/^\(below\|above\):\([0-9]*\):\([0-9]*\)$/reject \1 limit, \2 to \3 allowed/' | uniq
}

# Whether every line of the second list stands in the first, in the same order.
is_within_list() {
    awk 'NR == FNR { all[NR] = $0; n = NR; next }
         { do { at++ } while (at <= n && all[at] != $0); if (at > n) { print "out of turn: " $0; exit 1 } }' "$1" "$2"
}

# The history a line at a time, so that the writer waits now and then and others get to run, on one core too.
line_by_line() {
    local line
    while read -r line; do
        echo "$line"
    done
}

# Asks the same order as long as the writer writes, and once more.
keep_asking() {
    while [[ -e $out/writing ]]; do
        echo "$followed"
    done
    echo "$followed"
}

# What a gateway answered while the writer wrote: only books that stood in the file, in turn, up to the last.
is_steady() {
    local answers=$out/busy-$1.txt books
    head -n -1 "$answers" | uniq > "$out/busy-turns-$1.txt"
    read -r books _ < "$out/busy-$1.log"
    echo "gateway $1: $(cat "$out/busy-$1.log"), $(($(wc -l < "$answers") - 1)) orders"
    grep -q ' read, 0 times no whole one$' "$out/busy-$1.log" && [[ $books -ge 20 ]] &&
        is_within_list "$out/turns.txt" "$out/busy-turns-$1.txt" &&
        diff <(tail -n 1 "$out/turns.txt") <(tail -n 1 "$out/busy-turns-$1.txt")
}

saved_busy() {
    local image=$out/busy.image n status
    answers_in_turn > "$out/turns.txt"
    part_of_history found found | writer "$image" > "$out/answers.txt" || return
    touch "$out/writing"
    for n in 1 2; do
        keep_asking | checker "$image" > "$out/busy-$n.txt" 2> "$out/busy-$n.log" &
    done
    wait_for_lines "$out/busy-1.txt" 1 && wait_for_lines "$out/busy-2.txt" 1 &&
        part_of_history 'open 2024 2 1' book | line_by_line | writer "$image" >> "$out/answers.txt"
    status=$?
    rm "$out/writing"
    wait
    [[ $status -eq 0 ]] && is_steady 1 && is_steady 2
}

# Neither the writer nor a checker takes the file for a book, and the writer leaves it as it is.
is_refused() {
    local image=$1
    cp "$image" "$out/before.image"
    ! tail -n 1 "$history" | writer "$image" || { echo "written over: $image"; return 1; }
    cmp "$image" "$out/before.image" || return
    [[ $(echo '0 0 24294 3620' | checker "$image" | head -n 1) = 'reject book or tally unsound' ]]
}

# Bytes of a file: bytes_of FILE FROM TO
bytes_of() {
    tail -c +$(($2 + 1)) "$1" | head -c $(($3 - $2))
}

# A whole file as the format before had it: its number, and no edition behind that.
without_edition() {
    { printf '\x02\x00\x00\x00' && bytes_of "$1" 8 $image_bytes; } > "$2"
    # The CRC-32 of its input stands before the length at the end of what gzip makes, its low byte first.
    gzip -c "$2" | tail -c 8 | head -c 4 > "$out/crc" && cat "$out/crc" >> "$2"
}

# July Corn's settlement by a tick, which leaves a sound book; the CRC; a byte too few and one too many; nothing at all; and
# a book with no edition, whole in its time.
saved_damaged() {
    local name
    for name in settlement crc short long empty; do
        cp "$out/complex.history.image" "$out/$name.image" || return
    done
    without_edition "$out/complex.history.image" "$out/no-edition.image" || return
    [[ $(wc -c < "$out/no-edition.image") -eq $((4 * 952)) ]] || return
    flip_bit "$out/settlement.image" $settlement_byte
    flip_bit "$out/crc.image" $image_bytes
    truncate -s -1 "$out/short.image"
    truncate -s +1 "$out/long.image"
    truncate -s 0 "$out/empty.image"
    for name in settlement crc short long empty no-edition; do
        is_refused "$out/$name.image" || { echo "taken for a book: $name"; return 1; }
    done
}

saved_flips() {
    compile -Iexamples/saved tests/installed/flips.c examples/saved/image_file.c $(flags zlib) -o "$out/flips" &&
        timeout 60 "$out/flips" "$out/complex.history.image"
}

# A second writer is turned away while the first runs, and not after.
saved_one_writer() {
    local image=$out/claimed.image pid status
    mkfifo "$out/first-writer" || return
    "$out/writer" "$image" < "$out/first-writer" > "$out/answers.txt" &
    pid=$!
    exec 9> "$out/first-writer"
    part_of_history found found >&9
    wait_for_lines "$out/answers.txt" 1 && ! writer "$image" < "$history"
    status=$?
    exec 9>&-
    wait "$pid"
    [[ $status -eq 0 ]] && writer "$image" < /dev/null
}

# A file that may not grow to the size of an image: the saving fails, the writer ends, and the book before it is still there.
saved_on_full_disk() {
    local image=$out/full.image
    part_of_history found 'open 2024 2 1' | writer "$image" || return
    cp "$image" "$out/before.image"
    ! (trap '' XFSZ; ulimit -f 1; part_of_history 'sheet 0' 'sheet 0' | writer "$image") || return
    cmp "$image" "$out/before.image" && part_of_history 'sheet 0' 'sheet 0' | head -n 1 | writer "$image"
}

saved() {
    local program
    if ! gcc -E -include zlib.h -x c /dev/null > /dev/null 2>&1; then
        echo "passed over: zlib is not installed"
        return
    fi
    for program in writer checker; do
        logged "saved-$program" compile "examples/saved/$program.c" examples/saved/image_file.c $(flags zlib) \
            -o "$out/$program" || { fail "examples/saved/$program.c does not compile"; return; }
    done
    single saved-answers saved_answers
    single saved-checks saved_checks
    single saved-ended saved_ended
    single saved-carried saved_carried
    single saved-killed saved_killed
    single saved-two-gateways saved_two_gateways
    single saved-busy saved_busy
    single saved-damaged saved_damaged
    single saved-flips saved_flips
    single saved-one-writer saved_one_writer
    single saved-on-full-disk saved_on_full_disk
}
