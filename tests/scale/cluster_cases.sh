# Read by tests/scale.sh: a scheduler and a worker of dask.distributed, and tools/nbt-dask where it lacks workers, has other files, or loses
# its scheduler.

# background MODULE WORD..: starts a part of the cluster, in another folder.
background() {
    (cd elsewhere && PATH=$room/installed/bin:$PATH exec "${served[@]}" "$@" --scheduler-file "$room/cluster" --no-dashboard >>"$room/logs" 2>&1) &
    disown
}

# cluster: a scheduler without workers is waited for; what a worker reads then has to be what the client read.
cluster() {
    mkdir elsewhere there
    "$python" "$here/scale/serving.py" "$room/serving" &
    server=$!
    served=(python3 -S -E "$here/scale/serving.py" "$room/serving")
    awaits test -S serving
    background distributed.cli.dask_scheduler --host 127.0.0.1 --port 0
    scheduler=$!
    awaits test -s cluster
    address=$(sed -n 's/^ *"address": "\(.*\)",$/\1/p' cluster)
    engine there/nbt-dask "${served[@]}" "$tools/nbt-dask" --scheduler "$address"
    # A client apart: its own mounts are its own.
    engine nbt-dask "$python" "$tools/nbt-dask" --scheduler "$address"
    ends 3 "$(printf "nbt-dask: the scheduler $address has no workers%s\n" ': waiting 2 seconds for one' ', 2 seconds long')" \
        there/nbt-dask "$program" gaps out --wait 2 && [ ! -e out ]
    count $? "nbt-dask without workers: $(cat errors)"
    cp gaps changing
    meanwhile "$room/changing: lines 1 to 4440: a worker reads other bytes there; --send sends the shards" changing \
        eval "sed -i '4000s/.\$/x/' changing; background distributed.cli.dask_worker --nthreads 1 --no-nanny --local-directory one; worker=\$!"
    # It reads the client's captures by their whole paths, and nothing else of these names.
    cp flow elsewhere/gaps
    gives gaps.table "${served[@]}" "$tools/nbt-dask" --scheduler "$address" gaps
    refuses 3 'nbt-dask: nowhere: a worker has no such program; --program names it' there/nbt-dask nowhere gaps
    # A table that comes to OUT meanwhile stays.
    : >started
    ended there/nbt-dask "$room/slow" gaps out >output 2>errors &
    awaits has_started 1 && cp flow.table out
    wait $!
    [ $? -eq 2 ] && cmp -s flow.table out
    count $? "nbt-dask, whose OUT another makes: $(cat errors)"
    rm out
    # Of 17 tables one waits for a second merge.
    gives table there/nbt-dask "$program" many --shard-bytes 560000
    grouped there/nbt-dask 3 flow.table --shard-bytes $((line + 1)) flow
    shows_progress there/nbt-dask
    refusals there/nbt-dask
    captures there/nbt-dask
    links there/nbt-dask
    replaced there/nbt-dask
    harmless there/nbt-dask
}

# cluster_ends: the worker, then the scheduler.
cluster_ends() {
    kill "$worker" && awaits has_ended "$worker"
    stands_still
    meanwhile "the scheduler $address has ended, or can't be reached any more" gaps kill -9 "$scheduler"
    refuses 3 "nbt-dask: no scheduler at $address: *" there/nbt-dask "$program" gaps
    kill $server && wait $server
}

# stands_still: a scheduler that stands still, which is a child of the process that serves it, ends the run with a line.
stands_still() {
    local client stopped
    : >errors
    ended ./nbt-dask "$program" gaps out --wait 4 >output 2>errors &
    client=$!
    awaits grep -q 'has no workers' errors
    read -ra stopped <"/proc/$server/task/$server/children"
    kill -STOP "${stopped[@]}"
    wait $client
    [ $? -eq 3 ] && [ ! -e out ] && [ "$(tail -n 1 errors)" = "nbt-dask: the scheduler $address doesn't answer, 4 seconds long" ]
    count $? "nbt-dask, whose scheduler stands still: $(cat errors)"
    kill -CONT "${stopped[@]}"
}

# meanwhile WHY CAPTURE COMMAND..: nbt-dask says that it waits for a worker, a command runs, and it ends for this reason.
meanwhile() {
    local client
    : >errors
    ended there/nbt-dask "$program" "$2" out >output 2>errors &
    client=$!
    awaits grep -q 'has no workers' errors
    "${@:3}"
    wait $client
    [ $? -eq 3 ] && [ ! -e out ] &&
        [ "$(cat errors)" = "nbt-dask: the scheduler $address has no workers: waiting 60 seconds for one"$'\n'"nbt-dask: $1" ]
    count $? "nbt-dask, which waits for a worker, $2: $(cat errors)"
}

# takes_port: another program, $port, has the port of dask's pages.
takes_port() {
    : >bound
    python3 -S -E -c 'import socket, time; it = socket.socket(); it.bind(("", 8787)); it.listen(); print(flush=True); time.sleep(500)' \
        >bound 2>/dev/null &
    port=$!
    awaits eval "[ -s bound ] || has_ended $port"
}
