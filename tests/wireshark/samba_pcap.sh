#!/usr/bin/env bash
# Makes examples/samba.pcap: Samba's nmbd, smbd, nmblookup and smbclient as two stations with a veth pair between them, each in
# a network namespace of its own. It takes a minute and a half. Usage, as root: tests/wireshark/samba_pcap.sh FILE, with what these
# packages have: apt-get install samba smbclient tshark tcpdump iproute2
#
# FRED (10.0.0.6) is a file server of the group OFFICE, and JOE (10.0.0.5) a station of it. JOE looks for FRED, for the group,
# for the master browser and for NOBODY, asks FRED for its names, and calls it on port 139; another nmbd at 10.0.0.5 then claims
# FRED too. The addresses, and the time of the first second, are the same in each run; numbers, ports and moments aren't.
set -euo pipefail

# All that is started ends with this script: it runs as the first process of a namespace.
if [ "${1:-}" != --inside ]; then
    exec unshare --net --uts --mount --pid --fork --kill-child --mount-proc "$0" --inside "$(realpath "$1")"
fi
file=$2
hostname fred
room=$(mktemp -d)
trap 'rm -rf "$room"' EXIT
chmod 755 "$room"

# station NAME SHORT WORD..: the folder of a station, and the settings that it has besides the common ones.
station() {
    local folder=$room/$1
    mkdir -p "$folder/private" "$folder/share"
    {
        printf '[global]\nnetbios name = %s\nworkgroup = OFFICE\nsmb ports = 139\nserver min protocol = NT1\n' "$2"
        printf 'client min protocol = NT1\nmap to guest = bad user\nload printers = no\ndisable spoolss = yes\n'
        printf 'bind interfaces only = yes\ninterfaces = eth0\nlog level = 0\nname resolve order = bcast\n'
        printf 'local master = %s\npreferred master = %s\n' "$3" "$3"
        for each in lock state cache pid ncalrpc; do
            mkdir "$folder/$each"
            [ $each = ncalrpc ] && printf 'ncalrpc dir = %s\n' "$folder/$each" || printf '%s directory = %s\n' $each "$folder/$each"
        done
        printf 'private dir = %s\nlog file = %s/log\n' "$folder/private" "$folder"
        printf '[share]\npath = %s/share\nguest ok = yes\n' "$folder"
    } >"$folder/smb.conf"
}

# up ADDRESS MAC WORD..: an interface of one station, by the words that run a command there.
up() {
    local address=$1 mac=$2
    shift 2
    "$@" sysctl -qw net.ipv6.conf.all.disable_ipv6=1 || true
    "$@" ip link set lo up
    "$@" ip link set eth0 address "$mac" gso_max_segs 1
    "$@" ip address add "$address/24" broadcast 10.0.0.255 dev eth0
    "$@" ip link set eth0 up
}

unshare --net sleep infinity &
other=$!
there=(nsenter --net --target "$other")
sleep 0.5
ip link add eth0 type veth peer name eth0 netns "$other"
up 10.0.0.6 02:00:00:00:00:06
up 10.0.0.5 02:00:00:00:00:05 "${there[@]}"
station fred FRED yes
station joe JOE no
station second FRED no

tcpdump -i eth0 -U -w "$room/whole.pcap" ip 2>"$room/tcpdump" &
listening=$!
sleep 1
nmbd --foreground --no-process-group -s "$room/fred/smb.conf" &
smbd --foreground --no-process-group -s "$room/fred/smb.conf" &
sleep 15
"${there[@]}" nmbd --foreground --no-process-group -s "$room/joe/smb.conf" &
joe=$!
sleep 12
asks() { "${there[@]}" nmblookup -s "$room/joe/smb.conf" "$@" || true; }
asks FRED
asks 'OFFICE#00'
asks -M OFFICE
asks NOBODY
asks -A 10.0.0.6
seq 1000 >"$room/fred/share/numbers.txt"
"${there[@]}" smbclient -s "$room/joe/smb.conf" -p 139 -U guest% //FRED/share -c 'ls; get numbers.txt /dev/null'
sleep 15
kill "$joe"
wait "$joe" || true
"${there[@]}" nmbd --foreground --no-process-group -s "$room/second/smb.conf" &
sleep 12
kill "$listening"
wait "$listening" || true

first=$(tshark -n -r "$room/whole.pcap" -c 1 -T fields -e frame.time_epoch)
editcap -F pcap -t "-${first%.*}" "$room/whole.pcap" "$file"
