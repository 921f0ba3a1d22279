#!/bin/sh
# Prints the capture of examples/office.pcap: three stations of an office, all of it from `nbt build`. With nbt and its
# tools on PATH: examples/office.sh | nbt-cap2pcap >office.pcap
set -eu

# at MOMENT WORD..: what `nbt build` makes of these words, at this millisecond.
at() {
    moment=$1
    shift
    nbt build "$@" | sed "s/ 0 / $moment /"
}

# FRED, at 10.0.0.6, registers its name, and JOE asks for it.
for each in 0 250 500; do at $each --broadcast registration 0002 'FRED<20>' 300000 0000 10.0.0.6; done
at 1200 --broadcast query 0003 'FRED<20>'

# A datagram in three pieces, of which the last comes first and another one twice.
pieces=$(at 1900 group 10.0.0.5:138/0001 'JOE<00>' 'FRED<20>' 68656c6c6f2c2046524544 4)
printf '%s\n' "$pieces" | tac
printf '%s\n' "$pieces" | sed -n 2p

# A datagram of ANN to JOE, and a session of JOE with FRED.
at 2400 unique 10.0.0.7:138/0007 'ANN<00>' 'JOE<00>' 6869 512
at 3000 request 'FRED<20>' 'JOE<00>'
at 3005 positive
at 3100 message 68656c6c6f
at 3200 keepalive

# The second piece of this datagram never comes.
at 5000 group 10.0.0.5:138/0002 'JOE<00>' 'FRED<20>' 68656c6c6f 4 | sed 1q
at 9000 --broadcast release 0002 'FRED<20>' 0000 10.0.0.6
