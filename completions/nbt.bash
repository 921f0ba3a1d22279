# Completion of nbt and its tools. tools/completions.py wrote it from their help texts.

_nbt() {
    local words=''
    case $COMP_CWORD:${COMP_WORDS[1]} in
    1:*) words='name show build replay save merge list agree help --help --version' ;;
    2:help) words='name show build replay save merge list agree' ;;
    *:name) words='--bytes --help' ;;
    *:show) words='--input-limit --comments --brief --partial --json --help' ;;
    *:build)
        words='--broadcast --help'
        case $3 in build | --broadcast) words+=' query status registration refresh release response request message positive negative retarget keepalive unique group broadcast error find found missing' ;; esac
        ;;
    *:replay) words='--keys --per-source --input-limit --comments --json --help' ;;
    *:save) words='--keys --per-source --input-limit --help' ;;
    *:merge) words='--keys --per-source --help' ;;
    *:list) words='--keys --per-source --json --help' ;;
    *:agree) words='--list --help' ;;
    esac
    case $3 in
    --input-limit | --keys | --per-source) words='' ;;
    esac
    COMPREPLY=($(compgen -W "$words" -- "$2"))
}
complete -F _nbt nbt

_nbt_tool() {
    local words=''
    case ${1##*/} in
    nbt-look) words='--quiet --name --host --port --kind -c --time --color --json --lines --bare --no-ticks --cut -r --help --version' ;;
    nbt-look-tshark) words='-i --live --summary --frame --json --html --name --host --port --kind --time --color --quiet --version -r --help' ;;
    nbt-cap2pcap) words='--help' ;;
    nbt-dask) words='--force --program --shard-bytes --by-source --tables --quiet --scheduler --workers --send --wait --help' ;;
    nbt-station) words='--bind --port --address --keys --per-source --json --save --pid --join --help' ;;
    esac
    COMPREPLY=()
    [[ $2 != -* ]] || COMPREPLY=($(compgen -W "$words" -- "$2"))
}
complete -o default -F _nbt_tool nbt-look nbt-look-tshark nbt-cap2pcap nbt-dask nbt-station
