# Nodes as processes of this machine, for the scripts beside it: they set `config` and `nodes`, and source this file. The register is a
# file, or what they set as `register`.
#
# All files are in a folder of their own, which is removed at the end, as are the nodes, however it ends. Without PROGRAM it is what
# ./ld runs, which is built before any node is started; why it can't be built ./ld says.
top=$(cd "$(dirname "${BASH_SOURCE[0]}")/.." && pwd) || exit 1
if [ $# -eq 0 ]; then
  "$top/ld" exercise --seed 1 --events 0 > /dev/null || exit 1
fi
program=${1:-$top/crates/ld/out/ld}
folder=$(mktemp -d) || exit 1
declare -A process

stop_all() {
  local node
  for node in "${!process[@]}"; do
    kill -KILL "${process[$node]}" 2> /dev/null
    wait "${process[$node]}" 2> /dev/null
  done
  rm -rf "$folder"
}
trap stop_all EXIT
trap 'exit 130' INT
trap 'exit 143' TERM

say() { printf '\n# %s\n' "$*"; }

# A node of the configuration, at a port behind the base; further words are given on.
start() {
  local node=$1
  shift
  "$program" node --id "$node" --config "$config" --store "$folder/store$node" --register "${register:-$folder/register}" \
    --port $((port + node)) --peers 100 "$@" 2> "$folder/node$node" &
  process[$node]=$!
}

# Waits until the node listens; it fails where the node has ended.
is_listening() {
  local node=$1 tries
  for tries in {1..300}; do
    kill -0 "${process[$node]}" 2> /dev/null || return 1
    # a peer that says nothing
    (exec 3<> "/dev/tcp/127.0.0.1/$((port + node))") 2> /dev/null && return 0
    sleep 0.1
  done
  return 1
}

are_listening() {
  local node
  for node in "${nodes[@]}"; do is_listening "$node" || return 1; done
}

kill_node() {
  kill -KILL "${process[$1]}" 2> /dev/null
  wait "${process[$1]}" 2> /dev/null
  unset "process[$1]"
}

# The nodes on free ports: where one is taken, they are tried further on.
start_all() {
  local tries node
  for tries in {1..20}; do
    port=$((20000 + RANDOM % 30000))
    for node in "${nodes[@]}"; do start "$node" --format; done
    are_listening && return 0
    for node in "${nodes[@]}"; do
      kill_node "$node"
      rm -f "$folder/store$node"
    done
    rm -f "$folder/register"
  done
  cat "$folder"/node? >&2
  return 1
}

# A command over the nodes, with the configuration that stands at the moment.
log() { "$program" "$1" --config "$config" --log 1 --register "${register:-$folder/register}" --port "$port" "${@:2}"; }
