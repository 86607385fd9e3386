# What bin/p4switch says by itself, for a shell that has `top`: usage, versions, which word is wrong, and at which ports
# it listens. The grammar of the words is the program's (docs/formats.md); here it only tells what the program refused.

usage_of() {
  case ${1-} in
    serve) echo "usage: p4switch serve --port N [--packets N] [--workers N] [--device N] [--cpu N] [--rows N]" ;;
    replay) echo "usage: p4switch replay [--lockstep] [--bridge] [--device N] [--cpu N] [--rows N] < TAPE > REPORT" ;;
    check) echo "usage: p4switch check < CONFIG" ;;
    gen) echo "usage: p4switch gen N" ;;
    *) echo "usage: p4switch [--preview] serve|replay|check|gen .. (p4switch --help says more)" ;;
  esac
}

help_text() {
  cat << END
p4switch, a P4 software switch that is controlled over P4Runtime 1.3.0.

p4switch serve --port N [--packets N] [--workers N] [--device N] [--cpu N] [--rows N]
    serves controllers over gRPC at TCP port N of 127.0.0.1, until a signal ends it
    --packets N   the UDP port that takes packets, 1 to 65534 (9000); what leaves goes to the port above
    --workers N   threads for packets, 1 to 16 (2)
p4switch replay [--lockstep] [--bridge] [--device N] [--cpu N] [--rows N] < TAPE > REPORT
    runs a tape of calls and packets and writes what came of them
    --lockstep    item by item, so that the report is the same each time
    --bridge      starts with the built-in Ethernet bridge
p4switch check < CONFIG
    says ok, or the rule that a configuration breaks first
p4switch gen N
    makes a load of 100 N routes and 400 N packets, N from 1 to 64, runs it in lockstep, and counts what came of it

    --device N    the device id, 1 or more (1)
    --cpu N       the port of the controllers, 1 to 510 (255)
    --rows N      rows for all tables, 1024 to 262144 (16384)
p4switch --preview ..
    runs the program as it is written, unproved, in two to four minutes
p4switch --version
    what runs here

Statuses: 0; 1 no tape; 2 words refused; 3 no memory, or nothing to run; 4 read fault; 5 write fault; 6 tape too long;
7 net fault; 8 the configuration is refused.
Read on: README.md; docs/formats.md (tapes, reports, calls, statuses); docs/live.md (bin/p4ctl, which looks at a switch
that serves and drives it); docs/tapes-in-words.md (bin/p4tape); docs/programs.md (which P4 programs load, bin/p4config).
END
}

version_text() {
  local commit toolchain
  commit=$(git -C "$top" log -1 --format='%h of %cs' 2> /dev/null) || commit=
  echo "p4switch ${commit:-of an unknown commit}, P4Runtime 1.3.0"
  toolchain=$(rt version 2> /dev/null) || toolchain=
  echo "toolchain: ${toolchain:-rt is not on the path}"
  if [ -x "$top/crates/p4switch/out/p4switch" ]; then
    echo "program: crates/p4switch/out/p4switch"
  else
    echo "program: not built yet; the first run proves and builds it"
  fi
}

# Whether a word is a number from LOW to HIGH, without a sign and without zeros in front.
number_in() {
  [[ $1 =~ ^(0|[1-9][0-9]{0,18})$ ]] || return 1
  [ -z "$3" ] && { [ "$1" != 0 ]; return; }
  [ ${#1} -le 9 ] && [ "$1" -ge "$2" ] && [ "$1" -le "$3" ]
}

# Says which word is wrong; nothing where none is.
wrong_word() {
  local command=${1-} given=" " name range
  case $command in
    replay | serve) shift ;;
    check) [ $# -lt 2 ] || echo "check takes no words, and $2 is one; the configuration comes on standard input"; return ;;
    gen)
      if [ $# -lt 2 ]; then echo "gen needs a number"
      elif [ $# -gt 2 ]; then echo "gen takes one number, and $3 stands behind it"
      else number_in "$2" 1 64 || echo "gen takes a number from 1 to 64, and $2 is none"
      fi
      return ;;
    "") echo "a command is missing"; return ;;
    -*) echo "a command stands first, and $command is none"; return ;;
    *) echo "there is no command $command"; return ;;
  esac
  while [ $# -gt 0 ]; do
    name=$1 range=
    case $command$name in
      replay--lockstep | replay--bridge) ;;
      serve--port) range="1 65535" ;;
      serve--packets) range="1 65534" ;;
      serve--workers) range="1 16" ;;
      *--device) range="1 -" ;;
      *--cpu) range="1 510" ;;
      *--rows) range="1024 262144" ;;
      *--*=*) echo "$name is written ${name%%=*} ${name#*=}"; return ;;
      *) echo "$command has no option $name"; return ;;
    esac
    case $given in *" $name "*) echo "$name is given twice"; return ;; esac
    given="$given$name "
    shift
    [ -n "$range" ] || continue
    local low=${range% *} high=${range#* }
    [ "$high" != - ] || high=
    [ $# -gt 0 ] || { echo "$name needs a number"; return; }
    number_in "$1" "$low" "$high" || { echo "$name takes a number from $low to ${high:-9999999999999999999}, and $1 is none"; return; }
    shift
  done
  case $command$given in serve*" --port "* | replay*) ;; *) echo "serve needs --port N" ;; esac
}

# Says what is wrong with words that were refused.
tell_wrong() {
  local wrong
  wrong=$(wrong_word "$@")
  [ -z "$wrong" ] || echo "p4switch: $wrong" >&2
  usage_of "${1-}" >&2
}

# The value of an option among words, or its default.
option_of() {
  local name=$1 value=$2
  shift 2
  while [ $# -gt 0 ]; do
    [ "$1" != "$name" ] || value=${2-}
    shift
  done
  echo "$value"
}

# The numbers (inodes) of the sockets that hold a port of 127.0.0.1, or of all addresses: KIND tcp or udp.
holders() {
  local kind=$1 port state=0A hex address rest file sl local remote st fields
  [ "$kind" = tcp ] || state=07
  hex=$(printf ':%04X' "$2")
  for file in "/proc/net/$kind" "/proc/net/${kind}6"; do
    [ -r "$file" ] || continue
    while read -r sl local remote st fields; do
      [ "$st" = "$state" ] && [ "${local: -5}" = "$hex" ] || continue
      case ${local%:*} in
        0100007F | 00000000 | 00000000000000000000000000000000 | 0000000000000000FFFF00000100007F) ;;
        *) continue ;;
      esac
      set -- $fields
      echo "$6"
    done < "$file"
  done
}

# Names the process that has a port already, if one has.
tell_taken() {
  local kind=$1 port=$2 inode found pid
  for inode in $(holders "$kind" "$port"); do
    found=$(find /proc/[0-9]*/fd -lname "socket:\[$inode\]" -print -quit 2> /dev/null)
    pid=${found#/proc/}
    pid=${pid%%/*}
    if [ -n "$pid" ]; then
      echo "p4switch: ${kind^^} port $port is taken by process $pid ($(cat "/proc/$pid/comm" 2> /dev/null))" >&2
    else
      echo "p4switch: ${kind^^} port $port is taken by a process of another user" >&2
    fi
    return
  done
}

# Whether a process has a port; without a process whether anyone has.
has_port() {
  local inode
  for inode in $(holders "$2" "$3"); do
    [ -n "$1" ] || return 0
    [ -z "$(find "/proc/$1/fd" -lname "socket:\[$inode\]" -print -quit 2> /dev/null)" ] || return 0
  done
  return 1
}

# Waits until a process that lives listens at its ports, and says so: ALIVE is the process to wait for, OWNER the one
# that has the sockets, or nothing.
announce() {
  local alive=$1 owner=$2 port=$3 packets=$4 tries=0
  until has_port "$owner" tcp "$port" && has_port "$owner" udp "$packets"; do
    # (what has ended and was not waited for has no program any more)
    readlink "/proc/$alive/exe" > /dev/null 2>&1 || return 0
    tries=$((tries + 1))
    [ $tries -lt 6000 ] || return 0
    sleep 0.1
  done
  echo "p4switch: controllers are served at TCP port $port of 127.0.0.1; packets come in at UDP port $packets and leave" \
    "to UDP port $((packets + 1))$([ ! -t 2 ] || echo "; Ctrl-C ends it")" >&2
}

# Before `serve` begins: names ports that are taken, and has said at which it listens, once it does. WORDS are of serve.
before_serving() {
  local owner=$1 port packets
  shift
  port=$(option_of --port "" "$@") packets=$(option_of --packets 9000 "$@")
  tell_taken tcp "$port"
  tell_taken udp "$packets"
  # (behind a process that ends at once, so that the switch has no child that it must wait for)
  ( announce $$ "$owner" "$port" "$packets" > /dev/null & )
}
