#!/bin/bash
# Records programs of Debian's packages anew, each until it has dropped its privilege and waits, and has PROGRAM, a
# built credaudit, certify rights that are gone: of each recording the first two processes with a `yes`.
#
#   record.sh PROGRAM [NAME ..]     all of them where none is named
#
# As root. Needs strace and the packages of the programs below. A folder beside this script gets of a recording what the
# tests read, and `certificates`: lines of a pid, a right and a certificate.
set -u
here=$(cd "$(dirname "$0")" && pwd)
trace=$(cd "$here/../../../.." && pwd)/credaudit-trace
program=$(realpath "$1"); shift
names=" $* "
work=$(mktemp -d) && chmod 755 "$work"
trap 'rm -rf "$work"' EXIT
cd /

record() {
  local name=$1 made=$work/$1 into=$here/$1; shift
  [ "$names" = "  " ] || [[ $names == *" $name "* ]] || return 0
  env -i PATH=/usr/sbin:/usr/bin:/sbin:/bin LANG=C CREDAUDIT="$program" \
    "$trace" -o "$made" --pids-from 100 "$@" >"$work/told" 2>&1 </dev/null
  local status=$?
  echo "$name: status $status, $(tail -n 1 "$work/told")"
  [ $status -eq 0 ] || return 0
  rm -rf "$into" && mkdir "$into" && cp "$made"/{world.toml,log,status.txt,spaces.txt} "$into"
  certify "$into"
}

certify() {
  local right pid left
  for right in uid:0 cap:CAP_SYS_ADMIN@init; do
    left=2
    for pid in $(sed 's/^Pid: \([0-9]*\);.*/\1/' "$1/status.txt"); do
      if [ $left -gt 0 ] && "$program" audit "$1/world.toml" "$1/log" "$pid" "$right" >"$work/audit"; then
        echo "$pid $right $(tail -n 1 "$work/audit")"
        left=$((left - 1))
      fi
    done
  done >"$1/certificates"
}

cat >"$work/jobs" <<'END'
(setpriv --reuid=33 --regid=33 --clear-groups sh -c 'id | cat >/dev/null; sleep 1000') &
(setpriv --reuid=13 --regid=13 --groups=4 --no-new-privs python3 -c 'import threading, time
for _ in range(3): threading.Thread(target=time.sleep, args=(1000,)).start()') &
for i in 1 2 3; do (exit $i); done
su nobody -s /bin/sh -c 'sleep 1000' &
wait
END
cat >"$work/threads" <<'END'
import os, threading, time
for seconds in (0.3, 1000, 0.3):
    threading.Thread(target=time.sleep, args=(seconds,)).start()
os.setgroups([5, 6])
os.setresgid(33, 33, 33)
os.setresuid(33, 33, 33)
time.sleep(1000)
END
cat >"$work/joins" <<'END'
setpriv --reuid=1000 --regid=1000 --clear-groups unshare -U sleep 1000 &
child=$!
sleep 0.5
echo '0 100000 10' | tee /proc/$child/uid_map >/dev/null
echo '0 100000 10' | tee /proc/$child/gid_map >/dev/null
nsenter -t $child -U setpriv --reuid 5 --regid 5 --clear-groups sleep 1000 &
wait
END

record su --for 2 setpriv --no-new-privs su nobody -s /bin/sh -c 'id >/dev/null; exec sleep 1000'
record sudo --for 2 sudo -n -u nobody setpriv --no-new-privs sleep 1000
record setpriv --for 1 setpriv --reuid=33 --regid=33 --groups=4,24 --no-new-privs --bounding-set=-all \
  --inh-caps=-all sleep 1000
record setpriv_ambient --for 1 setpriv --reuid=33 --regid=33 --clear-groups --inh-caps=+net_raw,+net_bind_service \
  --ambient-caps=+net_raw --securebits=+noroot,+noroot_locked sleep 1000
record unshare -u nobody --for 1 unshare -r sleep 1000
record bwrap -u nobody --for 1 bwrap --ro-bind / / --proc /proc --dev /dev --unshare-all sleep 1000
record bwrap_root --for 1 bwrap --ro-bind / / --proc /proc --dev /dev --unshare-user --uid 33 --gid 33 sleep 1000
record ping -u nobody --for 1 ping 127.0.0.1
record memcached --for 1 memcached -u nobody -l 127.0.0.1 -p 11999 -U 0 -t 2
record dnsmasq --for 2 dnsmasq --keep-in-foreground --no-resolv --no-hosts --conf-file=/dev/null --port=15353 \
  --listen-address=127.0.0.1 --bind-interfaces --pid-file="$work/pid" --user=nobody
record start_stop_daemon --for 1 start-stop-daemon --start --chuid nobody:nogroup --startas /usr/bin/sleep \
  --pidfile "$work/none" -- 1000
record sh_jobs --for 3 sh "$work/jobs"
record python_threads --for 2 python3 "$work/threads"
record nsenter --for 3 sh "$work/joins"
record perl --for 2 perl -e \
  '$) = "33 33"; $> = 33; system("id >/dev/null"); $< = 33; $( = 33; if (fork) { wait } else { exec "sleep", "1000" }'
