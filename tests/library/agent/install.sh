#!/bin/sh
# tests/library/agent/install.sh PACKAGE.deb: installs the package by apt, upgrades it, removes it and purges it, with its own scripts,
# in a copy of this system that exists as long as this script runs: an overlay in a separate mount namespace. Nothing outside it is
# written. It prints a line for each check, `pass WHAT` or `fail WHAT`, and `unable` if this system has no such namespaces.
#
# There is no systemd in it. If the package's scripts call it, they call two programs of this script, which record the arguments.
set -u
if [ "${2:-}" != inside ]; then
    room=$(mktemp -d)
    trap 'rmdir "$room"' EXIT
    unshare --mount --propagation private sh "$0" "$1" inside "$room"
    exit 0
fi
room=$3 root=$3/root said=$3/root/said
{ mount -t tmpfs tmpfs "$room" && mkdir "$room/up" "$room/work" "$root" &&
    mount -t overlay overlay -o "lowerdir=/,upperdir=$room/up,workdir=$room/work" "$root" &&
    mount --bind /proc "$root/proc" && mount --rbind /dev "$root/dev"; } 2>/dev/null || { echo unable; exit 0; }
cp "$1" "$root/kitchenrue-agent.deb"
mkdir -p "$root/run/systemd/system" "$root/tmp"
chmod 1777 "$root/tmp"
# (is-active says what the file of that name has)
cat >"$root/asked" <<'STUB'
#!/bin/sh
echo "${0##*/} $*" >>/called
[ "$1" != is-active ] || exec test -e /active
STUB
chmod 755 "$root/asked"
for name in systemctl deb-systemd-invoke; do rm -f "$root/usr/bin/$name"; cp "$root/asked" "$root/usr/bin/$name"; done
inside() { chroot "$root" "$@" </dev/null >"$said" 2>&1; }
check() {
    what=$1; shift
    if "$@"; then echo "pass $what"; else echo "fail $what: $(tail -c 600 "$said" | tr '\n' '|') $(tr '\n' '|' <"$root/called")"; fi
}
not() { ! "$@"; }
has() { inside stat -c "%U:%G %a" "$1" && [ "$(cat "$said")" = "$2" ]; }
called() { grep -q -x -e "$1" "$root/called"; }
own=/var/lib/kitchenrue-agent unit=kitchenrue-agent.service
# An agent as its unit starts it: until it runs, and then SIGTERM; its status has to be this.
runs() {
    chroot "$root" setpriv --reuid kitchenrue-agent --regid kitchenrue-agent --init-groups timeout 60 sh -c "cd $own && exec \
        /usr/bin/kitchenrue-agent -config-dir /etc/kitchenrue-agent -bind 127.0.0.1:0 -rpc-addr 127.0.0.1:0 \
        -event-handler 'member-join=kill -TERM \$PPID'" \
        </dev/null >"$said" 2>&1
    [ $? -eq "$1" ] && grep -q -e "$2" "$said"
}

inside userdel --force kitchenrue-agent
: >"$root/called"
before=$(chroot "$root" dpkg-query -W -f '${Package}\n' | wc -l)
check "apt installs it" inside env DEBIAN_FRONTEND=noninteractive apt-get install -y -q /kitchenrue-agent.deb
check "without a warning" not grep -i -q -e warn -e "^[EW]:" "$said"
check "and no other package" [ "$(chroot "$root" dpkg-query -W -f '${Package}\n' | wc -l)" -eq $((before + 1)) ]
check "it doesn't start by itself" not called ".*start.*"
check "the user" inside sh -c "getent passwd kitchenrue-agent | grep -q ':$own:/usr/sbin/nologin\$'"
check "its settings are the user's to read" has /etc/kitchenrue-agent/agent.json "root:kitchenrue-agent 640"
check "systemd takes the unit" inside systemd-analyze verify --man=no /lib/systemd/system/$unit
check "and says nothing" [ ! -s "$said" ]
inside install -D -m 644 /usr/share/doc/kitchenrue-agent/examples/hardened.conf /etc/systemd/system/$unit.d/hardened.conf
check "and the hardened one" inside systemd-analyze verify --man=no /lib/systemd/system/$unit
check "and says nothing of it" [ ! -s "$said" ]
inside install -d -m 750 -o kitchenrue-agent -g kitchenrue-agent $own
check "it runs as its user" runs 1 "shutdown complete"
check "its snapshot is its own" has $own/snapshot "kitchenrue-agent:kitchenrue-agent 600"
inside chown root: $own/snapshot
check "a snapshot that root wrote is refused by a sentence" runs 1 "^kitchenrue-agent: -snapshot: .*is not writable"
inside chown kitchenrue-agent: $own/snapshot
check "and accepted after chown" runs 1 "shutdown complete"
sed -i 's/info/debug/' "$root/etc/kitchenrue-agent/agent.json"
check "an upgrade" inside dpkg -i /kitchenrue-agent.deb
check "starts nothing that doesn't run" not called ".*start $unit"
touch "$root/active"
check "an upgrade while it runs" inside dpkg -i /kitchenrue-agent.deb
check "restarts it" called "deb-systemd-invoke restart $unit"
check "and keeps the settings" grep -q debug "$root/etc/kitchenrue-agent/agent.json"
check "a removal" inside dpkg -r kitchenrue-agent
check "stops it" called "systemctl stop $unit"
check "and keeps its file" has $own/snapshot "kitchenrue-agent:kitchenrue-agent 600"
chroot "$root" setpriv --reuid kitchenrue-agent --regid kitchenrue-agent --clear-groups sleep 60 </dev/null >/dev/null 2>&1 &
left=$!
check "a purge, while a handler's child runs" inside dpkg -P kitchenrue-agent
kill $left
check "asks nothing and leaves no user" not inside getent passwd kitchenrue-agent
check "and no group" not inside getent group kitchenrue-agent
check "and no files" not inside sh -c "ls -d $own /etc/kitchenrue-agent /usr/share/doc/kitchenrue-agent"
