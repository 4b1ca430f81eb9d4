#!/usr/bin/env bash
# can-run.sh: whether run.sh can run here. Installs the Debian packages that are missing, and unpacks osmo-ggsn under target/peers. If it
# cannot, the reason is printed and the status is 1.
set -u

here=$(cd "$(dirname "$0")" && pwd)
namespace=kawsarpa-$$-probe
ggsn=$here/../../target/peers/osmo-ggsn
fetched=
trap 'ip netns delete "$namespace" 2>/dev/null; [ -z "$fetched" ] || rm -rf "$fetched"' EXIT
trap 'exit 1' INT TERM HUP

refuse() {
    echo "$1"
    exit 1
}

[ "$(id -u)" -eq 0 ] || refuse "not root"

missing=()
for pair in tshark:tshark /usr/bin/python3:python3 ip:iproute2 sysctl:procps traceroute:traceroute \
    /usr/include/cyaml/cyaml.h:libcyaml-dev /usr/include/yaml.h:libyaml-dev /usr/include/pcap.h:libpcap-dev; do
    command -v "${pair%%:*}" >/dev/null || [ -e "${pair%%:*}" ] || missing+=("${pair#*:}")
done

export DEBIAN_FRONTEND=noninteractive
install() {
    timeout 300 apt-get update -qq && timeout 300 apt-get install -y -qq --no-install-recommends "$@"
}
if [ ${#missing[@]} -gt 0 ]; then
    command -v apt-get >/dev/null || refuse "no apt-get to install ${missing[*]}"
    install "${missing[@]}" >&2 || refuse "apt cannot install ${missing[*]}"
fi

# `rt ci` refuses a link anywhere in the repository: in the place of each stands a copy of the file that it leads to.
without_links() { # FOLDER
    local link file
    while IFS= read -r link; do
        file=$(readlink -f "$link") || file=
        rm "$link" || return
        if [ -f "$file" ]; then
            cp "$file" "$link" || return
        fi
    done < <(find "$1" -type l)
}

# Installed, it would be started, in no namespace of these tests. So it is unpacked and no more, with the libraries that are missing.
unpack() {
    mkdir -p "${ggsn%/*}" && fetched=$(mktemp -d "$ggsn.XXXXXX") && mkdir "$fetched/partial" &&
        install --download-only -o Dir::Cache::archives="$fetched" -o APT::Sandbox::User=root osmo-ggsn || return
    for package in "$fetched"/*.deb; do
        dpkg -x "$package" "$fetched" || return
    done
    without_links "$fetched" && rm -rf "$ggsn" && mv "$fetched" "$ggsn" && fetched=
}
if ! command -v osmo-ggsn >/dev/null && [ ! -x "$ggsn/usr/bin/osmo-ggsn" ]; then
    command -v apt-get >/dev/null || refuse "no apt-get to fetch osmo-ggsn"
    unpack >&2 || refuse "apt cannot fetch osmo-ggsn"
fi

within() {
    ip netns exec "$namespace" "$@" >/dev/null 2>&1
}
ip netns add "$namespace" 2>/dev/null || refuse "'ip netns add' not permitted"
within true || refuse "'ip netns exec' not permitted"
within ip link add in type veth peer name out || refuse "kernel without veth"
within ip link set in up || refuse "devices cannot be set up in a namespace"
within ip link set out up || refuse "devices cannot be set up in a namespace"
within sysctl -q -w net.ipv6.conf.all.forwarding=1 || refuse "sysctl net.ipv6.conf.all.forwarding cannot be written"
within sysctl -q -w net.ipv6.conf.all.seg6_enabled=1 || refuse "kernel without seg6: no sysctl net.ipv6.conf.all.seg6_enabled to write"
within ip -6 route add 2001:db8:1::/64 encap seg6local action End dev out || refuse "kernel without seg6local"
for mode in encap encap.red l2encap l2encap.red inline; do
    within ip -6 route replace 2001:db8:2::/64 encap seg6 mode "$mode" segs 2001:db8::1 dev out ||
        refuse "kernel or ip without seg6 mode $mode"
done
within ip sr tunsrc set 2001:db8::1 || refuse "'ip sr tunsrc set' not possible"
PYTHONPATH=$here within /usr/bin/python3 -B -c 'import tap; tap.Tap("in")' || refuse "packet sockets with a ring not permitted"
PYTHONPATH=$here within /usr/bin/python3 -B -c 'import tunnel; tunnel.open_device()' || refuse "no TUN device can be made in a namespace"
