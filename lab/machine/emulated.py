"""A Linux that is made of Debian's packages, in an emulated machine whose network cable is a UDP socket."""

import glob
import os
import re
import shutil
import subprocess
from typing import NamedTuple

QEMU, BUSYBOX, PPPD = shutil.which("qemu-system-x86_64"), shutil.which("busybox"), "/usr/sbin/pppd"

# The host behind the core that is pinged and that has a file.
HOST = "192.0.2.1"

# What is asked of it, with the packets that each ping sends. The second sends one where the last was answered, and would send one
# more where an answer took longer than its interval.
PINGS = 3, 300
BLOCK = 1400

# What the console is told once the machine is to say what it counted, and then to hang up or to wait for the other side.
HANG_UP, WAIT = "hang up", "wait"

# With its default route the machine has its address. It says what it counted and hangs up once the lab says so, and after
# the end of what dialed it stays for the PADT, which the gateway sends 3 s after its Terminate-Ack.
INIT = """\
#!/bin/busybox sh
/bin/busybox --install -s /bin
mount -t devtmpfs dev /dev
mount -t proc proc /proc
mount -t sysfs sys /sys
for module in {modules}; do insmod /modules/$module; done
ip link set eth0 up
until grep -q 1 /sys/class/net/eth0/carrier; do sleep 1; done
{dial}
use() {{
    until ip route | grep -q default; do sleep 1; done
    server=$(sed -n 's/^nameserver //p' /etc/ppp/resolv.conf)
    echo "resolv.conf has the server of names $server"
    ping -c {few} $server
    ping -q -A -i 5 -s {block} -c {many} {host}
    tftp -g -b {block} -l /goods -r goods {host}
    echo "the file has the MD5 sum $(md5sum </goods)"
    read line </dev/console
    cd /sys/class/net/ppp0/statistics
    echo "ppp0 sent $(cat tx_bytes) octets in $(cat tx_packets) packets," \\
        "and took $(cat rx_bytes) octets in $(cat rx_packets) packets"
    [ "$line" = "{wait}" ] || hang_up
}}
use &
wait $dialed
echo "the program that dialed ended with status $?"
sleep 4
reboot -f
"""


class Dialer(NamedTuple):
    """How a machine comes to its address: the kernel's modules, the programs for it by Debian's packages (None for one that is
    not there), files by their paths, and lines of shell that start it, keep its process as `dialed` and say how to `hang_up`."""

    modules: list
    programs: dict
    texts: dict
    dial: str


def plugin():
    """pppd's plugin for PPPoE, or None."""
    return max(glob.glob("/usr/lib/pppd/*/rp-pppoe.so"), default=None)


PPPOE = Dialer(["e1000", "pppoe"], {"ppp": plugin()}, {}, f"""\
pppd plugin {plugin()} eth0 user subscriber password secret \\
    debug nodetach noipdefault usepeerdns defaultroute lcp-echo-interval 2 lcp-echo-failure 5 &
dialed=$!
hang_up() {{ kill -TERM $dialed; }}
""")


def module_lists(names):
    """For each installed kernel these modules and those below them in the order of loading, where it has them all."""
    lists = {}
    for path in glob.glob("/lib/modules/*/modules.dep"):
        folder = os.path.dirname(path)
        with open(path, encoding="ascii") as file:
            lines = [line.rstrip().split(":") for line in file]
        needs = {os.path.basename(module): [module, *others.split()] for module, others in lines}
        wanted = [name + ".ko" for name in names]
        kernel = "/boot/vmlinuz-" + os.path.basename(folder)
        if all(name in needs for name in wanted) and os.access(kernel, os.R_OK):
            loaded = dict.fromkeys(module for name in wanted for module in reversed(needs[name]))
            lists[kernel] = [os.path.join(folder, module) for module in loaded]
    return lists


def lacking(dialer):
    """The packages of Debian that are needed and not there."""
    there = [
        ("qemu-system-x86", QEMU),
        ("busybox-static", BUSYBOX and not libraries(BUSYBOX)),
        ("ppp", os.path.exists(PPPD)),
        *((package, path and os.path.exists(path)) for package, path in dialer.programs.items()),
        ("linux-image-amd64", module_lists(dialer.modules)),
    ]
    return list(dict.fromkeys(package for package, found in there if not found))


def libraries(program):
    """The files that the dynamic linker loads for a program, none where it is linked statically."""
    said = subprocess.run(["ldd", program], capture_output=True, text=True, check=False).stdout
    return re.findall(r"(/\S+) \(0x", said)


def entry(name, mode, octets):
    """A file in cpio's format newc, as Linux takes it for its first file system."""
    spelled = name.encode() + b"\0"
    fields = [0, mode, 0, 0, 1, 0, len(octets), 0, 0, 0, 0, len(spelled), 0]
    head = b"070701" + b"".join(b"%08x" % field for field in fields) + spelled
    return head + bytes(-len(head) % 4) + octets + bytes(-len(octets) % 4)


def contents(path):
    with open(path, "rb") as file:
        return file.read()


def file_system(dialer, modules):
    """The archive of all files of the machine."""
    programs = [PPPD, *dialer.programs.values()]
    files = {path: contents(path) for program in programs for path in [program, *libraries(program)]}
    files |= {"/modules/" + os.path.basename(path): contents(path) for path in modules}
    files |= {path: text.encode() for path, text in dialer.texts.items()}
    files["/bin/busybox"] = contents(BUSYBOX)
    names = " ".join(os.path.basename(path) for path in modules)
    few, many = PINGS
    init = INIT.format(modules=names, dial=dialer.dial, host=HOST, block=BLOCK, few=few, many=many, wait=WAIT)
    files["/init"] = init.encode()
    folders = {"/dev", "/proc", "/sys", "/run", "/var/run", "/etc/ppp"}
    for path in [*files, *folders]:
        while (path := os.path.dirname(path)) != "/":
            folders.add(path)
    entries = [entry(path[1:], 0o40755, b"") for path in sorted(folders)]
    entries += [entry(path[1:], 0o100755, octets) for path, octets in files.items()]
    return b"".join(entries) + entry("TRAILER!!!", 0, b"")


def boot(folder, dialer, mac, near, far):
    """Starts the machine, whose network card sends each frame from the UDP port `near` to `far` and takes those that come
    to `near`. Its console is the standard input and output."""
    kernel, modules = max(module_lists(dialer.modules).items(), key=lambda found: os.path.getmtime(found[0]))
    disk = os.path.join(folder, "initrd")
    with open(disk, "wb") as file:
        file.write(file_system(dialer, modules))
    ends = [f"{end}.type=inet,{end}.host=127.0.0.1,{end}.port={port}" for end, port in (("local", near), ("remote", far))]
    command = [
        QEMU, "-accel", "tcg", "-m", "256", "-nodefaults", "-no-reboot", "-display", "none", "-serial", "stdio",
        "-kernel", kernel, "-initrd", disk, "-append", "console=ttyS0 quiet panic=-1 ipv6.disable=1",
        "-netdev", ",".join(["dgram", "id=cable", *ends]),
        "-device", f"e1000,netdev=cable,mac={mac},romfile=",
    ]
    return subprocess.Popen(command, stdin=subprocess.PIPE, stdout=subprocess.PIPE, stderr=subprocess.STDOUT)
