#!/usr/bin/env python3
"""The network of apart.sh:  router.py FOLDER NAME ADDRESS [NAME ADDRESS ..]

Each name has a network namespace with one device of this address, and what it sends goes through this process. It prints
`NAME /proc/..` for each namespace and then `ready`; they are gone with it. What FOLDER has says how it is, and may change:

    delay      the milliseconds that a packet is on its way, so half of a round trip's
    cut.NAME   nothing comes to that name or from it
"""

import ctypes
import fcntl
import heapq
import os
import select
import socket
import struct
import subprocess
import sys
import time

TUNSETIFF, IFF_TUN, IFF_NO_PI = 0x400454CA, 0x0001, 0x1000
CLONE_NEWNET = 0x40000000
PR_SET_PDEATHSIG, SIGKILL = 1, 9
# The seconds between two looks at the folder.
LOOK = 0.02


class Network:
    """The devices by their addresses, and the packets on their way."""

    def __init__(self, folder):
        self.folder, self.fds, self.names, self.kept = folder, {}, {}, []
        self.queue, self.count = [], 0
        self.delay, self.cut, self.looked = 0.0, set(), 0.0

    def add(self, libc, name, address):
        """A namespace with a device; this process is in it from then on."""
        if libc.unshare(CLONE_NEWNET) != 0:
            raise OSError("no network namespace can be made")
        self.kept.append(os.open("/proc/self/ns/net", os.O_RDONLY))
        device = os.open("/dev/net/tun", os.O_RDWR | os.O_NONBLOCK)
        fcntl.ioctl(device, TUNSETIFF, struct.pack("16sH", b"eth0", IFF_TUN | IFF_NO_PI))
        for words in (
            ["link", "set", "lo", "up"], ["addr", "add", address + "/24", "dev", "eth0"],
            ["link", "set", "eth0", "mtu", "9000", "up"],
        ):
            subprocess.run(["ip", *words], check=True)
        key = socket.inet_aton(address)
        self.fds[key], self.names[device] = device, name
        print(name, f"/proc/{os.getpid()}/fd/{self.kept[-1]}", flush=True)

    def look(self, now):
        if now - self.looked < LOOK:
            return
        self.looked = now
        found = os.listdir(self.folder)
        self.cut = {one[4:] for one in found if one.startswith("cut.")}
        try:
            with open(self.folder + "/delay", encoding="ascii") as text:
                self.delay = float(text.read() or 0) / 1000
        except (OSError, ValueError):
            pass

    def take(self, device, now):
        """Takes what a device sends, and puts it on its way."""
        for _ in range(64):
            try:
                packet = os.read(device, 65536)
            except BlockingIOError:
                return
            to = self.fds.get(packet[16:20])
            if packet[:1] and packet[0] >> 4 == 4 and to is not None:
                self.count += 1
                heapq.heappush(self.queue, (now + self.delay, self.count, device, to, packet))

    def hand_on(self, now):
        while self.queue and self.queue[0][0] <= now:
            _, _, device, to, packet = heapq.heappop(self.queue)
            if self.names[device] not in self.cut and self.names[to] not in self.cut:
                try:
                    os.write(to, packet)
                except OSError:
                    pass

    def run(self):
        poll = select.poll()
        for device in self.names:
            poll.register(device, select.POLLIN)
        while True:
            wait = LOOK * 1000 if not self.queue else max(0.0, (self.queue[0][0] - time.monotonic()) * 1000)
            for device, _ in poll.poll(min(wait, 1000)):
                self.take(device, time.monotonic())
            now = time.monotonic()
            self.look(now)
            self.hand_on(now)


def main():
    libc = ctypes.CDLL(None, use_errno=True)
    libc.prctl(PR_SET_PDEATHSIG, SIGKILL)
    network = Network(sys.argv[1])
    words = sys.argv[2:]
    for name, address in zip(words[::2], words[1::2]):
        network.add(libc, name, address)
    print("ready", flush=True)
    network.run()


main()
