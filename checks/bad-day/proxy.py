#!/usr/bin/env python3
"""Stands between ssh and an sshd:  proxy.py PORT REFUSED STALL

It prints its own port, ends the first REFUSED connections at once, and hands on what the others say to PORT, until the
file STALL is there: from then on it says nothing any more, and takes connections without answering. It ends after
three minutes.
"""

import os
import select
import socket
import sys
import threading
import time

port, refused, stall = int(sys.argv[1]), int(sys.argv[2]), sys.argv[3]
end = time.time() + 180


def hand_on(one, other):
    """What each of the two says to the other, until one of them ends."""
    while time.time() < end:
        if os.path.exists(stall):
            time.sleep(1)
            continue
        for ready in select.select([one, other], [], [], 0.2)[0]:
            try:
                said = ready.recv(65536)
                if said:
                    (other if ready is one else one).sendall(said)
                    continue
            except OSError:
                pass
            one.close()
            other.close()
            return


taken = socket.create_server(("127.0.0.1", 0))
taken.settimeout(0.5)
print(taken.getsockname()[1], flush=True)
kept = []
while time.time() < end:
    try:
        one = taken.accept()[0]
    except TimeoutError:
        continue
    if refused > 0:
        refused -= 1
        one.close()
    elif os.path.exists(stall):
        kept.append(one)
    else:
        other = socket.create_connection(("127.0.0.1", port))
        threading.Thread(target=hand_on, args=(one, other), daemon=True).start()
