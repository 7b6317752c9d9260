#!/usr/bin/env bash
# How long a peer can hold `letting serve` that sends a byte of its request every three seconds, and one that sends on behind its
# request: prints the seconds until each is let go, which are to be 30 and 2, and what `serve` printed. Ends with 0 if they are.
set -eu
cd "$(dirname "$0")/.."
./letting batch </dev/null
program=$PWD/crates/dh_desk/out/dh_desk
work=$(mktemp -d)
trap 'rm -rf "$work"' EXIT
"$program" init --file "$work/office.db" --first 2025-01 >"$work/created"
python3 - "$program" "$work/office.db" <<'PY'
import select, socket, subprocess, sys, time

served = subprocess.Popen([sys.argv[1], 'serve', '--file', sys.argv[2], '--port', '0', '--count', '2'], stdout=subprocess.PIPE, text=True)
port = int(served.stdout.readline().split()[1])

def held(first, pause, what):
    """The seconds from the first byte until the peer is told the end."""
    peer = socket.create_connection(('127.0.0.1', port))
    begun, sent = time.monotonic(), 0
    try:
        peer.sendall(first)
        while time.monotonic() - begun < 60:
            if select.select([peer], [], [], pause)[0] and what(peer):
                break
            peer.sendall(b'X')
    except OSError:
        pass
    return time.monotonic() - begun

slow = held(b'GET /branches HTTP/1.0\r\nX: ', 3, lambda peer: True)
print(f'a byte every three seconds: let go after {slow:.1f} s; printed {served.stdout.readline().strip()}')
begun = time.monotonic()
peer = socket.create_connection(('127.0.0.1', port))
peer.sendall(b'GET /branches HTTP/1.0\r\n\r\n')
status = served.stdout.readline().strip()
served.wait()
rest = time.monotonic() - begun
print(f'input that does not end: let go after {rest:.1f} s; printed {status}')
sys.exit(0 if 27 < slow < 34 and 1 < rest < 4 and status == '200' else 1)
PY
