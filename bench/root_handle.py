#!/usr/bin/env python3
"""Asks a server's MOUNT service for an export's root handle, and prints it in hex: root_handle.py ADDRESS PORT PATH"""
import socket, struct, sys


def opaque(data):
    return struct.pack(">I", len(data)) + data + bytes(-len(data) % 4)


def connect(address, port):
    for source in range(700, 1000):     # some servers answer only those who call from a reserved port
        try:
            return socket.create_connection((address, port), 5, ("", source))
        except PermissionError:
            break
        except ConnectionRefusedError:
            sys.exit("no MOUNT service takes connections there")
        except OSError:
            continue
    return socket.create_connection((address, port), 5)


def main(address, port, path):
    credential = opaque(struct.pack(">I", 0) + opaque(b"recorder") + struct.pack(">4I", 0, 0, 1, 0))
    call = struct.pack(">7I", 1, 0, 2, 100005, 3, 1, 1) + credential + struct.pack(">2I", 0, 0) + opaque(path.encode())
    with connect(address, int(port)) as sock:
        stream = sock.makefile("rwb")
        stream.write(struct.pack(">I", 0x80000000 | len(call)) + call)
        stream.flush()
        size = struct.unpack(">I", stream.read(4))[0] & 0x7FFFFFFF
        reply = stream.read(size)
    accepted, status = struct.unpack_from(">2I", reply, 20)
    if accepted or status:
        sys.exit(f"the server refuses: RPC status {accepted}, MOUNT status {status}")
    count = struct.unpack_from(">I", reply, 28)[0]
    print(reply[32:32 + count].hex())


main(*sys.argv[1:])
