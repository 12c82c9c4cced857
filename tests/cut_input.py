"""Runs a program whose standard input is a connection that brings the bytes of a file and then breaks: the next read fails, and the one
after it would say that the input has ended.

usage: cut_input.py FILE PROGRAM
"""
import pathlib
import socket
import struct
import subprocess
import sys
import time


def main():
    if len(sys.argv) != 3:
        sys.exit(__doc__)
    given = pathlib.Path(sys.argv[1]).read_bytes()
    listener = socket.create_server(("127.0.0.1", 0))
    here = socket.create_connection(listener.getsockname())
    there, _ = listener.accept()
    # a connection closed with this setting is reset, not ended
    here.setsockopt(socket.SOL_SOCKET, socket.SO_LINGER, struct.pack("ii", 1, 0))
    here.sendall(given)
    program = subprocess.Popen([sys.argv[2]], stdin=there)
    there.close()
    # what was sent must be read before the reset, which would drop it
    time.sleep(0.5)
    here.close()
    sys.exit(program.wait(timeout=10))


main()
