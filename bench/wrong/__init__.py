"""A server of NFS version 3 in memory, right by default and wrong on purpose: `wrong_server.py` is its command."""
