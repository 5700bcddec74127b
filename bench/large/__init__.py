"""Large histories of concurrent clients, each with a certificate that is a witness of it (make_large.py)."""
