"""Histories on which `nfsbench decide` is measured, and how long and how much memory a command takes: for measure_decide.py."""
