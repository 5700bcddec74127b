"""What would have to be wrong for a green of `nfsbench` to be green all the same: `try_greens.py` is its command.

    runs, table             a command of the program and what a trial gets; a row, its judgement, its line
    faults, proxy           servers and networks that are wrong
    nights, recordings      a run of `test`; a recorder, its clients and orders
    scripts                 rows that another script tries

The others have the rows, by subject:

    servers, networks, orders, clocks
                            of `test`
    taps                    of `tap --strict`, and of `search` and `report` behind it
    disks, captures, commands, memory
                            of the commands that read and write files
"""
