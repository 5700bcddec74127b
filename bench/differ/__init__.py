"""A second checker of histories, and a maker of random histories, for try_histories.py.

The checker says what `nfsbench check` has to print of a history and a certificate. It is written from the rules alone and works as
they are said: a tree is a map from paths, each era is run from its start, faults are looked for one after another.

    items, layouts, rpc         XDR, the messages of NFS version 3, the heads of RPC messages
    histories, starts, certificates, refusals
                                the two files and their faults
    trees, success, failure, strict
                                what a call does, what it may answer, and which attributes its reply may carry
    plans, verdicts             shape, order, run, cuts, write verifiers; the line that is printed

    draws, openings, clients    random values, starting objects, calls of clients
    server, replies, carried, lies
                                a server that answers them, attributes in its replies, and replies that break a rule
    runs, spelling              a run with its certificate, and its bytes
    plan_changes, call_changes, reply_changes, event_changes, start_changes, byte_changes, changes
                                changes that lead to answers at a border
    batches, tally, examples    many cases beside a program, what was reached, worked examples
"""
