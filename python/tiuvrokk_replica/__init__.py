"""Replicas of a store, whose transactions an etcd cluster orders: the modules of ./amreplica.

    etcd          requests to the cluster, by whichever member answers
    entries       blocks of the log as bytes
    reader        which changes of the log count
    log           entries in one order, each counted once
    lines         what is known of lines before they are answered
    library       the calls of the proved rules
    store         the records, by these
    transaction   a transaction before it is a block of the log
    ends          that the replica stands at the log's end
    replica       the log's blocks, into the store
    sessions      the lines of clients
    snapshots     the committed records beside the log, which is let go up to there
    trace         the committed blocks as a trace
    program       the words of the command line, and statuses
"""
