"""Calls of neighbours, and deliveries of jobs, at a site of uuspool.

A command is a function `run(session, words)` of a module here; `cli` runs it. A `Session` is one run
of a command, and a `Site` is the site that it entered. `Spool` asks its spool. Carriers, the page, and what root runs as
the spool's user begin lines of the program themselves. Every program runs by `Processes`, which ends it if the command
is stopped and it has a limit. No module keeps a state of its own, and no shell reads any word.

From below, each importing only what stands before it (`calls/tests/test_layers.py` checks that):

    errors texts clock values digests options  words, times, and how a command ends
    files kernel processes                  what is on the disk, and what runs
    session settings contacts forward journal jobs spool relay site
    figures monitor metrics turn copies leaving units  what operators watch, and how a site is copied
    restored logged source byname place     how a copy is put back
    bundle public commands ages pieces wholes records works newest  what neighbours send, and what is kept of it
    envelope                                what mail of a neighbour begins with
    letters refusals moves exchange         what becomes of jobs
    confine taylor taylorsys taylorcheck errands handover  Taylor UUCP, and the jobs that it has
    delivery carriers outgoing              how a job is delivered, a neighbour called, and a file queued
    seals                                   the keys of neighbours
    traffic progress forecast               how much a call carries, and how fast
    executions                              what Taylor UUCP brings
    cli, and then the commands
"""
