# What fish offers behind `uuspool`: subcommands, and the options of each.

set -l subcommands load drop send request exec mail list show kill regrade rejuvenate due \
    when queues status systems failed done forget pack unpack settle answer map neighbours name route routes batch init site vacuum renumber help
set -l queuing send request exec mail
set -l none "not __fish_seen_subcommand_from $subcommands"
set -l has __fish_seen_subcommand_from

complete -c uuspool -f
complete -c uuspool -n $none -s c -r -F -d 'The settings file'
complete -c uuspool -n $none -l at -x -d 'The time to use as now, in seconds since 1970-01-01 UTC'
complete -c uuspool -n $none -l as -x -d 'The user who asks'
complete -c uuspool -n $none -s V -l version -d 'Print version'
complete -c uuspool -s h -l help -d 'Print help'

complete -c uuspool -n $none -a load -d 'Reads a sys file from standard input and defines its systems'
complete -c uuspool -n $none -a drop -d 'Removes a system, if no job waits for it'
complete -c uuspool -n $none -a send -d 'Queues standard input as a file for a system'
complete -c uuspool -n $none -a request -d 'Queues a request for a file from a system'
complete -c uuspool -n $none -a exec -d 'Queues a command for a system, with its input'
complete -c uuspool -n $none -a mail -d 'Queues standard input as a mail message'
complete -c uuspool -n $none -a list -d 'Lists the jobs, the highest grade first'
complete -c uuspool -n $none -a show -d 'Shows a job and its bytes'
complete -c uuspool -n $none -a kill -d 'Removes a job'
complete -c uuspool -n $none -a regrade -d 'Gives a job another grade'
complete -c uuspool -n $none -a rejuvenate -d 'Marks a job as queued now'
complete -c uuspool -n $none -a due -d 'Lists the systems to call now, each with its next job'
complete -c uuspool -n $none -a when -d 'Lists when each system can next be called, and why not before'
complete -c uuspool -n $none -a queues -d 'Lists how many jobs wait for each system, and their size'
complete -c uuspool -n $none -a status -d 'Lists the systems and how their last calls went'
complete -c uuspool -n $none -a systems -d 'Prints the definitions of the systems as a sys file'
complete -c uuspool -n $none -a failed -d 'Notes that a call to a system failed, and why'
complete -c uuspool -n $none -a done -d 'Notes that a call to a system succeeded, and removes its jobs'
complete -c uuspool -n $none -a forget -d 'Forgets which jobs with numbers below NUMBER came from a system'
complete -c uuspool -n $none -a pack -d 'Prints a bundle for a system'
complete -c uuspool -n $none -a unpack -d 'Reads a bundle and queues its jobs, each only once'
complete -c uuspool -n $none -a settle -d 'Reads a bundle and removes the jobs that its sender has'
complete -c uuspool -n $none -a answer -d 'Reads a bundle and prints the one that answers it'
complete -c uuspool -n $none -a map -d 'Reads map entries from standard input and keeps them'
complete -c uuspool -n $none -a neighbours -d 'Lists the links in the map entry of a host'
complete -c uuspool -n $none -a name -d 'Prints the name of this site'
complete -c uuspool -n $none -a route -d 'Prints the cheapest route to a host, by the map'
complete -c uuspool -n $none -a routes -d 'Prints the cheapest route to each host, by the map'
complete -c uuspool -n $none -a batch -d 'Reads requests from standard input and answers each in turn'
complete -c uuspool -n $none -a init -d 'Makes the spool of a site'
complete -c uuspool -n $none -a site -d 'Prints where the site is: its name, settings, folder, spool and log'
complete -c uuspool -n $none -a vacuum -d "Gives back the room that the spool's file no longer needs"
complete -c uuspool -n $none -a renumber -d 'Gives the next job this number, or a later one'
complete -c uuspool -n $none -a help -d 'Print help, of a subcommand too'

complete -c uuspool -n "$has $queuing" -s g -x -d "The job's grade"
complete -c uuspool -n "$has $queuing" -l once -x -d 'Whose job this is, and its number there'
complete -c uuspool -n "$has pack answer" -s g -x -d 'Only jobs of this grade and higher'
complete -c uuspool -n "$has pack settle answer" -l spool -x -d 'The word for this spool'
complete -c uuspool -n "$has pack answer" -l after -x -d 'Only jobs after this one'
complete -c uuspool -n "$has pack answer" -l most -x -d 'At most this many bytes'
complete -c uuspool -n "$has pack answer" -l no-jobs -d 'Leaves out the jobs'
complete -c uuspool -n "$has list due when queues systems" -s s -x -d 'Only this system'
complete -c uuspool -n "$has when" -s a -d 'All systems, with a job or without one'
complete -c uuspool -n "$has list" -s u -x -d 'Only this user'
complete -c uuspool -n "$has route routes" -l cost -d 'Prints the cost first'
