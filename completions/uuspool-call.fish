# What fish offers behind uuspool-call and the other commands of calls and deliveries.

# The neighbours that there is a way to call.
function __uuspool_neighbours
    set -l entries /etc/uuspool
    set -q UUSPOOL_ETC; and set entries $UUSPOOL_ETC
    command ls -- $entries/calls 2>/dev/null
end

for name in call night answer hold deliver refuse expire move setup check sys postfix backup restore log
    complete -c uuspool-$name -f
end
complete -c uulog -f
for name in call answer hold move setup
    complete -c uuspool-$name -a '(__uuspool_neighbours)'
end

complete -c uuspool-call -s n -d 'As by night'
complete -c uuspool-call -s p -d 'Fetches, and sends no job'
complete -c uuspool-call -s g -x -d 'This grade and higher'
complete -c uuspool-call -l dry-run -d 'Says what would go, and how long it takes'
complete -c uuspool-night -s w -d 'Goes on, with a round each minute'
complete -c uuspool-night -s p -x -d 'Polls who was not called for so many minutes'
complete -c uuspool-expire -s w -x -d 'Warns after so many days'
complete -c uuspool-refuse -s q -x -d 'Queues again what is kept of a refused job'
complete -c uuspool-move -s k -d 'Keeps the addresses of mail'
complete -c uuspool-sys -s n -F -d 'Shows what would change'
complete -c uuspool-sys -F
complete -c uuspool-postfix -F
complete -c uuspool-hold -a off
complete -c uuspool-backup -s k -x -d 'How many copies stay'
complete -c uuspool-backup -a '(__fish_complete_directories)'
complete -c uuspool-restore -s n -x -d 'The number of the next job'
complete -c uuspool-restore -a '(__fish_complete_directories)'
complete -c uuspool-check -l metrics -r -F -d 'Writes figures for Prometheus'
complete -c uuspool-check -l monitor -d 'One line and a status for a monitor'
set -l monitor __fish_contains_opt monitor
complete -c uuspool-check -n $monitor -s s -x -a '(__uuspool_neighbours)' -d 'Only this system'
complete -c uuspool-check -n $monitor -s w -x -d 'Warns from this age in hours'
complete -c uuspool-check -n $monitor -s c -x -d 'Critical from this age in hours'
complete -c uuspool-check -n $monitor -s W -x -d 'Warns after so many failed calls'
complete -c uuspool-check -n $monitor -s C -x -d 'Critical after so many failed calls'
complete -c uuspool-check -n $monitor -s r -x -d 'Warns after so many minutes without a round'
complete -c uuspool-check -n $monitor -s m -x -d 'Warns if fewer megabytes are free'
complete -c uuspool-setup -F -a 'ssh folder command uucico taylor key seal'
complete -c uuspool-setup -l from-taylor -d 'Takes over the neighbours of Taylor UUCP'
complete -c uuspool-setup -s k -d 'Leaves what is there, and adds the rest'
complete -c uuspool-setup -l no-call -d 'Leaves calls to Taylor UUCP'

for name in uuspool-log uulog
    complete -c $name -s s -x -a '(__uuspool_neighbours)' -d 'Lines of this system'
    complete -c $name -s u -x -d 'Lines of this user'
    complete -c $name -s n -x -d 'The last lines, so many'
    complete -c $name -s f -d 'Goes on with lines that come'
    complete -c $name -s F -d 'Goes on with lines that come'
end
