# fish completion of srm-scenarios
set -l kinds chain star tree random file map page
set -l network "__fish_seen_subcommand_from chain star tree random file map"
set -l sized "__fish_seen_subcommand_from chain star tree random"
set -l edges "__fish_seen_subcommand_from file map"
set -l page "__fish_seen_subcommand_from page"
complete -c srm-scenarios -n "not __fish_seen_subcommand_from $kinds" -x -a "chain\t'nodes in a row' star\t'a hub and its links' tree\t'a tree of bounded degree' random\t'a random tree' file\t'a graph' map\t'a map of routers' page\t'a page that plays a run'"
complete -c srm-scenarios -n $sized -l size -x -d 'How many nodes'
complete -c srm-scenarios -n "__fish_seen_subcommand_from tree" -l degree -x -d 'Degree of inner nodes'
complete -c srm-scenarios -n $edges -l delay-attribute -x -d "An edge's delay"
complete -c srm-scenarios -n $edges -l back-attribute -x -d "An edge's delay in the other direction"
complete -c srm-scenarios -n $edges -l factor -x -d 'Ticks for each unit of these delays'
complete -c srm-scenarios -n "__fish_seen_subcommand_from file" -l spanning-tree -x -a "shortest minimum" -d 'The tree of a graph that is none'
complete -c srm-scenarios -n $network -l delay -x -d 'Delay of each link'
complete -c srm-scenarios -n $network -l delay-to -x -d 'Random delays up to this'
complete -c srm-scenarios -n $network -l back -x -d 'Delay of each link in the other direction'
complete -c srm-scenarios -n $network -l back-to -x -d 'Random delays in the other direction up to this'
complete -c srm-scenarios -n $network -l members -x -a all -d 'How many members'
complete -c srm-scenarios -n $network -l source -x -a "first random" -d "The source's node"
complete -c srm-scenarios -n "$network || $page" -l seed -x -d 'Seed of all random choices'
complete -c srm-scenarios -n $network -l c1 -x -a "log10 sqrt" -d 'Constant of request timers'
complete -c srm-scenarios -n $network -l c2 -x -a "log10 sqrt" -d 'Width of request timers'
complete -c srm-scenarios -n $network -l d1 -x -a "log10 sqrt" -d 'Constant of repair timers'
complete -c srm-scenarios -n $network -l d2 -x -a "log10 sqrt" -d 'Width of repair timers'
complete -c srm-scenarios -n $network -l adaptive -d 'Members adapt their timers'
complete -c srm-scenarios -n $network -l backoff -x -a "2 3" -d 'How many times as long a backoff makes a request timer'
complete -c srm-scenarios -n $network -l draws -x -d 'How often the source draws'
complete -c srm-scenarios -n $network -l every -x -d 'Ticks from a draw to the next'
complete -c srm-scenarios -n $network -l start -x -d 'Tick of the first draw'
complete -c srm-scenarios -n $network -l drop-link -x -a "adjacent random hops: losers losers:" -d 'The link that loses packets'
complete -c srm-scenarios -n $network -l drop-packet -x -d 'Lose this packet'
complete -c srm-scenarios -n $network -l drop-every -x -d 'Lose every so many packets'
complete -c srm-scenarios -n $network -l lose-operations -x -d 'Lose every so many operations'
complete -c srm-scenarios -n $network -l rounds -x -d 'So many losses that lie apart'
complete -c srm-scenarios -n $network -l any-packet -d 'Lost packets may be repairs'
complete -c srm-scenarios -n $network -l loss -x -d 'Probability of a loss at each link'
complete -c srm-scenarios -n $network -l burst -x -d 'A slot in which a link loses all or nothing'
complete -c srm-scenarios -n $network -l spare-draws -d 'A link loses nothing before the last draw has come'
complete -c srm-scenarios -n $network -l scope -x -a least -d 'How many links a first request goes'
complete -c srm-scenarios -n $network -l widen -x -d 'How many links more for each backoff'
complete -c srm-scenarios -n $network -l tries -x -d 'A request with so many backoffs goes to all'
complete -c srm-scenarios -n $network -l steps -x -a "1 2" -d 'In how many steps a repair answers'
complete -c srm-scenarios -n $network -l outage -x -d 'A link is out'
complete -c srm-scenarios -n $network -l join -x -d 'Members join late'
complete -c srm-scenarios -n $network -l leave -x -d 'Members leave'
complete -c srm-scenarios -n $network -l session-after -x -d 'Session message after the last draw'
complete -c srm-scenarios -n $network -l no-session -d 'No session message'
complete -c srm-scenarios -n $network -l until -x -d 'End of the run'
complete -c srm-scenarios -n $page -l program -r -d 'The program that makes the run'
complete -c srm-scenarios -n $page -l title -x -d "The page's title"
complete -c srm-scenarios -n $page -l from -x -d 'Leave out what was settled before'
complete -c srm-scenarios -n $page -l to -x -d 'Leave out what came after'
complete -c srm-scenarios -n $page -l name -x -d 'Show this operation only'
complete -c srm-scenarios -n $page -l rows -x -d 'At most so many rows'
complete -c srm-scenarios -n "not __fish_seen_subcommand_from $kinds" -s V -l version -d 'Version'
complete -c srm-scenarios -s h -l help -d 'Short help'
