//! Lines about the book and its calls, written by hand: worked nets, refusals and their order,
//! faults of lines, and what stays in a book that goes on.

pub const LINES: &str = "
# Before a start: a new book has start labels and no entries.
net 0 2 3 5 5 / 1 2 3 1 3
labels
entries
waiting
work 0
work 10
regrade 0 1
ask 0
route 0 0
labels
entries

# Four stations, with each list.
grades 4 1 1 2 5
start 0
labels
entries
waiting
work 0
work 1
labels
entries
work 1
labels
entries
work 1
labels
work 10
labels
entries
waiting
work 10
list first-in
start 0
work 10
labels
entries
list two-ended
start 0
work 10
labels
entries
list small-label
start 0
work 10
labels
entries
list threshold 2
start 0
work 10
labels
entries
list bucket 2 5
start 0
work 10
labels
entries
ask 0
ask 1
ask 2
ask 3
route 0 0
route 1 2
route 2 1
route 3 3
# A link that a route takes becomes worse.
list first-in
regrade 3 9
labels
entries
waiting
ask 1
ask 3
route 1 9
route 3 9
route 2 9
work 10
labels
entries
route 3 9
# It becomes better again, and better than it was.
regrade 3 2
work 10
labels
entries
regrade 3 0
work 10
labels
entries
# The same with each list.
list two-ended
start 0
work 10
regrade 3 9
work 10
labels
entries
list small-label
start 0
work 10
regrade 3 9
work 10
labels
list threshold 2
start 0
work 10
regrade 3 9
work 10
labels
list bucket 2 5
start 0
work 10
regrade 3 9
work 10
labels
entries

# One station without a link, and one with links to itself.
net 0 0 /
start 0
work 0
ask 0
work 1
work 1
ask 0
route 0 0
regrade 0 1
start 1
net 0 2 / 0 0
grades 0 5
start 0
work 9
labels
entries
regrade 0 9
waiting
regrade 1 0
waiting
work 9
labels
entries
route 0 0

# An entry overwritten so that a walk stops before the gateway.
net 0 2 3 5 5 / 1 2 3 1 3
grades 4 1 1 2 5
start 0
work 10
poke entry 1 65534
route 3 9
route 1 9
route 2 9
route 0 9
ask 1
poke entry 1 65535
route 1 9
route 3 9
ask 1
poke entry 1 4
route 1 9
route 3 9
ask 1
poke entry 1 5
route 3 9
poke entry 1 65533
route 3 9
poke entry 1 0
route 3 9
poke entry 0 65535
route 3 9
route 0 9
ask 0
poke entry 0 0
route 3 9
route 0 9
poke entry 0 65534
route 3 9
route 0 0
# At the gateway, but another station has the gateway's own entry.
poke entry 0 65533
poke entry 2 65534
route 2 9
route 0 9

# Each call tests in its own order.
net 0 2 3 5 5 / 1 2 3 1 3
start 4
start 65535
start 0
net 0 2 3 5 5 / 1 2 3 1 3
ask 4
ask 0
route 4 0
route 0 0
work 9
regrade 5 1
regrade 65535 1
grades 1 2 3 4
start 4
start 0
work 9
regrade 5 1
regrade 0 1
ask 4
route 4 0
resize labels 3
start 4
work 9
regrade 5 1
ask 4
route 4 0
grades 1 2 3 4 5 6
start 4
grades 1 2 3 4 5
start 4
start 0
work 9
regrade 5 1
ask 4
ask 0
route 4 0
route 0 0
resize labels 5
start 0
work 9
regrade 0 1
ask 0
route 0 0
resize labels 4
resize entries 3
start 4
work 9
regrade 5 1
ask 4
route 4 0
resize entries 5
start 0
work 9
regrade 0 1
ask 0
route 0 0
resize labels 5
start 0
ask 0
resize labels 0
resize entries 0
labels
entries
start 0
ask 0
resize labels 4
resize entries 4
labels
entries
start 0
work 2
labels
entries
# Started: nothing of this changes labels, entries or list.
grades 1 2 3 4
start 1
work 9
regrade 0 9
regrade 5 9
grades
start 1
work 9
regrade 0 9
resize grades 5
resize labels 6
start 1
work 9
regrade 0 9
regrade 5 9
ask 0
ask 4
route 3 9
route 4 9
resize labels 4
resize entries 2
work 9
ask 0
ask 4
route 3 9
route 4 9
resize entries 4
labels
entries
waiting
start 4
regrade 5 9
ask 4
ask 65535
route 4 9
route 65535 0
route 2 0
route 3 0
start 0
work 65535
grades 1 2 3
ask 3
ask 4
route 3 2
route 3 1
route 3 0
route 4 0
route 0 0
resize grades 5
start 1
work 9
route 0 0
route 0 9
route 2 9
route 3 0
route 3 1
route 1 0
labels
entries

# A grade of more than 65536 parts is none, whatever else is wrong.
net 0 2 3 5 5 / 1 2 3 1 3
kind chance
regrade 0 65537
regrade 9 65537
regrade 65535 4294967295
regrade 0 65536
regrade 9 65536
grades 1 2 3
regrade 0 70000
regrade 0 65536
resize labels 1
regrade 9 70000
regrade 9 60000
resize labels 4
grades 65536 65536 65536 32768 65536
regrade 9 65537
start 0
regrade 0 65537
regrade 9 65537
regrade 9 65536
work 9
labels
entries
regrade 3 65537
labels
waiting
regrade 3 65536
work 9
labels
entries
regrade 0 4294967296
regrade 0 -1
regrade 65536 65537
regrade x 65537
kind margin
start 0
regrade 0 128
regrade 0 -129
regrade 0 65537
regrade 0 -128
regrade 0 127
kind airtime
start 0
regrade 0 65537
regrade 0 4294967295
regrade 0 4294967296

# Overwritten grades read as in a list; a single grade does not.
kind chance
poke grade 0 65537
poke grade 1 4294967295
poke grade 2 65535
poke grade 3 65536
poke grade 4 4294967296
path 0
path 1
path 2
path 1 3 2
start 0
work 9
labels
poke label 3 65537
poke label 2 70000
labels
ask 3

# The words of the calls.
start
start 0 0
start x y
start x
start -1
start -0
start +0
start 65536
start 65535
start 0x0
start 000
Start 0
starts 0
work
work 1 2
work x y
work x
work -1
work 65536
work 65535
work 0
work 00009
regrade
regrade 0
regrade 0 1 2
regrade x
regrade x y
regrade x y z
regrade 0 x
regrade 0 -1
regrade 65536 x
regrade 65535 x
regrade 65535 1
regrade 00 007
ask
ask 0 0
ask x y
ask x
ask 65536
ask -0
ask 65535
ask 3
asks 3
route
route 0
route 0 0 0
route x
route x y
route x y z
route 0 x
route 65536 x
route 65535 x
route 0 65536
route 0 -1
route 0 65535
route 000 00
routes 0 0
labels 0
labels x
labels labels
Labels
label
entries 0
entries x y
entry
Entries
poke
poke entry
poke entry 0
poke entry 0 1 2
poke entries 0 1
poke Entry 0 1
poke entry x 1
poke entry 0 x
poke entry x y
poke entry 0 -1
poke entry 0 65536
poke entry 4 65536
poke entry 4 65535
poke entry 65535 0
poke entry 65536 65536
poke entry 3 65535
poke entry 3 065534
poke entry 3 0
poke grade
poke grade 0
poke grade 0 1 2
poke grades 0 1
poke grade x 1
poke grade 0 x
poke grade 0 -1
poke grade 5 4294967296
poke grade 5 4294967295
poke grade 65535 0
poke grade 65536 4294967296
poke grade 4 0
poke label 4 0
poke labels 0 1
poke label entry 0
resize
resize labels
resize entries
resize grades
resize labels 1 2
resize label 1
resize entry 1
resize grade 1
resize Labels 1
resize 1
resize 1 2
resize 1 labels
resize x y
resize x y z
resize labels x
resize entries -1
resize grades 65536
resize labels +1
resize all 0
resizes labels 0
labels
entries
ask 3

# Other lengths: cut, and filled as a new book has it.
net 0 2 3 5 5 / 1 2 3 1 3
resize labels 0
labels
poke label 0 1
enter 2
pick
resize labels 2
labels
poke label 1 9
poke label 2 9
resize labels 6
labels
poke label 5 8
resize labels 3
labels
resize labels 4
labels
resize entries 1
poke entry 0 7
poke entry 1 7
entries
resize entries 3
entries
resize entries 0
entries
resize entries 4
entries
grades 9 8 7 6 5
resize grades 2
path 0
poke grade 1 3
poke grade 2 3
resize grades 5
path 0
path 1 3 2
resize grades 5
start 0
work 9
labels
kind chance
resize labels 2
resize labels 5
labels
poke label 4 3
resize labels 4
grades 65536 1 1 1 1
resize grades 1
resize grades 5
path 0
path 1
start 0
work 9
labels
entries
kind margin
resize labels 1
resize labels 3
labels
resize labels 4
resize grades 0
resize grades 5
path 4
resize labels 65535
resize labels 4
resize entries 65535
resize entries 4
resize grades 65535
start 0
resize grades 5
start 0
work 9
labels
entries
# A list that is handed more or fewer labels than there are stations.
kind airtime
list small-label
resize labels 2
poke label 0 5
poke label 1 6
enter 1
enter 0
enter 2
pick
pick
pick
resize labels 9
poke label 7 1
enter 2
enter 7
enter 8
pick
pick
pick

# Another list and other grades leave a book started; another kind and another net do not.
net 0 2 3 5 5 / 1 2 3 1 3
grades 4 1 1 2 5
start 0
work 2
ask 3
list two-ended
ask 3
labels
entries
work 9
labels
grades 1 1 1 1 1
work 9
labels
regrade 0 1
work 9
labels
list fifo
list bucket 0 1
work 9
ask 1
kind hops
ask 1
net 0 2 1 / 0
ask 1
net 0 x /
ask 1
kind airtime
ask 1
labels
entries
work 1
start 2
ask 2
work 9
labels
entries
net 0 1 1 / 1
ask 1
work 1
labels
entries
start 0
start 1
ask 0
ask 1
work 9
start 0
work 9
labels
entries

# A book that is started again is as after its first start.
net 0 2 3 5 6 / 1 2 3 1 3 0
grades 4 1 1 2 5 1
start 0
work 2
start 0
labels
entries
waiting
work 9
labels
entries
start 3
labels
entries
work 9
labels
entries
route 2 9
route 3 9
start 3
start 4
labels
work 9
";
