//! What the book's calls do by their rules, in memory that was left alone and in memory that was
//! written from outside, by hand.

pub const LINES: &str = "
# A regrade that takes no label away lets the tail wait: the same grade, a better one, a link that
# is no entry, one into the gateway. A tail that waits is not new, and one without a label stays away.
net 0 2 3 5 6 / 1 2 3 1 3 0
grades 4 1 1 2 5 1
start 0
regrade 2 1
regrade 5 1
waiting
work 9
regrade 3 2
waiting
regrade 3 2
regrade 3 1
regrade 4 3
regrade 5 0
regrade 5 9
waiting
labels
work 9
labels
entries
regrade 4 9
regrade 0 9
regrade 0 2
work 9
labels
entries
# Worse is judged by labels. The tail has a better one by now, and the sum stays.
net 0 2 3 5 5 / 1 2 3 1 3
grades 4 1 1 2 5
start 0
work 3
labels
regrade 2 2
labels
regrade 2 3
labels
entries
waiting
work 9
labels
# At the cap, at chance 0, and above the smallest margin a worse grade makes no worse label.
grades 4294967295 4294967295 5 2 5
start 0
work 9
labels
entries
regrade 2 4294967295
work 9
labels
kind chance
grades 0 65536 7 65536 0
start 0
work 9
labels
regrade 2 0
labels
work 9
labels
entries
regrade 1 1
work 9
labels
regrade 3 65535
labels
work 9
labels
entries
kind margin
grades -128 5 100 7 3
start 0
work 9
labels
entries
regrade 2 50
regrade 2 5
labels
regrade 2 4
labels
work 9
labels
entries

# Who enters after a loss: in rising number, each once, the gateway too, no one without a label.
net 0 3 4 6 9 9 / 1 2 4 4 1 4 1 1 2
grades 1 5 9 1 7 7 2 2 1
start 0
work 20
labels
entries
regrade 0 6
waiting
pick
pick
pick
start 0
work 20
regrade 0 100
work 1
labels
work 1
labels
work 20
labels
entries
regrade 0 1
work 20
poke entry 3 0
regrade 0 50
waiting
work 20
labels
entries
# Behind a link are all whose walk meets it, however far.
net 0 1 3 4 6 6 6 / 1 2 3 4 5 4
grades 1 1 1 1 1 1
start 0
work 20
labels
entries
regrade 1 5
labels
entries
work 20
regrade 0 9
labels
entries
waiting
work 20
labels
entries
regrade 2 1
regrade 3 0
regrade 4 4294967295
work 20
labels
entries

# A waiting station that loses its label goes on waiting, and its pick counts.
net 0 2 3 5 5 / 1 2 3 1 3
grades 4 1 1 2 5
start 0
work 1
regrade 0 9
labels
waiting
work 1
labels
work 9
labels
list small-label
start 0
work 1
regrade 0 9
regrade 1 9
labels
entries
waiting
work 1
work 1
work 1
labels
work 9
labels
list threshold 1
start 0
work 1
regrade 0 9
work 1
work 9
labels
list bucket 1 9
start 0
work 1
regrade 0 9
work 1
work 9
labels
list two-ended
start 0
work 1
regrade 0 9
regrade 1 9
work 1
work 9
labels
entries

# Work: equal labels are not written, the first of parallel links stays, links into the gateway and
# links to oneself change nothing.
net 0 3 6 7 / 1 1 1 0 1 2 0
grades 5 3 3 0 0 1 0
start 0
work 1
labels
entries
work 9
labels
entries
start 1
work 9
labels
entries
start 2
work 1
labels
entries
work 9
# The cap of airtimes and a chance of 0 are labels.
net 0 1 2 2 / 1 2
grades 4294967295 1
start 0
work 9
labels
entries
ask 2
route 2 2
kind chance
grades 0 65536
start 0
work 9
labels
entries
ask 2
route 2 2
kind margin
grades 127 127
start 0
work 9
labels
entries
ask 2

# Only a start empties a list: two-ended knows who has entered, threshold and search stay.
net 0 3 4 5 5 / 1 2 3 3 3
grades 1 2 9 1 1
list two-ended
start 0
work 9
regrade 0 1
regrade 1 2
regrade 2 9
waiting
enter 2
enter 1
pick
pick
work 9
start 0
enter 2
enter 1
pick
pick
pick
list threshold 3
start 0
work 9
regrade 0 2
enter 2
enter 3
enter 1
pick
pick
pick
pick
start 0
work 1
work 1
work 1
work 1
list bucket 1 2
start 0
work 9
enter 1
enter 2
enter 3
enter 0
pick
pick
work 1
work 9
start 0
enter 1
enter 2
work 1
labels
work 9
poke label 3 2
enter 3
pick
start 0
poke label 3 2
enter 3
pick
pick

# Stations without a label, and stations beyond the net, count and do no more.
net 0 2 3 5 5 / 1 2 3 1 3
grades 4 1 1 2 5
enter 3
enter 900
start 0
waiting
enter 1023
enter 4
enter 3
enter 1
waiting
work 4
labels
entries
waiting
work 9
labels
empty
work 9
enter 1023
ask 0
work 0
work 1
regrade 0 9
work 9
labels
list threshold 0
start 0
enter 1023
enter 1022
enter 3
work 2
work 2
work 9
list bucket 1 2
start 0
enter 1023
enter 3
work 9
labels
list small-label
start 0
enter 1023
enter 2
work 2
work 9
labels
list two-ended
start 0
enter 1023
work 9
enter 1023
regrade 0 9
regrade 3 2
work 2
work 9
labels

# A list emptied or picked from by hand is worked no further.
list first-in
grades 4 1 1 2 5
start 0
work 1
empty
work 9
labels
enter 2
work 9
labels
entries
start 0
work 1
pick
work 9
labels
entries

# Labels written from outside: they are carried on as they stand.
grades 4 1 1 2 5
start 0
work 9
poke label 1 0
work 9
labels
enter 1
work 9
labels
entries
poke label 1 99
enter 2
work 9
labels
poke label 3 99
enter 1
enter 2
work 9
labels
poke label 0 7
enter 0
work 9
labels
poke label 2 99
enter 0
work 9
labels
entries
route 3 9
regrade 3 3
labels
work 9
labels
# The gateway's own label is never improved, and one that is worse spoils others only by a regrade.
grades 4 1 1 2 5
start 0
work 9
poke label 0 1000
regrade 1 1
labels
work 9
labels
entries
poke label 0 0
enter 0
work 9
labels
# An unlabelled station's number is not carried on, but for a regrade of its head's entry.
start 0
work 9
poke entry 2 65535
poke label 2 0
enter 2
work 9
labels
regrade 3 3
labels
entries
waiting
work 9
labels
regrade 3 4
labels
entries
waiting
work 9
labels
entries
start 0
work 9
poke entry 2 65535
poke label 2 50
regrade 3 0
labels
entries
waiting
work 9
labels
entries
# An entry that is taken away, or that is no link into its station.
grades 4 1 1 2 5
start 0
work 9
poke entry 3 65535
labels
enter 1
work 9
labels
entries
poke entry 3 0
regrade 2 0
regrade 3 9
labels
entries
start 0
work 9
poke entry 3 4
regrade 4 9
labels
start 0
work 9
poke entry 1 2
regrade 2 9
regrade 3 9
labels
entries
work 9
labels
start 0
work 9
poke entry 2 5
regrade 1 9
poke entry 2 4095
regrade 1 9
poke entry 2 4096
regrade 1 9
poke entry 2 65533
regrade 1 9
poke entry 2 65534
regrade 1 9
labels
entries
# Grades written from outside let nobody wait.
grades 4 1 1 2 5
start 0
work 9
poke grade 3 9
work 9
labels
regrade 3 9
work 9
labels
poke grade 3 0
enter 2
work 9
labels
entries
route 3 9

# A gateway whose entry was overwritten may lose its label, and only a start gives it back.
net 0 2 3 5 6 / 1 2 3 1 3 0
grades 4 1 1 2 5 1
start 0
work 9
poke entry 0 5
regrade 5 2
labels
entries
waiting
work 9
labels
entries
ask 0
route 0 9
route 3 9
regrade 5 0
regrade 0 0
work 9
enter 0
work 9
labels
start 0
work 9
labels
entries
route 3 9
poke entry 0 65535
enter 0
work 9
labels
regrade 0 4
regrade 0 9
ask 0
labels
entries
# Entries that go round: a regrade on the ring takes all of it, and what hangs on it.
start 0
work 9
poke entry 0 5
poke label 0 1
route 3 9
route 0 9
regrade 5 9
labels
entries
waiting
work 9
start 0
work 9
poke entry 0 5
regrade 2 9
labels
entries
work 9
net 0 1 2 3 4 / 1 2 3 1
grades 1 1 1 1
start 0
work 9
poke entry 1 3
route 1 9
route 2 9
route 3 9
route 0 9
regrade 0 0
regrade 3 1
work 9
regrade 3 9
labels
entries
waiting
work 9
labels
entries
start 0
work 9
poke entry 1 3
poke label 1 9
regrade 0 5
regrade 1 0
regrade 2 7
labels
entries
work 9
labels
entries
# Rings of one and of two stations, apart from the gateway.
net 0 1 2 4 / 0 2 1 2
grades 1 1 1 1
start 0
work 9
poke entry 1 2
poke entry 2 1
poke label 1 5
poke label 2 6
route 1 9
ask 1
regrade 2 0
regrade 1 0
waiting
work 9
labels
entries
regrade 1 9
labels
entries
poke entry 2 3
poke label 2 1
route 2 9
regrade 3 0
regrade 3 1
regrade 3 2
labels
entries
poke entry 0 0
route 0 9
regrade 0 0
regrade 0 3
labels
entries
ask 0
work 9

# All memory may hold anything before a start.
net 0 2 3 5 5 / 1 2 3 1 3
poke entry 0 3
poke entry 1 2
poke entry 2 65534
poke label 1 9
poke label 2 4294967295
poke grade 1 3
enter 3
enter 1000
ask 2
route 2 9
work 9
regrade 1 9
labels
entries
waiting
start 0
labels
entries
waiting
work 9
labels
";
