//! Lines about what the check finds in labels and entries, written by hand: each fault with its
//! places, which of several comes first, and plans that are accepted though they look odd.

pub const LINES: &str = "
# An entry that is no link into its station, or that brings another label.
net 0 2 3 5 5 / 1 2 3 1 3
grades 4 1 1 2 5
start 0
work 9
poke entry 3 65534
check 0
poke entry 3 65533
check 0
poke entry 3 5
check 0
poke entry 3 6
check 0
poke entry 3 4095
check 0
poke entry 3 4096
check 0
poke entry 3 0
check 0
poke entry 3 1
check 0
poke entry 3 3
check 0
poke entry 3 4
check 0
poke label 3 6
check 0
poke label 3 5
check 0
poke entry 3 2
check 0
poke label 3 3
check 0
poke label 3 4
check 0
poke label 3 0
check 0
poke label 3 4294967295
check 0
poke label 3 4
check 0
poke entry 2 65534
check 0
poke entry 2 65533
check 0
poke entry 2 3
check 0
poke entry 2 0
check 0
poke entry 2 2
check 0
poke entry 2 1
check 0
poke label 2 2
check 0
poke label 2 0
check 0
poke label 1 2
check 0
poke label 3 3
check 0
poke label 2 1
check 0
poke label 1 3
check 0
poke label 3 4
check 0
poke entry 1 65534
check 0
poke entry 1 0
check 0
poke entry 1 4
check 0
poke entry 1 2
check 0
poke entry 1 1
check 0
poke entry 1 5
check 0
poke entry 1 3
check 0
# The grade of the entry link is another.
poke grade 1 2
check 0
poke grade 1 1
poke grade 3 1
check 0
poke grade 3 3
check 0
poke grade 3 2
poke grade 2 0
check 0
poke grade 2 4294967295
check 0
poke grade 2 1
check 0
# A tail without a label, though its number would be the right one.
poke entry 2 65535
check 0
poke entry 1 65535
check 0
poke entry 3 65535
check 0
poke entry 3 4
poke label 3 6
check 0
poke entry 2 1
check 0
poke entry 1 0
poke label 1 4
check 0
poke label 3 5
poke entry 3 2
check 0
# Of several the lowest, whatever is wrong with each.
start 0
work 9
poke label 3 9
poke entry 2 65534
check 0
poke label 1 9
check 0
poke entry 2 1
check 0
poke label 1 3
check 0
poke label 3 4
check 0
poke entry 1 65534
poke entry 2 65534
poke entry 3 65534
check 0
poke entry 1 3
check 0
poke entry 2 1
check 0
poke entry 3 2
check 0
# The gateway is the highest station, or in the middle.
net 0 2 4 6 / 0 1 0 2 1 2
grades 1 1 2 1 3 9
start 2
work 9
check 2
labels
entries
poke entry 1 65534
check 2
poke entry 0 65534
check 2
poke entry 0 2
check 2
poke entry 0 4
check 2
poke label 0 5
check 2
poke entry 2 5
check 2
poke entry 2 65534
check 2
start 1
work 9
check 1
poke label 2 0
check 1
poke label 0 1
check 1
poke label 0 2
check 1
poke label 2 1
check 1
poke label 1 1
check 1

# Round and round. One link that leads back to its own station.
net 0 1 3 4 4 / 1 1 2 1
start 0
work 9
check 0
labels
entries
poke entry 1 1
check 0
poke entry 2 65535
check 0
poke entry 2 2
check 0
poke entry 1 3
check 0
poke entry 1 0
check 0
poke label 1 1
poke label 2 1
check 0
poke entry 1 1
check 0
poke grade 1 1
check 0
poke grade 1 0
poke entry 1 3
check 0
poke grade 3 1
check 0
poke grade 3 0
poke label 1 0
poke label 2 0
check 0
# What hangs on the ring misses the gateway too, and has the lower number.
net 0 0 1 3 4 / 2 0 3 2
start 1
work 9
check 1
labels
entries
poke entry 2 3
check 1
poke entry 3 2
check 1
poke entry 0 65535
check 1
poke entry 2 0
check 1
poke entry 0 1
check 1
# Rings of two and three beside a good tree, and before and after it.
net 0 3 4 5 6 7 8 8 / 1 3 5 2 1 4 3 5
start 0
work 9
check 0
labels
entries
poke entry 1 4
check 0
poke entry 3 6
check 0
poke entry 5 7
check 0
poke entry 1 0
check 0
poke entry 3 1
check 0
poke entry 5 2
check 0
net 0 3 4 6 8 8 / 2 4 1 2 3 4 1 4
start 0
work 9
check 0
labels
entries
poke entry 1 6
poke entry 2 3
check 0
poke entry 3 65535
check 0
poke entry 3 4
poke entry 4 7
check 0
poke entry 4 5
check 0
poke entry 4 1
check 0
poke entry 1 2
check 0
poke entry 4 7
check 0
poke entry 2 0
check 0
# By chances of one, of none, and rounded down to none; by the cap of airtimes; by margins.
kind chance
grades 65536 65536 65536 65536 65536 65536 65536 65536
start 0
work 9
check 0
labels
poke entry 1 6
poke entry 2 3
check 0
poke grade 4 65535
check 0
poke grade 4 65536
poke grade 0 0
poke grade 1 0
poke grade 2 0
check 0
poke label 1 0
poke label 2 0
poke label 3 0
poke label 4 0
check 0
grades 0 0 0 1 40000 65535 0 1
check 0
start 0
work 9
check 0
labels
entries
poke entry 1 6
poke entry 2 3
check 0
poke label 1 1
check 0
poke label 2 1
check 0
poke label 2 0
poke label 1 0
poke entry 1 2
check 0
grades 1 1 1 65536 65536 65536 65536 65536
start 0
work 9
check 0
poke entry 1 6
poke entry 2 3
check 0
kind airtime
grades 4294967295 4294967295 4294967295 1 0 7 4294967295 4294967295
start 0
work 9
check 0
labels
entries
poke entry 1 6
check 0
poke entry 2 3
check 0
poke label 1 4294967294
check 0
poke label 2 4294967294
check 0
poke entry 2 0
check 0
kind margin
grades 5 5 5 5 5 6 127 7
start 0
work 9
check 0
labels
entries
poke entry 1 6
check 0
poke entry 2 3
check 0
poke grade 3 4
check 0
poke grade 3 127
poke grade 6 4
check 0
poke grade 6 5
check 0
poke entry 2 0
check 0
# Labels that rise on the way round cannot agree.
kind airtime
grades 1 1 1 1 1 1 1 1
start 0
work 9
check 0
poke entry 1 6
poke entry 2 3
check 0
poke label 1 3
check 0
poke label 2 4
check 0
poke label 3 5
check 0
poke label 1 6
check 0

# Entries before walks, and walks before links, over all stations.
net 0 2 3 5 5 5 / 1 3 2 1 3
start 0
work 9
check 0
labels
entries
poke entry 1 3
poke entry 2 2
check 0
poke entry 3 65535
check 0
poke entry 3 0
check 0
poke entry 3 65534
check 0
poke entry 3 1
poke label 3 1
check 0
poke entry 1 0
check 0
poke label 3 0
check 0
poke entry 3 65535
check 0
poke entry 2 65535
check 0
poke entry 1 65535
check 0
poke label 3 1
poke entry 3 1
check 0
poke entry 3 4
check 0
poke label 0 1
check 0
poke label 0 0
poke entry 4 65534
check 0
poke entry 4 0
check 0
poke entry 4 65535
check 0

# A link that brings a label, or a better one.
net 0 3 5 7 9 9 / 1 2 0 3 0 1 3 0 4
grades 4 1 1 1 0 2 5 0 3
start 0
work 9
check 0
labels
entries
poke entry 4 65535
check 0
poke entry 3 65535
check 0
poke entry 1 65535
check 0
poke entry 2 65535
check 0
start 0
work 9
poke entry 1 65535
check 0
poke entry 3 6
poke label 3 6
check 0
poke label 4 9
check 0
poke entry 1 0
poke label 1 4
check 0
poke entry 1 5
poke label 1 3
check 0
poke entry 3 3
poke label 3 4
check 0
poke label 4 7
check 0
poke grade 6 3
check 0
poke grade 6 2
check 0
poke grade 6 0
check 0
poke grade 0 3
check 0
poke grade 0 2
check 0
poke grade 0 0
check 0
poke grade 6 5
check 0
poke grade 0 4
check 0
# Links into the gateway bring it nothing, nor do links to the own station.
poke grade 4 0
check 0
poke grade 2 0
check 0
poke grade 7 0
check 0
net 0 2 4 5 / 0 1 1 0 1
start 0
work 9
check 0
grades 0 1 0 0 0
check 0
poke label 1 1
check 0
poke entry 1 2
check 0
poke entry 1 4
check 0
poke entry 1 1
check 0
# Without a label a tail brings nothing, whatever its number.
poke label 2 0
check 0
poke label 2 4294967295
check 0
poke entry 2 65534
check 0
poke label 2 0
check 0
check 2
poke entry 0 65535
check 2
poke entry 1 65535
check 2
poke entry 1 4
check 2
poke label 1 0
check 2
poke entry 0 3
check 2
# Equal is not better: parallel links, and ways that tie, whichever of them is the entry.
net 0 4 6 7 7 / 1 1 1 2 3 3 3
grades 5 5 6 5 2 2 2
start 0
work 9
check 0
entries
poke entry 1 1
check 0
poke entry 1 2
check 0
poke entry 1 0
check 0
poke entry 3 5
check 0
poke entry 3 6
check 0
poke entry 3 4
check 0
poke entry 1 1
poke entry 3 6
check 0
poke entry 1 65535
check 0
poke entry 2 65535
check 0
poke entry 1 1
check 0
poke grade 2 5
poke entry 1 2
check 0
poke grade 2 4
check 0
poke grade 1 4
check 0
poke label 1 4
check 0
poke label 3 6
check 0
poke entry 3 4
check 0
poke entry 1 1
check 0
kind margin
grades 9 3 9 9 7 8 7
start 0
work 9
check 0
entries
poke entry 1 2
check 0
poke entry 3 4
check 0
poke label 3 7
check 0
poke entry 3 6
check 0
poke label 3 8
check 0
poke entry 3 5
check 0
kind chance
grades 65535 65536 40000 65536 40000 40000 39999
start 0
work 9
check 0
entries
poke entry 3 5
check 0
poke entry 3 6
check 0
poke label 3 39999
check 0
poke grade 4 39999
check 0
poke grade 5 39999
check 0
poke grade 6 0
check 0

# Chance 0 and the cap of airtimes are labels.
net 0 1 2 3 3 / 1 2 3
kind chance
grades 0 65536 1
start 0
work 9
check 0
labels
entries
poke entry 3 65535
check 0
poke entry 2 65535
check 0
poke entry 3 2
check 0
poke entry 2 1
check 0
poke label 3 1
check 0
poke label 3 0
poke entry 1 65535
check 0
grades 1 65535 65536
check 0
start 0
work 9
check 0
labels
poke label 2 1
check 0
poke label 3 1
check 0
grades 65535 65535 65535
start 0
work 9
check 0
labels
poke label 2 65535
check 0
poke label 2 65534
poke label 3 65532
check 0
poke label 3 65533
check 0
kind airtime
grades 4294967295 1 4294967295
start 0
work 9
check 0
labels
poke entry 3 65535
check 0
poke entry 3 2
poke label 3 4294967294
check 0
poke label 2 0
check 0
grades 4294967294 1 1
start 0
work 9
check 0
labels
grades 4294967293 1 1
check 0
start 0
work 9
check 0
labels
grades 4294967294 0 2
check 0
poke label 1 4294967294
check 0
poke label 2 4294967294
check 0
grades 2147483648 2147483648 5
start 0
work 9
check 0
labels
poke label 2 0
check 0
poke label 3 5
check 0
kind margin
grades -128 127 -128
start 0
work 9
check 0
labels
poke entry 1 65535
check 0
poke entry 1 0
poke entry 3 65535
check 0

# What cannot be reached has no label.
net 0 1 1 3 4 5 / 1 1 3 2 0
grades 3 0 0 0 0
start 0
work 9
check 0
labels
entries
poke label 2 7
check 0
poke entry 2 65534
check 0
poke entry 2 3
check 0
poke entry 3 2
check 0
poke label 3 7
check 0
poke label 2 8
check 0
poke label 3 8
check 0
poke entry 1 1
check 0
poke label 1 8
check 0
poke label 2 2
poke label 3 2
check 0
poke entry 1 0
poke label 1 3
check 0
poke entry 2 65535
check 0
poke entry 3 65535
check 0
poke entry 4 65535
check 0
poke entry 4 4
check 0
poke entry 4 65534
check 0
check 4
poke entry 0 4
check 4
poke entry 1 65535
check 4
poke entry 1 0
check 4
# One station, and two.
net 0 0 /
check 0
check 1
start 0
check 0
work 1
check 0
check 1
poke label 0 1
check 0
kind margin
poke entry 0 65534
check 0
net 0 3 / 0 0 0
grades 0 5 4294967295
start 0
check 0
work 9
check 0
poke entry 0 0
check 0
poke entry 0 65535
check 0
net 0 0 0 /
start 1
check 1
check 0
poke entry 0 65534
check 1
check 0
poke entry 0 0
check 1
poke entry 1 0
check 0
check 1
net 0 1 2 / 1 0
start 0
check 0
check 1
work 1
check 0
check 1
work 9
check 0
check 1
poke entry 0 65535
check 0
poke entry 0 1
check 0
check 1
poke entry 1 65534
check 1
check 0
poke entry 0 0
check 1
";
