//! What each candidate list answers by its rule, written by hand.

pub const LINES: &str = "
# First-in: from the bottom to the top.
net 0 0 0 0 0 /
poke label 0 9
poke label 1 8
poke label 2 7
list first-in
enter 3
enter 1
enter 2
enter 3
pick
enter 3
enter 0
enter 1
pick
pick
pick
pick
pick
enter 2
enter 1
empty
waiting
pick
enter 1
enter 2
pick
pick

# Two-ended: a later entry goes to the top.
list two-ended
enter 2
enter 1
enter 0
enter 0
pick
pick
enter 2
enter 3
enter 1
enter 2
waiting
pick
pick
pick
pick
pick
# Run empty by picks, it remembers who has entered.
enter 7
enter 0
enter 1
pick
pick
pick
# Emptied, it does not.
enter 0
enter 1
empty
enter 8
enter 0
enter 1
pick
pick
pick
empty
enter 1
enter 0
pick
pick
list two-ended
enter 8
enter 0
enter 1
pick
pick
pick

# Small-label: the better and the equal go to the top.
net 0 0 0 0 0 0 /
poke label 0 5
poke label 1 6
poke label 2 5
poke label 3 4
poke label 4 9
list small-label
enter 0
enter 1
enter 2
enter 3
enter 4
enter 4
pick
pick
pick
pick
pick
# By the labels of this entering: the top station may have another by now.
enter 3
poke label 3 7
enter 1
poke label 1 1
poke label 4 2
enter 4
enter 3
pick
pick
pick
# A waiting station stays, however good its label has become.
enter 3
enter 1
enter 4
pick
poke label 4 0
enter 4
pick
pick
# Without one of the two labels to the bottom.
poke label 0 5
poke label 1 5
poke label 2 5
poke label 3 5
enter 0 2
enter 2 2
enter 1 2
pick
pick
pick
enter 2 2
enter 0 2
enter 1 2
enter 3 3
enter 4 5
pick
pick
pick
pick
pick
enter 0 0
enter 1 0
enter 2 1
enter 3 1
pick
pick
pick
pick
enter 900
enter 0
enter 1
enter 901
pick
enter 2
pick
pick
pick
pick
kind chance
list small-label
poke label 0 5
poke label 1 6
poke label 2 5
poke label 3 4
poke label 4 0
enter 0
enter 1
enter 2
enter 3
enter 4
pick
pick
pick
pick
pick
kind margin
list small-label
poke label 0 0
poke label 1 -1
poke label 2 1
poke label 3 -128
poke label 4 1
enter 0
enter 1
enter 2
enter 3
enter 4
pick
pick
pick
pick
pick

# Threshold: labels beyond it wait in the second queue.
net 0 0 0 0 0 0 /
list threshold 2
poke label 0 9
poke label 1 4
poke label 2 7
poke label 3 6
poke label 4 5
enter 0
enter 1
enter 2
enter 3
pick
enter 4
enter 2
pick
pick
pick
pick
pick
# Only emptying sets the threshold back.
poke label 0 1
poke label 1 10
enter 1
enter 2
enter 0
waiting
pick
pick
pick
empty
enter 1
enter 2
enter 0
enter 900
pick
pick
pick
pick
list threshold 2
enter 2
enter 1
enter 0
pick
pick
pick
# By the labels of the pick.
list threshold 0
poke label 0 1
poke label 1 2
poke label 2 3
enter 0
enter 1
enter 2
poke label 0 9
poke label 1 8
pick
pick
enter 2
enter 1
pick
pick
pick
# Without its label a station enters the first queue.
list threshold 10
poke label 0 5
poke label 1 5
poke label 4 5
enter 4 65535
enter 0 2
enter 1 1
enter 2 2
enter 3 0
pick
pick
pick
pick
pick
# A waiting station stays, however good its label has become.
empty
poke label 0 5
poke label 1 5
poke label 2 0
enter 0
enter 1
poke label 1 0
enter 1
enter 2
enter 0
pick
pick
pick
# Where labels are missing, their stations move alone, and the threshold stays.
empty
poke label 0 5
poke label 1 5
poke label 2 5
enter 0
enter 1
enter 2
poke label 0 0
pick 2
pick 2
pick 2
pick 2
empty
poke label 0 5
poke label 1 1
poke label 2 5
poke label 3 5
enter 3
enter 0
enter 2
enter 1
pick 2
pick 2
enter 2
enter 3
pick 3
pick 1
pick 1
pick
pick
empty
enter 3
enter 0
enter 2
enter 1
pick 0
pick
enter 3
pick
pick
pick
pick
empty
enter 0
enter 1
enter 2
pick 65535
enter 3
pick 3
pick 3
pick
# A best label may be far from the others, and the step may reach all.
list threshold 4294967295
poke label 0 4294967295
poke label 1 4294967290
poke label 2 1
enter 0
enter 1
enter 2
pick
pick
pick
list threshold 5
enter 0
enter 1
pick
pick
list threshold 4
enter 0
enter 1
pick
pick
kind chance
list threshold 32768
poke label 0 10000
poke label 1 30000
poke label 2 50000
poke label 3 20000
poke label 4 25000
enter 0
enter 1
enter 2
enter 3
pick
enter 4
pick
pick
pick
pick
list threshold 65536
enter 0
enter 1
enter 2
pick
pick
pick
list threshold 0
enter 0
enter 1
enter 2
pick
pick
pick
kind margin
list threshold 20
poke label 0 10
poke label 1 30
poke label 2 50
poke label 3 20
poke label 4 19
enter 0
enter 1
enter 2
enter 3
pick
enter 4
pick
pick
pick
pick
list threshold 127
enter 0
enter 1
enter 2
pick
pick
pick
list threshold -128
enter 0
enter 1
enter 2
enter 4
pick
pick
pick
pick

# Bucket: low buckets first, and the oldest of each.
net 0 0 0 0 0 0 /
list bucket 10 29
poke label 0 25
poke label 1 19
poke label 2 3
poke label 3 10
enter 0
enter 1
enter 2
enter 3
enter 4
pick
pick
pick
pick
pick
pick
# The search begins at the bucket of the last pick and goes up and round, after none too.
enter 0
enter 1
enter 2
poke label 4 30
enter 4
pick
pick
pick
pick
pick
enter 1
pick
pick
enter 0
enter 2
enter 3
pick
pick
pick
# Emptying sets it back.
enter 0
pick
empty
enter 0
enter 1
enter 2
pick
pick
pick
list bucket 10 29
enter 0
enter 2
pick
pick
# It was the bucket where the station lay, whatever its label is now.
empty
enter 1
poke label 1 29
pick
poke label 1 10
enter 0
enter 1
pick
pick
# A waiting station moves only to another bucket, and is the newest there.
empty
poke label 0 0
poke label 1 0
poke label 2 10
enter 0
enter 1
enter 2
poke label 0 9
enter 0
pick
enter 0
poke label 1 9
enter 1
enter 0
pick
enter 1
poke label 0 10
enter 0
waiting
pick
pick
pick
empty
enter 0
enter 1
enter 2
poke label 0 30
enter 0
poke label 0 39
enter 0
poke label 0 40
enter 0
pick
pick
pick
# Without its label a station has rank 0, and may move so.
empty
enter 2 2
enter 0 1
enter 1 65535
enter 900
waiting
enter 1 1
pick
pick
pick
pick
empty
enter 2
enter 900
enter 2 0
enter 2 3
enter 2 2
pick
pick
list bucket 1 9
poke label 0 0
poke label 1 1
enter 1
enter 900
enter 0
enter 1 1
enter 0 0
pick
pick
pick
# One bucket alone, and the highest ranks.
list bucket 4294967295 4294967294
poke label 0 4294967295
poke label 1 4294967294
enter 0
enter 1
enter 2
pick
pick
pick
list bucket 4294967295 4294967295
enter 0
enter 1
enter 2
pick
pick
pick
list bucket 67108864 4294967295
enter 0
enter 1
enter 2
pick
pick
pick
kind chance
list bucket 32768 65536
poke label 0 32768
poke label 1 32769
poke label 2 0
poke label 3 1
enter 0
enter 1
enter 2
enter 3
enter 4
pick
pick
pick
pick
pick
kind margin
list bucket 4 255
poke label 0 -128
poke label 1 0
poke label 2 126
poke label 3 123
enter 0
enter 1
enter 3
enter 2
enter 4
pick
pick
pick
pick
pick
";
