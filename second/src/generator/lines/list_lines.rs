//! Lines about candidate lists, written by hand: faults of lines, bounds, refusals.

pub const LINES: &str = "
# A site begins with an empty first-in list and with start labels.
net 0 0 0 0 0 /
waiting
pick
empty
enter 2
enter 0
enter 2
waiting
pick
waiting
pick
pick
waiting

# Lists with other words than they take.
list
list first
list First-in
list FIRST-IN
list firstin
list first-in,
list fifo
list /
list 0
list x y z
list first-in 0
list first-in x
list first-in first-in
list first-in two-ended
list two-ended 1
list two-ended x y
list small-label 1
list small-label 1 2
list threshold
list threshold 1 2
list threshold x y
list threshold 1 x
list threshold5
list bucket
list bucket 1
list bucket x
list bucket 1 2 3
list bucket 1 2 x
list bucket x y z
list bucket 0 0 0
list buckets 1 2
# The other commands with other words than they take.
enter
enter 1 2 3
enter x y z
enter 1 2 x
enter 65536 65536 65536
enter 1024 0 0
pick 1 2
pick x y
pick 65536 1
empty 0
empty x
empty list
waiting 0
waiting x
waiting 1 2
poke
poke label
poke label 1
poke label x
poke label 1 2 3
poke label 1 2 x
poke labels 1 2
poke Label 1 2
poke grades 1 2
poke 1 2
poke 1 2 3
poke x y z
poke 1 label 2
poke label label 1 2
# Other first words.
lists first-in
List first-in
list-first-in
enters 0
Enter 0
ente 0
picks
pic
Pick
emptied
empt
wait
waits
Waiting
label
Labels
label 0 1
pokes label 0 1
poke,
waiting
pick
# A number sign later in a line is a word.
list first-in # queue
enter 0 #
enter 0 # x
pick #
empty #
waiting #
poke label 0 #
poke label 0 1 #
waiting

# Numbers at their bounds.
enter x
enter -1
enter -0
enter +1
enter 1x
enter 65536
enter 131072
enter 4294967296
enter 18446744073709551616
enter 99999999999999999999999
enter x y
enter 65536 x
enter 0 x
enter 0 -1
enter 0 -0
enter 0 65536
enter 0 4294967296
enter 0 18446744073709551616
waiting
enter 0 65535
enter 00001 065535
enter 2 0000000000000000000000000000000000
waiting
pick x
pick -1
pick -0
pick +0
pick 65536
pick 65537
pick 4294967296
pick 99999999999999999999999
waiting
pick 65535
pick 0
pick 000
pick 65535
list threshold x
list threshold -1
list threshold -0
list threshold +1
list threshold 4294967296
list threshold 18446744073709551616
list threshold 4294967295
list threshold 0
list threshold 007
list threshold 65537
list bucket x y
list bucket x 1
list bucket 1 x
list bucket 0 x
list bucket -1 1
list bucket 1 -1
list bucket -0 -0
list bucket 4294967296 1
list bucket 1 4294967296
list bucket 4294967296 4294967296
list bucket 18446744073709551617 1
list bucket 4294967295 4294967295
list bucket 4294967295 0
list bucket 0001 00063
poke label x 0
poke label -1 0
poke label -0 0
poke label 65536 0
poke label 65536 x
poke label 4294967296 0
poke label x y
poke label 65535 x
poke label 4 x
poke label 4 -1
poke label 4 4294967296
poke label 4 0
poke label 5 0
poke label 65535 0
poke label 0 x
poke label 0 -1
poke label 0 -0
poke label 0 +1
poke label 0 4294967296
poke label 0 18446744073709551616
poke label 0 4294967295
poke label 1 65537
poke label 2 007
poke label 003 1
kind chance
poke label 4 65537
poke label 0 65535
poke label 1 65536
poke label 0 65537
poke label 2 0
poke label 3 4294967295
poke label 0 4294967296
poke label 0 -1
poke label 0 -0
poke label 1 1
list threshold 4294967296
list threshold -1
list threshold x
list threshold 0
list threshold 65535
list threshold 65536
kind margin
poke label 0 127
poke label 1 -128
poke label 2 -0
poke label 3 -007
poke label 0 128
poke label 0 -129
poke label 0 65536
poke label 0 --1
poke label 0 -
poke label 4 128
poke label 4 -128
poke label -1 -129
list threshold 128
list threshold -129
list threshold 65537
list threshold -
list threshold -128
list threshold 127
list threshold -0

# A chance is made of at most 65536 parts; no refusal changes the list.
net 0 0 0 0 0 /
kind chance
list two-ended
enter 3
enter 1
pick
enter 3
list threshold 65537
list threshold 131072
list threshold 4294967295
list threshold 65537 1
waiting
enter 3
pick
pick
pick
enter 2
enter 1
list threshold 65537
pick
pick

# Buckets of width 0, and more than 64 of them.
net 0 0 0 0 0 /
list bucket 10 29
poke label 1 10
poke label 2 20
enter 1
pick
enter 0
enter 1
enter 2
list bucket 0 0
list bucket 0 1
list bucket 0 4294967295
list bucket 1 64
list bucket 2 128
list bucket 2 129
list bucket 3 192
list bucket 1 4294967295
list bucket 67108863 4294967295
list bucket 65535 4294967295
waiting
pick
pick
pick
pick
list bucket 1 63
list bucket 2 127
list bucket 3 191
list bucket 1 0
list bucket 67108864 4294967295
list bucket 4294967295 4294967294
waiting

# Stations that no list takes, and stations beyond the net that it takes.
list first-in
enter 1024
enter 1025
enter 2047
enter 2048
enter 65535
enter 1024 0
enter 1024 x
waiting
pick
enter 1023
enter 4
enter 3
enter 1024
enter 1023
waiting
pick
pick
pick
pick
list two-ended
enter 1023
enter 1024
enter 65535
pick
enter 0
enter 1023
enter 1024
pick
pick
pick
list small-label
enter 1023
enter 0
enter 1024
enter 1023
pick
pick
pick
list threshold 5
enter 2
enter 1023
enter 1024
enter 65535
waiting
pick
pick
pick
list bucket 10 29
enter 2
enter 1023
enter 1024
enter 65535
waiting
pick
pick
pick

# A kind and a net begin the labels and the list anew, grades and paths do not.
net 0 1 1 1 1 / 2
list two-ended
enter 0
enter 1
pick
poke label 1 5
grades 7
path 0
grades x
path x
kind
kind hops
net 0 1 / 1
net 0 1
list fifo
enter 0
pick
pick
enter 2
kind airtime
waiting
enter 0
enter 1
pick
enter 0
pick
pick
list two-ended
poke label 3 9
enter 0
enter 1
pick
net 0 1 1 1 1 / 2
waiting
enter 0
enter 1
pick
enter 0
pick
pick
list threshold 3
poke label 0 2
enter 0
kind margin
waiting
enter 0
pick
net 0 0 /
poke label 1 0
poke label 0 3
list first-in
";
