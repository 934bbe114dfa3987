//! Lines about the check, written by hand: worked rows, plans on the way to rest, sizes, the
//! gateway, and faults of lines.

pub const LINES: &str = "
# The check of a plan: worked from station 0, and damaged from outside.
net 0 2 3 5 5 / 1 2 3 1 3
check 0
grades 4 1 1 2 5
check 0
start 0
check 0
work 1
check 0
work 1
check 0
work 1
check 0
work 10
check 0
labels
entries
check 1
check 2
check 3
check 4
check 65535
poke label 3 5
check 0
poke label 1 4
poke entry 1 0
check 0
labels
entries
net 0 0 1 2 / 2 1
poke entry 0 65534
check 0
poke label 1 5
poke label 2 5
poke entry 1 1
poke entry 2 0
check 0
# It wants no started book, takes the gateway of its line, and changes nothing.
net 0 2 3 5 5 / 1 2 3 1 3
grades 4 1 1 2 5
enter 3
poke entry 0 65534
check 0
poke entry 1 3
poke entry 2 1
poke entry 3 2
poke label 1 3
poke label 2 1
poke label 3 4
check 0
labels
entries
waiting
ask 0
work 9
route 3 9
regrade 0 1
check 0
start 2
check 0
check 2
labels
entries
waiting
work 9
check 0
check 2
labels
entries
path 3 2
poke entry 0 65534
check 0
check 2
waiting
pick
start 0
work 3
check 0
waiting
labels
entries
work 9
check 0
# Each list, at each pick.
list two-ended
check 0
start 0
check 0
work 1
check 0
work 1
check 0
work 1
check 0
work 1
check 0
work 1
check 0
list small-label
start 0
check 0
work 1
check 0
work 1
check 0
work 1
check 0
work 1
check 0
list threshold 2
start 0
check 0
work 1
check 0
work 1
check 0
work 1
check 0
work 1
check 0
list bucket 2 5
start 0
check 0
work 1
check 0
work 1
check 0
work 1
check 0
work 1
check 0
work 1
check 0
# A station that waits is no fault if it has nothing to bring.
enter 1
check 0
enter 900
check 0
empty
check 0
# After a regrade, and at rest again.
list first-in
start 0
work 9
regrade 3 9
check 0
work 1
check 0
work 1
check 0
work 9
check 0
regrade 3 0
check 0
work 9
check 0
regrade 4 0
check 0
work 9
check 0
regrade 2 9
check 0
labels
entries
work 9
check 0
regrade 0 9
check 0
regrade 1 9
check 0
work 1
check 0
work 9
check 0
# Chances and margins.
kind chance
check 0
grades 32768 65535 40000 60000 30000
check 0
start 0
check 0
work 1
check 0
work 1
check 0
work 9
check 0
labels
entries
poke label 3 1
check 0
poke label 3 65536
check 0
start 0
work 9
poke label 0 65535
check 0
poke label 0 65537
check 0
poke grade 4 65535
check 0
poke grade 4 65537
check 0
poke grade 4 30000
poke grade 1 65537
check 0
kind margin
check 0
grades 20 30 -5 25 -6
check 0
start 0
check 0
work 1
check 0
work 9
check 0
labels
entries
poke label 3 -6
check 0
poke entry 3 4
check 0
poke entry 3 2
check 0
poke label 3 -5
check 0
poke grade 4 -5
check 0
poke grade 4 -4
check 0
poke entry 3 4
check 0
poke label 3 -4
check 0
poke label 0 126
check 0

# Sizes and the gateway's number come first, in this order.
net 0 2 3 5 5 / 1 2 3 1 3
check 4
check 1024
check 65535
grades 1 2 3 4
check 0
check 4
resize labels 3
check 0
check 4
resize entries 5
check 0
check 65535
grades 1 2 3 4 5 6
check 0
grades 4 1 1 2 5
check 0
check 4
resize labels 4
check 0
check 4
resize entries 4
check 0
check 4
start 0
work 9
check 0
check 4
resize labels 5
check 0
check 4
check 1
resize entries 5
check 0
check 4
resize labels 4
check 0
check 4
resize entries 3
check 3
resize labels 3
check 0
check 3
resize labels 0
resize entries 0
check 0
resize grades 0
check 0
resize labels 4
resize entries 4
check 0
resize grades 5
check 0
start 0
check 0
work 9
check 0
grades
check 0
grades 4 1 1 2
check 0
grades 4 1 1 2 5
start 0
work 9
check 0
net 0 0 0 /
check 2
grades 1
check 2
grades
check 2
resize labels 65535
check 2
check 0
resize labels 2
resize entries 65535
check 2
check 1
resize entries 2
start 1
check 1
check 0
# What was cut off comes back as a new book has it.
net 0 2 3 5 5 / 1 2 3 1 3
grades 4 1 1 2 5
start 0
work 9
resize labels 3
resize labels 4
check 0
start 0
work 9
resize entries 3
resize entries 4
check 0
resize entries 0
resize entries 4
check 0
start 0
work 9
resize grades 4
resize grades 5
check 0
resize grades 0
resize grades 5
check 0

# The gateway: the start label, and its own entry. All else comes after it.
net 0 2 3 5 6 / 1 2 3 1 3 0
grades 4 1 1 2 5 1
start 0
work 9
check 0
poke label 0 1
check 0
poke label 0 4294967295
check 0
poke label 3 9
check 0
poke entry 1 65534
check 0
check 1
poke label 1 0
check 1
poke label 0 0
check 0
check 1
start 0
work 9
poke entry 0 65535
check 0
poke entry 0 65533
check 0
poke entry 0 5
check 0
poke label 0 5
check 0
poke label 0 0
check 0
poke entry 0 0
check 0
poke entry 0 6
check 0
poke entry 0 4096
check 0
poke entry 2 65535
check 0
poke entry 0 65534
check 0
poke entry 2 1
check 0
poke entry 3 65534
check 0
check 3
poke label 3 0
check 3
check 0
poke entry 2 65534
check 2
poke label 2 0
check 2
check 0
kind chance
start 0
check 0
work 9
check 0
check 1
poke label 0 65535
check 0
poke label 0 0
check 0
poke label 0 65536
check 0
kind margin
grades 127 127 127 127 127 127
start 3
work 9
check 3
check 0
check 1
poke label 3 126
check 3
poke label 3 -128
check 3
poke label 3 127
check 3
poke entry 0 65534
check 0
check 3
poke entry 3 5
check 0
check 3

# The words of the line.
check
check 0 0
check x
check x y
check -1
check -0
check +0
check 65536
check 65535
check 0x0
check 000
check 001
check /
check check
Check 0
CHECK 0
checks 0
chec 0
check0
 check\t0\r
\tcheck \t 1\r\r
check\x0b0
check 0\x0b
check 99999999999999999999999
check 18446744073709551616
check 4294967296
# check 0
";
