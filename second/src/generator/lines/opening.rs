//! Lines about nets, kinds, grades and paths, written by hand, and what lines hold that are no text.

/// Commands before the first net, small nets, and what each line can answer.
pub const LINES: &str = "\
# Before the first net: only net is carried out.
kind airtime
kind
grades 1 2 3
grades x
path
path 0 1 x
begin
KIND airtime
list first-in
list
list bucket 0 0
enter 0
enter 1024
enter
pick
pick x y
empty
empty 0
waiting
waiting 0
poke label 0 1
poke
Enter 0
net
net 0 1
net 0 x
net x 1 / 0
net 0 1 / x
net 0 1 / 0 /
# Refused nets open no site.
net /
path
net 0 /
net / 0
net 1 1 /
net 0 1 / 1
kind margin
grades
waiting
# The smallest net: one station, no link.
net 0 0 /
path
path 0
path 65535
grades
path
grades 5
path
path 0
path 65536
path x
grades
path

# One station with links to itself.
net 0 1 / 0
path 0
path 0 0 0
path 1
path 0 1
grades 7
path 0
path 0 0 0
path
net 0 3 / 0 0 0
grades 1 10 100
path 2 1 0
path 0 0 1 1 2 2

# Four stations, the last without links of its own.
net 0 2 3 5 5 / 1 2 3 1 3
path 1 3 2
grades 4 1 1 2 5
path
path 0
path 1
path 2
path 3
path 4
path 0 2
path 1 3
path 1 4
path 3 2
path 1 3 2
path 1 2
path 0 1
path 2 3
path 4 4
path 4 0
path 5
path 0 5
path 0 2 5
path 5 0
path 65535
path 0 65535
# The first link that fails is told, whichever way it fails.
path 0 1 5
path 0 5 1
path 1 3 2 2 9
path 1 3 9 2
# Wrong words are told first, then a wrong count of grades, then wrong links.
path 9 x
path 1 2 65536
path x y
grades 4 1 1 2
path
path 0
path 9
path 1 2
path x
grades 4 1 1 2 5 6
path
path 1 3 2
path 9
grades
path
path 0
grades 1 2 x
path
grades 4 1 1 2 5
path 1 3 2

# A kind keeps the net and gives every link grade 0.
kind chance
path
path 0
path 1 3 2
grades 65536 32768 65535 1 0
path 0
path 1
path 2
path 0 2
path 1 3
path 1 3 2
path 1 4
kind margin
path
path 0
grades 5 -3 127 -128 0
path 0 2
path 1 3 2
path 2
path 1 4
kind airtime
path 1 3 2
grades 4 1 1 2 5
kind airtime
path 1 3 2
grades 1 1 1
kind margin
path 1 3 2

# Wrong kinds change nothing.
grades 9 8 7 6 5
kind
kind hops
kind Margin
kind airtimes
kind air
kind airtime chance
kind margin margin
kind /
kind 0
kind airtime,
path 1 3 2

# Refused nets, and nets that cannot be read, leave the site as it was.
net 0 2 1 / 0
path 1 3 2
net 1 2 / 0 0
net 1 1 / 0
net 1 /
net 0 0 / 0
net 0 2 / 0
net 0 1 0 1 / 0
net 0 1 1 0 /
net 0 3 2 3 / 0 1 2
net 65535 0 /
net 0 65535 / 0
net 0 1 / 1
net 0 1 / 65535
net 0 1 3 / 0 2 9
net 0 1 3 / 0 1 2
net 0 3 / 0 0 1
net 0 2 2 / 2 65535
path 1 3 2
# Of several refusals the lowest is given.
net / 0 1 2
net 7 / 9
net 7 6 / 9
net 0 2 1 / 9
net 0 1 / 9 9
path 1 3 2
# Words before refusals.
net x /
net / x
net / /
net / 0 /
net 7 6 / 9 x
net 0 2 1 / 65536
net 0 1
net 0 1 0 1 65535
net 0 1 65536
net 0 1 x / y
net 0 1 // 0
net 0 1/ 0
net 0 1 /0
net 0/1
net 0 1 / 0/
net/
net/ 0 0
net 0 0 \\
path 1 3 2
path /
grades /
grades 1 / 2

# Other first words, and right ones written otherwise.
Net 0 0 /
nets 0 0 /
ne 0 0 /
paths
pat
PATH 0
grade 1
kinds
0
/
-
path# 0
net# 0 0 /
# A number sign is a comment only where a line begins.
kind margin # decibels
path # none
path 0 #
grades 1 2 3 4 5 # five
#path 0
##
#
   # after blanks
 #path 0

# Numbers at their bounds.
net 0 0 /
net 65536 0 /
net 0 65536 /
net 4294967296 0 /
net 0 4294967296 / 0
net 18446744073709551616 18446744073709551616 /
net 0 1 / 65536
net 0 1 / 4294967296
net 0 -0 /
net -0 0 /
net +0 0 /
net 00 000 /
net 000000000000000000000000000000 01 / 0000000000
path 0
path 00
path 0000000000000000000000000000000000000000
path 007
path 0 007
path 65535
path 065535
path 65536
path 65537
path 131072
path 4294967295
path 4294967296
path 18446744073709551615
path 18446744073709551616
path 99999999999999999999999
path +0
path +1
path -0
path -1
path --1
path -
path +
path 1x
path x1
path 0x0
path 0 1x
path 1.0
path 1e0
path 1,0
path 1_0
path 0-
path 0 0 0 0 0 -1
grades 4294967295
path 0
path 0 0
grades 4294967296
path 0
grades 4294967294
path 0
path 0 0
grades 4294967297
grades 8589934592
grades 18446744073709551616
grades 99999999999999999999999
grades -1
grades -0
grades +1
grades 1x
grades --1
grades -
path 0
grades 007
path 0
kind chance
grades 0
path 0
grades 1
path 0
grades 65535
path 0
path 0 0
grades 65536
path 0
path 0 0
grades 65537
path 0
path 0 0
grades 131072
path 0
grades 4294967295
path 0
grades 4294967296
grades 99999999999999999999999
grades -1
grades -0
grades -
grades +65536
path 0
grades 065535
path 0
kind margin
grades 127
path 0
grades 128
grades 255
grades 256
path 0
grades -128
path 0
grades -129
grades -256
grades -4294967296
grades -18446744073709551616
grades 18446744073709551615
grades 99999999999999999999999
grades -99999999999999999999999
path 0
grades -0
path 0
grades -00128
path 0
grades -007
path 0
grades 007
path 0
grades +1
grades --1
grades -
grades - 1
grades 1-
grades -1x
grades -+1
grades 1 2 -129
path 0

# Two links in a row: labels carried over the second.
net 0 1 2 2 / 1 2
grades 4294967290 5
path 0 1
grades 4294967290 6
path 0 1
grades 4294967290 4
path 0 1
grades 4294967295 4294967295
path 0 1
path 1
grades 2147483648 2147483647
path 0 1
grades 2147483648 2147483648
path 0 1
kind chance
grades 32768 32768
path 0 1
grades 1 65535
path 0 1
grades 65535 1
path 0 1
grades 1 65536
path 0 1
grades 65535 65535
path 0 1
grades 4294967295 65537
path 0 1
grades 3 21846
path 0 1
grades 3 21845
path 0 1
kind margin
grades -3 5
path 0 1
grades 5 -3
path 0 1
grades 127 -128
path 0 1
grades -128 127
path 0 1
grades 127 127
path 0 1
path 1 0

# Parallel links, and stations without links between others.
net 0 0 3 3 3 6 6 / 4 4 1 1 1 5
grades 1 10 100 1000 10000 100000
path 0 3
path 1 3
path 1 4 2 2 0 5
path 2
path 5
path 5 0
path 3 3
path 2 2 2 1 4 0 3 1 5
path 2 2 2 1 4 0 3 1 5 5
";

/// Lines that a text would not hold: odd ends, blanks and bytes.
pub const ODD: &[&[u8]] = &[
    b"# Blanks are tab, carriage return and space.\n",
    b"net 0 2 3 5 5 / 1 2 3 1 3\r\n",
    b"grades 4 1 1 2 5\r\n",
    b"path 1 3 2\r\n",
    b"path\r\n",
    b"path \r\n",
    b"path \n",
    b"\r\n",
    b"\n",
    b" \n",
    b"\t\n",
    b" \t \r \t\r\r\n",
    b"\tpath\t1\t3\t2\n",
    b"   path   1   3   2   \n",
    b" \t path \t 1 \t 3 \t 2 \t \r\n",
    b"path\r1\r3\r2\n",
    b"\rpath 1 3 2\n",
    b"path 1 3 2\r\r\n",
    b"kind\tmargin\t\r\n",
    b"kind\rairtime\n",
    b"net\t0\t0\t/\t\r\n",
    b"\tnet 0  2\t3 5\r5 /  1 2 3 1 3 \n",
    b"grades\t4 1\t1 2\t5\n",
    b"  # a comment after blanks\n",
    b"\t# another\r\n",
    b"\r#\r\n",
    b"#\r\n",
    b"# Other white space is no blank.\n",
    b"kind\x0bmargin\n",
    b"kind\x0cmargin\n",
    b"kind margin\x0b\n",
    b"path 1\x0c3 2\n",
    b"\x0b\n",
    b"\x0c\n",
    b"\x0b# no comment\n",
    b"\xa0path\n",
    b"path\xc2\xa01\n",
    b"path \xc2\xa0\n",
    b"\xef\xbb\xbfpath\n",
    b"path 1\xe2\x80\x833\n",
    b"# Bytes that are no text: \xff \x00 \xc3 \xc3\x28 \xed\xa0\x80 \xf8\x88\x80\x80\x80 \xfe\n",
    b"#\xff\n",
    b"#\x00\n",
    b"#\xc3\n",
    b"\xff\n",
    b"\x00\n",
    b"\xc3\n",
    b"\xc3\xa4\n",
    b"\xff#\n",
    b"\x00# no comment\n",
    b"\xff path\n",
    b"path\xff\n",
    b"path\x00\n",
    b"path\xc3\n",
    b"path \xff\n",
    b"path \x00\n",
    b"path \xc3\n",
    b"path 1\xff 3 2\n",
    b"path 1 3\x00 2\n",
    b"path 1 3 \xc32\n",
    b"path 1 3 2 \x00\n",
    b"path 1\x003\n",
    b"path \xd9\xa1\n",
    b"path \xef\xbc\x91\n",
    b"path \xe2\x88\x921\n",
    b"path \xb1\n",
    b"grades 4 \xff 1 2 5\n",
    b"grades 4 1 1 2 \x00\n",
    b"grades \xc3 1 1 2 5\n",
    b"kind \xff\n",
    b"kind \x00\n",
    b"kind margin\x00\n",
    b"kind margin \xc3\n",
    b"kind \x00margin\n",
    b"net 0 0 \xff\n",
    b"net 0 0 \x00/\n",
    b"net 0 0 /\xc3\n",
    b"net 0 0 / \xff\n",
    b"net \xc3 0 /\n",
    b"net\x00 0 0 /\n",
    b"\x01\x02\x03\x04 \x05\x06\x7f\n",
    b"path 1 3 2\n",
];
