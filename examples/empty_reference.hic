; A reference to the empty array is a word that is not 0, so it is found where it is stored. Prints 11.
.seg plain
.seg plain
li r0 1
root r1 r0
li r0 0
open i0 r0
store i0 r1
commit r2 i0
isref r3 r1
putn r3
find r4 i0
putn r4
halt
