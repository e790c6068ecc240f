; Versions of an array of 4,096 words: each is kept in another array, and compared with the first.
.seg plain
.seg plain
li r0 0
li r1 1
open i0 r0
open i1 r1
root r2 r0
li r3 100000 ; size
li r7 4095
again:
and r4 r3 r7
seek i0 r4
store i0 r3
commit r5 i0
snap r5 i0
eq r6 r5 r2
seek i1 r3
store i1 r5
commit r5 i1
addi r3 r3 -1
jnz r3 again
putn r6
halt
