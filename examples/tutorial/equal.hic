; Two segments are built to the same array, in two orders. Prints 1: their roots are equal.
.seg plain
.seg plain
li r0 0
li r1 1
open i0 r0
open i1 r1
li r2 70000
li r3 16
store i0 r2
seek i0 r3
store i0 r2
commit r4 i0
seek i1 r3
store i1 r2
commit r4 i1
li r3 0
seek i1 r3
store i1 r2
commit r4 i1
root r5 r0
root r6 r1
eq r7 r5 r6
putn r7
halt
