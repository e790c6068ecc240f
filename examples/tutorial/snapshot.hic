; A snapshot is opened, then another register commits a new word in its place. The snapshot still reads the former word:
; prints 70000, and the new word 70001 below it.
.seg plain
.data 0 0 70000
li r0 0
open i0 r0
open i1 r0
li r1 70001
store i1 r1
commit r2 i1
load r3 i0
putn r3
li r4 10
putb r4
open i0 r0
load r3 i0
putn r3
putb r4
halt
