; A whole version is made of the segment beside it and put in its place at once. In between the segment has got another
; word, which the two versions do not differ in: so mcas merges. Prints the answer 1.
.seg merge
.data 0 0 70000
.data 0 4 70000
li r0 0
open i0 r0
snap r1 i0
li r3 70001
store i0 r3
li r4 4
seek i0 r4
store i0 r3
seal r2 i0
open i1 r0
li r4 9
seek i1 r4
store i1 r3
commit r5 i1
mcas r0 r1 r2
putn r0
halt
