; Writes 65 offsets without a commit. An iterator register keeps 64 of them, so the last write is the trap `buffer`.
.seg plain
li r0 0
open i0 r0
li r1 0
li r2 1
seek i0 r1
store i0 r2
addi r1 r1 1
jmp 4
