; Four tasks count the bytes of one input, each byte by a commit that merges with those of the other tasks.
.seg merge
.task count
.task count
.task count
.task count
count:
li r0 0
task r1
li r2 256
mul r3 r1 r2
open i0 r0
more:
getb r4
eq r5 r4 r2
jnz r5 done
add r6 r3 r4
seek i0 r6
load r7 i0
addi r7 r7 1
store i0 r7
commit r5 i0
jmp more
done:
halt
