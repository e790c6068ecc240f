; Four tasks read one input, and each counts the bytes that it reads in 256 words of its own. Task 0 waits for the marks
; of the others at 1025 to 1027, and prints each byte that was read with the sum of its counts.
.seg merge
.task w
.task w
.task w
.task w
w:
li r0 0
task r1
li r2 256
mul r3 r1 r2
open i0 r0
more:
getb r4
eq r5 r4 r2
jnz r5 done
add r6 r3 r4
seek i0 r6
load r7 i0
addi r7 r7 1
store i0 r7
commit r5 i0
jmp more
done:
li r6 1024
add r6 r6 r1
seek i0 r6
li r7 1
store i0 r7
commit r5 i0
jnz r1 fin
wait:
open i0 r0
li r6 1025
seek i0 r6
load r7 i0
jz r7 wait
addi r6 r6 1
seek i0 r6
load r7 i0
jz r7 wait
addi r6 r6 1
seek i0 r6
load r7 i0
jz r7 wait
li r4 0
sum:
seek i0 r4
load r7 i0
addi r6 r4 256
seek i0 r6
load r5 i0
add r7 r7 r5
addi r6 r6 256
seek i0 r6
load r5 i0
add r7 r7 r5
addi r6 r6 256
seek i0 r6
load r5 i0
add r7 r7 r5
jz r7 skip
putn r4
li r6 32
putb r6
putn r7
li r6 10
putb r6
skip:
addi r4 r4 1
eq r5 r4 r2
jz r5 sum
fin:
halt
