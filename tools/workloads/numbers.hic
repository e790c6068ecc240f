; The longest of the sequences that begin below the size: n goes to n / 2 or to 3 n + 1 until it is 1. Numbers alone.
li r0 400000 ; size
li r1 1
li r2 2
li r3 3
li r7 0
next:
mov r4 r0
li r5 0
step:
addi r5 r5 1
rem r6 r4 r2
jz r6 even
mul r4 r4 r3
add r4 r4 r1
jmp step
even:
div r4 r4 r2
xor r6 r4 r1
jnz r6 step
ltu r6 r7 r5
jz r6 shorter
mov r7 r5
shorter:
addi r0 r0 -1
xor r6 r0 r1
jnz r6 next
putn r7
halt
