; Each number to the size with its letter, printed.
li r0 1000000 ; size
li r1 26
li r2 10
again:
putn r0
rem r3 r0 r1
addi r3 r3 97
putb r3
putb r2
addi r0 r0 -1
jnz r0 again
halt
