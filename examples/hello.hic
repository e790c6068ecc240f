; Writes the letter H.
.task 0
li r0 72
putb r0
halt
