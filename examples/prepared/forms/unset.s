.section xdp,"ax",@progbits
.globl prog
.type prog,@function
prog:
 r0 = r5
 exit
.size prog, .-prog
