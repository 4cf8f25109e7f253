.section xdp,"ax",@progbits
.globl prog
.type prog,@function
prog:
 r2 = *(u32 *)(r1 + 4)
 r6 = *(u32 *)(r1 + 0)
 r3 = r6
 r3 += 200
 r0 = 2
 if r3 > r2 goto out
 r7 = r6
 r8 = 0
 r0 = 0
again:
 r4 = *(u8 *)(r7 + 0)
 r0 += r4
 if r4 == 7 goto skip
 r7 += 1
 goto step
skip:
 r7 += 2
step:
 r8 += 1
 if r8 < 4 goto again
 r0 &= 1
out:
 exit
.size prog, .-prog
