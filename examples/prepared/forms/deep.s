.section xdp,"ax",@progbits
.globl prog
.type prog,@function
prog:
 r2 = *(u32 *)(r1 + 4)
 r6 = *(u32 *)(r1 + 0)
 r3 = r6
 r3 += 200
 r0 = 2
 if r3 > r2 goto out
 r4 = *(u64 *)(r6 + 0)
 r7 = r6
 r5 = r4
 r5 &= 1
 if r5 == 0 goto l1
 r7 += 1
l1:
 r5 = r4
 r5 &= 2
 if r5 == 0 goto l2
 r7 += 2
l2:
 r5 = r4
 r5 &= 4
 if r5 == 0 goto l4
 r7 += 4
l4:
 r5 = r4
 r5 &= 8
 if r5 == 0 goto l8
 r7 += 8
l8:
 r5 = r4
 r5 &= 16
 if r5 == 0 goto l16
 r7 += 16
l16:
 r0 = *(u8 *)(r7 + 0)
 r0 &= 1
out:
 exit
.size prog, .-prog
