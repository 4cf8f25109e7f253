.section xdp,"ax",@progbits
.globl prog
.type prog,@function
prog:
 r2 = *(u32 *)(r1 + 4)
 r6 = *(u32 *)(r1 + 0)
 r3 = r6
 r3 += 40
 r0 = 2
 if r3 > r2 goto out
 r4 = *(u16 *)(r6 + 12)
 *(u64 *)(r10 - 8) = r4
 if r4 == 129 goto one
 goto both
one:
 r7 = r6
 r7 += 14
both:
 r5 = *(u64 *)(r10 - 8)
 r0 = 1
 if r5 != 129 goto out
 r0 = *(u8 *)(r7 + 0)
 r0 &= 1
out:
 exit
.size prog, .-prog
