.section xdp,"ax",@progbits
.globl prog
.type prog,@function
prog:
 r2 = *(u32 *)(r1 + 4)
 r6 = *(u32 *)(r1 + 0)
 r3 = r6
 r3 += 60
 r0 = 2
 if r3 > r2 goto out
 r4 = *(u8 *)(r6 + 23)
 if r4 == 6 goto tcp
 if r4 != 17 goto out
 r7 = r6
 r7 += 40
 goto both
tcp:
 r7 = r6
 r7 += 50
 r8 = r6
 r8 += 47
both:
 *(u64 *)(r10 - 8) = r4
 r9 = *(u16 *)(r6 + 12)
 *(u16 *)(r7 + 0) = r9
 r5 = *(u64 *)(r10 - 8)
 r0 = 1
 if r5 != 6 goto out
 r0 = *(u8 *)(r8 + 0)
 r0 &= 1
out:
 exit
.size prog, .-prog
