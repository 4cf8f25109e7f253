.section xdp,"ax",@progbits
.globl prog
.type prog,@function
prog:
 r2 = *(u32 *)(r1 + 4)
 r6 = *(u32 *)(r1 + 0)
 r3 = r6
 r3 += 40
 r0 = 2
 if r3 > r2 goto out
 r4 = *(u16 *)(r6 + 12)
 r3 = r6
 r3 += 14
 *(u64 *)(r10 - 8) = r3
 if r4 != 129 goto plain
 r3 += 4
 *(u64 *)(r10 - 8) = r3
plain:
 r4 = *(u8 *)(r6 + 3)
 r7 = *(u64 *)(r10 - 8)
 r0 = *(u8 *)(r7 + 0)
 r0 &= r4
 r0 &= 1
 r9 = 5
 if r0 == 0 goto more
 r9 = 6
more:
 r0 = r9
out:
 exit
.size prog, .-prog
