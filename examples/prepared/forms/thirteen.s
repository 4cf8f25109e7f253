.section xdp,"ax",@progbits
.globl prog
.type prog,@function
prog:
 r2 = *(u32 *)(r1 + 4)
 r6 = *(u32 *)(r1 + 0)
 r3 = r6
 r3 += 250
 r0 = 2
 if r3 > r2 goto out
 r4 = *(u64 *)(r6 + 0)
 r7 = r10
 r7 += -512
 r5 = r4
 r5 >>= 1
 r5 &= 1
 if r5 == 0 goto l1
 *(u64 *)(r10 - 8) = r6
l1:
 r5 = r4
 r5 >>= 2
 r5 &= 1
 if r5 == 0 goto l2
 *(u64 *)(r10 - 16) = r6
l2:
 r5 = r4
 r5 >>= 3
 r5 &= 1
 if r5 == 0 goto l3
 *(u64 *)(r10 - 24) = r6
l3:
 r5 = r4
 r5 >>= 4
 r5 &= 1
 if r5 == 0 goto l4
 *(u64 *)(r10 - 32) = r6
l4:
 r5 = r4
 r5 >>= 5
 r5 &= 1
 if r5 == 0 goto l5
 *(u64 *)(r10 - 40) = r6
l5:
 r5 = r4
 r5 >>= 6
 r5 &= 1
 if r5 == 0 goto l6
 *(u64 *)(r10 - 48) = r6
l6:
 r5 = r4
 r5 >>= 7
 r5 &= 1
 if r5 == 0 goto l7
 *(u64 *)(r10 - 56) = r6
l7:
 r5 = r4
 r5 >>= 8
 r5 &= 1
 if r5 == 0 goto l8
 *(u64 *)(r10 - 64) = r6
l8:
 r5 = r4
 r5 >>= 9
 r5 &= 1
 if r5 == 0 goto l9
 *(u64 *)(r10 - 72) = r6
l9:
 r5 = r4
 r5 >>= 10
 r5 &= 1
 if r5 == 0 goto l10
 *(u64 *)(r10 - 80) = r6
l10:
 r5 = r4
 r5 >>= 11
 r5 &= 1
 if r5 == 0 goto l11
 *(u64 *)(r10 - 88) = r6
l11:
 r5 = r4
 r5 >>= 12
 r5 &= 1
 if r5 == 0 goto l12
 *(u64 *)(r10 - 96) = r6
l12:
 r5 = r4
 r5 >>= 13
 r5 &= 1
 if r5 == 0 goto l13
 *(u64 *)(r10 - 104) = r6
l13:
 r0 = 0
 r5 = *(u64 *)(r10 - 8)
 r5 = *(u64 *)(r10 - 16)
 r5 = *(u64 *)(r10 - 24)
 r5 = *(u64 *)(r10 - 32)
 r5 = *(u64 *)(r10 - 40)
 r5 = *(u64 *)(r10 - 48)
 r5 = *(u64 *)(r10 - 56)
 r5 = *(u64 *)(r10 - 64)
 r5 = *(u64 *)(r10 - 72)
 r5 = *(u64 *)(r10 - 80)
 r5 = *(u64 *)(r10 - 88)
 r5 = *(u64 *)(r10 - 96)
 r5 = *(u64 *)(r10 - 104)
 r0 = 1
out:
 exit
.size prog, .-prog
