.section xdp,"ax",@progbits
.globl prog
.type prog,@function
prog:
 r2 = *(u32 *)(r1 + 4)
 r6 = *(u32 *)(r1 + 0)
 r3 = r6
 r3 += 40
 r0 = 2
 if r3 > r2 goto out
 r4 = *(u16 *)(r6 + 12)
 r5 = 14
 if r4 != 129 goto plain
 r5 = 18
plain:
 r4 = *(u8 *)(r6 + 3)
 r4 &= 3
 r6 += r5
 r0 = *(u8 *)(r6 + 0)
 r0 &= r4
out:
 exit
.size prog, .-prog
