.section xdp,"ax",@progbits
.globl prog
.type prog,@function
prog:
 r2 = *(u32 *)(r1 + 4)
 r6 = *(u32 *)(r1 + 0)
 r3 = r6
 r3 += 40
 r0 = 2
 if r3 > r2 goto out
 r4 = *(u16 *)(r6 + 12)
 if r4 == 129 goto vlan
 r6 += 14
 goto tail
vlan:
 r6 += 18
tail:
 r0 = *(u8 *)(r6 + 0)
 r0 &= 1
out:
 exit
.size prog, .-prog
