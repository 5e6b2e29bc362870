# drive: moves the cage.
#
# Once a second it takes the commands that signals accepted, and sets the speed: up to 8 m/s, or 4 m/s with men,
# changed by at most 1 m/s in a second, and never above the speed from which the cage still comes to rest at the
# landing. While the brakes are on, or nothing is heard of their watch, it stops by 4 m/s in a second, and forgets
# its order.
#
# Outside   each byte is from the tachometer: how much faster (signed, dm/s) the rope ran in the last second than
#           it was set; no byte, no difference.
# Takes     COMMANDS  1 stop, 2 raise, 3 lower, 4 raise men, 5 lower men; at most two in a period
#           BRAKES    0, or why the brakes are on; it counts as on when it is older than 600 ticks
# Sends     SPEED, JOURNEY, the same eight bytes: speed (two, signed), height (two, signed), number (four)
# Shows     the speed, signed, dm/s
#
# Timing    one task, period 1000, deadline 500: its window ends at tick 500 of the round.
#           At most 187 instructions from its beginning to its wait; the window has 224.

    .include "hoist.inc"

    .equ FULL, 80                   # dm/s
    .equ MEN, 40
    .equ RAMP, 10                   # dm/s in a second
    .equ STOPPING, 40               # with the brakes on
    .equ SILENT, 600                # ticks: the watch speaks every 500

control:
    # What the rope did in the last second: as it was set, and what the tachometer says.
    lw s0, %lo(set)(zero)
    mv s1, s0                       # s1: speed
    li t0, 4                        # at most so many bytes
    li a7, HEAR
tachometer:
    ecall
    bltz a0, moved
    slli a0, a0, 24
    srai a0, a0, 24
    add s1, s1, a0
    addi t0, t0, -1
    bnez t0, tachometer
moved:
    lw s2, %lo(height)(zero)
    add s2, s2, s1                  # s2: height; dm/s for one second
    sw s2, %lo(height)(zero)

    # Commands: the last one holds.
    lw s3, %lo(order)(zero)
    li t0, 2
    li a7, TAKE
next_command:
    li a0, COMMANDS
    address a1, command
    ecall
    li t1, NONE
    beq a0, t1, commanded
    lbu s3, %lo(command)(zero)
    andi s3, s3, 7
    addi t0, t0, -1
    bnez t0, next_command
commanded:

    # The brakes: on, if their watch says so or says nothing. NONE is above every age.
    li s4, RAMP
    li a0, BRAKES
    address a1, brakes
    ecall
    li t0, SILENT
    bltu t0, a0, braked
    lw t0, %lo(brakes)(zero)
    beqz t0, free
braked:
    li s3, 0
    li s4, STOPPING
free:
    sw s3, %lo(order)(zero)

    # s5: which way, s6: how fast at most, t0: how far to the landing.
    lb s5, %lo(ways)(s3)
    lbu s6, %lo(speeds)(s3)
    li s7, 0                        # s7: the speed wanted, without its sign
    beqz s5, wanted
    mv t0, s2
    bltz s5, down
    li t0, TOP
    sub t0, t0, s2
down:
    blez t0, wanted

    # The speed from which the cage comes to rest within t0 when each second takes RAMP off it. From RAMP*k + e it
    # goes RAMP*(1 + .. + k) + (k + 1)*e further: first k, then e.
    li t1, RAMP                     # RAMP*(k + 1)
    li t2, 1                        # k + 1
whole:
    blt t0, t1, rest
    sub t0, t0, t1
    addi s7, s7, RAMP
    addi t1, t1, RAMP
    addi t2, t2, 1
    blt s7, s6, whole
    mv s7, s6
    j wanted
rest:
    blt t0, t2, stoppable
    sub t0, t0, t2
    addi s7, s7, 1
    j rest
stoppable:
    blt s7, s6, wanted
    mv s7, s6
wanted:
    bgez s5, signed
    neg s7, s7
signed:

    # From the speed set towards the speed wanted, by at most s4.
    sub t0, s7, s0
    ble t0, s4, not_faster
    mv t0, s4
not_faster:
    neg t1, s4
    bge t0, t1, not_slower
    mv t0, t1
not_slower:
    add s0, s0, t0
    sw s0, %lo(set)(zero)

    # Report.
    sh s1, %lo(report)(zero)
    sh s2, %lo(report + 2)(zero)
    lw t0, %lo(report + 4)(zero)
    addi t0, t0, 1
    sw t0, %lo(report + 4)(zero)
    li a0, SPEED
    address a1, report
    li a2, 8
    call SEND
    li a0, JOURNEY
    ecall
    mv a0, s1
    call SHOW
    call WAIT

# by command: 0 none, 1 stop, 2 raise, 3 lower, 4 raise men, 5 lower men; others stop
ways:    .byte 0, 0, 1, -1, 1, -1, 0, 0
speeds:  .byte 0, 0, FULL, FULL, MEN, MEN, 0, 0

    .balign 4
set:     .word 0                    # the speed that is set
height:  .word 0                    # the cage stands at the lower landing
order:   .word 0                    # the command that holds
command: .word 0
brakes:  .word 0
report:  .half 0, 0
         .word 0
