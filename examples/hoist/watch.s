# watch: the brakes' watch.
#
# Twice a second it looks at the drive's last report, and puts the brakes on when something is wrong:
#   1  no report, or one older than 800 ticks
#   2  too fast for this place in the shaft (the cam, below)
#   3  the cage is beyond a landing
#   4  the cam in memory is not as it was built
#   5  somebody pulled the wire in the shaft
# They stay on, with the first reason, until nothing is wrong, the cage stands, and the key is turned. At the start
# there is no report yet: so they are on, and the first trip begins with the key.
#
# Outside   'r' the key; others are noise. One byte is heard in each check.
# Takes     SPEED   speed (two bytes, signed), height (two, signed), number (four)
#           PULL    how often the wire was pulled (four)
# Sends     BRAKES  0, or why the brakes are on (four)
#           CHECKS  the same four bytes, and how many checks there were (four)
# Shows     55 and aa in turns, the heartbeat of each check; behind it b1 to b5 while the brakes are on;
#           5c each time the cam was found as it was built
#
# Timing    task 0, check: period 500, deadline 130, the higher priority; windows begin at ticks 0 and 500 of the
#           round, and each check is done in its window. At most 72 instructions; the window has 114.
#           task 1, self-check: period and deadline 10000. At most 395 instructions, in what the checks leave:
#           at least 84 in a round.

    .include "hoist.inc"

    .equ OLD, 800                   # ticks: in a check a report is 700 old at most, or 1067 at least if one is missing
    .equ KEY, 'r'
    .equ CAM, 64                    # places of the cam, each for 8 dm

    bnez a0, self_check             # a0: the task's number

check:
    li s0, 0                        # s0: what is wrong now
    li s1, 0                        # s1: speed, without its sign
    li a0, SPEED
    address a1, report
    call TAKE
    li t0, OLD
    bltu t0, a0, no_report          # NONE is above every age
    lh s1, %lo(report)(zero)
    lh t0, %lo(report + 2)(zero)    # t0: height

    # How far to the landing ahead: t1.
    li t2, TOP
    sub t1, t2, t0
    bgez s1, upward
    neg s1, s1
    mv t1, t0
upward:
    bgez t1, not_beyond
    li t1, 0
not_beyond:

    # Not faster than the cam allows there.
    srli t1, t1, 3
    li t3, CAM - 1
    bleu t1, t3, on_cam
    mv t1, t3
on_cam:
    lbu t1, %lo(cam)(t1)
    bleu s1, t1, not_fast
    li s0, 2
not_fast:

    # Between the landings.
    addi t0, t0, OVERRUN
    addi t2, t2, 2 * OVERRUN
    bleu t0, t2, reported           # below 0 is above all without its sign
    li s0, 3
    j reported
no_report:
    li s0, 1
reported:

    lw t0, %lo(cam_bad)(zero)
    beqz t0, cam_good
    li s0, 4
cam_good:

    # The wire: pulled since the last check.
    li a0, PULL
    address a1, pulled
    ecall
    lw t0, %lo(pulled)(zero)
    lw t1, %lo(pulled_before)(zero)
    beq t0, t1, not_pulled
    sw t0, %lo(pulled_before)(zero)
    li s0, 5
not_pulled:

    # On with the first reason; off with the key.
    lw s2, %lo(brakes)(zero)
    call HEAR
    bnez s2, on
    mv s2, s0
    j decided
on:
    addi a0, a0, -KEY
    or a0, a0, s0
    or a0, a0, s1
    bnez a0, decided                # no key, something wrong, or the cage moves
    li s2, 0
decided:
    sw s2, %lo(brakes)(zero)

    lw t0, %lo(checks)(zero)
    addi t1, t0, 1
    sw t1, %lo(checks)(zero)
    andi t0, t0, 1
    li a0, 0x55
    sll a0, a0, t0                  # 55, aa
    call SHOW
    beqz s2, off
    addi a0, s2, 0xb0
    ecall
off:
    li a0, BRAKES
    address a1, brakes
    li a2, 4
    call SEND
    li a0, CHECKS
    li a2, 8
    ecall
    call WAIT

# The sum of the cam as it is in memory: 31 times the sum, and the next byte.
self_check:
    li t0, 0                        # place
    li t1, CAM
    li t2, 0                        # sum
more:
    slli t3, t2, 5
    sub t2, t3, t2
    lbu t4, %lo(cam)(t0)
    add t2, t2, t4
    addi t0, t0, 1
    bne t0, t1, more
    lw t3, %lo(cam_sum)(zero)
    bne t2, t3, bad
    li a0, 0x5c
    call SHOW
    call WAIT
bad:
    li t0, 1
    sw t0, %lo(cam_bad)(zero)
    call WAIT

# The cam: the highest speed by the distance to the landing ahead, in steps of 8 dm. It is the drive's own law, from
# which the cage comes to rest by 1 m/s in a second, with 1.4 m/s more: 1 for the second that the report is behind,
# and 0.4 to spare; 8.8 m/s at most.
    .set sum, 0
    .macro places speeds:vararg
    .irp speed, \speeds
    .byte \speed
    .set sum, (sum * 31 + \speed) & 0xffffffff
    .endr
    .endm
cam:
    places 21, 26, 30, 34, 37, 39, 42, 44, 46, 48, 50, 52, 54, 56, 57, 59
    places 61, 62, 64, 65, 66, 68, 69, 70, 72, 73, 74, 75, 77, 78, 79, 80
    places 81, 82, 83, 84, 85, 86, 87, 88, 88, 88, 88, 88, 88, 88, 88, 88
    places 88, 88, 88, 88, 88, 88, 88, 88, 88, 88, 88, 88, 88, 88, 88, 88

    .balign 4
cam_sum: .word sum                  # as it was built
cam_bad: .word 0                    # 1 when the self-check found another sum
report:  .half 0, 0
         .word 0
brakes:  .word 0                    # 0, or why they are on, and then
checks:  .word 0                    # how many checks there were
pulled:  .word 0                    # how often the wire was pulled, as it stands in the channel
pulled_before: .word 0
