# diary: writes down what happened.
#
# Once a second it looks at what drive, watch and signals said last, and makes an entry for each of these that has
# something new: the cage moves or has come to rest, the brakes have gone on or off, a command or a pull of the wire
# has come. Nobody takes anything from the diary, and its channels have no places: no sender can tell whether it reads.
#
# Takes     JOURNEY  speed (two bytes, signed), height (two, signed), number (four)
#           CHECKS   why the brakes are on, or 0 (four); how many checks (four)
#           BELLS    the last command, how many commands, how many pulls (four each)
# Shows     for each entry the low byte of the sum over the book so far
#
# The book  is the second page of memory: a ring of 256 entries of 16 bytes, four words each:
#             tick, 1, speed and height as they came, number of the report
#             tick, 2, why the brakes are on or 0, number of checks
#             tick, 3, command, number of commands + 65536 * number of pulls
#           The sum turns left by five bits and takes in the next word, for each word of each entry.
#
# Timing    one task, period and deadline 1000: its window ends with the round.
#           At most 188 instructions from its beginning to its wait; the window has 354.

    .include "hoist.inc"

    .equ BOOK, 1                    # page
    .equ ENTRIES, 256

    # The journey: while the cage moves, and once when it has come to rest.
    li a0, JOURNEY
    address a1, journey
    call TAKE
    lw s0, %lo(journey + 4)(zero)
    lw t0, %lo(reports)(zero)
    beq s0, t0, no_journey          # no new report
    sw s0, %lo(reports)(zero)
    lh t0, %lo(journey)(zero)
    lw t1, %lo(moved)(zero)
    sw t0, %lo(moved)(zero)
    or t0, t0, t1
    beqz t0, no_journey             # it stands, and stood
    li a1, 1
    lw a2, %lo(journey)(zero)
    mv a3, s0
    jal ra, enter
no_journey:

    # The brakes: when they have gone on or off.
    li a0, CHECKS
    address a1, checks
    call TAKE
    lw a2, %lo(checks)(zero)
    lw t0, %lo(brakes)(zero)
    beq a2, t0, no_brakes
    sw a2, %lo(brakes)(zero)
    li a1, 2
    lw a3, %lo(checks + 4)(zero)
    jal ra, enter
no_brakes:

    # Commands and pulls: when there are more.
    li a0, BELLS
    address a1, bells
    call TAKE
    lw a3, %lo(bells + 8)(zero)
    slli a3, a3, 16
    lw t0, %lo(bells + 4)(zero)
    or a3, a3, t0
    lw t0, %lo(rung)(zero)
    beq a3, t0, no_bells
    sw a3, %lo(rung)(zero)
    li a1, 3
    lw a2, %lo(bells)(zero)
    jal ra, enter
no_bells:
    call WAIT

# An entry: the tick, and a1, a2, a3.
enter:
    call CLOCK
    lw t0, %lo(entries)(zero)
    addi t1, t0, 1
    sw t1, %lo(entries)(zero)
    andi t0, t0, ENTRIES - 1        # the ring
    slli t0, t0, 4
    lui t1, BOOK
    add t0, t0, t1
    sw a0, 0(t0)
    sw a1, 4(t0)
    sw a2, 8(t0)
    sw a3, 12(t0)

    lw t1, %lo(sum)(zero)
    addi t2, t0, 16
add_word:
    slli t3, t1, 5
    srli t1, t1, 27
    or t1, t1, t3
    lw t3, 0(t0)
    add t1, t1, t3
    addi t0, t0, 4
    bne t0, t2, add_word
    sw t1, %lo(sum)(zero)
    mv a0, t1
    call SHOW
    ret

    .balign 4
journey: .word 0, 0                 # as it came last
checks:  .word 0, 0
bells:   .word 0, 0, 0
reports: .word 0                    # the number of the last report seen
moved:   .word 0                    # its speed
brakes:  .word 0                    # why the brakes were on
rung:    .word 0                    # commands and pulls
entries: .word 0
sum:     .word 0
