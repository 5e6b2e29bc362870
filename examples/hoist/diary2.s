# diary2: a larger diary, in the place of the first.
#
# A clerk makes one wide entry every two seconds in which there is something new, and keeps totals: how far the cage
# went, and how fast it was at most. An auditor goes over the new entries every ten seconds. It has another program,
# more memory, more tasks, other periods and more work than diary; drive, watch and signals can tell nothing of it.
#
# Takes     JOURNEY  speed (two bytes, signed), height (two, signed), number (four)
#           CHECKS   why the brakes are on, or 0 (four); how many checks (four)
#           BELLS    the last command, how many commands, how many pulls (four each)
# Shows     the clerk for each entry d0 + the low four bits of its number; the auditor, when there were new entries,
#           the four bytes of the sum over all entries so far, high byte first
#
# The book  is the second to the ninth page of memory: a ring of 1024 entries of 32 bytes, eight words each:
#             tick, speed and height as they came, number of the report, why the brakes are on or 0, number of checks,
#             last command, number of commands, number of pulls
#           The sum is Adler-32 over the bytes of the entries, in order.
# Totals    are at the end of the program's own page, behind each other: entries, decimetres, highest speed.
#
# Timing    task 0, clerk: period 2000, deadline 1000, the higher priority. At most 100 instructions.
#           task 1, auditor: period and deadline 10000. At most 1497 instructions with five new entries; what the
#           clerk leaves in ten rounds is at least 3040.

    .include "hoist.inc"

    .equ BOOK, 1                    # page
    .equ ENTRIES, 1024
    .equ ADLER, 65521

    bnez a0, auditor                # a0: the task's number

clerk:
    li a0, JOURNEY
    address a1, journey
    call TAKE
    li a0, CHECKS
    address a1, checks
    ecall
    li a0, BELLS
    address a1, bells
    ecall

    # Anything new? The cage moves or did, the brakes, commands, pulls.
    lh s0, %lo(journey)(zero)
    lw t0, %lo(moved)(zero)
    sw s0, %lo(moved)(zero)
    or s1, s0, t0
    lw t0, %lo(checks)(zero)
    lw t1, %lo(brakes)(zero)
    sw t0, %lo(brakes)(zero)
    xor t0, t0, t1
    or s1, s1, t0
    lw t0, %lo(bells + 4)(zero)
    lw t1, %lo(bells + 8)(zero)
    add t0, t0, t1
    lw t1, %lo(rung)(zero)
    sw t0, %lo(rung)(zero)
    xor t0, t0, t1
    or s1, s1, t0
    beqz s1, nothing_new

    # Totals.
    lh t0, %lo(journey + 2)(zero)
    lw t1, %lo(height)(zero)
    sw t0, %lo(height)(zero)
    sub t0, t0, t1
    bgez t0, upward
    neg t0, t0
upward:
    lw t1, %lo(distance)(zero)
    add t1, t1, t0
    sw t1, %lo(distance)(zero)
    bgez s0, not_down
    neg s0, s0
not_down:
    lw t0, %lo(fastest)(zero)
    ble s0, t0, not_fastest
    sw s0, %lo(fastest)(zero)
not_fastest:

    # The entry: the tick, and seven words as they came.
    call CLOCK
    sw a0, %lo(tick)(zero)
    lw s1, %lo(entries)(zero)
    andi t0, s1, ENTRIES - 1        # the ring
    slli t0, t0, 5
    lui t1, BOOK
    add t0, t0, t1
    address t1, tick
    addi t2, t1, 32
copy:
    lw t3, 0(t1)
    sw t3, 0(t0)
    addi t1, t1, 4
    addi t0, t0, 4
    bne t1, t2, copy
    andi a0, s1, 15
    addi s1, s1, 1
    sw s1, %lo(entries)(zero)
    addi a0, a0, 0xd0
    call SHOW
nothing_new:
    call WAIT

# Adler-32: a is 1 and all bytes, b all the a's, both modulo 65521. Entries that the clerk makes meanwhile wait for the
# next time.
auditor:
    lw s0, %lo(audited)(zero)       # s0: the next entry
    lw s1, %lo(entries)(zero)       # s1: the one behind the last
    beq s0, s1, nothing_to_audit
    lw s2, %lo(adler_a)(zero)
    lw s3, %lo(adler_b)(zero)
    li s4, ADLER
audit:
    andi t0, s0, ENTRIES - 1
    slli t0, t0, 5
    lui t1, BOOK
    add t0, t0, t1
    addi t1, t0, 32
add_byte:
    lbu t2, 0(t0)
    add s2, s2, t2
    bltu s2, s4, a_small
    sub s2, s2, s4
a_small:
    add s3, s3, s2
    bltu s3, s4, b_small
    sub s3, s3, s4
b_small:
    addi t0, t0, 1
    bne t0, t1, add_byte
    addi s0, s0, 1
    bne s0, s1, audit

    sw s0, %lo(audited)(zero)
    sw s2, %lo(adler_a)(zero)
    sw s3, %lo(adler_b)(zero)
    srli a0, s3, 8
    call SHOW
    mv a0, s3
    ecall
    srli a0, s2, 8
    ecall
    mv a0, s2
    ecall
nothing_to_audit:
    call WAIT

    .balign 4
tick:     .word 0                   # an entry, as it is copied into the book: tick,
journey:  .word 0, 0                # and what came last
checks:   .word 0, 0
bells:    .word 0, 0, 0
moved:    .word 0                   # the speed of the report before
brakes:   .word 0                   # why the brakes were on
rung:     .word 0                   # commands and pulls
height:   .word 0                   # of the entry before
audited:  .word 0                   # so many entries are in the sum
adler_a:  .word 1
adler_b:  .word 0
entries:  .word 0                   # the totals: entries,
distance: .word 0                   # decimetres,
fastest:  .word 0                   # highest speed
