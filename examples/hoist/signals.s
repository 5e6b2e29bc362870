# signals: the bell and the pull wire of the shaft.
#
# Counts the strokes of the bell. When a second has gone by without a stroke, the code is complete: 1 to 5 strokes
# are a command to the drive, more are not understood and do nothing. The pull wire goes to the brakes' watch at
# once, whatever the bell does.
#
# Outside   'b' a stroke, 'e' the pull wire; others are noise. At most six bytes are heard in a period.
# Sends     COMMANDS  command (one byte: 1 stop, 2 raise, 3 lower, 4 raise men, 5 lower men), three zeros.
#                     If there is no place, it is tried again in the next period, unless a newer command is there.
#           PULL      how often the wire was pulled (four bytes)
#           BELLS     the last command, how many commands, how many pulls (four bytes each)
# Shows     each command when the drive's queue has it; 80 + strokes (hexadecimal) for a code that is not understood;
#           ee for the pull wire
#
# Timing    one task, period 1000, deadline 260: its window ends at tick 260 of the round.
#           At most 110 instructions from its beginning to its wait; the window has 114.

    .include "hoist.inc"

    .equ STROKE, 'b'
    .equ WIRE, 'e'
    .equ CODES, 5

bell:
    li s0, 0                        # s0: strokes in this period
    li s1, 0                        # s1: pulls in this period
    li t0, 6
    li t1, STROKE
    li t2, WIRE
    li a7, HEAR
listen:
    ecall
    bltz a0, heard
    bne a0, t1, no_stroke
    addi s0, s0, 1
no_stroke:
    bne a0, t2, no_wire
    addi s1, s1, 1
no_wire:
    addi t0, t0, -1
    bnez t0, listen
heard:

    # The wire first.
    beqz s1, not_pulled
    lw t0, %lo(pulls)(zero)
    add t0, t0, s1
    sw t0, %lo(pulls)(zero)
    li a0, PULL
    address a1, pulls
    li a2, 4
    call SEND
    li a0, 0xee
    call SHOW
    jal ra, tell
not_pulled:

    # Strokes: in a period that has none, the code is complete.
    lw t0, %lo(strokes)(zero)
    beqz s0, quiet
    add t0, t0, s0
    sw t0, %lo(strokes)(zero)
    j deliver
quiet:
    beqz t0, deliver
    sw zero, %lo(strokes)(zero)
    li t1, CODES
    bgtu t0, t1, unknown
    sw t0, %lo(command)(zero)
    j deliver
unknown:
    li t1, 15
    bleu t0, t1, few
    mv t0, t1
few:
    ori a0, t0, 0x80
    call SHOW

deliver:
    lw s2, %lo(command)(zero)
    beqz s2, done
    li a0, COMMANDS
    address a1, command
    li a2, 4
    call SEND
    bnez a0, done                   # no place: again in the next period
    sw zero, %lo(command)(zero)
    sw s2, %lo(last)(zero)
    lw t0, %lo(commands)(zero)
    addi t0, t0, 1
    sw t0, %lo(commands)(zero)
    mv a0, s2
    call SHOW
    jal ra, tell
done:
    call WAIT

# for the diary
tell:
    li a0, BELLS
    address a1, last
    li a2, 12
    call SEND
    ret

    .balign 4
strokes:  .word 0                   # of the code that is not complete
command:  .word 0                   # not yet delivered, or 0
last:     .word 0                   # the last command delivered, and then
commands: .word 0                   # how many
pulls:    .word 0                   # how often the wire was pulled
