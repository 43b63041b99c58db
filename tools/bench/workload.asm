; The workload of the program bench: a CRC by a table over a buffer, a sort, and a glyph table that the main program
; and the timer's handler both rewrite. It goes round and round, as often as the word at 000000FC says (for ever, if 0),
; and then makes a system call, with r8 = 1, which ends it: the handler is a reserved word. It stops where something is wrong, too.
;
; 000000F8 the timer's control word: 3 lets it interrupt, 0 leaves it off
; 00000100 the program; 00000800 the CRC table; 00000C00 the buffer; 00000E00 the glyph table; 00000F00 the array

; reset: PC starts here
xor r0, r0, r0           ; every register may start as anything
bi start

; exception 6, the timer
.org 0xC0
bi tick

; exception 7, the system call at the end
.org 0xE0
.word 0x9C000000         ; a reserved word: stop

.org 0xF8
.word 3
.word 0

; the program
.org 0x100
start:
lw r17, (r0+0xFC)        ; how many rounds to make
mvi r20, 0x1000          ; the timer's registers
mvi r21, 0xE00           ; the glyph that the handler rewrites next
mvi r22, 0               ; interrupts so far
mvi r19, 0               ; rounds so far
mvi r18, 12345           ; the random numbers' state
mvi r1, 97
sw (r20+0), r1           ; period 97
sw (r20+4), r1           ; first count 97
lw r1, (r0+0xF8)
sw (r20+8), r1           ; control: run, and let the line rise
mvi r1, 1
wcsr IM, r1              ; line 0 enabled
wcsr IE, r1              ; interrupts open

; the CRC table: 256 words
mvi r1, 0                ; the index
mvi r2, 0x800            ; where its word goes
mvi r5, 256
orhi r6, r0, 0xEDB8
ori r6, r6, 0x8320       ; the polynomial
table:
mv r3, r1
mvi r4, 8
bits:
andi r7, r3, 1
srui r3, r3, 1
be r7, r0, even
xor r3, r3, r6
even:
addi r4, r4, -1
bne r4, r0, bits
sw (r2+0), r3
addi r2, r2, 4
addi r1, r1, 1
bne r1, r5, table

round:
; the buffer: 508 random bytes, and 4 for their CRC
mvi r1, 0xC00
mvi r2, 0xDFC
fill:
calli random
sb (r1+0), r3
addi r1, r1, 1
bne r1, r2, fill

; the CRC of the buffer, and of the buffer with the CRC after it
mvi r1, 0xC00
calli crc
nor r4, r3, r0
sb (r2+0), r4            ; least significant byte first
srui r5, r4, 8
sb (r2+1), r5
srui r5, r4, 16
sb (r2+2), r5
srui r5, r4, 24
sb (r2+3), r5
lw r6, (r2+0)            ; the four bytes as a word
mvi r1, 0xC00
addi r2, r2, 4
calli crc
orhi r5, r0, 0xDEBB
ori r5, r5, 0x20E3       ; what remains where the bytes are right
bne r3, r5, wrong

; the array: 64 random words, sorted by insertion
mvi r1, 0xF00
mvi r2, 0x1000
words:
calli random
sw (r1+0), r3
addi r1, r1, 4
bne r1, r2, words
mvi r1, 0xF04
next:
lw r3, (r1+0)
mv r4, r1
shift:
lw r5, (r4-4)
bgeu r3, r5, place
sw (r4+0), r5
addi r4, r4, -4
mvi r6, 0xF00
bne r4, r6, shift
place:
sw (r4+0), r3
addi r1, r1, 4
bne r1, r2, next
mvi r1, 0xF04
sorted:
lw r3, (r1-4)
lw r5, (r1+0)
cmpgu r6, r3, r5
bne r6, r0, wrong
addi r1, r1, 4
bne r1, r2, sorted

; the glyph table: each of 64 words mirrored, and the mean of its halves put into the array
mvi r1, 0xE00
glyph:
lw r3, (r1+0)
mvi r4, 32
mvi r5, 0
mirror:
sli r5, r5, 1
andi r6, r3, 1
or r5, r5, r6
srui r3, r3, 1
addi r4, r4, -1
bne r4, r0, mirror
sw (r1+0), r5
lhu r6, (r1+0)
lhu r7, (r1+2)
add r6, r6, r7
mvi r7, 2
divu r6, r6, r7
sh (r1+256), r6
lb r7, (r1+3)
sexth r7, r7
mul r7, r7, r6
sw (r1+256), r7
addi r1, r1, 4
mvi r2, 0xF00
bne r1, r2, glyph

addi r19, r19, 1
bne r19, r17, round
mvi r8, 1
scall

; r3 is the CRC of the bytes from r1 up to r2, before the last inversion; uses r4 and r5
crc:
nor r3, r0, r0
byte:
lbu r4, (r1+0)
xor r4, r4, r3
andi r4, r4, 0xFF
sli r4, r4, 2
lw r4, (r4+0x800)
srui r3, r3, 8
xor r3, r3, r4
addi r1, r1, 1
bne r1, r2, byte
ret

; r3 is the next random number; uses r4
random:
orhi r4, r0, 0x19
ori r4, r4, 0x660D
mul r18, r18, r4
orhi r4, r0, 0x3C6E
ori r4, r4, 0xF35F
add r18, r18, r4
srui r3, r18, 8
ret

wrong:
.word 0x9C000000         ; a reserved word: stop

; the timer's handler: one glyph inverted in its middle; uses r23, r24 and r25
tick:
lw r25, (r21+0)
xori r25, r25, 0x3C3C
sw (r21+0), r25
addi r21, r21, 4
andi r21, r21, 0xFF
ori r21, r21, 0xE00
sw (r20+12), r0          ; the timer's status 0: the line falls at the tick
rcsr r24, IP
wcsr IP, r24             ; forget the line
addi r22, r22, 1
eret
