; A PROCESSOR TEST THAT IS HEARD: it makes one instruction after another, each from a state of its own, and plays
; what it left as volumes of a voice whose wave is a constant. tools/conformance puts tests and tables beside it.
;
; Who writes an engine learns from a recording alone what its processor computed. The driver itself needs some
; thirty instructions to be right: where they are wrong, nothing that is heard makes sense.
;
;   0002-0003  the test that comes next          0010-0019  the test, copied
;   0004-0005  where the tests end               0020-0027  what is played of it
;   000C,010C  the landing pad that was taken    01C0-01CF  the driver's own stack
;
; What a test may read and write, filled anew before each:
;   0040-005F, 0140-015F         data in both direct pages, from the table at 0A00
;   01F8-01FF and on, 0100-0107  a stack that wraps at the end of its page, from the table at 0B00
;
; A test has ten bytes: A, X, Y, PSW, SP, the instruction's three bytes, and where its data and its stack begin in
; the tables. The pads of calls stand from FF00 on.

start:
    MOV X,#$CF
    MOV SP,X
    MOV $F2,#$4C                ; KON
    MOV $F3,#$01
    MOV X,#$40
settle:                         ; the voice begins while its volumes are 0
    MOV Y,#$00
settle_wait:
    DBNZ Y,settle_wait
    DEC X
    BNE settle
    CALL !mark

; ---------------------------------------------------------------------------
; A TEST

next_test:
    MOV Y,#$09
copy:
    MOV A,[$02]+Y
    MOV !$0010+Y,A
    DEC Y
    BPL copy

    MOV Y,$18                   ; its data, a byte for each page by turns
    MOV X,#$00
fill:
    MOV A,!$0A00+Y
    MOV $40+X,A
    INC Y
    MOV A,!$0A00+Y
    MOV !$0140+X,A
    INC Y
    INC X
    CMP X,#$20
    BNE fill

    MOV Y,$19                   ; its stack; X goes from F8 over FF and 00 to 07
    MOV X,#$F8
fill_stack:
    MOV A,!$0B00+Y
    MOV !$0100+X,A
    INC Y
    INC X
    CMP X,#$08
    BNE fill_stack

    MOV A,#$00                  ; no pad yet, in either page
    MOV $0C,A
    MOV !$010C,A
    MOV A,$15
    MOV !instruction,A
    MOV A,$16
    MOV !operand,A
    MOV A,$17
    MOV !operand_2,A
    MOV X,$14
    MOV SP,X
    MOV A,$13
    PUSH A                      ; for PSW
    MOV A,$10
    MOV X,$11
    MOV Y,$12
    POP PSW
    BRA instruction

; A pad stores its number and changes neither registers nor flags. PSW says which direct page it writes to.
pad_before:
    MOV $0C,#$01
    JMP !save

instruction:                    ; where it is shorter, NOPs follow
    .byte 0
operand:
    .byte 0
operand_2:
    .byte 0
    BRA save

pad_behind:
    MOV $0C,#$02

; ---------------------------------------------------------------------------
; WHAT IT LEFT

save:                           ; stores to addresses leave the flags, and mind no direct page
    MOV !$0020,A
    MOV !$0021,X
    MOV !$0022,Y
    PUSH PSW
    POP A
    CLRP
    MOV $23,A
    MOV X,SP
    MOV $24,X
    MOV A,$0C
    OR A,!$010C
    MOV $25,A
    MOV X,#$CF
    MOV SP,X

    MOV $26,#$00                ; sums of what it may have written
    MOV $27,#$00
    MOV X,#$1F
sum:
    MOV A,$40+X
    CALL !add
    MOV A,!$0140+X
    CALL !add
    DEC X
    BPL sum
    MOV X,#$F8
sum_stack:
    MOV A,!$0100+X
    CALL !add
    INC X
    CMP X,#$08
    BNE sum_stack

    MOV X,#$00
play:                           ; two bytes at a time, left and right
    MOV A,$20+X
    INC X
    MOV Y,$20+X
    INC X
    CALL !volumes
    CMP X,#$08
    BNE play

    MOV A,#$0A
    MOV Y,#$00
    ADDW YA,$02
    MOVW $02,YA
    CMPW YA,$04
    BEQ end
    JMP !next_test
end:
    CALL !mark
stop:
    BRA stop

; ---------------------------------------------------------------------------
; PARTS

; Adds A to the sum, and the sum to the sum of sums.
add:
    CLRC
    ADC A,$26
    MOV $26,A
    CLRC
    ADC A,$27
    MOV $27,A
    RET

; Volumes A and Y, for 30 samples.
volumes:
    MOV $F2,#$00
    MOV $F3,A
    MOV $F2,#$01
    MOV $F3,Y
    MOV Y,#$9A
hold:
    DBNZ Y,hold
    RET

; A mark by which a recording is found: up and down four times, and silence.
mark:
    MOV X,#$04
mark_once:
    MOV A,#$7F
    MOV Y,A
    CALL !volumes
    MOV A,#$81
    MOV Y,A
    CALL !volumes
    DEC X
    BNE mark_once
    MOV A,#$00
    MOV Y,A
    CALL !volumes
    RET

; Where tools/conformance finds what it needs, at the end.
    .word instruction,pad_before,pad_behind,save
