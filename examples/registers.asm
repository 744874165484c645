; WHAT A DRIVER READS, HEARD: timers, ports, and the registers of the S-DSP that show its voices. It executes a script that
; tools/conformance puts beside it, and plays the bytes that it reads as volumes of a voice whose wave is a constant.
;
; A recording alone then shows what a driver would read on an engine, and when. A test of the script is
; a few commands: a timer is started, so many cycles pass, its counter is read twice, and both bytes are played. How long
; it lasts may differ from engine to engine, since it may wait for what comes by a clock of the sound chip's own.
;
;   0002-0003  the command that comes next       0006       how many bytes were read
;   0004-0005  the two bytes that it is given    0020-002F  these bytes
;   01C0-01CF  the driver's own stack
;   0200-023F  the directory of the waves
;   1000       the script: of each command its place in the table below, and two bytes
;
; The numbers at the right are cycles. The script's writer counts on them, so a command takes as many each time.

start:
    MOV X,#$CF
    MOV SP,X
    MOV $F2,#$4C                ; KON
    MOV $F3,#$01
    MOV X,#$40
settle:                         ; the voice begins while its volumes are 0
    MOV Y,#$00
settle_wait:
    DBNZ Y,settle_wait
    DEC X
    BNE settle
    CALL !mark

next:                           ; 57 until a command begins, with its second byte in A
    MOV Y,#$02                  ; 2
    MOV A,[$02]+Y               ; 6
    MOV $05,A                   ; 4
    DEC Y                       ; 2
    MOV A,[$02]+Y               ; 6
    MOV $04,A                   ; 4
    DEC Y                       ; 2
    MOV A,[$02]+Y               ; 6
    MOV X,A                     ; 2
    MOV A,#$03                  ; 2
    MOV Y,#$00                  ; 2
    ADDW YA,$02                 ; 5
    MOVW $02,YA                 ; 5
    MOV A,$05                   ; 3
    JMP [!commands+X]           ; 6

; ---------------------------------------------------------------------------
; WRITES

write:                          ; a byte into the direct page: ports, timers and control stand at F0 to FF
    MOV X,$04                   ; 3
    MOV (X),A                   ; 4
    JMP !next                   ; 3

write_dsp:                      ; a register of the S-DSP: its address goes to F2, its byte to F3
    MOV X,$04                   ; 3
    MOV $F2,X                   ; 4
    MOV $F3,A                   ; 4
    JMP !next                   ; 3

; ---------------------------------------------------------------------------
; READS

read:                           ; a byte of the direct page; a timer's counter is 0 from then on
    MOV X,$04                   ; 3
    MOV A,(X)                   ; 3
keep:
    MOV X,$06                   ; 3
    MOV $20+X,A                 ; 5
    INC $06                     ; 4
    JMP !next                   ; 3

read_two:                       ; the counters of timers 0 and 1 by one instruction
    MOVW YA,$FD                 ; 5
    MOV X,$06                   ; 3
    MOV $20+X,A                 ; 5
    INC $06                     ; 4
    MOV A,Y                     ; 2
    JMP !keep                   ; 3

read_dsp:                       ; a register of the S-DSP
    MOV X,$04                   ; 3
    MOV $F2,X                   ; 4
    MOV A,$F3                   ; 3
    JMP !keep                   ; 3

reached_dsp:                    ; 1 where a register of the S-DSP is at least the second byte, else 0
    MOV X,$04                   ; 3
    MOV $F2,X                   ; 4
    MOV A,$F3                   ; 3
    CMP A,$05                   ; 3
    MOV A,#$00                  ; 2
    ROL A                       ; 2
    JMP !keep                   ; 3

; ---------------------------------------------------------------------------
; TIME

wait:                           ; 16 a time, less 2 at the last; the first byte is the low one
    NOP                         ; 2
    NOP                         ; 2
    NOP                         ; 2
    DECW $04                    ; 6
    BNE wait                    ; 4
    JMP !next                   ; 3

; Until a timer counts. What it counted before is cleared first. What follows begins just behind a tick: 5 cycles pass
; from read to read, each fourth time 11. After 1,024 reads it gives up: the timer is dead.
await_count:
    MOV X,$04                   ; 3
    MOV A,(X)                   ; 3
    MOV Y,#$00                  ; 2
await_count_more:
    MOV A,(X)                   ; 3
    BNE counted                 ; 2
    MOV A,(X)                   ; 3
    BNE counted                 ; 2
    MOV A,(X)                   ; 3
    BNE counted                 ; 2
    MOV A,(X)                   ; 3
    BNE counted                 ; 2, or 4
    DBNZ Y,await_count_more     ; 6
counted:
    JMP !next                   ; 3

; Until a register of the S-DSP is another than the second byte, and no longer than some 5,600 samples.
await_change:
    MOV X,$04                   ; 3
    MOV $F2,X                   ; 4
    MOV X,#$40                  ; 2
    MOV Y,#$00                  ; 2
await_change_more:
    CMP A,$F3                   ; 3
    BNE counted                 ; 2, or 4
    DBNZ Y,await_change_more    ; 6
    DEC X
    BNE await_change_more
    JMP !next

; ---------------------------------------------------------------------------
; SOUND

play:                           ; a mark; what was read, two bytes at a time, left and right; and silence
    MOV A,#$7F
    MOV Y,A
    CALL !volumes
    MOV X,#$00
play_more:
    MOV A,$20+X
    INC X
    MOV Y,$20+X
    INC X
    CALL !volumes
    CMP X,$06
    BCC play_more
    MOV $06,#$00
    MOV A,#$00
    MOV Y,A
    CALL !volumes
    JMP !next

end:
    CALL !mark
stop:
    BRA stop

; Volumes A and Y, for 30 samples: 955 cycles with the call.
volumes:
    MOV $F2,#$00
    MOV $F3,A
    MOV $F2,#$01
    MOV $F3,Y
    MOV Y,#$9A
hold:
    DBNZ Y,hold
    RET

; A mark by which a recording is found: up and down four times, and silence.
mark:
    MOV X,#$04
mark_once:
    MOV A,#$7F
    MOV Y,A
    CALL !volumes
    MOV A,#$81
    MOV Y,A
    CALL !volumes
    DEC X
    BNE mark_once
    MOV A,#$00
    MOV Y,A
    CALL !volumes
    RET

commands:
    .word write,write_dsp,read,read_two,read_dsp,reached_dsp
    .word wait,await_count,await_change,play,end
