; opcodes.asm: runs each documented instruction but HALT and RST 0 on 16 random states or more, and shows two CRCs for each group of them: of all that the
; instruction leaves with the flags that UM0080 defines, and of the other bits of F alone. The last line is that of R. conformance/README.md tells more.
; conformance/make.py adds the tables: CRC's pages, GROUPS, NAMES and ENTRIES.
TILES   EQU 4000H
COLOURS EQU 4400H
CELL    EQU 4042H               ; column 4, row 0
ROUNDS  EQU 16                  ; states of an entry
SEED    EQU 4C00H
ENTRY   EQU 4C02H               ; the entry that is tried
WHERE   EQU 4C04H               ; the row that is shown next
LEFT    EQU 4C06H               ; entries of the group
GROUP   EQU 4C08H               ; the group's line in GROUPS
NAME    EQU 4C0AH
ROUND   EQU 4C0CH
COUNT   EQU 4C0DH
FIRST   EQU 4C10H               ; CRC of what UM0080 defines, four bytes
SECOND  EQU 4C14H               ; CRC of the other bits of F
THIRD   EQU 4C18H               ; CRC of R
FLAGS   EQU 4C1CH               ; the entry, eight bytes: two of flags, the mask of F, the length, and the code
LENGTH  EQU FLAGS+3
; What an instruction finds: AF' BC' DE' HL' AF BC DE HL IX IY, SP, I, R, IFF
BEFORE  EQU 4C40H
BPAIRS  EQU BEFORE+8
BSP     EQU BEFORE+20
BI      EQU BEFORE+22
BR      EQU BEFORE+23
BIFF    EQU BEFORE+24
; What it leaves: IY IX HL' DE' BC' AF' HL DE BC AF, SP, whether it went to TOOK, I, IFF, then memory; and R
AFTER   EQU 4C60H
ALAST   EQU AFTER+20
ASP     EQU ALAST
ATOOK   EQU AFTER+22
AI      EQU AFTER+23
AIFF    EQU AFTER+24
MEMORY  EQU AFTER+25            ; 16 bytes that it may change, at 4C79H
MIDDLE  EQU MEMORY+4            ; where its pairs lie, to MIDDLE+3
STACK   EQU MEMORY+8
AR      EQU MEMORY+16
BITS    EQU MEMORY+17           ; the other bits of F
ONEOF   EQU AFTER               ; bytes that are summed: AFTER to MEMORY+15
TEST    EQU 4D03H               ; the instruction; JP TOOK is before it
TOP     EQU 4FF0H

        JP START
        ORG 8                   ; the restarts: what they push tells which it was
        CALL TOOK
        ORG 10H
        CALL TOOK
        ORG 18H
        CALL TOOK
        ORG 20H
        CALL TOOK
        ORG 28H
        CALL TOOK
        ORG 30H
        CALL TOOK
        ORG 38H
        CALL TOOK

; The next 16 bits: x ^= x << 7, x ^= x >> 9, x ^= x << 8, in HL, and H in A. E is lost.
RANDOM: LD HL,(SEED)
        LD A,H
        RRA
        LD A,L
        RRA
        LD E,A
        LD A,0
        RRA
        XOR L
        LD L,A
        LD A,E
        XOR H
        LD H,A
        SRL A
        XOR L
        LD L,A
        XOR H
        LD H,A
        LD (SEED),HL
        RET

; B random bytes from IX on: one of four is from EDGES.
FILL:   CALL RANDOM
        AND 3
        LD A,L
        JR NZ,KEEP
        AND 7
        LD E,A
        LD D,0
        LD HL,EDGES
        ADD HL,DE
        LD A,(HL)
KEEP:   LD (IX+0),A
        INC IX
        DJNZ FILL
        RET
EDGES:  DEFB 0,1,7FH,80H,0FFH,0FH,10H,99H

; The word at HL becomes a place in MEMORY, by its low two bits.
POINT:  LD A,(HL)
        AND 3
        ADD A,MIDDLE-4C00H
        LD (HL),A
        INC HL
        LD (HL),4CH
        RET

; B bytes from IX on go into the CRC at HL.
SUM:    LD A,B
        LD (COUNT),A
        PUSH HL
        LD E,(HL)
        INC HL
        LD D,(HL)
        INC HL
        LD C,(HL)
        INC HL
        LD B,(HL)
SUMMED: LD A,(IX+0)
        INC IX
        XOR E
        LD L,A
        LD H,PAGES/256
        LD A,(HL)
        XOR D
        LD E,A
        INC H
        LD A,(HL)
        XOR C
        LD D,A
        INC H
        LD A,(HL)
        XOR B
        LD C,A
        INC H
        LD B,(HL)
        LD A,(COUNT)
        DEC A
        LD (COUNT),A
        JR NZ,SUMMED
        POP HL
        LD (HL),E
        INC HL
        LD (HL),D
        INC HL
        LD (HL),C
        INC HL
        LD (HL),B
        RET

; The CRC at HL becomes that of nothing.
CLEAR:  LD B,4
ONES:   LD (HL),0FFH
        INC HL
        DJNZ ONES
        RET

; B signs from DE on are shown, and WHERE goes on.
SIGNS:  LD HL,(WHERE)
SIGN:   LD A,(DE)
        LD (HL),A
        INC DE
        INC HL
        DJNZ SIGN
        INC HL
        LD (WHERE),HL
        RET

; The CRC at DE is shown in eight digits, turned over as CRC-32 is.
SHOW:   INC DE
        INC DE
        INC DE
        LD HL,(WHERE)
        LD B,4
DIGITS: LD A,(DE)
        CPL
        LD C,A
        RRCA
        RRCA
        RRCA
        RRCA
        CALL DIGIT
        LD A,C
        CALL DIGIT
        DEC DE
        DJNZ DIGITS
        INC HL
        LD (WHERE),HL
        RET
DIGIT:  AND 0FH
        CP 10
        JR C,NUMBER
        ADD A,7
NUMBER: ADD A,30H
        LD (HL),A
        INC HL
        RET

START:  LD SP,TOP
        LD HL,COLOURS
        LD DE,COLOURS+1
        LD BC,3FFH
        LD (HL),2
        LDIR
        LD HL,1
        LD (SEED),HL
        LD HL,CELL
        LD (WHERE),HL
        LD HL,ENTRIES
        LD (ENTRY),HL
        LD HL,GROUPS
        LD (GROUP),HL
        LD HL,NAMES
        LD (NAME),HL
        LD HL,THIRD
        CALL CLEAR
        LD HL,JUMPS             ; what is around the instruction
        LD DE,TEST-3
        LD BC,3
        LDIR

; A group: its entries, its CRCs.
NEXT:   LD HL,(GROUP)
        LD E,(HL)
        INC HL
        LD D,(HL)
        INC HL
        LD (GROUP),HL
        LD (LEFT),DE
        LD A,D
        OR E
        JR Z,LAST
        LD HL,FIRST
        CALL CLEAR
        LD HL,SECOND
        CALL CLEAR
ANOTHER: CALL TRY
        LD HL,(LEFT)
        DEC HL
        LD (LEFT),HL
        LD A,H
        OR L
        JR NZ,ANOTHER
        CALL TITLE
        LD DE,FIRST
        CALL SHOW
        LD DE,SECOND
        CALL SHOW
        CALL FEED
        JR NEXT
LAST:   CALL TITLE
        LD DE,THIRD
        CALL SHOW
        CALL FEED
        CALL TITLE              ; (its name is the last one: DONE)
STAY:   LD (50C0H),A
        JR STAY

TITLE:  LD DE,(NAME)
        LD B,10
        CALL SIGNS
        LD (NAME),DE
        RET
FEED:   LD HL,(WHERE)           ; 11, 9 and 9 cells are filled, or 11 and 9
        LD A,L
        AND 0E0H
        ADD A,22H
        LD L,A
        JR NC,FED
        INC H
FED:    LD (WHERE),HL
        RET

; An entry: the instruction is laid, and tried on some states.
TRY:    LD HL,(ENTRY)
        LD DE,FLAGS
        LD BC,8
        LDIR
        LD (ENTRY),HL
        LD HL,FLAGS+4
        LD DE,TEST
        LD A,(LENGTH)
        LD C,A
        LD B,0
        LDIR
        LD HL,JUMPS+3
        LD BC,6
        LDIR
        LD A,ROUNDS
ROUNDED: LD (ROUND),A
        CALL ONE
        LD A,(ROUND)
        DEC A
        JR NZ,ROUNDED
        RET
JUMPS:  JP TOOK
        JP FELL
        JP TOOK

; One state: made, run, summed.
ONE:    LD (50C0H),A
        LD IX,BEFORE
        LD B,25
        CALL FILL
        LD IX,MEMORY
        LD B,16
        CALL FILL
        CALL FORCE
LAUNCH: LD A,(BIFF)
        DI
        RRA
        JR NC,OFF
        EI
OFF:    LD A,(BI)
        LD I,A
        LD A,(BR)
        LD R,A
        LD SP,BEFORE
        POP AF
        POP BC
        POP DE
        POP HL
        EX AF,AF'
        EXX
        POP AF
        POP BC
        POP DE
        POP HL
        POP IX
        POP IY
        LD SP,(BSP)
        JP TEST

FELL:   LD (ASP),SP
        LD SP,ALAST
        PUSH AF
        LD A,0
        JR BOTH
TOOK:   LD (ASP),SP
        LD SP,ALAST
        PUSH AF
        LD A,1
BOTH:   LD (ATOOK),A
        LD A,R
        LD (AR),A
        LD A,I
        LD (AI),A
        LD A,0
        JP PO,CLOSED
        INC A
CLOSED: LD (AIFF),A
        DI
        PUSH BC
        PUSH DE
        PUSH HL
        EX AF,AF'
        EXX
        PUSH AF
        PUSH BC
        PUSH DE
        PUSH HL
        PUSH IX
        PUSH IY
ENDED:  LD SP,TOP-4             ; where TRY's call of ONE left it
        LD A,(FLAGS+2)
        LD C,A
        LD HL,ALAST-2
        LD A,(HL)
        LD B,A
        AND C
        LD (HL),A               ; the flags that UM0080 defines
        LD A,C
        CPL
        AND B
        LD (BITS),A             ; and the others
        LD IX,ONEOF
        LD B,41
        LD HL,FIRST
        CALL SUM
        LD IX,BITS
        LD B,1
        LD HL,SECOND
        CALL SUM
        LD IX,AR
        LD B,1
        LD HL,THIRD
        JP SUM

; What the entry wants of a state: pairs in MEMORY, counts that are small, places to go to.
FORCE:  LD A,(FLAGS)
        LD C,A
        LD HL,BPAIRS+2
        BIT 0,C
        CALL NZ,POINT
        LD HL,BPAIRS+4
        BIT 1,C
        CALL NZ,POINT
        LD HL,BPAIRS+6
        BIT 2,C
        CALL NZ,POINT
        LD HL,BPAIRS+8
        BIT 3,C
        CALL NZ,POINT
        LD HL,BPAIRS+10
        BIT 4,C
        CALL NZ,POINT
        BIT 5,C
        JR Z,NOSP
        LD HL,STACK
        LD (BSP),HL
NOSP:   BIT 6,C
        JR Z,NOBC
        LD A,(BPAIRS+2)
        AND 3
        INC A
        LD L,A
        LD H,0
        LD (BPAIRS+2),HL
NOBC:   BIT 7,C
        JR Z,NOB
        LD A,(BPAIRS+3)
        AND 3
        INC A
        LD (BPAIRS+3),A
NOB:    LD A,(FLAGS+1)
        LD C,A
        LD HL,TOOK
        BIT 0,C
        JR Z,NOHL
        LD (BPAIRS+6),HL
NOHL:   BIT 1,C
        JR Z,NOIX
        LD (BPAIRS+8),HL
NOIX:   BIT 2,C
        JR Z,NOIY
        LD (BPAIRS+10),HL
NOIY:   BIT 3,C
        RET Z
        LD (STACK),HL
        RET
