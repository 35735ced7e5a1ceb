# A boot sector that polls MSR, without interrupts. GATE is 8 or 0: it sets or clears bit 3 of DOR. The program sends READ
# ID, and waits until MSR is D0. If PIO is defined, it sends SPECIFY with ND and READ DATA of sector 1 instead, and takes
# the bytes when MSR asks for them. Then it sends a line by COM2, as four-digit hexadecimal numbers: the ticks of 55 ms
# that passed, the number of bytes, ST0 and ST1, and the sum of the bytes.
        .code16
        .globl _start
_start: cli
        xorw %ax, %ax
        movw %ax, %ds
        movw %ax, %ss
        movw $0x7C00, %sp
        cld
        inb $0x21, %al
        orb $0x40, %al                  # IRQ 6 is masked
        outb %al, $0x21
        movb $0, 0x440                  # the BIOS doesn't stop the motor
        sti
        movw $0x3F2, %dx
        movb $(0x14 + GATE), %al        # drive 0, its motor, no reset
        outb %al, %dx
        movw $20, %cx                   # it turns for a second
turn:   hlt
        loop turn
        movw $words, %si
        movw $(end - words), %cx
next:   lodsb
        movb %al, %bl
        call send
        loop next
        xorw %cx, %cx                   # so many bytes
        movl 0x46C, %esi
poll:   movw $0x3F4, %dx
        inb %dx, %al
        andb $0xF0, %al
        cmpb $0xF0, %al                 # a byte of the sector
        je byte
        cmpb $0xD0, %al                 # results
        jne poll
        movl 0x46C, %edi
        subl %esi, %edi
        call say
        movw %cx, %di
        call say
        movw $0x3F5, %dx
        inb %dx, %al
        movb %al, %bh
        inb %dx, %al
        movb %al, %bl
        movw %bx, %di
        call say
        movw total, %di
        call say
        movw $0x2F8, %dx
        movb $10, %al
        outb %al, %dx
stop:   hlt
        jmp stop
byte:   incw %dx
        inb %dx, %al
        incw %cx
        xorb %ah, %ah
        addw %ax, total
        jmp poll
say:    pushw %cx
        movw $0x2F8, %dx
        movw $4, %cx
digit:  rolw $4, %di
        movw %di, %ax
        andb $15, %al
        addb $'0', %al
        cmpb $'9', %al
        jbe out
        addb $7, %al
out:    outb %al, %dx
        loop digit
        popw %cx
        ret
send:   movw $0x3F4, %dx
1:      inb %dx, %al
        andb $0xC0, %al
        cmpb $0x80, %al
        jne 1b
        incw %dx
        movb %bl, %al
        outb %al, %dx
        ret
#ifdef PIO
words:  .byte 0x03, 0xDF, 0x03, 0x46, 0, 0, 0, 1, 2, 1, 0x1B, 0xFF
#else
words:  .byte 0x4A, 0
#endif
end:
total:  .word 0
        .org 510
        .byte 0x55, 0xAA
