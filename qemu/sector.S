# A boot sector that writes and reads sectors of cylinder 0, head 0, by INT 13h. For each byte R that comes by COM2 it
# writes sector R, filled with that byte. If bit 7 of the byte is set, it reads the sector R without that bit. It
# answers a line of four hexadecimal digits: the status, and the first byte of the sector. It tries again if
# the status is another than 3 (write protected), up to three times: a disk that was changed is told once.
        .code16
        .globl _start
_start: xorw %ax, %ax
        movw %ax, %ds
        movw %ax, %es
        movw %ax, %ss
        movw $0x7C00, %sp
        cld
        sti
        movb $'r', %al
        call say
        call end
next:   movw $0x2FD, %dx
        inb %dx, %al
        testb $1, %al
        jz next
        movw $0x2F8, %dx
        inb %dx, %al
        movb %al, %bl
        movb $3, %bh                    # tries
        movb %al, %ah
        movw $0x8000, %di
        movw $256, %cx
        rep stosw
try:    pushw %bx
        movw $0x0301, %ax
        testb $0x80, %bl
        jz do
        movw $0x0201, %ax
do:     movb %bl, %cl
        andb $0x7F, %cl
        xorb %ch, %ch
        xorw %dx, %dx
        movw $0x8000, %bx
        int $0x13
        popw %bx
        movb %ah, %cl
        testb %cl, %cl
        jz done
        cmpb $3, %cl
        je done
        decb %bh
        jnz try
done:   call pair
        movb 0x8000, %cl
        call pair
        call end
        jmp next
pair:   movb %cl, %al
        shrb $4, %al
        call digit
        movb %cl, %al
digit:  andb $15, %al
        addb $'0', %al
        cmpb $'9', %al
        jbe say
        addb $7, %al
say:    pushw %ax
        movw $0x2FD, %dx
1:      inb %dx, %al
        testb $0x20, %al
        jz 1b
        popw %ax
        movw $0x2F8, %dx
        outb %al, %dx
        ret
end:    movb $10, %al
        jmp say
        .org 510
        .byte 0x55, 0xAA
