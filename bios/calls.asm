; A boot sector that makes the calls of INT 13h which its test rig lays out, for ever. A write of port 5E0 asks for the
; next one.
        bits 16
        org 0x7C00
block   equ 0x0600                      ; AX, BX, CX, DX, ES of the call; AX and flags of its answer; ticks to wait instead of a call
        cli
        xor ax, ax
        mov ss, ax
        mov sp, 0x7C00
        mov ds, ax
        cld
next:   sti
        mov dx, 0x5E0
        out dx, al
        mov cx, [block + 14]
        jcxz .call
.wait:  hlt
        loop .wait
        jmp next
.call:  mov es, [block + 8]
        mov ax, [block]
        mov bx, [block + 2]
        mov cx, [block + 4]
        mov dx, [block + 6]
        int 0x13
        mov bx, 0
        mov ds, bx
        mov [block + 10], ax
        pushf
        pop word [block + 12]
        jmp next
        times 510 - ($ - $$) db 0
        dw 0xAA55
