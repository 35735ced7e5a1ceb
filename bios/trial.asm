; A boot sector that tries a diskette drive through INT 13h and prints a verdict.
; The list at `tracks` has cylinder, head and the sum of the track's 16-bit words; `run` fills it in.
; NOFORMAT leaves out the format of a track.
%ifndef SECTORS
%define SECTORS 18
%endif
        bits 16
        org 0x7C00
start:  cli
        xor ax, ax
        mov ss, ax
        mov sp, 0x7C00
        mov ds, ax
        sti
        cld
        mov [drive], dl
        mov ax, 0x1000
        mov es, ax                      ; the buffer, 1000:0000
        mov si, hello
        call print

        mov byte [stage], 'R'           ; reset
        xor ah, ah
        call disk

        mov byte [stage], 'T'           ; whole tracks and their sums
        mov si, tracks
.track: cmp byte [si], 0xFF
        je .write
        call track
        mov al, 't'
        call put
        jmp .track

.write: mov byte [stage], 'W'           ; one sector of cylinder 2, head 0
        mov al, 0x3C
        mov cx, 512
        call fill
        mov ax, 0x0301
        mov cx, 0x0205
        mov dh, 0
        call disk0
        mov al, 0
        mov cx, 512
        call fill
        mov ax, 0x0201
        mov cx, 0x0205
        call disk0
        mov al, 0x3C
        mov cx, 512
        call same
        mov al, 'w'
        call put

%ifndef NOFORMAT
        mov byte [stage], 'F'           ; format cylinder 3, head 1
        xor di, di
        mov cl, 1
        mov dh, 1
.key:   mov ax, 0x0103
        stosw
        mov al, cl
        mov ah, 2
        stosw
        inc cl
        cmp cl, SECTORS + 1
        jne .key
        mov ax, 0x0500 + SECTORS
        mov ch, 3
        call from1
        mov ax, 0x0200 + SECTORS
        mov ch, 3
        call from1
        mov al, 0xF6
        mov cx, SECTORS * 512
        call same
        mov al, 'f'
        call put
%endif

        mov byte [stage], 'M'           ; write it with 18 sectors at once, verify and read
        mov al, 0x99
        mov cx, SECTORS * 512
        call fill
        mov dh, 1
        mov ax, 0x0300 + SECTORS
        mov ch, 3
        call from1
        mov ax, 0x0400 + SECTORS
        mov ch, 3
        call from1
        mov al, 0
        mov cx, SECTORS * 512
        call fill
        mov ax, 0x0200 + SECTORS
        mov ch, 3
        call from1
        mov al, 0x99
        mov cx, SECTORS * 512
        call same
        mov si, beside
        call track
        mov al, 'm'
        call put

        mov byte [stage], 'N'           ; no such sector: an error is wanted
        mov dl, [drive]
        mov ax, 0x0201
        mov cx, 0x0200 + SECTORS + 1
        mov dh, 0
        xor bx, bx
        int 0x13
        jnc fail
        xchg al, ah
        call hex
        mov si, good
        call print
stop:   cli
        hlt
        jmp stop

track:  lodsw
        mov ch, al
        mov dh, ah
        mov ax, 0x0200 + SECTORS
        call from1
        call sum
        cmp ax, [si]
        jne fail
        lodsw
        ret

from1:  mov cl, 1
disk0:  xor bx, bx
disk:   mov dl, [drive]
        int 0x13
        jc fail
        ret

fail:   push ax
        mov si, bad
        call print
        pop ax
        xchg al, ah
        call hex
        jmp stop

sum:    xor bx, bx
        xor ax, ax
        mov cx, SECTORS * 256
.word:  add ax, [es:bx]
        inc bx
        inc bx
        loop .word
        ret

fill:   xor di, di
        rep stosb
        ret

same:   xor di, di
        repe scasb
        jne fail
        ret

hex:    push ax
        shr al, 4
        call .digit
        pop ax
        and al, 15
.digit: add al, '0'
        cmp al, '9'
        jbe put
        add al, 7
put:    mov ah, 0x0E
        mov bx, 7
        push si
        int 0x10
        pop si
        ret

print:  lodsb
        test al, al
        jz .end
        call put
        jmp print
.end:   ret

hello:  db 'trial of drive A: ', 0
bad:    db ' FAILED in '
stage:  db '?', ' ', 0
good:   db ' all good', 13, 10, 0
drive:  db 0
        times 0x1E0 - ($ - $$) db 0
tracks: db 0, 1, 0, 0,  1, 0, 0, 0,  40, 1, 0, 0,  79, 1, 0, 0
beside: db 3, 0, 0, 0,  0xFF
        times 510 - ($ - $$) db 0
        dw 0xAA55
