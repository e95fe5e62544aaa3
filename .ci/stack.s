# What .ci/stack is tried on. Each function's name says what it must find: the sum in bytes, or the reason for which it is refused.
        .intel_syntax noprefix

# Its return address alone.
sum_8:
        ret

# A frame, and a function called from it.
sum_64:
        push rbx
        sub rsp, 0x20
        call sum_16
        add rsp, 0x20
        pop rbx
        ret

sum_16:
        push rax
        pop rcx
        ret

# Two ways with frames of their own; the deeper one counts.
sum_272:
        test edi, edi
        je 1f
        sub rsp, 0x100
        mov qword ptr [rsp + 8], rsp
        add rcx, rsp
        call memset
        add rsp, 0x100
        ret
1:      push rax
        call memmove
        pop rax
        ret

# The same size, given as a number below zero.
sum_136:
        add rsp, -0x80
        sub rsp, -0x80
        ret

# Bytes below the stack pointer.
sum_144:
        push rax
        mov qword ptr [rsp - 8], rdi
        pop rax
        ret

# A last call takes its caller's place.
sum_16_again:
        jmp sum_16

# A function in a section of its own, further on.
sum_24_elsewhere:
        push rax
        call sum_8_elsewhere
        pop rax
        ret

# A switch: its cases are reached from a table only.
sum_24:
        push rbx
        jmp rax
        push rcx
        pop rcx
        pop rbx
        ret

refused_recursion_of:
        push rax
        call refused_recursion_of
        pop rax
        ret

refused_a_call_to_rax:
        push rbx
        call rax
        pop rbx
        ret

refused_a_jump_to_rax:
        jmp rax

refused_sub_rsp:
        sub rsp, rdi
        add rsp, rdi
        ret

refused_and_rsp:
        and rsp, -64
        ret

refused_mov_rsp:
        mov rsp, rbp
        ret

refused_leave:
        leave
        ret

refused_xchg:
        xchg rax, rsp
        ret

refused_malloc:
        push rax
        call malloc
        pop rax
        ret

refused_loop:
        loop refused_loop
        ret

# Its frame grows with every turn.
refused_two_depths:
        push rax
        dec edi
        jne refused_two_depths
        ud2

refused_a_return_at_depth_8:
        push rax
        ret

refused_more_is_popped_than_was_pushed:
        pop rax
        jmp rax

refused_code_that:
        ret
        push rax
        pop rax
        ret

refused_its_end_is_run_over:
        push rax

        .section .text.elsewhere, "ax"
sum_8_elsewhere:
        ret
