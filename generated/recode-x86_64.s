	.section	.note.gnu.property,"a",@note
	.p2align	3, 0x0
	.long	4
	.long	16
	.long	5
	.asciz	"GNU"
	.long	3221225474
	.long	4
	.long	3
	.p2align	3, 0x0
	.text
	.file	"rattle"
	.section	.rodata.cst16,"aM",@progbits,16
	.p2align	4, 0x0                          # -- Begin function recode::main+start
.LCPI0_0:
	.byte	0                               # 0x0
	.byte	1                               # 0x1
	.byte	2                               # 0x2
	.byte	3                               # 0x3
	.byte	4                               # 0x4
	.byte	5                               # 0x5
	.byte	6                               # 0x6
	.byte	7                               # 0x7
	.byte	8                               # 0x8
	.byte	9                               # 0x9
	.byte	10                              # 0xa
	.byte	11                              # 0xb
	.byte	12                              # 0xc
	.byte	13                              # 0xd
	.byte	14                              # 0xe
	.byte	15                              # 0xf
.LCPI0_1:
	.byte	16                              # 0x10
	.byte	17                              # 0x11
	.byte	18                              # 0x12
	.byte	19                              # 0x13
	.byte	20                              # 0x14
	.byte	21                              # 0x15
	.byte	22                              # 0x16
	.byte	23                              # 0x17
	.byte	24                              # 0x18
	.byte	25                              # 0x19
	.byte	26                              # 0x1a
	.byte	27                              # 0x1b
	.byte	28                              # 0x1c
	.byte	29                              # 0x1d
	.byte	30                              # 0x1e
	.byte	31                              # 0x1f
	.section	".text.recode::main+start","ax",@progbits
	.p2align	4
	.type	"recode::main+start",@function
"recode::main+start":                   # @"recode::main+start"
	.cfi_startproc
# %bb.0:                                # %start
	pushq	%rbp
	.cfi_def_cfa_offset 16
	pushq	%r15
	.cfi_def_cfa_offset 24
	pushq	%r14
	.cfi_def_cfa_offset 32
	pushq	%r13
	.cfi_def_cfa_offset 40
	pushq	%r12
	.cfi_def_cfa_offset 48
	pushq	%rbx
	.cfi_def_cfa_offset 56
	movq	%rsp, %r11
	subq	$64512, %r11                    # imm = 0xFC00
	.cfi_def_cfa_register %r11
	.cfi_adjust_cfa_offset 64512
.LBB0_1:                                # %start
                                        # =>This Inner Loop Header: Depth=1
	subq	$3072, %rsp                     # imm = 0xC00
	movq	$0, (%rsp)
	cmpq	%r11, %rsp
	jne	.LBB0_1
# %bb.2:                                # %start
	subq	$1272, %rsp                     # imm = 0x4F8
	.cfi_def_cfa_register %rsp
	.cfi_def_cfa_offset 65840
	.cfi_offset %rbx, -56
	.cfi_offset %r12, -48
	.cfi_offset %r13, -40
	.cfi_offset %r14, -32
	.cfi_offset %r15, -24
	.cfi_offset %rbp, -16
	movq	%rsp, %rax
	movq	%rax, 16(%rsp)                  # 8-byte Spill
	movq	%rax, 80(%rsp)
	pxor	%xmm0, %xmm0
	movdqu	%xmm0, 88(%rsp)
	xorl	%r14d, %r14d
	movq	$0, 8(%rsp)                     # 8-byte Folded Spill
.LBB0_3:                                # %join.5.i.i.i.i
                                        # =>This Loop Header: Depth=1
                                        #     Child Loop BB0_5 Depth 2
                                        #     Child Loop BB0_21 Depth 2
                                        #       Child Loop BB0_55 Depth 3
                                        #       Child Loop BB0_60 Depth 3
	movl	$256, %r12d                     # imm = 0x100
	movl	$64, %ebx
	jmp	.LBB0_5
	.p2align	4
.LBB0_4:                                # %"std_alloc::vec::Vec::drop::<#5cd7833235c0cf51>.exit45.i.i.i.i.i.i.i"
                                        #   in Loop: Header=BB0_5 Depth=2
	movq	%r12, %rax
	addq	%r12, %rax
	movq	$-1, %r12
	cmovaeq	%rax, %r12
	decl	%ebx
	je	.LBB0_123
.LBB0_5:                                # %join.5.i.i.i.i.i.i
                                        #   Parent Loop BB0_3 Depth=1
                                        # =>  This Inner Loop Header: Depth=2
	movq	%rsp, %r15
	movq	%r15, 240(%rsp)
	pxor	%xmm0, %xmm0
	leaq	248(%rsp), %rax
	movdqu	%xmm0, (%rax)
	testq	%r12, %r12
	jne	.LBB0_12
# %bb.6:                                #   in Loop: Header=BB0_5 Depth=2
	xorl	%r13d, %r13d
.LBB0_7:                                # %join.3.i.i.i.i.i.i.i
                                        #   in Loop: Header=BB0_5 Depth=2
	movq	8(%rsp), %rdi                   # 8-byte Reload
	movq	%r15, %rsi
	movq	%r13, %rdx
	callq	rattle_arg@PLT
	movq	%rax, %rbp
	movl	$22, %eax
	cmpq	$-1, %rbp
	je	.LBB0_9
# %bb.8:                                # %join.3.i.i.i.i.i.i.i
                                        #   in Loop: Header=BB0_5 Depth=2
	movl	$36, %eax
.LBB0_9:                                # %join.3.i.i.i.i.i.i.i
                                        #   in Loop: Header=BB0_5 Depth=2
	xorl	%edi, %edi
	testq	%rbp, %rbp
	cmovsl	%eax, %edi
	callq	rattle_set_errno@PLT
	callq	rattle_errno@PLT
	cmpl	$36, %eax
	jne	.LBB0_15
# %bb.10:                               # %arm.8.i.i.i.i.i.i.i
                                        #   in Loop: Header=BB0_5 Depth=2
	cmpq	$0, 256(%rsp)
	je	.LBB0_4
# %bb.11:                               # %then.1.i.i.i43.i.i.i.i.i.i.i
                                        #   in Loop: Header=BB0_5 Depth=2
	movq	%r15, %rdi
	callq	rattle_dealloc@PLT
	jmp	.LBB0_4
.LBB0_12:                               # %"std_alloc::vec::Vec::grow::<#5fdc5e19576447a7>.exit.i.i.i.i.i.i.i.i.i"
                                        #   in Loop: Header=BB0_5 Depth=2
	leaq	240(%rsp), %rdi
	movq	%r12, %rsi
	callq	"std_alloc::vec::Vec::grow_amortized::<#5fdc5e19576447a7>"
	testb	%al, %al
	je	.LBB0_121
# %bb.13:                               # %join.3.i2.i.i.i.i.i.i.i.i
                                        #   in Loop: Header=BB0_5 Depth=2
	movq	240(%rsp), %r15
	movq	248(%rsp), %rdi
	leaq	(%rdi,%r12), %r13
	cmpq	%r13, %rdi
	jae	.LBB0_7
# %bb.14:                               # %join.5.preheader.i.i.i.i.i.i.i.i.i.i
                                        #   in Loop: Header=BB0_5 Depth=2
	addq	%r15, %rdi
	xorl	%esi, %esi
	movq	%r12, %rdx
	callq	memset@PLT
	jmp	.LBB0_7
	.p2align	4
.LBB0_15:                               # %join.3.i.i.i.i.i.i.i
                                        #   in Loop: Header=BB0_3 Depth=1
	testl	%eax, %eax
	jne	.LBB0_75
# %bb.16:                               # %arm.4.i.i.i.i.i.i.i
                                        #   in Loop: Header=BB0_3 Depth=1
	cmpq	%r13, %rbp
	cmovbq	%rbp, %r13
	xorl	%r12d, %r12d
	testq	%rbp, %rbp
	cmovgq	%r13, %r12
	movq	256(%rsp), %r13
	testq	%r12, %r12
	je	.LBB0_71
# %bb.17:                               # %join.5.lr.ph.i.i.i.i.i.i.i.i
                                        #   in Loop: Header=BB0_3 Depth=1
	movabsq	$-9187201950435737472, %rbp     # imm = 0x8080808080808080
	leaq	-8(%r12), %rbx
	xorl	%ecx, %ecx
	jmp	.LBB0_21
.LBB0_42:                               #   in Loop: Header=BB0_21 Depth=2
	movl	$1, %edx
.LBB0_19:                               # %join.11.i.i.i.i.i.i.i.i
                                        #   in Loop: Header=BB0_21 Depth=2
	addq	%rcx, %rdx
.LBB0_20:                               # %loop.2.backedge.i.i.i.i.i.i.i.i
                                        #   in Loop: Header=BB0_21 Depth=2
	movq	%rdx, %rcx
	cmpq	%r12, %rdx
	jae	.LBB0_71
.LBB0_21:                               # %join.5.i.i.i.i.i.i.i.i
                                        #   Parent Loop BB0_3 Depth=1
                                        # =>  This Loop Header: Depth=2
                                        #       Child Loop BB0_55 Depth 3
                                        #       Child Loop BB0_60 Depth 3
	movzbl	(%r15,%rcx), %eax
	movq	%r12, %rsi
	subq	%rcx, %rsi
	cmpq	$2, %rsi
	jb	.LBB0_18
# %bb.22:                               # %join.5.i.i.i.i.i.i.i.i
                                        #   in Loop: Header=BB0_21 Depth=2
	testb	%al, %al
	js	.LBB0_18
# %bb.23:                               # %"core::str::utf8::begins_ascii_run.exit.i.i.i.i.i.i.i.i"
                                        #   in Loop: Header=BB0_21 Depth=2
	cmpb	$0, 1(%r15,%rcx)
	js	.LBB0_42
# %bb.24:                               # %then.6.i.i.i.i.i.i.i.i
                                        #   in Loop: Header=BB0_21 Depth=2
	movq	%r15, 240(%rsp)
	movq	%r12, 248(%rsp)
	cmpq	$7, %rsi
	ja	.LBB0_43
# %bb.25:                               # %join.5.i.i.i.i.i.i.i.i.i.i
                                        #   in Loop: Header=BB0_21 Depth=2
	cmpb	$0, (%r15,%rcx)
	js	.LBB0_53
# %bb.26:                               # %join.8.i.i.i.i.i.i.i.i.i.i
                                        #   in Loop: Header=BB0_21 Depth=2
	leaq	1(%rcx), %rdx
	cmpq	%r12, %rdx
	je	.LBB0_71
# %bb.27:                               # %join.5.i.i.i.i.i.i.i.i.i.i.1
                                        #   in Loop: Header=BB0_21 Depth=2
	cmpb	$0, (%r15,%rdx)
	js	.LBB0_20
# %bb.28:                               # %join.8.i.i.i.i.i.i.i.i.i.i.1
                                        #   in Loop: Header=BB0_21 Depth=2
	leaq	2(%rcx), %rdx
	cmpq	%r12, %rdx
	je	.LBB0_71
# %bb.29:                               # %join.5.i.i.i.i.i.i.i.i.i.i.2
                                        #   in Loop: Header=BB0_21 Depth=2
	cmpb	$0, (%r15,%rdx)
	js	.LBB0_20
# %bb.30:                               # %join.8.i.i.i.i.i.i.i.i.i.i.2
                                        #   in Loop: Header=BB0_21 Depth=2
	leaq	3(%rcx), %rdx
	cmpq	%r12, %rdx
	je	.LBB0_71
# %bb.31:                               # %join.5.i.i.i.i.i.i.i.i.i.i.3
                                        #   in Loop: Header=BB0_21 Depth=2
	cmpb	$0, (%r15,%rdx)
	js	.LBB0_20
# %bb.32:                               # %join.8.i.i.i.i.i.i.i.i.i.i.3
                                        #   in Loop: Header=BB0_21 Depth=2
	leaq	4(%rcx), %rdx
	cmpq	%r12, %rdx
	je	.LBB0_71
# %bb.33:                               # %join.5.i.i.i.i.i.i.i.i.i.i.4
                                        #   in Loop: Header=BB0_21 Depth=2
	cmpb	$0, (%r15,%rdx)
	js	.LBB0_20
# %bb.34:                               # %join.8.i.i.i.i.i.i.i.i.i.i.4
                                        #   in Loop: Header=BB0_21 Depth=2
	leaq	5(%rcx), %rdx
	cmpq	%r12, %rdx
	je	.LBB0_71
# %bb.35:                               # %join.5.i.i.i.i.i.i.i.i.i.i.5
                                        #   in Loop: Header=BB0_21 Depth=2
	cmpb	$0, (%r15,%rdx)
	js	.LBB0_20
# %bb.36:                               # %join.8.i.i.i.i.i.i.i.i.i.i.5
                                        #   in Loop: Header=BB0_21 Depth=2
	addq	$6, %rcx
	cmpq	%r12, %rcx
	je	.LBB0_71
# %bb.37:                               # %join.5.i.i.i.i.i.i.i.i.i.i.6
                                        #   in Loop: Header=BB0_21 Depth=2
	cmpb	$0, (%r15,%rcx)
	movq	%rcx, %rdx
	js	.LBB0_20
	jmp	.LBB0_71
	.p2align	4
.LBB0_18:                               # %join.8.i.i.i.i.i.i.i.i
                                        #   in Loop: Header=BB0_21 Depth=2
	movl	$1, %edx
	testb	%al, %al
	jns	.LBB0_19
# %bb.38:                               # %else.2.i.i.i.i.i.i.i.i.i
                                        #   in Loop: Header=BB0_21 Depth=2
	cmpb	$-62, %al
	jb	.LBB0_108
# %bb.39:                               # %else.5.i.i.i.i.i.i.i.i.i
                                        #   in Loop: Header=BB0_21 Depth=2
	movzbl	%al, %eax
	cmpb	$-33, %al
	ja	.LBB0_46
# %bb.40:                               # %then.7.i.i.i.i.i.i.i.i.i
                                        #   in Loop: Header=BB0_21 Depth=2
	cmpq	$2, %rsi
	jb	.LBB0_108
# %bb.41:                               # %join.3.i.i.i.i.i.i.i.i.i.i
                                        #   in Loop: Header=BB0_21 Depth=2
	movl	$2, %edx
	cmpb	$-65, 1(%r15,%rcx)
	jle	.LBB0_19
	jmp	.LBB0_108
.LBB0_43:                               # %join.3.i.i.i.i.i.i.i.i.i
                                        #   in Loop: Header=BB0_21 Depth=2
	movq	(%r15,%rcx), %rax
	andq	%rbp, %rax
	je	.LBB0_54
# %bb.44:                               # %"core::slice::words::first_in_word::<#52f9edcae2f82f51>.exit.i.i.i.i.i.i.i.i.i"
                                        #   in Loop: Header=BB0_21 Depth=2
	rep		bsfq	%rax, %rax
	shrl	$3, %eax
	addq	%rcx, %rax
	addq	$8, %rcx
	movq	%rax, %rdx
	cmpq	%rcx, %rax
	jb	.LBB0_20
# %bb.45:                               # %join.6.i.i.i.i.i.i.i.i.i
                                        #   in Loop: Header=BB0_21 Depth=2
	movq	%r12, %rcx
	subq	%rax, %rcx
	cmpq	$32, %rcx
	jae	.LBB0_55
	jmp	.LBB0_57
.LBB0_46:                               # %else.8.i.i.i.i.i.i.i.i.i
                                        #   in Loop: Header=BB0_21 Depth=2
	cmpb	$-17, %al
	ja	.LBB0_65
# %bb.47:                               # %then.10.i.i.i.i.i.i.i.i.i
                                        #   in Loop: Header=BB0_21 Depth=2
	cmpq	$3, %rsi
	jb	.LBB0_108
# %bb.48:                               # %join.3.i6.i.i.i.i.i.i.i.i.i
                                        #   in Loop: Header=BB0_21 Depth=2
	movzbl	1(%r15,%rcx), %edx
	cmpb	$-65, %dl
	jg	.LBB0_108
# %bb.49:                               # %join.3.i6.i.i.i.i.i.i.i.i.i
                                        #   in Loop: Header=BB0_21 Depth=2
	cmpb	$-65, 2(%r15,%rcx)
	jg	.LBB0_108
# %bb.50:                               # %join.15.i.i.i.i.i.i.i.i.i.i
                                        #   in Loop: Header=BB0_21 Depth=2
	shll	$6, %eax
	leal	(%rax,%rdx), %esi
	addl	$-14464, %esi                   # imm = 0xC780
	cmpl	$32, %esi
	jb	.LBB0_108
# %bb.51:                               # %else.17.i.i.i.i.i.i.i.i.i.i
                                        #   in Loop: Header=BB0_21 Depth=2
	xorl	%eax, %eax
	cmpl	$896, %esi                      # imm = 0x380
	setae	%dil
	movl	$3, %edx
	cmpl	$864, %esi                      # imm = 0x360
	jb	.LBB0_19
# %bb.52:                               #   in Loop: Header=BB0_21 Depth=2
	movb	%dil, %al
	leaq	(%rax,%rax,2), %rdx
	testq	%rdx, %rdx
	jne	.LBB0_19
	jmp	.LBB0_108
.LBB0_53:                               #   in Loop: Header=BB0_21 Depth=2
	movq	%rcx, %rdx
	jmp	.LBB0_20
.LBB0_54:                               # %"core::slice::words::first_in_word::<#52f9edcae2f82f51>.exit.thread.i.i.i.i.i.i.i.i.i"
                                        #   in Loop: Header=BB0_21 Depth=2
	addq	$8, %rcx
	movq	%rcx, %rax
	movq	%r12, %rcx
	subq	%rax, %rcx
	cmpq	$32, %rcx
	jb	.LBB0_57
	.p2align	4
.LBB0_55:                               # %then.3.i.i.i.i.i.i.i.i.i.i
                                        #   Parent Loop BB0_3 Depth=1
                                        #     Parent Loop BB0_21 Depth=2
                                        # =>    This Inner Loop Header: Depth=3
	movdqu	(%r15,%rax), %xmm0
	movdqu	16(%r15,%rax), %xmm1
	por	%xmm0, %xmm1
	pshufd	$238, %xmm1, %xmm0              # xmm0 = xmm1[2,3,2,3]
	por	%xmm1, %xmm0
	movq	%xmm0, %rcx
	testq	%rbp, %rcx
	jne	.LBB0_57
# %bb.56:                               # %join.5.i22.i.i.i.i.i.i.i.i.i
                                        #   in Loop: Header=BB0_55 Depth=3
	addq	$32, %rax
	leaq	240(%rsp), %rdi
	movq	%rax, %rsi
	movq	%r12, %rdx
	callq	"core::slice::words::skip_far::<#52f9edcae2f82f51>"
	movq	%r12, %rcx
	subq	%rax, %rcx
	cmpq	$31, %rcx
	ja	.LBB0_55
.LBB0_57:                               # %loop.8.i.i.i.i.i.i.i.i.i.preheader
                                        #   in Loop: Header=BB0_21 Depth=2
	movq	%r12, %rcx
	subq	%rax, %rcx
	jmp	.LBB0_60
	.p2align	4
.LBB0_58:                               # %join.3.i28.i.i.i.i.i.i.i.i.i
                                        #   in Loop: Header=BB0_60 Depth=3
	rep		bsfq	%rdx, %rdx
	shrl	$3, %edx
	addq	%rax, %rdx
	addq	$8, %rax
	addq	$-8, %rcx
	cmpq	%rax, %rdx
	jb	.LBB0_20
.LBB0_60:                               # %loop.8.i.i.i.i.i.i.i.i.i
                                        #   Parent Loop BB0_3 Depth=1
                                        #     Parent Loop BB0_21 Depth=2
                                        # =>    This Inner Loop Header: Depth=3
	cmpq	$9, %rcx
	jb	.LBB0_63
# %bb.61:                               # %join.11.i.i.i.i.i.i.i.i.i
                                        #   in Loop: Header=BB0_60 Depth=3
	movq	(%r15,%rax), %rdx
	andq	%rbp, %rdx
	jne	.LBB0_58
# %bb.62:                               # %then.1.i33.i.i.i.i.i.i.i.i.i
                                        #   in Loop: Header=BB0_60 Depth=3
	leaq	8(%rax), %rdx
	addq	$8, %rax
	addq	$-8, %rcx
	cmpq	%rax, %rdx
	jae	.LBB0_60
	jmp	.LBB0_20
.LBB0_63:                               # %after.7.i.i.i.i.i.i.i.i.i
                                        #   in Loop: Header=BB0_21 Depth=2
	movq	(%r15,%rbx), %rax
	andq	%rbp, %rax
	je	.LBB0_71
# %bb.64:                               # %join.3.i40.i.i.i.i.i.i.i.i.i
                                        #   in Loop: Header=BB0_21 Depth=2
	rep		bsfq	%rax, %rdx
	shrl	$3, %edx
	addq	%rbx, %rdx
	jmp	.LBB0_20
.LBB0_65:                               # %else.11.i.i.i.i.i.i.i.i.i
                                        #   in Loop: Header=BB0_21 Depth=2
	cmpq	$4, %rsi
	jb	.LBB0_108
# %bb.66:                               # %join.3.i11.i.i.i.i.i.i.i.i.i
                                        #   in Loop: Header=BB0_21 Depth=2
	movzbl	1(%r15,%rcx), %edx
	cmpb	$-65, %dl
	jg	.LBB0_108
# %bb.67:                               # %join.3.i11.i.i.i.i.i.i.i.i.i
                                        #   in Loop: Header=BB0_21 Depth=2
	cmpb	$-65, 2(%r15,%rcx)
	jg	.LBB0_108
# %bb.68:                               # %join.3.i11.i.i.i.i.i.i.i.i.i
                                        #   in Loop: Header=BB0_21 Depth=2
	cmpb	$-65, 3(%r15,%rcx)
	jg	.LBB0_108
# %bb.69:                               # %join.21.i.i.i.i.i.i.i.i.i.i
                                        #   in Loop: Header=BB0_21 Depth=2
	shll	$6, %eax
	leal	(%rax,%rdx), %esi
	addl	$-15488, %esi                   # imm = 0xC380
	xorl	%edx, %edx
	cmpl	$272, %esi                      # imm = 0x110
	setb	%al
	cmpl	$16, %esi
	jb	.LBB0_108
# %bb.70:                               #   in Loop: Header=BB0_21 Depth=2
	movb	%al, %dl
	shll	$2, %edx
	testq	%rdx, %rdx
	jne	.LBB0_19
	jmp	.LBB0_108
	.p2align	4
.LBB0_71:                               # %arm.6.i.i.i.i
                                        #   in Loop: Header=BB0_3 Depth=1
	cmpq	%r14, 96(%rsp)
	je	.LBB0_73
.LBB0_72:                               # %join.9.i.i.i.i
                                        #   in Loop: Header=BB0_3 Depth=1
	leaq	(%r14,%r14,2), %rax
	movq	16(%rsp), %rcx                  # 8-byte Reload
	movq	%r15, (%rcx,%rax,8)
	movq	%r12, 8(%rcx,%rax,8)
	movq	%r13, 16(%rcx,%rax,8)
	incq	%r14
	movq	%r14, 88(%rsp)
	movq	8(%rsp), %rcx                   # 8-byte Reload
	incq	%rcx
	movq	%rcx, 8(%rsp)                   # 8-byte Spill
	cmpq	$-1, %rcx
	jne	.LBB0_3
	jmp	.LBB0_77
.LBB0_73:                               # %"std_alloc::vec::Vec::grow::<#1b8c52373d8cd3cb>.exit.i.i.i.i.i"
                                        #   in Loop: Header=BB0_3 Depth=1
	leaq	80(%rsp), %rdi
	movl	$1, %esi
	callq	"std_alloc::vec::Vec::grow_amortized::<#1b8c52373d8cd3cb>"
	testb	%al, %al
	je	.LBB0_216
# %bb.74:                               # %"std_alloc::vec::Vec::grow::<#1b8c52373d8cd3cb>.exit.join.3_crit_edge.i.i.i.i.i"
                                        #   in Loop: Header=BB0_3 Depth=1
	movq	80(%rsp), %rax
	movq	%rax, 16(%rsp)                  # 8-byte Spill
	movq	88(%rsp), %r14
	jmp	.LBB0_72
.LBB0_75:                               # %arm.9.i.i.i.i.i.i.i
	cmpq	$0, 256(%rsp)
	je	.LBB0_77
# %bb.76:                               # %then.1.i.i.i49.i.i.i.i.i.i.i
	movq	%r15, %rdi
	callq	rattle_dealloc@PLT
.LBB0_77:                               # %arm.1.i.i.i
	movq	80(%rsp), %rdi
	movq	96(%rsp), %r9
	testq	%r14, %r14
	je	.LBB0_98
# %bb.78:                               # %join.3.i.i.i.i.i.preheader.i.i.i.i.i.i.i.preheader
	leaq	40(%rdi), %r10
	movq	%rsp, %r13
	xorl	%ecx, %ecx
	xorl	%r12d, %r12d
	xorl	%ebp, %ebp
	xorl	%ebx, %ebx
.LBB0_79:                               # %join.3.i.i.i.i.i.preheader.i.i.i.i.i.i.i
                                        # =>This Loop Header: Depth=1
                                        #     Child Loop BB0_80 Depth 2
	movq	%r12, %r8
	leaq	(%rbx,%rbx,2), %rax
	leaq	(%r10,%rax,8), %r12
	leaq	(,%rbp,2), %rax
	addq	%rbp, %rax
	leaq	(,%rax,8), %rax
	addq	%r13, %rax
	movq	%rbp, %rdx
	subq	%rcx, %rdx
	xorl	%r15d, %r15d
	.p2align	4
.LBB0_80:                               # %join.3.i.i.i.i.i.i.i.i.i.i.i.i
                                        #   Parent Loop BB0_79 Depth=1
                                        # =>  This Inner Loop Header: Depth=2
	movq	%rdx, %rsi
	addq	%r15, %rsi
	je	.LBB0_82
# %bb.81:                               # %join.9.i.i.i.i.i.i.i.i.i
                                        #   in Loop: Header=BB0_80 Depth=2
	leaq	-40(%r12), %rsi
	movdqu	(%rsi), %xmm0
	movq	16(%rsi), %rsi
	movq	%rsi, 16(%rax)
	movdqu	%xmm0, (%rax)
	addq	$24, %r12
	addq	$24, %rax
	incq	%r15
	cmpq	%r15, %r14
	jne	.LBB0_80
	jmp	.LBB0_89
	.p2align	4
.LBB0_82:                               # %arm.3.i.i.i.i.i.i.i
                                        #   in Loop: Header=BB0_79 Depth=1
	movq	-40(%r12), %rbp
	movq	-24(%r12), %rsi
	movdqu	-32(%r12), %xmm0
	movq	%r13, 240(%rsp)
	movq	%rcx, 248(%rsp)
	movq	%r8, %rdx
	movq	%r8, 256(%rsp)
	movq	%r8, %rax
	subq	%rcx, %rax
	movq	%r14, %r13
	subq	%r15, %r13
	decq	%r14
	cmpq	%rax, %r13
	ja	.LBB0_84
.LBB0_83:                               # %join.10.i.i.i.i.i.i.i
                                        #   in Loop: Header=BB0_79 Depth=1
	decq	%r13
	addq	%r15, %rbx
	incq	%rbx
	movq	240(%rsp), %rsi
	leaq	(%rcx,%rcx,2), %rax
	movq	%rbp, (%rsi,%rax,8)
	movdqu	%xmm0, 8(%rsi,%rax,8)
	movq	%rcx, %rbp
	xorl	%ecx, %ecx
	incq	%rbp
	cmovneq	%rdx, %rcx
	pxor	%xmm0, %xmm0
	leaq	248(%rsp), %rax
	movdqu	%xmm0, (%rax)
	cmpq	%r15, %r14
	movq	%r13, %r14
	movq	%rsi, %r13
	movq	%rdx, %r12
	jne	.LBB0_79
	jmp	.LBB0_90
.LBB0_84:                               # %"std_alloc::vec::Vec::grow::<#1b8c52373d8cd3cb>.exit.i.i.i.i.i.i.i.i"
                                        #   in Loop: Header=BB0_79 Depth=1
	movq	%rsi, 184(%rsp)                 # 8-byte Spill
	movdqa	%xmm0, 192(%rsp)                # 16-byte Spill
	movq	%r10, 176(%rsp)                 # 8-byte Spill
	movq	%r9, 8(%rsp)                    # 8-byte Spill
	movq	%rdi, 16(%rsp)                  # 8-byte Spill
	leaq	240(%rsp), %rdi
	movq	%r13, %rsi
	callq	"std_alloc::vec::Vec::grow_amortized::<#1b8c52373d8cd3cb>"
	movq	248(%rsp), %rcx
	movq	256(%rsp), %rdx
	movq	%rdx, %rsi
	cmpq	%rcx, %rdx
	setne	%dl
	orb	%al, %dl
	je	.LBB0_87
# %bb.85:                               #   in Loop: Header=BB0_79 Depth=1
	movq	16(%rsp), %rdi                  # 8-byte Reload
	movq	%rsi, %rdx
.LBB0_86:                               # %join.10.i.i.i.i.i.i.i
                                        #   in Loop: Header=BB0_79 Depth=1
	movq	8(%rsp), %r9                    # 8-byte Reload
	movq	176(%rsp), %r10                 # 8-byte Reload
	movdqa	192(%rsp), %xmm0                # 16-byte Reload
	jmp	.LBB0_83
.LBB0_87:                               # %"std_alloc::vec::Vec::grow_by_hint::<#1b8c52373d8cd3cb>.exit.i.i.i.i.i.i.i"
                                        #   in Loop: Header=BB0_79 Depth=1
	leaq	240(%rsp), %rdi
	movl	$1, %esi
	callq	"std_alloc::vec::Vec::grow_amortized::<#1b8c52373d8cd3cb>"
	testb	%al, %al
	je	.LBB0_245
# %bb.88:                               # %"std_alloc::vec::Vec::grow_by_hint::<#1b8c52373d8cd3cb>.exit.join.10_crit_edge.i.i.i.i.i.i.i"
                                        #   in Loop: Header=BB0_79 Depth=1
	movq	248(%rsp), %rcx
	movq	256(%rsp), %rdx
	movq	16(%rsp), %rdi                  # 8-byte Reload
	jmp	.LBB0_86
.LBB0_89:                               # %arm.4.i.i.i.i4.i.i.i.loopexit
	addq	%r15, %rbp
	movq	%r8, %r12
.LBB0_90:                               # %arm.4.i.i.i.i4.i.i.i
	testq	%r9, %r9
	je	.LBB0_92
.LBB0_91:                               # %then.1.i.i.i.i.i.i.i.i.i.i.i.i
	callq	rattle_dealloc@PLT
.LBB0_92:                               # %arm.1.i.i.i.i
	pxor	%xmm0, %xmm0
	movdqa	%xmm0, 80(%rsp)
	movq	$0, 96(%rsp)
	testq	%rbp, %rbp
	je	.LBB0_99
# %bb.93:                               # %then.5.i.i.i.i
	movq	(%r13), %r14
	movq	%r13, %rdi
	movq	16(%r13), %r13
	leaq	-1(%rbp), %r15
	xorl	%eax, %eax
	movq	%rdi, %rbx
	cmpq	$86, %r15
	jb	.LBB0_100
	.p2align	4
.LBB0_94:                               # %"core::slots::Slots::move_at_once::<#483ec8513fd57e54>.exit.i.i.i.i.i"
                                        # =>This Inner Loop Header: Depth=1
	movq	40(%rdi), %rcx
	movq	%rcx, 16(%rdi)
	movups	24(%rdi), %xmm0
	movups	%xmm0, (%rdi)
	movups	48(%rdi), %xmm0
	movups	%xmm0, 24(%rdi)
	movq	64(%rdi), %rcx
	movq	%rcx, 40(%rdi)
	movups	72(%rdi), %xmm0
	movups	%xmm0, 48(%rdi)
	movq	88(%rdi), %rcx
	movq	%rcx, 64(%rdi)
	movups	96(%rdi), %xmm0
	movups	%xmm0, 72(%rdi)
	movq	112(%rdi), %rcx
	movq	%rcx, 88(%rdi)
	movq	136(%rdi), %rcx
	movq	%rcx, 112(%rdi)
	movups	120(%rdi), %xmm0
	movups	%xmm0, 96(%rdi)
	movq	160(%rdi), %rcx
	movq	%rcx, 136(%rdi)
	movups	144(%rdi), %xmm0
	movups	%xmm0, 120(%rdi)
	movq	184(%rdi), %rcx
	movq	%rcx, 160(%rdi)
	movups	168(%rdi), %xmm0
	movups	%xmm0, 144(%rdi)
	movq	208(%rdi), %rcx
	movq	%rcx, 184(%rdi)
	movups	192(%rdi), %xmm0
	movups	%xmm0, 168(%rdi)
	movq	232(%rdi), %rcx
	movq	%rcx, 208(%rdi)
	movups	216(%rdi), %xmm0
	movups	%xmm0, 192(%rdi)
	movq	256(%rdi), %rcx
	movq	%rcx, 232(%rdi)
	movups	240(%rdi), %xmm0
	movups	%xmm0, 216(%rdi)
	movq	280(%rdi), %rcx
	movq	%rcx, 256(%rdi)
	movups	264(%rdi), %xmm0
	movups	%xmm0, 240(%rdi)
	movq	304(%rdi), %rcx
	movq	%rcx, 280(%rdi)
	movups	288(%rdi), %xmm0
	movups	%xmm0, 264(%rdi)
	movq	328(%rdi), %rcx
	movq	%rcx, 304(%rdi)
	movups	312(%rdi), %xmm0
	movups	%xmm0, 288(%rdi)
	movq	352(%rdi), %rcx
	movq	%rcx, 328(%rdi)
	movups	336(%rdi), %xmm0
	movups	%xmm0, 312(%rdi)
	movq	376(%rdi), %rcx
	movq	%rcx, 352(%rdi)
	movups	360(%rdi), %xmm0
	movups	%xmm0, 336(%rdi)
	movq	400(%rdi), %rcx
	movq	%rcx, 376(%rdi)
	movups	384(%rdi), %xmm0
	movups	%xmm0, 360(%rdi)
	movq	424(%rdi), %rcx
	movq	%rcx, 400(%rdi)
	movups	408(%rdi), %xmm0
	movups	%xmm0, 384(%rdi)
	movq	448(%rdi), %rcx
	movq	%rcx, 424(%rdi)
	movups	432(%rdi), %xmm0
	movups	%xmm0, 408(%rdi)
	movq	472(%rdi), %rcx
	movq	%rcx, 448(%rdi)
	movups	456(%rdi), %xmm0
	movups	%xmm0, 432(%rdi)
	movq	496(%rdi), %rcx
	movq	%rcx, 472(%rdi)
	movups	480(%rdi), %xmm0
	movups	%xmm0, 456(%rdi)
	movq	520(%rdi), %rcx
	movq	%rcx, 496(%rdi)
	movups	504(%rdi), %xmm0
	movups	%xmm0, 480(%rdi)
	movq	544(%rdi), %rcx
	movq	%rcx, 520(%rdi)
	movups	528(%rdi), %xmm0
	movups	%xmm0, 504(%rdi)
	movq	568(%rdi), %rcx
	movq	%rcx, 544(%rdi)
	movups	552(%rdi), %xmm0
	movups	%xmm0, 528(%rdi)
	movq	592(%rdi), %rcx
	movq	%rcx, 568(%rdi)
	movups	576(%rdi), %xmm0
	movups	%xmm0, 552(%rdi)
	movq	616(%rdi), %rcx
	movq	%rcx, 592(%rdi)
	movups	600(%rdi), %xmm0
	movups	%xmm0, 576(%rdi)
	movq	640(%rdi), %rcx
	movq	%rcx, 616(%rdi)
	movups	624(%rdi), %xmm0
	movups	%xmm0, 600(%rdi)
	movq	664(%rdi), %rcx
	movq	%rcx, 640(%rdi)
	movups	648(%rdi), %xmm0
	movups	%xmm0, 624(%rdi)
	movq	688(%rdi), %rcx
	movq	%rcx, 664(%rdi)
	movups	672(%rdi), %xmm0
	movups	%xmm0, 648(%rdi)
	movq	712(%rdi), %rcx
	movq	%rcx, 688(%rdi)
	movups	696(%rdi), %xmm0
	movups	%xmm0, 672(%rdi)
	movq	736(%rdi), %rcx
	movq	%rcx, 712(%rdi)
	movups	720(%rdi), %xmm0
	movups	%xmm0, 696(%rdi)
	movq	760(%rdi), %rcx
	movq	%rcx, 736(%rdi)
	movups	744(%rdi), %xmm0
	movups	%xmm0, 720(%rdi)
	movq	784(%rdi), %rcx
	movq	%rcx, 760(%rdi)
	movups	768(%rdi), %xmm0
	movups	%xmm0, 744(%rdi)
	movq	808(%rdi), %rcx
	movq	%rcx, 784(%rdi)
	movups	792(%rdi), %xmm0
	movups	%xmm0, 768(%rdi)
	movq	832(%rdi), %rcx
	movq	%rcx, 808(%rdi)
	movups	816(%rdi), %xmm0
	movups	%xmm0, 792(%rdi)
	movq	856(%rdi), %rcx
	movq	%rcx, 832(%rdi)
	movups	840(%rdi), %xmm0
	movups	%xmm0, 816(%rdi)
	movq	880(%rdi), %rcx
	movq	%rcx, 856(%rdi)
	movups	864(%rdi), %xmm0
	movups	%xmm0, 840(%rdi)
	movq	904(%rdi), %rcx
	movq	%rcx, 880(%rdi)
	movups	888(%rdi), %xmm0
	movups	%xmm0, 864(%rdi)
	movq	928(%rdi), %rcx
	movq	%rcx, 904(%rdi)
	movups	912(%rdi), %xmm0
	movups	%xmm0, 888(%rdi)
	movq	952(%rdi), %rcx
	movq	%rcx, 928(%rdi)
	movups	936(%rdi), %xmm0
	movups	%xmm0, 912(%rdi)
	movq	976(%rdi), %rcx
	movq	%rcx, 952(%rdi)
	movups	960(%rdi), %xmm0
	movups	%xmm0, 936(%rdi)
	movq	1000(%rdi), %rcx
	movq	%rcx, 976(%rdi)
	movups	984(%rdi), %xmm0
	movups	%xmm0, 960(%rdi)
	movq	1024(%rdi), %rcx
	movq	%rcx, 1000(%rdi)
	movups	1008(%rdi), %xmm0
	movups	%xmm0, 984(%rdi)
	movq	1048(%rdi), %rcx
	movq	%rcx, 1024(%rdi)
	movups	1032(%rdi), %xmm0
	movups	%xmm0, 1008(%rdi)
	movq	1072(%rdi), %rcx
	movq	%rcx, 1048(%rdi)
	movups	1056(%rdi), %xmm0
	movups	%xmm0, 1032(%rdi)
	movq	1096(%rdi), %rcx
	movq	%rcx, 1072(%rdi)
	movups	1080(%rdi), %xmm0
	movups	%xmm0, 1056(%rdi)
	movq	1120(%rdi), %rcx
	movq	%rcx, 1096(%rdi)
	movups	1104(%rdi), %xmm0
	movups	%xmm0, 1080(%rdi)
	movq	1144(%rdi), %rcx
	movq	%rcx, 1120(%rdi)
	movups	1128(%rdi), %xmm0
	movups	%xmm0, 1104(%rdi)
	movq	1168(%rdi), %rcx
	movq	%rcx, 1144(%rdi)
	movups	1152(%rdi), %xmm0
	movups	%xmm0, 1128(%rdi)
	movq	1192(%rdi), %rcx
	movq	%rcx, 1168(%rdi)
	movups	1176(%rdi), %xmm0
	movups	%xmm0, 1152(%rdi)
	movq	1216(%rdi), %rcx
	movq	%rcx, 1192(%rdi)
	movups	1200(%rdi), %xmm0
	movups	%xmm0, 1176(%rdi)
	movq	1240(%rdi), %rcx
	movq	%rcx, 1216(%rdi)
	movups	1224(%rdi), %xmm0
	movups	%xmm0, 1200(%rdi)
	movq	1264(%rdi), %rcx
	movq	%rcx, 1240(%rdi)
	movups	1248(%rdi), %xmm0
	movups	%xmm0, 1224(%rdi)
	movq	1288(%rdi), %rcx
	movq	%rcx, 1264(%rdi)
	movups	1272(%rdi), %xmm0
	movups	%xmm0, 1248(%rdi)
	movq	1312(%rdi), %rcx
	movq	%rcx, 1288(%rdi)
	movups	1296(%rdi), %xmm0
	movups	%xmm0, 1272(%rdi)
	movq	1336(%rdi), %rcx
	movq	%rcx, 1312(%rdi)
	movups	1320(%rdi), %xmm0
	movups	%xmm0, 1296(%rdi)
	movq	1360(%rdi), %rcx
	movq	%rcx, 1336(%rdi)
	movups	1344(%rdi), %xmm0
	movups	%xmm0, 1320(%rdi)
	movq	1384(%rdi), %rcx
	movq	%rcx, 1360(%rdi)
	movups	1368(%rdi), %xmm0
	movups	%xmm0, 1344(%rdi)
	movq	1408(%rdi), %rcx
	movq	%rcx, 1384(%rdi)
	movups	1392(%rdi), %xmm0
	movups	%xmm0, 1368(%rdi)
	movq	1432(%rdi), %rcx
	movq	%rcx, 1408(%rdi)
	movups	1416(%rdi), %xmm0
	movups	%xmm0, 1392(%rdi)
	movq	1456(%rdi), %rcx
	movq	%rcx, 1432(%rdi)
	movups	1440(%rdi), %xmm0
	movups	%xmm0, 1416(%rdi)
	movq	1480(%rdi), %rcx
	movq	%rcx, 1456(%rdi)
	movups	1464(%rdi), %xmm0
	movups	%xmm0, 1440(%rdi)
	movq	1504(%rdi), %rcx
	movq	%rcx, 1480(%rdi)
	movups	1488(%rdi), %xmm0
	movups	%xmm0, 1464(%rdi)
	movq	1528(%rdi), %rcx
	movq	%rcx, 1504(%rdi)
	movups	1512(%rdi), %xmm0
	movups	%xmm0, 1488(%rdi)
	movq	1552(%rdi), %rcx
	movq	%rcx, 1528(%rdi)
	movups	1536(%rdi), %xmm0
	movups	%xmm0, 1512(%rdi)
	movq	1576(%rdi), %rcx
	movq	%rcx, 1552(%rdi)
	movups	1560(%rdi), %xmm0
	movups	%xmm0, 1536(%rdi)
	movq	1600(%rdi), %rcx
	movq	%rcx, 1576(%rdi)
	movups	1584(%rdi), %xmm0
	movups	%xmm0, 1560(%rdi)
	movq	1624(%rdi), %rcx
	movq	%rcx, 1600(%rdi)
	movups	1608(%rdi), %xmm0
	movups	%xmm0, 1584(%rdi)
	movq	1648(%rdi), %rcx
	movq	%rcx, 1624(%rdi)
	movups	1632(%rdi), %xmm0
	movups	%xmm0, 1608(%rdi)
	movq	1672(%rdi), %rcx
	movq	%rcx, 1648(%rdi)
	movups	1656(%rdi), %xmm0
	movups	%xmm0, 1632(%rdi)
	movq	1696(%rdi), %rcx
	movq	%rcx, 1672(%rdi)
	movups	1680(%rdi), %xmm0
	movups	%xmm0, 1656(%rdi)
	movq	1720(%rdi), %rcx
	movq	%rcx, 1696(%rdi)
	movups	1704(%rdi), %xmm0
	movups	%xmm0, 1680(%rdi)
	movq	1744(%rdi), %rcx
	movq	%rcx, 1720(%rdi)
	movups	1728(%rdi), %xmm0
	movups	%xmm0, 1704(%rdi)
	movq	1768(%rdi), %rcx
	movq	%rcx, 1744(%rdi)
	movups	1752(%rdi), %xmm0
	movups	%xmm0, 1728(%rdi)
	movq	1792(%rdi), %rcx
	movq	%rcx, 1768(%rdi)
	movups	1776(%rdi), %xmm0
	movups	%xmm0, 1752(%rdi)
	movq	1816(%rdi), %rcx
	movq	%rcx, 1792(%rdi)
	movups	1800(%rdi), %xmm0
	movups	%xmm0, 1776(%rdi)
	movq	1840(%rdi), %rcx
	movq	%rcx, 1816(%rdi)
	movups	1824(%rdi), %xmm0
	movups	%xmm0, 1800(%rdi)
	movq	1864(%rdi), %rcx
	movq	%rcx, 1840(%rdi)
	movups	1848(%rdi), %xmm0
	movups	%xmm0, 1824(%rdi)
	movq	1888(%rdi), %rcx
	movq	%rcx, 1864(%rdi)
	movups	1872(%rdi), %xmm0
	movups	%xmm0, 1848(%rdi)
	movq	1912(%rdi), %rcx
	movq	%rcx, 1888(%rdi)
	movups	1896(%rdi), %xmm0
	movups	%xmm0, 1872(%rdi)
	movq	1936(%rdi), %rcx
	movq	%rcx, 1912(%rdi)
	movups	1920(%rdi), %xmm0
	movups	%xmm0, 1896(%rdi)
	movq	1960(%rdi), %rcx
	movq	%rcx, 1936(%rdi)
	movups	1944(%rdi), %xmm0
	movups	%xmm0, 1920(%rdi)
	movq	1984(%rdi), %rcx
	movq	%rcx, 1960(%rdi)
	movups	1968(%rdi), %xmm0
	movups	%xmm0, 1944(%rdi)
	movq	2008(%rdi), %rcx
	movq	%rcx, 1984(%rdi)
	movups	1992(%rdi), %xmm0
	movups	%xmm0, 1968(%rdi)
	movq	2032(%rdi), %rcx
	movq	%rcx, 2008(%rdi)
	movups	2016(%rdi), %xmm0
	movups	%xmm0, 1992(%rdi)
	movq	2056(%rdi), %rcx
	movq	%rcx, 2032(%rdi)
	movdqu	2040(%rdi), %xmm0
	movdqu	%xmm0, 2016(%rdi)
	addq	$2040, %rdi                     # imm = 0x7F8
	leaq	(%r15,%rax), %rcx
	addq	$-85, %rcx
	addq	$-85, %rax
	cmpq	$85, %rcx
	ja	.LBB0_94
# %bb.95:                               # %"core::slots::Slots::move_back::<#483ec8513fd57e54>.exit.i.i.i.i.i"
	cmpq	$1, %rax
	jne	.LBB0_116
# %bb.96:                               # %join.5.i33.i.i.i.i.i.preheader
	addq	%r15, %rax
	leaq	(,%rbp,2), %rcx
	addq	%rbp, %rcx
	leaq	(%rbx,%rcx,8), %rcx
	addq	$-24, %rcx
	.p2align	4
.LBB0_97:                               # %join.5.i33.i.i.i.i.i
                                        # =>This Inner Loop Header: Depth=1
	movq	16(%rcx), %rdx
	movq	%rdx, -8(%rcx)
	movdqu	(%rcx), %xmm0
	movdqu	%xmm0, -24(%rcx)
	addq	$-24, %rcx
	decq	%rax
	jne	.LBB0_97
	jmp	.LBB0_102
.LBB0_98:
	movq	%rsp, %r13
	xorl	%r12d, %r12d
	xorl	%ebp, %ebp
	testq	%r9, %r9
	jne	.LBB0_91
	jmp	.LBB0_92
.LBB0_99:                               # %arm.6.thread.i.i.i
	xorl	%edi, %edi
	callq	"text_programs::programs::stops::Stop::report::<#2daa2fb2be07fb73>"
	movl	%eax, %ebp
	jmp	.LBB0_136
.LBB0_100:
	movq	%r15, %rcx
	cmpq	%rax, %r15
	je	.LBB0_102
.LBB0_101:                              # %join.5.i25.i.preheader.i.i.i.i
	leaq	24(%rdi), %rsi
	shlq	$3, %rcx
	leaq	(%rcx,%rcx,2), %rdx
	callq	memmove@PLT
.LBB0_102:                              # %"std_alloc::vec::Vec::remove::<#1b8c52373d8cd3cb>.exit.i.i.i.i"
	testq	%r13, %r13
	je	.LBB0_104
# %bb.103:                              # %then.1.i.i.i.i.i37.i.i
	movq	%r14, %rdi
	callq	rattle_dealloc@PLT
.LBB0_104:                              # %arm.1.i21.i.i
	movq	%rbx, %r13
	cmpq	$2, %r15
	jne	.LBB0_135
.LBB0_105:                              # %then.6.i.i.i.i.i
	movq	(%r13), %rax
	movq	8(%r13), %rcx
	cmpq	$7, %rcx
	je	.LBB0_117
# %bb.106:                              # %then.6.i.i.i.i.i
	cmpq	$4, %rcx
	jne	.LBB0_120
# %bb.107:                              # %"core::lang::str_eq.exit.i.i.i.i.i.i"
	movl	(%rax), %eax
	movq	%rax, %rcx
	shlq	$32, %rcx
	orq	%rax, %rcx
	xorl	%eax, %eax
	movabsq	$4064063760554685557, %rdx      # imm = 0x3866747538667475
	movl	$0, %ebx
	cmpq	%rdx, %rcx
	je	.LBB0_140
	jmp	.LBB0_207
.LBB0_108:                              # %arm.5.i.i.i.i.i.i
	testq	%r13, %r13
	je	.LBB0_110
# %bb.109:                              # %then.1.i.i.i.i.i.i.i.i.i
	movq	%r15, %rdi
	callq	rattle_dealloc@PLT
.LBB0_110:                              # %arm.18.i.i.i.i
	movq	96(%rsp), %rbx
	testq	%r14, %r14
	je	.LBB0_115
# %bb.111:                              # %join.5.i.i.i.i.i49.i.i.i.i.preheader
	movq	16(%rsp), %rax                  # 8-byte Reload
	leaq	16(%rax), %r15
	jmp	.LBB0_113
	.p2align	4
.LBB0_112:                              # %"core::mem::drop::<#f02d343d93693c10>.exit.i.i.i.i.i58.i.i.i.i"
                                        #   in Loop: Header=BB0_113 Depth=1
	addq	$24, %r15
	decq	%r14
	je	.LBB0_115
.LBB0_113:                              # %join.5.i.i.i.i.i49.i.i.i.i
                                        # =>This Inner Loop Header: Depth=1
	cmpq	$0, (%r15)
	je	.LBB0_112
# %bb.114:                              # %then.1.i.i.i.i.i.i.i.i.i.i56.i.i.i.i
                                        #   in Loop: Header=BB0_113 Depth=1
	movq	-16(%r15), %rdi
	callq	rattle_dealloc@PLT
	jmp	.LBB0_112
.LBB0_115:                              # %"std_alloc::vec::Vec::clear::<#4feeb2b446188e7f>.exit.i61.i.i.i.i"
	movl	$21, %r14d
	testq	%rbx, %rbx
	jne	.LBB0_129
	jmp	.LBB0_131
.LBB0_116:
	leaq	(%r15,%rax), %rcx
	negq	%rax
	cmpq	%rax, %r15
	jne	.LBB0_101
	jmp	.LBB0_102
.LBB0_117:                              # %"core::lang::str_eq.exit18.i.i.i.i.i.i"
	movl	(%rax), %ecx
	movl	3(%rax), %eax
	shlq	$32, %rax
	orq	%rcx, %rax
	movabsq	$7308275880225567861, %rcx      # imm = 0x656C363131667475
	cmpq	%rcx, %rax
	je	.LBB0_139
# %bb.118:                              # %"core::lang::str_eq.exit18.i.i.i.i.i.i"
	movabsq	$7305461130458461301, %rcx      # imm = 0x6562363131667475
	cmpq	%rcx, %rax
	jne	.LBB0_120
# %bb.119:                              # %arm.9.i.fold.split.i.i.i.i
	movb	$2, %al
	jmp	.LBB0_140
.LBB0_121:                              # %then.1.i.i.i.i.i.i.i
	cmpq	$0, 256(%rsp)
	je	.LBB0_123
# %bb.122:                              # %then.1.i.i.i.i.i.i.i.i.i.i
	movq	240(%rsp), %rdi
	callq	rattle_dealloc@PLT
.LBB0_123:                              # %arm.17.i.i.i.i
	movq	96(%rsp), %rbx
	testq	%r14, %r14
	je	.LBB0_128
# %bb.124:                              # %join.5.i.i.i.i.i25.i.i.i.i.preheader
	movq	16(%rsp), %rax                  # 8-byte Reload
	leaq	16(%rax), %r15
	jmp	.LBB0_126
	.p2align	4
.LBB0_125:                              # %"core::mem::drop::<#f02d343d93693c10>.exit.i.i.i.i.i34.i.i.i.i"
                                        #   in Loop: Header=BB0_126 Depth=1
	addq	$24, %r15
	decq	%r14
	je	.LBB0_128
.LBB0_126:                              # %join.5.i.i.i.i.i25.i.i.i.i
                                        # =>This Inner Loop Header: Depth=1
	cmpq	$0, (%r15)
	je	.LBB0_125
# %bb.127:                              # %then.1.i.i.i.i.i.i.i.i.i.i32.i.i.i.i
                                        #   in Loop: Header=BB0_126 Depth=1
	movq	-16(%r15), %rdi
	callq	rattle_dealloc@PLT
	jmp	.LBB0_125
.LBB0_128:                              # %"std_alloc::vec::Vec::clear::<#4feeb2b446188e7f>.exit.i37.i.i.i.i"
	movl	$38, %r14d
	testq	%rbx, %rbx
	je	.LBB0_131
.LBB0_129:                              # %then.1.i.i.i39.i.i.i.i
	movq	16(%rsp), %rdi                  # 8-byte Reload
.LBB0_130:                              # %arm.2.i.i.i.i
	callq	rattle_dealloc@PLT
.LBB0_131:                              # %arm.2.i.i.i.i
	pxor	%xmm0, %xmm0
	movdqa	%xmm0, 80(%rsp)
	movq	$0, 96(%rsp)
	movaps	.LCPI0_0(%rip), %xmm1           # xmm1 = [0,1,2,3,4,5,6,7,8,9,10,11,12,13,14,15]
	movaps	%xmm1, 240(%rsp)
	movdqa	.LCPI0_1(%rip), %xmm1           # xmm1 = [16,17,18,19,20,21,22,23,24,25,26,27,28,29,30,31]
	movdqa	%xmm1, 256(%rsp)
	movabsq	$2820983053732684064, %rax      # imm = 0x2726252423222120
	movq	%rax, 272(%rsp)
	movb	$40, 280(%rsp)
	cmpb	$21, 240(%rsp,%r14)
	je	.LBB0_133
.LBB0_132:                              # %arm.2.i1.i.i
	movl	$3, %edi
	callq	"text_programs::programs::stops::Stop::report::<#2daa2fb2be07fb73>"
	movl	%eax, %ebp
	jmp	.LBB0_138
.LBB0_133:                              # %then.9.i.i.i.i
	movq	%rsp, %rbx
	movq	%rbx, 80(%rsp)
	movdqu	%xmm0, 88(%rsp)
	leaq	80(%rsp), %rdi
	movl	$1, %esi
	callq	"std_alloc::vec::Vec::grow_amortized::<#1b8c52373d8cd3cb>"
	movq	96(%rsp), %r12
	testb	%al, %al
	je	.LBB0_148
# %bb.134:                              # %"std_alloc::vec::Vec::grow::<#1b8c52373d8cd3cb>.exit.join.3_crit_edge.i.i.i15.i.i"
	movq	80(%rsp), %r13
	movq	88(%rsp), %r15
	leaq	(%r15,%r15,2), %rax
	movq	%rbx, (%r13,%rax,8)
	incq	%r15
	pxor	%xmm0, %xmm0
	movdqu	%xmm0, 8(%r13,%rax,8)
	cmpq	$2, %r15
	je	.LBB0_105
.LBB0_135:                              # %arm.6.i22.i.i
	xorl	%edi, %edi
	callq	"text_programs::programs::stops::Stop::report::<#2daa2fb2be07fb73>"
	movl	%eax, %ebp
	testq	%r15, %r15
	jne	.LBB0_208
.LBB0_136:                              # %"std_alloc::vec::Vec::clear::<#1ca9c52778c14e4e>.exit.i31.i.i.i"
	testq	%r12, %r12
	je	.LBB0_138
# %bb.137:                              # %then.1.i.i.i33.i.i.i
	movq	%r13, %rdi
	callq	rattle_dealloc@PLT
.LBB0_138:                              # %"recode::main+run.exit"
	movzbl	%bpl, %eax
	addq	$65784, %rsp                    # imm = 0x100F8
	.cfi_def_cfa_offset 56
	popq	%rbx
	.cfi_def_cfa_offset 48
	popq	%r12
	.cfi_def_cfa_offset 40
	popq	%r13
	.cfi_def_cfa_offset 32
	popq	%r14
	.cfi_def_cfa_offset 24
	popq	%r15
	.cfi_def_cfa_offset 16
	popq	%rbp
	.cfi_def_cfa_offset 8
	retq
.LBB0_139:
	.cfi_def_cfa_offset 65840
	movb	$1, %al
.LBB0_140:                              # %arm.9.i.i.i.i.i
	movq	24(%r13), %rcx
	movq	32(%r13), %rdx
	cmpq	$7, %rdx
	je	.LBB0_143
# %bb.141:                              # %arm.9.i.i.i.i.i
	cmpq	$4, %rdx
	jne	.LBB0_120
# %bb.142:                              # %"core::lang::str_eq.exit.i24.i.i.i.i.i"
	movl	(%rcx), %ecx
	movq	%rcx, %rdx
	shlq	$32, %rdx
	orq	%rcx, %rdx
	xorl	%ebx, %ebx
	movabsq	$4064063760554685557, %rcx      # imm = 0x3866747538667475
	cmpq	%rcx, %rdx
	je	.LBB0_156
	jmp	.LBB0_207
.LBB0_143:                              # %"core::lang::str_eq.exit18.i10.i.i.i.i.i"
	movl	(%rcx), %edx
	movl	3(%rcx), %ecx
	shlq	$32, %rcx
	orq	%rdx, %rcx
	movabsq	$7308275880225567861, %rdx      # imm = 0x656C363131667475
	cmpq	%rdx, %rcx
	je	.LBB0_155
# %bb.144:                              # %"core::lang::str_eq.exit18.i10.i.i.i.i.i"
	movabsq	$7305461130458461301, %rdx      # imm = 0x6562363131667475
	cmpq	%rdx, %rcx
	jne	.LBB0_120
# %bb.145:                              # %arm.13.fold.split.i.i.i.i.i
	movb	$2, %bl
	jmp	.LBB0_156
.LBB0_120:
	xorl	%ebx, %ebx
.LBB0_207:                              # %arm.6.thread102.i.i.i
	movzbl	%bl, %edi
	callq	"text_programs::programs::stops::Stop::report::<#2daa2fb2be07fb73>"
	movl	%eax, %ebp
	movl	$2, %r15d
.LBB0_208:                              # %join.5.i.i.i.i.i19.preheader.i.i.i
	leaq	16(%r13), %rbx
	jmp	.LBB0_210
	.p2align	4
.LBB0_209:                              # %"core::mem::drop::<#7f8a914b9c4d666d>.exit.i.i.i.i.i28.i.i.i"
                                        #   in Loop: Header=BB0_210 Depth=1
	addq	$24, %rbx
	decq	%r15
	je	.LBB0_136
.LBB0_210:                              # %join.5.i.i.i.i.i19.i.i.i
                                        # =>This Inner Loop Header: Depth=1
	cmpq	$0, (%rbx)
	je	.LBB0_209
# %bb.211:                              # %then.1.i.i.i.i.i.i.i.i.i.i26.i.i.i
                                        #   in Loop: Header=BB0_210 Depth=1
	movq	-16(%rbx), %rdi
	callq	rattle_dealloc@PLT
	jmp	.LBB0_209
.LBB0_148:                              # %"std_alloc::vec::Vec::drop::<#81677c32190a458e>.exit8.i.i.i.i"
	movq	80(%rsp), %rbx
	movq	88(%rsp), %r14
	testq	%r14, %r14
	je	.LBB0_153
# %bb.149:                              # %join.5.i.i.i.i.i.i.i4.i.i.preheader
	leaq	16(%rbx), %r15
	jmp	.LBB0_151
	.p2align	4
.LBB0_150:                              # %"core::mem::drop::<#7f8a914b9c4d666d>.exit.i.i.i.i.i.i.i.i.i"
                                        #   in Loop: Header=BB0_151 Depth=1
	addq	$24, %r15
	decq	%r14
	je	.LBB0_153
.LBB0_151:                              # %join.5.i.i.i.i.i.i.i4.i.i
                                        # =>This Inner Loop Header: Depth=1
	cmpq	$0, (%r15)
	je	.LBB0_150
# %bb.152:                              # %then.1.i.i.i.i.i.i.i.i.i.i.i.i11.i.i
                                        #   in Loop: Header=BB0_151 Depth=1
	movq	-16(%r15), %rdi
	callq	rattle_dealloc@PLT
	jmp	.LBB0_150
.LBB0_153:                              # %"std_alloc::vec::Vec::clear::<#1ca9c52778c14e4e>.exit.i.i.i.i.i"
	testq	%r12, %r12
	je	.LBB0_132
# %bb.154:                              # %then.1.i.i.i14.i.i.i.i
	movq	%rbx, %rdi
	callq	rattle_dealloc@PLT
	jmp	.LBB0_132
.LBB0_155:
	movb	$1, %bl
.LBB0_156:                              # %arm.1.i8.i.i.i
	movq	%r13, 8(%rsp)                   # 8-byte Spill
	pxor	%xmm0, %xmm0
	movdqa	%xmm0, 48(%rsp)
	movb	%al, 64(%rsp)
	movb	%bl, 65(%rsp)
	movq	$0, 66(%rsp)
	movq	$0, 72(%rsp)
	movq	%rsp, %r15
	movq	%r15, 24(%rsp)
	movdqu	%xmm0, 32(%rsp)
	leaq	240(%rsp), %rdi
	xorl	%ebp, %ebp
	movl	$65536, %edx                    # imm = 0x10000
	xorl	%esi, %esi
	callq	memset@PLT
	movq	%r12, %r13
.LBB0_157:                              # %join.5.i.i.i.i.i
                                        # =>This Loop Header: Depth=1
                                        #     Child Loop BB0_192 Depth 2
	leaq	240(%rsp), %rsi
	movl	$65536, %r14d                   # imm = 0x10000
	movl	$65536, %edx                    # imm = 0x10000
	xorl	%edi, %edi
	callq	read@PLT
	testq	%rax, %rax
	js	.LBB0_161
# %bb.158:                              # %arm.6.i.i.i.i.i
                                        #   in Loop: Header=BB0_157 Depth=1
	cmpq	$65536, %rax                    # imm = 0x10000
	cmovbq	%rax, %r14
	movq	48(%rsp), %rcx
	testq	%rax, %rax
	je	.LBB0_212
# %bb.159:                              # %default.11.i.i.i.i.i
                                        #   in Loop: Header=BB0_157 Depth=1
	testq	%rcx, %rcx
	je	.LBB0_163
# %bb.160:                              # %"recoding::recoder::Recoder::feed::<#e3b2a9d4d2861db8>.exit.i.i.i.i.i.i"
                                        #   in Loop: Header=BB0_157 Depth=1
	leaq	48(%rsp), %rdi
	leaq	240(%rsp), %rsi
	leaq	24(%rsp), %rcx
	movq	%r14, %rdx
	callq	"recoding::recoder::Recoder::feed_joined::<#e3b2a9d4d2861db8>"
	testb	%al, %al
	je	.LBB0_190
	jmp	.LBB0_198
.LBB0_161:                              # %arm.7.i.i.i.i.i
                                        #   in Loop: Header=BB0_157 Depth=1
	leaq	80(%rsp), %rdi
	callq	"std_io::io::error::last_error"
	movq	80(%rsp), %rax
	shrq	$8, %rax
	movaps	.LCPI0_0(%rip), %xmm0           # xmm0 = [0,1,2,3,4,5,6,7,8,9,10,11,12,13,14,15]
	movaps	%xmm0, 80(%rsp)
	movdqa	.LCPI0_1(%rip), %xmm0           # xmm0 = [16,17,18,19,20,21,22,23,24,25,26,27,28,29,30,31]
	movdqa	%xmm0, 96(%rsp)
	movabsq	$2820983053732684064, %rcx      # imm = 0x2726252423222120
	movq	%rcx, 112(%rsp)
	movb	$40, 120(%rsp)
	cmpb	$41, %al
	jae	.LBB0_203
# %bb.162:                              # %"std_io::io::error::Error::kind.exit82.i.i.i.i.i"
                                        #   in Loop: Header=BB0_157 Depth=1
	andl	$63, %eax
	cmpb	$35, 80(%rsp,%rax)
	je	.LBB0_196
	jmp	.LBB0_203
.LBB0_163:                              # %then.5.i.i.i.i.i.i.i
                                        #   in Loop: Header=BB0_157 Depth=1
	leaq	(%r14,%r14,2), %rsi
	cmpq	40(%rsp), %rsi
	ja	.LBB0_197
.LBB0_164:                              # %arm.1.i.i.i.i.i.i.i
                                        #   in Loop: Header=BB0_157 Depth=1
	movzbl	64(%rsp), %ecx
	movzbl	65(%rsp), %eax
	leaq	240(%rsp), %rdi
	leaq	24(%rsp), %rdx
	movq	%r14, %rsi
	cmpl	$2, %ecx
	je	.LBB0_169
# %bb.165:                              # %arm.1.i.i.i.i.i.i.i
                                        #   in Loop: Header=BB0_157 Depth=1
	cmpl	$1, %ecx
	jne	.LBB0_172
# %bb.166:                              # %arm.2.i18.i.i.i.i.i.i
                                        #   in Loop: Header=BB0_157 Depth=1
	cmpl	$2, %eax
	je	.LBB0_175
# %bb.167:                              # %arm.2.i18.i.i.i.i.i.i
                                        #   in Loop: Header=BB0_157 Depth=1
	cmpl	$1, %eax
	jne	.LBB0_177
# %bb.168:                              # %arm.11.i.i.i.i.i.i.i
                                        #   in Loop: Header=BB0_157 Depth=1
	callq	"recoding::recoder_runs::run_whole::<#06163603a29b5506>"
	jmp	.LBB0_181
.LBB0_169:                              # %arm.3.i.i.i.i.i25.i.i
                                        #   in Loop: Header=BB0_157 Depth=1
	cmpl	$2, %eax
	je	.LBB0_176
# %bb.170:                              # %arm.3.i.i.i.i.i25.i.i
                                        #   in Loop: Header=BB0_157 Depth=1
	cmpl	$1, %eax
	jne	.LBB0_178
# %bb.171:                              # %arm.15.i.i.i.i.i.i.i
                                        #   in Loop: Header=BB0_157 Depth=1
	callq	"recoding::recoder_runs::run_whole::<#e742a82e1969306f>"
	jmp	.LBB0_181
.LBB0_172:                              # %arm.1.i20.i.i.i.i.i.i
                                        #   in Loop: Header=BB0_157 Depth=1
	cmpl	$2, %eax
	je	.LBB0_179
# %bb.173:                              # %arm.1.i20.i.i.i.i.i.i
                                        #   in Loop: Header=BB0_157 Depth=1
	cmpl	$1, %eax
	jne	.LBB0_180
# %bb.174:                              # %arm.7.i22.i.i.i.i.i.i
                                        #   in Loop: Header=BB0_157 Depth=1
	callq	"recoding::recoder_runs::run_whole::<#2857ed0d0693875d>"
	jmp	.LBB0_181
.LBB0_175:                              # %arm.12.i.i.i.i.i.i.i
                                        #   in Loop: Header=BB0_157 Depth=1
	callq	"recoding::recoder_runs::run_whole::<#daeca7e912b417d6>"
	jmp	.LBB0_181
.LBB0_176:                              # %arm.16.i.i.i.i.i.i.i
                                        #   in Loop: Header=BB0_157 Depth=1
	callq	"recoding::recoder_runs::run_whole::<#9bba14706ba0829a>"
	jmp	.LBB0_181
.LBB0_177:                              # %arm.10.i.i.i.i.i.i.i
                                        #   in Loop: Header=BB0_157 Depth=1
	callq	"recoding::recoder_runs::run_whole::<#d46ce40aec13b609>"
	jmp	.LBB0_181
.LBB0_178:                              # %arm.14.i.i.i.i.i.i.i
                                        #   in Loop: Header=BB0_157 Depth=1
	callq	"recoding::recoder_runs::run_whole::<#8e1925640e2330c5>"
	jmp	.LBB0_181
.LBB0_179:                              # %arm.8.i.i.i.i.i32.i.i
                                        #   in Loop: Header=BB0_157 Depth=1
	callq	"recoding::recoder_runs::run_whole::<#9c534bed186decad>"
	jmp	.LBB0_181
.LBB0_180:                              # %arm.6.i24.i.i.i.i.i.i
                                        #   in Loop: Header=BB0_157 Depth=1
	callq	"recoding::recoder_runs::run_whole::<#d908eddfe8754f34>"
.LBB0_181:                              # %"recoding::recoder_runs::recode_whole::<#e3b2a9d4d2861db8>.exit.i.i.i.i.i.i"
                                        #   in Loop: Header=BB0_157 Depth=1
	subq	%rax, %r14
	movq	%r14, 48(%rsp)
	je	.LBB0_188
# %bb.182:                              # %join.3.i.i.i.i.i.i.i26.i.i
                                        #   in Loop: Header=BB0_157 Depth=1
	cmpq	$1, %r14
	jne	.LBB0_184
# %bb.183:                              #   in Loop: Header=BB0_157 Depth=1
	xorl	%ecx, %ecx
	xorl	%esi, %esi
	jmp	.LBB0_187
.LBB0_184:                              # %join.6.i.i.i.i.i.i.i27.i.i
                                        #   in Loop: Header=BB0_157 Depth=1
	movzbl	241(%rsp,%rax), %ecx
	cmpq	$2, %r14
	jne	.LBB0_186
# %bb.185:                              #   in Loop: Header=BB0_157 Depth=1
	xorl	%esi, %esi
	jmp	.LBB0_187
.LBB0_186:                              # %join.9.i.i.i.i.i.i.i31.i.i
                                        #   in Loop: Header=BB0_157 Depth=1
	movzbl	242(%rsp,%rax), %esi
.LBB0_187:                              # %"recoding::held::padded_to_three.exit.i.i.i.i.i.i.i.i"
                                        #   in Loop: Header=BB0_157 Depth=1
	movzbl	240(%rsp,%rax), %eax
	movb	%al, 56(%rsp)
	movb	%cl, 57(%rsp)
	movb	%sil, 58(%rsp)
.LBB0_188:                              # %"recoding::held::Held::hold.exit.i.i.i.i.i.i.i"
                                        #   in Loop: Header=BB0_157 Depth=1
	testq	%rdx, %rdx
	je	.LBB0_190
# %bb.189:                              # %then.1.i25.i.i.i.i.i.i
                                        #   in Loop: Header=BB0_157 Depth=1
	addq	72(%rsp), %rdx
	movq	$-1, %rax
	cmovaeq	%rdx, %rax
	movq	%rax, 72(%rsp)
.LBB0_190:                              # %join.3.i10.i.i.i.i.i
                                        #   in Loop: Header=BB0_157 Depth=1
	movq	24(%rsp), %r15
	movq	32(%rsp), %rbx
	testq	%rbx, %rbx
	je	.LBB0_196
# %bb.191:                              # %join.5.i.i11.i.i.i.i.i.preheader
                                        #   in Loop: Header=BB0_157 Depth=1
	xorl	%r12d, %r12d
	.p2align	4
.LBB0_192:                              # %join.5.i.i11.i.i.i.i.i
                                        #   Parent Loop BB0_157 Depth=1
                                        # =>  This Inner Loop Header: Depth=2
	leaq	(%r15,%r12), %rsi
	movq	%rbx, %r14
	subq	%r12, %r14
	movl	$1, %edi
	movq	%r14, %rdx
	callq	write@PLT
	testq	%rax, %rax
	js	.LBB0_199
# %bb.193:                              # %"text_runs::counted::Counted::put::<#cdc8ff12022c16a2>.exit.i16.i.i.i.i.i"
                                        #   in Loop: Header=BB0_192 Depth=2
	cmpq	%r14, %rax
	cmovbq	%rax, %r14
	testq	%r14, %r14
	je	.LBB0_200
# %bb.194:                              # %loop.2.i.i19.i.i.i.i.i
                                        #   in Loop: Header=BB0_192 Depth=2
	addq	%r14, %r12
	cmpq	%rbx, %r12
	jb	.LBB0_192
# %bb.195:                              # %join.3.i.i.i.i.i.i.i.i
                                        #   in Loop: Header=BB0_157 Depth=1
	movq	$0, 32(%rsp)
	movq	%r13, %r12
.LBB0_196:                              # %join.9.i.i.i.i.i
                                        #   in Loop: Header=BB0_157 Depth=1
	incq	%rbp
	cmpq	$-1, %rbp
	jne	.LBB0_157
	jmp	.LBB0_203
.LBB0_197:                              # %"std_alloc::vec::Vec::grow::<#5fdc5e19576447a7>.exit.i.i.i.i.i.i.i"
                                        #   in Loop: Header=BB0_157 Depth=1
	leaq	24(%rsp), %rdi
	callq	"std_alloc::vec::Vec::grow_amortized::<#5fdc5e19576447a7>"
	testb	%al, %al
	jne	.LBB0_164
.LBB0_198:
	movb	$2, %bl
	cmpq	$0, 40(%rsp)
	movq	8(%rsp), %r13                   # 8-byte Reload
	jne	.LBB0_201
	jmp	.LBB0_206
.LBB0_199:                              # %"text_runs::counted::Counted::put::<#cdc8ff12022c16a2>.exit.thread.i23.i.i.i.i.i"
	leaq	80(%rsp), %rdi
	callq	"std_io::io::error::last_error"
.LBB0_200:
	movb	$1, %bl
	movq	%r13, %r12
	cmpq	$0, 40(%rsp)
	movq	8(%rsp), %r13                   # 8-byte Reload
	je	.LBB0_206
.LBB0_201:                              # %then.1.i.i.i32.i.i.i.i.i
	movq	24(%rsp), %rdi
	callq	rattle_dealloc@PLT
	jmp	.LBB0_206
.LBB0_203:                              # %after.1.i1.i.i.i.i
	cmpq	$0, 40(%rsp)
	je	.LBB0_205
# %bb.204:                              # %then.1.i.i.i92.i.i.i.i.i
	movq	%r15, %rdi
	callq	rattle_dealloc@PLT
.LBB0_205:                              # %"text_programs::programs::recode_stream::recode::<#357db40b776bb3e5>.exit.thread.i.i.i.i"
	xorl	%ebx, %ebx
	movq	8(%rsp), %r13                   # 8-byte Reload
.LBB0_206:                              # %arm.7.i.i24.i.i
	incb	%bl
	jmp	.LBB0_207
.LBB0_212:                              # %arm.10.i2.i.i.i.i
	pxor	%xmm0, %xmm0
	movdqa	%xmm0, 80(%rsp)
	movdqa	%xmm0, 96(%rsp)
	movq	$0, 112(%rsp)
	testq	%rcx, %rcx
	je	.LBB0_231
# %bb.213:                              # %"recoding::recoder::Recoder::finish::<#e3b2a9d4d2861db8>.exit.i.i.i.i.i.i"
	movq	%rcx, 208(%rsp)
	leaq	56(%rsp), %rax
	movdqu	(%rax), %xmm0
	movdqu	%xmm0, 216(%rsp)
	movq	16(%rax), %rax
	movq	%rax, 232(%rsp)
	leaq	80(%rsp), %rdi
	leaq	208(%rsp), %rsi
	leaq	24(%rsp), %rdx
	callq	"recoding::recoder::Recoder::finish_held::<#e3b2a9d4d2861db8>"
	testb	$1, 80(%rsp)
	je	.LBB0_225
# %bb.214:
	xorl	%ebp, %ebp
	movb	$2, %bl
	jmp	.LBB0_235
.LBB0_216:                              # %arm.10.i.i.i.i
	testq	%r13, %r13
	je	.LBB0_218
# %bb.217:                              # %then.1.i.i.i6.i.i.i.i
	movq	%r15, %rdi
	callq	rattle_dealloc@PLT
.LBB0_218:                              # %then.13.i.i.i.i
	movq	80(%rsp), %rbx
	movq	88(%rsp), %r14
	movq	96(%rsp), %r15
	testq	%r14, %r14
	je	.LBB0_223
# %bb.219:                              # %join.5.i.i.i.i.i.i.i.i.i.preheader
	leaq	16(%rbx), %r12
	jmp	.LBB0_221
.LBB0_220:                              # %"core::mem::drop::<#f02d343d93693c10>.exit.i.i.i.i.i.i.i.i.i"
                                        #   in Loop: Header=BB0_221 Depth=1
	addq	$24, %r12
	decq	%r14
	je	.LBB0_223
.LBB0_221:                              # %join.5.i.i.i.i.i.i.i.i.i
                                        # =>This Inner Loop Header: Depth=1
	cmpq	$0, (%r12)
	je	.LBB0_220
# %bb.222:                              # %then.1.i.i.i.i.i.i.i.i.i.i.i.i.i.i
                                        #   in Loop: Header=BB0_221 Depth=1
	movq	-16(%r12), %rdi
	callq	rattle_dealloc@PLT
	jmp	.LBB0_220
.LBB0_223:                              # %"std_alloc::vec::Vec::clear::<#4feeb2b446188e7f>.exit.i.i.i.i.i"
	movl	$38, %r14d
	testq	%r15, %r15
	je	.LBB0_131
# %bb.224:                              # %then.1.i.i.i16.i.i.i.i
	movq	%rbx, %rdi
	jmp	.LBB0_130
.LBB0_225:                              # %join.3.i3.i.i.i.i.i
	movq	32(%rsp), %rbx
	testq	%rbx, %rbx
	je	.LBB0_231
# %bb.226:                              # %join.5.i.i.i.i.i.i.i.preheader
	movq	24(%rsp), %r15
	xorl	%r12d, %r12d
.LBB0_227:                              # %join.5.i.i.i.i.i.i.i
                                        # =>This Inner Loop Header: Depth=1
	leaq	(%r15,%r12), %rsi
	movq	%rbx, %r14
	subq	%r12, %r14
	movl	$1, %edi
	movq	%r14, %rdx
	callq	write@PLT
	testq	%rax, %rax
	js	.LBB0_232
# %bb.228:                              # %"text_runs::counted::Counted::put::<#cdc8ff12022c16a2>.exit.i.i.i.i.i.i"
                                        #   in Loop: Header=BB0_227 Depth=1
	cmpq	%r14, %rax
	cmovbq	%rax, %r14
	testq	%r14, %r14
	setne	%bpl
	je	.LBB0_233
# %bb.229:                              # %loop.2.i.i.i.i.i.i.i
                                        #   in Loop: Header=BB0_227 Depth=1
	addq	%r14, %r12
	cmpq	%rbx, %r12
	jb	.LBB0_227
# %bb.230:
	xorl	%ebx, %ebx
	jmp	.LBB0_234
.LBB0_231:                              # %join.3.i3.i.thread.i.i.i.i
	movb	$1, %bpl
	xorl	%ebx, %ebx
	jmp	.LBB0_235
.LBB0_232:                              # %"text_runs::counted::Counted::put::<#cdc8ff12022c16a2>.exit.thread.i.i.i.i.i.i"
	leaq	80(%rsp), %rdi
	callq	"std_io::io::error::last_error"
	movb	$1, %bl
	xorl	%ebp, %ebp
	jmp	.LBB0_234
.LBB0_233:
	movb	$1, %bl
.LBB0_234:                              # %"text_programs::programs::recode_stream::write_end::<#c4d8ddccf98b9b73>.exit.i.i.i.i.i"
	movq	%r13, %r12
.LBB0_235:                              # %"text_programs::programs::recode_stream::write_end::<#c4d8ddccf98b9b73>.exit.i.i.i.i.i"
	cmpq	$0, 40(%rsp)
	movq	8(%rsp), %r13                   # 8-byte Reload
	je	.LBB0_237
# %bb.236:                              # %then.1.i.i.i7.i.i.i.i.i
	movq	24(%rsp), %rdi
	callq	rattle_dealloc@PLT
.LBB0_237:                              # %"text_programs::programs::recode_stream::recode::<#357db40b776bb3e5>.exit.i.i.i.i"
	testb	%bpl, %bpl
	je	.LBB0_206
# %bb.238:                              # %join.5.i.i.i.i.i.i35.preheader.i.i
	cmpq	$0, 16(%r13)
	je	.LBB0_240
# %bb.239:                              # %then.1.i.i.i.i.i.i.i.i.i.i.i.i.i
	movq	(%r13), %rdi
	callq	rattle_dealloc@PLT
.LBB0_240:                              # %"core::mem::drop::<#7f8a914b9c4d666d>.exit.i.i.i.i.i.i.i.i"
	cmpq	$0, 40(%r13)
	je	.LBB0_242
# %bb.241:                              # %then.1.i.i.i.i.i.i.i.i.i.i.i.1.i.i
	movq	24(%r13), %rdi
	callq	rattle_dealloc@PLT
.LBB0_242:                              # %"core::mem::drop::<#7f8a914b9c4d666d>.exit.i.i.i.i.i.i.1.i.i"
	testq	%r12, %r12
	je	.LBB0_244
# %bb.243:                              # %then.1.i.i.i.i.i.i
	movq	%r13, %rdi
	callq	rattle_dealloc@PLT
.LBB0_244:
	xorl	%ebp, %ebp
	jmp	.LBB0_138
.LBB0_245:                              # %then.8.i.i.i.i.i.i.i
	cmpq	$0, 184(%rsp)                   # 8-byte Folded Reload
	je	.LBB0_247
# %bb.246:                              # %then.1.i.i.i.i.i.i.i.i.i.i.i
	movq	%rbp, %rdi
	callq	rattle_dealloc@PLT
.LBB0_247:                              # %"text_programs::std_alloc++string++String+Destruct::drop::<#e3b2a9d4d2861db8>.exit.i.i.i.i.i.i.i"
	cmpq	%r15, %r14
	je	.LBB0_253
# %bb.248:                              # %join.3.i.i.i.i12.i.i.i.i.i.i.i
	leaq	(%rbx,%r15), %rax
	leaq	(%rbx,%r15), %rcx
	incq	%rcx
	addq	%r13, %rax
	cmpq	%rax, %rcx
	jae	.LBB0_253
# %bb.249:                              # %join.5.i.i.i.i.i35.i.i.i.i.i.i.i.preheader
	movl	$1, %ebx
	jmp	.LBB0_251
.LBB0_250:                              # %"core::mem::drop::<#7f8a914b9c4d666d>.exit.i.i.i.i.i44.i.i.i.i.i.i.i"
                                        #   in Loop: Header=BB0_251 Depth=1
	incq	%rbx
	addq	$24, %r12
	cmpq	%rbx, %r13
	je	.LBB0_253
.LBB0_251:                              # %join.5.i.i.i.i.i35.i.i.i.i.i.i.i
                                        # =>This Inner Loop Header: Depth=1
	cmpq	$0, (%r12)
	je	.LBB0_250
# %bb.252:                              # %then.1.i.i.i.i.i.i.i.i.i.i42.i.i.i.i.i.i.i
                                        #   in Loop: Header=BB0_251 Depth=1
	movq	-16(%r12), %rdi
	callq	rattle_dealloc@PLT
	jmp	.LBB0_250
.LBB0_253:                              # %"std_alloc::vec::deque::VecDeque::clear::<#1ca9c52778c14e4e>.exit.i.i32.i.i.i.i.i.i.i"
	cmpq	$0, 8(%rsp)                     # 8-byte Folded Reload
	je	.LBB0_255
# %bb.254:                              # %then.1.i.i.i.i.i34.i.i.i.i.i.i.i
	movq	16(%rsp), %rdi                  # 8-byte Reload
	callq	rattle_dealloc@PLT
.LBB0_255:                              # %arm.2.i.i.i.i.i
	movq	240(%rsp), %rbx
	movq	248(%rsp), %r15
	movq	256(%rsp), %r14
	testq	%r15, %r15
	je	.LBB0_260
# %bb.256:                              # %join.5.i.i.i.i.i.i.i7.i.i.i.preheader
	leaq	16(%rbx), %r12
	jmp	.LBB0_258
.LBB0_257:                              # %"core::mem::drop::<#7f8a914b9c4d666d>.exit.i.i.i.i.i.i.i.i.i.i"
                                        #   in Loop: Header=BB0_258 Depth=1
	addq	$24, %r12
	decq	%r15
	je	.LBB0_260
.LBB0_258:                              # %join.5.i.i.i.i.i.i.i7.i.i.i
                                        # =>This Inner Loop Header: Depth=1
	cmpq	$0, (%r12)
	je	.LBB0_257
# %bb.259:                              # %then.1.i.i.i.i.i.i.i.i.i.i.i.i.i.i.i
                                        #   in Loop: Header=BB0_258 Depth=1
	movq	-16(%r12), %rdi
	callq	rattle_dealloc@PLT
	jmp	.LBB0_257
.LBB0_260:                              # %"std_alloc::vec::Vec::clear::<#1ca9c52778c14e4e>.exit.i.i.i.i.i.i"
	testq	%r14, %r14
	je	.LBB0_262
# %bb.261:                              # %then.1.i.i.i.i.i.i.i.i
	movq	%rbx, %rdi
	callq	rattle_dealloc@PLT
.LBB0_262:                              # %arm.6.i.i.i
	movl	$38, %r14d
	jmp	.LBB0_131
.Lfunc_end0:
	.size	"recode::main+start", .Lfunc_end0-"recode::main+start"
	.cfi_endproc
                                        # -- End function
	.section	".text.unlikely.std_alloc::vec::Vec::grow_amortized::<#5fdc5e19576447a7>","ax",@progbits
	.p2align	4                               # -- Begin function std_alloc::vec::Vec::grow_amortized::<#5fdc5e19576447a7>
	.type	"std_alloc::vec::Vec::grow_amortized::<#5fdc5e19576447a7>",@function
"std_alloc::vec::Vec::grow_amortized::<#5fdc5e19576447a7>": # @"std_alloc::vec::Vec::grow_amortized::<#5fdc5e19576447a7>"
	.cfi_startproc
# %bb.0:                                # %start
	movq	%rsi, %rax
	movq	8(%rdi), %rsi
	addq	%rsi, %rax
	jae	.LBB1_2
# %bb.1:
	xorl	%eax, %eax
                                        # kill: def $al killed $al killed $eax
	retq
.LBB1_2:                                # %join.3
	pushq	%r14
	.cfi_def_cfa_offset 16
	pushq	%rbx
	.cfi_def_cfa_offset 24
	pushq	%rax
	.cfi_def_cfa_offset 32
	.cfi_offset %rbx, -24
	.cfi_offset %r14, -16
	cmpq	$9, %rax
	movl	$8, %ebx
	cmovaeq	%rax, %rbx
	movq	16(%rdi), %rcx
	movq	%rcx, %rdx
	shrq	$62, %rdx
	leaq	(%rcx,%rcx), %rax
	cmpq	%rax, %rbx
	cmovaq	%rbx, %rax
	testq	%rdx, %rdx
	cmoveq	%rax, %rbx
	testq	%rbx, %rbx
	js	.LBB1_6
# %bb.3:                                # %join.3.i
	testq	%rcx, %rcx
	je	.LBB1_8
# %bb.4:                                # %then.1.i.i
	movq	%rdi, %r14
	movq	(%rdi), %rdi
	movl	$1, %ecx
	movq	%rbx, %rdx
	callq	rattle_realloc@PLT
	testb	$1, %al
	je	.LBB1_6
.LBB1_9:                                # %arm.5.i
	movq	%rdx, (%r14)
	movq	%rbx, 16(%r14)
	movb	$1, %al
	addq	$8, %rsp
	.cfi_def_cfa_offset 24
	popq	%rbx
	.cfi_def_cfa_offset 16
	popq	%r14
	.cfi_def_cfa_offset 8
	.cfi_restore %rbx
	.cfi_restore %r14
                                        # kill: def $al killed $al killed $eax
	retq
.LBB1_8:                                # %"std_alloc::vec::resize::<#5fdc5e19576447a7>.exit.i"
	.cfi_def_cfa_offset 32
	.cfi_offset %rbx, -24
	.cfi_offset %r14, -16
	movq	%rdi, %r14
	movl	$1, %esi
	movq	%rax, %rdi
	callq	rattle_alloc@PLT
	testb	$1, %al
	jne	.LBB1_9
.LBB1_6:
	xorl	%eax, %eax
	addq	$8, %rsp
	.cfi_def_cfa_offset 24
	popq	%rbx
	.cfi_def_cfa_offset 16
	popq	%r14
	.cfi_def_cfa_offset 8
	.cfi_restore %rbx
	.cfi_restore %r14
                                        # kill: def $al killed $al killed $eax
	retq
.Lfunc_end1:
	.size	"std_alloc::vec::Vec::grow_amortized::<#5fdc5e19576447a7>", .Lfunc_end1-"std_alloc::vec::Vec::grow_amortized::<#5fdc5e19576447a7>"
	.cfi_endproc
                                        # -- End function
	.section	.rodata.cst16,"aM",@progbits,16
	.p2align	4, 0x0                          # -- Begin function core::slice::words::skip_far::<#52f9edcae2f82f51>
.LCPI2_0:
	.zero	16,128
	.section	".text.core::slice::words::skip_far::<#52f9edcae2f82f51>","ax",@progbits
	.p2align	4
	.type	"core::slice::words::skip_far::<#52f9edcae2f82f51>",@function
"core::slice::words::skip_far::<#52f9edcae2f82f51>": # @"core::slice::words::skip_far::<#52f9edcae2f82f51>"
	.cfi_startproc
# %bb.0:                                # %start
	movq	%rsi, %rax
	subq	%rsi, %rdx
	cmpq	$64, %rdx
	jb	.LBB2_4
# %bb.1:                                # %then.3.lr.ph
	movq	(%rdi), %rcx
	.p2align	4
.LBB2_2:                                # %then.3
                                        # =>This Inner Loop Header: Depth=1
	movdqu	(%rcx,%rax), %xmm0
	movdqu	16(%rcx,%rax), %xmm1
	movdqu	32(%rcx,%rax), %xmm2
	por	%xmm0, %xmm2
	movdqu	48(%rcx,%rax), %xmm0
	por	%xmm1, %xmm0
	por	%xmm2, %xmm0
	ptest	.LCPI2_0(%rip), %xmm0
	jne	.LBB2_4
# %bb.3:                                # %join.5
                                        #   in Loop: Header=BB2_2 Depth=1
	addq	$64, %rax
	addq	$-64, %rdx
	cmpq	$63, %rdx
	ja	.LBB2_2
.LBB2_4:                                # %after.1
	retq
.Lfunc_end2:
	.size	"core::slice::words::skip_far::<#52f9edcae2f82f51>", .Lfunc_end2-"core::slice::words::skip_far::<#52f9edcae2f82f51>"
	.cfi_endproc
                                        # -- End function
	.section	".text.unlikely.std_alloc::vec::Vec::grow_amortized::<#1b8c52373d8cd3cb>","ax",@progbits
	.p2align	4                               # -- Begin function std_alloc::vec::Vec::grow_amortized::<#1b8c52373d8cd3cb>
	.type	"std_alloc::vec::Vec::grow_amortized::<#1b8c52373d8cd3cb>",@function
"std_alloc::vec::Vec::grow_amortized::<#1b8c52373d8cd3cb>": # @"std_alloc::vec::Vec::grow_amortized::<#1b8c52373d8cd3cb>"
	.cfi_startproc
# %bb.0:                                # %start
	movq	8(%rdi), %rax
	addq	%rax, %rsi
	jae	.LBB3_2
# %bb.1:
	xorl	%eax, %eax
                                        # kill: def $al killed $al killed $eax
	retq
.LBB3_2:                                # %join.3
	pushq	%r14
	.cfi_def_cfa_offset 16
	pushq	%rbx
	.cfi_def_cfa_offset 24
	pushq	%rax
	.cfi_def_cfa_offset 32
	.cfi_offset %rbx, -24
	.cfi_offset %r14, -16
	movq	16(%rdi), %rcx
	cmpq	$5, %rsi
	movl	$4, %ebx
	cmovaeq	%rsi, %rbx
	movq	%rcx, %rsi
	shrq	$62, %rsi
	leaq	(%rcx,%rcx), %rdx
	cmpq	%rdx, %rbx
	cmovaq	%rbx, %rdx
	testq	%rsi, %rsi
	cmoveq	%rdx, %rbx
	movabsq	$384307168202282325, %rsi       # imm = 0x555555555555555
	cmpq	%rsi, %rbx
	ja	.LBB3_6
# %bb.3:                                # %join.3.i
	testq	%rcx, %rcx
	je	.LBB3_8
# %bb.4:                                # %then.1.i.i
	movq	%rdi, %r14
	movq	(%rdi), %rdi
	shlq	$3, %rax
	leaq	(%rax,%rax,2), %rsi
	leaq	(,%rbx,8), %rax
	leaq	(%rax,%rax,2), %rdx
	movl	$8, %ecx
	callq	rattle_realloc@PLT
	testb	$1, %al
	je	.LBB3_6
.LBB3_9:                                # %arm.5.i
	movq	%rdx, (%r14)
	movq	%rbx, 16(%r14)
	movb	$1, %al
	addq	$8, %rsp
	.cfi_def_cfa_offset 24
	popq	%rbx
	.cfi_def_cfa_offset 16
	popq	%r14
	.cfi_def_cfa_offset 8
	.cfi_restore %rbx
	.cfi_restore %r14
                                        # kill: def $al killed $al killed $eax
	retq
.LBB3_8:                                # %"std_alloc::vec::resize::<#1b8c52373d8cd3cb>.exit.i"
	.cfi_def_cfa_offset 32
	.cfi_offset %rbx, -24
	.cfi_offset %r14, -16
	movq	%rdi, %r14
	shlq	$3, %rdx
	leaq	(%rdx,%rdx,2), %rdi
	movl	$8, %esi
	callq	rattle_alloc@PLT
	testb	$1, %al
	jne	.LBB3_9
.LBB3_6:
	xorl	%eax, %eax
	addq	$8, %rsp
	.cfi_def_cfa_offset 24
	popq	%rbx
	.cfi_def_cfa_offset 16
	popq	%r14
	.cfi_def_cfa_offset 8
	.cfi_restore %rbx
	.cfi_restore %r14
                                        # kill: def $al killed $al killed $eax
	retq
.Lfunc_end3:
	.size	"std_alloc::vec::Vec::grow_amortized::<#1b8c52373d8cd3cb>", .Lfunc_end3-"std_alloc::vec::Vec::grow_amortized::<#1b8c52373d8cd3cb>"
	.cfi_endproc
                                        # -- End function
	.section	".text.std_io::io::error::last_error","ax",@progbits
	.p2align	4                               # -- Begin function std_io::io::error::last_error
	.type	"std_io::io::error::last_error",@function
"std_io::io::error::last_error":        # @"std_io::io::error::last_error"
	.cfi_startproc
# %bb.0:                                # %start
	pushq	%rbx
	.cfi_def_cfa_offset 16
	.cfi_offset %rbx, -16
	movq	%rdi, %rbx
	callq	rattle_errno@PLT
                                        # kill: def $eax killed $eax def $rax
	movl	%eax, %ecx
	movb	$41, %dl
	testl	%eax, %eax
	js	.LBB4_40
# %bb.1:                                # %else.2.i.i
	decl	%eax
	cmpl	$121, %eax
	ja	.LBB4_39
# %bb.2:                                # %else.2.i.i
	movb	$1, %dl
	leaq	.LJTI4_0(%rip), %rsi
	movslq	(%rsi,%rax,4), %rax
	addq	%rsi, %rax
	notrack		jmpq	*%rax
.LBB4_23:                               # %arm.23.i.i.i
	movb	$36, %dl
	jmp	.LBB4_40
.LBB4_35:                               # %arm.36.i.i.i
	movb	$4, %dl
	jmp	.LBB4_40
.LBB4_32:                               # %arm.33.i.i.i
	movb	$7, %dl
	jmp	.LBB4_40
.LBB4_38:                               # %arm.39.i.i.i
	movb	$26, %dl
	jmp	.LBB4_40
.LBB4_36:                               # %arm.37.i.i.i
	movb	$39, %dl
	jmp	.LBB4_40
.LBB4_27:                               # %arm.28.i.i.i
	movb	$9, %dl
	jmp	.LBB4_40
.LBB4_26:                               # %arm.27.i.i.i
	movb	$8, %dl
	jmp	.LBB4_40
.LBB4_21:                               # %arm.21.i.i.i
	movb	$30, %dl
	jmp	.LBB4_40
.LBB4_17:                               # %arm.17.i.i.i
	movb	$25, %dl
	jmp	.LBB4_40
.LBB4_19:                               # %arm.19.i.i.i
	movb	$32, %dl
	jmp	.LBB4_40
.LBB4_22:                               # %arm.22.i.i.i
	movb	$33, %dl
	jmp	.LBB4_40
.LBB4_33:                               # %arm.34.i.i.i
	movb	$22, %dl
	jmp	.LBB4_40
.LBB4_10:                               # %arm.10.i.i.i
	movb	$31, %dl
	jmp	.LBB4_40
.LBB4_14:                               # %arm.14.i.i.i
	movb	$29, %dl
	jmp	.LBB4_40
.LBB4_25:                               # %arm.25.i.i.i
	movb	$18, %dl
	jmp	.LBB4_40
.LBB4_28:                               # %arm.29.i.i.i
	movb	$10, %dl
	jmp	.LBB4_40
.LBB4_8:                                # %arm.8.i.i.i
	movb	$28, %dl
	jmp	.LBB4_40
.LBB4_11:                               # %arm.11.i.i.i
	movb	$14, %dl
	jmp	.LBB4_40
.LBB4_9:                                # %arm.9.i.i.i
	movb	$12, %dl
	jmp	.LBB4_40
.LBB4_29:                               # %arm.30.i.i.i
	movb	$5, %dl
	jmp	.LBB4_40
.LBB4_31:                               # %arm.32.i.i.i
	movb	$3, %dl
	jmp	.LBB4_40
.LBB4_3:                                # %arm.2.i.i.i
	xorl	%edx, %edx
	jmp	.LBB4_40
.LBB4_6:                                # %arm.5.i.i.i
	movb	$13, %dl
	jmp	.LBB4_40
.LBB4_7:                                # %arm.6.i.i.i
	movb	$38, %dl
	jmp	.LBB4_40
.LBB4_20:                               # %arm.20.i.i.i
	movb	$11, %dl
	jmp	.LBB4_40
.LBB4_4:                                # %arm.3.i.i.i
	movb	$35, %dl
	jmp	.LBB4_40
.LBB4_5:                                # %arm.4.i.i.i
	movb	$34, %dl
	jmp	.LBB4_40
.LBB4_13:                               # %arm.13.i.i.i
	movb	$20, %dl
	jmp	.LBB4_40
.LBB4_12:                               # %arm.12.i.i.i
	movb	$15, %dl
	jmp	.LBB4_40
.LBB4_37:                               # %arm.38.i.i.i
	movb	$19, %dl
	jmp	.LBB4_40
.LBB4_39:                               # %default.40.i.i.i
	movb	$41, %dl
	jmp	.LBB4_40
.LBB4_24:                               # %arm.24.i.i.i
	movb	$16, %dl
	jmp	.LBB4_40
.LBB4_30:                               # %arm.31.i.i.i
	movb	$6, %dl
	jmp	.LBB4_40
.LBB4_15:                               # %arm.15.i.i.i
	movb	$27, %dl
	jmp	.LBB4_40
.LBB4_16:                               # %arm.16.i.i.i
	movb	$24, %dl
	jmp	.LBB4_40
.LBB4_34:                               # %arm.35.i.i.i
	movb	$2, %dl
	jmp	.LBB4_40
.LBB4_18:                               # %arm.18.i.i.i
	movb	$17, %dl
.LBB4_40:                               # %"std_io::io::error::Error::from_raw_os_error.exit"
	movb	$0, (%rbx)
	movb	%dl, 1(%rbx)
	movw	$0, 2(%rbx)
	movl	%ecx, 4(%rbx)
	xorps	%xmm0, %xmm0
	movups	%xmm0, 8(%rbx)
	movups	%xmm0, 24(%rbx)
	movups	%xmm0, 40(%rbx)
	movups	%xmm0, 56(%rbx)
	movups	%xmm0, 72(%rbx)
	popq	%rbx
	.cfi_def_cfa_offset 8
	retq
.Lfunc_end4:
	.size	"std_io::io::error::last_error", .Lfunc_end4-"std_io::io::error::last_error"
	.cfi_endproc
	.section	".rodata.std_io::io::error::last_error","a",@progbits
	.p2align	2, 0x0
.LJTI4_0:
	.long	.LBB4_40-.LJTI4_0
	.long	.LBB4_3-.LJTI4_0
	.long	.LBB4_39-.LJTI4_0
	.long	.LBB4_4-.LJTI4_0
	.long	.LBB4_39-.LJTI4_0
	.long	.LBB4_39-.LJTI4_0
	.long	.LBB4_5-.LJTI4_0
	.long	.LBB4_39-.LJTI4_0
	.long	.LBB4_39-.LJTI4_0
	.long	.LBB4_39-.LJTI4_0
	.long	.LBB4_6-.LJTI4_0
	.long	.LBB4_7-.LJTI4_0
	.long	.LBB4_40-.LJTI4_0
	.long	.LBB4_39-.LJTI4_0
	.long	.LBB4_39-.LJTI4_0
	.long	.LBB4_8-.LJTI4_0
	.long	.LBB4_9-.LJTI4_0
	.long	.LBB4_10-.LJTI4_0
	.long	.LBB4_39-.LJTI4_0
	.long	.LBB4_11-.LJTI4_0
	.long	.LBB4_12-.LJTI4_0
	.long	.LBB4_13-.LJTI4_0
	.long	.LBB4_39-.LJTI4_0
	.long	.LBB4_39-.LJTI4_0
	.long	.LBB4_39-.LJTI4_0
	.long	.LBB4_14-.LJTI4_0
	.long	.LBB4_15-.LJTI4_0
	.long	.LBB4_16-.LJTI4_0
	.long	.LBB4_17-.LJTI4_0
	.long	.LBB4_18-.LJTI4_0
	.long	.LBB4_19-.LJTI4_0
	.long	.LBB4_20-.LJTI4_0
	.long	.LBB4_39-.LJTI4_0
	.long	.LBB4_39-.LJTI4_0
	.long	.LBB4_21-.LJTI4_0
	.long	.LBB4_22-.LJTI4_0
	.long	.LBB4_39-.LJTI4_0
	.long	.LBB4_23-.LJTI4_0
	.long	.LBB4_24-.LJTI4_0
	.long	.LBB4_25-.LJTI4_0
	.long	.LBB4_39-.LJTI4_0
	.long	.LBB4_39-.LJTI4_0
	.long	.LBB4_39-.LJTI4_0
	.long	.LBB4_39-.LJTI4_0
	.long	.LBB4_39-.LJTI4_0
	.long	.LBB4_39-.LJTI4_0
	.long	.LBB4_39-.LJTI4_0
	.long	.LBB4_39-.LJTI4_0
	.long	.LBB4_39-.LJTI4_0
	.long	.LBB4_39-.LJTI4_0
	.long	.LBB4_39-.LJTI4_0
	.long	.LBB4_39-.LJTI4_0
	.long	.LBB4_39-.LJTI4_0
	.long	.LBB4_39-.LJTI4_0
	.long	.LBB4_39-.LJTI4_0
	.long	.LBB4_39-.LJTI4_0
	.long	.LBB4_39-.LJTI4_0
	.long	.LBB4_39-.LJTI4_0
	.long	.LBB4_39-.LJTI4_0
	.long	.LBB4_39-.LJTI4_0
	.long	.LBB4_39-.LJTI4_0
	.long	.LBB4_39-.LJTI4_0
	.long	.LBB4_39-.LJTI4_0
	.long	.LBB4_39-.LJTI4_0
	.long	.LBB4_39-.LJTI4_0
	.long	.LBB4_39-.LJTI4_0
	.long	.LBB4_39-.LJTI4_0
	.long	.LBB4_39-.LJTI4_0
	.long	.LBB4_39-.LJTI4_0
	.long	.LBB4_39-.LJTI4_0
	.long	.LBB4_39-.LJTI4_0
	.long	.LBB4_39-.LJTI4_0
	.long	.LBB4_39-.LJTI4_0
	.long	.LBB4_39-.LJTI4_0
	.long	.LBB4_39-.LJTI4_0
	.long	.LBB4_39-.LJTI4_0
	.long	.LBB4_39-.LJTI4_0
	.long	.LBB4_39-.LJTI4_0
	.long	.LBB4_39-.LJTI4_0
	.long	.LBB4_39-.LJTI4_0
	.long	.LBB4_39-.LJTI4_0
	.long	.LBB4_39-.LJTI4_0
	.long	.LBB4_39-.LJTI4_0
	.long	.LBB4_39-.LJTI4_0
	.long	.LBB4_39-.LJTI4_0
	.long	.LBB4_39-.LJTI4_0
	.long	.LBB4_39-.LJTI4_0
	.long	.LBB4_39-.LJTI4_0
	.long	.LBB4_39-.LJTI4_0
	.long	.LBB4_39-.LJTI4_0
	.long	.LBB4_39-.LJTI4_0
	.long	.LBB4_39-.LJTI4_0
	.long	.LBB4_39-.LJTI4_0
	.long	.LBB4_39-.LJTI4_0
	.long	.LBB4_23-.LJTI4_0
	.long	.LBB4_39-.LJTI4_0
	.long	.LBB4_39-.LJTI4_0
	.long	.LBB4_26-.LJTI4_0
	.long	.LBB4_27-.LJTI4_0
	.long	.LBB4_28-.LJTI4_0
	.long	.LBB4_29-.LJTI4_0
	.long	.LBB4_39-.LJTI4_0
	.long	.LBB4_30-.LJTI4_0
	.long	.LBB4_31-.LJTI4_0
	.long	.LBB4_39-.LJTI4_0
	.long	.LBB4_39-.LJTI4_0
	.long	.LBB4_32-.LJTI4_0
	.long	.LBB4_39-.LJTI4_0
	.long	.LBB4_39-.LJTI4_0
	.long	.LBB4_33-.LJTI4_0
	.long	.LBB4_34-.LJTI4_0
	.long	.LBB4_39-.LJTI4_0
	.long	.LBB4_35-.LJTI4_0
	.long	.LBB4_39-.LJTI4_0
	.long	.LBB4_36-.LJTI4_0
	.long	.LBB4_37-.LJTI4_0
	.long	.LBB4_39-.LJTI4_0
	.long	.LBB4_39-.LJTI4_0
	.long	.LBB4_39-.LJTI4_0
	.long	.LBB4_39-.LJTI4_0
	.long	.LBB4_39-.LJTI4_0
	.long	.LBB4_38-.LJTI4_0
                                        # -- End function
	.section	".text.recoding::recoder::Recoder::finish_held::<#e3b2a9d4d2861db8>","ax",@progbits
	.p2align	4                               # -- Begin function recoding::recoder::Recoder::finish_held::<#e3b2a9d4d2861db8>
	.type	"recoding::recoder::Recoder::finish_held::<#e3b2a9d4d2861db8>",@function
"recoding::recoder::Recoder::finish_held::<#e3b2a9d4d2861db8>": # @"recoding::recoder::Recoder::finish_held::<#e3b2a9d4d2861db8>"
	.cfi_startproc
# %bb.0:                                # %start
	pushq	%rbp
	.cfi_def_cfa_offset 16
	pushq	%r15
	.cfi_def_cfa_offset 24
	pushq	%r14
	.cfi_def_cfa_offset 32
	pushq	%r13
	.cfi_def_cfa_offset 40
	pushq	%r12
	.cfi_def_cfa_offset 48
	pushq	%rbx
	.cfi_def_cfa_offset 56
	subq	$136, %rsp
	.cfi_def_cfa_offset 192
	.cfi_offset %rbx, -56
	.cfi_offset %r12, -48
	.cfi_offset %r13, -40
	.cfi_offset %r14, -32
	.cfi_offset %r15, -24
	.cfi_offset %rbp, -16
	movq	%rdx, %r14
	movq	(%rsi), %r15
	movq	24(%rsi), %rax
	movq	%rax, 16(%rsp)
	movups	8(%rsi), %xmm0
	movaps	%xmm0, (%rsp)
	leaq	(%r15,%r15,2), %rsi
	movq	16(%rdx), %rax
	subq	8(%rdx), %rax
	cmpq	%rax, %rsi
	ja	.LBB5_1
.LBB5_3:                                # %join.4
	movq	%rdi, 24(%rsp)                  # 8-byte Spill
	movq	%r15, 32(%rsp)
	movaps	(%rsp), %xmm0
	movups	%xmm0, 40(%rsp)
	movq	16(%rsp), %rax
	movq	%rax, 56(%rsp)
	testq	%r15, %r15
	je	.LBB5_11
# %bb.4:                                # %join.5.lr.ph.i.i
	movzbl	48(%rsp), %ebp
	movzbl	49(%rsp), %ebx
	cmpb	$1, %bpl
	movl	$2, %r12d
	sbbq	$0, %r12
	.p2align	4
.LBB5_5:                                # %join.5.i.i
                                        # =>This Inner Loop Header: Depth=1
	xorps	%xmm0, %xmm0
	movaps	%xmm0, 64(%rsp)
	movaps	%xmm0, 80(%rsp)
	movaps	%xmm0, 96(%rsp)
	movaps	%xmm0, 112(%rsp)
	movq	$0, 128(%rsp)
	movzbl	%bpl, %edx
	leaq	64(%rsp), %rdi
	leaq	96(%rsp), %rsi
	leaq	40(%rsp), %rcx
	movq	%r15, %r8
	callq	"recoding::form_calls::next_of"
	cmpb	$1, 64(%rsp)
	jne	.LBB5_7
# %bb.6:                                # %arm.1.i.i.i
                                        #   in Loop: Header=BB5_5 Depth=1
	movzbl	72(%rsp), %eax
	movl	76(%rsp), %edx
	movq	80(%rsp), %r13
	jmp	.LBB5_8
	.p2align	4
.LBB5_7:                                # %arm.2.i.i.i
                                        #   in Loop: Header=BB5_5 Depth=1
	cmpq	%r12, %r15
	movq	%r12, %r13
	cmovbq	%r15, %r13
	movl	$65533, %edx                    # imm = 0xFFFD
	movb	$1, %al
.LBB5_8:                                # %"recoding::form_calls::last_of.exit.i.i"
                                        #   in Loop: Header=BB5_5 Depth=1
	movzbl	%bl, %edi
	movzbl	%al, %esi
	movq	%r14, %rcx
	callq	"recoding::form_calls::put_shown::<#345d457c2768aa28>"
	testb	%al, %al
	je	.LBB5_11
# %bb.9:                                # %"recoding::form_calls::last_of.exit.i.i"
                                        #   in Loop: Header=BB5_5 Depth=1
	cmpq	%r13, %r15
	jbe	.LBB5_11
# %bb.10:                               # %"recoding::held::Held::drop_front.exit.i.i"
                                        #   in Loop: Header=BB5_5 Depth=1
	leaq	32(%rsp), %rdi
	movq	%r13, %rsi
	callq	"recoding::held::Held::shift_joined"
	movq	32(%rsp), %r15
	testq	%r15, %r15
	jne	.LBB5_5
.LBB5_11:                               # %"recoding::recoder::Recoder::append_last::<#e3b2a9d4d2861db8>.exit"
	movq	24(%rsp), %rax                  # 8-byte Reload
	movb	$0, (%rax)
	xorps	%xmm0, %xmm0
	movups	%xmm0, 8(%rax)
	movups	%xmm0, 24(%rax)
.LBB5_12:                               # %"recoding::recoder::Recoder::append_last::<#e3b2a9d4d2861db8>.exit"
	addq	$136, %rsp
	.cfi_def_cfa_offset 56
	popq	%rbx
	.cfi_def_cfa_offset 48
	popq	%r12
	.cfi_def_cfa_offset 40
	popq	%r13
	.cfi_def_cfa_offset 32
	popq	%r14
	.cfi_def_cfa_offset 24
	popq	%r15
	.cfi_def_cfa_offset 16
	popq	%rbp
	.cfi_def_cfa_offset 8
	retq
.LBB5_1:                                # %"std_alloc::vec::Vec::grow::<#5fdc5e19576447a7>.exit.i"
	.cfi_def_cfa_offset 192
	movq	%rdi, %rbx
	movq	%r14, %rdi
	callq	"std_alloc::vec::Vec::grow_amortized::<#5fdc5e19576447a7>"
	movq	%rbx, %rdi
	testb	%al, %al
	jne	.LBB5_3
# %bb.2:                                # %arm.1
	movb	$1, (%rdi)
	movq	%r15, 8(%rdi)
	movaps	(%rsp), %xmm0
	movups	%xmm0, 16(%rdi)
	movq	16(%rsp), %rax
	movq	%rax, 32(%rdi)
	jmp	.LBB5_12
.Lfunc_end5:
	.size	"recoding::recoder::Recoder::finish_held::<#e3b2a9d4d2861db8>", .Lfunc_end5-"recoding::recoder::Recoder::finish_held::<#e3b2a9d4d2861db8>"
	.cfi_endproc
                                        # -- End function
	.section	".text.recoding::form_calls::next_of","ax",@progbits
	.p2align	4                               # -- Begin function recoding::form_calls::next_of
	.type	"recoding::form_calls::next_of",@function
"recoding::form_calls::next_of":        # @"recoding::form_calls::next_of"
	.cfi_startproc
# %bb.0:                                # %start
	pushq	%rbp
	.cfi_def_cfa_offset 16
	pushq	%r15
	.cfi_def_cfa_offset 24
	pushq	%r14
	.cfi_def_cfa_offset 32
	pushq	%r13
	.cfi_def_cfa_offset 40
	pushq	%r12
	.cfi_def_cfa_offset 48
	pushq	%rbx
	.cfi_def_cfa_offset 56
	subq	$40, %rsp
	.cfi_def_cfa_offset 96
	.cfi_offset %rbx, -56
	.cfi_offset %r12, -48
	.cfi_offset %r13, -40
	.cfi_offset %r14, -32
	.cfi_offset %r15, -24
	.cfi_offset %rbp, -16
	movzbl	(%rsi), %ebp
	movq	16(%rsi), %r14
	cmpb	$2, %dl
	je	.LBB6_7
# %bb.1:                                # %start
	movzbl	%dl, %eax
	cmpl	$1, %eax
	jne	.LBB6_9
# %bb.2:                                # %arm.2
	cmpq	$2, %r8
	jb	.LBB6_8
# %bb.3:                                # %join.3.i347
	movzbl	(%rcx), %ebx
	movzbl	1(%rcx), %eax
	shll	$8, %eax
	orl	%eax, %ebx
	andl	$64512, %eax                    # imm = 0xFC00
	cmpl	$55296, %eax                    # imm = 0xD800
	jne	.LBB6_13
# %bb.4:                                # %join.6.i367
	cmpq	$4, %r8
	jb	.LBB6_8
# %bb.5:                                # %join.15.i452
	movzbl	3(%rcx), %eax
	movl	%eax, %edx
	andl	$-4, %edx
	cmpl	$220, %edx
	jne	.LBB6_14
# %bb.6:                                # %arm.14.i
	movzbl	2(%rcx), %ecx
	jmp	.LBB6_29
.LBB6_7:                                # %arm.3
	cmpq	$2, %r8
	jae	.LBB6_12
.LBB6_8:
	xorl	%r12d, %r12d
	xorl	%r15d, %r15d
	xorl	%ebx, %ebx
	xorl	%eax, %eax
	xorl	%ecx, %ecx
	jmp	.LBB6_70
.LBB6_9:                                # %start
	movq	8(%rsi), %r10
	cmpq	$4, %r8
	jb	.LBB6_15
# %bb.10:                               # %join.3.i41
	movzbl	(%rcx), %ebx
	testb	%bl, %bl
	js	.LBB6_22
# %bb.11:                               # %"utf_lanes::text_front::front_of_text.exit.thread"
	movb	$1, %r15b
	movl	$1, %r12d
	xorl	%ecx, %ecx
	jmp	.LBB6_20
.LBB6_12:                               # %join.3.i541
	movzbl	(%rcx), %eax
	movzbl	1(%rcx), %ebx
	shll	$8, %eax
	orl	%eax, %ebx
	andl	$64512, %eax                    # imm = 0xFC00
	cmpl	$55296, %eax                    # imm = 0xD800
	je	.LBB6_26
.LBB6_13:                               # %join.3.i347
	cmpl	$56320, %eax                    # imm = 0xDC00
	jne	.LBB6_21
.LBB6_14:                               # %arm.3.i643
	cmpl	$2, %ebp
	setne	%al
	testq	%r14, %r14
	setne	%r15b
	xorl	%ecx, %ecx
	orb	%al, %r15b
	movl	$65533, %ebx                    # imm = 0xFFFD
	cmovel	%ecx, %ebx
	movl	$2, %eax
	movl	$1, %r12d
	jmp	.LBB6_69
.LBB6_15:                               # %join.3.i
	movq	%rdi, 8(%rsp)                   # 8-byte Spill
	testq	%r8, %r8
	je	.LBB6_43
# %bb.16:                               # %join.3.i116
	movzbl	(%rcx), %r13d
	leaq	.Lstatic.8(%rip), %r12
	movzbl	(%r13,%r12), %eax
	leaq	.Lstatic.9(%rip), %r15
	movzbl	(%rax,%r15), %ebx
	cmpq	$12, %rbx
	jbe	.LBB6_38
# %bb.17:                               # %join.6.i121
	cmpl	$13, %ebx
	movq	8(%rsp), %rdi                   # 8-byte Reload
	jne	.LBB6_60
# %bb.18:                               # %join.9.i123
	testb	%r13b, %r13b
	js	.LBB6_71
# %bb.19:                               # %"utf_chars::codes::utf8::decode_start.exit.thread940"
	movb	$1, %r15b
	movl	$1, %r12d
	xorl	%ecx, %ecx
	movl	%r13d, %ebx
.LBB6_20:                               # %join.8
	movl	$1, %eax
	jmp	.LBB6_70
.LBB6_21:                               # %arm.7.i
	movl	$2, %eax
	jmp	.LBB6_31
.LBB6_22:                               # %join.6.i
	movzbl	1(%rcx), %eax
	cmpb	$-32, %bl
	jae	.LBB6_32
# %bb.23:                               # %"utf_lanes::text_front::front_of_text.exit"
	cmpb	$-62, %bl
	jb	.LBB6_50
# %bb.24:                               # %"utf_lanes::text_front::front_of_text.exit"
	xorl	$128, %eax
	cmpb	$64, %al
	jae	.LBB6_50
# %bb.25:
	shll	$6, %ebx
	xorl	%ecx, %ecx
	addl	%eax, %ebx
	addl	$-12288, %ebx                   # imm = 0xD000
	movl	$2, %eax
	movb	$1, %r15b
	movl	$1, %r12d
	jmp	.LBB6_70
.LBB6_26:                               # %join.6.i575
	cmpq	$4, %r8
	jb	.LBB6_8
# %bb.27:                               # %join.15.i74.i
	movzbl	2(%rcx), %eax
	movl	%eax, %edx
	andl	$-4, %edx
	cmpl	$220, %edx
	jne	.LBB6_14
# %bb.28:                               # %arm.14.i604
	movzbl	3(%rcx), %ecx
.LBB6_29:                               # %join.8
	andl	$1023, %ebx                     # imm = 0x3FF
	shll	$10, %ebx
	andl	$3, %eax
	shll	$8, %eax
	orl	%ecx, %eax
	addl	%eax, %ebx
	addl	$65536, %ebx                    # imm = 0x10000
.LBB6_30:                               # %join.8
	movl	$4, %eax
.LBB6_31:                               # %join.8
	movb	$1, %r15b
	movl	$1, %r12d
	xorl	%ecx, %ecx
	jmp	.LBB6_70
.LBB6_32:                               # %join.9.i
	cmpb	$-65, %al
	jg	.LBB6_50
# %bb.33:                               # %join.12.i
	movl	%ebx, %edx
	andl	$15, %ebx
	andl	$63, %eax
	shll	$6, %ebx
	orl	%eax, %ebx
	cmpb	$-17, %dl
	ja	.LBB6_45
# %bb.34:                               # %then.13.i
	movl	%ebx, %eax
	andl	$-32, %eax
	cmpl	$864, %eax                      # imm = 0x360
	je	.LBB6_50
# %bb.35:                               # %join.3.i73
	movzbl	2(%rcx), %edx
	cmpb	$-65, %dl
	jg	.LBB6_50
# %bb.36:                               # %join.3.i73
	cmpl	$32, %ebx
	jb	.LBB6_50
# %bb.37:                               # %join.9.i77
	shll	$6, %ebx
	andl	$63, %edx
	orl	%ebx, %edx
	movl	$3, %eax
	jmp	.LBB6_49
.LBB6_38:                               # %then.4.i133
	movl	%ebx, %edi
	movq	%rcx, 32(%rsp)                  # 8-byte Spill
	movq	%r8, 24(%rsp)                   # 8-byte Spill
	movq	%r10, 16(%rsp)                  # 8-byte Spill
	callq	"utf_chars::codes::utf8::missing_after"
	movq	16(%rsp), %r10                  # 8-byte Reload
	movq	24(%rsp), %r8                   # 8-byte Reload
	movq	32(%rsp), %rcx                  # 8-byte Reload
	cmpq	%rax, %r8
	jbe	.LBB6_43
# %bb.39:                               # %join.3.i151
	movzbl	1(%rcx), %edx
	movzbl	(%rdx,%r12), %eax
	shll	$4, %ebx
	addq	%r15, %rbx
	movzbl	(%rax,%rbx), %eax
	cmpq	$12, %rax
	ja	.LBB6_56
# %bb.40:                               # %then.1.i179
	movzbl	2(%rcx), %esi
	movzbl	(%rsi,%r12), %edi
	shll	$4, %eax
	addq	%r15, %rax
	movzbl	(%rdi,%rax), %eax
	cmpq	$12, %rax
	movq	8(%rsp), %rdi                   # 8-byte Reload
	ja	.LBB6_58
# %bb.41:                               # %then.1.i218
	movzbl	3(%rcx), %ebx
	movzbl	(%rbx,%r12), %r9d
	shll	$4, %eax
	addq	%rax, %r15
	cmpb	$13, (%r9,%r15)
	jne	.LBB6_60
# %bb.42:                               # %join.3.i236
	andl	$7, %r13d
	andl	$63, %edx
	shll	$12, %r13d
	shll	$6, %edx
	orl	%r13d, %edx
	andl	$63, %esi
	orl	%edx, %esi
	shll	$6, %esi
	andl	$63, %ebx
	orl	%esi, %ebx
	jmp	.LBB6_30
.LBB6_43:                               # %arm.10.i
	movq	%r10, %r12
	movq	%rcx, %rbx
	movq	%rcx, %rdi
	movq	%r8, %r15
	movq	%r8, %rsi
	callq	"recoding::next_scalar::is_front_of_code"
	testb	%al, %al
	je	.LBB6_53
# %bb.44:
	xorl	%r12d, %r12d
	xorl	%r15d, %r15d
	xorl	%ebx, %ebx
	xorl	%eax, %eax
	xorl	%ecx, %ecx
	movq	8(%rsp), %rdi                   # 8-byte Reload
	jmp	.LBB6_70
.LBB6_45:                               # %else.14.i
	leal	-272(%rbx), %eax
	cmpl	$-256, %eax
	jb	.LBB6_50
# %bb.46:                               # %after.1.i
	movzbl	2(%rcx), %edx
	cmpb	$-65, %dl
	jg	.LBB6_50
# %bb.47:                               # %else.14.i98
	movzbl	3(%rcx), %eax
	cmpb	$-65, %al
	jg	.LBB6_50
# %bb.48:                               # %after.11.i
	andl	$63, %edx
	andl	$63, %eax
	shll	$12, %ebx
	shll	$6, %edx
	orl	%ebx, %edx
	orl	%eax, %edx
	movl	$4, %eax
.LBB6_49:                               # %join.8
	movb	$1, %r15b
	movl	$1, %r12d
	xorl	%ecx, %ecx
	movl	%edx, %ebx
	jmp	.LBB6_70
.LBB6_50:                               # %arm.5.i
	cmpl	$2, %ebp
	je	.LBB6_64
# %bb.51:                               # %arm.5.i
	movl	$65533, %ebx                    # imm = 0xFFFD
	movb	$1, %r15b
	movl	$1, %r12d
	cmpl	$1, %ebp
	jne	.LBB6_68
# %bb.52:                               # %arm.3.i
	movq	%rdi, %r14
	movq	%rcx, %rdi
	movq	%r8, %rsi
	callq	"recoding::subparts::subpart_len"
	movq	%r14, %rdi
	movq	%rax, %rcx
	jmp	.LBB6_70
.LBB6_53:                               # %join.14.i
	cmpl	$2, %ebp
	movq	8(%rsp), %rdi                   # 8-byte Reload
	movq	%rbx, %rcx
	movq	%r12, %r10
	je	.LBB6_64
# %bb.54:                               # %join.14.i
	movq	%r15, %rsi
	movl	$65533, %ebx                    # imm = 0xFFFD
	movb	$1, %r15b
	movl	$1, %r12d
	cmpl	$1, %ebp
	jne	.LBB6_68
# %bb.55:                               # %arm.3.i312
	movq	%rcx, %rdi
	jmp	.LBB6_63
.LBB6_56:                               # %join.3.i166
	cmpl	$13, %eax
	movq	8(%rsp), %rdi                   # 8-byte Reload
	jne	.LBB6_60
# %bb.57:                               # %"utf_chars::codes::utf8::decode_start.exit.thread958"
	andl	$31, %r13d
	shll	$6, %r13d
	andl	$63, %edx
	orl	%r13d, %edx
	movl	$2, %eax
	movb	$1, %r15b
	movl	$1, %r12d
	xorl	%ecx, %ecx
	movl	%edx, %ebx
	jmp	.LBB6_70
.LBB6_58:                               # %join.3.i199
	cmpl	$13, %eax
	jne	.LBB6_60
# %bb.59:                               # %join.6.i201
	andl	$15, %r13d
	andl	$63, %edx
	shll	$12, %r13d
	shll	$6, %edx
	orl	%r13d, %edx
	andl	$63, %esi
	orl	%edx, %esi
	movl	$3, %eax
	movb	$1, %r15b
	movl	$1, %r12d
	xorl	%ecx, %ecx
	movl	%esi, %ebx
	jmp	.LBB6_70
.LBB6_60:                               # %arm.9.i
	cmpl	$2, %ebp
	je	.LBB6_64
# %bb.61:                               # %arm.9.i
	movl	$65533, %ebx                    # imm = 0xFFFD
	movb	$1, %r15b
	movl	$1, %r12d
	cmpl	$1, %ebp
	jne	.LBB6_68
# %bb.62:                               # %arm.3.i304
	movq	%rcx, %rdi
	movq	%r8, %rsi
.LBB6_63:                               # %join.8
	callq	"recoding::subparts::subpart_len"
	movq	8(%rsp), %rdi                   # 8-byte Reload
	movq	%rax, %rcx
	jmp	.LBB6_70
.LBB6_64:                               # %arm.2.i674
	movzbl	(%rcx), %eax
	andl	$127, %eax
	xorl	%r15d, %r15d
	movl	$1, %r12d
	cmpq	%rax, %r14
	jbe	.LBB6_67
# %bb.65:                               # %arm.1.i688
	movl	(%r10,%rax,4), %eax
	cmpl	$65536, %eax                    # imm = 0x10000
	setb	%cl
	leal	-57344(%rax), %edx
	cmpl	$-2048, %edx                    # imm = 0xF800
	setb	%r15b
	xorl	%ebx, %ebx
	andb	%cl, %r15b
	cmovnel	%eax, %ebx
	jmp	.LBB6_68
.LBB6_67:
	xorl	%ebx, %ebx
.LBB6_68:                               # %join.8
	movl	$1, %eax
.LBB6_69:                               # %join.8
	movl	$1, %ecx
.LBB6_70:                               # %join.8
	movzbl	%r15b, %edx
	movq	%r12, (%rdi)
	movl	%edx, 8(%rdi)
	movl	%ebx, 12(%rdi)
	movq	%rax, 16(%rdi)
	movq	%rcx, 24(%rdi)
	addq	$40, %rsp
	.cfi_def_cfa_offset 56
	popq	%rbx
	.cfi_def_cfa_offset 48
	popq	%r12
	.cfi_def_cfa_offset 40
	popq	%r13
	.cfi_def_cfa_offset 32
	popq	%r14
	.cfi_def_cfa_offset 24
	popq	%r15
	.cfi_def_cfa_offset 16
	popq	%rbp
	.cfi_def_cfa_offset 8
	retq
.LBB6_71:                               # %join.4.i
	.cfi_def_cfa_offset 96
	ud2
.Lfunc_end6:
	.size	"recoding::form_calls::next_of", .Lfunc_end6-"recoding::form_calls::next_of"
	.cfi_endproc
                                        # -- End function
	.section	".text.unlikely.utf_chars::codes::utf8::missing_after","ax",@progbits
	.p2align	4                               # -- Begin function utf_chars::codes::utf8::missing_after
	.type	"utf_chars::codes::utf8::missing_after",@function
"utf_chars::codes::utf8::missing_after": # @"utf_chars::codes::utf8::missing_after"
	.cfi_startproc
# %bb.0:                                # %start
	movzbl	%dil, %eax
	leaq	".Lswitch.table.utf_chars::codes::utf8::missing_after"(%rip), %rcx
	movq	(%rcx,%rax,8), %rax
	retq
.Lfunc_end7:
	.size	"utf_chars::codes::utf8::missing_after", .Lfunc_end7-"utf_chars::codes::utf8::missing_after"
	.cfi_endproc
                                        # -- End function
	.section	".text.unlikely.recoding::next_scalar::is_front_of_code","ax",@progbits
	.p2align	4                               # -- Begin function recoding::next_scalar::is_front_of_code
	.type	"recoding::next_scalar::is_front_of_code",@function
"recoding::next_scalar::is_front_of_code": # @"recoding::next_scalar::is_front_of_code"
	.cfi_startproc
# %bb.0:                                # %start
	movb	$1, %al
	cmpq	$1, %rsi
	ja	.LBB8_1
.LBB8_11:                               # %common.ret
                                        # kill: def $al killed $al killed $eax
	retq
.LBB8_1:                                # %join.3
	movzbl	1(%rdi), %ecx
	cmpb	$-65, %cl
	jg	.LBB8_5
# %bb.2:                                # %then.1.i
	movzbl	(%rdi), %edx
	addl	$-224, %edx
	cmpl	$20, %edx
	ja	.LBB8_9
# %bb.3:                                # %then.1.i
	leaq	.LJTI8_0(%rip), %r8
	movslq	(%r8,%rdx,4), %rdx
	addq	%r8, %rdx
	notrack		jmpq	*%rdx
.LBB8_4:                                # %arm.4.i
	cmpb	$-97, %cl
	ja	.LBB8_9
.LBB8_5:
	xorl	%eax, %eax
                                        # kill: def $al killed $al killed $eax
	retq
.LBB8_6:                                # %arm.6.i
	cmpb	$-113, %cl
	jbe	.LBB8_5
.LBB8_9:                                # %then.4
	cmpq	$2, %rsi
	je	.LBB8_11
# %bb.10:                               # %else.8
	cmpb	$-64, 2(%rdi)
	setl	%al
                                        # kill: def $al killed $al killed $eax
	retq
.LBB8_7:                                # %arm.5.i
	cmpb	$-96, %cl
	jae	.LBB8_5
	jmp	.LBB8_9
.LBB8_8:                                # %"recoding::subparts::may_be_second.exit"
	cmpb	$-113, %cl
	ja	.LBB8_5
	jmp	.LBB8_9
.Lfunc_end8:
	.size	"recoding::next_scalar::is_front_of_code", .Lfunc_end8-"recoding::next_scalar::is_front_of_code"
	.cfi_endproc
	.section	".rodata.unlikely.recoding::next_scalar::is_front_of_code","a",@progbits
	.p2align	2, 0x0
.LJTI8_0:
	.long	.LBB8_4-.LJTI8_0
	.long	.LBB8_9-.LJTI8_0
	.long	.LBB8_9-.LJTI8_0
	.long	.LBB8_9-.LJTI8_0
	.long	.LBB8_9-.LJTI8_0
	.long	.LBB8_9-.LJTI8_0
	.long	.LBB8_9-.LJTI8_0
	.long	.LBB8_9-.LJTI8_0
	.long	.LBB8_9-.LJTI8_0
	.long	.LBB8_9-.LJTI8_0
	.long	.LBB8_9-.LJTI8_0
	.long	.LBB8_9-.LJTI8_0
	.long	.LBB8_9-.LJTI8_0
	.long	.LBB8_7-.LJTI8_0
	.long	.LBB8_9-.LJTI8_0
	.long	.LBB8_9-.LJTI8_0
	.long	.LBB8_6-.LJTI8_0
	.long	.LBB8_9-.LJTI8_0
	.long	.LBB8_9-.LJTI8_0
	.long	.LBB8_9-.LJTI8_0
	.long	.LBB8_8-.LJTI8_0
                                        # -- End function
	.section	".text.recoding::subparts::subpart_len","ax",@progbits
	.p2align	4                               # -- Begin function recoding::subparts::subpart_len
	.type	"recoding::subparts::subpart_len",@function
"recoding::subparts::subpart_len":      # @"recoding::subparts::subpart_len"
	.cfi_startproc
# %bb.0:                                # %start
	movl	$1, %eax
	cmpq	$2, %rsi
	jb	.LBB9_8
# %bb.1:                                # %join.3.i
	movzbl	(%rdi), %ecx
	leal	32(%rcx), %edx
	cmpb	$20, %dl
	ja	.LBB9_8
# %bb.2:                                # %then.7.i
	movzbl	1(%rdi), %edx
	cmpb	$-65, %dl
	jg	.LBB9_8
# %bb.3:                                # %then.1.i.i
	addl	$-224, %ecx
	cmpl	$20, %ecx
	ja	.LBB9_10
# %bb.4:                                # %then.1.i.i
	leaq	.LJTI9_0(%rip), %r8
	movslq	(%r8,%rcx,4), %rcx
	addq	%r8, %rcx
	notrack		jmpq	*%rcx
.LBB9_9:                                # %arm.4.i.i
	cmpb	$-97, %dl
	ja	.LBB9_10
	jmp	.LBB9_8
.LBB9_7:                                # %"recoding::subparts::begins_long_code.exit"
	cmpb	$-113, %dl
	ja	.LBB9_10
	jmp	.LBB9_8
.LBB9_5:                                # %arm.5.i.i
	cmpb	$-96, %dl
	jb	.LBB9_10
	jmp	.LBB9_8
.LBB9_6:                                # %arm.7.i.i
	cmpb	$-112, %dl
	jae	.LBB9_8
.LBB9_10:                               # %join.3
	movl	$2, %eax
	cmpq	$2, %rsi
	jne	.LBB9_11
.LBB9_8:                                # %common.ret
	retq
.LBB9_11:                               # %then.1.i5
	xorl	%eax, %eax
	cmpb	$-64, 2(%rdi)
	setl	%al
	orq	$2, %rax
	retq
.Lfunc_end9:
	.size	"recoding::subparts::subpart_len", .Lfunc_end9-"recoding::subparts::subpart_len"
	.cfi_endproc
	.section	".rodata.recoding::subparts::subpart_len","a",@progbits
	.p2align	2, 0x0
.LJTI9_0:
	.long	.LBB9_9-.LJTI9_0
	.long	.LBB9_10-.LJTI9_0
	.long	.LBB9_10-.LJTI9_0
	.long	.LBB9_10-.LJTI9_0
	.long	.LBB9_10-.LJTI9_0
	.long	.LBB9_10-.LJTI9_0
	.long	.LBB9_10-.LJTI9_0
	.long	.LBB9_10-.LJTI9_0
	.long	.LBB9_10-.LJTI9_0
	.long	.LBB9_10-.LJTI9_0
	.long	.LBB9_10-.LJTI9_0
	.long	.LBB9_10-.LJTI9_0
	.long	.LBB9_10-.LJTI9_0
	.long	.LBB9_5-.LJTI9_0
	.long	.LBB9_10-.LJTI9_0
	.long	.LBB9_10-.LJTI9_0
	.long	.LBB9_7-.LJTI9_0
	.long	.LBB9_10-.LJTI9_0
	.long	.LBB9_10-.LJTI9_0
	.long	.LBB9_10-.LJTI9_0
	.long	.LBB9_6-.LJTI9_0
                                        # -- End function
	.section	".text.recoding::form_calls::put_shown::<#345d457c2768aa28>","ax",@progbits
	.p2align	4                               # -- Begin function recoding::form_calls::put_shown::<#345d457c2768aa28>
	.type	"recoding::form_calls::put_shown::<#345d457c2768aa28>",@function
"recoding::form_calls::put_shown::<#345d457c2768aa28>": # @"recoding::form_calls::put_shown::<#345d457c2768aa28>"
	.cfi_startproc
# %bb.0:                                # %start
	pushq	%rbp
	.cfi_def_cfa_offset 16
	pushq	%rbx
	.cfi_def_cfa_offset 24
	pushq	%rax
	.cfi_def_cfa_offset 32
	.cfi_offset %rbx, -24
	.cfi_offset %rbp, -16
                                        # kill: def $edx killed $edx def $rdx
	cmpb	$2, %dil
	je	.LBB10_6
# %bb.1:                                # %start
	movzbl	%dil, %eax
	cmpl	$1, %eax
	jne	.LBB10_10
# %bb.2:                                # %arm.2
	movb	$1, %al
	cmpb	$1, %sil
	jne	.LBB10_14
# %bb.3:                                # %arm.1.i.i6
	movq	8(%rcx), %rsi
	movq	16(%rcx), %rdi
	subq	%rsi, %rdi
	cmpq	$4, %rdi
	jb	.LBB10_15
# %bb.4:                                # %then.1.i.i.i10
	cmpl	$65535, %edx                    # imm = 0xFFFF
	ja	.LBB10_18
# %bb.5:                                # %arm.1.i.i.i
	movq	(%rcx), %rdi
	movb	%dl, (%rdi,%rsi)
	movq	(%rcx), %rdi
	movb	%dh, 1(%rdi,%rsi)
	jmp	.LBB10_23
.LBB10_6:                               # %arm.3
	movb	$1, %al
	cmpb	$1, %sil
	jne	.LBB10_14
# %bb.7:                                # %arm.1.i.i14
	movq	8(%rcx), %rsi
	movq	16(%rcx), %rdi
	subq	%rsi, %rdi
	cmpq	$4, %rdi
	jb	.LBB10_16
# %bb.8:                                # %then.1.i.i.i20
	cmpl	$65535, %edx                    # imm = 0xFFFF
	ja	.LBB10_19
# %bb.9:                                # %arm.1.i.i.i24
	movq	(%rcx), %rdi
	movb	%dh, (%rdi,%rsi)
	movq	(%rcx), %rdi
	movb	%dl, 1(%rdi,%rsi)
	jmp	.LBB10_23
.LBB10_10:                              # %arm.1
	movb	$1, %al
	cmpb	$1, %sil
	jne	.LBB10_14
# %bb.11:                               # %arm.1.i.i
	movq	8(%rcx), %rsi
	movq	16(%rcx), %rdi
	subq	%rsi, %rdi
	cmpq	$4, %rdi
	jb	.LBB10_17
# %bb.12:                               # %then.1.i.i.i
	cmpl	$128, %edx
	jae	.LBB10_21
# %bb.13:                               # %then.1.i14.i.i
	movq	(%rcx), %rdi
	movb	%dl, (%rdi,%rsi)
	incq	%rsi
	movq	%rsi, 8(%rcx)
.LBB10_14:                              # %join.5
	addq	$8, %rsp
	.cfi_def_cfa_offset 24
	popq	%rbx
	.cfi_def_cfa_offset 16
	popq	%rbp
	.cfi_def_cfa_offset 8
	retq
.LBB10_15:                              # %join.3.i.i.i9
	.cfi_def_cfa_offset 32
	movl	%edx, %edi
	movq	%rcx, %rsi
	callq	"recoding::text::Text::put_at_end::<#33e10de476944db2>"
	addq	$8, %rsp
	.cfi_def_cfa_offset 24
	popq	%rbx
	.cfi_def_cfa_offset 16
	popq	%rbp
	.cfi_def_cfa_offset 8
	retq
.LBB10_16:                              # %join.3.i.i.i18
	.cfi_def_cfa_offset 32
	movl	%edx, %edi
	movq	%rcx, %rsi
	callq	"recoding::text::Text::put_at_end::<#4a42a49a72b1152c>"
	addq	$8, %rsp
	.cfi_def_cfa_offset 24
	popq	%rbx
	.cfi_def_cfa_offset 16
	popq	%rbp
	.cfi_def_cfa_offset 8
	retq
.LBB10_17:                              # %join.3.i.i.i
	.cfi_def_cfa_offset 32
	movl	%edx, %edi
	movq	%rcx, %rsi
	callq	"recoding::text::Text::put_at_end::<#70c8f03fcffdff05>"
	addq	$8, %rsp
	.cfi_def_cfa_offset 24
	popq	%rbx
	.cfi_def_cfa_offset 16
	popq	%rbp
	.cfi_def_cfa_offset 8
	retq
.LBB10_18:                              # %arm.2.i.i.i
	.cfi_def_cfa_offset 32
	movl	%edx, %ebx
	shrl	$10, %ebx
	addl	$-10304, %ebx                   # imm = 0xD7C0
	movl	%edx, %edi
	shrl	$8, %edx
	andb	$3, %dl
	orb	$-36, %dl
	movq	(%rcx), %r8
	movb	%bl, (%r8,%rsi)
	movq	(%rcx), %rbp
	movb	%bh, 1(%rbp,%rsi)
	movq	(%rcx), %r8
	movb	%dil, 2(%r8,%rsi)
	movq	(%rcx), %rdi
	movb	%dl, 3(%rdi,%rsi)
	jmp	.LBB10_20
.LBB10_19:                              # %arm.2.i.i.i21
	movl	%edx, %ebx
	shrl	$10, %ebx
	addl	$-10304, %ebx                   # imm = 0xD7C0
	movl	%edx, %edi
	shrl	$8, %edx
	andb	$3, %dl
	orb	$-36, %dl
	movq	(%rcx), %rbp
	movb	%bh, (%rbp,%rsi)
	movq	(%rcx), %r8
	movb	%bl, 1(%r8,%rsi)
	movq	(%rcx), %r8
	movb	%dl, 2(%r8,%rsi)
	movq	(%rcx), %rdx
	movb	%dil, 3(%rdx,%rsi)
.LBB10_20:                              # %join.5
	addq	$4, %rsi
	jmp	.LBB10_24
.LBB10_21:                              # %join.3.i7.i.i
	movl	%edx, %edi
	andl	$63, %edi
	orl	$128, %edi
	movl	%edx, %r8d
	shrl	$6, %r8d
	cmpl	$2048, %edx                     # imm = 0x800
	jae	.LBB10_25
# %bb.22:                               # %then.4.i.i.i
	orb	$-64, %r8b
	movq	(%rcx), %rdx
	movb	%r8b, (%rdx,%rsi)
	movq	(%rcx), %rdx
	movb	%dil, 1(%rdx,%rsi)
.LBB10_23:                              # %join.5
	addq	$2, %rsi
.LBB10_24:                              # %join.5
	movq	%rsi, 8(%rcx)
	addq	$8, %rsp
	.cfi_def_cfa_offset 24
	popq	%rbx
	.cfi_def_cfa_offset 16
	popq	%rbp
	.cfi_def_cfa_offset 8
	retq
.LBB10_25:                              # %join.7.i.i.i
	.cfi_def_cfa_offset 32
	andl	$63, %r8d
	orl	$128, %r8d
	cmpl	$65536, %edx                    # imm = 0x10000
	jae	.LBB10_27
# %bb.26:                               # %then.7.i.i.i
	shrl	$12, %edx
	orb	$-32, %dl
	movq	(%rcx), %r9
	movb	%dl, (%r9,%rsi)
	movq	(%rcx), %rdx
	movb	%r8b, 1(%rdx,%rsi)
	movq	(%rcx), %rdx
	movb	%dil, 2(%rdx,%rsi)
	addq	$3, %rsi
	jmp	.LBB10_24
.LBB10_27:                              # %join.9.i.i.i
	movl	%edx, %r9d
	shrl	$18, %r9d
	shrl	$4, %edx
	andl	$16128, %edx                    # imm = 0x3F00
	movl	%r9d, %r10d
	addl	$240, %r9d
	addl	%r10d, %edx
	addl	$33008, %edx                    # imm = 0x80F0
	movq	(%rcx), %r10
	movb	%r9b, (%r10,%rsi)
	movq	(%rcx), %rbx
	movb	%dh, 1(%rbx,%rsi)
	shrl	$16, %edx
	addl	%r8d, %edx
	movq	(%rcx), %r8
	movb	%dl, 2(%r8,%rsi)
	movq	(%rcx), %rdx
	movb	%dil, 3(%rdx,%rsi)
	jmp	.LBB10_20
.Lfunc_end10:
	.size	"recoding::form_calls::put_shown::<#345d457c2768aa28>", .Lfunc_end10-"recoding::form_calls::put_shown::<#345d457c2768aa28>"
	.cfi_endproc
                                        # -- End function
	.section	".text.recoding::text::Text::put_at_end::<#70c8f03fcffdff05>","ax",@progbits
	.p2align	4                               # -- Begin function recoding::text::Text::put_at_end::<#70c8f03fcffdff05>
	.type	"recoding::text::Text::put_at_end::<#70c8f03fcffdff05>",@function
"recoding::text::Text::put_at_end::<#70c8f03fcffdff05>": # @"recoding::text::Text::put_at_end::<#70c8f03fcffdff05>"
	.cfi_startproc
# %bb.0:                                # %start
                                        # kill: def $edi killed $edi def $rdi
	movq	8(%rsi), %rax
	movq	16(%rsi), %rcx
	cmpl	$128, %edi
	jae	.LBB11_1
# %bb.5:                                # %"recoding::text::Utf8Text::code_len.exit.thread"
	cmpq	%rax, %rcx
	je	.LBB11_6
# %bb.8:                                # %then.1.i
	movq	(%rsi), %rcx
	movb	%dil, (%rcx,%rax)
	incq	%rax
	movq	%rax, 8(%rsi)
	movb	$1, %al
                                        # kill: def $al killed $al killed $eax
	retq
.LBB11_1:                               # %join.3.i.i
	subq	%rax, %rcx
	cmpl	$65536, %edi                    # imm = 0x10000
	movl	$4, %edx
	sbbq	$0, %rdx
	cmpl	$2048, %edi                     # imm = 0x800
	movl	$2, %r8d
	cmovaeq	%rdx, %r8
	cmpq	%r8, %rcx
	jae	.LBB11_2
.LBB11_6:
	xorl	%eax, %eax
                                        # kill: def $al killed $al killed $eax
	retq
.LBB11_2:                               # %join.3.i
	movl	%edi, %ecx
	andl	$63, %ecx
	orl	$128, %ecx
	movl	%edi, %edx
	shrl	$6, %edx
	cmpl	$2048, %edi                     # imm = 0x800
	jae	.LBB11_3
# %bb.10:                               # %then.4.i
	orb	$-64, %dl
	movq	(%rsi), %rdi
	movb	%dl, (%rdi,%rax)
	movq	(%rsi), %rdx
	movb	%cl, 1(%rdx,%rax)
	addq	$2, %rax
	movq	%rax, 8(%rsi)
	movb	$1, %al
                                        # kill: def $al killed $al killed $eax
	retq
.LBB11_3:                               # %join.7.i
	andl	$63, %edx
	orl	$128, %edx
	cmpl	$65536, %edi                    # imm = 0x10000
	jae	.LBB11_11
# %bb.4:                                # %then.7.i
	shrl	$12, %edi
	orb	$-32, %dil
	movq	(%rsi), %r8
	movb	%dil, (%r8,%rax)
	movq	(%rsi), %rdi
	movb	%dl, 1(%rdi,%rax)
	movq	(%rsi), %rdx
	movb	%cl, 2(%rdx,%rax)
	addq	$3, %rax
	movq	%rax, 8(%rsi)
	movb	$1, %al
                                        # kill: def $al killed $al killed $eax
	retq
.LBB11_11:                              # %join.9.i
	pushq	%rbx
	.cfi_def_cfa_offset 16
	.cfi_offset %rbx, -16
	movl	%edi, %r8d
	shrl	$18, %r8d
	shrl	$4, %edi
	andl	$16128, %edi                    # imm = 0x3F00
	movl	%r8d, %r9d
	addl	$240, %r8d
	leal	(%r9,%rdi), %ebx
	addl	$33008, %ebx                    # imm = 0x80F0
	movq	(%rsi), %rdi
	movb	%r8b, (%rdi,%rax)
	movq	(%rsi), %rdi
	movb	%bh, 1(%rdi,%rax)
	shrl	$16, %ebx
	addl	%edx, %ebx
	movq	(%rsi), %rdx
	movb	%bl, 2(%rdx,%rax)
	movq	(%rsi), %rdx
	movb	%cl, 3(%rdx,%rax)
	addq	$4, %rax
	movq	%rax, 8(%rsi)
	movb	$1, %al
	popq	%rbx
	.cfi_def_cfa_offset 8
	.cfi_restore %rbx
                                        # kill: def $al killed $al killed $eax
	retq
.Lfunc_end11:
	.size	"recoding::text::Text::put_at_end::<#70c8f03fcffdff05>", .Lfunc_end11-"recoding::text::Text::put_at_end::<#70c8f03fcffdff05>"
	.cfi_endproc
                                        # -- End function
	.section	".text.recoding::text::Text::put_at_end::<#33e10de476944db2>","ax",@progbits
	.p2align	4                               # -- Begin function recoding::text::Text::put_at_end::<#33e10de476944db2>
	.type	"recoding::text::Text::put_at_end::<#33e10de476944db2>",@function
"recoding::text::Text::put_at_end::<#33e10de476944db2>": # @"recoding::text::Text::put_at_end::<#33e10de476944db2>"
	.cfi_startproc
# %bb.0:                                # %start
	movl	%edi, %ecx
	movq	8(%rsi), %rax
	movq	16(%rsi), %rdx
	subq	%rax, %rdx
	cmpl	$65535, %edi                    # imm = 0xFFFF
	ja	.LBB12_3
# %bb.1:                                # %"recoding::text::Utf16Text::code_len::<#951b42d46d2e9f62>.exit"
	cmpq	$1, %rdx
	jbe	.LBB12_4
# %bb.2:                                # %arm.1.i
	movq	(%rsi), %rdx
	movb	%cl, (%rdx,%rax)
	movq	(%rsi), %rdx
	movb	%ch, 1(%rdx,%rax)
	addq	$2, %rax
	movq	%rax, 8(%rsi)
	movb	$1, %al
                                        # kill: def $al killed $al killed $eax
	retq
.LBB12_3:                               # %"recoding::text::Utf16Text::code_len::<#951b42d46d2e9f62>.exit.thread"
	cmpq	$3, %rdx
	jbe	.LBB12_4
# %bb.6:                                # %arm.2.i
	pushq	%rbx
	.cfi_def_cfa_offset 16
	.cfi_offset %rbx, -16
	movl	%ecx, %edx
	shrl	$10, %edx
	addl	$-10304, %edx                   # imm = 0xD7C0
	movl	%ecx, %edi
	shrl	$8, %ecx
	andb	$3, %cl
	orb	$-36, %cl
	movq	(%rsi), %r8
	movb	%dl, (%r8,%rax)
	movq	(%rsi), %rbx
	movb	%dh, 1(%rbx,%rax)
	movq	(%rsi), %rdx
	movb	%dil, 2(%rdx,%rax)
	movq	(%rsi), %rdx
	movb	%cl, 3(%rdx,%rax)
	addq	$4, %rax
	movq	%rax, 8(%rsi)
	movb	$1, %al
	popq	%rbx
	.cfi_def_cfa_offset 8
	.cfi_restore %rbx
                                        # kill: def $al killed $al killed $eax
	retq
.LBB12_4:
	xorl	%eax, %eax
                                        # kill: def $al killed $al killed $eax
	retq
.Lfunc_end12:
	.size	"recoding::text::Text::put_at_end::<#33e10de476944db2>", .Lfunc_end12-"recoding::text::Text::put_at_end::<#33e10de476944db2>"
	.cfi_endproc
                                        # -- End function
	.section	".text.recoding::text::Text::put_at_end::<#4a42a49a72b1152c>","ax",@progbits
	.p2align	4                               # -- Begin function recoding::text::Text::put_at_end::<#4a42a49a72b1152c>
	.type	"recoding::text::Text::put_at_end::<#4a42a49a72b1152c>",@function
"recoding::text::Text::put_at_end::<#4a42a49a72b1152c>": # @"recoding::text::Text::put_at_end::<#4a42a49a72b1152c>"
	.cfi_startproc
# %bb.0:                                # %start
	movl	%edi, %ecx
	movq	8(%rsi), %rax
	movq	16(%rsi), %rdx
	subq	%rax, %rdx
	cmpl	$65535, %edi                    # imm = 0xFFFF
	ja	.LBB13_3
# %bb.1:                                # %"recoding::text::Utf16Text::code_len::<#22d4087b0bf99cde>.exit"
	cmpq	$1, %rdx
	jbe	.LBB13_4
# %bb.2:                                # %arm.1.i
	movq	(%rsi), %rdx
	movb	%ch, (%rdx,%rax)
	movq	(%rsi), %rdx
	movb	%cl, 1(%rdx,%rax)
	addq	$2, %rax
	movq	%rax, 8(%rsi)
	movb	$1, %al
                                        # kill: def $al killed $al killed $eax
	retq
.LBB13_3:                               # %"recoding::text::Utf16Text::code_len::<#22d4087b0bf99cde>.exit.thread"
	cmpq	$3, %rdx
	jbe	.LBB13_4
# %bb.6:                                # %arm.2.i
	pushq	%rbx
	.cfi_def_cfa_offset 16
	.cfi_offset %rbx, -16
	movl	%ecx, %edx
	shrl	$10, %edx
	addl	$-10304, %edx                   # imm = 0xD7C0
	movl	%ecx, %edi
	shrl	$8, %ecx
	andb	$3, %cl
	orb	$-36, %cl
	movq	(%rsi), %rbx
	movb	%dh, (%rbx,%rax)
	movq	(%rsi), %r8
	movb	%dl, 1(%r8,%rax)
	movq	(%rsi), %rdx
	movb	%cl, 2(%rdx,%rax)
	movq	(%rsi), %rcx
	movb	%dil, 3(%rcx,%rax)
	addq	$4, %rax
	movq	%rax, 8(%rsi)
	movb	$1, %al
	popq	%rbx
	.cfi_def_cfa_offset 8
	.cfi_restore %rbx
                                        # kill: def $al killed $al killed $eax
	retq
.LBB13_4:
	xorl	%eax, %eax
                                        # kill: def $al killed $al killed $eax
	retq
.Lfunc_end13:
	.size	"recoding::text::Text::put_at_end::<#4a42a49a72b1152c>", .Lfunc_end13-"recoding::text::Text::put_at_end::<#4a42a49a72b1152c>"
	.cfi_endproc
                                        # -- End function
	.section	".text.recoding::held::Held::shift_joined","ax",@progbits
	.p2align	4                               # -- Begin function recoding::held::Held::shift_joined
	.type	"recoding::held::Held::shift_joined",@function
"recoding::held::Held::shift_joined":   # @"recoding::held::Held::shift_joined"
	.cfi_startproc
# %bb.0:                                # %start
	movq	(%rdi), %rax
	testq	%rax, %rax
	je	.LBB14_3
# %bb.1:                                # %"recoding::held::byte_of_both.exit42"
	movzbl	8(%rdi), %ecx
	cmpq	$1, %rax
	jne	.LBB14_10
# %bb.2:
	xorl	%r8d, %r8d
	xorl	%r9d, %r9d
	jmp	.LBB14_4
.LBB14_3:
	xorl	%r8d, %r8d
	xorl	%r9d, %r9d
	xorl	%ecx, %ecx
.LBB14_4:                               # %"recoding::held::byte_of_both.exit"
	xorl	%edx, %edx
.LBB14_5:                               # %"recoding::held::byte_of_both.exit"
	xorl	%r10d, %r10d
.LBB14_6:                               # %"recoding::held::byte_of_both.exit"
	xorl	%r11d, %r11d
.LBB14_7:                               # %"recoding::held::byte_of_both.exit"
	movb	%cl, -6(%rsp)
	movb	%dl, -5(%rsp)
	movb	%r9b, -4(%rsp)
	movb	%r10b, -3(%rsp)
	movb	%r8b, -2(%rsp)
	movb	%r11b, -1(%rsp)
	subq	%rsi, %rax
	movq	%rax, (%rdi)
	je	.LBB14_18
# %bb.8:                                # %join.3.i.i
	movzbl	-6(%rsp,%rsi), %ecx
	cmpq	$1, %rax
	jne	.LBB14_13
# %bb.9:
	xorl	%edx, %edx
	xorl	%eax, %eax
	jmp	.LBB14_17
.LBB14_10:                              # %"recoding::held::byte_of_both.exit34"
	movzbl	9(%rdi), %edx
	cmpq	$3, %rax
	jb	.LBB14_15
# %bb.11:                               # %"recoding::held::byte_of_both.exit26"
	movzbl	10(%rdi), %r9d
	jne	.LBB14_19
# %bb.12:
	xorl	%r8d, %r8d
	jmp	.LBB14_5
.LBB14_13:                              # %join.6.i.i
	movzbl	-5(%rsp,%rsi), %edx
	cmpq	$2, %rax
	jne	.LBB14_16
# %bb.14:
	xorl	%eax, %eax
	jmp	.LBB14_17
.LBB14_15:
	xorl	%r8d, %r8d
	xorl	%r9d, %r9d
	jmp	.LBB14_5
.LBB14_16:                              # %join.9.i.i
	movzbl	-4(%rsp,%rsi), %eax
.LBB14_17:                              # %"recoding::held::padded_to_three.exit.i"
	movb	%cl, 8(%rdi)
	movb	%dl, 9(%rdi)
	movb	%al, 10(%rdi)
.LBB14_18:                              # %"recoding::held::Held::hold.exit"
	retq
.LBB14_19:                              # %"recoding::held::byte_of_both.exit18"
	movzbl	11(%rdi), %r10d
	cmpq	$5, %rax
	jb	.LBB14_22
# %bb.20:                               # %"recoding::held::byte_of_both.exit10"
	movzbl	12(%rdi), %r8d
	je	.LBB14_6
# %bb.23:                               # %then.1.i1
	movzbl	13(%rdi), %r11d
	jmp	.LBB14_7
.LBB14_22:
	xorl	%r8d, %r8d
	jmp	.LBB14_6
.Lfunc_end14:
	.size	"recoding::held::Held::shift_joined", .Lfunc_end14-"recoding::held::Held::shift_joined"
	.cfi_endproc
                                        # -- End function
	.section	".text.recoding::recoder_runs::run_whole::<#d908eddfe8754f34>","ax",@progbits
	.p2align	4                               # -- Begin function recoding::recoder_runs::run_whole::<#d908eddfe8754f34>
	.type	"recoding::recoder_runs::run_whole::<#d908eddfe8754f34>",@function
"recoding::recoder_runs::run_whole::<#d908eddfe8754f34>": # @"recoding::recoder_runs::run_whole::<#d908eddfe8754f34>"
	.cfi_startproc
# %bb.0:                                # %start
	pushq	%rbp
	.cfi_def_cfa_offset 16
	pushq	%r15
	.cfi_def_cfa_offset 24
	pushq	%r14
	.cfi_def_cfa_offset 32
	pushq	%r13
	.cfi_def_cfa_offset 40
	pushq	%r12
	.cfi_def_cfa_offset 48
	pushq	%rbx
	.cfi_def_cfa_offset 56
	subq	$40, %rsp
	.cfi_def_cfa_offset 96
	.cfi_offset %rbx, -56
	.cfi_offset %r12, -48
	.cfi_offset %r13, -40
	.cfi_offset %r14, -32
	.cfi_offset %r15, -24
	.cfi_offset %rbp, -16
	movq	%rdx, %r15
	movq	%rsi, %r14
	movq	%rdi, %r12
	movq	$0, 8(%rsp)                     # 8-byte Folded Spill
	xorl	%edx, %edx
	xorl	%ebx, %ebx
.LBB15_1:                               # %loop.2.i.outer
                                        # =>This Loop Header: Depth=1
                                        #     Child Loop BB15_2 Depth 2
	movq	%rdx, %r13
	.p2align	4
.LBB15_2:                               # %loop.2.i
                                        #   Parent Loop BB15_1 Depth=1
                                        # =>  This Inner Loop Header: Depth=2
	leaq	(%r12,%rbx), %rdi
	movq	%r14, %rsi
	subq	%rbx, %rsi
	movq	%r15, %rdx
	callq	"recoding::kernels::CopiedKernelUtf8Utf8::put_text::<#dba16a0ba11e1f61>"
	addq	%rax, %rbx
	cmpq	$8187, %rax                     # imm = 0x1FFB
	ja	.LBB15_2
# %bb.3:                                # %join.5.i
                                        #   in Loop: Header=BB15_2 Depth=2
	movq	%r14, %rsi
	subq	%rbx, %rsi
	je	.LBB15_4
# %bb.5:                                # %join.8.i
                                        #   in Loop: Header=BB15_2 Depth=2
	xorl	%ebp, %ebp
	cmpq	$255, %rax
	ja	.LBB15_10
# %bb.6:                                # %join.8.i
                                        #   in Loop: Header=BB15_2 Depth=2
	cmpq	$0, 8(%rsp)                     # 8-byte Folded Reload
	je	.LBB15_10
# %bb.7:                                # %then.1.i
                                        #   in Loop: Header=BB15_2 Depth=2
	cmpq	$128, %rsi
	jb	.LBB15_9
# %bb.8:                                # %"recoding::engine::put_near::<#fe88b346b93353db>.exit"
                                        #   in Loop: Header=BB15_2 Depth=2
	leaq	(%r12,%rbx), %rdi
	movq	%r15, %rdx
	callq	"recoding::kernels::copy_damaged::<#47c24e65252a304d>"
	addq	%rax, %rbx
	addq	%rdx, %r13
	testq	%rax, %rax
	jne	.LBB15_2
.LBB15_9:                               #   in Loop: Header=BB15_1 Depth=1
	movq	8(%rsp), %rbp                   # 8-byte Reload
.LBB15_10:                              # %join.14.i
                                        #   in Loop: Header=BB15_1 Depth=1
	movq	%r14, %rdx
	subq	%rbx, %rdx
	je	.LBB15_4
# %bb.11:                               # %"recoding::engine::recode_carefully::<#ebb3042af60f2638>.exit"
                                        #   in Loop: Header=BB15_1 Depth=1
	leaq	(%r12,%rbx), %rsi
	xorps	%xmm0, %xmm0
	movaps	%xmm0, 16(%rsp)
	movq	$0, 32(%rsp)
	leaq	16(%rsp), %rdi
	movq	%r15, %rcx
	callq	"recoding::engine::recode_faults::<#e51b733afd1efe0d>"
	movq	24(%rsp), %rdx
	testq	%rdx, %rdx
	je	.LBB15_12
# %bb.13:                               # %select.false.sink
                                        #   in Loop: Header=BB15_1 Depth=1
	incq	%rbp
	movq	$-1, %rax
	cmovneq	%rbp, %rax
	movq	%rax, 8(%rsp)                   # 8-byte Spill
	addq	16(%rsp), %rbx
	addq	%r13, %rdx
	testb	$1, 32(%rsp)
	je	.LBB15_15
	jmp	.LBB15_16
	.p2align	4
.LBB15_12:                              #   in Loop: Header=BB15_1 Depth=1
	movq	%rbp, 8(%rsp)                   # 8-byte Spill
	addq	16(%rsp), %rbx
	addq	%r13, %rdx
	testb	$1, 32(%rsp)
	jne	.LBB15_16
.LBB15_15:                              # %select.end
                                        #   in Loop: Header=BB15_1 Depth=1
	testb	$1, 33(%rsp)
	je	.LBB15_1
	jmp	.LBB15_16
.LBB15_4:
	movq	%r14, %rbx
	movq	%r13, %rdx
.LBB15_16:                              # %"recoding::engine::run::<#fe88b346b93353db>.exit"
	movq	%rbx, %rax
	addq	$40, %rsp
	.cfi_def_cfa_offset 56
	popq	%rbx
	.cfi_def_cfa_offset 48
	popq	%r12
	.cfi_def_cfa_offset 40
	popq	%r13
	.cfi_def_cfa_offset 32
	popq	%r14
	.cfi_def_cfa_offset 24
	popq	%r15
	.cfi_def_cfa_offset 16
	popq	%rbp
	.cfi_def_cfa_offset 8
	retq
.Lfunc_end15:
	.size	"recoding::recoder_runs::run_whole::<#d908eddfe8754f34>", .Lfunc_end15-"recoding::recoder_runs::run_whole::<#d908eddfe8754f34>"
	.cfi_endproc
                                        # -- End function
	.section	".text.recoding::kernels::CopiedKernelUtf8Utf8::put_text::<#dba16a0ba11e1f61>","ax",@progbits
	.p2align	4                               # -- Begin function recoding::kernels::CopiedKernelUtf8Utf8::put_text::<#dba16a0ba11e1f61>
	.type	"recoding::kernels::CopiedKernelUtf8Utf8::put_text::<#dba16a0ba11e1f61>",@function
"recoding::kernels::CopiedKernelUtf8Utf8::put_text::<#dba16a0ba11e1f61>": # @"recoding::kernels::CopiedKernelUtf8Utf8::put_text::<#dba16a0ba11e1f61>"
	.cfi_startproc
# %bb.0:                                # %start
	pushq	%r15
	.cfi_def_cfa_offset 16
	pushq	%r14
	.cfi_def_cfa_offset 24
	pushq	%r13
	.cfi_def_cfa_offset 32
	pushq	%r12
	.cfi_def_cfa_offset 40
	pushq	%rbx
	.cfi_def_cfa_offset 48
	.cfi_offset %rbx, -48
	.cfi_offset %r12, -40
	.cfi_offset %r13, -32
	.cfi_offset %r14, -24
	.cfi_offset %r15, -16
	movq	%rdx, %rbx
	movq	%rdi, %r14
	cmpq	$8192, %rsi                     # imm = 0x2000
	movl	$8192, %eax                     # imm = 0x2000
	cmovbq	%rsi, %rax
	cmpq	$1024, %rsi                     # imm = 0x400
	ja	.LBB16_20
# %bb.1:                                # %then.2
	cmpq	$17, %rsi
	jae	.LBB16_9
# %bb.2:                                # %then.1.i
	cmpq	$3, %rsi
	ja	.LBB16_18
# %bb.3:                                # %loop.2.i.preheader
	testq	%rsi, %rsi
	je	.LBB16_29
# %bb.4:                                # %join.5.i
	cmpb	$0, (%r14)
	js	.LBB16_20
# %bb.5:                                # %loop.2.i
	cmpq	$1, %rsi
	je	.LBB16_29
# %bb.6:                                # %join.5.i.1
	cmpb	$0, 1(%r14)
	js	.LBB16_20
# %bb.7:                                # %loop.2.i.1
	cmpq	$2, %rsi
	je	.LBB16_29
# %bb.8:                                # %join.5.i.2
	cmpb	$0, 2(%r14)
	jns	.LBB16_29
	jmp	.LBB16_20
.LBB16_9:                               # %loop.2.i22.preheader
	xorl	%ecx, %ecx
	cmpq	$64, %rsi
	jb	.LBB16_13
# %bb.10:                               # %join.5.i24.preheader
	movq	%rax, %rdx
	.p2align	4
.LBB16_11:                              # %join.5.i24
                                        # =>This Inner Loop Header: Depth=1
	movdqu	(%r14,%rcx), %xmm0
	movdqu	16(%r14,%rcx), %xmm1
	movdqu	32(%r14,%rcx), %xmm2
	por	%xmm0, %xmm2
	movdqu	48(%r14,%rcx), %xmm0
	por	%xmm1, %xmm0
	por	%xmm2, %xmm0
	pmovmskb	%xmm0, %edi
	testl	%edi, %edi
	jne	.LBB16_13
# %bb.12:                               # %join.8.i25
                                        #   in Loop: Header=BB16_11 Depth=1
	addq	$64, %rcx
	addq	$-64, %rdx
	cmpq	$63, %rdx
	ja	.LBB16_11
.LBB16_13:                              # %"utf_lanes::ascii_texts::ascii_end::<=1>.exit"
	movq	%rax, %rdx
	subq	%rcx, %rdx
	cmpq	$16, %rdx
	jb	.LBB16_17
# %bb.14:                               # %join.5.i56.preheader
	addq	%r14, %rcx
	.p2align	4
.LBB16_15:                              # %join.5.i56
                                        # =>This Inner Loop Header: Depth=1
	movdqu	(%rcx), %xmm0
	pmovmskb	%xmm0, %edi
	testl	%edi, %edi
	jne	.LBB16_20
# %bb.16:                               # %loop.2.i51
                                        #   in Loop: Header=BB16_15 Depth=1
	addq	$-16, %rdx
	addq	$16, %rcx
	cmpq	$16, %rdx
	jae	.LBB16_15
.LBB16_17:                              # %after.1.i
	movdqu	-16(%r14,%rax), %xmm0
	pmovmskb	%xmm0, %ecx
	testl	%ecx, %ecx
	je	.LBB16_29
.LBB16_20:                              # %after.1
	movq	%r14, %rdi
	movq	%rax, %rsi
	callq	"utf_lanes::text_blocks::text_len"
	movq	8(%rbx), %rcx
	movq	16(%rbx), %r15
	movq	%r15, %rdx
	subq	%rcx, %rdx
	cmpq	%rdx, %rax
	ja	.LBB16_49
.LBB16_21:                              # %join.3.i77
	leaq	8(%rbx), %rdx
	leaq	(%rcx,%rax), %r12
	movq	(%rbx), %r13
	pxor	%xmm0, %xmm0
	movdqu	%xmm0, (%rdx)
	leaq	(%rcx,%r13), %rdi
	movq	%rdi, %rdx
	subq	%r14, %rdx
	cmpq	%rax, %rdx
	jae	.LBB16_33
# %bb.22:                               # %iter.check
	cmpq	$4, %rax
	jb	.LBB16_23
# %bb.24:                               # %vector.memcheck
	cmpq	$32, %rdx
	jae	.LBB16_26
.LBB16_23:
	xorl	%edx, %edx
.LBB16_43:                              # %join.7.i.i.i90.preheader
	movq	%rax, %r8
	movq	%rdx, %rsi
	andq	$3, %r8
	je	.LBB16_46
# %bb.44:                               # %join.7.i.i.i90.prol.preheader
	movq	%rdx, %rsi
	.p2align	4
.LBB16_45:                              # %join.7.i.i.i90.prol
                                        # =>This Inner Loop Header: Depth=1
	movzbl	(%r14,%rsi), %r9d
	movb	%r9b, (%rdi,%rsi)
	incq	%rsi
	decq	%r8
	jne	.LBB16_45
.LBB16_46:                              # %join.7.i.i.i90.prol.loopexit
	subq	%rax, %rdx
	cmpq	$-4, %rdx
	ja	.LBB16_67
# %bb.47:                               # %join.7.i.i.i90.preheader49
	addq	%r13, %rcx
	addq	$3, %rcx
	.p2align	4
.LBB16_48:                              # %join.7.i.i.i90
                                        # =>This Inner Loop Header: Depth=1
	movzbl	(%r14,%rsi), %edx
	movb	%dl, -3(%rcx,%rsi)
	movzbl	1(%r14,%rsi), %edx
	movb	%dl, -2(%rcx,%rsi)
	movzbl	2(%r14,%rsi), %edx
	movb	%dl, -1(%rcx,%rsi)
	movzbl	3(%r14,%rsi), %edx
	movb	%dl, (%rcx,%rsi)
	addq	$4, %rsi
	cmpq	%rsi, %rax
	jne	.LBB16_48
	jmp	.LBB16_67
.LBB16_18:                              # %join.3.i8
	cmpq	$7, %rsi
	ja	.LBB16_28
# %bb.19:                               # %then.4.i
	movd	(%r14), %xmm0                   # xmm0 = mem[0],zero,zero,zero
	movd	-4(%r14,%rax), %xmm1            # xmm1 = mem[0],zero,zero,zero
	punpckldq	%xmm1, %xmm0            # xmm0 = xmm0[0],xmm1[0],xmm0[1],xmm1[1]
	pshufd	$68, %xmm0, %xmm0               # xmm0 = xmm0[0,1,0,1]
	pmovmskb	%xmm0, %ecx
	testl	%ecx, %ecx
	jne	.LBB16_20
	jmp	.LBB16_29
.LBB16_26:                              # %vector.main.loop.iter.check
	cmpq	$32, %rax
	jae	.LBB16_36
# %bb.27:
	xorl	%edx, %edx
	jmp	.LBB16_40
.LBB16_28:                              # %"utf_lanes::ascii_texts::is_ascii.exit"
	movq	-8(%r14,%rax), %xmm0            # xmm0 = mem[0],zero
	movq	(%r14), %xmm1                   # xmm1 = mem[0],zero
	punpcklqdq	%xmm0, %xmm1            # xmm1 = xmm1[0],xmm0[0]
	pmovmskb	%xmm1, %ecx
	testl	%ecx, %ecx
	jne	.LBB16_20
.LBB16_29:                              # %then.5
	movq	8(%rbx), %rcx
	movq	16(%rbx), %r15
	movq	%r15, %rdx
	subq	%rcx, %rdx
	cmpq	%rdx, %rax
	ja	.LBB16_69
.LBB16_30:                              # %join.3.i71
	leaq	8(%rbx), %rdx
	leaq	(%rcx,%rax), %r12
	movq	(%rbx), %r13
	pxor	%xmm0, %xmm0
	movdqu	%xmm0, (%rdx)
	leaq	(%rcx,%r13), %rdi
	movq	%rdi, %rdx
	subq	%r14, %rdx
	cmpq	%rax, %rdx
	jae	.LBB16_33
# %bb.31:                               # %iter.check17
	cmpq	$4, %rsi
	jb	.LBB16_32
# %bb.34:                               # %vector.memcheck12
	cmpq	$32, %rdx
	jae	.LBB16_51
.LBB16_32:
	xorl	%edx, %edx
.LBB16_61:                              # %join.7.i.i.i.preheader
	movq	%rax, %r8
	movq	%rdx, %rsi
	andq	$3, %r8
	je	.LBB16_64
# %bb.62:                               # %join.7.i.i.i.prol.preheader
	movq	%rdx, %rsi
	.p2align	4
.LBB16_63:                              # %join.7.i.i.i.prol
                                        # =>This Inner Loop Header: Depth=1
	movzbl	(%r14,%rsi), %r9d
	movb	%r9b, (%rdi,%rsi)
	incq	%rsi
	decq	%r8
	jne	.LBB16_63
.LBB16_64:                              # %join.7.i.i.i.prol.loopexit
	subq	%rax, %rdx
	cmpq	$-4, %rdx
	ja	.LBB16_67
# %bb.65:                               # %join.7.i.i.i.preheader48
	addq	%r13, %rcx
	addq	$3, %rcx
	.p2align	4
.LBB16_66:                              # %join.7.i.i.i
                                        # =>This Inner Loop Header: Depth=1
	movzbl	(%r14,%rsi), %edx
	movb	%dl, -3(%rcx,%rsi)
	movzbl	1(%r14,%rsi), %edx
	movb	%dl, -2(%rcx,%rsi)
	movzbl	2(%r14,%rsi), %edx
	movb	%dl, -1(%rcx,%rsi)
	movzbl	3(%r14,%rsi), %edx
	movb	%dl, (%rcx,%rsi)
	addq	$4, %rsi
	cmpq	%rsi, %rax
	jne	.LBB16_66
	jmp	.LBB16_67
.LBB16_33:                              # %apart.2.i.i.i87
	movq	%r14, %rsi
	movq	%rax, %rdx
	movq	%rax, %r14
	callq	memmove@PLT
	movq	%r14, %rax
.LBB16_67:                              # %"core::slots::Slots::copy_in::<i8,20'core::clone::U8Clone{}>.exit.i"
	movq	%r13, (%rbx)
	movq	%r12, 8(%rbx)
	movq	%r15, 16(%rbx)
.LBB16_68:                              # %common.ret
	popq	%rbx
	.cfi_def_cfa_offset 40
	popq	%r12
	.cfi_def_cfa_offset 32
	popq	%r13
	.cfi_def_cfa_offset 24
	popq	%r14
	.cfi_def_cfa_offset 16
	popq	%r15
	.cfi_def_cfa_offset 8
	retq
.LBB16_36:                              # %vector.ph
	.cfi_def_cfa_offset 48
	movq	%rax, %rdx
	andq	$-32, %rdx
	leaq	(%rcx,%r13), %rsi
	addq	$16, %rsi
	xorl	%r8d, %r8d
	.p2align	4
.LBB16_37:                              # %vector.body
                                        # =>This Inner Loop Header: Depth=1
	movdqu	(%r14,%r8), %xmm0
	movdqu	16(%r14,%r8), %xmm1
	movdqu	%xmm0, -16(%rsi,%r8)
	movdqu	%xmm1, (%rsi,%r8)
	addq	$32, %r8
	cmpq	%r8, %rdx
	jne	.LBB16_37
# %bb.38:                               # %middle.block
	cmpq	%rdx, %rax
	je	.LBB16_67
# %bb.39:                               # %vec.epilog.iter.check
	testb	$28, %al
	je	.LBB16_43
.LBB16_40:                              # %vec.epilog.ph
	movq	%rdx, %rsi
	movq	%rax, %rdx
	andq	$-4, %rdx
	.p2align	4
.LBB16_41:                              # %vec.epilog.vector.body
                                        # =>This Inner Loop Header: Depth=1
	movl	(%r14,%rsi), %r8d
	movl	%r8d, (%rdi,%rsi)
	addq	$4, %rsi
	cmpq	%rsi, %rdx
	jne	.LBB16_41
# %bb.42:                               # %vec.epilog.middle.block
	cmpq	%rdx, %rax
	je	.LBB16_67
	jmp	.LBB16_43
.LBB16_49:                              # %"std_alloc::vec::Vec::grow::<#5fdc5e19576447a7>.exit.i97"
	movq	%rbx, %rdi
	movq	%rax, %r12
	movq	%rax, %rsi
	callq	"std_alloc::vec::Vec::grow_amortized::<#5fdc5e19576447a7>"
	testb	%al, %al
	je	.LBB16_53
# %bb.50:                               # %"std_alloc::vec::Vec::grow::<#5fdc5e19576447a7>.exit.join.3_crit_edge.i99"
	movq	8(%rbx), %rcx
	movq	16(%rbx), %r15
	movq	%r12, %rax
	jmp	.LBB16_21
.LBB16_51:                              # %vector.main.loop.iter.check19
	cmpq	$32, %rsi
	jae	.LBB16_54
# %bb.52:
	xorl	%edx, %edx
	jmp	.LBB16_58
.LBB16_53:
	movq	%r12, %rax
	jmp	.LBB16_68
.LBB16_54:                              # %vector.ph20
	movl	%eax, %edx
	andl	$2016, %edx                     # imm = 0x7E0
	leaq	(%rcx,%r13), %r8
	addq	$16, %r8
	xorl	%r9d, %r9d
	.p2align	4
.LBB16_55:                              # %vector.body23
                                        # =>This Inner Loop Header: Depth=1
	movdqu	(%r14,%r9), %xmm0
	movdqu	16(%r14,%r9), %xmm1
	movdqu	%xmm0, -16(%r8,%r9)
	movdqu	%xmm1, (%r8,%r9)
	addq	$32, %r9
	cmpq	%r9, %rdx
	jne	.LBB16_55
# %bb.56:                               # %middle.block28
	cmpq	%rdx, %rsi
	je	.LBB16_67
# %bb.57:                               # %vec.epilog.iter.check32
	testb	$28, %al
	je	.LBB16_61
.LBB16_58:                              # %vec.epilog.ph34
	movq	%rdx, %r8
	movl	%eax, %edx
	andl	$2044, %edx                     # imm = 0x7FC
	.p2align	4
.LBB16_59:                              # %vec.epilog.vector.body37
                                        # =>This Inner Loop Header: Depth=1
	movl	(%r14,%r8), %r9d
	movl	%r9d, (%rdi,%r8)
	addq	$4, %r8
	cmpq	%r8, %rdx
	jne	.LBB16_59
# %bb.60:                               # %vec.epilog.middle.block41
	cmpq	%rdx, %rsi
	je	.LBB16_67
	jmp	.LBB16_61
.LBB16_69:                              # %"std_alloc::vec::Vec::grow::<#5fdc5e19576447a7>.exit.i"
	movq	%rsi, %r12
	movq	%rbx, %rdi
	movq	%rax, %r13
	movq	%rax, %rsi
	callq	"std_alloc::vec::Vec::grow_amortized::<#5fdc5e19576447a7>"
	testb	%al, %al
	je	.LBB16_71
# %bb.70:                               # %"std_alloc::vec::Vec::grow::<#5fdc5e19576447a7>.exit.join.3_crit_edge.i"
	movq	8(%rbx), %rcx
	movq	16(%rbx), %r15
	movq	%r13, %rax
	movq	%r12, %rsi
	jmp	.LBB16_30
.LBB16_71:
	movq	%r13, %rax
	jmp	.LBB16_68
.Lfunc_end16:
	.size	"recoding::kernels::CopiedKernelUtf8Utf8::put_text::<#dba16a0ba11e1f61>", .Lfunc_end16-"recoding::kernels::CopiedKernelUtf8Utf8::put_text::<#dba16a0ba11e1f61>"
	.cfi_endproc
                                        # -- End function
	.section	.rodata.cst16,"aM",@progbits,16
	.p2align	4, 0x0                          # -- Begin function utf_lanes::text_blocks::text_len
.LCPI17_0:
	.zero	16,15
.LCPI17_1:
	.byte	2                               # 0x2
	.byte	2                               # 0x2
	.byte	2                               # 0x2
	.byte	2                               # 0x2
	.byte	2                               # 0x2
	.byte	2                               # 0x2
	.byte	2                               # 0x2
	.byte	2                               # 0x2
	.byte	128                             # 0x80
	.byte	128                             # 0x80
	.byte	128                             # 0x80
	.byte	128                             # 0x80
	.byte	5                               # 0x5
	.byte	1                               # 0x1
	.byte	25                              # 0x19
	.byte	97                              # 0x61
.LCPI17_2:
	.byte	207                             # 0xcf
	.byte	135                             # 0x87
	.byte	131                             # 0x83
	.byte	131                             # 0x83
	.byte	163                             # 0xa3
	.byte	227                             # 0xe3
	.byte	227                             # 0xe3
	.byte	227                             # 0xe3
	.byte	227                             # 0xe3
	.byte	227                             # 0xe3
	.byte	227                             # 0xe3
	.byte	227                             # 0xe3
	.byte	227                             # 0xe3
	.byte	243                             # 0xf3
	.byte	227                             # 0xe3
	.byte	227                             # 0xe3
.LCPI17_3:
	.byte	1                               # 0x1
	.byte	1                               # 0x1
	.byte	1                               # 0x1
	.byte	1                               # 0x1
	.byte	1                               # 0x1
	.byte	1                               # 0x1
	.byte	1                               # 0x1
	.byte	1                               # 0x1
	.byte	206                             # 0xce
	.byte	174                             # 0xae
	.byte	182                             # 0xb6
	.byte	182                             # 0xb6
	.byte	1                               # 0x1
	.byte	1                               # 0x1
	.byte	1                               # 0x1
	.byte	1                               # 0x1
.LCPI17_4:
	.zero	16,96
.LCPI17_5:
	.zero	16,112
.LCPI17_6:
	.zero	16,128
	.section	".text.utf_lanes::text_blocks::text_len","ax",@progbits
	.p2align	4
	.type	"utf_lanes::text_blocks::text_len",@function
"utf_lanes::text_blocks::text_len":     # @"utf_lanes::text_blocks::text_len"
	.cfi_startproc
# %bb.0:                                # %start
	cmpq	$19, %rsi
	jae	.LBB17_17
# %bb.1:                                # %then.1
	cmpq	$17, %rsi
	jae	.LBB17_3
# %bb.2:
	xorl	%eax, %eax
	movq	%rsi, %rcx
	subq	%rax, %rcx
	cmpq	$3, %rcx
	jbe	.LBB17_9
.LBB17_5:                               # %join.3.i15
	cmpq	$16, %rcx
	jbe	.LBB17_6
.LBB17_16:                              # %join.3.i
	movl	$3, %edx
	jmp	"utf_lanes::text_blocks::few_chars" # TAILCALL
.LBB17_17:                              # %join.3
	movdqu	(%rdi), %xmm6
	movdqa	%xmm6, %xmm3
	pslldq	$1, %xmm3                       # xmm3 = zero,xmm3[0,1,2,3,4,5,6,7,8,9,10,11,12,13,14]
	movdqa	%xmm6, %xmm5
	pslldq	$2, %xmm5                       # xmm5 = zero,zero,xmm5[0,1,2,3,4,5,6,7,8,9,10,11,12,13]
	movdqa	%xmm6, %xmm4
	pslldq	$3, %xmm4                       # xmm4 = zero,zero,zero,xmm4[0,1,2,3,4,5,6,7,8,9,10,11,12]
	movdqa	%xmm3, %xmm2
	psrlw	$4, %xmm2
	movdqa	.LCPI17_0(%rip), %xmm0          # xmm0 = [15,15,15,15,15,15,15,15,15,15,15,15,15,15,15,15]
	pand	%xmm0, %xmm2
	movdqa	.LCPI17_1(%rip), %xmm1          # xmm1 = [2,2,2,2,2,2,2,2,128,128,128,128,5,1,25,97]
	movdqa	%xmm1, %xmm7
	pshufb	%xmm2, %xmm7
	pand	%xmm0, %xmm3
	movdqa	.LCPI17_2(%rip), %xmm2          # xmm2 = [207,135,131,131,163,227,227,227,227,227,227,227,227,243,227,227]
	movdqa	%xmm2, %xmm8
	pshufb	%xmm3, %xmm8
	psrlw	$4, %xmm6
	pand	%xmm0, %xmm6
	movdqa	.LCPI17_3(%rip), %xmm3          # xmm3 = [1,1,1,1,1,1,1,1,206,174,182,182,1,1,1,1]
	movdqa	%xmm3, %xmm9
	pshufb	%xmm6, %xmm9
	pand	%xmm8, %xmm9
	pand	%xmm7, %xmm9
	psubusb	.LCPI17_4(%rip), %xmm5
	psubusb	.LCPI17_5(%rip), %xmm4
	por	%xmm5, %xmm4
	pand	.LCPI17_6(%rip), %xmm4
	pcmpeqb	%xmm9, %xmm4
	pmovmskb	%xmm4, %eax
	notl	%eax
	rep		bsfl	%eax, %eax
	cmpw	$16, %ax
	jb	.LBB17_57
# %bb.18:                               # %join.3.i66
	cmpq	$255, %rsi
	ja	.LBB17_31
# %bb.19:                               # %loop.2.i.preheader
	leaq	-80(%rsi), %rcx
	movl	$16, %eax
	cmpq	$-65, %rcx
	ja	.LBB17_52
# %bb.20:                               # %join.5.i.preheader
	leaq	-64(%rsi), %rcx
	.p2align	4
.LBB17_21:                              # %join.5.i
                                        # =>This Loop Header: Depth=1
                                        #     Child Loop BB17_26 Depth 2
	movdqu	(%rdi,%rax), %xmm9
	movdqu	16(%rdi,%rax), %xmm8
	movdqu	32(%rdi,%rax), %xmm6
	movdqu	48(%rdi,%rax), %xmm4
	movdqa	%xmm6, %xmm5
	por	%xmm9, %xmm5
	movdqa	%xmm4, %xmm7
	por	%xmm8, %xmm7
	por	%xmm5, %xmm7
	pmovmskb	%xmm7, %edx
	testl	%edx, %edx
	jne	.LBB17_28
# %bb.22:                               # %then.7.i79
                                        #   in Loop: Header=BB17_21 Depth=1
	cmpb	$-65, -1(%rdi,%rax)
	ja	.LBB17_28
# %bb.23:                               # %join.3.i245
                                        #   in Loop: Header=BB17_21 Depth=1
	cmpb	$-33, -2(%rdi,%rax)
	ja	.LBB17_28
# %bb.24:                               # %"utf_lanes::text_blocks::ends_character.exit257"
                                        #   in Loop: Header=BB17_21 Depth=1
	cmpb	$-17, -3(%rdi,%rax)
	ja	.LBB17_28
# %bb.25:                               # %loop.2.i.i80.preheader
                                        #   in Loop: Header=BB17_21 Depth=1
	movq	%rcx, %rdx
	subq	%rax, %rdx
	.p2align	4
.LBB17_26:                              # %loop.2.i.i80
                                        #   Parent Loop BB17_21 Depth=1
                                        # =>  This Inner Loop Header: Depth=2
	cmpq	$64, %rdx
	jb	.LBB17_51
# %bb.27:                               # %join.5.i.i83
                                        #   in Loop: Header=BB17_26 Depth=2
	movdqu	64(%rdi,%rax), %xmm4
	movdqu	80(%rdi,%rax), %xmm5
	movdqu	96(%rdi,%rax), %xmm6
	por	%xmm4, %xmm6
	movdqu	112(%rdi,%rax), %xmm4
	por	%xmm5, %xmm4
	por	%xmm6, %xmm4
	pmovmskb	%xmm4, %r9d
	addq	$-64, %rdx
	addq	$64, %rax
	movb	$1, %r8b
	testl	%r9d, %r9d
	je	.LBB17_26
	jmp	.LBB17_30
	.p2align	4
.LBB17_28:                              # %join.9.i
                                        #   in Loop: Header=BB17_21 Depth=1
	movdqu	15(%rdi,%rax), %xmm10
	movdqu	14(%rdi,%rax), %xmm11
	movdqu	-3(%rdi,%rax), %xmm5
	movdqu	-2(%rdi,%rax), %xmm12
	movdqu	-1(%rdi,%rax), %xmm7
	movdqa	%xmm10, %xmm13
	psrlw	$4, %xmm13
	pand	%xmm0, %xmm13
	movdqa	%xmm7, %xmm14
	psrlw	$4, %xmm14
	pand	%xmm0, %xmm14
	movdqa	%xmm1, %xmm15
	pshufb	%xmm14, %xmm15
	movdqa	%xmm1, %xmm14
	pshufb	%xmm13, %xmm14
	pand	%xmm0, %xmm7
	movdqa	%xmm2, %xmm13
	pshufb	%xmm7, %xmm13
	movdqu	13(%rdi,%rax), %xmm7
	pand	%xmm0, %xmm10
	pand	%xmm15, %xmm13
	movdqa	%xmm2, %xmm15
	pshufb	%xmm10, %xmm15
	pand	%xmm14, %xmm15
	psrlw	$4, %xmm8
	pand	%xmm0, %xmm8
	psrlw	$4, %xmm9
	pand	%xmm0, %xmm9
	movdqa	%xmm3, %xmm14
	pshufb	%xmm9, %xmm14
	pand	%xmm13, %xmm14
	movdqa	%xmm3, %xmm13
	pshufb	%xmm8, %xmm13
	pand	%xmm15, %xmm13
	movdqa	.LCPI17_4(%rip), %xmm10         # xmm10 = [96,96,96,96,96,96,96,96,96,96,96,96,96,96,96,96]
	psubusb	%xmm10, %xmm12
	psubusb	%xmm10, %xmm11
	movdqa	.LCPI17_5(%rip), %xmm9          # xmm9 = [112,112,112,112,112,112,112,112,112,112,112,112,112,112,112,112]
	psubusb	%xmm9, %xmm5
	por	%xmm12, %xmm5
	psubusb	%xmm9, %xmm7
	por	%xmm11, %xmm7
	movdqa	.LCPI17_6(%rip), %xmm8          # xmm8 = [128,128,128,128,128,128,128,128,128,128,128,128,128,128,128,128]
	pand	%xmm8, %xmm5
	pcmpeqb	%xmm14, %xmm5
	pand	%xmm8, %xmm7
	pcmpeqb	%xmm13, %xmm7
	movdqu	31(%rdi,%rax), %xmm11
	movdqu	47(%rdi,%rax), %xmm12
	movdqa	%xmm12, %xmm13
	psrlw	$4, %xmm13
	pand	%xmm0, %xmm13
	movdqa	%xmm11, %xmm14
	psrlw	$4, %xmm14
	pand	%xmm0, %xmm14
	movdqa	%xmm1, %xmm15
	pshufb	%xmm14, %xmm15
	movdqa	%xmm1, %xmm14
	pshufb	%xmm13, %xmm14
	pand	%xmm0, %xmm11
	movdqa	%xmm2, %xmm13
	pshufb	%xmm11, %xmm13
	pand	%xmm0, %xmm12
	pand	%xmm15, %xmm13
	movdqa	%xmm2, %xmm11
	pshufb	%xmm12, %xmm11
	pand	%xmm14, %xmm11
	psrlw	$4, %xmm6
	pand	%xmm0, %xmm6
	movdqa	%xmm3, %xmm12
	pshufb	%xmm6, %xmm12
	psrlw	$4, %xmm4
	pand	%xmm0, %xmm4
	pand	%xmm13, %xmm12
	movdqa	%xmm3, %xmm6
	pshufb	%xmm4, %xmm6
	movdqu	46(%rdi,%rax), %xmm4
	pand	%xmm11, %xmm6
	movdqu	30(%rdi,%rax), %xmm11
	psubusb	%xmm10, %xmm11
	psubusb	%xmm10, %xmm4
	movdqu	29(%rdi,%rax), %xmm10
	psubusb	%xmm9, %xmm10
	por	%xmm11, %xmm10
	movdqu	45(%rdi,%rax), %xmm11
	psubusb	%xmm9, %xmm11
	por	%xmm4, %xmm11
	pand	%xmm8, %xmm10
	pcmpeqb	%xmm12, %xmm10
	pand	%xmm5, %xmm10
	pand	%xmm8, %xmm11
	pcmpeqb	%xmm6, %xmm11
	pand	%xmm7, %xmm11
	pand	%xmm10, %xmm11
	pmovmskb	%xmm11, %edx
	cmpl	$65535, %edx                    # imm = 0xFFFF
	jne	.LBB17_52
# %bb.29:                               # %then.14.i
                                        #   in Loop: Header=BB17_21 Depth=1
	addq	$64, %rax
	movq	%rsi, %rdx
	subq	%rax, %rdx
	cmpq	$64, %rdx
	setae	%r8b
.LBB17_30:                              # %after.6.i
                                        #   in Loop: Header=BB17_21 Depth=1
	testb	%r8b, %r8b
	jne	.LBB17_21
	jmp	.LBB17_52
.LBB17_3:                               # %join.3.i13
	pushq	%r14
	.cfi_def_cfa_offset 16
	pushq	%rbx
	.cfi_def_cfa_offset 24
	pushq	%rax
	.cfi_def_cfa_offset 32
	.cfi_offset %rbx, -24
	.cfi_offset %r14, -16
	leaq	-16(%rsi), %rdx
	movq	%rdi, %rbx
	movq	%rsi, %r14
	callq	"utf_lanes::text_blocks::few_chars"
	movq	%rbx, %rdi
	movq	%r14, %rsi
	addq	$8, %rsp
	.cfi_def_cfa_offset 24
	popq	%rbx
	.cfi_def_cfa_offset 16
	popq	%r14
	.cfi_def_cfa_offset 8
	.cfi_restore %rbx
	.cfi_restore %r14
	movq	%rsi, %rcx
	subq	%rax, %rcx
	cmpq	$3, %rcx
	ja	.LBB17_5
	.p2align	4
.LBB17_9:                               # %loop.2.i.i
	cmpq	%rax, %rsi
	je	.LBB17_64
.LBB17_10:                              # %join.5.i.i
                                        # =>This Inner Loop Header: Depth=1
	cmpb	$0, (%rdi,%rax)
	js	.LBB17_16
# %bb.8:                                # %loop.2.i.i
                                        #   in Loop: Header=BB17_10 Depth=1
	incq	%rax
	cmpq	%rax, %rsi
	jne	.LBB17_10
	jmp	.LBB17_64
.LBB17_6:                               # %join.6.i
	movq	%rcx, %rdx
	shlq	$4, %rdx
	leaq	.Lstatic.10(%rip), %r8
	movdqu	-64(%rdx,%r8), %xmm2
	cmpq	$7, %rcx
	ja	.LBB17_11
# %bb.7:                                # %then.1.i20
	movd	(%rdi,%rax), %xmm1              # xmm1 = mem[0],zero,zero,zero
	movl	-4(%rdi,%rsi), %ecx
	movd	%ecx, %xmm0
	punpckldq	%xmm0, %xmm1            # xmm1 = xmm1[0],xmm0[0],xmm1[1],xmm0[1]
	pshufd	$68, %xmm1, %xmm1               # xmm1 = xmm1[0,1,0,1]
	shrl	$8, %ecx
	pshufb	%xmm2, %xmm1
	psrld	$16, %xmm0
	jmp	.LBB17_12
.LBB17_31:                              # %join.3.i70
	movdqu	13(%rdi), %xmm4
	movdqu	14(%rdi), %xmm5
	movdqu	15(%rdi), %xmm6
	movdqu	16(%rdi), %xmm7
	movdqa	%xmm6, %xmm8
	psrlw	$4, %xmm8
	pand	%xmm0, %xmm8
	movdqa	%xmm1, %xmm9
	pshufb	%xmm8, %xmm9
	pand	%xmm0, %xmm6
	movdqa	%xmm2, %xmm8
	pshufb	%xmm6, %xmm8
	pand	%xmm9, %xmm8
	psrlw	$4, %xmm7
	pand	%xmm0, %xmm7
	movdqa	%xmm3, %xmm6
	pshufb	%xmm7, %xmm6
	psubusb	.LCPI17_4(%rip), %xmm5
	psubusb	.LCPI17_5(%rip), %xmm4
	pand	%xmm8, %xmm6
	por	%xmm5, %xmm4
	pand	.LCPI17_6(%rip), %xmm4
	pxor	%xmm6, %xmm4
	movl	$16, %eax
	ptest	%xmm4, %xmm4
	je	.LBB17_32
.LBB17_52:                              # %"utf_lanes::text_blocks::valid_len_in_blocks.exit"
	cmpq	%rsi, %rax
	jae	.LBB17_57
# %bb.53:                               # %join.5.i227.lr.ph
	leaq	-16(%rsi), %rcx
	.p2align	4
.LBB17_54:                              # %join.5.i227
                                        # =>This Inner Loop Header: Depth=1
	cmpq	%rax, %rcx
	cmovbq	%rcx, %rax
	movdqu	-3(%rdi,%rax), %xmm4
	movdqu	-2(%rdi,%rax), %xmm5
	movdqu	-1(%rdi,%rax), %xmm6
	movdqu	(%rdi,%rax), %xmm7
	movdqa	%xmm6, %xmm8
	psrlw	$4, %xmm8
	pand	%xmm0, %xmm8
	movdqa	%xmm1, %xmm9
	pshufb	%xmm8, %xmm9
	pand	%xmm0, %xmm6
	movdqa	%xmm2, %xmm8
	pshufb	%xmm6, %xmm8
	pand	%xmm9, %xmm8
	psrlw	$4, %xmm7
	pand	%xmm0, %xmm7
	movdqa	%xmm3, %xmm6
	pshufb	%xmm7, %xmm6
	pand	%xmm8, %xmm6
	psubusb	.LCPI17_4(%rip), %xmm5
	psubusb	.LCPI17_5(%rip), %xmm4
	por	%xmm5, %xmm4
	pand	.LCPI17_6(%rip), %xmm4
	pcmpeqb	%xmm6, %xmm4
	pmovmskb	%xmm4, %edx
	notl	%edx
	rep		bsfl	%edx, %edx
	cmpw	$15, %dx
	jbe	.LBB17_55
# %bb.56:                               # %join.8.i230
                                        #   in Loop: Header=BB17_54 Depth=1
	addq	$16, %rax
	cmpq	%rsi, %rax
	jb	.LBB17_54
.LBB17_57:                              # %"utf_lanes::text_blocks::valid_len.exit"
	cmpq	%rsi, %rax
	jne	.LBB17_61
.LBB17_58:                              # %then.5
	cmpb	$-65, -1(%rdi,%rsi)
	ja	.LBB17_61
# %bb.59:                               # %join.3.i277
	cmpb	$-33, -2(%rdi,%rsi)
	ja	.LBB17_61
# %bb.60:                               # %"utf_lanes::text_blocks::ends_character.exit289"
	cmpb	$-16, -3(%rdi,%rsi)
	jae	.LBB17_61
	jmp	.LBB17_64
.LBB17_55:                              # %then.6.i
	movzwl	%dx, %ecx
	addq	%rcx, %rax
	cmpq	%rsi, %rax
	je	.LBB17_58
	.p2align	4
.LBB17_61:                              # %loop.2.i290
                                        # =>This Inner Loop Header: Depth=1
	testq	%rax, %rax
	je	.LBB17_62
# %bb.63:                               # %join.5.i292
                                        #   in Loop: Header=BB17_61 Depth=1
	leaq	-1(%rax), %rsi
	cmpb	$-64, -1(%rdi,%rax)
	movq	%rsi, %rax
	jl	.LBB17_61
	jmp	.LBB17_64
.LBB17_62:
	xorl	%esi, %esi
	movq	%rsi, %rax
	retq
.LBB17_11:                              # %join.3.i19
	movq	-8(%rdi,%rsi), %rcx
	movq	%rcx, %xmm0
	movq	(%rdi,%rax), %xmm1              # xmm1 = mem[0],zero
	punpcklqdq	%xmm0, %xmm1            # xmm1 = xmm1[0],xmm0[0]
	shrq	$40, %rcx
	pshufb	%xmm2, %xmm1
	psrlq	$48, %xmm0
.LBB17_12:                              # %"utf_lanes::few_bytes::padded_text.exit"
	movdqa	%xmm1, %xmm4
	pslldq	$1, %xmm4                       # xmm4 = zero,xmm4[0,1,2,3,4,5,6,7,8,9,10,11,12,13,14]
	movdqa	%xmm1, %xmm3
	pslldq	$2, %xmm3                       # xmm3 = zero,zero,xmm3[0,1,2,3,4,5,6,7,8,9,10,11,12,13]
	movdqa	%xmm1, %xmm2
	pslldq	$3, %xmm2                       # xmm2 = zero,zero,zero,xmm2[0,1,2,3,4,5,6,7,8,9,10,11,12]
	movdqa	%xmm4, %xmm5
	psrlw	$4, %xmm5
	movdqa	.LCPI17_0(%rip), %xmm6          # xmm6 = [15,15,15,15,15,15,15,15,15,15,15,15,15,15,15,15]
	pand	%xmm6, %xmm5
	movdqa	.LCPI17_1(%rip), %xmm7          # xmm7 = [2,2,2,2,2,2,2,2,128,128,128,128,5,1,25,97]
	pshufb	%xmm5, %xmm7
	pand	%xmm6, %xmm4
	movdqa	.LCPI17_2(%rip), %xmm5          # xmm5 = [207,135,131,131,163,227,227,227,227,227,227,227,227,243,227,227]
	pshufb	%xmm4, %xmm5
	psrlw	$4, %xmm1
	pand	%xmm6, %xmm1
	movdqa	.LCPI17_3(%rip), %xmm4          # xmm4 = [1,1,1,1,1,1,1,1,206,174,182,182,1,1,1,1]
	pshufb	%xmm1, %xmm4
	psubusb	.LCPI17_4(%rip), %xmm3
	psubusb	.LCPI17_5(%rip), %xmm2
	pand	%xmm5, %xmm4
	por	%xmm3, %xmm2
	pand	.LCPI17_6(%rip), %xmm2
	pand	%xmm7, %xmm4
	pxor	%xmm4, %xmm2
	ptest	%xmm2, %xmm2
	jne	.LBB17_16
# %bb.13:                               # %"utf_lanes::few_bytes::padded_text.exit"
	pextrb	$1, %xmm0, %eax
	cmpb	$-65, %al
	ja	.LBB17_16
# %bb.14:                               # %"utf_lanes::few_bytes::padded_text.exit"
	movd	%xmm0, %eax
	cmpb	$-33, %al
	ja	.LBB17_16
# %bb.15:                               # %"utf_lanes::few_bytes::padded_text.exit"
	cmpb	$-16, %cl
	jae	.LBB17_16
.LBB17_64:                              # %common.ret
	movq	%rsi, %rax
	retq
.LBB17_32:                              # %join.5.i121.lr.ph
	leaq	-64(%rsi), %rcx
	movl	$32, %eax
	xorl	%edx, %edx
	.p2align	4
.LBB17_33:                              # %join.5.i121
                                        # =>This Loop Header: Depth=1
                                        #     Child Loop BB17_45 Depth 2
                                        #     Child Loop BB17_38 Depth 2
	movdqu	(%rdi,%rax), %xmm5
	movdqu	16(%rdi,%rax), %xmm4
	movdqu	32(%rdi,%rax), %xmm9
	movdqu	48(%rdi,%rax), %xmm7
	movdqa	%xmm9, %xmm6
	por	%xmm5, %xmm6
	movdqa	%xmm7, %xmm8
	por	%xmm4, %xmm8
	por	%xmm6, %xmm8
	pmovmskb	%xmm8, %r8d
	testl	%r8d, %r8d
	jne	.LBB17_44
# %bb.34:                               # %then.7.i146
                                        #   in Loop: Header=BB17_33 Depth=1
	cmpb	$-65, -1(%rdi,%rax)
	ja	.LBB17_44
# %bb.35:                               # %join.3.i234
                                        #   in Loop: Header=BB17_33 Depth=1
	cmpb	$-33, -2(%rdi,%rax)
	ja	.LBB17_44
# %bb.36:                               # %"utf_lanes::text_blocks::ends_character.exit"
                                        #   in Loop: Header=BB17_33 Depth=1
	cmpb	$-17, -3(%rdi,%rax)
	ja	.LBB17_44
# %bb.37:                               # %then.10.i148
                                        #   in Loop: Header=BB17_33 Depth=1
	addq	$64, %rax
	movq	%rsi, %rdx
	subq	%rax, %rdx
	cmpq	$128, %rdx
	jb	.LBB17_40
	.p2align	4
.LBB17_38:                              # %join.5.i174
                                        #   Parent Loop BB17_33 Depth=1
                                        # =>  This Inner Loop Header: Depth=2
	movdqu	(%rdi,%rax), %xmm4
	movdqu	16(%rdi,%rax), %xmm5
	movdqu	32(%rdi,%rax), %xmm6
	por	%xmm4, %xmm6
	movdqu	48(%rdi,%rax), %xmm4
	por	%xmm5, %xmm4
	por	%xmm6, %xmm4
	movdqu	64(%rdi,%rax), %xmm5
	movdqu	80(%rdi,%rax), %xmm6
	movdqu	96(%rdi,%rax), %xmm7
	por	%xmm5, %xmm7
	movdqu	112(%rdi,%rax), %xmm5
	por	%xmm6, %xmm5
	por	%xmm7, %xmm5
	por	%xmm4, %xmm5
	pmovmskb	%xmm5, %r8d
	testl	%r8d, %r8d
	jne	.LBB17_43
# %bb.39:                               # %join.8.i
                                        #   in Loop: Header=BB17_38 Depth=2
	subq	$-128, %rax
	addq	$-128, %rdx
	cmpq	$127, %rdx
	ja	.LBB17_38
.LBB17_40:                              # %"utf_lanes::ascii_texts::ascii_end::<=2>.exit"
                                        #   in Loop: Header=BB17_33 Depth=1
	cmpq	$64, %rdx
	jb	.LBB17_41
# %bb.42:                               # %"utf_lanes::ascii_texts::ascii_end::<=2>.exit.then.2.i_crit_edge"
                                        #   in Loop: Header=BB17_33 Depth=1
	movdqu	(%rdi,%rax), %xmm4
	movdqu	16(%rdi,%rax), %xmm5
	movdqu	32(%rdi,%rax), %xmm6
	por	%xmm4, %xmm6
	movdqu	48(%rdi,%rax), %xmm4
	por	%xmm5, %xmm4
	por	%xmm6, %xmm4
.LBB17_43:                              # %then.2.i
                                        #   in Loop: Header=BB17_33 Depth=1
	pxor	%xmm5, %xmm5
	pcmpgtb	%xmm4, %xmm5
	pmovmskb	%xmm5, %edx
	leaq	64(%rax), %r8
	testl	%edx, %edx
	cmoveq	%r8, %rax
	xorl	%edx, %edx
	jmp	.LBB17_50
	.p2align	4
.LBB17_44:                              # %join.9.i139
                                        #   in Loop: Header=BB17_33 Depth=1
	movdqu	15(%rdi,%rax), %xmm12
	movdqu	14(%rdi,%rax), %xmm6
	movdqu	-3(%rdi,%rax), %xmm8
	movdqu	-2(%rdi,%rax), %xmm11
	movdqu	-1(%rdi,%rax), %xmm10
	movdqa	%xmm12, %xmm13
	psrlw	$4, %xmm13
	pand	%xmm0, %xmm13
	movdqa	%xmm10, %xmm14
	psrlw	$4, %xmm14
	pand	%xmm0, %xmm14
	movdqa	%xmm1, %xmm15
	pshufb	%xmm14, %xmm15
	movdqa	%xmm1, %xmm14
	pshufb	%xmm13, %xmm14
	pand	%xmm0, %xmm10
	movdqa	%xmm2, %xmm13
	pshufb	%xmm10, %xmm13
	movdqu	13(%rdi,%rax), %xmm10
	pand	%xmm0, %xmm12
	pand	%xmm15, %xmm13
	movdqa	%xmm2, %xmm15
	pshufb	%xmm12, %xmm15
	pand	%xmm14, %xmm15
	psrlw	$4, %xmm4
	pand	%xmm0, %xmm4
	psrlw	$4, %xmm5
	pand	%xmm0, %xmm5
	movdqa	%xmm3, %xmm12
	pshufb	%xmm5, %xmm12
	pand	%xmm13, %xmm12
	movdqa	%xmm3, %xmm13
	pshufb	%xmm4, %xmm13
	pand	%xmm15, %xmm13
	movdqa	.LCPI17_4(%rip), %xmm4          # xmm4 = [96,96,96,96,96,96,96,96,96,96,96,96,96,96,96,96]
	psubusb	%xmm4, %xmm11
	psubusb	%xmm4, %xmm6
	movdqa	.LCPI17_5(%rip), %xmm5          # xmm5 = [112,112,112,112,112,112,112,112,112,112,112,112,112,112,112,112]
	psubusb	%xmm5, %xmm8
	por	%xmm11, %xmm8
	psubusb	%xmm5, %xmm10
	por	%xmm6, %xmm10
	movdqa	.LCPI17_6(%rip), %xmm6          # xmm6 = [128,128,128,128,128,128,128,128,128,128,128,128,128,128,128,128]
	pand	%xmm6, %xmm8
	pcmpeqb	%xmm12, %xmm8
	pand	%xmm6, %xmm10
	pcmpeqb	%xmm13, %xmm10
	movdqu	31(%rdi,%rax), %xmm11
	movdqu	47(%rdi,%rax), %xmm12
	movdqa	%xmm12, %xmm13
	psrlw	$4, %xmm13
	pand	%xmm0, %xmm13
	movdqa	%xmm11, %xmm14
	psrlw	$4, %xmm14
	pand	%xmm0, %xmm14
	movdqa	%xmm1, %xmm15
	pshufb	%xmm14, %xmm15
	movdqa	%xmm1, %xmm14
	pshufb	%xmm13, %xmm14
	pand	%xmm0, %xmm11
	movdqa	%xmm2, %xmm13
	pshufb	%xmm11, %xmm13
	pand	%xmm0, %xmm12
	pand	%xmm15, %xmm13
	movdqa	%xmm2, %xmm11
	pshufb	%xmm12, %xmm11
	pand	%xmm14, %xmm11
	psrlw	$4, %xmm9
	pand	%xmm0, %xmm9
	movdqa	%xmm3, %xmm12
	pshufb	%xmm9, %xmm12
	movdqu	46(%rdi,%rax), %xmm9
	psrlw	$4, %xmm7
	pand	%xmm0, %xmm7
	pand	%xmm13, %xmm12
	movdqa	%xmm3, %xmm13
	pshufb	%xmm7, %xmm13
	movdqu	30(%rdi,%rax), %xmm7
	pand	%xmm11, %xmm13
	movdqu	29(%rdi,%rax), %xmm11
	psubusb	%xmm4, %xmm7
	psubusb	%xmm5, %xmm11
	por	%xmm7, %xmm11
	movdqu	45(%rdi,%rax), %xmm7
	psubusb	%xmm4, %xmm9
	psubusb	%xmm5, %xmm7
	por	%xmm9, %xmm7
	pand	%xmm6, %xmm11
	pcmpeqb	%xmm12, %xmm11
	pand	%xmm8, %xmm11
	pand	%xmm6, %xmm7
	pcmpeqb	%xmm13, %xmm7
	pand	%xmm10, %xmm7
	pand	%xmm11, %xmm7
	pmovmskb	%xmm7, %r9d
	leaq	(%rax,%rdx), %r8
	cmpq	%r8, %rcx
	cmovbq	%rcx, %r8
	cmpl	$65535, %r9d                    # imm = 0xFFFF
	jne	.LBB17_48
	.p2align	4
.LBB17_45:                              # %loop.5.i
                                        #   Parent Loop BB17_33 Depth=1
                                        # =>  This Inner Loop Header: Depth=2
	movq	%rax, %r9
	addq	$64, %rax
	cmpq	%r8, %rax
	ja	.LBB17_47
# %bb.46:                               # %join.8.i206
                                        #   in Loop: Header=BB17_45 Depth=2
	movdqu	80(%rdi,%r9), %xmm8
	movdqu	61(%rdi,%r9), %xmm7
	movdqu	63(%rdi,%r9), %xmm9
	movdqu	79(%rdi,%r9), %xmm10
	movdqa	%xmm10, %xmm11
	psrlw	$4, %xmm11
	pand	%xmm0, %xmm11
	movdqa	%xmm9, %xmm12
	psrlw	$4, %xmm12
	pand	%xmm0, %xmm12
	movdqa	%xmm1, %xmm13
	pshufb	%xmm12, %xmm13
	movdqa	%xmm1, %xmm12
	pshufb	%xmm11, %xmm12
	pand	%xmm0, %xmm9
	movdqa	%xmm2, %xmm11
	pshufb	%xmm9, %xmm11
	movdqu	62(%rdi,%r9), %xmm9
	pand	%xmm0, %xmm10
	pand	%xmm13, %xmm11
	movdqa	%xmm2, %xmm13
	pshufb	%xmm10, %xmm13
	movdqu	64(%rdi,%r9), %xmm10
	pand	%xmm12, %xmm13
	psrlw	$4, %xmm10
	pand	%xmm0, %xmm10
	movdqa	%xmm3, %xmm12
	pshufb	%xmm10, %xmm12
	movdqu	78(%rdi,%r9), %xmm10
	psrlw	$4, %xmm8
	pand	%xmm0, %xmm8
	pand	%xmm11, %xmm12
	movdqa	%xmm3, %xmm11
	pshufb	%xmm8, %xmm11
	movdqu	77(%rdi,%r9), %xmm8
	pand	%xmm13, %xmm11
	psubusb	%xmm4, %xmm9
	psubusb	%xmm4, %xmm10
	psubusb	%xmm5, %xmm7
	por	%xmm9, %xmm7
	psubusb	%xmm5, %xmm8
	por	%xmm10, %xmm8
	pand	%xmm6, %xmm7
	pcmpeqb	%xmm12, %xmm7
	pand	%xmm6, %xmm8
	pcmpeqb	%xmm11, %xmm8
	movdqu	95(%rdi,%r9), %xmm9
	movdqu	111(%rdi,%r9), %xmm10
	movdqa	%xmm10, %xmm11
	psrlw	$4, %xmm11
	pand	%xmm0, %xmm11
	movdqa	%xmm9, %xmm12
	psrlw	$4, %xmm12
	pand	%xmm0, %xmm12
	movdqa	%xmm1, %xmm13
	pshufb	%xmm12, %xmm13
	movdqa	%xmm1, %xmm12
	pshufb	%xmm11, %xmm12
	pand	%xmm0, %xmm9
	movdqa	%xmm2, %xmm11
	pshufb	%xmm9, %xmm11
	movdqu	96(%rdi,%r9), %xmm9
	pand	%xmm0, %xmm10
	pand	%xmm13, %xmm11
	movdqa	%xmm2, %xmm13
	pshufb	%xmm10, %xmm13
	movdqu	112(%rdi,%r9), %xmm10
	pand	%xmm12, %xmm13
	psrlw	$4, %xmm9
	pand	%xmm0, %xmm9
	movdqa	%xmm3, %xmm12
	pshufb	%xmm9, %xmm12
	movdqu	110(%rdi,%r9), %xmm9
	psrlw	$4, %xmm10
	pand	%xmm0, %xmm10
	pand	%xmm11, %xmm12
	movdqa	%xmm3, %xmm11
	pshufb	%xmm10, %xmm11
	movdqu	94(%rdi,%r9), %xmm10
	pand	%xmm13, %xmm11
	movdqu	93(%rdi,%r9), %xmm13
	psubusb	%xmm4, %xmm10
	psubusb	%xmm5, %xmm13
	por	%xmm10, %xmm13
	movdqu	109(%rdi,%r9), %xmm10
	psubusb	%xmm4, %xmm9
	psubusb	%xmm5, %xmm10
	por	%xmm9, %xmm10
	pand	%xmm6, %xmm13
	pcmpeqb	%xmm12, %xmm13
	pand	%xmm7, %xmm13
	pand	%xmm6, %xmm10
	pcmpeqb	%xmm11, %xmm10
	pand	%xmm8, %xmm10
	pand	%xmm13, %xmm10
	pmovmskb	%xmm10, %r10d
	cmpl	$65535, %r10d                   # imm = 0xFFFF
	je	.LBB17_45
.LBB17_47:                              # %"utf_lanes::text_blocks::batch_end.exit.loopexit"
                                        #   in Loop: Header=BB17_33 Depth=1
	addq	$64, %r9
	movq	%r9, %rax
.LBB17_48:                              # %"utf_lanes::text_blocks::batch_end.exit"
                                        #   in Loop: Header=BB17_33 Depth=1
	cmpq	%r8, %rax
	jbe	.LBB17_52
# %bb.49:                               # %join.16.i
                                        #   in Loop: Header=BB17_33 Depth=1
	leaq	64(,%rdx,2), %r8
	cmpq	$960, %r8                       # imm = 0x3C0
	movl	$960, %edx                      # imm = 0x3C0
	cmovbq	%r8, %rdx
.LBB17_50:                              # %after.6.i144
                                        #   in Loop: Header=BB17_33 Depth=1
	movq	%rsi, %r8
	subq	%rax, %r8
	cmpq	$63, %r8
	ja	.LBB17_33
	jmp	.LBB17_52
.LBB17_41:                              #   in Loop: Header=BB17_33 Depth=1
	xorl	%edx, %edx
	jmp	.LBB17_50
.LBB17_51:                              # %"utf_lanes::text_blocks::valid_len_in_blocks.exit.loopexit"
	addq	$64, %rax
	jmp	.LBB17_52
.Lfunc_end17:
	.size	"utf_lanes::text_blocks::text_len", .Lfunc_end17-"utf_lanes::text_blocks::text_len"
	.cfi_endproc
                                        # -- End function
	.section	".text.utf_lanes::text_blocks::few_chars","ax",@progbits
	.p2align	4                               # -- Begin function utf_lanes::text_blocks::few_chars
	.type	"utf_lanes::text_blocks::few_chars",@function
"utf_lanes::text_blocks::few_chars":    # @"utf_lanes::text_blocks::few_chars"
	.cfi_startproc
# %bb.0:                                # %start
	xorl	%eax, %eax
	jmp	.LBB18_1
	.p2align	4
.LBB18_14:                              # %arm.7
                                        #   in Loop: Header=BB18_1 Depth=1
	addq	%r9, %rax
	cmpq	%rdx, %rax
	jae	.LBB18_15
.LBB18_1:                               # %join.5
                                        # =>This Inner Loop Header: Depth=1
	movq	%rsi, %rcx
	subq	%rax, %rcx
	cmpq	$4, %rcx
	jb	.LBB18_15
# %bb.2:                                # %join.3.i
                                        #   in Loop: Header=BB18_1 Depth=1
	movzbl	(%rdi,%rax), %ecx
	movl	$1, %r9d
	testb	%cl, %cl
	jns	.LBB18_14
# %bb.3:                                # %join.6.i
                                        #   in Loop: Header=BB18_1 Depth=1
	movzbl	1(%rdi,%rax), %r8d
	cmpb	$-33, %cl
	ja	.LBB18_6
# %bb.4:                                # %then.7.i
                                        #   in Loop: Header=BB18_1 Depth=1
	cmpb	$-62, %cl
	jb	.LBB18_15
# %bb.5:                                # %then.7.i
                                        #   in Loop: Header=BB18_1 Depth=1
	movl	$2, %r9d
	cmpb	$-64, %r8b
	jl	.LBB18_14
	jmp	.LBB18_15
.LBB18_6:                               # %join.9.i
                                        #   in Loop: Header=BB18_1 Depth=1
	cmpb	$-65, %r8b
	jg	.LBB18_15
# %bb.7:                                # %join.12.i
                                        #   in Loop: Header=BB18_1 Depth=1
	movl	%ecx, %r9d
	andl	$15, %ecx
	shll	$6, %ecx
	cmpb	$-17, %r9b
	ja	.LBB18_11
# %bb.8:                                # %then.13.i
                                        #   in Loop: Header=BB18_1 Depth=1
	andl	$63, %r8d
	orl	%r8d, %ecx
	movl	%ecx, %r8d
	andl	$-32, %r8d
	cmpl	$864, %r8d                      # imm = 0x360
	je	.LBB18_15
# %bb.9:                                # %join.3.i19
                                        #   in Loop: Header=BB18_1 Depth=1
	cmpb	$-65, 2(%rdi,%rax)
	jg	.LBB18_15
# %bb.10:                               # %join.3.i19
                                        #   in Loop: Header=BB18_1 Depth=1
	movl	$3, %r9d
	cmpl	$31, %ecx
	ja	.LBB18_14
	jmp	.LBB18_15
.LBB18_11:                              # %else.14.i
                                        #   in Loop: Header=BB18_1 Depth=1
	andl	$48, %r8d
	addl	%r8d, %ecx
	addl	$-272, %ecx                     # imm = 0xFEF0
	cmpl	$-256, %ecx
	jb	.LBB18_15
# %bb.12:                               # %after.1.i
                                        #   in Loop: Header=BB18_1 Depth=1
	cmpb	$-65, 2(%rdi,%rax)
	jg	.LBB18_15
# %bb.13:                               # %"utf_lanes::text_front::front_of_text.exit"
                                        #   in Loop: Header=BB18_1 Depth=1
	movl	$4, %r9d
	cmpb	$-64, 3(%rdi,%rax)
	jl	.LBB18_14
.LBB18_15:                              # %common.ret
	retq
.Lfunc_end18:
	.size	"utf_lanes::text_blocks::few_chars", .Lfunc_end18-"utf_lanes::text_blocks::few_chars"
	.cfi_endproc
                                        # -- End function
	.section	".text.recoding::kernels::copy_damaged::<#47c24e65252a304d>","ax",@progbits
	.p2align	4                               # -- Begin function recoding::kernels::copy_damaged::<#47c24e65252a304d>
	.type	"recoding::kernels::copy_damaged::<#47c24e65252a304d>",@function
"recoding::kernels::copy_damaged::<#47c24e65252a304d>": # @"recoding::kernels::copy_damaged::<#47c24e65252a304d>"
	.cfi_startproc
# %bb.0:                                # %start
	pushq	%rbp
	.cfi_def_cfa_offset 16
	pushq	%r15
	.cfi_def_cfa_offset 24
	pushq	%r14
	.cfi_def_cfa_offset 32
	pushq	%r13
	.cfi_def_cfa_offset 40
	pushq	%r12
	.cfi_def_cfa_offset 48
	pushq	%rbx
	.cfi_def_cfa_offset 56
	subq	$600, %rsp                      # imm = 0x258
	.cfi_def_cfa_offset 656
	.cfi_offset %rbx, -56
	.cfi_offset %r12, -48
	.cfi_offset %r13, -40
	.cfi_offset %r14, -32
	.cfi_offset %r15, -24
	.cfi_offset %rbp, -16
	movq	%rdx, %r14
	movq	%rsi, 24(%rsp)                  # 8-byte Spill
	movq	%rdi, %rbx
	xorps	%xmm0, %xmm0
	movaps	%xmm0, 32(%rsp)
	movq	$0, 48(%rsp)
	leaq	88(%rsp), %rdi
	xorl	%r12d, %r12d
	movl	$512, %edx                      # imm = 0x200
	xorl	%esi, %esi
	callq	memset@PLT
	leaq	16(%rbx), %rax
	movq	%rax, 72(%rsp)                  # 8-byte Spill
	xorl	%ebp, %ebp
	movq	%rbx, 16(%rsp)                  # 8-byte Spill
	.p2align	4
.LBB19_1:                               # %loop.2
                                        # =>This Loop Header: Depth=1
                                        #     Child Loop BB19_18 Depth 2
                                        #     Child Loop BB19_22 Depth 2
	addq	%rbp, %rbx
	movq	24(%rsp), %rdx                  # 8-byte Reload
	subq	%rbp, %rdx
	leaq	32(%rsp), %rdi
	leaq	88(%rsp), %rcx
	movq	%rbx, %rsi
	callq	"utf_lanes::mending::mend::<#0a9db3908d7f4f9c>"
	movq	32(%rsp), %r15
	testq	%r15, %r15
	je	.LBB19_2
# %bb.3:                                # %join.5
                                        #   in Loop: Header=BB19_1 Depth=1
	movq	%rbx, 80(%rsp)                  # 8-byte Spill
	movq	%r12, 8(%rsp)                   # 8-byte Spill
	movq	40(%rsp), %rdx
	movq	8(%r14), %r12
	movq	16(%r14), %r13
	movq	%r13, %rax
	subq	%r12, %rax
	cmpq	%rax, %rdx
	ja	.LBB19_4
.LBB19_6:                               # %join.3.i
                                        #   in Loop: Header=BB19_1 Depth=1
	movq	(%r14), %rbx
	leaq	(%rbx,%r12), %rdi
	addq	%rdx, %r12
	leaq	88(%rsp), %rsi
	callq	memcpy@PLT
	movq	%rbx, (%r14)
	movq	%r12, 8(%r14)
	movq	%r13, 16(%r14)
.LBB19_7:                               # %"std_alloc::vec::Vec::extend_from_slice::<#0cd040e5c49bc722>.exit"
                                        #   in Loop: Header=BB19_1 Depth=1
	addq	%r15, %rbp
	movq	8(%rsp), %rax                   # 8-byte Reload
	addq	48(%rsp), %rax
	movq	%rax, 8(%rsp)                   # 8-byte Spill
	movq	16(%rsp), %rbx                  # 8-byte Reload
	movq	%rbx, %rdi
	movq	24(%rsp), %rsi                  # 8-byte Reload
	movq	%rbp, %rdx
	callq	"recoding::kernels::next_text_end"
	movq	%rax, %r8
	movq	%rax, %r13
	subq	%rbp, %r13
	movq	8(%r14), %r12
	movq	16(%r14), %r9
	movq	%r9, %rax
	subq	%r12, %rax
	cmpq	%rax, %r13
	ja	.LBB19_8
.LBB19_10:                              # %join.3.i21
                                        #   in Loop: Header=BB19_1 Depth=1
	leaq	(%rbx,%rbp), %rsi
	movq	(%r14), %r10
	xorps	%xmm0, %xmm0
	leaq	8(%r14), %rax
	movups	%xmm0, (%rax)
	leaq	(%r10,%r12), %rdi
	movq	%rdi, %rax
	subq	%rsi, %rax
	cmpq	%r13, %rax
	jae	.LBB19_27
# %bb.11:                               # %iter.check
                                        #   in Loop: Header=BB19_1 Depth=1
	cmpq	$4, %r13
	jb	.LBB19_12
# %bb.14:                               # %vector.memcheck
                                        #   in Loop: Header=BB19_1 Depth=1
	movq	80(%rsp), %rcx                  # 8-byte Reload
	addq	%r15, %rcx
	movq	%rdi, %rax
	subq	%rcx, %rax
	cmpq	$32, %rax
	jae	.LBB19_15
.LBB19_12:                              #   in Loop: Header=BB19_1 Depth=1
	xorl	%eax, %eax
	jmp	.LBB19_13
	.p2align	4
.LBB19_27:                              # %apart.2.i.i.i31
                                        #   in Loop: Header=BB19_1 Depth=1
	movq	%r13, %rdx
	movq	%r8, %rbx
	movq	%r9, %r15
	movq	%r10, %rbp
	callq	memmove@PLT
	movq	%rbp, %r10
	movq	%r15, %r9
	movq	%rbx, %r8
	movq	16(%rsp), %rbx                  # 8-byte Reload
	jmp	.LBB19_24
.LBB19_15:                              # %vector.main.loop.iter.check
                                        #   in Loop: Header=BB19_1 Depth=1
	cmpq	$32, %r13
	jae	.LBB19_17
# %bb.16:                               #   in Loop: Header=BB19_1 Depth=1
	xorl	%eax, %eax
	jmp	.LBB19_21
.LBB19_17:                              # %vector.ph
                                        #   in Loop: Header=BB19_1 Depth=1
	movq	%r13, %rax
	andq	$-32, %rax
	addq	72(%rsp), %rbp                  # 8-byte Folded Reload
	leaq	(%r10,%r12), %rcx
	addq	$16, %rcx
	xorl	%edx, %edx
	.p2align	4
.LBB19_18:                              # %vector.body
                                        #   Parent Loop BB19_1 Depth=1
                                        # =>  This Inner Loop Header: Depth=2
	movups	-16(%rbp,%rdx), %xmm0
	movups	(%rbp,%rdx), %xmm1
	movups	%xmm0, -16(%rcx,%rdx)
	movups	%xmm1, (%rcx,%rdx)
	addq	$32, %rdx
	cmpq	%rdx, %rax
	jne	.LBB19_18
# %bb.19:                               # %middle.block
                                        #   in Loop: Header=BB19_1 Depth=1
	cmpq	%rax, %r13
	je	.LBB19_24
# %bb.20:                               # %vec.epilog.iter.check
                                        #   in Loop: Header=BB19_1 Depth=1
	testb	$28, %r13b
	je	.LBB19_13
.LBB19_21:                              # %vec.epilog.ph
                                        #   in Loop: Header=BB19_1 Depth=1
	movq	%rax, %rcx
	movq	%r13, %rax
	andq	$-4, %rax
	.p2align	4
.LBB19_22:                              # %vec.epilog.vector.body
                                        #   Parent Loop BB19_1 Depth=1
                                        # =>  This Inner Loop Header: Depth=2
	movl	(%rsi,%rcx), %edx
	movl	%edx, (%rdi,%rcx)
	addq	$4, %rcx
	cmpq	%rcx, %rax
	jne	.LBB19_22
	jmp	.LBB19_23
.LBB19_4:                               # %"std_alloc::vec::Vec::grow::<#5fdc5e19576447a7>.exit.i"
                                        #   in Loop: Header=BB19_1 Depth=1
	movq	%r14, %rdi
	movq	%rdx, 64(%rsp)                  # 8-byte Spill
	movq	%rdx, %rsi
	callq	"std_alloc::vec::Vec::grow_amortized::<#5fdc5e19576447a7>"
	testb	%al, %al
	je	.LBB19_7
# %bb.5:                                # %"std_alloc::vec::Vec::grow::<#5fdc5e19576447a7>.exit.join.3_crit_edge.i"
                                        #   in Loop: Header=BB19_1 Depth=1
	movq	8(%r14), %r12
	movq	16(%r14), %r13
	movq	64(%rsp), %rdx                  # 8-byte Reload
	jmp	.LBB19_6
.LBB19_8:                               # %"std_alloc::vec::Vec::grow::<#5fdc5e19576447a7>.exit.i41"
                                        #   in Loop: Header=BB19_1 Depth=1
	movq	%r14, %rdi
	movq	%r13, %rsi
	movq	%r8, %r12
	callq	"std_alloc::vec::Vec::grow_amortized::<#5fdc5e19576447a7>"
	movq	%r12, %r8
	testb	%al, %al
	je	.LBB19_25
# %bb.9:                                # %"std_alloc::vec::Vec::grow::<#5fdc5e19576447a7>.exit.join.3_crit_edge.i43"
                                        #   in Loop: Header=BB19_1 Depth=1
	movq	8(%r14), %r12
	movq	16(%r14), %r9
	jmp	.LBB19_10
	.p2align	4
.LBB19_13:                              # %join.7.i.i.i34
                                        #   in Loop: Header=BB19_1 Depth=1
	movzbl	(%rsi,%rax), %ecx
	movb	%cl, (%rdi,%rax)
	incq	%rax
.LBB19_23:                              # %join.7.i.i.i34
                                        #   in Loop: Header=BB19_1 Depth=1
	cmpq	%rax, %r13
	jne	.LBB19_13
.LBB19_24:                              # %"core::slots::Slots::copy_in::<i8,20'core::clone::U8Clone{}>.exit.i32"
                                        #   in Loop: Header=BB19_1 Depth=1
	addq	%r13, %r12
	movq	%r10, (%r14)
	movq	%r12, 8(%r14)
	movq	%r9, 16(%r14)
.LBB19_25:                              # %"std_alloc::vec::Vec::extend_from_slice::<#0cd040e5c49bc722>.exit46"
                                        #   in Loop: Header=BB19_1 Depth=1
	movq	%r8, %rbp
	cmpq	$1024, %r13                     # imm = 0x400
	movq	8(%rsp), %r12                   # 8-byte Reload
	jb	.LBB19_1
	jmp	.LBB19_26
.LBB19_2:
	movq	%rbp, %r8
.LBB19_26:                              # %return.6
	movq	%r8, %rax
	movq	%r12, %rdx
	addq	$600, %rsp                      # imm = 0x258
	.cfi_def_cfa_offset 56
	popq	%rbx
	.cfi_def_cfa_offset 48
	popq	%r12
	.cfi_def_cfa_offset 40
	popq	%r13
	.cfi_def_cfa_offset 32
	popq	%r14
	.cfi_def_cfa_offset 24
	popq	%r15
	.cfi_def_cfa_offset 16
	popq	%rbp
	.cfi_def_cfa_offset 8
	retq
.Lfunc_end19:
	.size	"recoding::kernels::copy_damaged::<#47c24e65252a304d>", .Lfunc_end19-"recoding::kernels::copy_damaged::<#47c24e65252a304d>"
	.cfi_endproc
                                        # -- End function
	.section	.rodata.cst16,"aM",@progbits,16
	.p2align	4, 0x0                          # -- Begin function utf_lanes::mending::mend::<#0a9db3908d7f4f9c>
.LCPI20_0:
	.zero	16,15
.LCPI20_1:
	.byte	2                               # 0x2
	.byte	2                               # 0x2
	.byte	2                               # 0x2
	.byte	2                               # 0x2
	.byte	2                               # 0x2
	.byte	2                               # 0x2
	.byte	2                               # 0x2
	.byte	2                               # 0x2
	.byte	128                             # 0x80
	.byte	128                             # 0x80
	.byte	128                             # 0x80
	.byte	128                             # 0x80
	.byte	5                               # 0x5
	.byte	1                               # 0x1
	.byte	25                              # 0x19
	.byte	97                              # 0x61
.LCPI20_2:
	.byte	207                             # 0xcf
	.byte	135                             # 0x87
	.byte	131                             # 0x83
	.byte	131                             # 0x83
	.byte	163                             # 0xa3
	.byte	227                             # 0xe3
	.byte	227                             # 0xe3
	.byte	227                             # 0xe3
	.byte	227                             # 0xe3
	.byte	227                             # 0xe3
	.byte	227                             # 0xe3
	.byte	227                             # 0xe3
	.byte	227                             # 0xe3
	.byte	243                             # 0xf3
	.byte	227                             # 0xe3
	.byte	227                             # 0xe3
.LCPI20_3:
	.byte	1                               # 0x1
	.byte	1                               # 0x1
	.byte	1                               # 0x1
	.byte	1                               # 0x1
	.byte	1                               # 0x1
	.byte	1                               # 0x1
	.byte	1                               # 0x1
	.byte	1                               # 0x1
	.byte	206                             # 0xce
	.byte	174                             # 0xae
	.byte	182                             # 0xb6
	.byte	182                             # 0xb6
	.byte	1                               # 0x1
	.byte	1                               # 0x1
	.byte	1                               # 0x1
	.byte	1                               # 0x1
.LCPI20_4:
	.zero	16,192
.LCPI20_5:
	.zero	16,224
.LCPI20_6:
	.zero	16,240
	.section	".text.utf_lanes::mending::mend::<#0a9db3908d7f4f9c>","ax",@progbits
	.p2align	4
	.type	"utf_lanes::mending::mend::<#0a9db3908d7f4f9c>",@function
"utf_lanes::mending::mend::<#0a9db3908d7f4f9c>": # @"utf_lanes::mending::mend::<#0a9db3908d7f4f9c>"
	.cfi_startproc
# %bb.0:                                # %start
	pushq	%rbp
	.cfi_def_cfa_offset 16
	pushq	%r15
	.cfi_def_cfa_offset 24
	pushq	%r14
	.cfi_def_cfa_offset 32
	pushq	%r13
	.cfi_def_cfa_offset 40
	pushq	%r12
	.cfi_def_cfa_offset 48
	pushq	%rbx
	.cfi_def_cfa_offset 56
	.cfi_offset %rbx, -56
	.cfi_offset %r12, -48
	.cfi_offset %r13, -40
	.cfi_offset %r14, -32
	.cfi_offset %r15, -24
	.cfi_offset %rbp, -16
	movq	%rcx, %rax
	movq	%rdx, -24(%rsp)                 # 8-byte Spill
	movq	%rdi, -32(%rsp)                 # 8-byte Spill
	xorl	%r8d, %r8d
	xorl	%edi, %edi
	xorl	%r9d, %r9d
	xorl	%r10d, %r10d
	jmp	.LBB20_1
	.p2align	4
.LBB20_4:                               # %then.12
                                        #   in Loop: Header=BB20_1 Depth=1
	movdqu	%xmm8, (%rax,%r9)
	movdqu	%xmm7, 16(%rax,%r9)
	movdqu	32(%rsi,%r10), %xmm0
	movdqu	48(%rsi,%r10), %xmm1
	addq	$64, %r10
	movdqu	%xmm1, 48(%rax,%r9)
	movdqu	%xmm0, 32(%rax,%r9)
	addq	$64, %r9
	incq	%rdi
	cmpq	$4, %rdi
	jae	.LBB20_11
.LBB20_1:                               # %then.3
                                        # =>This Loop Header: Depth=1
                                        #     Child Loop BB20_8 Depth 2
	movq	-24(%rsp), %rcx                 # 8-byte Reload
	subq	%r10, %rcx
	cmpq	$128, %rcx
	jb	.LBB20_11
# %bb.2:                                # %then.3
                                        #   in Loop: Header=BB20_1 Depth=1
	cmpq	$256, %r9                       # imm = 0x100
	ja	.LBB20_11
# %bb.3:                                # %join.5
                                        #   in Loop: Header=BB20_1 Depth=1
	movdqu	(%rsi,%r10), %xmm8
	movdqu	16(%rsi,%r10), %xmm7
	movdqu	32(%rsi,%r10), %xmm0
	movdqu	48(%rsi,%r10), %xmm1
	movdqa	%xmm0, %xmm2
	por	%xmm8, %xmm2
	movdqa	%xmm1, %xmm3
	por	%xmm7, %xmm3
	por	%xmm2, %xmm3
	pmovmskb	%xmm3, %ecx
	testl	%ecx, %ecx
	je	.LBB20_4
# %bb.5:                                # %else.13
                                        #   in Loop: Header=BB20_1 Depth=1
	movq	%rdi, -8(%rsp)                  # 8-byte Spill
	movdqa	%xmm7, %xmm3
	psrlw	$4, %xmm3
	movdqa	.LCPI20_0(%rip), %xmm2          # xmm2 = [15,15,15,15,15,15,15,15,15,15,15,15,15,15,15,15]
	pand	%xmm2, %xmm3
	movdqa	%xmm8, %xmm4
	psrlw	$4, %xmm4
	pand	%xmm2, %xmm4
	movdqa	.LCPI20_1(%rip), %xmm6          # xmm6 = [2,2,2,2,2,2,2,2,128,128,128,128,5,1,25,97]
	movdqa	%xmm6, %xmm5
	pshufb	%xmm4, %xmm5
	movdqa	%xmm6, %xmm4
	pshufb	%xmm3, %xmm4
	movdqa	%xmm8, %xmm10
	pand	%xmm2, %xmm10
	movdqa	%xmm7, %xmm11
	pand	%xmm2, %xmm11
	movdqa	.LCPI20_2(%rip), %xmm3          # xmm3 = [207,135,131,131,163,227,227,227,227,227,227,227,227,243,227,227]
	movdqa	%xmm3, %xmm9
	pshufb	%xmm10, %xmm9
	pand	%xmm5, %xmm9
	movdqa	%xmm3, %xmm10
	pshufb	%xmm11, %xmm10
	pand	%xmm4, %xmm10
	movdqu	1(%rsi,%r10), %xmm13
	movdqu	17(%rsi,%r10), %xmm11
	movdqa	.LCPI20_4(%rip), %xmm4          # xmm4 = [192,192,192,192,192,192,192,192,192,192,192,192,192,192,192,192]
	movdqa	%xmm4, %xmm12
	pcmpgtb	%xmm13, %xmm12
	psrlw	$4, %xmm13
	pand	%xmm2, %xmm13
	movdqa	.LCPI20_3(%rip), %xmm5          # xmm5 = [1,1,1,1,1,1,1,1,206,174,182,182,1,1,1,1]
	movdqa	%xmm5, %xmm14
	pshufb	%xmm13, %xmm14
	movdqa	%xmm4, %xmm13
	pcmpgtb	%xmm11, %xmm13
	psrlw	$4, %xmm11
	pand	%xmm2, %xmm11
	pand	%xmm9, %xmm14
	movdqa	%xmm5, %xmm9
	pshufb	%xmm11, %xmm9
	pand	%xmm10, %xmm9
	pmovmskb	%xmm13, %r11d
	pxor	%xmm11, %xmm11
	pcmpeqb	%xmm11, %xmm9
	pand	%xmm13, %xmm9
	pmovmskb	%xmm12, %r12d
	pcmpeqb	%xmm11, %xmm14
	pand	%xmm12, %xmm14
	pmovmskb	%xmm14, %r15d
	pmovmskb	%xmm9, %ebx
	pmovmskb	%xmm8, %ecx
	movl	%ecx, -72(%rsp)                 # 4-byte Spill
	pmovmskb	%xmm7, %edx
	movdqa	.LCPI20_5(%rip), %xmm10         # xmm10 = [224,224,224,224,224,224,224,224,224,224,224,224,224,224,224,224]
	movdqa	%xmm8, %xmm9
	pmaxub	%xmm10, %xmm9
	pcmpeqb	%xmm8, %xmm9
	pmovmskb	%xmm9, %ecx
	movl	%ecx, -36(%rsp)                 # 4-byte Spill
	movdqa	%xmm7, %xmm9
	pmaxub	%xmm10, %xmm9
	pcmpeqb	%xmm7, %xmm9
	pmovmskb	%xmm9, %r14d
	movdqa	.LCPI20_6(%rip), %xmm9          # xmm9 = [240,240,240,240,240,240,240,240,240,240,240,240,240,240,240,240]
	movdqa	%xmm8, %xmm12
	pmaxub	%xmm9, %xmm12
	pcmpeqb	%xmm8, %xmm12
	pmovmskb	%xmm12, %ecx
	movl	%ecx, -40(%rsp)                 # 4-byte Spill
	movdqa	%xmm7, %xmm8
	pmaxub	%xmm9, %xmm8
	pcmpeqb	%xmm7, %xmm8
	pmovmskb	%xmm8, %ecx
	movq	%rcx, -56(%rsp)                 # 8-byte Spill
	movdqa	%xmm1, %xmm7
	psrlw	$4, %xmm7
	pand	%xmm2, %xmm7
	movdqa	%xmm0, %xmm8
	psrlw	$4, %xmm8
	pand	%xmm2, %xmm8
	movdqa	%xmm6, %xmm12
	pshufb	%xmm8, %xmm12
	pshufb	%xmm7, %xmm6
	movdqa	%xmm0, %xmm8
	pand	%xmm2, %xmm8
	movdqa	%xmm3, %xmm7
	pshufb	%xmm8, %xmm7
	movdqu	33(%rsi,%r10), %xmm8
	pand	%xmm12, %xmm7
	movdqa	%xmm1, %xmm12
	pand	%xmm2, %xmm12
	pshufb	%xmm12, %xmm3
	movdqu	49(%rsi,%r10), %xmm12
	pand	%xmm6, %xmm3
	movdqa	%xmm4, %xmm6
	pcmpgtb	%xmm12, %xmm4
	psrlw	$4, %xmm12
	pand	%xmm2, %xmm12
	pcmpgtb	%xmm8, %xmm6
	psrlw	$4, %xmm8
	pand	%xmm2, %xmm8
	movdqa	%xmm5, %xmm2
	pshufb	%xmm8, %xmm2
	pand	%xmm7, %xmm2
	pshufb	%xmm12, %xmm5
	pand	%xmm3, %xmm5
	pcmpeqb	%xmm11, %xmm2
	pcmpeqb	%xmm11, %xmm5
	pmovmskb	%xmm4, %edi
	pand	%xmm4, %xmm5
	pmovmskb	%xmm6, %ecx
	movl	%ecx, -44(%rsp)                 # 4-byte Spill
	pand	%xmm6, %xmm2
	pmovmskb	%xmm2, %ecx
	movl	%ecx, -48(%rsp)                 # 4-byte Spill
	pmovmskb	%xmm5, %ebp
	movdqa	%xmm1, %xmm2
	pmaxub	%xmm10, %xmm2
	pmaxub	%xmm0, %xmm10
	pcmpeqb	%xmm0, %xmm10
	pmovmskb	%xmm10, %ecx
	shll	$16, %r11d
	orl	%r12d, %r11d
	movq	%r11, -16(%rsp)                 # 8-byte Spill
	movq	%rbx, %r12
	shll	$16, %r12d
	orl	%r15d, %r12d
	pmovmskb	%xmm1, %r13d
	pcmpeqb	%xmm1, %xmm2
	pmovmskb	%xmm2, %r11d
	movq	%r11, -64(%rsp)                 # 8-byte Spill
	movdqa	%xmm1, %xmm2
	pmaxub	%xmm9, %xmm2
	pcmpeqb	%xmm1, %xmm2
	movq	%rdx, %r11
	shll	$16, %r11d
	addl	-72(%rsp), %r11d                # 4-byte Folded Reload
	pmovmskb	%xmm0, %r15d
	pmaxub	%xmm0, %xmm9
	pcmpeqb	%xmm0, %xmm9
	shll	$16, %r14d
	addl	-36(%rsp), %r14d                # 4-byte Folded Reload
	movq	%r14, -72(%rsp)                 # 8-byte Spill
	pmovmskb	%xmm9, %r14d
	movq	-56(%rsp), %rdx                 # 8-byte Reload
	shll	$16, %edx
	addl	-40(%rsp), %edx                 # 4-byte Folded Reload
	movq	%rdx, -56(%rsp)                 # 8-byte Spill
	pmovmskb	%xmm2, %ebx
	shll	$16, %edi
	addl	-44(%rsp), %edi                 # 4-byte Folded Reload
	shll	$16, %ebp
	addl	-48(%rsp), %ebp                 # 4-byte Folded Reload
	shlq	$32, %rbp
	orq	%r12, %rbp
	movq	%rdi, %rdx
	shlq	$32, %rdx
	addq	-16(%rsp), %rdx                 # 8-byte Folded Reload
	shlq	$48, %r13
	shlq	$32, %r15
	orq	%r11, %r15
	orq	%r13, %r15
	movq	-64(%rsp), %r11                 # 8-byte Reload
	shlq	$48, %r11
	movq	%r11, -64(%rsp)                 # 8-byte Spill
	shlq	$32, %rcx
	addq	-72(%rsp), %rcx                 # 8-byte Folded Reload
	orq	%r11, %rcx
	shlq	$48, %rbx
	shlq	$32, %r14
	addq	-56(%rsp), %r14                 # 8-byte Folded Reload
	orq	%rbx, %r14
	movq	%rdx, %r11
	shrq	%r11
	andq	%rcx, %r11
	andq	%rbp, %r11
	shrq	$2, %rdx
	movq	%rdx, %r12
	andq	%r14, %r12
	andq	%r11, %r12
	notq	%r14
	orq	%rdx, %r14
	andq	%r11, %r14
	notq	%rcx
	andq	%rbp, %rcx
	orq	%r14, %rcx
	leaq	(%rcx,%rcx), %rdx
	shlq	$2, %r14
	shlq	$3, %r12
	orq	%r14, %r12
	orq	%rdx, %r12
	orq	%rcx, %r12
	notl	%edi
	shlq	$33, %rdi
	movabsq	$-9223372036854775808, %rcx     # imm = 0x8000000000000000
	andq	%r13, %rcx
	andq	%rdi, %rcx
	movabsq	$4611686018427387904, %rdx      # imm = 0x4000000000000000
	andq	-64(%rsp), %rdx                 # 8-byte Folded Reload
	movabsq	$2305843009213693952, %rdi      # imm = 0x2000000000000000
	andq	%rbx, %rdi
	orq	%rdx, %rdi
	orq	%rcx, %rdi
	movl	$64, %edx
	rep		bsfq	%rdi, %rdx
	notq	%r12
	movl	%edx, %ecx
	negb	%cl
	shlq	%cl, %r15
	shrq	%cl, %r15
	andq	%r12, %r15
	je	.LBB20_6
# %bb.7:                                # %join.5.i.preheader
                                        #   in Loop: Header=BB20_1 Depth=1
	movq	%r15, %rdi
	movq	%r10, %rcx
	.p2align	4
.LBB20_8:                               # %join.5.i
                                        #   Parent Loop BB20_1 Depth=1
                                        # =>  This Inner Loop Header: Depth=2
	movq	%rdi, %r11
	rep		bsfq	%rdi, %rdi
	leaq	(%rdi,%r10), %rbx
	movups	(%rsi,%rcx), %xmm0
	movups	16(%rsi,%rcx), %xmm1
	movups	%xmm1, 16(%rax,%r9)
	movups	%xmm0, (%rax,%r9)
	movdqu	32(%rsi,%rcx), %xmm0
	movdqu	48(%rsi,%rcx), %xmm1
	movdqu	%xmm1, 48(%rax,%r9)
	movdqu	%xmm0, 32(%rax,%r9)
	subq	%rcx, %rbx
	leaq	(%rbx,%r9), %rcx
	movl	$62767087, (%rax,%rcx)          # imm = 0x3BDBFEF
	leaq	(%rdi,%r10), %rcx
	incq	%rcx
	addq	%rbx, %r9
	addq	$3, %r9
	incq	%r8
	leaq	-1(%r11), %rdi
	andq	%r11, %rdi
	jne	.LBB20_8
	jmp	.LBB20_9
	.p2align	4
.LBB20_6:                               #   in Loop: Header=BB20_1 Depth=1
	movq	%r10, %rcx
.LBB20_9:                               # %"utf_lanes::mending::put_window::<#0a9db3908d7f4f9c>.exit"
                                        #   in Loop: Header=BB20_1 Depth=1
	addq	%rdx, %r10
	movq	%r10, %rdx
	subq	%rcx, %rdx
	addq	%r9, %rdx
	movq	-8(%rsp), %rdi                  # 8-byte Reload
	addq	$2, %rdi
	testq	%r15, %r15
	movups	(%rsi,%rcx), %xmm0
	movups	16(%rsi,%rcx), %xmm1
	movups	%xmm1, 16(%rax,%r9)
	movups	%xmm0, (%rax,%r9)
	movdqu	32(%rsi,%rcx), %xmm0
	movdqu	48(%rsi,%rcx), %xmm1
	movdqu	%xmm1, 48(%rax,%r9)
	movdqu	%xmm0, 32(%rax,%r9)
	movl	$2, %ecx
	cmovneq	%rcx, %rdi
	movq	%rdx, %r9
	cmpq	$4, %rdi
	jb	.LBB20_1
.LBB20_11:                              # %after.1
	movq	-32(%rsp), %rax                 # 8-byte Reload
	movq	%r10, (%rax)
	movq	%r9, 8(%rax)
	movq	%r8, 16(%rax)
	popq	%rbx
	.cfi_def_cfa_offset 48
	popq	%r12
	.cfi_def_cfa_offset 40
	popq	%r13
	.cfi_def_cfa_offset 32
	popq	%r14
	.cfi_def_cfa_offset 24
	popq	%r15
	.cfi_def_cfa_offset 16
	popq	%rbp
	.cfi_def_cfa_offset 8
	retq
.Lfunc_end20:
	.size	"utf_lanes::mending::mend::<#0a9db3908d7f4f9c>", .Lfunc_end20-"utf_lanes::mending::mend::<#0a9db3908d7f4f9c>"
	.cfi_endproc
                                        # -- End function
	.section	.rodata.cst16,"aM",@progbits,16
	.p2align	4, 0x0                          # -- Begin function recoding::kernels::next_text_end
.LCPI21_0:
	.zero	16,15
.LCPI21_1:
	.byte	2                               # 0x2
	.byte	2                               # 0x2
	.byte	2                               # 0x2
	.byte	2                               # 0x2
	.byte	2                               # 0x2
	.byte	2                               # 0x2
	.byte	2                               # 0x2
	.byte	2                               # 0x2
	.byte	128                             # 0x80
	.byte	128                             # 0x80
	.byte	128                             # 0x80
	.byte	128                             # 0x80
	.byte	5                               # 0x5
	.byte	1                               # 0x1
	.byte	25                              # 0x19
	.byte	97                              # 0x61
.LCPI21_2:
	.byte	207                             # 0xcf
	.byte	135                             # 0x87
	.byte	131                             # 0x83
	.byte	131                             # 0x83
	.byte	163                             # 0xa3
	.byte	227                             # 0xe3
	.byte	227                             # 0xe3
	.byte	227                             # 0xe3
	.byte	227                             # 0xe3
	.byte	227                             # 0xe3
	.byte	227                             # 0xe3
	.byte	227                             # 0xe3
	.byte	227                             # 0xe3
	.byte	243                             # 0xf3
	.byte	227                             # 0xe3
	.byte	227                             # 0xe3
.LCPI21_3:
	.byte	1                               # 0x1
	.byte	1                               # 0x1
	.byte	1                               # 0x1
	.byte	1                               # 0x1
	.byte	1                               # 0x1
	.byte	1                               # 0x1
	.byte	1                               # 0x1
	.byte	1                               # 0x1
	.byte	206                             # 0xce
	.byte	174                             # 0xae
	.byte	182                             # 0xb6
	.byte	182                             # 0xb6
	.byte	1                               # 0x1
	.byte	1                               # 0x1
	.byte	1                               # 0x1
	.byte	1                               # 0x1
.LCPI21_4:
	.zero	16,96
.LCPI21_5:
	.zero	16,112
.LCPI21_6:
	.zero	16,128
	.section	".text.recoding::kernels::next_text_end","ax",@progbits
	.p2align	4
	.type	"recoding::kernels::next_text_end",@function
"recoding::kernels::next_text_end":     # @"recoding::kernels::next_text_end"
	.cfi_startproc
# %bb.0:                                # %start
	movq	%rdx, %rax
	addq	$8192, %rdx                     # imm = 0x2000
	cmpq	%rdx, %rsi
	cmovbq	%rsi, %rdx
	cmpq	$3, %rax
	jb	.LBB21_29
# %bb.1:                                # %then.2
	cmpb	$-65, -1(%rdi,%rax)
	ja	.LBB21_29
# %bb.2:                                # %join.3.i
	cmpb	$-33, -2(%rdi,%rax)
	ja	.LBB21_29
# %bb.3:                                # %"utf_lanes::text_blocks::ends_character.exit"
	cmpb	$-17, -3(%rdi,%rax)
	ja	.LBB21_29
# %bb.4:                                # %loop.2.i.i.preheader
	movq	%rdx, %rsi
	subq	%rax, %rsi
	movq	%rax, %rcx
	cmpq	$64, %rsi
	jb	.LBB21_24
# %bb.5:                                # %join.5.i.i.lr.ph
	leaq	-64(%rdx), %rsi
	xorl	%r8d, %r8d
	movq	%rax, %rcx
	.p2align	4
.LBB21_6:                               # %join.5.i.i
                                        # =>This Loop Header: Depth=1
                                        #     Child Loop BB21_18 Depth 2
                                        #     Child Loop BB21_11 Depth 2
	movdqu	(%rdi,%rcx), %xmm5
	movdqu	16(%rdi,%rcx), %xmm4
	movdqu	32(%rdi,%rcx), %xmm10
	movdqu	48(%rdi,%rcx), %xmm7
	movdqa	%xmm10, %xmm0
	por	%xmm5, %xmm0
	movdqa	%xmm7, %xmm1
	por	%xmm4, %xmm1
	por	%xmm0, %xmm1
	pmovmskb	%xmm1, %r9d
	testl	%r9d, %r9d
	jne	.LBB21_17
# %bb.7:                                # %then.7.i.i
                                        #   in Loop: Header=BB21_6 Depth=1
	cmpb	$-65, -1(%rdi,%rcx)
	ja	.LBB21_17
# %bb.8:                                # %join.3.i.i
                                        #   in Loop: Header=BB21_6 Depth=1
	cmpb	$-33, -2(%rdi,%rcx)
	ja	.LBB21_17
# %bb.9:                                # %"utf_lanes::text_blocks::ends_character.exit.i"
                                        #   in Loop: Header=BB21_6 Depth=1
	cmpb	$-17, -3(%rdi,%rcx)
	ja	.LBB21_17
# %bb.10:                               # %then.10.i.i
                                        #   in Loop: Header=BB21_6 Depth=1
	addq	$64, %rcx
	movq	%rdx, %r8
	subq	%rcx, %r8
	cmpq	$128, %r8
	jb	.LBB21_13
.LBB21_11:                              # %join.5.i22.i
                                        #   Parent Loop BB21_6 Depth=1
                                        # =>  This Inner Loop Header: Depth=2
	movdqu	(%rdi,%rcx), %xmm0
	movdqu	16(%rdi,%rcx), %xmm1
	movdqu	32(%rdi,%rcx), %xmm2
	por	%xmm0, %xmm2
	movdqu	48(%rdi,%rcx), %xmm0
	por	%xmm1, %xmm0
	por	%xmm2, %xmm0
	movdqu	64(%rdi,%rcx), %xmm1
	movdqu	80(%rdi,%rcx), %xmm2
	movdqu	96(%rdi,%rcx), %xmm3
	por	%xmm1, %xmm3
	movdqu	112(%rdi,%rcx), %xmm1
	por	%xmm2, %xmm1
	por	%xmm3, %xmm1
	por	%xmm0, %xmm1
	pmovmskb	%xmm1, %r9d
	testl	%r9d, %r9d
	jne	.LBB21_16
# %bb.12:                               # %join.8.i.i
                                        #   in Loop: Header=BB21_11 Depth=2
	subq	$-128, %rcx
	addq	$-128, %r8
	cmpq	$127, %r8
	ja	.LBB21_11
.LBB21_13:                              # %"utf_lanes::ascii_texts::ascii_end::<=2>.exit.i"
                                        #   in Loop: Header=BB21_6 Depth=1
	cmpq	$64, %r8
	jb	.LBB21_14
# %bb.15:                               # %"utf_lanes::ascii_texts::ascii_end::<=2>.exit.i.then.2.i.i_crit_edge"
                                        #   in Loop: Header=BB21_6 Depth=1
	movdqu	(%rdi,%rcx), %xmm0
	movdqu	16(%rdi,%rcx), %xmm1
	movdqu	32(%rdi,%rcx), %xmm2
	por	%xmm0, %xmm2
	movdqu	48(%rdi,%rcx), %xmm0
	por	%xmm1, %xmm0
	por	%xmm2, %xmm0
.LBB21_16:                              # %then.2.i.i
                                        #   in Loop: Header=BB21_6 Depth=1
	pxor	%xmm1, %xmm1
	pcmpgtb	%xmm0, %xmm1
	pmovmskb	%xmm1, %r8d
	leaq	64(%rcx), %r9
	testl	%r8d, %r8d
	cmoveq	%r9, %rcx
	xorl	%r8d, %r8d
	movq	%rdx, %r9
	subq	%rcx, %r9
	cmpq	$63, %r9
	ja	.LBB21_6
	jmp	.LBB21_24
	.p2align	4
.LBB21_17:                              # %join.9.i.i
                                        #   in Loop: Header=BB21_6 Depth=1
	movdqu	15(%rdi,%rcx), %xmm3
	movdqu	14(%rdi,%rcx), %xmm6
	movdqu	-3(%rdi,%rcx), %xmm9
	movdqu	-2(%rdi,%rcx), %xmm11
	movdqu	-1(%rdi,%rcx), %xmm12
	movdqu	13(%rdi,%rcx), %xmm8
	movdqa	%xmm3, %xmm2
	psrlw	$4, %xmm2
	movdqa	.LCPI21_0(%rip), %xmm0          # xmm0 = [15,15,15,15,15,15,15,15,15,15,15,15,15,15,15,15]
	pand	%xmm0, %xmm2
	movdqa	%xmm12, %xmm13
	psrlw	$4, %xmm13
	pand	%xmm0, %xmm13
	movdqa	.LCPI21_1(%rip), %xmm1          # xmm1 = [2,2,2,2,2,2,2,2,128,128,128,128,5,1,25,97]
	movdqa	%xmm1, %xmm14
	pshufb	%xmm13, %xmm14
	movdqa	%xmm1, %xmm13
	pshufb	%xmm2, %xmm13
	pand	%xmm0, %xmm3
	pand	%xmm0, %xmm12
	movdqa	.LCPI21_2(%rip), %xmm2          # xmm2 = [207,135,131,131,163,227,227,227,227,227,227,227,227,243,227,227]
	movdqa	%xmm2, %xmm15
	pshufb	%xmm12, %xmm15
	pand	%xmm14, %xmm15
	movdqa	%xmm2, %xmm12
	pshufb	%xmm3, %xmm12
	pand	%xmm13, %xmm12
	psrlw	$4, %xmm4
	pand	%xmm0, %xmm4
	psrlw	$4, %xmm5
	pand	%xmm0, %xmm5
	movdqa	.LCPI21_3(%rip), %xmm3          # xmm3 = [1,1,1,1,1,1,1,1,206,174,182,182,1,1,1,1]
	movdqa	%xmm3, %xmm13
	pshufb	%xmm5, %xmm13
	pand	%xmm15, %xmm13
	movdqa	%xmm3, %xmm14
	pshufb	%xmm4, %xmm14
	pand	%xmm12, %xmm14
	movdqa	.LCPI21_4(%rip), %xmm4          # xmm4 = [96,96,96,96,96,96,96,96,96,96,96,96,96,96,96,96]
	psubusb	%xmm4, %xmm11
	psubusb	%xmm4, %xmm6
	movdqa	.LCPI21_5(%rip), %xmm5          # xmm5 = [112,112,112,112,112,112,112,112,112,112,112,112,112,112,112,112]
	psubusb	%xmm5, %xmm9
	por	%xmm11, %xmm9
	psubusb	%xmm5, %xmm8
	por	%xmm6, %xmm8
	movdqa	.LCPI21_6(%rip), %xmm6          # xmm6 = [128,128,128,128,128,128,128,128,128,128,128,128,128,128,128,128]
	pand	%xmm6, %xmm9
	pcmpeqb	%xmm13, %xmm9
	pand	%xmm6, %xmm8
	pcmpeqb	%xmm14, %xmm8
	movdqu	31(%rdi,%rcx), %xmm11
	movdqu	47(%rdi,%rcx), %xmm12
	movdqa	%xmm12, %xmm13
	psrlw	$4, %xmm13
	pand	%xmm0, %xmm13
	movdqa	%xmm11, %xmm14
	psrlw	$4, %xmm14
	pand	%xmm0, %xmm14
	movdqa	%xmm1, %xmm15
	pshufb	%xmm14, %xmm15
	movdqa	%xmm1, %xmm14
	pshufb	%xmm13, %xmm14
	pand	%xmm0, %xmm11
	movdqa	%xmm2, %xmm13
	pshufb	%xmm11, %xmm13
	pand	%xmm0, %xmm12
	pand	%xmm15, %xmm13
	movdqa	%xmm2, %xmm11
	pshufb	%xmm12, %xmm11
	pand	%xmm14, %xmm11
	psrlw	$4, %xmm10
	pand	%xmm0, %xmm10
	movdqa	%xmm3, %xmm12
	pshufb	%xmm10, %xmm12
	movdqu	46(%rdi,%rcx), %xmm10
	psrlw	$4, %xmm7
	pand	%xmm0, %xmm7
	pand	%xmm13, %xmm12
	movdqa	%xmm3, %xmm13
	pshufb	%xmm7, %xmm13
	movdqu	30(%rdi,%rcx), %xmm7
	pand	%xmm11, %xmm13
	movdqu	29(%rdi,%rcx), %xmm11
	psubusb	%xmm4, %xmm7
	psubusb	%xmm5, %xmm11
	por	%xmm7, %xmm11
	movdqu	45(%rdi,%rcx), %xmm7
	psubusb	%xmm4, %xmm10
	psubusb	%xmm5, %xmm7
	por	%xmm10, %xmm7
	pand	%xmm6, %xmm11
	pcmpeqb	%xmm12, %xmm11
	pand	%xmm9, %xmm11
	pand	%xmm6, %xmm7
	pcmpeqb	%xmm13, %xmm7
	pand	%xmm8, %xmm7
	pand	%xmm11, %xmm7
	pmovmskb	%xmm7, %r10d
	leaq	(%rcx,%r8), %r9
	cmpq	%r9, %rsi
	cmovbq	%rsi, %r9
	cmpl	$65535, %r10d                   # imm = 0xFFFF
	jne	.LBB21_21
	.p2align	4
.LBB21_18:                              # %loop.5.i.i
                                        #   Parent Loop BB21_6 Depth=1
                                        # =>  This Inner Loop Header: Depth=2
	movq	%rcx, %r10
	addq	$64, %rcx
	cmpq	%r9, %rcx
	ja	.LBB21_20
# %bb.19:                               # %join.8.i44.i
                                        #   in Loop: Header=BB21_18 Depth=2
	movdqu	80(%rdi,%r10), %xmm8
	movdqu	61(%rdi,%r10), %xmm7
	movdqu	63(%rdi,%r10), %xmm9
	movdqu	79(%rdi,%r10), %xmm10
	movdqa	%xmm10, %xmm11
	psrlw	$4, %xmm11
	pand	%xmm0, %xmm11
	movdqa	%xmm9, %xmm12
	psrlw	$4, %xmm12
	pand	%xmm0, %xmm12
	movdqa	%xmm1, %xmm13
	pshufb	%xmm12, %xmm13
	movdqa	%xmm1, %xmm12
	pshufb	%xmm11, %xmm12
	pand	%xmm0, %xmm9
	movdqa	%xmm2, %xmm11
	pshufb	%xmm9, %xmm11
	movdqu	62(%rdi,%r10), %xmm9
	pand	%xmm0, %xmm10
	pand	%xmm13, %xmm11
	movdqa	%xmm2, %xmm13
	pshufb	%xmm10, %xmm13
	movdqu	64(%rdi,%r10), %xmm10
	pand	%xmm12, %xmm13
	psrlw	$4, %xmm10
	pand	%xmm0, %xmm10
	movdqa	%xmm3, %xmm12
	pshufb	%xmm10, %xmm12
	movdqu	78(%rdi,%r10), %xmm10
	psrlw	$4, %xmm8
	pand	%xmm0, %xmm8
	pand	%xmm11, %xmm12
	movdqa	%xmm3, %xmm11
	pshufb	%xmm8, %xmm11
	movdqu	77(%rdi,%r10), %xmm8
	pand	%xmm13, %xmm11
	psubusb	%xmm4, %xmm9
	psubusb	%xmm4, %xmm10
	psubusb	%xmm5, %xmm7
	por	%xmm9, %xmm7
	psubusb	%xmm5, %xmm8
	por	%xmm10, %xmm8
	pand	%xmm6, %xmm7
	pcmpeqb	%xmm12, %xmm7
	pand	%xmm6, %xmm8
	pcmpeqb	%xmm11, %xmm8
	movdqu	95(%rdi,%r10), %xmm9
	movdqu	111(%rdi,%r10), %xmm10
	movdqa	%xmm10, %xmm11
	psrlw	$4, %xmm11
	pand	%xmm0, %xmm11
	movdqa	%xmm9, %xmm12
	psrlw	$4, %xmm12
	pand	%xmm0, %xmm12
	movdqa	%xmm1, %xmm13
	pshufb	%xmm12, %xmm13
	movdqa	%xmm1, %xmm12
	pshufb	%xmm11, %xmm12
	pand	%xmm0, %xmm9
	movdqa	%xmm2, %xmm11
	pshufb	%xmm9, %xmm11
	movdqu	96(%rdi,%r10), %xmm9
	pand	%xmm0, %xmm10
	pand	%xmm13, %xmm11
	movdqa	%xmm2, %xmm13
	pshufb	%xmm10, %xmm13
	movdqu	112(%rdi,%r10), %xmm10
	pand	%xmm12, %xmm13
	psrlw	$4, %xmm9
	pand	%xmm0, %xmm9
	movdqa	%xmm3, %xmm12
	pshufb	%xmm9, %xmm12
	movdqu	110(%rdi,%r10), %xmm9
	psrlw	$4, %xmm10
	pand	%xmm0, %xmm10
	pand	%xmm11, %xmm12
	movdqa	%xmm3, %xmm11
	pshufb	%xmm10, %xmm11
	movdqu	94(%rdi,%r10), %xmm10
	pand	%xmm13, %xmm11
	movdqu	93(%rdi,%r10), %xmm13
	psubusb	%xmm4, %xmm10
	psubusb	%xmm5, %xmm13
	por	%xmm10, %xmm13
	movdqu	109(%rdi,%r10), %xmm10
	psubusb	%xmm4, %xmm9
	psubusb	%xmm5, %xmm10
	por	%xmm9, %xmm10
	pand	%xmm6, %xmm13
	pcmpeqb	%xmm12, %xmm13
	pand	%xmm7, %xmm13
	pand	%xmm6, %xmm10
	pcmpeqb	%xmm11, %xmm10
	pand	%xmm8, %xmm10
	pand	%xmm13, %xmm10
	pmovmskb	%xmm10, %r11d
	cmpl	$65535, %r11d                   # imm = 0xFFFF
	je	.LBB21_18
.LBB21_20:                              # %"utf_lanes::text_blocks::batch_end.exit.i.loopexit"
                                        #   in Loop: Header=BB21_6 Depth=1
	addq	$64, %r10
	movq	%r10, %rcx
.LBB21_21:                              # %"utf_lanes::text_blocks::batch_end.exit.i"
                                        #   in Loop: Header=BB21_6 Depth=1
	cmpq	%r9, %rcx
	jbe	.LBB21_24
# %bb.22:                               # %join.16.i.i
                                        #   in Loop: Header=BB21_6 Depth=1
	leaq	64(,%r8,2), %r9
	cmpq	$960, %r9                       # imm = 0x3C0
	movl	$960, %r8d                      # imm = 0x3C0
	cmovbq	%r9, %r8
	movq	%rdx, %r9
	subq	%rcx, %r9
	cmpq	$63, %r9
	ja	.LBB21_6
	jmp	.LBB21_24
.LBB21_14:                              #   in Loop: Header=BB21_6 Depth=1
	xorl	%r8d, %r8d
	movq	%rdx, %r9
	subq	%rcx, %r9
	cmpq	$63, %r9
	ja	.LBB21_6
.LBB21_24:                              # %"utf_lanes::text_blocks::valid_len_in_batches.exit.i"
	leaq	(%rcx,%rdi), %rdx
	decq	%rdx
	subq	%rax, %rcx
	.p2align	4
.LBB21_25:                              # %loop.2.i59.i
                                        # =>This Inner Loop Header: Depth=1
	testq	%rcx, %rcx
	je	.LBB21_26
# %bb.27:                               # %join.5.i61.i
                                        #   in Loop: Header=BB21_25 Depth=1
	decq	%rcx
	cmpb	$-64, (%rdx)
	leaq	-1(%rdx), %rdx
	jl	.LBB21_25
	jmp	.LBB21_28
.LBB21_26:
	xorl	%ecx, %ecx
.LBB21_28:                              # %"utf_lanes::text_blocks::text_end.exit"
	addq	%rcx, %rax
.LBB21_29:                              # %common.ret
	retq
.Lfunc_end21:
	.size	"recoding::kernels::next_text_end", .Lfunc_end21-"recoding::kernels::next_text_end"
	.cfi_endproc
                                        # -- End function
	.section	".text.recoding::engine::recode_faults::<#e51b733afd1efe0d>","ax",@progbits
	.p2align	4                               # -- Begin function recoding::engine::recode_faults::<#e51b733afd1efe0d>
	.type	"recoding::engine::recode_faults::<#e51b733afd1efe0d>",@function
"recoding::engine::recode_faults::<#e51b733afd1efe0d>": # @"recoding::engine::recode_faults::<#e51b733afd1efe0d>"
	.cfi_startproc
# %bb.0:                                # %start
	pushq	%rbp
	.cfi_def_cfa_offset 16
	pushq	%r15
	.cfi_def_cfa_offset 24
	pushq	%r14
	.cfi_def_cfa_offset 32
	pushq	%r13
	.cfi_def_cfa_offset 40
	pushq	%r12
	.cfi_def_cfa_offset 48
	pushq	%rbx
	.cfi_def_cfa_offset 56
	subq	$40, %rsp
	.cfi_def_cfa_offset 96
	.cfi_offset %rbx, -56
	.cfi_offset %r12, -48
	.cfi_offset %r13, -40
	.cfi_offset %r14, -32
	.cfi_offset %r15, -24
	.cfi_offset %rbp, -16
	movq	%rcx, %r14
	movq	%rsi, %r10
	movq	%rdi, 8(%rsp)                   # 8-byte Spill
	movl	$16, %r9d
	xorl	%ecx, %ecx
	xorl	%r11d, %r11d
	jmp	.LBB22_1
.LBB22_40:                              # %arm.10.i.i
                                        #   in Loop: Header=BB22_1 Depth=1
	movq	%rdi, %rbp
	leaq	(%r10,%r12), %rdi
	movq	%r13, %rsi
	movq	%rdx, %r13
	movq	%r10, %r15
	callq	"recoding::next_scalar::is_front_of_code"
	movq	%rbp, %rdi
	movq	%r15, %r10
	movq	%r13, %rdx
	testb	%al, %al
	movq	%rbx, %r11
	jne	.LBB22_41
	.p2align	4
.LBB22_48:                              # %"recoding::text::Utf8Text::put_any::<#345d457c2768aa28>.exit"
                                        #   in Loop: Header=BB22_1 Depth=1
	cmpq	$32, %rdi
	movl	$32, %r9d
	cmovbq	%rdi, %r9
	movq	(%r14), %rax
	movq	8(%r14), %rcx
	movb	$-17, (%rax,%rcx)
	movq	(%r14), %rax
	movb	$-65, 1(%rax,%rcx)
	movq	(%r14), %rax
	movb	$-67, 2(%rax,%rcx)
	addq	$3, %rcx
	movq	%rcx, 8(%r14)
	incq	%r11
	movl	$1, %ecx
.LBB22_44:                              # %join.12
                                        #   in Loop: Header=BB22_1 Depth=1
	addq	%r12, %rcx
	cmpq	%r9, %rcx
	jae	.LBB22_45
.LBB22_1:                               # %join.5
                                        # =>This Inner Loop Header: Depth=1
	movq	%rcx, %r12
	leaq	4(%rcx), %rdi
	cmpq	%rdx, %rdi
	jbe	.LBB22_2
# %bb.22:                               # %join.3.i59
                                        #   in Loop: Header=BB22_1 Depth=1
	movq	%rdx, %r13
	subq	%r12, %r13
	cmpq	$4, %r13
	jb	.LBB22_23
.LBB22_2:                               # %then.1.i54
                                        #   in Loop: Header=BB22_1 Depth=1
	movzbl	(%r10,%r12), %eax
	testb	%al, %al
	js	.LBB22_5
# %bb.3:                                # %"utf_lanes::text_front::front_of_text.exit139.i.thread"
                                        #   in Loop: Header=BB22_1 Depth=1
	movl	$1, %ecx
.LBB22_4:                               # %then.1.i38
                                        #   in Loop: Header=BB22_1 Depth=1
	movq	(%r14), %rdi
	movq	8(%r14), %rsi
	movb	%al, (%rdi,%rsi)
	incq	%rsi
	movq	%rsi, 8(%r14)
	jmp	.LBB22_44
	.p2align	4
.LBB22_5:                               # %join.6.i104.i
                                        #   in Loop: Header=BB22_1 Depth=1
	movzbl	1(%r10,%r12), %ecx
	cmpb	$-32, %al
	jae	.LBB22_6
# %bb.19:                               # %"utf_lanes::text_front::front_of_text.exit139.i"
                                        #   in Loop: Header=BB22_1 Depth=1
	cmpb	$-62, %al
	jb	.LBB22_48
# %bb.20:                               # %"utf_lanes::text_front::front_of_text.exit139.i"
                                        #   in Loop: Header=BB22_1 Depth=1
	xorl	$128, %ecx
	cmpb	$63, %cl
	ja	.LBB22_48
# %bb.21:                               #   in Loop: Header=BB22_1 Depth=1
	shll	$6, %eax
	addl	%ecx, %eax
	addl	$-12288, %eax                   # imm = 0xD000
	movl	$2, %ecx
.LBB22_34:                              # %arm.10
                                        #   in Loop: Header=BB22_1 Depth=1
	cmpl	$128, %eax
	jb	.LBB22_4
# %bb.35:                               # %join.3.i
                                        #   in Loop: Header=BB22_1 Depth=1
	movq	%r9, %r15
	movl	%eax, %r9d
	andl	$63, %r9d
	orl	$128, %r9d
	cmpl	$2048, %eax                     # imm = 0x800
	jae	.LBB22_17
# %bb.36:                               # %then.4.i
                                        #   in Loop: Header=BB22_1 Depth=1
	shrl	$6, %eax
	orb	$-64, %al
	movq	(%r14), %rsi
	movq	8(%r14), %rdi
	movb	%al, (%rsi,%rdi)
	movq	(%r14), %rax
	movb	%r9b, 1(%rax,%rdi)
	addq	$2, %rdi
	movq	%rdi, 8(%r14)
	jmp	.LBB22_43
	.p2align	4
.LBB22_23:                              # %join.3.i.i
                                        #   in Loop: Header=BB22_1 Depth=1
	movq	%r11, %rbx
	cmpq	%r12, %rdx
	je	.LBB22_40
# %bb.24:                               # %join.3.i316.i
                                        #   in Loop: Header=BB22_1 Depth=1
	movzbl	(%r10,%r12), %ecx
	leaq	.Lstatic.8(%rip), %rax
	movzbl	(%rcx,%rax), %eax
	leaq	.Lstatic.9(%rip), %r15
	movzbl	(%rax,%r15), %ebp
	cmpq	$12, %rbp
	jbe	.LBB22_25
# %bb.37:                               # %join.6.i321.i
                                        #   in Loop: Header=BB22_1 Depth=1
	cmpl	$13, %ebp
	movq	%rbx, %r11
	jne	.LBB22_48
# %bb.38:                               # %join.9.i323.i
                                        #   in Loop: Header=BB22_1 Depth=1
	testb	%cl, %cl
	js	.LBB22_47
# %bb.39:                               # %"utf_chars::codes::utf8::decode_start.exit.i.thread475"
                                        #   in Loop: Header=BB22_1 Depth=1
	movq	%rcx, %rax
	movl	$1, %ecx
                                        # kill: def $eax killed $eax killed $rax def $rax
	jmp	.LBB22_4
.LBB22_6:                               # %join.9.i106.i
                                        #   in Loop: Header=BB22_1 Depth=1
	cmpb	$-65, %cl
	jg	.LBB22_48
# %bb.7:                                # %join.12.i113.i
                                        #   in Loop: Header=BB22_1 Depth=1
	movl	%eax, %esi
	andl	$15, %eax
	andl	$63, %ecx
	shll	$6, %eax
	orl	%ecx, %eax
	cmpb	$-17, %sil
	ja	.LBB22_12
# %bb.8:                                # %then.13.i125.i
                                        #   in Loop: Header=BB22_1 Depth=1
	movl	%eax, %ecx
	andl	$-32, %ecx
	cmpl	$864, %ecx                      # imm = 0x360
	je	.LBB22_48
# %bb.9:                                # %join.3.i187.i
                                        #   in Loop: Header=BB22_1 Depth=1
	movzbl	2(%r10,%r12), %esi
	cmpb	$-65, %sil
	jg	.LBB22_48
# %bb.10:                               # %join.3.i187.i
                                        #   in Loop: Header=BB22_1 Depth=1
	cmpl	$32, %eax
	jb	.LBB22_48
# %bb.11:                               # %join.9.i191.i
                                        #   in Loop: Header=BB22_1 Depth=1
	movq	%r9, %r15
	shll	$6, %eax
	andl	$63, %esi
	orl	%eax, %esi
	movl	$3, %ecx
	jmp	.LBB22_16
.LBB22_12:                              # %else.14.i116.i
                                        #   in Loop: Header=BB22_1 Depth=1
	leal	-272(%rax), %ecx
	cmpl	$-256, %ecx
	jb	.LBB22_48
# %bb.13:                               # %after.1.i.i
                                        #   in Loop: Header=BB22_1 Depth=1
	movzbl	2(%r10,%r12), %esi
	cmpb	$-65, %sil
	jg	.LBB22_48
# %bb.14:                               # %else.14.i254.i
                                        #   in Loop: Header=BB22_1 Depth=1
	movzbl	3(%r10,%r12), %ecx
	cmpb	$-65, %cl
	jg	.LBB22_48
# %bb.15:                               # %after.11.i.i
                                        #   in Loop: Header=BB22_1 Depth=1
	movq	%r9, %r15
	andl	$63, %esi
	andl	$63, %ecx
	shll	$12, %eax
	shll	$6, %esi
	orl	%eax, %esi
	orl	%ecx, %esi
	movl	$4, %ecx
.LBB22_16:                              # %join.3.i.thread
                                        #   in Loop: Header=BB22_1 Depth=1
	movl	%esi, %eax
	movl	%esi, %r9d
	andl	$63, %r9d
	orl	$128, %r9d
.LBB22_17:                              # %join.7.i
                                        #   in Loop: Header=BB22_1 Depth=1
	movl	%eax, %esi
	shrl	$6, %esi
	andl	$63, %esi
	orl	$128, %esi
	cmpl	$65536, %eax                    # imm = 0x10000
	jae	.LBB22_42
# %bb.18:                               # %then.7.i
                                        #   in Loop: Header=BB22_1 Depth=1
	shrl	$12, %eax
	orb	$-32, %al
	movq	(%r14), %rdi
	movq	8(%r14), %r8
	movb	%al, (%rdi,%r8)
	movq	(%r14), %rax
	movb	%sil, 1(%rax,%r8)
	movq	(%r14), %rax
	movb	%r9b, 2(%rax,%r8)
	addq	$3, %r8
	movq	%r8, 8(%r14)
	jmp	.LBB22_43
.LBB22_42:                              # %join.9.i
                                        #   in Loop: Header=BB22_1 Depth=1
	movl	%eax, %edi
	shrl	$18, %edi
	shrl	$4, %eax
	andl	$16128, %eax                    # imm = 0x3F00
	movl	%edi, %r8d
	addl	$240, %edi
	addl	%r8d, %eax
	addl	$33008, %eax                    # imm = 0x80F0
	movq	(%r14), %r8
	movq	8(%r14), %rbx
	movb	%dil, (%r8,%rbx)
	movq	(%r14), %rdi
	movb	%ah, 1(%rdi,%rbx)
	shrl	$16, %eax
	addl	%esi, %eax
	movq	(%r14), %rsi
	movb	%al, 2(%rsi,%rbx)
	movq	(%r14), %rax
	movb	%r9b, 3(%rax,%rbx)
	addq	$4, %rbx
	movq	%rbx, 8(%r14)
.LBB22_43:                              # %join.12
                                        #   in Loop: Header=BB22_1 Depth=1
	movq	%r15, %r9
	jmp	.LBB22_44
.LBB22_25:                              # %then.4.i333.i
                                        #   in Loop: Header=BB22_1 Depth=1
	movq	%rcx, (%rsp)                    # 8-byte Spill
	movl	%ebp, %edi
	movq	%rdx, 32(%rsp)                  # 8-byte Spill
	movq	%r10, 24(%rsp)                  # 8-byte Spill
	movq	%r9, 16(%rsp)                   # 8-byte Spill
	callq	"utf_chars::codes::utf8::missing_after"
	leaq	4(%r12), %rdi
	movq	16(%rsp), %r9                   # 8-byte Reload
	movq	24(%rsp), %r10                  # 8-byte Reload
	movq	32(%rsp), %rdx                  # 8-byte Reload
	cmpq	%rax, %r13
	jbe	.LBB22_40
# %bb.26:                               # %join.3.i351.i
                                        #   in Loop: Header=BB22_1 Depth=1
	movzbl	1(%r10,%r12), %r8d
	leaq	.Lstatic.8(%rip), %r11
	movzbl	(%r8,%r11), %eax
	shll	$4, %ebp
	addq	%r15, %rbp
	movzbl	(%rax,%rbp), %eax
	cmpq	$12, %rax
	ja	.LBB22_32
# %bb.27:                               # %then.1.i379.i
                                        #   in Loop: Header=BB22_1 Depth=1
	movzbl	2(%r10,%r12), %esi
	movzbl	(%rsi,%r11), %ecx
	shll	$4, %eax
	addq	%r15, %rax
	movzbl	(%rcx,%rax), %ecx
	cmpq	$12, %rcx
	movq	%r11, %r13
	movq	%rbx, %r11
	ja	.LBB22_30
# %bb.28:                               # %then.1.i418.i
                                        #   in Loop: Header=BB22_1 Depth=1
	movzbl	3(%r10,%r12), %eax
	movzbl	(%rax,%r13), %edi
	shll	$4, %ecx
	addq	%rcx, %r15
	cmpb	$13, (%rdi,%r15)
	leaq	4(%r12), %rdi
	movq	(%rsp), %rcx                    # 8-byte Reload
	jne	.LBB22_48
# %bb.29:                               # %join.3.i436.i
                                        #   in Loop: Header=BB22_1 Depth=1
	andl	$7, %ecx
	andl	$63, %r8d
	shll	$12, %ecx
	shll	$6, %r8d
	orl	%ecx, %r8d
	andl	$63, %esi
	orl	%r8d, %esi
	shll	$6, %esi
	andl	$63, %eax
	orl	%esi, %eax
	movl	$4, %ecx
	jmp	.LBB22_34
.LBB22_32:                              # %join.3.i366.i
                                        #   in Loop: Header=BB22_1 Depth=1
	cmpl	$13, %eax
	movq	%rbx, %r11
	movq	(%rsp), %rax                    # 8-byte Reload
	jne	.LBB22_48
# %bb.33:                               # %"utf_chars::codes::utf8::decode_start.exit.i.thread556"
                                        #   in Loop: Header=BB22_1 Depth=1
	andl	$31, %eax
	shll	$6, %eax
	andl	$63, %r8d
	orl	%eax, %r8d
	movl	$2, %ecx
	movl	%r8d, %eax
	jmp	.LBB22_34
.LBB22_30:                              # %join.3.i399.i
                                        #   in Loop: Header=BB22_1 Depth=1
	cmpl	$13, %ecx
	movq	(%rsp), %rax                    # 8-byte Reload
	jne	.LBB22_48
# %bb.31:                               # %join.6.i401.i
                                        #   in Loop: Header=BB22_1 Depth=1
	andl	$15, %eax
	andl	$63, %r8d
	shll	$12, %eax
	shll	$6, %r8d
	orl	%eax, %r8d
	andl	$63, %esi
	orl	%r8d, %esi
	movl	$3, %ecx
	movl	%esi, %eax
	jmp	.LBB22_34
.LBB22_45:                              # %after.1
	movq	8(%rsp), %rax                   # 8-byte Reload
	movq	%rcx, (%rax)
	movq	%r11, 8(%rax)
	movq	$0, 16(%rax)
.LBB22_46:                              # %after.1
	addq	$40, %rsp
	.cfi_def_cfa_offset 56
	popq	%rbx
	.cfi_def_cfa_offset 48
	popq	%r12
	.cfi_def_cfa_offset 40
	popq	%r13
	.cfi_def_cfa_offset 32
	popq	%r14
	.cfi_def_cfa_offset 24
	popq	%r15
	.cfi_def_cfa_offset 16
	popq	%rbp
	.cfi_def_cfa_offset 8
	retq
.LBB22_41:                              # %arm.7
	.cfi_def_cfa_offset 96
	movq	8(%rsp), %rax                   # 8-byte Reload
	movq	%r12, (%rax)
	movq	%r11, 8(%rax)
	movw	$256, 16(%rax)                  # imm = 0x100
	movl	$0, 18(%rax)
	movw	$0, 22(%rax)
	jmp	.LBB22_46
.LBB22_47:                              # %join.4.i.i
	ud2
.Lfunc_end22:
	.size	"recoding::engine::recode_faults::<#e51b733afd1efe0d>", .Lfunc_end22-"recoding::engine::recode_faults::<#e51b733afd1efe0d>"
	.cfi_endproc
                                        # -- End function
	.section	".text.recoding::recoder_runs::run_whole::<#2857ed0d0693875d>","ax",@progbits
	.p2align	4                               # -- Begin function recoding::recoder_runs::run_whole::<#2857ed0d0693875d>
	.type	"recoding::recoder_runs::run_whole::<#2857ed0d0693875d>",@function
"recoding::recoder_runs::run_whole::<#2857ed0d0693875d>": # @"recoding::recoder_runs::run_whole::<#2857ed0d0693875d>"
	.cfi_startproc
# %bb.0:                                # %start
	pushq	%rbp
	.cfi_def_cfa_offset 16
	pushq	%r15
	.cfi_def_cfa_offset 24
	pushq	%r14
	.cfi_def_cfa_offset 32
	pushq	%r13
	.cfi_def_cfa_offset 40
	pushq	%r12
	.cfi_def_cfa_offset 48
	pushq	%rbx
	.cfi_def_cfa_offset 56
	subq	$184, %rsp
	.cfi_def_cfa_offset 240
	.cfi_offset %rbx, -56
	.cfi_offset %r12, -48
	.cfi_offset %r13, -40
	.cfi_offset %r14, -32
	.cfi_offset %r15, -24
	.cfi_offset %rbp, -16
	movq	%rdx, %r12
	movq	%rsi, 8(%rsp)                   # 8-byte Spill
	leaq	32(%rdi), %rax
	movq	%rax, 112(%rsp)                 # 8-byte Spill
	leaq	96(%rdi), %rax
	movq	%rax, 120(%rsp)                 # 8-byte Spill
	movq	%rdi, 16(%rsp)                  # 8-byte Spill
	leaq	1(%rdi), %rax
	movq	%rax, 104(%rsp)                 # 8-byte Spill
	movq	$0, 24(%rsp)                    # 8-byte Folded Spill
	xorl	%r14d, %r14d
	xorl	%r15d, %r15d
	.p2align	4
.LBB23_1:                               # %loop.2.i.outer
                                        # =>This Loop Header: Depth=1
                                        #     Child Loop BB23_6 Depth 2
                                        #       Child Loop BB23_15 Depth 3
                                        #       Child Loop BB23_25 Depth 3
                                        #       Child Loop BB23_11 Depth 3
                                        #       Child Loop BB23_35 Depth 3
                                        #       Child Loop BB23_19 Depth 3
                                        #       Child Loop BB23_45 Depth 3
                                        #     Child Loop BB23_58 Depth 2
	movq	%r14, 32(%rsp)                  # 8-byte Spill
	jmp	.LBB23_6
	.p2align	4
.LBB23_2:                               # %else.4.i
                                        #   in Loop: Header=BB23_6 Depth=2
	movdqu	(%rbx), %xmm0
	movdqu	16(%rbx), %xmm1
	movdqu	32(%rbx), %xmm2
	por	%xmm0, %xmm2
	movdqu	48(%rbx), %xmm0
	por	%xmm1, %xmm0
	por	%xmm2, %xmm0
	pmovmskb	%xmm0, %eax
	testl	%eax, %eax
	movq	%r15, 40(%rsp)                  # 8-byte Spill
	je	.LBB23_18
.LBB23_3:                               #   in Loop: Header=BB23_6 Depth=2
	xorl	%r13d, %r13d
.LBB23_4:                               # %"recoding::ascii_to_utf16::put_ascii_front::<#b3a77c927faee343>.exit"
                                        #   in Loop: Header=BB23_6 Depth=2
	addq	%r13, %rbx
	subq	%r13, %r14
	movq	%rbx, %rdi
	movq	%r14, %rsi
	movq	%r12, %rdx
	callq	"recoding::kernels::put_judged::<#87c24961b7620b58>"
	movq	%rax, %r14
	addq	%r13, %r14
	movq	40(%rsp), %r15                  # 8-byte Reload
.LBB23_5:                               # %"recoding::kernels::WidenedKernelUtf8Utf16::put_text::<#a02055794059cfb2>.exit"
                                        #   in Loop: Header=BB23_6 Depth=2
	addq	%r14, %r15
	cmpq	$8187, %r14                     # imm = 0x1FFB
	jbe	.LBB23_48
.LBB23_6:                               # %loop.2.i
                                        #   Parent Loop BB23_1 Depth=1
                                        # =>  This Loop Header: Depth=2
                                        #       Child Loop BB23_15 Depth 3
                                        #       Child Loop BB23_25 Depth 3
                                        #       Child Loop BB23_11 Depth 3
                                        #       Child Loop BB23_35 Depth 3
                                        #       Child Loop BB23_19 Depth 3
                                        #       Child Loop BB23_45 Depth 3
	movq	16(%rsp), %rax                  # 8-byte Reload
	leaq	(%rax,%r15), %rbx
	movq	8(%rsp), %rax                   # 8-byte Reload
	subq	%r15, %rax
	cmpq	$8192, %rax                     # imm = 0x2000
	movl	$8192, %r14d                    # imm = 0x2000
	cmovbq	%rax, %r14
	cmpq	$1024, %rax                     # imm = 0x400
	ja	.LBB23_2
# %bb.7:                                # %then.11.i
                                        #   in Loop: Header=BB23_6 Depth=2
	cmpq	$17, %rax
	jae	.LBB23_13
# %bb.8:                                # %then.1.i.i
                                        #   in Loop: Header=BB23_6 Depth=2
	cmpq	$3, %rax
	ja	.LBB23_21
# %bb.9:                                # %loop.2.i.i.preheader
                                        #   in Loop: Header=BB23_6 Depth=2
	cmpq	%r15, 8(%rsp)                   # 8-byte Folded Reload
	je	.LBB23_40
# %bb.10:                               # %join.5.i.i.preheader
                                        #   in Loop: Header=BB23_6 Depth=2
	xorl	%ecx, %ecx
	.p2align	4
.LBB23_11:                              # %join.5.i.i
                                        #   Parent Loop BB23_1 Depth=1
                                        #     Parent Loop BB23_6 Depth=2
                                        # =>    This Inner Loop Header: Depth=3
	cmpb	$0, (%rbx,%rcx)
	js	.LBB23_28
# %bb.12:                               # %loop.2.i.i
                                        #   in Loop: Header=BB23_11 Depth=3
	incq	%rcx
	cmpq	%rcx, %r14
	jne	.LBB23_11
	jmp	.LBB23_33
	.p2align	4
.LBB23_13:                              # %loop.2.i33.i.preheader
                                        #   in Loop: Header=BB23_6 Depth=2
	cmpq	$64, %rax
	jb	.LBB23_23
# %bb.14:                               # %join.5.i35.i.preheader
                                        #   in Loop: Header=BB23_6 Depth=2
	movq	112(%rsp), %rcx                 # 8-byte Reload
	leaq	(%rcx,%r15), %rdx
	xorl	%ecx, %ecx
	movq	%r14, %rsi
	.p2align	4
.LBB23_15:                              # %join.5.i35.i
                                        #   Parent Loop BB23_1 Depth=1
                                        #     Parent Loop BB23_6 Depth=2
                                        # =>    This Inner Loop Header: Depth=3
	movdqu	-32(%rdx,%rcx), %xmm0
	movdqu	-16(%rdx,%rcx), %xmm1
	movdqu	(%rdx,%rcx), %xmm2
	por	%xmm0, %xmm2
	movdqu	16(%rdx,%rcx), %xmm0
	por	%xmm1, %xmm0
	por	%xmm2, %xmm0
	pmovmskb	%xmm0, %edi
	testl	%edi, %edi
	jne	.LBB23_17
# %bb.16:                               # %join.8.i36.i
                                        #   in Loop: Header=BB23_15 Depth=3
	addq	$64, %rcx
	addq	$-64, %rsi
	cmpq	$63, %rsi
	ja	.LBB23_15
.LBB23_17:                              # %"utf_lanes::ascii_texts::ascii_end::<=1>.exit.i"
                                        #   in Loop: Header=BB23_6 Depth=2
	movq	%r14, %rdx
	subq	%rcx, %rdx
	cmpq	$16, %rdx
	jae	.LBB23_24
	jmp	.LBB23_27
	.p2align	4
.LBB23_18:                              # %then.13.i.preheader
                                        #   in Loop: Header=BB23_6 Depth=2
	movq	120(%rsp), %rax                 # 8-byte Reload
	leaq	(%rax,%r15), %rbp
	xorl	%r13d, %r13d
	movq	%r14, %r15
	.p2align	4
.LBB23_19:                              # %then.13.i
                                        #   Parent Loop BB23_1 Depth=1
                                        #     Parent Loop BB23_6 Depth=2
                                        # =>    This Inner Loop Header: Depth=3
	movdqu	-32(%rbp,%r13), %xmm0
	movdqu	-16(%rbp,%r13), %xmm1
	movdqu	(%rbp,%r13), %xmm2
	por	%xmm0, %xmm2
	movdqu	16(%rbp,%r13), %xmm0
	por	%xmm1, %xmm0
	por	%xmm2, %xmm0
	pmovmskb	%xmm0, %eax
	testl	%eax, %eax
	jne	.LBB23_4
# %bb.20:                               # %join.15.i
                                        #   in Loop: Header=BB23_19 Depth=3
	movdqu	-96(%rbp,%r13), %xmm1
	movdqu	-80(%rbp,%r13), %xmm3
	movdqu	-64(%rbp,%r13), %xmm2
	movdqu	-48(%rbp,%r13), %xmm0
	pxor	%xmm4, %xmm4
	pmovzxbw	%xmm2, %xmm5                    # xmm5 = xmm2[0],zero,xmm2[1],zero,xmm2[2],zero,xmm2[3],zero,xmm2[4],zero,xmm2[5],zero,xmm2[6],zero,xmm2[7],zero
	movdqa	%xmm5, 80(%rsp)                 # 16-byte Spill
	punpckhbw	%xmm4, %xmm2            # xmm2 = xmm2[8],xmm4[8],xmm2[9],xmm4[9],xmm2[10],xmm4[10],xmm2[11],xmm4[11],xmm2[12],xmm4[12],xmm2[13],xmm4[13],xmm2[14],xmm4[14],xmm2[15],xmm4[15]
	movdqa	%xmm2, 144(%rsp)                # 16-byte Spill
	pmovzxbw	%xmm0, %xmm2                    # xmm2 = xmm0[0],zero,xmm0[1],zero,xmm0[2],zero,xmm0[3],zero,xmm0[4],zero,xmm0[5],zero,xmm0[6],zero,xmm0[7],zero
	movdqa	%xmm2, 160(%rsp)                # 16-byte Spill
	punpckhbw	%xmm4, %xmm0            # xmm0 = xmm0[8],xmm4[8],xmm0[9],xmm4[9],xmm0[10],xmm4[10],xmm0[11],xmm4[11],xmm0[12],xmm4[12],xmm0[13],xmm4[13],xmm0[14],xmm4[14],xmm0[15],xmm4[15]
	movdqa	%xmm0, 128(%rsp)                # 16-byte Spill
	pmovzxbw	%xmm1, %xmm0                    # xmm0 = xmm1[0],zero,xmm1[1],zero,xmm1[2],zero,xmm1[3],zero,xmm1[4],zero,xmm1[5],zero,xmm1[6],zero,xmm1[7],zero
	punpckhbw	%xmm4, %xmm1            # xmm1 = xmm1[8],xmm4[8],xmm1[9],xmm4[9],xmm1[10],xmm4[10],xmm1[11],xmm4[11],xmm1[12],xmm4[12],xmm1[13],xmm4[13],xmm1[14],xmm4[14],xmm1[15],xmm4[15]
	pmovzxbw	%xmm3, %xmm2                    # xmm2 = xmm3[0],zero,xmm3[1],zero,xmm3[2],zero,xmm3[3],zero,xmm3[4],zero,xmm3[5],zero,xmm3[6],zero,xmm3[7],zero
	punpckhbw	%xmm4, %xmm3            # xmm3 = xmm3[8],xmm4[8],xmm3[9],xmm4[9],xmm3[10],xmm4[10],xmm3[11],xmm4[11],xmm3[12],xmm4[12],xmm3[13],xmm4[13],xmm3[14],xmm4[14],xmm3[15],xmm4[15]
	movq	%r12, %rdi
	callq	"recoding::list::VecU8Output::put_wide::<#e3b2a9d4d2861db8>"
	movq	%r12, %rdi
	movdqa	80(%rsp), %xmm0                 # 16-byte Reload
	movdqa	144(%rsp), %xmm1                # 16-byte Reload
	movdqa	160(%rsp), %xmm2                # 16-byte Reload
	movaps	128(%rsp), %xmm3                # 16-byte Reload
	callq	"recoding::list::VecU8Output::put_wide::<#e3b2a9d4d2861db8>"
	addq	$-64, %r15
	addq	$64, %r13
	cmpq	$127, %r15
	ja	.LBB23_19
	jmp	.LBB23_4
.LBB23_21:                              # %join.3.i19.i
                                        #   in Loop: Header=BB23_6 Depth=2
	cmpq	$7, %rax
	ja	.LBB23_31
# %bb.22:                               # %then.4.i.i
                                        #   in Loop: Header=BB23_6 Depth=2
	movd	(%rbx), %xmm0                   # xmm0 = mem[0],zero,zero,zero
	movd	-4(%rbx,%r14), %xmm1            # xmm1 = mem[0],zero,zero,zero
	punpckldq	%xmm1, %xmm0            # xmm0 = xmm0[0],xmm1[0],xmm0[1],xmm1[1]
	pshufd	$68, %xmm0, %xmm0               # xmm0 = xmm0[0,1,0,1]
	pmovmskb	%xmm0, %eax
	testl	%eax, %eax
	jne	.LBB23_32
	jmp	.LBB23_40
.LBB23_23:                              #   in Loop: Header=BB23_6 Depth=2
	xorl	%ecx, %ecx
	movq	%r14, %rdx
	subq	%rcx, %rdx
	cmpq	$16, %rdx
	jb	.LBB23_27
.LBB23_24:                              # %join.5.i67.i.preheader
                                        #   in Loop: Header=BB23_6 Depth=2
	addq	%r15, %rcx
	addq	16(%rsp), %rcx                  # 8-byte Folded Reload
	.p2align	4
.LBB23_25:                              # %join.5.i67.i
                                        #   Parent Loop BB23_1 Depth=1
                                        #     Parent Loop BB23_6 Depth=2
                                        # =>    This Inner Loop Header: Depth=3
	movdqu	(%rcx), %xmm0
	pmovmskb	%xmm0, %esi
	testl	%esi, %esi
	jne	.LBB23_28
# %bb.26:                               # %loop.2.i62.i
                                        #   in Loop: Header=BB23_25 Depth=3
	addq	$16, %rcx
	addq	$-16, %rdx
	cmpq	$16, %rdx
	jae	.LBB23_25
.LBB23_27:                              # %after.1.i.i
                                        #   in Loop: Header=BB23_6 Depth=2
	movdqu	-16(%rbx,%r14), %xmm0
	pmovmskb	%xmm0, %ecx
	testl	%ecx, %ecx
	je	.LBB23_33
.LBB23_28:                              # %after.10.i
                                        #   in Loop: Header=BB23_6 Depth=2
	cmpq	$31, %rax
	jbe	.LBB23_32
# %bb.29:                               # %join.21.i
                                        #   in Loop: Header=BB23_6 Depth=2
	cmpq	$128, %rax
	jae	.LBB23_2
# %bb.30:                               #   in Loop: Header=BB23_6 Depth=2
	movq	%r15, 40(%rsp)                  # 8-byte Spill
	jmp	.LBB23_3
.LBB23_31:                              # %"utf_lanes::ascii_texts::is_ascii.exit.i"
                                        #   in Loop: Header=BB23_6 Depth=2
	movq	-8(%rbx,%r14), %xmm0            # xmm0 = mem[0],zero
	movq	(%rbx), %xmm1                   # xmm1 = mem[0],zero
	punpcklqdq	%xmm0, %xmm1            # xmm1 = xmm1[0],xmm0[0]
	pmovmskb	%xmm1, %ecx
	testl	%ecx, %ecx
	je	.LBB23_33
.LBB23_32:                              # %then.19.i
                                        #   in Loop: Header=BB23_6 Depth=2
	movq	%rbx, %rdi
	movq	%r14, %rsi
	movq	%r12, %rdx
	callq	"recoding::kernels::put_few::<#b3a77c927faee343>"
	movq	%rax, %r14
	jmp	.LBB23_5
.LBB23_33:                              # %then.14.i
                                        #   in Loop: Header=BB23_6 Depth=2
	cmpq	$16, %rax
	jb	.LBB23_40
# %bb.34:                               # %join.5.i10.preheader
                                        #   in Loop: Header=BB23_6 Depth=2
	xorl	%r13d, %r13d
	movq	%r14, %rbp
	.p2align	4
.LBB23_35:                              # %join.5.i10
                                        #   Parent Loop BB23_1 Depth=1
                                        #     Parent Loop BB23_6 Depth=2
                                        # =>    This Inner Loop Header: Depth=3
	movdqu	(%rbx,%r13), %xmm2
	movq	8(%r12), %rcx
	movq	16(%r12), %rax
	movq	%rax, %rdx
	subq	%rcx, %rdx
	cmpq	$31, %rdx
	jbe	.LBB23_38
.LBB23_36:                              # %join.3.i194
                                        #   in Loop: Header=BB23_35 Depth=3
	pmovzxbw	%xmm2, %xmm0                    # xmm0 = xmm2[0],zero,xmm2[1],zero,xmm2[2],zero,xmm2[3],zero,xmm2[4],zero,xmm2[5],zero,xmm2[6],zero,xmm2[7],zero
	pxor	%xmm1, %xmm1
	punpckhbw	%xmm1, %xmm2            # xmm2 = xmm2[8],xmm1[8],xmm2[9],xmm1[9],xmm2[10],xmm1[10],xmm2[11],xmm1[11],xmm2[12],xmm1[12],xmm2[13],xmm1[13],xmm2[14],xmm1[14],xmm2[15],xmm1[15]
	leaq	32(%rcx), %rdx
	movq	(%r12), %rsi
	movdqu	%xmm0, (%rsi,%rcx)
	movdqu	%xmm2, 16(%rsi,%rcx)
	movq	%rsi, (%r12)
	movq	%rdx, 8(%r12)
	movq	%rax, 16(%r12)
.LBB23_37:                              # %"std_alloc::vec::Vec::extend_from_slice::<#0cd040e5c49bc722>.exit"
                                        #   in Loop: Header=BB23_35 Depth=3
	addq	$16, %r13
	addq	$-16, %rbp
	cmpq	$15, %rbp
	ja	.LBB23_35
	jmp	.LBB23_41
.LBB23_38:                              # %"std_alloc::vec::Vec::grow::<#5fdc5e19576447a7>.exit.i"
                                        #   in Loop: Header=BB23_35 Depth=3
	movdqa	%xmm2, 80(%rsp)                 # 16-byte Spill
	movl	$32, %esi
	movq	%r12, %rdi
	callq	"std_alloc::vec::Vec::grow_amortized::<#5fdc5e19576447a7>"
	testb	%al, %al
	je	.LBB23_37
# %bb.39:                               # %"std_alloc::vec::Vec::grow::<#5fdc5e19576447a7>.exit.join.3_crit_edge.i"
                                        #   in Loop: Header=BB23_35 Depth=3
	movq	8(%r12), %rcx
	movq	16(%r12), %rax
	movdqa	80(%rsp), %xmm2                 # 16-byte Reload
	jmp	.LBB23_36
.LBB23_40:                              #   in Loop: Header=BB23_6 Depth=2
	xorl	%r13d, %r13d
	movq	%r14, %rbp
.LBB23_41:                              # %"recoding::ascii_to_utf16::put_lanes::<#b3a77c927faee343>.exit"
                                        #   in Loop: Header=BB23_6 Depth=2
	testq	%rbp, %rbp
	je	.LBB23_5
# %bb.42:                               # %join.5.i37.preheader
                                        #   in Loop: Header=BB23_6 Depth=2
	movq	8(%r12), %rax
	cmpq	$1, %rbp
	jne	.LBB23_44
# %bb.43:                               #   in Loop: Header=BB23_6 Depth=2
	xorl	%ecx, %ecx
	jmp	.LBB23_47
.LBB23_44:                              # %join.5.i37.preheader.new
                                        #   in Loop: Header=BB23_6 Depth=2
	movl	%ebp, %edx
	andl	$16382, %edx                    # imm = 0x3FFE
	leaq	(%r15,%r13), %rsi
	addq	104(%rsp), %rsi                 # 8-byte Folded Reload
	xorl	%ecx, %ecx
	.p2align	4
.LBB23_45:                              # %join.5.i37
                                        #   Parent Loop BB23_1 Depth=1
                                        #     Parent Loop BB23_6 Depth=2
                                        # =>    This Inner Loop Header: Depth=3
	movzbl	-1(%rsi,%rcx), %edi
	movq	(%r12), %r8
	movb	%dil, (%r8,%rax)
	movq	(%r12), %rdi
	movb	$0, 1(%rdi,%rax)
	leaq	2(%rax), %rdi
	movq	%rdi, 8(%r12)
	movzbl	(%rsi,%rcx), %edi
	movq	(%r12), %r8
	movb	%dil, 2(%r8,%rax)
	movq	(%r12), %rdi
	movb	$0, 3(%rdi,%rax)
	addq	$4, %rax
	movq	%rax, 8(%r12)
	addq	$2, %rcx
	cmpq	%rcx, %rdx
	jne	.LBB23_45
# %bb.46:                               # %"recoding::kernels::WidenedKernelUtf8Utf16::put_text::<#a02055794059cfb2>.exit.loopexit.unr-lcssa"
                                        #   in Loop: Header=BB23_6 Depth=2
	testb	$1, %bpl
	je	.LBB23_5
.LBB23_47:                              # %join.5.i37.epil.preheader
                                        #   in Loop: Header=BB23_6 Depth=2
	addq	%r13, %rbx
	movzbl	(%rbx,%rcx), %ecx
	movq	(%r12), %rdx
	movb	%cl, (%rdx,%rax)
	movq	(%r12), %rcx
	movb	$0, 1(%rcx,%rax)
	addq	$2, %rax
	movq	%rax, 8(%r12)
	jmp	.LBB23_5
	.p2align	4
.LBB23_48:                              # %join.5.i
                                        #   in Loop: Header=BB23_1 Depth=1
	movq	8(%rsp), %rsi                   # 8-byte Reload
	subq	%r15, %rsi
	je	.LBB23_82
# %bb.49:                               # %join.8.i
                                        #   in Loop: Header=BB23_1 Depth=1
	xorl	%eax, %eax
	cmpq	$256, %r14                      # imm = 0x100
	movq	24(%rsp), %rcx                  # 8-byte Reload
	cmovaeq	%rax, %rcx
	movq	16(%rsp), %rax                  # 8-byte Reload
	leaq	(%rax,%r15), %rdi
	movq	%rcx, 24(%rsp)                  # 8-byte Spill
	cmpq	$3, %rcx
	jb	.LBB23_52
# %bb.50:                               # %then.1.i
                                        #   in Loop: Header=BB23_1 Depth=1
	cmpq	$128, %rsi
	movq	32(%rsp), %r14                  # 8-byte Reload
	jb	.LBB23_56
# %bb.51:                               # %join.9.i
                                        #   in Loop: Header=BB23_1 Depth=1
	movq	%r12, %rdx
	callq	"recoding::kernels::widen_damaged::<#6d28eb9c51c85cb7>"
	addq	%rax, %r15
	addq	%rdx, %r14
	testq	%rax, %rax
	jne	.LBB23_1
	jmp	.LBB23_56
	.p2align	4
.LBB23_52:                              # %join.3.i
                                        #   in Loop: Header=BB23_1 Depth=1
	cmpq	$67, %rsi
	movq	32(%rsp), %r14                  # 8-byte Reload
	jb	.LBB23_56
# %bb.53:                               # %then.1.i.i137
                                        #   in Loop: Header=BB23_1 Depth=1
	cmpb	$0, (%rdi)
	jns	.LBB23_55
# %bb.54:                               # %"recoding::kernels::may_be_plain.exit.i"
                                        #   in Loop: Header=BB23_1 Depth=1
	cmpb	$0, 1(%rdi)
	js	.LBB23_56
.LBB23_55:                              # %arm.5.i132
                                        #   in Loop: Header=BB23_1 Depth=1
	movq	%r12, %rdx
	callq	"recoding::kernels::widen_plain::<#5ffe3d2dbc72ef02>"
	addq	%rax, %r15
	addq	%rdx, %r14
	testq	%rax, %rax
	jne	.LBB23_1
	.p2align	4
.LBB23_56:                              # %join.14.i
                                        #   in Loop: Header=BB23_1 Depth=1
	movq	8(%rsp), %rax                   # 8-byte Reload
	subq	%r15, %rax
	cmpq	$128, %rax
	movl	$128, %ecx
	cmovbq	%rax, %rcx
	cmpq	$4, %rax
	jb	.LBB23_77
# %bb.57:                               # %join.3.i.i.i.preheader
                                        #   in Loop: Header=BB23_1 Depth=1
	movq	16(%rsp), %rax                  # 8-byte Reload
	leaq	(%rax,%r15), %rdx
	xorl	%eax, %eax
	.p2align	4
.LBB23_58:                              # %join.3.i.i.i
                                        #   Parent Loop BB23_1 Depth=1
                                        # =>  This Inner Loop Header: Depth=2
	movzbl	(%rdx,%rax), %ebx
	testb	%bl, %bl
	js	.LBB23_60
# %bb.59:                               # %arm.7.i154.thread
                                        #   in Loop: Header=BB23_58 Depth=2
	movl	$1, %esi
	jmp	.LBB23_70
	.p2align	4
.LBB23_60:                              # %join.6.i.i.i
                                        #   in Loop: Header=BB23_58 Depth=2
	movzbl	1(%rdx,%rax), %esi
	cmpb	$-32, %bl
	jae	.LBB23_64
# %bb.61:                               # %"recoding::text::Utf8Text::next_valid.exit.i"
                                        #   in Loop: Header=BB23_58 Depth=2
	cmpb	$-62, %bl
	jb	.LBB23_76
# %bb.62:                               # %"recoding::text::Utf8Text::next_valid.exit.i"
                                        #   in Loop: Header=BB23_58 Depth=2
	xorl	$128, %esi
	cmpb	$63, %sil
	ja	.LBB23_76
# %bb.63:                               # %arm.7.i154
                                        #   in Loop: Header=BB23_58 Depth=2
	shll	$6, %ebx
	addl	%esi, %ebx
	addl	$-12288, %ebx                   # imm = 0xD000
	movl	$2, %esi
	jmp	.LBB23_70
.LBB23_64:                              # %join.9.i.i.i
                                        #   in Loop: Header=BB23_58 Depth=2
	cmpb	$-65, %sil
	jg	.LBB23_76
# %bb.65:                               # %join.12.i.i.i
                                        #   in Loop: Header=BB23_58 Depth=2
	movl	%ebx, %edi
	andl	$15, %ebx
	andl	$63, %esi
	shll	$6, %ebx
	orl	%esi, %ebx
	cmpb	$-17, %dil
	ja	.LBB23_72
# %bb.66:                               # %then.13.i.i.i
                                        #   in Loop: Header=BB23_58 Depth=2
	movl	%ebx, %esi
	andl	$-32, %esi
	cmpl	$864, %esi                      # imm = 0x360
	je	.LBB23_76
# %bb.67:                               # %join.3.i13.i.i
                                        #   in Loop: Header=BB23_58 Depth=2
	movzbl	2(%rdx,%rax), %edi
	cmpb	$-65, %dil
	jg	.LBB23_76
# %bb.68:                               # %join.3.i13.i.i
                                        #   in Loop: Header=BB23_58 Depth=2
	cmpl	$32, %ebx
	jb	.LBB23_76
# %bb.69:                               # %arm.7.i154.thread577
                                        #   in Loop: Header=BB23_58 Depth=2
	shll	$6, %ebx
	andl	$63, %edi
	orl	%ebx, %edi
	movl	$3, %esi
	movl	%edi, %ebx
	.p2align	4
.LBB23_70:                              # %arm.1.i.i165
                                        #   in Loop: Header=BB23_58 Depth=2
	movq	(%r12), %r8
	movq	8(%r12), %rdi
	movb	%bl, (%r8,%rdi)
	movq	(%r12), %rbp
	movb	%bh, 1(%rbp,%rdi)
	addq	$2, %rdi
.LBB23_71:                              # %"recoding::text::Utf16Text::put_code::<#ec2bf5654938c731>.exit.i"
                                        #   in Loop: Header=BB23_58 Depth=2
	movq	%rdi, 8(%r12)
	addq	%rsi, %rax
	movq	%rcx, %rsi
	subq	%rax, %rsi
	cmpq	$3, %rsi
	ja	.LBB23_58
	jmp	.LBB23_76
.LBB23_72:                              # %else.14.i.i.i
                                        #   in Loop: Header=BB23_58 Depth=2
	leal	-272(%rbx), %esi
	cmpl	$-256, %esi
	jb	.LBB23_76
# %bb.73:                               # %after.1.i.i.i
                                        #   in Loop: Header=BB23_58 Depth=2
	movzbl	2(%rdx,%rax), %esi
	cmpb	$-65, %sil
	jg	.LBB23_76
# %bb.74:                               # %else.14.i34.i.i
                                        #   in Loop: Header=BB23_58 Depth=2
	movzbl	3(%rdx,%rax), %r9d
	cmpb	$-65, %r9b
	jg	.LBB23_76
# %bb.75:                               # %arm.7.i154.thread583
                                        #   in Loop: Header=BB23_58 Depth=2
	movl	%esi, %r8d
	andl	$63, %r8d
	andb	$63, %r9b
	shll	$12, %ebx
	shll	$6, %r8d
	orl	%r8d, %ebx
	movq	(%r12), %r10
	movq	8(%r12), %rdi
	shrl	$10, %ebx
	addl	$-10304, %ebx                   # imm = 0xD7C0
	orb	%r9b, %r8b
	shrb	$2, %sil
	andb	$3, %sil
	orb	$-36, %sil
	movb	%bl, (%r10,%rdi)
	movq	(%r12), %rbp
	movb	%bh, 1(%rbp,%rdi)
	movq	(%r12), %r9
	movb	%r8b, 2(%r9,%rdi)
	movq	(%r12), %r8
	movb	%sil, 3(%r8,%rdi)
	addq	$4, %rdi
	movl	$4, %esi
	jmp	.LBB23_71
	.p2align	4
.LBB23_76:                              # %"recoding::engine::recode_text::<#4bab232dcda6565b>.exit"
                                        #   in Loop: Header=BB23_1 Depth=1
	addq	%rax, %r15
	cmpq	$124, %rax
	ja	.LBB23_1
.LBB23_77:                              # %then.15.i
                                        #   in Loop: Header=BB23_1 Depth=1
	movq	8(%rsp), %rdx                   # 8-byte Reload
	subq	%r15, %rdx
	je	.LBB23_83
# %bb.78:                               # %"recoding::engine::recode_carefully::<#4bab232dcda6565b>.exit"
                                        #   in Loop: Header=BB23_1 Depth=1
	movq	16(%rsp), %rax                  # 8-byte Reload
	leaq	(%rax,%r15), %rsi
	pxor	%xmm0, %xmm0
	movdqa	%xmm0, 48(%rsp)
	movq	$0, 64(%rsp)
	leaq	48(%rsp), %rdi
	movq	%r12, %rcx
	callq	"recoding::engine::recode_faults::<#e0f9120ea28c3ab4>"
	movq	56(%rsp), %rax
	testq	%rax, %rax
	je	.LBB23_80
# %bb.79:                               # %select.false.sink
                                        #   in Loop: Header=BB23_1 Depth=1
	movq	24(%rsp), %rcx                  # 8-byte Reload
	incq	%rcx
	movq	$-1, %rdx
	cmovneq	%rcx, %rdx
	movq	%rdx, 24(%rsp)                  # 8-byte Spill
.LBB23_80:                              # %select.end
                                        #   in Loop: Header=BB23_1 Depth=1
	addq	48(%rsp), %r15
	addq	%rax, %r14
	testb	$1, 64(%rsp)
	jne	.LBB23_84
# %bb.81:                               # %select.end
                                        #   in Loop: Header=BB23_1 Depth=1
	testb	$1, 65(%rsp)
	je	.LBB23_1
	jmp	.LBB23_84
.LBB23_82:
	movq	8(%rsp), %r15                   # 8-byte Reload
	movq	32(%rsp), %r14                  # 8-byte Reload
	jmp	.LBB23_84
.LBB23_83:
	movq	8(%rsp), %r15                   # 8-byte Reload
.LBB23_84:                              # %"recoding::engine::run::<#bfb22b68fe82cd38>.exit"
	movq	%r15, %rax
	movq	%r14, %rdx
	addq	$184, %rsp
	.cfi_def_cfa_offset 56
	popq	%rbx
	.cfi_def_cfa_offset 48
	popq	%r12
	.cfi_def_cfa_offset 40
	popq	%r13
	.cfi_def_cfa_offset 32
	popq	%r14
	.cfi_def_cfa_offset 24
	popq	%r15
	.cfi_def_cfa_offset 16
	popq	%rbp
	.cfi_def_cfa_offset 8
	retq
.Lfunc_end23:
	.size	"recoding::recoder_runs::run_whole::<#2857ed0d0693875d>", .Lfunc_end23-"recoding::recoder_runs::run_whole::<#2857ed0d0693875d>"
	.cfi_endproc
                                        # -- End function
	.section	.rodata.cst16,"aM",@progbits,16
	.p2align	4, 0x0                          # -- Begin function recoding::kernels::put_few::<#b3a77c927faee343>
.LCPI24_0:
	.zero	16,240
.LCPI24_1:
	.zero	16,127
.LCPI24_2:
	.zero	16,192
.LCPI24_3:
	.zero	16,224
.LCPI24_4:
	.zero	16,15
.LCPI24_5:
	.zero	16,32
.LCPI24_6:
	.zero	16,191
.LCPI24_7:
	.byte	2                               # 0x2
	.byte	2                               # 0x2
	.byte	2                               # 0x2
	.byte	2                               # 0x2
	.byte	2                               # 0x2
	.byte	2                               # 0x2
	.byte	2                               # 0x2
	.byte	2                               # 0x2
	.byte	128                             # 0x80
	.byte	128                             # 0x80
	.byte	128                             # 0x80
	.byte	128                             # 0x80
	.byte	5                               # 0x5
	.byte	1                               # 0x1
	.byte	25                              # 0x19
	.byte	97                              # 0x61
.LCPI24_8:
	.byte	207                             # 0xcf
	.byte	135                             # 0x87
	.byte	131                             # 0x83
	.byte	131                             # 0x83
	.byte	163                             # 0xa3
	.byte	227                             # 0xe3
	.byte	227                             # 0xe3
	.byte	227                             # 0xe3
	.byte	227                             # 0xe3
	.byte	227                             # 0xe3
	.byte	227                             # 0xe3
	.byte	227                             # 0xe3
	.byte	227                             # 0xe3
	.byte	243                             # 0xf3
	.byte	227                             # 0xe3
	.byte	227                             # 0xe3
.LCPI24_9:
	.byte	1                               # 0x1
	.byte	1                               # 0x1
	.byte	1                               # 0x1
	.byte	1                               # 0x1
	.byte	1                               # 0x1
	.byte	1                               # 0x1
	.byte	1                               # 0x1
	.byte	1                               # 0x1
	.byte	206                             # 0xce
	.byte	174                             # 0xae
	.byte	182                             # 0xb6
	.byte	182                             # 0xb6
	.byte	1                               # 0x1
	.byte	1                               # 0x1
	.byte	1                               # 0x1
	.byte	1                               # 0x1
.LCPI24_10:
	.zero	16,96
.LCPI24_11:
	.zero	16,112
.LCPI24_12:
	.zero	16,128
.LCPI24_13:
	.byte	224                             # 0xe0
	.byte	192                             # 0xc0
	.zero	1
	.zero	1
	.zero	1
	.zero	1
	.zero	1
	.zero	1
	.zero	1
	.zero	1
	.zero	1
	.zero	1
	.zero	1
	.zero	1
	.zero	1
	.zero	1
.LCPI24_14:
	.byte	224                             # 0xe0
	.byte	192                             # 0xc0
	.byte	0                               # 0x0
	.byte	0                               # 0x0
	.byte	0                               # 0x0
	.byte	0                               # 0x0
	.byte	0                               # 0x0
	.byte	0                               # 0x0
	.byte	0                               # 0x0
	.byte	0                               # 0x0
	.byte	0                               # 0x0
	.byte	0                               # 0x0
	.byte	0                               # 0x0
	.byte	0                               # 0x0
	.byte	0                               # 0x0
	.byte	0                               # 0x0
	.section	".text.recoding::kernels::put_few::<#b3a77c927faee343>","ax",@progbits
	.p2align	4
	.type	"recoding::kernels::put_few::<#b3a77c927faee343>",@function
"recoding::kernels::put_few::<#b3a77c927faee343>": # @"recoding::kernels::put_few::<#b3a77c927faee343>"
	.cfi_startproc
# %bb.0:                                # %start
	pushq	%rbp
	.cfi_def_cfa_offset 16
	pushq	%r15
	.cfi_def_cfa_offset 24
	pushq	%r14
	.cfi_def_cfa_offset 32
	pushq	%r13
	.cfi_def_cfa_offset 40
	pushq	%r12
	.cfi_def_cfa_offset 48
	pushq	%rbx
	.cfi_def_cfa_offset 56
	subq	$184, %rsp
	.cfi_def_cfa_offset 240
	.cfi_offset %rbx, -56
	.cfi_offset %r12, -48
	.cfi_offset %r13, -40
	.cfi_offset %r14, -32
	.cfi_offset %r15, -24
	.cfi_offset %rbp, -16
	movq	%rdx, %r13
	movq	%rdi, %r15
	cmpq	$19, %rsi
	jae	.LBB24_3
# %bb.1:                                # %then.1
	cmpq	$16, %rsi
	movl	$16, %r12d
	cmovbq	%rsi, %r12
	cmpq	$4, %rsi
	jb	.LBB24_2
# %bb.5:                                # %join.6.i.i
	movq	%r12, %rax
	shlq	$4, %rax
	leaq	.Lstatic.10(%rip), %rcx
	movdqu	-64(%rax,%rcx), %xmm0
	cmpq	$7, %rsi
	ja	.LBB24_9
# %bb.6:                                # %then.1.i8.i
	movd	(%r15), %xmm1                   # xmm1 = mem[0],zero,zero,zero
	movl	-4(%r15,%r12), %eax
	movd	%eax, %xmm2
	shrl	$8, %eax
	movdqa	%xmm1, %xmm3
	punpckldq	%xmm2, %xmm3            # xmm3 = xmm3[0],xmm2[0],xmm3[1],xmm2[1]
	pshufd	$68, %xmm3, %xmm4               # xmm4 = xmm3[0,1,0,1]
	pshufb	%xmm0, %xmm4
	movdqa	%xmm2, %xmm3
	psrld	$16, %xmm3
	jmp	.LBB24_10
.LBB24_3:                               # %join.3
	movq	%r15, %rdi
	callq	"utf_lanes::text_blocks::text_len"
	cmpq	$19, %rax
	jb	.LBB24_2
# %bb.7:                                # %join.6
	movq	%rax, %r14
	pxor	%xmm5, %xmm5
	movdqa	%xmm5, 160(%rsp)
	movdqa	%xmm5, 144(%rsp)
	movdqa	%xmm5, 128(%rsp)
	movdqa	%xmm5, 112(%rsp)
	movdqa	%xmm5, 96(%rsp)
	movdqu	(%r15), %xmm3
	movdqa	%xmm3, %xmm2
	pslldq	$1, %xmm2                       # xmm2 = zero,xmm2[0,1,2,3,4,5,6,7,8,9,10,11,12,13,14]
	movdqa	%xmm3, %xmm1
	pslldq	$2, %xmm1                       # xmm1 = zero,zero,xmm1[0,1,2,3,4,5,6,7,8,9,10,11,12,13]
	movdqa	%xmm3, %xmm0
	pslldq	$3, %xmm0                       # xmm0 = zero,zero,zero,xmm0[0,1,2,3,4,5,6,7,8,9,10,11,12]
	movdqa	%xmm1, %xmm6
	pmaxub	%xmm0, %xmm6
	movdqa	.LCPI24_0(%rip), %xmm4          # xmm4 = [240,240,240,240,240,240,240,240,240,240,240,240,240,240,240,240]
	pmaxub	%xmm6, %xmm4
	pcmpeqb	%xmm6, %xmm4
	pmovmskb	%xmm4, %eax
	testl	%eax, %eax
	movq	%r13, 72(%rsp)                  # 8-byte Spill
	je	.LBB24_12
# %bb.8:                                # %else.2.i.i
	leaq	32(%rsp), %rdi
	movdqa	%xmm2, 16(%rsp)                 # 16-byte Spill
	movdqa	%xmm3, (%rsp)                   # 16-byte Spill
	callq	"utf_lanes::text_units::long_halves"
	movdqa	(%rsp), %xmm3                   # 16-byte Reload
	movdqa	16(%rsp), %xmm2                 # 16-byte Reload
	movdqa	32(%rsp), %xmm0
	movdqa	48(%rsp), %xmm5
	jmp	.LBB24_13
.LBB24_9:                               # %join.3.i7.i
	movq	(%r15), %rcx
	movq	%rcx, %xmm4
	movq	-8(%r15,%r12), %rdx
	movq	%rdx, %xmm3
	movq	%rdx, %rax
	shrq	$40, %rax
	pinsrq	$1, %rdx, %xmm4
	pshufb	%xmm0, %xmm4
	movd	%ecx, %xmm1
	shrq	$32, %rdx
	movd	%edx, %xmm2
	psrlq	$48, %xmm3
.LBB24_10:                              # %"utf_lanes::few_bytes::padded_text.exit.i"
	movdqa	%xmm4, %xmm7
	pslldq	$1, %xmm7                       # xmm7 = zero,xmm7[0,1,2,3,4,5,6,7,8,9,10,11,12,13,14]
	movdqa	%xmm4, %xmm6
	pslldq	$2, %xmm6                       # xmm6 = zero,zero,xmm6[0,1,2,3,4,5,6,7,8,9,10,11,12,13]
	movdqa	%xmm4, %xmm5
	pslldq	$3, %xmm5                       # xmm5 = zero,zero,zero,xmm5[0,1,2,3,4,5,6,7,8,9,10,11,12]
	movdqa	%xmm7, %xmm8
	psrlw	$4, %xmm8
	movdqa	.LCPI24_4(%rip), %xmm9          # xmm9 = [15,15,15,15,15,15,15,15,15,15,15,15,15,15,15,15]
	pand	%xmm9, %xmm8
	movdqa	.LCPI24_7(%rip), %xmm10         # xmm10 = [2,2,2,2,2,2,2,2,128,128,128,128,5,1,25,97]
	pshufb	%xmm8, %xmm10
	pand	%xmm9, %xmm7
	movdqa	.LCPI24_8(%rip), %xmm8          # xmm8 = [207,135,131,131,163,227,227,227,227,227,227,227,227,243,227,227]
	pshufb	%xmm7, %xmm8
	psrlw	$4, %xmm4
	pand	%xmm9, %xmm4
	movdqa	.LCPI24_9(%rip), %xmm7          # xmm7 = [1,1,1,1,1,1,1,1,206,174,182,182,1,1,1,1]
	pshufb	%xmm4, %xmm7
	psubusb	.LCPI24_10(%rip), %xmm6
	psubusb	.LCPI24_11(%rip), %xmm5
	pand	%xmm8, %xmm7
	por	%xmm6, %xmm5
	pand	.LCPI24_12(%rip), %xmm5
	pand	%xmm10, %xmm7
	pxor	%xmm7, %xmm5
	ptest	%xmm5, %xmm5
	je	.LBB24_22
.LBB24_2:
	xorl	%r14d, %r14d
	jmp	.LBB24_30
.LBB24_12:                              # %then.1.i.i383
	pcmpgtb	%xmm3, %xmm5
	pand	%xmm2, %xmm5
	movdqa	.LCPI24_1(%rip), %xmm4          # xmm4 = [127,127,127,127,127,127,127,127,127,127,127,127,127,127,127,127]
	pand	%xmm3, %xmm4
	movdqa	%xmm5, %xmm0
	psllw	$6, %xmm0
	pand	.LCPI24_2(%rip), %xmm0
	psubusb	.LCPI24_3(%rip), %xmm1
	paddb	%xmm4, %xmm0
	psllw	$4, %xmm1
	pand	.LCPI24_0(%rip), %xmm1
	psrlw	$2, %xmm5
	pand	.LCPI24_4(%rip), %xmm5
	por	%xmm1, %xmm5
.LBB24_13:                              # %"utf_lanes::text_puts::write_first::<#951b42d46d2e9f62>.exit"
	psubusb	.LCPI24_5(%rip), %xmm2
	pmaxub	%xmm3, %xmm2
	movdqa	.LCPI24_6(%rip), %xmm1          # xmm1 = [191,191,191,191,191,191,191,191,191,191,191,191,191,191,191,191]
	pminub	%xmm2, %xmm1
	pcmpeqb	%xmm2, %xmm1
	pmovmskb	%xmm1, %eax
	movdqa	%xmm0, %xmm1
	punpckhbw	%xmm5, %xmm1            # xmm1 = xmm1[8],xmm5[8],xmm1[9],xmm5[9],xmm1[10],xmm5[10],xmm1[11],xmm5[11],xmm1[12],xmm5[12],xmm1[13],xmm5[13],xmm1[14],xmm5[14],xmm1[15],xmm5[15]
	punpcklbw	%xmm5, %xmm0            # xmm0 = xmm0[0],xmm5[0],xmm0[1],xmm5[1],xmm0[2],xmm5[2],xmm0[3],xmm5[3],xmm0[4],xmm5[4],xmm0[5],xmm5[5],xmm0[6],xmm5[6],xmm0[7],xmm5[7]
	movzbl	%al, %ecx
	popcntl	%ecx, %edx
	shll	$4, %ecx
	leaq	.Lstatic.17(%rip), %rbp
	movdqu	(%rcx,%rbp), %xmm2
	pshufb	%xmm2, %xmm0
	shrl	$8, %eax
	popcntl	%eax, %r12d
	shll	$4, %eax
	movdqu	(%rax,%rbp), %xmm2
	pshufb	%xmm2, %xmm1
	movdqa	%xmm0, 80(%rsp)
	movdqu	%xmm1, 80(%rsp,%rdx,2)
	addl	%edx, %r12d
	addl	%r12d, %r12d
	movl	$16, %r13d
	cmpq	$32, %r14
	jae	.LBB24_17
.LBB24_14:                              # %after.1.i390
	cmpq	%r14, %r13
	jae	.LBB24_28
# %bb.15:                               # %then.6.i
	movq	%r14, %rax
	addq	$-16, %rax
	subq	%rax, %r13
	movdqu	-19(%r15,%r14), %xmm0
	movdqu	-18(%r15,%r14), %xmm1
	movdqu	-17(%r15,%r14), %xmm2
	movdqu	-16(%r15,%r14), %xmm3
	movdqa	%xmm1, %xmm4
	pmaxub	%xmm0, %xmm4
	movdqa	.LCPI24_0(%rip), %xmm5          # xmm5 = [240,240,240,240,240,240,240,240,240,240,240,240,240,240,240,240]
	pmaxub	%xmm4, %xmm5
	pcmpeqb	%xmm4, %xmm5
	pmovmskb	%xmm5, %eax
	testl	%eax, %eax
	je	.LBB24_26
# %bb.16:                               # %else.2.i.i591
	leaq	32(%rsp), %rdi
	movdqa	%xmm2, 16(%rsp)                 # 16-byte Spill
	movdqa	%xmm3, (%rsp)                   # 16-byte Spill
	callq	"utf_lanes::text_units::long_halves"
	movdqa	(%rsp), %xmm3                   # 16-byte Reload
	movdqa	16(%rsp), %xmm2                 # 16-byte Reload
	movdqa	32(%rsp), %xmm0
	movdqa	48(%rsp), %xmm4
	jmp	.LBB24_27
.LBB24_17:                              # %join.5.i.lr.ph
	leaq	-16(%r14), %rbx
	jmp	.LBB24_20
	.p2align	4
.LBB24_18:                              # %else.2.i.i723
                                        #   in Loop: Header=BB24_20 Depth=1
	leaq	32(%rsp), %rdi
	movdqa	%xmm2, 16(%rsp)                 # 16-byte Spill
	movdqa	%xmm3, (%rsp)                   # 16-byte Spill
	callq	"utf_lanes::text_units::long_halves"
	movdqa	(%rsp), %xmm3                   # 16-byte Reload
	movdqa	16(%rsp), %xmm2                 # 16-byte Reload
	movdqa	32(%rsp), %xmm0
	movdqa	48(%rsp), %xmm4
.LBB24_19:                              # %"utf_lanes::text_units::block_units::<#951b42d46d2e9f62>.exit932"
                                        #   in Loop: Header=BB24_20 Depth=1
	psubusb	.LCPI24_5(%rip), %xmm2
	pmaxub	%xmm3, %xmm2
	movdqa	.LCPI24_6(%rip), %xmm1          # xmm1 = [191,191,191,191,191,191,191,191,191,191,191,191,191,191,191,191]
	pminub	%xmm2, %xmm1
	pcmpeqb	%xmm2, %xmm1
	pmovmskb	%xmm1, %eax
	movdqa	%xmm0, %xmm1
	punpckhbw	%xmm4, %xmm1            # xmm1 = xmm1[8],xmm4[8],xmm1[9],xmm4[9],xmm1[10],xmm4[10],xmm1[11],xmm4[11],xmm1[12],xmm4[12],xmm1[13],xmm4[13],xmm1[14],xmm4[14],xmm1[15],xmm4[15]
	punpcklbw	%xmm4, %xmm0            # xmm0 = xmm0[0],xmm4[0],xmm0[1],xmm4[1],xmm0[2],xmm4[2],xmm0[3],xmm4[3],xmm0[4],xmm4[4],xmm0[5],xmm4[5],xmm0[6],xmm4[6],xmm0[7],xmm4[7]
	movzbl	%al, %ecx
	xorl	%edx, %edx
	popcntl	%ecx, %edx
	shll	$4, %ecx
	movdqu	(%rcx,%rbp), %xmm2
	pshufb	%xmm2, %xmm0
	shrl	$8, %eax
	xorl	%ecx, %ecx
	popcntl	%eax, %ecx
	shll	$4, %eax
	movdqu	(%rax,%rbp), %xmm2
	pshufb	%xmm2, %xmm1
	leaq	(%rsp,%r12), %rax
	addq	$80, %rax
	movdqu	%xmm0, 80(%rsp,%r12)
	movdqu	%xmm1, (%rax,%rdx,2)
	addl	%edx, %ecx
	leaq	(%r12,%rcx,2), %r12
	addq	$16, %r13
	addq	$-16, %rbx
	cmpq	$15, %rbx
	jbe	.LBB24_14
.LBB24_20:                              # %join.5.i
                                        # =>This Inner Loop Header: Depth=1
	movdqu	-3(%r15,%r13), %xmm0
	movdqu	-2(%r15,%r13), %xmm1
	movdqu	-1(%r15,%r13), %xmm2
	movdqu	(%r15,%r13), %xmm3
	movdqa	%xmm1, %xmm4
	pmaxub	%xmm0, %xmm4
	movdqa	.LCPI24_0(%rip), %xmm5          # xmm5 = [240,240,240,240,240,240,240,240,240,240,240,240,240,240,240,240]
	pmaxub	%xmm4, %xmm5
	pcmpeqb	%xmm4, %xmm5
	pmovmskb	%xmm5, %eax
	testl	%eax, %eax
	jne	.LBB24_18
# %bb.21:                               # %then.1.i.i917
                                        #   in Loop: Header=BB24_20 Depth=1
	pxor	%xmm4, %xmm4
	pcmpgtb	%xmm3, %xmm4
	pand	%xmm2, %xmm4
	movdqa	.LCPI24_1(%rip), %xmm5          # xmm5 = [127,127,127,127,127,127,127,127,127,127,127,127,127,127,127,127]
	pand	%xmm3, %xmm5
	movdqa	%xmm4, %xmm0
	psllw	$6, %xmm0
	pand	.LCPI24_2(%rip), %xmm0
	psubusb	.LCPI24_3(%rip), %xmm1
	paddb	%xmm5, %xmm0
	psllw	$4, %xmm1
	pand	.LCPI24_0(%rip), %xmm1
	psrlw	$2, %xmm4
	pand	.LCPI24_4(%rip), %xmm4
	por	%xmm1, %xmm4
	jmp	.LBB24_19
.LBB24_22:                              # %then.7.i.i
	movd	.LCPI24_14(%rip), %xmm4         # xmm4 = [224,192,0,0,0,0,0,0,0,0,0,0,0,0,0,0]
	pmaxub	%xmm3, %xmm4
	pcmpeqb	%xmm3, %xmm4
	pcmpeqd	%xmm3, %xmm3
	pxor	%xmm4, %xmm3
	pmovsxbq	%xmm3, %xmm3
	movmskpd	%xmm3, %ecx
	xorl	%r14d, %r14d
	cmpl	$3, %ecx
	jne	.LBB24_30
# %bb.23:                               # %then.7.i.i
	cmpb	$-17, %al
	ja	.LBB24_30
# %bb.24:                               # %after.1.i
	movl	$16, %r14d
	xorpd	%xmm3, %xmm3
	movapd	%xmm3, 48(%rsp)
	cmpq	$7, %rsi
	ja	.LBB24_31
# %bb.25:                               # %then.1.i.i
	punpckldq	%xmm2, %xmm1            # xmm1 = xmm1[0],xmm2[0],xmm1[1],xmm2[1]
	pshufd	$68, %xmm1, %xmm3               # xmm3 = xmm1[0,1,0,1]
	jmp	.LBB24_32
.LBB24_26:                              # %then.1.i.i660
	pxor	%xmm4, %xmm4
	pcmpgtb	%xmm3, %xmm4
	pand	%xmm2, %xmm4
	movdqa	.LCPI24_1(%rip), %xmm5          # xmm5 = [127,127,127,127,127,127,127,127,127,127,127,127,127,127,127,127]
	pand	%xmm3, %xmm5
	movdqa	%xmm4, %xmm0
	psllw	$6, %xmm0
	pand	.LCPI24_2(%rip), %xmm0
	psubusb	.LCPI24_3(%rip), %xmm1
	paddb	%xmm5, %xmm0
	psllw	$4, %xmm1
	pand	.LCPI24_0(%rip), %xmm1
	psrlw	$2, %xmm4
	pand	.LCPI24_4(%rip), %xmm4
	por	%xmm1, %xmm4
.LBB24_27:                              # %"utf_lanes::text_units::block_units::<#951b42d46d2e9f62>.exit"
	psubusb	.LCPI24_5(%rip), %xmm2
	pmaxub	%xmm3, %xmm2
	movdqa	.LCPI24_6(%rip), %xmm1          # xmm1 = [191,191,191,191,191,191,191,191,191,191,191,191,191,191,191,191]
	pminub	%xmm2, %xmm1
	pcmpeqb	%xmm2, %xmm1
	movq	$-1, %rax
	movl	%r13d, %ecx
	shlq	%cl, %rax
	pmovmskb	%xmm1, %ecx
	andl	%ecx, %eax
	movdqa	%xmm0, %xmm1
	punpckhbw	%xmm4, %xmm1            # xmm1 = xmm1[8],xmm4[8],xmm1[9],xmm4[9],xmm1[10],xmm4[10],xmm1[11],xmm4[11],xmm1[12],xmm4[12],xmm1[13],xmm4[13],xmm1[14],xmm4[14],xmm1[15],xmm4[15]
	punpcklbw	%xmm4, %xmm0            # xmm0 = xmm0[0],xmm4[0],xmm0[1],xmm4[1],xmm0[2],xmm4[2],xmm0[3],xmm4[3],xmm0[4],xmm4[4],xmm0[5],xmm4[5],xmm0[6],xmm4[6],xmm0[7],xmm4[7]
	movzbl	%al, %ecx
	xorl	%edx, %edx
	popcntl	%ecx, %edx
	shll	$4, %ecx
	movdqu	(%rcx,%rbp), %xmm2
	pshufb	%xmm2, %xmm0
	shrl	$8, %eax
	xorl	%ecx, %ecx
	popcntl	%eax, %ecx
	shll	$4, %eax
	movdqu	(%rax,%rbp), %xmm2
	pshufb	%xmm2, %xmm1
	leaq	(%rsp,%r12), %rax
	addq	$80, %rax
	movdqu	%xmm0, 80(%rsp,%r12)
	movdqu	%xmm1, (%rax,%rdx,2)
	addl	%edx, %ecx
	leaq	(%r12,%rcx,2), %r12
.LBB24_28:                              # %"utf_lanes::text_puts::write_rest::<#951b42d46d2e9f62>.exit"
	movq	72(%rsp), %rbp                  # 8-byte Reload
	movq	8(%rbp), %rbx
	movq	16(%rbp), %r15
	movq	%r15, %rax
	subq	%rbx, %rax
	cmpq	%rax, %r12
	ja	.LBB24_38
.LBB24_29:                              # %join.3.i945
	movq	(%rbp), %r13
	leaq	(%rbx,%r13), %rdi
	addq	%r12, %rbx
	leaq	80(%rsp), %rsi
	movq	%r12, %rdx
	callq	memcpy@PLT
	movq	%r13, (%rbp)
	movq	%rbx, 8(%rbp)
	movq	%r15, 16(%rbp)
.LBB24_30:                              # %common.ret
	movq	%r14, %rax
	addq	$184, %rsp
	.cfi_def_cfa_offset 56
	popq	%rbx
	.cfi_def_cfa_offset 48
	popq	%r12
	.cfi_def_cfa_offset 40
	popq	%r13
	.cfi_def_cfa_offset 32
	popq	%r14
	.cfi_def_cfa_offset 24
	popq	%r15
	.cfi_def_cfa_offset 16
	popq	%rbp
	.cfi_def_cfa_offset 8
	retq
.LBB24_31:                              # %join.3.i.i
	.cfi_def_cfa_offset 240
	movq	-8(%r15,%r12), %xmm1            # xmm1 = mem[0],zero
	movq	(%r15), %xmm3                   # xmm3 = mem[0],zero
	punpcklqdq	%xmm1, %xmm3            # xmm3 = xmm3[0],xmm1[0]
.LBB24_32:                              # %"utf_lanes::text_puts::write_few::<#951b42d46d2e9f62>.exit"
	pshufb	%xmm0, %xmm3
	subq	%r12, %r14
	movdqa	%xmm3, %xmm2
	pslldq	$1, %xmm2                       # xmm2 = zero,xmm2[0,1,2,3,4,5,6,7,8,9,10,11,12,13,14]
	movdqa	%xmm3, %xmm1
	pslldq	$2, %xmm1                       # xmm1 = zero,zero,xmm1[0,1,2,3,4,5,6,7,8,9,10,11,12,13]
	movdqa	%xmm3, %xmm0
	pslldq	$3, %xmm0                       # xmm0 = zero,zero,zero,xmm0[0,1,2,3,4,5,6,7,8,9,10,11,12]
	movdqa	%xmm1, %xmm5
	pmaxub	%xmm0, %xmm5
	movdqa	.LCPI24_0(%rip), %xmm4          # xmm4 = [240,240,240,240,240,240,240,240,240,240,240,240,240,240,240,240]
	pmaxub	%xmm5, %xmm4
	pcmpeqb	%xmm5, %xmm4
	pmovmskb	%xmm4, %eax
	testl	%eax, %eax
	je	.LBB24_34
# %bb.33:                               # %else.2.i
	leaq	80(%rsp), %rdi
	movdqa	%xmm3, 16(%rsp)                 # 16-byte Spill
	movdqa	%xmm2, (%rsp)                   # 16-byte Spill
	callq	"utf_lanes::text_units::long_halves"
	movdqa	(%rsp), %xmm2                   # 16-byte Reload
	movdqa	16(%rsp), %xmm3                 # 16-byte Reload
	movdqa	80(%rsp), %xmm0
	movdqa	96(%rsp), %xmm5
	jmp	.LBB24_35
.LBB24_34:                              # %then.1.i
	pxor	%xmm5, %xmm5
	pcmpgtb	%xmm3, %xmm5
	pand	%xmm2, %xmm5
	movdqa	.LCPI24_1(%rip), %xmm4          # xmm4 = [127,127,127,127,127,127,127,127,127,127,127,127,127,127,127,127]
	pand	%xmm3, %xmm4
	movdqa	%xmm5, %xmm0
	psllw	$6, %xmm0
	pand	.LCPI24_2(%rip), %xmm0
	psubusb	.LCPI24_3(%rip), %xmm1
	paddb	%xmm4, %xmm0
	psllw	$4, %xmm1
	pand	.LCPI24_0(%rip), %xmm1
	psrlw	$2, %xmm5
	pand	.LCPI24_4(%rip), %xmm5
	por	%xmm1, %xmm5
.LBB24_35:                              # %"utf_lanes::text_units::lane_halves.exit"
	psubusb	.LCPI24_5(%rip), %xmm2
	pmaxub	%xmm3, %xmm2
	movdqa	.LCPI24_6(%rip), %xmm1          # xmm1 = [191,191,191,191,191,191,191,191,191,191,191,191,191,191,191,191]
	pminub	%xmm2, %xmm1
	pcmpeqb	%xmm2, %xmm1
	pmovmskb	%xmm1, %eax
	movl	%r14d, %ecx
	shrl	%cl, %eax
	shll	%cl, %eax
	movdqa	%xmm0, %xmm1
	punpckhbw	%xmm5, %xmm1            # xmm1 = xmm1[8],xmm5[8],xmm1[9],xmm5[9],xmm1[10],xmm5[10],xmm1[11],xmm5[11],xmm1[12],xmm5[12],xmm1[13],xmm5[13],xmm1[14],xmm5[14],xmm1[15],xmm5[15]
	punpcklbw	%xmm5, %xmm0            # xmm0 = xmm0[0],xmm5[0],xmm0[1],xmm5[1],xmm0[2],xmm5[2],xmm0[3],xmm5[3],xmm0[4],xmm5[4],xmm0[5],xmm5[5],xmm0[6],xmm5[6],xmm0[7],xmm5[7]
	movzbl	%al, %ecx
	popcntl	%ecx, %esi
	shll	$4, %ecx
	leaq	.Lstatic.17(%rip), %rdi
	movdqu	(%rcx,%rdi), %xmm2
	pshufb	%xmm2, %xmm0
	shrl	$8, %eax
	popcntl	%eax, %edx
	shll	$4, %eax
	movdqu	(%rax,%rdi), %xmm2
	pshufb	%xmm2, %xmm1
	movdqa	%xmm0, 32(%rsp)
	movdqu	%xmm1, 32(%rsp,%rsi,2)
	addl	%esi, %edx
	addl	%edx, %edx
	movq	8(%r13), %rbx
	movq	16(%r13), %r14
	movq	%r14, %rax
	subq	%rbx, %rax
	cmpq	%rax, %rdx
	ja	.LBB24_40
.LBB24_36:                              # %join.3.i
	movq	(%r13), %r15
	leaq	(%r15,%rbx), %rdi
	addq	%rdx, %rbx
	leaq	32(%rsp), %rsi
	callq	memcpy@PLT
	movq	%r15, (%r13)
	movq	%rbx, 8(%r13)
	movq	%r14, 16(%r13)
.LBB24_37:                              # %"std_alloc::vec::Vec::extend_from_slice::<#0cd040e5c49bc722>.exit"
	movq	%r12, %r14
	jmp	.LBB24_30
.LBB24_38:                              # %"std_alloc::vec::Vec::grow::<#5fdc5e19576447a7>.exit.i965"
	movq	%rbp, %rdi
	movq	%r12, %rsi
	callq	"std_alloc::vec::Vec::grow_amortized::<#5fdc5e19576447a7>"
	testb	%al, %al
	je	.LBB24_30
# %bb.39:                               # %"std_alloc::vec::Vec::grow::<#5fdc5e19576447a7>.exit.join.3_crit_edge.i967"
	movq	8(%rbp), %rbx
	movq	16(%rbp), %r15
	jmp	.LBB24_29
.LBB24_40:                              # %"std_alloc::vec::Vec::grow::<#5fdc5e19576447a7>.exit.i"
	movq	%r13, %rdi
	movq	%rdx, %r15
	movq	%rdx, %rsi
	callq	"std_alloc::vec::Vec::grow_amortized::<#5fdc5e19576447a7>"
	testb	%al, %al
	je	.LBB24_37
# %bb.41:                               # %"std_alloc::vec::Vec::grow::<#5fdc5e19576447a7>.exit.join.3_crit_edge.i"
	movq	8(%r13), %rbx
	movq	16(%r13), %r14
	movq	%r15, %rdx
	jmp	.LBB24_36
.Lfunc_end24:
	.size	"recoding::kernels::put_few::<#b3a77c927faee343>", .Lfunc_end24-"recoding::kernels::put_few::<#b3a77c927faee343>"
	.cfi_endproc
                                        # -- End function
	.section	.rodata.cst16,"aM",@progbits,16
	.p2align	4, 0x0                          # -- Begin function utf_lanes::text_units::long_halves
.LCPI25_0:
	.zero	16,127
.LCPI25_1:
	.zero	16,192
.LCPI25_2:
	.zero	16,224
.LCPI25_3:
	.zero	16,15
.LCPI25_4:
	.zero	16,252
.LCPI25_5:
	.zero	16,7
.LCPI25_6:
	.zero	16,64
.LCPI25_7:
	.zero	16,215
.LCPI25_8:
	.zero	16,3
.LCPI25_9:
	.zero	16,220
.LCPI25_10:
	.zero	16,239
	.section	".text.utf_lanes::text_units::long_halves","ax",@progbits
	.p2align	4
	.type	"utf_lanes::text_units::long_halves",@function
"utf_lanes::text_units::long_halves":   # @"utf_lanes::text_units::long_halves"
	.cfi_startproc
# %bb.0:                                # %start
	pxor	%xmm7, %xmm7
	pcmpgtb	%xmm3, %xmm7
	pand	%xmm2, %xmm7
	movdqa	.LCPI25_0(%rip), %xmm4          # xmm4 = [127,127,127,127,127,127,127,127,127,127,127,127,127,127,127,127]
	pand	%xmm3, %xmm4
	movdqa	%xmm7, %xmm5
	psllw	$6, %xmm5
	movdqa	.LCPI25_1(%rip), %xmm6          # xmm6 = [192,192,192,192,192,192,192,192,192,192,192,192,192,192,192,192]
	pand	%xmm6, %xmm5
	paddb	%xmm4, %xmm5
	movdqa	.LCPI25_5(%rip), %xmm8          # xmm8 = [7,7,7,7,7,7,7,7,7,7,7,7,7,7,7,7]
	pand	%xmm1, %xmm8
	movdqa	.LCPI25_10(%rip), %xmm9         # xmm9 = [239,239,239,239,239,239,239,239,239,239,239,239,239,239,239,239]
	movdqa	%xmm1, %xmm4
	pminub	%xmm9, %xmm4
	pcmpeqb	%xmm1, %xmm4
	psubusb	.LCPI25_2(%rip), %xmm1
	psllw	$4, %xmm1
	psrlw	$2, %xmm7
	movdqa	.LCPI25_3(%rip), %xmm10         # xmm10 = [15,15,15,15,15,15,15,15,15,15,15,15,15,15,15,15]
	pand	%xmm10, %xmm7
	pandn	%xmm1, %xmm10
	por	%xmm7, %xmm10
	movdqa	%xmm2, %xmm1
	psllw	$2, %xmm1
	movdqa	.LCPI25_4(%rip), %xmm7          # xmm7 = [252,252,252,252,252,252,252,252,252,252,252,252,252,252,252,252]
	pand	%xmm7, %xmm1
	psrlw	$4, %xmm3
	pandn	%xmm3, %xmm7
	movdqa	.LCPI25_6(%rip), %xmm3          # xmm3 = [64,64,64,64,64,64,64,64,64,64,64,64,64,64,64,64]
	pmaxub	%xmm1, %xmm3
	pcmpeqb	%xmm1, %xmm3
	psubb	%xmm3, %xmm8
	paddb	.LCPI25_7(%rip), %xmm8
	por	%xmm1, %xmm7
	psrlw	$2, %xmm2
	pand	.LCPI25_8(%rip), %xmm2
	paddb	%xmm6, %xmm7
	por	.LCPI25_9(%rip), %xmm2
	pminub	%xmm0, %xmm9
	pcmpeqb	%xmm9, %xmm0
	pblendvb	%xmm0, %xmm10, %xmm2
	movdqa	%xmm4, %xmm0
	pblendvb	%xmm0, %xmm5, %xmm7
	pblendvb	%xmm0, %xmm2, %xmm8
	movdqu	%xmm7, (%rdi)
	movdqu	%xmm8, 16(%rdi)
	retq
.Lfunc_end25:
	.size	"utf_lanes::text_units::long_halves", .Lfunc_end25-"utf_lanes::text_units::long_halves"
	.cfi_endproc
                                        # -- End function
	.section	".text.recoding::list::VecU8Output::put_wide::<#e3b2a9d4d2861db8>","ax",@progbits
	.p2align	4                               # -- Begin function recoding::list::VecU8Output::put_wide::<#e3b2a9d4d2861db8>
	.type	"recoding::list::VecU8Output::put_wide::<#e3b2a9d4d2861db8>",@function
"recoding::list::VecU8Output::put_wide::<#e3b2a9d4d2861db8>": # @"recoding::list::VecU8Output::put_wide::<#e3b2a9d4d2861db8>"
	.cfi_startproc
# %bb.0:                                # %start
	pushq	%rbx
	.cfi_def_cfa_offset 16
	subq	$64, %rsp
	.cfi_def_cfa_offset 80
	.cfi_offset %rbx, -16
	movaps	%xmm0, (%rsp)
	movaps	%xmm1, 16(%rsp)
	movaps	%xmm2, 32(%rsp)
	movaps	%xmm3, 48(%rsp)
	movq	8(%rdi), %rax
	movq	16(%rdi), %rcx
	movq	%rcx, %rdx
	subq	%rax, %rdx
	cmpq	$63, %rdx
	jbe	.LBB26_1
.LBB26_3:                               # %join.3.i
	movq	(%rdi), %rdx
	leaq	(%rdx,%rax), %rsi
	addq	$64, %rax
	movq	%rsp, %r8
	movq	%rsi, %r9
	subq	%r8, %r9
	cmpq	$63, %r9
	ja	.LBB26_5
# %bb.4:                                # %join.7.i.i.i.preheader
	movzbl	(%rsp), %r8d
	movb	%r8b, (%rsi)
	movzbl	1(%rsp), %r8d
	movb	%r8b, 1(%rsi)
	movzbl	2(%rsp), %r8d
	movb	%r8b, 2(%rsi)
	movzbl	3(%rsp), %r8d
	movb	%r8b, 3(%rsi)
	movzbl	4(%rsp), %r8d
	movb	%r8b, 4(%rsi)
	movzbl	5(%rsp), %r8d
	movb	%r8b, 5(%rsi)
	movzbl	6(%rsp), %r8d
	movb	%r8b, 6(%rsi)
	movzbl	7(%rsp), %r8d
	movb	%r8b, 7(%rsi)
	movzbl	8(%rsp), %r8d
	movb	%r8b, 8(%rsi)
	movzbl	9(%rsp), %r8d
	movb	%r8b, 9(%rsi)
	movzbl	10(%rsp), %r8d
	movb	%r8b, 10(%rsi)
	movzbl	11(%rsp), %r8d
	movb	%r8b, 11(%rsi)
	movzbl	12(%rsp), %r8d
	movb	%r8b, 12(%rsi)
	movzbl	13(%rsp), %r8d
	movb	%r8b, 13(%rsi)
	movzbl	14(%rsp), %r8d
	movb	%r8b, 14(%rsi)
	movzbl	15(%rsp), %r8d
	movb	%r8b, 15(%rsi)
	movzbl	16(%rsp), %r8d
	movb	%r8b, 16(%rsi)
	movzbl	17(%rsp), %r8d
	movb	%r8b, 17(%rsi)
	movzbl	18(%rsp), %r8d
	movb	%r8b, 18(%rsi)
	movzbl	19(%rsp), %r8d
	movb	%r8b, 19(%rsi)
	movzbl	20(%rsp), %r8d
	movb	%r8b, 20(%rsi)
	movzbl	21(%rsp), %r8d
	movb	%r8b, 21(%rsi)
	movzbl	22(%rsp), %r8d
	movb	%r8b, 22(%rsi)
	movzbl	23(%rsp), %r8d
	movb	%r8b, 23(%rsi)
	movzbl	24(%rsp), %r8d
	movb	%r8b, 24(%rsi)
	movzbl	25(%rsp), %r8d
	movb	%r8b, 25(%rsi)
	movzbl	26(%rsp), %r8d
	movb	%r8b, 26(%rsi)
	movzbl	27(%rsp), %r8d
	movb	%r8b, 27(%rsi)
	movzbl	28(%rsp), %r8d
	movb	%r8b, 28(%rsi)
	movzbl	29(%rsp), %r8d
	movb	%r8b, 29(%rsi)
	movzbl	30(%rsp), %r8d
	movb	%r8b, 30(%rsi)
	movzbl	31(%rsp), %r8d
	movb	%r8b, 31(%rsi)
	movzbl	32(%rsp), %r8d
	movb	%r8b, 32(%rsi)
	movzbl	33(%rsp), %r8d
	movb	%r8b, 33(%rsi)
	movzbl	34(%rsp), %r8d
	movb	%r8b, 34(%rsi)
	movzbl	35(%rsp), %r8d
	movb	%r8b, 35(%rsi)
	movzbl	36(%rsp), %r8d
	movb	%r8b, 36(%rsi)
	movzbl	37(%rsp), %r8d
	movb	%r8b, 37(%rsi)
	movzbl	38(%rsp), %r8d
	movb	%r8b, 38(%rsi)
	movzbl	39(%rsp), %r8d
	movb	%r8b, 39(%rsi)
	movzbl	40(%rsp), %r8d
	movb	%r8b, 40(%rsi)
	movzbl	41(%rsp), %r8d
	movb	%r8b, 41(%rsi)
	movzbl	42(%rsp), %r8d
	movb	%r8b, 42(%rsi)
	movzbl	43(%rsp), %r8d
	movb	%r8b, 43(%rsi)
	movzbl	44(%rsp), %r8d
	movb	%r8b, 44(%rsi)
	movzbl	45(%rsp), %r8d
	movb	%r8b, 45(%rsi)
	movzbl	46(%rsp), %r8d
	movb	%r8b, 46(%rsi)
	movzbl	47(%rsp), %r8d
	movb	%r8b, 47(%rsi)
	movzbl	48(%rsp), %r8d
	movb	%r8b, 48(%rsi)
	movzbl	49(%rsp), %r8d
	movb	%r8b, 49(%rsi)
	movzbl	50(%rsp), %r8d
	movb	%r8b, 50(%rsi)
	movzbl	51(%rsp), %r8d
	movb	%r8b, 51(%rsi)
	movzbl	52(%rsp), %r8d
	movb	%r8b, 52(%rsi)
	movzbl	53(%rsp), %r8d
	movb	%r8b, 53(%rsi)
	movzbl	54(%rsp), %r8d
	movb	%r8b, 54(%rsi)
	movzbl	55(%rsp), %r8d
	movb	%r8b, 55(%rsi)
	movzbl	56(%rsp), %r8d
	movb	%r8b, 56(%rsi)
	movzbl	57(%rsp), %r8d
	movb	%r8b, 57(%rsi)
	movzbl	58(%rsp), %r8d
	movb	%r8b, 58(%rsi)
	movzbl	59(%rsp), %r8d
	movb	%r8b, 59(%rsi)
	movzbl	60(%rsp), %r8d
	movb	%r8b, 60(%rsi)
	movzbl	61(%rsp), %r8d
	movb	%r8b, 61(%rsi)
	movzbl	62(%rsp), %r8d
	movb	%r8b, 62(%rsi)
	movzbl	63(%rsp), %r8d
	movb	%r8b, 63(%rsi)
	jmp	.LBB26_6
.LBB26_5:                               # %apart.2.i.i.i
	movaps	(%rsp), %xmm0
	movaps	16(%rsp), %xmm1
	movaps	32(%rsp), %xmm2
	movaps	48(%rsp), %xmm3
	movups	%xmm3, 48(%rsi)
	movups	%xmm2, 32(%rsi)
	movups	%xmm1, 16(%rsi)
	movups	%xmm0, (%rsi)
.LBB26_6:                               # %"core::slots::Slots::copy_in::<i8,20'core::clone::U8Clone{}>.exit.i"
	movq	%rdx, (%rdi)
	movq	%rax, 8(%rdi)
	movq	%rcx, 16(%rdi)
.LBB26_7:                               # %"std_alloc::vec::Vec::extend_from_slice::<#0cd040e5c49bc722>.exit"
	addq	$64, %rsp
	.cfi_def_cfa_offset 16
	popq	%rbx
	.cfi_def_cfa_offset 8
	retq
.LBB26_1:                               # %"std_alloc::vec::Vec::grow::<#5fdc5e19576447a7>.exit.i"
	.cfi_def_cfa_offset 80
	movl	$64, %esi
	movq	%rdi, %rbx
	callq	"std_alloc::vec::Vec::grow_amortized::<#5fdc5e19576447a7>"
	testb	%al, %al
	je	.LBB26_7
# %bb.2:                                # %"std_alloc::vec::Vec::grow::<#5fdc5e19576447a7>.exit.join.3_crit_edge.i"
	movq	%rbx, %rdi
	movq	8(%rbx), %rax
	movq	16(%rbx), %rcx
	jmp	.LBB26_3
.Lfunc_end26:
	.size	"recoding::list::VecU8Output::put_wide::<#e3b2a9d4d2861db8>", .Lfunc_end26-"recoding::list::VecU8Output::put_wide::<#e3b2a9d4d2861db8>"
	.cfi_endproc
                                        # -- End function
	.section	".text.recoding::kernels::put_judged::<#87c24961b7620b58>","ax",@progbits
	.p2align	4                               # -- Begin function recoding::kernels::put_judged::<#87c24961b7620b58>
	.type	"recoding::kernels::put_judged::<#87c24961b7620b58>",@function
"recoding::kernels::put_judged::<#87c24961b7620b58>": # @"recoding::kernels::put_judged::<#87c24961b7620b58>"
	.cfi_startproc
# %bb.0:                                # %start
	pushq	%r15
	.cfi_def_cfa_offset 16
	pushq	%r14
	.cfi_def_cfa_offset 24
	pushq	%rbx
	.cfi_def_cfa_offset 32
	.cfi_offset %rbx, -32
	.cfi_offset %r14, -24
	.cfi_offset %r15, -16
	movq	%rdx, %rbx
	movq	%rdi, %r14
	movq	16(%rdx), %rax
	subq	8(%rdx), %rax
	xorl	%r15d, %r15d
	subq	$32, %rax
	cmovbq	%r15, %rax
	shrq	%rax
	cmpq	%rsi, %rax
	cmovbq	%rax, %rsi
	callq	"utf_lanes::text_blocks::text_len"
	cmpq	$18, %rax
	jbe	.LBB27_2
# %bb.1:                                # %join.3
	movq	%r14, %rdi
	movq	%rax, %rsi
	movq	%rbx, %rdx
	movq	%rax, %r15
	callq	"recoding::list::append_units::<#035c64e45cc79e03>"
.LBB27_2:                               # %common.ret
	movq	%r15, %rax
	popq	%rbx
	.cfi_def_cfa_offset 24
	popq	%r14
	.cfi_def_cfa_offset 16
	popq	%r15
	.cfi_def_cfa_offset 8
	retq
.Lfunc_end27:
	.size	"recoding::kernels::put_judged::<#87c24961b7620b58>", .Lfunc_end27-"recoding::kernels::put_judged::<#87c24961b7620b58>"
	.cfi_endproc
                                        # -- End function
	.section	".text.recoding::list::append_units::<#035c64e45cc79e03>","ax",@progbits
	.p2align	4                               # -- Begin function recoding::list::append_units::<#035c64e45cc79e03>
	.type	"recoding::list::append_units::<#035c64e45cc79e03>",@function
"recoding::list::append_units::<#035c64e45cc79e03>": # @"recoding::list::append_units::<#035c64e45cc79e03>"
	.cfi_startproc
# %bb.0:                                # %start
	pushq	%rbp
	.cfi_def_cfa_offset 16
	pushq	%r15
	.cfi_def_cfa_offset 24
	pushq	%r14
	.cfi_def_cfa_offset 32
	pushq	%r13
	.cfi_def_cfa_offset 40
	pushq	%r12
	.cfi_def_cfa_offset 48
	pushq	%rbx
	.cfi_def_cfa_offset 56
	subq	$24, %rsp
	.cfi_def_cfa_offset 80
	.cfi_offset %rbx, -56
	.cfi_offset %r12, -48
	.cfi_offset %r13, -40
	.cfi_offset %r14, -32
	.cfi_offset %r15, -24
	.cfi_offset %rbp, -16
	movq	%rdx, %rbx
	movq	%rsi, %r15
	movq	%rdi, 8(%rsp)                   # 8-byte Spill
	movq	8(%rdx), %rdi
	leaq	32(,%rsi,2), %r13
	cmpq	$1985, %r13                     # imm = 0x7C1
	movq	%rdi, 16(%rsp)                  # 8-byte Spill
	jae	.LBB28_1
# %bb.11:                               # %"recoding::list::append_zeros::<#e3b2a9d4d2861db8>.exit"
	leaq	(%rdi,%r13), %r12
	cmpq	%rdi, %r12
	jbe	.LBB28_12
.LBB28_14:                              # %join.3.i16
	movq	16(%rbx), %r14
	movq	%r14, %rax
	subq	%rdi, %rax
	cmpq	%rax, %r13
	ja	.LBB28_15
# %bb.17:                               # %join.3.i2.i21
	movq	(%rbx), %rbp
	cmpq	%r12, %rdi
	jae	.LBB28_19
.LBB28_18:                              # %join.5.preheader.i.i.i28
	addq	%rbp, %rdi
	xorl	%esi, %esi
	movq	%r13, %rdx
	callq	memset@PLT
.LBB28_19:                              # %"std_alloc::vec::opened::fill_run::<i8,20'core::clone::U8Clone{}>.exit.i.i27"
	movq	%rbp, (%rbx)
	movq	%r12, 8(%rbx)
	movq	%r14, 16(%rbx)
	jmp	.LBB28_20
	.p2align	4
.LBB28_2:                               # %join.3.i.i
                                        #   in Loop: Header=BB28_1 Depth=1
	addq	$1984, %rdi                     # imm = 0x7C0
	movq	%rdi, 8(%rbx)
.LBB28_9:                               # %"std_alloc::vec::Vec::resize::<#0cd040e5c49bc722>.exit"
                                        #   in Loop: Header=BB28_1 Depth=1
	addq	$-1984, %r13                    # imm = 0xF840
	cmpq	$1984, %r13                     # imm = 0x7C0
	jbe	.LBB28_10
.LBB28_1:                               # %join.5.i
                                        # =>This Inner Loop Header: Depth=1
	movq	8(%rbx), %rdi
	cmpq	$-1984, %rdi                    # imm = 0xF840
	jae	.LBB28_2
# %bb.3:                                # %join.3.i
                                        #   in Loop: Header=BB28_1 Depth=1
	movq	16(%rbx), %rbp
	movq	%rbp, %rax
	subq	%rdi, %rax
	cmpq	$1984, %rax                     # imm = 0x7C0
	jb	.LBB28_5
# %bb.4:                                # %join.3.i2.i.thread
                                        #   in Loop: Header=BB28_1 Depth=1
	leaq	1984(%rdi), %r14
	movq	(%rbx), %r12
.LBB28_7:                               # %join.5.preheader.i.i.i
                                        #   in Loop: Header=BB28_1 Depth=1
	addq	%r12, %rdi
	movl	$1984, %edx                     # imm = 0x7C0
	xorl	%esi, %esi
	callq	memset@PLT
.LBB28_8:                               # %"std_alloc::vec::opened::fill_run::<i8,20'core::clone::U8Clone{}>.exit.i.i"
                                        #   in Loop: Header=BB28_1 Depth=1
	movq	%r12, (%rbx)
	movq	%r14, 8(%rbx)
	movq	%rbp, 16(%rbx)
	jmp	.LBB28_9
.LBB28_5:                               # %"std_alloc::vec::Vec::grow::<#5fdc5e19576447a7>.exit.i.i"
                                        #   in Loop: Header=BB28_1 Depth=1
	movl	$1984, %esi                     # imm = 0x7C0
	movq	%rbx, %rdi
	callq	"std_alloc::vec::Vec::grow_amortized::<#5fdc5e19576447a7>"
	testb	%al, %al
	je	.LBB28_9
# %bb.6:                                # %join.3.i2.i
                                        #   in Loop: Header=BB28_1 Depth=1
	movq	(%rbx), %r12
	movq	8(%rbx), %rdi
	movq	16(%rbx), %rbp
	movq	%rdi, %r14
	subq	$-1984, %r14                    # imm = 0xF840
	jb	.LBB28_7
	jmp	.LBB28_8
.LBB28_10:                              # %"recoding::list::append_zeros::<#e3b2a9d4d2861db8>.exit.loopexit"
	movq	8(%rbx), %rdi
	leaq	(%rdi,%r13), %r12
	cmpq	%rdi, %r12
	ja	.LBB28_14
.LBB28_12:                              # %then.1.i12
	jae	.LBB28_20
# %bb.13:                               # %join.3.i.i15
	movq	%r12, 8(%rbx)
.LBB28_20:                              # %"std_alloc::vec::Vec::resize::<#0cd040e5c49bc722>.exit35"
	movq	(%rbx), %rdx
	movq	8(%rsp), %rdi                   # 8-byte Reload
	movq	%r15, %rsi
	movq	16(%rsp), %rcx                  # 8-byte Reload
	callq	"recoding::utf8_to_utf16::widen_text::<#951b42d46d2e9f62>"
	cmpq	%rax, 8(%rbx)
	jbe	.LBB28_22
# %bb.21:                               # %join.3.i37
	movq	%rax, 8(%rbx)
.LBB28_22:                              # %"std_alloc::vec::Vec::truncate::<#8193b041ae25b2e3>.exit"
	addq	$24, %rsp
	.cfi_def_cfa_offset 56
	popq	%rbx
	.cfi_def_cfa_offset 48
	popq	%r12
	.cfi_def_cfa_offset 40
	popq	%r13
	.cfi_def_cfa_offset 32
	popq	%r14
	.cfi_def_cfa_offset 24
	popq	%r15
	.cfi_def_cfa_offset 16
	popq	%rbp
	.cfi_def_cfa_offset 8
	retq
.LBB28_15:                              # %"std_alloc::vec::Vec::grow::<#5fdc5e19576447a7>.exit.i.i30"
	.cfi_def_cfa_offset 80
	movq	%rbx, %rdi
	movq	%r13, %rsi
	callq	"std_alloc::vec::Vec::grow_amortized::<#5fdc5e19576447a7>"
	testb	%al, %al
	je	.LBB28_20
# %bb.16:                               # %"std_alloc::vec::Vec::grow::<#5fdc5e19576447a7>.exit.join.3_crit_edge.i.i32"
	movq	8(%rbx), %rdi
	movq	16(%rbx), %r14
	leaq	(%rdi,%r13), %r12
	movq	(%rbx), %rbp
	cmpq	%r12, %rdi
	jb	.LBB28_18
	jmp	.LBB28_19
.Lfunc_end28:
	.size	"recoding::list::append_units::<#035c64e45cc79e03>", .Lfunc_end28-"recoding::list::append_units::<#035c64e45cc79e03>"
	.cfi_endproc
                                        # -- End function
	.section	.rodata.cst16,"aM",@progbits,16
	.p2align	4, 0x0                          # -- Begin function recoding::utf8_to_utf16::widen_text::<#951b42d46d2e9f62>
.LCPI29_0:
	.zero	16,240
.LCPI29_1:
	.zero	16,127
.LCPI29_2:
	.zero	16,192
.LCPI29_3:
	.zero	16,224
.LCPI29_4:
	.zero	16,15
.LCPI29_5:
	.zero	16,32
.LCPI29_6:
	.zero	16,191
	.section	".text.recoding::utf8_to_utf16::widen_text::<#951b42d46d2e9f62>","ax",@progbits
	.p2align	4
	.type	"recoding::utf8_to_utf16::widen_text::<#951b42d46d2e9f62>",@function
"recoding::utf8_to_utf16::widen_text::<#951b42d46d2e9f62>": # @"recoding::utf8_to_utf16::widen_text::<#951b42d46d2e9f62>"
	.cfi_startproc
# %bb.0:                                # %start
	pushq	%rbp
	.cfi_def_cfa_offset 16
	pushq	%r15
	.cfi_def_cfa_offset 24
	pushq	%r14
	.cfi_def_cfa_offset 32
	pushq	%r13
	.cfi_def_cfa_offset 40
	pushq	%r12
	.cfi_def_cfa_offset 48
	pushq	%rbx
	.cfi_def_cfa_offset 56
	subq	$104, %rsp
	.cfi_def_cfa_offset 160
	.cfi_offset %rbx, -56
	.cfi_offset %r12, -48
	.cfi_offset %r13, -40
	.cfi_offset %r14, -32
	.cfi_offset %r15, -24
	.cfi_offset %rbp, -16
	movq	%rcx, %r14
	movq	%rdx, %r12
	movq	%rsi, %rbx
	movq	%rdi, 88(%rsp)                  # 8-byte Spill
	movdqu	(%rdi), %xmm3
	movdqa	%xmm3, %xmm2
	pslldq	$1, %xmm2                       # xmm2 = zero,xmm2[0,1,2,3,4,5,6,7,8,9,10,11,12,13,14]
	movdqa	%xmm3, %xmm1
	pslldq	$2, %xmm1                       # xmm1 = zero,zero,xmm1[0,1,2,3,4,5,6,7,8,9,10,11,12,13]
	movdqa	%xmm3, %xmm0
	pslldq	$3, %xmm0                       # xmm0 = zero,zero,zero,xmm0[0,1,2,3,4,5,6,7,8,9,10,11,12]
	movdqa	%xmm1, %xmm4
	pmaxub	%xmm0, %xmm4
	movdqa	.LCPI29_0(%rip), %xmm5          # xmm5 = [240,240,240,240,240,240,240,240,240,240,240,240,240,240,240,240]
	pmaxub	%xmm4, %xmm5
	pcmpeqb	%xmm4, %xmm5
	pmovmskb	%xmm5, %eax
	testl	%eax, %eax
	je	.LBB29_1
# %bb.2:                                # %else.2.i.i
	leaq	16(%rsp), %rdi
	movdqa	%xmm2, 48(%rsp)                 # 16-byte Spill
	movdqa	%xmm3, (%rsp)                   # 16-byte Spill
	callq	"utf_lanes::text_units::long_halves"
	movdqa	(%rsp), %xmm3                   # 16-byte Reload
	movdqa	48(%rsp), %xmm2                 # 16-byte Reload
	movdqa	16(%rsp), %xmm0
	movdqa	32(%rsp), %xmm4
	jmp	.LBB29_3
.LBB29_1:                               # %then.1.i.i
	pxor	%xmm4, %xmm4
	pcmpgtb	%xmm3, %xmm4
	pand	%xmm2, %xmm4
	movdqa	.LCPI29_1(%rip), %xmm5          # xmm5 = [127,127,127,127,127,127,127,127,127,127,127,127,127,127,127,127]
	pand	%xmm3, %xmm5
	movdqa	%xmm4, %xmm0
	psllw	$6, %xmm0
	pand	.LCPI29_2(%rip), %xmm0
	psubusb	.LCPI29_3(%rip), %xmm1
	paddb	%xmm5, %xmm0
	psllw	$4, %xmm1
	pand	.LCPI29_0(%rip), %xmm1
	psrlw	$2, %xmm4
	pand	.LCPI29_4(%rip), %xmm4
	por	%xmm1, %xmm4
.LBB29_3:                               # %"utf_lanes::text_puts::write_first::<#951b42d46d2e9f62>.exit"
	psubusb	.LCPI29_5(%rip), %xmm2
	pmaxub	%xmm3, %xmm2
	movdqa	.LCPI29_6(%rip), %xmm1          # xmm1 = [191,191,191,191,191,191,191,191,191,191,191,191,191,191,191,191]
	pminub	%xmm2, %xmm1
	pcmpeqb	%xmm2, %xmm1
	pmovmskb	%xmm1, %eax
	movdqa	%xmm0, %xmm1
	punpckhbw	%xmm4, %xmm1            # xmm1 = xmm1[8],xmm4[8],xmm1[9],xmm4[9],xmm1[10],xmm4[10],xmm1[11],xmm4[11],xmm1[12],xmm4[12],xmm1[13],xmm4[13],xmm1[14],xmm4[14],xmm1[15],xmm4[15]
	punpcklbw	%xmm4, %xmm0            # xmm0 = xmm0[0],xmm4[0],xmm0[1],xmm4[1],xmm0[2],xmm4[2],xmm0[3],xmm4[3],xmm0[4],xmm4[4],xmm0[5],xmm4[5],xmm0[6],xmm4[6],xmm0[7],xmm4[7]
	movzbl	%al, %ecx
	xorl	%edx, %edx
	popcntl	%ecx, %edx
	shll	$4, %ecx
	leaq	.Lstatic.17(%rip), %rsi
	movdqu	(%rcx,%rsi), %xmm2
	pshufb	%xmm2, %xmm0
	shrl	$8, %eax
	xorl	%ecx, %ecx
	popcntl	%eax, %ecx
	shll	$4, %eax
	movdqu	(%rax,%rsi), %xmm2
	pshufb	%xmm2, %xmm1
	leaq	(%r12,%r14), %rax
	movdqu	%xmm0, (%r12,%r14)
	movdqu	%xmm1, (%rax,%rdx,2)
	addl	%edx, %ecx
	leaq	(%r14,%rcx,2), %r14
	leaq	-80(%rbx), %rax
	movl	$16, %r13d
	cmpq	$-65, %rax
	ja	.LBB29_10
# %bb.4:                                # %join.5.i534.lr.ph
	movq	88(%rsp), %rax                  # 8-byte Reload
	leaq	13(%rax), %r15
	movq	$-16, %r13
	movq	%r12, 48(%rsp)                  # 8-byte Spill
	movq	%rbx, 96(%rsp)                  # 8-byte Spill
	.p2align	4
.LBB29_5:                               # %join.5.i534
                                        # =>This Inner Loop Header: Depth=1
	cmpb	$0, 3(%r15)
	js	.LBB29_6
# %bb.13:                               # %join.3.i538
                                        #   in Loop: Header=BB29_5 Depth=1
	movdqu	3(%r15), %xmm3
	movdqu	19(%r15), %xmm0
	movdqu	35(%r15), %xmm1
	movdqu	51(%r15), %xmm2
	por	%xmm0, %xmm2
	por	%xmm3, %xmm1
	por	%xmm2, %xmm1
	pmovmskb	%xmm1, %eax
	testl	%eax, %eax
	jne	.LBB29_7
# %bb.14:                               # %then.4.i
                                        #   in Loop: Header=BB29_5 Depth=1
	cmpb	$-65, 2(%r15)
	ja	.LBB29_7
# %bb.15:                               # %join.3.i.i
                                        #   in Loop: Header=BB29_5 Depth=1
	cmpb	$-33, 1(%r15)
	ja	.LBB29_7
# %bb.16:                               # %"recoding::utf8_to_utf16::is_plain.exit"
                                        #   in Loop: Header=BB29_5 Depth=1
	cmpb	$-17, (%r15)
	ja	.LBB29_7
# %bb.17:                               # %then.1.i
                                        #   in Loop: Header=BB29_5 Depth=1
	movdqu	3(%r15), %xmm0
	movdqu	19(%r15), %xmm1
	movdqu	35(%r15), %xmm2
	movdqu	51(%r15), %xmm3
	pxor	%xmm4, %xmm4
	pmovzxbw	%xmm0, %xmm5                    # xmm5 = xmm0[0],zero,xmm0[1],zero,xmm0[2],zero,xmm0[3],zero,xmm0[4],zero,xmm0[5],zero,xmm0[6],zero,xmm0[7],zero
	punpckhbw	%xmm4, %xmm0            # xmm0 = xmm0[8],xmm4[8],xmm0[9],xmm4[9],xmm0[10],xmm4[10],xmm0[11],xmm4[11],xmm0[12],xmm4[12],xmm0[13],xmm4[13],xmm0[14],xmm4[14],xmm0[15],xmm4[15]
	pmovzxbw	%xmm1, %xmm6                    # xmm6 = xmm1[0],zero,xmm1[1],zero,xmm1[2],zero,xmm1[3],zero,xmm1[4],zero,xmm1[5],zero,xmm1[6],zero,xmm1[7],zero
	punpckhbw	%xmm4, %xmm1            # xmm1 = xmm1[8],xmm4[8],xmm1[9],xmm4[9],xmm1[10],xmm4[10],xmm1[11],xmm4[11],xmm1[12],xmm4[12],xmm1[13],xmm4[13],xmm1[14],xmm4[14],xmm1[15],xmm4[15]
	movdqu	%xmm6, 32(%r12,%r14)
	movdqu	%xmm1, 48(%r12,%r14)
	movdqu	%xmm5, (%r12,%r14)
	movdqu	%xmm0, 16(%r12,%r14)
	pmovzxbw	%xmm2, %xmm0                    # xmm0 = xmm2[0],zero,xmm2[1],zero,xmm2[2],zero,xmm2[3],zero,xmm2[4],zero,xmm2[5],zero,xmm2[6],zero,xmm2[7],zero
	punpckhbw	%xmm4, %xmm2            # xmm2 = xmm2[8],xmm4[8],xmm2[9],xmm4[9],xmm2[10],xmm4[10],xmm2[11],xmm4[11],xmm2[12],xmm4[12],xmm2[13],xmm4[13],xmm2[14],xmm4[14],xmm2[15],xmm4[15]
	pmovzxbw	%xmm3, %xmm1                    # xmm1 = xmm3[0],zero,xmm3[1],zero,xmm3[2],zero,xmm3[3],zero,xmm3[4],zero,xmm3[5],zero,xmm3[6],zero,xmm3[7],zero
	punpckhbw	%xmm4, %xmm3            # xmm3 = xmm3[8],xmm4[8],xmm3[9],xmm4[9],xmm3[10],xmm4[10],xmm3[11],xmm4[11],xmm3[12],xmm4[12],xmm3[13],xmm4[13],xmm3[14],xmm4[14],xmm3[15],xmm4[15]
	movdqu	%xmm1, 96(%r12,%r14)
	movdqu	%xmm3, 112(%r12,%r14)
	movdqu	%xmm0, 64(%r12,%r14)
	movdqu	%xmm2, 80(%r12,%r14)
	subq	$-128, %r14
	jmp	.LBB29_29
	.p2align	4
.LBB29_6:                               # %join.5.i534.join.3.i_crit_edge
                                        #   in Loop: Header=BB29_5 Depth=1
	movdqu	3(%r15), %xmm3
.LBB29_7:                               # %join.3.i
                                        #   in Loop: Header=BB29_5 Depth=1
	movdqu	(%r15), %xmm0
	movdqu	1(%r15), %xmm1
	movdqu	2(%r15), %xmm2
	movdqa	%xmm1, %xmm5
	pmaxub	%xmm0, %xmm5
	movdqa	.LCPI29_0(%rip), %xmm4          # xmm4 = [240,240,240,240,240,240,240,240,240,240,240,240,240,240,240,240]
	pmaxub	%xmm5, %xmm4
	pcmpeqb	%xmm5, %xmm4
	pmovmskb	%xmm4, %eax
	testl	%eax, %eax
	je	.LBB29_8
# %bb.18:                               # %else.2.i.i.i
                                        #   in Loop: Header=BB29_5 Depth=1
	leaq	16(%rsp), %rdi
	movdqa	%xmm3, (%rsp)                   # 16-byte Spill
	movdqa	%xmm2, 64(%rsp)                 # 16-byte Spill
	callq	"utf_lanes::text_units::long_halves"
	movdqa	64(%rsp), %xmm2                 # 16-byte Reload
	movdqa	(%rsp), %xmm3                   # 16-byte Reload
	movdqa	16(%rsp), %xmm0
	movdqa	32(%rsp), %xmm5
	jmp	.LBB29_19
	.p2align	4
.LBB29_8:                               # %then.1.i.i.i
                                        #   in Loop: Header=BB29_5 Depth=1
	pxor	%xmm5, %xmm5
	pcmpgtb	%xmm3, %xmm5
	pand	%xmm2, %xmm5
	movdqa	.LCPI29_1(%rip), %xmm4          # xmm4 = [127,127,127,127,127,127,127,127,127,127,127,127,127,127,127,127]
	pand	%xmm3, %xmm4
	movdqa	%xmm5, %xmm0
	psllw	$6, %xmm0
	pand	.LCPI29_2(%rip), %xmm0
	psubusb	.LCPI29_3(%rip), %xmm1
	paddb	%xmm4, %xmm0
	psllw	$4, %xmm1
	pand	.LCPI29_0(%rip), %xmm1
	psrlw	$2, %xmm5
	pand	.LCPI29_4(%rip), %xmm5
	por	%xmm1, %xmm5
.LBB29_19:                              # %"utf_lanes::text_units::block_units::<#951b42d46d2e9f62>.exit.i"
                                        #   in Loop: Header=BB29_5 Depth=1
	psubusb	.LCPI29_5(%rip), %xmm2
	pmaxub	%xmm3, %xmm2
	movdqa	.LCPI29_6(%rip), %xmm1          # xmm1 = [191,191,191,191,191,191,191,191,191,191,191,191,191,191,191,191]
	pminub	%xmm2, %xmm1
	pcmpeqb	%xmm2, %xmm1
	pmovmskb	%xmm1, %ebx
	movdqa	%xmm0, %xmm1
	punpckhbw	%xmm5, %xmm1            # xmm1 = xmm1[8],xmm5[8],xmm1[9],xmm5[9],xmm1[10],xmm5[10],xmm1[11],xmm5[11],xmm1[12],xmm5[12],xmm1[13],xmm5[13],xmm1[14],xmm5[14],xmm1[15],xmm5[15]
	punpcklbw	%xmm5, %xmm0            # xmm0 = xmm0[0],xmm5[0],xmm0[1],xmm5[1],xmm0[2],xmm5[2],xmm0[3],xmm5[3],xmm0[4],xmm5[4],xmm0[5],xmm5[5],xmm0[6],xmm5[6],xmm0[7],xmm5[7]
	movzbl	%bl, %eax
	popcntl	%eax, %ebp
	shll	$4, %eax
	leaq	.Lstatic.17(%rip), %rcx
	movdqu	(%rax,%rcx), %xmm2
	pshufb	%xmm2, %xmm0
	shrl	$8, %ebx
	movl	%ebx, %eax
	shll	$4, %eax
	movdqu	(%rax,%rcx), %xmm2
	pshufb	%xmm2, %xmm1
	leaq	(%r12,%r14), %rax
	movdqu	%xmm0, (%r12,%r14)
	movdqu	%xmm1, (%rax,%rbp,2)
	movdqu	16(%r15), %xmm0
	movdqu	17(%r15), %xmm1
	movdqu	18(%r15), %xmm2
	movdqu	19(%r15), %xmm3
	movdqa	%xmm1, %xmm4
	pmaxub	%xmm0, %xmm4
	movdqa	.LCPI29_0(%rip), %xmm5          # xmm5 = [240,240,240,240,240,240,240,240,240,240,240,240,240,240,240,240]
	pmaxub	%xmm4, %xmm5
	pcmpeqb	%xmm4, %xmm5
	pmovmskb	%xmm5, %eax
	testl	%eax, %eax
	je	.LBB29_20
# %bb.21:                               # %else.2.i.i399.i
                                        #   in Loop: Header=BB29_5 Depth=1
	leaq	16(%rsp), %rdi
	movdqa	%xmm2, (%rsp)                   # 16-byte Spill
	movdqa	%xmm3, 64(%rsp)                 # 16-byte Spill
	callq	"utf_lanes::text_units::long_halves"
	movdqa	64(%rsp), %xmm3                 # 16-byte Reload
	movdqa	(%rsp), %xmm2                   # 16-byte Reload
	movdqa	16(%rsp), %xmm0
	movdqa	32(%rsp), %xmm4
	jmp	.LBB29_22
	.p2align	4
.LBB29_20:                              # %then.1.i.i593.i
                                        #   in Loop: Header=BB29_5 Depth=1
	pxor	%xmm4, %xmm4
	pcmpgtb	%xmm3, %xmm4
	pand	%xmm2, %xmm4
	movdqa	.LCPI29_1(%rip), %xmm5          # xmm5 = [127,127,127,127,127,127,127,127,127,127,127,127,127,127,127,127]
	pand	%xmm3, %xmm5
	movdqa	%xmm4, %xmm0
	psllw	$6, %xmm0
	pand	.LCPI29_2(%rip), %xmm0
	psubusb	.LCPI29_3(%rip), %xmm1
	paddb	%xmm5, %xmm0
	psllw	$4, %xmm1
	pand	.LCPI29_0(%rip), %xmm1
	psrlw	$2, %xmm4
	pand	.LCPI29_4(%rip), %xmm4
	por	%xmm1, %xmm4
.LBB29_22:                              # %"utf_lanes::text_units::block_units::<#951b42d46d2e9f62>.exit608.i"
                                        #   in Loop: Header=BB29_5 Depth=1
	xorl	%eax, %eax
	popcntl	%ebx, %eax
	addq	%rax, %rbp
	leal	(,%rbp,2), %eax
	psubusb	.LCPI29_5(%rip), %xmm2
	pmaxub	%xmm3, %xmm2
	movdqa	.LCPI29_6(%rip), %xmm1          # xmm1 = [191,191,191,191,191,191,191,191,191,191,191,191,191,191,191,191]
	pminub	%xmm2, %xmm1
	pcmpeqb	%xmm2, %xmm1
	pmovmskb	%xmm1, %ebx
	movdqa	%xmm0, %xmm1
	punpckhbw	%xmm4, %xmm1            # xmm1 = xmm1[8],xmm4[8],xmm1[9],xmm4[9],xmm1[10],xmm4[10],xmm1[11],xmm4[11],xmm1[12],xmm4[12],xmm1[13],xmm4[13],xmm1[14],xmm4[14],xmm1[15],xmm4[15]
	punpcklbw	%xmm4, %xmm0            # xmm0 = xmm0[0],xmm4[0],xmm0[1],xmm4[1],xmm0[2],xmm4[2],xmm0[3],xmm4[3],xmm0[4],xmm4[4],xmm0[5],xmm4[5],xmm0[6],xmm4[6],xmm0[7],xmm4[7]
	movzbl	%bl, %ecx
	popcntl	%ecx, %r12d
	shll	$4, %ecx
	leaq	.Lstatic.17(%rip), %rdx
	movdqu	(%rcx,%rdx), %xmm2
	pshufb	%xmm2, %xmm0
	shrl	$8, %ebx
	movl	%ebx, %ecx
	shll	$4, %ecx
	movdqu	(%rcx,%rdx), %xmm2
	pshufb	%xmm2, %xmm1
	movq	48(%rsp), %rcx                  # 8-byte Reload
	addq	%rcx, %rax
	movdqu	%xmm0, (%r14,%rax)
	addq	%rbp, %r12
	leaq	(%rcx,%r12,2), %rax
	movdqu	%xmm1, (%r14,%rax)
	movdqu	32(%r15), %xmm0
	movdqu	33(%r15), %xmm1
	movdqu	34(%r15), %xmm2
	movdqu	35(%r15), %xmm3
	movdqa	%xmm1, %xmm4
	pmaxub	%xmm0, %xmm4
	movdqa	.LCPI29_0(%rip), %xmm5          # xmm5 = [240,240,240,240,240,240,240,240,240,240,240,240,240,240,240,240]
	pmaxub	%xmm4, %xmm5
	pcmpeqb	%xmm4, %xmm5
	pmovmskb	%xmm5, %eax
	testl	%eax, %eax
	je	.LBB29_23
# %bb.24:                               # %else.2.i.i661.i
                                        #   in Loop: Header=BB29_5 Depth=1
	leaq	16(%rsp), %rdi
	movdqa	%xmm2, (%rsp)                   # 16-byte Spill
	movdqa	%xmm3, 64(%rsp)                 # 16-byte Spill
	callq	"utf_lanes::text_units::long_halves"
	movdqa	64(%rsp), %xmm3                 # 16-byte Reload
	movdqa	(%rsp), %xmm2                   # 16-byte Reload
	movdqa	16(%rsp), %xmm0
	movdqa	32(%rsp), %xmm4
	jmp	.LBB29_25
	.p2align	4
.LBB29_23:                              # %then.1.i.i855.i
                                        #   in Loop: Header=BB29_5 Depth=1
	pxor	%xmm4, %xmm4
	pcmpgtb	%xmm3, %xmm4
	pand	%xmm2, %xmm4
	movdqa	.LCPI29_1(%rip), %xmm5          # xmm5 = [127,127,127,127,127,127,127,127,127,127,127,127,127,127,127,127]
	pand	%xmm3, %xmm5
	movdqa	%xmm4, %xmm0
	psllw	$6, %xmm0
	pand	.LCPI29_2(%rip), %xmm0
	psubusb	.LCPI29_3(%rip), %xmm1
	paddb	%xmm5, %xmm0
	psllw	$4, %xmm1
	pand	.LCPI29_0(%rip), %xmm1
	psrlw	$2, %xmm4
	pand	.LCPI29_4(%rip), %xmm4
	por	%xmm1, %xmm4
.LBB29_25:                              # %"utf_lanes::text_units::block_units::<#951b42d46d2e9f62>.exit870.i"
                                        #   in Loop: Header=BB29_5 Depth=1
	xorl	%eax, %eax
	popcntl	%ebx, %eax
	addq	%rax, %r12
	leal	(%r12,%r12), %eax
	psubusb	.LCPI29_5(%rip), %xmm2
	pmaxub	%xmm3, %xmm2
	movdqa	.LCPI29_6(%rip), %xmm1          # xmm1 = [191,191,191,191,191,191,191,191,191,191,191,191,191,191,191,191]
	pminub	%xmm2, %xmm1
	pcmpeqb	%xmm2, %xmm1
	pmovmskb	%xmm1, %ebx
	movdqa	%xmm0, %xmm1
	punpckhbw	%xmm4, %xmm1            # xmm1 = xmm1[8],xmm4[8],xmm1[9],xmm4[9],xmm1[10],xmm4[10],xmm1[11],xmm4[11],xmm1[12],xmm4[12],xmm1[13],xmm4[13],xmm1[14],xmm4[14],xmm1[15],xmm4[15]
	punpcklbw	%xmm4, %xmm0            # xmm0 = xmm0[0],xmm4[0],xmm0[1],xmm4[1],xmm0[2],xmm4[2],xmm0[3],xmm4[3],xmm0[4],xmm4[4],xmm0[5],xmm4[5],xmm0[6],xmm4[6],xmm0[7],xmm4[7]
	movzbl	%bl, %ecx
	xorl	%ebp, %ebp
	popcntl	%ecx, %ebp
	shll	$4, %ecx
	leaq	.Lstatic.17(%rip), %rdx
	movdqu	(%rcx,%rdx), %xmm2
	pshufb	%xmm2, %xmm0
	shrl	$8, %ebx
	movl	%ebx, %ecx
	shll	$4, %ecx
	movdqu	(%rcx,%rdx), %xmm2
	pshufb	%xmm2, %xmm1
	movq	48(%rsp), %rcx                  # 8-byte Reload
	addq	%rcx, %rax
	movdqu	%xmm0, (%r14,%rax)
	addq	%r12, %rbp
	movq	%rcx, %r12
	leaq	(%rcx,%rbp,2), %rax
	movdqu	%xmm1, (%r14,%rax)
	movdqu	48(%r15), %xmm0
	movdqu	49(%r15), %xmm1
	movdqu	50(%r15), %xmm2
	movdqu	51(%r15), %xmm3
	movdqa	%xmm1, %xmm4
	pmaxub	%xmm0, %xmm4
	movdqa	.LCPI29_0(%rip), %xmm5          # xmm5 = [240,240,240,240,240,240,240,240,240,240,240,240,240,240,240,240]
	pmaxub	%xmm4, %xmm5
	pcmpeqb	%xmm4, %xmm5
	pmovmskb	%xmm5, %eax
	testl	%eax, %eax
	je	.LBB29_26
# %bb.27:                               # %else.2.i.i923.i
                                        #   in Loop: Header=BB29_5 Depth=1
	leaq	16(%rsp), %rdi
	movdqa	%xmm2, (%rsp)                   # 16-byte Spill
	movdqa	%xmm3, 64(%rsp)                 # 16-byte Spill
	callq	"utf_lanes::text_units::long_halves"
	movdqa	64(%rsp), %xmm3                 # 16-byte Reload
	movdqa	(%rsp), %xmm2                   # 16-byte Reload
	movdqa	16(%rsp), %xmm0
	movdqa	32(%rsp), %xmm4
	jmp	.LBB29_28
	.p2align	4
.LBB29_26:                              # %then.1.i.i1117.i
                                        #   in Loop: Header=BB29_5 Depth=1
	pxor	%xmm4, %xmm4
	pcmpgtb	%xmm3, %xmm4
	pand	%xmm2, %xmm4
	movdqa	.LCPI29_1(%rip), %xmm5          # xmm5 = [127,127,127,127,127,127,127,127,127,127,127,127,127,127,127,127]
	pand	%xmm3, %xmm5
	movdqa	%xmm4, %xmm0
	psllw	$6, %xmm0
	pand	.LCPI29_2(%rip), %xmm0
	psubusb	.LCPI29_3(%rip), %xmm1
	paddb	%xmm5, %xmm0
	psllw	$4, %xmm1
	pand	.LCPI29_0(%rip), %xmm1
	psrlw	$2, %xmm4
	pand	.LCPI29_4(%rip), %xmm4
	por	%xmm1, %xmm4
.LBB29_28:                              # %"utf_lanes::text_puts::write_64::<#951b42d46d2e9f62>.exit"
                                        #   in Loop: Header=BB29_5 Depth=1
	xorl	%eax, %eax
	popcntl	%ebx, %eax
	addq	%rax, %rbp
	leal	(,%rbp,2), %eax
	psubusb	.LCPI29_5(%rip), %xmm2
	pmaxub	%xmm3, %xmm2
	movdqa	.LCPI29_6(%rip), %xmm1          # xmm1 = [191,191,191,191,191,191,191,191,191,191,191,191,191,191,191,191]
	pminub	%xmm2, %xmm1
	pcmpeqb	%xmm2, %xmm1
	pmovmskb	%xmm1, %ecx
	movdqa	%xmm0, %xmm1
	punpckhbw	%xmm4, %xmm1            # xmm1 = xmm1[8],xmm4[8],xmm1[9],xmm4[9],xmm1[10],xmm4[10],xmm1[11],xmm4[11],xmm1[12],xmm4[12],xmm1[13],xmm4[13],xmm1[14],xmm4[14],xmm1[15],xmm4[15]
	punpcklbw	%xmm4, %xmm0            # xmm0 = xmm0[0],xmm4[0],xmm0[1],xmm4[1],xmm0[2],xmm4[2],xmm0[3],xmm4[3],xmm0[4],xmm4[4],xmm0[5],xmm4[5],xmm0[6],xmm4[6],xmm0[7],xmm4[7]
	movzbl	%cl, %edx
	popcntl	%edx, %esi
	shll	$4, %edx
	leaq	.Lstatic.17(%rip), %rdi
	movdqu	(%rdx,%rdi), %xmm2
	pshufb	%xmm2, %xmm0
	shrl	$8, %ecx
	xorl	%edx, %edx
	popcntl	%ecx, %edx
	shll	$4, %ecx
	movdqu	(%rcx,%rdi), %xmm2
	pshufb	%xmm2, %xmm1
	addq	%r12, %rax
	movdqu	%xmm0, (%r14,%rax)
	addl	%ebp, %esi
	leaq	(%r12,%rsi,2), %rax
	movdqu	%xmm1, (%r14,%rax)
	addl	%edx, %esi
	leaq	(%r14,%rsi,2), %r14
	movq	96(%rsp), %rbx                  # 8-byte Reload
.LBB29_29:                              # %"recoding::utf8_to_utf16::write_some::<#951b42d46d2e9f62>.exit"
                                        #   in Loop: Header=BB29_5 Depth=1
	leaq	(%rbx,%r13), %rax
	addq	$-64, %rax
	addq	$-64, %r13
	addq	$64, %r15
	cmpq	$63, %rax
	ja	.LBB29_5
# %bb.9:                                # %loop.2.i.preheader.loopexit
	negq	%r13
.LBB29_10:                              # %loop.2.i.preheader
	movq	%rbx, %r15
	subq	%r13, %r15
	cmpq	$16, %r15
	jae	.LBB29_11
.LBB29_32:                              # %after.1.i
	cmpq	%rbx, %r13
	jae	.LBB29_37
# %bb.33:                               # %then.6.i
	leaq	-16(%rbx), %rax
	subq	%rax, %r13
	movq	88(%rsp), %rax                  # 8-byte Reload
	movdqu	-19(%rax,%rbx), %xmm0
	movdqu	-18(%rax,%rbx), %xmm1
	movdqu	-17(%rax,%rbx), %xmm2
	movdqu	-16(%rax,%rbx), %xmm3
	movdqa	%xmm1, %xmm4
	pmaxub	%xmm0, %xmm4
	movdqa	.LCPI29_0(%rip), %xmm5          # xmm5 = [240,240,240,240,240,240,240,240,240,240,240,240,240,240,240,240]
	pmaxub	%xmm4, %xmm5
	pcmpeqb	%xmm4, %xmm5
	pmovmskb	%xmm5, %eax
	testl	%eax, %eax
	je	.LBB29_34
# %bb.35:                               # %else.2.i.i188
	leaq	16(%rsp), %rdi
	movdqa	%xmm2, 48(%rsp)                 # 16-byte Spill
	movdqa	%xmm3, (%rsp)                   # 16-byte Spill
	callq	"utf_lanes::text_units::long_halves"
	movdqa	(%rsp), %xmm3                   # 16-byte Reload
	movdqa	48(%rsp), %xmm2                 # 16-byte Reload
	movdqa	16(%rsp), %xmm0
	movdqa	32(%rsp), %xmm4
	jmp	.LBB29_36
	.p2align	4
.LBB29_30:                              # %else.2.i.i319
                                        #   in Loop: Header=BB29_11 Depth=1
	leaq	16(%rsp), %rdi
	movdqa	%xmm2, 48(%rsp)                 # 16-byte Spill
	movdqa	%xmm3, (%rsp)                   # 16-byte Spill
	callq	"utf_lanes::text_units::long_halves"
	movdqa	(%rsp), %xmm3                   # 16-byte Reload
	movdqa	48(%rsp), %xmm2                 # 16-byte Reload
	movdqa	16(%rsp), %xmm0
	movdqa	32(%rsp), %xmm4
.LBB29_31:                              # %"utf_lanes::text_units::block_units::<#951b42d46d2e9f62>.exit528"
                                        #   in Loop: Header=BB29_11 Depth=1
	psubusb	.LCPI29_5(%rip), %xmm2
	pmaxub	%xmm3, %xmm2
	movdqa	.LCPI29_6(%rip), %xmm1          # xmm1 = [191,191,191,191,191,191,191,191,191,191,191,191,191,191,191,191]
	pminub	%xmm2, %xmm1
	pcmpeqb	%xmm2, %xmm1
	pmovmskb	%xmm1, %eax
	movdqa	%xmm0, %xmm1
	punpckhbw	%xmm4, %xmm1            # xmm1 = xmm1[8],xmm4[8],xmm1[9],xmm4[9],xmm1[10],xmm4[10],xmm1[11],xmm4[11],xmm1[12],xmm4[12],xmm1[13],xmm4[13],xmm1[14],xmm4[14],xmm1[15],xmm4[15]
	punpcklbw	%xmm4, %xmm0            # xmm0 = xmm0[0],xmm4[0],xmm0[1],xmm4[1],xmm0[2],xmm4[2],xmm0[3],xmm4[3],xmm0[4],xmm4[4],xmm0[5],xmm4[5],xmm0[6],xmm4[6],xmm0[7],xmm4[7]
	movzbl	%al, %ecx
	xorl	%edx, %edx
	popcntl	%ecx, %edx
	shll	$4, %ecx
	leaq	.Lstatic.17(%rip), %rsi
	movdqu	(%rcx,%rsi), %xmm2
	pshufb	%xmm2, %xmm0
	shrl	$8, %eax
	xorl	%ecx, %ecx
	popcntl	%eax, %ecx
	shll	$4, %eax
	movdqu	(%rax,%rsi), %xmm2
	pshufb	%xmm2, %xmm1
	leaq	(%r12,%r14), %rax
	movdqu	%xmm0, (%r12,%r14)
	movdqu	%xmm1, (%rax,%rdx,2)
	addl	%edx, %ecx
	leaq	(%r14,%rcx,2), %r14
	addq	$16, %r13
	addq	$-16, %r15
	cmpq	$15, %r15
	jbe	.LBB29_32
.LBB29_11:                              # %join.5.i
                                        # =>This Inner Loop Header: Depth=1
	movq	88(%rsp), %rax                  # 8-byte Reload
	movdqu	-3(%rax,%r13), %xmm0
	movdqu	-2(%rax,%r13), %xmm1
	movdqu	-1(%rax,%r13), %xmm2
	movdqu	(%rax,%r13), %xmm3
	movdqa	%xmm1, %xmm4
	pmaxub	%xmm0, %xmm4
	movdqa	.LCPI29_0(%rip), %xmm5          # xmm5 = [240,240,240,240,240,240,240,240,240,240,240,240,240,240,240,240]
	pmaxub	%xmm4, %xmm5
	pcmpeqb	%xmm4, %xmm5
	pmovmskb	%xmm5, %eax
	testl	%eax, %eax
	jne	.LBB29_30
# %bb.12:                               # %then.1.i.i513
                                        #   in Loop: Header=BB29_11 Depth=1
	pxor	%xmm4, %xmm4
	pcmpgtb	%xmm3, %xmm4
	pand	%xmm2, %xmm4
	movdqa	.LCPI29_1(%rip), %xmm5          # xmm5 = [127,127,127,127,127,127,127,127,127,127,127,127,127,127,127,127]
	pand	%xmm3, %xmm5
	movdqa	%xmm4, %xmm0
	psllw	$6, %xmm0
	pand	.LCPI29_2(%rip), %xmm0
	psubusb	.LCPI29_3(%rip), %xmm1
	paddb	%xmm5, %xmm0
	psllw	$4, %xmm1
	pand	.LCPI29_0(%rip), %xmm1
	psrlw	$2, %xmm4
	pand	.LCPI29_4(%rip), %xmm4
	por	%xmm1, %xmm4
	jmp	.LBB29_31
.LBB29_34:                              # %then.1.i.i257
	pxor	%xmm4, %xmm4
	pcmpgtb	%xmm3, %xmm4
	pand	%xmm2, %xmm4
	movdqa	.LCPI29_1(%rip), %xmm5          # xmm5 = [127,127,127,127,127,127,127,127,127,127,127,127,127,127,127,127]
	pand	%xmm3, %xmm5
	movdqa	%xmm4, %xmm0
	psllw	$6, %xmm0
	pand	.LCPI29_2(%rip), %xmm0
	psubusb	.LCPI29_3(%rip), %xmm1
	paddb	%xmm5, %xmm0
	psllw	$4, %xmm1
	pand	.LCPI29_0(%rip), %xmm1
	psrlw	$2, %xmm4
	pand	.LCPI29_4(%rip), %xmm4
	por	%xmm1, %xmm4
.LBB29_36:                              # %"utf_lanes::text_units::block_units::<#951b42d46d2e9f62>.exit"
	psubusb	.LCPI29_5(%rip), %xmm2
	pmaxub	%xmm3, %xmm2
	movdqa	.LCPI29_6(%rip), %xmm1          # xmm1 = [191,191,191,191,191,191,191,191,191,191,191,191,191,191,191,191]
	pminub	%xmm2, %xmm1
	pcmpeqb	%xmm2, %xmm1
	movq	$-1, %rax
	movl	%r13d, %ecx
	shlq	%cl, %rax
	pmovmskb	%xmm1, %ecx
	andl	%ecx, %eax
	movdqa	%xmm0, %xmm1
	punpckhbw	%xmm4, %xmm1            # xmm1 = xmm1[8],xmm4[8],xmm1[9],xmm4[9],xmm1[10],xmm4[10],xmm1[11],xmm4[11],xmm1[12],xmm4[12],xmm1[13],xmm4[13],xmm1[14],xmm4[14],xmm1[15],xmm4[15]
	punpcklbw	%xmm4, %xmm0            # xmm0 = xmm0[0],xmm4[0],xmm0[1],xmm4[1],xmm0[2],xmm4[2],xmm0[3],xmm4[3],xmm0[4],xmm4[4],xmm0[5],xmm4[5],xmm0[6],xmm4[6],xmm0[7],xmm4[7]
	movzbl	%al, %ecx
	xorl	%edx, %edx
	popcntl	%ecx, %edx
	shll	$4, %ecx
	leaq	.Lstatic.17(%rip), %rsi
	movdqu	(%rcx,%rsi), %xmm2
	pshufb	%xmm2, %xmm0
	shrl	$8, %eax
	xorl	%ecx, %ecx
	popcntl	%eax, %ecx
	shll	$4, %eax
	movdqu	(%rax,%rsi), %xmm2
	pshufb	%xmm2, %xmm1
	movdqu	%xmm0, (%r12,%r14)
	addq	%r14, %r12
	movdqu	%xmm1, (%r12,%rdx,2)
	addl	%edx, %ecx
	leaq	(%r14,%rcx,2), %r14
.LBB29_37:                              # %"utf_lanes::text_puts::write_rest::<#951b42d46d2e9f62>.exit"
	movq	%r14, %rax
	addq	$104, %rsp
	.cfi_def_cfa_offset 56
	popq	%rbx
	.cfi_def_cfa_offset 48
	popq	%r12
	.cfi_def_cfa_offset 40
	popq	%r13
	.cfi_def_cfa_offset 32
	popq	%r14
	.cfi_def_cfa_offset 24
	popq	%r15
	.cfi_def_cfa_offset 16
	popq	%rbp
	.cfi_def_cfa_offset 8
	retq
.Lfunc_end29:
	.size	"recoding::utf8_to_utf16::widen_text::<#951b42d46d2e9f62>", .Lfunc_end29-"recoding::utf8_to_utf16::widen_text::<#951b42d46d2e9f62>"
	.cfi_endproc
                                        # -- End function
	.section	.rodata.cst16,"aM",@progbits,16
	.p2align	4, 0x0                          # -- Begin function recoding::kernels::widen_damaged::<#6d28eb9c51c85cb7>
.LCPI30_0:
	.zero	16,253
	.section	".text.recoding::kernels::widen_damaged::<#6d28eb9c51c85cb7>","ax",@progbits
	.p2align	4
	.type	"recoding::kernels::widen_damaged::<#6d28eb9c51c85cb7>",@function
"recoding::kernels::widen_damaged::<#6d28eb9c51c85cb7>": # @"recoding::kernels::widen_damaged::<#6d28eb9c51c85cb7>"
	.cfi_startproc
# %bb.0:                                # %start
	pushq	%rbp
	.cfi_def_cfa_offset 16
	pushq	%r15
	.cfi_def_cfa_offset 24
	pushq	%r14
	.cfi_def_cfa_offset 32
	pushq	%r13
	.cfi_def_cfa_offset 40
	pushq	%r12
	.cfi_def_cfa_offset 48
	pushq	%rbx
	.cfi_def_cfa_offset 56
	subq	$632, %rsp                      # imm = 0x278
	.cfi_def_cfa_offset 688
	.cfi_offset %rbx, -56
	.cfi_offset %r12, -48
	.cfi_offset %r13, -40
	.cfi_offset %r14, -32
	.cfi_offset %r15, -24
	.cfi_offset %rbp, -16
	movq	%rdx, %r14
	movq	%rsi, 8(%rsp)                   # 8-byte Spill
	movq	%rdi, (%rsp)                    # 8-byte Spill
	pxor	%xmm0, %xmm0
	movdqa	%xmm0, 80(%rsp)
	movq	$0, 96(%rsp)
	leaq	120(%rsp), %rdi
	xorl	%ebx, %ebx
	movl	$512, %edx                      # imm = 0x200
	xorl	%esi, %esi
	callq	memset@PLT
	xorl	%ebp, %ebp
	jmp	.LBB30_1
	.p2align	4
.LBB30_20:                              # %"recoding::kernels::put_next_text::<#87c24961b7620b58>.exit"
                                        #   in Loop: Header=BB30_1 Depth=1
	movq	112(%rsp), %rbx                 # 8-byte Reload
	addq	%r15, %rbx
	movq	%rbp, %rax
	subq	%r13, %rax
	cmpq	$1024, %rax                     # imm = 0x400
	jae	.LBB30_21
.LBB30_1:                               # %loop.2
                                        # =>This Loop Header: Depth=1
                                        #     Child Loop BB30_11 Depth 2
	movq	(%rsp), %rax                    # 8-byte Reload
	leaq	(%rax,%rbp), %rsi
	movq	8(%rsp), %rdx                   # 8-byte Reload
	subq	%rbp, %rdx
	leaq	80(%rsp), %rdi
	leaq	120(%rsp), %rcx
	callq	"utf_lanes::mending::mend::<#0a9db3908d7f4f9c>"
	movq	80(%rsp), %r15
	testq	%r15, %r15
	je	.LBB30_21
# %bb.2:                                # %else.6
                                        #   in Loop: Header=BB30_1 Depth=1
	movq	88(%rsp), %rsi
	leaq	-1(%rsi), %rax
	cmpq	$31, %rax
	jb	.LBB30_21
# %bb.3:                                # %else.9
                                        #   in Loop: Header=BB30_1 Depth=1
	movq	16(%r14), %rax
	subq	8(%r14), %rax
	leaq	(%rsi,%rsi,2), %rcx
	cmpq	%rcx, %rax
	jb	.LBB30_21
# %bb.4:                                # %after.3
                                        #   in Loop: Header=BB30_1 Depth=1
	testq	%rsi, %rsi
	je	.LBB30_6
# %bb.5:                                # %then.1.i
                                        #   in Loop: Header=BB30_1 Depth=1
	leaq	120(%rsp), %rdi
	movq	%r14, %rdx
	callq	"recoding::list::append_units::<#035c64e45cc79e03>"
.LBB30_6:                               # %"recoding::kernels::put_mended::<#87c24961b7620b58>.exit"
                                        #   in Loop: Header=BB30_1 Depth=1
	addq	96(%rsp), %rbx
	movq	%rbx, 112(%rsp)                 # 8-byte Spill
	addq	%rbp, %r15
	movq	8(%rsp), %rbp                   # 8-byte Reload
	subq	%r15, %rbp
	cmpq	$67, %rbp
	movq	%r15, 104(%rsp)                 # 8-byte Spill
	jb	.LBB30_7
# %bb.8:                                # %then.1.i20
                                        #   in Loop: Header=BB30_1 Depth=1
	movq	(%rsp), %rax                    # 8-byte Reload
	leaq	(%rax,%r15), %rbx
	cmpb	$0, (%rbx)
	jns	.LBB30_10
# %bb.9:                                # %else.5.i
                                        #   in Loop: Header=BB30_1 Depth=1
	cmpb	$0, 1(%rbx)
	js	.LBB30_7
.LBB30_10:                              # %then.7.i.preheader
                                        #   in Loop: Header=BB30_1 Depth=1
	xorl	%r13d, %r13d
	xorl	%r15d, %r15d
	jmp	.LBB30_11
	.p2align	4
.LBB30_13:                              # %then.1.i25
                                        #   in Loop: Header=BB30_11 Depth=2
	pxor	%xmm4, %xmm4
	pmovzxbw	%xmm9, %xmm0                    # xmm0 = xmm9[0],zero,xmm9[1],zero,xmm9[2],zero,xmm9[3],zero,xmm9[4],zero,xmm9[5],zero,xmm9[6],zero,xmm9[7],zero
	movdqa	%xmm0, 32(%rsp)                 # 16-byte Spill
	punpckhbw	%xmm4, %xmm9            # xmm9 = xmm9[8],xmm4[8],xmm9[9],xmm4[9],xmm9[10],xmm4[10],xmm9[11],xmm4[11],xmm9[12],xmm4[12],xmm9[13],xmm4[13],xmm9[14],xmm4[14],xmm9[15],xmm4[15]
	movdqa	%xmm9, 48(%rsp)                 # 16-byte Spill
	pmovzxbw	%xmm8, %xmm0                    # xmm0 = xmm8[0],zero,xmm8[1],zero,xmm8[2],zero,xmm8[3],zero,xmm8[4],zero,xmm8[5],zero,xmm8[6],zero,xmm8[7],zero
	movdqa	%xmm0, 16(%rsp)                 # 16-byte Spill
	punpckhbw	%xmm4, %xmm8            # xmm8 = xmm8[8],xmm4[8],xmm8[9],xmm4[9],xmm8[10],xmm4[10],xmm8[11],xmm4[11],xmm8[12],xmm4[12],xmm8[13],xmm4[13],xmm8[14],xmm4[14],xmm8[15],xmm4[15]
	movdqa	%xmm8, 64(%rsp)                 # 16-byte Spill
	pmovzxbw	%xmm1, %xmm0                    # xmm0 = xmm1[0],zero,xmm1[1],zero,xmm1[2],zero,xmm1[3],zero,xmm1[4],zero,xmm1[5],zero,xmm1[6],zero,xmm1[7],zero
	punpckhbw	%xmm4, %xmm1            # xmm1 = xmm1[8],xmm4[8],xmm1[9],xmm4[9],xmm1[10],xmm4[10],xmm1[11],xmm4[11],xmm1[12],xmm4[12],xmm1[13],xmm4[13],xmm1[14],xmm4[14],xmm1[15],xmm4[15]
	pmovzxbw	%xmm3, %xmm2                    # xmm2 = xmm3[0],zero,xmm3[1],zero,xmm3[2],zero,xmm3[3],zero,xmm3[4],zero,xmm3[5],zero,xmm3[6],zero,xmm3[7],zero
	punpckhbw	%xmm4, %xmm3            # xmm3 = xmm3[8],xmm4[8],xmm3[9],xmm4[9],xmm3[10],xmm4[10],xmm3[11],xmm4[11],xmm3[12],xmm4[12],xmm3[13],xmm4[13],xmm3[14],xmm4[14],xmm3[15],xmm4[15]
	movq	%r14, %rdi
	callq	"recoding::list::VecU8Output::put_wide::<#e3b2a9d4d2861db8>"
	movq	%r14, %rdi
	movdqa	32(%rsp), %xmm0                 # 16-byte Reload
	movdqa	48(%rsp), %xmm1                 # 16-byte Reload
	movdqa	16(%rsp), %xmm2                 # 16-byte Reload
	movdqa	64(%rsp), %xmm3                 # 16-byte Reload
	callq	"recoding::list::VecU8Output::put_wide::<#e3b2a9d4d2861db8>"
	xorl	%r12d, %r12d
.LBB30_16:                              # %arm.14.i
                                        #   in Loop: Header=BB30_11 Depth=2
	addq	$64, %r13
	addq	%r12, %r15
	addq	$-64, %rbp
	cmpq	$66, %rbp
	jbe	.LBB30_17
.LBB30_11:                              # %then.7.i
                                        #   Parent Loop BB30_1 Depth=1
                                        # =>  This Inner Loop Header: Depth=2
	movq	16(%r14), %rax
	subq	8(%r14), %rax
	cmpq	$128, %rax
	jb	.LBB30_17
# %bb.12:                               # %join.9.i
                                        #   in Loop: Header=BB30_11 Depth=2
	movdqu	(%rbx,%r13), %xmm1
	movdqu	16(%rbx,%r13), %xmm3
	movdqu	32(%rbx,%r13), %xmm9
	movdqu	48(%rbx,%r13), %xmm8
	movdqa	%xmm9, %xmm0
	por	%xmm1, %xmm0
	movdqa	%xmm8, %xmm2
	por	%xmm3, %xmm2
	por	%xmm0, %xmm2
	pmovmskb	%xmm2, %eax
	testl	%eax, %eax
	je	.LBB30_13
# %bb.14:                               # %join.3.i
                                        #   in Loop: Header=BB30_11 Depth=2
	pmovmskb	%xmm1, %eax
	pmovmskb	%xmm3, %ecx
	shll	$16, %ecx
	orl	%eax, %ecx
	pmovmskb	%xmm9, %edx
	shlq	$32, %rdx
	orq	%rcx, %rdx
	pmovmskb	%xmm8, %eax
	shlq	$48, %rax
	orq	%rdx, %rax
	movq	%rax, %rcx
	shrq	%rcx
	movabsq	$-9223372036854775808, %rdx     # imm = 0x8000000000000000
	orq	%rcx, %rdx
	testq	%rax, %rdx
	jne	.LBB30_17
# %bb.15:                               # %arm.8.i
                                        #   in Loop: Header=BB30_11 Depth=2
	pxor	%xmm5, %xmm5
	pxor	%xmm2, %xmm2
	pcmpgtb	%xmm1, %xmm2
	pxor	%xmm4, %xmm4
	pcmpgtb	%xmm3, %xmm4
	pxor	%xmm6, %xmm6
	movdqa	.LCPI30_0(%rip), %xmm7          # xmm7 = [253,253,253,253,253,253,253,253,253,253,253,253,253,253,253,253]
	movdqa	%xmm3, %xmm0
	pblendvb	%xmm0, %xmm7, %xmm3
	pcmpgtb	%xmm9, %xmm6
	movdqa	%xmm1, %xmm0
	pblendvb	%xmm0, %xmm7, %xmm1
	pcmpgtb	%xmm8, %xmm5
	movdqa	%xmm8, %xmm0
	pblendvb	%xmm0, %xmm7, %xmm8
	xorl	%r12d, %r12d
	popcntq	%rax, %r12
	movdqa	%xmm9, %xmm0
	pblendvb	%xmm0, %xmm7, %xmm9
	movdqa	%xmm9, %xmm0
	punpcklbw	%xmm6, %xmm0            # xmm0 = xmm0[0],xmm6[0],xmm0[1],xmm6[1],xmm0[2],xmm6[2],xmm0[3],xmm6[3],xmm0[4],xmm6[4],xmm0[5],xmm6[5],xmm0[6],xmm6[6],xmm0[7],xmm6[7]
	movdqa	%xmm0, 32(%rsp)                 # 16-byte Spill
	punpckhbw	%xmm6, %xmm9            # xmm9 = xmm9[8],xmm6[8],xmm9[9],xmm6[9],xmm9[10],xmm6[10],xmm9[11],xmm6[11],xmm9[12],xmm6[12],xmm9[13],xmm6[13],xmm9[14],xmm6[14],xmm9[15],xmm6[15]
	movdqa	%xmm9, 48(%rsp)                 # 16-byte Spill
	movdqa	%xmm8, %xmm0
	punpcklbw	%xmm5, %xmm0            # xmm0 = xmm0[0],xmm5[0],xmm0[1],xmm5[1],xmm0[2],xmm5[2],xmm0[3],xmm5[3],xmm0[4],xmm5[4],xmm0[5],xmm5[5],xmm0[6],xmm5[6],xmm0[7],xmm5[7]
	movdqa	%xmm0, 16(%rsp)                 # 16-byte Spill
	punpckhbw	%xmm5, %xmm8            # xmm8 = xmm8[8],xmm5[8],xmm8[9],xmm5[9],xmm8[10],xmm5[10],xmm8[11],xmm5[11],xmm8[12],xmm5[12],xmm8[13],xmm5[13],xmm8[14],xmm5[14],xmm8[15],xmm5[15]
	movdqa	%xmm8, 64(%rsp)                 # 16-byte Spill
	movdqa	%xmm1, %xmm0
	punpcklbw	%xmm2, %xmm0            # xmm0 = xmm0[0],xmm2[0],xmm0[1],xmm2[1],xmm0[2],xmm2[2],xmm0[3],xmm2[3],xmm0[4],xmm2[4],xmm0[5],xmm2[5],xmm0[6],xmm2[6],xmm0[7],xmm2[7]
	punpckhbw	%xmm2, %xmm1            # xmm1 = xmm1[8],xmm2[8],xmm1[9],xmm2[9],xmm1[10],xmm2[10],xmm1[11],xmm2[11],xmm1[12],xmm2[12],xmm1[13],xmm2[13],xmm1[14],xmm2[14],xmm1[15],xmm2[15]
	movdqa	%xmm3, %xmm2
	punpcklbw	%xmm4, %xmm2            # xmm2 = xmm2[0],xmm4[0],xmm2[1],xmm4[1],xmm2[2],xmm4[2],xmm2[3],xmm4[3],xmm2[4],xmm4[4],xmm2[5],xmm4[5],xmm2[6],xmm4[6],xmm2[7],xmm4[7]
	punpckhbw	%xmm4, %xmm3            # xmm3 = xmm3[8],xmm4[8],xmm3[9],xmm4[9],xmm3[10],xmm4[10],xmm3[11],xmm4[11],xmm3[12],xmm4[12],xmm3[13],xmm4[13],xmm3[14],xmm4[14],xmm3[15],xmm4[15]
	movq	%r14, %rdi
	callq	"recoding::list::VecU8Output::put_wide::<#e3b2a9d4d2861db8>"
	movq	%r14, %rdi
	movdqa	32(%rsp), %xmm0                 # 16-byte Reload
	movdqa	48(%rsp), %xmm1                 # 16-byte Reload
	movdqa	16(%rsp), %xmm2                 # 16-byte Reload
	movdqa	64(%rsp), %xmm3                 # 16-byte Reload
	callq	"recoding::list::VecU8Output::put_wide::<#e3b2a9d4d2861db8>"
	jmp	.LBB30_16
	.p2align	4
.LBB30_7:                               #   in Loop: Header=BB30_1 Depth=1
	xorl	%r15d, %r15d
	xorl	%r13d, %r13d
.LBB30_17:                              # %"recoding::kernels::put_plain::<#5ffe3d2dbc72ef02>.exit"
                                        #   in Loop: Header=BB30_1 Depth=1
	addq	104(%rsp), %r13                 # 8-byte Folded Reload
	movq	(%rsp), %rdi                    # 8-byte Reload
	movq	8(%rsp), %rsi                   # 8-byte Reload
	movq	%r13, %rdx
	callq	"recoding::kernels::next_text_end"
	movq	%rax, %rsi
	subq	%r13, %rsi
	movq	%r13, %rbp
	cmpq	$32, %rsi
	jb	.LBB30_20
# %bb.18:                               # %else.4.i
                                        #   in Loop: Header=BB30_1 Depth=1
	movq	%rax, %r12
	movq	16(%r14), %rax
	subq	8(%r14), %rax
	movabsq	$-6148914691236517205, %rcx     # imm = 0xAAAAAAAAAAAAAAAB
	mulq	%rcx
	shrq	%rdx
	movq	%r13, %rbp
	cmpq	%rsi, %rdx
	jb	.LBB30_20
# %bb.19:                               # %after.1.i
                                        #   in Loop: Header=BB30_1 Depth=1
	movq	(%rsp), %rax                    # 8-byte Reload
	leaq	(%rax,%r13), %rdi
	movq	%r14, %rdx
	callq	"recoding::list::append_units::<#035c64e45cc79e03>"
	movq	%r12, %rbp
	jmp	.LBB30_20
.LBB30_21:                              # %return.15
	movq	%rbp, %rax
	movq	%rbx, %rdx
	addq	$632, %rsp                      # imm = 0x278
	.cfi_def_cfa_offset 56
	popq	%rbx
	.cfi_def_cfa_offset 48
	popq	%r12
	.cfi_def_cfa_offset 40
	popq	%r13
	.cfi_def_cfa_offset 32
	popq	%r14
	.cfi_def_cfa_offset 24
	popq	%r15
	.cfi_def_cfa_offset 16
	popq	%rbp
	.cfi_def_cfa_offset 8
	retq
.Lfunc_end30:
	.size	"recoding::kernels::widen_damaged::<#6d28eb9c51c85cb7>", .Lfunc_end30-"recoding::kernels::widen_damaged::<#6d28eb9c51c85cb7>"
	.cfi_endproc
                                        # -- End function
	.section	.rodata.cst16,"aM",@progbits,16
	.p2align	4, 0x0                          # -- Begin function recoding::kernels::widen_plain::<#5ffe3d2dbc72ef02>
.LCPI31_0:
	.zero	16,253
	.section	".text.recoding::kernels::widen_plain::<#5ffe3d2dbc72ef02>","ax",@progbits
	.p2align	4
	.type	"recoding::kernels::widen_plain::<#5ffe3d2dbc72ef02>",@function
"recoding::kernels::widen_plain::<#5ffe3d2dbc72ef02>": # @"recoding::kernels::widen_plain::<#5ffe3d2dbc72ef02>"
	.cfi_startproc
# %bb.0:                                # %start
	pushq	%rbp
	.cfi_def_cfa_offset 16
	pushq	%r15
	.cfi_def_cfa_offset 24
	pushq	%r14
	.cfi_def_cfa_offset 32
	pushq	%r13
	.cfi_def_cfa_offset 40
	pushq	%r12
	.cfi_def_cfa_offset 48
	pushq	%rbx
	.cfi_def_cfa_offset 56
	subq	$72, %rsp
	.cfi_def_cfa_offset 128
	.cfi_offset %rbx, -56
	.cfi_offset %r12, -48
	.cfi_offset %r13, -40
	.cfi_offset %r14, -32
	.cfi_offset %r15, -24
	.cfi_offset %rbp, -16
	cmpq	$67, %rsi
	jb	.LBB31_1
# %bb.2:                                # %then.1.i
	movq	%rdx, %r15
	movq	%rsi, %r12
	movq	%rdi, %r13
	cmpb	$0, (%rdi)
	jns	.LBB31_4
# %bb.3:                                # %else.5.i
	cmpb	$0, 1(%r13)
	js	.LBB31_1
.LBB31_4:                               # %then.7.i.lr.ph
	xorl	%r14d, %r14d
	xorl	%ebx, %ebx
	jmp	.LBB31_5
	.p2align	4
.LBB31_7:                               # %then.1.i5
                                        #   in Loop: Header=BB31_5 Depth=1
	pxor	%xmm4, %xmm4
	pmovzxbw	%xmm9, %xmm0                    # xmm0 = xmm9[0],zero,xmm9[1],zero,xmm9[2],zero,xmm9[3],zero,xmm9[4],zero,xmm9[5],zero,xmm9[6],zero,xmm9[7],zero
	movdqa	%xmm0, 16(%rsp)                 # 16-byte Spill
	punpckhbw	%xmm4, %xmm9            # xmm9 = xmm9[8],xmm4[8],xmm9[9],xmm4[9],xmm9[10],xmm4[10],xmm9[11],xmm4[11],xmm9[12],xmm4[12],xmm9[13],xmm4[13],xmm9[14],xmm4[14],xmm9[15],xmm4[15]
	movdqa	%xmm9, 32(%rsp)                 # 16-byte Spill
	pmovzxbw	%xmm8, %xmm0                    # xmm0 = xmm8[0],zero,xmm8[1],zero,xmm8[2],zero,xmm8[3],zero,xmm8[4],zero,xmm8[5],zero,xmm8[6],zero,xmm8[7],zero
	movdqa	%xmm0, (%rsp)                   # 16-byte Spill
	punpckhbw	%xmm4, %xmm8            # xmm8 = xmm8[8],xmm4[8],xmm8[9],xmm4[9],xmm8[10],xmm4[10],xmm8[11],xmm4[11],xmm8[12],xmm4[12],xmm8[13],xmm4[13],xmm8[14],xmm4[14],xmm8[15],xmm4[15]
	movdqa	%xmm8, 48(%rsp)                 # 16-byte Spill
	pmovzxbw	%xmm1, %xmm0                    # xmm0 = xmm1[0],zero,xmm1[1],zero,xmm1[2],zero,xmm1[3],zero,xmm1[4],zero,xmm1[5],zero,xmm1[6],zero,xmm1[7],zero
	punpckhbw	%xmm4, %xmm1            # xmm1 = xmm1[8],xmm4[8],xmm1[9],xmm4[9],xmm1[10],xmm4[10],xmm1[11],xmm4[11],xmm1[12],xmm4[12],xmm1[13],xmm4[13],xmm1[14],xmm4[14],xmm1[15],xmm4[15]
	pmovzxbw	%xmm3, %xmm2                    # xmm2 = xmm3[0],zero,xmm3[1],zero,xmm3[2],zero,xmm3[3],zero,xmm3[4],zero,xmm3[5],zero,xmm3[6],zero,xmm3[7],zero
	punpckhbw	%xmm4, %xmm3            # xmm3 = xmm3[8],xmm4[8],xmm3[9],xmm4[9],xmm3[10],xmm4[10],xmm3[11],xmm4[11],xmm3[12],xmm4[12],xmm3[13],xmm4[13],xmm3[14],xmm4[14],xmm3[15],xmm4[15]
	movq	%r15, %rdi
	callq	"recoding::list::VecU8Output::put_wide::<#e3b2a9d4d2861db8>"
	movq	%r15, %rdi
	movaps	16(%rsp), %xmm0                 # 16-byte Reload
	movaps	32(%rsp), %xmm1                 # 16-byte Reload
	movaps	(%rsp), %xmm2                   # 16-byte Reload
	movaps	48(%rsp), %xmm3                 # 16-byte Reload
	callq	"recoding::list::VecU8Output::put_wide::<#e3b2a9d4d2861db8>"
	xorl	%ebp, %ebp
.LBB31_10:                              # %arm.14.i
                                        #   in Loop: Header=BB31_5 Depth=1
	addq	$64, %r14
	addq	%rbp, %rbx
	addq	$-64, %r12
	cmpq	$66, %r12
	jbe	.LBB31_11
.LBB31_5:                               # %then.7.i
                                        # =>This Inner Loop Header: Depth=1
	movq	16(%r15), %rax
	subq	8(%r15), %rax
	cmpq	$128, %rax
	jb	.LBB31_11
# %bb.6:                                # %join.9.i
                                        #   in Loop: Header=BB31_5 Depth=1
	movdqu	(%r13,%r14), %xmm1
	movdqu	16(%r13,%r14), %xmm3
	movdqu	32(%r13,%r14), %xmm9
	movdqu	48(%r13,%r14), %xmm8
	movdqa	%xmm9, %xmm0
	por	%xmm1, %xmm0
	movdqa	%xmm8, %xmm2
	por	%xmm3, %xmm2
	por	%xmm0, %xmm2
	pmovmskb	%xmm2, %eax
	testl	%eax, %eax
	je	.LBB31_7
# %bb.8:                                # %join.3.i
                                        #   in Loop: Header=BB31_5 Depth=1
	pmovmskb	%xmm1, %eax
	pmovmskb	%xmm3, %ecx
	shll	$16, %ecx
	orl	%eax, %ecx
	pmovmskb	%xmm9, %edx
	shlq	$32, %rdx
	orq	%rcx, %rdx
	pmovmskb	%xmm8, %eax
	shlq	$48, %rax
	orq	%rdx, %rax
	movq	%rax, %rcx
	shrq	%rcx
	movabsq	$-9223372036854775808, %rdx     # imm = 0x8000000000000000
	orq	%rcx, %rdx
	testq	%rax, %rdx
	jne	.LBB31_11
# %bb.9:                                # %arm.8.i
                                        #   in Loop: Header=BB31_5 Depth=1
	pxor	%xmm5, %xmm5
	pxor	%xmm2, %xmm2
	pcmpgtb	%xmm1, %xmm2
	pxor	%xmm4, %xmm4
	pcmpgtb	%xmm3, %xmm4
	pxor	%xmm6, %xmm6
	movdqa	.LCPI31_0(%rip), %xmm7          # xmm7 = [253,253,253,253,253,253,253,253,253,253,253,253,253,253,253,253]
	movdqa	%xmm3, %xmm0
	pblendvb	%xmm0, %xmm7, %xmm3
	pcmpgtb	%xmm9, %xmm6
	movdqa	%xmm1, %xmm0
	pblendvb	%xmm0, %xmm7, %xmm1
	pcmpgtb	%xmm8, %xmm5
	movdqa	%xmm8, %xmm0
	pblendvb	%xmm0, %xmm7, %xmm8
	xorl	%ebp, %ebp
	popcntq	%rax, %rbp
	movdqa	%xmm9, %xmm0
	pblendvb	%xmm0, %xmm7, %xmm9
	movdqa	%xmm9, %xmm0
	punpcklbw	%xmm6, %xmm0            # xmm0 = xmm0[0],xmm6[0],xmm0[1],xmm6[1],xmm0[2],xmm6[2],xmm0[3],xmm6[3],xmm0[4],xmm6[4],xmm0[5],xmm6[5],xmm0[6],xmm6[6],xmm0[7],xmm6[7]
	movdqa	%xmm0, 16(%rsp)                 # 16-byte Spill
	punpckhbw	%xmm6, %xmm9            # xmm9 = xmm9[8],xmm6[8],xmm9[9],xmm6[9],xmm9[10],xmm6[10],xmm9[11],xmm6[11],xmm9[12],xmm6[12],xmm9[13],xmm6[13],xmm9[14],xmm6[14],xmm9[15],xmm6[15]
	movdqa	%xmm9, 32(%rsp)                 # 16-byte Spill
	movdqa	%xmm8, %xmm0
	punpcklbw	%xmm5, %xmm0            # xmm0 = xmm0[0],xmm5[0],xmm0[1],xmm5[1],xmm0[2],xmm5[2],xmm0[3],xmm5[3],xmm0[4],xmm5[4],xmm0[5],xmm5[5],xmm0[6],xmm5[6],xmm0[7],xmm5[7]
	movdqa	%xmm0, (%rsp)                   # 16-byte Spill
	punpckhbw	%xmm5, %xmm8            # xmm8 = xmm8[8],xmm5[8],xmm8[9],xmm5[9],xmm8[10],xmm5[10],xmm8[11],xmm5[11],xmm8[12],xmm5[12],xmm8[13],xmm5[13],xmm8[14],xmm5[14],xmm8[15],xmm5[15]
	movdqa	%xmm8, 48(%rsp)                 # 16-byte Spill
	movdqa	%xmm1, %xmm0
	punpcklbw	%xmm2, %xmm0            # xmm0 = xmm0[0],xmm2[0],xmm0[1],xmm2[1],xmm0[2],xmm2[2],xmm0[3],xmm2[3],xmm0[4],xmm2[4],xmm0[5],xmm2[5],xmm0[6],xmm2[6],xmm0[7],xmm2[7]
	punpckhbw	%xmm2, %xmm1            # xmm1 = xmm1[8],xmm2[8],xmm1[9],xmm2[9],xmm1[10],xmm2[10],xmm1[11],xmm2[11],xmm1[12],xmm2[12],xmm1[13],xmm2[13],xmm1[14],xmm2[14],xmm1[15],xmm2[15]
	movdqa	%xmm3, %xmm2
	punpcklbw	%xmm4, %xmm2            # xmm2 = xmm2[0],xmm4[0],xmm2[1],xmm4[1],xmm2[2],xmm4[2],xmm2[3],xmm4[3],xmm2[4],xmm4[4],xmm2[5],xmm4[5],xmm2[6],xmm4[6],xmm2[7],xmm4[7]
	punpckhbw	%xmm4, %xmm3            # xmm3 = xmm3[8],xmm4[8],xmm3[9],xmm4[9],xmm3[10],xmm4[10],xmm3[11],xmm4[11],xmm3[12],xmm4[12],xmm3[13],xmm4[13],xmm3[14],xmm4[14],xmm3[15],xmm4[15]
	movq	%r15, %rdi
	callq	"recoding::list::VecU8Output::put_wide::<#e3b2a9d4d2861db8>"
	movq	%r15, %rdi
	movaps	16(%rsp), %xmm0                 # 16-byte Reload
	movaps	32(%rsp), %xmm1                 # 16-byte Reload
	movaps	(%rsp), %xmm2                   # 16-byte Reload
	movaps	48(%rsp), %xmm3                 # 16-byte Reload
	callq	"recoding::list::VecU8Output::put_wide::<#e3b2a9d4d2861db8>"
	jmp	.LBB31_10
.LBB31_1:
	xorl	%ebx, %ebx
	xorl	%r14d, %r14d
.LBB31_11:                              # %"recoding::kernels::put_plain::<#5ffe3d2dbc72ef02>.exit"
	movq	%r14, %rax
	movq	%rbx, %rdx
	addq	$72, %rsp
	.cfi_def_cfa_offset 56
	popq	%rbx
	.cfi_def_cfa_offset 48
	popq	%r12
	.cfi_def_cfa_offset 40
	popq	%r13
	.cfi_def_cfa_offset 32
	popq	%r14
	.cfi_def_cfa_offset 24
	popq	%r15
	.cfi_def_cfa_offset 16
	popq	%rbp
	.cfi_def_cfa_offset 8
	retq
.Lfunc_end31:
	.size	"recoding::kernels::widen_plain::<#5ffe3d2dbc72ef02>", .Lfunc_end31-"recoding::kernels::widen_plain::<#5ffe3d2dbc72ef02>"
	.cfi_endproc
                                        # -- End function
	.section	".text.recoding::engine::recode_faults::<#e0f9120ea28c3ab4>","ax",@progbits
	.p2align	4                               # -- Begin function recoding::engine::recode_faults::<#e0f9120ea28c3ab4>
	.type	"recoding::engine::recode_faults::<#e0f9120ea28c3ab4>",@function
"recoding::engine::recode_faults::<#e0f9120ea28c3ab4>": # @"recoding::engine::recode_faults::<#e0f9120ea28c3ab4>"
	.cfi_startproc
# %bb.0:                                # %start
	pushq	%rbp
	.cfi_def_cfa_offset 16
	pushq	%r15
	.cfi_def_cfa_offset 24
	pushq	%r14
	.cfi_def_cfa_offset 32
	pushq	%r13
	.cfi_def_cfa_offset 40
	pushq	%r12
	.cfi_def_cfa_offset 48
	pushq	%rbx
	.cfi_def_cfa_offset 56
	subq	$40, %rsp
	.cfi_def_cfa_offset 96
	.cfi_offset %rbx, -56
	.cfi_offset %r12, -48
	.cfi_offset %r13, -40
	.cfi_offset %r14, -32
	.cfi_offset %r15, -24
	.cfi_offset %rbp, -16
	movq	%rcx, %r14
	movq	%rdx, %r8
	movq	%rsi, %r9
	movq	%rdi, 8(%rsp)                   # 8-byte Spill
	movl	$16, %r11d
	xorl	%ecx, %ecx
	xorl	%r10d, %r10d
	jmp	.LBB32_4
.LBB32_1:                               # %arm.10.i.i
                                        #   in Loop: Header=BB32_4 Depth=1
	movq	%rdi, %rbp
	leaq	(%r9,%r12), %rdi
	movq	%r13, %rsi
	movq	%r8, %r13
	movq	%r9, %r15
	callq	"recoding::next_scalar::is_front_of_code"
	movq	%rbp, %rdi
	movq	%r15, %r9
	movq	%r13, %r8
	testb	%al, %al
	movq	%rbx, %r10
	jne	.LBB32_41
	.p2align	4
.LBB32_2:                               # %"recoding::text::Utf16Text::put_any::<#ec2bf5654938c731>.exit"
                                        #   in Loop: Header=BB32_4 Depth=1
	cmpq	$32, %rdi
	movl	$32, %r11d
	cmovbq	%rdi, %r11
	movq	(%r14), %rax
	movq	8(%r14), %rcx
	movb	$-3, (%rax,%rcx)
	movq	(%r14), %rax
	movb	$-1, 1(%rax,%rcx)
	addq	$2, %rcx
	movq	%rcx, 8(%r14)
	incq	%r10
	movl	$1, %ecx
.LBB32_3:                               # %join.12
                                        #   in Loop: Header=BB32_4 Depth=1
	addq	%r12, %rcx
	cmpq	%r11, %rcx
	jae	.LBB32_39
.LBB32_4:                               # %join.5
                                        # =>This Inner Loop Header: Depth=1
	movq	%rcx, %r12
	leaq	4(%rcx), %rdi
	cmpq	%r8, %rdi
	jbe	.LBB32_6
# %bb.5:                                # %join.3.i
                                        #   in Loop: Header=BB32_4 Depth=1
	movq	%r8, %r13
	subq	%r12, %r13
	cmpq	$4, %r13
	jb	.LBB32_13
.LBB32_6:                               # %then.1.i.i
                                        #   in Loop: Header=BB32_4 Depth=1
	movzbl	(%r9,%r12), %eax
	testb	%al, %al
	js	.LBB32_7
# %bb.12:                               # %"utf_lanes::text_front::front_of_text.exit139.i.thread"
                                        #   in Loop: Header=BB32_4 Depth=1
	movl	$1, %ecx
.LBB32_18:                              # %arm.1.i25
                                        #   in Loop: Header=BB32_4 Depth=1
	movq	(%r14), %rdx
	movq	8(%r14), %rsi
	movb	%al, (%rdx,%rsi)
	movq	(%r14), %rdx
	movb	%ah, 1(%rdx,%rsi)
	addq	$2, %rsi
	movq	%rsi, 8(%r14)
	jmp	.LBB32_3
	.p2align	4
.LBB32_7:                               # %join.6.i104.i
                                        #   in Loop: Header=BB32_4 Depth=1
	movzbl	1(%r9,%r12), %ecx
	cmpb	$-32, %al
	jae	.LBB32_19
# %bb.8:                                # %"utf_lanes::text_front::front_of_text.exit139.i"
                                        #   in Loop: Header=BB32_4 Depth=1
	cmpb	$-62, %al
	jb	.LBB32_2
# %bb.9:                                # %"utf_lanes::text_front::front_of_text.exit139.i"
                                        #   in Loop: Header=BB32_4 Depth=1
	xorl	$128, %ecx
	cmpb	$63, %cl
	ja	.LBB32_2
# %bb.10:                               #   in Loop: Header=BB32_4 Depth=1
	shll	$6, %eax
	addl	%ecx, %eax
	addl	$-12288, %eax                   # imm = 0xD000
	movl	$2, %ecx
	cmpl	$65535, %eax                    # imm = 0xFFFF
	jbe	.LBB32_18
.LBB32_29:                              # %arm.2.i24
                                        #   in Loop: Header=BB32_4 Depth=1
	movl	%eax, %edx
	shrl	$10, %edx
	addl	$-10304, %edx                   # imm = 0xD7C0
	movl	%eax, %esi
	shrl	$8, %eax
	andb	$3, %al
	orb	$-36, %al
	movq	(%r14), %rdi
	movq	8(%r14), %rbx
	movb	%dl, (%rdi,%rbx)
	movq	(%r14), %rdi
	movb	%dh, 1(%rdi,%rbx)
	movq	(%r14), %rdx
	movb	%sil, 2(%rdx,%rbx)
	movq	(%r14), %rdx
	movb	%al, 3(%rdx,%rbx)
	addq	$4, %rbx
	movq	%rbx, 8(%r14)
	jmp	.LBB32_3
	.p2align	4
.LBB32_13:                              # %join.3.i.i
                                        #   in Loop: Header=BB32_4 Depth=1
	movq	%r10, %rbx
	cmpq	%r12, %r8
	je	.LBB32_1
# %bb.14:                               # %join.3.i316.i
                                        #   in Loop: Header=BB32_4 Depth=1
	movzbl	(%r9,%r12), %ecx
	leaq	.Lstatic.8(%rip), %rax
	movzbl	(%rcx,%rax), %eax
	leaq	.Lstatic.9(%rip), %r15
	movzbl	(%rax,%r15), %ebp
	cmpq	$12, %rbp
	jbe	.LBB32_30
# %bb.15:                               # %join.6.i321.i
                                        #   in Loop: Header=BB32_4 Depth=1
	cmpl	$13, %ebp
	movq	%rbx, %r10
	jne	.LBB32_2
# %bb.16:                               # %join.9.i323.i
                                        #   in Loop: Header=BB32_4 Depth=1
	testb	%cl, %cl
	js	.LBB32_42
# %bb.17:                               # %"utf_chars::codes::utf8::decode_start.exit.i.thread463"
                                        #   in Loop: Header=BB32_4 Depth=1
	movq	%rcx, %rax
	movl	$1, %ecx
                                        # kill: def $eax killed $eax killed $rax def $rax
	jmp	.LBB32_18
.LBB32_19:                              # %join.9.i106.i
                                        #   in Loop: Header=BB32_4 Depth=1
	cmpb	$-65, %cl
	jg	.LBB32_2
# %bb.20:                               # %join.12.i113.i
                                        #   in Loop: Header=BB32_4 Depth=1
	movl	%eax, %edx
	andl	$15, %eax
	andl	$63, %ecx
	shll	$6, %eax
	orl	%ecx, %eax
	cmpb	$-17, %dl
	ja	.LBB32_25
# %bb.21:                               # %then.13.i125.i
                                        #   in Loop: Header=BB32_4 Depth=1
	movl	%eax, %ecx
	andl	$-32, %ecx
	cmpl	$864, %ecx                      # imm = 0x360
	je	.LBB32_2
# %bb.22:                               # %join.3.i187.i
                                        #   in Loop: Header=BB32_4 Depth=1
	movzbl	2(%r9,%r12), %edx
	cmpb	$-65, %dl
	jg	.LBB32_2
# %bb.23:                               # %join.3.i187.i
                                        #   in Loop: Header=BB32_4 Depth=1
	cmpl	$32, %eax
	jb	.LBB32_2
# %bb.24:                               # %join.9.i191.i
                                        #   in Loop: Header=BB32_4 Depth=1
	shll	$6, %eax
	andl	$63, %edx
	orl	%eax, %edx
	movl	$3, %ecx
	movl	%edx, %eax
	jmp	.LBB32_18
.LBB32_25:                              # %else.14.i116.i
                                        #   in Loop: Header=BB32_4 Depth=1
	leal	-272(%rax), %ecx
	cmpl	$-256, %ecx
	jb	.LBB32_2
# %bb.26:                               # %after.1.i.i
                                        #   in Loop: Header=BB32_4 Depth=1
	movzbl	2(%r9,%r12), %edx
	cmpb	$-65, %dl
	jg	.LBB32_2
# %bb.27:                               # %else.14.i254.i
                                        #   in Loop: Header=BB32_4 Depth=1
	movzbl	3(%r9,%r12), %ecx
	cmpb	$-65, %cl
	jg	.LBB32_2
# %bb.28:                               # %after.11.i.i
                                        #   in Loop: Header=BB32_4 Depth=1
	andl	$63, %edx
	andl	$63, %ecx
	shll	$12, %eax
	shll	$6, %edx
	orl	%eax, %edx
	orl	%ecx, %edx
	movl	$4, %ecx
	movl	%edx, %eax
	jmp	.LBB32_29
.LBB32_30:                              # %then.4.i333.i
                                        #   in Loop: Header=BB32_4 Depth=1
	movq	%rcx, (%rsp)                    # 8-byte Spill
	movl	%ebp, %edi
	movq	%r8, 32(%rsp)                   # 8-byte Spill
	movq	%r9, 24(%rsp)                   # 8-byte Spill
	movq	%r11, 16(%rsp)                  # 8-byte Spill
	callq	"utf_chars::codes::utf8::missing_after"
	leaq	4(%r12), %rdi
	movq	16(%rsp), %r11                  # 8-byte Reload
	movq	24(%rsp), %r9                   # 8-byte Reload
	movq	32(%rsp), %r8                   # 8-byte Reload
	cmpq	%rax, %r13
	jbe	.LBB32_1
# %bb.31:                               # %join.3.i351.i
                                        #   in Loop: Header=BB32_4 Depth=1
	movzbl	1(%r9,%r12), %edx
	leaq	.Lstatic.8(%rip), %r10
	movzbl	(%rdx,%r10), %eax
	shll	$4, %ebp
	addq	%r15, %rbp
	movzbl	(%rax,%rbp), %eax
	cmpq	$12, %rax
	ja	.LBB32_35
# %bb.32:                               # %then.1.i379.i
                                        #   in Loop: Header=BB32_4 Depth=1
	movzbl	2(%r9,%r12), %esi
	movzbl	(%rsi,%r10), %ecx
	shll	$4, %eax
	addq	%r15, %rax
	movzbl	(%rcx,%rax), %ecx
	cmpq	$12, %rcx
	movq	%r10, %r13
	movq	%rbx, %r10
	ja	.LBB32_37
# %bb.33:                               # %then.1.i418.i
                                        #   in Loop: Header=BB32_4 Depth=1
	movzbl	3(%r9,%r12), %eax
	movzbl	(%rax,%r13), %edi
	shll	$4, %ecx
	addq	%rcx, %r15
	cmpb	$13, (%rdi,%r15)
	leaq	4(%r12), %rdi
	movq	(%rsp), %rcx                    # 8-byte Reload
	jne	.LBB32_2
# %bb.34:                               # %join.3.i436.i
                                        #   in Loop: Header=BB32_4 Depth=1
	andl	$7, %ecx
	andl	$63, %edx
	shll	$12, %ecx
	shll	$6, %edx
	orl	%ecx, %edx
	andl	$63, %esi
	orl	%edx, %esi
	shll	$6, %esi
	andl	$63, %eax
	orl	%esi, %eax
	movl	$4, %ecx
	cmpl	$65535, %eax                    # imm = 0xFFFF
	jbe	.LBB32_18
	jmp	.LBB32_29
.LBB32_35:                              # %join.3.i366.i
                                        #   in Loop: Header=BB32_4 Depth=1
	cmpl	$13, %eax
	movq	%rbx, %r10
	movq	(%rsp), %rax                    # 8-byte Reload
	jne	.LBB32_2
# %bb.36:                               # %"utf_chars::codes::utf8::decode_start.exit.i.thread544"
                                        #   in Loop: Header=BB32_4 Depth=1
	andl	$31, %eax
	shll	$6, %eax
	andl	$63, %edx
	orl	%eax, %edx
	movl	$2, %ecx
	movl	%edx, %eax
	jmp	.LBB32_18
.LBB32_37:                              # %join.3.i399.i
                                        #   in Loop: Header=BB32_4 Depth=1
	cmpl	$13, %ecx
	movq	(%rsp), %rax                    # 8-byte Reload
	jne	.LBB32_2
# %bb.38:                               # %join.6.i401.i
                                        #   in Loop: Header=BB32_4 Depth=1
	andl	$15, %eax
	andl	$63, %edx
	shll	$12, %eax
	shll	$6, %edx
	orl	%eax, %edx
	andl	$63, %esi
	orl	%edx, %esi
	movl	$3, %ecx
	movl	%esi, %eax
	jmp	.LBB32_18
.LBB32_39:                              # %after.1
	movq	8(%rsp), %rax                   # 8-byte Reload
	movq	%rcx, (%rax)
	movq	%r10, 8(%rax)
	movq	$0, 16(%rax)
.LBB32_40:                              # %after.1
	addq	$40, %rsp
	.cfi_def_cfa_offset 56
	popq	%rbx
	.cfi_def_cfa_offset 48
	popq	%r12
	.cfi_def_cfa_offset 40
	popq	%r13
	.cfi_def_cfa_offset 32
	popq	%r14
	.cfi_def_cfa_offset 24
	popq	%r15
	.cfi_def_cfa_offset 16
	popq	%rbp
	.cfi_def_cfa_offset 8
	retq
.LBB32_41:                              # %arm.7
	.cfi_def_cfa_offset 96
	movq	8(%rsp), %rax                   # 8-byte Reload
	movq	%r12, (%rax)
	movq	%r10, 8(%rax)
	movw	$256, 16(%rax)                  # imm = 0x100
	movl	$0, 18(%rax)
	movw	$0, 22(%rax)
	jmp	.LBB32_40
.LBB32_42:                              # %join.4.i.i
	ud2
.Lfunc_end32:
	.size	"recoding::engine::recode_faults::<#e0f9120ea28c3ab4>", .Lfunc_end32-"recoding::engine::recode_faults::<#e0f9120ea28c3ab4>"
	.cfi_endproc
                                        # -- End function
	.section	".text.recoding::recoder_runs::run_whole::<#9c534bed186decad>","ax",@progbits
	.p2align	4                               # -- Begin function recoding::recoder_runs::run_whole::<#9c534bed186decad>
	.type	"recoding::recoder_runs::run_whole::<#9c534bed186decad>",@function
"recoding::recoder_runs::run_whole::<#9c534bed186decad>": # @"recoding::recoder_runs::run_whole::<#9c534bed186decad>"
	.cfi_startproc
# %bb.0:                                # %start
	pushq	%rbp
	.cfi_def_cfa_offset 16
	pushq	%r15
	.cfi_def_cfa_offset 24
	pushq	%r14
	.cfi_def_cfa_offset 32
	pushq	%r13
	.cfi_def_cfa_offset 40
	pushq	%r12
	.cfi_def_cfa_offset 48
	pushq	%rbx
	.cfi_def_cfa_offset 56
	subq	$184, %rsp
	.cfi_def_cfa_offset 240
	.cfi_offset %rbx, -56
	.cfi_offset %r12, -48
	.cfi_offset %r13, -40
	.cfi_offset %r14, -32
	.cfi_offset %r15, -24
	.cfi_offset %rbp, -16
	movq	%rdx, %r12
	movq	%rsi, 8(%rsp)                   # 8-byte Spill
	leaq	32(%rdi), %rax
	movq	%rax, 112(%rsp)                 # 8-byte Spill
	leaq	96(%rdi), %rax
	movq	%rax, 120(%rsp)                 # 8-byte Spill
	movq	%rdi, 16(%rsp)                  # 8-byte Spill
	leaq	1(%rdi), %rax
	movq	%rax, 104(%rsp)                 # 8-byte Spill
	movq	$0, 24(%rsp)                    # 8-byte Folded Spill
	xorl	%r14d, %r14d
	xorl	%r15d, %r15d
	.p2align	4
.LBB33_1:                               # %loop.2.i.outer
                                        # =>This Loop Header: Depth=1
                                        #     Child Loop BB33_6 Depth 2
                                        #       Child Loop BB33_15 Depth 3
                                        #       Child Loop BB33_25 Depth 3
                                        #       Child Loop BB33_11 Depth 3
                                        #       Child Loop BB33_35 Depth 3
                                        #       Child Loop BB33_19 Depth 3
                                        #       Child Loop BB33_45 Depth 3
                                        #     Child Loop BB33_58 Depth 2
	movq	%r14, 32(%rsp)                  # 8-byte Spill
	jmp	.LBB33_6
	.p2align	4
.LBB33_2:                               # %else.4.i
                                        #   in Loop: Header=BB33_6 Depth=2
	movdqu	(%rbx), %xmm0
	movdqu	16(%rbx), %xmm1
	movdqu	32(%rbx), %xmm2
	por	%xmm0, %xmm2
	movdqu	48(%rbx), %xmm0
	por	%xmm1, %xmm0
	por	%xmm2, %xmm0
	pmovmskb	%xmm0, %eax
	testl	%eax, %eax
	movq	%r15, 40(%rsp)                  # 8-byte Spill
	je	.LBB33_18
.LBB33_3:                               #   in Loop: Header=BB33_6 Depth=2
	xorl	%r13d, %r13d
.LBB33_4:                               # %"recoding::ascii_to_utf16::put_ascii_front::<#f0e6fcfecd579859>.exit"
                                        #   in Loop: Header=BB33_6 Depth=2
	addq	%r13, %rbx
	subq	%r13, %r14
	movq	%rbx, %rdi
	movq	%r14, %rsi
	movq	%r12, %rdx
	callq	"recoding::kernels::put_judged::<#fc185a580612e994>"
	movq	%rax, %r14
	addq	%r13, %r14
	movq	40(%rsp), %r15                  # 8-byte Reload
.LBB33_5:                               # %"recoding::kernels::WidenedKernelUtf8Utf16::put_text::<#adf464b980d50768>.exit"
                                        #   in Loop: Header=BB33_6 Depth=2
	addq	%r14, %r15
	cmpq	$8187, %r14                     # imm = 0x1FFB
	jbe	.LBB33_48
.LBB33_6:                               # %loop.2.i
                                        #   Parent Loop BB33_1 Depth=1
                                        # =>  This Loop Header: Depth=2
                                        #       Child Loop BB33_15 Depth 3
                                        #       Child Loop BB33_25 Depth 3
                                        #       Child Loop BB33_11 Depth 3
                                        #       Child Loop BB33_35 Depth 3
                                        #       Child Loop BB33_19 Depth 3
                                        #       Child Loop BB33_45 Depth 3
	movq	16(%rsp), %rax                  # 8-byte Reload
	leaq	(%rax,%r15), %rbx
	movq	8(%rsp), %rax                   # 8-byte Reload
	subq	%r15, %rax
	cmpq	$8192, %rax                     # imm = 0x2000
	movl	$8192, %r14d                    # imm = 0x2000
	cmovbq	%rax, %r14
	cmpq	$1024, %rax                     # imm = 0x400
	ja	.LBB33_2
# %bb.7:                                # %then.11.i
                                        #   in Loop: Header=BB33_6 Depth=2
	cmpq	$17, %rax
	jae	.LBB33_13
# %bb.8:                                # %then.1.i.i
                                        #   in Loop: Header=BB33_6 Depth=2
	cmpq	$3, %rax
	ja	.LBB33_21
# %bb.9:                                # %loop.2.i.i.preheader
                                        #   in Loop: Header=BB33_6 Depth=2
	cmpq	%r15, 8(%rsp)                   # 8-byte Folded Reload
	je	.LBB33_40
# %bb.10:                               # %join.5.i.i.preheader
                                        #   in Loop: Header=BB33_6 Depth=2
	xorl	%ecx, %ecx
	.p2align	4
.LBB33_11:                              # %join.5.i.i
                                        #   Parent Loop BB33_1 Depth=1
                                        #     Parent Loop BB33_6 Depth=2
                                        # =>    This Inner Loop Header: Depth=3
	cmpb	$0, (%rbx,%rcx)
	js	.LBB33_28
# %bb.12:                               # %loop.2.i.i
                                        #   in Loop: Header=BB33_11 Depth=3
	incq	%rcx
	cmpq	%rcx, %r14
	jne	.LBB33_11
	jmp	.LBB33_33
	.p2align	4
.LBB33_13:                              # %loop.2.i33.i.preheader
                                        #   in Loop: Header=BB33_6 Depth=2
	cmpq	$64, %rax
	jb	.LBB33_23
# %bb.14:                               # %join.5.i35.i.preheader
                                        #   in Loop: Header=BB33_6 Depth=2
	movq	112(%rsp), %rcx                 # 8-byte Reload
	leaq	(%rcx,%r15), %rdx
	xorl	%ecx, %ecx
	movq	%r14, %rsi
	.p2align	4
.LBB33_15:                              # %join.5.i35.i
                                        #   Parent Loop BB33_1 Depth=1
                                        #     Parent Loop BB33_6 Depth=2
                                        # =>    This Inner Loop Header: Depth=3
	movdqu	-32(%rdx,%rcx), %xmm0
	movdqu	-16(%rdx,%rcx), %xmm1
	movdqu	(%rdx,%rcx), %xmm2
	por	%xmm0, %xmm2
	movdqu	16(%rdx,%rcx), %xmm0
	por	%xmm1, %xmm0
	por	%xmm2, %xmm0
	pmovmskb	%xmm0, %edi
	testl	%edi, %edi
	jne	.LBB33_17
# %bb.16:                               # %join.8.i36.i
                                        #   in Loop: Header=BB33_15 Depth=3
	addq	$64, %rcx
	addq	$-64, %rsi
	cmpq	$63, %rsi
	ja	.LBB33_15
.LBB33_17:                              # %"utf_lanes::ascii_texts::ascii_end::<=1>.exit.i"
                                        #   in Loop: Header=BB33_6 Depth=2
	movq	%r14, %rdx
	subq	%rcx, %rdx
	cmpq	$16, %rdx
	jae	.LBB33_24
	jmp	.LBB33_27
	.p2align	4
.LBB33_18:                              # %then.13.i.preheader
                                        #   in Loop: Header=BB33_6 Depth=2
	movq	120(%rsp), %rax                 # 8-byte Reload
	leaq	(%rax,%r15), %rbp
	xorl	%r13d, %r13d
	movq	%r14, %r15
	.p2align	4
.LBB33_19:                              # %then.13.i
                                        #   Parent Loop BB33_1 Depth=1
                                        #     Parent Loop BB33_6 Depth=2
                                        # =>    This Inner Loop Header: Depth=3
	movdqu	-32(%rbp,%r13), %xmm0
	movdqu	-16(%rbp,%r13), %xmm1
	movdqu	(%rbp,%r13), %xmm2
	por	%xmm0, %xmm2
	movdqu	16(%rbp,%r13), %xmm0
	por	%xmm1, %xmm0
	por	%xmm2, %xmm0
	pmovmskb	%xmm0, %eax
	testl	%eax, %eax
	jne	.LBB33_4
# %bb.20:                               # %join.15.i
                                        #   in Loop: Header=BB33_19 Depth=3
	movdqu	-96(%rbp,%r13), %xmm2
	movdqu	-80(%rbp,%r13), %xmm4
	movdqu	-64(%rbp,%r13), %xmm0
	movdqu	-48(%rbp,%r13), %xmm1
	pxor	%xmm3, %xmm3
	pxor	%xmm5, %xmm5
	punpcklbw	%xmm0, %xmm5            # xmm5 = xmm5[0],xmm0[0],xmm5[1],xmm0[1],xmm5[2],xmm0[2],xmm5[3],xmm0[3],xmm5[4],xmm0[4],xmm5[5],xmm0[5],xmm5[6],xmm0[6],xmm5[7],xmm0[7]
	movdqa	%xmm5, 80(%rsp)                 # 16-byte Spill
	pxor	%xmm5, %xmm5
	punpckhbw	%xmm0, %xmm5            # xmm5 = xmm5[8],xmm0[8],xmm5[9],xmm0[9],xmm5[10],xmm0[10],xmm5[11],xmm0[11],xmm5[12],xmm0[12],xmm5[13],xmm0[13],xmm5[14],xmm0[14],xmm5[15],xmm0[15]
	movdqa	%xmm5, 160(%rsp)                # 16-byte Spill
	pxor	%xmm0, %xmm0
	punpcklbw	%xmm1, %xmm0            # xmm0 = xmm0[0],xmm1[0],xmm0[1],xmm1[1],xmm0[2],xmm1[2],xmm0[3],xmm1[3],xmm0[4],xmm1[4],xmm0[5],xmm1[5],xmm0[6],xmm1[6],xmm0[7],xmm1[7]
	movdqa	%xmm0, 144(%rsp)                # 16-byte Spill
	pxor	%xmm0, %xmm0
	punpckhbw	%xmm1, %xmm0            # xmm0 = xmm0[8],xmm1[8],xmm0[9],xmm1[9],xmm0[10],xmm1[10],xmm0[11],xmm1[11],xmm0[12],xmm1[12],xmm0[13],xmm1[13],xmm0[14],xmm1[14],xmm0[15],xmm1[15]
	movdqa	%xmm0, 128(%rsp)                # 16-byte Spill
	pxor	%xmm0, %xmm0
	punpcklbw	%xmm2, %xmm0            # xmm0 = xmm0[0],xmm2[0],xmm0[1],xmm2[1],xmm0[2],xmm2[2],xmm0[3],xmm2[3],xmm0[4],xmm2[4],xmm0[5],xmm2[5],xmm0[6],xmm2[6],xmm0[7],xmm2[7]
	pxor	%xmm1, %xmm1
	punpckhbw	%xmm2, %xmm1            # xmm1 = xmm1[8],xmm2[8],xmm1[9],xmm2[9],xmm1[10],xmm2[10],xmm1[11],xmm2[11],xmm1[12],xmm2[12],xmm1[13],xmm2[13],xmm1[14],xmm2[14],xmm1[15],xmm2[15]
	pxor	%xmm2, %xmm2
	punpcklbw	%xmm4, %xmm2            # xmm2 = xmm2[0],xmm4[0],xmm2[1],xmm4[1],xmm2[2],xmm4[2],xmm2[3],xmm4[3],xmm2[4],xmm4[4],xmm2[5],xmm4[5],xmm2[6],xmm4[6],xmm2[7],xmm4[7]
	punpckhbw	%xmm4, %xmm3            # xmm3 = xmm3[8],xmm4[8],xmm3[9],xmm4[9],xmm3[10],xmm4[10],xmm3[11],xmm4[11],xmm3[12],xmm4[12],xmm3[13],xmm4[13],xmm3[14],xmm4[14],xmm3[15],xmm4[15]
	movq	%r12, %rdi
	callq	"recoding::list::VecU8Output::put_wide::<#e3b2a9d4d2861db8>"
	movq	%r12, %rdi
	movdqa	80(%rsp), %xmm0                 # 16-byte Reload
	movdqa	160(%rsp), %xmm1                # 16-byte Reload
	movdqa	144(%rsp), %xmm2                # 16-byte Reload
	movaps	128(%rsp), %xmm3                # 16-byte Reload
	callq	"recoding::list::VecU8Output::put_wide::<#e3b2a9d4d2861db8>"
	addq	$-64, %r15
	addq	$64, %r13
	cmpq	$127, %r15
	ja	.LBB33_19
	jmp	.LBB33_4
.LBB33_21:                              # %join.3.i19.i
                                        #   in Loop: Header=BB33_6 Depth=2
	cmpq	$7, %rax
	ja	.LBB33_31
# %bb.22:                               # %then.4.i.i
                                        #   in Loop: Header=BB33_6 Depth=2
	movd	(%rbx), %xmm0                   # xmm0 = mem[0],zero,zero,zero
	movd	-4(%rbx,%r14), %xmm1            # xmm1 = mem[0],zero,zero,zero
	punpckldq	%xmm1, %xmm0            # xmm0 = xmm0[0],xmm1[0],xmm0[1],xmm1[1]
	pshufd	$68, %xmm0, %xmm0               # xmm0 = xmm0[0,1,0,1]
	pmovmskb	%xmm0, %eax
	testl	%eax, %eax
	jne	.LBB33_32
	jmp	.LBB33_40
.LBB33_23:                              #   in Loop: Header=BB33_6 Depth=2
	xorl	%ecx, %ecx
	movq	%r14, %rdx
	subq	%rcx, %rdx
	cmpq	$16, %rdx
	jb	.LBB33_27
.LBB33_24:                              # %join.5.i67.i.preheader
                                        #   in Loop: Header=BB33_6 Depth=2
	addq	%r15, %rcx
	addq	16(%rsp), %rcx                  # 8-byte Folded Reload
	.p2align	4
.LBB33_25:                              # %join.5.i67.i
                                        #   Parent Loop BB33_1 Depth=1
                                        #     Parent Loop BB33_6 Depth=2
                                        # =>    This Inner Loop Header: Depth=3
	movdqu	(%rcx), %xmm0
	pmovmskb	%xmm0, %esi
	testl	%esi, %esi
	jne	.LBB33_28
# %bb.26:                               # %loop.2.i62.i
                                        #   in Loop: Header=BB33_25 Depth=3
	addq	$16, %rcx
	addq	$-16, %rdx
	cmpq	$16, %rdx
	jae	.LBB33_25
.LBB33_27:                              # %after.1.i.i
                                        #   in Loop: Header=BB33_6 Depth=2
	movdqu	-16(%rbx,%r14), %xmm0
	pmovmskb	%xmm0, %ecx
	testl	%ecx, %ecx
	je	.LBB33_33
.LBB33_28:                              # %after.10.i
                                        #   in Loop: Header=BB33_6 Depth=2
	cmpq	$31, %rax
	jbe	.LBB33_32
# %bb.29:                               # %join.21.i
                                        #   in Loop: Header=BB33_6 Depth=2
	cmpq	$128, %rax
	jae	.LBB33_2
# %bb.30:                               #   in Loop: Header=BB33_6 Depth=2
	movq	%r15, 40(%rsp)                  # 8-byte Spill
	jmp	.LBB33_3
.LBB33_31:                              # %"utf_lanes::ascii_texts::is_ascii.exit.i"
                                        #   in Loop: Header=BB33_6 Depth=2
	movq	-8(%rbx,%r14), %xmm0            # xmm0 = mem[0],zero
	movq	(%rbx), %xmm1                   # xmm1 = mem[0],zero
	punpcklqdq	%xmm0, %xmm1            # xmm1 = xmm1[0],xmm0[0]
	pmovmskb	%xmm1, %ecx
	testl	%ecx, %ecx
	je	.LBB33_33
.LBB33_32:                              # %then.19.i
                                        #   in Loop: Header=BB33_6 Depth=2
	movq	%rbx, %rdi
	movq	%r14, %rsi
	movq	%r12, %rdx
	callq	"recoding::kernels::put_few::<#f0e6fcfecd579859>"
	movq	%rax, %r14
	jmp	.LBB33_5
.LBB33_33:                              # %then.14.i
                                        #   in Loop: Header=BB33_6 Depth=2
	cmpq	$16, %rax
	jb	.LBB33_40
# %bb.34:                               # %join.5.i10.preheader
                                        #   in Loop: Header=BB33_6 Depth=2
	xorl	%r13d, %r13d
	movq	%r14, %rbp
	.p2align	4
.LBB33_35:                              # %join.5.i10
                                        #   Parent Loop BB33_1 Depth=1
                                        #     Parent Loop BB33_6 Depth=2
                                        # =>    This Inner Loop Header: Depth=3
	movdqu	(%rbx,%r13), %xmm2
	movq	8(%r12), %rcx
	movq	16(%r12), %rax
	movq	%rax, %rdx
	subq	%rcx, %rdx
	cmpq	$31, %rdx
	jbe	.LBB33_38
.LBB33_36:                              # %join.3.i174
                                        #   in Loop: Header=BB33_35 Depth=3
	pxor	%xmm0, %xmm0
	pxor	%xmm1, %xmm1
	punpcklbw	%xmm2, %xmm1            # xmm1 = xmm1[0],xmm2[0],xmm1[1],xmm2[1],xmm1[2],xmm2[2],xmm1[3],xmm2[3],xmm1[4],xmm2[4],xmm1[5],xmm2[5],xmm1[6],xmm2[6],xmm1[7],xmm2[7]
	punpckhbw	%xmm2, %xmm0            # xmm0 = xmm0[8],xmm2[8],xmm0[9],xmm2[9],xmm0[10],xmm2[10],xmm0[11],xmm2[11],xmm0[12],xmm2[12],xmm0[13],xmm2[13],xmm0[14],xmm2[14],xmm0[15],xmm2[15]
	leaq	32(%rcx), %rdx
	movq	(%r12), %rsi
	movdqu	%xmm1, (%rsi,%rcx)
	movdqu	%xmm0, 16(%rsi,%rcx)
	movq	%rsi, (%r12)
	movq	%rdx, 8(%r12)
	movq	%rax, 16(%r12)
.LBB33_37:                              # %"std_alloc::vec::Vec::extend_from_slice::<#0cd040e5c49bc722>.exit"
                                        #   in Loop: Header=BB33_35 Depth=3
	addq	$16, %r13
	addq	$-16, %rbp
	cmpq	$15, %rbp
	ja	.LBB33_35
	jmp	.LBB33_41
.LBB33_38:                              # %"std_alloc::vec::Vec::grow::<#5fdc5e19576447a7>.exit.i"
                                        #   in Loop: Header=BB33_35 Depth=3
	movdqa	%xmm2, 80(%rsp)                 # 16-byte Spill
	movl	$32, %esi
	movq	%r12, %rdi
	callq	"std_alloc::vec::Vec::grow_amortized::<#5fdc5e19576447a7>"
	testb	%al, %al
	je	.LBB33_37
# %bb.39:                               # %"std_alloc::vec::Vec::grow::<#5fdc5e19576447a7>.exit.join.3_crit_edge.i"
                                        #   in Loop: Header=BB33_35 Depth=3
	movq	8(%r12), %rcx
	movq	16(%r12), %rax
	movdqa	80(%rsp), %xmm2                 # 16-byte Reload
	jmp	.LBB33_36
.LBB33_40:                              #   in Loop: Header=BB33_6 Depth=2
	xorl	%r13d, %r13d
	movq	%r14, %rbp
.LBB33_41:                              # %"recoding::ascii_to_utf16::put_lanes::<#f0e6fcfecd579859>.exit"
                                        #   in Loop: Header=BB33_6 Depth=2
	testq	%rbp, %rbp
	je	.LBB33_5
# %bb.42:                               # %join.5.i34.preheader
                                        #   in Loop: Header=BB33_6 Depth=2
	movq	8(%r12), %rax
	cmpq	$1, %rbp
	jne	.LBB33_44
# %bb.43:                               #   in Loop: Header=BB33_6 Depth=2
	xorl	%ecx, %ecx
	jmp	.LBB33_47
.LBB33_44:                              # %join.5.i34.preheader.new
                                        #   in Loop: Header=BB33_6 Depth=2
	movl	%ebp, %edx
	andl	$16382, %edx                    # imm = 0x3FFE
	leaq	(%r15,%r13), %rsi
	addq	104(%rsp), %rsi                 # 8-byte Folded Reload
	xorl	%ecx, %ecx
	.p2align	4
.LBB33_45:                              # %join.5.i34
                                        #   Parent Loop BB33_1 Depth=1
                                        #     Parent Loop BB33_6 Depth=2
                                        # =>    This Inner Loop Header: Depth=3
	movzbl	-1(%rsi,%rcx), %edi
	movq	(%r12), %r8
	movb	$0, (%r8,%rax)
	movq	(%r12), %r8
	movb	%dil, 1(%r8,%rax)
	leaq	2(%rax), %rdi
	movq	%rdi, 8(%r12)
	movzbl	(%rsi,%rcx), %edi
	movq	(%r12), %r8
	movb	$0, 2(%r8,%rax)
	movq	(%r12), %r8
	movb	%dil, 3(%r8,%rax)
	addq	$4, %rax
	movq	%rax, 8(%r12)
	addq	$2, %rcx
	cmpq	%rcx, %rdx
	jne	.LBB33_45
# %bb.46:                               # %"recoding::kernels::WidenedKernelUtf8Utf16::put_text::<#adf464b980d50768>.exit.loopexit.unr-lcssa"
                                        #   in Loop: Header=BB33_6 Depth=2
	testb	$1, %bpl
	je	.LBB33_5
.LBB33_47:                              # %join.5.i34.epil.preheader
                                        #   in Loop: Header=BB33_6 Depth=2
	addq	%r13, %rbx
	movzbl	(%rbx,%rcx), %ecx
	movq	(%r12), %rdx
	movb	$0, (%rdx,%rax)
	movq	(%r12), %rdx
	movb	%cl, 1(%rdx,%rax)
	addq	$2, %rax
	movq	%rax, 8(%r12)
	jmp	.LBB33_5
	.p2align	4
.LBB33_48:                              # %join.5.i
                                        #   in Loop: Header=BB33_1 Depth=1
	movq	8(%rsp), %rsi                   # 8-byte Reload
	subq	%r15, %rsi
	je	.LBB33_82
# %bb.49:                               # %join.8.i
                                        #   in Loop: Header=BB33_1 Depth=1
	xorl	%eax, %eax
	cmpq	$256, %r14                      # imm = 0x100
	movq	24(%rsp), %rcx                  # 8-byte Reload
	cmovaeq	%rax, %rcx
	movq	16(%rsp), %rax                  # 8-byte Reload
	leaq	(%rax,%r15), %rdi
	movq	%rcx, 24(%rsp)                  # 8-byte Spill
	cmpq	$3, %rcx
	jb	.LBB33_52
# %bb.50:                               # %then.1.i
                                        #   in Loop: Header=BB33_1 Depth=1
	cmpq	$128, %rsi
	movq	32(%rsp), %r14                  # 8-byte Reload
	jb	.LBB33_56
# %bb.51:                               # %join.9.i
                                        #   in Loop: Header=BB33_1 Depth=1
	movq	%r12, %rdx
	callq	"recoding::kernels::widen_damaged::<#14d81c390063096d>"
	addq	%rax, %r15
	addq	%rdx, %r14
	testq	%rax, %rax
	jne	.LBB33_1
	jmp	.LBB33_56
	.p2align	4
.LBB33_52:                              # %join.3.i
                                        #   in Loop: Header=BB33_1 Depth=1
	cmpq	$67, %rsi
	movq	32(%rsp), %r14                  # 8-byte Reload
	jb	.LBB33_56
# %bb.53:                               # %then.1.i.i121
                                        #   in Loop: Header=BB33_1 Depth=1
	cmpb	$0, (%rdi)
	jns	.LBB33_55
# %bb.54:                               # %"recoding::kernels::may_be_plain.exit.i"
                                        #   in Loop: Header=BB33_1 Depth=1
	cmpb	$0, 1(%rdi)
	js	.LBB33_56
.LBB33_55:                              # %arm.5.i117
                                        #   in Loop: Header=BB33_1 Depth=1
	movq	%r12, %rdx
	callq	"recoding::kernels::widen_plain::<#d2e6c14c333cca8a>"
	addq	%rax, %r15
	addq	%rdx, %r14
	testq	%rax, %rax
	jne	.LBB33_1
	.p2align	4
.LBB33_56:                              # %join.14.i
                                        #   in Loop: Header=BB33_1 Depth=1
	movq	8(%rsp), %rax                   # 8-byte Reload
	subq	%r15, %rax
	cmpq	$128, %rax
	movl	$128, %ecx
	cmovbq	%rax, %rcx
	cmpq	$4, %rax
	jb	.LBB33_77
# %bb.57:                               # %join.3.i.i.i.preheader
                                        #   in Loop: Header=BB33_1 Depth=1
	movq	16(%rsp), %rax                  # 8-byte Reload
	leaq	(%rax,%r15), %rdx
	xorl	%eax, %eax
	.p2align	4
.LBB33_58:                              # %join.3.i.i.i
                                        #   Parent Loop BB33_1 Depth=1
                                        # =>  This Inner Loop Header: Depth=2
	movzbl	(%rdx,%rax), %ebx
	testb	%bl, %bl
	js	.LBB33_60
# %bb.59:                               # %arm.7.i141.thread
                                        #   in Loop: Header=BB33_58 Depth=2
	movl	$1, %edi
	jmp	.LBB33_70
	.p2align	4
.LBB33_60:                              # %join.6.i.i.i
                                        #   in Loop: Header=BB33_58 Depth=2
	movzbl	1(%rdx,%rax), %esi
	cmpb	$-32, %bl
	jae	.LBB33_64
# %bb.61:                               # %"recoding::text::Utf8Text::next_valid.exit.i"
                                        #   in Loop: Header=BB33_58 Depth=2
	cmpb	$-62, %bl
	jb	.LBB33_76
# %bb.62:                               # %"recoding::text::Utf8Text::next_valid.exit.i"
                                        #   in Loop: Header=BB33_58 Depth=2
	xorl	$128, %esi
	cmpb	$63, %sil
	ja	.LBB33_76
# %bb.63:                               # %arm.7.i141
                                        #   in Loop: Header=BB33_58 Depth=2
	shll	$6, %ebx
	addl	%esi, %ebx
	addl	$-12288, %ebx                   # imm = 0xD000
	movl	$2, %edi
	jmp	.LBB33_70
.LBB33_64:                              # %join.9.i.i.i
                                        #   in Loop: Header=BB33_58 Depth=2
	cmpb	$-65, %sil
	jg	.LBB33_76
# %bb.65:                               # %join.12.i.i.i
                                        #   in Loop: Header=BB33_58 Depth=2
	movl	%ebx, %edi
	andl	$15, %ebx
	andl	$63, %esi
	shll	$6, %ebx
	orl	%esi, %ebx
	cmpb	$-17, %dil
	ja	.LBB33_72
# %bb.66:                               # %then.13.i.i.i
                                        #   in Loop: Header=BB33_58 Depth=2
	movl	%ebx, %esi
	andl	$-32, %esi
	cmpl	$864, %esi                      # imm = 0x360
	je	.LBB33_76
# %bb.67:                               # %join.3.i13.i.i
                                        #   in Loop: Header=BB33_58 Depth=2
	movzbl	2(%rdx,%rax), %esi
	cmpb	$-65, %sil
	jg	.LBB33_76
# %bb.68:                               # %join.3.i13.i.i
                                        #   in Loop: Header=BB33_58 Depth=2
	cmpl	$32, %ebx
	jb	.LBB33_76
# %bb.69:                               # %arm.7.i141.thread558
                                        #   in Loop: Header=BB33_58 Depth=2
	shll	$6, %ebx
	andl	$63, %esi
	orl	%ebx, %esi
	movl	$3, %edi
	movl	%esi, %ebx
	.p2align	4
.LBB33_70:                              # %arm.1.i.i147
                                        #   in Loop: Header=BB33_58 Depth=2
	movq	(%r12), %rbp
	movq	8(%r12), %rsi
	movb	%bh, (%rbp,%rsi)
	movq	(%r12), %r8
	movb	%bl, 1(%r8,%rsi)
	addq	$2, %rsi
.LBB33_71:                              # %"recoding::text::Utf16Text::put_code::<#f52bd5352b4cd2db>.exit.i"
                                        #   in Loop: Header=BB33_58 Depth=2
	movq	%rsi, 8(%r12)
	addq	%rdi, %rax
	movq	%rcx, %rsi
	subq	%rax, %rsi
	cmpq	$3, %rsi
	ja	.LBB33_58
	jmp	.LBB33_76
.LBB33_72:                              # %else.14.i.i.i
                                        #   in Loop: Header=BB33_58 Depth=2
	leal	-272(%rbx), %esi
	cmpl	$-256, %esi
	jb	.LBB33_76
# %bb.73:                               # %after.1.i.i.i
                                        #   in Loop: Header=BB33_58 Depth=2
	movzbl	2(%rdx,%rax), %edi
	cmpb	$-65, %dil
	jg	.LBB33_76
# %bb.74:                               # %else.14.i34.i.i
                                        #   in Loop: Header=BB33_58 Depth=2
	movzbl	3(%rdx,%rax), %r9d
	cmpb	$-65, %r9b
	jg	.LBB33_76
# %bb.75:                               # %arm.7.i141.thread564
                                        #   in Loop: Header=BB33_58 Depth=2
	movl	%edi, %r8d
	andl	$63, %r8d
	andb	$63, %r9b
	shll	$12, %ebx
	shll	$6, %r8d
	orl	%r8d, %ebx
	movq	(%r12), %rbp
	movq	8(%r12), %rsi
	shrl	$10, %ebx
	addl	$-10304, %ebx                   # imm = 0xD7C0
	orb	%r9b, %r8b
	shrb	$2, %dil
	andb	$3, %dil
	orb	$-36, %dil
	movb	%bh, (%rbp,%rsi)
	movq	(%r12), %r9
	movb	%bl, 1(%r9,%rsi)
	movq	(%r12), %r9
	movb	%dil, 2(%r9,%rsi)
	movq	(%r12), %rdi
	movb	%r8b, 3(%rdi,%rsi)
	addq	$4, %rsi
	movl	$4, %edi
	jmp	.LBB33_71
	.p2align	4
.LBB33_76:                              # %"recoding::engine::recode_text::<#90b22c6900c6b509>.exit"
                                        #   in Loop: Header=BB33_1 Depth=1
	addq	%rax, %r15
	cmpq	$124, %rax
	ja	.LBB33_1
.LBB33_77:                              # %then.15.i
                                        #   in Loop: Header=BB33_1 Depth=1
	movq	8(%rsp), %rdx                   # 8-byte Reload
	subq	%r15, %rdx
	je	.LBB33_83
# %bb.78:                               # %"recoding::engine::recode_carefully::<#90b22c6900c6b509>.exit"
                                        #   in Loop: Header=BB33_1 Depth=1
	movq	16(%rsp), %rax                  # 8-byte Reload
	leaq	(%rax,%r15), %rsi
	pxor	%xmm0, %xmm0
	movdqa	%xmm0, 48(%rsp)
	movq	$0, 64(%rsp)
	leaq	48(%rsp), %rdi
	movq	%r12, %rcx
	callq	"recoding::engine::recode_faults::<#e11ba97e6063c4ca>"
	movq	56(%rsp), %rax
	testq	%rax, %rax
	je	.LBB33_80
# %bb.79:                               # %select.false.sink
                                        #   in Loop: Header=BB33_1 Depth=1
	movq	24(%rsp), %rcx                  # 8-byte Reload
	incq	%rcx
	movq	$-1, %rdx
	cmovneq	%rcx, %rdx
	movq	%rdx, 24(%rsp)                  # 8-byte Spill
.LBB33_80:                              # %select.end
                                        #   in Loop: Header=BB33_1 Depth=1
	addq	48(%rsp), %r15
	addq	%rax, %r14
	testb	$1, 64(%rsp)
	jne	.LBB33_84
# %bb.81:                               # %select.end
                                        #   in Loop: Header=BB33_1 Depth=1
	testb	$1, 65(%rsp)
	je	.LBB33_1
	jmp	.LBB33_84
.LBB33_82:
	movq	8(%rsp), %r15                   # 8-byte Reload
	movq	32(%rsp), %r14                  # 8-byte Reload
	jmp	.LBB33_84
.LBB33_83:
	movq	8(%rsp), %r15                   # 8-byte Reload
.LBB33_84:                              # %"recoding::engine::run::<#6445eb3cfe90c988>.exit"
	movq	%r15, %rax
	movq	%r14, %rdx
	addq	$184, %rsp
	.cfi_def_cfa_offset 56
	popq	%rbx
	.cfi_def_cfa_offset 48
	popq	%r12
	.cfi_def_cfa_offset 40
	popq	%r13
	.cfi_def_cfa_offset 32
	popq	%r14
	.cfi_def_cfa_offset 24
	popq	%r15
	.cfi_def_cfa_offset 16
	popq	%rbp
	.cfi_def_cfa_offset 8
	retq
.Lfunc_end33:
	.size	"recoding::recoder_runs::run_whole::<#9c534bed186decad>", .Lfunc_end33-"recoding::recoder_runs::run_whole::<#9c534bed186decad>"
	.cfi_endproc
                                        # -- End function
	.section	.rodata.cst16,"aM",@progbits,16
	.p2align	4, 0x0                          # -- Begin function recoding::kernels::put_few::<#f0e6fcfecd579859>
.LCPI34_0:
	.zero	16,240
.LCPI34_1:
	.zero	16,127
.LCPI34_2:
	.zero	16,192
.LCPI34_3:
	.zero	16,224
.LCPI34_4:
	.zero	16,15
.LCPI34_5:
	.zero	16,32
.LCPI34_6:
	.zero	16,191
.LCPI34_7:
	.byte	2                               # 0x2
	.byte	2                               # 0x2
	.byte	2                               # 0x2
	.byte	2                               # 0x2
	.byte	2                               # 0x2
	.byte	2                               # 0x2
	.byte	2                               # 0x2
	.byte	2                               # 0x2
	.byte	128                             # 0x80
	.byte	128                             # 0x80
	.byte	128                             # 0x80
	.byte	128                             # 0x80
	.byte	5                               # 0x5
	.byte	1                               # 0x1
	.byte	25                              # 0x19
	.byte	97                              # 0x61
.LCPI34_8:
	.byte	207                             # 0xcf
	.byte	135                             # 0x87
	.byte	131                             # 0x83
	.byte	131                             # 0x83
	.byte	163                             # 0xa3
	.byte	227                             # 0xe3
	.byte	227                             # 0xe3
	.byte	227                             # 0xe3
	.byte	227                             # 0xe3
	.byte	227                             # 0xe3
	.byte	227                             # 0xe3
	.byte	227                             # 0xe3
	.byte	227                             # 0xe3
	.byte	243                             # 0xf3
	.byte	227                             # 0xe3
	.byte	227                             # 0xe3
.LCPI34_9:
	.byte	1                               # 0x1
	.byte	1                               # 0x1
	.byte	1                               # 0x1
	.byte	1                               # 0x1
	.byte	1                               # 0x1
	.byte	1                               # 0x1
	.byte	1                               # 0x1
	.byte	1                               # 0x1
	.byte	206                             # 0xce
	.byte	174                             # 0xae
	.byte	182                             # 0xb6
	.byte	182                             # 0xb6
	.byte	1                               # 0x1
	.byte	1                               # 0x1
	.byte	1                               # 0x1
	.byte	1                               # 0x1
.LCPI34_10:
	.zero	16,96
.LCPI34_11:
	.zero	16,112
.LCPI34_12:
	.zero	16,128
.LCPI34_13:
	.byte	224                             # 0xe0
	.byte	192                             # 0xc0
	.zero	1
	.zero	1
	.zero	1
	.zero	1
	.zero	1
	.zero	1
	.zero	1
	.zero	1
	.zero	1
	.zero	1
	.zero	1
	.zero	1
	.zero	1
	.zero	1
.LCPI34_14:
	.byte	224                             # 0xe0
	.byte	192                             # 0xc0
	.byte	0                               # 0x0
	.byte	0                               # 0x0
	.byte	0                               # 0x0
	.byte	0                               # 0x0
	.byte	0                               # 0x0
	.byte	0                               # 0x0
	.byte	0                               # 0x0
	.byte	0                               # 0x0
	.byte	0                               # 0x0
	.byte	0                               # 0x0
	.byte	0                               # 0x0
	.byte	0                               # 0x0
	.byte	0                               # 0x0
	.byte	0                               # 0x0
	.section	".text.recoding::kernels::put_few::<#f0e6fcfecd579859>","ax",@progbits
	.p2align	4
	.type	"recoding::kernels::put_few::<#f0e6fcfecd579859>",@function
"recoding::kernels::put_few::<#f0e6fcfecd579859>": # @"recoding::kernels::put_few::<#f0e6fcfecd579859>"
	.cfi_startproc
# %bb.0:                                # %start
	pushq	%rbp
	.cfi_def_cfa_offset 16
	pushq	%r15
	.cfi_def_cfa_offset 24
	pushq	%r14
	.cfi_def_cfa_offset 32
	pushq	%r13
	.cfi_def_cfa_offset 40
	pushq	%r12
	.cfi_def_cfa_offset 48
	pushq	%rbx
	.cfi_def_cfa_offset 56
	subq	$184, %rsp
	.cfi_def_cfa_offset 240
	.cfi_offset %rbx, -56
	.cfi_offset %r12, -48
	.cfi_offset %r13, -40
	.cfi_offset %r14, -32
	.cfi_offset %r15, -24
	.cfi_offset %rbp, -16
	movq	%rdx, %r13
	movq	%rdi, %r15
	cmpq	$19, %rsi
	jae	.LBB34_3
# %bb.1:                                # %then.1
	cmpq	$16, %rsi
	movl	$16, %r12d
	cmovbq	%rsi, %r12
	cmpq	$4, %rsi
	jb	.LBB34_2
# %bb.5:                                # %join.6.i.i
	movq	%r12, %rax
	shlq	$4, %rax
	leaq	.Lstatic.10(%rip), %rcx
	movdqu	-64(%rax,%rcx), %xmm0
	cmpq	$7, %rsi
	ja	.LBB34_9
# %bb.6:                                # %then.1.i8.i
	movd	(%r15), %xmm1                   # xmm1 = mem[0],zero,zero,zero
	movl	-4(%r15,%r12), %eax
	movd	%eax, %xmm2
	shrl	$8, %eax
	movdqa	%xmm1, %xmm3
	punpckldq	%xmm2, %xmm3            # xmm3 = xmm3[0],xmm2[0],xmm3[1],xmm2[1]
	pshufd	$68, %xmm3, %xmm4               # xmm4 = xmm3[0,1,0,1]
	pshufb	%xmm0, %xmm4
	movdqa	%xmm2, %xmm3
	psrld	$16, %xmm3
	jmp	.LBB34_10
.LBB34_3:                               # %join.3
	movq	%r15, %rdi
	callq	"utf_lanes::text_blocks::text_len"
	cmpq	$19, %rax
	jb	.LBB34_2
# %bb.7:                                # %join.6
	movq	%rax, %r14
	pxor	%xmm5, %xmm5
	movdqa	%xmm5, 160(%rsp)
	movdqa	%xmm5, 144(%rsp)
	movdqa	%xmm5, 128(%rsp)
	movdqa	%xmm5, 112(%rsp)
	movdqa	%xmm5, 96(%rsp)
	movdqu	(%r15), %xmm3
	movdqa	%xmm3, %xmm2
	pslldq	$1, %xmm2                       # xmm2 = zero,xmm2[0,1,2,3,4,5,6,7,8,9,10,11,12,13,14]
	movdqa	%xmm3, %xmm1
	pslldq	$2, %xmm1                       # xmm1 = zero,zero,xmm1[0,1,2,3,4,5,6,7,8,9,10,11,12,13]
	movdqa	%xmm3, %xmm0
	pslldq	$3, %xmm0                       # xmm0 = zero,zero,zero,xmm0[0,1,2,3,4,5,6,7,8,9,10,11,12]
	movdqa	%xmm1, %xmm6
	pmaxub	%xmm0, %xmm6
	movdqa	.LCPI34_0(%rip), %xmm4          # xmm4 = [240,240,240,240,240,240,240,240,240,240,240,240,240,240,240,240]
	pmaxub	%xmm6, %xmm4
	pcmpeqb	%xmm6, %xmm4
	pmovmskb	%xmm4, %eax
	testl	%eax, %eax
	movq	%r13, 72(%rsp)                  # 8-byte Spill
	je	.LBB34_12
# %bb.8:                                # %else.2.i.i.i
	leaq	32(%rsp), %rdi
	movdqa	%xmm2, 16(%rsp)                 # 16-byte Spill
	movdqa	%xmm3, (%rsp)                   # 16-byte Spill
	callq	"utf_lanes::text_units::long_halves"
	movdqa	(%rsp), %xmm3                   # 16-byte Reload
	movdqa	16(%rsp), %xmm2                 # 16-byte Reload
	movdqa	32(%rsp), %xmm0
	movdqa	48(%rsp), %xmm5
	jmp	.LBB34_13
.LBB34_9:                               # %join.3.i7.i
	movq	(%r15), %rcx
	movq	%rcx, %xmm4
	movq	-8(%r15,%r12), %rdx
	movq	%rdx, %xmm3
	movq	%rdx, %rax
	shrq	$40, %rax
	pinsrq	$1, %rdx, %xmm4
	pshufb	%xmm0, %xmm4
	movd	%ecx, %xmm1
	shrq	$32, %rdx
	movd	%edx, %xmm2
	psrlq	$48, %xmm3
.LBB34_10:                              # %"utf_lanes::few_bytes::padded_text.exit.i"
	movdqa	%xmm4, %xmm7
	pslldq	$1, %xmm7                       # xmm7 = zero,xmm7[0,1,2,3,4,5,6,7,8,9,10,11,12,13,14]
	movdqa	%xmm4, %xmm6
	pslldq	$2, %xmm6                       # xmm6 = zero,zero,xmm6[0,1,2,3,4,5,6,7,8,9,10,11,12,13]
	movdqa	%xmm4, %xmm5
	pslldq	$3, %xmm5                       # xmm5 = zero,zero,zero,xmm5[0,1,2,3,4,5,6,7,8,9,10,11,12]
	movdqa	%xmm7, %xmm8
	psrlw	$4, %xmm8
	movdqa	.LCPI34_4(%rip), %xmm9          # xmm9 = [15,15,15,15,15,15,15,15,15,15,15,15,15,15,15,15]
	pand	%xmm9, %xmm8
	movdqa	.LCPI34_7(%rip), %xmm10         # xmm10 = [2,2,2,2,2,2,2,2,128,128,128,128,5,1,25,97]
	pshufb	%xmm8, %xmm10
	pand	%xmm9, %xmm7
	movdqa	.LCPI34_8(%rip), %xmm8          # xmm8 = [207,135,131,131,163,227,227,227,227,227,227,227,227,243,227,227]
	pshufb	%xmm7, %xmm8
	psrlw	$4, %xmm4
	pand	%xmm9, %xmm4
	movdqa	.LCPI34_9(%rip), %xmm7          # xmm7 = [1,1,1,1,1,1,1,1,206,174,182,182,1,1,1,1]
	pshufb	%xmm4, %xmm7
	psubusb	.LCPI34_10(%rip), %xmm6
	psubusb	.LCPI34_11(%rip), %xmm5
	pand	%xmm8, %xmm7
	por	%xmm6, %xmm5
	pand	.LCPI34_12(%rip), %xmm5
	pand	%xmm10, %xmm7
	pxor	%xmm7, %xmm5
	ptest	%xmm5, %xmm5
	je	.LBB34_22
.LBB34_2:
	xorl	%r14d, %r14d
	jmp	.LBB34_30
.LBB34_12:                              # %then.1.i.i.i
	pcmpgtb	%xmm3, %xmm5
	pand	%xmm2, %xmm5
	movdqa	.LCPI34_1(%rip), %xmm4          # xmm4 = [127,127,127,127,127,127,127,127,127,127,127,127,127,127,127,127]
	pand	%xmm3, %xmm4
	movdqa	%xmm5, %xmm0
	psllw	$6, %xmm0
	pand	.LCPI34_2(%rip), %xmm0
	psubusb	.LCPI34_3(%rip), %xmm1
	paddb	%xmm4, %xmm0
	psllw	$4, %xmm1
	pand	.LCPI34_0(%rip), %xmm1
	psrlw	$2, %xmm5
	pand	.LCPI34_4(%rip), %xmm5
	por	%xmm1, %xmm5
.LBB34_13:                              # %"utf_lanes::text_puts::write_first::<#22d4087b0bf99cde>.exit"
	psubusb	.LCPI34_5(%rip), %xmm2
	pmaxub	%xmm3, %xmm2
	movdqa	.LCPI34_6(%rip), %xmm1          # xmm1 = [191,191,191,191,191,191,191,191,191,191,191,191,191,191,191,191]
	pminub	%xmm2, %xmm1
	pcmpeqb	%xmm2, %xmm1
	pmovmskb	%xmm1, %eax
	movdqa	%xmm5, %xmm1
	punpckhbw	%xmm0, %xmm1            # xmm1 = xmm1[8],xmm0[8],xmm1[9],xmm0[9],xmm1[10],xmm0[10],xmm1[11],xmm0[11],xmm1[12],xmm0[12],xmm1[13],xmm0[13],xmm1[14],xmm0[14],xmm1[15],xmm0[15]
	punpcklbw	%xmm0, %xmm5            # xmm5 = xmm5[0],xmm0[0],xmm5[1],xmm0[1],xmm5[2],xmm0[2],xmm5[3],xmm0[3],xmm5[4],xmm0[4],xmm5[5],xmm0[5],xmm5[6],xmm0[6],xmm5[7],xmm0[7]
	movzbl	%al, %ecx
	popcntl	%ecx, %edx
	shll	$4, %ecx
	leaq	.Lstatic.17(%rip), %rbp
	movdqu	(%rcx,%rbp), %xmm0
	pshufb	%xmm0, %xmm5
	shrl	$8, %eax
	popcntl	%eax, %r12d
	shll	$4, %eax
	movdqu	(%rax,%rbp), %xmm0
	pshufb	%xmm0, %xmm1
	movdqa	%xmm5, 80(%rsp)
	movdqu	%xmm1, 80(%rsp,%rdx,2)
	addl	%edx, %r12d
	addl	%r12d, %r12d
	movl	$16, %r13d
	cmpq	$32, %r14
	jae	.LBB34_17
.LBB34_14:                              # %after.1.i262
	cmpq	%r14, %r13
	jae	.LBB34_28
# %bb.15:                               # %then.6.i
	movq	%r14, %rax
	addq	$-16, %rax
	subq	%rax, %r13
	movdqu	-19(%r15,%r14), %xmm0
	movdqu	-18(%r15,%r14), %xmm1
	movdqu	-17(%r15,%r14), %xmm2
	movdqu	-16(%r15,%r14), %xmm3
	movdqa	%xmm1, %xmm4
	pmaxub	%xmm0, %xmm4
	movdqa	.LCPI34_0(%rip), %xmm5          # xmm5 = [240,240,240,240,240,240,240,240,240,240,240,240,240,240,240,240]
	pmaxub	%xmm4, %xmm5
	pcmpeqb	%xmm4, %xmm5
	pmovmskb	%xmm5, %eax
	testl	%eax, %eax
	je	.LBB34_26
# %bb.16:                               # %else.2.i.i.i523
	leaq	32(%rsp), %rdi
	movdqa	%xmm2, 16(%rsp)                 # 16-byte Spill
	movdqa	%xmm3, (%rsp)                   # 16-byte Spill
	callq	"utf_lanes::text_units::long_halves"
	movdqa	(%rsp), %xmm3                   # 16-byte Reload
	movdqa	16(%rsp), %xmm2                 # 16-byte Reload
	movdqa	32(%rsp), %xmm4
	movdqa	48(%rsp), %xmm0
	jmp	.LBB34_27
.LBB34_17:                              # %join.5.i.lr.ph
	leaq	-16(%r14), %rbx
	jmp	.LBB34_20
	.p2align	4
.LBB34_18:                              # %else.2.i.i.i780
                                        #   in Loop: Header=BB34_20 Depth=1
	leaq	32(%rsp), %rdi
	movdqa	%xmm2, 16(%rsp)                 # 16-byte Spill
	movdqa	%xmm3, (%rsp)                   # 16-byte Spill
	callq	"utf_lanes::text_units::long_halves"
	movdqa	(%rsp), %xmm3                   # 16-byte Reload
	movdqa	16(%rsp), %xmm2                 # 16-byte Reload
	movdqa	32(%rsp), %xmm4
	movdqa	48(%rsp), %xmm0
.LBB34_19:                              # %"utf_lanes::text_units::block_units::<#22d4087b0bf99cde>.exit989"
                                        #   in Loop: Header=BB34_20 Depth=1
	psubusb	.LCPI34_5(%rip), %xmm2
	pmaxub	%xmm3, %xmm2
	movdqa	.LCPI34_6(%rip), %xmm1          # xmm1 = [191,191,191,191,191,191,191,191,191,191,191,191,191,191,191,191]
	pminub	%xmm2, %xmm1
	pcmpeqb	%xmm2, %xmm1
	pmovmskb	%xmm1, %eax
	movdqa	%xmm0, %xmm1
	punpckhbw	%xmm4, %xmm1            # xmm1 = xmm1[8],xmm4[8],xmm1[9],xmm4[9],xmm1[10],xmm4[10],xmm1[11],xmm4[11],xmm1[12],xmm4[12],xmm1[13],xmm4[13],xmm1[14],xmm4[14],xmm1[15],xmm4[15]
	punpcklbw	%xmm4, %xmm0            # xmm0 = xmm0[0],xmm4[0],xmm0[1],xmm4[1],xmm0[2],xmm4[2],xmm0[3],xmm4[3],xmm0[4],xmm4[4],xmm0[5],xmm4[5],xmm0[6],xmm4[6],xmm0[7],xmm4[7]
	movzbl	%al, %ecx
	xorl	%edx, %edx
	popcntl	%ecx, %edx
	shll	$4, %ecx
	movdqu	(%rcx,%rbp), %xmm2
	pshufb	%xmm2, %xmm0
	shrl	$8, %eax
	xorl	%ecx, %ecx
	popcntl	%eax, %ecx
	shll	$4, %eax
	movdqu	(%rax,%rbp), %xmm2
	pshufb	%xmm2, %xmm1
	leaq	(%rsp,%r12), %rax
	addq	$80, %rax
	movdqu	%xmm0, 80(%rsp,%r12)
	movdqu	%xmm1, (%rax,%rdx,2)
	addl	%edx, %ecx
	leaq	(%r12,%rcx,2), %r12
	addq	$16, %r13
	addq	$-16, %rbx
	cmpq	$15, %rbx
	jbe	.LBB34_14
.LBB34_20:                              # %join.5.i
                                        # =>This Inner Loop Header: Depth=1
	movdqu	-3(%r15,%r13), %xmm0
	movdqu	-2(%r15,%r13), %xmm1
	movdqu	-1(%r15,%r13), %xmm2
	movdqu	(%r15,%r13), %xmm3
	movdqa	%xmm1, %xmm4
	pmaxub	%xmm0, %xmm4
	movdqa	.LCPI34_0(%rip), %xmm5          # xmm5 = [240,240,240,240,240,240,240,240,240,240,240,240,240,240,240,240]
	pmaxub	%xmm4, %xmm5
	pcmpeqb	%xmm4, %xmm5
	pmovmskb	%xmm5, %eax
	testl	%eax, %eax
	jne	.LBB34_18
# %bb.21:                               # %then.1.i.i.i974
                                        #   in Loop: Header=BB34_20 Depth=1
	pxor	%xmm0, %xmm0
	pcmpgtb	%xmm3, %xmm0
	pand	%xmm2, %xmm0
	movdqa	.LCPI34_1(%rip), %xmm5          # xmm5 = [127,127,127,127,127,127,127,127,127,127,127,127,127,127,127,127]
	pand	%xmm3, %xmm5
	movdqa	%xmm0, %xmm4
	psllw	$6, %xmm4
	pand	.LCPI34_2(%rip), %xmm4
	psubusb	.LCPI34_3(%rip), %xmm1
	paddb	%xmm5, %xmm4
	psllw	$4, %xmm1
	pand	.LCPI34_0(%rip), %xmm1
	psrlw	$2, %xmm0
	pand	.LCPI34_4(%rip), %xmm0
	por	%xmm1, %xmm0
	jmp	.LBB34_19
.LBB34_22:                              # %then.7.i.i
	movd	.LCPI34_14(%rip), %xmm4         # xmm4 = [224,192,0,0,0,0,0,0,0,0,0,0,0,0,0,0]
	pmaxub	%xmm3, %xmm4
	pcmpeqb	%xmm3, %xmm4
	pcmpeqd	%xmm3, %xmm3
	pxor	%xmm4, %xmm3
	pmovsxbq	%xmm3, %xmm3
	movmskpd	%xmm3, %ecx
	xorl	%r14d, %r14d
	cmpl	$3, %ecx
	jne	.LBB34_30
# %bb.23:                               # %then.7.i.i
	cmpb	$-17, %al
	ja	.LBB34_30
# %bb.24:                               # %after.1.i
	movl	$16, %r14d
	xorpd	%xmm3, %xmm3
	movapd	%xmm3, 48(%rsp)
	cmpq	$7, %rsi
	ja	.LBB34_31
# %bb.25:                               # %then.1.i.i
	punpckldq	%xmm2, %xmm1            # xmm1 = xmm1[0],xmm2[0],xmm1[1],xmm2[1]
	pshufd	$68, %xmm1, %xmm3               # xmm3 = xmm1[0,1,0,1]
	jmp	.LBB34_32
.LBB34_26:                              # %then.1.i.i.i713
	pxor	%xmm0, %xmm0
	pcmpgtb	%xmm3, %xmm0
	pand	%xmm2, %xmm0
	movdqa	.LCPI34_1(%rip), %xmm5          # xmm5 = [127,127,127,127,127,127,127,127,127,127,127,127,127,127,127,127]
	pand	%xmm3, %xmm5
	movdqa	%xmm0, %xmm4
	psllw	$6, %xmm4
	pand	.LCPI34_2(%rip), %xmm4
	psubusb	.LCPI34_3(%rip), %xmm1
	paddb	%xmm5, %xmm4
	psllw	$4, %xmm1
	pand	.LCPI34_0(%rip), %xmm1
	psrlw	$2, %xmm0
	pand	.LCPI34_4(%rip), %xmm0
	por	%xmm1, %xmm0
.LBB34_27:                              # %"utf_lanes::text_units::block_units::<#22d4087b0bf99cde>.exit"
	psubusb	.LCPI34_5(%rip), %xmm2
	pmaxub	%xmm3, %xmm2
	movdqa	.LCPI34_6(%rip), %xmm1          # xmm1 = [191,191,191,191,191,191,191,191,191,191,191,191,191,191,191,191]
	pminub	%xmm2, %xmm1
	pcmpeqb	%xmm2, %xmm1
	movq	$-1, %rax
	movl	%r13d, %ecx
	shlq	%cl, %rax
	pmovmskb	%xmm1, %ecx
	andl	%ecx, %eax
	movdqa	%xmm0, %xmm1
	punpckhbw	%xmm4, %xmm1            # xmm1 = xmm1[8],xmm4[8],xmm1[9],xmm4[9],xmm1[10],xmm4[10],xmm1[11],xmm4[11],xmm1[12],xmm4[12],xmm1[13],xmm4[13],xmm1[14],xmm4[14],xmm1[15],xmm4[15]
	punpcklbw	%xmm4, %xmm0            # xmm0 = xmm0[0],xmm4[0],xmm0[1],xmm4[1],xmm0[2],xmm4[2],xmm0[3],xmm4[3],xmm0[4],xmm4[4],xmm0[5],xmm4[5],xmm0[6],xmm4[6],xmm0[7],xmm4[7]
	movzbl	%al, %ecx
	xorl	%edx, %edx
	popcntl	%ecx, %edx
	shll	$4, %ecx
	movdqu	(%rcx,%rbp), %xmm2
	pshufb	%xmm2, %xmm0
	shrl	$8, %eax
	xorl	%ecx, %ecx
	popcntl	%eax, %ecx
	shll	$4, %eax
	movdqu	(%rax,%rbp), %xmm2
	pshufb	%xmm2, %xmm1
	leaq	(%rsp,%r12), %rax
	addq	$80, %rax
	movdqu	%xmm0, 80(%rsp,%r12)
	movdqu	%xmm1, (%rax,%rdx,2)
	addl	%edx, %ecx
	leaq	(%r12,%rcx,2), %r12
.LBB34_28:                              # %"utf_lanes::text_puts::write_rest::<#22d4087b0bf99cde>.exit"
	movq	72(%rsp), %rbp                  # 8-byte Reload
	movq	8(%rbp), %rbx
	movq	16(%rbp), %r15
	movq	%r15, %rax
	subq	%rbx, %rax
	cmpq	%rax, %r12
	ja	.LBB34_38
.LBB34_29:                              # %join.3.i1006
	movq	(%rbp), %r13
	leaq	(%rbx,%r13), %rdi
	addq	%r12, %rbx
	leaq	80(%rsp), %rsi
	movq	%r12, %rdx
	callq	memcpy@PLT
	movq	%r13, (%rbp)
	movq	%rbx, 8(%rbp)
	movq	%r15, 16(%rbp)
.LBB34_30:                              # %common.ret
	movq	%r14, %rax
	addq	$184, %rsp
	.cfi_def_cfa_offset 56
	popq	%rbx
	.cfi_def_cfa_offset 48
	popq	%r12
	.cfi_def_cfa_offset 40
	popq	%r13
	.cfi_def_cfa_offset 32
	popq	%r14
	.cfi_def_cfa_offset 24
	popq	%r15
	.cfi_def_cfa_offset 16
	popq	%rbp
	.cfi_def_cfa_offset 8
	retq
.LBB34_31:                              # %join.3.i.i
	.cfi_def_cfa_offset 240
	movq	-8(%r15,%r12), %xmm1            # xmm1 = mem[0],zero
	movq	(%r15), %xmm3                   # xmm3 = mem[0],zero
	punpcklqdq	%xmm1, %xmm3            # xmm3 = xmm3[0],xmm1[0]
.LBB34_32:                              # %"utf_lanes::text_puts::write_few::<#22d4087b0bf99cde>.exit"
	pshufb	%xmm0, %xmm3
	subq	%r12, %r14
	movdqa	%xmm3, %xmm2
	pslldq	$1, %xmm2                       # xmm2 = zero,xmm2[0,1,2,3,4,5,6,7,8,9,10,11,12,13,14]
	movdqa	%xmm3, %xmm1
	pslldq	$2, %xmm1                       # xmm1 = zero,zero,xmm1[0,1,2,3,4,5,6,7,8,9,10,11,12,13]
	movdqa	%xmm3, %xmm0
	pslldq	$3, %xmm0                       # xmm0 = zero,zero,zero,xmm0[0,1,2,3,4,5,6,7,8,9,10,11,12]
	movdqa	%xmm1, %xmm5
	pmaxub	%xmm0, %xmm5
	movdqa	.LCPI34_0(%rip), %xmm4          # xmm4 = [240,240,240,240,240,240,240,240,240,240,240,240,240,240,240,240]
	pmaxub	%xmm5, %xmm4
	pcmpeqb	%xmm5, %xmm4
	pmovmskb	%xmm4, %eax
	testl	%eax, %eax
	je	.LBB34_34
# %bb.33:                               # %else.2.i.i
	leaq	80(%rsp), %rdi
	movdqa	%xmm3, 16(%rsp)                 # 16-byte Spill
	movdqa	%xmm2, (%rsp)                   # 16-byte Spill
	callq	"utf_lanes::text_units::long_halves"
	movdqa	(%rsp), %xmm2                   # 16-byte Reload
	movdqa	16(%rsp), %xmm3                 # 16-byte Reload
	movdqa	80(%rsp), %xmm5
	movdqa	96(%rsp), %xmm0
	jmp	.LBB34_35
.LBB34_34:                              # %then.1.i.i154
	pxor	%xmm0, %xmm0
	pcmpgtb	%xmm3, %xmm0
	pand	%xmm2, %xmm0
	movdqa	.LCPI34_1(%rip), %xmm4          # xmm4 = [127,127,127,127,127,127,127,127,127,127,127,127,127,127,127,127]
	pand	%xmm3, %xmm4
	movdqa	%xmm0, %xmm5
	psllw	$6, %xmm5
	pand	.LCPI34_2(%rip), %xmm5
	psubusb	.LCPI34_3(%rip), %xmm1
	paddb	%xmm4, %xmm5
	psllw	$4, %xmm1
	pand	.LCPI34_0(%rip), %xmm1
	psrlw	$2, %xmm0
	pand	.LCPI34_4(%rip), %xmm0
	por	%xmm1, %xmm0
.LBB34_35:                              # %"utf_lanes::text_units::lane_units::<#22d4087b0bf99cde>.exit"
	psubusb	.LCPI34_5(%rip), %xmm2
	pmaxub	%xmm3, %xmm2
	movdqa	.LCPI34_6(%rip), %xmm1          # xmm1 = [191,191,191,191,191,191,191,191,191,191,191,191,191,191,191,191]
	pminub	%xmm2, %xmm1
	pcmpeqb	%xmm2, %xmm1
	pmovmskb	%xmm1, %eax
	movl	%r14d, %ecx
	shrl	%cl, %eax
	shll	%cl, %eax
	movdqa	%xmm0, %xmm1
	punpckhbw	%xmm5, %xmm1            # xmm1 = xmm1[8],xmm5[8],xmm1[9],xmm5[9],xmm1[10],xmm5[10],xmm1[11],xmm5[11],xmm1[12],xmm5[12],xmm1[13],xmm5[13],xmm1[14],xmm5[14],xmm1[15],xmm5[15]
	punpcklbw	%xmm5, %xmm0            # xmm0 = xmm0[0],xmm5[0],xmm0[1],xmm5[1],xmm0[2],xmm5[2],xmm0[3],xmm5[3],xmm0[4],xmm5[4],xmm0[5],xmm5[5],xmm0[6],xmm5[6],xmm0[7],xmm5[7]
	movzbl	%al, %ecx
	popcntl	%ecx, %esi
	shll	$4, %ecx
	leaq	.Lstatic.17(%rip), %rdi
	movdqu	(%rcx,%rdi), %xmm2
	pshufb	%xmm2, %xmm0
	shrl	$8, %eax
	popcntl	%eax, %edx
	shll	$4, %eax
	movdqu	(%rax,%rdi), %xmm2
	pshufb	%xmm2, %xmm1
	movdqa	%xmm0, 32(%rsp)
	movdqu	%xmm1, 32(%rsp,%rsi,2)
	addl	%esi, %edx
	addl	%edx, %edx
	movq	8(%r13), %rbx
	movq	16(%r13), %r14
	movq	%r14, %rax
	subq	%rbx, %rax
	cmpq	%rax, %rdx
	ja	.LBB34_40
.LBB34_36:                              # %join.3.i
	movq	(%r13), %r15
	leaq	(%r15,%rbx), %rdi
	addq	%rdx, %rbx
	leaq	32(%rsp), %rsi
	callq	memcpy@PLT
	movq	%r15, (%r13)
	movq	%rbx, 8(%r13)
	movq	%r14, 16(%r13)
.LBB34_37:                              # %"std_alloc::vec::Vec::extend_from_slice::<#0cd040e5c49bc722>.exit"
	movq	%r12, %r14
	jmp	.LBB34_30
.LBB34_38:                              # %"std_alloc::vec::Vec::grow::<#5fdc5e19576447a7>.exit.i1026"
	movq	%rbp, %rdi
	movq	%r12, %rsi
	callq	"std_alloc::vec::Vec::grow_amortized::<#5fdc5e19576447a7>"
	testb	%al, %al
	je	.LBB34_30
# %bb.39:                               # %"std_alloc::vec::Vec::grow::<#5fdc5e19576447a7>.exit.join.3_crit_edge.i1028"
	movq	8(%rbp), %rbx
	movq	16(%rbp), %r15
	jmp	.LBB34_29
.LBB34_40:                              # %"std_alloc::vec::Vec::grow::<#5fdc5e19576447a7>.exit.i"
	movq	%r13, %rdi
	movq	%rdx, %r15
	movq	%rdx, %rsi
	callq	"std_alloc::vec::Vec::grow_amortized::<#5fdc5e19576447a7>"
	testb	%al, %al
	je	.LBB34_37
# %bb.41:                               # %"std_alloc::vec::Vec::grow::<#5fdc5e19576447a7>.exit.join.3_crit_edge.i"
	movq	8(%r13), %rbx
	movq	16(%r13), %r14
	movq	%r15, %rdx
	jmp	.LBB34_36
.Lfunc_end34:
	.size	"recoding::kernels::put_few::<#f0e6fcfecd579859>", .Lfunc_end34-"recoding::kernels::put_few::<#f0e6fcfecd579859>"
	.cfi_endproc
                                        # -- End function
	.section	".text.recoding::kernels::put_judged::<#fc185a580612e994>","ax",@progbits
	.p2align	4                               # -- Begin function recoding::kernels::put_judged::<#fc185a580612e994>
	.type	"recoding::kernels::put_judged::<#fc185a580612e994>",@function
"recoding::kernels::put_judged::<#fc185a580612e994>": # @"recoding::kernels::put_judged::<#fc185a580612e994>"
	.cfi_startproc
# %bb.0:                                # %start
	pushq	%r15
	.cfi_def_cfa_offset 16
	pushq	%r14
	.cfi_def_cfa_offset 24
	pushq	%rbx
	.cfi_def_cfa_offset 32
	.cfi_offset %rbx, -32
	.cfi_offset %r14, -24
	.cfi_offset %r15, -16
	movq	%rdx, %rbx
	movq	%rdi, %r14
	movq	16(%rdx), %rax
	subq	8(%rdx), %rax
	xorl	%r15d, %r15d
	subq	$32, %rax
	cmovbq	%r15, %rax
	shrq	%rax
	cmpq	%rsi, %rax
	cmovbq	%rax, %rsi
	callq	"utf_lanes::text_blocks::text_len"
	cmpq	$18, %rax
	jbe	.LBB35_2
# %bb.1:                                # %join.3
	movq	%r14, %rdi
	movq	%rax, %rsi
	movq	%rbx, %rdx
	movq	%rax, %r15
	callq	"recoding::list::append_units::<#db1eb2065a50937f>"
.LBB35_2:                               # %common.ret
	movq	%r15, %rax
	popq	%rbx
	.cfi_def_cfa_offset 24
	popq	%r14
	.cfi_def_cfa_offset 16
	popq	%r15
	.cfi_def_cfa_offset 8
	retq
.Lfunc_end35:
	.size	"recoding::kernels::put_judged::<#fc185a580612e994>", .Lfunc_end35-"recoding::kernels::put_judged::<#fc185a580612e994>"
	.cfi_endproc
                                        # -- End function
	.section	".text.recoding::list::append_units::<#db1eb2065a50937f>","ax",@progbits
	.p2align	4                               # -- Begin function recoding::list::append_units::<#db1eb2065a50937f>
	.type	"recoding::list::append_units::<#db1eb2065a50937f>",@function
"recoding::list::append_units::<#db1eb2065a50937f>": # @"recoding::list::append_units::<#db1eb2065a50937f>"
	.cfi_startproc
# %bb.0:                                # %start
	pushq	%rbp
	.cfi_def_cfa_offset 16
	pushq	%r15
	.cfi_def_cfa_offset 24
	pushq	%r14
	.cfi_def_cfa_offset 32
	pushq	%r13
	.cfi_def_cfa_offset 40
	pushq	%r12
	.cfi_def_cfa_offset 48
	pushq	%rbx
	.cfi_def_cfa_offset 56
	subq	$24, %rsp
	.cfi_def_cfa_offset 80
	.cfi_offset %rbx, -56
	.cfi_offset %r12, -48
	.cfi_offset %r13, -40
	.cfi_offset %r14, -32
	.cfi_offset %r15, -24
	.cfi_offset %rbp, -16
	movq	%rdx, %rbx
	movq	%rsi, %r15
	movq	%rdi, 8(%rsp)                   # 8-byte Spill
	movq	8(%rdx), %rdi
	leaq	32(,%rsi,2), %r13
	cmpq	$1985, %r13                     # imm = 0x7C1
	movq	%rdi, 16(%rsp)                  # 8-byte Spill
	jae	.LBB36_1
# %bb.11:                               # %"recoding::list::append_zeros::<#e3b2a9d4d2861db8>.exit"
	leaq	(%rdi,%r13), %r12
	cmpq	%rdi, %r12
	jbe	.LBB36_12
.LBB36_14:                              # %join.3.i16
	movq	16(%rbx), %r14
	movq	%r14, %rax
	subq	%rdi, %rax
	cmpq	%rax, %r13
	ja	.LBB36_15
# %bb.17:                               # %join.3.i2.i21
	movq	(%rbx), %rbp
	cmpq	%r12, %rdi
	jae	.LBB36_19
.LBB36_18:                              # %join.5.preheader.i.i.i28
	addq	%rbp, %rdi
	xorl	%esi, %esi
	movq	%r13, %rdx
	callq	memset@PLT
.LBB36_19:                              # %"std_alloc::vec::opened::fill_run::<i8,20'core::clone::U8Clone{}>.exit.i.i27"
	movq	%rbp, (%rbx)
	movq	%r12, 8(%rbx)
	movq	%r14, 16(%rbx)
	jmp	.LBB36_20
	.p2align	4
.LBB36_2:                               # %join.3.i.i
                                        #   in Loop: Header=BB36_1 Depth=1
	addq	$1984, %rdi                     # imm = 0x7C0
	movq	%rdi, 8(%rbx)
.LBB36_9:                               # %"std_alloc::vec::Vec::resize::<#0cd040e5c49bc722>.exit"
                                        #   in Loop: Header=BB36_1 Depth=1
	addq	$-1984, %r13                    # imm = 0xF840
	cmpq	$1984, %r13                     # imm = 0x7C0
	jbe	.LBB36_10
.LBB36_1:                               # %join.5.i
                                        # =>This Inner Loop Header: Depth=1
	movq	8(%rbx), %rdi
	cmpq	$-1984, %rdi                    # imm = 0xF840
	jae	.LBB36_2
# %bb.3:                                # %join.3.i
                                        #   in Loop: Header=BB36_1 Depth=1
	movq	16(%rbx), %rbp
	movq	%rbp, %rax
	subq	%rdi, %rax
	cmpq	$1984, %rax                     # imm = 0x7C0
	jb	.LBB36_5
# %bb.4:                                # %join.3.i2.i.thread
                                        #   in Loop: Header=BB36_1 Depth=1
	leaq	1984(%rdi), %r14
	movq	(%rbx), %r12
.LBB36_7:                               # %join.5.preheader.i.i.i
                                        #   in Loop: Header=BB36_1 Depth=1
	addq	%r12, %rdi
	movl	$1984, %edx                     # imm = 0x7C0
	xorl	%esi, %esi
	callq	memset@PLT
.LBB36_8:                               # %"std_alloc::vec::opened::fill_run::<i8,20'core::clone::U8Clone{}>.exit.i.i"
                                        #   in Loop: Header=BB36_1 Depth=1
	movq	%r12, (%rbx)
	movq	%r14, 8(%rbx)
	movq	%rbp, 16(%rbx)
	jmp	.LBB36_9
.LBB36_5:                               # %"std_alloc::vec::Vec::grow::<#5fdc5e19576447a7>.exit.i.i"
                                        #   in Loop: Header=BB36_1 Depth=1
	movl	$1984, %esi                     # imm = 0x7C0
	movq	%rbx, %rdi
	callq	"std_alloc::vec::Vec::grow_amortized::<#5fdc5e19576447a7>"
	testb	%al, %al
	je	.LBB36_9
# %bb.6:                                # %join.3.i2.i
                                        #   in Loop: Header=BB36_1 Depth=1
	movq	(%rbx), %r12
	movq	8(%rbx), %rdi
	movq	16(%rbx), %rbp
	movq	%rdi, %r14
	subq	$-1984, %r14                    # imm = 0xF840
	jb	.LBB36_7
	jmp	.LBB36_8
.LBB36_10:                              # %"recoding::list::append_zeros::<#e3b2a9d4d2861db8>.exit.loopexit"
	movq	8(%rbx), %rdi
	leaq	(%rdi,%r13), %r12
	cmpq	%rdi, %r12
	ja	.LBB36_14
.LBB36_12:                              # %then.1.i12
	jae	.LBB36_20
# %bb.13:                               # %join.3.i.i15
	movq	%r12, 8(%rbx)
.LBB36_20:                              # %"std_alloc::vec::Vec::resize::<#0cd040e5c49bc722>.exit35"
	movq	(%rbx), %rdx
	movq	8(%rsp), %rdi                   # 8-byte Reload
	movq	%r15, %rsi
	movq	16(%rsp), %rcx                  # 8-byte Reload
	callq	"recoding::utf8_to_utf16::widen_text::<#22d4087b0bf99cde>"
	cmpq	%rax, 8(%rbx)
	jbe	.LBB36_22
# %bb.21:                               # %join.3.i37
	movq	%rax, 8(%rbx)
.LBB36_22:                              # %"std_alloc::vec::Vec::truncate::<#8193b041ae25b2e3>.exit"
	addq	$24, %rsp
	.cfi_def_cfa_offset 56
	popq	%rbx
	.cfi_def_cfa_offset 48
	popq	%r12
	.cfi_def_cfa_offset 40
	popq	%r13
	.cfi_def_cfa_offset 32
	popq	%r14
	.cfi_def_cfa_offset 24
	popq	%r15
	.cfi_def_cfa_offset 16
	popq	%rbp
	.cfi_def_cfa_offset 8
	retq
.LBB36_15:                              # %"std_alloc::vec::Vec::grow::<#5fdc5e19576447a7>.exit.i.i30"
	.cfi_def_cfa_offset 80
	movq	%rbx, %rdi
	movq	%r13, %rsi
	callq	"std_alloc::vec::Vec::grow_amortized::<#5fdc5e19576447a7>"
	testb	%al, %al
	je	.LBB36_20
# %bb.16:                               # %"std_alloc::vec::Vec::grow::<#5fdc5e19576447a7>.exit.join.3_crit_edge.i.i32"
	movq	8(%rbx), %rdi
	movq	16(%rbx), %r14
	leaq	(%rdi,%r13), %r12
	movq	(%rbx), %rbp
	cmpq	%r12, %rdi
	jb	.LBB36_18
	jmp	.LBB36_19
.Lfunc_end36:
	.size	"recoding::list::append_units::<#db1eb2065a50937f>", .Lfunc_end36-"recoding::list::append_units::<#db1eb2065a50937f>"
	.cfi_endproc
                                        # -- End function
	.section	.rodata.cst16,"aM",@progbits,16
	.p2align	4, 0x0                          # -- Begin function recoding::utf8_to_utf16::widen_text::<#22d4087b0bf99cde>
.LCPI37_0:
	.zero	16,240
.LCPI37_1:
	.zero	16,127
.LCPI37_2:
	.zero	16,192
.LCPI37_3:
	.zero	16,224
.LCPI37_4:
	.zero	16,15
.LCPI37_5:
	.zero	16,32
.LCPI37_6:
	.zero	16,191
	.section	".text.recoding::utf8_to_utf16::widen_text::<#22d4087b0bf99cde>","ax",@progbits
	.p2align	4
	.type	"recoding::utf8_to_utf16::widen_text::<#22d4087b0bf99cde>",@function
"recoding::utf8_to_utf16::widen_text::<#22d4087b0bf99cde>": # @"recoding::utf8_to_utf16::widen_text::<#22d4087b0bf99cde>"
	.cfi_startproc
# %bb.0:                                # %start
	pushq	%rbp
	.cfi_def_cfa_offset 16
	pushq	%r15
	.cfi_def_cfa_offset 24
	pushq	%r14
	.cfi_def_cfa_offset 32
	pushq	%r13
	.cfi_def_cfa_offset 40
	pushq	%r12
	.cfi_def_cfa_offset 48
	pushq	%rbx
	.cfi_def_cfa_offset 56
	subq	$104, %rsp
	.cfi_def_cfa_offset 160
	.cfi_offset %rbx, -56
	.cfi_offset %r12, -48
	.cfi_offset %r13, -40
	.cfi_offset %r14, -32
	.cfi_offset %r15, -24
	.cfi_offset %rbp, -16
	movq	%rcx, %r14
	movq	%rdx, %r12
	movq	%rsi, %rbx
	movq	%rdi, 88(%rsp)                  # 8-byte Spill
	movdqu	(%rdi), %xmm3
	movdqa	%xmm3, %xmm2
	pslldq	$1, %xmm2                       # xmm2 = zero,xmm2[0,1,2,3,4,5,6,7,8,9,10,11,12,13,14]
	movdqa	%xmm3, %xmm1
	pslldq	$2, %xmm1                       # xmm1 = zero,zero,xmm1[0,1,2,3,4,5,6,7,8,9,10,11,12,13]
	movdqa	%xmm3, %xmm0
	pslldq	$3, %xmm0                       # xmm0 = zero,zero,zero,xmm0[0,1,2,3,4,5,6,7,8,9,10,11,12]
	movdqa	%xmm1, %xmm4
	pmaxub	%xmm0, %xmm4
	movdqa	.LCPI37_0(%rip), %xmm5          # xmm5 = [240,240,240,240,240,240,240,240,240,240,240,240,240,240,240,240]
	pmaxub	%xmm4, %xmm5
	pcmpeqb	%xmm4, %xmm5
	pmovmskb	%xmm5, %eax
	testl	%eax, %eax
	je	.LBB37_1
# %bb.2:                                # %else.2.i.i.i
	leaq	16(%rsp), %rdi
	movdqa	%xmm2, 48(%rsp)                 # 16-byte Spill
	movdqa	%xmm3, (%rsp)                   # 16-byte Spill
	callq	"utf_lanes::text_units::long_halves"
	movdqa	(%rsp), %xmm3                   # 16-byte Reload
	movdqa	48(%rsp), %xmm2                 # 16-byte Reload
	movdqa	16(%rsp), %xmm4
	movdqa	32(%rsp), %xmm0
	jmp	.LBB37_3
.LBB37_1:                               # %then.1.i.i.i
	pxor	%xmm0, %xmm0
	pcmpgtb	%xmm3, %xmm0
	pand	%xmm2, %xmm0
	movdqa	.LCPI37_1(%rip), %xmm5          # xmm5 = [127,127,127,127,127,127,127,127,127,127,127,127,127,127,127,127]
	pand	%xmm3, %xmm5
	movdqa	%xmm0, %xmm4
	psllw	$6, %xmm4
	pand	.LCPI37_2(%rip), %xmm4
	psubusb	.LCPI37_3(%rip), %xmm1
	paddb	%xmm5, %xmm4
	psllw	$4, %xmm1
	pand	.LCPI37_0(%rip), %xmm1
	psrlw	$2, %xmm0
	pand	.LCPI37_4(%rip), %xmm0
	por	%xmm1, %xmm0
.LBB37_3:                               # %"utf_lanes::text_puts::write_first::<#22d4087b0bf99cde>.exit"
	psubusb	.LCPI37_5(%rip), %xmm2
	pmaxub	%xmm3, %xmm2
	movdqa	.LCPI37_6(%rip), %xmm1          # xmm1 = [191,191,191,191,191,191,191,191,191,191,191,191,191,191,191,191]
	pminub	%xmm2, %xmm1
	pcmpeqb	%xmm2, %xmm1
	pmovmskb	%xmm1, %eax
	movdqa	%xmm0, %xmm1
	punpckhbw	%xmm4, %xmm1            # xmm1 = xmm1[8],xmm4[8],xmm1[9],xmm4[9],xmm1[10],xmm4[10],xmm1[11],xmm4[11],xmm1[12],xmm4[12],xmm1[13],xmm4[13],xmm1[14],xmm4[14],xmm1[15],xmm4[15]
	punpcklbw	%xmm4, %xmm0            # xmm0 = xmm0[0],xmm4[0],xmm0[1],xmm4[1],xmm0[2],xmm4[2],xmm0[3],xmm4[3],xmm0[4],xmm4[4],xmm0[5],xmm4[5],xmm0[6],xmm4[6],xmm0[7],xmm4[7]
	movzbl	%al, %ecx
	xorl	%edx, %edx
	popcntl	%ecx, %edx
	shll	$4, %ecx
	leaq	.Lstatic.17(%rip), %rsi
	movdqu	(%rcx,%rsi), %xmm2
	pshufb	%xmm2, %xmm0
	shrl	$8, %eax
	xorl	%ecx, %ecx
	popcntl	%eax, %ecx
	shll	$4, %eax
	movdqu	(%rax,%rsi), %xmm2
	pshufb	%xmm2, %xmm1
	leaq	(%r12,%r14), %rax
	movdqu	%xmm0, (%r12,%r14)
	movdqu	%xmm1, (%rax,%rdx,2)
	addl	%edx, %ecx
	leaq	(%r14,%rcx,2), %r14
	leaq	-80(%rbx), %rax
	movl	$16, %r13d
	cmpq	$-65, %rax
	ja	.LBB37_10
# %bb.4:                                # %join.5.i730.lr.ph
	movq	88(%rsp), %rax                  # 8-byte Reload
	leaq	13(%rax), %r15
	movq	$-16, %r13
	movq	%r12, 48(%rsp)                  # 8-byte Spill
	movq	%rbx, 96(%rsp)                  # 8-byte Spill
	.p2align	4
.LBB37_5:                               # %join.5.i730
                                        # =>This Inner Loop Header: Depth=1
	cmpb	$0, 3(%r15)
	js	.LBB37_6
# %bb.13:                               # %join.3.i.i
                                        #   in Loop: Header=BB37_5 Depth=1
	movdqu	3(%r15), %xmm3
	movdqu	19(%r15), %xmm0
	movdqu	35(%r15), %xmm1
	movdqu	51(%r15), %xmm2
	por	%xmm0, %xmm2
	por	%xmm3, %xmm1
	por	%xmm2, %xmm1
	pmovmskb	%xmm1, %eax
	testl	%eax, %eax
	jne	.LBB37_7
# %bb.14:                               # %then.4.i.i
                                        #   in Loop: Header=BB37_5 Depth=1
	cmpb	$-65, 2(%r15)
	ja	.LBB37_7
# %bb.15:                               # %join.3.i.i.i
                                        #   in Loop: Header=BB37_5 Depth=1
	cmpb	$-33, 1(%r15)
	ja	.LBB37_7
# %bb.16:                               # %"recoding::utf8_to_utf16::is_plain.exit.i"
                                        #   in Loop: Header=BB37_5 Depth=1
	cmpb	$-17, (%r15)
	ja	.LBB37_7
# %bb.17:                               # %then.1.i
                                        #   in Loop: Header=BB37_5 Depth=1
	movdqu	3(%r15), %xmm0
	movdqu	19(%r15), %xmm1
	movdqu	35(%r15), %xmm2
	movdqu	51(%r15), %xmm3
	pxor	%xmm4, %xmm4
	pxor	%xmm5, %xmm5
	punpckhbw	%xmm0, %xmm5            # xmm5 = xmm5[8],xmm0[8],xmm5[9],xmm0[9],xmm5[10],xmm0[10],xmm5[11],xmm0[11],xmm5[12],xmm0[12],xmm5[13],xmm0[13],xmm5[14],xmm0[14],xmm5[15],xmm0[15]
	pxor	%xmm6, %xmm6
	punpcklbw	%xmm0, %xmm6            # xmm6 = xmm6[0],xmm0[0],xmm6[1],xmm0[1],xmm6[2],xmm0[2],xmm6[3],xmm0[3],xmm6[4],xmm0[4],xmm6[5],xmm0[5],xmm6[6],xmm0[6],xmm6[7],xmm0[7]
	pxor	%xmm0, %xmm0
	punpckhbw	%xmm1, %xmm0            # xmm0 = xmm0[8],xmm1[8],xmm0[9],xmm1[9],xmm0[10],xmm1[10],xmm0[11],xmm1[11],xmm0[12],xmm1[12],xmm0[13],xmm1[13],xmm0[14],xmm1[14],xmm0[15],xmm1[15]
	pxor	%xmm7, %xmm7
	punpcklbw	%xmm1, %xmm7            # xmm7 = xmm7[0],xmm1[0],xmm7[1],xmm1[1],xmm7[2],xmm1[2],xmm7[3],xmm1[3],xmm7[4],xmm1[4],xmm7[5],xmm1[5],xmm7[6],xmm1[6],xmm7[7],xmm1[7]
	movdqu	%xmm7, 32(%r12,%r14)
	movdqu	%xmm0, 48(%r12,%r14)
	movdqu	%xmm6, (%r12,%r14)
	movdqu	%xmm5, 16(%r12,%r14)
	pxor	%xmm0, %xmm0
	punpckhbw	%xmm2, %xmm0            # xmm0 = xmm0[8],xmm2[8],xmm0[9],xmm2[9],xmm0[10],xmm2[10],xmm0[11],xmm2[11],xmm0[12],xmm2[12],xmm0[13],xmm2[13],xmm0[14],xmm2[14],xmm0[15],xmm2[15]
	pxor	%xmm1, %xmm1
	punpcklbw	%xmm2, %xmm1            # xmm1 = xmm1[0],xmm2[0],xmm1[1],xmm2[1],xmm1[2],xmm2[2],xmm1[3],xmm2[3],xmm1[4],xmm2[4],xmm1[5],xmm2[5],xmm1[6],xmm2[6],xmm1[7],xmm2[7]
	pxor	%xmm2, %xmm2
	punpckhbw	%xmm3, %xmm2            # xmm2 = xmm2[8],xmm3[8],xmm2[9],xmm3[9],xmm2[10],xmm3[10],xmm2[11],xmm3[11],xmm2[12],xmm3[12],xmm2[13],xmm3[13],xmm2[14],xmm3[14],xmm2[15],xmm3[15]
	punpcklbw	%xmm3, %xmm4            # xmm4 = xmm4[0],xmm3[0],xmm4[1],xmm3[1],xmm4[2],xmm3[2],xmm4[3],xmm3[3],xmm4[4],xmm3[4],xmm4[5],xmm3[5],xmm4[6],xmm3[6],xmm4[7],xmm3[7]
	movdqu	%xmm4, 96(%r12,%r14)
	movdqu	%xmm2, 112(%r12,%r14)
	movdqu	%xmm1, 64(%r12,%r14)
	movdqu	%xmm0, 80(%r12,%r14)
	subq	$-128, %r14
	jmp	.LBB37_29
	.p2align	4
.LBB37_6:                               # %join.5.i730.join.3.i_crit_edge
                                        #   in Loop: Header=BB37_5 Depth=1
	movdqu	3(%r15), %xmm3
.LBB37_7:                               # %join.3.i
                                        #   in Loop: Header=BB37_5 Depth=1
	movdqu	(%r15), %xmm0
	movdqu	1(%r15), %xmm1
	movdqu	2(%r15), %xmm2
	movdqa	%xmm1, %xmm5
	pmaxub	%xmm0, %xmm5
	movdqa	.LCPI37_0(%rip), %xmm4          # xmm4 = [240,240,240,240,240,240,240,240,240,240,240,240,240,240,240,240]
	pmaxub	%xmm5, %xmm4
	pcmpeqb	%xmm5, %xmm4
	pmovmskb	%xmm4, %eax
	testl	%eax, %eax
	je	.LBB37_8
# %bb.18:                               # %else.2.i.i.i.i
                                        #   in Loop: Header=BB37_5 Depth=1
	leaq	16(%rsp), %rdi
	movdqa	%xmm3, (%rsp)                   # 16-byte Spill
	movdqa	%xmm2, 64(%rsp)                 # 16-byte Spill
	callq	"utf_lanes::text_units::long_halves"
	movdqa	64(%rsp), %xmm2                 # 16-byte Reload
	movdqa	(%rsp), %xmm3                   # 16-byte Reload
	movdqa	16(%rsp), %xmm5
	movdqa	32(%rsp), %xmm0
	jmp	.LBB37_19
	.p2align	4
.LBB37_8:                               # %then.1.i.i.i.i
                                        #   in Loop: Header=BB37_5 Depth=1
	pxor	%xmm0, %xmm0
	pcmpgtb	%xmm3, %xmm0
	pand	%xmm2, %xmm0
	movdqa	.LCPI37_1(%rip), %xmm4          # xmm4 = [127,127,127,127,127,127,127,127,127,127,127,127,127,127,127,127]
	pand	%xmm3, %xmm4
	movdqa	%xmm0, %xmm5
	psllw	$6, %xmm5
	pand	.LCPI37_2(%rip), %xmm5
	psubusb	.LCPI37_3(%rip), %xmm1
	paddb	%xmm4, %xmm5
	psllw	$4, %xmm1
	pand	.LCPI37_0(%rip), %xmm1
	psrlw	$2, %xmm0
	pand	.LCPI37_4(%rip), %xmm0
	por	%xmm1, %xmm0
.LBB37_19:                              # %"utf_lanes::text_units::block_units::<#22d4087b0bf99cde>.exit.i"
                                        #   in Loop: Header=BB37_5 Depth=1
	psubusb	.LCPI37_5(%rip), %xmm2
	pmaxub	%xmm3, %xmm2
	movdqa	.LCPI37_6(%rip), %xmm1          # xmm1 = [191,191,191,191,191,191,191,191,191,191,191,191,191,191,191,191]
	pminub	%xmm2, %xmm1
	pcmpeqb	%xmm2, %xmm1
	pmovmskb	%xmm1, %ebx
	movdqa	%xmm0, %xmm1
	punpckhbw	%xmm5, %xmm1            # xmm1 = xmm1[8],xmm5[8],xmm1[9],xmm5[9],xmm1[10],xmm5[10],xmm1[11],xmm5[11],xmm1[12],xmm5[12],xmm1[13],xmm5[13],xmm1[14],xmm5[14],xmm1[15],xmm5[15]
	punpcklbw	%xmm5, %xmm0            # xmm0 = xmm0[0],xmm5[0],xmm0[1],xmm5[1],xmm0[2],xmm5[2],xmm0[3],xmm5[3],xmm0[4],xmm5[4],xmm0[5],xmm5[5],xmm0[6],xmm5[6],xmm0[7],xmm5[7]
	movzbl	%bl, %eax
	popcntl	%eax, %ebp
	shll	$4, %eax
	leaq	.Lstatic.17(%rip), %rcx
	movdqu	(%rax,%rcx), %xmm2
	pshufb	%xmm2, %xmm0
	shrl	$8, %ebx
	movl	%ebx, %eax
	shll	$4, %eax
	movdqu	(%rax,%rcx), %xmm2
	pshufb	%xmm2, %xmm1
	leaq	(%r12,%r14), %rax
	movdqu	%xmm0, (%r12,%r14)
	movdqu	%xmm1, (%rax,%rbp,2)
	movdqu	16(%r15), %xmm0
	movdqu	17(%r15), %xmm1
	movdqu	18(%r15), %xmm2
	movdqu	19(%r15), %xmm3
	movdqa	%xmm1, %xmm4
	pmaxub	%xmm0, %xmm4
	movdqa	.LCPI37_0(%rip), %xmm5          # xmm5 = [240,240,240,240,240,240,240,240,240,240,240,240,240,240,240,240]
	pmaxub	%xmm4, %xmm5
	pcmpeqb	%xmm4, %xmm5
	pmovmskb	%xmm5, %eax
	testl	%eax, %eax
	je	.LBB37_20
# %bb.21:                               # %else.2.i.i.i381.i
                                        #   in Loop: Header=BB37_5 Depth=1
	leaq	16(%rsp), %rdi
	movdqa	%xmm2, (%rsp)                   # 16-byte Spill
	movdqa	%xmm3, 64(%rsp)                 # 16-byte Spill
	callq	"utf_lanes::text_units::long_halves"
	movdqa	64(%rsp), %xmm3                 # 16-byte Reload
	movdqa	(%rsp), %xmm2                   # 16-byte Reload
	movdqa	16(%rsp), %xmm4
	movdqa	32(%rsp), %xmm0
	jmp	.LBB37_22
	.p2align	4
.LBB37_20:                              # %then.1.i.i.i574.i
                                        #   in Loop: Header=BB37_5 Depth=1
	pxor	%xmm0, %xmm0
	pcmpgtb	%xmm3, %xmm0
	pand	%xmm2, %xmm0
	movdqa	.LCPI37_1(%rip), %xmm5          # xmm5 = [127,127,127,127,127,127,127,127,127,127,127,127,127,127,127,127]
	pand	%xmm3, %xmm5
	movdqa	%xmm0, %xmm4
	psllw	$6, %xmm4
	pand	.LCPI37_2(%rip), %xmm4
	psubusb	.LCPI37_3(%rip), %xmm1
	paddb	%xmm5, %xmm4
	psllw	$4, %xmm1
	pand	.LCPI37_0(%rip), %xmm1
	psrlw	$2, %xmm0
	pand	.LCPI37_4(%rip), %xmm0
	por	%xmm1, %xmm0
.LBB37_22:                              # %"utf_lanes::text_units::block_units::<#22d4087b0bf99cde>.exit589.i"
                                        #   in Loop: Header=BB37_5 Depth=1
	xorl	%eax, %eax
	popcntl	%ebx, %eax
	addq	%rax, %rbp
	leal	(,%rbp,2), %eax
	psubusb	.LCPI37_5(%rip), %xmm2
	pmaxub	%xmm3, %xmm2
	movdqa	.LCPI37_6(%rip), %xmm1          # xmm1 = [191,191,191,191,191,191,191,191,191,191,191,191,191,191,191,191]
	pminub	%xmm2, %xmm1
	pcmpeqb	%xmm2, %xmm1
	pmovmskb	%xmm1, %ebx
	movdqa	%xmm0, %xmm1
	punpckhbw	%xmm4, %xmm1            # xmm1 = xmm1[8],xmm4[8],xmm1[9],xmm4[9],xmm1[10],xmm4[10],xmm1[11],xmm4[11],xmm1[12],xmm4[12],xmm1[13],xmm4[13],xmm1[14],xmm4[14],xmm1[15],xmm4[15]
	punpcklbw	%xmm4, %xmm0            # xmm0 = xmm0[0],xmm4[0],xmm0[1],xmm4[1],xmm0[2],xmm4[2],xmm0[3],xmm4[3],xmm0[4],xmm4[4],xmm0[5],xmm4[5],xmm0[6],xmm4[6],xmm0[7],xmm4[7]
	movzbl	%bl, %ecx
	popcntl	%ecx, %r12d
	shll	$4, %ecx
	leaq	.Lstatic.17(%rip), %rdx
	movdqu	(%rcx,%rdx), %xmm2
	pshufb	%xmm2, %xmm0
	shrl	$8, %ebx
	movl	%ebx, %ecx
	shll	$4, %ecx
	movdqu	(%rcx,%rdx), %xmm2
	pshufb	%xmm2, %xmm1
	movq	48(%rsp), %rcx                  # 8-byte Reload
	addq	%rcx, %rax
	movdqu	%xmm0, (%r14,%rax)
	addq	%rbp, %r12
	leaq	(%rcx,%r12,2), %rax
	movdqu	%xmm1, (%r14,%rax)
	movdqu	32(%r15), %xmm0
	movdqu	33(%r15), %xmm1
	movdqu	34(%r15), %xmm2
	movdqu	35(%r15), %xmm3
	movdqa	%xmm1, %xmm4
	pmaxub	%xmm0, %xmm4
	movdqa	.LCPI37_0(%rip), %xmm5          # xmm5 = [240,240,240,240,240,240,240,240,240,240,240,240,240,240,240,240]
	pmaxub	%xmm4, %xmm5
	pcmpeqb	%xmm4, %xmm5
	pmovmskb	%xmm5, %eax
	testl	%eax, %eax
	je	.LBB37_23
# %bb.24:                               # %else.2.i.i.i642.i
                                        #   in Loop: Header=BB37_5 Depth=1
	leaq	16(%rsp), %rdi
	movdqa	%xmm2, (%rsp)                   # 16-byte Spill
	movdqa	%xmm3, 64(%rsp)                 # 16-byte Spill
	callq	"utf_lanes::text_units::long_halves"
	movdqa	64(%rsp), %xmm3                 # 16-byte Reload
	movdqa	(%rsp), %xmm2                   # 16-byte Reload
	movdqa	16(%rsp), %xmm4
	movdqa	32(%rsp), %xmm0
	jmp	.LBB37_25
	.p2align	4
.LBB37_23:                              # %then.1.i.i.i835.i
                                        #   in Loop: Header=BB37_5 Depth=1
	pxor	%xmm0, %xmm0
	pcmpgtb	%xmm3, %xmm0
	pand	%xmm2, %xmm0
	movdqa	.LCPI37_1(%rip), %xmm5          # xmm5 = [127,127,127,127,127,127,127,127,127,127,127,127,127,127,127,127]
	pand	%xmm3, %xmm5
	movdqa	%xmm0, %xmm4
	psllw	$6, %xmm4
	pand	.LCPI37_2(%rip), %xmm4
	psubusb	.LCPI37_3(%rip), %xmm1
	paddb	%xmm5, %xmm4
	psllw	$4, %xmm1
	pand	.LCPI37_0(%rip), %xmm1
	psrlw	$2, %xmm0
	pand	.LCPI37_4(%rip), %xmm0
	por	%xmm1, %xmm0
.LBB37_25:                              # %"utf_lanes::text_units::block_units::<#22d4087b0bf99cde>.exit850.i"
                                        #   in Loop: Header=BB37_5 Depth=1
	xorl	%eax, %eax
	popcntl	%ebx, %eax
	addq	%rax, %r12
	leal	(%r12,%r12), %eax
	psubusb	.LCPI37_5(%rip), %xmm2
	pmaxub	%xmm3, %xmm2
	movdqa	.LCPI37_6(%rip), %xmm1          # xmm1 = [191,191,191,191,191,191,191,191,191,191,191,191,191,191,191,191]
	pminub	%xmm2, %xmm1
	pcmpeqb	%xmm2, %xmm1
	pmovmskb	%xmm1, %ebx
	movdqa	%xmm0, %xmm1
	punpckhbw	%xmm4, %xmm1            # xmm1 = xmm1[8],xmm4[8],xmm1[9],xmm4[9],xmm1[10],xmm4[10],xmm1[11],xmm4[11],xmm1[12],xmm4[12],xmm1[13],xmm4[13],xmm1[14],xmm4[14],xmm1[15],xmm4[15]
	punpcklbw	%xmm4, %xmm0            # xmm0 = xmm0[0],xmm4[0],xmm0[1],xmm4[1],xmm0[2],xmm4[2],xmm0[3],xmm4[3],xmm0[4],xmm4[4],xmm0[5],xmm4[5],xmm0[6],xmm4[6],xmm0[7],xmm4[7]
	movzbl	%bl, %ecx
	xorl	%ebp, %ebp
	popcntl	%ecx, %ebp
	shll	$4, %ecx
	leaq	.Lstatic.17(%rip), %rdx
	movdqu	(%rcx,%rdx), %xmm2
	pshufb	%xmm2, %xmm0
	shrl	$8, %ebx
	movl	%ebx, %ecx
	shll	$4, %ecx
	movdqu	(%rcx,%rdx), %xmm2
	pshufb	%xmm2, %xmm1
	movq	48(%rsp), %rcx                  # 8-byte Reload
	addq	%rcx, %rax
	movdqu	%xmm0, (%r14,%rax)
	addq	%r12, %rbp
	movq	%rcx, %r12
	leaq	(%rcx,%rbp,2), %rax
	movdqu	%xmm1, (%r14,%rax)
	movdqu	48(%r15), %xmm0
	movdqu	49(%r15), %xmm1
	movdqu	50(%r15), %xmm2
	movdqu	51(%r15), %xmm3
	movdqa	%xmm1, %xmm4
	pmaxub	%xmm0, %xmm4
	movdqa	.LCPI37_0(%rip), %xmm5          # xmm5 = [240,240,240,240,240,240,240,240,240,240,240,240,240,240,240,240]
	pmaxub	%xmm4, %xmm5
	pcmpeqb	%xmm4, %xmm5
	pmovmskb	%xmm5, %eax
	testl	%eax, %eax
	je	.LBB37_26
# %bb.27:                               # %else.2.i.i.i903.i
                                        #   in Loop: Header=BB37_5 Depth=1
	leaq	16(%rsp), %rdi
	movdqa	%xmm2, (%rsp)                   # 16-byte Spill
	movdqa	%xmm3, 64(%rsp)                 # 16-byte Spill
	callq	"utf_lanes::text_units::long_halves"
	movdqa	64(%rsp), %xmm3                 # 16-byte Reload
	movdqa	(%rsp), %xmm2                   # 16-byte Reload
	movdqa	16(%rsp), %xmm4
	movdqa	32(%rsp), %xmm0
	jmp	.LBB37_28
	.p2align	4
.LBB37_26:                              # %then.1.i.i.i1096.i
                                        #   in Loop: Header=BB37_5 Depth=1
	pxor	%xmm0, %xmm0
	pcmpgtb	%xmm3, %xmm0
	pand	%xmm2, %xmm0
	movdqa	.LCPI37_1(%rip), %xmm5          # xmm5 = [127,127,127,127,127,127,127,127,127,127,127,127,127,127,127,127]
	pand	%xmm3, %xmm5
	movdqa	%xmm0, %xmm4
	psllw	$6, %xmm4
	pand	.LCPI37_2(%rip), %xmm4
	psubusb	.LCPI37_3(%rip), %xmm1
	paddb	%xmm5, %xmm4
	psllw	$4, %xmm1
	pand	.LCPI37_0(%rip), %xmm1
	psrlw	$2, %xmm0
	pand	.LCPI37_4(%rip), %xmm0
	por	%xmm1, %xmm0
.LBB37_28:                              # %"utf_lanes::text_puts::write_64::<#22d4087b0bf99cde>.exit"
                                        #   in Loop: Header=BB37_5 Depth=1
	xorl	%eax, %eax
	popcntl	%ebx, %eax
	addq	%rax, %rbp
	leal	(,%rbp,2), %eax
	psubusb	.LCPI37_5(%rip), %xmm2
	pmaxub	%xmm3, %xmm2
	movdqa	.LCPI37_6(%rip), %xmm1          # xmm1 = [191,191,191,191,191,191,191,191,191,191,191,191,191,191,191,191]
	pminub	%xmm2, %xmm1
	pcmpeqb	%xmm2, %xmm1
	pmovmskb	%xmm1, %ecx
	movdqa	%xmm0, %xmm1
	punpckhbw	%xmm4, %xmm1            # xmm1 = xmm1[8],xmm4[8],xmm1[9],xmm4[9],xmm1[10],xmm4[10],xmm1[11],xmm4[11],xmm1[12],xmm4[12],xmm1[13],xmm4[13],xmm1[14],xmm4[14],xmm1[15],xmm4[15]
	punpcklbw	%xmm4, %xmm0            # xmm0 = xmm0[0],xmm4[0],xmm0[1],xmm4[1],xmm0[2],xmm4[2],xmm0[3],xmm4[3],xmm0[4],xmm4[4],xmm0[5],xmm4[5],xmm0[6],xmm4[6],xmm0[7],xmm4[7]
	movzbl	%cl, %edx
	popcntl	%edx, %esi
	shll	$4, %edx
	leaq	.Lstatic.17(%rip), %rdi
	movdqu	(%rdx,%rdi), %xmm2
	pshufb	%xmm2, %xmm0
	shrl	$8, %ecx
	xorl	%edx, %edx
	popcntl	%ecx, %edx
	shll	$4, %ecx
	movdqu	(%rcx,%rdi), %xmm2
	pshufb	%xmm2, %xmm1
	addq	%r12, %rax
	movdqu	%xmm0, (%r14,%rax)
	addl	%ebp, %esi
	leaq	(%r12,%rsi,2), %rax
	movdqu	%xmm1, (%r14,%rax)
	addl	%edx, %esi
	leaq	(%r14,%rsi,2), %r14
	movq	96(%rsp), %rbx                  # 8-byte Reload
.LBB37_29:                              # %"recoding::utf8_to_utf16::write_some::<#22d4087b0bf99cde>.exit"
                                        #   in Loop: Header=BB37_5 Depth=1
	leaq	(%rbx,%r13), %rax
	addq	$-64, %rax
	addq	$-64, %r13
	addq	$64, %r15
	cmpq	$63, %rax
	ja	.LBB37_5
# %bb.9:                                # %loop.2.i.preheader.loopexit
	negq	%r13
.LBB37_10:                              # %loop.2.i.preheader
	movq	%rbx, %r15
	subq	%r13, %r15
	cmpq	$16, %r15
	jae	.LBB37_11
.LBB37_32:                              # %after.1.i
	cmpq	%rbx, %r13
	jae	.LBB37_37
# %bb.33:                               # %then.6.i
	leaq	-16(%rbx), %rax
	subq	%rax, %r13
	movq	88(%rsp), %rax                  # 8-byte Reload
	movdqu	-19(%rax,%rbx), %xmm0
	movdqu	-18(%rax,%rbx), %xmm1
	movdqu	-17(%rax,%rbx), %xmm2
	movdqu	-16(%rax,%rbx), %xmm3
	movdqa	%xmm1, %xmm4
	pmaxub	%xmm0, %xmm4
	movdqa	.LCPI37_0(%rip), %xmm5          # xmm5 = [240,240,240,240,240,240,240,240,240,240,240,240,240,240,240,240]
	pmaxub	%xmm4, %xmm5
	pcmpeqb	%xmm4, %xmm5
	pmovmskb	%xmm5, %eax
	testl	%eax, %eax
	je	.LBB37_34
# %bb.35:                               # %else.2.i.i.i258
	leaq	16(%rsp), %rdi
	movdqa	%xmm2, 48(%rsp)                 # 16-byte Spill
	movdqa	%xmm3, (%rsp)                   # 16-byte Spill
	callq	"utf_lanes::text_units::long_halves"
	movdqa	(%rsp), %xmm3                   # 16-byte Reload
	movdqa	48(%rsp), %xmm2                 # 16-byte Reload
	movdqa	16(%rsp), %xmm4
	movdqa	32(%rsp), %xmm0
	jmp	.LBB37_36
	.p2align	4
.LBB37_30:                              # %else.2.i.i.i515
                                        #   in Loop: Header=BB37_11 Depth=1
	leaq	16(%rsp), %rdi
	movdqa	%xmm2, 48(%rsp)                 # 16-byte Spill
	movdqa	%xmm3, (%rsp)                   # 16-byte Spill
	callq	"utf_lanes::text_units::long_halves"
	movdqa	(%rsp), %xmm3                   # 16-byte Reload
	movdqa	48(%rsp), %xmm2                 # 16-byte Reload
	movdqa	16(%rsp), %xmm4
	movdqa	32(%rsp), %xmm0
.LBB37_31:                              # %"utf_lanes::text_units::block_units::<#22d4087b0bf99cde>.exit724"
                                        #   in Loop: Header=BB37_11 Depth=1
	psubusb	.LCPI37_5(%rip), %xmm2
	pmaxub	%xmm3, %xmm2
	movdqa	.LCPI37_6(%rip), %xmm1          # xmm1 = [191,191,191,191,191,191,191,191,191,191,191,191,191,191,191,191]
	pminub	%xmm2, %xmm1
	pcmpeqb	%xmm2, %xmm1
	pmovmskb	%xmm1, %eax
	movdqa	%xmm0, %xmm1
	punpckhbw	%xmm4, %xmm1            # xmm1 = xmm1[8],xmm4[8],xmm1[9],xmm4[9],xmm1[10],xmm4[10],xmm1[11],xmm4[11],xmm1[12],xmm4[12],xmm1[13],xmm4[13],xmm1[14],xmm4[14],xmm1[15],xmm4[15]
	punpcklbw	%xmm4, %xmm0            # xmm0 = xmm0[0],xmm4[0],xmm0[1],xmm4[1],xmm0[2],xmm4[2],xmm0[3],xmm4[3],xmm0[4],xmm4[4],xmm0[5],xmm4[5],xmm0[6],xmm4[6],xmm0[7],xmm4[7]
	movzbl	%al, %ecx
	xorl	%edx, %edx
	popcntl	%ecx, %edx
	shll	$4, %ecx
	leaq	.Lstatic.17(%rip), %rsi
	movdqu	(%rcx,%rsi), %xmm2
	pshufb	%xmm2, %xmm0
	shrl	$8, %eax
	xorl	%ecx, %ecx
	popcntl	%eax, %ecx
	shll	$4, %eax
	movdqu	(%rax,%rsi), %xmm2
	pshufb	%xmm2, %xmm1
	leaq	(%r12,%r14), %rax
	movdqu	%xmm0, (%r12,%r14)
	movdqu	%xmm1, (%rax,%rdx,2)
	addl	%edx, %ecx
	leaq	(%r14,%rcx,2), %r14
	addq	$16, %r13
	addq	$-16, %r15
	cmpq	$15, %r15
	jbe	.LBB37_32
.LBB37_11:                              # %join.5.i
                                        # =>This Inner Loop Header: Depth=1
	movq	88(%rsp), %rax                  # 8-byte Reload
	movdqu	-3(%rax,%r13), %xmm0
	movdqu	-2(%rax,%r13), %xmm1
	movdqu	-1(%rax,%r13), %xmm2
	movdqu	(%rax,%r13), %xmm3
	movdqa	%xmm1, %xmm4
	pmaxub	%xmm0, %xmm4
	movdqa	.LCPI37_0(%rip), %xmm5          # xmm5 = [240,240,240,240,240,240,240,240,240,240,240,240,240,240,240,240]
	pmaxub	%xmm4, %xmm5
	pcmpeqb	%xmm4, %xmm5
	pmovmskb	%xmm5, %eax
	testl	%eax, %eax
	jne	.LBB37_30
# %bb.12:                               # %then.1.i.i.i709
                                        #   in Loop: Header=BB37_11 Depth=1
	pxor	%xmm0, %xmm0
	pcmpgtb	%xmm3, %xmm0
	pand	%xmm2, %xmm0
	movdqa	.LCPI37_1(%rip), %xmm5          # xmm5 = [127,127,127,127,127,127,127,127,127,127,127,127,127,127,127,127]
	pand	%xmm3, %xmm5
	movdqa	%xmm0, %xmm4
	psllw	$6, %xmm4
	pand	.LCPI37_2(%rip), %xmm4
	psubusb	.LCPI37_3(%rip), %xmm1
	paddb	%xmm5, %xmm4
	psllw	$4, %xmm1
	pand	.LCPI37_0(%rip), %xmm1
	psrlw	$2, %xmm0
	pand	.LCPI37_4(%rip), %xmm0
	por	%xmm1, %xmm0
	jmp	.LBB37_31
.LBB37_34:                              # %then.1.i.i.i448
	pxor	%xmm0, %xmm0
	pcmpgtb	%xmm3, %xmm0
	pand	%xmm2, %xmm0
	movdqa	.LCPI37_1(%rip), %xmm5          # xmm5 = [127,127,127,127,127,127,127,127,127,127,127,127,127,127,127,127]
	pand	%xmm3, %xmm5
	movdqa	%xmm0, %xmm4
	psllw	$6, %xmm4
	pand	.LCPI37_2(%rip), %xmm4
	psubusb	.LCPI37_3(%rip), %xmm1
	paddb	%xmm5, %xmm4
	psllw	$4, %xmm1
	pand	.LCPI37_0(%rip), %xmm1
	psrlw	$2, %xmm0
	pand	.LCPI37_4(%rip), %xmm0
	por	%xmm1, %xmm0
.LBB37_36:                              # %"utf_lanes::text_units::block_units::<#22d4087b0bf99cde>.exit"
	psubusb	.LCPI37_5(%rip), %xmm2
	pmaxub	%xmm3, %xmm2
	movdqa	.LCPI37_6(%rip), %xmm1          # xmm1 = [191,191,191,191,191,191,191,191,191,191,191,191,191,191,191,191]
	pminub	%xmm2, %xmm1
	pcmpeqb	%xmm2, %xmm1
	movq	$-1, %rax
	movl	%r13d, %ecx
	shlq	%cl, %rax
	pmovmskb	%xmm1, %ecx
	andl	%ecx, %eax
	movdqa	%xmm0, %xmm1
	punpckhbw	%xmm4, %xmm1            # xmm1 = xmm1[8],xmm4[8],xmm1[9],xmm4[9],xmm1[10],xmm4[10],xmm1[11],xmm4[11],xmm1[12],xmm4[12],xmm1[13],xmm4[13],xmm1[14],xmm4[14],xmm1[15],xmm4[15]
	punpcklbw	%xmm4, %xmm0            # xmm0 = xmm0[0],xmm4[0],xmm0[1],xmm4[1],xmm0[2],xmm4[2],xmm0[3],xmm4[3],xmm0[4],xmm4[4],xmm0[5],xmm4[5],xmm0[6],xmm4[6],xmm0[7],xmm4[7]
	movzbl	%al, %ecx
	xorl	%edx, %edx
	popcntl	%ecx, %edx
	shll	$4, %ecx
	leaq	.Lstatic.17(%rip), %rsi
	movdqu	(%rcx,%rsi), %xmm2
	pshufb	%xmm2, %xmm0
	shrl	$8, %eax
	xorl	%ecx, %ecx
	popcntl	%eax, %ecx
	shll	$4, %eax
	movdqu	(%rax,%rsi), %xmm2
	pshufb	%xmm2, %xmm1
	movdqu	%xmm0, (%r12,%r14)
	addq	%r14, %r12
	movdqu	%xmm1, (%r12,%rdx,2)
	addl	%edx, %ecx
	leaq	(%r14,%rcx,2), %r14
.LBB37_37:                              # %"utf_lanes::text_puts::write_rest::<#22d4087b0bf99cde>.exit"
	movq	%r14, %rax
	addq	$104, %rsp
	.cfi_def_cfa_offset 56
	popq	%rbx
	.cfi_def_cfa_offset 48
	popq	%r12
	.cfi_def_cfa_offset 40
	popq	%r13
	.cfi_def_cfa_offset 32
	popq	%r14
	.cfi_def_cfa_offset 24
	popq	%r15
	.cfi_def_cfa_offset 16
	popq	%rbp
	.cfi_def_cfa_offset 8
	retq
.Lfunc_end37:
	.size	"recoding::utf8_to_utf16::widen_text::<#22d4087b0bf99cde>", .Lfunc_end37-"recoding::utf8_to_utf16::widen_text::<#22d4087b0bf99cde>"
	.cfi_endproc
                                        # -- End function
	.section	.rodata.cst16,"aM",@progbits,16
	.p2align	4, 0x0                          # -- Begin function recoding::kernels::widen_damaged::<#14d81c390063096d>
.LCPI38_0:
	.zero	16,253
	.section	".text.recoding::kernels::widen_damaged::<#14d81c390063096d>","ax",@progbits
	.p2align	4
	.type	"recoding::kernels::widen_damaged::<#14d81c390063096d>",@function
"recoding::kernels::widen_damaged::<#14d81c390063096d>": # @"recoding::kernels::widen_damaged::<#14d81c390063096d>"
	.cfi_startproc
# %bb.0:                                # %start
	pushq	%rbp
	.cfi_def_cfa_offset 16
	pushq	%r15
	.cfi_def_cfa_offset 24
	pushq	%r14
	.cfi_def_cfa_offset 32
	pushq	%r13
	.cfi_def_cfa_offset 40
	pushq	%r12
	.cfi_def_cfa_offset 48
	pushq	%rbx
	.cfi_def_cfa_offset 56
	subq	$632, %rsp                      # imm = 0x278
	.cfi_def_cfa_offset 688
	.cfi_offset %rbx, -56
	.cfi_offset %r12, -48
	.cfi_offset %r13, -40
	.cfi_offset %r14, -32
	.cfi_offset %r15, -24
	.cfi_offset %rbp, -16
	movq	%rdx, %r14
	movq	%rsi, 8(%rsp)                   # 8-byte Spill
	movq	%rdi, (%rsp)                    # 8-byte Spill
	pxor	%xmm0, %xmm0
	movdqa	%xmm0, 80(%rsp)
	movq	$0, 96(%rsp)
	leaq	120(%rsp), %rdi
	xorl	%ebx, %ebx
	movl	$512, %edx                      # imm = 0x200
	xorl	%esi, %esi
	callq	memset@PLT
	xorl	%ebp, %ebp
	jmp	.LBB38_1
	.p2align	4
.LBB38_20:                              # %"recoding::kernels::put_next_text::<#fc185a580612e994>.exit"
                                        #   in Loop: Header=BB38_1 Depth=1
	movq	112(%rsp), %rbx                 # 8-byte Reload
	addq	%r15, %rbx
	movq	%rbp, %rax
	subq	%r13, %rax
	cmpq	$1024, %rax                     # imm = 0x400
	jae	.LBB38_21
.LBB38_1:                               # %loop.2
                                        # =>This Loop Header: Depth=1
                                        #     Child Loop BB38_11 Depth 2
	movq	(%rsp), %rax                    # 8-byte Reload
	leaq	(%rax,%rbp), %rsi
	movq	8(%rsp), %rdx                   # 8-byte Reload
	subq	%rbp, %rdx
	leaq	80(%rsp), %rdi
	leaq	120(%rsp), %rcx
	callq	"utf_lanes::mending::mend::<#0a9db3908d7f4f9c>"
	movq	80(%rsp), %r15
	testq	%r15, %r15
	je	.LBB38_21
# %bb.2:                                # %else.6
                                        #   in Loop: Header=BB38_1 Depth=1
	movq	88(%rsp), %rsi
	leaq	-1(%rsi), %rax
	cmpq	$31, %rax
	jb	.LBB38_21
# %bb.3:                                # %else.9
                                        #   in Loop: Header=BB38_1 Depth=1
	movq	16(%r14), %rax
	subq	8(%r14), %rax
	leaq	(%rsi,%rsi,2), %rcx
	cmpq	%rcx, %rax
	jb	.LBB38_21
# %bb.4:                                # %after.3
                                        #   in Loop: Header=BB38_1 Depth=1
	testq	%rsi, %rsi
	je	.LBB38_6
# %bb.5:                                # %then.1.i
                                        #   in Loop: Header=BB38_1 Depth=1
	leaq	120(%rsp), %rdi
	movq	%r14, %rdx
	callq	"recoding::list::append_units::<#db1eb2065a50937f>"
.LBB38_6:                               # %"recoding::kernels::put_mended::<#fc185a580612e994>.exit"
                                        #   in Loop: Header=BB38_1 Depth=1
	addq	96(%rsp), %rbx
	movq	%rbx, 112(%rsp)                 # 8-byte Spill
	addq	%rbp, %r15
	movq	8(%rsp), %rbp                   # 8-byte Reload
	subq	%r15, %rbp
	cmpq	$67, %rbp
	movq	%r15, 104(%rsp)                 # 8-byte Spill
	jb	.LBB38_7
# %bb.8:                                # %then.1.i.i
                                        #   in Loop: Header=BB38_1 Depth=1
	movq	(%rsp), %rax                    # 8-byte Reload
	leaq	(%rax,%r15), %rbx
	cmpb	$0, (%rbx)
	jns	.LBB38_10
# %bb.9:                                # %else.5.i.i
                                        #   in Loop: Header=BB38_1 Depth=1
	cmpb	$0, 1(%rbx)
	js	.LBB38_7
.LBB38_10:                              # %then.7.i.preheader
                                        #   in Loop: Header=BB38_1 Depth=1
	xorl	%r13d, %r13d
	xorl	%r15d, %r15d
	jmp	.LBB38_11
	.p2align	4
.LBB38_13:                              # %then.1.i27
                                        #   in Loop: Header=BB38_11 Depth=2
	pxor	%xmm3, %xmm3
	pxor	%xmm0, %xmm0
	punpcklbw	%xmm4, %xmm0            # xmm0 = xmm0[0],xmm4[0],xmm0[1],xmm4[1],xmm0[2],xmm4[2],xmm0[3],xmm4[3],xmm0[4],xmm4[4],xmm0[5],xmm4[5],xmm0[6],xmm4[6],xmm0[7],xmm4[7]
	movdqa	%xmm0, 64(%rsp)                 # 16-byte Spill
	pxor	%xmm0, %xmm0
	punpckhbw	%xmm4, %xmm0            # xmm0 = xmm0[8],xmm4[8],xmm0[9],xmm4[9],xmm0[10],xmm4[10],xmm0[11],xmm4[11],xmm0[12],xmm4[12],xmm0[13],xmm4[13],xmm0[14],xmm4[14],xmm0[15],xmm4[15]
	movdqa	%xmm0, 48(%rsp)                 # 16-byte Spill
	pxor	%xmm0, %xmm0
	punpcklbw	%xmm6, %xmm0            # xmm0 = xmm0[0],xmm6[0],xmm0[1],xmm6[1],xmm0[2],xmm6[2],xmm0[3],xmm6[3],xmm0[4],xmm6[4],xmm0[5],xmm6[5],xmm0[6],xmm6[6],xmm0[7],xmm6[7]
	movdqa	%xmm0, 32(%rsp)                 # 16-byte Spill
	pxor	%xmm0, %xmm0
	punpckhbw	%xmm6, %xmm0            # xmm0 = xmm0[8],xmm6[8],xmm0[9],xmm6[9],xmm0[10],xmm6[10],xmm0[11],xmm6[11],xmm0[12],xmm6[12],xmm0[13],xmm6[13],xmm0[14],xmm6[14],xmm0[15],xmm6[15]
	movdqa	%xmm0, 16(%rsp)                 # 16-byte Spill
	pxor	%xmm0, %xmm0
	punpcklbw	%xmm2, %xmm0            # xmm0 = xmm0[0],xmm2[0],xmm0[1],xmm2[1],xmm0[2],xmm2[2],xmm0[3],xmm2[3],xmm0[4],xmm2[4],xmm0[5],xmm2[5],xmm0[6],xmm2[6],xmm0[7],xmm2[7]
	pxor	%xmm1, %xmm1
	punpckhbw	%xmm2, %xmm1            # xmm1 = xmm1[8],xmm2[8],xmm1[9],xmm2[9],xmm1[10],xmm2[10],xmm1[11],xmm2[11],xmm1[12],xmm2[12],xmm1[13],xmm2[13],xmm1[14],xmm2[14],xmm1[15],xmm2[15]
	pxor	%xmm2, %xmm2
	punpcklbw	%xmm5, %xmm2            # xmm2 = xmm2[0],xmm5[0],xmm2[1],xmm5[1],xmm2[2],xmm5[2],xmm2[3],xmm5[3],xmm2[4],xmm5[4],xmm2[5],xmm5[5],xmm2[6],xmm5[6],xmm2[7],xmm5[7]
	punpckhbw	%xmm5, %xmm3            # xmm3 = xmm3[8],xmm5[8],xmm3[9],xmm5[9],xmm3[10],xmm5[10],xmm3[11],xmm5[11],xmm3[12],xmm5[12],xmm3[13],xmm5[13],xmm3[14],xmm5[14],xmm3[15],xmm5[15]
	movq	%r14, %rdi
	callq	"recoding::list::VecU8Output::put_wide::<#e3b2a9d4d2861db8>"
	movq	%r14, %rdi
	movdqa	64(%rsp), %xmm0                 # 16-byte Reload
	movdqa	48(%rsp), %xmm1                 # 16-byte Reload
	movdqa	32(%rsp), %xmm2                 # 16-byte Reload
	movaps	16(%rsp), %xmm3                 # 16-byte Reload
	callq	"recoding::list::VecU8Output::put_wide::<#e3b2a9d4d2861db8>"
	xorl	%r12d, %r12d
.LBB38_16:                              # %arm.14.i
                                        #   in Loop: Header=BB38_11 Depth=2
	addq	$64, %r13
	addq	%r12, %r15
	addq	$-64, %rbp
	cmpq	$66, %rbp
	jbe	.LBB38_17
.LBB38_11:                              # %then.7.i
                                        #   Parent Loop BB38_1 Depth=1
                                        # =>  This Inner Loop Header: Depth=2
	movq	16(%r14), %rax
	subq	8(%r14), %rax
	cmpq	$128, %rax
	jb	.LBB38_17
# %bb.12:                               # %join.9.i
                                        #   in Loop: Header=BB38_11 Depth=2
	movdqu	(%rbx,%r13), %xmm2
	movdqu	16(%rbx,%r13), %xmm5
	movdqu	32(%rbx,%r13), %xmm4
	movdqu	48(%rbx,%r13), %xmm6
	movdqa	%xmm4, %xmm0
	por	%xmm2, %xmm0
	movdqa	%xmm6, %xmm1
	por	%xmm5, %xmm1
	por	%xmm0, %xmm1
	pmovmskb	%xmm1, %eax
	testl	%eax, %eax
	je	.LBB38_13
# %bb.14:                               # %join.3.i
                                        #   in Loop: Header=BB38_11 Depth=2
	pmovmskb	%xmm2, %eax
	pmovmskb	%xmm5, %ecx
	shll	$16, %ecx
	orl	%eax, %ecx
	pmovmskb	%xmm4, %edx
	shlq	$32, %rdx
	orq	%rcx, %rdx
	pmovmskb	%xmm6, %eax
	shlq	$48, %rax
	orq	%rdx, %rax
	movq	%rax, %rcx
	shrq	%rcx
	movabsq	$-9223372036854775808, %rdx     # imm = 0x8000000000000000
	orq	%rcx, %rdx
	testq	%rax, %rdx
	jne	.LBB38_17
# %bb.15:                               # %arm.8.i
                                        #   in Loop: Header=BB38_11 Depth=2
	pxor	%xmm8, %xmm8
	pxor	%xmm1, %xmm1
	pcmpgtb	%xmm2, %xmm1
	pxor	%xmm3, %xmm3
	pcmpgtb	%xmm5, %xmm3
	pxor	%xmm9, %xmm9
	movdqa	.LCPI38_0(%rip), %xmm7          # xmm7 = [253,253,253,253,253,253,253,253,253,253,253,253,253,253,253,253]
	movdqa	%xmm5, %xmm0
	pblendvb	%xmm0, %xmm7, %xmm5
	pcmpgtb	%xmm4, %xmm9
	movdqa	%xmm2, %xmm0
	pblendvb	%xmm0, %xmm7, %xmm2
	pcmpgtb	%xmm6, %xmm8
	movdqa	%xmm6, %xmm0
	pblendvb	%xmm0, %xmm7, %xmm6
	xorl	%r12d, %r12d
	popcntq	%rax, %r12
	movdqa	%xmm4, %xmm0
	pblendvb	%xmm0, %xmm7, %xmm4
	movdqa	%xmm9, %xmm0
	punpcklbw	%xmm4, %xmm0            # xmm0 = xmm0[0],xmm4[0],xmm0[1],xmm4[1],xmm0[2],xmm4[2],xmm0[3],xmm4[3],xmm0[4],xmm4[4],xmm0[5],xmm4[5],xmm0[6],xmm4[6],xmm0[7],xmm4[7]
	movdqa	%xmm0, 64(%rsp)                 # 16-byte Spill
	punpckhbw	%xmm4, %xmm9            # xmm9 = xmm9[8],xmm4[8],xmm9[9],xmm4[9],xmm9[10],xmm4[10],xmm9[11],xmm4[11],xmm9[12],xmm4[12],xmm9[13],xmm4[13],xmm9[14],xmm4[14],xmm9[15],xmm4[15]
	movdqa	%xmm9, 48(%rsp)                 # 16-byte Spill
	movdqa	%xmm8, %xmm0
	punpcklbw	%xmm6, %xmm0            # xmm0 = xmm0[0],xmm6[0],xmm0[1],xmm6[1],xmm0[2],xmm6[2],xmm0[3],xmm6[3],xmm0[4],xmm6[4],xmm0[5],xmm6[5],xmm0[6],xmm6[6],xmm0[7],xmm6[7]
	movdqa	%xmm0, 32(%rsp)                 # 16-byte Spill
	punpckhbw	%xmm6, %xmm8            # xmm8 = xmm8[8],xmm6[8],xmm8[9],xmm6[9],xmm8[10],xmm6[10],xmm8[11],xmm6[11],xmm8[12],xmm6[12],xmm8[13],xmm6[13],xmm8[14],xmm6[14],xmm8[15],xmm6[15]
	movdqa	%xmm8, 16(%rsp)                 # 16-byte Spill
	movdqa	%xmm1, %xmm0
	punpcklbw	%xmm2, %xmm0            # xmm0 = xmm0[0],xmm2[0],xmm0[1],xmm2[1],xmm0[2],xmm2[2],xmm0[3],xmm2[3],xmm0[4],xmm2[4],xmm0[5],xmm2[5],xmm0[6],xmm2[6],xmm0[7],xmm2[7]
	punpckhbw	%xmm2, %xmm1            # xmm1 = xmm1[8],xmm2[8],xmm1[9],xmm2[9],xmm1[10],xmm2[10],xmm1[11],xmm2[11],xmm1[12],xmm2[12],xmm1[13],xmm2[13],xmm1[14],xmm2[14],xmm1[15],xmm2[15]
	movdqa	%xmm3, %xmm2
	punpcklbw	%xmm5, %xmm2            # xmm2 = xmm2[0],xmm5[0],xmm2[1],xmm5[1],xmm2[2],xmm5[2],xmm2[3],xmm5[3],xmm2[4],xmm5[4],xmm2[5],xmm5[5],xmm2[6],xmm5[6],xmm2[7],xmm5[7]
	punpckhbw	%xmm5, %xmm3            # xmm3 = xmm3[8],xmm5[8],xmm3[9],xmm5[9],xmm3[10],xmm5[10],xmm3[11],xmm5[11],xmm3[12],xmm5[12],xmm3[13],xmm5[13],xmm3[14],xmm5[14],xmm3[15],xmm5[15]
	movq	%r14, %rdi
	callq	"recoding::list::VecU8Output::put_wide::<#e3b2a9d4d2861db8>"
	movq	%r14, %rdi
	movdqa	64(%rsp), %xmm0                 # 16-byte Reload
	movdqa	48(%rsp), %xmm1                 # 16-byte Reload
	movdqa	32(%rsp), %xmm2                 # 16-byte Reload
	movaps	16(%rsp), %xmm3                 # 16-byte Reload
	callq	"recoding::list::VecU8Output::put_wide::<#e3b2a9d4d2861db8>"
	jmp	.LBB38_16
	.p2align	4
.LBB38_7:                               #   in Loop: Header=BB38_1 Depth=1
	xorl	%r15d, %r15d
	xorl	%r13d, %r13d
.LBB38_17:                              # %"recoding::kernels::put_plain::<#d2e6c14c333cca8a>.exit"
                                        #   in Loop: Header=BB38_1 Depth=1
	addq	104(%rsp), %r13                 # 8-byte Folded Reload
	movq	(%rsp), %rdi                    # 8-byte Reload
	movq	8(%rsp), %rsi                   # 8-byte Reload
	movq	%r13, %rdx
	callq	"recoding::kernels::next_text_end"
	movq	%rax, %rsi
	subq	%r13, %rsi
	movq	%r13, %rbp
	cmpq	$32, %rsi
	jb	.LBB38_20
# %bb.18:                               # %else.4.i
                                        #   in Loop: Header=BB38_1 Depth=1
	movq	%rax, %r12
	movq	16(%r14), %rax
	subq	8(%r14), %rax
	movabsq	$-6148914691236517205, %rcx     # imm = 0xAAAAAAAAAAAAAAAB
	mulq	%rcx
	shrq	%rdx
	movq	%r13, %rbp
	cmpq	%rsi, %rdx
	jb	.LBB38_20
# %bb.19:                               # %after.1.i
                                        #   in Loop: Header=BB38_1 Depth=1
	movq	(%rsp), %rax                    # 8-byte Reload
	leaq	(%rax,%r13), %rdi
	movq	%r14, %rdx
	callq	"recoding::list::append_units::<#db1eb2065a50937f>"
	movq	%r12, %rbp
	jmp	.LBB38_20
.LBB38_21:                              # %return.15
	movq	%rbp, %rax
	movq	%rbx, %rdx
	addq	$632, %rsp                      # imm = 0x278
	.cfi_def_cfa_offset 56
	popq	%rbx
	.cfi_def_cfa_offset 48
	popq	%r12
	.cfi_def_cfa_offset 40
	popq	%r13
	.cfi_def_cfa_offset 32
	popq	%r14
	.cfi_def_cfa_offset 24
	popq	%r15
	.cfi_def_cfa_offset 16
	popq	%rbp
	.cfi_def_cfa_offset 8
	retq
.Lfunc_end38:
	.size	"recoding::kernels::widen_damaged::<#14d81c390063096d>", .Lfunc_end38-"recoding::kernels::widen_damaged::<#14d81c390063096d>"
	.cfi_endproc
                                        # -- End function
	.section	.rodata.cst16,"aM",@progbits,16
	.p2align	4, 0x0                          # -- Begin function recoding::kernels::widen_plain::<#d2e6c14c333cca8a>
.LCPI39_0:
	.zero	16,253
	.section	".text.recoding::kernels::widen_plain::<#d2e6c14c333cca8a>","ax",@progbits
	.p2align	4
	.type	"recoding::kernels::widen_plain::<#d2e6c14c333cca8a>",@function
"recoding::kernels::widen_plain::<#d2e6c14c333cca8a>": # @"recoding::kernels::widen_plain::<#d2e6c14c333cca8a>"
	.cfi_startproc
# %bb.0:                                # %start
	pushq	%rbp
	.cfi_def_cfa_offset 16
	pushq	%r15
	.cfi_def_cfa_offset 24
	pushq	%r14
	.cfi_def_cfa_offset 32
	pushq	%r13
	.cfi_def_cfa_offset 40
	pushq	%r12
	.cfi_def_cfa_offset 48
	pushq	%rbx
	.cfi_def_cfa_offset 56
	subq	$72, %rsp
	.cfi_def_cfa_offset 128
	.cfi_offset %rbx, -56
	.cfi_offset %r12, -48
	.cfi_offset %r13, -40
	.cfi_offset %r14, -32
	.cfi_offset %r15, -24
	.cfi_offset %rbp, -16
	cmpq	$67, %rsi
	jb	.LBB39_1
# %bb.2:                                # %then.1.i.i
	movq	%rdx, %r15
	movq	%rsi, %r12
	movq	%rdi, %r13
	cmpb	$0, (%rdi)
	jns	.LBB39_4
# %bb.3:                                # %else.5.i.i
	cmpb	$0, 1(%r13)
	js	.LBB39_1
.LBB39_4:                               # %then.7.i.lr.ph
	xorl	%r14d, %r14d
	xorl	%ebx, %ebx
	jmp	.LBB39_5
	.p2align	4
.LBB39_7:                               # %then.1.i
                                        #   in Loop: Header=BB39_5 Depth=1
	pxor	%xmm3, %xmm3
	pxor	%xmm0, %xmm0
	punpcklbw	%xmm4, %xmm0            # xmm0 = xmm0[0],xmm4[0],xmm0[1],xmm4[1],xmm0[2],xmm4[2],xmm0[3],xmm4[3],xmm0[4],xmm4[4],xmm0[5],xmm4[5],xmm0[6],xmm4[6],xmm0[7],xmm4[7]
	movdqa	%xmm0, 48(%rsp)                 # 16-byte Spill
	pxor	%xmm0, %xmm0
	punpckhbw	%xmm4, %xmm0            # xmm0 = xmm0[8],xmm4[8],xmm0[9],xmm4[9],xmm0[10],xmm4[10],xmm0[11],xmm4[11],xmm0[12],xmm4[12],xmm0[13],xmm4[13],xmm0[14],xmm4[14],xmm0[15],xmm4[15]
	movdqa	%xmm0, 32(%rsp)                 # 16-byte Spill
	pxor	%xmm0, %xmm0
	punpcklbw	%xmm6, %xmm0            # xmm0 = xmm0[0],xmm6[0],xmm0[1],xmm6[1],xmm0[2],xmm6[2],xmm0[3],xmm6[3],xmm0[4],xmm6[4],xmm0[5],xmm6[5],xmm0[6],xmm6[6],xmm0[7],xmm6[7]
	movdqa	%xmm0, 16(%rsp)                 # 16-byte Spill
	pxor	%xmm0, %xmm0
	punpckhbw	%xmm6, %xmm0            # xmm0 = xmm0[8],xmm6[8],xmm0[9],xmm6[9],xmm0[10],xmm6[10],xmm0[11],xmm6[11],xmm0[12],xmm6[12],xmm0[13],xmm6[13],xmm0[14],xmm6[14],xmm0[15],xmm6[15]
	movdqa	%xmm0, (%rsp)                   # 16-byte Spill
	pxor	%xmm0, %xmm0
	punpcklbw	%xmm2, %xmm0            # xmm0 = xmm0[0],xmm2[0],xmm0[1],xmm2[1],xmm0[2],xmm2[2],xmm0[3],xmm2[3],xmm0[4],xmm2[4],xmm0[5],xmm2[5],xmm0[6],xmm2[6],xmm0[7],xmm2[7]
	pxor	%xmm1, %xmm1
	punpckhbw	%xmm2, %xmm1            # xmm1 = xmm1[8],xmm2[8],xmm1[9],xmm2[9],xmm1[10],xmm2[10],xmm1[11],xmm2[11],xmm1[12],xmm2[12],xmm1[13],xmm2[13],xmm1[14],xmm2[14],xmm1[15],xmm2[15]
	pxor	%xmm2, %xmm2
	punpcklbw	%xmm5, %xmm2            # xmm2 = xmm2[0],xmm5[0],xmm2[1],xmm5[1],xmm2[2],xmm5[2],xmm2[3],xmm5[3],xmm2[4],xmm5[4],xmm2[5],xmm5[5],xmm2[6],xmm5[6],xmm2[7],xmm5[7]
	punpckhbw	%xmm5, %xmm3            # xmm3 = xmm3[8],xmm5[8],xmm3[9],xmm5[9],xmm3[10],xmm5[10],xmm3[11],xmm5[11],xmm3[12],xmm5[12],xmm3[13],xmm5[13],xmm3[14],xmm5[14],xmm3[15],xmm5[15]
	movq	%r15, %rdi
	callq	"recoding::list::VecU8Output::put_wide::<#e3b2a9d4d2861db8>"
	movq	%r15, %rdi
	movaps	48(%rsp), %xmm0                 # 16-byte Reload
	movaps	32(%rsp), %xmm1                 # 16-byte Reload
	movaps	16(%rsp), %xmm2                 # 16-byte Reload
	movaps	(%rsp), %xmm3                   # 16-byte Reload
	callq	"recoding::list::VecU8Output::put_wide::<#e3b2a9d4d2861db8>"
	xorl	%ebp, %ebp
.LBB39_10:                              # %arm.14.i
                                        #   in Loop: Header=BB39_5 Depth=1
	addq	$64, %r14
	addq	%rbp, %rbx
	addq	$-64, %r12
	cmpq	$66, %r12
	jbe	.LBB39_11
.LBB39_5:                               # %then.7.i
                                        # =>This Inner Loop Header: Depth=1
	movq	16(%r15), %rax
	subq	8(%r15), %rax
	cmpq	$128, %rax
	jb	.LBB39_11
# %bb.6:                                # %join.9.i
                                        #   in Loop: Header=BB39_5 Depth=1
	movdqu	(%r13,%r14), %xmm2
	movdqu	16(%r13,%r14), %xmm5
	movdqu	32(%r13,%r14), %xmm4
	movdqu	48(%r13,%r14), %xmm6
	movdqa	%xmm4, %xmm0
	por	%xmm2, %xmm0
	movdqa	%xmm6, %xmm1
	por	%xmm5, %xmm1
	por	%xmm0, %xmm1
	pmovmskb	%xmm1, %eax
	testl	%eax, %eax
	je	.LBB39_7
# %bb.8:                                # %join.3.i
                                        #   in Loop: Header=BB39_5 Depth=1
	pmovmskb	%xmm2, %eax
	pmovmskb	%xmm5, %ecx
	shll	$16, %ecx
	orl	%eax, %ecx
	pmovmskb	%xmm4, %edx
	shlq	$32, %rdx
	orq	%rcx, %rdx
	pmovmskb	%xmm6, %eax
	shlq	$48, %rax
	orq	%rdx, %rax
	movq	%rax, %rcx
	shrq	%rcx
	movabsq	$-9223372036854775808, %rdx     # imm = 0x8000000000000000
	orq	%rcx, %rdx
	testq	%rax, %rdx
	jne	.LBB39_11
# %bb.9:                                # %arm.8.i
                                        #   in Loop: Header=BB39_5 Depth=1
	pxor	%xmm8, %xmm8
	pxor	%xmm1, %xmm1
	pcmpgtb	%xmm2, %xmm1
	pxor	%xmm3, %xmm3
	pcmpgtb	%xmm5, %xmm3
	pxor	%xmm9, %xmm9
	movdqa	.LCPI39_0(%rip), %xmm7          # xmm7 = [253,253,253,253,253,253,253,253,253,253,253,253,253,253,253,253]
	movdqa	%xmm5, %xmm0
	pblendvb	%xmm0, %xmm7, %xmm5
	pcmpgtb	%xmm4, %xmm9
	movdqa	%xmm2, %xmm0
	pblendvb	%xmm0, %xmm7, %xmm2
	pcmpgtb	%xmm6, %xmm8
	movdqa	%xmm6, %xmm0
	pblendvb	%xmm0, %xmm7, %xmm6
	xorl	%ebp, %ebp
	popcntq	%rax, %rbp
	movdqa	%xmm4, %xmm0
	pblendvb	%xmm0, %xmm7, %xmm4
	movdqa	%xmm9, %xmm0
	punpcklbw	%xmm4, %xmm0            # xmm0 = xmm0[0],xmm4[0],xmm0[1],xmm4[1],xmm0[2],xmm4[2],xmm0[3],xmm4[3],xmm0[4],xmm4[4],xmm0[5],xmm4[5],xmm0[6],xmm4[6],xmm0[7],xmm4[7]
	movdqa	%xmm0, 48(%rsp)                 # 16-byte Spill
	punpckhbw	%xmm4, %xmm9            # xmm9 = xmm9[8],xmm4[8],xmm9[9],xmm4[9],xmm9[10],xmm4[10],xmm9[11],xmm4[11],xmm9[12],xmm4[12],xmm9[13],xmm4[13],xmm9[14],xmm4[14],xmm9[15],xmm4[15]
	movdqa	%xmm9, 32(%rsp)                 # 16-byte Spill
	movdqa	%xmm8, %xmm0
	punpcklbw	%xmm6, %xmm0            # xmm0 = xmm0[0],xmm6[0],xmm0[1],xmm6[1],xmm0[2],xmm6[2],xmm0[3],xmm6[3],xmm0[4],xmm6[4],xmm0[5],xmm6[5],xmm0[6],xmm6[6],xmm0[7],xmm6[7]
	movdqa	%xmm0, 16(%rsp)                 # 16-byte Spill
	punpckhbw	%xmm6, %xmm8            # xmm8 = xmm8[8],xmm6[8],xmm8[9],xmm6[9],xmm8[10],xmm6[10],xmm8[11],xmm6[11],xmm8[12],xmm6[12],xmm8[13],xmm6[13],xmm8[14],xmm6[14],xmm8[15],xmm6[15]
	movdqa	%xmm8, (%rsp)                   # 16-byte Spill
	movdqa	%xmm1, %xmm0
	punpcklbw	%xmm2, %xmm0            # xmm0 = xmm0[0],xmm2[0],xmm0[1],xmm2[1],xmm0[2],xmm2[2],xmm0[3],xmm2[3],xmm0[4],xmm2[4],xmm0[5],xmm2[5],xmm0[6],xmm2[6],xmm0[7],xmm2[7]
	punpckhbw	%xmm2, %xmm1            # xmm1 = xmm1[8],xmm2[8],xmm1[9],xmm2[9],xmm1[10],xmm2[10],xmm1[11],xmm2[11],xmm1[12],xmm2[12],xmm1[13],xmm2[13],xmm1[14],xmm2[14],xmm1[15],xmm2[15]
	movdqa	%xmm3, %xmm2
	punpcklbw	%xmm5, %xmm2            # xmm2 = xmm2[0],xmm5[0],xmm2[1],xmm5[1],xmm2[2],xmm5[2],xmm2[3],xmm5[3],xmm2[4],xmm5[4],xmm2[5],xmm5[5],xmm2[6],xmm5[6],xmm2[7],xmm5[7]
	punpckhbw	%xmm5, %xmm3            # xmm3 = xmm3[8],xmm5[8],xmm3[9],xmm5[9],xmm3[10],xmm5[10],xmm3[11],xmm5[11],xmm3[12],xmm5[12],xmm3[13],xmm5[13],xmm3[14],xmm5[14],xmm3[15],xmm5[15]
	movq	%r15, %rdi
	callq	"recoding::list::VecU8Output::put_wide::<#e3b2a9d4d2861db8>"
	movq	%r15, %rdi
	movaps	48(%rsp), %xmm0                 # 16-byte Reload
	movaps	32(%rsp), %xmm1                 # 16-byte Reload
	movaps	16(%rsp), %xmm2                 # 16-byte Reload
	movaps	(%rsp), %xmm3                   # 16-byte Reload
	callq	"recoding::list::VecU8Output::put_wide::<#e3b2a9d4d2861db8>"
	jmp	.LBB39_10
.LBB39_1:
	xorl	%ebx, %ebx
	xorl	%r14d, %r14d
.LBB39_11:                              # %"recoding::kernels::put_plain::<#d2e6c14c333cca8a>.exit"
	movq	%r14, %rax
	movq	%rbx, %rdx
	addq	$72, %rsp
	.cfi_def_cfa_offset 56
	popq	%rbx
	.cfi_def_cfa_offset 48
	popq	%r12
	.cfi_def_cfa_offset 40
	popq	%r13
	.cfi_def_cfa_offset 32
	popq	%r14
	.cfi_def_cfa_offset 24
	popq	%r15
	.cfi_def_cfa_offset 16
	popq	%rbp
	.cfi_def_cfa_offset 8
	retq
.Lfunc_end39:
	.size	"recoding::kernels::widen_plain::<#d2e6c14c333cca8a>", .Lfunc_end39-"recoding::kernels::widen_plain::<#d2e6c14c333cca8a>"
	.cfi_endproc
                                        # -- End function
	.section	".text.recoding::engine::recode_faults::<#e11ba97e6063c4ca>","ax",@progbits
	.p2align	4                               # -- Begin function recoding::engine::recode_faults::<#e11ba97e6063c4ca>
	.type	"recoding::engine::recode_faults::<#e11ba97e6063c4ca>",@function
"recoding::engine::recode_faults::<#e11ba97e6063c4ca>": # @"recoding::engine::recode_faults::<#e11ba97e6063c4ca>"
	.cfi_startproc
# %bb.0:                                # %start
	pushq	%rbp
	.cfi_def_cfa_offset 16
	pushq	%r15
	.cfi_def_cfa_offset 24
	pushq	%r14
	.cfi_def_cfa_offset 32
	pushq	%r13
	.cfi_def_cfa_offset 40
	pushq	%r12
	.cfi_def_cfa_offset 48
	pushq	%rbx
	.cfi_def_cfa_offset 56
	subq	$40, %rsp
	.cfi_def_cfa_offset 96
	.cfi_offset %rbx, -56
	.cfi_offset %r12, -48
	.cfi_offset %r13, -40
	.cfi_offset %r14, -32
	.cfi_offset %r15, -24
	.cfi_offset %rbp, -16
	movq	%rcx, %r14
	movq	%rdx, %r8
	movq	%rsi, %r9
	movq	%rdi, 8(%rsp)                   # 8-byte Spill
	movl	$16, %r11d
	xorl	%ecx, %ecx
	xorl	%r10d, %r10d
	jmp	.LBB40_4
.LBB40_1:                               # %arm.10.i.i
                                        #   in Loop: Header=BB40_4 Depth=1
	movq	%rdi, %rbp
	leaq	(%r9,%r12), %rdi
	movq	%r13, %rsi
	movq	%r8, %r13
	movq	%r9, %r15
	callq	"recoding::next_scalar::is_front_of_code"
	movq	%rbp, %rdi
	movq	%r15, %r9
	movq	%r13, %r8
	testb	%al, %al
	movq	%rbx, %r10
	jne	.LBB40_41
	.p2align	4
.LBB40_2:                               # %"recoding::text::Utf16Text::put_any::<#f52bd5352b4cd2db>.exit"
                                        #   in Loop: Header=BB40_4 Depth=1
	cmpq	$32, %rdi
	movl	$32, %r11d
	cmovbq	%rdi, %r11
	movq	(%r14), %rax
	movq	8(%r14), %rcx
	movb	$-1, (%rax,%rcx)
	movq	(%r14), %rax
	movb	$-3, 1(%rax,%rcx)
	addq	$2, %rcx
	movq	%rcx, 8(%r14)
	incq	%r10
	movl	$1, %ecx
.LBB40_3:                               # %join.12
                                        #   in Loop: Header=BB40_4 Depth=1
	addq	%r12, %rcx
	cmpq	%r11, %rcx
	jae	.LBB40_39
.LBB40_4:                               # %join.5
                                        # =>This Inner Loop Header: Depth=1
	movq	%rcx, %r12
	leaq	4(%rcx), %rdi
	cmpq	%r8, %rdi
	jbe	.LBB40_6
# %bb.5:                                # %join.3.i
                                        #   in Loop: Header=BB40_4 Depth=1
	movq	%r8, %r13
	subq	%r12, %r13
	cmpq	$4, %r13
	jb	.LBB40_13
.LBB40_6:                               # %then.1.i.i65
                                        #   in Loop: Header=BB40_4 Depth=1
	movzbl	(%r9,%r12), %eax
	testb	%al, %al
	js	.LBB40_7
# %bb.12:                               # %"utf_lanes::text_front::front_of_text.exit139.i.thread"
                                        #   in Loop: Header=BB40_4 Depth=1
	movl	$1, %ecx
.LBB40_18:                              # %arm.1.i25
                                        #   in Loop: Header=BB40_4 Depth=1
	movq	(%r14), %rdx
	movq	8(%r14), %rsi
	movb	%ah, (%rdx,%rsi)
	movq	(%r14), %rdx
	movb	%al, 1(%rdx,%rsi)
	addq	$2, %rsi
	movq	%rsi, 8(%r14)
	jmp	.LBB40_3
	.p2align	4
.LBB40_7:                               # %join.6.i104.i
                                        #   in Loop: Header=BB40_4 Depth=1
	movzbl	1(%r9,%r12), %ecx
	cmpb	$-32, %al
	jae	.LBB40_19
# %bb.8:                                # %"utf_lanes::text_front::front_of_text.exit139.i"
                                        #   in Loop: Header=BB40_4 Depth=1
	cmpb	$-62, %al
	jb	.LBB40_2
# %bb.9:                                # %"utf_lanes::text_front::front_of_text.exit139.i"
                                        #   in Loop: Header=BB40_4 Depth=1
	xorl	$128, %ecx
	cmpb	$63, %cl
	ja	.LBB40_2
# %bb.10:                               #   in Loop: Header=BB40_4 Depth=1
	shll	$6, %eax
	addl	%ecx, %eax
	addl	$-12288, %eax                   # imm = 0xD000
	movl	$2, %ecx
	cmpl	$65535, %eax                    # imm = 0xFFFF
	jbe	.LBB40_18
.LBB40_29:                              # %arm.2.i24
                                        #   in Loop: Header=BB40_4 Depth=1
	movl	%eax, %edx
	shrl	$10, %edx
	addl	$-10304, %edx                   # imm = 0xD7C0
	movl	%eax, %esi
	shrl	$8, %eax
	andb	$3, %al
	orb	$-36, %al
	movq	(%r14), %rdi
	movq	8(%r14), %rbx
	movb	%dh, (%rdi,%rbx)
	movq	(%r14), %rdi
	movb	%dl, 1(%rdi,%rbx)
	movq	(%r14), %rdx
	movb	%al, 2(%rdx,%rbx)
	movq	(%r14), %rax
	movb	%sil, 3(%rax,%rbx)
	addq	$4, %rbx
	movq	%rbx, 8(%r14)
	jmp	.LBB40_3
	.p2align	4
.LBB40_13:                              # %join.3.i.i
                                        #   in Loop: Header=BB40_4 Depth=1
	movq	%r10, %rbx
	cmpq	%r12, %r8
	je	.LBB40_1
# %bb.14:                               # %join.3.i316.i
                                        #   in Loop: Header=BB40_4 Depth=1
	movzbl	(%r9,%r12), %ecx
	leaq	.Lstatic.8(%rip), %rax
	movzbl	(%rcx,%rax), %eax
	leaq	.Lstatic.9(%rip), %r15
	movzbl	(%rax,%r15), %ebp
	cmpq	$12, %rbp
	jbe	.LBB40_30
# %bb.15:                               # %join.6.i321.i
                                        #   in Loop: Header=BB40_4 Depth=1
	cmpl	$13, %ebp
	movq	%rbx, %r10
	jne	.LBB40_2
# %bb.16:                               # %join.9.i323.i
                                        #   in Loop: Header=BB40_4 Depth=1
	testb	%cl, %cl
	js	.LBB40_42
# %bb.17:                               # %"utf_chars::codes::utf8::decode_start.exit.i.thread458"
                                        #   in Loop: Header=BB40_4 Depth=1
	movq	%rcx, %rax
	movl	$1, %ecx
                                        # kill: def $eax killed $eax killed $rax def $rax
	jmp	.LBB40_18
.LBB40_19:                              # %join.9.i106.i
                                        #   in Loop: Header=BB40_4 Depth=1
	cmpb	$-65, %cl
	jg	.LBB40_2
# %bb.20:                               # %join.12.i113.i
                                        #   in Loop: Header=BB40_4 Depth=1
	movl	%eax, %edx
	andl	$15, %eax
	andl	$63, %ecx
	shll	$6, %eax
	orl	%ecx, %eax
	cmpb	$-17, %dl
	ja	.LBB40_25
# %bb.21:                               # %then.13.i125.i
                                        #   in Loop: Header=BB40_4 Depth=1
	movl	%eax, %ecx
	andl	$-32, %ecx
	cmpl	$864, %ecx                      # imm = 0x360
	je	.LBB40_2
# %bb.22:                               # %join.3.i187.i
                                        #   in Loop: Header=BB40_4 Depth=1
	movzbl	2(%r9,%r12), %edx
	cmpb	$-65, %dl
	jg	.LBB40_2
# %bb.23:                               # %join.3.i187.i
                                        #   in Loop: Header=BB40_4 Depth=1
	cmpl	$32, %eax
	jb	.LBB40_2
# %bb.24:                               # %join.9.i191.i
                                        #   in Loop: Header=BB40_4 Depth=1
	shll	$6, %eax
	andl	$63, %edx
	orl	%eax, %edx
	movl	$3, %ecx
	movl	%edx, %eax
	jmp	.LBB40_18
.LBB40_25:                              # %else.14.i116.i
                                        #   in Loop: Header=BB40_4 Depth=1
	leal	-272(%rax), %ecx
	cmpl	$-256, %ecx
	jb	.LBB40_2
# %bb.26:                               # %after.1.i.i
                                        #   in Loop: Header=BB40_4 Depth=1
	movzbl	2(%r9,%r12), %edx
	cmpb	$-65, %dl
	jg	.LBB40_2
# %bb.27:                               # %else.14.i254.i
                                        #   in Loop: Header=BB40_4 Depth=1
	movzbl	3(%r9,%r12), %ecx
	cmpb	$-65, %cl
	jg	.LBB40_2
# %bb.28:                               # %after.11.i.i
                                        #   in Loop: Header=BB40_4 Depth=1
	andl	$63, %edx
	andl	$63, %ecx
	shll	$12, %eax
	shll	$6, %edx
	orl	%eax, %edx
	orl	%ecx, %edx
	movl	$4, %ecx
	movl	%edx, %eax
	jmp	.LBB40_29
.LBB40_30:                              # %then.4.i333.i
                                        #   in Loop: Header=BB40_4 Depth=1
	movq	%rcx, (%rsp)                    # 8-byte Spill
	movl	%ebp, %edi
	movq	%r8, 32(%rsp)                   # 8-byte Spill
	movq	%r9, 24(%rsp)                   # 8-byte Spill
	movq	%r11, 16(%rsp)                  # 8-byte Spill
	callq	"utf_chars::codes::utf8::missing_after"
	leaq	4(%r12), %rdi
	movq	16(%rsp), %r11                  # 8-byte Reload
	movq	24(%rsp), %r9                   # 8-byte Reload
	movq	32(%rsp), %r8                   # 8-byte Reload
	cmpq	%rax, %r13
	jbe	.LBB40_1
# %bb.31:                               # %join.3.i351.i
                                        #   in Loop: Header=BB40_4 Depth=1
	movzbl	1(%r9,%r12), %edx
	leaq	.Lstatic.8(%rip), %r10
	movzbl	(%rdx,%r10), %eax
	shll	$4, %ebp
	addq	%r15, %rbp
	movzbl	(%rax,%rbp), %eax
	cmpq	$12, %rax
	ja	.LBB40_35
# %bb.32:                               # %then.1.i379.i
                                        #   in Loop: Header=BB40_4 Depth=1
	movzbl	2(%r9,%r12), %esi
	movzbl	(%rsi,%r10), %ecx
	shll	$4, %eax
	addq	%r15, %rax
	movzbl	(%rcx,%rax), %ecx
	cmpq	$12, %rcx
	movq	%r10, %r13
	movq	%rbx, %r10
	ja	.LBB40_37
# %bb.33:                               # %then.1.i418.i
                                        #   in Loop: Header=BB40_4 Depth=1
	movzbl	3(%r9,%r12), %eax
	movzbl	(%rax,%r13), %edi
	shll	$4, %ecx
	addq	%rcx, %r15
	cmpb	$13, (%rdi,%r15)
	leaq	4(%r12), %rdi
	movq	(%rsp), %rcx                    # 8-byte Reload
	jne	.LBB40_2
# %bb.34:                               # %join.3.i436.i
                                        #   in Loop: Header=BB40_4 Depth=1
	andl	$7, %ecx
	andl	$63, %edx
	shll	$12, %ecx
	shll	$6, %edx
	orl	%ecx, %edx
	andl	$63, %esi
	orl	%edx, %esi
	shll	$6, %esi
	andl	$63, %eax
	orl	%esi, %eax
	movl	$4, %ecx
	cmpl	$65535, %eax                    # imm = 0xFFFF
	jbe	.LBB40_18
	jmp	.LBB40_29
.LBB40_35:                              # %join.3.i366.i
                                        #   in Loop: Header=BB40_4 Depth=1
	cmpl	$13, %eax
	movq	%rbx, %r10
	movq	(%rsp), %rax                    # 8-byte Reload
	jne	.LBB40_2
# %bb.36:                               # %"utf_chars::codes::utf8::decode_start.exit.i.thread539"
                                        #   in Loop: Header=BB40_4 Depth=1
	andl	$31, %eax
	shll	$6, %eax
	andl	$63, %edx
	orl	%eax, %edx
	movl	$2, %ecx
	movl	%edx, %eax
	jmp	.LBB40_18
.LBB40_37:                              # %join.3.i399.i
                                        #   in Loop: Header=BB40_4 Depth=1
	cmpl	$13, %ecx
	movq	(%rsp), %rax                    # 8-byte Reload
	jne	.LBB40_2
# %bb.38:                               # %join.6.i401.i
                                        #   in Loop: Header=BB40_4 Depth=1
	andl	$15, %eax
	andl	$63, %edx
	shll	$12, %eax
	shll	$6, %edx
	orl	%eax, %edx
	andl	$63, %esi
	orl	%edx, %esi
	movl	$3, %ecx
	movl	%esi, %eax
	jmp	.LBB40_18
.LBB40_39:                              # %after.1
	movq	8(%rsp), %rax                   # 8-byte Reload
	movq	%rcx, (%rax)
	movq	%r10, 8(%rax)
	movq	$0, 16(%rax)
.LBB40_40:                              # %after.1
	addq	$40, %rsp
	.cfi_def_cfa_offset 56
	popq	%rbx
	.cfi_def_cfa_offset 48
	popq	%r12
	.cfi_def_cfa_offset 40
	popq	%r13
	.cfi_def_cfa_offset 32
	popq	%r14
	.cfi_def_cfa_offset 24
	popq	%r15
	.cfi_def_cfa_offset 16
	popq	%rbp
	.cfi_def_cfa_offset 8
	retq
.LBB40_41:                              # %arm.7
	.cfi_def_cfa_offset 96
	movq	8(%rsp), %rax                   # 8-byte Reload
	movq	%r12, (%rax)
	movq	%r10, 8(%rax)
	movw	$256, 16(%rax)                  # imm = 0x100
	movl	$0, 18(%rax)
	movw	$0, 22(%rax)
	jmp	.LBB40_40
.LBB40_42:                              # %join.4.i.i
	ud2
.Lfunc_end40:
	.size	"recoding::engine::recode_faults::<#e11ba97e6063c4ca>", .Lfunc_end40-"recoding::engine::recode_faults::<#e11ba97e6063c4ca>"
	.cfi_endproc
                                        # -- End function
	.section	".text.recoding::recoder_runs::run_whole::<#d46ce40aec13b609>","ax",@progbits
	.p2align	4                               # -- Begin function recoding::recoder_runs::run_whole::<#d46ce40aec13b609>
	.type	"recoding::recoder_runs::run_whole::<#d46ce40aec13b609>",@function
"recoding::recoder_runs::run_whole::<#d46ce40aec13b609>": # @"recoding::recoder_runs::run_whole::<#d46ce40aec13b609>"
	.cfi_startproc
# %bb.0:                                # %start
	pushq	%r15
	.cfi_def_cfa_offset 16
	pushq	%r14
	.cfi_def_cfa_offset 24
	pushq	%r13
	.cfi_def_cfa_offset 32
	pushq	%r12
	.cfi_def_cfa_offset 40
	pushq	%rbx
	.cfi_def_cfa_offset 48
	subq	$80, %rsp
	.cfi_def_cfa_offset 128
	.cfi_offset %rbx, -48
	.cfi_offset %r12, -40
	.cfi_offset %r13, -32
	.cfi_offset %r14, -24
	.cfi_offset %r15, -16
	movq	%rdx, %r12
	movq	%rsi, %r15
	movq	%rdi, %r13
	xorl	%ebx, %ebx
	xorl	%r14d, %r14d
	jmp	.LBB41_2
.LBB41_1:                               # %"recoding::kernels::put_damaged_units::<#a8b304b230851da3>.exit"
                                        #   in Loop: Header=BB41_2 Depth=1
	leaq	(%r14,%r13), %rdi
	movq	%r12, %rdx
	callq	"recoding::kernels::put_windows::<#a8b304b230851da3>"
	addq	%rax, %r14
	addq	%rdx, %rbx
	testq	%rax, %rax
	je	.LBB41_5
	.p2align	4
.LBB41_2:                               # %loop.2.i
                                        # =>This Loop Header: Depth=1
                                        #     Child Loop BB41_11 Depth 2
	leaq	(%r14,%r13), %rdi
	movq	%r15, %rsi
	subq	%r14, %rsi
	movq	%r12, %rdx
	callq	"recoding::kernels::NarrowedKernelUtf16Utf8::put_text::<#a02055794059cfb2>"
	addq	%rax, %r14
	cmpq	$8187, %rax                     # imm = 0x1FFB
	ja	.LBB41_2
# %bb.3:                                # %join.5.i
                                        #   in Loop: Header=BB41_2 Depth=1
	movq	%r15, %rsi
	subq	%r14, %rsi
	je	.LBB41_25
# %bb.4:                                # %join.8.i
                                        #   in Loop: Header=BB41_2 Depth=1
	cmpq	$64, %rsi
	jae	.LBB41_1
	jmp	.LBB41_6
.LBB41_5:                               # %"recoding::kernels::put_damaged_units::<#a8b304b230851da3>.exit.join.14.i_crit_edge"
                                        #   in Loop: Header=BB41_2 Depth=1
	movq	%r15, %rsi
	subq	%r14, %rsi
.LBB41_6:                               # %join.14.i
                                        #   in Loop: Header=BB41_2 Depth=1
	cmpq	$128, %rsi
	movl	$128, %ecx
	cmovbq	%rsi, %rcx
	cmpq	$2, %rsi
	jb	.LBB41_21
# %bb.7:                                # %join.5.i47.preheader
                                        #   in Loop: Header=BB41_2 Depth=1
	leaq	(%r14,%r13), %rdx
	xorl	%eax, %eax
	movq	%rcx, %rdi
	jmp	.LBB41_11
	.p2align	4
.LBB41_8:                               # %then.1.i.i
                                        #   in Loop: Header=BB41_11 Depth=2
	movq	(%r12), %rsi
	movq	8(%r12), %rdi
	movb	%r9b, (%rsi,%rdi)
	incq	%rdi
	movq	%rdi, 8(%r12)
.LBB41_9:                               # %"recoding::codes::put_short::<#345d457c2768aa28>.exit.i"
                                        #   in Loop: Header=BB41_11 Depth=2
	movl	$2, %esi
.LBB41_10:                              # %"recoding::codes::put_short::<#345d457c2768aa28>.exit.i"
                                        #   in Loop: Header=BB41_11 Depth=2
	addq	%rsi, %rax
	movq	%rcx, %rdi
	subq	%rax, %rdi
	cmpq	$1, %rdi
	jbe	.LBB41_20
.LBB41_11:                              # %join.5.i47
                                        #   Parent Loop BB41_2 Depth=1
                                        # =>  This Inner Loop Header: Depth=2
	movzbl	(%rdx,%rax), %r9d
	movzbl	1(%rdx,%rax), %esi
	movl	%esi, %r10d
	shll	$8, %r10d
	leal	(%r10,%r9), %r8d
	andl	$64512, %r10d                   # imm = 0xFC00
	cmpl	$55296, %r10d                   # imm = 0xD800
	je	.LBB41_16
# %bb.12:                               # %join.5.i47
                                        #   in Loop: Header=BB41_11 Depth=2
	cmpl	$56320, %r10d                   # imm = 0xDC00
	je	.LBB41_20
# %bb.13:                               # %arm.7.i
                                        #   in Loop: Header=BB41_11 Depth=2
	movzwl	%r8w, %edi
	cmpl	$128, %edi
	jb	.LBB41_8
# %bb.14:                               # %join.3.i.i
                                        #   in Loop: Header=BB41_11 Depth=2
	movl	%edi, %r8d
	andl	$63, %r8d
	orl	$128, %r8d
	shrl	$6, %edi
	cmpb	$8, %sil
	jae	.LBB41_19
# %bb.15:                               # %then.4.i.i
                                        #   in Loop: Header=BB41_11 Depth=2
	orb	$-64, %dil
	movq	(%r12), %rsi
	movq	8(%r12), %r9
	movb	%dil, (%rsi,%r9)
	movq	(%r12), %rsi
	movb	%r8b, 1(%rsi,%r9)
	addq	$2, %r9
	movq	%r9, 8(%r12)
	jmp	.LBB41_9
	.p2align	4
.LBB41_16:                              # %join.6.i
                                        #   in Loop: Header=BB41_11 Depth=2
	cmpq	$4, %rdi
	jb	.LBB41_20
# %bb.17:                               # %join.15.i71.i
                                        #   in Loop: Header=BB41_11 Depth=2
	movzbl	3(%rdx,%rax), %esi
	movl	%esi, %edi
	andl	$-4, %edi
	cmpl	$220, %edi
	jne	.LBB41_20
# %bb.18:                               # %join.7.i.i
                                        #   in Loop: Header=BB41_11 Depth=2
	movzwl	%si, %edi
	movzbl	2(%rdx,%rax), %esi
	andl	$1023, %r8d                     # imm = 0x3FF
	shll	$10, %r8d
	andl	$3, %edi
	shll	$8, %edi
	orl	%esi, %edi
	leal	65536(%r8), %r9d
	orl	%r8d, %edi
	andb	$63, %sil
	orb	$-128, %sil
	shrl	$6, %edi
	movl	%r9d, %r8d
	shrl	$18, %r8d
	shrl	$12, %r9d
	orb	$-16, %r8b
	andb	$63, %r9b
	orb	$-128, %r9b
	andb	$63, %dil
	orb	$-128, %dil
	movq	(%r12), %r10
	movq	8(%r12), %r11
	movb	%r8b, (%r10,%r11)
	movq	(%r12), %r8
	movb	%r9b, 1(%r8,%r11)
	movq	(%r12), %r8
	movb	%dil, 2(%r8,%r11)
	movq	(%r12), %rdi
	movb	%sil, 3(%rdi,%r11)
	addq	$4, %r11
	movq	%r11, 8(%r12)
	movl	$4, %esi
	jmp	.LBB41_10
.LBB41_19:                              # %join.7.i.i.thread
                                        #   in Loop: Header=BB41_11 Depth=2
	shrb	$4, %sil
	orb	$-32, %sil
	andb	$63, %dil
	orb	$-128, %dil
	movq	(%r12), %r9
	movq	8(%r12), %r10
	movb	%sil, (%r9,%r10)
	movq	(%r12), %rsi
	movb	%dil, 1(%rsi,%r10)
	movq	(%r12), %rsi
	movb	%r8b, 2(%rsi,%r10)
	addq	$3, %r10
	movq	%r10, 8(%r12)
	jmp	.LBB41_9
.LBB41_20:                              # %"recoding::engine::recode_text::<#a0e77f5ac5e791bb>.exit"
                                        #   in Loop: Header=BB41_2 Depth=1
	addq	%rax, %r14
	cmpq	$124, %rax
	ja	.LBB41_2
.LBB41_21:                              # %then.15.i
                                        #   in Loop: Header=BB41_2 Depth=1
	movq	%r15, %rcx
	subq	%r14, %rcx
	je	.LBB41_25
# %bb.22:                               # %join.20.i
                                        #   in Loop: Header=BB41_2 Depth=1
	leaq	(%r14,%r13), %rdx
	xorps	%xmm0, %xmm0
	movaps	%xmm0, (%rsp)
	movq	$0, 16(%rsp)
	movaps	%xmm0, 32(%rsp)
	movaps	%xmm0, 48(%rsp)
	movq	$0, 64(%rsp)
	movq	%rsp, %rdi
	leaq	32(%rsp), %rsi
	movq	%r12, %r8
	callq	"recoding::engine::recode_faults::<#7de934f40f1f4d79>"
	addq	(%rsp), %r14
	addq	8(%rsp), %rbx
	testb	$1, 16(%rsp)
	jne	.LBB41_26
# %bb.23:                               # %join.20.i
                                        #   in Loop: Header=BB41_2 Depth=1
	testb	$1, 17(%rsp)
	je	.LBB41_2
	jmp	.LBB41_26
.LBB41_25:
	movq	%r15, %r14
.LBB41_26:                              # %"recoding::engine::run::<#84aa85cc07d1be5e>.exit"
	movq	%r14, %rax
	movq	%rbx, %rdx
	addq	$80, %rsp
	.cfi_def_cfa_offset 48
	popq	%rbx
	.cfi_def_cfa_offset 40
	popq	%r12
	.cfi_def_cfa_offset 32
	popq	%r13
	.cfi_def_cfa_offset 24
	popq	%r14
	.cfi_def_cfa_offset 16
	popq	%r15
	.cfi_def_cfa_offset 8
	retq
.Lfunc_end41:
	.size	"recoding::recoder_runs::run_whole::<#d46ce40aec13b609>", .Lfunc_end41-"recoding::recoder_runs::run_whole::<#d46ce40aec13b609>"
	.cfi_endproc
                                        # -- End function
	.section	.rodata.cst16,"aM",@progbits,16
	.p2align	4, 0x0                          # -- Begin function recoding::kernels::NarrowedKernelUtf16Utf8::put_text::<#a02055794059cfb2>
.LCPI42_0:
	.byte	1                               # 0x1
	.byte	3                               # 0x3
	.byte	5                               # 0x5
	.byte	7                               # 0x7
	.byte	9                               # 0x9
	.byte	11                              # 0xb
	.byte	13                              # 0xd
	.byte	15                              # 0xf
	.zero	1
	.zero	1
	.zero	1
	.zero	1
	.zero	1
	.zero	1
	.zero	1
	.zero	1
.LCPI42_1:
	.short	255                             # 0xff
	.short	255                             # 0xff
	.short	255                             # 0xff
	.short	255                             # 0xff
	.short	255                             # 0xff
	.short	255                             # 0xff
	.short	255                             # 0xff
	.short	255                             # 0xff
.LCPI42_2:
	.zero	16,1
.LCPI42_3:
	.zero	16,8
.LCPI42_4:
	.zero	16,248
.LCPI42_5:
	.zero	16,216
.LCPI42_6:
	.zero	16,63
.LCPI42_7:
	.zero	16,54
.LCPI42_8:
	.zero	16,55
.LCPI42_9:
	.zero	16,48
.LCPI42_10:
	.zero	16,15
.LCPI42_11:
	.zero	16,252
.LCPI42_12:
	.zero	16,128
.LCPI42_13:
	.zero	16,192
.LCPI42_14:
	.zero	16,7
.LCPI42_15:
	.zero	16,191
.LCPI42_16:
	.zero	16,3
.LCPI42_17:
	.zero	16,241
.LCPI42_18:
	.zero	16,224
.LCPI42_19:
	.zero	16,16
.LCPI42_20:
	.short	128                             # 0x80
	.short	128                             # 0x80
	.short	128                             # 0x80
	.short	128                             # 0x80
	.short	128                             # 0x80
	.short	128                             # 0x80
	.short	128                             # 0x80
	.short	128                             # 0x80
.LCPI42_21:
	.byte	1                               # 0x1
	.byte	3                               # 0x3
	.byte	5                               # 0x5
	.byte	7                               # 0x7
	.byte	9                               # 0x9
	.byte	11                              # 0xb
	.byte	13                              # 0xd
	.byte	15                              # 0xf
	.byte	0                               # 0x0
	.byte	0                               # 0x0
	.byte	0                               # 0x0
	.byte	0                               # 0x0
	.byte	0                               # 0x0
	.byte	0                               # 0x0
	.byte	0                               # 0x0
	.byte	0                               # 0x0
	.section	".text.recoding::kernels::NarrowedKernelUtf16Utf8::put_text::<#a02055794059cfb2>","ax",@progbits
	.p2align	4
	.type	"recoding::kernels::NarrowedKernelUtf16Utf8::put_text::<#a02055794059cfb2>",@function
"recoding::kernels::NarrowedKernelUtf16Utf8::put_text::<#a02055794059cfb2>": # @"recoding::kernels::NarrowedKernelUtf16Utf8::put_text::<#a02055794059cfb2>"
	.cfi_startproc
# %bb.0:                                # %start
	pushq	%rbp
	.cfi_def_cfa_offset 16
	pushq	%r15
	.cfi_def_cfa_offset 24
	pushq	%r14
	.cfi_def_cfa_offset 32
	pushq	%r13
	.cfi_def_cfa_offset 40
	pushq	%r12
	.cfi_def_cfa_offset 48
	pushq	%rbx
	.cfi_def_cfa_offset 56
	.cfi_offset %rbx, -56
	.cfi_offset %r12, -48
	.cfi_offset %r13, -40
	.cfi_offset %r14, -32
	.cfi_offset %r15, -24
	.cfi_offset %rbp, -16
	movq	%rdi, -24(%rsp)                 # 8-byte Spill
	cmpq	$32, %rsi
	jb	.LBB42_16
# %bb.1:                                # %then.3.i.lr.ph
	movq	8(%rdx), %r8
	movq	16(%rdx), %r10
	movq	%r10, %rax
	subq	%r8, %rax
	cmpq	$64, %rax
	jb	.LBB42_18
# %bb.2:                                # %join.5.i.preheader
	xorl	%eax, %eax
	movq	%rsi, %rcx
	movq	%rsi, -16(%rsp)                 # 8-byte Spill
	.p2align	4
.LBB42_3:                               # %join.5.i
                                        # =>This Inner Loop Header: Depth=1
	movq	-24(%rsp), %rdi                 # 8-byte Reload
	movdqu	(%rdi,%rax), %xmm6
	movdqu	16(%rdi,%rax), %xmm0
	movq	.LCPI42_21(%rip), %xmm2         # xmm2 = [1,3,5,7,9,11,13,15,0,0,0,0,0,0,0,0]
	movdqa	%xmm0, %xmm3
	pshufb	%xmm2, %xmm3
	movdqa	%xmm6, %xmm1
	pshufb	%xmm2, %xmm1
	movdqa	.LCPI42_1(%rip), %xmm2          # xmm2 = [255,255,255,255,255,255,255,255]
	pand	%xmm2, %xmm0
	pand	%xmm2, %xmm6
	packuswb	%xmm0, %xmm6
	movdqa	%xmm6, %xmm0
	psrlw	$7, %xmm0
	pand	.LCPI42_2(%rip), %xmm0
	punpcklqdq	%xmm3, %xmm1            # xmm1 = xmm1[0],xmm3[0]
	por	%xmm1, %xmm0
	ptest	%xmm0, %xmm0
	je	.LBB42_8
# %bb.4:                                # %join.3.i478
                                        #   in Loop: Header=BB42_3 Depth=1
	leaq	64(%r8), %r11
	movq	(%rdx), %r9
	pxor	%xmm0, %xmm0
	movdqu	%xmm0, 48(%r9,%r8)
	movdqu	%xmm0, 32(%r9,%r8)
	movdqu	%xmm0, 16(%r9,%r8)
	movdqu	%xmm0, (%r9,%r8)
	movq	%r9, (%rdx)
	movq	%r11, 8(%rdx)
	movq	%r10, 16(%rdx)
	movdqa	.LCPI42_3(%rip), %xmm0          # xmm0 = [8,8,8,8,8,8,8,8,8,8,8,8,8,8,8,8]
	pmaxub	%xmm1, %xmm0
	pcmpeqb	%xmm1, %xmm0
	pmovmskb	%xmm0, %r10d
	testl	%r10d, %r10d
	je	.LBB42_9
# %bb.5:                                # %join.3.i31
                                        #   in Loop: Header=BB42_3 Depth=1
	movdqa	.LCPI42_4(%rip), %xmm2          # xmm2 = [248,248,248,248,248,248,248,248,248,248,248,248,248,248,248,248]
	pand	%xmm1, %xmm2
	movdqa	.LCPI42_5(%rip), %xmm0          # xmm0 = [216,216,216,216,216,216,216,216,216,216,216,216,216,216,216,216]
	pcmpeqb	%xmm2, %xmm0
	pmovmskb	%xmm0, %r10d
	testl	%r10d, %r10d
	je	.LBB42_10
# %bb.6:                                # %join.7.i
                                        #   in Loop: Header=BB42_3 Depth=1
	movdqa	%xmm1, %xmm0
	psrlw	$2, %xmm0
	pand	.LCPI42_6(%rip), %xmm0
	movdqa	.LCPI42_7(%rip), %xmm3          # xmm3 = [54,54,54,54,54,54,54,54,54,54,54,54,54,54,54,54]
	pcmpeqb	%xmm0, %xmm3
	pmovmskb	%xmm3, %ebx
	pcmpeqb	.LCPI42_8(%rip), %xmm0
	pmovmskb	%xmm0, %r10d
	leal	(%rbx,%rbx), %r11d
	movzwl	%r11w, %r11d
	cmpl	%r10d, %r11d
	jne	.LBB42_15
# %bb.7:                                # %join.3.i243
                                        #   in Loop: Header=BB42_3 Depth=1
	movdqa	.LCPI42_5(%rip), %xmm7          # xmm7 = [216,216,216,216,216,216,216,216,216,216,216,216,216,216,216,216]
	pcmpeqb	%xmm7, %xmm2
	movdqa	%xmm6, %xmm0
	psrlw	$6, %xmm0
	movdqa	.LCPI42_11(%rip), %xmm5         # xmm5 = [252,252,252,252,252,252,252,252,252,252,252,252,252,252,252,252]
	movdqa	%xmm1, %xmm8
	psllw	$2, %xmm8
	pand	%xmm5, %xmm8
	movdqa	.LCPI42_14(%rip), %xmm4         # xmm4 = [7,7,7,7,7,7,7,7,7,7,7,7,7,7,7,7]
	pminub	%xmm1, %xmm4
	pcmpeqb	%xmm1, %xmm4
	movdqa	.LCPI42_16(%rip), %xmm10        # xmm10 = [3,3,3,3,3,3,3,3,3,3,3,3,3,3,3,3]
	pand	%xmm1, %xmm10
	movdqa	%xmm1, %xmm11
	pand	%xmm5, %xmm1
	pandn	%xmm0, %xmm5
	por	%xmm5, %xmm8
	movdqa	%xmm8, %xmm13
	movdqa	.LCPI42_12(%rip), %xmm12        # xmm12 = [128,128,128,128,128,128,128,128,128,128,128,128,128,128,128,128]
	movdqa	.LCPI42_6(%rip), %xmm9          # xmm9 = [63,63,63,63,63,63,63,63,63,63,63,63,63,63,63,63]
	pand	%xmm9, %xmm8
	movdqa	%xmm8, %xmm5
	pcmpgtb	.LCPI42_2(%rip), %xmm5
	movdqa	.LCPI42_13(%rip), %xmm14        # xmm14 = [192,192,192,192,192,192,192,192,192,192,192,192,192,192,192,192]
	por	%xmm8, %xmm14
	pand	%xmm5, %xmm14
	por	%xmm12, %xmm8
	movdqa	%xmm4, %xmm0
	pblendvb	%xmm0, %xmm14, %xmm8
	movdqa	%xmm6, %xmm0
	psllw	$4, %xmm0
	pand	.LCPI42_9(%rip), %xmm0
	palignr	$15, %xmm0, %xmm0               # xmm0 = xmm0[15,0,1,2,3,4,5,6,7,8,9,10,11,12,13,14]
	movdqa	.LCPI42_10(%rip), %xmm14        # xmm14 = [15,15,15,15,15,15,15,15,15,15,15,15,15,15,15,15]
	pand	%xmm14, %xmm13
	por	%xmm12, %xmm13
	por	%xmm0, %xmm13
	movdqa	%xmm2, %xmm0
	pblendvb	%xmm0, %xmm13, %xmm8
	movdqa	.LCPI42_15(%rip), %xmm0         # xmm0 = [191,191,191,191,191,191,191,191,191,191,191,191,191,191,191,191]
	pminub	%xmm6, %xmm0
	pcmpeqb	%xmm6, %xmm0
	paddb	%xmm0, %xmm10
	paddb	.LCPI42_17(%rip), %xmm10
	movdqa	%xmm3, %xmm0
	pblendvb	%xmm0, %xmm10, %xmm8
	psrlw	$4, %xmm11
	pand	%xmm14, %xmm11
	por	.LCPI42_18(%rip), %xmm11
	por	%xmm4, %xmm2
	pandn	%xmm11, %xmm2
	movdqa	%xmm2, %xmm3
	punpcklbw	%xmm8, %xmm3            # xmm3 = xmm3[0],xmm8[0],xmm3[1],xmm8[1],xmm3[2],xmm8[2],xmm3[3],xmm8[3],xmm3[4],xmm8[4],xmm3[5],xmm8[5],xmm3[6],xmm8[6],xmm3[7],xmm8[7]
	punpckhbw	%xmm8, %xmm2            # xmm2 = xmm2[8],xmm8[8],xmm2[9],xmm8[9],xmm2[10],xmm8[10],xmm2[11],xmm8[11],xmm2[12],xmm8[12],xmm2[13],xmm8[13],xmm2[14],xmm8[14],xmm2[15],xmm8[15]
	pmovmskb	%xmm3, %ebp
	movzbl	%bpl, %r14d
	popcntl	%r14d, %r13d
	shrl	$8, %ebp
	popcntl	%ebp, %edi
	addq	%r8, %r13
	movq	%rbx, %rsi
	pmovmskb	%xmm2, %ebx
	movzbl	%bl, %r12d
	popcntl	%r12d, %r15d
	shrl	$8, %ebx
	popcntl	%ebx, %r10d
	xorl	%r11d, %r11d
	testw	%si, %si
	setns	%r11b
	leaq	4(%rdi,%r13), %rsi
	movq	%rsi, -8(%rsp)                  # 8-byte Spill
	leaq	4(%r15,%rsi), %rdi
	leaq	8(%r10,%rdi), %rsi
	leaq	6(%r10,%rdi), %r15
	cmovnsq	%rsi, %r15
	movdqa	%xmm6, %xmm8
	psrlw	$2, %xmm8
	paddb	.LCPI42_19(%rip), %xmm8
	pcmpeqb	%xmm7, %xmm1
	pand	%xmm9, %xmm8
	pand	%xmm6, %xmm9
	por	%xmm12, %xmm9
	pandn	%xmm4, %xmm5
	movdqa	%xmm5, %xmm0
	pblendvb	%xmm0, %xmm6, %xmm9
	por	%xmm12, %xmm8
	movdqa	%xmm1, %xmm0
	pblendvb	%xmm0, %xmm8, %xmm9
	addq	$15, %r11
	movdqa	%xmm9, %xmm0
	punpcklbw	%xmm9, %xmm0            # xmm0 = xmm0[0],xmm9[0],xmm0[1],xmm9[1],xmm0[2],xmm9[2],xmm0[3],xmm9[3],xmm0[4],xmm9[4],xmm0[5],xmm9[5],xmm0[6],xmm9[6],xmm0[7],xmm9[7]
	punpckhbw	%xmm9, %xmm9            # xmm9 = xmm9[8,8,9,9,10,10,11,11,12,12,13,13,14,14,15,15]
	movdqa	%xmm3, %xmm1
	punpcklbw	%xmm0, %xmm1            # xmm1 = xmm1[0],xmm0[0],xmm1[1],xmm0[1],xmm1[2],xmm0[2],xmm1[3],xmm0[3],xmm1[4],xmm0[4],xmm1[5],xmm0[5],xmm1[6],xmm0[6],xmm1[7],xmm0[7]
	punpckhbw	%xmm0, %xmm3            # xmm3 = xmm3[8],xmm0[8],xmm3[9],xmm0[9],xmm3[10],xmm0[10],xmm3[11],xmm0[11],xmm3[12],xmm0[12],xmm3[13],xmm0[13],xmm3[14],xmm0[14],xmm3[15],xmm0[15]
	shll	$4, %r14d
	leaq	.Lstatic.20(%rip), %r10
	movdqu	(%r14,%r10), %xmm0
	movq	-16(%rsp), %rsi                 # 8-byte Reload
	pshufb	%xmm0, %xmm1
	shll	$4, %ebp
	movdqu	(%rbp,%r10), %xmm0
	pshufb	%xmm0, %xmm3
	movdqu	%xmm1, (%r9,%r8)
	movdqu	%xmm3, 4(%r9,%r13)
	movdqa	%xmm2, %xmm0
	punpcklbw	%xmm9, %xmm0            # xmm0 = xmm0[0],xmm9[0],xmm0[1],xmm9[1],xmm0[2],xmm9[2],xmm0[3],xmm9[3],xmm0[4],xmm9[4],xmm0[5],xmm9[5],xmm0[6],xmm9[6],xmm0[7],xmm9[7]
	punpckhbw	%xmm9, %xmm2            # xmm2 = xmm2[8],xmm9[8],xmm2[9],xmm9[9],xmm2[10],xmm9[10],xmm2[11],xmm9[11],xmm2[12],xmm9[12],xmm2[13],xmm9[13],xmm2[14],xmm9[14],xmm2[15],xmm9[15]
	shll	$4, %r12d
	movdqu	(%r12,%r10), %xmm1
	pshufb	%xmm1, %xmm0
	shll	$4, %ebx
	movdqu	(%rbx,%r10), %xmm1
	pshufb	%xmm1, %xmm2
	movq	-8(%rsp), %r8                   # 8-byte Reload
	movdqu	%xmm0, 4(%r9,%r8)
	movdqu	%xmm2, 4(%r9,%rdi)
	movq	%r15, %r8
	movq	8(%rdx), %r9
	cmpq	%r8, %r9
	ja	.LBB42_11
	jmp	.LBB42_12
	.p2align	4
.LBB42_8:                               # %join.3.i462
                                        #   in Loop: Header=BB42_3 Depth=1
	movq	(%rdx), %rcx
	movdqu	%xmm6, (%rcx,%r8)
	addq	$16, %r8
	movq	%rcx, (%rdx)
	movq	%r8, 8(%rdx)
	movq	%r10, 16(%rdx)
	movl	$16, %r11d
	jmp	.LBB42_13
	.p2align	4
.LBB42_9:                               # %then.1.i34
                                        #   in Loop: Header=BB42_3 Depth=1
	movdqa	%xmm6, %xmm0
	psrlw	$6, %xmm0
	pand	.LCPI42_16(%rip), %xmm0
	movdqa	%xmm1, %xmm3
	psllw	$2, %xmm3
	pand	.LCPI42_11(%rip), %xmm3
	por	%xmm0, %xmm3
	movdqa	.LCPI42_6(%rip), %xmm4          # xmm4 = [63,63,63,63,63,63,63,63,63,63,63,63,63,63,63,63]
	pand	%xmm4, %xmm3
	movdqa	%xmm3, %xmm2
	pcmpgtb	.LCPI42_2(%rip), %xmm2
	movdqa	.LCPI42_13(%rip), %xmm5         # xmm5 = [192,192,192,192,192,192,192,192,192,192,192,192,192,192,192,192]
	por	%xmm3, %xmm5
	pand	%xmm2, %xmm5
	movdqa	.LCPI42_14(%rip), %xmm0         # xmm0 = [7,7,7,7,7,7,7,7,7,7,7,7,7,7,7,7]
	pminub	%xmm1, %xmm0
	pcmpeqb	%xmm1, %xmm0
	movdqa	.LCPI42_12(%rip), %xmm1         # xmm1 = [128,128,128,128,128,128,128,128,128,128,128,128,128,128,128,128]
	por	%xmm1, %xmm3
	pblendvb	%xmm0, %xmm5, %xmm3
	pand	%xmm6, %xmm4
	por	%xmm1, %xmm4
	pandn	%xmm0, %xmm2
	movdqa	%xmm2, %xmm0
	pblendvb	%xmm0, %xmm6, %xmm4
	pmovmskb	%xmm3, %r14d
	movdqa	%xmm3, %xmm0
	punpcklbw	%xmm4, %xmm0            # xmm0 = xmm0[0],xmm4[0],xmm0[1],xmm4[1],xmm0[2],xmm4[2],xmm0[3],xmm4[3],xmm0[4],xmm4[4],xmm0[5],xmm4[5],xmm0[6],xmm4[6],xmm0[7],xmm4[7]
	punpckhbw	%xmm4, %xmm3            # xmm3 = xmm3[8],xmm4[8],xmm3[9],xmm4[9],xmm3[10],xmm4[10],xmm3[11],xmm4[11],xmm3[12],xmm4[12],xmm3[13],xmm4[13],xmm3[14],xmm4[14],xmm3[15],xmm4[15]
	movzbl	%r14b, %r10d
	xorl	%r11d, %r11d
	popcntl	%r10d, %r11d
	shll	$4, %r10d
	leaq	.Lstatic.19(%rip), %rbx
	movdqu	(%r10,%rbx), %xmm1
	pshufb	%xmm1, %xmm0
	shrl	$8, %r14d
	xorl	%r10d, %r10d
	popcntl	%r14d, %r10d
	shll	$4, %r14d
	movdqu	(%r14,%rbx), %xmm1
	pshufb	%xmm1, %xmm3
	movdqu	%xmm0, (%r9,%r8)
	addq	%r8, %r11
	movdqu	%xmm3, 8(%r9,%r11)
	leaq	(%r10,%r11), %r8
	addq	$16, %r8
	movl	$16, %r11d
	movq	8(%rdx), %r9
	cmpq	%r8, %r9
	jbe	.LBB42_12
.LBB42_11:                              # %join.3.i504
                                        #   in Loop: Header=BB42_3 Depth=1
	movq	%r8, 8(%rdx)
	movq	%r8, %r9
.LBB42_12:                              # %"recoding::list::append_block::<#e3b2a9d4d2861db8>.exit"
                                        #   in Loop: Header=BB42_3 Depth=1
	movq	%r9, %r8
	testq	%r11, %r11
	je	.LBB42_20
.LBB42_13:                              # %join.11.i
                                        #   in Loop: Header=BB42_3 Depth=1
	leaq	(%rax,%r11,2), %rax
	movq	%rsi, %rcx
	subq	%rax, %rcx
	cmpq	$31, %rcx
	jbe	.LBB42_27
# %bb.14:                               # %then.3.i
                                        #   in Loop: Header=BB42_3 Depth=1
	movq	16(%rdx), %r10
	movq	%r10, %r9
	subq	%r8, %r9
	cmpq	$64, %r9
	jae	.LBB42_3
	jmp	.LBB42_20
.LBB42_10:                              # %then.5.i
                                        #   in Loop: Header=BB42_3 Depth=1
	movdqa	%xmm6, %xmm0
	psrlw	$6, %xmm0
	pand	.LCPI42_16(%rip), %xmm0
	movdqa	%xmm1, %xmm5
	psllw	$2, %xmm5
	pand	.LCPI42_11(%rip), %xmm5
	por	%xmm0, %xmm5
	movdqa	.LCPI42_6(%rip), %xmm4          # xmm4 = [63,63,63,63,63,63,63,63,63,63,63,63,63,63,63,63]
	pand	%xmm4, %xmm5
	movdqa	%xmm5, %xmm3
	pcmpgtb	.LCPI42_2(%rip), %xmm3
	movdqa	.LCPI42_13(%rip), %xmm7         # xmm7 = [192,192,192,192,192,192,192,192,192,192,192,192,192,192,192,192]
	por	%xmm5, %xmm7
	pand	%xmm3, %xmm7
	movdqa	.LCPI42_14(%rip), %xmm2         # xmm2 = [7,7,7,7,7,7,7,7,7,7,7,7,7,7,7,7]
	pminub	%xmm1, %xmm2
	pcmpeqb	%xmm1, %xmm2
	movdqa	.LCPI42_12(%rip), %xmm8         # xmm8 = [128,128,128,128,128,128,128,128,128,128,128,128,128,128,128,128]
	por	%xmm8, %xmm5
	movdqa	%xmm2, %xmm0
	pblendvb	%xmm0, %xmm7, %xmm5
	pand	%xmm6, %xmm4
	por	%xmm8, %xmm4
	pandn	%xmm2, %xmm3
	movdqa	%xmm3, %xmm0
	pblendvb	%xmm0, %xmm6, %xmm4
	psrlw	$4, %xmm1
	pand	.LCPI42_10(%rip), %xmm1
	por	.LCPI42_18(%rip), %xmm1
	pandn	%xmm1, %xmm2
	movdqa	%xmm2, %xmm0
	punpcklbw	%xmm5, %xmm0            # xmm0 = xmm0[0],xmm5[0],xmm0[1],xmm5[1],xmm0[2],xmm5[2],xmm0[3],xmm5[3],xmm0[4],xmm5[4],xmm0[5],xmm5[5],xmm0[6],xmm5[6],xmm0[7],xmm5[7]
	punpckhbw	%xmm5, %xmm2            # xmm2 = xmm2[8],xmm5[8],xmm2[9],xmm5[9],xmm2[10],xmm5[10],xmm2[11],xmm5[11],xmm2[12],xmm5[12],xmm2[13],xmm5[13],xmm2[14],xmm5[14],xmm2[15],xmm5[15]
	movdqa	%xmm4, %xmm1
	punpcklbw	%xmm4, %xmm1            # xmm1 = xmm1[0],xmm4[0],xmm1[1],xmm4[1],xmm1[2],xmm4[2],xmm1[3],xmm4[3],xmm1[4],xmm4[4],xmm1[5],xmm4[5],xmm1[6],xmm4[6],xmm1[7],xmm4[7]
	punpckhbw	%xmm4, %xmm4            # xmm4 = xmm4[8,8,9,9,10,10,11,11,12,12,13,13,14,14,15,15]
	pmovmskb	%xmm0, %r10d
	movdqa	%xmm0, %xmm3
	punpcklbw	%xmm1, %xmm3            # xmm3 = xmm3[0],xmm1[0],xmm3[1],xmm1[1],xmm3[2],xmm1[2],xmm3[3],xmm1[3],xmm3[4],xmm1[4],xmm3[5],xmm1[5],xmm3[6],xmm1[6],xmm3[7],xmm1[7]
	punpckhbw	%xmm1, %xmm0            # xmm0 = xmm0[8],xmm1[8],xmm0[9],xmm1[9],xmm0[10],xmm1[10],xmm0[11],xmm1[11],xmm0[12],xmm1[12],xmm0[13],xmm1[13],xmm0[14],xmm1[14],xmm0[15],xmm1[15]
	movzbl	%r10b, %r11d
	popcntl	%r11d, %ebx
	shll	$4, %r11d
	leaq	.Lstatic.20(%rip), %r14
	movdqu	(%r11,%r14), %xmm1
	pshufb	%xmm1, %xmm3
	shrl	$8, %r10d
	xorl	%r11d, %r11d
	popcntl	%r10d, %r11d
	shll	$4, %r10d
	movdqu	(%r10,%r14), %xmm1
	pshufb	%xmm1, %xmm0
	addq	%r8, %rbx
	leaq	(%r11,%rbx), %r10
	addq	$4, %r10
	movdqu	%xmm3, (%r9,%r8)
	movdqu	%xmm0, 4(%r9,%rbx)
	pmovmskb	%xmm2, %r8d
	movdqa	%xmm2, %xmm0
	punpcklbw	%xmm4, %xmm0            # xmm0 = xmm0[0],xmm4[0],xmm0[1],xmm4[1],xmm0[2],xmm4[2],xmm0[3],xmm4[3],xmm0[4],xmm4[4],xmm0[5],xmm4[5],xmm0[6],xmm4[6],xmm0[7],xmm4[7]
	punpckhbw	%xmm4, %xmm2            # xmm2 = xmm2[8],xmm4[8],xmm2[9],xmm4[9],xmm2[10],xmm4[10],xmm2[11],xmm4[11],xmm2[12],xmm4[12],xmm2[13],xmm4[13],xmm2[14],xmm4[14],xmm2[15],xmm4[15]
	movzbl	%r8b, %r11d
	xorl	%ebx, %ebx
	popcntl	%r11d, %ebx
	shll	$4, %r11d
	movdqu	(%r11,%r14), %xmm1
	pshufb	%xmm1, %xmm0
	leaq	(%rbx,%r10), %r11
	addq	$4, %r11
	shrl	$8, %r8d
	xorl	%ebx, %ebx
	popcntl	%r8d, %ebx
	shll	$4, %r8d
	movdqu	(%r8,%r14), %xmm1
	pshufb	%xmm1, %xmm2
	movdqu	%xmm0, 4(%r9,%r10)
	movdqu	%xmm2, 4(%r9,%r11)
	leaq	(%rbx,%r11), %r8
	addq	$8, %r8
	movl	$16, %r11d
	movq	8(%rdx), %r9
	cmpq	%r8, %r9
	jbe	.LBB42_12
	jmp	.LBB42_11
.LBB42_15:                              #   in Loop: Header=BB42_3 Depth=1
	xorl	%r11d, %r11d
	movq	8(%rdx), %r9
	cmpq	%r8, %r9
	ja	.LBB42_11
	jmp	.LBB42_12
.LBB42_16:
	xorl	%eax, %eax
	cmpq	$16, %rsi
	jae	.LBB42_19
	jmp	.LBB42_25
.LBB42_18:
	xorl	%eax, %eax
.LBB42_19:
	movq	%rsi, %rcx
.LBB42_20:                              # %then.3.i392.lr.ph
	movq	8(%rdx), %r8
	movq	16(%rdx), %r9
	movq	%r9, %r10
	subq	%r8, %r10
	cmpq	$8, %r10
	jb	.LBB42_25
# %bb.21:                               # %join.5.i397.preheader
	addq	%rax, -24(%rsp)                 # 8-byte Folded Spill
	addq	$-16, %rcx
	addq	$-8, %r10
	addq	$8, %r8
	xorl	%esi, %esi
	.p2align	4
.LBB42_22:                              # %join.5.i397
                                        # =>This Inner Loop Header: Depth=1
	movq	-24(%rsp), %rdi                 # 8-byte Reload
	movdqu	(%rdi,%rsi), %xmm0
	movdqa	.LCPI42_20(%rip), %xmm1         # xmm1 = [128,128,128,128,128,128,128,128]
	pmaxuw	%xmm0, %xmm1
	pcmpeqw	%xmm0, %xmm1
	pmovmskb	%xmm1, %r11d
	testl	%r11d, %r11d
	jne	.LBB42_26
# %bb.23:                               # %arm.10.i
                                        #   in Loop: Header=BB42_22 Depth=1
	pextrw	$3, %xmm0, %r11d
	pextrw	$4, %xmm0, %ebx
	pextrw	$5, %xmm0, %r12d
	pextrw	$6, %xmm0, %r14d
	pextrw	$7, %xmm0, %r15d
	shlq	$56, %r15
	shlq	$48, %r14
	shlq	$40, %r12
	shlq	$32, %rbx
	orq	%r12, %rbx
	orq	%r14, %rbx
	orq	%r15, %rbx
	pextrw	$2, %xmm0, %ebp
	shlq	$24, %r11
	movzbl	%bpl, %r15d
	pextrw	$1, %xmm0, %ebp
	shll	$16, %r15d
	shll	$8, %ebp
	movd	%xmm0, %r14d
	movzbl	%r14b, %r14d
	orl	%ebp, %r14d
	movzwl	%r14w, %r14d
	orl	%r15d, %r14d
	orq	%r11, %r14
	orq	%rbx, %r14
	addq	$16, %rsi
	movq	(%rdx), %r11
	movq	%r14, -8(%r11,%r8)
	movq	%r11, (%rdx)
	movq	%r8, 8(%rdx)
	movq	%r9, 16(%rdx)
	subq	$16, %rcx
	jb	.LBB42_26
# %bb.24:                               # %arm.10.i
                                        #   in Loop: Header=BB42_22 Depth=1
	addq	$8, %r8
	cmpq	$7, %r10
	leaq	-8(%r10), %r10
	ja	.LBB42_22
	jmp	.LBB42_26
.LBB42_27:
	movq	%rcx, %rsi
	cmpq	$16, %rsi
	jae	.LBB42_19
.LBB42_25:
	xorl	%esi, %esi
.LBB42_26:                              # %"recoding::kernels::narrow_ascii::<#b3a77c927faee343>.exit"
	addq	%rsi, %rax
	popq	%rbx
	.cfi_def_cfa_offset 48
	popq	%r12
	.cfi_def_cfa_offset 40
	popq	%r13
	.cfi_def_cfa_offset 32
	popq	%r14
	.cfi_def_cfa_offset 24
	popq	%r15
	.cfi_def_cfa_offset 16
	popq	%rbp
	.cfi_def_cfa_offset 8
	retq
.Lfunc_end42:
	.size	"recoding::kernels::NarrowedKernelUtf16Utf8::put_text::<#a02055794059cfb2>", .Lfunc_end42-"recoding::kernels::NarrowedKernelUtf16Utf8::put_text::<#a02055794059cfb2>"
	.cfi_endproc
                                        # -- End function
	.section	.rodata.cst16,"aM",@progbits,16
	.p2align	4, 0x0                          # -- Begin function recoding::kernels::put_windows::<#a8b304b230851da3>
.LCPI43_0:
	.short	255                             # 0xff
	.short	255                             # 0xff
	.short	255                             # 0xff
	.short	255                             # 0xff
	.short	255                             # 0xff
	.short	255                             # 0xff
	.short	255                             # 0xff
	.short	255                             # 0xff
.LCPI43_1:
	.byte	1                               # 0x1
	.byte	3                               # 0x3
	.byte	5                               # 0x5
	.byte	7                               # 0x7
	.byte	9                               # 0x9
	.byte	11                              # 0xb
	.byte	13                              # 0xd
	.byte	15                              # 0xf
	.zero	1
	.zero	1
	.zero	1
	.zero	1
	.zero	1
	.zero	1
	.zero	1
	.zero	1
.LCPI43_2:
	.zero	16,63
.LCPI43_3:
	.zero	16,54
.LCPI43_4:
	.byte	255                             # 0xff
	.byte	255                             # 0xff
	.byte	255                             # 0xff
	.byte	255                             # 0xff
	.byte	255                             # 0xff
	.byte	255                             # 0xff
	.byte	255                             # 0xff
	.byte	255                             # 0xff
	.byte	255                             # 0xff
	.byte	255                             # 0xff
	.byte	255                             # 0xff
	.byte	255                             # 0xff
	.byte	255                             # 0xff
	.byte	255                             # 0xff
	.byte	255                             # 0xff
	.byte	0                               # 0x0
.LCPI43_5:
	.zero	16,55
.LCPI43_6:
	.zero	16,253
.LCPI43_7:
	.zero	16,252
.LCPI43_8:
	.zero	16,216
.LCPI43_9:
	.byte	1                               # 0x1
	.byte	3                               # 0x3
	.byte	5                               # 0x5
	.byte	7                               # 0x7
	.byte	9                               # 0x9
	.byte	11                              # 0xb
	.byte	13                              # 0xd
	.byte	15                              # 0xf
	.byte	0                               # 0x0
	.byte	0                               # 0x0
	.byte	0                               # 0x0
	.byte	0                               # 0x0
	.byte	0                               # 0x0
	.byte	0                               # 0x0
	.byte	0                               # 0x0
	.byte	0                               # 0x0
	.section	".text.recoding::kernels::put_windows::<#a8b304b230851da3>","ax",@progbits
	.p2align	4
	.type	"recoding::kernels::put_windows::<#a8b304b230851da3>",@function
"recoding::kernels::put_windows::<#a8b304b230851da3>": # @"recoding::kernels::put_windows::<#a8b304b230851da3>"
	.cfi_startproc
# %bb.0:                                # %start
	pushq	%rbp
	.cfi_def_cfa_offset 16
	pushq	%r15
	.cfi_def_cfa_offset 24
	pushq	%r14
	.cfi_def_cfa_offset 32
	pushq	%r13
	.cfi_def_cfa_offset 40
	pushq	%r12
	.cfi_def_cfa_offset 48
	pushq	%rbx
	.cfi_def_cfa_offset 56
	subq	$24, %rsp
	.cfi_def_cfa_offset 80
	.cfi_offset %rbx, -56
	.cfi_offset %r12, -48
	.cfi_offset %r13, -40
	.cfi_offset %r14, -32
	.cfi_offset %r15, -24
	.cfi_offset %rbp, -16
	movq	%rdx, %r8
	movq	%rsi, (%rsp)                    # 8-byte Spill
	movq	%rdi, 8(%rsp)                   # 8-byte Spill
	xorl	%ebx, %ebx
	xorl	%edx, %edx
	xorl	%ebp, %ebp
	.p2align	4
.LBB43_1:                               # %then.6
                                        # =>This Inner Loop Header: Depth=1
	movq	16(%r8), %rax
	subq	8(%r8), %rax
	cmpq	$112, %rax
	jb	.LBB43_4
# %bb.2:                                # %join.5
                                        #   in Loop: Header=BB43_1 Depth=1
	movq	8(%rsp), %rax                   # 8-byte Reload
	movdqu	(%rax,%rbx), %xmm6
	movdqu	16(%rax,%rbx), %xmm0
	movdqu	32(%rax,%rbx), %xmm7
	movdqu	48(%rax,%rbx), %xmm1
	movdqa	.LCPI43_0(%rip), %xmm8          # xmm8 = [255,255,255,255,255,255,255,255]
	movdqa	%xmm1, %xmm2
	pand	%xmm8, %xmm2
	movdqa	%xmm7, %xmm3
	pand	%xmm8, %xmm3
	packuswb	%xmm2, %xmm3
	movdqa	%xmm0, %xmm2
	pand	%xmm8, %xmm2
	pand	%xmm6, %xmm8
	packuswb	%xmm2, %xmm8
	movq	.LCPI43_9(%rip), %xmm2          # xmm2 = [1,3,5,7,9,11,13,15,0,0,0,0,0,0,0,0]
	pshufb	%xmm2, %xmm0
	pshufb	%xmm2, %xmm6
	punpcklqdq	%xmm0, %xmm6            # xmm6 = xmm6[0],xmm0[0]
	pshufb	%xmm2, %xmm1
	pshufb	%xmm2, %xmm7
	punpcklqdq	%xmm1, %xmm7            # xmm7 = xmm7[0],xmm1[0]
	movdqa	%xmm7, %xmm0
	psrlw	$2, %xmm0
	movdqa	.LCPI43_2(%rip), %xmm2          # xmm2 = [63,63,63,63,63,63,63,63,63,63,63,63,63,63,63,63]
	pand	%xmm2, %xmm0
	movdqa	%xmm6, %xmm1
	psrlw	$2, %xmm1
	pand	%xmm2, %xmm1
	movdqa	.LCPI43_3(%rip), %xmm5          # xmm5 = [54,54,54,54,54,54,54,54,54,54,54,54,54,54,54,54]
	movdqa	%xmm1, %xmm4
	pcmpeqb	%xmm5, %xmm4
	pcmpeqb	%xmm0, %xmm5
	movdqa	.LCPI43_4(%rip), %xmm9          # xmm9 = [255,255,255,255,255,255,255,255,255,255,255,255,255,255,255,0]
	pand	%xmm5, %xmm9
	movdqa	.LCPI43_5(%rip), %xmm2          # xmm2 = [55,55,55,55,55,55,55,55,55,55,55,55,55,55,55,55]
	pcmpeqb	%xmm2, %xmm0
	pcmpeqb	%xmm2, %xmm1
	palignr	$15, %xmm4, %xmm5               # xmm5 = xmm4[15],xmm5[0,1,2,3,4,5,6,7,8,9,10,11,12,13,14]
	movdqa	%xmm4, %xmm2
	pslldq	$1, %xmm2                       # xmm2 = zero,xmm2[0,1,2,3,4,5,6,7,8,9,10,11,12,13,14]
	pxor	%xmm1, %xmm2
	pxor	%xmm0, %xmm5
	movdqa	%xmm5, %xmm10
	palignr	$1, %xmm2, %xmm10               # xmm10 = xmm2[1,2,3,4,5,6,7,8,9,10,11,12,13,14,15],xmm10[0]
	pand	%xmm1, %xmm2
	palignr	$1, %xmm5, %xmm1                # xmm1 = xmm5[1,2,3,4,5,6,7,8,9,10,11,12,13,14,15],xmm1[0]
	pand	%xmm9, %xmm1
	pand	%xmm4, %xmm10
	pxor	%xmm9, %xmm9
	por	%xmm10, %xmm2
	pand	%xmm0, %xmm5
	por	%xmm1, %xmm5
	movdqa	.LCPI43_6(%rip), %xmm1          # xmm1 = [253,253,253,253,253,253,253,253,253,253,253,253,253,253,253,253]
	pcmpeqb	%xmm9, %xmm2
	movdqa	%xmm1, %xmm4
	movdqa	%xmm2, %xmm0
	pblendvb	%xmm0, %xmm8, %xmm4
	pcmpeqb	%xmm9, %xmm5
	movdqa	%xmm5, %xmm0
	pblendvb	%xmm0, %xmm3, %xmm1
	pcmpeqd	%xmm3, %xmm3
	pmovmskb	%xmm2, %eax
	pxor	%xmm3, %xmm2
	pxor	%xmm5, %xmm3
	por	%xmm7, %xmm3
	pand	.LCPI43_7(%rip), %xmm7
	pcmpeqb	.LCPI43_8(%rip), %xmm7
	por	%xmm6, %xmm2
	movq	%rdx, 16(%rsp)                  # 8-byte Spill
	pmovmskb	%xmm7, %ecx
	xorl	%r12d, %r12d
	testw	%cx, %cx
	setns	%r12b
	leaq	31(%r12), %rdi
	xorl	$65535, %eax                    # imm = 0xFFFF
	pmovmskb	%xmm5, %r15d
	notl	%r15d
	shll	$16, %r15d
	orl	%eax, %r15d
	popcntl	%r15d, %r13d
	movdqa	%xmm4, %xmm0
	movq	%r8, %r14
	movq	%r8, %rsi
	callq	"recoding::list::append_text_units::<#e3b2a9d4d2861db8>"
	movq	16(%rsp), %rdx                  # 8-byte Reload
	leaq	(%rbx,%r12,2), %rbx
	addq	$62, %rbx
	addq	%r13, %rdx
	movq	%rbp, %rax
	incq	%rax
	xorl	%ebp, %ebp
	testl	%r15d, %r15d
	cmoveq	%rax, %rbp
	cmpq	$8, %rdx
	movl	$8, %eax
	cmovbq	%rdx, %rax
	cmpq	%rax, %rbp
	ja	.LBB43_4
# %bb.3:                                # %join.5
                                        #   in Loop: Header=BB43_1 Depth=1
	movq	(%rsp), %rax                    # 8-byte Reload
	subq	%rbx, %rax
	cmpq	$63, %rax
	movq	%r14, %r8
	ja	.LBB43_1
.LBB43_4:                               # %after.1
	movq	%rbx, %rax
	addq	$24, %rsp
	.cfi_def_cfa_offset 56
	popq	%rbx
	.cfi_def_cfa_offset 48
	popq	%r12
	.cfi_def_cfa_offset 40
	popq	%r13
	.cfi_def_cfa_offset 32
	popq	%r14
	.cfi_def_cfa_offset 24
	popq	%r15
	.cfi_def_cfa_offset 16
	popq	%rbp
	.cfi_def_cfa_offset 8
	retq
.Lfunc_end43:
	.size	"recoding::kernels::put_windows::<#a8b304b230851da3>", .Lfunc_end43-"recoding::kernels::put_windows::<#a8b304b230851da3>"
	.cfi_endproc
                                        # -- End function
	.section	.rodata.cst16,"aM",@progbits,16
	.p2align	4, 0x0                          # -- Begin function recoding::list::append_text_units::<#e3b2a9d4d2861db8>
.LCPI44_0:
	.zero	16,1
	.section	".text.recoding::list::append_text_units::<#e3b2a9d4d2861db8>","ax",@progbits
	.p2align	4
	.type	"recoding::list::append_text_units::<#e3b2a9d4d2861db8>",@function
"recoding::list::append_text_units::<#e3b2a9d4d2861db8>": # @"recoding::list::append_text_units::<#e3b2a9d4d2861db8>"
	.cfi_startproc
# %bb.0:                                # %start
	pushq	%r15
	.cfi_def_cfa_offset 16
	pushq	%r14
	.cfi_def_cfa_offset 24
	pushq	%rbx
	.cfi_def_cfa_offset 32
	subq	$64, %rsp
	.cfi_def_cfa_offset 96
	.cfi_offset %rbx, -32
	.cfi_offset %r14, -24
	.cfi_offset %r15, -16
	movq	%rsi, %rbx
	movq	8(%rsi), %rax
	movq	16(%rsi), %rcx
	movq	%rcx, %rsi
	subq	%rax, %rsi
	movq	%rax, %rdx
	cmpq	$111, %rsi
	jbe	.LBB44_1
.LBB44_4:                               # %join.3.i
	leaq	112(%rdx), %r8
	movq	(%rbx), %rsi
	pxor	%xmm4, %xmm4
	movdqu	%xmm4, 96(%rsi,%rdx)
	movdqu	%xmm4, 80(%rsi,%rdx)
	movdqu	%xmm4, 64(%rsi,%rdx)
	movdqu	%xmm4, 48(%rsi,%rdx)
	movdqu	%xmm4, 32(%rsi,%rdx)
	movdqu	%xmm4, 16(%rsi,%rdx)
	movdqu	%xmm4, (%rsi,%rdx)
	movq	%rsi, (%rbx)
	movq	%r8, 8(%rbx)
	movq	%rcx, 16(%rbx)
	cmpq	$32, %rdi
	jne	.LBB44_6
.LBB44_7:                               # %then.2.i
	movdqa	%xmm1, %xmm5
	por	%xmm0, %xmm5
	psrlw	$7, %xmm5
	pand	.LCPI44_0(%rip), %xmm5
	movdqa	%xmm3, %xmm4
	por	%xmm2, %xmm4
	por	%xmm5, %xmm4
	ptest	%xmm4, %xmm4
	je	.LBB44_9
# %bb.8:                                # %then.2.split.i
	movl	$32, %edi
.LBB44_6:                               # %start.split.i
	movq	%rax, %rdx
	callq	"utf_lanes::utf16_blocks::write_other_units"
	cmpq	%rax, 8(%rbx)
	jbe	.LBB44_12
.LBB44_11:                              # %join.3.i11
	movq	%rax, 8(%rbx)
.LBB44_12:                              # %"std_alloc::vec::Vec::truncate::<#8193b041ae25b2e3>.exit"
	addq	$64, %rsp
	.cfi_def_cfa_offset 32
	popq	%rbx
	.cfi_def_cfa_offset 24
	popq	%r14
	.cfi_def_cfa_offset 16
	popq	%r15
	.cfi_def_cfa_offset 8
	retq
.LBB44_9:                               # %then.5.i
	.cfi_def_cfa_offset 96
	movdqu	%xmm0, (%rsi,%rax)
	movdqu	%xmm1, 16(%rsi,%rax)
	addq	$32, %rax
	cmpq	%rax, 8(%rbx)
	ja	.LBB44_11
	jmp	.LBB44_12
.LBB44_1:                               # %"std_alloc::vec::Vec::grow::<#5fdc5e19576447a7>.exit.i"
	movaps	%xmm0, (%rsp)                   # 16-byte Spill
	movaps	%xmm1, 16(%rsp)                 # 16-byte Spill
	movaps	%xmm2, 32(%rsp)                 # 16-byte Spill
	movaps	%xmm3, 48(%rsp)                 # 16-byte Spill
	movq	%rdi, %r14
	movq	%rax, %r15
	movl	$112, %esi
	movq	%rbx, %rdi
	callq	"std_alloc::vec::Vec::grow_amortized::<#5fdc5e19576447a7>"
	testb	%al, %al
	je	.LBB44_2
# %bb.3:                                # %"std_alloc::vec::Vec::grow::<#5fdc5e19576447a7>.exit.join.3_crit_edge.i"
	movq	8(%rbx), %rdx
	movq	16(%rbx), %rcx
	movq	%r15, %rax
	movq	%r14, %rdi
	movdqa	48(%rsp), %xmm3                 # 16-byte Reload
	movdqa	32(%rsp), %xmm2                 # 16-byte Reload
	movdqa	16(%rsp), %xmm1                 # 16-byte Reload
	movdqa	(%rsp), %xmm0                   # 16-byte Reload
	jmp	.LBB44_4
.LBB44_2:                               # %"std_alloc::vec::Vec::grow::<#5fdc5e19576447a7>.exit.i.std_alloc::vec::Vec::extend_from_slice::<#0cd040e5c49bc722>.exit_crit_edge"
	movq	(%rbx), %rsi
	movq	%r15, %rax
	movq	%r14, %rdi
	movdqa	48(%rsp), %xmm3                 # 16-byte Reload
	movdqa	32(%rsp), %xmm2                 # 16-byte Reload
	movdqa	16(%rsp), %xmm1                 # 16-byte Reload
	movdqa	(%rsp), %xmm0                   # 16-byte Reload
	cmpq	$32, %rdi
	je	.LBB44_7
	jmp	.LBB44_6
.Lfunc_end44:
	.size	"recoding::list::append_text_units::<#e3b2a9d4d2861db8>", .Lfunc_end44-"recoding::list::append_text_units::<#e3b2a9d4d2861db8>"
	.cfi_endproc
                                        # -- End function
	.section	.rodata.cst16,"aM",@progbits,16
	.p2align	4, 0x0                          # -- Begin function utf_lanes::utf16_blocks::write_other_units
.LCPI45_0:
	.zero	16,248
.LCPI45_1:
	.zero	16,216
.LCPI45_2:
	.zero	16,48
.LCPI45_3:
	.zero	16,252
.LCPI45_4:
	.zero	16,2
.LCPI45_5:
	.zero	16,12
.LCPI45_6:
	.zero	16,3
.LCPI45_7:
	.zero	16,128
.LCPI45_8:
	.zero	16,63
.LCPI45_9:
	.zero	16,192
.LCPI45_10:
	.zero	16,191
.LCPI45_11:
	.zero	16,7
.LCPI45_12:
	.zero	16,241
.LCPI45_13:
	.zero	16,16
.LCPI45_14:
	.zero	16,15
.LCPI45_15:
	.zero	16,224
.LCPI45_16:
	.zero	16,8
.LCPI45_17:
	.zero	16,1
	.section	".text.utf_lanes::utf16_blocks::write_other_units","ax",@progbits
	.p2align	4
	.type	"utf_lanes::utf16_blocks::write_other_units",@function
"utf_lanes::utf16_blocks::write_other_units": # @"utf_lanes::utf16_blocks::write_other_units"
	.cfi_startproc
# %bb.0:                                # %start
	pushq	%r15
	.cfi_def_cfa_offset 16
	pushq	%r14
	.cfi_def_cfa_offset 24
	pushq	%r12
	.cfi_def_cfa_offset 32
	pushq	%rbx
	.cfi_def_cfa_offset 40
	.cfi_offset %rbx, -40
	.cfi_offset %r12, -32
	.cfi_offset %r14, -24
	.cfi_offset %r15, -16
	movq	%rdx, %rax
	movdqa	%xmm2, %xmm14
	movdqa	%xmm1, %xmm10
	movdqa	%xmm0, %xmm15
	movdqa	.LCPI45_0(%rip), %xmm2          # xmm2 = [248,248,248,248,248,248,248,248,248,248,248,248,248,248,248,248]
	movdqa	%xmm3, %xmm4
	pand	%xmm2, %xmm4
	pand	%xmm14, %xmm2
	cmpq	$32, %rdi
	movdqa	%xmm1, -56(%rsp)                # 16-byte Spill
	jne	.LBB45_1
# %bb.2:                                # %then.2
	movdqa	.LCPI45_1(%rip), %xmm0          # xmm0 = [216,216,216,216,216,216,216,216,216,216,216,216,216,216,216,216]
	pcmpeqb	%xmm0, %xmm2
	pcmpeqb	%xmm0, %xmm4
	movdqa	%xmm4, %xmm0
	por	%xmm2, %xmm0
	pmovmskb	%xmm0, %ecx
	testl	%ecx, %ecx
	je	.LBB45_5
# %bb.3:                                # %then.2.split
	movdqa	%xmm14, %xmm0
	psllw	$2, %xmm0
	movdqa	%xmm0, -88(%rsp)                # 16-byte Spill
	movdqa	.LCPI45_3(%rip), %xmm6          # xmm6 = [252,252,252,252,252,252,252,252,252,252,252,252,252,252,252,252]
	pand	%xmm6, %xmm0
	movdqa	.LCPI45_4(%rip), %xmm1          # xmm1 = [2,2,2,2,2,2,2,2,2,2,2,2,2,2,2,2]
	movdqa	%xmm14, %xmm11
	movdqa	%xmm15, %xmm12
	psrlw	$6, %xmm12
	movdqa	%xmm6, %xmm14
	pandn	%xmm12, %xmm14
	movdqa	.LCPI45_8(%rip), %xmm13         # xmm13 = [63,63,63,63,63,63,63,63,63,63,63,63,63,63,63,63]
	por	%xmm0, %xmm14
	pand	%xmm13, %xmm14
	movdqa	%xmm1, %xmm0
	pcmpgtb	%xmm14, %xmm0
	movdqa	%xmm0, %xmm5
	movdqa	%xmm0, -72(%rsp)                # 16-byte Spill
	movdqa	%xmm4, -104(%rsp)               # 16-byte Spill
	movdqa	.LCPI45_9(%rip), %xmm4          # xmm4 = [192,192,192,192,192,192,192,192,192,192,192,192,192,192,192,192]
	movdqa	%xmm14, %xmm0
	por	%xmm4, %xmm0
	movdqa	%xmm2, -120(%rsp)               # 16-byte Spill
	movdqa	%xmm5, %xmm2
	pandn	%xmm0, %xmm2
	movdqa	.LCPI45_11(%rip), %xmm8         # xmm8 = [7,7,7,7,7,7,7,7,7,7,7,7,7,7,7,7]
	movdqa	%xmm10, %xmm7
	movdqa	%xmm3, %xmm10
	pminub	%xmm8, %xmm10
	pminub	%xmm11, %xmm8
	pcmpeqb	%xmm11, %xmm8
	por	.LCPI45_7(%rip), %xmm14
	movdqa	%xmm8, %xmm0
	pblendvb	%xmm0, %xmm2, %xmm14
	movdqa	%xmm3, %xmm2
	psllw	$2, %xmm2
	movdqa	%xmm2, %xmm0
	pand	%xmm6, %xmm0
	movdqa	%xmm7, %xmm5
	psrlw	$6, %xmm5
	movdqa	%xmm3, %xmm9
	movdqa	%xmm15, %xmm1
	movdqa	%xmm6, %xmm15
	pandn	%xmm5, %xmm15
	por	%xmm0, %xmm15
	pand	%xmm13, %xmm15
	movdqa	.LCPI45_4(%rip), %xmm3          # xmm3 = [2,2,2,2,2,2,2,2,2,2,2,2,2,2,2,2]
	pcmpgtb	%xmm15, %xmm3
	movdqa	%xmm3, -40(%rsp)                # 16-byte Spill
	por	%xmm15, %xmm4
	pandn	%xmm4, %xmm3
	pcmpeqb	%xmm9, %xmm10
	por	.LCPI45_7(%rip), %xmm15
	movdqa	%xmm10, %xmm0
	pblendvb	%xmm0, %xmm3, %xmm15
	movdqa	%xmm7, %xmm3
	psllw	$4, %xmm3
	movdqa	%xmm1, %xmm7
	movdqa	%xmm1, %xmm6
	psllw	$4, %xmm6
	movdqa	.LCPI45_2(%rip), %xmm0          # xmm0 = [48,48,48,48,48,48,48,48,48,48,48,48,48,48,48,48]
	pand	%xmm0, %xmm6
	pand	%xmm0, %xmm3
	movdqa	.LCPI45_5(%rip), %xmm1          # xmm1 = [12,12,12,12,12,12,12,12,12,12,12,12,12,12,12,12]
	pand	%xmm1, %xmm2
	movdqa	.LCPI45_6(%rip), %xmm4          # xmm4 = [3,3,3,3,3,3,3,3,3,3,3,3,3,3,3,3]
	pand	%xmm4, %xmm5
	por	%xmm2, %xmm5
	movdqa	%xmm3, %xmm0
	palignr	$15, %xmm6, %xmm0               # xmm0 = xmm6[15],xmm0[0,1,2,3,4,5,6,7,8,9,10,11,12,13,14]
	por	%xmm0, %xmm5
	movdqa	.LCPI45_7(%rip), %xmm2          # xmm2 = [128,128,128,128,128,128,128,128,128,128,128,128,128,128,128,128]
	por	%xmm2, %xmm5
	movaps	-104(%rsp), %xmm0               # 16-byte Reload
	pblendvb	%xmm0, %xmm5, %xmm15
	palignr	$15, %xmm3, %xmm6               # xmm6 = xmm3[15],xmm6[0,1,2,3,4,5,6,7,8,9,10,11,12,13,14]
	movdqa	-88(%rsp), %xmm0                # 16-byte Reload
	pand	%xmm1, %xmm0
	pand	%xmm4, %xmm12
	por	%xmm0, %xmm12
	por	%xmm6, %xmm12
	por	%xmm2, %xmm12
	movaps	-120(%rsp), %xmm0               # 16-byte Reload
	pblendvb	%xmm0, %xmm12, %xmm14
	movdqa	.LCPI45_10(%rip), %xmm1         # xmm1 = [191,191,191,191,191,191,191,191,191,191,191,191,191,191,191,191]
	movdqa	%xmm7, %xmm5
	movdqa	%xmm7, %xmm0
	pminub	%xmm1, %xmm0
	pcmpeqb	%xmm7, %xmm0
	movdqa	%xmm11, %xmm2
	pand	%xmm4, %xmm2
	movdqa	.LCPI45_12(%rip), %xmm6         # xmm6 = [241,241,241,241,241,241,241,241,241,241,241,241,241,241,241,241]
	paddb	%xmm6, %xmm2
	paddb	%xmm0, %xmm2
	movdqa	%xmm11, %xmm12
	movdqa	.LCPI45_3(%rip), %xmm7          # xmm7 = [252,252,252,252,252,252,252,252,252,252,252,252,252,252,252,252]
	pand	%xmm7, %xmm12
	movdqa	.LCPI45_1(%rip), %xmm3          # xmm3 = [216,216,216,216,216,216,216,216,216,216,216,216,216,216,216,216]
	pcmpeqb	%xmm3, %xmm12
	movdqa	%xmm12, %xmm0
	pblendvb	%xmm0, %xmm2, %xmm14
	pand	%xmm9, %xmm7
	pcmpeqb	%xmm3, %xmm7
	pand	%xmm9, %xmm4
	paddb	%xmm6, %xmm4
	movdqa	-56(%rsp), %xmm3                # 16-byte Reload
	pminub	%xmm3, %xmm1
	pcmpeqb	%xmm3, %xmm1
	paddb	%xmm1, %xmm4
	movdqa	%xmm7, %xmm0
	pblendvb	%xmm0, %xmm4, %xmm15
	movdqa	%xmm3, %xmm1
	pand	%xmm13, %xmm1
	movdqa	.LCPI45_7(%rip), %xmm4          # xmm4 = [128,128,128,128,128,128,128,128,128,128,128,128,128,128,128,128]
	por	%xmm4, %xmm1
	movdqa	-40(%rsp), %xmm0                # 16-byte Reload
	pand	%xmm10, %xmm0
	pblendvb	%xmm0, %xmm3, %xmm1
	movdqa	%xmm5, %xmm2
	psrlw	$2, %xmm2
	psrlw	$2, %xmm3
	movdqa	.LCPI45_13(%rip), %xmm0         # xmm0 = [16,16,16,16,16,16,16,16,16,16,16,16,16,16,16,16]
	paddb	%xmm0, %xmm3
	paddb	%xmm0, %xmm2
	pand	%xmm13, %xmm2
	pand	%xmm13, %xmm3
	pand	%xmm5, %xmm13
	por	%xmm4, %xmm13
	movdqa	-72(%rsp), %xmm0                # 16-byte Reload
	pand	%xmm8, %xmm0
	pblendvb	%xmm0, %xmm5, %xmm13
	por	%xmm4, %xmm2
	movdqa	%xmm12, %xmm0
	pblendvb	%xmm0, %xmm2, %xmm13
	por	%xmm4, %xmm3
	movdqa	%xmm7, %xmm0
	pblendvb	%xmm0, %xmm3, %xmm1
	psrlw	$4, %xmm11
	movdqa	.LCPI45_14(%rip), %xmm0         # xmm0 = [15,15,15,15,15,15,15,15,15,15,15,15,15,15,15,15]
	pand	%xmm0, %xmm11
	psrlw	$4, %xmm9
	pand	%xmm0, %xmm9
	movdqa	.LCPI45_15(%rip), %xmm0         # xmm0 = [224,224,224,224,224,224,224,224,224,224,224,224,224,224,224,224]
	por	%xmm0, %xmm9
	por	%xmm0, %xmm11
	por	-104(%rsp), %xmm10              # 16-byte Folded Reload
	pandn	%xmm9, %xmm10
	por	-120(%rsp), %xmm8               # 16-byte Folded Reload
	pandn	%xmm11, %xmm8
	movdqa	%xmm10, %xmm0
	punpcklbw	%xmm15, %xmm0           # xmm0 = xmm0[0],xmm15[0],xmm0[1],xmm15[1],xmm0[2],xmm15[2],xmm0[3],xmm15[3],xmm0[4],xmm15[4],xmm0[5],xmm15[5],xmm0[6],xmm15[6],xmm0[7],xmm15[7]
	movdqa	%xmm8, %xmm3
	punpcklbw	%xmm14, %xmm3           # xmm3 = xmm3[0],xmm14[0],xmm3[1],xmm14[1],xmm3[2],xmm14[2],xmm3[3],xmm14[3],xmm3[4],xmm14[4],xmm3[5],xmm14[5],xmm3[6],xmm14[6],xmm3[7],xmm14[7]
	pmovmskb	%xmm3, %r11d
	pmovmskb	%xmm0, %ebx
	movdqa	%xmm1, %xmm5
	punpcklbw	%xmm1, %xmm5            # xmm5 = xmm5[0],xmm1[0],xmm5[1],xmm1[1],xmm5[2],xmm1[2],xmm5[3],xmm1[3],xmm5[4],xmm1[4],xmm5[5],xmm1[5],xmm5[6],xmm1[6],xmm5[7],xmm1[7]
	movdqa	%xmm0, %xmm2
	punpcklbw	%xmm5, %xmm2            # xmm2 = xmm2[0],xmm5[0],xmm2[1],xmm5[1],xmm2[2],xmm5[2],xmm2[3],xmm5[3],xmm2[4],xmm5[4],xmm2[5],xmm5[5],xmm2[6],xmm5[6],xmm2[7],xmm5[7]
	movdqa	%xmm13, %xmm6
	punpcklbw	%xmm13, %xmm6           # xmm6 = xmm6[0],xmm13[0],xmm6[1],xmm13[1],xmm6[2],xmm13[2],xmm6[3],xmm13[3],xmm6[4],xmm13[4],xmm6[5],xmm13[5],xmm6[6],xmm13[6],xmm6[7],xmm13[7]
	movdqa	%xmm3, %xmm4
	punpcklbw	%xmm6, %xmm4            # xmm4 = xmm4[0],xmm6[0],xmm4[1],xmm6[1],xmm4[2],xmm6[2],xmm4[3],xmm6[3],xmm4[4],xmm6[4],xmm4[5],xmm6[5],xmm4[6],xmm6[6],xmm4[7],xmm6[7]
	movzbl	%r11b, %edx
	movzbl	%bl, %r8d
	popcntl	%edx, %ecx
	shll	$4, %edx
	leaq	.Lstatic.20(%rip), %rdi
	movdqu	(%rdx,%rdi), %xmm9
	pshufb	%xmm9, %xmm4
	xorl	%edx, %edx
	popcntl	%r8d, %edx
	shll	$4, %r8d
	movdqu	(%r8,%rdi), %xmm9
	pshufb	%xmm9, %xmm2
	punpckhbw	%xmm14, %xmm8           # xmm8 = xmm8[8],xmm14[8],xmm8[9],xmm14[9],xmm8[10],xmm14[10],xmm8[11],xmm14[11],xmm8[12],xmm14[12],xmm8[13],xmm14[13],xmm8[14],xmm14[14],xmm8[15],xmm14[15]
	shrl	$8, %r11d
	xorl	%r8d, %r8d
	popcntl	%r11d, %r8d
	pmovmskb	%xmm8, %r10d
	movzbl	%r10b, %r14d
	popcntl	%r14d, %r9d
	punpckhbw	%xmm5, %xmm0            # xmm0 = xmm0[8],xmm5[8],xmm0[9],xmm5[9],xmm0[10],xmm5[10],xmm0[11],xmm5[11],xmm0[12],xmm5[12],xmm0[13],xmm5[13],xmm0[14],xmm5[14],xmm0[15],xmm5[15]
	punpckhbw	%xmm6, %xmm3            # xmm3 = xmm3[8],xmm6[8],xmm3[9],xmm6[9],xmm3[10],xmm6[10],xmm3[11],xmm6[11],xmm3[12],xmm6[12],xmm3[13],xmm6[13],xmm3[14],xmm6[14],xmm3[15],xmm6[15]
	shrl	$8, %ebx
	shll	$4, %r11d
	movdqu	(%r11,%rdi), %xmm5
	pshufb	%xmm5, %xmm3
	xorl	%r11d, %r11d
	popcntl	%ebx, %r11d
	shll	$4, %ebx
	movdqu	(%rbx,%rdi), %xmm5
	pshufb	%xmm5, %xmm0
	punpckhbw	%xmm15, %xmm10          # xmm10 = xmm10[8],xmm15[8],xmm10[9],xmm15[9],xmm10[10],xmm15[10],xmm10[11],xmm15[11],xmm10[12],xmm15[12],xmm10[13],xmm15[13],xmm10[14],xmm15[14],xmm10[15],xmm15[15]
	pmovmskb	%xmm10, %ebx
	punpckhbw	%xmm1, %xmm1            # xmm1 = xmm1[8,8,9,9,10,10,11,11,12,12,13,13,14,14,15,15]
	movdqa	%xmm10, %xmm5
	punpcklbw	%xmm1, %xmm5            # xmm5 = xmm5[0],xmm1[0],xmm5[1],xmm1[1],xmm5[2],xmm1[2],xmm5[3],xmm1[3],xmm5[4],xmm1[4],xmm5[5],xmm1[5],xmm5[6],xmm1[6],xmm5[7],xmm1[7]
	punpckhbw	%xmm13, %xmm13          # xmm13 = xmm13[8,8,9,9,10,10,11,11,12,12,13,13,14,14,15,15]
	movdqa	%xmm8, %xmm6
	punpcklbw	%xmm13, %xmm6           # xmm6 = xmm6[0],xmm13[0],xmm6[1],xmm13[1],xmm6[2],xmm13[2],xmm6[3],xmm13[3],xmm6[4],xmm13[4],xmm6[5],xmm13[5],xmm6[6],xmm13[6],xmm6[7],xmm13[7]
	movzbl	%bl, %r15d
	shll	$4, %r14d
	movdqu	(%r14,%rdi), %xmm9
	pshufb	%xmm9, %xmm6
	xorl	%r14d, %r14d
	popcntl	%r15d, %r14d
	shll	$4, %r15d
	movdqu	(%r15,%rdi), %xmm9
	pshufb	%xmm9, %xmm5
	punpckhbw	%xmm1, %xmm10           # xmm10 = xmm10[8],xmm1[8],xmm10[9],xmm1[9],xmm10[10],xmm1[10],xmm10[11],xmm1[11],xmm10[12],xmm1[12],xmm10[13],xmm1[13],xmm10[14],xmm1[14],xmm10[15],xmm1[15]
	shrl	$8, %r10d
	xorl	%r15d, %r15d
	popcntl	%r10d, %r15d
	punpckhbw	%xmm13, %xmm8           # xmm8 = xmm8[8],xmm13[8],xmm8[9],xmm13[9],xmm8[10],xmm13[10],xmm8[11],xmm13[11],xmm8[12],xmm13[12],xmm8[13],xmm13[13],xmm8[14],xmm13[14],xmm8[15],xmm13[15]
	shrl	$8, %ebx
	shll	$4, %r10d
	movdqu	(%r10,%rdi), %xmm1
	pshufb	%xmm1, %xmm8
	xorl	%r10d, %r10d
	popcntl	%ebx, %r10d
	shll	$4, %ebx
	movdqu	(%rbx,%rdi), %xmm1
	pshufb	%xmm1, %xmm10
	movdqu	%xmm4, (%rsi,%rax)
	addq	%rax, %rcx
	movdqu	%xmm3, 4(%rsi,%rcx)
	leaq	(%r8,%rcx), %rax
	addq	$4, %rax
	movdqu	%xmm6, 4(%rsi,%rax)
	leaq	4(%r9,%rax), %rax
	movdqu	%xmm8, 4(%rsi,%rax)
	leaq	4(%r15,%rax), %rax
	movdqu	%xmm2, 4(%rsi,%rax)
	leaq	4(%rdx,%rax), %rax
	movdqu	%xmm0, 4(%rsi,%rax)
	leaq	4(%r11,%rax), %rax
	movdqu	%xmm5, 4(%rsi,%rax)
	addq	%r14, %rax
	addq	$4, %rax
	movdqu	%xmm10, 4(%rsi,%rax)
	addq	%r10, %rax
	addq	$8, %rax
	jmp	.LBB45_4
.LBB45_1:                               # %start.split
	movdqa	%xmm2, -120(%rsp)               # 16-byte Spill
	movdqa	%xmm14, %xmm2
	psllw	$2, %xmm2
	movdqa	.LCPI45_3(%rip), %xmm9          # xmm9 = [252,252,252,252,252,252,252,252,252,252,252,252,252,252,252,252]
	movdqa	%xmm2, %xmm0
	pand	%xmm9, %xmm0
	movdqa	.LCPI45_4(%rip), %xmm7          # xmm7 = [2,2,2,2,2,2,2,2,2,2,2,2,2,2,2,2]
	movdqa	%xmm14, %xmm6
	movdqa	%xmm15, %xmm12
	psrlw	$6, %xmm12
	movdqa	%xmm9, %xmm14
	pandn	%xmm12, %xmm14
	movdqa	.LCPI45_8(%rip), %xmm1          # xmm1 = [63,63,63,63,63,63,63,63,63,63,63,63,63,63,63,63]
	por	%xmm0, %xmm14
	pand	%xmm1, %xmm14
	movdqa	%xmm7, %xmm0
	pcmpgtb	%xmm14, %xmm0
	movdqa	%xmm0, %xmm5
	movdqa	%xmm0, -72(%rsp)                # 16-byte Spill
	movdqa	%xmm4, -104(%rsp)               # 16-byte Spill
	movdqa	.LCPI45_9(%rip), %xmm4          # xmm4 = [192,192,192,192,192,192,192,192,192,192,192,192,192,192,192,192]
	movdqa	%xmm14, %xmm0
	por	%xmm4, %xmm0
	pandn	%xmm0, %xmm5
	movdqa	.LCPI45_11(%rip), %xmm8         # xmm8 = [7,7,7,7,7,7,7,7,7,7,7,7,7,7,7,7]
	movdqa	%xmm3, %xmm11
	pminub	%xmm8, %xmm11
	movdqa	%xmm6, -24(%rsp)                # 16-byte Spill
	pminub	%xmm6, %xmm8
	pcmpeqb	%xmm6, %xmm8
	por	.LCPI45_7(%rip), %xmm14
	movdqa	%xmm8, %xmm0
	pblendvb	%xmm0, %xmm5, %xmm14
	movdqa	%xmm3, %xmm6
	psllw	$2, %xmm6
	movdqa	%xmm6, %xmm0
	movdqa	%xmm9, %xmm7
	pand	%xmm9, %xmm0
	movdqa	%xmm10, %xmm5
	psrlw	$6, %xmm5
	movdqa	%xmm3, %xmm13
	pandn	%xmm5, %xmm7
	por	%xmm0, %xmm7
	pand	%xmm1, %xmm7
	movdqa	.LCPI45_4(%rip), %xmm1          # xmm1 = [2,2,2,2,2,2,2,2,2,2,2,2,2,2,2,2]
	pcmpgtb	%xmm7, %xmm1
	movdqa	%xmm1, -88(%rsp)                # 16-byte Spill
	por	%xmm7, %xmm4
	movdqa	%xmm10, %xmm3
	movdqa	%xmm1, %xmm10
	pandn	%xmm4, %xmm10
	pcmpeqb	%xmm13, %xmm11
	movdqa	.LCPI45_7(%rip), %xmm9          # xmm9 = [128,128,128,128,128,128,128,128,128,128,128,128,128,128,128,128]
	por	%xmm9, %xmm7
	movdqa	%xmm11, %xmm0
	pblendvb	%xmm0, %xmm10, %xmm7
	movdqa	%xmm3, %xmm10
	psllw	$4, %xmm10
	movdqa	%xmm15, %xmm1
	psllw	$4, %xmm1
	movdqa	.LCPI45_2(%rip), %xmm0          # xmm0 = [48,48,48,48,48,48,48,48,48,48,48,48,48,48,48,48]
	pand	%xmm0, %xmm1
	pand	%xmm0, %xmm10
	pand	.LCPI45_5(%rip), %xmm6
	movdqa	.LCPI45_6(%rip), %xmm4          # xmm4 = [3,3,3,3,3,3,3,3,3,3,3,3,3,3,3,3]
	pand	%xmm4, %xmm5
	por	%xmm6, %xmm5
	movdqa	%xmm10, %xmm0
	palignr	$15, %xmm1, %xmm0               # xmm0 = xmm1[15],xmm0[0,1,2,3,4,5,6,7,8,9,10,11,12,13,14]
	por	%xmm0, %xmm5
	movdqa	.LCPI45_1(%rip), %xmm6          # xmm6 = [216,216,216,216,216,216,216,216,216,216,216,216,216,216,216,216]
	movdqa	-104(%rsp), %xmm0               # 16-byte Reload
	pcmpeqb	%xmm6, %xmm0
	movdqa	%xmm0, -104(%rsp)               # 16-byte Spill
	por	%xmm9, %xmm5
	pblendvb	%xmm0, %xmm5, %xmm7
	palignr	$15, %xmm10, %xmm1              # xmm1 = xmm10[15],xmm1[0,1,2,3,4,5,6,7,8,9,10,11,12,13,14]
	pand	.LCPI45_5(%rip), %xmm2
	pand	%xmm4, %xmm12
	por	%xmm2, %xmm12
	por	%xmm1, %xmm12
	movdqa	-120(%rsp), %xmm0               # 16-byte Reload
	pcmpeqb	%xmm6, %xmm0
	movdqa	%xmm0, -120(%rsp)               # 16-byte Spill
	movdqa	%xmm6, %xmm10
	por	%xmm9, %xmm12
	pblendvb	%xmm0, %xmm12, %xmm14
	movdqa	.LCPI45_10(%rip), %xmm1         # xmm1 = [191,191,191,191,191,191,191,191,191,191,191,191,191,191,191,191]
	movdqa	%xmm15, %xmm0
	pminub	%xmm1, %xmm0
	pcmpeqb	%xmm15, %xmm0
	movdqa	%xmm15, %xmm5
	movdqa	-24(%rsp), %xmm9                # 16-byte Reload
	movdqa	%xmm9, %xmm2
	pand	%xmm4, %xmm2
	movdqa	.LCPI45_12(%rip), %xmm6         # xmm6 = [241,241,241,241,241,241,241,241,241,241,241,241,241,241,241,241]
	paddb	%xmm6, %xmm2
	paddb	%xmm0, %xmm2
	movdqa	%xmm9, %xmm12
	movdqa	.LCPI45_3(%rip), %xmm3          # xmm3 = [252,252,252,252,252,252,252,252,252,252,252,252,252,252,252,252]
	pand	%xmm3, %xmm12
	pcmpeqb	%xmm10, %xmm12
	movdqa	%xmm12, %xmm0
	pblendvb	%xmm0, %xmm2, %xmm14
	movdqa	%xmm3, %xmm0
	pand	%xmm13, %xmm0
	pcmpeqb	%xmm10, %xmm0
	pand	%xmm13, %xmm4
	paddb	%xmm6, %xmm4
	movdqa	-56(%rsp), %xmm3                # 16-byte Reload
	pminub	%xmm3, %xmm1
	pcmpeqb	%xmm3, %xmm1
	paddb	%xmm1, %xmm4
	movdqa	%xmm0, %xmm6
	pblendvb	%xmm0, %xmm4, %xmm7
	movdqa	%xmm3, %xmm1
	movdqa	.LCPI45_8(%rip), %xmm15         # xmm15 = [63,63,63,63,63,63,63,63,63,63,63,63,63,63,63,63]
	pand	%xmm15, %xmm1
	movdqa	.LCPI45_7(%rip), %xmm4          # xmm4 = [128,128,128,128,128,128,128,128,128,128,128,128,128,128,128,128]
	por	%xmm4, %xmm1
	movdqa	-88(%rsp), %xmm0                # 16-byte Reload
	pand	%xmm11, %xmm0
	pblendvb	%xmm0, %xmm3, %xmm1
	movdqa	%xmm5, %xmm2
	psrlw	$2, %xmm2
	psrlw	$2, %xmm3
	movdqa	.LCPI45_13(%rip), %xmm0         # xmm0 = [16,16,16,16,16,16,16,16,16,16,16,16,16,16,16,16]
	paddb	%xmm0, %xmm3
	paddb	%xmm0, %xmm2
	pand	%xmm15, %xmm2
	pand	%xmm15, %xmm3
	pand	%xmm5, %xmm15
	por	%xmm4, %xmm15
	movdqa	-72(%rsp), %xmm0                # 16-byte Reload
	pand	%xmm8, %xmm0
	pblendvb	%xmm0, %xmm5, %xmm15
	por	%xmm4, %xmm2
	movdqa	%xmm12, %xmm0
	pblendvb	%xmm0, %xmm2, %xmm15
	por	%xmm4, %xmm3
	movdqa	%xmm6, %xmm0
	pblendvb	%xmm0, %xmm3, %xmm1
	movdqa	%xmm9, %xmm2
	psrlw	$4, %xmm2
	movdqa	.LCPI45_14(%rip), %xmm0         # xmm0 = [15,15,15,15,15,15,15,15,15,15,15,15,15,15,15,15]
	pand	%xmm0, %xmm2
	psrlw	$4, %xmm13
	pand	%xmm0, %xmm13
	movdqa	.LCPI45_15(%rip), %xmm0         # xmm0 = [224,224,224,224,224,224,224,224,224,224,224,224,224,224,224,224]
	por	%xmm0, %xmm13
	por	%xmm0, %xmm2
	por	-104(%rsp), %xmm11              # 16-byte Folded Reload
	pandn	%xmm13, %xmm11
	por	-120(%rsp), %xmm8               # 16-byte Folded Reload
	pandn	%xmm2, %xmm8
	movdqa	%xmm11, %xmm0
	punpcklbw	%xmm7, %xmm0            # xmm0 = xmm0[0],xmm7[0],xmm0[1],xmm7[1],xmm0[2],xmm7[2],xmm0[3],xmm7[3],xmm0[4],xmm7[4],xmm0[5],xmm7[5],xmm0[6],xmm7[6],xmm0[7],xmm7[7]
	movdqa	%xmm8, %xmm3
	punpcklbw	%xmm14, %xmm3           # xmm3 = xmm3[0],xmm14[0],xmm3[1],xmm14[1],xmm3[2],xmm14[2],xmm3[3],xmm14[3],xmm3[4],xmm14[4],xmm3[5],xmm14[5],xmm3[6],xmm14[6],xmm3[7],xmm14[7]
	pmovmskb	%xmm3, %r11d
	pmovmskb	%xmm0, %ebx
	movdqa	%xmm1, %xmm5
	punpcklbw	%xmm1, %xmm5            # xmm5 = xmm5[0],xmm1[0],xmm5[1],xmm1[1],xmm5[2],xmm1[2],xmm5[3],xmm1[3],xmm5[4],xmm1[4],xmm5[5],xmm1[5],xmm5[6],xmm1[6],xmm5[7],xmm1[7]
	movdqa	%xmm0, %xmm2
	punpcklbw	%xmm5, %xmm2            # xmm2 = xmm2[0],xmm5[0],xmm2[1],xmm5[1],xmm2[2],xmm5[2],xmm2[3],xmm5[3],xmm2[4],xmm5[4],xmm2[5],xmm5[5],xmm2[6],xmm5[6],xmm2[7],xmm5[7]
	movdqa	%xmm15, %xmm6
	punpcklbw	%xmm15, %xmm6           # xmm6 = xmm6[0],xmm15[0],xmm6[1],xmm15[1],xmm6[2],xmm15[2],xmm6[3],xmm15[3],xmm6[4],xmm15[4],xmm6[5],xmm15[5],xmm6[6],xmm15[6],xmm6[7],xmm15[7]
	movdqa	%xmm3, %xmm4
	punpcklbw	%xmm6, %xmm4            # xmm4 = xmm4[0],xmm6[0],xmm4[1],xmm6[1],xmm4[2],xmm6[2],xmm4[3],xmm6[3],xmm4[4],xmm6[4],xmm4[5],xmm6[5],xmm4[6],xmm6[6],xmm4[7],xmm6[7]
	movzbl	%r11b, %edx
	movzbl	%bl, %r8d
	popcntl	%edx, %ecx
	shll	$4, %edx
	leaq	.Lstatic.20(%rip), %rdi
	movdqu	(%rdx,%rdi), %xmm9
	pshufb	%xmm9, %xmm4
	xorl	%edx, %edx
	popcntl	%r8d, %edx
	shll	$4, %r8d
	movdqu	(%r8,%rdi), %xmm9
	pshufb	%xmm9, %xmm2
	punpckhbw	%xmm14, %xmm8           # xmm8 = xmm8[8],xmm14[8],xmm8[9],xmm14[9],xmm8[10],xmm14[10],xmm8[11],xmm14[11],xmm8[12],xmm14[12],xmm8[13],xmm14[13],xmm8[14],xmm14[14],xmm8[15],xmm14[15]
	shrl	$8, %r11d
	xorl	%r8d, %r8d
	popcntl	%r11d, %r8d
	pmovmskb	%xmm8, %r10d
	movzbl	%r10b, %r14d
	popcntl	%r14d, %r9d
	punpckhbw	%xmm5, %xmm0            # xmm0 = xmm0[8],xmm5[8],xmm0[9],xmm5[9],xmm0[10],xmm5[10],xmm0[11],xmm5[11],xmm0[12],xmm5[12],xmm0[13],xmm5[13],xmm0[14],xmm5[14],xmm0[15],xmm5[15]
	punpckhbw	%xmm6, %xmm3            # xmm3 = xmm3[8],xmm6[8],xmm3[9],xmm6[9],xmm3[10],xmm6[10],xmm3[11],xmm6[11],xmm3[12],xmm6[12],xmm3[13],xmm6[13],xmm3[14],xmm6[14],xmm3[15],xmm6[15]
	shrl	$8, %ebx
	shll	$4, %r11d
	movdqu	(%r11,%rdi), %xmm5
	pshufb	%xmm5, %xmm3
	xorl	%r11d, %r11d
	popcntl	%ebx, %r11d
	shll	$4, %ebx
	movdqu	(%rbx,%rdi), %xmm5
	pshufb	%xmm5, %xmm0
	punpckhbw	%xmm7, %xmm11           # xmm11 = xmm11[8],xmm7[8],xmm11[9],xmm7[9],xmm11[10],xmm7[10],xmm11[11],xmm7[11],xmm11[12],xmm7[12],xmm11[13],xmm7[13],xmm11[14],xmm7[14],xmm11[15],xmm7[15]
	pmovmskb	%xmm11, %ebx
	punpckhbw	%xmm1, %xmm1            # xmm1 = xmm1[8,8,9,9,10,10,11,11,12,12,13,13,14,14,15,15]
	movdqa	%xmm11, %xmm5
	punpcklbw	%xmm1, %xmm5            # xmm5 = xmm5[0],xmm1[0],xmm5[1],xmm1[1],xmm5[2],xmm1[2],xmm5[3],xmm1[3],xmm5[4],xmm1[4],xmm5[5],xmm1[5],xmm5[6],xmm1[6],xmm5[7],xmm1[7]
	punpckhbw	%xmm15, %xmm15          # xmm15 = xmm15[8,8,9,9,10,10,11,11,12,12,13,13,14,14,15,15]
	movdqa	%xmm8, %xmm6
	punpcklbw	%xmm15, %xmm6           # xmm6 = xmm6[0],xmm15[0],xmm6[1],xmm15[1],xmm6[2],xmm15[2],xmm6[3],xmm15[3],xmm6[4],xmm15[4],xmm6[5],xmm15[5],xmm6[6],xmm15[6],xmm6[7],xmm15[7]
	movzbl	%bl, %r15d
	shll	$4, %r14d
	movdqu	(%r14,%rdi), %xmm9
	pshufb	%xmm9, %xmm6
	xorl	%r14d, %r14d
	popcntl	%r15d, %r14d
	shll	$4, %r15d
	movdqu	(%r15,%rdi), %xmm9
	pshufb	%xmm9, %xmm5
	punpckhbw	%xmm1, %xmm11           # xmm11 = xmm11[8],xmm1[8],xmm11[9],xmm1[9],xmm11[10],xmm1[10],xmm11[11],xmm1[11],xmm11[12],xmm1[12],xmm11[13],xmm1[13],xmm11[14],xmm1[14],xmm11[15],xmm1[15]
	shrl	$8, %r10d
	xorl	%r15d, %r15d
	popcntl	%r10d, %r15d
	punpckhbw	%xmm15, %xmm8           # xmm8 = xmm8[8],xmm15[8],xmm8[9],xmm15[9],xmm8[10],xmm15[10],xmm8[11],xmm15[11],xmm8[12],xmm15[12],xmm8[13],xmm15[13],xmm8[14],xmm15[14],xmm8[15],xmm15[15]
	shrl	$8, %ebx
	shll	$4, %r10d
	movdqu	(%r10,%rdi), %xmm1
	pshufb	%xmm1, %xmm8
	xorl	%r10d, %r10d
	popcntl	%ebx, %r10d
	shll	$4, %ebx
	movdqu	(%rbx,%rdi), %xmm1
	pshufb	%xmm1, %xmm11
	movdqu	%xmm4, (%rsi,%rax)
	addq	%rax, %rcx
	movdqu	%xmm3, 4(%rsi,%rcx)
	leaq	(%r8,%rcx), %rax
	addq	$4, %rax
	movdqu	%xmm6, 4(%rsi,%rax)
	leaq	4(%r9,%rax), %rax
	movdqu	%xmm8, 4(%rsi,%rax)
	leaq	4(%r15,%rax), %rax
	movdqu	%xmm2, 4(%rsi,%rax)
	leaq	4(%rdx,%rax), %rax
	movdqu	%xmm0, 4(%rsi,%rax)
	leaq	4(%r11,%rax), %rax
	movdqu	%xmm5, 4(%rsi,%rax)
	addq	%r14, %rax
	addq	$4, %rax
	movdqu	%xmm11, 4(%rsi,%rax)
	addq	%r10, %rax
	addq	$6, %rax
.LBB45_4:                               # %common.ret
	popq	%rbx
	.cfi_def_cfa_offset 32
	popq	%r12
	.cfi_def_cfa_offset 24
	popq	%r14
	.cfi_def_cfa_offset 16
	popq	%r15
	.cfi_def_cfa_offset 8
	retq
.LBB45_5:                               # %then.5
	.cfi_def_cfa_offset 40
	movdqa	%xmm3, %xmm0
	pmaxub	%xmm14, %xmm0
	movdqa	.LCPI45_16(%rip), %xmm2         # xmm2 = [8,8,8,8,8,8,8,8,8,8,8,8,8,8,8,8]
	pmaxub	%xmm0, %xmm2
	pcmpeqb	%xmm0, %xmm2
	pmovmskb	%xmm2, %ecx
	testl	%ecx, %ecx
	je	.LBB45_7
# %bb.6:                                # %then.1.i
	movdqa	.LCPI45_4(%rip), %xmm7          # xmm7 = [2,2,2,2,2,2,2,2,2,2,2,2,2,2,2,2]
	movdqa	%xmm10, %xmm0
	psrlw	$6, %xmm0
	movdqa	.LCPI45_3(%rip), %xmm4          # xmm4 = [252,252,252,252,252,252,252,252,252,252,252,252,252,252,252,252]
	movdqa	%xmm4, %xmm2
	pandn	%xmm0, %xmm2
	movdqa	%xmm3, %xmm10
	psllw	$2, %xmm10
	pand	%xmm4, %xmm10
	por	%xmm2, %xmm10
	movdqa	.LCPI45_8(%rip), %xmm9          # xmm9 = [63,63,63,63,63,63,63,63,63,63,63,63,63,63,63,63]
	pand	%xmm9, %xmm10
	movdqa	%xmm15, %xmm0
	psrlw	$6, %xmm0
	movdqa	%xmm14, %xmm1
	psllw	$2, %xmm1
	pand	%xmm4, %xmm1
	pandn	%xmm0, %xmm4
	por	%xmm1, %xmm4
	pand	%xmm9, %xmm4
	movdqa	%xmm7, %xmm8
	pcmpgtb	%xmm4, %xmm8
	pcmpgtb	%xmm10, %xmm7
	movdqa	.LCPI45_9(%rip), %xmm0          # xmm0 = [192,192,192,192,192,192,192,192,192,192,192,192,192,192,192,192]
	movdqa	%xmm4, %xmm1
	por	%xmm0, %xmm1
	por	%xmm10, %xmm0
	movdqa	%xmm7, %xmm12
	pandn	%xmm0, %xmm12
	movdqa	%xmm8, %xmm13
	pandn	%xmm1, %xmm13
	movdqa	.LCPI45_11(%rip), %xmm6         # xmm6 = [7,7,7,7,7,7,7,7,7,7,7,7,7,7,7,7]
	movdqa	%xmm3, %xmm5
	pminub	%xmm6, %xmm5
	pcmpeqb	%xmm3, %xmm5
	pminub	%xmm14, %xmm6
	pcmpeqb	%xmm14, %xmm6
	movdqa	.LCPI45_7(%rip), %xmm11         # xmm11 = [128,128,128,128,128,128,128,128,128,128,128,128,128,128,128,128]
	por	%xmm11, %xmm10
	por	%xmm11, %xmm4
	movdqa	%xmm6, %xmm0
	pblendvb	%xmm0, %xmm13, %xmm4
	movdqa	%xmm5, %xmm0
	pblendvb	%xmm0, %xmm12, %xmm10
	movdqa	%xmm15, %xmm1
	pand	%xmm9, %xmm1
	movdqa	-56(%rsp), %xmm2                # 16-byte Reload
	pand	%xmm2, %xmm9
	por	%xmm11, %xmm9
	por	%xmm11, %xmm1
	pand	%xmm6, %xmm8
	movdqa	%xmm8, %xmm0
	pblendvb	%xmm0, %xmm15, %xmm1
	pand	%xmm5, %xmm7
	movdqa	%xmm7, %xmm0
	pblendvb	%xmm0, %xmm2, %xmm9
	psrlw	$4, %xmm14
	movdqa	.LCPI45_14(%rip), %xmm0         # xmm0 = [15,15,15,15,15,15,15,15,15,15,15,15,15,15,15,15]
	pand	%xmm0, %xmm14
	psrlw	$4, %xmm3
	pand	%xmm0, %xmm3
	movdqa	.LCPI45_15(%rip), %xmm0         # xmm0 = [224,224,224,224,224,224,224,224,224,224,224,224,224,224,224,224]
	por	%xmm0, %xmm3
	por	%xmm0, %xmm14
	pandn	%xmm14, %xmm6
	pandn	%xmm3, %xmm5
	movdqa	%xmm5, %xmm0
	punpcklbw	%xmm10, %xmm0           # xmm0 = xmm0[0],xmm10[0],xmm0[1],xmm10[1],xmm0[2],xmm10[2],xmm0[3],xmm10[3],xmm0[4],xmm10[4],xmm0[5],xmm10[5],xmm0[6],xmm10[6],xmm0[7],xmm10[7]
	movdqa	%xmm6, %xmm2
	punpcklbw	%xmm4, %xmm2            # xmm2 = xmm2[0],xmm4[0],xmm2[1],xmm4[1],xmm2[2],xmm4[2],xmm2[3],xmm4[3],xmm2[4],xmm4[4],xmm2[5],xmm4[5],xmm2[6],xmm4[6],xmm2[7],xmm4[7]
	pmovmskb	%xmm2, %r14d
	pmovmskb	%xmm0, %ebx
	movdqa	%xmm9, %xmm8
	punpcklbw	%xmm9, %xmm8            # xmm8 = xmm8[0],xmm9[0],xmm8[1],xmm9[1],xmm8[2],xmm9[2],xmm8[3],xmm9[3],xmm8[4],xmm9[4],xmm8[5],xmm9[5],xmm8[6],xmm9[6],xmm8[7],xmm9[7]
	movdqa	%xmm0, %xmm3
	punpcklbw	%xmm8, %xmm3            # xmm3 = xmm3[0],xmm8[0],xmm3[1],xmm8[1],xmm3[2],xmm8[2],xmm3[3],xmm8[3],xmm3[4],xmm8[4],xmm3[5],xmm8[5],xmm3[6],xmm8[6],xmm3[7],xmm8[7]
	movdqa	%xmm1, %xmm11
	punpcklbw	%xmm1, %xmm11           # xmm11 = xmm11[0],xmm1[0],xmm11[1],xmm1[1],xmm11[2],xmm1[2],xmm11[3],xmm1[3],xmm11[4],xmm1[4],xmm11[5],xmm1[5],xmm11[6],xmm1[6],xmm11[7],xmm1[7]
	movdqa	%xmm2, %xmm7
	punpcklbw	%xmm11, %xmm7           # xmm7 = xmm7[0],xmm11[0],xmm7[1],xmm11[1],xmm7[2],xmm11[2],xmm7[3],xmm11[3],xmm7[4],xmm11[4],xmm7[5],xmm11[5],xmm7[6],xmm11[6],xmm7[7],xmm11[7]
	movzbl	%r14b, %edi
	movzbl	%bl, %r8d
	popcntl	%edi, %ecx
	shll	$4, %edi
	leaq	.Lstatic.20(%rip), %rdx
	movdqu	(%rdi,%rdx), %xmm12
	pshufb	%xmm12, %xmm7
	popcntl	%r8d, %r10d
	shll	$4, %r8d
	movdqu	(%r8,%rdx), %xmm12
	pshufb	%xmm12, %xmm3
	shrl	$8, %r14d
	xorl	%edi, %edi
	popcntl	%r14d, %edi
	addq	%rax, %rcx
	addq	%rcx, %rdi
	addq	$4, %rdi
	punpckhbw	%xmm4, %xmm6            # xmm6 = xmm6[8],xmm4[8],xmm6[9],xmm4[9],xmm6[10],xmm4[10],xmm6[11],xmm4[11],xmm6[12],xmm4[12],xmm6[13],xmm4[13],xmm6[14],xmm4[14],xmm6[15],xmm4[15]
	pmovmskb	%xmm6, %r11d
	movzbl	%r11b, %r15d
	xorl	%r8d, %r8d
	popcntl	%r15d, %r8d
	addq	%rdi, %r8
	addq	$4, %r8
	shrl	$8, %r11d
	popcntl	%r11d, %r9d
	addq	%r8, %r9
	addq	$4, %r9
	addq	%r9, %r10
	addq	$4, %r10
	punpckhbw	%xmm8, %xmm0            # xmm0 = xmm0[8],xmm8[8],xmm0[9],xmm8[9],xmm0[10],xmm8[10],xmm0[11],xmm8[11],xmm0[12],xmm8[12],xmm0[13],xmm8[13],xmm0[14],xmm8[14],xmm0[15],xmm8[15]
	punpckhbw	%xmm11, %xmm2           # xmm2 = xmm2[8],xmm11[8],xmm2[9],xmm11[9],xmm2[10],xmm11[10],xmm2[11],xmm11[11],xmm2[12],xmm11[12],xmm2[13],xmm11[13],xmm2[14],xmm11[14],xmm2[15],xmm11[15]
	shrl	$8, %ebx
	shll	$4, %r14d
	movdqu	(%r14,%rdx), %xmm4
	pshufb	%xmm4, %xmm2
	xorl	%r14d, %r14d
	popcntl	%ebx, %r14d
	shll	$4, %ebx
	movdqu	(%rbx,%rdx), %xmm4
	pshufb	%xmm4, %xmm0
	leaq	(%r14,%r10), %rbx
	addq	$4, %rbx
	punpckhbw	%xmm10, %xmm5           # xmm5 = xmm5[8],xmm10[8],xmm5[9],xmm10[9],xmm5[10],xmm10[10],xmm5[11],xmm10[11],xmm5[12],xmm10[12],xmm5[13],xmm10[13],xmm5[14],xmm10[14],xmm5[15],xmm10[15]
	pmovmskb	%xmm5, %r14d
	punpckhbw	%xmm9, %xmm9            # xmm9 = xmm9[8,8,9,9,10,10,11,11,12,12,13,13,14,14,15,15]
	movdqa	%xmm5, %xmm4
	punpcklbw	%xmm9, %xmm4            # xmm4 = xmm4[0],xmm9[0],xmm4[1],xmm9[1],xmm4[2],xmm9[2],xmm4[3],xmm9[3],xmm4[4],xmm9[4],xmm4[5],xmm9[5],xmm4[6],xmm9[6],xmm4[7],xmm9[7]
	punpckhbw	%xmm1, %xmm1            # xmm1 = xmm1[8,8,9,9,10,10,11,11,12,12,13,13,14,14,15,15]
	movdqa	%xmm6, %xmm8
	punpcklbw	%xmm1, %xmm8            # xmm8 = xmm8[0],xmm1[0],xmm8[1],xmm1[1],xmm8[2],xmm1[2],xmm8[3],xmm1[3],xmm8[4],xmm1[4],xmm8[5],xmm1[5],xmm8[6],xmm1[6],xmm8[7],xmm1[7]
	movzbl	%r14b, %r12d
	shll	$4, %r15d
	movdqu	(%r15,%rdx), %xmm10
	pshufb	%xmm10, %xmm8
	xorl	%r15d, %r15d
	popcntl	%r12d, %r15d
	shll	$4, %r12d
	movdqu	(%r12,%rdx), %xmm10
	pshufb	%xmm10, %xmm4
	addq	%rbx, %r15
	addq	$4, %r15
	punpckhbw	%xmm9, %xmm5            # xmm5 = xmm5[8],xmm9[8],xmm5[9],xmm9[9],xmm5[10],xmm9[10],xmm5[11],xmm9[11],xmm5[12],xmm9[12],xmm5[13],xmm9[13],xmm5[14],xmm9[14],xmm5[15],xmm9[15]
	punpckhbw	%xmm1, %xmm6            # xmm6 = xmm6[8],xmm1[8],xmm6[9],xmm1[9],xmm6[10],xmm1[10],xmm6[11],xmm1[11],xmm6[12],xmm1[12],xmm6[13],xmm1[13],xmm6[14],xmm1[14],xmm6[15],xmm1[15]
	shrl	$8, %r14d
	shll	$4, %r11d
	movdqu	(%r11,%rdx), %xmm1
	pshufb	%xmm1, %xmm6
	xorl	%r11d, %r11d
	popcntl	%r14d, %r11d
	shll	$4, %r14d
	movdqu	(%r14,%rdx), %xmm1
	pshufb	%xmm1, %xmm5
	movdqu	%xmm7, (%rsi,%rax)
	movdqu	%xmm2, 4(%rsi,%rcx)
	movdqu	%xmm8, 4(%rsi,%rdi)
	movdqu	%xmm6, 4(%rsi,%r8)
	movdqu	%xmm3, 4(%rsi,%r9)
	movdqu	%xmm0, 4(%rsi,%r10)
	movdqu	%xmm4, 4(%rsi,%rbx)
	movdqu	%xmm5, 4(%rsi,%r15)
	leaq	(%r11,%r15), %rax
	addq	$8, %rax
	jmp	.LBB45_4
.LBB45_7:                               # %join.3.i
	movdqa	%xmm10, %xmm0
	por	%xmm15, %xmm0
	psrlw	$7, %xmm0
	pand	.LCPI45_17(%rip), %xmm0
	movdqa	%xmm3, %xmm2
	por	%xmm14, %xmm2
	por	%xmm0, %xmm2
	ptest	%xmm2, %xmm2
	je	.LBB45_8
# %bb.9:                                # %join.6.i
	movdqa	.LCPI45_4(%rip), %xmm8          # xmm8 = [2,2,2,2,2,2,2,2,2,2,2,2,2,2,2,2]
	movdqa	%xmm15, %xmm0
	psrlw	$6, %xmm0
	movdqa	.LCPI45_3(%rip), %xmm12         # xmm12 = [252,252,252,252,252,252,252,252,252,252,252,252,252,252,252,252]
	movdqa	%xmm12, %xmm5
	pandn	%xmm0, %xmm5
	movdqa	%xmm14, %xmm4
	psllw	$2, %xmm4
	pand	%xmm12, %xmm4
	por	%xmm5, %xmm4
	movdqa	.LCPI45_8(%rip), %xmm7          # xmm7 = [63,63,63,63,63,63,63,63,63,63,63,63,63,63,63,63]
	pand	%xmm7, %xmm4
	movdqa	%xmm10, %xmm0
	psrlw	$6, %xmm0
	movdqa	%xmm3, %xmm2
	psllw	$2, %xmm2
	pand	%xmm12, %xmm2
	pandn	%xmm0, %xmm12
	por	%xmm2, %xmm12
	pand	%xmm7, %xmm12
	movdqa	%xmm10, %xmm1
	movdqa	%xmm8, %xmm10
	pcmpgtb	%xmm12, %xmm10
	pcmpgtb	%xmm4, %xmm8
	movdqa	.LCPI45_9(%rip), %xmm9          # xmm9 = [192,192,192,192,192,192,192,192,192,192,192,192,192,192,192,192]
	movdqa	%xmm12, %xmm11
	por	%xmm9, %xmm11
	por	%xmm4, %xmm9
	movdqa	.LCPI45_11(%rip), %xmm5         # xmm5 = [7,7,7,7,7,7,7,7,7,7,7,7,7,7,7,7]
	movdqa	%xmm14, %xmm6
	pminub	%xmm5, %xmm6
	pminub	%xmm3, %xmm5
	pcmpeqb	%xmm3, %xmm5
	movdqa	%xmm5, %xmm0
	pand	%xmm10, %xmm5
	pandn	%xmm11, %xmm10
	movdqa	.LCPI45_7(%rip), %xmm11         # xmm11 = [128,128,128,128,128,128,128,128,128,128,128,128,128,128,128,128]
	por	%xmm11, %xmm12
	pblendvb	%xmm0, %xmm10, %xmm12
	pcmpeqb	%xmm14, %xmm6
	movdqa	%xmm6, %xmm0
	pand	%xmm8, %xmm6
	pandn	%xmm9, %xmm8
	por	%xmm11, %xmm4
	pblendvb	%xmm0, %xmm8, %xmm4
	movdqa	%xmm15, %xmm3
	pand	%xmm7, %xmm3
	pand	%xmm1, %xmm7
	por	%xmm11, %xmm7
	por	%xmm11, %xmm3
	movdqa	%xmm6, %xmm0
	pblendvb	%xmm0, %xmm15, %xmm3
	movdqa	%xmm5, %xmm0
	pblendvb	%xmm0, %xmm1, %xmm7
	pmovmskb	%xmm4, %edi
	pmovmskb	%xmm12, %ecx
	movdqa	%xmm12, %xmm0
	punpcklbw	%xmm7, %xmm0            # xmm0 = xmm0[0],xmm7[0],xmm0[1],xmm7[1],xmm0[2],xmm7[2],xmm0[3],xmm7[3],xmm0[4],xmm7[4],xmm0[5],xmm7[5],xmm0[6],xmm7[6],xmm0[7],xmm7[7]
	movdqa	%xmm4, %xmm2
	punpcklbw	%xmm3, %xmm2            # xmm2 = xmm2[0],xmm3[0],xmm2[1],xmm3[1],xmm2[2],xmm3[2],xmm2[3],xmm3[3],xmm2[4],xmm3[4],xmm2[5],xmm3[5],xmm2[6],xmm3[6],xmm2[7],xmm3[7]
	movzbl	%dil, %r9d
	movzbl	%cl, %r10d
	popcntl	%r9d, %edx
	shll	$4, %r9d
	leaq	.Lstatic.19(%rip), %r8
	movdqu	(%r9,%r8), %xmm5
	pshufb	%xmm5, %xmm2
	xorl	%r9d, %r9d
	popcntl	%r10d, %r9d
	shll	$4, %r10d
	movdqu	(%r10,%r8), %xmm5
	pshufb	%xmm5, %xmm0
	shrl	$8, %edi
	xorl	%r10d, %r10d
	popcntl	%edi, %r10d
	addq	%rax, %rdx
	addq	%rdx, %r10
	addq	$8, %r10
	addq	%r10, %r9
	addq	$8, %r9
	punpckhbw	%xmm7, %xmm12           # xmm12 = xmm12[8],xmm7[8],xmm12[9],xmm7[9],xmm12[10],xmm7[10],xmm12[11],xmm7[11],xmm12[12],xmm7[12],xmm12[13],xmm7[13],xmm12[14],xmm7[14],xmm12[15],xmm7[15]
	punpckhbw	%xmm3, %xmm4            # xmm4 = xmm4[8],xmm3[8],xmm4[9],xmm3[9],xmm4[10],xmm3[10],xmm4[11],xmm3[11],xmm4[12],xmm3[12],xmm4[13],xmm3[13],xmm4[14],xmm3[14],xmm4[15],xmm3[15]
	shrl	$8, %ecx
	shll	$4, %edi
	movdqu	(%rdi,%r8), %xmm3
	pshufb	%xmm3, %xmm4
	xorl	%edi, %edi
	popcntl	%ecx, %edi
	shll	$4, %ecx
	movdqu	(%rcx,%r8), %xmm3
	pshufb	%xmm3, %xmm12
	movdqu	%xmm2, (%rsi,%rax)
	movdqu	%xmm4, 8(%rsi,%rdx)
	movdqu	%xmm0, 8(%rsi,%r10)
	movdqu	%xmm12, 8(%rsi,%r9)
	leaq	(%rdi,%r9), %rax
	addq	$16, %rax
	jmp	.LBB45_4
.LBB45_8:                               # %then.4.i
	movdqu	%xmm15, (%rsi,%rax)
	movdqu	%xmm10, 16(%rsi,%rax)
	addq	$32, %rax
	jmp	.LBB45_4
.Lfunc_end45:
	.size	"utf_lanes::utf16_blocks::write_other_units", .Lfunc_end45-"utf_lanes::utf16_blocks::write_other_units"
	.cfi_endproc
                                        # -- End function
	.section	".text.recoding::engine::recode_faults::<#7de934f40f1f4d79>","ax",@progbits
	.p2align	4                               # -- Begin function recoding::engine::recode_faults::<#7de934f40f1f4d79>
	.type	"recoding::engine::recode_faults::<#7de934f40f1f4d79>",@function
"recoding::engine::recode_faults::<#7de934f40f1f4d79>": # @"recoding::engine::recode_faults::<#7de934f40f1f4d79>"
	.cfi_startproc
# %bb.0:                                # %start
	pushq	%rbp
	.cfi_def_cfa_offset 16
	pushq	%r15
	.cfi_def_cfa_offset 24
	pushq	%r14
	.cfi_def_cfa_offset 32
	pushq	%r13
	.cfi_def_cfa_offset 40
	pushq	%r12
	.cfi_def_cfa_offset 48
	pushq	%rbx
	.cfi_def_cfa_offset 56
	.cfi_offset %rbx, -56
	.cfi_offset %r12, -48
	.cfi_offset %r13, -40
	.cfi_offset %r14, -32
	.cfi_offset %r15, -24
	.cfi_offset %rbp, -16
	cmpb	$2, (%rsi)
	sete	%r9b
	cmpq	$0, 16(%rsi)
	sete	%r12b
	andb	%r9b, %r12b
	movl	$16, %r9d
	xorl	%r11d, %r11d
	xorl	%r13d, %r13d
	jmp	.LBB46_1
	.p2align	4
.LBB46_13:                              # %"recoding::text::Utf8Text::put_any::<#345d457c2768aa28>.exit"
                                        #   in Loop: Header=BB46_1 Depth=1
	incq	%r13
.LBB46_14:                              # %join.12
                                        #   in Loop: Header=BB46_1 Depth=1
	movl	$2, %r11d
	addq	%r10, %r11
	cmpq	%r9, %r11
	jae	.LBB46_16
.LBB46_1:                               # %join.5
                                        # =>This Inner Loop Header: Depth=1
	movq	%r11, %r10
	leaq	4(%r11), %rbx
	cmpq	%rcx, %rbx
	jbe	.LBB46_2
# %bb.6:                                # %join.3.i74
                                        #   in Loop: Header=BB46_1 Depth=1
	movq	%rcx, %r14
	subq	%r10, %r14
	cmpq	$2, %r14
	jb	.LBB46_10
# %bb.7:                                # %join.3.i.i
                                        #   in Loop: Header=BB46_1 Depth=1
	movzbl	1(%rdx,%r10), %r11d
	shll	$8, %r11d
	movl	%r11d, %ebp
	andl	$64512, %ebp                    # imm = 0xFC00
	cmpl	$56320, %ebp                    # imm = 0xDC00
	je	.LBB46_11
# %bb.8:                                # %join.3.i.i
                                        #   in Loop: Header=BB46_1 Depth=1
	movzbl	(%rdx,%r10), %r15d
	orl	%r15d, %r11d
	cmpl	$55296, %ebp                    # imm = 0xD800
	jne	.LBB46_18
# %bb.9:                                # %join.6.i.i
                                        #   in Loop: Header=BB46_1 Depth=1
	cmpq	$4, %r14
	jae	.LBB46_4
	jmp	.LBB46_10
	.p2align	4
.LBB46_2:                               # %then.1.i69
                                        #   in Loop: Header=BB46_1 Depth=1
	movzbl	1(%rdx,%r10), %r11d
	shll	$8, %r11d
	movl	%r11d, %ebp
	andl	$64512, %ebp                    # imm = 0xFC00
	cmpl	$56320, %ebp                    # imm = 0xDC00
	je	.LBB46_11
# %bb.3:                                # %then.1.i69
                                        #   in Loop: Header=BB46_1 Depth=1
	movzbl	(%rdx,%r10), %r14d
	orl	%r14d, %r11d
	cmpl	$55296, %ebp                    # imm = 0xD800
	jne	.LBB46_18
.LBB46_4:                               # %join.15.i257.i
                                        #   in Loop: Header=BB46_1 Depth=1
	movzbl	3(%rdx,%r10), %r14d
	movl	%r14d, %ebp
	andl	$-4, %ebp
	cmpl	$220, %ebp
	jne	.LBB46_11
# %bb.5:                                # %arm.14.i108.i
                                        #   in Loop: Header=BB46_1 Depth=1
	movzbl	2(%rdx,%r10), %ebx
	andl	$1023, %r11d                    # imm = 0x3FF
	shll	$10, %r11d
	andl	$3, %r14d
	shll	$8, %r14d
	orl	%ebx, %r14d
	addl	%r14d, %r11d
	addl	$65536, %r11d                   # imm = 0x10000
	movl	%r11d, %ebp
	shrl	$6, %ebp
	movl	%r11d, %r14d
	shrl	$18, %r14d
	movl	%r11d, %ebx
	shrl	$4, %ebx
	andl	$16128, %ebx                    # imm = 0x3F00
	orl	$32768, %ebx                    # imm = 0x8000
	orb	$-16, %r14b
	andb	$63, %bpl
	orb	$-128, %bpl
	andb	$63, %r11b
	orb	$-128, %r11b
	movq	(%r8), %r15
	movq	8(%r8), %rax
	movb	%r14b, (%r15,%rax)
	movq	(%r8), %rsi
	movb	%bh, 1(%rsi,%rax)
	movq	(%r8), %rsi
	movb	%bpl, 2(%rsi,%rax)
	movq	(%r8), %rsi
	movb	%r11b, 3(%rsi,%rax)
	addq	$4, %rax
	movq	%rax, 8(%r8)
	movl	$4, %r11d
	addq	%r10, %r11
	cmpq	%r9, %r11
	jb	.LBB46_1
	jmp	.LBB46_16
	.p2align	4
.LBB46_11:                              # %arm.11
                                        #   in Loop: Header=BB46_1 Depth=1
	cmpq	$32, %rbx
	movl	$32, %r9d
	cmovbq	%rbx, %r9
	testb	%r12b, %r12b
	jne	.LBB46_13
# %bb.12:                               # %then.7.i.i.i
                                        #   in Loop: Header=BB46_1 Depth=1
	movq	(%r8), %rax
	movq	8(%r8), %rsi
	movb	$-17, (%rax,%rsi)
	movq	(%r8), %rax
	movb	$-65, 1(%rax,%rsi)
	movq	(%r8), %rax
	movb	$-67, 2(%rax,%rsi)
	addq	$3, %rsi
	movq	%rsi, 8(%r8)
	jmp	.LBB46_13
	.p2align	4
.LBB46_18:                              # %arm.10
                                        #   in Loop: Header=BB46_1 Depth=1
	movzwl	%r11w, %ebp
	cmpl	$128, %ebp
	jae	.LBB46_19
# %bb.23:                               # %then.1.i
                                        #   in Loop: Header=BB46_1 Depth=1
	movq	(%r8), %rbx
	movq	8(%r8), %r14
	movb	%r11b, (%rbx,%r14)
	incq	%r14
	movq	%r14, 8(%r8)
	jmp	.LBB46_14
.LBB46_19:                              # %join.3.i
                                        #   in Loop: Header=BB46_1 Depth=1
	movl	%ebp, %r11d
	andl	$63, %r11d
	orl	$128, %r11d
	movl	%ebp, %ebx
	shrl	$6, %ebx
	cmpl	$2048, %ebp                     # imm = 0x800
	jae	.LBB46_22
# %bb.20:                               # %then.4.i
                                        #   in Loop: Header=BB46_1 Depth=1
	orb	$-64, %bl
	movq	(%r8), %r14
	movq	8(%r8), %r15
	movb	%bl, (%r14,%r15)
	movq	(%r8), %rbx
	movb	%r11b, 1(%rbx,%r15)
	addq	$2, %r15
	movq	%r15, 8(%r8)
	jmp	.LBB46_14
.LBB46_22:                              # %then.7.i
                                        #   in Loop: Header=BB46_1 Depth=1
	shrl	$12, %ebp
	orb	$-32, %bpl
	andb	$63, %bl
	orb	$-128, %bl
	movq	(%r8), %r14
	movq	8(%r8), %r15
	movb	%bpl, (%r14,%r15)
	movq	(%r8), %r14
	movb	%bl, 1(%r14,%r15)
	movq	(%r8), %rbx
	movb	%r11b, 2(%rbx,%r15)
	addq	$3, %r15
	movq	%r15, 8(%r8)
	jmp	.LBB46_14
.LBB46_16:                              # %after.1
	movq	%r11, (%rdi)
	movq	%r13, 8(%rdi)
	movq	$0, 16(%rdi)
	jmp	.LBB46_17
.LBB46_10:                              # %arm.7
	movq	%r10, (%rdi)
	movq	%r13, 8(%rdi)
	movw	$256, 16(%rdi)                  # imm = 0x100
	movl	$0, 18(%rdi)
	movw	$0, 22(%rdi)
.LBB46_17:                              # %after.1
	popq	%rbx
	.cfi_def_cfa_offset 48
	popq	%r12
	.cfi_def_cfa_offset 40
	popq	%r13
	.cfi_def_cfa_offset 32
	popq	%r14
	.cfi_def_cfa_offset 24
	popq	%r15
	.cfi_def_cfa_offset 16
	popq	%rbp
	.cfi_def_cfa_offset 8
	retq
.Lfunc_end46:
	.size	"recoding::engine::recode_faults::<#7de934f40f1f4d79>", .Lfunc_end46-"recoding::engine::recode_faults::<#7de934f40f1f4d79>"
	.cfi_endproc
                                        # -- End function
	.section	".text.recoding::recoder_runs::run_whole::<#06163603a29b5506>","ax",@progbits
	.p2align	4                               # -- Begin function recoding::recoder_runs::run_whole::<#06163603a29b5506>
	.type	"recoding::recoder_runs::run_whole::<#06163603a29b5506>",@function
"recoding::recoder_runs::run_whole::<#06163603a29b5506>": # @"recoding::recoder_runs::run_whole::<#06163603a29b5506>"
	.cfi_startproc
# %bb.0:                                # %start
	pushq	%r15
	.cfi_def_cfa_offset 16
	pushq	%r14
	.cfi_def_cfa_offset 24
	pushq	%r13
	.cfi_def_cfa_offset 32
	pushq	%r12
	.cfi_def_cfa_offset 40
	pushq	%rbx
	.cfi_def_cfa_offset 48
	subq	$80, %rsp
	.cfi_def_cfa_offset 128
	.cfi_offset %rbx, -48
	.cfi_offset %r12, -40
	.cfi_offset %r13, -32
	.cfi_offset %r14, -24
	.cfi_offset %r15, -16
	movq	%rdx, %r12
	movq	%rsi, %r15
	movq	%rdi, %r13
	xorl	%ebx, %ebx
	xorl	%r14d, %r14d
	jmp	.LBB47_2
.LBB47_1:                               # %"recoding::kernels::put_damaged_units::<#aa1056a8666f8679>.exit"
                                        #   in Loop: Header=BB47_2 Depth=1
	leaq	(%r14,%r13), %rdi
	movq	%r12, %rdx
	callq	"recoding::kernels::put_windows::<#aa1056a8666f8679>"
	addq	%rax, %r14
	addq	%rdx, %rbx
	testq	%rax, %rax
	je	.LBB47_6
	.p2align	4
.LBB47_2:                               # %loop.2.i
                                        # =>This Loop Header: Depth=1
                                        #     Child Loop BB47_11 Depth 2
	movq	%r15, %rsi
	subq	%r14, %rsi
	cmpq	$16, %rsi
	jb	.LBB47_4
# %bb.3:                                # %"recoding::kernels::TurnedKernelUtf16Utf16::put_text::<#26d690266811ceeb>.exit"
                                        #   in Loop: Header=BB47_2 Depth=1
	leaq	(%r14,%r13), %rdi
	movq	%r12, %rdx
	callq	"recoding::turned::copy_units::<#aa491edf3e91f816>"
	addq	%rax, %r14
	cmpq	$8187, %rax                     # imm = 0x1FFB
	ja	.LBB47_2
.LBB47_4:                               # %join.5.i
                                        #   in Loop: Header=BB47_2 Depth=1
	movq	%r15, %rsi
	subq	%r14, %rsi
	je	.LBB47_21
# %bb.5:                                # %join.8.i
                                        #   in Loop: Header=BB47_2 Depth=1
	cmpq	$64, %rsi
	jae	.LBB47_1
	jmp	.LBB47_7
.LBB47_6:                               # %"recoding::kernels::put_damaged_units::<#aa1056a8666f8679>.exit.join.14.i_crit_edge"
                                        #   in Loop: Header=BB47_2 Depth=1
	movq	%r15, %rsi
	subq	%r14, %rsi
.LBB47_7:                               # %join.14.i
                                        #   in Loop: Header=BB47_2 Depth=1
	cmpq	$128, %rsi
	movl	$128, %ecx
	cmovbq	%rsi, %rcx
	cmpq	$2, %rsi
	jb	.LBB47_17
# %bb.8:                                # %join.5.i39.preheader
                                        #   in Loop: Header=BB47_2 Depth=1
	leaq	(%r14,%r13), %rdx
	xorl	%eax, %eax
	movq	%rcx, %r8
	jmp	.LBB47_11
	.p2align	4
.LBB47_9:                               # %arm.7.i
                                        #   in Loop: Header=BB47_11 Depth=2
	movzbl	2(%rdx,%rax), %r10d
	andb	$3, %sil
	orb	$-40, %sil
	movq	(%r12), %r11
	movq	8(%r12), %r8
	movb	%dil, (%r11,%r8)
	movq	(%r12), %rdi
	movb	%sil, 1(%rdi,%r8)
	movq	(%r12), %rsi
	movb	%r10b, 2(%rsi,%r8)
	movq	(%r12), %rsi
	movb	%r9b, 3(%rsi,%r8)
	addq	$4, %r8
	movl	$4, %esi
.LBB47_10:                              # %"recoding::text::Utf16Text::put_code::<#ec2bf5654938c731>.exit.i"
                                        #   in Loop: Header=BB47_11 Depth=2
	movq	%r8, 8(%r12)
	addq	%rsi, %rax
	movq	%rcx, %r8
	subq	%rax, %r8
	cmpq	$1, %r8
	jbe	.LBB47_16
.LBB47_11:                              # %join.5.i39
                                        #   Parent Loop BB47_2 Depth=1
                                        # =>  This Inner Loop Header: Depth=2
	movzbl	(%rdx,%rax), %edi
	movzbl	1(%rdx,%rax), %esi
	movl	%esi, %r9d
	shll	$8, %r9d
	andl	$64512, %r9d                    # imm = 0xFC00
	cmpl	$55296, %r9d                    # imm = 0xD800
	je	.LBB47_14
# %bb.12:                               # %join.5.i39
                                        #   in Loop: Header=BB47_11 Depth=2
	cmpl	$56320, %r9d                    # imm = 0xDC00
	je	.LBB47_16
# %bb.13:                               # %arm.7.i.thread
                                        #   in Loop: Header=BB47_11 Depth=2
	movq	(%r12), %r9
	movq	8(%r12), %r8
	movb	%dil, (%r9,%r8)
	movq	(%r12), %rdi
	movb	%sil, 1(%rdi,%r8)
	addq	$2, %r8
	movl	$2, %esi
	jmp	.LBB47_10
	.p2align	4
.LBB47_14:                              # %join.6.i.i
                                        #   in Loop: Header=BB47_11 Depth=2
	cmpq	$4, %r8
	jb	.LBB47_16
# %bb.15:                               # %join.15.i71.i.i
                                        #   in Loop: Header=BB47_11 Depth=2
	movzbl	3(%rdx,%rax), %r9d
	movl	%r9d, %r8d
	andb	$-4, %r8b
	cmpb	$-36, %r8b
	je	.LBB47_9
.LBB47_16:                              # %"recoding::engine::recode_text::<#b66b510b4b49ed00>.exit"
                                        #   in Loop: Header=BB47_2 Depth=1
	addq	%rax, %r14
	cmpq	$124, %rax
	ja	.LBB47_2
.LBB47_17:                              # %then.15.i
                                        #   in Loop: Header=BB47_2 Depth=1
	movq	%r15, %rcx
	subq	%r14, %rcx
	je	.LBB47_21
# %bb.18:                               # %join.20.i
                                        #   in Loop: Header=BB47_2 Depth=1
	leaq	(%r14,%r13), %rdx
	xorps	%xmm0, %xmm0
	movaps	%xmm0, (%rsp)
	movq	$0, 16(%rsp)
	movaps	%xmm0, 32(%rsp)
	movaps	%xmm0, 48(%rsp)
	movq	$0, 64(%rsp)
	movq	%rsp, %rdi
	leaq	32(%rsp), %rsi
	movq	%r12, %r8
	callq	"recoding::engine::recode_faults::<#f602c80ce4e2d1ec>"
	addq	(%rsp), %r14
	addq	8(%rsp), %rbx
	testb	$1, 16(%rsp)
	jne	.LBB47_22
# %bb.19:                               # %join.20.i
                                        #   in Loop: Header=BB47_2 Depth=1
	testb	$1, 17(%rsp)
	je	.LBB47_2
	jmp	.LBB47_22
.LBB47_21:
	movq	%r15, %r14
.LBB47_22:                              # %"recoding::engine::run::<#3c5d2106b1fc9a19>.exit"
	movq	%r14, %rax
	movq	%rbx, %rdx
	addq	$80, %rsp
	.cfi_def_cfa_offset 48
	popq	%rbx
	.cfi_def_cfa_offset 40
	popq	%r12
	.cfi_def_cfa_offset 32
	popq	%r13
	.cfi_def_cfa_offset 24
	popq	%r14
	.cfi_def_cfa_offset 16
	popq	%r15
	.cfi_def_cfa_offset 8
	retq
.Lfunc_end47:
	.size	"recoding::recoder_runs::run_whole::<#06163603a29b5506>", .Lfunc_end47-"recoding::recoder_runs::run_whole::<#06163603a29b5506>"
	.cfi_endproc
                                        # -- End function
	.section	.rodata.cst16,"aM",@progbits,16
	.p2align	4, 0x0                          # -- Begin function recoding::turned::copy_units::<#aa491edf3e91f816>
.LCPI48_0:
	.byte	0                               # 0x0
	.byte	252                             # 0xfc
	.byte	0                               # 0x0
	.byte	252                             # 0xfc
	.byte	0                               # 0x0
	.byte	252                             # 0xfc
	.byte	0                               # 0x0
	.byte	252                             # 0xfc
	.byte	0                               # 0x0
	.byte	252                             # 0xfc
	.byte	0                               # 0x0
	.byte	252                             # 0xfc
	.byte	0                               # 0x0
	.byte	252                             # 0xfc
	.byte	0                               # 0x0
	.byte	252                             # 0xfc
.LCPI48_1:
	.zero	16,220
.LCPI48_2:
	.zero	16,216
	.section	".text.recoding::turned::copy_units::<#aa491edf3e91f816>","ax",@progbits
	.p2align	4
	.type	"recoding::turned::copy_units::<#aa491edf3e91f816>",@function
"recoding::turned::copy_units::<#aa491edf3e91f816>": # @"recoding::turned::copy_units::<#aa491edf3e91f816>"
	.cfi_startproc
# %bb.0:                                # %start
	pushq	%r15
	.cfi_def_cfa_offset 16
	pushq	%r14
	.cfi_def_cfa_offset 24
	pushq	%r13
	.cfi_def_cfa_offset 32
	pushq	%r12
	.cfi_def_cfa_offset 40
	pushq	%rbx
	.cfi_def_cfa_offset 48
	subq	$32, %rsp
	.cfi_def_cfa_offset 80
	.cfi_offset %rbx, -48
	.cfi_offset %r12, -40
	.cfi_offset %r13, -32
	.cfi_offset %r14, -24
	.cfi_offset %r15, -16
	movw	$0, (%rsp)
	movdqu	(%rdi), %xmm1
	movdqu	%xmm1, 2(%rsp)
	movdqa	.LCPI48_0(%rip), %xmm0          # xmm0 = [0,252,0,252,0,252,0,252,0,252,0,252,0,252,0,252]
	pand	%xmm0, %xmm1
	pcmpeqb	.LCPI48_1(%rip), %xmm1
	movdqa	(%rsp), %xmm2
	pand	%xmm0, %xmm2
	pcmpeqb	.LCPI48_2(%rip), %xmm2
	pxor	%xmm1, %xmm2
	pmovmskb	%xmm2, %eax
	testl	%eax, %eax
	je	.LBB48_2
# %bb.1:
	rep		bsfl	%eax, %ebx
	shrl	%ebx
	testq	%rbx, %rbx
	jne	.LBB48_12
	jmp	.LBB48_17
.LBB48_2:                               # %loop.2.i.preheader.i
	movl	$8, %ebx
	cmpq	$80, %rsi
	jb	.LBB48_7
# %bb.3:                                # %join.5.i.i.preheader
	leaq	-16(%rsi), %rax
	movl	$32, %ebx
	.p2align	4
.LBB48_4:                               # %join.5.i.i
                                        # =>This Inner Loop Header: Depth=1
	movdqu	-50(%rdi,%rbx,2), %xmm4
	movdqu	-48(%rdi,%rbx,2), %xmm5
	movdqu	-34(%rdi,%rbx,2), %xmm1
	movdqu	-32(%rdi,%rbx,2), %xmm6
	pand	%xmm0, %xmm5
	movdqa	.LCPI48_1(%rip), %xmm2          # xmm2 = [220,220,220,220,220,220,220,220,220,220,220,220,220,220,220,220]
	pcmpeqb	%xmm2, %xmm5
	pand	%xmm0, %xmm4
	movdqa	.LCPI48_2(%rip), %xmm3          # xmm3 = [216,216,216,216,216,216,216,216,216,216,216,216,216,216,216,216]
	pcmpeqb	%xmm3, %xmm4
	pxor	%xmm5, %xmm4
	pand	%xmm0, %xmm6
	pcmpeqb	%xmm2, %xmm6
	pand	%xmm0, %xmm1
	pcmpeqb	%xmm3, %xmm1
	pxor	%xmm6, %xmm1
	por	%xmm4, %xmm1
	movdqu	-16(%rdi,%rbx,2), %xmm4
	movdqu	-18(%rdi,%rbx,2), %xmm5
	pand	%xmm0, %xmm4
	pcmpeqb	%xmm2, %xmm4
	pand	%xmm0, %xmm5
	pcmpeqb	%xmm3, %xmm5
	pxor	%xmm4, %xmm5
	movdqu	(%rdi,%rbx,2), %xmm4
	movdqu	-2(%rdi,%rbx,2), %xmm6
	pand	%xmm0, %xmm4
	pcmpeqb	%xmm2, %xmm4
	pand	%xmm0, %xmm6
	pcmpeqb	%xmm3, %xmm6
	pxor	%xmm4, %xmm6
	por	%xmm5, %xmm6
	por	%xmm1, %xmm6
	pmovmskb	%xmm6, %ecx
	testl	%ecx, %ecx
	jne	.LBB48_6
# %bb.5:                                # %join.8.i.i
                                        #   in Loop: Header=BB48_4 Depth=1
	addq	$32, %rbx
	addq	$-64, %rax
	cmpq	$63, %rax
	ja	.LBB48_4
.LBB48_6:                               # %"join.5.i.i.utf_lanes::unit_blocks::paired_wide::<#951b42d46d2e9f62>.exit.i.loopexit_crit_edge"
	addq	$-24, %rbx
.LBB48_7:                               # %"utf_lanes::unit_blocks::paired_wide::<#951b42d46d2e9f62>.exit.i"
	shrq	%rsi
	cmpq	%rsi, %rbx
	jae	.LBB48_12
# %bb.8:                                # %join.5.i63.lr.ph.i
	leaq	-8(%rsi), %rax
	.p2align	4
.LBB48_9:                               # %join.5.i63.i
                                        # =>This Inner Loop Header: Depth=1
	cmpq	%rbx, %rax
	cmovbq	%rax, %rbx
	movdqu	-2(%rdi,%rbx,2), %xmm1
	movdqu	(%rdi,%rbx,2), %xmm2
	pand	%xmm0, %xmm2
	pcmpeqb	.LCPI48_1(%rip), %xmm2
	pand	%xmm0, %xmm1
	pcmpeqb	.LCPI48_2(%rip), %xmm1
	pxor	%xmm2, %xmm1
	pmovmskb	%xmm1, %ecx
	rep		bsfl	%ecx, %r8d
	shrl	%r8d
	testl	%ecx, %ecx
	movl	$8, %ecx
	cmovnel	%r8d, %ecx
	cmpw	$7, %cx
	jbe	.LBB48_11
# %bb.10:                               # %join.8.i79.i
                                        #   in Loop: Header=BB48_9 Depth=1
	addq	$8, %rbx
	cmpq	%rsi, %rbx
	jb	.LBB48_9
	jmp	.LBB48_12
.LBB48_11:                              # %then.6.i.i
	movzwl	%cx, %eax
	addq	%rax, %rbx
	testq	%rbx, %rbx
	je	.LBB48_17
.LBB48_12:                              # %"utf_lanes::unit_blocks::units_len::<#951b42d46d2e9f62>.exit"
	movzbl	-1(%rdi,%rbx,2), %eax
	andb	$-4, %al
	xorl	%ecx, %ecx
	cmpb	$-40, %al
	sete	%cl
	subq	%rcx, %rbx
	movq	%rbx, %rax
	addq	%rbx, %rax
	je	.LBB48_17
# %bb.13:                               # %join.3
	movq	8(%rdx), %rsi
	movq	16(%rdx), %r14
	movq	%r14, %rcx
	subq	%rsi, %rcx
	cmpq	%rcx, %rax
	ja	.LBB48_38
.LBB48_14:                              # %join.3.i
	leaq	8(%rdx), %rcx
	leaq	(%rsi,%rax), %r15
	movq	(%rdx), %r12
	pxor	%xmm0, %xmm0
	movdqu	%xmm0, (%rcx)
	leaq	(%r12,%rsi), %rcx
	movq	%rcx, %r8
	subq	%rdi, %r8
	cmpq	%rax, %r8
	jae	.LBB48_18
# %bb.15:                               # %iter.check
	cmpq	$4, %rax
	jb	.LBB48_16
# %bb.19:                               # %vector.memcheck
	cmpq	$32, %r8
	jae	.LBB48_21
.LBB48_16:
	xorl	%r8d, %r8d
.LBB48_30:                              # %join.7.i.i.i.preheader
	movq	%rax, %r10
	movq	%r8, %r9
	andq	$2, %r10
	je	.LBB48_33
# %bb.31:                               # %join.7.i.i.i.prol.preheader
	movq	%r8, %r9
	.p2align	4
.LBB48_32:                              # %join.7.i.i.i.prol
                                        # =>This Inner Loop Header: Depth=1
	movzbl	(%rdi,%r9), %r11d
	movb	%r11b, (%rcx,%r9)
	incq	%r9
	decq	%r10
	jne	.LBB48_32
.LBB48_33:                              # %join.7.i.i.i.prol.loopexit
	subq	%rax, %r8
	cmpq	$-4, %r8
	ja	.LBB48_36
# %bb.34:                               # %join.7.i.i.i.preheader35
	leaq	(%rsi,%r12), %rcx
	addq	$3, %rcx
	.p2align	4
.LBB48_35:                              # %join.7.i.i.i
                                        # =>This Inner Loop Header: Depth=1
	movzbl	(%rdi,%r9), %esi
	movb	%sil, -3(%rcx,%r9)
	movzbl	1(%rdi,%r9), %esi
	movb	%sil, -2(%rcx,%r9)
	movzbl	2(%rdi,%r9), %esi
	movb	%sil, -1(%rcx,%r9)
	movzbl	3(%rdi,%r9), %esi
	movb	%sil, (%rcx,%r9)
	addq	$4, %r9
	cmpq	%r9, %rax
	jne	.LBB48_35
	jmp	.LBB48_36
.LBB48_17:
	xorl	%eax, %eax
	jmp	.LBB48_37
.LBB48_18:                              # %apart.2.i.i.i
	movq	%rdi, %rsi
	movq	%rcx, %rdi
	movq	%rdx, %rbx
	movq	%rax, %rdx
	movq	%rax, %r13
	callq	memmove@PLT
	movq	%r13, %rax
	movq	%rbx, %rdx
.LBB48_36:                              # %"core::slots::Slots::copy_in::<i8,20'core::clone::U8Clone{}>.exit.i"
	movq	%r12, (%rdx)
	movq	%r15, 8(%rdx)
	movq	%r14, 16(%rdx)
.LBB48_37:                              # %common.ret
	addq	$32, %rsp
	.cfi_def_cfa_offset 48
	popq	%rbx
	.cfi_def_cfa_offset 40
	popq	%r12
	.cfi_def_cfa_offset 32
	popq	%r13
	.cfi_def_cfa_offset 24
	popq	%r14
	.cfi_def_cfa_offset 16
	popq	%r15
	.cfi_def_cfa_offset 8
	retq
.LBB48_21:                              # %vector.main.loop.iter.check
	.cfi_def_cfa_offset 80
	cmpq	$32, %rax
	jae	.LBB48_23
# %bb.22:
	xorl	%r8d, %r8d
	jmp	.LBB48_27
.LBB48_23:                              # %vector.ph
	movq	%rax, %r8
	andq	$-32, %r8
	leaq	(%rsi,%r12), %r9
	addq	$16, %r9
	xorl	%r10d, %r10d
	.p2align	4
.LBB48_24:                              # %vector.body
                                        # =>This Inner Loop Header: Depth=1
	movdqu	(%rdi,%r10), %xmm0
	movdqu	16(%rdi,%r10), %xmm1
	movdqu	%xmm0, -16(%r9,%r10)
	movdqu	%xmm1, (%r9,%r10)
	addq	$32, %r10
	cmpq	%r10, %r8
	jne	.LBB48_24
# %bb.25:                               # %middle.block
	cmpq	%r8, %rax
	je	.LBB48_36
# %bb.26:                               # %vec.epilog.iter.check
	testb	$14, %bl
	je	.LBB48_30
.LBB48_27:                              # %vec.epilog.ph
	movq	%r8, %r9
	movq	%rax, %r8
	andq	$-4, %r8
	.p2align	4
.LBB48_28:                              # %vec.epilog.vector.body
                                        # =>This Inner Loop Header: Depth=1
	movl	(%rdi,%r9), %r10d
	movl	%r10d, (%rcx,%r9)
	addq	$4, %r9
	cmpq	%r9, %r8
	jne	.LBB48_28
# %bb.29:                               # %vec.epilog.middle.block
	cmpq	%r8, %rax
	je	.LBB48_36
	jmp	.LBB48_30
.LBB48_38:                              # %"std_alloc::vec::Vec::grow::<#5fdc5e19576447a7>.exit.i"
	movq	%rdi, %r15
	movq	%rdx, %r14
	movq	%rdx, %rdi
	movq	%rax, %r12
	movq	%rax, %rsi
	callq	"std_alloc::vec::Vec::grow_amortized::<#5fdc5e19576447a7>"
	testb	%al, %al
	je	.LBB48_40
# %bb.39:                               # %"std_alloc::vec::Vec::grow::<#5fdc5e19576447a7>.exit.join.3_crit_edge.i"
	movq	%r14, %rdx
	movq	8(%r14), %rsi
	movq	16(%r14), %r14
	movq	%r15, %rdi
	movq	%r12, %rax
	jmp	.LBB48_14
.LBB48_40:
	movq	%r12, %rax
	jmp	.LBB48_37
.Lfunc_end48:
	.size	"recoding::turned::copy_units::<#aa491edf3e91f816>", .Lfunc_end48-"recoding::turned::copy_units::<#aa491edf3e91f816>"
	.cfi_endproc
                                        # -- End function
	.section	.rodata.cst16,"aM",@progbits,16
	.p2align	4, 0x0                          # -- Begin function recoding::kernels::put_windows::<#aa1056a8666f8679>
.LCPI49_0:
	.short	255                             # 0xff
	.short	255                             # 0xff
	.short	255                             # 0xff
	.short	255                             # 0xff
	.short	255                             # 0xff
	.short	255                             # 0xff
	.short	255                             # 0xff
	.short	255                             # 0xff
.LCPI49_1:
	.byte	1                               # 0x1
	.byte	3                               # 0x3
	.byte	5                               # 0x5
	.byte	7                               # 0x7
	.byte	9                               # 0x9
	.byte	11                              # 0xb
	.byte	13                              # 0xd
	.byte	15                              # 0xf
	.zero	1
	.zero	1
	.zero	1
	.zero	1
	.zero	1
	.zero	1
	.zero	1
	.zero	1
.LCPI49_2:
	.zero	16,63
.LCPI49_3:
	.zero	16,54
.LCPI49_4:
	.byte	255                             # 0xff
	.byte	255                             # 0xff
	.byte	255                             # 0xff
	.byte	255                             # 0xff
	.byte	255                             # 0xff
	.byte	255                             # 0xff
	.byte	255                             # 0xff
	.byte	255                             # 0xff
	.byte	255                             # 0xff
	.byte	255                             # 0xff
	.byte	255                             # 0xff
	.byte	255                             # 0xff
	.byte	255                             # 0xff
	.byte	255                             # 0xff
	.byte	255                             # 0xff
	.byte	0                               # 0x0
.LCPI49_5:
	.zero	16,55
.LCPI49_6:
	.zero	16,253
.LCPI49_7:
	.zero	16,252
.LCPI49_8:
	.zero	16,216
.LCPI49_9:
	.byte	1                               # 0x1
	.byte	3                               # 0x3
	.byte	5                               # 0x5
	.byte	7                               # 0x7
	.byte	9                               # 0x9
	.byte	11                              # 0xb
	.byte	13                              # 0xd
	.byte	15                              # 0xf
	.byte	0                               # 0x0
	.byte	0                               # 0x0
	.byte	0                               # 0x0
	.byte	0                               # 0x0
	.byte	0                               # 0x0
	.byte	0                               # 0x0
	.byte	0                               # 0x0
	.byte	0                               # 0x0
	.section	".text.recoding::kernels::put_windows::<#aa1056a8666f8679>","ax",@progbits
	.p2align	4
	.type	"recoding::kernels::put_windows::<#aa1056a8666f8679>",@function
"recoding::kernels::put_windows::<#aa1056a8666f8679>": # @"recoding::kernels::put_windows::<#aa1056a8666f8679>"
	.cfi_startproc
# %bb.0:                                # %start
	pushq	%rbp
	.cfi_def_cfa_offset 16
	pushq	%r15
	.cfi_def_cfa_offset 24
	pushq	%r14
	.cfi_def_cfa_offset 32
	pushq	%r13
	.cfi_def_cfa_offset 40
	pushq	%r12
	.cfi_def_cfa_offset 48
	pushq	%rbx
	.cfi_def_cfa_offset 56
	subq	$120, %rsp
	.cfi_def_cfa_offset 176
	.cfi_offset %rbx, -56
	.cfi_offset %r12, -48
	.cfi_offset %r13, -40
	.cfi_offset %r14, -32
	.cfi_offset %r15, -24
	.cfi_offset %rbp, -16
	movq	%rdx, %r8
	movq	%rsi, 16(%rsp)                  # 8-byte Spill
	movq	%rdi, 24(%rsp)                  # 8-byte Spill
	xorl	%ebx, %ebx
	xorl	%edx, %edx
	xorl	%r12d, %r12d
	movq	%r8, 8(%rsp)                    # 8-byte Spill
	.p2align	4
.LBB49_1:                               # %then.6
                                        # =>This Inner Loop Header: Depth=1
	movq	8(%r8), %rax
	movq	16(%r8), %rsi
	movq	%rsi, %rcx
	subq	%rax, %rcx
	cmpq	$112, %rcx
	jb	.LBB49_11
# %bb.2:                                # %join.3.i
                                        #   in Loop: Header=BB49_1 Depth=1
	movq	%rdx, 40(%rsp)                  # 8-byte Spill
	movq	24(%rsp), %rcx                  # 8-byte Reload
	movdqu	(%rcx,%rbx), %xmm2
	movdqu	16(%rcx,%rbx), %xmm0
	movdqu	32(%rcx,%rbx), %xmm1
	movdqu	48(%rcx,%rbx), %xmm5
	movdqa	.LCPI49_0(%rip), %xmm4          # xmm4 = [255,255,255,255,255,255,255,255]
	movdqa	%xmm5, %xmm6
	pand	%xmm4, %xmm6
	movdqa	%xmm1, %xmm3
	pand	%xmm4, %xmm3
	packuswb	%xmm6, %xmm3
	movdqa	%xmm0, %xmm6
	pand	%xmm4, %xmm6
	pand	%xmm2, %xmm4
	packuswb	%xmm6, %xmm4
	movq	.LCPI49_9(%rip), %xmm6          # xmm6 = [1,3,5,7,9,11,13,15,0,0,0,0,0,0,0,0]
	pshufb	%xmm6, %xmm0
	pshufb	%xmm6, %xmm2
	punpcklqdq	%xmm0, %xmm2            # xmm2 = xmm2[0],xmm0[0]
	pshufb	%xmm6, %xmm5
	pshufb	%xmm6, %xmm1
	punpcklqdq	%xmm5, %xmm1            # xmm1 = xmm1[0],xmm5[0]
	movdqa	%xmm1, %xmm0
	psrlw	$2, %xmm0
	movdqa	.LCPI49_2(%rip), %xmm6          # xmm6 = [63,63,63,63,63,63,63,63,63,63,63,63,63,63,63,63]
	pand	%xmm6, %xmm0
	movdqa	%xmm2, %xmm5
	psrlw	$2, %xmm5
	pand	%xmm6, %xmm5
	movdqa	.LCPI49_3(%rip), %xmm9          # xmm9 = [54,54,54,54,54,54,54,54,54,54,54,54,54,54,54,54]
	movdqa	%xmm5, %xmm6
	pcmpeqb	%xmm9, %xmm6
	pcmpeqb	%xmm0, %xmm9
	movdqa	.LCPI49_4(%rip), %xmm7          # xmm7 = [255,255,255,255,255,255,255,255,255,255,255,255,255,255,255,0]
	pand	%xmm9, %xmm7
	movdqa	.LCPI49_5(%rip), %xmm8          # xmm8 = [55,55,55,55,55,55,55,55,55,55,55,55,55,55,55,55]
	pcmpeqb	%xmm8, %xmm0
	pcmpeqb	%xmm8, %xmm5
	palignr	$15, %xmm6, %xmm9               # xmm9 = xmm6[15],xmm9[0,1,2,3,4,5,6,7,8,9,10,11,12,13,14]
	movdqa	%xmm6, %xmm10
	pslldq	$1, %xmm10                      # xmm10 = zero,xmm10[0,1,2,3,4,5,6,7,8,9,10,11,12,13,14]
	pxor	%xmm5, %xmm10
	pxor	%xmm0, %xmm9
	movdqa	%xmm9, %xmm8
	palignr	$1, %xmm10, %xmm8               # xmm8 = xmm10[1,2,3,4,5,6,7,8,9,10,11,12,13,14,15],xmm8[0]
	pand	%xmm5, %xmm10
	palignr	$1, %xmm9, %xmm5                # xmm5 = xmm9[1,2,3,4,5,6,7,8,9,10,11,12,13,14,15],xmm5[0]
	pand	%xmm7, %xmm5
	pand	%xmm6, %xmm8
	pxor	%xmm7, %xmm7
	por	%xmm8, %xmm10
	pand	%xmm0, %xmm9
	por	%xmm5, %xmm9
	movdqa	.LCPI49_6(%rip), %xmm6          # xmm6 = [253,253,253,253,253,253,253,253,253,253,253,253,253,253,253,253]
	pcmpeqb	%xmm7, %xmm10
	movdqa	%xmm6, %xmm5
	movdqa	%xmm10, %xmm0
	pblendvb	%xmm0, %xmm4, %xmm5
	pcmpeqb	%xmm7, %xmm9
	movdqa	%xmm9, %xmm0
	pblendvb	%xmm0, %xmm3, %xmm6
	pcmpeqd	%xmm0, %xmm0
	movdqa	%xmm10, 80(%rsp)                # 16-byte Spill
	pxor	%xmm0, %xmm10
	por	%xmm2, %xmm10
	movdqa	%xmm9, 96(%rsp)                 # 16-byte Spill
	pxor	%xmm9, %xmm0
	por	%xmm1, %xmm0
	pand	.LCPI49_7(%rip), %xmm1
	pcmpeqb	.LCPI49_8(%rip), %xmm1
	pmovmskb	%xmm1, %ecx
	xorl	%r14d, %r14d
	testw	%cx, %cx
	setns	%r14b
	addl	%r14d, %r14d
	movdqa	%xmm6, %xmm1
	punpcklbw	%xmm0, %xmm1            # xmm1 = xmm1[0],xmm0[0],xmm1[1],xmm0[1],xmm1[2],xmm0[2],xmm1[3],xmm0[3],xmm1[4],xmm0[4],xmm1[5],xmm0[5],xmm1[6],xmm0[6],xmm1[7],xmm0[7]
	movdqa	%xmm1, 48(%rsp)
	punpckhbw	%xmm0, %xmm6            # xmm6 = xmm6[8],xmm0[8],xmm6[9],xmm0[9],xmm6[10],xmm0[10],xmm6[11],xmm0[11],xmm6[12],xmm0[12],xmm6[13],xmm0[13],xmm6[14],xmm0[14],xmm6[15],xmm0[15]
	movdqa	%xmm6, 64(%rsp)
	movdqa	%xmm5, %xmm0
	punpcklbw	%xmm10, %xmm0           # xmm0 = xmm0[0],xmm10[0],xmm0[1],xmm10[1],xmm0[2],xmm10[2],xmm0[3],xmm10[3],xmm0[4],xmm10[4],xmm0[5],xmm10[5],xmm0[6],xmm10[6],xmm0[7],xmm10[7]
	punpckhbw	%xmm10, %xmm5           # xmm5 = xmm5[8],xmm10[8],xmm5[9],xmm10[9],xmm5[10],xmm10[10],xmm5[11],xmm10[11],xmm5[12],xmm10[12],xmm5[13],xmm10[13],xmm5[14],xmm10[14],xmm5[15],xmm10[15]
	leaq	32(%rax), %rbp
	movq	(%r8), %r15
	movdqu	%xmm0, (%r15,%rax)
	movdqu	%xmm5, 16(%r15,%rax)
	movq	%r15, (%r8)
	movq	%rbp, 8(%r8)
	movq	%rsi, 16(%r8)
	leaq	30(%r14), %rdx
	movq	%rsi, %rax
	subq	%rbp, %rax
	cmpq	%rax, %rdx
	ja	.LBB49_3
.LBB49_5:                               # %join.3.i110
                                        #   in Loop: Header=BB49_1 Depth=1
	movq	%rsi, 32(%rsp)                  # 8-byte Spill
	leaq	(%r15,%rbp), %rdi
	leaq	48(%rsp), %rax
	movq	%rdi, %rcx
	subq	%rax, %rcx
	leaq	48(%rsp), %rsi
	movq	%rdx, %r13
	cmpq	%rdx, %rcx
	jae	.LBB49_7
# %bb.6:                                # %join.7.i.i.i123.preheader
                                        #   in Loop: Header=BB49_1 Depth=1
	callq	memcpy@PLT
	jmp	.LBB49_8
	.p2align	4
.LBB49_7:                               # %apart.2.i.i.i120
                                        #   in Loop: Header=BB49_1 Depth=1
	callq	memmove@PLT
.LBB49_8:                               # %"core::slots::Slots::copy_in::<i8,20'core::clone::U8Clone{}>.exit.i121"
                                        #   in Loop: Header=BB49_1 Depth=1
	addq	%r13, %rbp
	movq	8(%rsp), %r8                    # 8-byte Reload
	movq	%r15, (%r8)
	movq	%rbp, 8(%r8)
	movq	32(%rsp), %rax                  # 8-byte Reload
	movq	%rax, 16(%r8)
.LBB49_9:                               # %"std_alloc::vec::Vec::extend_from_slice::<#0cd040e5c49bc722>.exit135"
                                        #   in Loop: Header=BB49_1 Depth=1
	addq	$62, %r14
	movdqa	80(%rsp), %xmm0                 # 16-byte Reload
	pmovmskb	%xmm0, %eax
	xorl	$65535, %eax                    # imm = 0xFFFF
	movdqa	96(%rsp), %xmm0                 # 16-byte Reload
	pmovmskb	%xmm0, %ecx
	notl	%ecx
	shll	$16, %ecx
	orl	%eax, %ecx
	xorl	%eax, %eax
	popcntl	%ecx, %eax
	addq	%r14, %rbx
	movq	40(%rsp), %rdx                  # 8-byte Reload
	addq	%rax, %rdx
	movq	%r12, %rax
	incq	%rax
	xorl	%r12d, %r12d
	testl	%ecx, %ecx
	cmoveq	%rax, %r12
	cmpq	$8, %rdx
	movl	$8, %eax
	cmovbq	%rdx, %rax
	cmpq	%rax, %r12
	ja	.LBB49_11
# %bb.10:                               # %"std_alloc::vec::Vec::extend_from_slice::<#0cd040e5c49bc722>.exit135"
                                        #   in Loop: Header=BB49_1 Depth=1
	movq	16(%rsp), %rax                  # 8-byte Reload
	subq	%rbx, %rax
	cmpq	$63, %rax
	ja	.LBB49_1
	jmp	.LBB49_11
.LBB49_3:                               # %"std_alloc::vec::Vec::grow::<#5fdc5e19576447a7>.exit.i130"
                                        #   in Loop: Header=BB49_1 Depth=1
	movq	%r8, %rdi
	movq	%rdx, %r13
	movq	%rdx, %rsi
	callq	"std_alloc::vec::Vec::grow_amortized::<#5fdc5e19576447a7>"
	movq	8(%rsp), %r8                    # 8-byte Reload
	testb	%al, %al
	je	.LBB49_9
# %bb.4:                                # %"std_alloc::vec::Vec::grow::<#5fdc5e19576447a7>.exit.join.3_crit_edge.i132"
                                        #   in Loop: Header=BB49_1 Depth=1
	movq	(%r8), %r15
	movq	8(%r8), %rbp
	movq	16(%r8), %rsi
	movq	%r13, %rdx
	jmp	.LBB49_5
.LBB49_11:                              # %after.1
	movq	%rbx, %rax
	addq	$120, %rsp
	.cfi_def_cfa_offset 56
	popq	%rbx
	.cfi_def_cfa_offset 48
	popq	%r12
	.cfi_def_cfa_offset 40
	popq	%r13
	.cfi_def_cfa_offset 32
	popq	%r14
	.cfi_def_cfa_offset 24
	popq	%r15
	.cfi_def_cfa_offset 16
	popq	%rbp
	.cfi_def_cfa_offset 8
	retq
.Lfunc_end49:
	.size	"recoding::kernels::put_windows::<#aa1056a8666f8679>", .Lfunc_end49-"recoding::kernels::put_windows::<#aa1056a8666f8679>"
	.cfi_endproc
                                        # -- End function
	.section	".text.recoding::engine::recode_faults::<#f602c80ce4e2d1ec>","ax",@progbits
	.p2align	4                               # -- Begin function recoding::engine::recode_faults::<#f602c80ce4e2d1ec>
	.type	"recoding::engine::recode_faults::<#f602c80ce4e2d1ec>",@function
"recoding::engine::recode_faults::<#f602c80ce4e2d1ec>": # @"recoding::engine::recode_faults::<#f602c80ce4e2d1ec>"
	.cfi_startproc
# %bb.0:                                # %start
	pushq	%rbp
	.cfi_def_cfa_offset 16
	pushq	%r15
	.cfi_def_cfa_offset 24
	pushq	%r14
	.cfi_def_cfa_offset 32
	pushq	%r13
	.cfi_def_cfa_offset 40
	pushq	%r12
	.cfi_def_cfa_offset 48
	pushq	%rbx
	.cfi_def_cfa_offset 56
	.cfi_offset %rbx, -56
	.cfi_offset %r12, -48
	.cfi_offset %r13, -40
	.cfi_offset %r14, -32
	.cfi_offset %r15, -24
	.cfi_offset %rbp, -16
	cmpb	$2, (%rsi)
	setne	%r9b
	cmpq	$0, 16(%rsi)
	setne	%r12b
	orb	%r9b, %r12b
	movl	$16, %r9d
	xorl	%r11d, %r11d
	xorl	%r13d, %r13d
	jmp	.LBB50_1
	.p2align	4
.LBB50_13:                              # %"recoding::text::Utf16Text::put_any::<#ec2bf5654938c731>.exit"
                                        #   in Loop: Header=BB50_1 Depth=1
	incq	%r13
.LBB50_15:                              # %join.12
                                        #   in Loop: Header=BB50_1 Depth=1
	movl	$2, %r11d
	addq	%r10, %r11
	cmpq	%r9, %r11
	jae	.LBB50_17
.LBB50_1:                               # %join.5
                                        # =>This Inner Loop Header: Depth=1
	movq	%r11, %r10
	addq	$4, %r11
	cmpq	%rcx, %r11
	jbe	.LBB50_2
# %bb.6:                                # %join.3.i
                                        #   in Loop: Header=BB50_1 Depth=1
	movq	%rcx, %r14
	subq	%r10, %r14
	cmpq	$2, %r14
	jb	.LBB50_10
# %bb.7:                                # %join.3.i.i
                                        #   in Loop: Header=BB50_1 Depth=1
	movzbl	1(%rdx,%r10), %ebx
	shll	$8, %ebx
	movl	%ebx, %ebp
	andl	$64512, %ebp                    # imm = 0xFC00
	cmpl	$56320, %ebp                    # imm = 0xDC00
	je	.LBB50_11
# %bb.8:                                # %join.3.i.i
                                        #   in Loop: Header=BB50_1 Depth=1
	movzbl	(%rdx,%r10), %r15d
	orl	%r15d, %ebx
	cmpl	$55296, %ebp                    # imm = 0xD800
	jne	.LBB50_14
# %bb.9:                                # %join.6.i.i
                                        #   in Loop: Header=BB50_1 Depth=1
	cmpq	$4, %r14
	jae	.LBB50_4
	jmp	.LBB50_10
	.p2align	4
.LBB50_2:                               # %then.1.i82
                                        #   in Loop: Header=BB50_1 Depth=1
	movzbl	1(%rdx,%r10), %ebx
	shll	$8, %ebx
	movl	%ebx, %ebp
	andl	$64512, %ebp                    # imm = 0xFC00
	cmpl	$56320, %ebp                    # imm = 0xDC00
	je	.LBB50_11
# %bb.3:                                # %then.1.i82
                                        #   in Loop: Header=BB50_1 Depth=1
	movzbl	(%rdx,%r10), %r14d
	orl	%r14d, %ebx
	cmpl	$55296, %ebp                    # imm = 0xD800
	jne	.LBB50_14
.LBB50_4:                               # %join.15.i257.i
                                        #   in Loop: Header=BB50_1 Depth=1
	movzbl	3(%rdx,%r10), %r14d
	movl	%r14d, %ebp
	andl	$-4, %ebp
	cmpl	$220, %ebp
	jne	.LBB50_11
# %bb.5:                                # %arm.14.i108.i
                                        #   in Loop: Header=BB50_1 Depth=1
	movzbl	2(%rdx,%r10), %r11d
	andl	$1023, %ebx                     # imm = 0x3FF
	shll	$10, %ebx
	andl	$3, %r14d
	shll	$8, %r14d
	orl	%r11d, %r14d
	leal	(%rbx,%r14), %r11d
	addl	$65536, %r11d                   # imm = 0x10000
	movl	%r11d, %ebx
	shrl	$10, %ebx
	addl	$-10304, %ebx                   # imm = 0xD7C0
	movl	%r11d, %eax
	shrl	$8, %r11d
	andb	$3, %r11b
	orb	$-36, %r11b
	movq	(%r8), %r14
	movq	8(%r8), %rbp
	movb	%bl, (%r14,%rbp)
	movq	(%r8), %rsi
	movb	%bh, 1(%rsi,%rbp)
	movq	(%r8), %rsi
	movb	%al, 2(%rsi,%rbp)
	movq	(%r8), %rax
	movb	%r11b, 3(%rax,%rbp)
	addq	$4, %rbp
	movq	%rbp, 8(%r8)
	movl	$4, %r11d
	addq	%r10, %r11
	cmpq	%r9, %r11
	jb	.LBB50_1
	jmp	.LBB50_17
	.p2align	4
.LBB50_11:                              # %arm.11
                                        #   in Loop: Header=BB50_1 Depth=1
	cmpq	$32, %r11
	movl	$32, %r9d
	cmovbq	%r11, %r9
	testb	%r12b, %r12b
	je	.LBB50_13
# %bb.12:                               # %"recoding::text::Utf16Text::put_code::<#ec2bf5654938c731>.exit.i.i"
                                        #   in Loop: Header=BB50_1 Depth=1
	movq	(%r8), %rax
	movq	8(%r8), %rsi
	movb	$-3, (%rax,%rsi)
	movq	(%r8), %rax
	movb	$-1, 1(%rax,%rsi)
	addq	$2, %rsi
	movq	%rsi, 8(%r8)
	jmp	.LBB50_13
	.p2align	4
.LBB50_14:                              # %arm.1.i
                                        #   in Loop: Header=BB50_1 Depth=1
	movq	(%r8), %r11
	movq	8(%r8), %rbp
	movb	%bl, (%r11,%rbp)
	movq	(%r8), %rax
	movb	%bh, 1(%rax,%rbp)
	addq	$2, %rbp
	movq	%rbp, 8(%r8)
	jmp	.LBB50_15
.LBB50_17:                              # %after.1
	movq	%r11, (%rdi)
	movq	%r13, 8(%rdi)
	movq	$0, 16(%rdi)
	jmp	.LBB50_18
.LBB50_10:                              # %arm.7
	movq	%r10, (%rdi)
	movq	%r13, 8(%rdi)
	movw	$256, 16(%rdi)                  # imm = 0x100
	movl	$0, 18(%rdi)
	movw	$0, 22(%rdi)
.LBB50_18:                              # %after.1
	popq	%rbx
	.cfi_def_cfa_offset 48
	popq	%r12
	.cfi_def_cfa_offset 40
	popq	%r13
	.cfi_def_cfa_offset 32
	popq	%r14
	.cfi_def_cfa_offset 24
	popq	%r15
	.cfi_def_cfa_offset 16
	popq	%rbp
	.cfi_def_cfa_offset 8
	retq
.Lfunc_end50:
	.size	"recoding::engine::recode_faults::<#f602c80ce4e2d1ec>", .Lfunc_end50-"recoding::engine::recode_faults::<#f602c80ce4e2d1ec>"
	.cfi_endproc
                                        # -- End function
	.section	".text.recoding::recoder_runs::run_whole::<#daeca7e912b417d6>","ax",@progbits
	.p2align	4                               # -- Begin function recoding::recoder_runs::run_whole::<#daeca7e912b417d6>
	.type	"recoding::recoder_runs::run_whole::<#daeca7e912b417d6>",@function
"recoding::recoder_runs::run_whole::<#daeca7e912b417d6>": # @"recoding::recoder_runs::run_whole::<#daeca7e912b417d6>"
	.cfi_startproc
# %bb.0:                                # %start
	pushq	%r15
	.cfi_def_cfa_offset 16
	pushq	%r14
	.cfi_def_cfa_offset 24
	pushq	%r13
	.cfi_def_cfa_offset 32
	pushq	%r12
	.cfi_def_cfa_offset 40
	pushq	%rbx
	.cfi_def_cfa_offset 48
	subq	$80, %rsp
	.cfi_def_cfa_offset 128
	.cfi_offset %rbx, -48
	.cfi_offset %r12, -40
	.cfi_offset %r13, -32
	.cfi_offset %r14, -24
	.cfi_offset %r15, -16
	movq	%rdx, %r12
	movq	%rsi, %r15
	movq	%rdi, %r13
	xorl	%ebx, %ebx
	xorl	%r14d, %r14d
	jmp	.LBB51_2
.LBB51_1:                               # %"recoding::kernels::put_damaged_units::<#e34f862aaeb63555>.exit"
                                        #   in Loop: Header=BB51_2 Depth=1
	leaq	(%r14,%r13), %rdi
	movq	%r12, %rdx
	callq	"recoding::kernels::put_windows::<#e34f862aaeb63555>"
	addq	%rax, %r14
	addq	%rdx, %rbx
	testq	%rax, %rax
	je	.LBB51_6
	.p2align	4
.LBB51_2:                               # %loop.2.i
                                        # =>This Loop Header: Depth=1
                                        #     Child Loop BB51_11 Depth 2
	movq	%r15, %rsi
	subq	%r14, %rsi
	cmpq	$16, %rsi
	jb	.LBB51_4
# %bb.3:                                # %"recoding::kernels::TurnedKernelUtf16Utf16::put_text::<#2cb43bbe79a2a8c3>.exit"
                                        #   in Loop: Header=BB51_2 Depth=1
	leaq	(%r14,%r13), %rdi
	movq	%r12, %rdx
	callq	"recoding::turned::copy_units::<#671af64cce331956>"
	addq	%rax, %r14
	cmpq	$8187, %rax                     # imm = 0x1FFB
	ja	.LBB51_2
.LBB51_4:                               # %join.5.i
                                        #   in Loop: Header=BB51_2 Depth=1
	movq	%r15, %rsi
	subq	%r14, %rsi
	je	.LBB51_21
# %bb.5:                                # %join.8.i
                                        #   in Loop: Header=BB51_2 Depth=1
	cmpq	$64, %rsi
	jae	.LBB51_1
	jmp	.LBB51_7
.LBB51_6:                               # %"recoding::kernels::put_damaged_units::<#e34f862aaeb63555>.exit.join.14.i_crit_edge"
                                        #   in Loop: Header=BB51_2 Depth=1
	movq	%r15, %rsi
	subq	%r14, %rsi
.LBB51_7:                               # %join.14.i
                                        #   in Loop: Header=BB51_2 Depth=1
	cmpq	$128, %rsi
	movl	$128, %ecx
	cmovbq	%rsi, %rcx
	cmpq	$2, %rsi
	jb	.LBB51_17
# %bb.8:                                # %join.5.i39.preheader
                                        #   in Loop: Header=BB51_2 Depth=1
	leaq	(%r14,%r13), %rdx
	xorl	%eax, %eax
	movq	%rcx, %r8
	jmp	.LBB51_11
	.p2align	4
.LBB51_9:                               # %arm.7.i
                                        #   in Loop: Header=BB51_11 Depth=2
	movzbl	2(%rdx,%rax), %r10d
	andb	$3, %dil
	orb	$-40, %dil
	movq	(%r12), %r11
	movq	8(%r12), %r8
	movb	%dil, (%r11,%r8)
	movq	(%r12), %rdi
	movb	%sil, 1(%rdi,%r8)
	movq	(%r12), %rsi
	movb	%r9b, 2(%rsi,%r8)
	movq	(%r12), %rsi
	movb	%r10b, 3(%rsi,%r8)
	addq	$4, %r8
	movl	$4, %esi
.LBB51_10:                              # %"recoding::text::Utf16Text::put_code::<#f52bd5352b4cd2db>.exit.i"
                                        #   in Loop: Header=BB51_11 Depth=2
	movq	%r8, 8(%r12)
	addq	%rsi, %rax
	movq	%rcx, %r8
	subq	%rax, %r8
	cmpq	$1, %r8
	jbe	.LBB51_16
.LBB51_11:                              # %join.5.i39
                                        #   Parent Loop BB51_2 Depth=1
                                        # =>  This Inner Loop Header: Depth=2
	movzbl	(%rdx,%rax), %esi
	movzbl	1(%rdx,%rax), %edi
	movl	%edi, %r9d
	shll	$8, %r9d
	andl	$64512, %r9d                    # imm = 0xFC00
	cmpl	$55296, %r9d                    # imm = 0xD800
	je	.LBB51_14
# %bb.12:                               # %join.5.i39
                                        #   in Loop: Header=BB51_11 Depth=2
	cmpl	$56320, %r9d                    # imm = 0xDC00
	je	.LBB51_16
# %bb.13:                               # %arm.7.i.thread
                                        #   in Loop: Header=BB51_11 Depth=2
	movq	(%r12), %r9
	movq	8(%r12), %r8
	movb	%dil, (%r9,%r8)
	movq	(%r12), %rdi
	movb	%sil, 1(%rdi,%r8)
	addq	$2, %r8
	movl	$2, %esi
	jmp	.LBB51_10
	.p2align	4
.LBB51_14:                              # %join.6.i.i
                                        #   in Loop: Header=BB51_11 Depth=2
	cmpq	$4, %r8
	jb	.LBB51_16
# %bb.15:                               # %join.15.i71.i.i
                                        #   in Loop: Header=BB51_11 Depth=2
	movzbl	3(%rdx,%rax), %r9d
	movl	%r9d, %r8d
	andb	$-4, %r8b
	cmpb	$-36, %r8b
	je	.LBB51_9
.LBB51_16:                              # %"recoding::engine::recode_text::<#83daf91f04e66afe>.exit"
                                        #   in Loop: Header=BB51_2 Depth=1
	addq	%rax, %r14
	cmpq	$124, %rax
	ja	.LBB51_2
.LBB51_17:                              # %then.15.i
                                        #   in Loop: Header=BB51_2 Depth=1
	movq	%r15, %rcx
	subq	%r14, %rcx
	je	.LBB51_21
# %bb.18:                               # %join.20.i
                                        #   in Loop: Header=BB51_2 Depth=1
	leaq	(%r14,%r13), %rdx
	xorps	%xmm0, %xmm0
	movaps	%xmm0, (%rsp)
	movq	$0, 16(%rsp)
	movaps	%xmm0, 32(%rsp)
	movaps	%xmm0, 48(%rsp)
	movq	$0, 64(%rsp)
	movq	%rsp, %rdi
	leaq	32(%rsp), %rsi
	movq	%r12, %r8
	callq	"recoding::engine::recode_faults::<#8dadd7d4866406da>"
	addq	(%rsp), %r14
	addq	8(%rsp), %rbx
	testb	$1, 16(%rsp)
	jne	.LBB51_22
# %bb.19:                               # %join.20.i
                                        #   in Loop: Header=BB51_2 Depth=1
	testb	$1, 17(%rsp)
	je	.LBB51_2
	jmp	.LBB51_22
.LBB51_21:
	movq	%r15, %r14
.LBB51_22:                              # %"recoding::engine::run::<#904cae1242d1b321>.exit"
	movq	%r14, %rax
	movq	%rbx, %rdx
	addq	$80, %rsp
	.cfi_def_cfa_offset 48
	popq	%rbx
	.cfi_def_cfa_offset 40
	popq	%r12
	.cfi_def_cfa_offset 32
	popq	%r13
	.cfi_def_cfa_offset 24
	popq	%r14
	.cfi_def_cfa_offset 16
	popq	%r15
	.cfi_def_cfa_offset 8
	retq
.Lfunc_end51:
	.size	"recoding::recoder_runs::run_whole::<#daeca7e912b417d6>", .Lfunc_end51-"recoding::recoder_runs::run_whole::<#daeca7e912b417d6>"
	.cfi_endproc
                                        # -- End function
	.section	.rodata.cst16,"aM",@progbits,16
	.p2align	4, 0x0                          # -- Begin function recoding::turned::copy_units::<#671af64cce331956>
.LCPI52_0:
	.byte	0                               # 0x0
	.byte	252                             # 0xfc
	.byte	0                               # 0x0
	.byte	252                             # 0xfc
	.byte	0                               # 0x0
	.byte	252                             # 0xfc
	.byte	0                               # 0x0
	.byte	252                             # 0xfc
	.byte	0                               # 0x0
	.byte	252                             # 0xfc
	.byte	0                               # 0x0
	.byte	252                             # 0xfc
	.byte	0                               # 0x0
	.byte	252                             # 0xfc
	.byte	0                               # 0x0
	.byte	252                             # 0xfc
.LCPI52_1:
	.zero	16,220
.LCPI52_2:
	.zero	16,216
.LCPI52_3:
	.byte	1                               # 0x1
	.byte	0                               # 0x0
	.byte	3                               # 0x3
	.byte	2                               # 0x2
	.byte	5                               # 0x5
	.byte	4                               # 0x4
	.byte	7                               # 0x7
	.byte	6                               # 0x6
	.byte	9                               # 0x9
	.byte	8                               # 0x8
	.byte	11                              # 0xb
	.byte	10                              # 0xa
	.byte	13                              # 0xd
	.byte	12                              # 0xc
	.byte	15                              # 0xf
	.byte	14                              # 0xe
	.section	".text.recoding::turned::copy_units::<#671af64cce331956>","ax",@progbits
	.p2align	4
	.type	"recoding::turned::copy_units::<#671af64cce331956>",@function
"recoding::turned::copy_units::<#671af64cce331956>": # @"recoding::turned::copy_units::<#671af64cce331956>"
	.cfi_startproc
# %bb.0:                                # %start
	pushq	%rbp
	.cfi_def_cfa_offset 16
	pushq	%r15
	.cfi_def_cfa_offset 24
	pushq	%r14
	.cfi_def_cfa_offset 32
	pushq	%r13
	.cfi_def_cfa_offset 40
	pushq	%r12
	.cfi_def_cfa_offset 48
	pushq	%rbx
	.cfi_def_cfa_offset 56
	subq	$120, %rsp
	.cfi_def_cfa_offset 176
	.cfi_offset %rbx, -56
	.cfi_offset %r12, -48
	.cfi_offset %r13, -40
	.cfi_offset %r14, -32
	.cfi_offset %r15, -24
	.cfi_offset %rbp, -16
	movq	%rdx, %rbx
	movq	%rdi, %r15
	movw	$0, 64(%rsp)
	movdqu	(%rdi), %xmm1
	movdqu	%xmm1, 66(%rsp)
	movdqa	.LCPI52_0(%rip), %xmm0          # xmm0 = [0,252,0,252,0,252,0,252,0,252,0,252,0,252,0,252]
	pand	%xmm0, %xmm1
	pcmpeqb	.LCPI52_1(%rip), %xmm1
	movdqa	64(%rsp), %xmm2
	pand	%xmm0, %xmm2
	pcmpeqb	.LCPI52_2(%rip), %xmm2
	pxor	%xmm1, %xmm2
	pmovmskb	%xmm2, %eax
	testl	%eax, %eax
	je	.LBB52_3
# %bb.1:
	rep		bsfl	%eax, %r14d
	shrl	%r14d
	testq	%r14, %r14
	jne	.LBB52_13
	jmp	.LBB52_2
.LBB52_3:                               # %loop.2.i.preheader.i
	movl	$8, %r14d
	cmpq	$80, %rsi
	jb	.LBB52_8
# %bb.4:                                # %join.5.i.i.preheader
	leaq	-16(%rsi), %rax
	movl	$32, %r14d
	.p2align	4
.LBB52_5:                               # %join.5.i.i
                                        # =>This Inner Loop Header: Depth=1
	movdqu	-50(%r15,%r14,2), %xmm4
	movdqu	-48(%r15,%r14,2), %xmm5
	movdqu	-34(%r15,%r14,2), %xmm1
	movdqu	-32(%r15,%r14,2), %xmm6
	pand	%xmm0, %xmm5
	movdqa	.LCPI52_1(%rip), %xmm2          # xmm2 = [220,220,220,220,220,220,220,220,220,220,220,220,220,220,220,220]
	pcmpeqb	%xmm2, %xmm5
	pand	%xmm0, %xmm4
	movdqa	.LCPI52_2(%rip), %xmm3          # xmm3 = [216,216,216,216,216,216,216,216,216,216,216,216,216,216,216,216]
	pcmpeqb	%xmm3, %xmm4
	pxor	%xmm5, %xmm4
	pand	%xmm0, %xmm6
	pcmpeqb	%xmm2, %xmm6
	pand	%xmm0, %xmm1
	pcmpeqb	%xmm3, %xmm1
	pxor	%xmm6, %xmm1
	por	%xmm4, %xmm1
	movdqu	-16(%r15,%r14,2), %xmm4
	movdqu	-18(%r15,%r14,2), %xmm5
	pand	%xmm0, %xmm4
	pcmpeqb	%xmm2, %xmm4
	pand	%xmm0, %xmm5
	pcmpeqb	%xmm3, %xmm5
	pxor	%xmm4, %xmm5
	movdqu	(%r15,%r14,2), %xmm4
	movdqu	-2(%r15,%r14,2), %xmm6
	pand	%xmm0, %xmm4
	pcmpeqb	%xmm2, %xmm4
	pand	%xmm0, %xmm6
	pcmpeqb	%xmm3, %xmm6
	pxor	%xmm4, %xmm6
	por	%xmm5, %xmm6
	por	%xmm1, %xmm6
	pmovmskb	%xmm6, %ecx
	testl	%ecx, %ecx
	jne	.LBB52_7
# %bb.6:                                # %join.8.i.i
                                        #   in Loop: Header=BB52_5 Depth=1
	addq	$32, %r14
	addq	$-64, %rax
	cmpq	$63, %rax
	ja	.LBB52_5
.LBB52_7:                               # %"join.5.i.i.utf_lanes::unit_blocks::paired_wide::<#951b42d46d2e9f62>.exit.i.loopexit_crit_edge"
	addq	$-24, %r14
.LBB52_8:                               # %"utf_lanes::unit_blocks::paired_wide::<#951b42d46d2e9f62>.exit.i"
	shrq	%rsi
	cmpq	%rsi, %r14
	jae	.LBB52_13
# %bb.9:                                # %join.5.i63.lr.ph.i
	leaq	-8(%rsi), %rax
	.p2align	4
.LBB52_10:                              # %join.5.i63.i
                                        # =>This Inner Loop Header: Depth=1
	cmpq	%r14, %rax
	cmovbq	%rax, %r14
	movdqu	-2(%r15,%r14,2), %xmm1
	movdqu	(%r15,%r14,2), %xmm2
	pand	%xmm0, %xmm2
	pcmpeqb	.LCPI52_1(%rip), %xmm2
	pand	%xmm0, %xmm1
	pcmpeqb	.LCPI52_2(%rip), %xmm1
	pxor	%xmm2, %xmm1
	pmovmskb	%xmm1, %ecx
	rep		bsfl	%ecx, %edx
	shrl	%edx
	testl	%ecx, %ecx
	movl	$8, %ecx
	cmovnel	%edx, %ecx
	cmpw	$7, %cx
	jbe	.LBB52_12
# %bb.11:                               # %join.8.i79.i
                                        #   in Loop: Header=BB52_10 Depth=1
	addq	$8, %r14
	cmpq	%rsi, %r14
	jb	.LBB52_10
	jmp	.LBB52_13
.LBB52_12:                              # %then.6.i.i
	movzwl	%cx, %eax
	addq	%rax, %r14
	testq	%r14, %r14
	je	.LBB52_2
.LBB52_13:                              # %"utf_lanes::unit_blocks::units_len::<#951b42d46d2e9f62>.exit"
	movzbl	-1(%r15,%r14,2), %eax
	andb	$-4, %al
	xorl	%ecx, %ecx
	cmpb	$-40, %al
	sete	%cl
	subq	%rcx, %r14
	addq	%r14, %r14
	je	.LBB52_2
# %bb.14:                               # %join.3
	cmpq	$16, %r14
	jae	.LBB52_21
# %bb.15:                               # %loop.2.i.preheader
	movq	8(%rbx), %rax
	movq	%r14, %rdx
	addq	$-2, %rdx
	je	.LBB52_39
# %bb.16:                               # %loop.2.i.preheader.new
	shrq	%rdx
	incq	%rdx
	movq	%rdx, %rsi
	andq	$-2, %rsi
	xorl	%ecx, %ecx
	.p2align	4
.LBB52_17:                              # %join.5.i
                                        # =>This Inner Loop Header: Depth=1
	movzbl	(%r15,%rcx), %edi
	movzbl	1(%r15,%rcx), %r8d
	movq	(%rbx), %r9
	leaq	(%rax,%rcx), %r10
	movb	%r8b, (%r9,%r10)
	movq	(%rbx), %r8
	movb	%dil, 1(%r8,%r10)
	leaq	2(%rax,%rcx), %rdi
	movq	%rdi, 8(%rbx)
	movzbl	2(%r15,%rcx), %edi
	movzbl	3(%r15,%rcx), %r8d
	movq	(%rbx), %r9
	movb	%r8b, 2(%r9,%r10)
	movq	(%rbx), %r8
	movb	%dil, 3(%r8,%r10)
	leaq	(%rax,%rcx), %rdi
	addq	$4, %rdi
	movq	%rdi, 8(%rbx)
	addq	$4, %rcx
	addq	$-2, %rsi
	jne	.LBB52_17
# %bb.18:                               # %common.ret.loopexit.unr-lcssa
	testb	$1, %dl
	je	.LBB52_41
# %bb.19:
	addq	%rcx, %rax
	jmp	.LBB52_40
.LBB52_2:
	xorl	%r14d, %r14d
	jmp	.LBB52_41
.LBB52_21:                              # %loop.2.i5.preheader
	movq	%r15, %r13
	movq	%r14, %r12
	cmpq	$64, %r14
	jb	.LBB52_34
# %bb.22:                               # %join.5.i9.lr.ph
	leaq	8(%rbx), %rbp
	movq	%r14, %r12
	movq	%r15, %r13
	.p2align	4
.LBB52_23:                              # %join.5.i9
                                        # =>This Inner Loop Header: Depth=1
	movdqu	(%r13), %xmm0
	movdqu	16(%r13), %xmm1
	movdqu	32(%r13), %xmm2
	movdqu	48(%r13), %xmm3
	movdqa	.LCPI52_3(%rip), %xmm4          # xmm4 = [1,0,3,2,5,4,7,6,9,8,11,10,13,12,15,14]
	pshufb	%xmm4, %xmm0
	movdqa	%xmm0, (%rsp)
	pshufb	%xmm4, %xmm1
	movdqa	%xmm1, 16(%rsp)
	pshufb	%xmm4, %xmm2
	movdqa	%xmm2, 32(%rsp)
	pshufb	%xmm4, %xmm3
	movdqa	%xmm3, 48(%rsp)
	movq	8(%rbx), %rax
	movq	16(%rbx), %rcx
	movq	%rcx, %rdx
	subq	%rax, %rdx
	cmpq	$63, %rdx
	jbe	.LBB52_29
.LBB52_24:                              # %join.3.i75
                                        #   in Loop: Header=BB52_23 Depth=1
	movq	(%rbx), %rdx
	pxor	%xmm0, %xmm0
	movdqu	%xmm0, (%rbp)
	leaq	(%rdx,%rax), %rsi
	movq	%rsp, %rdi
	movq	%rsi, %r8
	subq	%rdi, %r8
	cmpq	$63, %r8
	ja	.LBB52_26
# %bb.25:                               # %join.7.i.i.i.preheader
                                        #   in Loop: Header=BB52_23 Depth=1
	movzbl	(%rsp), %edi
	movb	%dil, (%rsi)
	movzbl	1(%rsp), %edi
	movb	%dil, 1(%rsi)
	movzbl	2(%rsp), %edi
	movb	%dil, 2(%rsi)
	movzbl	3(%rsp), %edi
	movb	%dil, 3(%rsi)
	movzbl	4(%rsp), %edi
	movb	%dil, 4(%rsi)
	movzbl	5(%rsp), %edi
	movb	%dil, 5(%rsi)
	movzbl	6(%rsp), %edi
	movb	%dil, 6(%rsi)
	movzbl	7(%rsp), %edi
	movb	%dil, 7(%rsi)
	movzbl	8(%rsp), %edi
	movb	%dil, 8(%rsi)
	movzbl	9(%rsp), %edi
	movb	%dil, 9(%rsi)
	movzbl	10(%rsp), %edi
	movb	%dil, 10(%rsi)
	movzbl	11(%rsp), %edi
	movb	%dil, 11(%rsi)
	movzbl	12(%rsp), %edi
	movb	%dil, 12(%rsi)
	movzbl	13(%rsp), %edi
	movb	%dil, 13(%rsi)
	movzbl	14(%rsp), %edi
	movb	%dil, 14(%rsi)
	movzbl	15(%rsp), %edi
	movb	%dil, 15(%rsi)
	movzbl	16(%rsp), %edi
	movb	%dil, 16(%rsi)
	movzbl	17(%rsp), %edi
	movb	%dil, 17(%rsi)
	movzbl	18(%rsp), %edi
	movb	%dil, 18(%rsi)
	movzbl	19(%rsp), %edi
	movb	%dil, 19(%rsi)
	movzbl	20(%rsp), %edi
	movb	%dil, 20(%rsi)
	movzbl	21(%rsp), %edi
	movb	%dil, 21(%rsi)
	movzbl	22(%rsp), %edi
	movb	%dil, 22(%rsi)
	movzbl	23(%rsp), %edi
	movb	%dil, 23(%rsi)
	movzbl	24(%rsp), %edi
	movb	%dil, 24(%rsi)
	movzbl	25(%rsp), %edi
	movb	%dil, 25(%rsi)
	movzbl	26(%rsp), %edi
	movb	%dil, 26(%rsi)
	movzbl	27(%rsp), %edi
	movb	%dil, 27(%rsi)
	movzbl	28(%rsp), %edi
	movb	%dil, 28(%rsi)
	movzbl	29(%rsp), %edi
	movb	%dil, 29(%rsi)
	movzbl	30(%rsp), %edi
	movb	%dil, 30(%rsi)
	movzbl	31(%rsp), %edi
	movb	%dil, 31(%rsi)
	movzbl	32(%rsp), %edi
	movb	%dil, 32(%rsi)
	movzbl	33(%rsp), %edi
	movb	%dil, 33(%rsi)
	movzbl	34(%rsp), %edi
	movb	%dil, 34(%rsi)
	movzbl	35(%rsp), %edi
	movb	%dil, 35(%rsi)
	movzbl	36(%rsp), %edi
	movb	%dil, 36(%rsi)
	movzbl	37(%rsp), %edi
	movb	%dil, 37(%rsi)
	movzbl	38(%rsp), %edi
	movb	%dil, 38(%rsi)
	movzbl	39(%rsp), %edi
	movb	%dil, 39(%rsi)
	movzbl	40(%rsp), %edi
	movb	%dil, 40(%rsi)
	movzbl	41(%rsp), %edi
	movb	%dil, 41(%rsi)
	movzbl	42(%rsp), %edi
	movb	%dil, 42(%rsi)
	movzbl	43(%rsp), %edi
	movb	%dil, 43(%rsi)
	movzbl	44(%rsp), %edi
	movb	%dil, 44(%rsi)
	movzbl	45(%rsp), %edi
	movb	%dil, 45(%rsi)
	movzbl	46(%rsp), %edi
	movb	%dil, 46(%rsi)
	movzbl	47(%rsp), %edi
	movb	%dil, 47(%rsi)
	movzbl	48(%rsp), %edi
	movb	%dil, 48(%rsi)
	movzbl	49(%rsp), %edi
	movb	%dil, 49(%rsi)
	movzbl	50(%rsp), %edi
	movb	%dil, 50(%rsi)
	movzbl	51(%rsp), %edi
	movb	%dil, 51(%rsi)
	movzbl	52(%rsp), %edi
	movb	%dil, 52(%rsi)
	movzbl	53(%rsp), %edi
	movb	%dil, 53(%rsi)
	movzbl	54(%rsp), %edi
	movb	%dil, 54(%rsi)
	movzbl	55(%rsp), %edi
	movb	%dil, 55(%rsi)
	movzbl	56(%rsp), %edi
	movb	%dil, 56(%rsi)
	movzbl	57(%rsp), %edi
	movb	%dil, 57(%rsi)
	movzbl	58(%rsp), %edi
	movb	%dil, 58(%rsi)
	movzbl	59(%rsp), %edi
	movb	%dil, 59(%rsi)
	movzbl	60(%rsp), %edi
	movb	%dil, 60(%rsi)
	movzbl	61(%rsp), %edi
	movb	%dil, 61(%rsi)
	movzbl	62(%rsp), %edi
	movb	%dil, 62(%rsi)
	movzbl	63(%rsp), %edi
	movb	%dil, 63(%rsi)
	jmp	.LBB52_27
	.p2align	4
.LBB52_26:                              # %apart.2.i.i.i
                                        #   in Loop: Header=BB52_23 Depth=1
	movdqa	(%rsp), %xmm0
	movdqa	16(%rsp), %xmm1
	movdqa	32(%rsp), %xmm2
	movdqa	48(%rsp), %xmm3
	movdqu	%xmm3, 48(%rsi)
	movdqu	%xmm2, 32(%rsi)
	movdqu	%xmm1, 16(%rsi)
	movdqu	%xmm0, (%rsi)
.LBB52_27:                              # %"core::slots::Slots::copy_in::<i8,20'core::clone::U8Clone{}>.exit.i"
                                        #   in Loop: Header=BB52_23 Depth=1
	addq	$64, %rax
	movq	%rdx, (%rbx)
	movq	%rax, 8(%rbx)
	movq	%rcx, 16(%rbx)
.LBB52_28:                              # %"std_alloc::vec::Vec::extend_from_slice::<#0cd040e5c49bc722>.exit"
                                        #   in Loop: Header=BB52_23 Depth=1
	addq	$64, %r13
	addq	$-64, %r12
	cmpq	$63, %r12
	ja	.LBB52_23
	jmp	.LBB52_31
.LBB52_29:                              # %"std_alloc::vec::Vec::grow::<#5fdc5e19576447a7>.exit.i"
                                        #   in Loop: Header=BB52_23 Depth=1
	movl	$64, %esi
	movq	%rbx, %rdi
	callq	"std_alloc::vec::Vec::grow_amortized::<#5fdc5e19576447a7>"
	testb	%al, %al
	je	.LBB52_28
# %bb.30:                               # %"std_alloc::vec::Vec::grow::<#5fdc5e19576447a7>.exit.join.3_crit_edge.i"
                                        #   in Loop: Header=BB52_23 Depth=1
	movq	8(%rbx), %rax
	movq	16(%rbx), %rcx
	jmp	.LBB52_24
.LBB52_31:                              # %"recoding::turned::put_blocks::<#d5cbf36e45a151c2>.exit"
	cmpq	$16, %r12
	jb	.LBB52_37
	jmp	.LBB52_34
.LBB52_32:                              # %"std_alloc::vec::Vec::grow::<#5fdc5e19576447a7>.exit.i106"
                                        #   in Loop: Header=BB52_34 Depth=1
	movdqa	%xmm0, 96(%rsp)                 # 16-byte Spill
	movl	$16, %esi
	movq	%rbx, %rdi
	callq	"std_alloc::vec::Vec::grow_amortized::<#5fdc5e19576447a7>"
	testb	%al, %al
	je	.LBB52_36
# %bb.33:                               # %"std_alloc::vec::Vec::grow::<#5fdc5e19576447a7>.exit.join.3_crit_edge.i108"
                                        #   in Loop: Header=BB52_34 Depth=1
	movq	8(%rbx), %rax
	movq	16(%rbx), %rcx
	movdqa	96(%rsp), %xmm0                 # 16-byte Reload
	jmp	.LBB52_35
	.p2align	4
.LBB52_34:                              # %join.5.i21
                                        # =>This Inner Loop Header: Depth=1
	movdqu	(%r13), %xmm0
	movq	8(%rbx), %rax
	movq	16(%rbx), %rcx
	movq	%rcx, %rdx
	subq	%rax, %rdx
	cmpq	$15, %rdx
	jbe	.LBB52_32
.LBB52_35:                              # %join.3.i86
                                        #   in Loop: Header=BB52_34 Depth=1
	pshufb	.LCPI52_3(%rip), %xmm0          # xmm0 = xmm0[1,0,3,2,5,4,7,6,9,8,11,10,13,12,15,14]
	movq	(%rbx), %rdx
	movdqu	%xmm0, (%rdx,%rax)
	addq	$16, %rax
	movq	%rdx, (%rbx)
	movq	%rax, 8(%rbx)
	movq	%rcx, 16(%rbx)
.LBB52_36:                              # %"std_alloc::vec::Vec::extend_from_slice::<#0cd040e5c49bc722>.exit111"
                                        #   in Loop: Header=BB52_34 Depth=1
	addq	$-16, %r12
	addq	$16, %r13
	cmpq	$15, %r12
	ja	.LBB52_34
.LBB52_37:                              # %"recoding::turned::put_blocks::<#efb3fef4d0ff1bf7>.exit"
	movdqu	-16(%r15,%r14), %xmm0
	pshufb	.LCPI52_3(%rip), %xmm0          # xmm0 = xmm0[1,0,3,2,5,4,7,6,9,8,11,10,13,12,15,14]
	movdqa	%xmm0, (%rsp)
	movq	8(%rbx), %r15
	movq	16(%rbx), %r13
	movq	%r13, %rax
	subq	%r15, %rax
	cmpq	%rax, %r12
	ja	.LBB52_42
.LBB52_38:                              # %join.3.i116
	movq	%rsp, %rsi
	subq	%r12, %rsi
	addq	$16, %rsi
	movq	(%rbx), %rbp
	leaq	(%r15,%rbp), %rdi
	addq	%r12, %r15
	movq	%r12, %rdx
	callq	memcpy@PLT
	movq	%rbp, (%rbx)
	movq	%r15, 8(%rbx)
	movq	%r13, 16(%rbx)
	jmp	.LBB52_41
.LBB52_39:
	xorl	%ecx, %ecx
.LBB52_40:                              # %join.5.i.epil.preheader
	movzbl	(%r15,%rcx), %edx
	movzbl	1(%r15,%rcx), %ecx
	movq	(%rbx), %rsi
	movb	%cl, (%rsi,%rax)
	movq	(%rbx), %rcx
	movb	%dl, 1(%rcx,%rax)
	addq	$2, %rax
	movq	%rax, 8(%rbx)
.LBB52_41:                              # %common.ret
	movq	%r14, %rax
	addq	$120, %rsp
	.cfi_def_cfa_offset 56
	popq	%rbx
	.cfi_def_cfa_offset 48
	popq	%r12
	.cfi_def_cfa_offset 40
	popq	%r13
	.cfi_def_cfa_offset 32
	popq	%r14
	.cfi_def_cfa_offset 24
	popq	%r15
	.cfi_def_cfa_offset 16
	popq	%rbp
	.cfi_def_cfa_offset 8
	retq
.LBB52_42:                              # %"std_alloc::vec::Vec::grow::<#5fdc5e19576447a7>.exit.i136"
	.cfi_def_cfa_offset 176
	movq	%rbx, %rdi
	movq	%r12, %rsi
	callq	"std_alloc::vec::Vec::grow_amortized::<#5fdc5e19576447a7>"
	testb	%al, %al
	je	.LBB52_41
# %bb.43:                               # %"std_alloc::vec::Vec::grow::<#5fdc5e19576447a7>.exit.join.3_crit_edge.i138"
	movq	8(%rbx), %r15
	movq	16(%rbx), %r13
	jmp	.LBB52_38
.Lfunc_end52:
	.size	"recoding::turned::copy_units::<#671af64cce331956>", .Lfunc_end52-"recoding::turned::copy_units::<#671af64cce331956>"
	.cfi_endproc
                                        # -- End function
	.section	.rodata.cst16,"aM",@progbits,16
	.p2align	4, 0x0                          # -- Begin function recoding::kernels::put_windows::<#e34f862aaeb63555>
.LCPI53_0:
	.short	255                             # 0xff
	.short	255                             # 0xff
	.short	255                             # 0xff
	.short	255                             # 0xff
	.short	255                             # 0xff
	.short	255                             # 0xff
	.short	255                             # 0xff
	.short	255                             # 0xff
.LCPI53_1:
	.byte	1                               # 0x1
	.byte	3                               # 0x3
	.byte	5                               # 0x5
	.byte	7                               # 0x7
	.byte	9                               # 0x9
	.byte	11                              # 0xb
	.byte	13                              # 0xd
	.byte	15                              # 0xf
	.zero	1
	.zero	1
	.zero	1
	.zero	1
	.zero	1
	.zero	1
	.zero	1
	.zero	1
.LCPI53_2:
	.zero	16,63
.LCPI53_3:
	.zero	16,54
.LCPI53_4:
	.byte	255                             # 0xff
	.byte	255                             # 0xff
	.byte	255                             # 0xff
	.byte	255                             # 0xff
	.byte	255                             # 0xff
	.byte	255                             # 0xff
	.byte	255                             # 0xff
	.byte	255                             # 0xff
	.byte	255                             # 0xff
	.byte	255                             # 0xff
	.byte	255                             # 0xff
	.byte	255                             # 0xff
	.byte	255                             # 0xff
	.byte	255                             # 0xff
	.byte	255                             # 0xff
	.byte	0                               # 0x0
.LCPI53_5:
	.zero	16,55
.LCPI53_6:
	.zero	16,253
.LCPI53_7:
	.zero	16,252
.LCPI53_8:
	.zero	16,216
.LCPI53_9:
	.byte	1                               # 0x1
	.byte	3                               # 0x3
	.byte	5                               # 0x5
	.byte	7                               # 0x7
	.byte	9                               # 0x9
	.byte	11                              # 0xb
	.byte	13                              # 0xd
	.byte	15                              # 0xf
	.byte	0                               # 0x0
	.byte	0                               # 0x0
	.byte	0                               # 0x0
	.byte	0                               # 0x0
	.byte	0                               # 0x0
	.byte	0                               # 0x0
	.byte	0                               # 0x0
	.byte	0                               # 0x0
	.section	".text.recoding::kernels::put_windows::<#e34f862aaeb63555>","ax",@progbits
	.p2align	4
	.type	"recoding::kernels::put_windows::<#e34f862aaeb63555>",@function
"recoding::kernels::put_windows::<#e34f862aaeb63555>": # @"recoding::kernels::put_windows::<#e34f862aaeb63555>"
	.cfi_startproc
# %bb.0:                                # %start
	pushq	%rbp
	.cfi_def_cfa_offset 16
	pushq	%r15
	.cfi_def_cfa_offset 24
	pushq	%r14
	.cfi_def_cfa_offset 32
	pushq	%r13
	.cfi_def_cfa_offset 40
	pushq	%r12
	.cfi_def_cfa_offset 48
	pushq	%rbx
	.cfi_def_cfa_offset 56
	subq	$120, %rsp
	.cfi_def_cfa_offset 176
	.cfi_offset %rbx, -56
	.cfi_offset %r12, -48
	.cfi_offset %r13, -40
	.cfi_offset %r14, -32
	.cfi_offset %r15, -24
	.cfi_offset %rbp, -16
	movq	%rdx, %r8
	movq	%rsi, 16(%rsp)                  # 8-byte Spill
	movq	%rdi, 24(%rsp)                  # 8-byte Spill
	xorl	%ebx, %ebx
	xorl	%edx, %edx
	xorl	%r12d, %r12d
	movq	%r8, 8(%rsp)                    # 8-byte Spill
	.p2align	4
.LBB53_1:                               # %then.6
                                        # =>This Inner Loop Header: Depth=1
	movq	8(%r8), %rax
	movq	16(%r8), %rsi
	movq	%rsi, %rcx
	subq	%rax, %rcx
	cmpq	$112, %rcx
	jb	.LBB53_11
# %bb.2:                                # %join.3.i
                                        #   in Loop: Header=BB53_1 Depth=1
	movq	%rdx, 40(%rsp)                  # 8-byte Spill
	movq	24(%rsp), %rcx                  # 8-byte Reload
	movdqu	(%rcx,%rbx), %xmm2
	movdqu	16(%rcx,%rbx), %xmm0
	movdqu	32(%rcx,%rbx), %xmm1
	movdqu	48(%rcx,%rbx), %xmm5
	movdqa	.LCPI53_0(%rip), %xmm4          # xmm4 = [255,255,255,255,255,255,255,255]
	movdqa	%xmm5, %xmm6
	pand	%xmm4, %xmm6
	movdqa	%xmm1, %xmm3
	pand	%xmm4, %xmm3
	packuswb	%xmm6, %xmm3
	movdqa	%xmm0, %xmm6
	pand	%xmm4, %xmm6
	pand	%xmm2, %xmm4
	packuswb	%xmm6, %xmm4
	movq	.LCPI53_9(%rip), %xmm6          # xmm6 = [1,3,5,7,9,11,13,15,0,0,0,0,0,0,0,0]
	pshufb	%xmm6, %xmm0
	pshufb	%xmm6, %xmm2
	punpcklqdq	%xmm0, %xmm2            # xmm2 = xmm2[0],xmm0[0]
	pshufb	%xmm6, %xmm5
	pshufb	%xmm6, %xmm1
	punpcklqdq	%xmm5, %xmm1            # xmm1 = xmm1[0],xmm5[0]
	movdqa	%xmm1, %xmm0
	psrlw	$2, %xmm0
	movdqa	.LCPI53_2(%rip), %xmm6          # xmm6 = [63,63,63,63,63,63,63,63,63,63,63,63,63,63,63,63]
	pand	%xmm6, %xmm0
	movdqa	%xmm2, %xmm5
	psrlw	$2, %xmm5
	pand	%xmm6, %xmm5
	movdqa	.LCPI53_3(%rip), %xmm9          # xmm9 = [54,54,54,54,54,54,54,54,54,54,54,54,54,54,54,54]
	movdqa	%xmm5, %xmm6
	pcmpeqb	%xmm9, %xmm6
	pcmpeqb	%xmm0, %xmm9
	movdqa	.LCPI53_4(%rip), %xmm7          # xmm7 = [255,255,255,255,255,255,255,255,255,255,255,255,255,255,255,0]
	pand	%xmm9, %xmm7
	movdqa	.LCPI53_5(%rip), %xmm8          # xmm8 = [55,55,55,55,55,55,55,55,55,55,55,55,55,55,55,55]
	pcmpeqb	%xmm8, %xmm0
	pcmpeqb	%xmm8, %xmm5
	palignr	$15, %xmm6, %xmm9               # xmm9 = xmm6[15],xmm9[0,1,2,3,4,5,6,7,8,9,10,11,12,13,14]
	movdqa	%xmm6, %xmm10
	pslldq	$1, %xmm10                      # xmm10 = zero,xmm10[0,1,2,3,4,5,6,7,8,9,10,11,12,13,14]
	pxor	%xmm5, %xmm10
	pxor	%xmm0, %xmm9
	movdqa	%xmm9, %xmm8
	palignr	$1, %xmm10, %xmm8               # xmm8 = xmm10[1,2,3,4,5,6,7,8,9,10,11,12,13,14,15],xmm8[0]
	pand	%xmm5, %xmm10
	palignr	$1, %xmm9, %xmm5                # xmm5 = xmm9[1,2,3,4,5,6,7,8,9,10,11,12,13,14,15],xmm5[0]
	pand	%xmm7, %xmm5
	pand	%xmm6, %xmm8
	pxor	%xmm7, %xmm7
	por	%xmm8, %xmm10
	pand	%xmm0, %xmm9
	por	%xmm5, %xmm9
	movdqa	.LCPI53_6(%rip), %xmm6          # xmm6 = [253,253,253,253,253,253,253,253,253,253,253,253,253,253,253,253]
	pcmpeqb	%xmm7, %xmm10
	movdqa	%xmm6, %xmm5
	movdqa	%xmm10, %xmm0
	pblendvb	%xmm0, %xmm4, %xmm5
	pcmpeqb	%xmm7, %xmm9
	movdqa	%xmm9, %xmm0
	pblendvb	%xmm0, %xmm3, %xmm6
	pcmpeqd	%xmm3, %xmm3
	movdqa	%xmm10, 80(%rsp)                # 16-byte Spill
	pxor	%xmm3, %xmm10
	por	%xmm2, %xmm10
	movdqa	%xmm9, 96(%rsp)                 # 16-byte Spill
	pxor	%xmm9, %xmm3
	por	%xmm1, %xmm3
	pand	.LCPI53_7(%rip), %xmm1
	pcmpeqb	.LCPI53_8(%rip), %xmm1
	pmovmskb	%xmm1, %ecx
	xorl	%r14d, %r14d
	testw	%cx, %cx
	setns	%r14b
	addl	%r14d, %r14d
	movdqa	%xmm3, %xmm1
	punpcklbw	%xmm6, %xmm1            # xmm1 = xmm1[0],xmm6[0],xmm1[1],xmm6[1],xmm1[2],xmm6[2],xmm1[3],xmm6[3],xmm1[4],xmm6[4],xmm1[5],xmm6[5],xmm1[6],xmm6[6],xmm1[7],xmm6[7]
	movdqa	%xmm1, 48(%rsp)
	punpckhbw	%xmm6, %xmm3            # xmm3 = xmm3[8],xmm6[8],xmm3[9],xmm6[9],xmm3[10],xmm6[10],xmm3[11],xmm6[11],xmm3[12],xmm6[12],xmm3[13],xmm6[13],xmm3[14],xmm6[14],xmm3[15],xmm6[15]
	movdqa	%xmm3, 64(%rsp)
	movdqa	%xmm10, %xmm1
	punpcklbw	%xmm5, %xmm1            # xmm1 = xmm1[0],xmm5[0],xmm1[1],xmm5[1],xmm1[2],xmm5[2],xmm1[3],xmm5[3],xmm1[4],xmm5[4],xmm1[5],xmm5[5],xmm1[6],xmm5[6],xmm1[7],xmm5[7]
	punpckhbw	%xmm5, %xmm10           # xmm10 = xmm10[8],xmm5[8],xmm10[9],xmm5[9],xmm10[10],xmm5[10],xmm10[11],xmm5[11],xmm10[12],xmm5[12],xmm10[13],xmm5[13],xmm10[14],xmm5[14],xmm10[15],xmm5[15]
	leaq	32(%rax), %rbp
	movq	(%r8), %r15
	movdqu	%xmm1, (%r15,%rax)
	movdqu	%xmm10, 16(%r15,%rax)
	movq	%r15, (%r8)
	movq	%rbp, 8(%r8)
	movq	%rsi, 16(%r8)
	leaq	30(%r14), %rdx
	movq	%rsi, %rax
	subq	%rbp, %rax
	cmpq	%rax, %rdx
	ja	.LBB53_3
.LBB53_5:                               # %join.3.i110
                                        #   in Loop: Header=BB53_1 Depth=1
	movq	%rsi, 32(%rsp)                  # 8-byte Spill
	leaq	(%r15,%rbp), %rdi
	leaq	48(%rsp), %rax
	movq	%rdi, %rcx
	subq	%rax, %rcx
	leaq	48(%rsp), %rsi
	movq	%rdx, %r13
	cmpq	%rdx, %rcx
	jae	.LBB53_7
# %bb.6:                                # %join.7.i.i.i123.preheader
                                        #   in Loop: Header=BB53_1 Depth=1
	callq	memcpy@PLT
	jmp	.LBB53_8
	.p2align	4
.LBB53_7:                               # %apart.2.i.i.i120
                                        #   in Loop: Header=BB53_1 Depth=1
	callq	memmove@PLT
.LBB53_8:                               # %"core::slots::Slots::copy_in::<i8,20'core::clone::U8Clone{}>.exit.i121"
                                        #   in Loop: Header=BB53_1 Depth=1
	addq	%r13, %rbp
	movq	8(%rsp), %r8                    # 8-byte Reload
	movq	%r15, (%r8)
	movq	%rbp, 8(%r8)
	movq	32(%rsp), %rax                  # 8-byte Reload
	movq	%rax, 16(%r8)
.LBB53_9:                               # %"std_alloc::vec::Vec::extend_from_slice::<#0cd040e5c49bc722>.exit135"
                                        #   in Loop: Header=BB53_1 Depth=1
	addq	$62, %r14
	movdqa	80(%rsp), %xmm0                 # 16-byte Reload
	pmovmskb	%xmm0, %eax
	xorl	$65535, %eax                    # imm = 0xFFFF
	movdqa	96(%rsp), %xmm0                 # 16-byte Reload
	pmovmskb	%xmm0, %ecx
	notl	%ecx
	shll	$16, %ecx
	orl	%eax, %ecx
	xorl	%eax, %eax
	popcntl	%ecx, %eax
	addq	%r14, %rbx
	movq	40(%rsp), %rdx                  # 8-byte Reload
	addq	%rax, %rdx
	movq	%r12, %rax
	incq	%rax
	xorl	%r12d, %r12d
	testl	%ecx, %ecx
	cmoveq	%rax, %r12
	cmpq	$8, %rdx
	movl	$8, %eax
	cmovbq	%rdx, %rax
	cmpq	%rax, %r12
	ja	.LBB53_11
# %bb.10:                               # %"std_alloc::vec::Vec::extend_from_slice::<#0cd040e5c49bc722>.exit135"
                                        #   in Loop: Header=BB53_1 Depth=1
	movq	16(%rsp), %rax                  # 8-byte Reload
	subq	%rbx, %rax
	cmpq	$63, %rax
	ja	.LBB53_1
	jmp	.LBB53_11
.LBB53_3:                               # %"std_alloc::vec::Vec::grow::<#5fdc5e19576447a7>.exit.i130"
                                        #   in Loop: Header=BB53_1 Depth=1
	movq	%r8, %rdi
	movq	%rdx, %r13
	movq	%rdx, %rsi
	callq	"std_alloc::vec::Vec::grow_amortized::<#5fdc5e19576447a7>"
	movq	8(%rsp), %r8                    # 8-byte Reload
	testb	%al, %al
	je	.LBB53_9
# %bb.4:                                # %"std_alloc::vec::Vec::grow::<#5fdc5e19576447a7>.exit.join.3_crit_edge.i132"
                                        #   in Loop: Header=BB53_1 Depth=1
	movq	(%r8), %r15
	movq	8(%r8), %rbp
	movq	16(%r8), %rsi
	movq	%r13, %rdx
	jmp	.LBB53_5
.LBB53_11:                              # %after.1
	movq	%rbx, %rax
	addq	$120, %rsp
	.cfi_def_cfa_offset 56
	popq	%rbx
	.cfi_def_cfa_offset 48
	popq	%r12
	.cfi_def_cfa_offset 40
	popq	%r13
	.cfi_def_cfa_offset 32
	popq	%r14
	.cfi_def_cfa_offset 24
	popq	%r15
	.cfi_def_cfa_offset 16
	popq	%rbp
	.cfi_def_cfa_offset 8
	retq
.Lfunc_end53:
	.size	"recoding::kernels::put_windows::<#e34f862aaeb63555>", .Lfunc_end53-"recoding::kernels::put_windows::<#e34f862aaeb63555>"
	.cfi_endproc
                                        # -- End function
	.section	".text.recoding::engine::recode_faults::<#8dadd7d4866406da>","ax",@progbits
	.p2align	4                               # -- Begin function recoding::engine::recode_faults::<#8dadd7d4866406da>
	.type	"recoding::engine::recode_faults::<#8dadd7d4866406da>",@function
"recoding::engine::recode_faults::<#8dadd7d4866406da>": # @"recoding::engine::recode_faults::<#8dadd7d4866406da>"
	.cfi_startproc
# %bb.0:                                # %start
	pushq	%rbp
	.cfi_def_cfa_offset 16
	pushq	%r15
	.cfi_def_cfa_offset 24
	pushq	%r14
	.cfi_def_cfa_offset 32
	pushq	%r13
	.cfi_def_cfa_offset 40
	pushq	%r12
	.cfi_def_cfa_offset 48
	pushq	%rbx
	.cfi_def_cfa_offset 56
	.cfi_offset %rbx, -56
	.cfi_offset %r12, -48
	.cfi_offset %r13, -40
	.cfi_offset %r14, -32
	.cfi_offset %r15, -24
	.cfi_offset %rbp, -16
	cmpb	$2, (%rsi)
	setne	%r9b
	cmpq	$0, 16(%rsi)
	setne	%r12b
	orb	%r9b, %r12b
	movl	$16, %r9d
	xorl	%r11d, %r11d
	xorl	%r13d, %r13d
	jmp	.LBB54_1
	.p2align	4
.LBB54_13:                              # %"recoding::text::Utf16Text::put_any::<#f52bd5352b4cd2db>.exit"
                                        #   in Loop: Header=BB54_1 Depth=1
	incq	%r13
.LBB54_15:                              # %join.12
                                        #   in Loop: Header=BB54_1 Depth=1
	movl	$2, %r11d
	addq	%r10, %r11
	cmpq	%r9, %r11
	jae	.LBB54_17
.LBB54_1:                               # %join.5
                                        # =>This Inner Loop Header: Depth=1
	movq	%r11, %r10
	addq	$4, %r11
	cmpq	%rcx, %r11
	jbe	.LBB54_2
# %bb.6:                                # %join.3.i
                                        #   in Loop: Header=BB54_1 Depth=1
	movq	%rcx, %r14
	subq	%r10, %r14
	cmpq	$2, %r14
	jb	.LBB54_10
# %bb.7:                                # %join.3.i.i
                                        #   in Loop: Header=BB54_1 Depth=1
	movzbl	1(%rdx,%r10), %ebx
	shll	$8, %ebx
	movl	%ebx, %ebp
	andl	$64512, %ebp                    # imm = 0xFC00
	cmpl	$56320, %ebp                    # imm = 0xDC00
	je	.LBB54_11
# %bb.8:                                # %join.3.i.i
                                        #   in Loop: Header=BB54_1 Depth=1
	movzbl	(%rdx,%r10), %r15d
	orl	%r15d, %ebx
	cmpl	$55296, %ebp                    # imm = 0xD800
	jne	.LBB54_14
# %bb.9:                                # %join.6.i.i
                                        #   in Loop: Header=BB54_1 Depth=1
	cmpq	$4, %r14
	jae	.LBB54_4
	jmp	.LBB54_10
	.p2align	4
.LBB54_2:                               # %then.1.i
                                        #   in Loop: Header=BB54_1 Depth=1
	movzbl	1(%rdx,%r10), %ebx
	shll	$8, %ebx
	movl	%ebx, %ebp
	andl	$64512, %ebp                    # imm = 0xFC00
	cmpl	$56320, %ebp                    # imm = 0xDC00
	je	.LBB54_11
# %bb.3:                                # %then.1.i
                                        #   in Loop: Header=BB54_1 Depth=1
	movzbl	(%rdx,%r10), %r14d
	orl	%r14d, %ebx
	cmpl	$55296, %ebp                    # imm = 0xD800
	jne	.LBB54_14
.LBB54_4:                               # %join.15.i257.i
                                        #   in Loop: Header=BB54_1 Depth=1
	movzbl	3(%rdx,%r10), %r14d
	movl	%r14d, %ebp
	andl	$-4, %ebp
	cmpl	$220, %ebp
	jne	.LBB54_11
# %bb.5:                                # %arm.14.i108.i
                                        #   in Loop: Header=BB54_1 Depth=1
	movzbl	2(%rdx,%r10), %r11d
	andl	$1023, %ebx                     # imm = 0x3FF
	shll	$10, %ebx
	andl	$3, %r14d
	shll	$8, %r14d
	orl	%r11d, %r14d
	leal	(%rbx,%r14), %r11d
	addl	$65536, %r11d                   # imm = 0x10000
	movl	%r11d, %ebx
	shrl	$10, %ebx
	addl	$-10304, %ebx                   # imm = 0xD7C0
	movl	%r11d, %eax
	shrl	$8, %r11d
	andb	$3, %r11b
	orb	$-36, %r11b
	movq	(%r8), %rbp
	movq	8(%r8), %rsi
	movb	%bh, (%rbp,%rsi)
	movq	(%r8), %r14
	movb	%bl, 1(%r14,%rsi)
	movq	(%r8), %rbx
	movb	%r11b, 2(%rbx,%rsi)
	movq	(%r8), %r11
	movb	%al, 3(%r11,%rsi)
	addq	$4, %rsi
	movq	%rsi, 8(%r8)
	movl	$4, %r11d
	addq	%r10, %r11
	cmpq	%r9, %r11
	jb	.LBB54_1
	jmp	.LBB54_17
	.p2align	4
.LBB54_11:                              # %arm.11
                                        #   in Loop: Header=BB54_1 Depth=1
	cmpq	$32, %r11
	movl	$32, %r9d
	cmovbq	%r11, %r9
	testb	%r12b, %r12b
	je	.LBB54_13
# %bb.12:                               # %"recoding::text::Utf16Text::put_code::<#f52bd5352b4cd2db>.exit.i.i"
                                        #   in Loop: Header=BB54_1 Depth=1
	movq	(%r8), %rax
	movq	8(%r8), %rsi
	movb	$-1, (%rax,%rsi)
	movq	(%r8), %rax
	movb	$-3, 1(%rax,%rsi)
	addq	$2, %rsi
	movq	%rsi, 8(%r8)
	jmp	.LBB54_13
	.p2align	4
.LBB54_14:                              # %arm.1.i
                                        #   in Loop: Header=BB54_1 Depth=1
	movq	(%r8), %rbp
	movq	8(%r8), %rax
	movb	%bh, (%rbp,%rax)
	movq	(%r8), %r11
	movb	%bl, 1(%r11,%rax)
	addq	$2, %rax
	movq	%rax, 8(%r8)
	jmp	.LBB54_15
.LBB54_17:                              # %after.1
	movq	%r11, (%rdi)
	movq	%r13, 8(%rdi)
	movq	$0, 16(%rdi)
	jmp	.LBB54_18
.LBB54_10:                              # %arm.7
	movq	%r10, (%rdi)
	movq	%r13, 8(%rdi)
	movw	$256, 16(%rdi)                  # imm = 0x100
	movl	$0, 18(%rdi)
	movw	$0, 22(%rdi)
.LBB54_18:                              # %after.1
	popq	%rbx
	.cfi_def_cfa_offset 48
	popq	%r12
	.cfi_def_cfa_offset 40
	popq	%r13
	.cfi_def_cfa_offset 32
	popq	%r14
	.cfi_def_cfa_offset 24
	popq	%r15
	.cfi_def_cfa_offset 16
	popq	%rbp
	.cfi_def_cfa_offset 8
	retq
.Lfunc_end54:
	.size	"recoding::engine::recode_faults::<#8dadd7d4866406da>", .Lfunc_end54-"recoding::engine::recode_faults::<#8dadd7d4866406da>"
	.cfi_endproc
                                        # -- End function
	.section	".text.recoding::recoder_runs::run_whole::<#8e1925640e2330c5>","ax",@progbits
	.p2align	4                               # -- Begin function recoding::recoder_runs::run_whole::<#8e1925640e2330c5>
	.type	"recoding::recoder_runs::run_whole::<#8e1925640e2330c5>",@function
"recoding::recoder_runs::run_whole::<#8e1925640e2330c5>": # @"recoding::recoder_runs::run_whole::<#8e1925640e2330c5>"
	.cfi_startproc
# %bb.0:                                # %start
	pushq	%r15
	.cfi_def_cfa_offset 16
	pushq	%r14
	.cfi_def_cfa_offset 24
	pushq	%r13
	.cfi_def_cfa_offset 32
	pushq	%r12
	.cfi_def_cfa_offset 40
	pushq	%rbx
	.cfi_def_cfa_offset 48
	subq	$80, %rsp
	.cfi_def_cfa_offset 128
	.cfi_offset %rbx, -48
	.cfi_offset %r12, -40
	.cfi_offset %r13, -32
	.cfi_offset %r14, -24
	.cfi_offset %r15, -16
	movq	%rdx, %r12
	movq	%rsi, %r15
	movq	%rdi, %r13
	xorl	%ebx, %ebx
	xorl	%r14d, %r14d
	jmp	.LBB55_2
.LBB55_1:                               # %"recoding::kernels::put_damaged_units::<#2b5f88d210fed041>.exit"
                                        #   in Loop: Header=BB55_2 Depth=1
	leaq	(%r14,%r13), %rdi
	movq	%r12, %rdx
	callq	"recoding::kernels::put_windows::<#2b5f88d210fed041>"
	addq	%rax, %r14
	addq	%rdx, %rbx
	testq	%rax, %rax
	je	.LBB55_5
	.p2align	4
.LBB55_2:                               # %loop.2.i
                                        # =>This Loop Header: Depth=1
                                        #     Child Loop BB55_11 Depth 2
	leaq	(%r14,%r13), %rdi
	movq	%r15, %rsi
	subq	%r14, %rsi
	movq	%r12, %rdx
	callq	"recoding::kernels::NarrowedKernelUtf16Utf8::put_text::<#adf464b980d50768>"
	addq	%rax, %r14
	cmpq	$8187, %rax                     # imm = 0x1FFB
	ja	.LBB55_2
# %bb.3:                                # %join.5.i
                                        #   in Loop: Header=BB55_2 Depth=1
	movq	%r15, %rsi
	subq	%r14, %rsi
	je	.LBB55_25
# %bb.4:                                # %join.8.i
                                        #   in Loop: Header=BB55_2 Depth=1
	cmpq	$64, %rsi
	jae	.LBB55_1
	jmp	.LBB55_6
.LBB55_5:                               # %"recoding::kernels::put_damaged_units::<#2b5f88d210fed041>.exit.join.14.i_crit_edge"
                                        #   in Loop: Header=BB55_2 Depth=1
	movq	%r15, %rsi
	subq	%r14, %rsi
.LBB55_6:                               # %join.14.i
                                        #   in Loop: Header=BB55_2 Depth=1
	cmpq	$128, %rsi
	movl	$128, %ecx
	cmovbq	%rsi, %rcx
	cmpq	$2, %rsi
	jb	.LBB55_21
# %bb.7:                                # %join.5.i36.preheader
                                        #   in Loop: Header=BB55_2 Depth=1
	leaq	(%r14,%r13), %rdx
	xorl	%eax, %eax
	movq	%rcx, %rdi
	jmp	.LBB55_11
	.p2align	4
.LBB55_8:                               # %then.1.i.i
                                        #   in Loop: Header=BB55_11 Depth=2
	movq	(%r12), %rsi
	movq	8(%r12), %rdi
	movb	%r9b, (%rsi,%rdi)
	incq	%rdi
	movq	%rdi, 8(%r12)
.LBB55_9:                               # %"recoding::codes::put_short::<#345d457c2768aa28>.exit.i"
                                        #   in Loop: Header=BB55_11 Depth=2
	movl	$2, %esi
.LBB55_10:                              # %"recoding::codes::put_short::<#345d457c2768aa28>.exit.i"
                                        #   in Loop: Header=BB55_11 Depth=2
	addq	%rsi, %rax
	movq	%rcx, %rdi
	subq	%rax, %rdi
	cmpq	$1, %rdi
	jbe	.LBB55_20
.LBB55_11:                              # %join.5.i36
                                        #   Parent Loop BB55_2 Depth=1
                                        # =>  This Inner Loop Header: Depth=2
	movzbl	(%rdx,%rax), %esi
	movzbl	1(%rdx,%rax), %r9d
	movl	%esi, %r10d
	shll	$8, %r10d
	leal	(%r10,%r9), %r8d
	andl	$64512, %r10d                   # imm = 0xFC00
	cmpl	$55296, %r10d                   # imm = 0xD800
	je	.LBB55_16
# %bb.12:                               # %join.5.i36
                                        #   in Loop: Header=BB55_11 Depth=2
	cmpl	$56320, %r10d                   # imm = 0xDC00
	je	.LBB55_20
# %bb.13:                               # %arm.7.i
                                        #   in Loop: Header=BB55_11 Depth=2
	movzwl	%r8w, %edi
	cmpl	$128, %edi
	jb	.LBB55_8
# %bb.14:                               # %join.3.i.i
                                        #   in Loop: Header=BB55_11 Depth=2
	movl	%edi, %r8d
	andl	$63, %r8d
	orl	$128, %r8d
	shrl	$6, %edi
	cmpb	$8, %sil
	jae	.LBB55_19
# %bb.15:                               # %then.4.i.i
                                        #   in Loop: Header=BB55_11 Depth=2
	orb	$-64, %dil
	movq	(%r12), %rsi
	movq	8(%r12), %r9
	movb	%dil, (%rsi,%r9)
	movq	(%r12), %rsi
	movb	%r8b, 1(%rsi,%r9)
	addq	$2, %r9
	movq	%r9, 8(%r12)
	jmp	.LBB55_9
	.p2align	4
.LBB55_16:                              # %join.6.i
                                        #   in Loop: Header=BB55_11 Depth=2
	cmpq	$4, %rdi
	jb	.LBB55_20
# %bb.17:                               # %join.15.i65.i
                                        #   in Loop: Header=BB55_11 Depth=2
	movzbl	2(%rdx,%rax), %esi
	movl	%esi, %edi
	andl	$-4, %edi
	cmpl	$220, %edi
	jne	.LBB55_20
# %bb.18:                               # %join.7.i.i
                                        #   in Loop: Header=BB55_11 Depth=2
	movzwl	%si, %edi
	movzbl	3(%rdx,%rax), %esi
	andl	$1023, %r8d                     # imm = 0x3FF
	shll	$10, %r8d
	andl	$3, %edi
	shll	$8, %edi
	orl	%esi, %edi
	leal	65536(%r8), %r9d
	orl	%r8d, %edi
	andb	$63, %sil
	orb	$-128, %sil
	shrl	$6, %edi
	movl	%r9d, %r8d
	shrl	$18, %r8d
	shrl	$12, %r9d
	orb	$-16, %r8b
	andb	$63, %r9b
	orb	$-128, %r9b
	andb	$63, %dil
	orb	$-128, %dil
	movq	(%r12), %r10
	movq	8(%r12), %r11
	movb	%r8b, (%r10,%r11)
	movq	(%r12), %r8
	movb	%r9b, 1(%r8,%r11)
	movq	(%r12), %r8
	movb	%dil, 2(%r8,%r11)
	movq	(%r12), %rdi
	movb	%sil, 3(%rdi,%r11)
	addq	$4, %r11
	movq	%r11, 8(%r12)
	movl	$4, %esi
	jmp	.LBB55_10
.LBB55_19:                              # %join.7.i.i.thread
                                        #   in Loop: Header=BB55_11 Depth=2
	shrb	$4, %sil
	orb	$-32, %sil
	andb	$63, %dil
	orb	$-128, %dil
	movq	(%r12), %r9
	movq	8(%r12), %r10
	movb	%sil, (%r9,%r10)
	movq	(%r12), %rsi
	movb	%dil, 1(%rsi,%r10)
	movq	(%r12), %rsi
	movb	%r8b, 2(%rsi,%r10)
	addq	$3, %r10
	movq	%r10, 8(%r12)
	jmp	.LBB55_9
.LBB55_20:                              # %"recoding::engine::recode_text::<#33bf286c3e467979>.exit"
                                        #   in Loop: Header=BB55_2 Depth=1
	addq	%rax, %r14
	cmpq	$124, %rax
	ja	.LBB55_2
.LBB55_21:                              # %then.15.i
                                        #   in Loop: Header=BB55_2 Depth=1
	movq	%r15, %rcx
	subq	%r14, %rcx
	je	.LBB55_25
# %bb.22:                               # %join.20.i
                                        #   in Loop: Header=BB55_2 Depth=1
	leaq	(%r14,%r13), %rdx
	xorps	%xmm0, %xmm0
	movaps	%xmm0, (%rsp)
	movq	$0, 16(%rsp)
	movaps	%xmm0, 32(%rsp)
	movaps	%xmm0, 48(%rsp)
	movq	$0, 64(%rsp)
	movq	%rsp, %rdi
	leaq	32(%rsp), %rsi
	movq	%r12, %r8
	callq	"recoding::engine::recode_faults::<#e857034c7a7c407f>"
	addq	(%rsp), %r14
	addq	8(%rsp), %rbx
	testb	$1, 16(%rsp)
	jne	.LBB55_26
# %bb.23:                               # %join.20.i
                                        #   in Loop: Header=BB55_2 Depth=1
	testb	$1, 17(%rsp)
	je	.LBB55_2
	jmp	.LBB55_26
.LBB55_25:
	movq	%r15, %r14
.LBB55_26:                              # %"recoding::engine::run::<#0eb0a5591a2f9e7a>.exit"
	movq	%r14, %rax
	movq	%rbx, %rdx
	addq	$80, %rsp
	.cfi_def_cfa_offset 48
	popq	%rbx
	.cfi_def_cfa_offset 40
	popq	%r12
	.cfi_def_cfa_offset 32
	popq	%r13
	.cfi_def_cfa_offset 24
	popq	%r14
	.cfi_def_cfa_offset 16
	popq	%r15
	.cfi_def_cfa_offset 8
	retq
.Lfunc_end55:
	.size	"recoding::recoder_runs::run_whole::<#8e1925640e2330c5>", .Lfunc_end55-"recoding::recoder_runs::run_whole::<#8e1925640e2330c5>"
	.cfi_endproc
                                        # -- End function
	.section	.rodata.cst16,"aM",@progbits,16
	.p2align	4, 0x0                          # -- Begin function recoding::kernels::NarrowedKernelUtf16Utf8::put_text::<#adf464b980d50768>
.LCPI56_0:
	.byte	1                               # 0x1
	.byte	3                               # 0x3
	.byte	5                               # 0x5
	.byte	7                               # 0x7
	.byte	9                               # 0x9
	.byte	11                              # 0xb
	.byte	13                              # 0xd
	.byte	15                              # 0xf
	.zero	1
	.zero	1
	.zero	1
	.zero	1
	.zero	1
	.zero	1
	.zero	1
	.zero	1
.LCPI56_1:
	.short	255                             # 0xff
	.short	255                             # 0xff
	.short	255                             # 0xff
	.short	255                             # 0xff
	.short	255                             # 0xff
	.short	255                             # 0xff
	.short	255                             # 0xff
	.short	255                             # 0xff
.LCPI56_2:
	.zero	16,1
.LCPI56_3:
	.zero	16,8
.LCPI56_4:
	.zero	16,248
.LCPI56_5:
	.zero	16,216
.LCPI56_6:
	.zero	16,63
.LCPI56_7:
	.zero	16,54
.LCPI56_8:
	.zero	16,55
.LCPI56_9:
	.zero	16,48
.LCPI56_10:
	.zero	16,15
.LCPI56_11:
	.zero	16,252
.LCPI56_12:
	.zero	16,128
.LCPI56_13:
	.zero	16,192
.LCPI56_14:
	.zero	16,7
.LCPI56_15:
	.zero	16,191
.LCPI56_16:
	.zero	16,3
.LCPI56_17:
	.zero	16,241
.LCPI56_18:
	.zero	16,224
.LCPI56_19:
	.zero	16,16
.LCPI56_20:
	.byte	1                               # 0x1
	.byte	0                               # 0x0
	.byte	3                               # 0x3
	.byte	2                               # 0x2
	.byte	5                               # 0x5
	.byte	4                               # 0x4
	.byte	7                               # 0x7
	.byte	6                               # 0x6
	.byte	9                               # 0x9
	.byte	8                               # 0x8
	.byte	11                              # 0xb
	.byte	10                              # 0xa
	.byte	13                              # 0xd
	.byte	12                              # 0xc
	.byte	15                              # 0xf
	.byte	14                              # 0xe
.LCPI56_21:
	.short	128                             # 0x80
	.short	128                             # 0x80
	.short	128                             # 0x80
	.short	128                             # 0x80
	.short	128                             # 0x80
	.short	128                             # 0x80
	.short	128                             # 0x80
	.short	128                             # 0x80
.LCPI56_22:
	.byte	1                               # 0x1
	.byte	3                               # 0x3
	.byte	5                               # 0x5
	.byte	7                               # 0x7
	.byte	9                               # 0x9
	.byte	11                              # 0xb
	.byte	13                              # 0xd
	.byte	15                              # 0xf
	.byte	0                               # 0x0
	.byte	0                               # 0x0
	.byte	0                               # 0x0
	.byte	0                               # 0x0
	.byte	0                               # 0x0
	.byte	0                               # 0x0
	.byte	0                               # 0x0
	.byte	0                               # 0x0
	.section	".text.recoding::kernels::NarrowedKernelUtf16Utf8::put_text::<#adf464b980d50768>","ax",@progbits
	.p2align	4
	.type	"recoding::kernels::NarrowedKernelUtf16Utf8::put_text::<#adf464b980d50768>",@function
"recoding::kernels::NarrowedKernelUtf16Utf8::put_text::<#adf464b980d50768>": # @"recoding::kernels::NarrowedKernelUtf16Utf8::put_text::<#adf464b980d50768>"
	.cfi_startproc
# %bb.0:                                # %start
	pushq	%rbp
	.cfi_def_cfa_offset 16
	pushq	%r15
	.cfi_def_cfa_offset 24
	pushq	%r14
	.cfi_def_cfa_offset 32
	pushq	%r13
	.cfi_def_cfa_offset 40
	pushq	%r12
	.cfi_def_cfa_offset 48
	pushq	%rbx
	.cfi_def_cfa_offset 56
	.cfi_offset %rbx, -56
	.cfi_offset %r12, -48
	.cfi_offset %r13, -40
	.cfi_offset %r14, -32
	.cfi_offset %r15, -24
	.cfi_offset %rbp, -16
	cmpq	$32, %rsi
	jb	.LBB56_1
# %bb.2:                                # %then.3.i.lr.ph
	movq	8(%rdx), %r8
	movq	16(%rdx), %r10
	movq	%r10, %rax
	subq	%r8, %rax
	cmpq	$64, %rax
	jb	.LBB56_3
# %bb.4:                                # %join.5.i.preheader
	xorl	%eax, %eax
	movq	%rsi, %rcx
	movq	%rsi, -16(%rsp)                 # 8-byte Spill
	.p2align	4
.LBB56_6:                               # %join.5.i
                                        # =>This Inner Loop Header: Depth=1
	movdqu	(%rdi,%rax), %xmm1
	movdqu	16(%rdi,%rax), %xmm0
	movq	.LCPI56_22(%rip), %xmm2         # xmm2 = [1,3,5,7,9,11,13,15,0,0,0,0,0,0,0,0]
	movdqa	%xmm0, %xmm3
	pshufb	%xmm2, %xmm3
	movdqa	%xmm1, %xmm6
	pshufb	%xmm2, %xmm6
	punpcklqdq	%xmm3, %xmm6            # xmm6 = xmm6[0],xmm3[0]
	movdqa	.LCPI56_1(%rip), %xmm2          # xmm2 = [255,255,255,255,255,255,255,255]
	pand	%xmm2, %xmm0
	pand	%xmm2, %xmm1
	movdqa	%xmm6, %xmm2
	psrlw	$7, %xmm2
	pand	.LCPI56_2(%rip), %xmm2
	packuswb	%xmm0, %xmm1
	por	%xmm1, %xmm2
	ptest	%xmm2, %xmm2
	je	.LBB56_7
# %bb.8:                                # %join.3.i57
                                        #   in Loop: Header=BB56_6 Depth=1
	leaq	64(%r8), %r11
	movq	(%rdx), %r13
	pxor	%xmm0, %xmm0
	movdqu	%xmm0, 48(%r13,%r8)
	movdqu	%xmm0, 32(%r13,%r8)
	movdqu	%xmm0, 16(%r13,%r8)
	movdqu	%xmm0, (%r13,%r8)
	movq	%r13, (%rdx)
	movq	%r11, 8(%rdx)
	movq	%r10, 16(%rdx)
	movdqa	.LCPI56_3(%rip), %xmm0          # xmm0 = [8,8,8,8,8,8,8,8,8,8,8,8,8,8,8,8]
	pmaxub	%xmm1, %xmm0
	pcmpeqb	%xmm1, %xmm0
	pmovmskb	%xmm0, %r10d
	testl	%r10d, %r10d
	je	.LBB56_9
# %bb.10:                               # %join.3.i32.i
                                        #   in Loop: Header=BB56_6 Depth=1
	movdqa	.LCPI56_4(%rip), %xmm2          # xmm2 = [248,248,248,248,248,248,248,248,248,248,248,248,248,248,248,248]
	pand	%xmm1, %xmm2
	movdqa	.LCPI56_5(%rip), %xmm0          # xmm0 = [216,216,216,216,216,216,216,216,216,216,216,216,216,216,216,216]
	pcmpeqb	%xmm2, %xmm0
	pmovmskb	%xmm0, %r10d
	testl	%r10d, %r10d
	je	.LBB56_11
# %bb.12:                               # %join.7.i.i
                                        #   in Loop: Header=BB56_6 Depth=1
	movdqa	%xmm1, %xmm0
	psrlw	$2, %xmm0
	pand	.LCPI56_6(%rip), %xmm0
	movdqa	.LCPI56_7(%rip), %xmm3          # xmm3 = [54,54,54,54,54,54,54,54,54,54,54,54,54,54,54,54]
	pcmpeqb	%xmm0, %xmm3
	pmovmskb	%xmm3, %r14d
	pcmpeqb	.LCPI56_8(%rip), %xmm0
	pmovmskb	%xmm0, %r10d
	leal	(%r14,%r14), %r11d
	movzwl	%r11w, %r11d
	cmpl	%r10d, %r11d
	jne	.LBB56_13
# %bb.14:                               # %join.3.i234.i
                                        #   in Loop: Header=BB56_6 Depth=1
	movdqa	.LCPI56_5(%rip), %xmm7          # xmm7 = [216,216,216,216,216,216,216,216,216,216,216,216,216,216,216,216]
	pcmpeqb	%xmm7, %xmm2
	movdqa	%xmm6, %xmm0
	psrlw	$6, %xmm0
	movdqa	.LCPI56_11(%rip), %xmm5         # xmm5 = [252,252,252,252,252,252,252,252,252,252,252,252,252,252,252,252]
	movdqa	%xmm1, %xmm8
	psllw	$2, %xmm8
	pand	%xmm5, %xmm8
	movdqa	.LCPI56_14(%rip), %xmm4         # xmm4 = [7,7,7,7,7,7,7,7,7,7,7,7,7,7,7,7]
	pminub	%xmm1, %xmm4
	pcmpeqb	%xmm1, %xmm4
	movdqa	.LCPI56_16(%rip), %xmm10        # xmm10 = [3,3,3,3,3,3,3,3,3,3,3,3,3,3,3,3]
	pand	%xmm1, %xmm10
	movdqa	%xmm1, %xmm11
	pand	%xmm5, %xmm1
	pandn	%xmm0, %xmm5
	por	%xmm5, %xmm8
	movdqa	%xmm8, %xmm13
	movdqa	.LCPI56_12(%rip), %xmm12        # xmm12 = [128,128,128,128,128,128,128,128,128,128,128,128,128,128,128,128]
	movdqa	.LCPI56_6(%rip), %xmm9          # xmm9 = [63,63,63,63,63,63,63,63,63,63,63,63,63,63,63,63]
	pand	%xmm9, %xmm8
	movdqa	%xmm8, %xmm5
	pcmpgtb	.LCPI56_2(%rip), %xmm5
	movdqa	.LCPI56_13(%rip), %xmm14        # xmm14 = [192,192,192,192,192,192,192,192,192,192,192,192,192,192,192,192]
	por	%xmm8, %xmm14
	pand	%xmm5, %xmm14
	por	%xmm12, %xmm8
	movdqa	%xmm4, %xmm0
	pblendvb	%xmm0, %xmm14, %xmm8
	movdqa	%xmm6, %xmm0
	psllw	$4, %xmm0
	pand	.LCPI56_9(%rip), %xmm0
	palignr	$15, %xmm0, %xmm0               # xmm0 = xmm0[15,0,1,2,3,4,5,6,7,8,9,10,11,12,13,14]
	movdqa	.LCPI56_10(%rip), %xmm14        # xmm14 = [15,15,15,15,15,15,15,15,15,15,15,15,15,15,15,15]
	pand	%xmm14, %xmm13
	por	%xmm12, %xmm13
	por	%xmm0, %xmm13
	movdqa	%xmm2, %xmm0
	pblendvb	%xmm0, %xmm13, %xmm8
	movdqa	.LCPI56_15(%rip), %xmm0         # xmm0 = [191,191,191,191,191,191,191,191,191,191,191,191,191,191,191,191]
	pminub	%xmm6, %xmm0
	pcmpeqb	%xmm6, %xmm0
	paddb	%xmm0, %xmm10
	paddb	.LCPI56_17(%rip), %xmm10
	movdqa	%xmm3, %xmm0
	pblendvb	%xmm0, %xmm10, %xmm8
	psrlw	$4, %xmm11
	pand	%xmm14, %xmm11
	por	.LCPI56_18(%rip), %xmm11
	por	%xmm4, %xmm2
	pandn	%xmm11, %xmm2
	movdqa	%xmm2, %xmm3
	punpcklbw	%xmm8, %xmm3            # xmm3 = xmm3[0],xmm8[0],xmm3[1],xmm8[1],xmm3[2],xmm8[2],xmm3[3],xmm8[3],xmm3[4],xmm8[4],xmm3[5],xmm8[5],xmm3[6],xmm8[6],xmm3[7],xmm8[7]
	punpckhbw	%xmm8, %xmm2            # xmm2 = xmm2[8],xmm8[8],xmm2[9],xmm8[9],xmm2[10],xmm8[10],xmm2[11],xmm8[11],xmm2[12],xmm8[12],xmm2[13],xmm8[13],xmm2[14],xmm8[14],xmm2[15],xmm8[15]
	pmovmskb	%xmm3, %ebp
	movzbl	%bpl, %r12d
	popcntl	%r12d, %esi
	shrl	$8, %ebp
	popcntl	%ebp, %r15d
	addq	%r8, %rsi
	pmovmskb	%xmm2, %ebx
	movzbl	%bl, %r9d
	movq	%r9, -24(%rsp)                  # 8-byte Spill
	popcntl	%r9d, %r9d
	shrl	$8, %ebx
	popcntl	%ebx, %r10d
	xorl	%r11d, %r11d
	testw	%r14w, %r14w
	setns	%r11b
	leaq	4(%r15,%rsi), %r15
	movq	%r15, -8(%rsp)                  # 8-byte Spill
	movq	%rsi, %r14
	leaq	4(%r9,%r15), %r9
	leaq	8(%r10,%r9), %rsi
	leaq	6(%r10,%r9), %r15
	cmovnsq	%rsi, %r15
	movdqa	%xmm6, %xmm8
	psrlw	$2, %xmm8
	paddb	.LCPI56_19(%rip), %xmm8
	pcmpeqb	%xmm7, %xmm1
	pand	%xmm9, %xmm8
	pand	%xmm6, %xmm9
	por	%xmm12, %xmm9
	pandn	%xmm4, %xmm5
	movdqa	%xmm5, %xmm0
	pblendvb	%xmm0, %xmm6, %xmm9
	por	%xmm12, %xmm8
	movdqa	%xmm1, %xmm0
	pblendvb	%xmm0, %xmm8, %xmm9
	addq	$15, %r11
	movdqa	%xmm9, %xmm0
	punpcklbw	%xmm9, %xmm0            # xmm0 = xmm0[0],xmm9[0],xmm0[1],xmm9[1],xmm0[2],xmm9[2],xmm0[3],xmm9[3],xmm0[4],xmm9[4],xmm0[5],xmm9[5],xmm0[6],xmm9[6],xmm0[7],xmm9[7]
	punpckhbw	%xmm9, %xmm9            # xmm9 = xmm9[8,8,9,9,10,10,11,11,12,12,13,13,14,14,15,15]
	movdqa	%xmm3, %xmm1
	punpcklbw	%xmm0, %xmm1            # xmm1 = xmm1[0],xmm0[0],xmm1[1],xmm0[1],xmm1[2],xmm0[2],xmm1[3],xmm0[3],xmm1[4],xmm0[4],xmm1[5],xmm0[5],xmm1[6],xmm0[6],xmm1[7],xmm0[7]
	punpckhbw	%xmm0, %xmm3            # xmm3 = xmm3[8],xmm0[8],xmm3[9],xmm0[9],xmm3[10],xmm0[10],xmm3[11],xmm0[11],xmm3[12],xmm0[12],xmm3[13],xmm0[13],xmm3[14],xmm0[14],xmm3[15],xmm0[15]
	shll	$4, %r12d
	leaq	.Lstatic.20(%rip), %r10
	movdqu	(%r12,%r10), %xmm0
	movq	-16(%rsp), %rsi                 # 8-byte Reload
	pshufb	%xmm0, %xmm1
	shll	$4, %ebp
	movdqu	(%rbp,%r10), %xmm0
	pshufb	%xmm0, %xmm3
	movdqu	%xmm1, (%r13,%r8)
	movdqu	%xmm3, 4(%r13,%r14)
	movdqa	%xmm2, %xmm0
	punpcklbw	%xmm9, %xmm0            # xmm0 = xmm0[0],xmm9[0],xmm0[1],xmm9[1],xmm0[2],xmm9[2],xmm0[3],xmm9[3],xmm0[4],xmm9[4],xmm0[5],xmm9[5],xmm0[6],xmm9[6],xmm0[7],xmm9[7]
	punpckhbw	%xmm9, %xmm2            # xmm2 = xmm2[8],xmm9[8],xmm2[9],xmm9[9],xmm2[10],xmm9[10],xmm2[11],xmm9[11],xmm2[12],xmm9[12],xmm2[13],xmm9[13],xmm2[14],xmm9[14],xmm2[15],xmm9[15]
	movq	-24(%rsp), %r8                  # 8-byte Reload
	shll	$4, %r8d
	movdqu	(%r8,%r10), %xmm1
	pshufb	%xmm1, %xmm0
	shll	$4, %ebx
	movdqu	(%rbx,%r10), %xmm1
	pshufb	%xmm1, %xmm2
	movq	-8(%rsp), %r8                   # 8-byte Reload
	movdqu	%xmm0, 4(%r13,%r8)
	movdqu	%xmm2, 4(%r13,%r9)
	movq	%r15, %r8
	movq	8(%rdx), %r9
	cmpq	%r8, %r9
	ja	.LBB56_16
	jmp	.LBB56_17
	.p2align	4
.LBB56_7:                               # %join.3.i
                                        #   in Loop: Header=BB56_6 Depth=1
	movq	(%rdx), %rcx
	movdqu	%xmm6, (%rcx,%r8)
	addq	$16, %r8
	movq	%rcx, (%rdx)
	movq	%r8, 8(%rdx)
	movq	%r10, 16(%rdx)
	movl	$16, %r11d
	jmp	.LBB56_18
	.p2align	4
.LBB56_9:                               # %then.1.i33.i
                                        #   in Loop: Header=BB56_6 Depth=1
	movdqa	%xmm6, %xmm0
	psrlw	$6, %xmm0
	pand	.LCPI56_16(%rip), %xmm0
	movdqa	%xmm1, %xmm3
	psllw	$2, %xmm3
	pand	.LCPI56_11(%rip), %xmm3
	por	%xmm0, %xmm3
	movdqa	.LCPI56_6(%rip), %xmm4          # xmm4 = [63,63,63,63,63,63,63,63,63,63,63,63,63,63,63,63]
	pand	%xmm4, %xmm3
	movdqa	%xmm3, %xmm2
	pcmpgtb	.LCPI56_2(%rip), %xmm2
	movdqa	.LCPI56_13(%rip), %xmm5         # xmm5 = [192,192,192,192,192,192,192,192,192,192,192,192,192,192,192,192]
	por	%xmm3, %xmm5
	pand	%xmm2, %xmm5
	movdqa	.LCPI56_14(%rip), %xmm0         # xmm0 = [7,7,7,7,7,7,7,7,7,7,7,7,7,7,7,7]
	pminub	%xmm1, %xmm0
	pcmpeqb	%xmm1, %xmm0
	movdqa	.LCPI56_12(%rip), %xmm1         # xmm1 = [128,128,128,128,128,128,128,128,128,128,128,128,128,128,128,128]
	por	%xmm1, %xmm3
	pblendvb	%xmm0, %xmm5, %xmm3
	pand	%xmm6, %xmm4
	por	%xmm1, %xmm4
	pandn	%xmm0, %xmm2
	movdqa	%xmm2, %xmm0
	pblendvb	%xmm0, %xmm6, %xmm4
	pmovmskb	%xmm3, %r14d
	movdqa	%xmm3, %xmm0
	punpcklbw	%xmm4, %xmm0            # xmm0 = xmm0[0],xmm4[0],xmm0[1],xmm4[1],xmm0[2],xmm4[2],xmm0[3],xmm4[3],xmm0[4],xmm4[4],xmm0[5],xmm4[5],xmm0[6],xmm4[6],xmm0[7],xmm4[7]
	punpckhbw	%xmm4, %xmm3            # xmm3 = xmm3[8],xmm4[8],xmm3[9],xmm4[9],xmm3[10],xmm4[10],xmm3[11],xmm4[11],xmm3[12],xmm4[12],xmm3[13],xmm4[13],xmm3[14],xmm4[14],xmm3[15],xmm4[15]
	movzbl	%r14b, %r10d
	xorl	%r11d, %r11d
	popcntl	%r10d, %r11d
	shll	$4, %r10d
	leaq	.Lstatic.19(%rip), %rbx
	movdqu	(%r10,%rbx), %xmm1
	pshufb	%xmm1, %xmm0
	shrl	$8, %r14d
	xorl	%r10d, %r10d
	popcntl	%r14d, %r10d
	shll	$4, %r14d
	movdqu	(%r14,%rbx), %xmm1
	pshufb	%xmm1, %xmm3
	movdqu	%xmm0, (%r13,%r8)
	addq	%r8, %r11
	movdqu	%xmm3, 8(%r13,%r11)
	leaq	(%r10,%r11), %r8
	addq	$16, %r8
	movl	$16, %r11d
	movq	8(%rdx), %r9
	cmpq	%r8, %r9
	ja	.LBB56_16
	jmp	.LBB56_17
.LBB56_11:                              # %then.5.i.i
                                        #   in Loop: Header=BB56_6 Depth=1
	movdqa	%xmm6, %xmm0
	psrlw	$6, %xmm0
	pand	.LCPI56_16(%rip), %xmm0
	movdqa	%xmm1, %xmm5
	psllw	$2, %xmm5
	pand	.LCPI56_11(%rip), %xmm5
	por	%xmm0, %xmm5
	movdqa	.LCPI56_6(%rip), %xmm4          # xmm4 = [63,63,63,63,63,63,63,63,63,63,63,63,63,63,63,63]
	pand	%xmm4, %xmm5
	movdqa	%xmm5, %xmm3
	pcmpgtb	.LCPI56_2(%rip), %xmm3
	movdqa	.LCPI56_13(%rip), %xmm7         # xmm7 = [192,192,192,192,192,192,192,192,192,192,192,192,192,192,192,192]
	por	%xmm5, %xmm7
	pand	%xmm3, %xmm7
	movdqa	.LCPI56_14(%rip), %xmm2         # xmm2 = [7,7,7,7,7,7,7,7,7,7,7,7,7,7,7,7]
	pminub	%xmm1, %xmm2
	pcmpeqb	%xmm1, %xmm2
	movdqa	.LCPI56_12(%rip), %xmm8         # xmm8 = [128,128,128,128,128,128,128,128,128,128,128,128,128,128,128,128]
	por	%xmm8, %xmm5
	movdqa	%xmm2, %xmm0
	pblendvb	%xmm0, %xmm7, %xmm5
	pand	%xmm6, %xmm4
	por	%xmm8, %xmm4
	pandn	%xmm2, %xmm3
	movdqa	%xmm3, %xmm0
	pblendvb	%xmm0, %xmm6, %xmm4
	psrlw	$4, %xmm1
	pand	.LCPI56_10(%rip), %xmm1
	por	.LCPI56_18(%rip), %xmm1
	pandn	%xmm1, %xmm2
	movdqa	%xmm2, %xmm0
	punpcklbw	%xmm5, %xmm0            # xmm0 = xmm0[0],xmm5[0],xmm0[1],xmm5[1],xmm0[2],xmm5[2],xmm0[3],xmm5[3],xmm0[4],xmm5[4],xmm0[5],xmm5[5],xmm0[6],xmm5[6],xmm0[7],xmm5[7]
	punpckhbw	%xmm5, %xmm2            # xmm2 = xmm2[8],xmm5[8],xmm2[9],xmm5[9],xmm2[10],xmm5[10],xmm2[11],xmm5[11],xmm2[12],xmm5[12],xmm2[13],xmm5[13],xmm2[14],xmm5[14],xmm2[15],xmm5[15]
	movdqa	%xmm4, %xmm1
	punpcklbw	%xmm4, %xmm1            # xmm1 = xmm1[0],xmm4[0],xmm1[1],xmm4[1],xmm1[2],xmm4[2],xmm1[3],xmm4[3],xmm1[4],xmm4[4],xmm1[5],xmm4[5],xmm1[6],xmm4[6],xmm1[7],xmm4[7]
	punpckhbw	%xmm4, %xmm4            # xmm4 = xmm4[8,8,9,9,10,10,11,11,12,12,13,13,14,14,15,15]
	pmovmskb	%xmm0, %r10d
	movdqa	%xmm0, %xmm3
	punpcklbw	%xmm1, %xmm3            # xmm3 = xmm3[0],xmm1[0],xmm3[1],xmm1[1],xmm3[2],xmm1[2],xmm3[3],xmm1[3],xmm3[4],xmm1[4],xmm3[5],xmm1[5],xmm3[6],xmm1[6],xmm3[7],xmm1[7]
	punpckhbw	%xmm1, %xmm0            # xmm0 = xmm0[8],xmm1[8],xmm0[9],xmm1[9],xmm0[10],xmm1[10],xmm0[11],xmm1[11],xmm0[12],xmm1[12],xmm0[13],xmm1[13],xmm0[14],xmm1[14],xmm0[15],xmm1[15]
	movzbl	%r10b, %r11d
	popcntl	%r11d, %ebx
	shll	$4, %r11d
	leaq	.Lstatic.20(%rip), %r14
	movdqu	(%r11,%r14), %xmm1
	pshufb	%xmm1, %xmm3
	shrl	$8, %r10d
	xorl	%r11d, %r11d
	popcntl	%r10d, %r11d
	shll	$4, %r10d
	movdqu	(%r10,%r14), %xmm1
	pshufb	%xmm1, %xmm0
	addq	%r8, %rbx
	leaq	(%r11,%rbx), %r10
	addq	$4, %r10
	movdqu	%xmm3, (%r13,%r8)
	movdqu	%xmm0, 4(%r13,%rbx)
	pmovmskb	%xmm2, %r8d
	movdqa	%xmm2, %xmm0
	punpcklbw	%xmm4, %xmm0            # xmm0 = xmm0[0],xmm4[0],xmm0[1],xmm4[1],xmm0[2],xmm4[2],xmm0[3],xmm4[3],xmm0[4],xmm4[4],xmm0[5],xmm4[5],xmm0[6],xmm4[6],xmm0[7],xmm4[7]
	punpckhbw	%xmm4, %xmm2            # xmm2 = xmm2[8],xmm4[8],xmm2[9],xmm4[9],xmm2[10],xmm4[10],xmm2[11],xmm4[11],xmm2[12],xmm4[12],xmm2[13],xmm4[13],xmm2[14],xmm4[14],xmm2[15],xmm4[15]
	movzbl	%r8b, %r11d
	xorl	%ebx, %ebx
	popcntl	%r11d, %ebx
	shll	$4, %r11d
	movdqu	(%r11,%r14), %xmm1
	pshufb	%xmm1, %xmm0
	leaq	(%rbx,%r10), %r11
	addq	$4, %r11
	shrl	$8, %r8d
	xorl	%ebx, %ebx
	popcntl	%r8d, %ebx
	shll	$4, %r8d
	movdqu	(%r8,%r14), %xmm1
	pshufb	%xmm1, %xmm2
	movdqu	%xmm0, 4(%r13,%r10)
	movdqu	%xmm2, 4(%r13,%r11)
	leaq	(%rbx,%r11), %r8
	addq	$8, %r8
	movl	$16, %r11d
	movq	8(%rdx), %r9
	cmpq	%r8, %r9
	jbe	.LBB56_17
.LBB56_16:                              # %join.3.i82
                                        #   in Loop: Header=BB56_6 Depth=1
	movq	%r8, 8(%rdx)
	movq	%r8, %r9
.LBB56_17:                              # %"recoding::list::append_block::<#e3b2a9d4d2861db8>.exit.i"
                                        #   in Loop: Header=BB56_6 Depth=1
	movq	%r9, %r8
	testq	%r11, %r11
	je	.LBB56_22
.LBB56_18:                              # %join.11.i
                                        #   in Loop: Header=BB56_6 Depth=1
	leaq	(%rax,%r11,2), %rax
	movq	%rsi, %rcx
	subq	%rax, %rcx
	cmpq	$31, %rcx
	jbe	.LBB56_19
# %bb.5:                                # %then.3.i
                                        #   in Loop: Header=BB56_6 Depth=1
	movq	16(%rdx), %r10
	movq	%r10, %r9
	subq	%r8, %r9
	cmpq	$64, %r9
	jae	.LBB56_6
	jmp	.LBB56_22
.LBB56_13:                              #   in Loop: Header=BB56_6 Depth=1
	xorl	%r11d, %r11d
	movq	8(%rdx), %r9
	cmpq	%r8, %r9
	ja	.LBB56_16
	jmp	.LBB56_17
.LBB56_1:
	xorl	%eax, %eax
	cmpq	$16, %rsi
	jae	.LBB56_21
.LBB56_30:
	xorl	%esi, %esi
	jmp	.LBB56_29
.LBB56_3:
	xorl	%eax, %eax
.LBB56_21:
	movq	%rsi, %rcx
.LBB56_22:                              # %then.3.i8.lr.ph
	movq	%rax, -24(%rsp)                 # 8-byte Spill
	movq	8(%rdx), %r8
	movq	16(%rdx), %rax
	movq	%rax, %r10
	subq	%r8, %r10
	cmpq	$8, %r10
	jb	.LBB56_23
# %bb.24:                               # %join.5.i12.preheader
	addq	-24(%rsp), %rdi                 # 8-byte Folded Reload
	addq	$-16, %rcx
	addq	$-8, %r10
	addq	$8, %r8
	xorl	%esi, %esi
	.p2align	4
.LBB56_25:                              # %join.5.i12
                                        # =>This Inner Loop Header: Depth=1
	movdqu	(%rdi,%rsi), %xmm0
	pshufb	.LCPI56_20(%rip), %xmm0         # xmm0 = xmm0[1,0,3,2,5,4,7,6,9,8,11,10,13,12,15,14]
	movdqa	.LCPI56_21(%rip), %xmm1         # xmm1 = [128,128,128,128,128,128,128,128]
	pmaxuw	%xmm0, %xmm1
	pcmpeqw	%xmm0, %xmm1
	pmovmskb	%xmm1, %r11d
	testl	%r11d, %r11d
	jne	.LBB56_28
# %bb.26:                               # %arm.10.i
                                        #   in Loop: Header=BB56_25 Depth=1
	movzbl	1(%rdi,%rsi), %r13d
	movzbl	3(%rdi,%rsi), %r11d
	movzbl	5(%rdi,%rsi), %ebp
	movzbl	9(%rdi,%rsi), %r12d
	movzbl	11(%rdi,%rsi), %r15d
	movzbl	13(%rdi,%rsi), %r14d
	movzbl	15(%rdi,%rsi), %ebx
	shlq	$56, %rbx
	shlq	$48, %r14
	shlq	$40, %r15
	shlq	$32, %r12
	movzbl	7(%rdi,%rsi), %r9d
	shll	$24, %r9d
	shll	$16, %ebp
	shll	$8, %r11d
	orq	%r13, %r11
	orq	%rbp, %r11
	orq	%r9, %r11
	orq	%r12, %r11
	orq	%r15, %r11
	orq	%r14, %r11
	orq	%rbx, %r11
	addq	$16, %rsi
	movq	(%rdx), %r9
	movq	%r11, -8(%r9,%r8)
	movq	%r9, (%rdx)
	movq	%r8, 8(%rdx)
	movq	%rax, 16(%rdx)
	subq	$16, %rcx
	jb	.LBB56_28
# %bb.27:                               # %arm.10.i
                                        #   in Loop: Header=BB56_25 Depth=1
	addq	$8, %r8
	cmpq	$7, %r10
	leaq	-8(%r10), %r10
	ja	.LBB56_25
	jmp	.LBB56_28
.LBB56_23:
	xorl	%esi, %esi
.LBB56_28:
	movq	-24(%rsp), %rax                 # 8-byte Reload
.LBB56_29:                              # %"recoding::kernels::narrow_ascii::<#f0e6fcfecd579859>.exit"
	addq	%rsi, %rax
	popq	%rbx
	.cfi_def_cfa_offset 48
	popq	%r12
	.cfi_def_cfa_offset 40
	popq	%r13
	.cfi_def_cfa_offset 32
	popq	%r14
	.cfi_def_cfa_offset 24
	popq	%r15
	.cfi_def_cfa_offset 16
	popq	%rbp
	.cfi_def_cfa_offset 8
	retq
.LBB56_19:
	.cfi_def_cfa_offset 56
	movq	%rcx, %rsi
	cmpq	$16, %rsi
	jb	.LBB56_30
	jmp	.LBB56_21
.Lfunc_end56:
	.size	"recoding::kernels::NarrowedKernelUtf16Utf8::put_text::<#adf464b980d50768>", .Lfunc_end56-"recoding::kernels::NarrowedKernelUtf16Utf8::put_text::<#adf464b980d50768>"
	.cfi_endproc
                                        # -- End function
	.section	.rodata.cst16,"aM",@progbits,16
	.p2align	4, 0x0                          # -- Begin function recoding::kernels::put_windows::<#2b5f88d210fed041>
.LCPI57_0:
	.short	255                             # 0xff
	.short	255                             # 0xff
	.short	255                             # 0xff
	.short	255                             # 0xff
	.short	255                             # 0xff
	.short	255                             # 0xff
	.short	255                             # 0xff
	.short	255                             # 0xff
.LCPI57_1:
	.byte	1                               # 0x1
	.byte	3                               # 0x3
	.byte	5                               # 0x5
	.byte	7                               # 0x7
	.byte	9                               # 0x9
	.byte	11                              # 0xb
	.byte	13                              # 0xd
	.byte	15                              # 0xf
	.zero	1
	.zero	1
	.zero	1
	.zero	1
	.zero	1
	.zero	1
	.zero	1
	.zero	1
.LCPI57_2:
	.zero	16,63
.LCPI57_3:
	.zero	16,54
.LCPI57_4:
	.byte	255                             # 0xff
	.byte	255                             # 0xff
	.byte	255                             # 0xff
	.byte	255                             # 0xff
	.byte	255                             # 0xff
	.byte	255                             # 0xff
	.byte	255                             # 0xff
	.byte	255                             # 0xff
	.byte	255                             # 0xff
	.byte	255                             # 0xff
	.byte	255                             # 0xff
	.byte	255                             # 0xff
	.byte	255                             # 0xff
	.byte	255                             # 0xff
	.byte	255                             # 0xff
	.byte	0                               # 0x0
.LCPI57_5:
	.zero	16,55
.LCPI57_6:
	.zero	16,253
.LCPI57_7:
	.zero	16,252
.LCPI57_8:
	.zero	16,216
.LCPI57_9:
	.byte	1                               # 0x1
	.byte	3                               # 0x3
	.byte	5                               # 0x5
	.byte	7                               # 0x7
	.byte	9                               # 0x9
	.byte	11                              # 0xb
	.byte	13                              # 0xd
	.byte	15                              # 0xf
	.byte	0                               # 0x0
	.byte	0                               # 0x0
	.byte	0                               # 0x0
	.byte	0                               # 0x0
	.byte	0                               # 0x0
	.byte	0                               # 0x0
	.byte	0                               # 0x0
	.byte	0                               # 0x0
	.section	".text.recoding::kernels::put_windows::<#2b5f88d210fed041>","ax",@progbits
	.p2align	4
	.type	"recoding::kernels::put_windows::<#2b5f88d210fed041>",@function
"recoding::kernels::put_windows::<#2b5f88d210fed041>": # @"recoding::kernels::put_windows::<#2b5f88d210fed041>"
	.cfi_startproc
# %bb.0:                                # %start
	pushq	%rbp
	.cfi_def_cfa_offset 16
	pushq	%r15
	.cfi_def_cfa_offset 24
	pushq	%r14
	.cfi_def_cfa_offset 32
	pushq	%r13
	.cfi_def_cfa_offset 40
	pushq	%r12
	.cfi_def_cfa_offset 48
	pushq	%rbx
	.cfi_def_cfa_offset 56
	subq	$24, %rsp
	.cfi_def_cfa_offset 80
	.cfi_offset %rbx, -56
	.cfi_offset %r12, -48
	.cfi_offset %r13, -40
	.cfi_offset %r14, -32
	.cfi_offset %r15, -24
	.cfi_offset %rbp, -16
	movq	%rdx, %r8
	movq	%rsi, (%rsp)                    # 8-byte Spill
	movq	%rdi, 8(%rsp)                   # 8-byte Spill
	xorl	%ebx, %ebx
	xorl	%edx, %edx
	xorl	%ebp, %ebp
	.p2align	4
.LBB57_1:                               # %then.6
                                        # =>This Inner Loop Header: Depth=1
	movq	16(%r8), %rax
	subq	8(%r8), %rax
	cmpq	$112, %rax
	jb	.LBB57_4
# %bb.2:                                # %join.5
                                        #   in Loop: Header=BB57_1 Depth=1
	movq	8(%rsp), %rax                   # 8-byte Reload
	movdqu	(%rax,%rbx), %xmm8
	movdqu	16(%rax,%rbx), %xmm0
	movdqu	32(%rax,%rbx), %xmm3
	movdqu	48(%rax,%rbx), %xmm1
	movdqa	.LCPI57_0(%rip), %xmm6          # xmm6 = [255,255,255,255,255,255,255,255]
	movdqa	%xmm0, %xmm2
	pand	%xmm6, %xmm2
	movdqa	%xmm8, %xmm7
	pand	%xmm6, %xmm7
	packuswb	%xmm2, %xmm7
	movdqa	%xmm1, %xmm2
	pand	%xmm6, %xmm2
	pand	%xmm3, %xmm6
	packuswb	%xmm2, %xmm6
	movq	.LCPI57_9(%rip), %xmm2          # xmm2 = [1,3,5,7,9,11,13,15,0,0,0,0,0,0,0,0]
	pshufb	%xmm2, %xmm1
	pshufb	%xmm2, %xmm3
	punpcklqdq	%xmm1, %xmm3            # xmm3 = xmm3[0],xmm1[0]
	pshufb	%xmm2, %xmm0
	pshufb	%xmm2, %xmm8
	punpcklqdq	%xmm0, %xmm8            # xmm8 = xmm8[0],xmm0[0]
	movdqa	%xmm6, %xmm0
	psrlw	$2, %xmm0
	movdqa	.LCPI57_2(%rip), %xmm2          # xmm2 = [63,63,63,63,63,63,63,63,63,63,63,63,63,63,63,63]
	pand	%xmm2, %xmm0
	movdqa	%xmm7, %xmm1
	psrlw	$2, %xmm1
	pand	%xmm2, %xmm1
	movdqa	.LCPI57_3(%rip), %xmm5          # xmm5 = [54,54,54,54,54,54,54,54,54,54,54,54,54,54,54,54]
	movdqa	%xmm1, %xmm4
	pcmpeqb	%xmm5, %xmm4
	pcmpeqb	%xmm0, %xmm5
	movdqa	.LCPI57_4(%rip), %xmm9          # xmm9 = [255,255,255,255,255,255,255,255,255,255,255,255,255,255,255,0]
	pand	%xmm5, %xmm9
	movdqa	.LCPI57_5(%rip), %xmm2          # xmm2 = [55,55,55,55,55,55,55,55,55,55,55,55,55,55,55,55]
	pcmpeqb	%xmm2, %xmm0
	pcmpeqb	%xmm2, %xmm1
	palignr	$15, %xmm4, %xmm5               # xmm5 = xmm4[15],xmm5[0,1,2,3,4,5,6,7,8,9,10,11,12,13,14]
	movdqa	%xmm4, %xmm2
	pslldq	$1, %xmm2                       # xmm2 = zero,xmm2[0,1,2,3,4,5,6,7,8,9,10,11,12,13,14]
	pxor	%xmm1, %xmm2
	pxor	%xmm0, %xmm5
	movdqa	%xmm5, %xmm10
	palignr	$1, %xmm2, %xmm10               # xmm10 = xmm2[1,2,3,4,5,6,7,8,9,10,11,12,13,14,15],xmm10[0]
	pand	%xmm1, %xmm2
	palignr	$1, %xmm5, %xmm1                # xmm1 = xmm5[1,2,3,4,5,6,7,8,9,10,11,12,13,14,15],xmm1[0]
	pand	%xmm9, %xmm1
	pand	%xmm4, %xmm10
	pxor	%xmm9, %xmm9
	por	%xmm10, %xmm2
	pand	%xmm0, %xmm5
	por	%xmm1, %xmm5
	movdqa	.LCPI57_6(%rip), %xmm1          # xmm1 = [253,253,253,253,253,253,253,253,253,253,253,253,253,253,253,253]
	pcmpeqb	%xmm9, %xmm2
	movdqa	%xmm1, %xmm4
	movdqa	%xmm2, %xmm0
	pblendvb	%xmm0, %xmm8, %xmm4
	pcmpeqb	%xmm9, %xmm5
	movdqa	%xmm5, %xmm0
	pblendvb	%xmm0, %xmm3, %xmm1
	pcmpeqd	%xmm3, %xmm3
	pmovmskb	%xmm2, %eax
	pxor	%xmm3, %xmm2
	pxor	%xmm5, %xmm3
	por	%xmm6, %xmm3
	pand	.LCPI57_7(%rip), %xmm6
	pcmpeqb	.LCPI57_8(%rip), %xmm6
	por	%xmm7, %xmm2
	movq	%rdx, 16(%rsp)                  # 8-byte Spill
	pmovmskb	%xmm6, %ecx
	xorl	%r12d, %r12d
	testw	%cx, %cx
	setns	%r12b
	leaq	31(%r12), %rdi
	xorl	$65535, %eax                    # imm = 0xFFFF
	pmovmskb	%xmm5, %r15d
	notl	%r15d
	shll	$16, %r15d
	orl	%eax, %r15d
	popcntl	%r15d, %r13d
	movdqa	%xmm4, %xmm0
	movq	%r8, %r14
	movq	%r8, %rsi
	callq	"recoding::list::append_text_units::<#e3b2a9d4d2861db8>"
	movq	16(%rsp), %rdx                  # 8-byte Reload
	leaq	(%rbx,%r12,2), %rbx
	addq	$62, %rbx
	addq	%r13, %rdx
	movq	%rbp, %rax
	incq	%rax
	xorl	%ebp, %ebp
	testl	%r15d, %r15d
	cmoveq	%rax, %rbp
	cmpq	$8, %rdx
	movl	$8, %eax
	cmovbq	%rdx, %rax
	cmpq	%rax, %rbp
	ja	.LBB57_4
# %bb.3:                                # %join.5
                                        #   in Loop: Header=BB57_1 Depth=1
	movq	(%rsp), %rax                    # 8-byte Reload
	subq	%rbx, %rax
	cmpq	$63, %rax
	movq	%r14, %r8
	ja	.LBB57_1
.LBB57_4:                               # %after.1
	movq	%rbx, %rax
	addq	$24, %rsp
	.cfi_def_cfa_offset 56
	popq	%rbx
	.cfi_def_cfa_offset 48
	popq	%r12
	.cfi_def_cfa_offset 40
	popq	%r13
	.cfi_def_cfa_offset 32
	popq	%r14
	.cfi_def_cfa_offset 24
	popq	%r15
	.cfi_def_cfa_offset 16
	popq	%rbp
	.cfi_def_cfa_offset 8
	retq
.Lfunc_end57:
	.size	"recoding::kernels::put_windows::<#2b5f88d210fed041>", .Lfunc_end57-"recoding::kernels::put_windows::<#2b5f88d210fed041>"
	.cfi_endproc
                                        # -- End function
	.section	".text.recoding::engine::recode_faults::<#e857034c7a7c407f>","ax",@progbits
	.p2align	4                               # -- Begin function recoding::engine::recode_faults::<#e857034c7a7c407f>
	.type	"recoding::engine::recode_faults::<#e857034c7a7c407f>",@function
"recoding::engine::recode_faults::<#e857034c7a7c407f>": # @"recoding::engine::recode_faults::<#e857034c7a7c407f>"
	.cfi_startproc
# %bb.0:                                # %start
	pushq	%rbp
	.cfi_def_cfa_offset 16
	pushq	%r15
	.cfi_def_cfa_offset 24
	pushq	%r14
	.cfi_def_cfa_offset 32
	pushq	%r13
	.cfi_def_cfa_offset 40
	pushq	%r12
	.cfi_def_cfa_offset 48
	pushq	%rbx
	.cfi_def_cfa_offset 56
	.cfi_offset %rbx, -56
	.cfi_offset %r12, -48
	.cfi_offset %r13, -40
	.cfi_offset %r14, -32
	.cfi_offset %r15, -24
	.cfi_offset %rbp, -16
	cmpb	$2, (%rsi)
	sete	%r9b
	cmpq	$0, 16(%rsi)
	sete	%r12b
	andb	%r9b, %r12b
	movl	$16, %r9d
	xorl	%r11d, %r11d
	xorl	%r13d, %r13d
	jmp	.LBB58_1
	.p2align	4
.LBB58_13:                              # %"recoding::text::Utf8Text::put_any::<#345d457c2768aa28>.exit"
                                        #   in Loop: Header=BB58_1 Depth=1
	incq	%r13
.LBB58_14:                              # %join.12
                                        #   in Loop: Header=BB58_1 Depth=1
	movl	$2, %r11d
	addq	%r10, %r11
	cmpq	%r9, %r11
	jae	.LBB58_16
.LBB58_1:                               # %join.5
                                        # =>This Inner Loop Header: Depth=1
	movq	%r11, %r10
	leaq	4(%r11), %rbx
	cmpq	%rcx, %rbx
	jbe	.LBB58_2
# %bb.6:                                # %join.3.i74
                                        #   in Loop: Header=BB58_1 Depth=1
	movq	%rcx, %r14
	subq	%r10, %r14
	cmpq	$2, %r14
	jb	.LBB58_10
# %bb.7:                                # %join.3.i.i
                                        #   in Loop: Header=BB58_1 Depth=1
	movzbl	(%rdx,%r10), %r11d
	shll	$8, %r11d
	movl	%r11d, %ebp
	andl	$64512, %ebp                    # imm = 0xFC00
	cmpl	$56320, %ebp                    # imm = 0xDC00
	je	.LBB58_11
# %bb.8:                                # %join.3.i.i
                                        #   in Loop: Header=BB58_1 Depth=1
	movzbl	1(%rdx,%r10), %r15d
	orl	%r15d, %r11d
	cmpl	$55296, %ebp                    # imm = 0xD800
	jne	.LBB58_18
# %bb.9:                                # %join.6.i.i
                                        #   in Loop: Header=BB58_1 Depth=1
	cmpq	$4, %r14
	jae	.LBB58_4
	jmp	.LBB58_10
	.p2align	4
.LBB58_2:                               # %then.1.i68
                                        #   in Loop: Header=BB58_1 Depth=1
	movzbl	(%rdx,%r10), %r11d
	shll	$8, %r11d
	movl	%r11d, %ebp
	andl	$64512, %ebp                    # imm = 0xFC00
	cmpl	$56320, %ebp                    # imm = 0xDC00
	je	.LBB58_11
# %bb.3:                                # %then.1.i68
                                        #   in Loop: Header=BB58_1 Depth=1
	movzbl	1(%rdx,%r10), %r14d
	orl	%r14d, %r11d
	cmpl	$55296, %ebp                    # imm = 0xD800
	jne	.LBB58_18
.LBB58_4:                               # %join.15.i74.i205.i
                                        #   in Loop: Header=BB58_1 Depth=1
	movzbl	2(%rdx,%r10), %r14d
	movl	%r14d, %ebp
	andl	$-4, %ebp
	cmpl	$220, %ebp
	jne	.LBB58_11
# %bb.5:                                # %arm.14.i200.i
                                        #   in Loop: Header=BB58_1 Depth=1
	movzbl	3(%rdx,%r10), %ebx
	andl	$1023, %r11d                    # imm = 0x3FF
	shll	$10, %r11d
	andl	$3, %r14d
	shll	$8, %r14d
	orl	%ebx, %r14d
	addl	%r14d, %r11d
	addl	$65536, %r11d                   # imm = 0x10000
	movl	%r11d, %ebp
	shrl	$6, %ebp
	movl	%r11d, %r14d
	shrl	$18, %r14d
	movl	%r11d, %ebx
	shrl	$4, %ebx
	andl	$16128, %ebx                    # imm = 0x3F00
	orl	$32768, %ebx                    # imm = 0x8000
	orb	$-16, %r14b
	andb	$63, %bpl
	orb	$-128, %bpl
	andb	$63, %r11b
	orb	$-128, %r11b
	movq	(%r8), %r15
	movq	8(%r8), %rax
	movb	%r14b, (%r15,%rax)
	movq	(%r8), %rsi
	movb	%bh, 1(%rsi,%rax)
	movq	(%r8), %rsi
	movb	%bpl, 2(%rsi,%rax)
	movq	(%r8), %rsi
	movb	%r11b, 3(%rsi,%rax)
	addq	$4, %rax
	movq	%rax, 8(%r8)
	movl	$4, %r11d
	addq	%r10, %r11
	cmpq	%r9, %r11
	jb	.LBB58_1
	jmp	.LBB58_16
	.p2align	4
.LBB58_11:                              # %arm.11
                                        #   in Loop: Header=BB58_1 Depth=1
	cmpq	$32, %rbx
	movl	$32, %r9d
	cmovbq	%rbx, %r9
	testb	%r12b, %r12b
	jne	.LBB58_13
# %bb.12:                               # %then.7.i.i.i
                                        #   in Loop: Header=BB58_1 Depth=1
	movq	(%r8), %rax
	movq	8(%r8), %rsi
	movb	$-17, (%rax,%rsi)
	movq	(%r8), %rax
	movb	$-65, 1(%rax,%rsi)
	movq	(%r8), %rax
	movb	$-67, 2(%rax,%rsi)
	addq	$3, %rsi
	movq	%rsi, 8(%r8)
	jmp	.LBB58_13
	.p2align	4
.LBB58_18:                              # %arm.10
                                        #   in Loop: Header=BB58_1 Depth=1
	movzwl	%r11w, %ebp
	cmpl	$128, %ebp
	jae	.LBB58_19
# %bb.23:                               # %then.1.i
                                        #   in Loop: Header=BB58_1 Depth=1
	movq	(%r8), %rbx
	movq	8(%r8), %r14
	movb	%r11b, (%rbx,%r14)
	incq	%r14
	movq	%r14, 8(%r8)
	jmp	.LBB58_14
.LBB58_19:                              # %join.3.i
                                        #   in Loop: Header=BB58_1 Depth=1
	movl	%ebp, %r11d
	andl	$63, %r11d
	orl	$128, %r11d
	movl	%ebp, %ebx
	shrl	$6, %ebx
	cmpl	$2048, %ebp                     # imm = 0x800
	jae	.LBB58_22
# %bb.20:                               # %then.4.i
                                        #   in Loop: Header=BB58_1 Depth=1
	orb	$-64, %bl
	movq	(%r8), %r14
	movq	8(%r8), %r15
	movb	%bl, (%r14,%r15)
	movq	(%r8), %rbx
	movb	%r11b, 1(%rbx,%r15)
	addq	$2, %r15
	movq	%r15, 8(%r8)
	jmp	.LBB58_14
.LBB58_22:                              # %then.7.i
                                        #   in Loop: Header=BB58_1 Depth=1
	shrl	$12, %ebp
	orb	$-32, %bpl
	andb	$63, %bl
	orb	$-128, %bl
	movq	(%r8), %r14
	movq	8(%r8), %r15
	movb	%bpl, (%r14,%r15)
	movq	(%r8), %r14
	movb	%bl, 1(%r14,%r15)
	movq	(%r8), %rbx
	movb	%r11b, 2(%rbx,%r15)
	addq	$3, %r15
	movq	%r15, 8(%r8)
	jmp	.LBB58_14
.LBB58_16:                              # %after.1
	movq	%r11, (%rdi)
	movq	%r13, 8(%rdi)
	movq	$0, 16(%rdi)
	jmp	.LBB58_17
.LBB58_10:                              # %arm.7
	movq	%r10, (%rdi)
	movq	%r13, 8(%rdi)
	movw	$256, 16(%rdi)                  # imm = 0x100
	movl	$0, 18(%rdi)
	movw	$0, 22(%rdi)
.LBB58_17:                              # %after.1
	popq	%rbx
	.cfi_def_cfa_offset 48
	popq	%r12
	.cfi_def_cfa_offset 40
	popq	%r13
	.cfi_def_cfa_offset 32
	popq	%r14
	.cfi_def_cfa_offset 24
	popq	%r15
	.cfi_def_cfa_offset 16
	popq	%rbp
	.cfi_def_cfa_offset 8
	retq
.Lfunc_end58:
	.size	"recoding::engine::recode_faults::<#e857034c7a7c407f>", .Lfunc_end58-"recoding::engine::recode_faults::<#e857034c7a7c407f>"
	.cfi_endproc
                                        # -- End function
	.section	".text.recoding::recoder_runs::run_whole::<#e742a82e1969306f>","ax",@progbits
	.p2align	4                               # -- Begin function recoding::recoder_runs::run_whole::<#e742a82e1969306f>
	.type	"recoding::recoder_runs::run_whole::<#e742a82e1969306f>",@function
"recoding::recoder_runs::run_whole::<#e742a82e1969306f>": # @"recoding::recoder_runs::run_whole::<#e742a82e1969306f>"
	.cfi_startproc
# %bb.0:                                # %start
	pushq	%r15
	.cfi_def_cfa_offset 16
	pushq	%r14
	.cfi_def_cfa_offset 24
	pushq	%r13
	.cfi_def_cfa_offset 32
	pushq	%r12
	.cfi_def_cfa_offset 40
	pushq	%rbx
	.cfi_def_cfa_offset 48
	subq	$80, %rsp
	.cfi_def_cfa_offset 128
	.cfi_offset %rbx, -48
	.cfi_offset %r12, -40
	.cfi_offset %r13, -32
	.cfi_offset %r14, -24
	.cfi_offset %r15, -16
	movq	%rdx, %r12
	movq	%rsi, %r15
	movq	%rdi, %r13
	xorl	%ebx, %ebx
	xorl	%r14d, %r14d
	jmp	.LBB59_2
.LBB59_1:                               # %"recoding::kernels::put_damaged_units::<#25a6102eeaa0b05f>.exit"
                                        #   in Loop: Header=BB59_2 Depth=1
	leaq	(%r14,%r13), %rdi
	movq	%r12, %rdx
	callq	"recoding::kernels::put_windows::<#25a6102eeaa0b05f>"
	addq	%rax, %r14
	addq	%rdx, %rbx
	testq	%rax, %rax
	je	.LBB59_6
	.p2align	4
.LBB59_2:                               # %loop.2.i
                                        # =>This Loop Header: Depth=1
                                        #     Child Loop BB59_11 Depth 2
	movq	%r15, %rsi
	subq	%r14, %rsi
	cmpq	$16, %rsi
	jb	.LBB59_4
# %bb.3:                                # %"recoding::kernels::TurnedKernelUtf16Utf16::put_text::<#bdf9a2505b291bb3>.exit"
                                        #   in Loop: Header=BB59_2 Depth=1
	leaq	(%r14,%r13), %rdi
	movq	%r12, %rdx
	callq	"recoding::turned::copy_units::<#7337b1eebc07c9e6>"
	addq	%rax, %r14
	cmpq	$8187, %rax                     # imm = 0x1FFB
	ja	.LBB59_2
.LBB59_4:                               # %join.5.i
                                        #   in Loop: Header=BB59_2 Depth=1
	movq	%r15, %rsi
	subq	%r14, %rsi
	je	.LBB59_21
# %bb.5:                                # %join.8.i
                                        #   in Loop: Header=BB59_2 Depth=1
	cmpq	$64, %rsi
	jae	.LBB59_1
	jmp	.LBB59_7
.LBB59_6:                               # %"recoding::kernels::put_damaged_units::<#25a6102eeaa0b05f>.exit.join.14.i_crit_edge"
                                        #   in Loop: Header=BB59_2 Depth=1
	movq	%r15, %rsi
	subq	%r14, %rsi
.LBB59_7:                               # %join.14.i
                                        #   in Loop: Header=BB59_2 Depth=1
	cmpq	$128, %rsi
	movl	$128, %ecx
	cmovbq	%rsi, %rcx
	cmpq	$2, %rsi
	jb	.LBB59_17
# %bb.8:                                # %join.5.i39.preheader
                                        #   in Loop: Header=BB59_2 Depth=1
	leaq	(%r14,%r13), %rdx
	xorl	%eax, %eax
	movq	%rcx, %r8
	jmp	.LBB59_11
	.p2align	4
.LBB59_9:                               # %arm.7.i
                                        #   in Loop: Header=BB59_11 Depth=2
	movzbl	3(%rdx,%rax), %r10d
	andb	$3, %sil
	orb	$-40, %sil
	movq	(%r12), %r11
	movq	8(%r12), %r8
	movb	%dil, (%r11,%r8)
	movq	(%r12), %rdi
	movb	%sil, 1(%rdi,%r8)
	movq	(%r12), %rsi
	movb	%r10b, 2(%rsi,%r8)
	movq	(%r12), %rsi
	movb	%r9b, 3(%rsi,%r8)
	addq	$4, %r8
	movl	$4, %esi
.LBB59_10:                              # %"recoding::text::Utf16Text::put_code::<#ec2bf5654938c731>.exit.i"
                                        #   in Loop: Header=BB59_11 Depth=2
	movq	%r8, 8(%r12)
	addq	%rsi, %rax
	movq	%rcx, %r8
	subq	%rax, %r8
	cmpq	$1, %r8
	jbe	.LBB59_16
.LBB59_11:                              # %join.5.i39
                                        #   Parent Loop BB59_2 Depth=1
                                        # =>  This Inner Loop Header: Depth=2
	movzbl	(%rdx,%rax), %esi
	movzbl	1(%rdx,%rax), %edi
	movl	%esi, %r9d
	shll	$8, %r9d
	andl	$64512, %r9d                    # imm = 0xFC00
	cmpl	$55296, %r9d                    # imm = 0xD800
	je	.LBB59_14
# %bb.12:                               # %join.5.i39
                                        #   in Loop: Header=BB59_11 Depth=2
	cmpl	$56320, %r9d                    # imm = 0xDC00
	je	.LBB59_16
# %bb.13:                               # %arm.7.i.thread
                                        #   in Loop: Header=BB59_11 Depth=2
	movq	(%r12), %r9
	movq	8(%r12), %r8
	movb	%dil, (%r9,%r8)
	movq	(%r12), %rdi
	movb	%sil, 1(%rdi,%r8)
	addq	$2, %r8
	movl	$2, %esi
	jmp	.LBB59_10
	.p2align	4
.LBB59_14:                              # %join.6.i.i
                                        #   in Loop: Header=BB59_11 Depth=2
	cmpq	$4, %r8
	jb	.LBB59_16
# %bb.15:                               # %join.15.i65.i.i
                                        #   in Loop: Header=BB59_11 Depth=2
	movzbl	2(%rdx,%rax), %r9d
	movl	%r9d, %r8d
	andb	$-4, %r8b
	cmpb	$-36, %r8b
	je	.LBB59_9
.LBB59_16:                              # %"recoding::engine::recode_text::<#6c1029a9c4924fe6>.exit"
                                        #   in Loop: Header=BB59_2 Depth=1
	addq	%rax, %r14
	cmpq	$124, %rax
	ja	.LBB59_2
.LBB59_17:                              # %then.15.i
                                        #   in Loop: Header=BB59_2 Depth=1
	movq	%r15, %rcx
	subq	%r14, %rcx
	je	.LBB59_21
# %bb.18:                               # %join.20.i
                                        #   in Loop: Header=BB59_2 Depth=1
	leaq	(%r14,%r13), %rdx
	xorps	%xmm0, %xmm0
	movaps	%xmm0, (%rsp)
	movq	$0, 16(%rsp)
	movaps	%xmm0, 32(%rsp)
	movaps	%xmm0, 48(%rsp)
	movq	$0, 64(%rsp)
	movq	%rsp, %rdi
	leaq	32(%rsp), %rsi
	movq	%r12, %r8
	callq	"recoding::engine::recode_faults::<#dcf09f3d7e931f6a>"
	addq	(%rsp), %r14
	addq	8(%rsp), %rbx
	testb	$1, 16(%rsp)
	jne	.LBB59_22
# %bb.19:                               # %join.20.i
                                        #   in Loop: Header=BB59_2 Depth=1
	testb	$1, 17(%rsp)
	je	.LBB59_2
	jmp	.LBB59_22
.LBB59_21:
	movq	%r15, %r14
.LBB59_22:                              # %"recoding::engine::run::<#f92d4f60eb9211f4>.exit"
	movq	%r14, %rax
	movq	%rbx, %rdx
	addq	$80, %rsp
	.cfi_def_cfa_offset 48
	popq	%rbx
	.cfi_def_cfa_offset 40
	popq	%r12
	.cfi_def_cfa_offset 32
	popq	%r13
	.cfi_def_cfa_offset 24
	popq	%r14
	.cfi_def_cfa_offset 16
	popq	%r15
	.cfi_def_cfa_offset 8
	retq
.Lfunc_end59:
	.size	"recoding::recoder_runs::run_whole::<#e742a82e1969306f>", .Lfunc_end59-"recoding::recoder_runs::run_whole::<#e742a82e1969306f>"
	.cfi_endproc
                                        # -- End function
	.section	.rodata.cst16,"aM",@progbits,16
	.p2align	4, 0x0                          # -- Begin function recoding::turned::copy_units::<#7337b1eebc07c9e6>
.LCPI60_0:
	.byte	252                             # 0xfc
	.byte	0                               # 0x0
	.byte	252                             # 0xfc
	.byte	0                               # 0x0
	.byte	252                             # 0xfc
	.byte	0                               # 0x0
	.byte	252                             # 0xfc
	.byte	0                               # 0x0
	.byte	252                             # 0xfc
	.byte	0                               # 0x0
	.byte	252                             # 0xfc
	.byte	0                               # 0x0
	.byte	252                             # 0xfc
	.byte	0                               # 0x0
	.byte	252                             # 0xfc
	.byte	0                               # 0x0
.LCPI60_1:
	.zero	16,220
.LCPI60_2:
	.zero	16,216
.LCPI60_3:
	.byte	1                               # 0x1
	.byte	0                               # 0x0
	.byte	3                               # 0x3
	.byte	2                               # 0x2
	.byte	5                               # 0x5
	.byte	4                               # 0x4
	.byte	7                               # 0x7
	.byte	6                               # 0x6
	.byte	9                               # 0x9
	.byte	8                               # 0x8
	.byte	11                              # 0xb
	.byte	10                              # 0xa
	.byte	13                              # 0xd
	.byte	12                              # 0xc
	.byte	15                              # 0xf
	.byte	14                              # 0xe
	.section	".text.recoding::turned::copy_units::<#7337b1eebc07c9e6>","ax",@progbits
	.p2align	4
	.type	"recoding::turned::copy_units::<#7337b1eebc07c9e6>",@function
"recoding::turned::copy_units::<#7337b1eebc07c9e6>": # @"recoding::turned::copy_units::<#7337b1eebc07c9e6>"
	.cfi_startproc
# %bb.0:                                # %start
	pushq	%rbp
	.cfi_def_cfa_offset 16
	pushq	%r15
	.cfi_def_cfa_offset 24
	pushq	%r14
	.cfi_def_cfa_offset 32
	pushq	%r13
	.cfi_def_cfa_offset 40
	pushq	%r12
	.cfi_def_cfa_offset 48
	pushq	%rbx
	.cfi_def_cfa_offset 56
	subq	$120, %rsp
	.cfi_def_cfa_offset 176
	.cfi_offset %rbx, -56
	.cfi_offset %r12, -48
	.cfi_offset %r13, -40
	.cfi_offset %r14, -32
	.cfi_offset %r15, -24
	.cfi_offset %rbp, -16
	movq	%rdx, %rbx
	movq	%rdi, %r15
	movw	$0, 64(%rsp)
	movdqu	(%rdi), %xmm1
	movdqu	%xmm1, 66(%rsp)
	movdqa	.LCPI60_0(%rip), %xmm0          # xmm0 = [252,0,252,0,252,0,252,0,252,0,252,0,252,0,252,0]
	pand	%xmm0, %xmm1
	pcmpeqb	.LCPI60_1(%rip), %xmm1
	movdqa	64(%rsp), %xmm2
	pand	%xmm0, %xmm2
	pcmpeqb	.LCPI60_2(%rip), %xmm2
	pxor	%xmm1, %xmm2
	pmovmskb	%xmm2, %eax
	testl	%eax, %eax
	je	.LBB60_3
# %bb.1:
	rep		bsfl	%eax, %r14d
	shrl	%r14d
	testq	%r14, %r14
	jne	.LBB60_13
	jmp	.LBB60_2
.LBB60_3:                               # %loop.2.i.preheader.i
	movl	$8, %r14d
	cmpq	$80, %rsi
	jb	.LBB60_8
# %bb.4:                                # %join.5.i.i.preheader
	leaq	-16(%rsi), %rax
	movl	$32, %r14d
	.p2align	4
.LBB60_5:                               # %join.5.i.i
                                        # =>This Inner Loop Header: Depth=1
	movdqu	-50(%r15,%r14,2), %xmm4
	movdqu	-48(%r15,%r14,2), %xmm5
	movdqu	-34(%r15,%r14,2), %xmm1
	movdqu	-32(%r15,%r14,2), %xmm6
	pand	%xmm0, %xmm5
	movdqa	.LCPI60_1(%rip), %xmm2          # xmm2 = [220,220,220,220,220,220,220,220,220,220,220,220,220,220,220,220]
	pcmpeqb	%xmm2, %xmm5
	pand	%xmm0, %xmm4
	movdqa	.LCPI60_2(%rip), %xmm3          # xmm3 = [216,216,216,216,216,216,216,216,216,216,216,216,216,216,216,216]
	pcmpeqb	%xmm3, %xmm4
	pxor	%xmm5, %xmm4
	pand	%xmm0, %xmm6
	pcmpeqb	%xmm2, %xmm6
	pand	%xmm0, %xmm1
	pcmpeqb	%xmm3, %xmm1
	pxor	%xmm6, %xmm1
	por	%xmm4, %xmm1
	movdqu	-16(%r15,%r14,2), %xmm4
	movdqu	-18(%r15,%r14,2), %xmm5
	pand	%xmm0, %xmm4
	pcmpeqb	%xmm2, %xmm4
	pand	%xmm0, %xmm5
	pcmpeqb	%xmm3, %xmm5
	pxor	%xmm4, %xmm5
	movdqu	(%r15,%r14,2), %xmm4
	movdqu	-2(%r15,%r14,2), %xmm6
	pand	%xmm0, %xmm4
	pcmpeqb	%xmm2, %xmm4
	pand	%xmm0, %xmm6
	pcmpeqb	%xmm3, %xmm6
	pxor	%xmm4, %xmm6
	por	%xmm5, %xmm6
	por	%xmm1, %xmm6
	pmovmskb	%xmm6, %ecx
	testl	%ecx, %ecx
	jne	.LBB60_7
# %bb.6:                                # %join.8.i.i
                                        #   in Loop: Header=BB60_5 Depth=1
	addq	$32, %r14
	addq	$-64, %rax
	cmpq	$63, %rax
	ja	.LBB60_5
.LBB60_7:                               # %"join.5.i.i.utf_lanes::unit_blocks::paired_wide::<#22d4087b0bf99cde>.exit.i.loopexit_crit_edge"
	addq	$-24, %r14
.LBB60_8:                               # %"utf_lanes::unit_blocks::paired_wide::<#22d4087b0bf99cde>.exit.i"
	shrq	%rsi
	cmpq	%rsi, %r14
	jae	.LBB60_13
# %bb.9:                                # %join.5.i51.lr.ph.i
	leaq	-8(%rsi), %rax
	.p2align	4
.LBB60_10:                              # %join.5.i51.i
                                        # =>This Inner Loop Header: Depth=1
	cmpq	%r14, %rax
	cmovbq	%rax, %r14
	movdqu	-2(%r15,%r14,2), %xmm1
	movdqu	(%r15,%r14,2), %xmm2
	pand	%xmm0, %xmm2
	pcmpeqb	.LCPI60_1(%rip), %xmm2
	pand	%xmm0, %xmm1
	pcmpeqb	.LCPI60_2(%rip), %xmm1
	pxor	%xmm2, %xmm1
	pmovmskb	%xmm1, %ecx
	rep		bsfl	%ecx, %edx
	shrl	%edx
	testl	%ecx, %ecx
	movl	$8, %ecx
	cmovnel	%edx, %ecx
	cmpw	$7, %cx
	jbe	.LBB60_12
# %bb.11:                               # %join.8.i75.i
                                        #   in Loop: Header=BB60_10 Depth=1
	addq	$8, %r14
	cmpq	%rsi, %r14
	jb	.LBB60_10
	jmp	.LBB60_13
.LBB60_12:                              # %then.6.i.i
	movzwl	%cx, %eax
	addq	%rax, %r14
	testq	%r14, %r14
	je	.LBB60_2
.LBB60_13:                              # %"utf_lanes::unit_blocks::units_len::<#22d4087b0bf99cde>.exit"
	movzbl	-2(%r15,%r14,2), %eax
	andb	$-4, %al
	xorl	%ecx, %ecx
	cmpb	$-40, %al
	sete	%cl
	subq	%rcx, %r14
	addq	%r14, %r14
	je	.LBB60_2
# %bb.14:                               # %join.3
	cmpq	$16, %r14
	jae	.LBB60_21
# %bb.15:                               # %loop.2.i.preheader
	movq	8(%rbx), %rax
	movq	%r14, %rdx
	addq	$-2, %rdx
	je	.LBB60_39
# %bb.16:                               # %loop.2.i.preheader.new
	shrq	%rdx
	incq	%rdx
	movq	%rdx, %rsi
	andq	$-2, %rsi
	xorl	%ecx, %ecx
	.p2align	4
.LBB60_17:                              # %join.5.i
                                        # =>This Inner Loop Header: Depth=1
	movzbl	(%r15,%rcx), %edi
	movzbl	1(%r15,%rcx), %r8d
	movq	(%rbx), %r9
	leaq	(%rax,%rcx), %r10
	movb	%r8b, (%r9,%r10)
	movq	(%rbx), %r8
	movb	%dil, 1(%r8,%r10)
	leaq	2(%rax,%rcx), %rdi
	movq	%rdi, 8(%rbx)
	movzbl	2(%r15,%rcx), %edi
	movzbl	3(%r15,%rcx), %r8d
	movq	(%rbx), %r9
	movb	%r8b, 2(%r9,%r10)
	movq	(%rbx), %r8
	movb	%dil, 3(%r8,%r10)
	leaq	(%rax,%rcx), %rdi
	addq	$4, %rdi
	movq	%rdi, 8(%rbx)
	addq	$4, %rcx
	addq	$-2, %rsi
	jne	.LBB60_17
# %bb.18:                               # %common.ret.loopexit.unr-lcssa
	testb	$1, %dl
	je	.LBB60_41
# %bb.19:
	addq	%rcx, %rax
	jmp	.LBB60_40
.LBB60_2:
	xorl	%r14d, %r14d
	jmp	.LBB60_41
.LBB60_21:                              # %loop.2.i5.preheader
	movq	%r15, %r13
	movq	%r14, %r12
	cmpq	$64, %r14
	jb	.LBB60_34
# %bb.22:                               # %join.5.i9.lr.ph
	leaq	8(%rbx), %rbp
	movq	%r14, %r12
	movq	%r15, %r13
	.p2align	4
.LBB60_23:                              # %join.5.i9
                                        # =>This Inner Loop Header: Depth=1
	movdqu	(%r13), %xmm0
	movdqu	16(%r13), %xmm1
	movdqu	32(%r13), %xmm2
	movdqu	48(%r13), %xmm3
	movdqa	.LCPI60_3(%rip), %xmm4          # xmm4 = [1,0,3,2,5,4,7,6,9,8,11,10,13,12,15,14]
	pshufb	%xmm4, %xmm0
	movdqa	%xmm0, (%rsp)
	pshufb	%xmm4, %xmm1
	movdqa	%xmm1, 16(%rsp)
	pshufb	%xmm4, %xmm2
	movdqa	%xmm2, 32(%rsp)
	pshufb	%xmm4, %xmm3
	movdqa	%xmm3, 48(%rsp)
	movq	8(%rbx), %rax
	movq	16(%rbx), %rcx
	movq	%rcx, %rdx
	subq	%rax, %rdx
	cmpq	$63, %rdx
	jbe	.LBB60_29
.LBB60_24:                              # %join.3.i76
                                        #   in Loop: Header=BB60_23 Depth=1
	movq	(%rbx), %rdx
	pxor	%xmm0, %xmm0
	movdqu	%xmm0, (%rbp)
	leaq	(%rdx,%rax), %rsi
	movq	%rsp, %rdi
	movq	%rsi, %r8
	subq	%rdi, %r8
	cmpq	$63, %r8
	ja	.LBB60_26
# %bb.25:                               # %join.7.i.i.i.preheader
                                        #   in Loop: Header=BB60_23 Depth=1
	movzbl	(%rsp), %edi
	movb	%dil, (%rsi)
	movzbl	1(%rsp), %edi
	movb	%dil, 1(%rsi)
	movzbl	2(%rsp), %edi
	movb	%dil, 2(%rsi)
	movzbl	3(%rsp), %edi
	movb	%dil, 3(%rsi)
	movzbl	4(%rsp), %edi
	movb	%dil, 4(%rsi)
	movzbl	5(%rsp), %edi
	movb	%dil, 5(%rsi)
	movzbl	6(%rsp), %edi
	movb	%dil, 6(%rsi)
	movzbl	7(%rsp), %edi
	movb	%dil, 7(%rsi)
	movzbl	8(%rsp), %edi
	movb	%dil, 8(%rsi)
	movzbl	9(%rsp), %edi
	movb	%dil, 9(%rsi)
	movzbl	10(%rsp), %edi
	movb	%dil, 10(%rsi)
	movzbl	11(%rsp), %edi
	movb	%dil, 11(%rsi)
	movzbl	12(%rsp), %edi
	movb	%dil, 12(%rsi)
	movzbl	13(%rsp), %edi
	movb	%dil, 13(%rsi)
	movzbl	14(%rsp), %edi
	movb	%dil, 14(%rsi)
	movzbl	15(%rsp), %edi
	movb	%dil, 15(%rsi)
	movzbl	16(%rsp), %edi
	movb	%dil, 16(%rsi)
	movzbl	17(%rsp), %edi
	movb	%dil, 17(%rsi)
	movzbl	18(%rsp), %edi
	movb	%dil, 18(%rsi)
	movzbl	19(%rsp), %edi
	movb	%dil, 19(%rsi)
	movzbl	20(%rsp), %edi
	movb	%dil, 20(%rsi)
	movzbl	21(%rsp), %edi
	movb	%dil, 21(%rsi)
	movzbl	22(%rsp), %edi
	movb	%dil, 22(%rsi)
	movzbl	23(%rsp), %edi
	movb	%dil, 23(%rsi)
	movzbl	24(%rsp), %edi
	movb	%dil, 24(%rsi)
	movzbl	25(%rsp), %edi
	movb	%dil, 25(%rsi)
	movzbl	26(%rsp), %edi
	movb	%dil, 26(%rsi)
	movzbl	27(%rsp), %edi
	movb	%dil, 27(%rsi)
	movzbl	28(%rsp), %edi
	movb	%dil, 28(%rsi)
	movzbl	29(%rsp), %edi
	movb	%dil, 29(%rsi)
	movzbl	30(%rsp), %edi
	movb	%dil, 30(%rsi)
	movzbl	31(%rsp), %edi
	movb	%dil, 31(%rsi)
	movzbl	32(%rsp), %edi
	movb	%dil, 32(%rsi)
	movzbl	33(%rsp), %edi
	movb	%dil, 33(%rsi)
	movzbl	34(%rsp), %edi
	movb	%dil, 34(%rsi)
	movzbl	35(%rsp), %edi
	movb	%dil, 35(%rsi)
	movzbl	36(%rsp), %edi
	movb	%dil, 36(%rsi)
	movzbl	37(%rsp), %edi
	movb	%dil, 37(%rsi)
	movzbl	38(%rsp), %edi
	movb	%dil, 38(%rsi)
	movzbl	39(%rsp), %edi
	movb	%dil, 39(%rsi)
	movzbl	40(%rsp), %edi
	movb	%dil, 40(%rsi)
	movzbl	41(%rsp), %edi
	movb	%dil, 41(%rsi)
	movzbl	42(%rsp), %edi
	movb	%dil, 42(%rsi)
	movzbl	43(%rsp), %edi
	movb	%dil, 43(%rsi)
	movzbl	44(%rsp), %edi
	movb	%dil, 44(%rsi)
	movzbl	45(%rsp), %edi
	movb	%dil, 45(%rsi)
	movzbl	46(%rsp), %edi
	movb	%dil, 46(%rsi)
	movzbl	47(%rsp), %edi
	movb	%dil, 47(%rsi)
	movzbl	48(%rsp), %edi
	movb	%dil, 48(%rsi)
	movzbl	49(%rsp), %edi
	movb	%dil, 49(%rsi)
	movzbl	50(%rsp), %edi
	movb	%dil, 50(%rsi)
	movzbl	51(%rsp), %edi
	movb	%dil, 51(%rsi)
	movzbl	52(%rsp), %edi
	movb	%dil, 52(%rsi)
	movzbl	53(%rsp), %edi
	movb	%dil, 53(%rsi)
	movzbl	54(%rsp), %edi
	movb	%dil, 54(%rsi)
	movzbl	55(%rsp), %edi
	movb	%dil, 55(%rsi)
	movzbl	56(%rsp), %edi
	movb	%dil, 56(%rsi)
	movzbl	57(%rsp), %edi
	movb	%dil, 57(%rsi)
	movzbl	58(%rsp), %edi
	movb	%dil, 58(%rsi)
	movzbl	59(%rsp), %edi
	movb	%dil, 59(%rsi)
	movzbl	60(%rsp), %edi
	movb	%dil, 60(%rsi)
	movzbl	61(%rsp), %edi
	movb	%dil, 61(%rsi)
	movzbl	62(%rsp), %edi
	movb	%dil, 62(%rsi)
	movzbl	63(%rsp), %edi
	movb	%dil, 63(%rsi)
	jmp	.LBB60_27
	.p2align	4
.LBB60_26:                              # %apart.2.i.i.i
                                        #   in Loop: Header=BB60_23 Depth=1
	movdqa	(%rsp), %xmm0
	movdqa	16(%rsp), %xmm1
	movdqa	32(%rsp), %xmm2
	movdqa	48(%rsp), %xmm3
	movdqu	%xmm3, 48(%rsi)
	movdqu	%xmm2, 32(%rsi)
	movdqu	%xmm1, 16(%rsi)
	movdqu	%xmm0, (%rsi)
.LBB60_27:                              # %"core::slots::Slots::copy_in::<i8,20'core::clone::U8Clone{}>.exit.i"
                                        #   in Loop: Header=BB60_23 Depth=1
	addq	$64, %rax
	movq	%rdx, (%rbx)
	movq	%rax, 8(%rbx)
	movq	%rcx, 16(%rbx)
.LBB60_28:                              # %"std_alloc::vec::Vec::extend_from_slice::<#0cd040e5c49bc722>.exit"
                                        #   in Loop: Header=BB60_23 Depth=1
	addq	$64, %r13
	addq	$-64, %r12
	cmpq	$63, %r12
	ja	.LBB60_23
	jmp	.LBB60_31
.LBB60_29:                              # %"std_alloc::vec::Vec::grow::<#5fdc5e19576447a7>.exit.i"
                                        #   in Loop: Header=BB60_23 Depth=1
	movl	$64, %esi
	movq	%rbx, %rdi
	callq	"std_alloc::vec::Vec::grow_amortized::<#5fdc5e19576447a7>"
	testb	%al, %al
	je	.LBB60_28
# %bb.30:                               # %"std_alloc::vec::Vec::grow::<#5fdc5e19576447a7>.exit.join.3_crit_edge.i"
                                        #   in Loop: Header=BB60_23 Depth=1
	movq	8(%rbx), %rax
	movq	16(%rbx), %rcx
	jmp	.LBB60_24
.LBB60_31:                              # %"recoding::turned::put_blocks::<#d5cbf36e45a151c2>.exit"
	cmpq	$16, %r12
	jb	.LBB60_37
	jmp	.LBB60_34
.LBB60_32:                              # %"std_alloc::vec::Vec::grow::<#5fdc5e19576447a7>.exit.i106"
                                        #   in Loop: Header=BB60_34 Depth=1
	movdqa	%xmm0, 96(%rsp)                 # 16-byte Spill
	movl	$16, %esi
	movq	%rbx, %rdi
	callq	"std_alloc::vec::Vec::grow_amortized::<#5fdc5e19576447a7>"
	testb	%al, %al
	je	.LBB60_36
# %bb.33:                               # %"std_alloc::vec::Vec::grow::<#5fdc5e19576447a7>.exit.join.3_crit_edge.i108"
                                        #   in Loop: Header=BB60_34 Depth=1
	movq	8(%rbx), %rax
	movq	16(%rbx), %rcx
	movdqa	96(%rsp), %xmm0                 # 16-byte Reload
	jmp	.LBB60_35
	.p2align	4
.LBB60_34:                              # %join.5.i21
                                        # =>This Inner Loop Header: Depth=1
	movdqu	(%r13), %xmm0
	movq	8(%rbx), %rax
	movq	16(%rbx), %rcx
	movq	%rcx, %rdx
	subq	%rax, %rdx
	cmpq	$15, %rdx
	jbe	.LBB60_32
.LBB60_35:                              # %join.3.i86
                                        #   in Loop: Header=BB60_34 Depth=1
	pshufb	.LCPI60_3(%rip), %xmm0          # xmm0 = xmm0[1,0,3,2,5,4,7,6,9,8,11,10,13,12,15,14]
	movq	(%rbx), %rdx
	movdqu	%xmm0, (%rdx,%rax)
	addq	$16, %rax
	movq	%rdx, (%rbx)
	movq	%rax, 8(%rbx)
	movq	%rcx, 16(%rbx)
.LBB60_36:                              # %"std_alloc::vec::Vec::extend_from_slice::<#0cd040e5c49bc722>.exit111"
                                        #   in Loop: Header=BB60_34 Depth=1
	addq	$-16, %r12
	addq	$16, %r13
	cmpq	$15, %r12
	ja	.LBB60_34
.LBB60_37:                              # %"recoding::turned::put_blocks::<#efb3fef4d0ff1bf7>.exit"
	movdqu	-16(%r15,%r14), %xmm0
	pshufb	.LCPI60_3(%rip), %xmm0          # xmm0 = xmm0[1,0,3,2,5,4,7,6,9,8,11,10,13,12,15,14]
	movdqa	%xmm0, (%rsp)
	movq	8(%rbx), %r15
	movq	16(%rbx), %r13
	movq	%r13, %rax
	subq	%r15, %rax
	cmpq	%rax, %r12
	ja	.LBB60_42
.LBB60_38:                              # %join.3.i116
	movq	%rsp, %rsi
	subq	%r12, %rsi
	addq	$16, %rsi
	movq	(%rbx), %rbp
	leaq	(%r15,%rbp), %rdi
	addq	%r12, %r15
	movq	%r12, %rdx
	callq	memcpy@PLT
	movq	%rbp, (%rbx)
	movq	%r15, 8(%rbx)
	movq	%r13, 16(%rbx)
	jmp	.LBB60_41
.LBB60_39:
	xorl	%ecx, %ecx
.LBB60_40:                              # %join.5.i.epil.preheader
	movzbl	(%r15,%rcx), %edx
	movzbl	1(%r15,%rcx), %ecx
	movq	(%rbx), %rsi
	movb	%cl, (%rsi,%rax)
	movq	(%rbx), %rcx
	movb	%dl, 1(%rcx,%rax)
	addq	$2, %rax
	movq	%rax, 8(%rbx)
.LBB60_41:                              # %common.ret
	movq	%r14, %rax
	addq	$120, %rsp
	.cfi_def_cfa_offset 56
	popq	%rbx
	.cfi_def_cfa_offset 48
	popq	%r12
	.cfi_def_cfa_offset 40
	popq	%r13
	.cfi_def_cfa_offset 32
	popq	%r14
	.cfi_def_cfa_offset 24
	popq	%r15
	.cfi_def_cfa_offset 16
	popq	%rbp
	.cfi_def_cfa_offset 8
	retq
.LBB60_42:                              # %"std_alloc::vec::Vec::grow::<#5fdc5e19576447a7>.exit.i136"
	.cfi_def_cfa_offset 176
	movq	%rbx, %rdi
	movq	%r12, %rsi
	callq	"std_alloc::vec::Vec::grow_amortized::<#5fdc5e19576447a7>"
	testb	%al, %al
	je	.LBB60_41
# %bb.43:                               # %"std_alloc::vec::Vec::grow::<#5fdc5e19576447a7>.exit.join.3_crit_edge.i138"
	movq	8(%rbx), %r15
	movq	16(%rbx), %r13
	jmp	.LBB60_38
.Lfunc_end60:
	.size	"recoding::turned::copy_units::<#7337b1eebc07c9e6>", .Lfunc_end60-"recoding::turned::copy_units::<#7337b1eebc07c9e6>"
	.cfi_endproc
                                        # -- End function
	.section	.rodata.cst16,"aM",@progbits,16
	.p2align	4, 0x0                          # -- Begin function recoding::kernels::put_windows::<#25a6102eeaa0b05f>
.LCPI61_0:
	.short	255                             # 0xff
	.short	255                             # 0xff
	.short	255                             # 0xff
	.short	255                             # 0xff
	.short	255                             # 0xff
	.short	255                             # 0xff
	.short	255                             # 0xff
	.short	255                             # 0xff
.LCPI61_1:
	.byte	1                               # 0x1
	.byte	3                               # 0x3
	.byte	5                               # 0x5
	.byte	7                               # 0x7
	.byte	9                               # 0x9
	.byte	11                              # 0xb
	.byte	13                              # 0xd
	.byte	15                              # 0xf
	.zero	1
	.zero	1
	.zero	1
	.zero	1
	.zero	1
	.zero	1
	.zero	1
	.zero	1
.LCPI61_2:
	.zero	16,63
.LCPI61_3:
	.zero	16,54
.LCPI61_4:
	.byte	255                             # 0xff
	.byte	255                             # 0xff
	.byte	255                             # 0xff
	.byte	255                             # 0xff
	.byte	255                             # 0xff
	.byte	255                             # 0xff
	.byte	255                             # 0xff
	.byte	255                             # 0xff
	.byte	255                             # 0xff
	.byte	255                             # 0xff
	.byte	255                             # 0xff
	.byte	255                             # 0xff
	.byte	255                             # 0xff
	.byte	255                             # 0xff
	.byte	255                             # 0xff
	.byte	0                               # 0x0
.LCPI61_5:
	.zero	16,55
.LCPI61_6:
	.zero	16,253
.LCPI61_7:
	.zero	16,252
.LCPI61_8:
	.zero	16,216
.LCPI61_9:
	.byte	1                               # 0x1
	.byte	3                               # 0x3
	.byte	5                               # 0x5
	.byte	7                               # 0x7
	.byte	9                               # 0x9
	.byte	11                              # 0xb
	.byte	13                              # 0xd
	.byte	15                              # 0xf
	.byte	0                               # 0x0
	.byte	0                               # 0x0
	.byte	0                               # 0x0
	.byte	0                               # 0x0
	.byte	0                               # 0x0
	.byte	0                               # 0x0
	.byte	0                               # 0x0
	.byte	0                               # 0x0
	.section	".text.recoding::kernels::put_windows::<#25a6102eeaa0b05f>","ax",@progbits
	.p2align	4
	.type	"recoding::kernels::put_windows::<#25a6102eeaa0b05f>",@function
"recoding::kernels::put_windows::<#25a6102eeaa0b05f>": # @"recoding::kernels::put_windows::<#25a6102eeaa0b05f>"
	.cfi_startproc
# %bb.0:                                # %start
	pushq	%rbp
	.cfi_def_cfa_offset 16
	pushq	%r15
	.cfi_def_cfa_offset 24
	pushq	%r14
	.cfi_def_cfa_offset 32
	pushq	%r13
	.cfi_def_cfa_offset 40
	pushq	%r12
	.cfi_def_cfa_offset 48
	pushq	%rbx
	.cfi_def_cfa_offset 56
	subq	$120, %rsp
	.cfi_def_cfa_offset 176
	.cfi_offset %rbx, -56
	.cfi_offset %r12, -48
	.cfi_offset %r13, -40
	.cfi_offset %r14, -32
	.cfi_offset %r15, -24
	.cfi_offset %rbp, -16
	movq	%rdx, %r8
	movq	%rsi, 16(%rsp)                  # 8-byte Spill
	movq	%rdi, 24(%rsp)                  # 8-byte Spill
	xorl	%ebx, %ebx
	xorl	%edx, %edx
	xorl	%r12d, %r12d
	movq	%r8, 8(%rsp)                    # 8-byte Spill
	.p2align	4
.LBB61_1:                               # %then.6
                                        # =>This Inner Loop Header: Depth=1
	movq	8(%r8), %rax
	movq	16(%r8), %rsi
	movq	%rsi, %rcx
	subq	%rax, %rcx
	cmpq	$112, %rcx
	jb	.LBB61_11
# %bb.2:                                # %join.3.i
                                        #   in Loop: Header=BB61_1 Depth=1
	movq	%rdx, 40(%rsp)                  # 8-byte Spill
	movq	24(%rsp), %rcx                  # 8-byte Reload
	movdqu	(%rcx,%rbx), %xmm4
	movdqu	16(%rcx,%rbx), %xmm0
	movdqu	32(%rcx,%rbx), %xmm3
	movdqu	48(%rcx,%rbx), %xmm5
	movdqa	.LCPI61_0(%rip), %xmm1          # xmm1 = [255,255,255,255,255,255,255,255]
	movdqa	%xmm0, %xmm6
	pand	%xmm1, %xmm6
	movdqa	%xmm4, %xmm2
	pand	%xmm1, %xmm2
	packuswb	%xmm6, %xmm2
	movdqa	%xmm5, %xmm6
	pand	%xmm1, %xmm6
	pand	%xmm3, %xmm1
	packuswb	%xmm6, %xmm1
	movq	.LCPI61_9(%rip), %xmm6          # xmm6 = [1,3,5,7,9,11,13,15,0,0,0,0,0,0,0,0]
	pshufb	%xmm6, %xmm5
	pshufb	%xmm6, %xmm3
	punpcklqdq	%xmm5, %xmm3            # xmm3 = xmm3[0],xmm5[0]
	pshufb	%xmm6, %xmm0
	pshufb	%xmm6, %xmm4
	punpcklqdq	%xmm0, %xmm4            # xmm4 = xmm4[0],xmm0[0]
	movdqa	%xmm1, %xmm0
	psrlw	$2, %xmm0
	movdqa	.LCPI61_2(%rip), %xmm6          # xmm6 = [63,63,63,63,63,63,63,63,63,63,63,63,63,63,63,63]
	pand	%xmm6, %xmm0
	movdqa	%xmm2, %xmm5
	psrlw	$2, %xmm5
	pand	%xmm6, %xmm5
	movdqa	.LCPI61_3(%rip), %xmm9          # xmm9 = [54,54,54,54,54,54,54,54,54,54,54,54,54,54,54,54]
	movdqa	%xmm5, %xmm6
	pcmpeqb	%xmm9, %xmm6
	pcmpeqb	%xmm0, %xmm9
	movdqa	.LCPI61_4(%rip), %xmm7          # xmm7 = [255,255,255,255,255,255,255,255,255,255,255,255,255,255,255,0]
	pand	%xmm9, %xmm7
	movdqa	.LCPI61_5(%rip), %xmm8          # xmm8 = [55,55,55,55,55,55,55,55,55,55,55,55,55,55,55,55]
	pcmpeqb	%xmm8, %xmm0
	pcmpeqb	%xmm8, %xmm5
	palignr	$15, %xmm6, %xmm9               # xmm9 = xmm6[15],xmm9[0,1,2,3,4,5,6,7,8,9,10,11,12,13,14]
	movdqa	%xmm6, %xmm10
	pslldq	$1, %xmm10                      # xmm10 = zero,xmm10[0,1,2,3,4,5,6,7,8,9,10,11,12,13,14]
	pxor	%xmm5, %xmm10
	pxor	%xmm0, %xmm9
	movdqa	%xmm9, %xmm8
	palignr	$1, %xmm10, %xmm8               # xmm8 = xmm10[1,2,3,4,5,6,7,8,9,10,11,12,13,14,15],xmm8[0]
	pand	%xmm5, %xmm10
	palignr	$1, %xmm9, %xmm5                # xmm5 = xmm9[1,2,3,4,5,6,7,8,9,10,11,12,13,14,15],xmm5[0]
	pand	%xmm7, %xmm5
	pand	%xmm6, %xmm8
	pxor	%xmm7, %xmm7
	por	%xmm8, %xmm10
	pand	%xmm0, %xmm9
	por	%xmm5, %xmm9
	movdqa	.LCPI61_6(%rip), %xmm6          # xmm6 = [253,253,253,253,253,253,253,253,253,253,253,253,253,253,253,253]
	pcmpeqb	%xmm7, %xmm10
	movdqa	%xmm6, %xmm5
	movdqa	%xmm10, %xmm0
	pblendvb	%xmm0, %xmm4, %xmm5
	pcmpeqb	%xmm7, %xmm9
	movdqa	%xmm9, %xmm0
	pblendvb	%xmm0, %xmm3, %xmm6
	pcmpeqd	%xmm0, %xmm0
	movdqa	%xmm10, 80(%rsp)                # 16-byte Spill
	pxor	%xmm0, %xmm10
	por	%xmm2, %xmm10
	movdqa	%xmm9, 96(%rsp)                 # 16-byte Spill
	pxor	%xmm9, %xmm0
	por	%xmm1, %xmm0
	pand	.LCPI61_7(%rip), %xmm1
	pcmpeqb	.LCPI61_8(%rip), %xmm1
	pmovmskb	%xmm1, %ecx
	xorl	%r14d, %r14d
	testw	%cx, %cx
	setns	%r14b
	addl	%r14d, %r14d
	movdqa	%xmm6, %xmm1
	punpcklbw	%xmm0, %xmm1            # xmm1 = xmm1[0],xmm0[0],xmm1[1],xmm0[1],xmm1[2],xmm0[2],xmm1[3],xmm0[3],xmm1[4],xmm0[4],xmm1[5],xmm0[5],xmm1[6],xmm0[6],xmm1[7],xmm0[7]
	movdqa	%xmm1, 48(%rsp)
	punpckhbw	%xmm0, %xmm6            # xmm6 = xmm6[8],xmm0[8],xmm6[9],xmm0[9],xmm6[10],xmm0[10],xmm6[11],xmm0[11],xmm6[12],xmm0[12],xmm6[13],xmm0[13],xmm6[14],xmm0[14],xmm6[15],xmm0[15]
	movdqa	%xmm6, 64(%rsp)
	movdqa	%xmm5, %xmm0
	punpcklbw	%xmm10, %xmm0           # xmm0 = xmm0[0],xmm10[0],xmm0[1],xmm10[1],xmm0[2],xmm10[2],xmm0[3],xmm10[3],xmm0[4],xmm10[4],xmm0[5],xmm10[5],xmm0[6],xmm10[6],xmm0[7],xmm10[7]
	punpckhbw	%xmm10, %xmm5           # xmm5 = xmm5[8],xmm10[8],xmm5[9],xmm10[9],xmm5[10],xmm10[10],xmm5[11],xmm10[11],xmm5[12],xmm10[12],xmm5[13],xmm10[13],xmm5[14],xmm10[14],xmm5[15],xmm10[15]
	leaq	32(%rax), %rbp
	movq	(%r8), %r15
	movdqu	%xmm0, (%r15,%rax)
	movdqu	%xmm5, 16(%r15,%rax)
	movq	%r15, (%r8)
	movq	%rbp, 8(%r8)
	movq	%rsi, 16(%r8)
	leaq	30(%r14), %rdx
	movq	%rsi, %rax
	subq	%rbp, %rax
	cmpq	%rax, %rdx
	ja	.LBB61_3
.LBB61_5:                               # %join.3.i86
                                        #   in Loop: Header=BB61_1 Depth=1
	movq	%rsi, 32(%rsp)                  # 8-byte Spill
	leaq	(%r15,%rbp), %rdi
	leaq	48(%rsp), %rax
	movq	%rdi, %rcx
	subq	%rax, %rcx
	leaq	48(%rsp), %rsi
	movq	%rdx, %r13
	cmpq	%rdx, %rcx
	jae	.LBB61_7
# %bb.6:                                # %join.7.i.i.i99.preheader
                                        #   in Loop: Header=BB61_1 Depth=1
	callq	memcpy@PLT
	jmp	.LBB61_8
	.p2align	4
.LBB61_7:                               # %apart.2.i.i.i96
                                        #   in Loop: Header=BB61_1 Depth=1
	callq	memmove@PLT
.LBB61_8:                               # %"core::slots::Slots::copy_in::<i8,20'core::clone::U8Clone{}>.exit.i97"
                                        #   in Loop: Header=BB61_1 Depth=1
	addq	%r13, %rbp
	movq	8(%rsp), %r8                    # 8-byte Reload
	movq	%r15, (%r8)
	movq	%rbp, 8(%r8)
	movq	32(%rsp), %rax                  # 8-byte Reload
	movq	%rax, 16(%r8)
.LBB61_9:                               # %"std_alloc::vec::Vec::extend_from_slice::<#0cd040e5c49bc722>.exit111"
                                        #   in Loop: Header=BB61_1 Depth=1
	addq	$62, %r14
	movdqa	80(%rsp), %xmm0                 # 16-byte Reload
	pmovmskb	%xmm0, %eax
	xorl	$65535, %eax                    # imm = 0xFFFF
	movdqa	96(%rsp), %xmm0                 # 16-byte Reload
	pmovmskb	%xmm0, %ecx
	notl	%ecx
	shll	$16, %ecx
	orl	%eax, %ecx
	xorl	%eax, %eax
	popcntl	%ecx, %eax
	addq	%r14, %rbx
	movq	40(%rsp), %rdx                  # 8-byte Reload
	addq	%rax, %rdx
	movq	%r12, %rax
	incq	%rax
	xorl	%r12d, %r12d
	testl	%ecx, %ecx
	cmoveq	%rax, %r12
	cmpq	$8, %rdx
	movl	$8, %eax
	cmovbq	%rdx, %rax
	cmpq	%rax, %r12
	ja	.LBB61_11
# %bb.10:                               # %"std_alloc::vec::Vec::extend_from_slice::<#0cd040e5c49bc722>.exit111"
                                        #   in Loop: Header=BB61_1 Depth=1
	movq	16(%rsp), %rax                  # 8-byte Reload
	subq	%rbx, %rax
	cmpq	$63, %rax
	ja	.LBB61_1
	jmp	.LBB61_11
.LBB61_3:                               # %"std_alloc::vec::Vec::grow::<#5fdc5e19576447a7>.exit.i106"
                                        #   in Loop: Header=BB61_1 Depth=1
	movq	%r8, %rdi
	movq	%rdx, %r13
	movq	%rdx, %rsi
	callq	"std_alloc::vec::Vec::grow_amortized::<#5fdc5e19576447a7>"
	movq	8(%rsp), %r8                    # 8-byte Reload
	testb	%al, %al
	je	.LBB61_9
# %bb.4:                                # %"std_alloc::vec::Vec::grow::<#5fdc5e19576447a7>.exit.join.3_crit_edge.i108"
                                        #   in Loop: Header=BB61_1 Depth=1
	movq	(%r8), %r15
	movq	8(%r8), %rbp
	movq	16(%r8), %rsi
	movq	%r13, %rdx
	jmp	.LBB61_5
.LBB61_11:                              # %after.1
	movq	%rbx, %rax
	addq	$120, %rsp
	.cfi_def_cfa_offset 56
	popq	%rbx
	.cfi_def_cfa_offset 48
	popq	%r12
	.cfi_def_cfa_offset 40
	popq	%r13
	.cfi_def_cfa_offset 32
	popq	%r14
	.cfi_def_cfa_offset 24
	popq	%r15
	.cfi_def_cfa_offset 16
	popq	%rbp
	.cfi_def_cfa_offset 8
	retq
.Lfunc_end61:
	.size	"recoding::kernels::put_windows::<#25a6102eeaa0b05f>", .Lfunc_end61-"recoding::kernels::put_windows::<#25a6102eeaa0b05f>"
	.cfi_endproc
                                        # -- End function
	.section	".text.recoding::engine::recode_faults::<#dcf09f3d7e931f6a>","ax",@progbits
	.p2align	4                               # -- Begin function recoding::engine::recode_faults::<#dcf09f3d7e931f6a>
	.type	"recoding::engine::recode_faults::<#dcf09f3d7e931f6a>",@function
"recoding::engine::recode_faults::<#dcf09f3d7e931f6a>": # @"recoding::engine::recode_faults::<#dcf09f3d7e931f6a>"
	.cfi_startproc
# %bb.0:                                # %start
	pushq	%rbp
	.cfi_def_cfa_offset 16
	pushq	%r15
	.cfi_def_cfa_offset 24
	pushq	%r14
	.cfi_def_cfa_offset 32
	pushq	%r13
	.cfi_def_cfa_offset 40
	pushq	%r12
	.cfi_def_cfa_offset 48
	pushq	%rbx
	.cfi_def_cfa_offset 56
	.cfi_offset %rbx, -56
	.cfi_offset %r12, -48
	.cfi_offset %r13, -40
	.cfi_offset %r14, -32
	.cfi_offset %r15, -24
	.cfi_offset %rbp, -16
	cmpb	$2, (%rsi)
	setne	%r9b
	cmpq	$0, 16(%rsi)
	setne	%r12b
	orb	%r9b, %r12b
	movl	$16, %r9d
	xorl	%r11d, %r11d
	xorl	%r13d, %r13d
	jmp	.LBB62_1
	.p2align	4
.LBB62_13:                              # %"recoding::text::Utf16Text::put_any::<#ec2bf5654938c731>.exit"
                                        #   in Loop: Header=BB62_1 Depth=1
	incq	%r13
.LBB62_15:                              # %join.12
                                        #   in Loop: Header=BB62_1 Depth=1
	movl	$2, %r11d
	addq	%r10, %r11
	cmpq	%r9, %r11
	jae	.LBB62_17
.LBB62_1:                               # %join.5
                                        # =>This Inner Loop Header: Depth=1
	movq	%r11, %r10
	addq	$4, %r11
	cmpq	%rcx, %r11
	jbe	.LBB62_2
# %bb.6:                                # %join.3.i
                                        #   in Loop: Header=BB62_1 Depth=1
	movq	%rcx, %r14
	subq	%r10, %r14
	cmpq	$2, %r14
	jb	.LBB62_10
# %bb.7:                                # %join.3.i.i
                                        #   in Loop: Header=BB62_1 Depth=1
	movzbl	(%rdx,%r10), %ebx
	shll	$8, %ebx
	movl	%ebx, %ebp
	andl	$64512, %ebp                    # imm = 0xFC00
	cmpl	$56320, %ebp                    # imm = 0xDC00
	je	.LBB62_11
# %bb.8:                                # %join.3.i.i
                                        #   in Loop: Header=BB62_1 Depth=1
	movzbl	1(%rdx,%r10), %r15d
	orl	%r15d, %ebx
	cmpl	$55296, %ebp                    # imm = 0xD800
	jne	.LBB62_14
# %bb.9:                                # %join.6.i.i
                                        #   in Loop: Header=BB62_1 Depth=1
	cmpq	$4, %r14
	jae	.LBB62_4
	jmp	.LBB62_10
	.p2align	4
.LBB62_2:                               # %then.1.i81
                                        #   in Loop: Header=BB62_1 Depth=1
	movzbl	(%rdx,%r10), %ebx
	shll	$8, %ebx
	movl	%ebx, %ebp
	andl	$64512, %ebp                    # imm = 0xFC00
	cmpl	$56320, %ebp                    # imm = 0xDC00
	je	.LBB62_11
# %bb.3:                                # %then.1.i81
                                        #   in Loop: Header=BB62_1 Depth=1
	movzbl	1(%rdx,%r10), %r14d
	orl	%r14d, %ebx
	cmpl	$55296, %ebp                    # imm = 0xD800
	jne	.LBB62_14
.LBB62_4:                               # %join.15.i74.i205.i
                                        #   in Loop: Header=BB62_1 Depth=1
	movzbl	2(%rdx,%r10), %r14d
	movl	%r14d, %ebp
	andl	$-4, %ebp
	cmpl	$220, %ebp
	jne	.LBB62_11
# %bb.5:                                # %arm.14.i200.i
                                        #   in Loop: Header=BB62_1 Depth=1
	movzbl	3(%rdx,%r10), %r11d
	andl	$1023, %ebx                     # imm = 0x3FF
	shll	$10, %ebx
	andl	$3, %r14d
	shll	$8, %r14d
	orl	%r11d, %r14d
	leal	(%rbx,%r14), %r11d
	addl	$65536, %r11d                   # imm = 0x10000
	movl	%r11d, %ebx
	shrl	$10, %ebx
	addl	$-10304, %ebx                   # imm = 0xD7C0
	movl	%r11d, %eax
	shrl	$8, %r11d
	andb	$3, %r11b
	orb	$-36, %r11b
	movq	(%r8), %r14
	movq	8(%r8), %rbp
	movb	%bl, (%r14,%rbp)
	movq	(%r8), %rsi
	movb	%bh, 1(%rsi,%rbp)
	movq	(%r8), %rsi
	movb	%al, 2(%rsi,%rbp)
	movq	(%r8), %rax
	movb	%r11b, 3(%rax,%rbp)
	addq	$4, %rbp
	movq	%rbp, 8(%r8)
	movl	$4, %r11d
	addq	%r10, %r11
	cmpq	%r9, %r11
	jb	.LBB62_1
	jmp	.LBB62_17
	.p2align	4
.LBB62_11:                              # %arm.11
                                        #   in Loop: Header=BB62_1 Depth=1
	cmpq	$32, %r11
	movl	$32, %r9d
	cmovbq	%r11, %r9
	testb	%r12b, %r12b
	je	.LBB62_13
# %bb.12:                               # %"recoding::text::Utf16Text::put_code::<#ec2bf5654938c731>.exit.i.i"
                                        #   in Loop: Header=BB62_1 Depth=1
	movq	(%r8), %rax
	movq	8(%r8), %rsi
	movb	$-3, (%rax,%rsi)
	movq	(%r8), %rax
	movb	$-1, 1(%rax,%rsi)
	addq	$2, %rsi
	movq	%rsi, 8(%r8)
	jmp	.LBB62_13
	.p2align	4
.LBB62_14:                              # %arm.1.i
                                        #   in Loop: Header=BB62_1 Depth=1
	movq	(%r8), %r11
	movq	8(%r8), %rbp
	movb	%bl, (%r11,%rbp)
	movq	(%r8), %rax
	movb	%bh, 1(%rax,%rbp)
	addq	$2, %rbp
	movq	%rbp, 8(%r8)
	jmp	.LBB62_15
.LBB62_17:                              # %after.1
	movq	%r11, (%rdi)
	movq	%r13, 8(%rdi)
	movq	$0, 16(%rdi)
	jmp	.LBB62_18
.LBB62_10:                              # %arm.7
	movq	%r10, (%rdi)
	movq	%r13, 8(%rdi)
	movw	$256, 16(%rdi)                  # imm = 0x100
	movl	$0, 18(%rdi)
	movw	$0, 22(%rdi)
.LBB62_18:                              # %after.1
	popq	%rbx
	.cfi_def_cfa_offset 48
	popq	%r12
	.cfi_def_cfa_offset 40
	popq	%r13
	.cfi_def_cfa_offset 32
	popq	%r14
	.cfi_def_cfa_offset 24
	popq	%r15
	.cfi_def_cfa_offset 16
	popq	%rbp
	.cfi_def_cfa_offset 8
	retq
.Lfunc_end62:
	.size	"recoding::engine::recode_faults::<#dcf09f3d7e931f6a>", .Lfunc_end62-"recoding::engine::recode_faults::<#dcf09f3d7e931f6a>"
	.cfi_endproc
                                        # -- End function
	.section	".text.recoding::recoder_runs::run_whole::<#9bba14706ba0829a>","ax",@progbits
	.p2align	4                               # -- Begin function recoding::recoder_runs::run_whole::<#9bba14706ba0829a>
	.type	"recoding::recoder_runs::run_whole::<#9bba14706ba0829a>",@function
"recoding::recoder_runs::run_whole::<#9bba14706ba0829a>": # @"recoding::recoder_runs::run_whole::<#9bba14706ba0829a>"
	.cfi_startproc
# %bb.0:                                # %start
	pushq	%r15
	.cfi_def_cfa_offset 16
	pushq	%r14
	.cfi_def_cfa_offset 24
	pushq	%r13
	.cfi_def_cfa_offset 32
	pushq	%r12
	.cfi_def_cfa_offset 40
	pushq	%rbx
	.cfi_def_cfa_offset 48
	subq	$80, %rsp
	.cfi_def_cfa_offset 128
	.cfi_offset %rbx, -48
	.cfi_offset %r12, -40
	.cfi_offset %r13, -32
	.cfi_offset %r14, -24
	.cfi_offset %r15, -16
	movq	%rdx, %r12
	movq	%rsi, %r15
	movq	%rdi, %r13
	xorl	%ebx, %ebx
	xorl	%r14d, %r14d
	jmp	.LBB63_2
.LBB63_1:                               # %"recoding::kernels::put_damaged_units::<#540345a75bfb5bf3>.exit"
                                        #   in Loop: Header=BB63_2 Depth=1
	leaq	(%r14,%r13), %rdi
	movq	%r12, %rdx
	callq	"recoding::kernels::put_windows::<#540345a75bfb5bf3>"
	addq	%rax, %r14
	addq	%rdx, %rbx
	testq	%rax, %rax
	je	.LBB63_6
	.p2align	4
.LBB63_2:                               # %loop.2.i
                                        # =>This Loop Header: Depth=1
                                        #     Child Loop BB63_11 Depth 2
	movq	%r15, %rsi
	subq	%r14, %rsi
	cmpq	$16, %rsi
	jb	.LBB63_4
# %bb.3:                                # %"recoding::kernels::TurnedKernelUtf16Utf16::put_text::<#43398717c7bc3319>.exit"
                                        #   in Loop: Header=BB63_2 Depth=1
	leaq	(%r14,%r13), %rdi
	movq	%r12, %rdx
	callq	"recoding::turned::copy_units::<#17d65846aaba8d30>"
	addq	%rax, %r14
	cmpq	$8187, %rax                     # imm = 0x1FFB
	ja	.LBB63_2
.LBB63_4:                               # %join.5.i
                                        #   in Loop: Header=BB63_2 Depth=1
	movq	%r15, %rsi
	subq	%r14, %rsi
	je	.LBB63_21
# %bb.5:                                # %join.8.i
                                        #   in Loop: Header=BB63_2 Depth=1
	cmpq	$64, %rsi
	jae	.LBB63_1
	jmp	.LBB63_7
.LBB63_6:                               # %"recoding::kernels::put_damaged_units::<#540345a75bfb5bf3>.exit.join.14.i_crit_edge"
                                        #   in Loop: Header=BB63_2 Depth=1
	movq	%r15, %rsi
	subq	%r14, %rsi
.LBB63_7:                               # %join.14.i
                                        #   in Loop: Header=BB63_2 Depth=1
	cmpq	$128, %rsi
	movl	$128, %ecx
	cmovbq	%rsi, %rcx
	cmpq	$2, %rsi
	jb	.LBB63_17
# %bb.8:                                # %join.5.i39.preheader
                                        #   in Loop: Header=BB63_2 Depth=1
	leaq	(%r14,%r13), %rdx
	xorl	%eax, %eax
	movq	%rcx, %r8
	jmp	.LBB63_11
	.p2align	4
.LBB63_9:                               # %arm.7.i
                                        #   in Loop: Header=BB63_11 Depth=2
	movzbl	3(%rdx,%rax), %r10d
	andb	$3, %dil
	orb	$-40, %dil
	movq	(%r12), %r11
	movq	8(%r12), %r8
	movb	%dil, (%r11,%r8)
	movq	(%r12), %rdi
	movb	%sil, 1(%rdi,%r8)
	movq	(%r12), %rsi
	movb	%r9b, 2(%rsi,%r8)
	movq	(%r12), %rsi
	movb	%r10b, 3(%rsi,%r8)
	addq	$4, %r8
	movl	$4, %esi
.LBB63_10:                              # %"recoding::text::Utf16Text::put_code::<#f52bd5352b4cd2db>.exit.i"
                                        #   in Loop: Header=BB63_11 Depth=2
	movq	%r8, 8(%r12)
	addq	%rsi, %rax
	movq	%rcx, %r8
	subq	%rax, %r8
	cmpq	$1, %r8
	jbe	.LBB63_16
.LBB63_11:                              # %join.5.i39
                                        #   Parent Loop BB63_2 Depth=1
                                        # =>  This Inner Loop Header: Depth=2
	movzbl	(%rdx,%rax), %edi
	movzbl	1(%rdx,%rax), %esi
	movl	%edi, %r9d
	shll	$8, %r9d
	andl	$64512, %r9d                    # imm = 0xFC00
	cmpl	$55296, %r9d                    # imm = 0xD800
	je	.LBB63_14
# %bb.12:                               # %join.5.i39
                                        #   in Loop: Header=BB63_11 Depth=2
	cmpl	$56320, %r9d                    # imm = 0xDC00
	je	.LBB63_16
# %bb.13:                               # %arm.7.i.thread
                                        #   in Loop: Header=BB63_11 Depth=2
	movq	(%r12), %r9
	movq	8(%r12), %r8
	movb	%dil, (%r9,%r8)
	movq	(%r12), %rdi
	movb	%sil, 1(%rdi,%r8)
	addq	$2, %r8
	movl	$2, %esi
	jmp	.LBB63_10
	.p2align	4
.LBB63_14:                              # %join.6.i.i
                                        #   in Loop: Header=BB63_11 Depth=2
	cmpq	$4, %r8
	jb	.LBB63_16
# %bb.15:                               # %join.15.i65.i.i
                                        #   in Loop: Header=BB63_11 Depth=2
	movzbl	2(%rdx,%rax), %r9d
	movl	%r9d, %r8d
	andb	$-4, %r8b
	cmpb	$-36, %r8b
	je	.LBB63_9
.LBB63_16:                              # %"recoding::engine::recode_text::<#cb596da6ac655ae4>.exit"
                                        #   in Loop: Header=BB63_2 Depth=1
	addq	%rax, %r14
	cmpq	$124, %rax
	ja	.LBB63_2
.LBB63_17:                              # %then.15.i
                                        #   in Loop: Header=BB63_2 Depth=1
	movq	%r15, %rcx
	subq	%r14, %rcx
	je	.LBB63_21
# %bb.18:                               # %join.20.i
                                        #   in Loop: Header=BB63_2 Depth=1
	leaq	(%r14,%r13), %rdx
	xorps	%xmm0, %xmm0
	movaps	%xmm0, (%rsp)
	movq	$0, 16(%rsp)
	movaps	%xmm0, 32(%rsp)
	movaps	%xmm0, 48(%rsp)
	movq	$0, 64(%rsp)
	movq	%rsp, %rdi
	leaq	32(%rsp), %rsi
	movq	%r12, %r8
	callq	"recoding::engine::recode_faults::<#d9c9637553368c70>"
	addq	(%rsp), %r14
	addq	8(%rsp), %rbx
	testb	$1, 16(%rsp)
	jne	.LBB63_22
# %bb.19:                               # %join.20.i
                                        #   in Loop: Header=BB63_2 Depth=1
	testb	$1, 17(%rsp)
	je	.LBB63_2
	jmp	.LBB63_22
.LBB63_21:
	movq	%r15, %r14
.LBB63_22:                              # %"recoding::engine::run::<#0711687b94467fa5>.exit"
	movq	%r14, %rax
	movq	%rbx, %rdx
	addq	$80, %rsp
	.cfi_def_cfa_offset 48
	popq	%rbx
	.cfi_def_cfa_offset 40
	popq	%r12
	.cfi_def_cfa_offset 32
	popq	%r13
	.cfi_def_cfa_offset 24
	popq	%r14
	.cfi_def_cfa_offset 16
	popq	%r15
	.cfi_def_cfa_offset 8
	retq
.Lfunc_end63:
	.size	"recoding::recoder_runs::run_whole::<#9bba14706ba0829a>", .Lfunc_end63-"recoding::recoder_runs::run_whole::<#9bba14706ba0829a>"
	.cfi_endproc
                                        # -- End function
	.section	.rodata.cst16,"aM",@progbits,16
	.p2align	4, 0x0                          # -- Begin function recoding::turned::copy_units::<#17d65846aaba8d30>
.LCPI64_0:
	.byte	252                             # 0xfc
	.byte	0                               # 0x0
	.byte	252                             # 0xfc
	.byte	0                               # 0x0
	.byte	252                             # 0xfc
	.byte	0                               # 0x0
	.byte	252                             # 0xfc
	.byte	0                               # 0x0
	.byte	252                             # 0xfc
	.byte	0                               # 0x0
	.byte	252                             # 0xfc
	.byte	0                               # 0x0
	.byte	252                             # 0xfc
	.byte	0                               # 0x0
	.byte	252                             # 0xfc
	.byte	0                               # 0x0
.LCPI64_1:
	.zero	16,220
.LCPI64_2:
	.zero	16,216
	.section	".text.recoding::turned::copy_units::<#17d65846aaba8d30>","ax",@progbits
	.p2align	4
	.type	"recoding::turned::copy_units::<#17d65846aaba8d30>",@function
"recoding::turned::copy_units::<#17d65846aaba8d30>": # @"recoding::turned::copy_units::<#17d65846aaba8d30>"
	.cfi_startproc
# %bb.0:                                # %start
	pushq	%r15
	.cfi_def_cfa_offset 16
	pushq	%r14
	.cfi_def_cfa_offset 24
	pushq	%r13
	.cfi_def_cfa_offset 32
	pushq	%r12
	.cfi_def_cfa_offset 40
	pushq	%rbx
	.cfi_def_cfa_offset 48
	subq	$32, %rsp
	.cfi_def_cfa_offset 80
	.cfi_offset %rbx, -48
	.cfi_offset %r12, -40
	.cfi_offset %r13, -32
	.cfi_offset %r14, -24
	.cfi_offset %r15, -16
	movw	$0, (%rsp)
	movdqu	(%rdi), %xmm1
	movdqu	%xmm1, 2(%rsp)
	movdqa	.LCPI64_0(%rip), %xmm0          # xmm0 = [252,0,252,0,252,0,252,0,252,0,252,0,252,0,252,0]
	pand	%xmm0, %xmm1
	pcmpeqb	.LCPI64_1(%rip), %xmm1
	movdqa	(%rsp), %xmm2
	pand	%xmm0, %xmm2
	pcmpeqb	.LCPI64_2(%rip), %xmm2
	pxor	%xmm1, %xmm2
	pmovmskb	%xmm2, %eax
	testl	%eax, %eax
	je	.LBB64_2
# %bb.1:
	rep		bsfl	%eax, %ebx
	shrl	%ebx
	testq	%rbx, %rbx
	jne	.LBB64_12
	jmp	.LBB64_17
.LBB64_2:                               # %loop.2.i.preheader.i
	movl	$8, %ebx
	cmpq	$80, %rsi
	jb	.LBB64_7
# %bb.3:                                # %join.5.i.i.preheader
	leaq	-16(%rsi), %rax
	movl	$32, %ebx
	.p2align	4
.LBB64_4:                               # %join.5.i.i
                                        # =>This Inner Loop Header: Depth=1
	movdqu	-50(%rdi,%rbx,2), %xmm4
	movdqu	-48(%rdi,%rbx,2), %xmm5
	movdqu	-34(%rdi,%rbx,2), %xmm1
	movdqu	-32(%rdi,%rbx,2), %xmm6
	pand	%xmm0, %xmm5
	movdqa	.LCPI64_1(%rip), %xmm2          # xmm2 = [220,220,220,220,220,220,220,220,220,220,220,220,220,220,220,220]
	pcmpeqb	%xmm2, %xmm5
	pand	%xmm0, %xmm4
	movdqa	.LCPI64_2(%rip), %xmm3          # xmm3 = [216,216,216,216,216,216,216,216,216,216,216,216,216,216,216,216]
	pcmpeqb	%xmm3, %xmm4
	pxor	%xmm5, %xmm4
	pand	%xmm0, %xmm6
	pcmpeqb	%xmm2, %xmm6
	pand	%xmm0, %xmm1
	pcmpeqb	%xmm3, %xmm1
	pxor	%xmm6, %xmm1
	por	%xmm4, %xmm1
	movdqu	-16(%rdi,%rbx,2), %xmm4
	movdqu	-18(%rdi,%rbx,2), %xmm5
	pand	%xmm0, %xmm4
	pcmpeqb	%xmm2, %xmm4
	pand	%xmm0, %xmm5
	pcmpeqb	%xmm3, %xmm5
	pxor	%xmm4, %xmm5
	movdqu	(%rdi,%rbx,2), %xmm4
	movdqu	-2(%rdi,%rbx,2), %xmm6
	pand	%xmm0, %xmm4
	pcmpeqb	%xmm2, %xmm4
	pand	%xmm0, %xmm6
	pcmpeqb	%xmm3, %xmm6
	pxor	%xmm4, %xmm6
	por	%xmm5, %xmm6
	por	%xmm1, %xmm6
	pmovmskb	%xmm6, %ecx
	testl	%ecx, %ecx
	jne	.LBB64_6
# %bb.5:                                # %join.8.i.i
                                        #   in Loop: Header=BB64_4 Depth=1
	addq	$32, %rbx
	addq	$-64, %rax
	cmpq	$63, %rax
	ja	.LBB64_4
.LBB64_6:                               # %"join.5.i.i.utf_lanes::unit_blocks::paired_wide::<#22d4087b0bf99cde>.exit.i.loopexit_crit_edge"
	addq	$-24, %rbx
.LBB64_7:                               # %"utf_lanes::unit_blocks::paired_wide::<#22d4087b0bf99cde>.exit.i"
	shrq	%rsi
	cmpq	%rsi, %rbx
	jae	.LBB64_12
# %bb.8:                                # %join.5.i51.lr.ph.i
	leaq	-8(%rsi), %rax
	.p2align	4
.LBB64_9:                               # %join.5.i51.i
                                        # =>This Inner Loop Header: Depth=1
	cmpq	%rbx, %rax
	cmovbq	%rax, %rbx
	movdqu	-2(%rdi,%rbx,2), %xmm1
	movdqu	(%rdi,%rbx,2), %xmm2
	pand	%xmm0, %xmm2
	pcmpeqb	.LCPI64_1(%rip), %xmm2
	pand	%xmm0, %xmm1
	pcmpeqb	.LCPI64_2(%rip), %xmm1
	pxor	%xmm2, %xmm1
	pmovmskb	%xmm1, %ecx
	rep		bsfl	%ecx, %r8d
	shrl	%r8d
	testl	%ecx, %ecx
	movl	$8, %ecx
	cmovnel	%r8d, %ecx
	cmpw	$7, %cx
	jbe	.LBB64_11
# %bb.10:                               # %join.8.i75.i
                                        #   in Loop: Header=BB64_9 Depth=1
	addq	$8, %rbx
	cmpq	%rsi, %rbx
	jb	.LBB64_9
	jmp	.LBB64_12
.LBB64_11:                              # %then.6.i.i
	movzwl	%cx, %eax
	addq	%rax, %rbx
	testq	%rbx, %rbx
	je	.LBB64_17
.LBB64_12:                              # %"utf_lanes::unit_blocks::units_len::<#22d4087b0bf99cde>.exit"
	movzbl	-2(%rdi,%rbx,2), %eax
	andb	$-4, %al
	xorl	%ecx, %ecx
	cmpb	$-40, %al
	sete	%cl
	subq	%rcx, %rbx
	movq	%rbx, %rax
	addq	%rbx, %rax
	je	.LBB64_17
# %bb.13:                               # %join.3
	movq	8(%rdx), %rsi
	movq	16(%rdx), %r14
	movq	%r14, %rcx
	subq	%rsi, %rcx
	cmpq	%rcx, %rax
	ja	.LBB64_38
.LBB64_14:                              # %join.3.i
	leaq	8(%rdx), %rcx
	leaq	(%rsi,%rax), %r15
	movq	(%rdx), %r12
	pxor	%xmm0, %xmm0
	movdqu	%xmm0, (%rcx)
	leaq	(%r12,%rsi), %rcx
	movq	%rcx, %r8
	subq	%rdi, %r8
	cmpq	%rax, %r8
	jae	.LBB64_18
# %bb.15:                               # %iter.check
	cmpq	$4, %rax
	jb	.LBB64_16
# %bb.19:                               # %vector.memcheck
	cmpq	$32, %r8
	jae	.LBB64_21
.LBB64_16:
	xorl	%r8d, %r8d
.LBB64_30:                              # %join.7.i.i.i.preheader
	movq	%rax, %r10
	movq	%r8, %r9
	andq	$2, %r10
	je	.LBB64_33
# %bb.31:                               # %join.7.i.i.i.prol.preheader
	movq	%r8, %r9
	.p2align	4
.LBB64_32:                              # %join.7.i.i.i.prol
                                        # =>This Inner Loop Header: Depth=1
	movzbl	(%rdi,%r9), %r11d
	movb	%r11b, (%rcx,%r9)
	incq	%r9
	decq	%r10
	jne	.LBB64_32
.LBB64_33:                              # %join.7.i.i.i.prol.loopexit
	subq	%rax, %r8
	cmpq	$-4, %r8
	ja	.LBB64_36
# %bb.34:                               # %join.7.i.i.i.preheader33
	leaq	(%rsi,%r12), %rcx
	addq	$3, %rcx
	.p2align	4
.LBB64_35:                              # %join.7.i.i.i
                                        # =>This Inner Loop Header: Depth=1
	movzbl	(%rdi,%r9), %esi
	movb	%sil, -3(%rcx,%r9)
	movzbl	1(%rdi,%r9), %esi
	movb	%sil, -2(%rcx,%r9)
	movzbl	2(%rdi,%r9), %esi
	movb	%sil, -1(%rcx,%r9)
	movzbl	3(%rdi,%r9), %esi
	movb	%sil, (%rcx,%r9)
	addq	$4, %r9
	cmpq	%r9, %rax
	jne	.LBB64_35
	jmp	.LBB64_36
.LBB64_17:
	xorl	%eax, %eax
	jmp	.LBB64_37
.LBB64_18:                              # %apart.2.i.i.i
	movq	%rdi, %rsi
	movq	%rcx, %rdi
	movq	%rdx, %rbx
	movq	%rax, %rdx
	movq	%rax, %r13
	callq	memmove@PLT
	movq	%r13, %rax
	movq	%rbx, %rdx
.LBB64_36:                              # %"core::slots::Slots::copy_in::<i8,20'core::clone::U8Clone{}>.exit.i"
	movq	%r12, (%rdx)
	movq	%r15, 8(%rdx)
	movq	%r14, 16(%rdx)
.LBB64_37:                              # %common.ret
	addq	$32, %rsp
	.cfi_def_cfa_offset 48
	popq	%rbx
	.cfi_def_cfa_offset 40
	popq	%r12
	.cfi_def_cfa_offset 32
	popq	%r13
	.cfi_def_cfa_offset 24
	popq	%r14
	.cfi_def_cfa_offset 16
	popq	%r15
	.cfi_def_cfa_offset 8
	retq
.LBB64_21:                              # %vector.main.loop.iter.check
	.cfi_def_cfa_offset 80
	cmpq	$32, %rax
	jae	.LBB64_23
# %bb.22:
	xorl	%r8d, %r8d
	jmp	.LBB64_27
.LBB64_23:                              # %vector.ph
	movq	%rax, %r8
	andq	$-32, %r8
	leaq	(%rsi,%r12), %r9
	addq	$16, %r9
	xorl	%r10d, %r10d
	.p2align	4
.LBB64_24:                              # %vector.body
                                        # =>This Inner Loop Header: Depth=1
	movdqu	(%rdi,%r10), %xmm0
	movdqu	16(%rdi,%r10), %xmm1
	movdqu	%xmm0, -16(%r9,%r10)
	movdqu	%xmm1, (%r9,%r10)
	addq	$32, %r10
	cmpq	%r10, %r8
	jne	.LBB64_24
# %bb.25:                               # %middle.block
	cmpq	%r8, %rax
	je	.LBB64_36
# %bb.26:                               # %vec.epilog.iter.check
	testb	$14, %bl
	je	.LBB64_30
.LBB64_27:                              # %vec.epilog.ph
	movq	%r8, %r9
	movq	%rax, %r8
	andq	$-4, %r8
	.p2align	4
.LBB64_28:                              # %vec.epilog.vector.body
                                        # =>This Inner Loop Header: Depth=1
	movl	(%rdi,%r9), %r10d
	movl	%r10d, (%rcx,%r9)
	addq	$4, %r9
	cmpq	%r9, %r8
	jne	.LBB64_28
# %bb.29:                               # %vec.epilog.middle.block
	cmpq	%r8, %rax
	je	.LBB64_36
	jmp	.LBB64_30
.LBB64_38:                              # %"std_alloc::vec::Vec::grow::<#5fdc5e19576447a7>.exit.i"
	movq	%rdi, %r15
	movq	%rdx, %r14
	movq	%rdx, %rdi
	movq	%rax, %r12
	movq	%rax, %rsi
	callq	"std_alloc::vec::Vec::grow_amortized::<#5fdc5e19576447a7>"
	testb	%al, %al
	je	.LBB64_40
# %bb.39:                               # %"std_alloc::vec::Vec::grow::<#5fdc5e19576447a7>.exit.join.3_crit_edge.i"
	movq	%r14, %rdx
	movq	8(%r14), %rsi
	movq	16(%r14), %r14
	movq	%r15, %rdi
	movq	%r12, %rax
	jmp	.LBB64_14
.LBB64_40:
	movq	%r12, %rax
	jmp	.LBB64_37
.Lfunc_end64:
	.size	"recoding::turned::copy_units::<#17d65846aaba8d30>", .Lfunc_end64-"recoding::turned::copy_units::<#17d65846aaba8d30>"
	.cfi_endproc
                                        # -- End function
	.section	.rodata.cst16,"aM",@progbits,16
	.p2align	4, 0x0                          # -- Begin function recoding::kernels::put_windows::<#540345a75bfb5bf3>
.LCPI65_0:
	.short	255                             # 0xff
	.short	255                             # 0xff
	.short	255                             # 0xff
	.short	255                             # 0xff
	.short	255                             # 0xff
	.short	255                             # 0xff
	.short	255                             # 0xff
	.short	255                             # 0xff
.LCPI65_1:
	.byte	1                               # 0x1
	.byte	3                               # 0x3
	.byte	5                               # 0x5
	.byte	7                               # 0x7
	.byte	9                               # 0x9
	.byte	11                              # 0xb
	.byte	13                              # 0xd
	.byte	15                              # 0xf
	.zero	1
	.zero	1
	.zero	1
	.zero	1
	.zero	1
	.zero	1
	.zero	1
	.zero	1
.LCPI65_2:
	.zero	16,63
.LCPI65_3:
	.zero	16,54
.LCPI65_4:
	.byte	255                             # 0xff
	.byte	255                             # 0xff
	.byte	255                             # 0xff
	.byte	255                             # 0xff
	.byte	255                             # 0xff
	.byte	255                             # 0xff
	.byte	255                             # 0xff
	.byte	255                             # 0xff
	.byte	255                             # 0xff
	.byte	255                             # 0xff
	.byte	255                             # 0xff
	.byte	255                             # 0xff
	.byte	255                             # 0xff
	.byte	255                             # 0xff
	.byte	255                             # 0xff
	.byte	0                               # 0x0
.LCPI65_5:
	.zero	16,55
.LCPI65_6:
	.zero	16,253
.LCPI65_7:
	.zero	16,252
.LCPI65_8:
	.zero	16,216
.LCPI65_9:
	.byte	1                               # 0x1
	.byte	3                               # 0x3
	.byte	5                               # 0x5
	.byte	7                               # 0x7
	.byte	9                               # 0x9
	.byte	11                              # 0xb
	.byte	13                              # 0xd
	.byte	15                              # 0xf
	.byte	0                               # 0x0
	.byte	0                               # 0x0
	.byte	0                               # 0x0
	.byte	0                               # 0x0
	.byte	0                               # 0x0
	.byte	0                               # 0x0
	.byte	0                               # 0x0
	.byte	0                               # 0x0
	.section	".text.recoding::kernels::put_windows::<#540345a75bfb5bf3>","ax",@progbits
	.p2align	4
	.type	"recoding::kernels::put_windows::<#540345a75bfb5bf3>",@function
"recoding::kernels::put_windows::<#540345a75bfb5bf3>": # @"recoding::kernels::put_windows::<#540345a75bfb5bf3>"
	.cfi_startproc
# %bb.0:                                # %start
	pushq	%rbp
	.cfi_def_cfa_offset 16
	pushq	%r15
	.cfi_def_cfa_offset 24
	pushq	%r14
	.cfi_def_cfa_offset 32
	pushq	%r13
	.cfi_def_cfa_offset 40
	pushq	%r12
	.cfi_def_cfa_offset 48
	pushq	%rbx
	.cfi_def_cfa_offset 56
	subq	$120, %rsp
	.cfi_def_cfa_offset 176
	.cfi_offset %rbx, -56
	.cfi_offset %r12, -48
	.cfi_offset %r13, -40
	.cfi_offset %r14, -32
	.cfi_offset %r15, -24
	.cfi_offset %rbp, -16
	movq	%rdx, %r8
	movq	%rsi, 16(%rsp)                  # 8-byte Spill
	movq	%rdi, 24(%rsp)                  # 8-byte Spill
	xorl	%ebx, %ebx
	xorl	%edx, %edx
	xorl	%r12d, %r12d
	movq	%r8, 8(%rsp)                    # 8-byte Spill
	.p2align	4
.LBB65_1:                               # %then.6
                                        # =>This Inner Loop Header: Depth=1
	movq	8(%r8), %rax
	movq	16(%r8), %rsi
	movq	%rsi, %rcx
	subq	%rax, %rcx
	cmpq	$112, %rcx
	jb	.LBB65_11
# %bb.2:                                # %join.3.i
                                        #   in Loop: Header=BB65_1 Depth=1
	movq	%rdx, 40(%rsp)                  # 8-byte Spill
	movq	24(%rsp), %rcx                  # 8-byte Reload
	movdqu	(%rcx,%rbx), %xmm4
	movdqu	16(%rcx,%rbx), %xmm0
	movdqu	32(%rcx,%rbx), %xmm3
	movdqu	48(%rcx,%rbx), %xmm5
	movdqa	.LCPI65_0(%rip), %xmm1          # xmm1 = [255,255,255,255,255,255,255,255]
	movdqa	%xmm0, %xmm6
	pand	%xmm1, %xmm6
	movdqa	%xmm4, %xmm2
	pand	%xmm1, %xmm2
	packuswb	%xmm6, %xmm2
	movdqa	%xmm5, %xmm6
	pand	%xmm1, %xmm6
	pand	%xmm3, %xmm1
	packuswb	%xmm6, %xmm1
	movq	.LCPI65_9(%rip), %xmm6          # xmm6 = [1,3,5,7,9,11,13,15,0,0,0,0,0,0,0,0]
	pshufb	%xmm6, %xmm5
	pshufb	%xmm6, %xmm3
	punpcklqdq	%xmm5, %xmm3            # xmm3 = xmm3[0],xmm5[0]
	pshufb	%xmm6, %xmm0
	pshufb	%xmm6, %xmm4
	punpcklqdq	%xmm0, %xmm4            # xmm4 = xmm4[0],xmm0[0]
	movdqa	%xmm1, %xmm0
	psrlw	$2, %xmm0
	movdqa	.LCPI65_2(%rip), %xmm6          # xmm6 = [63,63,63,63,63,63,63,63,63,63,63,63,63,63,63,63]
	pand	%xmm6, %xmm0
	movdqa	%xmm2, %xmm5
	psrlw	$2, %xmm5
	pand	%xmm6, %xmm5
	movdqa	.LCPI65_3(%rip), %xmm9          # xmm9 = [54,54,54,54,54,54,54,54,54,54,54,54,54,54,54,54]
	movdqa	%xmm5, %xmm6
	pcmpeqb	%xmm9, %xmm6
	pcmpeqb	%xmm0, %xmm9
	movdqa	.LCPI65_4(%rip), %xmm7          # xmm7 = [255,255,255,255,255,255,255,255,255,255,255,255,255,255,255,0]
	pand	%xmm9, %xmm7
	movdqa	.LCPI65_5(%rip), %xmm8          # xmm8 = [55,55,55,55,55,55,55,55,55,55,55,55,55,55,55,55]
	pcmpeqb	%xmm8, %xmm0
	pcmpeqb	%xmm8, %xmm5
	palignr	$15, %xmm6, %xmm9               # xmm9 = xmm6[15],xmm9[0,1,2,3,4,5,6,7,8,9,10,11,12,13,14]
	movdqa	%xmm6, %xmm10
	pslldq	$1, %xmm10                      # xmm10 = zero,xmm10[0,1,2,3,4,5,6,7,8,9,10,11,12,13,14]
	pxor	%xmm5, %xmm10
	pxor	%xmm0, %xmm9
	movdqa	%xmm9, %xmm8
	palignr	$1, %xmm10, %xmm8               # xmm8 = xmm10[1,2,3,4,5,6,7,8,9,10,11,12,13,14,15],xmm8[0]
	pand	%xmm5, %xmm10
	palignr	$1, %xmm9, %xmm5                # xmm5 = xmm9[1,2,3,4,5,6,7,8,9,10,11,12,13,14,15],xmm5[0]
	pand	%xmm7, %xmm5
	pand	%xmm6, %xmm8
	pxor	%xmm7, %xmm7
	por	%xmm8, %xmm10
	pand	%xmm0, %xmm9
	por	%xmm5, %xmm9
	movdqa	.LCPI65_6(%rip), %xmm6          # xmm6 = [253,253,253,253,253,253,253,253,253,253,253,253,253,253,253,253]
	pcmpeqb	%xmm7, %xmm10
	movdqa	%xmm6, %xmm5
	movdqa	%xmm10, %xmm0
	pblendvb	%xmm0, %xmm4, %xmm5
	pcmpeqb	%xmm7, %xmm9
	movdqa	%xmm9, %xmm0
	pblendvb	%xmm0, %xmm3, %xmm6
	pcmpeqd	%xmm3, %xmm3
	movdqa	%xmm10, 80(%rsp)                # 16-byte Spill
	pxor	%xmm3, %xmm10
	por	%xmm2, %xmm10
	movdqa	%xmm9, 96(%rsp)                 # 16-byte Spill
	pxor	%xmm9, %xmm3
	por	%xmm1, %xmm3
	pand	.LCPI65_7(%rip), %xmm1
	pcmpeqb	.LCPI65_8(%rip), %xmm1
	pmovmskb	%xmm1, %ecx
	xorl	%r14d, %r14d
	testw	%cx, %cx
	setns	%r14b
	addl	%r14d, %r14d
	movdqa	%xmm3, %xmm1
	punpcklbw	%xmm6, %xmm1            # xmm1 = xmm1[0],xmm6[0],xmm1[1],xmm6[1],xmm1[2],xmm6[2],xmm1[3],xmm6[3],xmm1[4],xmm6[4],xmm1[5],xmm6[5],xmm1[6],xmm6[6],xmm1[7],xmm6[7]
	movdqa	%xmm1, 48(%rsp)
	punpckhbw	%xmm6, %xmm3            # xmm3 = xmm3[8],xmm6[8],xmm3[9],xmm6[9],xmm3[10],xmm6[10],xmm3[11],xmm6[11],xmm3[12],xmm6[12],xmm3[13],xmm6[13],xmm3[14],xmm6[14],xmm3[15],xmm6[15]
	movdqa	%xmm3, 64(%rsp)
	movdqa	%xmm10, %xmm1
	punpcklbw	%xmm5, %xmm1            # xmm1 = xmm1[0],xmm5[0],xmm1[1],xmm5[1],xmm1[2],xmm5[2],xmm1[3],xmm5[3],xmm1[4],xmm5[4],xmm1[5],xmm5[5],xmm1[6],xmm5[6],xmm1[7],xmm5[7]
	punpckhbw	%xmm5, %xmm10           # xmm10 = xmm10[8],xmm5[8],xmm10[9],xmm5[9],xmm10[10],xmm5[10],xmm10[11],xmm5[11],xmm10[12],xmm5[12],xmm10[13],xmm5[13],xmm10[14],xmm5[14],xmm10[15],xmm5[15]
	leaq	32(%rax), %rbp
	movq	(%r8), %r15
	movdqu	%xmm1, (%r15,%rax)
	movdqu	%xmm10, 16(%r15,%rax)
	movq	%r15, (%r8)
	movq	%rbp, 8(%r8)
	movq	%rsi, 16(%r8)
	leaq	30(%r14), %rdx
	movq	%rsi, %rax
	subq	%rbp, %rax
	cmpq	%rax, %rdx
	ja	.LBB65_3
.LBB65_5:                               # %join.3.i87
                                        #   in Loop: Header=BB65_1 Depth=1
	movq	%rsi, 32(%rsp)                  # 8-byte Spill
	leaq	(%r15,%rbp), %rdi
	leaq	48(%rsp), %rax
	movq	%rdi, %rcx
	subq	%rax, %rcx
	leaq	48(%rsp), %rsi
	movq	%rdx, %r13
	cmpq	%rdx, %rcx
	jae	.LBB65_7
# %bb.6:                                # %join.7.i.i.i100.preheader
                                        #   in Loop: Header=BB65_1 Depth=1
	callq	memcpy@PLT
	jmp	.LBB65_8
	.p2align	4
.LBB65_7:                               # %apart.2.i.i.i97
                                        #   in Loop: Header=BB65_1 Depth=1
	callq	memmove@PLT
.LBB65_8:                               # %"core::slots::Slots::copy_in::<i8,20'core::clone::U8Clone{}>.exit.i98"
                                        #   in Loop: Header=BB65_1 Depth=1
	addq	%r13, %rbp
	movq	8(%rsp), %r8                    # 8-byte Reload
	movq	%r15, (%r8)
	movq	%rbp, 8(%r8)
	movq	32(%rsp), %rax                  # 8-byte Reload
	movq	%rax, 16(%r8)
.LBB65_9:                               # %"std_alloc::vec::Vec::extend_from_slice::<#0cd040e5c49bc722>.exit112"
                                        #   in Loop: Header=BB65_1 Depth=1
	addq	$62, %r14
	movdqa	80(%rsp), %xmm0                 # 16-byte Reload
	pmovmskb	%xmm0, %eax
	xorl	$65535, %eax                    # imm = 0xFFFF
	movdqa	96(%rsp), %xmm0                 # 16-byte Reload
	pmovmskb	%xmm0, %ecx
	notl	%ecx
	shll	$16, %ecx
	orl	%eax, %ecx
	xorl	%eax, %eax
	popcntl	%ecx, %eax
	addq	%r14, %rbx
	movq	40(%rsp), %rdx                  # 8-byte Reload
	addq	%rax, %rdx
	movq	%r12, %rax
	incq	%rax
	xorl	%r12d, %r12d
	testl	%ecx, %ecx
	cmoveq	%rax, %r12
	cmpq	$8, %rdx
	movl	$8, %eax
	cmovbq	%rdx, %rax
	cmpq	%rax, %r12
	ja	.LBB65_11
# %bb.10:                               # %"std_alloc::vec::Vec::extend_from_slice::<#0cd040e5c49bc722>.exit112"
                                        #   in Loop: Header=BB65_1 Depth=1
	movq	16(%rsp), %rax                  # 8-byte Reload
	subq	%rbx, %rax
	cmpq	$63, %rax
	ja	.LBB65_1
	jmp	.LBB65_11
.LBB65_3:                               # %"std_alloc::vec::Vec::grow::<#5fdc5e19576447a7>.exit.i107"
                                        #   in Loop: Header=BB65_1 Depth=1
	movq	%r8, %rdi
	movq	%rdx, %r13
	movq	%rdx, %rsi
	callq	"std_alloc::vec::Vec::grow_amortized::<#5fdc5e19576447a7>"
	movq	8(%rsp), %r8                    # 8-byte Reload
	testb	%al, %al
	je	.LBB65_9
# %bb.4:                                # %"std_alloc::vec::Vec::grow::<#5fdc5e19576447a7>.exit.join.3_crit_edge.i109"
                                        #   in Loop: Header=BB65_1 Depth=1
	movq	(%r8), %r15
	movq	8(%r8), %rbp
	movq	16(%r8), %rsi
	movq	%r13, %rdx
	jmp	.LBB65_5
.LBB65_11:                              # %after.1
	movq	%rbx, %rax
	addq	$120, %rsp
	.cfi_def_cfa_offset 56
	popq	%rbx
	.cfi_def_cfa_offset 48
	popq	%r12
	.cfi_def_cfa_offset 40
	popq	%r13
	.cfi_def_cfa_offset 32
	popq	%r14
	.cfi_def_cfa_offset 24
	popq	%r15
	.cfi_def_cfa_offset 16
	popq	%rbp
	.cfi_def_cfa_offset 8
	retq
.Lfunc_end65:
	.size	"recoding::kernels::put_windows::<#540345a75bfb5bf3>", .Lfunc_end65-"recoding::kernels::put_windows::<#540345a75bfb5bf3>"
	.cfi_endproc
                                        # -- End function
	.section	".text.recoding::engine::recode_faults::<#d9c9637553368c70>","ax",@progbits
	.p2align	4                               # -- Begin function recoding::engine::recode_faults::<#d9c9637553368c70>
	.type	"recoding::engine::recode_faults::<#d9c9637553368c70>",@function
"recoding::engine::recode_faults::<#d9c9637553368c70>": # @"recoding::engine::recode_faults::<#d9c9637553368c70>"
	.cfi_startproc
# %bb.0:                                # %start
	pushq	%rbp
	.cfi_def_cfa_offset 16
	pushq	%r15
	.cfi_def_cfa_offset 24
	pushq	%r14
	.cfi_def_cfa_offset 32
	pushq	%r13
	.cfi_def_cfa_offset 40
	pushq	%r12
	.cfi_def_cfa_offset 48
	pushq	%rbx
	.cfi_def_cfa_offset 56
	.cfi_offset %rbx, -56
	.cfi_offset %r12, -48
	.cfi_offset %r13, -40
	.cfi_offset %r14, -32
	.cfi_offset %r15, -24
	.cfi_offset %rbp, -16
	cmpb	$2, (%rsi)
	setne	%r9b
	cmpq	$0, 16(%rsi)
	setne	%r12b
	orb	%r9b, %r12b
	movl	$16, %r9d
	xorl	%r11d, %r11d
	xorl	%r13d, %r13d
	jmp	.LBB66_1
	.p2align	4
.LBB66_13:                              # %"recoding::text::Utf16Text::put_any::<#f52bd5352b4cd2db>.exit"
                                        #   in Loop: Header=BB66_1 Depth=1
	incq	%r13
.LBB66_15:                              # %join.12
                                        #   in Loop: Header=BB66_1 Depth=1
	movl	$2, %r11d
	addq	%r10, %r11
	cmpq	%r9, %r11
	jae	.LBB66_17
.LBB66_1:                               # %join.5
                                        # =>This Inner Loop Header: Depth=1
	movq	%r11, %r10
	addq	$4, %r11
	cmpq	%rcx, %r11
	jbe	.LBB66_2
# %bb.6:                                # %join.3.i
                                        #   in Loop: Header=BB66_1 Depth=1
	movq	%rcx, %r14
	subq	%r10, %r14
	cmpq	$2, %r14
	jb	.LBB66_10
# %bb.7:                                # %join.3.i.i
                                        #   in Loop: Header=BB66_1 Depth=1
	movzbl	(%rdx,%r10), %ebx
	shll	$8, %ebx
	movl	%ebx, %ebp
	andl	$64512, %ebp                    # imm = 0xFC00
	cmpl	$56320, %ebp                    # imm = 0xDC00
	je	.LBB66_11
# %bb.8:                                # %join.3.i.i
                                        #   in Loop: Header=BB66_1 Depth=1
	movzbl	1(%rdx,%r10), %r15d
	orl	%r15d, %ebx
	cmpl	$55296, %ebp                    # imm = 0xD800
	jne	.LBB66_14
# %bb.9:                                # %join.6.i.i
                                        #   in Loop: Header=BB66_1 Depth=1
	cmpq	$4, %r14
	jae	.LBB66_4
	jmp	.LBB66_10
	.p2align	4
.LBB66_2:                               # %then.1.i
                                        #   in Loop: Header=BB66_1 Depth=1
	movzbl	(%rdx,%r10), %ebx
	shll	$8, %ebx
	movl	%ebx, %ebp
	andl	$64512, %ebp                    # imm = 0xFC00
	cmpl	$56320, %ebp                    # imm = 0xDC00
	je	.LBB66_11
# %bb.3:                                # %then.1.i
                                        #   in Loop: Header=BB66_1 Depth=1
	movzbl	1(%rdx,%r10), %r14d
	orl	%r14d, %ebx
	cmpl	$55296, %ebp                    # imm = 0xD800
	jne	.LBB66_14
.LBB66_4:                               # %join.15.i74.i205.i
                                        #   in Loop: Header=BB66_1 Depth=1
	movzbl	2(%rdx,%r10), %r14d
	movl	%r14d, %ebp
	andl	$-4, %ebp
	cmpl	$220, %ebp
	jne	.LBB66_11
# %bb.5:                                # %arm.14.i200.i
                                        #   in Loop: Header=BB66_1 Depth=1
	movzbl	3(%rdx,%r10), %r11d
	andl	$1023, %ebx                     # imm = 0x3FF
	shll	$10, %ebx
	andl	$3, %r14d
	shll	$8, %r14d
	orl	%r11d, %r14d
	leal	(%rbx,%r14), %r11d
	addl	$65536, %r11d                   # imm = 0x10000
	movl	%r11d, %ebx
	shrl	$10, %ebx
	addl	$-10304, %ebx                   # imm = 0xD7C0
	movl	%r11d, %eax
	shrl	$8, %r11d
	andb	$3, %r11b
	orb	$-36, %r11b
	movq	(%r8), %rbp
	movq	8(%r8), %rsi
	movb	%bh, (%rbp,%rsi)
	movq	(%r8), %r14
	movb	%bl, 1(%r14,%rsi)
	movq	(%r8), %rbx
	movb	%r11b, 2(%rbx,%rsi)
	movq	(%r8), %r11
	movb	%al, 3(%r11,%rsi)
	addq	$4, %rsi
	movq	%rsi, 8(%r8)
	movl	$4, %r11d
	addq	%r10, %r11
	cmpq	%r9, %r11
	jb	.LBB66_1
	jmp	.LBB66_17
	.p2align	4
.LBB66_11:                              # %arm.11
                                        #   in Loop: Header=BB66_1 Depth=1
	cmpq	$32, %r11
	movl	$32, %r9d
	cmovbq	%r11, %r9
	testb	%r12b, %r12b
	je	.LBB66_13
# %bb.12:                               # %"recoding::text::Utf16Text::put_code::<#f52bd5352b4cd2db>.exit.i.i"
                                        #   in Loop: Header=BB66_1 Depth=1
	movq	(%r8), %rax
	movq	8(%r8), %rsi
	movb	$-1, (%rax,%rsi)
	movq	(%r8), %rax
	movb	$-3, 1(%rax,%rsi)
	addq	$2, %rsi
	movq	%rsi, 8(%r8)
	jmp	.LBB66_13
	.p2align	4
.LBB66_14:                              # %arm.1.i
                                        #   in Loop: Header=BB66_1 Depth=1
	movq	(%r8), %rbp
	movq	8(%r8), %rax
	movb	%bh, (%rbp,%rax)
	movq	(%r8), %r11
	movb	%bl, 1(%r11,%rax)
	addq	$2, %rax
	movq	%rax, 8(%r8)
	jmp	.LBB66_15
.LBB66_17:                              # %after.1
	movq	%r11, (%rdi)
	movq	%r13, 8(%rdi)
	movq	$0, 16(%rdi)
	jmp	.LBB66_18
.LBB66_10:                              # %arm.7
	movq	%r10, (%rdi)
	movq	%r13, 8(%rdi)
	movw	$256, 16(%rdi)                  # imm = 0x100
	movl	$0, 18(%rdi)
	movw	$0, 22(%rdi)
.LBB66_18:                              # %after.1
	popq	%rbx
	.cfi_def_cfa_offset 48
	popq	%r12
	.cfi_def_cfa_offset 40
	popq	%r13
	.cfi_def_cfa_offset 32
	popq	%r14
	.cfi_def_cfa_offset 24
	popq	%r15
	.cfi_def_cfa_offset 16
	popq	%rbp
	.cfi_def_cfa_offset 8
	retq
.Lfunc_end66:
	.size	"recoding::engine::recode_faults::<#d9c9637553368c70>", .Lfunc_end66-"recoding::engine::recode_faults::<#d9c9637553368c70>"
	.cfi_endproc
                                        # -- End function
	.section	".text.recoding::recoder::Recoder::feed_joined::<#e3b2a9d4d2861db8>","ax",@progbits
	.p2align	4                               # -- Begin function recoding::recoder::Recoder::feed_joined::<#e3b2a9d4d2861db8>
	.type	"recoding::recoder::Recoder::feed_joined::<#e3b2a9d4d2861db8>",@function
"recoding::recoder::Recoder::feed_joined::<#e3b2a9d4d2861db8>": # @"recoding::recoder::Recoder::feed_joined::<#e3b2a9d4d2861db8>"
	.cfi_startproc
# %bb.0:                                # %start
	pushq	%rbp
	.cfi_def_cfa_offset 16
	pushq	%r15
	.cfi_def_cfa_offset 24
	pushq	%r14
	.cfi_def_cfa_offset 32
	pushq	%r13
	.cfi_def_cfa_offset 40
	pushq	%r12
	.cfi_def_cfa_offset 48
	pushq	%rbx
	.cfi_def_cfa_offset 56
	subq	$24, %rsp
	.cfi_def_cfa_offset 80
	.cfi_offset %rbx, -56
	.cfi_offset %r12, -48
	.cfi_offset %r13, -40
	.cfi_offset %r14, -32
	.cfi_offset %r15, -24
	.cfi_offset %rbp, -16
	movq	%rcx, %r13
	movq	%rdx, %r15
	movq	%rsi, %r14
	movq	%rdi, %rbx
	movq	(%rdi), %r12
	leaq	(%r12,%rdx), %rax
	movabsq	$6148914691236517205, %rcx      # imm = 0x5555555555555555
	cmpq	%rcx, %rax
	cmovbq	%rax, %rcx
	leaq	(%rcx,%rcx,2), %rsi
	movq	16(%r13), %rax
	subq	8(%r13), %rax
	cmpq	%rax, %rsi
	ja	.LBB67_1
.LBB67_3:                               # %arm.1
	leaq	8(%rbx), %rax
	testq	%r12, %r12
	cmoveq	%r14, %rax
	movzbl	(%rax), %eax
	cmpq	$1, %r12
	jbe	.LBB67_4
# %bb.7:                                # %"recoding::held::byte_of_both.exit95.i"
	movzbl	9(%rbx), %ecx
	cmpq	$2, %r12
	je	.LBB67_8
# %bb.11:                               # %"recoding::held::byte_of_both.exit83.i"
	movzbl	10(%rbx), %edx
	cmpq	$3, %r12
	jbe	.LBB67_12
# %bb.15:                               # %"recoding::held::byte_of_both.exit71.i"
	movzbl	11(%rbx), %esi
	cmpq	$4, %r12
	je	.LBB67_16
# %bb.18:                               # %"recoding::held::byte_of_both.exit59.i"
	movzbl	12(%rbx), %edi
	cmpq	$6, %r12
	jb	.LBB67_21
# %bb.19:                               # %then.1.i46.i
	movzbl	13(%rbx), %r8d
	jmp	.LBB67_24
.LBB67_4:                               # %join.3.i85.i
	movl	$1, %ecx
	subq	%r12, %rcx
	cmpq	%r15, %rcx
	jae	.LBB67_5
# %bb.6:                                # %then.4.i89.i
	movzbl	(%r14,%rcx), %ecx
.LBB67_8:                               # %join.3.i73.i
	movl	$2, %edx
	subq	%r12, %rdx
	cmpq	%r15, %rdx
	jae	.LBB67_9
.LBB67_10:                              # %then.4.i77.i
	movzbl	(%r14,%rdx), %edx
.LBB67_12:                              # %join.3.i61.i
	movl	$3, %esi
	subq	%r12, %rsi
	cmpq	%r15, %rsi
	jae	.LBB67_13
.LBB67_14:                              # %then.4.i65.i
	movzbl	(%r14,%rsi), %esi
.LBB67_16:                              # %join.3.i49.i
	movl	$4, %edi
	subq	%r12, %rdi
	cmpq	%r15, %rdi
	jae	.LBB67_17
.LBB67_20:                              # %then.4.i53.i
	movzbl	(%r14,%rdi), %edi
.LBB67_21:                              # %join.3.i.i
	movl	$5, %r8d
	subq	%r12, %r8
	cmpq	%r15, %r8
	jae	.LBB67_22
.LBB67_23:                              # %then.4.i.i
	movzbl	(%r14,%r8), %r8d
	jmp	.LBB67_24
.LBB67_5:
	xorl	%ecx, %ecx
	movl	$2, %edx
	subq	%r12, %rdx
	cmpq	%r15, %rdx
	jb	.LBB67_10
.LBB67_9:
	xorl	%edx, %edx
	movl	$3, %esi
	subq	%r12, %rsi
	cmpq	%r15, %rsi
	jb	.LBB67_14
.LBB67_13:
	xorl	%esi, %esi
	movl	$4, %edi
	subq	%r12, %rdi
	cmpq	%r15, %rdi
	jb	.LBB67_20
.LBB67_17:
	xorl	%edi, %edi
	movl	$5, %r8d
	subq	%r12, %r8
	cmpq	%r15, %r8
	jb	.LBB67_23
.LBB67_22:
	xorl	%r8d, %r8d
.LBB67_24:                              # %"recoding::held::byte_of_both.exit.i"
	cmpq	$3, %r15
	movl	$3, %ebp
	cmovbq	%r15, %rbp
	addq	%r12, %rbp
	movb	%al, 10(%rsp)
	movb	%cl, 11(%rsp)
	movb	%dl, 12(%rsp)
	movb	%sil, 13(%rsp)
	movb	%dil, 14(%rsp)
	movb	%r8b, 15(%rsp)
	movzbl	16(%rbx), %ecx
	movzbl	17(%rbx), %eax
	cmpl	$2, %ecx
	movq	%r13, 16(%rsp)                  # 8-byte Spill
	leaq	10(%rsp), %rdi
	movq	%rbp, %rsi
	movq	%r13, %rdx
	je	.LBB67_36
# %bb.25:                               # %"recoding::held::byte_of_both.exit.i"
	cmpl	$1, %ecx
	jne	.LBB67_26
# %bb.31:                               # %arm.2.i118.i
	cmpl	$2, %eax
	je	.LBB67_35
# %bb.32:                               # %arm.2.i118.i
	cmpl	$1, %eax
	jne	.LBB67_33
# %bb.34:                               # %arm.11.i121.i
	callq	"recoding::recoder_runs::run_whole::<#06163603a29b5506>"
	movq	%rdx, %r13
	cmpq	$3, %r15
	jbe	.LBB67_42
	jmp	.LBB67_49
.LBB67_36:                              # %arm.3.i109.i
	cmpl	$2, %eax
	je	.LBB67_40
# %bb.37:                               # %arm.3.i109.i
	cmpl	$1, %eax
	jne	.LBB67_38
# %bb.39:                               # %arm.15.i113.i
	callq	"recoding::recoder_runs::run_whole::<#e742a82e1969306f>"
	movq	%rdx, %r13
	cmpq	$3, %r15
	jbe	.LBB67_42
	jmp	.LBB67_49
.LBB67_26:                              # %arm.1.i125.i
	cmpl	$2, %eax
	je	.LBB67_30
# %bb.27:                               # %arm.1.i125.i
	cmpl	$1, %eax
	jne	.LBB67_28
# %bb.29:                               # %arm.7.i128.i
	callq	"recoding::recoder_runs::run_whole::<#2857ed0d0693875d>"
	movq	%rdx, %r13
	cmpq	$3, %r15
	jbe	.LBB67_42
	jmp	.LBB67_49
.LBB67_35:                              # %arm.12.i119.i
	callq	"recoding::recoder_runs::run_whole::<#daeca7e912b417d6>"
	movq	%rdx, %r13
	cmpq	$3, %r15
	jbe	.LBB67_42
	jmp	.LBB67_49
.LBB67_40:                              # %arm.16.i110.i
	callq	"recoding::recoder_runs::run_whole::<#9bba14706ba0829a>"
	movq	%rdx, %r13
	cmpq	$3, %r15
	jbe	.LBB67_42
	jmp	.LBB67_49
.LBB67_33:                              # %arm.10.i123.i
	callq	"recoding::recoder_runs::run_whole::<#d46ce40aec13b609>"
	movq	%rdx, %r13
	cmpq	$3, %r15
	jbe	.LBB67_42
	jmp	.LBB67_49
.LBB67_38:                              # %arm.14.i115.i
	callq	"recoding::recoder_runs::run_whole::<#8e1925640e2330c5>"
	movq	%rdx, %r13
	cmpq	$3, %r15
	jbe	.LBB67_42
	jmp	.LBB67_49
.LBB67_30:                              # %arm.8.i126.i
	callq	"recoding::recoder_runs::run_whole::<#9c534bed186decad>"
	movq	%rdx, %r13
	cmpq	$3, %r15
	ja	.LBB67_49
.LBB67_42:                              # %then.1.i5
	subq	%rax, %rbp
	movq	%rbp, (%rbx)
	je	.LBB67_74
# %bb.43:                               # %join.3.i.i22.i
	movzbl	10(%rsp,%rax), %ecx
	cmpq	$1, %rbp
	jne	.LBB67_45
# %bb.44:
	xorl	%edx, %edx
	xorl	%eax, %eax
	jmp	.LBB67_48
.LBB67_45:                              # %join.6.i.i25.i
	movzbl	11(%rsp,%rax), %edx
	cmpq	$2, %rbp
	jne	.LBB67_47
# %bb.46:
	xorl	%eax, %eax
	jmp	.LBB67_48
.LBB67_28:                              # %arm.6.i130.i
	callq	"recoding::recoder_runs::run_whole::<#d908eddfe8754f34>"
	movq	%rdx, %r13
	cmpq	$3, %r15
	jbe	.LBB67_42
.LBB67_49:                              # %join.3.i
	subq	%r12, %rax
	addq	%rax, %r14
	subq	%rax, %r15
	movzbl	16(%rbx), %ecx
	movzbl	17(%rbx), %eax
	movq	%r14, %rdi
	movq	%r15, %rsi
	cmpl	$2, %ecx
	je	.LBB67_61
# %bb.50:                               # %join.3.i
	cmpl	$1, %ecx
	jne	.LBB67_51
# %bb.56:                               # %arm.2.i.i
	cmpl	$2, %eax
	je	.LBB67_60
# %bb.57:                               # %arm.2.i.i
	cmpl	$1, %eax
	jne	.LBB67_58
# %bb.59:                               # %arm.11.i.i
	movq	16(%rsp), %rdx                  # 8-byte Reload
	callq	"recoding::recoder_runs::run_whole::<#06163603a29b5506>"
	subq	%rax, %r15
	movq	%r15, (%rbx)
	jne	.LBB67_67
	jmp	.LBB67_73
.LBB67_61:                              # %arm.3.i.i
	cmpl	$2, %eax
	je	.LBB67_65
# %bb.62:                               # %arm.3.i.i
	cmpl	$1, %eax
	jne	.LBB67_63
# %bb.64:                               # %arm.15.i.i
	movq	16(%rsp), %rdx                  # 8-byte Reload
	callq	"recoding::recoder_runs::run_whole::<#e742a82e1969306f>"
	subq	%rax, %r15
	movq	%r15, (%rbx)
	jne	.LBB67_67
	jmp	.LBB67_73
.LBB67_51:                              # %arm.1.i.i
	cmpl	$2, %eax
	je	.LBB67_55
# %bb.52:                               # %arm.1.i.i
	cmpl	$1, %eax
	jne	.LBB67_53
# %bb.54:                               # %arm.7.i.i
	movq	16(%rsp), %rdx                  # 8-byte Reload
	callq	"recoding::recoder_runs::run_whole::<#2857ed0d0693875d>"
	subq	%rax, %r15
	movq	%r15, (%rbx)
	jne	.LBB67_67
	jmp	.LBB67_73
.LBB67_47:                              # %join.9.i.i29.i
	movzbl	12(%rsp,%rax), %eax
.LBB67_48:                              # %"recoding::held::padded_to_three.exit.i34.i"
	movb	%cl, 8(%rbx)
	movb	%dl, 9(%rbx)
	movb	%al, 10(%rbx)
	jmp	.LBB67_74
.LBB67_1:                               # %"std_alloc::vec::Vec::grow::<#5fdc5e19576447a7>.exit.i"
	movq	%r13, %rdi
	callq	"std_alloc::vec::Vec::grow_amortized::<#5fdc5e19576447a7>"
	movl	%eax, %ecx
	movb	$1, %al
	testb	%cl, %cl
	je	.LBB67_77
# %bb.2:                                # %"std_alloc::vec::Vec::grow::<#5fdc5e19576447a7>.exit.i.arm.1_crit_edge"
	movq	(%rbx), %r12
	jmp	.LBB67_3
.LBB67_60:                              # %arm.12.i.i
	movq	16(%rsp), %rdx                  # 8-byte Reload
	callq	"recoding::recoder_runs::run_whole::<#daeca7e912b417d6>"
	subq	%rax, %r15
	movq	%r15, (%rbx)
	jne	.LBB67_67
	jmp	.LBB67_73
.LBB67_65:                              # %arm.16.i.i
	movq	16(%rsp), %rdx                  # 8-byte Reload
	callq	"recoding::recoder_runs::run_whole::<#9bba14706ba0829a>"
	subq	%rax, %r15
	movq	%r15, (%rbx)
	jne	.LBB67_67
	jmp	.LBB67_73
.LBB67_58:                              # %arm.10.i.i
	movq	16(%rsp), %rdx                  # 8-byte Reload
	callq	"recoding::recoder_runs::run_whole::<#d46ce40aec13b609>"
	subq	%rax, %r15
	movq	%r15, (%rbx)
	jne	.LBB67_67
	jmp	.LBB67_73
.LBB67_63:                              # %arm.14.i.i
	movq	16(%rsp), %rdx                  # 8-byte Reload
	callq	"recoding::recoder_runs::run_whole::<#8e1925640e2330c5>"
	subq	%rax, %r15
	movq	%r15, (%rbx)
	jne	.LBB67_67
	jmp	.LBB67_73
.LBB67_55:                              # %arm.8.i.i
	movq	16(%rsp), %rdx                  # 8-byte Reload
	callq	"recoding::recoder_runs::run_whole::<#9c534bed186decad>"
	subq	%rax, %r15
	movq	%r15, (%rbx)
	jne	.LBB67_67
	jmp	.LBB67_73
.LBB67_53:                              # %arm.6.i.i
	movq	16(%rsp), %rdx                  # 8-byte Reload
	callq	"recoding::recoder_runs::run_whole::<#d908eddfe8754f34>"
	subq	%rax, %r15
	movq	%r15, (%rbx)
	je	.LBB67_73
.LBB67_67:                              # %join.3.i.i.i
	movzbl	(%r14,%rax), %ecx
	cmpq	$1, %r15
	jne	.LBB67_69
# %bb.68:
	xorl	%esi, %esi
	xorl	%eax, %eax
	jmp	.LBB67_72
.LBB67_69:                              # %join.6.i.i.i
	movzbl	1(%r14,%rax), %esi
	cmpq	$2, %r15
	jne	.LBB67_71
# %bb.70:
	xorl	%eax, %eax
	jmp	.LBB67_72
.LBB67_71:                              # %join.9.i.i.i
	movzbl	2(%r14,%rax), %eax
.LBB67_72:                              # %"recoding::held::padded_to_three.exit.i.i"
	movb	%cl, 8(%rbx)
	movb	%sil, 9(%rbx)
	movb	%al, 10(%rbx)
.LBB67_73:                              # %"recoding::held::Held::hold.exit.i"
	addq	%rdx, %r13
.LBB67_74:                              # %"recoding::recoder::Recoder::append_joined::<#e3b2a9d4d2861db8>.exit"
	testq	%r13, %r13
	je	.LBB67_76
# %bb.75:                               # %then.1.i
	addq	24(%rbx), %r13
	movq	$-1, %rax
	cmovaeq	%r13, %rax
	movq	%rax, 24(%rbx)
.LBB67_76:                              # %return.5
	xorl	%eax, %eax
.LBB67_77:                              # %return.5
                                        # kill: def $al killed $al killed $eax
	addq	$24, %rsp
	.cfi_def_cfa_offset 56
	popq	%rbx
	.cfi_def_cfa_offset 48
	popq	%r12
	.cfi_def_cfa_offset 40
	popq	%r13
	.cfi_def_cfa_offset 32
	popq	%r14
	.cfi_def_cfa_offset 24
	popq	%r15
	.cfi_def_cfa_offset 16
	popq	%rbp
	.cfi_def_cfa_offset 8
	retq
.Lfunc_end67:
	.size	"recoding::recoder::Recoder::feed_joined::<#e3b2a9d4d2861db8>", .Lfunc_end67-"recoding::recoder::Recoder::feed_joined::<#e3b2a9d4d2861db8>"
	.cfi_endproc
                                        # -- End function
	.section	".text.text_programs::programs::stops::Stop::report::<#2daa2fb2be07fb73>","ax",@progbits
	.p2align	4                               # -- Begin function text_programs::programs::stops::Stop::report::<#2daa2fb2be07fb73>
	.type	"text_programs::programs::stops::Stop::report::<#2daa2fb2be07fb73>",@function
"text_programs::programs::stops::Stop::report::<#2daa2fb2be07fb73>": # @"text_programs::programs::stops::Stop::report::<#2daa2fb2be07fb73>"
	.cfi_startproc
# %bb.0:                                # %start
	pushq	%r15
	.cfi_def_cfa_offset 16
	pushq	%r14
	.cfi_def_cfa_offset 24
	pushq	%r13
	.cfi_def_cfa_offset 32
	pushq	%r12
	.cfi_def_cfa_offset 40
	pushq	%rbx
	.cfi_def_cfa_offset 48
	subq	$96, %rsp
	.cfi_def_cfa_offset 144
	.cfi_offset %rbx, -48
	.cfi_offset %r12, -40
	.cfi_offset %r13, -32
	.cfi_offset %r14, -24
	.cfi_offset %r15, -16
	movl	%edi, %ebx
	xorl	%r15d, %r15d
	.p2align	4
.LBB68_1:                               # %join.5.i.i
                                        # =>This Inner Loop Header: Depth=1
	leaq	.Lstatic.1(%rip), %rsi
	addq	%r15, %rsi
	movl	$6, %r14d
	subq	%r15, %r14
	movl	$2, %edi
	movq	%r14, %rdx
	callq	write@PLT
	testq	%rax, %rax
	js	.LBB68_14
# %bb.2:                                # %arm.6.i.i
                                        #   in Loop: Header=BB68_1 Depth=1
	cmpq	%r14, %rax
	cmovbq	%rax, %r14
	testq	%r14, %r14
	je	.LBB68_15
# %bb.3:                                # %join.12.i.i
                                        #   in Loop: Header=BB68_1 Depth=1
	addq	%r14, %r15
	cmpq	$6, %r15
	jb	.LBB68_1
# %bb.4:                                # %join.5.i12.i.peel
	leaq	.Lstatic.22(%rip), %rsi
	movl	$2, %edx
	movl	$2, %edi
	callq	write@PLT
	testq	%rax, %rax
	js	.LBB68_14
# %bb.5:                                # %arm.6.i20.i.peel
	je	.LBB68_15
# %bb.6:                                # %arm.6.i20.i.peel
	cmpq	$1, %rax
	jne	.LBB68_9
# %bb.7:                                # %join.5.i12.i
	leaq	.Lstatic.22+1(%rip), %rsi
	movl	$1, %edx
	movl	$2, %edi
	callq	write@PLT
	testq	%rax, %rax
	js	.LBB68_14
# %bb.8:                                # %arm.6.i20.i
	je	.LBB68_15
.LBB68_9:                               # %switch.lookup
	leaq	".Lswitch.table.text_programs::programs::stops::Stop::report::<#2daa2fb2be07fb73>"(%rip), %rax
	movzbl	%bl, %ecx
	movq	(%rax,%rcx,8), %r15
	leaq	".Lswitch.table.text_programs::programs::stops::Stop::report::<#2daa2fb2be07fb73>.102.rel"(%rip), %rax
	movslq	(%rax,%rcx,4), %r12
	addq	%rax, %r12
	xorl	%r13d, %r13d
	.p2align	4
.LBB68_10:                              # %join.5.i41.i
                                        # =>This Inner Loop Header: Depth=1
	leaq	(%r12,%r13), %rsi
	movq	%r15, %r14
	subq	%r13, %r14
	movl	$2, %edi
	movq	%r14, %rdx
	callq	write@PLT
	testq	%rax, %rax
	js	.LBB68_14
# %bb.11:                               # %arm.6.i49.i
                                        #   in Loop: Header=BB68_10 Depth=1
	cmpq	%r14, %rax
	cmovbq	%rax, %r14
	testq	%r14, %r14
	je	.LBB68_15
# %bb.12:                               # %join.12.i53.i
                                        #   in Loop: Header=BB68_10 Depth=1
	addq	%r14, %r13
	cmpq	%r15, %r13
	jb	.LBB68_10
# %bb.13:                               # %loop.2.i64.i.preheader
	leaq	.Lstatic.23(%rip), %rsi
	movl	$1, %edx
	movl	$2, %edi
	callq	write@PLT
	testq	%rax, %rax
	jns	.LBB68_15
.LBB68_14:                              # %arm.7.i74.i
	leaq	8(%rsp), %rdi
	callq	"std_io::io::error::last_error"
.LBB68_15:                              # %"text_programs::programs::stops::Stop::write_line::<#2daa2fb2be07fb73>.exit"
	testb	%bl, %bl
	sete	%al
	xorb	$3, %al
	addq	$96, %rsp
	.cfi_def_cfa_offset 48
	popq	%rbx
	.cfi_def_cfa_offset 40
	popq	%r12
	.cfi_def_cfa_offset 32
	popq	%r13
	.cfi_def_cfa_offset 24
	popq	%r14
	.cfi_def_cfa_offset 16
	popq	%r15
	.cfi_def_cfa_offset 8
	retq
.Lfunc_end68:
	.size	"text_programs::programs::stops::Stop::report::<#2daa2fb2be07fb73>", .Lfunc_end68-"text_programs::programs::stops::Stop::report::<#2daa2fb2be07fb73>"
	.cfi_endproc
                                        # -- End function
	.section	.rodata.cst16,"aM",@progbits,16
	.p2align	4, 0x0                          # -- Begin function main
.LCPI69_0:
	.byte	116                             # 0x74
	.byte	104                             # 0x68
	.byte	105                             # 0x69
	.byte	115                             # 0x73
	.byte	32                              # 0x20
	.byte	109                             # 0x6d
	.byte	97                              # 0x61
	.byte	99                              # 0x63
	.byte	104                             # 0x68
	.byte	105                             # 0x69
	.byte	110                             # 0x6e
	.byte	101                             # 0x65
	.byte	32                              # 0x20
	.byte	108                             # 0x6c
	.byte	97                              # 0x61
	.byte	99                              # 0x63
.LCPI69_1:
	.byte	107                             # 0x6b
	.byte	115                             # 0x73
	.byte	32                              # 0x20
	.byte	97                              # 0x61
	.byte	32                              # 0x20
	.byte	102                             # 0x66
	.byte	101                             # 0x65
	.byte	97                              # 0x61
	.byte	116                             # 0x74
	.byte	117                             # 0x75
	.byte	114                             # 0x72
	.byte	101                             # 0x65
	.byte	32                              # 0x20
	.byte	111                             # 0x6f
	.byte	102                             # 0x66
	.byte	32                              # 0x20
.LCPI69_2:
	.byte	120                             # 0x78
	.byte	56                              # 0x38
	.byte	54                              # 0x36
	.byte	45                              # 0x2d
	.byte	54                              # 0x36
	.byte	52                              # 0x34
	.byte	45                              # 0x2d
	.byte	118                             # 0x76
	.byte	50                              # 0x32
	.byte	44                              # 0x2c
	.byte	32                              # 0x20
	.byte	119                             # 0x77
	.byte	104                             # 0x68
	.byte	105                             # 0x69
	.byte	99                              # 0x63
	.byte	104                             # 0x68
.LCPI69_3:
	.byte	32                              # 0x20
	.byte	116                             # 0x74
	.byte	104                             # 0x68
	.byte	105                             # 0x69
	.byte	115                             # 0x73
	.byte	32                              # 0x20
	.byte	112                             # 0x70
	.byte	114                             # 0x72
	.byte	111                             # 0x6f
	.byte	103                             # 0x67
	.byte	114                             # 0x72
	.byte	97                              # 0x61
	.byte	109                             # 0x6d
	.byte	32                              # 0x20
	.byte	119                             # 0x77
	.byte	97                              # 0x61
.LCPI69_4:
	.byte	115                             # 0x73
	.byte	32                              # 0x20
	.byte	98                              # 0x62
	.byte	117                             # 0x75
	.byte	105                             # 0x69
	.byte	108                             # 0x6c
	.byte	116                             # 0x74
	.byte	32                              # 0x20
	.byte	102                             # 0x66
	.byte	111                             # 0x6f
	.byte	114                             # 0x72
	.byte	58                              # 0x3a
	.byte	32                              # 0x20
	.byte	114                             # 0x72
	.byte	117                             # 0x75
	.byte	110                             # 0x6e
.LCPI69_5:
	.byte	32                              # 0x20
	.byte	105                             # 0x69
	.byte	116                             # 0x74
	.byte	32                              # 0x20
	.byte	111                             # 0x6f
	.byte	110                             # 0x6e
	.byte	32                              # 0x20
	.byte	97                              # 0x61
	.byte	110                             # 0x6e
	.byte	111                             # 0x6f
	.byte	116                             # 0x74
	.byte	104                             # 0x68
	.byte	101                             # 0x65
	.byte	114                             # 0x72
	.byte	32                              # 0x20
	.byte	109                             # 0x6d
.LCPI69_6:
	.byte	97                              # 0x61
	.byte	99                              # 0x63
	.byte	104                             # 0x68
	.byte	105                             # 0x69
	.byte	110                             # 0x6e
	.byte	101                             # 0x65
	.byte	44                              # 0x2c
	.byte	32                              # 0x20
	.byte	111                             # 0x6f
	.byte	114                             # 0x72
	.byte	32                              # 0x20
	.byte	98                              # 0x62
	.byte	117                             # 0x75
	.byte	105                             # 0x69
	.byte	108                             # 0x6c
	.byte	100                             # 0x64
.LCPI69_7:
	.byte	32                              # 0x20
	.byte	105                             # 0x69
	.byte	116                             # 0x74
	.byte	32                              # 0x20
	.byte	119                             # 0x77
	.byte	105                             # 0x69
	.byte	116                             # 0x74
	.byte	104                             # 0x68
	.byte	32                              # 0x20
	.byte	45                              # 0x2d
	.byte	45                              # 0x2d
	.byte	99                              # 0x63
	.byte	112                             # 0x70
	.byte	117                             # 0x75
	.byte	32                              # 0x20
	.byte	120                             # 0x78
	.section	.text.main,"ax",@progbits
	.globl	main
	.p2align	4
	.type	main,@function
main:                                   # @main
	.cfi_startproc
# %bb.0:                                # %start
	endbr64
	pushq	%rbp
	.cfi_def_cfa_offset 16
	.cfi_offset %rbp, -16
	movq	%rsp, %rbp
	.cfi_def_cfa_register %rbp
	pushq	%rbx
	pushq	%rax
	.cfi_offset %rbx, -24
	movl	$1, %esi
	movl	$13, %edi
	callq	__sysv_signal@PLT
	xorl	%edi, %edi
	callq	__x86_get_cpuid_feature_leaf@PLT
	movl	24(%rax), %ebx
	movl	$2, %edi
	callq	__x86_get_cpuid_feature_leaf@PLT
	notl	%ebx
	testl	$9970177, %ebx                  # imm = 0x982201
	jne	.LBB69_2
# %bb.1:                                # %start
	movl	24(%rax), %eax
	andl	$1, %eax
	je	.LBB69_2
# %bb.6:                                # %run
	leaq	-8(%rbp), %rsp
	popq	%rbx
	popq	%rbp
	.cfi_def_cfa %rsp, 8
	jmp	"recode::main+start"            # TAILCALL
.LBB69_2:                               # %refuse
	.cfi_def_cfa %rbp, 16
	movq	%rsp, %rsi
	subq	$144, %rsi
	cmpq	%rsp, %rsi
	jge	.LBB69_5
.LBB69_4:                               # %refuse
                                        # =>This Inner Loop Header: Depth=1
	xorq	$0, (%rsp)
	subq	$3072, %rsp                     # imm = 0xC00
	cmpq	%rsp, %rsi
	jl	.LBB69_4
.LBB69_5:                               # %refuse
	movq	%rsi, %rsp
	movaps	.LCPI69_0(%rip), %xmm0          # xmm0 = [116,104,105,115,32,109,97,99,104,105,110,101,32,108,97,99]
	movaps	%xmm0, (%rsi)
	movaps	.LCPI69_1(%rip), %xmm0          # xmm0 = [107,115,32,97,32,102,101,97,116,117,114,101,32,111,102,32]
	movaps	%xmm0, 16(%rsi)
	movaps	.LCPI69_2(%rip), %xmm0          # xmm0 = [120,56,54,45,54,52,45,118,50,44,32,119,104,105,99,104]
	movaps	%xmm0, 32(%rsi)
	movaps	.LCPI69_3(%rip), %xmm0          # xmm0 = [32,116,104,105,115,32,112,114,111,103,114,97,109,32,119,97]
	movaps	%xmm0, 48(%rsi)
	movaps	.LCPI69_4(%rip), %xmm0          # xmm0 = [115,32,98,117,105,108,116,32,102,111,114,58,32,114,117,110]
	movaps	%xmm0, 64(%rsi)
	movaps	.LCPI69_5(%rip), %xmm0          # xmm0 = [32,105,116,32,111,110,32,97,110,111,116,104,101,114,32,109]
	movaps	%xmm0, 80(%rsi)
	movaps	.LCPI69_6(%rip), %xmm0          # xmm0 = [97,99,104,105,110,101,44,32,111,114,32,98,117,105,108,100]
	movaps	%xmm0, 96(%rsi)
	movaps	.LCPI69_7(%rip), %xmm0          # xmm0 = [32,105,116,32,119,105,116,104,32,45,45,99,112,117,32,120]
	movaps	%xmm0, 112(%rsi)
	movl	$908932664, 128(%rsi)           # imm = 0x362D3638
	movw	$2612, 132(%rsi)                # imm = 0xA34
	movl	$134, %edx
	movl	$2, %edi
	callq	__write@PLT
	movl	$127, %eax
	leaq	-8(%rbp), %rsp
	popq	%rbx
	popq	%rbp
	.cfi_def_cfa %rsp, 8
	retq
.Lfunc_end69:
	.size	main, .Lfunc_end69-main
	.cfi_endproc
                                        # -- End function
	.type	.Lstatic.1,@object              # @static.1
	.section	.rodata..Lstatic.1,"a",@progbits
.Lstatic.1:
	.ascii	"recode"
	.size	.Lstatic.1, 6

	.type	.Lstatic.8,@object              # @static.8
	.section	.rodata..Lstatic.8,"a",@progbits
.Lstatic.8:
	.ascii	"\000\000\000\000\000\000\000\000\000\000\000\000\000\000\000\000\000\000\000\000\000\000\000\000\000\000\000\000\000\000\000\000\000\000\000\000\000\000\000\000\000\000\000\000\000\000\000\000\000\000\000\000\000\000\000\000\000\000\000\000\000\000\000\000\000\000\000\000\000\000\000\000\000\000\000\000\000\000\000\000\000\000\000\000\000\000\000\000\000\000\000\000\000\000\000\000\000\000\000\000\000\000\000\000\000\000\000\000\000\000\000\000\000\000\000\000\000\000\000\000\000\000\000\000\000\000\000\000\001\001\001\001\001\001\001\001\001\001\001\001\001\001\001\001\002\002\002\002\002\002\002\002\002\002\002\002\002\002\002\002\003\003\003\003\003\003\003\003\003\003\003\003\003\003\003\003\003\003\003\003\003\003\003\003\003\003\003\003\003\003\003\003\004\004\005\005\005\005\005\005\005\005\005\005\005\005\005\005\005\005\005\005\005\005\005\005\005\005\005\005\005\005\005\005\006\007\007\007\007\007\007\007\007\007\007\007\007\b\007\007\t\n\n\n\013\004\004\004\004\004\004\004\004\004\004\004"
	.size	.Lstatic.8, 256

	.type	.Lstatic.9,@object              # @static.9
	.section	.rodata..Lstatic.9,"a",@progbits
.Lstatic.9:
	.ascii	"\r\016\016\016\017\001\004\002\005\006\003\007\020\020\020\020\020\r\r\r\020\020\020\020\020\020\020\020\020\020\020\020\020\001\001\001\020\020\020\020\020\020\020\020\020\020\020\020\020\002\002\002\020\020\020\020\020\020\020\020\020\020\020\020\020\t\t\001\020\020\020\020\020\020\020\020\020\020\020\020\020\001\001\n\020\020\020\020\020\020\020\020\020\020\020\020\020\b\002\002\020\020\020\020\020\020\020\020\020\020\020\020\020\002\013\013\020\020\020\020\020\020\020\020\020\020\020\020\020\t\t\t\020\020\020\020\020\020\020\020\020\020\020\020\020\021\021\021\020\020\020\020\020\020\020\020\020\020\020\020\020\022\022\022\020\020\020\020\020\020\020\020\020\020\020\020\020\f\f\f\020\020\020\020\020\020\020\020\020\020\020\020\020\023\023\023\020\020\020\020\020\020\020\020\020\020\020\020"
	.size	.Lstatic.9, 208

	.type	.Lstatic.10,@object             # @static.10
	.section	.rodata..Lstatic.10,"a",@progbits
.Lstatic.10:
	.ascii	"\200\200\200\200\200\200\200\200\200\200\200\200\000\001\002\003\200\200\200\200\200\200\200\200\200\200\200\000\001\002\003\007\200\200\200\200\200\200\200\200\200\200\000\001\002\003\006\007\200\200\200\200\200\200\200\200\200\000\001\002\003\005\006\007\200\200\200\200\200\200\200\200\000\001\002\003\004\005\006\007\200\200\200\200\200\200\200\000\001\002\003\004\005\006\007\017\200\200\200\200\200\200\000\001\002\003\004\005\006\007\016\017\200\200\200\200\200\000\001\002\003\004\005\006\007\r\016\017\200\200\200\200\000\001\002\003\004\005\006\007\f\r\016\017\200\200\200\000\001\002\003\004\005\006\007\013\f\r\016\017\200\200\000\001\002\003\004\005\006\007\n\013\f\r\016\017\200\000\001\002\003\004\005\006\007\t\n\013\f\r\016\017\000\001\002\003\004\005\006\007\b\t\n\013\f\r\016\017"
	.size	.Lstatic.10, 208

	.type	.Lstatic.17,@object             # @static.17
	.section	.rodata..Lstatic.17,"a",@progbits
.Lstatic.17:
	.ascii	"\000\000\000\000\000\000\000\000\000\000\000\000\000\000\000\000\000\001\000\000\000\000\000\000\000\000\000\000\000\000\000\000\002\003\000\000\000\000\000\000\000\000\000\000\000\000\000\000\000\001\002\003\000\000\000\000\000\000\000\000\000\000\000\000\004\005\000\000\000\000\000\000\000\000\000\000\000\000\000\000\000\001\004\005\000\000\000\000\000\000\000\000\000\000\000\000\002\003\004\005\000\000\000\000\000\000\000\000\000\000\000\000\000\001\002\003\004\005\000\000\000\000\000\000\000\000\000\000\006\007\000\000\000\000\000\000\000\000\000\000\000\000\000\000\000\001\006\007\000\000\000\000\000\000\000\000\000\000\000\000\002\003\006\007\000\000\000\000\000\000\000\000\000\000\000\000\000\001\002\003\006\007\000\000\000\000\000\000\000\000\000\000\004\005\006\007\000\000\000\000\000\000\000\000\000\000\000\000\000\001\004\005\006\007\000\000\000\000\000\000\000\000\000\000\002\003\004\005\006\007\000\000\000\000\000\000\000\000\000\000\000\001\002\003\004\005\006\007\000\000\000\000\000\000\000\000\b\t\000\000\000\000\000\000\000\000\000\000\000\000\000\000\000\001\b\t\000\000\000\000\000\000\000\000\000\000\000\000\002\003\b\t\000\000\000\000\000\000\000\000\000\000\000\000\000\001\002\003\b\t\000\000\000\000\000\000\000\000\000\000\004\005\b\t\000\000\000\000\000\000\000\000\000\000\000\000\000\001\004\005\b\t\000\000\000\000\000\000\000\000\000\000\002\003\004\005\b\t\000\000\000\000\000\000\000\000\000\000\000\001\002\003\004\005\b\t\000\000\000\000\000\000\000\000\006\007\b\t\000\000\000\000\000\000\000\000\000\000\000\000\000\001\006\007\b\t\000\000\000\000\000\000\000\000\000\000\002\003\006\007\b\t\000\000\000\000\000\000\000\000\000\000\000\001\002\003\006\007\b\t\000\000\000\000\000\000\000\000\004\005\006\007\b\t\000\000\000\000\000\000\000\000\000\000\000\001\004\005\006\007\b\t\000\000\000\000\000\000\000\000\002\003\004\005\006\007\b\t\000\000\000\000\000\000\000\000\000\001\002\003\004\005\006\007\b\t\000\000\000\000\000\000\n\013\000\000\000\000\000\000\000\000\000\000\000\000\000\000\000\001\n\013\000\000\000\000\000\000\000\000\000\000\000\000\002\003\n\013\000\000\000\000\000\000\000\000\000\000\000\000\000\001\002\003\n\013\000\000\000\000\000\000\000\000\000\000\004\005\n\013\000\000\000\000\000\000\000\000\000\000\000\000\000\001\004\005\n\013\000\000\000\000\000\000\000\000\000\000\002\003\004\005\n\013\000\000\000\000\000\000\000\000\000\000\000\001\002\003\004\005\n\013\000\000\000\000\000\000\000\000\006\007\n\013\000\000\000\000\000\000\000\000\000\000\000\000\000\001\006\007\n\013\000\000\000\000\000\000\000\000\000\000\002\003\006\007\n\013\000\000\000\000\000\000\000\000\000\000\000\001\002\003\006\007\n\013\000\000\000\000\000\000\000\000\004\005\006\007\n\013\000\000\000\000\000\000\000\000\000\000\000\001\004\005\006\007\n\013\000\000\000\000\000\000\000\000\002\003\004\005\006\007\n\013\000\000\000\000\000\000\000\000\000\001\002\003\004\005\006\007\n\013\000\000\000\000\000\000\b\t\n\013\000\000\000\000\000\000\000\000\000\000\000\000\000\001\b\t\n\013\000\000\000\000\000\000\000\000\000\000\002\003\b\t\n\013\000\000\000\000\000\000\000\000\000\000\000\001\002\003\b\t\n\013\000\000\000\000\000\000\000\000\004\005\b\t\n\013\000\000\000\000\000\000\000\000\000\000\000\001\004\005\b\t\n\013\000\000\000\000\000\000\000\000\002\003\004\005\b\t\n\013\000\000\000\000\000\000\000\000\000\001\002\003\004\005\b\t\n\013\000\000\000\000\000\000\006\007\b\t\n\013\000\000\000\000\000\000\000\000\000\000\000\001\006\007\b\t\n\013\000\000\000\000\000\000\000\000\002\003\006\007\b\t\n\013\000\000\000\000\000\000\000\000\000\001\002\003\006\007\b\t\n\013\000\000\000\000\000\000\004\005\006\007\b\t\n\013\000\000\000\000\000\000\000\000\000\001\004\005\006\007\b\t\n\013\000\000\000\000\000\000\002\003\004\005\006\007\b\t\n\013\000\000\000\000\000\000\000\001\002\003\004\005\006\007\b\t\n\013\000\000\000\000\f\r\000\000\000\000\000\000\000\000\000\000\000\000\000\000\000\001\f\r\000\000\000\000\000\000\000\000\000\000\000\000\002\003\f\r\000\000\000\000\000\000\000\000\000\000\000\000\000\001\002\003\f\r\000\000\000\000\000\000\000\000\000\000\004\005\f\r\000\000\000\000\000\000\000\000\000\000\000\000\000\001\004\005\f\r\000\000\000\000\000\000\000\000\000\000\002\003\004\005\f\r\000\000\000\000\000\000\000\000\000\000\000\001\002\003\004\005\f\r\000\000\000\000\000\000\000\000\006\007\f\r\000\000\000\000\000\000\000\000\000\000\000\000\000\001\006\007\f\r\000\000\000\000\000\000\000\000\000\000\002\003\006\007\f\r\000\000\000\000\000\000\000\000\000\000\000\001\002\003\006\007\f\r\000\000\000\000\000\000\000\000\004\005\006\007\f\r\000\000\000\000\000\000\000\000\000\000\000\001\004\005\006\007\f\r\000\000\000\000\000\000\000\000\002\003\004\005\006\007\f\r\000\000\000\000\000\000\000\000\000\001\002\003\004\005\006\007\f\r\000\000\000\000\000\000\b\t\f\r\000\000\000\000\000\000\000\000\000\000\000\000\000\001\b\t\f\r\000\000\000\000\000\000\000\000\000\000\002\003\b\t\f\r\000\000\000\000\000\000\000\000\000\000\000\001\002\003\b\t\f\r\000\000\000\000\000\000\000\000\004\005\b\t\f\r\000\000\000\000\000\000\000\000\000\000\000\001\004\005\b\t\f\r\000\000\000\000\000\000\000\000\002\003\004\005\b\t\f\r\000\000\000\000\000\000\000\000\000\001\002\003\004\005\b\t\f\r\000\000\000\000\000\000\006\007\b\t\f\r\000\000\000\000\000\000\000\000\000\000\000\001\006\007\b\t\f\r\000\000\000\000\000\000\000\000\002\003\006\007\b\t\f\r\000\000\000\000\000\000\000\000\000\001\002\003\006\007\b\t\f\r\000\000\000\000\000\000\004\005\006\007\b\t\f\r\000\000\000\000\000\000\000\000\000\001\004\005\006\007\b\t\f\r\000\000\000\000\000\000\002\003\004\005\006\007\b\t\f\r\000\000\000\000\000\000\000\001\002\003\004\005\006\007\b\t\f\r\000\000\000\000\n\013\f\r\000\000\000\000\000\000\000\000\000\000\000\000\000\001\n\013\f\r\000\000\000\000\000\000\000\000\000\000\002\003\n\013\f\r\000\000\000\000\000\000\000\000\000\000\000\001\002\003\n\013\f\r\000\000\000\000\000\000\000\000\004\005\n\013\f\r\000\000\000\000\000\000\000\000\000\000\000\001\004\005\n\013\f\r\000\000\000\000\000\000\000\000\002\003\004\005\n\013\f\r\000\000\000\000\000\000\000\000\000\001\002\003\004\005\n\013\f\r\000\000\000\000\000\000\006\007\n\013\f\r\000\000\000\000\000\000\000\000\000\000\000\001\006\007\n\013\f\r\000\000\000\000\000\000\000\000\002\003\006\007\n\013\f\r\000\000\000\000\000\000\000\000\000\001\002\003\006\007\n\013\f\r\000\000\000\000\000\000\004\005\006\007\n\013\f\r\000\000\000\000\000\000\000\000\000\001\004\005\006\007\n\013\f\r\000\000\000\000\000\000\002\003\004\005\006\007\n\013\f\r\000\000\000\000\000\000\000\001\002\003\004\005\006\007\n\013\f\r\000\000\000\000\b\t\n\013\f\r\000\000\000\000\000\000\000\000\000\000\000\001\b\t\n\013\f\r\000\000\000\000\000\000\000\000\002\003\b\t\n\013\f\r\000\000\000\000\000\000\000\000\000\001\002\003\b\t\n\013\f\r\000\000\000\000\000\000\004\005\b\t\n\013\f\r\000\000\000\000\000\000\000\000\000\001\004\005\b\t\n\013\f\r\000\000\000\000\000\000\002\003\004\005\b\t\n\013\f\r\000\000\000\000\000\000\000\001\002\003\004\005\b\t\n\013\f\r\000\000\000\000\006\007\b\t\n\013\f\r\000\000\000\000\000\000\000\000\000\001\006\007\b\t\n\013\f\r\000\000\000\000\000\000\002\003\006\007\b\t\n\013\f\r\000\000\000\000\000\000\000\001\002\003\006\007\b\t\n\013\f\r\000\000\000\000\004\005\006\007\b\t\n\013\f\r\000\000\000\000\000\000\000\001\004\005\006\007\b\t\n\013\f\r\000\000\000\000\002\003\004\005\006\007\b\t\n\013\f\r\000\000\000\000\000\001\002\003\004\005\006\007\b\t\n\013\f\r\000\000\016\017\000\000\000\000\000\000\000\000\000\000\000\000\000\000\000\001\016\017\000\000\000\000\000\000\000\000\000\000\000\000\002\003\016\017\000\000\000\000\000\000\000\000\000\000\000\000\000\001\002\003\016\017\000\000\000\000\000\000\000\000\000\000\004\005\016\017\000\000\000\000\000\000\000\000\000\000\000\000\000\001\004\005\016\017\000\000\000\000\000\000\000\000\000\000\002\003\004\005\016\017\000\000\000\000\000\000\000\000\000\000\000\001\002\003\004\005\016\017\000\000\000\000\000\000\000\000\006\007\016\017\000\000\000\000\000\000\000\000\000\000\000\000\000\001\006\007\016\017\000\000\000\000\000\000\000\000\000\000\002\003\006\007\016\017\000\000\000\000\000\000\000\000\000\000\000\001\002\003\006\007\016\017\000\000\000\000\000\000\000\000\004\005\006\007\016\017\000\000\000\000\000\000\000\000\000\000\000\001\004\005\006\007\016\017\000\000\000\000\000\000\000\000\002\003\004\005\006\007\016\017\000\000\000\000\000\000\000\000\000\001\002\003\004\005\006\007\016\017\000\000\000\000\000\000\b\t\016\017\000\000\000\000\000\000\000\000\000\000\000\000\000\001\b\t\016\017\000\000\000\000\000\000\000\000\000\000\002\003\b\t\016\017\000\000\000\000\000\000\000\000\000\000\000\001\002\003\b\t\016\017\000\000\000\000\000\000\000\000\004\005\b\t\016\017\000\000\000\000\000\000\000\000\000\000\000\001\004\005\b\t\016\017\000\000\000\000\000\000\000\000\002\003\004\005\b\t\016\017\000\000\000\000\000\000\000\000\000\001\002\003\004\005\b\t\016\017\000\000\000\000\000\000\006\007\b\t\016\017\000\000\000\000\000\000\000\000\000\000\000\001\006\007\b\t\016\017\000\000\000\000\000\000\000\000\002\003\006\007\b\t\016\017\000\000\000\000\000\000\000\000\000\001\002\003\006\007\b\t\016\017\000\000\000\000\000\000\004\005\006\007\b\t\016\017\000\000\000\000\000\000\000\000\000\001\004\005\006\007\b\t\016\017\000\000\000\000\000\000\002\003\004\005\006\007\b\t\016\017\000\000\000\000\000\000\000\001\002\003\004\005\006\007\b\t\016\017\000\000\000\000\n\013\016\017\000\000\000\000\000\000\000\000\000\000\000\000\000\001\n\013\016\017\000\000\000\000\000\000\000\000\000\000\002\003\n\013\016\017\000\000\000\000\000\000\000\000\000\000\000\001\002\003\n\013\016\017\000\000\000\000\000\000\000\000\004\005\n\013\016\017\000\000\000\000\000\000\000\000\000\000\000\001\004\005\n\013\016\017\000\000\000\000\000\000\000\000\002\003\004\005\n\013\016\017\000\000\000\000\000\000\000\000\000\001\002\003\004\005\n\013\016\017\000\000\000\000\000\000\006\007\n\013\016\017\000\000\000\000\000\000\000\000\000\000\000\001\006\007\n\013\016\017\000\000\000\000\000\000\000\000\002\003\006\007\n\013\016\017\000\000\000\000\000\000\000\000\000\001\002\003\006\007\n\013\016\017\000\000\000\000\000\000\004\005\006\007\n\013\016\017\000\000\000\000\000\000\000\000\000\001\004\005\006\007\n\013\016\017\000\000\000\000\000\000\002\003\004\005\006\007\n\013\016\017\000\000\000\000\000\000\000\001\002\003\004\005\006\007\n\013\016\017\000\000\000\000\b\t\n\013\016\017\000\000\000\000\000\000\000\000\000\000\000\001\b\t\n\013\016\017\000\000\000\000\000\000\000\000\002\003\b\t\n\013\016\017\000\000\000\000\000\000\000\000\000\001\002\003\b\t\n\013\016\017\000\000\000\000\000\000\004\005\b\t\n\013\016\017\000\000\000\000\000\000\000\000\000\001\004\005\b\t\n\013\016\017\000\000\000\000\000\000\002\003\004\005\b\t\n\013\016\017\000\000\000\000\000\000\000\001\002\003\004\005\b\t\n\013\016\017\000\000\000\000\006\007\b\t\n\013\016\017\000\000\000\000\000\000\000\000\000\001\006\007\b\t\n\013\016\017\000\000\000\000\000\000\002\003\006\007\b\t\n\013\016\017\000\000\000\000\000\000\000\001\002\003\006\007\b\t\n\013\016\017\000\000\000\000\004\005\006\007\b\t\n\013\016\017\000\000\000\000\000\000\000\001\004\005\006\007\b\t\n\013\016\017\000\000\000\000\002\003\004\005\006\007\b\t\n\013\016\017\000\000\000\000\000\001\002\003\004\005\006\007\b\t\n\013\016\017\000\000\f\r\016\017\000\000\000\000\000\000\000\000\000\000\000\000\000\001\f\r\016\017\000\000\000\000\000\000\000\000\000\000\002\003\f\r\016\017\000\000\000\000\000\000\000\000\000\000\000\001\002\003\f\r\016\017\000\000\000\000\000\000\000\000\004\005\f\r\016\017\000\000\000\000\000\000\000\000\000\000\000\001\004\005\f\r\016\017\000\000\000\000\000\000\000\000\002\003\004\005\f\r\016\017\000\000\000\000\000\000\000\000\000\001\002\003\004\005\f\r\016\017\000\000\000\000\000\000\006\007\f\r\016\017\000\000\000\000\000\000\000\000\000\000\000\001\006\007\f\r\016\017\000\000\000\000\000\000\000\000\002\003\006\007\f\r\016\017\000\000\000\000\000\000\000\000\000\001\002\003\006\007\f\r\016\017\000\000\000\000\000\000\004\005\006\007\f\r\016\017\000\000\000\000\000\000\000\000\000\001\004\005\006\007\f\r\016\017\000\000\000\000\000\000\002\003\004\005\006\007\f\r\016\017\000\000\000\000\000\000\000\001\002\003\004\005\006\007\f\r\016\017\000\000\000\000\b\t\f\r\016\017\000\000\000\000\000\000\000\000\000\000\000\001\b\t\f\r\016\017\000\000\000\000\000\000\000\000\002\003\b\t\f\r\016\017\000\000\000\000\000\000\000\000\000\001\002\003\b\t\f\r\016\017\000\000\000\000\000\000\004\005\b\t\f\r\016\017\000\000\000\000\000\000\000\000\000\001\004\005\b\t\f\r\016\017\000\000\000\000\000\000\002\003\004\005\b\t\f\r\016\017\000\000\000\000\000\000\000\001\002\003\004\005\b\t\f\r\016\017\000\000\000\000\006\007\b\t\f\r\016\017\000\000\000\000\000\000\000\000\000\001\006\007\b\t\f\r\016\017\000\000\000\000\000\000\002\003\006\007\b\t\f\r\016\017\000\000\000\000\000\000\000\001\002\003\006\007\b\t\f\r\016\017\000\000\000\000\004\005\006\007\b\t\f\r\016\017\000\000\000\000\000\000\000\001\004\005\006\007\b\t\f\r\016\017\000\000\000\000\002\003\004\005\006\007\b\t\f\r\016\017\000\000\000\000\000\001\002\003\004\005\006\007\b\t\f\r\016\017\000\000\n\013\f\r\016\017\000\000\000\000\000\000\000\000\000\000\000\001\n\013\f\r\016\017\000\000\000\000\000\000\000\000\002\003\n\013\f\r\016\017\000\000\000\000\000\000\000\000\000\001\002\003\n\013\f\r\016\017\000\000\000\000\000\000\004\005\n\013\f\r\016\017\000\000\000\000\000\000\000\000\000\001\004\005\n\013\f\r\016\017\000\000\000\000\000\000\002\003\004\005\n\013\f\r\016\017\000\000\000\000\000\000\000\001\002\003\004\005\n\013\f\r\016\017\000\000\000\000\006\007\n\013\f\r\016\017\000\000\000\000\000\000\000\000\000\001\006\007\n\013\f\r\016\017\000\000\000\000\000\000\002\003\006\007\n\013\f\r\016\017\000\000\000\000\000\000\000\001\002\003\006\007\n\013\f\r\016\017\000\000\000\000\004\005\006\007\n\013\f\r\016\017\000\000\000\000\000\000\000\001\004\005\006\007\n\013\f\r\016\017\000\000\000\000\002\003\004\005\006\007\n\013\f\r\016\017\000\000\000\000\000\001\002\003\004\005\006\007\n\013\f\r\016\017\000\000\b\t\n\013\f\r\016\017\000\000\000\000\000\000\000\000\000\001\b\t\n\013\f\r\016\017\000\000\000\000\000\000\002\003\b\t\n\013\f\r\016\017\000\000\000\000\000\000\000\001\002\003\b\t\n\013\f\r\016\017\000\000\000\000\004\005\b\t\n\013\f\r\016\017\000\000\000\000\000\000\000\001\004\005\b\t\n\013\f\r\016\017\000\000\000\000\002\003\004\005\b\t\n\013\f\r\016\017\000\000\000\000\000\001\002\003\004\005\b\t\n\013\f\r\016\017\000\000\006\007\b\t\n\013\f\r\016\017\000\000\000\000\000\000\000\001\006\007\b\t\n\013\f\r\016\017\000\000\000\000\002\003\006\007\b\t\n\013\f\r\016\017\000\000\000\000\000\001\002\003\006\007\b\t\n\013\f\r\016\017\000\000\004\005\006\007\b\t\n\013\f\r\016\017\000\000\000\000\000\001\004\005\006\007\b\t\n\013\f\r\016\017\000\000\002\003\004\005\006\007\b\t\n\013\f\r\016\017\000\000\000\001\002\003\004\005\006\007\b\t\n\013\f\r\016\017"
	.size	.Lstatic.17, 4096

	.type	.Lstatic.19,@object             # @static.19
	.section	.rodata..Lstatic.19,"a",@progbits
.Lstatic.19:
	.ascii	"\001\003\005\007\t\013\r\017\000\000\000\000\000\000\000\000\000\001\003\005\007\t\013\r\017\000\000\000\000\000\000\000\001\002\003\005\007\t\013\r\017\000\000\000\000\000\000\000\000\001\002\003\005\007\t\013\r\017\000\000\000\000\000\000\001\003\004\005\007\t\013\r\017\000\000\000\000\000\000\000\000\001\003\004\005\007\t\013\r\017\000\000\000\000\000\000\001\002\003\004\005\007\t\013\r\017\000\000\000\000\000\000\000\001\002\003\004\005\007\t\013\r\017\000\000\000\000\000\001\003\005\006\007\t\013\r\017\000\000\000\000\000\000\000\000\001\003\005\006\007\t\013\r\017\000\000\000\000\000\000\001\002\003\005\006\007\t\013\r\017\000\000\000\000\000\000\000\001\002\003\005\006\007\t\013\r\017\000\000\000\000\000\001\003\004\005\006\007\t\013\r\017\000\000\000\000\000\000\000\001\003\004\005\006\007\t\013\r\017\000\000\000\000\000\001\002\003\004\005\006\007\t\013\r\017\000\000\000\000\000\000\001\002\003\004\005\006\007\t\013\r\017\000\000\000\000\001\003\005\007\b\t\013\r\017\000\000\000\000\000\000\000\000\001\003\005\007\b\t\013\r\017\000\000\000\000\000\000\001\002\003\005\007\b\t\013\r\017\000\000\000\000\000\000\000\001\002\003\005\007\b\t\013\r\017\000\000\000\000\000\001\003\004\005\007\b\t\013\r\017\000\000\000\000\000\000\000\001\003\004\005\007\b\t\013\r\017\000\000\000\000\000\001\002\003\004\005\007\b\t\013\r\017\000\000\000\000\000\000\001\002\003\004\005\007\b\t\013\r\017\000\000\000\000\001\003\005\006\007\b\t\013\r\017\000\000\000\000\000\000\000\001\003\005\006\007\b\t\013\r\017\000\000\000\000\000\001\002\003\005\006\007\b\t\013\r\017\000\000\000\000\000\000\001\002\003\005\006\007\b\t\013\r\017\000\000\000\000\001\003\004\005\006\007\b\t\013\r\017\000\000\000\000\000\000\001\003\004\005\006\007\b\t\013\r\017\000\000\000\000\001\002\003\004\005\006\007\b\t\013\r\017\000\000\000\000\000\001\002\003\004\005\006\007\b\t\013\r\017\000\000\000\001\003\005\007\t\n\013\r\017\000\000\000\000\000\000\000\000\001\003\005\007\t\n\013\r\017\000\000\000\000\000\000\001\002\003\005\007\t\n\013\r\017\000\000\000\000\000\000\000\001\002\003\005\007\t\n\013\r\017\000\000\000\000\000\001\003\004\005\007\t\n\013\r\017\000\000\000\000\000\000\000\001\003\004\005\007\t\n\013\r\017\000\000\000\000\000\001\002\003\004\005\007\t\n\013\r\017\000\000\000\000\000\000\001\002\003\004\005\007\t\n\013\r\017\000\000\000\000\001\003\005\006\007\t\n\013\r\017\000\000\000\000\000\000\000\001\003\005\006\007\t\n\013\r\017\000\000\000\000\000\001\002\003\005\006\007\t\n\013\r\017\000\000\000\000\000\000\001\002\003\005\006\007\t\n\013\r\017\000\000\000\000\001\003\004\005\006\007\t\n\013\r\017\000\000\000\000\000\000\001\003\004\005\006\007\t\n\013\r\017\000\000\000\000\001\002\003\004\005\006\007\t\n\013\r\017\000\000\000\000\000\001\002\003\004\005\006\007\t\n\013\r\017\000\000\000\001\003\005\007\b\t\n\013\r\017\000\000\000\000\000\000\000\001\003\005\007\b\t\n\013\r\017\000\000\000\000\000\001\002\003\005\007\b\t\n\013\r\017\000\000\000\000\000\000\001\002\003\005\007\b\t\n\013\r\017\000\000\000\000\001\003\004\005\007\b\t\n\013\r\017\000\000\000\000\000\000\001\003\004\005\007\b\t\n\013\r\017\000\000\000\000\001\002\003\004\005\007\b\t\n\013\r\017\000\000\000\000\000\001\002\003\004\005\007\b\t\n\013\r\017\000\000\000\001\003\005\006\007\b\t\n\013\r\017\000\000\000\000\000\000\001\003\005\006\007\b\t\n\013\r\017\000\000\000\000\001\002\003\005\006\007\b\t\n\013\r\017\000\000\000\000\000\001\002\003\005\006\007\b\t\n\013\r\017\000\000\000\001\003\004\005\006\007\b\t\n\013\r\017\000\000\000\000\000\001\003\004\005\006\007\b\t\n\013\r\017\000\000\000\001\002\003\004\005\006\007\b\t\n\013\r\017\000\000\000\000\001\002\003\004\005\006\007\b\t\n\013\r\017\000\000\001\003\005\007\t\013\f\r\017\000\000\000\000\000\000\000\000\001\003\005\007\t\013\f\r\017\000\000\000\000\000\000\001\002\003\005\007\t\013\f\r\017\000\000\000\000\000\000\000\001\002\003\005\007\t\013\f\r\017\000\000\000\000\000\001\003\004\005\007\t\013\f\r\017\000\000\000\000\000\000\000\001\003\004\005\007\t\013\f\r\017\000\000\000\000\000\001\002\003\004\005\007\t\013\f\r\017\000\000\000\000\000\000\001\002\003\004\005\007\t\013\f\r\017\000\000\000\000\001\003\005\006\007\t\013\f\r\017\000\000\000\000\000\000\000\001\003\005\006\007\t\013\f\r\017\000\000\000\000\000\001\002\003\005\006\007\t\013\f\r\017\000\000\000\000\000\000\001\002\003\005\006\007\t\013\f\r\017\000\000\000\000\001\003\004\005\006\007\t\013\f\r\017\000\000\000\000\000\000\001\003\004\005\006\007\t\013\f\r\017\000\000\000\000\001\002\003\004\005\006\007\t\013\f\r\017\000\000\000\000\000\001\002\003\004\005\006\007\t\013\f\r\017\000\000\000\001\003\005\007\b\t\013\f\r\017\000\000\000\000\000\000\000\001\003\005\007\b\t\013\f\r\017\000\000\000\000\000\001\002\003\005\007\b\t\013\f\r\017\000\000\000\000\000\000\001\002\003\005\007\b\t\013\f\r\017\000\000\000\000\001\003\004\005\007\b\t\013\f\r\017\000\000\000\000\000\000\001\003\004\005\007\b\t\013\f\r\017\000\000\000\000\001\002\003\004\005\007\b\t\013\f\r\017\000\000\000\000\000\001\002\003\004\005\007\b\t\013\f\r\017\000\000\000\001\003\005\006\007\b\t\013\f\r\017\000\000\000\000\000\000\001\003\005\006\007\b\t\013\f\r\017\000\000\000\000\001\002\003\005\006\007\b\t\013\f\r\017\000\000\000\000\000\001\002\003\005\006\007\b\t\013\f\r\017\000\000\000\001\003\004\005\006\007\b\t\013\f\r\017\000\000\000\000\000\001\003\004\005\006\007\b\t\013\f\r\017\000\000\000\001\002\003\004\005\006\007\b\t\013\f\r\017\000\000\000\000\001\002\003\004\005\006\007\b\t\013\f\r\017\000\000\001\003\005\007\t\n\013\f\r\017\000\000\000\000\000\000\000\001\003\005\007\t\n\013\f\r\017\000\000\000\000\000\001\002\003\005\007\t\n\013\f\r\017\000\000\000\000\000\000\001\002\003\005\007\t\n\013\f\r\017\000\000\000\000\001\003\004\005\007\t\n\013\f\r\017\000\000\000\000\000\000\001\003\004\005\007\t\n\013\f\r\017\000\000\000\000\001\002\003\004\005\007\t\n\013\f\r\017\000\000\000\000\000\001\002\003\004\005\007\t\n\013\f\r\017\000\000\000\001\003\005\006\007\t\n\013\f\r\017\000\000\000\000\000\000\001\003\005\006\007\t\n\013\f\r\017\000\000\000\000\001\002\003\005\006\007\t\n\013\f\r\017\000\000\000\000\000\001\002\003\005\006\007\t\n\013\f\r\017\000\000\000\001\003\004\005\006\007\t\n\013\f\r\017\000\000\000\000\000\001\003\004\005\006\007\t\n\013\f\r\017\000\000\000\001\002\003\004\005\006\007\t\n\013\f\r\017\000\000\000\000\001\002\003\004\005\006\007\t\n\013\f\r\017\000\000\001\003\005\007\b\t\n\013\f\r\017\000\000\000\000\000\000\001\003\005\007\b\t\n\013\f\r\017\000\000\000\000\001\002\003\005\007\b\t\n\013\f\r\017\000\000\000\000\000\001\002\003\005\007\b\t\n\013\f\r\017\000\000\000\001\003\004\005\007\b\t\n\013\f\r\017\000\000\000\000\000\001\003\004\005\007\b\t\n\013\f\r\017\000\000\000\001\002\003\004\005\007\b\t\n\013\f\r\017\000\000\000\000\001\002\003\004\005\007\b\t\n\013\f\r\017\000\000\001\003\005\006\007\b\t\n\013\f\r\017\000\000\000\000\000\001\003\005\006\007\b\t\n\013\f\r\017\000\000\000\001\002\003\005\006\007\b\t\n\013\f\r\017\000\000\000\000\001\002\003\005\006\007\b\t\n\013\f\r\017\000\000\001\003\004\005\006\007\b\t\n\013\f\r\017\000\000\000\000\001\003\004\005\006\007\b\t\n\013\f\r\017\000\000\001\002\003\004\005\006\007\b\t\n\013\f\r\017\000\000\000\001\002\003\004\005\006\007\b\t\n\013\f\r\017\000\001\003\005\007\t\013\r\016\017\000\000\000\000\000\000\000\000\001\003\005\007\t\013\r\016\017\000\000\000\000\000\000\001\002\003\005\007\t\013\r\016\017\000\000\000\000\000\000\000\001\002\003\005\007\t\013\r\016\017\000\000\000\000\000\001\003\004\005\007\t\013\r\016\017\000\000\000\000\000\000\000\001\003\004\005\007\t\013\r\016\017\000\000\000\000\000\001\002\003\004\005\007\t\013\r\016\017\000\000\000\000\000\000\001\002\003\004\005\007\t\013\r\016\017\000\000\000\000\001\003\005\006\007\t\013\r\016\017\000\000\000\000\000\000\000\001\003\005\006\007\t\013\r\016\017\000\000\000\000\000\001\002\003\005\006\007\t\013\r\016\017\000\000\000\000\000\000\001\002\003\005\006\007\t\013\r\016\017\000\000\000\000\001\003\004\005\006\007\t\013\r\016\017\000\000\000\000\000\000\001\003\004\005\006\007\t\013\r\016\017\000\000\000\000\001\002\003\004\005\006\007\t\013\r\016\017\000\000\000\000\000\001\002\003\004\005\006\007\t\013\r\016\017\000\000\000\001\003\005\007\b\t\013\r\016\017\000\000\000\000\000\000\000\001\003\005\007\b\t\013\r\016\017\000\000\000\000\000\001\002\003\005\007\b\t\013\r\016\017\000\000\000\000\000\000\001\002\003\005\007\b\t\013\r\016\017\000\000\000\000\001\003\004\005\007\b\t\013\r\016\017\000\000\000\000\000\000\001\003\004\005\007\b\t\013\r\016\017\000\000\000\000\001\002\003\004\005\007\b\t\013\r\016\017\000\000\000\000\000\001\002\003\004\005\007\b\t\013\r\016\017\000\000\000\001\003\005\006\007\b\t\013\r\016\017\000\000\000\000\000\000\001\003\005\006\007\b\t\013\r\016\017\000\000\000\000\001\002\003\005\006\007\b\t\013\r\016\017\000\000\000\000\000\001\002\003\005\006\007\b\t\013\r\016\017\000\000\000\001\003\004\005\006\007\b\t\013\r\016\017\000\000\000\000\000\001\003\004\005\006\007\b\t\013\r\016\017\000\000\000\001\002\003\004\005\006\007\b\t\013\r\016\017\000\000\000\000\001\002\003\004\005\006\007\b\t\013\r\016\017\000\000\001\003\005\007\t\n\013\r\016\017\000\000\000\000\000\000\000\001\003\005\007\t\n\013\r\016\017\000\000\000\000\000\001\002\003\005\007\t\n\013\r\016\017\000\000\000\000\000\000\001\002\003\005\007\t\n\013\r\016\017\000\000\000\000\001\003\004\005\007\t\n\013\r\016\017\000\000\000\000\000\000\001\003\004\005\007\t\n\013\r\016\017\000\000\000\000\001\002\003\004\005\007\t\n\013\r\016\017\000\000\000\000\000\001\002\003\004\005\007\t\n\013\r\016\017\000\000\000\001\003\005\006\007\t\n\013\r\016\017\000\000\000\000\000\000\001\003\005\006\007\t\n\013\r\016\017\000\000\000\000\001\002\003\005\006\007\t\n\013\r\016\017\000\000\000\000\000\001\002\003\005\006\007\t\n\013\r\016\017\000\000\000\001\003\004\005\006\007\t\n\013\r\016\017\000\000\000\000\000\001\003\004\005\006\007\t\n\013\r\016\017\000\000\000\001\002\003\004\005\006\007\t\n\013\r\016\017\000\000\000\000\001\002\003\004\005\006\007\t\n\013\r\016\017\000\000\001\003\005\007\b\t\n\013\r\016\017\000\000\000\000\000\000\001\003\005\007\b\t\n\013\r\016\017\000\000\000\000\001\002\003\005\007\b\t\n\013\r\016\017\000\000\000\000\000\001\002\003\005\007\b\t\n\013\r\016\017\000\000\000\001\003\004\005\007\b\t\n\013\r\016\017\000\000\000\000\000\001\003\004\005\007\b\t\n\013\r\016\017\000\000\000\001\002\003\004\005\007\b\t\n\013\r\016\017\000\000\000\000\001\002\003\004\005\007\b\t\n\013\r\016\017\000\000\001\003\005\006\007\b\t\n\013\r\016\017\000\000\000\000\000\001\003\005\006\007\b\t\n\013\r\016\017\000\000\000\001\002\003\005\006\007\b\t\n\013\r\016\017\000\000\000\000\001\002\003\005\006\007\b\t\n\013\r\016\017\000\000\001\003\004\005\006\007\b\t\n\013\r\016\017\000\000\000\000\001\003\004\005\006\007\b\t\n\013\r\016\017\000\000\001\002\003\004\005\006\007\b\t\n\013\r\016\017\000\000\000\001\002\003\004\005\006\007\b\t\n\013\r\016\017\000\001\003\005\007\t\013\f\r\016\017\000\000\000\000\000\000\000\001\003\005\007\t\013\f\r\016\017\000\000\000\000\000\001\002\003\005\007\t\013\f\r\016\017\000\000\000\000\000\000\001\002\003\005\007\t\013\f\r\016\017\000\000\000\000\001\003\004\005\007\t\013\f\r\016\017\000\000\000\000\000\000\001\003\004\005\007\t\013\f\r\016\017\000\000\000\000\001\002\003\004\005\007\t\013\f\r\016\017\000\000\000\000\000\001\002\003\004\005\007\t\013\f\r\016\017\000\000\000\001\003\005\006\007\t\013\f\r\016\017\000\000\000\000\000\000\001\003\005\006\007\t\013\f\r\016\017\000\000\000\000\001\002\003\005\006\007\t\013\f\r\016\017\000\000\000\000\000\001\002\003\005\006\007\t\013\f\r\016\017\000\000\000\001\003\004\005\006\007\t\013\f\r\016\017\000\000\000\000\000\001\003\004\005\006\007\t\013\f\r\016\017\000\000\000\001\002\003\004\005\006\007\t\013\f\r\016\017\000\000\000\000\001\002\003\004\005\006\007\t\013\f\r\016\017\000\000\001\003\005\007\b\t\013\f\r\016\017\000\000\000\000\000\000\001\003\005\007\b\t\013\f\r\016\017\000\000\000\000\001\002\003\005\007\b\t\013\f\r\016\017\000\000\000\000\000\001\002\003\005\007\b\t\013\f\r\016\017\000\000\000\001\003\004\005\007\b\t\013\f\r\016\017\000\000\000\000\000\001\003\004\005\007\b\t\013\f\r\016\017\000\000\000\001\002\003\004\005\007\b\t\013\f\r\016\017\000\000\000\000\001\002\003\004\005\007\b\t\013\f\r\016\017\000\000\001\003\005\006\007\b\t\013\f\r\016\017\000\000\000\000\000\001\003\005\006\007\b\t\013\f\r\016\017\000\000\000\001\002\003\005\006\007\b\t\013\f\r\016\017\000\000\000\000\001\002\003\005\006\007\b\t\013\f\r\016\017\000\000\001\003\004\005\006\007\b\t\013\f\r\016\017\000\000\000\000\001\003\004\005\006\007\b\t\013\f\r\016\017\000\000\001\002\003\004\005\006\007\b\t\013\f\r\016\017\000\000\000\001\002\003\004\005\006\007\b\t\013\f\r\016\017\000\001\003\005\007\t\n\013\f\r\016\017\000\000\000\000\000\000\001\003\005\007\t\n\013\f\r\016\017\000\000\000\000\001\002\003\005\007\t\n\013\f\r\016\017\000\000\000\000\000\001\002\003\005\007\t\n\013\f\r\016\017\000\000\000\001\003\004\005\007\t\n\013\f\r\016\017\000\000\000\000\000\001\003\004\005\007\t\n\013\f\r\016\017\000\000\000\001\002\003\004\005\007\t\n\013\f\r\016\017\000\000\000\000\001\002\003\004\005\007\t\n\013\f\r\016\017\000\000\001\003\005\006\007\t\n\013\f\r\016\017\000\000\000\000\000\001\003\005\006\007\t\n\013\f\r\016\017\000\000\000\001\002\003\005\006\007\t\n\013\f\r\016\017\000\000\000\000\001\002\003\005\006\007\t\n\013\f\r\016\017\000\000\001\003\004\005\006\007\t\n\013\f\r\016\017\000\000\000\000\001\003\004\005\006\007\t\n\013\f\r\016\017\000\000\001\002\003\004\005\006\007\t\n\013\f\r\016\017\000\000\000\001\002\003\004\005\006\007\t\n\013\f\r\016\017\000\001\003\005\007\b\t\n\013\f\r\016\017\000\000\000\000\000\001\003\005\007\b\t\n\013\f\r\016\017\000\000\000\001\002\003\005\007\b\t\n\013\f\r\016\017\000\000\000\000\001\002\003\005\007\b\t\n\013\f\r\016\017\000\000\001\003\004\005\007\b\t\n\013\f\r\016\017\000\000\000\000\001\003\004\005\007\b\t\n\013\f\r\016\017\000\000\001\002\003\004\005\007\b\t\n\013\f\r\016\017\000\000\000\001\002\003\004\005\007\b\t\n\013\f\r\016\017\000\001\003\005\006\007\b\t\n\013\f\r\016\017\000\000\000\000\001\003\005\006\007\b\t\n\013\f\r\016\017\000\000\001\002\003\005\006\007\b\t\n\013\f\r\016\017\000\000\000\001\002\003\005\006\007\b\t\n\013\f\r\016\017\000\001\003\004\005\006\007\b\t\n\013\f\r\016\017\000\000\000\001\003\004\005\006\007\b\t\n\013\f\r\016\017\000\001\002\003\004\005\006\007\b\t\n\013\f\r\016\017\000\000\001\002\003\004\005\006\007\b\t\n\013\f\r\016\017"
	.size	.Lstatic.19, 4096

	.type	.Lstatic.20,@object             # @static.20
	.section	.rodata..Lstatic.20,"a",@progbits
.Lstatic.20:
	.asciz	"\001\005\t\r\000\000\000\000\000\000\000\000\000\000\000\000\000\001\005\t\r\000\000\000\000\000\000\000\000\000\000\000\002\001\005\t\r\000\000\000\000\000\000\000\000\000\000\000\000\002\001\005\t\r\000\000\000\000\000\000\000\000\000\000\001\004\005\t\r\000\000\000\000\000\000\000\000\000\000\000\000\001\004\005\t\r\000\000\000\000\000\000\000\000\000\000\002\001\004\005\t\r\000\000\000\000\000\000\000\000\000\000\000\002\001\004\005\t\r\000\000\000\000\000\000\000\000\000\001\006\005\t\r\000\000\000\000\000\000\000\000\000\000\000\000\001\006\005\t\r\000\000\000\000\000\000\000\000\000\000\002\001\006\005\t\r\000\000\000\000\000\000\000\000\000\000\000\002\001\006\005\t\r\000\000\000\000\000\000\000\000\000\001\004\006\005\t\r\000\000\000\000\000\000\000\000\000\000\000\001\004\006\005\t\r\000\000\000\000\000\000\000\000\000\002\001\004\006\005\t\r\000\000\000\000\000\000\000\000\000\000\002\001\004\006\005\t\r\000\000\000\000\000\000\000\000\001\005\b\t\r\000\000\000\000\000\000\000\000\000\000\000\000\001\005\b\t\r\000\000\000\000\000\000\000\000\000\000\002\001\005\b\t\r\000\000\000\000\000\000\000\000\000\000\000\002\001\005\b\t\r\000\000\000\000\000\000\000\000\000\001\004\005\b\t\r\000\000\000\000\000\000\000\000\000\000\000\001\004\005\b\t\r\000\000\000\000\000\000\000\000\000\002\001\004\005\b\t\r\000\000\000\000\000\000\000\000\000\000\002\001\004\005\b\t\r\000\000\000\000\000\000\000\000\001\006\005\b\t\r\000\000\000\000\000\000\000\000\000\000\000\001\006\005\b\t\r\000\000\000\000\000\000\000\000\000\002\001\006\005\b\t\r\000\000\000\000\000\000\000\000\000\000\002\001\006\005\b\t\r\000\000\000\000\000\000\000\000\001\004\006\005\b\t\r\000\000\000\000\000\000\000\000\000\000\001\004\006\005\b\t\r\000\000\000\000\000\000\000\000\002\001\004\006\005\b\t\r\000\000\000\000\000\000\000\000\000\002\001\004\006\005\b\t\r\000\000\000\000\000\000\000\001\005\n\t\r\000\000\000\000\000\000\000\000\000\000\000\000\001\005\n\t\r\000\000\000\000\000\000\000\000\000\000\002\001\005\n\t\r\000\000\000\000\000\000\000\000\000\000\000\002\001\005\n\t\r\000\000\000\000\000\000\000\000\000\001\004\005\n\t\r\000\000\000\000\000\000\000\000\000\000\000\001\004\005\n\t\r\000\000\000\000\000\000\000\000\000\002\001\004\005\n\t\r\000\000\000\000\000\000\000\000\000\000\002\001\004\005\n\t\r\000\000\000\000\000\000\000\000\001\006\005\n\t\r\000\000\000\000\000\000\000\000\000\000\000\001\006\005\n\t\r\000\000\000\000\000\000\000\000\000\002\001\006\005\n\t\r\000\000\000\000\000\000\000\000\000\000\002\001\006\005\n\t\r\000\000\000\000\000\000\000\000\001\004\006\005\n\t\r\000\000\000\000\000\000\000\000\000\000\001\004\006\005\n\t\r\000\000\000\000\000\000\000\000\002\001\004\006\005\n\t\r\000\000\000\000\000\000\000\000\000\002\001\004\006\005\n\t\r\000\000\000\000\000\000\000\001\005\b\n\t\r\000\000\000\000\000\000\000\000\000\000\000\001\005\b\n\t\r\000\000\000\000\000\000\000\000\000\002\001\005\b\n\t\r\000\000\000\000\000\000\000\000\000\000\002\001\005\b\n\t\r\000\000\000\000\000\000\000\000\001\004\005\b\n\t\r\000\000\000\000\000\000\000\000\000\000\001\004\005\b\n\t\r\000\000\000\000\000\000\000\000\002\001\004\005\b\n\t\r\000\000\000\000\000\000\000\000\000\002\001\004\005\b\n\t\r\000\000\000\000\000\000\000\001\006\005\b\n\t\r\000\000\000\000\000\000\000\000\000\000\001\006\005\b\n\t\r\000\000\000\000\000\000\000\000\002\001\006\005\b\n\t\r\000\000\000\000\000\000\000\000\000\002\001\006\005\b\n\t\r\000\000\000\000\000\000\000\001\004\006\005\b\n\t\r\000\000\000\000\000\000\000\000\000\001\004\006\005\b\n\t\r\000\000\000\000\000\000\000\002\001\004\006\005\b\n\t\r\000\000\000\000\000\000\000\000\002\001\004\006\005\b\n\t\r\000\000\000\000\000\000\001\005\t\f\r\000\000\000\000\000\000\000\000\000\000\000\000\001\005\t\f\r\000\000\000\000\000\000\000\000\000\000\002\001\005\t\f\r\000\000\000\000\000\000\000\000\000\000\000\002\001\005\t\f\r\000\000\000\000\000\000\000\000\000\001\004\005\t\f\r\000\000\000\000\000\000\000\000\000\000\000\001\004\005\t\f\r\000\000\000\000\000\000\000\000\000\002\001\004\005\t\f\r\000\000\000\000\000\000\000\000\000\000\002\001\004\005\t\f\r\000\000\000\000\000\000\000\000\001\006\005\t\f\r\000\000\000\000\000\000\000\000\000\000\000\001\006\005\t\f\r\000\000\000\000\000\000\000\000\000\002\001\006\005\t\f\r\000\000\000\000\000\000\000\000\000\000\002\001\006\005\t\f\r\000\000\000\000\000\000\000\000\001\004\006\005\t\f\r\000\000\000\000\000\000\000\000\000\000\001\004\006\005\t\f\r\000\000\000\000\000\000\000\000\002\001\004\006\005\t\f\r\000\000\000\000\000\000\000\000\000\002\001\004\006\005\t\f\r\000\000\000\000\000\000\000\001\005\b\t\f\r\000\000\000\000\000\000\000\000\000\000\000\001\005\b\t\f\r\000\000\000\000\000\000\000\000\000\002\001\005\b\t\f\r\000\000\000\000\000\000\000\000\000\000\002\001\005\b\t\f\r\000\000\000\000\000\000\000\000\001\004\005\b\t\f\r\000\000\000\000\000\000\000\000\000\000\001\004\005\b\t\f\r\000\000\000\000\000\000\000\000\002\001\004\005\b\t\f\r\000\000\000\000\000\000\000\000\000\002\001\004\005\b\t\f\r\000\000\000\000\000\000\000\001\006\005\b\t\f\r\000\000\000\000\000\000\000\000\000\000\001\006\005\b\t\f\r\000\000\000\000\000\000\000\000\002\001\006\005\b\t\f\r\000\000\000\000\000\000\000\000\000\002\001\006\005\b\t\f\r\000\000\000\000\000\000\000\001\004\006\005\b\t\f\r\000\000\000\000\000\000\000\000\000\001\004\006\005\b\t\f\r\000\000\000\000\000\000\000\002\001\004\006\005\b\t\f\r\000\000\000\000\000\000\000\000\002\001\004\006\005\b\t\f\r\000\000\000\000\000\000\001\005\n\t\f\r\000\000\000\000\000\000\000\000\000\000\000\001\005\n\t\f\r\000\000\000\000\000\000\000\000\000\002\001\005\n\t\f\r\000\000\000\000\000\000\000\000\000\000\002\001\005\n\t\f\r\000\000\000\000\000\000\000\000\001\004\005\n\t\f\r\000\000\000\000\000\000\000\000\000\000\001\004\005\n\t\f\r\000\000\000\000\000\000\000\000\002\001\004\005\n\t\f\r\000\000\000\000\000\000\000\000\000\002\001\004\005\n\t\f\r\000\000\000\000\000\000\000\001\006\005\n\t\f\r\000\000\000\000\000\000\000\000\000\000\001\006\005\n\t\f\r\000\000\000\000\000\000\000\000\002\001\006\005\n\t\f\r\000\000\000\000\000\000\000\000\000\002\001\006\005\n\t\f\r\000\000\000\000\000\000\000\001\004\006\005\n\t\f\r\000\000\000\000\000\000\000\000\000\001\004\006\005\n\t\f\r\000\000\000\000\000\000\000\002\001\004\006\005\n\t\f\r\000\000\000\000\000\000\000\000\002\001\004\006\005\n\t\f\r\000\000\000\000\000\000\001\005\b\n\t\f\r\000\000\000\000\000\000\000\000\000\000\001\005\b\n\t\f\r\000\000\000\000\000\000\000\000\002\001\005\b\n\t\f\r\000\000\000\000\000\000\000\000\000\002\001\005\b\n\t\f\r\000\000\000\000\000\000\000\001\004\005\b\n\t\f\r\000\000\000\000\000\000\000\000\000\001\004\005\b\n\t\f\r\000\000\000\000\000\000\000\002\001\004\005\b\n\t\f\r\000\000\000\000\000\000\000\000\002\001\004\005\b\n\t\f\r\000\000\000\000\000\000\001\006\005\b\n\t\f\r\000\000\000\000\000\000\000\000\000\001\006\005\b\n\t\f\r\000\000\000\000\000\000\000\002\001\006\005\b\n\t\f\r\000\000\000\000\000\000\000\000\002\001\006\005\b\n\t\f\r\000\000\000\000\000\000\001\004\006\005\b\n\t\f\r\000\000\000\000\000\000\000\000\001\004\006\005\b\n\t\f\r\000\000\000\000\000\000\002\001\004\006\005\b\n\t\f\r\000\000\000\000\000\000\000\002\001\004\006\005\b\n\t\f\r\000\000\000\000\000\001\005\t\016\r\000\000\000\000\000\000\000\000\000\000\000\000\001\005\t\016\r\000\000\000\000\000\000\000\000\000\000\002\001\005\t\016\r\000\000\000\000\000\000\000\000\000\000\000\002\001\005\t\016\r\000\000\000\000\000\000\000\000\000\001\004\005\t\016\r\000\000\000\000\000\000\000\000\000\000\000\001\004\005\t\016\r\000\000\000\000\000\000\000\000\000\002\001\004\005\t\016\r\000\000\000\000\000\000\000\000\000\000\002\001\004\005\t\016\r\000\000\000\000\000\000\000\000\001\006\005\t\016\r\000\000\000\000\000\000\000\000\000\000\000\001\006\005\t\016\r\000\000\000\000\000\000\000\000\000\002\001\006\005\t\016\r\000\000\000\000\000\000\000\000\000\000\002\001\006\005\t\016\r\000\000\000\000\000\000\000\000\001\004\006\005\t\016\r\000\000\000\000\000\000\000\000\000\000\001\004\006\005\t\016\r\000\000\000\000\000\000\000\000\002\001\004\006\005\t\016\r\000\000\000\000\000\000\000\000\000\002\001\004\006\005\t\016\r\000\000\000\000\000\000\000\001\005\b\t\016\r\000\000\000\000\000\000\000\000\000\000\000\001\005\b\t\016\r\000\000\000\000\000\000\000\000\000\002\001\005\b\t\016\r\000\000\000\000\000\000\000\000\000\000\002\001\005\b\t\016\r\000\000\000\000\000\000\000\000\001\004\005\b\t\016\r\000\000\000\000\000\000\000\000\000\000\001\004\005\b\t\016\r\000\000\000\000\000\000\000\000\002\001\004\005\b\t\016\r\000\000\000\000\000\000\000\000\000\002\001\004\005\b\t\016\r\000\000\000\000\000\000\000\001\006\005\b\t\016\r\000\000\000\000\000\000\000\000\000\000\001\006\005\b\t\016\r\000\000\000\000\000\000\000\000\002\001\006\005\b\t\016\r\000\000\000\000\000\000\000\000\000\002\001\006\005\b\t\016\r\000\000\000\000\000\000\000\001\004\006\005\b\t\016\r\000\000\000\000\000\000\000\000\000\001\004\006\005\b\t\016\r\000\000\000\000\000\000\000\002\001\004\006\005\b\t\016\r\000\000\000\000\000\000\000\000\002\001\004\006\005\b\t\016\r\000\000\000\000\000\000\001\005\n\t\016\r\000\000\000\000\000\000\000\000\000\000\000\001\005\n\t\016\r\000\000\000\000\000\000\000\000\000\002\001\005\n\t\016\r\000\000\000\000\000\000\000\000\000\000\002\001\005\n\t\016\r\000\000\000\000\000\000\000\000\001\004\005\n\t\016\r\000\000\000\000\000\000\000\000\000\000\001\004\005\n\t\016\r\000\000\000\000\000\000\000\000\002\001\004\005\n\t\016\r\000\000\000\000\000\000\000\000\000\002\001\004\005\n\t\016\r\000\000\000\000\000\000\000\001\006\005\n\t\016\r\000\000\000\000\000\000\000\000\000\000\001\006\005\n\t\016\r\000\000\000\000\000\000\000\000\002\001\006\005\n\t\016\r\000\000\000\000\000\000\000\000\000\002\001\006\005\n\t\016\r\000\000\000\000\000\000\000\001\004\006\005\n\t\016\r\000\000\000\000\000\000\000\000\000\001\004\006\005\n\t\016\r\000\000\000\000\000\000\000\002\001\004\006\005\n\t\016\r\000\000\000\000\000\000\000\000\002\001\004\006\005\n\t\016\r\000\000\000\000\000\000\001\005\b\n\t\016\r\000\000\000\000\000\000\000\000\000\000\001\005\b\n\t\016\r\000\000\000\000\000\000\000\000\002\001\005\b\n\t\016\r\000\000\000\000\000\000\000\000\000\002\001\005\b\n\t\016\r\000\000\000\000\000\000\000\001\004\005\b\n\t\016\r\000\000\000\000\000\000\000\000\000\001\004\005\b\n\t\016\r\000\000\000\000\000\000\000\002\001\004\005\b\n\t\016\r\000\000\000\000\000\000\000\000\002\001\004\005\b\n\t\016\r\000\000\000\000\000\000\001\006\005\b\n\t\016\r\000\000\000\000\000\000\000\000\000\001\006\005\b\n\t\016\r\000\000\000\000\000\000\000\002\001\006\005\b\n\t\016\r\000\000\000\000\000\000\000\000\002\001\006\005\b\n\t\016\r\000\000\000\000\000\000\001\004\006\005\b\n\t\016\r\000\000\000\000\000\000\000\000\001\004\006\005\b\n\t\016\r\000\000\000\000\000\000\002\001\004\006\005\b\n\t\016\r\000\000\000\000\000\000\000\002\001\004\006\005\b\n\t\016\r\000\000\000\000\000\001\005\t\f\016\r\000\000\000\000\000\000\000\000\000\000\000\001\005\t\f\016\r\000\000\000\000\000\000\000\000\000\002\001\005\t\f\016\r\000\000\000\000\000\000\000\000\000\000\002\001\005\t\f\016\r\000\000\000\000\000\000\000\000\001\004\005\t\f\016\r\000\000\000\000\000\000\000\000\000\000\001\004\005\t\f\016\r\000\000\000\000\000\000\000\000\002\001\004\005\t\f\016\r\000\000\000\000\000\000\000\000\000\002\001\004\005\t\f\016\r\000\000\000\000\000\000\000\001\006\005\t\f\016\r\000\000\000\000\000\000\000\000\000\000\001\006\005\t\f\016\r\000\000\000\000\000\000\000\000\002\001\006\005\t\f\016\r\000\000\000\000\000\000\000\000\000\002\001\006\005\t\f\016\r\000\000\000\000\000\000\000\001\004\006\005\t\f\016\r\000\000\000\000\000\000\000\000\000\001\004\006\005\t\f\016\r\000\000\000\000\000\000\000\002\001\004\006\005\t\f\016\r\000\000\000\000\000\000\000\000\002\001\004\006\005\t\f\016\r\000\000\000\000\000\000\001\005\b\t\f\016\r\000\000\000\000\000\000\000\000\000\000\001\005\b\t\f\016\r\000\000\000\000\000\000\000\000\002\001\005\b\t\f\016\r\000\000\000\000\000\000\000\000\000\002\001\005\b\t\f\016\r\000\000\000\000\000\000\000\001\004\005\b\t\f\016\r\000\000\000\000\000\000\000\000\000\001\004\005\b\t\f\016\r\000\000\000\000\000\000\000\002\001\004\005\b\t\f\016\r\000\000\000\000\000\000\000\000\002\001\004\005\b\t\f\016\r\000\000\000\000\000\000\001\006\005\b\t\f\016\r\000\000\000\000\000\000\000\000\000\001\006\005\b\t\f\016\r\000\000\000\000\000\000\000\002\001\006\005\b\t\f\016\r\000\000\000\000\000\000\000\000\002\001\006\005\b\t\f\016\r\000\000\000\000\000\000\001\004\006\005\b\t\f\016\r\000\000\000\000\000\000\000\000\001\004\006\005\b\t\f\016\r\000\000\000\000\000\000\002\001\004\006\005\b\t\f\016\r\000\000\000\000\000\000\000\002\001\004\006\005\b\t\f\016\r\000\000\000\000\000\001\005\n\t\f\016\r\000\000\000\000\000\000\000\000\000\000\001\005\n\t\f\016\r\000\000\000\000\000\000\000\000\002\001\005\n\t\f\016\r\000\000\000\000\000\000\000\000\000\002\001\005\n\t\f\016\r\000\000\000\000\000\000\000\001\004\005\n\t\f\016\r\000\000\000\000\000\000\000\000\000\001\004\005\n\t\f\016\r\000\000\000\000\000\000\000\002\001\004\005\n\t\f\016\r\000\000\000\000\000\000\000\000\002\001\004\005\n\t\f\016\r\000\000\000\000\000\000\001\006\005\n\t\f\016\r\000\000\000\000\000\000\000\000\000\001\006\005\n\t\f\016\r\000\000\000\000\000\000\000\002\001\006\005\n\t\f\016\r\000\000\000\000\000\000\000\000\002\001\006\005\n\t\f\016\r\000\000\000\000\000\000\001\004\006\005\n\t\f\016\r\000\000\000\000\000\000\000\000\001\004\006\005\n\t\f\016\r\000\000\000\000\000\000\002\001\004\006\005\n\t\f\016\r\000\000\000\000\000\000\000\002\001\004\006\005\n\t\f\016\r\000\000\000\000\000\001\005\b\n\t\f\016\r\000\000\000\000\000\000\000\000\000\001\005\b\n\t\f\016\r\000\000\000\000\000\000\000\002\001\005\b\n\t\f\016\r\000\000\000\000\000\000\000\000\002\001\005\b\n\t\f\016\r\000\000\000\000\000\000\001\004\005\b\n\t\f\016\r\000\000\000\000\000\000\000\000\001\004\005\b\n\t\f\016\r\000\000\000\000\000\000\002\001\004\005\b\n\t\f\016\r\000\000\000\000\000\000\000\002\001\004\005\b\n\t\f\016\r\000\000\000\000\000\001\006\005\b\n\t\f\016\r\000\000\000\000\000\000\000\000\001\006\005\b\n\t\f\016\r\000\000\000\000\000\000\002\001\006\005\b\n\t\f\016\r\000\000\000\000\000\000\000\002\001\006\005\b\n\t\f\016\r\000\000\000\000\000\001\004\006\005\b\n\t\f\016\r\000\000\000\000\000\000\000\001\004\006\005\b\n\t\f\016\r\000\000\000\000\000\002\001\004\006\005\b\n\t\f\016\r\000\000\000\000\000\000\002\001\004\006\005\b\n\t\f\016\r\000\000\000"
	.size	.Lstatic.20, 4096

	.type	.Lstatic.22,@object             # @static.22
	.section	.rodata..Lstatic.22,"a",@progbits
.Lstatic.22:
	.ascii	": "
	.size	.Lstatic.22, 2

	.type	.Lstatic.23,@object             # @static.23
	.section	.rodata..Lstatic.23,"a",@progbits
.Lstatic.23:
	.byte	10
	.size	.Lstatic.23, 1

	.type	.Lstatic.24,@object             # @static.24
	.section	.rodata..Lstatic.24,"a",@progbits
.Lstatic.24:
	.ascii	"wrong arguments"
	.size	.Lstatic.24, 15

	.type	.Lstatic.25,@object             # @static.25
	.section	.rodata..Lstatic.25,"a",@progbits
.Lstatic.25:
	.ascii	"cannot read"
	.size	.Lstatic.25, 11

	.type	.Lstatic.26,@object             # @static.26
	.section	.rodata..Lstatic.26,"a",@progbits
.Lstatic.26:
	.ascii	"cannot write"
	.size	.Lstatic.26, 12

	.type	.Lstatic.27,@object             # @static.27
	.section	.rodata..Lstatic.27,"a",@progbits
.Lstatic.27:
	.ascii	"no memory"
	.size	.Lstatic.27, 9

	.type	".Lswitch.table.utf_chars::codes::utf8::missing_after",@object # @"switch.table.utf_chars::codes::utf8::missing_after"
	.section	".rodata..Lswitch.table.utf_chars::codes::utf8::missing_after","a",@progbits
	.p2align	3, 0x0
".Lswitch.table.utf_chars::codes::utf8::missing_after":
	.quad	0                               # 0x0
	.quad	1                               # 0x1
	.quad	2                               # 0x2
	.quad	3                               # 0x3
	.quad	2                               # 0x2
	.quad	2                               # 0x2
	.quad	3                               # 0x3
	.quad	3                               # 0x3
	.quad	2                               # 0x2
	.quad	1                               # 0x1
	.quad	1                               # 0x1
	.quad	2                               # 0x2
	.quad	1                               # 0x1
	.quad	0                               # 0x0
	.quad	0                               # 0x0
	.quad	0                               # 0x0
	.quad	0                               # 0x0
	.quad	0                               # 0x0
	.quad	0                               # 0x0
	.quad	0                               # 0x0
	.size	".Lswitch.table.utf_chars::codes::utf8::missing_after", 160

	.type	".Lswitch.table.text_programs::programs::stops::Stop::report::<#2daa2fb2be07fb73>",@object # @"switch.table.text_programs::programs::stops::Stop::report::<#2daa2fb2be07fb73>"
	.section	.rodata.cst32,"aM",@progbits,32
	.p2align	3, 0x0
".Lswitch.table.text_programs::programs::stops::Stop::report::<#2daa2fb2be07fb73>":
	.quad	15                              # 0xf
	.quad	11                              # 0xb
	.quad	12                              # 0xc
	.quad	9                               # 0x9
	.size	".Lswitch.table.text_programs::programs::stops::Stop::report::<#2daa2fb2be07fb73>", 32

	.type	".Lswitch.table.text_programs::programs::stops::Stop::report::<#2daa2fb2be07fb73>.102.rel",@object # @"switch.table.text_programs::programs::stops::Stop::report::<#2daa2fb2be07fb73>.102.rel"
	.section	".rodata..Lswitch.table.text_programs::programs::stops::Stop::report::<#2daa2fb2be07fb73>.102.rel","a",@progbits
	.p2align	2, 0x0
".Lswitch.table.text_programs::programs::stops::Stop::report::<#2daa2fb2be07fb73>.102.rel":
	.long	.Lstatic.24-".Lswitch.table.text_programs::programs::stops::Stop::report::<#2daa2fb2be07fb73>.102.rel"
	.long	.Lstatic.25-".Lswitch.table.text_programs::programs::stops::Stop::report::<#2daa2fb2be07fb73>.102.rel"
	.long	.Lstatic.26-".Lswitch.table.text_programs::programs::stops::Stop::report::<#2daa2fb2be07fb73>.102.rel"
	.long	.Lstatic.27-".Lswitch.table.text_programs::programs::stops::Stop::report::<#2daa2fb2be07fb73>.102.rel"
	.size	".Lswitch.table.text_programs::programs::stops::Stop::report::<#2daa2fb2be07fb73>.102.rel", 16

	.ident	"rattle logic=dac8208d650f15bf3e2dc313a14fa4c783a3acf887bdfab66e1714b038d9e11b"
	.section	".note.GNU-stack","",@progbits
