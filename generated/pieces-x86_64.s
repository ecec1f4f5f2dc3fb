	.section	.note.gnu.property,"a",@note
	.p2align	3, 0x0
	.long	4
	.long	16
	.long	5
	.asciz	"GNU"
	.long	3221225474
	.long	4
	.long	3
	.p2align	3, 0x0
	.text
	.file	"rattle"
	.section	.rodata.cst16,"aM",@progbits,16
	.p2align	4, 0x0                          # -- Begin function pieces::main+start
.LCPI0_0:
	.byte	0                               # 0x0
	.byte	1                               # 0x1
	.byte	2                               # 0x2
	.byte	3                               # 0x3
	.byte	4                               # 0x4
	.byte	5                               # 0x5
	.byte	6                               # 0x6
	.byte	7                               # 0x7
	.byte	8                               # 0x8
	.byte	9                               # 0x9
	.byte	10                              # 0xa
	.byte	11                              # 0xb
	.byte	12                              # 0xc
	.byte	13                              # 0xd
	.byte	14                              # 0xe
	.byte	15                              # 0xf
.LCPI0_1:
	.byte	16                              # 0x10
	.byte	17                              # 0x11
	.byte	18                              # 0x12
	.byte	19                              # 0x13
	.byte	20                              # 0x14
	.byte	21                              # 0x15
	.byte	22                              # 0x16
	.byte	23                              # 0x17
	.byte	24                              # 0x18
	.byte	25                              # 0x19
	.byte	26                              # 0x1a
	.byte	27                              # 0x1b
	.byte	28                              # 0x1c
	.byte	29                              # 0x1d
	.byte	30                              # 0x1e
	.byte	31                              # 0x1f
	.section	".text.pieces::main+start","ax",@progbits
	.p2align	4
	.type	"pieces::main+start",@function
"pieces::main+start":                   # @"pieces::main+start"
	.cfi_startproc
# %bb.0:                                # %start
	pushq	%rbp
	.cfi_def_cfa_offset 16
	pushq	%r15
	.cfi_def_cfa_offset 24
	pushq	%r14
	.cfi_def_cfa_offset 32
	pushq	%r13
	.cfi_def_cfa_offset 40
	pushq	%r12
	.cfi_def_cfa_offset 48
	pushq	%rbx
	.cfi_def_cfa_offset 56
	movq	%rsp, %r11
	subq	$64512, %r11                    # imm = 0xFC00
	.cfi_def_cfa_register %r11
	.cfi_adjust_cfa_offset 64512
.LBB0_1:                                # %start
                                        # =>This Inner Loop Header: Depth=1
	subq	$3072, %rsp                     # imm = 0xC00
	movq	$0, (%rsp)
	cmpq	%r11, %rsp
	jne	.LBB0_1
# %bb.2:                                # %start
	subq	$1576, %rsp                     # imm = 0x628
	.cfi_def_cfa_register %rsp
	.cfi_def_cfa_offset 66144
	.cfi_offset %rbx, -56
	.cfi_offset %r12, -48
	.cfi_offset %r13, -40
	.cfi_offset %r14, -32
	.cfi_offset %r15, -24
	.cfi_offset %rbp, -16
	leaq	8(%rsp), %rax
	movq	%rax, 16(%rsp)                  # 8-byte Spill
	movq	%rax, 96(%rsp)
	pxor	%xmm0, %xmm0
	movdqu	%xmm0, 104(%rsp)
	xorl	%r14d, %r14d
	movq	$0, 24(%rsp)                    # 8-byte Folded Spill
.LBB0_3:                                # %join.5.i.i.i.i
                                        # =>This Loop Header: Depth=1
                                        #     Child Loop BB0_5 Depth 2
                                        #     Child Loop BB0_21 Depth 2
                                        #       Child Loop BB0_55 Depth 3
                                        #       Child Loop BB0_60 Depth 3
	movl	$256, %r12d                     # imm = 0x100
	movl	$64, %ebx
	jmp	.LBB0_5
	.p2align	4
.LBB0_4:                                # %"std_alloc::vec::Vec::drop::<#5cd7833235c0cf51>.exit45.i.i.i.i.i.i.i"
                                        #   in Loop: Header=BB0_5 Depth=2
	movq	%r12, %rax
	addq	%r12, %rax
	movq	$-1, %r12
	cmovaeq	%rax, %r12
	decl	%ebx
	je	.LBB0_129
.LBB0_5:                                # %join.5.i.i.i.i.i.i
                                        #   Parent Loop BB0_3 Depth=1
                                        # =>  This Inner Loop Header: Depth=2
	leaq	8(%rsp), %r15
	movq	%r15, 544(%rsp)
	pxor	%xmm0, %xmm0
	leaq	552(%rsp), %rax
	movdqu	%xmm0, (%rax)
	testq	%r12, %r12
	jne	.LBB0_12
# %bb.6:                                #   in Loop: Header=BB0_5 Depth=2
	xorl	%r13d, %r13d
.LBB0_7:                                # %join.3.i.i.i.i.i.i.i
                                        #   in Loop: Header=BB0_5 Depth=2
	movq	24(%rsp), %rdi                  # 8-byte Reload
	movq	%r15, %rsi
	movq	%r13, %rdx
	callq	rattle_arg@PLT
	movq	%rax, %rbp
	movl	$22, %eax
	cmpq	$-1, %rbp
	je	.LBB0_9
# %bb.8:                                # %join.3.i.i.i.i.i.i.i
                                        #   in Loop: Header=BB0_5 Depth=2
	movl	$36, %eax
.LBB0_9:                                # %join.3.i.i.i.i.i.i.i
                                        #   in Loop: Header=BB0_5 Depth=2
	xorl	%edi, %edi
	testq	%rbp, %rbp
	cmovsl	%eax, %edi
	callq	rattle_set_errno@PLT
	callq	rattle_errno@PLT
	cmpl	$36, %eax
	jne	.LBB0_15
# %bb.10:                               # %arm.8.i.i.i.i.i.i.i
                                        #   in Loop: Header=BB0_5 Depth=2
	cmpq	$0, 560(%rsp)
	je	.LBB0_4
# %bb.11:                               # %then.1.i.i.i43.i.i.i.i.i.i.i
                                        #   in Loop: Header=BB0_5 Depth=2
	movq	%r15, %rdi
	callq	rattle_dealloc@PLT
	jmp	.LBB0_4
.LBB0_12:                               # %"std_alloc::vec::Vec::grow::<#5fdc5e19576447a7>.exit.i.i.i.i.i.i.i.i.i"
                                        #   in Loop: Header=BB0_5 Depth=2
	leaq	544(%rsp), %rdi
	movq	%r12, %rsi
	callq	"std_alloc::vec::Vec::grow_amortized::<#5fdc5e19576447a7>"
	testb	%al, %al
	je	.LBB0_127
# %bb.13:                               # %join.3.i2.i.i.i.i.i.i.i.i
                                        #   in Loop: Header=BB0_5 Depth=2
	movq	544(%rsp), %r15
	movq	552(%rsp), %rdi
	leaq	(%rdi,%r12), %r13
	cmpq	%r13, %rdi
	jae	.LBB0_7
# %bb.14:                               # %join.5.preheader.i.i.i.i.i.i.i.i.i.i
                                        #   in Loop: Header=BB0_5 Depth=2
	addq	%r15, %rdi
	xorl	%esi, %esi
	movq	%r12, %rdx
	callq	memset@PLT
	jmp	.LBB0_7
	.p2align	4
.LBB0_15:                               # %join.3.i.i.i.i.i.i.i
                                        #   in Loop: Header=BB0_3 Depth=1
	testl	%eax, %eax
	jne	.LBB0_75
# %bb.16:                               # %arm.4.i.i.i.i.i.i.i
                                        #   in Loop: Header=BB0_3 Depth=1
	cmpq	%r13, %rbp
	cmovbq	%rbp, %r13
	xorl	%r12d, %r12d
	testq	%rbp, %rbp
	cmovgq	%r13, %r12
	movq	560(%rsp), %r13
	testq	%r12, %r12
	je	.LBB0_71
# %bb.17:                               # %join.5.lr.ph.i.i.i.i.i.i.i.i
                                        #   in Loop: Header=BB0_3 Depth=1
	movabsq	$-9187201950435737472, %rbp     # imm = 0x8080808080808080
	leaq	-8(%r12), %rbx
	xorl	%ecx, %ecx
	jmp	.LBB0_21
.LBB0_42:                               #   in Loop: Header=BB0_21 Depth=2
	movl	$1, %edx
.LBB0_19:                               # %join.11.i.i.i.i.i.i.i.i
                                        #   in Loop: Header=BB0_21 Depth=2
	addq	%rcx, %rdx
.LBB0_20:                               # %loop.2.backedge.i.i.i.i.i.i.i.i
                                        #   in Loop: Header=BB0_21 Depth=2
	movq	%rdx, %rcx
	cmpq	%r12, %rdx
	jae	.LBB0_71
.LBB0_21:                               # %join.5.i.i.i.i.i.i.i.i
                                        #   Parent Loop BB0_3 Depth=1
                                        # =>  This Loop Header: Depth=2
                                        #       Child Loop BB0_55 Depth 3
                                        #       Child Loop BB0_60 Depth 3
	movzbl	(%r15,%rcx), %eax
	movq	%r12, %rsi
	subq	%rcx, %rsi
	cmpq	$2, %rsi
	jb	.LBB0_18
# %bb.22:                               # %join.5.i.i.i.i.i.i.i.i
                                        #   in Loop: Header=BB0_21 Depth=2
	testb	%al, %al
	js	.LBB0_18
# %bb.23:                               # %"core::str::utf8::begins_ascii_run.exit.i.i.i.i.i.i.i.i"
                                        #   in Loop: Header=BB0_21 Depth=2
	cmpb	$0, 1(%r15,%rcx)
	js	.LBB0_42
# %bb.24:                               # %then.6.i.i.i.i.i.i.i.i
                                        #   in Loop: Header=BB0_21 Depth=2
	movq	%r15, 544(%rsp)
	movq	%r12, 552(%rsp)
	cmpq	$7, %rsi
	ja	.LBB0_43
# %bb.25:                               # %join.5.i.i.i.i.i.i.i.i.i.i
                                        #   in Loop: Header=BB0_21 Depth=2
	cmpb	$0, (%r15,%rcx)
	js	.LBB0_53
# %bb.26:                               # %join.8.i.i.i.i.i.i.i.i.i.i
                                        #   in Loop: Header=BB0_21 Depth=2
	leaq	1(%rcx), %rdx
	cmpq	%r12, %rdx
	je	.LBB0_71
# %bb.27:                               # %join.5.i.i.i.i.i.i.i.i.i.i.1
                                        #   in Loop: Header=BB0_21 Depth=2
	cmpb	$0, (%r15,%rdx)
	js	.LBB0_20
# %bb.28:                               # %join.8.i.i.i.i.i.i.i.i.i.i.1
                                        #   in Loop: Header=BB0_21 Depth=2
	leaq	2(%rcx), %rdx
	cmpq	%r12, %rdx
	je	.LBB0_71
# %bb.29:                               # %join.5.i.i.i.i.i.i.i.i.i.i.2
                                        #   in Loop: Header=BB0_21 Depth=2
	cmpb	$0, (%r15,%rdx)
	js	.LBB0_20
# %bb.30:                               # %join.8.i.i.i.i.i.i.i.i.i.i.2
                                        #   in Loop: Header=BB0_21 Depth=2
	leaq	3(%rcx), %rdx
	cmpq	%r12, %rdx
	je	.LBB0_71
# %bb.31:                               # %join.5.i.i.i.i.i.i.i.i.i.i.3
                                        #   in Loop: Header=BB0_21 Depth=2
	cmpb	$0, (%r15,%rdx)
	js	.LBB0_20
# %bb.32:                               # %join.8.i.i.i.i.i.i.i.i.i.i.3
                                        #   in Loop: Header=BB0_21 Depth=2
	leaq	4(%rcx), %rdx
	cmpq	%r12, %rdx
	je	.LBB0_71
# %bb.33:                               # %join.5.i.i.i.i.i.i.i.i.i.i.4
                                        #   in Loop: Header=BB0_21 Depth=2
	cmpb	$0, (%r15,%rdx)
	js	.LBB0_20
# %bb.34:                               # %join.8.i.i.i.i.i.i.i.i.i.i.4
                                        #   in Loop: Header=BB0_21 Depth=2
	leaq	5(%rcx), %rdx
	cmpq	%r12, %rdx
	je	.LBB0_71
# %bb.35:                               # %join.5.i.i.i.i.i.i.i.i.i.i.5
                                        #   in Loop: Header=BB0_21 Depth=2
	cmpb	$0, (%r15,%rdx)
	js	.LBB0_20
# %bb.36:                               # %join.8.i.i.i.i.i.i.i.i.i.i.5
                                        #   in Loop: Header=BB0_21 Depth=2
	addq	$6, %rcx
	cmpq	%r12, %rcx
	je	.LBB0_71
# %bb.37:                               # %join.5.i.i.i.i.i.i.i.i.i.i.6
                                        #   in Loop: Header=BB0_21 Depth=2
	cmpb	$0, (%r15,%rcx)
	movq	%rcx, %rdx
	js	.LBB0_20
	jmp	.LBB0_71
	.p2align	4
.LBB0_18:                               # %join.8.i.i.i.i.i.i.i.i
                                        #   in Loop: Header=BB0_21 Depth=2
	movl	$1, %edx
	testb	%al, %al
	jns	.LBB0_19
# %bb.38:                               # %else.2.i.i.i.i.i.i.i.i.i
                                        #   in Loop: Header=BB0_21 Depth=2
	cmpb	$-62, %al
	jb	.LBB0_118
# %bb.39:                               # %else.5.i.i.i.i.i.i.i.i.i
                                        #   in Loop: Header=BB0_21 Depth=2
	movzbl	%al, %eax
	cmpb	$-33, %al
	ja	.LBB0_46
# %bb.40:                               # %then.7.i.i.i.i.i.i.i.i.i
                                        #   in Loop: Header=BB0_21 Depth=2
	cmpq	$2, %rsi
	jb	.LBB0_118
# %bb.41:                               # %join.3.i.i.i.i.i.i.i.i.i.i
                                        #   in Loop: Header=BB0_21 Depth=2
	movl	$2, %edx
	cmpb	$-65, 1(%r15,%rcx)
	jle	.LBB0_19
	jmp	.LBB0_118
.LBB0_43:                               # %join.3.i.i.i.i.i.i.i.i.i
                                        #   in Loop: Header=BB0_21 Depth=2
	movq	(%r15,%rcx), %rax
	andq	%rbp, %rax
	je	.LBB0_54
# %bb.44:                               # %"core::slice::words::first_in_word::<#52f9edcae2f82f51>.exit.i.i.i.i.i.i.i.i.i"
                                        #   in Loop: Header=BB0_21 Depth=2
	rep		bsfq	%rax, %rax
	shrl	$3, %eax
	addq	%rcx, %rax
	addq	$8, %rcx
	movq	%rax, %rdx
	cmpq	%rcx, %rax
	jb	.LBB0_20
# %bb.45:                               # %join.6.i.i.i.i.i.i.i.i.i
                                        #   in Loop: Header=BB0_21 Depth=2
	movq	%r12, %rcx
	subq	%rax, %rcx
	cmpq	$32, %rcx
	jae	.LBB0_55
	jmp	.LBB0_57
.LBB0_46:                               # %else.8.i.i.i.i.i.i.i.i.i
                                        #   in Loop: Header=BB0_21 Depth=2
	cmpb	$-17, %al
	ja	.LBB0_65
# %bb.47:                               # %then.10.i.i.i.i.i.i.i.i.i
                                        #   in Loop: Header=BB0_21 Depth=2
	cmpq	$3, %rsi
	jb	.LBB0_118
# %bb.48:                               # %join.3.i6.i.i.i.i.i.i.i.i.i
                                        #   in Loop: Header=BB0_21 Depth=2
	movzbl	1(%r15,%rcx), %edx
	cmpb	$-65, %dl
	jg	.LBB0_118
# %bb.49:                               # %join.3.i6.i.i.i.i.i.i.i.i.i
                                        #   in Loop: Header=BB0_21 Depth=2
	cmpb	$-65, 2(%r15,%rcx)
	jg	.LBB0_118
# %bb.50:                               # %join.15.i.i.i.i.i.i.i.i.i.i
                                        #   in Loop: Header=BB0_21 Depth=2
	shll	$6, %eax
	leal	(%rax,%rdx), %esi
	addl	$-14464, %esi                   # imm = 0xC780
	cmpl	$32, %esi
	jb	.LBB0_118
# %bb.51:                               # %else.17.i.i.i.i.i.i.i.i.i.i
                                        #   in Loop: Header=BB0_21 Depth=2
	xorl	%eax, %eax
	cmpl	$896, %esi                      # imm = 0x380
	setae	%dil
	movl	$3, %edx
	cmpl	$864, %esi                      # imm = 0x360
	jb	.LBB0_19
# %bb.52:                               #   in Loop: Header=BB0_21 Depth=2
	movb	%dil, %al
	leaq	(%rax,%rax,2), %rdx
	testq	%rdx, %rdx
	jne	.LBB0_19
	jmp	.LBB0_118
.LBB0_53:                               #   in Loop: Header=BB0_21 Depth=2
	movq	%rcx, %rdx
	jmp	.LBB0_20
.LBB0_54:                               # %"core::slice::words::first_in_word::<#52f9edcae2f82f51>.exit.thread.i.i.i.i.i.i.i.i.i"
                                        #   in Loop: Header=BB0_21 Depth=2
	addq	$8, %rcx
	movq	%rcx, %rax
	movq	%r12, %rcx
	subq	%rax, %rcx
	cmpq	$32, %rcx
	jb	.LBB0_57
	.p2align	4
.LBB0_55:                               # %then.3.i.i.i.i.i.i.i.i.i.i
                                        #   Parent Loop BB0_3 Depth=1
                                        #     Parent Loop BB0_21 Depth=2
                                        # =>    This Inner Loop Header: Depth=3
	movdqu	(%r15,%rax), %xmm0
	movdqu	16(%r15,%rax), %xmm1
	por	%xmm0, %xmm1
	pshufd	$238, %xmm1, %xmm0              # xmm0 = xmm1[2,3,2,3]
	por	%xmm1, %xmm0
	movq	%xmm0, %rcx
	testq	%rbp, %rcx
	jne	.LBB0_57
# %bb.56:                               # %join.5.i22.i.i.i.i.i.i.i.i.i
                                        #   in Loop: Header=BB0_55 Depth=3
	addq	$32, %rax
	leaq	544(%rsp), %rdi
	movq	%rax, %rsi
	movq	%r12, %rdx
	callq	"core::slice::words::skip_far::<#52f9edcae2f82f51>"
	movq	%r12, %rcx
	subq	%rax, %rcx
	cmpq	$31, %rcx
	ja	.LBB0_55
.LBB0_57:                               # %loop.8.i.i.i.i.i.i.i.i.i.preheader
                                        #   in Loop: Header=BB0_21 Depth=2
	movq	%r12, %rcx
	subq	%rax, %rcx
	jmp	.LBB0_60
	.p2align	4
.LBB0_58:                               # %then.1.i33.i.i.i.i.i.i.i.i.i
                                        #   in Loop: Header=BB0_60 Depth=3
	leaq	8(%rax), %rdx
	addq	$8, %rax
	addq	$-8, %rcx
	cmpq	%rax, %rdx
	jb	.LBB0_20
.LBB0_60:                               # %loop.8.i.i.i.i.i.i.i.i.i
                                        #   Parent Loop BB0_3 Depth=1
                                        #     Parent Loop BB0_21 Depth=2
                                        # =>    This Inner Loop Header: Depth=3
	cmpq	$9, %rcx
	jb	.LBB0_63
# %bb.61:                               # %join.11.i.i.i.i.i.i.i.i.i
                                        #   in Loop: Header=BB0_60 Depth=3
	movq	(%r15,%rax), %rdx
	andq	%rbp, %rdx
	je	.LBB0_58
# %bb.62:                               # %join.3.i28.i.i.i.i.i.i.i.i.i
                                        #   in Loop: Header=BB0_60 Depth=3
	rep		bsfq	%rdx, %rdx
	shrl	$3, %edx
	addq	%rax, %rdx
	addq	$8, %rax
	addq	$-8, %rcx
	cmpq	%rax, %rdx
	jae	.LBB0_60
	jmp	.LBB0_20
.LBB0_63:                               # %after.7.i.i.i.i.i.i.i.i.i
                                        #   in Loop: Header=BB0_21 Depth=2
	movq	(%r15,%rbx), %rax
	andq	%rbp, %rax
	je	.LBB0_71
# %bb.64:                               # %join.3.i40.i.i.i.i.i.i.i.i.i
                                        #   in Loop: Header=BB0_21 Depth=2
	rep		bsfq	%rax, %rdx
	shrl	$3, %edx
	addq	%rbx, %rdx
	jmp	.LBB0_20
.LBB0_65:                               # %else.11.i.i.i.i.i.i.i.i.i
                                        #   in Loop: Header=BB0_21 Depth=2
	cmpq	$4, %rsi
	jb	.LBB0_118
# %bb.66:                               # %join.3.i11.i.i.i.i.i.i.i.i.i
                                        #   in Loop: Header=BB0_21 Depth=2
	movzbl	1(%r15,%rcx), %edx
	cmpb	$-65, %dl
	jg	.LBB0_118
# %bb.67:                               # %join.3.i11.i.i.i.i.i.i.i.i.i
                                        #   in Loop: Header=BB0_21 Depth=2
	cmpb	$-65, 2(%r15,%rcx)
	jg	.LBB0_118
# %bb.68:                               # %join.3.i11.i.i.i.i.i.i.i.i.i
                                        #   in Loop: Header=BB0_21 Depth=2
	cmpb	$-65, 3(%r15,%rcx)
	jg	.LBB0_118
# %bb.69:                               # %join.21.i.i.i.i.i.i.i.i.i.i
                                        #   in Loop: Header=BB0_21 Depth=2
	shll	$6, %eax
	leal	(%rax,%rdx), %esi
	addl	$-15488, %esi                   # imm = 0xC380
	xorl	%edx, %edx
	cmpl	$272, %esi                      # imm = 0x110
	setb	%al
	cmpl	$16, %esi
	jb	.LBB0_118
# %bb.70:                               #   in Loop: Header=BB0_21 Depth=2
	movb	%al, %dl
	shll	$2, %edx
	testq	%rdx, %rdx
	jne	.LBB0_19
	jmp	.LBB0_118
	.p2align	4
.LBB0_71:                               # %arm.6.i.i.i.i
                                        #   in Loop: Header=BB0_3 Depth=1
	cmpq	%r14, 112(%rsp)
	je	.LBB0_73
.LBB0_72:                               # %join.9.i.i.i.i
                                        #   in Loop: Header=BB0_3 Depth=1
	leaq	(%r14,%r14,2), %rax
	movq	16(%rsp), %rcx                  # 8-byte Reload
	movq	%r15, (%rcx,%rax,8)
	movq	%r12, 8(%rcx,%rax,8)
	movq	%r13, 16(%rcx,%rax,8)
	incq	%r14
	movq	%r14, 104(%rsp)
	movq	24(%rsp), %rcx                  # 8-byte Reload
	incq	%rcx
	movq	%rcx, 24(%rsp)                  # 8-byte Spill
	cmpq	$-1, %rcx
	jne	.LBB0_3
	jmp	.LBB0_77
.LBB0_73:                               # %"std_alloc::vec::Vec::grow::<#1b8c52373d8cd3cb>.exit.i.i.i.i.i"
                                        #   in Loop: Header=BB0_3 Depth=1
	leaq	96(%rsp), %rdi
	movl	$1, %esi
	callq	"std_alloc::vec::Vec::grow_amortized::<#1b8c52373d8cd3cb>"
	testb	%al, %al
	je	.LBB0_350
# %bb.74:                               # %"std_alloc::vec::Vec::grow::<#1b8c52373d8cd3cb>.exit.join.3_crit_edge.i.i.i.i.i"
                                        #   in Loop: Header=BB0_3 Depth=1
	movq	96(%rsp), %rax
	movq	%rax, 16(%rsp)                  # 8-byte Spill
	movq	104(%rsp), %r14
	jmp	.LBB0_72
.LBB0_75:                               # %arm.9.i.i.i.i.i.i.i
	cmpq	$0, 560(%rsp)
	je	.LBB0_77
# %bb.76:                               # %then.1.i.i.i49.i.i.i.i.i.i.i
	movq	%r15, %rdi
	callq	rattle_dealloc@PLT
.LBB0_77:                               # %arm.1.i.i.i
	movq	96(%rsp), %rdi
	movq	112(%rsp), %r8
	testq	%r14, %r14
	je	.LBB0_99
# %bb.78:                               # %join.3.i.i.i.i.i.preheader.i.i.i.i.i.i.i.preheader
	leaq	40(%rdi), %r9
	leaq	8(%rsp), %rax
	movq	%rax, 16(%rsp)                  # 8-byte Spill
	xorl	%ecx, %ecx
	xorl	%r12d, %r12d
	xorl	%r15d, %r15d
	xorl	%ebp, %ebp
.LBB0_79:                               # %join.3.i.i.i.i.i.preheader.i.i.i.i.i.i.i
                                        # =>This Loop Header: Depth=1
                                        #     Child Loop BB0_80 Depth 2
	leaq	(,%rbp,2), %rax
	addq	%rbp, %rax
	leaq	(%r9,%rax,8), %rbx
	leaq	(%r15,%r15,2), %rax
	movq	16(%rsp), %rdx                  # 8-byte Reload
	leaq	(%rdx,%rax,8), %rax
	movq	%r15, %rdx
	subq	%rcx, %rdx
	xorl	%r13d, %r13d
	.p2align	4
.LBB0_80:                               # %join.3.i.i.i.i.i.i.i.i.i.i.i.i
                                        #   Parent Loop BB0_79 Depth=1
                                        # =>  This Inner Loop Header: Depth=2
	movq	%rdx, %rsi
	addq	%r13, %rsi
	je	.LBB0_82
# %bb.81:                               # %join.9.i.i.i.i.i.i.i.i.i
                                        #   in Loop: Header=BB0_80 Depth=2
	leaq	-40(%rbx), %rsi
	movdqu	(%rsi), %xmm0
	movq	16(%rsi), %rsi
	movq	%rsi, 16(%rax)
	movdqu	%xmm0, (%rax)
	addq	$24, %rbx
	addq	$24, %rax
	incq	%r13
	cmpq	%r13, %r14
	jne	.LBB0_80
	jmp	.LBB0_89
	.p2align	4
.LBB0_82:                               # %arm.3.i.i.i.i.i.i.i
                                        #   in Loop: Header=BB0_79 Depth=1
	movq	-40(%rbx), %r15
	movq	-24(%rbx), %rsi
	movdqu	-32(%rbx), %xmm0
	movq	16(%rsp), %rax                  # 8-byte Reload
	movq	%rax, 544(%rsp)
	movq	%rcx, 552(%rsp)
	movq	%r12, 560(%rsp)
	movq	%r12, %rax
	subq	%rcx, %rax
	movq	%r12, %rdx
	movq	%r14, %r12
	subq	%r13, %r12
	decq	%r14
	cmpq	%rax, %r12
	ja	.LBB0_84
.LBB0_83:                               # %join.10.i.i.i.i.i.i.i
                                        #   in Loop: Header=BB0_79 Depth=1
	decq	%r12
	addq	%r13, %rbp
	incq	%rbp
	movq	544(%rsp), %rsi
	leaq	(%rcx,%rcx,2), %rax
	movq	%r15, (%rsi,%rax,8)
	movq	%rsi, 16(%rsp)                  # 8-byte Spill
	movdqu	%xmm0, 8(%rsi,%rax,8)
	movq	%rcx, %r15
	xorl	%ecx, %ecx
	incq	%r15
	cmovneq	%rdx, %rcx
	pxor	%xmm0, %xmm0
	leaq	552(%rsp), %rax
	movdqu	%xmm0, (%rax)
	cmpq	%r13, %r14
	movq	%r12, %r14
	movq	%rdx, %r12
	jne	.LBB0_79
	jmp	.LBB0_90
.LBB0_84:                               # %"std_alloc::vec::Vec::grow::<#1b8c52373d8cd3cb>.exit.i.i.i.i.i.i.i.i"
                                        #   in Loop: Header=BB0_79 Depth=1
	movq	%rsi, 40(%rsp)                  # 8-byte Spill
	movdqa	%xmm0, 64(%rsp)                 # 16-byte Spill
	movq	%r9, 56(%rsp)                   # 8-byte Spill
	movq	%r8, 24(%rsp)                   # 8-byte Spill
	movq	%rdi, 16(%rsp)                  # 8-byte Spill
	leaq	544(%rsp), %rdi
	movq	%r12, %rsi
	callq	"std_alloc::vec::Vec::grow_amortized::<#1b8c52373d8cd3cb>"
	movq	552(%rsp), %rcx
	movq	560(%rsp), %rdx
	movq	%rdx, %rsi
	cmpq	%rcx, %rdx
	setne	%dl
	orb	%al, %dl
	je	.LBB0_87
# %bb.85:                               #   in Loop: Header=BB0_79 Depth=1
	movq	16(%rsp), %rdi                  # 8-byte Reload
	movq	%rsi, %rdx
.LBB0_86:                               # %join.10.i.i.i.i.i.i.i
                                        #   in Loop: Header=BB0_79 Depth=1
	movq	24(%rsp), %r8                   # 8-byte Reload
	movq	56(%rsp), %r9                   # 8-byte Reload
	movdqa	64(%rsp), %xmm0                 # 16-byte Reload
	jmp	.LBB0_83
.LBB0_87:                               # %"std_alloc::vec::Vec::grow_by_hint::<#1b8c52373d8cd3cb>.exit.i.i.i.i.i.i.i"
                                        #   in Loop: Header=BB0_79 Depth=1
	leaq	544(%rsp), %rdi
	movl	$1, %esi
	callq	"std_alloc::vec::Vec::grow_amortized::<#1b8c52373d8cd3cb>"
	testb	%al, %al
	je	.LBB0_362
# %bb.88:                               # %"std_alloc::vec::Vec::grow_by_hint::<#1b8c52373d8cd3cb>.exit.join.10_crit_edge.i.i.i.i.i.i.i"
                                        #   in Loop: Header=BB0_79 Depth=1
	movq	552(%rsp), %rcx
	movq	560(%rsp), %rdx
	movq	16(%rsp), %rdi                  # 8-byte Reload
	jmp	.LBB0_86
.LBB0_89:                               # %arm.4.i.i.i.i4.i.i.i.loopexit
	addq	%r13, %r15
.LBB0_90:                               # %arm.4.i.i.i.i4.i.i.i
	testq	%r8, %r8
	je	.LBB0_92
.LBB0_91:                               # %then.1.i.i.i.i.i.i.i.i.i.i.i.i
	callq	rattle_dealloc@PLT
.LBB0_92:                               # %arm.1.i.i.i.i
	pxor	%xmm0, %xmm0
	movdqa	%xmm0, 96(%rsp)
	movq	$0, 112(%rsp)
	testq	%r15, %r15
	je	.LBB0_100
# %bb.93:                               # %then.5.i.i.i.i
	movq	%r12, %rbx
	movq	16(%rsp), %rdx                  # 8-byte Reload
	movq	(%rdx), %r14
	movq	16(%rdx), %r12
	leaq	-1(%r15), %rsi
	xorl	%eax, %eax
	cmpq	$86, %rsi
	jb	.LBB0_101
# %bb.94:                               # %"core::slots::Slots::move_at_once::<#483ec8513fd57e54>.exit.i.i.i.i.i.preheader"
	movq	%rdx, %rdi
	.p2align	4
.LBB0_95:                               # %"core::slots::Slots::move_at_once::<#483ec8513fd57e54>.exit.i.i.i.i.i"
                                        # =>This Inner Loop Header: Depth=1
	movq	40(%rdi), %rcx
	movq	%rcx, 16(%rdi)
	movups	24(%rdi), %xmm0
	movups	%xmm0, (%rdi)
	movups	48(%rdi), %xmm0
	movups	%xmm0, 24(%rdi)
	movq	64(%rdi), %rcx
	movq	%rcx, 40(%rdi)
	movups	72(%rdi), %xmm0
	movups	%xmm0, 48(%rdi)
	movq	88(%rdi), %rcx
	movq	%rcx, 64(%rdi)
	movups	96(%rdi), %xmm0
	movups	%xmm0, 72(%rdi)
	movq	112(%rdi), %rcx
	movq	%rcx, 88(%rdi)
	movq	136(%rdi), %rcx
	movq	%rcx, 112(%rdi)
	movups	120(%rdi), %xmm0
	movups	%xmm0, 96(%rdi)
	movq	160(%rdi), %rcx
	movq	%rcx, 136(%rdi)
	movups	144(%rdi), %xmm0
	movups	%xmm0, 120(%rdi)
	movq	184(%rdi), %rcx
	movq	%rcx, 160(%rdi)
	movups	168(%rdi), %xmm0
	movups	%xmm0, 144(%rdi)
	movq	208(%rdi), %rcx
	movq	%rcx, 184(%rdi)
	movups	192(%rdi), %xmm0
	movups	%xmm0, 168(%rdi)
	movq	232(%rdi), %rcx
	movq	%rcx, 208(%rdi)
	movups	216(%rdi), %xmm0
	movups	%xmm0, 192(%rdi)
	movq	256(%rdi), %rcx
	movq	%rcx, 232(%rdi)
	movups	240(%rdi), %xmm0
	movups	%xmm0, 216(%rdi)
	movq	280(%rdi), %rcx
	movq	%rcx, 256(%rdi)
	movups	264(%rdi), %xmm0
	movups	%xmm0, 240(%rdi)
	movq	304(%rdi), %rcx
	movq	%rcx, 280(%rdi)
	movups	288(%rdi), %xmm0
	movups	%xmm0, 264(%rdi)
	movq	328(%rdi), %rcx
	movq	%rcx, 304(%rdi)
	movups	312(%rdi), %xmm0
	movups	%xmm0, 288(%rdi)
	movq	352(%rdi), %rcx
	movq	%rcx, 328(%rdi)
	movups	336(%rdi), %xmm0
	movups	%xmm0, 312(%rdi)
	movq	376(%rdi), %rcx
	movq	%rcx, 352(%rdi)
	movups	360(%rdi), %xmm0
	movups	%xmm0, 336(%rdi)
	movq	400(%rdi), %rcx
	movq	%rcx, 376(%rdi)
	movups	384(%rdi), %xmm0
	movups	%xmm0, 360(%rdi)
	movq	424(%rdi), %rcx
	movq	%rcx, 400(%rdi)
	movups	408(%rdi), %xmm0
	movups	%xmm0, 384(%rdi)
	movq	448(%rdi), %rcx
	movq	%rcx, 424(%rdi)
	movups	432(%rdi), %xmm0
	movups	%xmm0, 408(%rdi)
	movq	472(%rdi), %rcx
	movq	%rcx, 448(%rdi)
	movups	456(%rdi), %xmm0
	movups	%xmm0, 432(%rdi)
	movq	496(%rdi), %rcx
	movq	%rcx, 472(%rdi)
	movups	480(%rdi), %xmm0
	movups	%xmm0, 456(%rdi)
	movq	520(%rdi), %rcx
	movq	%rcx, 496(%rdi)
	movups	504(%rdi), %xmm0
	movups	%xmm0, 480(%rdi)
	movq	544(%rdi), %rcx
	movq	%rcx, 520(%rdi)
	movups	528(%rdi), %xmm0
	movups	%xmm0, 504(%rdi)
	movq	568(%rdi), %rcx
	movq	%rcx, 544(%rdi)
	movups	552(%rdi), %xmm0
	movups	%xmm0, 528(%rdi)
	movq	592(%rdi), %rcx
	movq	%rcx, 568(%rdi)
	movups	576(%rdi), %xmm0
	movups	%xmm0, 552(%rdi)
	movq	616(%rdi), %rcx
	movq	%rcx, 592(%rdi)
	movups	600(%rdi), %xmm0
	movups	%xmm0, 576(%rdi)
	movq	640(%rdi), %rcx
	movq	%rcx, 616(%rdi)
	movups	624(%rdi), %xmm0
	movups	%xmm0, 600(%rdi)
	movq	664(%rdi), %rcx
	movq	%rcx, 640(%rdi)
	movups	648(%rdi), %xmm0
	movups	%xmm0, 624(%rdi)
	movq	688(%rdi), %rcx
	movq	%rcx, 664(%rdi)
	movups	672(%rdi), %xmm0
	movups	%xmm0, 648(%rdi)
	movq	712(%rdi), %rcx
	movq	%rcx, 688(%rdi)
	movups	696(%rdi), %xmm0
	movups	%xmm0, 672(%rdi)
	movq	736(%rdi), %rcx
	movq	%rcx, 712(%rdi)
	movups	720(%rdi), %xmm0
	movups	%xmm0, 696(%rdi)
	movq	760(%rdi), %rcx
	movq	%rcx, 736(%rdi)
	movups	744(%rdi), %xmm0
	movups	%xmm0, 720(%rdi)
	movq	784(%rdi), %rcx
	movq	%rcx, 760(%rdi)
	movups	768(%rdi), %xmm0
	movups	%xmm0, 744(%rdi)
	movq	808(%rdi), %rcx
	movq	%rcx, 784(%rdi)
	movups	792(%rdi), %xmm0
	movups	%xmm0, 768(%rdi)
	movq	832(%rdi), %rcx
	movq	%rcx, 808(%rdi)
	movups	816(%rdi), %xmm0
	movups	%xmm0, 792(%rdi)
	movq	856(%rdi), %rcx
	movq	%rcx, 832(%rdi)
	movups	840(%rdi), %xmm0
	movups	%xmm0, 816(%rdi)
	movq	880(%rdi), %rcx
	movq	%rcx, 856(%rdi)
	movups	864(%rdi), %xmm0
	movups	%xmm0, 840(%rdi)
	movq	904(%rdi), %rcx
	movq	%rcx, 880(%rdi)
	movups	888(%rdi), %xmm0
	movups	%xmm0, 864(%rdi)
	movq	928(%rdi), %rcx
	movq	%rcx, 904(%rdi)
	movups	912(%rdi), %xmm0
	movups	%xmm0, 888(%rdi)
	movq	952(%rdi), %rcx
	movq	%rcx, 928(%rdi)
	movups	936(%rdi), %xmm0
	movups	%xmm0, 912(%rdi)
	movq	976(%rdi), %rcx
	movq	%rcx, 952(%rdi)
	movups	960(%rdi), %xmm0
	movups	%xmm0, 936(%rdi)
	movq	1000(%rdi), %rcx
	movq	%rcx, 976(%rdi)
	movups	984(%rdi), %xmm0
	movups	%xmm0, 960(%rdi)
	movq	1024(%rdi), %rcx
	movq	%rcx, 1000(%rdi)
	movups	1008(%rdi), %xmm0
	movups	%xmm0, 984(%rdi)
	movq	1048(%rdi), %rcx
	movq	%rcx, 1024(%rdi)
	movups	1032(%rdi), %xmm0
	movups	%xmm0, 1008(%rdi)
	movq	1072(%rdi), %rcx
	movq	%rcx, 1048(%rdi)
	movups	1056(%rdi), %xmm0
	movups	%xmm0, 1032(%rdi)
	movq	1096(%rdi), %rcx
	movq	%rcx, 1072(%rdi)
	movups	1080(%rdi), %xmm0
	movups	%xmm0, 1056(%rdi)
	movq	1120(%rdi), %rcx
	movq	%rcx, 1096(%rdi)
	movups	1104(%rdi), %xmm0
	movups	%xmm0, 1080(%rdi)
	movq	1144(%rdi), %rcx
	movq	%rcx, 1120(%rdi)
	movups	1128(%rdi), %xmm0
	movups	%xmm0, 1104(%rdi)
	movq	1168(%rdi), %rcx
	movq	%rcx, 1144(%rdi)
	movups	1152(%rdi), %xmm0
	movups	%xmm0, 1128(%rdi)
	movq	1192(%rdi), %rcx
	movq	%rcx, 1168(%rdi)
	movups	1176(%rdi), %xmm0
	movups	%xmm0, 1152(%rdi)
	movq	1216(%rdi), %rcx
	movq	%rcx, 1192(%rdi)
	movups	1200(%rdi), %xmm0
	movups	%xmm0, 1176(%rdi)
	movq	1240(%rdi), %rcx
	movq	%rcx, 1216(%rdi)
	movups	1224(%rdi), %xmm0
	movups	%xmm0, 1200(%rdi)
	movq	1264(%rdi), %rcx
	movq	%rcx, 1240(%rdi)
	movups	1248(%rdi), %xmm0
	movups	%xmm0, 1224(%rdi)
	movq	1288(%rdi), %rcx
	movq	%rcx, 1264(%rdi)
	movups	1272(%rdi), %xmm0
	movups	%xmm0, 1248(%rdi)
	movq	1312(%rdi), %rcx
	movq	%rcx, 1288(%rdi)
	movups	1296(%rdi), %xmm0
	movups	%xmm0, 1272(%rdi)
	movq	1336(%rdi), %rcx
	movq	%rcx, 1312(%rdi)
	movups	1320(%rdi), %xmm0
	movups	%xmm0, 1296(%rdi)
	movq	1360(%rdi), %rcx
	movq	%rcx, 1336(%rdi)
	movups	1344(%rdi), %xmm0
	movups	%xmm0, 1320(%rdi)
	movq	1384(%rdi), %rcx
	movq	%rcx, 1360(%rdi)
	movups	1368(%rdi), %xmm0
	movups	%xmm0, 1344(%rdi)
	movq	1408(%rdi), %rcx
	movq	%rcx, 1384(%rdi)
	movups	1392(%rdi), %xmm0
	movups	%xmm0, 1368(%rdi)
	movq	1432(%rdi), %rcx
	movq	%rcx, 1408(%rdi)
	movups	1416(%rdi), %xmm0
	movups	%xmm0, 1392(%rdi)
	movq	1456(%rdi), %rcx
	movq	%rcx, 1432(%rdi)
	movups	1440(%rdi), %xmm0
	movups	%xmm0, 1416(%rdi)
	movq	1480(%rdi), %rcx
	movq	%rcx, 1456(%rdi)
	movups	1464(%rdi), %xmm0
	movups	%xmm0, 1440(%rdi)
	movq	1504(%rdi), %rcx
	movq	%rcx, 1480(%rdi)
	movups	1488(%rdi), %xmm0
	movups	%xmm0, 1464(%rdi)
	movq	1528(%rdi), %rcx
	movq	%rcx, 1504(%rdi)
	movups	1512(%rdi), %xmm0
	movups	%xmm0, 1488(%rdi)
	movq	1552(%rdi), %rcx
	movq	%rcx, 1528(%rdi)
	movups	1536(%rdi), %xmm0
	movups	%xmm0, 1512(%rdi)
	movq	1576(%rdi), %rcx
	movq	%rcx, 1552(%rdi)
	movups	1560(%rdi), %xmm0
	movups	%xmm0, 1536(%rdi)
	movq	1600(%rdi), %rcx
	movq	%rcx, 1576(%rdi)
	movups	1584(%rdi), %xmm0
	movups	%xmm0, 1560(%rdi)
	movq	1624(%rdi), %rcx
	movq	%rcx, 1600(%rdi)
	movups	1608(%rdi), %xmm0
	movups	%xmm0, 1584(%rdi)
	movq	1648(%rdi), %rcx
	movq	%rcx, 1624(%rdi)
	movups	1632(%rdi), %xmm0
	movups	%xmm0, 1608(%rdi)
	movq	1672(%rdi), %rcx
	movq	%rcx, 1648(%rdi)
	movups	1656(%rdi), %xmm0
	movups	%xmm0, 1632(%rdi)
	movq	1696(%rdi), %rcx
	movq	%rcx, 1672(%rdi)
	movups	1680(%rdi), %xmm0
	movups	%xmm0, 1656(%rdi)
	movq	1720(%rdi), %rcx
	movq	%rcx, 1696(%rdi)
	movups	1704(%rdi), %xmm0
	movups	%xmm0, 1680(%rdi)
	movq	1744(%rdi), %rcx
	movq	%rcx, 1720(%rdi)
	movups	1728(%rdi), %xmm0
	movups	%xmm0, 1704(%rdi)
	movq	1768(%rdi), %rcx
	movq	%rcx, 1744(%rdi)
	movups	1752(%rdi), %xmm0
	movups	%xmm0, 1728(%rdi)
	movq	1792(%rdi), %rcx
	movq	%rcx, 1768(%rdi)
	movups	1776(%rdi), %xmm0
	movups	%xmm0, 1752(%rdi)
	movq	1816(%rdi), %rcx
	movq	%rcx, 1792(%rdi)
	movups	1800(%rdi), %xmm0
	movups	%xmm0, 1776(%rdi)
	movq	1840(%rdi), %rcx
	movq	%rcx, 1816(%rdi)
	movups	1824(%rdi), %xmm0
	movups	%xmm0, 1800(%rdi)
	movq	1864(%rdi), %rcx
	movq	%rcx, 1840(%rdi)
	movups	1848(%rdi), %xmm0
	movups	%xmm0, 1824(%rdi)
	movq	1888(%rdi), %rcx
	movq	%rcx, 1864(%rdi)
	movups	1872(%rdi), %xmm0
	movups	%xmm0, 1848(%rdi)
	movq	1912(%rdi), %rcx
	movq	%rcx, 1888(%rdi)
	movups	1896(%rdi), %xmm0
	movups	%xmm0, 1872(%rdi)
	movq	1936(%rdi), %rcx
	movq	%rcx, 1912(%rdi)
	movups	1920(%rdi), %xmm0
	movups	%xmm0, 1896(%rdi)
	movq	1960(%rdi), %rcx
	movq	%rcx, 1936(%rdi)
	movups	1944(%rdi), %xmm0
	movups	%xmm0, 1920(%rdi)
	movq	1984(%rdi), %rcx
	movq	%rcx, 1960(%rdi)
	movups	1968(%rdi), %xmm0
	movups	%xmm0, 1944(%rdi)
	movq	2008(%rdi), %rcx
	movq	%rcx, 1984(%rdi)
	movups	1992(%rdi), %xmm0
	movups	%xmm0, 1968(%rdi)
	movq	2032(%rdi), %rcx
	movq	%rcx, 2008(%rdi)
	movups	2016(%rdi), %xmm0
	movups	%xmm0, 1992(%rdi)
	movq	2056(%rdi), %rcx
	movq	%rcx, 2032(%rdi)
	movdqu	2040(%rdi), %xmm0
	movdqu	%xmm0, 2016(%rdi)
	addq	$2040, %rdi                     # imm = 0x7F8
	leaq	(%rsi,%rax), %rcx
	addq	$-85, %rcx
	addq	$-85, %rax
	cmpq	$85, %rcx
	ja	.LBB0_95
# %bb.96:                               # %"core::slots::Slots::move_back::<#483ec8513fd57e54>.exit.i.i.i.i.i"
	cmpq	$1, %rax
	jne	.LBB0_126
# %bb.97:                               # %join.5.i33.i.i.i.i.i.preheader
	addq	%rsi, %rax
	leaq	(%r15,%r15,2), %rcx
	movq	16(%rsp), %r15                  # 8-byte Reload
	leaq	(%r15,%rcx,8), %rcx
	addq	$-24, %rcx
	.p2align	4
.LBB0_98:                               # %join.5.i33.i.i.i.i.i
                                        # =>This Inner Loop Header: Depth=1
	movq	16(%rcx), %rdx
	movq	%rdx, -8(%rcx)
	movdqu	(%rcx), %xmm0
	movdqu	%xmm0, -24(%rcx)
	addq	$-24, %rcx
	decq	%rax
	jne	.LBB0_98
	jmp	.LBB0_103
.LBB0_99:
	leaq	8(%rsp), %rax
	movq	%rax, 16(%rsp)                  # 8-byte Spill
	xorl	%r12d, %r12d
	xorl	%r15d, %r15d
	testq	%r8, %r8
	jne	.LBB0_91
	jmp	.LBB0_92
.LBB0_100:                              # %arm.1.thread.i.i.i
	movq	%r12, 32(%rsp)                  # 8-byte Spill
	movb	$1, 15(%rsp)                    # 1-byte Folded Spill
	movq	$0, 40(%rsp)                    # 8-byte Folded Spill
	movq	$0, 48(%rsp)                    # 8-byte Folded Spill
	movq	$0, 56(%rsp)                    # 8-byte Folded Spill
	jmp	.LBB0_142
.LBB0_101:
	movq	%rdx, %rdi
	movq	%rsi, %rcx
	movq	%rdx, %r15
	cmpq	%rax, %rsi
	je	.LBB0_103
.LBB0_102:                              # %join.5.i25.i.preheader.i.i.i.i
	movq	%rsi, %r13
	leaq	24(%rdi), %rsi
	shlq	$3, %rcx
	leaq	(%rcx,%rcx,2), %rdx
	callq	memmove@PLT
	movq	%r13, %rsi
.LBB0_103:                              # %"std_alloc::vec::Vec::remove::<#1b8c52373d8cd3cb>.exit.i.i.i.i"
	testq	%r12, %r12
	je	.LBB0_105
# %bb.104:                              # %then.1.i.i.i.i.i61.i.i
	movq	%r14, %rdi
	movq	%rsi, %r14
	callq	rattle_dealloc@PLT
	movq	%r14, %rsi
.LBB0_105:                              # %arm.1.i21.i.i
	movq	%rbx, %r12
	testq	%rsi, %rsi
	je	.LBB0_141
.LBB0_106:                              # %arm.1.i21.i.i
	cmpq	$1, %rsi
	jne	.LBB0_110
# %bb.107:                              # %then.5.i.i.i.i.i
	cmpq	$7, 8(%r15)
	jne	.LBB0_117
# %bb.108:                              # %"text_programs::programs::requests::request_of::<#40a73cb1e87492e9>.exit.i.i.i.i"
	movq	(%r15), %rax
	movl	(%rax), %ecx
	movl	3(%rax), %eax
	shlq	$32, %rax
	orq	%rcx, %rax
	movabsq	$7306934700250836269, %rcx      # imm = 0x65677265656D2D2D
	cmpq	%rcx, %rax
	jne	.LBB0_117
# %bb.109:
	movq	%r15, 16(%rsp)                  # 8-byte Spill
	movq	%r12, 32(%rsp)                  # 8-byte Spill
	movb	$1, %al
	movq	%rax, 48(%rsp)                  # 8-byte Spill
	movl	$1, %eax
	movq	%rax, 40(%rsp)                  # 8-byte Spill
	movq	$0, 56(%rsp)                    # 8-byte Folded Spill
	movb	$1, 15(%rsp)                    # 1-byte Folded Spill
	jmp	.LBB0_142
.LBB0_110:                              # %join.7.i.i.i.i.i
	cmpq	$2, %rsi
	ja	.LBB0_117
# %bb.111:                              # %then.11.i.i.i.i.i
	cmpq	$6, 8(%r15)
	jne	.LBB0_117
# %bb.112:                              # %"text_programs::programs::requests::is_text::<#e3b2a9d4d2861db8>.exit.i.i.i.i.i.i"
	movq	(%r15), %rax
	movl	(%rax), %ecx
	movl	2(%rax), %eax
	shlq	$32, %rax
	orq	%rcx, %rax
	movabsq	$8314892193955654957, %rcx      # imm = 0x73646E656E652D2D
	cmpq	%rcx, %rax
	jne	.LBB0_117
# %bb.113:                              # %then.1.i.i.i.i.i.i
	movq	32(%r15), %rbx
	testq	%rbx, %rbx
	je	.LBB0_117
# %bb.114:                              # %loop.2.i.i.preheader.i.i.i.i.i.i
	movq	24(%r15), %r14
	xorl	%eax, %eax
	movq	%rsi, 40(%rsp)                  # 8-byte Spill
.LBB0_115:                              # %loop.2.i.i.i.i.i.i.i.i
                                        # =>This Inner Loop Header: Depth=1
	cmpq	%rax, %rbx
	je	.LBB0_298
# %bb.116:                              # %arm.3.i.i.i.i.i.i.i.i
                                        #   in Loop: Header=BB0_115 Depth=1
	movzbl	(%r14,%rax), %ecx
	andb	$-5, %cl
	incq	%rax
	xorl	%ebp, %ebp
	cmpb	$66, %cl
	je	.LBB0_115
	jmp	.LBB0_318
.LBB0_117:                              # %arm.6.thread.i.i.i
	xorl	%edi, %edi
	movq	%rsi, %rbx
	callq	"text_programs::programs::stops::Stop::report::<#2daa2fb2be07fb73>"
	movq	%rbx, %rcx
	movl	%eax, %ebp
	jmp	.LBB0_319
.LBB0_118:                              # %arm.5.i.i.i.i.i.i
	testq	%r13, %r13
	je	.LBB0_120
# %bb.119:                              # %then.1.i.i.i.i.i.i.i.i.i
	movq	%r15, %rdi
	callq	rattle_dealloc@PLT
.LBB0_120:                              # %arm.18.i.i.i.i
	movq	112(%rsp), %rbx
	testq	%r14, %r14
	je	.LBB0_125
# %bb.121:                              # %join.5.i.i.i.i.i49.i.i.i.i.preheader
	movq	16(%rsp), %rax                  # 8-byte Reload
	leaq	16(%rax), %r15
	jmp	.LBB0_123
	.p2align	4
.LBB0_122:                              # %"core::mem::drop::<#f02d343d93693c10>.exit.i.i.i.i.i58.i.i.i.i"
                                        #   in Loop: Header=BB0_123 Depth=1
	addq	$24, %r15
	decq	%r14
	je	.LBB0_125
.LBB0_123:                              # %join.5.i.i.i.i.i49.i.i.i.i
                                        # =>This Inner Loop Header: Depth=1
	cmpq	$0, (%r15)
	je	.LBB0_122
# %bb.124:                              # %then.1.i.i.i.i.i.i.i.i.i.i56.i.i.i.i
                                        #   in Loop: Header=BB0_123 Depth=1
	movq	-16(%r15), %rdi
	callq	rattle_dealloc@PLT
	jmp	.LBB0_122
.LBB0_125:                              # %"std_alloc::vec::Vec::clear::<#4feeb2b446188e7f>.exit.i61.i.i.i.i"
	movl	$21, %r14d
	testq	%rbx, %rbx
	jne	.LBB0_135
	jmp	.LBB0_137
.LBB0_126:
	leaq	(%rsi,%rax), %rcx
	negq	%rax
	movq	16(%rsp), %r15                  # 8-byte Reload
	cmpq	%rax, %rsi
	jne	.LBB0_102
	jmp	.LBB0_103
.LBB0_127:                              # %then.1.i.i.i.i.i.i.i
	cmpq	$0, 560(%rsp)
	je	.LBB0_129
# %bb.128:                              # %then.1.i.i.i.i.i.i.i.i.i.i
	movq	544(%rsp), %rdi
	callq	rattle_dealloc@PLT
.LBB0_129:                              # %arm.17.i.i.i.i
	movq	112(%rsp), %rbx
	testq	%r14, %r14
	je	.LBB0_134
# %bb.130:                              # %join.5.i.i.i.i.i25.i.i.i.i.preheader
	movq	16(%rsp), %rax                  # 8-byte Reload
	leaq	16(%rax), %r15
	jmp	.LBB0_132
	.p2align	4
.LBB0_131:                              # %"core::mem::drop::<#f02d343d93693c10>.exit.i.i.i.i.i34.i.i.i.i"
                                        #   in Loop: Header=BB0_132 Depth=1
	addq	$24, %r15
	decq	%r14
	je	.LBB0_134
.LBB0_132:                              # %join.5.i.i.i.i.i25.i.i.i.i
                                        # =>This Inner Loop Header: Depth=1
	cmpq	$0, (%r15)
	je	.LBB0_131
# %bb.133:                              # %then.1.i.i.i.i.i.i.i.i.i.i32.i.i.i.i
                                        #   in Loop: Header=BB0_132 Depth=1
	movq	-16(%r15), %rdi
	callq	rattle_dealloc@PLT
	jmp	.LBB0_131
.LBB0_134:                              # %"std_alloc::vec::Vec::clear::<#4feeb2b446188e7f>.exit.i37.i.i.i.i"
	movl	$38, %r14d
	testq	%rbx, %rbx
	je	.LBB0_137
.LBB0_135:                              # %then.1.i.i.i39.i.i.i.i
	movq	16(%rsp), %rdi                  # 8-byte Reload
.LBB0_136:                              # %arm.2.i.i.i.i
	callq	rattle_dealloc@PLT
.LBB0_137:                              # %arm.2.i.i.i.i
	pxor	%xmm0, %xmm0
	movdqa	%xmm0, 96(%rsp)
	movq	$0, 112(%rsp)
	movaps	.LCPI0_0(%rip), %xmm1           # xmm1 = [0,1,2,3,4,5,6,7,8,9,10,11,12,13,14,15]
	movaps	%xmm1, 544(%rsp)
	movdqa	.LCPI0_1(%rip), %xmm1           # xmm1 = [16,17,18,19,20,21,22,23,24,25,26,27,28,29,30,31]
	movdqa	%xmm1, 560(%rsp)
	movabsq	$2820983053732684064, %rax      # imm = 0x2726252423222120
	movq	%rax, 576(%rsp)
	movb	$40, 584(%rsp)
	cmpb	$21, 544(%rsp,%r14)
	je	.LBB0_139
.LBB0_138:                              # %arm.2.i1.i.i
	movl	$3, %edi
	callq	"text_programs::programs::stops::Stop::report::<#2daa2fb2be07fb73>"
	movl	%eax, %ebp
	jmp	.LBB0_326
.LBB0_139:                              # %then.9.i.i.i.i
	leaq	8(%rsp), %rbx
	movq	%rbx, 96(%rsp)
	movdqu	%xmm0, 104(%rsp)
	leaq	96(%rsp), %rdi
	movl	$1, %esi
	callq	"std_alloc::vec::Vec::grow_amortized::<#1b8c52373d8cd3cb>"
	movq	112(%rsp), %r12
	testb	%al, %al
	je	.LBB0_250
# %bb.140:                              # %"std_alloc::vec::Vec::grow::<#1b8c52373d8cd3cb>.exit.join.3_crit_edge.i.i.i15.i.i"
	movq	96(%rsp), %r15
	movq	104(%rsp), %rsi
	leaq	(%rsi,%rsi,2), %rax
	movq	%rbx, (%r15,%rax,8)
	incq	%rsi
	pxor	%xmm0, %xmm0
	movdqu	%xmm0, 8(%r15,%rax,8)
	testq	%rsi, %rsi
	jne	.LBB0_106
.LBB0_141:
	movq	%r15, 16(%rsp)                  # 8-byte Spill
	movq	%r12, 32(%rsp)                  # 8-byte Spill
	movb	$1, 15(%rsp)                    # 1-byte Folded Spill
	movq	$0, 48(%rsp)                    # 8-byte Folded Spill
	movq	%rsi, 40(%rsp)                  # 8-byte Spill
	movq	%rsi, 56(%rsp)                  # 8-byte Spill
.LBB0_142:                              # %arm.1.i8.i.i.i
	movq	$0, 64(%rsp)                    # 8-byte Folded Spill
.LBB0_143:                              # %arm.1.i8.i.i.i
	leaq	8(%rsp), %rax
	movq	%rax, 24(%rsp)                  # 8-byte Spill
	movq	%rax, 256(%rsp)
	pxor	%xmm0, %xmm0
	movdqu	%xmm0, 264(%rsp)
	leaq	544(%rsp), %rdi
	xorl	%r12d, %r12d
	movl	$65536, %edx                    # imm = 0x10000
	xorl	%esi, %esi
	callq	memset@PLT
	xorl	%ebx, %ebx
	xorl	%r15d, %r15d
	jmp	.LBB0_147
	.p2align	4
.LBB0_144:                              # %apart.2.i.i.i.i.i.i.i.i.i
                                        #   in Loop: Header=BB0_147 Depth=1
	leaq	544(%rsp), %rsi
	movq	%r13, %rdx
	callq	memmove@PLT
.LBB0_145:                              # %"text_programs::programs::pieces_program::add::<#e3b2a9d4d2861db8>.exit.thread.i.i.i.i.i"
                                        #   in Loop: Header=BB0_147 Depth=1
	addq	%r13, %r12
	movq	%r12, 264(%rsp)
	movq	%rbx, 272(%rsp)
.LBB0_146:                              # %join.9.i.i.i.i.i
                                        #   in Loop: Header=BB0_147 Depth=1
	incq	%r15
	cmpq	$-1, %r15
	je	.LBB0_174
.LBB0_147:                              # %join.5.i.i.i.i.i
                                        # =>This Loop Header: Depth=1
                                        #     Child Loop BB0_160 Depth 2
                                        #     Child Loop BB0_164 Depth 2
                                        #     Child Loop BB0_168 Depth 2
                                        #     Child Loop BB0_171 Depth 2
	leaq	544(%rsp), %rbp
	movl	$65536, %r13d                   # imm = 0x10000
	movl	$65536, %edx                    # imm = 0x10000
	xorl	%edi, %edi
	movq	%rbp, %rsi
	callq	read@PLT
	testq	%rax, %rax
	js	.LBB0_153
# %bb.148:                              # %arm.6.i.i.i.i.i
                                        #   in Loop: Header=BB0_147 Depth=1
	movq	%rax, %r14
	cmpq	$65536, %rax                    # imm = 0x10000
	cmovbq	%rax, %r13
	testq	%rax, %rax
	je	.LBB0_181
# %bb.149:                              # %default.11.i.i.i.i.i
                                        #   in Loop: Header=BB0_147 Depth=1
	movq	%rbx, %rax
	subq	%r12, %rax
	cmpq	%rax, %r13
	ja	.LBB0_172
.LBB0_150:                              # %join.3.i.i.i15.i.i.i.i
                                        #   in Loop: Header=BB0_147 Depth=1
	movq	24(%rsp), %rax                  # 8-byte Reload
	leaq	(%rax,%r12), %rdi
	movq	%rdi, %rax
	subq	%rbp, %rax
	cmpq	%r13, %rax
	jae	.LBB0_144
# %bb.151:                              # %iter.check
                                        #   in Loop: Header=BB0_147 Depth=1
	cmpq	$4, %r14
	jb	.LBB0_152
# %bb.155:                              # %vector.memcheck
                                        #   in Loop: Header=BB0_147 Depth=1
	movq	%r12, %rax
	subq	%rbp, %rax
	addq	24(%rsp), %rax                  # 8-byte Folded Reload
	cmpq	$32, %rax
	jae	.LBB0_157
.LBB0_152:                              #   in Loop: Header=BB0_147 Depth=1
	xorl	%eax, %eax
.LBB0_166:                              # %join.7.i.i.i.i.i.i.i.i.i.preheader
                                        #   in Loop: Header=BB0_147 Depth=1
	movq	%r13, %rdx
	movq	%rax, %rcx
	andq	$3, %rdx
	je	.LBB0_169
# %bb.167:                              # %join.7.i.i.i.i.i.i.i.i.i.prol.preheader
                                        #   in Loop: Header=BB0_147 Depth=1
	movq	%rax, %rcx
	.p2align	4
.LBB0_168:                              # %join.7.i.i.i.i.i.i.i.i.i.prol
                                        #   Parent Loop BB0_147 Depth=1
                                        # =>  This Inner Loop Header: Depth=2
	movzbl	544(%rsp,%rcx), %esi
	movb	%sil, (%rdi,%rcx)
	incq	%rcx
	decq	%rdx
	jne	.LBB0_168
.LBB0_169:                              # %join.7.i.i.i.i.i.i.i.i.i.prol.loopexit
                                        #   in Loop: Header=BB0_147 Depth=1
	subq	%r13, %rax
	cmpq	$-4, %rax
	ja	.LBB0_145
# %bb.170:                              # %join.7.i.i.i.i.i.i.i.i.i.preheader348
                                        #   in Loop: Header=BB0_147 Depth=1
	movq	24(%rsp), %rax                  # 8-byte Reload
	addq	%r12, %rax
	addq	$3, %rax
	.p2align	4
.LBB0_171:                              # %join.7.i.i.i.i.i.i.i.i.i
                                        #   Parent Loop BB0_147 Depth=1
                                        # =>  This Inner Loop Header: Depth=2
	movzbl	544(%rsp,%rcx), %edx
	movb	%dl, -3(%rax,%rcx)
	movzbl	545(%rsp,%rcx), %edx
	movb	%dl, -2(%rax,%rcx)
	movzbl	546(%rsp,%rcx), %edx
	movb	%dl, -1(%rax,%rcx)
	movzbl	547(%rsp,%rcx), %edx
	movb	%dl, (%rax,%rcx)
	addq	$4, %rcx
	cmpq	%rcx, %r13
	jne	.LBB0_171
	jmp	.LBB0_145
	.p2align	4
.LBB0_153:                              # %arm.7.i.i.i.i.i
                                        #   in Loop: Header=BB0_147 Depth=1
	leaq	96(%rsp), %rdi
	callq	"std_io::io::error::last_error"
	movq	96(%rsp), %rax
	shrq	$8, %rax
	movaps	.LCPI0_0(%rip), %xmm0           # xmm0 = [0,1,2,3,4,5,6,7,8,9,10,11,12,13,14,15]
	movaps	%xmm0, 96(%rsp)
	movdqa	.LCPI0_1(%rip), %xmm0           # xmm0 = [16,17,18,19,20,21,22,23,24,25,26,27,28,29,30,31]
	movdqa	%xmm0, 112(%rsp)
	movabsq	$2820983053732684064, %rcx      # imm = 0x2726252423222120
	movq	%rcx, 128(%rsp)
	movb	$40, 136(%rsp)
	cmpb	$41, %al
	jae	.LBB0_176
# %bb.154:                              # %"std_io::io::error::Error::kind.exit51.i.i.i.i.i"
                                        #   in Loop: Header=BB0_147 Depth=1
	andl	$63, %eax
	cmpb	$35, 96(%rsp,%rax)
	je	.LBB0_146
	jmp	.LBB0_176
.LBB0_157:                              # %vector.main.loop.iter.check
                                        #   in Loop: Header=BB0_147 Depth=1
	cmpq	$32, %r14
	jae	.LBB0_159
# %bb.158:                              #   in Loop: Header=BB0_147 Depth=1
	xorl	%eax, %eax
	jmp	.LBB0_163
.LBB0_159:                              # %vector.ph
                                        #   in Loop: Header=BB0_147 Depth=1
	movl	%r13d, %eax
	andl	$131040, %eax                   # imm = 0x1FFE0
	movq	24(%rsp), %rcx                  # 8-byte Reload
	addq	%r12, %rcx
	addq	$16, %rcx
	xorl	%edx, %edx
	.p2align	4
.LBB0_160:                              # %vector.body
                                        #   Parent Loop BB0_147 Depth=1
                                        # =>  This Inner Loop Header: Depth=2
	movdqu	544(%rsp,%rdx), %xmm0
	movdqu	560(%rsp,%rdx), %xmm1
	movdqu	%xmm0, -16(%rcx,%rdx)
	movdqu	%xmm1, (%rcx,%rdx)
	addq	$32, %rdx
	cmpq	%rdx, %rax
	jne	.LBB0_160
# %bb.161:                              # %middle.block
                                        #   in Loop: Header=BB0_147 Depth=1
	cmpq	%rax, %r13
	je	.LBB0_145
# %bb.162:                              # %vec.epilog.iter.check
                                        #   in Loop: Header=BB0_147 Depth=1
	testb	$28, %r13b
	je	.LBB0_166
.LBB0_163:                              # %vec.epilog.ph
                                        #   in Loop: Header=BB0_147 Depth=1
	movq	%rax, %rcx
	movl	%r13d, %eax
	andl	$131068, %eax                   # imm = 0x1FFFC
	.p2align	4
.LBB0_164:                              # %vec.epilog.vector.body
                                        #   Parent Loop BB0_147 Depth=1
                                        # =>  This Inner Loop Header: Depth=2
	movl	544(%rsp,%rcx), %edx
	movl	%edx, (%rdi,%rcx)
	addq	$4, %rcx
	cmpq	%rcx, %rax
	jne	.LBB0_164
# %bb.165:                              # %vec.epilog.middle.block
                                        #   in Loop: Header=BB0_147 Depth=1
	cmpq	%rax, %r13
	je	.LBB0_145
	jmp	.LBB0_166
.LBB0_172:                              # %"std_alloc::vec::Vec::grow::<#5fdc5e19576447a7>.exit.i.i.i.i.i.i.i"
                                        #   in Loop: Header=BB0_147 Depth=1
	leaq	256(%rsp), %rdi
	movq	%r13, %rsi
	callq	"std_alloc::vec::Vec::grow_amortized::<#5fdc5e19576447a7>"
	testb	%al, %al
	je	.LBB0_297
# %bb.173:                              # %"std_alloc::vec::Vec::grow::<#5fdc5e19576447a7>.exit.join.3_crit_edge.i.i.i.i.i.i.i"
                                        #   in Loop: Header=BB0_147 Depth=1
	movq	256(%rsp), %rax
	movq	%rax, 24(%rsp)                  # 8-byte Spill
	movq	264(%rsp), %r12
	movq	272(%rsp), %rbx
	jmp	.LBB0_150
.LBB0_174:                              # %after.1.i.i.i.i.i
	movb	$1, %bpl
	testq	%rbx, %rbx
	je	.LBB0_179
.LBB0_175:                              # %then.1.i.i.i3.i.i.i.i.i
	movq	256(%rsp), %rdi
	jmp	.LBB0_178
.LBB0_176:                              # %join.19.i.i.i.i.i
	movb	$1, %bpl
	testq	%rbx, %rbx
	je	.LBB0_179
# %bb.177:                              # %then.1.i.i.i55.i.i.i.i.i
	movq	24(%rsp), %rdi                  # 8-byte Reload
.LBB0_178:
	callq	rattle_dealloc@PLT
.LBB0_179:
	movq	32(%rsp), %r12                  # 8-byte Reload
	movq	16(%rsp), %r15                  # 8-byte Reload
	movq	64(%rsp), %rdi                  # 8-byte Reload
	cmpb	$0, 15(%rsp)                    # 1-byte Folded Reload
	jne	.LBB0_318
	jmp	.LBB0_317
.LBB0_181:                              # %arm.5.i.i.i.i
	movq	256(%rsp), %rsi
	pxor	%xmm0, %xmm0
	movdqa	%xmm0, 448(%rsp)
	movdqa	%xmm0, 464(%rsp)
	movdqa	%xmm0, 480(%rsp)
	movdqa	%xmm0, 496(%rsp)
	movdqa	%xmm0, 512(%rsp)
	movdqa	%xmm0, 528(%rsp)
	movdqa	%xmm0, 224(%rsp)
	movdqa	%xmm0, 240(%rsp)
	movdqa	%xmm0, 352(%rsp)
	movdqa	%xmm0, 368(%rsp)
	movdqa	%xmm0, 384(%rsp)
	movdqa	%xmm0, 400(%rsp)
	movdqa	%xmm0, 416(%rsp)
	movdqa	%xmm0, 432(%rsp)
	movq	48(%rsp), %rax                  # 8-byte Reload
	cmpb	$2, %al
	movq	64(%rsp), %rdi                  # 8-byte Reload
	movq	%rbx, 216(%rsp)                 # 8-byte Spill
	movq	%rsi, 24(%rsp)                  # 8-byte Spill
	je	.LBB0_185
# %bb.182:                              # %arm.5.i.i.i.i
	movzbl	%al, %eax
	cmpl	$1, %eax
	jne	.LBB0_248
# %bb.183:                              # %arm.2.i.i.i48.i.i
	leaq	224(%rsp), %rdi
	movq	%r12, %rdx
	callq	"text_programs::programs::pieces_program::merge_all::<#e3b2a9d4d2861db8>"
	cmpb	$0, 224(%rsp)
	je	.LBB0_260
.LBB0_184:                              # %"text_programs::programs::pieces_program::write_asked::<#1749da6181c3c90c>.exit.thread.i.i.i.i"
	movb	$3, %bpl
	movq	32(%rsp), %r12                  # 8-byte Reload
	movq	24(%rsp), %rdi                  # 8-byte Reload
	jmp	.LBB0_313
.LBB0_185:                              # %arm.3.i.i.i.i.i
	leaq	8(%rsp), %rbx
	movq	%rbx, 96(%rsp)
	movdqu	%xmm0, 104(%rsp)
	cmpq	$0, 56(%rsp)                    # 8-byte Folded Reload
	je	.LBB0_262
# %bb.186:                              # %join.6.lr.ph.i.i25.i.i.i.i
	leaq	8(%rsp), %r11
	xorl	%ebp, %ebp
	xorl	%r10d, %r10d
	xorl	%r9d, %r9d
	jmp	.LBB0_190
	.p2align	4
.LBB0_187:                              #   in Loop: Header=BB0_190 Depth=1
	xorl	%r8d, %r8d
	xorl	%r13d, %r13d
	xorl	%ebx, %ebx
	xorl	%r14d, %r14d
	xorl	%r15d, %r15d
	movq	%r12, %r9
.LBB0_188:                              # %"text_runs::runs::walks::ask::<#c916d0d022654a2a>.exit.i.i.i.i.i.i"
                                        #   in Loop: Header=BB0_190 Depth=1
	cmpq	%rbp, 112(%rsp)
	je	.LBB0_215
.LBB0_189:                              # %arm.8.i.i.i.i.i.i
                                        #   in Loop: Header=BB0_190 Depth=1
	movq	%rbp, %rax
	shlq	$5, %rax
	movq	%r8, (%r11,%rax)
	movq	%r13, 8(%r11,%rax)
	movb	%bl, 16(%r11,%rax)
	movl	%r14d, 17(%r11,%rax)
	movq	%r15, 24(%r11,%rax)
	incq	%rbp
	movq	%rbp, 104(%rsp)
	incq	%r10
	cmpq	%r10, 56(%rsp)                  # 8-byte Folded Reload
	je	.LBB0_257
.LBB0_190:                              # %join.6.i.i26.i.i.i.i
                                        # =>This Inner Loop Header: Depth=1
	cmpb	$0, (%rdi,%r10)
	je	.LBB0_200
# %bb.191:                              # %arm.2.i.i.i.i.i.i.i
                                        #   in Loop: Header=BB0_190 Depth=1
	movq	%r12, %rdx
	subq	%r9, %rdx
	je	.LBB0_187
# %bb.192:                              # %join.3.i.i.i29.i.i.i.i
                                        #   in Loop: Header=BB0_190 Depth=1
	pxor	%xmm0, %xmm0
	movdqa	%xmm0, 544(%rsp)
	movq	$0, 560(%rsp)
	cmpq	$4, %rdx
	jb	.LBB0_236
# %bb.193:                              # %join.3.i21.i.i.i.i.i.i
                                        #   in Loop: Header=BB0_190 Depth=1
	movl	-4(%rsi,%r12), %r14d
	movl	%r14d, %eax
	shrl	$24, %eax
	cmpl	$-1073741824, %r14d             # imm = 0xC0000000
	jge	.LBB0_203
# %bb.194:                              # %join.3.i181.i.i.i.i.i.i
                                        #   in Loop: Header=BB0_190 Depth=1
	movl	%r14d, %ecx
	shrl	$16, %ecx
	cmpb	$-64, %cl
	jge	.LBB0_206
# %bb.195:                              # %join.9.i.i.i.i.i.i.i
                                        #   in Loop: Header=BB0_190 Depth=1
	movq	%r9, %r13
	movl	%r14d, %r9d
	shrl	$8, %r9d
	cmpb	$-64, %r9b
	jge	.LBB0_219
# %bb.196:                              # %join.15.i.i.i.i.i.i.i
                                        #   in Loop: Header=BB0_190 Depth=1
	leal	11(%r14), %edx
	cmpb	$-5, %dl
	jb	.LBB0_224
# %bb.197:                              # %after.1.i239.i.i.i.i.i.i
                                        #   in Loop: Header=BB0_190 Depth=1
	movzbl	%r14b, %edx
	leaq	.Lstatic.7(%rip), %rdi
	movzbl	(%rdx,%rdi), %r8d
	leaq	.Lstatic.8(%rip), %rdx
	movzbl	(%r8,%rdx), %r8d
	andl	$191, %r9d
	movzbl	(%r9,%rdi), %r9d
	shll	$4, %r8d
	addq	%rdx, %r8
	movzbl	(%r9,%r8), %r8d
	cmpq	$16, %r8
	je	.LBB0_224
# %bb.198:                              # %join.13.i240.i.i.i.i.i.i
                                        #   in Loop: Header=BB0_190 Depth=1
	andl	$191, %ecx
	movzbl	(%rcx,%rdi), %ecx
	shll	$4, %r8d
	addq	%rdx, %r8
	movzbl	(%rcx,%r8), %ecx
	cmpq	$16, %rcx
	je	.LBB0_224
# %bb.199:                              # %join.16.i241.i.i.i.i.i.i
                                        #   in Loop: Header=BB0_190 Depth=1
	movzbl	(%rax,%rdi), %eax
	shll	$4, %ecx
	addq	%rcx, %rdx
	movl	$4, %r15d
	cmpb	$13, (%rax,%rdx)
	je	.LBB0_223
	jmp	.LBB0_224
.LBB0_200:                              # %arm.1.i.i.i.i.i.i.i
                                        #   in Loop: Header=BB0_190 Depth=1
	movq	%r12, %r13
	subq	%r9, %r13
	je	.LBB0_187
# %bb.201:                              # %join.3.i.i.i.i.i.i.i.i
                                        #   in Loop: Header=BB0_190 Depth=1
	movzbl	(%rsi,%r9), %ebx
	xorl	%ecx, %ecx
	movl	$1, %r8d
	movl	$1, %r15d
	movl	$0, %edx
	movl	$0, %eax
	testb	%bl, %bl
	js	.LBB0_208
.LBB0_202:                              # %arm.4.i.i.i.i.i.i.i.i
                                        #   in Loop: Header=BB0_190 Depth=1
	movzbl	%dl, %edx
	shll	$16, %edx
	orl	%ecx, %edx
	movzbl	%al, %r14d
	shll	$8, %r14d
	orl	%edx, %r14d
	orl	%ebx, %r14d
	movq	%r9, %r13
	addq	%r15, %r9
	xorl	%ebx, %ebx
	jmp	.LBB0_188
.LBB0_203:                              # %join.3.i.i42.i.i.i.i.i.i
                                        #   in Loop: Header=BB0_190 Depth=1
	movl	$1, %r15d
	testl	%r14d, %r14d
	js	.LBB0_217
.LBB0_204:                              # %"encode_unicode::decoding_iterators::back_scan::decode_end.exit.i.i.thread113.i.i.i.i"
                                        #   in Loop: Header=BB0_190 Depth=1
	movl	%eax, %r14d
.LBB0_205:                              # %arm.4.i.i.i.i.i47.i.i
                                        #   in Loop: Header=BB0_190 Depth=1
	subq	%r15, %r12
	movl	$1, %r8d
	xorl	%ebx, %ebx
	movq	%r12, %r13
	jmp	.LBB0_188
.LBB0_206:                              # %then.7.i.i.i.i.i.i.i
                                        #   in Loop: Header=BB0_190 Depth=1
	leal	32(%rcx), %r8d
	movb	$2, %dl
	cmpb	$-30, %r8b
	jb	.LBB0_231
# %bb.207:                              # %after.1.i.i.i.i.i.i.i
                                        #   in Loop: Header=BB0_190 Depth=1
	leaq	.Lstatic.7(%rip), %r8
	movzbl	(%rax,%r8), %eax
	leaq	.Lstatic.8(%rip), %r8
	movl	$2, %r15d
	cmpb	$13, 16(%rax,%r8)
	movl	%ecx, %eax
	je	.LBB0_204
	jmp	.LBB0_231
.LBB0_208:                              # %join.3.i22.i.i.i.i.i.i.i
                                        #   in Loop: Header=BB0_190 Depth=1
	leaq	.Lstatic.7(%rip), %r15
	movq	%rbx, 200(%rsp)                 # 8-byte Spill
	movzbl	(%rbx,%r15), %eax
	leaq	.Lstatic.8(%rip), %rbx
	movzbl	(%rax,%rbx), %r14d
	cmpq	$12, %r14
	ja	.LBB0_225
# %bb.209:                              # %then.4.i28.i.i.i.i.i.i.i
                                        #   in Loop: Header=BB0_190 Depth=1
	cmpq	$3, %r13
	jbe	.LBB0_244
.LBB0_210:                              # %join.3.i45.i.i.i.i.i.i.i
                                        #   in Loop: Header=BB0_190 Depth=1
	movzbl	1(%rsi,%r9), %eax
	movzbl	(%rax,%r15), %ecx
	shll	$4, %r14d
	addq	%rbx, %r14
	movzbl	(%rcx,%r14), %edi
	cmpq	$12, %rdi
	ja	.LBB0_233
# %bb.211:                              # %then.1.i75.i.i.i.i.i.i.i
                                        #   in Loop: Header=BB0_190 Depth=1
	movzbl	2(%rsi,%r9), %ecx
	movzbl	(%rcx,%r15), %ecx
	shll	$4, %edi
	addq	%rbx, %rdi
	movzbl	(%rcx,%rdi), %edi
	cmpq	$12, %rdi
	ja	.LBB0_233
# %bb.212:                              # %then.1.i109.i.i.i.i.i.i.i
                                        #   in Loop: Header=BB0_190 Depth=1
	movzbl	3(%rsi,%r9), %ecx
	movzbl	(%rcx,%r15), %ecx
	shll	$4, %edi
	addq	%rdi, %rbx
	movzbl	(%rcx,%rbx), %ecx
	cmpl	$13, %ecx
	je	.LBB0_238
# %bb.213:                              # %then.1.i109.i.i.i.i.i.i.i
                                        #   in Loop: Header=BB0_190 Depth=1
	movb	$3, %al
	cmpl	$16, %ecx
	je	.LBB0_235
# %bb.214:                              # %arm.2.i158.i.i.i.i.i.i.i
                                        #   in Loop: Header=BB0_190 Depth=1
	movzbl	%cl, %edi
	jmp	.LBB0_247
.LBB0_215:                              # %"std_alloc::vec::Vec::grow::<#1ada1fecd8908aad>.exit.i.i.i.i.i.i.i"
                                        #   in Loop: Header=BB0_190 Depth=1
	movq	%r8, 200(%rsp)                  # 8-byte Spill
	movq	%r9, 208(%rsp)                  # 8-byte Spill
	movq	%r10, 48(%rsp)                  # 8-byte Spill
	leaq	96(%rsp), %rdi
	callq	"std_alloc::vec::Vec::grow_amortized::<#1ada1fecd8908aad>"
	testb	%al, %al
	je	.LBB0_347
# %bb.216:                              # %"std_alloc::vec::Vec::grow::<#1ada1fecd8908aad>.exit.join.3_crit_edge.i.i.i.i.i.i.i"
                                        #   in Loop: Header=BB0_190 Depth=1
	movq	96(%rsp), %r11
	movq	104(%rsp), %rbp
	movq	64(%rsp), %rdi                  # 8-byte Reload
	movq	24(%rsp), %rsi                  # 8-byte Reload
	movq	48(%rsp), %r10                  # 8-byte Reload
	movq	208(%rsp), %r9                  # 8-byte Reload
	movq	200(%rsp), %r8                  # 8-byte Reload
	jmp	.LBB0_189
.LBB0_217:                              # %join.3.i15.i.i.i.i.i.i.i
                                        #   in Loop: Header=BB0_190 Depth=1
	leaq	.Lstatic.7(%rip), %rcx
	movzbl	(%rax,%rcx), %eax
	leaq	.Lstatic.8(%rip), %rcx
	movzbl	(%rax,%rcx), %eax
	cmpl	$13, %eax
	jae	.LBB0_228
# %bb.218:                              #   in Loop: Header=BB0_190 Depth=1
	xorl	%edx, %edx
	jmp	.LBB0_231
.LBB0_219:                              # %then.13.i.i.i.i.i.i.i
                                        #   in Loop: Header=BB0_190 Depth=1
	movl	%r9d, %edx
	andb	$-16, %dl
	cmpb	$-32, %dl
	jne	.LBB0_224
# %bb.220:                              # %after.1.i209.i.i.i.i.i.i
                                        #   in Loop: Header=BB0_190 Depth=1
	movzbl	%r9b, %r14d
	leaq	.Lstatic.7(%rip), %r9
	movzbl	(%r14,%r9), %edi
	leaq	.Lstatic.8(%rip), %rdx
	movzbl	(%rdi,%rdx), %edi
	movl	%ecx, %r8d
	andl	$191, %r8d
	movzbl	(%r8,%r9), %r8d
	shll	$4, %edi
	addq	%rdx, %rdi
	movzbl	(%r8,%rdi), %edi
	cmpq	$16, %rdi
	je	.LBB0_224
# %bb.221:                              # %join.13.i211.i.i.i.i.i.i
                                        #   in Loop: Header=BB0_190 Depth=1
	movzbl	(%rax,%r9), %eax
	shll	$4, %edi
	addq	%rdi, %rdx
	cmpb	$13, (%rax,%rdx)
	jne	.LBB0_224
# %bb.222:                              # %join.16.i.i.i.i.i.i.i
                                        #   in Loop: Header=BB0_190 Depth=1
	shll	$8, %ecx
	orl	%ecx, %r14d
	movl	$3, %r15d
.LBB0_223:                              # %"encode_unicode::decoding_iterators::back_scan::decode_end.exit.i.thread16.i.i.i.i.i"
                                        #   in Loop: Header=BB0_190 Depth=1
	movq	64(%rsp), %rdi                  # 8-byte Reload
	jmp	.LBB0_243
.LBB0_224:                              # %"encode_unicode::decoding_iterators::back_scan::decode_end.exit.i.thread.i.i.i.i.i"
                                        #   in Loop: Header=BB0_190 Depth=1
	movb	$1, %bl
	movb	$2, %dl
	movq	64(%rsp), %rdi                  # 8-byte Reload
	movq	%r13, %r9
	jmp	.LBB0_232
.LBB0_225:                              # %join.6.i24.i.i.i.i.i.i.i
                                        #   in Loop: Header=BB0_190 Depth=1
	movb	$2, %al
	cmpq	$14, %r14
	je	.LBB0_235
# %bb.226:                              # %join.6.i24.i.i.i.i.i.i.i
                                        #   in Loop: Header=BB0_190 Depth=1
	cmpl	$13, %r14d
	je	.LBB0_380
# %bb.227:                              # %arm.2.i177.i.i.i.i.i.i.i
                                        #   in Loop: Header=BB0_190 Depth=1
	movb	$1, %al
	jmp	.LBB0_235
.LBB0_228:                              # %join.6.i17.i.i.i.i.i.i.i
                                        #   in Loop: Header=BB0_190 Depth=1
	movb	$2, %dl
	cmpl	$14, %eax
	je	.LBB0_231
# %bb.229:                              # %join.6.i17.i.i.i.i.i.i.i
                                        #   in Loop: Header=BB0_190 Depth=1
	cmpl	$13, %eax
	je	.LBB0_380
# %bb.230:                              # %arm.2.i161.i115.i.i.i.i.i.i
                                        #   in Loop: Header=BB0_190 Depth=1
	movb	$1, %dl
.LBB0_231:                              # %"encode_unicode::decoding_iterators::back_scan::decode_end.exit.i.i.thread.i.i.i.i"
                                        #   in Loop: Header=BB0_190 Depth=1
	movb	$1, %bl
.LBB0_232:                              # %arm.5.i.i.i.i.i.i.i
                                        #   in Loop: Header=BB0_190 Depth=1
	decq	%r12
	movzbl	%dl, %r14d
	movl	$1, %r8d
	movq	%r12, %r13
	movl	$1, %r15d
	jmp	.LBB0_188
.LBB0_233:                              # %join.3.i92.i.i.i.i.i.i.i
                                        #   in Loop: Header=BB0_190 Depth=1
	cmpq	$13, %rdi
	je	.LBB0_238
# %bb.234:                              # %join.3.i92.i.i.i.i.i.i.i
                                        #   in Loop: Header=BB0_190 Depth=1
	movb	$3, %al
	cmpl	$16, %edi
	jne	.LBB0_246
.LBB0_235:                              # %arm.8.i.i.i.i.i.i.i.i
                                        #   in Loop: Header=BB0_190 Depth=1
	movzbl	%al, %r14d
	movq	%r9, %r13
	incq	%r9
	movb	$1, %bl
	movl	$1, %r8d
	movl	$1, %r15d
	movq	64(%rsp), %rdi                  # 8-byte Reload
	jmp	.LBB0_188
.LBB0_236:                              # %"encode_unicode::decoding_iterators::back_scan::decode_end.exit.i.i.i.i.i.i"
                                        #   in Loop: Header=BB0_190 Depth=1
	movq	%r11, 88(%rsp)                  # 8-byte Spill
	movq	%r10, 48(%rsp)                  # 8-byte Spill
	movq	%r9, %r13
	addq	%r9, %rsi
	leaq	544(%rsp), %rdi
	callq	"encode_unicode::decoding_iterators::back_scan::decode_few"
	movzbl	544(%rsp), %ebx
	testb	%bl, %bl
	je	.LBB0_242
# %bb.237:                              #   in Loop: Header=BB0_190 Depth=1
	movzbl	545(%rsp), %edx
	movq	64(%rsp), %rdi                  # 8-byte Reload
	movq	24(%rsp), %rsi                  # 8-byte Reload
	movq	48(%rsp), %r10                  # 8-byte Reload
	movq	88(%rsp), %r11                  # 8-byte Reload
	movq	%r13, %r9
	jmp	.LBB0_232
.LBB0_238:                              # %join.4.i183.i.i.i.i.i.i.i
                                        #   in Loop: Header=BB0_190 Depth=1
	xorl	%ecx, %ecx
	movq	200(%rsp), %rbx                 # 8-byte Reload
	cmpb	$-32, %bl
	movq	64(%rsp), %rdi                  # 8-byte Reload
	jae	.LBB0_240
# %bb.239:                              #   in Loop: Header=BB0_190 Depth=1
	movl	$2, %r15d
	xorl	%edx, %edx
	jmp	.LBB0_202
.LBB0_240:                              # %arm.1.i.i.i.i.i.i.i.i
                                        #   in Loop: Header=BB0_190 Depth=1
	movzbl	2(%rsi,%r9), %edx
	movl	$3, %r15d
	cmpb	$-16, %bl
	jb	.LBB0_202
# %bb.241:                              # %default.4.i.i.i.i.i.i.i.i
                                        #   in Loop: Header=BB0_190 Depth=1
	movzbl	3(%rsi,%r9), %ecx
	shll	$24, %ecx
	movl	$4, %r15d
	jmp	.LBB0_202
.LBB0_242:                              #   in Loop: Header=BB0_190 Depth=1
	movl	552(%rsp), %r14d
	movq	560(%rsp), %r15
	movq	64(%rsp), %rdi                  # 8-byte Reload
	movq	24(%rsp), %rsi                  # 8-byte Reload
	movq	48(%rsp), %r10                  # 8-byte Reload
	movq	88(%rsp), %r11                  # 8-byte Reload
.LBB0_243:                              # %arm.4.i.i.i.i.i47.i.i
                                        #   in Loop: Header=BB0_190 Depth=1
	movq	%r13, %r9
	jmp	.LBB0_205
.LBB0_244:                              # %"utf_chars::codes::utf8::are_too_few.exit.i.i.i.i.i.i.i"
                                        #   in Loop: Header=BB0_190 Depth=1
	movl	%r14d, %edi
	movq	%r10, 48(%rsp)                  # 8-byte Spill
	movq	%r11, 88(%rsp)                  # 8-byte Spill
	movq	%r9, 208(%rsp)                  # 8-byte Spill
	callq	"utf_chars::codes::utf8::missing_after"
	movl	$1, %r8d
	movq	208(%rsp), %r9                  # 8-byte Reload
	movq	88(%rsp), %r11                  # 8-byte Reload
	movq	48(%rsp), %r10                  # 8-byte Reload
	movq	24(%rsp), %rsi                  # 8-byte Reload
	cmpq	%rax, %r13
	ja	.LBB0_210
# %bb.245:                              #   in Loop: Header=BB0_190 Depth=1
	xorl	%eax, %eax
	jmp	.LBB0_235
.LBB0_246:                              # %arm.2.i161.i.i.i.i.i.i.i
                                        #   in Loop: Header=BB0_190 Depth=1
                                        # kill: def $edi killed $edi killed $rdi
.LBB0_247:                              # %arm.8.i.i.i.i.i.i.i.i
                                        #   in Loop: Header=BB0_190 Depth=1
	movq	%r10, %rbx
	movq	%r11, %r14
	movq	%r9, %r15
	callq	"utf_base::table::walks::error_of_value"
	movq	%r15, %r9
	movq	%r14, %r11
	movq	%rbx, %r10
	movq	24(%rsp), %rsi                  # 8-byte Reload
                                        # kill: def $al killed $al def $eax
	jmp	.LBB0_235
.LBB0_248:                              # %arm.1.i49.i.i.i.i
	leaq	448(%rsp), %rdi
	movq	%r12, %rdx
	callq	"text_programs::programs::listing::write_listing::<#cdc8ff12022c16a2>"
	movzbl	448(%rsp), %ebx
	testb	%bl, %bl
	setne	%bpl
	jne	.LBB0_258
# %bb.249:                              # %arm.1.i49.i.i.i.i
	movq	456(%rsp), %r15
	jmp	.LBB0_259
.LBB0_250:                              # %"std_alloc::vec::Vec::drop::<#81677c32190a458e>.exit8.i.i.i.i"
	movq	96(%rsp), %rbx
	movq	104(%rsp), %r14
	testq	%r14, %r14
	je	.LBB0_255
# %bb.251:                              # %join.5.i.i.i.i.i.i.i4.i.i.preheader
	leaq	16(%rbx), %r15
	jmp	.LBB0_253
	.p2align	4
.LBB0_252:                              # %"core::mem::drop::<#7f8a914b9c4d666d>.exit.i.i.i.i.i.i.i.i.i"
                                        #   in Loop: Header=BB0_253 Depth=1
	addq	$24, %r15
	decq	%r14
	je	.LBB0_255
.LBB0_253:                              # %join.5.i.i.i.i.i.i.i4.i.i
                                        # =>This Inner Loop Header: Depth=1
	cmpq	$0, (%r15)
	je	.LBB0_252
# %bb.254:                              # %then.1.i.i.i.i.i.i.i.i.i.i.i.i11.i.i
                                        #   in Loop: Header=BB0_253 Depth=1
	movq	-16(%r15), %rdi
	callq	rattle_dealloc@PLT
	jmp	.LBB0_252
.LBB0_255:                              # %"std_alloc::vec::Vec::clear::<#1ca9c52778c14e4e>.exit.i.i.i.i.i"
	testq	%r12, %r12
	je	.LBB0_138
# %bb.256:                              # %then.1.i.i.i14.i.i.i.i
	movq	%rbx, %rdi
	callq	rattle_dealloc@PLT
	jmp	.LBB0_138
.LBB0_257:                              # %arm.9.loopexit.i.i.i.i.i
	movq	96(%rsp), %rbx
	cmpq	$0, 112(%rsp)
	sete	56(%rsp)                        # 1-byte Folded Spill
	jmp	.LBB0_263
.LBB0_258:
	xorl	%r15d, %r15d
.LBB0_259:                              # %arm.1.i49.i.i.i.i
	movq	32(%rsp), %r12                  # 8-byte Reload
	movq	40(%rsp), %rax                  # 8-byte Reload
	addb	%bpl, %bpl
	jmp	.LBB0_312
.LBB0_260:                              # %arm.6.i47.i.i.i.i
	movq	232(%rsp), %r14
	movq	240(%rsp), %rdx
	movq	248(%rsp), %r12
	leaq	352(%rsp), %rdi
	movq	%r14, %rsi
	callq	"text_programs::programs::listing::write_merged::<#cdc8ff12022c16a2>"
	movzbl	352(%rsp), %ebx
	testb	%bl, %bl
	setne	%bpl
	jne	.LBB0_294
# %bb.261:                              # %arm.6.i47.i.i.i.i
	movq	360(%rsp), %r15
	jmp	.LBB0_295
.LBB0_262:
	movb	$1, 56(%rsp)                    # 1-byte Folded Spill
	xorl	%ebp, %ebp
.LBB0_263:                              # %arm.9.i.i.i.i.i
	pxor	%xmm0, %xmm0
	movdqa	%xmm0, 96(%rsp)
	movdqa	%xmm0, 112(%rsp)
	movdqa	%xmm0, 128(%rsp)
	movdqa	%xmm0, 144(%rsp)
	movdqa	%xmm0, 160(%rsp)
	movdqa	%xmm0, 176(%rsp)
	movdqa	%xmm0, 256(%rsp)
	movdqa	%xmm0, 272(%rsp)
	movdqa	%xmm0, 288(%rsp)
	movdqa	%xmm0, 304(%rsp)
	movdqa	%xmm0, 320(%rsp)
	movdqa	%xmm0, 336(%rsp)
	leaq	544(%rsp), %rdi
	xorl	%r15d, %r15d
	movl	$65544, %edx                    # imm = 0x10008
	xorl	%esi, %esi
	callq	memset@PLT
	testq	%rbp, %rbp
	movq	%rbx, 48(%rsp)                  # 8-byte Spill
	je	.LBB0_289
# %bb.264:                              # %join.6.i.i.i.i.i.i.i.preheader
	leaq	24(%rbx), %r12
	xorl	%r15d, %r15d
	xorl	%ebx, %ebx
	jmp	.LBB0_268
	.p2align	4
.LBB0_265:                              # %apart.2.i.i.i.i.i.i.i.i.i.i.i.i.i.i
                                        #   in Loop: Header=BB0_268 Depth=1
	movb	$10, 4(%rax)
	movl	$1701736302, (%rax)             # imm = 0x656E6F6E
.LBB0_266:                              # %"text_programs::programs::entries::OptionItemEntry::push_to.exit.i.i.i.i.i.i.i"
                                        #   in Loop: Header=BB0_268 Depth=1
	xorl	%r13d, %r13d
.LBB0_267:                              # %"text_programs::programs::entries::OptionItemEntry::push_to.exit.i.i.i.i.i.i.i"
                                        #   in Loop: Header=BB0_268 Depth=1
	addq	%r13, %r15
	movq	%rbx, 66080(%rsp)
	addq	$32, %r12
	decq	%rbp
	je	.LBB0_289
.LBB0_268:                              # %join.6.i.i.i.i.i.i.i
                                        # =>This Inner Loop Header: Depth=1
	cmpq	$65457, %rbx                    # imm = 0xFFB1
	jae	.LBB0_283
.LBB0_269:                              # %join.10.i.i.i.i.i35.i.i
                                        #   in Loop: Header=BB0_268 Depth=1
	cmpb	$1, -24(%r12)
	jne	.LBB0_272
# %bb.270:                              # %arm.1.i.i.i32.i.i.i.i.i
                                        #   in Loop: Header=BB0_268 Depth=1
	movq	-16(%r12), %rsi
	movzbl	-8(%r12), %r13d
	movl	-7(%r12), %ebx
	movq	(%r12), %r14
	cmpq	$9, %rsi
	ja	.LBB0_274
# %bb.271:                              # %then.1.i.i.i.i.i.i.i.i45.i.i
                                        #   in Loop: Header=BB0_268 Depth=1
	orb	$48, %sil
	movq	66080(%rsp), %rax
	movb	%sil, 544(%rsp,%rax)
	incq	%rax
	jmp	.LBB0_275
	.p2align	4
.LBB0_272:                              # %arm.2.i15.i.i.i.i.i.i.i
                                        #   in Loop: Header=BB0_268 Depth=1
	movq	66080(%rsp), %rbx
	leaq	(%rsp,%rbx), %rax
	addq	$544, %rax                      # imm = 0x220
	addq	$5, %rbx
	leaq	.Lstatic.18(%rip), %rcx
	movq	%rax, %rdx
	subq	%rcx, %rdx
	cmpq	$4, %rdx
	ja	.LBB0_265
# %bb.273:                              # %join.7.i.i.i.i.i.i.preheader.i.i.i.i.i.i.i.i
                                        #   in Loop: Header=BB0_268 Depth=1
	movl	$1701736302, (%rax)             # imm = 0x656E6F6E
	movb	$10, 4(%rax)
	jmp	.LBB0_266
	.p2align	4
.LBB0_274:                              # %else.2.i.i.i.i.i.i.i.i.i.i
                                        #   in Loop: Header=BB0_268 Depth=1
	leaq	544(%rsp), %rdi
	callq	"text_programs::programs::lines::Lines::push_digits"
	movq	66080(%rsp), %rax
.LBB0_275:                              # %"text_programs::programs::lines::Lines::push_decimal.exit.i.i.i.i.i.i.i.i.i"
                                        #   in Loop: Header=BB0_268 Depth=1
	movb	$32, 544(%rsp,%rax)
	leaq	1(%rax), %rcx
	movq	%rcx, 66080(%rsp)
	cmpq	$9, %r14
	ja	.LBB0_278
# %bb.276:                              # %then.1.i.i.i.i.i.i.i.i.i43.i.i
                                        #   in Loop: Header=BB0_268 Depth=1
	orb	$48, %r14b
	movb	%r14b, 545(%rsp,%rax)
	addq	$2, %rax
	movb	$32, 544(%rsp,%rax)
	testq	%r13, %r13
	je	.LBB0_279
.LBB0_277:                              # %switch.lookup
                                        #   in Loop: Header=BB0_268 Depth=1
	incq	%rax
	leaq	".Lswitch.table.text_programs::programs::listing::write_merged::<#cdc8ff12022c16a2>"(%rip), %rcx
	movzbl	%bl, %esi
	shll	$3, %esi
	movq	(%rsi,%rcx), %rdx
	leaq	".Lswitch.table.text_programs::programs::listing::write_merged::<#cdc8ff12022c16a2>.144"(%rip), %rcx
	movq	(%rsi,%rcx), %rsi
	leaq	(%rdx,%rax), %rbx
	leaq	(%rsp,%rax), %rdi
	addq	$544, %rdi                      # imm = 0x220
	callq	memcpy@PLT
	jmp	.LBB0_288
	.p2align	4
.LBB0_278:                              # %else.2.i.i.i.i.i.i.i.i.i.i.i
                                        #   in Loop: Header=BB0_268 Depth=1
	leaq	544(%rsp), %rdi
	movq	%r14, %rsi
	callq	"text_programs::programs::lines::Lines::push_digits"
	movq	66080(%rsp), %rax
	movb	$32, 544(%rsp,%rax)
	testq	%r13, %r13
	jne	.LBB0_277
.LBB0_279:                              # %arm.1.i.i.i.i.i.i.i.i.i.i
                                        #   in Loop: Header=BB0_268 Depth=1
	testb	%bl, %bl
	js	.LBB0_281
# %bb.280:                              # %then.2.i.i.i.i.i.i.i.i.i.i
                                        #   in Loop: Header=BB0_268 Depth=1
	andl	$127, %ebx
	jmp	.LBB0_287
.LBB0_281:                              # %join.4.i.i.i.i.i.i.i.i.i.i
                                        #   in Loop: Header=BB0_268 Depth=1
	movl	%ebx, %ecx
	shrl	$8, %ecx
	cmpb	$-33, %bl
	ja	.LBB0_284
# %bb.282:                              # %then.5.i.i.i.i.i.i.i.i.i.i
                                        #   in Loop: Header=BB0_268 Depth=1
	andl	$31, %ebx
	shll	$6, %ebx
	andl	$63, %ecx
	orl	%ebx, %ecx
	movl	%ecx, %ebx
	jmp	.LBB0_287
.LBB0_283:                              # %then.8.i.i.i.i.i31.i.i
                                        #   in Loop: Header=BB0_268 Depth=1
	leaq	96(%rsp), %rdi
	leaq	544(%rsp), %rsi
	callq	"text_programs::programs::lines::Lines::write_to::<#cdc8ff12022c16a2>"
	cmpb	$0, 96(%rsp)
	je	.LBB0_269
	jmp	.LBB0_290
.LBB0_284:                              # %join.7.i.i.i.i.i.i.i.i.i.i
                                        #   in Loop: Header=BB0_268 Depth=1
	movl	%ebx, %esi
	shrl	$16, %esi
	movl	%ebx, %edx
	shll	$12, %edx
	andl	$63, %ecx
	shll	$6, %ecx
	andl	$63, %esi
	cmpb	$-17, %bl
	ja	.LBB0_286
# %bb.285:                              # %then.8.i.i.i.i.i.i.i.i.i.i
                                        #   in Loop: Header=BB0_268 Depth=1
	andl	$61440, %edx                    # imm = 0xF000
	orl	%esi, %edx
	orl	%ecx, %edx
	movl	%edx, %ebx
	jmp	.LBB0_287
.LBB0_286:                              # %join.10.i.i.i.i.i.i.i.i.i.i
                                        #   in Loop: Header=BB0_268 Depth=1
	shrl	$24, %ebx
	andl	$28672, %edx                    # imm = 0x7000
	orl	%esi, %edx
	orl	%ecx, %edx
	shll	$6, %edx
	andl	$63, %ebx
	orl	%edx, %ebx
.LBB0_287:                              # %"utf_chars::utf8_char::Utf8Char::scalar.exit.i.i.i.i.i.i.i.i.i"
                                        #   in Loop: Header=BB0_268 Depth=1
	movl	%ebx, %ecx
	shrl	$16, %ecx
	leaq	.Lstatic.9(%rip), %rdx
	movzwl	(%rdx,%rcx,2), %ecx
	movzbl	%bh, %esi
	movzwl	(%rdx,%rsi,2), %esi
	movzbl	%bl, %edi
	movzwl	(%rdx,%rdi,2), %edx
	leaq	7(%rax), %rbx
	movw	%cx, 545(%rsp,%rax)
	movw	%si, 547(%rsp,%rax)
	movw	%dx, 549(%rsp,%rax)
.LBB0_288:                              # %"text_programs::programs::entries::ItemEntry::push_to.exit.i.i.i.i.i.i.i.i"
                                        #   in Loop: Header=BB0_268 Depth=1
	movb	$10, 544(%rsp,%rbx)
	incq	%rbx
	andl	$1, %r13d
	jmp	.LBB0_267
.LBB0_289:                              # %after.1.i.i31.i.i.i.i.i
	leaq	256(%rsp), %rdi
	leaq	544(%rsp), %rsi
	callq	"text_programs::programs::lines::Lines::write_to::<#cdc8ff12022c16a2>"
	cmpb	$0, 256(%rsp)
	je	.LBB0_291
.LBB0_290:                              # %arm.12.i.i.i.i.i.i.i
	movb	$1, %bl
	movb	$2, %bpl
	xorl	%r15d, %r15d
	jmp	.LBB0_292
.LBB0_291:
	xorl	%ebp, %ebp
	xorl	%ebx, %ebx
.LBB0_292:
	cmpb	$0, 56(%rsp)                    # 1-byte Folded Reload
	movq	32(%rsp), %r12                  # 8-byte Reload
	jne	.LBB0_311
# %bb.293:                              # %then.1.i.i.i43.i.i.i.i.i
	movq	48(%rsp), %rdi                  # 8-byte Reload
	callq	rattle_dealloc@PLT
	jmp	.LBB0_311
.LBB0_294:
	xorl	%r15d, %r15d
.LBB0_295:                              # %arm.6.i47.i.i.i.i
	addb	%bpl, %bpl
	testq	%r12, %r12
	je	.LBB0_310
# %bb.296:                              # %then.1.i.i.i.i.i.i49.i.i
	movq	%r14, %rdi
	callq	rattle_dealloc@PLT
.LBB0_310:
	movq	32(%rsp), %r12                  # 8-byte Reload
.LBB0_311:
	movq	40(%rsp), %rax                  # 8-byte Reload
.LBB0_312:                              # %"text_programs::programs::pieces_program::write_asked::<#1749da6181c3c90c>.exit.i.i.i.i"
	movq	24(%rsp), %rdi                  # 8-byte Reload
	testb	%bl, %bl
	movq	216(%rsp), %rbx                 # 8-byte Reload
	je	.LBB0_327
.LBB0_313:                              # %arm.12.i.i.i.i
	testq	%rbx, %rbx
	je	.LBB0_315
# %bb.314:                              # %then.1.i.i.i64.i.i.i.i
	callq	rattle_dealloc@PLT
.LBB0_315:                              # %"std_alloc::vec::Vec::drop::<#81677c32190a458e>.exit.i.i.i.i"
	cmpb	$0, 15(%rsp)                    # 1-byte Folded Reload
	movq	16(%rsp), %r15                  # 8-byte Reload
	jne	.LBB0_318
# %bb.316:                              # %then.1.i.i.i69.i.i.i.i
	movq	64(%rsp), %rdi                  # 8-byte Reload
.LBB0_317:                              # %arm.6.i24.i.i
	callq	rattle_dealloc@PLT
.LBB0_318:                              # %arm.6.i24.i.i
	movzbl	%bpl, %edi
	callq	"text_programs::programs::stops::Stop::report::<#2daa2fb2be07fb73>"
	movl	%eax, %ebp
	movq	40(%rsp), %rcx                  # 8-byte Reload
	testq	%rcx, %rcx
	je	.LBB0_323
.LBB0_319:                              # %join.5.i.i.i.i.i50.preheader.i.i.i
	leaq	16(%r15), %rbx
	jmp	.LBB0_321
	.p2align	4
.LBB0_320:                              # %"core::mem::drop::<#7f8a914b9c4d666d>.exit.i.i.i.i.i59.i.i.i"
                                        #   in Loop: Header=BB0_321 Depth=1
	addq	$24, %rbx
	decq	%rcx
	je	.LBB0_323
.LBB0_321:                              # %join.5.i.i.i.i.i50.i.i.i
                                        # =>This Inner Loop Header: Depth=1
	cmpq	$0, (%rbx)
	je	.LBB0_320
# %bb.322:                              # %then.1.i.i.i.i.i.i.i.i.i.i57.i.i.i
                                        #   in Loop: Header=BB0_321 Depth=1
	movq	-16(%rbx), %rdi
	movq	%rcx, %r14
	callq	rattle_dealloc@PLT
	movq	%r14, %rcx
	jmp	.LBB0_320
.LBB0_323:                              # %"std_alloc::vec::Vec::clear::<#1ca9c52778c14e4e>.exit.i62.i.i.i"
	testq	%r12, %r12
	je	.LBB0_326
# %bb.324:                              # %then.1.i.i.i64.i.i.i
	movq	%r15, %rdi
.LBB0_325:                              # %"pieces::main+run.exit"
	callq	rattle_dealloc@PLT
.LBB0_326:                              # %"pieces::main+run.exit"
	movzbl	%bpl, %eax
	addq	$66088, %rsp                    # imm = 0x10228
	.cfi_def_cfa_offset 56
	popq	%rbx
	.cfi_def_cfa_offset 48
	popq	%r12
	.cfi_def_cfa_offset 40
	popq	%r13
	.cfi_def_cfa_offset 32
	popq	%r14
	.cfi_def_cfa_offset 24
	popq	%r15
	.cfi_def_cfa_offset 16
	popq	%rbp
	.cfi_def_cfa_offset 8
	retq
.LBB0_327:                              # %arm.17.i.i32.i.i
	.cfi_def_cfa_offset 66144
	testq	%rbx, %rbx
	je	.LBB0_329
# %bb.328:                              # %then.1.i.i.i75.i.i.i.i
	callq	rattle_dealloc@PLT
	movq	40(%rsp), %rax                  # 8-byte Reload
.LBB0_329:                              # %"std_alloc::vec::Vec::drop::<#81677c32190a458e>.exit77.i.i.i.i"
	cmpb	$0, 15(%rsp)                    # 1-byte Folded Reload
	jne	.LBB0_331
# %bb.330:                              # %then.1.i.i.i81.i.i.i.i
	movq	64(%rsp), %rdi                  # 8-byte Reload
	callq	rattle_dealloc@PLT
	movq	40(%rsp), %rax                  # 8-byte Reload
.LBB0_331:                              # %arm.5.i33.i.i
	testq	%r15, %r15
	je	.LBB0_339
# %bb.332:                              # %default.9.i.i.i
	testq	%rax, %rax
	movq	16(%rsp), %r14                  # 8-byte Reload
	je	.LBB0_337
# %bb.333:                              # %join.5.i.i.i.i.i28.i.i.i.preheader
	leaq	16(%r14), %rbx
	jmp	.LBB0_335
	.p2align	4
.LBB0_334:                              # %"core::mem::drop::<#7f8a914b9c4d666d>.exit.i.i.i.i.i37.i.i.i"
                                        #   in Loop: Header=BB0_335 Depth=1
	addq	$24, %rbx
	decq	%rax
	je	.LBB0_337
.LBB0_335:                              # %join.5.i.i.i.i.i28.i.i.i
                                        # =>This Inner Loop Header: Depth=1
	cmpq	$0, (%rbx)
	je	.LBB0_334
# %bb.336:                              # %then.1.i.i.i.i.i.i.i.i.i.i35.i.i.i
                                        #   in Loop: Header=BB0_335 Depth=1
	movq	-16(%rbx), %rdi
	movq	%rax, %r15
	callq	rattle_dealloc@PLT
	movq	%r15, %rax
	jmp	.LBB0_334
.LBB0_337:                              # %"std_alloc::vec::Vec::clear::<#1ca9c52778c14e4e>.exit.i40.i.i.i"
	movb	$1, %bpl
	testq	%r12, %r12
	je	.LBB0_326
# %bb.338:                              # %then.1.i.i.i42.i.i.i
	movq	%r14, %rdi
	jmp	.LBB0_325
.LBB0_339:                              # %arm.8.i.i.i
	testq	%rax, %rax
	movq	16(%rsp), %r14                  # 8-byte Reload
	je	.LBB0_344
# %bb.340:                              # %join.5.i.i.i.i.i.i34.i.i.preheader
	leaq	16(%r14), %rbx
	jmp	.LBB0_342
.LBB0_341:                              # %"core::mem::drop::<#7f8a914b9c4d666d>.exit.i.i.i.i.i.i.i.i"
                                        #   in Loop: Header=BB0_342 Depth=1
	addq	$24, %rbx
	decq	%rax
	je	.LBB0_344
.LBB0_342:                              # %join.5.i.i.i.i.i.i34.i.i
                                        # =>This Inner Loop Header: Depth=1
	cmpq	$0, (%rbx)
	je	.LBB0_341
# %bb.343:                              # %then.1.i.i.i.i.i.i.i.i.i.i.i.i.i
                                        #   in Loop: Header=BB0_342 Depth=1
	movq	-16(%rbx), %rdi
	movq	%rax, %r15
	callq	rattle_dealloc@PLT
	movq	%r15, %rax
	jmp	.LBB0_341
.LBB0_344:                              # %"std_alloc::vec::Vec::clear::<#1ca9c52778c14e4e>.exit.i.i.i.i"
	testq	%r12, %r12
	je	.LBB0_346
# %bb.345:                              # %then.1.i.i.i21.i.i.i
	movq	%r14, %rdi
	callq	rattle_dealloc@PLT
.LBB0_346:
	xorl	%ebp, %ebp
	jmp	.LBB0_326
.LBB0_297:                              # %arm.14.i.i.i.i.i
	movb	$3, %bpl
	cmpq	$0, 272(%rsp)
	jne	.LBB0_175
	jmp	.LBB0_179
.LBB0_298:                              # %join.6.lr.ph.i.i.i.i.i.i
	movq	%r15, 16(%rsp)                  # 8-byte Spill
	leaq	8(%rsp), %rax
	movq	%rax, 544(%rsp)
	pxor	%xmm0, %xmm0
	movdqu	%xmm0, 552(%rsp)
	xorl	%edx, %edx
	xorl	%r15d, %r15d
	jmp	.LBB0_302
.LBB0_299:                              # %else.9.split.i.i.i.i.i.i
                                        #   in Loop: Header=BB0_302 Depth=1
	cmpq	%rdx, %rcx
	je	.LBB0_305
.LBB0_300:                              # %join.3.i8.i.i.i.i.i.i
                                        #   in Loop: Header=BB0_302 Depth=1
	movb	$1, (%rax,%rdx)
.LBB0_301:                              # %loop.3.i.i.i.i.i.i
                                        #   in Loop: Header=BB0_302 Depth=1
	incq	%rdx
	movq	%rdx, 552(%rsp)
	incq	%r15
	cmpq	%r15, %rbx
	je	.LBB0_309
.LBB0_302:                              # %join.6.i.i.i.i.i.i
                                        # =>This Inner Loop Header: Depth=1
	cmpb	$70, (%r14,%r15)
	movq	560(%rsp), %rcx
	jne	.LBB0_299
# %bb.303:                              # %then.8.split.i.i.i.i.i.i
                                        #   in Loop: Header=BB0_302 Depth=1
	cmpq	%rdx, %rcx
	je	.LBB0_307
.LBB0_304:                              # %join.3.i.i.i.i.i55.i.i
                                        #   in Loop: Header=BB0_302 Depth=1
	movq	544(%rsp), %rax
	movb	$0, (%rax,%rdx)
	jmp	.LBB0_301
.LBB0_305:                              # %"std_alloc::vec::Vec::grow::<#c5e3cca411c51d6b>.exit.i16.i.i.i.i.i.i"
                                        #   in Loop: Header=BB0_302 Depth=1
	leaq	544(%rsp), %rdi
	callq	"std_alloc::vec::Vec::grow_amortized::<#c5e3cca411c51d6b>"
	testb	%al, %al
	je	.LBB0_359
# %bb.306:                              # %"std_alloc::vec::Vec::grow::<#c5e3cca411c51d6b>.exit.join.3_crit_edge.i18.i.i.i.i.i.i"
                                        #   in Loop: Header=BB0_302 Depth=1
	movq	544(%rsp), %rax
	movq	552(%rsp), %rdx
	jmp	.LBB0_300
.LBB0_307:                              # %"std_alloc::vec::Vec::grow::<#c5e3cca411c51d6b>.exit.i.i.i.i.i.i.i"
                                        #   in Loop: Header=BB0_302 Depth=1
	leaq	544(%rsp), %rdi
	callq	"std_alloc::vec::Vec::grow_amortized::<#c5e3cca411c51d6b>"
	testb	%al, %al
	je	.LBB0_359
# %bb.308:                              # %"std_alloc::vec::Vec::grow::<#c5e3cca411c51d6b>.exit.join.3_crit_edge.i.i.i.i.i.i.i"
                                        #   in Loop: Header=BB0_302 Depth=1
	movq	552(%rsp), %rdx
	jmp	.LBB0_304
.LBB0_309:                              # %arm.17.i.i.i.i.i
	movq	%rdx, 56(%rsp)                  # 8-byte Spill
	movq	%r12, 32(%rsp)                  # 8-byte Spill
	movq	544(%rsp), %rax
	movq	%rax, 64(%rsp)                  # 8-byte Spill
	cmpq	$0, 560(%rsp)
	sete	15(%rsp)                        # 1-byte Folded Spill
	movb	$2, %al
	movq	%rax, 48(%rsp)                  # 8-byte Spill
	jmp	.LBB0_143
.LBB0_347:                              # %arm.9.i.i.i.i.i.i
	cmpq	$0, 112(%rsp)
	je	.LBB0_349
# %bb.348:                              # %then.1.i.i.i.i.i39.i.i.i.i
	movq	96(%rsp), %rdi
	callq	rattle_dealloc@PLT
.LBB0_349:                              # %arm.10.i40.i.i.i.i
	movq	216(%rsp), %rbx                 # 8-byte Reload
	jmp	.LBB0_184
.LBB0_350:                              # %arm.10.i.i.i.i
	testq	%r13, %r13
	je	.LBB0_352
# %bb.351:                              # %then.1.i.i.i6.i.i.i.i
	movq	%r15, %rdi
	callq	rattle_dealloc@PLT
.LBB0_352:                              # %then.13.i.i.i.i
	movq	96(%rsp), %rbx
	movq	104(%rsp), %r14
	movq	112(%rsp), %r15
	testq	%r14, %r14
	je	.LBB0_357
# %bb.353:                              # %join.5.i.i.i.i.i.i.i.i.i.preheader
	leaq	16(%rbx), %r12
	jmp	.LBB0_355
.LBB0_354:                              # %"core::mem::drop::<#f02d343d93693c10>.exit.i.i.i.i.i.i.i.i.i"
                                        #   in Loop: Header=BB0_355 Depth=1
	addq	$24, %r12
	decq	%r14
	je	.LBB0_357
.LBB0_355:                              # %join.5.i.i.i.i.i.i.i.i.i
                                        # =>This Inner Loop Header: Depth=1
	cmpq	$0, (%r12)
	je	.LBB0_354
# %bb.356:                              # %then.1.i.i.i.i.i.i.i.i.i.i.i.i.i.i
                                        #   in Loop: Header=BB0_355 Depth=1
	movq	-16(%r12), %rdi
	callq	rattle_dealloc@PLT
	jmp	.LBB0_354
.LBB0_357:                              # %"std_alloc::vec::Vec::clear::<#4feeb2b446188e7f>.exit.i.i.i.i.i"
	movl	$38, %r14d
	testq	%r15, %r15
	je	.LBB0_137
# %bb.358:                              # %then.1.i.i.i16.i.i.i.i
	movq	%rbx, %rdi
	jmp	.LBB0_136
.LBB0_359:                              # %arm.12.i.i.i.i.i.i
	cmpq	$0, 560(%rsp)
	je	.LBB0_361
# %bb.360:                              # %then.1.i.i.i.i.i.i.i54.i.i
	movq	544(%rsp), %rdi
	callq	rattle_dealloc@PLT
.LBB0_361:                              # %"text_programs::programs::requests::ends_of::<#e3b2a9d4d2861db8>.exit.i.i.i.i.i"
	movb	$3, %bpl
	movq	16(%rsp), %r15                  # 8-byte Reload
	jmp	.LBB0_318
.LBB0_362:                              # %then.8.i.i.i.i.i.i.i
	cmpq	$0, 40(%rsp)                    # 8-byte Folded Reload
	je	.LBB0_364
# %bb.363:                              # %then.1.i.i.i.i.i.i.i.i.i.i.i
	movq	%r15, %rdi
	callq	rattle_dealloc@PLT
.LBB0_364:                              # %"text_programs::std_alloc++string++String+Destruct::drop::<#e3b2a9d4d2861db8>.exit.i.i.i.i.i.i.i"
	cmpq	%r13, %r14
	je	.LBB0_370
# %bb.365:                              # %join.3.i.i.i.i12.i.i.i.i.i.i.i
	movq	%rbp, %rax
	addq	%r13, %rax
	leaq	1(,%r13), %rcx
	addq	%rbp, %rcx
	addq	%r12, %rax
	cmpq	%rax, %rcx
	jae	.LBB0_370
# %bb.366:                              # %join.5.i.i.i.i.i35.i.i.i.i.i.i.i.preheader
	movl	$1, %r14d
	jmp	.LBB0_368
.LBB0_367:                              # %"core::mem::drop::<#7f8a914b9c4d666d>.exit.i.i.i.i.i44.i.i.i.i.i.i.i"
                                        #   in Loop: Header=BB0_368 Depth=1
	incq	%r14
	addq	$24, %rbx
	cmpq	%r14, %r12
	je	.LBB0_370
.LBB0_368:                              # %join.5.i.i.i.i.i35.i.i.i.i.i.i.i
                                        # =>This Inner Loop Header: Depth=1
	cmpq	$0, (%rbx)
	je	.LBB0_367
# %bb.369:                              # %then.1.i.i.i.i.i.i.i.i.i.i42.i.i.i.i.i.i.i
                                        #   in Loop: Header=BB0_368 Depth=1
	movq	-16(%rbx), %rdi
	callq	rattle_dealloc@PLT
	jmp	.LBB0_367
.LBB0_370:                              # %"std_alloc::vec::deque::VecDeque::clear::<#1ca9c52778c14e4e>.exit.i.i32.i.i.i.i.i.i.i"
	cmpq	$0, 24(%rsp)                    # 8-byte Folded Reload
	je	.LBB0_372
# %bb.371:                              # %then.1.i.i.i.i.i34.i.i.i.i.i.i.i
	movq	16(%rsp), %rdi                  # 8-byte Reload
	callq	rattle_dealloc@PLT
.LBB0_372:                              # %arm.2.i.i.i.i.i
	movq	544(%rsp), %rbx
	movq	552(%rsp), %r15
	movq	560(%rsp), %r14
	testq	%r15, %r15
	je	.LBB0_377
# %bb.373:                              # %join.5.i.i.i.i.i.i.i7.i.i.i.preheader
	leaq	16(%rbx), %r12
	jmp	.LBB0_375
.LBB0_374:                              # %"core::mem::drop::<#7f8a914b9c4d666d>.exit.i.i.i.i.i.i.i.i.i.i"
                                        #   in Loop: Header=BB0_375 Depth=1
	addq	$24, %r12
	decq	%r15
	je	.LBB0_377
.LBB0_375:                              # %join.5.i.i.i.i.i.i.i7.i.i.i
                                        # =>This Inner Loop Header: Depth=1
	cmpq	$0, (%r12)
	je	.LBB0_374
# %bb.376:                              # %then.1.i.i.i.i.i.i.i.i.i.i.i.i.i.i.i
                                        #   in Loop: Header=BB0_375 Depth=1
	movq	-16(%r12), %rdi
	callq	rattle_dealloc@PLT
	jmp	.LBB0_374
.LBB0_377:                              # %"std_alloc::vec::Vec::clear::<#1ca9c52778c14e4e>.exit.i.i.i.i.i.i"
	testq	%r14, %r14
	je	.LBB0_379
# %bb.378:                              # %then.1.i.i.i.i.i.i.i.i
	movq	%rbx, %rdi
	callq	rattle_dealloc@PLT
.LBB0_379:                              # %arm.6.i.i.i
	movl	$38, %r14d
	jmp	.LBB0_137
.LBB0_380:                              # %join.4.i.i.i.i.i.i.i.i
	ud2
.Lfunc_end0:
	.size	"pieces::main+start", .Lfunc_end0-"pieces::main+start"
	.cfi_endproc
                                        # -- End function
	.section	".text.unlikely.std_alloc::vec::Vec::grow_amortized::<#5fdc5e19576447a7>","ax",@progbits
	.p2align	4                               # -- Begin function std_alloc::vec::Vec::grow_amortized::<#5fdc5e19576447a7>
	.type	"std_alloc::vec::Vec::grow_amortized::<#5fdc5e19576447a7>",@function
"std_alloc::vec::Vec::grow_amortized::<#5fdc5e19576447a7>": # @"std_alloc::vec::Vec::grow_amortized::<#5fdc5e19576447a7>"
	.cfi_startproc
# %bb.0:                                # %start
	movq	%rsi, %rax
	movq	8(%rdi), %rsi
	addq	%rsi, %rax
	jae	.LBB1_2
# %bb.1:
	xorl	%eax, %eax
                                        # kill: def $al killed $al killed $eax
	retq
.LBB1_2:                                # %join.3
	pushq	%r14
	.cfi_def_cfa_offset 16
	pushq	%rbx
	.cfi_def_cfa_offset 24
	pushq	%rax
	.cfi_def_cfa_offset 32
	.cfi_offset %rbx, -24
	.cfi_offset %r14, -16
	cmpq	$9, %rax
	movl	$8, %ebx
	cmovaeq	%rax, %rbx
	movq	16(%rdi), %rcx
	movq	%rcx, %rdx
	shrq	$62, %rdx
	leaq	(%rcx,%rcx), %rax
	cmpq	%rax, %rbx
	cmovaq	%rbx, %rax
	testq	%rdx, %rdx
	cmoveq	%rax, %rbx
	testq	%rbx, %rbx
	js	.LBB1_6
# %bb.3:                                # %join.3.i
	testq	%rcx, %rcx
	je	.LBB1_8
# %bb.4:                                # %then.1.i.i
	movq	%rdi, %r14
	movq	(%rdi), %rdi
	movl	$1, %ecx
	movq	%rbx, %rdx
	callq	rattle_realloc@PLT
	testb	$1, %al
	je	.LBB1_6
.LBB1_9:                                # %arm.5.i
	movq	%rdx, (%r14)
	movq	%rbx, 16(%r14)
	movb	$1, %al
	addq	$8, %rsp
	.cfi_def_cfa_offset 24
	popq	%rbx
	.cfi_def_cfa_offset 16
	popq	%r14
	.cfi_def_cfa_offset 8
	.cfi_restore %rbx
	.cfi_restore %r14
                                        # kill: def $al killed $al killed $eax
	retq
.LBB1_8:                                # %"std_alloc::vec::resize::<#5fdc5e19576447a7>.exit.i"
	.cfi_def_cfa_offset 32
	.cfi_offset %rbx, -24
	.cfi_offset %r14, -16
	movq	%rdi, %r14
	movl	$1, %esi
	movq	%rax, %rdi
	callq	rattle_alloc@PLT
	testb	$1, %al
	jne	.LBB1_9
.LBB1_6:
	xorl	%eax, %eax
	addq	$8, %rsp
	.cfi_def_cfa_offset 24
	popq	%rbx
	.cfi_def_cfa_offset 16
	popq	%r14
	.cfi_def_cfa_offset 8
	.cfi_restore %rbx
	.cfi_restore %r14
                                        # kill: def $al killed $al killed $eax
	retq
.Lfunc_end1:
	.size	"std_alloc::vec::Vec::grow_amortized::<#5fdc5e19576447a7>", .Lfunc_end1-"std_alloc::vec::Vec::grow_amortized::<#5fdc5e19576447a7>"
	.cfi_endproc
                                        # -- End function
	.section	.rodata.cst16,"aM",@progbits,16
	.p2align	4, 0x0                          # -- Begin function core::slice::words::skip_far::<#52f9edcae2f82f51>
.LCPI2_0:
	.zero	16,128
	.section	".text.core::slice::words::skip_far::<#52f9edcae2f82f51>","ax",@progbits
	.p2align	4
	.type	"core::slice::words::skip_far::<#52f9edcae2f82f51>",@function
"core::slice::words::skip_far::<#52f9edcae2f82f51>": # @"core::slice::words::skip_far::<#52f9edcae2f82f51>"
	.cfi_startproc
# %bb.0:                                # %start
	movq	%rsi, %rax
	subq	%rsi, %rdx
	cmpq	$64, %rdx
	jb	.LBB2_4
# %bb.1:                                # %then.3.lr.ph
	movq	(%rdi), %rcx
	.p2align	4
.LBB2_2:                                # %then.3
                                        # =>This Inner Loop Header: Depth=1
	movdqu	(%rcx,%rax), %xmm0
	movdqu	16(%rcx,%rax), %xmm1
	movdqu	32(%rcx,%rax), %xmm2
	por	%xmm0, %xmm2
	movdqu	48(%rcx,%rax), %xmm0
	por	%xmm1, %xmm0
	por	%xmm2, %xmm0
	ptest	.LCPI2_0(%rip), %xmm0
	jne	.LBB2_4
# %bb.3:                                # %join.5
                                        #   in Loop: Header=BB2_2 Depth=1
	addq	$64, %rax
	addq	$-64, %rdx
	cmpq	$63, %rdx
	ja	.LBB2_2
.LBB2_4:                                # %after.1
	retq
.Lfunc_end2:
	.size	"core::slice::words::skip_far::<#52f9edcae2f82f51>", .Lfunc_end2-"core::slice::words::skip_far::<#52f9edcae2f82f51>"
	.cfi_endproc
                                        # -- End function
	.section	".text.unlikely.std_alloc::vec::Vec::grow_amortized::<#1b8c52373d8cd3cb>","ax",@progbits
	.p2align	4                               # -- Begin function std_alloc::vec::Vec::grow_amortized::<#1b8c52373d8cd3cb>
	.type	"std_alloc::vec::Vec::grow_amortized::<#1b8c52373d8cd3cb>",@function
"std_alloc::vec::Vec::grow_amortized::<#1b8c52373d8cd3cb>": # @"std_alloc::vec::Vec::grow_amortized::<#1b8c52373d8cd3cb>"
	.cfi_startproc
# %bb.0:                                # %start
	movq	8(%rdi), %rax
	addq	%rax, %rsi
	jae	.LBB3_2
# %bb.1:
	xorl	%eax, %eax
                                        # kill: def $al killed $al killed $eax
	retq
.LBB3_2:                                # %join.3
	pushq	%r14
	.cfi_def_cfa_offset 16
	pushq	%rbx
	.cfi_def_cfa_offset 24
	pushq	%rax
	.cfi_def_cfa_offset 32
	.cfi_offset %rbx, -24
	.cfi_offset %r14, -16
	movq	16(%rdi), %rcx
	cmpq	$5, %rsi
	movl	$4, %ebx
	cmovaeq	%rsi, %rbx
	movq	%rcx, %rsi
	shrq	$62, %rsi
	leaq	(%rcx,%rcx), %rdx
	cmpq	%rdx, %rbx
	cmovaq	%rbx, %rdx
	testq	%rsi, %rsi
	cmoveq	%rdx, %rbx
	movabsq	$384307168202282325, %rsi       # imm = 0x555555555555555
	cmpq	%rsi, %rbx
	ja	.LBB3_6
# %bb.3:                                # %join.3.i
	testq	%rcx, %rcx
	je	.LBB3_8
# %bb.4:                                # %then.1.i.i
	movq	%rdi, %r14
	movq	(%rdi), %rdi
	shlq	$3, %rax
	leaq	(%rax,%rax,2), %rsi
	leaq	(,%rbx,8), %rax
	leaq	(%rax,%rax,2), %rdx
	movl	$8, %ecx
	callq	rattle_realloc@PLT
	testb	$1, %al
	je	.LBB3_6
.LBB3_9:                                # %arm.5.i
	movq	%rdx, (%r14)
	movq	%rbx, 16(%r14)
	movb	$1, %al
	addq	$8, %rsp
	.cfi_def_cfa_offset 24
	popq	%rbx
	.cfi_def_cfa_offset 16
	popq	%r14
	.cfi_def_cfa_offset 8
	.cfi_restore %rbx
	.cfi_restore %r14
                                        # kill: def $al killed $al killed $eax
	retq
.LBB3_8:                                # %"std_alloc::vec::resize::<#1b8c52373d8cd3cb>.exit.i"
	.cfi_def_cfa_offset 32
	.cfi_offset %rbx, -24
	.cfi_offset %r14, -16
	movq	%rdi, %r14
	shlq	$3, %rdx
	leaq	(%rdx,%rdx,2), %rdi
	movl	$8, %esi
	callq	rattle_alloc@PLT
	testb	$1, %al
	jne	.LBB3_9
.LBB3_6:
	xorl	%eax, %eax
	addq	$8, %rsp
	.cfi_def_cfa_offset 24
	popq	%rbx
	.cfi_def_cfa_offset 16
	popq	%r14
	.cfi_def_cfa_offset 8
	.cfi_restore %rbx
	.cfi_restore %r14
                                        # kill: def $al killed $al killed $eax
	retq
.Lfunc_end3:
	.size	"std_alloc::vec::Vec::grow_amortized::<#1b8c52373d8cd3cb>", .Lfunc_end3-"std_alloc::vec::Vec::grow_amortized::<#1b8c52373d8cd3cb>"
	.cfi_endproc
                                        # -- End function
	.section	".text.unlikely.std_alloc::vec::Vec::grow_amortized::<#c5e3cca411c51d6b>","ax",@progbits
	.p2align	4                               # -- Begin function std_alloc::vec::Vec::grow_amortized::<#c5e3cca411c51d6b>
	.type	"std_alloc::vec::Vec::grow_amortized::<#c5e3cca411c51d6b>",@function
"std_alloc::vec::Vec::grow_amortized::<#c5e3cca411c51d6b>": # @"std_alloc::vec::Vec::grow_amortized::<#c5e3cca411c51d6b>"
	.cfi_startproc
# %bb.0:                                # %start
	movq	8(%rdi), %rsi
	cmpq	$-1, %rsi
	je	.LBB4_5
# %bb.1:                                # %join.3
	pushq	%r14
	.cfi_def_cfa_offset 16
	pushq	%rbx
	.cfi_def_cfa_offset 24
	pushq	%rax
	.cfi_def_cfa_offset 32
	.cfi_offset %rbx, -24
	.cfi_offset %r14, -16
	movq	16(%rdi), %rcx
	cmpq	$8, %rsi
	movl	$7, %ebx
	cmovaeq	%rsi, %rbx
	incq	%rbx
	movq	%rcx, %rdx
	shrq	$62, %rdx
	leaq	(%rcx,%rcx), %rax
	cmpq	%rax, %rbx
	cmovaq	%rbx, %rax
	testq	%rdx, %rdx
	cmoveq	%rax, %rbx
	testq	%rbx, %rbx
	js	.LBB4_6
# %bb.2:                                # %join.3.i
	testq	%rcx, %rcx
	je	.LBB4_8
# %bb.3:                                # %then.1.i.i
	movq	%rdi, %r14
	movq	(%rdi), %rdi
	movl	$1, %ecx
	movq	%rbx, %rdx
	callq	rattle_realloc@PLT
	testb	$1, %al
	je	.LBB4_6
.LBB4_9:                                # %arm.5.i
	movq	%rdx, (%r14)
	movq	%rbx, 16(%r14)
	movb	$1, %al
	addq	$8, %rsp
	.cfi_def_cfa_offset 24
	popq	%rbx
	.cfi_def_cfa_offset 16
	popq	%r14
	.cfi_def_cfa_offset 8
	.cfi_restore %rbx
	.cfi_restore %r14
                                        # kill: def $al killed $al killed $eax
	retq
.LBB4_5:
	xorl	%eax, %eax
                                        # kill: def $al killed $al killed $eax
	retq
.LBB4_8:                                # %"std_alloc::vec::resize::<#c5e3cca411c51d6b>.exit.i"
	.cfi_def_cfa_offset 32
	.cfi_offset %rbx, -24
	.cfi_offset %r14, -16
	movq	%rdi, %r14
	movl	$1, %esi
	movq	%rax, %rdi
	callq	rattle_alloc@PLT
	testb	$1, %al
	jne	.LBB4_9
.LBB4_6:
	xorl	%eax, %eax
	addq	$8, %rsp
	.cfi_def_cfa_offset 24
	popq	%rbx
	.cfi_def_cfa_offset 16
	popq	%r14
	.cfi_def_cfa_offset 8
	.cfi_restore %rbx
	.cfi_restore %r14
                                        # kill: def $al killed $al killed $eax
	retq
.Lfunc_end4:
	.size	"std_alloc::vec::Vec::grow_amortized::<#c5e3cca411c51d6b>", .Lfunc_end4-"std_alloc::vec::Vec::grow_amortized::<#c5e3cca411c51d6b>"
	.cfi_endproc
                                        # -- End function
	.section	".text.std_io::io::error::last_error","ax",@progbits
	.p2align	4                               # -- Begin function std_io::io::error::last_error
	.type	"std_io::io::error::last_error",@function
"std_io::io::error::last_error":        # @"std_io::io::error::last_error"
	.cfi_startproc
# %bb.0:                                # %start
	pushq	%rbx
	.cfi_def_cfa_offset 16
	.cfi_offset %rbx, -16
	movq	%rdi, %rbx
	callq	rattle_errno@PLT
                                        # kill: def $eax killed $eax def $rax
	movl	%eax, %ecx
	movb	$41, %dl
	testl	%eax, %eax
	js	.LBB5_40
# %bb.1:                                # %else.2.i.i
	decl	%eax
	cmpl	$121, %eax
	ja	.LBB5_39
# %bb.2:                                # %else.2.i.i
	movb	$1, %dl
	leaq	.LJTI5_0(%rip), %rsi
	movslq	(%rsi,%rax,4), %rax
	addq	%rsi, %rax
	notrack		jmpq	*%rax
.LBB5_23:                               # %arm.23.i.i.i
	movb	$36, %dl
	jmp	.LBB5_40
.LBB5_35:                               # %arm.36.i.i.i
	movb	$4, %dl
	jmp	.LBB5_40
.LBB5_32:                               # %arm.33.i.i.i
	movb	$7, %dl
	jmp	.LBB5_40
.LBB5_38:                               # %arm.39.i.i.i
	movb	$26, %dl
	jmp	.LBB5_40
.LBB5_36:                               # %arm.37.i.i.i
	movb	$39, %dl
	jmp	.LBB5_40
.LBB5_27:                               # %arm.28.i.i.i
	movb	$9, %dl
	jmp	.LBB5_40
.LBB5_26:                               # %arm.27.i.i.i
	movb	$8, %dl
	jmp	.LBB5_40
.LBB5_21:                               # %arm.21.i.i.i
	movb	$30, %dl
	jmp	.LBB5_40
.LBB5_17:                               # %arm.17.i.i.i
	movb	$25, %dl
	jmp	.LBB5_40
.LBB5_19:                               # %arm.19.i.i.i
	movb	$32, %dl
	jmp	.LBB5_40
.LBB5_22:                               # %arm.22.i.i.i
	movb	$33, %dl
	jmp	.LBB5_40
.LBB5_33:                               # %arm.34.i.i.i
	movb	$22, %dl
	jmp	.LBB5_40
.LBB5_10:                               # %arm.10.i.i.i
	movb	$31, %dl
	jmp	.LBB5_40
.LBB5_14:                               # %arm.14.i.i.i
	movb	$29, %dl
	jmp	.LBB5_40
.LBB5_25:                               # %arm.25.i.i.i
	movb	$18, %dl
	jmp	.LBB5_40
.LBB5_28:                               # %arm.29.i.i.i
	movb	$10, %dl
	jmp	.LBB5_40
.LBB5_8:                                # %arm.8.i.i.i
	movb	$28, %dl
	jmp	.LBB5_40
.LBB5_11:                               # %arm.11.i.i.i
	movb	$14, %dl
	jmp	.LBB5_40
.LBB5_9:                                # %arm.9.i.i.i
	movb	$12, %dl
	jmp	.LBB5_40
.LBB5_29:                               # %arm.30.i.i.i
	movb	$5, %dl
	jmp	.LBB5_40
.LBB5_31:                               # %arm.32.i.i.i
	movb	$3, %dl
	jmp	.LBB5_40
.LBB5_3:                                # %arm.2.i.i.i
	xorl	%edx, %edx
	jmp	.LBB5_40
.LBB5_6:                                # %arm.5.i.i.i
	movb	$13, %dl
	jmp	.LBB5_40
.LBB5_7:                                # %arm.6.i.i.i
	movb	$38, %dl
	jmp	.LBB5_40
.LBB5_20:                               # %arm.20.i.i.i
	movb	$11, %dl
	jmp	.LBB5_40
.LBB5_4:                                # %arm.3.i.i.i
	movb	$35, %dl
	jmp	.LBB5_40
.LBB5_5:                                # %arm.4.i.i.i
	movb	$34, %dl
	jmp	.LBB5_40
.LBB5_13:                               # %arm.13.i.i.i
	movb	$20, %dl
	jmp	.LBB5_40
.LBB5_12:                               # %arm.12.i.i.i
	movb	$15, %dl
	jmp	.LBB5_40
.LBB5_37:                               # %arm.38.i.i.i
	movb	$19, %dl
	jmp	.LBB5_40
.LBB5_39:                               # %default.40.i.i.i
	movb	$41, %dl
	jmp	.LBB5_40
.LBB5_24:                               # %arm.24.i.i.i
	movb	$16, %dl
	jmp	.LBB5_40
.LBB5_30:                               # %arm.31.i.i.i
	movb	$6, %dl
	jmp	.LBB5_40
.LBB5_15:                               # %arm.15.i.i.i
	movb	$27, %dl
	jmp	.LBB5_40
.LBB5_16:                               # %arm.16.i.i.i
	movb	$24, %dl
	jmp	.LBB5_40
.LBB5_34:                               # %arm.35.i.i.i
	movb	$2, %dl
	jmp	.LBB5_40
.LBB5_18:                               # %arm.18.i.i.i
	movb	$17, %dl
.LBB5_40:                               # %"std_io::io::error::Error::from_raw_os_error.exit"
	movb	$0, (%rbx)
	movb	%dl, 1(%rbx)
	movw	$0, 2(%rbx)
	movl	%ecx, 4(%rbx)
	xorps	%xmm0, %xmm0
	movups	%xmm0, 8(%rbx)
	movups	%xmm0, 24(%rbx)
	movups	%xmm0, 40(%rbx)
	movups	%xmm0, 56(%rbx)
	movups	%xmm0, 72(%rbx)
	popq	%rbx
	.cfi_def_cfa_offset 8
	retq
.Lfunc_end5:
	.size	"std_io::io::error::last_error", .Lfunc_end5-"std_io::io::error::last_error"
	.cfi_endproc
	.section	".rodata.std_io::io::error::last_error","a",@progbits
	.p2align	2, 0x0
.LJTI5_0:
	.long	.LBB5_40-.LJTI5_0
	.long	.LBB5_3-.LJTI5_0
	.long	.LBB5_39-.LJTI5_0
	.long	.LBB5_4-.LJTI5_0
	.long	.LBB5_39-.LJTI5_0
	.long	.LBB5_39-.LJTI5_0
	.long	.LBB5_5-.LJTI5_0
	.long	.LBB5_39-.LJTI5_0
	.long	.LBB5_39-.LJTI5_0
	.long	.LBB5_39-.LJTI5_0
	.long	.LBB5_6-.LJTI5_0
	.long	.LBB5_7-.LJTI5_0
	.long	.LBB5_40-.LJTI5_0
	.long	.LBB5_39-.LJTI5_0
	.long	.LBB5_39-.LJTI5_0
	.long	.LBB5_8-.LJTI5_0
	.long	.LBB5_9-.LJTI5_0
	.long	.LBB5_10-.LJTI5_0
	.long	.LBB5_39-.LJTI5_0
	.long	.LBB5_11-.LJTI5_0
	.long	.LBB5_12-.LJTI5_0
	.long	.LBB5_13-.LJTI5_0
	.long	.LBB5_39-.LJTI5_0
	.long	.LBB5_39-.LJTI5_0
	.long	.LBB5_39-.LJTI5_0
	.long	.LBB5_14-.LJTI5_0
	.long	.LBB5_15-.LJTI5_0
	.long	.LBB5_16-.LJTI5_0
	.long	.LBB5_17-.LJTI5_0
	.long	.LBB5_18-.LJTI5_0
	.long	.LBB5_19-.LJTI5_0
	.long	.LBB5_20-.LJTI5_0
	.long	.LBB5_39-.LJTI5_0
	.long	.LBB5_39-.LJTI5_0
	.long	.LBB5_21-.LJTI5_0
	.long	.LBB5_22-.LJTI5_0
	.long	.LBB5_39-.LJTI5_0
	.long	.LBB5_23-.LJTI5_0
	.long	.LBB5_24-.LJTI5_0
	.long	.LBB5_25-.LJTI5_0
	.long	.LBB5_39-.LJTI5_0
	.long	.LBB5_39-.LJTI5_0
	.long	.LBB5_39-.LJTI5_0
	.long	.LBB5_39-.LJTI5_0
	.long	.LBB5_39-.LJTI5_0
	.long	.LBB5_39-.LJTI5_0
	.long	.LBB5_39-.LJTI5_0
	.long	.LBB5_39-.LJTI5_0
	.long	.LBB5_39-.LJTI5_0
	.long	.LBB5_39-.LJTI5_0
	.long	.LBB5_39-.LJTI5_0
	.long	.LBB5_39-.LJTI5_0
	.long	.LBB5_39-.LJTI5_0
	.long	.LBB5_39-.LJTI5_0
	.long	.LBB5_39-.LJTI5_0
	.long	.LBB5_39-.LJTI5_0
	.long	.LBB5_39-.LJTI5_0
	.long	.LBB5_39-.LJTI5_0
	.long	.LBB5_39-.LJTI5_0
	.long	.LBB5_39-.LJTI5_0
	.long	.LBB5_39-.LJTI5_0
	.long	.LBB5_39-.LJTI5_0
	.long	.LBB5_39-.LJTI5_0
	.long	.LBB5_39-.LJTI5_0
	.long	.LBB5_39-.LJTI5_0
	.long	.LBB5_39-.LJTI5_0
	.long	.LBB5_39-.LJTI5_0
	.long	.LBB5_39-.LJTI5_0
	.long	.LBB5_39-.LJTI5_0
	.long	.LBB5_39-.LJTI5_0
	.long	.LBB5_39-.LJTI5_0
	.long	.LBB5_39-.LJTI5_0
	.long	.LBB5_39-.LJTI5_0
	.long	.LBB5_39-.LJTI5_0
	.long	.LBB5_39-.LJTI5_0
	.long	.LBB5_39-.LJTI5_0
	.long	.LBB5_39-.LJTI5_0
	.long	.LBB5_39-.LJTI5_0
	.long	.LBB5_39-.LJTI5_0
	.long	.LBB5_39-.LJTI5_0
	.long	.LBB5_39-.LJTI5_0
	.long	.LBB5_39-.LJTI5_0
	.long	.LBB5_39-.LJTI5_0
	.long	.LBB5_39-.LJTI5_0
	.long	.LBB5_39-.LJTI5_0
	.long	.LBB5_39-.LJTI5_0
	.long	.LBB5_39-.LJTI5_0
	.long	.LBB5_39-.LJTI5_0
	.long	.LBB5_39-.LJTI5_0
	.long	.LBB5_39-.LJTI5_0
	.long	.LBB5_39-.LJTI5_0
	.long	.LBB5_39-.LJTI5_0
	.long	.LBB5_39-.LJTI5_0
	.long	.LBB5_39-.LJTI5_0
	.long	.LBB5_23-.LJTI5_0
	.long	.LBB5_39-.LJTI5_0
	.long	.LBB5_39-.LJTI5_0
	.long	.LBB5_26-.LJTI5_0
	.long	.LBB5_27-.LJTI5_0
	.long	.LBB5_28-.LJTI5_0
	.long	.LBB5_29-.LJTI5_0
	.long	.LBB5_39-.LJTI5_0
	.long	.LBB5_30-.LJTI5_0
	.long	.LBB5_31-.LJTI5_0
	.long	.LBB5_39-.LJTI5_0
	.long	.LBB5_39-.LJTI5_0
	.long	.LBB5_32-.LJTI5_0
	.long	.LBB5_39-.LJTI5_0
	.long	.LBB5_39-.LJTI5_0
	.long	.LBB5_33-.LJTI5_0
	.long	.LBB5_34-.LJTI5_0
	.long	.LBB5_39-.LJTI5_0
	.long	.LBB5_35-.LJTI5_0
	.long	.LBB5_39-.LJTI5_0
	.long	.LBB5_36-.LJTI5_0
	.long	.LBB5_37-.LJTI5_0
	.long	.LBB5_39-.LJTI5_0
	.long	.LBB5_39-.LJTI5_0
	.long	.LBB5_39-.LJTI5_0
	.long	.LBB5_39-.LJTI5_0
	.long	.LBB5_39-.LJTI5_0
	.long	.LBB5_38-.LJTI5_0
                                        # -- End function
	.section	.rodata.cst16,"aM",@progbits,16
	.p2align	4, 0x0                          # -- Begin function text_programs::programs::listing::write_listing::<#cdc8ff12022c16a2>
.LCPI6_0:
	.zero	16,48
	.section	".text.text_programs::programs::listing::write_listing::<#cdc8ff12022c16a2>","ax",@progbits
	.p2align	4
	.type	"text_programs::programs::listing::write_listing::<#cdc8ff12022c16a2>",@function
"text_programs::programs::listing::write_listing::<#cdc8ff12022c16a2>": # @"text_programs::programs::listing::write_listing::<#cdc8ff12022c16a2>"
	.cfi_startproc
# %bb.0:                                # %start
	pushq	%rbp
	.cfi_def_cfa_offset 16
	pushq	%r15
	.cfi_def_cfa_offset 24
	pushq	%r14
	.cfi_def_cfa_offset 32
	pushq	%r13
	.cfi_def_cfa_offset 40
	pushq	%r12
	.cfi_def_cfa_offset 48
	pushq	%rbx
	.cfi_def_cfa_offset 56
	movq	%rsp, %r11
	subq	$64512, %r11                    # imm = 0xFC00
	.cfi_def_cfa_register %r11
	.cfi_adjust_cfa_offset 64512
.LBB6_1:                                # %start
                                        # =>This Inner Loop Header: Depth=1
	subq	$3072, %rsp                     # imm = 0xC00
	movq	$0, (%rsp)
	cmpq	%r11, %rsp
	jne	.LBB6_1
# %bb.2:                                # %start
	subq	$1432, %rsp                     # imm = 0x598
	.cfi_def_cfa_register %rsp
	.cfi_def_cfa_offset 66000
	.cfi_offset %rbx, -56
	.cfi_offset %r12, -48
	.cfi_offset %r13, -40
	.cfi_offset %r14, -32
	.cfi_offset %r15, -24
	.cfi_offset %rbp, -16
	movq	%rdx, %rbx
	movq	%rsi, 8(%rsp)                   # 8-byte Spill
	movq	%rdi, 32(%rsp)                  # 8-byte Spill
	xorps	%xmm0, %xmm0
	movaps	%xmm0, 384(%rsp)
	movaps	%xmm0, 368(%rsp)
	movaps	%xmm0, 352(%rsp)
	movaps	%xmm0, 336(%rsp)
	movaps	%xmm0, 320(%rsp)
	movaps	%xmm0, 224(%rsp)
	movaps	%xmm0, 240(%rsp)
	movaps	%xmm0, 256(%rsp)
	movaps	%xmm0, 272(%rsp)
	movaps	%xmm0, 288(%rsp)
	movaps	%xmm0, 304(%rsp)
	movaps	%xmm0, 128(%rsp)
	movaps	%xmm0, 144(%rsp)
	movaps	%xmm0, 160(%rsp)
	movaps	%xmm0, 176(%rsp)
	movaps	%xmm0, 192(%rsp)
	movaps	%xmm0, 208(%rsp)
	leaq	400(%rsp), %rdi
	movl	$65536, %edx                    # imm = 0x10000
	xorl	%esi, %esi
	callq	memset@PLT
	movq	$0, 65936(%rsp)
	movl	$0, 113(%rsp)
	movl	$0, 116(%rsp)
	movaps	.LCPI6_0(%rip), %xmm0           # xmm0 = [48,48,48,48,48,48,48,48,48,48,48,48,48,48,48,48]
	movups	%xmm0, 73(%rsp)
	movups	%xmm0, 89(%rsp)
	movabsq	$3472328296227680304, %rax      # imm = 0x3030303030303030
	movq	%rax, 105(%rsp)
	movq	$0, 64(%rsp)
	movb	$0, 72(%rsp)
	movq	$19, 120(%rsp)
	movq	%rbx, 56(%rsp)                  # 8-byte Spill
	testq	%rbx, %rbx
	je	.LBB6_3
# %bb.4:                                # %join.3.i.lr.ph
	movl	$19, %r14d
	xorl	%r9d, %r9d
	xorl	%r15d, %r15d
	xorl	%r10d, %r10d
	movq	8(%rsp), %r8                    # 8-byte Reload
	jmp	.LBB6_5
	.p2align	4
.LBB6_52:                               #   in Loop: Header=BB6_5 Depth=1
	movq	%r12, %rdx
.LBB6_54:                               # %"text_programs::programs::lines::fill_decimal.exit"
                                        #   in Loop: Header=BB6_5 Depth=1
	orb	$48, %dl
	movb	%dl, 73(%rsp,%r14)
	movq	%r14, 120(%rsp)
.LBB6_55:                               # %"text_programs::programs::offset::Offset::count_on.exit"
                                        #   in Loop: Header=BB6_5 Depth=1
	addq	%rbp, %r9
	cmpq	56(%rsp), %r10                  # 8-byte Folded Reload
	je	.LBB6_56
.LBB6_5:                                # %join.3.i
                                        # =>This Loop Header: Depth=1
                                        #     Child Loop BB6_53 Depth 2
	movzbl	(%r8,%r10), %r13d
	testb	%r13b, %r13b
	js	.LBB6_7
# %bb.6:                                #   in Loop: Header=BB6_5 Depth=1
	movl	$1, %r11d
	xorl	%ecx, %ecx
	xorl	%edx, %edx
	xorl	%eax, %eax
.LBB6_29:                               # %arm.4.i
                                        #   in Loop: Header=BB6_5 Depth=1
	movzbl	%dl, %edx
	shll	$16, %edx
	orl	%ecx, %edx
	movzbl	%al, %ebx
	shll	$8, %ebx
	orl	%edx, %ebx
	orl	%r13d, %ebx
	addq	%r11, %r10
	movb	$1, %dil
	xorl	%ebp, %ebp
	cmpq	$65457, %r15                    # imm = 0xFFB1
	jb	.LBB6_35
	jmp	.LBB6_31
	.p2align	4
.LBB6_7:                                # %join.3.i22
                                        #   in Loop: Header=BB6_5 Depth=1
	leaq	.Lstatic.7(%rip), %rdx
	movzbl	(%r13,%rdx), %eax
	leaq	.Lstatic.8(%rip), %rbx
	movzbl	(%rax,%rbx), %r12d
	cmpq	$12, %r12
	ja	.LBB6_22
# %bb.8:                                # %then.4.i28
                                        #   in Loop: Header=BB6_5 Depth=1
	movq	56(%rsp), %rbp                  # 8-byte Reload
	subq	%r10, %rbp
	cmpq	$3, %rbp
	jbe	.LBB6_9
.LBB6_11:                               # %join.3.i45
                                        #   in Loop: Header=BB6_5 Depth=1
	movzbl	1(%r8,%r10), %eax
	movzbl	(%rax,%rdx), %ecx
	shll	$4, %r12d
	addq	%rbx, %r12
	movzbl	(%rcx,%r12), %edi
	cmpq	$12, %rdi
	ja	.LBB6_17
# %bb.12:                               # %then.1.i75
                                        #   in Loop: Header=BB6_5 Depth=1
	movzbl	2(%r8,%r10), %ecx
	movzbl	(%rcx,%rdx), %ecx
	shll	$4, %edi
	addq	%rbx, %rdi
	movzbl	(%rcx,%rdi), %edi
	cmpq	$12, %rdi
	ja	.LBB6_17
# %bb.13:                               # %then.1.i109
                                        #   in Loop: Header=BB6_5 Depth=1
	movzbl	3(%r8,%r10), %ecx
	movzbl	(%rcx,%rdx), %ecx
	shll	$4, %edi
	addq	%rdi, %rbx
	movzbl	(%rcx,%rbx), %ecx
	cmpl	$13, %ecx
	je	.LBB6_20
# %bb.14:                               # %then.1.i109
                                        #   in Loop: Header=BB6_5 Depth=1
	movb	$3, %al
	cmpl	$16, %ecx
	je	.LBB6_25
# %bb.15:                               # %arm.2.i158
                                        #   in Loop: Header=BB6_5 Depth=1
	movzbl	%cl, %edi
	jmp	.LBB6_16
.LBB6_22:                               # %join.6.i24
                                        #   in Loop: Header=BB6_5 Depth=1
	movb	$2, %al
	cmpq	$14, %r12
	je	.LBB6_25
# %bb.23:                               # %join.6.i24
                                        #   in Loop: Header=BB6_5 Depth=1
	cmpl	$13, %r12d
	je	.LBB6_26
# %bb.24:                               # %arm.2.i177
                                        #   in Loop: Header=BB6_5 Depth=1
	movb	$1, %al
	jmp	.LBB6_25
.LBB6_17:                               # %join.3.i92
                                        #   in Loop: Header=BB6_5 Depth=1
	cmpq	$13, %rdi
	je	.LBB6_20
# %bb.18:                               # %join.3.i92
                                        #   in Loop: Header=BB6_5 Depth=1
	movb	$3, %al
	cmpl	$16, %edi
	jne	.LBB6_19
.LBB6_25:                               # %arm.8.i
                                        #   in Loop: Header=BB6_5 Depth=1
	movzbl	%al, %ebx
	incq	%r10
	movb	$1, %r11b
	movl	$1, %ebp
	xorl	%edi, %edi
	cmpq	$65457, %r15                    # imm = 0xFFB1
	jae	.LBB6_31
.LBB6_35:                               # %join.10
                                        #   in Loop: Header=BB6_5 Depth=1
	movq	64(%rsp), %r12
	testq	%r12, %r12
	je	.LBB6_36
# %bb.39:                               # %else.2.i
                                        #   in Loop: Header=BB6_5 Depth=1
	movq	65936(%rsp), %rax
	leaq	73(%rsp), %rdx
	movl	16(%rdx,%r14), %ecx
	movl	%ecx, 416(%rsp,%rax)
	movups	(%rdx,%r14), %xmm0
	movups	%xmm0, 400(%rsp,%rax)
	subq	%r14, %rax
	movzbl	72(%rsp), %r13d
	imull	$205, %r13d, %ecx
	shrl	$11, %ecx
	leal	(%rcx,%rcx), %edx
	leal	(%rdx,%rdx,4), %edx
	movl	%r13d, %esi
	subb	%dl, %sil
	orb	$48, %sil
	movzbl	%sil, %edx
	shll	$8, %edx
	addl	%edx, %ecx
	addl	$48, %ecx
	movw	%cx, 54(%rsp)
	movw	%cx, 420(%rsp,%rax)
	addq	$22, %rax
	jmp	.LBB6_40
	.p2align	4
.LBB6_36:                               # %then.1.i224
                                        #   in Loop: Header=BB6_5 Depth=1
	movzbl	72(%rsp), %r13d
	cmpq	$9, %r13
	ja	.LBB6_38
# %bb.37:                               # %then.1.i231
                                        #   in Loop: Header=BB6_5 Depth=1
	movl	%r13d, %ecx
	orb	$48, %cl
	movq	65936(%rsp), %rax
	movb	%cl, 400(%rsp,%rax)
	incq	%rax
	jmp	.LBB6_40
.LBB6_38:                               # %else.2.i229
                                        #   in Loop: Header=BB6_5 Depth=1
	movl	%edi, 16(%rsp)                  # 4-byte Spill
	leaq	400(%rsp), %rdi
	movq	%r13, %rsi
	movq	%r9, %r15
	movq	%rbp, 24(%rsp)                  # 8-byte Spill
	movq	%r10, 40(%rsp)                  # 8-byte Spill
	movq	%r11, %rbp
	callq	"text_programs::programs::lines::Lines::push_digits"
	movl	16(%rsp), %edi                  # 4-byte Reload
	movq	%rbp, %r11
	movq	40(%rsp), %r10                  # 8-byte Reload
	movq	24(%rsp), %rbp                  # 8-byte Reload
	movq	%r15, %r9
	movq	8(%rsp), %r8                    # 8-byte Reload
	movq	65936(%rsp), %rax
	.p2align	4
.LBB6_40:                               # %"text_programs::programs::entries::push_piece.exit"
                                        #   in Loop: Header=BB6_5 Depth=1
	movb	$32, 400(%rsp,%rax)
	leal	48(%r11), %ecx
	movb	%cl, 401(%rsp,%rax)
	leaq	2(%rax), %rcx
	movq	%rcx, 65936(%rsp)
	movb	$32, 402(%rsp,%rax)
	testb	%dil, %dil
	je	.LBB6_49
# %bb.41:                               # %arm.1.i279
                                        #   in Loop: Header=BB6_5 Depth=1
	testb	%bl, %bl
	js	.LBB6_43
# %bb.42:                               # %then.2.i
                                        #   in Loop: Header=BB6_5 Depth=1
	andl	$127, %ebx
	jmp	.LBB6_48
	.p2align	4
.LBB6_49:                               # %switch.lookup
                                        #   in Loop: Header=BB6_5 Depth=1
	addq	$3, %rax
	movzbl	%bl, %ecx
	shll	$3, %ecx
	leaq	".Lswitch.table.text_programs::programs::listing::write_merged::<#cdc8ff12022c16a2>"(%rip), %rdx
	movq	(%rcx,%rdx), %rdx
	leaq	".Lswitch.table.text_programs::programs::listing::write_merged::<#cdc8ff12022c16a2>.144"(%rip), %rsi
	movq	(%rcx,%rsi), %rsi
	leaq	(%rdx,%rax), %rcx
	movq	%rcx, 16(%rsp)                  # 8-byte Spill
	leaq	400(%rsp,%rax), %rdi
	movq	%r9, %rbx
	movq	%rbp, 24(%rsp)                  # 8-byte Spill
	movq	%r10, %rbp
	movq	%r11, %r15
	callq	memcpy@PLT
	movq	%r15, %r11
	movq	%rbp, %r10
	movq	24(%rsp), %rbp                  # 8-byte Reload
	movq	16(%rsp), %r15                  # 8-byte Reload
	movq	%rbx, %r9
	movq	8(%rsp), %r8                    # 8-byte Reload
	jmp	.LBB6_50
.LBB6_43:                               # %join.4.i285
                                        #   in Loop: Header=BB6_5 Depth=1
	movl	%ebx, %ecx
	shrl	$8, %ecx
	cmpb	$-33, %bl
	ja	.LBB6_45
# %bb.44:                               # %then.5.i
                                        #   in Loop: Header=BB6_5 Depth=1
	andl	$31, %ebx
	shll	$6, %ebx
	andl	$63, %ecx
	orl	%ecx, %ebx
	jmp	.LBB6_48
.LBB6_45:                               # %join.7.i287
                                        #   in Loop: Header=BB6_5 Depth=1
	movl	%ebx, %esi
	shrl	$16, %esi
	movl	%ebx, %edx
	shll	$12, %edx
	andl	$63, %ecx
	shll	$6, %ecx
	andl	$63, %esi
	cmpb	$-17, %bl
	ja	.LBB6_47
# %bb.46:                               # %then.8.i
                                        #   in Loop: Header=BB6_5 Depth=1
	andl	$61440, %edx                    # imm = 0xF000
	orl	%edx, %esi
	orl	%ecx, %esi
	movl	%esi, %ebx
	jmp	.LBB6_48
.LBB6_20:                               # %join.4.i183
                                        #   in Loop: Header=BB6_5 Depth=1
	xorl	%ecx, %ecx
	cmpb	$-32, %r13b
	jae	.LBB6_27
# %bb.21:                               #   in Loop: Header=BB6_5 Depth=1
	movl	$2, %r11d
	xorl	%edx, %edx
	jmp	.LBB6_29
.LBB6_31:                               # %then.8
                                        #   in Loop: Header=BB6_5 Depth=1
	movl	%edi, 16(%rsp)                  # 4-byte Spill
	leaq	224(%rsp), %rdi
	leaq	400(%rsp), %rsi
	movq	%r9, %r15
	movq	%r10, %r12
	movq	%r11, %r13
	callq	"text_programs::programs::lines::Lines::write_to::<#cdc8ff12022c16a2>"
	movl	16(%rsp), %edi                  # 4-byte Reload
	movq	%r13, %r11
	movq	%r12, %r10
	movq	%r15, %r9
	movq	8(%rsp), %r8                    # 8-byte Reload
	cmpb	$0, 224(%rsp)
	je	.LBB6_35
	jmp	.LBB6_32
.LBB6_47:                               # %join.10.i
                                        #   in Loop: Header=BB6_5 Depth=1
	shrl	$24, %ebx
	andl	$28672, %edx                    # imm = 0x7000
	orl	%esi, %edx
	orl	%ecx, %edx
	shll	$6, %edx
	andl	$63, %ebx
	orl	%edx, %ebx
	.p2align	4
.LBB6_48:                               # %"utf_chars::utf8_char::Utf8Char::scalar.exit"
                                        #   in Loop: Header=BB6_5 Depth=1
	movl	%ebx, %ecx
	shrl	$16, %ecx
	leaq	.Lstatic.9(%rip), %rdx
	movzwl	(%rdx,%rcx,2), %ecx
	movzbl	%bh, %esi
	movzwl	(%rdx,%rsi,2), %esi
	movzbl	%bl, %edi
	movzwl	(%rdx,%rdi,2), %edx
	leaq	9(%rax), %r15
	movw	%cx, 403(%rsp,%rax)
	movw	%si, 405(%rsp,%rax)
	movw	%dx, 407(%rsp,%rax)
.LBB6_50:                               # %"text_programs::programs::entries::push_answer.exit"
                                        #   in Loop: Header=BB6_5 Depth=1
	movb	$10, 400(%rsp,%r15)
	incq	%r15
	movq	%r15, 65936(%rsp)
	addb	%r11b, %r13b
	movb	%r13b, 72(%rsp)
	cmpb	$100, %r13b
	jb	.LBB6_55
# %bb.51:                               # %then.1.i343
                                        #   in Loop: Header=BB6_5 Depth=1
	addb	$-100, %r13b
	movb	%r13b, 72(%rsp)
	incq	%r12
	movq	%r12, 64(%rsp)
	movl	$19, %r14d
	cmpq	$10, %r12
	jb	.LBB6_52
	.p2align	4
.LBB6_53:                               # %join.5.i
                                        #   Parent Loop BB6_5 Depth=1
                                        # =>  This Inner Loop Header: Depth=2
	movabsq	$-3689348814741910323, %rcx     # imm = 0xCCCCCCCCCCCCCCCD
	movq	%r12, %rax
	mulq	%rcx
	shrq	$3, %rdx
	leal	(%rdx,%rdx), %eax
	leal	(%rax,%rax,4), %eax
	movl	%r12d, %ecx
	subl	%eax, %ecx
	orb	$48, %cl
	movb	%cl, 73(%rsp,%r14)
	decq	%r14
	cmpq	$99, %r12
	movq	%rdx, %r12
	ja	.LBB6_53
	jmp	.LBB6_54
.LBB6_27:                               # %arm.1.i
                                        #   in Loop: Header=BB6_5 Depth=1
	movzbl	2(%r8,%r10), %edx
	movl	$3, %r11d
	cmpb	$-16, %r13b
	jb	.LBB6_29
# %bb.28:                               # %default.4.i
                                        #   in Loop: Header=BB6_5 Depth=1
	movzbl	3(%r8,%r10), %ecx
	shll	$24, %ecx
	movl	$4, %r11d
	jmp	.LBB6_29
.LBB6_9:                                # %"utf_chars::codes::utf8::are_too_few.exit"
                                        #   in Loop: Header=BB6_5 Depth=1
	movl	%r12d, %edi
	movq	%r9, 24(%rsp)                   # 8-byte Spill
	movq	%r10, 40(%rsp)                  # 8-byte Spill
	callq	"utf_chars::codes::utf8::missing_after"
	leaq	.Lstatic.7(%rip), %rdx
	movq	40(%rsp), %r10                  # 8-byte Reload
	movq	24(%rsp), %r9                   # 8-byte Reload
	movq	8(%rsp), %r8                    # 8-byte Reload
	cmpq	%rax, %rbp
	ja	.LBB6_11
# %bb.10:                               #   in Loop: Header=BB6_5 Depth=1
	xorl	%eax, %eax
	jmp	.LBB6_25
.LBB6_19:                               # %arm.2.i161
                                        #   in Loop: Header=BB6_5 Depth=1
                                        # kill: def $edi killed $edi killed $rdi
.LBB6_16:                               # %arm.8.i
                                        #   in Loop: Header=BB6_5 Depth=1
	movq	%r9, %rbx
	movq	%r10, %r12
	callq	"utf_base::table::walks::error_of_value"
	movq	%r12, %r10
	movq	%rbx, %r9
	movq	8(%rsp), %r8                    # 8-byte Reload
                                        # kill: def $al killed $al def $eax
	jmp	.LBB6_25
.LBB6_32:                               # %arm.12
	movq	232(%rsp), %rax
	movq	32(%rsp), %rcx                  # 8-byte Reload
	movq	$1, (%rcx)
	movq	%rax, 8(%rcx)
	movaps	240(%rsp), %xmm0
	movaps	256(%rsp), %xmm1
	movaps	272(%rsp), %xmm2
	movaps	288(%rsp), %xmm3
	movups	%xmm0, 16(%rcx)
	movups	%xmm1, 32(%rcx)
	movups	%xmm2, 48(%rcx)
	movups	%xmm3, 64(%rcx)
	movaps	304(%rsp), %xmm0
	jmp	.LBB6_33
.LBB6_3:
	xorl	%r9d, %r9d
.LBB6_56:                               # %after.1
	movq	%r9, %rbx
	leaq	128(%rsp), %rdi
	leaq	400(%rsp), %rsi
	callq	"text_programs::programs::lines::Lines::write_to::<#cdc8ff12022c16a2>"
	cmpb	$0, 128(%rsp)
	je	.LBB6_57
# %bb.58:                               # %arm.15
	movq	136(%rsp), %rax
	movq	32(%rsp), %rcx                  # 8-byte Reload
	movq	$1, (%rcx)
	movq	%rax, 8(%rcx)
	movaps	144(%rsp), %xmm0
	movaps	160(%rsp), %xmm1
	movaps	176(%rsp), %xmm2
	movaps	192(%rsp), %xmm3
	movups	%xmm0, 16(%rcx)
	movups	%xmm1, 32(%rcx)
	movups	%xmm2, 48(%rcx)
	movups	%xmm3, 64(%rcx)
	movaps	208(%rsp), %xmm0
.LBB6_33:                               # %common.ret
	movups	%xmm0, 80(%rcx)
	jmp	.LBB6_34
.LBB6_57:                               # %arm.14
	movq	32(%rsp), %rax                  # 8-byte Reload
	movq	$0, (%rax)
	movq	%rbx, 8(%rax)
	movaps	320(%rsp), %xmm0
	movaps	336(%rsp), %xmm1
	movaps	352(%rsp), %xmm2
	movaps	368(%rsp), %xmm3
	movups	%xmm0, 16(%rax)
	movups	%xmm1, 32(%rax)
	movups	%xmm2, 48(%rax)
	movups	%xmm3, 64(%rax)
	movaps	384(%rsp), %xmm0
	movups	%xmm0, 80(%rax)
.LBB6_34:                               # %common.ret
	addq	$65944, %rsp                    # imm = 0x10198
	.cfi_def_cfa_offset 56
	popq	%rbx
	.cfi_def_cfa_offset 48
	popq	%r12
	.cfi_def_cfa_offset 40
	popq	%r13
	.cfi_def_cfa_offset 32
	popq	%r14
	.cfi_def_cfa_offset 24
	popq	%r15
	.cfi_def_cfa_offset 16
	popq	%rbp
	.cfi_def_cfa_offset 8
	retq
.LBB6_26:                               # %join.4.i
	.cfi_def_cfa_offset 66000
	ud2
.Lfunc_end6:
	.size	"text_programs::programs::listing::write_listing::<#cdc8ff12022c16a2>", .Lfunc_end6-"text_programs::programs::listing::write_listing::<#cdc8ff12022c16a2>"
	.cfi_endproc
                                        # -- End function
	.section	".text.unlikely.utf_chars::codes::utf8::missing_after","ax",@progbits
	.p2align	4                               # -- Begin function utf_chars::codes::utf8::missing_after
	.type	"utf_chars::codes::utf8::missing_after",@function
"utf_chars::codes::utf8::missing_after": # @"utf_chars::codes::utf8::missing_after"
	.cfi_startproc
# %bb.0:                                # %start
	movzbl	%dil, %eax
	leaq	".Lswitch.table.utf_chars::codes::utf8::missing_after"(%rip), %rcx
	movq	(%rcx,%rax,8), %rax
	retq
.Lfunc_end7:
	.size	"utf_chars::codes::utf8::missing_after", .Lfunc_end7-"utf_chars::codes::utf8::missing_after"
	.cfi_endproc
                                        # -- End function
	.section	".text.unlikely.utf_base::table::walks::error_of_value","ax",@progbits
	.p2align	4                               # -- Begin function utf_base::table::walks::error_of_value
	.type	"utf_base::table::walks::error_of_value",@function
"utf_base::table::walks::error_of_value": # @"utf_base::table::walks::error_of_value"
	.cfi_startproc
# %bb.0:                                # %start
	movzbl	%dil, %eax
	leaq	".Lswitch.table.utf_base::table::walks::error_of_value"(%rip), %rcx
	movzbl	(%rax,%rcx), %eax
	retq
.Lfunc_end8:
	.size	"utf_base::table::walks::error_of_value", .Lfunc_end8-"utf_base::table::walks::error_of_value"
	.cfi_endproc
                                        # -- End function
	.section	".text.text_programs::programs::lines::Lines::push_digits","ax",@progbits
	.p2align	4                               # -- Begin function text_programs::programs::lines::Lines::push_digits
	.type	"text_programs::programs::lines::Lines::push_digits",@function
"text_programs::programs::lines::Lines::push_digits": # @"text_programs::programs::lines::Lines::push_digits"
	.cfi_startproc
# %bb.0:                                # %start
	movq	%rsi, %rdx
	xorps	%xmm0, %xmm0
	movaps	%xmm0, -24(%rsp)
	movaps	%xmm0, -40(%rsp)
	movq	$0, -8(%rsp)
	movq	$-1, %rsi
	.p2align	4
.LBB9_1:                                # %join.5.i
                                        # =>This Inner Loop Header: Depth=1
	movq	%rdx, %rcx
	movabsq	$-3689348814741910323, %rdx     # imm = 0xCCCCCCCCCCCCCCCD
	movq	%rcx, %rax
	mulq	%rdx
	shrq	$3, %rdx
	leal	(%rdx,%rdx), %eax
	leal	(%rax,%rax,4), %eax
	movl	%ecx, %r8d
	subl	%eax, %r8d
	orb	$48, %r8b
	movb	%r8b, -20(%rsp,%rsi)
	decq	%rsi
	cmpq	$99, %rcx
	ja	.LBB9_1
# %bb.2:                                # %"text_programs::programs::lines::fill_decimal.exit"
	orb	$48, %dl
	movb	%dl, -20(%rsp,%rsi)
	movq	65536(%rdi), %rax
	movl	-4(%rsp,%rsi), %ecx
	movl	%ecx, 16(%rdi,%rax)
	movups	-20(%rsp,%rsi), %xmm0
	movups	%xmm0, (%rdi,%rax)
	subq	%rsi, %rax
	movq	%rax, 65536(%rdi)
	retq
.Lfunc_end9:
	.size	"text_programs::programs::lines::Lines::push_digits", .Lfunc_end9-"text_programs::programs::lines::Lines::push_digits"
	.cfi_endproc
                                        # -- End function
	.section	".text.unlikely.text_programs::programs::lines::Lines::write_to::<#cdc8ff12022c16a2>","ax",@progbits
	.p2align	4                               # -- Begin function text_programs::programs::lines::Lines::write_to::<#cdc8ff12022c16a2>
	.type	"text_programs::programs::lines::Lines::write_to::<#cdc8ff12022c16a2>",@function
"text_programs::programs::lines::Lines::write_to::<#cdc8ff12022c16a2>": # @"text_programs::programs::lines::Lines::write_to::<#cdc8ff12022c16a2>"
	.cfi_startproc
# %bb.0:                                # %start
	pushq	%rbp
	.cfi_def_cfa_offset 16
	pushq	%r15
	.cfi_def_cfa_offset 24
	pushq	%r14
	.cfi_def_cfa_offset 32
	pushq	%r13
	.cfi_def_cfa_offset 40
	pushq	%r12
	.cfi_def_cfa_offset 48
	pushq	%rbx
	.cfi_def_cfa_offset 56
	subq	$440, %rsp                      # imm = 0x1B8
	.cfi_def_cfa_offset 496
	.cfi_offset %rbx, -56
	.cfi_offset %r12, -48
	.cfi_offset %r13, -40
	.cfi_offset %r14, -32
	.cfi_offset %r15, -24
	.cfi_offset %rbp, -16
	movq	%rsi, %r15
	movq	%rdi, 8(%rsp)                   # 8-byte Spill
	movq	65536(%rsi), %r13
	testq	%r13, %r13
	je	.LBB10_9
# %bb.1:                                # %join.5.i.lr.ph
	leaq	24(%rsp), %rbp
	xorl	%ebx, %ebx
	.p2align	4
.LBB10_2:                               # %join.5.i
                                        # =>This Inner Loop Header: Depth=1
	leaq	(%r15,%rbx), %rsi
	movq	%r13, %r14
	subq	%rbx, %r14
	movl	$1, %edi
	movq	%r14, %rdx
	callq	write@PLT
	movq	%rax, %r12
	testq	%rax, %rax
	js	.LBB10_3
# %bb.4:                                # %arm.5.i
                                        #   in Loop: Header=BB10_2 Depth=1
	cmpq	%r14, %r12
	cmovbq	%r12, %r14
	xorps	%xmm0, %xmm0
	movaps	%xmm0, 16(%rsp)
	movaps	%xmm0, 32(%rsp)
	movaps	%xmm0, 48(%rsp)
	movaps	%xmm0, 64(%rsp)
	movaps	%xmm0, 80(%rsp)
	jmp	.LBB10_5
	.p2align	4
.LBB10_3:                               # %arm.4.i
                                        #   in Loop: Header=BB10_2 Depth=1
	leaq	16(%rsp), %rdi
	callq	"std_io::io::error::last_error"
	movq	16(%rsp), %r14
	movups	(%rbp), %xmm0
	movups	16(%rbp), %xmm1
	movups	32(%rbp), %xmm2
	movups	48(%rbp), %xmm3
	movups	64(%rbp), %xmm4
	movaps	%xmm4, 336(%rsp)
	movaps	%xmm0, 272(%rsp)
	movaps	%xmm1, 288(%rsp)
	movaps	%xmm2, 304(%rsp)
	movaps	%xmm3, 320(%rsp)
	movaps	336(%rsp), %xmm0
	movaps	%xmm0, 80(%rsp)
	movaps	272(%rsp), %xmm0
	movaps	288(%rsp), %xmm1
	movaps	304(%rsp), %xmm2
	movaps	320(%rsp), %xmm3
	movaps	%xmm3, 64(%rsp)
	movaps	%xmm2, 48(%rsp)
	movaps	%xmm1, 32(%rsp)
	movaps	%xmm0, 16(%rsp)
.LBB10_5:                               # %"text_runs::counted::Counted::put::<#cdc8ff12022c16a2>.exit"
                                        #   in Loop: Header=BB10_2 Depth=1
	movaps	80(%rsp), %xmm0
	movaps	%xmm0, 416(%rsp)
	movaps	16(%rsp), %xmm1
	movaps	32(%rsp), %xmm2
	movaps	48(%rsp), %xmm3
	movaps	64(%rsp), %xmm4
	movaps	%xmm1, 192(%rsp)
	movaps	%xmm2, 208(%rsp)
	movaps	%xmm3, 224(%rsp)
	movaps	%xmm4, 240(%rsp)
	movaps	%xmm0, 256(%rsp)
	testq	%r12, %r12
	js	.LBB10_11
# %bb.6:                                # %arm.6.i
                                        #   in Loop: Header=BB10_2 Depth=1
	testq	%r14, %r14
	je	.LBB10_7
# %bb.8:                                # %join.12.i
                                        #   in Loop: Header=BB10_2 Depth=1
	addq	%r14, %rbx
	cmpq	%r13, %rbx
	jb	.LBB10_2
.LBB10_9:                               # %arm.1
	movq	$0, 65536(%r15)
	movq	8(%rsp), %rax                   # 8-byte Reload
	movb	$0, (%rax)
	xorps	%xmm0, %xmm0
	movups	%xmm0, 8(%rax)
	movups	%xmm0, 24(%rax)
	movups	%xmm0, 40(%rax)
	movups	%xmm0, 56(%rax)
	movups	%xmm0, 72(%rax)
	movq	$0, 88(%rax)
	jmp	.LBB10_10
.LBB10_11:                              # %arm.7.i
	movl	%r14d, %ecx
	shrl	$8, %ecx
	movq	%r14, %rax
	shrq	$16, %rax
	movaps	256(%rsp), %xmm0
	movaps	%xmm0, 176(%rsp)
	movaps	192(%rsp), %xmm0
	movaps	208(%rsp), %xmm1
	movaps	224(%rsp), %xmm2
	movaps	240(%rsp), %xmm3
	movaps	%xmm3, 160(%rsp)
	movaps	%xmm2, 144(%rsp)
	movaps	%xmm1, 128(%rsp)
	movaps	%xmm0, 112(%rsp)
	jmp	.LBB10_12
.LBB10_7:                               # %then.10.i
	xorps	%xmm0, %xmm0
	movaps	%xmm0, 176(%rsp)
	movaps	%xmm0, 160(%rsp)
	movaps	%xmm0, 144(%rsp)
	movaps	%xmm0, 128(%rsp)
	movaps	%xmm0, 112(%rsp)
	movb	$23, %cl
	movb	$1, %r14b
	xorl	%eax, %eax
.LBB10_12:                              # %arm.2
	movq	8(%rsp), %rdx                   # 8-byte Reload
	movb	$1, (%rdx)
	movb	%r14b, 8(%rdx)
	movb	%cl, 9(%rdx)
	movl	%eax, 10(%rdx)
	shrq	$32, %rax
	movw	%ax, 14(%rdx)
	movaps	112(%rsp), %xmm0
	movaps	128(%rsp), %xmm1
	movaps	144(%rsp), %xmm2
	movaps	160(%rsp), %xmm3
	movups	%xmm0, 16(%rdx)
	movups	%xmm1, 32(%rdx)
	movups	%xmm2, 48(%rdx)
	movups	%xmm3, 64(%rdx)
	movaps	176(%rsp), %xmm0
	movups	%xmm0, 80(%rdx)
.LBB10_10:                              # %arm.1
	addq	$440, %rsp                      # imm = 0x1B8
	.cfi_def_cfa_offset 56
	popq	%rbx
	.cfi_def_cfa_offset 48
	popq	%r12
	.cfi_def_cfa_offset 40
	popq	%r13
	.cfi_def_cfa_offset 32
	popq	%r14
	.cfi_def_cfa_offset 24
	popq	%r15
	.cfi_def_cfa_offset 16
	popq	%rbp
	.cfi_def_cfa_offset 8
	retq
.Lfunc_end10:
	.size	"text_programs::programs::lines::Lines::write_to::<#cdc8ff12022c16a2>", .Lfunc_end10-"text_programs::programs::lines::Lines::write_to::<#cdc8ff12022c16a2>"
	.cfi_endproc
                                        # -- End function
	.section	".text.text_programs::programs::pieces_program::merge_all::<#e3b2a9d4d2861db8>","ax",@progbits
	.p2align	4                               # -- Begin function text_programs::programs::pieces_program::merge_all::<#e3b2a9d4d2861db8>
	.type	"text_programs::programs::pieces_program::merge_all::<#e3b2a9d4d2861db8>",@function
"text_programs::programs::pieces_program::merge_all::<#e3b2a9d4d2861db8>": # @"text_programs::programs::pieces_program::merge_all::<#e3b2a9d4d2861db8>"
	.cfi_startproc
# %bb.0:                                # %start
	pushq	%rbp
	.cfi_def_cfa_offset 16
	pushq	%r15
	.cfi_def_cfa_offset 24
	pushq	%r14
	.cfi_def_cfa_offset 32
	pushq	%r13
	.cfi_def_cfa_offset 40
	pushq	%r12
	.cfi_def_cfa_offset 48
	pushq	%rbx
	.cfi_def_cfa_offset 56
	subq	$88, %rsp
	.cfi_def_cfa_offset 144
	.cfi_offset %rbx, -56
	.cfi_offset %r12, -48
	.cfi_offset %r13, -40
	.cfi_offset %r14, -32
	.cfi_offset %r15, -24
	.cfi_offset %rbp, -16
	movq	%rdx, %r15
	movq	%rsi, %r14
	movq	%rdi, 32(%rsp)                  # 8-byte Spill
	xorps	%xmm0, %xmm0
	movups	%xmm0, 63(%rsp)
	movaps	%xmm0, 48(%rsp)
	leaq	7(%rsp), %r10
	movq	%r10, 8(%rsp)
	movups	%xmm0, 16(%rsp)
	xorl	%eax, %eax
	xorl	%r13d, %r13d
	xorl	%r11d, %r11d
	testb	$1, %r11b
	jne	.LBB11_3
	.p2align	4
.LBB11_2:                               # %loop.2.i
	cmpl	$16777216, %eax                 # imm = 0x1000000
	jae	.LBB11_3
# %bb.7:                                # %join.3.i.i
	testq	%r15, %r15
	je	.LBB11_50
# %bb.8:                                # %arm.6.i3.i
	decq	%r15
	movzbl	(%r14), %ebx
	incq	%r14
	jmp	.LBB11_9
	.p2align	4
.LBB11_3:                               # %then.1.i.i
	movl	%eax, %ecx
	andl	$-16777216, %ecx                # imm = 0xFF000000
	cmpl	$16777216, %ecx                 # imm = 0x1000000
	je	.LBB11_4
# %bb.5:                                # %after.1.i.i
	cmpl	$16777216, %eax                 # imm = 0x1000000
	jb	.LBB11_50
# %bb.6:                                # %join.13.i.i
	movl	%eax, %ebx
	movl	%eax, %edi
	movq	%r10, %rbp
	movq	%r15, %r12
	movq	%r14, %r15
	movl	%r11d, %r14d
	callq	"encode_unicode::held_bytes::without_first"
	movl	%r14d, %r11d
	movq	%r15, %r14
	movq	%r12, %r15
	movq	%rbp, %r10
                                        # kill: def $eax killed $eax def $rax
	jmp	.LBB11_9
	.p2align	4
.LBB11_4:                               # %then.5.i.i
	movl	%eax, %ebx
	xorl	%eax, %eax
	.p2align	4
.LBB11_9:                               # %arm.2.i.i
	movzbl	%bl, %ecx
	leaq	.Lstatic.7(%rip), %r8
	movzbl	(%rcx,%r8), %edi
	leaq	.Lstatic.8(%rip), %rsi
	movzbl	(%rdi,%rsi), %edx
	cmpq	$13, %rdx
	jne	.LBB11_11
# %bb.10:                               # %then.1.i20.i
	andb	$127, %bl
	xorl	%ecx, %ecx
	xorl	%edx, %edx
	xorl	%r9d, %r9d
.LBB11_42:                              # %arm.6.i.i
	movzbl	%dl, %edx
	shll	$16, %edx
	orl	%r9d, %edx
	movzbl	%cl, %ecx
	shll	$8, %ecx
	movzbl	%bl, %ebx
	orl	%ecx, %ebx
	orl	%edx, %ebx
	xorl	%ebp, %ebp
	cmpq	%r13, 24(%rsp)
	jne	.LBB11_46
	jmp	.LBB11_44
	.p2align	4
.LBB11_11:                              # %join.3.i17.i
	cmpb	$13, %dl
	jae	.LBB11_12
# %bb.13:                               # %join.6.i.i
	xorl	%ecx, %ecx
	testb	$1, %r11b
	je	.LBB11_15
# %bb.14:
	xorl	%ecx, %ecx
	movb	$1, %r11b
	jmp	.LBB11_40
	.p2align	4
.LBB11_12:                              # %then.4.i.i
	decb	%dil
	xorl	%ecx, %ecx
	cmpb	$3, %dil
	adcb	$1, %cl
.LBB11_40:                              # %arm.5.i.i
	movzbl	%cl, %ebx
	movb	$1, %bpl
	cmpq	%r13, 24(%rsp)
	je	.LBB11_44
.LBB11_46:                              # %"core::result::ResultTry::branch::<#0788f82b7f7347db>.exit.i"
	leaq	(,%r13,4), %rcx
	addq	%r13, %rcx
	movb	%bpl, (%r10,%rcx)
	movl	%ebx, 1(%r10,%rcx)
	incq	%r13
	movq	%r13, 16(%rsp)
	testb	$1, %r11b
	je	.LBB11_2
	jmp	.LBB11_3
.LBB11_15:                              # %join.9.i.i
	testq	%r15, %r15
	je	.LBB11_16
# %bb.17:                               # %arm.2.i31.i
	leaq	1(%r14), %r12
	leaq	-1(%r15), %rbp
	movzbl	(%r14), %ecx
	movzbl	(%rcx,%r8), %edi
	shll	$4, %edx
	addq	%rsi, %rdx
	movzbl	(%rdi,%rdx), %edi
	cmpq	$12, %rdi
	ja	.LBB11_34
# %bb.18:                               # %then.5.i43.i
	testq	%rbp, %rbp
	je	.LBB11_19
# %bb.21:                               # %arm.2.i52.i
	leaq	2(%r14), %r12
	leaq	-2(%r15), %rbp
	movzbl	1(%r14), %edx
	movzbl	(%rdx,%r8), %r9d
	shll	$4, %edi
	addq	%rsi, %rdi
	movzbl	(%r9,%rdi), %edi
	cmpq	$12, %rdi
	ja	.LBB11_27
# %bb.22:                               # %then.5.i75.i
	testq	%rbp, %rbp
	je	.LBB11_23
# %bb.24:                               # %arm.2.i93.i
	addq	$-3, %r15
	movzbl	2(%r14), %r9d
	addq	$3, %r14
	movzbl	(%r9,%r8), %r8d
	shll	$4, %edi
	addq	%rdi, %rsi
	movzbl	(%r8,%rsi), %esi
	cmpb	$13, %sil
	jne	.LBB11_25
# %bb.41:                               # %join.7.i104.i
	andb	$7, %bl
	orb	$-16, %bl
	shll	$24, %r9d
	jmp	.LBB11_42
.LBB11_44:                              # %"std_alloc::vec::Vec::grow::<#5ddfc3724c8523c7>.exit.i.i"
	movq	%r15, 40(%rsp)                  # 8-byte Spill
	movq	%r14, %r15
	movl	%r11d, %r14d
	movq	%rax, %r12
	leaq	8(%rsp), %rdi
	callq	"std_alloc::vec::Vec::grow_amortized::<#5ddfc3724c8523c7>"
	testb	%al, %al
	je	.LBB11_47
# %bb.45:                               # %"std_alloc::vec::Vec::grow::<#5ddfc3724c8523c7>.exit.join.3_crit_edge.i.i"
	movq	8(%rsp), %r10
	movq	16(%rsp), %r13
	movq	%r12, %rax
	movl	%r14d, %r11d
	movq	%r15, %r14
	movq	40(%rsp), %r15                  # 8-byte Reload
	jmp	.LBB11_46
.LBB11_16:
	xorl	%r15d, %r15d
	xorl	%eax, %eax
	movb	$1, %r11b
	jmp	.LBB11_40
.LBB11_34:                              # %join.7.i.i
	cmpl	$13, %edi
	jne	.LBB11_35
# %bb.37:                               # %join.10.i.i
	andb	$31, %bl
	orb	$-64, %bl
	xorl	%edx, %edx
	jmp	.LBB11_33
.LBB11_35:                              # %then.8.i.i
	leal	16777216(%rcx), %eax
	cmpl	$16, %edi
	jne	.LBB11_36
.LBB11_30:
	movb	$3, %cl
.LBB11_31:                              # %arm.5.i.i
	xorl	%r11d, %r11d
	movq	%r12, %r14
	movq	%rbp, %r15
	jmp	.LBB11_40
.LBB11_27:                              # %join.7.i63.i
	cmpl	$13, %edi
	jne	.LBB11_28
# %bb.32:                               # %join.10.i65.i
	andb	$15, %bl
	orb	$-32, %bl
.LBB11_33:                              # %arm.6.i.i
	xorl	%r9d, %r9d
	movq	%r12, %r14
	movq	%rbp, %r15
	jmp	.LBB11_42
.LBB11_19:                              # %arm.1.i79.i
	leal	16777216(%rcx), %eax
	jmp	.LBB11_20
.LBB11_28:                              # %then.8.i67.i
	shll	$8, %edx
	leal	(%rcx,%rdx), %eax
	addl	$33554432, %eax                 # imm = 0x2000000
	cmpl	$16, %edi
	je	.LBB11_30
.LBB11_36:                              # %arm.2.i.i69.i
                                        # kill: def $edi killed $edi killed $rdi
	movq	%rax, %rbx
	movq	%r10, %r14
	callq	"utf_base::table::walks::error_of_value"
	movq	%r14, %r10
	movl	%eax, %ecx
	movq	%rbx, %rax
	jmp	.LBB11_31
.LBB11_25:                              # %then.5.i109.i
	shll	$16, %r9d
	shll	$8, %edx
	orl	%ecx, %edx
	leal	(%r9,%rdx), %eax
	addl	$50331648, %eax                 # imm = 0x3000000
	cmpb	$16, %sil
	jne	.LBB11_38
# %bb.26:
	movb	$3, %cl
.LBB11_39:                              # %arm.5.i.i
	xorl	%r11d, %r11d
	jmp	.LBB11_40
.LBB11_23:                              # %arm.1.i118.i
	shll	$8, %edx
	leal	(%rdx,%rcx), %eax
	addl	$33554432, %eax                 # imm = 0x2000000
.LBB11_20:                              # %arm.5.i.i
	xorl	%ecx, %ecx
	movq	%r12, %r14
	xorl	%r15d, %r15d
	movb	$1, %r11b
	jmp	.LBB11_40
.LBB11_38:                              # %arm.2.i.i112.i
	movzbl	%sil, %edi
	movq	%rax, %rbx
	movq	%r10, %rbp
	callq	"utf_base::table::walks::error_of_value"
	movq	%rbp, %r10
	movl	%eax, %ecx
	movq	%rbx, %rax
	jmp	.LBB11_39
.LBB11_50:                              # %arm.1
	movq	24(%rsp), %rax
	movq	%rax, 71(%rsp)
	movups	8(%rsp), %xmm0
	movups	%xmm0, 55(%rsp)
	movq	32(%rsp), %rcx                  # 8-byte Reload
	movb	$0, (%rcx)
	movups	55(%rsp), %xmm0
	movups	%xmm0, 8(%rcx)
	movq	71(%rsp), %rax
	movq	%rax, 24(%rcx)
.LBB11_51:                              # %common.ret
	addq	$88, %rsp
	.cfi_def_cfa_offset 56
	popq	%rbx
	.cfi_def_cfa_offset 48
	popq	%r12
	.cfi_def_cfa_offset 40
	popq	%r13
	.cfi_def_cfa_offset 32
	popq	%r14
	.cfi_def_cfa_offset 24
	popq	%r15
	.cfi_def_cfa_offset 16
	popq	%rbp
	.cfi_def_cfa_offset 8
	retq
.LBB11_47:                              # %arm.9.i
	.cfi_def_cfa_offset 144
	cmpq	$0, 24(%rsp)
	je	.LBB11_49
# %bb.48:                               # %then.1.i.i.i.i
	movq	8(%rsp), %rdi
	callq	rattle_dealloc@PLT
.LBB11_49:                              # %arm.2
	movq	32(%rsp), %rax                  # 8-byte Reload
	movb	$1, (%rax)
	xorps	%xmm0, %xmm0
	movups	%xmm0, 8(%rax)
	movq	$0, 24(%rax)
	jmp	.LBB11_51
.Lfunc_end11:
	.size	"text_programs::programs::pieces_program::merge_all::<#e3b2a9d4d2861db8>", .Lfunc_end11-"text_programs::programs::pieces_program::merge_all::<#e3b2a9d4d2861db8>"
	.cfi_endproc
                                        # -- End function
	.section	".text.unlikely.encode_unicode::held_bytes::without_first","ax",@progbits
	.p2align	4                               # -- Begin function encode_unicode::held_bytes::without_first
	.type	"encode_unicode::held_bytes::without_first",@function
"encode_unicode::held_bytes::without_first": # @"encode_unicode::held_bytes::without_first"
	.cfi_startproc
# %bb.0:                                # %start
	movl	%edi, %eax
	andl	$-16777216, %eax                # imm = 0xFF000000
	shrl	$8, %edi
	movzwl	%di, %ecx
	addl	%ecx, %eax
	addl	$-16777216, %eax                # imm = 0xFF000000
	retq
.Lfunc_end12:
	.size	"encode_unicode::held_bytes::without_first", .Lfunc_end12-"encode_unicode::held_bytes::without_first"
	.cfi_endproc
                                        # -- End function
	.section	".text.unlikely.std_alloc::vec::Vec::grow_amortized::<#5ddfc3724c8523c7>","ax",@progbits
	.p2align	4                               # -- Begin function std_alloc::vec::Vec::grow_amortized::<#5ddfc3724c8523c7>
	.type	"std_alloc::vec::Vec::grow_amortized::<#5ddfc3724c8523c7>",@function
"std_alloc::vec::Vec::grow_amortized::<#5ddfc3724c8523c7>": # @"std_alloc::vec::Vec::grow_amortized::<#5ddfc3724c8523c7>"
	.cfi_startproc
# %bb.0:                                # %start
	movq	8(%rdi), %rax
	cmpq	$-1, %rax
	je	.LBB13_5
# %bb.1:                                # %join.3
	pushq	%r14
	.cfi_def_cfa_offset 16
	pushq	%rbx
	.cfi_def_cfa_offset 24
	pushq	%rax
	.cfi_def_cfa_offset 32
	.cfi_offset %rbx, -24
	.cfi_offset %r14, -16
	movq	16(%rdi), %rcx
	cmpq	$4, %rax
	movl	$3, %ebx
	cmovaeq	%rax, %rbx
	incq	%rbx
	movq	%rcx, %rsi
	shrq	$62, %rsi
	leaq	(%rcx,%rcx), %rdx
	cmpq	%rdx, %rbx
	cmovaq	%rbx, %rdx
	testq	%rsi, %rsi
	cmoveq	%rdx, %rbx
	movabsq	$1844674407370955161, %rsi      # imm = 0x1999999999999999
	cmpq	%rsi, %rbx
	ja	.LBB13_6
# %bb.2:                                # %join.3.i
	testq	%rcx, %rcx
	je	.LBB13_8
# %bb.3:                                # %then.1.i.i
	movq	%rdi, %r14
	movq	(%rdi), %rdi
	leaq	(%rax,%rax,4), %rsi
	leaq	(%rbx,%rbx,4), %rdx
	movl	$1, %ecx
	callq	rattle_realloc@PLT
	testb	$1, %al
	je	.LBB13_6
.LBB13_9:                               # %arm.5.i
	movq	%rdx, (%r14)
	movq	%rbx, 16(%r14)
	movb	$1, %al
	addq	$8, %rsp
	.cfi_def_cfa_offset 24
	popq	%rbx
	.cfi_def_cfa_offset 16
	popq	%r14
	.cfi_def_cfa_offset 8
	.cfi_restore %rbx
	.cfi_restore %r14
                                        # kill: def $al killed $al killed $eax
	retq
.LBB13_5:
	xorl	%eax, %eax
                                        # kill: def $al killed $al killed $eax
	retq
.LBB13_8:                               # %"std_alloc::vec::resize::<#5ddfc3724c8523c7>.exit.i"
	.cfi_def_cfa_offset 32
	.cfi_offset %rbx, -24
	.cfi_offset %r14, -16
	movq	%rdi, %r14
	leaq	(%rdx,%rdx,4), %rdi
	movl	$1, %esi
	callq	rattle_alloc@PLT
	testb	$1, %al
	jne	.LBB13_9
.LBB13_6:
	xorl	%eax, %eax
	addq	$8, %rsp
	.cfi_def_cfa_offset 24
	popq	%rbx
	.cfi_def_cfa_offset 16
	popq	%r14
	.cfi_def_cfa_offset 8
	.cfi_restore %rbx
	.cfi_restore %r14
                                        # kill: def $al killed $al killed $eax
	retq
.Lfunc_end13:
	.size	"std_alloc::vec::Vec::grow_amortized::<#5ddfc3724c8523c7>", .Lfunc_end13-"std_alloc::vec::Vec::grow_amortized::<#5ddfc3724c8523c7>"
	.cfi_endproc
                                        # -- End function
	.section	".text.text_programs::programs::listing::write_merged::<#cdc8ff12022c16a2>","ax",@progbits
	.p2align	4                               # -- Begin function text_programs::programs::listing::write_merged::<#cdc8ff12022c16a2>
	.type	"text_programs::programs::listing::write_merged::<#cdc8ff12022c16a2>",@function
"text_programs::programs::listing::write_merged::<#cdc8ff12022c16a2>": # @"text_programs::programs::listing::write_merged::<#cdc8ff12022c16a2>"
	.cfi_startproc
# %bb.0:                                # %start
	pushq	%rbp
	.cfi_def_cfa_offset 16
	pushq	%r15
	.cfi_def_cfa_offset 24
	pushq	%r14
	.cfi_def_cfa_offset 32
	pushq	%r13
	.cfi_def_cfa_offset 40
	pushq	%r12
	.cfi_def_cfa_offset 48
	pushq	%rbx
	.cfi_def_cfa_offset 56
	movq	%rsp, %r11
	subq	$64512, %r11                    # imm = 0xFC00
	.cfi_def_cfa_register %r11
	.cfi_adjust_cfa_offset 64512
.LBB14_1:                               # %start
                                        # =>This Inner Loop Header: Depth=1
	subq	$3072, %rsp                     # imm = 0xC00
	movq	$0, (%rsp)
	cmpq	%r11, %rsp
	jne	.LBB14_1
# %bb.2:                                # %start
	subq	$1304, %rsp                     # imm = 0x518
	.cfi_def_cfa_register %rsp
	.cfi_def_cfa_offset 65872
	.cfi_offset %rbx, -56
	.cfi_offset %r12, -48
	.cfi_offset %r13, -40
	.cfi_offset %r14, -32
	.cfi_offset %r15, -24
	.cfi_offset %rbp, -16
	movq	%rdx, %r14
	movq	%rsi, %r15
	movq	%rdi, %rbx
	xorps	%xmm0, %xmm0
	movaps	%xmm0, 176(%rsp)
	movaps	%xmm0, 192(%rsp)
	movaps	%xmm0, 208(%rsp)
	movaps	%xmm0, 224(%rsp)
	movaps	%xmm0, 240(%rsp)
	movaps	%xmm0, 256(%rsp)
	movaps	%xmm0, 80(%rsp)
	movaps	%xmm0, 96(%rsp)
	movaps	%xmm0, 112(%rsp)
	movaps	%xmm0, 128(%rsp)
	movaps	%xmm0, 144(%rsp)
	movaps	%xmm0, 160(%rsp)
	leaq	272(%rsp), %rdi
	xorl	%r12d, %r12d
	movl	$65544, %edx                    # imm = 0x10008
	xorl	%esi, %esi
	callq	memset@PLT
	testq	%r14, %r14
	je	.LBB14_18
# %bb.3:                                # %join.6.i.preheader
	incq	%r15
	xorl	%r12d, %r12d
	xorl	%ebp, %ebp
	jmp	.LBB14_4
	.p2align	4
.LBB14_16:                              # %switch.lookup
                                        #   in Loop: Header=BB14_4 Depth=1
	leaq	".Lswitch.table.text_programs::programs::listing::write_merged::<#cdc8ff12022c16a2>"(%rip), %rcx
	movzbl	%al, %eax
	shll	$3, %eax
	movq	(%rax,%rcx), %rdx
	leaq	".Lswitch.table.text_programs::programs::listing::write_merged::<#cdc8ff12022c16a2>.144"(%rip), %rcx
	movq	(%rax,%rcx), %rsi
	movq	65808(%rsp), %rbp
	leaq	(%rsp,%rbp), %rdi
	addq	$272, %rdi                      # imm = 0x110
	addq	%rdx, %rbp
	callq	memcpy@PLT
.LBB14_17:                              # %"text_programs::programs::entries::ResultUtf8CharUtf8ErrorEntry::push_to.exit.i"
                                        #   in Loop: Header=BB14_4 Depth=1
	movb	$10, 272(%rsp,%rbp)
	incq	%rbp
	movq	%rbp, 65808(%rsp)
	andl	$1, %r13d
	addq	%r13, %r12
	addq	$5, %r15
	decq	%r14
	je	.LBB14_18
.LBB14_4:                               # %join.6.i
                                        # =>This Inner Loop Header: Depth=1
	cmpq	$65457, %rbp                    # imm = 0xFFB1
	jae	.LBB14_5
.LBB14_7:                               # %join.10.i
                                        #   in Loop: Header=BB14_4 Depth=1
	movzbl	-1(%r15), %r13d
	movl	(%r15), %eax
	testq	%r13, %r13
	jne	.LBB14_16
# %bb.8:                                # %arm.1.i.i.i
                                        #   in Loop: Header=BB14_4 Depth=1
	testb	%al, %al
	js	.LBB14_10
# %bb.9:                                # %then.2.i.i.i
                                        #   in Loop: Header=BB14_4 Depth=1
	andl	$127, %eax
	jmp	.LBB14_15
.LBB14_10:                              # %join.4.i.i.i
                                        #   in Loop: Header=BB14_4 Depth=1
	movl	%eax, %ecx
	shrl	$8, %ecx
	cmpb	$-33, %al
	ja	.LBB14_12
# %bb.11:                               # %then.5.i.i.i
                                        #   in Loop: Header=BB14_4 Depth=1
	andl	$31, %eax
	shll	$6, %eax
	andl	$63, %ecx
	orl	%eax, %ecx
	movl	%ecx, %eax
	jmp	.LBB14_15
.LBB14_12:                              # %join.7.i.i.i
                                        #   in Loop: Header=BB14_4 Depth=1
	movl	%eax, %esi
	shrl	$16, %esi
	movl	%eax, %edx
	shll	$12, %edx
	andl	$63, %ecx
	shll	$6, %ecx
	andl	$63, %esi
	cmpb	$-17, %al
	ja	.LBB14_14
# %bb.13:                               # %then.8.i.i.i
                                        #   in Loop: Header=BB14_4 Depth=1
	andl	$61440, %edx                    # imm = 0xF000
	orl	%esi, %edx
	orl	%ecx, %edx
	movl	%edx, %eax
	jmp	.LBB14_15
.LBB14_5:                               # %then.8.i
                                        #   in Loop: Header=BB14_4 Depth=1
	leaq	176(%rsp), %rdi
	leaq	272(%rsp), %rsi
	callq	"text_programs::programs::lines::Lines::write_to::<#cdc8ff12022c16a2>"
	cmpb	$0, 176(%rsp)
	je	.LBB14_7
	jmp	.LBB14_6
.LBB14_14:                              # %join.10.i.i.i
                                        #   in Loop: Header=BB14_4 Depth=1
	shrl	$24, %eax
	andl	$28672, %edx                    # imm = 0x7000
	orl	%esi, %edx
	orl	%ecx, %edx
	shll	$6, %edx
	andl	$63, %eax
	orl	%edx, %eax
	.p2align	4
.LBB14_15:                              # %"utf_chars::utf8_char::Utf8Char::scalar.exit.i.i"
                                        #   in Loop: Header=BB14_4 Depth=1
	movl	%eax, %ecx
	shrl	$16, %ecx
	leaq	.Lstatic.9(%rip), %rdx
	movzwl	(%rdx,%rcx,2), %ecx
	movzbl	%ah, %esi
	movzwl	(%rdx,%rsi,2), %esi
	movzbl	%al, %eax
	movzwl	(%rdx,%rax,2), %eax
	movq	65808(%rsp), %rdx
	leaq	6(%rdx), %rbp
	movw	%cx, 272(%rsp,%rdx)
	movw	%si, 274(%rsp,%rdx)
	movw	%ax, 276(%rsp,%rdx)
	jmp	.LBB14_17
.LBB14_18:                              # %after.1.i
	leaq	80(%rsp), %rdi
	leaq	272(%rsp), %rsi
	callq	"text_programs::programs::lines::Lines::write_to::<#cdc8ff12022c16a2>"
	cmpb	$0, 80(%rsp)
	je	.LBB14_19
# %bb.20:                               # %arm.16.i
	movq	88(%rsp), %r12
	movaps	96(%rsp), %xmm0
	movaps	%xmm0, (%rsp)
	movaps	112(%rsp), %xmm0
	movaps	%xmm0, 16(%rsp)
	movaps	128(%rsp), %xmm0
	movaps	%xmm0, 32(%rsp)
	movaps	144(%rsp), %xmm0
	movaps	%xmm0, 48(%rsp)
	movaps	160(%rsp), %xmm0
	jmp	.LBB14_21
.LBB14_6:                               # %arm.12.i
	movq	184(%rsp), %r12
	movaps	192(%rsp), %xmm0
	movaps	%xmm0, (%rsp)
	movaps	208(%rsp), %xmm0
	movaps	%xmm0, 16(%rsp)
	movaps	224(%rsp), %xmm0
	movaps	%xmm0, 32(%rsp)
	movaps	240(%rsp), %xmm0
	movaps	%xmm0, 48(%rsp)
	movaps	256(%rsp), %xmm0
.LBB14_21:                              # %"text_programs::programs::entries::write_entries::<#9b254750cbcc3b4e>.exit"
	movaps	%xmm0, 64(%rsp)
	movl	$1, %eax
	jmp	.LBB14_22
.LBB14_19:                              # %arm.15.i
	xorps	%xmm0, %xmm0
	movaps	%xmm0, 64(%rsp)
	movaps	%xmm0, 48(%rsp)
	movaps	%xmm0, 32(%rsp)
	movaps	%xmm0, 16(%rsp)
	movaps	%xmm0, (%rsp)
	xorl	%eax, %eax
.LBB14_22:                              # %"text_programs::programs::entries::write_entries::<#9b254750cbcc3b4e>.exit"
	movq	%rax, (%rbx)
	movq	%r12, 8(%rbx)
	movaps	(%rsp), %xmm0
	movaps	16(%rsp), %xmm1
	movaps	32(%rsp), %xmm2
	movaps	48(%rsp), %xmm3
	movups	%xmm0, 16(%rbx)
	movups	%xmm1, 32(%rbx)
	movups	%xmm2, 48(%rbx)
	movups	%xmm3, 64(%rbx)
	movaps	64(%rsp), %xmm0
	movups	%xmm0, 80(%rbx)
	addq	$65816, %rsp                    # imm = 0x10118
	.cfi_def_cfa_offset 56
	popq	%rbx
	.cfi_def_cfa_offset 48
	popq	%r12
	.cfi_def_cfa_offset 40
	popq	%r13
	.cfi_def_cfa_offset 32
	popq	%r14
	.cfi_def_cfa_offset 24
	popq	%r15
	.cfi_def_cfa_offset 16
	popq	%rbp
	.cfi_def_cfa_offset 8
	retq
.Lfunc_end14:
	.size	"text_programs::programs::listing::write_merged::<#cdc8ff12022c16a2>", .Lfunc_end14-"text_programs::programs::listing::write_merged::<#cdc8ff12022c16a2>"
	.cfi_endproc
                                        # -- End function
	.section	".text.unlikely.encode_unicode::decoding_iterators::back_scan::decode_few","ax",@progbits
	.p2align	4                               # -- Begin function encode_unicode::decoding_iterators::back_scan::decode_few
	.type	"encode_unicode::decoding_iterators::back_scan::decode_few",@function
"encode_unicode::decoding_iterators::back_scan::decode_few": # @"encode_unicode::decoding_iterators::back_scan::decode_few"
	.cfi_startproc
# %bb.0:                                # %start
	xorl	%r8d, %r8d
	leaq	.LJTI15_0(%rip), %rax
	movslq	(%rax,%rdx,4), %r9
	addq	%rax, %r9
	xorl	%eax, %eax
	xorl	%ecx, %ecx
	notrack		jmpq	*%r9
.LBB15_1:                               # %arm.2.i
	movzbl	(%rsi), %eax
	xorl	%ecx, %ecx
	xorl	%r8d, %r8d
	jmp	.LBB15_4
.LBB15_2:                               # %arm.3.i
	movzbl	(%rsi), %ecx
	movzbl	1(%rsi), %eax
	jmp	.LBB15_4
.LBB15_3:                               # %default.4.i
	movzbl	(%rsi), %r8d
	movzbl	1(%rsi), %ecx
	movzbl	2(%rsi), %eax
	shll	$8, %r8d
.LBB15_4:                               # %"encode_unicode::decoding_iterators::back_scan::padded.exit"
	movzbl	%al, %eax
	movl	%eax, %r10d
	shll	$24, %r10d
	movzbl	%cl, %r9d
	shll	$16, %r9d
	orl	%r10d, %r9d
	leal	(%r9,%r8), %ecx
	cmpl	$-1073741824, %ecx              # imm = 0xC0000000
	jge	.LBB15_12
# %bb.5:                                # %join.3.i
	movb	$2, %sil
	movb	$1, %cl
	cmpq	$1, %rdx
	je	.LBB15_23
# %bb.6:                                # %join.6.i
	shrl	$16, %r9d
	cmpb	$-64, %r9b
	jge	.LBB15_18
# %bb.7:                                # %join.9.i
	xorl	%r10d, %r10d
	cmpq	$2, %rdx
	je	.LBB15_26
# %bb.8:                                # %join.9.i
	movl	%r8d, %edx
	andl	$61440, %edx                    # imm = 0xF000
	cmpl	$57344, %edx                    # imm = 0xE000
	jne	.LBB15_26
# %bb.9:                                # %after.1.i22
	pushq	%rbx
	.cfi_def_cfa_offset 16
	.cfi_offset %rbx, -16
	shrl	$8, %r8d
	andl	$-17, %r8d
	leaq	.Lstatic.7(%rip), %r10
	movzbl	(%r8,%r10), %r11d
	leaq	.Lstatic.8(%rip), %rdx
	movzbl	(%r11,%rdx), %r11d
	movl	%r9d, %ebx
	andl	$191, %ebx
	movzbl	(%rbx,%r10), %ebx
	shll	$4, %r11d
	addq	%rdx, %r11
	movzbl	(%rbx,%r11), %r11d
	cmpq	$16, %r11
	popq	%rbx
	.cfi_def_cfa_offset 8
	.cfi_restore %rbx
	je	.LBB15_23
# %bb.10:                               # %join.13.i24
	movzbl	(%rax,%r10), %r10d
	shll	$4, %r11d
	addq	%r11, %rdx
	cmpb	$13, (%r10,%rdx)
	jne	.LBB15_23
# %bb.11:                               # %join.16.i
	shll	$16, %eax
	shll	$8, %r9d
	andl	$48896, %r9d                    # imm = 0xBF00
	orl	%eax, %r9d
	orl	%r8d, %r9d
	movl	$3, %r10d
	xorl	%ecx, %ecx
	movl	%r9d, %eax
	jmp	.LBB15_21
.LBB15_12:                              # %join.3.i.i
	xorl	%esi, %esi
	testl	%r10d, %r10d
	js	.LBB15_14
# %bb.13:
	movl	$1, %r10d
	xorl	%ecx, %ecx
	jmp	.LBB15_24
.LBB15_14:                              # %join.3.i15.i
	leaq	.Lstatic.7(%rip), %rcx
	movzbl	(%rax,%rcx), %eax
	leaq	.Lstatic.8(%rip), %rcx
	movzbl	(%rax,%rcx), %eax
	movb	$1, %cl
	cmpl	$13, %eax
	jb	.LBB15_23
# %bb.15:                               # %join.6.i17.i
	cmpl	$14, %eax
	je	.LBB15_22
# %bb.16:                               # %join.6.i17.i
	cmpl	$13, %eax
	je	.LBB15_27
# %bb.17:                               # %arm.2.i161.i
	movb	$1, %cl
	xorl	%eax, %eax
	xorl	%r10d, %r10d
	movb	$1, %sil
	jmp	.LBB15_24
.LBB15_18:                              # %then.7.i
	leal	32(%r9), %edx
	cmpb	$-30, %dl
	jb	.LBB15_23
# %bb.19:                               # %after.1.i
	leaq	.Lstatic.7(%rip), %rdx
	movzbl	(%rax,%rdx), %edx
	leaq	.Lstatic.8(%rip), %r8
	cmpb	$13, 16(%rdx,%r8)
	jne	.LBB15_23
# %bb.20:                               # %join.13.i
	movl	%eax, %ecx
	shll	$8, %ecx
	movzbl	%r9b, %eax
	orl	%ecx, %eax
	movl	$2, %r10d
	xorl	%ecx, %ecx
.LBB15_21:                              # %"encode_unicode::decoding_iterators::back_scan::scan.exit"
	xorl	%esi, %esi
	jmp	.LBB15_24
.LBB15_26:
	xorl	%eax, %eax
	jmp	.LBB15_24
.LBB15_22:
	movb	$2, %sil
.LBB15_23:
	xorl	%eax, %eax
	xorl	%r10d, %r10d
.LBB15_24:                              # %"encode_unicode::decoding_iterators::back_scan::scan.exit"
	movl	%eax, %eax
	movb	%cl, (%rdi)
	movb	%sil, 1(%rdi)
	movq	%rax, 8(%rdi)
	movq	%r10, 16(%rdi)
	retq
.LBB15_27:                              # %join.4.i.i
	ud2
.Lfunc_end15:
	.size	"encode_unicode::decoding_iterators::back_scan::decode_few", .Lfunc_end15-"encode_unicode::decoding_iterators::back_scan::decode_few"
	.cfi_endproc
	.section	".rodata.unlikely.encode_unicode::decoding_iterators::back_scan::decode_few","a",@progbits
	.p2align	2, 0x0
.LJTI15_0:
	.long	.LBB15_4-.LJTI15_0
	.long	.LBB15_1-.LJTI15_0
	.long	.LBB15_2-.LJTI15_0
	.long	.LBB15_3-.LJTI15_0
                                        # -- End function
	.section	".text.unlikely.std_alloc::vec::Vec::grow_amortized::<#1ada1fecd8908aad>","ax",@progbits
	.p2align	4                               # -- Begin function std_alloc::vec::Vec::grow_amortized::<#1ada1fecd8908aad>
	.type	"std_alloc::vec::Vec::grow_amortized::<#1ada1fecd8908aad>",@function
"std_alloc::vec::Vec::grow_amortized::<#1ada1fecd8908aad>": # @"std_alloc::vec::Vec::grow_amortized::<#1ada1fecd8908aad>"
	.cfi_startproc
# %bb.0:                                # %start
	movq	8(%rdi), %rsi
	cmpq	$-1, %rsi
	je	.LBB16_5
# %bb.1:                                # %join.3
	pushq	%r14
	.cfi_def_cfa_offset 16
	pushq	%rbx
	.cfi_def_cfa_offset 24
	pushq	%rax
	.cfi_def_cfa_offset 32
	.cfi_offset %rbx, -24
	.cfi_offset %r14, -16
	movq	16(%rdi), %rcx
	cmpq	$4, %rsi
	movl	$3, %ebx
	cmovaeq	%rsi, %rbx
	incq	%rbx
	movq	%rcx, %rdx
	shrq	$62, %rdx
	leaq	(%rcx,%rcx), %rax
	cmpq	%rax, %rbx
	cmovaq	%rbx, %rax
	testq	%rdx, %rdx
	cmoveq	%rax, %rbx
	movq	%rbx, %rdx
	shrq	$58, %rdx
	jne	.LBB16_6
# %bb.2:                                # %join.3.i
	testq	%rcx, %rcx
	je	.LBB16_8
# %bb.3:                                # %then.1.i.i
	movq	%rdi, %r14
	movq	(%rdi), %rdi
	shlq	$5, %rsi
	movq	%rbx, %rdx
	shlq	$5, %rdx
	movl	$8, %ecx
	callq	rattle_realloc@PLT
	testb	$1, %al
	je	.LBB16_6
.LBB16_9:                               # %arm.5.i
	movq	%rdx, (%r14)
	movq	%rbx, 16(%r14)
	movb	$1, %al
	addq	$8, %rsp
	.cfi_def_cfa_offset 24
	popq	%rbx
	.cfi_def_cfa_offset 16
	popq	%r14
	.cfi_def_cfa_offset 8
	.cfi_restore %rbx
	.cfi_restore %r14
                                        # kill: def $al killed $al killed $eax
	retq
.LBB16_5:
	xorl	%eax, %eax
                                        # kill: def $al killed $al killed $eax
	retq
.LBB16_8:                               # %"std_alloc::vec::resize::<#1ada1fecd8908aad>.exit.i"
	.cfi_def_cfa_offset 32
	.cfi_offset %rbx, -24
	.cfi_offset %r14, -16
	movq	%rdi, %r14
	shlq	$5, %rax
	movl	$8, %esi
	movq	%rax, %rdi
	callq	rattle_alloc@PLT
	testb	$1, %al
	jne	.LBB16_9
.LBB16_6:
	xorl	%eax, %eax
	addq	$8, %rsp
	.cfi_def_cfa_offset 24
	popq	%rbx
	.cfi_def_cfa_offset 16
	popq	%r14
	.cfi_def_cfa_offset 8
	.cfi_restore %rbx
	.cfi_restore %r14
                                        # kill: def $al killed $al killed $eax
	retq
.Lfunc_end16:
	.size	"std_alloc::vec::Vec::grow_amortized::<#1ada1fecd8908aad>", .Lfunc_end16-"std_alloc::vec::Vec::grow_amortized::<#1ada1fecd8908aad>"
	.cfi_endproc
                                        # -- End function
	.section	".text.text_programs::programs::stops::Stop::report::<#2daa2fb2be07fb73>","ax",@progbits
	.p2align	4                               # -- Begin function text_programs::programs::stops::Stop::report::<#2daa2fb2be07fb73>
	.type	"text_programs::programs::stops::Stop::report::<#2daa2fb2be07fb73>",@function
"text_programs::programs::stops::Stop::report::<#2daa2fb2be07fb73>": # @"text_programs::programs::stops::Stop::report::<#2daa2fb2be07fb73>"
	.cfi_startproc
# %bb.0:                                # %start
	pushq	%r15
	.cfi_def_cfa_offset 16
	pushq	%r14
	.cfi_def_cfa_offset 24
	pushq	%r13
	.cfi_def_cfa_offset 32
	pushq	%r12
	.cfi_def_cfa_offset 40
	pushq	%rbx
	.cfi_def_cfa_offset 48
	subq	$96, %rsp
	.cfi_def_cfa_offset 144
	.cfi_offset %rbx, -48
	.cfi_offset %r12, -40
	.cfi_offset %r13, -32
	.cfi_offset %r14, -24
	.cfi_offset %r15, -16
	movl	%edi, %ebx
	xorl	%r15d, %r15d
	.p2align	4
.LBB17_1:                               # %join.5.i.i
                                        # =>This Inner Loop Header: Depth=1
	leaq	.Lstatic.1(%rip), %rsi
	addq	%r15, %rsi
	movl	$6, %r14d
	subq	%r15, %r14
	movl	$2, %edi
	movq	%r14, %rdx
	callq	write@PLT
	testq	%rax, %rax
	js	.LBB17_14
# %bb.2:                                # %arm.6.i.i
                                        #   in Loop: Header=BB17_1 Depth=1
	cmpq	%r14, %rax
	cmovbq	%rax, %r14
	testq	%r14, %r14
	je	.LBB17_15
# %bb.3:                                # %join.12.i.i
                                        #   in Loop: Header=BB17_1 Depth=1
	addq	%r14, %r15
	cmpq	$6, %r15
	jb	.LBB17_1
# %bb.4:                                # %join.5.i12.i.peel
	leaq	.Lstatic.19(%rip), %rsi
	movl	$2, %edx
	movl	$2, %edi
	callq	write@PLT
	testq	%rax, %rax
	js	.LBB17_14
# %bb.5:                                # %arm.6.i20.i.peel
	je	.LBB17_15
# %bb.6:                                # %arm.6.i20.i.peel
	cmpq	$1, %rax
	jne	.LBB17_9
# %bb.7:                                # %join.5.i12.i
	leaq	.Lstatic.19+1(%rip), %rsi
	movl	$1, %edx
	movl	$2, %edi
	callq	write@PLT
	testq	%rax, %rax
	js	.LBB17_14
# %bb.8:                                # %arm.6.i20.i
	je	.LBB17_15
.LBB17_9:                               # %switch.lookup
	leaq	".Lswitch.table.text_programs::programs::stops::Stop::report::<#2daa2fb2be07fb73>"(%rip), %rax
	movzbl	%bl, %ecx
	movq	(%rax,%rcx,8), %r15
	leaq	".Lswitch.table.text_programs::programs::stops::Stop::report::<#2daa2fb2be07fb73>.145.rel"(%rip), %rax
	movslq	(%rax,%rcx,4), %r12
	addq	%rax, %r12
	xorl	%r13d, %r13d
	.p2align	4
.LBB17_10:                              # %join.5.i41.i
                                        # =>This Inner Loop Header: Depth=1
	leaq	(%r12,%r13), %rsi
	movq	%r15, %r14
	subq	%r13, %r14
	movl	$2, %edi
	movq	%r14, %rdx
	callq	write@PLT
	testq	%rax, %rax
	js	.LBB17_14
# %bb.11:                               # %arm.6.i49.i
                                        #   in Loop: Header=BB17_10 Depth=1
	cmpq	%r14, %rax
	cmovbq	%rax, %r14
	testq	%r14, %r14
	je	.LBB17_15
# %bb.12:                               # %join.12.i53.i
                                        #   in Loop: Header=BB17_10 Depth=1
	addq	%r14, %r13
	cmpq	%r15, %r13
	jb	.LBB17_10
# %bb.13:                               # %loop.2.i64.i.preheader
	leaq	.Lstatic.20(%rip), %rsi
	movl	$1, %edx
	movl	$2, %edi
	callq	write@PLT
	testq	%rax, %rax
	jns	.LBB17_15
.LBB17_14:                              # %arm.7.i74.i
	leaq	8(%rsp), %rdi
	callq	"std_io::io::error::last_error"
.LBB17_15:                              # %"text_programs::programs::stops::Stop::write_line::<#2daa2fb2be07fb73>.exit"
	testb	%bl, %bl
	sete	%al
	xorb	$3, %al
	addq	$96, %rsp
	.cfi_def_cfa_offset 48
	popq	%rbx
	.cfi_def_cfa_offset 40
	popq	%r12
	.cfi_def_cfa_offset 32
	popq	%r13
	.cfi_def_cfa_offset 24
	popq	%r14
	.cfi_def_cfa_offset 16
	popq	%r15
	.cfi_def_cfa_offset 8
	retq
.Lfunc_end17:
	.size	"text_programs::programs::stops::Stop::report::<#2daa2fb2be07fb73>", .Lfunc_end17-"text_programs::programs::stops::Stop::report::<#2daa2fb2be07fb73>"
	.cfi_endproc
                                        # -- End function
	.section	.rodata.cst16,"aM",@progbits,16
	.p2align	4, 0x0                          # -- Begin function main
.LCPI18_0:
	.byte	116                             # 0x74
	.byte	104                             # 0x68
	.byte	105                             # 0x69
	.byte	115                             # 0x73
	.byte	32                              # 0x20
	.byte	109                             # 0x6d
	.byte	97                              # 0x61
	.byte	99                              # 0x63
	.byte	104                             # 0x68
	.byte	105                             # 0x69
	.byte	110                             # 0x6e
	.byte	101                             # 0x65
	.byte	32                              # 0x20
	.byte	108                             # 0x6c
	.byte	97                              # 0x61
	.byte	99                              # 0x63
.LCPI18_1:
	.byte	107                             # 0x6b
	.byte	115                             # 0x73
	.byte	32                              # 0x20
	.byte	97                              # 0x61
	.byte	32                              # 0x20
	.byte	102                             # 0x66
	.byte	101                             # 0x65
	.byte	97                              # 0x61
	.byte	116                             # 0x74
	.byte	117                             # 0x75
	.byte	114                             # 0x72
	.byte	101                             # 0x65
	.byte	32                              # 0x20
	.byte	111                             # 0x6f
	.byte	102                             # 0x66
	.byte	32                              # 0x20
.LCPI18_2:
	.byte	120                             # 0x78
	.byte	56                              # 0x38
	.byte	54                              # 0x36
	.byte	45                              # 0x2d
	.byte	54                              # 0x36
	.byte	52                              # 0x34
	.byte	45                              # 0x2d
	.byte	118                             # 0x76
	.byte	50                              # 0x32
	.byte	44                              # 0x2c
	.byte	32                              # 0x20
	.byte	119                             # 0x77
	.byte	104                             # 0x68
	.byte	105                             # 0x69
	.byte	99                              # 0x63
	.byte	104                             # 0x68
.LCPI18_3:
	.byte	32                              # 0x20
	.byte	116                             # 0x74
	.byte	104                             # 0x68
	.byte	105                             # 0x69
	.byte	115                             # 0x73
	.byte	32                              # 0x20
	.byte	112                             # 0x70
	.byte	114                             # 0x72
	.byte	111                             # 0x6f
	.byte	103                             # 0x67
	.byte	114                             # 0x72
	.byte	97                              # 0x61
	.byte	109                             # 0x6d
	.byte	32                              # 0x20
	.byte	119                             # 0x77
	.byte	97                              # 0x61
.LCPI18_4:
	.byte	115                             # 0x73
	.byte	32                              # 0x20
	.byte	98                              # 0x62
	.byte	117                             # 0x75
	.byte	105                             # 0x69
	.byte	108                             # 0x6c
	.byte	116                             # 0x74
	.byte	32                              # 0x20
	.byte	102                             # 0x66
	.byte	111                             # 0x6f
	.byte	114                             # 0x72
	.byte	58                              # 0x3a
	.byte	32                              # 0x20
	.byte	114                             # 0x72
	.byte	117                             # 0x75
	.byte	110                             # 0x6e
.LCPI18_5:
	.byte	32                              # 0x20
	.byte	105                             # 0x69
	.byte	116                             # 0x74
	.byte	32                              # 0x20
	.byte	111                             # 0x6f
	.byte	110                             # 0x6e
	.byte	32                              # 0x20
	.byte	97                              # 0x61
	.byte	110                             # 0x6e
	.byte	111                             # 0x6f
	.byte	116                             # 0x74
	.byte	104                             # 0x68
	.byte	101                             # 0x65
	.byte	114                             # 0x72
	.byte	32                              # 0x20
	.byte	109                             # 0x6d
.LCPI18_6:
	.byte	97                              # 0x61
	.byte	99                              # 0x63
	.byte	104                             # 0x68
	.byte	105                             # 0x69
	.byte	110                             # 0x6e
	.byte	101                             # 0x65
	.byte	44                              # 0x2c
	.byte	32                              # 0x20
	.byte	111                             # 0x6f
	.byte	114                             # 0x72
	.byte	32                              # 0x20
	.byte	98                              # 0x62
	.byte	117                             # 0x75
	.byte	105                             # 0x69
	.byte	108                             # 0x6c
	.byte	100                             # 0x64
.LCPI18_7:
	.byte	32                              # 0x20
	.byte	105                             # 0x69
	.byte	116                             # 0x74
	.byte	32                              # 0x20
	.byte	119                             # 0x77
	.byte	105                             # 0x69
	.byte	116                             # 0x74
	.byte	104                             # 0x68
	.byte	32                              # 0x20
	.byte	45                              # 0x2d
	.byte	45                              # 0x2d
	.byte	99                              # 0x63
	.byte	112                             # 0x70
	.byte	117                             # 0x75
	.byte	32                              # 0x20
	.byte	120                             # 0x78
	.section	.text.main,"ax",@progbits
	.globl	main
	.p2align	4
	.type	main,@function
main:                                   # @main
	.cfi_startproc
# %bb.0:                                # %start
	endbr64
	pushq	%rbp
	.cfi_def_cfa_offset 16
	.cfi_offset %rbp, -16
	movq	%rsp, %rbp
	.cfi_def_cfa_register %rbp
	pushq	%rbx
	pushq	%rax
	.cfi_offset %rbx, -24
	movl	$1, %esi
	movl	$13, %edi
	callq	__sysv_signal@PLT
	xorl	%edi, %edi
	callq	__x86_get_cpuid_feature_leaf@PLT
	movl	24(%rax), %ebx
	movl	$2, %edi
	callq	__x86_get_cpuid_feature_leaf@PLT
	notl	%ebx
	testl	$9970177, %ebx                  # imm = 0x982201
	jne	.LBB18_2
# %bb.1:                                # %start
	movl	24(%rax), %eax
	andl	$1, %eax
	je	.LBB18_2
# %bb.6:                                # %run
	leaq	-8(%rbp), %rsp
	popq	%rbx
	popq	%rbp
	.cfi_def_cfa %rsp, 8
	jmp	"pieces::main+start"            # TAILCALL
.LBB18_2:                               # %refuse
	.cfi_def_cfa %rbp, 16
	movq	%rsp, %rsi
	subq	$144, %rsi
	cmpq	%rsp, %rsi
	jge	.LBB18_5
.LBB18_4:                               # %refuse
                                        # =>This Inner Loop Header: Depth=1
	xorq	$0, (%rsp)
	subq	$3072, %rsp                     # imm = 0xC00
	cmpq	%rsp, %rsi
	jl	.LBB18_4
.LBB18_5:                               # %refuse
	movq	%rsi, %rsp
	movaps	.LCPI18_0(%rip), %xmm0          # xmm0 = [116,104,105,115,32,109,97,99,104,105,110,101,32,108,97,99]
	movaps	%xmm0, (%rsi)
	movaps	.LCPI18_1(%rip), %xmm0          # xmm0 = [107,115,32,97,32,102,101,97,116,117,114,101,32,111,102,32]
	movaps	%xmm0, 16(%rsi)
	movaps	.LCPI18_2(%rip), %xmm0          # xmm0 = [120,56,54,45,54,52,45,118,50,44,32,119,104,105,99,104]
	movaps	%xmm0, 32(%rsi)
	movaps	.LCPI18_3(%rip), %xmm0          # xmm0 = [32,116,104,105,115,32,112,114,111,103,114,97,109,32,119,97]
	movaps	%xmm0, 48(%rsi)
	movaps	.LCPI18_4(%rip), %xmm0          # xmm0 = [115,32,98,117,105,108,116,32,102,111,114,58,32,114,117,110]
	movaps	%xmm0, 64(%rsi)
	movaps	.LCPI18_5(%rip), %xmm0          # xmm0 = [32,105,116,32,111,110,32,97,110,111,116,104,101,114,32,109]
	movaps	%xmm0, 80(%rsi)
	movaps	.LCPI18_6(%rip), %xmm0          # xmm0 = [97,99,104,105,110,101,44,32,111,114,32,98,117,105,108,100]
	movaps	%xmm0, 96(%rsi)
	movaps	.LCPI18_7(%rip), %xmm0          # xmm0 = [32,105,116,32,119,105,116,104,32,45,45,99,112,117,32,120]
	movaps	%xmm0, 112(%rsi)
	movl	$908932664, 128(%rsi)           # imm = 0x362D3638
	movw	$2612, 132(%rsi)                # imm = 0xA34
	movl	$134, %edx
	movl	$2, %edi
	callq	__write@PLT
	movl	$127, %eax
	leaq	-8(%rbp), %rsp
	popq	%rbx
	popq	%rbp
	.cfi_def_cfa %rsp, 8
	retq
.Lfunc_end18:
	.size	main, .Lfunc_end18-main
	.cfi_endproc
                                        # -- End function
	.type	.Lstatic.1,@object              # @static.1
	.section	.rodata..Lstatic.1,"a",@progbits
.Lstatic.1:
	.ascii	"pieces"
	.size	.Lstatic.1, 6

	.type	.Lstatic.7,@object              # @static.7
	.section	.rodata..Lstatic.7,"a",@progbits
.Lstatic.7:
	.ascii	"\000\000\000\000\000\000\000\000\000\000\000\000\000\000\000\000\000\000\000\000\000\000\000\000\000\000\000\000\000\000\000\000\000\000\000\000\000\000\000\000\000\000\000\000\000\000\000\000\000\000\000\000\000\000\000\000\000\000\000\000\000\000\000\000\000\000\000\000\000\000\000\000\000\000\000\000\000\000\000\000\000\000\000\000\000\000\000\000\000\000\000\000\000\000\000\000\000\000\000\000\000\000\000\000\000\000\000\000\000\000\000\000\000\000\000\000\000\000\000\000\000\000\000\000\000\000\000\000\001\001\001\001\001\001\001\001\001\001\001\001\001\001\001\001\002\002\002\002\002\002\002\002\002\002\002\002\002\002\002\002\003\003\003\003\003\003\003\003\003\003\003\003\003\003\003\003\003\003\003\003\003\003\003\003\003\003\003\003\003\003\003\003\004\004\005\005\005\005\005\005\005\005\005\005\005\005\005\005\005\005\005\005\005\005\005\005\005\005\005\005\005\005\005\005\006\007\007\007\007\007\007\007\007\007\007\007\007\b\007\007\t\n\n\n\013\004\004\004\004\004\004\004\004\004\004\004"
	.size	.Lstatic.7, 256

	.type	.Lstatic.8,@object              # @static.8
	.section	.rodata..Lstatic.8,"a",@progbits
.Lstatic.8:
	.ascii	"\r\016\016\016\017\001\004\002\005\006\003\007\020\020\020\020\020\r\r\r\020\020\020\020\020\020\020\020\020\020\020\020\020\001\001\001\020\020\020\020\020\020\020\020\020\020\020\020\020\002\002\002\020\020\020\020\020\020\020\020\020\020\020\020\020\t\t\001\020\020\020\020\020\020\020\020\020\020\020\020\020\001\001\n\020\020\020\020\020\020\020\020\020\020\020\020\020\b\002\002\020\020\020\020\020\020\020\020\020\020\020\020\020\002\013\013\020\020\020\020\020\020\020\020\020\020\020\020\020\t\t\t\020\020\020\020\020\020\020\020\020\020\020\020\020\021\021\021\020\020\020\020\020\020\020\020\020\020\020\020\020\022\022\022\020\020\020\020\020\020\020\020\020\020\020\020\020\f\f\f\020\020\020\020\020\020\020\020\020\020\020\020\020\023\023\023\020\020\020\020\020\020\020\020\020\020\020\020"
	.size	.Lstatic.8, 208

	.type	.Lstatic.9,@object              # @static.9
	.section	.rodata..Lstatic.9,"a",@progbits
.Lstatic.9:
	.ascii	"000102030405060708090a0b0c0d0e0f101112131415161718191a1b1c1d1e1f202122232425262728292a2b2c2d2e2f303132333435363738393a3b3c3d3e3f404142434445464748494a4b4c4d4e4f505152535455565758595a5b5c5d5e5f606162636465666768696a6b6c6d6e6f707172737475767778797a7b7c7d7e7f808182838485868788898a8b8c8d8e8f909192939495969798999a9b9c9d9e9fa0a1a2a3a4a5a6a7a8a9aaabacadaeafb0b1b2b3b4b5b6b7b8b9babbbcbdbebfc0c1c2c3c4c5c6c7c8c9cacbcccdcecfd0d1d2d3d4d5d6d7d8d9dadbdcdddedfe0e1e2e3e4e5e6e7e8e9eaebecedeeeff0f1f2f3f4f5f6f7f8f9fafbfcfdfeff"
	.size	.Lstatic.9, 512

	.type	.Lstatic.10,@object             # @static.10
	.section	.rodata..Lstatic.10,"a",@progbits
.Lstatic.10:
	.ascii	"TooFewBytes"
	.size	.Lstatic.10, 11

	.type	.Lstatic.11,@object             # @static.11
	.section	.rodata..Lstatic.11,"a",@progbits
.Lstatic.11:
	.ascii	"NonUtf8Byte"
	.size	.Lstatic.11, 11

	.type	.Lstatic.12,@object             # @static.12
	.section	.rodata..Lstatic.12,"a",@progbits
.Lstatic.12:
	.ascii	"UnexpectedContinuationByte"
	.size	.Lstatic.12, 26

	.type	.Lstatic.13,@object             # @static.13
	.section	.rodata..Lstatic.13,"a",@progbits
.Lstatic.13:
	.ascii	"InterruptedSequence"
	.size	.Lstatic.13, 19

	.type	.Lstatic.14,@object             # @static.14
	.section	.rodata.cst16,"aM",@progbits,16
.Lstatic.14:
	.ascii	"OverlongEncoding"
	.size	.Lstatic.14, 16

	.type	.Lstatic.15,@object             # @static.15
	.section	.rodata..Lstatic.15,"a",@progbits
.Lstatic.15:
	.ascii	"Utf16ReservedCodepoint"
	.size	.Lstatic.15, 22

	.type	.Lstatic.16,@object             # @static.16
	.section	.rodata.cst16,"aM",@progbits,16
.Lstatic.16:
	.ascii	"TooHighCodepoint"
	.size	.Lstatic.16, 16

	.type	.Lstatic.18,@object             # @static.18
	.section	.rodata..Lstatic.18,"a",@progbits
.Lstatic.18:
	.ascii	"none\n"
	.size	.Lstatic.18, 5

	.type	.Lstatic.19,@object             # @static.19
	.section	.rodata..Lstatic.19,"a",@progbits
.Lstatic.19:
	.ascii	": "
	.size	.Lstatic.19, 2

	.type	.Lstatic.20,@object             # @static.20
	.section	.rodata..Lstatic.20,"a",@progbits
.Lstatic.20:
	.byte	10
	.size	.Lstatic.20, 1

	.type	.Lstatic.21,@object             # @static.21
	.section	.rodata..Lstatic.21,"a",@progbits
.Lstatic.21:
	.ascii	"wrong arguments"
	.size	.Lstatic.21, 15

	.type	.Lstatic.22,@object             # @static.22
	.section	.rodata..Lstatic.22,"a",@progbits
.Lstatic.22:
	.ascii	"cannot read"
	.size	.Lstatic.22, 11

	.type	.Lstatic.23,@object             # @static.23
	.section	.rodata..Lstatic.23,"a",@progbits
.Lstatic.23:
	.ascii	"cannot write"
	.size	.Lstatic.23, 12

	.type	.Lstatic.24,@object             # @static.24
	.section	.rodata..Lstatic.24,"a",@progbits
.Lstatic.24:
	.ascii	"no memory"
	.size	.Lstatic.24, 9

	.type	".Lswitch.table.utf_chars::codes::utf8::missing_after",@object # @"switch.table.utf_chars::codes::utf8::missing_after"
	.section	".rodata..Lswitch.table.utf_chars::codes::utf8::missing_after","a",@progbits
	.p2align	3, 0x0
".Lswitch.table.utf_chars::codes::utf8::missing_after":
	.quad	0                               # 0x0
	.quad	1                               # 0x1
	.quad	2                               # 0x2
	.quad	3                               # 0x3
	.quad	2                               # 0x2
	.quad	2                               # 0x2
	.quad	3                               # 0x3
	.quad	3                               # 0x3
	.quad	2                               # 0x2
	.quad	1                               # 0x1
	.quad	1                               # 0x1
	.quad	2                               # 0x2
	.quad	1                               # 0x1
	.quad	0                               # 0x0
	.quad	0                               # 0x0
	.quad	0                               # 0x0
	.quad	0                               # 0x0
	.quad	0                               # 0x0
	.quad	0                               # 0x0
	.quad	0                               # 0x0
	.size	".Lswitch.table.utf_chars::codes::utf8::missing_after", 160

	.type	".Lswitch.table.utf_base::table::walks::error_of_value",@object # @"switch.table.utf_base::table::walks::error_of_value"
	.section	".rodata..Lswitch.table.utf_base::table::walks::error_of_value","a",@progbits
".Lswitch.table.utf_base::table::walks::error_of_value":
	.ascii	"\006\006\006\006\006\006\006\006\006\006\006\006\006\006\006\006\006\004\005\006"
	.size	".Lswitch.table.utf_base::table::walks::error_of_value", 20

	.type	".Lswitch.table.text_programs::programs::listing::write_merged::<#cdc8ff12022c16a2>",@object # @"switch.table.text_programs::programs::listing::write_merged::<#cdc8ff12022c16a2>"
	.section	".rodata..Lswitch.table.text_programs::programs::listing::write_merged::<#cdc8ff12022c16a2>","a",@progbits
	.p2align	3, 0x0
".Lswitch.table.text_programs::programs::listing::write_merged::<#cdc8ff12022c16a2>":
	.quad	11                              # 0xb
	.quad	11                              # 0xb
	.quad	26                              # 0x1a
	.quad	19                              # 0x13
	.quad	16                              # 0x10
	.quad	22                              # 0x16
	.quad	16                              # 0x10
	.size	".Lswitch.table.text_programs::programs::listing::write_merged::<#cdc8ff12022c16a2>", 56

	.type	".Lswitch.table.text_programs::programs::listing::write_merged::<#cdc8ff12022c16a2>.144",@object # @"switch.table.text_programs::programs::listing::write_merged::<#cdc8ff12022c16a2>.144"
	.section	".data.rel.ro..Lswitch.table.text_programs::programs::listing::write_merged::<#cdc8ff12022c16a2>.144","aw",@progbits
	.p2align	3, 0x0
".Lswitch.table.text_programs::programs::listing::write_merged::<#cdc8ff12022c16a2>.144":
	.quad	.Lstatic.10
	.quad	.Lstatic.11
	.quad	.Lstatic.12
	.quad	.Lstatic.13
	.quad	.Lstatic.14
	.quad	.Lstatic.15
	.quad	.Lstatic.16
	.size	".Lswitch.table.text_programs::programs::listing::write_merged::<#cdc8ff12022c16a2>.144", 56

	.type	".Lswitch.table.text_programs::programs::stops::Stop::report::<#2daa2fb2be07fb73>",@object # @"switch.table.text_programs::programs::stops::Stop::report::<#2daa2fb2be07fb73>"
	.section	.rodata.cst32,"aM",@progbits,32
	.p2align	3, 0x0
".Lswitch.table.text_programs::programs::stops::Stop::report::<#2daa2fb2be07fb73>":
	.quad	15                              # 0xf
	.quad	11                              # 0xb
	.quad	12                              # 0xc
	.quad	9                               # 0x9
	.size	".Lswitch.table.text_programs::programs::stops::Stop::report::<#2daa2fb2be07fb73>", 32

	.type	".Lswitch.table.text_programs::programs::stops::Stop::report::<#2daa2fb2be07fb73>.145.rel",@object # @"switch.table.text_programs::programs::stops::Stop::report::<#2daa2fb2be07fb73>.145.rel"
	.section	".rodata..Lswitch.table.text_programs::programs::stops::Stop::report::<#2daa2fb2be07fb73>.145.rel","a",@progbits
	.p2align	2, 0x0
".Lswitch.table.text_programs::programs::stops::Stop::report::<#2daa2fb2be07fb73>.145.rel":
	.long	.Lstatic.21-".Lswitch.table.text_programs::programs::stops::Stop::report::<#2daa2fb2be07fb73>.145.rel"
	.long	.Lstatic.22-".Lswitch.table.text_programs::programs::stops::Stop::report::<#2daa2fb2be07fb73>.145.rel"
	.long	.Lstatic.23-".Lswitch.table.text_programs::programs::stops::Stop::report::<#2daa2fb2be07fb73>.145.rel"
	.long	.Lstatic.24-".Lswitch.table.text_programs::programs::stops::Stop::report::<#2daa2fb2be07fb73>.145.rel"
	.size	".Lswitch.table.text_programs::programs::stops::Stop::report::<#2daa2fb2be07fb73>.145.rel", 16

	.ident	"rattle logic=dac8208d650f15bf3e2dc313a14fa4c783a3acf887bdfab66e1714b038d9e11b"
	.section	".note.GNU-stack","",@progbits
