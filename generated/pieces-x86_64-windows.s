	.def	@feat.00;
	.scl	3;
	.type	0;
	.endef
	.globl	@feat.00
@feat.00 = 0
	.file	"rattle"
	.def	pieces_main_start_0;
	.scl	3;
	.type	32;
	.endef
	.section .rdata$n0,"dr"
	.p2align	4, 0x0                          # -- Begin function pieces::main+start
.LCPI0_0:
	.byte	0                               # 0x0
	.byte	1                               # 0x1
	.byte	2                               # 0x2
	.byte	3                               # 0x3
	.byte	4                               # 0x4
	.byte	5                               # 0x5
	.byte	6                               # 0x6
	.byte	7                               # 0x7
	.byte	8                               # 0x8
	.byte	9                               # 0x9
	.byte	10                              # 0xa
	.byte	11                              # 0xb
	.byte	12                              # 0xc
	.byte	13                              # 0xd
	.byte	14                              # 0xe
	.byte	15                              # 0xf
.LCPI0_1:
	.byte	16                              # 0x10
	.byte	17                              # 0x11
	.byte	18                              # 0x12
	.byte	19                              # 0x13
	.byte	20                              # 0x14
	.byte	21                              # 0x15
	.byte	22                              # 0x16
	.byte	23                              # 0x17
	.byte	24                              # 0x18
	.byte	25                              # 0x19
	.byte	26                              # 0x1a
	.byte	27                              # 0x1b
	.byte	28                              # 0x1c
	.byte	29                              # 0x1d
	.byte	30                              # 0x1e
	.byte	31                              # 0x1f
	.section .text$n1,"xr"
	.p2align	4
pieces_main_start_0:                   # @pieces_main_start_0
.seh_proc pieces_main_start_0
# %bb.0:                                # %start
	pushq	%r15
	.seh_pushreg %r15
	pushq	%r14
	.seh_pushreg %r14
	pushq	%r13
	.seh_pushreg %r13
	pushq	%r12
	.seh_pushreg %r12
	pushq	%rsi
	.seh_pushreg %rsi
	pushq	%rdi
	.seh_pushreg %rdi
	pushq	%rbp
	.seh_pushreg %rbp
	pushq	%rbx
	.seh_pushreg %rbx
	movl	$66120, %eax                    # imm = 0x10248
	callq	___chkstk_ms
	subq	%rax, %rsp
	.seh_stackalloc 66120
	movaps	%xmm6, 66096(%rsp)              # 16-byte Spill
	.seh_savexmm %xmm6, 66096
	.seh_endprologue
	leaq	48(%rsp), %rax
	movq	%rax, 64(%rsp)                  # 8-byte Spill
	movq	%rax, 112(%rsp)
	pxor	%xmm0, %xmm0
	movdqu	%xmm0, 120(%rsp)
	leaq	552(%rsp), %rbp
	xorl	%r13d, %r13d
	xorl	%edi, %edi
.LBB0_1:                                # %join.5.i.i.i.i
                                        # =>This Loop Header: Depth=1
                                        #     Child Loop BB0_3 Depth 2
                                        #     Child Loop BB0_19 Depth 2
                                        #       Child Loop BB0_53 Depth 3
                                        #       Child Loop BB0_58 Depth 3
	movl	$256, %r14d                     # imm = 0x100
	movl	$64, %esi
	jmp	.LBB0_3
	.p2align	4
.LBB0_2:                                # %std_alloc_vec_Vec_drop_5cd7833235c0cf51_exit45_i_i_i_i_i_i_i_1
                                        #   in Loop: Header=BB0_3 Depth=2
	movq	%r14, %rax
	addq	%r14, %rax
	movq	$-1, %r14
	cmovaeq	%rax, %r14
	decl	%esi
	je	.LBB0_125
.LBB0_3:                                # %join.5.i.i.i.i.i.i
                                        #   Parent Loop BB0_1 Depth=1
                                        # =>  This Inner Loop Header: Depth=2
	leaq	48(%rsp), %rbx
	movq	%rbx, 544(%rsp)
	pxor	%xmm0, %xmm0
	movdqu	%xmm0, (%rbp)
	testq	%r14, %r14
	jne	.LBB0_10
# %bb.4:                                #   in Loop: Header=BB0_3 Depth=2
	xorl	%r15d, %r15d
.LBB0_5:                                # %join.3.i.i.i.i.i.i.i
                                        #   in Loop: Header=BB0_3 Depth=2
	movq	%rdi, %rcx
	movq	%rbx, %rdx
	movq	%r15, %r8
	callq	rattle_arg
	movq	%rax, %r12
	movl	$22, %eax
	cmpq	$-1, %r12
	je	.LBB0_7
# %bb.6:                                # %join.3.i.i.i.i.i.i.i
                                        #   in Loop: Header=BB0_3 Depth=2
	movl	$36, %eax
.LBB0_7:                                # %join.3.i.i.i.i.i.i.i
                                        #   in Loop: Header=BB0_3 Depth=2
	xorl	%ecx, %ecx
	testq	%r12, %r12
	cmovsl	%eax, %ecx
	callq	rattle_set_errno
	callq	rattle_errno
	cmpl	$36, %eax
	jne	.LBB0_13
# %bb.8:                                # %arm.8.i.i.i.i.i.i.i
                                        #   in Loop: Header=BB0_3 Depth=2
	cmpq	$0, 560(%rsp)
	je	.LBB0_2
# %bb.9:                                # %then.1.i.i.i43.i.i.i.i.i.i.i
                                        #   in Loop: Header=BB0_3 Depth=2
	movq	%rbx, %rcx
	callq	rattle_dealloc
	jmp	.LBB0_2
.LBB0_10:                               # %std_alloc_vec_Vec_grow_5fdc5e19576447a7_exit_i_i_i_i_i_i_i_i_i_2
                                        #   in Loop: Header=BB0_3 Depth=2
	leaq	544(%rsp), %rcx
	movq	%r14, %rdx
	callq	std_alloc_vec_Vec_grow_amortized_5fdc5e19576447a7_3
	testb	%al, %al
	je	.LBB0_123
# %bb.11:                               # %join.3.i2.i.i.i.i.i.i.i.i
                                        #   in Loop: Header=BB0_3 Depth=2
	movq	544(%rsp), %rbx
	movq	552(%rsp), %rcx
	leaq	(%rcx,%r14), %r15
	cmpq	%r15, %rcx
	jae	.LBB0_5
# %bb.12:                               # %join.5.preheader.i.i.i.i.i.i.i.i.i.i
                                        #   in Loop: Header=BB0_3 Depth=2
	addq	%rbx, %rcx
	xorl	%edx, %edx
	movq	%r14, %r8
	callq	memset
	jmp	.LBB0_5
	.p2align	4
.LBB0_13:                               # %join.3.i.i.i.i.i.i.i
                                        #   in Loop: Header=BB0_1 Depth=1
	testl	%eax, %eax
	jne	.LBB0_73
# %bb.14:                               # %arm.4.i.i.i.i.i.i.i
                                        #   in Loop: Header=BB0_1 Depth=1
	cmpq	%r15, %r12
	cmovbq	%r12, %r15
	xorl	%r14d, %r14d
	testq	%r12, %r12
	cmovgq	%r15, %r14
	movq	560(%rsp), %r15
	testq	%r14, %r14
	je	.LBB0_69
# %bb.15:                               # %join.5.lr.ph.i.i.i.i.i.i.i.i
                                        #   in Loop: Header=BB0_1 Depth=1
	movabsq	$-9187201950435737472, %r12     # imm = 0x8080808080808080
	leaq	-8(%r14), %rsi
	xorl	%ecx, %ecx
	jmp	.LBB0_19
.LBB0_40:                               #   in Loop: Header=BB0_19 Depth=2
	movl	$1, %edx
.LBB0_17:                               # %join.11.i.i.i.i.i.i.i.i
                                        #   in Loop: Header=BB0_19 Depth=2
	addq	%rcx, %rdx
.LBB0_18:                               # %loop.2.backedge.i.i.i.i.i.i.i.i
                                        #   in Loop: Header=BB0_19 Depth=2
	movq	%rdx, %rcx
	cmpq	%r14, %rdx
	jae	.LBB0_69
.LBB0_19:                               # %join.5.i.i.i.i.i.i.i.i
                                        #   Parent Loop BB0_1 Depth=1
                                        # =>  This Loop Header: Depth=2
                                        #       Child Loop BB0_53 Depth 3
                                        #       Child Loop BB0_58 Depth 3
	movzbl	(%rbx,%rcx), %eax
	movq	%r14, %r8
	subq	%rcx, %r8
	cmpq	$2, %r8
	jb	.LBB0_16
# %bb.20:                               # %join.5.i.i.i.i.i.i.i.i
                                        #   in Loop: Header=BB0_19 Depth=2
	testb	%al, %al
	js	.LBB0_16
# %bb.21:                               # %core_str_utf8_begins_ascii_run_exit_i_i_i_i_i_i_i_i_4
                                        #   in Loop: Header=BB0_19 Depth=2
	cmpb	$0, 1(%rbx,%rcx)
	js	.LBB0_40
# %bb.22:                               # %then.6.i.i.i.i.i.i.i.i
                                        #   in Loop: Header=BB0_19 Depth=2
	movq	%rbx, 544(%rsp)
	movq	%r14, 552(%rsp)
	cmpq	$7, %r8
	ja	.LBB0_41
# %bb.23:                               # %join.5.i.i.i.i.i.i.i.i.i.i
                                        #   in Loop: Header=BB0_19 Depth=2
	cmpb	$0, (%rbx,%rcx)
	js	.LBB0_51
# %bb.24:                               # %join.8.i.i.i.i.i.i.i.i.i.i
                                        #   in Loop: Header=BB0_19 Depth=2
	leaq	1(%rcx), %rdx
	cmpq	%r14, %rdx
	je	.LBB0_69
# %bb.25:                               # %join.5.i.i.i.i.i.i.i.i.i.i.1
                                        #   in Loop: Header=BB0_19 Depth=2
	cmpb	$0, (%rbx,%rdx)
	js	.LBB0_18
# %bb.26:                               # %join.8.i.i.i.i.i.i.i.i.i.i.1
                                        #   in Loop: Header=BB0_19 Depth=2
	leaq	2(%rcx), %rdx
	cmpq	%r14, %rdx
	je	.LBB0_69
# %bb.27:                               # %join.5.i.i.i.i.i.i.i.i.i.i.2
                                        #   in Loop: Header=BB0_19 Depth=2
	cmpb	$0, (%rbx,%rdx)
	js	.LBB0_18
# %bb.28:                               # %join.8.i.i.i.i.i.i.i.i.i.i.2
                                        #   in Loop: Header=BB0_19 Depth=2
	leaq	3(%rcx), %rdx
	cmpq	%r14, %rdx
	je	.LBB0_69
# %bb.29:                               # %join.5.i.i.i.i.i.i.i.i.i.i.3
                                        #   in Loop: Header=BB0_19 Depth=2
	cmpb	$0, (%rbx,%rdx)
	js	.LBB0_18
# %bb.30:                               # %join.8.i.i.i.i.i.i.i.i.i.i.3
                                        #   in Loop: Header=BB0_19 Depth=2
	leaq	4(%rcx), %rdx
	cmpq	%r14, %rdx
	je	.LBB0_69
# %bb.31:                               # %join.5.i.i.i.i.i.i.i.i.i.i.4
                                        #   in Loop: Header=BB0_19 Depth=2
	cmpb	$0, (%rbx,%rdx)
	js	.LBB0_18
# %bb.32:                               # %join.8.i.i.i.i.i.i.i.i.i.i.4
                                        #   in Loop: Header=BB0_19 Depth=2
	leaq	5(%rcx), %rdx
	cmpq	%r14, %rdx
	je	.LBB0_69
# %bb.33:                               # %join.5.i.i.i.i.i.i.i.i.i.i.5
                                        #   in Loop: Header=BB0_19 Depth=2
	cmpb	$0, (%rbx,%rdx)
	js	.LBB0_18
# %bb.34:                               # %join.8.i.i.i.i.i.i.i.i.i.i.5
                                        #   in Loop: Header=BB0_19 Depth=2
	addq	$6, %rcx
	cmpq	%r14, %rcx
	je	.LBB0_69
# %bb.35:                               # %join.5.i.i.i.i.i.i.i.i.i.i.6
                                        #   in Loop: Header=BB0_19 Depth=2
	cmpb	$0, (%rbx,%rcx)
	movq	%rcx, %rdx
	js	.LBB0_18
	jmp	.LBB0_69
	.p2align	4
.LBB0_16:                               # %join.8.i.i.i.i.i.i.i.i
                                        #   in Loop: Header=BB0_19 Depth=2
	movl	$1, %edx
	testb	%al, %al
	jns	.LBB0_17
# %bb.36:                               # %else.2.i.i.i.i.i.i.i.i.i
                                        #   in Loop: Header=BB0_19 Depth=2
	cmpb	$-62, %al
	jb	.LBB0_114
# %bb.37:                               # %else.5.i.i.i.i.i.i.i.i.i
                                        #   in Loop: Header=BB0_19 Depth=2
	movzbl	%al, %eax
	cmpb	$-33, %al
	ja	.LBB0_44
# %bb.38:                               # %then.7.i.i.i.i.i.i.i.i.i
                                        #   in Loop: Header=BB0_19 Depth=2
	cmpq	$2, %r8
	jb	.LBB0_114
# %bb.39:                               # %join.3.i.i.i.i.i.i.i.i.i.i
                                        #   in Loop: Header=BB0_19 Depth=2
	movl	$2, %edx
	cmpb	$-65, 1(%rbx,%rcx)
	jle	.LBB0_17
	jmp	.LBB0_114
.LBB0_41:                               # %join.3.i.i.i.i.i.i.i.i.i
                                        #   in Loop: Header=BB0_19 Depth=2
	movq	(%rbx,%rcx), %rax
	andq	%r12, %rax
	je	.LBB0_52
# %bb.42:                               # %core_slice_words_first_in_word_52f9edcae2f82f51_exit_i_i_i_i_i_i_i_i_i_5
                                        #   in Loop: Header=BB0_19 Depth=2
	rep		bsfq	%rax, %rax
	shrl	$3, %eax
	addq	%rcx, %rax
	addq	$8, %rcx
	movq	%rax, %rdx
	cmpq	%rcx, %rax
	jb	.LBB0_18
# %bb.43:                               # %join.6.i.i.i.i.i.i.i.i.i
                                        #   in Loop: Header=BB0_19 Depth=2
	movq	%r14, %rcx
	subq	%rax, %rcx
	cmpq	$32, %rcx
	jae	.LBB0_53
	jmp	.LBB0_55
.LBB0_44:                               # %else.8.i.i.i.i.i.i.i.i.i
                                        #   in Loop: Header=BB0_19 Depth=2
	cmpb	$-17, %al
	ja	.LBB0_63
# %bb.45:                               # %then.10.i.i.i.i.i.i.i.i.i
                                        #   in Loop: Header=BB0_19 Depth=2
	cmpq	$3, %r8
	jb	.LBB0_114
# %bb.46:                               # %join.3.i6.i.i.i.i.i.i.i.i.i
                                        #   in Loop: Header=BB0_19 Depth=2
	movzbl	1(%rbx,%rcx), %edx
	cmpb	$-65, %dl
	jg	.LBB0_114
# %bb.47:                               # %join.3.i6.i.i.i.i.i.i.i.i.i
                                        #   in Loop: Header=BB0_19 Depth=2
	cmpb	$-65, 2(%rbx,%rcx)
	jg	.LBB0_114
# %bb.48:                               # %join.15.i.i.i.i.i.i.i.i.i.i
                                        #   in Loop: Header=BB0_19 Depth=2
	shll	$6, %eax
	leal	(%rax,%rdx), %r8d
	addl	$-14464, %r8d                   # imm = 0xC780
	cmpl	$32, %r8d
	jb	.LBB0_114
# %bb.49:                               # %else.17.i.i.i.i.i.i.i.i.i.i
                                        #   in Loop: Header=BB0_19 Depth=2
	xorl	%eax, %eax
	cmpl	$896, %r8d                      # imm = 0x380
	setae	%r9b
	movl	$3, %edx
	cmpl	$864, %r8d                      # imm = 0x360
	jb	.LBB0_17
# %bb.50:                               #   in Loop: Header=BB0_19 Depth=2
	movb	%r9b, %al
	leaq	(%rax,%rax,2), %rdx
	testq	%rdx, %rdx
	jne	.LBB0_17
	jmp	.LBB0_114
.LBB0_51:                               #   in Loop: Header=BB0_19 Depth=2
	movq	%rcx, %rdx
	jmp	.LBB0_18
.LBB0_52:                               # %core_slice_words_first_in_word_52f9edcae2f82f51_exit_thread_i_i_i_i_i_i_i_i_i_6
                                        #   in Loop: Header=BB0_19 Depth=2
	addq	$8, %rcx
	movq	%rcx, %rax
	movq	%r14, %rcx
	subq	%rax, %rcx
	cmpq	$32, %rcx
	jb	.LBB0_55
	.p2align	4
.LBB0_53:                               # %then.3.i.i.i.i.i.i.i.i.i.i
                                        #   Parent Loop BB0_1 Depth=1
                                        #     Parent Loop BB0_19 Depth=2
                                        # =>    This Inner Loop Header: Depth=3
	movdqu	(%rbx,%rax), %xmm0
	movdqu	16(%rbx,%rax), %xmm1
	por	%xmm0, %xmm1
	pshufd	$238, %xmm1, %xmm0              # xmm0 = xmm1[2,3,2,3]
	por	%xmm1, %xmm0
	movq	%xmm0, %rcx
	testq	%r12, %rcx
	jne	.LBB0_55
# %bb.54:                               # %join.5.i22.i.i.i.i.i.i.i.i.i
                                        #   in Loop: Header=BB0_53 Depth=3
	addq	$32, %rax
	leaq	544(%rsp), %rcx
	movq	%rax, %rdx
	movq	%r14, %r8
	callq	core_slice_words_skip_far_52f9edcae2f82f51_7
	movq	%r14, %rcx
	subq	%rax, %rcx
	cmpq	$31, %rcx
	ja	.LBB0_53
.LBB0_55:                               # %loop.8.i.i.i.i.i.i.i.i.i.preheader
                                        #   in Loop: Header=BB0_19 Depth=2
	movq	%r14, %rcx
	subq	%rax, %rcx
	jmp	.LBB0_58
	.p2align	4
.LBB0_56:                               # %then.1.i33.i.i.i.i.i.i.i.i.i
                                        #   in Loop: Header=BB0_58 Depth=3
	leaq	8(%rax), %rdx
	addq	$8, %rax
	addq	$-8, %rcx
	cmpq	%rax, %rdx
	jb	.LBB0_18
.LBB0_58:                               # %loop.8.i.i.i.i.i.i.i.i.i
                                        #   Parent Loop BB0_1 Depth=1
                                        #     Parent Loop BB0_19 Depth=2
                                        # =>    This Inner Loop Header: Depth=3
	cmpq	$9, %rcx
	jb	.LBB0_61
# %bb.59:                               # %join.11.i.i.i.i.i.i.i.i.i
                                        #   in Loop: Header=BB0_58 Depth=3
	movq	(%rbx,%rax), %rdx
	andq	%r12, %rdx
	je	.LBB0_56
# %bb.60:                               # %join.3.i28.i.i.i.i.i.i.i.i.i
                                        #   in Loop: Header=BB0_58 Depth=3
	rep		bsfq	%rdx, %rdx
	shrl	$3, %edx
	addq	%rax, %rdx
	addq	$8, %rax
	addq	$-8, %rcx
	cmpq	%rax, %rdx
	jae	.LBB0_58
	jmp	.LBB0_18
.LBB0_61:                               # %after.7.i.i.i.i.i.i.i.i.i
                                        #   in Loop: Header=BB0_19 Depth=2
	movq	(%rbx,%rsi), %rax
	andq	%r12, %rax
	je	.LBB0_69
# %bb.62:                               # %join.3.i40.i.i.i.i.i.i.i.i.i
                                        #   in Loop: Header=BB0_19 Depth=2
	rep		bsfq	%rax, %rdx
	shrl	$3, %edx
	addq	%rsi, %rdx
	jmp	.LBB0_18
.LBB0_63:                               # %else.11.i.i.i.i.i.i.i.i.i
                                        #   in Loop: Header=BB0_19 Depth=2
	cmpq	$4, %r8
	jb	.LBB0_114
# %bb.64:                               # %join.3.i11.i.i.i.i.i.i.i.i.i
                                        #   in Loop: Header=BB0_19 Depth=2
	movzbl	1(%rbx,%rcx), %edx
	cmpb	$-65, %dl
	jg	.LBB0_114
# %bb.65:                               # %join.3.i11.i.i.i.i.i.i.i.i.i
                                        #   in Loop: Header=BB0_19 Depth=2
	cmpb	$-65, 2(%rbx,%rcx)
	jg	.LBB0_114
# %bb.66:                               # %join.3.i11.i.i.i.i.i.i.i.i.i
                                        #   in Loop: Header=BB0_19 Depth=2
	cmpb	$-65, 3(%rbx,%rcx)
	jg	.LBB0_114
# %bb.67:                               # %join.21.i.i.i.i.i.i.i.i.i.i
                                        #   in Loop: Header=BB0_19 Depth=2
	shll	$6, %eax
	leal	(%rax,%rdx), %r8d
	addl	$-15488, %r8d                   # imm = 0xC380
	xorl	%edx, %edx
	cmpl	$272, %r8d                      # imm = 0x110
	setb	%al
	cmpl	$16, %r8d
	jb	.LBB0_114
# %bb.68:                               #   in Loop: Header=BB0_19 Depth=2
	movb	%al, %dl
	shll	$2, %edx
	testq	%rdx, %rdx
	jne	.LBB0_17
	jmp	.LBB0_114
	.p2align	4
.LBB0_69:                               # %arm.6.i.i.i.i
                                        #   in Loop: Header=BB0_1 Depth=1
	cmpq	%r13, 128(%rsp)
	je	.LBB0_71
.LBB0_70:                               # %join.9.i.i.i.i
                                        #   in Loop: Header=BB0_1 Depth=1
	leaq	(,%r13,2), %rax
	addq	%r13, %rax
	movq	64(%rsp), %rcx                  # 8-byte Reload
	movq	%rbx, (%rcx,%rax,8)
	movq	%r14, 8(%rcx,%rax,8)
	movq	%r15, 16(%rcx,%rax,8)
	incq	%r13
	movq	%r13, 120(%rsp)
	incq	%rdi
	cmpq	$-1, %rdi
	jne	.LBB0_1
	jmp	.LBB0_75
.LBB0_71:                               # %std_alloc_vec_Vec_grow_1b8c52373d8cd3cb_exit_i_i_i_i_i_8
                                        #   in Loop: Header=BB0_1 Depth=1
	leaq	112(%rsp), %rcx
	movl	$1, %edx
	callq	std_alloc_vec_Vec_grow_amortized_1b8c52373d8cd3cb_9
	testb	%al, %al
	je	.LBB0_342
# %bb.72:                               # %std_alloc_vec_Vec_grow_1b8c52373d8cd3cb_exit_join_3_crit_edge_i_i_i_i_i_10
                                        #   in Loop: Header=BB0_1 Depth=1
	movq	112(%rsp), %rax
	movq	%rax, 64(%rsp)                  # 8-byte Spill
	movq	120(%rsp), %r13
	jmp	.LBB0_70
.LBB0_73:                               # %arm.9.i.i.i.i.i.i.i
	cmpq	$0, 560(%rsp)
	je	.LBB0_75
# %bb.74:                               # %then.1.i.i.i49.i.i.i.i.i.i.i
	movq	%rbx, %rcx
	callq	rattle_dealloc
.LBB0_75:                               # %arm.1.i.i.i
	movq	112(%rsp), %rcx
	movq	128(%rsp), %r10
	testq	%r13, %r13
	je	.LBB0_95
# %bb.76:                               # %join.3.i.i.i.i.i.preheader.i.i.i.i.i.i.i.preheader
	leaq	40(%rcx), %r11
	leaq	48(%rsp), %rbx
	xorl	%edx, %edx
	movq	$0, 88(%rsp)                    # 8-byte Folded Spill
	xorl	%esi, %esi
	xorl	%r15d, %r15d
.LBB0_77:                               # %join.3.i.i.i.i.i.preheader.i.i.i.i.i.i.i
                                        # =>This Loop Header: Depth=1
                                        #     Child Loop BB0_78 Depth 2
	leaq	(%r15,%r15,2), %rax
	leaq	(%r11,%rax,8), %r12
	leaq	(%rsi,%rsi,2), %rax
	leaq	(%rbx,%rax,8), %rax
	movq	%rsi, %r8
	subq	%rdx, %r8
	xorl	%r14d, %r14d
	.p2align	4
.LBB0_78:                               # %join.3.i.i.i.i.i.i.i.i.i.i.i.i
                                        #   Parent Loop BB0_77 Depth=1
                                        # =>  This Inner Loop Header: Depth=2
	movq	%r8, %r9
	addq	%r14, %r9
	je	.LBB0_80
# %bb.79:                               # %join.9.i.i.i.i.i.i.i.i.i
                                        #   in Loop: Header=BB0_78 Depth=2
	leaq	-40(%r12), %r9
	movdqu	(%r9), %xmm0
	movq	16(%r9), %r9
	movq	%r9, 16(%rax)
	movdqu	%xmm0, (%rax)
	addq	$24, %r12
	addq	$24, %rax
	incq	%r14
	cmpq	%r14, %r13
	jne	.LBB0_78
	jmp	.LBB0_86
	.p2align	4
.LBB0_80:                               # %arm.3.i.i.i.i.i.i.i
                                        #   in Loop: Header=BB0_77 Depth=1
	movq	%rbx, %rax
	movq	-40(%r12), %rbx
	movq	-24(%r12), %rsi
	movups	-32(%r12), %xmm6
	movq	%rax, 544(%rsp)
	movq	%rdx, 552(%rsp)
	movq	88(%rsp), %r8                   # 8-byte Reload
	movq	%r8, 560(%rsp)
	movq	%r8, %rax
	subq	%rdx, %rax
	movq	%r13, %rdi
	subq	%r14, %rdi
	decq	%r13
	cmpq	%rax, %rdi
	ja	.LBB0_82
.LBB0_81:                               # %join.10.i.i.i.i.i.i.i
                                        #   in Loop: Header=BB0_77 Depth=1
	decq	%rdi
	addq	%r14, %r15
	incq	%r15
	movq	544(%rsp), %r9
	leaq	(%rdx,%rdx,2), %rax
	movq	%rbx, (%r9,%rax,8)
	movq	%r9, %rbx
	movups	%xmm6, 8(%r9,%rax,8)
	movq	%rdx, %rsi
	xorl	%edx, %edx
	incq	%rsi
	movq	%r8, 88(%rsp)                   # 8-byte Spill
	cmovneq	%r8, %rdx
	pxor	%xmm0, %xmm0
	movdqu	%xmm0, (%rbp)
	cmpq	%r14, %r13
	movq	%rdi, %r13
	jne	.LBB0_77
	jmp	.LBB0_87
.LBB0_82:                               # %std_alloc_vec_Vec_grow_1b8c52373d8cd3cb_exit_i_i_i_i_i_i_i_i_11
                                        #   in Loop: Header=BB0_77 Depth=1
	movq	%r11, 96(%rsp)                  # 8-byte Spill
	movq	%r10, 64(%rsp)                  # 8-byte Spill
	movq	%rcx, 88(%rsp)                  # 8-byte Spill
	leaq	544(%rsp), %rcx
	movq	%rdi, %rdx
	callq	std_alloc_vec_Vec_grow_amortized_1b8c52373d8cd3cb_9
	movq	552(%rsp), %rdx
	movq	560(%rsp), %rcx
	movq	%rcx, %r8
	cmpq	%rdx, %rcx
	setne	%cl
	orb	%al, %cl
	je	.LBB0_84
.LBB0_83:                               #   in Loop: Header=BB0_77 Depth=1
	movq	88(%rsp), %rcx                  # 8-byte Reload
	movq	64(%rsp), %r10                  # 8-byte Reload
	movq	96(%rsp), %r11                  # 8-byte Reload
	jmp	.LBB0_81
.LBB0_84:                               # %std_alloc_vec_Vec_grow_by_hint_1b8c52373d8cd3cb_exit_i_i_i_i_i_i_i_12
                                        #   in Loop: Header=BB0_77 Depth=1
	leaq	544(%rsp), %rcx
	movl	$1, %edx
	callq	std_alloc_vec_Vec_grow_amortized_1b8c52373d8cd3cb_9
	testb	%al, %al
	je	.LBB0_354
# %bb.85:                               # %std_alloc_vec_Vec_grow_by_hint_1b8c52373d8cd3cb_exit_join_10_crit_edge_i_i_i_i_i_i_i_13
                                        #   in Loop: Header=BB0_77 Depth=1
	movq	552(%rsp), %rdx
	movq	560(%rsp), %r8
	jmp	.LBB0_83
.LBB0_86:                               # %arm.4.i.i.i.i4.i.i.i.loopexit
	addq	%r14, %rsi
.LBB0_87:                               # %arm.4.i.i.i.i4.i.i.i
	testq	%r10, %r10
	je	.LBB0_89
.LBB0_88:                               # %then.1.i.i.i.i.i.i.i.i.i.i.i.i
	callq	rattle_dealloc
.LBB0_89:                               # %arm.1.i.i.i.i
	pxor	%xmm0, %xmm0
	movdqa	%xmm0, 112(%rsp)
	movq	$0, 128(%rsp)
	testq	%rsi, %rsi
	je	.LBB0_96
# %bb.90:                               # %then.5.i.i.i.i
	movq	(%rbx), %rdi
	movq	%rbx, %rcx
	movq	16(%rbx), %rbx
	leaq	-1(%rsi), %r13
	xorl	%eax, %eax
	movq	%rcx, %r14
	cmpq	$86, %r13
	jb	.LBB0_97
	.p2align	4
.LBB0_91:                               # %core_slots_Slots_move_at_once_483ec8513fd57e54_exit_i_i_i_i_i_14
                                        # =>This Inner Loop Header: Depth=1
	movq	40(%rcx), %rdx
	movq	%rdx, 16(%rcx)
	movups	24(%rcx), %xmm0
	movups	%xmm0, (%rcx)
	movups	48(%rcx), %xmm0
	movups	%xmm0, 24(%rcx)
	movq	64(%rcx), %rdx
	movq	%rdx, 40(%rcx)
	movups	72(%rcx), %xmm0
	movups	%xmm0, 48(%rcx)
	movq	88(%rcx), %rdx
	movq	%rdx, 64(%rcx)
	movups	96(%rcx), %xmm0
	movups	%xmm0, 72(%rcx)
	movq	112(%rcx), %rdx
	movq	%rdx, 88(%rcx)
	movq	136(%rcx), %rdx
	movq	%rdx, 112(%rcx)
	movups	120(%rcx), %xmm0
	movups	%xmm0, 96(%rcx)
	movq	160(%rcx), %rdx
	movq	%rdx, 136(%rcx)
	movups	144(%rcx), %xmm0
	movups	%xmm0, 120(%rcx)
	movq	184(%rcx), %rdx
	movq	%rdx, 160(%rcx)
	movups	168(%rcx), %xmm0
	movups	%xmm0, 144(%rcx)
	movq	208(%rcx), %rdx
	movq	%rdx, 184(%rcx)
	movups	192(%rcx), %xmm0
	movups	%xmm0, 168(%rcx)
	movq	232(%rcx), %rdx
	movq	%rdx, 208(%rcx)
	movups	216(%rcx), %xmm0
	movups	%xmm0, 192(%rcx)
	movq	256(%rcx), %rdx
	movq	%rdx, 232(%rcx)
	movups	240(%rcx), %xmm0
	movups	%xmm0, 216(%rcx)
	movq	280(%rcx), %rdx
	movq	%rdx, 256(%rcx)
	movups	264(%rcx), %xmm0
	movups	%xmm0, 240(%rcx)
	movq	304(%rcx), %rdx
	movq	%rdx, 280(%rcx)
	movups	288(%rcx), %xmm0
	movups	%xmm0, 264(%rcx)
	movq	328(%rcx), %rdx
	movq	%rdx, 304(%rcx)
	movups	312(%rcx), %xmm0
	movups	%xmm0, 288(%rcx)
	movq	352(%rcx), %rdx
	movq	%rdx, 328(%rcx)
	movups	336(%rcx), %xmm0
	movups	%xmm0, 312(%rcx)
	movq	376(%rcx), %rdx
	movq	%rdx, 352(%rcx)
	movups	360(%rcx), %xmm0
	movups	%xmm0, 336(%rcx)
	movq	400(%rcx), %rdx
	movq	%rdx, 376(%rcx)
	movups	384(%rcx), %xmm0
	movups	%xmm0, 360(%rcx)
	movq	424(%rcx), %rdx
	movq	%rdx, 400(%rcx)
	movups	408(%rcx), %xmm0
	movups	%xmm0, 384(%rcx)
	movq	448(%rcx), %rdx
	movq	%rdx, 424(%rcx)
	movups	432(%rcx), %xmm0
	movups	%xmm0, 408(%rcx)
	movq	472(%rcx), %rdx
	movq	%rdx, 448(%rcx)
	movups	456(%rcx), %xmm0
	movups	%xmm0, 432(%rcx)
	movq	496(%rcx), %rdx
	movq	%rdx, 472(%rcx)
	movups	480(%rcx), %xmm0
	movups	%xmm0, 456(%rcx)
	movq	520(%rcx), %rdx
	movq	%rdx, 496(%rcx)
	movups	504(%rcx), %xmm0
	movups	%xmm0, 480(%rcx)
	movq	544(%rcx), %rdx
	movq	%rdx, 520(%rcx)
	movups	528(%rcx), %xmm0
	movups	%xmm0, 504(%rcx)
	movq	568(%rcx), %rdx
	movq	%rdx, 544(%rcx)
	movups	552(%rcx), %xmm0
	movups	%xmm0, 528(%rcx)
	movq	592(%rcx), %rdx
	movq	%rdx, 568(%rcx)
	movups	576(%rcx), %xmm0
	movups	%xmm0, 552(%rcx)
	movq	616(%rcx), %rdx
	movq	%rdx, 592(%rcx)
	movups	600(%rcx), %xmm0
	movups	%xmm0, 576(%rcx)
	movq	640(%rcx), %rdx
	movq	%rdx, 616(%rcx)
	movups	624(%rcx), %xmm0
	movups	%xmm0, 600(%rcx)
	movq	664(%rcx), %rdx
	movq	%rdx, 640(%rcx)
	movups	648(%rcx), %xmm0
	movups	%xmm0, 624(%rcx)
	movq	688(%rcx), %rdx
	movq	%rdx, 664(%rcx)
	movups	672(%rcx), %xmm0
	movups	%xmm0, 648(%rcx)
	movq	712(%rcx), %rdx
	movq	%rdx, 688(%rcx)
	movups	696(%rcx), %xmm0
	movups	%xmm0, 672(%rcx)
	movq	736(%rcx), %rdx
	movq	%rdx, 712(%rcx)
	movups	720(%rcx), %xmm0
	movups	%xmm0, 696(%rcx)
	movq	760(%rcx), %rdx
	movq	%rdx, 736(%rcx)
	movups	744(%rcx), %xmm0
	movups	%xmm0, 720(%rcx)
	movq	784(%rcx), %rdx
	movq	%rdx, 760(%rcx)
	movups	768(%rcx), %xmm0
	movups	%xmm0, 744(%rcx)
	movq	808(%rcx), %rdx
	movq	%rdx, 784(%rcx)
	movups	792(%rcx), %xmm0
	movups	%xmm0, 768(%rcx)
	movq	832(%rcx), %rdx
	movq	%rdx, 808(%rcx)
	movups	816(%rcx), %xmm0
	movups	%xmm0, 792(%rcx)
	movq	856(%rcx), %rdx
	movq	%rdx, 832(%rcx)
	movups	840(%rcx), %xmm0
	movups	%xmm0, 816(%rcx)
	movq	880(%rcx), %rdx
	movq	%rdx, 856(%rcx)
	movups	864(%rcx), %xmm0
	movups	%xmm0, 840(%rcx)
	movq	904(%rcx), %rdx
	movq	%rdx, 880(%rcx)
	movups	888(%rcx), %xmm0
	movups	%xmm0, 864(%rcx)
	movq	928(%rcx), %rdx
	movq	%rdx, 904(%rcx)
	movups	912(%rcx), %xmm0
	movups	%xmm0, 888(%rcx)
	movq	952(%rcx), %rdx
	movq	%rdx, 928(%rcx)
	movups	936(%rcx), %xmm0
	movups	%xmm0, 912(%rcx)
	movq	976(%rcx), %rdx
	movq	%rdx, 952(%rcx)
	movups	960(%rcx), %xmm0
	movups	%xmm0, 936(%rcx)
	movq	1000(%rcx), %rdx
	movq	%rdx, 976(%rcx)
	movups	984(%rcx), %xmm0
	movups	%xmm0, 960(%rcx)
	movq	1024(%rcx), %rdx
	movq	%rdx, 1000(%rcx)
	movups	1008(%rcx), %xmm0
	movups	%xmm0, 984(%rcx)
	movq	1048(%rcx), %rdx
	movq	%rdx, 1024(%rcx)
	movups	1032(%rcx), %xmm0
	movups	%xmm0, 1008(%rcx)
	movq	1072(%rcx), %rdx
	movq	%rdx, 1048(%rcx)
	movups	1056(%rcx), %xmm0
	movups	%xmm0, 1032(%rcx)
	movq	1096(%rcx), %rdx
	movq	%rdx, 1072(%rcx)
	movups	1080(%rcx), %xmm0
	movups	%xmm0, 1056(%rcx)
	movq	1120(%rcx), %rdx
	movq	%rdx, 1096(%rcx)
	movups	1104(%rcx), %xmm0
	movups	%xmm0, 1080(%rcx)
	movq	1144(%rcx), %rdx
	movq	%rdx, 1120(%rcx)
	movups	1128(%rcx), %xmm0
	movups	%xmm0, 1104(%rcx)
	movq	1168(%rcx), %rdx
	movq	%rdx, 1144(%rcx)
	movups	1152(%rcx), %xmm0
	movups	%xmm0, 1128(%rcx)
	movq	1192(%rcx), %rdx
	movq	%rdx, 1168(%rcx)
	movups	1176(%rcx), %xmm0
	movups	%xmm0, 1152(%rcx)
	movq	1216(%rcx), %rdx
	movq	%rdx, 1192(%rcx)
	movups	1200(%rcx), %xmm0
	movups	%xmm0, 1176(%rcx)
	movq	1240(%rcx), %rdx
	movq	%rdx, 1216(%rcx)
	movups	1224(%rcx), %xmm0
	movups	%xmm0, 1200(%rcx)
	movq	1264(%rcx), %rdx
	movq	%rdx, 1240(%rcx)
	movups	1248(%rcx), %xmm0
	movups	%xmm0, 1224(%rcx)
	movq	1288(%rcx), %rdx
	movq	%rdx, 1264(%rcx)
	movups	1272(%rcx), %xmm0
	movups	%xmm0, 1248(%rcx)
	movq	1312(%rcx), %rdx
	movq	%rdx, 1288(%rcx)
	movups	1296(%rcx), %xmm0
	movups	%xmm0, 1272(%rcx)
	movq	1336(%rcx), %rdx
	movq	%rdx, 1312(%rcx)
	movups	1320(%rcx), %xmm0
	movups	%xmm0, 1296(%rcx)
	movq	1360(%rcx), %rdx
	movq	%rdx, 1336(%rcx)
	movups	1344(%rcx), %xmm0
	movups	%xmm0, 1320(%rcx)
	movq	1384(%rcx), %rdx
	movq	%rdx, 1360(%rcx)
	movups	1368(%rcx), %xmm0
	movups	%xmm0, 1344(%rcx)
	movq	1408(%rcx), %rdx
	movq	%rdx, 1384(%rcx)
	movups	1392(%rcx), %xmm0
	movups	%xmm0, 1368(%rcx)
	movq	1432(%rcx), %rdx
	movq	%rdx, 1408(%rcx)
	movups	1416(%rcx), %xmm0
	movups	%xmm0, 1392(%rcx)
	movq	1456(%rcx), %rdx
	movq	%rdx, 1432(%rcx)
	movups	1440(%rcx), %xmm0
	movups	%xmm0, 1416(%rcx)
	movq	1480(%rcx), %rdx
	movq	%rdx, 1456(%rcx)
	movups	1464(%rcx), %xmm0
	movups	%xmm0, 1440(%rcx)
	movq	1504(%rcx), %rdx
	movq	%rdx, 1480(%rcx)
	movups	1488(%rcx), %xmm0
	movups	%xmm0, 1464(%rcx)
	movq	1528(%rcx), %rdx
	movq	%rdx, 1504(%rcx)
	movups	1512(%rcx), %xmm0
	movups	%xmm0, 1488(%rcx)
	movq	1552(%rcx), %rdx
	movq	%rdx, 1528(%rcx)
	movups	1536(%rcx), %xmm0
	movups	%xmm0, 1512(%rcx)
	movq	1576(%rcx), %rdx
	movq	%rdx, 1552(%rcx)
	movups	1560(%rcx), %xmm0
	movups	%xmm0, 1536(%rcx)
	movq	1600(%rcx), %rdx
	movq	%rdx, 1576(%rcx)
	movups	1584(%rcx), %xmm0
	movups	%xmm0, 1560(%rcx)
	movq	1624(%rcx), %rdx
	movq	%rdx, 1600(%rcx)
	movups	1608(%rcx), %xmm0
	movups	%xmm0, 1584(%rcx)
	movq	1648(%rcx), %rdx
	movq	%rdx, 1624(%rcx)
	movups	1632(%rcx), %xmm0
	movups	%xmm0, 1608(%rcx)
	movq	1672(%rcx), %rdx
	movq	%rdx, 1648(%rcx)
	movups	1656(%rcx), %xmm0
	movups	%xmm0, 1632(%rcx)
	movq	1696(%rcx), %rdx
	movq	%rdx, 1672(%rcx)
	movups	1680(%rcx), %xmm0
	movups	%xmm0, 1656(%rcx)
	movq	1720(%rcx), %rdx
	movq	%rdx, 1696(%rcx)
	movups	1704(%rcx), %xmm0
	movups	%xmm0, 1680(%rcx)
	movq	1744(%rcx), %rdx
	movq	%rdx, 1720(%rcx)
	movups	1728(%rcx), %xmm0
	movups	%xmm0, 1704(%rcx)
	movq	1768(%rcx), %rdx
	movq	%rdx, 1744(%rcx)
	movups	1752(%rcx), %xmm0
	movups	%xmm0, 1728(%rcx)
	movq	1792(%rcx), %rdx
	movq	%rdx, 1768(%rcx)
	movups	1776(%rcx), %xmm0
	movups	%xmm0, 1752(%rcx)
	movq	1816(%rcx), %rdx
	movq	%rdx, 1792(%rcx)
	movups	1800(%rcx), %xmm0
	movups	%xmm0, 1776(%rcx)
	movq	1840(%rcx), %rdx
	movq	%rdx, 1816(%rcx)
	movups	1824(%rcx), %xmm0
	movups	%xmm0, 1800(%rcx)
	movq	1864(%rcx), %rdx
	movq	%rdx, 1840(%rcx)
	movups	1848(%rcx), %xmm0
	movups	%xmm0, 1824(%rcx)
	movq	1888(%rcx), %rdx
	movq	%rdx, 1864(%rcx)
	movups	1872(%rcx), %xmm0
	movups	%xmm0, 1848(%rcx)
	movq	1912(%rcx), %rdx
	movq	%rdx, 1888(%rcx)
	movups	1896(%rcx), %xmm0
	movups	%xmm0, 1872(%rcx)
	movq	1936(%rcx), %rdx
	movq	%rdx, 1912(%rcx)
	movups	1920(%rcx), %xmm0
	movups	%xmm0, 1896(%rcx)
	movq	1960(%rcx), %rdx
	movq	%rdx, 1936(%rcx)
	movups	1944(%rcx), %xmm0
	movups	%xmm0, 1920(%rcx)
	movq	1984(%rcx), %rdx
	movq	%rdx, 1960(%rcx)
	movups	1968(%rcx), %xmm0
	movups	%xmm0, 1944(%rcx)
	movq	2008(%rcx), %rdx
	movq	%rdx, 1984(%rcx)
	movups	1992(%rcx), %xmm0
	movups	%xmm0, 1968(%rcx)
	movq	2032(%rcx), %rdx
	movq	%rdx, 2008(%rcx)
	movups	2016(%rcx), %xmm0
	movups	%xmm0, 1992(%rcx)
	movq	2056(%rcx), %rdx
	movq	%rdx, 2032(%rcx)
	movdqu	2040(%rcx), %xmm0
	movdqu	%xmm0, 2016(%rcx)
	addq	$2040, %rcx                     # imm = 0x7F8
	leaq	(%rax,%r13), %rdx
	addq	$-85, %rdx
	addq	$-85, %rax
	cmpq	$85, %rdx
	ja	.LBB0_91
# %bb.92:                               # %core_slots_Slots_move_back_483ec8513fd57e54_exit_i_i_i_i_i_15
	cmpq	$1, %rax
	jne	.LBB0_122
# %bb.93:                               # %join.5.i33.i.i.i.i.i.preheader
	addq	%r13, %rax
	leaq	(%rsi,%rsi,2), %rcx
	leaq	(%r14,%rcx,8), %rcx
	addq	$-24, %rcx
	.p2align	4
.LBB0_94:                               # %join.5.i33.i.i.i.i.i
                                        # =>This Inner Loop Header: Depth=1
	movq	16(%rcx), %rdx
	movq	%rdx, -8(%rcx)
	movdqu	(%rcx), %xmm0
	movdqu	%xmm0, -24(%rcx)
	addq	$-24, %rcx
	decq	%rax
	jne	.LBB0_94
	jmp	.LBB0_99
.LBB0_95:
	leaq	48(%rsp), %rbx
	movq	$0, 88(%rsp)                    # 8-byte Folded Spill
	xorl	%esi, %esi
	testq	%r10, %r10
	jne	.LBB0_88
	jmp	.LBB0_89
.LBB0_96:                               # %arm.1.thread.i.i.i
	movq	%rbx, 80(%rsp)                  # 8-byte Spill
	movb	$1, 47(%rsp)                    # 1-byte Folded Spill
	xorl	%r13d, %r13d
	xorl	%esi, %esi
	movq	$0, 56(%rsp)                    # 8-byte Folded Spill
	jmp	.LBB0_138
.LBB0_97:
	movq	%r13, %r8
	cmpq	%rax, %r13
	je	.LBB0_99
.LBB0_98:                               # %join.5.i25.i.preheader.i.i.i.i
	leaq	24(%rcx), %rdx
	shlq	$3, %r8
	leaq	(%r8,%r8,2), %r8
	callq	memmove
.LBB0_99:                               # %std_alloc_vec_Vec_remove_1b8c52373d8cd3cb_exit_i_i_i_i_16
	testq	%rbx, %rbx
	je	.LBB0_101
# %bb.100:                              # %then.1.i.i.i.i.i61.i.i
	movq	%rdi, %rcx
	callq	rattle_dealloc
.LBB0_101:                              # %arm.1.i21.i.i
	movq	%r14, %rbx
	testq	%r13, %r13
	je	.LBB0_137
.LBB0_102:                              # %arm.1.i21.i.i
	cmpq	$1, %r13
	jne	.LBB0_106
# %bb.103:                              # %then.5.i.i.i.i.i
	cmpq	$7, 8(%rbx)
	jne	.LBB0_113
# %bb.104:                              # %text_programs_programs_requests_request_of_40a73cb1e87492e9_exit_i_i_i_i_17
	movq	(%rbx), %rax
	movl	(%rax), %ecx
	movl	3(%rax), %eax
	shlq	$32, %rax
	orq	%rcx, %rax
	movabsq	$7306934700250836269, %rcx      # imm = 0x65677265656D2D2D
	cmpq	%rcx, %rax
	jne	.LBB0_113
# %bb.105:
	movq	%rbx, 80(%rsp)                  # 8-byte Spill
	movb	$1, %sil
	movl	$1, %r13d
	movq	$0, 56(%rsp)                    # 8-byte Folded Spill
	movb	$1, 47(%rsp)                    # 1-byte Folded Spill
	jmp	.LBB0_138
.LBB0_106:                              # %join.7.i.i.i.i.i
	cmpq	$2, %r13
	ja	.LBB0_113
# %bb.107:                              # %then.11.i.i.i.i.i
	cmpq	$6, 8(%rbx)
	jne	.LBB0_113
# %bb.108:                              # %text_programs_programs_requests_is_text_e3b2a9d4d2861db8_exit_i_i_i_i_i_i_18
	movq	(%rbx), %rax
	movl	(%rax), %ecx
	movl	2(%rax), %eax
	shlq	$32, %rax
	orq	%rcx, %rax
	movabsq	$8314892193955654957, %rcx      # imm = 0x73646E656E652D2D
	cmpq	%rcx, %rax
	jne	.LBB0_113
# %bb.109:                              # %then.1.i.i.i.i.i.i
	movq	32(%rbx), %rsi
	testq	%rsi, %rsi
	je	.LBB0_113
# %bb.110:                              # %loop.2.i.i.preheader.i.i.i.i.i.i
	movq	24(%rbx), %rdi
	xorl	%eax, %eax
.LBB0_111:                              # %loop.2.i.i.i.i.i.i.i.i
                                        # =>This Inner Loop Header: Depth=1
	cmpq	%rax, %rsi
	je	.LBB0_326
# %bb.112:                              # %arm.3.i.i.i.i.i.i.i.i
                                        #   in Loop: Header=BB0_111 Depth=1
	movzbl	(%rdi,%rax), %ecx
	andb	$-5, %cl
	incq	%rax
	xorl	%ebp, %ebp
	cmpb	$66, %cl
	je	.LBB0_111
	jmp	.LBB0_299
.LBB0_113:                              # %arm.6.thread.i.i.i
	xorl	%ecx, %ecx
	callq	text_programs_programs_stops_Stop_report_2daa2fb2be07fb73_19
	movl	%eax, %edi
	jmp	.LBB0_300
.LBB0_114:                              # %arm.5.i.i.i.i.i.i
	testq	%r15, %r15
	je	.LBB0_116
# %bb.115:                              # %then.1.i.i.i.i.i.i.i.i.i
	movq	%rbx, %rcx
	callq	rattle_dealloc
.LBB0_116:                              # %arm.18.i.i.i.i
	movq	128(%rsp), %rsi
	testq	%r13, %r13
	je	.LBB0_121
# %bb.117:                              # %join.5.i.i.i.i.i49.i.i.i.i.preheader
	movq	64(%rsp), %rax                  # 8-byte Reload
	leaq	16(%rax), %rdi
	jmp	.LBB0_119
	.p2align	4
.LBB0_118:                              # %core_mem_drop_f02d343d93693c10_exit_i_i_i_i_i58_i_i_i_i_20
                                        #   in Loop: Header=BB0_119 Depth=1
	addq	$24, %rdi
	decq	%r13
	je	.LBB0_121
.LBB0_119:                              # %join.5.i.i.i.i.i49.i.i.i.i
                                        # =>This Inner Loop Header: Depth=1
	cmpq	$0, (%rdi)
	je	.LBB0_118
# %bb.120:                              # %then.1.i.i.i.i.i.i.i.i.i.i56.i.i.i.i
                                        #   in Loop: Header=BB0_119 Depth=1
	movq	-16(%rdi), %rcx
	callq	rattle_dealloc
	jmp	.LBB0_118
.LBB0_121:                              # %std_alloc_vec_Vec_clear_4feeb2b446188e7f_exit_i61_i_i_i_i_21
	movl	$21, %edi
	testq	%rsi, %rsi
	jne	.LBB0_131
	jmp	.LBB0_133
.LBB0_122:
	leaq	(%rax,%r13), %r8
	negq	%rax
	cmpq	%rax, %r13
	jne	.LBB0_98
	jmp	.LBB0_99
.LBB0_123:                              # %then.1.i.i.i.i.i.i.i
	cmpq	$0, 560(%rsp)
	je	.LBB0_125
# %bb.124:                              # %then.1.i.i.i.i.i.i.i.i.i.i
	movq	544(%rsp), %rcx
	callq	rattle_dealloc
.LBB0_125:                              # %arm.17.i.i.i.i
	movq	128(%rsp), %rsi
	testq	%r13, %r13
	je	.LBB0_130
# %bb.126:                              # %join.5.i.i.i.i.i25.i.i.i.i.preheader
	movq	64(%rsp), %rax                  # 8-byte Reload
	leaq	16(%rax), %rdi
	jmp	.LBB0_128
	.p2align	4
.LBB0_127:                              # %core_mem_drop_f02d343d93693c10_exit_i_i_i_i_i34_i_i_i_i_22
                                        #   in Loop: Header=BB0_128 Depth=1
	addq	$24, %rdi
	decq	%r13
	je	.LBB0_130
.LBB0_128:                              # %join.5.i.i.i.i.i25.i.i.i.i
                                        # =>This Inner Loop Header: Depth=1
	cmpq	$0, (%rdi)
	je	.LBB0_127
# %bb.129:                              # %then.1.i.i.i.i.i.i.i.i.i.i32.i.i.i.i
                                        #   in Loop: Header=BB0_128 Depth=1
	movq	-16(%rdi), %rcx
	callq	rattle_dealloc
	jmp	.LBB0_127
.LBB0_130:                              # %std_alloc_vec_Vec_clear_4feeb2b446188e7f_exit_i37_i_i_i_i_23
	movl	$38, %edi
	testq	%rsi, %rsi
	je	.LBB0_133
.LBB0_131:                              # %then.1.i.i.i39.i.i.i.i
	movq	64(%rsp), %rcx                  # 8-byte Reload
.LBB0_132:                              # %arm.2.i.i.i.i
	callq	rattle_dealloc
.LBB0_133:                              # %arm.2.i.i.i.i
	pxor	%xmm0, %xmm0
	movdqa	%xmm0, 112(%rsp)
	movq	$0, 128(%rsp)
	movaps	.LCPI0_0(%rip), %xmm1           # xmm1 = [0,1,2,3,4,5,6,7,8,9,10,11,12,13,14,15]
	movaps	%xmm1, 544(%rsp)
	movdqa	.LCPI0_1(%rip), %xmm1           # xmm1 = [16,17,18,19,20,21,22,23,24,25,26,27,28,29,30,31]
	movdqa	%xmm1, 560(%rsp)
	movabsq	$2820983053732684064, %rax      # imm = 0x2726252423222120
	movq	%rax, 576(%rsp)
	movb	$40, 584(%rsp)
	cmpb	$21, 544(%rsp,%rdi)
	je	.LBB0_135
.LBB0_134:                              # %arm.2.i1.i.i
	movb	$3, %cl
	callq	text_programs_programs_stops_Stop_report_2daa2fb2be07fb73_19
	movl	%eax, %edi
	jmp	.LBB0_317
.LBB0_135:                              # %then.9.i.i.i.i
	leaq	48(%rsp), %rsi
	movq	%rsi, 112(%rsp)
	movdqu	%xmm0, 120(%rsp)
	leaq	112(%rsp), %rcx
	movl	$1, %edx
	callq	std_alloc_vec_Vec_grow_amortized_1b8c52373d8cd3cb_9
	movq	128(%rsp), %r14
	testb	%al, %al
	je	.LBB0_246
# %bb.136:                              # %std_alloc_vec_Vec_grow_1b8c52373d8cd3cb_exit_join_3_crit_edge_i_i_i15_i_i_24
	movq	%r14, 88(%rsp)                  # 8-byte Spill
	movq	112(%rsp), %rbx
	movq	120(%rsp), %r13
	leaq	(,%r13,2), %rax
	addq	%r13, %rax
	movq	%rsi, (%rbx,%rax,8)
	incq	%r13
	pxor	%xmm0, %xmm0
	movdqu	%xmm0, 8(%rbx,%rax,8)
	testq	%r13, %r13
	jne	.LBB0_102
.LBB0_137:
	movq	%rbx, 80(%rsp)                  # 8-byte Spill
	movb	$1, 47(%rsp)                    # 1-byte Folded Spill
	xorl	%esi, %esi
	movq	%r13, 56(%rsp)                  # 8-byte Spill
.LBB0_138:                              # %arm.1.i8.i.i.i
	movq	$0, 96(%rsp)                    # 8-byte Folded Spill
.LBB0_139:                              # %arm.1.i8.i.i.i
	leaq	48(%rsp), %rbx
	movq	%rbx, 256(%rsp)
	pxor	%xmm0, %xmm0
	movdqu	%xmm0, 264(%rsp)
	xorl	%r14d, %r14d
	leaq	544(%rsp), %rcx
	movl	$65536, %r8d                    # imm = 0x10000
	xorl	%edx, %edx
	callq	memset
	movq	$0, 64(%rsp)                    # 8-byte Folded Spill
	xorl	%ebp, %ebp
	jmp	.LBB0_143
	.p2align	4
.LBB0_140:                              # %apart.2.i.i.i.i.i.i.i.i.i
                                        #   in Loop: Header=BB0_143 Depth=1
	leaq	544(%rsp), %rdx
	movq	%r15, %r8
	callq	memmove
.LBB0_141:                              # %text_programs_programs_pieces_program_add_e3b2a9d4d2861db8_exit_thread_i_i_i_i_i_25
                                        #   in Loop: Header=BB0_143 Depth=1
	addq	%r15, %r14
	movq	%r14, 264(%rsp)
	movq	64(%rsp), %rax                  # 8-byte Reload
	movq	%rax, 272(%rsp)
.LBB0_142:                              # %join.9.i.i.i.i.i
                                        #   in Loop: Header=BB0_143 Depth=1
	incq	%rbp
	cmpq	$-1, %rbp
	je	.LBB0_170
.LBB0_143:                              # %join.5.i.i.i.i.i
                                        # =>This Loop Header: Depth=1
                                        #     Child Loop BB0_156 Depth 2
                                        #     Child Loop BB0_160 Depth 2
                                        #     Child Loop BB0_164 Depth 2
                                        #     Child Loop BB0_167 Depth 2
	leaq	544(%rsp), %r12
	movl	$65536, %r15d                   # imm = 0x10000
	movl	$65536, %r8d                    # imm = 0x10000
	xorl	%ecx, %ecx
	movq	%r12, %rdx
	callq	noddychest_read
	testq	%rax, %rax
	js	.LBB0_149
# %bb.144:                              # %arm.6.i.i.i.i.i
                                        #   in Loop: Header=BB0_143 Depth=1
	cmpq	$65536, %rax                    # imm = 0x10000
	cmovbq	%rax, %r15
	testq	%rax, %rax
	je	.LBB0_176
# %bb.145:                              # %default.11.i.i.i.i.i
                                        #   in Loop: Header=BB0_143 Depth=1
	movq	64(%rsp), %rcx                  # 8-byte Reload
	subq	%r14, %rcx
	cmpq	%rcx, %r15
	ja	.LBB0_168
.LBB0_146:                              # %join.3.i.i.i15.i.i.i.i
                                        #   in Loop: Header=BB0_143 Depth=1
	leaq	(%rbx,%r14), %rcx
	movq	%rcx, %rdx
	subq	%r12, %rdx
	cmpq	%r15, %rdx
	jae	.LBB0_140
# %bb.147:                              # %iter.check
                                        #   in Loop: Header=BB0_143 Depth=1
	cmpq	$4, %rax
	jb	.LBB0_148
# %bb.151:                              # %vector.memcheck
                                        #   in Loop: Header=BB0_143 Depth=1
	movq	%r14, %rdx
	subq	%r12, %rdx
	addq	%rbx, %rdx
	cmpq	$32, %rdx
	jae	.LBB0_153
.LBB0_148:                              #   in Loop: Header=BB0_143 Depth=1
	xorl	%eax, %eax
.LBB0_162:                              # %join.7.i.i.i.i.i.i.i.i.i.preheader
                                        #   in Loop: Header=BB0_143 Depth=1
	movq	%r15, %r8
	movq	%rax, %rdx
	andq	$3, %r8
	je	.LBB0_165
# %bb.163:                              # %join.7.i.i.i.i.i.i.i.i.i.prol.preheader
                                        #   in Loop: Header=BB0_143 Depth=1
	movq	%rax, %rdx
	.p2align	4
.LBB0_164:                              # %join.7.i.i.i.i.i.i.i.i.i.prol
                                        #   Parent Loop BB0_143 Depth=1
                                        # =>  This Inner Loop Header: Depth=2
	movzbl	544(%rsp,%rdx), %r9d
	movb	%r9b, (%rcx,%rdx)
	incq	%rdx
	decq	%r8
	jne	.LBB0_164
.LBB0_165:                              # %join.7.i.i.i.i.i.i.i.i.i.prol.loopexit
                                        #   in Loop: Header=BB0_143 Depth=1
	subq	%r15, %rax
	cmpq	$-4, %rax
	ja	.LBB0_141
# %bb.166:                              # %join.7.i.i.i.i.i.i.i.i.i.preheader348
                                        #   in Loop: Header=BB0_143 Depth=1
	leaq	(%rbx,%r14), %rax
	addq	$3, %rax
	.p2align	4
.LBB0_167:                              # %join.7.i.i.i.i.i.i.i.i.i
                                        #   Parent Loop BB0_143 Depth=1
                                        # =>  This Inner Loop Header: Depth=2
	movzbl	544(%rsp,%rdx), %ecx
	movb	%cl, -3(%rax,%rdx)
	movzbl	545(%rsp,%rdx), %ecx
	movb	%cl, -2(%rax,%rdx)
	movzbl	546(%rsp,%rdx), %ecx
	movb	%cl, -1(%rax,%rdx)
	movzbl	547(%rsp,%rdx), %ecx
	movb	%cl, (%rax,%rdx)
	addq	$4, %rdx
	cmpq	%rdx, %r15
	jne	.LBB0_167
	jmp	.LBB0_141
	.p2align	4
.LBB0_149:                              # %arm.7.i.i.i.i.i
                                        #   in Loop: Header=BB0_143 Depth=1
	leaq	112(%rsp), %rcx
	callq	std_io_io_error_last_error_26
	movq	112(%rsp), %rax
	shrq	$8, %rax
	movaps	.LCPI0_0(%rip), %xmm0           # xmm0 = [0,1,2,3,4,5,6,7,8,9,10,11,12,13,14,15]
	movaps	%xmm0, 112(%rsp)
	movdqa	.LCPI0_1(%rip), %xmm0           # xmm0 = [16,17,18,19,20,21,22,23,24,25,26,27,28,29,30,31]
	movdqa	%xmm0, 128(%rsp)
	movabsq	$2820983053732684064, %rcx      # imm = 0x2726252423222120
	movq	%rcx, 144(%rsp)
	movb	$40, 152(%rsp)
	cmpb	$41, %al
	jae	.LBB0_172
# %bb.150:                              # %std_io_io_error_Error_kind_exit51_i_i_i_i_i_27
                                        #   in Loop: Header=BB0_143 Depth=1
	andl	$63, %eax
	cmpb	$35, 112(%rsp,%rax)
	je	.LBB0_142
	jmp	.LBB0_172
.LBB0_153:                              # %vector.main.loop.iter.check
                                        #   in Loop: Header=BB0_143 Depth=1
	cmpq	$32, %rax
	jae	.LBB0_155
# %bb.154:                              #   in Loop: Header=BB0_143 Depth=1
	xorl	%eax, %eax
	jmp	.LBB0_159
.LBB0_155:                              # %vector.ph
                                        #   in Loop: Header=BB0_143 Depth=1
	movl	%r15d, %eax
	andl	$131040, %eax                   # imm = 0x1FFE0
	leaq	(%rbx,%r14), %rdx
	addq	$16, %rdx
	xorl	%r8d, %r8d
	.p2align	4
.LBB0_156:                              # %vector.body
                                        #   Parent Loop BB0_143 Depth=1
                                        # =>  This Inner Loop Header: Depth=2
	movdqu	544(%rsp,%r8), %xmm0
	movdqu	560(%rsp,%r8), %xmm1
	movdqu	%xmm0, -16(%rdx,%r8)
	movdqu	%xmm1, (%rdx,%r8)
	addq	$32, %r8
	cmpq	%r8, %rax
	jne	.LBB0_156
# %bb.157:                              # %middle.block
                                        #   in Loop: Header=BB0_143 Depth=1
	cmpq	%rax, %r15
	je	.LBB0_141
# %bb.158:                              # %vec.epilog.iter.check
                                        #   in Loop: Header=BB0_143 Depth=1
	testb	$28, %r15b
	je	.LBB0_162
.LBB0_159:                              # %vec.epilog.ph
                                        #   in Loop: Header=BB0_143 Depth=1
	movq	%rax, %rdx
	movl	%r15d, %eax
	andl	$131068, %eax                   # imm = 0x1FFFC
	.p2align	4
.LBB0_160:                              # %vec.epilog.vector.body
                                        #   Parent Loop BB0_143 Depth=1
                                        # =>  This Inner Loop Header: Depth=2
	movl	544(%rsp,%rdx), %r8d
	movl	%r8d, (%rcx,%rdx)
	addq	$4, %rdx
	cmpq	%rdx, %rax
	jne	.LBB0_160
# %bb.161:                              # %vec.epilog.middle.block
                                        #   in Loop: Header=BB0_143 Depth=1
	cmpq	%rax, %r15
	je	.LBB0_141
	jmp	.LBB0_162
.LBB0_168:                              # %std_alloc_vec_Vec_grow_5fdc5e19576447a7_exit_i_i_i_i_i_i_i_28
                                        #   in Loop: Header=BB0_143 Depth=1
	movq	%rax, %rdi
	leaq	256(%rsp), %rcx
	movq	%r15, %rdx
	callq	std_alloc_vec_Vec_grow_amortized_5fdc5e19576447a7_3
	testb	%al, %al
	je	.LBB0_325
# %bb.169:                              # %std_alloc_vec_Vec_grow_5fdc5e19576447a7_exit_join_3_crit_edge_i_i_i_i_i_i_i_29
                                        #   in Loop: Header=BB0_143 Depth=1
	movq	256(%rsp), %rbx
	movq	264(%rsp), %r14
	movq	272(%rsp), %rax
	movq	%rax, 64(%rsp)                  # 8-byte Spill
	movq	%rdi, %rax
	jmp	.LBB0_146
.LBB0_170:                              # %after.1.i.i.i.i.i
	movb	$1, %bpl
	cmpq	$0, 64(%rsp)                    # 8-byte Folded Reload
	je	.LBB0_175
.LBB0_171:                              # %then.1.i.i.i3.i.i.i.i.i
	movq	256(%rsp), %rcx
	jmp	.LBB0_174
.LBB0_172:                              # %join.19.i.i.i.i.i
	movb	$1, %bpl
	cmpq	$0, 64(%rsp)                    # 8-byte Folded Reload
	je	.LBB0_175
# %bb.173:                              # %then.1.i.i.i55.i.i.i.i.i
	movq	%rbx, %rcx
.LBB0_174:
	callq	rattle_dealloc
.LBB0_175:
	movq	80(%rsp), %rbx                  # 8-byte Reload
	movzbl	47(%rsp), %eax                  # 1-byte Folded Reload
	testb	%al, %al
	je	.LBB0_298
	jmp	.LBB0_299
.LBB0_176:                              # %arm.5.i.i.i.i
	movq	256(%rsp), %r11
	pxor	%xmm0, %xmm0
	movdqa	%xmm0, 448(%rsp)
	movdqa	%xmm0, 464(%rsp)
	movdqa	%xmm0, 480(%rsp)
	movdqa	%xmm0, 496(%rsp)
	movdqa	%xmm0, 512(%rsp)
	movdqa	%xmm0, 528(%rsp)
	movdqa	%xmm0, 224(%rsp)
	movdqa	%xmm0, 240(%rsp)
	movdqa	%xmm0, 352(%rsp)
	movdqa	%xmm0, 368(%rsp)
	movdqa	%xmm0, 384(%rsp)
	movdqa	%xmm0, 400(%rsp)
	movdqa	%xmm0, 416(%rsp)
	movdqa	%xmm0, 432(%rsp)
	cmpb	$2, %sil
	movq	%r11, 72(%rsp)                  # 8-byte Spill
	movq	56(%rsp), %rdx                  # 8-byte Reload
	je	.LBB0_180
# %bb.177:                              # %arm.5.i.i.i.i
	movzbl	%sil, %eax
	cmpl	$1, %eax
	movq	80(%rsp), %rbx                  # 8-byte Reload
	jne	.LBB0_244
# %bb.178:                              # %arm.2.i.i.i48.i.i
	leaq	224(%rsp), %rcx
	movq	%r11, %rdx
	movq	%r14, %r8
	callq	text_programs_programs_pieces_program_merge_all_e3b2a9d4d2861db8_30
	cmpb	$0, 224(%rsp)
	je	.LBB0_256
.LBB0_179:                              # %text_programs_programs_pieces_program_write_asked_1749da6181c3c90c_exit_thread_i_i_i_i_31
	movb	$3, %bpl
	movq	72(%rsp), %rcx                  # 8-byte Reload
	jmp	.LBB0_295
.LBB0_180:                              # %arm.3.i.i.i.i.i
	leaq	48(%rsp), %r15
	movq	%r15, 112(%rsp)
	movdqu	%xmm0, 120(%rsp)
	testq	%rdx, %rdx
	je	.LBB0_258
# %bb.181:                              # %join.6.lr.ph.i.i25.i.i.i.i
	leaq	48(%rsp), %r10
	xorl	%r12d, %r12d
	xorl	%ebx, %ebx
	xorl	%r9d, %r9d
	jmp	.LBB0_185
	.p2align	4
.LBB0_182:                              #   in Loop: Header=BB0_185 Depth=1
	xorl	%r8d, %r8d
	xorl	%edi, %edi
	xorl	%ebp, %ebp
	xorl	%r15d, %r15d
	xorl	%esi, %esi
	movq	%r14, %r9
.LBB0_183:                              # %text_runs_runs_walks_ask_c916d0d022654a2a_exit_i_i_i_i_i_i_32
                                        #   in Loop: Header=BB0_185 Depth=1
	cmpq	%r12, 128(%rsp)
	je	.LBB0_210
.LBB0_184:                              # %arm.8.i.i.i.i.i.i
                                        #   in Loop: Header=BB0_185 Depth=1
	movq	%r12, %rax
	shlq	$5, %rax
	movq	%r8, (%r10,%rax)
	movq	%rdi, 8(%r10,%rax)
	movb	%bpl, 16(%r10,%rax)
	movl	%r15d, 17(%r10,%rax)
	movq	%rsi, 24(%r10,%rax)
	incq	%r12
	movq	%r12, 120(%rsp)
	incq	%rbx
	cmpq	%rbx, %rdx
	je	.LBB0_253
.LBB0_185:                              # %join.6.i.i26.i.i.i.i
                                        # =>This Inner Loop Header: Depth=1
	movq	96(%rsp), %rax                  # 8-byte Reload
	cmpb	$0, (%rax,%rbx)
	je	.LBB0_195
# %bb.186:                              # %arm.2.i.i.i.i.i.i.i
                                        #   in Loop: Header=BB0_185 Depth=1
	movq	%r14, %r8
	subq	%r9, %r8
	je	.LBB0_182
# %bb.187:                              # %join.3.i.i.i29.i.i.i.i
                                        #   in Loop: Header=BB0_185 Depth=1
	pxor	%xmm0, %xmm0
	movdqa	%xmm0, 544(%rsp)
	movq	$0, 560(%rsp)
	cmpq	$4, %r8
	jb	.LBB0_229
# %bb.188:                              # %join.3.i21.i.i.i.i.i.i
                                        #   in Loop: Header=BB0_185 Depth=1
	movl	-4(%r11,%r14), %r15d
	movl	%r15d, %eax
	shrl	$24, %eax
	cmpl	$-1073741824, %r15d             # imm = 0xC0000000
	jge	.LBB0_198
# %bb.189:                              # %join.3.i181.i.i.i.i.i.i
                                        #   in Loop: Header=BB0_185 Depth=1
	movl	%r15d, %ecx
	shrl	$16, %ecx
	cmpb	$-64, %cl
	jge	.LBB0_201
# %bb.190:                              # %join.9.i.i.i.i.i.i.i
                                        #   in Loop: Header=BB0_185 Depth=1
	movq	%r9, %rdi
	movl	%r15d, %r8d
	shrl	$8, %r8d
	cmpb	$-64, %r8b
	jge	.LBB0_214
# %bb.191:                              # %join.15.i.i.i.i.i.i.i
                                        #   in Loop: Header=BB0_185 Depth=1
	leal	11(%r15), %edx
	cmpb	$-5, %dl
	jb	.LBB0_219
# %bb.192:                              # %after.1.i239.i.i.i.i.i.i
                                        #   in Loop: Header=BB0_185 Depth=1
	movzbl	%r15b, %edx
	leaq	static.7(%rip), %r9
	movq	%r10, %rsi
	movzbl	(%rdx,%r9), %r10d
	leaq	static.8(%rip), %rdx
	movzbl	(%r10,%rdx), %r10d
	andl	$191, %r8d
	movzbl	(%r8,%r9), %r8d
	shll	$4, %r10d
	addq	%rdx, %r10
	movzbl	(%r8,%r10), %r8d
	movq	%rsi, %r10
	cmpq	$16, %r8
	je	.LBB0_219
# %bb.193:                              # %join.13.i240.i.i.i.i.i.i
                                        #   in Loop: Header=BB0_185 Depth=1
	andl	$191, %ecx
	movzbl	(%rcx,%r9), %ecx
	shll	$4, %r8d
	addq	%rdx, %r8
	movzbl	(%rcx,%r8), %ecx
	cmpq	$16, %rcx
	je	.LBB0_219
# %bb.194:                              # %join.16.i241.i.i.i.i.i.i
                                        #   in Loop: Header=BB0_185 Depth=1
	movzbl	(%rax,%r9), %eax
	shll	$4, %ecx
	addq	%rcx, %rdx
	movl	$4, %esi
	cmpb	$13, (%rax,%rdx)
	je	.LBB0_218
	jmp	.LBB0_219
.LBB0_195:                              # %arm.1.i.i.i.i.i.i.i
                                        #   in Loop: Header=BB0_185 Depth=1
	movq	%r14, %rbp
	subq	%r9, %rbp
	je	.LBB0_182
# %bb.196:                              # %join.3.i.i.i.i.i.i.i.i
                                        #   in Loop: Header=BB0_185 Depth=1
	movzbl	(%r11,%r9), %edi
	xorl	%ecx, %ecx
	movl	$1, %r8d
	movl	$1, %esi
	movl	$0, %edx
	movl	$0, %eax
	testb	%dil, %dil
	js	.LBB0_203
.LBB0_197:                              # %arm.4.i.i.i.i.i.i.i.i
                                        #   in Loop: Header=BB0_185 Depth=1
	movzbl	%dl, %edx
	shll	$16, %edx
	orl	%ecx, %edx
	movzbl	%al, %r15d
	shll	$8, %r15d
	orl	%edx, %r15d
	orl	%edi, %r15d
	movq	%r9, %rdi
	addq	%rsi, %r9
	xorl	%ebp, %ebp
	jmp	.LBB0_228
.LBB0_198:                              # %join.3.i.i42.i.i.i.i.i.i
                                        #   in Loop: Header=BB0_185 Depth=1
	movl	$1, %esi
	testl	%r15d, %r15d
	js	.LBB0_212
.LBB0_199:                              # %encode_unicode_decoding_iterators_back_scan_decode_end_exit_i_i_thread113_i_i_i_i_33
                                        #   in Loop: Header=BB0_185 Depth=1
	movl	%eax, %r15d
.LBB0_200:                              # %arm.4.i.i.i.i.i47.i.i
                                        #   in Loop: Header=BB0_185 Depth=1
	subq	%rsi, %r14
	movl	$1, %r8d
	xorl	%ebp, %ebp
	movq	%r14, %rdi
	jmp	.LBB0_228
.LBB0_201:                              # %then.7.i.i.i.i.i.i.i
                                        #   in Loop: Header=BB0_185 Depth=1
	leal	32(%rcx), %r8d
	movb	$2, %dl
	cmpb	$-30, %r8b
	jb	.LBB0_226
# %bb.202:                              # %after.1.i.i.i.i.i.i.i
                                        #   in Loop: Header=BB0_185 Depth=1
	leaq	static.7(%rip), %r8
	movzbl	(%rax,%r8), %eax
	leaq	static.8(%rip), %r8
	movl	$2, %esi
	cmpb	$13, 16(%rax,%r8)
	movl	%ecx, %eax
	je	.LBB0_199
	jmp	.LBB0_226
.LBB0_203:                              # %join.3.i22.i.i.i.i.i.i.i
                                        #   in Loop: Header=BB0_185 Depth=1
	movq	%rdi, %rax
	leaq	static.7(%rip), %rdi
	movq	%rax, 208(%rsp)                 # 8-byte Spill
	movzbl	(%rax,%rdi), %eax
	leaq	static.8(%rip), %rsi
	movzbl	(%rax,%rsi), %r15d
	cmpq	$12, %r15
	ja	.LBB0_220
# %bb.204:                              # %then.4.i28.i.i.i.i.i.i.i
                                        #   in Loop: Header=BB0_185 Depth=1
	cmpq	$3, %rbp
	movq	56(%rsp), %rdx                  # 8-byte Reload
	jbe	.LBB0_240
.LBB0_205:                              # %join.3.i45.i.i.i.i.i.i.i
                                        #   in Loop: Header=BB0_185 Depth=1
	movzbl	1(%r11,%r9), %eax
	movzbl	(%rax,%rdi), %ecx
	shll	$4, %r15d
	addq	%rsi, %r15
	movzbl	(%rcx,%r15), %ecx
	cmpq	$12, %rcx
	ja	.LBB0_231
# %bb.206:                              # %then.1.i75.i.i.i.i.i.i.i
                                        #   in Loop: Header=BB0_185 Depth=1
	movzbl	2(%r11,%r9), %edx
	movzbl	(%rdx,%rdi), %edx
	shll	$4, %ecx
	addq	%rsi, %rcx
	movzbl	(%rdx,%rcx), %ecx
	cmpq	$12, %rcx
	ja	.LBB0_234
# %bb.207:                              # %then.1.i109.i.i.i.i.i.i.i
                                        #   in Loop: Header=BB0_185 Depth=1
	movzbl	3(%r11,%r9), %edx
	movzbl	(%rdx,%rdi), %edx
	shll	$4, %ecx
	addq	%rcx, %rsi
	movzbl	(%rdx,%rsi), %ecx
	cmpl	$13, %ecx
	movq	56(%rsp), %rdx                  # 8-byte Reload
	je	.LBB0_235
# %bb.208:                              # %then.1.i109.i.i.i.i.i.i.i
                                        #   in Loop: Header=BB0_185 Depth=1
	movb	$3, %al
	cmpl	$16, %ecx
	je	.LBB0_233
# %bb.209:                              # %arm.2.i158.i.i.i.i.i.i.i
                                        #   in Loop: Header=BB0_185 Depth=1
                                        # kill: def $cl killed $cl killed $ecx
	jmp	.LBB0_243
.LBB0_210:                              # %std_alloc_vec_Vec_grow_1ada1fecd8908aad_exit_i_i_i_i_i_i_i_34
                                        #   in Loop: Header=BB0_185 Depth=1
	movq	%r8, 208(%rsp)                  # 8-byte Spill
	movq	%r9, 104(%rsp)                  # 8-byte Spill
	leaq	112(%rsp), %rcx
	callq	std_alloc_vec_Vec_grow_amortized_1ada1fecd8908aad_35
	testb	%al, %al
	je	.LBB0_339
# %bb.211:                              # %std_alloc_vec_Vec_grow_1ada1fecd8908aad_exit_join_3_crit_edge_i_i_i_i_i_i_i_36
                                        #   in Loop: Header=BB0_185 Depth=1
	movq	112(%rsp), %r10
	movq	120(%rsp), %r12
	movq	72(%rsp), %r11                  # 8-byte Reload
	movq	56(%rsp), %rdx                  # 8-byte Reload
	movq	104(%rsp), %r9                  # 8-byte Reload
	movq	208(%rsp), %r8                  # 8-byte Reload
	jmp	.LBB0_184
.LBB0_212:                              # %join.3.i15.i.i.i.i.i.i.i
                                        #   in Loop: Header=BB0_185 Depth=1
	leaq	static.7(%rip), %rcx
	movzbl	(%rax,%rcx), %eax
	leaq	static.8(%rip), %rcx
	movzbl	(%rax,%rcx), %eax
	cmpl	$13, %eax
	jae	.LBB0_223
# %bb.213:                              #   in Loop: Header=BB0_185 Depth=1
	xorl	%edx, %edx
	jmp	.LBB0_226
.LBB0_214:                              # %then.13.i.i.i.i.i.i.i
                                        #   in Loop: Header=BB0_185 Depth=1
	movl	%r8d, %edx
	andb	$-16, %dl
	cmpb	$-32, %dl
	jne	.LBB0_219
# %bb.215:                              # %after.1.i209.i.i.i.i.i.i
                                        #   in Loop: Header=BB0_185 Depth=1
	movzbl	%r8b, %r15d
	leaq	static.7(%rip), %r8
	movzbl	(%r15,%r8), %r9d
	leaq	static.8(%rip), %rdx
	movzbl	(%r9,%rdx), %r9d
	movq	%r10, %rsi
	movl	%ecx, %r10d
	andl	$191, %r10d
	movzbl	(%r10,%r8), %r10d
	shll	$4, %r9d
	addq	%rdx, %r9
	movzbl	(%r10,%r9), %r9d
	movq	%rsi, %r10
	cmpq	$16, %r9
	je	.LBB0_219
# %bb.216:                              # %join.13.i211.i.i.i.i.i.i
                                        #   in Loop: Header=BB0_185 Depth=1
	movzbl	(%rax,%r8), %eax
	shll	$4, %r9d
	addq	%r9, %rdx
	cmpb	$13, (%rax,%rdx)
	jne	.LBB0_219
# %bb.217:                              # %join.16.i.i.i.i.i.i.i
                                        #   in Loop: Header=BB0_185 Depth=1
	shll	$8, %ecx
	orl	%ecx, %r15d
	movl	$3, %esi
.LBB0_218:                              # %encode_unicode_decoding_iterators_back_scan_decode_end_exit_i_thread16_i_i_i_i_i_37
                                        #   in Loop: Header=BB0_185 Depth=1
	movq	%rdi, %r9
	jmp	.LBB0_200
.LBB0_219:                              # %encode_unicode_decoding_iterators_back_scan_decode_end_exit_i_thread_i_i_i_i_i_38
                                        #   in Loop: Header=BB0_185 Depth=1
	movb	$1, %bpl
	movb	$2, %dl
	movq	%rdi, %r9
	jmp	.LBB0_227
.LBB0_220:                              # %join.6.i24.i.i.i.i.i.i.i
                                        #   in Loop: Header=BB0_185 Depth=1
	movb	$2, %al
	cmpq	$14, %r15
	movq	56(%rsp), %rdx                  # 8-byte Reload
	je	.LBB0_233
# %bb.221:                              # %join.6.i24.i.i.i.i.i.i.i
                                        #   in Loop: Header=BB0_185 Depth=1
	cmpl	$13, %r15d
	je	.LBB0_372
# %bb.222:                              # %arm.2.i177.i.i.i.i.i.i.i
                                        #   in Loop: Header=BB0_185 Depth=1
	movb	$1, %al
	jmp	.LBB0_233
.LBB0_223:                              # %join.6.i17.i.i.i.i.i.i.i
                                        #   in Loop: Header=BB0_185 Depth=1
	movb	$2, %dl
	cmpl	$14, %eax
	je	.LBB0_226
# %bb.224:                              # %join.6.i17.i.i.i.i.i.i.i
                                        #   in Loop: Header=BB0_185 Depth=1
	cmpl	$13, %eax
	je	.LBB0_372
# %bb.225:                              # %arm.2.i161.i115.i.i.i.i.i.i
                                        #   in Loop: Header=BB0_185 Depth=1
	movb	$1, %dl
.LBB0_226:                              # %encode_unicode_decoding_iterators_back_scan_decode_end_exit_i_i_thread_i_i_i_i_39
                                        #   in Loop: Header=BB0_185 Depth=1
	movb	$1, %bpl
.LBB0_227:                              # %arm.5.i.i.i.i.i.i.i
                                        #   in Loop: Header=BB0_185 Depth=1
	decq	%r14
	movzbl	%dl, %r15d
	movl	$1, %r8d
	movq	%r14, %rdi
	movl	$1, %esi
.LBB0_228:                              # %text_runs_runs_walks_ask_c916d0d022654a2a_exit_i_i_i_i_i_i_32
                                        #   in Loop: Header=BB0_185 Depth=1
	movq	56(%rsp), %rdx                  # 8-byte Reload
	jmp	.LBB0_183
.LBB0_229:                              # %encode_unicode_decoding_iterators_back_scan_decode_end_exit_i_i_i_i_i_i_40
                                        #   in Loop: Header=BB0_185 Depth=1
	movq	%r10, %rdi
	movq	%r9, 104(%rsp)                  # 8-byte Spill
	leaq	(%r11,%r9), %rdx
	leaq	544(%rsp), %rcx
	callq	encode_unicode_decoding_iterators_back_scan_decode_few_41
	movzbl	544(%rsp), %ebp
	testb	%bpl, %bpl
	je	.LBB0_239
# %bb.230:                              #   in Loop: Header=BB0_185 Depth=1
	movzbl	545(%rsp), %edx
	movq	72(%rsp), %r11                  # 8-byte Reload
	movq	%rdi, %r10
	movq	104(%rsp), %r9                  # 8-byte Reload
	jmp	.LBB0_227
.LBB0_231:                              # %join.3.i61.i.i.i.i.i.i.i
                                        #   in Loop: Header=BB0_185 Depth=1
	cmpq	$13, %rcx
	je	.LBB0_235
.LBB0_232:                              # %join.3.i92.i.i.i.i.i.i.i
                                        #   in Loop: Header=BB0_185 Depth=1
	movb	$3, %al
	cmpl	$16, %ecx
	jne	.LBB0_242
.LBB0_233:                              # %arm.8.i.i.i.i.i.i.i.i
                                        #   in Loop: Header=BB0_185 Depth=1
	movzbl	%al, %r15d
	movq	%r9, %rdi
	incq	%r9
	movb	$1, %bpl
	movl	$1, %r8d
	movl	$1, %esi
	jmp	.LBB0_183
.LBB0_234:                              # %join.3.i92.i.i.i.i.i.i.i
                                        #   in Loop: Header=BB0_185 Depth=1
	cmpq	$13, %rcx
	movq	56(%rsp), %rdx                  # 8-byte Reload
	jne	.LBB0_232
.LBB0_235:                              # %join.4.i183.i.i.i.i.i.i.i
                                        #   in Loop: Header=BB0_185 Depth=1
	xorl	%ecx, %ecx
	movq	208(%rsp), %rdi                 # 8-byte Reload
	cmpb	$-32, %dil
	jae	.LBB0_237
# %bb.236:                              #   in Loop: Header=BB0_185 Depth=1
	movl	$2, %esi
	xorl	%edx, %edx
	jmp	.LBB0_197
.LBB0_237:                              # %arm.1.i.i.i.i.i.i.i.i
                                        #   in Loop: Header=BB0_185 Depth=1
	movzbl	2(%r11,%r9), %edx
	movl	$3, %esi
	cmpb	$-16, %dil
	jb	.LBB0_197
# %bb.238:                              # %default.4.i.i.i.i.i.i.i.i
                                        #   in Loop: Header=BB0_185 Depth=1
	movzbl	3(%r11,%r9), %ecx
	shll	$24, %ecx
	movl	$4, %esi
	jmp	.LBB0_197
.LBB0_239:                              #   in Loop: Header=BB0_185 Depth=1
	movl	552(%rsp), %r15d
	movq	560(%rsp), %rsi
	movq	72(%rsp), %r11                  # 8-byte Reload
	movq	%rdi, %r10
	movq	104(%rsp), %r9                  # 8-byte Reload
	jmp	.LBB0_200
.LBB0_240:                              # %utf_chars_codes_utf8_are_too_few_exit_i_i_i_i_i_i_i_42
                                        #   in Loop: Header=BB0_185 Depth=1
	movl	%r15d, %ecx
	movq	%r10, 216(%rsp)                 # 8-byte Spill
	movq	%r9, 104(%rsp)                  # 8-byte Spill
	callq	utf_chars_codes_utf8_missing_after_43
	movl	$1, %r8d
	movq	104(%rsp), %r9                  # 8-byte Reload
	movq	216(%rsp), %r10                 # 8-byte Reload
	movq	56(%rsp), %rdx                  # 8-byte Reload
	movq	72(%rsp), %r11                  # 8-byte Reload
	cmpq	%rax, %rbp
	ja	.LBB0_205
# %bb.241:                              #   in Loop: Header=BB0_185 Depth=1
	xorl	%eax, %eax
	jmp	.LBB0_233
.LBB0_242:                              # %arm.2.i161.i.i.i.i.i.i.i
                                        #   in Loop: Header=BB0_185 Depth=1
                                        # kill: def $cl killed $cl killed $rcx
.LBB0_243:                              # %arm.8.i.i.i.i.i.i.i.i
                                        #   in Loop: Header=BB0_185 Depth=1
	movq	%r10, %rsi
	movq	%r9, %rdi
	callq	utf_base_table_walks_error_of_value_44
	movq	%rdi, %r9
	movq	%rsi, %r10
	movq	56(%rsp), %rdx                  # 8-byte Reload
	movq	72(%rsp), %r11                  # 8-byte Reload
                                        # kill: def $al killed $al def $eax
	jmp	.LBB0_233
.LBB0_244:                              # %arm.1.i49.i.i.i.i
	leaq	448(%rsp), %rcx
	movq	%r11, %rdx
	movq	%r14, %r8
	callq	text_programs_programs_listing_write_listing_cdc8ff12022c16a2_45
	movzbl	448(%rsp), %ebx
	testb	%bl, %bl
	setne	%bpl
	jne	.LBB0_254
# %bb.245:                              # %arm.1.i49.i.i.i.i
	movq	456(%rsp), %rsi
	jmp	.LBB0_255
.LBB0_246:                              # %std_alloc_vec_Vec_drop_81677c32190a458e_exit8_i_i_i_i_46
	movq	112(%rsp), %rsi
	movq	120(%rsp), %rdi
	testq	%rdi, %rdi
	je	.LBB0_251
# %bb.247:                              # %join.5.i.i.i.i.i.i.i4.i.i.preheader
	leaq	16(%rsi), %rbx
	jmp	.LBB0_249
	.p2align	4
.LBB0_248:                              # %core_mem_drop_7f8a914b9c4d666d_exit_i_i_i_i_i_i_i_i_i_47
                                        #   in Loop: Header=BB0_249 Depth=1
	addq	$24, %rbx
	decq	%rdi
	je	.LBB0_251
.LBB0_249:                              # %join.5.i.i.i.i.i.i.i4.i.i
                                        # =>This Inner Loop Header: Depth=1
	cmpq	$0, (%rbx)
	je	.LBB0_248
# %bb.250:                              # %then.1.i.i.i.i.i.i.i.i.i.i.i.i11.i.i
                                        #   in Loop: Header=BB0_249 Depth=1
	movq	-16(%rbx), %rcx
	callq	rattle_dealloc
	jmp	.LBB0_248
.LBB0_251:                              # %std_alloc_vec_Vec_clear_1ca9c52778c14e4e_exit_i_i_i_i_i_48
	testq	%r14, %r14
	je	.LBB0_134
# %bb.252:                              # %then.1.i.i.i14.i.i.i.i
	movq	%rsi, %rcx
	callq	rattle_dealloc
	jmp	.LBB0_134
.LBB0_253:                              # %arm.9.loopexit.i.i.i.i.i
	movq	112(%rsp), %r15
	cmpq	$0, 128(%rsp)
	sete	56(%rsp)                        # 1-byte Folded Spill
	jmp	.LBB0_259
.LBB0_254:
	xorl	%esi, %esi
.LBB0_255:                              # %arm.1.i49.i.i.i.i
	addb	%bpl, %bpl
	jmp	.LBB0_294
.LBB0_256:                              # %arm.6.i47.i.i.i.i
	movq	232(%rsp), %r14
	movq	240(%rsp), %r8
	movq	248(%rsp), %rdi
	leaq	352(%rsp), %rcx
	movq	%r14, %rdx
	callq	text_programs_programs_listing_write_merged_cdc8ff12022c16a2_49
	movzbl	352(%rsp), %ebx
	testb	%bl, %bl
	setne	%bpl
	jne	.LBB0_290
# %bb.257:                              # %arm.6.i47.i.i.i.i
	movq	360(%rsp), %rsi
	jmp	.LBB0_291
.LBB0_258:
	movb	$1, 56(%rsp)                    # 1-byte Folded Spill
	xorl	%r12d, %r12d
.LBB0_259:                              # %arm.9.i.i.i.i.i
	pxor	%xmm0, %xmm0
	movdqa	%xmm0, 112(%rsp)
	movdqa	%xmm0, 128(%rsp)
	movdqa	%xmm0, 144(%rsp)
	movdqa	%xmm0, 160(%rsp)
	movdqa	%xmm0, 176(%rsp)
	movdqa	%xmm0, 192(%rsp)
	movdqa	%xmm0, 256(%rsp)
	movdqa	%xmm0, 272(%rsp)
	movdqa	%xmm0, 288(%rsp)
	movdqa	%xmm0, 304(%rsp)
	movdqa	%xmm0, 320(%rsp)
	movdqa	%xmm0, 336(%rsp)
	xorl	%esi, %esi
	leaq	544(%rsp), %rcx
	movl	$65544, %r8d                    # imm = 0x10008
	xorl	%edx, %edx
	callq	memset
	testq	%r12, %r12
	je	.LBB0_285
# %bb.260:                              # %join.6.i.i.i.i.i.i.i.preheader
	leaq	24(%r15), %rbp
	xorl	%esi, %esi
	xorl	%edi, %edi
	jmp	.LBB0_264
	.p2align	4
.LBB0_261:                              # %apart.2.i.i.i.i.i.i.i.i.i.i.i.i.i.i
                                        #   in Loop: Header=BB0_264 Depth=1
	movb	$10, 4(%rax)
	movl	$1701736302, (%rax)             # imm = 0x656E6F6E
.LBB0_262:                              # %text_programs_programs_entries_OptionItemEntry_push_to_exit_i_i_i_i_i_i_i_50
                                        #   in Loop: Header=BB0_264 Depth=1
	xorl	%ebx, %ebx
.LBB0_263:                              # %text_programs_programs_entries_OptionItemEntry_push_to_exit_i_i_i_i_i_i_i_50
                                        #   in Loop: Header=BB0_264 Depth=1
	addq	%rbx, %rsi
	movq	%rdi, 66080(%rsp)
	addq	$32, %rbp
	decq	%r12
	je	.LBB0_285
.LBB0_264:                              # %join.6.i.i.i.i.i.i.i
                                        # =>This Inner Loop Header: Depth=1
	cmpq	$65457, %rdi                    # imm = 0xFFB1
	jae	.LBB0_279
.LBB0_265:                              # %join.10.i.i.i.i.i35.i.i
                                        #   in Loop: Header=BB0_264 Depth=1
	cmpb	$1, -24(%rbp)
	jne	.LBB0_268
# %bb.266:                              # %arm.1.i.i.i32.i.i.i.i.i
                                        #   in Loop: Header=BB0_264 Depth=1
	movq	-16(%rbp), %rdx
	movzbl	-8(%rbp), %ebx
	movl	-7(%rbp), %edi
	movq	(%rbp), %r14
	cmpq	$9, %rdx
	ja	.LBB0_270
# %bb.267:                              # %then.1.i.i.i.i.i.i.i.i45.i.i
                                        #   in Loop: Header=BB0_264 Depth=1
	orb	$48, %dl
	movq	66080(%rsp), %rax
	movb	%dl, 544(%rsp,%rax)
	incq	%rax
	jmp	.LBB0_271
	.p2align	4
.LBB0_268:                              # %arm.2.i15.i.i.i.i.i.i.i
                                        #   in Loop: Header=BB0_264 Depth=1
	movq	66080(%rsp), %rdi
	leaq	(%rsp,%rdi), %rax
	addq	$544, %rax                      # imm = 0x220
	addq	$5, %rdi
	leaq	static.18(%rip), %rcx
	movq	%rax, %rdx
	subq	%rcx, %rdx
	cmpq	$4, %rdx
	ja	.LBB0_261
# %bb.269:                              # %join.7.i.i.i.i.i.i.preheader.i.i.i.i.i.i.i.i
                                        #   in Loop: Header=BB0_264 Depth=1
	movl	$1701736302, (%rax)             # imm = 0x656E6F6E
	movb	$10, 4(%rax)
	jmp	.LBB0_262
	.p2align	4
.LBB0_270:                              # %else.2.i.i.i.i.i.i.i.i.i.i
                                        #   in Loop: Header=BB0_264 Depth=1
	leaq	544(%rsp), %rcx
	callq	text_programs_programs_lines_Lines_push_digits_51
	movq	66080(%rsp), %rax
.LBB0_271:                              # %text_programs_programs_lines_Lines_push_decimal_exit_i_i_i_i_i_i_i_i_i_52
                                        #   in Loop: Header=BB0_264 Depth=1
	movb	$32, 544(%rsp,%rax)
	leaq	1(%rax), %rcx
	movq	%rcx, 66080(%rsp)
	cmpq	$9, %r14
	ja	.LBB0_274
# %bb.272:                              # %then.1.i.i.i.i.i.i.i.i.i43.i.i
                                        #   in Loop: Header=BB0_264 Depth=1
	orb	$48, %r14b
	movb	%r14b, 545(%rsp,%rax)
	addq	$2, %rax
	movq	%rdi, %rdx
	movb	$32, 544(%rsp,%rax)
	testq	%rbx, %rbx
	je	.LBB0_275
.LBB0_273:                              # %switch.lookup
                                        #   in Loop: Header=BB0_264 Depth=1
	incq	%rax
	leaq	switch_table_text_programs_programs_listing_write_merged_cdc8ff12022c16a2_53(%rip), %rcx
	movzbl	%dl, %edx
	shll	$3, %edx
	movq	(%rdx,%rcx), %r8
	leaq	switch_table_text_programs_programs_listing_write_merged_cdc8ff12022c16a2_144_54(%rip), %rcx
	movq	(%rdx,%rcx), %rdx
	leaq	(%r8,%rax), %rdi
	leaq	(%rsp,%rax), %rcx
	addq	$544, %rcx                      # imm = 0x220
	callq	memcpy
	jmp	.LBB0_284
	.p2align	4
.LBB0_274:                              # %else.2.i.i.i.i.i.i.i.i.i.i.i
                                        #   in Loop: Header=BB0_264 Depth=1
	leaq	544(%rsp), %rcx
	movq	%r14, %rdx
	callq	text_programs_programs_lines_Lines_push_digits_51
	movq	66080(%rsp), %rax
	movq	%rdi, %rdx
	movb	$32, 544(%rsp,%rax)
	testq	%rbx, %rbx
	jne	.LBB0_273
.LBB0_275:                              # %arm.1.i.i.i.i.i.i.i.i.i.i
                                        #   in Loop: Header=BB0_264 Depth=1
	testb	%dl, %dl
	js	.LBB0_277
# %bb.276:                              # %then.2.i.i.i.i.i.i.i.i.i.i
                                        #   in Loop: Header=BB0_264 Depth=1
	andl	$127, %edx
	jmp	.LBB0_283
.LBB0_277:                              # %join.4.i.i.i.i.i.i.i.i.i.i
                                        #   in Loop: Header=BB0_264 Depth=1
	movl	%edx, %ecx
	shrl	$8, %ecx
	cmpb	$-33, %dl
	ja	.LBB0_280
# %bb.278:                              # %then.5.i.i.i.i.i.i.i.i.i.i
                                        #   in Loop: Header=BB0_264 Depth=1
	andl	$31, %edx
	shll	$6, %edx
	andl	$63, %ecx
	orl	%edx, %ecx
	movl	%ecx, %edx
	jmp	.LBB0_283
.LBB0_279:                              # %then.8.i.i.i.i.i31.i.i
                                        #   in Loop: Header=BB0_264 Depth=1
	leaq	112(%rsp), %rcx
	leaq	544(%rsp), %rdx
	callq	text_programs_programs_lines_Lines_write_to_cdc8ff12022c16a2_55
	cmpb	$0, 112(%rsp)
	je	.LBB0_265
	jmp	.LBB0_286
.LBB0_280:                              # %join.7.i.i.i.i.i.i.i.i.i.i
                                        #   in Loop: Header=BB0_264 Depth=1
	movl	%edx, %r8d
	shrl	$16, %r8d
	movq	%rdx, %r9
	shll	$12, %edx
	andl	$63, %ecx
	shll	$6, %ecx
	andl	$63, %r8d
	cmpb	$-17, %r9b
	ja	.LBB0_282
# %bb.281:                              # %then.8.i.i.i.i.i.i.i.i.i.i
                                        #   in Loop: Header=BB0_264 Depth=1
	andl	$61440, %edx                    # imm = 0xF000
	orl	%r8d, %edx
	orl	%ecx, %edx
                                        # kill: def $edx killed $edx def $rdx
	jmp	.LBB0_283
.LBB0_282:                              # %join.10.i.i.i.i.i.i.i.i.i.i
                                        #   in Loop: Header=BB0_264 Depth=1
	shrl	$24, %r9d
	andl	$28672, %edx                    # imm = 0x7000
	orl	%r8d, %edx
	orl	%ecx, %edx
	shll	$6, %edx
	andl	$63, %r9d
	orl	%edx, %r9d
	movq	%r9, %rdx
.LBB0_283:                              # %utf_chars_utf8_char_Utf8Char_scalar_exit_i_i_i_i_i_i_i_i_i_56
                                        #   in Loop: Header=BB0_264 Depth=1
	movl	%edx, %ecx
	shrl	$16, %ecx
	leaq	static.9(%rip), %r10
	movzwl	(%r10,%rcx,2), %ecx
	movzbl	%dh, %edi
	movzwl	(%r10,%rdi,2), %r8d
	movzbl	%dl, %r9d
	movzwl	(%r10,%r9,2), %edx
	leaq	7(%rax), %rdi
	movw	%cx, 545(%rsp,%rax)
	movw	%r8w, 547(%rsp,%rax)
	movw	%dx, 549(%rsp,%rax)
.LBB0_284:                              # %text_programs_programs_entries_ItemEntry_push_to_exit_i_i_i_i_i_i_i_i_57
                                        #   in Loop: Header=BB0_264 Depth=1
	movb	$10, 544(%rsp,%rdi)
	incq	%rdi
	andl	$1, %ebx
	jmp	.LBB0_263
.LBB0_285:                              # %after.1.i.i31.i.i.i.i.i
	leaq	256(%rsp), %rcx
	leaq	544(%rsp), %rdx
	callq	text_programs_programs_lines_Lines_write_to_cdc8ff12022c16a2_55
	cmpb	$0, 256(%rsp)
	je	.LBB0_287
.LBB0_286:                              # %arm.12.i.i.i.i.i.i.i
	movb	$1, %bl
	movb	$2, %bpl
	xorl	%esi, %esi
	jmp	.LBB0_288
.LBB0_287:
	xorl	%ebp, %ebp
	xorl	%ebx, %ebx
.LBB0_288:
	cmpb	$0, 56(%rsp)                    # 1-byte Folded Reload
	jne	.LBB0_294
# %bb.289:                              # %then.1.i.i.i43.i.i.i.i.i
	movq	%r15, %rcx
	jmp	.LBB0_293
.LBB0_290:
	xorl	%esi, %esi
.LBB0_291:                              # %arm.6.i47.i.i.i.i
	addb	%bpl, %bpl
	testq	%rdi, %rdi
	je	.LBB0_294
# %bb.292:                              # %then.1.i.i.i.i.i.i49.i.i
	movq	%r14, %rcx
.LBB0_293:                              # %text_programs_programs_pieces_program_write_asked_1749da6181c3c90c_exit_i_i_i_i_58
	callq	rattle_dealloc
.LBB0_294:                              # %text_programs_programs_pieces_program_write_asked_1749da6181c3c90c_exit_i_i_i_i_58
	movq	72(%rsp), %rcx                  # 8-byte Reload
	testb	%bl, %bl
	movq	80(%rsp), %rbx                  # 8-byte Reload
	je	.LBB0_304
.LBB0_295:                              # %arm.12.i.i.i.i
	cmpq	$0, 64(%rsp)                    # 8-byte Folded Reload
	je	.LBB0_297
# %bb.296:                              # %then.1.i.i.i64.i.i.i.i
	callq	rattle_dealloc
.LBB0_297:                              # %std_alloc_vec_Vec_drop_81677c32190a458e_exit_i_i_i_i_59
	cmpb	$0, 47(%rsp)                    # 1-byte Folded Reload
	jne	.LBB0_299
.LBB0_298:                              # %then.1.i.i.i.i9.i.i.i
	movq	96(%rsp), %rcx                  # 8-byte Reload
	callq	rattle_dealloc
.LBB0_299:                              # %arm.6.i24.i.i
	movl	%ebp, %ecx
	callq	text_programs_programs_stops_Stop_report_2daa2fb2be07fb73_19
	movl	%eax, %edi
	testq	%r13, %r13
	je	.LBB0_315
.LBB0_300:                              # %join.5.i.i.i.i.i50.preheader.i.i.i
	leaq	16(%rbx), %rsi
	jmp	.LBB0_302
	.p2align	4
.LBB0_301:                              # %core_mem_drop_7f8a914b9c4d666d_exit_i_i_i_i_i59_i_i_i_60
                                        #   in Loop: Header=BB0_302 Depth=1
	addq	$24, %rsi
	decq	%r13
	je	.LBB0_315
.LBB0_302:                              # %join.5.i.i.i.i.i50.i.i.i
                                        # =>This Inner Loop Header: Depth=1
	cmpq	$0, (%rsi)
	je	.LBB0_301
# %bb.303:                              # %then.1.i.i.i.i.i.i.i.i.i.i57.i.i.i
                                        #   in Loop: Header=BB0_302 Depth=1
	movq	-16(%rsi), %rcx
	callq	rattle_dealloc
	jmp	.LBB0_301
.LBB0_304:                              # %arm.17.i.i32.i.i
	cmpq	$0, 64(%rsp)                    # 8-byte Folded Reload
	je	.LBB0_306
# %bb.305:                              # %then.1.i.i.i75.i.i.i.i
	callq	rattle_dealloc
.LBB0_306:                              # %std_alloc_vec_Vec_drop_81677c32190a458e_exit77_i_i_i_i_61
	cmpb	$0, 47(%rsp)                    # 1-byte Folded Reload
	jne	.LBB0_308
# %bb.307:                              # %then.1.i.i.i81.i.i.i.i
	movq	96(%rsp), %rcx                  # 8-byte Reload
	callq	rattle_dealloc
.LBB0_308:                              # %arm.5.i33.i.i
	testq	%rsi, %rsi
	je	.LBB0_318
# %bb.309:                              # %default.9.i.i.i
	testq	%r13, %r13
	je	.LBB0_314
# %bb.310:                              # %join.5.i.i.i.i.i28.i.i.i.preheader
	leaq	16(%rbx), %rsi
	jmp	.LBB0_312
	.p2align	4
.LBB0_311:                              # %core_mem_drop_7f8a914b9c4d666d_exit_i_i_i_i_i37_i_i_i_62
                                        #   in Loop: Header=BB0_312 Depth=1
	addq	$24, %rsi
	decq	%r13
	je	.LBB0_314
.LBB0_312:                              # %join.5.i.i.i.i.i28.i.i.i
                                        # =>This Inner Loop Header: Depth=1
	cmpq	$0, (%rsi)
	je	.LBB0_311
# %bb.313:                              # %then.1.i.i.i.i.i.i.i.i.i.i35.i.i.i
                                        #   in Loop: Header=BB0_312 Depth=1
	movq	-16(%rsi), %rcx
	callq	rattle_dealloc
	jmp	.LBB0_311
.LBB0_314:                              # %std_alloc_vec_Vec_clear_1ca9c52778c14e4e_exit_i40_i_i_i_63
	movb	$1, %dil
.LBB0_315:                              # %std_alloc_vec_Vec_clear_1ca9c52778c14e4e_exit_i62_i_i_i_64
	cmpq	$0, 88(%rsp)                    # 8-byte Folded Reload
	je	.LBB0_317
# %bb.316:                              # %then.1.i.i.i64.i.i.i
	movq	%rbx, %rcx
	callq	rattle_dealloc
.LBB0_317:                              # %pieces_main_run_exit_65
	movzbl	%dil, %eax
	movaps	66096(%rsp), %xmm6              # 16-byte Reload
	addq	$66120, %rsp                    # imm = 0x10248
	popq	%rbx
	popq	%rbp
	popq	%rdi
	popq	%rsi
	popq	%r12
	popq	%r13
	popq	%r14
	popq	%r15
	retq
.LBB0_318:                              # %arm.8.i.i.i
	testq	%r13, %r13
	je	.LBB0_323
# %bb.319:                              # %join.5.i.i.i.i.i.i34.i.i.preheader
	leaq	16(%rbx), %rsi
	jmp	.LBB0_321
.LBB0_320:                              # %core_mem_drop_7f8a914b9c4d666d_exit_i_i_i_i_i_i_i_i_66
                                        #   in Loop: Header=BB0_321 Depth=1
	addq	$24, %rsi
	decq	%r13
	je	.LBB0_323
.LBB0_321:                              # %join.5.i.i.i.i.i.i34.i.i
                                        # =>This Inner Loop Header: Depth=1
	cmpq	$0, (%rsi)
	je	.LBB0_320
# %bb.322:                              # %then.1.i.i.i.i.i.i.i.i.i.i.i.i.i
                                        #   in Loop: Header=BB0_321 Depth=1
	movq	-16(%rsi), %rcx
	callq	rattle_dealloc
	jmp	.LBB0_320
.LBB0_323:                              # %std_alloc_vec_Vec_clear_1ca9c52778c14e4e_exit_i_i_i_i_67
	cmpq	$0, 88(%rsp)                    # 8-byte Folded Reload
	je	.LBB0_338
# %bb.324:                              # %then.1.i.i.i21.i.i.i
	movq	%rbx, %rcx
	callq	rattle_dealloc
	xorl	%edi, %edi
	jmp	.LBB0_317
.LBB0_325:                              # %arm.14.i.i.i.i.i
	movb	$3, %bpl
	cmpq	$0, 272(%rsp)
	jne	.LBB0_171
	jmp	.LBB0_175
.LBB0_326:                              # %join.6.lr.ph.i.i.i.i.i.i
	movq	%rbx, 80(%rsp)                  # 8-byte Spill
	leaq	48(%rsp), %rax
	movq	%rax, 544(%rsp)
	pxor	%xmm0, %xmm0
	movdqu	%xmm0, 552(%rsp)
	xorl	%edx, %edx
	xorl	%ebx, %ebx
	jmp	.LBB0_330
.LBB0_327:                              # %else.9.split.i.i.i.i.i.i
                                        #   in Loop: Header=BB0_330 Depth=1
	cmpq	%rdx, %rcx
	je	.LBB0_333
.LBB0_328:                              # %join.3.i8.i.i.i.i.i.i
                                        #   in Loop: Header=BB0_330 Depth=1
	movb	$1, (%rax,%rdx)
.LBB0_329:                              # %loop.3.i.i.i.i.i.i
                                        #   in Loop: Header=BB0_330 Depth=1
	incq	%rdx
	movq	%rdx, 552(%rsp)
	incq	%rbx
	cmpq	%rbx, %rsi
	je	.LBB0_337
.LBB0_330:                              # %join.6.i.i.i.i.i.i
                                        # =>This Inner Loop Header: Depth=1
	cmpb	$70, (%rdi,%rbx)
	movq	560(%rsp), %rcx
	jne	.LBB0_327
# %bb.331:                              # %then.8.split.i.i.i.i.i.i
                                        #   in Loop: Header=BB0_330 Depth=1
	cmpq	%rdx, %rcx
	je	.LBB0_335
.LBB0_332:                              # %join.3.i.i.i.i.i55.i.i
                                        #   in Loop: Header=BB0_330 Depth=1
	movq	544(%rsp), %rax
	movb	$0, (%rax,%rdx)
	jmp	.LBB0_329
.LBB0_333:                              # %std_alloc_vec_Vec_grow_c5e3cca411c51d6b_exit_i16_i_i_i_i_i_i_68
                                        #   in Loop: Header=BB0_330 Depth=1
	leaq	544(%rsp), %rcx
	callq	std_alloc_vec_Vec_grow_amortized_c5e3cca411c51d6b_69
	testb	%al, %al
	je	.LBB0_351
# %bb.334:                              # %std_alloc_vec_Vec_grow_c5e3cca411c51d6b_exit_join_3_crit_edge_i18_i_i_i_i_i_i_70
                                        #   in Loop: Header=BB0_330 Depth=1
	movq	544(%rsp), %rax
	movq	552(%rsp), %rdx
	jmp	.LBB0_328
.LBB0_335:                              # %std_alloc_vec_Vec_grow_c5e3cca411c51d6b_exit_i_i_i_i_i_i_i_71
                                        #   in Loop: Header=BB0_330 Depth=1
	leaq	544(%rsp), %rcx
	callq	std_alloc_vec_Vec_grow_amortized_c5e3cca411c51d6b_69
	testb	%al, %al
	je	.LBB0_351
# %bb.336:                              # %std_alloc_vec_Vec_grow_c5e3cca411c51d6b_exit_join_3_crit_edge_i_i_i_i_i_i_i_72
                                        #   in Loop: Header=BB0_330 Depth=1
	movq	552(%rsp), %rdx
	jmp	.LBB0_332
.LBB0_337:                              # %arm.17.i.i.i.i.i
	movq	%rdx, 56(%rsp)                  # 8-byte Spill
	movq	544(%rsp), %rax
	movq	%rax, 96(%rsp)                  # 8-byte Spill
	cmpq	$0, 560(%rsp)
	sete	47(%rsp)                        # 1-byte Folded Spill
	movb	$2, %sil
	jmp	.LBB0_139
.LBB0_338:
	xorl	%edi, %edi
	jmp	.LBB0_317
.LBB0_339:                              # %arm.9.i.i.i.i.i.i
	cmpq	$0, 128(%rsp)
	je	.LBB0_341
# %bb.340:                              # %then.1.i.i.i.i.i39.i.i.i.i
	movq	112(%rsp), %rcx
	callq	rattle_dealloc
.LBB0_341:                              # %arm.10.i40.i.i.i.i
	movq	80(%rsp), %rbx                  # 8-byte Reload
	jmp	.LBB0_179
.LBB0_342:                              # %arm.10.i.i.i.i
	testq	%r15, %r15
	je	.LBB0_344
# %bb.343:                              # %then.1.i.i.i6.i.i.i.i
	movq	%rbx, %rcx
	callq	rattle_dealloc
.LBB0_344:                              # %then.13.i.i.i.i
	movq	112(%rsp), %rsi
	movq	120(%rsp), %rdi
	movq	128(%rsp), %rbx
	testq	%rdi, %rdi
	je	.LBB0_349
# %bb.345:                              # %join.5.i.i.i.i.i.i.i.i.i.preheader
	leaq	16(%rsi), %r14
	jmp	.LBB0_347
.LBB0_346:                              # %core_mem_drop_f02d343d93693c10_exit_i_i_i_i_i_i_i_i_i_73
                                        #   in Loop: Header=BB0_347 Depth=1
	addq	$24, %r14
	decq	%rdi
	je	.LBB0_349
.LBB0_347:                              # %join.5.i.i.i.i.i.i.i.i.i
                                        # =>This Inner Loop Header: Depth=1
	cmpq	$0, (%r14)
	je	.LBB0_346
# %bb.348:                              # %then.1.i.i.i.i.i.i.i.i.i.i.i.i.i.i
                                        #   in Loop: Header=BB0_347 Depth=1
	movq	-16(%r14), %rcx
	callq	rattle_dealloc
	jmp	.LBB0_346
.LBB0_349:                              # %std_alloc_vec_Vec_clear_4feeb2b446188e7f_exit_i_i_i_i_i_74
	movl	$38, %edi
	testq	%rbx, %rbx
	je	.LBB0_133
# %bb.350:                              # %then.1.i.i.i16.i.i.i.i
	movq	%rsi, %rcx
	jmp	.LBB0_132
.LBB0_351:                              # %arm.12.i.i.i.i.i.i
	cmpq	$0, 560(%rsp)
	je	.LBB0_353
# %bb.352:                              # %then.1.i.i.i.i.i.i.i54.i.i
	movq	544(%rsp), %rcx
	callq	rattle_dealloc
.LBB0_353:                              # %text_programs_programs_requests_ends_of_e3b2a9d4d2861db8_exit_i_i_i_i_i_75
	movb	$3, %bpl
	movq	80(%rsp), %rbx                  # 8-byte Reload
	jmp	.LBB0_299
.LBB0_354:                              # %then.8.i.i.i.i.i.i.i
	testq	%rsi, %rsi
	je	.LBB0_356
# %bb.355:                              # %then.1.i.i.i.i.i.i.i.i.i.i.i
	movq	%rbx, %rcx
	callq	rattle_dealloc
.LBB0_356:                              # %text_programs_std_alloc_string_String_Destruct_drop_e3b2a9d4d2861db8_exit_i_i_i_i_i_i_i_76
	cmpq	%r14, %r13
	je	.LBB0_362
# %bb.357:                              # %join.3.i.i.i.i12.i.i.i.i.i.i.i
	leaq	(%r15,%r14), %rax
	leaq	(%r15,%r14), %rcx
	incq	%rcx
	addq	%rdi, %rax
	cmpq	%rax, %rcx
	jae	.LBB0_362
# %bb.358:                              # %join.5.i.i.i.i.i35.i.i.i.i.i.i.i.preheader
	movl	$1, %esi
	jmp	.LBB0_360
.LBB0_359:                              # %core_mem_drop_7f8a914b9c4d666d_exit_i_i_i_i_i44_i_i_i_i_i_i_i_77
                                        #   in Loop: Header=BB0_360 Depth=1
	incq	%rsi
	addq	$24, %r12
	cmpq	%rsi, %rdi
	je	.LBB0_362
.LBB0_360:                              # %join.5.i.i.i.i.i35.i.i.i.i.i.i.i
                                        # =>This Inner Loop Header: Depth=1
	cmpq	$0, (%r12)
	je	.LBB0_359
# %bb.361:                              # %then.1.i.i.i.i.i.i.i.i.i.i42.i.i.i.i.i.i.i
                                        #   in Loop: Header=BB0_360 Depth=1
	movq	-16(%r12), %rcx
	callq	rattle_dealloc
	jmp	.LBB0_359
.LBB0_362:                              # %std_alloc_vec_deque_VecDeque_clear_1ca9c52778c14e4e_exit_i_i32_i_i_i_i_i_i_i_78
	cmpq	$0, 64(%rsp)                    # 8-byte Folded Reload
	je	.LBB0_364
# %bb.363:                              # %then.1.i.i.i.i.i34.i.i.i.i.i.i.i
	movq	88(%rsp), %rcx                  # 8-byte Reload
	callq	rattle_dealloc
.LBB0_364:                              # %arm.2.i.i.i.i.i
	movq	544(%rsp), %rsi
	movq	552(%rsp), %rbx
	movq	560(%rsp), %rdi
	testq	%rbx, %rbx
	je	.LBB0_369
# %bb.365:                              # %join.5.i.i.i.i.i.i.i7.i.i.i.preheader
	leaq	16(%rsi), %r14
	jmp	.LBB0_367
.LBB0_366:                              # %core_mem_drop_7f8a914b9c4d666d_exit_i_i_i_i_i_i_i_i_i_i_79
                                        #   in Loop: Header=BB0_367 Depth=1
	addq	$24, %r14
	decq	%rbx
	je	.LBB0_369
.LBB0_367:                              # %join.5.i.i.i.i.i.i.i7.i.i.i
                                        # =>This Inner Loop Header: Depth=1
	cmpq	$0, (%r14)
	je	.LBB0_366
# %bb.368:                              # %then.1.i.i.i.i.i.i.i.i.i.i.i.i.i.i.i
                                        #   in Loop: Header=BB0_367 Depth=1
	movq	-16(%r14), %rcx
	callq	rattle_dealloc
	jmp	.LBB0_366
.LBB0_369:                              # %std_alloc_vec_Vec_clear_1ca9c52778c14e4e_exit_i_i_i_i_i_i_80
	testq	%rdi, %rdi
	je	.LBB0_371
# %bb.370:                              # %then.1.i.i.i.i.i.i.i.i
	movq	%rsi, %rcx
	callq	rattle_dealloc
.LBB0_371:                              # %arm.6.i.i.i
	movl	$38, %edi
	jmp	.LBB0_133
.LBB0_372:                              # %join.4.i.i.i.i.i.i.i.i
	ud2
	.seh_endproc
                                        # -- End function
	.def	std_alloc_vec_Vec_grow_amortized_5fdc5e19576447a7_3;
	.scl	3;
	.type	32;
	.endef
	.section .text$n2,"xr"
	.p2align	4                               # -- Begin function std_alloc::vec::Vec::grow_amortized::<#5fdc5e19576447a7>
std_alloc_vec_Vec_grow_amortized_5fdc5e19576447a7_3: # @std_alloc_vec_Vec_grow_amortized_5fdc5e19576447a7_3
.seh_proc std_alloc_vec_Vec_grow_amortized_5fdc5e19576447a7_3
# %bb.0:                                # %start
	pushq	%r14
	.seh_pushreg %r14
	pushq	%rsi
	.seh_pushreg %rsi
	pushq	%rdi
	.seh_pushreg %rdi
	pushq	%rbx
	.seh_pushreg %rbx
	subq	$168, %rsp
	.seh_stackalloc 168
	movaps	%xmm15, 144(%rsp)               # 16-byte Spill
	.seh_savexmm %xmm15, 144
	movaps	%xmm14, 128(%rsp)               # 16-byte Spill
	.seh_savexmm %xmm14, 128
	movaps	%xmm13, 112(%rsp)               # 16-byte Spill
	.seh_savexmm %xmm13, 112
	movaps	%xmm12, 96(%rsp)                # 16-byte Spill
	.seh_savexmm %xmm12, 96
	movaps	%xmm11, 80(%rsp)                # 16-byte Spill
	.seh_savexmm %xmm11, 80
	movaps	%xmm10, 64(%rsp)                # 16-byte Spill
	.seh_savexmm %xmm10, 64
	movaps	%xmm9, 48(%rsp)                 # 16-byte Spill
	.seh_savexmm %xmm9, 48
	movaps	%xmm8, 32(%rsp)                 # 16-byte Spill
	.seh_savexmm %xmm8, 32
	movaps	%xmm7, 16(%rsp)                 # 16-byte Spill
	.seh_savexmm %xmm7, 16
	movaps	%xmm6, (%rsp)                   # 16-byte Spill
	.seh_savexmm %xmm6, 0
	.seh_endprologue
	movq	8(%rcx), %rsi
	addq	%rsi, %rdx
	jb	.LBB1_1
# %bb.3:                                # %join.3
	cmpq	$9, %rdx
	movl	$8, %ebx
	cmovaeq	%rdx, %rbx
	movq	16(%rcx), %rax
	movq	%rax, %rdx
	shrq	$62, %rdx
	leaq	(%rax,%rax), %rdi
	cmpq	%rdi, %rbx
	cmovaq	%rbx, %rdi
	testq	%rdx, %rdx
	cmoveq	%rdi, %rbx
	testq	%rbx, %rbx
	js	.LBB1_1
# %bb.4:                                # %join.3.i
	testq	%rax, %rax
	je	.LBB1_6
# %bb.5:                                # %then.1.i.i
	movq	%rcx, %r14
	movq	(%rcx), %rdi
	movl	$1, %ecx
	movq	%rbx, %rdx
	callq	rattle_realloc
	testb	$1, %al
	je	.LBB1_1
.LBB1_8:                                # %arm.5.i
	movq	%rdx, (%r14)
	movq	%rbx, 16(%r14)
	movb	$1, %al
	jmp	.LBB1_2
.LBB1_6:                                # %std_alloc_vec_resize_5fdc5e19576447a7_exit_i_81
	movq	%rcx, %r14
	movl	$1, %esi
	callq	rattle_alloc
	testb	$1, %al
	jne	.LBB1_8
.LBB1_1:
	xorl	%eax, %eax
.LBB1_2:                                # %common.ret
                                        # kill: def $al killed $al killed $eax
	movaps	(%rsp), %xmm6                   # 16-byte Reload
	movaps	16(%rsp), %xmm7                 # 16-byte Reload
	movaps	32(%rsp), %xmm8                 # 16-byte Reload
	movaps	48(%rsp), %xmm9                 # 16-byte Reload
	movaps	64(%rsp), %xmm10                # 16-byte Reload
	movaps	80(%rsp), %xmm11                # 16-byte Reload
	movaps	96(%rsp), %xmm12                # 16-byte Reload
	movaps	112(%rsp), %xmm13               # 16-byte Reload
	movaps	128(%rsp), %xmm14               # 16-byte Reload
	movaps	144(%rsp), %xmm15               # 16-byte Reload
	addq	$168, %rsp
	popq	%rbx
	popq	%rdi
	popq	%rsi
	popq	%r14
	retq
	.seh_endproc
                                        # -- End function
	.def	core_slice_words_skip_far_52f9edcae2f82f51_7;
	.scl	3;
	.type	32;
	.endef
	.section .rdata$n0,"dr"
	.p2align	4, 0x0                          # -- Begin function core::slice::words::skip_far::<#52f9edcae2f82f51>
.LCPI2_0:
	.zero	16,128
	.section .text$n3,"xr"
	.p2align	4
core_slice_words_skip_far_52f9edcae2f82f51_7: # @core_slice_words_skip_far_52f9edcae2f82f51_7
# %bb.0:                                # %start
	movq	%rdx, %rax
	subq	%rdx, %r8
	cmpq	$64, %r8
	jb	.LBB2_4
# %bb.1:                                # %then.3.lr.ph
	movq	(%rcx), %rcx
	.p2align	4
.LBB2_2:                                # %then.3
                                        # =>This Inner Loop Header: Depth=1
	movdqu	(%rcx,%rax), %xmm0
	movdqu	16(%rcx,%rax), %xmm1
	movdqu	32(%rcx,%rax), %xmm2
	por	%xmm0, %xmm2
	movdqu	48(%rcx,%rax), %xmm0
	por	%xmm1, %xmm0
	por	%xmm2, %xmm0
	ptest	.LCPI2_0(%rip), %xmm0
	jne	.LBB2_4
# %bb.3:                                # %join.5
                                        #   in Loop: Header=BB2_2 Depth=1
	addq	$64, %rax
	addq	$-64, %r8
	cmpq	$63, %r8
	ja	.LBB2_2
.LBB2_4:                                # %after.1
	retq
                                        # -- End function
	.def	std_alloc_vec_Vec_grow_amortized_1b8c52373d8cd3cb_9;
	.scl	3;
	.type	32;
	.endef
	.section .text$n4,"xr"
	.p2align	4                               # -- Begin function std_alloc::vec::Vec::grow_amortized::<#1b8c52373d8cd3cb>
std_alloc_vec_Vec_grow_amortized_1b8c52373d8cd3cb_9: # @std_alloc_vec_Vec_grow_amortized_1b8c52373d8cd3cb_9
.seh_proc std_alloc_vec_Vec_grow_amortized_1b8c52373d8cd3cb_9
# %bb.0:                                # %start
	pushq	%r14
	.seh_pushreg %r14
	pushq	%rsi
	.seh_pushreg %rsi
	pushq	%rdi
	.seh_pushreg %rdi
	pushq	%rbx
	.seh_pushreg %rbx
	subq	$168, %rsp
	.seh_stackalloc 168
	movaps	%xmm15, 144(%rsp)               # 16-byte Spill
	.seh_savexmm %xmm15, 144
	movaps	%xmm14, 128(%rsp)               # 16-byte Spill
	.seh_savexmm %xmm14, 128
	movaps	%xmm13, 112(%rsp)               # 16-byte Spill
	.seh_savexmm %xmm13, 112
	movaps	%xmm12, 96(%rsp)                # 16-byte Spill
	.seh_savexmm %xmm12, 96
	movaps	%xmm11, 80(%rsp)                # 16-byte Spill
	.seh_savexmm %xmm11, 80
	movaps	%xmm10, 64(%rsp)                # 16-byte Spill
	.seh_savexmm %xmm10, 64
	movaps	%xmm9, 48(%rsp)                 # 16-byte Spill
	.seh_savexmm %xmm9, 48
	movaps	%xmm8, 32(%rsp)                 # 16-byte Spill
	.seh_savexmm %xmm8, 32
	movaps	%xmm7, 16(%rsp)                 # 16-byte Spill
	.seh_savexmm %xmm7, 16
	movaps	%xmm6, (%rsp)                   # 16-byte Spill
	.seh_savexmm %xmm6, 0
	.seh_endprologue
	movq	8(%rcx), %rax
	addq	%rax, %rdx
	jb	.LBB3_1
# %bb.3:                                # %join.3
	movq	16(%rcx), %r8
	cmpq	$5, %rdx
	movl	$4, %ebx
	cmovaeq	%rdx, %rbx
	movq	%r8, %r9
	shrq	$62, %r9
	leaq	(%r8,%r8), %rdx
	cmpq	%rdx, %rbx
	cmovaq	%rbx, %rdx
	testq	%r9, %r9
	cmoveq	%rdx, %rbx
	movabsq	$384307168202282325, %r9        # imm = 0x555555555555555
	cmpq	%r9, %rbx
	ja	.LBB3_1
# %bb.4:                                # %join.3.i
	testq	%r8, %r8
	je	.LBB3_6
# %bb.5:                                # %then.1.i.i
	movq	%rcx, %r14
	movq	(%rcx), %rdi
	shlq	$3, %rax
	leaq	(%rax,%rax,2), %rsi
	leaq	(,%rbx,8), %rax
	leaq	(%rax,%rax,2), %rdx
	movl	$8, %ecx
	callq	rattle_realloc
	testb	$1, %al
	je	.LBB3_1
.LBB3_8:                                # %arm.5.i
	movq	%rdx, (%r14)
	movq	%rbx, 16(%r14)
	movb	$1, %al
	jmp	.LBB3_2
.LBB3_6:                                # %std_alloc_vec_resize_1b8c52373d8cd3cb_exit_i_82
	movq	%rcx, %r14
	shlq	$3, %rdx
	leaq	(%rdx,%rdx,2), %rdi
	movl	$8, %esi
	callq	rattle_alloc
	testb	$1, %al
	jne	.LBB3_8
.LBB3_1:
	xorl	%eax, %eax
.LBB3_2:                                # %common.ret
                                        # kill: def $al killed $al killed $eax
	movaps	(%rsp), %xmm6                   # 16-byte Reload
	movaps	16(%rsp), %xmm7                 # 16-byte Reload
	movaps	32(%rsp), %xmm8                 # 16-byte Reload
	movaps	48(%rsp), %xmm9                 # 16-byte Reload
	movaps	64(%rsp), %xmm10                # 16-byte Reload
	movaps	80(%rsp), %xmm11                # 16-byte Reload
	movaps	96(%rsp), %xmm12                # 16-byte Reload
	movaps	112(%rsp), %xmm13               # 16-byte Reload
	movaps	128(%rsp), %xmm14               # 16-byte Reload
	movaps	144(%rsp), %xmm15               # 16-byte Reload
	addq	$168, %rsp
	popq	%rbx
	popq	%rdi
	popq	%rsi
	popq	%r14
	retq
	.seh_endproc
                                        # -- End function
	.def	std_alloc_vec_Vec_grow_amortized_c5e3cca411c51d6b_69;
	.scl	3;
	.type	32;
	.endef
	.section .text$n5,"xr"
	.p2align	4                               # -- Begin function std_alloc::vec::Vec::grow_amortized::<#c5e3cca411c51d6b>
std_alloc_vec_Vec_grow_amortized_c5e3cca411c51d6b_69: # @std_alloc_vec_Vec_grow_amortized_c5e3cca411c51d6b_69
.seh_proc std_alloc_vec_Vec_grow_amortized_c5e3cca411c51d6b_69
# %bb.0:                                # %start
	pushq	%r14
	.seh_pushreg %r14
	pushq	%rsi
	.seh_pushreg %rsi
	pushq	%rdi
	.seh_pushreg %rdi
	pushq	%rbx
	.seh_pushreg %rbx
	subq	$168, %rsp
	.seh_stackalloc 168
	movaps	%xmm15, 144(%rsp)               # 16-byte Spill
	.seh_savexmm %xmm15, 144
	movaps	%xmm14, 128(%rsp)               # 16-byte Spill
	.seh_savexmm %xmm14, 128
	movaps	%xmm13, 112(%rsp)               # 16-byte Spill
	.seh_savexmm %xmm13, 112
	movaps	%xmm12, 96(%rsp)                # 16-byte Spill
	.seh_savexmm %xmm12, 96
	movaps	%xmm11, 80(%rsp)                # 16-byte Spill
	.seh_savexmm %xmm11, 80
	movaps	%xmm10, 64(%rsp)                # 16-byte Spill
	.seh_savexmm %xmm10, 64
	movaps	%xmm9, 48(%rsp)                 # 16-byte Spill
	.seh_savexmm %xmm9, 48
	movaps	%xmm8, 32(%rsp)                 # 16-byte Spill
	.seh_savexmm %xmm8, 32
	movaps	%xmm7, 16(%rsp)                 # 16-byte Spill
	.seh_savexmm %xmm7, 16
	movaps	%xmm6, (%rsp)                   # 16-byte Spill
	.seh_savexmm %xmm6, 0
	.seh_endprologue
	movq	8(%rcx), %rsi
	cmpq	$-1, %rsi
	je	.LBB4_1
# %bb.3:                                # %join.3
	movq	16(%rcx), %rax
	cmpq	$8, %rsi
	movl	$7, %ebx
	cmovaeq	%rsi, %rbx
	incq	%rbx
	movq	%rax, %rdx
	shrq	$62, %rdx
	leaq	(%rax,%rax), %rdi
	cmpq	%rdi, %rbx
	cmovaq	%rbx, %rdi
	testq	%rdx, %rdx
	cmoveq	%rdi, %rbx
	testq	%rbx, %rbx
	js	.LBB4_1
# %bb.4:                                # %join.3.i
	testq	%rax, %rax
	je	.LBB4_6
# %bb.5:                                # %then.1.i.i
	movq	%rcx, %r14
	movq	(%rcx), %rdi
	movl	$1, %ecx
	movq	%rbx, %rdx
	callq	rattle_realloc
	testb	$1, %al
	je	.LBB4_1
.LBB4_8:                                # %arm.5.i
	movq	%rdx, (%r14)
	movq	%rbx, 16(%r14)
	movb	$1, %al
	jmp	.LBB4_2
.LBB4_6:                                # %std_alloc_vec_resize_c5e3cca411c51d6b_exit_i_83
	movq	%rcx, %r14
	movl	$1, %esi
	callq	rattle_alloc
	testb	$1, %al
	jne	.LBB4_8
.LBB4_1:
	xorl	%eax, %eax
.LBB4_2:                                # %common.ret
                                        # kill: def $al killed $al killed $eax
	movaps	(%rsp), %xmm6                   # 16-byte Reload
	movaps	16(%rsp), %xmm7                 # 16-byte Reload
	movaps	32(%rsp), %xmm8                 # 16-byte Reload
	movaps	48(%rsp), %xmm9                 # 16-byte Reload
	movaps	64(%rsp), %xmm10                # 16-byte Reload
	movaps	80(%rsp), %xmm11                # 16-byte Reload
	movaps	96(%rsp), %xmm12                # 16-byte Reload
	movaps	112(%rsp), %xmm13               # 16-byte Reload
	movaps	128(%rsp), %xmm14               # 16-byte Reload
	movaps	144(%rsp), %xmm15               # 16-byte Reload
	addq	$168, %rsp
	popq	%rbx
	popq	%rdi
	popq	%rsi
	popq	%r14
	retq
	.seh_endproc
                                        # -- End function
	.def	std_io_io_error_last_error_26;
	.scl	3;
	.type	32;
	.endef
	.section .text$n6,"xr"
	.p2align	4                               # -- Begin function std_io::io::error::last_error
std_io_io_error_last_error_26:        # @std_io_io_error_last_error_26
.seh_proc std_io_io_error_last_error_26
# %bb.0:                                # %start
	pushq	%rsi
	.seh_pushreg %rsi
	subq	$32, %rsp
	.seh_stackalloc 32
	.seh_endprologue
	movq	%rcx, %rsi
	callq	rattle_errno
                                        # kill: def $eax killed $eax def $rax
	movl	%eax, %ecx
	movb	$41, %dl
	testl	%eax, %eax
	js	.LBB5_40
# %bb.1:                                # %else.2.i.i
	decl	%eax
	cmpl	$121, %eax
	ja	.LBB5_40
# %bb.2:                                # %else.2.i.i
	leaq	.LJTI5_0(%rip), %r8
	movslq	(%r8,%rax,4), %rax
	addq	%r8, %rax
	jmpq	*%rax
.LBB5_3:
	movb	$1, %dl
	jmp	.LBB5_40
.LBB5_24:                               # %arm.23.i.i.i
	movb	$36, %dl
	jmp	.LBB5_40
.LBB5_36:                               # %arm.36.i.i.i
	movb	$4, %dl
	jmp	.LBB5_40
.LBB5_33:                               # %arm.33.i.i.i
	movb	$7, %dl
	jmp	.LBB5_40
.LBB5_39:                               # %arm.39.i.i.i
	movb	$26, %dl
	jmp	.LBB5_40
.LBB5_37:                               # %arm.37.i.i.i
	movb	$39, %dl
	jmp	.LBB5_40
.LBB5_28:                               # %arm.28.i.i.i
	movb	$9, %dl
	jmp	.LBB5_40
.LBB5_27:                               # %arm.27.i.i.i
	movb	$8, %dl
	jmp	.LBB5_40
.LBB5_22:                               # %arm.21.i.i.i
	movb	$30, %dl
	jmp	.LBB5_40
.LBB5_18:                               # %arm.17.i.i.i
	movb	$25, %dl
	jmp	.LBB5_40
.LBB5_20:                               # %arm.19.i.i.i
	movb	$32, %dl
	jmp	.LBB5_40
.LBB5_23:                               # %arm.22.i.i.i
	movb	$33, %dl
	jmp	.LBB5_40
.LBB5_34:                               # %arm.34.i.i.i
	movb	$22, %dl
	jmp	.LBB5_40
.LBB5_11:                               # %arm.10.i.i.i
	movb	$31, %dl
	jmp	.LBB5_40
.LBB5_15:                               # %arm.14.i.i.i
	movb	$29, %dl
	jmp	.LBB5_40
.LBB5_26:                               # %arm.25.i.i.i
	movb	$18, %dl
	jmp	.LBB5_40
.LBB5_29:                               # %arm.29.i.i.i
	movb	$10, %dl
	jmp	.LBB5_40
.LBB5_9:                                # %arm.8.i.i.i
	movb	$28, %dl
	jmp	.LBB5_40
.LBB5_12:                               # %arm.11.i.i.i
	movb	$14, %dl
	jmp	.LBB5_40
.LBB5_10:                               # %arm.9.i.i.i
	movb	$12, %dl
	jmp	.LBB5_40
.LBB5_30:                               # %arm.30.i.i.i
	movb	$5, %dl
	jmp	.LBB5_40
.LBB5_32:                               # %arm.32.i.i.i
	movb	$3, %dl
	jmp	.LBB5_40
.LBB5_4:                                # %arm.2.i.i.i
	xorl	%edx, %edx
	jmp	.LBB5_40
.LBB5_7:                                # %arm.5.i.i.i
	movb	$13, %dl
	jmp	.LBB5_40
.LBB5_8:                                # %arm.6.i.i.i
	movb	$38, %dl
	jmp	.LBB5_40
.LBB5_21:                               # %arm.20.i.i.i
	movb	$11, %dl
	jmp	.LBB5_40
.LBB5_5:                                # %arm.3.i.i.i
	movb	$35, %dl
	jmp	.LBB5_40
.LBB5_6:                                # %arm.4.i.i.i
	movb	$34, %dl
	jmp	.LBB5_40
.LBB5_14:                               # %arm.13.i.i.i
	movb	$20, %dl
	jmp	.LBB5_40
.LBB5_13:                               # %arm.12.i.i.i
	movb	$15, %dl
	jmp	.LBB5_40
.LBB5_38:                               # %arm.38.i.i.i
	movb	$19, %dl
	jmp	.LBB5_40
.LBB5_25:                               # %arm.24.i.i.i
	movb	$16, %dl
	jmp	.LBB5_40
.LBB5_31:                               # %arm.31.i.i.i
	movb	$6, %dl
	jmp	.LBB5_40
.LBB5_16:                               # %arm.15.i.i.i
	movb	$27, %dl
	jmp	.LBB5_40
.LBB5_17:                               # %arm.16.i.i.i
	movb	$24, %dl
	jmp	.LBB5_40
.LBB5_35:                               # %arm.35.i.i.i
	movb	$2, %dl
	jmp	.LBB5_40
.LBB5_19:                               # %arm.18.i.i.i
	movb	$17, %dl
.LBB5_40:                               # %std_io_io_error_Error_from_raw_os_error_exit_84
	movb	$0, (%rsi)
	movb	%dl, 1(%rsi)
	movw	$0, 2(%rsi)
	movl	%ecx, 4(%rsi)
	xorps	%xmm0, %xmm0
	movups	%xmm0, 8(%rsi)
	movups	%xmm0, 24(%rsi)
	movups	%xmm0, 40(%rsi)
	movups	%xmm0, 56(%rsi)
	movups	%xmm0, 72(%rsi)
	addq	$32, %rsp
	popq	%rsi
	retq
	.section .rdata$n7,"dr"
	.p2align	2, 0x0
.LJTI5_0:
	.long	.LBB5_3-.LJTI5_0
	.long	.LBB5_4-.LJTI5_0
	.long	.LBB5_40-.LJTI5_0
	.long	.LBB5_5-.LJTI5_0
	.long	.LBB5_40-.LJTI5_0
	.long	.LBB5_40-.LJTI5_0
	.long	.LBB5_6-.LJTI5_0
	.long	.LBB5_40-.LJTI5_0
	.long	.LBB5_40-.LJTI5_0
	.long	.LBB5_40-.LJTI5_0
	.long	.LBB5_7-.LJTI5_0
	.long	.LBB5_8-.LJTI5_0
	.long	.LBB5_3-.LJTI5_0
	.long	.LBB5_40-.LJTI5_0
	.long	.LBB5_40-.LJTI5_0
	.long	.LBB5_9-.LJTI5_0
	.long	.LBB5_10-.LJTI5_0
	.long	.LBB5_11-.LJTI5_0
	.long	.LBB5_40-.LJTI5_0
	.long	.LBB5_12-.LJTI5_0
	.long	.LBB5_13-.LJTI5_0
	.long	.LBB5_14-.LJTI5_0
	.long	.LBB5_40-.LJTI5_0
	.long	.LBB5_40-.LJTI5_0
	.long	.LBB5_40-.LJTI5_0
	.long	.LBB5_15-.LJTI5_0
	.long	.LBB5_16-.LJTI5_0
	.long	.LBB5_17-.LJTI5_0
	.long	.LBB5_18-.LJTI5_0
	.long	.LBB5_19-.LJTI5_0
	.long	.LBB5_20-.LJTI5_0
	.long	.LBB5_21-.LJTI5_0
	.long	.LBB5_40-.LJTI5_0
	.long	.LBB5_40-.LJTI5_0
	.long	.LBB5_22-.LJTI5_0
	.long	.LBB5_23-.LJTI5_0
	.long	.LBB5_40-.LJTI5_0
	.long	.LBB5_24-.LJTI5_0
	.long	.LBB5_25-.LJTI5_0
	.long	.LBB5_26-.LJTI5_0
	.long	.LBB5_40-.LJTI5_0
	.long	.LBB5_40-.LJTI5_0
	.long	.LBB5_40-.LJTI5_0
	.long	.LBB5_40-.LJTI5_0
	.long	.LBB5_40-.LJTI5_0
	.long	.LBB5_40-.LJTI5_0
	.long	.LBB5_40-.LJTI5_0
	.long	.LBB5_40-.LJTI5_0
	.long	.LBB5_40-.LJTI5_0
	.long	.LBB5_40-.LJTI5_0
	.long	.LBB5_40-.LJTI5_0
	.long	.LBB5_40-.LJTI5_0
	.long	.LBB5_40-.LJTI5_0
	.long	.LBB5_40-.LJTI5_0
	.long	.LBB5_40-.LJTI5_0
	.long	.LBB5_40-.LJTI5_0
	.long	.LBB5_40-.LJTI5_0
	.long	.LBB5_40-.LJTI5_0
	.long	.LBB5_40-.LJTI5_0
	.long	.LBB5_40-.LJTI5_0
	.long	.LBB5_40-.LJTI5_0
	.long	.LBB5_40-.LJTI5_0
	.long	.LBB5_40-.LJTI5_0
	.long	.LBB5_40-.LJTI5_0
	.long	.LBB5_40-.LJTI5_0
	.long	.LBB5_40-.LJTI5_0
	.long	.LBB5_40-.LJTI5_0
	.long	.LBB5_40-.LJTI5_0
	.long	.LBB5_40-.LJTI5_0
	.long	.LBB5_40-.LJTI5_0
	.long	.LBB5_40-.LJTI5_0
	.long	.LBB5_40-.LJTI5_0
	.long	.LBB5_40-.LJTI5_0
	.long	.LBB5_40-.LJTI5_0
	.long	.LBB5_40-.LJTI5_0
	.long	.LBB5_40-.LJTI5_0
	.long	.LBB5_40-.LJTI5_0
	.long	.LBB5_40-.LJTI5_0
	.long	.LBB5_40-.LJTI5_0
	.long	.LBB5_40-.LJTI5_0
	.long	.LBB5_40-.LJTI5_0
	.long	.LBB5_40-.LJTI5_0
	.long	.LBB5_40-.LJTI5_0
	.long	.LBB5_40-.LJTI5_0
	.long	.LBB5_40-.LJTI5_0
	.long	.LBB5_40-.LJTI5_0
	.long	.LBB5_40-.LJTI5_0
	.long	.LBB5_40-.LJTI5_0
	.long	.LBB5_40-.LJTI5_0
	.long	.LBB5_40-.LJTI5_0
	.long	.LBB5_40-.LJTI5_0
	.long	.LBB5_40-.LJTI5_0
	.long	.LBB5_40-.LJTI5_0
	.long	.LBB5_40-.LJTI5_0
	.long	.LBB5_24-.LJTI5_0
	.long	.LBB5_40-.LJTI5_0
	.long	.LBB5_40-.LJTI5_0
	.long	.LBB5_27-.LJTI5_0
	.long	.LBB5_28-.LJTI5_0
	.long	.LBB5_29-.LJTI5_0
	.long	.LBB5_30-.LJTI5_0
	.long	.LBB5_40-.LJTI5_0
	.long	.LBB5_31-.LJTI5_0
	.long	.LBB5_32-.LJTI5_0
	.long	.LBB5_40-.LJTI5_0
	.long	.LBB5_40-.LJTI5_0
	.long	.LBB5_33-.LJTI5_0
	.long	.LBB5_40-.LJTI5_0
	.long	.LBB5_40-.LJTI5_0
	.long	.LBB5_34-.LJTI5_0
	.long	.LBB5_35-.LJTI5_0
	.long	.LBB5_40-.LJTI5_0
	.long	.LBB5_36-.LJTI5_0
	.long	.LBB5_40-.LJTI5_0
	.long	.LBB5_37-.LJTI5_0
	.long	.LBB5_38-.LJTI5_0
	.long	.LBB5_40-.LJTI5_0
	.long	.LBB5_40-.LJTI5_0
	.long	.LBB5_40-.LJTI5_0
	.long	.LBB5_40-.LJTI5_0
	.long	.LBB5_40-.LJTI5_0
	.long	.LBB5_39-.LJTI5_0
	.section .text$n6,"xr"
	.seh_endproc
                                        # -- End function
	.def	text_programs_programs_listing_write_listing_cdc8ff12022c16a2_45;
	.scl	3;
	.type	32;
	.endef
	.section .rdata$n0,"dr"
	.p2align	4, 0x0                          # -- Begin function text_programs::programs::listing::write_listing::<#cdc8ff12022c16a2>
.LCPI6_0:
	.zero	16,48
	.section .text$n8,"xr"
	.p2align	4
text_programs_programs_listing_write_listing_cdc8ff12022c16a2_45: # @text_programs_programs_listing_write_listing_cdc8ff12022c16a2_45
.seh_proc text_programs_programs_listing_write_listing_cdc8ff12022c16a2_45
# %bb.0:                                # %start
	pushq	%r15
	.seh_pushreg %r15
	pushq	%r14
	.seh_pushreg %r14
	pushq	%r13
	.seh_pushreg %r13
	pushq	%r12
	.seh_pushreg %r12
	pushq	%rsi
	.seh_pushreg %rsi
	pushq	%rdi
	.seh_pushreg %rdi
	pushq	%rbp
	.seh_pushreg %rbp
	pushq	%rbx
	.seh_pushreg %rbx
	movl	$65960, %eax                    # imm = 0x101A8
	callq	___chkstk_ms
	subq	%rax, %rsp
	.seh_stackalloc 65960
	.seh_endprologue
	movq	%r8, %rsi
	movq	%rdx, 40(%rsp)                  # 8-byte Spill
	movq	%rcx, 48(%rsp)                  # 8-byte Spill
	xorps	%xmm0, %xmm0
	movaps	%xmm0, 400(%rsp)
	movaps	%xmm0, 384(%rsp)
	movaps	%xmm0, 368(%rsp)
	movaps	%xmm0, 352(%rsp)
	movaps	%xmm0, 336(%rsp)
	movaps	%xmm0, 240(%rsp)
	movaps	%xmm0, 256(%rsp)
	movaps	%xmm0, 272(%rsp)
	movaps	%xmm0, 288(%rsp)
	movaps	%xmm0, 304(%rsp)
	movaps	%xmm0, 320(%rsp)
	movaps	%xmm0, 144(%rsp)
	movaps	%xmm0, 160(%rsp)
	movaps	%xmm0, 176(%rsp)
	movaps	%xmm0, 192(%rsp)
	movaps	%xmm0, 208(%rsp)
	movaps	%xmm0, 224(%rsp)
	xorl	%r12d, %r12d
	leaq	416(%rsp), %rcx
	movl	$65536, %r8d                    # imm = 0x10000
	xorl	%edx, %edx
	callq	memset
	movq	$0, 65952(%rsp)
	movl	$0, 129(%rsp)
	movl	$0, 132(%rsp)
	movaps	.LCPI6_0(%rip), %xmm0           # xmm0 = [48,48,48,48,48,48,48,48,48,48,48,48,48,48,48,48]
	movups	%xmm0, 89(%rsp)
	movups	%xmm0, 105(%rsp)
	movabsq	$3472328296227680304, %rax      # imm = 0x3030303030303030
	movq	%rax, 121(%rsp)
	movq	$0, 80(%rsp)
	movb	$0, 88(%rsp)
	movq	$19, 136(%rsp)
	movq	%rsi, 72(%rsp)                  # 8-byte Spill
	testq	%rsi, %rsi
	je	.LBB6_53
# %bb.1:                                # %join.3.i.lr.ph
	movl	$19, %esi
	xorl	%r12d, %r12d
	xorl	%r13d, %r13d
	xorl	%r11d, %r11d
	movq	40(%rsp), %r10                  # 8-byte Reload
	jmp	.LBB6_2
	.p2align	4
.LBB6_49:                               #   in Loop: Header=BB6_2 Depth=1
	movq	%r14, %rdx
.LBB6_51:                               # %text_programs_programs_lines_fill_decimal_exit_85
                                        #   in Loop: Header=BB6_2 Depth=1
	orb	$48, %dl
	movb	%dl, 89(%rsp,%rsi)
	movq	%rsi, 136(%rsp)
.LBB6_52:                               # %text_programs_programs_offset_Offset_count_on_exit_86
                                        #   in Loop: Header=BB6_2 Depth=1
	addq	56(%rsp), %r12                  # 8-byte Folded Reload
	cmpq	72(%rsp), %r11                  # 8-byte Folded Reload
	je	.LBB6_53
.LBB6_2:                                # %join.3.i
                                        # =>This Loop Header: Depth=1
                                        #     Child Loop BB6_50 Depth 2
	movzbl	(%r10,%r11), %r15d
	testb	%r15b, %r15b
	js	.LBB6_4
# %bb.3:                                #   in Loop: Header=BB6_2 Depth=1
	movl	$1, %edi
	xorl	%ecx, %ecx
	xorl	%edx, %edx
	xorl	%eax, %eax
.LBB6_26:                               # %arm.4.i
                                        #   in Loop: Header=BB6_2 Depth=1
	movzbl	%dl, %edx
	shll	$16, %edx
	orl	%ecx, %edx
	movzbl	%al, %ebx
	shll	$8, %ebx
	orl	%edx, %ebx
	orl	%r15d, %ebx
	addq	%rdi, %r11
	movb	$1, %bpl
	xorl	%r15d, %r15d
	cmpq	$65457, %r13                    # imm = 0xFFB1
	jb	.LBB6_32
	jmp	.LBB6_28
	.p2align	4
.LBB6_4:                                # %join.3.i22
                                        #   in Loop: Header=BB6_2 Depth=1
	leaq	static.7(%rip), %rbx
	movzbl	(%r15,%rbx), %eax
	leaq	static.8(%rip), %rdi
	movzbl	(%rax,%rdi), %r14d
	cmpq	$12, %r14
	ja	.LBB6_19
# %bb.5:                                # %then.4.i28
                                        #   in Loop: Header=BB6_2 Depth=1
	movq	72(%rsp), %rbp                  # 8-byte Reload
	subq	%r11, %rbp
	cmpq	$3, %rbp
	jbe	.LBB6_6
.LBB6_8:                                # %join.3.i45
                                        #   in Loop: Header=BB6_2 Depth=1
	movzbl	1(%r10,%r11), %eax
	movzbl	(%rax,%rbx), %ecx
	shll	$4, %r14d
	addq	%rdi, %r14
	movzbl	(%rcx,%r14), %ecx
	cmpq	$12, %rcx
	ja	.LBB6_14
# %bb.9:                                # %then.1.i75
                                        #   in Loop: Header=BB6_2 Depth=1
	movzbl	2(%r10,%r11), %edx
	movzbl	(%rdx,%rbx), %edx
	shll	$4, %ecx
	addq	%rdi, %rcx
	movzbl	(%rdx,%rcx), %ecx
	cmpq	$12, %rcx
	ja	.LBB6_14
# %bb.10:                               # %then.1.i109
                                        #   in Loop: Header=BB6_2 Depth=1
	movzbl	3(%r10,%r11), %edx
	movzbl	(%rdx,%rbx), %edx
	shll	$4, %ecx
	addq	%rcx, %rdi
	movzbl	(%rdx,%rdi), %ecx
	cmpl	$13, %ecx
	je	.LBB6_17
# %bb.11:                               # %then.1.i109
                                        #   in Loop: Header=BB6_2 Depth=1
	movb	$3, %al
	cmpl	$16, %ecx
	je	.LBB6_22
# %bb.12:                               # %arm.2.i158
                                        #   in Loop: Header=BB6_2 Depth=1
                                        # kill: def $cl killed $cl killed $ecx
	jmp	.LBB6_13
.LBB6_19:                               # %join.6.i24
                                        #   in Loop: Header=BB6_2 Depth=1
	movb	$2, %al
	cmpq	$14, %r14
	je	.LBB6_22
# %bb.20:                               # %join.6.i24
                                        #   in Loop: Header=BB6_2 Depth=1
	cmpl	$13, %r14d
	je	.LBB6_23
# %bb.21:                               # %arm.2.i177
                                        #   in Loop: Header=BB6_2 Depth=1
	movb	$1, %al
	jmp	.LBB6_22
.LBB6_14:                               # %join.3.i92
                                        #   in Loop: Header=BB6_2 Depth=1
	cmpq	$13, %rcx
	je	.LBB6_17
# %bb.15:                               # %join.3.i92
                                        #   in Loop: Header=BB6_2 Depth=1
	movb	$3, %al
	cmpl	$16, %ecx
	jne	.LBB6_16
.LBB6_22:                               # %arm.8.i
                                        #   in Loop: Header=BB6_2 Depth=1
	movzbl	%al, %ebx
	incq	%r11
	movb	$1, %dil
	movl	$1, %r15d
	xorl	%ebp, %ebp
	cmpq	$65457, %r13                    # imm = 0xFFB1
	jae	.LBB6_28
.LBB6_32:                               # %join.10
                                        #   in Loop: Header=BB6_2 Depth=1
	movq	%r15, 56(%rsp)                  # 8-byte Spill
	movq	80(%rsp), %r14
	testq	%r14, %r14
	je	.LBB6_33
# %bb.36:                               # %else.2.i
                                        #   in Loop: Header=BB6_2 Depth=1
	movq	65952(%rsp), %rax
	leaq	89(%rsp), %rdx
	movl	16(%rdx,%rsi), %ecx
	movl	%ecx, 432(%rsp,%rax)
	movups	(%rdx,%rsi), %xmm0
	movups	%xmm0, 416(%rsp,%rax)
	subq	%rsi, %rax
	movzbl	88(%rsp), %r15d
	imull	$205, %r15d, %ecx
	shrl	$11, %ecx
	leal	(%rcx,%rcx), %edx
	leal	(%rdx,%rdx,4), %edx
	movl	%r15d, %r8d
	subb	%dl, %r8b
	orb	$48, %r8b
	movzbl	%r8b, %edx
	shll	$8, %edx
	addl	%edx, %ecx
	addl	$48, %ecx
	movw	%cx, 70(%rsp)
	movw	%cx, 436(%rsp,%rax)
	addq	$22, %rax
	jmp	.LBB6_37
	.p2align	4
.LBB6_33:                               # %then.1.i224
                                        #   in Loop: Header=BB6_2 Depth=1
	movzbl	88(%rsp), %r15d
	cmpq	$9, %r15
	ja	.LBB6_35
# %bb.34:                               # %then.1.i231
                                        #   in Loop: Header=BB6_2 Depth=1
	movl	%r15d, %ecx
	orb	$48, %cl
	movq	65952(%rsp), %rax
	movb	%cl, 416(%rsp,%rax)
	incq	%rax
	jmp	.LBB6_37
.LBB6_35:                               # %else.2.i229
                                        #   in Loop: Header=BB6_2 Depth=1
	leaq	416(%rsp), %rcx
	movq	%r15, %rdx
	movq	%r11, %r13
	callq	text_programs_programs_lines_Lines_push_digits_51
	movq	%r13, %r11
	movq	40(%rsp), %r10                  # 8-byte Reload
	movq	65952(%rsp), %rax
	.p2align	4
.LBB6_37:                               # %text_programs_programs_entries_push_piece_exit_87
                                        #   in Loop: Header=BB6_2 Depth=1
	movb	$32, 416(%rsp,%rax)
	leal	48(%rdi), %ecx
	movb	%cl, 417(%rsp,%rax)
	leaq	2(%rax), %rcx
	movq	%rcx, 65952(%rsp)
	movb	$32, 418(%rsp,%rax)
	testb	%bpl, %bpl
	je	.LBB6_46
# %bb.38:                               # %arm.1.i279
                                        #   in Loop: Header=BB6_2 Depth=1
	testb	%bl, %bl
	js	.LBB6_40
# %bb.39:                               # %then.2.i
                                        #   in Loop: Header=BB6_2 Depth=1
	andl	$127, %ebx
	jmp	.LBB6_45
	.p2align	4
.LBB6_46:                               # %switch.lookup
                                        #   in Loop: Header=BB6_2 Depth=1
	addq	$3, %rax
	movzbl	%bl, %ecx
	shll	$3, %ecx
	leaq	switch_table_text_programs_programs_listing_write_merged_cdc8ff12022c16a2_53(%rip), %rdx
	movq	(%rcx,%rdx), %r8
	leaq	switch_table_text_programs_programs_listing_write_merged_cdc8ff12022c16a2_144_54(%rip), %rdx
	movq	(%rcx,%rdx), %rdx
	leaq	(%r8,%rax), %r13
	leaq	(%rsp,%rax), %rcx
	addq	$416, %rcx                      # imm = 0x1A0
	movq	%r11, %rbx
	callq	memcpy
	movq	%rbx, %r11
	movq	40(%rsp), %r10                  # 8-byte Reload
	jmp	.LBB6_47
.LBB6_40:                               # %join.4.i285
                                        #   in Loop: Header=BB6_2 Depth=1
	movl	%ebx, %ecx
	shrl	$8, %ecx
	cmpb	$-33, %bl
	ja	.LBB6_42
# %bb.41:                               # %then.5.i
                                        #   in Loop: Header=BB6_2 Depth=1
	andl	$31, %ebx
	shll	$6, %ebx
	andl	$63, %ecx
	orl	%ecx, %ebx
	jmp	.LBB6_45
.LBB6_42:                               # %join.7.i287
                                        #   in Loop: Header=BB6_2 Depth=1
	movl	%ebx, %r8d
	shrl	$16, %r8d
	movl	%ebx, %edx
	shll	$12, %edx
	andl	$63, %ecx
	shll	$6, %ecx
	andl	$63, %r8d
	cmpb	$-17, %bl
	ja	.LBB6_44
# %bb.43:                               # %then.8.i
                                        #   in Loop: Header=BB6_2 Depth=1
	andl	$61440, %edx                    # imm = 0xF000
	orl	%edx, %r8d
	orl	%ecx, %r8d
	movl	%r8d, %ebx
	jmp	.LBB6_45
.LBB6_17:                               # %join.4.i183
                                        #   in Loop: Header=BB6_2 Depth=1
	xorl	%ecx, %ecx
	cmpb	$-32, %r15b
	jae	.LBB6_24
# %bb.18:                               #   in Loop: Header=BB6_2 Depth=1
	movl	$2, %edi
	xorl	%edx, %edx
	jmp	.LBB6_26
.LBB6_28:                               # %then.8
                                        #   in Loop: Header=BB6_2 Depth=1
	leaq	240(%rsp), %rcx
	leaq	416(%rsp), %rdx
	movq	%r11, %r14
	callq	text_programs_programs_lines_Lines_write_to_cdc8ff12022c16a2_55
	movq	%r14, %r11
	movq	40(%rsp), %r10                  # 8-byte Reload
	cmpb	$0, 240(%rsp)
	je	.LBB6_32
	jmp	.LBB6_29
.LBB6_44:                               # %join.10.i
                                        #   in Loop: Header=BB6_2 Depth=1
	shrl	$24, %ebx
	andl	$28672, %edx                    # imm = 0x7000
	orl	%r8d, %edx
	orl	%ecx, %edx
	shll	$6, %edx
	andl	$63, %ebx
	orl	%edx, %ebx
	.p2align	4
.LBB6_45:                               # %utf_chars_utf8_char_Utf8Char_scalar_exit_88
                                        #   in Loop: Header=BB6_2 Depth=1
	movl	%ebx, %ecx
	shrl	$16, %ecx
	leaq	static.9(%rip), %rdx
	movzwl	(%rdx,%rcx,2), %ecx
	movzbl	%bh, %ebp
	movzwl	(%rdx,%rbp,2), %r8d
	movzbl	%bl, %r9d
	movzwl	(%rdx,%r9,2), %edx
	leaq	9(%rax), %r13
	movw	%cx, 419(%rsp,%rax)
	movw	%r8w, 421(%rsp,%rax)
	movw	%dx, 423(%rsp,%rax)
.LBB6_47:                               # %text_programs_programs_entries_push_answer_exit_89
                                        #   in Loop: Header=BB6_2 Depth=1
	movb	$10, 416(%rsp,%r13)
	incq	%r13
	movq	%r13, 65952(%rsp)
	addb	%dil, %r15b
	movb	%r15b, 88(%rsp)
	cmpb	$100, %r15b
	jb	.LBB6_52
# %bb.48:                               # %then.1.i343
                                        #   in Loop: Header=BB6_2 Depth=1
	addb	$-100, %r15b
	movb	%r15b, 88(%rsp)
	incq	%r14
	movq	%r14, 80(%rsp)
	movl	$19, %esi
	cmpq	$10, %r14
	jb	.LBB6_49
	.p2align	4
.LBB6_50:                               # %join.5.i
                                        #   Parent Loop BB6_2 Depth=1
                                        # =>  This Inner Loop Header: Depth=2
	movabsq	$-3689348814741910323, %rcx     # imm = 0xCCCCCCCCCCCCCCCD
	movq	%r14, %rax
	mulq	%rcx
	shrq	$3, %rdx
	leal	(%rdx,%rdx), %eax
	leal	(%rax,%rax,4), %eax
	movl	%r14d, %ecx
	subl	%eax, %ecx
	orb	$48, %cl
	movb	%cl, 89(%rsp,%rsi)
	decq	%rsi
	cmpq	$99, %r14
	movq	%rdx, %r14
	ja	.LBB6_50
	jmp	.LBB6_51
.LBB6_24:                               # %arm.1.i
                                        #   in Loop: Header=BB6_2 Depth=1
	movzbl	2(%r10,%r11), %edx
	movl	$3, %edi
	cmpb	$-16, %r15b
	jb	.LBB6_26
# %bb.25:                               # %default.4.i
                                        #   in Loop: Header=BB6_2 Depth=1
	movzbl	3(%r10,%r11), %ecx
	shll	$24, %ecx
	movl	$4, %edi
	jmp	.LBB6_26
.LBB6_6:                                # %utf_chars_codes_utf8_are_too_few_exit_90
                                        #   in Loop: Header=BB6_2 Depth=1
	movl	%r14d, %ecx
	movq	%r11, 56(%rsp)                  # 8-byte Spill
	callq	utf_chars_codes_utf8_missing_after_43
	movq	56(%rsp), %r11                  # 8-byte Reload
	movq	40(%rsp), %r10                  # 8-byte Reload
	cmpq	%rax, %rbp
	ja	.LBB6_8
# %bb.7:                                #   in Loop: Header=BB6_2 Depth=1
	xorl	%eax, %eax
	jmp	.LBB6_22
.LBB6_16:                               # %arm.2.i161
                                        #   in Loop: Header=BB6_2 Depth=1
                                        # kill: def $cl killed $cl killed $rcx
.LBB6_13:                               # %arm.8.i
                                        #   in Loop: Header=BB6_2 Depth=1
	movq	%r11, %rdi
	callq	utf_base_table_walks_error_of_value_44
	movq	%rdi, %r11
	movq	40(%rsp), %r10                  # 8-byte Reload
                                        # kill: def $al killed $al def $eax
	jmp	.LBB6_22
.LBB6_53:                               # %after.1
	leaq	144(%rsp), %rcx
	leaq	416(%rsp), %rdx
	callq	text_programs_programs_lines_Lines_write_to_cdc8ff12022c16a2_55
	cmpb	$0, 144(%rsp)
	je	.LBB6_54
# %bb.55:                               # %arm.15
	movq	152(%rsp), %rax
	movq	48(%rsp), %rcx                  # 8-byte Reload
	movq	$1, (%rcx)
	movq	%rax, 8(%rcx)
	movaps	160(%rsp), %xmm0
	movaps	176(%rsp), %xmm1
	movaps	192(%rsp), %xmm2
	movaps	208(%rsp), %xmm3
	movups	%xmm0, 16(%rcx)
	movups	%xmm1, 32(%rcx)
	movups	%xmm2, 48(%rcx)
	movups	%xmm3, 64(%rcx)
	movaps	224(%rsp), %xmm0
	jmp	.LBB6_30
.LBB6_29:                               # %arm.12
	movq	248(%rsp), %rax
	movq	48(%rsp), %rcx                  # 8-byte Reload
	movq	$1, (%rcx)
	movq	%rax, 8(%rcx)
	movaps	256(%rsp), %xmm0
	movaps	272(%rsp), %xmm1
	movaps	288(%rsp), %xmm2
	movaps	304(%rsp), %xmm3
	movups	%xmm0, 16(%rcx)
	movups	%xmm1, 32(%rcx)
	movups	%xmm2, 48(%rcx)
	movups	%xmm3, 64(%rcx)
	movaps	320(%rsp), %xmm0
.LBB6_30:                               # %common.ret
	movups	%xmm0, 80(%rcx)
	jmp	.LBB6_31
.LBB6_54:                               # %arm.14
	movq	48(%rsp), %rax                  # 8-byte Reload
	movq	$0, (%rax)
	movq	%r12, 8(%rax)
	movaps	336(%rsp), %xmm0
	movaps	352(%rsp), %xmm1
	movaps	368(%rsp), %xmm2
	movaps	384(%rsp), %xmm3
	movups	%xmm0, 16(%rax)
	movups	%xmm1, 32(%rax)
	movups	%xmm2, 48(%rax)
	movups	%xmm3, 64(%rax)
	movaps	400(%rsp), %xmm0
	movups	%xmm0, 80(%rax)
.LBB6_31:                               # %common.ret
	addq	$65960, %rsp                    # imm = 0x101A8
	popq	%rbx
	popq	%rbp
	popq	%rdi
	popq	%rsi
	popq	%r12
	popq	%r13
	popq	%r14
	popq	%r15
	retq
.LBB6_23:                               # %join.4.i
	ud2
	.seh_endproc
                                        # -- End function
	.def	utf_chars_codes_utf8_missing_after_43;
	.scl	3;
	.type	32;
	.endef
	.section .text$n9,"xr"
	.p2align	4                               # -- Begin function utf_chars::codes::utf8::missing_after
utf_chars_codes_utf8_missing_after_43: # @utf_chars_codes_utf8_missing_after_43
# %bb.0:                                # %start
	movzbl	%cl, %eax
	leaq	switch_table_utf_chars_codes_utf8_missing_after_91(%rip), %rcx
	movq	(%rcx,%rax,8), %rax
	retq
                                        # -- End function
	.def	utf_base_table_walks_error_of_value_44;
	.scl	3;
	.type	32;
	.endef
	.section .text$n10,"xr"
	.p2align	4                               # -- Begin function utf_base::table::walks::error_of_value
utf_base_table_walks_error_of_value_44: # @utf_base_table_walks_error_of_value_44
# %bb.0:                                # %start
	movzbl	%cl, %eax
	leaq	switch_table_utf_base_table_walks_error_of_value_92(%rip), %rcx
	movzbl	(%rax,%rcx), %eax
	retq
                                        # -- End function
	.def	text_programs_programs_lines_Lines_push_digits_51;
	.scl	3;
	.type	32;
	.endef
	.section .text$n11,"xr"
	.p2align	4                               # -- Begin function text_programs::programs::lines::Lines::push_digits
text_programs_programs_lines_Lines_push_digits_51: # @text_programs_programs_lines_Lines_push_digits_51
.seh_proc text_programs_programs_lines_Lines_push_digits_51
# %bb.0:                                # %start
	subq	$40, %rsp
	.seh_stackalloc 40
	.seh_endprologue
	xorps	%xmm0, %xmm0
	movaps	%xmm0, 16(%rsp)
	movaps	%xmm0, (%rsp)
	movq	$0, 32(%rsp)
	movq	$-1, %r9
	.p2align	4
.LBB9_1:                                # %join.5.i
                                        # =>This Inner Loop Header: Depth=1
	movq	%rdx, %r8
	movabsq	$-3689348814741910323, %rdx     # imm = 0xCCCCCCCCCCCCCCCD
	movq	%r8, %rax
	mulq	%rdx
	shrq	$3, %rdx
	leal	(%rdx,%rdx), %eax
	leal	(%rax,%rax,4), %eax
	movl	%r8d, %r10d
	subl	%eax, %r10d
	orb	$48, %r10b
	movb	%r10b, 20(%rsp,%r9)
	decq	%r9
	cmpq	$99, %r8
	ja	.LBB9_1
# %bb.2:                                # %text_programs_programs_lines_fill_decimal_exit_85
	orb	$48, %dl
	movb	%dl, 20(%rsp,%r9)
	movq	65536(%rcx), %rax
	movl	36(%rsp,%r9), %edx
	movl	%edx, 16(%rcx,%rax)
	movups	20(%rsp,%r9), %xmm0
	movups	%xmm0, (%rcx,%rax)
	subq	%r9, %rax
	movq	%rax, 65536(%rcx)
	addq	$40, %rsp
	retq
	.seh_endproc
                                        # -- End function
	.def	text_programs_programs_lines_Lines_write_to_cdc8ff12022c16a2_55;
	.scl	3;
	.type	32;
	.endef
	.section .text$n12,"xr"
	.p2align	4                               # -- Begin function text_programs::programs::lines::Lines::write_to::<#cdc8ff12022c16a2>
text_programs_programs_lines_Lines_write_to_cdc8ff12022c16a2_55: # @text_programs_programs_lines_Lines_write_to_cdc8ff12022c16a2_55
.seh_proc text_programs_programs_lines_Lines_write_to_cdc8ff12022c16a2_55
# %bb.0:                                # %start
	pushq	%r15
	.seh_pushreg %r15
	pushq	%r14
	.seh_pushreg %r14
	pushq	%r13
	.seh_pushreg %r13
	pushq	%r12
	.seh_pushreg %r12
	pushq	%rsi
	.seh_pushreg %rsi
	pushq	%rdi
	.seh_pushreg %rdi
	pushq	%rbx
	.seh_pushreg %rbx
	subq	$448, %rsp                      # imm = 0x1C0
	.seh_stackalloc 448
	.seh_endprologue
	movq	%rdx, %rbx
	movq	%rcx, %rsi
	movq	65536(%rdx), %r15
	testq	%r15, %r15
	je	.LBB10_9
# %bb.1:                                # %join.5.i.lr.ph
	leaq	40(%rsp), %r12
	xorl	%r13d, %r13d
	.p2align	4
.LBB10_2:                               # %join.5.i
                                        # =>This Inner Loop Header: Depth=1
	leaq	(%rbx,%r13), %rdx
	movq	%r15, %rdi
	subq	%r13, %rdi
	movl	$1, %ecx
	movq	%rdi, %r8
	callq	noddychest_write
	movq	%rax, %r14
	testq	%rax, %rax
	js	.LBB10_3
# %bb.4:                                # %arm.5.i
                                        #   in Loop: Header=BB10_2 Depth=1
	cmpq	%rdi, %r14
	cmovbq	%r14, %rdi
	xorps	%xmm0, %xmm0
	movaps	%xmm0, 32(%rsp)
	movaps	%xmm0, 48(%rsp)
	movaps	%xmm0, 64(%rsp)
	movaps	%xmm0, 80(%rsp)
	movaps	%xmm0, 96(%rsp)
	jmp	.LBB10_5
	.p2align	4
.LBB10_3:                               # %arm.4.i
                                        #   in Loop: Header=BB10_2 Depth=1
	leaq	32(%rsp), %rcx
	callq	std_io_io_error_last_error_26
	movq	32(%rsp), %rdi
	movups	(%r12), %xmm0
	movups	16(%r12), %xmm1
	movups	32(%r12), %xmm2
	movups	48(%r12), %xmm3
	movups	64(%r12), %xmm4
	movaps	%xmm4, 352(%rsp)
	movaps	%xmm0, 288(%rsp)
	movaps	%xmm1, 304(%rsp)
	movaps	%xmm2, 320(%rsp)
	movaps	%xmm3, 336(%rsp)
	movaps	352(%rsp), %xmm0
	movaps	%xmm0, 96(%rsp)
	movaps	288(%rsp), %xmm0
	movaps	304(%rsp), %xmm1
	movaps	320(%rsp), %xmm2
	movaps	336(%rsp), %xmm3
	movaps	%xmm3, 80(%rsp)
	movaps	%xmm2, 64(%rsp)
	movaps	%xmm1, 48(%rsp)
	movaps	%xmm0, 32(%rsp)
.LBB10_5:                               # %text_runs_counted_Counted_put_cdc8ff12022c16a2_exit_93
                                        #   in Loop: Header=BB10_2 Depth=1
	movaps	96(%rsp), %xmm0
	movaps	%xmm0, 432(%rsp)
	movaps	32(%rsp), %xmm1
	movaps	48(%rsp), %xmm2
	movaps	64(%rsp), %xmm3
	movaps	80(%rsp), %xmm4
	movaps	%xmm1, 208(%rsp)
	movaps	%xmm2, 224(%rsp)
	movaps	%xmm3, 240(%rsp)
	movaps	%xmm4, 256(%rsp)
	movaps	%xmm0, 272(%rsp)
	testq	%r14, %r14
	js	.LBB10_11
# %bb.6:                                # %arm.6.i
                                        #   in Loop: Header=BB10_2 Depth=1
	testq	%rdi, %rdi
	je	.LBB10_7
# %bb.8:                                # %join.12.i
                                        #   in Loop: Header=BB10_2 Depth=1
	addq	%rdi, %r13
	cmpq	%r15, %r13
	jb	.LBB10_2
.LBB10_9:                               # %arm.1
	movq	$0, 65536(%rbx)
	movb	$0, (%rsi)
	xorps	%xmm0, %xmm0
	movups	%xmm0, 8(%rsi)
	movups	%xmm0, 24(%rsi)
	movups	%xmm0, 40(%rsi)
	movups	%xmm0, 56(%rsi)
	movups	%xmm0, 72(%rsi)
	movq	$0, 88(%rsi)
	jmp	.LBB10_10
.LBB10_11:                              # %arm.7.i
	movl	%edi, %ecx
	shrl	$8, %ecx
	movq	%rdi, %rax
	shrq	$16, %rax
	movaps	272(%rsp), %xmm0
	movaps	%xmm0, 192(%rsp)
	movaps	208(%rsp), %xmm0
	movaps	224(%rsp), %xmm1
	movaps	240(%rsp), %xmm2
	movaps	256(%rsp), %xmm3
	movaps	%xmm3, 176(%rsp)
	movaps	%xmm2, 160(%rsp)
	movaps	%xmm1, 144(%rsp)
	movaps	%xmm0, 128(%rsp)
	jmp	.LBB10_12
.LBB10_7:                               # %then.10.i
	xorps	%xmm0, %xmm0
	movaps	%xmm0, 192(%rsp)
	movaps	%xmm0, 176(%rsp)
	movaps	%xmm0, 160(%rsp)
	movaps	%xmm0, 144(%rsp)
	movaps	%xmm0, 128(%rsp)
	movb	$23, %cl
	movb	$1, %dil
	xorl	%eax, %eax
.LBB10_12:                              # %arm.2
	movb	$1, (%rsi)
	movb	%dil, 8(%rsi)
	movb	%cl, 9(%rsi)
	movl	%eax, 10(%rsi)
	shrq	$32, %rax
	movw	%ax, 14(%rsi)
	movaps	128(%rsp), %xmm0
	movaps	144(%rsp), %xmm1
	movaps	160(%rsp), %xmm2
	movaps	176(%rsp), %xmm3
	movups	%xmm0, 16(%rsi)
	movups	%xmm1, 32(%rsi)
	movups	%xmm2, 48(%rsi)
	movups	%xmm3, 64(%rsi)
	movaps	192(%rsp), %xmm0
	movups	%xmm0, 80(%rsi)
.LBB10_10:                              # %arm.1
	addq	$448, %rsp                      # imm = 0x1C0
	popq	%rbx
	popq	%rdi
	popq	%rsi
	popq	%r12
	popq	%r13
	popq	%r14
	popq	%r15
	retq
	.seh_endproc
                                        # -- End function
	.def	text_programs_programs_pieces_program_merge_all_e3b2a9d4d2861db8_30;
	.scl	3;
	.type	32;
	.endef
	.section .text$n13,"xr"
	.p2align	4                               # -- Begin function text_programs::programs::pieces_program::merge_all::<#e3b2a9d4d2861db8>
text_programs_programs_pieces_program_merge_all_e3b2a9d4d2861db8_30: # @text_programs_programs_pieces_program_merge_all_e3b2a9d4d2861db8_30
.seh_proc text_programs_programs_pieces_program_merge_all_e3b2a9d4d2861db8_30
# %bb.0:                                # %start
	pushq	%r15
	.seh_pushreg %r15
	pushq	%r14
	.seh_pushreg %r14
	pushq	%r13
	.seh_pushreg %r13
	pushq	%r12
	.seh_pushreg %r12
	pushq	%rsi
	.seh_pushreg %rsi
	pushq	%rdi
	.seh_pushreg %rdi
	pushq	%rbp
	.seh_pushreg %rbp
	pushq	%rbx
	.seh_pushreg %rbx
	subq	$120, %rsp
	.seh_stackalloc 120
	.seh_endprologue
	movq	%r8, %rbx
	movq	%rdx, %rdi
	movq	%rcx, %r13
	xorps	%xmm0, %xmm0
	movups	%xmm0, 95(%rsp)
	movaps	%xmm0, 80(%rsp)
	leaq	55(%rsp), %r14
	movq	%r14, 56(%rsp)
	movups	%xmm0, 64(%rsp)
	xorl	%eax, %eax
	xorl	%r15d, %r15d
	xorl	%ebp, %ebp
	movq	%rcx, 40(%rsp)                  # 8-byte Spill
	testb	$1, %bpl
	jne	.LBB11_3
	.p2align	4
.LBB11_2:                               # %loop.2.i
	cmpl	$16777216, %eax                 # imm = 0x1000000
	jae	.LBB11_3
# %bb.7:                                # %join.3.i.i
	testq	%rbx, %rbx
	je	.LBB11_51
# %bb.8:                                # %arm.6.i3.i
	decq	%rbx
	movzbl	(%rdi), %r12d
	incq	%rdi
	jmp	.LBB11_9
	.p2align	4
.LBB11_3:                               # %then.1.i.i
	movl	%eax, %ecx
	andl	$-16777216, %ecx                # imm = 0xFF000000
	cmpl	$16777216, %ecx                 # imm = 0x1000000
	je	.LBB11_4
# %bb.5:                                # %after.1.i.i
	cmpl	$16777216, %eax                 # imm = 0x1000000
	jb	.LBB11_51
# %bb.6:                                # %join.13.i.i
	movl	%eax, %r12d
	movl	%eax, %ecx
	callq	encode_unicode_held_bytes_without_first_94
                                        # kill: def $eax killed $eax def $rax
	jmp	.LBB11_9
	.p2align	4
.LBB11_4:                               # %then.5.i.i
	movl	%eax, %r12d
	xorl	%eax, %eax
	.p2align	4
.LBB11_9:                               # %arm.2.i.i
	movzbl	%r12b, %ecx
	leaq	static.7(%rip), %r10
	movzbl	(%rcx,%r10), %edx
	leaq	static.8(%rip), %r9
	movzbl	(%rdx,%r9), %r8d
	cmpq	$13, %r8
	jne	.LBB11_11
# %bb.10:                               # %then.1.i20.i
	andb	$127, %r12b
	xorl	%edx, %edx
	xorl	%r8d, %r8d
	xorl	%r11d, %r11d
.LBB11_43:                              # %arm.6.i.i
	movzbl	%r8b, %ecx
	shll	$16, %ecx
	orl	%r11d, %ecx
	movzbl	%dl, %edx
	shll	$8, %edx
	movzbl	%r12b, %esi
	orl	%edx, %esi
	orl	%ecx, %esi
	xorl	%r12d, %r12d
	cmpq	%r15, 72(%rsp)
	jne	.LBB11_47
	jmp	.LBB11_45
	.p2align	4
.LBB11_11:                              # %join.3.i17.i
	cmpb	$13, %r8b
	jae	.LBB11_12
# %bb.13:                               # %join.6.i.i
	xorl	%ecx, %ecx
	testb	$1, %bpl
	je	.LBB11_15
# %bb.14:
	xorl	%ecx, %ecx
	movb	$1, %bpl
	jmp	.LBB11_41
	.p2align	4
.LBB11_12:                              # %then.4.i.i
	decb	%dl
	xorl	%ecx, %ecx
	cmpb	$3, %dl
	adcb	$1, %cl
.LBB11_41:                              # %arm.5.i.i
	movzbl	%cl, %esi
	movb	$1, %r12b
	cmpq	%r15, 72(%rsp)
	je	.LBB11_45
.LBB11_47:                              # %core_result_ResultTry_branch_0788f82b7f7347db_exit_i_95
	leaq	(%r15,%r15,4), %rcx
	movb	%r12b, (%r14,%rcx)
	movl	%esi, 1(%r14,%rcx)
	incq	%r15
	movq	%r15, 64(%rsp)
	testb	$1, %bpl
	je	.LBB11_2
	jmp	.LBB11_3
.LBB11_15:                              # %join.9.i.i
	testq	%rbx, %rbx
	je	.LBB11_16
# %bb.17:                               # %arm.2.i31.i
	leaq	1(%rdi), %r13
	leaq	-1(%rbx), %rsi
	movzbl	(%rdi), %edx
	movzbl	(%rdx,%r10), %ecx
	shll	$4, %r8d
	addq	%r9, %r8
	movzbl	(%rcx,%r8), %ecx
	cmpq	$12, %rcx
	ja	.LBB11_33
# %bb.18:                               # %then.5.i43.i
	testq	%rsi, %rsi
	je	.LBB11_19
# %bb.21:                               # %arm.2.i52.i
	leaq	2(%rdi), %rsi
	leaq	-2(%rbx), %r13
	movzbl	1(%rdi), %r8d
	movzbl	(%r8,%r10), %r11d
	shll	$4, %ecx
	addq	%r9, %rcx
	movzbl	(%r11,%rcx), %ecx
	cmpq	$12, %rcx
	ja	.LBB11_27
# %bb.22:                               # %then.5.i75.i
	testq	%r13, %r13
	je	.LBB11_23
# %bb.24:                               # %arm.2.i93.i
	addq	$-3, %rbx
	movzbl	2(%rdi), %r11d
	addq	$3, %rdi
	movzbl	(%r11,%r10), %r10d
	shll	$4, %ecx
	addq	%rcx, %r9
	movzbl	(%r10,%r9), %ecx
	cmpb	$13, %cl
	movq	40(%rsp), %r13                  # 8-byte Reload
	jne	.LBB11_25
# %bb.42:                               # %join.7.i104.i
	andb	$7, %r12b
	orb	$-16, %r12b
	shll	$24, %r11d
	jmp	.LBB11_43
.LBB11_45:                              # %std_alloc_vec_Vec_grow_5ddfc3724c8523c7_exit_i_i_96
	movq	%rax, %r13
	leaq	56(%rsp), %rcx
	callq	std_alloc_vec_Vec_grow_amortized_5ddfc3724c8523c7_97
	testb	%al, %al
	je	.LBB11_48
# %bb.46:                               # %std_alloc_vec_Vec_grow_5ddfc3724c8523c7_exit_join_3_crit_edge_i_i_98
	movq	56(%rsp), %r14
	movq	64(%rsp), %r15
	movq	%r13, %rax
	movq	40(%rsp), %r13                  # 8-byte Reload
	jmp	.LBB11_47
.LBB11_16:
	xorl	%ebx, %ebx
	xorl	%eax, %eax
	movb	$1, %bpl
	jmp	.LBB11_41
.LBB11_33:                              # %join.7.i.i
	cmpl	$13, %ecx
	jne	.LBB11_34
# %bb.38:                               # %join.10.i.i
	andb	$31, %r12b
	orb	$-64, %r12b
	xorl	%r8d, %r8d
	xorl	%r11d, %r11d
	movq	%r13, %rdi
	movq	%rsi, %rbx
	movq	40(%rsp), %r13                  # 8-byte Reload
	jmp	.LBB11_43
.LBB11_34:                              # %then.8.i.i
	leal	16777216(%rdx), %eax
	cmpl	$16, %ecx
	jne	.LBB11_37
# %bb.35:
	movb	$3, %cl
.LBB11_36:                              # %arm.5.i.i
	xorl	%ebp, %ebp
	movq	%r13, %rdi
	movq	%rsi, %rbx
	movq	40(%rsp), %r13                  # 8-byte Reload
	jmp	.LBB11_41
.LBB11_27:                              # %join.7.i63.i
	cmpl	$13, %ecx
	jne	.LBB11_28
# %bb.32:                               # %join.10.i65.i
	andb	$15, %r12b
	orb	$-32, %r12b
	xorl	%r11d, %r11d
	movq	%rsi, %rdi
	movq	%r13, %rbx
	movq	40(%rsp), %r13                  # 8-byte Reload
	jmp	.LBB11_43
.LBB11_19:                              # %arm.1.i79.i
	leal	16777216(%rdx), %eax
	xorl	%ecx, %ecx
	movq	%r13, %rdi
	jmp	.LBB11_20
.LBB11_28:                              # %then.8.i67.i
	shll	$8, %r8d
	leal	(%rdx,%r8), %eax
	addl	$33554432, %eax                 # imm = 0x2000000
	cmpl	$16, %ecx
	jne	.LBB11_31
# %bb.29:
	movb	$3, %cl
	xorl	%ebp, %ebp
	movq	%rsi, %rdi
.LBB11_30:                              # %arm.5.i.i
	movq	%r13, %rbx
	movq	40(%rsp), %r13                  # 8-byte Reload
	jmp	.LBB11_41
.LBB11_25:                              # %then.5.i109.i
	shll	$16, %r11d
	shll	$8, %r8d
	orl	%edx, %r8d
	leal	(%r11,%r8), %eax
	addl	$50331648, %eax                 # imm = 0x3000000
	cmpb	$16, %cl
	jne	.LBB11_39
# %bb.26:
	movb	$3, %cl
.LBB11_40:                              # %arm.5.i.i
	xorl	%ebp, %ebp
	jmp	.LBB11_41
.LBB11_23:                              # %arm.1.i118.i
	shll	$8, %r8d
	leal	(%r8,%rdx), %eax
	addl	$33554432, %eax                 # imm = 0x2000000
	xorl	%ecx, %ecx
	movq	%rsi, %rdi
.LBB11_20:                              # %arm.5.i.i
	xorl	%ebx, %ebx
	movb	$1, %bpl
	movq	40(%rsp), %r13                  # 8-byte Reload
	jmp	.LBB11_41
.LBB11_37:                              # %arm.2.i.i40.i
                                        # kill: def $cl killed $cl killed $rcx
	movq	%rax, %rdi
	callq	utf_base_table_walks_error_of_value_44
	movl	%eax, %ecx
	movq	%rdi, %rax
	jmp	.LBB11_36
.LBB11_31:                              # %arm.2.i.i69.i
                                        # kill: def $cl killed $cl killed $rcx
	movq	%rsi, %rdi
	movq	%rax, %rsi
	callq	utf_base_table_walks_error_of_value_44
	movl	%eax, %ecx
	movq	%rsi, %rax
	xorl	%ebp, %ebp
	jmp	.LBB11_30
.LBB11_39:                              # %arm.2.i.i112.i
	movq	%rax, %rsi
	callq	utf_base_table_walks_error_of_value_44
	movl	%eax, %ecx
	movq	%rsi, %rax
	jmp	.LBB11_40
.LBB11_51:                              # %arm.1
	movq	72(%rsp), %rax
	movq	%rax, 103(%rsp)
	movups	56(%rsp), %xmm0
	movups	%xmm0, 87(%rsp)
	movb	$0, (%r13)
	movups	87(%rsp), %xmm0
	movups	%xmm0, 8(%r13)
	movq	103(%rsp), %rax
	movq	%rax, 24(%r13)
.LBB11_52:                              # %common.ret
	addq	$120, %rsp
	popq	%rbx
	popq	%rbp
	popq	%rdi
	popq	%rsi
	popq	%r12
	popq	%r13
	popq	%r14
	popq	%r15
	retq
.LBB11_48:                              # %arm.9.i
	cmpq	$0, 72(%rsp)
	je	.LBB11_50
# %bb.49:                               # %then.1.i.i.i.i
	movq	56(%rsp), %rcx
	callq	rattle_dealloc
.LBB11_50:                              # %arm.2
	movq	40(%rsp), %rbp                  # 8-byte Reload
	movb	$1, (%rbp)
	xorps	%xmm0, %xmm0
	movups	%xmm0, 8(%rbp)
	movq	$0, 24(%rbp)
	jmp	.LBB11_52
	.seh_endproc
                                        # -- End function
	.def	encode_unicode_held_bytes_without_first_94;
	.scl	3;
	.type	32;
	.endef
	.section .text$n14,"xr"
	.p2align	4                               # -- Begin function encode_unicode::held_bytes::without_first
encode_unicode_held_bytes_without_first_94: # @encode_unicode_held_bytes_without_first_94
# %bb.0:                                # %start
	movl	%ecx, %eax
	andl	$-16777216, %eax                # imm = 0xFF000000
	shrl	$8, %ecx
	movzwl	%cx, %ecx
	addl	%ecx, %eax
	addl	$-16777216, %eax                # imm = 0xFF000000
	retq
                                        # -- End function
	.def	std_alloc_vec_Vec_grow_amortized_5ddfc3724c8523c7_97;
	.scl	3;
	.type	32;
	.endef
	.section .text$n15,"xr"
	.p2align	4                               # -- Begin function std_alloc::vec::Vec::grow_amortized::<#5ddfc3724c8523c7>
std_alloc_vec_Vec_grow_amortized_5ddfc3724c8523c7_97: # @std_alloc_vec_Vec_grow_amortized_5ddfc3724c8523c7_97
.seh_proc std_alloc_vec_Vec_grow_amortized_5ddfc3724c8523c7_97
# %bb.0:                                # %start
	pushq	%r14
	.seh_pushreg %r14
	pushq	%rsi
	.seh_pushreg %rsi
	pushq	%rdi
	.seh_pushreg %rdi
	pushq	%rbx
	.seh_pushreg %rbx
	subq	$168, %rsp
	.seh_stackalloc 168
	movaps	%xmm15, 144(%rsp)               # 16-byte Spill
	.seh_savexmm %xmm15, 144
	movaps	%xmm14, 128(%rsp)               # 16-byte Spill
	.seh_savexmm %xmm14, 128
	movaps	%xmm13, 112(%rsp)               # 16-byte Spill
	.seh_savexmm %xmm13, 112
	movaps	%xmm12, 96(%rsp)                # 16-byte Spill
	.seh_savexmm %xmm12, 96
	movaps	%xmm11, 80(%rsp)                # 16-byte Spill
	.seh_savexmm %xmm11, 80
	movaps	%xmm10, 64(%rsp)                # 16-byte Spill
	.seh_savexmm %xmm10, 64
	movaps	%xmm9, 48(%rsp)                 # 16-byte Spill
	.seh_savexmm %xmm9, 48
	movaps	%xmm8, 32(%rsp)                 # 16-byte Spill
	.seh_savexmm %xmm8, 32
	movaps	%xmm7, 16(%rsp)                 # 16-byte Spill
	.seh_savexmm %xmm7, 16
	movaps	%xmm6, (%rsp)                   # 16-byte Spill
	.seh_savexmm %xmm6, 0
	.seh_endprologue
	movq	8(%rcx), %rax
	cmpq	$-1, %rax
	je	.LBB13_1
# %bb.3:                                # %join.3
	movq	16(%rcx), %rdx
	cmpq	$4, %rax
	movl	$3, %ebx
	cmovaeq	%rax, %rbx
	incq	%rbx
	movq	%rdx, %r9
	shrq	$62, %r9
	leaq	(%rdx,%rdx), %r8
	cmpq	%r8, %rbx
	cmovaq	%rbx, %r8
	testq	%r9, %r9
	cmoveq	%r8, %rbx
	movabsq	$1844674407370955161, %r9       # imm = 0x1999999999999999
	cmpq	%r9, %rbx
	ja	.LBB13_1
# %bb.4:                                # %join.3.i
	testq	%rdx, %rdx
	je	.LBB13_6
# %bb.5:                                # %then.1.i.i
	movq	%rcx, %r14
	movq	(%rcx), %rdi
	leaq	(%rax,%rax,4), %rsi
	leaq	(%rbx,%rbx,4), %rdx
	movl	$1, %ecx
	callq	rattle_realloc
	testb	$1, %al
	je	.LBB13_1
.LBB13_8:                               # %arm.5.i
	movq	%rdx, (%r14)
	movq	%rbx, 16(%r14)
	movb	$1, %al
	jmp	.LBB13_2
.LBB13_6:                               # %std_alloc_vec_resize_5ddfc3724c8523c7_exit_i_99
	movq	%rcx, %r14
	leaq	(%r8,%r8,4), %rdi
	movl	$1, %esi
	callq	rattle_alloc
	testb	$1, %al
	jne	.LBB13_8
.LBB13_1:
	xorl	%eax, %eax
.LBB13_2:                               # %common.ret
                                        # kill: def $al killed $al killed $eax
	movaps	(%rsp), %xmm6                   # 16-byte Reload
	movaps	16(%rsp), %xmm7                 # 16-byte Reload
	movaps	32(%rsp), %xmm8                 # 16-byte Reload
	movaps	48(%rsp), %xmm9                 # 16-byte Reload
	movaps	64(%rsp), %xmm10                # 16-byte Reload
	movaps	80(%rsp), %xmm11                # 16-byte Reload
	movaps	96(%rsp), %xmm12                # 16-byte Reload
	movaps	112(%rsp), %xmm13               # 16-byte Reload
	movaps	128(%rsp), %xmm14               # 16-byte Reload
	movaps	144(%rsp), %xmm15               # 16-byte Reload
	addq	$168, %rsp
	popq	%rbx
	popq	%rdi
	popq	%rsi
	popq	%r14
	retq
	.seh_endproc
                                        # -- End function
	.def	text_programs_programs_listing_write_merged_cdc8ff12022c16a2_49;
	.scl	3;
	.type	32;
	.endef
	.section .text$n16,"xr"
	.p2align	4                               # -- Begin function text_programs::programs::listing::write_merged::<#cdc8ff12022c16a2>
text_programs_programs_listing_write_merged_cdc8ff12022c16a2_49: # @text_programs_programs_listing_write_merged_cdc8ff12022c16a2_49
.seh_proc text_programs_programs_listing_write_merged_cdc8ff12022c16a2_49
# %bb.0:                                # %start
	pushq	%r15
	.seh_pushreg %r15
	pushq	%r14
	.seh_pushreg %r14
	pushq	%r12
	.seh_pushreg %r12
	pushq	%rsi
	.seh_pushreg %rsi
	pushq	%rdi
	.seh_pushreg %rdi
	pushq	%rbp
	.seh_pushreg %rbp
	pushq	%rbx
	.seh_pushreg %rbx
	movl	$65856, %eax                    # imm = 0x10140
	callq	___chkstk_ms
	subq	%rax, %rsp
	.seh_stackalloc 65856
	.seh_endprologue
	movq	%r8, %rdi
	movq	%rdx, %rbx
	movq	%rcx, %rsi
	xorps	%xmm0, %xmm0
	movaps	%xmm0, 208(%rsp)
	movaps	%xmm0, 224(%rsp)
	movaps	%xmm0, 240(%rsp)
	movaps	%xmm0, 256(%rsp)
	movaps	%xmm0, 272(%rsp)
	movaps	%xmm0, 288(%rsp)
	movaps	%xmm0, 112(%rsp)
	movaps	%xmm0, 128(%rsp)
	movaps	%xmm0, 144(%rsp)
	movaps	%xmm0, 160(%rsp)
	movaps	%xmm0, 176(%rsp)
	movaps	%xmm0, 192(%rsp)
	xorl	%r14d, %r14d
	leaq	312(%rsp), %rcx
	movl	$65544, %r8d                    # imm = 0x10008
	xorl	%edx, %edx
	callq	memset
	testq	%rdi, %rdi
	je	.LBB14_16
# %bb.1:                                # %join.6.i.preheader
	incq	%rbx
	xorl	%r14d, %r14d
	xorl	%r12d, %r12d
	jmp	.LBB14_2
	.p2align	4
.LBB14_14:                              # %switch.lookup
                                        #   in Loop: Header=BB14_2 Depth=1
	leaq	switch_table_text_programs_programs_listing_write_merged_cdc8ff12022c16a2_53(%rip), %rcx
	movzbl	%al, %eax
	shll	$3, %eax
	movq	(%rax,%rcx), %r8
	leaq	switch_table_text_programs_programs_listing_write_merged_cdc8ff12022c16a2_144_54(%rip), %rcx
	movq	(%rax,%rcx), %rdx
	movq	65848(%rsp), %r12
	leaq	(%rsp,%r12), %rcx
	addq	$312, %rcx                      # imm = 0x138
	addq	%r8, %r12
	callq	memcpy
.LBB14_15:                              # %text_programs_programs_entries_ResultUtf8CharUtf8ErrorEntry_push_to_exit_i_100
                                        #   in Loop: Header=BB14_2 Depth=1
	movb	$10, 312(%rsp,%r12)
	incq	%r12
	movq	%r12, 65848(%rsp)
	andl	$1, %r15d
	addq	%r15, %r14
	addq	$5, %rbx
	decq	%rdi
	je	.LBB14_16
.LBB14_2:                               # %join.6.i
                                        # =>This Inner Loop Header: Depth=1
	cmpq	$65457, %r12                    # imm = 0xFFB1
	jae	.LBB14_3
.LBB14_5:                               # %join.10.i
                                        #   in Loop: Header=BB14_2 Depth=1
	movzbl	-1(%rbx), %r15d
	movl	(%rbx), %eax
	testq	%r15, %r15
	jne	.LBB14_14
# %bb.6:                                # %arm.1.i.i.i
                                        #   in Loop: Header=BB14_2 Depth=1
	testb	%al, %al
	js	.LBB14_8
# %bb.7:                                # %then.2.i.i.i
                                        #   in Loop: Header=BB14_2 Depth=1
	andl	$127, %eax
	jmp	.LBB14_13
.LBB14_8:                               # %join.4.i.i.i
                                        #   in Loop: Header=BB14_2 Depth=1
	movl	%eax, %ecx
	shrl	$8, %ecx
	cmpb	$-33, %al
	ja	.LBB14_10
# %bb.9:                                # %then.5.i.i.i
                                        #   in Loop: Header=BB14_2 Depth=1
	andl	$31, %eax
	shll	$6, %eax
	andl	$63, %ecx
	orl	%eax, %ecx
	movl	%ecx, %eax
	jmp	.LBB14_13
.LBB14_10:                              # %join.7.i.i.i
                                        #   in Loop: Header=BB14_2 Depth=1
	movl	%eax, %r8d
	shrl	$16, %r8d
	movl	%eax, %edx
	shll	$12, %edx
	andl	$63, %ecx
	shll	$6, %ecx
	andl	$63, %r8d
	cmpb	$-17, %al
	ja	.LBB14_12
# %bb.11:                               # %then.8.i.i.i
                                        #   in Loop: Header=BB14_2 Depth=1
	andl	$61440, %edx                    # imm = 0xF000
	orl	%r8d, %edx
	orl	%ecx, %edx
	movl	%edx, %eax
	jmp	.LBB14_13
.LBB14_3:                               # %then.8.i
                                        #   in Loop: Header=BB14_2 Depth=1
	leaq	208(%rsp), %rcx
	leaq	312(%rsp), %rdx
	callq	text_programs_programs_lines_Lines_write_to_cdc8ff12022c16a2_55
	cmpb	$0, 208(%rsp)
	je	.LBB14_5
	jmp	.LBB14_4
.LBB14_12:                              # %join.10.i.i.i
                                        #   in Loop: Header=BB14_2 Depth=1
	shrl	$24, %eax
	andl	$28672, %edx                    # imm = 0x7000
	orl	%r8d, %edx
	orl	%ecx, %edx
	shll	$6, %edx
	andl	$63, %eax
	orl	%edx, %eax
	.p2align	4
.LBB14_13:                              # %utf_chars_utf8_char_Utf8Char_scalar_exit_i_i_101
                                        #   in Loop: Header=BB14_2 Depth=1
	movl	%eax, %ecx
	shrl	$16, %ecx
	leaq	static.9(%rip), %rdx
	movzwl	(%rdx,%rcx,2), %ecx
	movzbl	%ah, %ebp
	movzwl	(%rdx,%rbp,2), %r8d
	movzbl	%al, %eax
	movzwl	(%rdx,%rax,2), %eax
	movq	65848(%rsp), %rdx
	leaq	6(%rdx), %r12
	movw	%cx, 312(%rsp,%rdx)
	movw	%r8w, 314(%rsp,%rdx)
	movw	%ax, 316(%rsp,%rdx)
	jmp	.LBB14_15
.LBB14_16:                              # %after.1.i
	leaq	112(%rsp), %rcx
	leaq	312(%rsp), %rdx
	callq	text_programs_programs_lines_Lines_write_to_cdc8ff12022c16a2_55
	cmpb	$0, 112(%rsp)
	je	.LBB14_17
# %bb.18:                               # %arm.16.i
	movq	120(%rsp), %r14
	movaps	128(%rsp), %xmm0
	movaps	%xmm0, 32(%rsp)
	movaps	144(%rsp), %xmm0
	movaps	%xmm0, 48(%rsp)
	movaps	160(%rsp), %xmm0
	movaps	%xmm0, 64(%rsp)
	movaps	176(%rsp), %xmm0
	movaps	%xmm0, 80(%rsp)
	movaps	192(%rsp), %xmm0
	jmp	.LBB14_19
.LBB14_4:                               # %arm.12.i
	movq	216(%rsp), %r14
	movaps	224(%rsp), %xmm0
	movaps	%xmm0, 32(%rsp)
	movaps	240(%rsp), %xmm0
	movaps	%xmm0, 48(%rsp)
	movaps	256(%rsp), %xmm0
	movaps	%xmm0, 64(%rsp)
	movaps	272(%rsp), %xmm0
	movaps	%xmm0, 80(%rsp)
	movaps	288(%rsp), %xmm0
.LBB14_19:                              # %text_programs_programs_entries_write_entries_9b254750cbcc3b4e_exit_102
	movaps	%xmm0, 96(%rsp)
	movl	$1, %eax
	jmp	.LBB14_20
.LBB14_17:                              # %arm.15.i
	xorps	%xmm0, %xmm0
	movaps	%xmm0, 96(%rsp)
	movaps	%xmm0, 80(%rsp)
	movaps	%xmm0, 64(%rsp)
	movaps	%xmm0, 48(%rsp)
	movaps	%xmm0, 32(%rsp)
	xorl	%eax, %eax
.LBB14_20:                              # %text_programs_programs_entries_write_entries_9b254750cbcc3b4e_exit_102
	movq	%rax, (%rsi)
	movq	%r14, 8(%rsi)
	movaps	32(%rsp), %xmm0
	movaps	48(%rsp), %xmm1
	movaps	64(%rsp), %xmm2
	movaps	80(%rsp), %xmm3
	movups	%xmm0, 16(%rsi)
	movups	%xmm1, 32(%rsi)
	movups	%xmm2, 48(%rsi)
	movups	%xmm3, 64(%rsi)
	movaps	96(%rsp), %xmm0
	movups	%xmm0, 80(%rsi)
	addq	$65856, %rsp                    # imm = 0x10140
	popq	%rbx
	popq	%rbp
	popq	%rdi
	popq	%rsi
	popq	%r12
	popq	%r14
	popq	%r15
	retq
	.seh_endproc
                                        # -- End function
	.def	encode_unicode_decoding_iterators_back_scan_decode_few_41;
	.scl	3;
	.type	32;
	.endef
	.section .text$n17,"xr"
	.p2align	4                               # -- Begin function encode_unicode::decoding_iterators::back_scan::decode_few
encode_unicode_decoding_iterators_back_scan_decode_few_41: # @encode_unicode_decoding_iterators_back_scan_decode_few_41
.seh_proc encode_unicode_decoding_iterators_back_scan_decode_few_41
# %bb.0:                                # %start
	pushq	%rsi
	.seh_pushreg %rsi
	pushq	%rdi
	.seh_pushreg %rdi
	pushq	%rbx
	.seh_pushreg %rbx
	.seh_endprologue
	xorl	%r10d, %r10d
	leaq	.LJTI15_0(%rip), %rax
	movslq	(%rax,%r8,4), %r9
	addq	%rax, %r9
	jmpq	*%r9
.LBB15_1:
	xorl	%eax, %eax
	xorl	%r9d, %r9d
	jmp	.LBB15_5
.LBB15_2:                               # %arm.3.i
	movzbl	(%rdx), %r9d
	movzbl	1(%rdx), %eax
	jmp	.LBB15_5
.LBB15_3:                               # %default.4.i
	movzbl	(%rdx), %r10d
	movzbl	1(%rdx), %r9d
	movzbl	2(%rdx), %eax
	shll	$8, %r10d
	jmp	.LBB15_5
.LBB15_4:                               # %arm.2.i
	movzbl	(%rdx), %eax
	xorl	%r9d, %r9d
	xorl	%r10d, %r10d
.LBB15_5:                               # %encode_unicode_decoding_iterators_back_scan_padded_exit_103
	movzbl	%al, %eax
	movl	%eax, %edx
	shll	$24, %edx
	movzbl	%r9b, %r11d
	shll	$16, %r11d
	orl	%edx, %r11d
	leal	(%r11,%r10), %r9d
	cmpl	$-1073741824, %r9d              # imm = 0xC0000000
	jge	.LBB15_13
# %bb.6:                                # %join.3.i
	movb	$2, %r9b
	movb	$1, %dl
	cmpq	$1, %r8
	je	.LBB15_24
# %bb.7:                                # %join.6.i
	shrl	$16, %r11d
	cmpb	$-64, %r11b
	jge	.LBB15_19
# %bb.8:                                # %join.9.i
	xorl	%esi, %esi
	cmpq	$2, %r8
	je	.LBB15_27
# %bb.9:                                # %join.9.i
	movl	%r10d, %r8d
	andl	$61440, %r8d                    # imm = 0xF000
	cmpl	$57344, %r8d                    # imm = 0xE000
	jne	.LBB15_27
# %bb.10:                               # %after.1.i22
	shrl	$8, %r10d
	andl	$-17, %r10d
	leaq	static.7(%rip), %rsi
	movzbl	(%r10,%rsi), %edi
	leaq	static.8(%rip), %r8
	movzbl	(%rdi,%r8), %edi
	movl	%r11d, %ebx
	andl	$191, %ebx
	movzbl	(%rbx,%rsi), %ebx
	shll	$4, %edi
	addq	%r8, %rdi
	movzbl	(%rbx,%rdi), %edi
	cmpq	$16, %rdi
	je	.LBB15_24
# %bb.11:                               # %join.13.i24
	movzbl	(%rax,%rsi), %esi
	shll	$4, %edi
	addq	%rdi, %r8
	cmpb	$13, (%rsi,%r8)
	jne	.LBB15_24
# %bb.12:                               # %join.16.i
	shll	$16, %eax
	shll	$8, %r11d
	andl	$48896, %r11d                   # imm = 0xBF00
	orl	%eax, %r11d
	orl	%r10d, %r11d
	movl	$3, %esi
	xorl	%edx, %edx
	movl	%r11d, %eax
	jmp	.LBB15_22
.LBB15_13:                              # %join.3.i.i
	xorl	%r9d, %r9d
	testl	%edx, %edx
	js	.LBB15_15
# %bb.14:
	movl	$1, %esi
	xorl	%edx, %edx
	jmp	.LBB15_25
.LBB15_15:                              # %join.3.i15.i
	leaq	static.7(%rip), %rdx
	movzbl	(%rax,%rdx), %eax
	leaq	static.8(%rip), %rdx
	movzbl	(%rax,%rdx), %eax
	movb	$1, %dl
	cmpl	$13, %eax
	jb	.LBB15_24
# %bb.16:                               # %join.6.i17.i
	cmpl	$14, %eax
	je	.LBB15_23
# %bb.17:                               # %join.6.i17.i
	cmpl	$13, %eax
	je	.LBB15_28
# %bb.18:                               # %arm.2.i161.i
	movb	$1, %dl
	xorl	%eax, %eax
	xorl	%esi, %esi
	movb	$1, %r9b
	jmp	.LBB15_25
.LBB15_19:                              # %then.7.i
	leal	32(%r11), %r8d
	cmpb	$-30, %r8b
	jb	.LBB15_24
# %bb.20:                               # %after.1.i
	leaq	static.7(%rip), %r8
	movzbl	(%rax,%r8), %r8d
	leaq	static.8(%rip), %r10
	cmpb	$13, 16(%r8,%r10)
	jne	.LBB15_24
# %bb.21:                               # %join.13.i
	movl	%eax, %edx
	shll	$8, %edx
	movzbl	%r11b, %eax
	orl	%edx, %eax
	movl	$2, %esi
	xorl	%edx, %edx
.LBB15_22:                              # %encode_unicode_decoding_iterators_back_scan_scan_exit_104
	xorl	%r9d, %r9d
	jmp	.LBB15_25
.LBB15_27:
	xorl	%eax, %eax
	jmp	.LBB15_25
.LBB15_23:
	movb	$2, %r9b
.LBB15_24:
	xorl	%eax, %eax
	xorl	%esi, %esi
.LBB15_25:                              # %encode_unicode_decoding_iterators_back_scan_scan_exit_104
	movl	%eax, %eax
	movb	%dl, (%rcx)
	movb	%r9b, 1(%rcx)
	movq	%rax, 8(%rcx)
	movq	%rsi, 16(%rcx)
	popq	%rbx
	popq	%rdi
	popq	%rsi
	retq
.LBB15_28:                              # %join.4.i.i
	ud2
	.section .rdata$n18,"dr"
	.p2align	2, 0x0
.LJTI15_0:
	.long	.LBB15_1-.LJTI15_0
	.long	.LBB15_4-.LJTI15_0
	.long	.LBB15_2-.LJTI15_0
	.long	.LBB15_3-.LJTI15_0
	.section .text$n17,"xr"
	.seh_endproc
                                        # -- End function
	.def	std_alloc_vec_Vec_grow_amortized_1ada1fecd8908aad_35;
	.scl	3;
	.type	32;
	.endef
	.section .text$n19,"xr"
	.p2align	4                               # -- Begin function std_alloc::vec::Vec::grow_amortized::<#1ada1fecd8908aad>
std_alloc_vec_Vec_grow_amortized_1ada1fecd8908aad_35: # @std_alloc_vec_Vec_grow_amortized_1ada1fecd8908aad_35
.seh_proc std_alloc_vec_Vec_grow_amortized_1ada1fecd8908aad_35
# %bb.0:                                # %start
	pushq	%r14
	.seh_pushreg %r14
	pushq	%rsi
	.seh_pushreg %rsi
	pushq	%rdi
	.seh_pushreg %rdi
	pushq	%rbx
	.seh_pushreg %rbx
	subq	$168, %rsp
	.seh_stackalloc 168
	movaps	%xmm15, 144(%rsp)               # 16-byte Spill
	.seh_savexmm %xmm15, 144
	movaps	%xmm14, 128(%rsp)               # 16-byte Spill
	.seh_savexmm %xmm14, 128
	movaps	%xmm13, 112(%rsp)               # 16-byte Spill
	.seh_savexmm %xmm13, 112
	movaps	%xmm12, 96(%rsp)                # 16-byte Spill
	.seh_savexmm %xmm12, 96
	movaps	%xmm11, 80(%rsp)                # 16-byte Spill
	.seh_savexmm %xmm11, 80
	movaps	%xmm10, 64(%rsp)                # 16-byte Spill
	.seh_savexmm %xmm10, 64
	movaps	%xmm9, 48(%rsp)                 # 16-byte Spill
	.seh_savexmm %xmm9, 48
	movaps	%xmm8, 32(%rsp)                 # 16-byte Spill
	.seh_savexmm %xmm8, 32
	movaps	%xmm7, 16(%rsp)                 # 16-byte Spill
	.seh_savexmm %xmm7, 16
	movaps	%xmm6, (%rsp)                   # 16-byte Spill
	.seh_savexmm %xmm6, 0
	.seh_endprologue
	movq	8(%rcx), %rsi
	cmpq	$-1, %rsi
	je	.LBB16_1
# %bb.3:                                # %join.3
	movq	16(%rcx), %rax
	cmpq	$4, %rsi
	movl	$3, %ebx
	cmovaeq	%rsi, %rbx
	incq	%rbx
	movq	%rax, %rdx
	shrq	$62, %rdx
	leaq	(%rax,%rax), %rdi
	cmpq	%rdi, %rbx
	cmovaq	%rbx, %rdi
	testq	%rdx, %rdx
	cmoveq	%rdi, %rbx
	movq	%rbx, %rdx
	shrq	$58, %rdx
	jne	.LBB16_1
# %bb.4:                                # %join.3.i
	testq	%rax, %rax
	je	.LBB16_6
# %bb.5:                                # %then.1.i.i
	movq	%rcx, %r14
	movq	(%rcx), %rdi
	shlq	$5, %rsi
	movq	%rbx, %rdx
	shlq	$5, %rdx
	movl	$8, %ecx
	callq	rattle_realloc
	testb	$1, %al
	je	.LBB16_1
.LBB16_8:                               # %arm.5.i
	movq	%rdx, (%r14)
	movq	%rbx, 16(%r14)
	movb	$1, %al
	jmp	.LBB16_2
.LBB16_6:                               # %std_alloc_vec_resize_1ada1fecd8908aad_exit_i_105
	movq	%rcx, %r14
	shlq	$5, %rdi
	movl	$8, %esi
	callq	rattle_alloc
	testb	$1, %al
	jne	.LBB16_8
.LBB16_1:
	xorl	%eax, %eax
.LBB16_2:                               # %common.ret
                                        # kill: def $al killed $al killed $eax
	movaps	(%rsp), %xmm6                   # 16-byte Reload
	movaps	16(%rsp), %xmm7                 # 16-byte Reload
	movaps	32(%rsp), %xmm8                 # 16-byte Reload
	movaps	48(%rsp), %xmm9                 # 16-byte Reload
	movaps	64(%rsp), %xmm10                # 16-byte Reload
	movaps	80(%rsp), %xmm11                # 16-byte Reload
	movaps	96(%rsp), %xmm12                # 16-byte Reload
	movaps	112(%rsp), %xmm13               # 16-byte Reload
	movaps	128(%rsp), %xmm14               # 16-byte Reload
	movaps	144(%rsp), %xmm15               # 16-byte Reload
	addq	$168, %rsp
	popq	%rbx
	popq	%rdi
	popq	%rsi
	popq	%r14
	retq
	.seh_endproc
                                        # -- End function
	.def	text_programs_programs_stops_Stop_report_2daa2fb2be07fb73_19;
	.scl	3;
	.type	32;
	.endef
	.section .text$n20,"xr"
	.p2align	4                               # -- Begin function text_programs::programs::stops::Stop::report::<#2daa2fb2be07fb73>
text_programs_programs_stops_Stop_report_2daa2fb2be07fb73_19: # @text_programs_programs_stops_Stop_report_2daa2fb2be07fb73_19
.seh_proc text_programs_programs_stops_Stop_report_2daa2fb2be07fb73_19
# %bb.0:                                # %start
	pushq	%r15
	.seh_pushreg %r15
	pushq	%r14
	.seh_pushreg %r14
	pushq	%rsi
	.seh_pushreg %rsi
	pushq	%rdi
	.seh_pushreg %rdi
	pushq	%rbx
	.seh_pushreg %rbx
	subq	$128, %rsp
	.seh_stackalloc 128
	.seh_endprologue
	movl	%ecx, %ebx
	xorl	%edi, %edi
	.p2align	4
.LBB17_1:                               # %join.5.i.i
                                        # =>This Inner Loop Header: Depth=1
	leaq	static.1(%rip), %rdx
	addq	%rdi, %rdx
	movl	$6, %esi
	subq	%rdi, %rsi
	movl	$2, %ecx
	movq	%rsi, %r8
	callq	noddychest_write
	testq	%rax, %rax
	js	.LBB17_14
# %bb.2:                                # %arm.6.i.i
                                        #   in Loop: Header=BB17_1 Depth=1
	cmpq	%rsi, %rax
	cmovbq	%rax, %rsi
	testq	%rsi, %rsi
	je	.LBB17_15
# %bb.3:                                # %join.12.i.i
                                        #   in Loop: Header=BB17_1 Depth=1
	addq	%rsi, %rdi
	cmpq	$6, %rdi
	jb	.LBB17_1
# %bb.4:                                # %join.5.i12.i.peel
	leaq	static.19(%rip), %rdx
	movl	$2, %r8d
	movl	$2, %ecx
	callq	noddychest_write
	testq	%rax, %rax
	js	.LBB17_14
# %bb.5:                                # %arm.6.i20.i.peel
	je	.LBB17_15
# %bb.6:                                # %arm.6.i20.i.peel
	cmpq	$1, %rax
	jne	.LBB17_9
# %bb.7:                                # %join.5.i12.i
	leaq	static.19+1(%rip), %rdx
	movl	$1, %r8d
	movl	$2, %ecx
	callq	noddychest_write
	testq	%rax, %rax
	js	.LBB17_14
# %bb.8:                                # %arm.6.i20.i
	je	.LBB17_15
.LBB17_9:                               # %switch.lookup
	leaq	switch_table_text_programs_programs_stops_Stop_report_2daa2fb2be07fb73_106(%rip), %rax
	movzbl	%bl, %ecx
	movq	(%rax,%rcx,8), %rdi
	leaq	switch_table_text_programs_programs_stops_Stop_report_2daa2fb2be07fb73_145_rel_107(%rip), %rax
	movslq	(%rax,%rcx,4), %r14
	addq	%rax, %r14
	xorl	%r15d, %r15d
	.p2align	4
.LBB17_10:                              # %join.5.i41.i
                                        # =>This Inner Loop Header: Depth=1
	leaq	(%r14,%r15), %rdx
	movq	%rdi, %rsi
	subq	%r15, %rsi
	movl	$2, %ecx
	movq	%rsi, %r8
	callq	noddychest_write
	testq	%rax, %rax
	js	.LBB17_14
# %bb.11:                               # %arm.6.i49.i
                                        #   in Loop: Header=BB17_10 Depth=1
	cmpq	%rsi, %rax
	cmovbq	%rax, %rsi
	testq	%rsi, %rsi
	je	.LBB17_15
# %bb.12:                               # %join.12.i53.i
                                        #   in Loop: Header=BB17_10 Depth=1
	addq	%rsi, %r15
	cmpq	%rdi, %r15
	jb	.LBB17_10
# %bb.13:                               # %loop.2.i64.i.preheader
	leaq	static.20(%rip), %rdx
	movl	$1, %r8d
	movl	$2, %ecx
	callq	noddychest_write
	testq	%rax, %rax
	jns	.LBB17_15
.LBB17_14:                              # %arm.7.i74.i
	leaq	40(%rsp), %rcx
	callq	std_io_io_error_last_error_26
.LBB17_15:                              # %text_programs_programs_stops_Stop_write_line_2daa2fb2be07fb73_exit_108
	testb	%bl, %bl
	sete	%al
	xorb	$3, %al
	addq	$128, %rsp
	popq	%rbx
	popq	%rdi
	popq	%rsi
	popq	%r14
	popq	%r15
	retq
	.seh_endproc
                                        # -- End function
	.def	noddychest_main;
	.scl	2;
	.type	32;
	.endef
	.section .rdata$n0,"dr"
	.p2align	4, 0x0                          # -- Begin function noddychest_main
.LCPI18_0:
	.byte	116                             # 0x74
	.byte	104                             # 0x68
	.byte	105                             # 0x69
	.byte	115                             # 0x73
	.byte	32                              # 0x20
	.byte	109                             # 0x6d
	.byte	97                              # 0x61
	.byte	99                              # 0x63
	.byte	104                             # 0x68
	.byte	105                             # 0x69
	.byte	110                             # 0x6e
	.byte	101                             # 0x65
	.byte	32                              # 0x20
	.byte	108                             # 0x6c
	.byte	97                              # 0x61
	.byte	99                              # 0x63
.LCPI18_1:
	.byte	107                             # 0x6b
	.byte	115                             # 0x73
	.byte	32                              # 0x20
	.byte	97                              # 0x61
	.byte	32                              # 0x20
	.byte	102                             # 0x66
	.byte	101                             # 0x65
	.byte	97                              # 0x61
	.byte	116                             # 0x74
	.byte	117                             # 0x75
	.byte	114                             # 0x72
	.byte	101                             # 0x65
	.byte	32                              # 0x20
	.byte	111                             # 0x6f
	.byte	102                             # 0x66
	.byte	32                              # 0x20
.LCPI18_2:
	.byte	120                             # 0x78
	.byte	56                              # 0x38
	.byte	54                              # 0x36
	.byte	45                              # 0x2d
	.byte	54                              # 0x36
	.byte	52                              # 0x34
	.byte	45                              # 0x2d
	.byte	118                             # 0x76
	.byte	50                              # 0x32
	.byte	44                              # 0x2c
	.byte	32                              # 0x20
	.byte	119                             # 0x77
	.byte	104                             # 0x68
	.byte	105                             # 0x69
	.byte	99                              # 0x63
	.byte	104                             # 0x68
.LCPI18_3:
	.byte	32                              # 0x20
	.byte	116                             # 0x74
	.byte	104                             # 0x68
	.byte	105                             # 0x69
	.byte	115                             # 0x73
	.byte	32                              # 0x20
	.byte	112                             # 0x70
	.byte	114                             # 0x72
	.byte	111                             # 0x6f
	.byte	103                             # 0x67
	.byte	114                             # 0x72
	.byte	97                              # 0x61
	.byte	109                             # 0x6d
	.byte	32                              # 0x20
	.byte	119                             # 0x77
	.byte	97                              # 0x61
.LCPI18_4:
	.byte	115                             # 0x73
	.byte	32                              # 0x20
	.byte	98                              # 0x62
	.byte	117                             # 0x75
	.byte	105                             # 0x69
	.byte	108                             # 0x6c
	.byte	116                             # 0x74
	.byte	32                              # 0x20
	.byte	102                             # 0x66
	.byte	111                             # 0x6f
	.byte	114                             # 0x72
	.byte	58                              # 0x3a
	.byte	32                              # 0x20
	.byte	114                             # 0x72
	.byte	117                             # 0x75
	.byte	110                             # 0x6e
.LCPI18_5:
	.byte	32                              # 0x20
	.byte	105                             # 0x69
	.byte	116                             # 0x74
	.byte	32                              # 0x20
	.byte	111                             # 0x6f
	.byte	110                             # 0x6e
	.byte	32                              # 0x20
	.byte	97                              # 0x61
	.byte	110                             # 0x6e
	.byte	111                             # 0x6f
	.byte	116                             # 0x74
	.byte	104                             # 0x68
	.byte	101                             # 0x65
	.byte	114                             # 0x72
	.byte	32                              # 0x20
	.byte	109                             # 0x6d
.LCPI18_6:
	.byte	97                              # 0x61
	.byte	99                              # 0x63
	.byte	104                             # 0x68
	.byte	105                             # 0x69
	.byte	110                             # 0x6e
	.byte	101                             # 0x65
	.byte	44                              # 0x2c
	.byte	32                              # 0x20
	.byte	111                             # 0x6f
	.byte	114                             # 0x72
	.byte	32                              # 0x20
	.byte	98                              # 0x62
	.byte	117                             # 0x75
	.byte	105                             # 0x69
	.byte	108                             # 0x6c
	.byte	100                             # 0x64
.LCPI18_7:
	.byte	32                              # 0x20
	.byte	105                             # 0x69
	.byte	116                             # 0x74
	.byte	32                              # 0x20
	.byte	119                             # 0x77
	.byte	105                             # 0x69
	.byte	116                             # 0x74
	.byte	104                             # 0x68
	.byte	32                              # 0x20
	.byte	45                              # 0x2d
	.byte	45                              # 0x2d
	.byte	99                              # 0x63
	.byte	112                             # 0x70
	.byte	117                             # 0x75
	.byte	32                              # 0x20
	.byte	120                             # 0x78
	.section .text$n21,"xr"
	.globl	noddychest_main
	.p2align	4
noddychest_main:                        # @noddychest_main
.seh_proc noddychest_main
# %bb.0:                                # %start
	pushq	%rbp
	.seh_pushreg %rbp
	pushq	%rsi
	.seh_pushreg %rsi
	pushq	%rax
	.seh_stackalloc 8
	movq	%rsp, %rbp
	.seh_setframe %rbp, 0
	.seh_endprologue
	subq	$32, %rsp
	movl	$1, %edx
	movl	$13, %ecx
	callq	noddychest_signal
	xorl	%ecx, %ecx
	callq	noddychest_features
	addq	$32, %rsp
	movl	24(%rax), %esi
	subq	$32, %rsp
	movl	$2, %ecx
	callq	noddychest_features
	addq	$32, %rsp
	notl	%esi
	testl	$9970177, %esi                  # imm = 0x982201
	jne	.LBB18_2
# %bb.1:                                # %start
	movl	24(%rax), %eax
	andl	$1, %eax
	je	.LBB18_2
# %bb.3:                                # %run
	leaq	8(%rbp), %rsp
	popq	%rsi
	popq	%rbp
	jmp	pieces_main_start_0            # TAILCALL
.LBB18_2:                               # %refuse
	movl	$144, %eax
	callq	___chkstk_ms
	subq	%rax, %rsp
	movq	%rsp, %rdx
	movaps	.LCPI18_0(%rip), %xmm0          # xmm0 = [116,104,105,115,32,109,97,99,104,105,110,101,32,108,97,99]
	movaps	%xmm0, (%rdx)
	movaps	.LCPI18_1(%rip), %xmm0          # xmm0 = [107,115,32,97,32,102,101,97,116,117,114,101,32,111,102,32]
	movaps	%xmm0, 16(%rdx)
	movaps	.LCPI18_2(%rip), %xmm0          # xmm0 = [120,56,54,45,54,52,45,118,50,44,32,119,104,105,99,104]
	movaps	%xmm0, 32(%rdx)
	movaps	.LCPI18_3(%rip), %xmm0          # xmm0 = [32,116,104,105,115,32,112,114,111,103,114,97,109,32,119,97]
	movaps	%xmm0, 48(%rdx)
	movaps	.LCPI18_4(%rip), %xmm0          # xmm0 = [115,32,98,117,105,108,116,32,102,111,114,58,32,114,117,110]
	movaps	%xmm0, 64(%rdx)
	movaps	.LCPI18_5(%rip), %xmm0          # xmm0 = [32,105,116,32,111,110,32,97,110,111,116,104,101,114,32,109]
	movaps	%xmm0, 80(%rdx)
	movaps	.LCPI18_6(%rip), %xmm0          # xmm0 = [97,99,104,105,110,101,44,32,111,114,32,98,117,105,108,100]
	movaps	%xmm0, 96(%rdx)
	movaps	.LCPI18_7(%rip), %xmm0          # xmm0 = [32,105,116,32,119,105,116,104,32,45,45,99,112,117,32,120]
	movaps	%xmm0, 112(%rdx)
	movl	$908932664, 128(%rdx)           # imm = 0x362D3638
	movw	$2612, 132(%rdx)                # imm = 0xA34
	subq	$32, %rsp
	movl	$134, %r8d
	movl	$2, %ecx
	callq	noddychest_write
	addq	$32, %rsp
	movl	$127, %eax
	leaq	8(%rbp), %rsp
	popq	%rsi
	popq	%rbp
	retq
	.seh_endproc
                                        # -- End function
	.section .rdata$n22,"dr"
static.1:                               # @static.1
	.ascii	"pieces"

	.section .rdata$n23,"dr"
static.7:                               # @static.7
	.ascii	"\000\000\000\000\000\000\000\000\000\000\000\000\000\000\000\000\000\000\000\000\000\000\000\000\000\000\000\000\000\000\000\000\000\000\000\000\000\000\000\000\000\000\000\000\000\000\000\000\000\000\000\000\000\000\000\000\000\000\000\000\000\000\000\000\000\000\000\000\000\000\000\000\000\000\000\000\000\000\000\000\000\000\000\000\000\000\000\000\000\000\000\000\000\000\000\000\000\000\000\000\000\000\000\000\000\000\000\000\000\000\000\000\000\000\000\000\000\000\000\000\000\000\000\000\000\000\000\000\001\001\001\001\001\001\001\001\001\001\001\001\001\001\001\001\002\002\002\002\002\002\002\002\002\002\002\002\002\002\002\002\003\003\003\003\003\003\003\003\003\003\003\003\003\003\003\003\003\003\003\003\003\003\003\003\003\003\003\003\003\003\003\003\004\004\005\005\005\005\005\005\005\005\005\005\005\005\005\005\005\005\005\005\005\005\005\005\005\005\005\005\005\005\005\005\006\007\007\007\007\007\007\007\007\007\007\007\007\b\007\007\t\n\n\n\013\004\004\004\004\004\004\004\004\004\004\004"

	.section .rdata$n24,"dr"
static.8:                               # @static.8
	.ascii	"\r\016\016\016\017\001\004\002\005\006\003\007\020\020\020\020\020\r\r\r\020\020\020\020\020\020\020\020\020\020\020\020\020\001\001\001\020\020\020\020\020\020\020\020\020\020\020\020\020\002\002\002\020\020\020\020\020\020\020\020\020\020\020\020\020\t\t\001\020\020\020\020\020\020\020\020\020\020\020\020\020\001\001\n\020\020\020\020\020\020\020\020\020\020\020\020\020\b\002\002\020\020\020\020\020\020\020\020\020\020\020\020\020\002\013\013\020\020\020\020\020\020\020\020\020\020\020\020\020\t\t\t\020\020\020\020\020\020\020\020\020\020\020\020\020\021\021\021\020\020\020\020\020\020\020\020\020\020\020\020\020\022\022\022\020\020\020\020\020\020\020\020\020\020\020\020\020\f\f\f\020\020\020\020\020\020\020\020\020\020\020\020\020\023\023\023\020\020\020\020\020\020\020\020\020\020\020\020"

	.section .rdata$n25,"dr"
static.9:                               # @static.9
	.ascii	"000102030405060708090a0b0c0d0e0f101112131415161718191a1b1c1d1e1f202122232425262728292a2b2c2d2e2f303132333435363738393a3b3c3d3e3f404142434445464748494a4b4c4d4e4f505152535455565758595a5b5c5d5e5f606162636465666768696a6b6c6d6e6f707172737475767778797a7b7c7d7e7f808182838485868788898a8b8c8d8e8f909192939495969798999a9b9c9d9e9fa0a1a2a3a4a5a6a7a8a9aaabacadaeafb0b1b2b3b4b5b6b7b8b9babbbcbdbebfc0c1c2c3c4c5c6c7c8c9cacbcccdcecfd0d1d2d3d4d5d6d7d8d9dadbdcdddedfe0e1e2e3e4e5e6e7e8e9eaebecedeeeff0f1f2f3f4f5f6f7f8f9fafbfcfdfeff"

	.section .rdata$n26,"dr"
static.10:                              # @static.10
	.ascii	"TooFewBytes"

	.section .rdata$n27,"dr"
static.11:                              # @static.11
	.ascii	"NonUtf8Byte"

	.section .rdata$n28,"dr"
static.12:                              # @static.12
	.ascii	"UnexpectedContinuationByte"

	.section .rdata$n29,"dr"
static.13:                              # @static.13
	.ascii	"InterruptedSequence"

	.section .rdata$n30,"dr"
static.14:                              # @static.14
	.ascii	"OverlongEncoding"

	.section .rdata$n31,"dr"
static.15:                              # @static.15
	.ascii	"Utf16ReservedCodepoint"

	.section .rdata$n32,"dr"
static.16:                              # @static.16
	.ascii	"TooHighCodepoint"

	.section .rdata$n33,"dr"
static.18:                              # @static.18
	.ascii	"none\n"

	.section .rdata$n34,"dr"
static.19:                              # @static.19
	.ascii	": "

	.section .rdata$n35,"dr"
static.20:                              # @static.20
	.byte	10

	.section .rdata$n36,"dr"
static.21:                              # @static.21
	.ascii	"wrong arguments"

	.section .rdata$n37,"dr"
static.22:                              # @static.22
	.ascii	"cannot read"

	.section .rdata$n38,"dr"
static.23:                              # @static.23
	.ascii	"cannot write"

	.section .rdata$n39,"dr"
static.24:                              # @static.24
	.ascii	"no memory"

	.section .rdata$n40,"dr"
	.p2align	3, 0x0                          # @switch_table_utf_chars_codes_utf8_missing_after_91
switch_table_utf_chars_codes_utf8_missing_after_91:
	.quad	0                               # 0x0
	.quad	1                               # 0x1
	.quad	2                               # 0x2
	.quad	3                               # 0x3
	.quad	2                               # 0x2
	.quad	2                               # 0x2
	.quad	3                               # 0x3
	.quad	3                               # 0x3
	.quad	2                               # 0x2
	.quad	1                               # 0x1
	.quad	1                               # 0x1
	.quad	2                               # 0x2
	.quad	1                               # 0x1
	.quad	0                               # 0x0
	.quad	0                               # 0x0
	.quad	0                               # 0x0
	.quad	0                               # 0x0
	.quad	0                               # 0x0
	.quad	0                               # 0x0
	.quad	0                               # 0x0

	.section .rdata$n41,"dr"
switch_table_utf_base_table_walks_error_of_value_92: # @switch_table_utf_base_table_walks_error_of_value_92
	.ascii	"\006\006\006\006\006\006\006\006\006\006\006\006\006\006\006\006\006\004\005\006"

	.section .rdata$n42,"dr"
	.p2align	3, 0x0                          # @switch_table_text_programs_programs_listing_write_merged_cdc8ff12022c16a2_53
switch_table_text_programs_programs_listing_write_merged_cdc8ff12022c16a2_53:
	.quad	11                              # 0xb
	.quad	11                              # 0xb
	.quad	26                              # 0x1a
	.quad	19                              # 0x13
	.quad	16                              # 0x10
	.quad	22                              # 0x16
	.quad	16                              # 0x10

	.section .rdata$n43,"dr"
	.p2align	3, 0x0                          # @switch_table_text_programs_programs_listing_write_merged_cdc8ff12022c16a2_144_54
switch_table_text_programs_programs_listing_write_merged_cdc8ff12022c16a2_144_54:
	.quad	static.10
	.quad	static.11
	.quad	static.12
	.quad	static.13
	.quad	static.14
	.quad	static.15
	.quad	static.16

	.section .rdata$n44,"dr"
	.p2align	3, 0x0                          # @switch_table_text_programs_programs_stops_Stop_report_2daa2fb2be07fb73_106
switch_table_text_programs_programs_stops_Stop_report_2daa2fb2be07fb73_106:
	.quad	15                              # 0xf
	.quad	11                              # 0xb
	.quad	12                              # 0xc
	.quad	9                               # 0x9

	.section .rdata$n45,"dr"
	.p2align	2, 0x0                          # @switch_table_text_programs_programs_stops_Stop_report_2daa2fb2be07fb73_145_rel_107
switch_table_text_programs_programs_stops_Stop_report_2daa2fb2be07fb73_145_rel_107:
	.long	static.21-switch_table_text_programs_programs_stops_Stop_report_2daa2fb2be07fb73_145_rel_107
	.long	static.22-switch_table_text_programs_programs_stops_Stop_report_2daa2fb2be07fb73_145_rel_107
	.long	static.23-switch_table_text_programs_programs_stops_Stop_report_2daa2fb2be07fb73_145_rel_107
	.long	static.24-switch_table_text_programs_programs_stops_Stop_report_2daa2fb2be07fb73_145_rel_107
