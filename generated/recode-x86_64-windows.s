	.def	@feat.00;
	.scl	3;
	.type	0;
	.endef
	.globl	@feat.00
@feat.00 = 0
	.file	"rattle"
	.def	recode_main_start_0;
	.scl	3;
	.type	32;
	.endef
	.section .rdata$n0,"dr"
	.p2align	4, 0x0                          # -- Begin function recode::main+start
.LCPI0_0:
	.byte	0                               # 0x0
	.byte	1                               # 0x1
	.byte	2                               # 0x2
	.byte	3                               # 0x3
	.byte	4                               # 0x4
	.byte	5                               # 0x5
	.byte	6                               # 0x6
	.byte	7                               # 0x7
	.byte	8                               # 0x8
	.byte	9                               # 0x9
	.byte	10                              # 0xa
	.byte	11                              # 0xb
	.byte	12                              # 0xc
	.byte	13                              # 0xd
	.byte	14                              # 0xe
	.byte	15                              # 0xf
.LCPI0_1:
	.byte	16                              # 0x10
	.byte	17                              # 0x11
	.byte	18                              # 0x12
	.byte	19                              # 0x13
	.byte	20                              # 0x14
	.byte	21                              # 0x15
	.byte	22                              # 0x16
	.byte	23                              # 0x17
	.byte	24                              # 0x18
	.byte	25                              # 0x19
	.byte	26                              # 0x1a
	.byte	27                              # 0x1b
	.byte	28                              # 0x1c
	.byte	29                              # 0x1d
	.byte	30                              # 0x1e
	.byte	31                              # 0x1f
	.section .text$n1,"xr"
	.p2align	4
recode_main_start_0:                   # @recode_main_start_0
.seh_proc recode_main_start_0
# %bb.0:                                # %start
	pushq	%r15
	.seh_pushreg %r15
	pushq	%r14
	.seh_pushreg %r14
	pushq	%r13
	.seh_pushreg %r13
	pushq	%r12
	.seh_pushreg %r12
	pushq	%rsi
	.seh_pushreg %rsi
	pushq	%rdi
	.seh_pushreg %rdi
	pushq	%rbp
	.seh_pushreg %rbp
	pushq	%rbx
	.seh_pushreg %rbx
	movl	$65816, %eax                    # imm = 0x10118
	callq	___chkstk_ms
	subq	%rax, %rsp
	.seh_stackalloc 65816
	movaps	%xmm6, 65792(%rsp)              # 16-byte Spill
	.seh_savexmm %xmm6, 65792
	.seh_endprologue
	leaq	40(%rsp), %rax
	movq	%rax, 48(%rsp)                  # 8-byte Spill
	movq	%rax, 128(%rsp)
	pxor	%xmm0, %xmm0
	movdqu	%xmm0, 136(%rsp)
	leaq	264(%rsp), %rbp
	xorl	%r13d, %r13d
	xorl	%edi, %edi
.LBB0_1:                                # %join.5.i.i.i.i
                                        # =>This Loop Header: Depth=1
                                        #     Child Loop BB0_3 Depth 2
                                        #     Child Loop BB0_19 Depth 2
                                        #       Child Loop BB0_53 Depth 3
                                        #       Child Loop BB0_58 Depth 3
	movl	$256, %r14d                     # imm = 0x100
	movl	$64, %esi
	jmp	.LBB0_3
	.p2align	4
.LBB0_2:                                # %std_alloc_vec_Vec_drop_5cd7833235c0cf51_exit45_i_i_i_i_i_i_i_1
                                        #   in Loop: Header=BB0_3 Depth=2
	movq	%r14, %rax
	addq	%r14, %rax
	movq	$-1, %r14
	cmovaeq	%rax, %r14
	decl	%esi
	je	.LBB0_120
.LBB0_3:                                # %join.5.i.i.i.i.i.i
                                        #   Parent Loop BB0_1 Depth=1
                                        # =>  This Inner Loop Header: Depth=2
	leaq	40(%rsp), %rbx
	movq	%rbx, 256(%rsp)
	pxor	%xmm0, %xmm0
	movdqu	%xmm0, (%rbp)
	testq	%r14, %r14
	jne	.LBB0_10
# %bb.4:                                #   in Loop: Header=BB0_3 Depth=2
	xorl	%r15d, %r15d
.LBB0_5:                                # %join.3.i.i.i.i.i.i.i
                                        #   in Loop: Header=BB0_3 Depth=2
	movq	%rdi, %rcx
	movq	%rbx, %rdx
	movq	%r15, %r8
	callq	rattle_arg
	movq	%rax, %r12
	movl	$22, %eax
	cmpq	$-1, %r12
	je	.LBB0_7
# %bb.6:                                # %join.3.i.i.i.i.i.i.i
                                        #   in Loop: Header=BB0_3 Depth=2
	movl	$36, %eax
.LBB0_7:                                # %join.3.i.i.i.i.i.i.i
                                        #   in Loop: Header=BB0_3 Depth=2
	xorl	%ecx, %ecx
	testq	%r12, %r12
	cmovsl	%eax, %ecx
	callq	rattle_set_errno
	callq	rattle_errno
	cmpl	$36, %eax
	jne	.LBB0_13
# %bb.8:                                # %arm.8.i.i.i.i.i.i.i
                                        #   in Loop: Header=BB0_3 Depth=2
	cmpq	$0, 272(%rsp)
	je	.LBB0_2
# %bb.9:                                # %then.1.i.i.i43.i.i.i.i.i.i.i
                                        #   in Loop: Header=BB0_3 Depth=2
	movq	%rbx, %rcx
	callq	rattle_dealloc
	jmp	.LBB0_2
.LBB0_10:                               # %std_alloc_vec_Vec_grow_5fdc5e19576447a7_exit_i_i_i_i_i_i_i_i_i_2
                                        #   in Loop: Header=BB0_3 Depth=2
	leaq	256(%rsp), %rcx
	movq	%r14, %rdx
	callq	std_alloc_vec_Vec_grow_amortized_5fdc5e19576447a7_3
	testb	%al, %al
	je	.LBB0_118
# %bb.11:                               # %join.3.i2.i.i.i.i.i.i.i.i
                                        #   in Loop: Header=BB0_3 Depth=2
	movq	256(%rsp), %rbx
	movq	264(%rsp), %rcx
	leaq	(%rcx,%r14), %r15
	cmpq	%r15, %rcx
	jae	.LBB0_5
# %bb.12:                               # %join.5.preheader.i.i.i.i.i.i.i.i.i.i
                                        #   in Loop: Header=BB0_3 Depth=2
	addq	%rbx, %rcx
	xorl	%edx, %edx
	movq	%r14, %r8
	callq	memset
	jmp	.LBB0_5
	.p2align	4
.LBB0_13:                               # %join.3.i.i.i.i.i.i.i
                                        #   in Loop: Header=BB0_1 Depth=1
	testl	%eax, %eax
	jne	.LBB0_73
# %bb.14:                               # %arm.4.i.i.i.i.i.i.i
                                        #   in Loop: Header=BB0_1 Depth=1
	cmpq	%r15, %r12
	cmovbq	%r12, %r15
	xorl	%r14d, %r14d
	testq	%r12, %r12
	cmovgq	%r15, %r14
	movq	272(%rsp), %r15
	testq	%r14, %r14
	je	.LBB0_69
# %bb.15:                               # %join.5.lr.ph.i.i.i.i.i.i.i.i
                                        #   in Loop: Header=BB0_1 Depth=1
	movabsq	$-9187201950435737472, %r12     # imm = 0x8080808080808080
	leaq	-8(%r14), %rsi
	xorl	%ecx, %ecx
	jmp	.LBB0_19
.LBB0_40:                               #   in Loop: Header=BB0_19 Depth=2
	movl	$1, %edx
.LBB0_17:                               # %join.11.i.i.i.i.i.i.i.i
                                        #   in Loop: Header=BB0_19 Depth=2
	addq	%rcx, %rdx
.LBB0_18:                               # %loop.2.backedge.i.i.i.i.i.i.i.i
                                        #   in Loop: Header=BB0_19 Depth=2
	movq	%rdx, %rcx
	cmpq	%r14, %rdx
	jae	.LBB0_69
.LBB0_19:                               # %join.5.i.i.i.i.i.i.i.i
                                        #   Parent Loop BB0_1 Depth=1
                                        # =>  This Loop Header: Depth=2
                                        #       Child Loop BB0_53 Depth 3
                                        #       Child Loop BB0_58 Depth 3
	movzbl	(%rbx,%rcx), %eax
	movq	%r14, %r8
	subq	%rcx, %r8
	cmpq	$2, %r8
	jb	.LBB0_16
# %bb.20:                               # %join.5.i.i.i.i.i.i.i.i
                                        #   in Loop: Header=BB0_19 Depth=2
	testb	%al, %al
	js	.LBB0_16
# %bb.21:                               # %core_str_utf8_begins_ascii_run_exit_i_i_i_i_i_i_i_i_4
                                        #   in Loop: Header=BB0_19 Depth=2
	cmpb	$0, 1(%rbx,%rcx)
	js	.LBB0_40
# %bb.22:                               # %then.6.i.i.i.i.i.i.i.i
                                        #   in Loop: Header=BB0_19 Depth=2
	movq	%rbx, 256(%rsp)
	movq	%r14, 264(%rsp)
	cmpq	$7, %r8
	ja	.LBB0_41
# %bb.23:                               # %join.5.i.i.i.i.i.i.i.i.i.i
                                        #   in Loop: Header=BB0_19 Depth=2
	cmpb	$0, (%rbx,%rcx)
	js	.LBB0_51
# %bb.24:                               # %join.8.i.i.i.i.i.i.i.i.i.i
                                        #   in Loop: Header=BB0_19 Depth=2
	leaq	1(%rcx), %rdx
	cmpq	%r14, %rdx
	je	.LBB0_69
# %bb.25:                               # %join.5.i.i.i.i.i.i.i.i.i.i.1
                                        #   in Loop: Header=BB0_19 Depth=2
	cmpb	$0, (%rbx,%rdx)
	js	.LBB0_18
# %bb.26:                               # %join.8.i.i.i.i.i.i.i.i.i.i.1
                                        #   in Loop: Header=BB0_19 Depth=2
	leaq	2(%rcx), %rdx
	cmpq	%r14, %rdx
	je	.LBB0_69
# %bb.27:                               # %join.5.i.i.i.i.i.i.i.i.i.i.2
                                        #   in Loop: Header=BB0_19 Depth=2
	cmpb	$0, (%rbx,%rdx)
	js	.LBB0_18
# %bb.28:                               # %join.8.i.i.i.i.i.i.i.i.i.i.2
                                        #   in Loop: Header=BB0_19 Depth=2
	leaq	3(%rcx), %rdx
	cmpq	%r14, %rdx
	je	.LBB0_69
# %bb.29:                               # %join.5.i.i.i.i.i.i.i.i.i.i.3
                                        #   in Loop: Header=BB0_19 Depth=2
	cmpb	$0, (%rbx,%rdx)
	js	.LBB0_18
# %bb.30:                               # %join.8.i.i.i.i.i.i.i.i.i.i.3
                                        #   in Loop: Header=BB0_19 Depth=2
	leaq	4(%rcx), %rdx
	cmpq	%r14, %rdx
	je	.LBB0_69
# %bb.31:                               # %join.5.i.i.i.i.i.i.i.i.i.i.4
                                        #   in Loop: Header=BB0_19 Depth=2
	cmpb	$0, (%rbx,%rdx)
	js	.LBB0_18
# %bb.32:                               # %join.8.i.i.i.i.i.i.i.i.i.i.4
                                        #   in Loop: Header=BB0_19 Depth=2
	leaq	5(%rcx), %rdx
	cmpq	%r14, %rdx
	je	.LBB0_69
# %bb.33:                               # %join.5.i.i.i.i.i.i.i.i.i.i.5
                                        #   in Loop: Header=BB0_19 Depth=2
	cmpb	$0, (%rbx,%rdx)
	js	.LBB0_18
# %bb.34:                               # %join.8.i.i.i.i.i.i.i.i.i.i.5
                                        #   in Loop: Header=BB0_19 Depth=2
	addq	$6, %rcx
	cmpq	%r14, %rcx
	je	.LBB0_69
# %bb.35:                               # %join.5.i.i.i.i.i.i.i.i.i.i.6
                                        #   in Loop: Header=BB0_19 Depth=2
	cmpb	$0, (%rbx,%rcx)
	movq	%rcx, %rdx
	js	.LBB0_18
	jmp	.LBB0_69
	.p2align	4
.LBB0_16:                               # %join.8.i.i.i.i.i.i.i.i
                                        #   in Loop: Header=BB0_19 Depth=2
	movl	$1, %edx
	testb	%al, %al
	jns	.LBB0_17
# %bb.36:                               # %else.2.i.i.i.i.i.i.i.i.i
                                        #   in Loop: Header=BB0_19 Depth=2
	cmpb	$-62, %al
	jb	.LBB0_105
# %bb.37:                               # %else.5.i.i.i.i.i.i.i.i.i
                                        #   in Loop: Header=BB0_19 Depth=2
	movzbl	%al, %eax
	cmpb	$-33, %al
	ja	.LBB0_44
# %bb.38:                               # %then.7.i.i.i.i.i.i.i.i.i
                                        #   in Loop: Header=BB0_19 Depth=2
	cmpq	$2, %r8
	jb	.LBB0_105
# %bb.39:                               # %join.3.i.i.i.i.i.i.i.i.i.i
                                        #   in Loop: Header=BB0_19 Depth=2
	movl	$2, %edx
	cmpb	$-65, 1(%rbx,%rcx)
	jle	.LBB0_17
	jmp	.LBB0_105
.LBB0_41:                               # %join.3.i.i.i.i.i.i.i.i.i
                                        #   in Loop: Header=BB0_19 Depth=2
	movq	(%rbx,%rcx), %rax
	andq	%r12, %rax
	je	.LBB0_52
# %bb.42:                               # %core_slice_words_first_in_word_52f9edcae2f82f51_exit_i_i_i_i_i_i_i_i_i_5
                                        #   in Loop: Header=BB0_19 Depth=2
	rep		bsfq	%rax, %rax
	shrl	$3, %eax
	addq	%rcx, %rax
	addq	$8, %rcx
	movq	%rax, %rdx
	cmpq	%rcx, %rax
	jb	.LBB0_18
# %bb.43:                               # %join.6.i.i.i.i.i.i.i.i.i
                                        #   in Loop: Header=BB0_19 Depth=2
	movq	%r14, %rcx
	subq	%rax, %rcx
	cmpq	$32, %rcx
	jae	.LBB0_53
	jmp	.LBB0_55
.LBB0_44:                               # %else.8.i.i.i.i.i.i.i.i.i
                                        #   in Loop: Header=BB0_19 Depth=2
	cmpb	$-17, %al
	ja	.LBB0_63
# %bb.45:                               # %then.10.i.i.i.i.i.i.i.i.i
                                        #   in Loop: Header=BB0_19 Depth=2
	cmpq	$3, %r8
	jb	.LBB0_105
# %bb.46:                               # %join.3.i6.i.i.i.i.i.i.i.i.i
                                        #   in Loop: Header=BB0_19 Depth=2
	movzbl	1(%rbx,%rcx), %edx
	cmpb	$-65, %dl
	jg	.LBB0_105
# %bb.47:                               # %join.3.i6.i.i.i.i.i.i.i.i.i
                                        #   in Loop: Header=BB0_19 Depth=2
	cmpb	$-65, 2(%rbx,%rcx)
	jg	.LBB0_105
# %bb.48:                               # %join.15.i.i.i.i.i.i.i.i.i.i
                                        #   in Loop: Header=BB0_19 Depth=2
	shll	$6, %eax
	leal	(%rax,%rdx), %r8d
	addl	$-14464, %r8d                   # imm = 0xC780
	cmpl	$32, %r8d
	jb	.LBB0_105
# %bb.49:                               # %else.17.i.i.i.i.i.i.i.i.i.i
                                        #   in Loop: Header=BB0_19 Depth=2
	xorl	%eax, %eax
	cmpl	$896, %r8d                      # imm = 0x380
	setae	%r9b
	movl	$3, %edx
	cmpl	$864, %r8d                      # imm = 0x360
	jb	.LBB0_17
# %bb.50:                               #   in Loop: Header=BB0_19 Depth=2
	movb	%r9b, %al
	leaq	(%rax,%rax,2), %rdx
	testq	%rdx, %rdx
	jne	.LBB0_17
	jmp	.LBB0_105
.LBB0_51:                               #   in Loop: Header=BB0_19 Depth=2
	movq	%rcx, %rdx
	jmp	.LBB0_18
.LBB0_52:                               # %core_slice_words_first_in_word_52f9edcae2f82f51_exit_thread_i_i_i_i_i_i_i_i_i_6
                                        #   in Loop: Header=BB0_19 Depth=2
	addq	$8, %rcx
	movq	%rcx, %rax
	movq	%r14, %rcx
	subq	%rax, %rcx
	cmpq	$32, %rcx
	jb	.LBB0_55
	.p2align	4
.LBB0_53:                               # %then.3.i.i.i.i.i.i.i.i.i.i
                                        #   Parent Loop BB0_1 Depth=1
                                        #     Parent Loop BB0_19 Depth=2
                                        # =>    This Inner Loop Header: Depth=3
	movdqu	(%rbx,%rax), %xmm0
	movdqu	16(%rbx,%rax), %xmm1
	por	%xmm0, %xmm1
	pshufd	$238, %xmm1, %xmm0              # xmm0 = xmm1[2,3,2,3]
	por	%xmm1, %xmm0
	movq	%xmm0, %rcx
	testq	%r12, %rcx
	jne	.LBB0_55
# %bb.54:                               # %join.5.i22.i.i.i.i.i.i.i.i.i
                                        #   in Loop: Header=BB0_53 Depth=3
	addq	$32, %rax
	leaq	256(%rsp), %rcx
	movq	%rax, %rdx
	movq	%r14, %r8
	callq	core_slice_words_skip_far_52f9edcae2f82f51_7
	movq	%r14, %rcx
	subq	%rax, %rcx
	cmpq	$31, %rcx
	ja	.LBB0_53
.LBB0_55:                               # %loop.8.i.i.i.i.i.i.i.i.i.preheader
                                        #   in Loop: Header=BB0_19 Depth=2
	movq	%r14, %rcx
	subq	%rax, %rcx
	jmp	.LBB0_58
	.p2align	4
.LBB0_56:                               # %join.3.i28.i.i.i.i.i.i.i.i.i
                                        #   in Loop: Header=BB0_58 Depth=3
	rep		bsfq	%rdx, %rdx
	shrl	$3, %edx
	addq	%rax, %rdx
	addq	$8, %rax
	addq	$-8, %rcx
	cmpq	%rax, %rdx
	jb	.LBB0_18
.LBB0_58:                               # %loop.8.i.i.i.i.i.i.i.i.i
                                        #   Parent Loop BB0_1 Depth=1
                                        #     Parent Loop BB0_19 Depth=2
                                        # =>    This Inner Loop Header: Depth=3
	cmpq	$9, %rcx
	jb	.LBB0_61
# %bb.59:                               # %join.11.i.i.i.i.i.i.i.i.i
                                        #   in Loop: Header=BB0_58 Depth=3
	movq	(%rbx,%rax), %rdx
	andq	%r12, %rdx
	jne	.LBB0_56
# %bb.60:                               # %then.1.i33.i.i.i.i.i.i.i.i.i
                                        #   in Loop: Header=BB0_58 Depth=3
	leaq	8(%rax), %rdx
	addq	$8, %rax
	addq	$-8, %rcx
	cmpq	%rax, %rdx
	jae	.LBB0_58
	jmp	.LBB0_18
.LBB0_61:                               # %after.7.i.i.i.i.i.i.i.i.i
                                        #   in Loop: Header=BB0_19 Depth=2
	movq	(%rbx,%rsi), %rax
	andq	%r12, %rax
	je	.LBB0_69
# %bb.62:                               # %join.3.i40.i.i.i.i.i.i.i.i.i
                                        #   in Loop: Header=BB0_19 Depth=2
	rep		bsfq	%rax, %rdx
	shrl	$3, %edx
	addq	%rsi, %rdx
	jmp	.LBB0_18
.LBB0_63:                               # %else.11.i.i.i.i.i.i.i.i.i
                                        #   in Loop: Header=BB0_19 Depth=2
	cmpq	$4, %r8
	jb	.LBB0_105
# %bb.64:                               # %join.3.i11.i.i.i.i.i.i.i.i.i
                                        #   in Loop: Header=BB0_19 Depth=2
	movzbl	1(%rbx,%rcx), %edx
	cmpb	$-65, %dl
	jg	.LBB0_105
# %bb.65:                               # %join.3.i11.i.i.i.i.i.i.i.i.i
                                        #   in Loop: Header=BB0_19 Depth=2
	cmpb	$-65, 2(%rbx,%rcx)
	jg	.LBB0_105
# %bb.66:                               # %join.3.i11.i.i.i.i.i.i.i.i.i
                                        #   in Loop: Header=BB0_19 Depth=2
	cmpb	$-65, 3(%rbx,%rcx)
	jg	.LBB0_105
# %bb.67:                               # %join.21.i.i.i.i.i.i.i.i.i.i
                                        #   in Loop: Header=BB0_19 Depth=2
	shll	$6, %eax
	leal	(%rax,%rdx), %r8d
	addl	$-15488, %r8d                   # imm = 0xC380
	xorl	%edx, %edx
	cmpl	$272, %r8d                      # imm = 0x110
	setb	%al
	cmpl	$16, %r8d
	jb	.LBB0_105
# %bb.68:                               #   in Loop: Header=BB0_19 Depth=2
	movb	%al, %dl
	shll	$2, %edx
	testq	%rdx, %rdx
	jne	.LBB0_17
	jmp	.LBB0_105
	.p2align	4
.LBB0_69:                               # %arm.6.i.i.i.i
                                        #   in Loop: Header=BB0_1 Depth=1
	cmpq	%r13, 144(%rsp)
	je	.LBB0_71
.LBB0_70:                               # %join.9.i.i.i.i
                                        #   in Loop: Header=BB0_1 Depth=1
	leaq	(,%r13,2), %rax
	addq	%r13, %rax
	movq	48(%rsp), %rcx                  # 8-byte Reload
	movq	%rbx, (%rcx,%rax,8)
	movq	%r14, 8(%rcx,%rax,8)
	movq	%r15, 16(%rcx,%rax,8)
	incq	%r13
	movq	%r13, 136(%rsp)
	incq	%rdi
	cmpq	$-1, %rdi
	jne	.LBB0_1
	jmp	.LBB0_75
.LBB0_71:                               # %std_alloc_vec_Vec_grow_1b8c52373d8cd3cb_exit_i_i_i_i_i_8
                                        #   in Loop: Header=BB0_1 Depth=1
	leaq	128(%rsp), %rcx
	movl	$1, %edx
	callq	std_alloc_vec_Vec_grow_amortized_1b8c52373d8cd3cb_9
	testb	%al, %al
	je	.LBB0_213
# %bb.72:                               # %std_alloc_vec_Vec_grow_1b8c52373d8cd3cb_exit_join_3_crit_edge_i_i_i_i_i_10
                                        #   in Loop: Header=BB0_1 Depth=1
	movq	128(%rsp), %rax
	movq	%rax, 48(%rsp)                  # 8-byte Spill
	movq	136(%rsp), %r13
	jmp	.LBB0_70
.LBB0_73:                               # %arm.9.i.i.i.i.i.i.i
	cmpq	$0, 272(%rsp)
	je	.LBB0_75
# %bb.74:                               # %then.1.i.i.i49.i.i.i.i.i.i.i
	movq	%rbx, %rcx
	callq	rattle_dealloc
.LBB0_75:                               # %arm.1.i.i.i
	movq	128(%rsp), %rcx
	movq	144(%rsp), %r10
	testq	%r13, %r13
	je	.LBB0_95
# %bb.76:                               # %join.3.i.i.i.i.i.preheader.i.i.i.i.i.i.i.preheader
	leaq	40(%rcx), %r11
	leaq	40(%rsp), %rbp
	xorl	%edx, %edx
	xorl	%ebx, %ebx
	xorl	%r15d, %r15d
	xorl	%r14d, %r14d
.LBB0_77:                               # %join.3.i.i.i.i.i.preheader.i.i.i.i.i.i.i
                                        # =>This Loop Header: Depth=1
                                        #     Child Loop BB0_78 Depth 2
	leaq	(%r14,%r14,2), %rax
	leaq	(%r11,%rax,8), %rsi
	leaq	(%r15,%r15,2), %rax
	leaq	(,%rax,8), %rax
	addq	%rbp, %rax
	movq	%r15, %r8
	subq	%rdx, %r8
	xorl	%r12d, %r12d
	.p2align	4
.LBB0_78:                               # %join.3.i.i.i.i.i.i.i.i.i.i.i.i
                                        #   Parent Loop BB0_77 Depth=1
                                        # =>  This Inner Loop Header: Depth=2
	movq	%r8, %r9
	addq	%r12, %r9
	je	.LBB0_80
# %bb.79:                               # %join.9.i.i.i.i.i.i.i.i.i
                                        #   in Loop: Header=BB0_78 Depth=2
	leaq	-40(%rsi), %r9
	movdqu	(%r9), %xmm0
	movq	16(%r9), %r9
	movq	%r9, 16(%rax)
	movdqu	%xmm0, (%rax)
	addq	$24, %rsi
	addq	$24, %rax
	incq	%r12
	cmpq	%r12, %r13
	jne	.LBB0_78
	jmp	.LBB0_86
	.p2align	4
.LBB0_80:                               # %arm.3.i.i.i.i.i.i.i
                                        #   in Loop: Header=BB0_77 Depth=1
	movq	%rbx, %r8
	movq	-40(%rsi), %rbx
	movq	-24(%rsi), %r15
	movups	-32(%rsi), %xmm6
	movq	%rbp, 256(%rsp)
	movq	%rdx, 264(%rsp)
	movq	%r8, 272(%rsp)
	movq	%r8, %rax
	subq	%rdx, %rax
	movq	%r13, %rdi
	subq	%r12, %rdi
	decq	%r13
	cmpq	%rax, %rdi
	ja	.LBB0_82
.LBB0_81:                               # %join.10.i.i.i.i.i.i.i
                                        #   in Loop: Header=BB0_77 Depth=1
	decq	%rdi
	addq	%r12, %r14
	incq	%r14
	movq	256(%rsp), %r9
	leaq	(%rdx,%rdx,2), %rax
	movq	%rbx, (%r9,%rax,8)
	movq	%r9, %rbp
	movups	%xmm6, 8(%r9,%rax,8)
	movq	%rdx, %r15
	xorl	%edx, %edx
	incq	%r15
	cmovneq	%r8, %rdx
	pxor	%xmm0, %xmm0
	leaq	264(%rsp), %rax
	movdqu	%xmm0, (%rax)
	cmpq	%r12, %r13
	movq	%rdi, %r13
	movq	%r8, %rbx
	jne	.LBB0_77
	jmp	.LBB0_87
.LBB0_82:                               # %std_alloc_vec_Vec_grow_1b8c52373d8cd3cb_exit_i_i_i_i_i_i_i_i_11
                                        #   in Loop: Header=BB0_77 Depth=1
	movq	%r11, %rbp
	movq	%r10, 48(%rsp)                  # 8-byte Spill
	movq	%rcx, 120(%rsp)                 # 8-byte Spill
	leaq	256(%rsp), %rcx
	movq	%rdi, %rdx
	callq	std_alloc_vec_Vec_grow_amortized_1b8c52373d8cd3cb_9
	movq	264(%rsp), %rdx
	movq	272(%rsp), %rcx
	movq	%rcx, %r8
	cmpq	%rdx, %rcx
	setne	%cl
	orb	%al, %cl
	je	.LBB0_84
.LBB0_83:                               #   in Loop: Header=BB0_77 Depth=1
	movq	120(%rsp), %rcx                 # 8-byte Reload
	movq	48(%rsp), %r10                  # 8-byte Reload
	movq	%rbp, %r11
	jmp	.LBB0_81
.LBB0_84:                               # %std_alloc_vec_Vec_grow_by_hint_1b8c52373d8cd3cb_exit_i_i_i_i_i_i_i_12
                                        #   in Loop: Header=BB0_77 Depth=1
	leaq	256(%rsp), %rcx
	movl	$1, %edx
	callq	std_alloc_vec_Vec_grow_amortized_1b8c52373d8cd3cb_9
	testb	%al, %al
	je	.LBB0_242
# %bb.85:                               # %std_alloc_vec_Vec_grow_by_hint_1b8c52373d8cd3cb_exit_join_10_crit_edge_i_i_i_i_i_i_i_13
                                        #   in Loop: Header=BB0_77 Depth=1
	movq	264(%rsp), %rdx
	movq	272(%rsp), %r8
	jmp	.LBB0_83
.LBB0_86:                               # %arm.4.i.i.i.i4.i.i.i.loopexit
	addq	%r12, %r15
.LBB0_87:                               # %arm.4.i.i.i.i4.i.i.i
	testq	%r10, %r10
	je	.LBB0_89
.LBB0_88:                               # %then.1.i.i.i.i.i.i.i.i.i.i.i.i
	callq	rattle_dealloc
.LBB0_89:                               # %arm.1.i.i.i.i
	pxor	%xmm0, %xmm0
	movdqa	%xmm0, 128(%rsp)
	movq	$0, 144(%rsp)
	testq	%r15, %r15
	je	.LBB0_96
# %bb.90:                               # %then.5.i.i.i.i
	movq	%rbx, %r13
	movq	(%rbp), %rdi
	movq	16(%rbp), %r12
	leaq	-1(%r15), %rbx
	xorl	%eax, %eax
	movq	%rbp, %rcx
	cmpq	$86, %rbx
	jb	.LBB0_97
	.p2align	4
.LBB0_91:                               # %core_slots_Slots_move_at_once_483ec8513fd57e54_exit_i_i_i_i_i_14
                                        # =>This Inner Loop Header: Depth=1
	movq	40(%rcx), %rdx
	movq	%rdx, 16(%rcx)
	movups	24(%rcx), %xmm0
	movups	%xmm0, (%rcx)
	movups	48(%rcx), %xmm0
	movups	%xmm0, 24(%rcx)
	movq	64(%rcx), %rdx
	movq	%rdx, 40(%rcx)
	movups	72(%rcx), %xmm0
	movups	%xmm0, 48(%rcx)
	movq	88(%rcx), %rdx
	movq	%rdx, 64(%rcx)
	movups	96(%rcx), %xmm0
	movups	%xmm0, 72(%rcx)
	movq	112(%rcx), %rdx
	movq	%rdx, 88(%rcx)
	movq	136(%rcx), %rdx
	movq	%rdx, 112(%rcx)
	movups	120(%rcx), %xmm0
	movups	%xmm0, 96(%rcx)
	movq	160(%rcx), %rdx
	movq	%rdx, 136(%rcx)
	movups	144(%rcx), %xmm0
	movups	%xmm0, 120(%rcx)
	movq	184(%rcx), %rdx
	movq	%rdx, 160(%rcx)
	movups	168(%rcx), %xmm0
	movups	%xmm0, 144(%rcx)
	movq	208(%rcx), %rdx
	movq	%rdx, 184(%rcx)
	movups	192(%rcx), %xmm0
	movups	%xmm0, 168(%rcx)
	movq	232(%rcx), %rdx
	movq	%rdx, 208(%rcx)
	movups	216(%rcx), %xmm0
	movups	%xmm0, 192(%rcx)
	movq	256(%rcx), %rdx
	movq	%rdx, 232(%rcx)
	movups	240(%rcx), %xmm0
	movups	%xmm0, 216(%rcx)
	movq	280(%rcx), %rdx
	movq	%rdx, 256(%rcx)
	movups	264(%rcx), %xmm0
	movups	%xmm0, 240(%rcx)
	movq	304(%rcx), %rdx
	movq	%rdx, 280(%rcx)
	movups	288(%rcx), %xmm0
	movups	%xmm0, 264(%rcx)
	movq	328(%rcx), %rdx
	movq	%rdx, 304(%rcx)
	movups	312(%rcx), %xmm0
	movups	%xmm0, 288(%rcx)
	movq	352(%rcx), %rdx
	movq	%rdx, 328(%rcx)
	movups	336(%rcx), %xmm0
	movups	%xmm0, 312(%rcx)
	movq	376(%rcx), %rdx
	movq	%rdx, 352(%rcx)
	movups	360(%rcx), %xmm0
	movups	%xmm0, 336(%rcx)
	movq	400(%rcx), %rdx
	movq	%rdx, 376(%rcx)
	movups	384(%rcx), %xmm0
	movups	%xmm0, 360(%rcx)
	movq	424(%rcx), %rdx
	movq	%rdx, 400(%rcx)
	movups	408(%rcx), %xmm0
	movups	%xmm0, 384(%rcx)
	movq	448(%rcx), %rdx
	movq	%rdx, 424(%rcx)
	movups	432(%rcx), %xmm0
	movups	%xmm0, 408(%rcx)
	movq	472(%rcx), %rdx
	movq	%rdx, 448(%rcx)
	movups	456(%rcx), %xmm0
	movups	%xmm0, 432(%rcx)
	movq	496(%rcx), %rdx
	movq	%rdx, 472(%rcx)
	movups	480(%rcx), %xmm0
	movups	%xmm0, 456(%rcx)
	movq	520(%rcx), %rdx
	movq	%rdx, 496(%rcx)
	movups	504(%rcx), %xmm0
	movups	%xmm0, 480(%rcx)
	movq	544(%rcx), %rdx
	movq	%rdx, 520(%rcx)
	movups	528(%rcx), %xmm0
	movups	%xmm0, 504(%rcx)
	movq	568(%rcx), %rdx
	movq	%rdx, 544(%rcx)
	movups	552(%rcx), %xmm0
	movups	%xmm0, 528(%rcx)
	movq	592(%rcx), %rdx
	movq	%rdx, 568(%rcx)
	movups	576(%rcx), %xmm0
	movups	%xmm0, 552(%rcx)
	movq	616(%rcx), %rdx
	movq	%rdx, 592(%rcx)
	movups	600(%rcx), %xmm0
	movups	%xmm0, 576(%rcx)
	movq	640(%rcx), %rdx
	movq	%rdx, 616(%rcx)
	movups	624(%rcx), %xmm0
	movups	%xmm0, 600(%rcx)
	movq	664(%rcx), %rdx
	movq	%rdx, 640(%rcx)
	movups	648(%rcx), %xmm0
	movups	%xmm0, 624(%rcx)
	movq	688(%rcx), %rdx
	movq	%rdx, 664(%rcx)
	movups	672(%rcx), %xmm0
	movups	%xmm0, 648(%rcx)
	movq	712(%rcx), %rdx
	movq	%rdx, 688(%rcx)
	movups	696(%rcx), %xmm0
	movups	%xmm0, 672(%rcx)
	movq	736(%rcx), %rdx
	movq	%rdx, 712(%rcx)
	movups	720(%rcx), %xmm0
	movups	%xmm0, 696(%rcx)
	movq	760(%rcx), %rdx
	movq	%rdx, 736(%rcx)
	movups	744(%rcx), %xmm0
	movups	%xmm0, 720(%rcx)
	movq	784(%rcx), %rdx
	movq	%rdx, 760(%rcx)
	movups	768(%rcx), %xmm0
	movups	%xmm0, 744(%rcx)
	movq	808(%rcx), %rdx
	movq	%rdx, 784(%rcx)
	movups	792(%rcx), %xmm0
	movups	%xmm0, 768(%rcx)
	movq	832(%rcx), %rdx
	movq	%rdx, 808(%rcx)
	movups	816(%rcx), %xmm0
	movups	%xmm0, 792(%rcx)
	movq	856(%rcx), %rdx
	movq	%rdx, 832(%rcx)
	movups	840(%rcx), %xmm0
	movups	%xmm0, 816(%rcx)
	movq	880(%rcx), %rdx
	movq	%rdx, 856(%rcx)
	movups	864(%rcx), %xmm0
	movups	%xmm0, 840(%rcx)
	movq	904(%rcx), %rdx
	movq	%rdx, 880(%rcx)
	movups	888(%rcx), %xmm0
	movups	%xmm0, 864(%rcx)
	movq	928(%rcx), %rdx
	movq	%rdx, 904(%rcx)
	movups	912(%rcx), %xmm0
	movups	%xmm0, 888(%rcx)
	movq	952(%rcx), %rdx
	movq	%rdx, 928(%rcx)
	movups	936(%rcx), %xmm0
	movups	%xmm0, 912(%rcx)
	movq	976(%rcx), %rdx
	movq	%rdx, 952(%rcx)
	movups	960(%rcx), %xmm0
	movups	%xmm0, 936(%rcx)
	movq	1000(%rcx), %rdx
	movq	%rdx, 976(%rcx)
	movups	984(%rcx), %xmm0
	movups	%xmm0, 960(%rcx)
	movq	1024(%rcx), %rdx
	movq	%rdx, 1000(%rcx)
	movups	1008(%rcx), %xmm0
	movups	%xmm0, 984(%rcx)
	movq	1048(%rcx), %rdx
	movq	%rdx, 1024(%rcx)
	movups	1032(%rcx), %xmm0
	movups	%xmm0, 1008(%rcx)
	movq	1072(%rcx), %rdx
	movq	%rdx, 1048(%rcx)
	movups	1056(%rcx), %xmm0
	movups	%xmm0, 1032(%rcx)
	movq	1096(%rcx), %rdx
	movq	%rdx, 1072(%rcx)
	movups	1080(%rcx), %xmm0
	movups	%xmm0, 1056(%rcx)
	movq	1120(%rcx), %rdx
	movq	%rdx, 1096(%rcx)
	movups	1104(%rcx), %xmm0
	movups	%xmm0, 1080(%rcx)
	movq	1144(%rcx), %rdx
	movq	%rdx, 1120(%rcx)
	movups	1128(%rcx), %xmm0
	movups	%xmm0, 1104(%rcx)
	movq	1168(%rcx), %rdx
	movq	%rdx, 1144(%rcx)
	movups	1152(%rcx), %xmm0
	movups	%xmm0, 1128(%rcx)
	movq	1192(%rcx), %rdx
	movq	%rdx, 1168(%rcx)
	movups	1176(%rcx), %xmm0
	movups	%xmm0, 1152(%rcx)
	movq	1216(%rcx), %rdx
	movq	%rdx, 1192(%rcx)
	movups	1200(%rcx), %xmm0
	movups	%xmm0, 1176(%rcx)
	movq	1240(%rcx), %rdx
	movq	%rdx, 1216(%rcx)
	movups	1224(%rcx), %xmm0
	movups	%xmm0, 1200(%rcx)
	movq	1264(%rcx), %rdx
	movq	%rdx, 1240(%rcx)
	movups	1248(%rcx), %xmm0
	movups	%xmm0, 1224(%rcx)
	movq	1288(%rcx), %rdx
	movq	%rdx, 1264(%rcx)
	movups	1272(%rcx), %xmm0
	movups	%xmm0, 1248(%rcx)
	movq	1312(%rcx), %rdx
	movq	%rdx, 1288(%rcx)
	movups	1296(%rcx), %xmm0
	movups	%xmm0, 1272(%rcx)
	movq	1336(%rcx), %rdx
	movq	%rdx, 1312(%rcx)
	movups	1320(%rcx), %xmm0
	movups	%xmm0, 1296(%rcx)
	movq	1360(%rcx), %rdx
	movq	%rdx, 1336(%rcx)
	movups	1344(%rcx), %xmm0
	movups	%xmm0, 1320(%rcx)
	movq	1384(%rcx), %rdx
	movq	%rdx, 1360(%rcx)
	movups	1368(%rcx), %xmm0
	movups	%xmm0, 1344(%rcx)
	movq	1408(%rcx), %rdx
	movq	%rdx, 1384(%rcx)
	movups	1392(%rcx), %xmm0
	movups	%xmm0, 1368(%rcx)
	movq	1432(%rcx), %rdx
	movq	%rdx, 1408(%rcx)
	movups	1416(%rcx), %xmm0
	movups	%xmm0, 1392(%rcx)
	movq	1456(%rcx), %rdx
	movq	%rdx, 1432(%rcx)
	movups	1440(%rcx), %xmm0
	movups	%xmm0, 1416(%rcx)
	movq	1480(%rcx), %rdx
	movq	%rdx, 1456(%rcx)
	movups	1464(%rcx), %xmm0
	movups	%xmm0, 1440(%rcx)
	movq	1504(%rcx), %rdx
	movq	%rdx, 1480(%rcx)
	movups	1488(%rcx), %xmm0
	movups	%xmm0, 1464(%rcx)
	movq	1528(%rcx), %rdx
	movq	%rdx, 1504(%rcx)
	movups	1512(%rcx), %xmm0
	movups	%xmm0, 1488(%rcx)
	movq	1552(%rcx), %rdx
	movq	%rdx, 1528(%rcx)
	movups	1536(%rcx), %xmm0
	movups	%xmm0, 1512(%rcx)
	movq	1576(%rcx), %rdx
	movq	%rdx, 1552(%rcx)
	movups	1560(%rcx), %xmm0
	movups	%xmm0, 1536(%rcx)
	movq	1600(%rcx), %rdx
	movq	%rdx, 1576(%rcx)
	movups	1584(%rcx), %xmm0
	movups	%xmm0, 1560(%rcx)
	movq	1624(%rcx), %rdx
	movq	%rdx, 1600(%rcx)
	movups	1608(%rcx), %xmm0
	movups	%xmm0, 1584(%rcx)
	movq	1648(%rcx), %rdx
	movq	%rdx, 1624(%rcx)
	movups	1632(%rcx), %xmm0
	movups	%xmm0, 1608(%rcx)
	movq	1672(%rcx), %rdx
	movq	%rdx, 1648(%rcx)
	movups	1656(%rcx), %xmm0
	movups	%xmm0, 1632(%rcx)
	movq	1696(%rcx), %rdx
	movq	%rdx, 1672(%rcx)
	movups	1680(%rcx), %xmm0
	movups	%xmm0, 1656(%rcx)
	movq	1720(%rcx), %rdx
	movq	%rdx, 1696(%rcx)
	movups	1704(%rcx), %xmm0
	movups	%xmm0, 1680(%rcx)
	movq	1744(%rcx), %rdx
	movq	%rdx, 1720(%rcx)
	movups	1728(%rcx), %xmm0
	movups	%xmm0, 1704(%rcx)
	movq	1768(%rcx), %rdx
	movq	%rdx, 1744(%rcx)
	movups	1752(%rcx), %xmm0
	movups	%xmm0, 1728(%rcx)
	movq	1792(%rcx), %rdx
	movq	%rdx, 1768(%rcx)
	movups	1776(%rcx), %xmm0
	movups	%xmm0, 1752(%rcx)
	movq	1816(%rcx), %rdx
	movq	%rdx, 1792(%rcx)
	movups	1800(%rcx), %xmm0
	movups	%xmm0, 1776(%rcx)
	movq	1840(%rcx), %rdx
	movq	%rdx, 1816(%rcx)
	movups	1824(%rcx), %xmm0
	movups	%xmm0, 1800(%rcx)
	movq	1864(%rcx), %rdx
	movq	%rdx, 1840(%rcx)
	movups	1848(%rcx), %xmm0
	movups	%xmm0, 1824(%rcx)
	movq	1888(%rcx), %rdx
	movq	%rdx, 1864(%rcx)
	movups	1872(%rcx), %xmm0
	movups	%xmm0, 1848(%rcx)
	movq	1912(%rcx), %rdx
	movq	%rdx, 1888(%rcx)
	movups	1896(%rcx), %xmm0
	movups	%xmm0, 1872(%rcx)
	movq	1936(%rcx), %rdx
	movq	%rdx, 1912(%rcx)
	movups	1920(%rcx), %xmm0
	movups	%xmm0, 1896(%rcx)
	movq	1960(%rcx), %rdx
	movq	%rdx, 1936(%rcx)
	movups	1944(%rcx), %xmm0
	movups	%xmm0, 1920(%rcx)
	movq	1984(%rcx), %rdx
	movq	%rdx, 1960(%rcx)
	movups	1968(%rcx), %xmm0
	movups	%xmm0, 1944(%rcx)
	movq	2008(%rcx), %rdx
	movq	%rdx, 1984(%rcx)
	movups	1992(%rcx), %xmm0
	movups	%xmm0, 1968(%rcx)
	movq	2032(%rcx), %rdx
	movq	%rdx, 2008(%rcx)
	movups	2016(%rcx), %xmm0
	movups	%xmm0, 1992(%rcx)
	movq	2056(%rcx), %rdx
	movq	%rdx, 2032(%rcx)
	movdqu	2040(%rcx), %xmm0
	movdqu	%xmm0, 2016(%rcx)
	addq	$2040, %rcx                     # imm = 0x7F8
	leaq	(%rbx,%rax), %rdx
	addq	$-85, %rdx
	addq	$-85, %rax
	cmpq	$85, %rdx
	ja	.LBB0_91
# %bb.92:                               # %core_slots_Slots_move_back_483ec8513fd57e54_exit_i_i_i_i_i_15
	cmpq	$1, %rax
	jne	.LBB0_113
# %bb.93:                               # %join.5.i33.i.i.i.i.i.preheader
	addq	%rbx, %rax
	leaq	(%r15,%r15,2), %rcx
	leaq	-24(,%rcx,8), %rcx
	addq	%rbp, %rcx
	.p2align	4
.LBB0_94:                               # %join.5.i33.i.i.i.i.i
                                        # =>This Inner Loop Header: Depth=1
	movq	16(%rcx), %rdx
	movq	%rdx, -8(%rcx)
	movdqu	(%rcx), %xmm0
	movdqu	%xmm0, -24(%rcx)
	addq	$-24, %rcx
	decq	%rax
	jne	.LBB0_94
	jmp	.LBB0_99
.LBB0_95:
	leaq	40(%rsp), %rbp
	xorl	%ebx, %ebx
	xorl	%r15d, %r15d
	testq	%r10, %r10
	jne	.LBB0_88
	jmp	.LBB0_89
.LBB0_96:                               # %arm.6.thread.i.i.i
	xorl	%ecx, %ecx
	callq	text_programs_programs_stops_Stop_report_2daa2fb2be07fb73_16
	movl	%eax, %edi
	testq	%rbx, %rbx
	jne	.LBB0_134
	jmp	.LBB0_135
.LBB0_97:
	movq	%rbx, %r8
	cmpq	%rax, %rbx
	je	.LBB0_99
.LBB0_98:                               # %join.5.i25.i.preheader.i.i.i.i
	leaq	24(%rcx), %rdx
	shlq	$3, %r8
	leaq	(%r8,%r8,2), %r8
	callq	memmove
.LBB0_99:                               # %std_alloc_vec_Vec_remove_1b8c52373d8cd3cb_exit_i_i_i_i_17
	testq	%r12, %r12
	je	.LBB0_101
# %bb.100:                              # %then.1.i.i.i.i.i37.i.i
	movq	%rdi, %rcx
	callq	rattle_dealloc
.LBB0_101:                              # %arm.1.i21.i.i
	cmpq	$2, %rbx
	jne	.LBB0_132
.LBB0_102:                              # %then.6.i.i.i.i.i
	movq	(%rbp), %rax
	movq	8(%rbp), %rcx
	cmpq	$7, %rcx
	je	.LBB0_114
# %bb.103:                              # %then.6.i.i.i.i.i
	cmpq	$4, %rcx
	jne	.LBB0_117
# %bb.104:                              # %core_lang_str_eq_exit_i_i_i_i_i_i_18
	movl	(%rax), %eax
	movq	%rax, %rdx
	shlq	$32, %rdx
	orq	%rax, %rdx
	xorl	%eax, %eax
	movabsq	$4064063760554685557, %r8       # imm = 0x3866747538667475
	movl	$0, %ecx
	cmpq	%r8, %rdx
	je	.LBB0_137
	jmp	.LBB0_204
.LBB0_105:                              # %arm.5.i.i.i.i.i.i
	testq	%r15, %r15
	je	.LBB0_107
# %bb.106:                              # %then.1.i.i.i.i.i.i.i.i.i
	movq	%rbx, %rcx
	callq	rattle_dealloc
.LBB0_107:                              # %arm.18.i.i.i.i
	movq	144(%rsp), %rsi
	testq	%r13, %r13
	je	.LBB0_112
# %bb.108:                              # %join.5.i.i.i.i.i49.i.i.i.i.preheader
	movq	48(%rsp), %rax                  # 8-byte Reload
	leaq	16(%rax), %rdi
	jmp	.LBB0_110
	.p2align	4
.LBB0_109:                              # %core_mem_drop_f02d343d93693c10_exit_i_i_i_i_i58_i_i_i_i_19
                                        #   in Loop: Header=BB0_110 Depth=1
	addq	$24, %rdi
	decq	%r13
	je	.LBB0_112
.LBB0_110:                              # %join.5.i.i.i.i.i49.i.i.i.i
                                        # =>This Inner Loop Header: Depth=1
	cmpq	$0, (%rdi)
	je	.LBB0_109
# %bb.111:                              # %then.1.i.i.i.i.i.i.i.i.i.i56.i.i.i.i
                                        #   in Loop: Header=BB0_110 Depth=1
	movq	-16(%rdi), %rcx
	callq	rattle_dealloc
	jmp	.LBB0_109
.LBB0_112:                              # %std_alloc_vec_Vec_clear_4feeb2b446188e7f_exit_i61_i_i_i_i_20
	movl	$21, %edi
	testq	%rsi, %rsi
	jne	.LBB0_126
	jmp	.LBB0_128
.LBB0_113:
	leaq	(%rbx,%rax), %r8
	negq	%rax
	cmpq	%rax, %rbx
	jne	.LBB0_98
	jmp	.LBB0_99
.LBB0_114:                              # %core_lang_str_eq_exit18_i_i_i_i_i_i_21
	movl	(%rax), %ecx
	movl	3(%rax), %eax
	shlq	$32, %rax
	orq	%rcx, %rax
	movabsq	$7308275880225567861, %rcx      # imm = 0x656C363131667475
	cmpq	%rcx, %rax
	je	.LBB0_136
# %bb.115:                              # %core_lang_str_eq_exit18_i_i_i_i_i_i_21
	movabsq	$7305461130458461301, %rcx      # imm = 0x6562363131667475
	cmpq	%rcx, %rax
	jne	.LBB0_117
# %bb.116:                              # %arm.9.i.fold.split.i.i.i.i
	movb	$2, %al
	jmp	.LBB0_137
.LBB0_118:                              # %then.1.i.i.i.i.i.i.i
	cmpq	$0, 272(%rsp)
	je	.LBB0_120
# %bb.119:                              # %then.1.i.i.i.i.i.i.i.i.i.i
	movq	256(%rsp), %rcx
	callq	rattle_dealloc
.LBB0_120:                              # %arm.17.i.i.i.i
	movq	144(%rsp), %rsi
	testq	%r13, %r13
	je	.LBB0_125
# %bb.121:                              # %join.5.i.i.i.i.i25.i.i.i.i.preheader
	movq	48(%rsp), %rax                  # 8-byte Reload
	leaq	16(%rax), %rdi
	jmp	.LBB0_123
	.p2align	4
.LBB0_122:                              # %core_mem_drop_f02d343d93693c10_exit_i_i_i_i_i34_i_i_i_i_22
                                        #   in Loop: Header=BB0_123 Depth=1
	addq	$24, %rdi
	decq	%r13
	je	.LBB0_125
.LBB0_123:                              # %join.5.i.i.i.i.i25.i.i.i.i
                                        # =>This Inner Loop Header: Depth=1
	cmpq	$0, (%rdi)
	je	.LBB0_122
# %bb.124:                              # %then.1.i.i.i.i.i.i.i.i.i.i32.i.i.i.i
                                        #   in Loop: Header=BB0_123 Depth=1
	movq	-16(%rdi), %rcx
	callq	rattle_dealloc
	jmp	.LBB0_122
.LBB0_125:                              # %std_alloc_vec_Vec_clear_4feeb2b446188e7f_exit_i37_i_i_i_i_23
	movl	$38, %edi
	testq	%rsi, %rsi
	je	.LBB0_128
.LBB0_126:                              # %then.1.i.i.i39.i.i.i.i
	movq	48(%rsp), %rcx                  # 8-byte Reload
.LBB0_127:                              # %arm.2.i.i.i.i
	callq	rattle_dealloc
.LBB0_128:                              # %arm.2.i.i.i.i
	pxor	%xmm0, %xmm0
	movdqa	%xmm0, 128(%rsp)
	movq	$0, 144(%rsp)
	movaps	.LCPI0_0(%rip), %xmm1           # xmm1 = [0,1,2,3,4,5,6,7,8,9,10,11,12,13,14,15]
	movaps	%xmm1, 256(%rsp)
	movdqa	.LCPI0_1(%rip), %xmm1           # xmm1 = [16,17,18,19,20,21,22,23,24,25,26,27,28,29,30,31]
	movdqa	%xmm1, 272(%rsp)
	movabsq	$2820983053732684064, %rax      # imm = 0x2726252423222120
	movq	%rax, 288(%rsp)
	movb	$40, 296(%rsp)
	cmpb	$21, 256(%rsp,%rdi)
	je	.LBB0_130
.LBB0_129:                              # %arm.2.i1.i.i
	movb	$3, %cl
	callq	text_programs_programs_stops_Stop_report_2daa2fb2be07fb73_16
	movl	%eax, %edi
	jmp	.LBB0_135
.LBB0_130:                              # %then.9.i.i.i.i
	leaq	40(%rsp), %rsi
	movq	%rsi, 128(%rsp)
	movdqu	%xmm0, 136(%rsp)
	leaq	128(%rsp), %rcx
	movl	$1, %edx
	callq	std_alloc_vec_Vec_grow_amortized_1b8c52373d8cd3cb_9
	movq	144(%rsp), %r13
	testb	%al, %al
	je	.LBB0_145
# %bb.131:                              # %std_alloc_vec_Vec_grow_1b8c52373d8cd3cb_exit_join_3_crit_edge_i_i_i15_i_i_24
	movq	128(%rsp), %rbp
	movq	136(%rsp), %rbx
	leaq	(%rbx,%rbx,2), %rax
	movq	%rsi, (%rbp,%rax,8)
	incq	%rbx
	pxor	%xmm0, %xmm0
	movdqu	%xmm0, 8(%rbp,%rax,8)
	cmpq	$2, %rbx
	je	.LBB0_102
.LBB0_132:                              # %arm.6.i22.i.i
	xorl	%ecx, %ecx
	callq	text_programs_programs_stops_Stop_report_2daa2fb2be07fb73_16
	movl	%eax, %edi
	testq	%rbx, %rbx
	jne	.LBB0_205
.LBB0_133:
	movq	%r13, %rbx
	testq	%rbx, %rbx
	je	.LBB0_135
.LBB0_134:                              # %then.1.i.i.i33.i.i.i
	movq	%rbp, %rcx
	callq	rattle_dealloc
.LBB0_135:                              # %recode_main_run_exit_25
	movzbl	%dil, %eax
	movaps	65792(%rsp), %xmm6              # 16-byte Reload
	addq	$65816, %rsp                    # imm = 0x10118
	popq	%rbx
	popq	%rbp
	popq	%rdi
	popq	%rsi
	popq	%r12
	popq	%r13
	popq	%r14
	popq	%r15
	retq
.LBB0_136:
	movb	$1, %al
.LBB0_137:                              # %arm.9.i.i.i.i.i
	movq	24(%rbp), %rcx
	movq	32(%rbp), %rdx
	cmpq	$7, %rdx
	je	.LBB0_140
# %bb.138:                              # %arm.9.i.i.i.i.i
	cmpq	$4, %rdx
	jne	.LBB0_117
# %bb.139:                              # %core_lang_str_eq_exit_i24_i_i_i_i_i_26
	movl	(%rcx), %ecx
	movq	%rcx, %rdx
	shlq	$32, %rdx
	orq	%rcx, %rdx
	xorl	%ecx, %ecx
	movabsq	$4064063760554685557, %r8       # imm = 0x3866747538667475
	cmpq	%r8, %rdx
	je	.LBB0_153
	jmp	.LBB0_204
.LBB0_140:                              # %core_lang_str_eq_exit18_i10_i_i_i_i_i_27
	movl	(%rcx), %edx
	movl	3(%rcx), %ecx
	shlq	$32, %rcx
	orq	%rdx, %rcx
	movabsq	$7308275880225567861, %rdx      # imm = 0x656C363131667475
	cmpq	%rdx, %rcx
	je	.LBB0_152
# %bb.141:                              # %core_lang_str_eq_exit18_i10_i_i_i_i_i_27
	movabsq	$7305461130458461301, %rdx      # imm = 0x6562363131667475
	cmpq	%rdx, %rcx
	jne	.LBB0_117
# %bb.142:                              # %arm.13.fold.split.i.i.i.i.i
	movb	$2, %cl
	jmp	.LBB0_153
.LBB0_117:
	xorl	%ecx, %ecx
.LBB0_204:                              # %arm.6.thread102.i.i.i
                                        # kill: def $cl killed $cl killed $ecx
	callq	text_programs_programs_stops_Stop_report_2daa2fb2be07fb73_16
	movl	%eax, %edi
	movl	$2, %ebx
.LBB0_205:                              # %join.5.i.i.i.i.i19.preheader.i.i.i
	leaq	16(%rbp), %rsi
	jmp	.LBB0_207
	.p2align	4
.LBB0_206:                              # %core_mem_drop_7f8a914b9c4d666d_exit_i_i_i_i_i28_i_i_i_28
                                        #   in Loop: Header=BB0_207 Depth=1
	addq	$24, %rsi
	decq	%rbx
	je	.LBB0_133
.LBB0_207:                              # %join.5.i.i.i.i.i19.i.i.i
                                        # =>This Inner Loop Header: Depth=1
	cmpq	$0, (%rsi)
	je	.LBB0_206
# %bb.208:                              # %then.1.i.i.i.i.i.i.i.i.i.i26.i.i.i
                                        #   in Loop: Header=BB0_207 Depth=1
	movq	-16(%rsi), %rcx
	callq	rattle_dealloc
	jmp	.LBB0_206
.LBB0_145:                              # %std_alloc_vec_Vec_drop_81677c32190a458e_exit8_i_i_i_i_29
	movq	128(%rsp), %rsi
	movq	136(%rsp), %rdi
	testq	%rdi, %rdi
	je	.LBB0_150
# %bb.146:                              # %join.5.i.i.i.i.i.i.i4.i.i.preheader
	leaq	16(%rsi), %rbx
	jmp	.LBB0_148
	.p2align	4
.LBB0_147:                              # %core_mem_drop_7f8a914b9c4d666d_exit_i_i_i_i_i_i_i_i_i_30
                                        #   in Loop: Header=BB0_148 Depth=1
	addq	$24, %rbx
	decq	%rdi
	je	.LBB0_150
.LBB0_148:                              # %join.5.i.i.i.i.i.i.i4.i.i
                                        # =>This Inner Loop Header: Depth=1
	cmpq	$0, (%rbx)
	je	.LBB0_147
# %bb.149:                              # %then.1.i.i.i.i.i.i.i.i.i.i.i.i11.i.i
                                        #   in Loop: Header=BB0_148 Depth=1
	movq	-16(%rbx), %rcx
	callq	rattle_dealloc
	jmp	.LBB0_147
.LBB0_150:                              # %std_alloc_vec_Vec_clear_1ca9c52778c14e4e_exit_i_i_i_i_i_31
	testq	%r13, %r13
	je	.LBB0_129
# %bb.151:                              # %then.1.i.i.i14.i.i.i.i
	movq	%rsi, %rcx
	callq	rattle_dealloc
	jmp	.LBB0_129
.LBB0_152:
	movb	$1, %cl
.LBB0_153:                              # %arm.1.i8.i.i.i
	pxor	%xmm0, %xmm0
	movdqa	%xmm0, 80(%rsp)
	movb	%al, 96(%rsp)
	movb	%cl, 97(%rsp)
	movq	$0, 98(%rsp)
	movq	$0, 104(%rsp)
	leaq	40(%rsp), %rbx
	movq	%rbx, 56(%rsp)
	movdqu	%xmm0, 64(%rsp)
	xorl	%r12d, %r12d
	leaq	256(%rsp), %rcx
	movl	$65536, %r8d                    # imm = 0x10000
	xorl	%edx, %edx
	callq	memset
	leaq	88(%rsp), %r15
.LBB0_154:                              # %join.5.i.i.i.i.i
                                        # =>This Loop Header: Depth=1
                                        #     Child Loop BB0_189 Depth 2
	leaq	256(%rsp), %rdx
	movl	$65536, %edi                    # imm = 0x10000
	movl	$65536, %r8d                    # imm = 0x10000
	xorl	%ecx, %ecx
	callq	noddychest_read
	testq	%rax, %rax
	js	.LBB0_158
# %bb.155:                              # %arm.6.i.i.i.i.i
                                        #   in Loop: Header=BB0_154 Depth=1
	cmpq	$65536, %rax                    # imm = 0x10000
	cmovbq	%rax, %rdi
	movq	80(%rsp), %rcx
	testq	%rax, %rax
	je	.LBB0_209
# %bb.156:                              # %default.11.i.i.i.i.i
                                        #   in Loop: Header=BB0_154 Depth=1
	testq	%rcx, %rcx
	je	.LBB0_160
# %bb.157:                              # %recoding_recoder_Recoder_feed_e3b2a9d4d2861db8_exit_i_i_i_i_i_i_32
                                        #   in Loop: Header=BB0_154 Depth=1
	leaq	80(%rsp), %rcx
	leaq	256(%rsp), %rdx
	leaq	56(%rsp), %r9
	movq	%rdi, %r8
	callq	recoding_recoder_Recoder_feed_joined_e3b2a9d4d2861db8_33
	testb	%al, %al
	je	.LBB0_187
	jmp	.LBB0_195
.LBB0_158:                              # %arm.7.i.i.i.i.i
                                        #   in Loop: Header=BB0_154 Depth=1
	leaq	128(%rsp), %rcx
	callq	std_io_io_error_last_error_34
	movq	128(%rsp), %rax
	shrq	$8, %rax
	movaps	.LCPI0_0(%rip), %xmm0           # xmm0 = [0,1,2,3,4,5,6,7,8,9,10,11,12,13,14,15]
	movaps	%xmm0, 128(%rsp)
	movdqa	.LCPI0_1(%rip), %xmm0           # xmm0 = [16,17,18,19,20,21,22,23,24,25,26,27,28,29,30,31]
	movdqa	%xmm0, 144(%rsp)
	movabsq	$2820983053732684064, %rcx      # imm = 0x2726252423222120
	movq	%rcx, 160(%rsp)
	movb	$40, 168(%rsp)
	cmpb	$41, %al
	jae	.LBB0_200
# %bb.159:                              # %std_io_io_error_Error_kind_exit82_i_i_i_i_i_35
                                        #   in Loop: Header=BB0_154 Depth=1
	andl	$63, %eax
	cmpb	$35, 128(%rsp,%rax)
	je	.LBB0_193
	jmp	.LBB0_200
.LBB0_160:                              # %then.5.i.i.i.i.i.i.i
                                        #   in Loop: Header=BB0_154 Depth=1
	leaq	(%rdi,%rdi,2), %rdx
	cmpq	72(%rsp), %rdx
	ja	.LBB0_194
.LBB0_161:                              # %arm.1.i.i.i.i.i.i.i
                                        #   in Loop: Header=BB0_154 Depth=1
	movzbl	96(%rsp), %ecx
	movzbl	97(%rsp), %eax
	cmpl	$2, %ecx
	je	.LBB0_166
# %bb.162:                              # %arm.1.i.i.i.i.i.i.i
                                        #   in Loop: Header=BB0_154 Depth=1
	cmpl	$1, %ecx
	jne	.LBB0_169
# %bb.163:                              # %arm.2.i18.i.i.i.i.i.i
                                        #   in Loop: Header=BB0_154 Depth=1
	leaq	256(%rsp), %rcx
	leaq	56(%rsp), %r8
	movq	%rdi, %rdx
	cmpl	$2, %eax
	je	.LBB0_172
# %bb.164:                              # %arm.2.i18.i.i.i.i.i.i
                                        #   in Loop: Header=BB0_154 Depth=1
	cmpl	$1, %eax
	jne	.LBB0_174
# %bb.165:                              # %arm.11.i.i.i.i.i.i.i
                                        #   in Loop: Header=BB0_154 Depth=1
	callq	recoding_recoder_runs_run_whole_06163603a29b5506_36
	jmp	.LBB0_178
.LBB0_166:                              # %arm.3.i.i.i.i.i25.i.i
                                        #   in Loop: Header=BB0_154 Depth=1
	leaq	256(%rsp), %rcx
	leaq	56(%rsp), %r8
	movq	%rdi, %rdx
	cmpl	$2, %eax
	je	.LBB0_173
# %bb.167:                              # %arm.3.i.i.i.i.i25.i.i
                                        #   in Loop: Header=BB0_154 Depth=1
	cmpl	$1, %eax
	jne	.LBB0_175
# %bb.168:                              # %arm.15.i.i.i.i.i.i.i
                                        #   in Loop: Header=BB0_154 Depth=1
	callq	recoding_recoder_runs_run_whole_e742a82e1969306f_37
	jmp	.LBB0_178
.LBB0_169:                              # %arm.1.i20.i.i.i.i.i.i
                                        #   in Loop: Header=BB0_154 Depth=1
	leaq	256(%rsp), %rcx
	leaq	56(%rsp), %r8
	movq	%rdi, %rdx
	cmpl	$2, %eax
	je	.LBB0_176
# %bb.170:                              # %arm.1.i20.i.i.i.i.i.i
                                        #   in Loop: Header=BB0_154 Depth=1
	cmpl	$1, %eax
	jne	.LBB0_177
# %bb.171:                              # %arm.7.i22.i.i.i.i.i.i
                                        #   in Loop: Header=BB0_154 Depth=1
	callq	recoding_recoder_runs_run_whole_2857ed0d0693875d_38
	jmp	.LBB0_178
.LBB0_172:                              # %arm.12.i.i.i.i.i.i.i
                                        #   in Loop: Header=BB0_154 Depth=1
	callq	recoding_recoder_runs_run_whole_daeca7e912b417d6_39
	jmp	.LBB0_178
.LBB0_173:                              # %arm.16.i.i.i.i.i.i.i
                                        #   in Loop: Header=BB0_154 Depth=1
	callq	recoding_recoder_runs_run_whole_9bba14706ba0829a_40
	jmp	.LBB0_178
.LBB0_174:                              # %arm.10.i.i.i.i.i.i.i
                                        #   in Loop: Header=BB0_154 Depth=1
	callq	recoding_recoder_runs_run_whole_d46ce40aec13b609_41
	jmp	.LBB0_178
.LBB0_175:                              # %arm.14.i.i.i.i.i.i.i
                                        #   in Loop: Header=BB0_154 Depth=1
	callq	recoding_recoder_runs_run_whole_8e1925640e2330c5_42
	jmp	.LBB0_178
.LBB0_176:                              # %arm.8.i.i.i.i.i32.i.i
                                        #   in Loop: Header=BB0_154 Depth=1
	callq	recoding_recoder_runs_run_whole_9c534bed186decad_43
	jmp	.LBB0_178
.LBB0_177:                              # %arm.6.i24.i.i.i.i.i.i
                                        #   in Loop: Header=BB0_154 Depth=1
	callq	recoding_recoder_runs_run_whole_d908eddfe8754f34_44
.LBB0_178:                              # %recoding_recoder_runs_recode_whole_e3b2a9d4d2861db8_exit_i_i_i_i_i_i_45
                                        #   in Loop: Header=BB0_154 Depth=1
	subq	%rax, %rdi
	movq	%rdi, 80(%rsp)
	je	.LBB0_185
# %bb.179:                              # %join.3.i.i.i.i.i.i.i26.i.i
                                        #   in Loop: Header=BB0_154 Depth=1
	cmpq	$1, %rdi
	jne	.LBB0_181
# %bb.180:                              #   in Loop: Header=BB0_154 Depth=1
	xorl	%ecx, %ecx
	xorl	%r8d, %r8d
	jmp	.LBB0_184
.LBB0_181:                              # %join.6.i.i.i.i.i.i.i27.i.i
                                        #   in Loop: Header=BB0_154 Depth=1
	movzbl	257(%rsp,%rax), %ecx
	cmpq	$2, %rdi
	jne	.LBB0_183
# %bb.182:                              #   in Loop: Header=BB0_154 Depth=1
	xorl	%r8d, %r8d
	jmp	.LBB0_184
.LBB0_183:                              # %join.9.i.i.i.i.i.i.i31.i.i
                                        #   in Loop: Header=BB0_154 Depth=1
	movzbl	258(%rsp,%rax), %r8d
.LBB0_184:                              # %recoding_held_padded_to_three_exit_i_i_i_i_i_i_i_i_46
                                        #   in Loop: Header=BB0_154 Depth=1
	movzbl	256(%rsp,%rax), %eax
	movb	%al, 88(%rsp)
	movb	%cl, 89(%rsp)
	movb	%r8b, 90(%rsp)
.LBB0_185:                              # %recoding_held_Held_hold_exit_i_i_i_i_i_i_i_47
                                        #   in Loop: Header=BB0_154 Depth=1
	testq	%rdx, %rdx
	je	.LBB0_187
# %bb.186:                              # %then.1.i25.i.i.i.i.i.i
                                        #   in Loop: Header=BB0_154 Depth=1
	addq	104(%rsp), %rdx
	movq	$-1, %rax
	cmovaeq	%rdx, %rax
	movq	%rax, 104(%rsp)
.LBB0_187:                              # %join.3.i10.i.i.i.i.i
                                        #   in Loop: Header=BB0_154 Depth=1
	movq	56(%rsp), %rbx
	movq	64(%rsp), %rsi
	testq	%rsi, %rsi
	je	.LBB0_193
# %bb.188:                              # %join.5.i.i11.i.i.i.i.i.preheader
                                        #   in Loop: Header=BB0_154 Depth=1
	xorl	%r14d, %r14d
	.p2align	4
.LBB0_189:                              # %join.5.i.i11.i.i.i.i.i
                                        #   Parent Loop BB0_154 Depth=1
                                        # =>  This Inner Loop Header: Depth=2
	leaq	(%rbx,%r14), %rdx
	movq	%rsi, %rdi
	subq	%r14, %rdi
	movl	$1, %ecx
	movq	%rdi, %r8
	callq	noddychest_write
	testq	%rax, %rax
	js	.LBB0_196
# %bb.190:                              # %text_runs_counted_Counted_put_cdc8ff12022c16a2_exit_i16_i_i_i_i_i_48
                                        #   in Loop: Header=BB0_189 Depth=2
	cmpq	%rdi, %rax
	cmovbq	%rax, %rdi
	testq	%rdi, %rdi
	je	.LBB0_197
# %bb.191:                              # %loop.2.i.i19.i.i.i.i.i
                                        #   in Loop: Header=BB0_189 Depth=2
	addq	%rdi, %r14
	cmpq	%rsi, %r14
	jb	.LBB0_189
# %bb.192:                              # %join.3.i.i.i.i.i.i.i.i
                                        #   in Loop: Header=BB0_154 Depth=1
	movq	$0, 64(%rsp)
.LBB0_193:                              # %join.9.i.i.i.i.i
                                        #   in Loop: Header=BB0_154 Depth=1
	incq	%r12
	cmpq	$-1, %r12
	jne	.LBB0_154
	jmp	.LBB0_200
.LBB0_194:                              # %std_alloc_vec_Vec_grow_5fdc5e19576447a7_exit_i_i_i_i_i_i_i_49
                                        #   in Loop: Header=BB0_154 Depth=1
	leaq	56(%rsp), %rcx
	callq	std_alloc_vec_Vec_grow_amortized_5fdc5e19576447a7_3
	testb	%al, %al
	jne	.LBB0_161
.LBB0_195:
	movb	$2, %cl
	cmpq	$0, 72(%rsp)
	jne	.LBB0_198
	jmp	.LBB0_203
.LBB0_196:                              # %text_runs_counted_Counted_put_cdc8ff12022c16a2_exit_thread_i23_i_i_i_i_i_50
	leaq	128(%rsp), %rcx
	callq	std_io_io_error_last_error_34
.LBB0_197:
	movb	$1, %cl
	cmpq	$0, 72(%rsp)
	je	.LBB0_203
.LBB0_198:                              # %then.1.i.i.i32.i.i.i.i.i
	movq	56(%rsp), %rax
	movl	%ecx, %esi
	movq	%rax, %rcx
	callq	rattle_dealloc
	movl	%esi, %ecx
	jmp	.LBB0_203
.LBB0_200:                              # %after.1.i1.i.i.i.i
	cmpq	$0, 72(%rsp)
	je	.LBB0_202
# %bb.201:                              # %then.1.i.i.i92.i.i.i.i.i
	movq	%rbx, %rcx
	callq	rattle_dealloc
.LBB0_202:                              # %text_programs_programs_recode_stream_recode_357db40b776bb3e5_exit_thread_i_i_i_i_51
	xorl	%ecx, %ecx
.LBB0_203:                              # %arm.7.i.i24.i.i
	incb	%cl
	jmp	.LBB0_204
.LBB0_209:                              # %arm.10.i2.i.i.i.i
	pxor	%xmm0, %xmm0
	movdqa	%xmm0, 128(%rsp)
	movdqa	%xmm0, 144(%rsp)
	movq	$0, 160(%rsp)
	testq	%rcx, %rcx
	je	.LBB0_228
# %bb.210:                              # %recoding_recoder_Recoder_finish_e3b2a9d4d2861db8_exit_i_i_i_i_i_i_52
	movq	%rcx, 224(%rsp)
	movdqu	(%r15), %xmm0
	movdqu	%xmm0, 232(%rsp)
	movq	16(%r15), %rax
	movq	%rax, 248(%rsp)
	leaq	128(%rsp), %rcx
	leaq	224(%rsp), %rdx
	leaq	56(%rsp), %r8
	callq	recoding_recoder_Recoder_finish_held_e3b2a9d4d2861db8_53
	testb	$1, 128(%rsp)
	je	.LBB0_222
# %bb.211:
	xorl	%esi, %esi
	movb	$2, %cl
	jmp	.LBB0_230
.LBB0_213:                              # %arm.10.i.i.i.i
	testq	%r15, %r15
	je	.LBB0_215
# %bb.214:                              # %then.1.i.i.i6.i.i.i.i
	movq	%rbx, %rcx
	callq	rattle_dealloc
.LBB0_215:                              # %then.13.i.i.i.i
	movq	128(%rsp), %rsi
	movq	136(%rsp), %rdi
	movq	144(%rsp), %rbx
	testq	%rdi, %rdi
	je	.LBB0_220
# %bb.216:                              # %join.5.i.i.i.i.i.i.i.i.i.preheader
	leaq	16(%rsi), %r14
	jmp	.LBB0_218
.LBB0_217:                              # %core_mem_drop_f02d343d93693c10_exit_i_i_i_i_i_i_i_i_i_54
                                        #   in Loop: Header=BB0_218 Depth=1
	addq	$24, %r14
	decq	%rdi
	je	.LBB0_220
.LBB0_218:                              # %join.5.i.i.i.i.i.i.i.i.i
                                        # =>This Inner Loop Header: Depth=1
	cmpq	$0, (%r14)
	je	.LBB0_217
# %bb.219:                              # %then.1.i.i.i.i.i.i.i.i.i.i.i.i.i.i
                                        #   in Loop: Header=BB0_218 Depth=1
	movq	-16(%r14), %rcx
	callq	rattle_dealloc
	jmp	.LBB0_217
.LBB0_220:                              # %std_alloc_vec_Vec_clear_4feeb2b446188e7f_exit_i_i_i_i_i_55
	movl	$38, %edi
	testq	%rbx, %rbx
	je	.LBB0_128
# %bb.221:                              # %then.1.i.i.i16.i.i.i.i
	movq	%rsi, %rcx
	jmp	.LBB0_127
.LBB0_222:                              # %join.3.i3.i.i.i.i.i
	movq	64(%rsp), %rbx
	testq	%rbx, %rbx
	je	.LBB0_228
# %bb.223:                              # %join.5.i.i.i.i.i.i.i.preheader
	movq	56(%rsp), %r14
	xorl	%r15d, %r15d
.LBB0_224:                              # %join.5.i.i.i.i.i.i.i
                                        # =>This Inner Loop Header: Depth=1
	leaq	(%r14,%r15), %rdx
	movq	%rbx, %rdi
	subq	%r15, %rdi
	movl	$1, %ecx
	movq	%rdi, %r8
	callq	noddychest_write
	testq	%rax, %rax
	js	.LBB0_240
# %bb.225:                              # %text_runs_counted_Counted_put_cdc8ff12022c16a2_exit_i_i_i_i_i_i_56
                                        #   in Loop: Header=BB0_224 Depth=1
	cmpq	%rdi, %rax
	cmovbq	%rax, %rdi
	testq	%rdi, %rdi
	setne	%sil
	je	.LBB0_241
# %bb.226:                              # %loop.2.i.i.i.i.i.i.i
                                        #   in Loop: Header=BB0_224 Depth=1
	addq	%rdi, %r15
	cmpq	%rbx, %r15
	jb	.LBB0_224
	jmp	.LBB0_229
.LBB0_228:                              # %join.3.i3.i.thread.i.i.i.i
	movb	$1, %sil
.LBB0_229:                              # %text_programs_programs_recode_stream_write_end_c4d8ddccf98b9b73_exit_i_i_i_i_i_57
	xorl	%ecx, %ecx
.LBB0_230:                              # %text_programs_programs_recode_stream_write_end_c4d8ddccf98b9b73_exit_i_i_i_i_i_57
	cmpq	$0, 72(%rsp)
	je	.LBB0_232
# %bb.231:                              # %then.1.i.i.i7.i.i.i.i.i
	movq	56(%rsp), %rax
	movl	%ecx, %edi
	movq	%rax, %rcx
	callq	rattle_dealloc
	movl	%edi, %ecx
.LBB0_232:                              # %text_programs_programs_recode_stream_recode_357db40b776bb3e5_exit_i_i_i_i_58
	testb	%sil, %sil
	je	.LBB0_203
# %bb.233:                              # %join.5.i.i.i.i.i.i35.preheader.i.i
	cmpq	$0, 16(%rbp)
	je	.LBB0_235
# %bb.234:                              # %then.1.i.i.i.i.i.i.i.i.i.i.i.i.i
	movq	(%rbp), %rcx
	callq	rattle_dealloc
.LBB0_235:                              # %core_mem_drop_7f8a914b9c4d666d_exit_i_i_i_i_i_i_i_i_59
	cmpq	$0, 40(%rbp)
	je	.LBB0_237
# %bb.236:                              # %then.1.i.i.i.i.i.i.i.i.i.i.i.1.i.i
	movq	24(%rbp), %rcx
	callq	rattle_dealloc
.LBB0_237:                              # %core_mem_drop_7f8a914b9c4d666d_exit_i_i_i_i_i_i_1_i_i_60
	testq	%r13, %r13
	je	.LBB0_239
# %bb.238:                              # %then.1.i.i.i.i.i.i
	movq	%rbp, %rcx
	callq	rattle_dealloc
.LBB0_239:
	xorl	%edi, %edi
	jmp	.LBB0_135
.LBB0_240:                              # %text_runs_counted_Counted_put_cdc8ff12022c16a2_exit_thread_i_i_i_i_i_i_61
	leaq	128(%rsp), %rcx
	callq	std_io_io_error_last_error_34
	movb	$1, %cl
	xorl	%esi, %esi
	jmp	.LBB0_230
.LBB0_241:
	movb	$1, %cl
	jmp	.LBB0_230
.LBB0_242:                              # %then.8.i.i.i.i.i.i.i
	testq	%r15, %r15
	je	.LBB0_244
# %bb.243:                              # %then.1.i.i.i.i.i.i.i.i.i.i.i
	movq	%rbx, %rcx
	callq	rattle_dealloc
.LBB0_244:                              # %text_programs_std_alloc_string_String_Destruct_drop_e3b2a9d4d2861db8_exit_i_i_i_i_i_i_i_62
	cmpq	%r12, %r13
	je	.LBB0_250
# %bb.245:                              # %join.3.i.i.i.i12.i.i.i.i.i.i.i
	leaq	(%r14,%r12), %rax
	leaq	(%r14,%r12), %rcx
	incq	%rcx
	addq	%rdi, %rax
	cmpq	%rax, %rcx
	jae	.LBB0_250
# %bb.246:                              # %join.5.i.i.i.i.i35.i.i.i.i.i.i.i.preheader
	movl	$1, %ebx
	jmp	.LBB0_248
.LBB0_247:                              # %core_mem_drop_7f8a914b9c4d666d_exit_i_i_i_i_i44_i_i_i_i_i_i_i_63
                                        #   in Loop: Header=BB0_248 Depth=1
	incq	%rbx
	addq	$24, %rsi
	cmpq	%rbx, %rdi
	je	.LBB0_250
.LBB0_248:                              # %join.5.i.i.i.i.i35.i.i.i.i.i.i.i
                                        # =>This Inner Loop Header: Depth=1
	cmpq	$0, (%rsi)
	je	.LBB0_247
# %bb.249:                              # %then.1.i.i.i.i.i.i.i.i.i.i42.i.i.i.i.i.i.i
                                        #   in Loop: Header=BB0_248 Depth=1
	movq	-16(%rsi), %rcx
	callq	rattle_dealloc
	jmp	.LBB0_247
.LBB0_250:                              # %std_alloc_vec_deque_VecDeque_clear_1ca9c52778c14e4e_exit_i_i32_i_i_i_i_i_i_i_64
	cmpq	$0, 48(%rsp)                    # 8-byte Folded Reload
	je	.LBB0_252
# %bb.251:                              # %then.1.i.i.i.i.i34.i.i.i.i.i.i.i
	movq	120(%rsp), %rcx                 # 8-byte Reload
	callq	rattle_dealloc
.LBB0_252:                              # %arm.2.i.i.i.i.i
	movq	256(%rsp), %rsi
	movq	264(%rsp), %rbx
	movq	272(%rsp), %rdi
	testq	%rbx, %rbx
	je	.LBB0_257
# %bb.253:                              # %join.5.i.i.i.i.i.i.i7.i.i.i.preheader
	leaq	16(%rsi), %r14
	jmp	.LBB0_255
.LBB0_254:                              # %core_mem_drop_7f8a914b9c4d666d_exit_i_i_i_i_i_i_i_i_i_i_65
                                        #   in Loop: Header=BB0_255 Depth=1
	addq	$24, %r14
	decq	%rbx
	je	.LBB0_257
.LBB0_255:                              # %join.5.i.i.i.i.i.i.i7.i.i.i
                                        # =>This Inner Loop Header: Depth=1
	cmpq	$0, (%r14)
	je	.LBB0_254
# %bb.256:                              # %then.1.i.i.i.i.i.i.i.i.i.i.i.i.i.i.i
                                        #   in Loop: Header=BB0_255 Depth=1
	movq	-16(%r14), %rcx
	callq	rattle_dealloc
	jmp	.LBB0_254
.LBB0_257:                              # %std_alloc_vec_Vec_clear_1ca9c52778c14e4e_exit_i_i_i_i_i_i_66
	testq	%rdi, %rdi
	je	.LBB0_259
# %bb.258:                              # %then.1.i.i.i.i.i.i.i.i
	movq	%rsi, %rcx
	callq	rattle_dealloc
.LBB0_259:                              # %arm.6.i.i.i
	movl	$38, %edi
	jmp	.LBB0_128
	.seh_endproc
                                        # -- End function
	.def	std_alloc_vec_Vec_grow_amortized_5fdc5e19576447a7_3;
	.scl	3;
	.type	32;
	.endef
	.section .text$n2,"xr"
	.p2align	4                               # -- Begin function std_alloc::vec::Vec::grow_amortized::<#5fdc5e19576447a7>
std_alloc_vec_Vec_grow_amortized_5fdc5e19576447a7_3: # @std_alloc_vec_Vec_grow_amortized_5fdc5e19576447a7_3
.seh_proc std_alloc_vec_Vec_grow_amortized_5fdc5e19576447a7_3
# %bb.0:                                # %start
	pushq	%r14
	.seh_pushreg %r14
	pushq	%rsi
	.seh_pushreg %rsi
	pushq	%rdi
	.seh_pushreg %rdi
	pushq	%rbx
	.seh_pushreg %rbx
	subq	$168, %rsp
	.seh_stackalloc 168
	movaps	%xmm15, 144(%rsp)               # 16-byte Spill
	.seh_savexmm %xmm15, 144
	movaps	%xmm14, 128(%rsp)               # 16-byte Spill
	.seh_savexmm %xmm14, 128
	movaps	%xmm13, 112(%rsp)               # 16-byte Spill
	.seh_savexmm %xmm13, 112
	movaps	%xmm12, 96(%rsp)                # 16-byte Spill
	.seh_savexmm %xmm12, 96
	movaps	%xmm11, 80(%rsp)                # 16-byte Spill
	.seh_savexmm %xmm11, 80
	movaps	%xmm10, 64(%rsp)                # 16-byte Spill
	.seh_savexmm %xmm10, 64
	movaps	%xmm9, 48(%rsp)                 # 16-byte Spill
	.seh_savexmm %xmm9, 48
	movaps	%xmm8, 32(%rsp)                 # 16-byte Spill
	.seh_savexmm %xmm8, 32
	movaps	%xmm7, 16(%rsp)                 # 16-byte Spill
	.seh_savexmm %xmm7, 16
	movaps	%xmm6, (%rsp)                   # 16-byte Spill
	.seh_savexmm %xmm6, 0
	.seh_endprologue
	movq	8(%rcx), %rsi
	addq	%rsi, %rdx
	jb	.LBB1_1
# %bb.3:                                # %join.3
	cmpq	$9, %rdx
	movl	$8, %ebx
	cmovaeq	%rdx, %rbx
	movq	16(%rcx), %rax
	movq	%rax, %rdx
	shrq	$62, %rdx
	leaq	(%rax,%rax), %rdi
	cmpq	%rdi, %rbx
	cmovaq	%rbx, %rdi
	testq	%rdx, %rdx
	cmoveq	%rdi, %rbx
	testq	%rbx, %rbx
	js	.LBB1_1
# %bb.4:                                # %join.3.i
	testq	%rax, %rax
	je	.LBB1_6
# %bb.5:                                # %then.1.i.i
	movq	%rcx, %r14
	movq	(%rcx), %rdi
	movl	$1, %ecx
	movq	%rbx, %rdx
	callq	rattle_realloc
	testb	$1, %al
	je	.LBB1_1
.LBB1_8:                                # %arm.5.i
	movq	%rdx, (%r14)
	movq	%rbx, 16(%r14)
	movb	$1, %al
	jmp	.LBB1_2
.LBB1_6:                                # %std_alloc_vec_resize_5fdc5e19576447a7_exit_i_67
	movq	%rcx, %r14
	movl	$1, %esi
	callq	rattle_alloc
	testb	$1, %al
	jne	.LBB1_8
.LBB1_1:
	xorl	%eax, %eax
.LBB1_2:                                # %common.ret
                                        # kill: def $al killed $al killed $eax
	movaps	(%rsp), %xmm6                   # 16-byte Reload
	movaps	16(%rsp), %xmm7                 # 16-byte Reload
	movaps	32(%rsp), %xmm8                 # 16-byte Reload
	movaps	48(%rsp), %xmm9                 # 16-byte Reload
	movaps	64(%rsp), %xmm10                # 16-byte Reload
	movaps	80(%rsp), %xmm11                # 16-byte Reload
	movaps	96(%rsp), %xmm12                # 16-byte Reload
	movaps	112(%rsp), %xmm13               # 16-byte Reload
	movaps	128(%rsp), %xmm14               # 16-byte Reload
	movaps	144(%rsp), %xmm15               # 16-byte Reload
	addq	$168, %rsp
	popq	%rbx
	popq	%rdi
	popq	%rsi
	popq	%r14
	retq
	.seh_endproc
                                        # -- End function
	.def	core_slice_words_skip_far_52f9edcae2f82f51_7;
	.scl	3;
	.type	32;
	.endef
	.section .rdata$n0,"dr"
	.p2align	4, 0x0                          # -- Begin function core::slice::words::skip_far::<#52f9edcae2f82f51>
.LCPI2_0:
	.zero	16,128
	.section .text$n3,"xr"
	.p2align	4
core_slice_words_skip_far_52f9edcae2f82f51_7: # @core_slice_words_skip_far_52f9edcae2f82f51_7
# %bb.0:                                # %start
	movq	%rdx, %rax
	subq	%rdx, %r8
	cmpq	$64, %r8
	jb	.LBB2_4
# %bb.1:                                # %then.3.lr.ph
	movq	(%rcx), %rcx
	.p2align	4
.LBB2_2:                                # %then.3
                                        # =>This Inner Loop Header: Depth=1
	movdqu	(%rcx,%rax), %xmm0
	movdqu	16(%rcx,%rax), %xmm1
	movdqu	32(%rcx,%rax), %xmm2
	por	%xmm0, %xmm2
	movdqu	48(%rcx,%rax), %xmm0
	por	%xmm1, %xmm0
	por	%xmm2, %xmm0
	ptest	.LCPI2_0(%rip), %xmm0
	jne	.LBB2_4
# %bb.3:                                # %join.5
                                        #   in Loop: Header=BB2_2 Depth=1
	addq	$64, %rax
	addq	$-64, %r8
	cmpq	$63, %r8
	ja	.LBB2_2
.LBB2_4:                                # %after.1
	retq
                                        # -- End function
	.def	std_alloc_vec_Vec_grow_amortized_1b8c52373d8cd3cb_9;
	.scl	3;
	.type	32;
	.endef
	.section .text$n4,"xr"
	.p2align	4                               # -- Begin function std_alloc::vec::Vec::grow_amortized::<#1b8c52373d8cd3cb>
std_alloc_vec_Vec_grow_amortized_1b8c52373d8cd3cb_9: # @std_alloc_vec_Vec_grow_amortized_1b8c52373d8cd3cb_9
.seh_proc std_alloc_vec_Vec_grow_amortized_1b8c52373d8cd3cb_9
# %bb.0:                                # %start
	pushq	%r14
	.seh_pushreg %r14
	pushq	%rsi
	.seh_pushreg %rsi
	pushq	%rdi
	.seh_pushreg %rdi
	pushq	%rbx
	.seh_pushreg %rbx
	subq	$168, %rsp
	.seh_stackalloc 168
	movaps	%xmm15, 144(%rsp)               # 16-byte Spill
	.seh_savexmm %xmm15, 144
	movaps	%xmm14, 128(%rsp)               # 16-byte Spill
	.seh_savexmm %xmm14, 128
	movaps	%xmm13, 112(%rsp)               # 16-byte Spill
	.seh_savexmm %xmm13, 112
	movaps	%xmm12, 96(%rsp)                # 16-byte Spill
	.seh_savexmm %xmm12, 96
	movaps	%xmm11, 80(%rsp)                # 16-byte Spill
	.seh_savexmm %xmm11, 80
	movaps	%xmm10, 64(%rsp)                # 16-byte Spill
	.seh_savexmm %xmm10, 64
	movaps	%xmm9, 48(%rsp)                 # 16-byte Spill
	.seh_savexmm %xmm9, 48
	movaps	%xmm8, 32(%rsp)                 # 16-byte Spill
	.seh_savexmm %xmm8, 32
	movaps	%xmm7, 16(%rsp)                 # 16-byte Spill
	.seh_savexmm %xmm7, 16
	movaps	%xmm6, (%rsp)                   # 16-byte Spill
	.seh_savexmm %xmm6, 0
	.seh_endprologue
	movq	8(%rcx), %rax
	addq	%rax, %rdx
	jb	.LBB3_1
# %bb.3:                                # %join.3
	movq	16(%rcx), %r8
	cmpq	$5, %rdx
	movl	$4, %ebx
	cmovaeq	%rdx, %rbx
	movq	%r8, %r9
	shrq	$62, %r9
	leaq	(%r8,%r8), %rdx
	cmpq	%rdx, %rbx
	cmovaq	%rbx, %rdx
	testq	%r9, %r9
	cmoveq	%rdx, %rbx
	movabsq	$384307168202282325, %r9        # imm = 0x555555555555555
	cmpq	%r9, %rbx
	ja	.LBB3_1
# %bb.4:                                # %join.3.i
	testq	%r8, %r8
	je	.LBB3_6
# %bb.5:                                # %then.1.i.i
	movq	%rcx, %r14
	movq	(%rcx), %rdi
	shlq	$3, %rax
	leaq	(%rax,%rax,2), %rsi
	leaq	(,%rbx,8), %rax
	leaq	(%rax,%rax,2), %rdx
	movl	$8, %ecx
	callq	rattle_realloc
	testb	$1, %al
	je	.LBB3_1
.LBB3_8:                                # %arm.5.i
	movq	%rdx, (%r14)
	movq	%rbx, 16(%r14)
	movb	$1, %al
	jmp	.LBB3_2
.LBB3_6:                                # %std_alloc_vec_resize_1b8c52373d8cd3cb_exit_i_68
	movq	%rcx, %r14
	shlq	$3, %rdx
	leaq	(%rdx,%rdx,2), %rdi
	movl	$8, %esi
	callq	rattle_alloc
	testb	$1, %al
	jne	.LBB3_8
.LBB3_1:
	xorl	%eax, %eax
.LBB3_2:                                # %common.ret
                                        # kill: def $al killed $al killed $eax
	movaps	(%rsp), %xmm6                   # 16-byte Reload
	movaps	16(%rsp), %xmm7                 # 16-byte Reload
	movaps	32(%rsp), %xmm8                 # 16-byte Reload
	movaps	48(%rsp), %xmm9                 # 16-byte Reload
	movaps	64(%rsp), %xmm10                # 16-byte Reload
	movaps	80(%rsp), %xmm11                # 16-byte Reload
	movaps	96(%rsp), %xmm12                # 16-byte Reload
	movaps	112(%rsp), %xmm13               # 16-byte Reload
	movaps	128(%rsp), %xmm14               # 16-byte Reload
	movaps	144(%rsp), %xmm15               # 16-byte Reload
	addq	$168, %rsp
	popq	%rbx
	popq	%rdi
	popq	%rsi
	popq	%r14
	retq
	.seh_endproc
                                        # -- End function
	.def	std_io_io_error_last_error_34;
	.scl	3;
	.type	32;
	.endef
	.section .text$n5,"xr"
	.p2align	4                               # -- Begin function std_io::io::error::last_error
std_io_io_error_last_error_34:        # @std_io_io_error_last_error_34
.seh_proc std_io_io_error_last_error_34
# %bb.0:                                # %start
	pushq	%rsi
	.seh_pushreg %rsi
	subq	$32, %rsp
	.seh_stackalloc 32
	.seh_endprologue
	movq	%rcx, %rsi
	callq	rattle_errno
                                        # kill: def $eax killed $eax def $rax
	movl	%eax, %ecx
	movb	$41, %dl
	testl	%eax, %eax
	js	.LBB4_40
# %bb.1:                                # %else.2.i.i
	decl	%eax
	cmpl	$121, %eax
	ja	.LBB4_40
# %bb.2:                                # %else.2.i.i
	leaq	.LJTI4_0(%rip), %r8
	movslq	(%r8,%rax,4), %rax
	addq	%r8, %rax
	jmpq	*%rax
.LBB4_3:
	movb	$1, %dl
	jmp	.LBB4_40
.LBB4_24:                               # %arm.23.i.i.i
	movb	$36, %dl
	jmp	.LBB4_40
.LBB4_36:                               # %arm.36.i.i.i
	movb	$4, %dl
	jmp	.LBB4_40
.LBB4_33:                               # %arm.33.i.i.i
	movb	$7, %dl
	jmp	.LBB4_40
.LBB4_39:                               # %arm.39.i.i.i
	movb	$26, %dl
	jmp	.LBB4_40
.LBB4_37:                               # %arm.37.i.i.i
	movb	$39, %dl
	jmp	.LBB4_40
.LBB4_28:                               # %arm.28.i.i.i
	movb	$9, %dl
	jmp	.LBB4_40
.LBB4_27:                               # %arm.27.i.i.i
	movb	$8, %dl
	jmp	.LBB4_40
.LBB4_22:                               # %arm.21.i.i.i
	movb	$30, %dl
	jmp	.LBB4_40
.LBB4_18:                               # %arm.17.i.i.i
	movb	$25, %dl
	jmp	.LBB4_40
.LBB4_20:                               # %arm.19.i.i.i
	movb	$32, %dl
	jmp	.LBB4_40
.LBB4_23:                               # %arm.22.i.i.i
	movb	$33, %dl
	jmp	.LBB4_40
.LBB4_34:                               # %arm.34.i.i.i
	movb	$22, %dl
	jmp	.LBB4_40
.LBB4_11:                               # %arm.10.i.i.i
	movb	$31, %dl
	jmp	.LBB4_40
.LBB4_15:                               # %arm.14.i.i.i
	movb	$29, %dl
	jmp	.LBB4_40
.LBB4_26:                               # %arm.25.i.i.i
	movb	$18, %dl
	jmp	.LBB4_40
.LBB4_29:                               # %arm.29.i.i.i
	movb	$10, %dl
	jmp	.LBB4_40
.LBB4_9:                                # %arm.8.i.i.i
	movb	$28, %dl
	jmp	.LBB4_40
.LBB4_12:                               # %arm.11.i.i.i
	movb	$14, %dl
	jmp	.LBB4_40
.LBB4_10:                               # %arm.9.i.i.i
	movb	$12, %dl
	jmp	.LBB4_40
.LBB4_30:                               # %arm.30.i.i.i
	movb	$5, %dl
	jmp	.LBB4_40
.LBB4_32:                               # %arm.32.i.i.i
	movb	$3, %dl
	jmp	.LBB4_40
.LBB4_4:                                # %arm.2.i.i.i
	xorl	%edx, %edx
	jmp	.LBB4_40
.LBB4_7:                                # %arm.5.i.i.i
	movb	$13, %dl
	jmp	.LBB4_40
.LBB4_8:                                # %arm.6.i.i.i
	movb	$38, %dl
	jmp	.LBB4_40
.LBB4_21:                               # %arm.20.i.i.i
	movb	$11, %dl
	jmp	.LBB4_40
.LBB4_5:                                # %arm.3.i.i.i
	movb	$35, %dl
	jmp	.LBB4_40
.LBB4_6:                                # %arm.4.i.i.i
	movb	$34, %dl
	jmp	.LBB4_40
.LBB4_14:                               # %arm.13.i.i.i
	movb	$20, %dl
	jmp	.LBB4_40
.LBB4_13:                               # %arm.12.i.i.i
	movb	$15, %dl
	jmp	.LBB4_40
.LBB4_38:                               # %arm.38.i.i.i
	movb	$19, %dl
	jmp	.LBB4_40
.LBB4_25:                               # %arm.24.i.i.i
	movb	$16, %dl
	jmp	.LBB4_40
.LBB4_31:                               # %arm.31.i.i.i
	movb	$6, %dl
	jmp	.LBB4_40
.LBB4_16:                               # %arm.15.i.i.i
	movb	$27, %dl
	jmp	.LBB4_40
.LBB4_17:                               # %arm.16.i.i.i
	movb	$24, %dl
	jmp	.LBB4_40
.LBB4_35:                               # %arm.35.i.i.i
	movb	$2, %dl
	jmp	.LBB4_40
.LBB4_19:                               # %arm.18.i.i.i
	movb	$17, %dl
.LBB4_40:                               # %std_io_io_error_Error_from_raw_os_error_exit_69
	movb	$0, (%rsi)
	movb	%dl, 1(%rsi)
	movw	$0, 2(%rsi)
	movl	%ecx, 4(%rsi)
	xorps	%xmm0, %xmm0
	movups	%xmm0, 8(%rsi)
	movups	%xmm0, 24(%rsi)
	movups	%xmm0, 40(%rsi)
	movups	%xmm0, 56(%rsi)
	movups	%xmm0, 72(%rsi)
	addq	$32, %rsp
	popq	%rsi
	retq
	.section .rdata$n6,"dr"
	.p2align	2, 0x0
.LJTI4_0:
	.long	.LBB4_3-.LJTI4_0
	.long	.LBB4_4-.LJTI4_0
	.long	.LBB4_40-.LJTI4_0
	.long	.LBB4_5-.LJTI4_0
	.long	.LBB4_40-.LJTI4_0
	.long	.LBB4_40-.LJTI4_0
	.long	.LBB4_6-.LJTI4_0
	.long	.LBB4_40-.LJTI4_0
	.long	.LBB4_40-.LJTI4_0
	.long	.LBB4_40-.LJTI4_0
	.long	.LBB4_7-.LJTI4_0
	.long	.LBB4_8-.LJTI4_0
	.long	.LBB4_3-.LJTI4_0
	.long	.LBB4_40-.LJTI4_0
	.long	.LBB4_40-.LJTI4_0
	.long	.LBB4_9-.LJTI4_0
	.long	.LBB4_10-.LJTI4_0
	.long	.LBB4_11-.LJTI4_0
	.long	.LBB4_40-.LJTI4_0
	.long	.LBB4_12-.LJTI4_0
	.long	.LBB4_13-.LJTI4_0
	.long	.LBB4_14-.LJTI4_0
	.long	.LBB4_40-.LJTI4_0
	.long	.LBB4_40-.LJTI4_0
	.long	.LBB4_40-.LJTI4_0
	.long	.LBB4_15-.LJTI4_0
	.long	.LBB4_16-.LJTI4_0
	.long	.LBB4_17-.LJTI4_0
	.long	.LBB4_18-.LJTI4_0
	.long	.LBB4_19-.LJTI4_0
	.long	.LBB4_20-.LJTI4_0
	.long	.LBB4_21-.LJTI4_0
	.long	.LBB4_40-.LJTI4_0
	.long	.LBB4_40-.LJTI4_0
	.long	.LBB4_22-.LJTI4_0
	.long	.LBB4_23-.LJTI4_0
	.long	.LBB4_40-.LJTI4_0
	.long	.LBB4_24-.LJTI4_0
	.long	.LBB4_25-.LJTI4_0
	.long	.LBB4_26-.LJTI4_0
	.long	.LBB4_40-.LJTI4_0
	.long	.LBB4_40-.LJTI4_0
	.long	.LBB4_40-.LJTI4_0
	.long	.LBB4_40-.LJTI4_0
	.long	.LBB4_40-.LJTI4_0
	.long	.LBB4_40-.LJTI4_0
	.long	.LBB4_40-.LJTI4_0
	.long	.LBB4_40-.LJTI4_0
	.long	.LBB4_40-.LJTI4_0
	.long	.LBB4_40-.LJTI4_0
	.long	.LBB4_40-.LJTI4_0
	.long	.LBB4_40-.LJTI4_0
	.long	.LBB4_40-.LJTI4_0
	.long	.LBB4_40-.LJTI4_0
	.long	.LBB4_40-.LJTI4_0
	.long	.LBB4_40-.LJTI4_0
	.long	.LBB4_40-.LJTI4_0
	.long	.LBB4_40-.LJTI4_0
	.long	.LBB4_40-.LJTI4_0
	.long	.LBB4_40-.LJTI4_0
	.long	.LBB4_40-.LJTI4_0
	.long	.LBB4_40-.LJTI4_0
	.long	.LBB4_40-.LJTI4_0
	.long	.LBB4_40-.LJTI4_0
	.long	.LBB4_40-.LJTI4_0
	.long	.LBB4_40-.LJTI4_0
	.long	.LBB4_40-.LJTI4_0
	.long	.LBB4_40-.LJTI4_0
	.long	.LBB4_40-.LJTI4_0
	.long	.LBB4_40-.LJTI4_0
	.long	.LBB4_40-.LJTI4_0
	.long	.LBB4_40-.LJTI4_0
	.long	.LBB4_40-.LJTI4_0
	.long	.LBB4_40-.LJTI4_0
	.long	.LBB4_40-.LJTI4_0
	.long	.LBB4_40-.LJTI4_0
	.long	.LBB4_40-.LJTI4_0
	.long	.LBB4_40-.LJTI4_0
	.long	.LBB4_40-.LJTI4_0
	.long	.LBB4_40-.LJTI4_0
	.long	.LBB4_40-.LJTI4_0
	.long	.LBB4_40-.LJTI4_0
	.long	.LBB4_40-.LJTI4_0
	.long	.LBB4_40-.LJTI4_0
	.long	.LBB4_40-.LJTI4_0
	.long	.LBB4_40-.LJTI4_0
	.long	.LBB4_40-.LJTI4_0
	.long	.LBB4_40-.LJTI4_0
	.long	.LBB4_40-.LJTI4_0
	.long	.LBB4_40-.LJTI4_0
	.long	.LBB4_40-.LJTI4_0
	.long	.LBB4_40-.LJTI4_0
	.long	.LBB4_40-.LJTI4_0
	.long	.LBB4_40-.LJTI4_0
	.long	.LBB4_24-.LJTI4_0
	.long	.LBB4_40-.LJTI4_0
	.long	.LBB4_40-.LJTI4_0
	.long	.LBB4_27-.LJTI4_0
	.long	.LBB4_28-.LJTI4_0
	.long	.LBB4_29-.LJTI4_0
	.long	.LBB4_30-.LJTI4_0
	.long	.LBB4_40-.LJTI4_0
	.long	.LBB4_31-.LJTI4_0
	.long	.LBB4_32-.LJTI4_0
	.long	.LBB4_40-.LJTI4_0
	.long	.LBB4_40-.LJTI4_0
	.long	.LBB4_33-.LJTI4_0
	.long	.LBB4_40-.LJTI4_0
	.long	.LBB4_40-.LJTI4_0
	.long	.LBB4_34-.LJTI4_0
	.long	.LBB4_35-.LJTI4_0
	.long	.LBB4_40-.LJTI4_0
	.long	.LBB4_36-.LJTI4_0
	.long	.LBB4_40-.LJTI4_0
	.long	.LBB4_37-.LJTI4_0
	.long	.LBB4_38-.LJTI4_0
	.long	.LBB4_40-.LJTI4_0
	.long	.LBB4_40-.LJTI4_0
	.long	.LBB4_40-.LJTI4_0
	.long	.LBB4_40-.LJTI4_0
	.long	.LBB4_40-.LJTI4_0
	.long	.LBB4_39-.LJTI4_0
	.section .text$n5,"xr"
	.seh_endproc
                                        # -- End function
	.def	recoding_recoder_Recoder_finish_held_e3b2a9d4d2861db8_53;
	.scl	3;
	.type	32;
	.endef
	.section .text$n7,"xr"
	.p2align	4                               # -- Begin function recoding::recoder::Recoder::finish_held::<#e3b2a9d4d2861db8>
recoding_recoder_Recoder_finish_held_e3b2a9d4d2861db8_53: # @recoding_recoder_Recoder_finish_held_e3b2a9d4d2861db8_53
.seh_proc recoding_recoder_Recoder_finish_held_e3b2a9d4d2861db8_53
# %bb.0:                                # %start
	pushq	%r15
	.seh_pushreg %r15
	pushq	%r14
	.seh_pushreg %r14
	pushq	%r13
	.seh_pushreg %r13
	pushq	%r12
	.seh_pushreg %r12
	pushq	%rsi
	.seh_pushreg %rsi
	pushq	%rdi
	.seh_pushreg %rdi
	pushq	%rbp
	.seh_pushreg %rbp
	pushq	%rbx
	.seh_pushreg %rbx
	subq	$184, %rsp
	.seh_stackalloc 184
	.seh_endprologue
	movq	%r8, %rdi
	movq	%rcx, %rsi
	movq	(%rdx), %r12
	movq	24(%rdx), %rax
	movq	%rax, 64(%rsp)
	movups	8(%rdx), %xmm0
	movaps	%xmm0, 48(%rsp)
	leaq	(%r12,%r12,2), %rdx
	movq	16(%r8), %rax
	subq	8(%r8), %rax
	cmpq	%rax, %rdx
	ja	.LBB5_1
.LBB5_3:                                # %join.4
	movq	%r12, 80(%rsp)
	movaps	48(%rsp), %xmm0
	movups	%xmm0, 88(%rsp)
	movq	64(%rsp), %rax
	movq	%rax, 104(%rsp)
	testq	%r12, %r12
	je	.LBB5_11
# %bb.4:                                # %join.5.lr.ph.i.i
	leaq	88(%rsp), %rbx
	movzbl	96(%rsp), %ebp
	movzbl	97(%rsp), %r14d
	cmpb	$1, %bpl
	movl	$2, %r13d
	sbbq	$0, %r13
	.p2align	4
.LBB5_5:                                # %join.5.i.i
                                        # =>This Inner Loop Header: Depth=1
	xorps	%xmm0, %xmm0
	movaps	%xmm0, 112(%rsp)
	movaps	%xmm0, 128(%rsp)
	movaps	%xmm0, 144(%rsp)
	movaps	%xmm0, 160(%rsp)
	movq	$0, 176(%rsp)
	movq	%r12, 32(%rsp)
	leaq	112(%rsp), %rcx
	leaq	144(%rsp), %rdx
	movl	%ebp, %r8d
	movq	%rbx, %r9
	callq	recoding_form_calls_next_of_70
	cmpb	$1, 112(%rsp)
	jne	.LBB5_7
# %bb.6:                                # %arm.1.i.i.i
                                        #   in Loop: Header=BB5_5 Depth=1
	movzbl	120(%rsp), %edx
	movl	124(%rsp), %r8d
	movq	128(%rsp), %r15
	jmp	.LBB5_8
	.p2align	4
.LBB5_7:                                # %arm.2.i.i.i
                                        #   in Loop: Header=BB5_5 Depth=1
	cmpq	%r13, %r12
	movq	%r13, %r15
	cmovbq	%r12, %r15
	movl	$65533, %r8d                    # imm = 0xFFFD
	movb	$1, %dl
.LBB5_8:                                # %recoding_form_calls_last_of_exit_i_i_71
                                        #   in Loop: Header=BB5_5 Depth=1
	movl	%r14d, %ecx
	movq	%rdi, %r9
	callq	recoding_form_calls_put_shown_345d457c2768aa28_72
	testb	%al, %al
	je	.LBB5_11
# %bb.9:                                # %recoding_form_calls_last_of_exit_i_i_71
                                        #   in Loop: Header=BB5_5 Depth=1
	cmpq	%r15, %r12
	jbe	.LBB5_11
# %bb.10:                               # %recoding_held_Held_drop_front_exit_i_i_73
                                        #   in Loop: Header=BB5_5 Depth=1
	leaq	80(%rsp), %rcx
	movq	%r15, %rdx
	callq	recoding_held_Held_shift_joined_74
	movq	80(%rsp), %r12
	testq	%r12, %r12
	jne	.LBB5_5
.LBB5_11:                               # %recoding_recoder_Recoder_append_last_e3b2a9d4d2861db8_exit_75
	movb	$0, (%rsi)
	xorps	%xmm0, %xmm0
	movups	%xmm0, 8(%rsi)
	movups	%xmm0, 24(%rsi)
.LBB5_12:                               # %recoding_recoder_Recoder_append_last_e3b2a9d4d2861db8_exit_75
	addq	$184, %rsp
	popq	%rbx
	popq	%rbp
	popq	%rdi
	popq	%rsi
	popq	%r12
	popq	%r13
	popq	%r14
	popq	%r15
	retq
.LBB5_1:                                # %std_alloc_vec_Vec_grow_5fdc5e19576447a7_exit_i_76
	movq	%rdi, %rcx
	callq	std_alloc_vec_Vec_grow_amortized_5fdc5e19576447a7_3
	testb	%al, %al
	jne	.LBB5_3
# %bb.2:                                # %arm.1
	movb	$1, (%rsi)
	movq	%r12, 8(%rsi)
	movaps	48(%rsp), %xmm0
	movups	%xmm0, 16(%rsi)
	movq	64(%rsp), %rax
	movq	%rax, 32(%rsi)
	jmp	.LBB5_12
	.seh_endproc
                                        # -- End function
	.def	recoding_form_calls_next_of_70;
	.scl	3;
	.type	32;
	.endef
	.section .text$n8,"xr"
	.p2align	4                               # -- Begin function recoding::form_calls::next_of
recoding_form_calls_next_of_70:        # @recoding_form_calls_next_of_70
.seh_proc recoding_form_calls_next_of_70
# %bb.0:                                # %start
	pushq	%r15
	.seh_pushreg %r15
	pushq	%r14
	.seh_pushreg %r14
	pushq	%r13
	.seh_pushreg %r13
	pushq	%r12
	.seh_pushreg %r12
	pushq	%rsi
	.seh_pushreg %rsi
	pushq	%rdi
	.seh_pushreg %rdi
	pushq	%rbp
	.seh_pushreg %rbp
	pushq	%rbx
	.seh_pushreg %rbx
	subq	$56, %rsp
	.seh_stackalloc 56
	.seh_endprologue
	movq	160(%rsp), %rsi
	movzbl	(%rdx), %ebp
	movq	16(%rdx), %rbx
	cmpb	$2, %r8b
	je	.LBB6_7
# %bb.1:                                # %start
	movzbl	%r8b, %eax
	cmpl	$1, %eax
	jne	.LBB6_9
# %bb.2:                                # %arm.2
	cmpq	$2, %rsi
	jb	.LBB6_8
# %bb.3:                                # %join.3.i347
	movzbl	(%r9), %edi
	movzbl	1(%r9), %eax
	shll	$8, %eax
	orl	%eax, %edi
	andl	$64512, %eax                    # imm = 0xFC00
	cmpl	$55296, %eax                    # imm = 0xD800
	jne	.LBB6_13
# %bb.4:                                # %join.6.i367
	cmpq	$4, %rsi
	jb	.LBB6_8
# %bb.5:                                # %join.15.i452
	movzbl	3(%r9), %eax
	movl	%eax, %edx
	andl	$-4, %edx
	cmpl	$220, %edx
	jne	.LBB6_14
# %bb.6:                                # %arm.14.i
	movzbl	2(%r9), %edx
	jmp	.LBB6_29
.LBB6_7:                                # %arm.3
	cmpq	$2, %rsi
	jae	.LBB6_12
.LBB6_8:
	xorl	%r15d, %r15d
	xorl	%r14d, %r14d
	xorl	%edi, %edi
	xorl	%eax, %eax
	xorl	%edx, %edx
	jmp	.LBB6_66
.LBB6_9:                                # %start
	movq	8(%rdx), %r11
	cmpq	$4, %rsi
	jb	.LBB6_15
# %bb.10:                               # %join.3.i41
	movzbl	(%r9), %edi
	testb	%dil, %dil
	js	.LBB6_22
# %bb.11:                               # %utf_lanes_text_front_front_of_text_exit_thread_77
	movb	$1, %r14b
	movl	$1, %r15d
	xorl	%edx, %edx
	jmp	.LBB6_20
.LBB6_12:                               # %join.3.i541
	movzbl	(%r9), %eax
	movzbl	1(%r9), %edi
	shll	$8, %eax
	orl	%eax, %edi
	andl	$64512, %eax                    # imm = 0xFC00
	cmpl	$55296, %eax                    # imm = 0xD800
	je	.LBB6_26
.LBB6_13:                               # %join.3.i347
	cmpl	$56320, %eax                    # imm = 0xDC00
	jne	.LBB6_21
.LBB6_14:                               # %arm.3.i643
	cmpl	$2, %ebp
	setne	%al
	testq	%rbx, %rbx
	setne	%r14b
	xorl	%edx, %edx
	orb	%al, %r14b
	movl	$65533, %edi                    # imm = 0xFFFD
	cmovel	%edx, %edi
	movl	$2, %eax
	movl	$1, %r15d
	jmp	.LBB6_65
.LBB6_15:                               # %join.3.i
	movq	%rcx, %r13
	testq	%rsi, %rsi
	je	.LBB6_43
# %bb.16:                               # %join.3.i116
	movzbl	(%r9), %r12d
	leaq	static.8(%rip), %r15
	movzbl	(%r12,%r15), %eax
	leaq	static.9(%rip), %r14
	movzbl	(%rax,%r14), %edi
	cmpq	$12, %rdi
	jbe	.LBB6_38
# %bb.17:                               # %join.6.i121
	cmpl	$13, %edi
	movq	%r13, %rcx
	jne	.LBB6_61
# %bb.18:                               # %join.9.i123
	testb	%r12b, %r12b
	js	.LBB6_67
# %bb.19:                               # %utf_chars_codes_utf8_decode_start_exit_thread940_78
	movb	$1, %r14b
	movl	$1, %r15d
	xorl	%edx, %edx
	movl	%r12d, %edi
.LBB6_20:                               # %join.8
	movl	$1, %eax
	jmp	.LBB6_66
.LBB6_21:                               # %arm.7.i
	movl	$2, %eax
	jmp	.LBB6_31
.LBB6_22:                               # %join.6.i
	movzbl	1(%r9), %eax
	cmpb	$-32, %dil
	jae	.LBB6_32
# %bb.23:                               # %utf_lanes_text_front_front_of_text_exit_79
	cmpb	$-62, %dil
	jb	.LBB6_50
# %bb.24:                               # %utf_lanes_text_front_front_of_text_exit_79
	xorl	$128, %eax
	cmpb	$64, %al
	jae	.LBB6_50
# %bb.25:
	shll	$6, %edi
	xorl	%edx, %edx
	addl	%eax, %edi
	addl	$-12288, %edi                   # imm = 0xD000
	movl	$2, %eax
	movb	$1, %r14b
	movl	$1, %r15d
	jmp	.LBB6_66
.LBB6_26:                               # %join.6.i575
	cmpq	$4, %rsi
	jb	.LBB6_8
# %bb.27:                               # %join.15.i74.i
	movzbl	2(%r9), %eax
	movl	%eax, %edx
	andl	$-4, %edx
	cmpl	$220, %edx
	jne	.LBB6_14
# %bb.28:                               # %arm.14.i604
	movzbl	3(%r9), %edx
.LBB6_29:                               # %join.8
	andl	$1023, %edi                     # imm = 0x3FF
	shll	$10, %edi
	andl	$3, %eax
	shll	$8, %eax
	orl	%edx, %eax
	addl	%eax, %edi
	addl	$65536, %edi                    # imm = 0x10000
.LBB6_30:                               # %join.8
	movl	$4, %eax
.LBB6_31:                               # %join.8
	movb	$1, %r14b
	movl	$1, %r15d
	xorl	%edx, %edx
	jmp	.LBB6_66
.LBB6_32:                               # %join.9.i
	cmpb	$-65, %al
	jg	.LBB6_50
# %bb.33:                               # %join.12.i
	movl	%edi, %edx
	andl	$15, %edi
	andl	$63, %eax
	shll	$6, %edi
	orl	%eax, %edi
	cmpb	$-17, %dl
	ja	.LBB6_45
# %bb.34:                               # %then.13.i
	movl	%edi, %eax
	andl	$-32, %eax
	cmpl	$864, %eax                      # imm = 0x360
	je	.LBB6_50
# %bb.35:                               # %join.3.i73
	movzbl	2(%r9), %r8d
	cmpb	$-65, %r8b
	jg	.LBB6_50
# %bb.36:                               # %join.3.i73
	cmpl	$32, %edi
	jb	.LBB6_50
# %bb.37:                               # %join.9.i77
	shll	$6, %edi
	andl	$63, %r8d
	orl	%edi, %r8d
	movl	$3, %eax
	jmp	.LBB6_49
.LBB6_38:                               # %then.4.i133
	movl	%edi, %ecx
	movq	%r9, 48(%rsp)                   # 8-byte Spill
	movq	%r11, 40(%rsp)                  # 8-byte Spill
	callq	utf_chars_codes_utf8_missing_after_80
	movq	40(%rsp), %r11                  # 8-byte Reload
	movq	48(%rsp), %r9                   # 8-byte Reload
	cmpq	%rax, %rsi
	jbe	.LBB6_43
# %bb.39:                               # %join.3.i151
	movzbl	1(%r9), %r8d
	movzbl	(%r8,%r15), %eax
	shll	$4, %edi
	addq	%r14, %rdi
	movzbl	(%rax,%rdi), %eax
	cmpq	$12, %rax
	ja	.LBB6_57
# %bb.40:                               # %then.1.i179
	movzbl	2(%r9), %r10d
	movzbl	(%r10,%r15), %ecx
	shll	$4, %eax
	addq	%r14, %rax
	movzbl	(%rcx,%rax), %eax
	cmpq	$12, %rax
	movq	%r13, %rcx
	ja	.LBB6_59
# %bb.41:                               # %then.1.i218
	movzbl	3(%r9), %edi
	movzbl	(%rdi,%r15), %edx
	shll	$4, %eax
	addq	%rax, %r14
	cmpb	$13, (%rdx,%r14)
	jne	.LBB6_61
# %bb.42:                               # %join.3.i236
	andl	$7, %r12d
	andl	$63, %r8d
	shll	$12, %r12d
	shll	$6, %r8d
	orl	%r12d, %r8d
	andl	$63, %r10d
	orl	%r8d, %r10d
	shll	$6, %r10d
	andl	$63, %edi
	orl	%r10d, %edi
	jmp	.LBB6_30
.LBB6_43:                               # %arm.10.i
	movq	%r11, %r14
	movq	%r9, %rdi
	movq	%r9, %rcx
	movq	%rsi, %rdx
	callq	recoding_next_scalar_is_front_of_code_81
	testb	%al, %al
	je	.LBB6_53
# %bb.44:
	xorl	%r15d, %r15d
	xorl	%r14d, %r14d
	xorl	%edi, %edi
	xorl	%eax, %eax
	xorl	%edx, %edx
	movq	%r13, %rcx
	jmp	.LBB6_66
.LBB6_45:                               # %else.14.i
	leal	-272(%rdi), %eax
	cmpl	$-256, %eax
	jb	.LBB6_50
# %bb.46:                               # %after.1.i
	movzbl	2(%r9), %r8d
	cmpb	$-65, %r8b
	jg	.LBB6_50
# %bb.47:                               # %else.14.i98
	movzbl	3(%r9), %eax
	cmpb	$-65, %al
	jg	.LBB6_50
# %bb.48:                               # %after.11.i
	andl	$63, %r8d
	andl	$63, %eax
	shll	$12, %edi
	shll	$6, %r8d
	orl	%edi, %r8d
	orl	%eax, %r8d
	movl	$4, %eax
.LBB6_49:                               # %join.8
	movb	$1, %r14b
	movl	$1, %r15d
	xorl	%edx, %edx
	movl	%r8d, %edi
	jmp	.LBB6_66
.LBB6_50:                               # %arm.5.i
	cmpl	$2, %ebp
	je	.LBB6_54
# %bb.51:                               # %arm.5.i
	movl	$65533, %edi                    # imm = 0xFFFD
	movb	$1, %r14b
	movl	$1, %r15d
	cmpl	$1, %ebp
	jne	.LBB6_64
# %bb.52:                               # %arm.3.i
	movq	%rcx, %rbx
	movq	%r9, %rcx
	movq	%rsi, %rdx
	callq	recoding_subparts_subpart_len_82
	movq	%rbx, %rcx
	movq	%rax, %rdx
	jmp	.LBB6_66
.LBB6_53:                               # %join.14.i
	cmpl	$2, %ebp
	movq	%r13, %rcx
	movq	%rdi, %r9
	movq	%r14, %r11
	jne	.LBB6_62
.LBB6_54:                               # %arm.2.i674
	movzbl	(%r9), %eax
	andl	$127, %eax
	xorl	%r14d, %r14d
	movl	$1, %r15d
	cmpq	%rax, %rbx
	jbe	.LBB6_56
# %bb.55:                               # %arm.1.i688
	movl	(%r11,%rax,4), %eax
	cmpl	$65536, %eax                    # imm = 0x10000
	setb	%dl
	leal	-57344(%rax), %r8d
	cmpl	$-2048, %r8d                    # imm = 0xF800
	setb	%r14b
	xorl	%edi, %edi
	andb	%dl, %r14b
	cmovnel	%eax, %edi
	jmp	.LBB6_64
.LBB6_56:
	xorl	%edi, %edi
	jmp	.LBB6_64
.LBB6_57:                               # %join.3.i166
	cmpl	$13, %eax
	movq	%r13, %rcx
	jne	.LBB6_61
# %bb.58:                               # %utf_chars_codes_utf8_decode_start_exit_thread958_83
	andl	$31, %r12d
	shll	$6, %r12d
	andl	$63, %r8d
	orl	%r12d, %r8d
	movl	$2, %eax
	movb	$1, %r14b
	movl	$1, %r15d
	xorl	%edx, %edx
	movl	%r8d, %edi
	jmp	.LBB6_66
.LBB6_59:                               # %join.3.i199
	cmpl	$13, %eax
	jne	.LBB6_61
# %bb.60:                               # %join.6.i201
	andl	$15, %r12d
	andl	$63, %r8d
	shll	$12, %r12d
	shll	$6, %r8d
	orl	%r12d, %r8d
	andl	$63, %r10d
	orl	%r8d, %r10d
	movl	$3, %eax
	movb	$1, %r14b
	movl	$1, %r15d
	xorl	%edx, %edx
	movl	%r10d, %edi
	jmp	.LBB6_66
.LBB6_61:                               # %arm.9.i
	cmpl	$2, %ebp
	je	.LBB6_54
.LBB6_62:                               # %arm.9.i
	movl	$65533, %edi                    # imm = 0xFFFD
	movb	$1, %r14b
	movl	$1, %r15d
	cmpl	$1, %ebp
	jne	.LBB6_64
# %bb.63:                               # %arm.3.i304
	movq	%r9, %rcx
	movq	%rsi, %rdx
	callq	recoding_subparts_subpart_len_82
	movq	%r13, %rcx
	movq	%rax, %rdx
	jmp	.LBB6_66
.LBB6_64:
	movl	$1, %eax
.LBB6_65:                               # %join.8
	movl	$1, %edx
.LBB6_66:                               # %join.8
	movzbl	%r14b, %r8d
	movq	%r15, (%rcx)
	movl	%r8d, 8(%rcx)
	movl	%edi, 12(%rcx)
	movq	%rax, 16(%rcx)
	movq	%rdx, 24(%rcx)
	addq	$56, %rsp
	popq	%rbx
	popq	%rbp
	popq	%rdi
	popq	%rsi
	popq	%r12
	popq	%r13
	popq	%r14
	popq	%r15
	retq
.LBB6_67:                               # %join.4.i
	ud2
	.seh_endproc
                                        # -- End function
	.def	utf_chars_codes_utf8_missing_after_80;
	.scl	3;
	.type	32;
	.endef
	.section .text$n9,"xr"
	.p2align	4                               # -- Begin function utf_chars::codes::utf8::missing_after
utf_chars_codes_utf8_missing_after_80: # @utf_chars_codes_utf8_missing_after_80
# %bb.0:                                # %start
	movzbl	%cl, %eax
	leaq	switch_table_utf_chars_codes_utf8_missing_after_84(%rip), %rcx
	movq	(%rcx,%rax,8), %rax
	retq
                                        # -- End function
	.def	recoding_next_scalar_is_front_of_code_81;
	.scl	3;
	.type	32;
	.endef
	.section .text$n10,"xr"
	.p2align	4                               # -- Begin function recoding::next_scalar::is_front_of_code
recoding_next_scalar_is_front_of_code_81: # @recoding_next_scalar_is_front_of_code_81
# %bb.0:                                # %start
	movb	$1, %al
	cmpq	$1, %rdx
	ja	.LBB8_1
.LBB8_11:                               # %common.ret
                                        # kill: def $al killed $al killed $eax
	retq
.LBB8_1:                                # %join.3
	movzbl	1(%rcx), %r8d
	cmpb	$-65, %r8b
	jg	.LBB8_5
# %bb.2:                                # %then.1.i
	movzbl	(%rcx), %r9d
	addl	$-224, %r9d
	cmpl	$20, %r9d
	ja	.LBB8_9
# %bb.3:                                # %then.1.i
	leaq	.LJTI8_0(%rip), %r10
	movslq	(%r10,%r9,4), %r9
	addq	%r10, %r9
	jmpq	*%r9
.LBB8_4:                                # %arm.4.i
	cmpb	$-97, %r8b
	ja	.LBB8_9
.LBB8_5:
	xorl	%eax, %eax
                                        # kill: def $al killed $al killed $eax
	retq
.LBB8_6:                                # %arm.6.i
	cmpb	$-113, %r8b
	jbe	.LBB8_5
.LBB8_9:                                # %then.4
	cmpq	$2, %rdx
	je	.LBB8_11
# %bb.10:                               # %else.8
	cmpb	$-64, 2(%rcx)
	setl	%al
                                        # kill: def $al killed $al killed $eax
	retq
.LBB8_7:                                # %arm.5.i
	cmpb	$-96, %r8b
	jae	.LBB8_5
	jmp	.LBB8_9
.LBB8_8:                                # %recoding_subparts_may_be_second_exit_85
	cmpb	$-113, %r8b
	ja	.LBB8_5
	jmp	.LBB8_9
	.section .rdata$n11,"dr"
	.p2align	2, 0x0
.LJTI8_0:
	.long	.LBB8_4-.LJTI8_0
	.long	.LBB8_9-.LJTI8_0
	.long	.LBB8_9-.LJTI8_0
	.long	.LBB8_9-.LJTI8_0
	.long	.LBB8_9-.LJTI8_0
	.long	.LBB8_9-.LJTI8_0
	.long	.LBB8_9-.LJTI8_0
	.long	.LBB8_9-.LJTI8_0
	.long	.LBB8_9-.LJTI8_0
	.long	.LBB8_9-.LJTI8_0
	.long	.LBB8_9-.LJTI8_0
	.long	.LBB8_9-.LJTI8_0
	.long	.LBB8_9-.LJTI8_0
	.long	.LBB8_7-.LJTI8_0
	.long	.LBB8_9-.LJTI8_0
	.long	.LBB8_9-.LJTI8_0
	.long	.LBB8_6-.LJTI8_0
	.long	.LBB8_9-.LJTI8_0
	.long	.LBB8_9-.LJTI8_0
	.long	.LBB8_9-.LJTI8_0
	.long	.LBB8_8-.LJTI8_0
                                        # -- End function
	.def	recoding_subparts_subpart_len_82;
	.scl	3;
	.type	32;
	.endef
	.section .text$n12,"xr"
	.p2align	4                               # -- Begin function recoding::subparts::subpart_len
recoding_subparts_subpart_len_82:      # @recoding_subparts_subpart_len_82
# %bb.0:                                # %start
	movl	$1, %eax
	cmpq	$2, %rdx
	jb	.LBB9_8
# %bb.1:                                # %join.3.i
	movzbl	(%rcx), %r9d
	leal	32(%r9), %r8d
	cmpb	$20, %r8b
	ja	.LBB9_8
# %bb.2:                                # %then.7.i
	movzbl	1(%rcx), %r8d
	cmpb	$-65, %r8b
	jg	.LBB9_8
# %bb.3:                                # %then.1.i.i
	addl	$-224, %r9d
	cmpl	$20, %r9d
	ja	.LBB9_10
# %bb.4:                                # %then.1.i.i
	leaq	.LJTI9_0(%rip), %r10
	movslq	(%r10,%r9,4), %r9
	addq	%r10, %r9
	jmpq	*%r9
.LBB9_9:                                # %arm.4.i.i
	cmpb	$-97, %r8b
	ja	.LBB9_10
	jmp	.LBB9_8
.LBB9_7:                                # %recoding_subparts_begins_long_code_exit_86
	cmpb	$-113, %r8b
	ja	.LBB9_10
	jmp	.LBB9_8
.LBB9_5:                                # %arm.5.i.i
	cmpb	$-96, %r8b
	jb	.LBB9_10
	jmp	.LBB9_8
.LBB9_6:                                # %arm.7.i.i
	cmpb	$-112, %r8b
	jae	.LBB9_8
.LBB9_10:                               # %join.3
	movl	$2, %eax
	cmpq	$2, %rdx
	jne	.LBB9_11
.LBB9_8:                                # %common.ret
	retq
.LBB9_11:                               # %then.1.i5
	xorl	%eax, %eax
	cmpb	$-64, 2(%rcx)
	setl	%al
	orq	$2, %rax
	retq
	.section .rdata$n13,"dr"
	.p2align	2, 0x0
.LJTI9_0:
	.long	.LBB9_9-.LJTI9_0
	.long	.LBB9_10-.LJTI9_0
	.long	.LBB9_10-.LJTI9_0
	.long	.LBB9_10-.LJTI9_0
	.long	.LBB9_10-.LJTI9_0
	.long	.LBB9_10-.LJTI9_0
	.long	.LBB9_10-.LJTI9_0
	.long	.LBB9_10-.LJTI9_0
	.long	.LBB9_10-.LJTI9_0
	.long	.LBB9_10-.LJTI9_0
	.long	.LBB9_10-.LJTI9_0
	.long	.LBB9_10-.LJTI9_0
	.long	.LBB9_10-.LJTI9_0
	.long	.LBB9_5-.LJTI9_0
	.long	.LBB9_10-.LJTI9_0
	.long	.LBB9_10-.LJTI9_0
	.long	.LBB9_7-.LJTI9_0
	.long	.LBB9_10-.LJTI9_0
	.long	.LBB9_10-.LJTI9_0
	.long	.LBB9_10-.LJTI9_0
	.long	.LBB9_6-.LJTI9_0
                                        # -- End function
	.def	recoding_form_calls_put_shown_345d457c2768aa28_72;
	.scl	3;
	.type	32;
	.endef
	.section .text$n14,"xr"
	.p2align	4                               # -- Begin function recoding::form_calls::put_shown::<#345d457c2768aa28>
recoding_form_calls_put_shown_345d457c2768aa28_72: # @recoding_form_calls_put_shown_345d457c2768aa28_72
.seh_proc recoding_form_calls_put_shown_345d457c2768aa28_72
# %bb.0:                                # %start
	pushq	%rsi
	.seh_pushreg %rsi
	pushq	%rbx
	.seh_pushreg %rbx
	subq	$40, %rsp
	.seh_stackalloc 40
	.seh_endprologue
	movl	%r8d, %ebx
	cmpb	$2, %cl
	je	.LBB10_6
# %bb.1:                                # %start
	movzbl	%cl, %eax
	cmpl	$1, %eax
	jne	.LBB10_10
# %bb.2:                                # %arm.2
	movb	$1, %al
	cmpb	$1, %dl
	jne	.LBB10_15
# %bb.3:                                # %arm.1.i.i6
	movq	8(%r9), %rcx
	movq	16(%r9), %rdx
	subq	%rcx, %rdx
	cmpq	$4, %rdx
	jb	.LBB10_16
# %bb.4:                                # %then.1.i.i.i10
	cmpl	$65535, %ebx                    # imm = 0xFFFF
	ja	.LBB10_19
# %bb.5:                                # %arm.1.i.i.i
	movq	(%r9), %rdx
	movb	%bl, (%rdx,%rcx)
	movq	(%r9), %rdx
	movb	%bh, 1(%rdx,%rcx)
	jmp	.LBB10_24
.LBB10_6:                               # %arm.3
	movb	$1, %al
	cmpb	$1, %dl
	jne	.LBB10_15
# %bb.7:                                # %arm.1.i.i14
	movq	8(%r9), %rcx
	movq	16(%r9), %rdx
	subq	%rcx, %rdx
	cmpq	$4, %rdx
	jb	.LBB10_17
# %bb.8:                                # %then.1.i.i.i20
	cmpl	$65535, %ebx                    # imm = 0xFFFF
	ja	.LBB10_20
# %bb.9:                                # %arm.1.i.i.i24
	movq	(%r9), %rdx
	movb	%bh, (%rdx,%rcx)
	movq	(%r9), %rdx
	movb	%bl, 1(%rdx,%rcx)
	jmp	.LBB10_24
.LBB10_10:                              # %arm.1
	movb	$1, %al
	cmpb	$1, %dl
	jne	.LBB10_15
# %bb.11:                               # %arm.1.i.i
	movq	8(%r9), %rcx
	movq	16(%r9), %rdx
	subq	%rcx, %rdx
	cmpq	$4, %rdx
	jb	.LBB10_18
# %bb.12:                               # %then.1.i.i.i
	cmpl	$128, %ebx
	jae	.LBB10_22
# %bb.13:                               # %then.1.i14.i.i
	movq	(%r9), %rdx
	movb	%bl, (%rdx,%rcx)
	incq	%rcx
	jmp	.LBB10_14
.LBB10_16:                              # %join.3.i.i.i9
	movl	%ebx, %ecx
	movq	%r9, %rdx
	callq	recoding_text_Text_put_at_end_33e10de476944db2_87
	nop
.LBB10_15:                              # %join.5
	addq	$40, %rsp
	popq	%rbx
	popq	%rsi
	retq
.LBB10_17:                              # %join.3.i.i.i18
	movl	%ebx, %ecx
	movq	%r9, %rdx
	callq	recoding_text_Text_put_at_end_4a42a49a72b1152c_88
	nop
	addq	$40, %rsp
	popq	%rbx
	popq	%rsi
	retq
.LBB10_18:                              # %join.3.i.i.i
	movl	%ebx, %ecx
	movq	%r9, %rdx
	callq	recoding_text_Text_put_at_end_70c8f03fcffdff05_89
	nop
	addq	$40, %rsp
	popq	%rbx
	popq	%rsi
	retq
.LBB10_19:                              # %arm.2.i.i.i
	movl	%ebx, %edx
	shrl	$10, %edx
	addl	$-10304, %edx                   # imm = 0xD7C0
	movl	%ebx, %r8d
	shrl	$8, %ebx
	andb	$3, %bl
	orb	$-36, %bl
	movq	(%r9), %r10
	movb	%dl, (%r10,%rcx)
	movq	(%r9), %rsi
	movb	%dh, 1(%rsi,%rcx)
	movq	(%r9), %rdx
	movb	%r8b, 2(%rdx,%rcx)
	movq	(%r9), %rdx
	movb	%bl, 3(%rdx,%rcx)
	jmp	.LBB10_21
.LBB10_20:                              # %arm.2.i.i.i21
	movl	%ebx, %edx
	shrl	$10, %edx
	addl	$-10304, %edx                   # imm = 0xD7C0
	movl	%ebx, %r8d
	shrl	$8, %ebx
	andb	$3, %bl
	orb	$-36, %bl
	movq	(%r9), %rsi
	movb	%dh, (%rsi,%rcx)
	movq	(%r9), %r10
	movb	%dl, 1(%r10,%rcx)
	movq	(%r9), %rdx
	movb	%bl, 2(%rdx,%rcx)
	movq	(%r9), %rdx
	movb	%r8b, 3(%rdx,%rcx)
.LBB10_21:                              # %join.5
	addq	$4, %rcx
	jmp	.LBB10_14
.LBB10_22:                              # %join.3.i7.i.i
	movl	%ebx, %edx
	andl	$63, %edx
	orl	$128, %edx
	movl	%ebx, %r8d
	shrl	$6, %r8d
	cmpl	$2048, %ebx                     # imm = 0x800
	jae	.LBB10_26
# %bb.23:                               # %then.4.i.i.i
	orb	$-64, %r8b
	movq	(%r9), %r10
	movb	%r8b, (%r10,%rcx)
	movq	(%r9), %r8
	movb	%dl, 1(%r8,%rcx)
.LBB10_24:                              # %join.5
	addq	$2, %rcx
.LBB10_14:                              # %join.5
	movq	%rcx, 8(%r9)
	addq	$40, %rsp
	popq	%rbx
	popq	%rsi
	retq
.LBB10_26:                              # %join.7.i.i.i
	andl	$63, %r8d
	orl	$128, %r8d
	cmpl	$65536, %ebx                    # imm = 0x10000
	jae	.LBB10_28
# %bb.27:                               # %then.7.i.i.i
	shrl	$12, %ebx
	orb	$-32, %bl
	movq	(%r9), %r10
	movb	%bl, (%r10,%rcx)
	movq	(%r9), %r10
	movb	%r8b, 1(%r10,%rcx)
	movq	(%r9), %r8
	movb	%dl, 2(%r8,%rcx)
	addq	$3, %rcx
	jmp	.LBB10_14
.LBB10_28:                              # %join.9.i.i.i
	movl	%ebx, %r10d
	shrl	$18, %r10d
	shrl	$4, %ebx
	andl	$16128, %ebx                    # imm = 0x3F00
	movl	%r10d, %r11d
	addl	$240, %r10d
	addl	%r11d, %ebx
	addl	$33008, %ebx                    # imm = 0x80F0
	movq	(%r9), %r11
	movb	%r10b, (%r11,%rcx)
	movq	(%r9), %rsi
	movb	%bh, 1(%rsi,%rcx)
	shrl	$16, %ebx
	addl	%r8d, %ebx
	movq	(%r9), %r8
	movb	%bl, 2(%r8,%rcx)
	movq	(%r9), %r8
	movb	%dl, 3(%r8,%rcx)
	jmp	.LBB10_21
	.seh_endproc
                                        # -- End function
	.def	recoding_text_Text_put_at_end_70c8f03fcffdff05_89;
	.scl	3;
	.type	32;
	.endef
	.section .text$n15,"xr"
	.p2align	4                               # -- Begin function recoding::text::Text::put_at_end::<#70c8f03fcffdff05>
recoding_text_Text_put_at_end_70c8f03fcffdff05_89: # @recoding_text_Text_put_at_end_70c8f03fcffdff05_89
.seh_proc recoding_text_Text_put_at_end_70c8f03fcffdff05_89
# %bb.0:                                # %start
	pushq	%rsi
	.seh_pushreg %rsi
	.seh_endprologue
                                        # kill: def $ecx killed $ecx def $rcx
	movq	8(%rdx), %rax
	movq	16(%rdx), %r8
	cmpl	$128, %ecx
	jae	.LBB11_4
# %bb.1:                                # %recoding_text_Utf8Text_code_len_exit_thread_90
	cmpq	%rax, %r8
	je	.LBB11_5
# %bb.2:                                # %then.1.i
	movq	(%rdx), %r8
	movb	%cl, (%r8,%rax)
	incq	%rax
	movq	%rax, 8(%rdx)
	movb	$1, %al
                                        # kill: def $al killed $al killed $eax
	popq	%rsi
	retq
.LBB11_4:                               # %join.3.i.i
	subq	%rax, %r8
	cmpl	$65536, %ecx                    # imm = 0x10000
	movl	$4, %r9d
	sbbq	$0, %r9
	cmpl	$2048, %ecx                     # imm = 0x800
	movl	$2, %r10d
	cmovaeq	%r9, %r10
	cmpq	%r10, %r8
	jae	.LBB11_7
.LBB11_5:
	xorl	%eax, %eax
                                        # kill: def $al killed $al killed $eax
	popq	%rsi
	retq
.LBB11_7:                               # %join.3.i
	movl	%ecx, %r8d
	andl	$63, %r8d
	orl	$128, %r8d
	movl	%ecx, %r9d
	shrl	$6, %r9d
	cmpl	$2048, %ecx                     # imm = 0x800
	jae	.LBB11_9
# %bb.8:                                # %then.4.i
	orb	$-64, %r9b
	movq	(%rdx), %rcx
	movb	%r9b, (%rcx,%rax)
	movq	(%rdx), %rcx
	movb	%r8b, 1(%rcx,%rax)
	addq	$2, %rax
	movq	%rax, 8(%rdx)
	movb	$1, %al
                                        # kill: def $al killed $al killed $eax
	popq	%rsi
	retq
.LBB11_9:                               # %join.7.i
	andl	$63, %r9d
	orl	$128, %r9d
	cmpl	$65536, %ecx                    # imm = 0x10000
	jae	.LBB11_11
# %bb.10:                               # %then.7.i
	shrl	$12, %ecx
	orb	$-32, %cl
	movq	(%rdx), %r10
	movb	%cl, (%r10,%rax)
	movq	(%rdx), %rcx
	movb	%r9b, 1(%rcx,%rax)
	movq	(%rdx), %rcx
	movb	%r8b, 2(%rcx,%rax)
	addq	$3, %rax
	movq	%rax, 8(%rdx)
	movb	$1, %al
                                        # kill: def $al killed $al killed $eax
	popq	%rsi
	retq
.LBB11_11:                              # %join.9.i
	movl	%ecx, %r10d
	shrl	$18, %r10d
	shrl	$4, %ecx
	andl	$16128, %ecx                    # imm = 0x3F00
	movl	%r10d, %r11d
	addl	$240, %r10d
	addl	%r11d, %ecx
	addl	$33008, %ecx                    # imm = 0x80F0
	movq	(%rdx), %r11
	movb	%r10b, (%r11,%rax)
	movq	(%rdx), %rsi
	movb	%ch, 1(%rsi,%rax)
	shrl	$16, %ecx
	addl	%r9d, %ecx
	movq	(%rdx), %r9
	movb	%cl, 2(%r9,%rax)
	movq	(%rdx), %rcx
	movb	%r8b, 3(%rcx,%rax)
	addq	$4, %rax
	movq	%rax, 8(%rdx)
	movb	$1, %al
                                        # kill: def $al killed $al killed $eax
	popq	%rsi
	retq
	.seh_endproc
                                        # -- End function
	.def	recoding_text_Text_put_at_end_33e10de476944db2_87;
	.scl	3;
	.type	32;
	.endef
	.section .text$n16,"xr"
	.p2align	4                               # -- Begin function recoding::text::Text::put_at_end::<#33e10de476944db2>
recoding_text_Text_put_at_end_33e10de476944db2_87: # @recoding_text_Text_put_at_end_33e10de476944db2_87
.seh_proc recoding_text_Text_put_at_end_33e10de476944db2_87
# %bb.0:                                # %start
	pushq	%rsi
	.seh_pushreg %rsi
	pushq	%rbx
	.seh_pushreg %rbx
	.seh_endprologue
	movq	8(%rdx), %rax
	movq	16(%rdx), %r8
	subq	%rax, %r8
	cmpl	$65535, %ecx                    # imm = 0xFFFF
	ja	.LBB12_3
# %bb.1:                                # %recoding_text_Utf16Text_code_len_951b42d46d2e9f62_exit_91
	cmpq	$1, %r8
	jbe	.LBB12_6
# %bb.2:                                # %arm.1.i
	movq	(%rdx), %r8
	movb	%cl, (%r8,%rax)
	movq	(%rdx), %rsi
	movb	%ch, 1(%rsi,%rax)
	addq	$2, %rax
	jmp	.LBB12_5
.LBB12_3:                               # %recoding_text_Utf16Text_code_len_951b42d46d2e9f62_exit_thread_92
	cmpq	$3, %r8
	jbe	.LBB12_6
# %bb.4:                                # %arm.2.i
	movl	%ecx, %ebx
	shrl	$10, %ebx
	addl	$-10304, %ebx                   # imm = 0xD7C0
	movl	%ecx, %r8d
	shrl	$8, %ecx
	andb	$3, %cl
	orb	$-36, %cl
	movq	(%rdx), %r9
	movb	%bl, (%r9,%rax)
	movq	(%rdx), %rsi
	movb	%bh, 1(%rsi,%rax)
	movq	(%rdx), %r9
	movb	%r8b, 2(%r9,%rax)
	movq	(%rdx), %r8
	movb	%cl, 3(%r8,%rax)
	addq	$4, %rax
.LBB12_5:                               # %common.ret
	movq	%rax, 8(%rdx)
	movb	$1, %al
                                        # kill: def $al killed $al killed $eax
	popq	%rbx
	popq	%rsi
	retq
.LBB12_6:
	xorl	%eax, %eax
                                        # kill: def $al killed $al killed $eax
	popq	%rbx
	popq	%rsi
	retq
	.seh_endproc
                                        # -- End function
	.def	recoding_text_Text_put_at_end_4a42a49a72b1152c_88;
	.scl	3;
	.type	32;
	.endef
	.section .text$n17,"xr"
	.p2align	4                               # -- Begin function recoding::text::Text::put_at_end::<#4a42a49a72b1152c>
recoding_text_Text_put_at_end_4a42a49a72b1152c_88: # @recoding_text_Text_put_at_end_4a42a49a72b1152c_88
.seh_proc recoding_text_Text_put_at_end_4a42a49a72b1152c_88
# %bb.0:                                # %start
	pushq	%rsi
	.seh_pushreg %rsi
	pushq	%rbx
	.seh_pushreg %rbx
	.seh_endprologue
	movq	8(%rdx), %rax
	movq	16(%rdx), %r8
	subq	%rax, %r8
	cmpl	$65535, %ecx                    # imm = 0xFFFF
	ja	.LBB13_3
# %bb.1:                                # %recoding_text_Utf16Text_code_len_22d4087b0bf99cde_exit_93
	cmpq	$1, %r8
	jbe	.LBB13_6
# %bb.2:                                # %arm.1.i
	movq	(%rdx), %rsi
	movb	%ch, (%rsi,%rax)
	movq	(%rdx), %r8
	movb	%cl, 1(%r8,%rax)
	addq	$2, %rax
	jmp	.LBB13_5
.LBB13_3:                               # %recoding_text_Utf16Text_code_len_22d4087b0bf99cde_exit_thread_94
	cmpq	$3, %r8
	jbe	.LBB13_6
# %bb.4:                                # %arm.2.i
	movl	%ecx, %ebx
	shrl	$10, %ebx
	addl	$-10304, %ebx                   # imm = 0xD7C0
	movl	%ecx, %r8d
	shrl	$8, %ecx
	andb	$3, %cl
	orb	$-36, %cl
	movq	(%rdx), %rsi
	movb	%bh, (%rsi,%rax)
	movq	(%rdx), %r9
	movb	%bl, 1(%r9,%rax)
	movq	(%rdx), %r9
	movb	%cl, 2(%r9,%rax)
	movq	(%rdx), %rcx
	movb	%r8b, 3(%rcx,%rax)
	addq	$4, %rax
.LBB13_5:                               # %common.ret
	movq	%rax, 8(%rdx)
	movb	$1, %al
                                        # kill: def $al killed $al killed $eax
	popq	%rbx
	popq	%rsi
	retq
.LBB13_6:
	xorl	%eax, %eax
                                        # kill: def $al killed $al killed $eax
	popq	%rbx
	popq	%rsi
	retq
	.seh_endproc
                                        # -- End function
	.def	recoding_held_Held_shift_joined_74;
	.scl	3;
	.type	32;
	.endef
	.section .text$n18,"xr"
	.p2align	4                               # -- Begin function recoding::held::Held::shift_joined
recoding_held_Held_shift_joined_74:   # @recoding_held_Held_shift_joined_74
.seh_proc recoding_held_Held_shift_joined_74
# %bb.0:                                # %start
	pushq	%rsi
	.seh_pushreg %rsi
	pushq	%rdi
	.seh_pushreg %rdi
	pushq	%rax
	.seh_stackalloc 8
	.seh_endprologue
	movq	(%rcx), %rax
	testq	%rax, %rax
	je	.LBB14_3
# %bb.1:                                # %recoding_held_byte_of_both_exit42_95
	movzbl	8(%rcx), %r8d
	cmpq	$1, %rax
	jne	.LBB14_10
# %bb.2:
	xorl	%r10d, %r10d
	xorl	%r11d, %r11d
	jmp	.LBB14_4
.LBB14_3:
	xorl	%r10d, %r10d
	xorl	%r11d, %r11d
	xorl	%r8d, %r8d
.LBB14_4:                               # %recoding_held_byte_of_both_exit_96
	xorl	%r9d, %r9d
.LBB14_5:                               # %recoding_held_byte_of_both_exit_96
	xorl	%esi, %esi
.LBB14_6:                               # %recoding_held_byte_of_both_exit_96
	xorl	%edi, %edi
.LBB14_7:                               # %recoding_held_byte_of_both_exit_96
	movb	%r8b, 2(%rsp)
	movb	%r9b, 3(%rsp)
	movb	%r11b, 4(%rsp)
	movb	%sil, 5(%rsp)
	movb	%r10b, 6(%rsp)
	movb	%dil, 7(%rsp)
	subq	%rdx, %rax
	movq	%rax, (%rcx)
	je	.LBB14_18
# %bb.8:                                # %join.3.i.i
	movzbl	2(%rsp,%rdx), %r8d
	cmpq	$1, %rax
	jne	.LBB14_13
# %bb.9:
	xorl	%r9d, %r9d
	xorl	%eax, %eax
	jmp	.LBB14_17
.LBB14_10:                              # %recoding_held_byte_of_both_exit34_97
	movzbl	9(%rcx), %r9d
	cmpq	$3, %rax
	jb	.LBB14_15
# %bb.11:                               # %recoding_held_byte_of_both_exit26_98
	movzbl	10(%rcx), %r11d
	jne	.LBB14_19
# %bb.12:
	xorl	%r10d, %r10d
	jmp	.LBB14_5
.LBB14_13:                              # %join.6.i.i
	movzbl	3(%rsp,%rdx), %r9d
	cmpq	$2, %rax
	jne	.LBB14_16
# %bb.14:
	xorl	%eax, %eax
	jmp	.LBB14_17
.LBB14_15:
	xorl	%r10d, %r10d
	xorl	%r11d, %r11d
	jmp	.LBB14_5
.LBB14_16:                              # %join.9.i.i
	movzbl	4(%rsp,%rdx), %eax
.LBB14_17:                              # %recoding_held_padded_to_three_exit_i_99
	movb	%r8b, 8(%rcx)
	movb	%r9b, 9(%rcx)
	movb	%al, 10(%rcx)
.LBB14_18:                              # %recoding_held_Held_hold_exit_100
	addq	$8, %rsp
	popq	%rdi
	popq	%rsi
	retq
.LBB14_19:                              # %recoding_held_byte_of_both_exit18_101
	movzbl	11(%rcx), %esi
	cmpq	$5, %rax
	jb	.LBB14_22
# %bb.20:                               # %recoding_held_byte_of_both_exit10_102
	movzbl	12(%rcx), %r10d
	je	.LBB14_6
# %bb.23:                               # %then.1.i1
	movzbl	13(%rcx), %edi
	jmp	.LBB14_7
.LBB14_22:
	xorl	%r10d, %r10d
	jmp	.LBB14_6
	.seh_endproc
                                        # -- End function
	.def	recoding_recoder_runs_run_whole_d908eddfe8754f34_44;
	.scl	3;
	.type	32;
	.endef
	.section .text$n19,"xr"
	.p2align	4                               # -- Begin function recoding::recoder_runs::run_whole::<#d908eddfe8754f34>
recoding_recoder_runs_run_whole_d908eddfe8754f34_44: # @recoding_recoder_runs_run_whole_d908eddfe8754f34_44
.seh_proc recoding_recoder_runs_run_whole_d908eddfe8754f34_44
# %bb.0:                                # %start
	pushq	%r15
	.seh_pushreg %r15
	pushq	%r14
	.seh_pushreg %r14
	pushq	%r13
	.seh_pushreg %r13
	pushq	%r12
	.seh_pushreg %r12
	pushq	%rsi
	.seh_pushreg %rsi
	pushq	%rdi
	.seh_pushreg %rdi
	pushq	%rbx
	.seh_pushreg %rbx
	subq	$64, %rsp
	.seh_stackalloc 64
	.seh_endprologue
	movq	%r8, %rbx
	movq	%rdx, %rdi
	movq	%rcx, %r14
	xorl	%r12d, %r12d
	xorl	%edx, %edx
	xorl	%esi, %esi
.LBB15_1:                               # %loop.2.i.outer
                                        # =>This Loop Header: Depth=1
                                        #     Child Loop BB15_2 Depth 2
	movq	%rdx, %r15
	.p2align	4
.LBB15_2:                               # %loop.2.i
                                        #   Parent Loop BB15_1 Depth=1
                                        # =>  This Inner Loop Header: Depth=2
	leaq	(%r14,%rsi), %rcx
	movq	%rdi, %rdx
	subq	%rsi, %rdx
	movq	%rbx, %r8
	callq	recoding_kernels_CopiedKernelUtf8Utf8_put_text_dba16a0ba11e1f61_103
	addq	%rax, %rsi
	cmpq	$8187, %rax                     # imm = 0x1FFB
	ja	.LBB15_2
# %bb.3:                                # %join.5.i
                                        #   in Loop: Header=BB15_2 Depth=2
	movq	%rdi, %rdx
	subq	%rsi, %rdx
	je	.LBB15_4
# %bb.5:                                # %join.8.i
                                        #   in Loop: Header=BB15_2 Depth=2
	xorl	%r13d, %r13d
	cmpq	$255, %rax
	ja	.LBB15_10
# %bb.6:                                # %join.8.i
                                        #   in Loop: Header=BB15_2 Depth=2
	testq	%r12, %r12
	je	.LBB15_10
# %bb.7:                                # %then.1.i
                                        #   in Loop: Header=BB15_2 Depth=2
	cmpq	$128, %rdx
	jb	.LBB15_9
# %bb.8:                                # %recoding_engine_put_near_fe88b346b93353db_exit_104
                                        #   in Loop: Header=BB15_2 Depth=2
	leaq	(%r14,%rsi), %rcx
	movq	%rbx, %r8
	callq	recoding_kernels_copy_damaged_47c24e65252a304d_105
	addq	%rax, %rsi
	addq	%rdx, %r15
	testq	%rax, %rax
	jne	.LBB15_2
.LBB15_9:                               #   in Loop: Header=BB15_1 Depth=1
	movq	%r12, %r13
.LBB15_10:                              # %join.14.i
                                        #   in Loop: Header=BB15_1 Depth=1
	movq	%rdi, %r8
	subq	%rsi, %r8
	je	.LBB15_4
# %bb.11:                               # %recoding_engine_recode_carefully_ebb3042af60f2638_exit_106
                                        #   in Loop: Header=BB15_1 Depth=1
	leaq	(%r14,%rsi), %rdx
	xorps	%xmm0, %xmm0
	movaps	%xmm0, 32(%rsp)
	movq	$0, 48(%rsp)
	leaq	32(%rsp), %rcx
	movq	%rbx, %r9
	callq	recoding_engine_recode_faults_e51b733afd1efe0d_107
	movq	40(%rsp), %rdx
	testq	%rdx, %rdx
	je	.LBB15_12
# %bb.13:                               # %select.false.sink
                                        #   in Loop: Header=BB15_1 Depth=1
	incq	%r13
	movq	$-1, %r12
	cmovneq	%r13, %r12
	addq	32(%rsp), %rsi
	addq	%r15, %rdx
	testb	$1, 48(%rsp)
	je	.LBB15_15
	jmp	.LBB15_16
	.p2align	4
.LBB15_12:                              #   in Loop: Header=BB15_1 Depth=1
	movq	%r13, %r12
	addq	32(%rsp), %rsi
	addq	%r15, %rdx
	testb	$1, 48(%rsp)
	jne	.LBB15_16
.LBB15_15:                              # %select.end
                                        #   in Loop: Header=BB15_1 Depth=1
	testb	$1, 49(%rsp)
	je	.LBB15_1
	jmp	.LBB15_16
.LBB15_4:
	movq	%rdi, %rsi
	movq	%r15, %rdx
.LBB15_16:                              # %recoding_engine_run_fe88b346b93353db_exit_108
	movq	%rsi, %rax
	addq	$64, %rsp
	popq	%rbx
	popq	%rdi
	popq	%rsi
	popq	%r12
	popq	%r13
	popq	%r14
	popq	%r15
	retq
	.seh_endproc
                                        # -- End function
	.def	recoding_kernels_CopiedKernelUtf8Utf8_put_text_dba16a0ba11e1f61_103;
	.scl	3;
	.type	32;
	.endef
	.section .text$n20,"xr"
	.p2align	4                               # -- Begin function recoding::kernels::CopiedKernelUtf8Utf8::put_text::<#dba16a0ba11e1f61>
recoding_kernels_CopiedKernelUtf8Utf8_put_text_dba16a0ba11e1f61_103: # @recoding_kernels_CopiedKernelUtf8Utf8_put_text_dba16a0ba11e1f61_103
.seh_proc recoding_kernels_CopiedKernelUtf8Utf8_put_text_dba16a0ba11e1f61_103
# %bb.0:                                # %start
	pushq	%r15
	.seh_pushreg %r15
	pushq	%r14
	.seh_pushreg %r14
	pushq	%rsi
	.seh_pushreg %rsi
	pushq	%rdi
	.seh_pushreg %rdi
	pushq	%rbx
	.seh_pushreg %rbx
	subq	$32, %rsp
	.seh_stackalloc 32
	.seh_endprologue
	movq	%r8, %rsi
	movq	%rcx, %rdi
	cmpq	$8192, %rdx                     # imm = 0x2000
	movl	$8192, %eax                     # imm = 0x2000
	cmovbq	%rdx, %rax
	cmpq	$1024, %rdx                     # imm = 0x400
	ja	.LBB16_20
# %bb.1:                                # %then.2
	cmpq	$17, %rdx
	jae	.LBB16_9
# %bb.2:                                # %then.1.i
	cmpq	$3, %rdx
	ja	.LBB16_18
# %bb.3:                                # %loop.2.i.preheader
	testq	%rdx, %rdx
	je	.LBB16_29
# %bb.4:                                # %join.5.i
	cmpb	$0, (%rdi)
	js	.LBB16_20
# %bb.5:                                # %loop.2.i
	cmpq	$1, %rdx
	je	.LBB16_29
# %bb.6:                                # %join.5.i.1
	cmpb	$0, 1(%rdi)
	js	.LBB16_20
# %bb.7:                                # %loop.2.i.1
	cmpq	$2, %rdx
	je	.LBB16_29
# %bb.8:                                # %join.5.i.2
	cmpb	$0, 2(%rdi)
	jns	.LBB16_29
	jmp	.LBB16_20
.LBB16_9:                               # %loop.2.i22.preheader
	xorl	%ecx, %ecx
	cmpq	$64, %rdx
	jb	.LBB16_13
# %bb.10:                               # %join.5.i24.preheader
	movq	%rax, %r8
	.p2align	4
.LBB16_11:                              # %join.5.i24
                                        # =>This Inner Loop Header: Depth=1
	movdqu	(%rdi,%rcx), %xmm0
	movdqu	16(%rdi,%rcx), %xmm1
	movdqu	32(%rdi,%rcx), %xmm2
	por	%xmm0, %xmm2
	movdqu	48(%rdi,%rcx), %xmm0
	por	%xmm1, %xmm0
	por	%xmm2, %xmm0
	pmovmskb	%xmm0, %r9d
	testl	%r9d, %r9d
	jne	.LBB16_13
# %bb.12:                               # %join.8.i25
                                        #   in Loop: Header=BB16_11 Depth=1
	addq	$64, %rcx
	addq	$-64, %r8
	cmpq	$63, %r8
	ja	.LBB16_11
.LBB16_13:                              # %utf_lanes_ascii_texts_ascii_end_1_exit_109
	movq	%rax, %r8
	subq	%rcx, %r8
	cmpq	$16, %r8
	jb	.LBB16_17
# %bb.14:                               # %join.5.i56.preheader
	addq	%rdi, %rcx
	.p2align	4
.LBB16_15:                              # %join.5.i56
                                        # =>This Inner Loop Header: Depth=1
	movdqu	(%rcx), %xmm0
	pmovmskb	%xmm0, %r9d
	testl	%r9d, %r9d
	jne	.LBB16_20
# %bb.16:                               # %loop.2.i51
                                        #   in Loop: Header=BB16_15 Depth=1
	addq	$-16, %r8
	addq	$16, %rcx
	cmpq	$16, %r8
	jae	.LBB16_15
.LBB16_17:                              # %after.1.i
	movdqu	-16(%rdi,%rax), %xmm0
	pmovmskb	%xmm0, %ecx
	testl	%ecx, %ecx
	je	.LBB16_29
.LBB16_20:                              # %after.1
	movq	%rdi, %rcx
	movq	%rax, %rdx
	callq	utf_lanes_text_blocks_text_len_110
	movq	8(%rsi), %rdx
	movq	16(%rsi), %rbx
	movq	%rbx, %rcx
	subq	%rdx, %rcx
	cmpq	%rcx, %rax
	ja	.LBB16_49
.LBB16_21:                              # %join.3.i77
	leaq	8(%rsi), %rcx
	leaq	(%rdx,%rax), %r14
	movq	(%rsi), %r15
	pxor	%xmm0, %xmm0
	movdqu	%xmm0, (%rcx)
	leaq	(%r15,%rdx), %rcx
	movq	%rcx, %r8
	subq	%rdi, %r8
	cmpq	%rax, %r8
	jae	.LBB16_33
# %bb.22:                               # %iter.check
	cmpq	$4, %rax
	jb	.LBB16_23
# %bb.24:                               # %vector.memcheck
	cmpq	$32, %r8
	jae	.LBB16_26
.LBB16_23:
	xorl	%r8d, %r8d
.LBB16_43:                              # %join.7.i.i.i90.preheader
	movq	%rax, %r10
	movq	%r8, %r9
	andq	$3, %r10
	je	.LBB16_46
# %bb.44:                               # %join.7.i.i.i90.prol.preheader
	movq	%r8, %r9
	.p2align	4
.LBB16_45:                              # %join.7.i.i.i90.prol
                                        # =>This Inner Loop Header: Depth=1
	movzbl	(%rdi,%r9), %r11d
	movb	%r11b, (%rcx,%r9)
	incq	%r9
	decq	%r10
	jne	.LBB16_45
.LBB16_46:                              # %join.7.i.i.i90.prol.loopexit
	subq	%rax, %r8
	cmpq	$-4, %r8
	ja	.LBB16_67
# %bb.47:                               # %join.7.i.i.i90.preheader49
	leaq	(%rdx,%r15), %rcx
	addq	$3, %rcx
	.p2align	4
.LBB16_48:                              # %join.7.i.i.i90
                                        # =>This Inner Loop Header: Depth=1
	movzbl	(%rdi,%r9), %edx
	movb	%dl, -3(%rcx,%r9)
	movzbl	1(%rdi,%r9), %edx
	movb	%dl, -2(%rcx,%r9)
	movzbl	2(%rdi,%r9), %edx
	movb	%dl, -1(%rcx,%r9)
	movzbl	3(%rdi,%r9), %edx
	movb	%dl, (%rcx,%r9)
	addq	$4, %r9
	cmpq	%r9, %rax
	jne	.LBB16_48
	jmp	.LBB16_67
.LBB16_18:                              # %join.3.i8
	cmpq	$7, %rdx
	ja	.LBB16_28
# %bb.19:                               # %then.4.i
	movd	(%rdi), %xmm0                   # xmm0 = mem[0],zero,zero,zero
	movd	-4(%rdi,%rax), %xmm1            # xmm1 = mem[0],zero,zero,zero
	punpckldq	%xmm1, %xmm0            # xmm0 = xmm0[0],xmm1[0],xmm0[1],xmm1[1]
	pshufd	$68, %xmm0, %xmm0               # xmm0 = xmm0[0,1,0,1]
	pmovmskb	%xmm0, %ecx
	testl	%ecx, %ecx
	jne	.LBB16_20
	jmp	.LBB16_29
.LBB16_26:                              # %vector.main.loop.iter.check
	cmpq	$32, %rax
	jae	.LBB16_36
# %bb.27:
	xorl	%r8d, %r8d
	jmp	.LBB16_40
.LBB16_28:                              # %utf_lanes_ascii_texts_is_ascii_exit_111
	movq	-8(%rdi,%rax), %xmm0            # xmm0 = mem[0],zero
	movq	(%rdi), %xmm1                   # xmm1 = mem[0],zero
	punpcklqdq	%xmm0, %xmm1            # xmm1 = xmm1[0],xmm0[0]
	pmovmskb	%xmm1, %ecx
	testl	%ecx, %ecx
	jne	.LBB16_20
.LBB16_29:                              # %then.5
	movq	8(%rsi), %r8
	movq	16(%rsi), %rbx
	movq	%rbx, %rcx
	subq	%r8, %rcx
	cmpq	%rcx, %rax
	ja	.LBB16_69
.LBB16_30:                              # %join.3.i71
	leaq	8(%rsi), %rcx
	leaq	(%r8,%rax), %r14
	movq	(%rsi), %r15
	pxor	%xmm0, %xmm0
	movdqu	%xmm0, (%rcx)
	leaq	(%r15,%r8), %rcx
	movq	%rcx, %r9
	subq	%rdi, %r9
	cmpq	%rax, %r9
	jae	.LBB16_33
# %bb.31:                               # %iter.check17
	cmpq	$4, %rdx
	jb	.LBB16_32
# %bb.34:                               # %vector.memcheck12
	cmpq	$32, %r9
	jae	.LBB16_51
.LBB16_32:
	xorl	%r9d, %r9d
.LBB16_61:                              # %join.7.i.i.i.preheader
	movq	%rax, %r10
	movq	%r9, %rdx
	andq	$3, %r10
	je	.LBB16_64
# %bb.62:                               # %join.7.i.i.i.prol.preheader
	movq	%r9, %rdx
	.p2align	4
.LBB16_63:                              # %join.7.i.i.i.prol
                                        # =>This Inner Loop Header: Depth=1
	movzbl	(%rdi,%rdx), %r11d
	movb	%r11b, (%rcx,%rdx)
	incq	%rdx
	decq	%r10
	jne	.LBB16_63
.LBB16_64:                              # %join.7.i.i.i.prol.loopexit
	subq	%rax, %r9
	cmpq	$-4, %r9
	ja	.LBB16_67
# %bb.65:                               # %join.7.i.i.i.preheader48
	leaq	(%r8,%r15), %rcx
	addq	$3, %rcx
	.p2align	4
.LBB16_66:                              # %join.7.i.i.i
                                        # =>This Inner Loop Header: Depth=1
	movzbl	(%rdi,%rdx), %r8d
	movb	%r8b, -3(%rcx,%rdx)
	movzbl	1(%rdi,%rdx), %r8d
	movb	%r8b, -2(%rcx,%rdx)
	movzbl	2(%rdi,%rdx), %r8d
	movb	%r8b, -1(%rcx,%rdx)
	movzbl	3(%rdi,%rdx), %r8d
	movb	%r8b, (%rcx,%rdx)
	addq	$4, %rdx
	cmpq	%rdx, %rax
	jne	.LBB16_66
	jmp	.LBB16_67
.LBB16_33:                              # %apart.2.i.i.i87
	movq	%rdi, %rdx
	movq	%rax, %r8
	movq	%rax, %rdi
	callq	memmove
	movq	%rdi, %rax
.LBB16_67:                              # %core_slots_Slots_copy_in_i8_20_core_clone_U8Clone_exit_i_112
	movq	%r15, (%rsi)
	movq	%r14, 8(%rsi)
	movq	%rbx, 16(%rsi)
.LBB16_68:                              # %common.ret
	addq	$32, %rsp
	popq	%rbx
	popq	%rdi
	popq	%rsi
	popq	%r14
	popq	%r15
	retq
.LBB16_36:                              # %vector.ph
	movq	%rax, %r8
	andq	$-32, %r8
	leaq	(%rdx,%r15), %r9
	addq	$16, %r9
	xorl	%r10d, %r10d
	.p2align	4
.LBB16_37:                              # %vector.body
                                        # =>This Inner Loop Header: Depth=1
	movdqu	(%rdi,%r10), %xmm0
	movdqu	16(%rdi,%r10), %xmm1
	movdqu	%xmm0, -16(%r9,%r10)
	movdqu	%xmm1, (%r9,%r10)
	addq	$32, %r10
	cmpq	%r10, %r8
	jne	.LBB16_37
# %bb.38:                               # %middle.block
	cmpq	%r8, %rax
	je	.LBB16_67
# %bb.39:                               # %vec.epilog.iter.check
	testb	$28, %al
	je	.LBB16_43
.LBB16_40:                              # %vec.epilog.ph
	movq	%r8, %r9
	movq	%rax, %r8
	andq	$-4, %r8
	.p2align	4
.LBB16_41:                              # %vec.epilog.vector.body
                                        # =>This Inner Loop Header: Depth=1
	movl	(%rdi,%r9), %r10d
	movl	%r10d, (%rcx,%r9)
	addq	$4, %r9
	cmpq	%r9, %r8
	jne	.LBB16_41
# %bb.42:                               # %vec.epilog.middle.block
	cmpq	%r8, %rax
	je	.LBB16_67
	jmp	.LBB16_43
.LBB16_49:                              # %std_alloc_vec_Vec_grow_5fdc5e19576447a7_exit_i97_113
	movq	%rsi, %rcx
	movq	%rax, %r14
	movq	%rax, %rdx
	callq	std_alloc_vec_Vec_grow_amortized_5fdc5e19576447a7_3
	testb	%al, %al
	je	.LBB16_53
# %bb.50:                               # %std_alloc_vec_Vec_grow_5fdc5e19576447a7_exit_join_3_crit_edge_i99_114
	movq	8(%rsi), %rdx
	movq	16(%rsi), %rbx
	movq	%r14, %rax
	jmp	.LBB16_21
.LBB16_51:                              # %vector.main.loop.iter.check19
	cmpq	$32, %rdx
	jae	.LBB16_54
# %bb.52:
	xorl	%r9d, %r9d
	jmp	.LBB16_58
.LBB16_53:
	movq	%r14, %rax
	jmp	.LBB16_68
.LBB16_54:                              # %vector.ph20
	movl	%eax, %r9d
	andl	$2016, %r9d                     # imm = 0x7E0
	leaq	(%r8,%r15), %r10
	addq	$16, %r10
	xorl	%r11d, %r11d
	.p2align	4
.LBB16_55:                              # %vector.body23
                                        # =>This Inner Loop Header: Depth=1
	movdqu	(%rdi,%r11), %xmm0
	movdqu	16(%rdi,%r11), %xmm1
	movdqu	%xmm0, -16(%r10,%r11)
	movdqu	%xmm1, (%r10,%r11)
	addq	$32, %r11
	cmpq	%r11, %r9
	jne	.LBB16_55
# %bb.56:                               # %middle.block28
	cmpq	%r9, %rdx
	je	.LBB16_67
# %bb.57:                               # %vec.epilog.iter.check32
	testb	$28, %al
	je	.LBB16_61
.LBB16_58:                              # %vec.epilog.ph34
	movq	%r9, %r10
	movl	%eax, %r9d
	andl	$2044, %r9d                     # imm = 0x7FC
	.p2align	4
.LBB16_59:                              # %vec.epilog.vector.body37
                                        # =>This Inner Loop Header: Depth=1
	movl	(%rdi,%r10), %r11d
	movl	%r11d, (%rcx,%r10)
	addq	$4, %r10
	cmpq	%r10, %r9
	jne	.LBB16_59
# %bb.60:                               # %vec.epilog.middle.block41
	cmpq	%r9, %rdx
	je	.LBB16_67
	jmp	.LBB16_61
.LBB16_69:                              # %std_alloc_vec_Vec_grow_5fdc5e19576447a7_exit_i_76
	movq	%rdx, %r14
	movq	%rsi, %rcx
	movq	%rax, %r15
	movq	%rax, %rdx
	callq	std_alloc_vec_Vec_grow_amortized_5fdc5e19576447a7_3
	testb	%al, %al
	je	.LBB16_71
# %bb.70:                               # %std_alloc_vec_Vec_grow_5fdc5e19576447a7_exit_join_3_crit_edge_i_115
	movq	8(%rsi), %r8
	movq	16(%rsi), %rbx
	movq	%r15, %rax
	movq	%r14, %rdx
	jmp	.LBB16_30
.LBB16_71:
	movq	%r15, %rax
	jmp	.LBB16_68
	.seh_endproc
                                        # -- End function
	.def	utf_lanes_text_blocks_text_len_110;
	.scl	3;
	.type	32;
	.endef
	.section .rdata$n0,"dr"
	.p2align	4, 0x0                          # -- Begin function utf_lanes::text_blocks::text_len
.LCPI17_0:
	.zero	16,15
.LCPI17_1:
	.byte	2                               # 0x2
	.byte	2                               # 0x2
	.byte	2                               # 0x2
	.byte	2                               # 0x2
	.byte	2                               # 0x2
	.byte	2                               # 0x2
	.byte	2                               # 0x2
	.byte	2                               # 0x2
	.byte	128                             # 0x80
	.byte	128                             # 0x80
	.byte	128                             # 0x80
	.byte	128                             # 0x80
	.byte	5                               # 0x5
	.byte	1                               # 0x1
	.byte	25                              # 0x19
	.byte	97                              # 0x61
.LCPI17_2:
	.byte	207                             # 0xcf
	.byte	135                             # 0x87
	.byte	131                             # 0x83
	.byte	131                             # 0x83
	.byte	163                             # 0xa3
	.byte	227                             # 0xe3
	.byte	227                             # 0xe3
	.byte	227                             # 0xe3
	.byte	227                             # 0xe3
	.byte	227                             # 0xe3
	.byte	227                             # 0xe3
	.byte	227                             # 0xe3
	.byte	227                             # 0xe3
	.byte	243                             # 0xf3
	.byte	227                             # 0xe3
	.byte	227                             # 0xe3
.LCPI17_3:
	.byte	1                               # 0x1
	.byte	1                               # 0x1
	.byte	1                               # 0x1
	.byte	1                               # 0x1
	.byte	1                               # 0x1
	.byte	1                               # 0x1
	.byte	1                               # 0x1
	.byte	1                               # 0x1
	.byte	206                             # 0xce
	.byte	174                             # 0xae
	.byte	182                             # 0xb6
	.byte	182                             # 0xb6
	.byte	1                               # 0x1
	.byte	1                               # 0x1
	.byte	1                               # 0x1
	.byte	1                               # 0x1
.LCPI17_4:
	.zero	16,96
.LCPI17_5:
	.zero	16,112
.LCPI17_6:
	.zero	16,128
	.section .text$n21,"xr"
	.p2align	4
utf_lanes_text_blocks_text_len_110:     # @utf_lanes_text_blocks_text_len_110
.seh_proc utf_lanes_text_blocks_text_len_110
# %bb.0:                                # %start
	pushq	%rsi
	.seh_pushreg %rsi
	pushq	%rdi
	.seh_pushreg %rdi
	subq	$200, %rsp
	.seh_stackalloc 200
	movdqa	%xmm15, 176(%rsp)               # 16-byte Spill
	.seh_savexmm %xmm15, 176
	movdqa	%xmm14, 160(%rsp)               # 16-byte Spill
	.seh_savexmm %xmm14, 160
	movdqa	%xmm13, 144(%rsp)               # 16-byte Spill
	.seh_savexmm %xmm13, 144
	movdqa	%xmm12, 128(%rsp)               # 16-byte Spill
	.seh_savexmm %xmm12, 128
	movdqa	%xmm11, 112(%rsp)               # 16-byte Spill
	.seh_savexmm %xmm11, 112
	movdqa	%xmm10, 96(%rsp)                # 16-byte Spill
	.seh_savexmm %xmm10, 96
	movdqa	%xmm9, 80(%rsp)                 # 16-byte Spill
	.seh_savexmm %xmm9, 80
	movdqa	%xmm8, 64(%rsp)                 # 16-byte Spill
	.seh_savexmm %xmm8, 64
	movdqa	%xmm7, 48(%rsp)                 # 16-byte Spill
	.seh_savexmm %xmm7, 48
	movdqa	%xmm6, 32(%rsp)                 # 16-byte Spill
	.seh_savexmm %xmm6, 32
	.seh_endprologue
	cmpq	$19, %rdx
	jae	.LBB17_17
# %bb.1:                                # %then.1
	cmpq	$17, %rdx
	jae	.LBB17_3
# %bb.2:
	xorl	%eax, %eax
	movq	%rdx, %r8
	subq	%rax, %r8
	cmpq	$3, %r8
	jbe	.LBB17_9
.LBB17_5:                               # %join.3.i15
	cmpq	$16, %r8
	jbe	.LBB17_6
.LBB17_16:                              # %join.3.i
	movl	$3, %r8d
	movaps	32(%rsp), %xmm6                 # 16-byte Reload
	movaps	48(%rsp), %xmm7                 # 16-byte Reload
	movaps	64(%rsp), %xmm8                 # 16-byte Reload
	movaps	80(%rsp), %xmm9                 # 16-byte Reload
	movaps	96(%rsp), %xmm10                # 16-byte Reload
	movaps	112(%rsp), %xmm11               # 16-byte Reload
	movaps	128(%rsp), %xmm12               # 16-byte Reload
	movaps	144(%rsp), %xmm13               # 16-byte Reload
	movaps	160(%rsp), %xmm14               # 16-byte Reload
	movaps	176(%rsp), %xmm15               # 16-byte Reload
	addq	$200, %rsp
	popq	%rdi
	popq	%rsi
	jmp	utf_lanes_text_blocks_few_chars_116 # TAILCALL
.LBB17_17:                              # %join.3
	movdqu	(%rcx), %xmm6
	movdqa	%xmm6, %xmm3
	pslldq	$1, %xmm3                       # xmm3 = zero,xmm3[0,1,2,3,4,5,6,7,8,9,10,11,12,13,14]
	movdqa	%xmm6, %xmm5
	pslldq	$2, %xmm5                       # xmm5 = zero,zero,xmm5[0,1,2,3,4,5,6,7,8,9,10,11,12,13]
	movdqa	%xmm6, %xmm4
	pslldq	$3, %xmm4                       # xmm4 = zero,zero,zero,xmm4[0,1,2,3,4,5,6,7,8,9,10,11,12]
	movdqa	%xmm3, %xmm2
	psrlw	$4, %xmm2
	movdqa	.LCPI17_0(%rip), %xmm0          # xmm0 = [15,15,15,15,15,15,15,15,15,15,15,15,15,15,15,15]
	pand	%xmm0, %xmm2
	movdqa	.LCPI17_1(%rip), %xmm1          # xmm1 = [2,2,2,2,2,2,2,2,128,128,128,128,5,1,25,97]
	movdqa	%xmm1, %xmm7
	pshufb	%xmm2, %xmm7
	pand	%xmm0, %xmm3
	movdqa	.LCPI17_2(%rip), %xmm2          # xmm2 = [207,135,131,131,163,227,227,227,227,227,227,227,227,243,227,227]
	movdqa	%xmm2, %xmm8
	pshufb	%xmm3, %xmm8
	psrlw	$4, %xmm6
	pand	%xmm0, %xmm6
	movdqa	.LCPI17_3(%rip), %xmm3          # xmm3 = [1,1,1,1,1,1,1,1,206,174,182,182,1,1,1,1]
	movdqa	%xmm3, %xmm9
	pshufb	%xmm6, %xmm9
	pand	%xmm8, %xmm9
	pand	%xmm7, %xmm9
	psubusb	.LCPI17_4(%rip), %xmm5
	psubusb	.LCPI17_5(%rip), %xmm4
	por	%xmm5, %xmm4
	pand	.LCPI17_6(%rip), %xmm4
	pcmpeqb	%xmm9, %xmm4
	pmovmskb	%xmm4, %eax
	notl	%eax
	rep		bsfl	%eax, %eax
	cmpw	$16, %ax
	jb	.LBB17_57
# %bb.18:                               # %join.3.i66
	cmpq	$255, %rdx
	ja	.LBB17_31
# %bb.19:                               # %loop.2.i.preheader
	leaq	-80(%rdx), %r8
	movl	$16, %eax
	cmpq	$-65, %r8
	ja	.LBB17_52
# %bb.20:                               # %join.5.i.preheader
	leaq	-64(%rdx), %r8
	.p2align	4
.LBB17_21:                              # %join.5.i
                                        # =>This Loop Header: Depth=1
                                        #     Child Loop BB17_26 Depth 2
	movdqu	(%rcx,%rax), %xmm9
	movdqu	16(%rcx,%rax), %xmm8
	movdqu	32(%rcx,%rax), %xmm6
	movdqu	48(%rcx,%rax), %xmm4
	movdqa	%xmm6, %xmm5
	por	%xmm9, %xmm5
	movdqa	%xmm4, %xmm7
	por	%xmm8, %xmm7
	por	%xmm5, %xmm7
	pmovmskb	%xmm7, %r9d
	testl	%r9d, %r9d
	jne	.LBB17_28
# %bb.22:                               # %then.7.i79
                                        #   in Loop: Header=BB17_21 Depth=1
	cmpb	$-65, -1(%rcx,%rax)
	ja	.LBB17_28
# %bb.23:                               # %join.3.i245
                                        #   in Loop: Header=BB17_21 Depth=1
	cmpb	$-33, -2(%rcx,%rax)
	ja	.LBB17_28
# %bb.24:                               # %utf_lanes_text_blocks_ends_character_exit257_117
                                        #   in Loop: Header=BB17_21 Depth=1
	cmpb	$-17, -3(%rcx,%rax)
	ja	.LBB17_28
# %bb.25:                               # %loop.2.i.i80.preheader
                                        #   in Loop: Header=BB17_21 Depth=1
	movq	%r8, %r9
	subq	%rax, %r9
	.p2align	4
.LBB17_26:                              # %loop.2.i.i80
                                        #   Parent Loop BB17_21 Depth=1
                                        # =>  This Inner Loop Header: Depth=2
	cmpq	$64, %r9
	jb	.LBB17_51
# %bb.27:                               # %join.5.i.i83
                                        #   in Loop: Header=BB17_26 Depth=2
	movdqu	64(%rcx,%rax), %xmm4
	movdqu	80(%rcx,%rax), %xmm5
	movdqu	96(%rcx,%rax), %xmm6
	por	%xmm4, %xmm6
	movdqu	112(%rcx,%rax), %xmm4
	por	%xmm5, %xmm4
	por	%xmm6, %xmm4
	pmovmskb	%xmm4, %r11d
	addq	$-64, %r9
	addq	$64, %rax
	movb	$1, %r10b
	testl	%r11d, %r11d
	je	.LBB17_26
	jmp	.LBB17_30
	.p2align	4
.LBB17_28:                              # %join.9.i
                                        #   in Loop: Header=BB17_21 Depth=1
	movdqu	15(%rcx,%rax), %xmm10
	movdqu	14(%rcx,%rax), %xmm11
	movdqu	-3(%rcx,%rax), %xmm5
	movdqu	-2(%rcx,%rax), %xmm12
	movdqu	-1(%rcx,%rax), %xmm7
	movdqa	%xmm10, %xmm13
	psrlw	$4, %xmm13
	pand	%xmm0, %xmm13
	movdqa	%xmm7, %xmm14
	psrlw	$4, %xmm14
	pand	%xmm0, %xmm14
	movdqa	%xmm1, %xmm15
	pshufb	%xmm14, %xmm15
	movdqa	%xmm1, %xmm14
	pshufb	%xmm13, %xmm14
	pand	%xmm0, %xmm7
	movdqa	%xmm2, %xmm13
	pshufb	%xmm7, %xmm13
	movdqu	13(%rcx,%rax), %xmm7
	pand	%xmm0, %xmm10
	pand	%xmm15, %xmm13
	movdqa	%xmm2, %xmm15
	pshufb	%xmm10, %xmm15
	pand	%xmm14, %xmm15
	psrlw	$4, %xmm8
	pand	%xmm0, %xmm8
	psrlw	$4, %xmm9
	pand	%xmm0, %xmm9
	movdqa	%xmm3, %xmm14
	pshufb	%xmm9, %xmm14
	pand	%xmm13, %xmm14
	movdqa	%xmm3, %xmm13
	pshufb	%xmm8, %xmm13
	pand	%xmm15, %xmm13
	movdqa	.LCPI17_4(%rip), %xmm10         # xmm10 = [96,96,96,96,96,96,96,96,96,96,96,96,96,96,96,96]
	psubusb	%xmm10, %xmm12
	psubusb	%xmm10, %xmm11
	movdqa	.LCPI17_5(%rip), %xmm9          # xmm9 = [112,112,112,112,112,112,112,112,112,112,112,112,112,112,112,112]
	psubusb	%xmm9, %xmm5
	por	%xmm12, %xmm5
	psubusb	%xmm9, %xmm7
	por	%xmm11, %xmm7
	movdqa	.LCPI17_6(%rip), %xmm8          # xmm8 = [128,128,128,128,128,128,128,128,128,128,128,128,128,128,128,128]
	pand	%xmm8, %xmm5
	pcmpeqb	%xmm14, %xmm5
	pand	%xmm8, %xmm7
	pcmpeqb	%xmm13, %xmm7
	movdqu	31(%rcx,%rax), %xmm11
	movdqu	47(%rcx,%rax), %xmm12
	movdqa	%xmm12, %xmm13
	psrlw	$4, %xmm13
	pand	%xmm0, %xmm13
	movdqa	%xmm11, %xmm14
	psrlw	$4, %xmm14
	pand	%xmm0, %xmm14
	movdqa	%xmm1, %xmm15
	pshufb	%xmm14, %xmm15
	movdqa	%xmm1, %xmm14
	pshufb	%xmm13, %xmm14
	pand	%xmm0, %xmm11
	movdqa	%xmm2, %xmm13
	pshufb	%xmm11, %xmm13
	pand	%xmm0, %xmm12
	pand	%xmm15, %xmm13
	movdqa	%xmm2, %xmm11
	pshufb	%xmm12, %xmm11
	pand	%xmm14, %xmm11
	psrlw	$4, %xmm6
	pand	%xmm0, %xmm6
	movdqa	%xmm3, %xmm12
	pshufb	%xmm6, %xmm12
	psrlw	$4, %xmm4
	pand	%xmm0, %xmm4
	pand	%xmm13, %xmm12
	movdqa	%xmm3, %xmm6
	pshufb	%xmm4, %xmm6
	movdqu	46(%rcx,%rax), %xmm4
	pand	%xmm11, %xmm6
	movdqu	30(%rcx,%rax), %xmm11
	psubusb	%xmm10, %xmm11
	psubusb	%xmm10, %xmm4
	movdqu	29(%rcx,%rax), %xmm10
	psubusb	%xmm9, %xmm10
	por	%xmm11, %xmm10
	movdqu	45(%rcx,%rax), %xmm11
	psubusb	%xmm9, %xmm11
	por	%xmm4, %xmm11
	pand	%xmm8, %xmm10
	pcmpeqb	%xmm12, %xmm10
	pand	%xmm5, %xmm10
	pand	%xmm8, %xmm11
	pcmpeqb	%xmm6, %xmm11
	pand	%xmm7, %xmm11
	pand	%xmm10, %xmm11
	pmovmskb	%xmm11, %r9d
	cmpl	$65535, %r9d                    # imm = 0xFFFF
	jne	.LBB17_52
# %bb.29:                               # %then.14.i
                                        #   in Loop: Header=BB17_21 Depth=1
	addq	$64, %rax
	movq	%rdx, %r9
	subq	%rax, %r9
	cmpq	$64, %r9
	setae	%r10b
.LBB17_30:                              # %after.6.i
                                        #   in Loop: Header=BB17_21 Depth=1
	testb	%r10b, %r10b
	jne	.LBB17_21
	jmp	.LBB17_52
.LBB17_3:                               # %join.3.i13
	leaq	-16(%rdx), %r8
	movq	%rcx, %rsi
	movq	%rdx, %rdi
	callq	utf_lanes_text_blocks_few_chars_116
	movq	%rsi, %rcx
	movq	%rdi, %rdx
	movq	%rdx, %r8
	subq	%rax, %r8
	cmpq	$3, %r8
	ja	.LBB17_5
	.p2align	4
.LBB17_9:                               # %loop.2.i.i
	cmpq	%rax, %rdx
	je	.LBB17_64
.LBB17_10:                              # %join.5.i.i
                                        # =>This Inner Loop Header: Depth=1
	cmpb	$0, (%rcx,%rax)
	js	.LBB17_16
# %bb.8:                                # %loop.2.i.i
                                        #   in Loop: Header=BB17_10 Depth=1
	incq	%rax
	cmpq	%rax, %rdx
	jne	.LBB17_10
	jmp	.LBB17_64
.LBB17_6:                               # %join.6.i
	movq	%r8, %r9
	shlq	$4, %r9
	leaq	static.10(%rip), %r10
	movdqu	-64(%r9,%r10), %xmm2
	cmpq	$7, %r8
	ja	.LBB17_11
# %bb.7:                                # %then.1.i20
	movd	(%rcx,%rax), %xmm1              # xmm1 = mem[0],zero,zero,zero
	movl	-4(%rcx,%rdx), %r8d
	movd	%r8d, %xmm0
	punpckldq	%xmm0, %xmm1            # xmm1 = xmm1[0],xmm0[0],xmm1[1],xmm0[1]
	pshufd	$68, %xmm1, %xmm1               # xmm1 = xmm1[0,1,0,1]
	shrl	$8, %r8d
	pshufb	%xmm2, %xmm1
	psrld	$16, %xmm0
	jmp	.LBB17_12
.LBB17_31:                              # %join.3.i70
	movdqu	13(%rcx), %xmm4
	movdqu	14(%rcx), %xmm5
	movdqu	15(%rcx), %xmm6
	movdqu	16(%rcx), %xmm7
	movdqa	%xmm6, %xmm8
	psrlw	$4, %xmm8
	pand	%xmm0, %xmm8
	movdqa	%xmm1, %xmm9
	pshufb	%xmm8, %xmm9
	pand	%xmm0, %xmm6
	movdqa	%xmm2, %xmm8
	pshufb	%xmm6, %xmm8
	pand	%xmm9, %xmm8
	psrlw	$4, %xmm7
	pand	%xmm0, %xmm7
	movdqa	%xmm3, %xmm6
	pshufb	%xmm7, %xmm6
	psubusb	.LCPI17_4(%rip), %xmm5
	psubusb	.LCPI17_5(%rip), %xmm4
	pand	%xmm8, %xmm6
	por	%xmm5, %xmm4
	pand	.LCPI17_6(%rip), %xmm4
	pxor	%xmm6, %xmm4
	movl	$16, %eax
	ptest	%xmm4, %xmm4
	je	.LBB17_32
.LBB17_52:                              # %utf_lanes_text_blocks_valid_len_in_blocks_exit_118
	cmpq	%rdx, %rax
	jae	.LBB17_57
# %bb.53:                               # %join.5.i227.lr.ph
	leaq	-16(%rdx), %r8
	.p2align	4
.LBB17_54:                              # %join.5.i227
                                        # =>This Inner Loop Header: Depth=1
	cmpq	%rax, %r8
	cmovbq	%r8, %rax
	movdqu	-3(%rcx,%rax), %xmm4
	movdqu	-2(%rcx,%rax), %xmm5
	movdqu	-1(%rcx,%rax), %xmm6
	movdqu	(%rcx,%rax), %xmm7
	movdqa	%xmm6, %xmm8
	psrlw	$4, %xmm8
	pand	%xmm0, %xmm8
	movdqa	%xmm1, %xmm9
	pshufb	%xmm8, %xmm9
	pand	%xmm0, %xmm6
	movdqa	%xmm2, %xmm8
	pshufb	%xmm6, %xmm8
	pand	%xmm9, %xmm8
	psrlw	$4, %xmm7
	pand	%xmm0, %xmm7
	movdqa	%xmm3, %xmm6
	pshufb	%xmm7, %xmm6
	pand	%xmm8, %xmm6
	psubusb	.LCPI17_4(%rip), %xmm5
	psubusb	.LCPI17_5(%rip), %xmm4
	por	%xmm5, %xmm4
	pand	.LCPI17_6(%rip), %xmm4
	pcmpeqb	%xmm6, %xmm4
	pmovmskb	%xmm4, %r9d
	notl	%r9d
	rep		bsfl	%r9d, %r9d
	cmpw	$15, %r9w
	jbe	.LBB17_55
# %bb.56:                               # %join.8.i230
                                        #   in Loop: Header=BB17_54 Depth=1
	addq	$16, %rax
	cmpq	%rdx, %rax
	jb	.LBB17_54
.LBB17_57:                              # %utf_lanes_text_blocks_valid_len_exit_119
	cmpq	%rdx, %rax
	jne	.LBB17_61
.LBB17_58:                              # %then.5
	cmpb	$-65, -1(%rcx,%rdx)
	ja	.LBB17_61
# %bb.59:                               # %join.3.i277
	cmpb	$-33, -2(%rcx,%rdx)
	ja	.LBB17_61
# %bb.60:                               # %utf_lanes_text_blocks_ends_character_exit289_120
	cmpb	$-16, -3(%rcx,%rdx)
	jae	.LBB17_61
	jmp	.LBB17_64
.LBB17_55:                              # %then.6.i
	movzwl	%r9w, %r8d
	addq	%r8, %rax
	cmpq	%rdx, %rax
	je	.LBB17_58
	.p2align	4
.LBB17_61:                              # %loop.2.i290
                                        # =>This Inner Loop Header: Depth=1
	testq	%rax, %rax
	je	.LBB17_62
# %bb.63:                               # %join.5.i292
                                        #   in Loop: Header=BB17_61 Depth=1
	leaq	-1(%rax), %rdx
	cmpb	$-64, -1(%rcx,%rax)
	movq	%rdx, %rax
	jl	.LBB17_61
	jmp	.LBB17_64
.LBB17_62:
	xorl	%edx, %edx
	jmp	.LBB17_64
.LBB17_11:                              # %join.3.i19
	movq	-8(%rcx,%rdx), %r8
	movq	%r8, %xmm0
	movq	(%rcx,%rax), %xmm1              # xmm1 = mem[0],zero
	punpcklqdq	%xmm0, %xmm1            # xmm1 = xmm1[0],xmm0[0]
	shrq	$40, %r8
	pshufb	%xmm2, %xmm1
	psrlq	$48, %xmm0
.LBB17_12:                              # %utf_lanes_few_bytes_padded_text_exit_121
	movdqa	%xmm1, %xmm4
	pslldq	$1, %xmm4                       # xmm4 = zero,xmm4[0,1,2,3,4,5,6,7,8,9,10,11,12,13,14]
	movdqa	%xmm1, %xmm3
	pslldq	$2, %xmm3                       # xmm3 = zero,zero,xmm3[0,1,2,3,4,5,6,7,8,9,10,11,12,13]
	movdqa	%xmm1, %xmm2
	pslldq	$3, %xmm2                       # xmm2 = zero,zero,zero,xmm2[0,1,2,3,4,5,6,7,8,9,10,11,12]
	movdqa	%xmm4, %xmm5
	psrlw	$4, %xmm5
	movdqa	.LCPI17_0(%rip), %xmm6          # xmm6 = [15,15,15,15,15,15,15,15,15,15,15,15,15,15,15,15]
	pand	%xmm6, %xmm5
	movdqa	.LCPI17_1(%rip), %xmm7          # xmm7 = [2,2,2,2,2,2,2,2,128,128,128,128,5,1,25,97]
	pshufb	%xmm5, %xmm7
	pand	%xmm6, %xmm4
	movdqa	.LCPI17_2(%rip), %xmm5          # xmm5 = [207,135,131,131,163,227,227,227,227,227,227,227,227,243,227,227]
	pshufb	%xmm4, %xmm5
	psrlw	$4, %xmm1
	pand	%xmm6, %xmm1
	movdqa	.LCPI17_3(%rip), %xmm4          # xmm4 = [1,1,1,1,1,1,1,1,206,174,182,182,1,1,1,1]
	pshufb	%xmm1, %xmm4
	psubusb	.LCPI17_4(%rip), %xmm3
	psubusb	.LCPI17_5(%rip), %xmm2
	pand	%xmm5, %xmm4
	por	%xmm3, %xmm2
	pand	.LCPI17_6(%rip), %xmm2
	pand	%xmm7, %xmm4
	pxor	%xmm4, %xmm2
	ptest	%xmm2, %xmm2
	jne	.LBB17_16
# %bb.13:                               # %utf_lanes_few_bytes_padded_text_exit_121
	pextrb	$1, %xmm0, %eax
	cmpb	$-65, %al
	ja	.LBB17_16
# %bb.14:                               # %utf_lanes_few_bytes_padded_text_exit_121
	movd	%xmm0, %eax
	cmpb	$-33, %al
	ja	.LBB17_16
# %bb.15:                               # %utf_lanes_few_bytes_padded_text_exit_121
	cmpb	$-16, %r8b
	jae	.LBB17_16
.LBB17_64:                              # %common.ret
	movq	%rdx, %rax
	movaps	32(%rsp), %xmm6                 # 16-byte Reload
	movaps	48(%rsp), %xmm7                 # 16-byte Reload
	movaps	64(%rsp), %xmm8                 # 16-byte Reload
	movaps	80(%rsp), %xmm9                 # 16-byte Reload
	movaps	96(%rsp), %xmm10                # 16-byte Reload
	movaps	112(%rsp), %xmm11               # 16-byte Reload
	movaps	128(%rsp), %xmm12               # 16-byte Reload
	movaps	144(%rsp), %xmm13               # 16-byte Reload
	movaps	160(%rsp), %xmm14               # 16-byte Reload
	movaps	176(%rsp), %xmm15               # 16-byte Reload
	addq	$200, %rsp
	popq	%rdi
	popq	%rsi
	retq
.LBB17_32:                              # %join.5.i121.lr.ph
	leaq	-64(%rdx), %r8
	movl	$32, %eax
	xorl	%r9d, %r9d
	.p2align	4
.LBB17_33:                              # %join.5.i121
                                        # =>This Loop Header: Depth=1
                                        #     Child Loop BB17_45 Depth 2
                                        #     Child Loop BB17_38 Depth 2
	movdqu	(%rcx,%rax), %xmm5
	movdqu	16(%rcx,%rax), %xmm4
	movdqu	32(%rcx,%rax), %xmm9
	movdqu	48(%rcx,%rax), %xmm7
	movdqa	%xmm9, %xmm6
	por	%xmm5, %xmm6
	movdqa	%xmm7, %xmm8
	por	%xmm4, %xmm8
	por	%xmm6, %xmm8
	pmovmskb	%xmm8, %r10d
	testl	%r10d, %r10d
	jne	.LBB17_44
# %bb.34:                               # %then.7.i146
                                        #   in Loop: Header=BB17_33 Depth=1
	cmpb	$-65, -1(%rcx,%rax)
	ja	.LBB17_44
# %bb.35:                               # %join.3.i234
                                        #   in Loop: Header=BB17_33 Depth=1
	cmpb	$-33, -2(%rcx,%rax)
	ja	.LBB17_44
# %bb.36:                               # %utf_lanes_text_blocks_ends_character_exit_122
                                        #   in Loop: Header=BB17_33 Depth=1
	cmpb	$-17, -3(%rcx,%rax)
	ja	.LBB17_44
# %bb.37:                               # %then.10.i148
                                        #   in Loop: Header=BB17_33 Depth=1
	addq	$64, %rax
	movq	%rdx, %r9
	subq	%rax, %r9
	cmpq	$128, %r9
	jb	.LBB17_40
	.p2align	4
.LBB17_38:                              # %join.5.i174
                                        #   Parent Loop BB17_33 Depth=1
                                        # =>  This Inner Loop Header: Depth=2
	movdqu	(%rcx,%rax), %xmm4
	movdqu	16(%rcx,%rax), %xmm5
	movdqu	32(%rcx,%rax), %xmm6
	por	%xmm4, %xmm6
	movdqu	48(%rcx,%rax), %xmm4
	por	%xmm5, %xmm4
	por	%xmm6, %xmm4
	movdqu	64(%rcx,%rax), %xmm5
	movdqu	80(%rcx,%rax), %xmm6
	movdqu	96(%rcx,%rax), %xmm7
	por	%xmm5, %xmm7
	movdqu	112(%rcx,%rax), %xmm5
	por	%xmm6, %xmm5
	por	%xmm7, %xmm5
	por	%xmm4, %xmm5
	pmovmskb	%xmm5, %r10d
	testl	%r10d, %r10d
	jne	.LBB17_43
# %bb.39:                               # %join.8.i
                                        #   in Loop: Header=BB17_38 Depth=2
	subq	$-128, %rax
	addq	$-128, %r9
	cmpq	$127, %r9
	ja	.LBB17_38
.LBB17_40:                              # %utf_lanes_ascii_texts_ascii_end_2_exit_123
                                        #   in Loop: Header=BB17_33 Depth=1
	cmpq	$64, %r9
	jb	.LBB17_41
# %bb.42:                               # %utf_lanes_ascii_texts_ascii_end_2_exit_then_2_i_crit_edge_124
                                        #   in Loop: Header=BB17_33 Depth=1
	movdqu	(%rcx,%rax), %xmm4
	movdqu	16(%rcx,%rax), %xmm5
	movdqu	32(%rcx,%rax), %xmm6
	por	%xmm4, %xmm6
	movdqu	48(%rcx,%rax), %xmm4
	por	%xmm5, %xmm4
	por	%xmm6, %xmm4
.LBB17_43:                              # %then.2.i
                                        #   in Loop: Header=BB17_33 Depth=1
	pxor	%xmm5, %xmm5
	pcmpgtb	%xmm4, %xmm5
	pmovmskb	%xmm5, %r9d
	leaq	64(%rax), %r10
	testl	%r9d, %r9d
	cmoveq	%r10, %rax
	xorl	%r9d, %r9d
	jmp	.LBB17_50
	.p2align	4
.LBB17_44:                              # %join.9.i139
                                        #   in Loop: Header=BB17_33 Depth=1
	movdqu	15(%rcx,%rax), %xmm12
	movdqu	14(%rcx,%rax), %xmm6
	movdqu	-3(%rcx,%rax), %xmm8
	movdqu	-2(%rcx,%rax), %xmm11
	movdqu	-1(%rcx,%rax), %xmm10
	movdqa	%xmm12, %xmm13
	psrlw	$4, %xmm13
	pand	%xmm0, %xmm13
	movdqa	%xmm10, %xmm14
	psrlw	$4, %xmm14
	pand	%xmm0, %xmm14
	movdqa	%xmm1, %xmm15
	pshufb	%xmm14, %xmm15
	movdqa	%xmm1, %xmm14
	pshufb	%xmm13, %xmm14
	pand	%xmm0, %xmm10
	movdqa	%xmm2, %xmm13
	pshufb	%xmm10, %xmm13
	movdqu	13(%rcx,%rax), %xmm10
	pand	%xmm0, %xmm12
	pand	%xmm15, %xmm13
	movdqa	%xmm2, %xmm15
	pshufb	%xmm12, %xmm15
	pand	%xmm14, %xmm15
	psrlw	$4, %xmm4
	pand	%xmm0, %xmm4
	psrlw	$4, %xmm5
	pand	%xmm0, %xmm5
	movdqa	%xmm3, %xmm12
	pshufb	%xmm5, %xmm12
	pand	%xmm13, %xmm12
	movdqa	%xmm3, %xmm13
	pshufb	%xmm4, %xmm13
	pand	%xmm15, %xmm13
	movdqa	.LCPI17_4(%rip), %xmm4          # xmm4 = [96,96,96,96,96,96,96,96,96,96,96,96,96,96,96,96]
	psubusb	%xmm4, %xmm11
	psubusb	%xmm4, %xmm6
	movdqa	.LCPI17_5(%rip), %xmm5          # xmm5 = [112,112,112,112,112,112,112,112,112,112,112,112,112,112,112,112]
	psubusb	%xmm5, %xmm8
	por	%xmm11, %xmm8
	psubusb	%xmm5, %xmm10
	por	%xmm6, %xmm10
	movdqa	.LCPI17_6(%rip), %xmm6          # xmm6 = [128,128,128,128,128,128,128,128,128,128,128,128,128,128,128,128]
	pand	%xmm6, %xmm8
	pcmpeqb	%xmm12, %xmm8
	pand	%xmm6, %xmm10
	pcmpeqb	%xmm13, %xmm10
	movdqu	31(%rcx,%rax), %xmm11
	movdqu	47(%rcx,%rax), %xmm12
	movdqa	%xmm12, %xmm13
	psrlw	$4, %xmm13
	pand	%xmm0, %xmm13
	movdqa	%xmm11, %xmm14
	psrlw	$4, %xmm14
	pand	%xmm0, %xmm14
	movdqa	%xmm1, %xmm15
	pshufb	%xmm14, %xmm15
	movdqa	%xmm1, %xmm14
	pshufb	%xmm13, %xmm14
	pand	%xmm0, %xmm11
	movdqa	%xmm2, %xmm13
	pshufb	%xmm11, %xmm13
	pand	%xmm0, %xmm12
	pand	%xmm15, %xmm13
	movdqa	%xmm2, %xmm11
	pshufb	%xmm12, %xmm11
	pand	%xmm14, %xmm11
	psrlw	$4, %xmm9
	pand	%xmm0, %xmm9
	movdqa	%xmm3, %xmm12
	pshufb	%xmm9, %xmm12
	movdqu	46(%rcx,%rax), %xmm9
	psrlw	$4, %xmm7
	pand	%xmm0, %xmm7
	pand	%xmm13, %xmm12
	movdqa	%xmm3, %xmm13
	pshufb	%xmm7, %xmm13
	movdqu	30(%rcx,%rax), %xmm7
	pand	%xmm11, %xmm13
	movdqu	29(%rcx,%rax), %xmm11
	psubusb	%xmm4, %xmm7
	psubusb	%xmm5, %xmm11
	por	%xmm7, %xmm11
	movdqu	45(%rcx,%rax), %xmm7
	psubusb	%xmm4, %xmm9
	psubusb	%xmm5, %xmm7
	por	%xmm9, %xmm7
	pand	%xmm6, %xmm11
	pcmpeqb	%xmm12, %xmm11
	pand	%xmm8, %xmm11
	pand	%xmm6, %xmm7
	pcmpeqb	%xmm13, %xmm7
	pand	%xmm10, %xmm7
	pand	%xmm11, %xmm7
	pmovmskb	%xmm7, %r11d
	leaq	(%rax,%r9), %r10
	cmpq	%r10, %r8
	cmovbq	%r8, %r10
	cmpl	$65535, %r11d                   # imm = 0xFFFF
	jne	.LBB17_48
	.p2align	4
.LBB17_45:                              # %loop.5.i
                                        #   Parent Loop BB17_33 Depth=1
                                        # =>  This Inner Loop Header: Depth=2
	movq	%rax, %r11
	addq	$64, %rax
	cmpq	%r10, %rax
	ja	.LBB17_47
# %bb.46:                               # %join.8.i206
                                        #   in Loop: Header=BB17_45 Depth=2
	movdqu	80(%rcx,%r11), %xmm8
	movdqu	61(%rcx,%r11), %xmm7
	movdqu	63(%rcx,%r11), %xmm9
	movdqu	79(%rcx,%r11), %xmm10
	movdqa	%xmm10, %xmm11
	psrlw	$4, %xmm11
	pand	%xmm0, %xmm11
	movdqa	%xmm9, %xmm12
	psrlw	$4, %xmm12
	pand	%xmm0, %xmm12
	movdqa	%xmm1, %xmm13
	pshufb	%xmm12, %xmm13
	movdqa	%xmm1, %xmm12
	pshufb	%xmm11, %xmm12
	pand	%xmm0, %xmm9
	movdqa	%xmm2, %xmm11
	pshufb	%xmm9, %xmm11
	movdqu	62(%rcx,%r11), %xmm9
	pand	%xmm0, %xmm10
	pand	%xmm13, %xmm11
	movdqa	%xmm2, %xmm13
	pshufb	%xmm10, %xmm13
	movdqu	64(%rcx,%r11), %xmm10
	pand	%xmm12, %xmm13
	psrlw	$4, %xmm10
	pand	%xmm0, %xmm10
	movdqa	%xmm3, %xmm12
	pshufb	%xmm10, %xmm12
	movdqu	78(%rcx,%r11), %xmm10
	psrlw	$4, %xmm8
	pand	%xmm0, %xmm8
	pand	%xmm11, %xmm12
	movdqa	%xmm3, %xmm11
	pshufb	%xmm8, %xmm11
	movdqu	77(%rcx,%r11), %xmm8
	pand	%xmm13, %xmm11
	psubusb	%xmm4, %xmm9
	psubusb	%xmm4, %xmm10
	psubusb	%xmm5, %xmm7
	por	%xmm9, %xmm7
	psubusb	%xmm5, %xmm8
	por	%xmm10, %xmm8
	pand	%xmm6, %xmm7
	pcmpeqb	%xmm12, %xmm7
	pand	%xmm6, %xmm8
	pcmpeqb	%xmm11, %xmm8
	movdqu	95(%rcx,%r11), %xmm9
	movdqu	111(%rcx,%r11), %xmm10
	movdqa	%xmm10, %xmm11
	psrlw	$4, %xmm11
	pand	%xmm0, %xmm11
	movdqa	%xmm9, %xmm12
	psrlw	$4, %xmm12
	pand	%xmm0, %xmm12
	movdqa	%xmm1, %xmm13
	pshufb	%xmm12, %xmm13
	movdqa	%xmm1, %xmm12
	pshufb	%xmm11, %xmm12
	pand	%xmm0, %xmm9
	movdqa	%xmm2, %xmm11
	pshufb	%xmm9, %xmm11
	movdqu	96(%rcx,%r11), %xmm9
	pand	%xmm0, %xmm10
	pand	%xmm13, %xmm11
	movdqa	%xmm2, %xmm13
	pshufb	%xmm10, %xmm13
	movdqu	112(%rcx,%r11), %xmm10
	pand	%xmm12, %xmm13
	psrlw	$4, %xmm9
	pand	%xmm0, %xmm9
	movdqa	%xmm3, %xmm12
	pshufb	%xmm9, %xmm12
	movdqu	110(%rcx,%r11), %xmm9
	psrlw	$4, %xmm10
	pand	%xmm0, %xmm10
	pand	%xmm11, %xmm12
	movdqa	%xmm3, %xmm11
	pshufb	%xmm10, %xmm11
	movdqu	94(%rcx,%r11), %xmm10
	pand	%xmm13, %xmm11
	movdqu	93(%rcx,%r11), %xmm13
	psubusb	%xmm4, %xmm10
	psubusb	%xmm5, %xmm13
	por	%xmm10, %xmm13
	movdqu	109(%rcx,%r11), %xmm10
	psubusb	%xmm4, %xmm9
	psubusb	%xmm5, %xmm10
	por	%xmm9, %xmm10
	pand	%xmm6, %xmm13
	pcmpeqb	%xmm12, %xmm13
	pand	%xmm7, %xmm13
	pand	%xmm6, %xmm10
	pcmpeqb	%xmm11, %xmm10
	pand	%xmm8, %xmm10
	pand	%xmm13, %xmm10
	pmovmskb	%xmm10, %esi
	cmpl	$65535, %esi                    # imm = 0xFFFF
	je	.LBB17_45
.LBB17_47:                              # %utf_lanes_text_blocks_batch_end_exit_loopexit_125
                                        #   in Loop: Header=BB17_33 Depth=1
	addq	$64, %r11
	movq	%r11, %rax
.LBB17_48:                              # %utf_lanes_text_blocks_batch_end_exit_126
                                        #   in Loop: Header=BB17_33 Depth=1
	cmpq	%r10, %rax
	jbe	.LBB17_52
# %bb.49:                               # %join.16.i
                                        #   in Loop: Header=BB17_33 Depth=1
	leaq	64(,%r9,2), %r10
	cmpq	$960, %r10                      # imm = 0x3C0
	movl	$960, %r9d                      # imm = 0x3C0
	cmovbq	%r10, %r9
.LBB17_50:                              # %after.6.i144
                                        #   in Loop: Header=BB17_33 Depth=1
	movq	%rdx, %r10
	subq	%rax, %r10
	cmpq	$63, %r10
	ja	.LBB17_33
	jmp	.LBB17_52
.LBB17_41:                              #   in Loop: Header=BB17_33 Depth=1
	xorl	%r9d, %r9d
	jmp	.LBB17_50
.LBB17_51:                              # %utf_lanes_text_blocks_valid_len_in_blocks_exit_loopexit_127
	addq	$64, %rax
	jmp	.LBB17_52
	.seh_endproc
                                        # -- End function
	.def	utf_lanes_text_blocks_few_chars_116;
	.scl	3;
	.type	32;
	.endef
	.section .text$n22,"xr"
	.p2align	4                               # -- Begin function utf_lanes::text_blocks::few_chars
utf_lanes_text_blocks_few_chars_116:    # @utf_lanes_text_blocks_few_chars_116
# %bb.0:                                # %start
	xorl	%eax, %eax
	jmp	.LBB18_1
	.p2align	4
.LBB18_14:                              # %arm.7
                                        #   in Loop: Header=BB18_1 Depth=1
	addq	%r11, %rax
	cmpq	%r8, %rax
	jae	.LBB18_15
.LBB18_1:                               # %join.5
                                        # =>This Inner Loop Header: Depth=1
	movq	%rdx, %r9
	subq	%rax, %r9
	cmpq	$4, %r9
	jb	.LBB18_15
# %bb.2:                                # %join.3.i
                                        #   in Loop: Header=BB18_1 Depth=1
	movzbl	(%rcx,%rax), %r9d
	movl	$1, %r11d
	testb	%r9b, %r9b
	jns	.LBB18_14
# %bb.3:                                # %join.6.i
                                        #   in Loop: Header=BB18_1 Depth=1
	movzbl	1(%rcx,%rax), %r10d
	cmpb	$-33, %r9b
	ja	.LBB18_6
# %bb.4:                                # %then.7.i
                                        #   in Loop: Header=BB18_1 Depth=1
	cmpb	$-62, %r9b
	jb	.LBB18_15
# %bb.5:                                # %then.7.i
                                        #   in Loop: Header=BB18_1 Depth=1
	movl	$2, %r11d
	cmpb	$-64, %r10b
	jl	.LBB18_14
	jmp	.LBB18_15
.LBB18_6:                               # %join.9.i
                                        #   in Loop: Header=BB18_1 Depth=1
	cmpb	$-65, %r10b
	jg	.LBB18_15
# %bb.7:                                # %join.12.i
                                        #   in Loop: Header=BB18_1 Depth=1
	movl	%r9d, %r11d
	andl	$15, %r9d
	shll	$6, %r9d
	cmpb	$-17, %r11b
	ja	.LBB18_11
# %bb.8:                                # %then.13.i
                                        #   in Loop: Header=BB18_1 Depth=1
	andl	$63, %r10d
	orl	%r10d, %r9d
	movl	%r9d, %r10d
	andl	$-32, %r10d
	cmpl	$864, %r10d                     # imm = 0x360
	je	.LBB18_15
# %bb.9:                                # %join.3.i19
                                        #   in Loop: Header=BB18_1 Depth=1
	cmpb	$-65, 2(%rcx,%rax)
	jg	.LBB18_15
# %bb.10:                               # %join.3.i19
                                        #   in Loop: Header=BB18_1 Depth=1
	movl	$3, %r11d
	cmpl	$31, %r9d
	ja	.LBB18_14
	jmp	.LBB18_15
.LBB18_11:                              # %else.14.i
                                        #   in Loop: Header=BB18_1 Depth=1
	andl	$48, %r10d
	addl	%r10d, %r9d
	addl	$-272, %r9d                     # imm = 0xFEF0
	cmpl	$-256, %r9d
	jb	.LBB18_15
# %bb.12:                               # %after.1.i
                                        #   in Loop: Header=BB18_1 Depth=1
	cmpb	$-65, 2(%rcx,%rax)
	jg	.LBB18_15
# %bb.13:                               # %utf_lanes_text_front_front_of_text_exit_79
                                        #   in Loop: Header=BB18_1 Depth=1
	movl	$4, %r11d
	cmpb	$-64, 3(%rcx,%rax)
	jl	.LBB18_14
.LBB18_15:                              # %common.ret
	retq
                                        # -- End function
	.def	recoding_kernels_copy_damaged_47c24e65252a304d_105;
	.scl	3;
	.type	32;
	.endef
	.section .text$n23,"xr"
	.p2align	4                               # -- Begin function recoding::kernels::copy_damaged::<#47c24e65252a304d>
recoding_kernels_copy_damaged_47c24e65252a304d_105: # @recoding_kernels_copy_damaged_47c24e65252a304d_105
.seh_proc recoding_kernels_copy_damaged_47c24e65252a304d_105
# %bb.0:                                # %start
	pushq	%r15
	.seh_pushreg %r15
	pushq	%r14
	.seh_pushreg %r14
	pushq	%r13
	.seh_pushreg %r13
	pushq	%r12
	.seh_pushreg %r12
	pushq	%rsi
	.seh_pushreg %rsi
	pushq	%rdi
	.seh_pushreg %rdi
	pushq	%rbp
	.seh_pushreg %rbp
	pushq	%rbx
	.seh_pushreg %rbx
	subq	$600, %rsp                      # imm = 0x258
	.seh_stackalloc 600
	.seh_endprologue
	movq	%r8, %rdi
	movq	%rdx, 40(%rsp)                  # 8-byte Spill
	movq	%rcx, %r14
	xorps	%xmm0, %xmm0
	movaps	%xmm0, 48(%rsp)
	movq	$0, 64(%rsp)
	xorl	%r13d, %r13d
	leaq	88(%rsp), %rcx
	movl	$512, %r8d                      # imm = 0x200
	xorl	%edx, %edx
	callq	memset
	leaq	16(%r14), %rax
	movq	%rax, 72(%rsp)                  # 8-byte Spill
	xorl	%r12d, %r12d
	movq	%r14, 32(%rsp)                  # 8-byte Spill
	.p2align	4
.LBB19_1:                               # %loop.2
                                        # =>This Loop Header: Depth=1
                                        #     Child Loop BB19_18 Depth 2
                                        #     Child Loop BB19_22 Depth 2
	leaq	(%r14,%r12), %rbp
	movq	40(%rsp), %r8                   # 8-byte Reload
	subq	%r12, %r8
	leaq	48(%rsp), %rcx
	leaq	88(%rsp), %r9
	movq	%rbp, %rdx
	callq	utf_lanes_mending_mend_0a9db3908d7f4f9c_128
	movq	48(%rsp), %r15
	testq	%r15, %r15
	je	.LBB19_2
# %bb.3:                                # %join.5
                                        #   in Loop: Header=BB19_1 Depth=1
	movq	56(%rsp), %r8
	movq	8(%rdi), %rsi
	movq	16(%rdi), %rbx
	movq	%rbx, %rax
	subq	%rsi, %rax
	cmpq	%rax, %r8
	ja	.LBB19_4
.LBB19_6:                               # %join.3.i
                                        #   in Loop: Header=BB19_1 Depth=1
	movq	(%rdi), %r14
	leaq	(%r14,%rsi), %rcx
	addq	%r8, %rsi
	leaq	88(%rsp), %rdx
	callq	memcpy
	movq	%r14, (%rdi)
	movq	%rsi, 8(%rdi)
	movq	%rbx, 16(%rdi)
.LBB19_7:                               # %std_alloc_vec_Vec_extend_from_slice_0cd040e5c49bc722_exit_129
                                        #   in Loop: Header=BB19_1 Depth=1
	addq	%r15, %r12
	addq	64(%rsp), %r13
	movq	%r13, 80(%rsp)                  # 8-byte Spill
	movq	32(%rsp), %r14                  # 8-byte Reload
	movq	%r14, %rcx
	movq	40(%rsp), %rdx                  # 8-byte Reload
	movq	%r12, %r8
	callq	recoding_kernels_next_text_end_130
	movq	%rax, %r10
	movq	%rax, %r13
	subq	%r12, %r13
	movq	8(%rdi), %rbx
	movq	16(%rdi), %rsi
	movq	%rsi, %rax
	subq	%rbx, %rax
	cmpq	%rax, %r13
	ja	.LBB19_8
.LBB19_10:                              # %join.3.i21
                                        #   in Loop: Header=BB19_1 Depth=1
	leaq	(%r14,%r12), %rdx
	movq	(%rdi), %r14
	xorps	%xmm0, %xmm0
	leaq	8(%rdi), %rax
	movups	%xmm0, (%rax)
	leaq	(%r14,%rbx), %rcx
	movq	%rcx, %rax
	subq	%rdx, %rax
	cmpq	%r13, %rax
	jae	.LBB19_27
# %bb.11:                               # %iter.check
                                        #   in Loop: Header=BB19_1 Depth=1
	cmpq	$4, %r13
	jb	.LBB19_12
# %bb.14:                               # %vector.memcheck
                                        #   in Loop: Header=BB19_1 Depth=1
	addq	%r15, %rbp
	movq	%rcx, %rax
	subq	%rbp, %rax
	cmpq	$32, %rax
	jae	.LBB19_15
.LBB19_12:                              #   in Loop: Header=BB19_1 Depth=1
	xorl	%eax, %eax
	jmp	.LBB19_13
	.p2align	4
.LBB19_27:                              # %apart.2.i.i.i31
                                        #   in Loop: Header=BB19_1 Depth=1
	movq	%r13, %r8
	movq	%r10, %r15
	callq	memmove
	movq	%r15, %r10
	jmp	.LBB19_24
.LBB19_15:                              # %vector.main.loop.iter.check
                                        #   in Loop: Header=BB19_1 Depth=1
	cmpq	$32, %r13
	jae	.LBB19_17
# %bb.16:                               #   in Loop: Header=BB19_1 Depth=1
	xorl	%eax, %eax
	jmp	.LBB19_21
.LBB19_17:                              # %vector.ph
                                        #   in Loop: Header=BB19_1 Depth=1
	movq	%r13, %rax
	andq	$-32, %rax
	addq	72(%rsp), %r12                  # 8-byte Folded Reload
	leaq	(%r14,%rbx), %r8
	addq	$16, %r8
	xorl	%r9d, %r9d
	.p2align	4
.LBB19_18:                              # %vector.body
                                        #   Parent Loop BB19_1 Depth=1
                                        # =>  This Inner Loop Header: Depth=2
	movups	-16(%r12,%r9), %xmm0
	movups	(%r12,%r9), %xmm1
	movups	%xmm0, -16(%r8,%r9)
	movups	%xmm1, (%r8,%r9)
	addq	$32, %r9
	cmpq	%r9, %rax
	jne	.LBB19_18
# %bb.19:                               # %middle.block
                                        #   in Loop: Header=BB19_1 Depth=1
	cmpq	%rax, %r13
	je	.LBB19_24
# %bb.20:                               # %vec.epilog.iter.check
                                        #   in Loop: Header=BB19_1 Depth=1
	testb	$28, %r13b
	je	.LBB19_13
.LBB19_21:                              # %vec.epilog.ph
                                        #   in Loop: Header=BB19_1 Depth=1
	movq	%rax, %r8
	movq	%r13, %rax
	andq	$-4, %rax
	.p2align	4
.LBB19_22:                              # %vec.epilog.vector.body
                                        #   Parent Loop BB19_1 Depth=1
                                        # =>  This Inner Loop Header: Depth=2
	movl	(%rdx,%r8), %r9d
	movl	%r9d, (%rcx,%r8)
	addq	$4, %r8
	cmpq	%r8, %rax
	jne	.LBB19_22
	jmp	.LBB19_23
.LBB19_4:                               # %std_alloc_vec_Vec_grow_5fdc5e19576447a7_exit_i_76
                                        #   in Loop: Header=BB19_1 Depth=1
	movq	%rdi, %rcx
	movq	%r8, %r14
	movq	%r8, %rdx
	callq	std_alloc_vec_Vec_grow_amortized_5fdc5e19576447a7_3
	testb	%al, %al
	je	.LBB19_7
# %bb.5:                                # %std_alloc_vec_Vec_grow_5fdc5e19576447a7_exit_join_3_crit_edge_i_115
                                        #   in Loop: Header=BB19_1 Depth=1
	movq	8(%rdi), %rsi
	movq	16(%rdi), %rbx
	movq	%r14, %r8
	jmp	.LBB19_6
.LBB19_8:                               # %std_alloc_vec_Vec_grow_5fdc5e19576447a7_exit_i41_131
                                        #   in Loop: Header=BB19_1 Depth=1
	movq	%rdi, %rcx
	movq	%r13, %rdx
	movq	%r10, %rsi
	callq	std_alloc_vec_Vec_grow_amortized_5fdc5e19576447a7_3
	movq	%rsi, %r10
	testb	%al, %al
	je	.LBB19_25
# %bb.9:                                # %std_alloc_vec_Vec_grow_5fdc5e19576447a7_exit_join_3_crit_edge_i43_132
                                        #   in Loop: Header=BB19_1 Depth=1
	movq	8(%rdi), %rbx
	movq	16(%rdi), %rsi
	jmp	.LBB19_10
	.p2align	4
.LBB19_13:                              # %join.7.i.i.i34
                                        #   in Loop: Header=BB19_1 Depth=1
	movzbl	(%rdx,%rax), %r8d
	movb	%r8b, (%rcx,%rax)
	incq	%rax
.LBB19_23:                              # %join.7.i.i.i34
                                        #   in Loop: Header=BB19_1 Depth=1
	cmpq	%rax, %r13
	jne	.LBB19_13
.LBB19_24:                              # %core_slots_Slots_copy_in_i8_20_core_clone_U8Clone_exit_i32_133
                                        #   in Loop: Header=BB19_1 Depth=1
	addq	%r13, %rbx
	movq	%r14, (%rdi)
	movq	%rbx, 8(%rdi)
	movq	%rsi, 16(%rdi)
	movq	32(%rsp), %r14                  # 8-byte Reload
.LBB19_25:                              # %std_alloc_vec_Vec_extend_from_slice_0cd040e5c49bc722_exit46_134
                                        #   in Loop: Header=BB19_1 Depth=1
	movq	%r10, %r12
	cmpq	$1024, %r13                     # imm = 0x400
	movq	80(%rsp), %r13                  # 8-byte Reload
	jb	.LBB19_1
	jmp	.LBB19_26
.LBB19_2:
	movq	%r12, %r10
.LBB19_26:                              # %return.6
	movq	%r10, %rax
	movq	%r13, %rdx
	addq	$600, %rsp                      # imm = 0x258
	popq	%rbx
	popq	%rbp
	popq	%rdi
	popq	%rsi
	popq	%r12
	popq	%r13
	popq	%r14
	popq	%r15
	retq
	.seh_endproc
                                        # -- End function
	.def	utf_lanes_mending_mend_0a9db3908d7f4f9c_128;
	.scl	3;
	.type	32;
	.endef
	.section .rdata$n0,"dr"
	.p2align	4, 0x0                          # -- Begin function utf_lanes::mending::mend::<#0a9db3908d7f4f9c>
.LCPI20_0:
	.zero	16,15
.LCPI20_1:
	.byte	2                               # 0x2
	.byte	2                               # 0x2
	.byte	2                               # 0x2
	.byte	2                               # 0x2
	.byte	2                               # 0x2
	.byte	2                               # 0x2
	.byte	2                               # 0x2
	.byte	2                               # 0x2
	.byte	128                             # 0x80
	.byte	128                             # 0x80
	.byte	128                             # 0x80
	.byte	128                             # 0x80
	.byte	5                               # 0x5
	.byte	1                               # 0x1
	.byte	25                              # 0x19
	.byte	97                              # 0x61
.LCPI20_2:
	.byte	207                             # 0xcf
	.byte	135                             # 0x87
	.byte	131                             # 0x83
	.byte	131                             # 0x83
	.byte	163                             # 0xa3
	.byte	227                             # 0xe3
	.byte	227                             # 0xe3
	.byte	227                             # 0xe3
	.byte	227                             # 0xe3
	.byte	227                             # 0xe3
	.byte	227                             # 0xe3
	.byte	227                             # 0xe3
	.byte	227                             # 0xe3
	.byte	243                             # 0xf3
	.byte	227                             # 0xe3
	.byte	227                             # 0xe3
.LCPI20_3:
	.byte	1                               # 0x1
	.byte	1                               # 0x1
	.byte	1                               # 0x1
	.byte	1                               # 0x1
	.byte	1                               # 0x1
	.byte	1                               # 0x1
	.byte	1                               # 0x1
	.byte	1                               # 0x1
	.byte	206                             # 0xce
	.byte	174                             # 0xae
	.byte	182                             # 0xb6
	.byte	182                             # 0xb6
	.byte	1                               # 0x1
	.byte	1                               # 0x1
	.byte	1                               # 0x1
	.byte	1                               # 0x1
.LCPI20_4:
	.zero	16,192
.LCPI20_5:
	.zero	16,224
.LCPI20_6:
	.zero	16,240
	.section .text$n24,"xr"
	.p2align	4
utf_lanes_mending_mend_0a9db3908d7f4f9c_128: # @utf_lanes_mending_mend_0a9db3908d7f4f9c_128
.seh_proc utf_lanes_mending_mend_0a9db3908d7f4f9c_128
# %bb.0:                                # %start
	pushq	%r15
	.seh_pushreg %r15
	pushq	%r14
	.seh_pushreg %r14
	pushq	%r13
	.seh_pushreg %r13
	pushq	%r12
	.seh_pushreg %r12
	pushq	%rsi
	.seh_pushreg %rsi
	pushq	%rdi
	.seh_pushreg %rdi
	pushq	%rbp
	.seh_pushreg %rbp
	pushq	%rbx
	.seh_pushreg %rbx
	subq	$232, %rsp
	.seh_stackalloc 232
	movdqa	%xmm14, 208(%rsp)               # 16-byte Spill
	.seh_savexmm %xmm14, 208
	movdqa	%xmm13, 192(%rsp)               # 16-byte Spill
	.seh_savexmm %xmm13, 192
	movdqa	%xmm12, 176(%rsp)               # 16-byte Spill
	.seh_savexmm %xmm12, 176
	movdqa	%xmm11, 160(%rsp)               # 16-byte Spill
	.seh_savexmm %xmm11, 160
	movdqa	%xmm10, 144(%rsp)               # 16-byte Spill
	.seh_savexmm %xmm10, 144
	movdqa	%xmm9, 128(%rsp)                # 16-byte Spill
	.seh_savexmm %xmm9, 128
	movdqa	%xmm8, 112(%rsp)                # 16-byte Spill
	.seh_savexmm %xmm8, 112
	movdqa	%xmm7, 96(%rsp)                 # 16-byte Spill
	.seh_savexmm %xmm7, 96
	movdqa	%xmm6, 80(%rsp)                 # 16-byte Spill
	.seh_savexmm %xmm6, 80
	.seh_endprologue
	movq	%r8, 56(%rsp)                   # 8-byte Spill
	movq	%rcx, 48(%rsp)                  # 8-byte Spill
	xorl	%r10d, %r10d
	xorl	%r8d, %r8d
	xorl	%r11d, %r11d
	xorl	%esi, %esi
	jmp	.LBB20_1
	.p2align	4
.LBB20_4:                               # %then.12
                                        #   in Loop: Header=BB20_1 Depth=1
	movdqu	%xmm8, (%r9,%r11)
	movdqu	%xmm7, 16(%r9,%r11)
	movdqu	32(%rdx,%rsi), %xmm0
	movdqu	48(%rdx,%rsi), %xmm1
	addq	$64, %rsi
	movdqu	%xmm1, 48(%r9,%r11)
	movdqu	%xmm0, 32(%r9,%r11)
	addq	$64, %r11
	incq	%r8
	cmpq	$4, %r8
	jae	.LBB20_11
.LBB20_1:                               # %then.3
                                        # =>This Loop Header: Depth=1
                                        #     Child Loop BB20_8 Depth 2
	movq	56(%rsp), %rax                  # 8-byte Reload
	subq	%rsi, %rax
	cmpq	$128, %rax
	jb	.LBB20_11
# %bb.2:                                # %then.3
                                        #   in Loop: Header=BB20_1 Depth=1
	cmpq	$256, %r11                      # imm = 0x100
	ja	.LBB20_11
# %bb.3:                                # %join.5
                                        #   in Loop: Header=BB20_1 Depth=1
	movdqu	(%rdx,%rsi), %xmm8
	movdqu	16(%rdx,%rsi), %xmm7
	movdqu	32(%rdx,%rsi), %xmm0
	movdqu	48(%rdx,%rsi), %xmm1
	movdqa	%xmm0, %xmm2
	por	%xmm8, %xmm2
	movdqa	%xmm1, %xmm3
	por	%xmm7, %xmm3
	por	%xmm2, %xmm3
	pmovmskb	%xmm3, %eax
	testl	%eax, %eax
	je	.LBB20_4
# %bb.5:                                # %else.13
                                        #   in Loop: Header=BB20_1 Depth=1
	movq	%r8, 72(%rsp)                   # 8-byte Spill
	movdqa	%xmm7, %xmm3
	psrlw	$4, %xmm3
	movdqa	.LCPI20_0(%rip), %xmm2          # xmm2 = [15,15,15,15,15,15,15,15,15,15,15,15,15,15,15,15]
	pand	%xmm2, %xmm3
	movdqa	%xmm8, %xmm4
	psrlw	$4, %xmm4
	pand	%xmm2, %xmm4
	movdqa	.LCPI20_1(%rip), %xmm6          # xmm6 = [2,2,2,2,2,2,2,2,128,128,128,128,5,1,25,97]
	movdqa	%xmm6, %xmm5
	pshufb	%xmm4, %xmm5
	movdqa	%xmm6, %xmm4
	pshufb	%xmm3, %xmm4
	movdqa	%xmm8, %xmm10
	pand	%xmm2, %xmm10
	movdqa	%xmm7, %xmm11
	pand	%xmm2, %xmm11
	movdqa	.LCPI20_2(%rip), %xmm3          # xmm3 = [207,135,131,131,163,227,227,227,227,227,227,227,227,243,227,227]
	movdqa	%xmm3, %xmm9
	pshufb	%xmm10, %xmm9
	pand	%xmm5, %xmm9
	movdqa	%xmm3, %xmm10
	pshufb	%xmm11, %xmm10
	pand	%xmm4, %xmm10
	movdqu	1(%rdx,%rsi), %xmm13
	movdqu	17(%rdx,%rsi), %xmm11
	movdqa	.LCPI20_4(%rip), %xmm4          # xmm4 = [192,192,192,192,192,192,192,192,192,192,192,192,192,192,192,192]
	movdqa	%xmm4, %xmm12
	pcmpgtb	%xmm13, %xmm12
	psrlw	$4, %xmm13
	pand	%xmm2, %xmm13
	movdqa	.LCPI20_3(%rip), %xmm5          # xmm5 = [1,1,1,1,1,1,1,1,206,174,182,182,1,1,1,1]
	movdqa	%xmm5, %xmm14
	pshufb	%xmm13, %xmm14
	movdqa	%xmm4, %xmm13
	pcmpgtb	%xmm11, %xmm13
	psrlw	$4, %xmm11
	pand	%xmm2, %xmm11
	pand	%xmm9, %xmm14
	movdqa	%xmm5, %xmm9
	pshufb	%xmm11, %xmm9
	pand	%xmm10, %xmm9
	pmovmskb	%xmm13, %ecx
	pxor	%xmm11, %xmm11
	pcmpeqb	%xmm11, %xmm9
	pand	%xmm13, %xmm9
	pmovmskb	%xmm12, %ebp
	pcmpeqb	%xmm11, %xmm14
	pand	%xmm12, %xmm14
	pmovmskb	%xmm14, %r14d
	pmovmskb	%xmm9, %r12d
	pmovmskb	%xmm8, %eax
	movl	%eax, 8(%rsp)                   # 4-byte Spill
	pmovmskb	%xmm7, %r8d
	movdqa	.LCPI20_5(%rip), %xmm10         # xmm10 = [224,224,224,224,224,224,224,224,224,224,224,224,224,224,224,224]
	movdqa	%xmm8, %xmm9
	pmaxub	%xmm10, %xmm9
	pcmpeqb	%xmm8, %xmm9
	pmovmskb	%xmm9, %eax
	movl	%eax, 44(%rsp)                  # 4-byte Spill
	movdqa	%xmm7, %xmm9
	pmaxub	%xmm10, %xmm9
	pcmpeqb	%xmm7, %xmm9
	pmovmskb	%xmm9, %r13d
	movdqa	.LCPI20_6(%rip), %xmm9          # xmm9 = [240,240,240,240,240,240,240,240,240,240,240,240,240,240,240,240]
	movdqa	%xmm8, %xmm12
	pmaxub	%xmm9, %xmm12
	pcmpeqb	%xmm8, %xmm12
	pmovmskb	%xmm12, %eax
	movl	%eax, 40(%rsp)                  # 4-byte Spill
	movdqa	%xmm7, %xmm8
	pmaxub	%xmm9, %xmm8
	pcmpeqb	%xmm7, %xmm8
	pmovmskb	%xmm8, %eax
	movq	%rax, 24(%rsp)                  # 8-byte Spill
	movdqa	%xmm1, %xmm7
	psrlw	$4, %xmm7
	pand	%xmm2, %xmm7
	movdqa	%xmm0, %xmm8
	psrlw	$4, %xmm8
	pand	%xmm2, %xmm8
	movdqa	%xmm6, %xmm12
	pshufb	%xmm8, %xmm12
	pshufb	%xmm7, %xmm6
	movdqa	%xmm0, %xmm8
	pand	%xmm2, %xmm8
	movdqa	%xmm3, %xmm7
	pshufb	%xmm8, %xmm7
	movdqu	33(%rdx,%rsi), %xmm8
	pand	%xmm12, %xmm7
	movdqa	%xmm1, %xmm12
	pand	%xmm2, %xmm12
	pshufb	%xmm12, %xmm3
	movdqu	49(%rdx,%rsi), %xmm12
	pand	%xmm6, %xmm3
	movdqa	%xmm4, %xmm6
	pcmpgtb	%xmm12, %xmm4
	psrlw	$4, %xmm12
	pand	%xmm2, %xmm12
	pcmpgtb	%xmm8, %xmm6
	psrlw	$4, %xmm8
	pand	%xmm2, %xmm8
	movdqa	%xmm5, %xmm2
	pshufb	%xmm8, %xmm2
	pand	%xmm7, %xmm2
	pshufb	%xmm12, %xmm5
	pand	%xmm3, %xmm5
	pcmpeqb	%xmm11, %xmm2
	pcmpeqb	%xmm11, %xmm5
	pmovmskb	%xmm4, %ebx
	pand	%xmm4, %xmm5
	pmovmskb	%xmm6, %eax
	movl	%eax, 36(%rsp)                  # 4-byte Spill
	pand	%xmm6, %xmm2
	pmovmskb	%xmm2, %eax
	movl	%eax, 32(%rsp)                  # 4-byte Spill
	pmovmskb	%xmm5, %edi
	movdqa	%xmm1, %xmm2
	pmaxub	%xmm10, %xmm2
	pmaxub	%xmm0, %xmm10
	pcmpeqb	%xmm0, %xmm10
	pmovmskb	%xmm10, %eax
	shll	$16, %ecx
	orl	%ebp, %ecx
	movq	%rcx, 64(%rsp)                  # 8-byte Spill
	shll	$16, %r12d
	orl	%r14d, %r12d
	pmovmskb	%xmm1, %ebp
	pcmpeqb	%xmm1, %xmm2
	pmovmskb	%xmm2, %ecx
	movq	%rcx, 16(%rsp)                  # 8-byte Spill
	movdqa	%xmm1, %xmm2
	pmaxub	%xmm9, %xmm2
	pcmpeqb	%xmm1, %xmm2
	movq	%r8, %rcx
	shll	$16, %ecx
	addl	8(%rsp), %ecx                   # 4-byte Folded Reload
	pmovmskb	%xmm0, %r15d
	pmaxub	%xmm0, %xmm9
	pcmpeqb	%xmm0, %xmm9
	shll	$16, %r13d
	addl	44(%rsp), %r13d                 # 4-byte Folded Reload
	movq	%r13, 8(%rsp)                   # 8-byte Spill
	pmovmskb	%xmm9, %r14d
	movq	24(%rsp), %r8                   # 8-byte Reload
	shll	$16, %r8d
	addl	40(%rsp), %r8d                  # 4-byte Folded Reload
	movq	%r8, 24(%rsp)                   # 8-byte Spill
	pmovmskb	%xmm2, %r13d
	shll	$16, %ebx
	addl	36(%rsp), %ebx                  # 4-byte Folded Reload
	shll	$16, %edi
	addl	32(%rsp), %edi                  # 4-byte Folded Reload
	shlq	$32, %rdi
	orq	%r12, %rdi
	movq	%rbx, %r8
	shlq	$32, %r8
	addq	64(%rsp), %r8                   # 8-byte Folded Reload
	shlq	$48, %rbp
	shlq	$32, %r15
	orq	%rcx, %r15
	orq	%rbp, %r15
	movq	16(%rsp), %rcx                  # 8-byte Reload
	shlq	$48, %rcx
	movq	%rcx, 16(%rsp)                  # 8-byte Spill
	shlq	$32, %rax
	addq	8(%rsp), %rax                   # 8-byte Folded Reload
	orq	%rcx, %rax
	shlq	$48, %r13
	shlq	$32, %r14
	addq	24(%rsp), %r14                  # 8-byte Folded Reload
	orq	%r13, %r14
	movq	%r8, %rcx
	shrq	%rcx
	andq	%rax, %rcx
	andq	%rdi, %rcx
	shrq	$2, %r8
	movq	%r8, %r12
	andq	%r14, %r12
	andq	%rcx, %r12
	notq	%r14
	orq	%r8, %r14
	andq	%rcx, %r14
	notq	%rax
	andq	%rdi, %rax
	orq	%r14, %rax
	leaq	(%rax,%rax), %rcx
	shlq	$2, %r14
	shlq	$3, %r12
	orq	%r14, %r12
	orq	%rcx, %r12
	orq	%rax, %r12
	notl	%ebx
	shlq	$33, %rbx
	movabsq	$-9223372036854775808, %rax     # imm = 0x8000000000000000
	andq	%rbp, %rax
	andq	%rbx, %rax
	movabsq	$4611686018427387904, %rcx      # imm = 0x4000000000000000
	andq	16(%rsp), %rcx                  # 8-byte Folded Reload
	movabsq	$2305843009213693952, %r8       # imm = 0x2000000000000000
	andq	%r13, %r8
	orq	%rcx, %r8
	orq	%rax, %r8
	movl	$64, %eax
	rep		bsfq	%r8, %rax
	notq	%r12
	movl	%eax, %ecx
	negb	%cl
	shlq	%cl, %r15
	shrq	%cl, %r15
	andq	%r12, %r15
	je	.LBB20_6
# %bb.7:                                # %join.5.i.preheader
                                        #   in Loop: Header=BB20_1 Depth=1
	movq	%r15, %r8
	movq	%rsi, %rcx
	.p2align	4
.LBB20_8:                               # %join.5.i
                                        #   Parent Loop BB20_1 Depth=1
                                        # =>  This Inner Loop Header: Depth=2
	movq	%r8, %rdi
	rep		bsfq	%r8, %r8
	leaq	(%r8,%rsi), %rbx
	movups	(%rdx,%rcx), %xmm0
	movups	16(%rdx,%rcx), %xmm1
	movups	%xmm1, 16(%r9,%r11)
	movups	%xmm0, (%r9,%r11)
	movdqu	32(%rdx,%rcx), %xmm0
	movdqu	48(%rdx,%rcx), %xmm1
	movdqu	%xmm1, 48(%r9,%r11)
	movdqu	%xmm0, 32(%r9,%r11)
	subq	%rcx, %rbx
	leaq	(%rbx,%r11), %rcx
	movl	$62767087, (%r9,%rcx)           # imm = 0x3BDBFEF
	leaq	(%r8,%rsi), %rcx
	incq	%rcx
	addq	%rbx, %r11
	addq	$3, %r11
	incq	%r10
	leaq	-1(%rdi), %r8
	andq	%rdi, %r8
	jne	.LBB20_8
	jmp	.LBB20_9
	.p2align	4
.LBB20_6:                               #   in Loop: Header=BB20_1 Depth=1
	movq	%rsi, %rcx
.LBB20_9:                               # %utf_lanes_mending_put_window_0a9db3908d7f4f9c_exit_135
                                        #   in Loop: Header=BB20_1 Depth=1
	addq	%rax, %rsi
	movq	%rsi, %rax
	subq	%rcx, %rax
	addq	%r11, %rax
	movq	72(%rsp), %r8                   # 8-byte Reload
	addq	$2, %r8
	testq	%r15, %r15
	movups	(%rdx,%rcx), %xmm0
	movups	16(%rdx,%rcx), %xmm1
	movups	%xmm1, 16(%r9,%r11)
	movups	%xmm0, (%r9,%r11)
	movdqu	32(%rdx,%rcx), %xmm0
	movdqu	48(%rdx,%rcx), %xmm1
	movdqu	%xmm1, 48(%r9,%r11)
	movdqu	%xmm0, 32(%r9,%r11)
	movl	$2, %ecx
	cmovneq	%rcx, %r8
	movq	%rax, %r11
	cmpq	$4, %r8
	jb	.LBB20_1
.LBB20_11:                              # %after.1
	movq	48(%rsp), %rax                  # 8-byte Reload
	movq	%rsi, (%rax)
	movq	%r11, 8(%rax)
	movq	%r10, 16(%rax)
	movaps	80(%rsp), %xmm6                 # 16-byte Reload
	movaps	96(%rsp), %xmm7                 # 16-byte Reload
	movaps	112(%rsp), %xmm8                # 16-byte Reload
	movaps	128(%rsp), %xmm9                # 16-byte Reload
	movaps	144(%rsp), %xmm10               # 16-byte Reload
	movaps	160(%rsp), %xmm11               # 16-byte Reload
	movaps	176(%rsp), %xmm12               # 16-byte Reload
	movaps	192(%rsp), %xmm13               # 16-byte Reload
	movaps	208(%rsp), %xmm14               # 16-byte Reload
	addq	$232, %rsp
	popq	%rbx
	popq	%rbp
	popq	%rdi
	popq	%rsi
	popq	%r12
	popq	%r13
	popq	%r14
	popq	%r15
	retq
	.seh_endproc
                                        # -- End function
	.def	recoding_kernels_next_text_end_130;
	.scl	3;
	.type	32;
	.endef
	.section .rdata$n0,"dr"
	.p2align	4, 0x0                          # -- Begin function recoding::kernels::next_text_end
.LCPI21_0:
	.zero	16,15
.LCPI21_1:
	.byte	2                               # 0x2
	.byte	2                               # 0x2
	.byte	2                               # 0x2
	.byte	2                               # 0x2
	.byte	2                               # 0x2
	.byte	2                               # 0x2
	.byte	2                               # 0x2
	.byte	2                               # 0x2
	.byte	128                             # 0x80
	.byte	128                             # 0x80
	.byte	128                             # 0x80
	.byte	128                             # 0x80
	.byte	5                               # 0x5
	.byte	1                               # 0x1
	.byte	25                              # 0x19
	.byte	97                              # 0x61
.LCPI21_2:
	.byte	207                             # 0xcf
	.byte	135                             # 0x87
	.byte	131                             # 0x83
	.byte	131                             # 0x83
	.byte	163                             # 0xa3
	.byte	227                             # 0xe3
	.byte	227                             # 0xe3
	.byte	227                             # 0xe3
	.byte	227                             # 0xe3
	.byte	227                             # 0xe3
	.byte	227                             # 0xe3
	.byte	227                             # 0xe3
	.byte	227                             # 0xe3
	.byte	243                             # 0xf3
	.byte	227                             # 0xe3
	.byte	227                             # 0xe3
.LCPI21_3:
	.byte	1                               # 0x1
	.byte	1                               # 0x1
	.byte	1                               # 0x1
	.byte	1                               # 0x1
	.byte	1                               # 0x1
	.byte	1                               # 0x1
	.byte	1                               # 0x1
	.byte	1                               # 0x1
	.byte	206                             # 0xce
	.byte	174                             # 0xae
	.byte	182                             # 0xb6
	.byte	182                             # 0xb6
	.byte	1                               # 0x1
	.byte	1                               # 0x1
	.byte	1                               # 0x1
	.byte	1                               # 0x1
.LCPI21_4:
	.zero	16,96
.LCPI21_5:
	.zero	16,112
.LCPI21_6:
	.zero	16,128
	.section .text$n25,"xr"
	.p2align	4
recoding_kernels_next_text_end_130:     # @recoding_kernels_next_text_end_130
.seh_proc recoding_kernels_next_text_end_130
# %bb.0:                                # %start
	pushq	%rsi
	.seh_pushreg %rsi
	pushq	%rdi
	.seh_pushreg %rdi
	subq	$168, %rsp
	.seh_stackalloc 168
	movdqa	%xmm15, 144(%rsp)               # 16-byte Spill
	.seh_savexmm %xmm15, 144
	movdqa	%xmm14, 128(%rsp)               # 16-byte Spill
	.seh_savexmm %xmm14, 128
	movdqa	%xmm13, 112(%rsp)               # 16-byte Spill
	.seh_savexmm %xmm13, 112
	movdqa	%xmm12, 96(%rsp)                # 16-byte Spill
	.seh_savexmm %xmm12, 96
	movdqa	%xmm11, 80(%rsp)                # 16-byte Spill
	.seh_savexmm %xmm11, 80
	movdqa	%xmm10, 64(%rsp)                # 16-byte Spill
	.seh_savexmm %xmm10, 64
	movdqa	%xmm9, 48(%rsp)                 # 16-byte Spill
	.seh_savexmm %xmm9, 48
	movdqa	%xmm8, 32(%rsp)                 # 16-byte Spill
	.seh_savexmm %xmm8, 32
	movdqa	%xmm7, 16(%rsp)                 # 16-byte Spill
	.seh_savexmm %xmm7, 16
	movdqa	%xmm6, (%rsp)                   # 16-byte Spill
	.seh_savexmm %xmm6, 0
	.seh_endprologue
	movq	%r8, %rax
	addq	$8192, %r8                      # imm = 0x2000
	cmpq	%r8, %rdx
	cmovbq	%rdx, %r8
	cmpq	$3, %rax
	jb	.LBB21_29
# %bb.1:                                # %then.2
	cmpb	$-65, -1(%rcx,%rax)
	ja	.LBB21_29
# %bb.2:                                # %join.3.i
	cmpb	$-33, -2(%rcx,%rax)
	ja	.LBB21_29
# %bb.3:                                # %utf_lanes_text_blocks_ends_character_exit_122
	cmpb	$-17, -3(%rcx,%rax)
	ja	.LBB21_29
# %bb.4:                                # %loop.2.i.i.preheader
	movq	%r8, %r9
	subq	%rax, %r9
	movq	%rax, %rdx
	cmpq	$64, %r9
	jb	.LBB21_24
# %bb.5:                                # %join.5.i.i.lr.ph
	leaq	-64(%r8), %r9
	xorl	%r10d, %r10d
	movq	%rax, %rdx
	.p2align	4
.LBB21_6:                               # %join.5.i.i
                                        # =>This Loop Header: Depth=1
                                        #     Child Loop BB21_18 Depth 2
                                        #     Child Loop BB21_11 Depth 2
	movdqu	(%rcx,%rdx), %xmm5
	movdqu	16(%rcx,%rdx), %xmm4
	movdqu	32(%rcx,%rdx), %xmm10
	movdqu	48(%rcx,%rdx), %xmm7
	movdqa	%xmm10, %xmm0
	por	%xmm5, %xmm0
	movdqa	%xmm7, %xmm1
	por	%xmm4, %xmm1
	por	%xmm0, %xmm1
	pmovmskb	%xmm1, %r11d
	testl	%r11d, %r11d
	jne	.LBB21_17
# %bb.7:                                # %then.7.i.i
                                        #   in Loop: Header=BB21_6 Depth=1
	cmpb	$-65, -1(%rcx,%rdx)
	ja	.LBB21_17
# %bb.8:                                # %join.3.i.i
                                        #   in Loop: Header=BB21_6 Depth=1
	cmpb	$-33, -2(%rcx,%rdx)
	ja	.LBB21_17
# %bb.9:                                # %utf_lanes_text_blocks_ends_character_exit_i_136
                                        #   in Loop: Header=BB21_6 Depth=1
	cmpb	$-17, -3(%rcx,%rdx)
	ja	.LBB21_17
# %bb.10:                               # %then.10.i.i
                                        #   in Loop: Header=BB21_6 Depth=1
	addq	$64, %rdx
	movq	%r8, %r10
	subq	%rdx, %r10
	cmpq	$128, %r10
	jb	.LBB21_13
.LBB21_11:                              # %join.5.i22.i
                                        #   Parent Loop BB21_6 Depth=1
                                        # =>  This Inner Loop Header: Depth=2
	movdqu	(%rcx,%rdx), %xmm0
	movdqu	16(%rcx,%rdx), %xmm1
	movdqu	32(%rcx,%rdx), %xmm2
	por	%xmm0, %xmm2
	movdqu	48(%rcx,%rdx), %xmm0
	por	%xmm1, %xmm0
	por	%xmm2, %xmm0
	movdqu	64(%rcx,%rdx), %xmm1
	movdqu	80(%rcx,%rdx), %xmm2
	movdqu	96(%rcx,%rdx), %xmm3
	por	%xmm1, %xmm3
	movdqu	112(%rcx,%rdx), %xmm1
	por	%xmm2, %xmm1
	por	%xmm3, %xmm1
	por	%xmm0, %xmm1
	pmovmskb	%xmm1, %r11d
	testl	%r11d, %r11d
	jne	.LBB21_16
# %bb.12:                               # %join.8.i.i
                                        #   in Loop: Header=BB21_11 Depth=2
	subq	$-128, %rdx
	addq	$-128, %r10
	cmpq	$127, %r10
	ja	.LBB21_11
.LBB21_13:                              # %utf_lanes_ascii_texts_ascii_end_2_exit_i_137
                                        #   in Loop: Header=BB21_6 Depth=1
	cmpq	$64, %r10
	jb	.LBB21_14
# %bb.15:                               # %utf_lanes_ascii_texts_ascii_end_2_exit_i_then_2_i_i_crit_edge_138
                                        #   in Loop: Header=BB21_6 Depth=1
	movdqu	(%rcx,%rdx), %xmm0
	movdqu	16(%rcx,%rdx), %xmm1
	movdqu	32(%rcx,%rdx), %xmm2
	por	%xmm0, %xmm2
	movdqu	48(%rcx,%rdx), %xmm0
	por	%xmm1, %xmm0
	por	%xmm2, %xmm0
.LBB21_16:                              # %then.2.i.i
                                        #   in Loop: Header=BB21_6 Depth=1
	pxor	%xmm1, %xmm1
	pcmpgtb	%xmm0, %xmm1
	pmovmskb	%xmm1, %r10d
	leaq	64(%rdx), %r11
	testl	%r10d, %r10d
	cmoveq	%r11, %rdx
	xorl	%r10d, %r10d
	movq	%r8, %r11
	subq	%rdx, %r11
	cmpq	$63, %r11
	ja	.LBB21_6
	jmp	.LBB21_24
	.p2align	4
.LBB21_17:                              # %join.9.i.i
                                        #   in Loop: Header=BB21_6 Depth=1
	movdqu	15(%rcx,%rdx), %xmm3
	movdqu	14(%rcx,%rdx), %xmm6
	movdqu	-3(%rcx,%rdx), %xmm9
	movdqu	-2(%rcx,%rdx), %xmm11
	movdqu	-1(%rcx,%rdx), %xmm12
	movdqu	13(%rcx,%rdx), %xmm8
	movdqa	%xmm3, %xmm2
	psrlw	$4, %xmm2
	movdqa	.LCPI21_0(%rip), %xmm0          # xmm0 = [15,15,15,15,15,15,15,15,15,15,15,15,15,15,15,15]
	pand	%xmm0, %xmm2
	movdqa	%xmm12, %xmm13
	psrlw	$4, %xmm13
	pand	%xmm0, %xmm13
	movdqa	.LCPI21_1(%rip), %xmm1          # xmm1 = [2,2,2,2,2,2,2,2,128,128,128,128,5,1,25,97]
	movdqa	%xmm1, %xmm14
	pshufb	%xmm13, %xmm14
	movdqa	%xmm1, %xmm13
	pshufb	%xmm2, %xmm13
	pand	%xmm0, %xmm3
	pand	%xmm0, %xmm12
	movdqa	.LCPI21_2(%rip), %xmm2          # xmm2 = [207,135,131,131,163,227,227,227,227,227,227,227,227,243,227,227]
	movdqa	%xmm2, %xmm15
	pshufb	%xmm12, %xmm15
	pand	%xmm14, %xmm15
	movdqa	%xmm2, %xmm12
	pshufb	%xmm3, %xmm12
	pand	%xmm13, %xmm12
	psrlw	$4, %xmm4
	pand	%xmm0, %xmm4
	psrlw	$4, %xmm5
	pand	%xmm0, %xmm5
	movdqa	.LCPI21_3(%rip), %xmm3          # xmm3 = [1,1,1,1,1,1,1,1,206,174,182,182,1,1,1,1]
	movdqa	%xmm3, %xmm13
	pshufb	%xmm5, %xmm13
	pand	%xmm15, %xmm13
	movdqa	%xmm3, %xmm14
	pshufb	%xmm4, %xmm14
	pand	%xmm12, %xmm14
	movdqa	.LCPI21_4(%rip), %xmm4          # xmm4 = [96,96,96,96,96,96,96,96,96,96,96,96,96,96,96,96]
	psubusb	%xmm4, %xmm11
	psubusb	%xmm4, %xmm6
	movdqa	.LCPI21_5(%rip), %xmm5          # xmm5 = [112,112,112,112,112,112,112,112,112,112,112,112,112,112,112,112]
	psubusb	%xmm5, %xmm9
	por	%xmm11, %xmm9
	psubusb	%xmm5, %xmm8
	por	%xmm6, %xmm8
	movdqa	.LCPI21_6(%rip), %xmm6          # xmm6 = [128,128,128,128,128,128,128,128,128,128,128,128,128,128,128,128]
	pand	%xmm6, %xmm9
	pcmpeqb	%xmm13, %xmm9
	pand	%xmm6, %xmm8
	pcmpeqb	%xmm14, %xmm8
	movdqu	31(%rcx,%rdx), %xmm11
	movdqu	47(%rcx,%rdx), %xmm12
	movdqa	%xmm12, %xmm13
	psrlw	$4, %xmm13
	pand	%xmm0, %xmm13
	movdqa	%xmm11, %xmm14
	psrlw	$4, %xmm14
	pand	%xmm0, %xmm14
	movdqa	%xmm1, %xmm15
	pshufb	%xmm14, %xmm15
	movdqa	%xmm1, %xmm14
	pshufb	%xmm13, %xmm14
	pand	%xmm0, %xmm11
	movdqa	%xmm2, %xmm13
	pshufb	%xmm11, %xmm13
	pand	%xmm0, %xmm12
	pand	%xmm15, %xmm13
	movdqa	%xmm2, %xmm11
	pshufb	%xmm12, %xmm11
	pand	%xmm14, %xmm11
	psrlw	$4, %xmm10
	pand	%xmm0, %xmm10
	movdqa	%xmm3, %xmm12
	pshufb	%xmm10, %xmm12
	movdqu	46(%rcx,%rdx), %xmm10
	psrlw	$4, %xmm7
	pand	%xmm0, %xmm7
	pand	%xmm13, %xmm12
	movdqa	%xmm3, %xmm13
	pshufb	%xmm7, %xmm13
	movdqu	30(%rcx,%rdx), %xmm7
	pand	%xmm11, %xmm13
	movdqu	29(%rcx,%rdx), %xmm11
	psubusb	%xmm4, %xmm7
	psubusb	%xmm5, %xmm11
	por	%xmm7, %xmm11
	movdqu	45(%rcx,%rdx), %xmm7
	psubusb	%xmm4, %xmm10
	psubusb	%xmm5, %xmm7
	por	%xmm10, %xmm7
	pand	%xmm6, %xmm11
	pcmpeqb	%xmm12, %xmm11
	pand	%xmm9, %xmm11
	pand	%xmm6, %xmm7
	pcmpeqb	%xmm13, %xmm7
	pand	%xmm8, %xmm7
	pand	%xmm11, %xmm7
	pmovmskb	%xmm7, %esi
	leaq	(%rdx,%r10), %r11
	cmpq	%r11, %r9
	cmovbq	%r9, %r11
	cmpl	$65535, %esi                    # imm = 0xFFFF
	jne	.LBB21_21
	.p2align	4
.LBB21_18:                              # %loop.5.i.i
                                        #   Parent Loop BB21_6 Depth=1
                                        # =>  This Inner Loop Header: Depth=2
	movq	%rdx, %rsi
	addq	$64, %rdx
	cmpq	%r11, %rdx
	ja	.LBB21_20
# %bb.19:                               # %join.8.i44.i
                                        #   in Loop: Header=BB21_18 Depth=2
	movdqu	80(%rcx,%rsi), %xmm8
	movdqu	61(%rcx,%rsi), %xmm7
	movdqu	63(%rcx,%rsi), %xmm9
	movdqu	79(%rcx,%rsi), %xmm10
	movdqa	%xmm10, %xmm11
	psrlw	$4, %xmm11
	pand	%xmm0, %xmm11
	movdqa	%xmm9, %xmm12
	psrlw	$4, %xmm12
	pand	%xmm0, %xmm12
	movdqa	%xmm1, %xmm13
	pshufb	%xmm12, %xmm13
	movdqa	%xmm1, %xmm12
	pshufb	%xmm11, %xmm12
	pand	%xmm0, %xmm9
	movdqa	%xmm2, %xmm11
	pshufb	%xmm9, %xmm11
	movdqu	62(%rcx,%rsi), %xmm9
	pand	%xmm0, %xmm10
	pand	%xmm13, %xmm11
	movdqa	%xmm2, %xmm13
	pshufb	%xmm10, %xmm13
	movdqu	64(%rcx,%rsi), %xmm10
	pand	%xmm12, %xmm13
	psrlw	$4, %xmm10
	pand	%xmm0, %xmm10
	movdqa	%xmm3, %xmm12
	pshufb	%xmm10, %xmm12
	movdqu	78(%rcx,%rsi), %xmm10
	psrlw	$4, %xmm8
	pand	%xmm0, %xmm8
	pand	%xmm11, %xmm12
	movdqa	%xmm3, %xmm11
	pshufb	%xmm8, %xmm11
	movdqu	77(%rcx,%rsi), %xmm8
	pand	%xmm13, %xmm11
	psubusb	%xmm4, %xmm9
	psubusb	%xmm4, %xmm10
	psubusb	%xmm5, %xmm7
	por	%xmm9, %xmm7
	psubusb	%xmm5, %xmm8
	por	%xmm10, %xmm8
	pand	%xmm6, %xmm7
	pcmpeqb	%xmm12, %xmm7
	pand	%xmm6, %xmm8
	pcmpeqb	%xmm11, %xmm8
	movdqu	95(%rcx,%rsi), %xmm9
	movdqu	111(%rcx,%rsi), %xmm10
	movdqa	%xmm10, %xmm11
	psrlw	$4, %xmm11
	pand	%xmm0, %xmm11
	movdqa	%xmm9, %xmm12
	psrlw	$4, %xmm12
	pand	%xmm0, %xmm12
	movdqa	%xmm1, %xmm13
	pshufb	%xmm12, %xmm13
	movdqa	%xmm1, %xmm12
	pshufb	%xmm11, %xmm12
	pand	%xmm0, %xmm9
	movdqa	%xmm2, %xmm11
	pshufb	%xmm9, %xmm11
	movdqu	96(%rcx,%rsi), %xmm9
	pand	%xmm0, %xmm10
	pand	%xmm13, %xmm11
	movdqa	%xmm2, %xmm13
	pshufb	%xmm10, %xmm13
	movdqu	112(%rcx,%rsi), %xmm10
	pand	%xmm12, %xmm13
	psrlw	$4, %xmm9
	pand	%xmm0, %xmm9
	movdqa	%xmm3, %xmm12
	pshufb	%xmm9, %xmm12
	movdqu	110(%rcx,%rsi), %xmm9
	psrlw	$4, %xmm10
	pand	%xmm0, %xmm10
	pand	%xmm11, %xmm12
	movdqa	%xmm3, %xmm11
	pshufb	%xmm10, %xmm11
	movdqu	94(%rcx,%rsi), %xmm10
	pand	%xmm13, %xmm11
	movdqu	93(%rcx,%rsi), %xmm13
	psubusb	%xmm4, %xmm10
	psubusb	%xmm5, %xmm13
	por	%xmm10, %xmm13
	movdqu	109(%rcx,%rsi), %xmm10
	psubusb	%xmm4, %xmm9
	psubusb	%xmm5, %xmm10
	por	%xmm9, %xmm10
	pand	%xmm6, %xmm13
	pcmpeqb	%xmm12, %xmm13
	pand	%xmm7, %xmm13
	pand	%xmm6, %xmm10
	pcmpeqb	%xmm11, %xmm10
	pand	%xmm8, %xmm10
	pand	%xmm13, %xmm10
	pmovmskb	%xmm10, %edi
	cmpl	$65535, %edi                    # imm = 0xFFFF
	je	.LBB21_18
.LBB21_20:                              # %utf_lanes_text_blocks_batch_end_exit_i_loopexit_139
                                        #   in Loop: Header=BB21_6 Depth=1
	addq	$64, %rsi
	movq	%rsi, %rdx
.LBB21_21:                              # %utf_lanes_text_blocks_batch_end_exit_i_140
                                        #   in Loop: Header=BB21_6 Depth=1
	cmpq	%r11, %rdx
	jbe	.LBB21_24
# %bb.22:                               # %join.16.i.i
                                        #   in Loop: Header=BB21_6 Depth=1
	leaq	64(,%r10,2), %r11
	cmpq	$960, %r11                      # imm = 0x3C0
	movl	$960, %r10d                     # imm = 0x3C0
	cmovbq	%r11, %r10
	movq	%r8, %r11
	subq	%rdx, %r11
	cmpq	$63, %r11
	ja	.LBB21_6
	jmp	.LBB21_24
.LBB21_14:                              #   in Loop: Header=BB21_6 Depth=1
	xorl	%r10d, %r10d
	movq	%r8, %r11
	subq	%rdx, %r11
	cmpq	$63, %r11
	ja	.LBB21_6
.LBB21_24:                              # %utf_lanes_text_blocks_valid_len_in_batches_exit_i_141
	addq	%rdx, %rcx
	decq	%rcx
	subq	%rax, %rdx
	.p2align	4
.LBB21_25:                              # %loop.2.i59.i
                                        # =>This Inner Loop Header: Depth=1
	testq	%rdx, %rdx
	je	.LBB21_26
# %bb.27:                               # %join.5.i61.i
                                        #   in Loop: Header=BB21_25 Depth=1
	decq	%rdx
	cmpb	$-64, (%rcx)
	leaq	-1(%rcx), %rcx
	jl	.LBB21_25
	jmp	.LBB21_28
.LBB21_26:
	xorl	%edx, %edx
.LBB21_28:                              # %utf_lanes_text_blocks_text_end_exit_142
	addq	%rdx, %rax
.LBB21_29:                              # %common.ret
	movaps	(%rsp), %xmm6                   # 16-byte Reload
	movaps	16(%rsp), %xmm7                 # 16-byte Reload
	movaps	32(%rsp), %xmm8                 # 16-byte Reload
	movaps	48(%rsp), %xmm9                 # 16-byte Reload
	movaps	64(%rsp), %xmm10                # 16-byte Reload
	movaps	80(%rsp), %xmm11                # 16-byte Reload
	movaps	96(%rsp), %xmm12                # 16-byte Reload
	movaps	112(%rsp), %xmm13               # 16-byte Reload
	movaps	128(%rsp), %xmm14               # 16-byte Reload
	movaps	144(%rsp), %xmm15               # 16-byte Reload
	addq	$168, %rsp
	popq	%rdi
	popq	%rsi
	retq
	.seh_endproc
                                        # -- End function
	.def	recoding_engine_recode_faults_e51b733afd1efe0d_107;
	.scl	3;
	.type	32;
	.endef
	.section .text$n26,"xr"
	.p2align	4                               # -- Begin function recoding::engine::recode_faults::<#e51b733afd1efe0d>
recoding_engine_recode_faults_e51b733afd1efe0d_107: # @recoding_engine_recode_faults_e51b733afd1efe0d_107
.seh_proc recoding_engine_recode_faults_e51b733afd1efe0d_107
# %bb.0:                                # %start
	pushq	%r15
	.seh_pushreg %r15
	pushq	%r14
	.seh_pushreg %r14
	pushq	%r13
	.seh_pushreg %r13
	pushq	%r12
	.seh_pushreg %r12
	pushq	%rsi
	.seh_pushreg %rsi
	pushq	%rdi
	.seh_pushreg %rdi
	pushq	%rbp
	.seh_pushreg %rbp
	pushq	%rbx
	.seh_pushreg %rbx
	subq	$56, %rsp
	.seh_stackalloc 56
	.seh_endprologue
	movq	%r9, %rdi
	movq	%rcx, 40(%rsp)                  # 8-byte Spill
	movl	$16, %r13d
	xorl	%ecx, %ecx
	xorl	%r12d, %r12d
	movq	%rdx, 32(%rsp)                  # 8-byte Spill
	jmp	.LBB22_1
.LBB22_40:                              # %arm.10.i.i
                                        #   in Loop: Header=BB22_1 Depth=1
	leaq	(%rdx,%rsi), %rcx
	movq	%r15, %rdx
	movq	%r8, %rbx
	callq	recoding_next_scalar_is_front_of_code_81
	movq	32(%rsp), %rdx                  # 8-byte Reload
	movq	%rbx, %r8
	testb	%al, %al
	movq	%rbp, %r12
	leaq	4(%rsi), %rbx
	jne	.LBB22_41
	.p2align	4
.LBB22_48:                              # %recoding_text_Utf8Text_put_any_345d457c2768aa28_exit_143
                                        #   in Loop: Header=BB22_1 Depth=1
	cmpq	$32, %rbx
	movl	$32, %r13d
	cmovbq	%rbx, %r13
	movq	(%rdi), %rax
	movq	8(%rdi), %rcx
	movb	$-17, (%rax,%rcx)
	movq	(%rdi), %rax
	movb	$-65, 1(%rax,%rcx)
	movq	(%rdi), %rax
	movb	$-67, 2(%rax,%rcx)
	addq	$3, %rcx
	movq	%rcx, 8(%rdi)
	incq	%r12
	movl	$1, %ecx
.LBB22_44:                              # %join.12
                                        #   in Loop: Header=BB22_1 Depth=1
	addq	%rsi, %rcx
	cmpq	%r13, %rcx
	jae	.LBB22_45
.LBB22_1:                               # %join.5
                                        # =>This Inner Loop Header: Depth=1
	movq	%rcx, %rsi
	leaq	4(%rcx), %rbx
	cmpq	%r8, %rbx
	jbe	.LBB22_2
# %bb.22:                               # %join.3.i59
                                        #   in Loop: Header=BB22_1 Depth=1
	movq	%r8, %r15
	subq	%rsi, %r15
	cmpq	$4, %r15
	jb	.LBB22_23
.LBB22_2:                               # %then.1.i54
                                        #   in Loop: Header=BB22_1 Depth=1
	movzbl	(%rdx,%rsi), %eax
	testb	%al, %al
	js	.LBB22_5
# %bb.3:                                # %utf_lanes_text_front_front_of_text_exit139_i_thread_144
                                        #   in Loop: Header=BB22_1 Depth=1
	movl	$1, %ecx
.LBB22_4:                               # %then.1.i38
                                        #   in Loop: Header=BB22_1 Depth=1
	movq	(%rdi), %r10
	movq	8(%rdi), %r9
	movb	%al, (%r10,%r9)
	incq	%r9
	movq	%r9, 8(%rdi)
	jmp	.LBB22_44
	.p2align	4
.LBB22_5:                               # %join.6.i104.i
                                        #   in Loop: Header=BB22_1 Depth=1
	movzbl	1(%rdx,%rsi), %ecx
	cmpb	$-32, %al
	jae	.LBB22_6
# %bb.19:                               # %utf_lanes_text_front_front_of_text_exit139_i_145
                                        #   in Loop: Header=BB22_1 Depth=1
	cmpb	$-62, %al
	jb	.LBB22_48
# %bb.20:                               # %utf_lanes_text_front_front_of_text_exit139_i_145
                                        #   in Loop: Header=BB22_1 Depth=1
	xorl	$128, %ecx
	cmpb	$63, %cl
	ja	.LBB22_48
# %bb.21:                               #   in Loop: Header=BB22_1 Depth=1
	shll	$6, %eax
	addl	%ecx, %eax
	addl	$-12288, %eax                   # imm = 0xD000
	movl	$2, %ecx
.LBB22_34:                              # %arm.10
                                        #   in Loop: Header=BB22_1 Depth=1
	cmpl	$128, %eax
	jb	.LBB22_4
# %bb.35:                               # %join.3.i
                                        #   in Loop: Header=BB22_1 Depth=1
	movl	%eax, %r14d
	andl	$63, %r14d
	orl	$128, %r14d
	cmpl	$2048, %eax                     # imm = 0x800
	jae	.LBB22_17
# %bb.36:                               # %then.4.i
                                        #   in Loop: Header=BB22_1 Depth=1
	shrl	$6, %eax
	orb	$-64, %al
	movq	(%rdi), %r10
	movq	8(%rdi), %r9
	movb	%al, (%r10,%r9)
	movq	(%rdi), %rax
	movb	%r14b, 1(%rax,%r9)
	addq	$2, %r9
	movq	%r9, 8(%rdi)
	jmp	.LBB22_44
	.p2align	4
.LBB22_23:                              # %join.3.i.i
                                        #   in Loop: Header=BB22_1 Depth=1
	movq	%r12, %rbp
	cmpq	%rsi, %r8
	je	.LBB22_40
# %bb.24:                               # %join.3.i316.i
                                        #   in Loop: Header=BB22_1 Depth=1
	movzbl	(%rdx,%rsi), %r14d
	leaq	static.8(%rip), %rax
	movzbl	(%r14,%rax), %eax
	leaq	static.9(%rip), %rbx
	movzbl	(%rax,%rbx), %r12d
	cmpq	$12, %r12
	jbe	.LBB22_25
# %bb.37:                               # %join.6.i321.i
                                        #   in Loop: Header=BB22_1 Depth=1
	cmpl	$13, %r12d
	movq	%rbp, %r12
	leaq	4(%rsi), %rbx
	jne	.LBB22_48
# %bb.38:                               # %join.9.i323.i
                                        #   in Loop: Header=BB22_1 Depth=1
	testb	%r14b, %r14b
	js	.LBB22_47
# %bb.39:                               # %utf_chars_codes_utf8_decode_start_exit_i_thread475_146
                                        #   in Loop: Header=BB22_1 Depth=1
	movl	$1, %ecx
	movl	%r14d, %eax
	jmp	.LBB22_4
.LBB22_6:                               # %join.9.i106.i
                                        #   in Loop: Header=BB22_1 Depth=1
	cmpb	$-65, %cl
	jg	.LBB22_48
# %bb.7:                                # %join.12.i113.i
                                        #   in Loop: Header=BB22_1 Depth=1
	movl	%eax, %r9d
	andl	$15, %eax
	andl	$63, %ecx
	shll	$6, %eax
	orl	%ecx, %eax
	cmpb	$-17, %r9b
	ja	.LBB22_12
# %bb.8:                                # %then.13.i125.i
                                        #   in Loop: Header=BB22_1 Depth=1
	movl	%eax, %ecx
	andl	$-32, %ecx
	cmpl	$864, %ecx                      # imm = 0x360
	je	.LBB22_48
# %bb.9:                                # %join.3.i187.i
                                        #   in Loop: Header=BB22_1 Depth=1
	movzbl	2(%rdx,%rsi), %r9d
	cmpb	$-65, %r9b
	jg	.LBB22_48
# %bb.10:                               # %join.3.i187.i
                                        #   in Loop: Header=BB22_1 Depth=1
	cmpl	$32, %eax
	jb	.LBB22_48
# %bb.11:                               # %join.9.i191.i
                                        #   in Loop: Header=BB22_1 Depth=1
	shll	$6, %eax
	andl	$63, %r9d
	orl	%eax, %r9d
	movl	$3, %ecx
	jmp	.LBB22_16
.LBB22_12:                              # %else.14.i116.i
                                        #   in Loop: Header=BB22_1 Depth=1
	leal	-272(%rax), %ecx
	cmpl	$-256, %ecx
	jb	.LBB22_48
# %bb.13:                               # %after.1.i.i
                                        #   in Loop: Header=BB22_1 Depth=1
	movzbl	2(%rdx,%rsi), %r9d
	cmpb	$-65, %r9b
	jg	.LBB22_48
# %bb.14:                               # %else.14.i254.i
                                        #   in Loop: Header=BB22_1 Depth=1
	movzbl	3(%rdx,%rsi), %ecx
	cmpb	$-65, %cl
	jg	.LBB22_48
# %bb.15:                               # %after.11.i.i
                                        #   in Loop: Header=BB22_1 Depth=1
	andl	$63, %r9d
	andl	$63, %ecx
	shll	$12, %eax
	shll	$6, %r9d
	orl	%eax, %r9d
	orl	%ecx, %r9d
	movl	$4, %ecx
.LBB22_16:                              # %join.3.i.thread
                                        #   in Loop: Header=BB22_1 Depth=1
	movl	%r9d, %eax
	movl	%r9d, %r14d
	andl	$63, %r14d
	orl	$128, %r14d
.LBB22_17:                              # %join.7.i
                                        #   in Loop: Header=BB22_1 Depth=1
	movl	%eax, %r11d
	shrl	$6, %r11d
	andl	$63, %r11d
	orl	$128, %r11d
	cmpl	$65536, %eax                    # imm = 0x10000
	jae	.LBB22_42
# %bb.18:                               # %then.7.i
                                        #   in Loop: Header=BB22_1 Depth=1
	shrl	$12, %eax
	orb	$-32, %al
	movq	(%rdi), %r9
	movq	8(%rdi), %r10
	movb	%al, (%r9,%r10)
	movq	(%rdi), %rax
	movb	%r11b, 1(%rax,%r10)
	movq	(%rdi), %rax
	movb	%r14b, 2(%rax,%r10)
	addq	$3, %r10
	movq	%r10, 8(%rdi)
	jmp	.LBB22_43
.LBB22_42:                              # %join.9.i
                                        #   in Loop: Header=BB22_1 Depth=1
	movl	%eax, %r9d
	shrl	$18, %r9d
	shrl	$4, %eax
	andl	$16128, %eax                    # imm = 0x3F00
	movl	%r9d, %r10d
	addl	$240, %r9d
	leal	(%r10,%rax), %edx
	addl	$33008, %edx                    # imm = 0x80F0
	movq	(%rdi), %r10
	movq	8(%rdi), %rbx
	movb	%r9b, (%r10,%rbx)
	movq	(%rdi), %rax
	movb	%dh, 1(%rax,%rbx)
	movl	%edx, %eax
	shrl	$16, %eax
	addl	%r11d, %eax
	movq	(%rdi), %r9
	movb	%al, 2(%r9,%rbx)
	movq	(%rdi), %rax
	movb	%r14b, 3(%rax,%rbx)
	addq	$4, %rbx
	movq	%rbx, 8(%rdi)
.LBB22_43:                              # %join.12
                                        #   in Loop: Header=BB22_1 Depth=1
	movq	32(%rsp), %rdx                  # 8-byte Reload
	jmp	.LBB22_44
.LBB22_25:                              # %then.4.i333.i
                                        #   in Loop: Header=BB22_1 Depth=1
	movl	%r12d, %ecx
	movq	%r8, 48(%rsp)                   # 8-byte Spill
	callq	utf_chars_codes_utf8_missing_after_80
	movq	32(%rsp), %rdx                  # 8-byte Reload
	movq	48(%rsp), %r8                   # 8-byte Reload
	cmpq	%rax, %r15
	jbe	.LBB22_40
# %bb.26:                               # %join.3.i351.i
                                        #   in Loop: Header=BB22_1 Depth=1
	movzbl	1(%rdx,%rsi), %r11d
	leaq	static.8(%rip), %r9
	movzbl	(%r11,%r9), %eax
	shll	$4, %r12d
	addq	%rbx, %r12
	movzbl	(%rax,%r12), %eax
	cmpq	$12, %rax
	ja	.LBB22_32
# %bb.27:                               # %then.1.i379.i
                                        #   in Loop: Header=BB22_1 Depth=1
	movzbl	2(%rdx,%rsi), %r10d
	movzbl	(%r10,%r9), %ecx
	shll	$4, %eax
	addq	%rbx, %rax
	movzbl	(%rcx,%rax), %ecx
	cmpq	$12, %rcx
	movq	%rbp, %r12
	ja	.LBB22_30
# %bb.28:                               # %then.1.i418.i
                                        #   in Loop: Header=BB22_1 Depth=1
	movzbl	3(%rdx,%rsi), %eax
	movzbl	(%rax,%r9), %r9d
	shll	$4, %ecx
	addq	%rcx, %rbx
	cmpb	$13, (%r9,%rbx)
	leaq	4(%rsi), %rbx
	jne	.LBB22_48
# %bb.29:                               # %join.3.i436.i
                                        #   in Loop: Header=BB22_1 Depth=1
	andl	$7, %r14d
	andl	$63, %r11d
	shll	$12, %r14d
	shll	$6, %r11d
	orl	%r14d, %r11d
	andl	$63, %r10d
	orl	%r11d, %r10d
	shll	$6, %r10d
	andl	$63, %eax
	orl	%r10d, %eax
	movl	$4, %ecx
	jmp	.LBB22_34
.LBB22_32:                              # %join.3.i366.i
                                        #   in Loop: Header=BB22_1 Depth=1
	cmpl	$13, %eax
	movq	%rbp, %r12
	leaq	4(%rsi), %rbx
	jne	.LBB22_48
# %bb.33:                               # %utf_chars_codes_utf8_decode_start_exit_i_thread556_147
                                        #   in Loop: Header=BB22_1 Depth=1
	andl	$31, %r14d
	shll	$6, %r14d
	andl	$63, %r11d
	orl	%r14d, %r11d
	movl	$2, %ecx
	movl	%r11d, %eax
	jmp	.LBB22_34
.LBB22_30:                              # %join.3.i399.i
                                        #   in Loop: Header=BB22_1 Depth=1
	cmpl	$13, %ecx
	leaq	4(%rsi), %rbx
	jne	.LBB22_48
# %bb.31:                               # %join.6.i401.i
                                        #   in Loop: Header=BB22_1 Depth=1
	andl	$15, %r14d
	andl	$63, %r11d
	shll	$12, %r14d
	shll	$6, %r11d
	orl	%r14d, %r11d
	andl	$63, %r10d
	orl	%r11d, %r10d
	movl	$3, %ecx
	movl	%r10d, %eax
	jmp	.LBB22_34
.LBB22_45:                              # %after.1
	movq	40(%rsp), %rax                  # 8-byte Reload
	movq	%rcx, (%rax)
	movq	%r12, 8(%rax)
	movq	$0, 16(%rax)
.LBB22_46:                              # %after.1
	addq	$56, %rsp
	popq	%rbx
	popq	%rbp
	popq	%rdi
	popq	%rsi
	popq	%r12
	popq	%r13
	popq	%r14
	popq	%r15
	retq
.LBB22_41:                              # %arm.7
	movq	40(%rsp), %rax                  # 8-byte Reload
	movq	%rsi, (%rax)
	movq	%r12, 8(%rax)
	movw	$256, 16(%rax)                  # imm = 0x100
	movl	$0, 18(%rax)
	movw	$0, 22(%rax)
	jmp	.LBB22_46
.LBB22_47:                              # %join.4.i.i
	ud2
	.seh_endproc
                                        # -- End function
	.def	recoding_recoder_runs_run_whole_2857ed0d0693875d_38;
	.scl	3;
	.type	32;
	.endef
	.section .text$n27,"xr"
	.p2align	4                               # -- Begin function recoding::recoder_runs::run_whole::<#2857ed0d0693875d>
recoding_recoder_runs_run_whole_2857ed0d0693875d_38: # @recoding_recoder_runs_run_whole_2857ed0d0693875d_38
.seh_proc recoding_recoder_runs_run_whole_2857ed0d0693875d_38
# %bb.0:                                # %start
	pushq	%r15
	.seh_pushreg %r15
	pushq	%r14
	.seh_pushreg %r14
	pushq	%r13
	.seh_pushreg %r13
	pushq	%r12
	.seh_pushreg %r12
	pushq	%rsi
	.seh_pushreg %rsi
	pushq	%rdi
	.seh_pushreg %rdi
	pushq	%rbp
	.seh_pushreg %rbp
	pushq	%rbx
	.seh_pushreg %rbx
	subq	$328, %rsp                      # imm = 0x148
	.seh_stackalloc 328
	movdqa	%xmm9, 304(%rsp)                # 16-byte Spill
	.seh_savexmm %xmm9, 304
	movdqa	%xmm8, 288(%rsp)                # 16-byte Spill
	.seh_savexmm %xmm8, 288
	movdqa	%xmm7, 272(%rsp)                # 16-byte Spill
	.seh_savexmm %xmm7, 272
	movdqa	%xmm6, 256(%rsp)                # 16-byte Spill
	.seh_savexmm %xmm6, 256
	.seh_endprologue
	movq	%r8, %r14
	movq	%rdx, %rbx
	leaq	32(%rcx), %rax
	movq	%rax, 112(%rsp)                 # 8-byte Spill
	leaq	96(%rcx), %rax
	movq	%rax, 120(%rsp)                 # 8-byte Spill
	movq	%rcx, 48(%rsp)                  # 8-byte Spill
	leaq	1(%rcx), %rax
	movq	%rax, 104(%rsp)                 # 8-byte Spill
	xorl	%r13d, %r13d
	xorl	%r12d, %r12d
	xorl	%edi, %edi
	.p2align	4
.LBB23_1:                               # %loop.2.i.outer
                                        # =>This Loop Header: Depth=1
                                        #     Child Loop BB23_6 Depth 2
                                        #       Child Loop BB23_15 Depth 3
                                        #       Child Loop BB23_25 Depth 3
                                        #       Child Loop BB23_11 Depth 3
                                        #       Child Loop BB23_35 Depth 3
                                        #       Child Loop BB23_19 Depth 3
                                        #       Child Loop BB23_45 Depth 3
                                        #     Child Loop BB23_58 Depth 2
	movq	%r13, 96(%rsp)                  # 8-byte Spill
	movq	%r12, 56(%rsp)                  # 8-byte Spill
	jmp	.LBB23_6
	.p2align	4
.LBB23_2:                               # %else.4.i
                                        #   in Loop: Header=BB23_6 Depth=2
	movdqu	(%r13), %xmm0
	movdqu	16(%r13), %xmm1
	movdqu	32(%r13), %xmm2
	por	%xmm0, %xmm2
	movdqu	48(%r13), %xmm0
	por	%xmm1, %xmm0
	por	%xmm2, %xmm0
	pmovmskb	%xmm0, %eax
	testl	%eax, %eax
	je	.LBB23_18
.LBB23_3:                               #   in Loop: Header=BB23_6 Depth=2
	xorl	%esi, %esi
.LBB23_4:                               # %recoding_ascii_to_utf16_put_ascii_front_b3a77c927faee343_exit_148
                                        #   in Loop: Header=BB23_6 Depth=2
	addq	%rsi, %r13
	subq	%rsi, %r15
	movq	%r13, %rcx
	movq	%r15, %rdx
	movq	%r14, %r8
	callq	recoding_kernels_put_judged_87c24961b7620b58_149
	movq	%rax, %r15
	addq	%rsi, %r15
.LBB23_5:                               # %recoding_kernels_WidenedKernelUtf8Utf16_put_text_a02055794059cfb2_exit_150
                                        #   in Loop: Header=BB23_6 Depth=2
	addq	%r15, %rdi
	cmpq	$8187, %r15                     # imm = 0x1FFB
	jbe	.LBB23_48
.LBB23_6:                               # %loop.2.i
                                        #   Parent Loop BB23_1 Depth=1
                                        # =>  This Loop Header: Depth=2
                                        #       Child Loop BB23_15 Depth 3
                                        #       Child Loop BB23_25 Depth 3
                                        #       Child Loop BB23_11 Depth 3
                                        #       Child Loop BB23_35 Depth 3
                                        #       Child Loop BB23_19 Depth 3
                                        #       Child Loop BB23_45 Depth 3
	movq	48(%rsp), %rax                  # 8-byte Reload
	leaq	(%rax,%rdi), %r13
	movq	%rbx, %rax
	subq	%rdi, %rax
	cmpq	$8192, %rax                     # imm = 0x2000
	movl	$8192, %r15d                    # imm = 0x2000
	cmovbq	%rax, %r15
	cmpq	$1024, %rax                     # imm = 0x400
	ja	.LBB23_2
# %bb.7:                                # %then.11.i
                                        #   in Loop: Header=BB23_6 Depth=2
	cmpq	$17, %rax
	jae	.LBB23_13
# %bb.8:                                # %then.1.i.i
                                        #   in Loop: Header=BB23_6 Depth=2
	cmpq	$3, %rax
	ja	.LBB23_21
# %bb.9:                                # %loop.2.i.i.preheader
                                        #   in Loop: Header=BB23_6 Depth=2
	cmpq	%rdi, %rbx
	je	.LBB23_40
# %bb.10:                               # %join.5.i.i.preheader
                                        #   in Loop: Header=BB23_6 Depth=2
	xorl	%ecx, %ecx
	.p2align	4
.LBB23_11:                              # %join.5.i.i
                                        #   Parent Loop BB23_1 Depth=1
                                        #     Parent Loop BB23_6 Depth=2
                                        # =>    This Inner Loop Header: Depth=3
	cmpb	$0, (%r13,%rcx)
	js	.LBB23_28
# %bb.12:                               # %loop.2.i.i
                                        #   in Loop: Header=BB23_11 Depth=3
	incq	%rcx
	cmpq	%rcx, %r15
	jne	.LBB23_11
	jmp	.LBB23_33
	.p2align	4
.LBB23_13:                              # %loop.2.i33.i.preheader
                                        #   in Loop: Header=BB23_6 Depth=2
	cmpq	$64, %rax
	jb	.LBB23_23
# %bb.14:                               # %join.5.i35.i.preheader
                                        #   in Loop: Header=BB23_6 Depth=2
	movq	112(%rsp), %rcx                 # 8-byte Reload
	leaq	(%rcx,%rdi), %rdx
	xorl	%ecx, %ecx
	movq	%r15, %r8
	.p2align	4
.LBB23_15:                              # %join.5.i35.i
                                        #   Parent Loop BB23_1 Depth=1
                                        #     Parent Loop BB23_6 Depth=2
                                        # =>    This Inner Loop Header: Depth=3
	movdqu	-32(%rdx,%rcx), %xmm0
	movdqu	-16(%rdx,%rcx), %xmm1
	movdqu	(%rdx,%rcx), %xmm2
	por	%xmm0, %xmm2
	movdqu	16(%rdx,%rcx), %xmm0
	por	%xmm1, %xmm0
	por	%xmm2, %xmm0
	pmovmskb	%xmm0, %r9d
	testl	%r9d, %r9d
	jne	.LBB23_17
# %bb.16:                               # %join.8.i36.i
                                        #   in Loop: Header=BB23_15 Depth=3
	addq	$64, %rcx
	addq	$-64, %r8
	cmpq	$63, %r8
	ja	.LBB23_15
.LBB23_17:                              # %utf_lanes_ascii_texts_ascii_end_1_exit_i_151
                                        #   in Loop: Header=BB23_6 Depth=2
	movq	%r15, %rdx
	subq	%rcx, %rdx
	cmpq	$16, %rdx
	jae	.LBB23_24
	jmp	.LBB23_27
	.p2align	4
.LBB23_18:                              # %then.13.i.preheader
                                        #   in Loop: Header=BB23_6 Depth=2
	movq	120(%rsp), %rax                 # 8-byte Reload
	leaq	(%rax,%rdi), %r12
	xorl	%esi, %esi
	movq	%r15, %rbp
	.p2align	4
.LBB23_19:                              # %then.13.i
                                        #   Parent Loop BB23_1 Depth=1
                                        #     Parent Loop BB23_6 Depth=2
                                        # =>    This Inner Loop Header: Depth=3
	movdqu	-32(%r12,%rsi), %xmm0
	movdqu	-16(%r12,%rsi), %xmm1
	movdqu	(%r12,%rsi), %xmm2
	por	%xmm0, %xmm2
	movdqu	16(%r12,%rsi), %xmm0
	por	%xmm1, %xmm0
	por	%xmm2, %xmm0
	pmovmskb	%xmm0, %eax
	testl	%eax, %eax
	jne	.LBB23_4
# %bb.20:                               # %join.15.i
                                        #   in Loop: Header=BB23_19 Depth=3
	movdqu	-96(%r12,%rsi), %xmm0
	movdqu	-80(%r12,%rsi), %xmm1
	movdqu	-64(%r12,%rsi), %xmm7
	movdqu	-48(%r12,%rsi), %xmm6
	pxor	%xmm2, %xmm2
	pmovzxbw	%xmm6, %xmm8                    # xmm8 = xmm6[0],zero,xmm6[1],zero,xmm6[2],zero,xmm6[3],zero,xmm6[4],zero,xmm6[5],zero,xmm6[6],zero,xmm6[7],zero
	punpckhbw	%xmm2, %xmm6            # xmm6 = xmm6[8],xmm2[8],xmm6[9],xmm2[9],xmm6[10],xmm2[10],xmm6[11],xmm2[11],xmm6[12],xmm2[12],xmm6[13],xmm2[13],xmm6[14],xmm2[14],xmm6[15],xmm2[15]
	pmovzxbw	%xmm7, %xmm9                    # xmm9 = xmm7[0],zero,xmm7[1],zero,xmm7[2],zero,xmm7[3],zero,xmm7[4],zero,xmm7[5],zero,xmm7[6],zero,xmm7[7],zero
	punpckhbw	%xmm2, %xmm7            # xmm7 = xmm7[8],xmm2[8],xmm7[9],xmm2[9],xmm7[10],xmm2[10],xmm7[11],xmm2[11],xmm7[12],xmm2[12],xmm7[13],xmm2[13],xmm7[14],xmm2[14],xmm7[15],xmm2[15]
	pmovzxbw	%xmm1, %xmm3                    # xmm3 = xmm1[0],zero,xmm1[1],zero,xmm1[2],zero,xmm1[3],zero,xmm1[4],zero,xmm1[5],zero,xmm1[6],zero,xmm1[7],zero
	punpckhbw	%xmm2, %xmm1            # xmm1 = xmm1[8],xmm2[8],xmm1[9],xmm2[9],xmm1[10],xmm2[10],xmm1[11],xmm2[11],xmm1[12],xmm2[12],xmm1[13],xmm2[13],xmm1[14],xmm2[14],xmm1[15],xmm2[15]
	pmovzxbw	%xmm0, %xmm4                    # xmm4 = xmm0[0],zero,xmm0[1],zero,xmm0[2],zero,xmm0[3],zero,xmm0[4],zero,xmm0[5],zero,xmm0[6],zero,xmm0[7],zero
	punpckhbw	%xmm2, %xmm0            # xmm0 = xmm0[8],xmm2[8],xmm0[9],xmm2[9],xmm0[10],xmm2[10],xmm0[11],xmm2[11],xmm0[12],xmm2[12],xmm0[13],xmm2[13],xmm0[14],xmm2[14],xmm0[15],xmm2[15]
	movdqa	%xmm0, 224(%rsp)
	movdqa	%xmm4, 240(%rsp)
	movdqa	%xmm3, 208(%rsp)
	movdqa	%xmm1, 192(%rsp)
	leaq	192(%rsp), %rax
	movq	%rax, 32(%rsp)
	leaq	240(%rsp), %rdx
	leaq	224(%rsp), %r8
	leaq	208(%rsp), %r9
	movq	%r14, %rcx
	callq	recoding_list_VecU8Output_put_wide_e3b2a9d4d2861db8_152
	movdqa	%xmm7, 160(%rsp)
	movdqa	%xmm9, 176(%rsp)
	movdqa	%xmm8, 144(%rsp)
	movdqa	%xmm6, 128(%rsp)
	leaq	128(%rsp), %rax
	movq	%rax, 32(%rsp)
	leaq	176(%rsp), %rdx
	leaq	160(%rsp), %r8
	leaq	144(%rsp), %r9
	movq	%r14, %rcx
	callq	recoding_list_VecU8Output_put_wide_e3b2a9d4d2861db8_152
	addq	$-64, %rbp
	addq	$64, %rsi
	cmpq	$127, %rbp
	ja	.LBB23_19
	jmp	.LBB23_4
.LBB23_21:                              # %join.3.i19.i
                                        #   in Loop: Header=BB23_6 Depth=2
	cmpq	$7, %rax
	ja	.LBB23_31
# %bb.22:                               # %then.4.i.i
                                        #   in Loop: Header=BB23_6 Depth=2
	movd	(%r13), %xmm0                   # xmm0 = mem[0],zero,zero,zero
	movd	-4(%r13,%r15), %xmm1            # xmm1 = mem[0],zero,zero,zero
	punpckldq	%xmm1, %xmm0            # xmm0 = xmm0[0],xmm1[0],xmm0[1],xmm1[1]
	pshufd	$68, %xmm0, %xmm0               # xmm0 = xmm0[0,1,0,1]
	pmovmskb	%xmm0, %eax
	testl	%eax, %eax
	jne	.LBB23_32
	jmp	.LBB23_40
.LBB23_23:                              #   in Loop: Header=BB23_6 Depth=2
	xorl	%ecx, %ecx
	movq	%r15, %rdx
	subq	%rcx, %rdx
	cmpq	$16, %rdx
	jb	.LBB23_27
.LBB23_24:                              # %join.5.i67.i.preheader
                                        #   in Loop: Header=BB23_6 Depth=2
	addq	%rdi, %rcx
	addq	48(%rsp), %rcx                  # 8-byte Folded Reload
	.p2align	4
.LBB23_25:                              # %join.5.i67.i
                                        #   Parent Loop BB23_1 Depth=1
                                        #     Parent Loop BB23_6 Depth=2
                                        # =>    This Inner Loop Header: Depth=3
	movdqu	(%rcx), %xmm0
	pmovmskb	%xmm0, %r8d
	testl	%r8d, %r8d
	jne	.LBB23_28
# %bb.26:                               # %loop.2.i62.i
                                        #   in Loop: Header=BB23_25 Depth=3
	addq	$16, %rcx
	addq	$-16, %rdx
	cmpq	$16, %rdx
	jae	.LBB23_25
.LBB23_27:                              # %after.1.i.i
                                        #   in Loop: Header=BB23_6 Depth=2
	movdqu	-16(%r13,%r15), %xmm0
	pmovmskb	%xmm0, %ecx
	testl	%ecx, %ecx
	je	.LBB23_33
.LBB23_28:                              # %after.10.i
                                        #   in Loop: Header=BB23_6 Depth=2
	cmpq	$31, %rax
	jbe	.LBB23_32
# %bb.29:                               # %join.21.i
                                        #   in Loop: Header=BB23_6 Depth=2
	cmpq	$128, %rax
	jae	.LBB23_2
	jmp	.LBB23_3
.LBB23_31:                              # %utf_lanes_ascii_texts_is_ascii_exit_i_153
                                        #   in Loop: Header=BB23_6 Depth=2
	movq	-8(%r13,%r15), %xmm0            # xmm0 = mem[0],zero
	movq	(%r13), %xmm1                   # xmm1 = mem[0],zero
	punpcklqdq	%xmm0, %xmm1            # xmm1 = xmm1[0],xmm0[0]
	pmovmskb	%xmm1, %ecx
	testl	%ecx, %ecx
	je	.LBB23_33
.LBB23_32:                              # %then.19.i
                                        #   in Loop: Header=BB23_6 Depth=2
	movq	%r13, %rcx
	movq	%r15, %rdx
	movq	%r14, %r8
	callq	recoding_kernels_put_few_b3a77c927faee343_154
	movq	%rax, %r15
	jmp	.LBB23_5
.LBB23_33:                              # %then.14.i
                                        #   in Loop: Header=BB23_6 Depth=2
	cmpq	$16, %rax
	jb	.LBB23_40
# %bb.34:                               # %join.5.i10.preheader
                                        #   in Loop: Header=BB23_6 Depth=2
	xorl	%esi, %esi
	movq	%r15, %r12
	.p2align	4
.LBB23_35:                              # %join.5.i10
                                        #   Parent Loop BB23_1 Depth=1
                                        #     Parent Loop BB23_6 Depth=2
                                        # =>    This Inner Loop Header: Depth=3
	movdqu	(%r13,%rsi), %xmm6
	movq	8(%r14), %rcx
	movq	16(%r14), %rax
	movq	%rax, %rdx
	subq	%rcx, %rdx
	cmpq	$31, %rdx
	jbe	.LBB23_38
.LBB23_36:                              # %join.3.i194
                                        #   in Loop: Header=BB23_35 Depth=3
	pmovzxbw	%xmm6, %xmm0                    # xmm0 = xmm6[0],zero,xmm6[1],zero,xmm6[2],zero,xmm6[3],zero,xmm6[4],zero,xmm6[5],zero,xmm6[6],zero,xmm6[7],zero
	pxor	%xmm1, %xmm1
	punpckhbw	%xmm1, %xmm6            # xmm6 = xmm6[8],xmm1[8],xmm6[9],xmm1[9],xmm6[10],xmm1[10],xmm6[11],xmm1[11],xmm6[12],xmm1[12],xmm6[13],xmm1[13],xmm6[14],xmm1[14],xmm6[15],xmm1[15]
	leaq	32(%rcx), %rdx
	movq	(%r14), %r8
	movdqu	%xmm0, (%r8,%rcx)
	movdqu	%xmm6, 16(%r8,%rcx)
	movq	%r8, (%r14)
	movq	%rdx, 8(%r14)
	movq	%rax, 16(%r14)
.LBB23_37:                              # %std_alloc_vec_Vec_extend_from_slice_0cd040e5c49bc722_exit_129
                                        #   in Loop: Header=BB23_35 Depth=3
	addq	$16, %rsi
	addq	$-16, %r12
	cmpq	$15, %r12
	ja	.LBB23_35
	jmp	.LBB23_41
.LBB23_38:                              # %std_alloc_vec_Vec_grow_5fdc5e19576447a7_exit_i_76
                                        #   in Loop: Header=BB23_35 Depth=3
	movl	$32, %edx
	movq	%r14, %rcx
	callq	std_alloc_vec_Vec_grow_amortized_5fdc5e19576447a7_3
	testb	%al, %al
	je	.LBB23_37
# %bb.39:                               # %std_alloc_vec_Vec_grow_5fdc5e19576447a7_exit_join_3_crit_edge_i_115
                                        #   in Loop: Header=BB23_35 Depth=3
	movq	8(%r14), %rcx
	movq	16(%r14), %rax
	jmp	.LBB23_36
.LBB23_40:                              #   in Loop: Header=BB23_6 Depth=2
	xorl	%esi, %esi
	movq	%r15, %r12
.LBB23_41:                              # %recoding_ascii_to_utf16_put_lanes_b3a77c927faee343_exit_155
                                        #   in Loop: Header=BB23_6 Depth=2
	testq	%r12, %r12
	je	.LBB23_5
# %bb.42:                               # %join.5.i37.preheader
                                        #   in Loop: Header=BB23_6 Depth=2
	movq	8(%r14), %rax
	cmpq	$1, %r12
	jne	.LBB23_44
# %bb.43:                               #   in Loop: Header=BB23_6 Depth=2
	xorl	%ecx, %ecx
	jmp	.LBB23_47
.LBB23_44:                              # %join.5.i37.preheader.new
                                        #   in Loop: Header=BB23_6 Depth=2
	movl	%r12d, %edx
	andl	$16382, %edx                    # imm = 0x3FFE
	leaq	(%rsi,%rdi), %r8
	addq	104(%rsp), %r8                  # 8-byte Folded Reload
	xorl	%ecx, %ecx
	.p2align	4
.LBB23_45:                              # %join.5.i37
                                        #   Parent Loop BB23_1 Depth=1
                                        #     Parent Loop BB23_6 Depth=2
                                        # =>    This Inner Loop Header: Depth=3
	movzbl	-1(%r8,%rcx), %r9d
	movq	(%r14), %r10
	movb	%r9b, (%r10,%rax)
	movq	(%r14), %r9
	movb	$0, 1(%r9,%rax)
	leaq	2(%rax), %r9
	movq	%r9, 8(%r14)
	movzbl	(%r8,%rcx), %r9d
	movq	(%r14), %r10
	movb	%r9b, 2(%r10,%rax)
	movq	(%r14), %r9
	movb	$0, 3(%r9,%rax)
	addq	$4, %rax
	movq	%rax, 8(%r14)
	addq	$2, %rcx
	cmpq	%rcx, %rdx
	jne	.LBB23_45
# %bb.46:                               # %recoding_kernels_WidenedKernelUtf8Utf16_put_text_a02055794059cfb2_exit_loopexit_unr_lcssa_156
                                        #   in Loop: Header=BB23_6 Depth=2
	testb	$1, %r12b
	je	.LBB23_5
.LBB23_47:                              # %join.5.i37.epil.preheader
                                        #   in Loop: Header=BB23_6 Depth=2
	addq	%rsi, %r13
	movzbl	(%r13,%rcx), %ecx
	movq	(%r14), %rdx
	movb	%cl, (%rdx,%rax)
	movq	(%r14), %rcx
	movb	$0, 1(%rcx,%rax)
	addq	$2, %rax
	movq	%rax, 8(%r14)
	jmp	.LBB23_5
	.p2align	4
.LBB23_48:                              # %join.5.i
                                        #   in Loop: Header=BB23_1 Depth=1
	movq	%rbx, %rdx
	subq	%rdi, %rdx
	je	.LBB23_82
# %bb.49:                               # %join.8.i
                                        #   in Loop: Header=BB23_1 Depth=1
	xorl	%eax, %eax
	cmpq	$256, %r15                      # imm = 0x100
	movq	96(%rsp), %r13                  # 8-byte Reload
	cmovaeq	%rax, %r13
	movq	48(%rsp), %rax                  # 8-byte Reload
	leaq	(%rax,%rdi), %rcx
	cmpq	$3, %r13
	movq	56(%rsp), %r12                  # 8-byte Reload
	jb	.LBB23_52
# %bb.50:                               # %then.1.i
                                        #   in Loop: Header=BB23_1 Depth=1
	cmpq	$128, %rdx
	jb	.LBB23_56
# %bb.51:                               # %join.9.i
                                        #   in Loop: Header=BB23_1 Depth=1
	movq	%r14, %r8
	callq	recoding_kernels_widen_damaged_6d28eb9c51c85cb7_157
	addq	%rax, %rdi
	addq	%rdx, %r12
	testq	%rax, %rax
	jne	.LBB23_1
	jmp	.LBB23_56
	.p2align	4
.LBB23_52:                              # %join.3.i
                                        #   in Loop: Header=BB23_1 Depth=1
	cmpq	$67, %rdx
	jb	.LBB23_56
# %bb.53:                               # %then.1.i.i137
                                        #   in Loop: Header=BB23_1 Depth=1
	cmpb	$0, (%rcx)
	jns	.LBB23_55
# %bb.54:                               # %recoding_kernels_may_be_plain_exit_i_158
                                        #   in Loop: Header=BB23_1 Depth=1
	cmpb	$0, 1(%rcx)
	js	.LBB23_56
.LBB23_55:                              # %arm.5.i132
                                        #   in Loop: Header=BB23_1 Depth=1
	movq	%r14, %r8
	callq	recoding_kernels_widen_plain_5ffe3d2dbc72ef02_159
	addq	%rax, %rdi
	addq	%rdx, %r12
	testq	%rax, %rax
	jne	.LBB23_1
	.p2align	4
.LBB23_56:                              # %join.14.i
                                        #   in Loop: Header=BB23_1 Depth=1
	movq	%rbx, %rax
	subq	%rdi, %rax
	cmpq	$128, %rax
	movl	$128, %ecx
	cmovbq	%rax, %rcx
	cmpq	$4, %rax
	jb	.LBB23_77
# %bb.57:                               # %join.3.i.i.i.preheader
                                        #   in Loop: Header=BB23_1 Depth=1
	movq	48(%rsp), %rax                  # 8-byte Reload
	leaq	(%rax,%rdi), %r8
	xorl	%eax, %eax
	.p2align	4
.LBB23_58:                              # %join.3.i.i.i
                                        #   Parent Loop BB23_1 Depth=1
                                        # =>  This Inner Loop Header: Depth=2
	movzbl	(%r8,%rax), %edx
	testb	%dl, %dl
	js	.LBB23_60
# %bb.59:                               # %arm.7.i154.thread
                                        #   in Loop: Header=BB23_58 Depth=2
	movl	$1, %r9d
	jmp	.LBB23_70
	.p2align	4
.LBB23_60:                              # %join.6.i.i.i
                                        #   in Loop: Header=BB23_58 Depth=2
	movzbl	1(%r8,%rax), %r9d
	cmpb	$-32, %dl
	jae	.LBB23_64
# %bb.61:                               # %recoding_text_Utf8Text_next_valid_exit_i_160
                                        #   in Loop: Header=BB23_58 Depth=2
	cmpb	$-62, %dl
	jb	.LBB23_76
# %bb.62:                               # %recoding_text_Utf8Text_next_valid_exit_i_160
                                        #   in Loop: Header=BB23_58 Depth=2
	xorl	$128, %r9d
	cmpb	$63, %r9b
	ja	.LBB23_76
# %bb.63:                               # %arm.7.i154
                                        #   in Loop: Header=BB23_58 Depth=2
	shll	$6, %edx
	addl	%r9d, %edx
	addl	$-12288, %edx                   # imm = 0xD000
	movl	$2, %r9d
	jmp	.LBB23_70
.LBB23_64:                              # %join.9.i.i.i
                                        #   in Loop: Header=BB23_58 Depth=2
	cmpb	$-65, %r9b
	jg	.LBB23_76
# %bb.65:                               # %join.12.i.i.i
                                        #   in Loop: Header=BB23_58 Depth=2
	movl	%edx, %r10d
	andl	$15, %edx
	andl	$63, %r9d
	shll	$6, %edx
	orl	%r9d, %edx
	cmpb	$-17, %r10b
	ja	.LBB23_72
# %bb.66:                               # %then.13.i.i.i
                                        #   in Loop: Header=BB23_58 Depth=2
	movl	%edx, %r9d
	andl	$-32, %r9d
	cmpl	$864, %r9d                      # imm = 0x360
	je	.LBB23_76
# %bb.67:                               # %join.3.i13.i.i
                                        #   in Loop: Header=BB23_58 Depth=2
	movzbl	2(%r8,%rax), %r10d
	cmpb	$-65, %r10b
	jg	.LBB23_76
# %bb.68:                               # %join.3.i13.i.i
                                        #   in Loop: Header=BB23_58 Depth=2
	cmpl	$32, %edx
	jb	.LBB23_76
# %bb.69:                               # %arm.7.i154.thread577
                                        #   in Loop: Header=BB23_58 Depth=2
	shll	$6, %edx
	andl	$63, %r10d
	orl	%edx, %r10d
	movl	$3, %r9d
	movl	%r10d, %edx
	.p2align	4
.LBB23_70:                              # %arm.1.i.i165
                                        #   in Loop: Header=BB23_58 Depth=2
	movq	(%r14), %r10
	movq	8(%r14), %rsi
	movb	%dl, (%r10,%rsi)
	movq	(%r14), %rbp
	movb	%dh, 1(%rbp,%rsi)
	addq	$2, %rsi
.LBB23_71:                              # %recoding_text_Utf16Text_put_code_ec2bf5654938c731_exit_i_161
                                        #   in Loop: Header=BB23_58 Depth=2
	movq	%rsi, 8(%r14)
	addq	%r9, %rax
	movq	%rcx, %rdx
	subq	%rax, %rdx
	cmpq	$3, %rdx
	ja	.LBB23_58
	jmp	.LBB23_76
.LBB23_72:                              # %else.14.i.i.i
                                        #   in Loop: Header=BB23_58 Depth=2
	leal	-272(%rdx), %r9d
	cmpl	$-256, %r9d
	jb	.LBB23_76
# %bb.73:                               # %after.1.i.i.i
                                        #   in Loop: Header=BB23_58 Depth=2
	movzbl	2(%r8,%rax), %r9d
	cmpb	$-65, %r9b
	jg	.LBB23_76
# %bb.74:                               # %else.14.i34.i.i
                                        #   in Loop: Header=BB23_58 Depth=2
	movzbl	3(%r8,%rax), %r11d
	cmpb	$-65, %r11b
	jg	.LBB23_76
# %bb.75:                               # %arm.7.i154.thread583
                                        #   in Loop: Header=BB23_58 Depth=2
	movl	%r9d, %r10d
	andl	$63, %r10d
	andb	$63, %r11b
	shll	$12, %edx
	shll	$6, %r10d
	orl	%r10d, %edx
	movq	(%r14), %r15
	movq	8(%r14), %rsi
	shrl	$10, %edx
	addl	$-10304, %edx                   # imm = 0xD7C0
	orb	%r11b, %r10b
	shrb	$2, %r9b
	andb	$3, %r9b
	orb	$-36, %r9b
	movb	%dl, (%r15,%rsi)
	movq	(%r14), %rbp
	movb	%dh, 1(%rbp,%rsi)
	movq	(%r14), %rdx
	movb	%r10b, 2(%rdx,%rsi)
	movq	(%r14), %rdx
	movb	%r9b, 3(%rdx,%rsi)
	addq	$4, %rsi
	movl	$4, %r9d
	jmp	.LBB23_71
	.p2align	4
.LBB23_76:                              # %recoding_engine_recode_text_4bab232dcda6565b_exit_162
                                        #   in Loop: Header=BB23_1 Depth=1
	addq	%rax, %rdi
	cmpq	$124, %rax
	ja	.LBB23_1
.LBB23_77:                              # %then.15.i
                                        #   in Loop: Header=BB23_1 Depth=1
	movq	%rbx, %r8
	subq	%rdi, %r8
	je	.LBB23_83
# %bb.78:                               # %recoding_engine_recode_carefully_4bab232dcda6565b_exit_163
                                        #   in Loop: Header=BB23_1 Depth=1
	movq	48(%rsp), %rax                  # 8-byte Reload
	leaq	(%rax,%rdi), %rdx
	pxor	%xmm0, %xmm0
	movdqa	%xmm0, 64(%rsp)
	movq	$0, 80(%rsp)
	leaq	64(%rsp), %rcx
	movq	%r14, %r9
	callq	recoding_engine_recode_faults_e0f9120ea28c3ab4_164
	movq	72(%rsp), %rax
	testq	%rax, %rax
	je	.LBB23_80
# %bb.79:                               # %select.false.sink
                                        #   in Loop: Header=BB23_1 Depth=1
	movq	%r13, %rcx
	incq	%rcx
	movq	$-1, %r13
	cmovneq	%rcx, %r13
.LBB23_80:                              # %select.end
                                        #   in Loop: Header=BB23_1 Depth=1
	addq	64(%rsp), %rdi
	addq	%rax, %r12
	testb	$1, 80(%rsp)
	jne	.LBB23_84
# %bb.81:                               # %select.end
                                        #   in Loop: Header=BB23_1 Depth=1
	testb	$1, 81(%rsp)
	je	.LBB23_1
	jmp	.LBB23_84
.LBB23_82:
	movq	%rbx, %rdi
	movq	56(%rsp), %r12                  # 8-byte Reload
	jmp	.LBB23_84
.LBB23_83:
	movq	%rbx, %rdi
.LBB23_84:                              # %recoding_engine_run_bfb22b68fe82cd38_exit_165
	movq	%rdi, %rax
	movq	%r12, %rdx
	movaps	256(%rsp), %xmm6                # 16-byte Reload
	movaps	272(%rsp), %xmm7                # 16-byte Reload
	movaps	288(%rsp), %xmm8                # 16-byte Reload
	movaps	304(%rsp), %xmm9                # 16-byte Reload
	addq	$328, %rsp                      # imm = 0x148
	popq	%rbx
	popq	%rbp
	popq	%rdi
	popq	%rsi
	popq	%r12
	popq	%r13
	popq	%r14
	popq	%r15
	retq
	.seh_endproc
                                        # -- End function
	.def	recoding_kernels_put_few_b3a77c927faee343_154;
	.scl	3;
	.type	32;
	.endef
	.section .rdata$n0,"dr"
	.p2align	4, 0x0                          # -- Begin function recoding::kernels::put_few::<#b3a77c927faee343>
.LCPI24_0:
	.zero	16,240
.LCPI24_1:
	.zero	16,127
.LCPI24_2:
	.zero	16,192
.LCPI24_3:
	.zero	16,224
.LCPI24_4:
	.zero	16,15
.LCPI24_5:
	.zero	16,32
.LCPI24_6:
	.zero	16,191
.LCPI24_7:
	.byte	2                               # 0x2
	.byte	2                               # 0x2
	.byte	2                               # 0x2
	.byte	2                               # 0x2
	.byte	2                               # 0x2
	.byte	2                               # 0x2
	.byte	2                               # 0x2
	.byte	2                               # 0x2
	.byte	128                             # 0x80
	.byte	128                             # 0x80
	.byte	128                             # 0x80
	.byte	128                             # 0x80
	.byte	5                               # 0x5
	.byte	1                               # 0x1
	.byte	25                              # 0x19
	.byte	97                              # 0x61
.LCPI24_8:
	.byte	207                             # 0xcf
	.byte	135                             # 0x87
	.byte	131                             # 0x83
	.byte	131                             # 0x83
	.byte	163                             # 0xa3
	.byte	227                             # 0xe3
	.byte	227                             # 0xe3
	.byte	227                             # 0xe3
	.byte	227                             # 0xe3
	.byte	227                             # 0xe3
	.byte	227                             # 0xe3
	.byte	227                             # 0xe3
	.byte	227                             # 0xe3
	.byte	243                             # 0xf3
	.byte	227                             # 0xe3
	.byte	227                             # 0xe3
.LCPI24_9:
	.byte	1                               # 0x1
	.byte	1                               # 0x1
	.byte	1                               # 0x1
	.byte	1                               # 0x1
	.byte	1                               # 0x1
	.byte	1                               # 0x1
	.byte	1                               # 0x1
	.byte	1                               # 0x1
	.byte	206                             # 0xce
	.byte	174                             # 0xae
	.byte	182                             # 0xb6
	.byte	182                             # 0xb6
	.byte	1                               # 0x1
	.byte	1                               # 0x1
	.byte	1                               # 0x1
	.byte	1                               # 0x1
.LCPI24_10:
	.zero	16,96
.LCPI24_11:
	.zero	16,112
.LCPI24_12:
	.zero	16,128
.LCPI24_13:
	.byte	224                             # 0xe0
	.byte	192                             # 0xc0
	.zero	1
	.zero	1
	.zero	1
	.zero	1
	.zero	1
	.zero	1
	.zero	1
	.zero	1
	.zero	1
	.zero	1
	.zero	1
	.zero	1
	.zero	1
	.zero	1
.LCPI24_14:
	.byte	224                             # 0xe0
	.byte	192                             # 0xc0
	.byte	0                               # 0x0
	.byte	0                               # 0x0
	.byte	0                               # 0x0
	.byte	0                               # 0x0
	.byte	0                               # 0x0
	.byte	0                               # 0x0
	.byte	0                               # 0x0
	.byte	0                               # 0x0
	.byte	0                               # 0x0
	.byte	0                               # 0x0
	.byte	0                               # 0x0
	.byte	0                               # 0x0
	.byte	0                               # 0x0
	.byte	0                               # 0x0
	.section .text$n28,"xr"
	.p2align	4
recoding_kernels_put_few_b3a77c927faee343_154: # @recoding_kernels_put_few_b3a77c927faee343_154
.seh_proc recoding_kernels_put_few_b3a77c927faee343_154
# %bb.0:                                # %start
	pushq	%r15
	.seh_pushreg %r15
	pushq	%r14
	.seh_pushreg %r14
	pushq	%r13
	.seh_pushreg %r13
	pushq	%r12
	.seh_pushreg %r12
	pushq	%rsi
	.seh_pushreg %rsi
	pushq	%rdi
	.seh_pushreg %rdi
	pushq	%rbx
	.seh_pushreg %rbx
	subq	$512, %rsp                      # imm = 0x200
	.seh_stackalloc 512
	movdqa	%xmm10, 496(%rsp)               # 16-byte Spill
	.seh_savexmm %xmm10, 496
	movdqa	%xmm9, 480(%rsp)                # 16-byte Spill
	.seh_savexmm %xmm9, 480
	movdqa	%xmm8, 464(%rsp)                # 16-byte Spill
	.seh_savexmm %xmm8, 464
	movdqa	%xmm7, 448(%rsp)                # 16-byte Spill
	.seh_savexmm %xmm7, 448
	movdqa	%xmm6, 432(%rsp)                # 16-byte Spill
	.seh_savexmm %xmm6, 432
	.seh_endprologue
	movq	%r8, %rsi
	movq	%rcx, %rbx
	cmpq	$19, %rdx
	jae	.LBB24_3
# %bb.1:                                # %then.1
	cmpq	$16, %rdx
	movl	$16, %r14d
	cmovbq	%rdx, %r14
	cmpq	$4, %rdx
	jb	.LBB24_2
# %bb.5:                                # %join.6.i.i
	movq	%r14, %rax
	shlq	$4, %rax
	leaq	static.10(%rip), %rcx
	movdqu	-64(%rax,%rcx), %xmm0
	cmpq	$7, %rdx
	ja	.LBB24_9
# %bb.6:                                # %then.1.i8.i
	movd	(%rbx), %xmm1                   # xmm1 = mem[0],zero,zero,zero
	movl	-4(%rbx,%r14), %eax
	movd	%eax, %xmm2
	shrl	$8, %eax
	movdqa	%xmm1, %xmm3
	punpckldq	%xmm2, %xmm3            # xmm3 = xmm3[0],xmm2[0],xmm3[1],xmm2[1]
	pshufd	$68, %xmm3, %xmm4               # xmm4 = xmm3[0,1,0,1]
	pshufb	%xmm0, %xmm4
	movdqa	%xmm2, %xmm3
	psrld	$16, %xmm3
	jmp	.LBB24_10
.LBB24_3:                               # %join.3
	movq	%rbx, %rcx
	callq	utf_lanes_text_blocks_text_len_110
	cmpq	$19, %rax
	jb	.LBB24_2
# %bb.7:                                # %join.6
	movq	%rax, %rdi
	pxor	%xmm0, %xmm0
	movdqa	%xmm0, 160(%rsp)
	movdqa	%xmm0, 144(%rsp)
	movdqa	%xmm0, 128(%rsp)
	movdqa	%xmm0, 112(%rsp)
	movdqa	%xmm0, 96(%rsp)
	movdqu	(%rbx), %xmm7
	movdqa	%xmm7, %xmm6
	pslldq	$1, %xmm6                       # xmm6 = zero,xmm6[0,1,2,3,4,5,6,7,8,9,10,11,12,13,14]
	movdqa	%xmm7, %xmm2
	pslldq	$2, %xmm2                       # xmm2 = zero,zero,xmm2[0,1,2,3,4,5,6,7,8,9,10,11,12,13]
	movdqa	%xmm7, %xmm1
	pslldq	$3, %xmm1                       # xmm1 = zero,zero,zero,xmm1[0,1,2,3,4,5,6,7,8,9,10,11,12]
	movdqa	%xmm2, %xmm3
	pmaxub	%xmm1, %xmm3
	movdqa	.LCPI24_0(%rip), %xmm4          # xmm4 = [240,240,240,240,240,240,240,240,240,240,240,240,240,240,240,240]
	pmaxub	%xmm3, %xmm4
	pcmpeqb	%xmm3, %xmm4
	pmovmskb	%xmm4, %eax
	testl	%eax, %eax
	je	.LBB24_12
# %bb.8:                                # %else.2.i.i
	movdqa	%xmm2, 400(%rsp)
	movdqa	%xmm1, 416(%rsp)
	movdqa	%xmm6, 384(%rsp)
	movdqa	%xmm7, 368(%rsp)
	leaq	368(%rsp), %rax
	movq	%rax, 32(%rsp)
	leaq	48(%rsp), %rcx
	leaq	416(%rsp), %rdx
	leaq	400(%rsp), %r8
	leaq	384(%rsp), %r9
	callq	utf_lanes_text_units_long_halves_166
	movdqa	48(%rsp), %xmm1
	movdqa	64(%rsp), %xmm0
	jmp	.LBB24_13
.LBB24_9:                               # %join.3.i7.i
	movq	(%rbx), %rcx
	movq	%rcx, %xmm4
	movq	-8(%rbx,%r14), %r8
	movq	%r8, %xmm3
	movq	%r8, %rax
	shrq	$40, %rax
	pinsrq	$1, %r8, %xmm4
	pshufb	%xmm0, %xmm4
	movd	%ecx, %xmm1
	shrq	$32, %r8
	movd	%r8d, %xmm2
	psrlq	$48, %xmm3
.LBB24_10:                              # %utf_lanes_few_bytes_padded_text_exit_i_167
	movdqa	%xmm4, %xmm7
	pslldq	$1, %xmm7                       # xmm7 = zero,xmm7[0,1,2,3,4,5,6,7,8,9,10,11,12,13,14]
	movdqa	%xmm4, %xmm6
	pslldq	$2, %xmm6                       # xmm6 = zero,zero,xmm6[0,1,2,3,4,5,6,7,8,9,10,11,12,13]
	movdqa	%xmm4, %xmm5
	pslldq	$3, %xmm5                       # xmm5 = zero,zero,zero,xmm5[0,1,2,3,4,5,6,7,8,9,10,11,12]
	movdqa	%xmm7, %xmm8
	psrlw	$4, %xmm8
	movdqa	.LCPI24_4(%rip), %xmm9          # xmm9 = [15,15,15,15,15,15,15,15,15,15,15,15,15,15,15,15]
	pand	%xmm9, %xmm8
	movdqa	.LCPI24_7(%rip), %xmm10         # xmm10 = [2,2,2,2,2,2,2,2,128,128,128,128,5,1,25,97]
	pshufb	%xmm8, %xmm10
	pand	%xmm9, %xmm7
	movdqa	.LCPI24_8(%rip), %xmm8          # xmm8 = [207,135,131,131,163,227,227,227,227,227,227,227,227,243,227,227]
	pshufb	%xmm7, %xmm8
	psrlw	$4, %xmm4
	pand	%xmm9, %xmm4
	movdqa	.LCPI24_9(%rip), %xmm7          # xmm7 = [1,1,1,1,1,1,1,1,206,174,182,182,1,1,1,1]
	pshufb	%xmm4, %xmm7
	psubusb	.LCPI24_10(%rip), %xmm6
	psubusb	.LCPI24_11(%rip), %xmm5
	pand	%xmm8, %xmm7
	por	%xmm6, %xmm5
	pand	.LCPI24_12(%rip), %xmm5
	pand	%xmm10, %xmm7
	pxor	%xmm7, %xmm5
	ptest	%xmm5, %xmm5
	je	.LBB24_22
.LBB24_2:
	xorl	%edi, %edi
	jmp	.LBB24_30
.LBB24_12:                              # %then.1.i.i383
	pcmpgtb	%xmm7, %xmm0
	pand	%xmm6, %xmm0
	movdqa	.LCPI24_1(%rip), %xmm3          # xmm3 = [127,127,127,127,127,127,127,127,127,127,127,127,127,127,127,127]
	pand	%xmm7, %xmm3
	movdqa	%xmm0, %xmm1
	psllw	$6, %xmm1
	pand	.LCPI24_2(%rip), %xmm1
	psubusb	.LCPI24_3(%rip), %xmm2
	paddb	%xmm3, %xmm1
	psllw	$4, %xmm2
	pand	.LCPI24_0(%rip), %xmm2
	psrlw	$2, %xmm0
	pand	.LCPI24_4(%rip), %xmm0
	por	%xmm2, %xmm0
.LBB24_13:                              # %utf_lanes_text_puts_write_first_951b42d46d2e9f62_exit_168
	psubusb	.LCPI24_5(%rip), %xmm6
	pmaxub	%xmm7, %xmm6
	movdqa	.LCPI24_6(%rip), %xmm2          # xmm2 = [191,191,191,191,191,191,191,191,191,191,191,191,191,191,191,191]
	pminub	%xmm6, %xmm2
	pcmpeqb	%xmm6, %xmm2
	pmovmskb	%xmm2, %eax
	movdqa	%xmm1, %xmm2
	punpckhbw	%xmm0, %xmm2            # xmm2 = xmm2[8],xmm0[8],xmm2[9],xmm0[9],xmm2[10],xmm0[10],xmm2[11],xmm0[11],xmm2[12],xmm0[12],xmm2[13],xmm0[13],xmm2[14],xmm0[14],xmm2[15],xmm0[15]
	punpcklbw	%xmm0, %xmm1            # xmm1 = xmm1[0],xmm0[0],xmm1[1],xmm0[1],xmm1[2],xmm0[2],xmm1[3],xmm0[3],xmm1[4],xmm0[4],xmm1[5],xmm0[5],xmm1[6],xmm0[6],xmm1[7],xmm0[7]
	movzbl	%al, %ecx
	xorl	%edx, %edx
	popcntl	%ecx, %edx
	shll	$4, %ecx
	leaq	static.17(%rip), %r12
	movdqu	(%rcx,%r12), %xmm0
	pshufb	%xmm0, %xmm1
	shrl	$8, %eax
	popcntl	%eax, %r14d
	shll	$4, %eax
	movdqu	(%rax,%r12), %xmm0
	pshufb	%xmm0, %xmm2
	movdqa	%xmm1, 80(%rsp)
	movdqu	%xmm2, 80(%rsp,%rdx,2)
	addl	%edx, %r14d
	addl	%r14d, %r14d
	movl	$16, %r15d
	cmpq	$32, %rdi
	jae	.LBB24_17
.LBB24_14:                              # %after.1.i390
	cmpq	%rdi, %r15
	jae	.LBB24_28
# %bb.15:                               # %then.6.i
	movq	%rdi, %rax
	addq	$-16, %rax
	subq	%rax, %r15
	movdqu	-19(%rbx,%rdi), %xmm0
	movdqu	-18(%rbx,%rdi), %xmm2
	movdqu	-17(%rbx,%rdi), %xmm6
	movdqu	-16(%rbx,%rdi), %xmm7
	movdqa	%xmm2, %xmm1
	pmaxub	%xmm0, %xmm1
	movdqa	.LCPI24_0(%rip), %xmm3          # xmm3 = [240,240,240,240,240,240,240,240,240,240,240,240,240,240,240,240]
	pmaxub	%xmm1, %xmm3
	pcmpeqb	%xmm1, %xmm3
	pmovmskb	%xmm3, %eax
	testl	%eax, %eax
	je	.LBB24_26
# %bb.16:                               # %else.2.i.i591
	movdqa	%xmm2, 272(%rsp)
	movdqa	%xmm0, 288(%rsp)
	movdqa	%xmm6, 256(%rsp)
	movdqa	%xmm7, 240(%rsp)
	leaq	240(%rsp), %rax
	movq	%rax, 32(%rsp)
	leaq	48(%rsp), %rcx
	leaq	288(%rsp), %rdx
	leaq	272(%rsp), %r8
	leaq	256(%rsp), %r9
	callq	utf_lanes_text_units_long_halves_166
	movdqa	48(%rsp), %xmm0
	movdqa	64(%rsp), %xmm1
	jmp	.LBB24_27
.LBB24_17:                              # %join.5.i.lr.ph
	leaq	-16(%rdi), %r13
	jmp	.LBB24_20
	.p2align	4
.LBB24_18:                              # %else.2.i.i723
                                        #   in Loop: Header=BB24_20 Depth=1
	movdqa	%xmm2, 336(%rsp)
	movdqa	%xmm0, 352(%rsp)
	movdqa	%xmm6, 320(%rsp)
	movdqa	%xmm7, 304(%rsp)
	leaq	304(%rsp), %rax
	movq	%rax, 32(%rsp)
	leaq	48(%rsp), %rcx
	leaq	352(%rsp), %rdx
	leaq	336(%rsp), %r8
	leaq	320(%rsp), %r9
	callq	utf_lanes_text_units_long_halves_166
	movdqa	48(%rsp), %xmm0
	movdqa	64(%rsp), %xmm1
.LBB24_19:                              # %utf_lanes_text_units_block_units_951b42d46d2e9f62_exit932_169
                                        #   in Loop: Header=BB24_20 Depth=1
	psubusb	.LCPI24_5(%rip), %xmm6
	pmaxub	%xmm7, %xmm6
	movdqa	.LCPI24_6(%rip), %xmm2          # xmm2 = [191,191,191,191,191,191,191,191,191,191,191,191,191,191,191,191]
	pminub	%xmm6, %xmm2
	pcmpeqb	%xmm6, %xmm2
	pmovmskb	%xmm2, %eax
	movdqa	%xmm0, %xmm2
	punpckhbw	%xmm1, %xmm2            # xmm2 = xmm2[8],xmm1[8],xmm2[9],xmm1[9],xmm2[10],xmm1[10],xmm2[11],xmm1[11],xmm2[12],xmm1[12],xmm2[13],xmm1[13],xmm2[14],xmm1[14],xmm2[15],xmm1[15]
	punpcklbw	%xmm1, %xmm0            # xmm0 = xmm0[0],xmm1[0],xmm0[1],xmm1[1],xmm0[2],xmm1[2],xmm0[3],xmm1[3],xmm0[4],xmm1[4],xmm0[5],xmm1[5],xmm0[6],xmm1[6],xmm0[7],xmm1[7]
	movzbl	%al, %ecx
	xorl	%edx, %edx
	popcntl	%ecx, %edx
	shll	$4, %ecx
	movdqu	(%rcx,%r12), %xmm1
	pshufb	%xmm1, %xmm0
	shrl	$8, %eax
	xorl	%ecx, %ecx
	popcntl	%eax, %ecx
	shll	$4, %eax
	movdqu	(%rax,%r12), %xmm1
	pshufb	%xmm1, %xmm2
	leaq	(%rsp,%r14), %rax
	addq	$80, %rax
	movdqu	%xmm0, 80(%rsp,%r14)
	movdqu	%xmm2, (%rax,%rdx,2)
	addl	%edx, %ecx
	leaq	(%r14,%rcx,2), %r14
	addq	$16, %r15
	addq	$-16, %r13
	cmpq	$15, %r13
	jbe	.LBB24_14
.LBB24_20:                              # %join.5.i
                                        # =>This Inner Loop Header: Depth=1
	movdqu	-3(%rbx,%r15), %xmm0
	movdqu	-2(%rbx,%r15), %xmm2
	movdqu	-1(%rbx,%r15), %xmm6
	movdqu	(%rbx,%r15), %xmm7
	movdqa	%xmm2, %xmm1
	pmaxub	%xmm0, %xmm1
	movdqa	.LCPI24_0(%rip), %xmm3          # xmm3 = [240,240,240,240,240,240,240,240,240,240,240,240,240,240,240,240]
	pmaxub	%xmm1, %xmm3
	pcmpeqb	%xmm1, %xmm3
	pmovmskb	%xmm3, %eax
	testl	%eax, %eax
	jne	.LBB24_18
# %bb.21:                               # %then.1.i.i917
                                        #   in Loop: Header=BB24_20 Depth=1
	pxor	%xmm1, %xmm1
	pcmpgtb	%xmm7, %xmm1
	pand	%xmm6, %xmm1
	movdqa	.LCPI24_1(%rip), %xmm3          # xmm3 = [127,127,127,127,127,127,127,127,127,127,127,127,127,127,127,127]
	pand	%xmm7, %xmm3
	movdqa	%xmm1, %xmm0
	psllw	$6, %xmm0
	pand	.LCPI24_2(%rip), %xmm0
	psubusb	.LCPI24_3(%rip), %xmm2
	paddb	%xmm3, %xmm0
	psllw	$4, %xmm2
	pand	.LCPI24_0(%rip), %xmm2
	psrlw	$2, %xmm1
	pand	.LCPI24_4(%rip), %xmm1
	por	%xmm2, %xmm1
	jmp	.LBB24_19
.LBB24_22:                              # %then.7.i.i
	movd	.LCPI24_14(%rip), %xmm4         # xmm4 = [224,192,0,0,0,0,0,0,0,0,0,0,0,0,0,0]
	pmaxub	%xmm3, %xmm4
	pcmpeqb	%xmm3, %xmm4
	pcmpeqd	%xmm3, %xmm3
	pxor	%xmm4, %xmm3
	pmovsxbq	%xmm3, %xmm3
	movmskpd	%xmm3, %ecx
	xorl	%edi, %edi
	cmpl	$3, %ecx
	jne	.LBB24_30
# %bb.23:                               # %then.7.i.i
	cmpb	$-17, %al
	ja	.LBB24_30
# %bb.24:                               # %after.1.i
	movl	$16, %edi
	xorpd	%xmm3, %xmm3
	movapd	%xmm3, 64(%rsp)
	cmpq	$7, %rdx
	ja	.LBB24_31
# %bb.25:                               # %then.1.i.i
	punpckldq	%xmm2, %xmm1            # xmm1 = xmm1[0],xmm2[0],xmm1[1],xmm2[1]
	pshufd	$68, %xmm1, %xmm6               # xmm6 = xmm1[0,1,0,1]
	jmp	.LBB24_32
.LBB24_26:                              # %then.1.i.i660
	pxor	%xmm1, %xmm1
	pcmpgtb	%xmm7, %xmm1
	pand	%xmm6, %xmm1
	movdqa	.LCPI24_1(%rip), %xmm3          # xmm3 = [127,127,127,127,127,127,127,127,127,127,127,127,127,127,127,127]
	pand	%xmm7, %xmm3
	movdqa	%xmm1, %xmm0
	psllw	$6, %xmm0
	pand	.LCPI24_2(%rip), %xmm0
	psubusb	.LCPI24_3(%rip), %xmm2
	paddb	%xmm3, %xmm0
	psllw	$4, %xmm2
	pand	.LCPI24_0(%rip), %xmm2
	psrlw	$2, %xmm1
	pand	.LCPI24_4(%rip), %xmm1
	por	%xmm2, %xmm1
.LBB24_27:                              # %utf_lanes_text_units_block_units_951b42d46d2e9f62_exit_170
	psubusb	.LCPI24_5(%rip), %xmm6
	pmaxub	%xmm7, %xmm6
	movdqa	.LCPI24_6(%rip), %xmm2          # xmm2 = [191,191,191,191,191,191,191,191,191,191,191,191,191,191,191,191]
	pminub	%xmm6, %xmm2
	pcmpeqb	%xmm6, %xmm2
	movq	$-1, %rax
	movl	%r15d, %ecx
	shlq	%cl, %rax
	pmovmskb	%xmm2, %ecx
	andl	%ecx, %eax
	movdqa	%xmm0, %xmm2
	punpckhbw	%xmm1, %xmm2            # xmm2 = xmm2[8],xmm1[8],xmm2[9],xmm1[9],xmm2[10],xmm1[10],xmm2[11],xmm1[11],xmm2[12],xmm1[12],xmm2[13],xmm1[13],xmm2[14],xmm1[14],xmm2[15],xmm1[15]
	punpcklbw	%xmm1, %xmm0            # xmm0 = xmm0[0],xmm1[0],xmm0[1],xmm1[1],xmm0[2],xmm1[2],xmm0[3],xmm1[3],xmm0[4],xmm1[4],xmm0[5],xmm1[5],xmm0[6],xmm1[6],xmm0[7],xmm1[7]
	movzbl	%al, %ecx
	xorl	%edx, %edx
	popcntl	%ecx, %edx
	shll	$4, %ecx
	movdqu	(%rcx,%r12), %xmm1
	pshufb	%xmm1, %xmm0
	shrl	$8, %eax
	xorl	%ecx, %ecx
	popcntl	%eax, %ecx
	shll	$4, %eax
	movdqu	(%rax,%r12), %xmm1
	pshufb	%xmm1, %xmm2
	leaq	(%rsp,%r14), %rax
	addq	$80, %rax
	movdqu	%xmm0, 80(%rsp,%r14)
	movdqu	%xmm2, (%rax,%rdx,2)
	addl	%edx, %ecx
	leaq	(%r14,%rcx,2), %r14
.LBB24_28:                              # %utf_lanes_text_puts_write_rest_951b42d46d2e9f62_exit_171
	movq	8(%rsi), %rbx
	movq	16(%rsi), %r15
	movq	%r15, %rax
	subq	%rbx, %rax
	cmpq	%rax, %r14
	ja	.LBB24_38
.LBB24_29:                              # %join.3.i945
	movq	(%rsi), %r12
	leaq	(%r12,%rbx), %rcx
	addq	%r14, %rbx
	leaq	80(%rsp), %rdx
	movq	%r14, %r8
	callq	memcpy
	movq	%r12, (%rsi)
	movq	%rbx, 8(%rsi)
	movq	%r15, 16(%rsi)
.LBB24_30:                              # %common.ret
	movq	%rdi, %rax
	movaps	432(%rsp), %xmm6                # 16-byte Reload
	movaps	448(%rsp), %xmm7                # 16-byte Reload
	movaps	464(%rsp), %xmm8                # 16-byte Reload
	movaps	480(%rsp), %xmm9                # 16-byte Reload
	movaps	496(%rsp), %xmm10               # 16-byte Reload
	addq	$512, %rsp                      # imm = 0x200
	popq	%rbx
	popq	%rdi
	popq	%rsi
	popq	%r12
	popq	%r13
	popq	%r14
	popq	%r15
	retq
.LBB24_31:                              # %join.3.i.i
	movq	-8(%rbx,%r14), %xmm1            # xmm1 = mem[0],zero
	movq	(%rbx), %xmm6                   # xmm6 = mem[0],zero
	punpcklqdq	%xmm1, %xmm6            # xmm6 = xmm6[0],xmm1[0]
.LBB24_32:                              # %utf_lanes_text_puts_write_few_951b42d46d2e9f62_exit_172
	pshufb	%xmm0, %xmm6
	subq	%r14, %rdi
	movdqa	%xmm6, %xmm7
	pslldq	$1, %xmm7                       # xmm7 = zero,xmm7[0,1,2,3,4,5,6,7,8,9,10,11,12,13,14]
	movdqa	%xmm6, %xmm2
	pslldq	$2, %xmm2                       # xmm2 = zero,zero,xmm2[0,1,2,3,4,5,6,7,8,9,10,11,12,13]
	movdqa	%xmm6, %xmm0
	pslldq	$3, %xmm0                       # xmm0 = zero,zero,zero,xmm0[0,1,2,3,4,5,6,7,8,9,10,11,12]
	movdqa	%xmm2, %xmm1
	pmaxub	%xmm0, %xmm1
	movdqa	.LCPI24_0(%rip), %xmm3          # xmm3 = [240,240,240,240,240,240,240,240,240,240,240,240,240,240,240,240]
	pmaxub	%xmm1, %xmm3
	pcmpeqb	%xmm1, %xmm3
	pmovmskb	%xmm3, %eax
	testl	%eax, %eax
	je	.LBB24_34
# %bb.33:                               # %else.2.i
	movdqa	%xmm2, 208(%rsp)
	movdqa	%xmm0, 224(%rsp)
	movdqa	%xmm7, 192(%rsp)
	movdqa	%xmm6, 176(%rsp)
	leaq	176(%rsp), %rax
	movq	%rax, 32(%rsp)
	leaq	80(%rsp), %rcx
	leaq	224(%rsp), %rdx
	leaq	208(%rsp), %r8
	leaq	192(%rsp), %r9
	callq	utf_lanes_text_units_long_halves_166
	movdqa	80(%rsp), %xmm0
	movdqa	96(%rsp), %xmm1
	jmp	.LBB24_35
.LBB24_34:                              # %then.1.i
	pxor	%xmm1, %xmm1
	pcmpgtb	%xmm6, %xmm1
	pand	%xmm7, %xmm1
	movdqa	.LCPI24_1(%rip), %xmm3          # xmm3 = [127,127,127,127,127,127,127,127,127,127,127,127,127,127,127,127]
	pand	%xmm6, %xmm3
	movdqa	%xmm1, %xmm0
	psllw	$6, %xmm0
	pand	.LCPI24_2(%rip), %xmm0
	psubusb	.LCPI24_3(%rip), %xmm2
	paddb	%xmm3, %xmm0
	psllw	$4, %xmm2
	pand	.LCPI24_0(%rip), %xmm2
	psrlw	$2, %xmm1
	pand	.LCPI24_4(%rip), %xmm1
	por	%xmm2, %xmm1
.LBB24_35:                              # %utf_lanes_text_units_lane_halves_exit_173
	psubusb	.LCPI24_5(%rip), %xmm7
	pmaxub	%xmm6, %xmm7
	movdqa	.LCPI24_6(%rip), %xmm2          # xmm2 = [191,191,191,191,191,191,191,191,191,191,191,191,191,191,191,191]
	pminub	%xmm7, %xmm2
	pcmpeqb	%xmm7, %xmm2
	pmovmskb	%xmm2, %eax
	movl	%edi, %ecx
	shrl	%cl, %eax
	shll	%cl, %eax
	movdqa	%xmm0, %xmm2
	punpckhbw	%xmm1, %xmm2            # xmm2 = xmm2[8],xmm1[8],xmm2[9],xmm1[9],xmm2[10],xmm1[10],xmm2[11],xmm1[11],xmm2[12],xmm1[12],xmm2[13],xmm1[13],xmm2[14],xmm1[14],xmm2[15],xmm1[15]
	punpcklbw	%xmm1, %xmm0            # xmm0 = xmm0[0],xmm1[0],xmm0[1],xmm1[1],xmm0[2],xmm1[2],xmm0[3],xmm1[3],xmm0[4],xmm1[4],xmm0[5],xmm1[5],xmm0[6],xmm1[6],xmm0[7],xmm1[7]
	movzbl	%al, %ecx
	xorl	%edx, %edx
	popcntl	%ecx, %edx
	shll	$4, %ecx
	leaq	static.17(%rip), %r9
	movdqu	(%rcx,%r9), %xmm1
	pshufb	%xmm1, %xmm0
	shrl	$8, %eax
	xorl	%r8d, %r8d
	popcntl	%eax, %r8d
	shll	$4, %eax
	movdqu	(%rax,%r9), %xmm1
	pshufb	%xmm1, %xmm2
	movdqa	%xmm0, 48(%rsp)
	movdqu	%xmm2, 48(%rsp,%rdx,2)
	addl	%edx, %r8d
	addl	%r8d, %r8d
	movq	8(%rsi), %rdi
	movq	16(%rsi), %rbx
	movq	%rbx, %rax
	subq	%rdi, %rax
	cmpq	%rax, %r8
	ja	.LBB24_40
.LBB24_36:                              # %join.3.i
	movq	(%rsi), %r15
	leaq	(%r15,%rdi), %rcx
	addq	%r8, %rdi
	leaq	48(%rsp), %rdx
	callq	memcpy
	movq	%r15, (%rsi)
	movq	%rdi, 8(%rsi)
	movq	%rbx, 16(%rsi)
.LBB24_37:                              # %std_alloc_vec_Vec_extend_from_slice_0cd040e5c49bc722_exit_129
	movq	%r14, %rdi
	jmp	.LBB24_30
.LBB24_38:                              # %std_alloc_vec_Vec_grow_5fdc5e19576447a7_exit_i965_174
	movq	%rsi, %rcx
	movq	%r14, %rdx
	callq	std_alloc_vec_Vec_grow_amortized_5fdc5e19576447a7_3
	testb	%al, %al
	je	.LBB24_30
# %bb.39:                               # %std_alloc_vec_Vec_grow_5fdc5e19576447a7_exit_join_3_crit_edge_i967_175
	movq	8(%rsi), %rbx
	movq	16(%rsi), %r15
	jmp	.LBB24_29
.LBB24_40:                              # %std_alloc_vec_Vec_grow_5fdc5e19576447a7_exit_i_76
	movq	%rsi, %rcx
	movq	%r8, %r15
	movq	%r8, %rdx
	callq	std_alloc_vec_Vec_grow_amortized_5fdc5e19576447a7_3
	testb	%al, %al
	je	.LBB24_37
# %bb.41:                               # %std_alloc_vec_Vec_grow_5fdc5e19576447a7_exit_join_3_crit_edge_i_115
	movq	8(%rsi), %rdi
	movq	16(%rsi), %rbx
	movq	%r15, %r8
	jmp	.LBB24_36
	.seh_endproc
                                        # -- End function
	.def	utf_lanes_text_units_long_halves_166;
	.scl	3;
	.type	32;
	.endef
	.section .rdata$n0,"dr"
	.p2align	4, 0x0                          # -- Begin function utf_lanes::text_units::long_halves
.LCPI25_0:
	.zero	16,127
.LCPI25_1:
	.zero	16,192
.LCPI25_2:
	.zero	16,224
.LCPI25_3:
	.zero	16,15
.LCPI25_4:
	.zero	16,252
.LCPI25_5:
	.zero	16,7
.LCPI25_6:
	.zero	16,64
.LCPI25_7:
	.zero	16,215
.LCPI25_8:
	.zero	16,3
.LCPI25_9:
	.zero	16,220
.LCPI25_10:
	.zero	16,239
	.section .text$n29,"xr"
	.p2align	4
utf_lanes_text_units_long_halves_166:   # @utf_lanes_text_units_long_halves_166
.seh_proc utf_lanes_text_units_long_halves_166
# %bb.0:                                # %start
	subq	$72, %rsp
	.seh_stackalloc 72
	movaps	%xmm9, 48(%rsp)                 # 16-byte Spill
	.seh_savexmm %xmm9, 48
	movaps	%xmm8, 32(%rsp)                 # 16-byte Spill
	.seh_savexmm %xmm8, 32
	movaps	%xmm7, 16(%rsp)                 # 16-byte Spill
	.seh_savexmm %xmm7, 16
	movdqa	%xmm6, (%rsp)                   # 16-byte Spill
	.seh_savexmm %xmm6, 0
	.seh_endprologue
	movdqa	(%r8), %xmm7
	movdqa	(%r9), %xmm2
	movq	112(%rsp), %rax
	movdqa	(%rax), %xmm4
	pxor	%xmm6, %xmm6
	pcmpgtb	%xmm4, %xmm6
	pand	%xmm2, %xmm6
	movdqa	.LCPI25_0(%rip), %xmm9          # xmm9 = [127,127,127,127,127,127,127,127,127,127,127,127,127,127,127,127]
	pand	%xmm4, %xmm9
	movdqa	%xmm6, %xmm3
	psllw	$6, %xmm3
	movdqa	.LCPI25_1(%rip), %xmm5          # xmm5 = [192,192,192,192,192,192,192,192,192,192,192,192,192,192,192,192]
	pand	%xmm5, %xmm3
	movdqa	.LCPI25_5(%rip), %xmm8          # xmm8 = [7,7,7,7,7,7,7,7,7,7,7,7,7,7,7,7]
	pand	%xmm7, %xmm8
	movdqa	.LCPI25_10(%rip), %xmm0         # xmm0 = [239,239,239,239,239,239,239,239,239,239,239,239,239,239,239,239]
	movdqa	%xmm7, %xmm1
	pminub	%xmm0, %xmm1
	pcmpeqb	%xmm7, %xmm1
	psubusb	.LCPI25_2(%rip), %xmm7
	paddb	%xmm9, %xmm3
	psllw	$4, %xmm7
	psrlw	$2, %xmm6
	movdqa	.LCPI25_3(%rip), %xmm9          # xmm9 = [15,15,15,15,15,15,15,15,15,15,15,15,15,15,15,15]
	pand	%xmm9, %xmm6
	pandn	%xmm7, %xmm9
	por	%xmm6, %xmm9
	movdqa	%xmm2, %xmm6
	psllw	$2, %xmm6
	movdqa	.LCPI25_4(%rip), %xmm7          # xmm7 = [252,252,252,252,252,252,252,252,252,252,252,252,252,252,252,252]
	pand	%xmm7, %xmm6
	psrlw	$4, %xmm4
	pandn	%xmm4, %xmm7
	por	%xmm6, %xmm7
	movdqa	.LCPI25_6(%rip), %xmm4          # xmm4 = [64,64,64,64,64,64,64,64,64,64,64,64,64,64,64,64]
	pmaxub	%xmm6, %xmm4
	pcmpeqb	%xmm6, %xmm4
	psubb	%xmm4, %xmm8
	paddb	.LCPI25_7(%rip), %xmm8
	movdqa	(%rdx), %xmm4
	psrlw	$2, %xmm2
	pand	.LCPI25_8(%rip), %xmm2
	paddb	%xmm5, %xmm7
	por	.LCPI25_9(%rip), %xmm2
	pminub	%xmm4, %xmm0
	pcmpeqb	%xmm4, %xmm0
	pblendvb	%xmm0, %xmm9, %xmm2
	movdqa	%xmm1, %xmm0
	pblendvb	%xmm0, %xmm3, %xmm7
	pblendvb	%xmm0, %xmm2, %xmm8
	movdqu	%xmm7, (%rcx)
	movdqu	%xmm8, 16(%rcx)
	movaps	(%rsp), %xmm6                   # 16-byte Reload
	movaps	16(%rsp), %xmm7                 # 16-byte Reload
	movaps	32(%rsp), %xmm8                 # 16-byte Reload
	movaps	48(%rsp), %xmm9                 # 16-byte Reload
	addq	$72, %rsp
	retq
	.seh_endproc
                                        # -- End function
	.def	recoding_list_VecU8Output_put_wide_e3b2a9d4d2861db8_152;
	.scl	3;
	.type	32;
	.endef
	.section .text$n30,"xr"
	.p2align	4                               # -- Begin function recoding::list::VecU8Output::put_wide::<#e3b2a9d4d2861db8>
recoding_list_VecU8Output_put_wide_e3b2a9d4d2861db8_152: # @recoding_list_VecU8Output_put_wide_e3b2a9d4d2861db8_152
.seh_proc recoding_list_VecU8Output_put_wide_e3b2a9d4d2861db8_152
# %bb.0:                                # %start
	pushq	%rsi
	.seh_pushreg %rsi
	subq	$96, %rsp
	.seh_stackalloc 96
	.seh_endprologue
	movq	144(%rsp), %rax
	movaps	(%rax), %xmm0
	movaps	(%r9), %xmm1
	movaps	(%r8), %xmm2
	movaps	(%rdx), %xmm3
	movaps	%xmm3, 32(%rsp)
	movaps	%xmm2, 48(%rsp)
	movaps	%xmm1, 64(%rsp)
	movaps	%xmm0, 80(%rsp)
	movq	8(%rcx), %rax
	movq	16(%rcx), %rdx
	movq	%rdx, %r8
	subq	%rax, %r8
	cmpq	$63, %r8
	jbe	.LBB26_1
.LBB26_3:                               # %join.3.i
	movq	(%rcx), %r8
	leaq	(%r8,%rax), %r9
	addq	$64, %rax
	leaq	32(%rsp), %r10
	movq	%r9, %r11
	subq	%r10, %r11
	cmpq	$63, %r11
	ja	.LBB26_5
# %bb.4:                                # %join.7.i.i.i.preheader
	movzbl	32(%rsp), %r10d
	movb	%r10b, (%r9)
	movzbl	33(%rsp), %r10d
	movb	%r10b, 1(%r9)
	movzbl	34(%rsp), %r10d
	movb	%r10b, 2(%r9)
	movzbl	35(%rsp), %r10d
	movb	%r10b, 3(%r9)
	movzbl	36(%rsp), %r10d
	movb	%r10b, 4(%r9)
	movzbl	37(%rsp), %r10d
	movb	%r10b, 5(%r9)
	movzbl	38(%rsp), %r10d
	movb	%r10b, 6(%r9)
	movzbl	39(%rsp), %r10d
	movb	%r10b, 7(%r9)
	movzbl	40(%rsp), %r10d
	movb	%r10b, 8(%r9)
	movzbl	41(%rsp), %r10d
	movb	%r10b, 9(%r9)
	movzbl	42(%rsp), %r10d
	movb	%r10b, 10(%r9)
	movzbl	43(%rsp), %r10d
	movb	%r10b, 11(%r9)
	movzbl	44(%rsp), %r10d
	movb	%r10b, 12(%r9)
	movzbl	45(%rsp), %r10d
	movb	%r10b, 13(%r9)
	movzbl	46(%rsp), %r10d
	movb	%r10b, 14(%r9)
	movzbl	47(%rsp), %r10d
	movb	%r10b, 15(%r9)
	movzbl	48(%rsp), %r10d
	movb	%r10b, 16(%r9)
	movzbl	49(%rsp), %r10d
	movb	%r10b, 17(%r9)
	movzbl	50(%rsp), %r10d
	movb	%r10b, 18(%r9)
	movzbl	51(%rsp), %r10d
	movb	%r10b, 19(%r9)
	movzbl	52(%rsp), %r10d
	movb	%r10b, 20(%r9)
	movzbl	53(%rsp), %r10d
	movb	%r10b, 21(%r9)
	movzbl	54(%rsp), %r10d
	movb	%r10b, 22(%r9)
	movzbl	55(%rsp), %r10d
	movb	%r10b, 23(%r9)
	movzbl	56(%rsp), %r10d
	movb	%r10b, 24(%r9)
	movzbl	57(%rsp), %r10d
	movb	%r10b, 25(%r9)
	movzbl	58(%rsp), %r10d
	movb	%r10b, 26(%r9)
	movzbl	59(%rsp), %r10d
	movb	%r10b, 27(%r9)
	movzbl	60(%rsp), %r10d
	movb	%r10b, 28(%r9)
	movzbl	61(%rsp), %r10d
	movb	%r10b, 29(%r9)
	movzbl	62(%rsp), %r10d
	movb	%r10b, 30(%r9)
	movzbl	63(%rsp), %r10d
	movb	%r10b, 31(%r9)
	movzbl	64(%rsp), %r10d
	movb	%r10b, 32(%r9)
	movzbl	65(%rsp), %r10d
	movb	%r10b, 33(%r9)
	movzbl	66(%rsp), %r10d
	movb	%r10b, 34(%r9)
	movzbl	67(%rsp), %r10d
	movb	%r10b, 35(%r9)
	movzbl	68(%rsp), %r10d
	movb	%r10b, 36(%r9)
	movzbl	69(%rsp), %r10d
	movb	%r10b, 37(%r9)
	movzbl	70(%rsp), %r10d
	movb	%r10b, 38(%r9)
	movzbl	71(%rsp), %r10d
	movb	%r10b, 39(%r9)
	movzbl	72(%rsp), %r10d
	movb	%r10b, 40(%r9)
	movzbl	73(%rsp), %r10d
	movb	%r10b, 41(%r9)
	movzbl	74(%rsp), %r10d
	movb	%r10b, 42(%r9)
	movzbl	75(%rsp), %r10d
	movb	%r10b, 43(%r9)
	movzbl	76(%rsp), %r10d
	movb	%r10b, 44(%r9)
	movzbl	77(%rsp), %r10d
	movb	%r10b, 45(%r9)
	movzbl	78(%rsp), %r10d
	movb	%r10b, 46(%r9)
	movzbl	79(%rsp), %r10d
	movb	%r10b, 47(%r9)
	movzbl	80(%rsp), %r10d
	movb	%r10b, 48(%r9)
	movzbl	81(%rsp), %r10d
	movb	%r10b, 49(%r9)
	movzbl	82(%rsp), %r10d
	movb	%r10b, 50(%r9)
	movzbl	83(%rsp), %r10d
	movb	%r10b, 51(%r9)
	movzbl	84(%rsp), %r10d
	movb	%r10b, 52(%r9)
	movzbl	85(%rsp), %r10d
	movb	%r10b, 53(%r9)
	movzbl	86(%rsp), %r10d
	movb	%r10b, 54(%r9)
	movzbl	87(%rsp), %r10d
	movb	%r10b, 55(%r9)
	movzbl	88(%rsp), %r10d
	movb	%r10b, 56(%r9)
	movzbl	89(%rsp), %r10d
	movb	%r10b, 57(%r9)
	movzbl	90(%rsp), %r10d
	movb	%r10b, 58(%r9)
	movzbl	91(%rsp), %r10d
	movb	%r10b, 59(%r9)
	movzbl	92(%rsp), %r10d
	movb	%r10b, 60(%r9)
	movzbl	93(%rsp), %r10d
	movb	%r10b, 61(%r9)
	movzbl	94(%rsp), %r10d
	movb	%r10b, 62(%r9)
	movzbl	95(%rsp), %r10d
	movb	%r10b, 63(%r9)
	jmp	.LBB26_6
.LBB26_5:                               # %apart.2.i.i.i
	movaps	32(%rsp), %xmm0
	movaps	48(%rsp), %xmm1
	movaps	64(%rsp), %xmm2
	movaps	80(%rsp), %xmm3
	movups	%xmm3, 48(%r9)
	movups	%xmm2, 32(%r9)
	movups	%xmm1, 16(%r9)
	movups	%xmm0, (%r9)
.LBB26_6:                               # %core_slots_Slots_copy_in_i8_20_core_clone_U8Clone_exit_i_112
	movq	%r8, (%rcx)
	movq	%rax, 8(%rcx)
	movq	%rdx, 16(%rcx)
.LBB26_7:                               # %std_alloc_vec_Vec_extend_from_slice_0cd040e5c49bc722_exit_129
	addq	$96, %rsp
	popq	%rsi
	retq
.LBB26_1:                               # %std_alloc_vec_Vec_grow_5fdc5e19576447a7_exit_i_76
	movl	$64, %edx
	movq	%rcx, %rsi
	callq	std_alloc_vec_Vec_grow_amortized_5fdc5e19576447a7_3
	testb	%al, %al
	je	.LBB26_7
# %bb.2:                                # %std_alloc_vec_Vec_grow_5fdc5e19576447a7_exit_join_3_crit_edge_i_115
	movq	%rsi, %rcx
	movq	8(%rsi), %rax
	movq	16(%rsi), %rdx
	jmp	.LBB26_3
	.seh_endproc
                                        # -- End function
	.def	recoding_kernels_put_judged_87c24961b7620b58_149;
	.scl	3;
	.type	32;
	.endef
	.section .text$n31,"xr"
	.p2align	4                               # -- Begin function recoding::kernels::put_judged::<#87c24961b7620b58>
recoding_kernels_put_judged_87c24961b7620b58_149: # @recoding_kernels_put_judged_87c24961b7620b58_149
.seh_proc recoding_kernels_put_judged_87c24961b7620b58_149
# %bb.0:                                # %start
	pushq	%rsi
	.seh_pushreg %rsi
	pushq	%rdi
	.seh_pushreg %rdi
	pushq	%rbx
	.seh_pushreg %rbx
	subq	$32, %rsp
	.seh_stackalloc 32
	.seh_endprologue
	movq	%r8, %rsi
	movq	%rcx, %rdi
	movq	16(%r8), %rax
	subq	8(%r8), %rax
	xorl	%ebx, %ebx
	subq	$32, %rax
	cmovbq	%rbx, %rax
	shrq	%rax
	cmpq	%rdx, %rax
	cmovbq	%rax, %rdx
	callq	utf_lanes_text_blocks_text_len_110
	cmpq	$18, %rax
	jbe	.LBB27_2
# %bb.1:                                # %join.3
	movq	%rdi, %rcx
	movq	%rax, %rdx
	movq	%rsi, %r8
	movq	%rax, %rbx
	callq	recoding_list_append_units_035c64e45cc79e03_176
.LBB27_2:                               # %common.ret
	movq	%rbx, %rax
	addq	$32, %rsp
	popq	%rbx
	popq	%rdi
	popq	%rsi
	retq
	.seh_endproc
                                        # -- End function
	.def	recoding_list_append_units_035c64e45cc79e03_176;
	.scl	3;
	.type	32;
	.endef
	.section .text$n32,"xr"
	.p2align	4                               # -- Begin function recoding::list::append_units::<#035c64e45cc79e03>
recoding_list_append_units_035c64e45cc79e03_176: # @recoding_list_append_units_035c64e45cc79e03_176
.seh_proc recoding_list_append_units_035c64e45cc79e03_176
# %bb.0:                                # %start
	pushq	%r15
	.seh_pushreg %r15
	pushq	%r14
	.seh_pushreg %r14
	pushq	%r13
	.seh_pushreg %r13
	pushq	%r12
	.seh_pushreg %r12
	pushq	%rsi
	.seh_pushreg %rsi
	pushq	%rdi
	.seh_pushreg %rdi
	pushq	%rbp
	.seh_pushreg %rbp
	pushq	%rbx
	.seh_pushreg %rbx
	subq	$40, %rsp
	.seh_stackalloc 40
	.seh_endprologue
	movq	%r8, %rsi
	movq	%rdx, %rbx
	movq	%rcx, %r14
	movq	8(%r8), %rdi
	leaq	32(,%rdx,2), %r15
	cmpq	$1985, %r15                     # imm = 0x7C1
	jae	.LBB28_2
# %bb.1:
	movq	%rdi, %rcx
	leaq	(%rcx,%r15), %r12
	cmpq	%rcx, %r12
	ja	.LBB28_15
.LBB28_13:                              # %then.1.i12
	jae	.LBB28_21
# %bb.14:                               # %join.3.i.i15
	movq	%r12, 8(%rsi)
	jmp	.LBB28_21
	.p2align	4
.LBB28_3:                               # %join.3.i.i
                                        #   in Loop: Header=BB28_2 Depth=1
	addq	$1984, %rcx                     # imm = 0x7C0
	movq	%rcx, 8(%rsi)
.LBB28_10:                              # %std_alloc_vec_Vec_resize_0cd040e5c49bc722_exit_177
                                        #   in Loop: Header=BB28_2 Depth=1
	addq	$-1984, %r15                    # imm = 0xF840
	cmpq	$1984, %r15                     # imm = 0x7C0
	jbe	.LBB28_11
.LBB28_2:                               # %join.5.i
                                        # =>This Inner Loop Header: Depth=1
	movq	8(%rsi), %rcx
	cmpq	$-1984, %rcx                    # imm = 0xF840
	jae	.LBB28_3
# %bb.4:                                # %join.3.i
                                        #   in Loop: Header=BB28_2 Depth=1
	movq	16(%rsi), %r12
	movq	%r12, %rax
	subq	%rcx, %rax
	cmpq	$1984, %rax                     # imm = 0x7C0
	jb	.LBB28_6
# %bb.5:                                # %join.3.i2.i.thread
                                        #   in Loop: Header=BB28_2 Depth=1
	leaq	1984(%rcx), %rbp
	movq	(%rsi), %r13
.LBB28_8:                               # %join.5.preheader.i.i.i
                                        #   in Loop: Header=BB28_2 Depth=1
	addq	%r13, %rcx
	movl	$1984, %r8d                     # imm = 0x7C0
	xorl	%edx, %edx
	callq	memset
.LBB28_9:                               # %std_alloc_vec_opened_fill_run_i8_20_core_clone_U8Clone_exit_i_i_178
                                        #   in Loop: Header=BB28_2 Depth=1
	movq	%r13, (%rsi)
	movq	%rbp, 8(%rsi)
	movq	%r12, 16(%rsi)
	jmp	.LBB28_10
.LBB28_6:                               # %std_alloc_vec_Vec_grow_5fdc5e19576447a7_exit_i_i_179
                                        #   in Loop: Header=BB28_2 Depth=1
	movl	$1984, %edx                     # imm = 0x7C0
	movq	%rsi, %rcx
	callq	std_alloc_vec_Vec_grow_amortized_5fdc5e19576447a7_3
	testb	%al, %al
	je	.LBB28_10
# %bb.7:                                # %join.3.i2.i
                                        #   in Loop: Header=BB28_2 Depth=1
	movq	(%rsi), %r13
	movq	8(%rsi), %rcx
	movq	16(%rsi), %r12
	movq	%rcx, %rbp
	subq	$-1984, %rbp                    # imm = 0xF840
	jb	.LBB28_8
	jmp	.LBB28_9
.LBB28_11:                              # %recoding_list_append_zeros_e3b2a9d4d2861db8_exit_loopexit_180
	movq	8(%rsi), %rcx
	leaq	(%rcx,%r15), %r12
	cmpq	%rcx, %r12
	jbe	.LBB28_13
.LBB28_15:                              # %join.3.i16
	movq	16(%rsi), %r13
	movq	%r13, %rax
	subq	%rcx, %rax
	cmpq	%rax, %r15
	ja	.LBB28_16
# %bb.18:                               # %join.3.i2.i21
	movq	(%rsi), %rbp
	cmpq	%r12, %rcx
	jae	.LBB28_20
.LBB28_19:                              # %join.5.preheader.i.i.i28
	addq	%rbp, %rcx
	xorl	%edx, %edx
	movq	%r15, %r8
	callq	memset
.LBB28_20:                              # %std_alloc_vec_opened_fill_run_i8_20_core_clone_U8Clone_exit_i_i27_181
	movq	%rbp, (%rsi)
	movq	%r12, 8(%rsi)
	movq	%r13, 16(%rsi)
.LBB28_21:                              # %std_alloc_vec_Vec_resize_0cd040e5c49bc722_exit35_182
	movq	(%rsi), %r8
	movq	%r14, %rcx
	movq	%rbx, %rdx
	movq	%rdi, %r9
	callq	recoding_utf8_to_utf16_widen_text_951b42d46d2e9f62_183
	cmpq	%rax, 8(%rsi)
	jbe	.LBB28_23
# %bb.22:                               # %join.3.i37
	movq	%rax, 8(%rsi)
.LBB28_23:                              # %std_alloc_vec_Vec_truncate_8193b041ae25b2e3_exit_184
	addq	$40, %rsp
	popq	%rbx
	popq	%rbp
	popq	%rdi
	popq	%rsi
	popq	%r12
	popq	%r13
	popq	%r14
	popq	%r15
	retq
.LBB28_16:                              # %std_alloc_vec_Vec_grow_5fdc5e19576447a7_exit_i_i30_185
	movq	%rsi, %rcx
	movq	%r15, %rdx
	callq	std_alloc_vec_Vec_grow_amortized_5fdc5e19576447a7_3
	testb	%al, %al
	je	.LBB28_21
# %bb.17:                               # %std_alloc_vec_Vec_grow_5fdc5e19576447a7_exit_join_3_crit_edge_i_i32_186
	movq	8(%rsi), %rcx
	movq	16(%rsi), %r13
	leaq	(%rcx,%r15), %r12
	movq	(%rsi), %rbp
	cmpq	%r12, %rcx
	jb	.LBB28_19
	jmp	.LBB28_20
	.seh_endproc
                                        # -- End function
	.def	recoding_utf8_to_utf16_widen_text_951b42d46d2e9f62_183;
	.scl	3;
	.type	32;
	.endef
	.section .rdata$n0,"dr"
	.p2align	4, 0x0                          # -- Begin function recoding::utf8_to_utf16::widen_text::<#951b42d46d2e9f62>
.LCPI29_0:
	.zero	16,240
.LCPI29_1:
	.zero	16,127
.LCPI29_2:
	.zero	16,192
.LCPI29_3:
	.zero	16,224
.LCPI29_4:
	.zero	16,15
.LCPI29_5:
	.zero	16,32
.LCPI29_6:
	.zero	16,191
	.section .text$n33,"xr"
	.p2align	4
recoding_utf8_to_utf16_widen_text_951b42d46d2e9f62_183: # @recoding_utf8_to_utf16_widen_text_951b42d46d2e9f62_183
.seh_proc recoding_utf8_to_utf16_widen_text_951b42d46d2e9f62_183
# %bb.0:                                # %start
	pushq	%r15
	.seh_pushreg %r15
	pushq	%r14
	.seh_pushreg %r14
	pushq	%r13
	.seh_pushreg %r13
	pushq	%r12
	.seh_pushreg %r12
	pushq	%rsi
	.seh_pushreg %rsi
	pushq	%rdi
	.seh_pushreg %rdi
	pushq	%rbp
	.seh_pushreg %rbp
	pushq	%rbx
	.seh_pushreg %rbx
	subq	$584, %rsp                      # imm = 0x248
	.seh_stackalloc 584
	movaps	%xmm7, 560(%rsp)                # 16-byte Spill
	.seh_savexmm %xmm7, 560
	movaps	%xmm6, 544(%rsp)                # 16-byte Spill
	.seh_savexmm %xmm6, 544
	.seh_endprologue
	movq	%r9, %rdi
	movq	%r8, %rsi
	movq	%rdx, %r14
	movq	%rcx, %r13
	movdqu	(%rcx), %xmm7
	movdqa	%xmm7, %xmm6
	pslldq	$1, %xmm6                       # xmm6 = zero,xmm6[0,1,2,3,4,5,6,7,8,9,10,11,12,13,14]
	movdqa	%xmm7, %xmm2
	pslldq	$2, %xmm2                       # xmm2 = zero,zero,xmm2[0,1,2,3,4,5,6,7,8,9,10,11,12,13]
	movdqa	%xmm7, %xmm0
	pslldq	$3, %xmm0                       # xmm0 = zero,zero,zero,xmm0[0,1,2,3,4,5,6,7,8,9,10,11,12]
	movdqa	%xmm2, %xmm1
	pmaxub	%xmm0, %xmm1
	movdqa	.LCPI29_0(%rip), %xmm3          # xmm3 = [240,240,240,240,240,240,240,240,240,240,240,240,240,240,240,240]
	pmaxub	%xmm1, %xmm3
	pcmpeqb	%xmm1, %xmm3
	pmovmskb	%xmm3, %eax
	testl	%eax, %eax
	je	.LBB29_1
# %bb.2:                                # %else.2.i.i
	movdqa	%xmm2, 512(%rsp)
	movdqa	%xmm0, 528(%rsp)
	movdqa	%xmm6, 496(%rsp)
	movdqa	%xmm7, 480(%rsp)
	leaq	480(%rsp), %rax
	movq	%rax, 32(%rsp)
	leaq	48(%rsp), %rcx
	leaq	528(%rsp), %rdx
	leaq	512(%rsp), %r8
	leaq	496(%rsp), %r9
	callq	utf_lanes_text_units_long_halves_166
	movdqa	48(%rsp), %xmm0
	movdqa	64(%rsp), %xmm1
	jmp	.LBB29_3
.LBB29_1:                               # %then.1.i.i
	pxor	%xmm1, %xmm1
	pcmpgtb	%xmm7, %xmm1
	pand	%xmm6, %xmm1
	movdqa	.LCPI29_1(%rip), %xmm3          # xmm3 = [127,127,127,127,127,127,127,127,127,127,127,127,127,127,127,127]
	pand	%xmm7, %xmm3
	movdqa	%xmm1, %xmm0
	psllw	$6, %xmm0
	pand	.LCPI29_2(%rip), %xmm0
	psubusb	.LCPI29_3(%rip), %xmm2
	paddb	%xmm3, %xmm0
	psllw	$4, %xmm2
	pand	.LCPI29_0(%rip), %xmm2
	psrlw	$2, %xmm1
	pand	.LCPI29_4(%rip), %xmm1
	por	%xmm2, %xmm1
.LBB29_3:                               # %utf_lanes_text_puts_write_first_951b42d46d2e9f62_exit_168
	psubusb	.LCPI29_5(%rip), %xmm6
	pmaxub	%xmm7, %xmm6
	movdqa	.LCPI29_6(%rip), %xmm2          # xmm2 = [191,191,191,191,191,191,191,191,191,191,191,191,191,191,191,191]
	pminub	%xmm6, %xmm2
	pcmpeqb	%xmm6, %xmm2
	pmovmskb	%xmm2, %eax
	movdqa	%xmm0, %xmm2
	punpckhbw	%xmm1, %xmm2            # xmm2 = xmm2[8],xmm1[8],xmm2[9],xmm1[9],xmm2[10],xmm1[10],xmm2[11],xmm1[11],xmm2[12],xmm1[12],xmm2[13],xmm1[13],xmm2[14],xmm1[14],xmm2[15],xmm1[15]
	punpcklbw	%xmm1, %xmm0            # xmm0 = xmm0[0],xmm1[0],xmm0[1],xmm1[1],xmm0[2],xmm1[2],xmm0[3],xmm1[3],xmm0[4],xmm1[4],xmm0[5],xmm1[5],xmm0[6],xmm1[6],xmm0[7],xmm1[7]
	movzbl	%al, %ecx
	xorl	%edx, %edx
	popcntl	%ecx, %edx
	shll	$4, %ecx
	leaq	static.17(%rip), %r12
	movdqu	(%rcx,%r12), %xmm1
	pshufb	%xmm1, %xmm0
	shrl	$8, %eax
	xorl	%ecx, %ecx
	popcntl	%eax, %ecx
	shll	$4, %eax
	movdqu	(%rax,%r12), %xmm1
	pshufb	%xmm1, %xmm2
	leaq	(%rsi,%rdi), %rax
	movdqu	%xmm0, (%rsi,%rdi)
	movdqu	%xmm2, (%rax,%rdx,2)
	addl	%edx, %ecx
	leaq	(%rdi,%rcx,2), %rdi
	leaq	-80(%r14), %rax
	movl	$16, %r15d
	cmpq	$-65, %rax
	ja	.LBB29_10
# %bb.4:                                # %join.5.i534.lr.ph
	movq	%r13, 80(%rsp)                  # 8-byte Spill
	addq	$13, %r13
	movq	$-16, %r15
	movq	%r14, 88(%rsp)                  # 8-byte Spill
	.p2align	4
.LBB29_5:                               # %join.5.i534
                                        # =>This Inner Loop Header: Depth=1
	cmpb	$0, 3(%r13)
	js	.LBB29_6
# %bb.13:                               # %join.3.i538
                                        #   in Loop: Header=BB29_5 Depth=1
	movdqu	3(%r13), %xmm6
	movdqu	19(%r13), %xmm0
	movdqu	35(%r13), %xmm1
	movdqu	51(%r13), %xmm2
	por	%xmm0, %xmm2
	por	%xmm6, %xmm1
	por	%xmm2, %xmm1
	pmovmskb	%xmm1, %eax
	testl	%eax, %eax
	jne	.LBB29_7
# %bb.14:                               # %then.4.i
                                        #   in Loop: Header=BB29_5 Depth=1
	cmpb	$-65, 2(%r13)
	ja	.LBB29_7
# %bb.15:                               # %join.3.i.i
                                        #   in Loop: Header=BB29_5 Depth=1
	cmpb	$-33, 1(%r13)
	ja	.LBB29_7
# %bb.16:                               # %recoding_utf8_to_utf16_is_plain_exit_187
                                        #   in Loop: Header=BB29_5 Depth=1
	cmpb	$-17, (%r13)
	ja	.LBB29_7
# %bb.17:                               # %then.1.i
                                        #   in Loop: Header=BB29_5 Depth=1
	movdqu	3(%r13), %xmm0
	movdqu	19(%r13), %xmm1
	movdqu	35(%r13), %xmm2
	movdqu	51(%r13), %xmm3
	pxor	%xmm4, %xmm4
	pmovzxbw	%xmm0, %xmm5                    # xmm5 = xmm0[0],zero,xmm0[1],zero,xmm0[2],zero,xmm0[3],zero,xmm0[4],zero,xmm0[5],zero,xmm0[6],zero,xmm0[7],zero
	punpckhbw	%xmm4, %xmm0            # xmm0 = xmm0[8],xmm4[8],xmm0[9],xmm4[9],xmm0[10],xmm4[10],xmm0[11],xmm4[11],xmm0[12],xmm4[12],xmm0[13],xmm4[13],xmm0[14],xmm4[14],xmm0[15],xmm4[15]
	pmovzxbw	%xmm1, %xmm6                    # xmm6 = xmm1[0],zero,xmm1[1],zero,xmm1[2],zero,xmm1[3],zero,xmm1[4],zero,xmm1[5],zero,xmm1[6],zero,xmm1[7],zero
	punpckhbw	%xmm4, %xmm1            # xmm1 = xmm1[8],xmm4[8],xmm1[9],xmm4[9],xmm1[10],xmm4[10],xmm1[11],xmm4[11],xmm1[12],xmm4[12],xmm1[13],xmm4[13],xmm1[14],xmm4[14],xmm1[15],xmm4[15]
	movdqu	%xmm6, 32(%rsi,%rdi)
	movdqu	%xmm1, 48(%rsi,%rdi)
	movdqu	%xmm5, (%rsi,%rdi)
	movdqu	%xmm0, 16(%rsi,%rdi)
	pmovzxbw	%xmm2, %xmm0                    # xmm0 = xmm2[0],zero,xmm2[1],zero,xmm2[2],zero,xmm2[3],zero,xmm2[4],zero,xmm2[5],zero,xmm2[6],zero,xmm2[7],zero
	punpckhbw	%xmm4, %xmm2            # xmm2 = xmm2[8],xmm4[8],xmm2[9],xmm4[9],xmm2[10],xmm4[10],xmm2[11],xmm4[11],xmm2[12],xmm4[12],xmm2[13],xmm4[13],xmm2[14],xmm4[14],xmm2[15],xmm4[15]
	pmovzxbw	%xmm3, %xmm1                    # xmm1 = xmm3[0],zero,xmm3[1],zero,xmm3[2],zero,xmm3[3],zero,xmm3[4],zero,xmm3[5],zero,xmm3[6],zero,xmm3[7],zero
	punpckhbw	%xmm4, %xmm3            # xmm3 = xmm3[8],xmm4[8],xmm3[9],xmm4[9],xmm3[10],xmm4[10],xmm3[11],xmm4[11],xmm3[12],xmm4[12],xmm3[13],xmm4[13],xmm3[14],xmm4[14],xmm3[15],xmm4[15]
	movdqu	%xmm1, 96(%rsi,%rdi)
	movdqu	%xmm3, 112(%rsi,%rdi)
	movdqu	%xmm0, 64(%rsi,%rdi)
	movdqu	%xmm2, 80(%rsi,%rdi)
	subq	$-128, %rdi
	jmp	.LBB29_29
	.p2align	4
.LBB29_6:                               # %join.5.i534.join.3.i_crit_edge
                                        #   in Loop: Header=BB29_5 Depth=1
	movdqu	3(%r13), %xmm6
.LBB29_7:                               # %join.3.i
                                        #   in Loop: Header=BB29_5 Depth=1
	movdqu	(%r13), %xmm0
	movdqu	1(%r13), %xmm2
	movdqu	2(%r13), %xmm7
	movdqa	%xmm2, %xmm1
	pmaxub	%xmm0, %xmm1
	movdqa	.LCPI29_0(%rip), %xmm3          # xmm3 = [240,240,240,240,240,240,240,240,240,240,240,240,240,240,240,240]
	pmaxub	%xmm1, %xmm3
	pcmpeqb	%xmm1, %xmm3
	pmovmskb	%xmm3, %eax
	testl	%eax, %eax
	je	.LBB29_8
# %bb.18:                               # %else.2.i.i.i
                                        #   in Loop: Header=BB29_5 Depth=1
	movdqa	%xmm2, 448(%rsp)
	movdqa	%xmm0, 464(%rsp)
	movdqa	%xmm7, 432(%rsp)
	movdqa	%xmm6, 416(%rsp)
	leaq	416(%rsp), %rax
	movq	%rax, 32(%rsp)
	leaq	48(%rsp), %rcx
	leaq	464(%rsp), %rdx
	leaq	448(%rsp), %r8
	leaq	432(%rsp), %r9
	callq	utf_lanes_text_units_long_halves_166
	movdqa	48(%rsp), %xmm0
	movdqa	64(%rsp), %xmm1
	jmp	.LBB29_19
	.p2align	4
.LBB29_8:                               # %then.1.i.i.i
                                        #   in Loop: Header=BB29_5 Depth=1
	pxor	%xmm1, %xmm1
	pcmpgtb	%xmm6, %xmm1
	pand	%xmm7, %xmm1
	movdqa	.LCPI29_1(%rip), %xmm3          # xmm3 = [127,127,127,127,127,127,127,127,127,127,127,127,127,127,127,127]
	pand	%xmm6, %xmm3
	movdqa	%xmm1, %xmm0
	psllw	$6, %xmm0
	pand	.LCPI29_2(%rip), %xmm0
	psubusb	.LCPI29_3(%rip), %xmm2
	paddb	%xmm3, %xmm0
	psllw	$4, %xmm2
	pand	.LCPI29_0(%rip), %xmm2
	psrlw	$2, %xmm1
	pand	.LCPI29_4(%rip), %xmm1
	por	%xmm2, %xmm1
.LBB29_19:                              # %utf_lanes_text_units_block_units_951b42d46d2e9f62_exit_i_188
                                        #   in Loop: Header=BB29_5 Depth=1
	psubusb	.LCPI29_5(%rip), %xmm7
	pmaxub	%xmm6, %xmm7
	movdqa	.LCPI29_6(%rip), %xmm2          # xmm2 = [191,191,191,191,191,191,191,191,191,191,191,191,191,191,191,191]
	pminub	%xmm7, %xmm2
	pcmpeqb	%xmm7, %xmm2
	pmovmskb	%xmm2, %ebp
	movdqa	%xmm0, %xmm2
	punpckhbw	%xmm1, %xmm2            # xmm2 = xmm2[8],xmm1[8],xmm2[9],xmm1[9],xmm2[10],xmm1[10],xmm2[11],xmm1[11],xmm2[12],xmm1[12],xmm2[13],xmm1[13],xmm2[14],xmm1[14],xmm2[15],xmm1[15]
	punpcklbw	%xmm1, %xmm0            # xmm0 = xmm0[0],xmm1[0],xmm0[1],xmm1[1],xmm0[2],xmm1[2],xmm0[3],xmm1[3],xmm0[4],xmm1[4],xmm0[5],xmm1[5],xmm0[6],xmm1[6],xmm0[7],xmm1[7]
	movzbl	%bpl, %eax
	popcntl	%eax, %ebx
	shll	$4, %eax
	movdqu	(%rax,%r12), %xmm1
	pshufb	%xmm1, %xmm0
	shrl	$8, %ebp
	movl	%ebp, %eax
	shll	$4, %eax
	movdqu	(%rax,%r12), %xmm1
	pshufb	%xmm1, %xmm2
	leaq	(%rsi,%rdi), %rax
	movdqu	%xmm0, (%rsi,%rdi)
	movdqu	%xmm2, (%rax,%rbx,2)
	movdqu	16(%r13), %xmm0
	movdqu	17(%r13), %xmm2
	movdqu	18(%r13), %xmm6
	movdqu	19(%r13), %xmm7
	movdqa	%xmm2, %xmm1
	pmaxub	%xmm0, %xmm1
	movdqa	.LCPI29_0(%rip), %xmm3          # xmm3 = [240,240,240,240,240,240,240,240,240,240,240,240,240,240,240,240]
	pmaxub	%xmm1, %xmm3
	pcmpeqb	%xmm1, %xmm3
	pmovmskb	%xmm3, %eax
	testl	%eax, %eax
	je	.LBB29_20
# %bb.21:                               # %else.2.i.i399.i
                                        #   in Loop: Header=BB29_5 Depth=1
	movdqa	%xmm2, 384(%rsp)
	movdqa	%xmm0, 400(%rsp)
	movdqa	%xmm6, 368(%rsp)
	movdqa	%xmm7, 352(%rsp)
	leaq	352(%rsp), %rax
	movq	%rax, 32(%rsp)
	leaq	48(%rsp), %rcx
	leaq	400(%rsp), %rdx
	leaq	384(%rsp), %r8
	leaq	368(%rsp), %r9
	callq	utf_lanes_text_units_long_halves_166
	movdqa	48(%rsp), %xmm0
	movdqa	64(%rsp), %xmm1
	jmp	.LBB29_22
	.p2align	4
.LBB29_20:                              # %then.1.i.i593.i
                                        #   in Loop: Header=BB29_5 Depth=1
	pxor	%xmm1, %xmm1
	pcmpgtb	%xmm7, %xmm1
	pand	%xmm6, %xmm1
	movdqa	.LCPI29_1(%rip), %xmm3          # xmm3 = [127,127,127,127,127,127,127,127,127,127,127,127,127,127,127,127]
	pand	%xmm7, %xmm3
	movdqa	%xmm1, %xmm0
	psllw	$6, %xmm0
	pand	.LCPI29_2(%rip), %xmm0
	psubusb	.LCPI29_3(%rip), %xmm2
	paddb	%xmm3, %xmm0
	psllw	$4, %xmm2
	pand	.LCPI29_0(%rip), %xmm2
	psrlw	$2, %xmm1
	pand	.LCPI29_4(%rip), %xmm1
	por	%xmm2, %xmm1
.LBB29_22:                              # %utf_lanes_text_units_block_units_951b42d46d2e9f62_exit608_i_189
                                        #   in Loop: Header=BB29_5 Depth=1
	xorl	%eax, %eax
	popcntl	%ebp, %eax
	addq	%rax, %rbx
	leal	(%rbx,%rbx), %eax
	psubusb	.LCPI29_5(%rip), %xmm6
	pmaxub	%xmm7, %xmm6
	movdqa	.LCPI29_6(%rip), %xmm2          # xmm2 = [191,191,191,191,191,191,191,191,191,191,191,191,191,191,191,191]
	pminub	%xmm6, %xmm2
	pcmpeqb	%xmm6, %xmm2
	pmovmskb	%xmm2, %r14d
	movdqa	%xmm0, %xmm2
	punpckhbw	%xmm1, %xmm2            # xmm2 = xmm2[8],xmm1[8],xmm2[9],xmm1[9],xmm2[10],xmm1[10],xmm2[11],xmm1[11],xmm2[12],xmm1[12],xmm2[13],xmm1[13],xmm2[14],xmm1[14],xmm2[15],xmm1[15]
	punpcklbw	%xmm1, %xmm0            # xmm0 = xmm0[0],xmm1[0],xmm0[1],xmm1[1],xmm0[2],xmm1[2],xmm0[3],xmm1[3],xmm0[4],xmm1[4],xmm0[5],xmm1[5],xmm0[6],xmm1[6],xmm0[7],xmm1[7]
	movzbl	%r14b, %ecx
	xorl	%ebp, %ebp
	popcntl	%ecx, %ebp
	shll	$4, %ecx
	movdqu	(%rcx,%r12), %xmm1
	pshufb	%xmm1, %xmm0
	shrl	$8, %r14d
	movl	%r14d, %ecx
	shll	$4, %ecx
	movdqu	(%rcx,%r12), %xmm1
	pshufb	%xmm1, %xmm2
	addq	%rsi, %rax
	movdqu	%xmm0, (%rdi,%rax)
	addq	%rbx, %rbp
	leaq	(%rsi,%rbp,2), %rax
	movdqu	%xmm2, (%rdi,%rax)
	movdqu	32(%r13), %xmm0
	movdqu	33(%r13), %xmm2
	movdqu	34(%r13), %xmm6
	movdqu	35(%r13), %xmm7
	movdqa	%xmm2, %xmm1
	pmaxub	%xmm0, %xmm1
	movdqa	.LCPI29_0(%rip), %xmm3          # xmm3 = [240,240,240,240,240,240,240,240,240,240,240,240,240,240,240,240]
	pmaxub	%xmm1, %xmm3
	pcmpeqb	%xmm1, %xmm3
	pmovmskb	%xmm3, %eax
	testl	%eax, %eax
	je	.LBB29_23
# %bb.24:                               # %else.2.i.i661.i
                                        #   in Loop: Header=BB29_5 Depth=1
	movdqa	%xmm2, 320(%rsp)
	movdqa	%xmm0, 336(%rsp)
	movdqa	%xmm6, 304(%rsp)
	movdqa	%xmm7, 288(%rsp)
	leaq	288(%rsp), %rax
	movq	%rax, 32(%rsp)
	leaq	48(%rsp), %rcx
	leaq	336(%rsp), %rdx
	leaq	320(%rsp), %r8
	leaq	304(%rsp), %r9
	callq	utf_lanes_text_units_long_halves_166
	movdqa	48(%rsp), %xmm0
	movdqa	64(%rsp), %xmm1
	jmp	.LBB29_25
	.p2align	4
.LBB29_23:                              # %then.1.i.i855.i
                                        #   in Loop: Header=BB29_5 Depth=1
	pxor	%xmm1, %xmm1
	pcmpgtb	%xmm7, %xmm1
	pand	%xmm6, %xmm1
	movdqa	.LCPI29_1(%rip), %xmm3          # xmm3 = [127,127,127,127,127,127,127,127,127,127,127,127,127,127,127,127]
	pand	%xmm7, %xmm3
	movdqa	%xmm1, %xmm0
	psllw	$6, %xmm0
	pand	.LCPI29_2(%rip), %xmm0
	psubusb	.LCPI29_3(%rip), %xmm2
	paddb	%xmm3, %xmm0
	psllw	$4, %xmm2
	pand	.LCPI29_0(%rip), %xmm2
	psrlw	$2, %xmm1
	pand	.LCPI29_4(%rip), %xmm1
	por	%xmm2, %xmm1
.LBB29_25:                              # %utf_lanes_text_units_block_units_951b42d46d2e9f62_exit870_i_190
                                        #   in Loop: Header=BB29_5 Depth=1
	xorl	%eax, %eax
	popcntl	%r14d, %eax
	addq	%rax, %rbp
	leal	(,%rbp,2), %eax
	psubusb	.LCPI29_5(%rip), %xmm6
	pmaxub	%xmm7, %xmm6
	movdqa	.LCPI29_6(%rip), %xmm2          # xmm2 = [191,191,191,191,191,191,191,191,191,191,191,191,191,191,191,191]
	pminub	%xmm6, %xmm2
	pcmpeqb	%xmm6, %xmm2
	pmovmskb	%xmm2, %r14d
	movdqa	%xmm0, %xmm2
	punpckhbw	%xmm1, %xmm2            # xmm2 = xmm2[8],xmm1[8],xmm2[9],xmm1[9],xmm2[10],xmm1[10],xmm2[11],xmm1[11],xmm2[12],xmm1[12],xmm2[13],xmm1[13],xmm2[14],xmm1[14],xmm2[15],xmm1[15]
	punpcklbw	%xmm1, %xmm0            # xmm0 = xmm0[0],xmm1[0],xmm0[1],xmm1[1],xmm0[2],xmm1[2],xmm0[3],xmm1[3],xmm0[4],xmm1[4],xmm0[5],xmm1[5],xmm0[6],xmm1[6],xmm0[7],xmm1[7]
	movzbl	%r14b, %ecx
	popcntl	%ecx, %ebx
	shll	$4, %ecx
	movdqu	(%rcx,%r12), %xmm1
	pshufb	%xmm1, %xmm0
	shrl	$8, %r14d
	movl	%r14d, %ecx
	shll	$4, %ecx
	movdqu	(%rcx,%r12), %xmm1
	pshufb	%xmm1, %xmm2
	addq	%rsi, %rax
	movdqu	%xmm0, (%rdi,%rax)
	addq	%rbp, %rbx
	leaq	(%rsi,%rbx,2), %rax
	movdqu	%xmm2, (%rdi,%rax)
	movdqu	48(%r13), %xmm0
	movdqu	49(%r13), %xmm2
	movdqu	50(%r13), %xmm6
	movdqu	51(%r13), %xmm7
	movdqa	%xmm2, %xmm1
	pmaxub	%xmm0, %xmm1
	movdqa	.LCPI29_0(%rip), %xmm3          # xmm3 = [240,240,240,240,240,240,240,240,240,240,240,240,240,240,240,240]
	pmaxub	%xmm1, %xmm3
	pcmpeqb	%xmm1, %xmm3
	pmovmskb	%xmm3, %eax
	testl	%eax, %eax
	je	.LBB29_26
# %bb.27:                               # %else.2.i.i923.i
                                        #   in Loop: Header=BB29_5 Depth=1
	movdqa	%xmm2, 256(%rsp)
	movdqa	%xmm0, 272(%rsp)
	movdqa	%xmm6, 240(%rsp)
	movdqa	%xmm7, 224(%rsp)
	leaq	224(%rsp), %rax
	movq	%rax, 32(%rsp)
	leaq	48(%rsp), %rcx
	leaq	272(%rsp), %rdx
	leaq	256(%rsp), %r8
	leaq	240(%rsp), %r9
	callq	utf_lanes_text_units_long_halves_166
	movdqa	48(%rsp), %xmm0
	movdqa	64(%rsp), %xmm1
	jmp	.LBB29_28
	.p2align	4
.LBB29_26:                              # %then.1.i.i1117.i
                                        #   in Loop: Header=BB29_5 Depth=1
	pxor	%xmm1, %xmm1
	pcmpgtb	%xmm7, %xmm1
	pand	%xmm6, %xmm1
	movdqa	.LCPI29_1(%rip), %xmm3          # xmm3 = [127,127,127,127,127,127,127,127,127,127,127,127,127,127,127,127]
	pand	%xmm7, %xmm3
	movdqa	%xmm1, %xmm0
	psllw	$6, %xmm0
	pand	.LCPI29_2(%rip), %xmm0
	psubusb	.LCPI29_3(%rip), %xmm2
	paddb	%xmm3, %xmm0
	psllw	$4, %xmm2
	pand	.LCPI29_0(%rip), %xmm2
	psrlw	$2, %xmm1
	pand	.LCPI29_4(%rip), %xmm1
	por	%xmm2, %xmm1
.LBB29_28:                              # %utf_lanes_text_puts_write_64_951b42d46d2e9f62_exit_191
                                        #   in Loop: Header=BB29_5 Depth=1
	xorl	%eax, %eax
	popcntl	%r14d, %eax
	addq	%rax, %rbx
	leal	(%rbx,%rbx), %eax
	psubusb	.LCPI29_5(%rip), %xmm6
	pmaxub	%xmm7, %xmm6
	movdqa	.LCPI29_6(%rip), %xmm2          # xmm2 = [191,191,191,191,191,191,191,191,191,191,191,191,191,191,191,191]
	pminub	%xmm6, %xmm2
	pcmpeqb	%xmm6, %xmm2
	pmovmskb	%xmm2, %ecx
	movdqa	%xmm0, %xmm2
	punpckhbw	%xmm1, %xmm2            # xmm2 = xmm2[8],xmm1[8],xmm2[9],xmm1[9],xmm2[10],xmm1[10],xmm2[11],xmm1[11],xmm2[12],xmm1[12],xmm2[13],xmm1[13],xmm2[14],xmm1[14],xmm2[15],xmm1[15]
	punpcklbw	%xmm1, %xmm0            # xmm0 = xmm0[0],xmm1[0],xmm0[1],xmm1[1],xmm0[2],xmm1[2],xmm0[3],xmm1[3],xmm0[4],xmm1[4],xmm0[5],xmm1[5],xmm0[6],xmm1[6],xmm0[7],xmm1[7]
	movzbl	%cl, %edx
	xorl	%r8d, %r8d
	popcntl	%edx, %r8d
	shll	$4, %edx
	movdqu	(%rdx,%r12), %xmm1
	pshufb	%xmm1, %xmm0
	shrl	$8, %ecx
	xorl	%edx, %edx
	popcntl	%ecx, %edx
	shll	$4, %ecx
	movdqu	(%rcx,%r12), %xmm1
	pshufb	%xmm1, %xmm2
	addq	%rsi, %rax
	movdqu	%xmm0, (%rdi,%rax)
	addl	%ebx, %r8d
	leaq	(%rsi,%r8,2), %rax
	movdqu	%xmm2, (%rdi,%rax)
	addl	%edx, %r8d
	leaq	(%rdi,%r8,2), %rdi
	movq	88(%rsp), %r14                  # 8-byte Reload
.LBB29_29:                              # %recoding_utf8_to_utf16_write_some_951b42d46d2e9f62_exit_192
                                        #   in Loop: Header=BB29_5 Depth=1
	leaq	(%r14,%r15), %rax
	addq	$-64, %rax
	addq	$-64, %r15
	addq	$64, %r13
	cmpq	$63, %rax
	ja	.LBB29_5
# %bb.9:                                # %loop.2.i.preheader.loopexit
	negq	%r15
	movq	80(%rsp), %r13                  # 8-byte Reload
.LBB29_10:                              # %loop.2.i.preheader
	movq	%r14, %rbx
	subq	%r15, %rbx
	cmpq	$16, %rbx
	jae	.LBB29_11
.LBB29_32:                              # %after.1.i
	cmpq	%r14, %r15
	jae	.LBB29_37
# %bb.33:                               # %then.6.i
	leaq	-16(%r14), %rax
	subq	%rax, %r15
	movdqu	-19(%r13,%r14), %xmm0
	movdqu	-18(%r13,%r14), %xmm2
	movdqu	-17(%r13,%r14), %xmm6
	movdqu	-16(%r13,%r14), %xmm7
	movdqa	%xmm2, %xmm1
	pmaxub	%xmm0, %xmm1
	movdqa	.LCPI29_0(%rip), %xmm3          # xmm3 = [240,240,240,240,240,240,240,240,240,240,240,240,240,240,240,240]
	pmaxub	%xmm1, %xmm3
	pcmpeqb	%xmm1, %xmm3
	pmovmskb	%xmm3, %eax
	testl	%eax, %eax
	je	.LBB29_34
# %bb.35:                               # %else.2.i.i188
	movdqa	%xmm2, 128(%rsp)
	movdqa	%xmm0, 144(%rsp)
	movdqa	%xmm6, 112(%rsp)
	movdqa	%xmm7, 96(%rsp)
	leaq	96(%rsp), %rax
	movq	%rax, 32(%rsp)
	leaq	48(%rsp), %rcx
	leaq	144(%rsp), %rdx
	leaq	128(%rsp), %r8
	leaq	112(%rsp), %r9
	callq	utf_lanes_text_units_long_halves_166
	movdqa	48(%rsp), %xmm0
	movdqa	64(%rsp), %xmm1
	jmp	.LBB29_36
	.p2align	4
.LBB29_30:                              # %else.2.i.i319
                                        #   in Loop: Header=BB29_11 Depth=1
	movdqa	%xmm2, 192(%rsp)
	movdqa	%xmm0, 208(%rsp)
	movdqa	%xmm6, 176(%rsp)
	movdqa	%xmm7, 160(%rsp)
	leaq	160(%rsp), %rax
	movq	%rax, 32(%rsp)
	leaq	48(%rsp), %rcx
	leaq	208(%rsp), %rdx
	leaq	192(%rsp), %r8
	leaq	176(%rsp), %r9
	callq	utf_lanes_text_units_long_halves_166
	movdqa	48(%rsp), %xmm0
	movdqa	64(%rsp), %xmm1
.LBB29_31:                              # %utf_lanes_text_units_block_units_951b42d46d2e9f62_exit528_193
                                        #   in Loop: Header=BB29_11 Depth=1
	psubusb	.LCPI29_5(%rip), %xmm6
	pmaxub	%xmm7, %xmm6
	movdqa	.LCPI29_6(%rip), %xmm2          # xmm2 = [191,191,191,191,191,191,191,191,191,191,191,191,191,191,191,191]
	pminub	%xmm6, %xmm2
	pcmpeqb	%xmm6, %xmm2
	pmovmskb	%xmm2, %eax
	movdqa	%xmm0, %xmm2
	punpckhbw	%xmm1, %xmm2            # xmm2 = xmm2[8],xmm1[8],xmm2[9],xmm1[9],xmm2[10],xmm1[10],xmm2[11],xmm1[11],xmm2[12],xmm1[12],xmm2[13],xmm1[13],xmm2[14],xmm1[14],xmm2[15],xmm1[15]
	punpcklbw	%xmm1, %xmm0            # xmm0 = xmm0[0],xmm1[0],xmm0[1],xmm1[1],xmm0[2],xmm1[2],xmm0[3],xmm1[3],xmm0[4],xmm1[4],xmm0[5],xmm1[5],xmm0[6],xmm1[6],xmm0[7],xmm1[7]
	movzbl	%al, %ecx
	xorl	%edx, %edx
	popcntl	%ecx, %edx
	shll	$4, %ecx
	movdqu	(%rcx,%r12), %xmm1
	pshufb	%xmm1, %xmm0
	shrl	$8, %eax
	xorl	%ecx, %ecx
	popcntl	%eax, %ecx
	shll	$4, %eax
	movdqu	(%rax,%r12), %xmm1
	pshufb	%xmm1, %xmm2
	leaq	(%rsi,%rdi), %rax
	movdqu	%xmm0, (%rsi,%rdi)
	movdqu	%xmm2, (%rax,%rdx,2)
	addl	%edx, %ecx
	leaq	(%rdi,%rcx,2), %rdi
	addq	$16, %r15
	addq	$-16, %rbx
	cmpq	$15, %rbx
	jbe	.LBB29_32
.LBB29_11:                              # %join.5.i
                                        # =>This Inner Loop Header: Depth=1
	movdqu	-3(%r13,%r15), %xmm0
	movdqu	-2(%r13,%r15), %xmm2
	movdqu	-1(%r13,%r15), %xmm6
	movdqu	(%r13,%r15), %xmm7
	movdqa	%xmm2, %xmm1
	pmaxub	%xmm0, %xmm1
	movdqa	.LCPI29_0(%rip), %xmm3          # xmm3 = [240,240,240,240,240,240,240,240,240,240,240,240,240,240,240,240]
	pmaxub	%xmm1, %xmm3
	pcmpeqb	%xmm1, %xmm3
	pmovmskb	%xmm3, %eax
	testl	%eax, %eax
	jne	.LBB29_30
# %bb.12:                               # %then.1.i.i513
                                        #   in Loop: Header=BB29_11 Depth=1
	pxor	%xmm1, %xmm1
	pcmpgtb	%xmm7, %xmm1
	pand	%xmm6, %xmm1
	movdqa	.LCPI29_1(%rip), %xmm3          # xmm3 = [127,127,127,127,127,127,127,127,127,127,127,127,127,127,127,127]
	pand	%xmm7, %xmm3
	movdqa	%xmm1, %xmm0
	psllw	$6, %xmm0
	pand	.LCPI29_2(%rip), %xmm0
	psubusb	.LCPI29_3(%rip), %xmm2
	paddb	%xmm3, %xmm0
	psllw	$4, %xmm2
	pand	.LCPI29_0(%rip), %xmm2
	psrlw	$2, %xmm1
	pand	.LCPI29_4(%rip), %xmm1
	por	%xmm2, %xmm1
	jmp	.LBB29_31
.LBB29_34:                              # %then.1.i.i257
	pxor	%xmm1, %xmm1
	pcmpgtb	%xmm7, %xmm1
	pand	%xmm6, %xmm1
	movdqa	.LCPI29_1(%rip), %xmm3          # xmm3 = [127,127,127,127,127,127,127,127,127,127,127,127,127,127,127,127]
	pand	%xmm7, %xmm3
	movdqa	%xmm1, %xmm0
	psllw	$6, %xmm0
	pand	.LCPI29_2(%rip), %xmm0
	psubusb	.LCPI29_3(%rip), %xmm2
	paddb	%xmm3, %xmm0
	psllw	$4, %xmm2
	pand	.LCPI29_0(%rip), %xmm2
	psrlw	$2, %xmm1
	pand	.LCPI29_4(%rip), %xmm1
	por	%xmm2, %xmm1
.LBB29_36:                              # %utf_lanes_text_units_block_units_951b42d46d2e9f62_exit_170
	psubusb	.LCPI29_5(%rip), %xmm6
	pmaxub	%xmm7, %xmm6
	movdqa	.LCPI29_6(%rip), %xmm2          # xmm2 = [191,191,191,191,191,191,191,191,191,191,191,191,191,191,191,191]
	pminub	%xmm6, %xmm2
	pcmpeqb	%xmm6, %xmm2
	movq	$-1, %rax
	movl	%r15d, %ecx
	shlq	%cl, %rax
	pmovmskb	%xmm2, %ecx
	andl	%ecx, %eax
	movdqa	%xmm0, %xmm2
	punpckhbw	%xmm1, %xmm2            # xmm2 = xmm2[8],xmm1[8],xmm2[9],xmm1[9],xmm2[10],xmm1[10],xmm2[11],xmm1[11],xmm2[12],xmm1[12],xmm2[13],xmm1[13],xmm2[14],xmm1[14],xmm2[15],xmm1[15]
	punpcklbw	%xmm1, %xmm0            # xmm0 = xmm0[0],xmm1[0],xmm0[1],xmm1[1],xmm0[2],xmm1[2],xmm0[3],xmm1[3],xmm0[4],xmm1[4],xmm0[5],xmm1[5],xmm0[6],xmm1[6],xmm0[7],xmm1[7]
	movzbl	%al, %ecx
	xorl	%edx, %edx
	popcntl	%ecx, %edx
	shll	$4, %ecx
	movdqu	(%rcx,%r12), %xmm1
	pshufb	%xmm1, %xmm0
	shrl	$8, %eax
	xorl	%ecx, %ecx
	popcntl	%eax, %ecx
	shll	$4, %eax
	movdqu	(%rax,%r12), %xmm1
	pshufb	%xmm1, %xmm2
	movdqu	%xmm0, (%rsi,%rdi)
	addq	%rdi, %rsi
	movdqu	%xmm2, (%rsi,%rdx,2)
	addl	%edx, %ecx
	leaq	(%rdi,%rcx,2), %rdi
.LBB29_37:                              # %utf_lanes_text_puts_write_rest_951b42d46d2e9f62_exit_171
	movq	%rdi, %rax
	movaps	544(%rsp), %xmm6                # 16-byte Reload
	movaps	560(%rsp), %xmm7                # 16-byte Reload
	addq	$584, %rsp                      # imm = 0x248
	popq	%rbx
	popq	%rbp
	popq	%rdi
	popq	%rsi
	popq	%r12
	popq	%r13
	popq	%r14
	popq	%r15
	retq
	.seh_endproc
                                        # -- End function
	.def	recoding_kernels_widen_damaged_6d28eb9c51c85cb7_157;
	.scl	3;
	.type	32;
	.endef
	.section .rdata$n0,"dr"
	.p2align	4, 0x0                          # -- Begin function recoding::kernels::widen_damaged::<#6d28eb9c51c85cb7>
.LCPI30_0:
	.zero	16,253
	.section .text$n34,"xr"
	.p2align	4
recoding_kernels_widen_damaged_6d28eb9c51c85cb7_157: # @recoding_kernels_widen_damaged_6d28eb9c51c85cb7_157
.seh_proc recoding_kernels_widen_damaged_6d28eb9c51c85cb7_157
# %bb.0:                                # %start
	pushq	%r15
	.seh_pushreg %r15
	pushq	%r14
	.seh_pushreg %r14
	pushq	%r13
	.seh_pushreg %r13
	pushq	%r12
	.seh_pushreg %r12
	pushq	%rsi
	.seh_pushreg %rsi
	pushq	%rdi
	.seh_pushreg %rdi
	pushq	%rbp
	.seh_pushreg %rbp
	pushq	%rbx
	.seh_pushreg %rbx
	subq	$952, %rsp                      # imm = 0x3B8
	.seh_stackalloc 952
	movdqa	%xmm10, 928(%rsp)               # 16-byte Spill
	.seh_savexmm %xmm10, 928
	movdqa	%xmm9, 912(%rsp)                # 16-byte Spill
	.seh_savexmm %xmm9, 912
	movdqa	%xmm8, 896(%rsp)                # 16-byte Spill
	.seh_savexmm %xmm8, 896
	movdqa	%xmm7, 880(%rsp)                # 16-byte Spill
	.seh_savexmm %xmm7, 880
	movdqa	%xmm6, 864(%rsp)                # 16-byte Spill
	.seh_savexmm %xmm6, 864
	.seh_endprologue
	movq	%r8, %rdi
	movq	%rdx, %rbx
	movq	%rcx, %r14
	pxor	%xmm0, %xmm0
	movdqa	%xmm0, 48(%rsp)
	movq	$0, 64(%rsp)
	xorl	%esi, %esi
	leaq	352(%rsp), %rcx
	movl	$512, %r8d                      # imm = 0x200
	xorl	%edx, %edx
	callq	memset
	xorl	%r12d, %r12d
	movq	%r14, 80(%rsp)                  # 8-byte Spill
	movq	%rbx, 88(%rsp)                  # 8-byte Spill
	jmp	.LBB30_1
	.p2align	4
.LBB30_20:                              # %recoding_kernels_put_next_text_87c24961b7620b58_exit_194
                                        #   in Loop: Header=BB30_1 Depth=1
	addq	%rbp, %rsi
	movq	%r12, %rax
	subq	%r15, %rax
	cmpq	$1024, %rax                     # imm = 0x400
	jae	.LBB30_21
.LBB30_1:                               # %loop.2
                                        # =>This Loop Header: Depth=1
                                        #     Child Loop BB30_11 Depth 2
	leaq	(%r14,%r12), %rdx
	movq	%rbx, %r8
	subq	%r12, %r8
	leaq	48(%rsp), %rcx
	leaq	352(%rsp), %r9
	callq	utf_lanes_mending_mend_0a9db3908d7f4f9c_128
	movq	48(%rsp), %r13
	testq	%r13, %r13
	je	.LBB30_21
# %bb.2:                                # %else.6
                                        #   in Loop: Header=BB30_1 Depth=1
	movq	56(%rsp), %rdx
	leaq	-1(%rdx), %rax
	cmpq	$31, %rax
	jb	.LBB30_21
# %bb.3:                                # %else.9
                                        #   in Loop: Header=BB30_1 Depth=1
	movq	16(%rdi), %rax
	subq	8(%rdi), %rax
	leaq	(%rdx,%rdx,2), %rcx
	cmpq	%rcx, %rax
	jb	.LBB30_21
# %bb.4:                                # %after.3
                                        #   in Loop: Header=BB30_1 Depth=1
	testq	%rdx, %rdx
	je	.LBB30_6
# %bb.5:                                # %then.1.i
                                        #   in Loop: Header=BB30_1 Depth=1
	leaq	352(%rsp), %rcx
	movq	%rdi, %r8
	callq	recoding_list_append_units_035c64e45cc79e03_176
.LBB30_6:                               # %recoding_kernels_put_mended_87c24961b7620b58_exit_195
                                        #   in Loop: Header=BB30_1 Depth=1
	addq	64(%rsp), %rsi
	addq	%r12, %r13
	movq	%rbx, %r12
	subq	%r13, %r12
	cmpq	$67, %r12
	jb	.LBB30_7
# %bb.8:                                # %then.1.i20
                                        #   in Loop: Header=BB30_1 Depth=1
	addq	%r13, %r14
	cmpb	$0, (%r14)
	jns	.LBB30_10
# %bb.9:                                # %else.5.i
                                        #   in Loop: Header=BB30_1 Depth=1
	cmpb	$0, 1(%r14)
	js	.LBB30_7
.LBB30_10:                              # %then.7.i.preheader
                                        #   in Loop: Header=BB30_1 Depth=1
	xorl	%r15d, %r15d
	xorl	%ebp, %ebp
	jmp	.LBB30_11
	.p2align	4
.LBB30_13:                              # %then.1.i25
                                        #   in Loop: Header=BB30_11 Depth=2
	pxor	%xmm0, %xmm0
	pmovzxbw	%xmm6, %xmm8                    # xmm8 = xmm6[0],zero,xmm6[1],zero,xmm6[2],zero,xmm6[3],zero,xmm6[4],zero,xmm6[5],zero,xmm6[6],zero,xmm6[7],zero
	punpckhbw	%xmm0, %xmm6            # xmm6 = xmm6[8],xmm0[8],xmm6[9],xmm0[9],xmm6[10],xmm0[10],xmm6[11],xmm0[11],xmm6[12],xmm0[12],xmm6[13],xmm0[13],xmm6[14],xmm0[14],xmm6[15],xmm0[15]
	pmovzxbw	%xmm7, %xmm9                    # xmm9 = xmm7[0],zero,xmm7[1],zero,xmm7[2],zero,xmm7[3],zero,xmm7[4],zero,xmm7[5],zero,xmm7[6],zero,xmm7[7],zero
	punpckhbw	%xmm0, %xmm7            # xmm7 = xmm7[8],xmm0[8],xmm7[9],xmm0[9],xmm7[10],xmm0[10],xmm7[11],xmm0[11],xmm7[12],xmm0[12],xmm7[13],xmm0[13],xmm7[14],xmm0[14],xmm7[15],xmm0[15]
	pmovzxbw	%xmm1, %xmm3                    # xmm3 = xmm1[0],zero,xmm1[1],zero,xmm1[2],zero,xmm1[3],zero,xmm1[4],zero,xmm1[5],zero,xmm1[6],zero,xmm1[7],zero
	punpckhbw	%xmm0, %xmm1            # xmm1 = xmm1[8],xmm0[8],xmm1[9],xmm0[9],xmm1[10],xmm0[10],xmm1[11],xmm0[11],xmm1[12],xmm0[12],xmm1[13],xmm0[13],xmm1[14],xmm0[14],xmm1[15],xmm0[15]
	pmovzxbw	%xmm2, %xmm4                    # xmm4 = xmm2[0],zero,xmm2[1],zero,xmm2[2],zero,xmm2[3],zero,xmm2[4],zero,xmm2[5],zero,xmm2[6],zero,xmm2[7],zero
	punpckhbw	%xmm0, %xmm2            # xmm2 = xmm2[8],xmm0[8],xmm2[9],xmm0[9],xmm2[10],xmm0[10],xmm2[11],xmm0[11],xmm2[12],xmm0[12],xmm2[13],xmm0[13],xmm2[14],xmm0[14],xmm2[15],xmm0[15]
	movdqa	%xmm2, 192(%rsp)
	movdqa	%xmm4, 208(%rsp)
	movdqa	%xmm3, 176(%rsp)
	movdqa	%xmm1, 160(%rsp)
	leaq	160(%rsp), %rax
	movq	%rax, 32(%rsp)
	leaq	208(%rsp), %rdx
	leaq	192(%rsp), %r8
	leaq	176(%rsp), %r9
	movq	%rdi, %rcx
	callq	recoding_list_VecU8Output_put_wide_e3b2a9d4d2861db8_152
	movdqa	%xmm7, 128(%rsp)
	movdqa	%xmm9, 144(%rsp)
	movdqa	%xmm8, 112(%rsp)
	movdqa	%xmm6, 96(%rsp)
	leaq	96(%rsp), %rax
	movq	%rax, 32(%rsp)
	leaq	144(%rsp), %rdx
	leaq	128(%rsp), %r8
	leaq	112(%rsp), %r9
	movq	%rdi, %rcx
	callq	recoding_list_VecU8Output_put_wide_e3b2a9d4d2861db8_152
	xorl	%ebx, %ebx
.LBB30_16:                              # %arm.14.i
                                        #   in Loop: Header=BB30_11 Depth=2
	addq	$64, %r15
	addq	%rbx, %rbp
	addq	$-64, %r12
	cmpq	$66, %r12
	jbe	.LBB30_17
.LBB30_11:                              # %then.7.i
                                        #   Parent Loop BB30_1 Depth=1
                                        # =>  This Inner Loop Header: Depth=2
	movq	16(%rdi), %rax
	subq	8(%rdi), %rax
	cmpq	$128, %rax
	jb	.LBB30_17
# %bb.12:                               # %join.9.i
                                        #   in Loop: Header=BB30_11 Depth=2
	movdqu	(%r14,%r15), %xmm2
	movdqu	16(%r14,%r15), %xmm1
	movdqu	32(%r14,%r15), %xmm7
	movdqu	48(%r14,%r15), %xmm6
	movdqa	%xmm7, %xmm0
	por	%xmm2, %xmm0
	movdqa	%xmm6, %xmm3
	por	%xmm1, %xmm3
	por	%xmm0, %xmm3
	pmovmskb	%xmm3, %eax
	testl	%eax, %eax
	je	.LBB30_13
# %bb.14:                               # %join.3.i
                                        #   in Loop: Header=BB30_11 Depth=2
	pmovmskb	%xmm2, %eax
	pmovmskb	%xmm1, %ecx
	shll	$16, %ecx
	orl	%eax, %ecx
	pmovmskb	%xmm7, %edx
	shlq	$32, %rdx
	orq	%rcx, %rdx
	pmovmskb	%xmm6, %eax
	shlq	$48, %rax
	orq	%rdx, %rax
	movq	%rax, %rcx
	shrq	%rcx
	movabsq	$-9223372036854775808, %rdx     # imm = 0x8000000000000000
	orq	%rcx, %rdx
	testq	%rax, %rdx
	jne	.LBB30_17
# %bb.15:                               # %arm.8.i
                                        #   in Loop: Header=BB30_11 Depth=2
	pxor	%xmm5, %xmm5
	pxor	%xmm3, %xmm3
	pcmpgtb	%xmm2, %xmm3
	pxor	%xmm4, %xmm4
	pcmpgtb	%xmm1, %xmm4
	pxor	%xmm9, %xmm9
	movdqa	.LCPI30_0(%rip), %xmm8          # xmm8 = [253,253,253,253,253,253,253,253,253,253,253,253,253,253,253,253]
	movdqa	%xmm2, %xmm0
	pblendvb	%xmm0, %xmm8, %xmm2
	pcmpgtb	%xmm7, %xmm9
	movdqa	%xmm1, %xmm0
	pblendvb	%xmm0, %xmm8, %xmm1
	pcmpgtb	%xmm6, %xmm5
	movdqa	%xmm7, %xmm0
	pblendvb	%xmm0, %xmm8, %xmm7
	xorl	%ebx, %ebx
	popcntq	%rax, %rbx
	movdqa	%xmm6, %xmm0
	pblendvb	%xmm0, %xmm8, %xmm6
	movdqa	%xmm6, %xmm8
	punpckhbw	%xmm5, %xmm8            # xmm8 = xmm8[8],xmm5[8],xmm8[9],xmm5[9],xmm8[10],xmm5[10],xmm8[11],xmm5[11],xmm8[12],xmm5[12],xmm8[13],xmm5[13],xmm8[14],xmm5[14],xmm8[15],xmm5[15]
	punpcklbw	%xmm5, %xmm6            # xmm6 = xmm6[0],xmm5[0],xmm6[1],xmm5[1],xmm6[2],xmm5[2],xmm6[3],xmm5[3],xmm6[4],xmm5[4],xmm6[5],xmm5[5],xmm6[6],xmm5[6],xmm6[7],xmm5[7]
	movdqa	%xmm7, %xmm10
	punpcklbw	%xmm9, %xmm10           # xmm10 = xmm10[0],xmm9[0],xmm10[1],xmm9[1],xmm10[2],xmm9[2],xmm10[3],xmm9[3],xmm10[4],xmm9[4],xmm10[5],xmm9[5],xmm10[6],xmm9[6],xmm10[7],xmm9[7]
	punpckhbw	%xmm9, %xmm7            # xmm7 = xmm7[8],xmm9[8],xmm7[9],xmm9[9],xmm7[10],xmm9[10],xmm7[11],xmm9[11],xmm7[12],xmm9[12],xmm7[13],xmm9[13],xmm7[14],xmm9[14],xmm7[15],xmm9[15]
	movdqa	%xmm1, %xmm0
	punpckhbw	%xmm4, %xmm0            # xmm0 = xmm0[8],xmm4[8],xmm0[9],xmm4[9],xmm0[10],xmm4[10],xmm0[11],xmm4[11],xmm0[12],xmm4[12],xmm0[13],xmm4[13],xmm0[14],xmm4[14],xmm0[15],xmm4[15]
	punpcklbw	%xmm4, %xmm1            # xmm1 = xmm1[0],xmm4[0],xmm1[1],xmm4[1],xmm1[2],xmm4[2],xmm1[3],xmm4[3],xmm1[4],xmm4[4],xmm1[5],xmm4[5],xmm1[6],xmm4[6],xmm1[7],xmm4[7]
	movdqa	%xmm2, %xmm4
	punpcklbw	%xmm3, %xmm4            # xmm4 = xmm4[0],xmm3[0],xmm4[1],xmm3[1],xmm4[2],xmm3[2],xmm4[3],xmm3[3],xmm4[4],xmm3[4],xmm4[5],xmm3[5],xmm4[6],xmm3[6],xmm4[7],xmm3[7]
	punpckhbw	%xmm3, %xmm2            # xmm2 = xmm2[8],xmm3[8],xmm2[9],xmm3[9],xmm2[10],xmm3[10],xmm2[11],xmm3[11],xmm2[12],xmm3[12],xmm2[13],xmm3[13],xmm2[14],xmm3[14],xmm2[15],xmm3[15]
	movdqa	%xmm2, 320(%rsp)
	movdqa	%xmm4, 336(%rsp)
	movdqa	%xmm1, 304(%rsp)
	movdqa	%xmm0, 288(%rsp)
	leaq	288(%rsp), %rax
	movq	%rax, 32(%rsp)
	leaq	336(%rsp), %rdx
	leaq	320(%rsp), %r8
	leaq	304(%rsp), %r9
	movq	%rdi, %rcx
	callq	recoding_list_VecU8Output_put_wide_e3b2a9d4d2861db8_152
	movdqa	%xmm7, 256(%rsp)
	movdqa	%xmm10, 272(%rsp)
	movdqa	%xmm6, 240(%rsp)
	movdqa	%xmm8, 224(%rsp)
	leaq	224(%rsp), %rax
	movq	%rax, 32(%rsp)
	leaq	272(%rsp), %rdx
	leaq	256(%rsp), %r8
	leaq	240(%rsp), %r9
	movq	%rdi, %rcx
	callq	recoding_list_VecU8Output_put_wide_e3b2a9d4d2861db8_152
	jmp	.LBB30_16
	.p2align	4
.LBB30_7:                               #   in Loop: Header=BB30_1 Depth=1
	xorl	%ebp, %ebp
	xorl	%r15d, %r15d
.LBB30_17:                              # %recoding_kernels_put_plain_5ffe3d2dbc72ef02_exit_196
                                        #   in Loop: Header=BB30_1 Depth=1
	addq	%r13, %r15
	movq	80(%rsp), %r14                  # 8-byte Reload
	movq	%r14, %rcx
	movq	88(%rsp), %rbx                  # 8-byte Reload
	movq	%rbx, %rdx
	movq	%r15, %r8
	callq	recoding_kernels_next_text_end_130
	movq	%rax, %r8
	subq	%r15, %r8
	movq	%r15, %r12
	cmpq	$32, %r8
	jb	.LBB30_20
# %bb.18:                               # %else.4.i
                                        #   in Loop: Header=BB30_1 Depth=1
	movq	%rax, %r13
	movq	16(%rdi), %rax
	subq	8(%rdi), %rax
	movabsq	$-6148914691236517205, %rcx     # imm = 0xAAAAAAAAAAAAAAAB
	mulq	%rcx
	shrq	%rdx
	movq	%r15, %r12
	cmpq	%r8, %rdx
	jb	.LBB30_20
# %bb.19:                               # %after.1.i
                                        #   in Loop: Header=BB30_1 Depth=1
	leaq	(%r14,%r15), %rcx
	movq	%r8, %rdx
	movq	%rdi, %r8
	callq	recoding_list_append_units_035c64e45cc79e03_176
	movq	%r13, %r12
	jmp	.LBB30_20
.LBB30_21:                              # %return.15
	movq	%r12, %rax
	movq	%rsi, %rdx
	movaps	864(%rsp), %xmm6                # 16-byte Reload
	movaps	880(%rsp), %xmm7                # 16-byte Reload
	movaps	896(%rsp), %xmm8                # 16-byte Reload
	movaps	912(%rsp), %xmm9                # 16-byte Reload
	movaps	928(%rsp), %xmm10               # 16-byte Reload
	addq	$952, %rsp                      # imm = 0x3B8
	popq	%rbx
	popq	%rbp
	popq	%rdi
	popq	%rsi
	popq	%r12
	popq	%r13
	popq	%r14
	popq	%r15
	retq
	.seh_endproc
                                        # -- End function
	.def	recoding_kernels_widen_plain_5ffe3d2dbc72ef02_159;
	.scl	3;
	.type	32;
	.endef
	.section .rdata$n0,"dr"
	.p2align	4, 0x0                          # -- Begin function recoding::kernels::widen_plain::<#5ffe3d2dbc72ef02>
.LCPI31_0:
	.zero	16,253
	.section .text$n35,"xr"
	.p2align	4
recoding_kernels_widen_plain_5ffe3d2dbc72ef02_159: # @recoding_kernels_widen_plain_5ffe3d2dbc72ef02_159
.seh_proc recoding_kernels_widen_plain_5ffe3d2dbc72ef02_159
# %bb.0:                                # %start
	pushq	%r15
	.seh_pushreg %r15
	pushq	%r14
	.seh_pushreg %r14
	pushq	%r12
	.seh_pushreg %r12
	pushq	%rsi
	.seh_pushreg %rsi
	pushq	%rdi
	.seh_pushreg %rdi
	pushq	%rbx
	.seh_pushreg %rbx
	subq	$392, %rsp                      # imm = 0x188
	.seh_stackalloc 392
	movdqa	%xmm10, 368(%rsp)               # 16-byte Spill
	.seh_savexmm %xmm10, 368
	movdqa	%xmm9, 352(%rsp)                # 16-byte Spill
	.seh_savexmm %xmm9, 352
	movdqa	%xmm8, 336(%rsp)                # 16-byte Spill
	.seh_savexmm %xmm8, 336
	movdqa	%xmm7, 320(%rsp)                # 16-byte Spill
	.seh_savexmm %xmm7, 320
	movdqa	%xmm6, 304(%rsp)                # 16-byte Spill
	.seh_savexmm %xmm6, 304
	.seh_endprologue
	cmpq	$67, %rdx
	jb	.LBB31_1
# %bb.2:                                # %then.1.i
	movq	%r8, %rbx
	movq	%rdx, %r14
	movq	%rcx, %r15
	cmpb	$0, (%rcx)
	jns	.LBB31_4
# %bb.3:                                # %else.5.i
	cmpb	$0, 1(%r15)
	js	.LBB31_1
.LBB31_4:                               # %then.7.i.lr.ph
	xorl	%edi, %edi
	xorl	%esi, %esi
	jmp	.LBB31_5
	.p2align	4
.LBB31_7:                               # %then.1.i5
                                        #   in Loop: Header=BB31_5 Depth=1
	pxor	%xmm0, %xmm0
	pmovzxbw	%xmm6, %xmm8                    # xmm8 = xmm6[0],zero,xmm6[1],zero,xmm6[2],zero,xmm6[3],zero,xmm6[4],zero,xmm6[5],zero,xmm6[6],zero,xmm6[7],zero
	punpckhbw	%xmm0, %xmm6            # xmm6 = xmm6[8],xmm0[8],xmm6[9],xmm0[9],xmm6[10],xmm0[10],xmm6[11],xmm0[11],xmm6[12],xmm0[12],xmm6[13],xmm0[13],xmm6[14],xmm0[14],xmm6[15],xmm0[15]
	pmovzxbw	%xmm7, %xmm9                    # xmm9 = xmm7[0],zero,xmm7[1],zero,xmm7[2],zero,xmm7[3],zero,xmm7[4],zero,xmm7[5],zero,xmm7[6],zero,xmm7[7],zero
	punpckhbw	%xmm0, %xmm7            # xmm7 = xmm7[8],xmm0[8],xmm7[9],xmm0[9],xmm7[10],xmm0[10],xmm7[11],xmm0[11],xmm7[12],xmm0[12],xmm7[13],xmm0[13],xmm7[14],xmm0[14],xmm7[15],xmm0[15]
	pmovzxbw	%xmm1, %xmm3                    # xmm3 = xmm1[0],zero,xmm1[1],zero,xmm1[2],zero,xmm1[3],zero,xmm1[4],zero,xmm1[5],zero,xmm1[6],zero,xmm1[7],zero
	punpckhbw	%xmm0, %xmm1            # xmm1 = xmm1[8],xmm0[8],xmm1[9],xmm0[9],xmm1[10],xmm0[10],xmm1[11],xmm0[11],xmm1[12],xmm0[12],xmm1[13],xmm0[13],xmm1[14],xmm0[14],xmm1[15],xmm0[15]
	pmovzxbw	%xmm2, %xmm4                    # xmm4 = xmm2[0],zero,xmm2[1],zero,xmm2[2],zero,xmm2[3],zero,xmm2[4],zero,xmm2[5],zero,xmm2[6],zero,xmm2[7],zero
	punpckhbw	%xmm0, %xmm2            # xmm2 = xmm2[8],xmm0[8],xmm2[9],xmm0[9],xmm2[10],xmm0[10],xmm2[11],xmm0[11],xmm2[12],xmm0[12],xmm2[13],xmm0[13],xmm2[14],xmm0[14],xmm2[15],xmm0[15]
	movdqa	%xmm2, 144(%rsp)
	movdqa	%xmm4, 160(%rsp)
	movdqa	%xmm3, 128(%rsp)
	movdqa	%xmm1, 112(%rsp)
	leaq	112(%rsp), %rax
	movq	%rax, 32(%rsp)
	leaq	160(%rsp), %rdx
	leaq	144(%rsp), %r8
	leaq	128(%rsp), %r9
	movq	%rbx, %rcx
	callq	recoding_list_VecU8Output_put_wide_e3b2a9d4d2861db8_152
	movdqa	%xmm7, 80(%rsp)
	movdqa	%xmm9, 96(%rsp)
	movdqa	%xmm8, 64(%rsp)
	movdqa	%xmm6, 48(%rsp)
	leaq	48(%rsp), %rax
	movq	%rax, 32(%rsp)
	leaq	96(%rsp), %rdx
	leaq	80(%rsp), %r8
	leaq	64(%rsp), %r9
	movq	%rbx, %rcx
	callq	recoding_list_VecU8Output_put_wide_e3b2a9d4d2861db8_152
	xorl	%r12d, %r12d
.LBB31_10:                              # %arm.14.i
                                        #   in Loop: Header=BB31_5 Depth=1
	addq	$64, %rdi
	addq	%r12, %rsi
	addq	$-64, %r14
	cmpq	$66, %r14
	jbe	.LBB31_11
.LBB31_5:                               # %then.7.i
                                        # =>This Inner Loop Header: Depth=1
	movq	16(%rbx), %rax
	subq	8(%rbx), %rax
	cmpq	$128, %rax
	jb	.LBB31_11
# %bb.6:                                # %join.9.i
                                        #   in Loop: Header=BB31_5 Depth=1
	movdqu	(%r15,%rdi), %xmm2
	movdqu	16(%r15,%rdi), %xmm1
	movdqu	32(%r15,%rdi), %xmm7
	movdqu	48(%r15,%rdi), %xmm6
	movdqa	%xmm7, %xmm0
	por	%xmm2, %xmm0
	movdqa	%xmm6, %xmm3
	por	%xmm1, %xmm3
	por	%xmm0, %xmm3
	pmovmskb	%xmm3, %eax
	testl	%eax, %eax
	je	.LBB31_7
# %bb.8:                                # %join.3.i
                                        #   in Loop: Header=BB31_5 Depth=1
	pmovmskb	%xmm2, %eax
	pmovmskb	%xmm1, %ecx
	shll	$16, %ecx
	orl	%eax, %ecx
	pmovmskb	%xmm7, %edx
	shlq	$32, %rdx
	orq	%rcx, %rdx
	pmovmskb	%xmm6, %eax
	shlq	$48, %rax
	orq	%rdx, %rax
	movq	%rax, %rcx
	shrq	%rcx
	movabsq	$-9223372036854775808, %rdx     # imm = 0x8000000000000000
	orq	%rcx, %rdx
	testq	%rax, %rdx
	jne	.LBB31_11
# %bb.9:                                # %arm.8.i
                                        #   in Loop: Header=BB31_5 Depth=1
	pxor	%xmm5, %xmm5
	pxor	%xmm3, %xmm3
	pcmpgtb	%xmm2, %xmm3
	pxor	%xmm4, %xmm4
	pcmpgtb	%xmm1, %xmm4
	pxor	%xmm9, %xmm9
	movdqa	.LCPI31_0(%rip), %xmm8          # xmm8 = [253,253,253,253,253,253,253,253,253,253,253,253,253,253,253,253]
	movdqa	%xmm2, %xmm0
	pblendvb	%xmm0, %xmm8, %xmm2
	pcmpgtb	%xmm7, %xmm9
	movdqa	%xmm1, %xmm0
	pblendvb	%xmm0, %xmm8, %xmm1
	pcmpgtb	%xmm6, %xmm5
	movdqa	%xmm7, %xmm0
	pblendvb	%xmm0, %xmm8, %xmm7
	xorl	%r12d, %r12d
	popcntq	%rax, %r12
	movdqa	%xmm6, %xmm0
	pblendvb	%xmm0, %xmm8, %xmm6
	movdqa	%xmm6, %xmm8
	punpckhbw	%xmm5, %xmm8            # xmm8 = xmm8[8],xmm5[8],xmm8[9],xmm5[9],xmm8[10],xmm5[10],xmm8[11],xmm5[11],xmm8[12],xmm5[12],xmm8[13],xmm5[13],xmm8[14],xmm5[14],xmm8[15],xmm5[15]
	punpcklbw	%xmm5, %xmm6            # xmm6 = xmm6[0],xmm5[0],xmm6[1],xmm5[1],xmm6[2],xmm5[2],xmm6[3],xmm5[3],xmm6[4],xmm5[4],xmm6[5],xmm5[5],xmm6[6],xmm5[6],xmm6[7],xmm5[7]
	movdqa	%xmm7, %xmm10
	punpcklbw	%xmm9, %xmm10           # xmm10 = xmm10[0],xmm9[0],xmm10[1],xmm9[1],xmm10[2],xmm9[2],xmm10[3],xmm9[3],xmm10[4],xmm9[4],xmm10[5],xmm9[5],xmm10[6],xmm9[6],xmm10[7],xmm9[7]
	punpckhbw	%xmm9, %xmm7            # xmm7 = xmm7[8],xmm9[8],xmm7[9],xmm9[9],xmm7[10],xmm9[10],xmm7[11],xmm9[11],xmm7[12],xmm9[12],xmm7[13],xmm9[13],xmm7[14],xmm9[14],xmm7[15],xmm9[15]
	movdqa	%xmm1, %xmm0
	punpckhbw	%xmm4, %xmm0            # xmm0 = xmm0[8],xmm4[8],xmm0[9],xmm4[9],xmm0[10],xmm4[10],xmm0[11],xmm4[11],xmm0[12],xmm4[12],xmm0[13],xmm4[13],xmm0[14],xmm4[14],xmm0[15],xmm4[15]
	punpcklbw	%xmm4, %xmm1            # xmm1 = xmm1[0],xmm4[0],xmm1[1],xmm4[1],xmm1[2],xmm4[2],xmm1[3],xmm4[3],xmm1[4],xmm4[4],xmm1[5],xmm4[5],xmm1[6],xmm4[6],xmm1[7],xmm4[7]
	movdqa	%xmm2, %xmm4
	punpcklbw	%xmm3, %xmm4            # xmm4 = xmm4[0],xmm3[0],xmm4[1],xmm3[1],xmm4[2],xmm3[2],xmm4[3],xmm3[3],xmm4[4],xmm3[4],xmm4[5],xmm3[5],xmm4[6],xmm3[6],xmm4[7],xmm3[7]
	punpckhbw	%xmm3, %xmm2            # xmm2 = xmm2[8],xmm3[8],xmm2[9],xmm3[9],xmm2[10],xmm3[10],xmm2[11],xmm3[11],xmm2[12],xmm3[12],xmm2[13],xmm3[13],xmm2[14],xmm3[14],xmm2[15],xmm3[15]
	movdqa	%xmm2, 272(%rsp)
	movdqa	%xmm4, 288(%rsp)
	movdqa	%xmm1, 256(%rsp)
	movdqa	%xmm0, 240(%rsp)
	leaq	240(%rsp), %rax
	movq	%rax, 32(%rsp)
	leaq	288(%rsp), %rdx
	leaq	272(%rsp), %r8
	leaq	256(%rsp), %r9
	movq	%rbx, %rcx
	callq	recoding_list_VecU8Output_put_wide_e3b2a9d4d2861db8_152
	movdqa	%xmm7, 208(%rsp)
	movdqa	%xmm10, 224(%rsp)
	movdqa	%xmm6, 192(%rsp)
	movdqa	%xmm8, 176(%rsp)
	leaq	176(%rsp), %rax
	movq	%rax, 32(%rsp)
	leaq	224(%rsp), %rdx
	leaq	208(%rsp), %r8
	leaq	192(%rsp), %r9
	movq	%rbx, %rcx
	callq	recoding_list_VecU8Output_put_wide_e3b2a9d4d2861db8_152
	jmp	.LBB31_10
.LBB31_1:
	xorl	%esi, %esi
	xorl	%edi, %edi
.LBB31_11:                              # %recoding_kernels_put_plain_5ffe3d2dbc72ef02_exit_196
	movq	%rdi, %rax
	movq	%rsi, %rdx
	movaps	304(%rsp), %xmm6                # 16-byte Reload
	movaps	320(%rsp), %xmm7                # 16-byte Reload
	movaps	336(%rsp), %xmm8                # 16-byte Reload
	movaps	352(%rsp), %xmm9                # 16-byte Reload
	movaps	368(%rsp), %xmm10               # 16-byte Reload
	addq	$392, %rsp                      # imm = 0x188
	popq	%rbx
	popq	%rdi
	popq	%rsi
	popq	%r12
	popq	%r14
	popq	%r15
	retq
	.seh_endproc
                                        # -- End function
	.def	recoding_engine_recode_faults_e0f9120ea28c3ab4_164;
	.scl	3;
	.type	32;
	.endef
	.section .text$n36,"xr"
	.p2align	4                               # -- Begin function recoding::engine::recode_faults::<#e0f9120ea28c3ab4>
recoding_engine_recode_faults_e0f9120ea28c3ab4_164: # @recoding_engine_recode_faults_e0f9120ea28c3ab4_164
.seh_proc recoding_engine_recode_faults_e0f9120ea28c3ab4_164
# %bb.0:                                # %start
	pushq	%r15
	.seh_pushreg %r15
	pushq	%r14
	.seh_pushreg %r14
	pushq	%r13
	.seh_pushreg %r13
	pushq	%r12
	.seh_pushreg %r12
	pushq	%rsi
	.seh_pushreg %rsi
	pushq	%rdi
	.seh_pushreg %rdi
	pushq	%rbp
	.seh_pushreg %rbp
	pushq	%rbx
	.seh_pushreg %rbx
	subq	$72, %rsp
	.seh_stackalloc 72
	.seh_endprologue
	movq	%r9, %rdi
	movq	%rdx, %r11
	movq	%rcx, 48(%rsp)                  # 8-byte Spill
	movl	$16, %r9d
	xorl	%ecx, %ecx
	xorl	%ebp, %ebp
	jmp	.LBB32_3
.LBB32_1:                               # %arm.10.i.i
                                        #   in Loop: Header=BB32_3 Depth=1
	leaq	(%r11,%rsi), %rcx
	movq	%r15, %rdx
	movq	%r8, %rbx
	movq	%r11, %r14
	callq	recoding_next_scalar_is_front_of_code_81
	movq	%r14, %r11
	movq	%rbx, %r8
	testb	%al, %al
	jne	.LBB32_41
	.p2align	4
.LBB32_2:                               # %recoding_text_Utf16Text_put_any_ec2bf5654938c731_exit_197
                                        #   in Loop: Header=BB32_3 Depth=1
	cmpq	$32, %r13
	movl	$32, %r9d
	cmovbq	%r13, %r9
	movq	(%rdi), %rax
	movq	8(%rdi), %rcx
	movb	$-3, (%rax,%rcx)
	movq	(%rdi), %rax
	movb	$-1, 1(%rax,%rcx)
	addq	$2, %rcx
	movq	%rcx, 8(%rdi)
	incq	%rbp
	movl	$1, %ecx
	addq	%rsi, %rcx
	cmpq	%r9, %rcx
	jae	.LBB32_19
.LBB32_3:                               # %join.5
                                        # =>This Inner Loop Header: Depth=1
	movq	%rcx, %rsi
	leaq	4(%rcx), %r13
	cmpq	%r8, %r13
	jbe	.LBB32_5
# %bb.4:                                # %join.3.i
                                        #   in Loop: Header=BB32_3 Depth=1
	movq	%r8, %r15
	subq	%rsi, %r15
	cmpq	$4, %r15
	jb	.LBB32_12
.LBB32_5:                               # %then.1.i.i
                                        #   in Loop: Header=BB32_3 Depth=1
	movzbl	(%r11,%rsi), %eax
	testb	%al, %al
	js	.LBB32_6
# %bb.11:                               # %utf_lanes_text_front_front_of_text_exit139_i_thread_144
                                        #   in Loop: Header=BB32_3 Depth=1
	movl	$1, %ecx
.LBB32_17:                              # %arm.1.i25
                                        #   in Loop: Header=BB32_3 Depth=1
	movq	(%rdi), %rdx
	movq	8(%rdi), %rbx
	movb	%al, (%rdx,%rbx)
	movq	(%rdi), %rdx
	movb	%ah, 1(%rdx,%rbx)
	addq	$2, %rbx
	movq	%rbx, 8(%rdi)
	addq	%rsi, %rcx
	cmpq	%r9, %rcx
	jb	.LBB32_3
	jmp	.LBB32_19
	.p2align	4
.LBB32_6:                               # %join.6.i104.i
                                        #   in Loop: Header=BB32_3 Depth=1
	movzbl	1(%r11,%rsi), %ecx
	cmpb	$-32, %al
	jae	.LBB32_21
# %bb.7:                                # %utf_lanes_text_front_front_of_text_exit139_i_145
                                        #   in Loop: Header=BB32_3 Depth=1
	cmpb	$-62, %al
	jb	.LBB32_2
# %bb.8:                                # %utf_lanes_text_front_front_of_text_exit139_i_145
                                        #   in Loop: Header=BB32_3 Depth=1
	xorl	$128, %ecx
	cmpb	$63, %cl
	ja	.LBB32_2
# %bb.9:                                #   in Loop: Header=BB32_3 Depth=1
	shll	$6, %eax
	addl	%ecx, %eax
	addl	$-12288, %eax                   # imm = 0xD000
	movl	$2, %ecx
	cmpl	$65535, %eax                    # imm = 0xFFFF
	jbe	.LBB32_17
.LBB32_31:                              # %arm.2.i24
                                        #   in Loop: Header=BB32_3 Depth=1
	movl	%eax, %edx
	shrl	$10, %edx
	addl	$-10304, %edx                   # imm = 0xD7C0
	movl	%eax, %r10d
	shrl	$8, %eax
	andb	$3, %al
	orb	$-36, %al
	movq	%r9, %r14
	movq	(%rdi), %r9
	movq	8(%rdi), %rbx
	movb	%dl, (%r9,%rbx)
	movq	%rbp, %r9
	movq	(%rdi), %rbp
	movb	%dh, 1(%rbp,%rbx)
	movq	%r9, %rbp
	movq	%r14, %r9
	movq	(%rdi), %rdx
	movb	%r10b, 2(%rdx,%rbx)
	movq	(%rdi), %rdx
	movb	%al, 3(%rdx,%rbx)
	addq	$4, %rbx
	movq	%rbx, 8(%rdi)
	addq	%rsi, %rcx
	cmpq	%r9, %rcx
	jb	.LBB32_3
	jmp	.LBB32_19
	.p2align	4
.LBB32_12:                              # %join.3.i.i
                                        #   in Loop: Header=BB32_3 Depth=1
	cmpq	%rsi, %r8
	je	.LBB32_1
# %bb.13:                               # %join.3.i316.i
                                        #   in Loop: Header=BB32_3 Depth=1
	movzbl	(%r11,%rsi), %r14d
	leaq	static.8(%rip), %rax
	movzbl	(%r14,%rax), %eax
	leaq	static.9(%rip), %rbx
	movzbl	(%rax,%rbx), %r12d
	cmpq	$12, %r12
	jbe	.LBB32_32
# %bb.14:                               # %join.6.i321.i
                                        #   in Loop: Header=BB32_3 Depth=1
	cmpl	$13, %r12d
	jne	.LBB32_2
# %bb.15:                               # %join.9.i323.i
                                        #   in Loop: Header=BB32_3 Depth=1
	testb	%r14b, %r14b
	js	.LBB32_42
# %bb.16:                               # %utf_chars_codes_utf8_decode_start_exit_i_thread463_198
                                        #   in Loop: Header=BB32_3 Depth=1
	movl	$1, %ecx
	movl	%r14d, %eax
	jmp	.LBB32_17
.LBB32_21:                              # %join.9.i106.i
                                        #   in Loop: Header=BB32_3 Depth=1
	cmpb	$-65, %cl
	jg	.LBB32_2
# %bb.22:                               # %join.12.i113.i
                                        #   in Loop: Header=BB32_3 Depth=1
	movl	%eax, %edx
	andl	$15, %eax
	andl	$63, %ecx
	shll	$6, %eax
	orl	%ecx, %eax
	cmpb	$-17, %dl
	ja	.LBB32_27
# %bb.23:                               # %then.13.i125.i
                                        #   in Loop: Header=BB32_3 Depth=1
	movl	%eax, %ecx
	andl	$-32, %ecx
	cmpl	$864, %ecx                      # imm = 0x360
	je	.LBB32_2
# %bb.24:                               # %join.3.i187.i
                                        #   in Loop: Header=BB32_3 Depth=1
	movzbl	2(%r11,%rsi), %edx
	cmpb	$-65, %dl
	jg	.LBB32_2
# %bb.25:                               # %join.3.i187.i
                                        #   in Loop: Header=BB32_3 Depth=1
	cmpl	$32, %eax
	jb	.LBB32_2
# %bb.26:                               # %join.9.i191.i
                                        #   in Loop: Header=BB32_3 Depth=1
	shll	$6, %eax
	andl	$63, %edx
	orl	%eax, %edx
	movl	$3, %ecx
	movl	%edx, %eax
	jmp	.LBB32_17
.LBB32_27:                              # %else.14.i116.i
                                        #   in Loop: Header=BB32_3 Depth=1
	leal	-272(%rax), %ecx
	cmpl	$-256, %ecx
	jb	.LBB32_2
# %bb.28:                               # %after.1.i.i
                                        #   in Loop: Header=BB32_3 Depth=1
	movzbl	2(%r11,%rsi), %edx
	cmpb	$-65, %dl
	jg	.LBB32_2
# %bb.29:                               # %else.14.i254.i
                                        #   in Loop: Header=BB32_3 Depth=1
	movzbl	3(%r11,%rsi), %ecx
	cmpb	$-65, %cl
	jg	.LBB32_2
# %bb.30:                               # %after.11.i.i
                                        #   in Loop: Header=BB32_3 Depth=1
	andl	$63, %edx
	andl	$63, %ecx
	shll	$12, %eax
	shll	$6, %edx
	orl	%eax, %edx
	orl	%ecx, %edx
	movl	$4, %ecx
	movl	%edx, %eax
	jmp	.LBB32_31
.LBB32_32:                              # %then.4.i333.i
                                        #   in Loop: Header=BB32_3 Depth=1
	movl	%r12d, %ecx
	movq	%r8, 64(%rsp)                   # 8-byte Spill
	movq	%rbp, 56(%rsp)                  # 8-byte Spill
	movq	%r11, %rbp
	movq	%r9, 40(%rsp)                   # 8-byte Spill
	callq	utf_chars_codes_utf8_missing_after_80
	movq	40(%rsp), %r9                   # 8-byte Reload
	movq	%rbp, %r11
	movq	56(%rsp), %rbp                  # 8-byte Reload
	movq	64(%rsp), %r8                   # 8-byte Reload
	cmpq	%rax, %r15
	jbe	.LBB32_1
# %bb.33:                               # %join.3.i351.i
                                        #   in Loop: Header=BB32_3 Depth=1
	movzbl	1(%r11,%rsi), %edx
	leaq	static.8(%rip), %rcx
	movzbl	(%rdx,%rcx), %eax
	shll	$4, %r12d
	addq	%rbx, %r12
	movzbl	(%rax,%r12), %eax
	cmpq	$12, %rax
	ja	.LBB32_37
# %bb.34:                               # %then.1.i379.i
                                        #   in Loop: Header=BB32_3 Depth=1
	movzbl	2(%r11,%rsi), %r10d
	movq	%rcx, %r15
	movzbl	(%r10,%rcx), %ecx
	shll	$4, %eax
	addq	%rbx, %rax
	movzbl	(%rcx,%rax), %ecx
	cmpq	$12, %rcx
	ja	.LBB32_39
# %bb.35:                               # %then.1.i418.i
                                        #   in Loop: Header=BB32_3 Depth=1
	movzbl	3(%r11,%rsi), %eax
	movzbl	(%rax,%r15), %r9d
	shll	$4, %ecx
	addq	%rcx, %rbx
	cmpb	$13, (%r9,%rbx)
	movq	40(%rsp), %r9                   # 8-byte Reload
	jne	.LBB32_2
# %bb.36:                               # %join.3.i436.i
                                        #   in Loop: Header=BB32_3 Depth=1
	andl	$7, %r14d
	andl	$63, %edx
	shll	$12, %r14d
	shll	$6, %edx
	orl	%r14d, %edx
	andl	$63, %r10d
	orl	%edx, %r10d
	shll	$6, %r10d
	andl	$63, %eax
	orl	%r10d, %eax
	movl	$4, %ecx
	cmpl	$65535, %eax                    # imm = 0xFFFF
	jbe	.LBB32_17
	jmp	.LBB32_31
.LBB32_37:                              # %join.3.i366.i
                                        #   in Loop: Header=BB32_3 Depth=1
	cmpl	$13, %eax
	jne	.LBB32_2
# %bb.38:                               # %utf_chars_codes_utf8_decode_start_exit_i_thread544_199
                                        #   in Loop: Header=BB32_3 Depth=1
	andl	$31, %r14d
	shll	$6, %r14d
	andl	$63, %edx
	orl	%r14d, %edx
	movl	$2, %ecx
	movl	%edx, %eax
	jmp	.LBB32_17
.LBB32_39:                              # %join.3.i399.i
                                        #   in Loop: Header=BB32_3 Depth=1
	cmpl	$13, %ecx
	jne	.LBB32_2
# %bb.40:                               # %join.6.i401.i
                                        #   in Loop: Header=BB32_3 Depth=1
	andl	$15, %r14d
	andl	$63, %edx
	shll	$12, %r14d
	shll	$6, %edx
	orl	%r14d, %edx
	andl	$63, %r10d
	orl	%edx, %r10d
	movl	$3, %ecx
	movl	%r10d, %eax
	jmp	.LBB32_17
.LBB32_19:                              # %after.1
	movq	48(%rsp), %rax                  # 8-byte Reload
	movq	%rcx, (%rax)
	movq	%rbp, 8(%rax)
	movq	$0, 16(%rax)
.LBB32_20:                              # %after.1
	addq	$72, %rsp
	popq	%rbx
	popq	%rbp
	popq	%rdi
	popq	%rsi
	popq	%r12
	popq	%r13
	popq	%r14
	popq	%r15
	retq
.LBB32_41:                              # %arm.7
	movq	48(%rsp), %rax                  # 8-byte Reload
	movq	%rsi, (%rax)
	movq	%rbp, 8(%rax)
	movw	$256, 16(%rax)                  # imm = 0x100
	movl	$0, 18(%rax)
	movw	$0, 22(%rax)
	jmp	.LBB32_20
.LBB32_42:                              # %join.4.i.i
	ud2
	.seh_endproc
                                        # -- End function
	.def	recoding_recoder_runs_run_whole_9c534bed186decad_43;
	.scl	3;
	.type	32;
	.endef
	.section .text$n37,"xr"
	.p2align	4                               # -- Begin function recoding::recoder_runs::run_whole::<#9c534bed186decad>
recoding_recoder_runs_run_whole_9c534bed186decad_43: # @recoding_recoder_runs_run_whole_9c534bed186decad_43
.seh_proc recoding_recoder_runs_run_whole_9c534bed186decad_43
# %bb.0:                                # %start
	pushq	%r15
	.seh_pushreg %r15
	pushq	%r14
	.seh_pushreg %r14
	pushq	%r13
	.seh_pushreg %r13
	pushq	%r12
	.seh_pushreg %r12
	pushq	%rsi
	.seh_pushreg %rsi
	pushq	%rdi
	.seh_pushreg %rdi
	pushq	%rbp
	.seh_pushreg %rbp
	pushq	%rbx
	.seh_pushreg %rbx
	subq	$328, %rsp                      # imm = 0x148
	.seh_stackalloc 328
	movdqa	%xmm9, 304(%rsp)                # 16-byte Spill
	.seh_savexmm %xmm9, 304
	movdqa	%xmm8, 288(%rsp)                # 16-byte Spill
	.seh_savexmm %xmm8, 288
	movdqa	%xmm7, 272(%rsp)                # 16-byte Spill
	.seh_savexmm %xmm7, 272
	movdqa	%xmm6, 256(%rsp)                # 16-byte Spill
	.seh_savexmm %xmm6, 256
	.seh_endprologue
	movq	%r8, %r14
	movq	%rdx, %rbx
	leaq	32(%rcx), %rax
	movq	%rax, 112(%rsp)                 # 8-byte Spill
	leaq	96(%rcx), %rax
	movq	%rax, 120(%rsp)                 # 8-byte Spill
	movq	%rcx, 48(%rsp)                  # 8-byte Spill
	leaq	1(%rcx), %rax
	movq	%rax, 104(%rsp)                 # 8-byte Spill
	xorl	%r12d, %r12d
	xorl	%r15d, %r15d
	xorl	%edi, %edi
	.p2align	4
.LBB33_1:                               # %loop.2.i.outer
                                        # =>This Loop Header: Depth=1
                                        #     Child Loop BB33_6 Depth 2
                                        #       Child Loop BB33_15 Depth 3
                                        #       Child Loop BB33_25 Depth 3
                                        #       Child Loop BB33_11 Depth 3
                                        #       Child Loop BB33_35 Depth 3
                                        #       Child Loop BB33_19 Depth 3
                                        #       Child Loop BB33_45 Depth 3
                                        #     Child Loop BB33_58 Depth 2
	movq	%r12, 96(%rsp)                  # 8-byte Spill
	movq	%r15, 56(%rsp)                  # 8-byte Spill
	jmp	.LBB33_6
	.p2align	4
.LBB33_2:                               # %else.4.i
                                        #   in Loop: Header=BB33_6 Depth=2
	movdqu	(%r13), %xmm0
	movdqu	16(%r13), %xmm1
	movdqu	32(%r13), %xmm2
	por	%xmm0, %xmm2
	movdqu	48(%r13), %xmm0
	por	%xmm1, %xmm0
	por	%xmm2, %xmm0
	pmovmskb	%xmm0, %eax
	testl	%eax, %eax
	je	.LBB33_18
.LBB33_3:                               #   in Loop: Header=BB33_6 Depth=2
	xorl	%esi, %esi
.LBB33_4:                               # %recoding_ascii_to_utf16_put_ascii_front_f0e6fcfecd579859_exit_200
                                        #   in Loop: Header=BB33_6 Depth=2
	addq	%rsi, %r13
	subq	%rsi, %r15
	movq	%r13, %rcx
	movq	%r15, %rdx
	movq	%r14, %r8
	callq	recoding_kernels_put_judged_fc185a580612e994_201
	movq	%rax, %r15
	addq	%rsi, %r15
.LBB33_5:                               # %recoding_kernels_WidenedKernelUtf8Utf16_put_text_adf464b980d50768_exit_202
                                        #   in Loop: Header=BB33_6 Depth=2
	addq	%r15, %rdi
	cmpq	$8187, %r15                     # imm = 0x1FFB
	jbe	.LBB33_48
.LBB33_6:                               # %loop.2.i
                                        #   Parent Loop BB33_1 Depth=1
                                        # =>  This Loop Header: Depth=2
                                        #       Child Loop BB33_15 Depth 3
                                        #       Child Loop BB33_25 Depth 3
                                        #       Child Loop BB33_11 Depth 3
                                        #       Child Loop BB33_35 Depth 3
                                        #       Child Loop BB33_19 Depth 3
                                        #       Child Loop BB33_45 Depth 3
	movq	48(%rsp), %rax                  # 8-byte Reload
	leaq	(%rax,%rdi), %r13
	movq	%rbx, %rax
	subq	%rdi, %rax
	cmpq	$8192, %rax                     # imm = 0x2000
	movl	$8192, %r15d                    # imm = 0x2000
	cmovbq	%rax, %r15
	cmpq	$1024, %rax                     # imm = 0x400
	ja	.LBB33_2
# %bb.7:                                # %then.11.i
                                        #   in Loop: Header=BB33_6 Depth=2
	cmpq	$17, %rax
	jae	.LBB33_13
# %bb.8:                                # %then.1.i.i
                                        #   in Loop: Header=BB33_6 Depth=2
	cmpq	$3, %rax
	ja	.LBB33_21
# %bb.9:                                # %loop.2.i.i.preheader
                                        #   in Loop: Header=BB33_6 Depth=2
	cmpq	%rdi, %rbx
	je	.LBB33_40
# %bb.10:                               # %join.5.i.i.preheader
                                        #   in Loop: Header=BB33_6 Depth=2
	xorl	%ecx, %ecx
	.p2align	4
.LBB33_11:                              # %join.5.i.i
                                        #   Parent Loop BB33_1 Depth=1
                                        #     Parent Loop BB33_6 Depth=2
                                        # =>    This Inner Loop Header: Depth=3
	cmpb	$0, (%r13,%rcx)
	js	.LBB33_28
# %bb.12:                               # %loop.2.i.i
                                        #   in Loop: Header=BB33_11 Depth=3
	incq	%rcx
	cmpq	%rcx, %r15
	jne	.LBB33_11
	jmp	.LBB33_33
	.p2align	4
.LBB33_13:                              # %loop.2.i33.i.preheader
                                        #   in Loop: Header=BB33_6 Depth=2
	cmpq	$64, %rax
	jb	.LBB33_23
# %bb.14:                               # %join.5.i35.i.preheader
                                        #   in Loop: Header=BB33_6 Depth=2
	movq	112(%rsp), %rcx                 # 8-byte Reload
	leaq	(%rcx,%rdi), %rdx
	xorl	%ecx, %ecx
	movq	%r15, %r8
	.p2align	4
.LBB33_15:                              # %join.5.i35.i
                                        #   Parent Loop BB33_1 Depth=1
                                        #     Parent Loop BB33_6 Depth=2
                                        # =>    This Inner Loop Header: Depth=3
	movdqu	-32(%rdx,%rcx), %xmm0
	movdqu	-16(%rdx,%rcx), %xmm1
	movdqu	(%rdx,%rcx), %xmm2
	por	%xmm0, %xmm2
	movdqu	16(%rdx,%rcx), %xmm0
	por	%xmm1, %xmm0
	por	%xmm2, %xmm0
	pmovmskb	%xmm0, %r9d
	testl	%r9d, %r9d
	jne	.LBB33_17
# %bb.16:                               # %join.8.i36.i
                                        #   in Loop: Header=BB33_15 Depth=3
	addq	$64, %rcx
	addq	$-64, %r8
	cmpq	$63, %r8
	ja	.LBB33_15
.LBB33_17:                              # %utf_lanes_ascii_texts_ascii_end_1_exit_i_151
                                        #   in Loop: Header=BB33_6 Depth=2
	movq	%r15, %rdx
	subq	%rcx, %rdx
	cmpq	$16, %rdx
	jae	.LBB33_24
	jmp	.LBB33_27
	.p2align	4
.LBB33_18:                              # %then.13.i.preheader
                                        #   in Loop: Header=BB33_6 Depth=2
	movq	120(%rsp), %rax                 # 8-byte Reload
	leaq	(%rax,%rdi), %r12
	xorl	%esi, %esi
	movq	%r15, %rbp
	.p2align	4
.LBB33_19:                              # %then.13.i
                                        #   Parent Loop BB33_1 Depth=1
                                        #     Parent Loop BB33_6 Depth=2
                                        # =>    This Inner Loop Header: Depth=3
	movdqu	-32(%r12,%rsi), %xmm0
	movdqu	-16(%r12,%rsi), %xmm1
	movdqu	(%r12,%rsi), %xmm2
	por	%xmm0, %xmm2
	movdqu	16(%r12,%rsi), %xmm0
	por	%xmm1, %xmm0
	por	%xmm2, %xmm0
	pmovmskb	%xmm0, %eax
	testl	%eax, %eax
	jne	.LBB33_4
# %bb.20:                               # %join.15.i
                                        #   in Loop: Header=BB33_19 Depth=3
	movdqu	-96(%r12,%rsi), %xmm0
	movdqu	-80(%r12,%rsi), %xmm1
	movdqu	-64(%r12,%rsi), %xmm2
	movdqu	-48(%r12,%rsi), %xmm3
	pxor	%xmm4, %xmm4
	pxor	%xmm6, %xmm6
	punpckhbw	%xmm3, %xmm6            # xmm6 = xmm6[8],xmm3[8],xmm6[9],xmm3[9],xmm6[10],xmm3[10],xmm6[11],xmm3[11],xmm6[12],xmm3[12],xmm6[13],xmm3[13],xmm6[14],xmm3[14],xmm6[15],xmm3[15]
	pxor	%xmm7, %xmm7
	punpcklbw	%xmm3, %xmm7            # xmm7 = xmm7[0],xmm3[0],xmm7[1],xmm3[1],xmm7[2],xmm3[2],xmm7[3],xmm3[3],xmm7[4],xmm3[4],xmm7[5],xmm3[5],xmm7[6],xmm3[6],xmm7[7],xmm3[7]
	pxor	%xmm8, %xmm8
	punpcklbw	%xmm2, %xmm8            # xmm8 = xmm8[0],xmm2[0],xmm8[1],xmm2[1],xmm8[2],xmm2[2],xmm8[3],xmm2[3],xmm8[4],xmm2[4],xmm8[5],xmm2[5],xmm8[6],xmm2[6],xmm8[7],xmm2[7]
	pxor	%xmm9, %xmm9
	punpckhbw	%xmm2, %xmm9            # xmm9 = xmm9[8],xmm2[8],xmm9[9],xmm2[9],xmm9[10],xmm2[10],xmm9[11],xmm2[11],xmm9[12],xmm2[12],xmm9[13],xmm2[13],xmm9[14],xmm2[14],xmm9[15],xmm2[15]
	pxor	%xmm2, %xmm2
	punpckhbw	%xmm1, %xmm2            # xmm2 = xmm2[8],xmm1[8],xmm2[9],xmm1[9],xmm2[10],xmm1[10],xmm2[11],xmm1[11],xmm2[12],xmm1[12],xmm2[13],xmm1[13],xmm2[14],xmm1[14],xmm2[15],xmm1[15]
	pxor	%xmm3, %xmm3
	punpcklbw	%xmm1, %xmm3            # xmm3 = xmm3[0],xmm1[0],xmm3[1],xmm1[1],xmm3[2],xmm1[2],xmm3[3],xmm1[3],xmm3[4],xmm1[4],xmm3[5],xmm1[5],xmm3[6],xmm1[6],xmm3[7],xmm1[7]
	pxor	%xmm1, %xmm1
	punpcklbw	%xmm0, %xmm1            # xmm1 = xmm1[0],xmm0[0],xmm1[1],xmm0[1],xmm1[2],xmm0[2],xmm1[3],xmm0[3],xmm1[4],xmm0[4],xmm1[5],xmm0[5],xmm1[6],xmm0[6],xmm1[7],xmm0[7]
	punpckhbw	%xmm0, %xmm4            # xmm4 = xmm4[8],xmm0[8],xmm4[9],xmm0[9],xmm4[10],xmm0[10],xmm4[11],xmm0[11],xmm4[12],xmm0[12],xmm4[13],xmm0[13],xmm4[14],xmm0[14],xmm4[15],xmm0[15]
	movdqa	%xmm4, 224(%rsp)
	movdqa	%xmm1, 240(%rsp)
	movdqa	%xmm3, 208(%rsp)
	movdqa	%xmm2, 192(%rsp)
	leaq	192(%rsp), %rax
	movq	%rax, 32(%rsp)
	leaq	240(%rsp), %rdx
	leaq	224(%rsp), %r8
	leaq	208(%rsp), %r9
	movq	%r14, %rcx
	callq	recoding_list_VecU8Output_put_wide_e3b2a9d4d2861db8_152
	movdqa	%xmm9, 160(%rsp)
	movdqa	%xmm8, 176(%rsp)
	movdqa	%xmm7, 144(%rsp)
	movdqa	%xmm6, 128(%rsp)
	leaq	128(%rsp), %rax
	movq	%rax, 32(%rsp)
	leaq	176(%rsp), %rdx
	leaq	160(%rsp), %r8
	leaq	144(%rsp), %r9
	movq	%r14, %rcx
	callq	recoding_list_VecU8Output_put_wide_e3b2a9d4d2861db8_152
	addq	$-64, %rbp
	addq	$64, %rsi
	cmpq	$127, %rbp
	ja	.LBB33_19
	jmp	.LBB33_4
.LBB33_21:                              # %join.3.i19.i
                                        #   in Loop: Header=BB33_6 Depth=2
	cmpq	$7, %rax
	ja	.LBB33_31
# %bb.22:                               # %then.4.i.i
                                        #   in Loop: Header=BB33_6 Depth=2
	movd	(%r13), %xmm0                   # xmm0 = mem[0],zero,zero,zero
	movd	-4(%r13,%r15), %xmm1            # xmm1 = mem[0],zero,zero,zero
	punpckldq	%xmm1, %xmm0            # xmm0 = xmm0[0],xmm1[0],xmm0[1],xmm1[1]
	pshufd	$68, %xmm0, %xmm0               # xmm0 = xmm0[0,1,0,1]
	pmovmskb	%xmm0, %eax
	testl	%eax, %eax
	jne	.LBB33_32
	jmp	.LBB33_40
.LBB33_23:                              #   in Loop: Header=BB33_6 Depth=2
	xorl	%ecx, %ecx
	movq	%r15, %rdx
	subq	%rcx, %rdx
	cmpq	$16, %rdx
	jb	.LBB33_27
.LBB33_24:                              # %join.5.i67.i.preheader
                                        #   in Loop: Header=BB33_6 Depth=2
	addq	%rdi, %rcx
	addq	48(%rsp), %rcx                  # 8-byte Folded Reload
	.p2align	4
.LBB33_25:                              # %join.5.i67.i
                                        #   Parent Loop BB33_1 Depth=1
                                        #     Parent Loop BB33_6 Depth=2
                                        # =>    This Inner Loop Header: Depth=3
	movdqu	(%rcx), %xmm0
	pmovmskb	%xmm0, %r8d
	testl	%r8d, %r8d
	jne	.LBB33_28
# %bb.26:                               # %loop.2.i62.i
                                        #   in Loop: Header=BB33_25 Depth=3
	addq	$16, %rcx
	addq	$-16, %rdx
	cmpq	$16, %rdx
	jae	.LBB33_25
.LBB33_27:                              # %after.1.i.i
                                        #   in Loop: Header=BB33_6 Depth=2
	movdqu	-16(%r13,%r15), %xmm0
	pmovmskb	%xmm0, %ecx
	testl	%ecx, %ecx
	je	.LBB33_33
.LBB33_28:                              # %after.10.i
                                        #   in Loop: Header=BB33_6 Depth=2
	cmpq	$31, %rax
	jbe	.LBB33_32
# %bb.29:                               # %join.21.i
                                        #   in Loop: Header=BB33_6 Depth=2
	cmpq	$128, %rax
	jae	.LBB33_2
	jmp	.LBB33_3
.LBB33_31:                              # %utf_lanes_ascii_texts_is_ascii_exit_i_153
                                        #   in Loop: Header=BB33_6 Depth=2
	movq	-8(%r13,%r15), %xmm0            # xmm0 = mem[0],zero
	movq	(%r13), %xmm1                   # xmm1 = mem[0],zero
	punpcklqdq	%xmm0, %xmm1            # xmm1 = xmm1[0],xmm0[0]
	pmovmskb	%xmm1, %ecx
	testl	%ecx, %ecx
	je	.LBB33_33
.LBB33_32:                              # %then.19.i
                                        #   in Loop: Header=BB33_6 Depth=2
	movq	%r13, %rcx
	movq	%r15, %rdx
	movq	%r14, %r8
	callq	recoding_kernels_put_few_f0e6fcfecd579859_203
	movq	%rax, %r15
	jmp	.LBB33_5
.LBB33_33:                              # %then.14.i
                                        #   in Loop: Header=BB33_6 Depth=2
	cmpq	$16, %rax
	jb	.LBB33_40
# %bb.34:                               # %join.5.i10.preheader
                                        #   in Loop: Header=BB33_6 Depth=2
	xorl	%esi, %esi
	movq	%r15, %r12
	.p2align	4
.LBB33_35:                              # %join.5.i10
                                        #   Parent Loop BB33_1 Depth=1
                                        #     Parent Loop BB33_6 Depth=2
                                        # =>    This Inner Loop Header: Depth=3
	movdqu	(%r13,%rsi), %xmm6
	movq	8(%r14), %rcx
	movq	16(%r14), %rax
	movq	%rax, %rdx
	subq	%rcx, %rdx
	cmpq	$31, %rdx
	jbe	.LBB33_38
.LBB33_36:                              # %join.3.i174
                                        #   in Loop: Header=BB33_35 Depth=3
	pxor	%xmm0, %xmm0
	pxor	%xmm1, %xmm1
	punpcklbw	%xmm6, %xmm1            # xmm1 = xmm1[0],xmm6[0],xmm1[1],xmm6[1],xmm1[2],xmm6[2],xmm1[3],xmm6[3],xmm1[4],xmm6[4],xmm1[5],xmm6[5],xmm1[6],xmm6[6],xmm1[7],xmm6[7]
	punpckhbw	%xmm6, %xmm0            # xmm0 = xmm0[8],xmm6[8],xmm0[9],xmm6[9],xmm0[10],xmm6[10],xmm0[11],xmm6[11],xmm0[12],xmm6[12],xmm0[13],xmm6[13],xmm0[14],xmm6[14],xmm0[15],xmm6[15]
	leaq	32(%rcx), %rdx
	movq	(%r14), %r8
	movdqu	%xmm1, (%r8,%rcx)
	movdqu	%xmm0, 16(%r8,%rcx)
	movq	%r8, (%r14)
	movq	%rdx, 8(%r14)
	movq	%rax, 16(%r14)
.LBB33_37:                              # %std_alloc_vec_Vec_extend_from_slice_0cd040e5c49bc722_exit_129
                                        #   in Loop: Header=BB33_35 Depth=3
	addq	$16, %rsi
	addq	$-16, %r12
	cmpq	$15, %r12
	ja	.LBB33_35
	jmp	.LBB33_41
.LBB33_38:                              # %std_alloc_vec_Vec_grow_5fdc5e19576447a7_exit_i_76
                                        #   in Loop: Header=BB33_35 Depth=3
	movl	$32, %edx
	movq	%r14, %rcx
	callq	std_alloc_vec_Vec_grow_amortized_5fdc5e19576447a7_3
	testb	%al, %al
	je	.LBB33_37
# %bb.39:                               # %std_alloc_vec_Vec_grow_5fdc5e19576447a7_exit_join_3_crit_edge_i_115
                                        #   in Loop: Header=BB33_35 Depth=3
	movq	8(%r14), %rcx
	movq	16(%r14), %rax
	jmp	.LBB33_36
.LBB33_40:                              #   in Loop: Header=BB33_6 Depth=2
	xorl	%esi, %esi
	movq	%r15, %r12
.LBB33_41:                              # %recoding_ascii_to_utf16_put_lanes_f0e6fcfecd579859_exit_204
                                        #   in Loop: Header=BB33_6 Depth=2
	testq	%r12, %r12
	je	.LBB33_5
# %bb.42:                               # %join.5.i34.preheader
                                        #   in Loop: Header=BB33_6 Depth=2
	movq	8(%r14), %rax
	cmpq	$1, %r12
	jne	.LBB33_44
# %bb.43:                               #   in Loop: Header=BB33_6 Depth=2
	xorl	%ecx, %ecx
	jmp	.LBB33_47
.LBB33_44:                              # %join.5.i34.preheader.new
                                        #   in Loop: Header=BB33_6 Depth=2
	movl	%r12d, %edx
	andl	$16382, %edx                    # imm = 0x3FFE
	leaq	(%rsi,%rdi), %r8
	addq	104(%rsp), %r8                  # 8-byte Folded Reload
	xorl	%ecx, %ecx
	.p2align	4
.LBB33_45:                              # %join.5.i34
                                        #   Parent Loop BB33_1 Depth=1
                                        #     Parent Loop BB33_6 Depth=2
                                        # =>    This Inner Loop Header: Depth=3
	movzbl	-1(%r8,%rcx), %r9d
	movq	(%r14), %r10
	movb	$0, (%r10,%rax)
	movq	(%r14), %r10
	movb	%r9b, 1(%r10,%rax)
	leaq	2(%rax), %r9
	movq	%r9, 8(%r14)
	movzbl	(%r8,%rcx), %r9d
	movq	(%r14), %r10
	movb	$0, 2(%r10,%rax)
	movq	(%r14), %r10
	movb	%r9b, 3(%r10,%rax)
	addq	$4, %rax
	movq	%rax, 8(%r14)
	addq	$2, %rcx
	cmpq	%rcx, %rdx
	jne	.LBB33_45
# %bb.46:                               # %recoding_kernels_WidenedKernelUtf8Utf16_put_text_adf464b980d50768_exit_loopexit_unr_lcssa_205
                                        #   in Loop: Header=BB33_6 Depth=2
	testb	$1, %r12b
	je	.LBB33_5
.LBB33_47:                              # %join.5.i34.epil.preheader
                                        #   in Loop: Header=BB33_6 Depth=2
	addq	%rsi, %r13
	movzbl	(%r13,%rcx), %ecx
	movq	(%r14), %rdx
	movb	$0, (%rdx,%rax)
	movq	(%r14), %rdx
	movb	%cl, 1(%rdx,%rax)
	addq	$2, %rax
	movq	%rax, 8(%r14)
	jmp	.LBB33_5
	.p2align	4
.LBB33_48:                              # %join.5.i
                                        #   in Loop: Header=BB33_1 Depth=1
	movq	%rbx, %rdx
	subq	%rdi, %rdx
	je	.LBB33_82
# %bb.49:                               # %join.8.i
                                        #   in Loop: Header=BB33_1 Depth=1
	xorl	%eax, %eax
	cmpq	$256, %r15                      # imm = 0x100
	movq	96(%rsp), %r12                  # 8-byte Reload
	cmovaeq	%rax, %r12
	movq	48(%rsp), %rax                  # 8-byte Reload
	leaq	(%rax,%rdi), %rcx
	cmpq	$3, %r12
	jb	.LBB33_52
# %bb.50:                               # %then.1.i
                                        #   in Loop: Header=BB33_1 Depth=1
	cmpq	$128, %rdx
	movq	56(%rsp), %r15                  # 8-byte Reload
	jb	.LBB33_56
# %bb.51:                               # %join.9.i
                                        #   in Loop: Header=BB33_1 Depth=1
	movq	%r14, %r8
	callq	recoding_kernels_widen_damaged_14d81c390063096d_206
	addq	%rax, %rdi
	addq	%rdx, %r15
	testq	%rax, %rax
	jne	.LBB33_1
	jmp	.LBB33_56
	.p2align	4
.LBB33_52:                              # %join.3.i
                                        #   in Loop: Header=BB33_1 Depth=1
	cmpq	$67, %rdx
	movq	56(%rsp), %r15                  # 8-byte Reload
	jb	.LBB33_56
# %bb.53:                               # %then.1.i.i121
                                        #   in Loop: Header=BB33_1 Depth=1
	cmpb	$0, (%rcx)
	jns	.LBB33_55
# %bb.54:                               # %recoding_kernels_may_be_plain_exit_i_158
                                        #   in Loop: Header=BB33_1 Depth=1
	cmpb	$0, 1(%rcx)
	js	.LBB33_56
.LBB33_55:                              # %arm.5.i117
                                        #   in Loop: Header=BB33_1 Depth=1
	movq	%r14, %r8
	callq	recoding_kernels_widen_plain_d2e6c14c333cca8a_207
	addq	%rax, %rdi
	addq	%rdx, %r15
	testq	%rax, %rax
	jne	.LBB33_1
	.p2align	4
.LBB33_56:                              # %join.14.i
                                        #   in Loop: Header=BB33_1 Depth=1
	movq	%rbx, %rax
	subq	%rdi, %rax
	cmpq	$128, %rax
	movl	$128, %ecx
	cmovbq	%rax, %rcx
	cmpq	$4, %rax
	jb	.LBB33_77
# %bb.57:                               # %join.3.i.i.i.preheader
                                        #   in Loop: Header=BB33_1 Depth=1
	movq	48(%rsp), %rax                  # 8-byte Reload
	leaq	(%rax,%rdi), %r8
	xorl	%eax, %eax
	.p2align	4
.LBB33_58:                              # %join.3.i.i.i
                                        #   Parent Loop BB33_1 Depth=1
                                        # =>  This Inner Loop Header: Depth=2
	movzbl	(%r8,%rax), %edx
	testb	%dl, %dl
	js	.LBB33_60
# %bb.59:                               # %arm.7.i141.thread
                                        #   in Loop: Header=BB33_58 Depth=2
	movl	$1, %r9d
	jmp	.LBB33_70
	.p2align	4
.LBB33_60:                              # %join.6.i.i.i
                                        #   in Loop: Header=BB33_58 Depth=2
	movzbl	1(%r8,%rax), %r9d
	cmpb	$-32, %dl
	jae	.LBB33_64
# %bb.61:                               # %recoding_text_Utf8Text_next_valid_exit_i_160
                                        #   in Loop: Header=BB33_58 Depth=2
	cmpb	$-62, %dl
	jb	.LBB33_76
# %bb.62:                               # %recoding_text_Utf8Text_next_valid_exit_i_160
                                        #   in Loop: Header=BB33_58 Depth=2
	xorl	$128, %r9d
	cmpb	$63, %r9b
	ja	.LBB33_76
# %bb.63:                               # %arm.7.i141
                                        #   in Loop: Header=BB33_58 Depth=2
	shll	$6, %edx
	addl	%r9d, %edx
	addl	$-12288, %edx                   # imm = 0xD000
	movl	$2, %r9d
	jmp	.LBB33_70
.LBB33_64:                              # %join.9.i.i.i
                                        #   in Loop: Header=BB33_58 Depth=2
	cmpb	$-65, %r9b
	jg	.LBB33_76
# %bb.65:                               # %join.12.i.i.i
                                        #   in Loop: Header=BB33_58 Depth=2
	movl	%edx, %r10d
	andl	$15, %edx
	andl	$63, %r9d
	shll	$6, %edx
	orl	%r9d, %edx
	cmpb	$-17, %r10b
	ja	.LBB33_72
# %bb.66:                               # %then.13.i.i.i
                                        #   in Loop: Header=BB33_58 Depth=2
	movl	%edx, %r9d
	andl	$-32, %r9d
	cmpl	$864, %r9d                      # imm = 0x360
	je	.LBB33_76
# %bb.67:                               # %join.3.i13.i.i
                                        #   in Loop: Header=BB33_58 Depth=2
	movzbl	2(%r8,%rax), %r10d
	cmpb	$-65, %r10b
	jg	.LBB33_76
# %bb.68:                               # %join.3.i13.i.i
                                        #   in Loop: Header=BB33_58 Depth=2
	cmpl	$32, %edx
	jb	.LBB33_76
# %bb.69:                               # %arm.7.i141.thread558
                                        #   in Loop: Header=BB33_58 Depth=2
	shll	$6, %edx
	andl	$63, %r10d
	orl	%edx, %r10d
	movl	$3, %r9d
	movl	%r10d, %edx
	.p2align	4
.LBB33_70:                              # %arm.1.i.i147
                                        #   in Loop: Header=BB33_58 Depth=2
	movq	(%r14), %rbp
	movq	8(%r14), %rsi
	movb	%dh, (%rbp,%rsi)
	movq	(%r14), %r10
	movb	%dl, 1(%r10,%rsi)
	addq	$2, %rsi
.LBB33_71:                              # %recoding_text_Utf16Text_put_code_f52bd5352b4cd2db_exit_i_208
                                        #   in Loop: Header=BB33_58 Depth=2
	movq	%rsi, 8(%r14)
	addq	%r9, %rax
	movq	%rcx, %rdx
	subq	%rax, %rdx
	cmpq	$3, %rdx
	ja	.LBB33_58
	jmp	.LBB33_76
.LBB33_72:                              # %else.14.i.i.i
                                        #   in Loop: Header=BB33_58 Depth=2
	leal	-272(%rdx), %r9d
	cmpl	$-256, %r9d
	jb	.LBB33_76
# %bb.73:                               # %after.1.i.i.i
                                        #   in Loop: Header=BB33_58 Depth=2
	movzbl	2(%r8,%rax), %r9d
	cmpb	$-65, %r9b
	jg	.LBB33_76
# %bb.74:                               # %else.14.i34.i.i
                                        #   in Loop: Header=BB33_58 Depth=2
	movzbl	3(%r8,%rax), %r11d
	cmpb	$-65, %r11b
	jg	.LBB33_76
# %bb.75:                               # %arm.7.i141.thread564
                                        #   in Loop: Header=BB33_58 Depth=2
	movl	%r9d, %r10d
	andl	$63, %r10d
	andb	$63, %r11b
	shll	$12, %edx
	shll	$6, %r10d
	orl	%r10d, %edx
	movq	(%r14), %rbp
	movq	8(%r14), %rsi
	shrl	$10, %edx
	addl	$-10304, %edx                   # imm = 0xD7C0
	orb	%r11b, %r10b
	shrb	$2, %r9b
	andb	$3, %r9b
	orb	$-36, %r9b
	movb	%dh, (%rbp,%rsi)
	movq	(%r14), %r11
	movb	%dl, 1(%r11,%rsi)
	movq	(%r14), %rdx
	movb	%r9b, 2(%rdx,%rsi)
	movq	(%r14), %rdx
	movb	%r10b, 3(%rdx,%rsi)
	addq	$4, %rsi
	movl	$4, %r9d
	jmp	.LBB33_71
	.p2align	4
.LBB33_76:                              # %recoding_engine_recode_text_90b22c6900c6b509_exit_209
                                        #   in Loop: Header=BB33_1 Depth=1
	addq	%rax, %rdi
	cmpq	$124, %rax
	ja	.LBB33_1
.LBB33_77:                              # %then.15.i
                                        #   in Loop: Header=BB33_1 Depth=1
	movq	%rbx, %r8
	subq	%rdi, %r8
	je	.LBB33_83
# %bb.78:                               # %recoding_engine_recode_carefully_90b22c6900c6b509_exit_210
                                        #   in Loop: Header=BB33_1 Depth=1
	movq	48(%rsp), %rax                  # 8-byte Reload
	leaq	(%rax,%rdi), %rdx
	pxor	%xmm0, %xmm0
	movdqa	%xmm0, 64(%rsp)
	movq	$0, 80(%rsp)
	leaq	64(%rsp), %rcx
	movq	%r14, %r9
	callq	recoding_engine_recode_faults_e11ba97e6063c4ca_211
	movq	72(%rsp), %rax
	testq	%rax, %rax
	je	.LBB33_80
# %bb.79:                               # %select.false.sink
                                        #   in Loop: Header=BB33_1 Depth=1
	movq	%r12, %rcx
	incq	%rcx
	movq	$-1, %r12
	cmovneq	%rcx, %r12
.LBB33_80:                              # %select.end
                                        #   in Loop: Header=BB33_1 Depth=1
	addq	64(%rsp), %rdi
	addq	%rax, %r15
	testb	$1, 80(%rsp)
	jne	.LBB33_84
# %bb.81:                               # %select.end
                                        #   in Loop: Header=BB33_1 Depth=1
	testb	$1, 81(%rsp)
	je	.LBB33_1
	jmp	.LBB33_84
.LBB33_82:
	movq	%rbx, %rdi
	movq	56(%rsp), %r15                  # 8-byte Reload
	jmp	.LBB33_84
.LBB33_83:
	movq	%rbx, %rdi
.LBB33_84:                              # %recoding_engine_run_6445eb3cfe90c988_exit_212
	movq	%rdi, %rax
	movq	%r15, %rdx
	movaps	256(%rsp), %xmm6                # 16-byte Reload
	movaps	272(%rsp), %xmm7                # 16-byte Reload
	movaps	288(%rsp), %xmm8                # 16-byte Reload
	movaps	304(%rsp), %xmm9                # 16-byte Reload
	addq	$328, %rsp                      # imm = 0x148
	popq	%rbx
	popq	%rbp
	popq	%rdi
	popq	%rsi
	popq	%r12
	popq	%r13
	popq	%r14
	popq	%r15
	retq
	.seh_endproc
                                        # -- End function
	.def	recoding_kernels_put_few_f0e6fcfecd579859_203;
	.scl	3;
	.type	32;
	.endef
	.section .rdata$n0,"dr"
	.p2align	4, 0x0                          # -- Begin function recoding::kernels::put_few::<#f0e6fcfecd579859>
.LCPI34_0:
	.zero	16,240
.LCPI34_1:
	.zero	16,127
.LCPI34_2:
	.zero	16,192
.LCPI34_3:
	.zero	16,224
.LCPI34_4:
	.zero	16,15
.LCPI34_5:
	.zero	16,32
.LCPI34_6:
	.zero	16,191
.LCPI34_7:
	.byte	2                               # 0x2
	.byte	2                               # 0x2
	.byte	2                               # 0x2
	.byte	2                               # 0x2
	.byte	2                               # 0x2
	.byte	2                               # 0x2
	.byte	2                               # 0x2
	.byte	2                               # 0x2
	.byte	128                             # 0x80
	.byte	128                             # 0x80
	.byte	128                             # 0x80
	.byte	128                             # 0x80
	.byte	5                               # 0x5
	.byte	1                               # 0x1
	.byte	25                              # 0x19
	.byte	97                              # 0x61
.LCPI34_8:
	.byte	207                             # 0xcf
	.byte	135                             # 0x87
	.byte	131                             # 0x83
	.byte	131                             # 0x83
	.byte	163                             # 0xa3
	.byte	227                             # 0xe3
	.byte	227                             # 0xe3
	.byte	227                             # 0xe3
	.byte	227                             # 0xe3
	.byte	227                             # 0xe3
	.byte	227                             # 0xe3
	.byte	227                             # 0xe3
	.byte	227                             # 0xe3
	.byte	243                             # 0xf3
	.byte	227                             # 0xe3
	.byte	227                             # 0xe3
.LCPI34_9:
	.byte	1                               # 0x1
	.byte	1                               # 0x1
	.byte	1                               # 0x1
	.byte	1                               # 0x1
	.byte	1                               # 0x1
	.byte	1                               # 0x1
	.byte	1                               # 0x1
	.byte	1                               # 0x1
	.byte	206                             # 0xce
	.byte	174                             # 0xae
	.byte	182                             # 0xb6
	.byte	182                             # 0xb6
	.byte	1                               # 0x1
	.byte	1                               # 0x1
	.byte	1                               # 0x1
	.byte	1                               # 0x1
.LCPI34_10:
	.zero	16,96
.LCPI34_11:
	.zero	16,112
.LCPI34_12:
	.zero	16,128
.LCPI34_13:
	.byte	224                             # 0xe0
	.byte	192                             # 0xc0
	.zero	1
	.zero	1
	.zero	1
	.zero	1
	.zero	1
	.zero	1
	.zero	1
	.zero	1
	.zero	1
	.zero	1
	.zero	1
	.zero	1
	.zero	1
	.zero	1
.LCPI34_14:
	.byte	224                             # 0xe0
	.byte	192                             # 0xc0
	.byte	0                               # 0x0
	.byte	0                               # 0x0
	.byte	0                               # 0x0
	.byte	0                               # 0x0
	.byte	0                               # 0x0
	.byte	0                               # 0x0
	.byte	0                               # 0x0
	.byte	0                               # 0x0
	.byte	0                               # 0x0
	.byte	0                               # 0x0
	.byte	0                               # 0x0
	.byte	0                               # 0x0
	.byte	0                               # 0x0
	.byte	0                               # 0x0
	.section .text$n38,"xr"
	.p2align	4
recoding_kernels_put_few_f0e6fcfecd579859_203: # @recoding_kernels_put_few_f0e6fcfecd579859_203
.seh_proc recoding_kernels_put_few_f0e6fcfecd579859_203
# %bb.0:                                # %start
	pushq	%r15
	.seh_pushreg %r15
	pushq	%r14
	.seh_pushreg %r14
	pushq	%r13
	.seh_pushreg %r13
	pushq	%r12
	.seh_pushreg %r12
	pushq	%rsi
	.seh_pushreg %rsi
	pushq	%rdi
	.seh_pushreg %rdi
	pushq	%rbx
	.seh_pushreg %rbx
	subq	$512, %rsp                      # imm = 0x200
	.seh_stackalloc 512
	movdqa	%xmm10, 496(%rsp)               # 16-byte Spill
	.seh_savexmm %xmm10, 496
	movdqa	%xmm9, 480(%rsp)                # 16-byte Spill
	.seh_savexmm %xmm9, 480
	movdqa	%xmm8, 464(%rsp)                # 16-byte Spill
	.seh_savexmm %xmm8, 464
	movdqa	%xmm7, 448(%rsp)                # 16-byte Spill
	.seh_savexmm %xmm7, 448
	movdqa	%xmm6, 432(%rsp)                # 16-byte Spill
	.seh_savexmm %xmm6, 432
	.seh_endprologue
	movq	%r8, %rsi
	movq	%rcx, %rbx
	cmpq	$19, %rdx
	jae	.LBB34_3
# %bb.1:                                # %then.1
	cmpq	$16, %rdx
	movl	$16, %r14d
	cmovbq	%rdx, %r14
	cmpq	$4, %rdx
	jb	.LBB34_2
# %bb.5:                                # %join.6.i.i
	movq	%r14, %rax
	shlq	$4, %rax
	leaq	static.10(%rip), %rcx
	movdqu	-64(%rax,%rcx), %xmm0
	cmpq	$7, %rdx
	ja	.LBB34_9
# %bb.6:                                # %then.1.i8.i
	movd	(%rbx), %xmm1                   # xmm1 = mem[0],zero,zero,zero
	movl	-4(%rbx,%r14), %eax
	movd	%eax, %xmm2
	shrl	$8, %eax
	movdqa	%xmm1, %xmm3
	punpckldq	%xmm2, %xmm3            # xmm3 = xmm3[0],xmm2[0],xmm3[1],xmm2[1]
	pshufd	$68, %xmm3, %xmm4               # xmm4 = xmm3[0,1,0,1]
	pshufb	%xmm0, %xmm4
	movdqa	%xmm2, %xmm3
	psrld	$16, %xmm3
	jmp	.LBB34_10
.LBB34_3:                               # %join.3
	movq	%rbx, %rcx
	callq	utf_lanes_text_blocks_text_len_110
	cmpq	$19, %rax
	jb	.LBB34_2
# %bb.7:                                # %join.6
	movq	%rax, %rdi
	pxor	%xmm0, %xmm0
	movdqa	%xmm0, 160(%rsp)
	movdqa	%xmm0, 144(%rsp)
	movdqa	%xmm0, 128(%rsp)
	movdqa	%xmm0, 112(%rsp)
	movdqa	%xmm0, 96(%rsp)
	movdqu	(%rbx), %xmm7
	movdqa	%xmm7, %xmm6
	pslldq	$1, %xmm6                       # xmm6 = zero,xmm6[0,1,2,3,4,5,6,7,8,9,10,11,12,13,14]
	movdqa	%xmm7, %xmm1
	pslldq	$2, %xmm1                       # xmm1 = zero,zero,xmm1[0,1,2,3,4,5,6,7,8,9,10,11,12,13]
	movdqa	%xmm7, %xmm2
	pslldq	$3, %xmm2                       # xmm2 = zero,zero,zero,xmm2[0,1,2,3,4,5,6,7,8,9,10,11,12]
	movdqa	%xmm1, %xmm3
	pmaxub	%xmm2, %xmm3
	movdqa	.LCPI34_0(%rip), %xmm4          # xmm4 = [240,240,240,240,240,240,240,240,240,240,240,240,240,240,240,240]
	pmaxub	%xmm3, %xmm4
	pcmpeqb	%xmm3, %xmm4
	pmovmskb	%xmm4, %eax
	testl	%eax, %eax
	je	.LBB34_12
# %bb.8:                                # %else.2.i.i.i
	movdqa	%xmm1, 400(%rsp)
	movdqa	%xmm2, 416(%rsp)
	movdqa	%xmm6, 384(%rsp)
	movdqa	%xmm7, 368(%rsp)
	leaq	368(%rsp), %rax
	movq	%rax, 32(%rsp)
	leaq	48(%rsp), %rcx
	leaq	416(%rsp), %rdx
	leaq	400(%rsp), %r8
	leaq	384(%rsp), %r9
	callq	utf_lanes_text_units_long_halves_166
	movdqa	48(%rsp), %xmm2
	movdqa	64(%rsp), %xmm0
	jmp	.LBB34_13
.LBB34_9:                               # %join.3.i7.i
	movq	(%rbx), %rcx
	movq	%rcx, %xmm4
	movq	-8(%rbx,%r14), %r8
	movq	%r8, %xmm3
	movq	%r8, %rax
	shrq	$40, %rax
	pinsrq	$1, %r8, %xmm4
	pshufb	%xmm0, %xmm4
	movd	%ecx, %xmm1
	shrq	$32, %r8
	movd	%r8d, %xmm2
	psrlq	$48, %xmm3
.LBB34_10:                              # %utf_lanes_few_bytes_padded_text_exit_i_167
	movdqa	%xmm4, %xmm7
	pslldq	$1, %xmm7                       # xmm7 = zero,xmm7[0,1,2,3,4,5,6,7,8,9,10,11,12,13,14]
	movdqa	%xmm4, %xmm6
	pslldq	$2, %xmm6                       # xmm6 = zero,zero,xmm6[0,1,2,3,4,5,6,7,8,9,10,11,12,13]
	movdqa	%xmm4, %xmm5
	pslldq	$3, %xmm5                       # xmm5 = zero,zero,zero,xmm5[0,1,2,3,4,5,6,7,8,9,10,11,12]
	movdqa	%xmm7, %xmm8
	psrlw	$4, %xmm8
	movdqa	.LCPI34_4(%rip), %xmm9          # xmm9 = [15,15,15,15,15,15,15,15,15,15,15,15,15,15,15,15]
	pand	%xmm9, %xmm8
	movdqa	.LCPI34_7(%rip), %xmm10         # xmm10 = [2,2,2,2,2,2,2,2,128,128,128,128,5,1,25,97]
	pshufb	%xmm8, %xmm10
	pand	%xmm9, %xmm7
	movdqa	.LCPI34_8(%rip), %xmm8          # xmm8 = [207,135,131,131,163,227,227,227,227,227,227,227,227,243,227,227]
	pshufb	%xmm7, %xmm8
	psrlw	$4, %xmm4
	pand	%xmm9, %xmm4
	movdqa	.LCPI34_9(%rip), %xmm7          # xmm7 = [1,1,1,1,1,1,1,1,206,174,182,182,1,1,1,1]
	pshufb	%xmm4, %xmm7
	psubusb	.LCPI34_10(%rip), %xmm6
	psubusb	.LCPI34_11(%rip), %xmm5
	pand	%xmm8, %xmm7
	por	%xmm6, %xmm5
	pand	.LCPI34_12(%rip), %xmm5
	pand	%xmm10, %xmm7
	pxor	%xmm7, %xmm5
	ptest	%xmm5, %xmm5
	je	.LBB34_22
.LBB34_2:
	xorl	%edi, %edi
	jmp	.LBB34_30
.LBB34_12:                              # %then.1.i.i.i
	pcmpgtb	%xmm7, %xmm0
	pand	%xmm6, %xmm0
	movdqa	.LCPI34_1(%rip), %xmm3          # xmm3 = [127,127,127,127,127,127,127,127,127,127,127,127,127,127,127,127]
	pand	%xmm7, %xmm3
	movdqa	%xmm0, %xmm2
	psllw	$6, %xmm2
	pand	.LCPI34_2(%rip), %xmm2
	psubusb	.LCPI34_3(%rip), %xmm1
	paddb	%xmm3, %xmm2
	psllw	$4, %xmm1
	pand	.LCPI34_0(%rip), %xmm1
	psrlw	$2, %xmm0
	pand	.LCPI34_4(%rip), %xmm0
	por	%xmm1, %xmm0
.LBB34_13:                              # %utf_lanes_text_puts_write_first_22d4087b0bf99cde_exit_213
	psubusb	.LCPI34_5(%rip), %xmm6
	pmaxub	%xmm7, %xmm6
	movdqa	.LCPI34_6(%rip), %xmm1          # xmm1 = [191,191,191,191,191,191,191,191,191,191,191,191,191,191,191,191]
	pminub	%xmm6, %xmm1
	pcmpeqb	%xmm6, %xmm1
	pmovmskb	%xmm1, %eax
	movdqa	%xmm0, %xmm1
	punpckhbw	%xmm2, %xmm1            # xmm1 = xmm1[8],xmm2[8],xmm1[9],xmm2[9],xmm1[10],xmm2[10],xmm1[11],xmm2[11],xmm1[12],xmm2[12],xmm1[13],xmm2[13],xmm1[14],xmm2[14],xmm1[15],xmm2[15]
	punpcklbw	%xmm2, %xmm0            # xmm0 = xmm0[0],xmm2[0],xmm0[1],xmm2[1],xmm0[2],xmm2[2],xmm0[3],xmm2[3],xmm0[4],xmm2[4],xmm0[5],xmm2[5],xmm0[6],xmm2[6],xmm0[7],xmm2[7]
	movzbl	%al, %ecx
	xorl	%edx, %edx
	popcntl	%ecx, %edx
	shll	$4, %ecx
	leaq	static.17(%rip), %r12
	movdqu	(%rcx,%r12), %xmm2
	pshufb	%xmm2, %xmm0
	shrl	$8, %eax
	popcntl	%eax, %r14d
	shll	$4, %eax
	movdqu	(%rax,%r12), %xmm2
	pshufb	%xmm2, %xmm1
	movdqa	%xmm0, 80(%rsp)
	movdqu	%xmm1, 80(%rsp,%rdx,2)
	addl	%edx, %r14d
	addl	%r14d, %r14d
	movl	$16, %r15d
	cmpq	$32, %rdi
	jae	.LBB34_17
.LBB34_14:                              # %after.1.i262
	cmpq	%rdi, %r15
	jae	.LBB34_28
# %bb.15:                               # %then.6.i
	movq	%rdi, %rax
	addq	$-16, %rax
	subq	%rax, %r15
	movdqu	-19(%rbx,%rdi), %xmm0
	movdqu	-18(%rbx,%rdi), %xmm2
	movdqu	-17(%rbx,%rdi), %xmm6
	movdqu	-16(%rbx,%rdi), %xmm7
	movdqa	%xmm2, %xmm1
	pmaxub	%xmm0, %xmm1
	movdqa	.LCPI34_0(%rip), %xmm3          # xmm3 = [240,240,240,240,240,240,240,240,240,240,240,240,240,240,240,240]
	pmaxub	%xmm1, %xmm3
	pcmpeqb	%xmm1, %xmm3
	pmovmskb	%xmm3, %eax
	testl	%eax, %eax
	je	.LBB34_26
# %bb.16:                               # %else.2.i.i.i523
	movdqa	%xmm2, 272(%rsp)
	movdqa	%xmm0, 288(%rsp)
	movdqa	%xmm6, 256(%rsp)
	movdqa	%xmm7, 240(%rsp)
	leaq	240(%rsp), %rax
	movq	%rax, 32(%rsp)
	leaq	48(%rsp), %rcx
	leaq	288(%rsp), %rdx
	leaq	272(%rsp), %r8
	leaq	256(%rsp), %r9
	callq	utf_lanes_text_units_long_halves_166
	movdqa	48(%rsp), %xmm1
	movdqa	64(%rsp), %xmm0
	jmp	.LBB34_27
.LBB34_17:                              # %join.5.i.lr.ph
	leaq	-16(%rdi), %r13
	jmp	.LBB34_20
	.p2align	4
.LBB34_18:                              # %else.2.i.i.i780
                                        #   in Loop: Header=BB34_20 Depth=1
	movdqa	%xmm1, 336(%rsp)
	movdqa	%xmm0, 352(%rsp)
	movdqa	%xmm6, 320(%rsp)
	movdqa	%xmm7, 304(%rsp)
	leaq	304(%rsp), %rax
	movq	%rax, 32(%rsp)
	leaq	48(%rsp), %rcx
	leaq	352(%rsp), %rdx
	leaq	336(%rsp), %r8
	leaq	320(%rsp), %r9
	callq	utf_lanes_text_units_long_halves_166
	movdqa	48(%rsp), %xmm2
	movdqa	64(%rsp), %xmm0
.LBB34_19:                              # %utf_lanes_text_units_block_units_22d4087b0bf99cde_exit989_214
                                        #   in Loop: Header=BB34_20 Depth=1
	psubusb	.LCPI34_5(%rip), %xmm6
	pmaxub	%xmm7, %xmm6
	movdqa	.LCPI34_6(%rip), %xmm1          # xmm1 = [191,191,191,191,191,191,191,191,191,191,191,191,191,191,191,191]
	pminub	%xmm6, %xmm1
	pcmpeqb	%xmm6, %xmm1
	pmovmskb	%xmm1, %eax
	movdqa	%xmm0, %xmm1
	punpckhbw	%xmm2, %xmm1            # xmm1 = xmm1[8],xmm2[8],xmm1[9],xmm2[9],xmm1[10],xmm2[10],xmm1[11],xmm2[11],xmm1[12],xmm2[12],xmm1[13],xmm2[13],xmm1[14],xmm2[14],xmm1[15],xmm2[15]
	punpcklbw	%xmm2, %xmm0            # xmm0 = xmm0[0],xmm2[0],xmm0[1],xmm2[1],xmm0[2],xmm2[2],xmm0[3],xmm2[3],xmm0[4],xmm2[4],xmm0[5],xmm2[5],xmm0[6],xmm2[6],xmm0[7],xmm2[7]
	movzbl	%al, %ecx
	xorl	%edx, %edx
	popcntl	%ecx, %edx
	shll	$4, %ecx
	movdqu	(%rcx,%r12), %xmm2
	pshufb	%xmm2, %xmm0
	shrl	$8, %eax
	xorl	%ecx, %ecx
	popcntl	%eax, %ecx
	shll	$4, %eax
	movdqu	(%rax,%r12), %xmm2
	pshufb	%xmm2, %xmm1
	leaq	(%rsp,%r14), %rax
	addq	$80, %rax
	movdqu	%xmm0, 80(%rsp,%r14)
	movdqu	%xmm1, (%rax,%rdx,2)
	addl	%edx, %ecx
	leaq	(%r14,%rcx,2), %r14
	addq	$16, %r15
	addq	$-16, %r13
	cmpq	$15, %r13
	jbe	.LBB34_14
.LBB34_20:                              # %join.5.i
                                        # =>This Inner Loop Header: Depth=1
	movdqu	-3(%rbx,%r15), %xmm0
	movdqu	-2(%rbx,%r15), %xmm1
	movdqu	-1(%rbx,%r15), %xmm6
	movdqu	(%rbx,%r15), %xmm7
	movdqa	%xmm1, %xmm2
	pmaxub	%xmm0, %xmm2
	movdqa	.LCPI34_0(%rip), %xmm3          # xmm3 = [240,240,240,240,240,240,240,240,240,240,240,240,240,240,240,240]
	pmaxub	%xmm2, %xmm3
	pcmpeqb	%xmm2, %xmm3
	pmovmskb	%xmm3, %eax
	testl	%eax, %eax
	jne	.LBB34_18
# %bb.21:                               # %then.1.i.i.i974
                                        #   in Loop: Header=BB34_20 Depth=1
	pxor	%xmm0, %xmm0
	pcmpgtb	%xmm7, %xmm0
	pand	%xmm6, %xmm0
	movdqa	.LCPI34_1(%rip), %xmm3          # xmm3 = [127,127,127,127,127,127,127,127,127,127,127,127,127,127,127,127]
	pand	%xmm7, %xmm3
	movdqa	%xmm0, %xmm2
	psllw	$6, %xmm2
	pand	.LCPI34_2(%rip), %xmm2
	psubusb	.LCPI34_3(%rip), %xmm1
	paddb	%xmm3, %xmm2
	psllw	$4, %xmm1
	pand	.LCPI34_0(%rip), %xmm1
	psrlw	$2, %xmm0
	pand	.LCPI34_4(%rip), %xmm0
	por	%xmm1, %xmm0
	jmp	.LBB34_19
.LBB34_22:                              # %then.7.i.i
	movd	.LCPI34_14(%rip), %xmm4         # xmm4 = [224,192,0,0,0,0,0,0,0,0,0,0,0,0,0,0]
	pmaxub	%xmm3, %xmm4
	pcmpeqb	%xmm3, %xmm4
	pcmpeqd	%xmm3, %xmm3
	pxor	%xmm4, %xmm3
	pmovsxbq	%xmm3, %xmm3
	movmskpd	%xmm3, %ecx
	xorl	%edi, %edi
	cmpl	$3, %ecx
	jne	.LBB34_30
# %bb.23:                               # %then.7.i.i
	cmpb	$-17, %al
	ja	.LBB34_30
# %bb.24:                               # %after.1.i
	movl	$16, %edi
	xorpd	%xmm3, %xmm3
	movapd	%xmm3, 64(%rsp)
	cmpq	$7, %rdx
	ja	.LBB34_31
# %bb.25:                               # %then.1.i.i
	punpckldq	%xmm2, %xmm1            # xmm1 = xmm1[0],xmm2[0],xmm1[1],xmm2[1]
	pshufd	$68, %xmm1, %xmm6               # xmm6 = xmm1[0,1,0,1]
	jmp	.LBB34_32
.LBB34_26:                              # %then.1.i.i.i713
	pxor	%xmm0, %xmm0
	pcmpgtb	%xmm7, %xmm0
	pand	%xmm6, %xmm0
	movdqa	.LCPI34_1(%rip), %xmm3          # xmm3 = [127,127,127,127,127,127,127,127,127,127,127,127,127,127,127,127]
	pand	%xmm7, %xmm3
	movdqa	%xmm0, %xmm1
	psllw	$6, %xmm1
	pand	.LCPI34_2(%rip), %xmm1
	psubusb	.LCPI34_3(%rip), %xmm2
	paddb	%xmm3, %xmm1
	psllw	$4, %xmm2
	pand	.LCPI34_0(%rip), %xmm2
	psrlw	$2, %xmm0
	pand	.LCPI34_4(%rip), %xmm0
	por	%xmm2, %xmm0
.LBB34_27:                              # %utf_lanes_text_units_block_units_22d4087b0bf99cde_exit_215
	psubusb	.LCPI34_5(%rip), %xmm6
	pmaxub	%xmm7, %xmm6
	movdqa	.LCPI34_6(%rip), %xmm2          # xmm2 = [191,191,191,191,191,191,191,191,191,191,191,191,191,191,191,191]
	pminub	%xmm6, %xmm2
	pcmpeqb	%xmm6, %xmm2
	movq	$-1, %rax
	movl	%r15d, %ecx
	shlq	%cl, %rax
	pmovmskb	%xmm2, %ecx
	andl	%ecx, %eax
	movdqa	%xmm0, %xmm2
	punpckhbw	%xmm1, %xmm2            # xmm2 = xmm2[8],xmm1[8],xmm2[9],xmm1[9],xmm2[10],xmm1[10],xmm2[11],xmm1[11],xmm2[12],xmm1[12],xmm2[13],xmm1[13],xmm2[14],xmm1[14],xmm2[15],xmm1[15]
	punpcklbw	%xmm1, %xmm0            # xmm0 = xmm0[0],xmm1[0],xmm0[1],xmm1[1],xmm0[2],xmm1[2],xmm0[3],xmm1[3],xmm0[4],xmm1[4],xmm0[5],xmm1[5],xmm0[6],xmm1[6],xmm0[7],xmm1[7]
	movzbl	%al, %ecx
	xorl	%edx, %edx
	popcntl	%ecx, %edx
	shll	$4, %ecx
	movdqu	(%rcx,%r12), %xmm1
	pshufb	%xmm1, %xmm0
	shrl	$8, %eax
	xorl	%ecx, %ecx
	popcntl	%eax, %ecx
	shll	$4, %eax
	movdqu	(%rax,%r12), %xmm1
	pshufb	%xmm1, %xmm2
	leaq	(%rsp,%r14), %rax
	addq	$80, %rax
	movdqu	%xmm0, 80(%rsp,%r14)
	movdqu	%xmm2, (%rax,%rdx,2)
	addl	%edx, %ecx
	leaq	(%r14,%rcx,2), %r14
.LBB34_28:                              # %utf_lanes_text_puts_write_rest_22d4087b0bf99cde_exit_216
	movq	8(%rsi), %rbx
	movq	16(%rsi), %r15
	movq	%r15, %rax
	subq	%rbx, %rax
	cmpq	%rax, %r14
	ja	.LBB34_38
.LBB34_29:                              # %join.3.i1006
	movq	(%rsi), %r12
	leaq	(%r12,%rbx), %rcx
	addq	%r14, %rbx
	leaq	80(%rsp), %rdx
	movq	%r14, %r8
	callq	memcpy
	movq	%r12, (%rsi)
	movq	%rbx, 8(%rsi)
	movq	%r15, 16(%rsi)
.LBB34_30:                              # %common.ret
	movq	%rdi, %rax
	movaps	432(%rsp), %xmm6                # 16-byte Reload
	movaps	448(%rsp), %xmm7                # 16-byte Reload
	movaps	464(%rsp), %xmm8                # 16-byte Reload
	movaps	480(%rsp), %xmm9                # 16-byte Reload
	movaps	496(%rsp), %xmm10               # 16-byte Reload
	addq	$512, %rsp                      # imm = 0x200
	popq	%rbx
	popq	%rdi
	popq	%rsi
	popq	%r12
	popq	%r13
	popq	%r14
	popq	%r15
	retq
.LBB34_31:                              # %join.3.i.i
	movq	-8(%rbx,%r14), %xmm1            # xmm1 = mem[0],zero
	movq	(%rbx), %xmm6                   # xmm6 = mem[0],zero
	punpcklqdq	%xmm1, %xmm6            # xmm6 = xmm6[0],xmm1[0]
.LBB34_32:                              # %utf_lanes_text_puts_write_few_22d4087b0bf99cde_exit_217
	pshufb	%xmm0, %xmm6
	subq	%r14, %rdi
	movdqa	%xmm6, %xmm7
	pslldq	$1, %xmm7                       # xmm7 = zero,xmm7[0,1,2,3,4,5,6,7,8,9,10,11,12,13,14]
	movdqa	%xmm6, %xmm2
	pslldq	$2, %xmm2                       # xmm2 = zero,zero,xmm2[0,1,2,3,4,5,6,7,8,9,10,11,12,13]
	movdqa	%xmm6, %xmm0
	pslldq	$3, %xmm0                       # xmm0 = zero,zero,zero,xmm0[0,1,2,3,4,5,6,7,8,9,10,11,12]
	movdqa	%xmm2, %xmm1
	pmaxub	%xmm0, %xmm1
	movdqa	.LCPI34_0(%rip), %xmm3          # xmm3 = [240,240,240,240,240,240,240,240,240,240,240,240,240,240,240,240]
	pmaxub	%xmm1, %xmm3
	pcmpeqb	%xmm1, %xmm3
	pmovmskb	%xmm3, %eax
	testl	%eax, %eax
	je	.LBB34_34
# %bb.33:                               # %else.2.i.i
	movdqa	%xmm2, 208(%rsp)
	movdqa	%xmm0, 224(%rsp)
	movdqa	%xmm7, 192(%rsp)
	movdqa	%xmm6, 176(%rsp)
	leaq	176(%rsp), %rax
	movq	%rax, 32(%rsp)
	leaq	80(%rsp), %rcx
	leaq	224(%rsp), %rdx
	leaq	208(%rsp), %r8
	leaq	192(%rsp), %r9
	callq	utf_lanes_text_units_long_halves_166
	movdqa	80(%rsp), %xmm1
	movdqa	96(%rsp), %xmm0
	jmp	.LBB34_35
.LBB34_34:                              # %then.1.i.i154
	pxor	%xmm0, %xmm0
	pcmpgtb	%xmm6, %xmm0
	pand	%xmm7, %xmm0
	movdqa	.LCPI34_1(%rip), %xmm3          # xmm3 = [127,127,127,127,127,127,127,127,127,127,127,127,127,127,127,127]
	pand	%xmm6, %xmm3
	movdqa	%xmm0, %xmm1
	psllw	$6, %xmm1
	pand	.LCPI34_2(%rip), %xmm1
	psubusb	.LCPI34_3(%rip), %xmm2
	paddb	%xmm3, %xmm1
	psllw	$4, %xmm2
	pand	.LCPI34_0(%rip), %xmm2
	psrlw	$2, %xmm0
	pand	.LCPI34_4(%rip), %xmm0
	por	%xmm2, %xmm0
.LBB34_35:                              # %utf_lanes_text_units_lane_units_22d4087b0bf99cde_exit_218
	psubusb	.LCPI34_5(%rip), %xmm7
	pmaxub	%xmm6, %xmm7
	movdqa	.LCPI34_6(%rip), %xmm2          # xmm2 = [191,191,191,191,191,191,191,191,191,191,191,191,191,191,191,191]
	pminub	%xmm7, %xmm2
	pcmpeqb	%xmm7, %xmm2
	pmovmskb	%xmm2, %eax
	movl	%edi, %ecx
	shrl	%cl, %eax
	shll	%cl, %eax
	movdqa	%xmm0, %xmm2
	punpckhbw	%xmm1, %xmm2            # xmm2 = xmm2[8],xmm1[8],xmm2[9],xmm1[9],xmm2[10],xmm1[10],xmm2[11],xmm1[11],xmm2[12],xmm1[12],xmm2[13],xmm1[13],xmm2[14],xmm1[14],xmm2[15],xmm1[15]
	punpcklbw	%xmm1, %xmm0            # xmm0 = xmm0[0],xmm1[0],xmm0[1],xmm1[1],xmm0[2],xmm1[2],xmm0[3],xmm1[3],xmm0[4],xmm1[4],xmm0[5],xmm1[5],xmm0[6],xmm1[6],xmm0[7],xmm1[7]
	movzbl	%al, %ecx
	xorl	%edx, %edx
	popcntl	%ecx, %edx
	shll	$4, %ecx
	leaq	static.17(%rip), %r9
	movdqu	(%rcx,%r9), %xmm1
	pshufb	%xmm1, %xmm0
	shrl	$8, %eax
	xorl	%r8d, %r8d
	popcntl	%eax, %r8d
	shll	$4, %eax
	movdqu	(%rax,%r9), %xmm1
	pshufb	%xmm1, %xmm2
	movdqa	%xmm0, 48(%rsp)
	movdqu	%xmm2, 48(%rsp,%rdx,2)
	addl	%edx, %r8d
	addl	%r8d, %r8d
	movq	8(%rsi), %rdi
	movq	16(%rsi), %rbx
	movq	%rbx, %rax
	subq	%rdi, %rax
	cmpq	%rax, %r8
	ja	.LBB34_40
.LBB34_36:                              # %join.3.i
	movq	(%rsi), %r15
	leaq	(%r15,%rdi), %rcx
	addq	%r8, %rdi
	leaq	48(%rsp), %rdx
	callq	memcpy
	movq	%r15, (%rsi)
	movq	%rdi, 8(%rsi)
	movq	%rbx, 16(%rsi)
.LBB34_37:                              # %std_alloc_vec_Vec_extend_from_slice_0cd040e5c49bc722_exit_129
	movq	%r14, %rdi
	jmp	.LBB34_30
.LBB34_38:                              # %std_alloc_vec_Vec_grow_5fdc5e19576447a7_exit_i1026_219
	movq	%rsi, %rcx
	movq	%r14, %rdx
	callq	std_alloc_vec_Vec_grow_amortized_5fdc5e19576447a7_3
	testb	%al, %al
	je	.LBB34_30
# %bb.39:                               # %std_alloc_vec_Vec_grow_5fdc5e19576447a7_exit_join_3_crit_edge_i1028_220
	movq	8(%rsi), %rbx
	movq	16(%rsi), %r15
	jmp	.LBB34_29
.LBB34_40:                              # %std_alloc_vec_Vec_grow_5fdc5e19576447a7_exit_i_76
	movq	%rsi, %rcx
	movq	%r8, %r15
	movq	%r8, %rdx
	callq	std_alloc_vec_Vec_grow_amortized_5fdc5e19576447a7_3
	testb	%al, %al
	je	.LBB34_37
# %bb.41:                               # %std_alloc_vec_Vec_grow_5fdc5e19576447a7_exit_join_3_crit_edge_i_115
	movq	8(%rsi), %rdi
	movq	16(%rsi), %rbx
	movq	%r15, %r8
	jmp	.LBB34_36
	.seh_endproc
                                        # -- End function
	.def	recoding_kernels_put_judged_fc185a580612e994_201;
	.scl	3;
	.type	32;
	.endef
	.section .text$n39,"xr"
	.p2align	4                               # -- Begin function recoding::kernels::put_judged::<#fc185a580612e994>
recoding_kernels_put_judged_fc185a580612e994_201: # @recoding_kernels_put_judged_fc185a580612e994_201
.seh_proc recoding_kernels_put_judged_fc185a580612e994_201
# %bb.0:                                # %start
	pushq	%rsi
	.seh_pushreg %rsi
	pushq	%rdi
	.seh_pushreg %rdi
	pushq	%rbx
	.seh_pushreg %rbx
	subq	$32, %rsp
	.seh_stackalloc 32
	.seh_endprologue
	movq	%r8, %rsi
	movq	%rcx, %rdi
	movq	16(%r8), %rax
	subq	8(%r8), %rax
	xorl	%ebx, %ebx
	subq	$32, %rax
	cmovbq	%rbx, %rax
	shrq	%rax
	cmpq	%rdx, %rax
	cmovbq	%rax, %rdx
	callq	utf_lanes_text_blocks_text_len_110
	cmpq	$18, %rax
	jbe	.LBB35_2
# %bb.1:                                # %join.3
	movq	%rdi, %rcx
	movq	%rax, %rdx
	movq	%rsi, %r8
	movq	%rax, %rbx
	callq	recoding_list_append_units_db1eb2065a50937f_221
.LBB35_2:                               # %common.ret
	movq	%rbx, %rax
	addq	$32, %rsp
	popq	%rbx
	popq	%rdi
	popq	%rsi
	retq
	.seh_endproc
                                        # -- End function
	.def	recoding_list_append_units_db1eb2065a50937f_221;
	.scl	3;
	.type	32;
	.endef
	.section .text$n40,"xr"
	.p2align	4                               # -- Begin function recoding::list::append_units::<#db1eb2065a50937f>
recoding_list_append_units_db1eb2065a50937f_221: # @recoding_list_append_units_db1eb2065a50937f_221
.seh_proc recoding_list_append_units_db1eb2065a50937f_221
# %bb.0:                                # %start
	pushq	%r15
	.seh_pushreg %r15
	pushq	%r14
	.seh_pushreg %r14
	pushq	%r13
	.seh_pushreg %r13
	pushq	%r12
	.seh_pushreg %r12
	pushq	%rsi
	.seh_pushreg %rsi
	pushq	%rdi
	.seh_pushreg %rdi
	pushq	%rbp
	.seh_pushreg %rbp
	pushq	%rbx
	.seh_pushreg %rbx
	subq	$40, %rsp
	.seh_stackalloc 40
	.seh_endprologue
	movq	%r8, %rsi
	movq	%rdx, %rbx
	movq	%rcx, %r14
	movq	8(%r8), %rdi
	leaq	32(,%rdx,2), %r15
	cmpq	$1985, %r15                     # imm = 0x7C1
	jae	.LBB36_2
# %bb.1:
	movq	%rdi, %rcx
	leaq	(%rcx,%r15), %r12
	cmpq	%rcx, %r12
	ja	.LBB36_15
.LBB36_13:                              # %then.1.i12
	jae	.LBB36_21
# %bb.14:                               # %join.3.i.i15
	movq	%r12, 8(%rsi)
	jmp	.LBB36_21
	.p2align	4
.LBB36_3:                               # %join.3.i.i
                                        #   in Loop: Header=BB36_2 Depth=1
	addq	$1984, %rcx                     # imm = 0x7C0
	movq	%rcx, 8(%rsi)
.LBB36_10:                              # %std_alloc_vec_Vec_resize_0cd040e5c49bc722_exit_177
                                        #   in Loop: Header=BB36_2 Depth=1
	addq	$-1984, %r15                    # imm = 0xF840
	cmpq	$1984, %r15                     # imm = 0x7C0
	jbe	.LBB36_11
.LBB36_2:                               # %join.5.i
                                        # =>This Inner Loop Header: Depth=1
	movq	8(%rsi), %rcx
	cmpq	$-1984, %rcx                    # imm = 0xF840
	jae	.LBB36_3
# %bb.4:                                # %join.3.i
                                        #   in Loop: Header=BB36_2 Depth=1
	movq	16(%rsi), %r12
	movq	%r12, %rax
	subq	%rcx, %rax
	cmpq	$1984, %rax                     # imm = 0x7C0
	jb	.LBB36_6
# %bb.5:                                # %join.3.i2.i.thread
                                        #   in Loop: Header=BB36_2 Depth=1
	leaq	1984(%rcx), %rbp
	movq	(%rsi), %r13
.LBB36_8:                               # %join.5.preheader.i.i.i
                                        #   in Loop: Header=BB36_2 Depth=1
	addq	%r13, %rcx
	movl	$1984, %r8d                     # imm = 0x7C0
	xorl	%edx, %edx
	callq	memset
.LBB36_9:                               # %std_alloc_vec_opened_fill_run_i8_20_core_clone_U8Clone_exit_i_i_178
                                        #   in Loop: Header=BB36_2 Depth=1
	movq	%r13, (%rsi)
	movq	%rbp, 8(%rsi)
	movq	%r12, 16(%rsi)
	jmp	.LBB36_10
.LBB36_6:                               # %std_alloc_vec_Vec_grow_5fdc5e19576447a7_exit_i_i_179
                                        #   in Loop: Header=BB36_2 Depth=1
	movl	$1984, %edx                     # imm = 0x7C0
	movq	%rsi, %rcx
	callq	std_alloc_vec_Vec_grow_amortized_5fdc5e19576447a7_3
	testb	%al, %al
	je	.LBB36_10
# %bb.7:                                # %join.3.i2.i
                                        #   in Loop: Header=BB36_2 Depth=1
	movq	(%rsi), %r13
	movq	8(%rsi), %rcx
	movq	16(%rsi), %r12
	movq	%rcx, %rbp
	subq	$-1984, %rbp                    # imm = 0xF840
	jb	.LBB36_8
	jmp	.LBB36_9
.LBB36_11:                              # %recoding_list_append_zeros_e3b2a9d4d2861db8_exit_loopexit_180
	movq	8(%rsi), %rcx
	leaq	(%rcx,%r15), %r12
	cmpq	%rcx, %r12
	jbe	.LBB36_13
.LBB36_15:                              # %join.3.i16
	movq	16(%rsi), %r13
	movq	%r13, %rax
	subq	%rcx, %rax
	cmpq	%rax, %r15
	ja	.LBB36_16
# %bb.18:                               # %join.3.i2.i21
	movq	(%rsi), %rbp
	cmpq	%r12, %rcx
	jae	.LBB36_20
.LBB36_19:                              # %join.5.preheader.i.i.i28
	addq	%rbp, %rcx
	xorl	%edx, %edx
	movq	%r15, %r8
	callq	memset
.LBB36_20:                              # %std_alloc_vec_opened_fill_run_i8_20_core_clone_U8Clone_exit_i_i27_181
	movq	%rbp, (%rsi)
	movq	%r12, 8(%rsi)
	movq	%r13, 16(%rsi)
.LBB36_21:                              # %std_alloc_vec_Vec_resize_0cd040e5c49bc722_exit35_182
	movq	(%rsi), %r8
	movq	%r14, %rcx
	movq	%rbx, %rdx
	movq	%rdi, %r9
	callq	recoding_utf8_to_utf16_widen_text_22d4087b0bf99cde_222
	cmpq	%rax, 8(%rsi)
	jbe	.LBB36_23
# %bb.22:                               # %join.3.i37
	movq	%rax, 8(%rsi)
.LBB36_23:                              # %std_alloc_vec_Vec_truncate_8193b041ae25b2e3_exit_184
	addq	$40, %rsp
	popq	%rbx
	popq	%rbp
	popq	%rdi
	popq	%rsi
	popq	%r12
	popq	%r13
	popq	%r14
	popq	%r15
	retq
.LBB36_16:                              # %std_alloc_vec_Vec_grow_5fdc5e19576447a7_exit_i_i30_185
	movq	%rsi, %rcx
	movq	%r15, %rdx
	callq	std_alloc_vec_Vec_grow_amortized_5fdc5e19576447a7_3
	testb	%al, %al
	je	.LBB36_21
# %bb.17:                               # %std_alloc_vec_Vec_grow_5fdc5e19576447a7_exit_join_3_crit_edge_i_i32_186
	movq	8(%rsi), %rcx
	movq	16(%rsi), %r13
	leaq	(%rcx,%r15), %r12
	movq	(%rsi), %rbp
	cmpq	%r12, %rcx
	jb	.LBB36_19
	jmp	.LBB36_20
	.seh_endproc
                                        # -- End function
	.def	recoding_utf8_to_utf16_widen_text_22d4087b0bf99cde_222;
	.scl	3;
	.type	32;
	.endef
	.section .rdata$n0,"dr"
	.p2align	4, 0x0                          # -- Begin function recoding::utf8_to_utf16::widen_text::<#22d4087b0bf99cde>
.LCPI37_0:
	.zero	16,240
.LCPI37_1:
	.zero	16,127
.LCPI37_2:
	.zero	16,192
.LCPI37_3:
	.zero	16,224
.LCPI37_4:
	.zero	16,15
.LCPI37_5:
	.zero	16,32
.LCPI37_6:
	.zero	16,191
	.section .text$n41,"xr"
	.p2align	4
recoding_utf8_to_utf16_widen_text_22d4087b0bf99cde_222: # @recoding_utf8_to_utf16_widen_text_22d4087b0bf99cde_222
.seh_proc recoding_utf8_to_utf16_widen_text_22d4087b0bf99cde_222
# %bb.0:                                # %start
	pushq	%r15
	.seh_pushreg %r15
	pushq	%r14
	.seh_pushreg %r14
	pushq	%r13
	.seh_pushreg %r13
	pushq	%r12
	.seh_pushreg %r12
	pushq	%rsi
	.seh_pushreg %rsi
	pushq	%rdi
	.seh_pushreg %rdi
	pushq	%rbp
	.seh_pushreg %rbp
	pushq	%rbx
	.seh_pushreg %rbx
	subq	$584, %rsp                      # imm = 0x248
	.seh_stackalloc 584
	movaps	%xmm7, 560(%rsp)                # 16-byte Spill
	.seh_savexmm %xmm7, 560
	movaps	%xmm6, 544(%rsp)                # 16-byte Spill
	.seh_savexmm %xmm6, 544
	.seh_endprologue
	movq	%r9, %rdi
	movq	%r8, %rsi
	movq	%rdx, %r14
	movq	%rcx, %r13
	movdqu	(%rcx), %xmm7
	movdqa	%xmm7, %xmm6
	pslldq	$1, %xmm6                       # xmm6 = zero,xmm6[0,1,2,3,4,5,6,7,8,9,10,11,12,13,14]
	movdqa	%xmm7, %xmm1
	pslldq	$2, %xmm1                       # xmm1 = zero,zero,xmm1[0,1,2,3,4,5,6,7,8,9,10,11,12,13]
	movdqa	%xmm7, %xmm0
	pslldq	$3, %xmm0                       # xmm0 = zero,zero,zero,xmm0[0,1,2,3,4,5,6,7,8,9,10,11,12]
	movdqa	%xmm1, %xmm2
	pmaxub	%xmm0, %xmm2
	movdqa	.LCPI37_0(%rip), %xmm3          # xmm3 = [240,240,240,240,240,240,240,240,240,240,240,240,240,240,240,240]
	pmaxub	%xmm2, %xmm3
	pcmpeqb	%xmm2, %xmm3
	pmovmskb	%xmm3, %eax
	testl	%eax, %eax
	je	.LBB37_1
# %bb.2:                                # %else.2.i.i.i
	movdqa	%xmm1, 512(%rsp)
	movdqa	%xmm0, 528(%rsp)
	movdqa	%xmm6, 496(%rsp)
	movdqa	%xmm7, 480(%rsp)
	leaq	480(%rsp), %rax
	movq	%rax, 32(%rsp)
	leaq	48(%rsp), %rcx
	leaq	528(%rsp), %rdx
	leaq	512(%rsp), %r8
	leaq	496(%rsp), %r9
	callq	utf_lanes_text_units_long_halves_166
	movdqa	48(%rsp), %xmm2
	movdqa	64(%rsp), %xmm0
	jmp	.LBB37_3
.LBB37_1:                               # %then.1.i.i.i
	pxor	%xmm0, %xmm0
	pcmpgtb	%xmm7, %xmm0
	pand	%xmm6, %xmm0
	movdqa	.LCPI37_1(%rip), %xmm3          # xmm3 = [127,127,127,127,127,127,127,127,127,127,127,127,127,127,127,127]
	pand	%xmm7, %xmm3
	movdqa	%xmm0, %xmm2
	psllw	$6, %xmm2
	pand	.LCPI37_2(%rip), %xmm2
	psubusb	.LCPI37_3(%rip), %xmm1
	paddb	%xmm3, %xmm2
	psllw	$4, %xmm1
	pand	.LCPI37_0(%rip), %xmm1
	psrlw	$2, %xmm0
	pand	.LCPI37_4(%rip), %xmm0
	por	%xmm1, %xmm0
.LBB37_3:                               # %utf_lanes_text_puts_write_first_22d4087b0bf99cde_exit_213
	psubusb	.LCPI37_5(%rip), %xmm6
	pmaxub	%xmm7, %xmm6
	movdqa	.LCPI37_6(%rip), %xmm1          # xmm1 = [191,191,191,191,191,191,191,191,191,191,191,191,191,191,191,191]
	pminub	%xmm6, %xmm1
	pcmpeqb	%xmm6, %xmm1
	pmovmskb	%xmm1, %eax
	movdqa	%xmm0, %xmm1
	punpckhbw	%xmm2, %xmm1            # xmm1 = xmm1[8],xmm2[8],xmm1[9],xmm2[9],xmm1[10],xmm2[10],xmm1[11],xmm2[11],xmm1[12],xmm2[12],xmm1[13],xmm2[13],xmm1[14],xmm2[14],xmm1[15],xmm2[15]
	punpcklbw	%xmm2, %xmm0            # xmm0 = xmm0[0],xmm2[0],xmm0[1],xmm2[1],xmm0[2],xmm2[2],xmm0[3],xmm2[3],xmm0[4],xmm2[4],xmm0[5],xmm2[5],xmm0[6],xmm2[6],xmm0[7],xmm2[7]
	movzbl	%al, %ecx
	xorl	%edx, %edx
	popcntl	%ecx, %edx
	shll	$4, %ecx
	leaq	static.17(%rip), %r12
	movdqu	(%rcx,%r12), %xmm2
	pshufb	%xmm2, %xmm0
	shrl	$8, %eax
	xorl	%ecx, %ecx
	popcntl	%eax, %ecx
	shll	$4, %eax
	movdqu	(%rax,%r12), %xmm2
	pshufb	%xmm2, %xmm1
	leaq	(%rsi,%rdi), %rax
	movdqu	%xmm0, (%rsi,%rdi)
	movdqu	%xmm1, (%rax,%rdx,2)
	addl	%edx, %ecx
	leaq	(%rdi,%rcx,2), %rdi
	leaq	-80(%r14), %rax
	movl	$16, %r15d
	cmpq	$-65, %rax
	ja	.LBB37_10
# %bb.4:                                # %join.5.i730.lr.ph
	movq	%r13, 80(%rsp)                  # 8-byte Spill
	addq	$13, %r13
	movq	$-16, %r15
	movq	%r14, 88(%rsp)                  # 8-byte Spill
	.p2align	4
.LBB37_5:                               # %join.5.i730
                                        # =>This Inner Loop Header: Depth=1
	cmpb	$0, 3(%r13)
	js	.LBB37_6
# %bb.13:                               # %join.3.i.i
                                        #   in Loop: Header=BB37_5 Depth=1
	movdqu	3(%r13), %xmm6
	movdqu	19(%r13), %xmm0
	movdqu	35(%r13), %xmm1
	movdqu	51(%r13), %xmm2
	por	%xmm0, %xmm2
	por	%xmm6, %xmm1
	por	%xmm2, %xmm1
	pmovmskb	%xmm1, %eax
	testl	%eax, %eax
	jne	.LBB37_7
# %bb.14:                               # %then.4.i.i
                                        #   in Loop: Header=BB37_5 Depth=1
	cmpb	$-65, 2(%r13)
	ja	.LBB37_7
# %bb.15:                               # %join.3.i.i.i
                                        #   in Loop: Header=BB37_5 Depth=1
	cmpb	$-33, 1(%r13)
	ja	.LBB37_7
# %bb.16:                               # %recoding_utf8_to_utf16_is_plain_exit_i_223
                                        #   in Loop: Header=BB37_5 Depth=1
	cmpb	$-17, (%r13)
	ja	.LBB37_7
# %bb.17:                               # %then.1.i
                                        #   in Loop: Header=BB37_5 Depth=1
	movdqu	3(%r13), %xmm0
	movdqu	19(%r13), %xmm1
	movdqu	35(%r13), %xmm2
	movdqu	51(%r13), %xmm3
	pxor	%xmm4, %xmm4
	pxor	%xmm5, %xmm5
	punpckhbw	%xmm0, %xmm5            # xmm5 = xmm5[8],xmm0[8],xmm5[9],xmm0[9],xmm5[10],xmm0[10],xmm5[11],xmm0[11],xmm5[12],xmm0[12],xmm5[13],xmm0[13],xmm5[14],xmm0[14],xmm5[15],xmm0[15]
	pxor	%xmm6, %xmm6
	punpcklbw	%xmm0, %xmm6            # xmm6 = xmm6[0],xmm0[0],xmm6[1],xmm0[1],xmm6[2],xmm0[2],xmm6[3],xmm0[3],xmm6[4],xmm0[4],xmm6[5],xmm0[5],xmm6[6],xmm0[6],xmm6[7],xmm0[7]
	pxor	%xmm0, %xmm0
	punpckhbw	%xmm1, %xmm0            # xmm0 = xmm0[8],xmm1[8],xmm0[9],xmm1[9],xmm0[10],xmm1[10],xmm0[11],xmm1[11],xmm0[12],xmm1[12],xmm0[13],xmm1[13],xmm0[14],xmm1[14],xmm0[15],xmm1[15]
	pxor	%xmm7, %xmm7
	punpcklbw	%xmm1, %xmm7            # xmm7 = xmm7[0],xmm1[0],xmm7[1],xmm1[1],xmm7[2],xmm1[2],xmm7[3],xmm1[3],xmm7[4],xmm1[4],xmm7[5],xmm1[5],xmm7[6],xmm1[6],xmm7[7],xmm1[7]
	movdqu	%xmm7, 32(%rsi,%rdi)
	movdqu	%xmm0, 48(%rsi,%rdi)
	movdqu	%xmm6, (%rsi,%rdi)
	movdqu	%xmm5, 16(%rsi,%rdi)
	pxor	%xmm0, %xmm0
	punpckhbw	%xmm2, %xmm0            # xmm0 = xmm0[8],xmm2[8],xmm0[9],xmm2[9],xmm0[10],xmm2[10],xmm0[11],xmm2[11],xmm0[12],xmm2[12],xmm0[13],xmm2[13],xmm0[14],xmm2[14],xmm0[15],xmm2[15]
	pxor	%xmm1, %xmm1
	punpcklbw	%xmm2, %xmm1            # xmm1 = xmm1[0],xmm2[0],xmm1[1],xmm2[1],xmm1[2],xmm2[2],xmm1[3],xmm2[3],xmm1[4],xmm2[4],xmm1[5],xmm2[5],xmm1[6],xmm2[6],xmm1[7],xmm2[7]
	pxor	%xmm2, %xmm2
	punpckhbw	%xmm3, %xmm2            # xmm2 = xmm2[8],xmm3[8],xmm2[9],xmm3[9],xmm2[10],xmm3[10],xmm2[11],xmm3[11],xmm2[12],xmm3[12],xmm2[13],xmm3[13],xmm2[14],xmm3[14],xmm2[15],xmm3[15]
	punpcklbw	%xmm3, %xmm4            # xmm4 = xmm4[0],xmm3[0],xmm4[1],xmm3[1],xmm4[2],xmm3[2],xmm4[3],xmm3[3],xmm4[4],xmm3[4],xmm4[5],xmm3[5],xmm4[6],xmm3[6],xmm4[7],xmm3[7]
	movdqu	%xmm4, 96(%rsi,%rdi)
	movdqu	%xmm2, 112(%rsi,%rdi)
	movdqu	%xmm1, 64(%rsi,%rdi)
	movdqu	%xmm0, 80(%rsi,%rdi)
	subq	$-128, %rdi
	jmp	.LBB37_29
	.p2align	4
.LBB37_6:                               # %join.5.i730.join.3.i_crit_edge
                                        #   in Loop: Header=BB37_5 Depth=1
	movdqu	3(%r13), %xmm6
.LBB37_7:                               # %join.3.i
                                        #   in Loop: Header=BB37_5 Depth=1
	movdqu	(%r13), %xmm0
	movdqu	1(%r13), %xmm1
	movdqu	2(%r13), %xmm7
	movdqa	%xmm1, %xmm2
	pmaxub	%xmm0, %xmm2
	movdqa	.LCPI37_0(%rip), %xmm3          # xmm3 = [240,240,240,240,240,240,240,240,240,240,240,240,240,240,240,240]
	pmaxub	%xmm2, %xmm3
	pcmpeqb	%xmm2, %xmm3
	pmovmskb	%xmm3, %eax
	testl	%eax, %eax
	je	.LBB37_8
# %bb.18:                               # %else.2.i.i.i.i
                                        #   in Loop: Header=BB37_5 Depth=1
	movdqa	%xmm1, 448(%rsp)
	movdqa	%xmm0, 464(%rsp)
	movdqa	%xmm7, 432(%rsp)
	movdqa	%xmm6, 416(%rsp)
	leaq	416(%rsp), %rax
	movq	%rax, 32(%rsp)
	leaq	48(%rsp), %rcx
	leaq	464(%rsp), %rdx
	leaq	448(%rsp), %r8
	leaq	432(%rsp), %r9
	callq	utf_lanes_text_units_long_halves_166
	movdqa	48(%rsp), %xmm2
	movdqa	64(%rsp), %xmm0
	jmp	.LBB37_19
	.p2align	4
.LBB37_8:                               # %then.1.i.i.i.i
                                        #   in Loop: Header=BB37_5 Depth=1
	pxor	%xmm0, %xmm0
	pcmpgtb	%xmm6, %xmm0
	pand	%xmm7, %xmm0
	movdqa	.LCPI37_1(%rip), %xmm3          # xmm3 = [127,127,127,127,127,127,127,127,127,127,127,127,127,127,127,127]
	pand	%xmm6, %xmm3
	movdqa	%xmm0, %xmm2
	psllw	$6, %xmm2
	pand	.LCPI37_2(%rip), %xmm2
	psubusb	.LCPI37_3(%rip), %xmm1
	paddb	%xmm3, %xmm2
	psllw	$4, %xmm1
	pand	.LCPI37_0(%rip), %xmm1
	psrlw	$2, %xmm0
	pand	.LCPI37_4(%rip), %xmm0
	por	%xmm1, %xmm0
.LBB37_19:                              # %utf_lanes_text_units_block_units_22d4087b0bf99cde_exit_i_224
                                        #   in Loop: Header=BB37_5 Depth=1
	psubusb	.LCPI37_5(%rip), %xmm7
	pmaxub	%xmm6, %xmm7
	movdqa	.LCPI37_6(%rip), %xmm1          # xmm1 = [191,191,191,191,191,191,191,191,191,191,191,191,191,191,191,191]
	pminub	%xmm7, %xmm1
	pcmpeqb	%xmm7, %xmm1
	pmovmskb	%xmm1, %ebp
	movdqa	%xmm0, %xmm1
	punpckhbw	%xmm2, %xmm1            # xmm1 = xmm1[8],xmm2[8],xmm1[9],xmm2[9],xmm1[10],xmm2[10],xmm1[11],xmm2[11],xmm1[12],xmm2[12],xmm1[13],xmm2[13],xmm1[14],xmm2[14],xmm1[15],xmm2[15]
	punpcklbw	%xmm2, %xmm0            # xmm0 = xmm0[0],xmm2[0],xmm0[1],xmm2[1],xmm0[2],xmm2[2],xmm0[3],xmm2[3],xmm0[4],xmm2[4],xmm0[5],xmm2[5],xmm0[6],xmm2[6],xmm0[7],xmm2[7]
	movzbl	%bpl, %eax
	popcntl	%eax, %ebx
	shll	$4, %eax
	movdqu	(%rax,%r12), %xmm2
	pshufb	%xmm2, %xmm0
	shrl	$8, %ebp
	movl	%ebp, %eax
	shll	$4, %eax
	movdqu	(%rax,%r12), %xmm2
	pshufb	%xmm2, %xmm1
	leaq	(%rsi,%rdi), %rax
	movdqu	%xmm0, (%rsi,%rdi)
	movdqu	%xmm1, (%rax,%rbx,2)
	movdqu	16(%r13), %xmm0
	movdqu	17(%r13), %xmm2
	movdqu	18(%r13), %xmm6
	movdqu	19(%r13), %xmm7
	movdqa	%xmm2, %xmm1
	pmaxub	%xmm0, %xmm1
	movdqa	.LCPI37_0(%rip), %xmm3          # xmm3 = [240,240,240,240,240,240,240,240,240,240,240,240,240,240,240,240]
	pmaxub	%xmm1, %xmm3
	pcmpeqb	%xmm1, %xmm3
	pmovmskb	%xmm3, %eax
	testl	%eax, %eax
	je	.LBB37_20
# %bb.21:                               # %else.2.i.i.i381.i
                                        #   in Loop: Header=BB37_5 Depth=1
	movdqa	%xmm2, 384(%rsp)
	movdqa	%xmm0, 400(%rsp)
	movdqa	%xmm6, 368(%rsp)
	movdqa	%xmm7, 352(%rsp)
	leaq	352(%rsp), %rax
	movq	%rax, 32(%rsp)
	leaq	48(%rsp), %rcx
	leaq	400(%rsp), %rdx
	leaq	384(%rsp), %r8
	leaq	368(%rsp), %r9
	callq	utf_lanes_text_units_long_halves_166
	movdqa	48(%rsp), %xmm1
	movdqa	64(%rsp), %xmm0
	jmp	.LBB37_22
	.p2align	4
.LBB37_20:                              # %then.1.i.i.i574.i
                                        #   in Loop: Header=BB37_5 Depth=1
	pxor	%xmm0, %xmm0
	pcmpgtb	%xmm7, %xmm0
	pand	%xmm6, %xmm0
	movdqa	.LCPI37_1(%rip), %xmm3          # xmm3 = [127,127,127,127,127,127,127,127,127,127,127,127,127,127,127,127]
	pand	%xmm7, %xmm3
	movdqa	%xmm0, %xmm1
	psllw	$6, %xmm1
	pand	.LCPI37_2(%rip), %xmm1
	psubusb	.LCPI37_3(%rip), %xmm2
	paddb	%xmm3, %xmm1
	psllw	$4, %xmm2
	pand	.LCPI37_0(%rip), %xmm2
	psrlw	$2, %xmm0
	pand	.LCPI37_4(%rip), %xmm0
	por	%xmm2, %xmm0
.LBB37_22:                              # %utf_lanes_text_units_block_units_22d4087b0bf99cde_exit589_i_225
                                        #   in Loop: Header=BB37_5 Depth=1
	xorl	%eax, %eax
	popcntl	%ebp, %eax
	addq	%rax, %rbx
	leal	(%rbx,%rbx), %eax
	psubusb	.LCPI37_5(%rip), %xmm6
	pmaxub	%xmm7, %xmm6
	movdqa	.LCPI37_6(%rip), %xmm2          # xmm2 = [191,191,191,191,191,191,191,191,191,191,191,191,191,191,191,191]
	pminub	%xmm6, %xmm2
	pcmpeqb	%xmm6, %xmm2
	pmovmskb	%xmm2, %r14d
	movdqa	%xmm0, %xmm2
	punpckhbw	%xmm1, %xmm2            # xmm2 = xmm2[8],xmm1[8],xmm2[9],xmm1[9],xmm2[10],xmm1[10],xmm2[11],xmm1[11],xmm2[12],xmm1[12],xmm2[13],xmm1[13],xmm2[14],xmm1[14],xmm2[15],xmm1[15]
	punpcklbw	%xmm1, %xmm0            # xmm0 = xmm0[0],xmm1[0],xmm0[1],xmm1[1],xmm0[2],xmm1[2],xmm0[3],xmm1[3],xmm0[4],xmm1[4],xmm0[5],xmm1[5],xmm0[6],xmm1[6],xmm0[7],xmm1[7]
	movzbl	%r14b, %ecx
	xorl	%ebp, %ebp
	popcntl	%ecx, %ebp
	shll	$4, %ecx
	movdqu	(%rcx,%r12), %xmm1
	pshufb	%xmm1, %xmm0
	shrl	$8, %r14d
	movl	%r14d, %ecx
	shll	$4, %ecx
	movdqu	(%rcx,%r12), %xmm1
	pshufb	%xmm1, %xmm2
	addq	%rsi, %rax
	movdqu	%xmm0, (%rdi,%rax)
	addq	%rbx, %rbp
	leaq	(%rsi,%rbp,2), %rax
	movdqu	%xmm2, (%rdi,%rax)
	movdqu	32(%r13), %xmm0
	movdqu	33(%r13), %xmm2
	movdqu	34(%r13), %xmm6
	movdqu	35(%r13), %xmm7
	movdqa	%xmm2, %xmm1
	pmaxub	%xmm0, %xmm1
	movdqa	.LCPI37_0(%rip), %xmm3          # xmm3 = [240,240,240,240,240,240,240,240,240,240,240,240,240,240,240,240]
	pmaxub	%xmm1, %xmm3
	pcmpeqb	%xmm1, %xmm3
	pmovmskb	%xmm3, %eax
	testl	%eax, %eax
	je	.LBB37_23
# %bb.24:                               # %else.2.i.i.i642.i
                                        #   in Loop: Header=BB37_5 Depth=1
	movdqa	%xmm2, 320(%rsp)
	movdqa	%xmm0, 336(%rsp)
	movdqa	%xmm6, 304(%rsp)
	movdqa	%xmm7, 288(%rsp)
	leaq	288(%rsp), %rax
	movq	%rax, 32(%rsp)
	leaq	48(%rsp), %rcx
	leaq	336(%rsp), %rdx
	leaq	320(%rsp), %r8
	leaq	304(%rsp), %r9
	callq	utf_lanes_text_units_long_halves_166
	movdqa	48(%rsp), %xmm1
	movdqa	64(%rsp), %xmm0
	jmp	.LBB37_25
	.p2align	4
.LBB37_23:                              # %then.1.i.i.i835.i
                                        #   in Loop: Header=BB37_5 Depth=1
	pxor	%xmm0, %xmm0
	pcmpgtb	%xmm7, %xmm0
	pand	%xmm6, %xmm0
	movdqa	.LCPI37_1(%rip), %xmm3          # xmm3 = [127,127,127,127,127,127,127,127,127,127,127,127,127,127,127,127]
	pand	%xmm7, %xmm3
	movdqa	%xmm0, %xmm1
	psllw	$6, %xmm1
	pand	.LCPI37_2(%rip), %xmm1
	psubusb	.LCPI37_3(%rip), %xmm2
	paddb	%xmm3, %xmm1
	psllw	$4, %xmm2
	pand	.LCPI37_0(%rip), %xmm2
	psrlw	$2, %xmm0
	pand	.LCPI37_4(%rip), %xmm0
	por	%xmm2, %xmm0
.LBB37_25:                              # %utf_lanes_text_units_block_units_22d4087b0bf99cde_exit850_i_226
                                        #   in Loop: Header=BB37_5 Depth=1
	xorl	%eax, %eax
	popcntl	%r14d, %eax
	addq	%rax, %rbp
	leal	(,%rbp,2), %eax
	psubusb	.LCPI37_5(%rip), %xmm6
	pmaxub	%xmm7, %xmm6
	movdqa	.LCPI37_6(%rip), %xmm2          # xmm2 = [191,191,191,191,191,191,191,191,191,191,191,191,191,191,191,191]
	pminub	%xmm6, %xmm2
	pcmpeqb	%xmm6, %xmm2
	pmovmskb	%xmm2, %r14d
	movdqa	%xmm0, %xmm2
	punpckhbw	%xmm1, %xmm2            # xmm2 = xmm2[8],xmm1[8],xmm2[9],xmm1[9],xmm2[10],xmm1[10],xmm2[11],xmm1[11],xmm2[12],xmm1[12],xmm2[13],xmm1[13],xmm2[14],xmm1[14],xmm2[15],xmm1[15]
	punpcklbw	%xmm1, %xmm0            # xmm0 = xmm0[0],xmm1[0],xmm0[1],xmm1[1],xmm0[2],xmm1[2],xmm0[3],xmm1[3],xmm0[4],xmm1[4],xmm0[5],xmm1[5],xmm0[6],xmm1[6],xmm0[7],xmm1[7]
	movzbl	%r14b, %ecx
	popcntl	%ecx, %ebx
	shll	$4, %ecx
	movdqu	(%rcx,%r12), %xmm1
	pshufb	%xmm1, %xmm0
	shrl	$8, %r14d
	movl	%r14d, %ecx
	shll	$4, %ecx
	movdqu	(%rcx,%r12), %xmm1
	pshufb	%xmm1, %xmm2
	addq	%rsi, %rax
	movdqu	%xmm0, (%rdi,%rax)
	addq	%rbp, %rbx
	leaq	(%rsi,%rbx,2), %rax
	movdqu	%xmm2, (%rdi,%rax)
	movdqu	48(%r13), %xmm0
	movdqu	49(%r13), %xmm2
	movdqu	50(%r13), %xmm6
	movdqu	51(%r13), %xmm7
	movdqa	%xmm2, %xmm1
	pmaxub	%xmm0, %xmm1
	movdqa	.LCPI37_0(%rip), %xmm3          # xmm3 = [240,240,240,240,240,240,240,240,240,240,240,240,240,240,240,240]
	pmaxub	%xmm1, %xmm3
	pcmpeqb	%xmm1, %xmm3
	pmovmskb	%xmm3, %eax
	testl	%eax, %eax
	je	.LBB37_26
# %bb.27:                               # %else.2.i.i.i903.i
                                        #   in Loop: Header=BB37_5 Depth=1
	movdqa	%xmm2, 256(%rsp)
	movdqa	%xmm0, 272(%rsp)
	movdqa	%xmm6, 240(%rsp)
	movdqa	%xmm7, 224(%rsp)
	leaq	224(%rsp), %rax
	movq	%rax, 32(%rsp)
	leaq	48(%rsp), %rcx
	leaq	272(%rsp), %rdx
	leaq	256(%rsp), %r8
	leaq	240(%rsp), %r9
	callq	utf_lanes_text_units_long_halves_166
	movdqa	48(%rsp), %xmm1
	movdqa	64(%rsp), %xmm0
	jmp	.LBB37_28
	.p2align	4
.LBB37_26:                              # %then.1.i.i.i1096.i
                                        #   in Loop: Header=BB37_5 Depth=1
	pxor	%xmm0, %xmm0
	pcmpgtb	%xmm7, %xmm0
	pand	%xmm6, %xmm0
	movdqa	.LCPI37_1(%rip), %xmm3          # xmm3 = [127,127,127,127,127,127,127,127,127,127,127,127,127,127,127,127]
	pand	%xmm7, %xmm3
	movdqa	%xmm0, %xmm1
	psllw	$6, %xmm1
	pand	.LCPI37_2(%rip), %xmm1
	psubusb	.LCPI37_3(%rip), %xmm2
	paddb	%xmm3, %xmm1
	psllw	$4, %xmm2
	pand	.LCPI37_0(%rip), %xmm2
	psrlw	$2, %xmm0
	pand	.LCPI37_4(%rip), %xmm0
	por	%xmm2, %xmm0
.LBB37_28:                              # %utf_lanes_text_puts_write_64_22d4087b0bf99cde_exit_227
                                        #   in Loop: Header=BB37_5 Depth=1
	xorl	%eax, %eax
	popcntl	%r14d, %eax
	addq	%rax, %rbx
	leal	(%rbx,%rbx), %eax
	psubusb	.LCPI37_5(%rip), %xmm6
	pmaxub	%xmm7, %xmm6
	movdqa	.LCPI37_6(%rip), %xmm2          # xmm2 = [191,191,191,191,191,191,191,191,191,191,191,191,191,191,191,191]
	pminub	%xmm6, %xmm2
	pcmpeqb	%xmm6, %xmm2
	pmovmskb	%xmm2, %ecx
	movdqa	%xmm0, %xmm2
	punpckhbw	%xmm1, %xmm2            # xmm2 = xmm2[8],xmm1[8],xmm2[9],xmm1[9],xmm2[10],xmm1[10],xmm2[11],xmm1[11],xmm2[12],xmm1[12],xmm2[13],xmm1[13],xmm2[14],xmm1[14],xmm2[15],xmm1[15]
	punpcklbw	%xmm1, %xmm0            # xmm0 = xmm0[0],xmm1[0],xmm0[1],xmm1[1],xmm0[2],xmm1[2],xmm0[3],xmm1[3],xmm0[4],xmm1[4],xmm0[5],xmm1[5],xmm0[6],xmm1[6],xmm0[7],xmm1[7]
	movzbl	%cl, %edx
	xorl	%r8d, %r8d
	popcntl	%edx, %r8d
	shll	$4, %edx
	movdqu	(%rdx,%r12), %xmm1
	pshufb	%xmm1, %xmm0
	shrl	$8, %ecx
	xorl	%edx, %edx
	popcntl	%ecx, %edx
	shll	$4, %ecx
	movdqu	(%rcx,%r12), %xmm1
	pshufb	%xmm1, %xmm2
	addq	%rsi, %rax
	movdqu	%xmm0, (%rdi,%rax)
	addl	%ebx, %r8d
	leaq	(%rsi,%r8,2), %rax
	movdqu	%xmm2, (%rdi,%rax)
	addl	%edx, %r8d
	leaq	(%rdi,%r8,2), %rdi
	movq	88(%rsp), %r14                  # 8-byte Reload
.LBB37_29:                              # %recoding_utf8_to_utf16_write_some_22d4087b0bf99cde_exit_228
                                        #   in Loop: Header=BB37_5 Depth=1
	leaq	(%r14,%r15), %rax
	addq	$-64, %rax
	addq	$-64, %r15
	addq	$64, %r13
	cmpq	$63, %rax
	ja	.LBB37_5
# %bb.9:                                # %loop.2.i.preheader.loopexit
	negq	%r15
	movq	80(%rsp), %r13                  # 8-byte Reload
.LBB37_10:                              # %loop.2.i.preheader
	movq	%r14, %rbx
	subq	%r15, %rbx
	cmpq	$16, %rbx
	jae	.LBB37_11
.LBB37_32:                              # %after.1.i
	cmpq	%r14, %r15
	jae	.LBB37_37
# %bb.33:                               # %then.6.i
	leaq	-16(%r14), %rax
	subq	%rax, %r15
	movdqu	-19(%r13,%r14), %xmm0
	movdqu	-18(%r13,%r14), %xmm2
	movdqu	-17(%r13,%r14), %xmm6
	movdqu	-16(%r13,%r14), %xmm7
	movdqa	%xmm2, %xmm1
	pmaxub	%xmm0, %xmm1
	movdqa	.LCPI37_0(%rip), %xmm3          # xmm3 = [240,240,240,240,240,240,240,240,240,240,240,240,240,240,240,240]
	pmaxub	%xmm1, %xmm3
	pcmpeqb	%xmm1, %xmm3
	pmovmskb	%xmm3, %eax
	testl	%eax, %eax
	je	.LBB37_34
# %bb.35:                               # %else.2.i.i.i258
	movdqa	%xmm2, 128(%rsp)
	movdqa	%xmm0, 144(%rsp)
	movdqa	%xmm6, 112(%rsp)
	movdqa	%xmm7, 96(%rsp)
	leaq	96(%rsp), %rax
	movq	%rax, 32(%rsp)
	leaq	48(%rsp), %rcx
	leaq	144(%rsp), %rdx
	leaq	128(%rsp), %r8
	leaq	112(%rsp), %r9
	callq	utf_lanes_text_units_long_halves_166
	movdqa	48(%rsp), %xmm1
	movdqa	64(%rsp), %xmm0
	jmp	.LBB37_36
	.p2align	4
.LBB37_30:                              # %else.2.i.i.i515
                                        #   in Loop: Header=BB37_11 Depth=1
	movdqa	%xmm1, 192(%rsp)
	movdqa	%xmm0, 208(%rsp)
	movdqa	%xmm6, 176(%rsp)
	movdqa	%xmm7, 160(%rsp)
	leaq	160(%rsp), %rax
	movq	%rax, 32(%rsp)
	leaq	48(%rsp), %rcx
	leaq	208(%rsp), %rdx
	leaq	192(%rsp), %r8
	leaq	176(%rsp), %r9
	callq	utf_lanes_text_units_long_halves_166
	movdqa	48(%rsp), %xmm2
	movdqa	64(%rsp), %xmm0
.LBB37_31:                              # %utf_lanes_text_units_block_units_22d4087b0bf99cde_exit724_229
                                        #   in Loop: Header=BB37_11 Depth=1
	psubusb	.LCPI37_5(%rip), %xmm6
	pmaxub	%xmm7, %xmm6
	movdqa	.LCPI37_6(%rip), %xmm1          # xmm1 = [191,191,191,191,191,191,191,191,191,191,191,191,191,191,191,191]
	pminub	%xmm6, %xmm1
	pcmpeqb	%xmm6, %xmm1
	pmovmskb	%xmm1, %eax
	movdqa	%xmm0, %xmm1
	punpckhbw	%xmm2, %xmm1            # xmm1 = xmm1[8],xmm2[8],xmm1[9],xmm2[9],xmm1[10],xmm2[10],xmm1[11],xmm2[11],xmm1[12],xmm2[12],xmm1[13],xmm2[13],xmm1[14],xmm2[14],xmm1[15],xmm2[15]
	punpcklbw	%xmm2, %xmm0            # xmm0 = xmm0[0],xmm2[0],xmm0[1],xmm2[1],xmm0[2],xmm2[2],xmm0[3],xmm2[3],xmm0[4],xmm2[4],xmm0[5],xmm2[5],xmm0[6],xmm2[6],xmm0[7],xmm2[7]
	movzbl	%al, %ecx
	xorl	%edx, %edx
	popcntl	%ecx, %edx
	shll	$4, %ecx
	movdqu	(%rcx,%r12), %xmm2
	pshufb	%xmm2, %xmm0
	shrl	$8, %eax
	xorl	%ecx, %ecx
	popcntl	%eax, %ecx
	shll	$4, %eax
	movdqu	(%rax,%r12), %xmm2
	pshufb	%xmm2, %xmm1
	leaq	(%rsi,%rdi), %rax
	movdqu	%xmm0, (%rsi,%rdi)
	movdqu	%xmm1, (%rax,%rdx,2)
	addl	%edx, %ecx
	leaq	(%rdi,%rcx,2), %rdi
	addq	$16, %r15
	addq	$-16, %rbx
	cmpq	$15, %rbx
	jbe	.LBB37_32
.LBB37_11:                              # %join.5.i
                                        # =>This Inner Loop Header: Depth=1
	movdqu	-3(%r13,%r15), %xmm0
	movdqu	-2(%r13,%r15), %xmm1
	movdqu	-1(%r13,%r15), %xmm6
	movdqu	(%r13,%r15), %xmm7
	movdqa	%xmm1, %xmm2
	pmaxub	%xmm0, %xmm2
	movdqa	.LCPI37_0(%rip), %xmm3          # xmm3 = [240,240,240,240,240,240,240,240,240,240,240,240,240,240,240,240]
	pmaxub	%xmm2, %xmm3
	pcmpeqb	%xmm2, %xmm3
	pmovmskb	%xmm3, %eax
	testl	%eax, %eax
	jne	.LBB37_30
# %bb.12:                               # %then.1.i.i.i709
                                        #   in Loop: Header=BB37_11 Depth=1
	pxor	%xmm0, %xmm0
	pcmpgtb	%xmm7, %xmm0
	pand	%xmm6, %xmm0
	movdqa	.LCPI37_1(%rip), %xmm3          # xmm3 = [127,127,127,127,127,127,127,127,127,127,127,127,127,127,127,127]
	pand	%xmm7, %xmm3
	movdqa	%xmm0, %xmm2
	psllw	$6, %xmm2
	pand	.LCPI37_2(%rip), %xmm2
	psubusb	.LCPI37_3(%rip), %xmm1
	paddb	%xmm3, %xmm2
	psllw	$4, %xmm1
	pand	.LCPI37_0(%rip), %xmm1
	psrlw	$2, %xmm0
	pand	.LCPI37_4(%rip), %xmm0
	por	%xmm1, %xmm0
	jmp	.LBB37_31
.LBB37_34:                              # %then.1.i.i.i448
	pxor	%xmm0, %xmm0
	pcmpgtb	%xmm7, %xmm0
	pand	%xmm6, %xmm0
	movdqa	.LCPI37_1(%rip), %xmm3          # xmm3 = [127,127,127,127,127,127,127,127,127,127,127,127,127,127,127,127]
	pand	%xmm7, %xmm3
	movdqa	%xmm0, %xmm1
	psllw	$6, %xmm1
	pand	.LCPI37_2(%rip), %xmm1
	psubusb	.LCPI37_3(%rip), %xmm2
	paddb	%xmm3, %xmm1
	psllw	$4, %xmm2
	pand	.LCPI37_0(%rip), %xmm2
	psrlw	$2, %xmm0
	pand	.LCPI37_4(%rip), %xmm0
	por	%xmm2, %xmm0
.LBB37_36:                              # %utf_lanes_text_units_block_units_22d4087b0bf99cde_exit_215
	psubusb	.LCPI37_5(%rip), %xmm6
	pmaxub	%xmm7, %xmm6
	movdqa	.LCPI37_6(%rip), %xmm2          # xmm2 = [191,191,191,191,191,191,191,191,191,191,191,191,191,191,191,191]
	pminub	%xmm6, %xmm2
	pcmpeqb	%xmm6, %xmm2
	movq	$-1, %rax
	movl	%r15d, %ecx
	shlq	%cl, %rax
	pmovmskb	%xmm2, %ecx
	andl	%ecx, %eax
	movdqa	%xmm0, %xmm2
	punpckhbw	%xmm1, %xmm2            # xmm2 = xmm2[8],xmm1[8],xmm2[9],xmm1[9],xmm2[10],xmm1[10],xmm2[11],xmm1[11],xmm2[12],xmm1[12],xmm2[13],xmm1[13],xmm2[14],xmm1[14],xmm2[15],xmm1[15]
	punpcklbw	%xmm1, %xmm0            # xmm0 = xmm0[0],xmm1[0],xmm0[1],xmm1[1],xmm0[2],xmm1[2],xmm0[3],xmm1[3],xmm0[4],xmm1[4],xmm0[5],xmm1[5],xmm0[6],xmm1[6],xmm0[7],xmm1[7]
	movzbl	%al, %ecx
	xorl	%edx, %edx
	popcntl	%ecx, %edx
	shll	$4, %ecx
	movdqu	(%rcx,%r12), %xmm1
	pshufb	%xmm1, %xmm0
	shrl	$8, %eax
	xorl	%ecx, %ecx
	popcntl	%eax, %ecx
	shll	$4, %eax
	movdqu	(%rax,%r12), %xmm1
	pshufb	%xmm1, %xmm2
	movdqu	%xmm0, (%rsi,%rdi)
	addq	%rdi, %rsi
	movdqu	%xmm2, (%rsi,%rdx,2)
	addl	%edx, %ecx
	leaq	(%rdi,%rcx,2), %rdi
.LBB37_37:                              # %utf_lanes_text_puts_write_rest_22d4087b0bf99cde_exit_216
	movq	%rdi, %rax
	movaps	544(%rsp), %xmm6                # 16-byte Reload
	movaps	560(%rsp), %xmm7                # 16-byte Reload
	addq	$584, %rsp                      # imm = 0x248
	popq	%rbx
	popq	%rbp
	popq	%rdi
	popq	%rsi
	popq	%r12
	popq	%r13
	popq	%r14
	popq	%r15
	retq
	.seh_endproc
                                        # -- End function
	.def	recoding_kernels_widen_damaged_14d81c390063096d_206;
	.scl	3;
	.type	32;
	.endef
	.section .rdata$n0,"dr"
	.p2align	4, 0x0                          # -- Begin function recoding::kernels::widen_damaged::<#14d81c390063096d>
.LCPI38_0:
	.zero	16,253
	.section .text$n42,"xr"
	.p2align	4
recoding_kernels_widen_damaged_14d81c390063096d_206: # @recoding_kernels_widen_damaged_14d81c390063096d_206
.seh_proc recoding_kernels_widen_damaged_14d81c390063096d_206
# %bb.0:                                # %start
	pushq	%r15
	.seh_pushreg %r15
	pushq	%r14
	.seh_pushreg %r14
	pushq	%r13
	.seh_pushreg %r13
	pushq	%r12
	.seh_pushreg %r12
	pushq	%rsi
	.seh_pushreg %rsi
	pushq	%rdi
	.seh_pushreg %rdi
	pushq	%rbp
	.seh_pushreg %rbp
	pushq	%rbx
	.seh_pushreg %rbx
	subq	$952, %rsp                      # imm = 0x3B8
	.seh_stackalloc 952
	movdqa	%xmm10, 928(%rsp)               # 16-byte Spill
	.seh_savexmm %xmm10, 928
	movdqa	%xmm9, 912(%rsp)                # 16-byte Spill
	.seh_savexmm %xmm9, 912
	movdqa	%xmm8, 896(%rsp)                # 16-byte Spill
	.seh_savexmm %xmm8, 896
	movdqa	%xmm7, 880(%rsp)                # 16-byte Spill
	.seh_savexmm %xmm7, 880
	movdqa	%xmm6, 864(%rsp)                # 16-byte Spill
	.seh_savexmm %xmm6, 864
	.seh_endprologue
	movq	%r8, %rdi
	movq	%rdx, %rbx
	movq	%rcx, %r14
	pxor	%xmm0, %xmm0
	movdqa	%xmm0, 48(%rsp)
	movq	$0, 64(%rsp)
	xorl	%esi, %esi
	leaq	352(%rsp), %rcx
	movl	$512, %r8d                      # imm = 0x200
	xorl	%edx, %edx
	callq	memset
	xorl	%r12d, %r12d
	movq	%r14, 80(%rsp)                  # 8-byte Spill
	movq	%rbx, 88(%rsp)                  # 8-byte Spill
	jmp	.LBB38_1
	.p2align	4
.LBB38_20:                              # %recoding_kernels_put_next_text_fc185a580612e994_exit_230
                                        #   in Loop: Header=BB38_1 Depth=1
	addq	%rbp, %rsi
	movq	%r12, %rax
	subq	%r15, %rax
	cmpq	$1024, %rax                     # imm = 0x400
	jae	.LBB38_21
.LBB38_1:                               # %loop.2
                                        # =>This Loop Header: Depth=1
                                        #     Child Loop BB38_11 Depth 2
	leaq	(%r14,%r12), %rdx
	movq	%rbx, %r8
	subq	%r12, %r8
	leaq	48(%rsp), %rcx
	leaq	352(%rsp), %r9
	callq	utf_lanes_mending_mend_0a9db3908d7f4f9c_128
	movq	48(%rsp), %r13
	testq	%r13, %r13
	je	.LBB38_21
# %bb.2:                                # %else.6
                                        #   in Loop: Header=BB38_1 Depth=1
	movq	56(%rsp), %rdx
	leaq	-1(%rdx), %rax
	cmpq	$31, %rax
	jb	.LBB38_21
# %bb.3:                                # %else.9
                                        #   in Loop: Header=BB38_1 Depth=1
	movq	16(%rdi), %rax
	subq	8(%rdi), %rax
	leaq	(%rdx,%rdx,2), %rcx
	cmpq	%rcx, %rax
	jb	.LBB38_21
# %bb.4:                                # %after.3
                                        #   in Loop: Header=BB38_1 Depth=1
	testq	%rdx, %rdx
	je	.LBB38_6
# %bb.5:                                # %then.1.i
                                        #   in Loop: Header=BB38_1 Depth=1
	leaq	352(%rsp), %rcx
	movq	%rdi, %r8
	callq	recoding_list_append_units_db1eb2065a50937f_221
.LBB38_6:                               # %recoding_kernels_put_mended_fc185a580612e994_exit_231
                                        #   in Loop: Header=BB38_1 Depth=1
	addq	64(%rsp), %rsi
	addq	%r12, %r13
	movq	%rbx, %r12
	subq	%r13, %r12
	cmpq	$67, %r12
	jb	.LBB38_7
# %bb.8:                                # %then.1.i.i
                                        #   in Loop: Header=BB38_1 Depth=1
	addq	%r13, %r14
	cmpb	$0, (%r14)
	jns	.LBB38_10
# %bb.9:                                # %else.5.i.i
                                        #   in Loop: Header=BB38_1 Depth=1
	cmpb	$0, 1(%r14)
	js	.LBB38_7
.LBB38_10:                              # %then.7.i.preheader
                                        #   in Loop: Header=BB38_1 Depth=1
	xorl	%r15d, %r15d
	xorl	%ebp, %ebp
	jmp	.LBB38_11
	.p2align	4
.LBB38_13:                              # %then.1.i27
                                        #   in Loop: Header=BB38_11 Depth=2
	pxor	%xmm0, %xmm0
	pxor	%xmm6, %xmm6
	punpckhbw	%xmm4, %xmm6            # xmm6 = xmm6[8],xmm4[8],xmm6[9],xmm4[9],xmm6[10],xmm4[10],xmm6[11],xmm4[11],xmm6[12],xmm4[12],xmm6[13],xmm4[13],xmm6[14],xmm4[14],xmm6[15],xmm4[15]
	pxor	%xmm7, %xmm7
	punpcklbw	%xmm4, %xmm7            # xmm7 = xmm7[0],xmm4[0],xmm7[1],xmm4[1],xmm7[2],xmm4[2],xmm7[3],xmm4[3],xmm7[4],xmm4[4],xmm7[5],xmm4[5],xmm7[6],xmm4[6],xmm7[7],xmm4[7]
	pxor	%xmm8, %xmm8
	punpcklbw	%xmm3, %xmm8            # xmm8 = xmm8[0],xmm3[0],xmm8[1],xmm3[1],xmm8[2],xmm3[2],xmm8[3],xmm3[3],xmm8[4],xmm3[4],xmm8[5],xmm3[5],xmm8[6],xmm3[6],xmm8[7],xmm3[7]
	pxor	%xmm9, %xmm9
	punpckhbw	%xmm3, %xmm9            # xmm9 = xmm9[8],xmm3[8],xmm9[9],xmm3[9],xmm9[10],xmm3[10],xmm9[11],xmm3[11],xmm9[12],xmm3[12],xmm9[13],xmm3[13],xmm9[14],xmm3[14],xmm9[15],xmm3[15]
	pxor	%xmm3, %xmm3
	punpckhbw	%xmm2, %xmm3            # xmm3 = xmm3[8],xmm2[8],xmm3[9],xmm2[9],xmm3[10],xmm2[10],xmm3[11],xmm2[11],xmm3[12],xmm2[12],xmm3[13],xmm2[13],xmm3[14],xmm2[14],xmm3[15],xmm2[15]
	pxor	%xmm4, %xmm4
	punpcklbw	%xmm2, %xmm4            # xmm4 = xmm4[0],xmm2[0],xmm4[1],xmm2[1],xmm4[2],xmm2[2],xmm4[3],xmm2[3],xmm4[4],xmm2[4],xmm4[5],xmm2[5],xmm4[6],xmm2[6],xmm4[7],xmm2[7]
	pxor	%xmm2, %xmm2
	punpcklbw	%xmm1, %xmm2            # xmm2 = xmm2[0],xmm1[0],xmm2[1],xmm1[1],xmm2[2],xmm1[2],xmm2[3],xmm1[3],xmm2[4],xmm1[4],xmm2[5],xmm1[5],xmm2[6],xmm1[6],xmm2[7],xmm1[7]
	punpckhbw	%xmm1, %xmm0            # xmm0 = xmm0[8],xmm1[8],xmm0[9],xmm1[9],xmm0[10],xmm1[10],xmm0[11],xmm1[11],xmm0[12],xmm1[12],xmm0[13],xmm1[13],xmm0[14],xmm1[14],xmm0[15],xmm1[15]
	movdqa	%xmm0, 192(%rsp)
	movdqa	%xmm2, 208(%rsp)
	movdqa	%xmm4, 176(%rsp)
	movdqa	%xmm3, 160(%rsp)
	leaq	160(%rsp), %rax
	movq	%rax, 32(%rsp)
	leaq	208(%rsp), %rdx
	leaq	192(%rsp), %r8
	leaq	176(%rsp), %r9
	movq	%rdi, %rcx
	callq	recoding_list_VecU8Output_put_wide_e3b2a9d4d2861db8_152
	movdqa	%xmm9, 128(%rsp)
	movdqa	%xmm8, 144(%rsp)
	movdqa	%xmm7, 112(%rsp)
	movdqa	%xmm6, 96(%rsp)
	leaq	96(%rsp), %rax
	movq	%rax, 32(%rsp)
	leaq	144(%rsp), %rdx
	leaq	128(%rsp), %r8
	leaq	112(%rsp), %r9
	movq	%rdi, %rcx
	callq	recoding_list_VecU8Output_put_wide_e3b2a9d4d2861db8_152
	xorl	%ebx, %ebx
.LBB38_16:                              # %arm.14.i
                                        #   in Loop: Header=BB38_11 Depth=2
	addq	$64, %r15
	addq	%rbx, %rbp
	addq	$-64, %r12
	cmpq	$66, %r12
	jbe	.LBB38_17
.LBB38_11:                              # %then.7.i
                                        #   Parent Loop BB38_1 Depth=1
                                        # =>  This Inner Loop Header: Depth=2
	movq	16(%rdi), %rax
	subq	8(%rdi), %rax
	cmpq	$128, %rax
	jb	.LBB38_17
# %bb.12:                               # %join.9.i
                                        #   in Loop: Header=BB38_11 Depth=2
	movdqu	(%r14,%r15), %xmm1
	movdqu	16(%r14,%r15), %xmm2
	movdqu	32(%r14,%r15), %xmm3
	movdqu	48(%r14,%r15), %xmm4
	movdqa	%xmm3, %xmm0
	por	%xmm1, %xmm0
	movdqa	%xmm4, %xmm5
	por	%xmm2, %xmm5
	por	%xmm0, %xmm5
	pmovmskb	%xmm5, %eax
	testl	%eax, %eax
	je	.LBB38_13
# %bb.14:                               # %join.3.i
                                        #   in Loop: Header=BB38_11 Depth=2
	pmovmskb	%xmm1, %eax
	pmovmskb	%xmm2, %ecx
	shll	$16, %ecx
	orl	%eax, %ecx
	pmovmskb	%xmm3, %edx
	shlq	$32, %rdx
	orq	%rcx, %rdx
	pmovmskb	%xmm4, %eax
	shlq	$48, %rax
	orq	%rdx, %rax
	movq	%rax, %rcx
	shrq	%rcx
	movabsq	$-9223372036854775808, %rdx     # imm = 0x8000000000000000
	orq	%rcx, %rdx
	testq	%rax, %rdx
	jne	.LBB38_17
# %bb.15:                               # %arm.8.i
                                        #   in Loop: Header=BB38_11 Depth=2
	pxor	%xmm6, %xmm6
	pxor	%xmm8, %xmm8
	pcmpgtb	%xmm1, %xmm8
	pxor	%xmm5, %xmm5
	pcmpgtb	%xmm2, %xmm5
	pxor	%xmm7, %xmm7
	movdqa	.LCPI38_0(%rip), %xmm9          # xmm9 = [253,253,253,253,253,253,253,253,253,253,253,253,253,253,253,253]
	movdqa	%xmm1, %xmm0
	pblendvb	%xmm0, %xmm9, %xmm1
	pcmpgtb	%xmm3, %xmm7
	movdqa	%xmm2, %xmm0
	pblendvb	%xmm0, %xmm9, %xmm2
	pcmpgtb	%xmm4, %xmm6
	movdqa	%xmm3, %xmm0
	pblendvb	%xmm0, %xmm9, %xmm3
	xorl	%ebx, %ebx
	popcntq	%rax, %rbx
	movdqa	%xmm4, %xmm0
	pblendvb	%xmm0, %xmm9, %xmm4
	movdqa	%xmm6, %xmm9
	punpckhbw	%xmm4, %xmm9            # xmm9 = xmm9[8],xmm4[8],xmm9[9],xmm4[9],xmm9[10],xmm4[10],xmm9[11],xmm4[11],xmm9[12],xmm4[12],xmm9[13],xmm4[13],xmm9[14],xmm4[14],xmm9[15],xmm4[15]
	punpcklbw	%xmm4, %xmm6            # xmm6 = xmm6[0],xmm4[0],xmm6[1],xmm4[1],xmm6[2],xmm4[2],xmm6[3],xmm4[3],xmm6[4],xmm4[4],xmm6[5],xmm4[5],xmm6[6],xmm4[6],xmm6[7],xmm4[7]
	movdqa	%xmm7, %xmm10
	punpcklbw	%xmm3, %xmm10           # xmm10 = xmm10[0],xmm3[0],xmm10[1],xmm3[1],xmm10[2],xmm3[2],xmm10[3],xmm3[3],xmm10[4],xmm3[4],xmm10[5],xmm3[5],xmm10[6],xmm3[6],xmm10[7],xmm3[7]
	punpckhbw	%xmm3, %xmm7            # xmm7 = xmm7[8],xmm3[8],xmm7[9],xmm3[9],xmm7[10],xmm3[10],xmm7[11],xmm3[11],xmm7[12],xmm3[12],xmm7[13],xmm3[13],xmm7[14],xmm3[14],xmm7[15],xmm3[15]
	movdqa	%xmm5, %xmm0
	punpckhbw	%xmm2, %xmm0            # xmm0 = xmm0[8],xmm2[8],xmm0[9],xmm2[9],xmm0[10],xmm2[10],xmm0[11],xmm2[11],xmm0[12],xmm2[12],xmm0[13],xmm2[13],xmm0[14],xmm2[14],xmm0[15],xmm2[15]
	punpcklbw	%xmm2, %xmm5            # xmm5 = xmm5[0],xmm2[0],xmm5[1],xmm2[1],xmm5[2],xmm2[2],xmm5[3],xmm2[3],xmm5[4],xmm2[4],xmm5[5],xmm2[5],xmm5[6],xmm2[6],xmm5[7],xmm2[7]
	movdqa	%xmm8, %xmm2
	punpcklbw	%xmm1, %xmm2            # xmm2 = xmm2[0],xmm1[0],xmm2[1],xmm1[1],xmm2[2],xmm1[2],xmm2[3],xmm1[3],xmm2[4],xmm1[4],xmm2[5],xmm1[5],xmm2[6],xmm1[6],xmm2[7],xmm1[7]
	punpckhbw	%xmm1, %xmm8            # xmm8 = xmm8[8],xmm1[8],xmm8[9],xmm1[9],xmm8[10],xmm1[10],xmm8[11],xmm1[11],xmm8[12],xmm1[12],xmm8[13],xmm1[13],xmm8[14],xmm1[14],xmm8[15],xmm1[15]
	movdqa	%xmm8, 320(%rsp)
	movdqa	%xmm2, 336(%rsp)
	movdqa	%xmm5, 304(%rsp)
	movdqa	%xmm0, 288(%rsp)
	leaq	288(%rsp), %rax
	movq	%rax, 32(%rsp)
	leaq	336(%rsp), %rdx
	leaq	320(%rsp), %r8
	leaq	304(%rsp), %r9
	movq	%rdi, %rcx
	callq	recoding_list_VecU8Output_put_wide_e3b2a9d4d2861db8_152
	movdqa	%xmm7, 256(%rsp)
	movdqa	%xmm10, 272(%rsp)
	movdqa	%xmm6, 240(%rsp)
	movdqa	%xmm9, 224(%rsp)
	leaq	224(%rsp), %rax
	movq	%rax, 32(%rsp)
	leaq	272(%rsp), %rdx
	leaq	256(%rsp), %r8
	leaq	240(%rsp), %r9
	movq	%rdi, %rcx
	callq	recoding_list_VecU8Output_put_wide_e3b2a9d4d2861db8_152
	jmp	.LBB38_16
	.p2align	4
.LBB38_7:                               #   in Loop: Header=BB38_1 Depth=1
	xorl	%ebp, %ebp
	xorl	%r15d, %r15d
.LBB38_17:                              # %recoding_kernels_put_plain_d2e6c14c333cca8a_exit_232
                                        #   in Loop: Header=BB38_1 Depth=1
	addq	%r13, %r15
	movq	80(%rsp), %r14                  # 8-byte Reload
	movq	%r14, %rcx
	movq	88(%rsp), %rbx                  # 8-byte Reload
	movq	%rbx, %rdx
	movq	%r15, %r8
	callq	recoding_kernels_next_text_end_130
	movq	%rax, %r8
	subq	%r15, %r8
	movq	%r15, %r12
	cmpq	$32, %r8
	jb	.LBB38_20
# %bb.18:                               # %else.4.i
                                        #   in Loop: Header=BB38_1 Depth=1
	movq	%rax, %r13
	movq	16(%rdi), %rax
	subq	8(%rdi), %rax
	movabsq	$-6148914691236517205, %rcx     # imm = 0xAAAAAAAAAAAAAAAB
	mulq	%rcx
	shrq	%rdx
	movq	%r15, %r12
	cmpq	%r8, %rdx
	jb	.LBB38_20
# %bb.19:                               # %after.1.i
                                        #   in Loop: Header=BB38_1 Depth=1
	leaq	(%r14,%r15), %rcx
	movq	%r8, %rdx
	movq	%rdi, %r8
	callq	recoding_list_append_units_db1eb2065a50937f_221
	movq	%r13, %r12
	jmp	.LBB38_20
.LBB38_21:                              # %return.15
	movq	%r12, %rax
	movq	%rsi, %rdx
	movaps	864(%rsp), %xmm6                # 16-byte Reload
	movaps	880(%rsp), %xmm7                # 16-byte Reload
	movaps	896(%rsp), %xmm8                # 16-byte Reload
	movaps	912(%rsp), %xmm9                # 16-byte Reload
	movaps	928(%rsp), %xmm10               # 16-byte Reload
	addq	$952, %rsp                      # imm = 0x3B8
	popq	%rbx
	popq	%rbp
	popq	%rdi
	popq	%rsi
	popq	%r12
	popq	%r13
	popq	%r14
	popq	%r15
	retq
	.seh_endproc
                                        # -- End function
	.def	recoding_kernels_widen_plain_d2e6c14c333cca8a_207;
	.scl	3;
	.type	32;
	.endef
	.section .rdata$n0,"dr"
	.p2align	4, 0x0                          # -- Begin function recoding::kernels::widen_plain::<#d2e6c14c333cca8a>
.LCPI39_0:
	.zero	16,253
	.section .text$n43,"xr"
	.p2align	4
recoding_kernels_widen_plain_d2e6c14c333cca8a_207: # @recoding_kernels_widen_plain_d2e6c14c333cca8a_207
.seh_proc recoding_kernels_widen_plain_d2e6c14c333cca8a_207
# %bb.0:                                # %start
	pushq	%r15
	.seh_pushreg %r15
	pushq	%r14
	.seh_pushreg %r14
	pushq	%r12
	.seh_pushreg %r12
	pushq	%rsi
	.seh_pushreg %rsi
	pushq	%rdi
	.seh_pushreg %rdi
	pushq	%rbx
	.seh_pushreg %rbx
	subq	$392, %rsp                      # imm = 0x188
	.seh_stackalloc 392
	movdqa	%xmm10, 368(%rsp)               # 16-byte Spill
	.seh_savexmm %xmm10, 368
	movdqa	%xmm9, 352(%rsp)                # 16-byte Spill
	.seh_savexmm %xmm9, 352
	movdqa	%xmm8, 336(%rsp)                # 16-byte Spill
	.seh_savexmm %xmm8, 336
	movdqa	%xmm7, 320(%rsp)                # 16-byte Spill
	.seh_savexmm %xmm7, 320
	movdqa	%xmm6, 304(%rsp)                # 16-byte Spill
	.seh_savexmm %xmm6, 304
	.seh_endprologue
	cmpq	$67, %rdx
	jb	.LBB39_1
# %bb.2:                                # %then.1.i.i
	movq	%r8, %rbx
	movq	%rdx, %r14
	movq	%rcx, %r15
	cmpb	$0, (%rcx)
	jns	.LBB39_4
# %bb.3:                                # %else.5.i.i
	cmpb	$0, 1(%r15)
	js	.LBB39_1
.LBB39_4:                               # %then.7.i.lr.ph
	xorl	%edi, %edi
	xorl	%esi, %esi
	jmp	.LBB39_5
	.p2align	4
.LBB39_7:                               # %then.1.i
                                        #   in Loop: Header=BB39_5 Depth=1
	pxor	%xmm0, %xmm0
	pxor	%xmm6, %xmm6
	punpckhbw	%xmm4, %xmm6            # xmm6 = xmm6[8],xmm4[8],xmm6[9],xmm4[9],xmm6[10],xmm4[10],xmm6[11],xmm4[11],xmm6[12],xmm4[12],xmm6[13],xmm4[13],xmm6[14],xmm4[14],xmm6[15],xmm4[15]
	pxor	%xmm7, %xmm7
	punpcklbw	%xmm4, %xmm7            # xmm7 = xmm7[0],xmm4[0],xmm7[1],xmm4[1],xmm7[2],xmm4[2],xmm7[3],xmm4[3],xmm7[4],xmm4[4],xmm7[5],xmm4[5],xmm7[6],xmm4[6],xmm7[7],xmm4[7]
	pxor	%xmm8, %xmm8
	punpcklbw	%xmm3, %xmm8            # xmm8 = xmm8[0],xmm3[0],xmm8[1],xmm3[1],xmm8[2],xmm3[2],xmm8[3],xmm3[3],xmm8[4],xmm3[4],xmm8[5],xmm3[5],xmm8[6],xmm3[6],xmm8[7],xmm3[7]
	pxor	%xmm9, %xmm9
	punpckhbw	%xmm3, %xmm9            # xmm9 = xmm9[8],xmm3[8],xmm9[9],xmm3[9],xmm9[10],xmm3[10],xmm9[11],xmm3[11],xmm9[12],xmm3[12],xmm9[13],xmm3[13],xmm9[14],xmm3[14],xmm9[15],xmm3[15]
	pxor	%xmm3, %xmm3
	punpckhbw	%xmm2, %xmm3            # xmm3 = xmm3[8],xmm2[8],xmm3[9],xmm2[9],xmm3[10],xmm2[10],xmm3[11],xmm2[11],xmm3[12],xmm2[12],xmm3[13],xmm2[13],xmm3[14],xmm2[14],xmm3[15],xmm2[15]
	pxor	%xmm4, %xmm4
	punpcklbw	%xmm2, %xmm4            # xmm4 = xmm4[0],xmm2[0],xmm4[1],xmm2[1],xmm4[2],xmm2[2],xmm4[3],xmm2[3],xmm4[4],xmm2[4],xmm4[5],xmm2[5],xmm4[6],xmm2[6],xmm4[7],xmm2[7]
	pxor	%xmm2, %xmm2
	punpcklbw	%xmm1, %xmm2            # xmm2 = xmm2[0],xmm1[0],xmm2[1],xmm1[1],xmm2[2],xmm1[2],xmm2[3],xmm1[3],xmm2[4],xmm1[4],xmm2[5],xmm1[5],xmm2[6],xmm1[6],xmm2[7],xmm1[7]
	punpckhbw	%xmm1, %xmm0            # xmm0 = xmm0[8],xmm1[8],xmm0[9],xmm1[9],xmm0[10],xmm1[10],xmm0[11],xmm1[11],xmm0[12],xmm1[12],xmm0[13],xmm1[13],xmm0[14],xmm1[14],xmm0[15],xmm1[15]
	movdqa	%xmm0, 144(%rsp)
	movdqa	%xmm2, 160(%rsp)
	movdqa	%xmm4, 128(%rsp)
	movdqa	%xmm3, 112(%rsp)
	leaq	112(%rsp), %rax
	movq	%rax, 32(%rsp)
	leaq	160(%rsp), %rdx
	leaq	144(%rsp), %r8
	leaq	128(%rsp), %r9
	movq	%rbx, %rcx
	callq	recoding_list_VecU8Output_put_wide_e3b2a9d4d2861db8_152
	movdqa	%xmm9, 80(%rsp)
	movdqa	%xmm8, 96(%rsp)
	movdqa	%xmm7, 64(%rsp)
	movdqa	%xmm6, 48(%rsp)
	leaq	48(%rsp), %rax
	movq	%rax, 32(%rsp)
	leaq	96(%rsp), %rdx
	leaq	80(%rsp), %r8
	leaq	64(%rsp), %r9
	movq	%rbx, %rcx
	callq	recoding_list_VecU8Output_put_wide_e3b2a9d4d2861db8_152
	xorl	%r12d, %r12d
.LBB39_10:                              # %arm.14.i
                                        #   in Loop: Header=BB39_5 Depth=1
	addq	$64, %rdi
	addq	%r12, %rsi
	addq	$-64, %r14
	cmpq	$66, %r14
	jbe	.LBB39_11
.LBB39_5:                               # %then.7.i
                                        # =>This Inner Loop Header: Depth=1
	movq	16(%rbx), %rax
	subq	8(%rbx), %rax
	cmpq	$128, %rax
	jb	.LBB39_11
# %bb.6:                                # %join.9.i
                                        #   in Loop: Header=BB39_5 Depth=1
	movdqu	(%r15,%rdi), %xmm1
	movdqu	16(%r15,%rdi), %xmm2
	movdqu	32(%r15,%rdi), %xmm3
	movdqu	48(%r15,%rdi), %xmm4
	movdqa	%xmm3, %xmm0
	por	%xmm1, %xmm0
	movdqa	%xmm4, %xmm5
	por	%xmm2, %xmm5
	por	%xmm0, %xmm5
	pmovmskb	%xmm5, %eax
	testl	%eax, %eax
	je	.LBB39_7
# %bb.8:                                # %join.3.i
                                        #   in Loop: Header=BB39_5 Depth=1
	pmovmskb	%xmm1, %eax
	pmovmskb	%xmm2, %ecx
	shll	$16, %ecx
	orl	%eax, %ecx
	pmovmskb	%xmm3, %edx
	shlq	$32, %rdx
	orq	%rcx, %rdx
	pmovmskb	%xmm4, %eax
	shlq	$48, %rax
	orq	%rdx, %rax
	movq	%rax, %rcx
	shrq	%rcx
	movabsq	$-9223372036854775808, %rdx     # imm = 0x8000000000000000
	orq	%rcx, %rdx
	testq	%rax, %rdx
	jne	.LBB39_11
# %bb.9:                                # %arm.8.i
                                        #   in Loop: Header=BB39_5 Depth=1
	pxor	%xmm6, %xmm6
	pxor	%xmm8, %xmm8
	pcmpgtb	%xmm1, %xmm8
	pxor	%xmm5, %xmm5
	pcmpgtb	%xmm2, %xmm5
	pxor	%xmm7, %xmm7
	movdqa	.LCPI39_0(%rip), %xmm9          # xmm9 = [253,253,253,253,253,253,253,253,253,253,253,253,253,253,253,253]
	movdqa	%xmm1, %xmm0
	pblendvb	%xmm0, %xmm9, %xmm1
	pcmpgtb	%xmm3, %xmm7
	movdqa	%xmm2, %xmm0
	pblendvb	%xmm0, %xmm9, %xmm2
	pcmpgtb	%xmm4, %xmm6
	movdqa	%xmm3, %xmm0
	pblendvb	%xmm0, %xmm9, %xmm3
	xorl	%r12d, %r12d
	popcntq	%rax, %r12
	movdqa	%xmm4, %xmm0
	pblendvb	%xmm0, %xmm9, %xmm4
	movdqa	%xmm6, %xmm9
	punpckhbw	%xmm4, %xmm9            # xmm9 = xmm9[8],xmm4[8],xmm9[9],xmm4[9],xmm9[10],xmm4[10],xmm9[11],xmm4[11],xmm9[12],xmm4[12],xmm9[13],xmm4[13],xmm9[14],xmm4[14],xmm9[15],xmm4[15]
	punpcklbw	%xmm4, %xmm6            # xmm6 = xmm6[0],xmm4[0],xmm6[1],xmm4[1],xmm6[2],xmm4[2],xmm6[3],xmm4[3],xmm6[4],xmm4[4],xmm6[5],xmm4[5],xmm6[6],xmm4[6],xmm6[7],xmm4[7]
	movdqa	%xmm7, %xmm10
	punpcklbw	%xmm3, %xmm10           # xmm10 = xmm10[0],xmm3[0],xmm10[1],xmm3[1],xmm10[2],xmm3[2],xmm10[3],xmm3[3],xmm10[4],xmm3[4],xmm10[5],xmm3[5],xmm10[6],xmm3[6],xmm10[7],xmm3[7]
	punpckhbw	%xmm3, %xmm7            # xmm7 = xmm7[8],xmm3[8],xmm7[9],xmm3[9],xmm7[10],xmm3[10],xmm7[11],xmm3[11],xmm7[12],xmm3[12],xmm7[13],xmm3[13],xmm7[14],xmm3[14],xmm7[15],xmm3[15]
	movdqa	%xmm5, %xmm0
	punpckhbw	%xmm2, %xmm0            # xmm0 = xmm0[8],xmm2[8],xmm0[9],xmm2[9],xmm0[10],xmm2[10],xmm0[11],xmm2[11],xmm0[12],xmm2[12],xmm0[13],xmm2[13],xmm0[14],xmm2[14],xmm0[15],xmm2[15]
	punpcklbw	%xmm2, %xmm5            # xmm5 = xmm5[0],xmm2[0],xmm5[1],xmm2[1],xmm5[2],xmm2[2],xmm5[3],xmm2[3],xmm5[4],xmm2[4],xmm5[5],xmm2[5],xmm5[6],xmm2[6],xmm5[7],xmm2[7]
	movdqa	%xmm8, %xmm2
	punpcklbw	%xmm1, %xmm2            # xmm2 = xmm2[0],xmm1[0],xmm2[1],xmm1[1],xmm2[2],xmm1[2],xmm2[3],xmm1[3],xmm2[4],xmm1[4],xmm2[5],xmm1[5],xmm2[6],xmm1[6],xmm2[7],xmm1[7]
	punpckhbw	%xmm1, %xmm8            # xmm8 = xmm8[8],xmm1[8],xmm8[9],xmm1[9],xmm8[10],xmm1[10],xmm8[11],xmm1[11],xmm8[12],xmm1[12],xmm8[13],xmm1[13],xmm8[14],xmm1[14],xmm8[15],xmm1[15]
	movdqa	%xmm8, 272(%rsp)
	movdqa	%xmm2, 288(%rsp)
	movdqa	%xmm5, 256(%rsp)
	movdqa	%xmm0, 240(%rsp)
	leaq	240(%rsp), %rax
	movq	%rax, 32(%rsp)
	leaq	288(%rsp), %rdx
	leaq	272(%rsp), %r8
	leaq	256(%rsp), %r9
	movq	%rbx, %rcx
	callq	recoding_list_VecU8Output_put_wide_e3b2a9d4d2861db8_152
	movdqa	%xmm7, 208(%rsp)
	movdqa	%xmm10, 224(%rsp)
	movdqa	%xmm6, 192(%rsp)
	movdqa	%xmm9, 176(%rsp)
	leaq	176(%rsp), %rax
	movq	%rax, 32(%rsp)
	leaq	224(%rsp), %rdx
	leaq	208(%rsp), %r8
	leaq	192(%rsp), %r9
	movq	%rbx, %rcx
	callq	recoding_list_VecU8Output_put_wide_e3b2a9d4d2861db8_152
	jmp	.LBB39_10
.LBB39_1:
	xorl	%esi, %esi
	xorl	%edi, %edi
.LBB39_11:                              # %recoding_kernels_put_plain_d2e6c14c333cca8a_exit_232
	movq	%rdi, %rax
	movq	%rsi, %rdx
	movaps	304(%rsp), %xmm6                # 16-byte Reload
	movaps	320(%rsp), %xmm7                # 16-byte Reload
	movaps	336(%rsp), %xmm8                # 16-byte Reload
	movaps	352(%rsp), %xmm9                # 16-byte Reload
	movaps	368(%rsp), %xmm10               # 16-byte Reload
	addq	$392, %rsp                      # imm = 0x188
	popq	%rbx
	popq	%rdi
	popq	%rsi
	popq	%r12
	popq	%r14
	popq	%r15
	retq
	.seh_endproc
                                        # -- End function
	.def	recoding_engine_recode_faults_e11ba97e6063c4ca_211;
	.scl	3;
	.type	32;
	.endef
	.section .text$n44,"xr"
	.p2align	4                               # -- Begin function recoding::engine::recode_faults::<#e11ba97e6063c4ca>
recoding_engine_recode_faults_e11ba97e6063c4ca_211: # @recoding_engine_recode_faults_e11ba97e6063c4ca_211
.seh_proc recoding_engine_recode_faults_e11ba97e6063c4ca_211
# %bb.0:                                # %start
	pushq	%r15
	.seh_pushreg %r15
	pushq	%r14
	.seh_pushreg %r14
	pushq	%r13
	.seh_pushreg %r13
	pushq	%r12
	.seh_pushreg %r12
	pushq	%rsi
	.seh_pushreg %rsi
	pushq	%rdi
	.seh_pushreg %rdi
	pushq	%rbp
	.seh_pushreg %rbp
	pushq	%rbx
	.seh_pushreg %rbx
	subq	$72, %rsp
	.seh_stackalloc 72
	.seh_endprologue
	movq	%r9, %rdi
	movq	%rdx, %r11
	movq	%rcx, 48(%rsp)                  # 8-byte Spill
	movl	$16, %r9d
	xorl	%ecx, %ecx
	xorl	%ebp, %ebp
	jmp	.LBB40_4
.LBB40_1:                               # %arm.10.i.i
                                        #   in Loop: Header=BB40_4 Depth=1
	leaq	(%r11,%rsi), %rcx
	movq	%r15, %rdx
	movq	%r8, %rbx
	movq	%r11, %r14
	callq	recoding_next_scalar_is_front_of_code_81
	movq	%r14, %r11
	movq	%rbx, %r8
	testb	%al, %al
	jne	.LBB40_41
	.p2align	4
.LBB40_2:                               # %recoding_text_Utf16Text_put_any_f52bd5352b4cd2db_exit_233
                                        #   in Loop: Header=BB40_4 Depth=1
	cmpq	$32, %r13
	movl	$32, %r9d
	cmovbq	%r13, %r9
	movq	(%rdi), %rax
	movq	8(%rdi), %rcx
	movb	$-1, (%rax,%rcx)
	movq	(%rdi), %rax
	movb	$-3, 1(%rax,%rcx)
	addq	$2, %rcx
	movq	%rcx, 8(%rdi)
	incq	%rbp
	movl	$1, %ecx
.LBB40_3:                               # %join.12
                                        #   in Loop: Header=BB40_4 Depth=1
	addq	%rsi, %rcx
	cmpq	%r9, %rcx
	jae	.LBB40_39
.LBB40_4:                               # %join.5
                                        # =>This Inner Loop Header: Depth=1
	movq	%rcx, %rsi
	leaq	4(%rcx), %r13
	cmpq	%r8, %r13
	jbe	.LBB40_6
# %bb.5:                                # %join.3.i
                                        #   in Loop: Header=BB40_4 Depth=1
	movq	%r8, %r15
	subq	%rsi, %r15
	cmpq	$4, %r15
	jb	.LBB40_13
.LBB40_6:                               # %then.1.i.i65
                                        #   in Loop: Header=BB40_4 Depth=1
	movzbl	(%r11,%rsi), %eax
	testb	%al, %al
	js	.LBB40_7
# %bb.12:                               # %utf_lanes_text_front_front_of_text_exit139_i_thread_144
                                        #   in Loop: Header=BB40_4 Depth=1
	movl	$1, %ecx
.LBB40_18:                              # %arm.1.i25
                                        #   in Loop: Header=BB40_4 Depth=1
	movq	(%rdi), %rdx
	movq	8(%rdi), %rbx
	movb	%ah, (%rdx,%rbx)
	movq	(%rdi), %rdx
	movb	%al, 1(%rdx,%rbx)
	addq	$2, %rbx
	movq	%rbx, 8(%rdi)
	jmp	.LBB40_3
	.p2align	4
.LBB40_7:                               # %join.6.i104.i
                                        #   in Loop: Header=BB40_4 Depth=1
	movzbl	1(%r11,%rsi), %ecx
	cmpb	$-32, %al
	jae	.LBB40_19
# %bb.8:                                # %utf_lanes_text_front_front_of_text_exit139_i_145
                                        #   in Loop: Header=BB40_4 Depth=1
	cmpb	$-62, %al
	jb	.LBB40_2
# %bb.9:                                # %utf_lanes_text_front_front_of_text_exit139_i_145
                                        #   in Loop: Header=BB40_4 Depth=1
	xorl	$128, %ecx
	cmpb	$63, %cl
	ja	.LBB40_2
# %bb.10:                               #   in Loop: Header=BB40_4 Depth=1
	shll	$6, %eax
	addl	%ecx, %eax
	addl	$-12288, %eax                   # imm = 0xD000
	movl	$2, %ecx
	cmpl	$65535, %eax                    # imm = 0xFFFF
	jbe	.LBB40_18
.LBB40_29:                              # %arm.2.i24
                                        #   in Loop: Header=BB40_4 Depth=1
	movl	%eax, %edx
	shrl	$10, %edx
	addl	$-10304, %edx                   # imm = 0xD7C0
	movl	%eax, %r10d
	shrl	$8, %eax
	andb	$3, %al
	orb	$-36, %al
	movq	(%rdi), %rbx
	movq	%rbp, %r14
	movq	8(%rdi), %rbp
	movb	%dh, (%rbx,%rbp)
	movq	%r9, %rbx
	movq	(%rdi), %r9
	movb	%dl, 1(%r9,%rbp)
	movq	%rbx, %r9
	movq	(%rdi), %rdx
	movb	%al, 2(%rdx,%rbp)
	movq	(%rdi), %rax
	movb	%r10b, 3(%rax,%rbp)
	addq	$4, %rbp
	movq	%rbp, 8(%rdi)
	movq	%r14, %rbp
	jmp	.LBB40_3
	.p2align	4
.LBB40_13:                              # %join.3.i.i
                                        #   in Loop: Header=BB40_4 Depth=1
	cmpq	%rsi, %r8
	je	.LBB40_1
# %bb.14:                               # %join.3.i316.i
                                        #   in Loop: Header=BB40_4 Depth=1
	movzbl	(%r11,%rsi), %r14d
	leaq	static.8(%rip), %rax
	movzbl	(%r14,%rax), %eax
	leaq	static.9(%rip), %rbx
	movzbl	(%rax,%rbx), %r12d
	cmpq	$12, %r12
	jbe	.LBB40_30
# %bb.15:                               # %join.6.i321.i
                                        #   in Loop: Header=BB40_4 Depth=1
	cmpl	$13, %r12d
	jne	.LBB40_2
# %bb.16:                               # %join.9.i323.i
                                        #   in Loop: Header=BB40_4 Depth=1
	testb	%r14b, %r14b
	js	.LBB40_42
# %bb.17:                               # %utf_chars_codes_utf8_decode_start_exit_i_thread458_234
                                        #   in Loop: Header=BB40_4 Depth=1
	movl	$1, %ecx
	movl	%r14d, %eax
	jmp	.LBB40_18
.LBB40_19:                              # %join.9.i106.i
                                        #   in Loop: Header=BB40_4 Depth=1
	cmpb	$-65, %cl
	jg	.LBB40_2
# %bb.20:                               # %join.12.i113.i
                                        #   in Loop: Header=BB40_4 Depth=1
	movl	%eax, %edx
	andl	$15, %eax
	andl	$63, %ecx
	shll	$6, %eax
	orl	%ecx, %eax
	cmpb	$-17, %dl
	ja	.LBB40_25
# %bb.21:                               # %then.13.i125.i
                                        #   in Loop: Header=BB40_4 Depth=1
	movl	%eax, %ecx
	andl	$-32, %ecx
	cmpl	$864, %ecx                      # imm = 0x360
	je	.LBB40_2
# %bb.22:                               # %join.3.i187.i
                                        #   in Loop: Header=BB40_4 Depth=1
	movzbl	2(%r11,%rsi), %edx
	cmpb	$-65, %dl
	jg	.LBB40_2
# %bb.23:                               # %join.3.i187.i
                                        #   in Loop: Header=BB40_4 Depth=1
	cmpl	$32, %eax
	jb	.LBB40_2
# %bb.24:                               # %join.9.i191.i
                                        #   in Loop: Header=BB40_4 Depth=1
	shll	$6, %eax
	andl	$63, %edx
	orl	%eax, %edx
	movl	$3, %ecx
	movl	%edx, %eax
	jmp	.LBB40_18
.LBB40_25:                              # %else.14.i116.i
                                        #   in Loop: Header=BB40_4 Depth=1
	leal	-272(%rax), %ecx
	cmpl	$-256, %ecx
	jb	.LBB40_2
# %bb.26:                               # %after.1.i.i
                                        #   in Loop: Header=BB40_4 Depth=1
	movzbl	2(%r11,%rsi), %edx
	cmpb	$-65, %dl
	jg	.LBB40_2
# %bb.27:                               # %else.14.i254.i
                                        #   in Loop: Header=BB40_4 Depth=1
	movzbl	3(%r11,%rsi), %ecx
	cmpb	$-65, %cl
	jg	.LBB40_2
# %bb.28:                               # %after.11.i.i
                                        #   in Loop: Header=BB40_4 Depth=1
	andl	$63, %edx
	andl	$63, %ecx
	shll	$12, %eax
	shll	$6, %edx
	orl	%eax, %edx
	orl	%ecx, %edx
	movl	$4, %ecx
	movl	%edx, %eax
	jmp	.LBB40_29
.LBB40_30:                              # %then.4.i333.i
                                        #   in Loop: Header=BB40_4 Depth=1
	movl	%r12d, %ecx
	movq	%r8, 64(%rsp)                   # 8-byte Spill
	movq	%rbp, 56(%rsp)                  # 8-byte Spill
	movq	%r11, %rbp
	movq	%r9, 40(%rsp)                   # 8-byte Spill
	callq	utf_chars_codes_utf8_missing_after_80
	movq	40(%rsp), %r9                   # 8-byte Reload
	movq	%rbp, %r11
	movq	56(%rsp), %rbp                  # 8-byte Reload
	movq	64(%rsp), %r8                   # 8-byte Reload
	cmpq	%rax, %r15
	jbe	.LBB40_1
# %bb.31:                               # %join.3.i351.i
                                        #   in Loop: Header=BB40_4 Depth=1
	movzbl	1(%r11,%rsi), %edx
	leaq	static.8(%rip), %rcx
	movzbl	(%rdx,%rcx), %eax
	shll	$4, %r12d
	addq	%rbx, %r12
	movzbl	(%rax,%r12), %eax
	cmpq	$12, %rax
	ja	.LBB40_35
# %bb.32:                               # %then.1.i379.i
                                        #   in Loop: Header=BB40_4 Depth=1
	movzbl	2(%r11,%rsi), %r10d
	movq	%rcx, %r15
	movzbl	(%r10,%rcx), %ecx
	shll	$4, %eax
	addq	%rbx, %rax
	movzbl	(%rcx,%rax), %ecx
	cmpq	$12, %rcx
	ja	.LBB40_37
# %bb.33:                               # %then.1.i418.i
                                        #   in Loop: Header=BB40_4 Depth=1
	movzbl	3(%r11,%rsi), %eax
	movzbl	(%rax,%r15), %r9d
	shll	$4, %ecx
	addq	%rcx, %rbx
	cmpb	$13, (%r9,%rbx)
	movq	40(%rsp), %r9                   # 8-byte Reload
	jne	.LBB40_2
# %bb.34:                               # %join.3.i436.i
                                        #   in Loop: Header=BB40_4 Depth=1
	andl	$7, %r14d
	andl	$63, %edx
	shll	$12, %r14d
	shll	$6, %edx
	orl	%r14d, %edx
	andl	$63, %r10d
	orl	%edx, %r10d
	shll	$6, %r10d
	andl	$63, %eax
	orl	%r10d, %eax
	movl	$4, %ecx
	cmpl	$65535, %eax                    # imm = 0xFFFF
	jbe	.LBB40_18
	jmp	.LBB40_29
.LBB40_35:                              # %join.3.i366.i
                                        #   in Loop: Header=BB40_4 Depth=1
	cmpl	$13, %eax
	jne	.LBB40_2
# %bb.36:                               # %utf_chars_codes_utf8_decode_start_exit_i_thread539_235
                                        #   in Loop: Header=BB40_4 Depth=1
	andl	$31, %r14d
	shll	$6, %r14d
	andl	$63, %edx
	orl	%r14d, %edx
	movl	$2, %ecx
	movl	%edx, %eax
	jmp	.LBB40_18
.LBB40_37:                              # %join.3.i399.i
                                        #   in Loop: Header=BB40_4 Depth=1
	cmpl	$13, %ecx
	jne	.LBB40_2
# %bb.38:                               # %join.6.i401.i
                                        #   in Loop: Header=BB40_4 Depth=1
	andl	$15, %r14d
	andl	$63, %edx
	shll	$12, %r14d
	shll	$6, %edx
	orl	%r14d, %edx
	andl	$63, %r10d
	orl	%edx, %r10d
	movl	$3, %ecx
	movl	%r10d, %eax
	jmp	.LBB40_18
.LBB40_39:                              # %after.1
	movq	48(%rsp), %rax                  # 8-byte Reload
	movq	%rcx, (%rax)
	movq	%rbp, 8(%rax)
	movq	$0, 16(%rax)
.LBB40_40:                              # %after.1
	addq	$72, %rsp
	popq	%rbx
	popq	%rbp
	popq	%rdi
	popq	%rsi
	popq	%r12
	popq	%r13
	popq	%r14
	popq	%r15
	retq
.LBB40_41:                              # %arm.7
	movq	48(%rsp), %rax                  # 8-byte Reload
	movq	%rsi, (%rax)
	movq	%rbp, 8(%rax)
	movw	$256, 16(%rax)                  # imm = 0x100
	movl	$0, 18(%rax)
	movw	$0, 22(%rax)
	jmp	.LBB40_40
.LBB40_42:                              # %join.4.i.i
	ud2
	.seh_endproc
                                        # -- End function
	.def	recoding_recoder_runs_run_whole_d46ce40aec13b609_41;
	.scl	3;
	.type	32;
	.endef
	.section .text$n45,"xr"
	.p2align	4                               # -- Begin function recoding::recoder_runs::run_whole::<#d46ce40aec13b609>
recoding_recoder_runs_run_whole_d46ce40aec13b609_41: # @recoding_recoder_runs_run_whole_d46ce40aec13b609_41
.seh_proc recoding_recoder_runs_run_whole_d46ce40aec13b609_41
# %bb.0:                                # %start
	pushq	%r15
	.seh_pushreg %r15
	pushq	%r14
	.seh_pushreg %r14
	pushq	%r13
	.seh_pushreg %r13
	pushq	%r12
	.seh_pushreg %r12
	pushq	%rsi
	.seh_pushreg %rsi
	pushq	%rdi
	.seh_pushreg %rdi
	pushq	%rbx
	.seh_pushreg %rbx
	subq	$128, %rsp
	.seh_stackalloc 128
	.seh_endprologue
	movq	%r8, %r14
	movq	%rdx, %rbx
	movq	%rcx, %r15
	xorl	%esi, %esi
	xorl	%edi, %edi
	jmp	.LBB41_2
.LBB41_1:                               # %recoding_kernels_put_damaged_units_a8b304b230851da3_exit_236
                                        #   in Loop: Header=BB41_2 Depth=1
	leaq	(%r15,%rdi), %rcx
	movq	%r14, %r8
	callq	recoding_kernels_put_windows_a8b304b230851da3_237
	addq	%rax, %rdi
	addq	%rdx, %rsi
	testq	%rax, %rax
	je	.LBB41_5
	.p2align	4
.LBB41_2:                               # %loop.2.i
                                        # =>This Loop Header: Depth=1
                                        #     Child Loop BB41_11 Depth 2
	leaq	(%r15,%rdi), %rcx
	movq	%rbx, %rdx
	subq	%rdi, %rdx
	movq	%r14, %r8
	callq	recoding_kernels_NarrowedKernelUtf16Utf8_put_text_a02055794059cfb2_238
	addq	%rax, %rdi
	cmpq	$8187, %rax                     # imm = 0x1FFB
	ja	.LBB41_2
# %bb.3:                                # %join.5.i
                                        #   in Loop: Header=BB41_2 Depth=1
	movq	%rbx, %rdx
	subq	%rdi, %rdx
	je	.LBB41_25
# %bb.4:                                # %join.8.i
                                        #   in Loop: Header=BB41_2 Depth=1
	cmpq	$64, %rdx
	jae	.LBB41_1
	jmp	.LBB41_6
.LBB41_5:                               # %recoding_kernels_put_damaged_units_a8b304b230851da3_exit_join_14_i_crit_edge_239
                                        #   in Loop: Header=BB41_2 Depth=1
	movq	%rbx, %rdx
	subq	%rdi, %rdx
.LBB41_6:                               # %join.14.i
                                        #   in Loop: Header=BB41_2 Depth=1
	cmpq	$128, %rdx
	movl	$128, %ecx
	cmovbq	%rdx, %rcx
	cmpq	$2, %rdx
	jb	.LBB41_21
# %bb.7:                                # %join.5.i47.preheader
                                        #   in Loop: Header=BB41_2 Depth=1
	leaq	(%r15,%rdi), %rdx
	xorl	%eax, %eax
	movq	%rcx, %r9
	jmp	.LBB41_11
	.p2align	4
.LBB41_8:                               # %then.1.i.i
                                        #   in Loop: Header=BB41_11 Depth=2
	movq	(%r14), %r8
	movq	8(%r14), %r9
	movb	%r11b, (%r8,%r9)
	incq	%r9
	movq	%r9, 8(%r14)
.LBB41_9:                               # %recoding_codes_put_short_345d457c2768aa28_exit_i_240
                                        #   in Loop: Header=BB41_11 Depth=2
	movl	$2, %r8d
.LBB41_10:                              # %recoding_codes_put_short_345d457c2768aa28_exit_i_240
                                        #   in Loop: Header=BB41_11 Depth=2
	addq	%r8, %rax
	movq	%rcx, %r9
	subq	%rax, %r9
	cmpq	$1, %r9
	jbe	.LBB41_20
.LBB41_11:                              # %join.5.i47
                                        #   Parent Loop BB41_2 Depth=1
                                        # =>  This Inner Loop Header: Depth=2
	movzbl	(%rdx,%rax), %r11d
	movzbl	1(%rdx,%rax), %r8d
	movl	%r8d, %r12d
	shll	$8, %r12d
	leal	(%r12,%r11), %r10d
	andl	$64512, %r12d                   # imm = 0xFC00
	cmpl	$55296, %r12d                   # imm = 0xD800
	je	.LBB41_16
# %bb.12:                               # %join.5.i47
                                        #   in Loop: Header=BB41_11 Depth=2
	cmpl	$56320, %r12d                   # imm = 0xDC00
	je	.LBB41_20
# %bb.13:                               # %arm.7.i
                                        #   in Loop: Header=BB41_11 Depth=2
	movzwl	%r10w, %r9d
	cmpl	$128, %r9d
	jb	.LBB41_8
# %bb.14:                               # %join.3.i.i
                                        #   in Loop: Header=BB41_11 Depth=2
	movl	%r9d, %r10d
	andl	$63, %r10d
	orl	$128, %r10d
	shrl	$6, %r9d
	cmpb	$8, %r8b
	jae	.LBB41_19
# %bb.15:                               # %then.4.i.i
                                        #   in Loop: Header=BB41_11 Depth=2
	orb	$-64, %r9b
	movq	(%r14), %r8
	movq	8(%r14), %r11
	movb	%r9b, (%r8,%r11)
	movq	(%r14), %r8
	movb	%r10b, 1(%r8,%r11)
	addq	$2, %r11
	movq	%r11, 8(%r14)
	jmp	.LBB41_9
	.p2align	4
.LBB41_16:                              # %join.6.i
                                        #   in Loop: Header=BB41_11 Depth=2
	cmpq	$4, %r9
	jb	.LBB41_20
# %bb.17:                               # %join.15.i71.i
                                        #   in Loop: Header=BB41_11 Depth=2
	movzbl	3(%rdx,%rax), %r8d
	movl	%r8d, %r9d
	andl	$-4, %r9d
	cmpl	$220, %r9d
	jne	.LBB41_20
# %bb.18:                               # %join.7.i.i
                                        #   in Loop: Header=BB41_11 Depth=2
	movzwl	%r8w, %r9d
	movzbl	2(%rdx,%rax), %r8d
	andl	$1023, %r10d                    # imm = 0x3FF
	shll	$10, %r10d
	andl	$3, %r9d
	shll	$8, %r9d
	orl	%r8d, %r9d
	leal	65536(%r10), %r11d
	orl	%r10d, %r9d
	andb	$63, %r8b
	orb	$-128, %r8b
	shrl	$6, %r9d
	movl	%r11d, %r10d
	shrl	$18, %r10d
	shrl	$12, %r11d
	orb	$-16, %r10b
	andb	$63, %r11b
	orb	$-128, %r11b
	andb	$63, %r9b
	orb	$-128, %r9b
	movq	(%r14), %r12
	movq	8(%r14), %r13
	movb	%r10b, (%r12,%r13)
	movq	(%r14), %r10
	movb	%r11b, 1(%r10,%r13)
	movq	(%r14), %r10
	movb	%r9b, 2(%r10,%r13)
	movq	(%r14), %r9
	movb	%r8b, 3(%r9,%r13)
	addq	$4, %r13
	movq	%r13, 8(%r14)
	movl	$4, %r8d
	jmp	.LBB41_10
.LBB41_19:                              # %join.7.i.i.thread
                                        #   in Loop: Header=BB41_11 Depth=2
	shrb	$4, %r8b
	orb	$-32, %r8b
	andb	$63, %r9b
	orb	$-128, %r9b
	movq	(%r14), %r11
	movq	8(%r14), %r12
	movb	%r8b, (%r11,%r12)
	movq	(%r14), %r8
	movb	%r9b, 1(%r8,%r12)
	movq	(%r14), %r8
	movb	%r10b, 2(%r8,%r12)
	addq	$3, %r12
	movq	%r12, 8(%r14)
	jmp	.LBB41_9
.LBB41_20:                              # %recoding_engine_recode_text_a0e77f5ac5e791bb_exit_241
                                        #   in Loop: Header=BB41_2 Depth=1
	addq	%rax, %rdi
	cmpq	$124, %rax
	ja	.LBB41_2
.LBB41_21:                              # %then.15.i
                                        #   in Loop: Header=BB41_2 Depth=1
	movq	%rbx, %r9
	subq	%rdi, %r9
	je	.LBB41_25
# %bb.22:                               # %join.20.i
                                        #   in Loop: Header=BB41_2 Depth=1
	leaq	(%r15,%rdi), %r8
	xorps	%xmm0, %xmm0
	movaps	%xmm0, 48(%rsp)
	movq	$0, 64(%rsp)
	movaps	%xmm0, 80(%rsp)
	movaps	%xmm0, 96(%rsp)
	movq	$0, 112(%rsp)
	movq	%r14, 32(%rsp)
	leaq	48(%rsp), %rcx
	leaq	80(%rsp), %rdx
	callq	recoding_engine_recode_faults_7de934f40f1f4d79_242
	addq	48(%rsp), %rdi
	addq	56(%rsp), %rsi
	testb	$1, 64(%rsp)
	jne	.LBB41_26
# %bb.23:                               # %join.20.i
                                        #   in Loop: Header=BB41_2 Depth=1
	testb	$1, 65(%rsp)
	je	.LBB41_2
	jmp	.LBB41_26
.LBB41_25:
	movq	%rbx, %rdi
.LBB41_26:                              # %recoding_engine_run_84aa85cc07d1be5e_exit_243
	movq	%rdi, %rax
	movq	%rsi, %rdx
	addq	$128, %rsp
	popq	%rbx
	popq	%rdi
	popq	%rsi
	popq	%r12
	popq	%r13
	popq	%r14
	popq	%r15
	retq
	.seh_endproc
                                        # -- End function
	.def	recoding_kernels_NarrowedKernelUtf16Utf8_put_text_a02055794059cfb2_238;
	.scl	3;
	.type	32;
	.endef
	.section .rdata$n0,"dr"
	.p2align	4, 0x0                          # -- Begin function recoding::kernels::NarrowedKernelUtf16Utf8::put_text::<#a02055794059cfb2>
.LCPI42_0:
	.byte	1                               # 0x1
	.byte	3                               # 0x3
	.byte	5                               # 0x5
	.byte	7                               # 0x7
	.byte	9                               # 0x9
	.byte	11                              # 0xb
	.byte	13                              # 0xd
	.byte	15                              # 0xf
	.zero	1
	.zero	1
	.zero	1
	.zero	1
	.zero	1
	.zero	1
	.zero	1
	.zero	1
.LCPI42_1:
	.short	255                             # 0xff
	.short	255                             # 0xff
	.short	255                             # 0xff
	.short	255                             # 0xff
	.short	255                             # 0xff
	.short	255                             # 0xff
	.short	255                             # 0xff
	.short	255                             # 0xff
.LCPI42_2:
	.zero	16,1
.LCPI42_3:
	.zero	16,8
.LCPI42_4:
	.zero	16,248
.LCPI42_5:
	.zero	16,216
.LCPI42_6:
	.zero	16,63
.LCPI42_7:
	.zero	16,54
.LCPI42_8:
	.zero	16,55
.LCPI42_9:
	.zero	16,48
.LCPI42_10:
	.zero	16,15
.LCPI42_11:
	.zero	16,252
.LCPI42_12:
	.zero	16,128
.LCPI42_13:
	.zero	16,192
.LCPI42_14:
	.zero	16,7
.LCPI42_15:
	.zero	16,191
.LCPI42_16:
	.zero	16,3
.LCPI42_17:
	.zero	16,241
.LCPI42_18:
	.zero	16,224
.LCPI42_19:
	.zero	16,16
.LCPI42_20:
	.short	128                             # 0x80
	.short	128                             # 0x80
	.short	128                             # 0x80
	.short	128                             # 0x80
	.short	128                             # 0x80
	.short	128                             # 0x80
	.short	128                             # 0x80
	.short	128                             # 0x80
.LCPI42_21:
	.byte	1                               # 0x1
	.byte	3                               # 0x3
	.byte	5                               # 0x5
	.byte	7                               # 0x7
	.byte	9                               # 0x9
	.byte	11                              # 0xb
	.byte	13                              # 0xd
	.byte	15                              # 0xf
	.byte	0                               # 0x0
	.byte	0                               # 0x0
	.byte	0                               # 0x0
	.byte	0                               # 0x0
	.byte	0                               # 0x0
	.byte	0                               # 0x0
	.byte	0                               # 0x0
	.byte	0                               # 0x0
	.section .text$n46,"xr"
	.p2align	4
recoding_kernels_NarrowedKernelUtf16Utf8_put_text_a02055794059cfb2_238: # @recoding_kernels_NarrowedKernelUtf16Utf8_put_text_a02055794059cfb2_238
.seh_proc recoding_kernels_NarrowedKernelUtf16Utf8_put_text_a02055794059cfb2_238
# %bb.0:                                # %start
	pushq	%r15
	.seh_pushreg %r15
	pushq	%r14
	.seh_pushreg %r14
	pushq	%r13
	.seh_pushreg %r13
	pushq	%r12
	.seh_pushreg %r12
	pushq	%rsi
	.seh_pushreg %rsi
	pushq	%rdi
	.seh_pushreg %rdi
	pushq	%rbp
	.seh_pushreg %rbp
	pushq	%rbx
	.seh_pushreg %rbx
	subq	$184, %rsp
	.seh_stackalloc 184
	movdqa	%xmm14, 160(%rsp)               # 16-byte Spill
	.seh_savexmm %xmm14, 160
	movdqa	%xmm13, 144(%rsp)               # 16-byte Spill
	.seh_savexmm %xmm13, 144
	movdqa	%xmm12, 128(%rsp)               # 16-byte Spill
	.seh_savexmm %xmm12, 128
	movdqa	%xmm11, 112(%rsp)               # 16-byte Spill
	.seh_savexmm %xmm11, 112
	movdqa	%xmm10, 96(%rsp)                # 16-byte Spill
	.seh_savexmm %xmm10, 96
	movdqa	%xmm9, 80(%rsp)                 # 16-byte Spill
	.seh_savexmm %xmm9, 80
	movdqa	%xmm8, 64(%rsp)                 # 16-byte Spill
	.seh_savexmm %xmm8, 64
	movdqa	%xmm7, 48(%rsp)                 # 16-byte Spill
	.seh_savexmm %xmm7, 48
	movdqa	%xmm6, 32(%rsp)                 # 16-byte Spill
	.seh_savexmm %xmm6, 32
	.seh_endprologue
	movq	%rdx, %r14
	cmpq	$32, %rdx
	jb	.LBB42_16
# %bb.1:                                # %then.3.i.lr.ph
	movq	8(%r8), %r10
	movq	16(%r8), %rsi
	movq	%rsi, %rax
	subq	%r10, %rax
	cmpq	$64, %rax
	jb	.LBB42_18
# %bb.2:                                # %join.5.i.preheader
	xorl	%eax, %eax
	movq	%r14, %r9
	movq	%rcx, 16(%rsp)                  # 8-byte Spill
	movq	%r14, 8(%rsp)                   # 8-byte Spill
	.p2align	4
.LBB42_3:                               # %join.5.i
                                        # =>This Inner Loop Header: Depth=1
	movdqu	(%rcx,%rax), %xmm6
	movdqu	16(%rcx,%rax), %xmm0
	movq	.LCPI42_21(%rip), %xmm2         # xmm2 = [1,3,5,7,9,11,13,15,0,0,0,0,0,0,0,0]
	movdqa	%xmm0, %xmm3
	pshufb	%xmm2, %xmm3
	movdqa	%xmm6, %xmm1
	pshufb	%xmm2, %xmm1
	movdqa	.LCPI42_1(%rip), %xmm2          # xmm2 = [255,255,255,255,255,255,255,255]
	pand	%xmm2, %xmm0
	pand	%xmm2, %xmm6
	packuswb	%xmm0, %xmm6
	movdqa	%xmm6, %xmm0
	psrlw	$7, %xmm0
	pand	.LCPI42_2(%rip), %xmm0
	punpcklqdq	%xmm3, %xmm1            # xmm1 = xmm1[0],xmm3[0]
	por	%xmm1, %xmm0
	ptest	%xmm0, %xmm0
	je	.LBB42_8
# %bb.4:                                # %join.3.i478
                                        #   in Loop: Header=BB42_3 Depth=1
	leaq	64(%r10), %rdx
	movq	(%r8), %r11
	pxor	%xmm0, %xmm0
	movdqu	%xmm0, 48(%r11,%r10)
	movdqu	%xmm0, 32(%r11,%r10)
	movdqu	%xmm0, 16(%r11,%r10)
	movdqu	%xmm0, (%r11,%r10)
	movq	%r11, (%r8)
	movq	%rdx, 8(%r8)
	movq	%rsi, 16(%r8)
	movdqa	.LCPI42_3(%rip), %xmm0          # xmm0 = [8,8,8,8,8,8,8,8,8,8,8,8,8,8,8,8]
	pmaxub	%xmm1, %xmm0
	pcmpeqb	%xmm1, %xmm0
	pmovmskb	%xmm0, %edx
	testl	%edx, %edx
	je	.LBB42_9
# %bb.5:                                # %join.3.i31
                                        #   in Loop: Header=BB42_3 Depth=1
	movdqa	.LCPI42_4(%rip), %xmm2          # xmm2 = [248,248,248,248,248,248,248,248,248,248,248,248,248,248,248,248]
	pand	%xmm1, %xmm2
	movdqa	.LCPI42_5(%rip), %xmm0          # xmm0 = [216,216,216,216,216,216,216,216,216,216,216,216,216,216,216,216]
	pcmpeqb	%xmm2, %xmm0
	pmovmskb	%xmm0, %edx
	testl	%edx, %edx
	je	.LBB42_10
# %bb.6:                                # %join.7.i
                                        #   in Loop: Header=BB42_3 Depth=1
	movdqa	%xmm1, %xmm0
	psrlw	$2, %xmm0
	pand	.LCPI42_6(%rip), %xmm0
	movdqa	.LCPI42_7(%rip), %xmm3          # xmm3 = [54,54,54,54,54,54,54,54,54,54,54,54,54,54,54,54]
	pcmpeqb	%xmm0, %xmm3
	pmovmskb	%xmm3, %esi
	pcmpeqb	.LCPI42_8(%rip), %xmm0
	pmovmskb	%xmm0, %edx
	leal	(%rsi,%rsi), %edi
	movzwl	%di, %edi
	cmpl	%edx, %edi
	jne	.LBB42_15
# %bb.7:                                # %join.3.i243
                                        #   in Loop: Header=BB42_3 Depth=1
	movdqa	.LCPI42_5(%rip), %xmm7          # xmm7 = [216,216,216,216,216,216,216,216,216,216,216,216,216,216,216,216]
	pcmpeqb	%xmm7, %xmm2
	movdqa	%xmm6, %xmm0
	psrlw	$6, %xmm0
	movdqa	.LCPI42_11(%rip), %xmm5         # xmm5 = [252,252,252,252,252,252,252,252,252,252,252,252,252,252,252,252]
	movdqa	%xmm1, %xmm8
	psllw	$2, %xmm8
	pand	%xmm5, %xmm8
	movdqa	.LCPI42_14(%rip), %xmm4         # xmm4 = [7,7,7,7,7,7,7,7,7,7,7,7,7,7,7,7]
	pminub	%xmm1, %xmm4
	pcmpeqb	%xmm1, %xmm4
	movdqa	.LCPI42_16(%rip), %xmm10        # xmm10 = [3,3,3,3,3,3,3,3,3,3,3,3,3,3,3,3]
	pand	%xmm1, %xmm10
	movdqa	%xmm1, %xmm11
	pand	%xmm5, %xmm1
	pandn	%xmm0, %xmm5
	por	%xmm5, %xmm8
	movdqa	%xmm8, %xmm13
	movdqa	.LCPI42_12(%rip), %xmm12        # xmm12 = [128,128,128,128,128,128,128,128,128,128,128,128,128,128,128,128]
	movdqa	.LCPI42_6(%rip), %xmm9          # xmm9 = [63,63,63,63,63,63,63,63,63,63,63,63,63,63,63,63]
	pand	%xmm9, %xmm8
	movdqa	%xmm8, %xmm5
	pcmpgtb	.LCPI42_2(%rip), %xmm5
	movdqa	.LCPI42_13(%rip), %xmm14        # xmm14 = [192,192,192,192,192,192,192,192,192,192,192,192,192,192,192,192]
	por	%xmm8, %xmm14
	pand	%xmm5, %xmm14
	por	%xmm12, %xmm8
	movdqa	%xmm4, %xmm0
	pblendvb	%xmm0, %xmm14, %xmm8
	movdqa	%xmm6, %xmm0
	psllw	$4, %xmm0
	pand	.LCPI42_9(%rip), %xmm0
	palignr	$15, %xmm0, %xmm0               # xmm0 = xmm0[15,0,1,2,3,4,5,6,7,8,9,10,11,12,13,14]
	movdqa	.LCPI42_10(%rip), %xmm14        # xmm14 = [15,15,15,15,15,15,15,15,15,15,15,15,15,15,15,15]
	pand	%xmm14, %xmm13
	por	%xmm12, %xmm13
	por	%xmm0, %xmm13
	movdqa	%xmm2, %xmm0
	pblendvb	%xmm0, %xmm13, %xmm8
	movdqa	.LCPI42_15(%rip), %xmm0         # xmm0 = [191,191,191,191,191,191,191,191,191,191,191,191,191,191,191,191]
	pminub	%xmm6, %xmm0
	pcmpeqb	%xmm6, %xmm0
	paddb	%xmm0, %xmm10
	paddb	.LCPI42_17(%rip), %xmm10
	movdqa	%xmm3, %xmm0
	pblendvb	%xmm0, %xmm10, %xmm8
	psrlw	$4, %xmm11
	pand	%xmm14, %xmm11
	por	.LCPI42_18(%rip), %xmm11
	por	%xmm4, %xmm2
	pandn	%xmm11, %xmm2
	movdqa	%xmm2, %xmm3
	punpcklbw	%xmm8, %xmm3            # xmm3 = xmm3[0],xmm8[0],xmm3[1],xmm8[1],xmm3[2],xmm8[2],xmm3[3],xmm8[3],xmm3[4],xmm8[4],xmm3[5],xmm8[5],xmm3[6],xmm8[6],xmm3[7],xmm8[7]
	punpckhbw	%xmm8, %xmm2            # xmm2 = xmm2[8],xmm8[8],xmm2[9],xmm8[9],xmm2[10],xmm8[10],xmm2[11],xmm8[11],xmm2[12],xmm8[12],xmm2[13],xmm8[13],xmm2[14],xmm8[14],xmm2[15],xmm8[15]
	pmovmskb	%xmm3, %ebp
	movzbl	%bpl, %edx
	popcntl	%edx, %r13d
	shrl	$8, %ebp
	popcntl	%ebp, %r14d
	addq	%r10, %r13
	pmovmskb	%xmm2, %ebx
	movzbl	%bl, %r12d
	popcntl	%r12d, %r15d
	shrl	$8, %ebx
	movq	%rsi, %rcx
	popcntl	%ebx, %esi
	xorl	%edi, %edi
	testw	%cx, %cx
	setns	%dil
	leaq	4(%r14,%r13), %rcx
	movq	%rcx, 24(%rsp)                  # 8-byte Spill
	leaq	4(%r15,%rcx), %r15
	leaq	8(%rsi,%r15), %rcx
	leaq	6(%rsi,%r15), %r14
	cmovnsq	%rcx, %r14
	movdqa	%xmm6, %xmm8
	psrlw	$2, %xmm8
	paddb	.LCPI42_19(%rip), %xmm8
	pcmpeqb	%xmm7, %xmm1
	pand	%xmm9, %xmm8
	pand	%xmm6, %xmm9
	por	%xmm12, %xmm9
	pandn	%xmm4, %xmm5
	movdqa	%xmm5, %xmm0
	pblendvb	%xmm0, %xmm6, %xmm9
	por	%xmm12, %xmm8
	movdqa	%xmm1, %xmm0
	pblendvb	%xmm0, %xmm8, %xmm9
	addq	$15, %rdi
	movdqa	%xmm9, %xmm0
	punpcklbw	%xmm9, %xmm0            # xmm0 = xmm0[0],xmm9[0],xmm0[1],xmm9[1],xmm0[2],xmm9[2],xmm0[3],xmm9[3],xmm0[4],xmm9[4],xmm0[5],xmm9[5],xmm0[6],xmm9[6],xmm0[7],xmm9[7]
	punpckhbw	%xmm9, %xmm9            # xmm9 = xmm9[8,8,9,9,10,10,11,11,12,12,13,13,14,14,15,15]
	movdqa	%xmm3, %xmm1
	punpcklbw	%xmm0, %xmm1            # xmm1 = xmm1[0],xmm0[0],xmm1[1],xmm0[1],xmm1[2],xmm0[2],xmm1[3],xmm0[3],xmm1[4],xmm0[4],xmm1[5],xmm0[5],xmm1[6],xmm0[6],xmm1[7],xmm0[7]
	punpckhbw	%xmm0, %xmm3            # xmm3 = xmm3[8],xmm0[8],xmm3[9],xmm0[9],xmm3[10],xmm0[10],xmm3[11],xmm0[11],xmm3[12],xmm0[12],xmm3[13],xmm0[13],xmm3[14],xmm0[14],xmm3[15],xmm0[15]
	shll	$4, %edx
	leaq	static.20(%rip), %rsi
	movdqu	(%rdx,%rsi), %xmm0
	pshufb	%xmm0, %xmm1
	shll	$4, %ebp
	movdqu	(%rbp,%rsi), %xmm0
	pshufb	%xmm0, %xmm3
	movdqu	%xmm1, (%r11,%r10)
	movdqu	%xmm3, 4(%r11,%r13)
	movdqa	%xmm2, %xmm0
	punpcklbw	%xmm9, %xmm0            # xmm0 = xmm0[0],xmm9[0],xmm0[1],xmm9[1],xmm0[2],xmm9[2],xmm0[3],xmm9[3],xmm0[4],xmm9[4],xmm0[5],xmm9[5],xmm0[6],xmm9[6],xmm0[7],xmm9[7]
	punpckhbw	%xmm9, %xmm2            # xmm2 = xmm2[8],xmm9[8],xmm2[9],xmm9[9],xmm2[10],xmm9[10],xmm2[11],xmm9[11],xmm2[12],xmm9[12],xmm2[13],xmm9[13],xmm2[14],xmm9[14],xmm2[15],xmm9[15]
	shll	$4, %r12d
	movdqu	(%r12,%rsi), %xmm1
	movq	16(%rsp), %rcx                  # 8-byte Reload
	pshufb	%xmm1, %xmm0
	shll	$4, %ebx
	movdqu	(%rbx,%rsi), %xmm1
	pshufb	%xmm1, %xmm2
	movq	24(%rsp), %rdx                  # 8-byte Reload
	movdqu	%xmm0, 4(%r11,%rdx)
	movdqu	%xmm2, 4(%r11,%r15)
	movq	%r14, %r10
	movq	8(%rsp), %r14                   # 8-byte Reload
	movq	8(%r8), %rdx
	cmpq	%r10, %rdx
	ja	.LBB42_11
	jmp	.LBB42_12
	.p2align	4
.LBB42_8:                               # %join.3.i462
                                        #   in Loop: Header=BB42_3 Depth=1
	movq	(%r8), %rdx
	movdqu	%xmm6, (%rdx,%r10)
	addq	$16, %r10
	movq	%rdx, (%r8)
	movq	%r10, 8(%r8)
	movq	%rsi, 16(%r8)
	movl	$16, %edi
	jmp	.LBB42_13
	.p2align	4
.LBB42_9:                               # %then.1.i34
                                        #   in Loop: Header=BB42_3 Depth=1
	movdqa	%xmm6, %xmm0
	psrlw	$6, %xmm0
	pand	.LCPI42_16(%rip), %xmm0
	movdqa	%xmm1, %xmm3
	psllw	$2, %xmm3
	pand	.LCPI42_11(%rip), %xmm3
	por	%xmm0, %xmm3
	movdqa	.LCPI42_6(%rip), %xmm4          # xmm4 = [63,63,63,63,63,63,63,63,63,63,63,63,63,63,63,63]
	pand	%xmm4, %xmm3
	movdqa	%xmm3, %xmm2
	pcmpgtb	.LCPI42_2(%rip), %xmm2
	movdqa	.LCPI42_13(%rip), %xmm5         # xmm5 = [192,192,192,192,192,192,192,192,192,192,192,192,192,192,192,192]
	por	%xmm3, %xmm5
	pand	%xmm2, %xmm5
	movdqa	.LCPI42_14(%rip), %xmm0         # xmm0 = [7,7,7,7,7,7,7,7,7,7,7,7,7,7,7,7]
	pminub	%xmm1, %xmm0
	pcmpeqb	%xmm1, %xmm0
	movdqa	.LCPI42_12(%rip), %xmm1         # xmm1 = [128,128,128,128,128,128,128,128,128,128,128,128,128,128,128,128]
	por	%xmm1, %xmm3
	pblendvb	%xmm0, %xmm5, %xmm3
	pand	%xmm6, %xmm4
	por	%xmm1, %xmm4
	pandn	%xmm0, %xmm2
	movdqa	%xmm2, %xmm0
	pblendvb	%xmm0, %xmm6, %xmm4
	pmovmskb	%xmm3, %edx
	movdqa	%xmm3, %xmm0
	punpcklbw	%xmm4, %xmm0            # xmm0 = xmm0[0],xmm4[0],xmm0[1],xmm4[1],xmm0[2],xmm4[2],xmm0[3],xmm4[3],xmm0[4],xmm4[4],xmm0[5],xmm4[5],xmm0[6],xmm4[6],xmm0[7],xmm4[7]
	punpckhbw	%xmm4, %xmm3            # xmm3 = xmm3[8],xmm4[8],xmm3[9],xmm4[9],xmm3[10],xmm4[10],xmm3[11],xmm4[11],xmm3[12],xmm4[12],xmm3[13],xmm4[13],xmm3[14],xmm4[14],xmm3[15],xmm4[15]
	movzbl	%dl, %esi
	popcntl	%esi, %edi
	shll	$4, %esi
	leaq	static.19(%rip), %rbx
	movdqu	(%rsi,%rbx), %xmm1
	pshufb	%xmm1, %xmm0
	shrl	$8, %edx
	xorl	%esi, %esi
	popcntl	%edx, %esi
	shll	$4, %edx
	movdqu	(%rdx,%rbx), %xmm1
	pshufb	%xmm1, %xmm3
	movdqu	%xmm0, (%r11,%r10)
	addq	%r10, %rdi
	movdqu	%xmm3, 8(%r11,%rdi)
	leaq	(%rsi,%rdi), %r10
	addq	$16, %r10
	movl	$16, %edi
	movq	8(%r8), %rdx
	cmpq	%r10, %rdx
	jbe	.LBB42_12
.LBB42_11:                              # %join.3.i504
                                        #   in Loop: Header=BB42_3 Depth=1
	movq	%r10, 8(%r8)
	movq	%r10, %rdx
.LBB42_12:                              # %recoding_list_append_block_e3b2a9d4d2861db8_exit_244
                                        #   in Loop: Header=BB42_3 Depth=1
	movq	%rdx, %r10
	testq	%rdi, %rdi
	je	.LBB42_20
.LBB42_13:                              # %join.11.i
                                        #   in Loop: Header=BB42_3 Depth=1
	leaq	(%rax,%rdi,2), %rax
	movq	%r14, %r9
	subq	%rax, %r9
	cmpq	$31, %r9
	jbe	.LBB42_27
# %bb.14:                               # %then.3.i
                                        #   in Loop: Header=BB42_3 Depth=1
	movq	16(%r8), %rsi
	movq	%rsi, %rdx
	subq	%r10, %rdx
	cmpq	$64, %rdx
	jae	.LBB42_3
	jmp	.LBB42_20
.LBB42_10:                              # %then.5.i
                                        #   in Loop: Header=BB42_3 Depth=1
	movdqa	%xmm6, %xmm0
	psrlw	$6, %xmm0
	pand	.LCPI42_16(%rip), %xmm0
	movdqa	%xmm1, %xmm5
	psllw	$2, %xmm5
	pand	.LCPI42_11(%rip), %xmm5
	por	%xmm0, %xmm5
	movdqa	.LCPI42_6(%rip), %xmm4          # xmm4 = [63,63,63,63,63,63,63,63,63,63,63,63,63,63,63,63]
	pand	%xmm4, %xmm5
	movdqa	%xmm5, %xmm3
	pcmpgtb	.LCPI42_2(%rip), %xmm3
	movdqa	.LCPI42_13(%rip), %xmm7         # xmm7 = [192,192,192,192,192,192,192,192,192,192,192,192,192,192,192,192]
	por	%xmm5, %xmm7
	pand	%xmm3, %xmm7
	movdqa	.LCPI42_14(%rip), %xmm2         # xmm2 = [7,7,7,7,7,7,7,7,7,7,7,7,7,7,7,7]
	pminub	%xmm1, %xmm2
	pcmpeqb	%xmm1, %xmm2
	movdqa	.LCPI42_12(%rip), %xmm8         # xmm8 = [128,128,128,128,128,128,128,128,128,128,128,128,128,128,128,128]
	por	%xmm8, %xmm5
	movdqa	%xmm2, %xmm0
	pblendvb	%xmm0, %xmm7, %xmm5
	pand	%xmm6, %xmm4
	por	%xmm8, %xmm4
	pandn	%xmm2, %xmm3
	movdqa	%xmm3, %xmm0
	pblendvb	%xmm0, %xmm6, %xmm4
	psrlw	$4, %xmm1
	pand	.LCPI42_10(%rip), %xmm1
	por	.LCPI42_18(%rip), %xmm1
	pandn	%xmm1, %xmm2
	movdqa	%xmm2, %xmm0
	punpcklbw	%xmm5, %xmm0            # xmm0 = xmm0[0],xmm5[0],xmm0[1],xmm5[1],xmm0[2],xmm5[2],xmm0[3],xmm5[3],xmm0[4],xmm5[4],xmm0[5],xmm5[5],xmm0[6],xmm5[6],xmm0[7],xmm5[7]
	punpckhbw	%xmm5, %xmm2            # xmm2 = xmm2[8],xmm5[8],xmm2[9],xmm5[9],xmm2[10],xmm5[10],xmm2[11],xmm5[11],xmm2[12],xmm5[12],xmm2[13],xmm5[13],xmm2[14],xmm5[14],xmm2[15],xmm5[15]
	movdqa	%xmm4, %xmm1
	punpcklbw	%xmm4, %xmm1            # xmm1 = xmm1[0],xmm4[0],xmm1[1],xmm4[1],xmm1[2],xmm4[2],xmm1[3],xmm4[3],xmm1[4],xmm4[4],xmm1[5],xmm4[5],xmm1[6],xmm4[6],xmm1[7],xmm4[7]
	punpckhbw	%xmm4, %xmm4            # xmm4 = xmm4[8,8,9,9,10,10,11,11,12,12,13,13,14,14,15,15]
	pmovmskb	%xmm0, %esi
	movdqa	%xmm0, %xmm3
	punpcklbw	%xmm1, %xmm3            # xmm3 = xmm3[0],xmm1[0],xmm3[1],xmm1[1],xmm3[2],xmm1[2],xmm3[3],xmm1[3],xmm3[4],xmm1[4],xmm3[5],xmm1[5],xmm3[6],xmm1[6],xmm3[7],xmm1[7]
	punpckhbw	%xmm1, %xmm0            # xmm0 = xmm0[8],xmm1[8],xmm0[9],xmm1[9],xmm0[10],xmm1[10],xmm0[11],xmm1[11],xmm0[12],xmm1[12],xmm0[13],xmm1[13],xmm0[14],xmm1[14],xmm0[15],xmm1[15]
	movzbl	%sil, %edi
	popcntl	%edi, %ebx
	shll	$4, %edi
	leaq	static.20(%rip), %rdx
	movdqu	(%rdi,%rdx), %xmm1
	pshufb	%xmm1, %xmm3
	shrl	$8, %esi
	xorl	%edi, %edi
	popcntl	%esi, %edi
	shll	$4, %esi
	movdqu	(%rsi,%rdx), %xmm1
	pshufb	%xmm1, %xmm0
	addq	%r10, %rbx
	leaq	(%rdi,%rbx), %rsi
	addq	$4, %rsi
	movdqu	%xmm3, (%r11,%r10)
	movdqu	%xmm0, 4(%r11,%rbx)
	pmovmskb	%xmm2, %r10d
	movdqa	%xmm2, %xmm0
	punpcklbw	%xmm4, %xmm0            # xmm0 = xmm0[0],xmm4[0],xmm0[1],xmm4[1],xmm0[2],xmm4[2],xmm0[3],xmm4[3],xmm0[4],xmm4[4],xmm0[5],xmm4[5],xmm0[6],xmm4[6],xmm0[7],xmm4[7]
	punpckhbw	%xmm4, %xmm2            # xmm2 = xmm2[8],xmm4[8],xmm2[9],xmm4[9],xmm2[10],xmm4[10],xmm2[11],xmm4[11],xmm2[12],xmm4[12],xmm2[13],xmm4[13],xmm2[14],xmm4[14],xmm2[15],xmm4[15]
	movzbl	%r10b, %edi
	xorl	%ebx, %ebx
	popcntl	%edi, %ebx
	shll	$4, %edi
	movdqu	(%rdi,%rdx), %xmm1
	pshufb	%xmm1, %xmm0
	leaq	(%rbx,%rsi), %rdi
	addq	$4, %rdi
	shrl	$8, %r10d
	xorl	%ebx, %ebx
	popcntl	%r10d, %ebx
	shll	$4, %r10d
	movdqu	(%r10,%rdx), %xmm1
	pshufb	%xmm1, %xmm2
	movdqu	%xmm0, 4(%r11,%rsi)
	movdqu	%xmm2, 4(%r11,%rdi)
	leaq	(%rbx,%rdi), %r10
	addq	$8, %r10
	movl	$16, %edi
	movq	8(%r8), %rdx
	cmpq	%r10, %rdx
	jbe	.LBB42_12
	jmp	.LBB42_11
.LBB42_15:                              #   in Loop: Header=BB42_3 Depth=1
	xorl	%edi, %edi
	movq	8(%r8), %rdx
	cmpq	%r10, %rdx
	ja	.LBB42_11
	jmp	.LBB42_12
.LBB42_16:
	xorl	%eax, %eax
	cmpq	$16, %r14
	jae	.LBB42_19
	jmp	.LBB42_25
.LBB42_18:
	xorl	%eax, %eax
.LBB42_19:
	movq	%r14, %r9
.LBB42_20:                              # %then.3.i392.lr.ph
	movq	8(%r8), %r10
	movq	16(%r8), %r11
	movq	%r11, %rsi
	subq	%r10, %rsi
	cmpq	$8, %rsi
	jb	.LBB42_25
# %bb.21:                               # %join.5.i397.preheader
	addq	%rax, %rcx
	addq	$-16, %r9
	addq	$-8, %rsi
	addq	$8, %r10
	xorl	%edx, %edx
	.p2align	4
.LBB42_22:                              # %join.5.i397
                                        # =>This Inner Loop Header: Depth=1
	movdqu	(%rcx,%rdx), %xmm0
	movdqa	.LCPI42_20(%rip), %xmm1         # xmm1 = [128,128,128,128,128,128,128,128]
	pmaxuw	%xmm0, %xmm1
	pcmpeqw	%xmm0, %xmm1
	pmovmskb	%xmm1, %edi
	testl	%edi, %edi
	jne	.LBB42_26
# %bb.23:                               # %arm.10.i
                                        #   in Loop: Header=BB42_22 Depth=1
	pextrw	$3, %xmm0, %edi
	pextrw	$4, %xmm0, %ebx
	pextrw	$5, %xmm0, %r12d
	pextrw	$6, %xmm0, %r14d
	pextrw	$7, %xmm0, %r15d
	shlq	$56, %r15
	shlq	$48, %r14
	shlq	$40, %r12
	shlq	$32, %rbx
	orq	%r12, %rbx
	orq	%r14, %rbx
	orq	%r15, %rbx
	pextrw	$2, %xmm0, %ebp
	shlq	$24, %rdi
	movzbl	%bpl, %r15d
	pextrw	$1, %xmm0, %ebp
	shll	$16, %r15d
	shll	$8, %ebp
	movd	%xmm0, %r14d
	movzbl	%r14b, %r14d
	orl	%ebp, %r14d
	movzwl	%r14w, %r14d
	orl	%r15d, %r14d
	orq	%rdi, %r14
	orq	%rbx, %r14
	addq	$16, %rdx
	movq	(%r8), %rdi
	movq	%r14, -8(%rdi,%r10)
	movq	%rdi, (%r8)
	movq	%r10, 8(%r8)
	movq	%r11, 16(%r8)
	subq	$16, %r9
	jb	.LBB42_26
# %bb.24:                               # %arm.10.i
                                        #   in Loop: Header=BB42_22 Depth=1
	addq	$8, %r10
	cmpq	$7, %rsi
	leaq	-8(%rsi), %rsi
	ja	.LBB42_22
	jmp	.LBB42_26
.LBB42_27:
	movq	%r9, %r14
	cmpq	$16, %r14
	jae	.LBB42_19
.LBB42_25:
	xorl	%edx, %edx
.LBB42_26:                              # %recoding_kernels_narrow_ascii_b3a77c927faee343_exit_245
	addq	%rdx, %rax
	movaps	32(%rsp), %xmm6                 # 16-byte Reload
	movaps	48(%rsp), %xmm7                 # 16-byte Reload
	movaps	64(%rsp), %xmm8                 # 16-byte Reload
	movaps	80(%rsp), %xmm9                 # 16-byte Reload
	movaps	96(%rsp), %xmm10                # 16-byte Reload
	movaps	112(%rsp), %xmm11               # 16-byte Reload
	movaps	128(%rsp), %xmm12               # 16-byte Reload
	movaps	144(%rsp), %xmm13               # 16-byte Reload
	movaps	160(%rsp), %xmm14               # 16-byte Reload
	addq	$184, %rsp
	popq	%rbx
	popq	%rbp
	popq	%rdi
	popq	%rsi
	popq	%r12
	popq	%r13
	popq	%r14
	popq	%r15
	retq
	.seh_endproc
                                        # -- End function
	.def	recoding_kernels_put_windows_a8b304b230851da3_237;
	.scl	3;
	.type	32;
	.endef
	.section .rdata$n0,"dr"
	.p2align	4, 0x0                          # -- Begin function recoding::kernels::put_windows::<#a8b304b230851da3>
.LCPI43_0:
	.short	255                             # 0xff
	.short	255                             # 0xff
	.short	255                             # 0xff
	.short	255                             # 0xff
	.short	255                             # 0xff
	.short	255                             # 0xff
	.short	255                             # 0xff
	.short	255                             # 0xff
.LCPI43_1:
	.byte	1                               # 0x1
	.byte	3                               # 0x3
	.byte	5                               # 0x5
	.byte	7                               # 0x7
	.byte	9                               # 0x9
	.byte	11                              # 0xb
	.byte	13                              # 0xd
	.byte	15                              # 0xf
	.zero	1
	.zero	1
	.zero	1
	.zero	1
	.zero	1
	.zero	1
	.zero	1
	.zero	1
.LCPI43_2:
	.zero	16,63
.LCPI43_3:
	.zero	16,54
.LCPI43_4:
	.byte	255                             # 0xff
	.byte	255                             # 0xff
	.byte	255                             # 0xff
	.byte	255                             # 0xff
	.byte	255                             # 0xff
	.byte	255                             # 0xff
	.byte	255                             # 0xff
	.byte	255                             # 0xff
	.byte	255                             # 0xff
	.byte	255                             # 0xff
	.byte	255                             # 0xff
	.byte	255                             # 0xff
	.byte	255                             # 0xff
	.byte	255                             # 0xff
	.byte	255                             # 0xff
	.byte	0                               # 0x0
.LCPI43_5:
	.zero	16,55
.LCPI43_6:
	.zero	16,253
.LCPI43_7:
	.zero	16,252
.LCPI43_8:
	.zero	16,216
.LCPI43_9:
	.byte	1                               # 0x1
	.byte	3                               # 0x3
	.byte	5                               # 0x5
	.byte	7                               # 0x7
	.byte	9                               # 0x9
	.byte	11                              # 0xb
	.byte	13                              # 0xd
	.byte	15                              # 0xf
	.byte	0                               # 0x0
	.byte	0                               # 0x0
	.byte	0                               # 0x0
	.byte	0                               # 0x0
	.byte	0                               # 0x0
	.byte	0                               # 0x0
	.byte	0                               # 0x0
	.byte	0                               # 0x0
	.section .text$n47,"xr"
	.p2align	4
recoding_kernels_put_windows_a8b304b230851da3_237: # @recoding_kernels_put_windows_a8b304b230851da3_237
.seh_proc recoding_kernels_put_windows_a8b304b230851da3_237
# %bb.0:                                # %start
	pushq	%r15
	.seh_pushreg %r15
	pushq	%r14
	.seh_pushreg %r14
	pushq	%r13
	.seh_pushreg %r13
	pushq	%r12
	.seh_pushreg %r12
	pushq	%rsi
	.seh_pushreg %rsi
	pushq	%rdi
	.seh_pushreg %rdi
	pushq	%rbp
	.seh_pushreg %rbp
	pushq	%rbx
	.seh_pushreg %rbx
	subq	$216, %rsp
	.seh_stackalloc 216
	movdqa	%xmm10, 192(%rsp)               # 16-byte Spill
	.seh_savexmm %xmm10, 192
	movdqa	%xmm9, 176(%rsp)                # 16-byte Spill
	.seh_savexmm %xmm9, 176
	movdqa	%xmm8, 160(%rsp)                # 16-byte Spill
	.seh_savexmm %xmm8, 160
	movdqa	%xmm7, 144(%rsp)                # 16-byte Spill
	.seh_savexmm %xmm7, 144
	movdqa	%xmm6, 128(%rsp)                # 16-byte Spill
	.seh_savexmm %xmm6, 128
	.seh_endprologue
	movq	%r8, %rbx
	movq	%rdx, 56(%rsp)                  # 8-byte Spill
	movq	%rcx, %r15
	xorl	%esi, %esi
	xorl	%edi, %edi
	xorl	%r12d, %r12d
	.p2align	4
.LBB43_1:                               # %then.6
                                        # =>This Inner Loop Header: Depth=1
	movq	16(%rbx), %rax
	subq	8(%rbx), %rax
	cmpq	$112, %rax
	jb	.LBB43_4
# %bb.2:                                # %join.5
                                        #   in Loop: Header=BB43_1 Depth=1
	movdqu	(%r15,%rsi), %xmm3
	movdqu	16(%r15,%rsi), %xmm0
	movdqu	32(%r15,%rsi), %xmm4
	movdqu	48(%r15,%rsi), %xmm1
	movdqa	.LCPI43_0(%rip), %xmm6          # xmm6 = [255,255,255,255,255,255,255,255]
	movdqa	%xmm1, %xmm2
	pand	%xmm6, %xmm2
	movdqa	%xmm4, %xmm5
	pand	%xmm6, %xmm5
	packuswb	%xmm2, %xmm5
	movdqa	%xmm0, %xmm2
	pand	%xmm6, %xmm2
	pand	%xmm3, %xmm6
	packuswb	%xmm2, %xmm6
	movq	.LCPI43_9(%rip), %xmm2          # xmm2 = [1,3,5,7,9,11,13,15,0,0,0,0,0,0,0,0]
	pshufb	%xmm2, %xmm0
	pshufb	%xmm2, %xmm3
	punpcklqdq	%xmm0, %xmm3            # xmm3 = xmm3[0],xmm0[0]
	pshufb	%xmm2, %xmm1
	pshufb	%xmm2, %xmm4
	punpcklqdq	%xmm1, %xmm4            # xmm4 = xmm4[0],xmm1[0]
	movdqa	%xmm4, %xmm0
	psrlw	$2, %xmm0
	movdqa	.LCPI43_2(%rip), %xmm1          # xmm1 = [63,63,63,63,63,63,63,63,63,63,63,63,63,63,63,63]
	pand	%xmm1, %xmm0
	movdqa	%xmm3, %xmm7
	psrlw	$2, %xmm7
	pand	%xmm1, %xmm7
	movdqa	.LCPI43_3(%rip), %xmm1          # xmm1 = [54,54,54,54,54,54,54,54,54,54,54,54,54,54,54,54]
	movdqa	%xmm7, %xmm8
	pcmpeqb	%xmm1, %xmm8
	pcmpeqb	%xmm0, %xmm1
	movdqa	.LCPI43_4(%rip), %xmm9          # xmm9 = [255,255,255,255,255,255,255,255,255,255,255,255,255,255,255,0]
	pand	%xmm1, %xmm9
	movdqa	.LCPI43_5(%rip), %xmm2          # xmm2 = [55,55,55,55,55,55,55,55,55,55,55,55,55,55,55,55]
	pcmpeqb	%xmm2, %xmm0
	pcmpeqb	%xmm2, %xmm7
	palignr	$15, %xmm8, %xmm1               # xmm1 = xmm8[15],xmm1[0,1,2,3,4,5,6,7,8,9,10,11,12,13,14]
	movdqa	%xmm8, %xmm2
	pslldq	$1, %xmm2                       # xmm2 = zero,xmm2[0,1,2,3,4,5,6,7,8,9,10,11,12,13,14]
	pxor	%xmm7, %xmm2
	pxor	%xmm0, %xmm1
	movdqa	%xmm1, %xmm10
	palignr	$1, %xmm2, %xmm10               # xmm10 = xmm2[1,2,3,4,5,6,7,8,9,10,11,12,13,14,15],xmm10[0]
	pand	%xmm7, %xmm2
	palignr	$1, %xmm1, %xmm7                # xmm7 = xmm1[1,2,3,4,5,6,7,8,9,10,11,12,13,14,15],xmm7[0]
	pand	%xmm9, %xmm7
	pand	%xmm8, %xmm10
	pxor	%xmm9, %xmm9
	por	%xmm10, %xmm2
	pand	%xmm0, %xmm1
	por	%xmm7, %xmm1
	movdqa	.LCPI43_6(%rip), %xmm7          # xmm7 = [253,253,253,253,253,253,253,253,253,253,253,253,253,253,253,253]
	pcmpeqb	%xmm9, %xmm2
	movdqa	%xmm7, %xmm8
	movdqa	%xmm2, %xmm0
	pblendvb	%xmm0, %xmm6, %xmm8
	pcmpeqb	%xmm9, %xmm1
	movdqa	%xmm1, %xmm0
	pblendvb	%xmm0, %xmm5, %xmm7
	pcmpeqd	%xmm0, %xmm0
	pmovmskb	%xmm1, %ebp
	pxor	%xmm0, %xmm1
	por	%xmm4, %xmm1
	pxor	%xmm2, %xmm0
	pand	.LCPI43_7(%rip), %xmm4
	pcmpeqb	.LCPI43_8(%rip), %xmm4
	por	%xmm3, %xmm0
	pmovmskb	%xmm4, %eax
	xorl	%r13d, %r13d
	testw	%ax, %ax
	setns	%r13b
	leaq	31(%r13), %rax
	pmovmskb	%xmm2, %ecx
	xorl	$65535, %ecx                    # imm = 0xFFFF
	notl	%ebp
	shll	$16, %ebp
	orl	%ecx, %ebp
	popcntl	%ebp, %r14d
	movdqa	%xmm7, 96(%rsp)
	movdqa	%xmm8, 112(%rsp)
	movdqa	%xmm0, 80(%rsp)
	movdqa	%xmm1, 64(%rsp)
	movq	%rbx, 40(%rsp)
	movq	%rax, 32(%rsp)
	leaq	112(%rsp), %rcx
	leaq	96(%rsp), %rdx
	leaq	80(%rsp), %r8
	leaq	64(%rsp), %r9
	callq	recoding_list_append_text_units_e3b2a9d4d2861db8_246
	leaq	(%rsi,%r13,2), %rsi
	addq	$62, %rsi
	addq	%r14, %rdi
	movq	%r12, %rax
	incq	%rax
	xorl	%r12d, %r12d
	testl	%ebp, %ebp
	cmoveq	%rax, %r12
	cmpq	$8, %rdi
	movl	$8, %eax
	cmovbq	%rdi, %rax
	cmpq	%rax, %r12
	ja	.LBB43_4
# %bb.3:                                # %join.5
                                        #   in Loop: Header=BB43_1 Depth=1
	movq	56(%rsp), %rax                  # 8-byte Reload
	subq	%rsi, %rax
	cmpq	$63, %rax
	ja	.LBB43_1
.LBB43_4:                               # %after.1
	movq	%rsi, %rax
	movq	%rdi, %rdx
	movaps	128(%rsp), %xmm6                # 16-byte Reload
	movaps	144(%rsp), %xmm7                # 16-byte Reload
	movaps	160(%rsp), %xmm8                # 16-byte Reload
	movaps	176(%rsp), %xmm9                # 16-byte Reload
	movaps	192(%rsp), %xmm10               # 16-byte Reload
	addq	$216, %rsp
	popq	%rbx
	popq	%rbp
	popq	%rdi
	popq	%rsi
	popq	%r12
	popq	%r13
	popq	%r14
	popq	%r15
	retq
	.seh_endproc
                                        # -- End function
	.def	recoding_list_append_text_units_e3b2a9d4d2861db8_246;
	.scl	3;
	.type	32;
	.endef
	.section .rdata$n0,"dr"
	.p2align	4, 0x0                          # -- Begin function recoding::list::append_text_units::<#e3b2a9d4d2861db8>
.LCPI44_0:
	.zero	16,1
	.section .text$n48,"xr"
	.p2align	4
recoding_list_append_text_units_e3b2a9d4d2861db8_246: # @recoding_list_append_text_units_e3b2a9d4d2861db8_246
.seh_proc recoding_list_append_text_units_e3b2a9d4d2861db8_246
# %bb.0:                                # %start
	pushq	%rsi
	.seh_pushreg %rsi
	pushq	%rdi
	.seh_pushreg %rdi
	pushq	%rbx
	.seh_pushreg %rbx
	subq	$256, %rsp                      # imm = 0x100
	.seh_stackalloc 256
	movaps	%xmm9, 240(%rsp)                # 16-byte Spill
	.seh_savexmm %xmm9, 240
	movaps	%xmm8, 224(%rsp)                # 16-byte Spill
	.seh_savexmm %xmm8, 224
	movaps	%xmm7, 208(%rsp)                # 16-byte Spill
	.seh_savexmm %xmm7, 208
	movaps	%xmm6, 192(%rsp)                # 16-byte Spill
	.seh_savexmm %xmm6, 192
	.seh_endprologue
	movdqa	(%r9), %xmm6
	movdqa	(%r8), %xmm8
	movdqa	(%rdx), %xmm7
	movdqa	(%rcx), %xmm9
	movq	328(%rsp), %rsi
	movq	320(%rsp), %rdi
	movq	8(%rsi), %rax
	movq	16(%rsi), %rdx
	movq	%rdx, %rcx
	subq	%rax, %rcx
	movq	%rax, %r8
	cmpq	$111, %rcx
	jbe	.LBB44_5
.LBB44_1:                               # %join.3.i
	leaq	112(%r8), %r9
	movq	(%rsi), %rcx
	pxor	%xmm0, %xmm0
	movdqu	%xmm0, 96(%rcx,%r8)
	movdqu	%xmm0, 80(%rcx,%r8)
	movdqu	%xmm0, 64(%rcx,%r8)
	movdqu	%xmm0, 48(%rcx,%r8)
	movdqu	%xmm0, 32(%rcx,%r8)
	movdqu	%xmm0, 16(%rcx,%r8)
	movdqu	%xmm0, (%rcx,%r8)
	movq	%rcx, (%rsi)
	movq	%r9, 8(%rsi)
	movq	%rdx, 16(%rsi)
	cmpq	$32, %rdi
	jne	.LBB44_8
.LBB44_2:                               # %then.2.i
	movdqa	%xmm7, %xmm0
	por	%xmm9, %xmm0
	psrlw	$7, %xmm0
	pand	.LCPI44_0(%rip), %xmm0
	movdqa	%xmm6, %xmm1
	por	%xmm8, %xmm1
	por	%xmm0, %xmm1
	ptest	%xmm1, %xmm1
	je	.LBB44_4
# %bb.3:                                # %then.2.split.i
	movdqa	%xmm9, 112(%rsp)
	movdqa	%xmm8, 80(%rsp)
	movdqa	%xmm7, 96(%rsp)
	movdqa	%xmm6, 64(%rsp)
	movq	%rax, 48(%rsp)
	movq	%rcx, 40(%rsp)
	movq	$32, 32(%rsp)
	leaq	112(%rsp), %rcx
	leaq	96(%rsp), %rdx
	leaq	80(%rsp), %r8
	leaq	64(%rsp), %r9
	jmp	.LBB44_9
.LBB44_4:                               # %then.5.i
	movdqu	%xmm9, (%rcx,%rax)
	movdqu	%xmm7, 16(%rcx,%rax)
	addq	$32, %rax
	cmpq	%rax, 8(%rsi)
	jbe	.LBB44_12
	jmp	.LBB44_11
.LBB44_5:                               # %std_alloc_vec_Vec_grow_5fdc5e19576447a7_exit_i_76
	movq	%rax, %rbx
	movl	$112, %edx
	movq	%rsi, %rcx
	callq	std_alloc_vec_Vec_grow_amortized_5fdc5e19576447a7_3
	testb	%al, %al
	je	.LBB44_7
# %bb.6:                                # %std_alloc_vec_Vec_grow_5fdc5e19576447a7_exit_join_3_crit_edge_i_115
	movq	8(%rsi), %r8
	movq	16(%rsi), %rdx
	movq	%rbx, %rax
	jmp	.LBB44_1
.LBB44_7:                               # %std_alloc_vec_Vec_grow_5fdc5e19576447a7_exit_i_std_alloc_vec_Vec_extend_from_slice_0cd040e5c49bc722_exit_crit_edge_247
	movq	(%rsi), %rcx
	movq	%rbx, %rax
	cmpq	$32, %rdi
	je	.LBB44_2
.LBB44_8:                               # %start.split.i
	movdqa	%xmm9, 176(%rsp)
	movdqa	%xmm8, 144(%rsp)
	movdqa	%xmm7, 160(%rsp)
	movdqa	%xmm6, 128(%rsp)
	movq	%rax, 48(%rsp)
	movq	%rcx, 40(%rsp)
	movq	%rdi, 32(%rsp)
	leaq	176(%rsp), %rcx
	leaq	160(%rsp), %rdx
	leaq	144(%rsp), %r8
	leaq	128(%rsp), %r9
.LBB44_9:                               # %utf_lanes_utf16_blocks_write_text_units_exit_248
	callq	utf_lanes_utf16_blocks_write_other_units_249
	cmpq	%rax, 8(%rsi)
	jbe	.LBB44_12
.LBB44_11:                              # %join.3.i11
	movq	%rax, 8(%rsi)
.LBB44_12:                              # %std_alloc_vec_Vec_truncate_8193b041ae25b2e3_exit_184
	movaps	192(%rsp), %xmm6                # 16-byte Reload
	movaps	208(%rsp), %xmm7                # 16-byte Reload
	movaps	224(%rsp), %xmm8                # 16-byte Reload
	movaps	240(%rsp), %xmm9                # 16-byte Reload
	addq	$256, %rsp                      # imm = 0x100
	popq	%rbx
	popq	%rdi
	popq	%rsi
	retq
	.seh_endproc
                                        # -- End function
	.def	utf_lanes_utf16_blocks_write_other_units_249;
	.scl	3;
	.type	32;
	.endef
	.section .rdata$n0,"dr"
	.p2align	4, 0x0                          # -- Begin function utf_lanes::utf16_blocks::write_other_units
.LCPI45_0:
	.zero	16,248
.LCPI45_1:
	.zero	16,216
.LCPI45_2:
	.zero	16,48
.LCPI45_3:
	.zero	16,252
.LCPI45_4:
	.zero	16,2
.LCPI45_5:
	.zero	16,12
.LCPI45_6:
	.zero	16,3
.LCPI45_7:
	.zero	16,128
.LCPI45_8:
	.zero	16,63
.LCPI45_9:
	.zero	16,192
.LCPI45_10:
	.zero	16,191
.LCPI45_11:
	.zero	16,7
.LCPI45_12:
	.zero	16,241
.LCPI45_13:
	.zero	16,16
.LCPI45_14:
	.zero	16,15
.LCPI45_15:
	.zero	16,224
.LCPI45_16:
	.zero	16,8
.LCPI45_17:
	.zero	16,1
	.section .text$n49,"xr"
	.p2align	4
utf_lanes_utf16_blocks_write_other_units_249: # @utf_lanes_utf16_blocks_write_other_units_249
.seh_proc utf_lanes_utf16_blocks_write_other_units_249
# %bb.0:                                # %start
	pushq	%r15
	.seh_pushreg %r15
	pushq	%r14
	.seh_pushreg %r14
	pushq	%r12
	.seh_pushreg %r12
	pushq	%rsi
	.seh_pushreg %rsi
	pushq	%rdi
	.seh_pushreg %rdi
	pushq	%rbx
	.seh_pushreg %rbx
	subq	$264, %rsp                      # imm = 0x108
	.seh_stackalloc 264
	movaps	%xmm15, 240(%rsp)               # 16-byte Spill
	.seh_savexmm %xmm15, 240
	movdqa	%xmm14, 224(%rsp)               # 16-byte Spill
	.seh_savexmm %xmm14, 224
	movaps	%xmm13, 208(%rsp)               # 16-byte Spill
	.seh_savexmm %xmm13, 208
	movaps	%xmm12, 192(%rsp)               # 16-byte Spill
	.seh_savexmm %xmm12, 192
	movdqa	%xmm11, 176(%rsp)               # 16-byte Spill
	.seh_savexmm %xmm11, 176
	movdqa	%xmm10, 160(%rsp)               # 16-byte Spill
	.seh_savexmm %xmm10, 160
	movdqa	%xmm9, 144(%rsp)                # 16-byte Spill
	.seh_savexmm %xmm9, 144
	movdqa	%xmm8, 128(%rsp)                # 16-byte Spill
	.seh_savexmm %xmm8, 128
	movdqa	%xmm7, 112(%rsp)                # 16-byte Spill
	.seh_savexmm %xmm7, 112
	movdqa	%xmm6, 96(%rsp)                 # 16-byte Spill
	.seh_savexmm %xmm6, 96
	.seh_endprologue
	movaps	(%rdx), %xmm0
	movaps	%xmm0, (%rsp)                   # 16-byte Spill
	movdqa	(%rcx), %xmm13
	movdqa	(%r8), %xmm12
	movdqa	(%r9), %xmm15
	movq	368(%rsp), %rax
	movq	360(%rsp), %rcx
	cmpq	$32, 352(%rsp)
	movdqa	.LCPI45_0(%rip), %xmm1          # xmm1 = [248,248,248,248,248,248,248,248,248,248,248,248,248,248,248,248]
	movdqa	%xmm15, %xmm2
	pand	%xmm1, %xmm2
	pand	%xmm12, %xmm1
	jne	.LBB45_1
# %bb.2:                                # %then.2
	movdqa	.LCPI45_1(%rip), %xmm0          # xmm0 = [216,216,216,216,216,216,216,216,216,216,216,216,216,216,216,216]
	pcmpeqb	%xmm0, %xmm1
	pcmpeqb	%xmm0, %xmm2
	movdqa	%xmm2, %xmm0
	por	%xmm1, %xmm0
	pmovmskb	%xmm0, %edx
	testl	%edx, %edx
	je	.LBB45_5
# %bb.3:                                # %then.2.split
	movdqa	%xmm12, %xmm8
	psllw	$2, %xmm8
	movdqa	.LCPI45_3(%rip), %xmm10         # xmm10 = [252,252,252,252,252,252,252,252,252,252,252,252,252,252,252,252]
	movdqa	%xmm8, %xmm0
	pand	%xmm10, %xmm0
	movdqa	.LCPI45_4(%rip), %xmm4          # xmm4 = [2,2,2,2,2,2,2,2,2,2,2,2,2,2,2,2]
	movdqa	%xmm12, %xmm6
	movdqa	%xmm13, %xmm12
	psrlw	$6, %xmm12
	movdqa	%xmm10, %xmm14
	pandn	%xmm12, %xmm14
	movdqa	%xmm13, %xmm7
	por	%xmm0, %xmm14
	pand	.LCPI45_8(%rip), %xmm14
	movdqa	%xmm4, %xmm0
	pcmpgtb	%xmm14, %xmm0
	movdqa	%xmm0, %xmm4
	movdqa	%xmm0, 48(%rsp)                 # 16-byte Spill
	movdqa	%xmm2, 32(%rsp)                 # 16-byte Spill
	movdqa	.LCPI45_9(%rip), %xmm2          # xmm2 = [192,192,192,192,192,192,192,192,192,192,192,192,192,192,192,192]
	movdqa	%xmm14, %xmm0
	por	%xmm2, %xmm0
	movdqa	%xmm1, 16(%rsp)                 # 16-byte Spill
	movdqa	%xmm4, %xmm1
	pandn	%xmm0, %xmm1
	movdqa	.LCPI45_11(%rip), %xmm4         # xmm4 = [7,7,7,7,7,7,7,7,7,7,7,7,7,7,7,7]
	movdqa	%xmm15, %xmm13
	pminub	%xmm4, %xmm13
	pminub	%xmm6, %xmm4
	pcmpeqb	%xmm6, %xmm4
	movdqa	.LCPI45_7(%rip), %xmm11         # xmm11 = [128,128,128,128,128,128,128,128,128,128,128,128,128,128,128,128]
	por	%xmm11, %xmm14
	movdqa	%xmm4, %xmm0
	pblendvb	%xmm0, %xmm1, %xmm14
	movdqa	%xmm15, %xmm9
	psllw	$2, %xmm9
	movdqa	%xmm9, %xmm0
	pand	%xmm10, %xmm0
	movdqa	(%rsp), %xmm3                   # 16-byte Reload
	movdqa	%xmm3, %xmm1
	psrlw	$6, %xmm1
	movdqa	%xmm15, %xmm5
	movdqa	%xmm10, %xmm15
	pandn	%xmm1, %xmm15
	por	%xmm0, %xmm15
	pand	.LCPI45_8(%rip), %xmm15
	movdqa	.LCPI45_4(%rip), %xmm10         # xmm10 = [2,2,2,2,2,2,2,2,2,2,2,2,2,2,2,2]
	pcmpgtb	%xmm15, %xmm10
	movdqa	%xmm10, 64(%rsp)                # 16-byte Spill
	por	%xmm15, %xmm2
	pandn	%xmm2, %xmm10
	pcmpeqb	%xmm5, %xmm13
	por	%xmm11, %xmm15
	movdqa	%xmm13, %xmm0
	pblendvb	%xmm0, %xmm10, %xmm15
	movdqa	%xmm3, %xmm2
	psllw	$4, %xmm2
	movdqa	%xmm7, %xmm10
	psllw	$4, %xmm10
	movdqa	.LCPI45_2(%rip), %xmm0          # xmm0 = [48,48,48,48,48,48,48,48,48,48,48,48,48,48,48,48]
	pand	%xmm0, %xmm10
	pand	%xmm0, %xmm2
	movdqa	.LCPI45_5(%rip), %xmm3          # xmm3 = [12,12,12,12,12,12,12,12,12,12,12,12,12,12,12,12]
	pand	%xmm3, %xmm9
	movdqa	.LCPI45_6(%rip), %xmm11         # xmm11 = [3,3,3,3,3,3,3,3,3,3,3,3,3,3,3,3]
	pand	%xmm11, %xmm1
	por	%xmm9, %xmm1
	movdqa	%xmm2, %xmm0
	palignr	$15, %xmm10, %xmm0              # xmm0 = xmm10[15],xmm0[0,1,2,3,4,5,6,7,8,9,10,11,12,13,14]
	por	%xmm0, %xmm1
	movdqa	.LCPI45_7(%rip), %xmm9          # xmm9 = [128,128,128,128,128,128,128,128,128,128,128,128,128,128,128,128]
	por	%xmm9, %xmm1
	movaps	32(%rsp), %xmm0                 # 16-byte Reload
	pblendvb	%xmm0, %xmm1, %xmm15
	palignr	$15, %xmm2, %xmm10              # xmm10 = xmm2[15],xmm10[0,1,2,3,4,5,6,7,8,9,10,11,12,13,14]
	pand	%xmm3, %xmm8
	pand	%xmm11, %xmm12
	por	%xmm8, %xmm12
	por	%xmm10, %xmm12
	por	%xmm9, %xmm12
	movaps	16(%rsp), %xmm0                 # 16-byte Reload
	pblendvb	%xmm0, %xmm12, %xmm14
	movdqa	.LCPI45_10(%rip), %xmm2         # xmm2 = [191,191,191,191,191,191,191,191,191,191,191,191,191,191,191,191]
	movdqa	%xmm7, %xmm0
	pminub	%xmm2, %xmm0
	pcmpeqb	%xmm7, %xmm0
	movdqa	%xmm7, %xmm9
	movdqa	%xmm6, %xmm1
	pand	%xmm11, %xmm1
	movdqa	.LCPI45_12(%rip), %xmm12        # xmm12 = [241,241,241,241,241,241,241,241,241,241,241,241,241,241,241,241]
	paddb	%xmm12, %xmm1
	paddb	%xmm0, %xmm1
	movdqa	%xmm6, %xmm8
	movdqa	.LCPI45_3(%rip), %xmm3          # xmm3 = [252,252,252,252,252,252,252,252,252,252,252,252,252,252,252,252]
	pand	%xmm3, %xmm8
	movdqa	.LCPI45_1(%rip), %xmm7          # xmm7 = [216,216,216,216,216,216,216,216,216,216,216,216,216,216,216,216]
	pcmpeqb	%xmm7, %xmm8
	movdqa	%xmm8, %xmm0
	pblendvb	%xmm0, %xmm1, %xmm14
	pand	%xmm5, %xmm3
	pcmpeqb	%xmm7, %xmm3
	pand	%xmm5, %xmm11
	paddb	%xmm12, %xmm11
	movdqa	(%rsp), %xmm7                   # 16-byte Reload
	pminub	%xmm7, %xmm2
	pcmpeqb	%xmm7, %xmm2
	paddb	%xmm2, %xmm11
	movdqa	%xmm3, %xmm0
	pblendvb	%xmm0, %xmm11, %xmm15
	movdqa	%xmm7, %xmm12
	movdqa	.LCPI45_8(%rip), %xmm10         # xmm10 = [63,63,63,63,63,63,63,63,63,63,63,63,63,63,63,63]
	pand	%xmm10, %xmm12
	movdqa	.LCPI45_7(%rip), %xmm11         # xmm11 = [128,128,128,128,128,128,128,128,128,128,128,128,128,128,128,128]
	por	%xmm11, %xmm12
	movdqa	64(%rsp), %xmm0                 # 16-byte Reload
	pand	%xmm13, %xmm0
	pblendvb	%xmm0, %xmm7, %xmm12
	movdqa	%xmm9, %xmm1
	psrlw	$2, %xmm1
	movdqa	%xmm7, %xmm2
	psrlw	$2, %xmm2
	movdqa	.LCPI45_13(%rip), %xmm0         # xmm0 = [16,16,16,16,16,16,16,16,16,16,16,16,16,16,16,16]
	paddb	%xmm0, %xmm2
	paddb	%xmm0, %xmm1
	pand	%xmm10, %xmm1
	pand	%xmm10, %xmm2
	pand	%xmm9, %xmm10
	por	%xmm11, %xmm10
	movdqa	48(%rsp), %xmm0                 # 16-byte Reload
	pand	%xmm4, %xmm0
	pblendvb	%xmm0, %xmm9, %xmm10
	por	%xmm11, %xmm1
	movdqa	%xmm8, %xmm0
	pblendvb	%xmm0, %xmm1, %xmm10
	por	%xmm11, %xmm2
	movdqa	%xmm3, %xmm0
	pblendvb	%xmm0, %xmm2, %xmm12
	psrlw	$4, %xmm6
	movdqa	.LCPI45_14(%rip), %xmm0         # xmm0 = [15,15,15,15,15,15,15,15,15,15,15,15,15,15,15,15]
	pand	%xmm0, %xmm6
	psrlw	$4, %xmm5
	pand	%xmm0, %xmm5
	movdqa	.LCPI45_15(%rip), %xmm0         # xmm0 = [224,224,224,224,224,224,224,224,224,224,224,224,224,224,224,224]
	por	%xmm0, %xmm5
	por	%xmm0, %xmm6
	por	32(%rsp), %xmm13                # 16-byte Folded Reload
	pandn	%xmm5, %xmm13
	por	16(%rsp), %xmm4                 # 16-byte Folded Reload
	pandn	%xmm6, %xmm4
	movdqa	%xmm13, %xmm0
	punpcklbw	%xmm15, %xmm0           # xmm0 = xmm0[0],xmm15[0],xmm0[1],xmm15[1],xmm0[2],xmm15[2],xmm0[3],xmm15[3],xmm0[4],xmm15[4],xmm0[5],xmm15[5],xmm0[6],xmm15[6],xmm0[7],xmm15[7]
	movdqa	%xmm4, %xmm2
	punpcklbw	%xmm14, %xmm2           # xmm2 = xmm2[0],xmm14[0],xmm2[1],xmm14[1],xmm2[2],xmm14[2],xmm2[3],xmm14[3],xmm2[4],xmm14[4],xmm2[5],xmm14[5],xmm2[6],xmm14[6],xmm2[7],xmm14[7]
	pmovmskb	%xmm2, %edi
	pmovmskb	%xmm0, %ebx
	movdqa	%xmm12, %xmm6
	punpcklbw	%xmm12, %xmm6           # xmm6 = xmm6[0],xmm12[0],xmm6[1],xmm12[1],xmm6[2],xmm12[2],xmm6[3],xmm12[3],xmm6[4],xmm12[4],xmm6[5],xmm12[5],xmm6[6],xmm12[6],xmm6[7],xmm12[7]
	movdqa	%xmm0, %xmm1
	punpcklbw	%xmm6, %xmm1            # xmm1 = xmm1[0],xmm6[0],xmm1[1],xmm6[1],xmm1[2],xmm6[2],xmm1[3],xmm6[3],xmm1[4],xmm6[4],xmm1[5],xmm6[5],xmm1[6],xmm6[6],xmm1[7],xmm6[7]
	movdqa	%xmm10, %xmm7
	punpcklbw	%xmm10, %xmm7           # xmm7 = xmm7[0],xmm10[0],xmm7[1],xmm10[1],xmm7[2],xmm10[2],xmm7[3],xmm10[3],xmm7[4],xmm10[4],xmm7[5],xmm10[5],xmm7[6],xmm10[6],xmm7[7],xmm10[7]
	movdqa	%xmm2, %xmm3
	punpcklbw	%xmm7, %xmm3            # xmm3 = xmm3[0],xmm7[0],xmm3[1],xmm7[1],xmm3[2],xmm7[2],xmm3[3],xmm7[3],xmm3[4],xmm7[4],xmm3[5],xmm7[5],xmm3[6],xmm7[6],xmm3[7],xmm7[7]
	movzbl	%dil, %r8d
	movzbl	%bl, %r10d
	popcntl	%r8d, %edx
	shll	$4, %r8d
	leaq	static.20(%rip), %r9
	movdqu	(%r8,%r9), %xmm8
	pshufb	%xmm8, %xmm3
	xorl	%r8d, %r8d
	popcntl	%r10d, %r8d
	shll	$4, %r10d
	movdqu	(%r10,%r9), %xmm8
	pshufb	%xmm8, %xmm1
	punpckhbw	%xmm14, %xmm4           # xmm4 = xmm4[8],xmm14[8],xmm4[9],xmm14[9],xmm4[10],xmm14[10],xmm4[11],xmm14[11],xmm4[12],xmm14[12],xmm4[13],xmm14[13],xmm4[14],xmm14[14],xmm4[15],xmm14[15]
	shrl	$8, %edi
	xorl	%r10d, %r10d
	popcntl	%edi, %r10d
	pmovmskb	%xmm4, %esi
	movzbl	%sil, %r14d
	popcntl	%r14d, %r11d
	punpckhbw	%xmm6, %xmm0            # xmm0 = xmm0[8],xmm6[8],xmm0[9],xmm6[9],xmm0[10],xmm6[10],xmm0[11],xmm6[11],xmm0[12],xmm6[12],xmm0[13],xmm6[13],xmm0[14],xmm6[14],xmm0[15],xmm6[15]
	punpckhbw	%xmm7, %xmm2            # xmm2 = xmm2[8],xmm7[8],xmm2[9],xmm7[9],xmm2[10],xmm7[10],xmm2[11],xmm7[11],xmm2[12],xmm7[12],xmm2[13],xmm7[13],xmm2[14],xmm7[14],xmm2[15],xmm7[15]
	shrl	$8, %ebx
	shll	$4, %edi
	movdqu	(%rdi,%r9), %xmm6
	pshufb	%xmm6, %xmm2
	xorl	%edi, %edi
	popcntl	%ebx, %edi
	shll	$4, %ebx
	movdqu	(%rbx,%r9), %xmm6
	pshufb	%xmm6, %xmm0
	punpckhbw	%xmm15, %xmm13          # xmm13 = xmm13[8],xmm15[8],xmm13[9],xmm15[9],xmm13[10],xmm15[10],xmm13[11],xmm15[11],xmm13[12],xmm15[12],xmm13[13],xmm15[13],xmm13[14],xmm15[14],xmm13[15],xmm15[15]
	pmovmskb	%xmm13, %ebx
	punpckhbw	%xmm12, %xmm12          # xmm12 = xmm12[8,8,9,9,10,10,11,11,12,12,13,13,14,14,15,15]
	movdqa	%xmm13, %xmm6
	punpcklbw	%xmm12, %xmm6           # xmm6 = xmm6[0],xmm12[0],xmm6[1],xmm12[1],xmm6[2],xmm12[2],xmm6[3],xmm12[3],xmm6[4],xmm12[4],xmm6[5],xmm12[5],xmm6[6],xmm12[6],xmm6[7],xmm12[7]
	punpckhbw	%xmm10, %xmm10          # xmm10 = xmm10[8,8,9,9,10,10,11,11,12,12,13,13,14,14,15,15]
	movdqa	%xmm4, %xmm7
	punpcklbw	%xmm10, %xmm7           # xmm7 = xmm7[0],xmm10[0],xmm7[1],xmm10[1],xmm7[2],xmm10[2],xmm7[3],xmm10[3],xmm7[4],xmm10[4],xmm7[5],xmm10[5],xmm7[6],xmm10[6],xmm7[7],xmm10[7]
	movzbl	%bl, %r15d
	shll	$4, %r14d
	movdqu	(%r14,%r9), %xmm8
	pshufb	%xmm8, %xmm7
	xorl	%r14d, %r14d
	popcntl	%r15d, %r14d
	shll	$4, %r15d
	movdqu	(%r15,%r9), %xmm8
	pshufb	%xmm8, %xmm6
	punpckhbw	%xmm12, %xmm13          # xmm13 = xmm13[8],xmm12[8],xmm13[9],xmm12[9],xmm13[10],xmm12[10],xmm13[11],xmm12[11],xmm13[12],xmm12[12],xmm13[13],xmm12[13],xmm13[14],xmm12[14],xmm13[15],xmm12[15]
	shrl	$8, %esi
	xorl	%r15d, %r15d
	popcntl	%esi, %r15d
	punpckhbw	%xmm10, %xmm4           # xmm4 = xmm4[8],xmm10[8],xmm4[9],xmm10[9],xmm4[10],xmm10[10],xmm4[11],xmm10[11],xmm4[12],xmm10[12],xmm4[13],xmm10[13],xmm4[14],xmm10[14],xmm4[15],xmm10[15]
	shrl	$8, %ebx
	shll	$4, %esi
	movdqu	(%rsi,%r9), %xmm8
	pshufb	%xmm8, %xmm4
	xorl	%esi, %esi
	popcntl	%ebx, %esi
	shll	$4, %ebx
	movdqu	(%rbx,%r9), %xmm8
	pshufb	%xmm8, %xmm13
	movdqu	%xmm3, (%rcx,%rax)
	addq	%rax, %rdx
	movdqu	%xmm2, 4(%rcx,%rdx)
	leaq	(%r10,%rdx), %rax
	addq	$4, %rax
	movdqu	%xmm7, 4(%rcx,%rax)
	leaq	4(%r11,%rax), %rax
	movdqu	%xmm4, 4(%rcx,%rax)
	leaq	4(%r15,%rax), %rax
	movdqu	%xmm1, 4(%rcx,%rax)
	leaq	4(%r8,%rax), %rax
	movdqu	%xmm0, 4(%rcx,%rax)
	leaq	4(%rdi,%rax), %rax
	movdqu	%xmm6, 4(%rcx,%rax)
	addq	%r14, %rax
	addq	$4, %rax
	movdqu	%xmm13, 4(%rcx,%rax)
	addq	%rsi, %rax
	addq	$8, %rax
	jmp	.LBB45_4
.LBB45_1:                               # %start.split
	movdqa	%xmm12, %xmm8
	psllw	$2, %xmm8
	movdqa	.LCPI45_3(%rip), %xmm9          # xmm9 = [252,252,252,252,252,252,252,252,252,252,252,252,252,252,252,252]
	movdqa	%xmm8, %xmm0
	pand	%xmm9, %xmm0
	movdqa	.LCPI45_4(%rip), %xmm6          # xmm6 = [2,2,2,2,2,2,2,2,2,2,2,2,2,2,2,2]
	movdqa	%xmm12, %xmm7
	movdqa	%xmm13, %xmm12
	psrlw	$6, %xmm12
	movdqa	%xmm9, %xmm14
	pandn	%xmm12, %xmm14
	movdqa	%xmm13, 48(%rsp)                # 16-byte Spill
	movdqa	.LCPI45_8(%rip), %xmm13         # xmm13 = [63,63,63,63,63,63,63,63,63,63,63,63,63,63,63,63]
	por	%xmm0, %xmm14
	pand	%xmm13, %xmm14
	movdqa	%xmm6, %xmm0
	pcmpgtb	%xmm14, %xmm0
	movdqa	%xmm0, %xmm3
	movdqa	%xmm0, 64(%rsp)                 # 16-byte Spill
	movdqa	%xmm2, 32(%rsp)                 # 16-byte Spill
	movdqa	.LCPI45_9(%rip), %xmm2          # xmm2 = [192,192,192,192,192,192,192,192,192,192,192,192,192,192,192,192]
	movdqa	%xmm14, %xmm0
	por	%xmm2, %xmm0
	movdqa	%xmm1, 16(%rsp)                 # 16-byte Spill
	movdqa	%xmm3, %xmm1
	pandn	%xmm0, %xmm1
	movdqa	.LCPI45_11(%rip), %xmm4         # xmm4 = [7,7,7,7,7,7,7,7,7,7,7,7,7,7,7,7]
	movdqa	%xmm15, %xmm3
	pminub	%xmm4, %xmm3
	pminub	%xmm7, %xmm4
	pcmpeqb	%xmm7, %xmm4
	por	.LCPI45_7(%rip), %xmm14
	movdqa	%xmm4, %xmm0
	pblendvb	%xmm0, %xmm1, %xmm14
	movdqa	%xmm15, %xmm10
	psllw	$2, %xmm10
	movdqa	%xmm10, %xmm0
	pand	%xmm9, %xmm0
	movdqa	(%rsp), %xmm11                  # 16-byte Reload
	movdqa	%xmm11, %xmm1
	psrlw	$6, %xmm1
	movdqa	%xmm15, %xmm5
	movdqa	%xmm9, %xmm15
	pandn	%xmm1, %xmm15
	por	%xmm0, %xmm15
	pand	%xmm13, %xmm15
	movdqa	%xmm6, %xmm0
	pcmpgtb	%xmm15, %xmm0
	movdqa	%xmm0, 80(%rsp)                 # 16-byte Spill
	por	%xmm15, %xmm2
	movdqa	%xmm11, %xmm6
	movdqa	%xmm0, %xmm11
	pandn	%xmm2, %xmm11
	pcmpeqb	%xmm5, %xmm3
	por	.LCPI45_7(%rip), %xmm15
	movdqa	%xmm3, %xmm0
	pblendvb	%xmm0, %xmm11, %xmm15
	movdqa	%xmm6, %xmm2
	psllw	$4, %xmm2
	movdqa	48(%rsp), %xmm9                 # 16-byte Reload
	psllw	$4, %xmm9
	movdqa	.LCPI45_2(%rip), %xmm0          # xmm0 = [48,48,48,48,48,48,48,48,48,48,48,48,48,48,48,48]
	pand	%xmm0, %xmm9
	pand	%xmm0, %xmm2
	pand	.LCPI45_5(%rip), %xmm10
	movdqa	.LCPI45_6(%rip), %xmm11         # xmm11 = [3,3,3,3,3,3,3,3,3,3,3,3,3,3,3,3]
	pand	%xmm11, %xmm1
	por	%xmm10, %xmm1
	movdqa	%xmm2, %xmm0
	palignr	$15, %xmm9, %xmm0               # xmm0 = xmm9[15],xmm0[0,1,2,3,4,5,6,7,8,9,10,11,12,13,14]
	por	%xmm0, %xmm1
	movdqa	32(%rsp), %xmm0                 # 16-byte Reload
	pcmpeqb	.LCPI45_1(%rip), %xmm0
	movdqa	%xmm0, 32(%rsp)                 # 16-byte Spill
	movdqa	.LCPI45_7(%rip), %xmm10         # xmm10 = [128,128,128,128,128,128,128,128,128,128,128,128,128,128,128,128]
	por	%xmm10, %xmm1
	pblendvb	%xmm0, %xmm1, %xmm15
	palignr	$15, %xmm2, %xmm9               # xmm9 = xmm2[15],xmm9[0,1,2,3,4,5,6,7,8,9,10,11,12,13,14]
	pand	.LCPI45_5(%rip), %xmm8
	pand	%xmm11, %xmm12
	por	%xmm8, %xmm12
	por	%xmm9, %xmm12
	movdqa	16(%rsp), %xmm0                 # 16-byte Reload
	movdqa	.LCPI45_1(%rip), %xmm2          # xmm2 = [216,216,216,216,216,216,216,216,216,216,216,216,216,216,216,216]
	pcmpeqb	%xmm2, %xmm0
	movdqa	%xmm0, 16(%rsp)                 # 16-byte Spill
	por	%xmm10, %xmm12
	pblendvb	%xmm0, %xmm12, %xmm14
	movdqa	.LCPI45_10(%rip), %xmm12        # xmm12 = [191,191,191,191,191,191,191,191,191,191,191,191,191,191,191,191]
	movdqa	48(%rsp), %xmm10                # 16-byte Reload
	movdqa	%xmm10, %xmm0
	pminub	%xmm12, %xmm0
	pcmpeqb	%xmm10, %xmm0
	movdqa	%xmm7, %xmm1
	pand	%xmm11, %xmm1
	paddb	.LCPI45_12(%rip), %xmm1
	paddb	%xmm0, %xmm1
	movdqa	%xmm7, %xmm8
	movdqa	.LCPI45_3(%rip), %xmm9          # xmm9 = [252,252,252,252,252,252,252,252,252,252,252,252,252,252,252,252]
	pand	%xmm9, %xmm8
	pcmpeqb	%xmm2, %xmm8
	movdqa	%xmm8, %xmm0
	pblendvb	%xmm0, %xmm1, %xmm14
	pand	%xmm5, %xmm9
	pcmpeqb	%xmm2, %xmm9
	pand	%xmm5, %xmm11
	paddb	.LCPI45_12(%rip), %xmm11
	pminub	%xmm6, %xmm12
	pcmpeqb	%xmm6, %xmm12
	paddb	%xmm12, %xmm11
	movdqa	%xmm9, %xmm0
	pblendvb	%xmm0, %xmm11, %xmm15
	movdqa	%xmm6, %xmm12
	pand	%xmm13, %xmm12
	movdqa	.LCPI45_7(%rip), %xmm11         # xmm11 = [128,128,128,128,128,128,128,128,128,128,128,128,128,128,128,128]
	por	%xmm11, %xmm12
	movdqa	80(%rsp), %xmm0                 # 16-byte Reload
	pand	%xmm3, %xmm0
	pblendvb	%xmm0, %xmm6, %xmm12
	movdqa	%xmm10, %xmm1
	psrlw	$2, %xmm1
	psrlw	$2, %xmm6
	movdqa	.LCPI45_13(%rip), %xmm0         # xmm0 = [16,16,16,16,16,16,16,16,16,16,16,16,16,16,16,16]
	paddb	%xmm0, %xmm6
	paddb	%xmm0, %xmm1
	pand	%xmm13, %xmm1
	pand	%xmm13, %xmm6
	pand	%xmm10, %xmm13
	por	%xmm11, %xmm13
	movdqa	64(%rsp), %xmm0                 # 16-byte Reload
	pand	%xmm4, %xmm0
	pblendvb	%xmm0, %xmm10, %xmm13
	por	%xmm11, %xmm1
	movdqa	%xmm8, %xmm0
	pblendvb	%xmm0, %xmm1, %xmm13
	por	%xmm11, %xmm6
	movdqa	%xmm9, %xmm0
	pblendvb	%xmm0, %xmm6, %xmm12
	psrlw	$4, %xmm7
	movdqa	.LCPI45_14(%rip), %xmm0         # xmm0 = [15,15,15,15,15,15,15,15,15,15,15,15,15,15,15,15]
	pand	%xmm0, %xmm7
	psrlw	$4, %xmm5
	pand	%xmm0, %xmm5
	movdqa	.LCPI45_15(%rip), %xmm0         # xmm0 = [224,224,224,224,224,224,224,224,224,224,224,224,224,224,224,224]
	por	%xmm0, %xmm5
	por	%xmm0, %xmm7
	por	32(%rsp), %xmm3                 # 16-byte Folded Reload
	pandn	%xmm5, %xmm3
	por	16(%rsp), %xmm4                 # 16-byte Folded Reload
	pandn	%xmm7, %xmm4
	movdqa	%xmm3, %xmm0
	punpcklbw	%xmm15, %xmm0           # xmm0 = xmm0[0],xmm15[0],xmm0[1],xmm15[1],xmm0[2],xmm15[2],xmm0[3],xmm15[3],xmm0[4],xmm15[4],xmm0[5],xmm15[5],xmm0[6],xmm15[6],xmm0[7],xmm15[7]
	movdqa	%xmm4, %xmm2
	punpcklbw	%xmm14, %xmm2           # xmm2 = xmm2[0],xmm14[0],xmm2[1],xmm14[1],xmm2[2],xmm14[2],xmm2[3],xmm14[3],xmm2[4],xmm14[4],xmm2[5],xmm14[5],xmm2[6],xmm14[6],xmm2[7],xmm14[7]
	pmovmskb	%xmm2, %edi
	pmovmskb	%xmm0, %ebx
	movdqa	%xmm12, %xmm6
	punpcklbw	%xmm12, %xmm6           # xmm6 = xmm6[0],xmm12[0],xmm6[1],xmm12[1],xmm6[2],xmm12[2],xmm6[3],xmm12[3],xmm6[4],xmm12[4],xmm6[5],xmm12[5],xmm6[6],xmm12[6],xmm6[7],xmm12[7]
	movdqa	%xmm0, %xmm1
	punpcklbw	%xmm6, %xmm1            # xmm1 = xmm1[0],xmm6[0],xmm1[1],xmm6[1],xmm1[2],xmm6[2],xmm1[3],xmm6[3],xmm1[4],xmm6[4],xmm1[5],xmm6[5],xmm1[6],xmm6[6],xmm1[7],xmm6[7]
	movdqa	%xmm13, %xmm7
	punpcklbw	%xmm13, %xmm7           # xmm7 = xmm7[0],xmm13[0],xmm7[1],xmm13[1],xmm7[2],xmm13[2],xmm7[3],xmm13[3],xmm7[4],xmm13[4],xmm7[5],xmm13[5],xmm7[6],xmm13[6],xmm7[7],xmm13[7]
	movdqa	%xmm2, %xmm5
	punpcklbw	%xmm7, %xmm5            # xmm5 = xmm5[0],xmm7[0],xmm5[1],xmm7[1],xmm5[2],xmm7[2],xmm5[3],xmm7[3],xmm5[4],xmm7[4],xmm5[5],xmm7[5],xmm5[6],xmm7[6],xmm5[7],xmm7[7]
	movzbl	%dil, %r8d
	movzbl	%bl, %r10d
	popcntl	%r8d, %edx
	shll	$4, %r8d
	leaq	static.20(%rip), %r9
	movdqu	(%r8,%r9), %xmm8
	pshufb	%xmm8, %xmm5
	xorl	%r8d, %r8d
	popcntl	%r10d, %r8d
	shll	$4, %r10d
	movdqu	(%r10,%r9), %xmm8
	pshufb	%xmm8, %xmm1
	punpckhbw	%xmm14, %xmm4           # xmm4 = xmm4[8],xmm14[8],xmm4[9],xmm14[9],xmm4[10],xmm14[10],xmm4[11],xmm14[11],xmm4[12],xmm14[12],xmm4[13],xmm14[13],xmm4[14],xmm14[14],xmm4[15],xmm14[15]
	shrl	$8, %edi
	xorl	%r10d, %r10d
	popcntl	%edi, %r10d
	pmovmskb	%xmm4, %esi
	movzbl	%sil, %r14d
	popcntl	%r14d, %r11d
	punpckhbw	%xmm6, %xmm0            # xmm0 = xmm0[8],xmm6[8],xmm0[9],xmm6[9],xmm0[10],xmm6[10],xmm0[11],xmm6[11],xmm0[12],xmm6[12],xmm0[13],xmm6[13],xmm0[14],xmm6[14],xmm0[15],xmm6[15]
	punpckhbw	%xmm7, %xmm2            # xmm2 = xmm2[8],xmm7[8],xmm2[9],xmm7[9],xmm2[10],xmm7[10],xmm2[11],xmm7[11],xmm2[12],xmm7[12],xmm2[13],xmm7[13],xmm2[14],xmm7[14],xmm2[15],xmm7[15]
	shrl	$8, %ebx
	shll	$4, %edi
	movdqu	(%rdi,%r9), %xmm6
	pshufb	%xmm6, %xmm2
	xorl	%edi, %edi
	popcntl	%ebx, %edi
	shll	$4, %ebx
	movdqu	(%rbx,%r9), %xmm6
	pshufb	%xmm6, %xmm0
	punpckhbw	%xmm15, %xmm3           # xmm3 = xmm3[8],xmm15[8],xmm3[9],xmm15[9],xmm3[10],xmm15[10],xmm3[11],xmm15[11],xmm3[12],xmm15[12],xmm3[13],xmm15[13],xmm3[14],xmm15[14],xmm3[15],xmm15[15]
	pmovmskb	%xmm3, %ebx
	punpckhbw	%xmm12, %xmm12          # xmm12 = xmm12[8,8,9,9,10,10,11,11,12,12,13,13,14,14,15,15]
	movdqa	%xmm3, %xmm6
	punpcklbw	%xmm12, %xmm6           # xmm6 = xmm6[0],xmm12[0],xmm6[1],xmm12[1],xmm6[2],xmm12[2],xmm6[3],xmm12[3],xmm6[4],xmm12[4],xmm6[5],xmm12[5],xmm6[6],xmm12[6],xmm6[7],xmm12[7]
	punpckhbw	%xmm13, %xmm13          # xmm13 = xmm13[8,8,9,9,10,10,11,11,12,12,13,13,14,14,15,15]
	movdqa	%xmm4, %xmm7
	punpcklbw	%xmm13, %xmm7           # xmm7 = xmm7[0],xmm13[0],xmm7[1],xmm13[1],xmm7[2],xmm13[2],xmm7[3],xmm13[3],xmm7[4],xmm13[4],xmm7[5],xmm13[5],xmm7[6],xmm13[6],xmm7[7],xmm13[7]
	movzbl	%bl, %r15d
	shll	$4, %r14d
	movdqu	(%r14,%r9), %xmm8
	pshufb	%xmm8, %xmm7
	xorl	%r14d, %r14d
	popcntl	%r15d, %r14d
	shll	$4, %r15d
	movdqu	(%r15,%r9), %xmm8
	pshufb	%xmm8, %xmm6
	punpckhbw	%xmm12, %xmm3           # xmm3 = xmm3[8],xmm12[8],xmm3[9],xmm12[9],xmm3[10],xmm12[10],xmm3[11],xmm12[11],xmm3[12],xmm12[12],xmm3[13],xmm12[13],xmm3[14],xmm12[14],xmm3[15],xmm12[15]
	shrl	$8, %esi
	xorl	%r15d, %r15d
	popcntl	%esi, %r15d
	punpckhbw	%xmm13, %xmm4           # xmm4 = xmm4[8],xmm13[8],xmm4[9],xmm13[9],xmm4[10],xmm13[10],xmm4[11],xmm13[11],xmm4[12],xmm13[12],xmm4[13],xmm13[13],xmm4[14],xmm13[14],xmm4[15],xmm13[15]
	shrl	$8, %ebx
	shll	$4, %esi
	movdqu	(%rsi,%r9), %xmm8
	pshufb	%xmm8, %xmm4
	xorl	%esi, %esi
	popcntl	%ebx, %esi
	shll	$4, %ebx
	movdqu	(%rbx,%r9), %xmm8
	pshufb	%xmm8, %xmm3
	movdqu	%xmm5, (%rcx,%rax)
	addq	%rax, %rdx
	movdqu	%xmm2, 4(%rcx,%rdx)
	leaq	(%r10,%rdx), %rax
	addq	$4, %rax
	movdqu	%xmm7, 4(%rcx,%rax)
	leaq	4(%r11,%rax), %rax
	movdqu	%xmm4, 4(%rcx,%rax)
	leaq	4(%r15,%rax), %rax
	movdqu	%xmm1, 4(%rcx,%rax)
	leaq	4(%r8,%rax), %rax
	movdqu	%xmm0, 4(%rcx,%rax)
	leaq	4(%rdi,%rax), %rax
	movdqu	%xmm6, 4(%rcx,%rax)
	addq	%r14, %rax
	addq	$4, %rax
	movdqu	%xmm3, 4(%rcx,%rax)
	addq	%rsi, %rax
	addq	$6, %rax
.LBB45_4:                               # %common.ret
	movaps	96(%rsp), %xmm6                 # 16-byte Reload
	movaps	112(%rsp), %xmm7                # 16-byte Reload
	movaps	128(%rsp), %xmm8                # 16-byte Reload
	movaps	144(%rsp), %xmm9                # 16-byte Reload
	movaps	160(%rsp), %xmm10               # 16-byte Reload
	movaps	176(%rsp), %xmm11               # 16-byte Reload
	movaps	192(%rsp), %xmm12               # 16-byte Reload
	movaps	208(%rsp), %xmm13               # 16-byte Reload
	movaps	224(%rsp), %xmm14               # 16-byte Reload
	movaps	240(%rsp), %xmm15               # 16-byte Reload
	addq	$264, %rsp                      # imm = 0x108
	popq	%rbx
	popq	%rdi
	popq	%rsi
	popq	%r12
	popq	%r14
	popq	%r15
	retq
.LBB45_5:                               # %then.5
	movdqa	%xmm15, %xmm0
	pmaxub	%xmm12, %xmm0
	movdqa	.LCPI45_16(%rip), %xmm1         # xmm1 = [8,8,8,8,8,8,8,8,8,8,8,8,8,8,8,8]
	pmaxub	%xmm0, %xmm1
	pcmpeqb	%xmm0, %xmm1
	pmovmskb	%xmm1, %edx
	testl	%edx, %edx
	je	.LBB45_7
# %bb.6:                                # %then.1.i
	movdqa	.LCPI45_4(%rip), %xmm3          # xmm3 = [2,2,2,2,2,2,2,2,2,2,2,2,2,2,2,2]
	movdqa	(%rsp), %xmm11                  # 16-byte Reload
	movdqa	%xmm11, %xmm0
	psrlw	$6, %xmm0
	movdqa	.LCPI45_3(%rip), %xmm8          # xmm8 = [252,252,252,252,252,252,252,252,252,252,252,252,252,252,252,252]
	movdqa	%xmm8, %xmm1
	pandn	%xmm0, %xmm1
	movdqa	%xmm15, %xmm6
	psllw	$2, %xmm6
	pand	%xmm8, %xmm6
	por	%xmm1, %xmm6
	movdqa	.LCPI45_8(%rip), %xmm5          # xmm5 = [63,63,63,63,63,63,63,63,63,63,63,63,63,63,63,63]
	pand	%xmm5, %xmm6
	movdqa	%xmm13, %xmm0
	psrlw	$6, %xmm0
	movdqa	%xmm12, %xmm1
	psllw	$2, %xmm1
	pand	%xmm8, %xmm1
	pandn	%xmm0, %xmm8
	por	%xmm1, %xmm8
	pand	%xmm5, %xmm8
	movdqa	%xmm3, %xmm4
	pcmpgtb	%xmm8, %xmm4
	pcmpgtb	%xmm6, %xmm3
	movdqa	.LCPI45_9(%rip), %xmm0          # xmm0 = [192,192,192,192,192,192,192,192,192,192,192,192,192,192,192,192]
	movdqa	%xmm8, %xmm1
	por	%xmm0, %xmm1
	por	%xmm6, %xmm0
	movdqa	%xmm3, %xmm7
	pandn	%xmm0, %xmm7
	movdqa	%xmm4, %xmm9
	pandn	%xmm1, %xmm9
	movdqa	.LCPI45_11(%rip), %xmm2         # xmm2 = [7,7,7,7,7,7,7,7,7,7,7,7,7,7,7,7]
	movdqa	%xmm15, %xmm1
	pminub	%xmm2, %xmm1
	pcmpeqb	%xmm15, %xmm1
	pminub	%xmm12, %xmm2
	pcmpeqb	%xmm12, %xmm2
	movdqa	.LCPI45_7(%rip), %xmm10         # xmm10 = [128,128,128,128,128,128,128,128,128,128,128,128,128,128,128,128]
	por	%xmm10, %xmm6
	por	%xmm10, %xmm8
	movdqa	%xmm2, %xmm0
	pblendvb	%xmm0, %xmm9, %xmm8
	movdqa	%xmm1, %xmm0
	pblendvb	%xmm0, %xmm7, %xmm6
	movdqa	%xmm13, %xmm7
	pand	%xmm5, %xmm7
	pand	%xmm11, %xmm5
	por	%xmm10, %xmm5
	por	%xmm10, %xmm7
	pand	%xmm2, %xmm4
	movdqa	%xmm4, %xmm0
	pblendvb	%xmm0, %xmm13, %xmm7
	pand	%xmm1, %xmm3
	movdqa	%xmm3, %xmm0
	pblendvb	%xmm0, %xmm11, %xmm5
	psrlw	$4, %xmm12
	movdqa	.LCPI45_14(%rip), %xmm0         # xmm0 = [15,15,15,15,15,15,15,15,15,15,15,15,15,15,15,15]
	pand	%xmm0, %xmm12
	psrlw	$4, %xmm15
	pand	%xmm0, %xmm15
	movdqa	.LCPI45_15(%rip), %xmm0         # xmm0 = [224,224,224,224,224,224,224,224,224,224,224,224,224,224,224,224]
	por	%xmm0, %xmm15
	por	%xmm0, %xmm12
	pandn	%xmm12, %xmm2
	pandn	%xmm15, %xmm1
	movdqa	%xmm1, %xmm0
	punpcklbw	%xmm6, %xmm0            # xmm0 = xmm0[0],xmm6[0],xmm0[1],xmm6[1],xmm0[2],xmm6[2],xmm0[3],xmm6[3],xmm0[4],xmm6[4],xmm0[5],xmm6[5],xmm0[6],xmm6[6],xmm0[7],xmm6[7]
	movdqa	%xmm2, %xmm3
	punpcklbw	%xmm8, %xmm3            # xmm3 = xmm3[0],xmm8[0],xmm3[1],xmm8[1],xmm3[2],xmm8[2],xmm3[3],xmm8[3],xmm3[4],xmm8[4],xmm3[5],xmm8[5],xmm3[6],xmm8[6],xmm3[7],xmm8[7]
	pmovmskb	%xmm3, %r14d
	pmovmskb	%xmm0, %ebx
	movdqa	%xmm5, %xmm10
	punpcklbw	%xmm5, %xmm10           # xmm10 = xmm10[0],xmm5[0],xmm10[1],xmm5[1],xmm10[2],xmm5[2],xmm10[3],xmm5[3],xmm10[4],xmm5[4],xmm10[5],xmm5[5],xmm10[6],xmm5[6],xmm10[7],xmm5[7]
	movdqa	%xmm0, %xmm4
	punpcklbw	%xmm10, %xmm4           # xmm4 = xmm4[0],xmm10[0],xmm4[1],xmm10[1],xmm4[2],xmm10[2],xmm4[3],xmm10[3],xmm4[4],xmm10[4],xmm4[5],xmm10[5],xmm4[6],xmm10[6],xmm4[7],xmm10[7]
	movdqa	%xmm7, %xmm11
	punpcklbw	%xmm7, %xmm11           # xmm11 = xmm11[0],xmm7[0],xmm11[1],xmm7[1],xmm11[2],xmm7[2],xmm11[3],xmm7[3],xmm11[4],xmm7[4],xmm11[5],xmm7[5],xmm11[6],xmm7[6],xmm11[7],xmm7[7]
	movdqa	%xmm3, %xmm9
	punpcklbw	%xmm11, %xmm9           # xmm9 = xmm9[0],xmm11[0],xmm9[1],xmm11[1],xmm9[2],xmm11[2],xmm9[3],xmm11[3],xmm9[4],xmm11[4],xmm9[5],xmm11[5],xmm9[6],xmm11[6],xmm9[7],xmm11[7]
	movzbl	%r14b, %r9d
	movzbl	%bl, %r10d
	popcntl	%r9d, %edx
	shll	$4, %r9d
	leaq	static.20(%rip), %r8
	movdqu	(%r9,%r8), %xmm12
	pshufb	%xmm12, %xmm9
	popcntl	%r10d, %esi
	shll	$4, %r10d
	movdqu	(%r10,%r8), %xmm12
	pshufb	%xmm12, %xmm4
	shrl	$8, %r14d
	xorl	%r9d, %r9d
	popcntl	%r14d, %r9d
	addq	%rax, %rdx
	addq	%rdx, %r9
	addq	$4, %r9
	punpckhbw	%xmm8, %xmm2            # xmm2 = xmm2[8],xmm8[8],xmm2[9],xmm8[9],xmm2[10],xmm8[10],xmm2[11],xmm8[11],xmm2[12],xmm8[12],xmm2[13],xmm8[13],xmm2[14],xmm8[14],xmm2[15],xmm8[15]
	pmovmskb	%xmm2, %edi
	movzbl	%dil, %r15d
	xorl	%r10d, %r10d
	popcntl	%r15d, %r10d
	addq	%r9, %r10
	addq	$4, %r10
	shrl	$8, %edi
	popcntl	%edi, %r11d
	addq	%r10, %r11
	addq	$4, %r11
	addq	%r11, %rsi
	addq	$4, %rsi
	punpckhbw	%xmm10, %xmm0           # xmm0 = xmm0[8],xmm10[8],xmm0[9],xmm10[9],xmm0[10],xmm10[10],xmm0[11],xmm10[11],xmm0[12],xmm10[12],xmm0[13],xmm10[13],xmm0[14],xmm10[14],xmm0[15],xmm10[15]
	punpckhbw	%xmm11, %xmm3           # xmm3 = xmm3[8],xmm11[8],xmm3[9],xmm11[9],xmm3[10],xmm11[10],xmm3[11],xmm11[11],xmm3[12],xmm11[12],xmm3[13],xmm11[13],xmm3[14],xmm11[14],xmm3[15],xmm11[15]
	shrl	$8, %ebx
	shll	$4, %r14d
	movdqu	(%r14,%r8), %xmm8
	pshufb	%xmm8, %xmm3
	xorl	%r14d, %r14d
	popcntl	%ebx, %r14d
	shll	$4, %ebx
	movdqu	(%rbx,%r8), %xmm8
	pshufb	%xmm8, %xmm0
	leaq	(%r14,%rsi), %rbx
	addq	$4, %rbx
	punpckhbw	%xmm6, %xmm1            # xmm1 = xmm1[8],xmm6[8],xmm1[9],xmm6[9],xmm1[10],xmm6[10],xmm1[11],xmm6[11],xmm1[12],xmm6[12],xmm1[13],xmm6[13],xmm1[14],xmm6[14],xmm1[15],xmm6[15]
	pmovmskb	%xmm1, %r14d
	punpckhbw	%xmm5, %xmm5            # xmm5 = xmm5[8,8,9,9,10,10,11,11,12,12,13,13,14,14,15,15]
	movdqa	%xmm1, %xmm6
	punpcklbw	%xmm5, %xmm6            # xmm6 = xmm6[0],xmm5[0],xmm6[1],xmm5[1],xmm6[2],xmm5[2],xmm6[3],xmm5[3],xmm6[4],xmm5[4],xmm6[5],xmm5[5],xmm6[6],xmm5[6],xmm6[7],xmm5[7]
	punpckhbw	%xmm7, %xmm7            # xmm7 = xmm7[8,8,9,9,10,10,11,11,12,12,13,13,14,14,15,15]
	movdqa	%xmm2, %xmm8
	punpcklbw	%xmm7, %xmm8            # xmm8 = xmm8[0],xmm7[0],xmm8[1],xmm7[1],xmm8[2],xmm7[2],xmm8[3],xmm7[3],xmm8[4],xmm7[4],xmm8[5],xmm7[5],xmm8[6],xmm7[6],xmm8[7],xmm7[7]
	movzbl	%r14b, %r12d
	shll	$4, %r15d
	movdqu	(%r15,%r8), %xmm10
	pshufb	%xmm10, %xmm8
	xorl	%r15d, %r15d
	popcntl	%r12d, %r15d
	shll	$4, %r12d
	movdqu	(%r12,%r8), %xmm10
	pshufb	%xmm10, %xmm6
	addq	%rbx, %r15
	addq	$4, %r15
	punpckhbw	%xmm5, %xmm1            # xmm1 = xmm1[8],xmm5[8],xmm1[9],xmm5[9],xmm1[10],xmm5[10],xmm1[11],xmm5[11],xmm1[12],xmm5[12],xmm1[13],xmm5[13],xmm1[14],xmm5[14],xmm1[15],xmm5[15]
	punpckhbw	%xmm7, %xmm2            # xmm2 = xmm2[8],xmm7[8],xmm2[9],xmm7[9],xmm2[10],xmm7[10],xmm2[11],xmm7[11],xmm2[12],xmm7[12],xmm2[13],xmm7[13],xmm2[14],xmm7[14],xmm2[15],xmm7[15]
	shrl	$8, %r14d
	shll	$4, %edi
	movdqu	(%rdi,%r8), %xmm5
	pshufb	%xmm5, %xmm2
	xorl	%edi, %edi
	popcntl	%r14d, %edi
	shll	$4, %r14d
	movdqu	(%r14,%r8), %xmm5
	pshufb	%xmm5, %xmm1
	movdqu	%xmm9, (%rcx,%rax)
	movdqu	%xmm3, 4(%rcx,%rdx)
	movdqu	%xmm8, 4(%rcx,%r9)
	movdqu	%xmm2, 4(%rcx,%r10)
	movdqu	%xmm4, 4(%rcx,%r11)
	movdqu	%xmm0, 4(%rcx,%rsi)
	movdqu	%xmm6, 4(%rcx,%rbx)
	movdqu	%xmm1, 4(%rcx,%r15)
	leaq	(%rdi,%r15), %rax
	addq	$8, %rax
	jmp	.LBB45_4
.LBB45_7:                               # %join.3.i
	movdqa	(%rsp), %xmm0                   # 16-byte Reload
	por	%xmm13, %xmm0
	psrlw	$7, %xmm0
	pand	.LCPI45_17(%rip), %xmm0
	movdqa	%xmm15, %xmm1
	por	%xmm12, %xmm1
	por	%xmm0, %xmm1
	ptest	%xmm1, %xmm1
	je	.LBB45_8
# %bb.9:                                # %join.6.i
	movdqa	.LCPI45_4(%rip), %xmm6          # xmm6 = [2,2,2,2,2,2,2,2,2,2,2,2,2,2,2,2]
	movdqa	%xmm13, %xmm0
	psrlw	$6, %xmm0
	movdqa	.LCPI45_3(%rip), %xmm3          # xmm3 = [252,252,252,252,252,252,252,252,252,252,252,252,252,252,252,252]
	movdqa	%xmm3, %xmm1
	pandn	%xmm0, %xmm1
	movdqa	%xmm12, %xmm4
	psllw	$2, %xmm4
	pand	%xmm3, %xmm4
	por	%xmm1, %xmm4
	movdqa	.LCPI45_8(%rip), %xmm5          # xmm5 = [63,63,63,63,63,63,63,63,63,63,63,63,63,63,63,63]
	pand	%xmm5, %xmm4
	movdqa	(%rsp), %xmm10                  # 16-byte Reload
	movdqa	%xmm10, %xmm0
	psrlw	$6, %xmm0
	movdqa	%xmm15, %xmm1
	psllw	$2, %xmm1
	pand	%xmm3, %xmm1
	pandn	%xmm0, %xmm3
	por	%xmm1, %xmm3
	pand	%xmm5, %xmm3
	movdqa	%xmm6, %xmm8
	pcmpgtb	%xmm3, %xmm8
	pcmpgtb	%xmm4, %xmm6
	movdqa	.LCPI45_9(%rip), %xmm7          # xmm7 = [192,192,192,192,192,192,192,192,192,192,192,192,192,192,192,192]
	movdqa	%xmm3, %xmm11
	por	%xmm7, %xmm11
	por	%xmm4, %xmm7
	movdqa	.LCPI45_11(%rip), %xmm1         # xmm1 = [7,7,7,7,7,7,7,7,7,7,7,7,7,7,7,7]
	movdqa	%xmm12, %xmm2
	pminub	%xmm1, %xmm2
	pminub	%xmm15, %xmm1
	pcmpeqb	%xmm15, %xmm1
	movdqa	%xmm1, %xmm0
	pand	%xmm8, %xmm1
	pandn	%xmm11, %xmm8
	movdqa	.LCPI45_7(%rip), %xmm9          # xmm9 = [128,128,128,128,128,128,128,128,128,128,128,128,128,128,128,128]
	por	%xmm9, %xmm3
	pblendvb	%xmm0, %xmm8, %xmm3
	pcmpeqb	%xmm12, %xmm2
	movdqa	%xmm2, %xmm0
	pand	%xmm6, %xmm2
	pandn	%xmm7, %xmm6
	por	%xmm9, %xmm4
	pblendvb	%xmm0, %xmm6, %xmm4
	movdqa	%xmm13, %xmm6
	pand	%xmm5, %xmm6
	pand	%xmm10, %xmm5
	por	%xmm9, %xmm5
	por	%xmm9, %xmm6
	movdqa	%xmm2, %xmm0
	pblendvb	%xmm0, %xmm13, %xmm6
	movdqa	%xmm1, %xmm0
	pblendvb	%xmm0, %xmm10, %xmm5
	pmovmskb	%xmm4, %r9d
	pmovmskb	%xmm3, %edx
	movdqa	%xmm3, %xmm0
	punpcklbw	%xmm5, %xmm0            # xmm0 = xmm0[0],xmm5[0],xmm0[1],xmm5[1],xmm0[2],xmm5[2],xmm0[3],xmm5[3],xmm0[4],xmm5[4],xmm0[5],xmm5[5],xmm0[6],xmm5[6],xmm0[7],xmm5[7]
	movdqa	%xmm4, %xmm1
	punpcklbw	%xmm6, %xmm1            # xmm1 = xmm1[0],xmm6[0],xmm1[1],xmm6[1],xmm1[2],xmm6[2],xmm1[3],xmm6[3],xmm1[4],xmm6[4],xmm1[5],xmm6[5],xmm1[6],xmm6[6],xmm1[7],xmm6[7]
	movzbl	%r9b, %r11d
	movzbl	%dl, %esi
	popcntl	%r11d, %r8d
	shll	$4, %r11d
	leaq	static.19(%rip), %r10
	movdqu	(%r11,%r10), %xmm2
	pshufb	%xmm2, %xmm1
	xorl	%r11d, %r11d
	popcntl	%esi, %r11d
	shll	$4, %esi
	movdqu	(%rsi,%r10), %xmm2
	pshufb	%xmm2, %xmm0
	shrl	$8, %r9d
	xorl	%esi, %esi
	popcntl	%r9d, %esi
	addq	%rax, %r8
	addq	%r8, %rsi
	addq	$8, %rsi
	addq	%rsi, %r11
	addq	$8, %r11
	punpckhbw	%xmm5, %xmm3            # xmm3 = xmm3[8],xmm5[8],xmm3[9],xmm5[9],xmm3[10],xmm5[10],xmm3[11],xmm5[11],xmm3[12],xmm5[12],xmm3[13],xmm5[13],xmm3[14],xmm5[14],xmm3[15],xmm5[15]
	punpckhbw	%xmm6, %xmm4            # xmm4 = xmm4[8],xmm6[8],xmm4[9],xmm6[9],xmm4[10],xmm6[10],xmm4[11],xmm6[11],xmm4[12],xmm6[12],xmm4[13],xmm6[13],xmm4[14],xmm6[14],xmm4[15],xmm6[15]
	shrl	$8, %edx
	shll	$4, %r9d
	movdqu	(%r9,%r10), %xmm2
	pshufb	%xmm2, %xmm4
	xorl	%r9d, %r9d
	popcntl	%edx, %r9d
	shll	$4, %edx
	movdqu	(%rdx,%r10), %xmm2
	pshufb	%xmm2, %xmm3
	movdqu	%xmm1, (%rcx,%rax)
	movdqu	%xmm4, 8(%rcx,%r8)
	movdqu	%xmm0, 8(%rcx,%rsi)
	movdqu	%xmm3, 8(%rcx,%r11)
	leaq	(%r9,%r11), %rax
	addq	$16, %rax
	jmp	.LBB45_4
.LBB45_8:                               # %then.4.i
	movdqu	%xmm13, (%rcx,%rax)
	movdqa	(%rsp), %xmm0                   # 16-byte Reload
	movdqu	%xmm0, 16(%rcx,%rax)
	addq	$32, %rax
	jmp	.LBB45_4
	.seh_endproc
                                        # -- End function
	.def	recoding_engine_recode_faults_7de934f40f1f4d79_242;
	.scl	3;
	.type	32;
	.endef
	.section .text$n50,"xr"
	.p2align	4                               # -- Begin function recoding::engine::recode_faults::<#7de934f40f1f4d79>
recoding_engine_recode_faults_7de934f40f1f4d79_242: # @recoding_engine_recode_faults_7de934f40f1f4d79_242
.seh_proc recoding_engine_recode_faults_7de934f40f1f4d79_242
# %bb.0:                                # %start
	pushq	%r15
	.seh_pushreg %r15
	pushq	%r14
	.seh_pushreg %r14
	pushq	%r13
	.seh_pushreg %r13
	pushq	%r12
	.seh_pushreg %r12
	pushq	%rsi
	.seh_pushreg %rsi
	pushq	%rdi
	.seh_pushreg %rdi
	pushq	%rbp
	.seh_pushreg %rbp
	pushq	%rbx
	.seh_pushreg %rbx
	.seh_endprologue
	movq	104(%rsp), %r13
	cmpb	$2, (%rdx)
	sete	%r10b
	cmpq	$0, 16(%rdx)
	sete	%r12b
	andb	%r10b, %r12b
	movl	$16, %r11d
	xorl	%edi, %edi
	xorl	%r10d, %r10d
	jmp	.LBB46_1
	.p2align	4
.LBB46_13:                              # %recoding_text_Utf8Text_put_any_345d457c2768aa28_exit_143
                                        #   in Loop: Header=BB46_1 Depth=1
	incq	%r10
.LBB46_14:                              # %join.12
                                        #   in Loop: Header=BB46_1 Depth=1
	movl	$2, %edi
	addq	%rsi, %rdi
	cmpq	%r11, %rdi
	jae	.LBB46_16
.LBB46_1:                               # %join.5
                                        # =>This Inner Loop Header: Depth=1
	movq	%rdi, %rsi
	leaq	4(%rdi), %rbx
	cmpq	%r9, %rbx
	jbe	.LBB46_2
# %bb.6:                                # %join.3.i74
                                        #   in Loop: Header=BB46_1 Depth=1
	movq	%r9, %r14
	subq	%rsi, %r14
	cmpq	$2, %r14
	jb	.LBB46_10
# %bb.7:                                # %join.3.i.i
                                        #   in Loop: Header=BB46_1 Depth=1
	movzbl	1(%r8,%rsi), %edi
	shll	$8, %edi
	movl	%edi, %ebp
	andl	$64512, %ebp                    # imm = 0xFC00
	cmpl	$56320, %ebp                    # imm = 0xDC00
	je	.LBB46_11
# %bb.8:                                # %join.3.i.i
                                        #   in Loop: Header=BB46_1 Depth=1
	movzbl	(%r8,%rsi), %r15d
	orl	%r15d, %edi
	cmpl	$55296, %ebp                    # imm = 0xD800
	jne	.LBB46_18
# %bb.9:                                # %join.6.i.i
                                        #   in Loop: Header=BB46_1 Depth=1
	cmpq	$4, %r14
	jae	.LBB46_4
	jmp	.LBB46_10
	.p2align	4
.LBB46_2:                               # %then.1.i69
                                        #   in Loop: Header=BB46_1 Depth=1
	movzbl	1(%r8,%rsi), %edi
	shll	$8, %edi
	movl	%edi, %ebp
	andl	$64512, %ebp                    # imm = 0xFC00
	cmpl	$56320, %ebp                    # imm = 0xDC00
	je	.LBB46_11
# %bb.3:                                # %then.1.i69
                                        #   in Loop: Header=BB46_1 Depth=1
	movzbl	(%r8,%rsi), %r14d
	orl	%r14d, %edi
	cmpl	$55296, %ebp                    # imm = 0xD800
	jne	.LBB46_18
.LBB46_4:                               # %join.15.i257.i
                                        #   in Loop: Header=BB46_1 Depth=1
	movzbl	3(%r8,%rsi), %r14d
	movl	%r14d, %ebp
	andl	$-4, %ebp
	cmpl	$220, %ebp
	jne	.LBB46_11
# %bb.5:                                # %arm.14.i108.i
                                        #   in Loop: Header=BB46_1 Depth=1
	movzbl	2(%r8,%rsi), %ebx
	andl	$1023, %edi                     # imm = 0x3FF
	shll	$10, %edi
	andl	$3, %r14d
	shll	$8, %r14d
	orl	%ebx, %r14d
	addl	%r14d, %edi
	addl	$65536, %edi                    # imm = 0x10000
	movl	%edi, %ebp
	shrl	$6, %ebp
	movl	%edi, %r14d
	shrl	$18, %r14d
	movl	%edi, %ebx
	shrl	$4, %ebx
	andl	$16128, %ebx                    # imm = 0x3F00
	orl	$32768, %ebx                    # imm = 0x8000
	orb	$-16, %r14b
	andb	$63, %bpl
	orb	$-128, %bpl
	andb	$63, %dil
	orb	$-128, %dil
	movq	(%r13), %r15
	movq	8(%r13), %rdx
	movb	%r14b, (%r15,%rdx)
	movq	(%r13), %rax
	movb	%bh, 1(%rax,%rdx)
	movq	(%r13), %rax
	movb	%bpl, 2(%rax,%rdx)
	movq	(%r13), %rax
	movb	%dil, 3(%rax,%rdx)
	addq	$4, %rdx
	movq	%rdx, 8(%r13)
	movl	$4, %edi
	addq	%rsi, %rdi
	cmpq	%r11, %rdi
	jb	.LBB46_1
	jmp	.LBB46_16
	.p2align	4
.LBB46_11:                              # %arm.11
                                        #   in Loop: Header=BB46_1 Depth=1
	cmpq	$32, %rbx
	movl	$32, %r11d
	cmovbq	%rbx, %r11
	testb	%r12b, %r12b
	jne	.LBB46_13
# %bb.12:                               # %then.7.i.i.i
                                        #   in Loop: Header=BB46_1 Depth=1
	movq	(%r13), %rax
	movq	8(%r13), %rdx
	movb	$-17, (%rax,%rdx)
	movq	(%r13), %rax
	movb	$-65, 1(%rax,%rdx)
	movq	(%r13), %rax
	movb	$-67, 2(%rax,%rdx)
	addq	$3, %rdx
	movq	%rdx, 8(%r13)
	jmp	.LBB46_13
	.p2align	4
.LBB46_18:                              # %arm.10
                                        #   in Loop: Header=BB46_1 Depth=1
	movzwl	%di, %ebp
	cmpl	$128, %ebp
	jae	.LBB46_19
# %bb.23:                               # %then.1.i
                                        #   in Loop: Header=BB46_1 Depth=1
	movq	(%r13), %rbx
	movq	8(%r13), %r14
	movb	%dil, (%rbx,%r14)
	incq	%r14
	movq	%r14, 8(%r13)
	jmp	.LBB46_14
.LBB46_19:                              # %join.3.i
                                        #   in Loop: Header=BB46_1 Depth=1
	movl	%ebp, %edi
	andl	$63, %edi
	orl	$128, %edi
	movl	%ebp, %ebx
	shrl	$6, %ebx
	cmpl	$2048, %ebp                     # imm = 0x800
	jae	.LBB46_22
# %bb.20:                               # %then.4.i
                                        #   in Loop: Header=BB46_1 Depth=1
	orb	$-64, %bl
	movq	(%r13), %r14
	movq	8(%r13), %r15
	movb	%bl, (%r14,%r15)
	movq	(%r13), %rbx
	movb	%dil, 1(%rbx,%r15)
	addq	$2, %r15
	movq	%r15, 8(%r13)
	jmp	.LBB46_14
.LBB46_22:                              # %then.7.i
                                        #   in Loop: Header=BB46_1 Depth=1
	shrl	$12, %ebp
	orb	$-32, %bpl
	andb	$63, %bl
	orb	$-128, %bl
	movq	(%r13), %r14
	movq	8(%r13), %r15
	movb	%bpl, (%r14,%r15)
	movq	(%r13), %r14
	movb	%bl, 1(%r14,%r15)
	movq	(%r13), %rbx
	movb	%dil, 2(%rbx,%r15)
	addq	$3, %r15
	movq	%r15, 8(%r13)
	jmp	.LBB46_14
.LBB46_16:                              # %after.1
	movq	%rdi, (%rcx)
	movq	%r10, 8(%rcx)
	movq	$0, 16(%rcx)
	jmp	.LBB46_17
.LBB46_10:                              # %arm.7
	movq	%rsi, (%rcx)
	movq	%r10, 8(%rcx)
	movw	$256, 16(%rcx)                  # imm = 0x100
	movl	$0, 18(%rcx)
	movw	$0, 22(%rcx)
.LBB46_17:                              # %after.1
	popq	%rbx
	popq	%rbp
	popq	%rdi
	popq	%rsi
	popq	%r12
	popq	%r13
	popq	%r14
	popq	%r15
	retq
	.seh_endproc
                                        # -- End function
	.def	recoding_recoder_runs_run_whole_06163603a29b5506_36;
	.scl	3;
	.type	32;
	.endef
	.section .text$n51,"xr"
	.p2align	4                               # -- Begin function recoding::recoder_runs::run_whole::<#06163603a29b5506>
recoding_recoder_runs_run_whole_06163603a29b5506_36: # @recoding_recoder_runs_run_whole_06163603a29b5506_36
.seh_proc recoding_recoder_runs_run_whole_06163603a29b5506_36
# %bb.0:                                # %start
	pushq	%r15
	.seh_pushreg %r15
	pushq	%r14
	.seh_pushreg %r14
	pushq	%r12
	.seh_pushreg %r12
	pushq	%rsi
	.seh_pushreg %rsi
	pushq	%rdi
	.seh_pushreg %rdi
	pushq	%rbp
	.seh_pushreg %rbp
	pushq	%rbx
	.seh_pushreg %rbx
	subq	$128, %rsp
	.seh_stackalloc 128
	.seh_endprologue
	movq	%r8, %r14
	movq	%rdx, %rbx
	movq	%rcx, %r15
	xorl	%esi, %esi
	xorl	%edi, %edi
	jmp	.LBB47_2
.LBB47_1:                               # %recoding_kernels_put_damaged_units_aa1056a8666f8679_exit_250
                                        #   in Loop: Header=BB47_2 Depth=1
	leaq	(%r15,%rdi), %rcx
	movq	%r14, %r8
	callq	recoding_kernels_put_windows_aa1056a8666f8679_251
	addq	%rax, %rdi
	addq	%rdx, %rsi
	testq	%rax, %rax
	je	.LBB47_6
	.p2align	4
.LBB47_2:                               # %loop.2.i
                                        # =>This Loop Header: Depth=1
                                        #     Child Loop BB47_11 Depth 2
	movq	%rbx, %rdx
	subq	%rdi, %rdx
	cmpq	$16, %rdx
	jb	.LBB47_4
# %bb.3:                                # %recoding_kernels_TurnedKernelUtf16Utf16_put_text_26d690266811ceeb_exit_252
                                        #   in Loop: Header=BB47_2 Depth=1
	leaq	(%r15,%rdi), %rcx
	movq	%r14, %r8
	callq	recoding_turned_copy_units_aa491edf3e91f816_253
	addq	%rax, %rdi
	cmpq	$8187, %rax                     # imm = 0x1FFB
	ja	.LBB47_2
.LBB47_4:                               # %join.5.i
                                        #   in Loop: Header=BB47_2 Depth=1
	movq	%rbx, %rdx
	subq	%rdi, %rdx
	je	.LBB47_21
# %bb.5:                                # %join.8.i
                                        #   in Loop: Header=BB47_2 Depth=1
	cmpq	$64, %rdx
	jae	.LBB47_1
	jmp	.LBB47_7
.LBB47_6:                               # %recoding_kernels_put_damaged_units_aa1056a8666f8679_exit_join_14_i_crit_edge_254
                                        #   in Loop: Header=BB47_2 Depth=1
	movq	%rbx, %rdx
	subq	%rdi, %rdx
.LBB47_7:                               # %join.14.i
                                        #   in Loop: Header=BB47_2 Depth=1
	cmpq	$128, %rdx
	movl	$128, %ecx
	cmovbq	%rdx, %rcx
	cmpq	$2, %rdx
	jb	.LBB47_17
# %bb.8:                                # %join.5.i39.preheader
                                        #   in Loop: Header=BB47_2 Depth=1
	leaq	(%r15,%rdi), %rdx
	xorl	%eax, %eax
	movq	%rcx, %r10
	jmp	.LBB47_11
	.p2align	4
.LBB47_9:                               # %arm.7.i
                                        #   in Loop: Header=BB47_11 Depth=2
	movzbl	2(%rdx,%rax), %ebp
	andb	$3, %r8b
	orb	$-40, %r8b
	movq	(%r14), %r12
	movq	8(%r14), %r10
	movb	%r9b, (%r12,%r10)
	movq	(%r14), %r9
	movb	%r8b, 1(%r9,%r10)
	movq	(%r14), %r8
	movb	%bpl, 2(%r8,%r10)
	movq	(%r14), %r8
	movb	%r11b, 3(%r8,%r10)
	addq	$4, %r10
	movl	$4, %r8d
.LBB47_10:                              # %recoding_text_Utf16Text_put_code_ec2bf5654938c731_exit_i_161
                                        #   in Loop: Header=BB47_11 Depth=2
	movq	%r10, 8(%r14)
	addq	%r8, %rax
	movq	%rcx, %r10
	subq	%rax, %r10
	cmpq	$1, %r10
	jbe	.LBB47_16
.LBB47_11:                              # %join.5.i39
                                        #   Parent Loop BB47_2 Depth=1
                                        # =>  This Inner Loop Header: Depth=2
	movzbl	(%rdx,%rax), %r9d
	movzbl	1(%rdx,%rax), %r8d
	movl	%r8d, %r11d
	shll	$8, %r11d
	andl	$64512, %r11d                   # imm = 0xFC00
	cmpl	$55296, %r11d                   # imm = 0xD800
	je	.LBB47_14
# %bb.12:                               # %join.5.i39
                                        #   in Loop: Header=BB47_11 Depth=2
	cmpl	$56320, %r11d                   # imm = 0xDC00
	je	.LBB47_16
# %bb.13:                               # %arm.7.i.thread
                                        #   in Loop: Header=BB47_11 Depth=2
	movq	(%r14), %r11
	movq	8(%r14), %r10
	movb	%r9b, (%r11,%r10)
	movq	(%r14), %r9
	movb	%r8b, 1(%r9,%r10)
	addq	$2, %r10
	movl	$2, %r8d
	jmp	.LBB47_10
	.p2align	4
.LBB47_14:                              # %join.6.i.i
                                        #   in Loop: Header=BB47_11 Depth=2
	cmpq	$4, %r10
	jb	.LBB47_16
# %bb.15:                               # %join.15.i71.i.i
                                        #   in Loop: Header=BB47_11 Depth=2
	movzbl	3(%rdx,%rax), %r11d
	movl	%r11d, %r10d
	andb	$-4, %r10b
	cmpb	$-36, %r10b
	je	.LBB47_9
.LBB47_16:                              # %recoding_engine_recode_text_b66b510b4b49ed00_exit_255
                                        #   in Loop: Header=BB47_2 Depth=1
	addq	%rax, %rdi
	cmpq	$124, %rax
	ja	.LBB47_2
.LBB47_17:                              # %then.15.i
                                        #   in Loop: Header=BB47_2 Depth=1
	movq	%rbx, %r9
	subq	%rdi, %r9
	je	.LBB47_21
# %bb.18:                               # %join.20.i
                                        #   in Loop: Header=BB47_2 Depth=1
	leaq	(%r15,%rdi), %r8
	xorps	%xmm0, %xmm0
	movaps	%xmm0, 48(%rsp)
	movq	$0, 64(%rsp)
	movaps	%xmm0, 80(%rsp)
	movaps	%xmm0, 96(%rsp)
	movq	$0, 112(%rsp)
	movq	%r14, 32(%rsp)
	leaq	48(%rsp), %rcx
	leaq	80(%rsp), %rdx
	callq	recoding_engine_recode_faults_f602c80ce4e2d1ec_256
	addq	48(%rsp), %rdi
	addq	56(%rsp), %rsi
	testb	$1, 64(%rsp)
	jne	.LBB47_22
# %bb.19:                               # %join.20.i
                                        #   in Loop: Header=BB47_2 Depth=1
	testb	$1, 65(%rsp)
	je	.LBB47_2
	jmp	.LBB47_22
.LBB47_21:
	movq	%rbx, %rdi
.LBB47_22:                              # %recoding_engine_run_3c5d2106b1fc9a19_exit_257
	movq	%rdi, %rax
	movq	%rsi, %rdx
	addq	$128, %rsp
	popq	%rbx
	popq	%rbp
	popq	%rdi
	popq	%rsi
	popq	%r12
	popq	%r14
	popq	%r15
	retq
	.seh_endproc
                                        # -- End function
	.def	recoding_turned_copy_units_aa491edf3e91f816_253;
	.scl	3;
	.type	32;
	.endef
	.section .rdata$n0,"dr"
	.p2align	4, 0x0                          # -- Begin function recoding::turned::copy_units::<#aa491edf3e91f816>
.LCPI48_0:
	.byte	0                               # 0x0
	.byte	252                             # 0xfc
	.byte	0                               # 0x0
	.byte	252                             # 0xfc
	.byte	0                               # 0x0
	.byte	252                             # 0xfc
	.byte	0                               # 0x0
	.byte	252                             # 0xfc
	.byte	0                               # 0x0
	.byte	252                             # 0xfc
	.byte	0                               # 0x0
	.byte	252                             # 0xfc
	.byte	0                               # 0x0
	.byte	252                             # 0xfc
	.byte	0                               # 0x0
	.byte	252                             # 0xfc
.LCPI48_1:
	.zero	16,220
.LCPI48_2:
	.zero	16,216
	.section .text$n52,"xr"
	.p2align	4
recoding_turned_copy_units_aa491edf3e91f816_253: # @recoding_turned_copy_units_aa491edf3e91f816_253
.seh_proc recoding_turned_copy_units_aa491edf3e91f816_253
# %bb.0:                                # %start
	pushq	%r15
	.seh_pushreg %r15
	pushq	%r14
	.seh_pushreg %r14
	pushq	%rsi
	.seh_pushreg %rsi
	pushq	%rdi
	.seh_pushreg %rdi
	pushq	%rbp
	.seh_pushreg %rbp
	pushq	%rbx
	.seh_pushreg %rbx
	subq	$88, %rsp
	.seh_stackalloc 88
	movdqa	%xmm6, 64(%rsp)                 # 16-byte Spill
	.seh_savexmm %xmm6, 64
	.seh_endprologue
	movw	$0, 32(%rsp)
	movdqu	(%rcx), %xmm1
	movdqu	%xmm1, 34(%rsp)
	movdqa	.LCPI48_0(%rip), %xmm0          # xmm0 = [0,252,0,252,0,252,0,252,0,252,0,252,0,252,0,252]
	pand	%xmm0, %xmm1
	pcmpeqb	.LCPI48_1(%rip), %xmm1
	movdqa	32(%rsp), %xmm2
	pand	%xmm0, %xmm2
	pcmpeqb	.LCPI48_2(%rip), %xmm2
	pxor	%xmm1, %xmm2
	pmovmskb	%xmm2, %eax
	testl	%eax, %eax
	je	.LBB48_2
# %bb.1:
	rep		bsfl	%eax, %esi
	shrl	%esi
	testq	%rsi, %rsi
	jne	.LBB48_12
	jmp	.LBB48_17
.LBB48_2:                               # %loop.2.i.preheader.i
	movl	$8, %esi
	cmpq	$80, %rdx
	jb	.LBB48_7
# %bb.3:                                # %join.5.i.i.preheader
	leaq	-16(%rdx), %rax
	movl	$32, %esi
	.p2align	4
.LBB48_4:                               # %join.5.i.i
                                        # =>This Inner Loop Header: Depth=1
	movdqu	-50(%rcx,%rsi,2), %xmm4
	movdqu	-48(%rcx,%rsi,2), %xmm5
	movdqu	-34(%rcx,%rsi,2), %xmm1
	movdqu	-32(%rcx,%rsi,2), %xmm6
	pand	%xmm0, %xmm5
	movdqa	.LCPI48_1(%rip), %xmm2          # xmm2 = [220,220,220,220,220,220,220,220,220,220,220,220,220,220,220,220]
	pcmpeqb	%xmm2, %xmm5
	pand	%xmm0, %xmm4
	movdqa	.LCPI48_2(%rip), %xmm3          # xmm3 = [216,216,216,216,216,216,216,216,216,216,216,216,216,216,216,216]
	pcmpeqb	%xmm3, %xmm4
	pxor	%xmm5, %xmm4
	pand	%xmm0, %xmm6
	pcmpeqb	%xmm2, %xmm6
	pand	%xmm0, %xmm1
	pcmpeqb	%xmm3, %xmm1
	pxor	%xmm6, %xmm1
	por	%xmm4, %xmm1
	movdqu	-16(%rcx,%rsi,2), %xmm4
	movdqu	-18(%rcx,%rsi,2), %xmm5
	pand	%xmm0, %xmm4
	pcmpeqb	%xmm2, %xmm4
	pand	%xmm0, %xmm5
	pcmpeqb	%xmm3, %xmm5
	pxor	%xmm4, %xmm5
	movdqu	(%rcx,%rsi,2), %xmm4
	movdqu	-2(%rcx,%rsi,2), %xmm6
	pand	%xmm0, %xmm4
	pcmpeqb	%xmm2, %xmm4
	pand	%xmm0, %xmm6
	pcmpeqb	%xmm3, %xmm6
	pxor	%xmm4, %xmm6
	por	%xmm5, %xmm6
	por	%xmm1, %xmm6
	pmovmskb	%xmm6, %r9d
	testl	%r9d, %r9d
	jne	.LBB48_6
# %bb.5:                                # %join.8.i.i
                                        #   in Loop: Header=BB48_4 Depth=1
	addq	$32, %rsi
	addq	$-64, %rax
	cmpq	$63, %rax
	ja	.LBB48_4
.LBB48_6:                               # %join_5_i_i_utf_lanes_unit_blocks_paired_wide_951b42d46d2e9f62_exit_i_loopexit_crit_edge_258
	addq	$-24, %rsi
.LBB48_7:                               # %utf_lanes_unit_blocks_paired_wide_951b42d46d2e9f62_exit_i_259
	shrq	%rdx
	cmpq	%rdx, %rsi
	jae	.LBB48_12
# %bb.8:                                # %join.5.i63.lr.ph.i
	leaq	-8(%rdx), %rax
	.p2align	4
.LBB48_9:                               # %join.5.i63.i
                                        # =>This Inner Loop Header: Depth=1
	cmpq	%rsi, %rax
	cmovbq	%rax, %rsi
	movdqu	-2(%rcx,%rsi,2), %xmm1
	movdqu	(%rcx,%rsi,2), %xmm2
	pand	%xmm0, %xmm2
	pcmpeqb	.LCPI48_1(%rip), %xmm2
	pand	%xmm0, %xmm1
	pcmpeqb	.LCPI48_2(%rip), %xmm1
	pxor	%xmm2, %xmm1
	pmovmskb	%xmm1, %r9d
	rep		bsfl	%r9d, %r10d
	shrl	%r10d
	testl	%r9d, %r9d
	movl	$8, %r9d
	cmovnel	%r10d, %r9d
	cmpw	$7, %r9w
	jbe	.LBB48_11
# %bb.10:                               # %join.8.i79.i
                                        #   in Loop: Header=BB48_9 Depth=1
	addq	$8, %rsi
	cmpq	%rdx, %rsi
	jb	.LBB48_9
	jmp	.LBB48_12
.LBB48_11:                              # %then.6.i.i
	movzwl	%r9w, %eax
	addq	%rax, %rsi
	testq	%rsi, %rsi
	je	.LBB48_17
.LBB48_12:                              # %utf_lanes_unit_blocks_units_len_951b42d46d2e9f62_exit_260
	movzbl	-1(%rcx,%rsi,2), %eax
	andb	$-4, %al
	xorl	%edx, %edx
	cmpb	$-40, %al
	sete	%dl
	subq	%rdx, %rsi
	movq	%rsi, %rax
	addq	%rsi, %rax
	je	.LBB48_17
# %bb.13:                               # %join.3
	movq	8(%r8), %rdx
	movq	16(%r8), %rdi
	movq	%rdi, %r9
	subq	%rdx, %r9
	cmpq	%r9, %rax
	ja	.LBB48_38
.LBB48_14:                              # %join.3.i
	leaq	8(%r8), %r9
	leaq	(%rdx,%rax), %rbx
	movq	(%r8), %r14
	pxor	%xmm0, %xmm0
	movdqu	%xmm0, (%r9)
	leaq	(%r14,%rdx), %r9
	movq	%r9, %r10
	subq	%rcx, %r10
	cmpq	%rax, %r10
	jae	.LBB48_18
# %bb.15:                               # %iter.check
	cmpq	$4, %rax
	jb	.LBB48_16
# %bb.19:                               # %vector.memcheck
	cmpq	$32, %r10
	jae	.LBB48_21
.LBB48_16:
	xorl	%r10d, %r10d
.LBB48_30:                              # %join.7.i.i.i.preheader
	movq	%rax, %rsi
	movq	%r10, %r11
	andq	$2, %rsi
	je	.LBB48_33
# %bb.31:                               # %join.7.i.i.i.prol.preheader
	movq	%r10, %r11
	.p2align	4
.LBB48_32:                              # %join.7.i.i.i.prol
                                        # =>This Inner Loop Header: Depth=1
	movzbl	(%rcx,%r11), %ebp
	movb	%bpl, (%r9,%r11)
	incq	%r11
	decq	%rsi
	jne	.LBB48_32
.LBB48_33:                              # %join.7.i.i.i.prol.loopexit
	subq	%rax, %r10
	cmpq	$-4, %r10
	ja	.LBB48_36
# %bb.34:                               # %join.7.i.i.i.preheader35
	addq	%r14, %rdx
	addq	$3, %rdx
	.p2align	4
.LBB48_35:                              # %join.7.i.i.i
                                        # =>This Inner Loop Header: Depth=1
	movzbl	(%rcx,%r11), %r9d
	movb	%r9b, -3(%rdx,%r11)
	movzbl	1(%rcx,%r11), %r9d
	movb	%r9b, -2(%rdx,%r11)
	movzbl	2(%rcx,%r11), %r9d
	movb	%r9b, -1(%rdx,%r11)
	movzbl	3(%rcx,%r11), %r9d
	movb	%r9b, (%rdx,%r11)
	addq	$4, %r11
	cmpq	%r11, %rax
	jne	.LBB48_35
	jmp	.LBB48_36
.LBB48_17:
	xorl	%eax, %eax
	jmp	.LBB48_37
.LBB48_18:                              # %apart.2.i.i.i
	movq	%rcx, %rdx
	movq	%r9, %rcx
	movq	%r8, %rsi
	movq	%rax, %r8
	movq	%rax, %r15
	callq	memmove
	movq	%r15, %rax
	movq	%rsi, %r8
.LBB48_36:                              # %core_slots_Slots_copy_in_i8_20_core_clone_U8Clone_exit_i_112
	movq	%r14, (%r8)
	movq	%rbx, 8(%r8)
	movq	%rdi, 16(%r8)
.LBB48_37:                              # %common.ret
	movaps	64(%rsp), %xmm6                 # 16-byte Reload
	addq	$88, %rsp
	popq	%rbx
	popq	%rbp
	popq	%rdi
	popq	%rsi
	popq	%r14
	popq	%r15
	retq
.LBB48_21:                              # %vector.main.loop.iter.check
	cmpq	$32, %rax
	jae	.LBB48_23
# %bb.22:
	xorl	%r10d, %r10d
	jmp	.LBB48_27
.LBB48_23:                              # %vector.ph
	movq	%rax, %r10
	andq	$-32, %r10
	leaq	(%rdx,%r14), %r11
	addq	$16, %r11
	xorl	%r15d, %r15d
	.p2align	4
.LBB48_24:                              # %vector.body
                                        # =>This Inner Loop Header: Depth=1
	movdqu	(%rcx,%r15), %xmm0
	movdqu	16(%rcx,%r15), %xmm1
	movdqu	%xmm0, -16(%r11,%r15)
	movdqu	%xmm1, (%r11,%r15)
	addq	$32, %r15
	cmpq	%r15, %r10
	jne	.LBB48_24
# %bb.25:                               # %middle.block
	cmpq	%r10, %rax
	je	.LBB48_36
# %bb.26:                               # %vec.epilog.iter.check
	testb	$14, %sil
	je	.LBB48_30
.LBB48_27:                              # %vec.epilog.ph
	movq	%r10, %r11
	movq	%rax, %r10
	andq	$-4, %r10
	.p2align	4
.LBB48_28:                              # %vec.epilog.vector.body
                                        # =>This Inner Loop Header: Depth=1
	movl	(%rcx,%r11), %esi
	movl	%esi, (%r9,%r11)
	addq	$4, %r11
	cmpq	%r11, %r10
	jne	.LBB48_28
# %bb.29:                               # %vec.epilog.middle.block
	cmpq	%r10, %rax
	je	.LBB48_36
	jmp	.LBB48_30
.LBB48_38:                              # %std_alloc_vec_Vec_grow_5fdc5e19576447a7_exit_i_76
	movq	%rcx, %rbx
	movq	%r8, %rdi
	movq	%r8, %rcx
	movq	%rax, %r14
	movq	%rax, %rdx
	callq	std_alloc_vec_Vec_grow_amortized_5fdc5e19576447a7_3
	testb	%al, %al
	je	.LBB48_40
# %bb.39:                               # %std_alloc_vec_Vec_grow_5fdc5e19576447a7_exit_join_3_crit_edge_i_115
	movq	%rdi, %r8
	movq	8(%rdi), %rdx
	movq	16(%rdi), %rdi
	movq	%rbx, %rcx
	movq	%r14, %rax
	jmp	.LBB48_14
.LBB48_40:
	movq	%r14, %rax
	jmp	.LBB48_37
	.seh_endproc
                                        # -- End function
	.def	recoding_kernels_put_windows_aa1056a8666f8679_251;
	.scl	3;
	.type	32;
	.endef
	.section .rdata$n0,"dr"
	.p2align	4, 0x0                          # -- Begin function recoding::kernels::put_windows::<#aa1056a8666f8679>
.LCPI49_0:
	.short	255                             # 0xff
	.short	255                             # 0xff
	.short	255                             # 0xff
	.short	255                             # 0xff
	.short	255                             # 0xff
	.short	255                             # 0xff
	.short	255                             # 0xff
	.short	255                             # 0xff
.LCPI49_1:
	.byte	1                               # 0x1
	.byte	3                               # 0x3
	.byte	5                               # 0x5
	.byte	7                               # 0x7
	.byte	9                               # 0x9
	.byte	11                              # 0xb
	.byte	13                              # 0xd
	.byte	15                              # 0xf
	.zero	1
	.zero	1
	.zero	1
	.zero	1
	.zero	1
	.zero	1
	.zero	1
	.zero	1
.LCPI49_2:
	.zero	16,63
.LCPI49_3:
	.zero	16,54
.LCPI49_4:
	.byte	255                             # 0xff
	.byte	255                             # 0xff
	.byte	255                             # 0xff
	.byte	255                             # 0xff
	.byte	255                             # 0xff
	.byte	255                             # 0xff
	.byte	255                             # 0xff
	.byte	255                             # 0xff
	.byte	255                             # 0xff
	.byte	255                             # 0xff
	.byte	255                             # 0xff
	.byte	255                             # 0xff
	.byte	255                             # 0xff
	.byte	255                             # 0xff
	.byte	255                             # 0xff
	.byte	0                               # 0x0
.LCPI49_5:
	.zero	16,55
.LCPI49_6:
	.zero	16,253
.LCPI49_7:
	.zero	16,252
.LCPI49_8:
	.zero	16,216
.LCPI49_9:
	.byte	1                               # 0x1
	.byte	3                               # 0x3
	.byte	5                               # 0x5
	.byte	7                               # 0x7
	.byte	9                               # 0x9
	.byte	11                              # 0xb
	.byte	13                              # 0xd
	.byte	15                              # 0xf
	.byte	0                               # 0x0
	.byte	0                               # 0x0
	.byte	0                               # 0x0
	.byte	0                               # 0x0
	.byte	0                               # 0x0
	.byte	0                               # 0x0
	.byte	0                               # 0x0
	.byte	0                               # 0x0
	.section .text$n53,"xr"
	.p2align	4
recoding_kernels_put_windows_aa1056a8666f8679_251: # @recoding_kernels_put_windows_aa1056a8666f8679_251
.seh_proc recoding_kernels_put_windows_aa1056a8666f8679_251
# %bb.0:                                # %start
	pushq	%r15
	.seh_pushreg %r15
	pushq	%r14
	.seh_pushreg %r14
	pushq	%r13
	.seh_pushreg %r13
	pushq	%r12
	.seh_pushreg %r12
	pushq	%rsi
	.seh_pushreg %rsi
	pushq	%rdi
	.seh_pushreg %rdi
	pushq	%rbp
	.seh_pushreg %rbp
	pushq	%rbx
	.seh_pushreg %rbx
	subq	$184, %rsp
	.seh_stackalloc 184
	movdqa	%xmm10, 160(%rsp)               # 16-byte Spill
	.seh_savexmm %xmm10, 160
	movdqa	%xmm9, 144(%rsp)                # 16-byte Spill
	.seh_savexmm %xmm9, 144
	movdqa	%xmm8, 128(%rsp)                # 16-byte Spill
	.seh_savexmm %xmm8, 128
	movdqa	%xmm7, 112(%rsp)                # 16-byte Spill
	.seh_savexmm %xmm7, 112
	movdqa	%xmm6, 96(%rsp)                 # 16-byte Spill
	.seh_savexmm %xmm6, 96
	.seh_endprologue
	movq	%r8, %rbx
	movq	%rdx, 40(%rsp)                  # 8-byte Spill
	movq	%rcx, 48(%rsp)                  # 8-byte Spill
	xorl	%esi, %esi
	xorl	%edx, %edx
	xorl	%r13d, %r13d
	.p2align	4
.LBB49_1:                               # %then.6
                                        # =>This Inner Loop Header: Depth=1
	movq	8(%rbx), %rax
	movq	16(%rbx), %rbp
	movq	%rbp, %rcx
	subq	%rax, %rcx
	cmpq	$112, %rcx
	jb	.LBB49_11
# %bb.2:                                # %join.3.i
                                        #   in Loop: Header=BB49_1 Depth=1
	movq	%rdx, 56(%rsp)                  # 8-byte Spill
	movq	48(%rsp), %rcx                  # 8-byte Reload
	movdqu	(%rcx,%rsi), %xmm2
	movdqu	16(%rcx,%rsi), %xmm0
	movdqu	32(%rcx,%rsi), %xmm1
	movdqu	48(%rcx,%rsi), %xmm5
	movdqa	.LCPI49_0(%rip), %xmm4          # xmm4 = [255,255,255,255,255,255,255,255]
	movdqa	%xmm5, %xmm6
	pand	%xmm4, %xmm6
	movdqa	%xmm1, %xmm3
	pand	%xmm4, %xmm3
	packuswb	%xmm6, %xmm3
	movdqa	%xmm0, %xmm6
	pand	%xmm4, %xmm6
	pand	%xmm2, %xmm4
	packuswb	%xmm6, %xmm4
	movq	.LCPI49_9(%rip), %xmm6          # xmm6 = [1,3,5,7,9,11,13,15,0,0,0,0,0,0,0,0]
	pshufb	%xmm6, %xmm0
	pshufb	%xmm6, %xmm2
	punpcklqdq	%xmm0, %xmm2            # xmm2 = xmm2[0],xmm0[0]
	pshufb	%xmm6, %xmm5
	pshufb	%xmm6, %xmm1
	punpcklqdq	%xmm5, %xmm1            # xmm1 = xmm1[0],xmm5[0]
	movdqa	%xmm1, %xmm0
	psrlw	$2, %xmm0
	movdqa	.LCPI49_2(%rip), %xmm6          # xmm6 = [63,63,63,63,63,63,63,63,63,63,63,63,63,63,63,63]
	pand	%xmm6, %xmm0
	movdqa	%xmm2, %xmm5
	psrlw	$2, %xmm5
	pand	%xmm6, %xmm5
	movdqa	.LCPI49_3(%rip), %xmm6          # xmm6 = [54,54,54,54,54,54,54,54,54,54,54,54,54,54,54,54]
	movdqa	%xmm5, %xmm8
	pcmpeqb	%xmm6, %xmm8
	pcmpeqb	%xmm0, %xmm6
	movdqa	.LCPI49_4(%rip), %xmm9          # xmm9 = [255,255,255,255,255,255,255,255,255,255,255,255,255,255,255,0]
	pand	%xmm6, %xmm9
	movdqa	.LCPI49_5(%rip), %xmm7          # xmm7 = [55,55,55,55,55,55,55,55,55,55,55,55,55,55,55,55]
	pcmpeqb	%xmm7, %xmm0
	pcmpeqb	%xmm7, %xmm5
	palignr	$15, %xmm8, %xmm6               # xmm6 = xmm8[15],xmm6[0,1,2,3,4,5,6,7,8,9,10,11,12,13,14]
	movdqa	%xmm8, %xmm7
	pslldq	$1, %xmm7                       # xmm7 = zero,xmm7[0,1,2,3,4,5,6,7,8,9,10,11,12,13,14]
	pxor	%xmm5, %xmm7
	pxor	%xmm0, %xmm6
	movdqa	%xmm6, %xmm10
	palignr	$1, %xmm7, %xmm10               # xmm10 = xmm7[1,2,3,4,5,6,7,8,9,10,11,12,13,14,15],xmm10[0]
	pand	%xmm5, %xmm7
	palignr	$1, %xmm6, %xmm5                # xmm5 = xmm6[1,2,3,4,5,6,7,8,9,10,11,12,13,14,15],xmm5[0]
	pand	%xmm9, %xmm5
	pand	%xmm8, %xmm10
	pxor	%xmm9, %xmm9
	por	%xmm10, %xmm7
	pand	%xmm0, %xmm6
	por	%xmm5, %xmm6
	movdqa	.LCPI49_6(%rip), %xmm8          # xmm8 = [253,253,253,253,253,253,253,253,253,253,253,253,253,253,253,253]
	pcmpeqb	%xmm9, %xmm7
	movdqa	%xmm8, %xmm5
	movdqa	%xmm7, %xmm0
	pblendvb	%xmm0, %xmm4, %xmm5
	pcmpeqb	%xmm9, %xmm6
	movdqa	%xmm6, %xmm0
	pblendvb	%xmm0, %xmm3, %xmm8
	pcmpeqd	%xmm0, %xmm0
	movdqa	%xmm7, %xmm3
	pxor	%xmm0, %xmm3
	por	%xmm2, %xmm3
	pxor	%xmm6, %xmm0
	por	%xmm1, %xmm0
	pand	.LCPI49_7(%rip), %xmm1
	pcmpeqb	.LCPI49_8(%rip), %xmm1
	pmovmskb	%xmm1, %ecx
	xorl	%r14d, %r14d
	testw	%cx, %cx
	setns	%r14b
	addl	%r14d, %r14d
	movdqa	%xmm8, %xmm1
	punpcklbw	%xmm0, %xmm1            # xmm1 = xmm1[0],xmm0[0],xmm1[1],xmm0[1],xmm1[2],xmm0[2],xmm1[3],xmm0[3],xmm1[4],xmm0[4],xmm1[5],xmm0[5],xmm1[6],xmm0[6],xmm1[7],xmm0[7]
	movdqa	%xmm1, 64(%rsp)
	punpckhbw	%xmm0, %xmm8            # xmm8 = xmm8[8],xmm0[8],xmm8[9],xmm0[9],xmm8[10],xmm0[10],xmm8[11],xmm0[11],xmm8[12],xmm0[12],xmm8[13],xmm0[13],xmm8[14],xmm0[14],xmm8[15],xmm0[15]
	movdqa	%xmm8, 80(%rsp)
	movdqa	%xmm5, %xmm0
	punpcklbw	%xmm3, %xmm0            # xmm0 = xmm0[0],xmm3[0],xmm0[1],xmm3[1],xmm0[2],xmm3[2],xmm0[3],xmm3[3],xmm0[4],xmm3[4],xmm0[5],xmm3[5],xmm0[6],xmm3[6],xmm0[7],xmm3[7]
	punpckhbw	%xmm3, %xmm5            # xmm5 = xmm5[8],xmm3[8],xmm5[9],xmm3[9],xmm5[10],xmm3[10],xmm5[11],xmm3[11],xmm5[12],xmm3[12],xmm5[13],xmm3[13],xmm5[14],xmm3[14],xmm5[15],xmm3[15]
	leaq	32(%rax), %r15
	movq	(%rbx), %rdi
	movdqu	%xmm0, (%rdi,%rax)
	movdqu	%xmm5, 16(%rdi,%rax)
	movq	%rdi, (%rbx)
	movq	%r15, 8(%rbx)
	movq	%rbp, 16(%rbx)
	leaq	30(%r14), %r12
	movq	%rbp, %rax
	subq	%r15, %rax
	cmpq	%rax, %r12
	ja	.LBB49_3
.LBB49_5:                               # %join.3.i110
                                        #   in Loop: Header=BB49_1 Depth=1
	leaq	(%rdi,%r15), %rcx
	leaq	64(%rsp), %rax
	movq	%rcx, %rdx
	subq	%rax, %rdx
	cmpq	%r12, %rdx
	jae	.LBB49_7
# %bb.6:                                # %join.7.i.i.i123.preheader
                                        #   in Loop: Header=BB49_1 Depth=1
	leaq	64(%rsp), %rdx
	movq	%r12, %r8
	callq	memcpy
	jmp	.LBB49_8
	.p2align	4
.LBB49_7:                               # %apart.2.i.i.i120
                                        #   in Loop: Header=BB49_1 Depth=1
	leaq	64(%rsp), %rdx
	movq	%r12, %r8
	callq	memmove
.LBB49_8:                               # %core_slots_Slots_copy_in_i8_20_core_clone_U8Clone_exit_i121_261
                                        #   in Loop: Header=BB49_1 Depth=1
	addq	%r12, %r15
	movq	%rdi, (%rbx)
	movq	%r15, 8(%rbx)
	movq	%rbp, 16(%rbx)
.LBB49_9:                               # %std_alloc_vec_Vec_extend_from_slice_0cd040e5c49bc722_exit135_262
                                        #   in Loop: Header=BB49_1 Depth=1
	addq	$62, %r14
	pmovmskb	%xmm7, %eax
	xorl	$65535, %eax                    # imm = 0xFFFF
	pmovmskb	%xmm6, %ecx
	notl	%ecx
	shll	$16, %ecx
	orl	%eax, %ecx
	xorl	%eax, %eax
	popcntl	%ecx, %eax
	addq	%r14, %rsi
	movq	56(%rsp), %rdx                  # 8-byte Reload
	addq	%rax, %rdx
	movq	%r13, %rax
	incq	%rax
	xorl	%r13d, %r13d
	testl	%ecx, %ecx
	cmoveq	%rax, %r13
	cmpq	$8, %rdx
	movl	$8, %eax
	cmovbq	%rdx, %rax
	cmpq	%rax, %r13
	ja	.LBB49_11
# %bb.10:                               # %std_alloc_vec_Vec_extend_from_slice_0cd040e5c49bc722_exit135_262
                                        #   in Loop: Header=BB49_1 Depth=1
	movq	40(%rsp), %rax                  # 8-byte Reload
	subq	%rsi, %rax
	cmpq	$63, %rax
	ja	.LBB49_1
	jmp	.LBB49_11
.LBB49_3:                               # %std_alloc_vec_Vec_grow_5fdc5e19576447a7_exit_i130_263
                                        #   in Loop: Header=BB49_1 Depth=1
	movq	%rbx, %rcx
	movq	%r12, %rdx
	callq	std_alloc_vec_Vec_grow_amortized_5fdc5e19576447a7_3
	testb	%al, %al
	je	.LBB49_9
# %bb.4:                                # %std_alloc_vec_Vec_grow_5fdc5e19576447a7_exit_join_3_crit_edge_i132_264
                                        #   in Loop: Header=BB49_1 Depth=1
	movq	(%rbx), %rdi
	movq	8(%rbx), %r15
	movq	16(%rbx), %rbp
	jmp	.LBB49_5
.LBB49_11:                              # %after.1
	movq	%rsi, %rax
	movaps	96(%rsp), %xmm6                 # 16-byte Reload
	movaps	112(%rsp), %xmm7                # 16-byte Reload
	movaps	128(%rsp), %xmm8                # 16-byte Reload
	movaps	144(%rsp), %xmm9                # 16-byte Reload
	movaps	160(%rsp), %xmm10               # 16-byte Reload
	addq	$184, %rsp
	popq	%rbx
	popq	%rbp
	popq	%rdi
	popq	%rsi
	popq	%r12
	popq	%r13
	popq	%r14
	popq	%r15
	retq
	.seh_endproc
                                        # -- End function
	.def	recoding_engine_recode_faults_f602c80ce4e2d1ec_256;
	.scl	3;
	.type	32;
	.endef
	.section .text$n54,"xr"
	.p2align	4                               # -- Begin function recoding::engine::recode_faults::<#f602c80ce4e2d1ec>
recoding_engine_recode_faults_f602c80ce4e2d1ec_256: # @recoding_engine_recode_faults_f602c80ce4e2d1ec_256
.seh_proc recoding_engine_recode_faults_f602c80ce4e2d1ec_256
# %bb.0:                                # %start
	pushq	%r15
	.seh_pushreg %r15
	pushq	%r14
	.seh_pushreg %r14
	pushq	%r13
	.seh_pushreg %r13
	pushq	%r12
	.seh_pushreg %r12
	pushq	%rsi
	.seh_pushreg %rsi
	pushq	%rdi
	.seh_pushreg %rdi
	pushq	%rbp
	.seh_pushreg %rbp
	pushq	%rbx
	.seh_pushreg %rbx
	.seh_endprologue
	movq	104(%rsp), %r13
	cmpb	$2, (%rdx)
	setne	%r10b
	cmpq	$0, 16(%rdx)
	setne	%r12b
	orb	%r10b, %r12b
	movl	$16, %r11d
	xorl	%edi, %edi
	xorl	%r10d, %r10d
	jmp	.LBB50_1
	.p2align	4
.LBB50_13:                              # %recoding_text_Utf16Text_put_any_ec2bf5654938c731_exit_197
                                        #   in Loop: Header=BB50_1 Depth=1
	incq	%r10
.LBB50_15:                              # %join.12
                                        #   in Loop: Header=BB50_1 Depth=1
	movl	$2, %edi
	addq	%rsi, %rdi
	cmpq	%r11, %rdi
	jae	.LBB50_17
.LBB50_1:                               # %join.5
                                        # =>This Inner Loop Header: Depth=1
	movq	%rdi, %rsi
	addq	$4, %rdi
	cmpq	%r9, %rdi
	jbe	.LBB50_2
# %bb.6:                                # %join.3.i
                                        #   in Loop: Header=BB50_1 Depth=1
	movq	%r9, %r14
	subq	%rsi, %r14
	cmpq	$2, %r14
	jb	.LBB50_10
# %bb.7:                                # %join.3.i.i
                                        #   in Loop: Header=BB50_1 Depth=1
	movzbl	1(%r8,%rsi), %ebx
	shll	$8, %ebx
	movl	%ebx, %ebp
	andl	$64512, %ebp                    # imm = 0xFC00
	cmpl	$56320, %ebp                    # imm = 0xDC00
	je	.LBB50_11
# %bb.8:                                # %join.3.i.i
                                        #   in Loop: Header=BB50_1 Depth=1
	movzbl	(%r8,%rsi), %r15d
	orl	%r15d, %ebx
	cmpl	$55296, %ebp                    # imm = 0xD800
	jne	.LBB50_14
# %bb.9:                                # %join.6.i.i
                                        #   in Loop: Header=BB50_1 Depth=1
	cmpq	$4, %r14
	jae	.LBB50_4
	jmp	.LBB50_10
	.p2align	4
.LBB50_2:                               # %then.1.i82
                                        #   in Loop: Header=BB50_1 Depth=1
	movzbl	1(%r8,%rsi), %ebx
	shll	$8, %ebx
	movl	%ebx, %ebp
	andl	$64512, %ebp                    # imm = 0xFC00
	cmpl	$56320, %ebp                    # imm = 0xDC00
	je	.LBB50_11
# %bb.3:                                # %then.1.i82
                                        #   in Loop: Header=BB50_1 Depth=1
	movzbl	(%r8,%rsi), %r14d
	orl	%r14d, %ebx
	cmpl	$55296, %ebp                    # imm = 0xD800
	jne	.LBB50_14
.LBB50_4:                               # %join.15.i257.i
                                        #   in Loop: Header=BB50_1 Depth=1
	movzbl	3(%r8,%rsi), %r14d
	movl	%r14d, %ebp
	andl	$-4, %ebp
	cmpl	$220, %ebp
	jne	.LBB50_11
# %bb.5:                                # %arm.14.i108.i
                                        #   in Loop: Header=BB50_1 Depth=1
	movzbl	2(%r8,%rsi), %edi
	andl	$1023, %ebx                     # imm = 0x3FF
	shll	$10, %ebx
	andl	$3, %r14d
	shll	$8, %r14d
	orl	%edi, %r14d
	leal	(%rbx,%r14), %edi
	addl	$65536, %edi                    # imm = 0x10000
	movl	%edi, %ebx
	shrl	$10, %ebx
	addl	$-10304, %ebx                   # imm = 0xD7C0
	movl	%edi, %ebp
	shrl	$8, %edi
	andb	$3, %dil
	orb	$-36, %dil
	movq	(%r13), %r14
	movq	8(%r13), %rdx
	movb	%bl, (%r14,%rdx)
	movq	(%r13), %rax
	movb	%bh, 1(%rax,%rdx)
	movq	(%r13), %rax
	movb	%bpl, 2(%rax,%rdx)
	movq	(%r13), %rax
	movb	%dil, 3(%rax,%rdx)
	addq	$4, %rdx
	movq	%rdx, 8(%r13)
	movl	$4, %edi
	addq	%rsi, %rdi
	cmpq	%r11, %rdi
	jb	.LBB50_1
	jmp	.LBB50_17
	.p2align	4
.LBB50_11:                              # %arm.11
                                        #   in Loop: Header=BB50_1 Depth=1
	cmpq	$32, %rdi
	movl	$32, %r11d
	cmovbq	%rdi, %r11
	testb	%r12b, %r12b
	je	.LBB50_13
# %bb.12:                               # %recoding_text_Utf16Text_put_code_ec2bf5654938c731_exit_i_i_265
                                        #   in Loop: Header=BB50_1 Depth=1
	movq	(%r13), %rax
	movq	8(%r13), %rdx
	movb	$-3, (%rax,%rdx)
	movq	(%r13), %rax
	movb	$-1, 1(%rax,%rdx)
	addq	$2, %rdx
	movq	%rdx, 8(%r13)
	jmp	.LBB50_13
	.p2align	4
.LBB50_14:                              # %arm.1.i
                                        #   in Loop: Header=BB50_1 Depth=1
	movq	(%r13), %rdi
	movq	8(%r13), %rbp
	movb	%bl, (%rdi,%rbp)
	movq	(%r13), %rdi
	movb	%bh, 1(%rdi,%rbp)
	addq	$2, %rbp
	movq	%rbp, 8(%r13)
	jmp	.LBB50_15
.LBB50_17:                              # %after.1
	movq	%rdi, (%rcx)
	movq	%r10, 8(%rcx)
	movq	$0, 16(%rcx)
	jmp	.LBB50_18
.LBB50_10:                              # %arm.7
	movq	%rsi, (%rcx)
	movq	%r10, 8(%rcx)
	movw	$256, 16(%rcx)                  # imm = 0x100
	movl	$0, 18(%rcx)
	movw	$0, 22(%rcx)
.LBB50_18:                              # %after.1
	popq	%rbx
	popq	%rbp
	popq	%rdi
	popq	%rsi
	popq	%r12
	popq	%r13
	popq	%r14
	popq	%r15
	retq
	.seh_endproc
                                        # -- End function
	.def	recoding_recoder_runs_run_whole_daeca7e912b417d6_39;
	.scl	3;
	.type	32;
	.endef
	.section .text$n55,"xr"
	.p2align	4                               # -- Begin function recoding::recoder_runs::run_whole::<#daeca7e912b417d6>
recoding_recoder_runs_run_whole_daeca7e912b417d6_39: # @recoding_recoder_runs_run_whole_daeca7e912b417d6_39
.seh_proc recoding_recoder_runs_run_whole_daeca7e912b417d6_39
# %bb.0:                                # %start
	pushq	%r15
	.seh_pushreg %r15
	pushq	%r14
	.seh_pushreg %r14
	pushq	%r12
	.seh_pushreg %r12
	pushq	%rsi
	.seh_pushreg %rsi
	pushq	%rdi
	.seh_pushreg %rdi
	pushq	%rbp
	.seh_pushreg %rbp
	pushq	%rbx
	.seh_pushreg %rbx
	subq	$128, %rsp
	.seh_stackalloc 128
	.seh_endprologue
	movq	%r8, %r14
	movq	%rdx, %rbx
	movq	%rcx, %r15
	xorl	%esi, %esi
	xorl	%edi, %edi
	jmp	.LBB51_2
.LBB51_1:                               # %recoding_kernels_put_damaged_units_e34f862aaeb63555_exit_266
                                        #   in Loop: Header=BB51_2 Depth=1
	leaq	(%r15,%rdi), %rcx
	movq	%r14, %r8
	callq	recoding_kernels_put_windows_e34f862aaeb63555_267
	addq	%rax, %rdi
	addq	%rdx, %rsi
	testq	%rax, %rax
	je	.LBB51_6
	.p2align	4
.LBB51_2:                               # %loop.2.i
                                        # =>This Loop Header: Depth=1
                                        #     Child Loop BB51_11 Depth 2
	movq	%rbx, %rdx
	subq	%rdi, %rdx
	cmpq	$16, %rdx
	jb	.LBB51_4
# %bb.3:                                # %recoding_kernels_TurnedKernelUtf16Utf16_put_text_2cb43bbe79a2a8c3_exit_268
                                        #   in Loop: Header=BB51_2 Depth=1
	leaq	(%r15,%rdi), %rcx
	movq	%r14, %r8
	callq	recoding_turned_copy_units_671af64cce331956_269
	addq	%rax, %rdi
	cmpq	$8187, %rax                     # imm = 0x1FFB
	ja	.LBB51_2
.LBB51_4:                               # %join.5.i
                                        #   in Loop: Header=BB51_2 Depth=1
	movq	%rbx, %rdx
	subq	%rdi, %rdx
	je	.LBB51_21
# %bb.5:                                # %join.8.i
                                        #   in Loop: Header=BB51_2 Depth=1
	cmpq	$64, %rdx
	jae	.LBB51_1
	jmp	.LBB51_7
.LBB51_6:                               # %recoding_kernels_put_damaged_units_e34f862aaeb63555_exit_join_14_i_crit_edge_270
                                        #   in Loop: Header=BB51_2 Depth=1
	movq	%rbx, %rdx
	subq	%rdi, %rdx
.LBB51_7:                               # %join.14.i
                                        #   in Loop: Header=BB51_2 Depth=1
	cmpq	$128, %rdx
	movl	$128, %ecx
	cmovbq	%rdx, %rcx
	cmpq	$2, %rdx
	jb	.LBB51_17
# %bb.8:                                # %join.5.i39.preheader
                                        #   in Loop: Header=BB51_2 Depth=1
	leaq	(%r15,%rdi), %rdx
	xorl	%eax, %eax
	movq	%rcx, %r10
	jmp	.LBB51_11
	.p2align	4
.LBB51_9:                               # %arm.7.i
                                        #   in Loop: Header=BB51_11 Depth=2
	movzbl	2(%rdx,%rax), %ebp
	andb	$3, %r9b
	orb	$-40, %r9b
	movq	(%r14), %r12
	movq	8(%r14), %r10
	movb	%r9b, (%r12,%r10)
	movq	(%r14), %r9
	movb	%r8b, 1(%r9,%r10)
	movq	(%r14), %r8
	movb	%r11b, 2(%r8,%r10)
	movq	(%r14), %r8
	movb	%bpl, 3(%r8,%r10)
	addq	$4, %r10
	movl	$4, %r8d
.LBB51_10:                              # %recoding_text_Utf16Text_put_code_f52bd5352b4cd2db_exit_i_208
                                        #   in Loop: Header=BB51_11 Depth=2
	movq	%r10, 8(%r14)
	addq	%r8, %rax
	movq	%rcx, %r10
	subq	%rax, %r10
	cmpq	$1, %r10
	jbe	.LBB51_16
.LBB51_11:                              # %join.5.i39
                                        #   Parent Loop BB51_2 Depth=1
                                        # =>  This Inner Loop Header: Depth=2
	movzbl	(%rdx,%rax), %r8d
	movzbl	1(%rdx,%rax), %r9d
	movl	%r9d, %r11d
	shll	$8, %r11d
	andl	$64512, %r11d                   # imm = 0xFC00
	cmpl	$55296, %r11d                   # imm = 0xD800
	je	.LBB51_14
# %bb.12:                               # %join.5.i39
                                        #   in Loop: Header=BB51_11 Depth=2
	cmpl	$56320, %r11d                   # imm = 0xDC00
	je	.LBB51_16
# %bb.13:                               # %arm.7.i.thread
                                        #   in Loop: Header=BB51_11 Depth=2
	movq	(%r14), %r11
	movq	8(%r14), %r10
	movb	%r9b, (%r11,%r10)
	movq	(%r14), %r9
	movb	%r8b, 1(%r9,%r10)
	addq	$2, %r10
	movl	$2, %r8d
	jmp	.LBB51_10
	.p2align	4
.LBB51_14:                              # %join.6.i.i
                                        #   in Loop: Header=BB51_11 Depth=2
	cmpq	$4, %r10
	jb	.LBB51_16
# %bb.15:                               # %join.15.i71.i.i
                                        #   in Loop: Header=BB51_11 Depth=2
	movzbl	3(%rdx,%rax), %r11d
	movl	%r11d, %r10d
	andb	$-4, %r10b
	cmpb	$-36, %r10b
	je	.LBB51_9
.LBB51_16:                              # %recoding_engine_recode_text_83daf91f04e66afe_exit_271
                                        #   in Loop: Header=BB51_2 Depth=1
	addq	%rax, %rdi
	cmpq	$124, %rax
	ja	.LBB51_2
.LBB51_17:                              # %then.15.i
                                        #   in Loop: Header=BB51_2 Depth=1
	movq	%rbx, %r9
	subq	%rdi, %r9
	je	.LBB51_21
# %bb.18:                               # %join.20.i
                                        #   in Loop: Header=BB51_2 Depth=1
	leaq	(%r15,%rdi), %r8
	xorps	%xmm0, %xmm0
	movaps	%xmm0, 48(%rsp)
	movq	$0, 64(%rsp)
	movaps	%xmm0, 80(%rsp)
	movaps	%xmm0, 96(%rsp)
	movq	$0, 112(%rsp)
	movq	%r14, 32(%rsp)
	leaq	48(%rsp), %rcx
	leaq	80(%rsp), %rdx
	callq	recoding_engine_recode_faults_8dadd7d4866406da_272
	addq	48(%rsp), %rdi
	addq	56(%rsp), %rsi
	testb	$1, 64(%rsp)
	jne	.LBB51_22
# %bb.19:                               # %join.20.i
                                        #   in Loop: Header=BB51_2 Depth=1
	testb	$1, 65(%rsp)
	je	.LBB51_2
	jmp	.LBB51_22
.LBB51_21:
	movq	%rbx, %rdi
.LBB51_22:                              # %recoding_engine_run_904cae1242d1b321_exit_273
	movq	%rdi, %rax
	movq	%rsi, %rdx
	addq	$128, %rsp
	popq	%rbx
	popq	%rbp
	popq	%rdi
	popq	%rsi
	popq	%r12
	popq	%r14
	popq	%r15
	retq
	.seh_endproc
                                        # -- End function
	.def	recoding_turned_copy_units_671af64cce331956_269;
	.scl	3;
	.type	32;
	.endef
	.section .rdata$n0,"dr"
	.p2align	4, 0x0                          # -- Begin function recoding::turned::copy_units::<#671af64cce331956>
.LCPI52_0:
	.byte	0                               # 0x0
	.byte	252                             # 0xfc
	.byte	0                               # 0x0
	.byte	252                             # 0xfc
	.byte	0                               # 0x0
	.byte	252                             # 0xfc
	.byte	0                               # 0x0
	.byte	252                             # 0xfc
	.byte	0                               # 0x0
	.byte	252                             # 0xfc
	.byte	0                               # 0x0
	.byte	252                             # 0xfc
	.byte	0                               # 0x0
	.byte	252                             # 0xfc
	.byte	0                               # 0x0
	.byte	252                             # 0xfc
.LCPI52_1:
	.zero	16,220
.LCPI52_2:
	.zero	16,216
.LCPI52_3:
	.byte	1                               # 0x1
	.byte	0                               # 0x0
	.byte	3                               # 0x3
	.byte	2                               # 0x2
	.byte	5                               # 0x5
	.byte	4                               # 0x4
	.byte	7                               # 0x7
	.byte	6                               # 0x6
	.byte	9                               # 0x9
	.byte	8                               # 0x8
	.byte	11                              # 0xb
	.byte	10                              # 0xa
	.byte	13                              # 0xd
	.byte	12                              # 0xc
	.byte	15                              # 0xf
	.byte	14                              # 0xe
	.section .text$n56,"xr"
	.p2align	4
recoding_turned_copy_units_671af64cce331956_269: # @recoding_turned_copy_units_671af64cce331956_269
.seh_proc recoding_turned_copy_units_671af64cce331956_269
# %bb.0:                                # %start
	pushq	%r15
	.seh_pushreg %r15
	pushq	%r14
	.seh_pushreg %r14
	pushq	%r12
	.seh_pushreg %r12
	pushq	%rsi
	.seh_pushreg %rsi
	pushq	%rdi
	.seh_pushreg %rdi
	pushq	%rbx
	.seh_pushreg %rbx
	subq	$152, %rsp
	.seh_stackalloc 152
	movdqa	%xmm6, 128(%rsp)                # 16-byte Spill
	.seh_savexmm %xmm6, 128
	.seh_endprologue
	movq	%r8, %rsi
	movq	%rcx, %rbx
	movw	$0, 96(%rsp)
	movdqu	(%rcx), %xmm1
	movdqu	%xmm1, 98(%rsp)
	movdqa	.LCPI52_0(%rip), %xmm0          # xmm0 = [0,252,0,252,0,252,0,252,0,252,0,252,0,252,0,252]
	pand	%xmm0, %xmm1
	pcmpeqb	.LCPI52_1(%rip), %xmm1
	movdqa	96(%rsp), %xmm2
	pand	%xmm0, %xmm2
	pcmpeqb	.LCPI52_2(%rip), %xmm2
	pxor	%xmm1, %xmm2
	pmovmskb	%xmm2, %eax
	testl	%eax, %eax
	je	.LBB52_3
# %bb.1:
	rep		bsfl	%eax, %edi
	shrl	%edi
	testq	%rdi, %rdi
	jne	.LBB52_13
	jmp	.LBB52_2
.LBB52_3:                               # %loop.2.i.preheader.i
	movl	$8, %edi
	cmpq	$80, %rdx
	jb	.LBB52_8
# %bb.4:                                # %join.5.i.i.preheader
	leaq	-16(%rdx), %rax
	movl	$32, %edi
	.p2align	4
.LBB52_5:                               # %join.5.i.i
                                        # =>This Inner Loop Header: Depth=1
	movdqu	-50(%rbx,%rdi,2), %xmm4
	movdqu	-48(%rbx,%rdi,2), %xmm5
	movdqu	-34(%rbx,%rdi,2), %xmm1
	movdqu	-32(%rbx,%rdi,2), %xmm6
	pand	%xmm0, %xmm5
	movdqa	.LCPI52_1(%rip), %xmm2          # xmm2 = [220,220,220,220,220,220,220,220,220,220,220,220,220,220,220,220]
	pcmpeqb	%xmm2, %xmm5
	pand	%xmm0, %xmm4
	movdqa	.LCPI52_2(%rip), %xmm3          # xmm3 = [216,216,216,216,216,216,216,216,216,216,216,216,216,216,216,216]
	pcmpeqb	%xmm3, %xmm4
	pxor	%xmm5, %xmm4
	pand	%xmm0, %xmm6
	pcmpeqb	%xmm2, %xmm6
	pand	%xmm0, %xmm1
	pcmpeqb	%xmm3, %xmm1
	pxor	%xmm6, %xmm1
	por	%xmm4, %xmm1
	movdqu	-16(%rbx,%rdi,2), %xmm4
	movdqu	-18(%rbx,%rdi,2), %xmm5
	pand	%xmm0, %xmm4
	pcmpeqb	%xmm2, %xmm4
	pand	%xmm0, %xmm5
	pcmpeqb	%xmm3, %xmm5
	pxor	%xmm4, %xmm5
	movdqu	(%rbx,%rdi,2), %xmm4
	movdqu	-2(%rbx,%rdi,2), %xmm6
	pand	%xmm0, %xmm4
	pcmpeqb	%xmm2, %xmm4
	pand	%xmm0, %xmm6
	pcmpeqb	%xmm3, %xmm6
	pxor	%xmm4, %xmm6
	por	%xmm5, %xmm6
	por	%xmm1, %xmm6
	pmovmskb	%xmm6, %ecx
	testl	%ecx, %ecx
	jne	.LBB52_7
# %bb.6:                                # %join.8.i.i
                                        #   in Loop: Header=BB52_5 Depth=1
	addq	$32, %rdi
	addq	$-64, %rax
	cmpq	$63, %rax
	ja	.LBB52_5
.LBB52_7:                               # %join_5_i_i_utf_lanes_unit_blocks_paired_wide_951b42d46d2e9f62_exit_i_loopexit_crit_edge_258
	addq	$-24, %rdi
.LBB52_8:                               # %utf_lanes_unit_blocks_paired_wide_951b42d46d2e9f62_exit_i_259
	shrq	%rdx
	cmpq	%rdx, %rdi
	jae	.LBB52_13
# %bb.9:                                # %join.5.i63.lr.ph.i
	leaq	-8(%rdx), %rax
	.p2align	4
.LBB52_10:                              # %join.5.i63.i
                                        # =>This Inner Loop Header: Depth=1
	cmpq	%rdi, %rax
	cmovbq	%rax, %rdi
	movdqu	-2(%rbx,%rdi,2), %xmm1
	movdqu	(%rbx,%rdi,2), %xmm2
	pand	%xmm0, %xmm2
	pcmpeqb	.LCPI52_1(%rip), %xmm2
	pand	%xmm0, %xmm1
	pcmpeqb	.LCPI52_2(%rip), %xmm1
	pxor	%xmm2, %xmm1
	pmovmskb	%xmm1, %ecx
	rep		bsfl	%ecx, %r8d
	shrl	%r8d
	testl	%ecx, %ecx
	movl	$8, %ecx
	cmovnel	%r8d, %ecx
	cmpw	$7, %cx
	jbe	.LBB52_12
# %bb.11:                               # %join.8.i79.i
                                        #   in Loop: Header=BB52_10 Depth=1
	addq	$8, %rdi
	cmpq	%rdx, %rdi
	jb	.LBB52_10
	jmp	.LBB52_13
.LBB52_12:                              # %then.6.i.i
	movzwl	%cx, %eax
	addq	%rax, %rdi
	testq	%rdi, %rdi
	je	.LBB52_2
.LBB52_13:                              # %utf_lanes_unit_blocks_units_len_951b42d46d2e9f62_exit_260
	movzbl	-1(%rbx,%rdi,2), %eax
	andb	$-4, %al
	xorl	%ecx, %ecx
	cmpb	$-40, %al
	sete	%cl
	subq	%rcx, %rdi
	addq	%rdi, %rdi
	je	.LBB52_2
# %bb.14:                               # %join.3
	cmpq	$16, %rdi
	jae	.LBB52_21
# %bb.15:                               # %loop.2.i.preheader
	movq	8(%rsi), %rax
	movq	%rdi, %rdx
	addq	$-2, %rdx
	je	.LBB52_39
# %bb.16:                               # %loop.2.i.preheader.new
	shrq	%rdx
	incq	%rdx
	movq	%rdx, %r8
	andq	$-2, %r8
	xorl	%ecx, %ecx
	.p2align	4
.LBB52_17:                              # %join.5.i
                                        # =>This Inner Loop Header: Depth=1
	movzbl	(%rbx,%rcx), %r9d
	movzbl	1(%rbx,%rcx), %r10d
	movq	(%rsi), %r11
	leaq	(%rax,%rcx), %r14
	movb	%r10b, (%r11,%r14)
	movq	(%rsi), %r10
	movb	%r9b, 1(%r10,%r14)
	leaq	2(%rax,%rcx), %r9
	movq	%r9, 8(%rsi)
	movzbl	2(%rbx,%rcx), %r9d
	movzbl	3(%rbx,%rcx), %r10d
	movq	(%rsi), %r11
	movb	%r10b, 2(%r11,%r14)
	movq	(%rsi), %r10
	movb	%r9b, 3(%r10,%r14)
	leaq	(%rax,%rcx), %r9
	addq	$4, %r9
	movq	%r9, 8(%rsi)
	addq	$4, %rcx
	addq	$-2, %r8
	jne	.LBB52_17
# %bb.18:                               # %common.ret.loopexit.unr-lcssa
	testb	$1, %dl
	je	.LBB52_41
# %bb.19:
	addq	%rcx, %rax
	jmp	.LBB52_40
.LBB52_2:
	xorl	%edi, %edi
	jmp	.LBB52_41
.LBB52_21:                              # %loop.2.i5.preheader
	movq	%rbx, %r15
	movq	%rdi, %r14
	cmpq	$64, %rdi
	jb	.LBB52_34
# %bb.22:                               # %join.5.i9.lr.ph
	leaq	8(%rsi), %r12
	movq	%rdi, %r14
	movq	%rbx, %r15
	.p2align	4
.LBB52_23:                              # %join.5.i9
                                        # =>This Inner Loop Header: Depth=1
	movdqu	(%r15), %xmm0
	movdqu	16(%r15), %xmm1
	movdqu	32(%r15), %xmm2
	movdqu	48(%r15), %xmm3
	movdqa	.LCPI52_3(%rip), %xmm4          # xmm4 = [1,0,3,2,5,4,7,6,9,8,11,10,13,12,15,14]
	pshufb	%xmm4, %xmm0
	movdqa	%xmm0, 32(%rsp)
	pshufb	%xmm4, %xmm1
	movdqa	%xmm1, 48(%rsp)
	pshufb	%xmm4, %xmm2
	movdqa	%xmm2, 64(%rsp)
	pshufb	%xmm4, %xmm3
	movdqa	%xmm3, 80(%rsp)
	movq	8(%rsi), %rax
	movq	16(%rsi), %rcx
	movq	%rcx, %rdx
	subq	%rax, %rdx
	cmpq	$63, %rdx
	jbe	.LBB52_29
.LBB52_24:                              # %join.3.i75
                                        #   in Loop: Header=BB52_23 Depth=1
	movq	(%rsi), %rdx
	pxor	%xmm0, %xmm0
	movdqu	%xmm0, (%r12)
	leaq	(%rdx,%rax), %r8
	leaq	32(%rsp), %r9
	movq	%r8, %r10
	subq	%r9, %r10
	cmpq	$63, %r10
	ja	.LBB52_26
# %bb.25:                               # %join.7.i.i.i.preheader
                                        #   in Loop: Header=BB52_23 Depth=1
	movzbl	32(%rsp), %r9d
	movb	%r9b, (%r8)
	movzbl	33(%rsp), %r9d
	movb	%r9b, 1(%r8)
	movzbl	34(%rsp), %r9d
	movb	%r9b, 2(%r8)
	movzbl	35(%rsp), %r9d
	movb	%r9b, 3(%r8)
	movzbl	36(%rsp), %r9d
	movb	%r9b, 4(%r8)
	movzbl	37(%rsp), %r9d
	movb	%r9b, 5(%r8)
	movzbl	38(%rsp), %r9d
	movb	%r9b, 6(%r8)
	movzbl	39(%rsp), %r9d
	movb	%r9b, 7(%r8)
	movzbl	40(%rsp), %r9d
	movb	%r9b, 8(%r8)
	movzbl	41(%rsp), %r9d
	movb	%r9b, 9(%r8)
	movzbl	42(%rsp), %r9d
	movb	%r9b, 10(%r8)
	movzbl	43(%rsp), %r9d
	movb	%r9b, 11(%r8)
	movzbl	44(%rsp), %r9d
	movb	%r9b, 12(%r8)
	movzbl	45(%rsp), %r9d
	movb	%r9b, 13(%r8)
	movzbl	46(%rsp), %r9d
	movb	%r9b, 14(%r8)
	movzbl	47(%rsp), %r9d
	movb	%r9b, 15(%r8)
	movzbl	48(%rsp), %r9d
	movb	%r9b, 16(%r8)
	movzbl	49(%rsp), %r9d
	movb	%r9b, 17(%r8)
	movzbl	50(%rsp), %r9d
	movb	%r9b, 18(%r8)
	movzbl	51(%rsp), %r9d
	movb	%r9b, 19(%r8)
	movzbl	52(%rsp), %r9d
	movb	%r9b, 20(%r8)
	movzbl	53(%rsp), %r9d
	movb	%r9b, 21(%r8)
	movzbl	54(%rsp), %r9d
	movb	%r9b, 22(%r8)
	movzbl	55(%rsp), %r9d
	movb	%r9b, 23(%r8)
	movzbl	56(%rsp), %r9d
	movb	%r9b, 24(%r8)
	movzbl	57(%rsp), %r9d
	movb	%r9b, 25(%r8)
	movzbl	58(%rsp), %r9d
	movb	%r9b, 26(%r8)
	movzbl	59(%rsp), %r9d
	movb	%r9b, 27(%r8)
	movzbl	60(%rsp), %r9d
	movb	%r9b, 28(%r8)
	movzbl	61(%rsp), %r9d
	movb	%r9b, 29(%r8)
	movzbl	62(%rsp), %r9d
	movb	%r9b, 30(%r8)
	movzbl	63(%rsp), %r9d
	movb	%r9b, 31(%r8)
	movzbl	64(%rsp), %r9d
	movb	%r9b, 32(%r8)
	movzbl	65(%rsp), %r9d
	movb	%r9b, 33(%r8)
	movzbl	66(%rsp), %r9d
	movb	%r9b, 34(%r8)
	movzbl	67(%rsp), %r9d
	movb	%r9b, 35(%r8)
	movzbl	68(%rsp), %r9d
	movb	%r9b, 36(%r8)
	movzbl	69(%rsp), %r9d
	movb	%r9b, 37(%r8)
	movzbl	70(%rsp), %r9d
	movb	%r9b, 38(%r8)
	movzbl	71(%rsp), %r9d
	movb	%r9b, 39(%r8)
	movzbl	72(%rsp), %r9d
	movb	%r9b, 40(%r8)
	movzbl	73(%rsp), %r9d
	movb	%r9b, 41(%r8)
	movzbl	74(%rsp), %r9d
	movb	%r9b, 42(%r8)
	movzbl	75(%rsp), %r9d
	movb	%r9b, 43(%r8)
	movzbl	76(%rsp), %r9d
	movb	%r9b, 44(%r8)
	movzbl	77(%rsp), %r9d
	movb	%r9b, 45(%r8)
	movzbl	78(%rsp), %r9d
	movb	%r9b, 46(%r8)
	movzbl	79(%rsp), %r9d
	movb	%r9b, 47(%r8)
	movzbl	80(%rsp), %r9d
	movb	%r9b, 48(%r8)
	movzbl	81(%rsp), %r9d
	movb	%r9b, 49(%r8)
	movzbl	82(%rsp), %r9d
	movb	%r9b, 50(%r8)
	movzbl	83(%rsp), %r9d
	movb	%r9b, 51(%r8)
	movzbl	84(%rsp), %r9d
	movb	%r9b, 52(%r8)
	movzbl	85(%rsp), %r9d
	movb	%r9b, 53(%r8)
	movzbl	86(%rsp), %r9d
	movb	%r9b, 54(%r8)
	movzbl	87(%rsp), %r9d
	movb	%r9b, 55(%r8)
	movzbl	88(%rsp), %r9d
	movb	%r9b, 56(%r8)
	movzbl	89(%rsp), %r9d
	movb	%r9b, 57(%r8)
	movzbl	90(%rsp), %r9d
	movb	%r9b, 58(%r8)
	movzbl	91(%rsp), %r9d
	movb	%r9b, 59(%r8)
	movzbl	92(%rsp), %r9d
	movb	%r9b, 60(%r8)
	movzbl	93(%rsp), %r9d
	movb	%r9b, 61(%r8)
	movzbl	94(%rsp), %r9d
	movb	%r9b, 62(%r8)
	movzbl	95(%rsp), %r9d
	movb	%r9b, 63(%r8)
	jmp	.LBB52_27
	.p2align	4
.LBB52_26:                              # %apart.2.i.i.i
                                        #   in Loop: Header=BB52_23 Depth=1
	movdqa	32(%rsp), %xmm0
	movdqa	48(%rsp), %xmm1
	movdqa	64(%rsp), %xmm2
	movdqa	80(%rsp), %xmm3
	movdqu	%xmm3, 48(%r8)
	movdqu	%xmm2, 32(%r8)
	movdqu	%xmm1, 16(%r8)
	movdqu	%xmm0, (%r8)
.LBB52_27:                              # %core_slots_Slots_copy_in_i8_20_core_clone_U8Clone_exit_i_112
                                        #   in Loop: Header=BB52_23 Depth=1
	addq	$64, %rax
	movq	%rdx, (%rsi)
	movq	%rax, 8(%rsi)
	movq	%rcx, 16(%rsi)
.LBB52_28:                              # %std_alloc_vec_Vec_extend_from_slice_0cd040e5c49bc722_exit_129
                                        #   in Loop: Header=BB52_23 Depth=1
	addq	$64, %r15
	addq	$-64, %r14
	cmpq	$63, %r14
	ja	.LBB52_23
	jmp	.LBB52_31
.LBB52_29:                              # %std_alloc_vec_Vec_grow_5fdc5e19576447a7_exit_i_76
                                        #   in Loop: Header=BB52_23 Depth=1
	movl	$64, %edx
	movq	%rsi, %rcx
	callq	std_alloc_vec_Vec_grow_amortized_5fdc5e19576447a7_3
	testb	%al, %al
	je	.LBB52_28
# %bb.30:                               # %std_alloc_vec_Vec_grow_5fdc5e19576447a7_exit_join_3_crit_edge_i_115
                                        #   in Loop: Header=BB52_23 Depth=1
	movq	8(%rsi), %rax
	movq	16(%rsi), %rcx
	jmp	.LBB52_24
.LBB52_31:                              # %recoding_turned_put_blocks_d5cbf36e45a151c2_exit_274
	cmpq	$16, %r14
	jb	.LBB52_37
	jmp	.LBB52_34
.LBB52_32:                              # %std_alloc_vec_Vec_grow_5fdc5e19576447a7_exit_i106_275
                                        #   in Loop: Header=BB52_34 Depth=1
	movl	$16, %edx
	movq	%rsi, %rcx
	callq	std_alloc_vec_Vec_grow_amortized_5fdc5e19576447a7_3
	testb	%al, %al
	je	.LBB52_36
# %bb.33:                               # %std_alloc_vec_Vec_grow_5fdc5e19576447a7_exit_join_3_crit_edge_i108_276
                                        #   in Loop: Header=BB52_34 Depth=1
	movq	8(%rsi), %rax
	movq	16(%rsi), %rcx
	jmp	.LBB52_35
	.p2align	4
.LBB52_34:                              # %join.5.i21
                                        # =>This Inner Loop Header: Depth=1
	movdqu	(%r15), %xmm6
	movq	8(%rsi), %rax
	movq	16(%rsi), %rcx
	movq	%rcx, %rdx
	subq	%rax, %rdx
	cmpq	$15, %rdx
	jbe	.LBB52_32
.LBB52_35:                              # %join.3.i86
                                        #   in Loop: Header=BB52_34 Depth=1
	pshufb	.LCPI52_3(%rip), %xmm6          # xmm6 = xmm6[1,0,3,2,5,4,7,6,9,8,11,10,13,12,15,14]
	movq	(%rsi), %rdx
	movdqu	%xmm6, (%rdx,%rax)
	addq	$16, %rax
	movq	%rdx, (%rsi)
	movq	%rax, 8(%rsi)
	movq	%rcx, 16(%rsi)
.LBB52_36:                              # %std_alloc_vec_Vec_extend_from_slice_0cd040e5c49bc722_exit111_277
                                        #   in Loop: Header=BB52_34 Depth=1
	addq	$-16, %r14
	addq	$16, %r15
	cmpq	$15, %r14
	ja	.LBB52_34
.LBB52_37:                              # %recoding_turned_put_blocks_efb3fef4d0ff1bf7_exit_278
	movdqu	-16(%rbx,%rdi), %xmm0
	pshufb	.LCPI52_3(%rip), %xmm0          # xmm0 = xmm0[1,0,3,2,5,4,7,6,9,8,11,10,13,12,15,14]
	movdqa	%xmm0, 32(%rsp)
	movq	8(%rsi), %rbx
	movq	16(%rsi), %r15
	movq	%r15, %rax
	subq	%rbx, %rax
	cmpq	%rax, %r14
	ja	.LBB52_42
.LBB52_38:                              # %join.3.i116
	leaq	32(%rsp), %rdx
	subq	%r14, %rdx
	addq	$16, %rdx
	movq	(%rsi), %r12
	leaq	(%r12,%rbx), %rcx
	addq	%r14, %rbx
	movq	%r14, %r8
	callq	memcpy
	movq	%r12, (%rsi)
	movq	%rbx, 8(%rsi)
	movq	%r15, 16(%rsi)
	jmp	.LBB52_41
.LBB52_39:
	xorl	%ecx, %ecx
.LBB52_40:                              # %join.5.i.epil.preheader
	movzbl	(%rbx,%rcx), %edx
	movzbl	1(%rbx,%rcx), %ecx
	movq	(%rsi), %r8
	movb	%cl, (%r8,%rax)
	movq	(%rsi), %rcx
	movb	%dl, 1(%rcx,%rax)
	addq	$2, %rax
	movq	%rax, 8(%rsi)
.LBB52_41:                              # %common.ret
	movq	%rdi, %rax
	movaps	128(%rsp), %xmm6                # 16-byte Reload
	addq	$152, %rsp
	popq	%rbx
	popq	%rdi
	popq	%rsi
	popq	%r12
	popq	%r14
	popq	%r15
	retq
.LBB52_42:                              # %std_alloc_vec_Vec_grow_5fdc5e19576447a7_exit_i136_279
	movq	%rsi, %rcx
	movq	%r14, %rdx
	callq	std_alloc_vec_Vec_grow_amortized_5fdc5e19576447a7_3
	testb	%al, %al
	je	.LBB52_41
# %bb.43:                               # %std_alloc_vec_Vec_grow_5fdc5e19576447a7_exit_join_3_crit_edge_i138_280
	movq	8(%rsi), %rbx
	movq	16(%rsi), %r15
	jmp	.LBB52_38
	.seh_endproc
                                        # -- End function
	.def	recoding_kernels_put_windows_e34f862aaeb63555_267;
	.scl	3;
	.type	32;
	.endef
	.section .rdata$n0,"dr"
	.p2align	4, 0x0                          # -- Begin function recoding::kernels::put_windows::<#e34f862aaeb63555>
.LCPI53_0:
	.short	255                             # 0xff
	.short	255                             # 0xff
	.short	255                             # 0xff
	.short	255                             # 0xff
	.short	255                             # 0xff
	.short	255                             # 0xff
	.short	255                             # 0xff
	.short	255                             # 0xff
.LCPI53_1:
	.byte	1                               # 0x1
	.byte	3                               # 0x3
	.byte	5                               # 0x5
	.byte	7                               # 0x7
	.byte	9                               # 0x9
	.byte	11                              # 0xb
	.byte	13                              # 0xd
	.byte	15                              # 0xf
	.zero	1
	.zero	1
	.zero	1
	.zero	1
	.zero	1
	.zero	1
	.zero	1
	.zero	1
.LCPI53_2:
	.zero	16,63
.LCPI53_3:
	.zero	16,54
.LCPI53_4:
	.byte	255                             # 0xff
	.byte	255                             # 0xff
	.byte	255                             # 0xff
	.byte	255                             # 0xff
	.byte	255                             # 0xff
	.byte	255                             # 0xff
	.byte	255                             # 0xff
	.byte	255                             # 0xff
	.byte	255                             # 0xff
	.byte	255                             # 0xff
	.byte	255                             # 0xff
	.byte	255                             # 0xff
	.byte	255                             # 0xff
	.byte	255                             # 0xff
	.byte	255                             # 0xff
	.byte	0                               # 0x0
.LCPI53_5:
	.zero	16,55
.LCPI53_6:
	.zero	16,253
.LCPI53_7:
	.zero	16,252
.LCPI53_8:
	.zero	16,216
.LCPI53_9:
	.byte	1                               # 0x1
	.byte	3                               # 0x3
	.byte	5                               # 0x5
	.byte	7                               # 0x7
	.byte	9                               # 0x9
	.byte	11                              # 0xb
	.byte	13                              # 0xd
	.byte	15                              # 0xf
	.byte	0                               # 0x0
	.byte	0                               # 0x0
	.byte	0                               # 0x0
	.byte	0                               # 0x0
	.byte	0                               # 0x0
	.byte	0                               # 0x0
	.byte	0                               # 0x0
	.byte	0                               # 0x0
	.section .text$n57,"xr"
	.p2align	4
recoding_kernels_put_windows_e34f862aaeb63555_267: # @recoding_kernels_put_windows_e34f862aaeb63555_267
.seh_proc recoding_kernels_put_windows_e34f862aaeb63555_267
# %bb.0:                                # %start
	pushq	%r15
	.seh_pushreg %r15
	pushq	%r14
	.seh_pushreg %r14
	pushq	%r13
	.seh_pushreg %r13
	pushq	%r12
	.seh_pushreg %r12
	pushq	%rsi
	.seh_pushreg %rsi
	pushq	%rdi
	.seh_pushreg %rdi
	pushq	%rbp
	.seh_pushreg %rbp
	pushq	%rbx
	.seh_pushreg %rbx
	subq	$184, %rsp
	.seh_stackalloc 184
	movdqa	%xmm10, 160(%rsp)               # 16-byte Spill
	.seh_savexmm %xmm10, 160
	movdqa	%xmm9, 144(%rsp)                # 16-byte Spill
	.seh_savexmm %xmm9, 144
	movdqa	%xmm8, 128(%rsp)                # 16-byte Spill
	.seh_savexmm %xmm8, 128
	movdqa	%xmm7, 112(%rsp)                # 16-byte Spill
	.seh_savexmm %xmm7, 112
	movdqa	%xmm6, 96(%rsp)                 # 16-byte Spill
	.seh_savexmm %xmm6, 96
	.seh_endprologue
	movq	%r8, %rbx
	movq	%rdx, 40(%rsp)                  # 8-byte Spill
	movq	%rcx, 48(%rsp)                  # 8-byte Spill
	xorl	%esi, %esi
	xorl	%edx, %edx
	xorl	%r13d, %r13d
	.p2align	4
.LBB53_1:                               # %then.6
                                        # =>This Inner Loop Header: Depth=1
	movq	8(%rbx), %rax
	movq	16(%rbx), %rbp
	movq	%rbp, %rcx
	subq	%rax, %rcx
	cmpq	$112, %rcx
	jb	.LBB53_11
# %bb.2:                                # %join.3.i
                                        #   in Loop: Header=BB53_1 Depth=1
	movq	%rdx, 56(%rsp)                  # 8-byte Spill
	movq	48(%rsp), %rcx                  # 8-byte Reload
	movdqu	(%rcx,%rsi), %xmm2
	movdqu	16(%rcx,%rsi), %xmm0
	movdqu	32(%rcx,%rsi), %xmm1
	movdqu	48(%rcx,%rsi), %xmm5
	movdqa	.LCPI53_0(%rip), %xmm4          # xmm4 = [255,255,255,255,255,255,255,255]
	movdqa	%xmm5, %xmm6
	pand	%xmm4, %xmm6
	movdqa	%xmm1, %xmm3
	pand	%xmm4, %xmm3
	packuswb	%xmm6, %xmm3
	movdqa	%xmm0, %xmm6
	pand	%xmm4, %xmm6
	pand	%xmm2, %xmm4
	packuswb	%xmm6, %xmm4
	movq	.LCPI53_9(%rip), %xmm6          # xmm6 = [1,3,5,7,9,11,13,15,0,0,0,0,0,0,0,0]
	pshufb	%xmm6, %xmm0
	pshufb	%xmm6, %xmm2
	punpcklqdq	%xmm0, %xmm2            # xmm2 = xmm2[0],xmm0[0]
	pshufb	%xmm6, %xmm5
	pshufb	%xmm6, %xmm1
	punpcklqdq	%xmm5, %xmm1            # xmm1 = xmm1[0],xmm5[0]
	movdqa	%xmm1, %xmm0
	psrlw	$2, %xmm0
	movdqa	.LCPI53_2(%rip), %xmm6          # xmm6 = [63,63,63,63,63,63,63,63,63,63,63,63,63,63,63,63]
	pand	%xmm6, %xmm0
	movdqa	%xmm2, %xmm5
	psrlw	$2, %xmm5
	pand	%xmm6, %xmm5
	movdqa	.LCPI53_3(%rip), %xmm6          # xmm6 = [54,54,54,54,54,54,54,54,54,54,54,54,54,54,54,54]
	movdqa	%xmm5, %xmm8
	pcmpeqb	%xmm6, %xmm8
	pcmpeqb	%xmm0, %xmm6
	movdqa	.LCPI53_4(%rip), %xmm9          # xmm9 = [255,255,255,255,255,255,255,255,255,255,255,255,255,255,255,0]
	pand	%xmm6, %xmm9
	movdqa	.LCPI53_5(%rip), %xmm7          # xmm7 = [55,55,55,55,55,55,55,55,55,55,55,55,55,55,55,55]
	pcmpeqb	%xmm7, %xmm0
	pcmpeqb	%xmm7, %xmm5
	palignr	$15, %xmm8, %xmm6               # xmm6 = xmm8[15],xmm6[0,1,2,3,4,5,6,7,8,9,10,11,12,13,14]
	movdqa	%xmm8, %xmm7
	pslldq	$1, %xmm7                       # xmm7 = zero,xmm7[0,1,2,3,4,5,6,7,8,9,10,11,12,13,14]
	pxor	%xmm5, %xmm7
	pxor	%xmm0, %xmm6
	movdqa	%xmm6, %xmm10
	palignr	$1, %xmm7, %xmm10               # xmm10 = xmm7[1,2,3,4,5,6,7,8,9,10,11,12,13,14,15],xmm10[0]
	pand	%xmm5, %xmm7
	palignr	$1, %xmm6, %xmm5                # xmm5 = xmm6[1,2,3,4,5,6,7,8,9,10,11,12,13,14,15],xmm5[0]
	pand	%xmm9, %xmm5
	pand	%xmm8, %xmm10
	pxor	%xmm9, %xmm9
	por	%xmm10, %xmm7
	pand	%xmm0, %xmm6
	por	%xmm5, %xmm6
	movdqa	.LCPI53_6(%rip), %xmm8          # xmm8 = [253,253,253,253,253,253,253,253,253,253,253,253,253,253,253,253]
	pcmpeqb	%xmm9, %xmm7
	movdqa	%xmm8, %xmm5
	movdqa	%xmm7, %xmm0
	pblendvb	%xmm0, %xmm4, %xmm5
	pcmpeqb	%xmm9, %xmm6
	movdqa	%xmm6, %xmm0
	pblendvb	%xmm0, %xmm3, %xmm8
	pcmpeqd	%xmm3, %xmm3
	movdqa	%xmm7, %xmm0
	pxor	%xmm3, %xmm0
	por	%xmm2, %xmm0
	pxor	%xmm6, %xmm3
	por	%xmm1, %xmm3
	pand	.LCPI53_7(%rip), %xmm1
	pcmpeqb	.LCPI53_8(%rip), %xmm1
	pmovmskb	%xmm1, %ecx
	xorl	%r14d, %r14d
	testw	%cx, %cx
	setns	%r14b
	addl	%r14d, %r14d
	movdqa	%xmm3, %xmm1
	punpcklbw	%xmm8, %xmm1            # xmm1 = xmm1[0],xmm8[0],xmm1[1],xmm8[1],xmm1[2],xmm8[2],xmm1[3],xmm8[3],xmm1[4],xmm8[4],xmm1[5],xmm8[5],xmm1[6],xmm8[6],xmm1[7],xmm8[7]
	movdqa	%xmm1, 64(%rsp)
	punpckhbw	%xmm8, %xmm3            # xmm3 = xmm3[8],xmm8[8],xmm3[9],xmm8[9],xmm3[10],xmm8[10],xmm3[11],xmm8[11],xmm3[12],xmm8[12],xmm3[13],xmm8[13],xmm3[14],xmm8[14],xmm3[15],xmm8[15]
	movdqa	%xmm3, 80(%rsp)
	movdqa	%xmm0, %xmm1
	punpcklbw	%xmm5, %xmm1            # xmm1 = xmm1[0],xmm5[0],xmm1[1],xmm5[1],xmm1[2],xmm5[2],xmm1[3],xmm5[3],xmm1[4],xmm5[4],xmm1[5],xmm5[5],xmm1[6],xmm5[6],xmm1[7],xmm5[7]
	punpckhbw	%xmm5, %xmm0            # xmm0 = xmm0[8],xmm5[8],xmm0[9],xmm5[9],xmm0[10],xmm5[10],xmm0[11],xmm5[11],xmm0[12],xmm5[12],xmm0[13],xmm5[13],xmm0[14],xmm5[14],xmm0[15],xmm5[15]
	leaq	32(%rax), %r15
	movq	(%rbx), %rdi
	movdqu	%xmm1, (%rdi,%rax)
	movdqu	%xmm0, 16(%rdi,%rax)
	movq	%rdi, (%rbx)
	movq	%r15, 8(%rbx)
	movq	%rbp, 16(%rbx)
	leaq	30(%r14), %r12
	movq	%rbp, %rax
	subq	%r15, %rax
	cmpq	%rax, %r12
	ja	.LBB53_3
.LBB53_5:                               # %join.3.i110
                                        #   in Loop: Header=BB53_1 Depth=1
	leaq	(%rdi,%r15), %rcx
	leaq	64(%rsp), %rax
	movq	%rcx, %rdx
	subq	%rax, %rdx
	cmpq	%r12, %rdx
	jae	.LBB53_7
# %bb.6:                                # %join.7.i.i.i123.preheader
                                        #   in Loop: Header=BB53_1 Depth=1
	leaq	64(%rsp), %rdx
	movq	%r12, %r8
	callq	memcpy
	jmp	.LBB53_8
	.p2align	4
.LBB53_7:                               # %apart.2.i.i.i120
                                        #   in Loop: Header=BB53_1 Depth=1
	leaq	64(%rsp), %rdx
	movq	%r12, %r8
	callq	memmove
.LBB53_8:                               # %core_slots_Slots_copy_in_i8_20_core_clone_U8Clone_exit_i121_261
                                        #   in Loop: Header=BB53_1 Depth=1
	addq	%r12, %r15
	movq	%rdi, (%rbx)
	movq	%r15, 8(%rbx)
	movq	%rbp, 16(%rbx)
.LBB53_9:                               # %std_alloc_vec_Vec_extend_from_slice_0cd040e5c49bc722_exit135_262
                                        #   in Loop: Header=BB53_1 Depth=1
	addq	$62, %r14
	pmovmskb	%xmm7, %eax
	xorl	$65535, %eax                    # imm = 0xFFFF
	pmovmskb	%xmm6, %ecx
	notl	%ecx
	shll	$16, %ecx
	orl	%eax, %ecx
	xorl	%eax, %eax
	popcntl	%ecx, %eax
	addq	%r14, %rsi
	movq	56(%rsp), %rdx                  # 8-byte Reload
	addq	%rax, %rdx
	movq	%r13, %rax
	incq	%rax
	xorl	%r13d, %r13d
	testl	%ecx, %ecx
	cmoveq	%rax, %r13
	cmpq	$8, %rdx
	movl	$8, %eax
	cmovbq	%rdx, %rax
	cmpq	%rax, %r13
	ja	.LBB53_11
# %bb.10:                               # %std_alloc_vec_Vec_extend_from_slice_0cd040e5c49bc722_exit135_262
                                        #   in Loop: Header=BB53_1 Depth=1
	movq	40(%rsp), %rax                  # 8-byte Reload
	subq	%rsi, %rax
	cmpq	$63, %rax
	ja	.LBB53_1
	jmp	.LBB53_11
.LBB53_3:                               # %std_alloc_vec_Vec_grow_5fdc5e19576447a7_exit_i130_263
                                        #   in Loop: Header=BB53_1 Depth=1
	movq	%rbx, %rcx
	movq	%r12, %rdx
	callq	std_alloc_vec_Vec_grow_amortized_5fdc5e19576447a7_3
	testb	%al, %al
	je	.LBB53_9
# %bb.4:                                # %std_alloc_vec_Vec_grow_5fdc5e19576447a7_exit_join_3_crit_edge_i132_264
                                        #   in Loop: Header=BB53_1 Depth=1
	movq	(%rbx), %rdi
	movq	8(%rbx), %r15
	movq	16(%rbx), %rbp
	jmp	.LBB53_5
.LBB53_11:                              # %after.1
	movq	%rsi, %rax
	movaps	96(%rsp), %xmm6                 # 16-byte Reload
	movaps	112(%rsp), %xmm7                # 16-byte Reload
	movaps	128(%rsp), %xmm8                # 16-byte Reload
	movaps	144(%rsp), %xmm9                # 16-byte Reload
	movaps	160(%rsp), %xmm10               # 16-byte Reload
	addq	$184, %rsp
	popq	%rbx
	popq	%rbp
	popq	%rdi
	popq	%rsi
	popq	%r12
	popq	%r13
	popq	%r14
	popq	%r15
	retq
	.seh_endproc
                                        # -- End function
	.def	recoding_engine_recode_faults_8dadd7d4866406da_272;
	.scl	3;
	.type	32;
	.endef
	.section .text$n58,"xr"
	.p2align	4                               # -- Begin function recoding::engine::recode_faults::<#8dadd7d4866406da>
recoding_engine_recode_faults_8dadd7d4866406da_272: # @recoding_engine_recode_faults_8dadd7d4866406da_272
.seh_proc recoding_engine_recode_faults_8dadd7d4866406da_272
# %bb.0:                                # %start
	pushq	%r15
	.seh_pushreg %r15
	pushq	%r14
	.seh_pushreg %r14
	pushq	%r13
	.seh_pushreg %r13
	pushq	%r12
	.seh_pushreg %r12
	pushq	%rsi
	.seh_pushreg %rsi
	pushq	%rdi
	.seh_pushreg %rdi
	pushq	%rbp
	.seh_pushreg %rbp
	pushq	%rbx
	.seh_pushreg %rbx
	.seh_endprologue
	movq	104(%rsp), %r13
	cmpb	$2, (%rdx)
	setne	%r10b
	cmpq	$0, 16(%rdx)
	setne	%r12b
	orb	%r10b, %r12b
	movl	$16, %r11d
	xorl	%edi, %edi
	xorl	%r10d, %r10d
	jmp	.LBB54_1
	.p2align	4
.LBB54_13:                              # %recoding_text_Utf16Text_put_any_f52bd5352b4cd2db_exit_233
                                        #   in Loop: Header=BB54_1 Depth=1
	incq	%r10
.LBB54_15:                              # %join.12
                                        #   in Loop: Header=BB54_1 Depth=1
	movl	$2, %edi
	addq	%rsi, %rdi
	cmpq	%r11, %rdi
	jae	.LBB54_17
.LBB54_1:                               # %join.5
                                        # =>This Inner Loop Header: Depth=1
	movq	%rdi, %rsi
	addq	$4, %rdi
	cmpq	%r9, %rdi
	jbe	.LBB54_2
# %bb.6:                                # %join.3.i
                                        #   in Loop: Header=BB54_1 Depth=1
	movq	%r9, %r14
	subq	%rsi, %r14
	cmpq	$2, %r14
	jb	.LBB54_10
# %bb.7:                                # %join.3.i.i
                                        #   in Loop: Header=BB54_1 Depth=1
	movzbl	1(%r8,%rsi), %ebx
	shll	$8, %ebx
	movl	%ebx, %ebp
	andl	$64512, %ebp                    # imm = 0xFC00
	cmpl	$56320, %ebp                    # imm = 0xDC00
	je	.LBB54_11
# %bb.8:                                # %join.3.i.i
                                        #   in Loop: Header=BB54_1 Depth=1
	movzbl	(%r8,%rsi), %r15d
	orl	%r15d, %ebx
	cmpl	$55296, %ebp                    # imm = 0xD800
	jne	.LBB54_14
# %bb.9:                                # %join.6.i.i
                                        #   in Loop: Header=BB54_1 Depth=1
	cmpq	$4, %r14
	jae	.LBB54_4
	jmp	.LBB54_10
	.p2align	4
.LBB54_2:                               # %then.1.i
                                        #   in Loop: Header=BB54_1 Depth=1
	movzbl	1(%r8,%rsi), %ebx
	shll	$8, %ebx
	movl	%ebx, %ebp
	andl	$64512, %ebp                    # imm = 0xFC00
	cmpl	$56320, %ebp                    # imm = 0xDC00
	je	.LBB54_11
# %bb.3:                                # %then.1.i
                                        #   in Loop: Header=BB54_1 Depth=1
	movzbl	(%r8,%rsi), %r14d
	orl	%r14d, %ebx
	cmpl	$55296, %ebp                    # imm = 0xD800
	jne	.LBB54_14
.LBB54_4:                               # %join.15.i257.i
                                        #   in Loop: Header=BB54_1 Depth=1
	movzbl	3(%r8,%rsi), %r14d
	movl	%r14d, %ebp
	andl	$-4, %ebp
	cmpl	$220, %ebp
	jne	.LBB54_11
# %bb.5:                                # %arm.14.i108.i
                                        #   in Loop: Header=BB54_1 Depth=1
	movzbl	2(%r8,%rsi), %edi
	andl	$1023, %ebx                     # imm = 0x3FF
	shll	$10, %ebx
	andl	$3, %r14d
	shll	$8, %r14d
	orl	%edi, %r14d
	leal	(%rbx,%r14), %edi
	addl	$65536, %edi                    # imm = 0x10000
	movl	%edi, %ebx
	shrl	$10, %ebx
	addl	$-10304, %ebx                   # imm = 0xD7C0
	movl	%edi, %ebp
	shrl	$8, %edi
	andb	$3, %dil
	orb	$-36, %dil
	movq	(%r13), %rdx
	movq	8(%r13), %rax
	movb	%bh, (%rdx,%rax)
	movq	(%r13), %rdx
	movb	%bl, 1(%rdx,%rax)
	movq	(%r13), %rdx
	movb	%dil, 2(%rdx,%rax)
	movq	(%r13), %rdx
	movb	%bpl, 3(%rdx,%rax)
	addq	$4, %rax
	movq	%rax, 8(%r13)
	movl	$4, %edi
	addq	%rsi, %rdi
	cmpq	%r11, %rdi
	jb	.LBB54_1
	jmp	.LBB54_17
	.p2align	4
.LBB54_11:                              # %arm.11
                                        #   in Loop: Header=BB54_1 Depth=1
	cmpq	$32, %rdi
	movl	$32, %r11d
	cmovbq	%rdi, %r11
	testb	%r12b, %r12b
	je	.LBB54_13
# %bb.12:                               # %recoding_text_Utf16Text_put_code_f52bd5352b4cd2db_exit_i_i_281
                                        #   in Loop: Header=BB54_1 Depth=1
	movq	(%r13), %rax
	movq	8(%r13), %rdx
	movb	$-1, (%rax,%rdx)
	movq	(%r13), %rax
	movb	$-3, 1(%rax,%rdx)
	addq	$2, %rdx
	movq	%rdx, 8(%r13)
	jmp	.LBB54_13
	.p2align	4
.LBB54_14:                              # %arm.1.i
                                        #   in Loop: Header=BB54_1 Depth=1
	movq	(%r13), %rdi
	movq	8(%r13), %rbp
	movb	%bh, (%rdi,%rbp)
	movq	(%r13), %rdi
	movb	%bl, 1(%rdi,%rbp)
	addq	$2, %rbp
	movq	%rbp, 8(%r13)
	jmp	.LBB54_15
.LBB54_17:                              # %after.1
	movq	%rdi, (%rcx)
	movq	%r10, 8(%rcx)
	movq	$0, 16(%rcx)
	jmp	.LBB54_18
.LBB54_10:                              # %arm.7
	movq	%rsi, (%rcx)
	movq	%r10, 8(%rcx)
	movw	$256, 16(%rcx)                  # imm = 0x100
	movl	$0, 18(%rcx)
	movw	$0, 22(%rcx)
.LBB54_18:                              # %after.1
	popq	%rbx
	popq	%rbp
	popq	%rdi
	popq	%rsi
	popq	%r12
	popq	%r13
	popq	%r14
	popq	%r15
	retq
	.seh_endproc
                                        # -- End function
	.def	recoding_recoder_runs_run_whole_8e1925640e2330c5_42;
	.scl	3;
	.type	32;
	.endef
	.section .text$n59,"xr"
	.p2align	4                               # -- Begin function recoding::recoder_runs::run_whole::<#8e1925640e2330c5>
recoding_recoder_runs_run_whole_8e1925640e2330c5_42: # @recoding_recoder_runs_run_whole_8e1925640e2330c5_42
.seh_proc recoding_recoder_runs_run_whole_8e1925640e2330c5_42
# %bb.0:                                # %start
	pushq	%r15
	.seh_pushreg %r15
	pushq	%r14
	.seh_pushreg %r14
	pushq	%r13
	.seh_pushreg %r13
	pushq	%r12
	.seh_pushreg %r12
	pushq	%rsi
	.seh_pushreg %rsi
	pushq	%rdi
	.seh_pushreg %rdi
	pushq	%rbx
	.seh_pushreg %rbx
	subq	$128, %rsp
	.seh_stackalloc 128
	.seh_endprologue
	movq	%r8, %r14
	movq	%rdx, %rbx
	movq	%rcx, %r15
	xorl	%esi, %esi
	xorl	%edi, %edi
	jmp	.LBB55_2
.LBB55_1:                               # %recoding_kernels_put_damaged_units_2b5f88d210fed041_exit_282
                                        #   in Loop: Header=BB55_2 Depth=1
	leaq	(%r15,%rdi), %rcx
	movq	%r14, %r8
	callq	recoding_kernels_put_windows_2b5f88d210fed041_283
	addq	%rax, %rdi
	addq	%rdx, %rsi
	testq	%rax, %rax
	je	.LBB55_5
	.p2align	4
.LBB55_2:                               # %loop.2.i
                                        # =>This Loop Header: Depth=1
                                        #     Child Loop BB55_11 Depth 2
	leaq	(%r15,%rdi), %rcx
	movq	%rbx, %rdx
	subq	%rdi, %rdx
	movq	%r14, %r8
	callq	recoding_kernels_NarrowedKernelUtf16Utf8_put_text_adf464b980d50768_284
	addq	%rax, %rdi
	cmpq	$8187, %rax                     # imm = 0x1FFB
	ja	.LBB55_2
# %bb.3:                                # %join.5.i
                                        #   in Loop: Header=BB55_2 Depth=1
	movq	%rbx, %rdx
	subq	%rdi, %rdx
	je	.LBB55_25
# %bb.4:                                # %join.8.i
                                        #   in Loop: Header=BB55_2 Depth=1
	cmpq	$64, %rdx
	jae	.LBB55_1
	jmp	.LBB55_6
.LBB55_5:                               # %recoding_kernels_put_damaged_units_2b5f88d210fed041_exit_join_14_i_crit_edge_285
                                        #   in Loop: Header=BB55_2 Depth=1
	movq	%rbx, %rdx
	subq	%rdi, %rdx
.LBB55_6:                               # %join.14.i
                                        #   in Loop: Header=BB55_2 Depth=1
	cmpq	$128, %rdx
	movl	$128, %ecx
	cmovbq	%rdx, %rcx
	cmpq	$2, %rdx
	jb	.LBB55_21
# %bb.7:                                # %join.5.i36.preheader
                                        #   in Loop: Header=BB55_2 Depth=1
	leaq	(%r15,%rdi), %rdx
	xorl	%eax, %eax
	movq	%rcx, %r9
	jmp	.LBB55_11
	.p2align	4
.LBB55_8:                               # %then.1.i.i
                                        #   in Loop: Header=BB55_11 Depth=2
	movq	(%r14), %r8
	movq	8(%r14), %r9
	movb	%r11b, (%r8,%r9)
	incq	%r9
	movq	%r9, 8(%r14)
.LBB55_9:                               # %recoding_codes_put_short_345d457c2768aa28_exit_i_240
                                        #   in Loop: Header=BB55_11 Depth=2
	movl	$2, %r8d
.LBB55_10:                              # %recoding_codes_put_short_345d457c2768aa28_exit_i_240
                                        #   in Loop: Header=BB55_11 Depth=2
	addq	%r8, %rax
	movq	%rcx, %r9
	subq	%rax, %r9
	cmpq	$1, %r9
	jbe	.LBB55_20
.LBB55_11:                              # %join.5.i36
                                        #   Parent Loop BB55_2 Depth=1
                                        # =>  This Inner Loop Header: Depth=2
	movzbl	(%rdx,%rax), %r8d
	movzbl	1(%rdx,%rax), %r11d
	movl	%r8d, %r12d
	shll	$8, %r12d
	leal	(%r12,%r11), %r10d
	andl	$64512, %r12d                   # imm = 0xFC00
	cmpl	$55296, %r12d                   # imm = 0xD800
	je	.LBB55_16
# %bb.12:                               # %join.5.i36
                                        #   in Loop: Header=BB55_11 Depth=2
	cmpl	$56320, %r12d                   # imm = 0xDC00
	je	.LBB55_20
# %bb.13:                               # %arm.7.i
                                        #   in Loop: Header=BB55_11 Depth=2
	movzwl	%r10w, %r9d
	cmpl	$128, %r9d
	jb	.LBB55_8
# %bb.14:                               # %join.3.i.i
                                        #   in Loop: Header=BB55_11 Depth=2
	movl	%r9d, %r10d
	andl	$63, %r10d
	orl	$128, %r10d
	shrl	$6, %r9d
	cmpb	$8, %r8b
	jae	.LBB55_19
# %bb.15:                               # %then.4.i.i
                                        #   in Loop: Header=BB55_11 Depth=2
	orb	$-64, %r9b
	movq	(%r14), %r8
	movq	8(%r14), %r11
	movb	%r9b, (%r8,%r11)
	movq	(%r14), %r8
	movb	%r10b, 1(%r8,%r11)
	addq	$2, %r11
	movq	%r11, 8(%r14)
	jmp	.LBB55_9
	.p2align	4
.LBB55_16:                              # %join.6.i
                                        #   in Loop: Header=BB55_11 Depth=2
	cmpq	$4, %r9
	jb	.LBB55_20
# %bb.17:                               # %join.15.i65.i
                                        #   in Loop: Header=BB55_11 Depth=2
	movzbl	2(%rdx,%rax), %r8d
	movl	%r8d, %r9d
	andl	$-4, %r9d
	cmpl	$220, %r9d
	jne	.LBB55_20
# %bb.18:                               # %join.7.i.i
                                        #   in Loop: Header=BB55_11 Depth=2
	movzwl	%r8w, %r9d
	movzbl	3(%rdx,%rax), %r8d
	andl	$1023, %r10d                    # imm = 0x3FF
	shll	$10, %r10d
	andl	$3, %r9d
	shll	$8, %r9d
	orl	%r8d, %r9d
	leal	65536(%r10), %r11d
	orl	%r10d, %r9d
	andb	$63, %r8b
	orb	$-128, %r8b
	shrl	$6, %r9d
	movl	%r11d, %r10d
	shrl	$18, %r10d
	shrl	$12, %r11d
	orb	$-16, %r10b
	andb	$63, %r11b
	orb	$-128, %r11b
	andb	$63, %r9b
	orb	$-128, %r9b
	movq	(%r14), %r12
	movq	8(%r14), %r13
	movb	%r10b, (%r12,%r13)
	movq	(%r14), %r10
	movb	%r11b, 1(%r10,%r13)
	movq	(%r14), %r10
	movb	%r9b, 2(%r10,%r13)
	movq	(%r14), %r9
	movb	%r8b, 3(%r9,%r13)
	addq	$4, %r13
	movq	%r13, 8(%r14)
	movl	$4, %r8d
	jmp	.LBB55_10
.LBB55_19:                              # %join.7.i.i.thread
                                        #   in Loop: Header=BB55_11 Depth=2
	shrb	$4, %r8b
	orb	$-32, %r8b
	andb	$63, %r9b
	orb	$-128, %r9b
	movq	(%r14), %r11
	movq	8(%r14), %r12
	movb	%r8b, (%r11,%r12)
	movq	(%r14), %r8
	movb	%r9b, 1(%r8,%r12)
	movq	(%r14), %r8
	movb	%r10b, 2(%r8,%r12)
	addq	$3, %r12
	movq	%r12, 8(%r14)
	jmp	.LBB55_9
.LBB55_20:                              # %recoding_engine_recode_text_33bf286c3e467979_exit_286
                                        #   in Loop: Header=BB55_2 Depth=1
	addq	%rax, %rdi
	cmpq	$124, %rax
	ja	.LBB55_2
.LBB55_21:                              # %then.15.i
                                        #   in Loop: Header=BB55_2 Depth=1
	movq	%rbx, %r9
	subq	%rdi, %r9
	je	.LBB55_25
# %bb.22:                               # %join.20.i
                                        #   in Loop: Header=BB55_2 Depth=1
	leaq	(%r15,%rdi), %r8
	xorps	%xmm0, %xmm0
	movaps	%xmm0, 48(%rsp)
	movq	$0, 64(%rsp)
	movaps	%xmm0, 80(%rsp)
	movaps	%xmm0, 96(%rsp)
	movq	$0, 112(%rsp)
	movq	%r14, 32(%rsp)
	leaq	48(%rsp), %rcx
	leaq	80(%rsp), %rdx
	callq	recoding_engine_recode_faults_e857034c7a7c407f_287
	addq	48(%rsp), %rdi
	addq	56(%rsp), %rsi
	testb	$1, 64(%rsp)
	jne	.LBB55_26
# %bb.23:                               # %join.20.i
                                        #   in Loop: Header=BB55_2 Depth=1
	testb	$1, 65(%rsp)
	je	.LBB55_2
	jmp	.LBB55_26
.LBB55_25:
	movq	%rbx, %rdi
.LBB55_26:                              # %recoding_engine_run_0eb0a5591a2f9e7a_exit_288
	movq	%rdi, %rax
	movq	%rsi, %rdx
	addq	$128, %rsp
	popq	%rbx
	popq	%rdi
	popq	%rsi
	popq	%r12
	popq	%r13
	popq	%r14
	popq	%r15
	retq
	.seh_endproc
                                        # -- End function
	.def	recoding_kernels_NarrowedKernelUtf16Utf8_put_text_adf464b980d50768_284;
	.scl	3;
	.type	32;
	.endef
	.section .rdata$n0,"dr"
	.p2align	4, 0x0                          # -- Begin function recoding::kernels::NarrowedKernelUtf16Utf8::put_text::<#adf464b980d50768>
.LCPI56_0:
	.byte	1                               # 0x1
	.byte	3                               # 0x3
	.byte	5                               # 0x5
	.byte	7                               # 0x7
	.byte	9                               # 0x9
	.byte	11                              # 0xb
	.byte	13                              # 0xd
	.byte	15                              # 0xf
	.zero	1
	.zero	1
	.zero	1
	.zero	1
	.zero	1
	.zero	1
	.zero	1
	.zero	1
.LCPI56_1:
	.short	255                             # 0xff
	.short	255                             # 0xff
	.short	255                             # 0xff
	.short	255                             # 0xff
	.short	255                             # 0xff
	.short	255                             # 0xff
	.short	255                             # 0xff
	.short	255                             # 0xff
.LCPI56_2:
	.zero	16,1
.LCPI56_3:
	.zero	16,8
.LCPI56_4:
	.zero	16,248
.LCPI56_5:
	.zero	16,216
.LCPI56_6:
	.zero	16,63
.LCPI56_7:
	.zero	16,54
.LCPI56_8:
	.zero	16,55
.LCPI56_9:
	.zero	16,48
.LCPI56_10:
	.zero	16,15
.LCPI56_11:
	.zero	16,252
.LCPI56_12:
	.zero	16,128
.LCPI56_13:
	.zero	16,192
.LCPI56_14:
	.zero	16,7
.LCPI56_15:
	.zero	16,191
.LCPI56_16:
	.zero	16,3
.LCPI56_17:
	.zero	16,241
.LCPI56_18:
	.zero	16,224
.LCPI56_19:
	.zero	16,16
.LCPI56_20:
	.byte	1                               # 0x1
	.byte	0                               # 0x0
	.byte	3                               # 0x3
	.byte	2                               # 0x2
	.byte	5                               # 0x5
	.byte	4                               # 0x4
	.byte	7                               # 0x7
	.byte	6                               # 0x6
	.byte	9                               # 0x9
	.byte	8                               # 0x8
	.byte	11                              # 0xb
	.byte	10                              # 0xa
	.byte	13                              # 0xd
	.byte	12                              # 0xc
	.byte	15                              # 0xf
	.byte	14                              # 0xe
.LCPI56_21:
	.short	128                             # 0x80
	.short	128                             # 0x80
	.short	128                             # 0x80
	.short	128                             # 0x80
	.short	128                             # 0x80
	.short	128                             # 0x80
	.short	128                             # 0x80
	.short	128                             # 0x80
.LCPI56_22:
	.byte	1                               # 0x1
	.byte	3                               # 0x3
	.byte	5                               # 0x5
	.byte	7                               # 0x7
	.byte	9                               # 0x9
	.byte	11                              # 0xb
	.byte	13                              # 0xd
	.byte	15                              # 0xf
	.byte	0                               # 0x0
	.byte	0                               # 0x0
	.byte	0                               # 0x0
	.byte	0                               # 0x0
	.byte	0                               # 0x0
	.byte	0                               # 0x0
	.byte	0                               # 0x0
	.byte	0                               # 0x0
	.section .text$n60,"xr"
	.p2align	4
recoding_kernels_NarrowedKernelUtf16Utf8_put_text_adf464b980d50768_284: # @recoding_kernels_NarrowedKernelUtf16Utf8_put_text_adf464b980d50768_284
.seh_proc recoding_kernels_NarrowedKernelUtf16Utf8_put_text_adf464b980d50768_284
# %bb.0:                                # %start
	pushq	%r15
	.seh_pushreg %r15
	pushq	%r14
	.seh_pushreg %r14
	pushq	%r13
	.seh_pushreg %r13
	pushq	%r12
	.seh_pushreg %r12
	pushq	%rsi
	.seh_pushreg %rsi
	pushq	%rdi
	.seh_pushreg %rdi
	pushq	%rbp
	.seh_pushreg %rbp
	pushq	%rbx
	.seh_pushreg %rbx
	subq	$168, %rsp
	.seh_stackalloc 168
	movdqa	%xmm14, 144(%rsp)               # 16-byte Spill
	.seh_savexmm %xmm14, 144
	movdqa	%xmm13, 128(%rsp)               # 16-byte Spill
	.seh_savexmm %xmm13, 128
	movdqa	%xmm12, 112(%rsp)               # 16-byte Spill
	.seh_savexmm %xmm12, 112
	movdqa	%xmm11, 96(%rsp)                # 16-byte Spill
	.seh_savexmm %xmm11, 96
	movdqa	%xmm10, 80(%rsp)                # 16-byte Spill
	.seh_savexmm %xmm10, 80
	movdqa	%xmm9, 64(%rsp)                 # 16-byte Spill
	.seh_savexmm %xmm9, 64
	movdqa	%xmm8, 48(%rsp)                 # 16-byte Spill
	.seh_savexmm %xmm8, 48
	movdqa	%xmm7, 32(%rsp)                 # 16-byte Spill
	.seh_savexmm %xmm7, 32
	movdqa	%xmm6, 16(%rsp)                 # 16-byte Spill
	.seh_savexmm %xmm6, 16
	.seh_endprologue
	movq	%rdx, %r14
	cmpq	$32, %rdx
	jb	.LBB56_1
# %bb.2:                                # %then.3.i.lr.ph
	movq	8(%r8), %r10
	movq	16(%r8), %rsi
	movq	%rsi, %rax
	subq	%r10, %rax
	cmpq	$64, %rax
	jb	.LBB56_3
# %bb.4:                                # %join.5.i.preheader
	xorl	%eax, %eax
	movq	%r14, %r9
	movq	%r14, 8(%rsp)                   # 8-byte Spill
	.p2align	4
.LBB56_6:                               # %join.5.i
                                        # =>This Inner Loop Header: Depth=1
	movdqu	(%rcx,%rax), %xmm1
	movdqu	16(%rcx,%rax), %xmm0
	movq	.LCPI56_22(%rip), %xmm2         # xmm2 = [1,3,5,7,9,11,13,15,0,0,0,0,0,0,0,0]
	movdqa	%xmm0, %xmm3
	pshufb	%xmm2, %xmm3
	movdqa	%xmm1, %xmm6
	pshufb	%xmm2, %xmm6
	punpcklqdq	%xmm3, %xmm6            # xmm6 = xmm6[0],xmm3[0]
	movdqa	.LCPI56_1(%rip), %xmm2          # xmm2 = [255,255,255,255,255,255,255,255]
	pand	%xmm2, %xmm0
	pand	%xmm2, %xmm1
	movdqa	%xmm6, %xmm2
	psrlw	$7, %xmm2
	pand	.LCPI56_2(%rip), %xmm2
	packuswb	%xmm0, %xmm1
	por	%xmm1, %xmm2
	ptest	%xmm2, %xmm2
	je	.LBB56_7
# %bb.8:                                # %join.3.i57
                                        #   in Loop: Header=BB56_6 Depth=1
	leaq	64(%r10), %rdx
	movq	(%r8), %r11
	pxor	%xmm0, %xmm0
	movdqu	%xmm0, 48(%r11,%r10)
	movdqu	%xmm0, 32(%r11,%r10)
	movdqu	%xmm0, 16(%r11,%r10)
	movdqu	%xmm0, (%r11,%r10)
	movq	%r11, (%r8)
	movq	%rdx, 8(%r8)
	movq	%rsi, 16(%r8)
	movdqa	.LCPI56_3(%rip), %xmm0          # xmm0 = [8,8,8,8,8,8,8,8,8,8,8,8,8,8,8,8]
	pmaxub	%xmm1, %xmm0
	pcmpeqb	%xmm1, %xmm0
	pmovmskb	%xmm0, %edx
	testl	%edx, %edx
	je	.LBB56_9
# %bb.10:                               # %join.3.i32.i
                                        #   in Loop: Header=BB56_6 Depth=1
	movdqa	.LCPI56_4(%rip), %xmm2          # xmm2 = [248,248,248,248,248,248,248,248,248,248,248,248,248,248,248,248]
	pand	%xmm1, %xmm2
	movdqa	.LCPI56_5(%rip), %xmm0          # xmm0 = [216,216,216,216,216,216,216,216,216,216,216,216,216,216,216,216]
	pcmpeqb	%xmm2, %xmm0
	pmovmskb	%xmm0, %edx
	testl	%edx, %edx
	je	.LBB56_11
# %bb.12:                               # %join.7.i.i
                                        #   in Loop: Header=BB56_6 Depth=1
	movdqa	%xmm1, %xmm0
	psrlw	$2, %xmm0
	pand	.LCPI56_6(%rip), %xmm0
	movdqa	.LCPI56_7(%rip), %xmm3          # xmm3 = [54,54,54,54,54,54,54,54,54,54,54,54,54,54,54,54]
	pcmpeqb	%xmm0, %xmm3
	pmovmskb	%xmm3, %esi
	pcmpeqb	.LCPI56_8(%rip), %xmm0
	pmovmskb	%xmm0, %edx
	leal	(%rsi,%rsi), %edi
	movzwl	%di, %edi
	cmpl	%edx, %edi
	jne	.LBB56_13
# %bb.14:                               # %join.3.i234.i
                                        #   in Loop: Header=BB56_6 Depth=1
	movdqa	.LCPI56_5(%rip), %xmm7          # xmm7 = [216,216,216,216,216,216,216,216,216,216,216,216,216,216,216,216]
	pcmpeqb	%xmm7, %xmm2
	movdqa	%xmm6, %xmm0
	psrlw	$6, %xmm0
	movdqa	.LCPI56_11(%rip), %xmm5         # xmm5 = [252,252,252,252,252,252,252,252,252,252,252,252,252,252,252,252]
	movdqa	%xmm1, %xmm8
	psllw	$2, %xmm8
	pand	%xmm5, %xmm8
	movdqa	.LCPI56_14(%rip), %xmm4         # xmm4 = [7,7,7,7,7,7,7,7,7,7,7,7,7,7,7,7]
	pminub	%xmm1, %xmm4
	pcmpeqb	%xmm1, %xmm4
	movdqa	.LCPI56_16(%rip), %xmm10        # xmm10 = [3,3,3,3,3,3,3,3,3,3,3,3,3,3,3,3]
	pand	%xmm1, %xmm10
	movdqa	%xmm1, %xmm11
	pand	%xmm5, %xmm1
	pandn	%xmm0, %xmm5
	por	%xmm5, %xmm8
	movdqa	%xmm8, %xmm13
	movdqa	.LCPI56_12(%rip), %xmm12        # xmm12 = [128,128,128,128,128,128,128,128,128,128,128,128,128,128,128,128]
	movdqa	.LCPI56_6(%rip), %xmm9          # xmm9 = [63,63,63,63,63,63,63,63,63,63,63,63,63,63,63,63]
	pand	%xmm9, %xmm8
	movdqa	%xmm8, %xmm5
	pcmpgtb	.LCPI56_2(%rip), %xmm5
	movdqa	.LCPI56_13(%rip), %xmm14        # xmm14 = [192,192,192,192,192,192,192,192,192,192,192,192,192,192,192,192]
	por	%xmm8, %xmm14
	pand	%xmm5, %xmm14
	por	%xmm12, %xmm8
	movdqa	%xmm4, %xmm0
	pblendvb	%xmm0, %xmm14, %xmm8
	movdqa	%xmm6, %xmm0
	psllw	$4, %xmm0
	pand	.LCPI56_9(%rip), %xmm0
	palignr	$15, %xmm0, %xmm0               # xmm0 = xmm0[15,0,1,2,3,4,5,6,7,8,9,10,11,12,13,14]
	movdqa	.LCPI56_10(%rip), %xmm14        # xmm14 = [15,15,15,15,15,15,15,15,15,15,15,15,15,15,15,15]
	pand	%xmm14, %xmm13
	por	%xmm12, %xmm13
	por	%xmm0, %xmm13
	movdqa	%xmm2, %xmm0
	pblendvb	%xmm0, %xmm13, %xmm8
	movdqa	.LCPI56_15(%rip), %xmm0         # xmm0 = [191,191,191,191,191,191,191,191,191,191,191,191,191,191,191,191]
	pminub	%xmm6, %xmm0
	pcmpeqb	%xmm6, %xmm0
	paddb	%xmm0, %xmm10
	paddb	.LCPI56_17(%rip), %xmm10
	movdqa	%xmm3, %xmm0
	pblendvb	%xmm0, %xmm10, %xmm8
	psrlw	$4, %xmm11
	pand	%xmm14, %xmm11
	por	.LCPI56_18(%rip), %xmm11
	por	%xmm4, %xmm2
	pandn	%xmm11, %xmm2
	movdqa	%xmm2, %xmm3
	punpcklbw	%xmm8, %xmm3            # xmm3 = xmm3[0],xmm8[0],xmm3[1],xmm8[1],xmm3[2],xmm8[2],xmm3[3],xmm8[3],xmm3[4],xmm8[4],xmm3[5],xmm8[5],xmm3[6],xmm8[6],xmm3[7],xmm8[7]
	punpckhbw	%xmm8, %xmm2            # xmm2 = xmm2[8],xmm8[8],xmm2[9],xmm8[9],xmm2[10],xmm8[10],xmm2[11],xmm8[11],xmm2[12],xmm8[12],xmm2[13],xmm8[13],xmm2[14],xmm8[14],xmm2[15],xmm8[15]
	pmovmskb	%xmm3, %ebp
	movzbl	%bpl, %r14d
	popcntl	%r14d, %r13d
	shrl	$8, %ebp
	popcntl	%ebp, %r12d
	addq	%r10, %r13
	pmovmskb	%xmm2, %ebx
	movzbl	%bl, %edx
	movq	%rdx, (%rsp)                    # 8-byte Spill
	popcntl	%edx, %r15d
	shrl	$8, %ebx
	movq	%rsi, %rdx
	popcntl	%ebx, %esi
	xorl	%edi, %edi
	testw	%dx, %dx
	setns	%dil
	leaq	4(%r12,%r13), %r12
	leaq	4(%r15,%r12), %r15
	leaq	8(%rsi,%r15), %rdx
	leaq	6(%rsi,%r15), %rsi
	cmovnsq	%rdx, %rsi
	movdqa	%xmm6, %xmm8
	psrlw	$2, %xmm8
	paddb	.LCPI56_19(%rip), %xmm8
	pcmpeqb	%xmm7, %xmm1
	pand	%xmm9, %xmm8
	pand	%xmm6, %xmm9
	por	%xmm12, %xmm9
	pandn	%xmm4, %xmm5
	movdqa	%xmm5, %xmm0
	pblendvb	%xmm0, %xmm6, %xmm9
	por	%xmm12, %xmm8
	movdqa	%xmm1, %xmm0
	pblendvb	%xmm0, %xmm8, %xmm9
	addq	$15, %rdi
	movdqa	%xmm9, %xmm0
	punpcklbw	%xmm9, %xmm0            # xmm0 = xmm0[0],xmm9[0],xmm0[1],xmm9[1],xmm0[2],xmm9[2],xmm0[3],xmm9[3],xmm0[4],xmm9[4],xmm0[5],xmm9[5],xmm0[6],xmm9[6],xmm0[7],xmm9[7]
	punpckhbw	%xmm9, %xmm9            # xmm9 = xmm9[8,8,9,9,10,10,11,11,12,12,13,13,14,14,15,15]
	movdqa	%xmm3, %xmm1
	punpcklbw	%xmm0, %xmm1            # xmm1 = xmm1[0],xmm0[0],xmm1[1],xmm0[1],xmm1[2],xmm0[2],xmm1[3],xmm0[3],xmm1[4],xmm0[4],xmm1[5],xmm0[5],xmm1[6],xmm0[6],xmm1[7],xmm0[7]
	punpckhbw	%xmm0, %xmm3            # xmm3 = xmm3[8],xmm0[8],xmm3[9],xmm0[9],xmm3[10],xmm0[10],xmm3[11],xmm0[11],xmm3[12],xmm0[12],xmm3[13],xmm0[13],xmm3[14],xmm0[14],xmm3[15],xmm0[15]
	shll	$4, %r14d
	leaq	static.20(%rip), %rdx
	movdqu	(%r14,%rdx), %xmm0
	movq	8(%rsp), %r14                   # 8-byte Reload
	pshufb	%xmm0, %xmm1
	shll	$4, %ebp
	movdqu	(%rbp,%rdx), %xmm0
	pshufb	%xmm0, %xmm3
	movdqu	%xmm1, (%r11,%r10)
	movdqu	%xmm3, 4(%r11,%r13)
	movdqa	%xmm2, %xmm0
	punpcklbw	%xmm9, %xmm0            # xmm0 = xmm0[0],xmm9[0],xmm0[1],xmm9[1],xmm0[2],xmm9[2],xmm0[3],xmm9[3],xmm0[4],xmm9[4],xmm0[5],xmm9[5],xmm0[6],xmm9[6],xmm0[7],xmm9[7]
	punpckhbw	%xmm9, %xmm2            # xmm2 = xmm2[8],xmm9[8],xmm2[9],xmm9[9],xmm2[10],xmm9[10],xmm2[11],xmm9[11],xmm2[12],xmm9[12],xmm2[13],xmm9[13],xmm2[14],xmm9[14],xmm2[15],xmm9[15]
	movq	(%rsp), %r10                    # 8-byte Reload
	shll	$4, %r10d
	movdqu	(%r10,%rdx), %xmm1
	pshufb	%xmm1, %xmm0
	shll	$4, %ebx
	movdqu	(%rbx,%rdx), %xmm1
	pshufb	%xmm1, %xmm2
	movdqu	%xmm0, 4(%r11,%r12)
	movdqu	%xmm2, 4(%r11,%r15)
	movq	%rsi, %r10
	movq	8(%r8), %rdx
	cmpq	%r10, %rdx
	ja	.LBB56_16
	jmp	.LBB56_17
	.p2align	4
.LBB56_7:                               # %join.3.i
                                        #   in Loop: Header=BB56_6 Depth=1
	movq	(%r8), %rdx
	movdqu	%xmm6, (%rdx,%r10)
	addq	$16, %r10
	movq	%rdx, (%r8)
	movq	%r10, 8(%r8)
	movq	%rsi, 16(%r8)
	movl	$16, %edi
	jmp	.LBB56_18
	.p2align	4
.LBB56_9:                               # %then.1.i33.i
                                        #   in Loop: Header=BB56_6 Depth=1
	movdqa	%xmm6, %xmm0
	psrlw	$6, %xmm0
	pand	.LCPI56_16(%rip), %xmm0
	movdqa	%xmm1, %xmm3
	psllw	$2, %xmm3
	pand	.LCPI56_11(%rip), %xmm3
	por	%xmm0, %xmm3
	movdqa	.LCPI56_6(%rip), %xmm4          # xmm4 = [63,63,63,63,63,63,63,63,63,63,63,63,63,63,63,63]
	pand	%xmm4, %xmm3
	movdqa	%xmm3, %xmm2
	pcmpgtb	.LCPI56_2(%rip), %xmm2
	movdqa	.LCPI56_13(%rip), %xmm5         # xmm5 = [192,192,192,192,192,192,192,192,192,192,192,192,192,192,192,192]
	por	%xmm3, %xmm5
	pand	%xmm2, %xmm5
	movdqa	.LCPI56_14(%rip), %xmm0         # xmm0 = [7,7,7,7,7,7,7,7,7,7,7,7,7,7,7,7]
	pminub	%xmm1, %xmm0
	pcmpeqb	%xmm1, %xmm0
	movdqa	.LCPI56_12(%rip), %xmm1         # xmm1 = [128,128,128,128,128,128,128,128,128,128,128,128,128,128,128,128]
	por	%xmm1, %xmm3
	pblendvb	%xmm0, %xmm5, %xmm3
	pand	%xmm6, %xmm4
	por	%xmm1, %xmm4
	pandn	%xmm0, %xmm2
	movdqa	%xmm2, %xmm0
	pblendvb	%xmm0, %xmm6, %xmm4
	pmovmskb	%xmm3, %edx
	movdqa	%xmm3, %xmm0
	punpcklbw	%xmm4, %xmm0            # xmm0 = xmm0[0],xmm4[0],xmm0[1],xmm4[1],xmm0[2],xmm4[2],xmm0[3],xmm4[3],xmm0[4],xmm4[4],xmm0[5],xmm4[5],xmm0[6],xmm4[6],xmm0[7],xmm4[7]
	punpckhbw	%xmm4, %xmm3            # xmm3 = xmm3[8],xmm4[8],xmm3[9],xmm4[9],xmm3[10],xmm4[10],xmm3[11],xmm4[11],xmm3[12],xmm4[12],xmm3[13],xmm4[13],xmm3[14],xmm4[14],xmm3[15],xmm4[15]
	movzbl	%dl, %esi
	popcntl	%esi, %edi
	shll	$4, %esi
	leaq	static.19(%rip), %rbx
	movdqu	(%rsi,%rbx), %xmm1
	pshufb	%xmm1, %xmm0
	shrl	$8, %edx
	xorl	%esi, %esi
	popcntl	%edx, %esi
	shll	$4, %edx
	movdqu	(%rdx,%rbx), %xmm1
	pshufb	%xmm1, %xmm3
	movdqu	%xmm0, (%r11,%r10)
	addq	%r10, %rdi
	movdqu	%xmm3, 8(%r11,%rdi)
	leaq	(%rsi,%rdi), %r10
	addq	$16, %r10
	movl	$16, %edi
	movq	8(%r8), %rdx
	cmpq	%r10, %rdx
	ja	.LBB56_16
	jmp	.LBB56_17
.LBB56_11:                              # %then.5.i.i
                                        #   in Loop: Header=BB56_6 Depth=1
	movdqa	%xmm6, %xmm0
	psrlw	$6, %xmm0
	pand	.LCPI56_16(%rip), %xmm0
	movdqa	%xmm1, %xmm5
	psllw	$2, %xmm5
	pand	.LCPI56_11(%rip), %xmm5
	por	%xmm0, %xmm5
	movdqa	.LCPI56_6(%rip), %xmm4          # xmm4 = [63,63,63,63,63,63,63,63,63,63,63,63,63,63,63,63]
	pand	%xmm4, %xmm5
	movdqa	%xmm5, %xmm3
	pcmpgtb	.LCPI56_2(%rip), %xmm3
	movdqa	.LCPI56_13(%rip), %xmm7         # xmm7 = [192,192,192,192,192,192,192,192,192,192,192,192,192,192,192,192]
	por	%xmm5, %xmm7
	pand	%xmm3, %xmm7
	movdqa	.LCPI56_14(%rip), %xmm2         # xmm2 = [7,7,7,7,7,7,7,7,7,7,7,7,7,7,7,7]
	pminub	%xmm1, %xmm2
	pcmpeqb	%xmm1, %xmm2
	movdqa	.LCPI56_12(%rip), %xmm8         # xmm8 = [128,128,128,128,128,128,128,128,128,128,128,128,128,128,128,128]
	por	%xmm8, %xmm5
	movdqa	%xmm2, %xmm0
	pblendvb	%xmm0, %xmm7, %xmm5
	pand	%xmm6, %xmm4
	por	%xmm8, %xmm4
	pandn	%xmm2, %xmm3
	movdqa	%xmm3, %xmm0
	pblendvb	%xmm0, %xmm6, %xmm4
	psrlw	$4, %xmm1
	pand	.LCPI56_10(%rip), %xmm1
	por	.LCPI56_18(%rip), %xmm1
	pandn	%xmm1, %xmm2
	movdqa	%xmm2, %xmm0
	punpcklbw	%xmm5, %xmm0            # xmm0 = xmm0[0],xmm5[0],xmm0[1],xmm5[1],xmm0[2],xmm5[2],xmm0[3],xmm5[3],xmm0[4],xmm5[4],xmm0[5],xmm5[5],xmm0[6],xmm5[6],xmm0[7],xmm5[7]
	punpckhbw	%xmm5, %xmm2            # xmm2 = xmm2[8],xmm5[8],xmm2[9],xmm5[9],xmm2[10],xmm5[10],xmm2[11],xmm5[11],xmm2[12],xmm5[12],xmm2[13],xmm5[13],xmm2[14],xmm5[14],xmm2[15],xmm5[15]
	movdqa	%xmm4, %xmm1
	punpcklbw	%xmm4, %xmm1            # xmm1 = xmm1[0],xmm4[0],xmm1[1],xmm4[1],xmm1[2],xmm4[2],xmm1[3],xmm4[3],xmm1[4],xmm4[4],xmm1[5],xmm4[5],xmm1[6],xmm4[6],xmm1[7],xmm4[7]
	punpckhbw	%xmm4, %xmm4            # xmm4 = xmm4[8,8,9,9,10,10,11,11,12,12,13,13,14,14,15,15]
	pmovmskb	%xmm0, %esi
	movdqa	%xmm0, %xmm3
	punpcklbw	%xmm1, %xmm3            # xmm3 = xmm3[0],xmm1[0],xmm3[1],xmm1[1],xmm3[2],xmm1[2],xmm3[3],xmm1[3],xmm3[4],xmm1[4],xmm3[5],xmm1[5],xmm3[6],xmm1[6],xmm3[7],xmm1[7]
	punpckhbw	%xmm1, %xmm0            # xmm0 = xmm0[8],xmm1[8],xmm0[9],xmm1[9],xmm0[10],xmm1[10],xmm0[11],xmm1[11],xmm0[12],xmm1[12],xmm0[13],xmm1[13],xmm0[14],xmm1[14],xmm0[15],xmm1[15]
	movzbl	%sil, %edi
	popcntl	%edi, %ebx
	shll	$4, %edi
	leaq	static.20(%rip), %rdx
	movdqu	(%rdi,%rdx), %xmm1
	pshufb	%xmm1, %xmm3
	shrl	$8, %esi
	xorl	%edi, %edi
	popcntl	%esi, %edi
	shll	$4, %esi
	movdqu	(%rsi,%rdx), %xmm1
	pshufb	%xmm1, %xmm0
	addq	%r10, %rbx
	leaq	(%rdi,%rbx), %rsi
	addq	$4, %rsi
	movdqu	%xmm3, (%r11,%r10)
	movdqu	%xmm0, 4(%r11,%rbx)
	pmovmskb	%xmm2, %r10d
	movdqa	%xmm2, %xmm0
	punpcklbw	%xmm4, %xmm0            # xmm0 = xmm0[0],xmm4[0],xmm0[1],xmm4[1],xmm0[2],xmm4[2],xmm0[3],xmm4[3],xmm0[4],xmm4[4],xmm0[5],xmm4[5],xmm0[6],xmm4[6],xmm0[7],xmm4[7]
	punpckhbw	%xmm4, %xmm2            # xmm2 = xmm2[8],xmm4[8],xmm2[9],xmm4[9],xmm2[10],xmm4[10],xmm2[11],xmm4[11],xmm2[12],xmm4[12],xmm2[13],xmm4[13],xmm2[14],xmm4[14],xmm2[15],xmm4[15]
	movzbl	%r10b, %edi
	xorl	%ebx, %ebx
	popcntl	%edi, %ebx
	shll	$4, %edi
	movdqu	(%rdi,%rdx), %xmm1
	pshufb	%xmm1, %xmm0
	leaq	(%rbx,%rsi), %rdi
	addq	$4, %rdi
	shrl	$8, %r10d
	xorl	%ebx, %ebx
	popcntl	%r10d, %ebx
	shll	$4, %r10d
	movdqu	(%r10,%rdx), %xmm1
	pshufb	%xmm1, %xmm2
	movdqu	%xmm0, 4(%r11,%rsi)
	movdqu	%xmm2, 4(%r11,%rdi)
	leaq	(%rbx,%rdi), %r10
	addq	$8, %r10
	movl	$16, %edi
	movq	8(%r8), %rdx
	cmpq	%r10, %rdx
	jbe	.LBB56_17
.LBB56_16:                              # %join.3.i82
                                        #   in Loop: Header=BB56_6 Depth=1
	movq	%r10, 8(%r8)
	movq	%r10, %rdx
.LBB56_17:                              # %recoding_list_append_block_e3b2a9d4d2861db8_exit_i_289
                                        #   in Loop: Header=BB56_6 Depth=1
	movq	%rdx, %r10
	testq	%rdi, %rdi
	je	.LBB56_22
.LBB56_18:                              # %join.11.i
                                        #   in Loop: Header=BB56_6 Depth=1
	leaq	(%rax,%rdi,2), %rax
	movq	%r14, %r9
	subq	%rax, %r9
	cmpq	$31, %r9
	jbe	.LBB56_19
# %bb.5:                                # %then.3.i
                                        #   in Loop: Header=BB56_6 Depth=1
	movq	16(%r8), %rsi
	movq	%rsi, %rdx
	subq	%r10, %rdx
	cmpq	$64, %rdx
	jae	.LBB56_6
	jmp	.LBB56_22
.LBB56_13:                              #   in Loop: Header=BB56_6 Depth=1
	xorl	%edi, %edi
	movq	8(%r8), %rdx
	cmpq	%r10, %rdx
	ja	.LBB56_16
	jmp	.LBB56_17
.LBB56_1:
	xorl	%eax, %eax
	cmpq	$16, %r14
	jae	.LBB56_21
.LBB56_30:
	xorl	%edx, %edx
	jmp	.LBB56_29
.LBB56_3:
	xorl	%eax, %eax
.LBB56_21:
	movq	%r14, %r9
.LBB56_22:                              # %then.3.i8.lr.ph
	movq	%rax, (%rsp)                    # 8-byte Spill
	movq	8(%r8), %r10
	movq	16(%r8), %rax
	movq	%rax, %rsi
	subq	%r10, %rsi
	cmpq	$8, %rsi
	jb	.LBB56_23
# %bb.24:                               # %join.5.i12.preheader
	addq	(%rsp), %rcx                    # 8-byte Folded Reload
	addq	$-16, %r9
	addq	$-8, %rsi
	addq	$8, %r10
	xorl	%edx, %edx
	.p2align	4
.LBB56_25:                              # %join.5.i12
                                        # =>This Inner Loop Header: Depth=1
	movdqu	(%rcx,%rdx), %xmm0
	pshufb	.LCPI56_20(%rip), %xmm0         # xmm0 = xmm0[1,0,3,2,5,4,7,6,9,8,11,10,13,12,15,14]
	movdqa	.LCPI56_21(%rip), %xmm1         # xmm1 = [128,128,128,128,128,128,128,128]
	pmaxuw	%xmm0, %xmm1
	pcmpeqw	%xmm0, %xmm1
	pmovmskb	%xmm1, %edi
	testl	%edi, %edi
	jne	.LBB56_28
# %bb.26:                               # %arm.10.i
                                        #   in Loop: Header=BB56_25 Depth=1
	movzbl	1(%rcx,%rdx), %r13d
	movzbl	3(%rcx,%rdx), %edi
	movzbl	5(%rcx,%rdx), %ebp
	movzbl	9(%rcx,%rdx), %r12d
	movzbl	11(%rcx,%rdx), %r15d
	movzbl	13(%rcx,%rdx), %r14d
	movzbl	15(%rcx,%rdx), %ebx
	shlq	$56, %rbx
	shlq	$48, %r14
	shlq	$40, %r15
	shlq	$32, %r12
	movzbl	7(%rcx,%rdx), %r11d
	shll	$24, %r11d
	shll	$16, %ebp
	shll	$8, %edi
	orq	%r13, %rdi
	orq	%rbp, %rdi
	orq	%r11, %rdi
	orq	%r12, %rdi
	orq	%r15, %rdi
	orq	%r14, %rdi
	orq	%rbx, %rdi
	addq	$16, %rdx
	movq	(%r8), %r11
	movq	%rdi, -8(%r11,%r10)
	movq	%r11, (%r8)
	movq	%r10, 8(%r8)
	movq	%rax, 16(%r8)
	subq	$16, %r9
	jb	.LBB56_28
# %bb.27:                               # %arm.10.i
                                        #   in Loop: Header=BB56_25 Depth=1
	addq	$8, %r10
	cmpq	$7, %rsi
	leaq	-8(%rsi), %rsi
	ja	.LBB56_25
	jmp	.LBB56_28
.LBB56_23:
	xorl	%edx, %edx
.LBB56_28:
	movq	(%rsp), %rax                    # 8-byte Reload
.LBB56_29:                              # %recoding_kernels_narrow_ascii_f0e6fcfecd579859_exit_290
	addq	%rdx, %rax
	movaps	16(%rsp), %xmm6                 # 16-byte Reload
	movaps	32(%rsp), %xmm7                 # 16-byte Reload
	movaps	48(%rsp), %xmm8                 # 16-byte Reload
	movaps	64(%rsp), %xmm9                 # 16-byte Reload
	movaps	80(%rsp), %xmm10                # 16-byte Reload
	movaps	96(%rsp), %xmm11                # 16-byte Reload
	movaps	112(%rsp), %xmm12               # 16-byte Reload
	movaps	128(%rsp), %xmm13               # 16-byte Reload
	movaps	144(%rsp), %xmm14               # 16-byte Reload
	addq	$168, %rsp
	popq	%rbx
	popq	%rbp
	popq	%rdi
	popq	%rsi
	popq	%r12
	popq	%r13
	popq	%r14
	popq	%r15
	retq
.LBB56_19:
	movq	%r9, %r14
	cmpq	$16, %r14
	jb	.LBB56_30
	jmp	.LBB56_21
	.seh_endproc
                                        # -- End function
	.def	recoding_kernels_put_windows_2b5f88d210fed041_283;
	.scl	3;
	.type	32;
	.endef
	.section .rdata$n0,"dr"
	.p2align	4, 0x0                          # -- Begin function recoding::kernels::put_windows::<#2b5f88d210fed041>
.LCPI57_0:
	.short	255                             # 0xff
	.short	255                             # 0xff
	.short	255                             # 0xff
	.short	255                             # 0xff
	.short	255                             # 0xff
	.short	255                             # 0xff
	.short	255                             # 0xff
	.short	255                             # 0xff
.LCPI57_1:
	.byte	1                               # 0x1
	.byte	3                               # 0x3
	.byte	5                               # 0x5
	.byte	7                               # 0x7
	.byte	9                               # 0x9
	.byte	11                              # 0xb
	.byte	13                              # 0xd
	.byte	15                              # 0xf
	.zero	1
	.zero	1
	.zero	1
	.zero	1
	.zero	1
	.zero	1
	.zero	1
	.zero	1
.LCPI57_2:
	.zero	16,63
.LCPI57_3:
	.zero	16,54
.LCPI57_4:
	.byte	255                             # 0xff
	.byte	255                             # 0xff
	.byte	255                             # 0xff
	.byte	255                             # 0xff
	.byte	255                             # 0xff
	.byte	255                             # 0xff
	.byte	255                             # 0xff
	.byte	255                             # 0xff
	.byte	255                             # 0xff
	.byte	255                             # 0xff
	.byte	255                             # 0xff
	.byte	255                             # 0xff
	.byte	255                             # 0xff
	.byte	255                             # 0xff
	.byte	255                             # 0xff
	.byte	0                               # 0x0
.LCPI57_5:
	.zero	16,55
.LCPI57_6:
	.zero	16,253
.LCPI57_7:
	.zero	16,252
.LCPI57_8:
	.zero	16,216
.LCPI57_9:
	.byte	1                               # 0x1
	.byte	3                               # 0x3
	.byte	5                               # 0x5
	.byte	7                               # 0x7
	.byte	9                               # 0x9
	.byte	11                              # 0xb
	.byte	13                              # 0xd
	.byte	15                              # 0xf
	.byte	0                               # 0x0
	.byte	0                               # 0x0
	.byte	0                               # 0x0
	.byte	0                               # 0x0
	.byte	0                               # 0x0
	.byte	0                               # 0x0
	.byte	0                               # 0x0
	.byte	0                               # 0x0
	.section .text$n61,"xr"
	.p2align	4
recoding_kernels_put_windows_2b5f88d210fed041_283: # @recoding_kernels_put_windows_2b5f88d210fed041_283
.seh_proc recoding_kernels_put_windows_2b5f88d210fed041_283
# %bb.0:                                # %start
	pushq	%r15
	.seh_pushreg %r15
	pushq	%r14
	.seh_pushreg %r14
	pushq	%r13
	.seh_pushreg %r13
	pushq	%r12
	.seh_pushreg %r12
	pushq	%rsi
	.seh_pushreg %rsi
	pushq	%rdi
	.seh_pushreg %rdi
	pushq	%rbp
	.seh_pushreg %rbp
	pushq	%rbx
	.seh_pushreg %rbx
	subq	$216, %rsp
	.seh_stackalloc 216
	movdqa	%xmm10, 192(%rsp)               # 16-byte Spill
	.seh_savexmm %xmm10, 192
	movdqa	%xmm9, 176(%rsp)                # 16-byte Spill
	.seh_savexmm %xmm9, 176
	movdqa	%xmm8, 160(%rsp)                # 16-byte Spill
	.seh_savexmm %xmm8, 160
	movdqa	%xmm7, 144(%rsp)                # 16-byte Spill
	.seh_savexmm %xmm7, 144
	movdqa	%xmm6, 128(%rsp)                # 16-byte Spill
	.seh_savexmm %xmm6, 128
	.seh_endprologue
	movq	%r8, %rbx
	movq	%rdx, 56(%rsp)                  # 8-byte Spill
	movq	%rcx, %r15
	xorl	%esi, %esi
	xorl	%edi, %edi
	xorl	%r12d, %r12d
	.p2align	4
.LBB57_1:                               # %then.6
                                        # =>This Inner Loop Header: Depth=1
	movq	16(%rbx), %rax
	subq	8(%rbx), %rax
	cmpq	$112, %rax
	jb	.LBB57_4
# %bb.2:                                # %join.5
                                        #   in Loop: Header=BB57_1 Depth=1
	movdqu	(%r15,%rsi), %xmm6
	movdqu	16(%r15,%rsi), %xmm0
	movdqu	32(%r15,%rsi), %xmm5
	movdqu	48(%r15,%rsi), %xmm1
	movdqa	.LCPI57_0(%rip), %xmm3          # xmm3 = [255,255,255,255,255,255,255,255]
	movdqa	%xmm0, %xmm2
	pand	%xmm3, %xmm2
	movdqa	%xmm6, %xmm4
	pand	%xmm3, %xmm4
	packuswb	%xmm2, %xmm4
	movdqa	%xmm1, %xmm2
	pand	%xmm3, %xmm2
	pand	%xmm5, %xmm3
	packuswb	%xmm2, %xmm3
	movq	.LCPI57_9(%rip), %xmm2          # xmm2 = [1,3,5,7,9,11,13,15,0,0,0,0,0,0,0,0]
	pshufb	%xmm2, %xmm1
	pshufb	%xmm2, %xmm5
	punpcklqdq	%xmm1, %xmm5            # xmm5 = xmm5[0],xmm1[0]
	pshufb	%xmm2, %xmm0
	pshufb	%xmm2, %xmm6
	punpcklqdq	%xmm0, %xmm6            # xmm6 = xmm6[0],xmm0[0]
	movdqa	%xmm3, %xmm0
	psrlw	$2, %xmm0
	movdqa	.LCPI57_2(%rip), %xmm1          # xmm1 = [63,63,63,63,63,63,63,63,63,63,63,63,63,63,63,63]
	pand	%xmm1, %xmm0
	movdqa	%xmm4, %xmm7
	psrlw	$2, %xmm7
	pand	%xmm1, %xmm7
	movdqa	.LCPI57_3(%rip), %xmm1          # xmm1 = [54,54,54,54,54,54,54,54,54,54,54,54,54,54,54,54]
	movdqa	%xmm7, %xmm8
	pcmpeqb	%xmm1, %xmm8
	pcmpeqb	%xmm0, %xmm1
	movdqa	.LCPI57_4(%rip), %xmm9          # xmm9 = [255,255,255,255,255,255,255,255,255,255,255,255,255,255,255,0]
	pand	%xmm1, %xmm9
	movdqa	.LCPI57_5(%rip), %xmm2          # xmm2 = [55,55,55,55,55,55,55,55,55,55,55,55,55,55,55,55]
	pcmpeqb	%xmm2, %xmm0
	pcmpeqb	%xmm2, %xmm7
	palignr	$15, %xmm8, %xmm1               # xmm1 = xmm8[15],xmm1[0,1,2,3,4,5,6,7,8,9,10,11,12,13,14]
	movdqa	%xmm8, %xmm2
	pslldq	$1, %xmm2                       # xmm2 = zero,xmm2[0,1,2,3,4,5,6,7,8,9,10,11,12,13,14]
	pxor	%xmm7, %xmm2
	pxor	%xmm0, %xmm1
	movdqa	%xmm1, %xmm10
	palignr	$1, %xmm2, %xmm10               # xmm10 = xmm2[1,2,3,4,5,6,7,8,9,10,11,12,13,14,15],xmm10[0]
	pand	%xmm7, %xmm2
	palignr	$1, %xmm1, %xmm7                # xmm7 = xmm1[1,2,3,4,5,6,7,8,9,10,11,12,13,14,15],xmm7[0]
	pand	%xmm9, %xmm7
	pand	%xmm8, %xmm10
	pxor	%xmm9, %xmm9
	por	%xmm10, %xmm2
	pand	%xmm0, %xmm1
	por	%xmm7, %xmm1
	movdqa	.LCPI57_6(%rip), %xmm7          # xmm7 = [253,253,253,253,253,253,253,253,253,253,253,253,253,253,253,253]
	pcmpeqb	%xmm9, %xmm2
	movdqa	%xmm7, %xmm8
	movdqa	%xmm2, %xmm0
	pblendvb	%xmm0, %xmm6, %xmm8
	pcmpeqb	%xmm9, %xmm1
	movdqa	%xmm1, %xmm0
	pblendvb	%xmm0, %xmm5, %xmm7
	pcmpeqd	%xmm0, %xmm0
	pmovmskb	%xmm1, %ebp
	pxor	%xmm0, %xmm1
	por	%xmm3, %xmm1
	pxor	%xmm2, %xmm0
	pand	.LCPI57_7(%rip), %xmm3
	pcmpeqb	.LCPI57_8(%rip), %xmm3
	por	%xmm4, %xmm0
	pmovmskb	%xmm3, %eax
	xorl	%r13d, %r13d
	testw	%ax, %ax
	setns	%r13b
	leaq	31(%r13), %rax
	pmovmskb	%xmm2, %ecx
	xorl	$65535, %ecx                    # imm = 0xFFFF
	notl	%ebp
	shll	$16, %ebp
	orl	%ecx, %ebp
	popcntl	%ebp, %r14d
	movdqa	%xmm7, 96(%rsp)
	movdqa	%xmm8, 112(%rsp)
	movdqa	%xmm0, 80(%rsp)
	movdqa	%xmm1, 64(%rsp)
	movq	%rbx, 40(%rsp)
	movq	%rax, 32(%rsp)
	leaq	112(%rsp), %rcx
	leaq	96(%rsp), %rdx
	leaq	80(%rsp), %r8
	leaq	64(%rsp), %r9
	callq	recoding_list_append_text_units_e3b2a9d4d2861db8_246
	leaq	(%rsi,%r13,2), %rsi
	addq	$62, %rsi
	addq	%r14, %rdi
	movq	%r12, %rax
	incq	%rax
	xorl	%r12d, %r12d
	testl	%ebp, %ebp
	cmoveq	%rax, %r12
	cmpq	$8, %rdi
	movl	$8, %eax
	cmovbq	%rdi, %rax
	cmpq	%rax, %r12
	ja	.LBB57_4
# %bb.3:                                # %join.5
                                        #   in Loop: Header=BB57_1 Depth=1
	movq	56(%rsp), %rax                  # 8-byte Reload
	subq	%rsi, %rax
	cmpq	$63, %rax
	ja	.LBB57_1
.LBB57_4:                               # %after.1
	movq	%rsi, %rax
	movq	%rdi, %rdx
	movaps	128(%rsp), %xmm6                # 16-byte Reload
	movaps	144(%rsp), %xmm7                # 16-byte Reload
	movaps	160(%rsp), %xmm8                # 16-byte Reload
	movaps	176(%rsp), %xmm9                # 16-byte Reload
	movaps	192(%rsp), %xmm10               # 16-byte Reload
	addq	$216, %rsp
	popq	%rbx
	popq	%rbp
	popq	%rdi
	popq	%rsi
	popq	%r12
	popq	%r13
	popq	%r14
	popq	%r15
	retq
	.seh_endproc
                                        # -- End function
	.def	recoding_engine_recode_faults_e857034c7a7c407f_287;
	.scl	3;
	.type	32;
	.endef
	.section .text$n62,"xr"
	.p2align	4                               # -- Begin function recoding::engine::recode_faults::<#e857034c7a7c407f>
recoding_engine_recode_faults_e857034c7a7c407f_287: # @recoding_engine_recode_faults_e857034c7a7c407f_287
.seh_proc recoding_engine_recode_faults_e857034c7a7c407f_287
# %bb.0:                                # %start
	pushq	%r15
	.seh_pushreg %r15
	pushq	%r14
	.seh_pushreg %r14
	pushq	%r13
	.seh_pushreg %r13
	pushq	%r12
	.seh_pushreg %r12
	pushq	%rsi
	.seh_pushreg %rsi
	pushq	%rdi
	.seh_pushreg %rdi
	pushq	%rbp
	.seh_pushreg %rbp
	pushq	%rbx
	.seh_pushreg %rbx
	.seh_endprologue
	movq	104(%rsp), %r13
	cmpb	$2, (%rdx)
	sete	%r10b
	cmpq	$0, 16(%rdx)
	sete	%r12b
	andb	%r10b, %r12b
	movl	$16, %r11d
	xorl	%edi, %edi
	xorl	%r10d, %r10d
	jmp	.LBB58_1
	.p2align	4
.LBB58_13:                              # %recoding_text_Utf8Text_put_any_345d457c2768aa28_exit_143
                                        #   in Loop: Header=BB58_1 Depth=1
	incq	%r10
.LBB58_14:                              # %join.12
                                        #   in Loop: Header=BB58_1 Depth=1
	movl	$2, %edi
	addq	%rsi, %rdi
	cmpq	%r11, %rdi
	jae	.LBB58_16
.LBB58_1:                               # %join.5
                                        # =>This Inner Loop Header: Depth=1
	movq	%rdi, %rsi
	leaq	4(%rdi), %rbx
	cmpq	%r9, %rbx
	jbe	.LBB58_2
# %bb.6:                                # %join.3.i74
                                        #   in Loop: Header=BB58_1 Depth=1
	movq	%r9, %r14
	subq	%rsi, %r14
	cmpq	$2, %r14
	jb	.LBB58_10
# %bb.7:                                # %join.3.i.i
                                        #   in Loop: Header=BB58_1 Depth=1
	movzbl	(%r8,%rsi), %edi
	shll	$8, %edi
	movl	%edi, %ebp
	andl	$64512, %ebp                    # imm = 0xFC00
	cmpl	$56320, %ebp                    # imm = 0xDC00
	je	.LBB58_11
# %bb.8:                                # %join.3.i.i
                                        #   in Loop: Header=BB58_1 Depth=1
	movzbl	1(%r8,%rsi), %r15d
	orl	%r15d, %edi
	cmpl	$55296, %ebp                    # imm = 0xD800
	jne	.LBB58_18
# %bb.9:                                # %join.6.i.i
                                        #   in Loop: Header=BB58_1 Depth=1
	cmpq	$4, %r14
	jae	.LBB58_4
	jmp	.LBB58_10
	.p2align	4
.LBB58_2:                               # %then.1.i68
                                        #   in Loop: Header=BB58_1 Depth=1
	movzbl	(%r8,%rsi), %edi
	shll	$8, %edi
	movl	%edi, %ebp
	andl	$64512, %ebp                    # imm = 0xFC00
	cmpl	$56320, %ebp                    # imm = 0xDC00
	je	.LBB58_11
# %bb.3:                                # %then.1.i68
                                        #   in Loop: Header=BB58_1 Depth=1
	movzbl	1(%r8,%rsi), %r14d
	orl	%r14d, %edi
	cmpl	$55296, %ebp                    # imm = 0xD800
	jne	.LBB58_18
.LBB58_4:                               # %join.15.i74.i205.i
                                        #   in Loop: Header=BB58_1 Depth=1
	movzbl	2(%r8,%rsi), %r14d
	movl	%r14d, %ebp
	andl	$-4, %ebp
	cmpl	$220, %ebp
	jne	.LBB58_11
# %bb.5:                                # %arm.14.i200.i
                                        #   in Loop: Header=BB58_1 Depth=1
	movzbl	3(%r8,%rsi), %ebx
	andl	$1023, %edi                     # imm = 0x3FF
	shll	$10, %edi
	andl	$3, %r14d
	shll	$8, %r14d
	orl	%ebx, %r14d
	addl	%r14d, %edi
	addl	$65536, %edi                    # imm = 0x10000
	movl	%edi, %ebp
	shrl	$6, %ebp
	movl	%edi, %r14d
	shrl	$18, %r14d
	movl	%edi, %ebx
	shrl	$4, %ebx
	andl	$16128, %ebx                    # imm = 0x3F00
	orl	$32768, %ebx                    # imm = 0x8000
	orb	$-16, %r14b
	andb	$63, %bpl
	orb	$-128, %bpl
	andb	$63, %dil
	orb	$-128, %dil
	movq	(%r13), %r15
	movq	8(%r13), %rdx
	movb	%r14b, (%r15,%rdx)
	movq	(%r13), %rax
	movb	%bh, 1(%rax,%rdx)
	movq	(%r13), %rax
	movb	%bpl, 2(%rax,%rdx)
	movq	(%r13), %rax
	movb	%dil, 3(%rax,%rdx)
	addq	$4, %rdx
	movq	%rdx, 8(%r13)
	movl	$4, %edi
	addq	%rsi, %rdi
	cmpq	%r11, %rdi
	jb	.LBB58_1
	jmp	.LBB58_16
	.p2align	4
.LBB58_11:                              # %arm.11
                                        #   in Loop: Header=BB58_1 Depth=1
	cmpq	$32, %rbx
	movl	$32, %r11d
	cmovbq	%rbx, %r11
	testb	%r12b, %r12b
	jne	.LBB58_13
# %bb.12:                               # %then.7.i.i.i
                                        #   in Loop: Header=BB58_1 Depth=1
	movq	(%r13), %rax
	movq	8(%r13), %rdx
	movb	$-17, (%rax,%rdx)
	movq	(%r13), %rax
	movb	$-65, 1(%rax,%rdx)
	movq	(%r13), %rax
	movb	$-67, 2(%rax,%rdx)
	addq	$3, %rdx
	movq	%rdx, 8(%r13)
	jmp	.LBB58_13
	.p2align	4
.LBB58_18:                              # %arm.10
                                        #   in Loop: Header=BB58_1 Depth=1
	movzwl	%di, %ebp
	cmpl	$128, %ebp
	jae	.LBB58_19
# %bb.23:                               # %then.1.i
                                        #   in Loop: Header=BB58_1 Depth=1
	movq	(%r13), %rbx
	movq	8(%r13), %r14
	movb	%dil, (%rbx,%r14)
	incq	%r14
	movq	%r14, 8(%r13)
	jmp	.LBB58_14
.LBB58_19:                              # %join.3.i
                                        #   in Loop: Header=BB58_1 Depth=1
	movl	%ebp, %edi
	andl	$63, %edi
	orl	$128, %edi
	movl	%ebp, %ebx
	shrl	$6, %ebx
	cmpl	$2048, %ebp                     # imm = 0x800
	jae	.LBB58_22
# %bb.20:                               # %then.4.i
                                        #   in Loop: Header=BB58_1 Depth=1
	orb	$-64, %bl
	movq	(%r13), %r14
	movq	8(%r13), %r15
	movb	%bl, (%r14,%r15)
	movq	(%r13), %rbx
	movb	%dil, 1(%rbx,%r15)
	addq	$2, %r15
	movq	%r15, 8(%r13)
	jmp	.LBB58_14
.LBB58_22:                              # %then.7.i
                                        #   in Loop: Header=BB58_1 Depth=1
	shrl	$12, %ebp
	orb	$-32, %bpl
	andb	$63, %bl
	orb	$-128, %bl
	movq	(%r13), %r14
	movq	8(%r13), %r15
	movb	%bpl, (%r14,%r15)
	movq	(%r13), %r14
	movb	%bl, 1(%r14,%r15)
	movq	(%r13), %rbx
	movb	%dil, 2(%rbx,%r15)
	addq	$3, %r15
	movq	%r15, 8(%r13)
	jmp	.LBB58_14
.LBB58_16:                              # %after.1
	movq	%rdi, (%rcx)
	movq	%r10, 8(%rcx)
	movq	$0, 16(%rcx)
	jmp	.LBB58_17
.LBB58_10:                              # %arm.7
	movq	%rsi, (%rcx)
	movq	%r10, 8(%rcx)
	movw	$256, 16(%rcx)                  # imm = 0x100
	movl	$0, 18(%rcx)
	movw	$0, 22(%rcx)
.LBB58_17:                              # %after.1
	popq	%rbx
	popq	%rbp
	popq	%rdi
	popq	%rsi
	popq	%r12
	popq	%r13
	popq	%r14
	popq	%r15
	retq
	.seh_endproc
                                        # -- End function
	.def	recoding_recoder_runs_run_whole_e742a82e1969306f_37;
	.scl	3;
	.type	32;
	.endef
	.section .text$n63,"xr"
	.p2align	4                               # -- Begin function recoding::recoder_runs::run_whole::<#e742a82e1969306f>
recoding_recoder_runs_run_whole_e742a82e1969306f_37: # @recoding_recoder_runs_run_whole_e742a82e1969306f_37
.seh_proc recoding_recoder_runs_run_whole_e742a82e1969306f_37
# %bb.0:                                # %start
	pushq	%r15
	.seh_pushreg %r15
	pushq	%r14
	.seh_pushreg %r14
	pushq	%r12
	.seh_pushreg %r12
	pushq	%rsi
	.seh_pushreg %rsi
	pushq	%rdi
	.seh_pushreg %rdi
	pushq	%rbp
	.seh_pushreg %rbp
	pushq	%rbx
	.seh_pushreg %rbx
	subq	$128, %rsp
	.seh_stackalloc 128
	.seh_endprologue
	movq	%r8, %r14
	movq	%rdx, %rbx
	movq	%rcx, %r15
	xorl	%esi, %esi
	xorl	%edi, %edi
	jmp	.LBB59_2
.LBB59_1:                               # %recoding_kernels_put_damaged_units_25a6102eeaa0b05f_exit_291
                                        #   in Loop: Header=BB59_2 Depth=1
	leaq	(%r15,%rdi), %rcx
	movq	%r14, %r8
	callq	recoding_kernels_put_windows_25a6102eeaa0b05f_292
	addq	%rax, %rdi
	addq	%rdx, %rsi
	testq	%rax, %rax
	je	.LBB59_6
	.p2align	4
.LBB59_2:                               # %loop.2.i
                                        # =>This Loop Header: Depth=1
                                        #     Child Loop BB59_11 Depth 2
	movq	%rbx, %rdx
	subq	%rdi, %rdx
	cmpq	$16, %rdx
	jb	.LBB59_4
# %bb.3:                                # %recoding_kernels_TurnedKernelUtf16Utf16_put_text_bdf9a2505b291bb3_exit_293
                                        #   in Loop: Header=BB59_2 Depth=1
	leaq	(%r15,%rdi), %rcx
	movq	%r14, %r8
	callq	recoding_turned_copy_units_7337b1eebc07c9e6_294
	addq	%rax, %rdi
	cmpq	$8187, %rax                     # imm = 0x1FFB
	ja	.LBB59_2
.LBB59_4:                               # %join.5.i
                                        #   in Loop: Header=BB59_2 Depth=1
	movq	%rbx, %rdx
	subq	%rdi, %rdx
	je	.LBB59_21
# %bb.5:                                # %join.8.i
                                        #   in Loop: Header=BB59_2 Depth=1
	cmpq	$64, %rdx
	jae	.LBB59_1
	jmp	.LBB59_7
.LBB59_6:                               # %recoding_kernels_put_damaged_units_25a6102eeaa0b05f_exit_join_14_i_crit_edge_295
                                        #   in Loop: Header=BB59_2 Depth=1
	movq	%rbx, %rdx
	subq	%rdi, %rdx
.LBB59_7:                               # %join.14.i
                                        #   in Loop: Header=BB59_2 Depth=1
	cmpq	$128, %rdx
	movl	$128, %ecx
	cmovbq	%rdx, %rcx
	cmpq	$2, %rdx
	jb	.LBB59_17
# %bb.8:                                # %join.5.i39.preheader
                                        #   in Loop: Header=BB59_2 Depth=1
	leaq	(%r15,%rdi), %rdx
	xorl	%eax, %eax
	movq	%rcx, %r10
	jmp	.LBB59_11
	.p2align	4
.LBB59_9:                               # %arm.7.i
                                        #   in Loop: Header=BB59_11 Depth=2
	movzbl	3(%rdx,%rax), %ebp
	andb	$3, %r8b
	orb	$-40, %r8b
	movq	(%r14), %r12
	movq	8(%r14), %r10
	movb	%r9b, (%r12,%r10)
	movq	(%r14), %r9
	movb	%r8b, 1(%r9,%r10)
	movq	(%r14), %r8
	movb	%bpl, 2(%r8,%r10)
	movq	(%r14), %r8
	movb	%r11b, 3(%r8,%r10)
	addq	$4, %r10
	movl	$4, %r8d
.LBB59_10:                              # %recoding_text_Utf16Text_put_code_ec2bf5654938c731_exit_i_161
                                        #   in Loop: Header=BB59_11 Depth=2
	movq	%r10, 8(%r14)
	addq	%r8, %rax
	movq	%rcx, %r10
	subq	%rax, %r10
	cmpq	$1, %r10
	jbe	.LBB59_16
.LBB59_11:                              # %join.5.i39
                                        #   Parent Loop BB59_2 Depth=1
                                        # =>  This Inner Loop Header: Depth=2
	movzbl	(%rdx,%rax), %r8d
	movzbl	1(%rdx,%rax), %r9d
	movl	%r8d, %r11d
	shll	$8, %r11d
	andl	$64512, %r11d                   # imm = 0xFC00
	cmpl	$55296, %r11d                   # imm = 0xD800
	je	.LBB59_14
# %bb.12:                               # %join.5.i39
                                        #   in Loop: Header=BB59_11 Depth=2
	cmpl	$56320, %r11d                   # imm = 0xDC00
	je	.LBB59_16
# %bb.13:                               # %arm.7.i.thread
                                        #   in Loop: Header=BB59_11 Depth=2
	movq	(%r14), %r11
	movq	8(%r14), %r10
	movb	%r9b, (%r11,%r10)
	movq	(%r14), %r9
	movb	%r8b, 1(%r9,%r10)
	addq	$2, %r10
	movl	$2, %r8d
	jmp	.LBB59_10
	.p2align	4
.LBB59_14:                              # %join.6.i.i
                                        #   in Loop: Header=BB59_11 Depth=2
	cmpq	$4, %r10
	jb	.LBB59_16
# %bb.15:                               # %join.15.i65.i.i
                                        #   in Loop: Header=BB59_11 Depth=2
	movzbl	2(%rdx,%rax), %r11d
	movl	%r11d, %r10d
	andb	$-4, %r10b
	cmpb	$-36, %r10b
	je	.LBB59_9
.LBB59_16:                              # %recoding_engine_recode_text_6c1029a9c4924fe6_exit_296
                                        #   in Loop: Header=BB59_2 Depth=1
	addq	%rax, %rdi
	cmpq	$124, %rax
	ja	.LBB59_2
.LBB59_17:                              # %then.15.i
                                        #   in Loop: Header=BB59_2 Depth=1
	movq	%rbx, %r9
	subq	%rdi, %r9
	je	.LBB59_21
# %bb.18:                               # %join.20.i
                                        #   in Loop: Header=BB59_2 Depth=1
	leaq	(%r15,%rdi), %r8
	xorps	%xmm0, %xmm0
	movaps	%xmm0, 48(%rsp)
	movq	$0, 64(%rsp)
	movaps	%xmm0, 80(%rsp)
	movaps	%xmm0, 96(%rsp)
	movq	$0, 112(%rsp)
	movq	%r14, 32(%rsp)
	leaq	48(%rsp), %rcx
	leaq	80(%rsp), %rdx
	callq	recoding_engine_recode_faults_dcf09f3d7e931f6a_297
	addq	48(%rsp), %rdi
	addq	56(%rsp), %rsi
	testb	$1, 64(%rsp)
	jne	.LBB59_22
# %bb.19:                               # %join.20.i
                                        #   in Loop: Header=BB59_2 Depth=1
	testb	$1, 65(%rsp)
	je	.LBB59_2
	jmp	.LBB59_22
.LBB59_21:
	movq	%rbx, %rdi
.LBB59_22:                              # %recoding_engine_run_f92d4f60eb9211f4_exit_298
	movq	%rdi, %rax
	movq	%rsi, %rdx
	addq	$128, %rsp
	popq	%rbx
	popq	%rbp
	popq	%rdi
	popq	%rsi
	popq	%r12
	popq	%r14
	popq	%r15
	retq
	.seh_endproc
                                        # -- End function
	.def	recoding_turned_copy_units_7337b1eebc07c9e6_294;
	.scl	3;
	.type	32;
	.endef
	.section .rdata$n0,"dr"
	.p2align	4, 0x0                          # -- Begin function recoding::turned::copy_units::<#7337b1eebc07c9e6>
.LCPI60_0:
	.byte	252                             # 0xfc
	.byte	0                               # 0x0
	.byte	252                             # 0xfc
	.byte	0                               # 0x0
	.byte	252                             # 0xfc
	.byte	0                               # 0x0
	.byte	252                             # 0xfc
	.byte	0                               # 0x0
	.byte	252                             # 0xfc
	.byte	0                               # 0x0
	.byte	252                             # 0xfc
	.byte	0                               # 0x0
	.byte	252                             # 0xfc
	.byte	0                               # 0x0
	.byte	252                             # 0xfc
	.byte	0                               # 0x0
.LCPI60_1:
	.zero	16,220
.LCPI60_2:
	.zero	16,216
.LCPI60_3:
	.byte	1                               # 0x1
	.byte	0                               # 0x0
	.byte	3                               # 0x3
	.byte	2                               # 0x2
	.byte	5                               # 0x5
	.byte	4                               # 0x4
	.byte	7                               # 0x7
	.byte	6                               # 0x6
	.byte	9                               # 0x9
	.byte	8                               # 0x8
	.byte	11                              # 0xb
	.byte	10                              # 0xa
	.byte	13                              # 0xd
	.byte	12                              # 0xc
	.byte	15                              # 0xf
	.byte	14                              # 0xe
	.section .text$n64,"xr"
	.p2align	4
recoding_turned_copy_units_7337b1eebc07c9e6_294: # @recoding_turned_copy_units_7337b1eebc07c9e6_294
.seh_proc recoding_turned_copy_units_7337b1eebc07c9e6_294
# %bb.0:                                # %start
	pushq	%r15
	.seh_pushreg %r15
	pushq	%r14
	.seh_pushreg %r14
	pushq	%r12
	.seh_pushreg %r12
	pushq	%rsi
	.seh_pushreg %rsi
	pushq	%rdi
	.seh_pushreg %rdi
	pushq	%rbx
	.seh_pushreg %rbx
	subq	$152, %rsp
	.seh_stackalloc 152
	movdqa	%xmm6, 128(%rsp)                # 16-byte Spill
	.seh_savexmm %xmm6, 128
	.seh_endprologue
	movq	%r8, %rsi
	movq	%rcx, %rbx
	movw	$0, 96(%rsp)
	movdqu	(%rcx), %xmm1
	movdqu	%xmm1, 98(%rsp)
	movdqa	.LCPI60_0(%rip), %xmm0          # xmm0 = [252,0,252,0,252,0,252,0,252,0,252,0,252,0,252,0]
	pand	%xmm0, %xmm1
	pcmpeqb	.LCPI60_1(%rip), %xmm1
	movdqa	96(%rsp), %xmm2
	pand	%xmm0, %xmm2
	pcmpeqb	.LCPI60_2(%rip), %xmm2
	pxor	%xmm1, %xmm2
	pmovmskb	%xmm2, %eax
	testl	%eax, %eax
	je	.LBB60_3
# %bb.1:
	rep		bsfl	%eax, %edi
	shrl	%edi
	testq	%rdi, %rdi
	jne	.LBB60_13
	jmp	.LBB60_2
.LBB60_3:                               # %loop.2.i.preheader.i
	movl	$8, %edi
	cmpq	$80, %rdx
	jb	.LBB60_8
# %bb.4:                                # %join.5.i.i.preheader
	leaq	-16(%rdx), %rax
	movl	$32, %edi
	.p2align	4
.LBB60_5:                               # %join.5.i.i
                                        # =>This Inner Loop Header: Depth=1
	movdqu	-50(%rbx,%rdi,2), %xmm4
	movdqu	-48(%rbx,%rdi,2), %xmm5
	movdqu	-34(%rbx,%rdi,2), %xmm1
	movdqu	-32(%rbx,%rdi,2), %xmm6
	pand	%xmm0, %xmm5
	movdqa	.LCPI60_1(%rip), %xmm2          # xmm2 = [220,220,220,220,220,220,220,220,220,220,220,220,220,220,220,220]
	pcmpeqb	%xmm2, %xmm5
	pand	%xmm0, %xmm4
	movdqa	.LCPI60_2(%rip), %xmm3          # xmm3 = [216,216,216,216,216,216,216,216,216,216,216,216,216,216,216,216]
	pcmpeqb	%xmm3, %xmm4
	pxor	%xmm5, %xmm4
	pand	%xmm0, %xmm6
	pcmpeqb	%xmm2, %xmm6
	pand	%xmm0, %xmm1
	pcmpeqb	%xmm3, %xmm1
	pxor	%xmm6, %xmm1
	por	%xmm4, %xmm1
	movdqu	-16(%rbx,%rdi,2), %xmm4
	movdqu	-18(%rbx,%rdi,2), %xmm5
	pand	%xmm0, %xmm4
	pcmpeqb	%xmm2, %xmm4
	pand	%xmm0, %xmm5
	pcmpeqb	%xmm3, %xmm5
	pxor	%xmm4, %xmm5
	movdqu	(%rbx,%rdi,2), %xmm4
	movdqu	-2(%rbx,%rdi,2), %xmm6
	pand	%xmm0, %xmm4
	pcmpeqb	%xmm2, %xmm4
	pand	%xmm0, %xmm6
	pcmpeqb	%xmm3, %xmm6
	pxor	%xmm4, %xmm6
	por	%xmm5, %xmm6
	por	%xmm1, %xmm6
	pmovmskb	%xmm6, %ecx
	testl	%ecx, %ecx
	jne	.LBB60_7
# %bb.6:                                # %join.8.i.i
                                        #   in Loop: Header=BB60_5 Depth=1
	addq	$32, %rdi
	addq	$-64, %rax
	cmpq	$63, %rax
	ja	.LBB60_5
.LBB60_7:                               # %join_5_i_i_utf_lanes_unit_blocks_paired_wide_22d4087b0bf99cde_exit_i_loopexit_crit_edge_299
	addq	$-24, %rdi
.LBB60_8:                               # %utf_lanes_unit_blocks_paired_wide_22d4087b0bf99cde_exit_i_300
	shrq	%rdx
	cmpq	%rdx, %rdi
	jae	.LBB60_13
# %bb.9:                                # %join.5.i51.lr.ph.i
	leaq	-8(%rdx), %rax
	.p2align	4
.LBB60_10:                              # %join.5.i51.i
                                        # =>This Inner Loop Header: Depth=1
	cmpq	%rdi, %rax
	cmovbq	%rax, %rdi
	movdqu	-2(%rbx,%rdi,2), %xmm1
	movdqu	(%rbx,%rdi,2), %xmm2
	pand	%xmm0, %xmm2
	pcmpeqb	.LCPI60_1(%rip), %xmm2
	pand	%xmm0, %xmm1
	pcmpeqb	.LCPI60_2(%rip), %xmm1
	pxor	%xmm2, %xmm1
	pmovmskb	%xmm1, %ecx
	rep		bsfl	%ecx, %r8d
	shrl	%r8d
	testl	%ecx, %ecx
	movl	$8, %ecx
	cmovnel	%r8d, %ecx
	cmpw	$7, %cx
	jbe	.LBB60_12
# %bb.11:                               # %join.8.i75.i
                                        #   in Loop: Header=BB60_10 Depth=1
	addq	$8, %rdi
	cmpq	%rdx, %rdi
	jb	.LBB60_10
	jmp	.LBB60_13
.LBB60_12:                              # %then.6.i.i
	movzwl	%cx, %eax
	addq	%rax, %rdi
	testq	%rdi, %rdi
	je	.LBB60_2
.LBB60_13:                              # %utf_lanes_unit_blocks_units_len_22d4087b0bf99cde_exit_301
	movzbl	-2(%rbx,%rdi,2), %eax
	andb	$-4, %al
	xorl	%ecx, %ecx
	cmpb	$-40, %al
	sete	%cl
	subq	%rcx, %rdi
	addq	%rdi, %rdi
	je	.LBB60_2
# %bb.14:                               # %join.3
	cmpq	$16, %rdi
	jae	.LBB60_21
# %bb.15:                               # %loop.2.i.preheader
	movq	8(%rsi), %rax
	movq	%rdi, %rdx
	addq	$-2, %rdx
	je	.LBB60_39
# %bb.16:                               # %loop.2.i.preheader.new
	shrq	%rdx
	incq	%rdx
	movq	%rdx, %r8
	andq	$-2, %r8
	xorl	%ecx, %ecx
	.p2align	4
.LBB60_17:                              # %join.5.i
                                        # =>This Inner Loop Header: Depth=1
	movzbl	(%rbx,%rcx), %r9d
	movzbl	1(%rbx,%rcx), %r10d
	movq	(%rsi), %r11
	leaq	(%rax,%rcx), %r14
	movb	%r10b, (%r11,%r14)
	movq	(%rsi), %r10
	movb	%r9b, 1(%r10,%r14)
	leaq	2(%rax,%rcx), %r9
	movq	%r9, 8(%rsi)
	movzbl	2(%rbx,%rcx), %r9d
	movzbl	3(%rbx,%rcx), %r10d
	movq	(%rsi), %r11
	movb	%r10b, 2(%r11,%r14)
	movq	(%rsi), %r10
	movb	%r9b, 3(%r10,%r14)
	leaq	(%rax,%rcx), %r9
	addq	$4, %r9
	movq	%r9, 8(%rsi)
	addq	$4, %rcx
	addq	$-2, %r8
	jne	.LBB60_17
# %bb.18:                               # %common.ret.loopexit.unr-lcssa
	testb	$1, %dl
	je	.LBB60_41
# %bb.19:
	addq	%rcx, %rax
	jmp	.LBB60_40
.LBB60_2:
	xorl	%edi, %edi
	jmp	.LBB60_41
.LBB60_21:                              # %loop.2.i5.preheader
	movq	%rbx, %r15
	movq	%rdi, %r14
	cmpq	$64, %rdi
	jb	.LBB60_34
# %bb.22:                               # %join.5.i9.lr.ph
	leaq	8(%rsi), %r12
	movq	%rdi, %r14
	movq	%rbx, %r15
	.p2align	4
.LBB60_23:                              # %join.5.i9
                                        # =>This Inner Loop Header: Depth=1
	movdqu	(%r15), %xmm0
	movdqu	16(%r15), %xmm1
	movdqu	32(%r15), %xmm2
	movdqu	48(%r15), %xmm3
	movdqa	.LCPI60_3(%rip), %xmm4          # xmm4 = [1,0,3,2,5,4,7,6,9,8,11,10,13,12,15,14]
	pshufb	%xmm4, %xmm0
	movdqa	%xmm0, 32(%rsp)
	pshufb	%xmm4, %xmm1
	movdqa	%xmm1, 48(%rsp)
	pshufb	%xmm4, %xmm2
	movdqa	%xmm2, 64(%rsp)
	pshufb	%xmm4, %xmm3
	movdqa	%xmm3, 80(%rsp)
	movq	8(%rsi), %rax
	movq	16(%rsi), %rcx
	movq	%rcx, %rdx
	subq	%rax, %rdx
	cmpq	$63, %rdx
	jbe	.LBB60_29
.LBB60_24:                              # %join.3.i76
                                        #   in Loop: Header=BB60_23 Depth=1
	movq	(%rsi), %rdx
	pxor	%xmm0, %xmm0
	movdqu	%xmm0, (%r12)
	leaq	(%rdx,%rax), %r8
	leaq	32(%rsp), %r9
	movq	%r8, %r10
	subq	%r9, %r10
	cmpq	$63, %r10
	ja	.LBB60_26
# %bb.25:                               # %join.7.i.i.i.preheader
                                        #   in Loop: Header=BB60_23 Depth=1
	movzbl	32(%rsp), %r9d
	movb	%r9b, (%r8)
	movzbl	33(%rsp), %r9d
	movb	%r9b, 1(%r8)
	movzbl	34(%rsp), %r9d
	movb	%r9b, 2(%r8)
	movzbl	35(%rsp), %r9d
	movb	%r9b, 3(%r8)
	movzbl	36(%rsp), %r9d
	movb	%r9b, 4(%r8)
	movzbl	37(%rsp), %r9d
	movb	%r9b, 5(%r8)
	movzbl	38(%rsp), %r9d
	movb	%r9b, 6(%r8)
	movzbl	39(%rsp), %r9d
	movb	%r9b, 7(%r8)
	movzbl	40(%rsp), %r9d
	movb	%r9b, 8(%r8)
	movzbl	41(%rsp), %r9d
	movb	%r9b, 9(%r8)
	movzbl	42(%rsp), %r9d
	movb	%r9b, 10(%r8)
	movzbl	43(%rsp), %r9d
	movb	%r9b, 11(%r8)
	movzbl	44(%rsp), %r9d
	movb	%r9b, 12(%r8)
	movzbl	45(%rsp), %r9d
	movb	%r9b, 13(%r8)
	movzbl	46(%rsp), %r9d
	movb	%r9b, 14(%r8)
	movzbl	47(%rsp), %r9d
	movb	%r9b, 15(%r8)
	movzbl	48(%rsp), %r9d
	movb	%r9b, 16(%r8)
	movzbl	49(%rsp), %r9d
	movb	%r9b, 17(%r8)
	movzbl	50(%rsp), %r9d
	movb	%r9b, 18(%r8)
	movzbl	51(%rsp), %r9d
	movb	%r9b, 19(%r8)
	movzbl	52(%rsp), %r9d
	movb	%r9b, 20(%r8)
	movzbl	53(%rsp), %r9d
	movb	%r9b, 21(%r8)
	movzbl	54(%rsp), %r9d
	movb	%r9b, 22(%r8)
	movzbl	55(%rsp), %r9d
	movb	%r9b, 23(%r8)
	movzbl	56(%rsp), %r9d
	movb	%r9b, 24(%r8)
	movzbl	57(%rsp), %r9d
	movb	%r9b, 25(%r8)
	movzbl	58(%rsp), %r9d
	movb	%r9b, 26(%r8)
	movzbl	59(%rsp), %r9d
	movb	%r9b, 27(%r8)
	movzbl	60(%rsp), %r9d
	movb	%r9b, 28(%r8)
	movzbl	61(%rsp), %r9d
	movb	%r9b, 29(%r8)
	movzbl	62(%rsp), %r9d
	movb	%r9b, 30(%r8)
	movzbl	63(%rsp), %r9d
	movb	%r9b, 31(%r8)
	movzbl	64(%rsp), %r9d
	movb	%r9b, 32(%r8)
	movzbl	65(%rsp), %r9d
	movb	%r9b, 33(%r8)
	movzbl	66(%rsp), %r9d
	movb	%r9b, 34(%r8)
	movzbl	67(%rsp), %r9d
	movb	%r9b, 35(%r8)
	movzbl	68(%rsp), %r9d
	movb	%r9b, 36(%r8)
	movzbl	69(%rsp), %r9d
	movb	%r9b, 37(%r8)
	movzbl	70(%rsp), %r9d
	movb	%r9b, 38(%r8)
	movzbl	71(%rsp), %r9d
	movb	%r9b, 39(%r8)
	movzbl	72(%rsp), %r9d
	movb	%r9b, 40(%r8)
	movzbl	73(%rsp), %r9d
	movb	%r9b, 41(%r8)
	movzbl	74(%rsp), %r9d
	movb	%r9b, 42(%r8)
	movzbl	75(%rsp), %r9d
	movb	%r9b, 43(%r8)
	movzbl	76(%rsp), %r9d
	movb	%r9b, 44(%r8)
	movzbl	77(%rsp), %r9d
	movb	%r9b, 45(%r8)
	movzbl	78(%rsp), %r9d
	movb	%r9b, 46(%r8)
	movzbl	79(%rsp), %r9d
	movb	%r9b, 47(%r8)
	movzbl	80(%rsp), %r9d
	movb	%r9b, 48(%r8)
	movzbl	81(%rsp), %r9d
	movb	%r9b, 49(%r8)
	movzbl	82(%rsp), %r9d
	movb	%r9b, 50(%r8)
	movzbl	83(%rsp), %r9d
	movb	%r9b, 51(%r8)
	movzbl	84(%rsp), %r9d
	movb	%r9b, 52(%r8)
	movzbl	85(%rsp), %r9d
	movb	%r9b, 53(%r8)
	movzbl	86(%rsp), %r9d
	movb	%r9b, 54(%r8)
	movzbl	87(%rsp), %r9d
	movb	%r9b, 55(%r8)
	movzbl	88(%rsp), %r9d
	movb	%r9b, 56(%r8)
	movzbl	89(%rsp), %r9d
	movb	%r9b, 57(%r8)
	movzbl	90(%rsp), %r9d
	movb	%r9b, 58(%r8)
	movzbl	91(%rsp), %r9d
	movb	%r9b, 59(%r8)
	movzbl	92(%rsp), %r9d
	movb	%r9b, 60(%r8)
	movzbl	93(%rsp), %r9d
	movb	%r9b, 61(%r8)
	movzbl	94(%rsp), %r9d
	movb	%r9b, 62(%r8)
	movzbl	95(%rsp), %r9d
	movb	%r9b, 63(%r8)
	jmp	.LBB60_27
	.p2align	4
.LBB60_26:                              # %apart.2.i.i.i
                                        #   in Loop: Header=BB60_23 Depth=1
	movdqa	32(%rsp), %xmm0
	movdqa	48(%rsp), %xmm1
	movdqa	64(%rsp), %xmm2
	movdqa	80(%rsp), %xmm3
	movdqu	%xmm3, 48(%r8)
	movdqu	%xmm2, 32(%r8)
	movdqu	%xmm1, 16(%r8)
	movdqu	%xmm0, (%r8)
.LBB60_27:                              # %core_slots_Slots_copy_in_i8_20_core_clone_U8Clone_exit_i_112
                                        #   in Loop: Header=BB60_23 Depth=1
	addq	$64, %rax
	movq	%rdx, (%rsi)
	movq	%rax, 8(%rsi)
	movq	%rcx, 16(%rsi)
.LBB60_28:                              # %std_alloc_vec_Vec_extend_from_slice_0cd040e5c49bc722_exit_129
                                        #   in Loop: Header=BB60_23 Depth=1
	addq	$64, %r15
	addq	$-64, %r14
	cmpq	$63, %r14
	ja	.LBB60_23
	jmp	.LBB60_31
.LBB60_29:                              # %std_alloc_vec_Vec_grow_5fdc5e19576447a7_exit_i_76
                                        #   in Loop: Header=BB60_23 Depth=1
	movl	$64, %edx
	movq	%rsi, %rcx
	callq	std_alloc_vec_Vec_grow_amortized_5fdc5e19576447a7_3
	testb	%al, %al
	je	.LBB60_28
# %bb.30:                               # %std_alloc_vec_Vec_grow_5fdc5e19576447a7_exit_join_3_crit_edge_i_115
                                        #   in Loop: Header=BB60_23 Depth=1
	movq	8(%rsi), %rax
	movq	16(%rsi), %rcx
	jmp	.LBB60_24
.LBB60_31:                              # %recoding_turned_put_blocks_d5cbf36e45a151c2_exit_274
	cmpq	$16, %r14
	jb	.LBB60_37
	jmp	.LBB60_34
.LBB60_32:                              # %std_alloc_vec_Vec_grow_5fdc5e19576447a7_exit_i106_275
                                        #   in Loop: Header=BB60_34 Depth=1
	movl	$16, %edx
	movq	%rsi, %rcx
	callq	std_alloc_vec_Vec_grow_amortized_5fdc5e19576447a7_3
	testb	%al, %al
	je	.LBB60_36
# %bb.33:                               # %std_alloc_vec_Vec_grow_5fdc5e19576447a7_exit_join_3_crit_edge_i108_276
                                        #   in Loop: Header=BB60_34 Depth=1
	movq	8(%rsi), %rax
	movq	16(%rsi), %rcx
	jmp	.LBB60_35
	.p2align	4
.LBB60_34:                              # %join.5.i21
                                        # =>This Inner Loop Header: Depth=1
	movdqu	(%r15), %xmm6
	movq	8(%rsi), %rax
	movq	16(%rsi), %rcx
	movq	%rcx, %rdx
	subq	%rax, %rdx
	cmpq	$15, %rdx
	jbe	.LBB60_32
.LBB60_35:                              # %join.3.i86
                                        #   in Loop: Header=BB60_34 Depth=1
	pshufb	.LCPI60_3(%rip), %xmm6          # xmm6 = xmm6[1,0,3,2,5,4,7,6,9,8,11,10,13,12,15,14]
	movq	(%rsi), %rdx
	movdqu	%xmm6, (%rdx,%rax)
	addq	$16, %rax
	movq	%rdx, (%rsi)
	movq	%rax, 8(%rsi)
	movq	%rcx, 16(%rsi)
.LBB60_36:                              # %std_alloc_vec_Vec_extend_from_slice_0cd040e5c49bc722_exit111_277
                                        #   in Loop: Header=BB60_34 Depth=1
	addq	$-16, %r14
	addq	$16, %r15
	cmpq	$15, %r14
	ja	.LBB60_34
.LBB60_37:                              # %recoding_turned_put_blocks_efb3fef4d0ff1bf7_exit_278
	movdqu	-16(%rbx,%rdi), %xmm0
	pshufb	.LCPI60_3(%rip), %xmm0          # xmm0 = xmm0[1,0,3,2,5,4,7,6,9,8,11,10,13,12,15,14]
	movdqa	%xmm0, 32(%rsp)
	movq	8(%rsi), %rbx
	movq	16(%rsi), %r15
	movq	%r15, %rax
	subq	%rbx, %rax
	cmpq	%rax, %r14
	ja	.LBB60_42
.LBB60_38:                              # %join.3.i116
	leaq	32(%rsp), %rdx
	subq	%r14, %rdx
	addq	$16, %rdx
	movq	(%rsi), %r12
	leaq	(%r12,%rbx), %rcx
	addq	%r14, %rbx
	movq	%r14, %r8
	callq	memcpy
	movq	%r12, (%rsi)
	movq	%rbx, 8(%rsi)
	movq	%r15, 16(%rsi)
	jmp	.LBB60_41
.LBB60_39:
	xorl	%ecx, %ecx
.LBB60_40:                              # %join.5.i.epil.preheader
	movzbl	(%rbx,%rcx), %edx
	movzbl	1(%rbx,%rcx), %ecx
	movq	(%rsi), %r8
	movb	%cl, (%r8,%rax)
	movq	(%rsi), %rcx
	movb	%dl, 1(%rcx,%rax)
	addq	$2, %rax
	movq	%rax, 8(%rsi)
.LBB60_41:                              # %common.ret
	movq	%rdi, %rax
	movaps	128(%rsp), %xmm6                # 16-byte Reload
	addq	$152, %rsp
	popq	%rbx
	popq	%rdi
	popq	%rsi
	popq	%r12
	popq	%r14
	popq	%r15
	retq
.LBB60_42:                              # %std_alloc_vec_Vec_grow_5fdc5e19576447a7_exit_i136_279
	movq	%rsi, %rcx
	movq	%r14, %rdx
	callq	std_alloc_vec_Vec_grow_amortized_5fdc5e19576447a7_3
	testb	%al, %al
	je	.LBB60_41
# %bb.43:                               # %std_alloc_vec_Vec_grow_5fdc5e19576447a7_exit_join_3_crit_edge_i138_280
	movq	8(%rsi), %rbx
	movq	16(%rsi), %r15
	jmp	.LBB60_38
	.seh_endproc
                                        # -- End function
	.def	recoding_kernels_put_windows_25a6102eeaa0b05f_292;
	.scl	3;
	.type	32;
	.endef
	.section .rdata$n0,"dr"
	.p2align	4, 0x0                          # -- Begin function recoding::kernels::put_windows::<#25a6102eeaa0b05f>
.LCPI61_0:
	.short	255                             # 0xff
	.short	255                             # 0xff
	.short	255                             # 0xff
	.short	255                             # 0xff
	.short	255                             # 0xff
	.short	255                             # 0xff
	.short	255                             # 0xff
	.short	255                             # 0xff
.LCPI61_1:
	.byte	1                               # 0x1
	.byte	3                               # 0x3
	.byte	5                               # 0x5
	.byte	7                               # 0x7
	.byte	9                               # 0x9
	.byte	11                              # 0xb
	.byte	13                              # 0xd
	.byte	15                              # 0xf
	.zero	1
	.zero	1
	.zero	1
	.zero	1
	.zero	1
	.zero	1
	.zero	1
	.zero	1
.LCPI61_2:
	.zero	16,63
.LCPI61_3:
	.zero	16,54
.LCPI61_4:
	.byte	255                             # 0xff
	.byte	255                             # 0xff
	.byte	255                             # 0xff
	.byte	255                             # 0xff
	.byte	255                             # 0xff
	.byte	255                             # 0xff
	.byte	255                             # 0xff
	.byte	255                             # 0xff
	.byte	255                             # 0xff
	.byte	255                             # 0xff
	.byte	255                             # 0xff
	.byte	255                             # 0xff
	.byte	255                             # 0xff
	.byte	255                             # 0xff
	.byte	255                             # 0xff
	.byte	0                               # 0x0
.LCPI61_5:
	.zero	16,55
.LCPI61_6:
	.zero	16,253
.LCPI61_7:
	.zero	16,252
.LCPI61_8:
	.zero	16,216
.LCPI61_9:
	.byte	1                               # 0x1
	.byte	3                               # 0x3
	.byte	5                               # 0x5
	.byte	7                               # 0x7
	.byte	9                               # 0x9
	.byte	11                              # 0xb
	.byte	13                              # 0xd
	.byte	15                              # 0xf
	.byte	0                               # 0x0
	.byte	0                               # 0x0
	.byte	0                               # 0x0
	.byte	0                               # 0x0
	.byte	0                               # 0x0
	.byte	0                               # 0x0
	.byte	0                               # 0x0
	.byte	0                               # 0x0
	.section .text$n65,"xr"
	.p2align	4
recoding_kernels_put_windows_25a6102eeaa0b05f_292: # @recoding_kernels_put_windows_25a6102eeaa0b05f_292
.seh_proc recoding_kernels_put_windows_25a6102eeaa0b05f_292
# %bb.0:                                # %start
	pushq	%r15
	.seh_pushreg %r15
	pushq	%r14
	.seh_pushreg %r14
	pushq	%r13
	.seh_pushreg %r13
	pushq	%r12
	.seh_pushreg %r12
	pushq	%rsi
	.seh_pushreg %rsi
	pushq	%rdi
	.seh_pushreg %rdi
	pushq	%rbp
	.seh_pushreg %rbp
	pushq	%rbx
	.seh_pushreg %rbx
	subq	$184, %rsp
	.seh_stackalloc 184
	movdqa	%xmm10, 160(%rsp)               # 16-byte Spill
	.seh_savexmm %xmm10, 160
	movdqa	%xmm9, 144(%rsp)                # 16-byte Spill
	.seh_savexmm %xmm9, 144
	movdqa	%xmm8, 128(%rsp)                # 16-byte Spill
	.seh_savexmm %xmm8, 128
	movdqa	%xmm7, 112(%rsp)                # 16-byte Spill
	.seh_savexmm %xmm7, 112
	movdqa	%xmm6, 96(%rsp)                 # 16-byte Spill
	.seh_savexmm %xmm6, 96
	.seh_endprologue
	movq	%r8, %rbx
	movq	%rdx, 40(%rsp)                  # 8-byte Spill
	movq	%rcx, 48(%rsp)                  # 8-byte Spill
	xorl	%esi, %esi
	xorl	%edx, %edx
	xorl	%r13d, %r13d
	.p2align	4
.LBB61_1:                               # %then.6
                                        # =>This Inner Loop Header: Depth=1
	movq	8(%rbx), %rax
	movq	16(%rbx), %rbp
	movq	%rbp, %rcx
	subq	%rax, %rcx
	cmpq	$112, %rcx
	jb	.LBB61_11
# %bb.2:                                # %join.3.i
                                        #   in Loop: Header=BB61_1 Depth=1
	movq	%rdx, 56(%rsp)                  # 8-byte Spill
	movq	48(%rsp), %rcx                  # 8-byte Reload
	movdqu	(%rcx,%rsi), %xmm4
	movdqu	16(%rcx,%rsi), %xmm0
	movdqu	32(%rcx,%rsi), %xmm3
	movdqu	48(%rcx,%rsi), %xmm5
	movdqa	.LCPI61_0(%rip), %xmm1          # xmm1 = [255,255,255,255,255,255,255,255]
	movdqa	%xmm0, %xmm6
	pand	%xmm1, %xmm6
	movdqa	%xmm4, %xmm2
	pand	%xmm1, %xmm2
	packuswb	%xmm6, %xmm2
	movdqa	%xmm5, %xmm6
	pand	%xmm1, %xmm6
	pand	%xmm3, %xmm1
	packuswb	%xmm6, %xmm1
	movq	.LCPI61_9(%rip), %xmm6          # xmm6 = [1,3,5,7,9,11,13,15,0,0,0,0,0,0,0,0]
	pshufb	%xmm6, %xmm5
	pshufb	%xmm6, %xmm3
	punpcklqdq	%xmm5, %xmm3            # xmm3 = xmm3[0],xmm5[0]
	pshufb	%xmm6, %xmm0
	pshufb	%xmm6, %xmm4
	punpcklqdq	%xmm0, %xmm4            # xmm4 = xmm4[0],xmm0[0]
	movdqa	%xmm1, %xmm0
	psrlw	$2, %xmm0
	movdqa	.LCPI61_2(%rip), %xmm6          # xmm6 = [63,63,63,63,63,63,63,63,63,63,63,63,63,63,63,63]
	pand	%xmm6, %xmm0
	movdqa	%xmm2, %xmm5
	psrlw	$2, %xmm5
	pand	%xmm6, %xmm5
	movdqa	.LCPI61_3(%rip), %xmm6          # xmm6 = [54,54,54,54,54,54,54,54,54,54,54,54,54,54,54,54]
	movdqa	%xmm5, %xmm8
	pcmpeqb	%xmm6, %xmm8
	pcmpeqb	%xmm0, %xmm6
	movdqa	.LCPI61_4(%rip), %xmm9          # xmm9 = [255,255,255,255,255,255,255,255,255,255,255,255,255,255,255,0]
	pand	%xmm6, %xmm9
	movdqa	.LCPI61_5(%rip), %xmm7          # xmm7 = [55,55,55,55,55,55,55,55,55,55,55,55,55,55,55,55]
	pcmpeqb	%xmm7, %xmm0
	pcmpeqb	%xmm7, %xmm5
	palignr	$15, %xmm8, %xmm6               # xmm6 = xmm8[15],xmm6[0,1,2,3,4,5,6,7,8,9,10,11,12,13,14]
	movdqa	%xmm8, %xmm7
	pslldq	$1, %xmm7                       # xmm7 = zero,xmm7[0,1,2,3,4,5,6,7,8,9,10,11,12,13,14]
	pxor	%xmm5, %xmm7
	pxor	%xmm0, %xmm6
	movdqa	%xmm6, %xmm10
	palignr	$1, %xmm7, %xmm10               # xmm10 = xmm7[1,2,3,4,5,6,7,8,9,10,11,12,13,14,15],xmm10[0]
	pand	%xmm5, %xmm7
	palignr	$1, %xmm6, %xmm5                # xmm5 = xmm6[1,2,3,4,5,6,7,8,9,10,11,12,13,14,15],xmm5[0]
	pand	%xmm9, %xmm5
	pand	%xmm8, %xmm10
	pxor	%xmm9, %xmm9
	por	%xmm10, %xmm7
	pand	%xmm0, %xmm6
	por	%xmm5, %xmm6
	movdqa	.LCPI61_6(%rip), %xmm8          # xmm8 = [253,253,253,253,253,253,253,253,253,253,253,253,253,253,253,253]
	pcmpeqb	%xmm9, %xmm7
	movdqa	%xmm8, %xmm5
	movdqa	%xmm7, %xmm0
	pblendvb	%xmm0, %xmm4, %xmm5
	pcmpeqb	%xmm9, %xmm6
	movdqa	%xmm6, %xmm0
	pblendvb	%xmm0, %xmm3, %xmm8
	pcmpeqd	%xmm0, %xmm0
	movdqa	%xmm7, %xmm3
	pxor	%xmm0, %xmm3
	por	%xmm2, %xmm3
	pxor	%xmm6, %xmm0
	por	%xmm1, %xmm0
	pand	.LCPI61_7(%rip), %xmm1
	pcmpeqb	.LCPI61_8(%rip), %xmm1
	pmovmskb	%xmm1, %ecx
	xorl	%r14d, %r14d
	testw	%cx, %cx
	setns	%r14b
	addl	%r14d, %r14d
	movdqa	%xmm8, %xmm1
	punpcklbw	%xmm0, %xmm1            # xmm1 = xmm1[0],xmm0[0],xmm1[1],xmm0[1],xmm1[2],xmm0[2],xmm1[3],xmm0[3],xmm1[4],xmm0[4],xmm1[5],xmm0[5],xmm1[6],xmm0[6],xmm1[7],xmm0[7]
	movdqa	%xmm1, 64(%rsp)
	punpckhbw	%xmm0, %xmm8            # xmm8 = xmm8[8],xmm0[8],xmm8[9],xmm0[9],xmm8[10],xmm0[10],xmm8[11],xmm0[11],xmm8[12],xmm0[12],xmm8[13],xmm0[13],xmm8[14],xmm0[14],xmm8[15],xmm0[15]
	movdqa	%xmm8, 80(%rsp)
	movdqa	%xmm5, %xmm0
	punpcklbw	%xmm3, %xmm0            # xmm0 = xmm0[0],xmm3[0],xmm0[1],xmm3[1],xmm0[2],xmm3[2],xmm0[3],xmm3[3],xmm0[4],xmm3[4],xmm0[5],xmm3[5],xmm0[6],xmm3[6],xmm0[7],xmm3[7]
	punpckhbw	%xmm3, %xmm5            # xmm5 = xmm5[8],xmm3[8],xmm5[9],xmm3[9],xmm5[10],xmm3[10],xmm5[11],xmm3[11],xmm5[12],xmm3[12],xmm5[13],xmm3[13],xmm5[14],xmm3[14],xmm5[15],xmm3[15]
	leaq	32(%rax), %r15
	movq	(%rbx), %rdi
	movdqu	%xmm0, (%rdi,%rax)
	movdqu	%xmm5, 16(%rdi,%rax)
	movq	%rdi, (%rbx)
	movq	%r15, 8(%rbx)
	movq	%rbp, 16(%rbx)
	leaq	30(%r14), %r12
	movq	%rbp, %rax
	subq	%r15, %rax
	cmpq	%rax, %r12
	ja	.LBB61_3
.LBB61_5:                               # %join.3.i86
                                        #   in Loop: Header=BB61_1 Depth=1
	leaq	(%rdi,%r15), %rcx
	leaq	64(%rsp), %rax
	movq	%rcx, %rdx
	subq	%rax, %rdx
	cmpq	%r12, %rdx
	jae	.LBB61_7
# %bb.6:                                # %join.7.i.i.i99.preheader
                                        #   in Loop: Header=BB61_1 Depth=1
	leaq	64(%rsp), %rdx
	movq	%r12, %r8
	callq	memcpy
	jmp	.LBB61_8
	.p2align	4
.LBB61_7:                               # %apart.2.i.i.i96
                                        #   in Loop: Header=BB61_1 Depth=1
	leaq	64(%rsp), %rdx
	movq	%r12, %r8
	callq	memmove
.LBB61_8:                               # %core_slots_Slots_copy_in_i8_20_core_clone_U8Clone_exit_i97_302
                                        #   in Loop: Header=BB61_1 Depth=1
	addq	%r12, %r15
	movq	%rdi, (%rbx)
	movq	%r15, 8(%rbx)
	movq	%rbp, 16(%rbx)
.LBB61_9:                               # %std_alloc_vec_Vec_extend_from_slice_0cd040e5c49bc722_exit111_277
                                        #   in Loop: Header=BB61_1 Depth=1
	addq	$62, %r14
	pmovmskb	%xmm7, %eax
	xorl	$65535, %eax                    # imm = 0xFFFF
	pmovmskb	%xmm6, %ecx
	notl	%ecx
	shll	$16, %ecx
	orl	%eax, %ecx
	xorl	%eax, %eax
	popcntl	%ecx, %eax
	addq	%r14, %rsi
	movq	56(%rsp), %rdx                  # 8-byte Reload
	addq	%rax, %rdx
	movq	%r13, %rax
	incq	%rax
	xorl	%r13d, %r13d
	testl	%ecx, %ecx
	cmoveq	%rax, %r13
	cmpq	$8, %rdx
	movl	$8, %eax
	cmovbq	%rdx, %rax
	cmpq	%rax, %r13
	ja	.LBB61_11
# %bb.10:                               # %std_alloc_vec_Vec_extend_from_slice_0cd040e5c49bc722_exit111_277
                                        #   in Loop: Header=BB61_1 Depth=1
	movq	40(%rsp), %rax                  # 8-byte Reload
	subq	%rsi, %rax
	cmpq	$63, %rax
	ja	.LBB61_1
	jmp	.LBB61_11
.LBB61_3:                               # %std_alloc_vec_Vec_grow_5fdc5e19576447a7_exit_i106_275
                                        #   in Loop: Header=BB61_1 Depth=1
	movq	%rbx, %rcx
	movq	%r12, %rdx
	callq	std_alloc_vec_Vec_grow_amortized_5fdc5e19576447a7_3
	testb	%al, %al
	je	.LBB61_9
# %bb.4:                                # %std_alloc_vec_Vec_grow_5fdc5e19576447a7_exit_join_3_crit_edge_i108_276
                                        #   in Loop: Header=BB61_1 Depth=1
	movq	(%rbx), %rdi
	movq	8(%rbx), %r15
	movq	16(%rbx), %rbp
	jmp	.LBB61_5
.LBB61_11:                              # %after.1
	movq	%rsi, %rax
	movaps	96(%rsp), %xmm6                 # 16-byte Reload
	movaps	112(%rsp), %xmm7                # 16-byte Reload
	movaps	128(%rsp), %xmm8                # 16-byte Reload
	movaps	144(%rsp), %xmm9                # 16-byte Reload
	movaps	160(%rsp), %xmm10               # 16-byte Reload
	addq	$184, %rsp
	popq	%rbx
	popq	%rbp
	popq	%rdi
	popq	%rsi
	popq	%r12
	popq	%r13
	popq	%r14
	popq	%r15
	retq
	.seh_endproc
                                        # -- End function
	.def	recoding_engine_recode_faults_dcf09f3d7e931f6a_297;
	.scl	3;
	.type	32;
	.endef
	.section .text$n66,"xr"
	.p2align	4                               # -- Begin function recoding::engine::recode_faults::<#dcf09f3d7e931f6a>
recoding_engine_recode_faults_dcf09f3d7e931f6a_297: # @recoding_engine_recode_faults_dcf09f3d7e931f6a_297
.seh_proc recoding_engine_recode_faults_dcf09f3d7e931f6a_297
# %bb.0:                                # %start
	pushq	%r15
	.seh_pushreg %r15
	pushq	%r14
	.seh_pushreg %r14
	pushq	%r13
	.seh_pushreg %r13
	pushq	%r12
	.seh_pushreg %r12
	pushq	%rsi
	.seh_pushreg %rsi
	pushq	%rdi
	.seh_pushreg %rdi
	pushq	%rbp
	.seh_pushreg %rbp
	pushq	%rbx
	.seh_pushreg %rbx
	.seh_endprologue
	movq	104(%rsp), %r13
	cmpb	$2, (%rdx)
	setne	%r10b
	cmpq	$0, 16(%rdx)
	setne	%r12b
	orb	%r10b, %r12b
	movl	$16, %r11d
	xorl	%edi, %edi
	xorl	%r10d, %r10d
	jmp	.LBB62_1
	.p2align	4
.LBB62_13:                              # %recoding_text_Utf16Text_put_any_ec2bf5654938c731_exit_197
                                        #   in Loop: Header=BB62_1 Depth=1
	incq	%r10
.LBB62_15:                              # %join.12
                                        #   in Loop: Header=BB62_1 Depth=1
	movl	$2, %edi
	addq	%rsi, %rdi
	cmpq	%r11, %rdi
	jae	.LBB62_17
.LBB62_1:                               # %join.5
                                        # =>This Inner Loop Header: Depth=1
	movq	%rdi, %rsi
	addq	$4, %rdi
	cmpq	%r9, %rdi
	jbe	.LBB62_2
# %bb.6:                                # %join.3.i
                                        #   in Loop: Header=BB62_1 Depth=1
	movq	%r9, %r14
	subq	%rsi, %r14
	cmpq	$2, %r14
	jb	.LBB62_10
# %bb.7:                                # %join.3.i.i
                                        #   in Loop: Header=BB62_1 Depth=1
	movzbl	(%r8,%rsi), %ebx
	shll	$8, %ebx
	movl	%ebx, %ebp
	andl	$64512, %ebp                    # imm = 0xFC00
	cmpl	$56320, %ebp                    # imm = 0xDC00
	je	.LBB62_11
# %bb.8:                                # %join.3.i.i
                                        #   in Loop: Header=BB62_1 Depth=1
	movzbl	1(%r8,%rsi), %r15d
	orl	%r15d, %ebx
	cmpl	$55296, %ebp                    # imm = 0xD800
	jne	.LBB62_14
# %bb.9:                                # %join.6.i.i
                                        #   in Loop: Header=BB62_1 Depth=1
	cmpq	$4, %r14
	jae	.LBB62_4
	jmp	.LBB62_10
	.p2align	4
.LBB62_2:                               # %then.1.i81
                                        #   in Loop: Header=BB62_1 Depth=1
	movzbl	(%r8,%rsi), %ebx
	shll	$8, %ebx
	movl	%ebx, %ebp
	andl	$64512, %ebp                    # imm = 0xFC00
	cmpl	$56320, %ebp                    # imm = 0xDC00
	je	.LBB62_11
# %bb.3:                                # %then.1.i81
                                        #   in Loop: Header=BB62_1 Depth=1
	movzbl	1(%r8,%rsi), %r14d
	orl	%r14d, %ebx
	cmpl	$55296, %ebp                    # imm = 0xD800
	jne	.LBB62_14
.LBB62_4:                               # %join.15.i74.i205.i
                                        #   in Loop: Header=BB62_1 Depth=1
	movzbl	2(%r8,%rsi), %r14d
	movl	%r14d, %ebp
	andl	$-4, %ebp
	cmpl	$220, %ebp
	jne	.LBB62_11
# %bb.5:                                # %arm.14.i200.i
                                        #   in Loop: Header=BB62_1 Depth=1
	movzbl	3(%r8,%rsi), %edi
	andl	$1023, %ebx                     # imm = 0x3FF
	shll	$10, %ebx
	andl	$3, %r14d
	shll	$8, %r14d
	orl	%edi, %r14d
	leal	(%rbx,%r14), %edi
	addl	$65536, %edi                    # imm = 0x10000
	movl	%edi, %ebx
	shrl	$10, %ebx
	addl	$-10304, %ebx                   # imm = 0xD7C0
	movl	%edi, %ebp
	shrl	$8, %edi
	andb	$3, %dil
	orb	$-36, %dil
	movq	(%r13), %r14
	movq	8(%r13), %rdx
	movb	%bl, (%r14,%rdx)
	movq	(%r13), %rax
	movb	%bh, 1(%rax,%rdx)
	movq	(%r13), %rax
	movb	%bpl, 2(%rax,%rdx)
	movq	(%r13), %rax
	movb	%dil, 3(%rax,%rdx)
	addq	$4, %rdx
	movq	%rdx, 8(%r13)
	movl	$4, %edi
	addq	%rsi, %rdi
	cmpq	%r11, %rdi
	jb	.LBB62_1
	jmp	.LBB62_17
	.p2align	4
.LBB62_11:                              # %arm.11
                                        #   in Loop: Header=BB62_1 Depth=1
	cmpq	$32, %rdi
	movl	$32, %r11d
	cmovbq	%rdi, %r11
	testb	%r12b, %r12b
	je	.LBB62_13
# %bb.12:                               # %recoding_text_Utf16Text_put_code_ec2bf5654938c731_exit_i_i_265
                                        #   in Loop: Header=BB62_1 Depth=1
	movq	(%r13), %rax
	movq	8(%r13), %rdx
	movb	$-3, (%rax,%rdx)
	movq	(%r13), %rax
	movb	$-1, 1(%rax,%rdx)
	addq	$2, %rdx
	movq	%rdx, 8(%r13)
	jmp	.LBB62_13
	.p2align	4
.LBB62_14:                              # %arm.1.i
                                        #   in Loop: Header=BB62_1 Depth=1
	movq	(%r13), %rdi
	movq	8(%r13), %rbp
	movb	%bl, (%rdi,%rbp)
	movq	(%r13), %rdi
	movb	%bh, 1(%rdi,%rbp)
	addq	$2, %rbp
	movq	%rbp, 8(%r13)
	jmp	.LBB62_15
.LBB62_17:                              # %after.1
	movq	%rdi, (%rcx)
	movq	%r10, 8(%rcx)
	movq	$0, 16(%rcx)
	jmp	.LBB62_18
.LBB62_10:                              # %arm.7
	movq	%rsi, (%rcx)
	movq	%r10, 8(%rcx)
	movw	$256, 16(%rcx)                  # imm = 0x100
	movl	$0, 18(%rcx)
	movw	$0, 22(%rcx)
.LBB62_18:                              # %after.1
	popq	%rbx
	popq	%rbp
	popq	%rdi
	popq	%rsi
	popq	%r12
	popq	%r13
	popq	%r14
	popq	%r15
	retq
	.seh_endproc
                                        # -- End function
	.def	recoding_recoder_runs_run_whole_9bba14706ba0829a_40;
	.scl	3;
	.type	32;
	.endef
	.section .text$n67,"xr"
	.p2align	4                               # -- Begin function recoding::recoder_runs::run_whole::<#9bba14706ba0829a>
recoding_recoder_runs_run_whole_9bba14706ba0829a_40: # @recoding_recoder_runs_run_whole_9bba14706ba0829a_40
.seh_proc recoding_recoder_runs_run_whole_9bba14706ba0829a_40
# %bb.0:                                # %start
	pushq	%r15
	.seh_pushreg %r15
	pushq	%r14
	.seh_pushreg %r14
	pushq	%r12
	.seh_pushreg %r12
	pushq	%rsi
	.seh_pushreg %rsi
	pushq	%rdi
	.seh_pushreg %rdi
	pushq	%rbp
	.seh_pushreg %rbp
	pushq	%rbx
	.seh_pushreg %rbx
	subq	$128, %rsp
	.seh_stackalloc 128
	.seh_endprologue
	movq	%r8, %r14
	movq	%rdx, %rbx
	movq	%rcx, %r15
	xorl	%esi, %esi
	xorl	%edi, %edi
	jmp	.LBB63_2
.LBB63_1:                               # %recoding_kernels_put_damaged_units_540345a75bfb5bf3_exit_303
                                        #   in Loop: Header=BB63_2 Depth=1
	leaq	(%r15,%rdi), %rcx
	movq	%r14, %r8
	callq	recoding_kernels_put_windows_540345a75bfb5bf3_304
	addq	%rax, %rdi
	addq	%rdx, %rsi
	testq	%rax, %rax
	je	.LBB63_6
	.p2align	4
.LBB63_2:                               # %loop.2.i
                                        # =>This Loop Header: Depth=1
                                        #     Child Loop BB63_11 Depth 2
	movq	%rbx, %rdx
	subq	%rdi, %rdx
	cmpq	$16, %rdx
	jb	.LBB63_4
# %bb.3:                                # %recoding_kernels_TurnedKernelUtf16Utf16_put_text_43398717c7bc3319_exit_305
                                        #   in Loop: Header=BB63_2 Depth=1
	leaq	(%r15,%rdi), %rcx
	movq	%r14, %r8
	callq	recoding_turned_copy_units_17d65846aaba8d30_306
	addq	%rax, %rdi
	cmpq	$8187, %rax                     # imm = 0x1FFB
	ja	.LBB63_2
.LBB63_4:                               # %join.5.i
                                        #   in Loop: Header=BB63_2 Depth=1
	movq	%rbx, %rdx
	subq	%rdi, %rdx
	je	.LBB63_21
# %bb.5:                                # %join.8.i
                                        #   in Loop: Header=BB63_2 Depth=1
	cmpq	$64, %rdx
	jae	.LBB63_1
	jmp	.LBB63_7
.LBB63_6:                               # %recoding_kernels_put_damaged_units_540345a75bfb5bf3_exit_join_14_i_crit_edge_307
                                        #   in Loop: Header=BB63_2 Depth=1
	movq	%rbx, %rdx
	subq	%rdi, %rdx
.LBB63_7:                               # %join.14.i
                                        #   in Loop: Header=BB63_2 Depth=1
	cmpq	$128, %rdx
	movl	$128, %ecx
	cmovbq	%rdx, %rcx
	cmpq	$2, %rdx
	jb	.LBB63_17
# %bb.8:                                # %join.5.i39.preheader
                                        #   in Loop: Header=BB63_2 Depth=1
	leaq	(%r15,%rdi), %rdx
	xorl	%eax, %eax
	movq	%rcx, %r10
	jmp	.LBB63_11
	.p2align	4
.LBB63_9:                               # %arm.7.i
                                        #   in Loop: Header=BB63_11 Depth=2
	movzbl	3(%rdx,%rax), %ebp
	andb	$3, %r9b
	orb	$-40, %r9b
	movq	(%r14), %r12
	movq	8(%r14), %r10
	movb	%r9b, (%r12,%r10)
	movq	(%r14), %r9
	movb	%r8b, 1(%r9,%r10)
	movq	(%r14), %r8
	movb	%r11b, 2(%r8,%r10)
	movq	(%r14), %r8
	movb	%bpl, 3(%r8,%r10)
	addq	$4, %r10
	movl	$4, %r8d
.LBB63_10:                              # %recoding_text_Utf16Text_put_code_f52bd5352b4cd2db_exit_i_208
                                        #   in Loop: Header=BB63_11 Depth=2
	movq	%r10, 8(%r14)
	addq	%r8, %rax
	movq	%rcx, %r10
	subq	%rax, %r10
	cmpq	$1, %r10
	jbe	.LBB63_16
.LBB63_11:                              # %join.5.i39
                                        #   Parent Loop BB63_2 Depth=1
                                        # =>  This Inner Loop Header: Depth=2
	movzbl	(%rdx,%rax), %r9d
	movzbl	1(%rdx,%rax), %r8d
	movl	%r9d, %r11d
	shll	$8, %r11d
	andl	$64512, %r11d                   # imm = 0xFC00
	cmpl	$55296, %r11d                   # imm = 0xD800
	je	.LBB63_14
# %bb.12:                               # %join.5.i39
                                        #   in Loop: Header=BB63_11 Depth=2
	cmpl	$56320, %r11d                   # imm = 0xDC00
	je	.LBB63_16
# %bb.13:                               # %arm.7.i.thread
                                        #   in Loop: Header=BB63_11 Depth=2
	movq	(%r14), %r11
	movq	8(%r14), %r10
	movb	%r9b, (%r11,%r10)
	movq	(%r14), %r9
	movb	%r8b, 1(%r9,%r10)
	addq	$2, %r10
	movl	$2, %r8d
	jmp	.LBB63_10
	.p2align	4
.LBB63_14:                              # %join.6.i.i
                                        #   in Loop: Header=BB63_11 Depth=2
	cmpq	$4, %r10
	jb	.LBB63_16
# %bb.15:                               # %join.15.i65.i.i
                                        #   in Loop: Header=BB63_11 Depth=2
	movzbl	2(%rdx,%rax), %r11d
	movl	%r11d, %r10d
	andb	$-4, %r10b
	cmpb	$-36, %r10b
	je	.LBB63_9
.LBB63_16:                              # %recoding_engine_recode_text_cb596da6ac655ae4_exit_308
                                        #   in Loop: Header=BB63_2 Depth=1
	addq	%rax, %rdi
	cmpq	$124, %rax
	ja	.LBB63_2
.LBB63_17:                              # %then.15.i
                                        #   in Loop: Header=BB63_2 Depth=1
	movq	%rbx, %r9
	subq	%rdi, %r9
	je	.LBB63_21
# %bb.18:                               # %join.20.i
                                        #   in Loop: Header=BB63_2 Depth=1
	leaq	(%r15,%rdi), %r8
	xorps	%xmm0, %xmm0
	movaps	%xmm0, 48(%rsp)
	movq	$0, 64(%rsp)
	movaps	%xmm0, 80(%rsp)
	movaps	%xmm0, 96(%rsp)
	movq	$0, 112(%rsp)
	movq	%r14, 32(%rsp)
	leaq	48(%rsp), %rcx
	leaq	80(%rsp), %rdx
	callq	recoding_engine_recode_faults_d9c9637553368c70_309
	addq	48(%rsp), %rdi
	addq	56(%rsp), %rsi
	testb	$1, 64(%rsp)
	jne	.LBB63_22
# %bb.19:                               # %join.20.i
                                        #   in Loop: Header=BB63_2 Depth=1
	testb	$1, 65(%rsp)
	je	.LBB63_2
	jmp	.LBB63_22
.LBB63_21:
	movq	%rbx, %rdi
.LBB63_22:                              # %recoding_engine_run_0711687b94467fa5_exit_310
	movq	%rdi, %rax
	movq	%rsi, %rdx
	addq	$128, %rsp
	popq	%rbx
	popq	%rbp
	popq	%rdi
	popq	%rsi
	popq	%r12
	popq	%r14
	popq	%r15
	retq
	.seh_endproc
                                        # -- End function
	.def	recoding_turned_copy_units_17d65846aaba8d30_306;
	.scl	3;
	.type	32;
	.endef
	.section .rdata$n0,"dr"
	.p2align	4, 0x0                          # -- Begin function recoding::turned::copy_units::<#17d65846aaba8d30>
.LCPI64_0:
	.byte	252                             # 0xfc
	.byte	0                               # 0x0
	.byte	252                             # 0xfc
	.byte	0                               # 0x0
	.byte	252                             # 0xfc
	.byte	0                               # 0x0
	.byte	252                             # 0xfc
	.byte	0                               # 0x0
	.byte	252                             # 0xfc
	.byte	0                               # 0x0
	.byte	252                             # 0xfc
	.byte	0                               # 0x0
	.byte	252                             # 0xfc
	.byte	0                               # 0x0
	.byte	252                             # 0xfc
	.byte	0                               # 0x0
.LCPI64_1:
	.zero	16,220
.LCPI64_2:
	.zero	16,216
	.section .text$n68,"xr"
	.p2align	4
recoding_turned_copy_units_17d65846aaba8d30_306: # @recoding_turned_copy_units_17d65846aaba8d30_306
.seh_proc recoding_turned_copy_units_17d65846aaba8d30_306
# %bb.0:                                # %start
	pushq	%r15
	.seh_pushreg %r15
	pushq	%r14
	.seh_pushreg %r14
	pushq	%rsi
	.seh_pushreg %rsi
	pushq	%rdi
	.seh_pushreg %rdi
	pushq	%rbp
	.seh_pushreg %rbp
	pushq	%rbx
	.seh_pushreg %rbx
	subq	$88, %rsp
	.seh_stackalloc 88
	movdqa	%xmm6, 64(%rsp)                 # 16-byte Spill
	.seh_savexmm %xmm6, 64
	.seh_endprologue
	movw	$0, 32(%rsp)
	movdqu	(%rcx), %xmm1
	movdqu	%xmm1, 34(%rsp)
	movdqa	.LCPI64_0(%rip), %xmm0          # xmm0 = [252,0,252,0,252,0,252,0,252,0,252,0,252,0,252,0]
	pand	%xmm0, %xmm1
	pcmpeqb	.LCPI64_1(%rip), %xmm1
	movdqa	32(%rsp), %xmm2
	pand	%xmm0, %xmm2
	pcmpeqb	.LCPI64_2(%rip), %xmm2
	pxor	%xmm1, %xmm2
	pmovmskb	%xmm2, %eax
	testl	%eax, %eax
	je	.LBB64_2
# %bb.1:
	rep		bsfl	%eax, %esi
	shrl	%esi
	testq	%rsi, %rsi
	jne	.LBB64_12
	jmp	.LBB64_17
.LBB64_2:                               # %loop.2.i.preheader.i
	movl	$8, %esi
	cmpq	$80, %rdx
	jb	.LBB64_7
# %bb.3:                                # %join.5.i.i.preheader
	leaq	-16(%rdx), %rax
	movl	$32, %esi
	.p2align	4
.LBB64_4:                               # %join.5.i.i
                                        # =>This Inner Loop Header: Depth=1
	movdqu	-50(%rcx,%rsi,2), %xmm4
	movdqu	-48(%rcx,%rsi,2), %xmm5
	movdqu	-34(%rcx,%rsi,2), %xmm1
	movdqu	-32(%rcx,%rsi,2), %xmm6
	pand	%xmm0, %xmm5
	movdqa	.LCPI64_1(%rip), %xmm2          # xmm2 = [220,220,220,220,220,220,220,220,220,220,220,220,220,220,220,220]
	pcmpeqb	%xmm2, %xmm5
	pand	%xmm0, %xmm4
	movdqa	.LCPI64_2(%rip), %xmm3          # xmm3 = [216,216,216,216,216,216,216,216,216,216,216,216,216,216,216,216]
	pcmpeqb	%xmm3, %xmm4
	pxor	%xmm5, %xmm4
	pand	%xmm0, %xmm6
	pcmpeqb	%xmm2, %xmm6
	pand	%xmm0, %xmm1
	pcmpeqb	%xmm3, %xmm1
	pxor	%xmm6, %xmm1
	por	%xmm4, %xmm1
	movdqu	-16(%rcx,%rsi,2), %xmm4
	movdqu	-18(%rcx,%rsi,2), %xmm5
	pand	%xmm0, %xmm4
	pcmpeqb	%xmm2, %xmm4
	pand	%xmm0, %xmm5
	pcmpeqb	%xmm3, %xmm5
	pxor	%xmm4, %xmm5
	movdqu	(%rcx,%rsi,2), %xmm4
	movdqu	-2(%rcx,%rsi,2), %xmm6
	pand	%xmm0, %xmm4
	pcmpeqb	%xmm2, %xmm4
	pand	%xmm0, %xmm6
	pcmpeqb	%xmm3, %xmm6
	pxor	%xmm4, %xmm6
	por	%xmm5, %xmm6
	por	%xmm1, %xmm6
	pmovmskb	%xmm6, %r9d
	testl	%r9d, %r9d
	jne	.LBB64_6
# %bb.5:                                # %join.8.i.i
                                        #   in Loop: Header=BB64_4 Depth=1
	addq	$32, %rsi
	addq	$-64, %rax
	cmpq	$63, %rax
	ja	.LBB64_4
.LBB64_6:                               # %join_5_i_i_utf_lanes_unit_blocks_paired_wide_22d4087b0bf99cde_exit_i_loopexit_crit_edge_299
	addq	$-24, %rsi
.LBB64_7:                               # %utf_lanes_unit_blocks_paired_wide_22d4087b0bf99cde_exit_i_300
	shrq	%rdx
	cmpq	%rdx, %rsi
	jae	.LBB64_12
# %bb.8:                                # %join.5.i51.lr.ph.i
	leaq	-8(%rdx), %rax
	.p2align	4
.LBB64_9:                               # %join.5.i51.i
                                        # =>This Inner Loop Header: Depth=1
	cmpq	%rsi, %rax
	cmovbq	%rax, %rsi
	movdqu	-2(%rcx,%rsi,2), %xmm1
	movdqu	(%rcx,%rsi,2), %xmm2
	pand	%xmm0, %xmm2
	pcmpeqb	.LCPI64_1(%rip), %xmm2
	pand	%xmm0, %xmm1
	pcmpeqb	.LCPI64_2(%rip), %xmm1
	pxor	%xmm2, %xmm1
	pmovmskb	%xmm1, %r9d
	rep		bsfl	%r9d, %r10d
	shrl	%r10d
	testl	%r9d, %r9d
	movl	$8, %r9d
	cmovnel	%r10d, %r9d
	cmpw	$7, %r9w
	jbe	.LBB64_11
# %bb.10:                               # %join.8.i75.i
                                        #   in Loop: Header=BB64_9 Depth=1
	addq	$8, %rsi
	cmpq	%rdx, %rsi
	jb	.LBB64_9
	jmp	.LBB64_12
.LBB64_11:                              # %then.6.i.i
	movzwl	%r9w, %eax
	addq	%rax, %rsi
	testq	%rsi, %rsi
	je	.LBB64_17
.LBB64_12:                              # %utf_lanes_unit_blocks_units_len_22d4087b0bf99cde_exit_301
	movzbl	-2(%rcx,%rsi,2), %eax
	andb	$-4, %al
	xorl	%edx, %edx
	cmpb	$-40, %al
	sete	%dl
	subq	%rdx, %rsi
	movq	%rsi, %rax
	addq	%rsi, %rax
	je	.LBB64_17
# %bb.13:                               # %join.3
	movq	8(%r8), %rdx
	movq	16(%r8), %rdi
	movq	%rdi, %r9
	subq	%rdx, %r9
	cmpq	%r9, %rax
	ja	.LBB64_38
.LBB64_14:                              # %join.3.i
	leaq	8(%r8), %r9
	leaq	(%rdx,%rax), %rbx
	movq	(%r8), %r14
	pxor	%xmm0, %xmm0
	movdqu	%xmm0, (%r9)
	leaq	(%r14,%rdx), %r9
	movq	%r9, %r10
	subq	%rcx, %r10
	cmpq	%rax, %r10
	jae	.LBB64_18
# %bb.15:                               # %iter.check
	cmpq	$4, %rax
	jb	.LBB64_16
# %bb.19:                               # %vector.memcheck
	cmpq	$32, %r10
	jae	.LBB64_21
.LBB64_16:
	xorl	%r10d, %r10d
.LBB64_30:                              # %join.7.i.i.i.preheader
	movq	%rax, %rsi
	movq	%r10, %r11
	andq	$2, %rsi
	je	.LBB64_33
# %bb.31:                               # %join.7.i.i.i.prol.preheader
	movq	%r10, %r11
	.p2align	4
.LBB64_32:                              # %join.7.i.i.i.prol
                                        # =>This Inner Loop Header: Depth=1
	movzbl	(%rcx,%r11), %ebp
	movb	%bpl, (%r9,%r11)
	incq	%r11
	decq	%rsi
	jne	.LBB64_32
.LBB64_33:                              # %join.7.i.i.i.prol.loopexit
	subq	%rax, %r10
	cmpq	$-4, %r10
	ja	.LBB64_36
# %bb.34:                               # %join.7.i.i.i.preheader33
	addq	%r14, %rdx
	addq	$3, %rdx
	.p2align	4
.LBB64_35:                              # %join.7.i.i.i
                                        # =>This Inner Loop Header: Depth=1
	movzbl	(%rcx,%r11), %r9d
	movb	%r9b, -3(%rdx,%r11)
	movzbl	1(%rcx,%r11), %r9d
	movb	%r9b, -2(%rdx,%r11)
	movzbl	2(%rcx,%r11), %r9d
	movb	%r9b, -1(%rdx,%r11)
	movzbl	3(%rcx,%r11), %r9d
	movb	%r9b, (%rdx,%r11)
	addq	$4, %r11
	cmpq	%r11, %rax
	jne	.LBB64_35
	jmp	.LBB64_36
.LBB64_17:
	xorl	%eax, %eax
	jmp	.LBB64_37
.LBB64_18:                              # %apart.2.i.i.i
	movq	%rcx, %rdx
	movq	%r9, %rcx
	movq	%r8, %rsi
	movq	%rax, %r8
	movq	%rax, %r15
	callq	memmove
	movq	%r15, %rax
	movq	%rsi, %r8
.LBB64_36:                              # %core_slots_Slots_copy_in_i8_20_core_clone_U8Clone_exit_i_112
	movq	%r14, (%r8)
	movq	%rbx, 8(%r8)
	movq	%rdi, 16(%r8)
.LBB64_37:                              # %common.ret
	movaps	64(%rsp), %xmm6                 # 16-byte Reload
	addq	$88, %rsp
	popq	%rbx
	popq	%rbp
	popq	%rdi
	popq	%rsi
	popq	%r14
	popq	%r15
	retq
.LBB64_21:                              # %vector.main.loop.iter.check
	cmpq	$32, %rax
	jae	.LBB64_23
# %bb.22:
	xorl	%r10d, %r10d
	jmp	.LBB64_27
.LBB64_23:                              # %vector.ph
	movq	%rax, %r10
	andq	$-32, %r10
	leaq	(%rdx,%r14), %r11
	addq	$16, %r11
	xorl	%r15d, %r15d
	.p2align	4
.LBB64_24:                              # %vector.body
                                        # =>This Inner Loop Header: Depth=1
	movdqu	(%rcx,%r15), %xmm0
	movdqu	16(%rcx,%r15), %xmm1
	movdqu	%xmm0, -16(%r11,%r15)
	movdqu	%xmm1, (%r11,%r15)
	addq	$32, %r15
	cmpq	%r15, %r10
	jne	.LBB64_24
# %bb.25:                               # %middle.block
	cmpq	%r10, %rax
	je	.LBB64_36
# %bb.26:                               # %vec.epilog.iter.check
	testb	$14, %sil
	je	.LBB64_30
.LBB64_27:                              # %vec.epilog.ph
	movq	%r10, %r11
	movq	%rax, %r10
	andq	$-4, %r10
	.p2align	4
.LBB64_28:                              # %vec.epilog.vector.body
                                        # =>This Inner Loop Header: Depth=1
	movl	(%rcx,%r11), %esi
	movl	%esi, (%r9,%r11)
	addq	$4, %r11
	cmpq	%r11, %r10
	jne	.LBB64_28
# %bb.29:                               # %vec.epilog.middle.block
	cmpq	%r10, %rax
	je	.LBB64_36
	jmp	.LBB64_30
.LBB64_38:                              # %std_alloc_vec_Vec_grow_5fdc5e19576447a7_exit_i_76
	movq	%rcx, %rbx
	movq	%r8, %rdi
	movq	%r8, %rcx
	movq	%rax, %r14
	movq	%rax, %rdx
	callq	std_alloc_vec_Vec_grow_amortized_5fdc5e19576447a7_3
	testb	%al, %al
	je	.LBB64_40
# %bb.39:                               # %std_alloc_vec_Vec_grow_5fdc5e19576447a7_exit_join_3_crit_edge_i_115
	movq	%rdi, %r8
	movq	8(%rdi), %rdx
	movq	16(%rdi), %rdi
	movq	%rbx, %rcx
	movq	%r14, %rax
	jmp	.LBB64_14
.LBB64_40:
	movq	%r14, %rax
	jmp	.LBB64_37
	.seh_endproc
                                        # -- End function
	.def	recoding_kernels_put_windows_540345a75bfb5bf3_304;
	.scl	3;
	.type	32;
	.endef
	.section .rdata$n0,"dr"
	.p2align	4, 0x0                          # -- Begin function recoding::kernels::put_windows::<#540345a75bfb5bf3>
.LCPI65_0:
	.short	255                             # 0xff
	.short	255                             # 0xff
	.short	255                             # 0xff
	.short	255                             # 0xff
	.short	255                             # 0xff
	.short	255                             # 0xff
	.short	255                             # 0xff
	.short	255                             # 0xff
.LCPI65_1:
	.byte	1                               # 0x1
	.byte	3                               # 0x3
	.byte	5                               # 0x5
	.byte	7                               # 0x7
	.byte	9                               # 0x9
	.byte	11                              # 0xb
	.byte	13                              # 0xd
	.byte	15                              # 0xf
	.zero	1
	.zero	1
	.zero	1
	.zero	1
	.zero	1
	.zero	1
	.zero	1
	.zero	1
.LCPI65_2:
	.zero	16,63
.LCPI65_3:
	.zero	16,54
.LCPI65_4:
	.byte	255                             # 0xff
	.byte	255                             # 0xff
	.byte	255                             # 0xff
	.byte	255                             # 0xff
	.byte	255                             # 0xff
	.byte	255                             # 0xff
	.byte	255                             # 0xff
	.byte	255                             # 0xff
	.byte	255                             # 0xff
	.byte	255                             # 0xff
	.byte	255                             # 0xff
	.byte	255                             # 0xff
	.byte	255                             # 0xff
	.byte	255                             # 0xff
	.byte	255                             # 0xff
	.byte	0                               # 0x0
.LCPI65_5:
	.zero	16,55
.LCPI65_6:
	.zero	16,253
.LCPI65_7:
	.zero	16,252
.LCPI65_8:
	.zero	16,216
.LCPI65_9:
	.byte	1                               # 0x1
	.byte	3                               # 0x3
	.byte	5                               # 0x5
	.byte	7                               # 0x7
	.byte	9                               # 0x9
	.byte	11                              # 0xb
	.byte	13                              # 0xd
	.byte	15                              # 0xf
	.byte	0                               # 0x0
	.byte	0                               # 0x0
	.byte	0                               # 0x0
	.byte	0                               # 0x0
	.byte	0                               # 0x0
	.byte	0                               # 0x0
	.byte	0                               # 0x0
	.byte	0                               # 0x0
	.section .text$n69,"xr"
	.p2align	4
recoding_kernels_put_windows_540345a75bfb5bf3_304: # @recoding_kernels_put_windows_540345a75bfb5bf3_304
.seh_proc recoding_kernels_put_windows_540345a75bfb5bf3_304
# %bb.0:                                # %start
	pushq	%r15
	.seh_pushreg %r15
	pushq	%r14
	.seh_pushreg %r14
	pushq	%r13
	.seh_pushreg %r13
	pushq	%r12
	.seh_pushreg %r12
	pushq	%rsi
	.seh_pushreg %rsi
	pushq	%rdi
	.seh_pushreg %rdi
	pushq	%rbp
	.seh_pushreg %rbp
	pushq	%rbx
	.seh_pushreg %rbx
	subq	$184, %rsp
	.seh_stackalloc 184
	movdqa	%xmm10, 160(%rsp)               # 16-byte Spill
	.seh_savexmm %xmm10, 160
	movdqa	%xmm9, 144(%rsp)                # 16-byte Spill
	.seh_savexmm %xmm9, 144
	movdqa	%xmm8, 128(%rsp)                # 16-byte Spill
	.seh_savexmm %xmm8, 128
	movdqa	%xmm7, 112(%rsp)                # 16-byte Spill
	.seh_savexmm %xmm7, 112
	movdqa	%xmm6, 96(%rsp)                 # 16-byte Spill
	.seh_savexmm %xmm6, 96
	.seh_endprologue
	movq	%r8, %rbx
	movq	%rdx, 40(%rsp)                  # 8-byte Spill
	movq	%rcx, 48(%rsp)                  # 8-byte Spill
	xorl	%esi, %esi
	xorl	%edx, %edx
	xorl	%r13d, %r13d
	.p2align	4
.LBB65_1:                               # %then.6
                                        # =>This Inner Loop Header: Depth=1
	movq	8(%rbx), %rax
	movq	16(%rbx), %rbp
	movq	%rbp, %rcx
	subq	%rax, %rcx
	cmpq	$112, %rcx
	jb	.LBB65_11
# %bb.2:                                # %join.3.i
                                        #   in Loop: Header=BB65_1 Depth=1
	movq	%rdx, 56(%rsp)                  # 8-byte Spill
	movq	48(%rsp), %rcx                  # 8-byte Reload
	movdqu	(%rcx,%rsi), %xmm4
	movdqu	16(%rcx,%rsi), %xmm0
	movdqu	32(%rcx,%rsi), %xmm3
	movdqu	48(%rcx,%rsi), %xmm5
	movdqa	.LCPI65_0(%rip), %xmm1          # xmm1 = [255,255,255,255,255,255,255,255]
	movdqa	%xmm0, %xmm6
	pand	%xmm1, %xmm6
	movdqa	%xmm4, %xmm2
	pand	%xmm1, %xmm2
	packuswb	%xmm6, %xmm2
	movdqa	%xmm5, %xmm6
	pand	%xmm1, %xmm6
	pand	%xmm3, %xmm1
	packuswb	%xmm6, %xmm1
	movq	.LCPI65_9(%rip), %xmm6          # xmm6 = [1,3,5,7,9,11,13,15,0,0,0,0,0,0,0,0]
	pshufb	%xmm6, %xmm5
	pshufb	%xmm6, %xmm3
	punpcklqdq	%xmm5, %xmm3            # xmm3 = xmm3[0],xmm5[0]
	pshufb	%xmm6, %xmm0
	pshufb	%xmm6, %xmm4
	punpcklqdq	%xmm0, %xmm4            # xmm4 = xmm4[0],xmm0[0]
	movdqa	%xmm1, %xmm0
	psrlw	$2, %xmm0
	movdqa	.LCPI65_2(%rip), %xmm6          # xmm6 = [63,63,63,63,63,63,63,63,63,63,63,63,63,63,63,63]
	pand	%xmm6, %xmm0
	movdqa	%xmm2, %xmm5
	psrlw	$2, %xmm5
	pand	%xmm6, %xmm5
	movdqa	.LCPI65_3(%rip), %xmm6          # xmm6 = [54,54,54,54,54,54,54,54,54,54,54,54,54,54,54,54]
	movdqa	%xmm5, %xmm8
	pcmpeqb	%xmm6, %xmm8
	pcmpeqb	%xmm0, %xmm6
	movdqa	.LCPI65_4(%rip), %xmm9          # xmm9 = [255,255,255,255,255,255,255,255,255,255,255,255,255,255,255,0]
	pand	%xmm6, %xmm9
	movdqa	.LCPI65_5(%rip), %xmm7          # xmm7 = [55,55,55,55,55,55,55,55,55,55,55,55,55,55,55,55]
	pcmpeqb	%xmm7, %xmm0
	pcmpeqb	%xmm7, %xmm5
	palignr	$15, %xmm8, %xmm6               # xmm6 = xmm8[15],xmm6[0,1,2,3,4,5,6,7,8,9,10,11,12,13,14]
	movdqa	%xmm8, %xmm7
	pslldq	$1, %xmm7                       # xmm7 = zero,xmm7[0,1,2,3,4,5,6,7,8,9,10,11,12,13,14]
	pxor	%xmm5, %xmm7
	pxor	%xmm0, %xmm6
	movdqa	%xmm6, %xmm10
	palignr	$1, %xmm7, %xmm10               # xmm10 = xmm7[1,2,3,4,5,6,7,8,9,10,11,12,13,14,15],xmm10[0]
	pand	%xmm5, %xmm7
	palignr	$1, %xmm6, %xmm5                # xmm5 = xmm6[1,2,3,4,5,6,7,8,9,10,11,12,13,14,15],xmm5[0]
	pand	%xmm9, %xmm5
	pand	%xmm8, %xmm10
	pxor	%xmm9, %xmm9
	por	%xmm10, %xmm7
	pand	%xmm0, %xmm6
	por	%xmm5, %xmm6
	movdqa	.LCPI65_6(%rip), %xmm8          # xmm8 = [253,253,253,253,253,253,253,253,253,253,253,253,253,253,253,253]
	pcmpeqb	%xmm9, %xmm7
	movdqa	%xmm8, %xmm5
	movdqa	%xmm7, %xmm0
	pblendvb	%xmm0, %xmm4, %xmm5
	pcmpeqb	%xmm9, %xmm6
	movdqa	%xmm6, %xmm0
	pblendvb	%xmm0, %xmm3, %xmm8
	pcmpeqd	%xmm3, %xmm3
	movdqa	%xmm7, %xmm0
	pxor	%xmm3, %xmm0
	por	%xmm2, %xmm0
	pxor	%xmm6, %xmm3
	por	%xmm1, %xmm3
	pand	.LCPI65_7(%rip), %xmm1
	pcmpeqb	.LCPI65_8(%rip), %xmm1
	pmovmskb	%xmm1, %ecx
	xorl	%r14d, %r14d
	testw	%cx, %cx
	setns	%r14b
	addl	%r14d, %r14d
	movdqa	%xmm3, %xmm1
	punpcklbw	%xmm8, %xmm1            # xmm1 = xmm1[0],xmm8[0],xmm1[1],xmm8[1],xmm1[2],xmm8[2],xmm1[3],xmm8[3],xmm1[4],xmm8[4],xmm1[5],xmm8[5],xmm1[6],xmm8[6],xmm1[7],xmm8[7]
	movdqa	%xmm1, 64(%rsp)
	punpckhbw	%xmm8, %xmm3            # xmm3 = xmm3[8],xmm8[8],xmm3[9],xmm8[9],xmm3[10],xmm8[10],xmm3[11],xmm8[11],xmm3[12],xmm8[12],xmm3[13],xmm8[13],xmm3[14],xmm8[14],xmm3[15],xmm8[15]
	movdqa	%xmm3, 80(%rsp)
	movdqa	%xmm0, %xmm1
	punpcklbw	%xmm5, %xmm1            # xmm1 = xmm1[0],xmm5[0],xmm1[1],xmm5[1],xmm1[2],xmm5[2],xmm1[3],xmm5[3],xmm1[4],xmm5[4],xmm1[5],xmm5[5],xmm1[6],xmm5[6],xmm1[7],xmm5[7]
	punpckhbw	%xmm5, %xmm0            # xmm0 = xmm0[8],xmm5[8],xmm0[9],xmm5[9],xmm0[10],xmm5[10],xmm0[11],xmm5[11],xmm0[12],xmm5[12],xmm0[13],xmm5[13],xmm0[14],xmm5[14],xmm0[15],xmm5[15]
	leaq	32(%rax), %r15
	movq	(%rbx), %rdi
	movdqu	%xmm1, (%rdi,%rax)
	movdqu	%xmm0, 16(%rdi,%rax)
	movq	%rdi, (%rbx)
	movq	%r15, 8(%rbx)
	movq	%rbp, 16(%rbx)
	leaq	30(%r14), %r12
	movq	%rbp, %rax
	subq	%r15, %rax
	cmpq	%rax, %r12
	ja	.LBB65_3
.LBB65_5:                               # %join.3.i87
                                        #   in Loop: Header=BB65_1 Depth=1
	leaq	(%rdi,%r15), %rcx
	leaq	64(%rsp), %rax
	movq	%rcx, %rdx
	subq	%rax, %rdx
	cmpq	%r12, %rdx
	jae	.LBB65_7
# %bb.6:                                # %join.7.i.i.i100.preheader
                                        #   in Loop: Header=BB65_1 Depth=1
	leaq	64(%rsp), %rdx
	movq	%r12, %r8
	callq	memcpy
	jmp	.LBB65_8
	.p2align	4
.LBB65_7:                               # %apart.2.i.i.i97
                                        #   in Loop: Header=BB65_1 Depth=1
	leaq	64(%rsp), %rdx
	movq	%r12, %r8
	callq	memmove
.LBB65_8:                               # %core_slots_Slots_copy_in_i8_20_core_clone_U8Clone_exit_i98_311
                                        #   in Loop: Header=BB65_1 Depth=1
	addq	%r12, %r15
	movq	%rdi, (%rbx)
	movq	%r15, 8(%rbx)
	movq	%rbp, 16(%rbx)
.LBB65_9:                               # %std_alloc_vec_Vec_extend_from_slice_0cd040e5c49bc722_exit112_312
                                        #   in Loop: Header=BB65_1 Depth=1
	addq	$62, %r14
	pmovmskb	%xmm7, %eax
	xorl	$65535, %eax                    # imm = 0xFFFF
	pmovmskb	%xmm6, %ecx
	notl	%ecx
	shll	$16, %ecx
	orl	%eax, %ecx
	xorl	%eax, %eax
	popcntl	%ecx, %eax
	addq	%r14, %rsi
	movq	56(%rsp), %rdx                  # 8-byte Reload
	addq	%rax, %rdx
	movq	%r13, %rax
	incq	%rax
	xorl	%r13d, %r13d
	testl	%ecx, %ecx
	cmoveq	%rax, %r13
	cmpq	$8, %rdx
	movl	$8, %eax
	cmovbq	%rdx, %rax
	cmpq	%rax, %r13
	ja	.LBB65_11
# %bb.10:                               # %std_alloc_vec_Vec_extend_from_slice_0cd040e5c49bc722_exit112_312
                                        #   in Loop: Header=BB65_1 Depth=1
	movq	40(%rsp), %rax                  # 8-byte Reload
	subq	%rsi, %rax
	cmpq	$63, %rax
	ja	.LBB65_1
	jmp	.LBB65_11
.LBB65_3:                               # %std_alloc_vec_Vec_grow_5fdc5e19576447a7_exit_i107_313
                                        #   in Loop: Header=BB65_1 Depth=1
	movq	%rbx, %rcx
	movq	%r12, %rdx
	callq	std_alloc_vec_Vec_grow_amortized_5fdc5e19576447a7_3
	testb	%al, %al
	je	.LBB65_9
# %bb.4:                                # %std_alloc_vec_Vec_grow_5fdc5e19576447a7_exit_join_3_crit_edge_i109_314
                                        #   in Loop: Header=BB65_1 Depth=1
	movq	(%rbx), %rdi
	movq	8(%rbx), %r15
	movq	16(%rbx), %rbp
	jmp	.LBB65_5
.LBB65_11:                              # %after.1
	movq	%rsi, %rax
	movaps	96(%rsp), %xmm6                 # 16-byte Reload
	movaps	112(%rsp), %xmm7                # 16-byte Reload
	movaps	128(%rsp), %xmm8                # 16-byte Reload
	movaps	144(%rsp), %xmm9                # 16-byte Reload
	movaps	160(%rsp), %xmm10               # 16-byte Reload
	addq	$184, %rsp
	popq	%rbx
	popq	%rbp
	popq	%rdi
	popq	%rsi
	popq	%r12
	popq	%r13
	popq	%r14
	popq	%r15
	retq
	.seh_endproc
                                        # -- End function
	.def	recoding_engine_recode_faults_d9c9637553368c70_309;
	.scl	3;
	.type	32;
	.endef
	.section .text$n70,"xr"
	.p2align	4                               # -- Begin function recoding::engine::recode_faults::<#d9c9637553368c70>
recoding_engine_recode_faults_d9c9637553368c70_309: # @recoding_engine_recode_faults_d9c9637553368c70_309
.seh_proc recoding_engine_recode_faults_d9c9637553368c70_309
# %bb.0:                                # %start
	pushq	%r15
	.seh_pushreg %r15
	pushq	%r14
	.seh_pushreg %r14
	pushq	%r13
	.seh_pushreg %r13
	pushq	%r12
	.seh_pushreg %r12
	pushq	%rsi
	.seh_pushreg %rsi
	pushq	%rdi
	.seh_pushreg %rdi
	pushq	%rbp
	.seh_pushreg %rbp
	pushq	%rbx
	.seh_pushreg %rbx
	.seh_endprologue
	movq	104(%rsp), %r13
	cmpb	$2, (%rdx)
	setne	%r10b
	cmpq	$0, 16(%rdx)
	setne	%r12b
	orb	%r10b, %r12b
	movl	$16, %r11d
	xorl	%edi, %edi
	xorl	%r10d, %r10d
	jmp	.LBB66_1
	.p2align	4
.LBB66_13:                              # %recoding_text_Utf16Text_put_any_f52bd5352b4cd2db_exit_233
                                        #   in Loop: Header=BB66_1 Depth=1
	incq	%r10
.LBB66_15:                              # %join.12
                                        #   in Loop: Header=BB66_1 Depth=1
	movl	$2, %edi
	addq	%rsi, %rdi
	cmpq	%r11, %rdi
	jae	.LBB66_17
.LBB66_1:                               # %join.5
                                        # =>This Inner Loop Header: Depth=1
	movq	%rdi, %rsi
	addq	$4, %rdi
	cmpq	%r9, %rdi
	jbe	.LBB66_2
# %bb.6:                                # %join.3.i
                                        #   in Loop: Header=BB66_1 Depth=1
	movq	%r9, %r14
	subq	%rsi, %r14
	cmpq	$2, %r14
	jb	.LBB66_10
# %bb.7:                                # %join.3.i.i
                                        #   in Loop: Header=BB66_1 Depth=1
	movzbl	(%r8,%rsi), %ebx
	shll	$8, %ebx
	movl	%ebx, %ebp
	andl	$64512, %ebp                    # imm = 0xFC00
	cmpl	$56320, %ebp                    # imm = 0xDC00
	je	.LBB66_11
# %bb.8:                                # %join.3.i.i
                                        #   in Loop: Header=BB66_1 Depth=1
	movzbl	1(%r8,%rsi), %r15d
	orl	%r15d, %ebx
	cmpl	$55296, %ebp                    # imm = 0xD800
	jne	.LBB66_14
# %bb.9:                                # %join.6.i.i
                                        #   in Loop: Header=BB66_1 Depth=1
	cmpq	$4, %r14
	jae	.LBB66_4
	jmp	.LBB66_10
	.p2align	4
.LBB66_2:                               # %then.1.i
                                        #   in Loop: Header=BB66_1 Depth=1
	movzbl	(%r8,%rsi), %ebx
	shll	$8, %ebx
	movl	%ebx, %ebp
	andl	$64512, %ebp                    # imm = 0xFC00
	cmpl	$56320, %ebp                    # imm = 0xDC00
	je	.LBB66_11
# %bb.3:                                # %then.1.i
                                        #   in Loop: Header=BB66_1 Depth=1
	movzbl	1(%r8,%rsi), %r14d
	orl	%r14d, %ebx
	cmpl	$55296, %ebp                    # imm = 0xD800
	jne	.LBB66_14
.LBB66_4:                               # %join.15.i74.i205.i
                                        #   in Loop: Header=BB66_1 Depth=1
	movzbl	2(%r8,%rsi), %r14d
	movl	%r14d, %ebp
	andl	$-4, %ebp
	cmpl	$220, %ebp
	jne	.LBB66_11
# %bb.5:                                # %arm.14.i200.i
                                        #   in Loop: Header=BB66_1 Depth=1
	movzbl	3(%r8,%rsi), %edi
	andl	$1023, %ebx                     # imm = 0x3FF
	shll	$10, %ebx
	andl	$3, %r14d
	shll	$8, %r14d
	orl	%edi, %r14d
	leal	(%rbx,%r14), %edi
	addl	$65536, %edi                    # imm = 0x10000
	movl	%edi, %ebx
	shrl	$10, %ebx
	addl	$-10304, %ebx                   # imm = 0xD7C0
	movl	%edi, %ebp
	shrl	$8, %edi
	andb	$3, %dil
	orb	$-36, %dil
	movq	(%r13), %rdx
	movq	8(%r13), %rax
	movb	%bh, (%rdx,%rax)
	movq	(%r13), %rdx
	movb	%bl, 1(%rdx,%rax)
	movq	(%r13), %rdx
	movb	%dil, 2(%rdx,%rax)
	movq	(%r13), %rdx
	movb	%bpl, 3(%rdx,%rax)
	addq	$4, %rax
	movq	%rax, 8(%r13)
	movl	$4, %edi
	addq	%rsi, %rdi
	cmpq	%r11, %rdi
	jb	.LBB66_1
	jmp	.LBB66_17
	.p2align	4
.LBB66_11:                              # %arm.11
                                        #   in Loop: Header=BB66_1 Depth=1
	cmpq	$32, %rdi
	movl	$32, %r11d
	cmovbq	%rdi, %r11
	testb	%r12b, %r12b
	je	.LBB66_13
# %bb.12:                               # %recoding_text_Utf16Text_put_code_f52bd5352b4cd2db_exit_i_i_281
                                        #   in Loop: Header=BB66_1 Depth=1
	movq	(%r13), %rax
	movq	8(%r13), %rdx
	movb	$-1, (%rax,%rdx)
	movq	(%r13), %rax
	movb	$-3, 1(%rax,%rdx)
	addq	$2, %rdx
	movq	%rdx, 8(%r13)
	jmp	.LBB66_13
	.p2align	4
.LBB66_14:                              # %arm.1.i
                                        #   in Loop: Header=BB66_1 Depth=1
	movq	(%r13), %rdi
	movq	8(%r13), %rbp
	movb	%bh, (%rdi,%rbp)
	movq	(%r13), %rdi
	movb	%bl, 1(%rdi,%rbp)
	addq	$2, %rbp
	movq	%rbp, 8(%r13)
	jmp	.LBB66_15
.LBB66_17:                              # %after.1
	movq	%rdi, (%rcx)
	movq	%r10, 8(%rcx)
	movq	$0, 16(%rcx)
	jmp	.LBB66_18
.LBB66_10:                              # %arm.7
	movq	%rsi, (%rcx)
	movq	%r10, 8(%rcx)
	movw	$256, 16(%rcx)                  # imm = 0x100
	movl	$0, 18(%rcx)
	movw	$0, 22(%rcx)
.LBB66_18:                              # %after.1
	popq	%rbx
	popq	%rbp
	popq	%rdi
	popq	%rsi
	popq	%r12
	popq	%r13
	popq	%r14
	popq	%r15
	retq
	.seh_endproc
                                        # -- End function
	.def	recoding_recoder_Recoder_feed_joined_e3b2a9d4d2861db8_33;
	.scl	3;
	.type	32;
	.endef
	.section .text$n71,"xr"
	.p2align	4                               # -- Begin function recoding::recoder::Recoder::feed_joined::<#e3b2a9d4d2861db8>
recoding_recoder_Recoder_feed_joined_e3b2a9d4d2861db8_33: # @recoding_recoder_Recoder_feed_joined_e3b2a9d4d2861db8_33
.seh_proc recoding_recoder_Recoder_feed_joined_e3b2a9d4d2861db8_33
# %bb.0:                                # %start
	pushq	%r15
	.seh_pushreg %r15
	pushq	%r14
	.seh_pushreg %r14
	pushq	%r13
	.seh_pushreg %r13
	pushq	%r12
	.seh_pushreg %r12
	pushq	%rsi
	.seh_pushreg %rsi
	pushq	%rdi
	.seh_pushreg %rdi
	pushq	%rbx
	.seh_pushreg %rbx
	subq	$48, %rsp
	.seh_stackalloc 48
	.seh_endprologue
	movq	%r9, %r14
	movq	%r8, %rbx
	movq	%rdx, %rdi
	movq	%rcx, %rsi
	movq	(%rcx), %r13
	leaq	(%r8,%r13), %rax
	movabsq	$6148914691236517205, %rcx      # imm = 0x5555555555555555
	cmpq	%rcx, %rax
	cmovbq	%rax, %rcx
	leaq	(%rcx,%rcx,2), %rdx
	movq	16(%r9), %rax
	subq	8(%r9), %rax
	cmpq	%rax, %rdx
	ja	.LBB67_1
.LBB67_3:                               # %arm.1
	leaq	8(%rsi), %rax
	testq	%r13, %r13
	cmoveq	%rdi, %rax
	movzbl	(%rax), %eax
	cmpq	$1, %r13
	jbe	.LBB67_4
# %bb.7:                                # %recoding_held_byte_of_both_exit95_i_315
	movzbl	9(%rsi), %ecx
	cmpq	$2, %r13
	je	.LBB67_8
# %bb.11:                               # %recoding_held_byte_of_both_exit83_i_316
	movzbl	10(%rsi), %edx
	cmpq	$3, %r13
	jbe	.LBB67_12
# %bb.15:                               # %recoding_held_byte_of_both_exit71_i_317
	movzbl	11(%rsi), %r8d
	cmpq	$4, %r13
	je	.LBB67_16
# %bb.18:                               # %recoding_held_byte_of_both_exit59_i_318
	movzbl	12(%rsi), %r9d
	cmpq	$6, %r13
	jb	.LBB67_21
# %bb.19:                               # %then.1.i46.i
	movzbl	13(%rsi), %r10d
	jmp	.LBB67_24
.LBB67_4:                               # %join.3.i85.i
	movl	$1, %ecx
	subq	%r13, %rcx
	cmpq	%rbx, %rcx
	jae	.LBB67_5
# %bb.6:                                # %then.4.i89.i
	movzbl	(%rdi,%rcx), %ecx
.LBB67_8:                               # %join.3.i73.i
	movl	$2, %edx
	subq	%r13, %rdx
	cmpq	%rbx, %rdx
	jae	.LBB67_9
.LBB67_10:                              # %then.4.i77.i
	movzbl	(%rdi,%rdx), %edx
.LBB67_12:                              # %join.3.i61.i
	movl	$3, %r8d
	subq	%r13, %r8
	cmpq	%rbx, %r8
	jae	.LBB67_13
.LBB67_14:                              # %then.4.i65.i
	movzbl	(%rdi,%r8), %r8d
.LBB67_16:                              # %join.3.i49.i
	movl	$4, %r9d
	subq	%r13, %r9
	cmpq	%rbx, %r9
	jae	.LBB67_17
.LBB67_20:                              # %then.4.i53.i
	movzbl	(%rdi,%r9), %r9d
.LBB67_21:                              # %join.3.i.i
	movl	$5, %r10d
	subq	%r13, %r10
	cmpq	%rbx, %r10
	jae	.LBB67_22
.LBB67_23:                              # %then.4.i.i
	movzbl	(%rdi,%r10), %r10d
	jmp	.LBB67_24
.LBB67_5:
	xorl	%ecx, %ecx
	movl	$2, %edx
	subq	%r13, %rdx
	cmpq	%rbx, %rdx
	jb	.LBB67_10
.LBB67_9:
	xorl	%edx, %edx
	movl	$3, %r8d
	subq	%r13, %r8
	cmpq	%rbx, %r8
	jb	.LBB67_14
.LBB67_13:
	xorl	%r8d, %r8d
	movl	$4, %r9d
	subq	%r13, %r9
	cmpq	%rbx, %r9
	jb	.LBB67_20
.LBB67_17:
	xorl	%r9d, %r9d
	movl	$5, %r10d
	subq	%r13, %r10
	cmpq	%rbx, %r10
	jb	.LBB67_23
.LBB67_22:
	xorl	%r10d, %r10d
.LBB67_24:                              # %recoding_held_byte_of_both_exit_i_319
	cmpq	$3, %rbx
	movl	$3, %r12d
	cmovbq	%rbx, %r12
	addq	%r13, %r12
	movb	%al, 42(%rsp)
	movb	%cl, 43(%rsp)
	movb	%dl, 44(%rsp)
	movb	%r8b, 45(%rsp)
	movb	%r9b, 46(%rsp)
	movb	%r10b, 47(%rsp)
	movzbl	16(%rsi), %ecx
	movzbl	17(%rsi), %eax
	cmpl	$2, %ecx
	je	.LBB67_36
# %bb.25:                               # %recoding_held_byte_of_both_exit_i_319
	cmpl	$1, %ecx
	jne	.LBB67_26
# %bb.31:                               # %arm.2.i118.i
	leaq	42(%rsp), %rcx
	movq	%r12, %rdx
	movq	%r14, %r8
	cmpl	$2, %eax
	je	.LBB67_35
# %bb.32:                               # %arm.2.i118.i
	cmpl	$1, %eax
	jne	.LBB67_33
# %bb.34:                               # %arm.11.i121.i
	callq	recoding_recoder_runs_run_whole_06163603a29b5506_36
	movq	%rdx, %r15
	cmpq	$3, %rbx
	jbe	.LBB67_42
	jmp	.LBB67_49
.LBB67_36:                              # %arm.3.i109.i
	leaq	42(%rsp), %rcx
	movq	%r12, %rdx
	movq	%r14, %r8
	cmpl	$2, %eax
	je	.LBB67_40
# %bb.37:                               # %arm.3.i109.i
	cmpl	$1, %eax
	jne	.LBB67_38
# %bb.39:                               # %arm.15.i113.i
	callq	recoding_recoder_runs_run_whole_e742a82e1969306f_37
	movq	%rdx, %r15
	cmpq	$3, %rbx
	jbe	.LBB67_42
	jmp	.LBB67_49
.LBB67_26:                              # %arm.1.i125.i
	leaq	42(%rsp), %rcx
	movq	%r12, %rdx
	movq	%r14, %r8
	cmpl	$2, %eax
	je	.LBB67_30
# %bb.27:                               # %arm.1.i125.i
	cmpl	$1, %eax
	jne	.LBB67_28
# %bb.29:                               # %arm.7.i128.i
	callq	recoding_recoder_runs_run_whole_2857ed0d0693875d_38
	movq	%rdx, %r15
	cmpq	$3, %rbx
	jbe	.LBB67_42
	jmp	.LBB67_49
.LBB67_35:                              # %arm.12.i119.i
	callq	recoding_recoder_runs_run_whole_daeca7e912b417d6_39
	movq	%rdx, %r15
	cmpq	$3, %rbx
	jbe	.LBB67_42
	jmp	.LBB67_49
.LBB67_40:                              # %arm.16.i110.i
	callq	recoding_recoder_runs_run_whole_9bba14706ba0829a_40
	movq	%rdx, %r15
	cmpq	$3, %rbx
	jbe	.LBB67_42
	jmp	.LBB67_49
.LBB67_33:                              # %arm.10.i123.i
	callq	recoding_recoder_runs_run_whole_d46ce40aec13b609_41
	movq	%rdx, %r15
	cmpq	$3, %rbx
	jbe	.LBB67_42
	jmp	.LBB67_49
.LBB67_38:                              # %arm.14.i115.i
	callq	recoding_recoder_runs_run_whole_8e1925640e2330c5_42
	movq	%rdx, %r15
	cmpq	$3, %rbx
	jbe	.LBB67_42
	jmp	.LBB67_49
.LBB67_30:                              # %arm.8.i126.i
	callq	recoding_recoder_runs_run_whole_9c534bed186decad_43
	movq	%rdx, %r15
	cmpq	$3, %rbx
	ja	.LBB67_49
.LBB67_42:                              # %then.1.i5
	subq	%rax, %r12
	movq	%r12, (%rsi)
	je	.LBB67_74
# %bb.43:                               # %join.3.i.i22.i
	movzbl	42(%rsp,%rax), %ecx
	cmpq	$1, %r12
	jne	.LBB67_45
# %bb.44:
	xorl	%edx, %edx
	xorl	%eax, %eax
	jmp	.LBB67_48
.LBB67_45:                              # %join.6.i.i25.i
	movzbl	43(%rsp,%rax), %edx
	cmpq	$2, %r12
	jne	.LBB67_47
# %bb.46:
	xorl	%eax, %eax
	jmp	.LBB67_48
.LBB67_28:                              # %arm.6.i130.i
	callq	recoding_recoder_runs_run_whole_d908eddfe8754f34_44
	movq	%rdx, %r15
	cmpq	$3, %rbx
	jbe	.LBB67_42
.LBB67_49:                              # %join.3.i
	subq	%r13, %rax
	addq	%rax, %rdi
	subq	%rax, %rbx
	movzbl	16(%rsi), %ecx
	movzbl	17(%rsi), %eax
	cmpl	$2, %ecx
	je	.LBB67_61
# %bb.50:                               # %join.3.i
	cmpl	$1, %ecx
	jne	.LBB67_51
# %bb.56:                               # %arm.2.i.i
	movq	%rdi, %rcx
	movq	%rbx, %rdx
	movq	%r14, %r8
	cmpl	$2, %eax
	je	.LBB67_60
# %bb.57:                               # %arm.2.i.i
	cmpl	$1, %eax
	jne	.LBB67_58
# %bb.59:                               # %arm.11.i.i
	callq	recoding_recoder_runs_run_whole_06163603a29b5506_36
	subq	%rax, %rbx
	movq	%rbx, (%rsi)
	jne	.LBB67_67
	jmp	.LBB67_73
.LBB67_61:                              # %arm.3.i.i
	movq	%rdi, %rcx
	movq	%rbx, %rdx
	movq	%r14, %r8
	cmpl	$2, %eax
	je	.LBB67_65
# %bb.62:                               # %arm.3.i.i
	cmpl	$1, %eax
	jne	.LBB67_63
# %bb.64:                               # %arm.15.i.i
	callq	recoding_recoder_runs_run_whole_e742a82e1969306f_37
	subq	%rax, %rbx
	movq	%rbx, (%rsi)
	jne	.LBB67_67
	jmp	.LBB67_73
.LBB67_51:                              # %arm.1.i.i
	movq	%rdi, %rcx
	movq	%rbx, %rdx
	movq	%r14, %r8
	cmpl	$2, %eax
	je	.LBB67_55
# %bb.52:                               # %arm.1.i.i
	cmpl	$1, %eax
	jne	.LBB67_53
# %bb.54:                               # %arm.7.i.i
	callq	recoding_recoder_runs_run_whole_2857ed0d0693875d_38
	subq	%rax, %rbx
	movq	%rbx, (%rsi)
	jne	.LBB67_67
	jmp	.LBB67_73
.LBB67_47:                              # %join.9.i.i29.i
	movzbl	44(%rsp,%rax), %eax
.LBB67_48:                              # %recoding_held_padded_to_three_exit_i34_i_320
	movb	%cl, 8(%rsi)
	movb	%dl, 9(%rsi)
	movb	%al, 10(%rsi)
	jmp	.LBB67_74
.LBB67_1:                               # %std_alloc_vec_Vec_grow_5fdc5e19576447a7_exit_i_76
	movq	%r14, %rcx
	callq	std_alloc_vec_Vec_grow_amortized_5fdc5e19576447a7_3
	movl	%eax, %ecx
	movb	$1, %al
	testb	%cl, %cl
	je	.LBB67_77
# %bb.2:                                # %std_alloc_vec_Vec_grow_5fdc5e19576447a7_exit_i_arm_1_crit_edge_321
	movq	(%rsi), %r13
	jmp	.LBB67_3
.LBB67_60:                              # %arm.12.i.i
	callq	recoding_recoder_runs_run_whole_daeca7e912b417d6_39
	subq	%rax, %rbx
	movq	%rbx, (%rsi)
	jne	.LBB67_67
	jmp	.LBB67_73
.LBB67_65:                              # %arm.16.i.i
	callq	recoding_recoder_runs_run_whole_9bba14706ba0829a_40
	subq	%rax, %rbx
	movq	%rbx, (%rsi)
	jne	.LBB67_67
	jmp	.LBB67_73
.LBB67_58:                              # %arm.10.i.i
	callq	recoding_recoder_runs_run_whole_d46ce40aec13b609_41
	subq	%rax, %rbx
	movq	%rbx, (%rsi)
	jne	.LBB67_67
	jmp	.LBB67_73
.LBB67_63:                              # %arm.14.i.i
	callq	recoding_recoder_runs_run_whole_8e1925640e2330c5_42
	subq	%rax, %rbx
	movq	%rbx, (%rsi)
	jne	.LBB67_67
	jmp	.LBB67_73
.LBB67_55:                              # %arm.8.i.i
	callq	recoding_recoder_runs_run_whole_9c534bed186decad_43
	subq	%rax, %rbx
	movq	%rbx, (%rsi)
	jne	.LBB67_67
	jmp	.LBB67_73
.LBB67_53:                              # %arm.6.i.i
	callq	recoding_recoder_runs_run_whole_d908eddfe8754f34_44
	subq	%rax, %rbx
	movq	%rbx, (%rsi)
	je	.LBB67_73
.LBB67_67:                              # %join.3.i.i.i
	movzbl	(%rdi,%rax), %ecx
	cmpq	$1, %rbx
	jne	.LBB67_69
# %bb.68:
	xorl	%r8d, %r8d
	xorl	%eax, %eax
	jmp	.LBB67_72
.LBB67_69:                              # %join.6.i.i.i
	movzbl	1(%rdi,%rax), %r8d
	cmpq	$2, %rbx
	jne	.LBB67_71
# %bb.70:
	xorl	%eax, %eax
	jmp	.LBB67_72
.LBB67_71:                              # %join.9.i.i.i
	movzbl	2(%rdi,%rax), %eax
.LBB67_72:                              # %recoding_held_padded_to_three_exit_i_i_322
	movb	%cl, 8(%rsi)
	movb	%r8b, 9(%rsi)
	movb	%al, 10(%rsi)
.LBB67_73:                              # %recoding_held_Held_hold_exit_i_323
	addq	%rdx, %r15
.LBB67_74:                              # %recoding_recoder_Recoder_append_joined_e3b2a9d4d2861db8_exit_324
	testq	%r15, %r15
	je	.LBB67_76
# %bb.75:                               # %then.1.i
	addq	24(%rsi), %r15
	movq	$-1, %rax
	cmovaeq	%r15, %rax
	movq	%rax, 24(%rsi)
.LBB67_76:                              # %return.5
	xorl	%eax, %eax
.LBB67_77:                              # %return.5
                                        # kill: def $al killed $al killed $eax
	addq	$48, %rsp
	popq	%rbx
	popq	%rdi
	popq	%rsi
	popq	%r12
	popq	%r13
	popq	%r14
	popq	%r15
	retq
	.seh_endproc
                                        # -- End function
	.def	text_programs_programs_stops_Stop_report_2daa2fb2be07fb73_16;
	.scl	3;
	.type	32;
	.endef
	.section .text$n72,"xr"
	.p2align	4                               # -- Begin function text_programs::programs::stops::Stop::report::<#2daa2fb2be07fb73>
text_programs_programs_stops_Stop_report_2daa2fb2be07fb73_16: # @text_programs_programs_stops_Stop_report_2daa2fb2be07fb73_16
.seh_proc text_programs_programs_stops_Stop_report_2daa2fb2be07fb73_16
# %bb.0:                                # %start
	pushq	%r15
	.seh_pushreg %r15
	pushq	%r14
	.seh_pushreg %r14
	pushq	%rsi
	.seh_pushreg %rsi
	pushq	%rdi
	.seh_pushreg %rdi
	pushq	%rbx
	.seh_pushreg %rbx
	subq	$128, %rsp
	.seh_stackalloc 128
	.seh_endprologue
	movl	%ecx, %ebx
	xorl	%edi, %edi
	.p2align	4
.LBB68_1:                               # %join.5.i.i
                                        # =>This Inner Loop Header: Depth=1
	leaq	static.1(%rip), %rdx
	addq	%rdi, %rdx
	movl	$6, %esi
	subq	%rdi, %rsi
	movl	$2, %ecx
	movq	%rsi, %r8
	callq	noddychest_write
	testq	%rax, %rax
	js	.LBB68_14
# %bb.2:                                # %arm.6.i.i
                                        #   in Loop: Header=BB68_1 Depth=1
	cmpq	%rsi, %rax
	cmovbq	%rax, %rsi
	testq	%rsi, %rsi
	je	.LBB68_15
# %bb.3:                                # %join.12.i.i
                                        #   in Loop: Header=BB68_1 Depth=1
	addq	%rsi, %rdi
	cmpq	$6, %rdi
	jb	.LBB68_1
# %bb.4:                                # %join.5.i12.i.peel
	leaq	static.22(%rip), %rdx
	movl	$2, %r8d
	movl	$2, %ecx
	callq	noddychest_write
	testq	%rax, %rax
	js	.LBB68_14
# %bb.5:                                # %arm.6.i20.i.peel
	je	.LBB68_15
# %bb.6:                                # %arm.6.i20.i.peel
	cmpq	$1, %rax
	jne	.LBB68_9
# %bb.7:                                # %join.5.i12.i
	leaq	static.22+1(%rip), %rdx
	movl	$1, %r8d
	movl	$2, %ecx
	callq	noddychest_write
	testq	%rax, %rax
	js	.LBB68_14
# %bb.8:                                # %arm.6.i20.i
	je	.LBB68_15
.LBB68_9:                               # %switch.lookup
	leaq	switch_table_text_programs_programs_stops_Stop_report_2daa2fb2be07fb73_325(%rip), %rax
	movzbl	%bl, %ecx
	movq	(%rax,%rcx,8), %rdi
	leaq	switch_table_text_programs_programs_stops_Stop_report_2daa2fb2be07fb73_102_rel_326(%rip), %rax
	movslq	(%rax,%rcx,4), %r14
	addq	%rax, %r14
	xorl	%r15d, %r15d
	.p2align	4
.LBB68_10:                              # %join.5.i41.i
                                        # =>This Inner Loop Header: Depth=1
	leaq	(%r14,%r15), %rdx
	movq	%rdi, %rsi
	subq	%r15, %rsi
	movl	$2, %ecx
	movq	%rsi, %r8
	callq	noddychest_write
	testq	%rax, %rax
	js	.LBB68_14
# %bb.11:                               # %arm.6.i49.i
                                        #   in Loop: Header=BB68_10 Depth=1
	cmpq	%rsi, %rax
	cmovbq	%rax, %rsi
	testq	%rsi, %rsi
	je	.LBB68_15
# %bb.12:                               # %join.12.i53.i
                                        #   in Loop: Header=BB68_10 Depth=1
	addq	%rsi, %r15
	cmpq	%rdi, %r15
	jb	.LBB68_10
# %bb.13:                               # %loop.2.i64.i.preheader
	leaq	static.23(%rip), %rdx
	movl	$1, %r8d
	movl	$2, %ecx
	callq	noddychest_write
	testq	%rax, %rax
	jns	.LBB68_15
.LBB68_14:                              # %arm.7.i74.i
	leaq	40(%rsp), %rcx
	callq	std_io_io_error_last_error_34
.LBB68_15:                              # %text_programs_programs_stops_Stop_write_line_2daa2fb2be07fb73_exit_327
	testb	%bl, %bl
	sete	%al
	xorb	$3, %al
	addq	$128, %rsp
	popq	%rbx
	popq	%rdi
	popq	%rsi
	popq	%r14
	popq	%r15
	retq
	.seh_endproc
                                        # -- End function
	.def	noddychest_main;
	.scl	2;
	.type	32;
	.endef
	.section .rdata$n0,"dr"
	.p2align	4, 0x0                          # -- Begin function noddychest_main
.LCPI69_0:
	.byte	116                             # 0x74
	.byte	104                             # 0x68
	.byte	105                             # 0x69
	.byte	115                             # 0x73
	.byte	32                              # 0x20
	.byte	109                             # 0x6d
	.byte	97                              # 0x61
	.byte	99                              # 0x63
	.byte	104                             # 0x68
	.byte	105                             # 0x69
	.byte	110                             # 0x6e
	.byte	101                             # 0x65
	.byte	32                              # 0x20
	.byte	108                             # 0x6c
	.byte	97                              # 0x61
	.byte	99                              # 0x63
.LCPI69_1:
	.byte	107                             # 0x6b
	.byte	115                             # 0x73
	.byte	32                              # 0x20
	.byte	97                              # 0x61
	.byte	32                              # 0x20
	.byte	102                             # 0x66
	.byte	101                             # 0x65
	.byte	97                              # 0x61
	.byte	116                             # 0x74
	.byte	117                             # 0x75
	.byte	114                             # 0x72
	.byte	101                             # 0x65
	.byte	32                              # 0x20
	.byte	111                             # 0x6f
	.byte	102                             # 0x66
	.byte	32                              # 0x20
.LCPI69_2:
	.byte	120                             # 0x78
	.byte	56                              # 0x38
	.byte	54                              # 0x36
	.byte	45                              # 0x2d
	.byte	54                              # 0x36
	.byte	52                              # 0x34
	.byte	45                              # 0x2d
	.byte	118                             # 0x76
	.byte	50                              # 0x32
	.byte	44                              # 0x2c
	.byte	32                              # 0x20
	.byte	119                             # 0x77
	.byte	104                             # 0x68
	.byte	105                             # 0x69
	.byte	99                              # 0x63
	.byte	104                             # 0x68
.LCPI69_3:
	.byte	32                              # 0x20
	.byte	116                             # 0x74
	.byte	104                             # 0x68
	.byte	105                             # 0x69
	.byte	115                             # 0x73
	.byte	32                              # 0x20
	.byte	112                             # 0x70
	.byte	114                             # 0x72
	.byte	111                             # 0x6f
	.byte	103                             # 0x67
	.byte	114                             # 0x72
	.byte	97                              # 0x61
	.byte	109                             # 0x6d
	.byte	32                              # 0x20
	.byte	119                             # 0x77
	.byte	97                              # 0x61
.LCPI69_4:
	.byte	115                             # 0x73
	.byte	32                              # 0x20
	.byte	98                              # 0x62
	.byte	117                             # 0x75
	.byte	105                             # 0x69
	.byte	108                             # 0x6c
	.byte	116                             # 0x74
	.byte	32                              # 0x20
	.byte	102                             # 0x66
	.byte	111                             # 0x6f
	.byte	114                             # 0x72
	.byte	58                              # 0x3a
	.byte	32                              # 0x20
	.byte	114                             # 0x72
	.byte	117                             # 0x75
	.byte	110                             # 0x6e
.LCPI69_5:
	.byte	32                              # 0x20
	.byte	105                             # 0x69
	.byte	116                             # 0x74
	.byte	32                              # 0x20
	.byte	111                             # 0x6f
	.byte	110                             # 0x6e
	.byte	32                              # 0x20
	.byte	97                              # 0x61
	.byte	110                             # 0x6e
	.byte	111                             # 0x6f
	.byte	116                             # 0x74
	.byte	104                             # 0x68
	.byte	101                             # 0x65
	.byte	114                             # 0x72
	.byte	32                              # 0x20
	.byte	109                             # 0x6d
.LCPI69_6:
	.byte	97                              # 0x61
	.byte	99                              # 0x63
	.byte	104                             # 0x68
	.byte	105                             # 0x69
	.byte	110                             # 0x6e
	.byte	101                             # 0x65
	.byte	44                              # 0x2c
	.byte	32                              # 0x20
	.byte	111                             # 0x6f
	.byte	114                             # 0x72
	.byte	32                              # 0x20
	.byte	98                              # 0x62
	.byte	117                             # 0x75
	.byte	105                             # 0x69
	.byte	108                             # 0x6c
	.byte	100                             # 0x64
.LCPI69_7:
	.byte	32                              # 0x20
	.byte	105                             # 0x69
	.byte	116                             # 0x74
	.byte	32                              # 0x20
	.byte	119                             # 0x77
	.byte	105                             # 0x69
	.byte	116                             # 0x74
	.byte	104                             # 0x68
	.byte	32                              # 0x20
	.byte	45                              # 0x2d
	.byte	45                              # 0x2d
	.byte	99                              # 0x63
	.byte	112                             # 0x70
	.byte	117                             # 0x75
	.byte	32                              # 0x20
	.byte	120                             # 0x78
	.section .text$n73,"xr"
	.globl	noddychest_main
	.p2align	4
noddychest_main:                        # @noddychest_main
.seh_proc noddychest_main
# %bb.0:                                # %start
	pushq	%rbp
	.seh_pushreg %rbp
	pushq	%rsi
	.seh_pushreg %rsi
	pushq	%rax
	.seh_stackalloc 8
	movq	%rsp, %rbp
	.seh_setframe %rbp, 0
	.seh_endprologue
	subq	$32, %rsp
	movl	$1, %edx
	movl	$13, %ecx
	callq	noddychest_signal
	xorl	%ecx, %ecx
	callq	noddychest_features
	addq	$32, %rsp
	movl	24(%rax), %esi
	subq	$32, %rsp
	movl	$2, %ecx
	callq	noddychest_features
	addq	$32, %rsp
	notl	%esi
	testl	$9970177, %esi                  # imm = 0x982201
	jne	.LBB69_2
# %bb.1:                                # %start
	movl	24(%rax), %eax
	andl	$1, %eax
	je	.LBB69_2
# %bb.3:                                # %run
	leaq	8(%rbp), %rsp
	popq	%rsi
	popq	%rbp
	jmp	recode_main_start_0            # TAILCALL
.LBB69_2:                               # %refuse
	movl	$144, %eax
	callq	___chkstk_ms
	subq	%rax, %rsp
	movq	%rsp, %rdx
	movaps	.LCPI69_0(%rip), %xmm0          # xmm0 = [116,104,105,115,32,109,97,99,104,105,110,101,32,108,97,99]
	movaps	%xmm0, (%rdx)
	movaps	.LCPI69_1(%rip), %xmm0          # xmm0 = [107,115,32,97,32,102,101,97,116,117,114,101,32,111,102,32]
	movaps	%xmm0, 16(%rdx)
	movaps	.LCPI69_2(%rip), %xmm0          # xmm0 = [120,56,54,45,54,52,45,118,50,44,32,119,104,105,99,104]
	movaps	%xmm0, 32(%rdx)
	movaps	.LCPI69_3(%rip), %xmm0          # xmm0 = [32,116,104,105,115,32,112,114,111,103,114,97,109,32,119,97]
	movaps	%xmm0, 48(%rdx)
	movaps	.LCPI69_4(%rip), %xmm0          # xmm0 = [115,32,98,117,105,108,116,32,102,111,114,58,32,114,117,110]
	movaps	%xmm0, 64(%rdx)
	movaps	.LCPI69_5(%rip), %xmm0          # xmm0 = [32,105,116,32,111,110,32,97,110,111,116,104,101,114,32,109]
	movaps	%xmm0, 80(%rdx)
	movaps	.LCPI69_6(%rip), %xmm0          # xmm0 = [97,99,104,105,110,101,44,32,111,114,32,98,117,105,108,100]
	movaps	%xmm0, 96(%rdx)
	movaps	.LCPI69_7(%rip), %xmm0          # xmm0 = [32,105,116,32,119,105,116,104,32,45,45,99,112,117,32,120]
	movaps	%xmm0, 112(%rdx)
	movl	$908932664, 128(%rdx)           # imm = 0x362D3638
	movw	$2612, 132(%rdx)                # imm = 0xA34
	subq	$32, %rsp
	movl	$134, %r8d
	movl	$2, %ecx
	callq	noddychest_write
	addq	$32, %rsp
	movl	$127, %eax
	leaq	8(%rbp), %rsp
	popq	%rsi
	popq	%rbp
	retq
	.seh_endproc
                                        # -- End function
	.section .rdata$n74,"dr"
static.1:                               # @static.1
	.ascii	"recode"

	.section .rdata$n75,"dr"
static.8:                               # @static.8
	.ascii	"\000\000\000\000\000\000\000\000\000\000\000\000\000\000\000\000\000\000\000\000\000\000\000\000\000\000\000\000\000\000\000\000\000\000\000\000\000\000\000\000\000\000\000\000\000\000\000\000\000\000\000\000\000\000\000\000\000\000\000\000\000\000\000\000\000\000\000\000\000\000\000\000\000\000\000\000\000\000\000\000\000\000\000\000\000\000\000\000\000\000\000\000\000\000\000\000\000\000\000\000\000\000\000\000\000\000\000\000\000\000\000\000\000\000\000\000\000\000\000\000\000\000\000\000\000\000\000\000\001\001\001\001\001\001\001\001\001\001\001\001\001\001\001\001\002\002\002\002\002\002\002\002\002\002\002\002\002\002\002\002\003\003\003\003\003\003\003\003\003\003\003\003\003\003\003\003\003\003\003\003\003\003\003\003\003\003\003\003\003\003\003\003\004\004\005\005\005\005\005\005\005\005\005\005\005\005\005\005\005\005\005\005\005\005\005\005\005\005\005\005\005\005\005\005\006\007\007\007\007\007\007\007\007\007\007\007\007\b\007\007\t\n\n\n\013\004\004\004\004\004\004\004\004\004\004\004"

	.section .rdata$n76,"dr"
static.9:                               # @static.9
	.ascii	"\r\016\016\016\017\001\004\002\005\006\003\007\020\020\020\020\020\r\r\r\020\020\020\020\020\020\020\020\020\020\020\020\020\001\001\001\020\020\020\020\020\020\020\020\020\020\020\020\020\002\002\002\020\020\020\020\020\020\020\020\020\020\020\020\020\t\t\001\020\020\020\020\020\020\020\020\020\020\020\020\020\001\001\n\020\020\020\020\020\020\020\020\020\020\020\020\020\b\002\002\020\020\020\020\020\020\020\020\020\020\020\020\020\002\013\013\020\020\020\020\020\020\020\020\020\020\020\020\020\t\t\t\020\020\020\020\020\020\020\020\020\020\020\020\020\021\021\021\020\020\020\020\020\020\020\020\020\020\020\020\020\022\022\022\020\020\020\020\020\020\020\020\020\020\020\020\020\f\f\f\020\020\020\020\020\020\020\020\020\020\020\020\020\023\023\023\020\020\020\020\020\020\020\020\020\020\020\020"

	.section .rdata$n77,"dr"
static.10:                              # @static.10
	.ascii	"\200\200\200\200\200\200\200\200\200\200\200\200\000\001\002\003\200\200\200\200\200\200\200\200\200\200\200\000\001\002\003\007\200\200\200\200\200\200\200\200\200\200\000\001\002\003\006\007\200\200\200\200\200\200\200\200\200\000\001\002\003\005\006\007\200\200\200\200\200\200\200\200\000\001\002\003\004\005\006\007\200\200\200\200\200\200\200\000\001\002\003\004\005\006\007\017\200\200\200\200\200\200\000\001\002\003\004\005\006\007\016\017\200\200\200\200\200\000\001\002\003\004\005\006\007\r\016\017\200\200\200\200\000\001\002\003\004\005\006\007\f\r\016\017\200\200\200\000\001\002\003\004\005\006\007\013\f\r\016\017\200\200\000\001\002\003\004\005\006\007\n\013\f\r\016\017\200\000\001\002\003\004\005\006\007\t\n\013\f\r\016\017\000\001\002\003\004\005\006\007\b\t\n\013\f\r\016\017"

	.section .rdata$n78,"dr"
static.17:                              # @static.17
	.ascii	"\000\000\000\000\000\000\000\000\000\000\000\000\000\000\000\000\000\001\000\000\000\000\000\000\000\000\000\000\000\000\000\000\002\003\000\000\000\000\000\000\000\000\000\000\000\000\000\000\000\001\002\003\000\000\000\000\000\000\000\000\000\000\000\000\004\005\000\000\000\000\000\000\000\000\000\000\000\000\000\000\000\001\004\005\000\000\000\000\000\000\000\000\000\000\000\000\002\003\004\005\000\000\000\000\000\000\000\000\000\000\000\000\000\001\002\003\004\005\000\000\000\000\000\000\000\000\000\000\006\007\000\000\000\000\000\000\000\000\000\000\000\000\000\000\000\001\006\007\000\000\000\000\000\000\000\000\000\000\000\000\002\003\006\007\000\000\000\000\000\000\000\000\000\000\000\000\000\001\002\003\006\007\000\000\000\000\000\000\000\000\000\000\004\005\006\007\000\000\000\000\000\000\000\000\000\000\000\000\000\001\004\005\006\007\000\000\000\000\000\000\000\000\000\000\002\003\004\005\006\007\000\000\000\000\000\000\000\000\000\000\000\001\002\003\004\005\006\007\000\000\000\000\000\000\000\000\b\t\000\000\000\000\000\000\000\000\000\000\000\000\000\000\000\001\b\t\000\000\000\000\000\000\000\000\000\000\000\000\002\003\b\t\000\000\000\000\000\000\000\000\000\000\000\000\000\001\002\003\b\t\000\000\000\000\000\000\000\000\000\000\004\005\b\t\000\000\000\000\000\000\000\000\000\000\000\000\000\001\004\005\b\t\000\000\000\000\000\000\000\000\000\000\002\003\004\005\b\t\000\000\000\000\000\000\000\000\000\000\000\001\002\003\004\005\b\t\000\000\000\000\000\000\000\000\006\007\b\t\000\000\000\000\000\000\000\000\000\000\000\000\000\001\006\007\b\t\000\000\000\000\000\000\000\000\000\000\002\003\006\007\b\t\000\000\000\000\000\000\000\000\000\000\000\001\002\003\006\007\b\t\000\000\000\000\000\000\000\000\004\005\006\007\b\t\000\000\000\000\000\000\000\000\000\000\000\001\004\005\006\007\b\t\000\000\000\000\000\000\000\000\002\003\004\005\006\007\b\t\000\000\000\000\000\000\000\000\000\001\002\003\004\005\006\007\b\t\000\000\000\000\000\000\n\013\000\000\000\000\000\000\000\000\000\000\000\000\000\000\000\001\n\013\000\000\000\000\000\000\000\000\000\000\000\000\002\003\n\013\000\000\000\000\000\000\000\000\000\000\000\000\000\001\002\003\n\013\000\000\000\000\000\000\000\000\000\000\004\005\n\013\000\000\000\000\000\000\000\000\000\000\000\000\000\001\004\005\n\013\000\000\000\000\000\000\000\000\000\000\002\003\004\005\n\013\000\000\000\000\000\000\000\000\000\000\000\001\002\003\004\005\n\013\000\000\000\000\000\000\000\000\006\007\n\013\000\000\000\000\000\000\000\000\000\000\000\000\000\001\006\007\n\013\000\000\000\000\000\000\000\000\000\000\002\003\006\007\n\013\000\000\000\000\000\000\000\000\000\000\000\001\002\003\006\007\n\013\000\000\000\000\000\000\000\000\004\005\006\007\n\013\000\000\000\000\000\000\000\000\000\000\000\001\004\005\006\007\n\013\000\000\000\000\000\000\000\000\002\003\004\005\006\007\n\013\000\000\000\000\000\000\000\000\000\001\002\003\004\005\006\007\n\013\000\000\000\000\000\000\b\t\n\013\000\000\000\000\000\000\000\000\000\000\000\000\000\001\b\t\n\013\000\000\000\000\000\000\000\000\000\000\002\003\b\t\n\013\000\000\000\000\000\000\000\000\000\000\000\001\002\003\b\t\n\013\000\000\000\000\000\000\000\000\004\005\b\t\n\013\000\000\000\000\000\000\000\000\000\000\000\001\004\005\b\t\n\013\000\000\000\000\000\000\000\000\002\003\004\005\b\t\n\013\000\000\000\000\000\000\000\000\000\001\002\003\004\005\b\t\n\013\000\000\000\000\000\000\006\007\b\t\n\013\000\000\000\000\000\000\000\000\000\000\000\001\006\007\b\t\n\013\000\000\000\000\000\000\000\000\002\003\006\007\b\t\n\013\000\000\000\000\000\000\000\000\000\001\002\003\006\007\b\t\n\013\000\000\000\000\000\000\004\005\006\007\b\t\n\013\000\000\000\000\000\000\000\000\000\001\004\005\006\007\b\t\n\013\000\000\000\000\000\000\002\003\004\005\006\007\b\t\n\013\000\000\000\000\000\000\000\001\002\003\004\005\006\007\b\t\n\013\000\000\000\000\f\r\000\000\000\000\000\000\000\000\000\000\000\000\000\000\000\001\f\r\000\000\000\000\000\000\000\000\000\000\000\000\002\003\f\r\000\000\000\000\000\000\000\000\000\000\000\000\000\001\002\003\f\r\000\000\000\000\000\000\000\000\000\000\004\005\f\r\000\000\000\000\000\000\000\000\000\000\000\000\000\001\004\005\f\r\000\000\000\000\000\000\000\000\000\000\002\003\004\005\f\r\000\000\000\000\000\000\000\000\000\000\000\001\002\003\004\005\f\r\000\000\000\000\000\000\000\000\006\007\f\r\000\000\000\000\000\000\000\000\000\000\000\000\000\001\006\007\f\r\000\000\000\000\000\000\000\000\000\000\002\003\006\007\f\r\000\000\000\000\000\000\000\000\000\000\000\001\002\003\006\007\f\r\000\000\000\000\000\000\000\000\004\005\006\007\f\r\000\000\000\000\000\000\000\000\000\000\000\001\004\005\006\007\f\r\000\000\000\000\000\000\000\000\002\003\004\005\006\007\f\r\000\000\000\000\000\000\000\000\000\001\002\003\004\005\006\007\f\r\000\000\000\000\000\000\b\t\f\r\000\000\000\000\000\000\000\000\000\000\000\000\000\001\b\t\f\r\000\000\000\000\000\000\000\000\000\000\002\003\b\t\f\r\000\000\000\000\000\000\000\000\000\000\000\001\002\003\b\t\f\r\000\000\000\000\000\000\000\000\004\005\b\t\f\r\000\000\000\000\000\000\000\000\000\000\000\001\004\005\b\t\f\r\000\000\000\000\000\000\000\000\002\003\004\005\b\t\f\r\000\000\000\000\000\000\000\000\000\001\002\003\004\005\b\t\f\r\000\000\000\000\000\000\006\007\b\t\f\r\000\000\000\000\000\000\000\000\000\000\000\001\006\007\b\t\f\r\000\000\000\000\000\000\000\000\002\003\006\007\b\t\f\r\000\000\000\000\000\000\000\000\000\001\002\003\006\007\b\t\f\r\000\000\000\000\000\000\004\005\006\007\b\t\f\r\000\000\000\000\000\000\000\000\000\001\004\005\006\007\b\t\f\r\000\000\000\000\000\000\002\003\004\005\006\007\b\t\f\r\000\000\000\000\000\000\000\001\002\003\004\005\006\007\b\t\f\r\000\000\000\000\n\013\f\r\000\000\000\000\000\000\000\000\000\000\000\000\000\001\n\013\f\r\000\000\000\000\000\000\000\000\000\000\002\003\n\013\f\r\000\000\000\000\000\000\000\000\000\000\000\001\002\003\n\013\f\r\000\000\000\000\000\000\000\000\004\005\n\013\f\r\000\000\000\000\000\000\000\000\000\000\000\001\004\005\n\013\f\r\000\000\000\000\000\000\000\000\002\003\004\005\n\013\f\r\000\000\000\000\000\000\000\000\000\001\002\003\004\005\n\013\f\r\000\000\000\000\000\000\006\007\n\013\f\r\000\000\000\000\000\000\000\000\000\000\000\001\006\007\n\013\f\r\000\000\000\000\000\000\000\000\002\003\006\007\n\013\f\r\000\000\000\000\000\000\000\000\000\001\002\003\006\007\n\013\f\r\000\000\000\000\000\000\004\005\006\007\n\013\f\r\000\000\000\000\000\000\000\000\000\001\004\005\006\007\n\013\f\r\000\000\000\000\000\000\002\003\004\005\006\007\n\013\f\r\000\000\000\000\000\000\000\001\002\003\004\005\006\007\n\013\f\r\000\000\000\000\b\t\n\013\f\r\000\000\000\000\000\000\000\000\000\000\000\001\b\t\n\013\f\r\000\000\000\000\000\000\000\000\002\003\b\t\n\013\f\r\000\000\000\000\000\000\000\000\000\001\002\003\b\t\n\013\f\r\000\000\000\000\000\000\004\005\b\t\n\013\f\r\000\000\000\000\000\000\000\000\000\001\004\005\b\t\n\013\f\r\000\000\000\000\000\000\002\003\004\005\b\t\n\013\f\r\000\000\000\000\000\000\000\001\002\003\004\005\b\t\n\013\f\r\000\000\000\000\006\007\b\t\n\013\f\r\000\000\000\000\000\000\000\000\000\001\006\007\b\t\n\013\f\r\000\000\000\000\000\000\002\003\006\007\b\t\n\013\f\r\000\000\000\000\000\000\000\001\002\003\006\007\b\t\n\013\f\r\000\000\000\000\004\005\006\007\b\t\n\013\f\r\000\000\000\000\000\000\000\001\004\005\006\007\b\t\n\013\f\r\000\000\000\000\002\003\004\005\006\007\b\t\n\013\f\r\000\000\000\000\000\001\002\003\004\005\006\007\b\t\n\013\f\r\000\000\016\017\000\000\000\000\000\000\000\000\000\000\000\000\000\000\000\001\016\017\000\000\000\000\000\000\000\000\000\000\000\000\002\003\016\017\000\000\000\000\000\000\000\000\000\000\000\000\000\001\002\003\016\017\000\000\000\000\000\000\000\000\000\000\004\005\016\017\000\000\000\000\000\000\000\000\000\000\000\000\000\001\004\005\016\017\000\000\000\000\000\000\000\000\000\000\002\003\004\005\016\017\000\000\000\000\000\000\000\000\000\000\000\001\002\003\004\005\016\017\000\000\000\000\000\000\000\000\006\007\016\017\000\000\000\000\000\000\000\000\000\000\000\000\000\001\006\007\016\017\000\000\000\000\000\000\000\000\000\000\002\003\006\007\016\017\000\000\000\000\000\000\000\000\000\000\000\001\002\003\006\007\016\017\000\000\000\000\000\000\000\000\004\005\006\007\016\017\000\000\000\000\000\000\000\000\000\000\000\001\004\005\006\007\016\017\000\000\000\000\000\000\000\000\002\003\004\005\006\007\016\017\000\000\000\000\000\000\000\000\000\001\002\003\004\005\006\007\016\017\000\000\000\000\000\000\b\t\016\017\000\000\000\000\000\000\000\000\000\000\000\000\000\001\b\t\016\017\000\000\000\000\000\000\000\000\000\000\002\003\b\t\016\017\000\000\000\000\000\000\000\000\000\000\000\001\002\003\b\t\016\017\000\000\000\000\000\000\000\000\004\005\b\t\016\017\000\000\000\000\000\000\000\000\000\000\000\001\004\005\b\t\016\017\000\000\000\000\000\000\000\000\002\003\004\005\b\t\016\017\000\000\000\000\000\000\000\000\000\001\002\003\004\005\b\t\016\017\000\000\000\000\000\000\006\007\b\t\016\017\000\000\000\000\000\000\000\000\000\000\000\001\006\007\b\t\016\017\000\000\000\000\000\000\000\000\002\003\006\007\b\t\016\017\000\000\000\000\000\000\000\000\000\001\002\003\006\007\b\t\016\017\000\000\000\000\000\000\004\005\006\007\b\t\016\017\000\000\000\000\000\000\000\000\000\001\004\005\006\007\b\t\016\017\000\000\000\000\000\000\002\003\004\005\006\007\b\t\016\017\000\000\000\000\000\000\000\001\002\003\004\005\006\007\b\t\016\017\000\000\000\000\n\013\016\017\000\000\000\000\000\000\000\000\000\000\000\000\000\001\n\013\016\017\000\000\000\000\000\000\000\000\000\000\002\003\n\013\016\017\000\000\000\000\000\000\000\000\000\000\000\001\002\003\n\013\016\017\000\000\000\000\000\000\000\000\004\005\n\013\016\017\000\000\000\000\000\000\000\000\000\000\000\001\004\005\n\013\016\017\000\000\000\000\000\000\000\000\002\003\004\005\n\013\016\017\000\000\000\000\000\000\000\000\000\001\002\003\004\005\n\013\016\017\000\000\000\000\000\000\006\007\n\013\016\017\000\000\000\000\000\000\000\000\000\000\000\001\006\007\n\013\016\017\000\000\000\000\000\000\000\000\002\003\006\007\n\013\016\017\000\000\000\000\000\000\000\000\000\001\002\003\006\007\n\013\016\017\000\000\000\000\000\000\004\005\006\007\n\013\016\017\000\000\000\000\000\000\000\000\000\001\004\005\006\007\n\013\016\017\000\000\000\000\000\000\002\003\004\005\006\007\n\013\016\017\000\000\000\000\000\000\000\001\002\003\004\005\006\007\n\013\016\017\000\000\000\000\b\t\n\013\016\017\000\000\000\000\000\000\000\000\000\000\000\001\b\t\n\013\016\017\000\000\000\000\000\000\000\000\002\003\b\t\n\013\016\017\000\000\000\000\000\000\000\000\000\001\002\003\b\t\n\013\016\017\000\000\000\000\000\000\004\005\b\t\n\013\016\017\000\000\000\000\000\000\000\000\000\001\004\005\b\t\n\013\016\017\000\000\000\000\000\000\002\003\004\005\b\t\n\013\016\017\000\000\000\000\000\000\000\001\002\003\004\005\b\t\n\013\016\017\000\000\000\000\006\007\b\t\n\013\016\017\000\000\000\000\000\000\000\000\000\001\006\007\b\t\n\013\016\017\000\000\000\000\000\000\002\003\006\007\b\t\n\013\016\017\000\000\000\000\000\000\000\001\002\003\006\007\b\t\n\013\016\017\000\000\000\000\004\005\006\007\b\t\n\013\016\017\000\000\000\000\000\000\000\001\004\005\006\007\b\t\n\013\016\017\000\000\000\000\002\003\004\005\006\007\b\t\n\013\016\017\000\000\000\000\000\001\002\003\004\005\006\007\b\t\n\013\016\017\000\000\f\r\016\017\000\000\000\000\000\000\000\000\000\000\000\000\000\001\f\r\016\017\000\000\000\000\000\000\000\000\000\000\002\003\f\r\016\017\000\000\000\000\000\000\000\000\000\000\000\001\002\003\f\r\016\017\000\000\000\000\000\000\000\000\004\005\f\r\016\017\000\000\000\000\000\000\000\000\000\000\000\001\004\005\f\r\016\017\000\000\000\000\000\000\000\000\002\003\004\005\f\r\016\017\000\000\000\000\000\000\000\000\000\001\002\003\004\005\f\r\016\017\000\000\000\000\000\000\006\007\f\r\016\017\000\000\000\000\000\000\000\000\000\000\000\001\006\007\f\r\016\017\000\000\000\000\000\000\000\000\002\003\006\007\f\r\016\017\000\000\000\000\000\000\000\000\000\001\002\003\006\007\f\r\016\017\000\000\000\000\000\000\004\005\006\007\f\r\016\017\000\000\000\000\000\000\000\000\000\001\004\005\006\007\f\r\016\017\000\000\000\000\000\000\002\003\004\005\006\007\f\r\016\017\000\000\000\000\000\000\000\001\002\003\004\005\006\007\f\r\016\017\000\000\000\000\b\t\f\r\016\017\000\000\000\000\000\000\000\000\000\000\000\001\b\t\f\r\016\017\000\000\000\000\000\000\000\000\002\003\b\t\f\r\016\017\000\000\000\000\000\000\000\000\000\001\002\003\b\t\f\r\016\017\000\000\000\000\000\000\004\005\b\t\f\r\016\017\000\000\000\000\000\000\000\000\000\001\004\005\b\t\f\r\016\017\000\000\000\000\000\000\002\003\004\005\b\t\f\r\016\017\000\000\000\000\000\000\000\001\002\003\004\005\b\t\f\r\016\017\000\000\000\000\006\007\b\t\f\r\016\017\000\000\000\000\000\000\000\000\000\001\006\007\b\t\f\r\016\017\000\000\000\000\000\000\002\003\006\007\b\t\f\r\016\017\000\000\000\000\000\000\000\001\002\003\006\007\b\t\f\r\016\017\000\000\000\000\004\005\006\007\b\t\f\r\016\017\000\000\000\000\000\000\000\001\004\005\006\007\b\t\f\r\016\017\000\000\000\000\002\003\004\005\006\007\b\t\f\r\016\017\000\000\000\000\000\001\002\003\004\005\006\007\b\t\f\r\016\017\000\000\n\013\f\r\016\017\000\000\000\000\000\000\000\000\000\000\000\001\n\013\f\r\016\017\000\000\000\000\000\000\000\000\002\003\n\013\f\r\016\017\000\000\000\000\000\000\000\000\000\001\002\003\n\013\f\r\016\017\000\000\000\000\000\000\004\005\n\013\f\r\016\017\000\000\000\000\000\000\000\000\000\001\004\005\n\013\f\r\016\017\000\000\000\000\000\000\002\003\004\005\n\013\f\r\016\017\000\000\000\000\000\000\000\001\002\003\004\005\n\013\f\r\016\017\000\000\000\000\006\007\n\013\f\r\016\017\000\000\000\000\000\000\000\000\000\001\006\007\n\013\f\r\016\017\000\000\000\000\000\000\002\003\006\007\n\013\f\r\016\017\000\000\000\000\000\000\000\001\002\003\006\007\n\013\f\r\016\017\000\000\000\000\004\005\006\007\n\013\f\r\016\017\000\000\000\000\000\000\000\001\004\005\006\007\n\013\f\r\016\017\000\000\000\000\002\003\004\005\006\007\n\013\f\r\016\017\000\000\000\000\000\001\002\003\004\005\006\007\n\013\f\r\016\017\000\000\b\t\n\013\f\r\016\017\000\000\000\000\000\000\000\000\000\001\b\t\n\013\f\r\016\017\000\000\000\000\000\000\002\003\b\t\n\013\f\r\016\017\000\000\000\000\000\000\000\001\002\003\b\t\n\013\f\r\016\017\000\000\000\000\004\005\b\t\n\013\f\r\016\017\000\000\000\000\000\000\000\001\004\005\b\t\n\013\f\r\016\017\000\000\000\000\002\003\004\005\b\t\n\013\f\r\016\017\000\000\000\000\000\001\002\003\004\005\b\t\n\013\f\r\016\017\000\000\006\007\b\t\n\013\f\r\016\017\000\000\000\000\000\000\000\001\006\007\b\t\n\013\f\r\016\017\000\000\000\000\002\003\006\007\b\t\n\013\f\r\016\017\000\000\000\000\000\001\002\003\006\007\b\t\n\013\f\r\016\017\000\000\004\005\006\007\b\t\n\013\f\r\016\017\000\000\000\000\000\001\004\005\006\007\b\t\n\013\f\r\016\017\000\000\002\003\004\005\006\007\b\t\n\013\f\r\016\017\000\000\000\001\002\003\004\005\006\007\b\t\n\013\f\r\016\017"

	.section .rdata$n79,"dr"
static.19:                              # @static.19
	.ascii	"\001\003\005\007\t\013\r\017\000\000\000\000\000\000\000\000\000\001\003\005\007\t\013\r\017\000\000\000\000\000\000\000\001\002\003\005\007\t\013\r\017\000\000\000\000\000\000\000\000\001\002\003\005\007\t\013\r\017\000\000\000\000\000\000\001\003\004\005\007\t\013\r\017\000\000\000\000\000\000\000\000\001\003\004\005\007\t\013\r\017\000\000\000\000\000\000\001\002\003\004\005\007\t\013\r\017\000\000\000\000\000\000\000\001\002\003\004\005\007\t\013\r\017\000\000\000\000\000\001\003\005\006\007\t\013\r\017\000\000\000\000\000\000\000\000\001\003\005\006\007\t\013\r\017\000\000\000\000\000\000\001\002\003\005\006\007\t\013\r\017\000\000\000\000\000\000\000\001\002\003\005\006\007\t\013\r\017\000\000\000\000\000\001\003\004\005\006\007\t\013\r\017\000\000\000\000\000\000\000\001\003\004\005\006\007\t\013\r\017\000\000\000\000\000\001\002\003\004\005\006\007\t\013\r\017\000\000\000\000\000\000\001\002\003\004\005\006\007\t\013\r\017\000\000\000\000\001\003\005\007\b\t\013\r\017\000\000\000\000\000\000\000\000\001\003\005\007\b\t\013\r\017\000\000\000\000\000\000\001\002\003\005\007\b\t\013\r\017\000\000\000\000\000\000\000\001\002\003\005\007\b\t\013\r\017\000\000\000\000\000\001\003\004\005\007\b\t\013\r\017\000\000\000\000\000\000\000\001\003\004\005\007\b\t\013\r\017\000\000\000\000\000\001\002\003\004\005\007\b\t\013\r\017\000\000\000\000\000\000\001\002\003\004\005\007\b\t\013\r\017\000\000\000\000\001\003\005\006\007\b\t\013\r\017\000\000\000\000\000\000\000\001\003\005\006\007\b\t\013\r\017\000\000\000\000\000\001\002\003\005\006\007\b\t\013\r\017\000\000\000\000\000\000\001\002\003\005\006\007\b\t\013\r\017\000\000\000\000\001\003\004\005\006\007\b\t\013\r\017\000\000\000\000\000\000\001\003\004\005\006\007\b\t\013\r\017\000\000\000\000\001\002\003\004\005\006\007\b\t\013\r\017\000\000\000\000\000\001\002\003\004\005\006\007\b\t\013\r\017\000\000\000\001\003\005\007\t\n\013\r\017\000\000\000\000\000\000\000\000\001\003\005\007\t\n\013\r\017\000\000\000\000\000\000\001\002\003\005\007\t\n\013\r\017\000\000\000\000\000\000\000\001\002\003\005\007\t\n\013\r\017\000\000\000\000\000\001\003\004\005\007\t\n\013\r\017\000\000\000\000\000\000\000\001\003\004\005\007\t\n\013\r\017\000\000\000\000\000\001\002\003\004\005\007\t\n\013\r\017\000\000\000\000\000\000\001\002\003\004\005\007\t\n\013\r\017\000\000\000\000\001\003\005\006\007\t\n\013\r\017\000\000\000\000\000\000\000\001\003\005\006\007\t\n\013\r\017\000\000\000\000\000\001\002\003\005\006\007\t\n\013\r\017\000\000\000\000\000\000\001\002\003\005\006\007\t\n\013\r\017\000\000\000\000\001\003\004\005\006\007\t\n\013\r\017\000\000\000\000\000\000\001\003\004\005\006\007\t\n\013\r\017\000\000\000\000\001\002\003\004\005\006\007\t\n\013\r\017\000\000\000\000\000\001\002\003\004\005\006\007\t\n\013\r\017\000\000\000\001\003\005\007\b\t\n\013\r\017\000\000\000\000\000\000\000\001\003\005\007\b\t\n\013\r\017\000\000\000\000\000\001\002\003\005\007\b\t\n\013\r\017\000\000\000\000\000\000\001\002\003\005\007\b\t\n\013\r\017\000\000\000\000\001\003\004\005\007\b\t\n\013\r\017\000\000\000\000\000\000\001\003\004\005\007\b\t\n\013\r\017\000\000\000\000\001\002\003\004\005\007\b\t\n\013\r\017\000\000\000\000\000\001\002\003\004\005\007\b\t\n\013\r\017\000\000\000\001\003\005\006\007\b\t\n\013\r\017\000\000\000\000\000\000\001\003\005\006\007\b\t\n\013\r\017\000\000\000\000\001\002\003\005\006\007\b\t\n\013\r\017\000\000\000\000\000\001\002\003\005\006\007\b\t\n\013\r\017\000\000\000\001\003\004\005\006\007\b\t\n\013\r\017\000\000\000\000\000\001\003\004\005\006\007\b\t\n\013\r\017\000\000\000\001\002\003\004\005\006\007\b\t\n\013\r\017\000\000\000\000\001\002\003\004\005\006\007\b\t\n\013\r\017\000\000\001\003\005\007\t\013\f\r\017\000\000\000\000\000\000\000\000\001\003\005\007\t\013\f\r\017\000\000\000\000\000\000\001\002\003\005\007\t\013\f\r\017\000\000\000\000\000\000\000\001\002\003\005\007\t\013\f\r\017\000\000\000\000\000\001\003\004\005\007\t\013\f\r\017\000\000\000\000\000\000\000\001\003\004\005\007\t\013\f\r\017\000\000\000\000\000\001\002\003\004\005\007\t\013\f\r\017\000\000\000\000\000\000\001\002\003\004\005\007\t\013\f\r\017\000\000\000\000\001\003\005\006\007\t\013\f\r\017\000\000\000\000\000\000\000\001\003\005\006\007\t\013\f\r\017\000\000\000\000\000\001\002\003\005\006\007\t\013\f\r\017\000\000\000\000\000\000\001\002\003\005\006\007\t\013\f\r\017\000\000\000\000\001\003\004\005\006\007\t\013\f\r\017\000\000\000\000\000\000\001\003\004\005\006\007\t\013\f\r\017\000\000\000\000\001\002\003\004\005\006\007\t\013\f\r\017\000\000\000\000\000\001\002\003\004\005\006\007\t\013\f\r\017\000\000\000\001\003\005\007\b\t\013\f\r\017\000\000\000\000\000\000\000\001\003\005\007\b\t\013\f\r\017\000\000\000\000\000\001\002\003\005\007\b\t\013\f\r\017\000\000\000\000\000\000\001\002\003\005\007\b\t\013\f\r\017\000\000\000\000\001\003\004\005\007\b\t\013\f\r\017\000\000\000\000\000\000\001\003\004\005\007\b\t\013\f\r\017\000\000\000\000\001\002\003\004\005\007\b\t\013\f\r\017\000\000\000\000\000\001\002\003\004\005\007\b\t\013\f\r\017\000\000\000\001\003\005\006\007\b\t\013\f\r\017\000\000\000\000\000\000\001\003\005\006\007\b\t\013\f\r\017\000\000\000\000\001\002\003\005\006\007\b\t\013\f\r\017\000\000\000\000\000\001\002\003\005\006\007\b\t\013\f\r\017\000\000\000\001\003\004\005\006\007\b\t\013\f\r\017\000\000\000\000\000\001\003\004\005\006\007\b\t\013\f\r\017\000\000\000\001\002\003\004\005\006\007\b\t\013\f\r\017\000\000\000\000\001\002\003\004\005\006\007\b\t\013\f\r\017\000\000\001\003\005\007\t\n\013\f\r\017\000\000\000\000\000\000\000\001\003\005\007\t\n\013\f\r\017\000\000\000\000\000\001\002\003\005\007\t\n\013\f\r\017\000\000\000\000\000\000\001\002\003\005\007\t\n\013\f\r\017\000\000\000\000\001\003\004\005\007\t\n\013\f\r\017\000\000\000\000\000\000\001\003\004\005\007\t\n\013\f\r\017\000\000\000\000\001\002\003\004\005\007\t\n\013\f\r\017\000\000\000\000\000\001\002\003\004\005\007\t\n\013\f\r\017\000\000\000\001\003\005\006\007\t\n\013\f\r\017\000\000\000\000\000\000\001\003\005\006\007\t\n\013\f\r\017\000\000\000\000\001\002\003\005\006\007\t\n\013\f\r\017\000\000\000\000\000\001\002\003\005\006\007\t\n\013\f\r\017\000\000\000\001\003\004\005\006\007\t\n\013\f\r\017\000\000\000\000\000\001\003\004\005\006\007\t\n\013\f\r\017\000\000\000\001\002\003\004\005\006\007\t\n\013\f\r\017\000\000\000\000\001\002\003\004\005\006\007\t\n\013\f\r\017\000\000\001\003\005\007\b\t\n\013\f\r\017\000\000\000\000\000\000\001\003\005\007\b\t\n\013\f\r\017\000\000\000\000\001\002\003\005\007\b\t\n\013\f\r\017\000\000\000\000\000\001\002\003\005\007\b\t\n\013\f\r\017\000\000\000\001\003\004\005\007\b\t\n\013\f\r\017\000\000\000\000\000\001\003\004\005\007\b\t\n\013\f\r\017\000\000\000\001\002\003\004\005\007\b\t\n\013\f\r\017\000\000\000\000\001\002\003\004\005\007\b\t\n\013\f\r\017\000\000\001\003\005\006\007\b\t\n\013\f\r\017\000\000\000\000\000\001\003\005\006\007\b\t\n\013\f\r\017\000\000\000\001\002\003\005\006\007\b\t\n\013\f\r\017\000\000\000\000\001\002\003\005\006\007\b\t\n\013\f\r\017\000\000\001\003\004\005\006\007\b\t\n\013\f\r\017\000\000\000\000\001\003\004\005\006\007\b\t\n\013\f\r\017\000\000\001\002\003\004\005\006\007\b\t\n\013\f\r\017\000\000\000\001\002\003\004\005\006\007\b\t\n\013\f\r\017\000\001\003\005\007\t\013\r\016\017\000\000\000\000\000\000\000\000\001\003\005\007\t\013\r\016\017\000\000\000\000\000\000\001\002\003\005\007\t\013\r\016\017\000\000\000\000\000\000\000\001\002\003\005\007\t\013\r\016\017\000\000\000\000\000\001\003\004\005\007\t\013\r\016\017\000\000\000\000\000\000\000\001\003\004\005\007\t\013\r\016\017\000\000\000\000\000\001\002\003\004\005\007\t\013\r\016\017\000\000\000\000\000\000\001\002\003\004\005\007\t\013\r\016\017\000\000\000\000\001\003\005\006\007\t\013\r\016\017\000\000\000\000\000\000\000\001\003\005\006\007\t\013\r\016\017\000\000\000\000\000\001\002\003\005\006\007\t\013\r\016\017\000\000\000\000\000\000\001\002\003\005\006\007\t\013\r\016\017\000\000\000\000\001\003\004\005\006\007\t\013\r\016\017\000\000\000\000\000\000\001\003\004\005\006\007\t\013\r\016\017\000\000\000\000\001\002\003\004\005\006\007\t\013\r\016\017\000\000\000\000\000\001\002\003\004\005\006\007\t\013\r\016\017\000\000\000\001\003\005\007\b\t\013\r\016\017\000\000\000\000\000\000\000\001\003\005\007\b\t\013\r\016\017\000\000\000\000\000\001\002\003\005\007\b\t\013\r\016\017\000\000\000\000\000\000\001\002\003\005\007\b\t\013\r\016\017\000\000\000\000\001\003\004\005\007\b\t\013\r\016\017\000\000\000\000\000\000\001\003\004\005\007\b\t\013\r\016\017\000\000\000\000\001\002\003\004\005\007\b\t\013\r\016\017\000\000\000\000\000\001\002\003\004\005\007\b\t\013\r\016\017\000\000\000\001\003\005\006\007\b\t\013\r\016\017\000\000\000\000\000\000\001\003\005\006\007\b\t\013\r\016\017\000\000\000\000\001\002\003\005\006\007\b\t\013\r\016\017\000\000\000\000\000\001\002\003\005\006\007\b\t\013\r\016\017\000\000\000\001\003\004\005\006\007\b\t\013\r\016\017\000\000\000\000\000\001\003\004\005\006\007\b\t\013\r\016\017\000\000\000\001\002\003\004\005\006\007\b\t\013\r\016\017\000\000\000\000\001\002\003\004\005\006\007\b\t\013\r\016\017\000\000\001\003\005\007\t\n\013\r\016\017\000\000\000\000\000\000\000\001\003\005\007\t\n\013\r\016\017\000\000\000\000\000\001\002\003\005\007\t\n\013\r\016\017\000\000\000\000\000\000\001\002\003\005\007\t\n\013\r\016\017\000\000\000\000\001\003\004\005\007\t\n\013\r\016\017\000\000\000\000\000\000\001\003\004\005\007\t\n\013\r\016\017\000\000\000\000\001\002\003\004\005\007\t\n\013\r\016\017\000\000\000\000\000\001\002\003\004\005\007\t\n\013\r\016\017\000\000\000\001\003\005\006\007\t\n\013\r\016\017\000\000\000\000\000\000\001\003\005\006\007\t\n\013\r\016\017\000\000\000\000\001\002\003\005\006\007\t\n\013\r\016\017\000\000\000\000\000\001\002\003\005\006\007\t\n\013\r\016\017\000\000\000\001\003\004\005\006\007\t\n\013\r\016\017\000\000\000\000\000\001\003\004\005\006\007\t\n\013\r\016\017\000\000\000\001\002\003\004\005\006\007\t\n\013\r\016\017\000\000\000\000\001\002\003\004\005\006\007\t\n\013\r\016\017\000\000\001\003\005\007\b\t\n\013\r\016\017\000\000\000\000\000\000\001\003\005\007\b\t\n\013\r\016\017\000\000\000\000\001\002\003\005\007\b\t\n\013\r\016\017\000\000\000\000\000\001\002\003\005\007\b\t\n\013\r\016\017\000\000\000\001\003\004\005\007\b\t\n\013\r\016\017\000\000\000\000\000\001\003\004\005\007\b\t\n\013\r\016\017\000\000\000\001\002\003\004\005\007\b\t\n\013\r\016\017\000\000\000\000\001\002\003\004\005\007\b\t\n\013\r\016\017\000\000\001\003\005\006\007\b\t\n\013\r\016\017\000\000\000\000\000\001\003\005\006\007\b\t\n\013\r\016\017\000\000\000\001\002\003\005\006\007\b\t\n\013\r\016\017\000\000\000\000\001\002\003\005\006\007\b\t\n\013\r\016\017\000\000\001\003\004\005\006\007\b\t\n\013\r\016\017\000\000\000\000\001\003\004\005\006\007\b\t\n\013\r\016\017\000\000\001\002\003\004\005\006\007\b\t\n\013\r\016\017\000\000\000\001\002\003\004\005\006\007\b\t\n\013\r\016\017\000\001\003\005\007\t\013\f\r\016\017\000\000\000\000\000\000\000\001\003\005\007\t\013\f\r\016\017\000\000\000\000\000\001\002\003\005\007\t\013\f\r\016\017\000\000\000\000\000\000\001\002\003\005\007\t\013\f\r\016\017\000\000\000\000\001\003\004\005\007\t\013\f\r\016\017\000\000\000\000\000\000\001\003\004\005\007\t\013\f\r\016\017\000\000\000\000\001\002\003\004\005\007\t\013\f\r\016\017\000\000\000\000\000\001\002\003\004\005\007\t\013\f\r\016\017\000\000\000\001\003\005\006\007\t\013\f\r\016\017\000\000\000\000\000\000\001\003\005\006\007\t\013\f\r\016\017\000\000\000\000\001\002\003\005\006\007\t\013\f\r\016\017\000\000\000\000\000\001\002\003\005\006\007\t\013\f\r\016\017\000\000\000\001\003\004\005\006\007\t\013\f\r\016\017\000\000\000\000\000\001\003\004\005\006\007\t\013\f\r\016\017\000\000\000\001\002\003\004\005\006\007\t\013\f\r\016\017\000\000\000\000\001\002\003\004\005\006\007\t\013\f\r\016\017\000\000\001\003\005\007\b\t\013\f\r\016\017\000\000\000\000\000\000\001\003\005\007\b\t\013\f\r\016\017\000\000\000\000\001\002\003\005\007\b\t\013\f\r\016\017\000\000\000\000\000\001\002\003\005\007\b\t\013\f\r\016\017\000\000\000\001\003\004\005\007\b\t\013\f\r\016\017\000\000\000\000\000\001\003\004\005\007\b\t\013\f\r\016\017\000\000\000\001\002\003\004\005\007\b\t\013\f\r\016\017\000\000\000\000\001\002\003\004\005\007\b\t\013\f\r\016\017\000\000\001\003\005\006\007\b\t\013\f\r\016\017\000\000\000\000\000\001\003\005\006\007\b\t\013\f\r\016\017\000\000\000\001\002\003\005\006\007\b\t\013\f\r\016\017\000\000\000\000\001\002\003\005\006\007\b\t\013\f\r\016\017\000\000\001\003\004\005\006\007\b\t\013\f\r\016\017\000\000\000\000\001\003\004\005\006\007\b\t\013\f\r\016\017\000\000\001\002\003\004\005\006\007\b\t\013\f\r\016\017\000\000\000\001\002\003\004\005\006\007\b\t\013\f\r\016\017\000\001\003\005\007\t\n\013\f\r\016\017\000\000\000\000\000\000\001\003\005\007\t\n\013\f\r\016\017\000\000\000\000\001\002\003\005\007\t\n\013\f\r\016\017\000\000\000\000\000\001\002\003\005\007\t\n\013\f\r\016\017\000\000\000\001\003\004\005\007\t\n\013\f\r\016\017\000\000\000\000\000\001\003\004\005\007\t\n\013\f\r\016\017\000\000\000\001\002\003\004\005\007\t\n\013\f\r\016\017\000\000\000\000\001\002\003\004\005\007\t\n\013\f\r\016\017\000\000\001\003\005\006\007\t\n\013\f\r\016\017\000\000\000\000\000\001\003\005\006\007\t\n\013\f\r\016\017\000\000\000\001\002\003\005\006\007\t\n\013\f\r\016\017\000\000\000\000\001\002\003\005\006\007\t\n\013\f\r\016\017\000\000\001\003\004\005\006\007\t\n\013\f\r\016\017\000\000\000\000\001\003\004\005\006\007\t\n\013\f\r\016\017\000\000\001\002\003\004\005\006\007\t\n\013\f\r\016\017\000\000\000\001\002\003\004\005\006\007\t\n\013\f\r\016\017\000\001\003\005\007\b\t\n\013\f\r\016\017\000\000\000\000\000\001\003\005\007\b\t\n\013\f\r\016\017\000\000\000\001\002\003\005\007\b\t\n\013\f\r\016\017\000\000\000\000\001\002\003\005\007\b\t\n\013\f\r\016\017\000\000\001\003\004\005\007\b\t\n\013\f\r\016\017\000\000\000\000\001\003\004\005\007\b\t\n\013\f\r\016\017\000\000\001\002\003\004\005\007\b\t\n\013\f\r\016\017\000\000\000\001\002\003\004\005\007\b\t\n\013\f\r\016\017\000\001\003\005\006\007\b\t\n\013\f\r\016\017\000\000\000\000\001\003\005\006\007\b\t\n\013\f\r\016\017\000\000\001\002\003\005\006\007\b\t\n\013\f\r\016\017\000\000\000\001\002\003\005\006\007\b\t\n\013\f\r\016\017\000\001\003\004\005\006\007\b\t\n\013\f\r\016\017\000\000\000\001\003\004\005\006\007\b\t\n\013\f\r\016\017\000\001\002\003\004\005\006\007\b\t\n\013\f\r\016\017\000\000\001\002\003\004\005\006\007\b\t\n\013\f\r\016\017"

	.section .rdata$n80,"dr"
static.20:                              # @static.20
	.asciz	"\001\005\t\r\000\000\000\000\000\000\000\000\000\000\000\000\000\001\005\t\r\000\000\000\000\000\000\000\000\000\000\000\002\001\005\t\r\000\000\000\000\000\000\000\000\000\000\000\000\002\001\005\t\r\000\000\000\000\000\000\000\000\000\000\001\004\005\t\r\000\000\000\000\000\000\000\000\000\000\000\000\001\004\005\t\r\000\000\000\000\000\000\000\000\000\000\002\001\004\005\t\r\000\000\000\000\000\000\000\000\000\000\000\002\001\004\005\t\r\000\000\000\000\000\000\000\000\000\001\006\005\t\r\000\000\000\000\000\000\000\000\000\000\000\000\001\006\005\t\r\000\000\000\000\000\000\000\000\000\000\002\001\006\005\t\r\000\000\000\000\000\000\000\000\000\000\000\002\001\006\005\t\r\000\000\000\000\000\000\000\000\000\001\004\006\005\t\r\000\000\000\000\000\000\000\000\000\000\000\001\004\006\005\t\r\000\000\000\000\000\000\000\000\000\002\001\004\006\005\t\r\000\000\000\000\000\000\000\000\000\000\002\001\004\006\005\t\r\000\000\000\000\000\000\000\000\001\005\b\t\r\000\000\000\000\000\000\000\000\000\000\000\000\001\005\b\t\r\000\000\000\000\000\000\000\000\000\000\002\001\005\b\t\r\000\000\000\000\000\000\000\000\000\000\000\002\001\005\b\t\r\000\000\000\000\000\000\000\000\000\001\004\005\b\t\r\000\000\000\000\000\000\000\000\000\000\000\001\004\005\b\t\r\000\000\000\000\000\000\000\000\000\002\001\004\005\b\t\r\000\000\000\000\000\000\000\000\000\000\002\001\004\005\b\t\r\000\000\000\000\000\000\000\000\001\006\005\b\t\r\000\000\000\000\000\000\000\000\000\000\000\001\006\005\b\t\r\000\000\000\000\000\000\000\000\000\002\001\006\005\b\t\r\000\000\000\000\000\000\000\000\000\000\002\001\006\005\b\t\r\000\000\000\000\000\000\000\000\001\004\006\005\b\t\r\000\000\000\000\000\000\000\000\000\000\001\004\006\005\b\t\r\000\000\000\000\000\000\000\000\002\001\004\006\005\b\t\r\000\000\000\000\000\000\000\000\000\002\001\004\006\005\b\t\r\000\000\000\000\000\000\000\001\005\n\t\r\000\000\000\000\000\000\000\000\000\000\000\000\001\005\n\t\r\000\000\000\000\000\000\000\000\000\000\002\001\005\n\t\r\000\000\000\000\000\000\000\000\000\000\000\002\001\005\n\t\r\000\000\000\000\000\000\000\000\000\001\004\005\n\t\r\000\000\000\000\000\000\000\000\000\000\000\001\004\005\n\t\r\000\000\000\000\000\000\000\000\000\002\001\004\005\n\t\r\000\000\000\000\000\000\000\000\000\000\002\001\004\005\n\t\r\000\000\000\000\000\000\000\000\001\006\005\n\t\r\000\000\000\000\000\000\000\000\000\000\000\001\006\005\n\t\r\000\000\000\000\000\000\000\000\000\002\001\006\005\n\t\r\000\000\000\000\000\000\000\000\000\000\002\001\006\005\n\t\r\000\000\000\000\000\000\000\000\001\004\006\005\n\t\r\000\000\000\000\000\000\000\000\000\000\001\004\006\005\n\t\r\000\000\000\000\000\000\000\000\002\001\004\006\005\n\t\r\000\000\000\000\000\000\000\000\000\002\001\004\006\005\n\t\r\000\000\000\000\000\000\000\001\005\b\n\t\r\000\000\000\000\000\000\000\000\000\000\000\001\005\b\n\t\r\000\000\000\000\000\000\000\000\000\002\001\005\b\n\t\r\000\000\000\000\000\000\000\000\000\000\002\001\005\b\n\t\r\000\000\000\000\000\000\000\000\001\004\005\b\n\t\r\000\000\000\000\000\000\000\000\000\000\001\004\005\b\n\t\r\000\000\000\000\000\000\000\000\002\001\004\005\b\n\t\r\000\000\000\000\000\000\000\000\000\002\001\004\005\b\n\t\r\000\000\000\000\000\000\000\001\006\005\b\n\t\r\000\000\000\000\000\000\000\000\000\000\001\006\005\b\n\t\r\000\000\000\000\000\000\000\000\002\001\006\005\b\n\t\r\000\000\000\000\000\000\000\000\000\002\001\006\005\b\n\t\r\000\000\000\000\000\000\000\001\004\006\005\b\n\t\r\000\000\000\000\000\000\000\000\000\001\004\006\005\b\n\t\r\000\000\000\000\000\000\000\002\001\004\006\005\b\n\t\r\000\000\000\000\000\000\000\000\002\001\004\006\005\b\n\t\r\000\000\000\000\000\000\001\005\t\f\r\000\000\000\000\000\000\000\000\000\000\000\000\001\005\t\f\r\000\000\000\000\000\000\000\000\000\000\002\001\005\t\f\r\000\000\000\000\000\000\000\000\000\000\000\002\001\005\t\f\r\000\000\000\000\000\000\000\000\000\001\004\005\t\f\r\000\000\000\000\000\000\000\000\000\000\000\001\004\005\t\f\r\000\000\000\000\000\000\000\000\000\002\001\004\005\t\f\r\000\000\000\000\000\000\000\000\000\000\002\001\004\005\t\f\r\000\000\000\000\000\000\000\000\001\006\005\t\f\r\000\000\000\000\000\000\000\000\000\000\000\001\006\005\t\f\r\000\000\000\000\000\000\000\000\000\002\001\006\005\t\f\r\000\000\000\000\000\000\000\000\000\000\002\001\006\005\t\f\r\000\000\000\000\000\000\000\000\001\004\006\005\t\f\r\000\000\000\000\000\000\000\000\000\000\001\004\006\005\t\f\r\000\000\000\000\000\000\000\000\002\001\004\006\005\t\f\r\000\000\000\000\000\000\000\000\000\002\001\004\006\005\t\f\r\000\000\000\000\000\000\000\001\005\b\t\f\r\000\000\000\000\000\000\000\000\000\000\000\001\005\b\t\f\r\000\000\000\000\000\000\000\000\000\002\001\005\b\t\f\r\000\000\000\000\000\000\000\000\000\000\002\001\005\b\t\f\r\000\000\000\000\000\000\000\000\001\004\005\b\t\f\r\000\000\000\000\000\000\000\000\000\000\001\004\005\b\t\f\r\000\000\000\000\000\000\000\000\002\001\004\005\b\t\f\r\000\000\000\000\000\000\000\000\000\002\001\004\005\b\t\f\r\000\000\000\000\000\000\000\001\006\005\b\t\f\r\000\000\000\000\000\000\000\000\000\000\001\006\005\b\t\f\r\000\000\000\000\000\000\000\000\002\001\006\005\b\t\f\r\000\000\000\000\000\000\000\000\000\002\001\006\005\b\t\f\r\000\000\000\000\000\000\000\001\004\006\005\b\t\f\r\000\000\000\000\000\000\000\000\000\001\004\006\005\b\t\f\r\000\000\000\000\000\000\000\002\001\004\006\005\b\t\f\r\000\000\000\000\000\000\000\000\002\001\004\006\005\b\t\f\r\000\000\000\000\000\000\001\005\n\t\f\r\000\000\000\000\000\000\000\000\000\000\000\001\005\n\t\f\r\000\000\000\000\000\000\000\000\000\002\001\005\n\t\f\r\000\000\000\000\000\000\000\000\000\000\002\001\005\n\t\f\r\000\000\000\000\000\000\000\000\001\004\005\n\t\f\r\000\000\000\000\000\000\000\000\000\000\001\004\005\n\t\f\r\000\000\000\000\000\000\000\000\002\001\004\005\n\t\f\r\000\000\000\000\000\000\000\000\000\002\001\004\005\n\t\f\r\000\000\000\000\000\000\000\001\006\005\n\t\f\r\000\000\000\000\000\000\000\000\000\000\001\006\005\n\t\f\r\000\000\000\000\000\000\000\000\002\001\006\005\n\t\f\r\000\000\000\000\000\000\000\000\000\002\001\006\005\n\t\f\r\000\000\000\000\000\000\000\001\004\006\005\n\t\f\r\000\000\000\000\000\000\000\000\000\001\004\006\005\n\t\f\r\000\000\000\000\000\000\000\002\001\004\006\005\n\t\f\r\000\000\000\000\000\000\000\000\002\001\004\006\005\n\t\f\r\000\000\000\000\000\000\001\005\b\n\t\f\r\000\000\000\000\000\000\000\000\000\000\001\005\b\n\t\f\r\000\000\000\000\000\000\000\000\002\001\005\b\n\t\f\r\000\000\000\000\000\000\000\000\000\002\001\005\b\n\t\f\r\000\000\000\000\000\000\000\001\004\005\b\n\t\f\r\000\000\000\000\000\000\000\000\000\001\004\005\b\n\t\f\r\000\000\000\000\000\000\000\002\001\004\005\b\n\t\f\r\000\000\000\000\000\000\000\000\002\001\004\005\b\n\t\f\r\000\000\000\000\000\000\001\006\005\b\n\t\f\r\000\000\000\000\000\000\000\000\000\001\006\005\b\n\t\f\r\000\000\000\000\000\000\000\002\001\006\005\b\n\t\f\r\000\000\000\000\000\000\000\000\002\001\006\005\b\n\t\f\r\000\000\000\000\000\000\001\004\006\005\b\n\t\f\r\000\000\000\000\000\000\000\000\001\004\006\005\b\n\t\f\r\000\000\000\000\000\000\002\001\004\006\005\b\n\t\f\r\000\000\000\000\000\000\000\002\001\004\006\005\b\n\t\f\r\000\000\000\000\000\001\005\t\016\r\000\000\000\000\000\000\000\000\000\000\000\000\001\005\t\016\r\000\000\000\000\000\000\000\000\000\000\002\001\005\t\016\r\000\000\000\000\000\000\000\000\000\000\000\002\001\005\t\016\r\000\000\000\000\000\000\000\000\000\001\004\005\t\016\r\000\000\000\000\000\000\000\000\000\000\000\001\004\005\t\016\r\000\000\000\000\000\000\000\000\000\002\001\004\005\t\016\r\000\000\000\000\000\000\000\000\000\000\002\001\004\005\t\016\r\000\000\000\000\000\000\000\000\001\006\005\t\016\r\000\000\000\000\000\000\000\000\000\000\000\001\006\005\t\016\r\000\000\000\000\000\000\000\000\000\002\001\006\005\t\016\r\000\000\000\000\000\000\000\000\000\000\002\001\006\005\t\016\r\000\000\000\000\000\000\000\000\001\004\006\005\t\016\r\000\000\000\000\000\000\000\000\000\000\001\004\006\005\t\016\r\000\000\000\000\000\000\000\000\002\001\004\006\005\t\016\r\000\000\000\000\000\000\000\000\000\002\001\004\006\005\t\016\r\000\000\000\000\000\000\000\001\005\b\t\016\r\000\000\000\000\000\000\000\000\000\000\000\001\005\b\t\016\r\000\000\000\000\000\000\000\000\000\002\001\005\b\t\016\r\000\000\000\000\000\000\000\000\000\000\002\001\005\b\t\016\r\000\000\000\000\000\000\000\000\001\004\005\b\t\016\r\000\000\000\000\000\000\000\000\000\000\001\004\005\b\t\016\r\000\000\000\000\000\000\000\000\002\001\004\005\b\t\016\r\000\000\000\000\000\000\000\000\000\002\001\004\005\b\t\016\r\000\000\000\000\000\000\000\001\006\005\b\t\016\r\000\000\000\000\000\000\000\000\000\000\001\006\005\b\t\016\r\000\000\000\000\000\000\000\000\002\001\006\005\b\t\016\r\000\000\000\000\000\000\000\000\000\002\001\006\005\b\t\016\r\000\000\000\000\000\000\000\001\004\006\005\b\t\016\r\000\000\000\000\000\000\000\000\000\001\004\006\005\b\t\016\r\000\000\000\000\000\000\000\002\001\004\006\005\b\t\016\r\000\000\000\000\000\000\000\000\002\001\004\006\005\b\t\016\r\000\000\000\000\000\000\001\005\n\t\016\r\000\000\000\000\000\000\000\000\000\000\000\001\005\n\t\016\r\000\000\000\000\000\000\000\000\000\002\001\005\n\t\016\r\000\000\000\000\000\000\000\000\000\000\002\001\005\n\t\016\r\000\000\000\000\000\000\000\000\001\004\005\n\t\016\r\000\000\000\000\000\000\000\000\000\000\001\004\005\n\t\016\r\000\000\000\000\000\000\000\000\002\001\004\005\n\t\016\r\000\000\000\000\000\000\000\000\000\002\001\004\005\n\t\016\r\000\000\000\000\000\000\000\001\006\005\n\t\016\r\000\000\000\000\000\000\000\000\000\000\001\006\005\n\t\016\r\000\000\000\000\000\000\000\000\002\001\006\005\n\t\016\r\000\000\000\000\000\000\000\000\000\002\001\006\005\n\t\016\r\000\000\000\000\000\000\000\001\004\006\005\n\t\016\r\000\000\000\000\000\000\000\000\000\001\004\006\005\n\t\016\r\000\000\000\000\000\000\000\002\001\004\006\005\n\t\016\r\000\000\000\000\000\000\000\000\002\001\004\006\005\n\t\016\r\000\000\000\000\000\000\001\005\b\n\t\016\r\000\000\000\000\000\000\000\000\000\000\001\005\b\n\t\016\r\000\000\000\000\000\000\000\000\002\001\005\b\n\t\016\r\000\000\000\000\000\000\000\000\000\002\001\005\b\n\t\016\r\000\000\000\000\000\000\000\001\004\005\b\n\t\016\r\000\000\000\000\000\000\000\000\000\001\004\005\b\n\t\016\r\000\000\000\000\000\000\000\002\001\004\005\b\n\t\016\r\000\000\000\000\000\000\000\000\002\001\004\005\b\n\t\016\r\000\000\000\000\000\000\001\006\005\b\n\t\016\r\000\000\000\000\000\000\000\000\000\001\006\005\b\n\t\016\r\000\000\000\000\000\000\000\002\001\006\005\b\n\t\016\r\000\000\000\000\000\000\000\000\002\001\006\005\b\n\t\016\r\000\000\000\000\000\000\001\004\006\005\b\n\t\016\r\000\000\000\000\000\000\000\000\001\004\006\005\b\n\t\016\r\000\000\000\000\000\000\002\001\004\006\005\b\n\t\016\r\000\000\000\000\000\000\000\002\001\004\006\005\b\n\t\016\r\000\000\000\000\000\001\005\t\f\016\r\000\000\000\000\000\000\000\000\000\000\000\001\005\t\f\016\r\000\000\000\000\000\000\000\000\000\002\001\005\t\f\016\r\000\000\000\000\000\000\000\000\000\000\002\001\005\t\f\016\r\000\000\000\000\000\000\000\000\001\004\005\t\f\016\r\000\000\000\000\000\000\000\000\000\000\001\004\005\t\f\016\r\000\000\000\000\000\000\000\000\002\001\004\005\t\f\016\r\000\000\000\000\000\000\000\000\000\002\001\004\005\t\f\016\r\000\000\000\000\000\000\000\001\006\005\t\f\016\r\000\000\000\000\000\000\000\000\000\000\001\006\005\t\f\016\r\000\000\000\000\000\000\000\000\002\001\006\005\t\f\016\r\000\000\000\000\000\000\000\000\000\002\001\006\005\t\f\016\r\000\000\000\000\000\000\000\001\004\006\005\t\f\016\r\000\000\000\000\000\000\000\000\000\001\004\006\005\t\f\016\r\000\000\000\000\000\000\000\002\001\004\006\005\t\f\016\r\000\000\000\000\000\000\000\000\002\001\004\006\005\t\f\016\r\000\000\000\000\000\000\001\005\b\t\f\016\r\000\000\000\000\000\000\000\000\000\000\001\005\b\t\f\016\r\000\000\000\000\000\000\000\000\002\001\005\b\t\f\016\r\000\000\000\000\000\000\000\000\000\002\001\005\b\t\f\016\r\000\000\000\000\000\000\000\001\004\005\b\t\f\016\r\000\000\000\000\000\000\000\000\000\001\004\005\b\t\f\016\r\000\000\000\000\000\000\000\002\001\004\005\b\t\f\016\r\000\000\000\000\000\000\000\000\002\001\004\005\b\t\f\016\r\000\000\000\000\000\000\001\006\005\b\t\f\016\r\000\000\000\000\000\000\000\000\000\001\006\005\b\t\f\016\r\000\000\000\000\000\000\000\002\001\006\005\b\t\f\016\r\000\000\000\000\000\000\000\000\002\001\006\005\b\t\f\016\r\000\000\000\000\000\000\001\004\006\005\b\t\f\016\r\000\000\000\000\000\000\000\000\001\004\006\005\b\t\f\016\r\000\000\000\000\000\000\002\001\004\006\005\b\t\f\016\r\000\000\000\000\000\000\000\002\001\004\006\005\b\t\f\016\r\000\000\000\000\000\001\005\n\t\f\016\r\000\000\000\000\000\000\000\000\000\000\001\005\n\t\f\016\r\000\000\000\000\000\000\000\000\002\001\005\n\t\f\016\r\000\000\000\000\000\000\000\000\000\002\001\005\n\t\f\016\r\000\000\000\000\000\000\000\001\004\005\n\t\f\016\r\000\000\000\000\000\000\000\000\000\001\004\005\n\t\f\016\r\000\000\000\000\000\000\000\002\001\004\005\n\t\f\016\r\000\000\000\000\000\000\000\000\002\001\004\005\n\t\f\016\r\000\000\000\000\000\000\001\006\005\n\t\f\016\r\000\000\000\000\000\000\000\000\000\001\006\005\n\t\f\016\r\000\000\000\000\000\000\000\002\001\006\005\n\t\f\016\r\000\000\000\000\000\000\000\000\002\001\006\005\n\t\f\016\r\000\000\000\000\000\000\001\004\006\005\n\t\f\016\r\000\000\000\000\000\000\000\000\001\004\006\005\n\t\f\016\r\000\000\000\000\000\000\002\001\004\006\005\n\t\f\016\r\000\000\000\000\000\000\000\002\001\004\006\005\n\t\f\016\r\000\000\000\000\000\001\005\b\n\t\f\016\r\000\000\000\000\000\000\000\000\000\001\005\b\n\t\f\016\r\000\000\000\000\000\000\000\002\001\005\b\n\t\f\016\r\000\000\000\000\000\000\000\000\002\001\005\b\n\t\f\016\r\000\000\000\000\000\000\001\004\005\b\n\t\f\016\r\000\000\000\000\000\000\000\000\001\004\005\b\n\t\f\016\r\000\000\000\000\000\000\002\001\004\005\b\n\t\f\016\r\000\000\000\000\000\000\000\002\001\004\005\b\n\t\f\016\r\000\000\000\000\000\001\006\005\b\n\t\f\016\r\000\000\000\000\000\000\000\000\001\006\005\b\n\t\f\016\r\000\000\000\000\000\000\002\001\006\005\b\n\t\f\016\r\000\000\000\000\000\000\000\002\001\006\005\b\n\t\f\016\r\000\000\000\000\000\001\004\006\005\b\n\t\f\016\r\000\000\000\000\000\000\000\001\004\006\005\b\n\t\f\016\r\000\000\000\000\000\002\001\004\006\005\b\n\t\f\016\r\000\000\000\000\000\000\002\001\004\006\005\b\n\t\f\016\r\000\000\000"

	.section .rdata$n81,"dr"
static.22:                              # @static.22
	.ascii	": "

	.section .rdata$n82,"dr"
static.23:                              # @static.23
	.byte	10

	.section .rdata$n83,"dr"
static.24:                              # @static.24
	.ascii	"wrong arguments"

	.section .rdata$n84,"dr"
static.25:                              # @static.25
	.ascii	"cannot read"

	.section .rdata$n85,"dr"
static.26:                              # @static.26
	.ascii	"cannot write"

	.section .rdata$n86,"dr"
static.27:                              # @static.27
	.ascii	"no memory"

	.section .rdata$n87,"dr"
	.p2align	3, 0x0                          # @switch_table_utf_chars_codes_utf8_missing_after_84
switch_table_utf_chars_codes_utf8_missing_after_84:
	.quad	0                               # 0x0
	.quad	1                               # 0x1
	.quad	2                               # 0x2
	.quad	3                               # 0x3
	.quad	2                               # 0x2
	.quad	2                               # 0x2
	.quad	3                               # 0x3
	.quad	3                               # 0x3
	.quad	2                               # 0x2
	.quad	1                               # 0x1
	.quad	1                               # 0x1
	.quad	2                               # 0x2
	.quad	1                               # 0x1
	.quad	0                               # 0x0
	.quad	0                               # 0x0
	.quad	0                               # 0x0
	.quad	0                               # 0x0
	.quad	0                               # 0x0
	.quad	0                               # 0x0
	.quad	0                               # 0x0

	.section .rdata$n88,"dr"
	.p2align	3, 0x0                          # @switch_table_text_programs_programs_stops_Stop_report_2daa2fb2be07fb73_325
switch_table_text_programs_programs_stops_Stop_report_2daa2fb2be07fb73_325:
	.quad	15                              # 0xf
	.quad	11                              # 0xb
	.quad	12                              # 0xc
	.quad	9                               # 0x9

	.section .rdata$n89,"dr"
	.p2align	2, 0x0                          # @switch_table_text_programs_programs_stops_Stop_report_2daa2fb2be07fb73_102_rel_326
switch_table_text_programs_programs_stops_Stop_report_2daa2fb2be07fb73_102_rel_326:
	.long	static.24-switch_table_text_programs_programs_stops_Stop_report_2daa2fb2be07fb73_102_rel_326
	.long	static.25-switch_table_text_programs_programs_stops_Stop_report_2daa2fb2be07fb73_102_rel_326
	.long	static.26-switch_table_text_programs_programs_stops_Stop_report_2daa2fb2be07fb73_102_rel_326
	.long	static.27-switch_table_text_programs_programs_stops_Stop_report_2daa2fb2be07fb73_102_rel_326
