	.file	"rattle"
	.section	".text.unlikely.std_alloc::vec::Vec::grow_amortized::<#5fdc5e19576447a7>","ax",@progbits
	.p2align	2                               // -- Begin function std_alloc::vec::Vec::grow_amortized::<#5fdc5e19576447a7>
	.type	"std_alloc::vec::Vec::grow_amortized::<#5fdc5e19576447a7>",@function
"std_alloc::vec::Vec::grow_amortized::<#5fdc5e19576447a7>": // @"std_alloc::vec::Vec::grow_amortized::<#5fdc5e19576447a7>"
	.cfi_startproc
// %bb.0:                               // %start
	ldr	x8, [x0, #8]
	cmn	x8, x1
	b.lo	.LBB0_2
// %bb.1:
	mov	w0, wzr
	ret
.LBB0_2:                                // %join.3
	stp	x29, x30, [sp, #-32]!           // 16-byte Folded Spill
	.cfi_def_cfa_offset 32
	stp	x20, x19, [sp, #16]             // 16-byte Folded Spill
	mov	x29, sp
	.cfi_def_cfa w29, 32
	.cfi_offset w19, -8
	.cfi_offset w20, -16
	.cfi_offset w30, -24
	.cfi_offset w29, -32
	.cfi_remember_state
	ldr	x10, [x0, #16]
	add	x9, x8, x1
	mov	w11, #8                         // =0x8
	cmp	x9, #8
	lsl	x12, x10, #1
	csel	x11, x9, x11, hi
	lsr	x13, x10, #62
	cmp	x11, x12
	csel	x9, x11, x12, hi
	cmp	x13, #0
	csel	x19, x9, x11, eq
	tbnz	x19, #63, .LBB0_7
// %bb.3:                               // %join.3.i
	cbz	x10, .LBB0_6
// %bb.4:                               // %then.1.i.i
	mov	x20, x0
	ldr	x0, [x0]
	mov	x1, x8
	mov	x2, x19
	mov	w3, #1                          // =0x1
	bl	rattle_realloc
	tbz	w0, #0, .LBB0_7
.LBB0_5:                                // %arm.5.i
	mov	w0, #1                          // =0x1
	str	x1, [x20]
	str	x19, [x20, #16]
	.cfi_def_cfa wsp, 32
	ldp	x20, x19, [sp, #16]             // 16-byte Folded Reload
	ldp	x29, x30, [sp], #32             // 16-byte Folded Reload
	.cfi_def_cfa_offset 0
	.cfi_restore w19
	.cfi_restore w20
	.cfi_restore w30
	.cfi_restore w29
	ret
.LBB0_6:                                // %"std_alloc::vec::resize::<#5fdc5e19576447a7>.exit.i"
	.cfi_restore_state
	mov	x20, x0
	mov	x0, x9
	mov	w1, #1                          // =0x1
	bl	rattle_alloc
	tbnz	w0, #0, .LBB0_5
.LBB0_7:
	mov	w0, wzr
	.cfi_def_cfa wsp, 32
	ldp	x20, x19, [sp, #16]             // 16-byte Folded Reload
	ldp	x29, x30, [sp], #32             // 16-byte Folded Reload
	.cfi_def_cfa_offset 0
	.cfi_restore w19
	.cfi_restore w20
	.cfi_restore w30
	.cfi_restore w29
	ret
.Lfunc_end0:
	.size	"std_alloc::vec::Vec::grow_amortized::<#5fdc5e19576447a7>", .Lfunc_end0-"std_alloc::vec::Vec::grow_amortized::<#5fdc5e19576447a7>"
	.cfi_endproc
                                        // -- End function
	.section	".text.core::slice::words::skip_far::<#52f9edcae2f82f51>","ax",@progbits
	.p2align	2                               // -- Begin function core::slice::words::skip_far::<#52f9edcae2f82f51>
	.type	"core::slice::words::skip_far::<#52f9edcae2f82f51>",@function
"core::slice::words::skip_far::<#52f9edcae2f82f51>": // @"core::slice::words::skip_far::<#52f9edcae2f82f51>"
	.cfi_startproc
// %bb.0:                               // %start
	sub	x8, x2, x1
	cmp	x8, #64
	b.lo	.LBB1_4
// %bb.1:                               // %then.3.lr.ph
	ldr	x9, [x0]
.LBB1_2:                                // %then.3
                                        // =>This Inner Loop Header: Depth=1
	add	x10, x9, x1
	ldp	q0, q1, [x10, #32]
	ldp	q2, q3, [x10]
	orr	v1.16b, v3.16b, v1.16b
	orr	v0.16b, v2.16b, v0.16b
	orr	v0.16b, v0.16b, v1.16b
	ext	v1.16b, v0.16b, v0.16b, #8
	orr	v0.8b, v0.8b, v1.8b
	fmov	x10, d0
	tst	x10, #0x8080808080808080
	b.ne	.LBB1_4
// %bb.3:                               // %join.5
                                        //   in Loop: Header=BB1_2 Depth=1
	sub	x8, x8, #64
	add	x1, x1, #64
	cmp	x8, #63
	b.hi	.LBB1_2
.LBB1_4:                                // %after.1
	mov	x0, x1
	ret
.Lfunc_end1:
	.size	"core::slice::words::skip_far::<#52f9edcae2f82f51>", .Lfunc_end1-"core::slice::words::skip_far::<#52f9edcae2f82f51>"
	.cfi_endproc
                                        // -- End function
	.section	".text.unlikely.std_alloc::vec::Vec::grow_amortized::<#1b8c52373d8cd3cb>","ax",@progbits
	.p2align	2                               // -- Begin function std_alloc::vec::Vec::grow_amortized::<#1b8c52373d8cd3cb>
	.type	"std_alloc::vec::Vec::grow_amortized::<#1b8c52373d8cd3cb>",@function
"std_alloc::vec::Vec::grow_amortized::<#1b8c52373d8cd3cb>": // @"std_alloc::vec::Vec::grow_amortized::<#1b8c52373d8cd3cb>"
	.cfi_startproc
// %bb.0:                               // %start
	ldr	x8, [x0, #8]
	cmn	x8, x1
	b.lo	.LBB2_2
// %bb.1:
	mov	w0, wzr
	ret
.LBB2_2:                                // %join.3
	stp	x29, x30, [sp, #-32]!           // 16-byte Folded Spill
	.cfi_def_cfa_offset 32
	stp	x20, x19, [sp, #16]             // 16-byte Folded Spill
	mov	x29, sp
	.cfi_def_cfa w29, 32
	.cfi_offset w19, -8
	.cfi_offset w20, -16
	.cfi_offset w30, -24
	.cfi_offset w29, -32
	.cfi_remember_state
	ldr	x9, [x0, #16]
	add	x10, x8, x1
	mov	w11, #4                         // =0x4
	cmp	x10, #4
	lsl	x12, x9, #1
	csel	x11, x10, x11, hi
	lsr	x13, x9, #62
	cmp	x11, x12
	csel	x10, x11, x12, hi
	cmp	x13, #0
	csel	x19, x10, x11, eq
	mov	x11, #6148914691236517205       // =0x5555555555555555
	movk	x11, #1365, lsl #48
	cmp	x19, x11
	b.hi	.LBB2_7
// %bb.3:                               // %join.3.i
	cbz	x9, .LBB2_6
// %bb.4:                               // %then.1.i.i
	add	x8, x8, x8, lsl #1
	add	x9, x19, x19, lsl #1
	mov	x20, x0
	ldr	x0, [x0]
	mov	w3, #8                          // =0x8
	lsl	x1, x8, #3
	lsl	x2, x9, #3
	bl	rattle_realloc
	tbz	w0, #0, .LBB2_7
.LBB2_5:                                // %arm.5.i
	mov	w0, #1                          // =0x1
	str	x1, [x20]
	str	x19, [x20, #16]
	.cfi_def_cfa wsp, 32
	ldp	x20, x19, [sp, #16]             // 16-byte Folded Reload
	ldp	x29, x30, [sp], #32             // 16-byte Folded Reload
	.cfi_def_cfa_offset 0
	.cfi_restore w19
	.cfi_restore w20
	.cfi_restore w30
	.cfi_restore w29
	ret
.LBB2_6:                                // %"std_alloc::vec::resize::<#1b8c52373d8cd3cb>.exit.i"
	.cfi_restore_state
	add	x8, x10, x10, lsl #1
	mov	x20, x0
	mov	w1, #8                          // =0x8
	lsl	x0, x8, #3
	bl	rattle_alloc
	tbnz	w0, #0, .LBB2_5
.LBB2_7:
	mov	w0, wzr
	.cfi_def_cfa wsp, 32
	ldp	x20, x19, [sp, #16]             // 16-byte Folded Reload
	ldp	x29, x30, [sp], #32             // 16-byte Folded Reload
	.cfi_def_cfa_offset 0
	.cfi_restore w19
	.cfi_restore w20
	.cfi_restore w30
	.cfi_restore w29
	ret
.Lfunc_end2:
	.size	"std_alloc::vec::Vec::grow_amortized::<#1b8c52373d8cd3cb>", .Lfunc_end2-"std_alloc::vec::Vec::grow_amortized::<#1b8c52373d8cd3cb>"
	.cfi_endproc
                                        // -- End function
	.section	".text.std_io::io::error::last_error","ax",@progbits
	.p2align	2                               // -- Begin function std_io::io::error::last_error
	.type	"std_io::io::error::last_error",@function
"std_io::io::error::last_error":        // @"std_io::io::error::last_error"
	.cfi_startproc
// %bb.0:                               // %start
	stp	x29, x30, [sp, #-32]!           // 16-byte Folded Spill
	.cfi_def_cfa_offset 32
	str	x19, [sp, #16]                  // 8-byte Spill
	mov	x29, sp
	.cfi_def_cfa w29, 32
	.cfi_offset w19, -16
	.cfi_offset w30, -24
	.cfi_offset w29, -32
	.cfi_remember_state
	mov	x19, x0
	bl	rattle_errno
	tbnz	w0, #31, .LBB3_4
// %bb.1:                               // %else.2.i.i
	sub	w8, w0, #1
	cmp	w8, #121
	b.hi	.LBB3_4
// %bb.2:                               // %else.2.i.i
	adrp	x9, .LJTI3_0
	add	x9, x9, :lo12:.LJTI3_0
	adr	x10, .LBB3_3
	ldrb	w11, [x9, x8]
	add	x10, x10, x11, lsl #2
	mov	w8, #1                          // =0x1
	br	x10
.LBB3_3:                                // %arm.23.i.i.i
	mov	w8, #36                         // =0x24
	b	.LBB3_5
.LBB3_4:                                // %default.40.i.i.i
	mov	w8, #41                         // =0x29
.LBB3_5:                                // %"std_io::io::error::Error::from_raw_os_error.exit"
	movi	v0.2d, #0000000000000000
	strb	wzr, [x19]
	strb	w8, [x19, #1]
	strh	wzr, [x19, #2]
	str	w0, [x19, #4]
	stur	q0, [x19, #8]
	stur	q0, [x19, #24]
	stur	q0, [x19, #40]
	stur	q0, [x19, #56]
	stur	q0, [x19, #72]
	.cfi_def_cfa wsp, 32
	ldr	x19, [sp, #16]                  // 8-byte Reload
	ldp	x29, x30, [sp], #32             // 16-byte Folded Reload
	.cfi_def_cfa_offset 0
	.cfi_restore w19
	.cfi_restore w30
	.cfi_restore w29
	ret
.LBB3_6:                                // %arm.36.i.i.i
	.cfi_restore_state
	mov	w8, #4                          // =0x4
	b	.LBB3_5
.LBB3_7:                                // %arm.33.i.i.i
	mov	w8, #7                          // =0x7
	b	.LBB3_5
.LBB3_8:                                // %arm.39.i.i.i
	mov	w8, #26                         // =0x1a
	b	.LBB3_5
.LBB3_9:                                // %arm.37.i.i.i
	mov	w8, #39                         // =0x27
	b	.LBB3_5
.LBB3_10:                               // %arm.28.i.i.i
	mov	w8, #9                          // =0x9
	b	.LBB3_5
.LBB3_11:                               // %arm.27.i.i.i
	mov	w8, #8                          // =0x8
	b	.LBB3_5
.LBB3_12:                               // %arm.21.i.i.i
	mov	w8, #30                         // =0x1e
	b	.LBB3_5
.LBB3_13:                               // %arm.17.i.i.i
	mov	w8, #25                         // =0x19
	b	.LBB3_5
.LBB3_14:                               // %arm.19.i.i.i
	mov	w8, #32                         // =0x20
	b	.LBB3_5
.LBB3_15:                               // %arm.22.i.i.i
	mov	w8, #33                         // =0x21
	b	.LBB3_5
.LBB3_16:                               // %arm.34.i.i.i
	mov	w8, #22                         // =0x16
	b	.LBB3_5
.LBB3_17:                               // %arm.10.i.i.i
	mov	w8, #31                         // =0x1f
	b	.LBB3_5
.LBB3_18:                               // %arm.14.i.i.i
	mov	w8, #29                         // =0x1d
	b	.LBB3_5
.LBB3_19:                               // %arm.25.i.i.i
	mov	w8, #18                         // =0x12
	b	.LBB3_5
.LBB3_20:                               // %arm.29.i.i.i
	mov	w8, #10                         // =0xa
	b	.LBB3_5
.LBB3_21:                               // %arm.8.i.i.i
	mov	w8, #28                         // =0x1c
	b	.LBB3_5
.LBB3_22:                               // %arm.11.i.i.i
	mov	w8, #14                         // =0xe
	b	.LBB3_5
.LBB3_23:                               // %arm.9.i.i.i
	mov	w8, #12                         // =0xc
	b	.LBB3_5
.LBB3_24:                               // %arm.30.i.i.i
	mov	w8, #5                          // =0x5
	b	.LBB3_5
.LBB3_25:                               // %arm.32.i.i.i
	mov	w8, #3                          // =0x3
	b	.LBB3_5
.LBB3_26:                               // %arm.2.i.i.i
	mov	w8, wzr
	b	.LBB3_5
.LBB3_27:                               // %arm.5.i.i.i
	mov	w8, #13                         // =0xd
	b	.LBB3_5
.LBB3_28:                               // %arm.6.i.i.i
	mov	w8, #38                         // =0x26
	b	.LBB3_5
.LBB3_29:                               // %arm.20.i.i.i
	mov	w8, #11                         // =0xb
	b	.LBB3_5
.LBB3_30:                               // %arm.3.i.i.i
	mov	w8, #35                         // =0x23
	b	.LBB3_5
.LBB3_31:                               // %arm.4.i.i.i
	mov	w8, #34                         // =0x22
	b	.LBB3_5
.LBB3_32:                               // %arm.13.i.i.i
	mov	w8, #20                         // =0x14
	b	.LBB3_5
.LBB3_33:                               // %arm.12.i.i.i
	mov	w8, #15                         // =0xf
	b	.LBB3_5
.LBB3_34:                               // %arm.38.i.i.i
	mov	w8, #19                         // =0x13
	b	.LBB3_5
.LBB3_35:                               // %arm.24.i.i.i
	mov	w8, #16                         // =0x10
	b	.LBB3_5
.LBB3_36:                               // %arm.31.i.i.i
	mov	w8, #6                          // =0x6
	b	.LBB3_5
.LBB3_37:                               // %arm.15.i.i.i
	mov	w8, #27                         // =0x1b
	b	.LBB3_5
.LBB3_38:                               // %arm.16.i.i.i
	mov	w8, #24                         // =0x18
	b	.LBB3_5
.LBB3_39:                               // %arm.35.i.i.i
	mov	w8, #2                          // =0x2
	b	.LBB3_5
.LBB3_40:                               // %arm.18.i.i.i
	mov	w8, #17                         // =0x11
	b	.LBB3_5
.Lfunc_end3:
	.size	"std_io::io::error::last_error", .Lfunc_end3-"std_io::io::error::last_error"
	.cfi_endproc
	.section	".rodata.std_io::io::error::last_error","a",@progbits
.LJTI3_0:
	.byte	(.LBB3_5-.LBB3_3)>>2
	.byte	(.LBB3_26-.LBB3_3)>>2
	.byte	(.LBB3_4-.LBB3_3)>>2
	.byte	(.LBB3_30-.LBB3_3)>>2
	.byte	(.LBB3_4-.LBB3_3)>>2
	.byte	(.LBB3_4-.LBB3_3)>>2
	.byte	(.LBB3_31-.LBB3_3)>>2
	.byte	(.LBB3_4-.LBB3_3)>>2
	.byte	(.LBB3_4-.LBB3_3)>>2
	.byte	(.LBB3_4-.LBB3_3)>>2
	.byte	(.LBB3_27-.LBB3_3)>>2
	.byte	(.LBB3_28-.LBB3_3)>>2
	.byte	(.LBB3_5-.LBB3_3)>>2
	.byte	(.LBB3_4-.LBB3_3)>>2
	.byte	(.LBB3_4-.LBB3_3)>>2
	.byte	(.LBB3_21-.LBB3_3)>>2
	.byte	(.LBB3_23-.LBB3_3)>>2
	.byte	(.LBB3_17-.LBB3_3)>>2
	.byte	(.LBB3_4-.LBB3_3)>>2
	.byte	(.LBB3_22-.LBB3_3)>>2
	.byte	(.LBB3_33-.LBB3_3)>>2
	.byte	(.LBB3_32-.LBB3_3)>>2
	.byte	(.LBB3_4-.LBB3_3)>>2
	.byte	(.LBB3_4-.LBB3_3)>>2
	.byte	(.LBB3_4-.LBB3_3)>>2
	.byte	(.LBB3_18-.LBB3_3)>>2
	.byte	(.LBB3_37-.LBB3_3)>>2
	.byte	(.LBB3_38-.LBB3_3)>>2
	.byte	(.LBB3_13-.LBB3_3)>>2
	.byte	(.LBB3_40-.LBB3_3)>>2
	.byte	(.LBB3_14-.LBB3_3)>>2
	.byte	(.LBB3_29-.LBB3_3)>>2
	.byte	(.LBB3_4-.LBB3_3)>>2
	.byte	(.LBB3_4-.LBB3_3)>>2
	.byte	(.LBB3_12-.LBB3_3)>>2
	.byte	(.LBB3_15-.LBB3_3)>>2
	.byte	(.LBB3_4-.LBB3_3)>>2
	.byte	(.LBB3_3-.LBB3_3)>>2
	.byte	(.LBB3_35-.LBB3_3)>>2
	.byte	(.LBB3_19-.LBB3_3)>>2
	.byte	(.LBB3_4-.LBB3_3)>>2
	.byte	(.LBB3_4-.LBB3_3)>>2
	.byte	(.LBB3_4-.LBB3_3)>>2
	.byte	(.LBB3_4-.LBB3_3)>>2
	.byte	(.LBB3_4-.LBB3_3)>>2
	.byte	(.LBB3_4-.LBB3_3)>>2
	.byte	(.LBB3_4-.LBB3_3)>>2
	.byte	(.LBB3_4-.LBB3_3)>>2
	.byte	(.LBB3_4-.LBB3_3)>>2
	.byte	(.LBB3_4-.LBB3_3)>>2
	.byte	(.LBB3_4-.LBB3_3)>>2
	.byte	(.LBB3_4-.LBB3_3)>>2
	.byte	(.LBB3_4-.LBB3_3)>>2
	.byte	(.LBB3_4-.LBB3_3)>>2
	.byte	(.LBB3_4-.LBB3_3)>>2
	.byte	(.LBB3_4-.LBB3_3)>>2
	.byte	(.LBB3_4-.LBB3_3)>>2
	.byte	(.LBB3_4-.LBB3_3)>>2
	.byte	(.LBB3_4-.LBB3_3)>>2
	.byte	(.LBB3_4-.LBB3_3)>>2
	.byte	(.LBB3_4-.LBB3_3)>>2
	.byte	(.LBB3_4-.LBB3_3)>>2
	.byte	(.LBB3_4-.LBB3_3)>>2
	.byte	(.LBB3_4-.LBB3_3)>>2
	.byte	(.LBB3_4-.LBB3_3)>>2
	.byte	(.LBB3_4-.LBB3_3)>>2
	.byte	(.LBB3_4-.LBB3_3)>>2
	.byte	(.LBB3_4-.LBB3_3)>>2
	.byte	(.LBB3_4-.LBB3_3)>>2
	.byte	(.LBB3_4-.LBB3_3)>>2
	.byte	(.LBB3_4-.LBB3_3)>>2
	.byte	(.LBB3_4-.LBB3_3)>>2
	.byte	(.LBB3_4-.LBB3_3)>>2
	.byte	(.LBB3_4-.LBB3_3)>>2
	.byte	(.LBB3_4-.LBB3_3)>>2
	.byte	(.LBB3_4-.LBB3_3)>>2
	.byte	(.LBB3_4-.LBB3_3)>>2
	.byte	(.LBB3_4-.LBB3_3)>>2
	.byte	(.LBB3_4-.LBB3_3)>>2
	.byte	(.LBB3_4-.LBB3_3)>>2
	.byte	(.LBB3_4-.LBB3_3)>>2
	.byte	(.LBB3_4-.LBB3_3)>>2
	.byte	(.LBB3_4-.LBB3_3)>>2
	.byte	(.LBB3_4-.LBB3_3)>>2
	.byte	(.LBB3_4-.LBB3_3)>>2
	.byte	(.LBB3_4-.LBB3_3)>>2
	.byte	(.LBB3_4-.LBB3_3)>>2
	.byte	(.LBB3_4-.LBB3_3)>>2
	.byte	(.LBB3_4-.LBB3_3)>>2
	.byte	(.LBB3_4-.LBB3_3)>>2
	.byte	(.LBB3_4-.LBB3_3)>>2
	.byte	(.LBB3_4-.LBB3_3)>>2
	.byte	(.LBB3_4-.LBB3_3)>>2
	.byte	(.LBB3_4-.LBB3_3)>>2
	.byte	(.LBB3_3-.LBB3_3)>>2
	.byte	(.LBB3_4-.LBB3_3)>>2
	.byte	(.LBB3_4-.LBB3_3)>>2
	.byte	(.LBB3_11-.LBB3_3)>>2
	.byte	(.LBB3_10-.LBB3_3)>>2
	.byte	(.LBB3_20-.LBB3_3)>>2
	.byte	(.LBB3_24-.LBB3_3)>>2
	.byte	(.LBB3_4-.LBB3_3)>>2
	.byte	(.LBB3_36-.LBB3_3)>>2
	.byte	(.LBB3_25-.LBB3_3)>>2
	.byte	(.LBB3_4-.LBB3_3)>>2
	.byte	(.LBB3_4-.LBB3_3)>>2
	.byte	(.LBB3_7-.LBB3_3)>>2
	.byte	(.LBB3_4-.LBB3_3)>>2
	.byte	(.LBB3_4-.LBB3_3)>>2
	.byte	(.LBB3_16-.LBB3_3)>>2
	.byte	(.LBB3_39-.LBB3_3)>>2
	.byte	(.LBB3_4-.LBB3_3)>>2
	.byte	(.LBB3_6-.LBB3_3)>>2
	.byte	(.LBB3_4-.LBB3_3)>>2
	.byte	(.LBB3_9-.LBB3_3)>>2
	.byte	(.LBB3_34-.LBB3_3)>>2
	.byte	(.LBB3_4-.LBB3_3)>>2
	.byte	(.LBB3_4-.LBB3_3)>>2
	.byte	(.LBB3_4-.LBB3_3)>>2
	.byte	(.LBB3_4-.LBB3_3)>>2
	.byte	(.LBB3_4-.LBB3_3)>>2
	.byte	(.LBB3_8-.LBB3_3)>>2
                                        // -- End function
	.section	".text.recoding::recoder::Recoder::finish_held::<#e3b2a9d4d2861db8>","ax",@progbits
	.p2align	2                               // -- Begin function recoding::recoder::Recoder::finish_held::<#e3b2a9d4d2861db8>
	.type	"recoding::recoder::Recoder::finish_held::<#e3b2a9d4d2861db8>",@function
"recoding::recoder::Recoder::finish_held::<#e3b2a9d4d2861db8>": // @"recoding::recoder::Recoder::finish_held::<#e3b2a9d4d2861db8>"
	.cfi_startproc
// %bb.0:                               // %start
	sub	sp, sp, #224
	.cfi_def_cfa_offset 224
	stp	x29, x30, [sp, #144]            // 16-byte Folded Spill
	stp	x26, x25, [sp, #160]            // 16-byte Folded Spill
	stp	x24, x23, [sp, #176]            // 16-byte Folded Spill
	stp	x22, x21, [sp, #192]            // 16-byte Folded Spill
	stp	x20, x19, [sp, #208]            // 16-byte Folded Spill
	add	x29, sp, #144
	.cfi_def_cfa w29, 80
	.cfi_offset w19, -8
	.cfi_offset w20, -16
	.cfi_offset w21, -24
	.cfi_offset w22, -32
	.cfi_offset w23, -40
	.cfi_offset w24, -48
	.cfi_offset w25, -56
	.cfi_offset w26, -64
	.cfi_offset w30, -72
	.cfi_offset w29, -80
	.cfi_remember_state
	ldr	x21, [x1]
	ldp	x10, x9, [x2, #8]
	mov	x8, x1
	ldur	q0, [x1, #8]
	mov	x20, x2
	add	x1, x21, x21, lsl #1
	ldr	x8, [x8, #24]
	mov	x19, x0
	sub	x9, x9, x10
	str	q0, [sp, #32]
	cmp	x1, x9
	str	x8, [sp, #48]
	b.hi	.LBB4_10
.LBB4_1:                                // %join.4
	ldr	q0, [sp, #32]
	ldr	x8, [sp, #48]
	str	x21, [sp]
	stur	q0, [sp, #8]
	str	x8, [sp, #24]
	cbz	x21, .LBB4_8
// %bb.2:                               // %join.5.lr.ph.i.i
	ldrb	w22, [sp, #16]
	ldrb	w23, [sp, #17]
	mov	w8, #1                          // =0x1
	mov	x25, sp
	cmp	w22, #0
	cinc	x26, x8, ne
.LBB4_3:                                // %join.5.i.i
                                        // =>This Inner Loop Header: Depth=1
	movi	v0.2d, #0000000000000000
	sub	x0, x29, #32
	add	x1, sp, #64
	add	x3, x25, #8
	mov	w2, w22
	mov	x4, x21
	str	xzr, [sp, #96]
	stp	q0, q0, [x29, #-32]
	stp	q0, q0, [sp, #64]
	bl	"recoding::form_calls::next_of"
	ldurb	w8, [x29, #-32]
	cmp	w8, #1
	b.ne	.LBB4_5
// %bb.4:                               // %arm.1.i.i.i
                                        //   in Loop: Header=BB4_3 Depth=1
	ldurb	w1, [x29, #-24]
	ldur	w2, [x29, #-20]
	ldur	x24, [x29, #-16]
	mov	w0, w23
	mov	x3, x20
	bl	"recoding::form_calls::put_shown::<#345d457c2768aa28>"
	cbnz	w0, .LBB4_6
	b	.LBB4_8
.LBB4_5:                                // %arm.2.i.i.i
                                        //   in Loop: Header=BB4_3 Depth=1
	cmp	x21, x26
	mov	w2, #65533                      // =0xfffd
	mov	w1, #1                          // =0x1
	csel	x24, x21, x26, lo
	mov	w0, w23
	mov	x3, x20
	bl	"recoding::form_calls::put_shown::<#345d457c2768aa28>"
	cbz	w0, .LBB4_8
.LBB4_6:                                // %"recoding::form_calls::last_of.exit.i.i"
                                        //   in Loop: Header=BB4_3 Depth=1
	cmp	x21, x24
	b.ls	.LBB4_8
// %bb.7:                               // %"recoding::held::Held::drop_front.exit.i.i"
                                        //   in Loop: Header=BB4_3 Depth=1
	mov	x0, sp
	mov	x1, x24
	bl	"recoding::held::Held::shift_joined"
	ldr	x21, [sp]
	cbnz	x21, .LBB4_3
.LBB4_8:                                // %"recoding::recoder::Recoder::append_last::<#e3b2a9d4d2861db8>.exit"
	movi	v0.2d, #0000000000000000
	strb	wzr, [x19]
	stur	q0, [x19, #8]
	stur	q0, [x19, #24]
	.cfi_def_cfa wsp, 224
.LBB4_9:                                // %"recoding::recoder::Recoder::append_last::<#e3b2a9d4d2861db8>.exit"
	ldp	x20, x19, [sp, #208]            // 16-byte Folded Reload
	ldp	x22, x21, [sp, #192]            // 16-byte Folded Reload
	ldp	x24, x23, [sp, #176]            // 16-byte Folded Reload
	ldp	x26, x25, [sp, #160]            // 16-byte Folded Reload
	ldp	x29, x30, [sp, #144]            // 16-byte Folded Reload
	add	sp, sp, #224
	.cfi_def_cfa_offset 0
	.cfi_restore w19
	.cfi_restore w20
	.cfi_restore w21
	.cfi_restore w22
	.cfi_restore w23
	.cfi_restore w24
	.cfi_restore w25
	.cfi_restore w26
	.cfi_restore w30
	.cfi_restore w29
	ret
.LBB4_10:                               // %"std_alloc::vec::Vec::grow::<#5fdc5e19576447a7>.exit.i"
	.cfi_restore_state
	mov	x0, x20
	bl	"std_alloc::vec::Vec::grow_amortized::<#5fdc5e19576447a7>"
	tbnz	w0, #0, .LBB4_1
// %bb.11:                              // %arm.1
	ldr	q0, [sp, #32]
	ldr	x9, [sp, #48]
	mov	w8, #1                          // =0x1
	str	x21, [x19, #8]
	strb	w8, [x19]
	str	q0, [x19, #16]
	str	x9, [x19, #32]
	.cfi_def_cfa wsp, 224
	b	.LBB4_9
.Lfunc_end4:
	.size	"recoding::recoder::Recoder::finish_held::<#e3b2a9d4d2861db8>", .Lfunc_end4-"recoding::recoder::Recoder::finish_held::<#e3b2a9d4d2861db8>"
	.cfi_endproc
                                        // -- End function
	.section	".text.recoding::form_calls::next_of","ax",@progbits
	.p2align	2                               // -- Begin function recoding::form_calls::next_of
	.type	"recoding::form_calls::next_of",@function
"recoding::form_calls::next_of":        // @"recoding::form_calls::next_of"
	.cfi_startproc
// %bb.0:                               // %start
	stp	x29, x30, [sp, #-96]!           // 16-byte Folded Spill
	.cfi_def_cfa_offset 96
	stp	x28, x27, [sp, #16]             // 16-byte Folded Spill
	stp	x26, x25, [sp, #32]             // 16-byte Folded Spill
	stp	x24, x23, [sp, #48]             // 16-byte Folded Spill
	stp	x22, x21, [sp, #64]             // 16-byte Folded Spill
	stp	x20, x19, [sp, #80]             // 16-byte Folded Spill
	mov	x29, sp
	.cfi_def_cfa w29, 96
	.cfi_offset w19, -8
	.cfi_offset w20, -16
	.cfi_offset w21, -24
	.cfi_offset w22, -32
	.cfi_offset w23, -40
	.cfi_offset w24, -48
	.cfi_offset w25, -56
	.cfi_offset w26, -64
	.cfi_offset w27, -72
	.cfi_offset w28, -80
	.cfi_offset w30, -88
	.cfi_offset w29, -96
	.cfi_remember_state
	and	w8, w2, #0xff
	ldrb	w22, [x1]
	ldr	x21, [x1, #16]
	cmp	w8, #2
	b.eq	.LBB5_7
// %bb.1:                               // %start
	cmp	w8, #1
	b.ne	.LBB5_9
// %bb.2:                               // %arm.2
	cmp	x4, #2
	b.lo	.LBB5_8
// %bb.3:                               // %join.3.i347
	ldrb	w9, [x3, #1]
	ldrb	w20, [x3]
	mov	w10, #55296                     // =0xd800
	lsl	w8, w9, #8
	bfi	w20, w9, #8, #8
	and	w8, w8, #0xfc00
	cmp	w8, w10
	b.ne	.LBB5_16
// %bb.4:                               // %join.6.i367
	cmp	x4, #4
	b.lo	.LBB5_8
// %bb.5:                               // %join.15.i452
	ldrb	w8, [x3, #3]
	and	w9, w8, #0xfc
	cmp	w9, #220
	b.ne	.LBB5_17
// %bb.6:                               // %arm.14.i
	ldrb	w9, [x3, #2]
	b	.LBB5_28
.LBB5_7:                                // %arm.3
	cmp	x4, #2
	b.hs	.LBB5_15
.LBB5_8:
	mov	x9, xzr
	mov	w11, wzr
	mov	w20, wzr
	mov	x8, xzr
	mov	x10, xzr
	b	.LBB5_69
.LBB5_9:                                // %start
	ldr	x23, [x1, #8]
	cmp	x4, #4
	b.lo	.LBB5_18
// %bb.10:                              // %join.3.i41
	ldrsb	w8, [x3]
	and	w20, w8, #0xff
	tbz	w8, #31, .LBB5_22
// %bb.11:                              // %join.6.i
	ldrb	w8, [x3, #1]
	cmp	w20, #224
	b.hs	.LBB5_30
// %bb.12:                              // %"utf_lanes::text_front::front_of_text.exit"
	cmp	w20, #194
	b.lo	.LBB5_47
// %bb.13:                              // %"utf_lanes::text_front::front_of_text.exit"
	eor	w8, w8, #0x80
	cmp	w8, #64
	b.hs	.LBB5_47
// %bb.14:
	add	w8, w8, w20, lsl #6
	mov	x10, xzr
	sub	w20, w8, #3, lsl #12            // =12288
	b	.LBB5_24
.LBB5_15:                               // %join.3.i542
	ldrb	w9, [x3]
	ldrb	w20, [x3, #1]
	mov	w10, #55296                     // =0xd800
	lsl	w8, w9, #8
	bfi	w20, w9, #8, #8
	and	w8, w8, #0xfc00
	cmp	w8, w10
	b.eq	.LBB5_25
.LBB5_16:                               // %join.3.i347
	mov	w9, #56320                      // =0xdc00
	cmp	w8, w9
	b.ne	.LBB5_23
.LBB5_17:                               // %arm.3.i644
	cmp	w22, #2
	mov	w8, #65533                      // =0xfffd
	mov	w9, #1                          // =0x1
	ccmp	x21, #0, #0, eq
	mov	w10, #1                         // =0x1
	cset	w11, ne
	csel	w20, w8, wzr, ne
	mov	w8, #2                          // =0x2
	b	.LBB5_69
.LBB5_18:                               // %join.3.i
	mov	x24, x0
	cbz	x4, .LBB5_41
// %bb.19:                              // %join.3.i116
	ldrb	w20, [x3]
	adrp	x25, .Lstatic.8
	add	x25, x25, :lo12:.Lstatic.8
	adrp	x26, .Lstatic.9
	add	x26, x26, :lo12:.Lstatic.9
	ldrb	w8, [x25, x20]
	ldrb	w19, [x26, x8]
	cmp	x19, #12
	b.ls	.LBB5_36
// %bb.20:                              // %join.6.i121
	cmp	w19, #13
	mov	x0, x24
	b.ne	.LBB5_58
// %bb.21:                              // %join.9.i123
	tbnz	w20, #7, .LBB5_70
.LBB5_22:
	mov	x10, xzr
	mov	w9, #1                          // =0x1
	mov	w11, #1                         // =0x1
	mov	w8, #1                          // =0x1
	b	.LBB5_69
.LBB5_23:                               // %arm.7.i
	mov	x10, xzr
.LBB5_24:                               // %join.8
	mov	w9, #1                          // =0x1
	mov	w8, #2                          // =0x2
	mov	w11, #1                         // =0x1
	b	.LBB5_69
.LBB5_25:                               // %join.6.i576
	cmp	x4, #4
	b.lo	.LBB5_8
// %bb.26:                              // %join.15.i74.i
	ldrb	w8, [x3, #2]
	and	w9, w8, #0xfc
	cmp	w9, #220
	b.ne	.LBB5_17
// %bb.27:                              // %arm.14.i605
	ldrb	w9, [x3, #3]
.LBB5_28:                               // %join.8
	mov	x10, xzr
	bfi	w9, w8, #8, #2
	bfi	w9, w20, #10, #10
	add	w20, w9, #16, lsl #12           // =65536
.LBB5_29:                               // %join.8
	mov	w9, #1                          // =0x1
	mov	w8, #4                          // =0x4
	mov	w11, #1                         // =0x1
	b	.LBB5_69
.LBB5_30:                               // %join.9.i
	sxtb	w9, w8
	cmn	w9, #65
	b.gt	.LBB5_47
// %bb.31:                              // %join.12.i
	and	w8, w8, #0x3f
	cmp	w20, #239
	bfi	w8, w20, #6, #4
	b.hi	.LBB5_43
// %bb.32:                              // %then.13.i
	and	w9, w8, #0x3e0
	cmp	w9, #864
	b.eq	.LBB5_47
// %bb.33:                              // %join.3.i73
	ldrsb	w9, [x3, #2]
	cmn	w9, #65
	b.gt	.LBB5_47
// %bb.34:                              // %join.3.i73
	cmp	w8, #32
	b.lo	.LBB5_47
// %bb.35:                              // %join.9.i77
	and	w9, w9, #0xff
	mov	x10, xzr
	and	w9, w9, #0x3f
	orr	w20, w9, w8, lsl #6
	b	.LBB5_57
.LBB5_36:                               // %then.4.i133
	mov	w0, w19
	mov	x27, x3
	mov	x28, x4
	bl	"utf_chars::codes::utf8::missing_after"
	mov	x4, x28
	mov	x3, x27
	cmp	x28, x0
	b.ls	.LBB5_41
// %bb.37:                              // %join.3.i151
	ldrb	w8, [x3, #1]
	add	x10, x26, x19, lsl #4
	ldrb	w9, [x25, x8]
	ldrb	w10, [x10, x9]
	cmp	w10, #12
	b.hi	.LBB5_53
// %bb.38:                              // %then.1.i179
	ldrb	w9, [x3, #2]
	add	x10, x26, x10, lsl #4
	mov	x0, x24
	ldrb	w11, [x25, x9]
	ldrb	w10, [x10, x11]
	cmp	w10, #12
	b.hi	.LBB5_55
// %bb.39:                              // %then.1.i218
	ldrb	w11, [x3, #3]
	add	x10, x26, x10, lsl #4
	ldrb	w12, [x25, x11]
	ldrb	w10, [x10, x12]
	cmp	w10, #13
	b.ne	.LBB5_58
// %bb.40:                              // %join.3.i236
	ubfiz	w12, w20, #12, #3
	mov	x10, xzr
	bfi	w12, w8, #6, #6
	and	w8, w11, #0x3f
	bfxil	w12, w9, #0, #6
	orr	w20, w8, w12, lsl #6
	b	.LBB5_29
.LBB5_41:                               // %arm.10.i
	mov	x0, x3
	mov	x1, x4
	mov	x19, x3
	mov	x20, x4
	bl	"recoding::next_scalar::is_front_of_code"
	tbz	w0, #0, .LBB5_50
// %bb.42:
	mov	x9, xzr
	mov	w11, wzr
	mov	w20, wzr
	mov	x8, xzr
	mov	x10, xzr
	mov	x0, x24
	b	.LBB5_69
.LBB5_43:                               // %else.14.i
	sub	w9, w8, #272
	cmn	w9, #256
	b.lo	.LBB5_47
// %bb.44:                              // %after.1.i
	ldrsb	w9, [x3, #2]
	cmn	w9, #65
	b.gt	.LBB5_47
// %bb.45:                              // %else.14.i98
	ldrsb	w11, [x3, #3]
	cmn	w11, #65
	b.gt	.LBB5_47
// %bb.46:                              // %after.11.i
	lsl	w20, w8, #12
	and	w8, w11, #0xff
	mov	x10, xzr
	bfi	w20, w9, #6, #6
	bfxil	w20, w8, #0, #6
	b	.LBB5_29
.LBB5_47:                               // %arm.5.i
	cmp	w22, #2
	b.eq	.LBB5_63
// %bb.48:                              // %arm.5.i
	cmp	w22, #1
	b.ne	.LBB5_65
// %bb.49:                              // %arm.3.i
	mov	x19, x0
	mov	x0, x3
	mov	x1, x4
	bl	"recoding::subparts::subpart_len"
	mov	x8, x0
	mov	x0, x19
	b	.LBB5_62
.LBB5_50:                               // %join.14.i
	cmp	w22, #2
	mov	x0, x24
	mov	x3, x19
	b.eq	.LBB5_63
// %bb.51:                              // %join.14.i
	cmp	w22, #1
	b.ne	.LBB5_65
// %bb.52:                              // %arm.3.i312
	mov	x1, x20
	mov	x0, x3
	b	.LBB5_61
.LBB5_53:                               // %join.3.i166
	cmp	w10, #13
	mov	x0, x24
	b.ne	.LBB5_58
// %bb.54:                              // %"utf_chars::codes::utf8::decode_start.exit.thread959"
	and	w12, w8, #0x3f
	mov	x10, xzr
	mov	w9, #1                          // =0x1
	bfi	w12, w20, #6, #5
	mov	w8, #2                          // =0x2
	mov	w11, #1                         // =0x1
	mov	w20, w12
	b	.LBB5_69
.LBB5_55:                               // %join.3.i199
	cmp	w10, #13
	b.ne	.LBB5_58
// %bb.56:                              // %join.6.i201
	ubfiz	w20, w20, #12, #4
	mov	x10, xzr
	bfi	w20, w8, #6, #6
	bfxil	w20, w9, #0, #6
.LBB5_57:                               // %join.8
	mov	w9, #1                          // =0x1
	mov	w8, #3                          // =0x3
	mov	w11, #1                         // =0x1
	b	.LBB5_69
.LBB5_58:                               // %arm.9.i
	cmp	w22, #2
	b.eq	.LBB5_63
// %bb.59:                              // %arm.9.i
	cmp	w22, #1
	b.ne	.LBB5_65
// %bb.60:                              // %arm.3.i304
	mov	x0, x3
	mov	x1, x4
.LBB5_61:                               // %join.8
	bl	"recoding::subparts::subpart_len"
	mov	x8, x0
	mov	x0, x24
.LBB5_62:                               // %join.8
	mov	w20, #65533                     // =0xfffd
	mov	w9, #1                          // =0x1
	mov	w11, #1                         // =0x1
	mov	x10, x8
	b	.LBB5_69
.LBB5_63:                               // %arm.2.i675
	ldrb	w8, [x3]
	and	x8, x8, #0x7f
	cmp	x21, x8
	b.ls	.LBB5_66
// %bb.64:                              // %arm.1.i689
	ldr	w8, [x23, x8, lsl #2]
	cmp	w8, #16, lsl #12                // =65536
	sub	w9, w8, #14, lsl #12            // =57344
	cset	w10, lo
	cmn	w9, #2048
	cset	w9, lo
	ands	w11, w10, w9
	csel	w20, w8, wzr, ne
	b	.LBB5_67
.LBB5_65:
	mov	w20, #65533                     // =0xfffd
	mov	w9, #1                          // =0x1
	mov	w11, #1                         // =0x1
	b	.LBB5_68
.LBB5_66:
	mov	w11, wzr
	mov	w20, wzr
.LBB5_67:                               // %join.8
	mov	w9, #1                          // =0x1
.LBB5_68:                               // %join.8
	mov	w8, #1                          // =0x1
	mov	w10, #1                         // =0x1
.LBB5_69:                               // %join.8
	and	w11, w11, #0x1
	str	x9, [x0]
	stp	w11, w20, [x0, #8]
	stp	x8, x10, [x0, #16]
	.cfi_def_cfa wsp, 96
	ldp	x20, x19, [sp, #80]             // 16-byte Folded Reload
	ldp	x22, x21, [sp, #64]             // 16-byte Folded Reload
	ldp	x24, x23, [sp, #48]             // 16-byte Folded Reload
	ldp	x26, x25, [sp, #32]             // 16-byte Folded Reload
	ldp	x28, x27, [sp, #16]             // 16-byte Folded Reload
	ldp	x29, x30, [sp], #96             // 16-byte Folded Reload
	.cfi_def_cfa_offset 0
	.cfi_restore w19
	.cfi_restore w20
	.cfi_restore w21
	.cfi_restore w22
	.cfi_restore w23
	.cfi_restore w24
	.cfi_restore w25
	.cfi_restore w26
	.cfi_restore w27
	.cfi_restore w28
	.cfi_restore w30
	.cfi_restore w29
	ret
.LBB5_70:                               // %join.4.i
	.cfi_restore_state
	brk	#0x1
.Lfunc_end5:
	.size	"recoding::form_calls::next_of", .Lfunc_end5-"recoding::form_calls::next_of"
	.cfi_endproc
                                        // -- End function
	.section	".text.unlikely.utf_chars::codes::utf8::missing_after","ax",@progbits
	.p2align	2                               // -- Begin function utf_chars::codes::utf8::missing_after
	.type	"utf_chars::codes::utf8::missing_after",@function
"utf_chars::codes::utf8::missing_after": // @"utf_chars::codes::utf8::missing_after"
	.cfi_startproc
// %bb.0:                               // %start
                                        // kill: def $w0 killed $w0 def $x0
	and	x8, x0, #0xff
	adrp	x9, ".Lswitch.table.utf_chars::codes::utf8::missing_after"
	add	x9, x9, :lo12:".Lswitch.table.utf_chars::codes::utf8::missing_after"
	ldr	x0, [x9, x8, lsl #3]
	ret
.Lfunc_end6:
	.size	"utf_chars::codes::utf8::missing_after", .Lfunc_end6-"utf_chars::codes::utf8::missing_after"
	.cfi_endproc
                                        // -- End function
	.section	".text.unlikely.recoding::next_scalar::is_front_of_code","ax",@progbits
	.p2align	2                               // -- Begin function recoding::next_scalar::is_front_of_code
	.type	"recoding::next_scalar::is_front_of_code",@function
"recoding::next_scalar::is_front_of_code": // @"recoding::next_scalar::is_front_of_code"
	.cfi_startproc
// %bb.0:                               // %start
	cmp	x1, #1
	b.hi	.LBB7_2
.LBB7_1:
	mov	w0, #1                          // =0x1
	ret
.LBB7_2:                                // %join.3
	ldrsb	w8, [x0, #1]
	cmn	w8, #65
	b.gt	.LBB7_13
// %bb.3:                               // %then.1.i
	ldrb	w9, [x0]
	and	w8, w8, #0xff
	cmp	w9, #239
	b.gt	.LBB7_7
// %bb.4:                               // %then.1.i
	cmp	w9, #224
	b.eq	.LBB7_12
// %bb.5:                               // %then.1.i
	cmp	w9, #237
	b.ne	.LBB7_10
// %bb.6:                               // %arm.5.i
	cmp	w8, #160
	b.lo	.LBB7_10
	b	.LBB7_13
.LBB7_7:                                // %then.1.i
	cmp	w9, #240
	b.eq	.LBB7_14
// %bb.8:                               // %then.1.i
	cmp	w9, #244
	b.ne	.LBB7_10
// %bb.9:                               // %"recoding::subparts::may_be_second.exit"
	cmp	w8, #143
	b.hi	.LBB7_13
.LBB7_10:                               // %then.4
	cmp	x1, #2
	b.eq	.LBB7_1
// %bb.11:                              // %else.8
	ldrsb	w8, [x0, #2]
	cmn	w8, #64
	cset	w0, lt
	ret
.LBB7_12:                               // %arm.4.i
	cmp	w8, #159
	b.hi	.LBB7_10
.LBB7_13:
	mov	w0, wzr
	ret
.LBB7_14:                               // %arm.6.i
	cmp	w8, #143
	b.ls	.LBB7_13
	b	.LBB7_10
.Lfunc_end7:
	.size	"recoding::next_scalar::is_front_of_code", .Lfunc_end7-"recoding::next_scalar::is_front_of_code"
	.cfi_endproc
                                        // -- End function
	.section	".text.recoding::subparts::subpart_len","ax",@progbits
	.p2align	2                               // -- Begin function recoding::subparts::subpart_len
	.type	"recoding::subparts::subpart_len",@function
"recoding::subparts::subpart_len":      // @"recoding::subparts::subpart_len"
	.cfi_startproc
// %bb.0:                               // %start
	cmp	x1, #2
	b.lo	.LBB8_15
// %bb.1:                               // %join.3.i
	ldrb	w8, [x0]
	sub	w9, w8, #224
	cmp	w9, #20
	b.hi	.LBB8_15
// %bb.2:                               // %then.7.i
	ldrsb	w9, [x0, #1]
	cmn	w9, #65
	b.gt	.LBB8_15
// %bb.3:                               // %then.1.i.i
	cmp	w8, #239
	and	w9, w9, #0xff
	b.gt	.LBB8_7
// %bb.4:                               // %then.1.i.i
	cmp	w8, #224
	b.eq	.LBB8_13
// %bb.5:                               // %then.1.i.i
	cmp	w8, #237
	b.ne	.LBB8_10
// %bb.6:                               // %arm.5.i.i
	cmp	w9, #160
	b.lo	.LBB8_10
	b	.LBB8_15
.LBB8_7:                                // %then.1.i.i
	cmp	w8, #240
	b.eq	.LBB8_14
// %bb.8:                               // %then.1.i.i
	cmp	w8, #244
	b.ne	.LBB8_10
// %bb.9:                               // %arm.7.i.i
	cmp	w9, #144
	b.hs	.LBB8_15
.LBB8_10:                               // %join.3
	cmp	x1, #2
	b.ne	.LBB8_12
// %bb.11:
	mov	w0, #2                          // =0x2
	ret
.LBB8_12:                               // %then.1.i5
	ldrsb	w8, [x0, #2]
	cmn	w8, #64
	mov	w8, #2                          // =0x2
	cinc	x0, x8, lt
	ret
.LBB8_13:                               // %arm.4.i.i
	cmp	w9, #159
	b.hi	.LBB8_10
	b	.LBB8_15
.LBB8_14:                               // %"recoding::subparts::begins_long_code.exit"
	cmp	w9, #143
	b.hi	.LBB8_10
.LBB8_15:
	mov	w0, #1                          // =0x1
	ret
.Lfunc_end8:
	.size	"recoding::subparts::subpart_len", .Lfunc_end8-"recoding::subparts::subpart_len"
	.cfi_endproc
                                        // -- End function
	.section	".text.recoding::form_calls::put_shown::<#345d457c2768aa28>","ax",@progbits
	.p2align	2                               // -- Begin function recoding::form_calls::put_shown::<#345d457c2768aa28>
	.type	"recoding::form_calls::put_shown::<#345d457c2768aa28>",@function
"recoding::form_calls::put_shown::<#345d457c2768aa28>": // @"recoding::form_calls::put_shown::<#345d457c2768aa28>"
	.cfi_startproc
// %bb.0:                               // %start
	stp	x29, x30, [sp, #-16]!           // 16-byte Folded Spill
	.cfi_def_cfa_offset 16
	mov	x29, sp
	.cfi_def_cfa w29, 16
	.cfi_offset w30, -8
	.cfi_offset w29, -16
	.cfi_remember_state
	and	w8, w0, #0xff
	cmp	w8, #2
	b.eq	.LBB9_6
// %bb.1:                               // %start
	cmp	w8, #1
	b.ne	.LBB9_10
// %bb.2:                               // %arm.2
	and	w8, w1, #0xff
	cmp	w8, #1
	b.ne	.LBB9_14
// %bb.3:                               // %arm.1.i.i6
	ldp	x8, x9, [x3, #8]
	sub	x9, x9, x8
	cmp	x9, #4
	b.lo	.LBB9_15
// %bb.4:                               // %then.1.i.i.i10
	lsr	w9, w2, #16
	cbnz	w9, .LBB9_18
// %bb.5:                               // %arm.1.i.i.i
	ldr	x9, [x3]
	lsr	w10, w2, #8
	strb	w2, [x9, x8]
	ldr	x9, [x3]
	add	x9, x9, x8
	add	x8, x8, #2
	strb	w10, [x9, #1]
	str	x8, [x3, #8]
	mov	w0, #1                          // =0x1
	.cfi_def_cfa wsp, 16
	ldp	x29, x30, [sp], #16             // 16-byte Folded Reload
	.cfi_def_cfa_offset 0
	.cfi_restore w30
	.cfi_restore w29
	ret
.LBB9_6:                                // %arm.3
	.cfi_restore_state
	.cfi_remember_state
	and	w8, w1, #0xff
	cmp	w8, #1
	b.ne	.LBB9_14
// %bb.7:                               // %arm.1.i.i14
	ldp	x8, x9, [x3, #8]
	sub	x9, x9, x8
	cmp	x9, #4
	b.lo	.LBB9_16
// %bb.8:                               // %then.1.i.i.i20
	lsr	w9, w2, #16
	cbnz	w9, .LBB9_20
// %bb.9:                               // %arm.1.i.i.i24
	ldr	x9, [x3]
	lsr	w10, w2, #8
	strb	w10, [x9, x8]
	ldr	x9, [x3]
	add	x9, x9, x8
	add	x8, x8, #2
	strb	w2, [x9, #1]
	str	x8, [x3, #8]
	mov	w0, #1                          // =0x1
	.cfi_def_cfa wsp, 16
	ldp	x29, x30, [sp], #16             // 16-byte Folded Reload
	.cfi_def_cfa_offset 0
	.cfi_restore w30
	.cfi_restore w29
	ret
.LBB9_10:                               // %arm.1
	.cfi_restore_state
	.cfi_remember_state
	and	w8, w1, #0xff
	cmp	w8, #1
	b.ne	.LBB9_14
// %bb.11:                              // %arm.1.i.i
	ldp	x8, x9, [x3, #8]
	sub	x9, x9, x8
	cmp	x9, #4
	b.lo	.LBB9_17
// %bb.12:                              // %then.1.i.i.i
	cmp	w2, #128
	b.hs	.LBB9_21
// %bb.13:                              // %then.1.i14.i.i
	ldr	x9, [x3]
	add	x10, x8, #1
	strb	w2, [x9, x8]
	str	x10, [x3, #8]
.LBB9_14:
	mov	w0, #1                          // =0x1
	.cfi_def_cfa wsp, 16
	ldp	x29, x30, [sp], #16             // 16-byte Folded Reload
	.cfi_def_cfa_offset 0
	.cfi_restore w30
	.cfi_restore w29
	ret
.LBB9_15:                               // %join.3.i.i.i9
	.cfi_restore_state
	.cfi_remember_state
	mov	w0, w2
	mov	x1, x3
	bl	"recoding::text::Text::put_at_end::<#33e10de476944db2>"
	.cfi_def_cfa wsp, 16
	ldp	x29, x30, [sp], #16             // 16-byte Folded Reload
	.cfi_def_cfa_offset 0
	.cfi_restore w30
	.cfi_restore w29
	ret
.LBB9_16:                               // %join.3.i.i.i18
	.cfi_restore_state
	.cfi_remember_state
	mov	w0, w2
	mov	x1, x3
	bl	"recoding::text::Text::put_at_end::<#4a42a49a72b1152c>"
	.cfi_def_cfa wsp, 16
	ldp	x29, x30, [sp], #16             // 16-byte Folded Reload
	.cfi_def_cfa_offset 0
	.cfi_restore w30
	.cfi_restore w29
	ret
.LBB9_17:                               // %join.3.i.i.i
	.cfi_restore_state
	.cfi_remember_state
	mov	w0, w2
	mov	x1, x3
	bl	"recoding::text::Text::put_at_end::<#70c8f03fcffdff05>"
	.cfi_def_cfa wsp, 16
	ldp	x29, x30, [sp], #16             // 16-byte Folded Reload
	.cfi_def_cfa_offset 0
	.cfi_restore w30
	.cfi_restore w29
	ret
.LBB9_18:                               // %arm.2.i.i.i
	.cfi_restore_state
	.cfi_remember_state
	mov	w9, #-10304                     // =0xffffd7c0
	ldr	x10, [x3]
	add	w9, w9, w2, lsr #10
	strb	w9, [x10, x8]
	ldr	x10, [x3]
	lsr	w9, w9, #8
	add	x10, x10, x8
	strb	w9, [x10, #1]
	ldr	x9, [x3]
	add	x9, x9, x8
	strb	w2, [x9, #2]
	mov	w9, #220                        // =0xdc
	ldr	x10, [x3]
	bfxil	w9, w2, #8, #2
.LBB9_19:                               // %join.5
	add	x10, x10, x8
	add	x8, x8, #4
	strb	w9, [x10, #3]
	str	x8, [x3, #8]
	mov	w0, #1                          // =0x1
	.cfi_def_cfa wsp, 16
	ldp	x29, x30, [sp], #16             // 16-byte Folded Reload
	.cfi_def_cfa_offset 0
	.cfi_restore w30
	.cfi_restore w29
	ret
.LBB9_20:                               // %arm.2.i.i.i21
	.cfi_restore_state
	.cfi_remember_state
	mov	w9, #-10304                     // =0xffffd7c0
	ldr	x10, [x3]
	add	w9, w9, w2, lsr #10
	lsr	w11, w9, #8
	strb	w11, [x10, x8]
	ldr	x10, [x3]
	add	x10, x10, x8
	strb	w9, [x10, #1]
	mov	w9, #220                        // =0xdc
	ldr	x10, [x3]
	bfxil	w9, w2, #8, #2
	add	x10, x10, x8
	strb	w9, [x10, #2]
	ldr	x9, [x3]
	add	x9, x9, x8
	add	x8, x8, #4
	strb	w2, [x9, #3]
	str	x8, [x3, #8]
	mov	w0, #1                          // =0x1
	.cfi_def_cfa wsp, 16
	ldp	x29, x30, [sp], #16             // 16-byte Folded Reload
	.cfi_def_cfa_offset 0
	.cfi_restore w30
	.cfi_restore w29
	ret
.LBB9_21:                               // %join.3.i7.i.i
	.cfi_restore_state
	.cfi_remember_state
	mov	w9, #128                        // =0x80
	cmp	w2, #2048
	mov	w10, #128                       // =0x80
	bfxil	w9, w2, #0, #6
	b.hs	.LBB9_23
// %bb.22:                              // %then.4.i.i.i
	lsr	w10, w2, #6
	ldr	x11, [x3]
	orr	w10, w10, #0xc0
	strb	w10, [x11, x8]
	ldr	x10, [x3]
	add	x10, x10, x8
	add	x8, x8, #2
	strb	w9, [x10, #1]
	str	x8, [x3, #8]
	mov	w0, #1                          // =0x1
	.cfi_def_cfa wsp, 16
	ldp	x29, x30, [sp], #16             // 16-byte Folded Reload
	.cfi_def_cfa_offset 0
	.cfi_restore w30
	.cfi_restore w29
	ret
.LBB9_23:                               // %join.7.i.i.i
	.cfi_restore_state
	.cfi_remember_state
	bfxil	w10, w2, #6, #6
	cmp	w2, #16, lsl #12                // =65536
	b.hs	.LBB9_25
// %bb.24:                              // %then.7.i.i.i
	lsr	w11, w2, #12
	ldr	x12, [x3]
	orr	w11, w11, #0xe0
	strb	w11, [x12, x8]
	ldr	x11, [x3]
	add	x11, x11, x8
	strb	w10, [x11, #1]
	ldr	x10, [x3]
	add	x10, x10, x8
	add	x8, x8, #3
	strb	w9, [x10, #2]
	str	x8, [x3, #8]
	mov	w0, #1                          // =0x1
	.cfi_def_cfa wsp, 16
	ldp	x29, x30, [sp], #16             // 16-byte Folded Reload
	.cfi_def_cfa_offset 0
	.cfi_restore w30
	.cfi_restore w29
	ret
.LBB9_25:                               // %join.9.i.i.i
	.cfi_restore_state
	lsr	w11, w2, #18
	lsr	w12, w2, #4
	ldr	x13, [x3]
	add	w11, w11, #240
	and	w12, w12, #0x3f00
	strb	w11, [x13, x8]
	add	w11, w11, w12
	ldr	x12, [x3]
	add	w11, w11, #8, lsl #12           // =32768
	lsr	w13, w11, #8
	add	x12, x12, x8
	add	w10, w10, w11, lsr #16
	strb	w13, [x12, #1]
	ldr	x12, [x3]
	add	x11, x12, x8
	strb	w10, [x11, #2]
	ldr	x10, [x3]
	b	.LBB9_19
.Lfunc_end9:
	.size	"recoding::form_calls::put_shown::<#345d457c2768aa28>", .Lfunc_end9-"recoding::form_calls::put_shown::<#345d457c2768aa28>"
	.cfi_endproc
                                        // -- End function
	.section	".text.recoding::text::Text::put_at_end::<#70c8f03fcffdff05>","ax",@progbits
	.p2align	2                               // -- Begin function recoding::text::Text::put_at_end::<#70c8f03fcffdff05>
	.type	"recoding::text::Text::put_at_end::<#70c8f03fcffdff05>",@function
"recoding::text::Text::put_at_end::<#70c8f03fcffdff05>": // @"recoding::text::Text::put_at_end::<#70c8f03fcffdff05>"
	.cfi_startproc
// %bb.0:                               // %start
	ldp	x8, x9, [x1, #8]
	cmp	w0, #128
	b.hs	.LBB10_3
// %bb.1:                               // %"recoding::text::Utf8Text::code_len.exit.thread"
	cmp	x9, x8
	b.eq	.LBB10_4
// %bb.2:                               // %then.1.i
	ldr	x9, [x1]
	add	x10, x8, #1
	strb	w0, [x9, x8]
	mov	w0, #1                          // =0x1
	str	x10, [x1, #8]
	ret
.LBB10_3:                               // %join.3.i.i
	cmp	w0, #16, lsl #12                // =65536
	mov	w10, #3                         // =0x3
	mov	w11, #2                         // =0x2
	cinc	x10, x10, hs
	cmp	w0, #2048
	sub	x9, x9, x8
	csel	x10, x11, x10, lo
	cmp	x9, x10
	b.hs	.LBB10_5
.LBB10_4:
	mov	w0, wzr
	ret
.LBB10_5:                               // %join.3.i
	mov	w9, #128                        // =0x80
	cmp	w0, #2048
	mov	w10, #128                       // =0x80
	bfxil	w9, w0, #0, #6
	b.hs	.LBB10_7
// %bb.6:                               // %then.4.i
	lsr	w10, w0, #6
	ldr	x11, [x1]
	orr	w10, w10, #0xc0
	strb	w10, [x11, x8]
	ldr	x10, [x1]
	add	x10, x10, x8
	add	x8, x8, #2
	strb	w9, [x10, #1]
	mov	w0, #1                          // =0x1
	str	x8, [x1, #8]
	ret
.LBB10_7:                               // %join.7.i
	bfxil	w10, w0, #6, #6
	cmp	w0, #16, lsl #12                // =65536
	b.hs	.LBB10_9
// %bb.8:                               // %then.7.i
	lsr	w11, w0, #12
	ldr	x12, [x1]
	orr	w11, w11, #0xe0
	strb	w11, [x12, x8]
	ldr	x11, [x1]
	add	x11, x11, x8
	strb	w10, [x11, #1]
	ldr	x10, [x1]
	add	x10, x10, x8
	add	x8, x8, #3
	strb	w9, [x10, #2]
	mov	w0, #1                          // =0x1
	str	x8, [x1, #8]
	ret
.LBB10_9:                               // %join.9.i
	lsr	w11, w0, #18
	lsr	w12, w0, #4
	ldr	x13, [x1]
	add	w11, w11, #240
	and	w12, w12, #0x3f00
	strb	w11, [x13, x8]
	add	w11, w11, w12
	ldr	x12, [x1]
	add	w11, w11, #8, lsl #12           // =32768
	lsr	w13, w11, #8
	add	x12, x12, x8
	add	w10, w10, w11, lsr #16
	strb	w13, [x12, #1]
	ldr	x12, [x1]
	add	x11, x12, x8
	strb	w10, [x11, #2]
	ldr	x10, [x1]
	add	x10, x10, x8
	add	x8, x8, #4
	strb	w9, [x10, #3]
	mov	w0, #1                          // =0x1
	str	x8, [x1, #8]
	ret
.Lfunc_end10:
	.size	"recoding::text::Text::put_at_end::<#70c8f03fcffdff05>", .Lfunc_end10-"recoding::text::Text::put_at_end::<#70c8f03fcffdff05>"
	.cfi_endproc
                                        // -- End function
	.section	".text.recoding::text::Text::put_at_end::<#33e10de476944db2>","ax",@progbits
	.p2align	2                               // -- Begin function recoding::text::Text::put_at_end::<#33e10de476944db2>
	.type	"recoding::text::Text::put_at_end::<#33e10de476944db2>",@function
"recoding::text::Text::put_at_end::<#33e10de476944db2>": // @"recoding::text::Text::put_at_end::<#33e10de476944db2>"
	.cfi_startproc
// %bb.0:                               // %start
	ldp	x8, x9, [x1, #8]
	lsr	w10, w0, #16
	sub	x9, x9, x8
	cbnz	w10, .LBB11_3
// %bb.1:
	cmp	x9, #1
	b.ls	.LBB11_5
// %bb.2:                               // %arm.1.i
	ldr	x9, [x1]
	lsr	w10, w0, #8
	strb	w0, [x9, x8]
	ldr	x9, [x1]
	add	x9, x9, x8
	add	x8, x8, #2
	strb	w10, [x9, #1]
	mov	w0, #1                          // =0x1
	str	x8, [x1, #8]
	ret
.LBB11_3:                               // %.thread
	cmp	x9, #3
	b.ls	.LBB11_5
// %bb.4:                               // %arm.2.i
	mov	w9, #-10304                     // =0xffffd7c0
	ldr	x10, [x1]
	add	w9, w9, w0, lsr #10
	strb	w9, [x10, x8]
	ldr	x10, [x1]
	lsr	w9, w9, #8
	add	x10, x10, x8
	strb	w9, [x10, #1]
	ldr	x9, [x1]
	add	x9, x9, x8
	strb	w0, [x9, #2]
	mov	w9, #220                        // =0xdc
	ldr	x10, [x1]
	bfxil	w9, w0, #8, #2
	add	x10, x10, x8
	add	x8, x8, #4
	strb	w9, [x10, #3]
	mov	w0, #1                          // =0x1
	str	x8, [x1, #8]
	ret
.LBB11_5:
	mov	w0, wzr
	ret
.Lfunc_end11:
	.size	"recoding::text::Text::put_at_end::<#33e10de476944db2>", .Lfunc_end11-"recoding::text::Text::put_at_end::<#33e10de476944db2>"
	.cfi_endproc
                                        // -- End function
	.section	".text.recoding::text::Text::put_at_end::<#4a42a49a72b1152c>","ax",@progbits
	.p2align	2                               // -- Begin function recoding::text::Text::put_at_end::<#4a42a49a72b1152c>
	.type	"recoding::text::Text::put_at_end::<#4a42a49a72b1152c>",@function
"recoding::text::Text::put_at_end::<#4a42a49a72b1152c>": // @"recoding::text::Text::put_at_end::<#4a42a49a72b1152c>"
	.cfi_startproc
// %bb.0:                               // %start
	ldp	x8, x9, [x1, #8]
	lsr	w10, w0, #16
	sub	x9, x9, x8
	cbnz	w10, .LBB12_3
// %bb.1:
	cmp	x9, #1
	b.ls	.LBB12_5
// %bb.2:                               // %arm.1.i
	ldr	x9, [x1]
	lsr	w10, w0, #8
	strb	w10, [x9, x8]
	ldr	x9, [x1]
	add	x9, x9, x8
	add	x8, x8, #2
	strb	w0, [x9, #1]
	mov	w0, #1                          // =0x1
	str	x8, [x1, #8]
	ret
.LBB12_3:                               // %.thread
	cmp	x9, #3
	b.ls	.LBB12_5
// %bb.4:                               // %arm.2.i
	mov	w9, #-10304                     // =0xffffd7c0
	ldr	x10, [x1]
	add	w9, w9, w0, lsr #10
	lsr	w11, w9, #8
	strb	w11, [x10, x8]
	ldr	x10, [x1]
	add	x10, x10, x8
	strb	w9, [x10, #1]
	mov	w9, #220                        // =0xdc
	ldr	x10, [x1]
	bfxil	w9, w0, #8, #2
	add	x10, x10, x8
	strb	w9, [x10, #2]
	ldr	x9, [x1]
	add	x9, x9, x8
	add	x8, x8, #4
	strb	w0, [x9, #3]
	mov	w0, #1                          // =0x1
	str	x8, [x1, #8]
	ret
.LBB12_5:
	mov	w0, wzr
	ret
.Lfunc_end12:
	.size	"recoding::text::Text::put_at_end::<#4a42a49a72b1152c>", .Lfunc_end12-"recoding::text::Text::put_at_end::<#4a42a49a72b1152c>"
	.cfi_endproc
                                        // -- End function
	.section	".text.recoding::held::Held::shift_joined","ax",@progbits
	.p2align	2                               // -- Begin function recoding::held::Held::shift_joined
	.type	"recoding::held::Held::shift_joined",@function
"recoding::held::Held::shift_joined":   // @"recoding::held::Held::shift_joined"
	.cfi_startproc
// %bb.0:                               // %start
	ldr	x8, [x0]
	cbz	x8, .LBB13_3
// %bb.1:                               // %"recoding::held::byte_of_both.exit42"
	ldrb	w9, [x0, #8]
	cmp	x8, #1
	b.ne	.LBB13_10
// %bb.2:
	mov	w12, wzr
	mov	w11, wzr
	b	.LBB13_4
.LBB13_3:
	mov	w12, wzr
	mov	w11, wzr
	mov	w9, wzr
.LBB13_4:                               // %"recoding::held::byte_of_both.exit"
	mov	w10, wzr
.LBB13_5:                               // %"recoding::held::byte_of_both.exit"
	mov	w13, wzr
.LBB13_6:                               // %"recoding::held::byte_of_both.exit"
	mov	w14, wzr
.LBB13_7:                               // %"recoding::held::byte_of_both.exit"
	sub	sp, sp, #16
	.cfi_def_cfa_offset 16
	.cfi_remember_state
	strb	w10, [sp, #9]
	subs	x10, x8, x1
	strb	w9, [sp, #8]
	strb	w11, [sp, #10]
	strb	w13, [sp, #11]
	strb	w12, [sp, #12]
	strb	w14, [sp, #13]
	str	x10, [x0]
	b.eq	.LBB13_18
// %bb.8:                               // %join.3.i.i
	add	x8, sp, #8
	cmp	x10, #1
	add	x11, x8, x1
	ldrb	w8, [x11]
	b.ne	.LBB13_13
// %bb.9:
	mov	w9, wzr
	mov	w10, wzr
	b	.LBB13_17
.LBB13_10:                              // %"recoding::held::byte_of_both.exit34"
	.cfi_def_cfa wsp, 0
	ldrb	w10, [x0, #9]
	cmp	x8, #3
	b.lo	.LBB13_15
// %bb.11:                              // %"recoding::held::byte_of_both.exit26"
	ldrb	w11, [x0, #10]
	cmp	x8, #3
	b.ne	.LBB13_19
// %bb.12:
	mov	w12, wzr
	b	.LBB13_5
.LBB13_13:                              // %join.6.i.i
	.cfi_restore_state
	.cfi_remember_state
	ldrb	w9, [x11, #1]
	cmp	x10, #2
	b.ne	.LBB13_16
// %bb.14:
	mov	w10, wzr
	b	.LBB13_17
.LBB13_15:
	.cfi_def_cfa wsp, 0
	mov	w12, wzr
	mov	w11, wzr
	b	.LBB13_5
.LBB13_16:                              // %join.9.i.i
	.cfi_restore_state
	ldrb	w10, [x11, #2]
.LBB13_17:                              // %"recoding::held::padded_to_three.exit.i"
	strb	w8, [x0, #8]
	strb	w9, [x0, #9]
	strb	w10, [x0, #10]
.LBB13_18:                              // %"recoding::held::Held::hold.exit"
	add	sp, sp, #16
	.cfi_def_cfa_offset 0
	ret
.LBB13_19:                              // %"recoding::held::byte_of_both.exit18"
	ldrb	w13, [x0, #11]
	cmp	x8, #5
	b.lo	.LBB13_22
// %bb.20:                              // %"recoding::held::byte_of_both.exit10"
	ldrb	w12, [x0, #12]
	cmp	x8, #5
	b.eq	.LBB13_6
// %bb.21:                              // %then.1.i1
	ldrb	w14, [x0, #13]
	b	.LBB13_7
.LBB13_22:
	mov	w12, wzr
	b	.LBB13_6
.Lfunc_end13:
	.size	"recoding::held::Held::shift_joined", .Lfunc_end13-"recoding::held::Held::shift_joined"
	.cfi_endproc
                                        // -- End function
	.section	".text.recoding::recoder_runs::run_whole::<#d908eddfe8754f34>","ax",@progbits
	.p2align	2                               // -- Begin function recoding::recoder_runs::run_whole::<#d908eddfe8754f34>
	.type	"recoding::recoder_runs::run_whole::<#d908eddfe8754f34>",@function
"recoding::recoder_runs::run_whole::<#d908eddfe8754f34>": // @"recoding::recoder_runs::run_whole::<#d908eddfe8754f34>"
	.cfi_startproc
// %bb.0:                               // %start
	sub	sp, sp, #96
	.cfi_def_cfa_offset 96
	stp	x29, x30, [sp, #32]             // 16-byte Folded Spill
	stp	x24, x23, [sp, #48]             // 16-byte Folded Spill
	stp	x22, x21, [sp, #64]             // 16-byte Folded Spill
	stp	x20, x19, [sp, #80]             // 16-byte Folded Spill
	add	x29, sp, #32
	.cfi_def_cfa w29, 64
	.cfi_offset w19, -8
	.cfi_offset w20, -16
	.cfi_offset w21, -24
	.cfi_offset w22, -32
	.cfi_offset w23, -40
	.cfi_offset w24, -48
	.cfi_offset w30, -56
	.cfi_offset w29, -64
	mov	x22, x2
	mov	x21, x1
	mov	x23, x0
	mov	x24, xzr
	mov	x19, xzr
	mov	x20, xzr
.LBB14_1:                               // %loop.2.i
                                        // =>This Inner Loop Header: Depth=1
	add	x0, x23, x20
	sub	x1, x21, x20
	mov	x2, x22
	bl	"recoding::kernels::CopiedKernelUtf8Utf8::put_text::<#dba16a0ba11e1f61>"
	lsr	x8, x0, #2
	add	x20, x0, x20
	cmp	x8, #2046
	b.hi	.LBB14_1
// %bb.2:                               // %join.5.i
                                        //   in Loop: Header=BB14_1 Depth=1
	subs	x1, x21, x20
	b.eq	.LBB14_11
// %bb.3:                               // %join.8.i
                                        //   in Loop: Header=BB14_1 Depth=1
	cmp	x0, #255
	b.hi	.LBB14_10
// %bb.4:                               // %join.8.i
                                        //   in Loop: Header=BB14_1 Depth=1
	cbz	x24, .LBB14_7
// %bb.5:                               // %then.1.i
                                        //   in Loop: Header=BB14_1 Depth=1
	cmp	x1, #128
	b.lo	.LBB14_7
// %bb.6:                               // %"recoding::engine::put_near::<#fe88b346b93353db>.exit"
                                        //   in Loop: Header=BB14_1 Depth=1
	add	x0, x23, x20
	mov	x2, x22
	bl	"recoding::kernels::copy_damaged::<#47c24e65252a304d>"
	add	x20, x0, x20
	add	x19, x1, x19
	cbnz	x0, .LBB14_1
.LBB14_7:                               // %join.14.i
                                        //   in Loop: Header=BB14_1 Depth=1
	subs	x2, x21, x20
	b.eq	.LBB14_11
.LBB14_8:                               // %"recoding::engine::recode_carefully::<#ebb3042af60f2638>.exit"
                                        //   in Loop: Header=BB14_1 Depth=1
	add	x0, sp, #8
	add	x1, x23, x20
	mov	x3, x22
	stp	xzr, xzr, [sp, #8]
	str	xzr, [sp, #24]
	bl	"recoding::engine::recode_faults::<#e51b733afd1efe0d>"
	ldp	x9, x8, [sp, #8]
	adds	x11, x24, #1
	ldrb	w10, [sp, #24]
	csinv	x11, x11, xzr, lo
	cmp	x8, #0
	add	x20, x9, x20
	add	x19, x8, x19
	csel	x24, x24, x11, eq
	tbnz	w10, #0, .LBB14_12
// %bb.9:                               // %"recoding::engine::recode_carefully::<#ebb3042af60f2638>.exit"
                                        //   in Loop: Header=BB14_1 Depth=1
	ldrb	w8, [sp, #25]
	tbz	w8, #0, .LBB14_1
	b	.LBB14_12
.LBB14_10:                              //   in Loop: Header=BB14_1 Depth=1
	mov	x24, xzr
	subs	x2, x21, x20
	b.ne	.LBB14_8
.LBB14_11:
	mov	x20, x21
.LBB14_12:                              // %"recoding::engine::run::<#fe88b346b93353db>.exit"
	mov	x0, x20
	mov	x1, x19
	.cfi_def_cfa wsp, 96
	ldp	x20, x19, [sp, #80]             // 16-byte Folded Reload
	ldp	x22, x21, [sp, #64]             // 16-byte Folded Reload
	ldp	x24, x23, [sp, #48]             // 16-byte Folded Reload
	ldp	x29, x30, [sp, #32]             // 16-byte Folded Reload
	add	sp, sp, #96
	.cfi_def_cfa_offset 0
	.cfi_restore w19
	.cfi_restore w20
	.cfi_restore w21
	.cfi_restore w22
	.cfi_restore w23
	.cfi_restore w24
	.cfi_restore w30
	.cfi_restore w29
	ret
.Lfunc_end14:
	.size	"recoding::recoder_runs::run_whole::<#d908eddfe8754f34>", .Lfunc_end14-"recoding::recoder_runs::run_whole::<#d908eddfe8754f34>"
	.cfi_endproc
                                        // -- End function
	.section	.rodata.cst16,"aM",@progbits,16
	.p2align	4, 0x0                          // -- Begin function recoding::kernels::CopiedKernelUtf8Utf8::put_text::<#dba16a0ba11e1f61>
.LCPI15_0:
	.byte	1                               // 0x1
	.byte	2                               // 0x2
	.byte	4                               // 0x4
	.byte	8                               // 0x8
	.byte	16                              // 0x10
	.byte	32                              // 0x20
	.byte	64                              // 0x40
	.byte	128                             // 0x80
	.byte	1                               // 0x1
	.byte	2                               // 0x2
	.byte	4                               // 0x4
	.byte	8                               // 0x8
	.byte	16                              // 0x10
	.byte	32                              // 0x20
	.byte	64                              // 0x40
	.byte	128                             // 0x80
	.section	".text.recoding::kernels::CopiedKernelUtf8Utf8::put_text::<#dba16a0ba11e1f61>","ax",@progbits
	.p2align	2
	.type	"recoding::kernels::CopiedKernelUtf8Utf8::put_text::<#dba16a0ba11e1f61>",@function
"recoding::kernels::CopiedKernelUtf8Utf8::put_text::<#dba16a0ba11e1f61>": // @"recoding::kernels::CopiedKernelUtf8Utf8::put_text::<#dba16a0ba11e1f61>"
	.cfi_startproc
// %bb.0:                               // %start
	stp	x29, x30, [sp, #-80]!           // 16-byte Folded Spill
	.cfi_def_cfa_offset 80
	str	x25, [sp, #16]                  // 8-byte Spill
	stp	x24, x23, [sp, #32]             // 16-byte Folded Spill
	stp	x22, x21, [sp, #48]             // 16-byte Folded Spill
	stp	x20, x19, [sp, #64]             // 16-byte Folded Spill
	mov	x29, sp
	.cfi_def_cfa w29, 80
	.cfi_offset w19, -8
	.cfi_offset w20, -16
	.cfi_offset w21, -24
	.cfi_offset w22, -32
	.cfi_offset w23, -40
	.cfi_offset w24, -48
	.cfi_offset w25, -64
	.cfi_offset w30, -72
	.cfi_offset w29, -80
	.cfi_remember_state
	mov	w8, #8192                       // =0x2000
	cmp	x1, #2, lsl #12                 // =8192
	mov	x20, x2
	csel	x19, x1, x8, lo
	cmp	x1, #1024
	mov	x21, x0
	b.hi	.LBB15_23
// %bb.1:                               // %then.2
	cmp	x1, #17
	b.hs	.LBB15_9
// %bb.2:                               // %then.1.i
	cmp	x1, #3
	b.hi	.LBB15_18
// %bb.3:                               // %loop.2.i.preheader
	cbz	x1, .LBB15_30
// %bb.4:                               // %join.5.i
	ldrsb	w8, [x21]
	tbnz	w8, #31, .LBB15_23
// %bb.5:                               // %loop.2.i
	cmp	x1, #1
	b.eq	.LBB15_30
// %bb.6:                               // %join.5.i.1
	ldrsb	w8, [x21, #1]
	tbnz	w8, #31, .LBB15_23
// %bb.7:                               // %loop.2.i.1
	cmp	x1, #2
	b.eq	.LBB15_30
// %bb.8:                               // %join.5.i.2
	ldrsb	w8, [x21, #2]
	tbz	w8, #31, .LBB15_30
	b	.LBB15_23
.LBB15_9:                               // %loop.2.i30.preheader
	cmp	x1, #64
	adrp	x8, .LCPI15_0
	mov	x9, xzr
	b.lo	.LBB15_13
// %bb.10:                              // %join.5.i33.preheader
	mov	x10, x19
.LBB15_11:                              // %join.5.i33
                                        // =>This Inner Loop Header: Depth=1
	add	x11, x21, x9
	ldp	q1, q0, [x11]
	ldp	q3, q2, [x11, #32]
	orr	v1.16b, v3.16b, v1.16b
	orr	v0.16b, v2.16b, v0.16b
	ldr	q2, [x8, :lo12:.LCPI15_0]
	cmlt	v0.16b, v0.16b, #0
	cmlt	v1.16b, v1.16b, #0
	and	v1.16b, v1.16b, v2.16b
	and	v0.16b, v0.16b, v2.16b
	addp	v0.16b, v1.16b, v0.16b
	addp	v0.16b, v0.16b, v0.16b
	addp	v0.16b, v0.16b, v0.16b
	fmov	w11, s0
	cbnz	w11, .LBB15_13
// %bb.12:                              // %join.8.i34
                                        //   in Loop: Header=BB15_11 Depth=1
	sub	x10, x10, #64
	add	x9, x9, #64
	cmp	x10, #63
	b.hi	.LBB15_11
.LBB15_13:                              // %"utf_lanes::ascii_texts::ascii_end::<=1>.exit"
	sub	x10, x19, x9
	cmp	x10, #16
	b.lo	.LBB15_17
// %bb.14:                              // %join.5.i64.preheader
	add	x9, x21, x9
.LBB15_15:                              // %join.5.i64
                                        // =>This Inner Loop Header: Depth=1
	ldr	q0, [x9], #16
	ldr	q1, [x8, :lo12:.LCPI15_0]
	cmlt	v0.16b, v0.16b, #0
	and	v0.16b, v0.16b, v1.16b
	addp	v0.16b, v0.16b, v0.16b
	addp	v0.16b, v0.16b, v0.16b
	addp	v0.16b, v0.16b, v0.16b
	umov	w11, v0.h[0]
	cbnz	w11, .LBB15_23
// %bb.16:                              // %loop.2.i58
                                        //   in Loop: Header=BB15_15 Depth=1
	sub	x10, x10, #16
	cmp	x10, #16
	b.hs	.LBB15_15
.LBB15_17:                              // %after.1.i
	add	x9, x21, x19
	ldur	q0, [x9, #-16]
	cmlt	v0.16b, v0.16b, #0
	b	.LBB15_22
.LBB15_18:                              // %join.3.i8
	cmp	x1, #7
	add	x8, x21, x19
	b.hi	.LBB15_20
// %bb.19:                              // %then.4.i
	ldr	s0, [x21]
	ldur	s1, [x8, #-4]
	zip1	v0.8b, v0.8b, v0.8b
	zip1	v1.8b, v1.8b, v1.8b
	mov	v0.d[1], v1.d[0]
	uzp1	v0.16b, v0.16b, v0.16b
	b	.LBB15_21
.LBB15_20:                              // %"utf_lanes::ascii_texts::is_ascii.exit"
	ldr	d0, [x21]
	ldur	d1, [x8, #-8]
	mov	v0.d[1], v1.d[0]
.LBB15_21:                              // %"utf_lanes::ascii_texts::is_ascii.exit"
	cmlt	v0.16b, v0.16b, #0
	adrp	x8, .LCPI15_0
.LBB15_22:                              // %"utf_lanes::ascii_texts::is_ascii.exit"
	ldr	q1, [x8, :lo12:.LCPI15_0]
	and	v0.16b, v0.16b, v1.16b
	addp	v0.16b, v0.16b, v0.16b
	addp	v0.16b, v0.16b, v0.16b
	addp	v0.16b, v0.16b, v0.16b
	umov	w8, v0.h[0]
	cbz	w8, .LBB15_30
.LBB15_23:                              // %after.1
	mov	x0, x21
	mov	x1, x19
	bl	"utf_lanes::text_blocks::text_len"
	mov	x25, x20
	mov	x19, x0
	ldp	x8, x22, [x25, #8]!
	sub	x9, x22, x8
	cmp	x0, x9
	b.hi	.LBB15_49
.LBB15_24:                              // %join.3.i91
	ldr	x23, [x20]
	add	x24, x8, x19
	stp	xzr, xzr, [x25]
	add	x0, x23, x8
	sub	x9, x0, x21
	cmp	x9, x19
	b.hs	.LBB15_37
// %bb.25:                              // %iter.check
	cmp	x19, #7
	b.ls	.LBB15_27
// %bb.26:                              // %vector.memcheck
	add	x9, x8, x23
	sub	x9, x9, x21
	cmp	x9, #32
	b.hs	.LBB15_40
.LBB15_27:
	mov	x9, xzr
.LBB15_28:                              // %join.7.i.i.i104.preheader
	add	x10, x9, x8
	sub	x8, x19, x9
	add	x9, x21, x9
	add	x10, x23, x10
.LBB15_29:                              // %join.7.i.i.i104
                                        // =>This Inner Loop Header: Depth=1
	ldrb	w11, [x9], #1
	subs	x8, x8, #1
	strb	w11, [x10], #1
	b.ne	.LBB15_29
	b	.LBB15_38
.LBB15_30:                              // %then.5
	mov	x25, x20
	ldp	x8, x22, [x25, #8]!
	sub	x9, x22, x8
	cmp	x19, x9
	b.hi	.LBB15_60
.LBB15_31:                              // %join.3.i85
	ldr	x23, [x20]
	add	x24, x8, x19
	stp	xzr, xzr, [x25]
	add	x0, x23, x8
	sub	x9, x0, x21
	cmp	x9, x19
	b.hs	.LBB15_37
// %bb.32:                              // %iter.check17
	cmp	x1, #7
	b.ls	.LBB15_34
// %bb.33:                              // %vector.memcheck12
	add	x9, x8, x23
	sub	x9, x9, x21
	cmp	x9, #32
	b.hs	.LBB15_51
.LBB15_34:
	mov	x9, xzr
.LBB15_35:                              // %join.7.i.i.i.preheader
	add	x10, x9, x8
	sub	x8, x19, x9
	add	x9, x21, x9
	add	x10, x23, x10
.LBB15_36:                              // %join.7.i.i.i
                                        // =>This Inner Loop Header: Depth=1
	ldrb	w11, [x9], #1
	subs	x8, x8, #1
	strb	w11, [x10], #1
	b.ne	.LBB15_36
	b	.LBB15_38
.LBB15_37:                              // %apart.2.i.i.i
	mov	x1, x21
	mov	x2, x19
	bl	memmove
.LBB15_38:                              // %"core::slots::Slots::copy_in::<i8,20'core::clone::U8Clone{}>.exit.i"
	stp	x23, x24, [x20]
	str	x22, [x20, #16]
.LBB15_39:                              // %common.ret
	mov	x0, x19
	.cfi_def_cfa wsp, 80
	ldp	x20, x19, [sp, #64]             // 16-byte Folded Reload
	ldr	x25, [sp, #16]                  // 8-byte Reload
	ldp	x22, x21, [sp, #48]             // 16-byte Folded Reload
	ldp	x24, x23, [sp, #32]             // 16-byte Folded Reload
	ldp	x29, x30, [sp], #80             // 16-byte Folded Reload
	.cfi_def_cfa_offset 0
	.cfi_restore w19
	.cfi_restore w20
	.cfi_restore w21
	.cfi_restore w22
	.cfi_restore w23
	.cfi_restore w24
	.cfi_restore w25
	.cfi_restore w30
	.cfi_restore w29
	ret
.LBB15_40:                              // %vector.main.loop.iter.check
	.cfi_restore_state
	cmp	x19, #32
	b.hs	.LBB15_42
// %bb.41:
	mov	x9, xzr
	b	.LBB15_46
.LBB15_42:                              // %vector.ph
	add	x12, x8, x23
	and	x10, x19, #0x18
	and	x9, x19, #0xffffffffffffffe0
	add	x11, x21, #16
	add	x12, x12, #16
	and	x13, x19, #0xffffffffffffffe0
.LBB15_43:                              // %vector.body
                                        // =>This Inner Loop Header: Depth=1
	ldp	q0, q1, [x11, #-16]
	subs	x13, x13, #32
	add	x11, x11, #32
	stp	q0, q1, [x12, #-16]
	add	x12, x12, #32
	b.ne	.LBB15_43
// %bb.44:                              // %middle.block
	cmp	x19, x9
	b.eq	.LBB15_38
// %bb.45:                              // %vec.epilog.iter.check
	cbz	x10, .LBB15_28
.LBB15_46:                              // %vec.epilog.ph
	mov	x11, x9
	and	x9, x19, #0xfffffffffffffff8
	add	x12, x8, x11
	sub	x10, x11, x9
	add	x11, x21, x11
	add	x12, x23, x12
.LBB15_47:                              // %vec.epilog.vector.body
                                        // =>This Inner Loop Header: Depth=1
	ldr	d0, [x11], #8
	adds	x10, x10, #8
	str	d0, [x12], #8
	b.ne	.LBB15_47
// %bb.48:                              // %vec.epilog.middle.block
	cmp	x19, x9
	b.ne	.LBB15_28
	b	.LBB15_38
.LBB15_49:                              // %"std_alloc::vec::Vec::grow::<#5fdc5e19576447a7>.exit.i111"
	mov	x0, x20
	mov	x1, x19
	bl	"std_alloc::vec::Vec::grow_amortized::<#5fdc5e19576447a7>"
	cbz	w0, .LBB15_39
// %bb.50:                              // %"std_alloc::vec::Vec::grow::<#5fdc5e19576447a7>.exit.join.3_crit_edge.i113"
	ldp	x8, x22, [x20, #8]
	b	.LBB15_24
.LBB15_51:                              // %vector.main.loop.iter.check19
	cmp	x1, #32
	b.hs	.LBB15_53
// %bb.52:
	mov	x9, xzr
	b	.LBB15_57
.LBB15_53:                              // %vector.ph20
	add	x12, x8, x23
	and	x10, x19, #0x18
	and	x9, x19, #0x7e0
	add	x11, x21, #16
	add	x12, x12, #16
	and	x13, x19, #0x7e0
.LBB15_54:                              // %vector.body23
                                        // =>This Inner Loop Header: Depth=1
	ldp	q0, q1, [x11, #-16]
	subs	x13, x13, #32
	add	x11, x11, #32
	stp	q0, q1, [x12, #-16]
	add	x12, x12, #32
	b.ne	.LBB15_54
// %bb.55:                              // %middle.block28
	cmp	x1, x9
	b.eq	.LBB15_38
// %bb.56:                              // %vec.epilog.iter.check32
	cbz	x10, .LBB15_35
.LBB15_57:                              // %vec.epilog.ph34
	mov	x11, x9
	and	x9, x19, #0x7f8
	add	x12, x8, x11
	sub	x10, x11, x9
	add	x11, x21, x11
	add	x12, x23, x12
.LBB15_58:                              // %vec.epilog.vector.body37
                                        // =>This Inner Loop Header: Depth=1
	ldr	d0, [x11], #8
	adds	x10, x10, #8
	str	d0, [x12], #8
	b.ne	.LBB15_58
// %bb.59:                              // %vec.epilog.middle.block41
	cmp	x1, x9
	b.ne	.LBB15_35
	b	.LBB15_38
.LBB15_60:                              // %"std_alloc::vec::Vec::grow::<#5fdc5e19576447a7>.exit.i"
	mov	x23, x1
	mov	x0, x20
	mov	x1, x19
	bl	"std_alloc::vec::Vec::grow_amortized::<#5fdc5e19576447a7>"
	cbz	w0, .LBB15_39
// %bb.61:                              // %"std_alloc::vec::Vec::grow::<#5fdc5e19576447a7>.exit.join.3_crit_edge.i"
	ldp	x8, x22, [x20, #8]
	mov	x1, x23
	b	.LBB15_31
.Lfunc_end15:
	.size	"recoding::kernels::CopiedKernelUtf8Utf8::put_text::<#dba16a0ba11e1f61>", .Lfunc_end15-"recoding::kernels::CopiedKernelUtf8Utf8::put_text::<#dba16a0ba11e1f61>"
	.cfi_endproc
                                        // -- End function
	.section	.rodata.cst16,"aM",@progbits,16
	.p2align	4, 0x0                          // -- Begin function utf_lanes::text_blocks::text_len
.LCPI16_0:
	.byte	2                               // 0x2
	.byte	2                               // 0x2
	.byte	2                               // 0x2
	.byte	2                               // 0x2
	.byte	2                               // 0x2
	.byte	2                               // 0x2
	.byte	2                               // 0x2
	.byte	2                               // 0x2
	.byte	128                             // 0x80
	.byte	128                             // 0x80
	.byte	128                             // 0x80
	.byte	128                             // 0x80
	.byte	5                               // 0x5
	.byte	1                               // 0x1
	.byte	25                              // 0x19
	.byte	97                              // 0x61
.LCPI16_1:
	.byte	207                             // 0xcf
	.byte	135                             // 0x87
	.byte	131                             // 0x83
	.byte	131                             // 0x83
	.byte	163                             // 0xa3
	.byte	227                             // 0xe3
	.byte	227                             // 0xe3
	.byte	227                             // 0xe3
	.byte	227                             // 0xe3
	.byte	227                             // 0xe3
	.byte	227                             // 0xe3
	.byte	227                             // 0xe3
	.byte	227                             // 0xe3
	.byte	243                             // 0xf3
	.byte	227                             // 0xe3
	.byte	227                             // 0xe3
.LCPI16_2:
	.byte	1                               // 0x1
	.byte	1                               // 0x1
	.byte	1                               // 0x1
	.byte	1                               // 0x1
	.byte	1                               // 0x1
	.byte	1                               // 0x1
	.byte	1                               // 0x1
	.byte	1                               // 0x1
	.byte	206                             // 0xce
	.byte	174                             // 0xae
	.byte	182                             // 0xb6
	.byte	182                             // 0xb6
	.byte	1                               // 0x1
	.byte	1                               // 0x1
	.byte	1                               // 0x1
	.byte	1                               // 0x1
.LCPI16_3:
	.byte	1                               // 0x1
	.byte	2                               // 0x2
	.byte	4                               // 0x4
	.byte	8                               // 0x8
	.byte	16                              // 0x10
	.byte	32                              // 0x20
	.byte	64                              // 0x40
	.byte	128                             // 0x80
	.byte	1                               // 0x1
	.byte	2                               // 0x2
	.byte	4                               // 0x4
	.byte	8                               // 0x8
	.byte	16                              // 0x10
	.byte	32                              // 0x20
	.byte	64                              // 0x40
	.byte	128                             // 0x80
	.section	".text.utf_lanes::text_blocks::text_len","ax",@progbits
	.p2align	2
	.type	"utf_lanes::text_blocks::text_len",@function
"utf_lanes::text_blocks::text_len":     // @"utf_lanes::text_blocks::text_len"
	.cfi_startproc
// %bb.0:                               // %start
	stp	x29, x30, [sp, #-32]!           // 16-byte Folded Spill
	.cfi_def_cfa_offset 32
	stp	x20, x19, [sp, #16]             // 16-byte Folded Spill
	mov	x29, sp
	.cfi_def_cfa w29, 32
	.cfi_offset w19, -8
	.cfi_offset w20, -16
	.cfi_offset w30, -24
	.cfi_offset w29, -32
	.cfi_remember_state
	cmp	x1, #19
	b.hs	.LBB16_5
// %bb.1:                               // %then.1
	cmp	x1, #17
	b.hs	.LBB16_19
// %bb.2:
	mov	x8, xzr
	sub	x9, x1, xzr
	cmp	x9, #3
	b.ls	.LBB16_20
.LBB16_3:                               // %join.3.i15
	cmp	x9, #16
	b.ls	.LBB16_23
.LBB16_4:                               // %join.3.i
	mov	w2, #3                          // =0x3
	.cfi_def_cfa wsp, 32
	ldp	x20, x19, [sp, #16]             // 16-byte Folded Reload
	ldp	x29, x30, [sp], #32             // 16-byte Folded Reload
	.cfi_def_cfa_offset 0
	.cfi_restore w19
	.cfi_restore w20
	.cfi_restore w30
	.cfi_restore w29
	b	"utf_lanes::text_blocks::few_chars"
.LBB16_5:                               // %join.3
	.cfi_restore_state
	.cfi_remember_state
	movi	v0.2d, #0000000000000000
	ldr	q2, [x0]
	movi	v1.16b, #15
	movi	v4.16b, #96
	movi	v5.16b, #112
	adrp	x8, .LCPI16_0
	adrp	x9, .LCPI16_1
	ushr	v17.16b, v2.16b, #4
	ext	v3.16b, v0.16b, v2.16b, #15
	ext	v6.16b, v0.16b, v2.16b, #14
	ext	v7.16b, v0.16b, v2.16b, #13
	ldr	q0, [x8, :lo12:.LCPI16_0]
	adrp	x8, .LCPI16_2
	ldr	q2, [x8, :lo12:.LCPI16_2]
	adrp	x8, .LCPI16_3
	ushr	v16.16b, v3.16b, #4
	and	v3.16b, v3.16b, v1.16b
	ldr	q1, [x9, :lo12:.LCPI16_1]
	uqsub	v4.16b, v6.16b, v4.16b
	uqsub	v5.16b, v7.16b, v5.16b
	tbl	v6.16b, { v2.16b }, v17.16b
	movi	v7.16b, #128
	tbl	v16.16b, { v0.16b }, v16.16b
	tbl	v3.16b, { v1.16b }, v3.16b
	orr	v4.16b, v4.16b, v5.16b
	and	v3.16b, v3.16b, v16.16b
	and	v4.16b, v4.16b, v7.16b
	and	v3.16b, v3.16b, v6.16b
	cmeq	v4.16b, v4.16b, v3.16b
	ldr	q3, [x8, :lo12:.LCPI16_3]
	bic	v4.16b, v3.16b, v4.16b
	addp	v4.16b, v4.16b, v4.16b
	addp	v4.16b, v4.16b, v4.16b
	addp	v4.16b, v4.16b, v4.16b
	umov	w8, v4.h[0]
	orr	w8, w8, #0x10000
	rbit	w8, w8
	clz	w8, w8
	cmp	w8, #16
	b.lo	.LBB16_31
// %bb.6:                               // %join.3.i71
	cmp	x1, #255
	b.hi	.LBB16_25
// %bb.7:                               // %loop.2.i.preheader
	sub	x8, x1, #80
	cmn	x8, #65
	b.hi	.LBB16_26
// %bb.8:                               // %join.5.i.preheader
	sub	x9, x1, #64
	mov	w8, #16                         // =0x10
.LBB16_9:                               // %join.5.i
                                        // =>This Loop Header: Depth=1
                                        //     Child Loop BB16_14 Depth 2
	add	x10, x0, x8
	ldp	q6, q7, [x10]
	ldp	q4, q5, [x10, #32]
	orr	v16.16b, v4.16b, v6.16b
	orr	v17.16b, v5.16b, v7.16b
	cmlt	v17.16b, v17.16b, #0
	cmlt	v16.16b, v16.16b, #0
	and	v16.16b, v16.16b, v3.16b
	and	v17.16b, v17.16b, v3.16b
	addp	v16.16b, v16.16b, v17.16b
	addp	v16.16b, v16.16b, v16.16b
	addp	v16.16b, v16.16b, v16.16b
	fmov	w11, s16
	cbnz	w11, .LBB16_17
// %bb.10:                              // %then.7.i85
                                        //   in Loop: Header=BB16_9 Depth=1
	ldurb	w11, [x10, #-1]
	cmp	w11, #191
	b.hi	.LBB16_17
// %bb.11:                              // %join.3.i251
                                        //   in Loop: Header=BB16_9 Depth=1
	ldurb	w11, [x10, #-2]
	cmp	w11, #223
	b.hi	.LBB16_17
// %bb.12:                              // %"utf_lanes::text_blocks::ends_character.exit263"
                                        //   in Loop: Header=BB16_9 Depth=1
	ldurb	w11, [x10, #-3]
	cmp	w11, #239
	b.hi	.LBB16_17
// %bb.13:                              // %loop.2.i.i86.preheader
                                        //   in Loop: Header=BB16_9 Depth=1
	neg	x10, x8
	add	x8, x0, x8
.LBB16_14:                              // %loop.2.i.i86
                                        //   Parent Loop BB16_9 Depth=1
                                        // =>  This Inner Loop Header: Depth=2
	add	x11, x9, x10
	cmp	x11, #64
	b.lo	.LBB16_68
// %bb.15:                              // %join.5.i.i89
                                        //   in Loop: Header=BB16_14 Depth=2
	ldp	q4, q6, [x8, #64]!
	ldp	q7, q5, [x8, #32]
	sub	x10, x10, #64
	orr	v4.16b, v7.16b, v4.16b
	orr	v5.16b, v5.16b, v6.16b
	cmlt	v5.16b, v5.16b, #0
	cmlt	v4.16b, v4.16b, #0
	and	v4.16b, v4.16b, v3.16b
	and	v5.16b, v5.16b, v3.16b
	addp	v4.16b, v4.16b, v5.16b
	addp	v4.16b, v4.16b, v4.16b
	addp	v4.16b, v4.16b, v4.16b
	fmov	w11, s4
	cbz	w11, .LBB16_14
// %bb.16:                              // %after.6.i.loopexit
                                        //   in Loop: Header=BB16_9 Depth=1
	mov	w11, #1                         // =0x1
	neg	x8, x10
	tbnz	w11, #0, .LBB16_9
	b	.LBB16_27
.LBB16_17:                              // %join.9.i
                                        //   in Loop: Header=BB16_9 Depth=1
	ldur	q17, [x10, #15]
	ldur	q16, [x10, #-1]
	movi	v18.16b, #15
	ushr	v7.16b, v7.16b, #4
	movi	v19.16b, #96
	movi	v22.16b, #112
	ushr	v20.16b, v17.16b, #4
	ushr	v6.16b, v6.16b, #4
	ldur	q23, [x10, #-2]
	ushr	v21.16b, v16.16b, #4
	ldur	q25, [x10, #-3]
	ldur	q24, [x10, #14]
	tbl	v7.16b, { v2.16b }, v7.16b
	and	v16.16b, v16.16b, v18.16b
	ldur	q26, [x10, #13]
	tbl	v20.16b, { v0.16b }, v20.16b
	tbl	v6.16b, { v2.16b }, v6.16b
	uqsub	v23.16b, v23.16b, v19.16b
	tbl	v21.16b, { v0.16b }, v21.16b
	uqsub	v25.16b, v25.16b, v22.16b
	ldur	q27, [x10, #31]
	ldur	q28, [x10, #47]
	and	v17.16b, v17.16b, v18.16b
	uqsub	v24.16b, v24.16b, v19.16b
	tbl	v16.16b, { v1.16b }, v16.16b
	ushr	v29.16b, v27.16b, #4
	ldur	q30, [x10, #46]
	and	v7.16b, v20.16b, v7.16b
	uqsub	v20.16b, v26.16b, v22.16b
	ldur	q31, [x10, #29]
	ushr	v26.16b, v28.16b, #4
	ushr	v5.16b, v5.16b, #4
	ushr	v4.16b, v4.16b, #4
	and	v6.16b, v21.16b, v6.16b
	orr	v21.16b, v25.16b, v23.16b
	ldur	q25, [x10, #30]
	and	v28.16b, v28.16b, v18.16b
	and	v18.16b, v27.16b, v18.16b
	ldur	q27, [x10, #45]
	tbl	v17.16b, { v1.16b }, v17.16b
	movi	v23.16b, #128
	tbl	v29.16b, { v0.16b }, v29.16b
	tbl	v26.16b, { v0.16b }, v26.16b
	tbl	v4.16b, { v2.16b }, v4.16b
	tbl	v5.16b, { v2.16b }, v5.16b
	uqsub	v30.16b, v30.16b, v19.16b
	uqsub	v19.16b, v25.16b, v19.16b
	uqsub	v25.16b, v27.16b, v22.16b
	uqsub	v22.16b, v31.16b, v22.16b
	and	v6.16b, v16.16b, v6.16b
	orr	v16.16b, v20.16b, v24.16b
	and	v7.16b, v17.16b, v7.16b
	tbl	v17.16b, { v1.16b }, v18.16b
	tbl	v18.16b, { v1.16b }, v28.16b
	and	v20.16b, v21.16b, v23.16b
	and	v4.16b, v29.16b, v4.16b
	and	v5.16b, v26.16b, v5.16b
	and	v16.16b, v16.16b, v23.16b
	orr	v21.16b, v25.16b, v30.16b
	orr	v19.16b, v22.16b, v19.16b
	and	v4.16b, v17.16b, v4.16b
	and	v5.16b, v18.16b, v5.16b
	cmeq	v6.16b, v6.16b, v20.16b
	and	v17.16b, v21.16b, v23.16b
	cmeq	v7.16b, v7.16b, v16.16b
	and	v18.16b, v19.16b, v23.16b
	mvn	v6.16b, v6.16b
	mvn	v7.16b, v7.16b
	cmeq	v5.16b, v5.16b, v17.16b
	cmeq	v4.16b, v4.16b, v18.16b
	orn	v5.16b, v7.16b, v5.16b
	orn	v4.16b, v6.16b, v4.16b
	and	v5.16b, v5.16b, v3.16b
	and	v4.16b, v4.16b, v3.16b
	addp	v4.16b, v4.16b, v5.16b
	addp	v4.16b, v4.16b, v4.16b
	addp	v4.16b, v4.16b, v4.16b
	fmov	w10, s4
	cbnz	w10, .LBB16_27
// %bb.18:                              // %then.14.i
                                        //   in Loop: Header=BB16_9 Depth=1
	add	x8, x8, #64
	sub	x10, x1, x8
	cmp	x10, #63
	b.hi	.LBB16_9
	b	.LBB16_27
.LBB16_19:                              // %join.3.i13
	sub	x2, x1, #16
	mov	x19, x0
	mov	x20, x1
	bl	"utf_lanes::text_blocks::few_chars"
	mov	x1, x20
	mov	x8, x0
	mov	x0, x19
	sub	x9, x20, x8
	cmp	x9, #3
	b.hi	.LBB16_3
.LBB16_20:                              // %loop.2.i.i
	cmp	x1, x8
	b.eq	.LBB16_45
.LBB16_21:                              // %join.5.i.i
                                        // =>This Inner Loop Header: Depth=1
	ldrsb	w9, [x0, x8]
	tbnz	w9, #31, .LBB16_4
// %bb.22:                              // %loop.2.i.i
                                        //   in Loop: Header=BB16_21 Depth=1
	add	x8, x8, #1
	cmp	x1, x8
	b.ne	.LBB16_21
	b	.LBB16_45
.LBB16_23:                              // %join.6.i
	adrp	x10, .Lstatic.10
	add	x10, x10, :lo12:.Lstatic.10
	cmp	x9, #7
	add	x10, x10, x9, lsl #4
	add	x9, x0, x1
	ldur	q1, [x10, #-64]
	b.hi	.LBB16_40
// %bb.24:                              // %then.1.i20
	ldr	s0, [x0, x8]
	ldur	s2, [x9, #-4]
	zip1	v0.8b, v0.8b, v0.8b
	ushll	v2.8h, v2.8b, #0
	umov	w8, v2.h[1]
	mov	v0.d[1], v2.d[0]
	uzp1	v0.16b, v0.16b, v0.16b
	tbl	v1.16b, { v0.16b }, v1.16b
	zip2	v0.4h, v2.4h, v2.4h
	b	.LBB16_41
.LBB16_25:                              // %join.3.i75
	ldr	q4, [x0, #16]
	ldur	q5, [x0, #15]
	movi	v6.16b, #15
	movi	v7.16b, #96
	movi	v16.16b, #112
	ldur	q17, [x0, #14]
	ushr	v18.16b, v5.16b, #4
	ushr	v4.16b, v4.16b, #4
	ldur	q19, [x0, #13]
	and	v5.16b, v5.16b, v6.16b
	uqsub	v6.16b, v17.16b, v7.16b
	tbl	v7.16b, { v0.16b }, v18.16b
	tbl	v4.16b, { v2.16b }, v4.16b
	uqsub	v16.16b, v19.16b, v16.16b
	movi	v17.16b, #128
	tbl	v5.16b, { v1.16b }, v5.16b
	and	v4.16b, v7.16b, v4.16b
	orr	v6.16b, v16.16b, v6.16b
	and	v4.16b, v5.16b, v4.16b
	and	v5.16b, v6.16b, v17.16b
	cmeq	v4.16b, v4.16b, v5.16b
	bic	v4.16b, v3.16b, v4.16b
	addp	v4.16b, v4.16b, v4.16b
	addp	v4.16b, v4.16b, v4.16b
	addp	v4.16b, v4.16b, v4.16b
	umov	w8, v4.h[0]
	cbz	w8, .LBB16_46
.LBB16_26:
	mov	w8, #16                         // =0x10
.LBB16_27:                              // %"utf_lanes::text_blocks::valid_len_in_blocks.exit"
	cmp	x8, x1
	b.hs	.LBB16_31
// %bb.28:                              // %join.5.i232.lr.ph
	sub	x9, x1, #16
.LBB16_29:                              // %join.5.i232
                                        // =>This Inner Loop Header: Depth=1
	cmp	x9, x8
	movi	v4.16b, #15
	movi	v6.16b, #96
	csel	x8, x9, x8, lo
	movi	v7.16b, #112
	add	x10, x0, x8
	ldur	q5, [x10, #-1]
	ldur	q17, [x10, #-2]
	ldur	q18, [x10, #-3]
	ushr	v16.16b, v5.16b, #4
	and	v4.16b, v5.16b, v4.16b
	ldr	q5, [x10]
	uqsub	v6.16b, v17.16b, v6.16b
	uqsub	v7.16b, v18.16b, v7.16b
	movi	v17.16b, #128
	ushr	v5.16b, v5.16b, #4
	tbl	v16.16b, { v0.16b }, v16.16b
	tbl	v4.16b, { v1.16b }, v4.16b
	tbl	v5.16b, { v2.16b }, v5.16b
	orr	v6.16b, v7.16b, v6.16b
	and	v4.16b, v4.16b, v16.16b
	and	v4.16b, v4.16b, v5.16b
	and	v5.16b, v6.16b, v17.16b
	cmeq	v4.16b, v4.16b, v5.16b
	bic	v4.16b, v3.16b, v4.16b
	addp	v4.16b, v4.16b, v4.16b
	addp	v4.16b, v4.16b, v4.16b
	addp	v4.16b, v4.16b, v4.16b
	umov	w10, v4.h[0]
	orr	w10, w10, #0x10000
	rbit	w10, w10
	clz	w10, w10
	cmp	w10, #15
	b.ls	.LBB16_35
// %bb.30:                              // %join.8.i235
                                        //   in Loop: Header=BB16_29 Depth=1
	add	x8, x8, #16
	cmp	x8, x1
	b.lo	.LBB16_29
.LBB16_31:                              // %"utf_lanes::text_blocks::valid_len.exit"
	cmp	x8, x1
	b.ne	.LBB16_36
.LBB16_32:                              // %then.5
	add	x9, x0, x1
	ldurb	w10, [x9, #-1]
	cmp	w10, #191
	b.hi	.LBB16_36
// %bb.33:                              // %join.3.i283
	ldurb	w10, [x9, #-2]
	cmp	w10, #223
	b.hi	.LBB16_36
// %bb.34:                              // %"utf_lanes::text_blocks::ends_character.exit295"
	ldurb	w9, [x9, #-3]
	cmp	w9, #240
	b.lo	.LBB16_45
	b	.LBB16_36
.LBB16_35:                              // %then.6.i
	add	x8, x8, w10, uxtw
	cmp	x8, x1
	b.eq	.LBB16_32
.LBB16_36:                              // %loop.2.i296.preheader
	sub	x9, x0, #1
.LBB16_37:                              // %loop.2.i296
                                        // =>This Inner Loop Header: Depth=1
	cbz	x8, .LBB16_39
// %bb.38:                              // %join.5.i298
                                        //   in Loop: Header=BB16_37 Depth=1
	ldrsb	w10, [x9, x8]
	sub	x1, x8, #1
	mov	x8, x1
	cmn	w10, #64
	b.lt	.LBB16_37
	b	.LBB16_45
.LBB16_39:
	mov	x1, xzr
	mov	x0, x1
	.cfi_def_cfa wsp, 32
	ldp	x20, x19, [sp, #16]             // 16-byte Folded Reload
	ldp	x29, x30, [sp], #32             // 16-byte Folded Reload
	.cfi_def_cfa_offset 0
	.cfi_restore w19
	.cfi_restore w20
	.cfi_restore w30
	.cfi_restore w29
	ret
.LBB16_40:                              // %join.3.i19
	.cfi_restore_state
	.cfi_remember_state
	ldr	d2, [x0, x8]
	ldur	d3, [x9, #-8]
	mov	v2.d[1], v3.d[0]
	mov	b0, v3.b[6]
	umov	w8, v3.b[5]
	tbl	v1.16b, { v2.16b }, v1.16b
	mov	v0.b[4], v3.b[7]
.LBB16_41:                              // %"utf_lanes::few_bytes::padded_text.exit"
	movi	v2.2d, #0000000000000000
	movi	v3.16b, #15
	adrp	x9, .LCPI16_0
	movi	v5.16b, #96
	movi	v6.16b, #112
	adrp	x10, .LCPI16_1
	ldr	q17, [x10, :lo12:.LCPI16_1]
	ext	v4.16b, v2.16b, v1.16b, #15
	ext	v7.16b, v2.16b, v1.16b, #14
	ext	v2.16b, v2.16b, v1.16b, #13
	ushr	v1.16b, v1.16b, #4
	ushr	v16.16b, v4.16b, #4
	and	v3.16b, v4.16b, v3.16b
	ldr	q4, [x9, :lo12:.LCPI16_0]
	uqsub	v5.16b, v7.16b, v5.16b
	adrp	x9, .LCPI16_2
	uqsub	v2.16b, v2.16b, v6.16b
	ldr	q6, [x9, :lo12:.LCPI16_2]
	adrp	x9, .LCPI16_3
	tbl	v4.16b, { v4.16b }, v16.16b
	tbl	v3.16b, { v17.16b }, v3.16b
	tbl	v1.16b, { v6.16b }, v1.16b
	movi	v6.16b, #128
	orr	v2.16b, v5.16b, v2.16b
	and	v3.16b, v3.16b, v4.16b
	and	v2.16b, v2.16b, v6.16b
	and	v1.16b, v3.16b, v1.16b
	cmeq	v1.16b, v2.16b, v1.16b
	ldr	q2, [x9, :lo12:.LCPI16_3]
	bic	v1.16b, v2.16b, v1.16b
	addp	v1.16b, v1.16b, v1.16b
	addp	v1.16b, v1.16b, v1.16b
	addp	v1.16b, v1.16b, v1.16b
	umov	w9, v1.h[0]
	cbnz	w9, .LBB16_4
// %bb.42:                              // %"utf_lanes::few_bytes::padded_text.exit"
	mov	w9, v0.s[1]
	and	w9, w9, #0xff
	cmp	w9, #191
	b.hi	.LBB16_4
// %bb.43:                              // %"utf_lanes::few_bytes::padded_text.exit"
	fmov	w9, s0
	and	w9, w9, #0xff
	cmp	w9, #223
	b.hi	.LBB16_4
// %bb.44:                              // %"utf_lanes::few_bytes::padded_text.exit"
	and	w8, w8, #0xff
	cmp	w8, #240
	b.hs	.LBB16_4
.LBB16_45:                              // %common.ret
	mov	x0, x1
	.cfi_def_cfa wsp, 32
	ldp	x20, x19, [sp, #16]             // 16-byte Folded Reload
	ldp	x29, x30, [sp], #32             // 16-byte Folded Reload
	.cfi_def_cfa_offset 0
	.cfi_restore w19
	.cfi_restore w20
	.cfi_restore w30
	.cfi_restore w29
	ret
.LBB16_46:                              // %join.5.i130.lr.ph
	.cfi_restore_state
	mov	x11, xzr
	sub	x9, x1, #64
	add	x10, x0, #96
	mov	w12, #32                        // =0x20
.LBB16_47:                              // %join.5.i130
                                        // =>This Loop Header: Depth=1
                                        //     Child Loop BB16_60 Depth 2
                                        //     Child Loop BB16_52 Depth 2
	add	x8, x0, x12
	ldp	q6, q7, [x8]
	ldp	q4, q5, [x8, #32]
	orr	v16.16b, v4.16b, v6.16b
	orr	v17.16b, v5.16b, v7.16b
	cmlt	v17.16b, v17.16b, #0
	cmlt	v16.16b, v16.16b, #0
	and	v16.16b, v16.16b, v3.16b
	and	v17.16b, v17.16b, v3.16b
	addp	v16.16b, v16.16b, v17.16b
	addp	v16.16b, v16.16b, v16.16b
	addp	v16.16b, v16.16b, v16.16b
	fmov	w13, s16
	cbnz	w13, .LBB16_57
// %bb.48:                              // %then.7.i154
                                        //   in Loop: Header=BB16_47 Depth=1
	ldurb	w13, [x8, #-1]
	cmp	w13, #191
	b.hi	.LBB16_57
// %bb.49:                              // %join.3.i240
                                        //   in Loop: Header=BB16_47 Depth=1
	ldurb	w13, [x8, #-2]
	cmp	w13, #223
	b.hi	.LBB16_57
// %bb.50:                              // %"utf_lanes::text_blocks::ends_character.exit"
                                        //   in Loop: Header=BB16_47 Depth=1
	ldurb	w13, [x8, #-3]
	cmp	w13, #239
	b.hi	.LBB16_57
// %bb.51:                              // %then.10.i156
                                        //   in Loop: Header=BB16_47 Depth=1
	add	x8, x12, #64
	sub	x11, x1, x8
	cmp	x11, #128
	b.lo	.LBB16_55
.LBB16_52:                              // %join.5.i181
                                        //   Parent Loop BB16_47 Depth=1
                                        // =>  This Inner Loop Header: Depth=2
	add	x8, x0, x12
	ldp	q5, q4, [x8, #64]
	ldp	q7, q6, [x8, #96]
	ldp	q17, q16, [x8, #128]
	ldp	q19, q18, [x8, #160]
	orr	v5.16b, v7.16b, v5.16b
	orr	v4.16b, v6.16b, v4.16b
	orr	v6.16b, v19.16b, v17.16b
	orr	v7.16b, v18.16b, v16.16b
	cmlt	v5.16b, v5.16b, #0
	cmlt	v4.16b, v4.16b, #0
	cmlt	v7.16b, v7.16b, #0
	cmlt	v6.16b, v6.16b, #0
	and	v5.16b, v5.16b, v3.16b
	and	v4.16b, v4.16b, v3.16b
	and	v6.16b, v6.16b, v3.16b
	and	v7.16b, v7.16b, v3.16b
	addp	v4.16b, v5.16b, v4.16b
	addp	v5.16b, v6.16b, v7.16b
	addp	v4.16b, v4.16b, v4.16b
	addp	v5.16b, v5.16b, v5.16b
	addp	v4.16b, v4.16b, v4.16b
	addp	v5.16b, v5.16b, v5.16b
	orr	v5.16b, v5.16b, v4.16b
	fmov	w8, s5
	cbnz	w8, .LBB16_66
// %bb.53:                              // %join.8.i
                                        //   in Loop: Header=BB16_52 Depth=2
	sub	x11, x11, #128
	add	x12, x12, #128
	cmp	x11, #127
	b.hi	.LBB16_52
// %bb.54:                              // %"utf_lanes::ascii_texts::ascii_end::<=2>.exit.loopexit"
                                        //   in Loop: Header=BB16_47 Depth=1
	add	x8, x12, #64
.LBB16_55:                              // %"utf_lanes::ascii_texts::ascii_end::<=2>.exit"
                                        //   in Loop: Header=BB16_47 Depth=1
	cmp	x11, #64
	b.lo	.LBB16_65
// %bb.56:                              // %"utf_lanes::ascii_texts::ascii_end::<=2>.exit.then.2.i_crit_edge"
                                        //   in Loop: Header=BB16_47 Depth=1
	add	x11, x0, x8
	ldp	q5, q4, [x11]
	ldp	q7, q6, [x11, #32]
	orr	v5.16b, v7.16b, v5.16b
	orr	v4.16b, v6.16b, v4.16b
	cmlt	v4.16b, v4.16b, #0
	cmlt	v5.16b, v5.16b, #0
	and	v5.16b, v5.16b, v3.16b
	and	v4.16b, v4.16b, v3.16b
	addp	v4.16b, v5.16b, v4.16b
	addp	v4.16b, v4.16b, v4.16b
	addp	v4.16b, v4.16b, v4.16b
	fmov	w13, s4
	b	.LBB16_67
.LBB16_57:                              // %join.9.i147
                                        //   in Loop: Header=BB16_47 Depth=1
	ldur	q17, [x8, #15]
	ldur	q16, [x8, #-1]
	movi	v18.16b, #15
	ushr	v7.16b, v7.16b, #4
	movi	v19.16b, #96
	movi	v22.16b, #112
	ushr	v20.16b, v17.16b, #4
	ushr	v6.16b, v6.16b, #4
	ldur	q23, [x8, #-2]
	ushr	v21.16b, v16.16b, #4
	ldur	q25, [x8, #-3]
	ldur	q24, [x8, #14]
	tbl	v7.16b, { v2.16b }, v7.16b
	and	v16.16b, v16.16b, v18.16b
	ldur	q26, [x8, #13]
	tbl	v20.16b, { v0.16b }, v20.16b
	tbl	v6.16b, { v2.16b }, v6.16b
	uqsub	v23.16b, v23.16b, v19.16b
	tbl	v21.16b, { v0.16b }, v21.16b
	uqsub	v25.16b, v25.16b, v22.16b
	ldur	q27, [x8, #31]
	ldur	q28, [x8, #47]
	and	v17.16b, v17.16b, v18.16b
	uqsub	v24.16b, v24.16b, v19.16b
	tbl	v16.16b, { v1.16b }, v16.16b
	ushr	v29.16b, v27.16b, #4
	ldur	q30, [x8, #46]
	and	v7.16b, v20.16b, v7.16b
	uqsub	v20.16b, v26.16b, v22.16b
	ldur	q31, [x8, #29]
	ushr	v26.16b, v28.16b, #4
	ushr	v5.16b, v5.16b, #4
	ushr	v4.16b, v4.16b, #4
	and	v6.16b, v21.16b, v6.16b
	orr	v21.16b, v25.16b, v23.16b
	ldur	q25, [x8, #30]
	and	v28.16b, v28.16b, v18.16b
	and	v18.16b, v27.16b, v18.16b
	ldur	q27, [x8, #45]
	tbl	v17.16b, { v1.16b }, v17.16b
	add	x8, x12, x11
	movi	v23.16b, #128
	tbl	v29.16b, { v0.16b }, v29.16b
	cmp	x9, x8
	tbl	v26.16b, { v0.16b }, v26.16b
	tbl	v4.16b, { v2.16b }, v4.16b
	csel	x13, x9, x8, lo
	tbl	v5.16b, { v2.16b }, v5.16b
	uqsub	v30.16b, v30.16b, v19.16b
	uqsub	v19.16b, v25.16b, v19.16b
	uqsub	v25.16b, v27.16b, v22.16b
	uqsub	v22.16b, v31.16b, v22.16b
	and	v6.16b, v16.16b, v6.16b
	orr	v16.16b, v20.16b, v24.16b
	and	v7.16b, v17.16b, v7.16b
	tbl	v17.16b, { v1.16b }, v18.16b
	tbl	v18.16b, { v1.16b }, v28.16b
	and	v20.16b, v21.16b, v23.16b
	and	v4.16b, v29.16b, v4.16b
	and	v5.16b, v26.16b, v5.16b
	and	v16.16b, v16.16b, v23.16b
	orr	v21.16b, v25.16b, v30.16b
	orr	v19.16b, v22.16b, v19.16b
	and	v4.16b, v17.16b, v4.16b
	and	v5.16b, v18.16b, v5.16b
	cmeq	v6.16b, v6.16b, v20.16b
	and	v17.16b, v21.16b, v23.16b
	cmeq	v7.16b, v7.16b, v16.16b
	and	v18.16b, v19.16b, v23.16b
	mvn	v6.16b, v6.16b
	mvn	v7.16b, v7.16b
	cmeq	v5.16b, v5.16b, v17.16b
	cmeq	v4.16b, v4.16b, v18.16b
	orn	v5.16b, v7.16b, v5.16b
	orn	v4.16b, v6.16b, v4.16b
	and	v5.16b, v5.16b, v3.16b
	and	v4.16b, v4.16b, v3.16b
	addp	v4.16b, v4.16b, v5.16b
	addp	v4.16b, v4.16b, v4.16b
	addp	v4.16b, v4.16b, v4.16b
	fmov	w14, s4
	cbz	w14, .LBB16_59
// %bb.58:                              //   in Loop: Header=BB16_47 Depth=1
	mov	x8, x12
	b	.LBB16_62
.LBB16_59:                              // %loop.5.i.preheader
                                        //   in Loop: Header=BB16_47 Depth=1
	add	x14, x12, #64
	add	x12, x10, x12
.LBB16_60:                              // %loop.5.i
                                        //   Parent Loop BB16_47 Depth=1
                                        // =>  This Inner Loop Header: Depth=2
	mov	x8, x14
	cmp	x14, x13
	b.hi	.LBB16_62
// %bb.61:                              // %join.8.i211
                                        //   in Loop: Header=BB16_60 Depth=2
	ldp	q7, q17, [x12, #-32]
	movi	v5.16b, #96
	ldur	q18, [x12, #-17]
	movi	v6.16b, #112
	ldur	q16, [x12, #-33]
	ldur	q21, [x12, #-34]
	ldur	q22, [x12, #-35]
	movi	v4.16b, #15
	ushr	v20.16b, v18.16b, #4
	ushr	v17.16b, v17.16b, #4
	ushr	v19.16b, v16.16b, #4
	ushr	v7.16b, v7.16b, #4
	uqsub	v21.16b, v21.16b, v5.16b
	ldur	q23, [x12, #-18]
	uqsub	v22.16b, v22.16b, v6.16b
	ldp	q25, q26, [x12]
	tbl	v20.16b, { v0.16b }, v20.16b
	tbl	v17.16b, { v2.16b }, v17.16b
	tbl	v19.16b, { v0.16b }, v19.16b
	tbl	v7.16b, { v2.16b }, v7.16b
	and	v16.16b, v16.16b, v4.16b
	ldur	q24, [x12, #-19]
	and	v18.16b, v18.16b, v4.16b
	uqsub	v23.16b, v23.16b, v5.16b
	ushr	v26.16b, v26.16b, #4
	ushr	v25.16b, v25.16b, #4
	ldur	q27, [x12, #-2]
	ldur	q30, [x12, #14]
	and	v17.16b, v20.16b, v17.16b
	orr	v20.16b, v22.16b, v21.16b
	ldur	q21, [x12, #-1]
	ldur	q22, [x12, #15]
	tbl	v16.16b, { v1.16b }, v16.16b
	and	v7.16b, v19.16b, v7.16b
	uqsub	v19.16b, v24.16b, v6.16b
	ushr	v29.16b, v21.16b, #4
	ldur	q31, [x12, #-3]
	ushr	v28.16b, v22.16b, #4
	and	v22.16b, v22.16b, v4.16b
	and	v4.16b, v21.16b, v4.16b
	ldur	q21, [x12, #13]
	tbl	v18.16b, { v1.16b }, v18.16b
	movi	v24.16b, #128
	tbl	v29.16b, { v0.16b }, v29.16b
	tbl	v25.16b, { v2.16b }, v25.16b
	tbl	v26.16b, { v2.16b }, v26.16b
	tbl	v28.16b, { v0.16b }, v28.16b
	uqsub	v30.16b, v30.16b, v5.16b
	add	x14, x8, #64
	uqsub	v5.16b, v27.16b, v5.16b
	uqsub	v21.16b, v21.16b, v6.16b
	add	x12, x12, #64
	uqsub	v6.16b, v31.16b, v6.16b
	and	v7.16b, v16.16b, v7.16b
	orr	v16.16b, v19.16b, v23.16b
	and	v17.16b, v18.16b, v17.16b
	tbl	v4.16b, { v1.16b }, v4.16b
	tbl	v18.16b, { v1.16b }, v22.16b
	and	v19.16b, v20.16b, v24.16b
	and	v20.16b, v29.16b, v25.16b
	and	v22.16b, v28.16b, v26.16b
	and	v16.16b, v16.16b, v24.16b
	orr	v5.16b, v6.16b, v5.16b
	orr	v6.16b, v21.16b, v30.16b
	and	v4.16b, v4.16b, v20.16b
	and	v18.16b, v18.16b, v22.16b
	cmeq	v7.16b, v7.16b, v19.16b
	cmeq	v16.16b, v17.16b, v16.16b
	and	v6.16b, v6.16b, v24.16b
	and	v5.16b, v5.16b, v24.16b
	mvn	v7.16b, v7.16b
	mvn	v16.16b, v16.16b
	cmeq	v4.16b, v4.16b, v5.16b
	cmeq	v5.16b, v18.16b, v6.16b
	orn	v5.16b, v16.16b, v5.16b
	orn	v4.16b, v7.16b, v4.16b
	and	v4.16b, v4.16b, v3.16b
	and	v5.16b, v5.16b, v3.16b
	addp	v4.16b, v4.16b, v5.16b
	addp	v4.16b, v4.16b, v4.16b
	addp	v4.16b, v4.16b, v4.16b
	fmov	w15, s4
	cbz	w15, .LBB16_60
.LBB16_62:                              // %"utf_lanes::text_blocks::batch_end.exit"
                                        //   in Loop: Header=BB16_47 Depth=1
	cmp	x8, x13
	b.ls	.LBB16_27
// %bb.63:                              // %join.16.i
                                        //   in Loop: Header=BB16_47 Depth=1
	lsl	x11, x11, #1
	mov	w12, #960                       // =0x3c0
	add	x11, x11, #64
	cmp	x11, #960
	csel	x11, x11, x12, lo
.LBB16_64:                              // %after.6.i152
                                        //   in Loop: Header=BB16_47 Depth=1
	sub	x12, x1, x8
	cmp	x12, #63
	mov	x12, x8
	b.hi	.LBB16_47
	b	.LBB16_27
.LBB16_65:                              //   in Loop: Header=BB16_47 Depth=1
	mov	x11, xzr
	b	.LBB16_64
.LBB16_66:                              // %then.2.i.loopexit
                                        //   in Loop: Header=BB16_47 Depth=1
	fmov	w13, s4
	add	x8, x12, #64
.LBB16_67:                              // %then.2.i
                                        //   in Loop: Header=BB16_47 Depth=1
	add	x12, x8, #64
	cmp	w13, #0
	mov	x11, xzr
	csel	x8, x12, x8, eq
	b	.LBB16_64
.LBB16_68:                              // %"utf_lanes::text_blocks::valid_len_in_blocks.exit.loopexit"
	mov	w8, #64                         // =0x40
	sub	x8, x8, x10
	b	.LBB16_27
.Lfunc_end16:
	.size	"utf_lanes::text_blocks::text_len", .Lfunc_end16-"utf_lanes::text_blocks::text_len"
	.cfi_endproc
                                        // -- End function
	.section	".text.utf_lanes::text_blocks::few_chars","ax",@progbits
	.p2align	2                               // -- Begin function utf_lanes::text_blocks::few_chars
	.type	"utf_lanes::text_blocks::few_chars",@function
"utf_lanes::text_blocks::few_chars":    // @"utf_lanes::text_blocks::few_chars"
	.cfi_startproc
// %bb.0:                               // %start
	mov	x8, x0
	mov	x0, xzr
	b	.LBB17_3
.LBB17_1:                               //   in Loop: Header=BB17_3 Depth=1
	mov	w9, #1                          // =0x1
.LBB17_2:                               // %arm.7
                                        //   in Loop: Header=BB17_3 Depth=1
	add	x0, x9, x0
	cmp	x0, x2
	b.hs	.LBB17_19
.LBB17_3:                               // %join.5
                                        // =>This Inner Loop Header: Depth=1
	sub	x9, x1, x0
	cmp	x9, #4
	b.lo	.LBB17_19
// %bb.4:                               // %join.3.i
                                        //   in Loop: Header=BB17_3 Depth=1
	add	x9, x8, x0
	ldrsb	w10, [x9]
	tbz	w10, #31, .LBB17_1
// %bb.5:                               // %join.6.i
                                        //   in Loop: Header=BB17_3 Depth=1
	and	w11, w10, #0xff
	ldrb	w10, [x9, #1]
	cmp	w11, #223
	b.hi	.LBB17_9
// %bb.6:                               // %then.7.i
                                        //   in Loop: Header=BB17_3 Depth=1
	cmp	w11, #194
	b.lo	.LBB17_19
// %bb.7:                               // %then.7.i
                                        //   in Loop: Header=BB17_3 Depth=1
	sxtb	w9, w10
	cmn	w9, #64
	b.ge	.LBB17_19
// %bb.8:                               //   in Loop: Header=BB17_3 Depth=1
	mov	w9, #2                          // =0x2
	b	.LBB17_2
.LBB17_9:                               // %join.9.i
                                        //   in Loop: Header=BB17_3 Depth=1
	sxtb	w12, w10
	cmn	w12, #65
	b.gt	.LBB17_19
// %bb.10:                              // %join.12.i
                                        //   in Loop: Header=BB17_3 Depth=1
	ubfiz	w12, w11, #6, #4
	cmp	w11, #239
	b.hi	.LBB17_15
// %bb.11:                              // %then.13.i
                                        //   in Loop: Header=BB17_3 Depth=1
	and	w10, w10, #0x3f
	orr	w10, w12, w10
	and	w11, w10, #0x3e0
	cmp	w11, #864
	b.eq	.LBB17_19
// %bb.12:                              // %join.3.i19
                                        //   in Loop: Header=BB17_3 Depth=1
	ldrsb	w9, [x9, #2]
	cmn	w9, #65
	b.gt	.LBB17_19
// %bb.13:                              // %join.3.i19
                                        //   in Loop: Header=BB17_3 Depth=1
	cmp	w10, #31
	b.ls	.LBB17_19
// %bb.14:                              //   in Loop: Header=BB17_3 Depth=1
	mov	w9, #3                          // =0x3
	b	.LBB17_2
.LBB17_15:                              // %else.14.i
                                        //   in Loop: Header=BB17_3 Depth=1
	and	w10, w10, #0x30
	add	w10, w12, w10
	sub	w10, w10, #272
	cmn	w10, #256
	b.lo	.LBB17_19
// %bb.16:                              // %after.1.i
                                        //   in Loop: Header=BB17_3 Depth=1
	ldrsb	w10, [x9, #2]
	cmn	w10, #65
	b.gt	.LBB17_19
// %bb.17:                              // %"utf_lanes::text_front::front_of_text.exit"
                                        //   in Loop: Header=BB17_3 Depth=1
	ldrsb	w9, [x9, #3]
	cmn	w9, #64
	b.ge	.LBB17_19
// %bb.18:                              //   in Loop: Header=BB17_3 Depth=1
	mov	w9, #4                          // =0x4
	b	.LBB17_2
.LBB17_19:                              // %common.ret
	ret
.Lfunc_end17:
	.size	"utf_lanes::text_blocks::few_chars", .Lfunc_end17-"utf_lanes::text_blocks::few_chars"
	.cfi_endproc
                                        // -- End function
	.section	".text.recoding::kernels::copy_damaged::<#47c24e65252a304d>","ax",@progbits
	.p2align	2                               // -- Begin function recoding::kernels::copy_damaged::<#47c24e65252a304d>
	.type	"recoding::kernels::copy_damaged::<#47c24e65252a304d>",@function
"recoding::kernels::copy_damaged::<#47c24e65252a304d>": // @"recoding::kernels::copy_damaged::<#47c24e65252a304d>"
	.cfi_startproc
// %bb.0:                               // %start
	stp	x29, x30, [sp, #-96]!           // 16-byte Folded Spill
	.cfi_def_cfa_offset 96
	stp	x28, x27, [sp, #16]             // 16-byte Folded Spill
	stp	x26, x25, [sp, #32]             // 16-byte Folded Spill
	stp	x24, x23, [sp, #48]             // 16-byte Folded Spill
	stp	x22, x21, [sp, #64]             // 16-byte Folded Spill
	stp	x20, x19, [sp, #80]             // 16-byte Folded Spill
	mov	x29, sp
	.cfi_def_cfa w29, 96
	.cfi_offset w19, -8
	.cfi_offset w20, -16
	.cfi_offset w21, -24
	.cfi_offset w22, -32
	.cfi_offset w23, -40
	.cfi_offset w24, -48
	.cfi_offset w25, -56
	.cfi_offset w26, -64
	.cfi_offset w27, -72
	.cfi_offset w28, -80
	.cfi_offset w30, -88
	.cfi_offset w29, -96
	sub	sp, sp, #592
	movi	v0.2d, #0000000000000000
	add	x8, sp, #64
	mov	x20, x2
	mov	x28, x1
	mov	x19, xzr
	mov	x26, xzr
	stp	xzr, xzr, [sp, #40]
	str	xzr, [sp, #56]
	stp	q0, q0, [x8, #112]
	stp	q0, q0, [x8, #144]
	stp	q0, q0, [x8, #176]
	stp	q0, q0, [x8, #208]
	stp	q0, q0, [x8, #240]
	stp	q0, q0, [x8, #272]
	stp	q0, q0, [x8, #304]
	stp	q0, q0, [x8, #336]
	stp	q0, q0, [x8, #368]
	stp	q0, q0, [x8, #400]
	stp	q0, q0, [x8, #432]
	stp	q0, q0, [x8, #464]
	str	q0, [x8, #496]
	add	x8, x0, #16
	stp	q0, q0, [sp, #64]
	stp	q0, q0, [sp, #96]
	stp	q0, q0, [sp, #128]
	str	x0, [sp, #32]                   // 8-byte Spill
	stp	x8, x1, [sp, #8]                // 16-byte Folded Spill
	str	q0, [sp, #160]
.LBB18_1:                               // %loop.2
                                        // =>This Loop Header: Depth=1
                                        //     Child Loop BB18_17 Depth 2
                                        //     Child Loop BB18_21 Depth 2
                                        //     Child Loop BB18_10 Depth 2
	ldr	x8, [sp, #32]                   // 8-byte Reload
	add	x0, sp, #40
	sub	x2, x28, x26
	add	x3, sp, #64
	add	x1, x8, x26
	bl	"utf_lanes::mending::mend::<#0a9db3908d7f4f9c>"
	ldr	x27, [sp, #40]
	cbz	x27, .LBB18_27
// %bb.2:                               // %join.5
                                        //   in Loop: Header=BB18_1 Depth=1
	ldp	x8, x21, [x20, #8]
	ldr	x2, [sp, #48]
	sub	x9, x21, x8
	cmp	x2, x9
	b.hi	.LBB18_23
.LBB18_3:                               // %join.3.i
                                        //   in Loop: Header=BB18_1 Depth=1
	ldr	x22, [x20]
	add	x1, sp, #64
	add	x23, x8, x2
	add	x0, x22, x8
	bl	memcpy
	stp	x22, x23, [x20]
	str	x21, [x20, #16]
.LBB18_4:                               // %"std_alloc::vec::Vec::extend_from_slice::<#0cd040e5c49bc722>.exit"
                                        //   in Loop: Header=BB18_1 Depth=1
	ldr	x8, [sp, #56]
	ldr	x0, [sp, #32]                   // 8-byte Reload
	add	x2, x27, x26
	mov	x1, x28
	add	x22, x27, x26
	str	x8, [sp, #24]                   // 8-byte Spill
	bl	"recoding::kernels::next_text_end"
	ldp	x21, x25, [x20, #8]
	sub	x24, x0, x22
	mov	x23, x0
	sub	x8, x25, x21
	cmp	x24, x8
	b.hi	.LBB18_25
.LBB18_5:                               // %join.3.i21
                                        //   in Loop: Header=BB18_1 Depth=1
	ldr	x28, [x20]
	ldr	x8, [sp, #32]                   // 8-byte Reload
	stp	xzr, xzr, [x20, #8]
	add	x1, x8, x22
	add	x8, x28, x21
	sub	x8, x8, x1
	cmp	x8, x24
	b.hs	.LBB18_11
// %bb.6:                               // %iter.check
                                        //   in Loop: Header=BB18_1 Depth=1
	add	x8, x26, x27
	sub	x9, x23, x8
	cmp	x9, #7
	b.ls	.LBB18_8
// %bb.7:                               // %vector.memcheck
                                        //   in Loop: Header=BB18_1 Depth=1
	ldr	x10, [sp, #32]                  // 8-byte Reload
	add	x11, x21, x28
	add	x10, x26, x10
	add	x10, x10, x27
	sub	x10, x11, x10
	cmp	x10, #32
	b.hs	.LBB18_14
.LBB18_8:                               //   in Loop: Header=BB18_1 Depth=1
	mov	x10, xzr
.LBB18_9:                               // %join.7.i.i.i34.preheader
                                        //   in Loop: Header=BB18_1 Depth=1
	ldr	x12, [sp, #32]                  // 8-byte Reload
	sub	x9, x23, x10
	add	x11, x10, x26
	add	x10, x10, x21
	sub	x8, x9, x8
	add	x12, x12, x27
	add	x10, x28, x10
	add	x9, x12, x11
.LBB18_10:                              // %join.7.i.i.i34
                                        //   Parent Loop BB18_1 Depth=1
                                        // =>  This Inner Loop Header: Depth=2
	ldrb	w11, [x9], #1
	subs	x8, x8, #1
	strb	w11, [x10], #1
	b.ne	.LBB18_10
	b	.LBB18_12
.LBB18_11:                              // %apart.2.i.i.i31
                                        //   in Loop: Header=BB18_1 Depth=1
	add	x0, x28, x21
	mov	x2, x24
	bl	memmove
.LBB18_12:                              // %"core::slots::Slots::copy_in::<i8,20'core::clone::U8Clone{}>.exit.i32"
                                        //   in Loop: Header=BB18_1 Depth=1
	add	x8, x21, x24
	str	x25, [x20, #16]
	stp	x28, x8, [x20]
	ldr	x28, [sp, #16]                  // 8-byte Reload
.LBB18_13:                              // %"std_alloc::vec::Vec::extend_from_slice::<#0cd040e5c49bc722>.exit46"
                                        //   in Loop: Header=BB18_1 Depth=1
	ldr	x8, [sp, #24]                   // 8-byte Reload
	cmp	x24, #1024
	mov	x26, x23
	add	x19, x8, x19
	b.lo	.LBB18_1
	b	.LBB18_28
.LBB18_14:                              // %vector.main.loop.iter.check
                                        //   in Loop: Header=BB18_1 Depth=1
	cmp	x9, #32
	b.hs	.LBB18_16
// %bb.15:                              //   in Loop: Header=BB18_1 Depth=1
	mov	x10, xzr
	b	.LBB18_20
.LBB18_16:                              // %vector.ph
                                        //   in Loop: Header=BB18_1 Depth=1
	ldr	x13, [sp, #8]                   // 8-byte Reload
	add	x12, x28, x21
	and	x11, x9, #0x18
	and	x10, x9, #0xffffffffffffffe0
	add	x12, x12, #16
	and	x14, x9, #0xffffffffffffffe0
	add	x13, x13, x8
.LBB18_17:                              // %vector.body
                                        //   Parent Loop BB18_1 Depth=1
                                        // =>  This Inner Loop Header: Depth=2
	ldp	q0, q1, [x13, #-16]
	subs	x14, x14, #32
	add	x13, x13, #32
	stp	q0, q1, [x12, #-16]
	add	x12, x12, #32
	b.ne	.LBB18_17
// %bb.18:                              // %middle.block
                                        //   in Loop: Header=BB18_1 Depth=1
	cmp	x9, x10
	b.eq	.LBB18_12
// %bb.19:                              // %vec.epilog.iter.check
                                        //   in Loop: Header=BB18_1 Depth=1
	cbz	x11, .LBB18_9
.LBB18_20:                              // %vec.epilog.ph
                                        //   in Loop: Header=BB18_1 Depth=1
	mov	x11, x10
	ldr	x14, [sp, #32]                  // 8-byte Reload
	and	x10, x9, #0xfffffffffffffff8
	add	x12, x11, x26
	add	x13, x21, x11
	sub	x11, x11, x10
	add	x12, x12, x27
	add	x13, x28, x13
	add	x12, x14, x12
.LBB18_21:                              // %vec.epilog.vector.body
                                        //   Parent Loop BB18_1 Depth=1
                                        // =>  This Inner Loop Header: Depth=2
	ldr	d0, [x12], #8
	adds	x11, x11, #8
	str	d0, [x13], #8
	b.ne	.LBB18_21
// %bb.22:                              // %vec.epilog.middle.block
                                        //   in Loop: Header=BB18_1 Depth=1
	cmp	x9, x10
	b.ne	.LBB18_9
	b	.LBB18_12
.LBB18_23:                              // %"std_alloc::vec::Vec::grow::<#5fdc5e19576447a7>.exit.i"
                                        //   in Loop: Header=BB18_1 Depth=1
	mov	x0, x20
	mov	x1, x2
	mov	x22, x2
	bl	"std_alloc::vec::Vec::grow_amortized::<#5fdc5e19576447a7>"
	cbz	w0, .LBB18_4
// %bb.24:                              // %"std_alloc::vec::Vec::grow::<#5fdc5e19576447a7>.exit.join.3_crit_edge.i"
                                        //   in Loop: Header=BB18_1 Depth=1
	ldp	x8, x21, [x20, #8]
	mov	x2, x22
	b	.LBB18_3
.LBB18_25:                              // %"std_alloc::vec::Vec::grow::<#5fdc5e19576447a7>.exit.i41"
                                        //   in Loop: Header=BB18_1 Depth=1
	sub	x1, x23, x22
	mov	x0, x20
	bl	"std_alloc::vec::Vec::grow_amortized::<#5fdc5e19576447a7>"
	cbz	w0, .LBB18_13
// %bb.26:                              // %"std_alloc::vec::Vec::grow::<#5fdc5e19576447a7>.exit.join.3_crit_edge.i43"
                                        //   in Loop: Header=BB18_1 Depth=1
	ldp	x21, x25, [x20, #8]
	b	.LBB18_5
.LBB18_27:
	mov	x23, x26
.LBB18_28:                              // %return.6
	mov	x0, x23
	mov	x1, x19
	add	sp, sp, #592
	.cfi_def_cfa wsp, 96
	ldp	x20, x19, [sp, #80]             // 16-byte Folded Reload
	ldp	x22, x21, [sp, #64]             // 16-byte Folded Reload
	ldp	x24, x23, [sp, #48]             // 16-byte Folded Reload
	ldp	x26, x25, [sp, #32]             // 16-byte Folded Reload
	ldp	x28, x27, [sp, #16]             // 16-byte Folded Reload
	ldp	x29, x30, [sp], #96             // 16-byte Folded Reload
	.cfi_def_cfa_offset 0
	.cfi_restore w19
	.cfi_restore w20
	.cfi_restore w21
	.cfi_restore w22
	.cfi_restore w23
	.cfi_restore w24
	.cfi_restore w25
	.cfi_restore w26
	.cfi_restore w27
	.cfi_restore w28
	.cfi_restore w30
	.cfi_restore w29
	ret
.Lfunc_end18:
	.size	"recoding::kernels::copy_damaged::<#47c24e65252a304d>", .Lfunc_end18-"recoding::kernels::copy_damaged::<#47c24e65252a304d>"
	.cfi_endproc
                                        // -- End function
	.section	.rodata.cst16,"aM",@progbits,16
	.p2align	4, 0x0                          // -- Begin function utf_lanes::mending::mend::<#0a9db3908d7f4f9c>
.LCPI19_0:
	.byte	1                               // 0x1
	.byte	2                               // 0x2
	.byte	4                               // 0x4
	.byte	8                               // 0x8
	.byte	16                              // 0x10
	.byte	32                              // 0x20
	.byte	64                              // 0x40
	.byte	128                             // 0x80
	.byte	1                               // 0x1
	.byte	2                               // 0x2
	.byte	4                               // 0x4
	.byte	8                               // 0x8
	.byte	16                              // 0x10
	.byte	32                              // 0x20
	.byte	64                              // 0x40
	.byte	128                             // 0x80
.LCPI19_1:
	.byte	2                               // 0x2
	.byte	2                               // 0x2
	.byte	2                               // 0x2
	.byte	2                               // 0x2
	.byte	2                               // 0x2
	.byte	2                               // 0x2
	.byte	2                               // 0x2
	.byte	2                               // 0x2
	.byte	128                             // 0x80
	.byte	128                             // 0x80
	.byte	128                             // 0x80
	.byte	128                             // 0x80
	.byte	5                               // 0x5
	.byte	1                               // 0x1
	.byte	25                              // 0x19
	.byte	97                              // 0x61
.LCPI19_2:
	.byte	207                             // 0xcf
	.byte	135                             // 0x87
	.byte	131                             // 0x83
	.byte	131                             // 0x83
	.byte	163                             // 0xa3
	.byte	227                             // 0xe3
	.byte	227                             // 0xe3
	.byte	227                             // 0xe3
	.byte	227                             // 0xe3
	.byte	227                             // 0xe3
	.byte	227                             // 0xe3
	.byte	227                             // 0xe3
	.byte	227                             // 0xe3
	.byte	243                             // 0xf3
	.byte	227                             // 0xe3
	.byte	227                             // 0xe3
.LCPI19_3:
	.byte	1                               // 0x1
	.byte	1                               // 0x1
	.byte	1                               // 0x1
	.byte	1                               // 0x1
	.byte	1                               // 0x1
	.byte	1                               // 0x1
	.byte	1                               // 0x1
	.byte	1                               // 0x1
	.byte	206                             // 0xce
	.byte	174                             // 0xae
	.byte	182                             // 0xb6
	.byte	182                             // 0xb6
	.byte	1                               // 0x1
	.byte	1                               // 0x1
	.byte	1                               // 0x1
	.byte	1                               // 0x1
	.section	".text.utf_lanes::mending::mend::<#0a9db3908d7f4f9c>","ax",@progbits
	.p2align	2
	.type	"utf_lanes::mending::mend::<#0a9db3908d7f4f9c>",@function
"utf_lanes::mending::mend::<#0a9db3908d7f4f9c>": // @"utf_lanes::mending::mend::<#0a9db3908d7f4f9c>"
	.cfi_startproc
// %bb.0:                               // %start
	stp	x20, x19, [sp, #-16]!           // 16-byte Folded Spill
	.cfi_def_cfa_offset 16
	.cfi_offset w19, -8
	.cfi_offset w20, -16
	mov	x11, xzr
	mov	x8, xzr
	mov	x10, xzr
	mov	x9, xzr
	b	.LBB19_2
.LBB19_1:                               // %then.12
                                        //   in Loop: Header=BB19_2 Depth=1
	add	x13, x3, x10
	add	x9, x9, #64
	add	x10, x10, #64
	stp	q0, q1, [x13]
	add	x11, x11, #1
	ldp	q1, q0, [x12, #32]
	stp	q1, q0, [x13, #32]
	cmp	x11, #4
	b.hs	.LBB19_10
.LBB19_2:                               // %then.3
                                        // =>This Loop Header: Depth=1
                                        //     Child Loop BB19_7 Depth 2
	sub	x12, x2, x9
	cmp	x12, #128
	b.lo	.LBB19_10
// %bb.3:                               // %then.3
                                        //   in Loop: Header=BB19_2 Depth=1
	cmp	x10, #256
	b.hi	.LBB19_10
// %bb.4:                               // %join.5
                                        //   in Loop: Header=BB19_2 Depth=1
	add	x12, x1, x9
	adrp	x13, .LCPI19_0
	ldp	q0, q1, [x12]
	ldp	q3, q4, [x12, #32]
	orr	v2.16b, v3.16b, v0.16b
	orr	v5.16b, v4.16b, v1.16b
	cmlt	v5.16b, v5.16b, #0
	cmlt	v6.16b, v2.16b, #0
	ldr	q2, [x13, :lo12:.LCPI19_0]
	and	v6.16b, v6.16b, v2.16b
	and	v5.16b, v5.16b, v2.16b
	addp	v5.16b, v6.16b, v5.16b
	addp	v5.16b, v5.16b, v5.16b
	addp	v5.16b, v5.16b, v5.16b
	fmov	w13, s5
	cbz	w13, .LBB19_1
// %bb.5:                               // %else.13
                                        //   in Loop: Header=BB19_2 Depth=1
	ushr	v17.16b, v0.16b, #4
	adrp	x13, .LCPI19_1
	ushr	v21.16b, v1.16b, #4
	ldr	q16, [x13, :lo12:.LCPI19_1]
	ldur	q5, [x12, #1]
	ldur	q6, [x12, #17]
	ldur	q22, [x12, #49]
	movi	v7.16b, #15
	adrp	x13, .LCPI19_3
	tbl	v18.16b, { v16.16b }, v17.16b
	tbl	v17.16b, { v16.16b }, v21.16b
	ldur	q21, [x12, #33]
	ushr	v20.16b, v5.16b, #4
	ldr	q19, [x13, :lo12:.LCPI19_3]
	ushr	v24.16b, v4.16b, #4
	ushr	v25.16b, v3.16b, #4
	ushr	v27.16b, v6.16b, #4
	ushr	v28.16b, v21.16b, #4
	ushr	v29.16b, v22.16b, #4
	and	v23.16b, v0.16b, v7.16b
	and	v26.16b, v1.16b, v7.16b
	tbl	v20.16b, { v19.16b }, v20.16b
	adrp	x12, .LCPI19_2
	movi	v30.16b, #192
	tbl	v25.16b, { v16.16b }, v25.16b
	tbl	v16.16b, { v16.16b }, v24.16b
	tbl	v27.16b, { v19.16b }, v27.16b
	tbl	v28.16b, { v19.16b }, v28.16b
	tbl	v19.16b, { v19.16b }, v29.16b
	ldr	q24, [x12, :lo12:.LCPI19_2]
	and	v29.16b, v3.16b, v7.16b
	and	v7.16b, v4.16b, v7.16b
	and	v18.16b, v18.16b, v20.16b
	tbl	v20.16b, { v24.16b }, v23.16b
	tbl	v23.16b, { v24.16b }, v26.16b
	cmgt	v6.16b, v30.16b, v6.16b
	cmgt	v5.16b, v30.16b, v5.16b
	and	v17.16b, v17.16b, v27.16b
	tbl	v26.16b, { v24.16b }, v29.16b
	tbl	v7.16b, { v24.16b }, v7.16b
	and	v24.16b, v25.16b, v28.16b
	and	v16.16b, v16.16b, v19.16b
	and	v18.16b, v20.16b, v18.16b
	and	v5.16b, v5.16b, v2.16b
	and	v6.16b, v6.16b, v2.16b
	and	v17.16b, v23.16b, v17.16b
	cmgt	v20.16b, v30.16b, v22.16b
	cmlt	v23.16b, v3.16b, #0
	and	v19.16b, v26.16b, v24.16b
	and	v7.16b, v7.16b, v16.16b
	movi	v16.16b, #223
	addp	v5.16b, v5.16b, v6.16b
	cmeq	v6.16b, v18.16b, #0
	cmgt	v18.16b, v30.16b, v21.16b
	cmeq	v17.16b, v17.16b, #0
	and	v20.16b, v20.16b, v2.16b
	cmlt	v24.16b, v4.16b, #0
	cmeq	v7.16b, v7.16b, #0
	cmeq	v19.16b, v19.16b, #0
	movi	v22.16b, #239
	and	v6.16b, v6.16b, v2.16b
	and	v18.16b, v18.16b, v2.16b
	cmhi	v21.16b, v0.16b, v16.16b
	and	v17.16b, v17.16b, v2.16b
	addp	v5.16b, v5.16b, v5.16b
	and	v19.16b, v19.16b, v2.16b
	and	v7.16b, v7.16b, v2.16b
	addp	v18.16b, v18.16b, v20.16b
	cmhi	v20.16b, v4.16b, v16.16b
	cmhi	v4.16b, v4.16b, v22.16b
	addp	v6.16b, v6.16b, v17.16b
	cmhi	v17.16b, v1.16b, v16.16b
	cmhi	v16.16b, v3.16b, v16.16b
	addp	v7.16b, v19.16b, v7.16b
	and	v19.16b, v23.16b, v2.16b
	and	v23.16b, v24.16b, v2.16b
	cmhi	v3.16b, v3.16b, v22.16b
	cmhi	v24.16b, v1.16b, v22.16b
	cmhi	v22.16b, v0.16b, v22.16b
	addp	v18.16b, v18.16b, v18.16b
	and	v16.16b, v16.16b, v2.16b
	and	v20.16b, v20.16b, v2.16b
	addp	v7.16b, v7.16b, v7.16b
	addp	v19.16b, v19.16b, v23.16b
	and	v4.16b, v4.16b, v2.16b
	and	v3.16b, v3.16b, v2.16b
	and	v21.16b, v21.16b, v2.16b
	and	v17.16b, v17.16b, v2.16b
	and	v22.16b, v22.16b, v2.16b
	and	v23.16b, v24.16b, v2.16b
	addp	v18.16b, v18.16b, v18.16b
	addp	v7.16b, v7.16b, v7.16b
	addp	v16.16b, v16.16b, v20.16b
	addp	v19.16b, v19.16b, v19.16b
	addp	v6.16b, v6.16b, v6.16b
	addp	v3.16b, v3.16b, v4.16b
	cmlt	v1.16b, v1.16b, #0
	cmlt	v0.16b, v0.16b, #0
	addp	v4.16b, v21.16b, v17.16b
	addp	v17.16b, v22.16b, v23.16b
	and	v7.16b, v7.16b, v18.16b
	addp	v16.16b, v16.16b, v16.16b
	addp	v19.16b, v19.16b, v19.16b
	addp	v5.16b, v5.16b, v5.16b
	addp	v6.16b, v6.16b, v6.16b
	addp	v3.16b, v3.16b, v3.16b
	and	v0.16b, v0.16b, v2.16b
	and	v1.16b, v1.16b, v2.16b
	addp	v2.16b, v4.16b, v4.16b
	fmov	w13, s7
	addp	v4.16b, v17.16b, v17.16b
	addp	v7.16b, v16.16b, v16.16b
	fmov	w12, s19
	and	v6.16b, v6.16b, v5.16b
	addp	v3.16b, v3.16b, v3.16b
	addp	v0.16b, v0.16b, v1.16b
	fmov	w14, s18
	addp	v1.16b, v2.16b, v2.16b
	fmov	w15, s7
	addp	v2.16b, v4.16b, v4.16b
	fmov	w4, s5
	lsl	x16, x12, #32
	fmov	w5, s6
	fmov	w17, s3
	addp	v0.16b, v0.16b, v0.16b
	fmov	w6, s1
	bic	x16, x16, x14, lsl #33
	lsr	x7, x15, #30
	orr	x14, x4, x14, lsl #32
	orr	x13, x5, x13, lsl #32
	lsr	x19, x17, #29
	fmov	w20, s2
	and	x16, x16, #0x8000000000000000
	orr	x15, x6, x15, lsl #32
	addp	v0.16b, v0.16b, v0.16b
	bfi	x16, x7, #62, #1
	and	x4, x13, x14, lsr #1
	lsr	x14, x14, #2
	orr	x17, x20, x17, lsl #32
	bic	x13, x13, x15
	bfi	x16, x19, #61, #1
	and	x4, x4, x15
	fmov	w6, s0
	and	x5, x14, x17
	orn	x14, x14, x17
	and	x5, x4, x5
	rbit	x16, x16
	and	x14, x14, x4
	lsl	x17, x5, #3
	bfi	x6, x12, #32, #32
	orr	x13, x14, x13
	clz	x12, x16
	orr	x15, x17, x14, lsl #2
	neg	x16, x12
	lsl	x14, x6, x16
	orr	x15, x15, x13, lsl #1
	lsr	x14, x14, x16
	orr	x13, x15, x13
	bics	x13, x14, x13
	b.eq	.LBB19_8
// %bb.6:                               // %join.5.i.preheader
                                        //   in Loop: Header=BB19_2 Depth=1
	mov	x15, x13
	mov	x14, x9
.LBB19_7:                               // %join.5.i
                                        //   Parent Loop BB19_2 Depth=1
                                        // =>  This Inner Loop Header: Depth=2
	add	x16, x1, x14
	rbit	x4, x15
	add	x17, x3, x10
	ldp	q1, q0, [x16]
	add	x8, x8, #1
	clz	x4, x4
	stp	q1, q0, [x17]
	ldp	q1, q0, [x16, #32]
	add	x16, x4, x9
	sub	x14, x16, x14
	sub	x4, x15, #1
	add	x10, x14, x10
	mov	w14, #49135                     // =0xbfef
	ands	x15, x4, x15
	movk	w14, #957, lsl #16
	stp	q1, q0, [x17, #32]
	str	w14, [x3, x10]
	add	x14, x16, #1
	add	x10, x10, #3
	b.ne	.LBB19_7
	b	.LBB19_9
.LBB19_8:                               //   in Loop: Header=BB19_2 Depth=1
	mov	x14, x9
.LBB19_9:                               // %"utf_lanes::mending::put_window::<#0a9db3908d7f4f9c>.exit"
                                        //   in Loop: Header=BB19_2 Depth=1
	add	x15, x1, x14
	add	x16, x3, x10
	add	x9, x12, x9
	ldp	q1, q0, [x15]
	add	x11, x11, #2
	cmp	x13, #0
	mov	w12, #2                         // =0x2
	sub	x13, x9, x14
	add	x10, x13, x10
	csel	x11, x11, x12, eq
	stp	q1, q0, [x16]
	ldp	q0, q1, [x15, #32]
	stp	q0, q1, [x16, #32]
	cmp	x11, #4
	b.lo	.LBB19_2
.LBB19_10:                              // %after.1
	stp	x9, x10, [x0]
	str	x8, [x0, #16]
	ldp	x20, x19, [sp], #16             // 16-byte Folded Reload
	.cfi_def_cfa_offset 0
	.cfi_restore w19
	.cfi_restore w20
	ret
.Lfunc_end19:
	.size	"utf_lanes::mending::mend::<#0a9db3908d7f4f9c>", .Lfunc_end19-"utf_lanes::mending::mend::<#0a9db3908d7f4f9c>"
	.cfi_endproc
                                        // -- End function
	.section	.rodata.cst16,"aM",@progbits,16
	.p2align	4, 0x0                          // -- Begin function recoding::kernels::next_text_end
.LCPI20_0:
	.byte	1                               // 0x1
	.byte	2                               // 0x2
	.byte	4                               // 0x4
	.byte	8                               // 0x8
	.byte	16                              // 0x10
	.byte	32                              // 0x20
	.byte	64                              // 0x40
	.byte	128                             // 0x80
	.byte	1                               // 0x1
	.byte	2                               // 0x2
	.byte	4                               // 0x4
	.byte	8                               // 0x8
	.byte	16                              // 0x10
	.byte	32                              // 0x20
	.byte	64                              // 0x40
	.byte	128                             // 0x80
.LCPI20_1:
	.byte	2                               // 0x2
	.byte	2                               // 0x2
	.byte	2                               // 0x2
	.byte	2                               // 0x2
	.byte	2                               // 0x2
	.byte	2                               // 0x2
	.byte	2                               // 0x2
	.byte	2                               // 0x2
	.byte	128                             // 0x80
	.byte	128                             // 0x80
	.byte	128                             // 0x80
	.byte	128                             // 0x80
	.byte	5                               // 0x5
	.byte	1                               // 0x1
	.byte	25                              // 0x19
	.byte	97                              // 0x61
.LCPI20_2:
	.byte	207                             // 0xcf
	.byte	135                             // 0x87
	.byte	131                             // 0x83
	.byte	131                             // 0x83
	.byte	163                             // 0xa3
	.byte	227                             // 0xe3
	.byte	227                             // 0xe3
	.byte	227                             // 0xe3
	.byte	227                             // 0xe3
	.byte	227                             // 0xe3
	.byte	227                             // 0xe3
	.byte	227                             // 0xe3
	.byte	227                             // 0xe3
	.byte	243                             // 0xf3
	.byte	227                             // 0xe3
	.byte	227                             // 0xe3
.LCPI20_3:
	.byte	1                               // 0x1
	.byte	1                               // 0x1
	.byte	1                               // 0x1
	.byte	1                               // 0x1
	.byte	1                               // 0x1
	.byte	1                               // 0x1
	.byte	1                               // 0x1
	.byte	1                               // 0x1
	.byte	206                             // 0xce
	.byte	174                             // 0xae
	.byte	182                             // 0xb6
	.byte	182                             // 0xb6
	.byte	1                               // 0x1
	.byte	1                               // 0x1
	.byte	1                               // 0x1
	.byte	1                               // 0x1
	.section	".text.recoding::kernels::next_text_end","ax",@progbits
	.p2align	2
	.type	"recoding::kernels::next_text_end",@function
"recoding::kernels::next_text_end":     // @"recoding::kernels::next_text_end"
	.cfi_startproc
// %bb.0:                               // %start
	add	x8, x2, #2, lsl #12             // =8192
	cmp	x1, x8
	csel	x8, x1, x8, lo
	cmp	x2, #3
	b.lo	.LBB20_31
// %bb.1:                               // %then.2
	add	x9, x0, x2
	ldurb	w10, [x9, #-1]
	cmp	w10, #191
	b.hi	.LBB20_31
// %bb.2:                               // %join.3.i
	ldurb	w10, [x9, #-2]
	cmp	w10, #223
	b.hi	.LBB20_31
// %bb.3:                               // %"utf_lanes::text_blocks::ends_character.exit"
	ldurb	w9, [x9, #-3]
	cmp	w9, #239
	b.hi	.LBB20_31
// %bb.4:                               // %loop.2.i.i.preheader
	sub	x9, x8, x2
	mov	x13, x2
	cmp	x9, #64
	b.lo	.LBB20_27
// %bb.5:                               // %join.5.i.i.lr.ph
	mov	x11, xzr
	sub	x9, x8, #64
	add	x10, x0, #96
	mov	x12, x2
.LBB20_6:                               // %join.5.i.i
                                        // =>This Loop Header: Depth=1
                                        //     Child Loop BB20_19 Depth 2
                                        //     Child Loop BB20_11 Depth 2
	add	x13, x0, x12
	adrp	x14, .LCPI20_0
	ldp	q1, q2, [x13]
	ldp	q4, q5, [x13, #32]
	orr	v0.16b, v4.16b, v1.16b
	orr	v3.16b, v5.16b, v2.16b
	cmlt	v3.16b, v3.16b, #0
	cmlt	v6.16b, v0.16b, #0
	ldr	q0, [x14, :lo12:.LCPI20_0]
	and	v6.16b, v6.16b, v0.16b
	and	v3.16b, v3.16b, v0.16b
	addp	v3.16b, v6.16b, v3.16b
	addp	v3.16b, v3.16b, v3.16b
	addp	v3.16b, v3.16b, v3.16b
	fmov	w14, s3
	cbnz	w14, .LBB20_16
// %bb.7:                               // %then.7.i.i
                                        //   in Loop: Header=BB20_6 Depth=1
	ldurb	w14, [x13, #-1]
	cmp	w14, #191
	b.hi	.LBB20_16
// %bb.8:                               // %join.3.i.i
                                        //   in Loop: Header=BB20_6 Depth=1
	ldurb	w14, [x13, #-2]
	cmp	w14, #223
	b.hi	.LBB20_16
// %bb.9:                               // %"utf_lanes::text_blocks::ends_character.exit.i"
                                        //   in Loop: Header=BB20_6 Depth=1
	ldurb	w14, [x13, #-3]
	cmp	w14, #239
	b.hi	.LBB20_16
// %bb.10:                              // %then.10.i.i
                                        //   in Loop: Header=BB20_6 Depth=1
	add	x13, x12, #64
	sub	x11, x8, x13
	cmp	x11, #128
	b.lo	.LBB20_14
.LBB20_11:                              // %join.5.i21.i
                                        //   Parent Loop BB20_6 Depth=1
                                        // =>  This Inner Loop Header: Depth=2
	add	x13, x0, x12
	ldp	q2, q1, [x13, #64]
	ldp	q4, q3, [x13, #96]
	ldp	q6, q5, [x13, #128]
	ldp	q16, q7, [x13, #160]
	orr	v2.16b, v4.16b, v2.16b
	orr	v1.16b, v3.16b, v1.16b
	orr	v3.16b, v16.16b, v6.16b
	orr	v4.16b, v7.16b, v5.16b
	cmlt	v2.16b, v2.16b, #0
	cmlt	v1.16b, v1.16b, #0
	cmlt	v4.16b, v4.16b, #0
	cmlt	v3.16b, v3.16b, #0
	and	v2.16b, v2.16b, v0.16b
	and	v1.16b, v1.16b, v0.16b
	and	v3.16b, v3.16b, v0.16b
	and	v4.16b, v4.16b, v0.16b
	addp	v1.16b, v2.16b, v1.16b
	addp	v2.16b, v3.16b, v4.16b
	addp	v1.16b, v1.16b, v1.16b
	addp	v2.16b, v2.16b, v2.16b
	addp	v1.16b, v1.16b, v1.16b
	addp	v2.16b, v2.16b, v2.16b
	orr	v2.16b, v2.16b, v1.16b
	fmov	w13, s2
	cbnz	w13, .LBB20_25
// %bb.12:                              // %join.8.i.i
                                        //   in Loop: Header=BB20_11 Depth=2
	sub	x11, x11, #128
	add	x12, x12, #128
	cmp	x11, #127
	b.hi	.LBB20_11
// %bb.13:                              // %"utf_lanes::ascii_texts::ascii_end::<=2>.exit.i.loopexit"
                                        //   in Loop: Header=BB20_6 Depth=1
	add	x13, x12, #64
.LBB20_14:                              // %"utf_lanes::ascii_texts::ascii_end::<=2>.exit.i"
                                        //   in Loop: Header=BB20_6 Depth=1
	cmp	x11, #64
	b.lo	.LBB20_24
// %bb.15:                              // %"utf_lanes::ascii_texts::ascii_end::<=2>.exit.i.then.2.i.i_crit_edge"
                                        //   in Loop: Header=BB20_6 Depth=1
	add	x11, x0, x13
	ldp	q2, q1, [x11]
	ldp	q4, q3, [x11, #32]
	orr	v2.16b, v4.16b, v2.16b
	orr	v1.16b, v3.16b, v1.16b
	cmlt	v1.16b, v1.16b, #0
	cmlt	v2.16b, v2.16b, #0
	and	v2.16b, v2.16b, v0.16b
	and	v0.16b, v1.16b, v0.16b
	addp	v0.16b, v2.16b, v0.16b
	addp	v0.16b, v0.16b, v0.16b
	addp	v0.16b, v0.16b, v0.16b
	fmov	w14, s0
	b	.LBB20_26
.LBB20_16:                              // %join.9.i.i
                                        //   in Loop: Header=BB20_6 Depth=1
	ldur	q3, [x13, #-1]
	ldur	q7, [x13, #15]
	adrp	x14, .LCPI20_1
	ushr	v18.16b, v2.16b, #4
	ushr	v21.16b, v1.16b, #4
	adrp	x15, .LCPI20_3
	ushr	v19.16b, v7.16b, #4
	ushr	v20.16b, v3.16b, #4
	ldr	q1, [x14, :lo12:.LCPI20_1]
	ldr	q2, [x15, :lo12:.LCPI20_3]
	movi	v22.16b, #96
	movi	v6.16b, #15
	movi	v23.16b, #112
	ldur	q25, [x13, #14]
	ldur	q16, [x13, #-2]
	tbl	v20.16b, { v1.16b }, v20.16b
	tbl	v19.16b, { v1.16b }, v19.16b
	tbl	v21.16b, { v2.16b }, v21.16b
	tbl	v18.16b, { v2.16b }, v18.16b
	ldur	q17, [x13, #-3]
	ldur	q26, [x13, #13]
	adrp	x14, .LCPI20_2
	and	v7.16b, v7.16b, v6.16b
	uqsub	v16.16b, v16.16b, v22.16b
	uqsub	v17.16b, v17.16b, v23.16b
	and	v24.16b, v3.16b, v6.16b
	ldr	q3, [x14, :lo12:.LCPI20_2]
	and	v20.16b, v20.16b, v21.16b
	ldur	q21, [x13, #31]
	uqsub	v26.16b, v26.16b, v23.16b
	and	v18.16b, v19.16b, v18.16b
	uqsub	v19.16b, v25.16b, v22.16b
	ldur	q25, [x13, #47]
	ushr	v29.16b, v21.16b, #4
	ushr	v5.16b, v5.16b, #4
	ushr	v4.16b, v4.16b, #4
	ushr	v28.16b, v25.16b, #4
	ldur	q27, [x13, #30]
	ldur	q30, [x13, #46]
	ldur	q31, [x13, #29]
	and	v25.16b, v25.16b, v6.16b
	and	v6.16b, v21.16b, v6.16b
	ldur	q21, [x13, #45]
	tbl	v7.16b, { v3.16b }, v7.16b
	tbl	v24.16b, { v3.16b }, v24.16b
	orr	v16.16b, v17.16b, v16.16b
	movi	v17.16b, #128
	tbl	v29.16b, { v1.16b }, v29.16b
	tbl	v28.16b, { v1.16b }, v28.16b
	tbl	v4.16b, { v2.16b }, v4.16b
	tbl	v5.16b, { v2.16b }, v5.16b
	uqsub	v30.16b, v30.16b, v22.16b
	uqsub	v22.16b, v27.16b, v22.16b
	uqsub	v21.16b, v21.16b, v23.16b
	uqsub	v23.16b, v31.16b, v23.16b
	orr	v19.16b, v26.16b, v19.16b
	add	x13, x12, x11
	and	v7.16b, v7.16b, v18.16b
	tbl	v6.16b, { v3.16b }, v6.16b
	cmp	x9, x13
	tbl	v18.16b, { v3.16b }, v25.16b
	and	v20.16b, v24.16b, v20.16b
	csel	x14, x9, x13, lo
	and	v16.16b, v16.16b, v17.16b
	and	v4.16b, v29.16b, v4.16b
	and	v5.16b, v28.16b, v5.16b
	and	v19.16b, v19.16b, v17.16b
	orr	v22.16b, v23.16b, v22.16b
	orr	v21.16b, v21.16b, v30.16b
	and	v4.16b, v6.16b, v4.16b
	and	v5.16b, v18.16b, v5.16b
	cmeq	v6.16b, v20.16b, v16.16b
	and	v16.16b, v21.16b, v17.16b
	and	v17.16b, v22.16b, v17.16b
	cmeq	v7.16b, v7.16b, v19.16b
	mvn	v6.16b, v6.16b
	mvn	v7.16b, v7.16b
	cmeq	v4.16b, v4.16b, v17.16b
	cmeq	v5.16b, v5.16b, v16.16b
	orn	v5.16b, v7.16b, v5.16b
	orn	v4.16b, v6.16b, v4.16b
	and	v4.16b, v4.16b, v0.16b
	and	v5.16b, v5.16b, v0.16b
	addp	v4.16b, v4.16b, v5.16b
	addp	v4.16b, v4.16b, v4.16b
	addp	v4.16b, v4.16b, v4.16b
	fmov	w15, s4
	cbz	w15, .LBB20_18
// %bb.17:                              //   in Loop: Header=BB20_6 Depth=1
	mov	x13, x12
	b	.LBB20_21
.LBB20_18:                              // %loop.5.i.i.preheader
                                        //   in Loop: Header=BB20_6 Depth=1
	add	x15, x12, #64
	add	x12, x10, x12
.LBB20_19:                              // %loop.5.i.i
                                        //   Parent Loop BB20_6 Depth=1
                                        // =>  This Inner Loop Header: Depth=2
	mov	x13, x15
	cmp	x15, x14
	b.hi	.LBB20_21
// %bb.20:                              // %join.8.i42.i
                                        //   in Loop: Header=BB20_19 Depth=2
	ldp	q7, q17, [x12, #-32]
	movi	v5.16b, #96
	ldur	q18, [x12, #-17]
	movi	v6.16b, #112
	ldur	q16, [x12, #-33]
	ldur	q21, [x12, #-34]
	ldur	q22, [x12, #-35]
	movi	v4.16b, #15
	ushr	v20.16b, v18.16b, #4
	ushr	v17.16b, v17.16b, #4
	ushr	v19.16b, v16.16b, #4
	ushr	v7.16b, v7.16b, #4
	uqsub	v21.16b, v21.16b, v5.16b
	ldur	q23, [x12, #-18]
	uqsub	v22.16b, v22.16b, v6.16b
	ldp	q25, q26, [x12]
	tbl	v20.16b, { v1.16b }, v20.16b
	tbl	v17.16b, { v2.16b }, v17.16b
	tbl	v19.16b, { v1.16b }, v19.16b
	tbl	v7.16b, { v2.16b }, v7.16b
	and	v16.16b, v16.16b, v4.16b
	ldur	q24, [x12, #-19]
	and	v18.16b, v18.16b, v4.16b
	uqsub	v23.16b, v23.16b, v5.16b
	ushr	v26.16b, v26.16b, #4
	ushr	v25.16b, v25.16b, #4
	ldur	q27, [x12, #-2]
	ldur	q30, [x12, #14]
	and	v17.16b, v20.16b, v17.16b
	orr	v20.16b, v22.16b, v21.16b
	ldur	q21, [x12, #-1]
	ldur	q22, [x12, #15]
	tbl	v16.16b, { v3.16b }, v16.16b
	and	v7.16b, v19.16b, v7.16b
	uqsub	v19.16b, v24.16b, v6.16b
	ushr	v29.16b, v21.16b, #4
	ldur	q31, [x12, #-3]
	ushr	v28.16b, v22.16b, #4
	and	v22.16b, v22.16b, v4.16b
	and	v4.16b, v21.16b, v4.16b
	ldur	q21, [x12, #13]
	tbl	v18.16b, { v3.16b }, v18.16b
	movi	v24.16b, #128
	tbl	v29.16b, { v1.16b }, v29.16b
	tbl	v25.16b, { v2.16b }, v25.16b
	tbl	v26.16b, { v2.16b }, v26.16b
	tbl	v28.16b, { v1.16b }, v28.16b
	uqsub	v30.16b, v30.16b, v5.16b
	add	x15, x13, #64
	uqsub	v5.16b, v27.16b, v5.16b
	uqsub	v21.16b, v21.16b, v6.16b
	add	x12, x12, #64
	uqsub	v6.16b, v31.16b, v6.16b
	and	v7.16b, v16.16b, v7.16b
	orr	v16.16b, v19.16b, v23.16b
	and	v17.16b, v18.16b, v17.16b
	tbl	v4.16b, { v3.16b }, v4.16b
	tbl	v18.16b, { v3.16b }, v22.16b
	and	v19.16b, v20.16b, v24.16b
	and	v20.16b, v29.16b, v25.16b
	and	v22.16b, v28.16b, v26.16b
	and	v16.16b, v16.16b, v24.16b
	orr	v5.16b, v6.16b, v5.16b
	orr	v6.16b, v21.16b, v30.16b
	and	v4.16b, v4.16b, v20.16b
	and	v18.16b, v18.16b, v22.16b
	cmeq	v7.16b, v7.16b, v19.16b
	cmeq	v16.16b, v17.16b, v16.16b
	and	v6.16b, v6.16b, v24.16b
	and	v5.16b, v5.16b, v24.16b
	mvn	v7.16b, v7.16b
	mvn	v16.16b, v16.16b
	cmeq	v4.16b, v4.16b, v5.16b
	cmeq	v5.16b, v18.16b, v6.16b
	orn	v5.16b, v16.16b, v5.16b
	orn	v4.16b, v7.16b, v4.16b
	and	v4.16b, v4.16b, v0.16b
	and	v5.16b, v5.16b, v0.16b
	addp	v4.16b, v4.16b, v5.16b
	addp	v4.16b, v4.16b, v4.16b
	addp	v4.16b, v4.16b, v4.16b
	fmov	w16, s4
	cbz	w16, .LBB20_19
.LBB20_21:                              // %"utf_lanes::text_blocks::batch_end.exit.i"
                                        //   in Loop: Header=BB20_6 Depth=1
	cmp	x13, x14
	b.ls	.LBB20_27
// %bb.22:                              // %join.16.i.i
                                        //   in Loop: Header=BB20_6 Depth=1
	lsl	x11, x11, #1
	mov	w12, #960                       // =0x3c0
	add	x11, x11, #64
	cmp	x11, #960
	csel	x11, x11, x12, lo
.LBB20_23:                              // %after.6.i.i
                                        //   in Loop: Header=BB20_6 Depth=1
	sub	x12, x8, x13
	cmp	x12, #63
	mov	x12, x13
	b.hi	.LBB20_6
	b	.LBB20_27
.LBB20_24:                              //   in Loop: Header=BB20_6 Depth=1
	mov	x11, xzr
	b	.LBB20_23
.LBB20_25:                              // %then.2.i.i.loopexit
                                        //   in Loop: Header=BB20_6 Depth=1
	fmov	w14, s1
	add	x13, x12, #64
.LBB20_26:                              // %then.2.i.i
                                        //   in Loop: Header=BB20_6 Depth=1
	add	x12, x13, #64
	cmp	w14, #0
	mov	x11, xzr
	csel	x13, x12, x13, eq
	b	.LBB20_23
.LBB20_27:                              // %"utf_lanes::text_blocks::valid_len_in_batches.exit.i"
	add	x9, x13, x0
	sub	x8, x13, x2
	sub	x9, x9, #1
.LBB20_28:                              // %loop.2.i56.i
                                        // =>This Inner Loop Header: Depth=1
	cbz	x8, .LBB20_30
// %bb.29:                              // %join.5.i58.i
                                        //   in Loop: Header=BB20_28 Depth=1
	ldrsb	w10, [x9], #-1
	sub	x8, x8, #1
	cmn	w10, #64
	b.lt	.LBB20_28
.LBB20_30:                              // %"utf_lanes::text_blocks::text_end.exit"
	add	x2, x8, x2
.LBB20_31:                              // %common.ret
	mov	x0, x2
	ret
.Lfunc_end20:
	.size	"recoding::kernels::next_text_end", .Lfunc_end20-"recoding::kernels::next_text_end"
	.cfi_endproc
                                        // -- End function
	.section	".text.recoding::engine::recode_faults::<#e51b733afd1efe0d>","ax",@progbits
	.p2align	2                               // -- Begin function recoding::engine::recode_faults::<#e51b733afd1efe0d>
	.type	"recoding::engine::recode_faults::<#e51b733afd1efe0d>",@function
"recoding::engine::recode_faults::<#e51b733afd1efe0d>": // @"recoding::engine::recode_faults::<#e51b733afd1efe0d>"
	.cfi_startproc
// %bb.0:                               // %start
	sub	sp, sp, #128
	.cfi_def_cfa_offset 128
	stp	x29, x30, [sp, #32]             // 16-byte Folded Spill
	stp	x28, x27, [sp, #48]             // 16-byte Folded Spill
	stp	x26, x25, [sp, #64]             // 16-byte Folded Spill
	stp	x24, x23, [sp, #80]             // 16-byte Folded Spill
	stp	x22, x21, [sp, #96]             // 16-byte Folded Spill
	stp	x20, x19, [sp, #112]            // 16-byte Folded Spill
	add	x29, sp, #32
	.cfi_def_cfa w29, 96
	.cfi_offset w19, -8
	.cfi_offset w20, -16
	.cfi_offset w21, -24
	.cfi_offset w22, -32
	.cfi_offset w23, -40
	.cfi_offset w24, -48
	.cfi_offset w25, -56
	.cfi_offset w26, -64
	.cfi_offset w27, -72
	.cfi_offset w28, -80
	.cfi_offset w30, -88
	.cfi_offset w29, -96
	.cfi_remember_state
	mov	x20, x3
	mov	x25, xzr
	mov	x21, xzr
	mov	w16, #16                        // =0x10
	stur	x0, [x29, #-8]                  // 8-byte Folded Spill
	b	.LBB21_4
.LBB21_1:                               // %arm.10.i.i
                                        //   in Loop: Header=BB21_4 Depth=1
	add	x0, x1, x25
	mov	x22, x1
	sub	x1, x2, x25
	mov	x19, x2
	bl	"recoding::next_scalar::is_front_of_code"
	mov	x1, x22
	mov	x2, x19
	cbnz	w0, .LBB21_46
.LBB21_2:                               // %"recoding::text::Utf8Text::put_any::<#345d457c2768aa28>.exit"
                                        //   in Loop: Header=BB21_4 Depth=1
	ldp	x9, x8, [x20]
	mov	w10, #239                       // =0xef
	cmp	x28, #32
	mov	w11, #189                       // =0xbd
	add	x21, x21, #1
	strb	w10, [x9, x8]
	mov	w10, #191                       // =0xbf
	ldr	x9, [x20]
	add	x9, x9, x8
	strb	w10, [x9, #1]
	mov	w10, #32                        // =0x20
	ldr	x9, [x20]
	csel	x16, x28, x10, lo
	add	x9, x9, x8
	add	x8, x8, #3
	strb	w11, [x9, #2]
	str	x8, [x20, #8]
	mov	w8, #1                          // =0x1
.LBB21_3:                               // %join.12
                                        //   in Loop: Header=BB21_4 Depth=1
	add	x25, x8, x25
	cmp	x25, x16
	b.hs	.LBB21_44
.LBB21_4:                               // %join.5
                                        // =>This Inner Loop Header: Depth=1
	add	x28, x25, #4
	add	x19, x1, x25
	cmp	x28, x2
	b.ls	.LBB21_6
// %bb.5:                               // %join.3.i59
                                        //   in Loop: Header=BB21_4 Depth=1
	sub	x26, x2, x25
	cmp	x26, #4
	b.lo	.LBB21_16
.LBB21_6:                               // %then.1.i54
                                        //   in Loop: Header=BB21_4 Depth=1
	ldrsb	w8, [x19]
	and	w27, w8, #0xff
	tbnz	w8, #31, .LBB21_9
.LBB21_7:                               // %"utf_chars::codes::utf8::decode_start.exit.i.thread475"
                                        //   in Loop: Header=BB21_4 Depth=1
	mov	w8, #1                          // =0x1
.LBB21_8:                               // %then.1.i38
                                        //   in Loop: Header=BB21_4 Depth=1
	ldp	x10, x9, [x20]
	strb	w27, [x10, x9]
	add	x9, x9, #1
	str	x9, [x20, #8]
	b	.LBB21_3
.LBB21_9:                               // %join.6.i104.i
                                        //   in Loop: Header=BB21_4 Depth=1
	ldrb	w8, [x19, #1]
	cmp	w27, #224
	b.hs	.LBB21_20
// %bb.10:                              // %"utf_lanes::text_front::front_of_text.exit139.i"
                                        //   in Loop: Header=BB21_4 Depth=1
	cmp	w27, #194
	b.lo	.LBB21_2
// %bb.11:                              // %"utf_lanes::text_front::front_of_text.exit139.i"
                                        //   in Loop: Header=BB21_4 Depth=1
	eor	w8, w8, #0x80
	cmp	w8, #63
	b.hi	.LBB21_2
// %bb.12:                              //   in Loop: Header=BB21_4 Depth=1
	add	w8, w8, w27, lsl #6
	sub	w27, w8, #3, lsl #12            // =12288
	mov	w8, #2                          // =0x2
.LBB21_13:                              // %arm.10
                                        //   in Loop: Header=BB21_4 Depth=1
	cmp	w27, #128
	b.lo	.LBB21_8
// %bb.14:                              // %join.3.i
                                        //   in Loop: Header=BB21_4 Depth=1
	mov	w9, #128                        // =0x80
	cmp	w27, #2048
	bfxil	w9, w27, #0, #6
	b.hs	.LBB21_31
// %bb.15:                              // %then.4.i
                                        //   in Loop: Header=BB21_4 Depth=1
	ldp	x12, x11, [x20]
	lsr	w10, w27, #6
	orr	w10, w10, #0xc0
	strb	w10, [x12, x11]
	ldr	x10, [x20]
	add	x10, x10, x11
	add	x11, x11, #2
	strb	w9, [x10, #1]
	b	.LBB21_34
.LBB21_16:                              // %join.3.i.i
                                        //   in Loop: Header=BB21_4 Depth=1
	cmp	x2, x25
	b.eq	.LBB21_1
// %bb.17:                              // %join.3.i316.i
                                        //   in Loop: Header=BB21_4 Depth=1
	ldrb	w27, [x19]
	adrp	x24, .Lstatic.8
	add	x24, x24, :lo12:.Lstatic.8
	adrp	x22, .Lstatic.9
	add	x22, x22, :lo12:.Lstatic.9
	ldrb	w8, [x24, x27]
	ldrb	w23, [x22, x8]
	cmp	x23, #12
	b.ls	.LBB21_35
// %bb.18:                              // %join.6.i321.i
                                        //   in Loop: Header=BB21_4 Depth=1
	cmp	w23, #13
	b.ne	.LBB21_2
// %bb.19:                              // %join.9.i323.i
                                        //   in Loop: Header=BB21_4 Depth=1
	tbz	w27, #7, .LBB21_7
	b	.LBB21_47
.LBB21_20:                              // %join.9.i106.i
                                        //   in Loop: Header=BB21_4 Depth=1
	sxtb	w9, w8
	cmn	w9, #65
	b.gt	.LBB21_2
// %bb.21:                              // %join.12.i113.i
                                        //   in Loop: Header=BB21_4 Depth=1
	and	w8, w8, #0x3f
	cmp	w27, #239
	bfi	w8, w27, #6, #4
	b.hi	.LBB21_26
// %bb.22:                              // %then.13.i125.i
                                        //   in Loop: Header=BB21_4 Depth=1
	and	w9, w8, #0x3e0
	cmp	w9, #864
	b.eq	.LBB21_2
// %bb.23:                              // %join.3.i187.i
                                        //   in Loop: Header=BB21_4 Depth=1
	ldrsb	w9, [x19, #2]
	cmn	w9, #65
	b.gt	.LBB21_2
// %bb.24:                              // %join.3.i187.i
                                        //   in Loop: Header=BB21_4 Depth=1
	cmp	w8, #32
	b.lo	.LBB21_2
// %bb.25:                              // %join.9.i191.i
                                        //   in Loop: Header=BB21_4 Depth=1
	and	w9, w9, #0xff
	and	w9, w9, #0x3f
	orr	w27, w9, w8, lsl #6
	mov	w8, #3                          // =0x3
	b	.LBB21_30
.LBB21_26:                              // %else.14.i116.i
                                        //   in Loop: Header=BB21_4 Depth=1
	sub	w9, w8, #272
	cmn	w9, #256
	b.lo	.LBB21_2
// %bb.27:                              // %after.1.i.i
                                        //   in Loop: Header=BB21_4 Depth=1
	ldrsb	w9, [x19, #2]
	cmn	w9, #65
	b.gt	.LBB21_2
// %bb.28:                              // %else.14.i254.i
                                        //   in Loop: Header=BB21_4 Depth=1
	ldrsb	w10, [x19, #3]
	cmn	w10, #65
	b.gt	.LBB21_2
// %bb.29:                              // %after.11.i.i
                                        //   in Loop: Header=BB21_4 Depth=1
	lsl	w27, w8, #12
	and	w8, w10, #0xff
	bfi	w27, w9, #6, #6
	bfxil	w27, w8, #0, #6
	mov	w8, #4                          // =0x4
.LBB21_30:                              // %join.3.i.thread
                                        //   in Loop: Header=BB21_4 Depth=1
	mov	w9, #128                        // =0x80
	bfxil	w9, w27, #0, #6
.LBB21_31:                              // %join.7.i
                                        //   in Loop: Header=BB21_4 Depth=1
	mov	w10, #128                       // =0x80
	cmp	w27, #16, lsl #12               // =65536
	bfxil	w10, w27, #6, #6
	b.hs	.LBB21_33
// %bb.32:                              // %then.7.i
                                        //   in Loop: Header=BB21_4 Depth=1
	ldp	x13, x12, [x20]
	lsr	w11, w27, #12
	orr	w11, w11, #0xe0
	strb	w11, [x13, x12]
	ldr	x11, [x20]
	add	x11, x11, x12
	strb	w10, [x11, #1]
	add	x11, x12, #3
	ldr	x10, [x20]
	add	x10, x10, x12
	strb	w9, [x10, #2]
	b	.LBB21_34
.LBB21_33:                              // %join.9.i
                                        //   in Loop: Header=BB21_4 Depth=1
	lsr	w11, w27, #18
	lsr	w12, w27, #4
	ldp	x14, x13, [x20]
	add	w11, w11, #240
	and	w12, w12, #0x3f00
	strb	w11, [x14, x13]
	add	w11, w11, w12
	ldr	x12, [x20]
	add	w11, w11, #8, lsl #12           // =32768
	lsr	w14, w11, #8
	add	w10, w10, w11, lsr #16
	add	x12, x12, x13
	strb	w14, [x12, #1]
	ldr	x12, [x20]
	add	x11, x12, x13
	strb	w10, [x11, #2]
	add	x11, x13, #4
	ldr	x10, [x20]
	add	x10, x10, x13
	strb	w9, [x10, #3]
.LBB21_34:                              // %join.12
                                        //   in Loop: Header=BB21_4 Depth=1
	str	x11, [x20, #8]
	b	.LBB21_3
.LBB21_35:                              // %then.4.i333.i
                                        //   in Loop: Header=BB21_4 Depth=1
	mov	w0, w23
	stp	x1, x2, [sp, #8]                // 16-byte Folded Spill
	str	x16, [sp]                       // 8-byte Spill
	bl	"utf_chars::codes::utf8::missing_after"
	ldp	x16, x1, [sp]                   // 16-byte Folded Reload
	cmp	x26, x0
	ldr	x2, [sp, #16]                   // 8-byte Reload
	b.ls	.LBB21_1
// %bb.36:                              // %join.3.i351.i
                                        //   in Loop: Header=BB21_4 Depth=1
	ldrb	w8, [x19, #1]
	add	x10, x22, x23, lsl #4
	ldrb	w9, [x24, x8]
	ldrb	w10, [x10, x9]
	cmp	w10, #12
	b.hi	.LBB21_40
// %bb.37:                              // %then.1.i379.i
                                        //   in Loop: Header=BB21_4 Depth=1
	ldrb	w9, [x19, #2]
	add	x10, x22, x10, lsl #4
	ldrb	w11, [x24, x9]
	ldrb	w11, [x10, x11]
	cmp	w11, #12
	b.hi	.LBB21_42
// %bb.38:                              // %then.1.i418.i
                                        //   in Loop: Header=BB21_4 Depth=1
	ldrb	w10, [x19, #3]
	add	x11, x22, x11, lsl #4
	ldrb	w12, [x24, x10]
	ldrb	w11, [x11, x12]
	cmp	w11, #13
	b.ne	.LBB21_2
// %bb.39:                              // %join.3.i436.i
                                        //   in Loop: Header=BB21_4 Depth=1
	ubfiz	w11, w27, #12, #3
	bfi	w11, w8, #6, #6
	and	w8, w10, #0x3f
	bfxil	w11, w9, #0, #6
	orr	w27, w8, w11, lsl #6
	mov	w8, #4                          // =0x4
	b	.LBB21_13
.LBB21_40:                              // %join.3.i366.i
                                        //   in Loop: Header=BB21_4 Depth=1
	cmp	w10, #13
	b.ne	.LBB21_2
// %bb.41:                              // %"utf_chars::codes::utf8::decode_start.exit.i.thread556"
                                        //   in Loop: Header=BB21_4 Depth=1
	and	w9, w8, #0x3f
	mov	w8, #2                          // =0x2
	bfi	w9, w27, #6, #5
	mov	w27, w9
	b	.LBB21_13
.LBB21_42:                              // %join.3.i399.i
                                        //   in Loop: Header=BB21_4 Depth=1
	cmp	w11, #13
	b.ne	.LBB21_2
// %bb.43:                              // %join.6.i401.i
                                        //   in Loop: Header=BB21_4 Depth=1
	ubfiz	w27, w27, #12, #4
	bfi	w27, w8, #6, #6
	mov	w8, #3                          // =0x3
	bfxil	w27, w9, #0, #6
	b	.LBB21_13
.LBB21_44:                              // %after.1
	ldur	x8, [x29, #-8]                  // 8-byte Folded Reload
	stp	x25, x21, [x8]
	str	xzr, [x8, #16]
	.cfi_def_cfa wsp, 128
.LBB21_45:                              // %after.1
	ldp	x20, x19, [sp, #112]            // 16-byte Folded Reload
	ldp	x22, x21, [sp, #96]             // 16-byte Folded Reload
	ldp	x24, x23, [sp, #80]             // 16-byte Folded Reload
	ldp	x26, x25, [sp, #64]             // 16-byte Folded Reload
	ldp	x28, x27, [sp, #48]             // 16-byte Folded Reload
	ldp	x29, x30, [sp, #32]             // 16-byte Folded Reload
	add	sp, sp, #128
	.cfi_def_cfa_offset 0
	.cfi_restore w19
	.cfi_restore w20
	.cfi_restore w21
	.cfi_restore w22
	.cfi_restore w23
	.cfi_restore w24
	.cfi_restore w25
	.cfi_restore w26
	.cfi_restore w27
	.cfi_restore w28
	.cfi_restore w30
	.cfi_restore w29
	ret
.LBB21_46:                              // %arm.7
	.cfi_restore_state
	.cfi_remember_state
	ldur	x9, [x29, #-8]                  // 8-byte Folded Reload
	mov	w8, #256                        // =0x100
	stp	x25, x21, [x9]
	strh	w8, [x9, #16]
	stur	wzr, [x9, #18]
	strh	wzr, [x9, #22]
	.cfi_def_cfa wsp, 128
	b	.LBB21_45
.LBB21_47:                              // %join.4.i.i
	.cfi_restore_state
	brk	#0x1
.Lfunc_end21:
	.size	"recoding::engine::recode_faults::<#e51b733afd1efe0d>", .Lfunc_end21-"recoding::engine::recode_faults::<#e51b733afd1efe0d>"
	.cfi_endproc
                                        // -- End function
	.section	.rodata.cst16,"aM",@progbits,16
	.p2align	4, 0x0                          // -- Begin function recoding::recoder_runs::run_whole::<#2857ed0d0693875d>
.LCPI22_0:
	.byte	1                               // 0x1
	.byte	2                               // 0x2
	.byte	4                               // 0x4
	.byte	8                               // 0x8
	.byte	16                              // 0x10
	.byte	32                              // 0x20
	.byte	64                              // 0x40
	.byte	128                             // 0x80
	.byte	1                               // 0x1
	.byte	2                               // 0x2
	.byte	4                               // 0x4
	.byte	8                               // 0x8
	.byte	16                              // 0x10
	.byte	32                              // 0x20
	.byte	64                              // 0x40
	.byte	128                             // 0x80
	.section	".text.recoding::recoder_runs::run_whole::<#2857ed0d0693875d>","ax",@progbits
	.p2align	2
	.type	"recoding::recoder_runs::run_whole::<#2857ed0d0693875d>",@function
"recoding::recoder_runs::run_whole::<#2857ed0d0693875d>": // @"recoding::recoder_runs::run_whole::<#2857ed0d0693875d>"
	.cfi_startproc
// %bb.0:                               // %start
	sub	sp, sp, #288
	.cfi_def_cfa_offset 288
	stp	x29, x30, [sp, #192]            // 16-byte Folded Spill
	stp	x28, x27, [sp, #208]            // 16-byte Folded Spill
	stp	x26, x25, [sp, #224]            // 16-byte Folded Spill
	stp	x24, x23, [sp, #240]            // 16-byte Folded Spill
	stp	x22, x21, [sp, #256]            // 16-byte Folded Spill
	stp	x20, x19, [sp, #272]            // 16-byte Folded Spill
	add	x29, sp, #192
	.cfi_def_cfa w29, 96
	.cfi_offset w19, -8
	.cfi_offset w20, -16
	.cfi_offset w21, -24
	.cfi_offset w22, -32
	.cfi_offset w23, -40
	.cfi_offset w24, -48
	.cfi_offset w25, -56
	.cfi_offset w26, -64
	.cfi_offset w27, -72
	.cfi_offset w28, -80
	.cfi_offset w30, -88
	.cfi_offset w29, -96
	mov	x22, x2
	mov	x21, x1
	mov	x23, x0
	mov	x20, xzr
	stp	xzr, xzr, [sp]                  // 16-byte Folded Spill
	stp	x0, x1, [sp, #32]               // 16-byte Folded Spill
	str	x2, [sp, #88]                   // 8-byte Spill
	b	.LBB22_4
.LBB22_1:                               // %else.4.i
                                        //   in Loop: Header=BB22_4 Depth=1
	ldp	q1, q0, [x25]
	mov	x27, xzr
	ldp	q3, q2, [x25, #32]
	ldr	q4, [x8, :lo12:.LCPI22_0]
	orr	v1.16b, v3.16b, v1.16b
	orr	v0.16b, v2.16b, v0.16b
	cmlt	v0.16b, v0.16b, #0
	cmlt	v1.16b, v1.16b, #0
	and	v1.16b, v1.16b, v4.16b
	and	v0.16b, v0.16b, v4.16b
	addp	v0.16b, v1.16b, v0.16b
	addp	v0.16b, v0.16b, v0.16b
	addp	v0.16b, v0.16b, v0.16b
	fmov	w8, s0
	cbz	w8, .LBB22_15
.LBB22_2:                               // %"recoding::ascii_to_utf16::put_ascii_front::<#b3a77c927faee343>.exit"
                                        //   in Loop: Header=BB22_4 Depth=1
	sub	x1, x24, x27
	add	x0, x25, x27
	mov	x2, x22
	bl	"recoding::kernels::put_judged::<#87c24961b7620b58>"
	add	x0, x0, x27
.LBB22_3:                               // %"recoding::kernels::WidenedKernelUtf8Utf16::put_text::<#a02055794059cfb2>.exit"
                                        //   in Loop: Header=BB22_4 Depth=1
	lsr	x8, x0, #2
	add	x20, x0, x20
	cmp	x8, #2046
	b.ls	.LBB22_42
.LBB22_4:                               // %loop.2.i
                                        // =>This Loop Header: Depth=1
                                        //     Child Loop BB22_12 Depth 2
                                        //     Child Loop BB22_23 Depth 2
                                        //     Child Loop BB22_8 Depth 2
                                        //     Child Loop BB22_33 Depth 2
                                        //     Child Loop BB22_16 Depth 2
                                        //     Child Loop BB22_40 Depth 2
                                        //     Child Loop BB22_54 Depth 2
	sub	x9, x21, x20
	mov	w8, #8192                       // =0x2000
	add	x25, x23, x20
	cmp	x9, #2, lsl #12                 // =8192
	csel	x24, x9, x8, lo
	cmp	x9, #1024
	adrp	x8, .LCPI22_0
	b.hi	.LBB22_1
// %bb.5:                               // %then.11.i
                                        //   in Loop: Header=BB22_4 Depth=1
	cmp	x9, #17
	b.hs	.LBB22_10
// %bb.6:                               // %then.1.i.i
                                        //   in Loop: Header=BB22_4 Depth=1
	cmp	x9, #3
	b.hi	.LBB22_18
// %bb.7:                               // %loop.2.i.i.preheader
                                        //   in Loop: Header=BB22_4 Depth=1
	cmp	x21, x20
	mov	x10, x24
	add	x11, x23, x20
	b.eq	.LBB22_20
.LBB22_8:                               // %join.5.i.i
                                        //   Parent Loop BB22_4 Depth=1
                                        // =>  This Inner Loop Header: Depth=2
	ldrsb	w12, [x11], #1
	tbnz	w12, #31, .LBB22_26
// %bb.9:                               // %loop.2.i.i
                                        //   in Loop: Header=BB22_8 Depth=2
	subs	x10, x10, #1
	b.ne	.LBB22_8
	b	.LBB22_31
.LBB22_10:                              // %loop.2.i41.i.preheader
                                        //   in Loop: Header=BB22_4 Depth=1
	cmp	x9, #64
	b.lo	.LBB22_21
// %bb.11:                              // %join.5.i44.i.preheader
                                        //   in Loop: Header=BB22_4 Depth=1
	mov	x10, xzr
	mov	x11, x24
.LBB22_12:                              // %join.5.i44.i
                                        //   Parent Loop BB22_4 Depth=1
                                        // =>  This Inner Loop Header: Depth=2
	add	x12, x25, x10
	ldp	q1, q0, [x12]
	ldp	q3, q2, [x12, #32]
	orr	v1.16b, v3.16b, v1.16b
	orr	v0.16b, v2.16b, v0.16b
	ldr	q2, [x8, :lo12:.LCPI22_0]
	cmlt	v0.16b, v0.16b, #0
	cmlt	v1.16b, v1.16b, #0
	and	v1.16b, v1.16b, v2.16b
	and	v0.16b, v0.16b, v2.16b
	addp	v0.16b, v1.16b, v0.16b
	addp	v0.16b, v0.16b, v0.16b
	addp	v0.16b, v0.16b, v0.16b
	fmov	w12, s0
	cbnz	w12, .LBB22_14
// %bb.13:                              // %join.8.i45.i
                                        //   in Loop: Header=BB22_12 Depth=2
	sub	x11, x11, #64
	add	x10, x10, #64
	cmp	x11, #63
	b.hi	.LBB22_12
.LBB22_14:                              // %"utf_lanes::ascii_texts::ascii_end::<=1>.exit.i"
                                        //   in Loop: Header=BB22_4 Depth=1
	sub	x11, x24, x10
	cmp	x11, #16
	b.hs	.LBB22_22
	b	.LBB22_25
.LBB22_15:                              // %then.13.i.preheader
                                        //   in Loop: Header=BB22_4 Depth=1
	mov	x19, x24
	str	q4, [sp, #64]                   // 16-byte Spill
.LBB22_16:                              // %then.13.i
                                        //   Parent Loop BB22_4 Depth=1
                                        // =>  This Inner Loop Header: Depth=2
	add	x8, x25, x27
	ldp	q1, q0, [x8, #64]
	ldp	q3, q2, [x8, #96]
	orr	v1.16b, v3.16b, v1.16b
	orr	v0.16b, v2.16b, v0.16b
	cmlt	v0.16b, v0.16b, #0
	cmlt	v1.16b, v1.16b, #0
	and	v1.16b, v1.16b, v4.16b
	and	v0.16b, v0.16b, v4.16b
	addp	v0.16b, v1.16b, v0.16b
	addp	v0.16b, v0.16b, v0.16b
	addp	v0.16b, v0.16b, v0.16b
	fmov	w9, s0
	cbnz	w9, .LBB22_2
// %bb.17:                              // %join.15.i
                                        //   in Loop: Header=BB22_16 Depth=2
	movi	v3.2d, #0000000000000000
	ldp	q0, q1, [x8, #32]
	ldp	q2, q4, [x8]
	mov	x0, x22
	zip1	v5.16b, v0.16b, v3.16b
	zip2	v0.16b, v0.16b, v3.16b
	stp	q0, q5, [x29, #-64]             // 32-byte Folded Spill
	zip1	v0.16b, v1.16b, v3.16b
	stur	q0, [x29, #-80]                 // 16-byte Folded Spill
	zip2	v0.16b, v1.16b, v3.16b
	zip2	v1.16b, v2.16b, v3.16b
	str	q0, [sp, #96]                   // 16-byte Spill
	zip1	v0.16b, v2.16b, v3.16b
	zip1	v2.16b, v4.16b, v3.16b
	zip2	v3.16b, v4.16b, v3.16b
	bl	"recoding::list::VecU8Output::put_wide::<#e3b2a9d4d2861db8>"
	ldp	q1, q0, [x29, #-64]             // 32-byte Folded Reload
	mov	x0, x22
	ldur	q2, [x29, #-80]                 // 16-byte Folded Reload
	ldr	q3, [sp, #96]                   // 16-byte Reload
	bl	"recoding::list::VecU8Output::put_wide::<#e3b2a9d4d2861db8>"
	ldr	q4, [sp, #64]                   // 16-byte Reload
	sub	x19, x19, #64
	add	x27, x27, #64
	cmp	x19, #127
	b.hi	.LBB22_16
	b	.LBB22_2
.LBB22_18:                              // %join.3.i19.i
                                        //   in Loop: Header=BB22_4 Depth=1
	cmp	x9, #7
	add	x10, x25, x24
	b.hi	.LBB22_29
// %bb.19:                              // %then.4.i.i
                                        //   in Loop: Header=BB22_4 Depth=1
	ldr	s0, [x25]
	ldur	s1, [x10, #-4]
	zip1	v0.8b, v0.8b, v0.8b
	zip1	v1.8b, v1.8b, v1.8b
	mov	v0.d[1], v1.d[0]
	ldr	q1, [x8, :lo12:.LCPI22_0]
	uzp1	v0.16b, v0.16b, v0.16b
	cmlt	v0.16b, v0.16b, #0
	and	v0.16b, v0.16b, v1.16b
	addp	v0.16b, v0.16b, v0.16b
	addp	v0.16b, v0.16b, v0.16b
	addp	v0.16b, v0.16b, v0.16b
	umov	w8, v0.h[0]
	cbnz	w8, .LBB22_30
.LBB22_20:                              //   in Loop: Header=BB22_4 Depth=1
	stur	x20, [x29, #-48]                // 8-byte Folded Spill
	mov	x28, xzr
	mov	x27, x24
	str	x24, [sp, #48]                  // 8-byte Spill
	b	.LBB22_38
.LBB22_21:                              //   in Loop: Header=BB22_4 Depth=1
	mov	x10, xzr
	sub	x11, x24, xzr
	cmp	x11, #16
	b.lo	.LBB22_25
.LBB22_22:                              // %join.5.i75.i.preheader
                                        //   in Loop: Header=BB22_4 Depth=1
	add	x10, x20, x10
	add	x10, x23, x10
.LBB22_23:                              // %join.5.i75.i
                                        //   Parent Loop BB22_4 Depth=1
                                        // =>  This Inner Loop Header: Depth=2
	ldr	q0, [x10], #16
	ldr	q1, [x8, :lo12:.LCPI22_0]
	cmlt	v0.16b, v0.16b, #0
	and	v0.16b, v0.16b, v1.16b
	addp	v0.16b, v0.16b, v0.16b
	addp	v0.16b, v0.16b, v0.16b
	addp	v0.16b, v0.16b, v0.16b
	umov	w12, v0.h[0]
	cbnz	w12, .LBB22_26
// %bb.24:                              // %loop.2.i69.i
                                        //   in Loop: Header=BB22_23 Depth=2
	sub	x11, x11, #16
	cmp	x11, #16
	b.hs	.LBB22_23
.LBB22_25:                              // %after.1.i.i
                                        //   in Loop: Header=BB22_4 Depth=1
	add	x10, x25, x24
	ldr	q1, [x8, :lo12:.LCPI22_0]
	ldur	q0, [x10, #-16]
	cmlt	v0.16b, v0.16b, #0
	and	v0.16b, v0.16b, v1.16b
	addp	v0.16b, v0.16b, v0.16b
	addp	v0.16b, v0.16b, v0.16b
	addp	v0.16b, v0.16b, v0.16b
	umov	w10, v0.h[0]
	cbz	w10, .LBB22_31
.LBB22_26:                              // %after.10.i
                                        //   in Loop: Header=BB22_4 Depth=1
	cmp	x9, #31
	b.ls	.LBB22_30
// %bb.27:                              // %join.21.i
                                        //   in Loop: Header=BB22_4 Depth=1
	cmp	x9, #128
	b.hs	.LBB22_1
// %bb.28:                              //   in Loop: Header=BB22_4 Depth=1
	mov	x27, xzr
	b	.LBB22_2
.LBB22_29:                              // %"utf_lanes::ascii_texts::is_ascii.exit.i"
                                        //   in Loop: Header=BB22_4 Depth=1
	ldr	d0, [x25]
	ldur	d1, [x10, #-8]
	mov	v0.d[1], v1.d[0]
	ldr	q1, [x8, :lo12:.LCPI22_0]
	cmlt	v0.16b, v0.16b, #0
	and	v0.16b, v0.16b, v1.16b
	addp	v0.16b, v0.16b, v0.16b
	addp	v0.16b, v0.16b, v0.16b
	addp	v0.16b, v0.16b, v0.16b
	umov	w8, v0.h[0]
	cbz	w8, .LBB22_31
.LBB22_30:                              // %then.19.i
                                        //   in Loop: Header=BB22_4 Depth=1
	add	x0, x23, x20
	mov	x1, x24
	mov	x2, x22
	bl	"recoding::kernels::put_few::<#b3a77c927faee343>"
	b	.LBB22_3
.LBB22_31:                              // %then.14.i
                                        //   in Loop: Header=BB22_4 Depth=1
	cmp	x9, #16
	mov	x28, xzr
	mov	x27, x24
	stur	x20, [x29, #-48]                // 8-byte Folded Spill
	str	x24, [sp, #48]                  // 8-byte Spill
	b.lo	.LBB22_38
// %bb.32:                              // %join.5.i10.preheader
                                        //   in Loop: Header=BB22_4 Depth=1
	str	x25, [sp, #56]                  // 8-byte Spill
.LBB22_33:                              // %join.5.i10
                                        //   Parent Loop BB22_4 Depth=1
                                        // =>  This Inner Loop Header: Depth=2
	ldr	x9, [sp, #88]                   // 8-byte Reload
	add	x10, x25, x28
	ldrb	w26, [x10]
	ldrb	w20, [x10, #1]
	ldrb	w21, [x10, #2]
	ldp	x9, x8, [x9, #8]
	ldrb	w19, [x10, #3]
	ldrb	w17, [x10, #4]
	ldrb	w16, [x10, #5]
	ldrb	w15, [x10, #6]
	ldrb	w14, [x10, #7]
	ldrb	w13, [x10, #8]
	ldrb	w24, [x10, #9]
	sub	x11, x8, x9
	ldrb	w22, [x10, #10]
	ldrb	w23, [x10, #11]
	cmp	x11, #31
	ldrb	w25, [x10, #12]
	ldrb	w0, [x10, #13]
	ldrb	w1, [x10, #14]
	ldrb	w2, [x10, #15]
	b.ls	.LBB22_36
.LBB22_34:                              // %join.3.i195
                                        //   in Loop: Header=BB22_33 Depth=2
	ldr	x12, [sp, #88]                  // 8-byte Reload
	ldr	x10, [x12]
	add	x11, x10, x9
	add	x9, x9, #32
	strb	w26, [x11]
	strb	wzr, [x11, #1]
	strb	w20, [x11, #2]
	strb	wzr, [x11, #3]
	strb	w21, [x11, #4]
	strb	wzr, [x11, #5]
	strb	w19, [x11, #6]
	strb	wzr, [x11, #7]
	strb	w17, [x11, #8]
	strb	wzr, [x11, #9]
	strb	w16, [x11, #10]
	strb	wzr, [x11, #11]
	strb	w15, [x11, #12]
	strb	wzr, [x11, #13]
	strb	w14, [x11, #14]
	strb	wzr, [x11, #15]
	strb	w13, [x11, #16]
	strb	wzr, [x11, #17]
	strb	w24, [x11, #18]
	strb	wzr, [x11, #19]
	strb	w22, [x11, #20]
	strb	wzr, [x11, #21]
	strb	w23, [x11, #22]
	strb	wzr, [x11, #23]
	strb	w25, [x11, #24]
	strb	wzr, [x11, #25]
	strb	w0, [x11, #26]
	strb	wzr, [x11, #27]
	strb	w1, [x11, #28]
	strb	wzr, [x11, #29]
	strb	w2, [x11, #30]
	strb	wzr, [x11, #31]
	stp	x10, x9, [x12]
	str	x8, [x12, #16]
.LBB22_35:                              // %"std_alloc::vec::Vec::extend_from_slice::<#0cd040e5c49bc722>.exit"
                                        //   in Loop: Header=BB22_33 Depth=2
	sub	x27, x27, #16
	ldr	x25, [sp, #56]                  // 8-byte Reload
	add	x28, x28, #16
	cmp	x27, #15
	b.hi	.LBB22_33
	b	.LBB22_38
.LBB22_36:                              // %"std_alloc::vec::Vec::grow::<#5fdc5e19576447a7>.exit.i"
                                        //   in Loop: Header=BB22_33 Depth=2
	stp	w0, w17, [sp, #24]              // 8-byte Folded Spill
	ldr	x0, [sp, #88]                   // 8-byte Reload
	stp	w2, w1, [sp, #16]               // 8-byte Folded Spill
	mov	w1, #32                         // =0x20
	str	w16, [sp, #64]                  // 4-byte Spill
	str	w15, [sp, #96]                  // 4-byte Spill
	stur	w14, [x29, #-80]                // 4-byte Folded Spill
	stur	w13, [x29, #-64]                // 4-byte Folded Spill
	bl	"std_alloc::vec::Vec::grow_amortized::<#5fdc5e19576447a7>"
	cbz	w0, .LBB22_35
// %bb.37:                              // %"std_alloc::vec::Vec::grow::<#5fdc5e19576447a7>.exit.join.3_crit_edge.i"
                                        //   in Loop: Header=BB22_33 Depth=2
	ldr	x8, [sp, #88]                   // 8-byte Reload
	ldur	w13, [x29, #-64]                // 4-byte Folded Reload
	ldur	w14, [x29, #-80]                // 4-byte Folded Reload
	ldp	w0, w17, [sp, #24]              // 8-byte Folded Reload
	ldp	x9, x8, [x8, #8]
	ldr	w15, [sp, #96]                  // 4-byte Reload
	ldr	w16, [sp, #64]                  // 4-byte Reload
	ldp	w2, w1, [sp, #16]               // 8-byte Folded Reload
	b	.LBB22_34
.LBB22_38:                              // %"recoding::ascii_to_utf16::put_lanes::<#b3a77c927faee343>.exit"
                                        //   in Loop: Header=BB22_4 Depth=1
	cbz	x27, .LBB22_41
// %bb.39:                              // %join.5.i37.preheader
                                        //   in Loop: Header=BB22_4 Depth=1
	ldr	x22, [sp, #88]                  // 8-byte Reload
	ldp	x23, x21, [sp, #32]             // 16-byte Folded Reload
	ldur	x20, [x29, #-48]                // 8-byte Folded Reload
	add	x9, x25, x28
	ldr	x0, [sp, #48]                   // 8-byte Reload
	ldr	x8, [x22, #8]
.LBB22_40:                              // %join.5.i37
                                        //   Parent Loop BB22_4 Depth=1
                                        // =>  This Inner Loop Header: Depth=2
	ldr	x10, [x22]
	ldrb	w11, [x9], #1
	subs	x27, x27, #1
	strb	w11, [x10, x8]
	ldr	x10, [x22]
	add	x10, x10, x8
	add	x8, x8, #2
	strb	wzr, [x10, #1]
	str	x8, [x22, #8]
	b.ne	.LBB22_40
	b	.LBB22_3
.LBB22_41:                              //   in Loop: Header=BB22_4 Depth=1
	ldp	x23, x21, [sp, #32]             // 16-byte Folded Reload
	ldur	x20, [x29, #-48]                // 8-byte Folded Reload
	ldr	x22, [sp, #88]                  // 8-byte Reload
	ldr	x0, [sp, #48]                   // 8-byte Reload
	b	.LBB22_3
.LBB22_42:                              // %join.5.i
                                        //   in Loop: Header=BB22_4 Depth=1
	subs	x1, x21, x20
	b.eq	.LBB22_73
// %bb.43:                              // %join.8.i
                                        //   in Loop: Header=BB22_4 Depth=1
	ldr	x8, [sp, #8]                    // 8-byte Reload
	cmp	x0, #255
	csel	x8, xzr, x8, hi
	str	x8, [sp, #8]                    // 8-byte Spill
	cmp	x8, #3
	add	x8, x23, x20
	b.lo	.LBB22_46
// %bb.44:                              // %then.1.i
                                        //   in Loop: Header=BB22_4 Depth=1
	cmp	x1, #128
	b.lo	.LBB22_50
// %bb.45:                              // %join.9.i
                                        //   in Loop: Header=BB22_4 Depth=1
	add	x0, x23, x20
	mov	x2, x22
	bl	"recoding::kernels::widen_damaged::<#6d28eb9c51c85cb7>"
	ldr	x8, [sp]                        // 8-byte Reload
	add	x20, x0, x20
	add	x8, x1, x8
	str	x8, [sp]                        // 8-byte Spill
	cbnz	x0, .LBB22_4
	b	.LBB22_50
.LBB22_46:                              // %join.3.i
                                        //   in Loop: Header=BB22_4 Depth=1
	cmp	x1, #67
	b.lo	.LBB22_50
// %bb.47:                              // %then.1.i.i136
                                        //   in Loop: Header=BB22_4 Depth=1
	ldrsb	w9, [x8]
	tbz	w9, #31, .LBB22_49
// %bb.48:                              // %"recoding::kernels::may_be_plain.exit.i"
                                        //   in Loop: Header=BB22_4 Depth=1
	ldrsb	w8, [x8, #1]
	tbnz	w8, #31, .LBB22_50
.LBB22_49:                              // %arm.5.i131
                                        //   in Loop: Header=BB22_4 Depth=1
	add	x0, x23, x20
	mov	x2, x22
	bl	"recoding::kernels::widen_plain::<#5ffe3d2dbc72ef02>"
	ldr	x8, [sp]                        // 8-byte Reload
	add	x20, x0, x20
	add	x8, x1, x8
	str	x8, [sp]                        // 8-byte Spill
	cbnz	x0, .LBB22_4
.LBB22_50:                              // %join.14.i
                                        //   in Loop: Header=BB22_4 Depth=1
	sub	x8, x21, x20
	mov	w9, #128                        // =0x80
	cmp	x8, #128
	csel	x9, x8, x9, lo
	cmp	x8, #4
	b.lo	.LBB22_70
// %bb.51:                              // %join.3.i.i.i.preheader
                                        //   in Loop: Header=BB22_4 Depth=1
	mov	x8, xzr
	add	x10, x23, x20
	b	.LBB22_54
.LBB22_52:                              //   in Loop: Header=BB22_54 Depth=2
	mov	w12, #1                         // =0x1
.LBB22_53:                              // %arm.1.i.i166
                                        //   in Loop: Header=BB22_54 Depth=2
	ldp	x14, x13, [x22]
	strb	w11, [x14, x13]
	lsr	w11, w11, #8
	ldr	x14, [x22]
	add	x14, x14, x13
	strb	w11, [x14, #1]
	add	x11, x13, #2
	add	x8, x12, x8
	str	x11, [x22, #8]
	sub	x12, x9, x8
	cmp	x12, #3
	b.ls	.LBB22_69
.LBB22_54:                              // %join.3.i.i.i
                                        //   Parent Loop BB22_4 Depth=1
                                        // =>  This Inner Loop Header: Depth=2
	add	x12, x10, x8
	ldrsb	w13, [x12]
	and	w11, w13, #0xff
	tbz	w13, #31, .LBB22_52
// %bb.55:                              // %join.6.i.i.i
                                        //   in Loop: Header=BB22_54 Depth=2
	ldrb	w13, [x12, #1]
	cmp	w11, #224
	b.hs	.LBB22_59
// %bb.56:                              // %"recoding::text::Utf8Text::next_valid.exit.i"
                                        //   in Loop: Header=BB22_54 Depth=2
	cmp	w11, #194
	b.lo	.LBB22_69
// %bb.57:                              // %"recoding::text::Utf8Text::next_valid.exit.i"
                                        //   in Loop: Header=BB22_54 Depth=2
	eor	w12, w13, #0x80
	cmp	w12, #63
	b.hi	.LBB22_69
// %bb.58:                              // %arm.7.i154
                                        //   in Loop: Header=BB22_54 Depth=2
	add	w11, w12, w11, lsl #6
	mov	w12, #2                         // =0x2
	sub	w11, w11, #3, lsl #12           // =12288
	b	.LBB22_53
.LBB22_59:                              // %join.9.i.i.i
                                        //   in Loop: Header=BB22_54 Depth=2
	sxtb	w14, w13
	cmn	w14, #65
	b.gt	.LBB22_69
// %bb.60:                              // %join.12.i.i.i
                                        //   in Loop: Header=BB22_54 Depth=2
	and	w13, w13, #0x3f
	cmp	w11, #239
	bfi	w13, w11, #6, #4
	b.hi	.LBB22_65
// %bb.61:                              // %then.13.i.i.i
                                        //   in Loop: Header=BB22_54 Depth=2
	and	w11, w13, #0x3e0
	cmp	w11, #864
	b.eq	.LBB22_69
// %bb.62:                              // %join.3.i13.i.i
                                        //   in Loop: Header=BB22_54 Depth=2
	ldrsb	w11, [x12, #2]
	cmn	w11, #65
	b.gt	.LBB22_69
// %bb.63:                              // %join.3.i13.i.i
                                        //   in Loop: Header=BB22_54 Depth=2
	cmp	w13, #32
	b.lo	.LBB22_69
// %bb.64:                              // %arm.7.i154.thread577
                                        //   in Loop: Header=BB22_54 Depth=2
	and	w11, w11, #0xff
	mov	w12, #3                         // =0x3
	and	w11, w11, #0x3f
	orr	w11, w11, w13, lsl #6
	b	.LBB22_53
.LBB22_65:                              // %else.14.i.i.i
                                        //   in Loop: Header=BB22_54 Depth=2
	sub	w11, w13, #272
	cmn	w11, #256
	b.lo	.LBB22_69
// %bb.66:                              // %after.1.i.i.i
                                        //   in Loop: Header=BB22_54 Depth=2
	ldrsb	w11, [x12, #2]
	cmn	w11, #65
	b.gt	.LBB22_69
// %bb.67:                              // %else.14.i34.i.i
                                        //   in Loop: Header=BB22_54 Depth=2
	ldrsb	w12, [x12, #3]
	cmn	w12, #65
	b.gt	.LBB22_69
// %bb.68:                              // %arm.7.i154.thread583
                                        //   in Loop: Header=BB22_54 Depth=2
	lsl	w13, w13, #12
	ldp	x15, x14, [x22]
	mov	w16, #-10304                    // =0xffffd7c0
	bfi	w12, w11, #6, #6
	bfi	w13, w11, #6, #6
	add	w13, w16, w13, lsr #10
	strb	w13, [x15, x14]
	ldr	x15, [x22]
	lsr	w13, w13, #8
	add	x15, x15, x14
	strb	w13, [x15, #1]
	ldr	x13, [x22]
	add	x13, x13, x14
	strb	w12, [x13, #2]
	mov	w12, #220                       // =0xdc
	ldr	x13, [x22]
	bfxil	w12, w11, #2, #2
	add	x11, x13, x14
	strb	w12, [x11, #3]
	add	x11, x14, #4
	mov	w12, #4                         // =0x4
	add	x8, x12, x8
	str	x11, [x22, #8]
	sub	x12, x9, x8
	cmp	x12, #3
	b.hi	.LBB22_54
.LBB22_69:                              // %"recoding::engine::recode_text::<#4bab232dcda6565b>.exit"
                                        //   in Loop: Header=BB22_4 Depth=1
	cmp	x8, #124
	add	x20, x8, x20
	b.hi	.LBB22_4
.LBB22_70:                              // %then.15.i
                                        //   in Loop: Header=BB22_4 Depth=1
	subs	x2, x21, x20
	b.eq	.LBB22_73
// %bb.71:                              // %"recoding::engine::recode_carefully::<#4bab232dcda6565b>.exit"
                                        //   in Loop: Header=BB22_4 Depth=1
	sub	x0, x29, #32
	add	x1, x23, x20
	mov	x3, x22
	stp	xzr, xzr, [x29, #-32]
	stur	xzr, [x29, #-16]
	bl	"recoding::engine::recode_faults::<#e0f9120ea28c3ab4>"
	ldp	x9, x8, [x29, #-32]
	ldr	x12, [sp, #8]                   // 8-byte Reload
	ldurb	w10, [x29, #-16]
	adds	x11, x12, #1
	add	x20, x9, x20
	ldr	x9, [sp]                        // 8-byte Reload
	csinv	x11, x11, xzr, lo
	cmp	x8, #0
	add	x9, x8, x9
	csel	x12, x12, x11, eq
	stp	x9, x12, [sp]                   // 16-byte Folded Spill
	tbnz	w10, #0, .LBB22_74
// %bb.72:                              // %"recoding::engine::recode_carefully::<#4bab232dcda6565b>.exit"
                                        //   in Loop: Header=BB22_4 Depth=1
	ldurb	w8, [x29, #-15]
	tbz	w8, #0, .LBB22_4
	b	.LBB22_74
.LBB22_73:
	mov	x20, x21
.LBB22_74:                              // %"recoding::engine::run::<#bfb22b68fe82cd38>.exit"
	mov	x0, x20
	ldr	x1, [sp]                        // 8-byte Reload
	.cfi_def_cfa wsp, 288
	ldp	x20, x19, [sp, #272]            // 16-byte Folded Reload
	ldp	x22, x21, [sp, #256]            // 16-byte Folded Reload
	ldp	x24, x23, [sp, #240]            // 16-byte Folded Reload
	ldp	x26, x25, [sp, #224]            // 16-byte Folded Reload
	ldp	x28, x27, [sp, #208]            // 16-byte Folded Reload
	ldp	x29, x30, [sp, #192]            // 16-byte Folded Reload
	add	sp, sp, #288
	.cfi_def_cfa_offset 0
	.cfi_restore w19
	.cfi_restore w20
	.cfi_restore w21
	.cfi_restore w22
	.cfi_restore w23
	.cfi_restore w24
	.cfi_restore w25
	.cfi_restore w26
	.cfi_restore w27
	.cfi_restore w28
	.cfi_restore w30
	.cfi_restore w29
	ret
.Lfunc_end22:
	.size	"recoding::recoder_runs::run_whole::<#2857ed0d0693875d>", .Lfunc_end22-"recoding::recoder_runs::run_whole::<#2857ed0d0693875d>"
	.cfi_endproc
                                        // -- End function
	.section	.rodata.cst16,"aM",@progbits,16
	.p2align	4, 0x0                          // -- Begin function recoding::kernels::put_few::<#b3a77c927faee343>
.LCPI23_0:
	.byte	1                               // 0x1
	.byte	2                               // 0x2
	.byte	4                               // 0x4
	.byte	8                               // 0x8
	.byte	16                              // 0x10
	.byte	32                              // 0x20
	.byte	64                              // 0x40
	.byte	128                             // 0x80
	.byte	1                               // 0x1
	.byte	2                               // 0x2
	.byte	4                               // 0x4
	.byte	8                               // 0x8
	.byte	16                              // 0x10
	.byte	32                              // 0x20
	.byte	64                              // 0x40
	.byte	128                             // 0x80
.LCPI23_1:
	.byte	2                               // 0x2
	.byte	2                               // 0x2
	.byte	2                               // 0x2
	.byte	2                               // 0x2
	.byte	2                               // 0x2
	.byte	2                               // 0x2
	.byte	2                               // 0x2
	.byte	2                               // 0x2
	.byte	128                             // 0x80
	.byte	128                             // 0x80
	.byte	128                             // 0x80
	.byte	128                             // 0x80
	.byte	5                               // 0x5
	.byte	1                               // 0x1
	.byte	25                              // 0x19
	.byte	97                              // 0x61
.LCPI23_2:
	.byte	207                             // 0xcf
	.byte	135                             // 0x87
	.byte	131                             // 0x83
	.byte	131                             // 0x83
	.byte	163                             // 0xa3
	.byte	227                             // 0xe3
	.byte	227                             // 0xe3
	.byte	227                             // 0xe3
	.byte	227                             // 0xe3
	.byte	227                             // 0xe3
	.byte	227                             // 0xe3
	.byte	227                             // 0xe3
	.byte	227                             // 0xe3
	.byte	243                             // 0xf3
	.byte	227                             // 0xe3
	.byte	227                             // 0xe3
.LCPI23_3:
	.byte	1                               // 0x1
	.byte	1                               // 0x1
	.byte	1                               // 0x1
	.byte	1                               // 0x1
	.byte	1                               // 0x1
	.byte	1                               // 0x1
	.byte	1                               // 0x1
	.byte	1                               // 0x1
	.byte	206                             // 0xce
	.byte	174                             // 0xae
	.byte	182                             // 0xb6
	.byte	182                             // 0xb6
	.byte	1                               // 0x1
	.byte	1                               // 0x1
	.byte	1                               // 0x1
	.byte	1                               // 0x1
	.section	.rodata.cst8,"aM",@progbits,8
	.p2align	3, 0x0
.LCPI23_4:
	.word	224                             // 0xe0
	.word	192                             // 0xc0
	.section	".text.recoding::kernels::put_few::<#b3a77c927faee343>","ax",@progbits
	.p2align	2
	.type	"recoding::kernels::put_few::<#b3a77c927faee343>",@function
"recoding::kernels::put_few::<#b3a77c927faee343>": // @"recoding::kernels::put_few::<#b3a77c927faee343>"
	.cfi_startproc
// %bb.0:                               // %start
	sub	sp, sp, #256
	.cfi_def_cfa_offset 256
	stp	x29, x30, [sp, #176]            // 16-byte Folded Spill
	str	x25, [sp, #192]                 // 8-byte Spill
	stp	x24, x23, [sp, #208]            // 16-byte Folded Spill
	stp	x22, x21, [sp, #224]            // 16-byte Folded Spill
	stp	x20, x19, [sp, #240]            // 16-byte Folded Spill
	add	x29, sp, #176
	.cfi_def_cfa w29, 80
	.cfi_offset w19, -8
	.cfi_offset w20, -16
	.cfi_offset w21, -24
	.cfi_offset w22, -32
	.cfi_offset w23, -40
	.cfi_offset w24, -48
	.cfi_offset w25, -64
	.cfi_offset w30, -72
	.cfi_offset w29, -80
	.cfi_remember_state
	mov	x19, x2
	cmp	x1, #19
	mov	x21, x0
	b.hs	.LBB23_4
// %bb.1:                               // %then.1
	cmp	x1, #16
	mov	w8, #16                         // =0x10
	csel	x22, x1, x8, lo
	cmp	x1, #4
	b.lo	.LBB23_9
// %bb.2:                               // %join.6.i.i
	adrp	x8, .Lstatic.10
	add	x8, x8, :lo12:.Lstatic.10
	cmp	x1, #7
	add	x8, x8, x22, lsl #4
	ldur	q0, [x8, #-64]
	add	x8, x21, x22
	b.hi	.LBB23_7
// %bb.3:                               // %then.1.i8.i
	ldr	s1, [x21]
	ldur	s2, [x8, #-4]
	ushll	v1.8h, v1.8b, #0
	ushll	v2.8h, v2.8b, #0
	mov	v3.16b, v1.16b
	umov	w8, v2.h[1]
	mov	v3.d[1], v2.d[0]
	uzp1	v3.16b, v3.16b, v3.16b
	tbl	v4.16b, { v3.16b }, v0.16b
	zip2	v3.4h, v2.4h, v2.4h
	b	.LBB23_8
.LBB23_4:                               // %join.3
	mov	x0, x21
	bl	"utf_lanes::text_blocks::text_len"
	cmp	x0, #19
	b.lo	.LBB23_9
// %bb.5:                               // %join.6
	movi	v7.2d, #0000000000000000
	ldr	q3, [x21]
	movi	v5.16b, #239
	adrp	x8, .LCPI23_0
	mov	x20, x0
	ldr	q6, [x8, :lo12:.LCPI23_0]
	ext	v1.16b, v7.16b, v3.16b, #14
	ext	v0.16b, v7.16b, v3.16b, #13
	ext	v2.16b, v7.16b, v3.16b, #15
	stp	q7, q7, [sp, #80]
	stp	q7, q7, [sp, #112]
	str	q7, [sp, #64]
	umax	v4.16b, v1.16b, v0.16b
	str	q6, [sp]                        // 16-byte Spill
	cmhi	v4.16b, v4.16b, v5.16b
	and	v4.16b, v4.16b, v6.16b
	addp	v4.16b, v4.16b, v4.16b
	addp	v4.16b, v4.16b, v4.16b
	addp	v4.16b, v4.16b, v4.16b
	umov	w8, v4.h[0]
	cbz	w8, .LBB23_10
// %bb.6:                               // %else.2.i.i
	sub	x0, x29, #32
	stp	q2, q3, [sp, #16]               // 32-byte Folded Spill
	bl	"utf_lanes::text_units::long_halves"
	ldp	q2, q3, [sp, #16]               // 32-byte Folded Reload
	ldr	q6, [sp]                        // 16-byte Reload
	ldp	q1, q0, [x29, #-32]
	b	.LBB23_11
.LBB23_7:                               // %join.3.i7.i
	ldr	d1, [x21]
	ldur	d5, [x8, #-8]
	mov	v2.16b, v1.16b
	mov	b3, v5.b[6]
	zip1	v1.8b, v1.8b, v0.8b
	umov	w8, v5.b[5]
	mov	v2.d[1], v5.d[0]
	mov	v3.b[4], v5.b[7]
	tbl	v4.16b, { v2.16b }, v0.16b
	zip2	v2.8b, v5.8b, v0.8b
.LBB23_8:                               // %"utf_lanes::few_bytes::padded_text.exit.i"
	movi	v5.2d, #0000000000000000
	movi	v6.16b, #15
	adrp	x9, .LCPI23_1
	movi	v16.16b, #96
	movi	v17.16b, #112
	adrp	x10, .LCPI23_2
	ldr	q20, [x10, :lo12:.LCPI23_2]
	ext	v7.16b, v5.16b, v4.16b, #15
	ext	v18.16b, v5.16b, v4.16b, #14
	ext	v5.16b, v5.16b, v4.16b, #13
	ushr	v4.16b, v4.16b, #4
	ushr	v19.16b, v7.16b, #4
	and	v6.16b, v7.16b, v6.16b
	ldr	q7, [x9, :lo12:.LCPI23_1]
	uqsub	v16.16b, v18.16b, v16.16b
	adrp	x9, .LCPI23_3
	uqsub	v5.16b, v5.16b, v17.16b
	ldr	q17, [x9, :lo12:.LCPI23_3]
	adrp	x9, .LCPI23_0
	tbl	v7.16b, { v7.16b }, v19.16b
	tbl	v6.16b, { v20.16b }, v6.16b
	tbl	v4.16b, { v17.16b }, v4.16b
	movi	v17.16b, #128
	orr	v5.16b, v16.16b, v5.16b
	and	v6.16b, v6.16b, v7.16b
	and	v5.16b, v5.16b, v17.16b
	and	v4.16b, v6.16b, v4.16b
	cmeq	v4.16b, v5.16b, v4.16b
	ldr	q5, [x9, :lo12:.LCPI23_0]
	bic	v4.16b, v5.16b, v4.16b
	addp	v4.16b, v4.16b, v4.16b
	addp	v4.16b, v4.16b, v4.16b
	addp	v4.16b, v4.16b, v4.16b
	umov	w9, v4.h[0]
	cbz	w9, .LBB23_21
.LBB23_9:
	mov	x20, xzr
	b	.LBB23_29
.LBB23_10:                              // %then.1.i.i395
	cmlt	v0.16b, v3.16b, #0
	movi	v7.16b, #224
	movi	v4.16b, #127
	and	v5.16b, v0.16b, v2.16b
	uqsub	v1.16b, v1.16b, v7.16b
	and	v7.16b, v3.16b, v4.16b
	ushr	v0.16b, v5.16b, #2
	shl	v4.16b, v5.16b, #6
	sli	v0.16b, v1.16b, #4
	add	v1.16b, v4.16b, v7.16b
.LBB23_11:                              // %"utf_lanes::text_puts::write_first::<#951b42d46d2e9f62>.exit"
	movi	v4.16b, #32
	adrp	x23, .Lstatic.17
	add	x23, x23, :lo12:.Lstatic.17
	cmp	x20, #32
	uqsub	v2.16b, v2.16b, v4.16b
	movi	v4.16b, #192
	umax	v2.16b, v2.16b, v3.16b
	cmhi	v2.16b, v4.16b, v2.16b
	and	v2.16b, v2.16b, v6.16b
	addp	v2.16b, v2.16b, v2.16b
	addp	v2.16b, v2.16b, v2.16b
	addp	v2.16b, v2.16b, v2.16b
	umov	w8, v2.h[0]
	zip1	v2.16b, v1.16b, v0.16b
	zip2	v0.16b, v1.16b, v0.16b
	ubfx	x9, x8, #8, #8
	and	x8, x8, #0xff
	fmov	d3, x8
	ldr	q5, [x23, x8, lsl #4]
	fmov	d4, x9
	tbl	v1.16b, { v2.16b }, v5.16b
	ldr	q2, [x23, x9, lsl #4]
	cnt	v3.8b, v3.8b
	cnt	v4.8b, v4.8b
	tbl	v0.16b, { v0.16b }, v2.16b
	str	q1, [sp, #48]
	fmov	w8, s3
	fmov	w9, s4
	ubfiz	x10, x8, #1, #32
	add	x8, x8, x9
	add	x9, sp, #48
	lsl	x22, x8, #1
	str	q0, [x9, x10]
	b.hs	.LBB23_13
// %bb.12:
	mov	w8, #16                         // =0x10
	cmp	x8, x20
	b.lo	.LBB23_19
	b	.LBB23_27
.LBB23_13:                              // %join.5.i.lr.ph
	mov	x24, #-16                       // =0xfffffffffffffff0
	mov	x25, x21
	b	.LBB23_16
.LBB23_14:                              // %else.2.i.i739
                                        //   in Loop: Header=BB23_16 Depth=1
	sub	x0, x29, #32
	stp	q2, q3, [sp, #16]               // 32-byte Folded Spill
	bl	"utf_lanes::text_units::long_halves"
	ldp	q2, q3, [sp, #16]               // 32-byte Folded Reload
	ldr	q6, [sp]                        // 16-byte Reload
	ldp	q1, q0, [x29, #-32]
.LBB23_15:                              // %"utf_lanes::text_units::block_units::<#951b42d46d2e9f62>.exit953"
                                        //   in Loop: Header=BB23_16 Depth=1
	movi	v4.16b, #32
	add	x11, sp, #48
	sub	x24, x24, #16
	add	x11, x11, x22
	uqsub	v2.16b, v2.16b, v4.16b
	movi	v4.16b, #192
	umax	v2.16b, v2.16b, v3.16b
	cmhi	v2.16b, v4.16b, v2.16b
	zip1	v4.16b, v1.16b, v0.16b
	zip2	v0.16b, v1.16b, v0.16b
	and	v2.16b, v2.16b, v6.16b
	addp	v2.16b, v2.16b, v2.16b
	addp	v2.16b, v2.16b, v2.16b
	addp	v2.16b, v2.16b, v2.16b
	umov	w8, v2.h[0]
	and	x9, x8, #0xff
	ubfx	x8, x8, #8, #8
	fmov	d2, x9
	ldr	q5, [x23, x9, lsl #4]
	fmov	d3, x8
	ldr	q1, [x23, x8, lsl #4]
	cnt	v2.8b, v2.8b
	tbl	v0.16b, { v0.16b }, v1.16b
	cnt	v3.8b, v3.8b
	fmov	w9, s2
	tbl	v2.16b, { v4.16b }, v5.16b
	fmov	w8, s3
	ubfiz	x10, x9, #1, #32
	add	x8, x9, x8
	add	x9, x20, x24
	str	q2, [x11]
	add	x22, x22, x8, lsl #1
	cmp	x9, #15
	str	q0, [x11, x10]
	b.ls	.LBB23_18
.LBB23_16:                              // %join.5.i
                                        // =>This Inner Loop Header: Depth=1
	ldr	q3, [x25, #16]!
	ldur	q1, [x25, #-2]
	ldur	q0, [x25, #-3]
	movi	v2.16b, #239
	umax	v4.16b, v1.16b, v0.16b
	cmhi	v2.16b, v4.16b, v2.16b
	and	v2.16b, v2.16b, v6.16b
	addp	v2.16b, v2.16b, v2.16b
	addp	v2.16b, v2.16b, v2.16b
	addp	v2.16b, v2.16b, v2.16b
	umov	w8, v2.h[0]
	ldur	q2, [x25, #-1]
	cbnz	w8, .LBB23_14
// %bb.17:                              // %then.1.i.i938
                                        //   in Loop: Header=BB23_16 Depth=1
	cmlt	v0.16b, v3.16b, #0
	movi	v7.16b, #224
	movi	v4.16b, #127
	and	v5.16b, v0.16b, v2.16b
	uqsub	v1.16b, v1.16b, v7.16b
	and	v7.16b, v3.16b, v4.16b
	ushr	v0.16b, v5.16b, #2
	shl	v4.16b, v5.16b, #6
	sli	v0.16b, v1.16b, #4
	add	v1.16b, v4.16b, v7.16b
	b	.LBB23_15
.LBB23_18:                              // %after.1.i403.loopexit
	neg	x8, x24
	cmp	x8, x20
	b.hs	.LBB23_27
.LBB23_19:                              // %then.6.i
	sub	x9, x20, #16
	movi	v2.16b, #239
	add	x10, x21, x9
	sub	x21, x8, x9
	ldur	q1, [x10, #-2]
	ldur	q0, [x10, #-3]
	umax	v3.16b, v1.16b, v0.16b
	cmhi	v2.16b, v3.16b, v2.16b
	ldr	q3, [x10]
	and	v2.16b, v2.16b, v6.16b
	addp	v2.16b, v2.16b, v2.16b
	addp	v2.16b, v2.16b, v2.16b
	addp	v2.16b, v2.16b, v2.16b
	umov	w11, v2.h[0]
	ldur	q2, [x10, #-1]
	cbz	w11, .LBB23_25
// %bb.20:                              // %else.2.i.i609
	sub	x0, x29, #32
	stp	q2, q3, [sp, #16]               // 32-byte Folded Spill
	bl	"utf_lanes::text_units::long_halves"
	ldp	q2, q3, [sp, #16]               // 32-byte Folded Reload
	ldr	q6, [sp]                        // 16-byte Reload
	ldp	q1, q0, [x29, #-32]
	b	.LBB23_26
.LBB23_21:                              // %then.7.i.i
	movi	d4, #0x0000ff000000ff
	adrp	x9, .LCPI23_4
	mov	x20, xzr
	and	v3.8b, v3.8b, v4.8b
	ldr	d4, [x9, :lo12:.LCPI23_4]
	cmhi	v3.2s, v4.2s, v3.2s
	dup	v4.2s, v3.s[1]
	and	v3.8b, v4.8b, v3.8b
	fmov	w9, s3
	tbz	w9, #0, .LBB23_29
// %bb.22:                              // %then.7.i.i
	and	w8, w8, #0xff
	cmp	w8, #239
	b.hi	.LBB23_29
// %bb.23:                              // %after.1.i
	cmp	x1, #7
	mov	w8, #16                         // =0x10
	stp	xzr, xzr, [x29, #-16]
	b.hi	.LBB23_30
// %bb.24:                              // %then.1.i.i
	mov	v1.d[1], v2.d[0]
	uzp1	v1.16b, v1.16b, v1.16b
	b	.LBB23_31
.LBB23_25:                              // %then.1.i.i670
	cmlt	v0.16b, v3.16b, #0
	movi	v7.16b, #224
	movi	v4.16b, #127
	and	v5.16b, v0.16b, v2.16b
	uqsub	v1.16b, v1.16b, v7.16b
	and	v7.16b, v3.16b, v4.16b
	ushr	v0.16b, v5.16b, #2
	shl	v4.16b, v5.16b, #6
	sli	v0.16b, v1.16b, #4
	add	v1.16b, v4.16b, v7.16b
.LBB23_26:                              // %"utf_lanes::text_units::block_units::<#951b42d46d2e9f62>.exit"
	movi	v4.16b, #32
	add	x10, sp, #48
	add	x10, x10, x22
	uqsub	v2.16b, v2.16b, v4.16b
	movi	v4.16b, #192
	umax	v2.16b, v2.16b, v3.16b
	zip1	v3.16b, v1.16b, v0.16b
	zip2	v0.16b, v1.16b, v0.16b
	cmhi	v2.16b, v4.16b, v2.16b
	and	v2.16b, v2.16b, v6.16b
	addp	v2.16b, v2.16b, v2.16b
	addp	v2.16b, v2.16b, v2.16b
	addp	v2.16b, v2.16b, v2.16b
	umov	w8, v2.h[0]
	lsr	x8, x8, x21
	lsl	x8, x8, x21
	ubfx	x9, x8, #8, #32
	fmov	d2, x9
	and	x9, x8, #0xff
	lsr	x8, x8, #8
	fmov	d4, x9
	ldr	q5, [x23, x9, lsl #4]
	cnt	v2.8b, v2.8b
	tbl	v1.16b, { v3.16b }, v5.16b
	ldr	q3, [x23, x8, lsl #4]
	cnt	v4.8b, v4.8b
	tbl	v0.16b, { v0.16b }, v3.16b
	addv	b2, v2.8b
	str	q1, [x10]
	fmov	w9, s4
	fmov	w8, s2
	ubfiz	x11, x9, #1, #32
	add	x8, x9, x8
	str	q0, [x10, x11]
	add	x22, x22, x8, lsl #1
.LBB23_27:                              // %"utf_lanes::text_puts::write_rest::<#951b42d46d2e9f62>.exit"
	ldp	x8, x21, [x19, #8]
	sub	x9, x21, x8
	cmp	x22, x9
	b.hi	.LBB23_37
.LBB23_28:                              // %join.3.i966
	ldr	x23, [x19]
	add	x1, sp, #48
	mov	x2, x22
	add	x24, x8, x22
	add	x0, x23, x8
	bl	memcpy
	stp	x23, x24, [x19]
	str	x21, [x19, #16]
.LBB23_29:                              // %common.ret
	mov	x0, x20
	.cfi_def_cfa wsp, 256
	ldp	x20, x19, [sp, #240]            // 16-byte Folded Reload
	ldr	x25, [sp, #192]                 // 8-byte Reload
	ldp	x22, x21, [sp, #224]            // 16-byte Folded Reload
	ldp	x24, x23, [sp, #208]            // 16-byte Folded Reload
	ldp	x29, x30, [sp, #176]            // 16-byte Folded Reload
	add	sp, sp, #256
	.cfi_def_cfa_offset 0
	.cfi_restore w19
	.cfi_restore w20
	.cfi_restore w21
	.cfi_restore w22
	.cfi_restore w23
	.cfi_restore w24
	.cfi_restore w25
	.cfi_restore w30
	.cfi_restore w29
	ret
.LBB23_30:                              // %join.3.i.i
	.cfi_restore_state
	add	x9, x21, x22
	ldr	d1, [x21]
	ldur	d2, [x9, #-8]
	mov	v1.d[1], v2.d[0]
.LBB23_31:                              // %"utf_lanes::text_puts::write_few::<#951b42d46d2e9f62>.exit"
	tbl	v3.16b, { v1.16b }, v0.16b
	movi	v2.2d, #0000000000000000
	sub	x20, x8, x22
	movi	v6.16b, #239
	ext	v1.16b, v2.16b, v3.16b, #14
	ext	v0.16b, v2.16b, v3.16b, #13
	ext	v2.16b, v2.16b, v3.16b, #15
	umax	v4.16b, v1.16b, v0.16b
	cmhi	v4.16b, v4.16b, v6.16b
	and	v4.16b, v4.16b, v5.16b
	addp	v4.16b, v4.16b, v4.16b
	addp	v4.16b, v4.16b, v4.16b
	addp	v4.16b, v4.16b, v4.16b
	umov	w9, v4.h[0]
	cbz	w9, .LBB23_33
// %bb.32:                              // %else.2.i
	add	x0, sp, #48
	stp	q3, q5, [sp, #16]               // 32-byte Folded Spill
	str	q2, [sp]                        // 16-byte Spill
	bl	"utf_lanes::text_units::long_halves"
	ldp	q2, q3, [sp]                    // 32-byte Folded Reload
	ldr	q0, [sp, #64]
	ldp	q5, q1, [sp, #32]               // 16-byte Folded Reload
	b	.LBB23_34
.LBB23_33:                              // %then.1.i
	cmlt	v0.16b, v3.16b, #0
	movi	v7.16b, #224
	movi	v4.16b, #127
	and	v6.16b, v0.16b, v2.16b
	uqsub	v1.16b, v1.16b, v7.16b
	and	v7.16b, v3.16b, v4.16b
	ushr	v0.16b, v6.16b, #2
	shl	v4.16b, v6.16b, #6
	sli	v0.16b, v1.16b, #4
	add	v1.16b, v4.16b, v7.16b
.LBB23_34:                              // %"utf_lanes::text_units::lane_halves.exit"
	movi	v4.16b, #32
	adrp	x10, .Lstatic.17
	add	x10, x10, :lo12:.Lstatic.17
	uqsub	v2.16b, v2.16b, v4.16b
	movi	v4.16b, #192
	umax	v2.16b, v2.16b, v3.16b
	cmhi	v2.16b, v4.16b, v2.16b
	zip1	v4.16b, v1.16b, v0.16b
	zip2	v0.16b, v1.16b, v0.16b
	and	v2.16b, v2.16b, v5.16b
	addp	v2.16b, v2.16b, v2.16b
	addp	v2.16b, v2.16b, v2.16b
	addp	v2.16b, v2.16b, v2.16b
	umov	w8, v2.h[0]
	lsr	x8, x8, x20
	lsl	x8, x8, x20
	ubfx	x9, x8, #8, #32
	fmov	d2, x9
	and	x9, x8, #0xff
	lsr	x8, x8, #8
	fmov	d3, x9
	ldr	q5, [x10, x9, lsl #4]
	cnt	v2.8b, v2.8b
	tbl	v1.16b, { v4.16b }, v5.16b
	cnt	v3.8b, v3.8b
	addv	b2, v2.8b
	stur	q1, [x29, #-32]
	fmov	w9, s3
	fmov	w11, s2
	ldr	q2, [x10, x8, lsl #4]
	ldp	x8, x20, [x19, #8]
	tbl	v0.16b, { v0.16b }, v2.16b
	add	x10, x9, x11
	ubfiz	x9, x9, #1, #32
	lsl	x2, x10, #1
	sub	x10, x20, x8
	cmp	x2, x10
	sub	x10, x29, #32
	str	q0, [x10, x9]
	b.hi	.LBB23_39
.LBB23_35:                              // %join.3.i
	ldr	x21, [x19]
	sub	x1, x29, #32
	add	x23, x8, x2
	add	x0, x21, x8
	bl	memcpy
	stp	x21, x23, [x19]
	str	x20, [x19, #16]
.LBB23_36:                              // %"std_alloc::vec::Vec::extend_from_slice::<#0cd040e5c49bc722>.exit"
	mov	x20, x22
	b	.LBB23_29
.LBB23_37:                              // %"std_alloc::vec::Vec::grow::<#5fdc5e19576447a7>.exit.i986"
	mov	x0, x19
	mov	x1, x22
	bl	"std_alloc::vec::Vec::grow_amortized::<#5fdc5e19576447a7>"
	cbz	w0, .LBB23_29
// %bb.38:                              // %"std_alloc::vec::Vec::grow::<#5fdc5e19576447a7>.exit.join.3_crit_edge.i988"
	ldp	x8, x21, [x19, #8]
	b	.LBB23_28
.LBB23_39:                              // %"std_alloc::vec::Vec::grow::<#5fdc5e19576447a7>.exit.i"
	mov	x0, x19
	mov	x1, x2
	mov	x21, x2
	bl	"std_alloc::vec::Vec::grow_amortized::<#5fdc5e19576447a7>"
	cbz	w0, .LBB23_36
// %bb.40:                              // %"std_alloc::vec::Vec::grow::<#5fdc5e19576447a7>.exit.join.3_crit_edge.i"
	ldp	x8, x20, [x19, #8]
	mov	x2, x21
	b	.LBB23_35
.Lfunc_end23:
	.size	"recoding::kernels::put_few::<#b3a77c927faee343>", .Lfunc_end23-"recoding::kernels::put_few::<#b3a77c927faee343>"
	.cfi_endproc
                                        // -- End function
	.section	".text.utf_lanes::text_units::long_halves","ax",@progbits
	.p2align	2                               // -- Begin function utf_lanes::text_units::long_halves
	.type	"utf_lanes::text_units::long_halves",@function
"utf_lanes::text_units::long_halves":   // @"utf_lanes::text_units::long_halves"
	.cfi_startproc
// %bb.0:                               // %start
	cmlt	v4.16b, v3.16b, #0
	movi	v5.16b, #224
	movi	v16.16b, #63
	shl	v17.16b, v2.16b, #2
	movi	v7.16b, #3
	ushr	v18.16b, v2.16b, #2
	movi	v6.16b, #127
	movi	v19.16b, #215
	movi	v20.16b, #216
	and	v4.16b, v4.16b, v2.16b
	movi	v22.16b, #220
	movi	v23.16b, #240
	uqsub	v5.16b, v1.16b, v5.16b
	cmhi	v16.16b, v17.16b, v16.16b
	ushr	v24.16b, v3.16b, #4
	and	v7.16b, v18.16b, v7.16b
	movi	v17.16b, #7
	ushr	v21.16b, v4.16b, #2
	and	v3.16b, v3.16b, v6.16b
	shl	v4.16b, v4.16b, #6
	sli	v24.16b, v2.16b, #2
	movi	v2.16b, #192
	cmhi	v0.16b, v23.16b, v0.16b
	orr	v6.16b, v7.16b, v22.16b
	sli	v21.16b, v5.16b, #4
	mov	v5.16b, v16.16b
	and	v7.16b, v1.16b, v17.16b
	add	v3.16b, v4.16b, v3.16b
	cmhi	v1.16b, v23.16b, v1.16b
	add	v2.16b, v24.16b, v2.16b
	bsl	v5.16b, v20.16b, v19.16b
	bsl	v0.16b, v21.16b, v6.16b
	bit	v2.16b, v3.16b, v1.16b
	add	v4.16b, v5.16b, v7.16b
	bif	v0.16b, v4.16b, v1.16b
	stp	q2, q0, [x0]
	ret
.Lfunc_end24:
	.size	"utf_lanes::text_units::long_halves", .Lfunc_end24-"utf_lanes::text_units::long_halves"
	.cfi_endproc
                                        // -- End function
	.section	".text.recoding::list::VecU8Output::put_wide::<#e3b2a9d4d2861db8>","ax",@progbits
	.p2align	2                               // -- Begin function recoding::list::VecU8Output::put_wide::<#e3b2a9d4d2861db8>
	.type	"recoding::list::VecU8Output::put_wide::<#e3b2a9d4d2861db8>",@function
"recoding::list::VecU8Output::put_wide::<#e3b2a9d4d2861db8>": // @"recoding::list::VecU8Output::put_wide::<#e3b2a9d4d2861db8>"
	.cfi_startproc
// %bb.0:                               // %start
	sub	sp, sp, #96
	.cfi_def_cfa_offset 96
	stp	x29, x30, [sp, #64]             // 16-byte Folded Spill
	str	x19, [sp, #80]                  // 8-byte Spill
	add	x29, sp, #64
	.cfi_def_cfa w29, 32
	.cfi_offset w19, -16
	.cfi_offset w30, -24
	.cfi_offset w29, -32
	.cfi_remember_state
	ldp	x11, x8, [x0, #8]
	stp	q0, q1, [sp]
	stp	q2, q3, [sp, #32]
	sub	x9, x8, x11
	cmp	x9, #63
	b.ls	.LBB25_6
.LBB25_1:                               // %join.3.i
	ldr	x9, [x0]
	mov	x12, sp
	add	x10, x9, x11
	add	x11, x11, #64
	sub	x12, x10, x12
	cmp	x12, #63
	b.hi	.LBB25_3
// %bb.2:                               // %join.7.i.i.i.preheader
	ldrb	w12, [sp]
	strb	w12, [x10]
	ldrb	w12, [sp, #1]
	strb	w12, [x10, #1]
	ldrb	w12, [sp, #2]
	strb	w12, [x10, #2]
	ldrb	w12, [sp, #3]
	strb	w12, [x10, #3]
	ldrb	w12, [sp, #4]
	strb	w12, [x10, #4]
	ldrb	w12, [sp, #5]
	strb	w12, [x10, #5]
	ldrb	w12, [sp, #6]
	strb	w12, [x10, #6]
	ldrb	w12, [sp, #7]
	strb	w12, [x10, #7]
	ldrb	w12, [sp, #8]
	strb	w12, [x10, #8]
	ldrb	w12, [sp, #9]
	strb	w12, [x10, #9]
	ldrb	w12, [sp, #10]
	strb	w12, [x10, #10]
	ldrb	w12, [sp, #11]
	strb	w12, [x10, #11]
	ldrb	w12, [sp, #12]
	strb	w12, [x10, #12]
	ldrb	w12, [sp, #13]
	strb	w12, [x10, #13]
	ldrb	w12, [sp, #14]
	strb	w12, [x10, #14]
	ldrb	w12, [sp, #15]
	strb	w12, [x10, #15]
	ldrb	w12, [sp, #16]
	strb	w12, [x10, #16]
	ldrb	w12, [sp, #17]
	strb	w12, [x10, #17]
	ldrb	w12, [sp, #18]
	strb	w12, [x10, #18]
	ldrb	w12, [sp, #19]
	strb	w12, [x10, #19]
	ldrb	w12, [sp, #20]
	strb	w12, [x10, #20]
	ldrb	w12, [sp, #21]
	strb	w12, [x10, #21]
	ldrb	w12, [sp, #22]
	strb	w12, [x10, #22]
	ldrb	w12, [sp, #23]
	strb	w12, [x10, #23]
	ldrb	w12, [sp, #24]
	strb	w12, [x10, #24]
	ldrb	w12, [sp, #25]
	strb	w12, [x10, #25]
	ldrb	w12, [sp, #26]
	strb	w12, [x10, #26]
	ldrb	w12, [sp, #27]
	strb	w12, [x10, #27]
	ldrb	w12, [sp, #28]
	strb	w12, [x10, #28]
	ldrb	w12, [sp, #29]
	strb	w12, [x10, #29]
	ldrb	w12, [sp, #30]
	strb	w12, [x10, #30]
	ldrb	w12, [sp, #31]
	strb	w12, [x10, #31]
	ldrb	w12, [sp, #32]
	strb	w12, [x10, #32]
	ldrb	w12, [sp, #33]
	strb	w12, [x10, #33]
	ldrb	w12, [sp, #34]
	strb	w12, [x10, #34]
	ldrb	w12, [sp, #35]
	strb	w12, [x10, #35]
	ldrb	w12, [sp, #36]
	strb	w12, [x10, #36]
	ldrb	w12, [sp, #37]
	strb	w12, [x10, #37]
	ldrb	w12, [sp, #38]
	strb	w12, [x10, #38]
	ldrb	w12, [sp, #39]
	strb	w12, [x10, #39]
	ldrb	w12, [sp, #40]
	strb	w12, [x10, #40]
	ldrb	w12, [sp, #41]
	strb	w12, [x10, #41]
	ldrb	w12, [sp, #42]
	strb	w12, [x10, #42]
	ldrb	w12, [sp, #43]
	strb	w12, [x10, #43]
	ldrb	w12, [sp, #44]
	strb	w12, [x10, #44]
	ldrb	w12, [sp, #45]
	strb	w12, [x10, #45]
	ldrb	w12, [sp, #46]
	strb	w12, [x10, #46]
	ldrb	w12, [sp, #47]
	strb	w12, [x10, #47]
	ldrb	w12, [sp, #48]
	strb	w12, [x10, #48]
	ldrb	w12, [sp, #49]
	strb	w12, [x10, #49]
	ldrb	w12, [sp, #50]
	strb	w12, [x10, #50]
	ldrb	w12, [sp, #51]
	strb	w12, [x10, #51]
	ldrb	w12, [sp, #52]
	strb	w12, [x10, #52]
	ldrb	w12, [sp, #53]
	strb	w12, [x10, #53]
	ldrb	w12, [sp, #54]
	strb	w12, [x10, #54]
	ldrb	w12, [sp, #55]
	strb	w12, [x10, #55]
	ldrb	w12, [sp, #56]
	strb	w12, [x10, #56]
	ldrb	w12, [sp, #57]
	strb	w12, [x10, #57]
	ldrb	w12, [sp, #58]
	strb	w12, [x10, #58]
	ldrb	w12, [sp, #59]
	strb	w12, [x10, #59]
	ldrb	w12, [sp, #60]
	strb	w12, [x10, #60]
	ldrb	w12, [sp, #61]
	strb	w12, [x10, #61]
	ldrb	w12, [sp, #62]
	strb	w12, [x10, #62]
	ldrb	w12, [sp, #63]
	strb	w12, [x10, #63]
	b	.LBB25_4
.LBB25_3:                               // %apart.2.i.i.i
	ldp	q1, q0, [sp, #32]
	ldp	q2, q3, [sp]
	stp	q1, q0, [x10, #32]
	stp	q2, q3, [x10]
.LBB25_4:                               // %"core::slots::Slots::copy_in::<i8,20'core::clone::U8Clone{}>.exit.i"
	stp	x9, x11, [x0]
	str	x8, [x0, #16]
.LBB25_5:                               // %"std_alloc::vec::Vec::extend_from_slice::<#0cd040e5c49bc722>.exit"
	.cfi_def_cfa wsp, 96
	ldp	x29, x30, [sp, #64]             // 16-byte Folded Reload
	ldr	x19, [sp, #80]                  // 8-byte Reload
	add	sp, sp, #96
	.cfi_def_cfa_offset 0
	.cfi_restore w19
	.cfi_restore w30
	.cfi_restore w29
	ret
.LBB25_6:                               // %"std_alloc::vec::Vec::grow::<#5fdc5e19576447a7>.exit.i"
	.cfi_restore_state
	mov	w1, #64                         // =0x40
	mov	x19, x0
	bl	"std_alloc::vec::Vec::grow_amortized::<#5fdc5e19576447a7>"
	cbz	w0, .LBB25_5
// %bb.7:                               // %"std_alloc::vec::Vec::grow::<#5fdc5e19576447a7>.exit.join.3_crit_edge.i"
	ldp	x11, x8, [x19, #8]
	mov	x0, x19
	b	.LBB25_1
.Lfunc_end25:
	.size	"recoding::list::VecU8Output::put_wide::<#e3b2a9d4d2861db8>", .Lfunc_end25-"recoding::list::VecU8Output::put_wide::<#e3b2a9d4d2861db8>"
	.cfi_endproc
                                        // -- End function
	.section	".text.recoding::kernels::put_judged::<#87c24961b7620b58>","ax",@progbits
	.p2align	2                               // -- Begin function recoding::kernels::put_judged::<#87c24961b7620b58>
	.type	"recoding::kernels::put_judged::<#87c24961b7620b58>",@function
"recoding::kernels::put_judged::<#87c24961b7620b58>": // @"recoding::kernels::put_judged::<#87c24961b7620b58>"
	.cfi_startproc
// %bb.0:                               // %start
	stp	x29, x30, [sp, #-48]!           // 16-byte Folded Spill
	.cfi_def_cfa_offset 48
	str	x21, [sp, #16]                  // 8-byte Spill
	stp	x20, x19, [sp, #32]             // 16-byte Folded Spill
	mov	x29, sp
	.cfi_def_cfa w29, 48
	.cfi_offset w19, -8
	.cfi_offset w20, -16
	.cfi_offset w21, -32
	.cfi_offset w30, -40
	.cfi_offset w29, -48
	ldp	x9, x8, [x2, #8]
	mov	x19, x2
	mov	x20, x0
	sub	x8, x8, x9
	subs	x8, x8, #32
	csel	x8, xzr, x8, lo
	lsr	x8, x8, #1
	cmp	x8, x1
	csel	x1, x8, x1, lo
	bl	"utf_lanes::text_blocks::text_len"
	mov	x21, x0
	cmp	x0, #18
	mov	x0, xzr
	b.ls	.LBB26_2
// %bb.1:                               // %join.3
	mov	x0, x20
	mov	x1, x21
	mov	x2, x19
	bl	"recoding::list::append_units::<#035c64e45cc79e03>"
	mov	x0, x21
.LBB26_2:                               // %common.ret
	.cfi_def_cfa wsp, 48
	ldp	x20, x19, [sp, #32]             // 16-byte Folded Reload
	ldr	x21, [sp, #16]                  // 8-byte Reload
	ldp	x29, x30, [sp], #48             // 16-byte Folded Reload
	.cfi_def_cfa_offset 0
	.cfi_restore w19
	.cfi_restore w20
	.cfi_restore w21
	.cfi_restore w30
	.cfi_restore w29
	ret
.Lfunc_end26:
	.size	"recoding::kernels::put_judged::<#87c24961b7620b58>", .Lfunc_end26-"recoding::kernels::put_judged::<#87c24961b7620b58>"
	.cfi_endproc
                                        // -- End function
	.section	".text.recoding::list::append_units::<#035c64e45cc79e03>","ax",@progbits
	.p2align	2                               // -- Begin function recoding::list::append_units::<#035c64e45cc79e03>
	.type	"recoding::list::append_units::<#035c64e45cc79e03>",@function
"recoding::list::append_units::<#035c64e45cc79e03>": // @"recoding::list::append_units::<#035c64e45cc79e03>"
	.cfi_startproc
// %bb.0:                               // %start
	stp	x29, x30, [sp, #-80]!           // 16-byte Folded Spill
	.cfi_def_cfa_offset 80
	stp	x26, x25, [sp, #16]             // 16-byte Folded Spill
	stp	x24, x23, [sp, #32]             // 16-byte Folded Spill
	stp	x22, x21, [sp, #48]             // 16-byte Folded Spill
	stp	x20, x19, [sp, #64]             // 16-byte Folded Spill
	mov	x29, sp
	.cfi_def_cfa w29, 80
	.cfi_offset w19, -8
	.cfi_offset w20, -16
	.cfi_offset w21, -24
	.cfi_offset w22, -32
	.cfi_offset w23, -40
	.cfi_offset w24, -48
	.cfi_offset w25, -56
	.cfi_offset w26, -64
	.cfi_offset w30, -72
	.cfi_offset w29, -80
	.cfi_remember_state
	lsl	x8, x1, #1
	ldr	x21, [x2, #8]
	mov	x19, x2
	mov	x20, x1
	mov	x22, x0
	add	x23, x8, #32
	cmp	x23, #1985
	b.hs	.LBB27_6
// %bb.1:
	mov	x8, x21
	add	x24, x21, x23
	cmp	x24, x21
	b.hi	.LBB27_14
.LBB27_2:                               // %then.1.i12
	cmp	x8, x24
	b.ls	.LBB27_18
// %bb.3:                               // %join.3.i.i15
	str	x24, [x19, #8]
	b	.LBB27_18
.LBB27_4:                               // %join.3.i.i
                                        //   in Loop: Header=BB27_6 Depth=1
	add	x8, x8, #1984
	str	x8, [x19, #8]
.LBB27_5:                               // %"std_alloc::vec::Vec::resize::<#0cd040e5c49bc722>.exit"
                                        //   in Loop: Header=BB27_6 Depth=1
	sub	x23, x23, #1984
	cmp	x23, #1984
	b.ls	.LBB27_13
.LBB27_6:                               // %join.5.i
                                        // =>This Inner Loop Header: Depth=1
	ldr	x8, [x19, #8]
	cmn	x8, #1984
	b.hs	.LBB27_4
// %bb.7:                               // %join.3.i
                                        //   in Loop: Header=BB27_6 Depth=1
	ldr	x24, [x19, #16]
	sub	x9, x24, x8
	cmp	x9, #1984
	b.lo	.LBB27_11
// %bb.8:                               // %join.3.i2.i.thread
                                        //   in Loop: Header=BB27_6 Depth=1
	ldr	x25, [x19]
	add	x26, x8, #1984
.LBB27_9:                               // %join.5.preheader.i.i.i
                                        //   in Loop: Header=BB27_6 Depth=1
	add	x0, x25, x8
	mov	w1, wzr
	mov	w2, #1984                       // =0x7c0
	bl	memset
.LBB27_10:                              // %"std_alloc::vec::opened::fill_run::<i8,20'core::clone::U8Clone{}>.exit.i.i"
                                        //   in Loop: Header=BB27_6 Depth=1
	stp	x25, x26, [x19]
	str	x24, [x19, #16]
	b	.LBB27_5
.LBB27_11:                              // %"std_alloc::vec::Vec::grow::<#5fdc5e19576447a7>.exit.i.i"
                                        //   in Loop: Header=BB27_6 Depth=1
	mov	x0, x19
	mov	w1, #1984                       // =0x7c0
	bl	"std_alloc::vec::Vec::grow_amortized::<#5fdc5e19576447a7>"
	cbz	w0, .LBB27_5
// %bb.12:                              // %join.3.i2.i
                                        //   in Loop: Header=BB27_6 Depth=1
	ldp	x8, x24, [x19, #8]
	ldr	x25, [x19]
	cmn	x8, #1985
	add	x26, x8, #1984
	b.ls	.LBB27_9
	b	.LBB27_10
.LBB27_13:                              // %"recoding::list::append_zeros::<#e3b2a9d4d2861db8>.exit.loopexit"
	ldr	x8, [x19, #8]
	add	x24, x8, x23
	cmp	x24, x8
	b.ls	.LBB27_2
.LBB27_14:                              // %join.3.i16
	ldr	x25, [x19, #16]
	sub	x9, x25, x8
	cmp	x23, x9
	b.hi	.LBB27_21
// %bb.15:                              // %join.3.i2.i21
	ldr	x26, [x19]
	cmp	x8, x24
	b.hs	.LBB27_17
.LBB27_16:                              // %join.5.preheader.i.i.i28
	add	x0, x26, x8
	mov	w1, wzr
	mov	x2, x23
	bl	memset
.LBB27_17:                              // %"std_alloc::vec::opened::fill_run::<i8,20'core::clone::U8Clone{}>.exit.i.i27"
	stp	x26, x24, [x19]
	str	x25, [x19, #16]
.LBB27_18:                              // %"std_alloc::vec::Vec::resize::<#0cd040e5c49bc722>.exit35"
	ldr	x2, [x19]
	mov	x0, x22
	mov	x1, x20
	mov	x3, x21
	bl	"recoding::utf8_to_utf16::widen_text::<#951b42d46d2e9f62>"
	ldr	x8, [x19, #8]
	cmp	x8, x0
	b.ls	.LBB27_20
// %bb.19:                              // %join.3.i37
	str	x0, [x19, #8]
.LBB27_20:                              // %"std_alloc::vec::Vec::truncate::<#8193b041ae25b2e3>.exit"
	.cfi_def_cfa wsp, 80
	ldp	x20, x19, [sp, #64]             // 16-byte Folded Reload
	ldp	x22, x21, [sp, #48]             // 16-byte Folded Reload
	ldp	x24, x23, [sp, #32]             // 16-byte Folded Reload
	ldp	x26, x25, [sp, #16]             // 16-byte Folded Reload
	ldp	x29, x30, [sp], #80             // 16-byte Folded Reload
	.cfi_def_cfa_offset 0
	.cfi_restore w19
	.cfi_restore w20
	.cfi_restore w21
	.cfi_restore w22
	.cfi_restore w23
	.cfi_restore w24
	.cfi_restore w25
	.cfi_restore w26
	.cfi_restore w30
	.cfi_restore w29
	ret
.LBB27_21:                              // %"std_alloc::vec::Vec::grow::<#5fdc5e19576447a7>.exit.i.i30"
	.cfi_restore_state
	mov	x0, x19
	mov	x1, x23
	bl	"std_alloc::vec::Vec::grow_amortized::<#5fdc5e19576447a7>"
	cbz	w0, .LBB27_18
// %bb.22:                              // %"std_alloc::vec::Vec::grow::<#5fdc5e19576447a7>.exit.join.3_crit_edge.i.i32"
	ldp	x8, x25, [x19, #8]
	add	x24, x8, x23
	ldr	x26, [x19]
	cmp	x8, x24
	b.lo	.LBB27_16
	b	.LBB27_17
.Lfunc_end27:
	.size	"recoding::list::append_units::<#035c64e45cc79e03>", .Lfunc_end27-"recoding::list::append_units::<#035c64e45cc79e03>"
	.cfi_endproc
                                        // -- End function
	.section	.rodata.cst16,"aM",@progbits,16
	.p2align	4, 0x0                          // -- Begin function recoding::utf8_to_utf16::widen_text::<#951b42d46d2e9f62>
.LCPI28_0:
	.byte	1                               // 0x1
	.byte	2                               // 0x2
	.byte	4                               // 0x4
	.byte	8                               // 0x8
	.byte	16                              // 0x10
	.byte	32                              // 0x20
	.byte	64                              // 0x40
	.byte	128                             // 0x80
	.byte	1                               // 0x1
	.byte	2                               // 0x2
	.byte	4                               // 0x4
	.byte	8                               // 0x8
	.byte	16                              // 0x10
	.byte	32                              // 0x20
	.byte	64                              // 0x40
	.byte	128                             // 0x80
.LCPI28_1:
	.byte	8                               // 0x8
	.byte	255                             // 0xff
	.byte	9                               // 0x9
	.byte	255                             // 0xff
	.byte	10                              // 0xa
	.byte	255                             // 0xff
	.byte	11                              // 0xb
	.byte	255                             // 0xff
	.byte	12                              // 0xc
	.byte	255                             // 0xff
	.byte	13                              // 0xd
	.byte	255                             // 0xff
	.byte	14                              // 0xe
	.byte	255                             // 0xff
	.byte	15                              // 0xf
	.byte	255                             // 0xff
.LCPI28_2:
	.byte	0                               // 0x0
	.byte	255                             // 0xff
	.byte	1                               // 0x1
	.byte	255                             // 0xff
	.byte	2                               // 0x2
	.byte	255                             // 0xff
	.byte	3                               // 0x3
	.byte	255                             // 0xff
	.byte	4                               // 0x4
	.byte	255                             // 0xff
	.byte	5                               // 0x5
	.byte	255                             // 0xff
	.byte	6                               // 0x6
	.byte	255                             // 0xff
	.byte	7                               // 0x7
	.byte	255                             // 0xff
	.section	".text.recoding::utf8_to_utf16::widen_text::<#951b42d46d2e9f62>","ax",@progbits
	.p2align	2
	.type	"recoding::utf8_to_utf16::widen_text::<#951b42d46d2e9f62>",@function
"recoding::utf8_to_utf16::widen_text::<#951b42d46d2e9f62>": // @"recoding::utf8_to_utf16::widen_text::<#951b42d46d2e9f62>"
	.cfi_startproc
// %bb.0:                               // %start
	sub	sp, sp, #176
	.cfi_def_cfa_offset 176
	stp	x29, x30, [sp, #80]             // 16-byte Folded Spill
	str	x27, [sp, #96]                  // 8-byte Spill
	stp	x26, x25, [sp, #112]            // 16-byte Folded Spill
	stp	x24, x23, [sp, #128]            // 16-byte Folded Spill
	stp	x22, x21, [sp, #144]            // 16-byte Folded Spill
	stp	x20, x19, [sp, #160]            // 16-byte Folded Spill
	add	x29, sp, #80
	.cfi_def_cfa w29, 96
	.cfi_offset w19, -8
	.cfi_offset w20, -16
	.cfi_offset w21, -24
	.cfi_offset w22, -32
	.cfi_offset w23, -40
	.cfi_offset w24, -48
	.cfi_offset w25, -56
	.cfi_offset w26, -64
	.cfi_offset w27, -80
	.cfi_offset w30, -88
	.cfi_offset w29, -96
	movi	v2.2d, #0000000000000000
	ldr	q3, [x0]
	movi	v5.16b, #239
	adrp	x8, .LCPI28_0
	mov	x20, x3
	mov	x19, x2
	ldr	q16, [x8, :lo12:.LCPI28_0]
	mov	x21, x0
	mov	x22, x1
	ext	v1.16b, v2.16b, v3.16b, #14
	ext	v0.16b, v2.16b, v3.16b, #13
	ext	v2.16b, v2.16b, v3.16b, #15
	str	q16, [sp, #32]                  // 16-byte Spill
	umax	v4.16b, v1.16b, v0.16b
	cmhi	v4.16b, v4.16b, v5.16b
	and	v4.16b, v4.16b, v16.16b
	addp	v4.16b, v4.16b, v4.16b
	addp	v4.16b, v4.16b, v4.16b
	addp	v4.16b, v4.16b, v4.16b
	umov	w8, v4.h[0]
	cbz	w8, .LBB28_2
// %bb.1:                               // %else.2.i.i
	sub	x0, x29, #32
	stp	q2, q3, [sp]                    // 32-byte Folded Spill
	bl	"utf_lanes::text_units::long_halves"
	ldp	q2, q3, [sp]                    // 32-byte Folded Reload
	ldr	q16, [sp, #32]                  // 16-byte Reload
	ldp	q1, q0, [x29, #-32]
	b	.LBB28_3
.LBB28_2:                               // %then.1.i.i
	cmlt	v0.16b, v3.16b, #0
	movi	v6.16b, #224
	movi	v4.16b, #127
	and	v5.16b, v0.16b, v2.16b
	uqsub	v1.16b, v1.16b, v6.16b
	and	v6.16b, v3.16b, v4.16b
	ushr	v0.16b, v5.16b, #2
	shl	v4.16b, v5.16b, #6
	sli	v0.16b, v1.16b, #4
	add	v1.16b, v4.16b, v6.16b
.LBB28_3:                               // %"utf_lanes::text_puts::write_first::<#951b42d46d2e9f62>.exit"
	movi	v4.16b, #32
	adrp	x23, .Lstatic.17
	add	x23, x23, :lo12:.Lstatic.17
	add	x11, x19, x20
	uqsub	v2.16b, v2.16b, v4.16b
	movi	v4.16b, #192
	umax	v2.16b, v2.16b, v3.16b
	cmhi	v2.16b, v4.16b, v2.16b
	zip1	v4.16b, v1.16b, v0.16b
	zip2	v0.16b, v1.16b, v0.16b
	and	v2.16b, v2.16b, v16.16b
	addp	v2.16b, v2.16b, v2.16b
	addp	v2.16b, v2.16b, v2.16b
	addp	v2.16b, v2.16b, v2.16b
	umov	w8, v2.h[0]
	and	x9, x8, #0xff
	ubfx	x8, x8, #8, #8
	fmov	d2, x9
	ldr	q5, [x23, x9, lsl #4]
	fmov	d3, x8
	ldr	q1, [x23, x8, lsl #4]
	cnt	v2.8b, v2.8b
	tbl	v0.16b, { v0.16b }, v1.16b
	cnt	v3.8b, v3.8b
	fmov	w9, s2
	tbl	v2.16b, { v4.16b }, v5.16b
	fmov	w8, s3
	ubfiz	x10, x9, #1, #32
	add	x8, x9, x8
	sub	x9, x22, #80
	str	q2, [x11]
	add	x20, x20, x8, lsl #1
	cmn	x9, #65
	str	q0, [x11, x10]
	b.hi	.LBB28_26
// %bb.4:                               // %join.5.i541.lr.ph
	mov	x24, xzr
	sub	x25, x22, #16
.LBB28_5:                               // %join.5.i541
                                        // =>This Inner Loop Header: Depth=1
	add	x8, x21, x24
	ldrsb	w9, [x8, #16]
	tbnz	w9, #31, .LBB28_11
// %bb.6:                               // %join.3.i545
                                        //   in Loop: Header=BB28_5 Depth=1
	ldp	q3, q0, [x8, #16]
	ldp	q2, q1, [x8, #48]
	orr	v2.16b, v2.16b, v3.16b
	orr	v0.16b, v1.16b, v0.16b
	cmlt	v0.16b, v0.16b, #0
	cmlt	v1.16b, v2.16b, #0
	and	v1.16b, v1.16b, v16.16b
	and	v0.16b, v0.16b, v16.16b
	addp	v0.16b, v1.16b, v0.16b
	addp	v0.16b, v0.16b, v0.16b
	addp	v0.16b, v0.16b, v0.16b
	fmov	w9, s0
	cbnz	w9, .LBB28_12
// %bb.7:                               // %then.4.i
                                        //   in Loop: Header=BB28_5 Depth=1
	add	x9, x21, x24
	ldrb	w10, [x9, #15]
	cmp	w10, #191
	b.hi	.LBB28_12
// %bb.8:                               // %join.3.i.i
                                        //   in Loop: Header=BB28_5 Depth=1
	ldrb	w9, [x9, #14]
	cmp	w9, #223
	b.hi	.LBB28_12
// %bb.9:                               // %"recoding::utf8_to_utf16::is_plain.exit"
                                        //   in Loop: Header=BB28_5 Depth=1
	add	x9, x21, x24
	ldrb	w9, [x9, #13]
	cmp	w9, #239
	b.hi	.LBB28_12
// %bb.10:                              // %then.1.i
                                        //   in Loop: Header=BB28_5 Depth=1
	adrp	x9, .LCPI28_2
	ldp	q3, q0, [x8, #16]
	ldr	q1, [x9, :lo12:.LCPI28_2]
	adrp	x9, .LCPI28_1
	ldr	q2, [x9, :lo12:.LCPI28_1]
	ldp	q7, q5, [x8, #48]
	tbl	v4.16b, { v0.16b }, v1.16b
	add	x9, x19, x20
	tbl	v6.16b, { v3.16b }, v1.16b
	tbl	v0.16b, { v0.16b }, v2.16b
	tbl	v3.16b, { v3.16b }, v2.16b
	add	x20, x20, #128
	stp	q6, q3, [x9]
	stp	q4, q0, [x9, #32]
	tbl	v4.16b, { v5.16b }, v1.16b
	tbl	v5.16b, { v5.16b }, v2.16b
	tbl	v0.16b, { v7.16b }, v1.16b
	tbl	v1.16b, { v7.16b }, v2.16b
	stp	q4, q5, [x9, #96]
	stp	q0, q1, [x9, #64]
	sub	x25, x25, #64
	add	x24, x24, #64
	cmp	x25, #63
	b.hi	.LBB28_5
	b	.LBB28_25
.LBB28_11:                              // %join.5.i541.join.3.i_crit_edge
                                        //   in Loop: Header=BB28_5 Depth=1
	ldr	q3, [x8, #16]
.LBB28_12:                              // %join.3.i
                                        //   in Loop: Header=BB28_5 Depth=1
	add	x8, x21, x24
	movi	v2.16b, #239
	ldur	q1, [x8, #14]
	ldur	q0, [x8, #13]
	umax	v4.16b, v1.16b, v0.16b
	cmhi	v2.16b, v4.16b, v2.16b
	and	v2.16b, v2.16b, v16.16b
	addp	v2.16b, v2.16b, v2.16b
	addp	v2.16b, v2.16b, v2.16b
	addp	v2.16b, v2.16b, v2.16b
	umov	w9, v2.h[0]
	ldur	q2, [x8, #15]
	cbz	w9, .LBB28_14
// %bb.13:                              // %else.2.i.i.i
                                        //   in Loop: Header=BB28_5 Depth=1
	sub	x0, x29, #32
	stp	q2, q3, [sp]                    // 32-byte Folded Spill
	bl	"utf_lanes::text_units::long_halves"
	ldp	q2, q3, [sp]                    // 32-byte Folded Reload
	ldr	q16, [sp, #32]                  // 16-byte Reload
	ldp	q1, q0, [x29, #-32]
	b	.LBB28_15
.LBB28_14:                              // %then.1.i.i.i
                                        //   in Loop: Header=BB28_5 Depth=1
	cmlt	v0.16b, v3.16b, #0
	movi	v6.16b, #224
	movi	v4.16b, #127
	and	v5.16b, v0.16b, v2.16b
	uqsub	v1.16b, v1.16b, v6.16b
	and	v6.16b, v3.16b, v4.16b
	ushr	v0.16b, v5.16b, #2
	shl	v4.16b, v5.16b, #6
	sli	v0.16b, v1.16b, #4
	add	v1.16b, v4.16b, v6.16b
.LBB28_15:                              // %"utf_lanes::text_units::block_units::<#951b42d46d2e9f62>.exit.i"
                                        //   in Loop: Header=BB28_5 Depth=1
	movi	v4.16b, #32
	uqsub	v2.16b, v2.16b, v4.16b
	movi	v4.16b, #192
	umax	v2.16b, v2.16b, v3.16b
	zip1	v3.16b, v1.16b, v0.16b
	zip2	v0.16b, v1.16b, v0.16b
	cmhi	v2.16b, v4.16b, v2.16b
	and	v2.16b, v2.16b, v16.16b
	addp	v2.16b, v2.16b, v2.16b
	addp	v2.16b, v2.16b, v2.16b
	addp	v2.16b, v2.16b, v2.16b
	umov	w8, v2.h[0]
	and	x9, x8, #0xff
	ubfx	x27, x8, #8, #8
	fmov	d2, x9
	ldr	q4, [x23, x9, lsl #4]
	add	x9, x19, x20
	tbl	v1.16b, { v3.16b }, v4.16b
	cnt	v2.8b, v2.8b
	fmov	w26, s2
	ldr	q2, [x23, x27, lsl #4]
	str	q1, [x9]
	tbl	v0.16b, { v0.16b }, v2.16b
	movi	v2.16b, #239
	mov	w8, w26
	ubfiz	x8, x8, #1, #32
	str	q0, [x9, x8]
	add	x8, x21, x24
	ldur	q1, [x8, #30]
	ldur	q0, [x8, #29]
	umax	v3.16b, v1.16b, v0.16b
	cmhi	v2.16b, v3.16b, v2.16b
	ldr	q3, [x8, #32]
	and	v2.16b, v2.16b, v16.16b
	addp	v2.16b, v2.16b, v2.16b
	addp	v2.16b, v2.16b, v2.16b
	addp	v2.16b, v2.16b, v2.16b
	umov	w9, v2.h[0]
	ldur	q2, [x8, #31]
	cbz	w9, .LBB28_17
// %bb.16:                              // %else.2.i.i404.i
                                        //   in Loop: Header=BB28_5 Depth=1
	sub	x0, x29, #32
	stp	q2, q3, [sp]                    // 32-byte Folded Spill
	bl	"utf_lanes::text_units::long_halves"
	ldp	q2, q3, [sp]                    // 32-byte Folded Reload
	ldr	q16, [sp, #32]                  // 16-byte Reload
	ldp	q1, q0, [x29, #-32]
	b	.LBB28_18
.LBB28_17:                              // %then.1.i.i603.i
                                        //   in Loop: Header=BB28_5 Depth=1
	cmlt	v0.16b, v3.16b, #0
	movi	v6.16b, #224
	movi	v4.16b, #127
	and	v5.16b, v0.16b, v2.16b
	uqsub	v1.16b, v1.16b, v6.16b
	and	v6.16b, v3.16b, v4.16b
	ushr	v0.16b, v5.16b, #2
	shl	v4.16b, v5.16b, #6
	sli	v0.16b, v1.16b, #4
	add	v1.16b, v4.16b, v6.16b
.LBB28_18:                              // %"utf_lanes::text_units::block_units::<#951b42d46d2e9f62>.exit618.i"
                                        //   in Loop: Header=BB28_5 Depth=1
	movi	v4.16b, #32
	uqsub	v2.16b, v2.16b, v4.16b
	movi	v4.16b, #192
	umax	v2.16b, v2.16b, v3.16b
	cmhi	v2.16b, v4.16b, v2.16b
	and	v2.16b, v2.16b, v16.16b
	addp	v2.16b, v2.16b, v2.16b
	addp	v2.16b, v2.16b, v2.16b
	addp	v2.16b, v2.16b, v2.16b
	umov	w8, v2.h[0]
	fmov	d2, x27
	cnt	v2.8b, v2.8b
	and	x9, x8, #0xff
	ubfx	x27, x8, #8, #8
	fmov	d3, x9
	fmov	w10, s2
	zip1	v2.16b, v1.16b, v0.16b
	zip2	v0.16b, v1.16b, v0.16b
	cnt	v3.8b, v3.8b
	ldr	q1, [x23, x9, lsl #4]
	add	x9, x26, x10
	lsl	x10, x9, #1
	tbl	v1.16b, { v2.16b }, v1.16b
	movi	v2.16b, #239
	fmov	w8, s3
	ldr	q3, [x23, x27, lsl #4]
	tbl	v0.16b, { v0.16b }, v3.16b
	add	x26, x8, x9
	add	x8, x19, x10
	add	x9, x19, x26, lsl #1
	str	q1, [x8, x20]
	add	x8, x21, x24
	str	q0, [x9, x20]
	ldur	q1, [x8, #46]
	ldur	q0, [x8, #45]
	umax	v3.16b, v1.16b, v0.16b
	cmhi	v2.16b, v3.16b, v2.16b
	ldr	q3, [x8, #48]
	and	v2.16b, v2.16b, v16.16b
	addp	v2.16b, v2.16b, v2.16b
	addp	v2.16b, v2.16b, v2.16b
	addp	v2.16b, v2.16b, v2.16b
	umov	w9, v2.h[0]
	ldur	q2, [x8, #47]
	cbz	w9, .LBB28_20
// %bb.19:                              // %else.2.i.i676.i
                                        //   in Loop: Header=BB28_5 Depth=1
	sub	x0, x29, #32
	stp	q2, q3, [sp]                    // 32-byte Folded Spill
	bl	"utf_lanes::text_units::long_halves"
	ldp	q2, q3, [sp]                    // 32-byte Folded Reload
	ldr	q16, [sp, #32]                  // 16-byte Reload
	ldp	q1, q0, [x29, #-32]
	b	.LBB28_21
.LBB28_20:                              // %then.1.i.i875.i
                                        //   in Loop: Header=BB28_5 Depth=1
	cmlt	v0.16b, v3.16b, #0
	movi	v6.16b, #224
	movi	v4.16b, #127
	and	v5.16b, v0.16b, v2.16b
	uqsub	v1.16b, v1.16b, v6.16b
	and	v6.16b, v3.16b, v4.16b
	ushr	v0.16b, v5.16b, #2
	shl	v4.16b, v5.16b, #6
	sli	v0.16b, v1.16b, #4
	add	v1.16b, v4.16b, v6.16b
.LBB28_21:                              // %"utf_lanes::text_units::block_units::<#951b42d46d2e9f62>.exit890.i"
                                        //   in Loop: Header=BB28_5 Depth=1
	movi	v4.16b, #32
	uqsub	v2.16b, v2.16b, v4.16b
	movi	v4.16b, #192
	umax	v2.16b, v2.16b, v3.16b
	cmhi	v2.16b, v4.16b, v2.16b
	and	v2.16b, v2.16b, v16.16b
	addp	v2.16b, v2.16b, v2.16b
	addp	v2.16b, v2.16b, v2.16b
	addp	v2.16b, v2.16b, v2.16b
	umov	w8, v2.h[0]
	fmov	d2, x27
	cnt	v2.8b, v2.8b
	and	x9, x8, #0xff
	ubfx	x27, x8, #8, #8
	fmov	d3, x9
	fmov	w10, s2
	zip1	v2.16b, v1.16b, v0.16b
	zip2	v0.16b, v1.16b, v0.16b
	cnt	v3.8b, v3.8b
	ldr	q1, [x23, x9, lsl #4]
	add	x9, x26, x10
	lsl	x10, x9, #1
	tbl	v1.16b, { v2.16b }, v1.16b
	movi	v2.16b, #239
	fmov	w8, s3
	ldr	q3, [x23, x27, lsl #4]
	tbl	v0.16b, { v0.16b }, v3.16b
	add	x26, x8, x9
	add	x8, x19, x10
	add	x9, x19, x26, lsl #1
	str	q1, [x8, x20]
	add	x8, x21, x24
	str	q0, [x9, x20]
	ldur	q1, [x8, #62]
	ldur	q0, [x8, #61]
	umax	v3.16b, v1.16b, v0.16b
	cmhi	v2.16b, v3.16b, v2.16b
	ldr	q3, [x8, #64]
	and	v2.16b, v2.16b, v16.16b
	addp	v2.16b, v2.16b, v2.16b
	addp	v2.16b, v2.16b, v2.16b
	addp	v2.16b, v2.16b, v2.16b
	umov	w9, v2.h[0]
	ldur	q2, [x8, #63]
	cbz	w9, .LBB28_23
// %bb.22:                              // %else.2.i.i948.i
                                        //   in Loop: Header=BB28_5 Depth=1
	sub	x0, x29, #32
	stp	q2, q3, [sp]                    // 32-byte Folded Spill
	bl	"utf_lanes::text_units::long_halves"
	ldp	q2, q3, [sp]                    // 32-byte Folded Reload
	ldr	q16, [sp, #32]                  // 16-byte Reload
	ldp	q1, q0, [x29, #-32]
	b	.LBB28_24
.LBB28_23:                              // %then.1.i.i1147.i
                                        //   in Loop: Header=BB28_5 Depth=1
	cmlt	v0.16b, v3.16b, #0
	movi	v6.16b, #224
	movi	v4.16b, #127
	and	v5.16b, v0.16b, v2.16b
	uqsub	v1.16b, v1.16b, v6.16b
	and	v6.16b, v3.16b, v4.16b
	ushr	v0.16b, v5.16b, #2
	shl	v4.16b, v5.16b, #6
	sli	v0.16b, v1.16b, #4
	add	v1.16b, v4.16b, v6.16b
.LBB28_24:                              // %"utf_lanes::text_puts::write_64::<#951b42d46d2e9f62>.exit"
                                        //   in Loop: Header=BB28_5 Depth=1
	movi	v4.16b, #32
	uqsub	v2.16b, v2.16b, v4.16b
	movi	v4.16b, #192
	umax	v2.16b, v2.16b, v3.16b
	cmhi	v2.16b, v4.16b, v2.16b
	and	v2.16b, v2.16b, v16.16b
	addp	v2.16b, v2.16b, v2.16b
	addp	v2.16b, v2.16b, v2.16b
	addp	v2.16b, v2.16b, v2.16b
	umov	w8, v2.h[0]
	fmov	d2, x27
	cnt	v2.8b, v2.8b
	and	x9, x8, #0xff
	ubfx	x8, x8, #8, #8
	fmov	d3, x9
	fmov	d4, x8
	fmov	w10, s2
	zip1	v2.16b, v1.16b, v0.16b
	zip2	v0.16b, v1.16b, v0.16b
	cnt	v3.8b, v3.8b
	ldr	q1, [x23, x9, lsl #4]
	cnt	v4.8b, v4.8b
	tbl	v1.16b, { v2.16b }, v1.16b
	fmov	w9, s3
	ldr	q3, [x23, x8, lsl #4]
	add	x8, x26, x10
	lsl	x10, x8, #1
	fmov	w11, s4
	tbl	v0.16b, { v0.16b }, v3.16b
	add	x8, x9, x8
	add	x9, x19, x10
	add	x10, x19, x8, lsl #1
	add	x8, x8, x11
	str	q1, [x9, x20]
	str	q0, [x10, x20]
	add	x20, x20, x8, lsl #1
	sub	x25, x25, #64
	add	x24, x24, #64
	cmp	x25, #63
	b.hi	.LBB28_5
.LBB28_25:                              // %loop.2.i.preheader.loopexit
	add	x8, x24, #16
	sub	x9, x22, x8
	cmp	x9, #16
	b.hs	.LBB28_27
	b	.LBB28_33
.LBB28_26:
	mov	w8, #16                         // =0x10
	sub	x9, x22, x8
	cmp	x9, #16
	b.lo	.LBB28_33
.LBB28_27:                              // %join.5.i.lr.ph
	add	x9, x8, x21
	neg	x24, x8
	sub	x25, x9, #1
	b	.LBB28_30
.LBB28_28:                              // %then.1.i.i520
                                        //   in Loop: Header=BB28_30 Depth=1
	cmlt	v0.16b, v3.16b, #0
	movi	v6.16b, #224
	movi	v4.16b, #127
	and	v5.16b, v0.16b, v2.16b
	uqsub	v1.16b, v1.16b, v6.16b
	and	v6.16b, v3.16b, v4.16b
	ushr	v0.16b, v5.16b, #2
	shl	v4.16b, v5.16b, #6
	sli	v0.16b, v1.16b, #4
	add	v1.16b, v4.16b, v6.16b
.LBB28_29:                              // %"utf_lanes::text_units::block_units::<#951b42d46d2e9f62>.exit535"
                                        //   in Loop: Header=BB28_30 Depth=1
	movi	v4.16b, #32
	sub	x24, x24, #16
	add	x11, x19, x20
	add	x25, x25, #16
	uqsub	v2.16b, v2.16b, v4.16b
	movi	v4.16b, #192
	umax	v2.16b, v2.16b, v3.16b
	cmhi	v2.16b, v4.16b, v2.16b
	zip1	v4.16b, v1.16b, v0.16b
	zip2	v0.16b, v1.16b, v0.16b
	and	v2.16b, v2.16b, v16.16b
	addp	v2.16b, v2.16b, v2.16b
	addp	v2.16b, v2.16b, v2.16b
	addp	v2.16b, v2.16b, v2.16b
	umov	w8, v2.h[0]
	and	x9, x8, #0xff
	ubfx	x8, x8, #8, #8
	fmov	d2, x9
	ldr	q5, [x23, x9, lsl #4]
	fmov	d3, x8
	ldr	q1, [x23, x8, lsl #4]
	cnt	v2.8b, v2.8b
	tbl	v0.16b, { v0.16b }, v1.16b
	cnt	v3.8b, v3.8b
	fmov	w9, s2
	tbl	v2.16b, { v4.16b }, v5.16b
	fmov	w8, s3
	ubfiz	x10, x9, #1, #32
	add	x8, x9, x8
	add	x9, x22, x24
	str	q2, [x11]
	add	x20, x20, x8, lsl #1
	cmp	x9, #15
	str	q0, [x11, x10]
	b.ls	.LBB28_32
.LBB28_30:                              // %join.5.i
                                        // =>This Inner Loop Header: Depth=1
	ldur	q1, [x25, #-1]
	ldur	q0, [x25, #-2]
	movi	v2.16b, #239
	umax	v3.16b, v1.16b, v0.16b
	cmhi	v2.16b, v3.16b, v2.16b
	ldur	q3, [x25, #1]
	and	v2.16b, v2.16b, v16.16b
	addp	v2.16b, v2.16b, v2.16b
	addp	v2.16b, v2.16b, v2.16b
	addp	v2.16b, v2.16b, v2.16b
	umov	w8, v2.h[0]
	ldr	q2, [x25]
	cbz	w8, .LBB28_28
// %bb.31:                              // %else.2.i.i321
                                        //   in Loop: Header=BB28_30 Depth=1
	sub	x0, x29, #32
	stp	q2, q3, [sp]                    // 32-byte Folded Spill
	bl	"utf_lanes::text_units::long_halves"
	ldp	q2, q3, [sp]                    // 32-byte Folded Reload
	ldr	q16, [sp, #32]                  // 16-byte Reload
	ldp	q1, q0, [x29, #-32]
	b	.LBB28_29
.LBB28_32:                              // %after.1.i.loopexit
	neg	x8, x24
.LBB28_33:                              // %after.1.i
	cmp	x8, x22
	b.hs	.LBB28_38
// %bb.34:                              // %then.6.i
	sub	x9, x22, #16
	movi	v2.16b, #239
	add	x10, x21, x9
	sub	x21, x8, x9
	ldur	q1, [x10, #-2]
	ldur	q0, [x10, #-3]
	umax	v3.16b, v1.16b, v0.16b
	cmhi	v2.16b, v3.16b, v2.16b
	ldr	q3, [x10]
	and	v2.16b, v2.16b, v16.16b
	addp	v2.16b, v2.16b, v2.16b
	addp	v2.16b, v2.16b, v2.16b
	addp	v2.16b, v2.16b, v2.16b
	umov	w11, v2.h[0]
	ldur	q2, [x10, #-1]
	cbz	w11, .LBB28_36
// %bb.35:                              // %else.2.i.i193
	sub	x0, x29, #32
	stp	q2, q3, [sp]                    // 32-byte Folded Spill
	bl	"utf_lanes::text_units::long_halves"
	ldp	q2, q3, [sp]                    // 32-byte Folded Reload
	ldr	q16, [sp, #32]                  // 16-byte Reload
	ldp	q1, q0, [x29, #-32]
	b	.LBB28_37
.LBB28_36:                              // %then.1.i.i253
	cmlt	v0.16b, v3.16b, #0
	movi	v6.16b, #224
	movi	v4.16b, #127
	and	v5.16b, v0.16b, v2.16b
	uqsub	v1.16b, v1.16b, v6.16b
	and	v6.16b, v3.16b, v4.16b
	ushr	v0.16b, v5.16b, #2
	shl	v4.16b, v5.16b, #6
	sli	v0.16b, v1.16b, #4
	add	v1.16b, v4.16b, v6.16b
.LBB28_37:                              // %"utf_lanes::text_units::block_units::<#951b42d46d2e9f62>.exit"
	movi	v4.16b, #32
	add	x11, x19, x20
	uqsub	v2.16b, v2.16b, v4.16b
	movi	v4.16b, #192
	umax	v2.16b, v2.16b, v3.16b
	zip1	v3.16b, v1.16b, v0.16b
	zip2	v0.16b, v1.16b, v0.16b
	cmhi	v2.16b, v4.16b, v2.16b
	and	v2.16b, v2.16b, v16.16b
	addp	v2.16b, v2.16b, v2.16b
	addp	v2.16b, v2.16b, v2.16b
	addp	v2.16b, v2.16b, v2.16b
	umov	w8, v2.h[0]
	lsr	x8, x8, x21
	lsl	x8, x8, x21
	ubfx	x9, x8, #8, #32
	fmov	d2, x9
	and	x9, x8, #0xff
	lsr	x8, x8, #8
	fmov	d4, x9
	ldr	q5, [x23, x9, lsl #4]
	cnt	v2.8b, v2.8b
	tbl	v1.16b, { v3.16b }, v5.16b
	ldr	q3, [x23, x8, lsl #4]
	cnt	v4.8b, v4.8b
	tbl	v0.16b, { v0.16b }, v3.16b
	addv	b2, v2.8b
	str	q1, [x11]
	fmov	w9, s4
	fmov	w8, s2
	ubfiz	x10, x9, #1, #32
	add	x8, x9, x8
	str	q0, [x11, x10]
	add	x20, x20, x8, lsl #1
.LBB28_38:                              // %"utf_lanes::text_puts::write_rest::<#951b42d46d2e9f62>.exit"
	mov	x0, x20
	.cfi_def_cfa wsp, 176
	ldp	x20, x19, [sp, #160]            // 16-byte Folded Reload
	ldr	x27, [sp, #96]                  // 8-byte Reload
	ldp	x22, x21, [sp, #144]            // 16-byte Folded Reload
	ldp	x24, x23, [sp, #128]            // 16-byte Folded Reload
	ldp	x26, x25, [sp, #112]            // 16-byte Folded Reload
	ldp	x29, x30, [sp, #80]             // 16-byte Folded Reload
	add	sp, sp, #176
	.cfi_def_cfa_offset 0
	.cfi_restore w19
	.cfi_restore w20
	.cfi_restore w21
	.cfi_restore w22
	.cfi_restore w23
	.cfi_restore w24
	.cfi_restore w25
	.cfi_restore w26
	.cfi_restore w27
	.cfi_restore w30
	.cfi_restore w29
	ret
.Lfunc_end28:
	.size	"recoding::utf8_to_utf16::widen_text::<#951b42d46d2e9f62>", .Lfunc_end28-"recoding::utf8_to_utf16::widen_text::<#951b42d46d2e9f62>"
	.cfi_endproc
                                        // -- End function
	.section	.rodata.cst16,"aM",@progbits,16
	.p2align	4, 0x0                          // -- Begin function recoding::kernels::widen_damaged::<#6d28eb9c51c85cb7>
.LCPI29_0:
	.byte	1                               // 0x1
	.byte	2                               // 0x2
	.byte	4                               // 0x4
	.byte	8                               // 0x8
	.byte	16                              // 0x10
	.byte	32                              // 0x20
	.byte	64                              // 0x40
	.byte	128                             // 0x80
	.byte	1                               // 0x1
	.byte	2                               // 0x2
	.byte	4                               // 0x4
	.byte	8                               // 0x8
	.byte	16                              // 0x10
	.byte	32                              // 0x20
	.byte	64                              // 0x40
	.byte	128                             // 0x80
	.section	".text.recoding::kernels::widen_damaged::<#6d28eb9c51c85cb7>","ax",@progbits
	.p2align	2
	.type	"recoding::kernels::widen_damaged::<#6d28eb9c51c85cb7>",@function
"recoding::kernels::widen_damaged::<#6d28eb9c51c85cb7>": // @"recoding::kernels::widen_damaged::<#6d28eb9c51c85cb7>"
	.cfi_startproc
// %bb.0:                               // %start
	stp	x29, x30, [sp, #-96]!           // 16-byte Folded Spill
	.cfi_def_cfa_offset 96
	stp	x28, x27, [sp, #16]             // 16-byte Folded Spill
	stp	x26, x25, [sp, #32]             // 16-byte Folded Spill
	stp	x24, x23, [sp, #48]             // 16-byte Folded Spill
	stp	x22, x21, [sp, #64]             // 16-byte Folded Spill
	stp	x20, x19, [sp, #80]             // 16-byte Folded Spill
	mov	x29, sp
	.cfi_def_cfa w29, 96
	.cfi_offset w19, -8
	.cfi_offset w20, -16
	.cfi_offset w21, -24
	.cfi_offset w22, -32
	.cfi_offset w23, -40
	.cfi_offset w24, -48
	.cfi_offset w25, -56
	.cfi_offset w26, -64
	.cfi_offset w27, -72
	.cfi_offset w28, -80
	.cfi_offset w30, -88
	.cfi_offset w29, -96
	sub	sp, sp, #640
	movi	v0.2d, #0000000000000000
	mov	x20, x2
	mov	x21, x1
	mov	x22, x0
	mov	x19, xzr
	mov	x23, xzr
	add	x8, sp, #112
	stp	xzr, xzr, [sp, #88]
	str	xzr, [sp, #104]
	stp	q0, q0, [x8, #112]
	stp	q0, q0, [x8, #144]
	stp	q0, q0, [x8, #176]
	stp	q0, q0, [x8, #208]
	stp	q0, q0, [x8, #240]
	stp	q0, q0, [x8, #272]
	stp	q0, q0, [x8, #304]
	stp	q0, q0, [x8, #336]
	stp	q0, q0, [x8, #368]
	stp	q0, q0, [x8, #400]
	stp	q0, q0, [x8, #432]
	stp	q0, q0, [x8, #464]
	str	q0, [x8, #496]
	stp	q0, q0, [sp, #112]
	stp	q0, q0, [sp, #144]
	stp	q0, q0, [sp, #176]
	str	q0, [sp, #208]
	b	.LBB29_3
.LBB29_1:                               //   in Loop: Header=BB29_3 Depth=1
	mov	x23, x24
.LBB29_2:                               // %"recoding::kernels::put_next_text::<#87c24961b7620b58>.exit"
                                        //   in Loop: Header=BB29_3 Depth=1
	ldr	x9, [sp, #8]                    // 8-byte Reload
	sub	x8, x23, x24
	cmp	x8, #1024
	add	x9, x9, x19
	add	x19, x9, x26
	b.hs	.LBB29_21
.LBB29_3:                               // %loop.2
                                        // =>This Loop Header: Depth=1
                                        //     Child Loop BB29_13 Depth 2
	add	x0, sp, #88
	add	x1, x22, x23
	sub	x2, x21, x23
	add	x3, sp, #112
	bl	"utf_lanes::mending::mend::<#0a9db3908d7f4f9c>"
	ldr	x24, [sp, #88]
	cbz	x24, .LBB29_21
// %bb.4:                               // %else.6
                                        //   in Loop: Header=BB29_3 Depth=1
	ldr	x1, [sp, #96]
	sub	x8, x1, #1
	cmp	x8, #31
	b.lo	.LBB29_21
// %bb.5:                               // %else.9
                                        //   in Loop: Header=BB29_3 Depth=1
	ldp	x9, x8, [x20, #8]
	add	x10, x1, x1, lsl #1
	sub	x8, x8, x9
	cmp	x8, x10
	b.lo	.LBB29_21
// %bb.6:                               // %after.3
                                        //   in Loop: Header=BB29_3 Depth=1
	cbz	x1, .LBB29_8
// %bb.7:                               // %then.1.i
                                        //   in Loop: Header=BB29_3 Depth=1
	add	x0, sp, #112
	mov	x2, x20
	bl	"recoding::list::append_units::<#035c64e45cc79e03>"
.LBB29_8:                               // %"recoding::kernels::put_mended::<#87c24961b7620b58>.exit"
                                        //   in Loop: Header=BB29_3 Depth=1
	add	x23, x24, x23
	ldr	x8, [sp, #104]
	sub	x24, x21, x23
	cmp	x24, #67
	str	x8, [sp, #8]                    // 8-byte Spill
	b.lo	.LBB29_17
// %bb.9:                               // %then.1.i20
                                        //   in Loop: Header=BB29_3 Depth=1
	add	x28, x22, x23
	ldrsb	w8, [x28]
	tbz	w8, #31, .LBB29_11
// %bb.10:                              // %else.5.i
                                        //   in Loop: Header=BB29_3 Depth=1
	ldrsb	w8, [x28, #1]
	tbnz	w8, #31, .LBB29_17
.LBB29_11:                              // %then.7.i.preheader
                                        //   in Loop: Header=BB29_3 Depth=1
	mov	x27, xzr
	mov	x26, xzr
	b	.LBB29_13
.LBB29_12:                              // %then.1.i25
                                        //   in Loop: Header=BB29_13 Depth=2
	movi	v4.2d, #0000000000000000
	mov	x0, x20
	zip1	v5.16b, v2.16b, v4.16b
	zip2	v2.16b, v2.16b, v4.16b
	stp	q2, q5, [sp, #48]               // 32-byte Folded Spill
	zip1	v2.16b, v0.16b, v4.16b
	zip2	v0.16b, v0.16b, v4.16b
	stp	q0, q2, [sp, #16]               // 32-byte Folded Spill
	zip1	v0.16b, v1.16b, v4.16b
	zip2	v1.16b, v1.16b, v4.16b
	zip1	v2.16b, v3.16b, v4.16b
	zip2	v3.16b, v3.16b, v4.16b
	bl	"recoding::list::VecU8Output::put_wide::<#e3b2a9d4d2861db8>"
	ldp	q1, q0, [sp, #48]               // 32-byte Folded Reload
	mov	x0, x20
	ldp	q3, q2, [sp, #16]               // 32-byte Folded Reload
	bl	"recoding::list::VecU8Output::put_wide::<#e3b2a9d4d2861db8>"
	sub	x24, x24, #64
	add	x27, x27, #64
	add	x26, xzr, x26
	cmp	x24, #66
	b.ls	.LBB29_18
.LBB29_13:                              // %then.7.i
                                        //   Parent Loop BB29_3 Depth=1
                                        // =>  This Inner Loop Header: Depth=2
	ldp	x9, x8, [x20, #8]
	sub	x8, x8, x9
	cmp	x8, #128
	b.lo	.LBB29_18
// %bb.14:                              // %join.9.i
                                        //   in Loop: Header=BB29_13 Depth=2
	add	x8, x28, x27
	ldp	q1, q3, [x8]
	ldp	q2, q0, [x8, #32]
	adrp	x8, .LCPI29_0
	ldr	q16, [x8, :lo12:.LCPI29_0]
	orr	v4.16b, v2.16b, v1.16b
	orr	v5.16b, v0.16b, v3.16b
	cmlt	v5.16b, v5.16b, #0
	cmlt	v4.16b, v4.16b, #0
	and	v4.16b, v4.16b, v16.16b
	and	v5.16b, v5.16b, v16.16b
	addp	v4.16b, v4.16b, v5.16b
	addp	v4.16b, v4.16b, v4.16b
	addp	v4.16b, v4.16b, v4.16b
	fmov	w8, s4
	cbz	w8, .LBB29_12
// %bb.15:                              // %join.3.i
                                        //   in Loop: Header=BB29_13 Depth=2
	cmlt	v4.16b, v1.16b, #0
	cmlt	v6.16b, v0.16b, #0
	mov	x9, #-9223372036854775808       // =0x8000000000000000
	cmlt	v7.16b, v2.16b, #0
	cmlt	v5.16b, v3.16b, #0
	and	v17.16b, v4.16b, v16.16b
	and	v18.16b, v5.16b, v16.16b
	and	v19.16b, v7.16b, v16.16b
	and	v16.16b, v6.16b, v16.16b
	addp	v17.16b, v17.16b, v18.16b
	addp	v16.16b, v19.16b, v16.16b
	addp	v16.16b, v17.16b, v16.16b
	addp	v16.16b, v16.16b, v16.16b
	fmov	x8, d16
	bfxil	x9, x8, #1, #63
	tst	x9, x8
	b.ne	.LBB29_18
// %bb.16:                              // %arm.8.i
                                        //   in Loop: Header=BB29_13 Depth=2
	movi	v17.16b, #253
	cnt	v16.8b, v16.8b
	mov	x0, x20
	bit	v2.16b, v17.16b, v7.16b
	bit	v0.16b, v17.16b, v6.16b
	bit	v1.16b, v17.16b, v4.16b
	bit	v3.16b, v17.16b, v5.16b
	zip1	v17.16b, v2.16b, v7.16b
	zip2	v2.16b, v2.16b, v7.16b
	stp	q2, q17, [sp, #48]              // 32-byte Folded Spill
	zip1	v2.16b, v0.16b, v6.16b
	zip2	v0.16b, v0.16b, v6.16b
	stp	q0, q2, [sp, #16]               // 32-byte Folded Spill
	zip1	v0.16b, v1.16b, v4.16b
	zip2	v1.16b, v1.16b, v4.16b
	zip1	v2.16b, v3.16b, v5.16b
	zip2	v3.16b, v3.16b, v5.16b
	addv	b4, v16.8b
	fmov	x25, d4
	bl	"recoding::list::VecU8Output::put_wide::<#e3b2a9d4d2861db8>"
	ldp	q1, q0, [sp, #48]               // 32-byte Folded Reload
	mov	x0, x20
	ldp	q3, q2, [sp, #16]               // 32-byte Folded Reload
	bl	"recoding::list::VecU8Output::put_wide::<#e3b2a9d4d2861db8>"
	sub	x24, x24, #64
	add	x27, x27, #64
	add	x26, x25, x26
	cmp	x24, #66
	b.hi	.LBB29_13
	b	.LBB29_18
.LBB29_17:                              //   in Loop: Header=BB29_3 Depth=1
	mov	x26, xzr
	mov	x27, xzr
.LBB29_18:                              // %"recoding::kernels::put_plain::<#5ffe3d2dbc72ef02>.exit"
                                        //   in Loop: Header=BB29_3 Depth=1
	add	x24, x27, x23
	mov	x0, x22
	mov	x1, x21
	mov	x2, x24
	bl	"recoding::kernels::next_text_end"
	sub	x8, x0, x24
	cmp	x8, #32
	b.lo	.LBB29_1
// %bb.19:                              // %else.4.i
                                        //   in Loop: Header=BB29_3 Depth=1
	ldp	x10, x9, [x20, #8]
	mov	x23, x24
	sub	x9, x9, x10
	mov	x10, #-6148914691236517206      // =0xaaaaaaaaaaaaaaaa
	movk	x10, #43691
	umulh	x9, x9, x10
	cmp	x8, x9, lsr #1
	b.hi	.LBB29_2
// %bb.20:                              // %after.1.i
                                        //   in Loop: Header=BB29_3 Depth=1
	mov	x23, x0
	add	x0, x22, x24
	mov	x2, x20
	sub	x1, x23, x24
	bl	"recoding::list::append_units::<#035c64e45cc79e03>"
	b	.LBB29_2
.LBB29_21:                              // %return.15
	mov	x0, x23
	mov	x1, x19
	add	sp, sp, #640
	.cfi_def_cfa wsp, 96
	ldp	x20, x19, [sp, #80]             // 16-byte Folded Reload
	ldp	x22, x21, [sp, #64]             // 16-byte Folded Reload
	ldp	x24, x23, [sp, #48]             // 16-byte Folded Reload
	ldp	x26, x25, [sp, #32]             // 16-byte Folded Reload
	ldp	x28, x27, [sp, #16]             // 16-byte Folded Reload
	ldp	x29, x30, [sp], #96             // 16-byte Folded Reload
	.cfi_def_cfa_offset 0
	.cfi_restore w19
	.cfi_restore w20
	.cfi_restore w21
	.cfi_restore w22
	.cfi_restore w23
	.cfi_restore w24
	.cfi_restore w25
	.cfi_restore w26
	.cfi_restore w27
	.cfi_restore w28
	.cfi_restore w30
	.cfi_restore w29
	ret
.Lfunc_end29:
	.size	"recoding::kernels::widen_damaged::<#6d28eb9c51c85cb7>", .Lfunc_end29-"recoding::kernels::widen_damaged::<#6d28eb9c51c85cb7>"
	.cfi_endproc
                                        // -- End function
	.section	.rodata.cst16,"aM",@progbits,16
	.p2align	4, 0x0                          // -- Begin function recoding::kernels::widen_plain::<#5ffe3d2dbc72ef02>
.LCPI30_0:
	.byte	1                               // 0x1
	.byte	2                               // 0x2
	.byte	4                               // 0x4
	.byte	8                               // 0x8
	.byte	16                              // 0x10
	.byte	32                              // 0x20
	.byte	64                              // 0x40
	.byte	128                             // 0x80
	.byte	1                               // 0x1
	.byte	2                               // 0x2
	.byte	4                               // 0x4
	.byte	8                               // 0x8
	.byte	16                              // 0x10
	.byte	32                              // 0x20
	.byte	64                              // 0x40
	.byte	128                             // 0x80
	.section	".text.recoding::kernels::widen_plain::<#5ffe3d2dbc72ef02>","ax",@progbits
	.p2align	2
	.type	"recoding::kernels::widen_plain::<#5ffe3d2dbc72ef02>",@function
"recoding::kernels::widen_plain::<#5ffe3d2dbc72ef02>": // @"recoding::kernels::widen_plain::<#5ffe3d2dbc72ef02>"
	.cfi_startproc
// %bb.0:                               // %start
	sub	sp, sp, #128
	.cfi_def_cfa_offset 128
	stp	x29, x30, [sp, #64]             // 16-byte Folded Spill
	stp	x24, x23, [sp, #80]             // 16-byte Folded Spill
	stp	x22, x21, [sp, #96]             // 16-byte Folded Spill
	stp	x20, x19, [sp, #112]            // 16-byte Folded Spill
	add	x29, sp, #64
	.cfi_def_cfa w29, 64
	.cfi_offset w19, -8
	.cfi_offset w20, -16
	.cfi_offset w21, -24
	.cfi_offset w22, -32
	.cfi_offset w23, -40
	.cfi_offset w24, -48
	.cfi_offset w30, -56
	.cfi_offset w29, -64
	cmp	x1, #67
	b.lo	.LBB30_9
// %bb.1:                               // %then.1.i
	ldrsb	w8, [x0]
	mov	x19, x2
	mov	x21, x1
	mov	x23, x0
	tbz	w8, #31, .LBB30_3
// %bb.2:                               // %else.5.i
	ldrsb	w8, [x23, #1]
	tbnz	w8, #31, .LBB30_9
.LBB30_3:                               // %then.7.i.lr.ph
	mov	x22, xzr
	mov	x20, xzr
	b	.LBB30_5
.LBB30_4:                               // %then.1.i5
                                        //   in Loop: Header=BB30_5 Depth=1
	movi	v4.2d, #0000000000000000
	mov	x0, x19
	zip1	v5.16b, v2.16b, v4.16b
	zip2	v2.16b, v2.16b, v4.16b
	str	q2, [sp, #32]                   // 16-byte Spill
	zip1	v2.16b, v0.16b, v4.16b
	zip2	v0.16b, v0.16b, v4.16b
	stur	q5, [x29, #-16]                 // 16-byte Folded Spill
	stp	q0, q2, [sp]                    // 32-byte Folded Spill
	zip1	v0.16b, v1.16b, v4.16b
	zip2	v1.16b, v1.16b, v4.16b
	zip1	v2.16b, v3.16b, v4.16b
	zip2	v3.16b, v3.16b, v4.16b
	bl	"recoding::list::VecU8Output::put_wide::<#e3b2a9d4d2861db8>"
	ldp	q2, q1, [sp, #16]               // 32-byte Folded Reload
	mov	x0, x19
	ldur	q0, [x29, #-16]                 // 16-byte Folded Reload
	ldr	q3, [sp]                        // 16-byte Reload
	bl	"recoding::list::VecU8Output::put_wide::<#e3b2a9d4d2861db8>"
	sub	x21, x21, #64
	add	x22, x22, #64
	add	x20, xzr, x20
	cmp	x21, #66
	b.ls	.LBB30_10
.LBB30_5:                               // %then.7.i
                                        // =>This Inner Loop Header: Depth=1
	ldp	x9, x8, [x19, #8]
	sub	x8, x8, x9
	cmp	x8, #128
	b.lo	.LBB30_10
// %bb.6:                               // %join.9.i
                                        //   in Loop: Header=BB30_5 Depth=1
	add	x8, x23, x22
	ldp	q1, q3, [x8]
	ldp	q2, q0, [x8, #32]
	adrp	x8, .LCPI30_0
	ldr	q16, [x8, :lo12:.LCPI30_0]
	orr	v4.16b, v2.16b, v1.16b
	orr	v5.16b, v0.16b, v3.16b
	cmlt	v5.16b, v5.16b, #0
	cmlt	v4.16b, v4.16b, #0
	and	v4.16b, v4.16b, v16.16b
	and	v5.16b, v5.16b, v16.16b
	addp	v4.16b, v4.16b, v5.16b
	addp	v4.16b, v4.16b, v4.16b
	addp	v4.16b, v4.16b, v4.16b
	fmov	w8, s4
	cbz	w8, .LBB30_4
// %bb.7:                               // %join.3.i
                                        //   in Loop: Header=BB30_5 Depth=1
	cmlt	v4.16b, v1.16b, #0
	cmlt	v6.16b, v0.16b, #0
	mov	x9, #-9223372036854775808       // =0x8000000000000000
	cmlt	v7.16b, v2.16b, #0
	cmlt	v5.16b, v3.16b, #0
	and	v17.16b, v4.16b, v16.16b
	and	v18.16b, v5.16b, v16.16b
	and	v19.16b, v7.16b, v16.16b
	and	v16.16b, v6.16b, v16.16b
	addp	v17.16b, v17.16b, v18.16b
	addp	v16.16b, v19.16b, v16.16b
	addp	v16.16b, v17.16b, v16.16b
	addp	v16.16b, v16.16b, v16.16b
	fmov	x8, d16
	bfxil	x9, x8, #1, #63
	tst	x9, x8
	b.ne	.LBB30_10
// %bb.8:                               // %arm.8.i
                                        //   in Loop: Header=BB30_5 Depth=1
	movi	v17.16b, #253
	cnt	v16.8b, v16.8b
	mov	x0, x19
	bit	v2.16b, v17.16b, v7.16b
	bit	v0.16b, v17.16b, v6.16b
	bit	v1.16b, v17.16b, v4.16b
	bit	v3.16b, v17.16b, v5.16b
	zip1	v17.16b, v2.16b, v7.16b
	zip2	v2.16b, v2.16b, v7.16b
	str	q2, [sp, #32]                   // 16-byte Spill
	zip1	v2.16b, v0.16b, v6.16b
	zip2	v0.16b, v0.16b, v6.16b
	stur	q17, [x29, #-16]                // 16-byte Folded Spill
	stp	q0, q2, [sp]                    // 32-byte Folded Spill
	zip1	v0.16b, v1.16b, v4.16b
	zip2	v1.16b, v1.16b, v4.16b
	zip1	v2.16b, v3.16b, v5.16b
	zip2	v3.16b, v3.16b, v5.16b
	addv	b4, v16.8b
	fmov	x24, d4
	bl	"recoding::list::VecU8Output::put_wide::<#e3b2a9d4d2861db8>"
	ldp	q2, q1, [sp, #16]               // 32-byte Folded Reload
	mov	x0, x19
	ldur	q0, [x29, #-16]                 // 16-byte Folded Reload
	ldr	q3, [sp]                        // 16-byte Reload
	bl	"recoding::list::VecU8Output::put_wide::<#e3b2a9d4d2861db8>"
	sub	x21, x21, #64
	add	x22, x22, #64
	add	x20, x24, x20
	cmp	x21, #66
	b.hi	.LBB30_5
	b	.LBB30_10
.LBB30_9:
	mov	x20, xzr
	mov	x22, xzr
.LBB30_10:                              // %"recoding::kernels::put_plain::<#5ffe3d2dbc72ef02>.exit"
	mov	x0, x22
	mov	x1, x20
	.cfi_def_cfa wsp, 128
	ldp	x20, x19, [sp, #112]            // 16-byte Folded Reload
	ldp	x22, x21, [sp, #96]             // 16-byte Folded Reload
	ldp	x24, x23, [sp, #80]             // 16-byte Folded Reload
	ldp	x29, x30, [sp, #64]             // 16-byte Folded Reload
	add	sp, sp, #128
	.cfi_def_cfa_offset 0
	.cfi_restore w19
	.cfi_restore w20
	.cfi_restore w21
	.cfi_restore w22
	.cfi_restore w23
	.cfi_restore w24
	.cfi_restore w30
	.cfi_restore w29
	ret
.Lfunc_end30:
	.size	"recoding::kernels::widen_plain::<#5ffe3d2dbc72ef02>", .Lfunc_end30-"recoding::kernels::widen_plain::<#5ffe3d2dbc72ef02>"
	.cfi_endproc
                                        // -- End function
	.section	".text.recoding::engine::recode_faults::<#e0f9120ea28c3ab4>","ax",@progbits
	.p2align	2                               // -- Begin function recoding::engine::recode_faults::<#e0f9120ea28c3ab4>
	.type	"recoding::engine::recode_faults::<#e0f9120ea28c3ab4>",@function
"recoding::engine::recode_faults::<#e0f9120ea28c3ab4>": // @"recoding::engine::recode_faults::<#e0f9120ea28c3ab4>"
	.cfi_startproc
// %bb.0:                               // %start
	sub	sp, sp, #128
	.cfi_def_cfa_offset 128
	stp	x29, x30, [sp, #32]             // 16-byte Folded Spill
	stp	x28, x27, [sp, #48]             // 16-byte Folded Spill
	stp	x26, x25, [sp, #64]             // 16-byte Folded Spill
	stp	x24, x23, [sp, #80]             // 16-byte Folded Spill
	stp	x22, x21, [sp, #96]             // 16-byte Folded Spill
	stp	x20, x19, [sp, #112]            // 16-byte Folded Spill
	add	x29, sp, #32
	.cfi_def_cfa w29, 96
	.cfi_offset w19, -8
	.cfi_offset w20, -16
	.cfi_offset w21, -24
	.cfi_offset w22, -32
	.cfi_offset w23, -40
	.cfi_offset w24, -48
	.cfi_offset w25, -56
	.cfi_offset w26, -64
	.cfi_offset w27, -72
	.cfi_offset w28, -80
	.cfi_offset w30, -88
	.cfi_offset w29, -96
	.cfi_remember_state
	mov	x20, x3
	mov	x21, x2
	mov	x25, xzr
	mov	x24, xzr
	mov	w13, #16                        // =0x10
	stur	x0, [x29, #-8]                  // 8-byte Folded Spill
	b	.LBB31_4
.LBB31_1:                               // %arm.10.i.i
                                        //   in Loop: Header=BB31_4 Depth=1
	add	x0, x1, x25
	mov	x19, x1
	sub	x1, x21, x25
	bl	"recoding::next_scalar::is_front_of_code"
	mov	x1, x19
	cbnz	w0, .LBB31_40
.LBB31_2:                               // %"recoding::text::Utf16Text::put_any::<#ec2bf5654938c731>.exit"
                                        //   in Loop: Header=BB31_4 Depth=1
	ldp	x9, x8, [x20]
	mov	w10, #253                       // =0xfd
	cmp	x28, #32
	mov	w11, #255                       // =0xff
	add	x24, x24, #1
	strb	w10, [x9, x8]
	mov	w10, #32                        // =0x20
	ldr	x9, [x20]
	csel	x13, x28, x10, lo
	add	x9, x9, x8
	add	x8, x8, #2
	strb	w11, [x9, #1]
	str	x8, [x20, #8]
	mov	w8, #1                          // =0x1
.LBB31_3:                               // %join.12
                                        //   in Loop: Header=BB31_4 Depth=1
	add	x25, x8, x25
	cmp	x25, x13
	b.hs	.LBB31_38
.LBB31_4:                               // %join.5
                                        // =>This Inner Loop Header: Depth=1
	add	x28, x25, #4
	add	x19, x1, x25
	cmp	x28, x21
	b.ls	.LBB31_6
// %bb.5:                               // %join.3.i
                                        //   in Loop: Header=BB31_4 Depth=1
	sub	x26, x21, x25
	cmp	x26, #4
	b.lo	.LBB31_14
.LBB31_6:                               // %then.1.i68
                                        //   in Loop: Header=BB31_4 Depth=1
	ldrsb	w8, [x19]
	and	w27, w8, #0xff
	tbnz	w8, #31, .LBB31_9
.LBB31_7:                               // %"utf_chars::codes::utf8::decode_start.exit.i.thread464"
                                        //   in Loop: Header=BB31_4 Depth=1
	mov	w8, #1                          // =0x1
.LBB31_8:                               // %arm.1.i25
                                        //   in Loop: Header=BB31_4 Depth=1
	ldp	x10, x9, [x20]
	lsr	w11, w27, #8
	strb	w27, [x10, x9]
	ldr	x10, [x20]
	add	x10, x10, x9
	add	x9, x9, #2
	strb	w11, [x10, #1]
	str	x9, [x20, #8]
	b	.LBB31_3
.LBB31_9:                               // %join.6.i104.i
                                        //   in Loop: Header=BB31_4 Depth=1
	ldrb	w8, [x19, #1]
	cmp	w27, #224
	b.hs	.LBB31_18
// %bb.10:                              // %"utf_lanes::text_front::front_of_text.exit139.i"
                                        //   in Loop: Header=BB31_4 Depth=1
	cmp	w27, #194
	b.lo	.LBB31_2
// %bb.11:                              // %"utf_lanes::text_front::front_of_text.exit139.i"
                                        //   in Loop: Header=BB31_4 Depth=1
	eor	w8, w8, #0x80
	cmp	w8, #63
	b.hi	.LBB31_2
// %bb.12:                              //   in Loop: Header=BB31_4 Depth=1
	add	w8, w8, w27, lsl #6
	sub	w27, w8, #3, lsl #12            // =12288
	mov	w8, #2                          // =0x2
	lsr	w9, w27, #16
	cbz	w9, .LBB31_8
.LBB31_13:                              // %arm.2.i24
                                        //   in Loop: Header=BB31_4 Depth=1
	ldp	x11, x10, [x20]
	mov	w9, #-10304                     // =0xffffd7c0
	add	w9, w9, w27, lsr #10
	strb	w9, [x11, x10]
	lsr	w9, w9, #8
	ldr	x11, [x20]
	add	x11, x11, x10
	strb	w9, [x11, #1]
	ldr	x9, [x20]
	add	x9, x9, x10
	strb	w27, [x9, #2]
	mov	w9, #220                        // =0xdc
	ldr	x11, [x20]
	bfxil	w9, w27, #8, #2
	add	x11, x11, x10
	add	x10, x10, #4
	strb	w9, [x11, #3]
	str	x10, [x20, #8]
	b	.LBB31_3
.LBB31_14:                              // %join.3.i.i
                                        //   in Loop: Header=BB31_4 Depth=1
	cmp	x21, x25
	b.eq	.LBB31_1
// %bb.15:                              // %join.3.i316.i
                                        //   in Loop: Header=BB31_4 Depth=1
	ldrb	w27, [x19]
	adrp	x8, .Lstatic.8
	add	x8, x8, :lo12:.Lstatic.8
	adrp	x22, .Lstatic.9
	add	x22, x22, :lo12:.Lstatic.9
	ldrb	w8, [x8, x27]
	ldrb	w23, [x22, x8]
	cmp	x23, #12
	b.ls	.LBB31_29
// %bb.16:                              // %join.6.i321.i
                                        //   in Loop: Header=BB31_4 Depth=1
	cmp	w23, #13
	b.ne	.LBB31_2
// %bb.17:                              // %join.9.i323.i
                                        //   in Loop: Header=BB31_4 Depth=1
	tbz	w27, #7, .LBB31_7
	b	.LBB31_41
.LBB31_18:                              // %join.9.i106.i
                                        //   in Loop: Header=BB31_4 Depth=1
	sxtb	w9, w8
	cmn	w9, #65
	b.gt	.LBB31_2
// %bb.19:                              // %join.12.i113.i
                                        //   in Loop: Header=BB31_4 Depth=1
	and	w8, w8, #0x3f
	cmp	w27, #239
	bfi	w8, w27, #6, #4
	b.hi	.LBB31_25
// %bb.20:                              // %then.13.i125.i
                                        //   in Loop: Header=BB31_4 Depth=1
	and	w9, w8, #0x3e0
	cmp	w9, #864
	b.eq	.LBB31_2
// %bb.21:                              // %join.3.i187.i
                                        //   in Loop: Header=BB31_4 Depth=1
	ldrsb	w9, [x19, #2]
	cmn	w9, #65
	b.gt	.LBB31_2
// %bb.22:                              // %join.3.i187.i
                                        //   in Loop: Header=BB31_4 Depth=1
	cmp	w8, #32
	b.lo	.LBB31_2
// %bb.23:                              // %join.9.i191.i
                                        //   in Loop: Header=BB31_4 Depth=1
	and	w9, w9, #0xff
	and	w9, w9, #0x3f
	orr	w27, w9, w8, lsl #6
.LBB31_24:                              // %arm.1.i25
                                        //   in Loop: Header=BB31_4 Depth=1
	mov	w8, #3                          // =0x3
	b	.LBB31_8
.LBB31_25:                              // %else.14.i116.i
                                        //   in Loop: Header=BB31_4 Depth=1
	sub	w9, w8, #272
	cmn	w9, #256
	b.lo	.LBB31_2
// %bb.26:                              // %after.1.i.i
                                        //   in Loop: Header=BB31_4 Depth=1
	ldrsb	w9, [x19, #2]
	cmn	w9, #65
	b.gt	.LBB31_2
// %bb.27:                              // %else.14.i254.i
                                        //   in Loop: Header=BB31_4 Depth=1
	ldrsb	w10, [x19, #3]
	cmn	w10, #65
	b.gt	.LBB31_2
// %bb.28:                              // %after.11.i.i
                                        //   in Loop: Header=BB31_4 Depth=1
	lsl	w27, w8, #12
	and	w8, w10, #0xff
	bfi	w27, w9, #6, #6
	bfxil	w27, w8, #0, #6
	mov	w8, #4                          // =0x4
	b	.LBB31_13
.LBB31_29:                              // %then.4.i333.i
                                        //   in Loop: Header=BB31_4 Depth=1
	mov	w0, w23
	stp	x13, x1, [sp, #8]               // 16-byte Folded Spill
	bl	"utf_chars::codes::utf8::missing_after"
	ldp	x13, x1, [sp, #8]               // 16-byte Folded Reload
	cmp	x26, x0
	b.ls	.LBB31_1
// %bb.30:                              // %join.3.i351.i
                                        //   in Loop: Header=BB31_4 Depth=1
	ldrb	w8, [x19, #1]
	adrp	x12, .Lstatic.8
	add	x12, x12, :lo12:.Lstatic.8
	add	x10, x22, x23, lsl #4
	ldrb	w9, [x12, x8]
	ldrb	w10, [x10, x9]
	cmp	w10, #12
	b.hi	.LBB31_34
// %bb.31:                              // %then.1.i379.i
                                        //   in Loop: Header=BB31_4 Depth=1
	ldrb	w9, [x19, #2]
	add	x10, x22, x10, lsl #4
	ldrb	w11, [x12, x9]
	ldrb	w11, [x10, x11]
	cmp	w11, #12
	b.hi	.LBB31_36
// %bb.32:                              // %then.1.i418.i
                                        //   in Loop: Header=BB31_4 Depth=1
	ldrb	w10, [x19, #3]
	add	x11, x22, x11, lsl #4
	ldrb	w12, [x12, x10]
	ldrb	w11, [x11, x12]
	cmp	w11, #13
	b.ne	.LBB31_2
// %bb.33:                              // %join.3.i436.i
                                        //   in Loop: Header=BB31_4 Depth=1
	ubfiz	w11, w27, #12, #3
	bfi	w11, w8, #6, #6
	and	w8, w10, #0x3f
	bfxil	w11, w9, #0, #6
	orr	w27, w8, w11, lsl #6
	mov	w8, #4                          // =0x4
	lsr	w9, w27, #16
	cbnz	w9, .LBB31_13
	b	.LBB31_8
.LBB31_34:                              // %join.3.i366.i
                                        //   in Loop: Header=BB31_4 Depth=1
	cmp	w10, #13
	b.ne	.LBB31_2
// %bb.35:                              // %"utf_chars::codes::utf8::decode_start.exit.i.thread545"
                                        //   in Loop: Header=BB31_4 Depth=1
	and	w9, w8, #0x3f
	mov	w8, #2                          // =0x2
	bfi	w9, w27, #6, #5
	mov	w27, w9
	b	.LBB31_8
.LBB31_36:                              // %join.3.i399.i
                                        //   in Loop: Header=BB31_4 Depth=1
	cmp	w11, #13
	b.ne	.LBB31_2
// %bb.37:                              // %join.6.i401.i
                                        //   in Loop: Header=BB31_4 Depth=1
	ubfiz	w27, w27, #12, #4
	bfi	w27, w8, #6, #6
	bfxil	w27, w9, #0, #6
	b	.LBB31_24
.LBB31_38:                              // %after.1
	ldur	x8, [x29, #-8]                  // 8-byte Folded Reload
	stp	x25, x24, [x8]
	str	xzr, [x8, #16]
	.cfi_def_cfa wsp, 128
.LBB31_39:                              // %after.1
	ldp	x20, x19, [sp, #112]            // 16-byte Folded Reload
	ldp	x22, x21, [sp, #96]             // 16-byte Folded Reload
	ldp	x24, x23, [sp, #80]             // 16-byte Folded Reload
	ldp	x26, x25, [sp, #64]             // 16-byte Folded Reload
	ldp	x28, x27, [sp, #48]             // 16-byte Folded Reload
	ldp	x29, x30, [sp, #32]             // 16-byte Folded Reload
	add	sp, sp, #128
	.cfi_def_cfa_offset 0
	.cfi_restore w19
	.cfi_restore w20
	.cfi_restore w21
	.cfi_restore w22
	.cfi_restore w23
	.cfi_restore w24
	.cfi_restore w25
	.cfi_restore w26
	.cfi_restore w27
	.cfi_restore w28
	.cfi_restore w30
	.cfi_restore w29
	ret
.LBB31_40:                              // %arm.7
	.cfi_restore_state
	.cfi_remember_state
	ldur	x9, [x29, #-8]                  // 8-byte Folded Reload
	mov	w8, #256                        // =0x100
	stp	x25, x24, [x9]
	strh	w8, [x9, #16]
	stur	wzr, [x9, #18]
	strh	wzr, [x9, #22]
	.cfi_def_cfa wsp, 128
	b	.LBB31_39
.LBB31_41:                              // %join.4.i.i
	.cfi_restore_state
	brk	#0x1
.Lfunc_end31:
	.size	"recoding::engine::recode_faults::<#e0f9120ea28c3ab4>", .Lfunc_end31-"recoding::engine::recode_faults::<#e0f9120ea28c3ab4>"
	.cfi_endproc
                                        // -- End function
	.section	.rodata.cst16,"aM",@progbits,16
	.p2align	4, 0x0                          // -- Begin function recoding::recoder_runs::run_whole::<#9c534bed186decad>
.LCPI32_0:
	.byte	1                               // 0x1
	.byte	2                               // 0x2
	.byte	4                               // 0x4
	.byte	8                               // 0x8
	.byte	16                              // 0x10
	.byte	32                              // 0x20
	.byte	64                              // 0x40
	.byte	128                             // 0x80
	.byte	1                               // 0x1
	.byte	2                               // 0x2
	.byte	4                               // 0x4
	.byte	8                               // 0x8
	.byte	16                              // 0x10
	.byte	32                              // 0x20
	.byte	64                              // 0x40
	.byte	128                             // 0x80
	.section	".text.recoding::recoder_runs::run_whole::<#9c534bed186decad>","ax",@progbits
	.p2align	2
	.type	"recoding::recoder_runs::run_whole::<#9c534bed186decad>",@function
"recoding::recoder_runs::run_whole::<#9c534bed186decad>": // @"recoding::recoder_runs::run_whole::<#9c534bed186decad>"
	.cfi_startproc
// %bb.0:                               // %start
	sub	sp, sp, #288
	.cfi_def_cfa_offset 288
	stp	x29, x30, [sp, #192]            // 16-byte Folded Spill
	stp	x28, x27, [sp, #208]            // 16-byte Folded Spill
	stp	x26, x25, [sp, #224]            // 16-byte Folded Spill
	stp	x24, x23, [sp, #240]            // 16-byte Folded Spill
	stp	x22, x21, [sp, #256]            // 16-byte Folded Spill
	stp	x20, x19, [sp, #272]            // 16-byte Folded Spill
	add	x29, sp, #192
	.cfi_def_cfa w29, 96
	.cfi_offset w19, -8
	.cfi_offset w20, -16
	.cfi_offset w21, -24
	.cfi_offset w22, -32
	.cfi_offset w23, -40
	.cfi_offset w24, -48
	.cfi_offset w25, -56
	.cfi_offset w26, -64
	.cfi_offset w27, -72
	.cfi_offset w28, -80
	.cfi_offset w30, -88
	.cfi_offset w29, -96
	mov	x22, x2
	mov	x21, x1
	mov	x23, x0
	mov	x20, xzr
	stp	xzr, xzr, [sp]                  // 16-byte Folded Spill
	stp	x0, x1, [sp, #32]               // 16-byte Folded Spill
	str	x2, [sp, #88]                   // 8-byte Spill
	b	.LBB32_4
.LBB32_1:                               // %else.4.i
                                        //   in Loop: Header=BB32_4 Depth=1
	ldp	q1, q0, [x25]
	mov	x27, xzr
	ldp	q3, q2, [x25, #32]
	ldr	q4, [x8, :lo12:.LCPI32_0]
	orr	v1.16b, v3.16b, v1.16b
	orr	v0.16b, v2.16b, v0.16b
	cmlt	v0.16b, v0.16b, #0
	cmlt	v1.16b, v1.16b, #0
	and	v1.16b, v1.16b, v4.16b
	and	v0.16b, v0.16b, v4.16b
	addp	v0.16b, v1.16b, v0.16b
	addp	v0.16b, v0.16b, v0.16b
	addp	v0.16b, v0.16b, v0.16b
	fmov	w8, s0
	cbz	w8, .LBB32_15
.LBB32_2:                               // %"recoding::ascii_to_utf16::put_ascii_front::<#f0e6fcfecd579859>.exit"
                                        //   in Loop: Header=BB32_4 Depth=1
	sub	x1, x24, x27
	add	x0, x25, x27
	mov	x2, x22
	bl	"recoding::kernels::put_judged::<#fc185a580612e994>"
	add	x0, x0, x27
.LBB32_3:                               // %"recoding::kernels::WidenedKernelUtf8Utf16::put_text::<#adf464b980d50768>.exit"
                                        //   in Loop: Header=BB32_4 Depth=1
	lsr	x8, x0, #2
	add	x20, x0, x20
	cmp	x8, #2046
	b.ls	.LBB32_42
.LBB32_4:                               // %loop.2.i
                                        // =>This Loop Header: Depth=1
                                        //     Child Loop BB32_12 Depth 2
                                        //     Child Loop BB32_23 Depth 2
                                        //     Child Loop BB32_8 Depth 2
                                        //     Child Loop BB32_33 Depth 2
                                        //     Child Loop BB32_16 Depth 2
                                        //     Child Loop BB32_40 Depth 2
                                        //     Child Loop BB32_54 Depth 2
	sub	x9, x21, x20
	mov	w8, #8192                       // =0x2000
	add	x25, x23, x20
	cmp	x9, #2, lsl #12                 // =8192
	csel	x24, x9, x8, lo
	cmp	x9, #1024
	adrp	x8, .LCPI32_0
	b.hi	.LBB32_1
// %bb.5:                               // %then.11.i
                                        //   in Loop: Header=BB32_4 Depth=1
	cmp	x9, #17
	b.hs	.LBB32_10
// %bb.6:                               // %then.1.i.i
                                        //   in Loop: Header=BB32_4 Depth=1
	cmp	x9, #3
	b.hi	.LBB32_18
// %bb.7:                               // %loop.2.i.i.preheader
                                        //   in Loop: Header=BB32_4 Depth=1
	cmp	x21, x20
	mov	x10, x24
	add	x11, x23, x20
	b.eq	.LBB32_20
.LBB32_8:                               // %join.5.i.i
                                        //   Parent Loop BB32_4 Depth=1
                                        // =>  This Inner Loop Header: Depth=2
	ldrsb	w12, [x11], #1
	tbnz	w12, #31, .LBB32_26
// %bb.9:                               // %loop.2.i.i
                                        //   in Loop: Header=BB32_8 Depth=2
	subs	x10, x10, #1
	b.ne	.LBB32_8
	b	.LBB32_31
.LBB32_10:                              // %loop.2.i41.i.preheader
                                        //   in Loop: Header=BB32_4 Depth=1
	cmp	x9, #64
	b.lo	.LBB32_21
// %bb.11:                              // %join.5.i44.i.preheader
                                        //   in Loop: Header=BB32_4 Depth=1
	mov	x10, xzr
	mov	x11, x24
.LBB32_12:                              // %join.5.i44.i
                                        //   Parent Loop BB32_4 Depth=1
                                        // =>  This Inner Loop Header: Depth=2
	add	x12, x25, x10
	ldp	q1, q0, [x12]
	ldp	q3, q2, [x12, #32]
	orr	v1.16b, v3.16b, v1.16b
	orr	v0.16b, v2.16b, v0.16b
	ldr	q2, [x8, :lo12:.LCPI32_0]
	cmlt	v0.16b, v0.16b, #0
	cmlt	v1.16b, v1.16b, #0
	and	v1.16b, v1.16b, v2.16b
	and	v0.16b, v0.16b, v2.16b
	addp	v0.16b, v1.16b, v0.16b
	addp	v0.16b, v0.16b, v0.16b
	addp	v0.16b, v0.16b, v0.16b
	fmov	w12, s0
	cbnz	w12, .LBB32_14
// %bb.13:                              // %join.8.i45.i
                                        //   in Loop: Header=BB32_12 Depth=2
	sub	x11, x11, #64
	add	x10, x10, #64
	cmp	x11, #63
	b.hi	.LBB32_12
.LBB32_14:                              // %"utf_lanes::ascii_texts::ascii_end::<=1>.exit.i"
                                        //   in Loop: Header=BB32_4 Depth=1
	sub	x11, x24, x10
	cmp	x11, #16
	b.hs	.LBB32_22
	b	.LBB32_25
.LBB32_15:                              // %then.13.i.preheader
                                        //   in Loop: Header=BB32_4 Depth=1
	mov	x19, x24
	str	q4, [sp, #64]                   // 16-byte Spill
.LBB32_16:                              // %then.13.i
                                        //   Parent Loop BB32_4 Depth=1
                                        // =>  This Inner Loop Header: Depth=2
	add	x8, x25, x27
	ldp	q1, q0, [x8, #64]
	ldp	q3, q2, [x8, #96]
	orr	v1.16b, v3.16b, v1.16b
	orr	v0.16b, v2.16b, v0.16b
	cmlt	v0.16b, v0.16b, #0
	cmlt	v1.16b, v1.16b, #0
	and	v1.16b, v1.16b, v4.16b
	and	v0.16b, v0.16b, v4.16b
	addp	v0.16b, v1.16b, v0.16b
	addp	v0.16b, v0.16b, v0.16b
	addp	v0.16b, v0.16b, v0.16b
	fmov	w9, s0
	cbnz	w9, .LBB32_2
// %bb.17:                              // %join.15.i
                                        //   in Loop: Header=BB32_16 Depth=2
	movi	v3.2d, #0000000000000000
	ldp	q0, q1, [x8, #32]
	ldp	q2, q4, [x8]
	mov	x0, x22
	zip1	v5.16b, v3.16b, v0.16b
	zip2	v0.16b, v3.16b, v0.16b
	stp	q0, q5, [x29, #-64]             // 32-byte Folded Spill
	zip1	v0.16b, v3.16b, v1.16b
	stur	q0, [x29, #-80]                 // 16-byte Folded Spill
	zip2	v0.16b, v3.16b, v1.16b
	zip2	v1.16b, v3.16b, v2.16b
	str	q0, [sp, #96]                   // 16-byte Spill
	zip1	v0.16b, v3.16b, v2.16b
	zip1	v2.16b, v3.16b, v4.16b
	zip2	v3.16b, v3.16b, v4.16b
	bl	"recoding::list::VecU8Output::put_wide::<#e3b2a9d4d2861db8>"
	ldp	q1, q0, [x29, #-64]             // 32-byte Folded Reload
	mov	x0, x22
	ldur	q2, [x29, #-80]                 // 16-byte Folded Reload
	ldr	q3, [sp, #96]                   // 16-byte Reload
	bl	"recoding::list::VecU8Output::put_wide::<#e3b2a9d4d2861db8>"
	ldr	q4, [sp, #64]                   // 16-byte Reload
	sub	x19, x19, #64
	add	x27, x27, #64
	cmp	x19, #127
	b.hi	.LBB32_16
	b	.LBB32_2
.LBB32_18:                              // %join.3.i19.i
                                        //   in Loop: Header=BB32_4 Depth=1
	cmp	x9, #7
	add	x10, x25, x24
	b.hi	.LBB32_29
// %bb.19:                              // %then.4.i.i
                                        //   in Loop: Header=BB32_4 Depth=1
	ldr	s0, [x25]
	ldur	s1, [x10, #-4]
	zip1	v0.8b, v0.8b, v0.8b
	zip1	v1.8b, v1.8b, v1.8b
	mov	v0.d[1], v1.d[0]
	ldr	q1, [x8, :lo12:.LCPI32_0]
	uzp1	v0.16b, v0.16b, v0.16b
	cmlt	v0.16b, v0.16b, #0
	and	v0.16b, v0.16b, v1.16b
	addp	v0.16b, v0.16b, v0.16b
	addp	v0.16b, v0.16b, v0.16b
	addp	v0.16b, v0.16b, v0.16b
	umov	w8, v0.h[0]
	cbnz	w8, .LBB32_30
.LBB32_20:                              //   in Loop: Header=BB32_4 Depth=1
	stur	x20, [x29, #-48]                // 8-byte Folded Spill
	mov	x28, xzr
	mov	x27, x24
	str	x24, [sp, #48]                  // 8-byte Spill
	b	.LBB32_38
.LBB32_21:                              //   in Loop: Header=BB32_4 Depth=1
	mov	x10, xzr
	sub	x11, x24, xzr
	cmp	x11, #16
	b.lo	.LBB32_25
.LBB32_22:                              // %join.5.i75.i.preheader
                                        //   in Loop: Header=BB32_4 Depth=1
	add	x10, x20, x10
	add	x10, x23, x10
.LBB32_23:                              // %join.5.i75.i
                                        //   Parent Loop BB32_4 Depth=1
                                        // =>  This Inner Loop Header: Depth=2
	ldr	q0, [x10], #16
	ldr	q1, [x8, :lo12:.LCPI32_0]
	cmlt	v0.16b, v0.16b, #0
	and	v0.16b, v0.16b, v1.16b
	addp	v0.16b, v0.16b, v0.16b
	addp	v0.16b, v0.16b, v0.16b
	addp	v0.16b, v0.16b, v0.16b
	umov	w12, v0.h[0]
	cbnz	w12, .LBB32_26
// %bb.24:                              // %loop.2.i69.i
                                        //   in Loop: Header=BB32_23 Depth=2
	sub	x11, x11, #16
	cmp	x11, #16
	b.hs	.LBB32_23
.LBB32_25:                              // %after.1.i.i
                                        //   in Loop: Header=BB32_4 Depth=1
	add	x10, x25, x24
	ldr	q1, [x8, :lo12:.LCPI32_0]
	ldur	q0, [x10, #-16]
	cmlt	v0.16b, v0.16b, #0
	and	v0.16b, v0.16b, v1.16b
	addp	v0.16b, v0.16b, v0.16b
	addp	v0.16b, v0.16b, v0.16b
	addp	v0.16b, v0.16b, v0.16b
	umov	w10, v0.h[0]
	cbz	w10, .LBB32_31
.LBB32_26:                              // %after.10.i
                                        //   in Loop: Header=BB32_4 Depth=1
	cmp	x9, #31
	b.ls	.LBB32_30
// %bb.27:                              // %join.21.i
                                        //   in Loop: Header=BB32_4 Depth=1
	cmp	x9, #128
	b.hs	.LBB32_1
// %bb.28:                              //   in Loop: Header=BB32_4 Depth=1
	mov	x27, xzr
	b	.LBB32_2
.LBB32_29:                              // %"utf_lanes::ascii_texts::is_ascii.exit.i"
                                        //   in Loop: Header=BB32_4 Depth=1
	ldr	d0, [x25]
	ldur	d1, [x10, #-8]
	mov	v0.d[1], v1.d[0]
	ldr	q1, [x8, :lo12:.LCPI32_0]
	cmlt	v0.16b, v0.16b, #0
	and	v0.16b, v0.16b, v1.16b
	addp	v0.16b, v0.16b, v0.16b
	addp	v0.16b, v0.16b, v0.16b
	addp	v0.16b, v0.16b, v0.16b
	umov	w8, v0.h[0]
	cbz	w8, .LBB32_31
.LBB32_30:                              // %then.19.i
                                        //   in Loop: Header=BB32_4 Depth=1
	add	x0, x23, x20
	mov	x1, x24
	mov	x2, x22
	bl	"recoding::kernels::put_few::<#f0e6fcfecd579859>"
	b	.LBB32_3
.LBB32_31:                              // %then.14.i
                                        //   in Loop: Header=BB32_4 Depth=1
	cmp	x9, #16
	mov	x28, xzr
	mov	x27, x24
	stur	x20, [x29, #-48]                // 8-byte Folded Spill
	str	x24, [sp, #48]                  // 8-byte Spill
	b.lo	.LBB32_38
// %bb.32:                              // %join.5.i10.preheader
                                        //   in Loop: Header=BB32_4 Depth=1
	str	x25, [sp, #56]                  // 8-byte Spill
.LBB32_33:                              // %join.5.i10
                                        //   Parent Loop BB32_4 Depth=1
                                        // =>  This Inner Loop Header: Depth=2
	ldr	x9, [sp, #88]                   // 8-byte Reload
	add	x10, x25, x28
	ldrb	w24, [x10]
	ldrb	w20, [x10, #1]
	ldrb	w21, [x10, #2]
	ldp	x9, x8, [x9, #8]
	ldrb	w19, [x10, #3]
	ldrb	w17, [x10, #4]
	ldrb	w16, [x10, #5]
	ldrb	w15, [x10, #6]
	ldrb	w14, [x10, #7]
	ldrb	w13, [x10, #8]
	ldrb	w26, [x10, #9]
	sub	x11, x8, x9
	ldrb	w22, [x10, #10]
	ldrb	w23, [x10, #11]
	cmp	x11, #31
	ldrb	w25, [x10, #12]
	ldrb	w0, [x10, #13]
	ldrb	w1, [x10, #14]
	ldrb	w2, [x10, #15]
	b.ls	.LBB32_36
.LBB32_34:                              // %join.3.i175
                                        //   in Loop: Header=BB32_33 Depth=2
	ldr	x12, [sp, #88]                  // 8-byte Reload
	ldr	x10, [x12]
	add	x11, x10, x9
	add	x9, x9, #32
	strb	wzr, [x11]
	strb	w24, [x11, #1]
	strb	wzr, [x11, #2]
	strb	w20, [x11, #3]
	strb	wzr, [x11, #4]
	strb	w21, [x11, #5]
	strb	wzr, [x11, #6]
	strb	w19, [x11, #7]
	strb	wzr, [x11, #8]
	strb	w17, [x11, #9]
	strb	wzr, [x11, #10]
	strb	w16, [x11, #11]
	strb	wzr, [x11, #12]
	strb	w15, [x11, #13]
	strb	wzr, [x11, #14]
	strb	w14, [x11, #15]
	strb	wzr, [x11, #16]
	strb	w13, [x11, #17]
	strb	wzr, [x11, #18]
	strb	w26, [x11, #19]
	strb	wzr, [x11, #20]
	strb	w22, [x11, #21]
	strb	wzr, [x11, #22]
	strb	w23, [x11, #23]
	strb	wzr, [x11, #24]
	strb	w25, [x11, #25]
	strb	wzr, [x11, #26]
	strb	w0, [x11, #27]
	strb	wzr, [x11, #28]
	strb	w1, [x11, #29]
	strb	wzr, [x11, #30]
	strb	w2, [x11, #31]
	stp	x10, x9, [x12]
	str	x8, [x12, #16]
.LBB32_35:                              // %"std_alloc::vec::Vec::extend_from_slice::<#0cd040e5c49bc722>.exit"
                                        //   in Loop: Header=BB32_33 Depth=2
	sub	x27, x27, #16
	ldr	x25, [sp, #56]                  // 8-byte Reload
	add	x28, x28, #16
	cmp	x27, #15
	b.hi	.LBB32_33
	b	.LBB32_38
.LBB32_36:                              // %"std_alloc::vec::Vec::grow::<#5fdc5e19576447a7>.exit.i"
                                        //   in Loop: Header=BB32_33 Depth=2
	stp	w0, w17, [sp, #24]              // 8-byte Folded Spill
	ldr	x0, [sp, #88]                   // 8-byte Reload
	stp	w2, w1, [sp, #16]               // 8-byte Folded Spill
	mov	w1, #32                         // =0x20
	str	w16, [sp, #64]                  // 4-byte Spill
	str	w15, [sp, #96]                  // 4-byte Spill
	stur	w14, [x29, #-80]                // 4-byte Folded Spill
	stur	w13, [x29, #-64]                // 4-byte Folded Spill
	bl	"std_alloc::vec::Vec::grow_amortized::<#5fdc5e19576447a7>"
	cbz	w0, .LBB32_35
// %bb.37:                              // %"std_alloc::vec::Vec::grow::<#5fdc5e19576447a7>.exit.join.3_crit_edge.i"
                                        //   in Loop: Header=BB32_33 Depth=2
	ldr	x8, [sp, #88]                   // 8-byte Reload
	ldur	w13, [x29, #-64]                // 4-byte Folded Reload
	ldur	w14, [x29, #-80]                // 4-byte Folded Reload
	ldp	w0, w17, [sp, #24]              // 8-byte Folded Reload
	ldp	x9, x8, [x8, #8]
	ldr	w15, [sp, #96]                  // 4-byte Reload
	ldr	w16, [sp, #64]                  // 4-byte Reload
	ldp	w2, w1, [sp, #16]               // 8-byte Folded Reload
	b	.LBB32_34
.LBB32_38:                              // %"recoding::ascii_to_utf16::put_lanes::<#f0e6fcfecd579859>.exit"
                                        //   in Loop: Header=BB32_4 Depth=1
	cbz	x27, .LBB32_41
// %bb.39:                              // %join.5.i35.preheader
                                        //   in Loop: Header=BB32_4 Depth=1
	ldr	x22, [sp, #88]                  // 8-byte Reload
	ldp	x23, x21, [sp, #32]             // 16-byte Folded Reload
	ldur	x20, [x29, #-48]                // 8-byte Folded Reload
	add	x9, x25, x28
	ldr	x0, [sp, #48]                   // 8-byte Reload
	ldr	x8, [x22, #8]
.LBB32_40:                              // %join.5.i35
                                        //   Parent Loop BB32_4 Depth=1
                                        // =>  This Inner Loop Header: Depth=2
	ldr	x10, [x22]
	ldrb	w11, [x9], #1
	subs	x27, x27, #1
	strb	wzr, [x10, x8]
	ldr	x10, [x22]
	add	x10, x10, x8
	add	x8, x8, #2
	strb	w11, [x10, #1]
	str	x8, [x22, #8]
	b.ne	.LBB32_40
	b	.LBB32_3
.LBB32_41:                              //   in Loop: Header=BB32_4 Depth=1
	ldp	x23, x21, [sp, #32]             // 16-byte Folded Reload
	ldur	x20, [x29, #-48]                // 8-byte Folded Reload
	ldr	x22, [sp, #88]                  // 8-byte Reload
	ldr	x0, [sp, #48]                   // 8-byte Reload
	b	.LBB32_3
.LBB32_42:                              // %join.5.i
                                        //   in Loop: Header=BB32_4 Depth=1
	subs	x1, x21, x20
	b.eq	.LBB32_73
// %bb.43:                              // %join.8.i
                                        //   in Loop: Header=BB32_4 Depth=1
	ldr	x8, [sp, #8]                    // 8-byte Reload
	cmp	x0, #255
	csel	x8, xzr, x8, hi
	str	x8, [sp, #8]                    // 8-byte Spill
	cmp	x8, #3
	add	x8, x23, x20
	b.lo	.LBB32_46
// %bb.44:                              // %then.1.i
                                        //   in Loop: Header=BB32_4 Depth=1
	cmp	x1, #128
	b.lo	.LBB32_50
// %bb.45:                              // %join.9.i
                                        //   in Loop: Header=BB32_4 Depth=1
	add	x0, x23, x20
	mov	x2, x22
	bl	"recoding::kernels::widen_damaged::<#14d81c390063096d>"
	ldr	x8, [sp]                        // 8-byte Reload
	add	x20, x0, x20
	add	x8, x1, x8
	str	x8, [sp]                        // 8-byte Spill
	cbnz	x0, .LBB32_4
	b	.LBB32_50
.LBB32_46:                              // %join.3.i
                                        //   in Loop: Header=BB32_4 Depth=1
	cmp	x1, #67
	b.lo	.LBB32_50
// %bb.47:                              // %then.1.i.i121
                                        //   in Loop: Header=BB32_4 Depth=1
	ldrsb	w9, [x8]
	tbz	w9, #31, .LBB32_49
// %bb.48:                              // %"recoding::kernels::may_be_plain.exit.i"
                                        //   in Loop: Header=BB32_4 Depth=1
	ldrsb	w8, [x8, #1]
	tbnz	w8, #31, .LBB32_50
.LBB32_49:                              // %arm.5.i117
                                        //   in Loop: Header=BB32_4 Depth=1
	add	x0, x23, x20
	mov	x2, x22
	bl	"recoding::kernels::widen_plain::<#d2e6c14c333cca8a>"
	ldr	x8, [sp]                        // 8-byte Reload
	add	x20, x0, x20
	add	x8, x1, x8
	str	x8, [sp]                        // 8-byte Spill
	cbnz	x0, .LBB32_4
.LBB32_50:                              // %join.14.i
                                        //   in Loop: Header=BB32_4 Depth=1
	sub	x8, x21, x20
	mov	w9, #128                        // =0x80
	cmp	x8, #128
	csel	x9, x8, x9, lo
	cmp	x8, #4
	b.lo	.LBB32_70
// %bb.51:                              // %join.3.i.i.i.preheader
                                        //   in Loop: Header=BB32_4 Depth=1
	mov	x8, xzr
	add	x10, x23, x20
	b	.LBB32_54
.LBB32_52:                              //   in Loop: Header=BB32_54 Depth=2
	mov	w12, #1                         // =0x1
.LBB32_53:                              // %arm.1.i.i148
                                        //   in Loop: Header=BB32_54 Depth=2
	ldp	x14, x13, [x22]
	lsr	w15, w11, #8
	strb	w15, [x14, x13]
	ldr	x14, [x22]
	add	x14, x14, x13
	strb	w11, [x14, #1]
	add	x11, x13, #2
	add	x8, x12, x8
	str	x11, [x22, #8]
	sub	x12, x9, x8
	cmp	x12, #3
	b.ls	.LBB32_69
.LBB32_54:                              // %join.3.i.i.i
                                        //   Parent Loop BB32_4 Depth=1
                                        // =>  This Inner Loop Header: Depth=2
	add	x12, x10, x8
	ldrsb	w13, [x12]
	and	w11, w13, #0xff
	tbz	w13, #31, .LBB32_52
// %bb.55:                              // %join.6.i.i.i
                                        //   in Loop: Header=BB32_54 Depth=2
	ldrb	w13, [x12, #1]
	cmp	w11, #224
	b.hs	.LBB32_59
// %bb.56:                              // %"recoding::text::Utf8Text::next_valid.exit.i"
                                        //   in Loop: Header=BB32_54 Depth=2
	cmp	w11, #194
	b.lo	.LBB32_69
// %bb.57:                              // %"recoding::text::Utf8Text::next_valid.exit.i"
                                        //   in Loop: Header=BB32_54 Depth=2
	eor	w12, w13, #0x80
	cmp	w12, #63
	b.hi	.LBB32_69
// %bb.58:                              // %arm.7.i142
                                        //   in Loop: Header=BB32_54 Depth=2
	add	w11, w12, w11, lsl #6
	mov	w12, #2                         // =0x2
	sub	w11, w11, #3, lsl #12           // =12288
	b	.LBB32_53
.LBB32_59:                              // %join.9.i.i.i
                                        //   in Loop: Header=BB32_54 Depth=2
	sxtb	w14, w13
	cmn	w14, #65
	b.gt	.LBB32_69
// %bb.60:                              // %join.12.i.i.i
                                        //   in Loop: Header=BB32_54 Depth=2
	and	w13, w13, #0x3f
	cmp	w11, #239
	bfi	w13, w11, #6, #4
	b.hi	.LBB32_65
// %bb.61:                              // %then.13.i.i.i
                                        //   in Loop: Header=BB32_54 Depth=2
	and	w11, w13, #0x3e0
	cmp	w11, #864
	b.eq	.LBB32_69
// %bb.62:                              // %join.3.i13.i.i
                                        //   in Loop: Header=BB32_54 Depth=2
	ldrsb	w11, [x12, #2]
	cmn	w11, #65
	b.gt	.LBB32_69
// %bb.63:                              // %join.3.i13.i.i
                                        //   in Loop: Header=BB32_54 Depth=2
	cmp	w13, #32
	b.lo	.LBB32_69
// %bb.64:                              // %arm.7.i142.thread558
                                        //   in Loop: Header=BB32_54 Depth=2
	and	w11, w11, #0xff
	mov	w12, #3                         // =0x3
	and	w11, w11, #0x3f
	orr	w11, w11, w13, lsl #6
	b	.LBB32_53
.LBB32_65:                              // %else.14.i.i.i
                                        //   in Loop: Header=BB32_54 Depth=2
	sub	w11, w13, #272
	cmn	w11, #256
	b.lo	.LBB32_69
// %bb.66:                              // %after.1.i.i.i
                                        //   in Loop: Header=BB32_54 Depth=2
	ldrsb	w11, [x12, #2]
	cmn	w11, #65
	b.gt	.LBB32_69
// %bb.67:                              // %else.14.i34.i.i
                                        //   in Loop: Header=BB32_54 Depth=2
	ldrsb	w12, [x12, #3]
	cmn	w12, #65
	b.gt	.LBB32_69
// %bb.68:                              // %arm.7.i142.thread564
                                        //   in Loop: Header=BB32_54 Depth=2
	lsl	w13, w13, #12
	mov	w14, #-10304                    // =0xffffd7c0
	bfi	w12, w11, #6, #6
	bfi	w13, w11, #6, #6
	add	w13, w14, w13, lsr #10
	ldp	x15, x14, [x22]
	lsr	w16, w13, #8
	strb	w16, [x15, x14]
	ldr	x15, [x22]
	add	x15, x15, x14
	strb	w13, [x15, #1]
	mov	w13, #220                       // =0xdc
	ldr	x15, [x22]
	bfxil	w13, w11, #2, #2
	add	x15, x15, x14
	strb	w13, [x15, #2]
	ldr	x13, [x22]
	add	x11, x13, x14
	strb	w12, [x11, #3]
	add	x11, x14, #4
	mov	w12, #4                         // =0x4
	add	x8, x12, x8
	str	x11, [x22, #8]
	sub	x12, x9, x8
	cmp	x12, #3
	b.hi	.LBB32_54
.LBB32_69:                              // %"recoding::engine::recode_text::<#90b22c6900c6b509>.exit"
                                        //   in Loop: Header=BB32_4 Depth=1
	cmp	x8, #124
	add	x20, x8, x20
	b.hi	.LBB32_4
.LBB32_70:                              // %then.15.i
                                        //   in Loop: Header=BB32_4 Depth=1
	subs	x2, x21, x20
	b.eq	.LBB32_73
// %bb.71:                              // %"recoding::engine::recode_carefully::<#90b22c6900c6b509>.exit"
                                        //   in Loop: Header=BB32_4 Depth=1
	sub	x0, x29, #32
	add	x1, x23, x20
	mov	x3, x22
	stp	xzr, xzr, [x29, #-32]
	stur	xzr, [x29, #-16]
	bl	"recoding::engine::recode_faults::<#e11ba97e6063c4ca>"
	ldp	x9, x8, [x29, #-32]
	ldr	x12, [sp, #8]                   // 8-byte Reload
	ldurb	w10, [x29, #-16]
	adds	x11, x12, #1
	add	x20, x9, x20
	ldr	x9, [sp]                        // 8-byte Reload
	csinv	x11, x11, xzr, lo
	cmp	x8, #0
	add	x9, x8, x9
	csel	x12, x12, x11, eq
	stp	x9, x12, [sp]                   // 16-byte Folded Spill
	tbnz	w10, #0, .LBB32_74
// %bb.72:                              // %"recoding::engine::recode_carefully::<#90b22c6900c6b509>.exit"
                                        //   in Loop: Header=BB32_4 Depth=1
	ldurb	w8, [x29, #-15]
	tbz	w8, #0, .LBB32_4
	b	.LBB32_74
.LBB32_73:
	mov	x20, x21
.LBB32_74:                              // %"recoding::engine::run::<#6445eb3cfe90c988>.exit"
	mov	x0, x20
	ldr	x1, [sp]                        // 8-byte Reload
	.cfi_def_cfa wsp, 288
	ldp	x20, x19, [sp, #272]            // 16-byte Folded Reload
	ldp	x22, x21, [sp, #256]            // 16-byte Folded Reload
	ldp	x24, x23, [sp, #240]            // 16-byte Folded Reload
	ldp	x26, x25, [sp, #224]            // 16-byte Folded Reload
	ldp	x28, x27, [sp, #208]            // 16-byte Folded Reload
	ldp	x29, x30, [sp, #192]            // 16-byte Folded Reload
	add	sp, sp, #288
	.cfi_def_cfa_offset 0
	.cfi_restore w19
	.cfi_restore w20
	.cfi_restore w21
	.cfi_restore w22
	.cfi_restore w23
	.cfi_restore w24
	.cfi_restore w25
	.cfi_restore w26
	.cfi_restore w27
	.cfi_restore w28
	.cfi_restore w30
	.cfi_restore w29
	ret
.Lfunc_end32:
	.size	"recoding::recoder_runs::run_whole::<#9c534bed186decad>", .Lfunc_end32-"recoding::recoder_runs::run_whole::<#9c534bed186decad>"
	.cfi_endproc
                                        // -- End function
	.section	.rodata.cst16,"aM",@progbits,16
	.p2align	4, 0x0                          // -- Begin function recoding::kernels::put_few::<#f0e6fcfecd579859>
.LCPI33_0:
	.byte	1                               // 0x1
	.byte	2                               // 0x2
	.byte	4                               // 0x4
	.byte	8                               // 0x8
	.byte	16                              // 0x10
	.byte	32                              // 0x20
	.byte	64                              // 0x40
	.byte	128                             // 0x80
	.byte	1                               // 0x1
	.byte	2                               // 0x2
	.byte	4                               // 0x4
	.byte	8                               // 0x8
	.byte	16                              // 0x10
	.byte	32                              // 0x20
	.byte	64                              // 0x40
	.byte	128                             // 0x80
.LCPI33_1:
	.byte	2                               // 0x2
	.byte	2                               // 0x2
	.byte	2                               // 0x2
	.byte	2                               // 0x2
	.byte	2                               // 0x2
	.byte	2                               // 0x2
	.byte	2                               // 0x2
	.byte	2                               // 0x2
	.byte	128                             // 0x80
	.byte	128                             // 0x80
	.byte	128                             // 0x80
	.byte	128                             // 0x80
	.byte	5                               // 0x5
	.byte	1                               // 0x1
	.byte	25                              // 0x19
	.byte	97                              // 0x61
.LCPI33_2:
	.byte	207                             // 0xcf
	.byte	135                             // 0x87
	.byte	131                             // 0x83
	.byte	131                             // 0x83
	.byte	163                             // 0xa3
	.byte	227                             // 0xe3
	.byte	227                             // 0xe3
	.byte	227                             // 0xe3
	.byte	227                             // 0xe3
	.byte	227                             // 0xe3
	.byte	227                             // 0xe3
	.byte	227                             // 0xe3
	.byte	227                             // 0xe3
	.byte	243                             // 0xf3
	.byte	227                             // 0xe3
	.byte	227                             // 0xe3
.LCPI33_3:
	.byte	1                               // 0x1
	.byte	1                               // 0x1
	.byte	1                               // 0x1
	.byte	1                               // 0x1
	.byte	1                               // 0x1
	.byte	1                               // 0x1
	.byte	1                               // 0x1
	.byte	1                               // 0x1
	.byte	206                             // 0xce
	.byte	174                             // 0xae
	.byte	182                             // 0xb6
	.byte	182                             // 0xb6
	.byte	1                               // 0x1
	.byte	1                               // 0x1
	.byte	1                               // 0x1
	.byte	1                               // 0x1
	.section	.rodata.cst8,"aM",@progbits,8
	.p2align	3, 0x0
.LCPI33_4:
	.word	224                             // 0xe0
	.word	192                             // 0xc0
	.section	".text.recoding::kernels::put_few::<#f0e6fcfecd579859>","ax",@progbits
	.p2align	2
	.type	"recoding::kernels::put_few::<#f0e6fcfecd579859>",@function
"recoding::kernels::put_few::<#f0e6fcfecd579859>": // @"recoding::kernels::put_few::<#f0e6fcfecd579859>"
	.cfi_startproc
// %bb.0:                               // %start
	sub	sp, sp, #256
	.cfi_def_cfa_offset 256
	stp	x29, x30, [sp, #176]            // 16-byte Folded Spill
	str	x25, [sp, #192]                 // 8-byte Spill
	stp	x24, x23, [sp, #208]            // 16-byte Folded Spill
	stp	x22, x21, [sp, #224]            // 16-byte Folded Spill
	stp	x20, x19, [sp, #240]            // 16-byte Folded Spill
	add	x29, sp, #176
	.cfi_def_cfa w29, 80
	.cfi_offset w19, -8
	.cfi_offset w20, -16
	.cfi_offset w21, -24
	.cfi_offset w22, -32
	.cfi_offset w23, -40
	.cfi_offset w24, -48
	.cfi_offset w25, -64
	.cfi_offset w30, -72
	.cfi_offset w29, -80
	.cfi_remember_state
	mov	x19, x2
	cmp	x1, #19
	mov	x21, x0
	b.hs	.LBB33_4
// %bb.1:                               // %then.1
	cmp	x1, #16
	mov	w8, #16                         // =0x10
	csel	x22, x1, x8, lo
	cmp	x1, #4
	b.lo	.LBB33_9
// %bb.2:                               // %join.6.i.i
	adrp	x8, .Lstatic.10
	add	x8, x8, :lo12:.Lstatic.10
	cmp	x1, #7
	add	x8, x8, x22, lsl #4
	ldur	q0, [x8, #-64]
	add	x8, x21, x22
	b.hi	.LBB33_7
// %bb.3:                               // %then.1.i8.i
	ldr	s1, [x21]
	ldur	s2, [x8, #-4]
	ushll	v1.8h, v1.8b, #0
	ushll	v2.8h, v2.8b, #0
	mov	v3.16b, v1.16b
	umov	w8, v2.h[1]
	mov	v3.d[1], v2.d[0]
	uzp1	v3.16b, v3.16b, v3.16b
	tbl	v4.16b, { v3.16b }, v0.16b
	zip2	v3.4h, v2.4h, v2.4h
	b	.LBB33_8
.LBB33_4:                               // %join.3
	mov	x0, x21
	bl	"utf_lanes::text_blocks::text_len"
	cmp	x0, #19
	b.lo	.LBB33_9
// %bb.5:                               // %join.6
	movi	v7.2d, #0000000000000000
	ldr	q3, [x21]
	movi	v5.16b, #239
	adrp	x8, .LCPI33_0
	mov	x20, x0
	ldr	q6, [x8, :lo12:.LCPI33_0]
	ext	v1.16b, v7.16b, v3.16b, #14
	ext	v0.16b, v7.16b, v3.16b, #13
	ext	v2.16b, v7.16b, v3.16b, #15
	stp	q7, q7, [sp, #80]
	stp	q7, q7, [sp, #112]
	str	q7, [sp, #64]
	umax	v4.16b, v1.16b, v0.16b
	str	q6, [sp]                        // 16-byte Spill
	cmhi	v4.16b, v4.16b, v5.16b
	and	v4.16b, v4.16b, v6.16b
	addp	v4.16b, v4.16b, v4.16b
	addp	v4.16b, v4.16b, v4.16b
	addp	v4.16b, v4.16b, v4.16b
	umov	w8, v4.h[0]
	cbz	w8, .LBB33_10
// %bb.6:                               // %else.2.i.i.i
	sub	x0, x29, #32
	stp	q2, q3, [sp, #16]               // 32-byte Folded Spill
	bl	"utf_lanes::text_units::long_halves"
	ldp	q2, q3, [sp, #16]               // 32-byte Folded Reload
	ldr	q6, [sp]                        // 16-byte Reload
	ldp	q1, q0, [x29, #-32]
	b	.LBB33_11
.LBB33_7:                               // %join.3.i7.i
	ldr	d1, [x21]
	ldur	d5, [x8, #-8]
	mov	v2.16b, v1.16b
	mov	b3, v5.b[6]
	zip1	v1.8b, v1.8b, v0.8b
	umov	w8, v5.b[5]
	mov	v2.d[1], v5.d[0]
	mov	v3.b[4], v5.b[7]
	tbl	v4.16b, { v2.16b }, v0.16b
	zip2	v2.8b, v5.8b, v0.8b
.LBB33_8:                               // %"utf_lanes::few_bytes::padded_text.exit.i"
	movi	v5.2d, #0000000000000000
	movi	v6.16b, #15
	adrp	x9, .LCPI33_1
	movi	v16.16b, #96
	movi	v17.16b, #112
	adrp	x10, .LCPI33_2
	ldr	q20, [x10, :lo12:.LCPI33_2]
	ext	v7.16b, v5.16b, v4.16b, #15
	ext	v18.16b, v5.16b, v4.16b, #14
	ext	v5.16b, v5.16b, v4.16b, #13
	ushr	v4.16b, v4.16b, #4
	ushr	v19.16b, v7.16b, #4
	and	v6.16b, v7.16b, v6.16b
	ldr	q7, [x9, :lo12:.LCPI33_1]
	uqsub	v16.16b, v18.16b, v16.16b
	adrp	x9, .LCPI33_3
	uqsub	v5.16b, v5.16b, v17.16b
	ldr	q17, [x9, :lo12:.LCPI33_3]
	adrp	x9, .LCPI33_0
	tbl	v7.16b, { v7.16b }, v19.16b
	tbl	v6.16b, { v20.16b }, v6.16b
	tbl	v4.16b, { v17.16b }, v4.16b
	movi	v17.16b, #128
	orr	v5.16b, v16.16b, v5.16b
	and	v6.16b, v6.16b, v7.16b
	and	v5.16b, v5.16b, v17.16b
	and	v4.16b, v6.16b, v4.16b
	cmeq	v4.16b, v5.16b, v4.16b
	ldr	q5, [x9, :lo12:.LCPI33_0]
	bic	v4.16b, v5.16b, v4.16b
	addp	v4.16b, v4.16b, v4.16b
	addp	v4.16b, v4.16b, v4.16b
	addp	v4.16b, v4.16b, v4.16b
	umov	w9, v4.h[0]
	cbz	w9, .LBB33_21
.LBB33_9:
	mov	x20, xzr
	b	.LBB33_29
.LBB33_10:                              // %then.1.i.i.i
	cmlt	v0.16b, v3.16b, #0
	movi	v7.16b, #224
	movi	v4.16b, #127
	and	v5.16b, v0.16b, v2.16b
	uqsub	v1.16b, v1.16b, v7.16b
	and	v7.16b, v3.16b, v4.16b
	ushr	v0.16b, v5.16b, #2
	shl	v4.16b, v5.16b, #6
	sli	v0.16b, v1.16b, #4
	add	v1.16b, v4.16b, v7.16b
.LBB33_11:                              // %"utf_lanes::text_puts::write_first::<#22d4087b0bf99cde>.exit"
	movi	v4.16b, #32
	adrp	x23, .Lstatic.17
	add	x23, x23, :lo12:.Lstatic.17
	cmp	x20, #32
	uqsub	v2.16b, v2.16b, v4.16b
	movi	v4.16b, #192
	umax	v2.16b, v2.16b, v3.16b
	cmhi	v2.16b, v4.16b, v2.16b
	and	v2.16b, v2.16b, v6.16b
	addp	v2.16b, v2.16b, v2.16b
	addp	v2.16b, v2.16b, v2.16b
	addp	v2.16b, v2.16b, v2.16b
	umov	w8, v2.h[0]
	zip1	v2.16b, v0.16b, v1.16b
	zip2	v0.16b, v0.16b, v1.16b
	ubfx	x9, x8, #8, #8
	and	x8, x8, #0xff
	fmov	d3, x8
	ldr	q5, [x23, x8, lsl #4]
	fmov	d4, x9
	tbl	v1.16b, { v2.16b }, v5.16b
	ldr	q2, [x23, x9, lsl #4]
	cnt	v3.8b, v3.8b
	cnt	v4.8b, v4.8b
	tbl	v0.16b, { v0.16b }, v2.16b
	str	q1, [sp, #48]
	fmov	w8, s3
	fmov	w9, s4
	ubfiz	x10, x8, #1, #32
	add	x8, x8, x9
	add	x9, sp, #48
	lsl	x22, x8, #1
	str	q0, [x9, x10]
	b.hs	.LBB33_13
// %bb.12:
	mov	w8, #16                         // =0x10
	cmp	x8, x20
	b.lo	.LBB33_19
	b	.LBB33_27
.LBB33_13:                              // %join.5.i.lr.ph
	mov	x24, #-16                       // =0xfffffffffffffff0
	mov	x25, x21
	b	.LBB33_16
.LBB33_14:                              // %else.2.i.i.i798
                                        //   in Loop: Header=BB33_16 Depth=1
	sub	x0, x29, #32
	stp	q2, q3, [sp, #16]               // 32-byte Folded Spill
	bl	"utf_lanes::text_units::long_halves"
	ldp	q2, q3, [sp, #16]               // 32-byte Folded Reload
	ldr	q6, [sp]                        // 16-byte Reload
	ldp	q1, q0, [x29, #-32]
.LBB33_15:                              // %"utf_lanes::text_units::block_units::<#22d4087b0bf99cde>.exit1012"
                                        //   in Loop: Header=BB33_16 Depth=1
	movi	v4.16b, #32
	add	x11, sp, #48
	sub	x24, x24, #16
	add	x11, x11, x22
	uqsub	v2.16b, v2.16b, v4.16b
	movi	v4.16b, #192
	umax	v2.16b, v2.16b, v3.16b
	cmhi	v2.16b, v4.16b, v2.16b
	zip1	v4.16b, v0.16b, v1.16b
	zip2	v0.16b, v0.16b, v1.16b
	and	v2.16b, v2.16b, v6.16b
	addp	v2.16b, v2.16b, v2.16b
	addp	v2.16b, v2.16b, v2.16b
	addp	v2.16b, v2.16b, v2.16b
	umov	w8, v2.h[0]
	and	x9, x8, #0xff
	ubfx	x8, x8, #8, #8
	fmov	d2, x9
	ldr	q5, [x23, x9, lsl #4]
	fmov	d3, x8
	ldr	q1, [x23, x8, lsl #4]
	cnt	v2.8b, v2.8b
	tbl	v0.16b, { v0.16b }, v1.16b
	cnt	v3.8b, v3.8b
	fmov	w9, s2
	tbl	v2.16b, { v4.16b }, v5.16b
	fmov	w8, s3
	ubfiz	x10, x9, #1, #32
	add	x8, x9, x8
	add	x9, x20, x24
	str	q2, [x11]
	add	x22, x22, x8, lsl #1
	cmp	x9, #15
	str	q0, [x11, x10]
	b.ls	.LBB33_18
.LBB33_16:                              // %join.5.i
                                        // =>This Inner Loop Header: Depth=1
	ldr	q3, [x25, #16]!
	ldur	q1, [x25, #-2]
	ldur	q0, [x25, #-3]
	movi	v2.16b, #239
	umax	v4.16b, v1.16b, v0.16b
	cmhi	v2.16b, v4.16b, v2.16b
	and	v2.16b, v2.16b, v6.16b
	addp	v2.16b, v2.16b, v2.16b
	addp	v2.16b, v2.16b, v2.16b
	addp	v2.16b, v2.16b, v2.16b
	umov	w8, v2.h[0]
	ldur	q2, [x25, #-1]
	cbnz	w8, .LBB33_14
// %bb.17:                              // %then.1.i.i.i997
                                        //   in Loop: Header=BB33_16 Depth=1
	cmlt	v0.16b, v3.16b, #0
	movi	v7.16b, #224
	movi	v4.16b, #127
	and	v5.16b, v0.16b, v2.16b
	uqsub	v1.16b, v1.16b, v7.16b
	and	v7.16b, v3.16b, v4.16b
	ushr	v0.16b, v5.16b, #2
	shl	v4.16b, v5.16b, #6
	sli	v0.16b, v1.16b, #4
	add	v1.16b, v4.16b, v7.16b
	b	.LBB33_15
.LBB33_18:                              // %after.1.i265.loopexit
	neg	x8, x24
	cmp	x8, x20
	b.hs	.LBB33_27
.LBB33_19:                              // %then.6.i
	sub	x9, x20, #16
	movi	v2.16b, #239
	add	x10, x21, x9
	sub	x21, x8, x9
	ldur	q1, [x10, #-2]
	ldur	q0, [x10, #-3]
	umax	v3.16b, v1.16b, v0.16b
	cmhi	v2.16b, v3.16b, v2.16b
	ldr	q3, [x10]
	and	v2.16b, v2.16b, v6.16b
	addp	v2.16b, v2.16b, v2.16b
	addp	v2.16b, v2.16b, v2.16b
	addp	v2.16b, v2.16b, v2.16b
	umov	w11, v2.h[0]
	ldur	q2, [x10, #-1]
	cbz	w11, .LBB33_25
// %bb.20:                              // %else.2.i.i.i531
	sub	x0, x29, #32
	stp	q2, q3, [sp, #16]               // 32-byte Folded Spill
	bl	"utf_lanes::text_units::long_halves"
	ldp	q2, q3, [sp, #16]               // 32-byte Folded Reload
	ldr	q6, [sp]                        // 16-byte Reload
	ldp	q1, q0, [x29, #-32]
	b	.LBB33_26
.LBB33_21:                              // %then.7.i.i
	movi	d4, #0x0000ff000000ff
	adrp	x9, .LCPI33_4
	mov	x20, xzr
	and	v3.8b, v3.8b, v4.8b
	ldr	d4, [x9, :lo12:.LCPI33_4]
	cmhi	v3.2s, v4.2s, v3.2s
	dup	v4.2s, v3.s[1]
	and	v3.8b, v4.8b, v3.8b
	fmov	w9, s3
	tbz	w9, #0, .LBB33_29
// %bb.22:                              // %then.7.i.i
	and	w8, w8, #0xff
	cmp	w8, #239
	b.hi	.LBB33_29
// %bb.23:                              // %after.1.i
	cmp	x1, #7
	mov	w8, #16                         // =0x10
	stp	xzr, xzr, [x29, #-16]
	b.hi	.LBB33_30
// %bb.24:                              // %then.1.i.i
	mov	v1.d[1], v2.d[0]
	uzp1	v1.16b, v1.16b, v1.16b
	b	.LBB33_31
.LBB33_25:                              // %then.1.i.i.i726
	cmlt	v0.16b, v3.16b, #0
	movi	v7.16b, #224
	movi	v4.16b, #127
	and	v5.16b, v0.16b, v2.16b
	uqsub	v1.16b, v1.16b, v7.16b
	and	v7.16b, v3.16b, v4.16b
	ushr	v0.16b, v5.16b, #2
	shl	v4.16b, v5.16b, #6
	sli	v0.16b, v1.16b, #4
	add	v1.16b, v4.16b, v7.16b
.LBB33_26:                              // %"utf_lanes::text_units::block_units::<#22d4087b0bf99cde>.exit"
	movi	v4.16b, #32
	add	x10, sp, #48
	add	x10, x10, x22
	uqsub	v2.16b, v2.16b, v4.16b
	movi	v4.16b, #192
	umax	v2.16b, v2.16b, v3.16b
	zip1	v3.16b, v0.16b, v1.16b
	zip2	v0.16b, v0.16b, v1.16b
	cmhi	v2.16b, v4.16b, v2.16b
	and	v2.16b, v2.16b, v6.16b
	addp	v2.16b, v2.16b, v2.16b
	addp	v2.16b, v2.16b, v2.16b
	addp	v2.16b, v2.16b, v2.16b
	umov	w8, v2.h[0]
	lsr	x8, x8, x21
	lsl	x8, x8, x21
	ubfx	x9, x8, #8, #32
	fmov	d2, x9
	and	x9, x8, #0xff
	lsr	x8, x8, #8
	fmov	d4, x9
	ldr	q5, [x23, x9, lsl #4]
	cnt	v2.8b, v2.8b
	tbl	v1.16b, { v3.16b }, v5.16b
	ldr	q3, [x23, x8, lsl #4]
	cnt	v4.8b, v4.8b
	tbl	v0.16b, { v0.16b }, v3.16b
	addv	b2, v2.8b
	str	q1, [x10]
	fmov	w9, s4
	fmov	w8, s2
	ubfiz	x11, x9, #1, #32
	add	x8, x9, x8
	str	q0, [x10, x11]
	add	x22, x22, x8, lsl #1
.LBB33_27:                              // %"utf_lanes::text_puts::write_rest::<#22d4087b0bf99cde>.exit"
	ldp	x8, x21, [x19, #8]
	sub	x9, x21, x8
	cmp	x22, x9
	b.hi	.LBB33_37
.LBB33_28:                              // %join.3.i1029
	ldr	x23, [x19]
	add	x1, sp, #48
	mov	x2, x22
	add	x24, x8, x22
	add	x0, x23, x8
	bl	memcpy
	stp	x23, x24, [x19]
	str	x21, [x19, #16]
.LBB33_29:                              // %common.ret
	mov	x0, x20
	.cfi_def_cfa wsp, 256
	ldp	x20, x19, [sp, #240]            // 16-byte Folded Reload
	ldr	x25, [sp, #192]                 // 8-byte Reload
	ldp	x22, x21, [sp, #224]            // 16-byte Folded Reload
	ldp	x24, x23, [sp, #208]            // 16-byte Folded Reload
	ldp	x29, x30, [sp, #176]            // 16-byte Folded Reload
	add	sp, sp, #256
	.cfi_def_cfa_offset 0
	.cfi_restore w19
	.cfi_restore w20
	.cfi_restore w21
	.cfi_restore w22
	.cfi_restore w23
	.cfi_restore w24
	.cfi_restore w25
	.cfi_restore w30
	.cfi_restore w29
	ret
.LBB33_30:                              // %join.3.i.i
	.cfi_restore_state
	add	x9, x21, x22
	ldr	d1, [x21]
	ldur	d2, [x9, #-8]
	mov	v1.d[1], v2.d[0]
.LBB33_31:                              // %"utf_lanes::text_puts::write_few::<#22d4087b0bf99cde>.exit"
	tbl	v3.16b, { v1.16b }, v0.16b
	movi	v2.2d, #0000000000000000
	sub	x20, x8, x22
	movi	v6.16b, #239
	ext	v1.16b, v2.16b, v3.16b, #14
	ext	v0.16b, v2.16b, v3.16b, #13
	ext	v2.16b, v2.16b, v3.16b, #15
	umax	v4.16b, v1.16b, v0.16b
	cmhi	v4.16b, v4.16b, v6.16b
	and	v4.16b, v4.16b, v5.16b
	addp	v4.16b, v4.16b, v4.16b
	addp	v4.16b, v4.16b, v4.16b
	addp	v4.16b, v4.16b, v4.16b
	umov	w9, v4.h[0]
	cbz	w9, .LBB33_33
// %bb.32:                              // %else.2.i.i
	add	x0, sp, #48
	stp	q3, q5, [sp, #16]               // 32-byte Folded Spill
	str	q2, [sp]                        // 16-byte Spill
	bl	"utf_lanes::text_units::long_halves"
	ldp	q2, q3, [sp]                    // 32-byte Folded Reload
	ldr	q0, [sp, #64]
	ldp	q5, q1, [sp, #32]               // 16-byte Folded Reload
	b	.LBB33_34
.LBB33_33:                              // %then.1.i.i156
	cmlt	v0.16b, v3.16b, #0
	movi	v7.16b, #224
	movi	v4.16b, #127
	and	v6.16b, v0.16b, v2.16b
	uqsub	v1.16b, v1.16b, v7.16b
	and	v7.16b, v3.16b, v4.16b
	ushr	v0.16b, v6.16b, #2
	shl	v4.16b, v6.16b, #6
	sli	v0.16b, v1.16b, #4
	add	v1.16b, v4.16b, v7.16b
.LBB33_34:                              // %"utf_lanes::text_units::lane_units::<#22d4087b0bf99cde>.exit"
	movi	v4.16b, #32
	adrp	x10, .Lstatic.17
	add	x10, x10, :lo12:.Lstatic.17
	uqsub	v2.16b, v2.16b, v4.16b
	movi	v4.16b, #192
	umax	v2.16b, v2.16b, v3.16b
	cmhi	v2.16b, v4.16b, v2.16b
	zip1	v4.16b, v0.16b, v1.16b
	zip2	v0.16b, v0.16b, v1.16b
	and	v2.16b, v2.16b, v5.16b
	addp	v2.16b, v2.16b, v2.16b
	addp	v2.16b, v2.16b, v2.16b
	addp	v2.16b, v2.16b, v2.16b
	umov	w8, v2.h[0]
	lsr	x8, x8, x20
	lsl	x8, x8, x20
	ubfx	x9, x8, #8, #32
	fmov	d2, x9
	and	x9, x8, #0xff
	lsr	x8, x8, #8
	fmov	d3, x9
	ldr	q5, [x10, x9, lsl #4]
	cnt	v2.8b, v2.8b
	tbl	v1.16b, { v4.16b }, v5.16b
	cnt	v3.8b, v3.8b
	addv	b2, v2.8b
	stur	q1, [x29, #-32]
	fmov	w9, s3
	fmov	w11, s2
	ldr	q2, [x10, x8, lsl #4]
	ldp	x8, x20, [x19, #8]
	tbl	v0.16b, { v0.16b }, v2.16b
	add	x10, x9, x11
	ubfiz	x9, x9, #1, #32
	lsl	x2, x10, #1
	sub	x10, x20, x8
	cmp	x2, x10
	sub	x10, x29, #32
	str	q0, [x10, x9]
	b.hi	.LBB33_39
.LBB33_35:                              // %join.3.i
	ldr	x21, [x19]
	sub	x1, x29, #32
	add	x23, x8, x2
	add	x0, x21, x8
	bl	memcpy
	stp	x21, x23, [x19]
	str	x20, [x19, #16]
.LBB33_36:                              // %"std_alloc::vec::Vec::extend_from_slice::<#0cd040e5c49bc722>.exit"
	mov	x20, x22
	b	.LBB33_29
.LBB33_37:                              // %"std_alloc::vec::Vec::grow::<#5fdc5e19576447a7>.exit.i1049"
	mov	x0, x19
	mov	x1, x22
	bl	"std_alloc::vec::Vec::grow_amortized::<#5fdc5e19576447a7>"
	cbz	w0, .LBB33_29
// %bb.38:                              // %"std_alloc::vec::Vec::grow::<#5fdc5e19576447a7>.exit.join.3_crit_edge.i1051"
	ldp	x8, x21, [x19, #8]
	b	.LBB33_28
.LBB33_39:                              // %"std_alloc::vec::Vec::grow::<#5fdc5e19576447a7>.exit.i"
	mov	x0, x19
	mov	x1, x2
	mov	x21, x2
	bl	"std_alloc::vec::Vec::grow_amortized::<#5fdc5e19576447a7>"
	cbz	w0, .LBB33_36
// %bb.40:                              // %"std_alloc::vec::Vec::grow::<#5fdc5e19576447a7>.exit.join.3_crit_edge.i"
	ldp	x8, x20, [x19, #8]
	mov	x2, x21
	b	.LBB33_35
.Lfunc_end33:
	.size	"recoding::kernels::put_few::<#f0e6fcfecd579859>", .Lfunc_end33-"recoding::kernels::put_few::<#f0e6fcfecd579859>"
	.cfi_endproc
                                        // -- End function
	.section	".text.recoding::kernels::put_judged::<#fc185a580612e994>","ax",@progbits
	.p2align	2                               // -- Begin function recoding::kernels::put_judged::<#fc185a580612e994>
	.type	"recoding::kernels::put_judged::<#fc185a580612e994>",@function
"recoding::kernels::put_judged::<#fc185a580612e994>": // @"recoding::kernels::put_judged::<#fc185a580612e994>"
	.cfi_startproc
// %bb.0:                               // %start
	stp	x29, x30, [sp, #-48]!           // 16-byte Folded Spill
	.cfi_def_cfa_offset 48
	str	x21, [sp, #16]                  // 8-byte Spill
	stp	x20, x19, [sp, #32]             // 16-byte Folded Spill
	mov	x29, sp
	.cfi_def_cfa w29, 48
	.cfi_offset w19, -8
	.cfi_offset w20, -16
	.cfi_offset w21, -32
	.cfi_offset w30, -40
	.cfi_offset w29, -48
	ldp	x9, x8, [x2, #8]
	mov	x19, x2
	mov	x20, x0
	sub	x8, x8, x9
	subs	x8, x8, #32
	csel	x8, xzr, x8, lo
	lsr	x8, x8, #1
	cmp	x8, x1
	csel	x1, x8, x1, lo
	bl	"utf_lanes::text_blocks::text_len"
	mov	x21, x0
	cmp	x0, #18
	mov	x0, xzr
	b.ls	.LBB34_2
// %bb.1:                               // %join.3
	mov	x0, x20
	mov	x1, x21
	mov	x2, x19
	bl	"recoding::list::append_units::<#db1eb2065a50937f>"
	mov	x0, x21
.LBB34_2:                               // %common.ret
	.cfi_def_cfa wsp, 48
	ldp	x20, x19, [sp, #32]             // 16-byte Folded Reload
	ldr	x21, [sp, #16]                  // 8-byte Reload
	ldp	x29, x30, [sp], #48             // 16-byte Folded Reload
	.cfi_def_cfa_offset 0
	.cfi_restore w19
	.cfi_restore w20
	.cfi_restore w21
	.cfi_restore w30
	.cfi_restore w29
	ret
.Lfunc_end34:
	.size	"recoding::kernels::put_judged::<#fc185a580612e994>", .Lfunc_end34-"recoding::kernels::put_judged::<#fc185a580612e994>"
	.cfi_endproc
                                        // -- End function
	.section	".text.recoding::list::append_units::<#db1eb2065a50937f>","ax",@progbits
	.p2align	2                               // -- Begin function recoding::list::append_units::<#db1eb2065a50937f>
	.type	"recoding::list::append_units::<#db1eb2065a50937f>",@function
"recoding::list::append_units::<#db1eb2065a50937f>": // @"recoding::list::append_units::<#db1eb2065a50937f>"
	.cfi_startproc
// %bb.0:                               // %start
	stp	x29, x30, [sp, #-80]!           // 16-byte Folded Spill
	.cfi_def_cfa_offset 80
	stp	x26, x25, [sp, #16]             // 16-byte Folded Spill
	stp	x24, x23, [sp, #32]             // 16-byte Folded Spill
	stp	x22, x21, [sp, #48]             // 16-byte Folded Spill
	stp	x20, x19, [sp, #64]             // 16-byte Folded Spill
	mov	x29, sp
	.cfi_def_cfa w29, 80
	.cfi_offset w19, -8
	.cfi_offset w20, -16
	.cfi_offset w21, -24
	.cfi_offset w22, -32
	.cfi_offset w23, -40
	.cfi_offset w24, -48
	.cfi_offset w25, -56
	.cfi_offset w26, -64
	.cfi_offset w30, -72
	.cfi_offset w29, -80
	.cfi_remember_state
	lsl	x8, x1, #1
	ldr	x21, [x2, #8]
	mov	x19, x2
	mov	x20, x1
	mov	x22, x0
	add	x23, x8, #32
	cmp	x23, #1985
	b.hs	.LBB35_6
// %bb.1:
	mov	x8, x21
	add	x24, x21, x23
	cmp	x24, x21
	b.hi	.LBB35_14
.LBB35_2:                               // %then.1.i12
	cmp	x8, x24
	b.ls	.LBB35_18
// %bb.3:                               // %join.3.i.i15
	str	x24, [x19, #8]
	b	.LBB35_18
.LBB35_4:                               // %join.3.i.i
                                        //   in Loop: Header=BB35_6 Depth=1
	add	x8, x8, #1984
	str	x8, [x19, #8]
.LBB35_5:                               // %"std_alloc::vec::Vec::resize::<#0cd040e5c49bc722>.exit"
                                        //   in Loop: Header=BB35_6 Depth=1
	sub	x23, x23, #1984
	cmp	x23, #1984
	b.ls	.LBB35_13
.LBB35_6:                               // %join.5.i
                                        // =>This Inner Loop Header: Depth=1
	ldr	x8, [x19, #8]
	cmn	x8, #1984
	b.hs	.LBB35_4
// %bb.7:                               // %join.3.i
                                        //   in Loop: Header=BB35_6 Depth=1
	ldr	x24, [x19, #16]
	sub	x9, x24, x8
	cmp	x9, #1984
	b.lo	.LBB35_11
// %bb.8:                               // %join.3.i2.i.thread
                                        //   in Loop: Header=BB35_6 Depth=1
	ldr	x25, [x19]
	add	x26, x8, #1984
.LBB35_9:                               // %join.5.preheader.i.i.i
                                        //   in Loop: Header=BB35_6 Depth=1
	add	x0, x25, x8
	mov	w1, wzr
	mov	w2, #1984                       // =0x7c0
	bl	memset
.LBB35_10:                              // %"std_alloc::vec::opened::fill_run::<i8,20'core::clone::U8Clone{}>.exit.i.i"
                                        //   in Loop: Header=BB35_6 Depth=1
	stp	x25, x26, [x19]
	str	x24, [x19, #16]
	b	.LBB35_5
.LBB35_11:                              // %"std_alloc::vec::Vec::grow::<#5fdc5e19576447a7>.exit.i.i"
                                        //   in Loop: Header=BB35_6 Depth=1
	mov	x0, x19
	mov	w1, #1984                       // =0x7c0
	bl	"std_alloc::vec::Vec::grow_amortized::<#5fdc5e19576447a7>"
	cbz	w0, .LBB35_5
// %bb.12:                              // %join.3.i2.i
                                        //   in Loop: Header=BB35_6 Depth=1
	ldp	x8, x24, [x19, #8]
	ldr	x25, [x19]
	cmn	x8, #1985
	add	x26, x8, #1984
	b.ls	.LBB35_9
	b	.LBB35_10
.LBB35_13:                              // %"recoding::list::append_zeros::<#e3b2a9d4d2861db8>.exit.loopexit"
	ldr	x8, [x19, #8]
	add	x24, x8, x23
	cmp	x24, x8
	b.ls	.LBB35_2
.LBB35_14:                              // %join.3.i16
	ldr	x25, [x19, #16]
	sub	x9, x25, x8
	cmp	x23, x9
	b.hi	.LBB35_21
// %bb.15:                              // %join.3.i2.i21
	ldr	x26, [x19]
	cmp	x8, x24
	b.hs	.LBB35_17
.LBB35_16:                              // %join.5.preheader.i.i.i28
	add	x0, x26, x8
	mov	w1, wzr
	mov	x2, x23
	bl	memset
.LBB35_17:                              // %"std_alloc::vec::opened::fill_run::<i8,20'core::clone::U8Clone{}>.exit.i.i27"
	stp	x26, x24, [x19]
	str	x25, [x19, #16]
.LBB35_18:                              // %"std_alloc::vec::Vec::resize::<#0cd040e5c49bc722>.exit35"
	ldr	x2, [x19]
	mov	x0, x22
	mov	x1, x20
	mov	x3, x21
	bl	"recoding::utf8_to_utf16::widen_text::<#22d4087b0bf99cde>"
	ldr	x8, [x19, #8]
	cmp	x8, x0
	b.ls	.LBB35_20
// %bb.19:                              // %join.3.i37
	str	x0, [x19, #8]
.LBB35_20:                              // %"std_alloc::vec::Vec::truncate::<#8193b041ae25b2e3>.exit"
	.cfi_def_cfa wsp, 80
	ldp	x20, x19, [sp, #64]             // 16-byte Folded Reload
	ldp	x22, x21, [sp, #48]             // 16-byte Folded Reload
	ldp	x24, x23, [sp, #32]             // 16-byte Folded Reload
	ldp	x26, x25, [sp, #16]             // 16-byte Folded Reload
	ldp	x29, x30, [sp], #80             // 16-byte Folded Reload
	.cfi_def_cfa_offset 0
	.cfi_restore w19
	.cfi_restore w20
	.cfi_restore w21
	.cfi_restore w22
	.cfi_restore w23
	.cfi_restore w24
	.cfi_restore w25
	.cfi_restore w26
	.cfi_restore w30
	.cfi_restore w29
	ret
.LBB35_21:                              // %"std_alloc::vec::Vec::grow::<#5fdc5e19576447a7>.exit.i.i30"
	.cfi_restore_state
	mov	x0, x19
	mov	x1, x23
	bl	"std_alloc::vec::Vec::grow_amortized::<#5fdc5e19576447a7>"
	cbz	w0, .LBB35_18
// %bb.22:                              // %"std_alloc::vec::Vec::grow::<#5fdc5e19576447a7>.exit.join.3_crit_edge.i.i32"
	ldp	x8, x25, [x19, #8]
	add	x24, x8, x23
	ldr	x26, [x19]
	cmp	x8, x24
	b.lo	.LBB35_16
	b	.LBB35_17
.Lfunc_end35:
	.size	"recoding::list::append_units::<#db1eb2065a50937f>", .Lfunc_end35-"recoding::list::append_units::<#db1eb2065a50937f>"
	.cfi_endproc
                                        // -- End function
	.section	.rodata.cst16,"aM",@progbits,16
	.p2align	4, 0x0                          // -- Begin function recoding::utf8_to_utf16::widen_text::<#22d4087b0bf99cde>
.LCPI36_0:
	.byte	1                               // 0x1
	.byte	2                               // 0x2
	.byte	4                               // 0x4
	.byte	8                               // 0x8
	.byte	16                              // 0x10
	.byte	32                              // 0x20
	.byte	64                              // 0x40
	.byte	128                             // 0x80
	.byte	1                               // 0x1
	.byte	2                               // 0x2
	.byte	4                               // 0x4
	.byte	8                               // 0x8
	.byte	16                              // 0x10
	.byte	32                              // 0x20
	.byte	64                              // 0x40
	.byte	128                             // 0x80
.LCPI36_1:
	.byte	255                             // 0xff
	.byte	8                               // 0x8
	.byte	255                             // 0xff
	.byte	9                               // 0x9
	.byte	255                             // 0xff
	.byte	10                              // 0xa
	.byte	255                             // 0xff
	.byte	11                              // 0xb
	.byte	255                             // 0xff
	.byte	12                              // 0xc
	.byte	255                             // 0xff
	.byte	13                              // 0xd
	.byte	255                             // 0xff
	.byte	14                              // 0xe
	.byte	255                             // 0xff
	.byte	15                              // 0xf
.LCPI36_2:
	.byte	255                             // 0xff
	.byte	0                               // 0x0
	.byte	255                             // 0xff
	.byte	1                               // 0x1
	.byte	255                             // 0xff
	.byte	2                               // 0x2
	.byte	255                             // 0xff
	.byte	3                               // 0x3
	.byte	255                             // 0xff
	.byte	4                               // 0x4
	.byte	255                             // 0xff
	.byte	5                               // 0x5
	.byte	255                             // 0xff
	.byte	6                               // 0x6
	.byte	255                             // 0xff
	.byte	7                               // 0x7
	.section	".text.recoding::utf8_to_utf16::widen_text::<#22d4087b0bf99cde>","ax",@progbits
	.p2align	2
	.type	"recoding::utf8_to_utf16::widen_text::<#22d4087b0bf99cde>",@function
"recoding::utf8_to_utf16::widen_text::<#22d4087b0bf99cde>": // @"recoding::utf8_to_utf16::widen_text::<#22d4087b0bf99cde>"
	.cfi_startproc
// %bb.0:                               // %start
	sub	sp, sp, #176
	.cfi_def_cfa_offset 176
	stp	x29, x30, [sp, #80]             // 16-byte Folded Spill
	str	x27, [sp, #96]                  // 8-byte Spill
	stp	x26, x25, [sp, #112]            // 16-byte Folded Spill
	stp	x24, x23, [sp, #128]            // 16-byte Folded Spill
	stp	x22, x21, [sp, #144]            // 16-byte Folded Spill
	stp	x20, x19, [sp, #160]            // 16-byte Folded Spill
	add	x29, sp, #80
	.cfi_def_cfa w29, 96
	.cfi_offset w19, -8
	.cfi_offset w20, -16
	.cfi_offset w21, -24
	.cfi_offset w22, -32
	.cfi_offset w23, -40
	.cfi_offset w24, -48
	.cfi_offset w25, -56
	.cfi_offset w26, -64
	.cfi_offset w27, -80
	.cfi_offset w30, -88
	.cfi_offset w29, -96
	movi	v2.2d, #0000000000000000
	ldr	q3, [x0]
	movi	v5.16b, #239
	adrp	x8, .LCPI36_0
	mov	x20, x3
	mov	x19, x2
	ldr	q16, [x8, :lo12:.LCPI36_0]
	mov	x21, x0
	mov	x22, x1
	ext	v1.16b, v2.16b, v3.16b, #14
	ext	v0.16b, v2.16b, v3.16b, #13
	ext	v2.16b, v2.16b, v3.16b, #15
	str	q16, [sp, #32]                  // 16-byte Spill
	umax	v4.16b, v1.16b, v0.16b
	cmhi	v4.16b, v4.16b, v5.16b
	and	v4.16b, v4.16b, v16.16b
	addp	v4.16b, v4.16b, v4.16b
	addp	v4.16b, v4.16b, v4.16b
	addp	v4.16b, v4.16b, v4.16b
	umov	w8, v4.h[0]
	cbz	w8, .LBB36_2
// %bb.1:                               // %else.2.i.i.i
	sub	x0, x29, #32
	stp	q2, q3, [sp]                    // 32-byte Folded Spill
	bl	"utf_lanes::text_units::long_halves"
	ldp	q2, q3, [sp]                    // 32-byte Folded Reload
	ldr	q16, [sp, #32]                  // 16-byte Reload
	ldp	q1, q0, [x29, #-32]
	b	.LBB36_3
.LBB36_2:                               // %then.1.i.i.i
	cmlt	v0.16b, v3.16b, #0
	movi	v6.16b, #224
	movi	v4.16b, #127
	and	v5.16b, v0.16b, v2.16b
	uqsub	v1.16b, v1.16b, v6.16b
	and	v6.16b, v3.16b, v4.16b
	ushr	v0.16b, v5.16b, #2
	shl	v4.16b, v5.16b, #6
	sli	v0.16b, v1.16b, #4
	add	v1.16b, v4.16b, v6.16b
.LBB36_3:                               // %"utf_lanes::text_puts::write_first::<#22d4087b0bf99cde>.exit"
	movi	v4.16b, #32
	adrp	x23, .Lstatic.17
	add	x23, x23, :lo12:.Lstatic.17
	add	x11, x19, x20
	uqsub	v2.16b, v2.16b, v4.16b
	movi	v4.16b, #192
	umax	v2.16b, v2.16b, v3.16b
	cmhi	v2.16b, v4.16b, v2.16b
	zip1	v4.16b, v0.16b, v1.16b
	zip2	v0.16b, v0.16b, v1.16b
	and	v2.16b, v2.16b, v16.16b
	addp	v2.16b, v2.16b, v2.16b
	addp	v2.16b, v2.16b, v2.16b
	addp	v2.16b, v2.16b, v2.16b
	umov	w8, v2.h[0]
	and	x9, x8, #0xff
	ubfx	x8, x8, #8, #8
	fmov	d2, x9
	ldr	q5, [x23, x9, lsl #4]
	fmov	d3, x8
	ldr	q1, [x23, x8, lsl #4]
	cnt	v2.8b, v2.8b
	tbl	v0.16b, { v0.16b }, v1.16b
	cnt	v3.8b, v3.8b
	fmov	w9, s2
	tbl	v2.16b, { v4.16b }, v5.16b
	fmov	w8, s3
	ubfiz	x10, x9, #1, #32
	add	x8, x9, x8
	sub	x9, x22, #80
	str	q2, [x11]
	add	x20, x20, x8, lsl #1
	cmn	x9, #65
	str	q0, [x11, x10]
	b.hi	.LBB36_26
// %bb.4:                               // %join.5.i750.lr.ph
	mov	x24, xzr
	sub	x25, x22, #16
.LBB36_5:                               // %join.5.i750
                                        // =>This Inner Loop Header: Depth=1
	add	x8, x21, x24
	ldrsb	w9, [x8, #16]
	tbnz	w9, #31, .LBB36_11
// %bb.6:                               // %join.3.i.i
                                        //   in Loop: Header=BB36_5 Depth=1
	ldp	q3, q0, [x8, #16]
	ldp	q2, q1, [x8, #48]
	orr	v2.16b, v2.16b, v3.16b
	orr	v0.16b, v1.16b, v0.16b
	cmlt	v0.16b, v0.16b, #0
	cmlt	v1.16b, v2.16b, #0
	and	v1.16b, v1.16b, v16.16b
	and	v0.16b, v0.16b, v16.16b
	addp	v0.16b, v1.16b, v0.16b
	addp	v0.16b, v0.16b, v0.16b
	addp	v0.16b, v0.16b, v0.16b
	fmov	w9, s0
	cbnz	w9, .LBB36_12
// %bb.7:                               // %then.4.i.i
                                        //   in Loop: Header=BB36_5 Depth=1
	add	x9, x21, x24
	ldrb	w10, [x9, #15]
	cmp	w10, #191
	b.hi	.LBB36_12
// %bb.8:                               // %join.3.i.i.i
                                        //   in Loop: Header=BB36_5 Depth=1
	ldrb	w9, [x9, #14]
	cmp	w9, #223
	b.hi	.LBB36_12
// %bb.9:                               // %"recoding::utf8_to_utf16::is_plain.exit.i"
                                        //   in Loop: Header=BB36_5 Depth=1
	add	x9, x21, x24
	ldrb	w9, [x9, #13]
	cmp	w9, #239
	b.hi	.LBB36_12
// %bb.10:                              // %then.1.i
                                        //   in Loop: Header=BB36_5 Depth=1
	adrp	x9, .LCPI36_2
	ldp	q3, q0, [x8, #16]
	ldr	q1, [x9, :lo12:.LCPI36_2]
	adrp	x9, .LCPI36_1
	ldr	q2, [x9, :lo12:.LCPI36_1]
	ldp	q7, q5, [x8, #48]
	tbl	v4.16b, { v0.16b }, v1.16b
	add	x9, x19, x20
	tbl	v6.16b, { v3.16b }, v1.16b
	tbl	v0.16b, { v0.16b }, v2.16b
	tbl	v3.16b, { v3.16b }, v2.16b
	add	x20, x20, #128
	stp	q6, q3, [x9]
	stp	q4, q0, [x9, #32]
	tbl	v4.16b, { v5.16b }, v1.16b
	tbl	v5.16b, { v5.16b }, v2.16b
	tbl	v0.16b, { v7.16b }, v1.16b
	tbl	v1.16b, { v7.16b }, v2.16b
	stp	q4, q5, [x9, #96]
	stp	q0, q1, [x9, #64]
	sub	x25, x25, #64
	add	x24, x24, #64
	cmp	x25, #63
	b.hi	.LBB36_5
	b	.LBB36_25
.LBB36_11:                              // %join.5.i750.join.3.i_crit_edge
                                        //   in Loop: Header=BB36_5 Depth=1
	ldr	q3, [x8, #16]
.LBB36_12:                              // %join.3.i
                                        //   in Loop: Header=BB36_5 Depth=1
	add	x8, x21, x24
	movi	v2.16b, #239
	ldur	q1, [x8, #14]
	ldur	q0, [x8, #13]
	umax	v4.16b, v1.16b, v0.16b
	cmhi	v2.16b, v4.16b, v2.16b
	and	v2.16b, v2.16b, v16.16b
	addp	v2.16b, v2.16b, v2.16b
	addp	v2.16b, v2.16b, v2.16b
	addp	v2.16b, v2.16b, v2.16b
	umov	w9, v2.h[0]
	ldur	q2, [x8, #15]
	cbz	w9, .LBB36_14
// %bb.13:                              // %else.2.i.i.i.i
                                        //   in Loop: Header=BB36_5 Depth=1
	sub	x0, x29, #32
	stp	q2, q3, [sp]                    // 32-byte Folded Spill
	bl	"utf_lanes::text_units::long_halves"
	ldp	q2, q3, [sp]                    // 32-byte Folded Reload
	ldr	q16, [sp, #32]                  // 16-byte Reload
	ldp	q1, q0, [x29, #-32]
	b	.LBB36_15
.LBB36_14:                              // %then.1.i.i.i.i
                                        //   in Loop: Header=BB36_5 Depth=1
	cmlt	v0.16b, v3.16b, #0
	movi	v6.16b, #224
	movi	v4.16b, #127
	and	v5.16b, v0.16b, v2.16b
	uqsub	v1.16b, v1.16b, v6.16b
	and	v6.16b, v3.16b, v4.16b
	ushr	v0.16b, v5.16b, #2
	shl	v4.16b, v5.16b, #6
	sli	v0.16b, v1.16b, #4
	add	v1.16b, v4.16b, v6.16b
.LBB36_15:                              // %"utf_lanes::text_units::block_units::<#22d4087b0bf99cde>.exit.i"
                                        //   in Loop: Header=BB36_5 Depth=1
	movi	v4.16b, #32
	uqsub	v2.16b, v2.16b, v4.16b
	movi	v4.16b, #192
	umax	v2.16b, v2.16b, v3.16b
	zip1	v3.16b, v0.16b, v1.16b
	zip2	v0.16b, v0.16b, v1.16b
	cmhi	v2.16b, v4.16b, v2.16b
	and	v2.16b, v2.16b, v16.16b
	addp	v2.16b, v2.16b, v2.16b
	addp	v2.16b, v2.16b, v2.16b
	addp	v2.16b, v2.16b, v2.16b
	umov	w8, v2.h[0]
	and	x9, x8, #0xff
	ubfx	x27, x8, #8, #8
	fmov	d2, x9
	ldr	q4, [x23, x9, lsl #4]
	add	x9, x19, x20
	tbl	v1.16b, { v3.16b }, v4.16b
	cnt	v2.8b, v2.8b
	fmov	w26, s2
	ldr	q2, [x23, x27, lsl #4]
	str	q1, [x9]
	tbl	v0.16b, { v0.16b }, v2.16b
	movi	v2.16b, #239
	mov	w8, w26
	ubfiz	x8, x8, #1, #32
	str	q0, [x9, x8]
	add	x8, x21, x24
	ldur	q1, [x8, #30]
	ldur	q0, [x8, #29]
	umax	v3.16b, v1.16b, v0.16b
	cmhi	v2.16b, v3.16b, v2.16b
	ldr	q3, [x8, #32]
	and	v2.16b, v2.16b, v16.16b
	addp	v2.16b, v2.16b, v2.16b
	addp	v2.16b, v2.16b, v2.16b
	addp	v2.16b, v2.16b, v2.16b
	umov	w9, v2.h[0]
	ldur	q2, [x8, #31]
	cbz	w9, .LBB36_17
// %bb.16:                              // %else.2.i.i.i386.i
                                        //   in Loop: Header=BB36_5 Depth=1
	sub	x0, x29, #32
	stp	q2, q3, [sp]                    // 32-byte Folded Spill
	bl	"utf_lanes::text_units::long_halves"
	ldp	q2, q3, [sp]                    // 32-byte Folded Reload
	ldr	q16, [sp, #32]                  // 16-byte Reload
	ldp	q1, q0, [x29, #-32]
	b	.LBB36_18
.LBB36_17:                              // %then.1.i.i.i584.i
                                        //   in Loop: Header=BB36_5 Depth=1
	cmlt	v0.16b, v3.16b, #0
	movi	v6.16b, #224
	movi	v4.16b, #127
	and	v5.16b, v0.16b, v2.16b
	uqsub	v1.16b, v1.16b, v6.16b
	and	v6.16b, v3.16b, v4.16b
	ushr	v0.16b, v5.16b, #2
	shl	v4.16b, v5.16b, #6
	sli	v0.16b, v1.16b, #4
	add	v1.16b, v4.16b, v6.16b
.LBB36_18:                              // %"utf_lanes::text_units::block_units::<#22d4087b0bf99cde>.exit599.i"
                                        //   in Loop: Header=BB36_5 Depth=1
	movi	v4.16b, #32
	uqsub	v2.16b, v2.16b, v4.16b
	movi	v4.16b, #192
	umax	v2.16b, v2.16b, v3.16b
	cmhi	v2.16b, v4.16b, v2.16b
	and	v2.16b, v2.16b, v16.16b
	addp	v2.16b, v2.16b, v2.16b
	addp	v2.16b, v2.16b, v2.16b
	addp	v2.16b, v2.16b, v2.16b
	umov	w8, v2.h[0]
	fmov	d2, x27
	cnt	v2.8b, v2.8b
	and	x9, x8, #0xff
	ubfx	x27, x8, #8, #8
	fmov	d3, x9
	fmov	w10, s2
	zip1	v2.16b, v0.16b, v1.16b
	zip2	v0.16b, v0.16b, v1.16b
	cnt	v3.8b, v3.8b
	ldr	q1, [x23, x9, lsl #4]
	add	x9, x26, x10
	lsl	x10, x9, #1
	tbl	v1.16b, { v2.16b }, v1.16b
	movi	v2.16b, #239
	fmov	w8, s3
	ldr	q3, [x23, x27, lsl #4]
	tbl	v0.16b, { v0.16b }, v3.16b
	add	x26, x8, x9
	add	x8, x19, x10
	add	x9, x19, x26, lsl #1
	str	q1, [x8, x20]
	add	x8, x21, x24
	str	q0, [x9, x20]
	ldur	q1, [x8, #46]
	ldur	q0, [x8, #45]
	umax	v3.16b, v1.16b, v0.16b
	cmhi	v2.16b, v3.16b, v2.16b
	ldr	q3, [x8, #48]
	and	v2.16b, v2.16b, v16.16b
	addp	v2.16b, v2.16b, v2.16b
	addp	v2.16b, v2.16b, v2.16b
	addp	v2.16b, v2.16b, v2.16b
	umov	w9, v2.h[0]
	ldur	q2, [x8, #47]
	cbz	w9, .LBB36_20
// %bb.19:                              // %else.2.i.i.i657.i
                                        //   in Loop: Header=BB36_5 Depth=1
	sub	x0, x29, #32
	stp	q2, q3, [sp]                    // 32-byte Folded Spill
	bl	"utf_lanes::text_units::long_halves"
	ldp	q2, q3, [sp]                    // 32-byte Folded Reload
	ldr	q16, [sp, #32]                  // 16-byte Reload
	ldp	q1, q0, [x29, #-32]
	b	.LBB36_21
.LBB36_20:                              // %then.1.i.i.i855.i
                                        //   in Loop: Header=BB36_5 Depth=1
	cmlt	v0.16b, v3.16b, #0
	movi	v6.16b, #224
	movi	v4.16b, #127
	and	v5.16b, v0.16b, v2.16b
	uqsub	v1.16b, v1.16b, v6.16b
	and	v6.16b, v3.16b, v4.16b
	ushr	v0.16b, v5.16b, #2
	shl	v4.16b, v5.16b, #6
	sli	v0.16b, v1.16b, #4
	add	v1.16b, v4.16b, v6.16b
.LBB36_21:                              // %"utf_lanes::text_units::block_units::<#22d4087b0bf99cde>.exit870.i"
                                        //   in Loop: Header=BB36_5 Depth=1
	movi	v4.16b, #32
	uqsub	v2.16b, v2.16b, v4.16b
	movi	v4.16b, #192
	umax	v2.16b, v2.16b, v3.16b
	cmhi	v2.16b, v4.16b, v2.16b
	and	v2.16b, v2.16b, v16.16b
	addp	v2.16b, v2.16b, v2.16b
	addp	v2.16b, v2.16b, v2.16b
	addp	v2.16b, v2.16b, v2.16b
	umov	w8, v2.h[0]
	fmov	d2, x27
	cnt	v2.8b, v2.8b
	and	x9, x8, #0xff
	ubfx	x27, x8, #8, #8
	fmov	d3, x9
	fmov	w10, s2
	zip1	v2.16b, v0.16b, v1.16b
	zip2	v0.16b, v0.16b, v1.16b
	cnt	v3.8b, v3.8b
	ldr	q1, [x23, x9, lsl #4]
	add	x9, x26, x10
	lsl	x10, x9, #1
	tbl	v1.16b, { v2.16b }, v1.16b
	movi	v2.16b, #239
	fmov	w8, s3
	ldr	q3, [x23, x27, lsl #4]
	tbl	v0.16b, { v0.16b }, v3.16b
	add	x26, x8, x9
	add	x8, x19, x10
	add	x9, x19, x26, lsl #1
	str	q1, [x8, x20]
	add	x8, x21, x24
	str	q0, [x9, x20]
	ldur	q1, [x8, #62]
	ldur	q0, [x8, #61]
	umax	v3.16b, v1.16b, v0.16b
	cmhi	v2.16b, v3.16b, v2.16b
	ldr	q3, [x8, #64]
	and	v2.16b, v2.16b, v16.16b
	addp	v2.16b, v2.16b, v2.16b
	addp	v2.16b, v2.16b, v2.16b
	addp	v2.16b, v2.16b, v2.16b
	umov	w9, v2.h[0]
	ldur	q2, [x8, #63]
	cbz	w9, .LBB36_23
// %bb.22:                              // %else.2.i.i.i928.i
                                        //   in Loop: Header=BB36_5 Depth=1
	sub	x0, x29, #32
	stp	q2, q3, [sp]                    // 32-byte Folded Spill
	bl	"utf_lanes::text_units::long_halves"
	ldp	q2, q3, [sp]                    // 32-byte Folded Reload
	ldr	q16, [sp, #32]                  // 16-byte Reload
	ldp	q1, q0, [x29, #-32]
	b	.LBB36_24
.LBB36_23:                              // %then.1.i.i.i1126.i
                                        //   in Loop: Header=BB36_5 Depth=1
	cmlt	v0.16b, v3.16b, #0
	movi	v6.16b, #224
	movi	v4.16b, #127
	and	v5.16b, v0.16b, v2.16b
	uqsub	v1.16b, v1.16b, v6.16b
	and	v6.16b, v3.16b, v4.16b
	ushr	v0.16b, v5.16b, #2
	shl	v4.16b, v5.16b, #6
	sli	v0.16b, v1.16b, #4
	add	v1.16b, v4.16b, v6.16b
.LBB36_24:                              // %"utf_lanes::text_puts::write_64::<#22d4087b0bf99cde>.exit"
                                        //   in Loop: Header=BB36_5 Depth=1
	movi	v4.16b, #32
	uqsub	v2.16b, v2.16b, v4.16b
	movi	v4.16b, #192
	umax	v2.16b, v2.16b, v3.16b
	cmhi	v2.16b, v4.16b, v2.16b
	and	v2.16b, v2.16b, v16.16b
	addp	v2.16b, v2.16b, v2.16b
	addp	v2.16b, v2.16b, v2.16b
	addp	v2.16b, v2.16b, v2.16b
	umov	w8, v2.h[0]
	fmov	d2, x27
	cnt	v2.8b, v2.8b
	and	x9, x8, #0xff
	ubfx	x8, x8, #8, #8
	fmov	d3, x9
	fmov	d4, x8
	fmov	w10, s2
	zip1	v2.16b, v0.16b, v1.16b
	zip2	v0.16b, v0.16b, v1.16b
	cnt	v3.8b, v3.8b
	ldr	q1, [x23, x9, lsl #4]
	cnt	v4.8b, v4.8b
	tbl	v1.16b, { v2.16b }, v1.16b
	fmov	w9, s3
	ldr	q3, [x23, x8, lsl #4]
	add	x8, x26, x10
	lsl	x10, x8, #1
	fmov	w11, s4
	tbl	v0.16b, { v0.16b }, v3.16b
	add	x8, x9, x8
	add	x9, x19, x10
	add	x10, x19, x8, lsl #1
	add	x8, x8, x11
	str	q1, [x9, x20]
	str	q0, [x10, x20]
	add	x20, x20, x8, lsl #1
	sub	x25, x25, #64
	add	x24, x24, #64
	cmp	x25, #63
	b.hi	.LBB36_5
.LBB36_25:                              // %loop.2.i.preheader.loopexit
	add	x8, x24, #16
	sub	x9, x22, x8
	cmp	x9, #16
	b.hs	.LBB36_27
	b	.LBB36_33
.LBB36_26:
	mov	w8, #16                         // =0x10
	sub	x9, x22, x8
	cmp	x9, #16
	b.lo	.LBB36_33
.LBB36_27:                              // %join.5.i.lr.ph
	add	x9, x8, x21
	neg	x24, x8
	sub	x25, x9, #1
	b	.LBB36_30
.LBB36_28:                              // %then.1.i.i.i729
                                        //   in Loop: Header=BB36_30 Depth=1
	cmlt	v0.16b, v3.16b, #0
	movi	v6.16b, #224
	movi	v4.16b, #127
	and	v5.16b, v0.16b, v2.16b
	uqsub	v1.16b, v1.16b, v6.16b
	and	v6.16b, v3.16b, v4.16b
	ushr	v0.16b, v5.16b, #2
	shl	v4.16b, v5.16b, #6
	sli	v0.16b, v1.16b, #4
	add	v1.16b, v4.16b, v6.16b
.LBB36_29:                              // %"utf_lanes::text_units::block_units::<#22d4087b0bf99cde>.exit744"
                                        //   in Loop: Header=BB36_30 Depth=1
	movi	v4.16b, #32
	sub	x24, x24, #16
	add	x11, x19, x20
	add	x25, x25, #16
	uqsub	v2.16b, v2.16b, v4.16b
	movi	v4.16b, #192
	umax	v2.16b, v2.16b, v3.16b
	cmhi	v2.16b, v4.16b, v2.16b
	zip1	v4.16b, v0.16b, v1.16b
	zip2	v0.16b, v0.16b, v1.16b
	and	v2.16b, v2.16b, v16.16b
	addp	v2.16b, v2.16b, v2.16b
	addp	v2.16b, v2.16b, v2.16b
	addp	v2.16b, v2.16b, v2.16b
	umov	w8, v2.h[0]
	and	x9, x8, #0xff
	ubfx	x8, x8, #8, #8
	fmov	d2, x9
	ldr	q5, [x23, x9, lsl #4]
	fmov	d3, x8
	ldr	q1, [x23, x8, lsl #4]
	cnt	v2.8b, v2.8b
	tbl	v0.16b, { v0.16b }, v1.16b
	cnt	v3.8b, v3.8b
	fmov	w9, s2
	tbl	v2.16b, { v4.16b }, v5.16b
	fmov	w8, s3
	ubfiz	x10, x9, #1, #32
	add	x8, x9, x8
	add	x9, x22, x24
	str	q2, [x11]
	add	x20, x20, x8, lsl #1
	cmp	x9, #15
	str	q0, [x11, x10]
	b.ls	.LBB36_32
.LBB36_30:                              // %join.5.i
                                        // =>This Inner Loop Header: Depth=1
	ldur	q1, [x25, #-1]
	ldur	q0, [x25, #-2]
	movi	v2.16b, #239
	umax	v3.16b, v1.16b, v0.16b
	cmhi	v2.16b, v3.16b, v2.16b
	ldur	q3, [x25, #1]
	and	v2.16b, v2.16b, v16.16b
	addp	v2.16b, v2.16b, v2.16b
	addp	v2.16b, v2.16b, v2.16b
	addp	v2.16b, v2.16b, v2.16b
	umov	w8, v2.h[0]
	ldr	q2, [x25]
	cbz	w8, .LBB36_28
// %bb.31:                              // %else.2.i.i.i530
                                        //   in Loop: Header=BB36_30 Depth=1
	sub	x0, x29, #32
	stp	q2, q3, [sp]                    // 32-byte Folded Spill
	bl	"utf_lanes::text_units::long_halves"
	ldp	q2, q3, [sp]                    // 32-byte Folded Reload
	ldr	q16, [sp, #32]                  // 16-byte Reload
	ldp	q1, q0, [x29, #-32]
	b	.LBB36_29
.LBB36_32:                              // %after.1.i.loopexit
	neg	x8, x24
.LBB36_33:                              // %after.1.i
	cmp	x8, x22
	b.hs	.LBB36_38
// %bb.34:                              // %then.6.i
	sub	x9, x22, #16
	movi	v2.16b, #239
	add	x10, x21, x9
	sub	x21, x8, x9
	ldur	q1, [x10, #-2]
	ldur	q0, [x10, #-3]
	umax	v3.16b, v1.16b, v0.16b
	cmhi	v2.16b, v3.16b, v2.16b
	ldr	q3, [x10]
	and	v2.16b, v2.16b, v16.16b
	addp	v2.16b, v2.16b, v2.16b
	addp	v2.16b, v2.16b, v2.16b
	addp	v2.16b, v2.16b, v2.16b
	umov	w11, v2.h[0]
	ldur	q2, [x10, #-1]
	cbz	w11, .LBB36_36
// %bb.35:                              // %else.2.i.i.i263
	sub	x0, x29, #32
	stp	q2, q3, [sp]                    // 32-byte Folded Spill
	bl	"utf_lanes::text_units::long_halves"
	ldp	q2, q3, [sp]                    // 32-byte Folded Reload
	ldr	q16, [sp, #32]                  // 16-byte Reload
	ldp	q1, q0, [x29, #-32]
	b	.LBB36_37
.LBB36_36:                              // %then.1.i.i.i458
	cmlt	v0.16b, v3.16b, #0
	movi	v6.16b, #224
	movi	v4.16b, #127
	and	v5.16b, v0.16b, v2.16b
	uqsub	v1.16b, v1.16b, v6.16b
	and	v6.16b, v3.16b, v4.16b
	ushr	v0.16b, v5.16b, #2
	shl	v4.16b, v5.16b, #6
	sli	v0.16b, v1.16b, #4
	add	v1.16b, v4.16b, v6.16b
.LBB36_37:                              // %"utf_lanes::text_units::block_units::<#22d4087b0bf99cde>.exit"
	movi	v4.16b, #32
	add	x11, x19, x20
	uqsub	v2.16b, v2.16b, v4.16b
	movi	v4.16b, #192
	umax	v2.16b, v2.16b, v3.16b
	zip1	v3.16b, v0.16b, v1.16b
	zip2	v0.16b, v0.16b, v1.16b
	cmhi	v2.16b, v4.16b, v2.16b
	and	v2.16b, v2.16b, v16.16b
	addp	v2.16b, v2.16b, v2.16b
	addp	v2.16b, v2.16b, v2.16b
	addp	v2.16b, v2.16b, v2.16b
	umov	w8, v2.h[0]
	lsr	x8, x8, x21
	lsl	x8, x8, x21
	ubfx	x9, x8, #8, #32
	fmov	d2, x9
	and	x9, x8, #0xff
	lsr	x8, x8, #8
	fmov	d4, x9
	ldr	q5, [x23, x9, lsl #4]
	cnt	v2.8b, v2.8b
	tbl	v1.16b, { v3.16b }, v5.16b
	ldr	q3, [x23, x8, lsl #4]
	cnt	v4.8b, v4.8b
	tbl	v0.16b, { v0.16b }, v3.16b
	addv	b2, v2.8b
	str	q1, [x11]
	fmov	w9, s4
	fmov	w8, s2
	ubfiz	x10, x9, #1, #32
	add	x8, x9, x8
	str	q0, [x11, x10]
	add	x20, x20, x8, lsl #1
.LBB36_38:                              // %"utf_lanes::text_puts::write_rest::<#22d4087b0bf99cde>.exit"
	mov	x0, x20
	.cfi_def_cfa wsp, 176
	ldp	x20, x19, [sp, #160]            // 16-byte Folded Reload
	ldr	x27, [sp, #96]                  // 8-byte Reload
	ldp	x22, x21, [sp, #144]            // 16-byte Folded Reload
	ldp	x24, x23, [sp, #128]            // 16-byte Folded Reload
	ldp	x26, x25, [sp, #112]            // 16-byte Folded Reload
	ldp	x29, x30, [sp, #80]             // 16-byte Folded Reload
	add	sp, sp, #176
	.cfi_def_cfa_offset 0
	.cfi_restore w19
	.cfi_restore w20
	.cfi_restore w21
	.cfi_restore w22
	.cfi_restore w23
	.cfi_restore w24
	.cfi_restore w25
	.cfi_restore w26
	.cfi_restore w27
	.cfi_restore w30
	.cfi_restore w29
	ret
.Lfunc_end36:
	.size	"recoding::utf8_to_utf16::widen_text::<#22d4087b0bf99cde>", .Lfunc_end36-"recoding::utf8_to_utf16::widen_text::<#22d4087b0bf99cde>"
	.cfi_endproc
                                        // -- End function
	.section	.rodata.cst16,"aM",@progbits,16
	.p2align	4, 0x0                          // -- Begin function recoding::kernels::widen_damaged::<#14d81c390063096d>
.LCPI37_0:
	.byte	1                               // 0x1
	.byte	2                               // 0x2
	.byte	4                               // 0x4
	.byte	8                               // 0x8
	.byte	16                              // 0x10
	.byte	32                              // 0x20
	.byte	64                              // 0x40
	.byte	128                             // 0x80
	.byte	1                               // 0x1
	.byte	2                               // 0x2
	.byte	4                               // 0x4
	.byte	8                               // 0x8
	.byte	16                              // 0x10
	.byte	32                              // 0x20
	.byte	64                              // 0x40
	.byte	128                             // 0x80
	.section	".text.recoding::kernels::widen_damaged::<#14d81c390063096d>","ax",@progbits
	.p2align	2
	.type	"recoding::kernels::widen_damaged::<#14d81c390063096d>",@function
"recoding::kernels::widen_damaged::<#14d81c390063096d>": // @"recoding::kernels::widen_damaged::<#14d81c390063096d>"
	.cfi_startproc
// %bb.0:                               // %start
	stp	x29, x30, [sp, #-96]!           // 16-byte Folded Spill
	.cfi_def_cfa_offset 96
	stp	x28, x27, [sp, #16]             // 16-byte Folded Spill
	stp	x26, x25, [sp, #32]             // 16-byte Folded Spill
	stp	x24, x23, [sp, #48]             // 16-byte Folded Spill
	stp	x22, x21, [sp, #64]             // 16-byte Folded Spill
	stp	x20, x19, [sp, #80]             // 16-byte Folded Spill
	mov	x29, sp
	.cfi_def_cfa w29, 96
	.cfi_offset w19, -8
	.cfi_offset w20, -16
	.cfi_offset w21, -24
	.cfi_offset w22, -32
	.cfi_offset w23, -40
	.cfi_offset w24, -48
	.cfi_offset w25, -56
	.cfi_offset w26, -64
	.cfi_offset w27, -72
	.cfi_offset w28, -80
	.cfi_offset w30, -88
	.cfi_offset w29, -96
	sub	sp, sp, #640
	movi	v0.2d, #0000000000000000
	mov	x20, x2
	mov	x21, x1
	mov	x22, x0
	mov	x19, xzr
	mov	x23, xzr
	add	x8, sp, #112
	stp	xzr, xzr, [sp, #88]
	str	xzr, [sp, #104]
	stp	q0, q0, [x8, #112]
	stp	q0, q0, [x8, #144]
	stp	q0, q0, [x8, #176]
	stp	q0, q0, [x8, #208]
	stp	q0, q0, [x8, #240]
	stp	q0, q0, [x8, #272]
	stp	q0, q0, [x8, #304]
	stp	q0, q0, [x8, #336]
	stp	q0, q0, [x8, #368]
	stp	q0, q0, [x8, #400]
	stp	q0, q0, [x8, #432]
	stp	q0, q0, [x8, #464]
	str	q0, [x8, #496]
	stp	q0, q0, [sp, #112]
	stp	q0, q0, [sp, #144]
	stp	q0, q0, [sp, #176]
	str	q0, [sp, #208]
	b	.LBB37_3
.LBB37_1:                               //   in Loop: Header=BB37_3 Depth=1
	mov	x23, x24
.LBB37_2:                               // %"recoding::kernels::put_next_text::<#fc185a580612e994>.exit"
                                        //   in Loop: Header=BB37_3 Depth=1
	ldr	x9, [sp, #8]                    // 8-byte Reload
	sub	x8, x23, x24
	cmp	x8, #1024
	add	x9, x9, x19
	add	x19, x9, x26
	b.hs	.LBB37_21
.LBB37_3:                               // %loop.2
                                        // =>This Loop Header: Depth=1
                                        //     Child Loop BB37_13 Depth 2
	add	x0, sp, #88
	add	x1, x22, x23
	sub	x2, x21, x23
	add	x3, sp, #112
	bl	"utf_lanes::mending::mend::<#0a9db3908d7f4f9c>"
	ldr	x24, [sp, #88]
	cbz	x24, .LBB37_21
// %bb.4:                               // %else.6
                                        //   in Loop: Header=BB37_3 Depth=1
	ldr	x1, [sp, #96]
	sub	x8, x1, #1
	cmp	x8, #31
	b.lo	.LBB37_21
// %bb.5:                               // %else.9
                                        //   in Loop: Header=BB37_3 Depth=1
	ldp	x9, x8, [x20, #8]
	add	x10, x1, x1, lsl #1
	sub	x8, x8, x9
	cmp	x8, x10
	b.lo	.LBB37_21
// %bb.6:                               // %after.3
                                        //   in Loop: Header=BB37_3 Depth=1
	cbz	x1, .LBB37_8
// %bb.7:                               // %then.1.i
                                        //   in Loop: Header=BB37_3 Depth=1
	add	x0, sp, #112
	mov	x2, x20
	bl	"recoding::list::append_units::<#db1eb2065a50937f>"
.LBB37_8:                               // %"recoding::kernels::put_mended::<#fc185a580612e994>.exit"
                                        //   in Loop: Header=BB37_3 Depth=1
	add	x23, x24, x23
	ldr	x8, [sp, #104]
	sub	x24, x21, x23
	cmp	x24, #67
	str	x8, [sp, #8]                    // 8-byte Spill
	b.lo	.LBB37_17
// %bb.9:                               // %then.1.i.i
                                        //   in Loop: Header=BB37_3 Depth=1
	add	x28, x22, x23
	ldrsb	w8, [x28]
	tbz	w8, #31, .LBB37_11
// %bb.10:                              // %else.5.i.i
                                        //   in Loop: Header=BB37_3 Depth=1
	ldrsb	w8, [x28, #1]
	tbnz	w8, #31, .LBB37_17
.LBB37_11:                              // %then.7.i.preheader
                                        //   in Loop: Header=BB37_3 Depth=1
	mov	x27, xzr
	mov	x26, xzr
	b	.LBB37_13
.LBB37_12:                              // %then.1.i27
                                        //   in Loop: Header=BB37_13 Depth=2
	movi	v4.2d, #0000000000000000
	mov	x0, x20
	zip1	v5.16b, v4.16b, v2.16b
	zip2	v2.16b, v4.16b, v2.16b
	stp	q2, q5, [sp, #48]               // 32-byte Folded Spill
	zip1	v2.16b, v4.16b, v0.16b
	zip2	v0.16b, v4.16b, v0.16b
	stp	q0, q2, [sp, #16]               // 32-byte Folded Spill
	zip1	v0.16b, v4.16b, v1.16b
	zip2	v1.16b, v4.16b, v1.16b
	zip1	v2.16b, v4.16b, v3.16b
	zip2	v3.16b, v4.16b, v3.16b
	bl	"recoding::list::VecU8Output::put_wide::<#e3b2a9d4d2861db8>"
	ldp	q1, q0, [sp, #48]               // 32-byte Folded Reload
	mov	x0, x20
	ldp	q3, q2, [sp, #16]               // 32-byte Folded Reload
	bl	"recoding::list::VecU8Output::put_wide::<#e3b2a9d4d2861db8>"
	sub	x24, x24, #64
	add	x27, x27, #64
	add	x26, xzr, x26
	cmp	x24, #66
	b.ls	.LBB37_18
.LBB37_13:                              // %then.7.i
                                        //   Parent Loop BB37_3 Depth=1
                                        // =>  This Inner Loop Header: Depth=2
	ldp	x9, x8, [x20, #8]
	sub	x8, x8, x9
	cmp	x8, #128
	b.lo	.LBB37_18
// %bb.14:                              // %join.9.i
                                        //   in Loop: Header=BB37_13 Depth=2
	add	x8, x28, x27
	ldp	q1, q3, [x8]
	ldp	q2, q0, [x8, #32]
	adrp	x8, .LCPI37_0
	ldr	q16, [x8, :lo12:.LCPI37_0]
	orr	v4.16b, v2.16b, v1.16b
	orr	v5.16b, v0.16b, v3.16b
	cmlt	v5.16b, v5.16b, #0
	cmlt	v4.16b, v4.16b, #0
	and	v4.16b, v4.16b, v16.16b
	and	v5.16b, v5.16b, v16.16b
	addp	v4.16b, v4.16b, v5.16b
	addp	v4.16b, v4.16b, v4.16b
	addp	v4.16b, v4.16b, v4.16b
	fmov	w8, s4
	cbz	w8, .LBB37_12
// %bb.15:                              // %join.3.i
                                        //   in Loop: Header=BB37_13 Depth=2
	cmlt	v4.16b, v1.16b, #0
	cmlt	v6.16b, v0.16b, #0
	mov	x9, #-9223372036854775808       // =0x8000000000000000
	cmlt	v7.16b, v2.16b, #0
	cmlt	v5.16b, v3.16b, #0
	and	v17.16b, v4.16b, v16.16b
	and	v18.16b, v5.16b, v16.16b
	and	v19.16b, v7.16b, v16.16b
	and	v16.16b, v6.16b, v16.16b
	addp	v17.16b, v17.16b, v18.16b
	addp	v16.16b, v19.16b, v16.16b
	addp	v16.16b, v17.16b, v16.16b
	addp	v16.16b, v16.16b, v16.16b
	fmov	x8, d16
	bfxil	x9, x8, #1, #63
	tst	x9, x8
	b.ne	.LBB37_18
// %bb.16:                              // %arm.8.i
                                        //   in Loop: Header=BB37_13 Depth=2
	movi	v17.16b, #253
	cnt	v16.8b, v16.8b
	mov	x0, x20
	bit	v2.16b, v17.16b, v7.16b
	bit	v0.16b, v17.16b, v6.16b
	bit	v1.16b, v17.16b, v4.16b
	bit	v3.16b, v17.16b, v5.16b
	zip1	v17.16b, v7.16b, v2.16b
	zip2	v2.16b, v7.16b, v2.16b
	stp	q2, q17, [sp, #48]              // 32-byte Folded Spill
	zip1	v2.16b, v6.16b, v0.16b
	zip2	v0.16b, v6.16b, v0.16b
	stp	q0, q2, [sp, #16]               // 32-byte Folded Spill
	zip1	v0.16b, v4.16b, v1.16b
	zip2	v1.16b, v4.16b, v1.16b
	zip1	v2.16b, v5.16b, v3.16b
	zip2	v3.16b, v5.16b, v3.16b
	addv	b4, v16.8b
	fmov	x25, d4
	bl	"recoding::list::VecU8Output::put_wide::<#e3b2a9d4d2861db8>"
	ldp	q1, q0, [sp, #48]               // 32-byte Folded Reload
	mov	x0, x20
	ldp	q3, q2, [sp, #16]               // 32-byte Folded Reload
	bl	"recoding::list::VecU8Output::put_wide::<#e3b2a9d4d2861db8>"
	sub	x24, x24, #64
	add	x27, x27, #64
	add	x26, x25, x26
	cmp	x24, #66
	b.hi	.LBB37_13
	b	.LBB37_18
.LBB37_17:                              //   in Loop: Header=BB37_3 Depth=1
	mov	x26, xzr
	mov	x27, xzr
.LBB37_18:                              // %"recoding::kernels::put_plain::<#d2e6c14c333cca8a>.exit"
                                        //   in Loop: Header=BB37_3 Depth=1
	add	x24, x27, x23
	mov	x0, x22
	mov	x1, x21
	mov	x2, x24
	bl	"recoding::kernels::next_text_end"
	sub	x8, x0, x24
	cmp	x8, #32
	b.lo	.LBB37_1
// %bb.19:                              // %else.4.i
                                        //   in Loop: Header=BB37_3 Depth=1
	ldp	x10, x9, [x20, #8]
	mov	x23, x24
	sub	x9, x9, x10
	mov	x10, #-6148914691236517206      // =0xaaaaaaaaaaaaaaaa
	movk	x10, #43691
	umulh	x9, x9, x10
	cmp	x8, x9, lsr #1
	b.hi	.LBB37_2
// %bb.20:                              // %after.1.i
                                        //   in Loop: Header=BB37_3 Depth=1
	mov	x23, x0
	add	x0, x22, x24
	mov	x2, x20
	sub	x1, x23, x24
	bl	"recoding::list::append_units::<#db1eb2065a50937f>"
	b	.LBB37_2
.LBB37_21:                              // %return.15
	mov	x0, x23
	mov	x1, x19
	add	sp, sp, #640
	.cfi_def_cfa wsp, 96
	ldp	x20, x19, [sp, #80]             // 16-byte Folded Reload
	ldp	x22, x21, [sp, #64]             // 16-byte Folded Reload
	ldp	x24, x23, [sp, #48]             // 16-byte Folded Reload
	ldp	x26, x25, [sp, #32]             // 16-byte Folded Reload
	ldp	x28, x27, [sp, #16]             // 16-byte Folded Reload
	ldp	x29, x30, [sp], #96             // 16-byte Folded Reload
	.cfi_def_cfa_offset 0
	.cfi_restore w19
	.cfi_restore w20
	.cfi_restore w21
	.cfi_restore w22
	.cfi_restore w23
	.cfi_restore w24
	.cfi_restore w25
	.cfi_restore w26
	.cfi_restore w27
	.cfi_restore w28
	.cfi_restore w30
	.cfi_restore w29
	ret
.Lfunc_end37:
	.size	"recoding::kernels::widen_damaged::<#14d81c390063096d>", .Lfunc_end37-"recoding::kernels::widen_damaged::<#14d81c390063096d>"
	.cfi_endproc
                                        // -- End function
	.section	.rodata.cst16,"aM",@progbits,16
	.p2align	4, 0x0                          // -- Begin function recoding::kernels::widen_plain::<#d2e6c14c333cca8a>
.LCPI38_0:
	.byte	1                               // 0x1
	.byte	2                               // 0x2
	.byte	4                               // 0x4
	.byte	8                               // 0x8
	.byte	16                              // 0x10
	.byte	32                              // 0x20
	.byte	64                              // 0x40
	.byte	128                             // 0x80
	.byte	1                               // 0x1
	.byte	2                               // 0x2
	.byte	4                               // 0x4
	.byte	8                               // 0x8
	.byte	16                              // 0x10
	.byte	32                              // 0x20
	.byte	64                              // 0x40
	.byte	128                             // 0x80
	.section	".text.recoding::kernels::widen_plain::<#d2e6c14c333cca8a>","ax",@progbits
	.p2align	2
	.type	"recoding::kernels::widen_plain::<#d2e6c14c333cca8a>",@function
"recoding::kernels::widen_plain::<#d2e6c14c333cca8a>": // @"recoding::kernels::widen_plain::<#d2e6c14c333cca8a>"
	.cfi_startproc
// %bb.0:                               // %start
	sub	sp, sp, #128
	.cfi_def_cfa_offset 128
	stp	x29, x30, [sp, #64]             // 16-byte Folded Spill
	stp	x24, x23, [sp, #80]             // 16-byte Folded Spill
	stp	x22, x21, [sp, #96]             // 16-byte Folded Spill
	stp	x20, x19, [sp, #112]            // 16-byte Folded Spill
	add	x29, sp, #64
	.cfi_def_cfa w29, 64
	.cfi_offset w19, -8
	.cfi_offset w20, -16
	.cfi_offset w21, -24
	.cfi_offset w22, -32
	.cfi_offset w23, -40
	.cfi_offset w24, -48
	.cfi_offset w30, -56
	.cfi_offset w29, -64
	cmp	x1, #67
	b.lo	.LBB38_9
// %bb.1:                               // %then.1.i.i
	ldrsb	w8, [x0]
	mov	x19, x2
	mov	x21, x1
	mov	x23, x0
	tbz	w8, #31, .LBB38_3
// %bb.2:                               // %else.5.i.i
	ldrsb	w8, [x23, #1]
	tbnz	w8, #31, .LBB38_9
.LBB38_3:                               // %then.7.i.lr.ph
	mov	x22, xzr
	mov	x20, xzr
	b	.LBB38_5
.LBB38_4:                               // %then.1.i
                                        //   in Loop: Header=BB38_5 Depth=1
	movi	v4.2d, #0000000000000000
	mov	x0, x19
	zip1	v5.16b, v4.16b, v2.16b
	zip2	v2.16b, v4.16b, v2.16b
	str	q2, [sp, #32]                   // 16-byte Spill
	zip1	v2.16b, v4.16b, v0.16b
	zip2	v0.16b, v4.16b, v0.16b
	stur	q5, [x29, #-16]                 // 16-byte Folded Spill
	stp	q0, q2, [sp]                    // 32-byte Folded Spill
	zip1	v0.16b, v4.16b, v1.16b
	zip2	v1.16b, v4.16b, v1.16b
	zip1	v2.16b, v4.16b, v3.16b
	zip2	v3.16b, v4.16b, v3.16b
	bl	"recoding::list::VecU8Output::put_wide::<#e3b2a9d4d2861db8>"
	ldp	q2, q1, [sp, #16]               // 32-byte Folded Reload
	mov	x0, x19
	ldur	q0, [x29, #-16]                 // 16-byte Folded Reload
	ldr	q3, [sp]                        // 16-byte Reload
	bl	"recoding::list::VecU8Output::put_wide::<#e3b2a9d4d2861db8>"
	sub	x21, x21, #64
	add	x22, x22, #64
	add	x20, xzr, x20
	cmp	x21, #66
	b.ls	.LBB38_10
.LBB38_5:                               // %then.7.i
                                        // =>This Inner Loop Header: Depth=1
	ldp	x9, x8, [x19, #8]
	sub	x8, x8, x9
	cmp	x8, #128
	b.lo	.LBB38_10
// %bb.6:                               // %join.9.i
                                        //   in Loop: Header=BB38_5 Depth=1
	add	x8, x23, x22
	ldp	q1, q3, [x8]
	ldp	q2, q0, [x8, #32]
	adrp	x8, .LCPI38_0
	ldr	q16, [x8, :lo12:.LCPI38_0]
	orr	v4.16b, v2.16b, v1.16b
	orr	v5.16b, v0.16b, v3.16b
	cmlt	v5.16b, v5.16b, #0
	cmlt	v4.16b, v4.16b, #0
	and	v4.16b, v4.16b, v16.16b
	and	v5.16b, v5.16b, v16.16b
	addp	v4.16b, v4.16b, v5.16b
	addp	v4.16b, v4.16b, v4.16b
	addp	v4.16b, v4.16b, v4.16b
	fmov	w8, s4
	cbz	w8, .LBB38_4
// %bb.7:                               // %join.3.i
                                        //   in Loop: Header=BB38_5 Depth=1
	cmlt	v4.16b, v1.16b, #0
	cmlt	v6.16b, v0.16b, #0
	mov	x9, #-9223372036854775808       // =0x8000000000000000
	cmlt	v7.16b, v2.16b, #0
	cmlt	v5.16b, v3.16b, #0
	and	v17.16b, v4.16b, v16.16b
	and	v18.16b, v5.16b, v16.16b
	and	v19.16b, v7.16b, v16.16b
	and	v16.16b, v6.16b, v16.16b
	addp	v17.16b, v17.16b, v18.16b
	addp	v16.16b, v19.16b, v16.16b
	addp	v16.16b, v17.16b, v16.16b
	addp	v16.16b, v16.16b, v16.16b
	fmov	x8, d16
	bfxil	x9, x8, #1, #63
	tst	x9, x8
	b.ne	.LBB38_10
// %bb.8:                               // %arm.8.i
                                        //   in Loop: Header=BB38_5 Depth=1
	movi	v17.16b, #253
	cnt	v16.8b, v16.8b
	mov	x0, x19
	bit	v2.16b, v17.16b, v7.16b
	bit	v0.16b, v17.16b, v6.16b
	bit	v1.16b, v17.16b, v4.16b
	bit	v3.16b, v17.16b, v5.16b
	zip1	v17.16b, v7.16b, v2.16b
	zip2	v2.16b, v7.16b, v2.16b
	str	q2, [sp, #32]                   // 16-byte Spill
	zip1	v2.16b, v6.16b, v0.16b
	zip2	v0.16b, v6.16b, v0.16b
	stur	q17, [x29, #-16]                // 16-byte Folded Spill
	stp	q0, q2, [sp]                    // 32-byte Folded Spill
	zip1	v0.16b, v4.16b, v1.16b
	zip2	v1.16b, v4.16b, v1.16b
	zip1	v2.16b, v5.16b, v3.16b
	zip2	v3.16b, v5.16b, v3.16b
	addv	b4, v16.8b
	fmov	x24, d4
	bl	"recoding::list::VecU8Output::put_wide::<#e3b2a9d4d2861db8>"
	ldp	q2, q1, [sp, #16]               // 32-byte Folded Reload
	mov	x0, x19
	ldur	q0, [x29, #-16]                 // 16-byte Folded Reload
	ldr	q3, [sp]                        // 16-byte Reload
	bl	"recoding::list::VecU8Output::put_wide::<#e3b2a9d4d2861db8>"
	sub	x21, x21, #64
	add	x22, x22, #64
	add	x20, x24, x20
	cmp	x21, #66
	b.hi	.LBB38_5
	b	.LBB38_10
.LBB38_9:
	mov	x20, xzr
	mov	x22, xzr
.LBB38_10:                              // %"recoding::kernels::put_plain::<#d2e6c14c333cca8a>.exit"
	mov	x0, x22
	mov	x1, x20
	.cfi_def_cfa wsp, 128
	ldp	x20, x19, [sp, #112]            // 16-byte Folded Reload
	ldp	x22, x21, [sp, #96]             // 16-byte Folded Reload
	ldp	x24, x23, [sp, #80]             // 16-byte Folded Reload
	ldp	x29, x30, [sp, #64]             // 16-byte Folded Reload
	add	sp, sp, #128
	.cfi_def_cfa_offset 0
	.cfi_restore w19
	.cfi_restore w20
	.cfi_restore w21
	.cfi_restore w22
	.cfi_restore w23
	.cfi_restore w24
	.cfi_restore w30
	.cfi_restore w29
	ret
.Lfunc_end38:
	.size	"recoding::kernels::widen_plain::<#d2e6c14c333cca8a>", .Lfunc_end38-"recoding::kernels::widen_plain::<#d2e6c14c333cca8a>"
	.cfi_endproc
                                        // -- End function
	.section	".text.recoding::engine::recode_faults::<#e11ba97e6063c4ca>","ax",@progbits
	.p2align	2                               // -- Begin function recoding::engine::recode_faults::<#e11ba97e6063c4ca>
	.type	"recoding::engine::recode_faults::<#e11ba97e6063c4ca>",@function
"recoding::engine::recode_faults::<#e11ba97e6063c4ca>": // @"recoding::engine::recode_faults::<#e11ba97e6063c4ca>"
	.cfi_startproc
// %bb.0:                               // %start
	sub	sp, sp, #128
	.cfi_def_cfa_offset 128
	stp	x29, x30, [sp, #32]             // 16-byte Folded Spill
	stp	x28, x27, [sp, #48]             // 16-byte Folded Spill
	stp	x26, x25, [sp, #64]             // 16-byte Folded Spill
	stp	x24, x23, [sp, #80]             // 16-byte Folded Spill
	stp	x22, x21, [sp, #96]             // 16-byte Folded Spill
	stp	x20, x19, [sp, #112]            // 16-byte Folded Spill
	add	x29, sp, #32
	.cfi_def_cfa w29, 96
	.cfi_offset w19, -8
	.cfi_offset w20, -16
	.cfi_offset w21, -24
	.cfi_offset w22, -32
	.cfi_offset w23, -40
	.cfi_offset w24, -48
	.cfi_offset w25, -56
	.cfi_offset w26, -64
	.cfi_offset w27, -72
	.cfi_offset w28, -80
	.cfi_offset w30, -88
	.cfi_offset w29, -96
	.cfi_remember_state
	mov	x20, x3
	mov	x21, x2
	mov	x25, xzr
	mov	x24, xzr
	mov	w14, #16                        // =0x10
	stur	x0, [x29, #-8]                  // 8-byte Folded Spill
	b	.LBB39_4
.LBB39_1:                               // %arm.10.i.i
                                        //   in Loop: Header=BB39_4 Depth=1
	add	x0, x1, x25
	mov	x19, x1
	sub	x1, x21, x25
	bl	"recoding::next_scalar::is_front_of_code"
	mov	x1, x19
	cbnz	w0, .LBB39_40
.LBB39_2:                               // %"recoding::text::Utf16Text::put_any::<#f52bd5352b4cd2db>.exit"
                                        //   in Loop: Header=BB39_4 Depth=1
	ldp	x9, x8, [x20]
	mov	w10, #255                       // =0xff
	cmp	x28, #32
	mov	w11, #253                       // =0xfd
	add	x24, x24, #1
	strb	w10, [x9, x8]
	mov	w10, #32                        // =0x20
	ldr	x9, [x20]
	csel	x14, x28, x10, lo
	add	x9, x9, x8
	add	x8, x8, #2
	strb	w11, [x9, #1]
	str	x8, [x20, #8]
	mov	w8, #1                          // =0x1
.LBB39_3:                               // %join.12
                                        //   in Loop: Header=BB39_4 Depth=1
	add	x25, x8, x25
	cmp	x25, x14
	b.hs	.LBB39_38
.LBB39_4:                               // %join.5
                                        // =>This Inner Loop Header: Depth=1
	add	x28, x25, #4
	add	x19, x1, x25
	cmp	x28, x21
	b.ls	.LBB39_6
// %bb.5:                               // %join.3.i
                                        //   in Loop: Header=BB39_4 Depth=1
	sub	x26, x21, x25
	cmp	x26, #4
	b.lo	.LBB39_14
.LBB39_6:                               // %then.1.i54
                                        //   in Loop: Header=BB39_4 Depth=1
	ldrsb	w8, [x19]
	and	w27, w8, #0xff
	tbnz	w8, #31, .LBB39_9
.LBB39_7:                               // %"utf_chars::codes::utf8::decode_start.exit.i.thread459"
                                        //   in Loop: Header=BB39_4 Depth=1
	mov	w8, #1                          // =0x1
.LBB39_8:                               // %arm.1.i25
                                        //   in Loop: Header=BB39_4 Depth=1
	ldp	x10, x9, [x20]
	lsr	w11, w27, #8
	strb	w11, [x10, x9]
	ldr	x10, [x20]
	add	x10, x10, x9
	add	x9, x9, #2
	strb	w27, [x10, #1]
	str	x9, [x20, #8]
	b	.LBB39_3
.LBB39_9:                               // %join.6.i104.i
                                        //   in Loop: Header=BB39_4 Depth=1
	ldrb	w8, [x19, #1]
	cmp	w27, #224
	b.hs	.LBB39_18
// %bb.10:                              // %"utf_lanes::text_front::front_of_text.exit139.i"
                                        //   in Loop: Header=BB39_4 Depth=1
	cmp	w27, #194
	b.lo	.LBB39_2
// %bb.11:                              // %"utf_lanes::text_front::front_of_text.exit139.i"
                                        //   in Loop: Header=BB39_4 Depth=1
	eor	w8, w8, #0x80
	cmp	w8, #63
	b.hi	.LBB39_2
// %bb.12:                              //   in Loop: Header=BB39_4 Depth=1
	add	w8, w8, w27, lsl #6
	sub	w27, w8, #3, lsl #12            // =12288
	mov	w8, #2                          // =0x2
	lsr	w9, w27, #16
	cbz	w9, .LBB39_8
.LBB39_13:                              // %arm.2.i24
                                        //   in Loop: Header=BB39_4 Depth=1
	mov	w9, #-10304                     // =0xffffd7c0
	ldp	x11, x10, [x20]
	add	w9, w9, w27, lsr #10
	lsr	w12, w9, #8
	strb	w12, [x11, x10]
	ldr	x11, [x20]
	add	x11, x11, x10
	strb	w9, [x11, #1]
	mov	w9, #220                        // =0xdc
	ldr	x11, [x20]
	bfxil	w9, w27, #8, #2
	add	x11, x11, x10
	strb	w9, [x11, #2]
	ldr	x9, [x20]
	add	x9, x9, x10
	add	x10, x10, #4
	strb	w27, [x9, #3]
	str	x10, [x20, #8]
	b	.LBB39_3
.LBB39_14:                              // %join.3.i.i
                                        //   in Loop: Header=BB39_4 Depth=1
	cmp	x21, x25
	b.eq	.LBB39_1
// %bb.15:                              // %join.3.i316.i
                                        //   in Loop: Header=BB39_4 Depth=1
	ldrb	w27, [x19]
	adrp	x8, .Lstatic.8
	add	x8, x8, :lo12:.Lstatic.8
	adrp	x22, .Lstatic.9
	add	x22, x22, :lo12:.Lstatic.9
	ldrb	w8, [x8, x27]
	ldrb	w23, [x22, x8]
	cmp	x23, #12
	b.ls	.LBB39_29
// %bb.16:                              // %join.6.i321.i
                                        //   in Loop: Header=BB39_4 Depth=1
	cmp	w23, #13
	b.ne	.LBB39_2
// %bb.17:                              // %join.9.i323.i
                                        //   in Loop: Header=BB39_4 Depth=1
	tbz	w27, #7, .LBB39_7
	b	.LBB39_41
.LBB39_18:                              // %join.9.i106.i
                                        //   in Loop: Header=BB39_4 Depth=1
	sxtb	w9, w8
	cmn	w9, #65
	b.gt	.LBB39_2
// %bb.19:                              // %join.12.i113.i
                                        //   in Loop: Header=BB39_4 Depth=1
	and	w8, w8, #0x3f
	cmp	w27, #239
	bfi	w8, w27, #6, #4
	b.hi	.LBB39_25
// %bb.20:                              // %then.13.i125.i
                                        //   in Loop: Header=BB39_4 Depth=1
	and	w9, w8, #0x3e0
	cmp	w9, #864
	b.eq	.LBB39_2
// %bb.21:                              // %join.3.i187.i
                                        //   in Loop: Header=BB39_4 Depth=1
	ldrsb	w9, [x19, #2]
	cmn	w9, #65
	b.gt	.LBB39_2
// %bb.22:                              // %join.3.i187.i
                                        //   in Loop: Header=BB39_4 Depth=1
	cmp	w8, #32
	b.lo	.LBB39_2
// %bb.23:                              // %join.9.i191.i
                                        //   in Loop: Header=BB39_4 Depth=1
	and	w9, w9, #0xff
	and	w9, w9, #0x3f
	orr	w27, w9, w8, lsl #6
.LBB39_24:                              // %arm.1.i25
                                        //   in Loop: Header=BB39_4 Depth=1
	mov	w8, #3                          // =0x3
	b	.LBB39_8
.LBB39_25:                              // %else.14.i116.i
                                        //   in Loop: Header=BB39_4 Depth=1
	sub	w9, w8, #272
	cmn	w9, #256
	b.lo	.LBB39_2
// %bb.26:                              // %after.1.i.i
                                        //   in Loop: Header=BB39_4 Depth=1
	ldrsb	w9, [x19, #2]
	cmn	w9, #65
	b.gt	.LBB39_2
// %bb.27:                              // %else.14.i254.i
                                        //   in Loop: Header=BB39_4 Depth=1
	ldrsb	w10, [x19, #3]
	cmn	w10, #65
	b.gt	.LBB39_2
// %bb.28:                              // %after.11.i.i
                                        //   in Loop: Header=BB39_4 Depth=1
	lsl	w27, w8, #12
	and	w8, w10, #0xff
	bfi	w27, w9, #6, #6
	bfxil	w27, w8, #0, #6
	mov	w8, #4                          // =0x4
	b	.LBB39_13
.LBB39_29:                              // %then.4.i333.i
                                        //   in Loop: Header=BB39_4 Depth=1
	mov	w0, w23
	stp	x14, x1, [sp, #8]               // 16-byte Folded Spill
	bl	"utf_chars::codes::utf8::missing_after"
	ldp	x14, x1, [sp, #8]               // 16-byte Folded Reload
	cmp	x26, x0
	b.ls	.LBB39_1
// %bb.30:                              // %join.3.i351.i
                                        //   in Loop: Header=BB39_4 Depth=1
	ldrb	w8, [x19, #1]
	adrp	x12, .Lstatic.8
	add	x12, x12, :lo12:.Lstatic.8
	add	x10, x22, x23, lsl #4
	ldrb	w9, [x12, x8]
	ldrb	w10, [x10, x9]
	cmp	w10, #12
	b.hi	.LBB39_34
// %bb.31:                              // %then.1.i379.i
                                        //   in Loop: Header=BB39_4 Depth=1
	ldrb	w9, [x19, #2]
	add	x10, x22, x10, lsl #4
	ldrb	w11, [x12, x9]
	ldrb	w11, [x10, x11]
	cmp	w11, #12
	b.hi	.LBB39_36
// %bb.32:                              // %then.1.i418.i
                                        //   in Loop: Header=BB39_4 Depth=1
	ldrb	w10, [x19, #3]
	add	x11, x22, x11, lsl #4
	ldrb	w12, [x12, x10]
	ldrb	w11, [x11, x12]
	cmp	w11, #13
	b.ne	.LBB39_2
// %bb.33:                              // %join.3.i436.i
                                        //   in Loop: Header=BB39_4 Depth=1
	ubfiz	w11, w27, #12, #3
	bfi	w11, w8, #6, #6
	and	w8, w10, #0x3f
	bfxil	w11, w9, #0, #6
	orr	w27, w8, w11, lsl #6
	mov	w8, #4                          // =0x4
	lsr	w9, w27, #16
	cbnz	w9, .LBB39_13
	b	.LBB39_8
.LBB39_34:                              // %join.3.i366.i
                                        //   in Loop: Header=BB39_4 Depth=1
	cmp	w10, #13
	b.ne	.LBB39_2
// %bb.35:                              // %"utf_chars::codes::utf8::decode_start.exit.i.thread540"
                                        //   in Loop: Header=BB39_4 Depth=1
	and	w9, w8, #0x3f
	mov	w8, #2                          // =0x2
	bfi	w9, w27, #6, #5
	mov	w27, w9
	b	.LBB39_8
.LBB39_36:                              // %join.3.i399.i
                                        //   in Loop: Header=BB39_4 Depth=1
	cmp	w11, #13
	b.ne	.LBB39_2
// %bb.37:                              // %join.6.i401.i
                                        //   in Loop: Header=BB39_4 Depth=1
	ubfiz	w27, w27, #12, #4
	bfi	w27, w8, #6, #6
	bfxil	w27, w9, #0, #6
	b	.LBB39_24
.LBB39_38:                              // %after.1
	ldur	x8, [x29, #-8]                  // 8-byte Folded Reload
	stp	x25, x24, [x8]
	str	xzr, [x8, #16]
	.cfi_def_cfa wsp, 128
.LBB39_39:                              // %after.1
	ldp	x20, x19, [sp, #112]            // 16-byte Folded Reload
	ldp	x22, x21, [sp, #96]             // 16-byte Folded Reload
	ldp	x24, x23, [sp, #80]             // 16-byte Folded Reload
	ldp	x26, x25, [sp, #64]             // 16-byte Folded Reload
	ldp	x28, x27, [sp, #48]             // 16-byte Folded Reload
	ldp	x29, x30, [sp, #32]             // 16-byte Folded Reload
	add	sp, sp, #128
	.cfi_def_cfa_offset 0
	.cfi_restore w19
	.cfi_restore w20
	.cfi_restore w21
	.cfi_restore w22
	.cfi_restore w23
	.cfi_restore w24
	.cfi_restore w25
	.cfi_restore w26
	.cfi_restore w27
	.cfi_restore w28
	.cfi_restore w30
	.cfi_restore w29
	ret
.LBB39_40:                              // %arm.7
	.cfi_restore_state
	.cfi_remember_state
	ldur	x9, [x29, #-8]                  // 8-byte Folded Reload
	mov	w8, #256                        // =0x100
	stp	x25, x24, [x9]
	strh	w8, [x9, #16]
	stur	wzr, [x9, #18]
	strh	wzr, [x9, #22]
	.cfi_def_cfa wsp, 128
	b	.LBB39_39
.LBB39_41:                              // %join.4.i.i
	.cfi_restore_state
	brk	#0x1
.Lfunc_end39:
	.size	"recoding::engine::recode_faults::<#e11ba97e6063c4ca>", .Lfunc_end39-"recoding::engine::recode_faults::<#e11ba97e6063c4ca>"
	.cfi_endproc
                                        // -- End function
	.section	".text.recoding::recoder_runs::run_whole::<#d46ce40aec13b609>","ax",@progbits
	.p2align	2                               // -- Begin function recoding::recoder_runs::run_whole::<#d46ce40aec13b609>
	.type	"recoding::recoder_runs::run_whole::<#d46ce40aec13b609>",@function
"recoding::recoder_runs::run_whole::<#d46ce40aec13b609>": // @"recoding::recoder_runs::run_whole::<#d46ce40aec13b609>"
	.cfi_startproc
// %bb.0:                               // %start
	sub	sp, sp, #128
	.cfi_def_cfa_offset 128
	stp	x29, x30, [sp, #64]             // 16-byte Folded Spill
	str	x23, [sp, #80]                  // 8-byte Spill
	stp	x22, x21, [sp, #96]             // 16-byte Folded Spill
	stp	x20, x19, [sp, #112]            // 16-byte Folded Spill
	add	x29, sp, #64
	.cfi_def_cfa w29, 64
	.cfi_offset w19, -8
	.cfi_offset w20, -16
	.cfi_offset w21, -24
	.cfi_offset w22, -32
	.cfi_offset w23, -48
	.cfi_offset w30, -56
	.cfi_offset w29, -64
	mov	x22, x2
	mov	x21, x1
	mov	x23, x0
	mov	x19, xzr
	mov	x20, xzr
	b	.LBB40_2
.LBB40_1:                               // %"recoding::kernels::put_damaged_units::<#a8b304b230851da3>.exit"
                                        //   in Loop: Header=BB40_2 Depth=1
	add	x0, x23, x20
	mov	x2, x22
	bl	"recoding::kernels::put_windows::<#a8b304b230851da3>"
	add	x20, x0, x20
	add	x19, x1, x19
	cbz	x0, .LBB40_6
.LBB40_2:                               // %loop.2.i
                                        // =>This Loop Header: Depth=1
                                        //     Child Loop BB40_9 Depth 2
	add	x0, x23, x20
	sub	x1, x21, x20
	mov	x2, x22
	bl	"recoding::kernels::NarrowedKernelUtf16Utf8::put_text::<#a02055794059cfb2>"
	lsr	x8, x0, #2
	add	x20, x0, x20
	cmp	x8, #2046
	b.hi	.LBB40_2
// %bb.3:                               // %join.5.i
                                        //   in Loop: Header=BB40_2 Depth=1
	subs	x1, x21, x20
	b.eq	.LBB40_22
// %bb.4:                               // %join.8.i
                                        //   in Loop: Header=BB40_2 Depth=1
	cmp	x1, #64
	b.hs	.LBB40_1
// %bb.5:                               // %join.14.i
                                        //   in Loop: Header=BB40_2 Depth=1
	cmp	x1, #128
	mov	w8, #128                        // =0x80
	csel	x9, x1, x8, lo
	cmp	x1, #2
	b.hs	.LBB40_7
	b	.LBB40_19
.LBB40_6:                               // %"recoding::kernels::put_damaged_units::<#a8b304b230851da3>.exit.join.14.i_crit_edge"
                                        //   in Loop: Header=BB40_2 Depth=1
	sub	x1, x21, x20
	cmp	x1, #128
	mov	w8, #128                        // =0x80
	csel	x9, x1, x8, lo
	cmp	x1, #2
	b.lo	.LBB40_19
.LBB40_7:                               // %join.5.i47.preheader
                                        //   in Loop: Header=BB40_2 Depth=1
	mov	x8, xzr
	add	x10, x23, x20
	mov	x14, x9
	b	.LBB40_9
.LBB40_8:                               // %then.1.i.i
                                        //   in Loop: Header=BB40_9 Depth=2
	ldp	x12, x11, [x22]
	strb	w15, [x12, x11]
	add	x11, x11, #1
	str	x11, [x22, #8]
	mov	w11, #2                         // =0x2
	add	x8, x11, x8
	sub	x14, x9, x8
	cmp	x14, #1
	b.ls	.LBB40_18
.LBB40_9:                               // %join.5.i47
                                        //   Parent Loop BB40_2 Depth=1
                                        // =>  This Inner Loop Header: Depth=2
	add	x12, x10, x8
	mov	w17, #55296                     // =0xd800
	ldrb	w13, [x12, #1]
	ldrb	w15, [x12]
	lsl	w16, w13, #8
	mov	w11, w15
	bfi	w11, w13, #8, #8
	and	w16, w16, #0xfc00
	cmp	w16, w17
	b.eq	.LBB40_14
// %bb.10:                              // %join.5.i47
                                        //   in Loop: Header=BB40_9 Depth=2
	mov	w12, #56320                     // =0xdc00
	cmp	w16, w12
	b.eq	.LBB40_18
// %bb.11:                              // %arm.7.i
                                        //   in Loop: Header=BB40_9 Depth=2
	cmp	w11, #128
	b.lo	.LBB40_8
// %bb.12:                              // %join.3.i.i
                                        //   in Loop: Header=BB40_9 Depth=2
	mov	w12, #128                       // =0x80
	cmp	w13, #8
	mov	w14, #128                       // =0x80
	bfxil	w12, w11, #0, #6
	b.hs	.LBB40_17
// %bb.13:                              // %then.4.i.i
                                        //   in Loop: Header=BB40_9 Depth=2
	ldp	x14, x13, [x22]
	lsr	w11, w11, #6
	orr	w11, w11, #0xc0
	strb	w11, [x14, x13]
	ldr	x11, [x22]
	add	x11, x11, x13
	add	x13, x13, #2
	strb	w12, [x11, #1]
	str	x13, [x22, #8]
	mov	w11, #2                         // =0x2
	add	x8, x11, x8
	sub	x14, x9, x8
	cmp	x14, #1
	b.hi	.LBB40_9
	b	.LBB40_18
.LBB40_14:                              // %join.6.i
                                        //   in Loop: Header=BB40_9 Depth=2
	cmp	x14, #4
	b.lo	.LBB40_18
// %bb.15:                              // %join.15.i71.i
                                        //   in Loop: Header=BB40_9 Depth=2
	ldrb	w13, [x12, #3]
	and	w14, w13, #0xfc
	cmp	w14, #220
	b.ne	.LBB40_18
// %bb.16:                              // %join.7.i.i
                                        //   in Loop: Header=BB40_9 Depth=2
	ubfiz	w14, w11, #10, #10
	ldp	x16, x15, [x22]
	ldrb	w12, [x12, #2]
	add	w14, w14, #16, lsl #12          // =65536
	lsr	w17, w14, #18
	orr	w17, w17, #0xf0
	strb	w17, [x16, x15]
	mov	w16, #128                       // =0x80
	mov	w17, w12
	ldr	x0, [x22]
	bfxil	w16, w14, #12, #6
	bfi	w17, w13, #8, #2
	add	x13, x0, x15
	bfi	w17, w11, #10, #10
	strb	w16, [x13, #1]
	mov	w11, #128                       // =0x80
	ldr	x13, [x22]
	bfxil	w11, w17, #6, #6
	add	x13, x13, x15
	strb	w11, [x13, #2]
	mov	w11, #128                       // =0x80
	ldr	x13, [x22]
	bfxil	w11, w12, #0, #6
	add	x12, x13, x15
	add	x13, x15, #4
	strb	w11, [x12, #3]
	mov	w11, #4                         // =0x4
	str	x13, [x22, #8]
	add	x8, x11, x8
	sub	x14, x9, x8
	cmp	x14, #1
	b.hi	.LBB40_9
	b	.LBB40_18
.LBB40_17:                              // %join.7.i.i.thread
                                        //   in Loop: Header=BB40_9 Depth=2
	ldp	x16, x15, [x22]
	lsr	w13, w13, #4
	bfxil	w14, w11, #6, #6
	orr	w13, w13, #0xe0
	strb	w13, [x16, x15]
	ldr	x13, [x22]
	add	x11, x13, x15
	add	x13, x15, #3
	strb	w14, [x11, #1]
	ldr	x11, [x22]
	add	x11, x11, x15
	strb	w12, [x11, #2]
	str	x13, [x22, #8]
	mov	w11, #2                         // =0x2
	add	x8, x11, x8
	sub	x14, x9, x8
	cmp	x14, #1
	b.hi	.LBB40_9
.LBB40_18:                              // %"recoding::engine::recode_text::<#a0e77f5ac5e791bb>.exit"
                                        //   in Loop: Header=BB40_2 Depth=1
	cmp	x8, #124
	add	x20, x8, x20
	b.hi	.LBB40_2
.LBB40_19:                              // %then.15.i
                                        //   in Loop: Header=BB40_2 Depth=1
	subs	x3, x21, x20
	b.eq	.LBB40_22
// %bb.20:                              // %join.20.i
                                        //   in Loop: Header=BB40_2 Depth=1
	movi	v0.2d, #0000000000000000
	sub	x0, x29, #24
	mov	x1, sp
	add	x2, x23, x20
	mov	x4, x22
	stp	xzr, xzr, [x29, #-16]
	stur	xzr, [x29, #-24]
	str	xzr, [sp, #32]
	stp	q0, q0, [sp]
	bl	"recoding::engine::recode_faults::<#7de934f40f1f4d79>"
	ldp	x8, x9, [x29, #-24]
	ldurb	w10, [x29, #-8]
	add	x20, x8, x20
	add	x19, x9, x19
	tbnz	w10, #0, .LBB40_23
// %bb.21:                              // %join.20.i
                                        //   in Loop: Header=BB40_2 Depth=1
	ldurb	w8, [x29, #-7]
	tbz	w8, #0, .LBB40_2
	b	.LBB40_23
.LBB40_22:
	mov	x20, x21
.LBB40_23:                              // %"recoding::engine::run::<#84aa85cc07d1be5e>.exit"
	mov	x0, x20
	mov	x1, x19
	.cfi_def_cfa wsp, 128
	ldp	x20, x19, [sp, #112]            // 16-byte Folded Reload
	ldr	x23, [sp, #80]                  // 8-byte Reload
	ldp	x22, x21, [sp, #96]             // 16-byte Folded Reload
	ldp	x29, x30, [sp, #64]             // 16-byte Folded Reload
	add	sp, sp, #128
	.cfi_def_cfa_offset 0
	.cfi_restore w19
	.cfi_restore w20
	.cfi_restore w21
	.cfi_restore w22
	.cfi_restore w23
	.cfi_restore w30
	.cfi_restore w29
	ret
.Lfunc_end40:
	.size	"recoding::recoder_runs::run_whole::<#d46ce40aec13b609>", .Lfunc_end40-"recoding::recoder_runs::run_whole::<#d46ce40aec13b609>"
	.cfi_endproc
                                        // -- End function
	.section	.rodata.cst16,"aM",@progbits,16
	.p2align	4, 0x0                          // -- Begin function recoding::kernels::NarrowedKernelUtf16Utf8::put_text::<#a02055794059cfb2>
.LCPI41_0:
	.byte	1                               // 0x1
	.byte	2                               // 0x2
	.byte	4                               // 0x4
	.byte	8                               // 0x8
	.byte	16                              // 0x10
	.byte	32                              // 0x20
	.byte	64                              // 0x40
	.byte	128                             // 0x80
	.byte	1                               // 0x1
	.byte	2                               // 0x2
	.byte	4                               // 0x4
	.byte	8                               // 0x8
	.byte	16                              // 0x10
	.byte	32                              // 0x20
	.byte	64                              // 0x40
	.byte	128                             // 0x80
	.section	".text.recoding::kernels::NarrowedKernelUtf16Utf8::put_text::<#a02055794059cfb2>","ax",@progbits
	.p2align	2
	.type	"recoding::kernels::NarrowedKernelUtf16Utf8::put_text::<#a02055794059cfb2>",@function
"recoding::kernels::NarrowedKernelUtf16Utf8::put_text::<#a02055794059cfb2>": // @"recoding::kernels::NarrowedKernelUtf16Utf8::put_text::<#a02055794059cfb2>"
	.cfi_startproc
// %bb.0:                               // %start
	cmp	x1, #32
	b.lo	.LBB41_16
// %bb.1:                               // %then.3.i.lr.ph
	ldp	x10, x12, [x2, #8]
	sub	x8, x12, x10
	cmp	x8, #64
	b.lo	.LBB41_17
// %bb.2:                               // %join.5.i.preheader
	mov	x8, xzr
	mov	x9, x1
.LBB41_3:                               // %join.5.i
                                        // =>This Inner Loop Header: Depth=1
	add	x11, x0, x8
	ldp	q1, q2, [x11]
	adrp	x11, .LCPI41_0
	uzp1	v0.16b, v1.16b, v2.16b
	uzp2	v2.16b, v1.16b, v2.16b
	ushr	v1.16b, v0.16b, #7
	orr	v1.16b, v1.16b, v2.16b
	cmeq	v3.16b, v1.16b, #0
	ldr	q1, [x11, :lo12:.LCPI41_0]
	bic	v3.16b, v1.16b, v3.16b
	addp	v3.16b, v3.16b, v3.16b
	addp	v3.16b, v3.16b, v3.16b
	addp	v3.16b, v3.16b, v3.16b
	umov	w11, v3.h[0]
	cbz	w11, .LBB41_8
// %bb.4:                               // %join.3.i507
                                        //   in Loop: Header=BB41_3 Depth=1
	movi	v3.16b, #7
	movi	v4.2d, #0000000000000000
	ldr	x11, [x2]
	add	x13, x11, x10
	cmhi	v3.16b, v2.16b, v3.16b
	stp	q4, q4, [x13]
	stp	q4, q4, [x13, #32]
	add	x13, x10, #64
	stp	x11, x13, [x2]
	and	v3.16b, v3.16b, v1.16b
	str	x12, [x2, #16]
	addp	v3.16b, v3.16b, v3.16b
	addp	v3.16b, v3.16b, v3.16b
	addp	v3.16b, v3.16b, v3.16b
	umov	w14, v3.h[0]
	cbz	w14, .LBB41_9
// %bb.5:                               // %join.3.i34
                                        //   in Loop: Header=BB41_3 Depth=1
	movi	v3.16b, #248
	movi	v4.16b, #216
	and	v6.16b, v2.16b, v3.16b
	cmeq	v3.16b, v6.16b, v4.16b
	and	v3.16b, v3.16b, v1.16b
	addp	v3.16b, v3.16b, v3.16b
	addp	v3.16b, v3.16b, v3.16b
	addp	v3.16b, v3.16b, v3.16b
	umov	w12, v3.h[0]
	cbz	w12, .LBB41_14
// %bb.6:                               // %join.7.i
                                        //   in Loop: Header=BB41_3 Depth=1
	movi	v3.16b, #54
	ushr	v5.16b, v2.16b, #2
	movi	v7.16b, #55
	cmeq	v4.16b, v5.16b, v3.16b
	cmeq	v3.16b, v5.16b, v7.16b
	and	v5.16b, v4.16b, v1.16b
	and	v3.16b, v3.16b, v1.16b
	addp	v5.16b, v5.16b, v5.16b
	addp	v3.16b, v3.16b, v3.16b
	addp	v5.16b, v5.16b, v5.16b
	addp	v7.16b, v3.16b, v3.16b
	addp	v3.16b, v5.16b, v5.16b
	addp	v5.16b, v7.16b, v7.16b
	umov	w12, v3.h[0]
	umov	w13, v5.h[0]
	ubfiz	x12, x12, #1, #15
	cmp	x12, w13, uxth
	b.ne	.LBB41_15
// %bb.7:                               // %join.3.i261
                                        //   in Loop: Header=BB41_3 Depth=1
	movi	v5.16b, #60
	shl	v7.16b, v2.16b, #2
	adrp	x15, .Lstatic.20
	add	x15, x15, :lo12:.Lstatic.20
	movi	v16.16b, #12
	shl	v17.16b, v0.16b, #4
	movi	v19.16b, #2
	movi	v20.16b, #192
	movi	v22.16b, #8
	movi	v24.16b, #240
	movi	v25.16b, #3
	and	v18.16b, v7.16b, v5.16b
	movi	v5.16b, #48
	and	v21.16b, v7.16b, v16.16b
	movi	v7.16b, #216
	usra	v18.16b, v0.16b, #6
	and	v17.16b, v17.16b, v5.16b
	movi	v5.16b, #128
	usra	v21.16b, v0.16b, #6
	cmeq	v6.16b, v6.16b, v7.16b
	cmhi	v16.16b, v19.16b, v18.16b
	orr	v19.16b, v18.16b, v20.16b
	cmhi	v20.16b, v20.16b, v0.16b
	ext	v23.16b, v17.16b, v17.16b, #15
	cmhi	v17.16b, v22.16b, v2.16b
	movi	v22.16b, #241
	orr	v18.16b, v18.16b, v5.16b
	orr	v21.16b, v21.16b, v5.16b
	bic	v19.16b, v19.16b, v16.16b
	and	v16.16b, v17.16b, v16.16b
	bsl	v20.16b, v24.16b, v22.16b
	movi	v22.16b, #224
	bit	v18.16b, v19.16b, v17.16b
	orr	v19.16b, v21.16b, v23.16b
	and	v21.16b, v2.16b, v25.16b
	usra	v22.16b, v2.16b, #4
	bit	v18.16b, v19.16b, v6.16b
	add	v19.16b, v20.16b, v21.16b
	orr	v6.16b, v17.16b, v6.16b
	movi	v20.16b, #63
	movi	v21.16b, #16
	bsl	v4.16b, v19.16b, v18.16b
	bic	v18.16b, v22.16b, v6.16b
	and	v22.16b, v0.16b, v20.16b
	usra	v21.16b, v0.16b, #2
	zip1	v6.16b, v18.16b, v4.16b
	zip2	v4.16b, v18.16b, v4.16b
	orr	v17.16b, v22.16b, v5.16b
	bif	v0.16b, v17.16b, v16.16b
	cmlt	v19.16b, v6.16b, #0
	cmlt	v23.16b, v4.16b, #0
	and	v18.16b, v19.16b, v1.16b
	movi	v19.16b, #252
	and	v1.16b, v23.16b, v1.16b
	addp	v18.16b, v18.16b, v18.16b
	addp	v1.16b, v1.16b, v1.16b
	and	v2.16b, v2.16b, v19.16b
	and	v19.16b, v21.16b, v20.16b
	addp	v18.16b, v18.16b, v18.16b
	addp	v1.16b, v1.16b, v1.16b
	cmeq	v2.16b, v2.16b, v7.16b
	orr	v5.16b, v19.16b, v5.16b
	addp	v7.16b, v18.16b, v18.16b
	addp	v1.16b, v1.16b, v1.16b
	bit	v0.16b, v5.16b, v2.16b
	umov	w12, v7.h[0]
	umov	w14, v1.h[0]
	zip1	v2.16b, v0.16b, v0.16b
	zip2	v0.16b, v0.16b, v0.16b
	and	x13, x12, #0xff
	ubfx	x12, x12, #8, #8
	fmov	d5, x13
	ldr	q1, [x15, x13, lsl #4]
	zip1	v7.16b, v6.16b, v2.16b
	zip2	v2.16b, v6.16b, v2.16b
	fmov	d16, x12
	ldr	q6, [x15, x12, lsl #4]
	and	x12, x14, #0xff
	ubfx	x14, x14, #8, #8
	cnt	v5.8b, v5.8b
	cnt	v16.8b, v16.8b
	tbl	v2.16b, { v2.16b }, v6.16b
	fmov	d6, x14
	tbl	v1.16b, { v7.16b }, v1.16b
	fmov	w13, s5
	fmov	d5, x12
	fmov	w16, s16
	cnt	v6.8b, v6.8b
	str	q1, [x11, x10]
	zip1	v1.16b, v4.16b, v0.16b
	zip2	v0.16b, v4.16b, v0.16b
	cnt	v5.8b, v5.8b
	add	x13, x10, x13
	add	x13, x13, #4
	str	q2, [x11, x13]
	add	x13, x16, x13
	ldr	q2, [x15, x12, lsl #4]
	smov	w12, v3.h[0]
	ldr	q3, [x15, x14, lsl #4]
	fmov	w10, s5
	add	x13, x13, #4
	fmov	w14, s6
	tbl	v1.16b, { v1.16b }, v2.16b
	tbl	v0.16b, { v0.16b }, v3.16b
	add	x10, x13, x10
	cmn	w12, #1
	mov	w12, #15                        // =0xf
	add	x10, x10, #4
	str	q1, [x11, x13]
	cinc	x12, x12, gt
	add	x14, x14, x10
	str	q0, [x11, x10]
	add	x13, x14, #4
	add	x14, x14, #2
	csel	x10, x13, x14, gt
	ldr	x11, [x2, #8]
	cmp	x11, x10
	b.hi	.LBB41_10
	b	.LBB41_11
.LBB41_8:                               // %join.3.i492
                                        //   in Loop: Header=BB41_3 Depth=1
	ldr	x9, [x2]
	str	q0, [x9, x10]
	add	x10, x10, #16
	stp	x9, x10, [x2]
	str	x12, [x2, #16]
	mov	w12, #16                        // =0x10
	b	.LBB41_12
.LBB41_9:                               // %then.1.i37
                                        //   in Loop: Header=BB41_3 Depth=1
	movi	v3.16b, #60
	shl	v4.16b, v2.16b, #2
	adrp	x14, .Lstatic.19
	add	x14, x14, :lo12:.Lstatic.19
	movi	v5.16b, #192
	movi	v6.16b, #8
	movi	v7.16b, #128
	and	v3.16b, v4.16b, v3.16b
	movi	v4.16b, #2
	cmhi	v2.16b, v6.16b, v2.16b
	usra	v3.16b, v0.16b, #6
	cmhi	v4.16b, v4.16b, v3.16b
	orr	v5.16b, v3.16b, v5.16b
	orr	v3.16b, v3.16b, v7.16b
	bic	v5.16b, v5.16b, v4.16b
	bit	v3.16b, v5.16b, v2.16b
	and	v2.16b, v2.16b, v4.16b
	cmlt	v5.16b, v3.16b, #0
	and	v1.16b, v5.16b, v1.16b
	movi	v5.16b, #63
	addp	v1.16b, v1.16b, v1.16b
	and	v5.16b, v0.16b, v5.16b
	addp	v1.16b, v1.16b, v1.16b
	addp	v1.16b, v1.16b, v1.16b
	umov	w12, v1.h[0]
	orr	v1.16b, v5.16b, v7.16b
	bif	v0.16b, v1.16b, v2.16b
	and	x13, x12, #0xff
	ubfx	x12, x12, #8, #8
	fmov	d1, x13
	fmov	d2, x12
	zip1	v4.16b, v3.16b, v0.16b
	zip2	v0.16b, v3.16b, v0.16b
	ldr	q3, [x14, x13, lsl #4]
	cnt	v1.8b, v1.8b
	cnt	v2.8b, v2.8b
	tbl	v3.16b, { v4.16b }, v3.16b
	fmov	w13, s1
	ldr	q1, [x14, x12, lsl #4]
	fmov	w12, s2
	tbl	v0.16b, { v0.16b }, v1.16b
	str	q3, [x11, x10]
	add	x13, x10, x13
	add	x13, x13, #8
	add	x12, x12, x13
	str	q0, [x11, x13]
	add	x10, x12, #8
	mov	w12, #16                        // =0x10
	ldr	x11, [x2, #8]
	cmp	x11, x10
	b.ls	.LBB41_11
.LBB41_10:                              // %join.3.i533
                                        //   in Loop: Header=BB41_3 Depth=1
	mov	x11, x10
	str	x10, [x2, #8]
.LBB41_11:                              // %"recoding::list::append_block::<#e3b2a9d4d2861db8>.exit"
                                        //   in Loop: Header=BB41_3 Depth=1
	mov	x10, x11
	cbz	x12, .LBB41_19
.LBB41_12:                              // %join.11.i
                                        //   in Loop: Header=BB41_3 Depth=1
	add	x8, x8, x12, lsl #1
	sub	x9, x1, x8
	cmp	x9, #31
	b.ls	.LBB41_25
// %bb.13:                              // %then.3.i
                                        //   in Loop: Header=BB41_3 Depth=1
	ldr	x12, [x2, #16]
	sub	x11, x12, x10
	cmp	x11, #64
	b.hs	.LBB41_3
	b	.LBB41_19
.LBB41_14:                              // %then.5.i
                                        //   in Loop: Header=BB41_3 Depth=1
	movi	v3.16b, #60
	shl	v4.16b, v2.16b, #2
	adrp	x15, .Lstatic.20
	add	x15, x15, :lo12:.Lstatic.20
	movi	v5.16b, #192
	movi	v6.16b, #8
	movi	v7.16b, #128
	movi	v16.16b, #224
	and	v3.16b, v4.16b, v3.16b
	movi	v4.16b, #2
	cmhi	v6.16b, v6.16b, v2.16b
	usra	v16.16b, v2.16b, #4
	usra	v3.16b, v0.16b, #6
	mov	v2.16b, v6.16b
	cmhi	v4.16b, v4.16b, v3.16b
	orr	v5.16b, v3.16b, v5.16b
	orr	v3.16b, v3.16b, v7.16b
	bic	v5.16b, v5.16b, v4.16b
	and	v4.16b, v6.16b, v4.16b
	bsl	v2.16b, v5.16b, v3.16b
	bic	v3.16b, v16.16b, v6.16b
	zip1	v5.16b, v3.16b, v2.16b
	zip2	v2.16b, v3.16b, v2.16b
	cmlt	v16.16b, v5.16b, #0
	cmlt	v17.16b, v2.16b, #0
	and	v3.16b, v16.16b, v1.16b
	movi	v16.16b, #63
	and	v1.16b, v17.16b, v1.16b
	addp	v3.16b, v3.16b, v3.16b
	addp	v1.16b, v1.16b, v1.16b
	and	v16.16b, v0.16b, v16.16b
	addp	v3.16b, v3.16b, v3.16b
	addp	v1.16b, v1.16b, v1.16b
	orr	v7.16b, v16.16b, v7.16b
	addp	v3.16b, v3.16b, v3.16b
	addp	v1.16b, v1.16b, v1.16b
	bif	v0.16b, v7.16b, v4.16b
	umov	w12, v3.h[0]
	umov	w14, v1.h[0]
	zip1	v3.16b, v0.16b, v0.16b
	zip2	v0.16b, v0.16b, v0.16b
	and	x13, x12, #0xff
	ubfx	x12, x12, #8, #8
	fmov	d4, x13
	ldr	q1, [x15, x13, lsl #4]
	and	x13, x14, #0xff
	zip1	v6.16b, v5.16b, v3.16b
	zip2	v3.16b, v5.16b, v3.16b
	fmov	d5, x12
	ldr	q7, [x15, x12, lsl #4]
	ubfx	x14, x14, #8, #8
	cnt	v4.8b, v4.8b
	tbl	v1.16b, { v6.16b }, v1.16b
	tbl	v3.16b, { v3.16b }, v7.16b
	fmov	w12, s4
	cnt	v4.8b, v5.8b
	fmov	d5, x13
	str	q1, [x11, x10]
	fmov	d1, x14
	cnt	v5.8b, v5.8b
	add	x12, x10, x12
	fmov	w10, s4
	add	x12, x12, #4
	cnt	v1.8b, v1.8b
	zip1	v4.16b, v2.16b, v0.16b
	str	q3, [x11, x12]
	zip2	v0.16b, v2.16b, v0.16b
	ldr	q2, [x15, x13, lsl #4]
	ldr	q3, [x15, x14, lsl #4]
	fmov	w13, s5
	add	x10, x10, x12
	add	x10, x10, #4
	fmov	w12, s1
	tbl	v2.16b, { v4.16b }, v2.16b
	tbl	v0.16b, { v0.16b }, v3.16b
	add	x13, x10, x13
	add	x13, x13, #4
	add	x12, x12, x13
	str	q2, [x11, x10]
	str	q0, [x11, x13]
	add	x10, x12, #4
	mov	w12, #16                        // =0x10
	ldr	x11, [x2, #8]
	cmp	x11, x10
	b.ls	.LBB41_11
	b	.LBB41_10
.LBB41_15:                              //   in Loop: Header=BB41_3 Depth=1
	mov	x12, xzr
	ldr	x11, [x2, #8]
	cmp	x11, x10
	b.hi	.LBB41_10
	b	.LBB41_11
.LBB41_16:
	mov	x8, xzr
	cmp	x1, #16
	b.hs	.LBB41_18
	b	.LBB41_26
.LBB41_17:
	mov	x8, xzr
.LBB41_18:
	mov	x9, x1
.LBB41_19:                              // %then.3.i422.lr.ph
	ldp	x14, x11, [x2, #8]
	sub	x10, x11, x14
	subs	x12, x10, #8
	b.lo	.LBB41_26
// %bb.20:                              // %join.5.i427.preheader
	mov	x10, xzr
	add	x13, x0, x8
	sub	x9, x9, #16
.LBB41_21:                              // %join.5.i427
                                        // =>This Inner Loop Header: Depth=1
	add	x15, x13, x10
	ld2	{ v0.8b, v1.8b }, [x15]
	shll	v2.8h, v1.8b, #8
	ushll	v0.8h, v0.8b, #0
	movi	v1.8h, #127
	orr	v0.16b, v2.16b, v0.16b
	cmhi	v0.8h, v0.8h, v1.8h
	umaxv	h0, v0.8h
	fmov	w16, s0
	tbnz	w16, #0, .LBB41_24
// %bb.22:                              // %arm.10.i
                                        //   in Loop: Header=BB41_21 Depth=1
	ldrb	w16, [x15]
	ldrb	w17, [x15, #2]
	subs	x9, x9, #16
	ldrb	w0, [x15, #4]
	add	x10, x10, #16
	orr	x16, x16, x17, lsl #8
	ldrb	w17, [x15, #6]
	orr	x16, x16, x0, lsl #16
	ldrb	w0, [x15, #8]
	orr	x16, x16, x17, lsl #24
	ldrb	w17, [x15, #10]
	orr	x16, x16, x0, lsl #32
	ldrb	w0, [x15, #12]
	ldrb	w15, [x15, #14]
	orr	x16, x16, x17, lsl #40
	ldr	x17, [x2]
	orr	x16, x16, x0, lsl #48
	orr	x15, x16, x15, lsl #56
	str	x15, [x17, x14]
	add	x14, x14, #8
	stp	x17, x14, [x2]
	str	x11, [x2, #16]
	b.lo	.LBB41_24
// %bb.23:                              // %arm.10.i
                                        //   in Loop: Header=BB41_21 Depth=1
	cmp	x12, #7
	sub	x12, x12, #8
	b.hi	.LBB41_21
.LBB41_24:                              // %"recoding::kernels::narrow_ascii::<#b3a77c927faee343>.exit"
	add	x0, x10, x8
	ret
.LBB41_25:
	mov	x1, x9
	cmp	x9, #16
	b.hs	.LBB41_18
.LBB41_26:
	add	x0, xzr, x8
	ret
.Lfunc_end41:
	.size	"recoding::kernels::NarrowedKernelUtf16Utf8::put_text::<#a02055794059cfb2>", .Lfunc_end41-"recoding::kernels::NarrowedKernelUtf16Utf8::put_text::<#a02055794059cfb2>"
	.cfi_endproc
                                        // -- End function
	.section	.rodata.cst16,"aM",@progbits,16
	.p2align	4, 0x0                          // -- Begin function recoding::kernels::put_windows::<#a8b304b230851da3>
.LCPI42_0:
	.byte	1                               // 0x1
	.byte	2                               // 0x2
	.byte	4                               // 0x4
	.byte	8                               // 0x8
	.byte	16                              // 0x10
	.byte	32                              // 0x20
	.byte	64                              // 0x40
	.byte	128                             // 0x80
	.byte	1                               // 0x1
	.byte	2                               // 0x2
	.byte	4                               // 0x4
	.byte	8                               // 0x8
	.byte	16                              // 0x10
	.byte	32                              // 0x20
	.byte	64                              // 0x40
	.byte	128                             // 0x80
	.section	".text.recoding::kernels::put_windows::<#a8b304b230851da3>","ax",@progbits
	.p2align	2
	.type	"recoding::kernels::put_windows::<#a8b304b230851da3>",@function
"recoding::kernels::put_windows::<#a8b304b230851da3>": // @"recoding::kernels::put_windows::<#a8b304b230851da3>"
	.cfi_startproc
// %bb.0:                               // %start
	stp	x29, x30, [sp, #-96]!           // 16-byte Folded Spill
	.cfi_def_cfa_offset 96
	str	x27, [sp, #16]                  // 8-byte Spill
	stp	x26, x25, [sp, #32]             // 16-byte Folded Spill
	stp	x24, x23, [sp, #48]             // 16-byte Folded Spill
	stp	x22, x21, [sp, #64]             // 16-byte Folded Spill
	stp	x20, x19, [sp, #80]             // 16-byte Folded Spill
	mov	x29, sp
	.cfi_def_cfa w29, 96
	.cfi_offset w19, -8
	.cfi_offset w20, -16
	.cfi_offset w21, -24
	.cfi_offset w22, -32
	.cfi_offset w23, -40
	.cfi_offset w24, -48
	.cfi_offset w25, -56
	.cfi_offset w26, -64
	.cfi_offset w27, -80
	.cfi_offset w30, -88
	.cfi_offset w29, -96
	mov	x21, x2
	mov	x22, x1
	mov	x23, x0
	mov	x19, xzr
	mov	x20, xzr
	mov	x25, xzr
.LBB42_1:                               // %then.6
                                        // =>This Inner Loop Header: Depth=1
	ldp	x9, x8, [x21, #8]
	sub	x8, x8, x9
	cmp	x8, #112
	b.lo	.LBB42_4
// %bb.2:                               // %join.5
                                        //   in Loop: Header=BB42_1 Depth=1
	add	x8, x23, x19
	movi	v6.16b, #54
	movi	v17.2d, #0000000000000000
	ldp	q0, q1, [x8]
	movi	v18.16b, #55
	ldp	q4, q5, [x8, #32]
	adrp	x8, .LCPI42_0
	mov	x1, x21
	uzp2	v2.16b, v0.16b, v1.16b
	uzp1	v0.16b, v0.16b, v1.16b
	movi	v1.16b, #253
	uzp2	v3.16b, v4.16b, v5.16b
	uzp1	v4.16b, v4.16b, v5.16b
	ushr	v16.16b, v2.16b, #2
	ushr	v7.16b, v3.16b, #2
	cmeq	v19.16b, v16.16b, v6.16b
	cmeq	v16.16b, v16.16b, v18.16b
	cmeq	v6.16b, v7.16b, v6.16b
	cmeq	v7.16b, v7.16b, v18.16b
	ext	v17.16b, v17.16b, v19.16b, #15
	ext	v20.16b, v19.16b, v6.16b, #15
	mov	v6.b[15], wzr
	eor	v17.16b, v17.16b, v16.16b
	eor	v18.16b, v20.16b, v7.16b
	ext	v20.16b, v17.16b, v18.16b, #1
	ext	v21.16b, v18.16b, v16.16b, #1
	and	v7.16b, v7.16b, v18.16b
	and	v16.16b, v16.16b, v17.16b
	and	v19.16b, v19.16b, v20.16b
	and	v6.16b, v6.16b, v21.16b
	orr	v16.16b, v19.16b, v16.16b
	orr	v6.16b, v6.16b, v7.16b
	movi	v19.16b, #252
	cmeq	v6.16b, v6.16b, #0
	cmeq	v7.16b, v16.16b, #0
	ldr	q16, [x8, :lo12:.LCPI42_0]
	and	v20.16b, v2.16b, v19.16b
	and	v19.16b, v3.16b, v19.16b
	bic	v17.16b, v16.16b, v7.16b
	bic	v18.16b, v16.16b, v6.16b
	bif	v0.16b, v1.16b, v7.16b
	bit	v1.16b, v4.16b, v6.16b
	orn	v2.16b, v2.16b, v7.16b
	orn	v3.16b, v3.16b, v6.16b
	addp	v17.16b, v17.16b, v18.16b
	movi	v18.16b, #216
	addp	v17.16b, v17.16b, v17.16b
	cmeq	v19.16b, v19.16b, v18.16b
	cmeq	v18.16b, v20.16b, v18.16b
	addp	v17.16b, v17.16b, v17.16b
	and	v18.16b, v18.16b, v16.16b
	and	v16.16b, v19.16b, v16.16b
	fmov	w26, s17
	addp	v16.16b, v18.16b, v16.16b
	fmov	s17, w26
	addp	v16.16b, v16.16b, v16.16b
	cnt	v17.8b, v17.8b
	addp	v5.16b, v16.16b, v16.16b
	fmov	w8, s5
	addv	b16, v17.8b
	cmn	w8, #1
	mov	w8, #31                         // =0x1f
	fmov	w27, s16
	cinc	x24, x8, gt
	mov	x0, x24
	bl	"recoding::list::append_text_units::<#e3b2a9d4d2861db8>"
	add	x20, x20, x27
	cmp	w26, #0
	mov	w8, #8                          // =0x8
	csinc	x25, xzr, x25, ne
	cmp	x20, #8
	add	x19, x19, x24, lsl #1
	csel	x8, x20, x8, lo
	cmp	x25, x8
	b.hi	.LBB42_4
// %bb.3:                               // %join.5
                                        //   in Loop: Header=BB42_1 Depth=1
	sub	x8, x22, x19
	cmp	x8, #63
	b.hi	.LBB42_1
.LBB42_4:                               // %after.1
	mov	x0, x19
	mov	x1, x20
	.cfi_def_cfa wsp, 96
	ldp	x20, x19, [sp, #80]             // 16-byte Folded Reload
	ldr	x27, [sp, #16]                  // 8-byte Reload
	ldp	x22, x21, [sp, #64]             // 16-byte Folded Reload
	ldp	x24, x23, [sp, #48]             // 16-byte Folded Reload
	ldp	x26, x25, [sp, #32]             // 16-byte Folded Reload
	ldp	x29, x30, [sp], #96             // 16-byte Folded Reload
	.cfi_def_cfa_offset 0
	.cfi_restore w19
	.cfi_restore w20
	.cfi_restore w21
	.cfi_restore w22
	.cfi_restore w23
	.cfi_restore w24
	.cfi_restore w25
	.cfi_restore w26
	.cfi_restore w27
	.cfi_restore w30
	.cfi_restore w29
	ret
.Lfunc_end42:
	.size	"recoding::kernels::put_windows::<#a8b304b230851da3>", .Lfunc_end42-"recoding::kernels::put_windows::<#a8b304b230851da3>"
	.cfi_endproc
                                        // -- End function
	.section	.rodata.cst16,"aM",@progbits,16
	.p2align	4, 0x0                          // -- Begin function recoding::list::append_text_units::<#e3b2a9d4d2861db8>
.LCPI43_0:
	.byte	1                               // 0x1
	.byte	2                               // 0x2
	.byte	4                               // 0x4
	.byte	8                               // 0x8
	.byte	16                              // 0x10
	.byte	32                              // 0x20
	.byte	64                              // 0x40
	.byte	128                             // 0x80
	.byte	1                               // 0x1
	.byte	2                               // 0x2
	.byte	4                               // 0x4
	.byte	8                               // 0x8
	.byte	16                              // 0x10
	.byte	32                              // 0x20
	.byte	64                              // 0x40
	.byte	128                             // 0x80
	.section	".text.recoding::list::append_text_units::<#e3b2a9d4d2861db8>","ax",@progbits
	.p2align	2
	.type	"recoding::list::append_text_units::<#e3b2a9d4d2861db8>",@function
"recoding::list::append_text_units::<#e3b2a9d4d2861db8>": // @"recoding::list::append_text_units::<#e3b2a9d4d2861db8>"
	.cfi_startproc
// %bb.0:                               // %start
	sub	sp, sp, #112
	.cfi_def_cfa_offset 112
	stp	x29, x30, [sp, #64]             // 16-byte Folded Spill
	str	x21, [sp, #80]                  // 8-byte Spill
	stp	x20, x19, [sp, #96]             // 16-byte Folded Spill
	add	x29, sp, #64
	.cfi_def_cfa w29, 48
	.cfi_offset w19, -8
	.cfi_offset w20, -16
	.cfi_offset w21, -32
	.cfi_offset w30, -40
	.cfi_offset w29, -48
	.cfi_remember_state
	ldp	x2, x8, [x1, #8]
	mov	x19, x1
	sub	x9, x8, x2
	cmp	x9, #111
	mov	x9, x2
	b.ls	.LBB43_8
.LBB43_1:                               // %join.3.i
	movi	v4.2d, #0000000000000000
	ldr	x1, [x19]
	add	x10, x1, x9
	add	x9, x9, #112
	stp	q4, q4, [x10, #16]
	stp	q4, q4, [x10, #48]
	stp	q4, q4, [x10, #80]
	str	q4, [x10]
	stp	x1, x9, [x19]
	str	x8, [x19, #16]
	cmp	x0, #32
	b.ne	.LBB43_4
.LBB43_2:                               // %then.2.i
	ushr	v5.16b, v1.16b, #7
	ushr	v4.16b, v0.16b, #7
	adrp	x8, .LCPI43_0
	orr	v4.16b, v2.16b, v4.16b
	orr	v5.16b, v3.16b, v5.16b
	cmeq	v6.16b, v5.16b, #0
	cmeq	v5.16b, v4.16b, #0
	ldr	q4, [x8, :lo12:.LCPI43_0]
	bic	v5.16b, v4.16b, v5.16b
	bic	v4.16b, v4.16b, v6.16b
	addp	v4.16b, v5.16b, v4.16b
	addp	v4.16b, v4.16b, v4.16b
	addp	v4.16b, v4.16b, v4.16b
	fmov	w8, s4
	cbz	w8, .LBB43_7
// %bb.3:                               // %then.2.split.i
	mov	w0, #32                         // =0x20
.LBB43_4:                               // %start.split.i
	bl	"utf_lanes::utf16_blocks::write_other_units"
	ldr	x8, [x19, #8]
	cmp	x8, x0
	b.ls	.LBB43_6
.LBB43_5:                               // %join.3.i11
	str	x0, [x19, #8]
.LBB43_6:                               // %"std_alloc::vec::Vec::truncate::<#8193b041ae25b2e3>.exit"
	.cfi_def_cfa wsp, 112
	ldp	x20, x19, [sp, #96]             // 16-byte Folded Reload
	ldr	x21, [sp, #80]                  // 8-byte Reload
	ldp	x29, x30, [sp, #64]             // 16-byte Folded Reload
	add	sp, sp, #112
	.cfi_def_cfa_offset 0
	.cfi_restore w19
	.cfi_restore w20
	.cfi_restore w21
	.cfi_restore w30
	.cfi_restore w29
	ret
.LBB43_7:                               // %then.5.i
	.cfi_restore_state
	add	x8, x1, x2
	add	x0, x2, #32
	stp	q0, q1, [x8]
	ldr	x8, [x19, #8]
	cmp	x8, x0
	b.ls	.LBB43_6
	b	.LBB43_5
.LBB43_8:                               // %"std_alloc::vec::Vec::grow::<#5fdc5e19576447a7>.exit.i"
	mov	x20, x0
	mov	x0, x19
	mov	w1, #112                        // =0x70
	stp	q0, q1, [sp]                    // 32-byte Folded Spill
	mov	x21, x2
	str	q2, [sp, #32]                   // 16-byte Spill
	stur	q3, [x29, #-16]                 // 16-byte Folded Spill
	bl	"std_alloc::vec::Vec::grow_amortized::<#5fdc5e19576447a7>"
	tbz	w0, #0, .LBB43_10
// %bb.9:                               // %"std_alloc::vec::Vec::grow::<#5fdc5e19576447a7>.exit.join.3_crit_edge.i"
	ldp	x9, x8, [x19, #8]
	mov	x2, x21
	ldp	q1, q2, [sp, #16]               // 32-byte Folded Reload
	mov	x0, x20
	ldur	q3, [x29, #-16]                 // 16-byte Folded Reload
	ldr	q0, [sp]                        // 16-byte Reload
	b	.LBB43_1
.LBB43_10:                              // %"std_alloc::vec::Vec::grow::<#5fdc5e19576447a7>.exit.i.std_alloc::vec::Vec::extend_from_slice::<#0cd040e5c49bc722>.exit_crit_edge"
	ldp	q1, q2, [sp, #16]               // 32-byte Folded Reload
	mov	x2, x21
	ldr	x1, [x19]
	ldur	q3, [x29, #-16]                 // 16-byte Folded Reload
	mov	x0, x20
	ldr	q0, [sp]                        // 16-byte Reload
	cmp	x20, #32
	b.eq	.LBB43_2
	b	.LBB43_4
.Lfunc_end43:
	.size	"recoding::list::append_text_units::<#e3b2a9d4d2861db8>", .Lfunc_end43-"recoding::list::append_text_units::<#e3b2a9d4d2861db8>"
	.cfi_endproc
                                        // -- End function
	.section	.rodata.cst16,"aM",@progbits,16
	.p2align	4, 0x0                          // -- Begin function utf_lanes::utf16_blocks::write_other_units
.LCPI44_0:
	.byte	1                               // 0x1
	.byte	2                               // 0x2
	.byte	4                               // 0x4
	.byte	8                               // 0x8
	.byte	16                              // 0x10
	.byte	32                              // 0x20
	.byte	64                              // 0x40
	.byte	128                             // 0x80
	.byte	1                               // 0x1
	.byte	2                               // 0x2
	.byte	4                               // 0x4
	.byte	8                               // 0x8
	.byte	16                              // 0x10
	.byte	32                              // 0x20
	.byte	64                              // 0x40
	.byte	128                             // 0x80
.LCPI44_1:
	.byte	0                               // 0x0
	.byte	16                              // 0x10
	.byte	1                               // 0x1
	.byte	16                              // 0x10
	.byte	2                               // 0x2
	.byte	17                              // 0x11
	.byte	3                               // 0x3
	.byte	17                              // 0x11
	.byte	4                               // 0x4
	.byte	18                              // 0x12
	.byte	5                               // 0x5
	.byte	18                              // 0x12
	.byte	6                               // 0x6
	.byte	19                              // 0x13
	.byte	7                               // 0x7
	.byte	19                              // 0x13
.LCPI44_2:
	.byte	8                               // 0x8
	.byte	20                              // 0x14
	.byte	9                               // 0x9
	.byte	20                              // 0x14
	.byte	10                              // 0xa
	.byte	21                              // 0x15
	.byte	11                              // 0xb
	.byte	21                              // 0x15
	.byte	12                              // 0xc
	.byte	22                              // 0x16
	.byte	13                              // 0xd
	.byte	22                              // 0x16
	.byte	14                              // 0xe
	.byte	23                              // 0x17
	.byte	15                              // 0xf
	.byte	23                              // 0x17
.LCPI44_3:
	.byte	0                               // 0x0
	.byte	24                              // 0x18
	.byte	1                               // 0x1
	.byte	24                              // 0x18
	.byte	2                               // 0x2
	.byte	25                              // 0x19
	.byte	3                               // 0x3
	.byte	25                              // 0x19
	.byte	4                               // 0x4
	.byte	26                              // 0x1a
	.byte	5                               // 0x5
	.byte	26                              // 0x1a
	.byte	6                               // 0x6
	.byte	27                              // 0x1b
	.byte	7                               // 0x7
	.byte	27                              // 0x1b
.LCPI44_4:
	.byte	8                               // 0x8
	.byte	28                              // 0x1c
	.byte	9                               // 0x9
	.byte	28                              // 0x1c
	.byte	10                              // 0xa
	.byte	29                              // 0x1d
	.byte	11                              // 0xb
	.byte	29                              // 0x1d
	.byte	12                              // 0xc
	.byte	30                              // 0x1e
	.byte	13                              // 0xd
	.byte	30                              // 0x1e
	.byte	14                              // 0xe
	.byte	31                              // 0x1f
	.byte	15                              // 0xf
	.byte	31                              // 0x1f
	.section	".text.utf_lanes::utf16_blocks::write_other_units","ax",@progbits
	.p2align	2
	.type	"utf_lanes::utf16_blocks::write_other_units",@function
"utf_lanes::utf16_blocks::write_other_units": // @"utf_lanes::utf16_blocks::write_other_units"
	.cfi_startproc
// %bb.0:                               // %start
	stp	d9, d8, [sp, #-16]!             // 16-byte Folded Spill
	.cfi_def_cfa_offset 16
	.cfi_offset b8, -8
	.cfi_offset b9, -16
	.cfi_remember_state
	movi	v4.16b, #248
	cmp	x0, #32
	and	v16.16b, v3.16b, v4.16b
	and	v5.16b, v2.16b, v4.16b
	b.ne	.LBB44_3
// %bb.1:                               // %then.2
	movi	v7.16b, #216
	adrp	x8, .LCPI44_0
	ldr	q4, [x8, :lo12:.LCPI44_0]
	cmeq	v6.16b, v16.16b, v7.16b
	cmeq	v5.16b, v5.16b, v7.16b
	and	v16.16b, v5.16b, v4.16b
	and	v17.16b, v6.16b, v4.16b
	addp	v16.16b, v16.16b, v17.16b
	addp	v16.16b, v16.16b, v16.16b
	addp	v16.16b, v16.16b, v16.16b
	fmov	w8, s16
	cbz	w8, .LBB44_4
// %bb.2:                               // %then.2.split
	movi	v16.16b, #60
	shl	v17.16b, v2.16b, #2
	adrp	x11, .LCPI44_1
	shl	v18.16b, v3.16b, #2
	movi	v19.16b, #12
	adrp	x8, .Lstatic.20
	add	x8, x8, :lo12:.Lstatic.20
	movi	v21.16b, #48
	shl	v20.16b, v1.16b, #4
	shl	v23.16b, v0.16b, #4
	movi	v24.16b, #2
	ushr	v26.16b, v0.16b, #6
	and	v22.16b, v17.16b, v16.16b
	and	v25.16b, v18.16b, v16.16b
	movi	v27.16b, #192
	and	v17.16b, v17.16b, v19.16b
	ushr	v28.16b, v1.16b, #6
	and	v18.16b, v18.16b, v19.16b
	movi	v16.16b, #128
	and	v23.16b, v23.16b, v21.16b
	and	v20.16b, v20.16b, v21.16b
	usra	v22.16b, v0.16b, #6
	usra	v25.16b, v1.16b, #6
	movi	v8.16b, #63
	orr	v21.16b, v26.16b, v17.16b
	movi	v26.16b, #8
	orr	v28.16b, v28.16b, v18.16b
	ext	v30.16b, v20.16b, v23.16b, #15
	ext	v23.16b, v23.16b, v20.16b, #15
	movi	v9.16b, #224
	cmhi	v17.16b, v24.16b, v22.16b
	cmhi	v19.16b, v24.16b, v25.16b
	orr	v24.16b, v25.16b, v27.16b
	orr	v29.16b, v22.16b, v27.16b
	orr	v25.16b, v25.16b, v16.16b
	orr	v22.16b, v22.16b, v16.16b
	cmhi	v20.16b, v26.16b, v3.16b
	cmhi	v18.16b, v26.16b, v2.16b
	orr	v26.16b, v28.16b, v16.16b
	bic	v24.16b, v24.16b, v19.16b
	orr	v21.16b, v21.16b, v16.16b
	movi	v28.16b, #252
	bic	v29.16b, v29.16b, v17.16b
	usra	v9.16b, v3.16b, #4
	orr	v23.16b, v26.16b, v23.16b
	cmhi	v26.16b, v27.16b, v0.16b
	cmhi	v27.16b, v27.16b, v1.16b
	bif	v24.16b, v25.16b, v20.16b
	orr	v21.16b, v21.16b, v30.16b
	movi	v25.16b, #241
	bit	v22.16b, v29.16b, v18.16b
	movi	v29.16b, #240
	movi	v30.16b, #3
	and	v31.16b, v2.16b, v28.16b
	and	v19.16b, v20.16b, v19.16b
	and	v17.16b, v18.16b, v17.16b
	bif	v23.16b, v24.16b, v6.16b
	mov	v24.16b, v26.16b
	movi	v26.16b, #16
	bif	v21.16b, v22.16b, v5.16b
	and	v22.16b, v3.16b, v28.16b
	movi	v28.16b, #16
	cmeq	v31.16b, v31.16b, v7.16b
	bsl	v24.16b, v29.16b, v25.16b
	bit	v25.16b, v29.16b, v27.16b
	and	v27.16b, v2.16b, v30.16b
	cmeq	v7.16b, v22.16b, v7.16b
	and	v22.16b, v3.16b, v30.16b
	and	v29.16b, v1.16b, v8.16b
	usra	v28.16b, v1.16b, #2
	and	v30.16b, v0.16b, v8.16b
	usra	v26.16b, v0.16b, #2
	orr	v3.16b, v20.16b, v6.16b
	mov	v6.16b, v31.16b
	add	v24.16b, v27.16b, v24.16b
	movi	v27.16b, #224
	add	v22.16b, v22.16b, v25.16b
	orr	v25.16b, v29.16b, v16.16b
	and	v28.16b, v28.16b, v8.16b
	orr	v29.16b, v30.16b, v16.16b
	and	v26.16b, v26.16b, v8.16b
	bsl	v6.16b, v24.16b, v21.16b
	bif	v1.16b, v25.16b, v19.16b
	usra	v27.16b, v2.16b, #4
	orr	v2.16b, v18.16b, v5.16b
	mov	v18.16b, v7.16b
	orr	v5.16b, v28.16b, v16.16b
	bif	v0.16b, v29.16b, v17.16b
	bic	v17.16b, v9.16b, v3.16b
	mov	v3.16b, v7.16b
	orr	v16.16b, v26.16b, v16.16b
	bic	v19.16b, v27.16b, v2.16b
	bsl	v18.16b, v22.16b, v23.16b
	bsl	v3.16b, v5.16b, v1.16b
	mov	v1.16b, v31.16b
	bsl	v1.16b, v16.16b, v0.16b
	zip1	v2.16b, v17.16b, v18.16b
	zip2	v16.16b, v17.16b, v18.16b
	zip1	v0.16b, v19.16b, v6.16b
	zip2	v5.16b, v19.16b, v6.16b
	cmlt	v7.16b, v2.16b, #0
	cmlt	v19.16b, v16.16b, #0
	mov	v17.16b, v3.16b
	cmlt	v20.16b, v0.16b, #0
	and	v7.16b, v7.16b, v4.16b
	and	v18.16b, v20.16b, v4.16b
	cmlt	v20.16b, v5.16b, #0
	mov	v6.16b, v1.16b
	addp	v7.16b, v18.16b, v7.16b
	and	v18.16b, v20.16b, v4.16b
	ldr	q20, [x11, :lo12:.LCPI44_1]
	and	v4.16b, v19.16b, v4.16b
	tbl	v27.16b, { v2.16b, v3.16b }, v20.16b
	tbl	v20.16b, { v0.16b, v1.16b }, v20.16b
	addp	v7.16b, v7.16b, v7.16b
	addp	v4.16b, v18.16b, v4.16b
	addp	v7.16b, v7.16b, v7.16b
	addp	v4.16b, v4.16b, v4.16b
	fmov	w10, s7
	addp	v4.16b, v4.16b, v4.16b
	and	x12, x10, #0xff
	ubfx	x11, x10, #8, #8
	ubfx	x13, x10, #16, #8
	fmov	w9, s4
	fmov	d21, x12
	ldr	q7, [x8, x12, lsl #4]
	fmov	d23, x11
	ldr	q4, [x8, x13, lsl #4]
	fmov	d19, x13
	ldr	q18, [x8, x11, lsl #4]
	adrp	x13, .LCPI44_2
	lsr	x10, x10, #24
	and	x11, x9, #0xff
	cnt	v21.8b, v21.8b
	ubfx	x12, x9, #8, #8
	fmov	d24, x11
	ldr	q25, [x13, :lo12:.LCPI44_2]
	cnt	v23.8b, v23.8b
	ldr	q22, [x8, x11, lsl #4]
	ldr	q26, [x8, x12, lsl #4]
	cnt	v19.8b, v19.8b
	tbl	v2.16b, { v2.16b, v3.16b }, v25.16b
	fmov	d3, x12
	tbl	v0.16b, { v0.16b, v1.16b }, v25.16b
	cnt	v24.8b, v24.8b
	fmov	w11, s21
	ldr	q1, [x8, x10, lsl #4]
	fmov	d25, x10
	adrp	x10, .LCPI44_3
	adrp	x12, .LCPI44_4
	fmov	w13, s23
	cnt	v3.8b, v3.8b
	ldr	q21, [x10, :lo12:.LCPI44_3]
	ubfx	x10, x9, #16, #8
	ldr	q23, [x12, :lo12:.LCPI44_4]
	add	x11, x2, x11
	fmov	w12, s24
	add	x11, x11, #4
	lsr	x9, x9, #24
	tbl	v24.16b, { v16.16b, v17.16b }, v21.16b
	tbl	v21.16b, { v5.16b, v6.16b }, v21.16b
	tbl	v16.16b, { v16.16b, v17.16b }, v23.16b
	tbl	v5.16b, { v5.16b, v6.16b }, v23.16b
	ldr	q6, [x8, x10, lsl #4]
	fmov	d17, x10
	add	x10, x13, x11
	cnt	v23.8b, v25.8b
	fmov	w13, s3
	add	x10, x10, #4
	ldr	q3, [x8, x9, lsl #4]
	fmov	d25, x9
	add	x8, x10, x12
	fmov	w9, s19
	cnt	v17.8b, v17.8b
	add	x8, x8, #4
	tbl	v7.16b, { v20.16b }, v7.16b
	tbl	v0.16b, { v0.16b }, v18.16b
	add	x12, x13, x8
	fmov	w13, s23
	cnt	v18.8b, v25.8b
	add	x12, x12, #4
	tbl	v19.16b, { v21.16b }, v22.16b
	tbl	v5.16b, { v5.16b }, v26.16b
	add	x9, x9, x12
	fmov	w14, s17
	str	q7, [x1, x2]
	add	x9, x9, #4
	str	q0, [x1, x11]
	tbl	v4.16b, { v27.16b }, v4.16b
	add	x11, x13, x9
	tbl	v0.16b, { v2.16b }, v1.16b
	str	q19, [x1, x10]
	add	x10, x11, #4
	fmov	w11, s18
	tbl	v1.16b, { v24.16b }, v6.16b
	str	q5, [x1, x8]
	add	x8, x14, x10
	tbl	v2.16b, { v16.16b }, v3.16b
	add	x8, x8, #4
	str	q4, [x1, x12]
	str	q0, [x1, x9]
	add	x9, x11, x8
	str	q1, [x1, x10]
	add	x0, x9, #4
	str	q2, [x1, x8]
	ldp	d9, d8, [sp], #16               // 16-byte Folded Reload
	.cfi_def_cfa_offset 0
	.cfi_restore b8
	.cfi_restore b9
	ret
.LBB44_3:                               // %start.split
	.cfi_restore_state
	.cfi_remember_state
	movi	v4.16b, #60
	shl	v6.16b, v2.16b, #2
	adrp	x8, .LCPI44_0
	shl	v7.16b, v3.16b, #2
	movi	v18.16b, #48
	movi	v20.16b, #12
	shl	v17.16b, v1.16b, #4
	movi	v22.16b, #2
	movi	v23.16b, #192
	ushr	v24.16b, v0.16b, #6
	movi	v26.16b, #8
	ushr	v25.16b, v1.16b, #6
	and	v19.16b, v6.16b, v4.16b
	and	v21.16b, v7.16b, v4.16b
	shl	v4.16b, v0.16b, #4
	and	v17.16b, v17.16b, v18.16b
	movi	v29.16b, #216
	movi	v31.16b, #63
	movi	v9.16b, #224
	movi	v8.16b, #224
	usra	v19.16b, v0.16b, #6
	and	v27.16b, v4.16b, v18.16b
	and	v18.16b, v7.16b, v20.16b
	and	v20.16b, v6.16b, v20.16b
	movi	v4.16b, #128
	usra	v21.16b, v1.16b, #6
	cmeq	v16.16b, v16.16b, v29.16b
	cmeq	v5.16b, v5.16b, v29.16b
	cmhi	v6.16b, v22.16b, v19.16b
	orr	v28.16b, v19.16b, v23.16b
	ext	v30.16b, v17.16b, v27.16b, #15
	orr	v20.16b, v24.16b, v20.16b
	cmhi	v7.16b, v22.16b, v21.16b
	orr	v22.16b, v21.16b, v23.16b
	ext	v27.16b, v27.16b, v17.16b, #15
	orr	v24.16b, v25.16b, v18.16b
	cmhi	v17.16b, v26.16b, v2.16b
	bic	v25.16b, v28.16b, v6.16b
	orr	v19.16b, v19.16b, v4.16b
	cmhi	v18.16b, v26.16b, v3.16b
	orr	v20.16b, v20.16b, v4.16b
	bic	v22.16b, v22.16b, v7.16b
	orr	v21.16b, v21.16b, v4.16b
	orr	v24.16b, v24.16b, v4.16b
	movi	v26.16b, #252
	movi	v28.16b, #240
	bit	v19.16b, v25.16b, v17.16b
	cmhi	v25.16b, v23.16b, v0.16b
	cmhi	v23.16b, v23.16b, v1.16b
	orr	v20.16b, v20.16b, v30.16b
	bit	v21.16b, v22.16b, v18.16b
	movi	v30.16b, #3
	orr	v22.16b, v24.16b, v27.16b
	movi	v27.16b, #241
	and	v7.16b, v18.16b, v7.16b
	and	v24.16b, v2.16b, v26.16b
	and	v6.16b, v17.16b, v6.16b
	usra	v9.16b, v3.16b, #4
	bit	v19.16b, v20.16b, v5.16b
	mov	v20.16b, v16.16b
	usra	v8.16b, v2.16b, #4
	bsl	v23.16b, v28.16b, v27.16b
	bsl	v25.16b, v28.16b, v27.16b
	and	v27.16b, v3.16b, v30.16b
	bsl	v20.16b, v22.16b, v21.16b
	and	v21.16b, v3.16b, v26.16b
	movi	v22.16b, #16
	movi	v26.16b, #16
	and	v28.16b, v2.16b, v30.16b
	and	v30.16b, v1.16b, v31.16b
	cmeq	v24.16b, v24.16b, v29.16b
	orr	v3.16b, v18.16b, v16.16b
	ldr	q18, [x8, :lo12:.LCPI44_0]
	adrp	x8, .LCPI44_1
	cmeq	v21.16b, v21.16b, v29.16b
	and	v29.16b, v0.16b, v31.16b
	usra	v22.16b, v1.16b, #2
	add	v23.16b, v27.16b, v23.16b
	orr	v27.16b, v30.16b, v4.16b
	usra	v26.16b, v0.16b, #2
	add	v25.16b, v28.16b, v25.16b
	orr	v2.16b, v17.16b, v5.16b
	orr	v28.16b, v29.16b, v4.16b
	mov	v5.16b, v21.16b
	bic	v16.16b, v9.16b, v3.16b
	and	v22.16b, v22.16b, v31.16b
	bif	v1.16b, v27.16b, v7.16b
	mov	v3.16b, v21.16b
	and	v26.16b, v26.16b, v31.16b
	bic	v17.16b, v8.16b, v2.16b
	bif	v0.16b, v28.16b, v6.16b
	mov	v6.16b, v24.16b
	bsl	v5.16b, v23.16b, v20.16b
	orr	v7.16b, v26.16b, v4.16b
	orr	v4.16b, v22.16b, v4.16b
	bsl	v6.16b, v25.16b, v19.16b
	bsl	v3.16b, v4.16b, v1.16b
	mov	v1.16b, v24.16b
	zip1	v2.16b, v16.16b, v5.16b
	zip2	v4.16b, v16.16b, v5.16b
	bsl	v1.16b, v7.16b, v0.16b
	zip1	v0.16b, v17.16b, v6.16b
	zip2	v6.16b, v17.16b, v6.16b
	cmlt	v16.16b, v2.16b, #0
	cmlt	v19.16b, v4.16b, #0
	mov	v5.16b, v3.16b
	cmlt	v17.16b, v0.16b, #0
	cmlt	v20.16b, v6.16b, #0
	and	v16.16b, v16.16b, v18.16b
	mov	v7.16b, v1.16b
	and	v17.16b, v17.16b, v18.16b
	and	v20.16b, v20.16b, v18.16b
	and	v18.16b, v19.16b, v18.16b
	addp	v16.16b, v17.16b, v16.16b
	addp	v17.16b, v20.16b, v18.16b
	addp	v16.16b, v16.16b, v16.16b
	addp	v17.16b, v17.16b, v17.16b
	addp	v16.16b, v16.16b, v16.16b
	addp	v18.16b, v17.16b, v17.16b
	ldr	q17, [x8, :lo12:.LCPI44_1]
	adrp	x8, .Lstatic.20
	add	x8, x8, :lo12:.Lstatic.20
	tbl	v20.16b, { v2.16b, v3.16b }, v17.16b
	tbl	v17.16b, { v0.16b, v1.16b }, v17.16b
	fmov	w10, s16
	fmov	w9, s18
	and	x12, x10, #0xff
	ubfx	x11, x10, #16, #8
	and	x13, x9, #0xff
	ldr	q16, [x8, x12, lsl #4]
	fmov	d18, x12
	ubfx	x12, x10, #8, #8
	fmov	d22, x13
	ubfx	x14, x9, #8, #8
	fmov	d24, x11
	fmov	d26, x12
	ldr	q19, [x8, x11, lsl #4]
	lsr	x10, x10, #24
	cnt	v21.8b, v18.8b
	ldr	q18, [x8, x13, lsl #4]
	adrp	x13, .LCPI44_2
	ldr	q23, [x13, :lo12:.LCPI44_2]
	cnt	v24.8b, v24.8b
	cnt	v22.8b, v22.8b
	cnt	v26.8b, v26.8b
	ldr	q25, [x8, x12, lsl #4]
	adrp	x12, .LCPI44_3
	tbl	v2.16b, { v2.16b, v3.16b }, v23.16b
	fmov	d3, x14
	tbl	v0.16b, { v0.16b, v1.16b }, v23.16b
	fmov	w11, s21
	ldr	q21, [x8, x14, lsl #4]
	ldr	q23, [x12, :lo12:.LCPI44_3]
	ubfx	x12, x9, #16, #8
	adrp	x13, .LCPI44_4
	ldr	q1, [x8, x10, lsl #4]
	fmov	w14, s26
	cnt	v3.8b, v3.8b
	fmov	d26, x10
	add	x11, x2, x11
	lsr	x9, x9, #24
	tbl	v16.16b, { v17.16b }, v16.16b
	add	x10, x11, #4
	fmov	w11, s24
	ldr	q24, [x13, :lo12:.LCPI44_4]
	fmov	w13, s22
	add	x14, x14, x10
	fmov	d17, x12
	fmov	w15, s3
	add	x14, x14, #4
	cnt	v26.8b, v26.8b
	ldr	q22, [x8, x12, lsl #4]
	tbl	v3.16b, { v6.16b, v7.16b }, v23.16b
	tbl	v6.16b, { v6.16b, v7.16b }, v24.16b
	add	x12, x14, x13
	fmov	d7, x9
	tbl	v0.16b, { v0.16b }, v25.16b
	ldr	q25, [x8, x9, lsl #4]
	add	x8, x12, #4
	cnt	v17.8b, v17.8b
	add	x9, x15, x8
	fmov	w12, s26
	tbl	v23.16b, { v4.16b, v5.16b }, v23.16b
	add	x9, x9, #4
	cnt	v7.8b, v7.8b
	tbl	v4.16b, { v4.16b, v5.16b }, v24.16b
	add	x11, x11, x9
	tbl	v3.16b, { v3.16b }, v18.16b
	tbl	v6.16b, { v6.16b }, v21.16b
	add	x11, x11, #4
	fmov	w13, s17
	str	q16, [x1, x2]
	str	q0, [x1, x10]
	add	x10, x12, x11
	tbl	v5.16b, { v20.16b }, v19.16b
	add	x10, x10, #4
	fmov	w12, s7
	tbl	v0.16b, { v2.16b }, v1.16b
	str	q3, [x1, x14]
	tbl	v1.16b, { v23.16b }, v22.16b
	tbl	v2.16b, { v4.16b }, v25.16b
	str	q6, [x1, x8]
	add	x8, x13, x10
	add	x8, x8, #4
	str	q5, [x1, x9]
	add	x9, x12, x8
	str	q0, [x1, x11]
	str	q1, [x1, x10]
	add	x0, x9, #2
	str	q2, [x1, x8]
	ldp	d9, d8, [sp], #16               // 16-byte Folded Reload
	.cfi_def_cfa_offset 0
	.cfi_restore b8
	.cfi_restore b9
	ret
.LBB44_4:                               // %then.5
	.cfi_restore_state
	.cfi_remember_state
	movi	v5.16b, #7
	cmhi	v6.16b, v3.16b, v5.16b
	cmhi	v5.16b, v2.16b, v5.16b
	and	v5.16b, v5.16b, v4.16b
	and	v6.16b, v6.16b, v4.16b
	addp	v5.16b, v5.16b, v6.16b
	addp	v5.16b, v5.16b, v5.16b
	addp	v5.16b, v5.16b, v5.16b
	fmov	w8, s5
	cbz	w8, .LBB44_6
// %bb.5:                               // %then.1.i
	movi	v5.16b, #60
	shl	v6.16b, v3.16b, #2
	adrp	x9, .LCPI44_1
	shl	v7.16b, v2.16b, #2
	movi	v16.16b, #192
	adrp	x10, .LCPI44_2
	movi	v17.16b, #8
	movi	v19.16b, #63
	adrp	x11, .LCPI44_4
	movi	v18.16b, #128
	movi	v20.16b, #224
	adrp	x8, .Lstatic.20
	add	x8, x8, :lo12:.Lstatic.20
	and	v6.16b, v6.16b, v5.16b
	and	v5.16b, v7.16b, v5.16b
	movi	v7.16b, #2
	movi	v21.16b, #224
	cmhi	v24.16b, v17.16b, v2.16b
	cmhi	v17.16b, v17.16b, v3.16b
	and	v25.16b, v1.16b, v19.16b
	usra	v6.16b, v1.16b, #6
	usra	v5.16b, v0.16b, #6
	and	v19.16b, v0.16b, v19.16b
	usra	v20.16b, v3.16b, #4
	usra	v21.16b, v2.16b, #4
	orr	v2.16b, v25.16b, v18.16b
	cmhi	v22.16b, v7.16b, v6.16b
	cmhi	v7.16b, v7.16b, v5.16b
	orr	v23.16b, v6.16b, v16.16b
	orr	v16.16b, v5.16b, v16.16b
	orr	v5.16b, v5.16b, v18.16b
	orr	v6.16b, v6.16b, v18.16b
	orr	v19.16b, v19.16b, v18.16b
	bic	v18.16b, v21.16b, v24.16b
	bic	v23.16b, v23.16b, v22.16b
	and	v3.16b, v17.16b, v22.16b
	ldr	q22, [x11, :lo12:.LCPI44_4]
	bic	v16.16b, v16.16b, v7.16b
	and	v7.16b, v24.16b, v7.16b
	bit	v6.16b, v23.16b, v17.16b
	bsl	v3.16b, v1.16b, v2.16b
	bit	v5.16b, v16.16b, v24.16b
	mov	v1.16b, v7.16b
	bic	v16.16b, v20.16b, v17.16b
	bsl	v1.16b, v0.16b, v19.16b
	zip1	v2.16b, v16.16b, v6.16b
	zip2	v16.16b, v16.16b, v6.16b
	zip1	v0.16b, v18.16b, v5.16b
	zip2	v5.16b, v18.16b, v5.16b
	cmlt	v7.16b, v2.16b, #0
	cmlt	v19.16b, v16.16b, #0
	mov	v17.16b, v3.16b
	cmlt	v18.16b, v0.16b, #0
	cmlt	v20.16b, v5.16b, #0
	mov	v6.16b, v1.16b
	and	v7.16b, v7.16b, v4.16b
	and	v18.16b, v18.16b, v4.16b
	and	v20.16b, v20.16b, v4.16b
	and	v4.16b, v19.16b, v4.16b
	addp	v7.16b, v18.16b, v7.16b
	addp	v4.16b, v20.16b, v4.16b
	ldr	q18, [x9, :lo12:.LCPI44_1]
	adrp	x9, .LCPI44_3
	ldr	q20, [x10, :lo12:.LCPI44_2]
	ldr	q21, [x9, :lo12:.LCPI44_3]
	addp	v7.16b, v7.16b, v7.16b
	addp	v4.16b, v4.16b, v4.16b
	addp	v19.16b, v7.16b, v7.16b
	addp	v23.16b, v4.16b, v4.16b
	tbl	v7.16b, { v2.16b, v3.16b }, v18.16b
	tbl	v18.16b, { v0.16b, v1.16b }, v18.16b
	tbl	v4.16b, { v2.16b, v3.16b }, v20.16b
	tbl	v2.16b, { v0.16b, v1.16b }, v20.16b
	tbl	v1.16b, { v16.16b, v17.16b }, v21.16b
	tbl	v0.16b, { v16.16b, v17.16b }, v22.16b
	tbl	v3.16b, { v5.16b, v6.16b }, v21.16b
	fmov	w9, s19
	fmov	w10, s23
	tbl	v5.16b, { v5.16b, v6.16b }, v22.16b
	and	x11, x9, #0xff
	ubfx	x12, x9, #8, #8
	and	x13, x10, #0xff
	fmov	d17, x11
	fmov	d21, x13
	ldr	q16, [x8, x11, lsl #4]
	fmov	d19, x12
	ubfx	x11, x9, #16, #8
	ldr	q20, [x8, x13, lsl #4]
	lsr	x9, x9, #24
	tbl	v16.16b, { v18.16b }, v16.16b
	ubfx	x13, x10, #16, #8
	cnt	v6.8b, v17.8b
	ldr	q17, [x8, x12, lsl #4]
	ubfx	x12, x10, #8, #8
	cnt	v19.8b, v19.8b
	cnt	v21.8b, v21.8b
	tbl	v3.16b, { v3.16b }, v20.16b
	fmov	d22, x12
	fmov	d20, x9
	ldr	q18, [x8, x11, lsl #4]
	lsr	x10, x10, #24
	tbl	v2.16b, { v2.16b }, v17.16b
	fmov	d17, x13
	fmov	w14, s6
	ldr	q6, [x8, x12, lsl #4]
	tbl	v7.16b, { v7.16b }, v18.16b
	cnt	v22.8b, v22.8b
	fmov	w12, s19
	fmov	d19, x11
	fmov	w11, s21
	ldr	q21, [x8, x9, lsl #4]
	cnt	v20.8b, v20.8b
	add	x14, x2, x14
	cnt	v17.8b, v17.8b
	tbl	v5.16b, { v5.16b }, v6.16b
	add	x14, x14, #4
	cnt	v19.8b, v19.8b
	add	x9, x12, x14
	fmov	w12, s22
	ldr	q22, [x8, x13, lsl #4]
	add	x9, x9, #4
	add	x11, x9, x11
	tbl	v1.16b, { v1.16b }, v22.16b
	add	x11, x11, #4
	fmov	w13, s19
	ldr	q19, [x8, x10, lsl #4]
	add	x8, x12, x11
	fmov	w12, s20
	fmov	d20, x10
	add	x8, x8, #4
	str	q16, [x1, x2]
	tbl	v0.16b, { v0.16b }, v19.16b
	add	x10, x13, x8
	fmov	w13, s17
	str	q2, [x1, x14]
	cnt	v20.8b, v20.8b
	add	x10, x10, #4
	tbl	v2.16b, { v4.16b }, v21.16b
	add	x12, x12, x10
	str	q3, [x1, x9]
	add	x9, x12, #4
	str	q5, [x1, x11]
	add	x11, x13, x9
	str	q7, [x1, x8]
	fmov	w12, s20
	add	x8, x11, #4
	str	q2, [x1, x10]
	str	q1, [x1, x9]
	str	q0, [x1, x8]
	add	x10, x12, x8
	add	x0, x10, #4
	ldp	d9, d8, [sp], #16               // 16-byte Folded Reload
	.cfi_def_cfa_offset 0
	.cfi_restore b8
	.cfi_restore b9
	ret
.LBB44_6:                               // %join.3.i
	.cfi_restore_state
	.cfi_remember_state
	ushr	v5.16b, v1.16b, #7
	ushr	v6.16b, v0.16b, #7
	orr	v6.16b, v2.16b, v6.16b
	orr	v5.16b, v3.16b, v5.16b
	cmeq	v5.16b, v5.16b, #0
	cmeq	v6.16b, v6.16b, #0
	bic	v6.16b, v4.16b, v6.16b
	bic	v5.16b, v4.16b, v5.16b
	addp	v5.16b, v6.16b, v5.16b
	addp	v5.16b, v5.16b, v5.16b
	addp	v5.16b, v5.16b, v5.16b
	fmov	w8, s5
	cbz	w8, .LBB44_8
// %bb.7:                               // %join.6.i
	movi	v5.16b, #60
	shl	v6.16b, v3.16b, #2
	adrp	x12, .Lstatic.19
	add	x12, x12, :lo12:.Lstatic.19
	shl	v7.16b, v2.16b, #2
	movi	v16.16b, #192
	movi	v17.16b, #8
	movi	v18.16b, #128
	and	v6.16b, v6.16b, v5.16b
	and	v5.16b, v7.16b, v5.16b
	movi	v7.16b, #2
	cmhi	v21.16b, v17.16b, v3.16b
	cmhi	v17.16b, v17.16b, v2.16b
	usra	v6.16b, v1.16b, #6
	usra	v5.16b, v0.16b, #6
	cmhi	v19.16b, v7.16b, v6.16b
	orr	v20.16b, v6.16b, v16.16b
	cmhi	v7.16b, v7.16b, v5.16b
	orr	v16.16b, v5.16b, v16.16b
	orr	v6.16b, v6.16b, v18.16b
	orr	v5.16b, v5.16b, v18.16b
	bic	v2.16b, v20.16b, v19.16b
	bic	v3.16b, v16.16b, v7.16b
	bif	v2.16b, v6.16b, v21.16b
	bif	v3.16b, v5.16b, v17.16b
	cmlt	v5.16b, v2.16b, #0
	cmlt	v6.16b, v3.16b, #0
	and	v6.16b, v6.16b, v4.16b
	and	v4.16b, v5.16b, v4.16b
	movi	v5.16b, #63
	addp	v4.16b, v6.16b, v4.16b
	and	v6.16b, v0.16b, v5.16b
	and	v5.16b, v1.16b, v5.16b
	addp	v4.16b, v4.16b, v4.16b
	orr	v5.16b, v5.16b, v18.16b
	addp	v4.16b, v4.16b, v4.16b
	fmov	w8, s4
	orr	v4.16b, v6.16b, v18.16b
	and	v6.16b, v17.16b, v7.16b
	and	v7.16b, v21.16b, v19.16b
	and	x9, x8, #0xff
	ubfx	x10, x8, #8, #8
	bif	v0.16b, v4.16b, v6.16b
	fmov	d16, x9
	bif	v1.16b, v5.16b, v7.16b
	ubfx	x11, x8, #16, #8
	fmov	d5, x10
	lsr	x8, x8, #24
	ldr	q6, [x12, x9, lsl #4]
	fmov	d7, x11
	cnt	v4.8b, v16.8b
	zip1	v16.16b, v3.16b, v0.16b
	zip2	v0.16b, v3.16b, v0.16b
	cnt	v5.8b, v5.8b
	fmov	d3, x8
	zip1	v17.16b, v2.16b, v1.16b
	zip2	v1.16b, v2.16b, v1.16b
	fmov	w9, s4
	cnt	v4.8b, v7.8b
	ldr	q7, [x12, x11, lsl #4]
	fmov	w11, s5
	cnt	v3.8b, v3.8b
	ldr	q5, [x12, x10, lsl #4]
	tbl	v2.16b, { v16.16b }, v6.16b
	add	x9, x2, x9
	tbl	v0.16b, { v0.16b }, v5.16b
	tbl	v5.16b, { v17.16b }, v7.16b
	fmov	w10, s4
	add	x9, x9, #8
	ldr	q4, [x12, x8, lsl #4]
	add	x8, x11, x9
	fmov	w11, s3
	str	q2, [x1, x2]
	add	x8, x8, #8
	tbl	v1.16b, { v1.16b }, v4.16b
	str	q0, [x1, x9]
	add	x10, x10, x8
	str	q5, [x1, x8]
	add	x10, x10, #8
	add	x9, x11, x10
	str	q1, [x1, x10]
	add	x0, x9, #8
	ldp	d9, d8, [sp], #16               // 16-byte Folded Reload
	.cfi_def_cfa_offset 0
	.cfi_restore b8
	.cfi_restore b9
	ret
.LBB44_8:                               // %then.4.i
	.cfi_restore_state
	add	x8, x1, x2
	add	x0, x2, #32
	stp	q0, q1, [x8]
	ldp	d9, d8, [sp], #16               // 16-byte Folded Reload
	.cfi_def_cfa_offset 0
	.cfi_restore b8
	.cfi_restore b9
	ret
.Lfunc_end44:
	.size	"utf_lanes::utf16_blocks::write_other_units", .Lfunc_end44-"utf_lanes::utf16_blocks::write_other_units"
	.cfi_endproc
                                        // -- End function
	.section	".text.recoding::engine::recode_faults::<#7de934f40f1f4d79>","ax",@progbits
	.p2align	2                               // -- Begin function recoding::engine::recode_faults::<#7de934f40f1f4d79>
	.type	"recoding::engine::recode_faults::<#7de934f40f1f4d79>",@function
"recoding::engine::recode_faults::<#7de934f40f1f4d79>": // @"recoding::engine::recode_faults::<#7de934f40f1f4d79>"
	.cfi_startproc
// %bb.0:                               // %start
	ldrb	w10, [x1]
	ldr	x11, [x1, #16]
	mov	x9, xzr
	mov	x8, xzr
	cmp	w10, #2
	ccmp	x11, #0, #0, eq
	mov	w11, #16                        // =0x10
	cset	w10, eq
	b	.LBB45_2
.LBB45_1:                               // %"recoding::text::Utf8Text::put_any::<#345d457c2768aa28>.exit"
                                        //   in Loop: Header=BB45_2 Depth=1
	add	x8, x8, #1
	mov	w12, #2                         // =0x2
	add	x9, x12, x9
	cmp	x9, x11
	b.hs	.LBB45_18
.LBB45_2:                               // %join.5
                                        // =>This Inner Loop Header: Depth=1
	add	x13, x9, #4
	add	x14, x2, x9
	cmp	x13, x3
	b.ls	.LBB45_7
// %bb.3:                               // %join.3.i74
                                        //   in Loop: Header=BB45_2 Depth=1
	sub	x15, x3, x9
	cmp	x15, #2
	b.lo	.LBB45_19
// %bb.4:                               // %join.3.i.i
                                        //   in Loop: Header=BB45_2 Depth=1
	ldrb	w16, [x14, #1]
	lsl	w12, w16, #8
	and	w17, w12, #0xfc00
	mov	w12, #56320                     // =0xdc00
	cmp	w17, w12
	b.eq	.LBB45_11
// %bb.5:                               // %join.3.i.i
                                        //   in Loop: Header=BB45_2 Depth=1
	ldrb	w12, [x14]
	mov	w1, #55296                      // =0xd800
	cmp	w17, w1
	bfi	w12, w16, #8, #8
	b.ne	.LBB45_13
// %bb.6:                               // %join.6.i.i
                                        //   in Loop: Header=BB45_2 Depth=1
	cmp	x15, #4
	b.hs	.LBB45_9
	b	.LBB45_19
.LBB45_7:                               // %then.1.i69
                                        //   in Loop: Header=BB45_2 Depth=1
	ldrb	w15, [x14, #1]
	lsl	w12, w15, #8
	and	w16, w12, #0xfc00
	mov	w12, #56320                     // =0xdc00
	cmp	w16, w12
	b.eq	.LBB45_11
// %bb.8:                               // %then.1.i69
                                        //   in Loop: Header=BB45_2 Depth=1
	ldrb	w12, [x14]
	mov	w17, #55296                     // =0xd800
	cmp	w16, w17
	bfi	w12, w15, #8, #8
	b.ne	.LBB45_13
.LBB45_9:                               // %join.15.i258.i
                                        //   in Loop: Header=BB45_2 Depth=1
	ldrb	w15, [x14, #3]
	and	w16, w15, #0xfc
	cmp	w16, #220
	b.ne	.LBB45_11
// %bb.10:                              // %arm.14.i109.i
                                        //   in Loop: Header=BB45_2 Depth=1
	ldrb	w13, [x14, #2]
	mov	w16, #32768                     // =0x8000
	bfi	w13, w15, #8, #2
	ldp	x15, x14, [x4]
	bfi	w13, w12, #10, #10
	add	w12, w13, #16, lsl #12          // =65536
	lsr	w13, w12, #18
	bfxil	w16, w12, #4, #14
	orr	w13, w13, #0xf0
	strb	w13, [x15, x14]
	lsr	w15, w16, #8
	ldr	x13, [x4]
	add	x13, x13, x14
	strb	w15, [x13, #1]
	mov	w13, #128                       // =0x80
	ldr	x15, [x4]
	bfxil	w13, w12, #6, #6
	add	x15, x15, x14
	strb	w13, [x15, #2]
	mov	w13, #128                       // =0x80
	ldr	x15, [x4]
	bfxil	w13, w12, #0, #6
	add	x12, x15, x14
	add	x14, x14, #4
	strb	w13, [x12, #3]
	mov	w12, #4                         // =0x4
	str	x14, [x4, #8]
	add	x9, x12, x9
	cmp	x9, x11
	b.lo	.LBB45_2
	b	.LBB45_18
.LBB45_11:                              // %arm.11
                                        //   in Loop: Header=BB45_2 Depth=1
	cmp	x13, #32
	mov	w11, #32                        // =0x20
	csel	x11, x13, x11, lo
	tbnz	w10, #0, .LBB45_1
// %bb.12:                              // %then.7.i.i.i
                                        //   in Loop: Header=BB45_2 Depth=1
	ldp	x13, x12, [x4]
	mov	w14, #239                       // =0xef
	strb	w14, [x13, x12]
	mov	w14, #191                       // =0xbf
	ldr	x13, [x4]
	add	x13, x13, x12
	strb	w14, [x13, #1]
	mov	w14, #189                       // =0xbd
	ldr	x13, [x4]
	add	x13, x13, x12
	add	x12, x12, #3
	strb	w14, [x13, #2]
	str	x12, [x4, #8]
	b	.LBB45_1
.LBB45_13:                              // %arm.10
                                        //   in Loop: Header=BB45_2 Depth=1
	cmp	w12, #128
	b.hs	.LBB45_15
// %bb.14:                              // %then.1.i
                                        //   in Loop: Header=BB45_2 Depth=1
	ldp	x14, x13, [x4]
	strb	w12, [x14, x13]
	add	x12, x13, #1
	str	x12, [x4, #8]
	mov	w12, #2                         // =0x2
	add	x9, x12, x9
	cmp	x9, x11
	b.lo	.LBB45_2
	b	.LBB45_18
.LBB45_15:                              // %join.3.i
                                        //   in Loop: Header=BB45_2 Depth=1
	mov	w13, #128                       // =0x80
	cmp	w12, #2048
	mov	w14, #128                       // =0x80
	bfxil	w13, w12, #0, #6
	b.hs	.LBB45_17
// %bb.16:                              // %then.4.i
                                        //   in Loop: Header=BB45_2 Depth=1
	ldp	x15, x14, [x4]
	lsr	w12, w12, #6
	orr	w12, w12, #0xc0
	strb	w12, [x15, x14]
	ldr	x12, [x4]
	add	x12, x12, x14
	add	x14, x14, #2
	strb	w13, [x12, #1]
	str	x14, [x4, #8]
	mov	w12, #2                         // =0x2
	add	x9, x12, x9
	cmp	x9, x11
	b.lo	.LBB45_2
	b	.LBB45_18
.LBB45_17:                              // %then.7.i
                                        //   in Loop: Header=BB45_2 Depth=1
	ldp	x17, x16, [x4]
	lsr	w15, w12, #12
	bfxil	w14, w12, #6, #6
	orr	w15, w15, #0xe0
	strb	w15, [x17, x16]
	ldr	x15, [x4]
	add	x12, x15, x16
	strb	w14, [x12, #1]
	add	x14, x16, #3
	ldr	x12, [x4]
	add	x12, x12, x16
	strb	w13, [x12, #2]
	str	x14, [x4, #8]
	mov	w12, #2                         // =0x2
	add	x9, x12, x9
	cmp	x9, x11
	b.lo	.LBB45_2
.LBB45_18:                              // %after.1
	stp	x9, x8, [x0]
	str	xzr, [x0, #16]
	ret
.LBB45_19:                              // %arm.7
	stp	x9, x8, [x0]
	mov	w8, #256                        // =0x100
	strh	w8, [x0, #16]
	stur	wzr, [x0, #18]
	strh	wzr, [x0, #22]
	ret
.Lfunc_end45:
	.size	"recoding::engine::recode_faults::<#7de934f40f1f4d79>", .Lfunc_end45-"recoding::engine::recode_faults::<#7de934f40f1f4d79>"
	.cfi_endproc
                                        // -- End function
	.section	".text.recoding::recoder_runs::run_whole::<#06163603a29b5506>","ax",@progbits
	.p2align	2                               // -- Begin function recoding::recoder_runs::run_whole::<#06163603a29b5506>
	.type	"recoding::recoder_runs::run_whole::<#06163603a29b5506>",@function
"recoding::recoder_runs::run_whole::<#06163603a29b5506>": // @"recoding::recoder_runs::run_whole::<#06163603a29b5506>"
	.cfi_startproc
// %bb.0:                               // %start
	sub	sp, sp, #128
	.cfi_def_cfa_offset 128
	stp	x29, x30, [sp, #64]             // 16-byte Folded Spill
	str	x23, [sp, #80]                  // 8-byte Spill
	stp	x22, x21, [sp, #96]             // 16-byte Folded Spill
	stp	x20, x19, [sp, #112]            // 16-byte Folded Spill
	add	x29, sp, #64
	.cfi_def_cfa w29, 64
	.cfi_offset w19, -8
	.cfi_offset w20, -16
	.cfi_offset w21, -24
	.cfi_offset w22, -32
	.cfi_offset w23, -48
	.cfi_offset w30, -56
	.cfi_offset w29, -64
	mov	x22, x2
	mov	x21, x1
	mov	x23, x0
	mov	x19, xzr
	mov	x20, xzr
	b	.LBB46_2
.LBB46_1:                               // %"recoding::kernels::put_damaged_units::<#aa1056a8666f8679>.exit"
                                        //   in Loop: Header=BB46_2 Depth=1
	add	x0, x23, x20
	mov	x2, x22
	bl	"recoding::kernels::put_windows::<#aa1056a8666f8679>"
	add	x20, x0, x20
	add	x19, x1, x19
	cbz	x0, .LBB46_7
.LBB46_2:                               // %loop.2.i
                                        // =>This Loop Header: Depth=1
                                        //     Child Loop BB46_9 Depth 2
	sub	x8, x21, x20
	cmp	x8, #16
	b.lo	.LBB46_4
// %bb.3:                               // %"recoding::kernels::TurnedKernelUtf16Utf16::put_text::<#26d690266811ceeb>.exit"
                                        //   in Loop: Header=BB46_2 Depth=1
	add	x0, x23, x20
	sub	x1, x21, x20
	mov	x2, x22
	bl	"recoding::turned::copy_units::<#aa491edf3e91f816>"
	lsr	x8, x0, #2
	add	x20, x0, x20
	cmp	x8, #2046
	b.hi	.LBB46_2
.LBB46_4:                               // %join.5.i
                                        //   in Loop: Header=BB46_2 Depth=1
	subs	x1, x21, x20
	b.eq	.LBB46_19
// %bb.5:                               // %join.8.i
                                        //   in Loop: Header=BB46_2 Depth=1
	cmp	x1, #64
	b.hs	.LBB46_1
// %bb.6:                               // %join.14.i
                                        //   in Loop: Header=BB46_2 Depth=1
	cmp	x1, #128
	mov	w8, #128                        // =0x80
	csel	x9, x1, x8, lo
	cmp	x1, #2
	b.hs	.LBB46_8
	b	.LBB46_16
.LBB46_7:                               // %"recoding::kernels::put_damaged_units::<#aa1056a8666f8679>.exit.join.14.i_crit_edge"
                                        //   in Loop: Header=BB46_2 Depth=1
	sub	x1, x21, x20
	cmp	x1, #128
	mov	w8, #128                        // =0x80
	csel	x9, x1, x8, lo
	cmp	x1, #2
	b.lo	.LBB46_16
.LBB46_8:                               // %join.5.i39.preheader
                                        //   in Loop: Header=BB46_2 Depth=1
	mov	x8, xzr
	add	x10, x23, x20
	mov	x14, x9
.LBB46_9:                               // %join.5.i39
                                        //   Parent Loop BB46_2 Depth=1
                                        // =>  This Inner Loop Header: Depth=2
	add	x13, x10, x8
	mov	w16, #55296                     // =0xd800
	ldrb	w11, [x13, #1]
	lsl	w12, w11, #8
	and	w15, w12, #0xfc00
	ldrb	w12, [x13]
	cmp	w15, w16
	b.eq	.LBB46_12
// %bb.10:                              // %join.5.i39
                                        //   in Loop: Header=BB46_9 Depth=2
	mov	w13, #56320                     // =0xdc00
	cmp	w15, w13
	b.eq	.LBB46_15
// %bb.11:                              // %arm.7.i.thread
                                        //   in Loop: Header=BB46_9 Depth=2
	ldp	x14, x13, [x22]
	strb	w12, [x14, x13]
	ldr	x12, [x22]
	add	x12, x12, x13
	strb	w11, [x12, #1]
	add	x11, x13, #2
	mov	w12, #2                         // =0x2
	add	x8, x12, x8
	str	x11, [x22, #8]
	sub	x14, x9, x8
	cmp	x14, #1
	b.hi	.LBB46_9
	b	.LBB46_15
.LBB46_12:                              // %join.6.i.i
                                        //   in Loop: Header=BB46_9 Depth=2
	cmp	x14, #4
	b.lo	.LBB46_15
// %bb.13:                              // %join.15.i71.i.i
                                        //   in Loop: Header=BB46_9 Depth=2
	ldrb	w14, [x13, #3]
	and	w15, w14, #0xfc
	cmp	w15, #220
	b.ne	.LBB46_15
// %bb.14:                              // %arm.7.i
                                        //   in Loop: Header=BB46_9 Depth=2
	ldp	x16, x15, [x22]
	ldrb	w13, [x13, #2]
	strb	w12, [x16, x15]
	mov	w12, #216                       // =0xd8
	ldr	x16, [x22]
	bfxil	w12, w11, #0, #2
	add	x11, x16, x15
	strb	w12, [x11, #1]
	mov	w12, #4                         // =0x4
	ldr	x11, [x22]
	add	x11, x11, x15
	strb	w13, [x11, #2]
	ldr	x11, [x22]
	add	x11, x11, x15
	strb	w14, [x11, #3]
	add	x11, x15, #4
	add	x8, x12, x8
	str	x11, [x22, #8]
	sub	x14, x9, x8
	cmp	x14, #1
	b.hi	.LBB46_9
.LBB46_15:                              // %"recoding::engine::recode_text::<#b66b510b4b49ed00>.exit"
                                        //   in Loop: Header=BB46_2 Depth=1
	cmp	x8, #124
	add	x20, x8, x20
	b.hi	.LBB46_2
.LBB46_16:                              // %then.15.i
                                        //   in Loop: Header=BB46_2 Depth=1
	subs	x3, x21, x20
	b.eq	.LBB46_19
// %bb.17:                              // %join.20.i
                                        //   in Loop: Header=BB46_2 Depth=1
	movi	v0.2d, #0000000000000000
	sub	x0, x29, #24
	mov	x1, sp
	add	x2, x23, x20
	mov	x4, x22
	stp	xzr, xzr, [x29, #-16]
	stur	xzr, [x29, #-24]
	str	xzr, [sp, #32]
	stp	q0, q0, [sp]
	bl	"recoding::engine::recode_faults::<#f602c80ce4e2d1ec>"
	ldp	x8, x9, [x29, #-24]
	ldurb	w10, [x29, #-8]
	add	x20, x8, x20
	add	x19, x9, x19
	tbnz	w10, #0, .LBB46_20
// %bb.18:                              // %join.20.i
                                        //   in Loop: Header=BB46_2 Depth=1
	ldurb	w8, [x29, #-7]
	tbz	w8, #0, .LBB46_2
	b	.LBB46_20
.LBB46_19:
	mov	x20, x21
.LBB46_20:                              // %"recoding::engine::run::<#3c5d2106b1fc9a19>.exit"
	mov	x0, x20
	mov	x1, x19
	.cfi_def_cfa wsp, 128
	ldp	x20, x19, [sp, #112]            // 16-byte Folded Reload
	ldr	x23, [sp, #80]                  // 8-byte Reload
	ldp	x22, x21, [sp, #96]             // 16-byte Folded Reload
	ldp	x29, x30, [sp, #64]             // 16-byte Folded Reload
	add	sp, sp, #128
	.cfi_def_cfa_offset 0
	.cfi_restore w19
	.cfi_restore w20
	.cfi_restore w21
	.cfi_restore w22
	.cfi_restore w23
	.cfi_restore w30
	.cfi_restore w29
	ret
.Lfunc_end46:
	.size	"recoding::recoder_runs::run_whole::<#06163603a29b5506>", .Lfunc_end46-"recoding::recoder_runs::run_whole::<#06163603a29b5506>"
	.cfi_endproc
                                        // -- End function
	.section	.rodata.cst16,"aM",@progbits,16
	.p2align	4, 0x0                          // -- Begin function recoding::turned::copy_units::<#aa491edf3e91f816>
.LCPI47_0:
	.byte	1                               // 0x1
	.byte	2                               // 0x2
	.byte	4                               // 0x4
	.byte	8                               // 0x8
	.byte	16                              // 0x10
	.byte	32                              // 0x20
	.byte	64                              // 0x40
	.byte	128                             // 0x80
	.byte	1                               // 0x1
	.byte	2                               // 0x2
	.byte	4                               // 0x4
	.byte	8                               // 0x8
	.byte	16                              // 0x10
	.byte	32                              // 0x20
	.byte	64                              // 0x40
	.byte	128                             // 0x80
	.section	".text.recoding::turned::copy_units::<#aa491edf3e91f816>","ax",@progbits
	.p2align	2
	.type	"recoding::turned::copy_units::<#aa491edf3e91f816>",@function
"recoding::turned::copy_units::<#aa491edf3e91f816>": // @"recoding::turned::copy_units::<#aa491edf3e91f816>"
	.cfi_startproc
// %bb.0:                               // %start
	sub	sp, sp, #96
	.cfi_def_cfa_offset 96
	stp	x29, x30, [sp, #32]             // 16-byte Folded Spill
	stp	x24, x23, [sp, #48]             // 16-byte Folded Spill
	stp	x22, x21, [sp, #64]             // 16-byte Folded Spill
	stp	x20, x19, [sp, #80]             // 16-byte Folded Spill
	add	x29, sp, #32
	.cfi_def_cfa w29, 64
	.cfi_offset w19, -8
	.cfi_offset w20, -16
	.cfi_offset w21, -24
	.cfi_offset w22, -32
	.cfi_offset w23, -40
	.cfi_offset w24, -48
	.cfi_offset w30, -56
	.cfi_offset w29, -64
	.cfi_remember_state
	ldr	q0, [x0]
	movi	v1.8h, #252, lsl #8
	strh	wzr, [sp]
	movi	v3.16b, #220
	movi	v4.16b, #216
	adrp	x8, .LCPI47_0
	stur	q0, [sp, #2]
	ldur	q0, [sp, #2]
	ldr	q2, [sp]
	and	v0.16b, v0.16b, v1.16b
	and	v1.16b, v2.16b, v1.16b
	cmeq	v0.16b, v0.16b, v3.16b
	cmeq	v1.16b, v1.16b, v4.16b
	eor	v1.16b, v1.16b, v0.16b
	ldr	q0, [x8, :lo12:.LCPI47_0]
	and	v1.16b, v1.16b, v0.16b
	addp	v1.16b, v1.16b, v1.16b
	addp	v1.16b, v1.16b, v1.16b
	addp	v1.16b, v1.16b, v1.16b
	umov	w8, v1.h[0]
	cbz	w8, .LBB47_3
// %bb.1:
	umov	w8, v1.h[0]
	rbit	w8, w8
	clz	w8, w8
	lsr	w8, w8, #1
	cbnz	x8, .LBB47_14
.LBB47_2:
	mov	x19, xzr
	b	.LBB47_24
.LBB47_3:                               // %loop.2.i.preheader.i
	subs	x8, x1, #80
	b.lo	.LBB47_9
// %bb.4:                               // %join.5.i.i.preheader
	lsr	x8, x8, #1
	add	x10, x0, #32
	sub	x11, x1, #16
	and	x8, x8, #0x7fffffffffffffe0
	add	x9, x8, #40
	mov	w8, #8                          // =0x8
.LBB47_5:                               // %join.5.i.i
                                        // =>This Inner Loop Header: Depth=1
	movi	v1.8h, #252, lsl #8
	ldp	q2, q6, [x10, #-16]
	ldp	q7, q18, [x10, #16]
	movi	v4.16b, #220
	ldur	q3, [x10, #-18]
	ldur	q16, [x10, #14]
	movi	v5.16b, #216
	ldur	q17, [x10, #-2]
	ldur	q19, [x10, #30]
	and	v2.16b, v2.16b, v1.16b
	and	v3.16b, v3.16b, v1.16b
	and	v7.16b, v7.16b, v1.16b
	and	v16.16b, v16.16b, v1.16b
	and	v6.16b, v6.16b, v1.16b
	and	v17.16b, v17.16b, v1.16b
	and	v18.16b, v18.16b, v1.16b
	and	v1.16b, v19.16b, v1.16b
	cmeq	v2.16b, v2.16b, v4.16b
	cmeq	v3.16b, v3.16b, v5.16b
	cmeq	v7.16b, v7.16b, v4.16b
	cmeq	v16.16b, v16.16b, v5.16b
	cmeq	v6.16b, v6.16b, v4.16b
	cmeq	v4.16b, v18.16b, v4.16b
	cmeq	v1.16b, v1.16b, v5.16b
	eor	v2.16b, v3.16b, v2.16b
	cmeq	v3.16b, v17.16b, v5.16b
	eor	v5.16b, v16.16b, v7.16b
	eor	v1.16b, v1.16b, v4.16b
	mvn	v2.16b, v2.16b
	eor	v3.16b, v3.16b, v6.16b
	mvn	v5.16b, v5.16b
	bic	v2.16b, v2.16b, v3.16b
	bic	v1.16b, v5.16b, v1.16b
	and	v1.16b, v2.16b, v1.16b
	bic	v1.16b, v0.16b, v1.16b
	addp	v1.16b, v1.16b, v1.16b
	addp	v1.16b, v1.16b, v1.16b
	addp	v1.16b, v1.16b, v1.16b
	umov	w12, v1.h[0]
	cbnz	w12, .LBB47_8
// %bb.6:                               // %join.8.i.i
                                        //   in Loop: Header=BB47_5 Depth=1
	sub	x11, x11, #64
	add	x10, x10, #64
	add	x8, x8, #32
	cmp	x11, #63
	b.hi	.LBB47_5
// %bb.7:
	mov	x8, x9
.LBB47_8:                               // %"utf_lanes::unit_blocks::paired_wide::<#951b42d46d2e9f62>.exit.i"
	lsr	x9, x1, #1
	cmp	x8, x9
	b.lo	.LBB47_10
	b	.LBB47_14
.LBB47_9:
	mov	w8, #8                          // =0x8
	lsr	x9, x1, #1
	cmp	x8, x9
	b.hs	.LBB47_14
.LBB47_10:                              // %join.5.i66.lr.ph.i
	sub	x10, x9, #8
.LBB47_11:                              // %join.5.i66.i
                                        // =>This Inner Loop Header: Depth=1
	cmp	x10, x8
	movi	v1.8h, #252, lsl #8
	movi	v4.16b, #220
	csel	x8, x10, x8, lo
	movi	v5.16b, #216
	add	x11, x0, x8, lsl #1
	ldr	q2, [x11]
	ldur	q3, [x11, #-2]
	and	v2.16b, v2.16b, v1.16b
	and	v1.16b, v3.16b, v1.16b
	cmeq	v2.16b, v2.16b, v4.16b
	cmeq	v1.16b, v1.16b, v5.16b
	eor	v1.16b, v1.16b, v2.16b
	and	v1.16b, v1.16b, v0.16b
	addp	v1.16b, v1.16b, v1.16b
	addp	v1.16b, v1.16b, v1.16b
	addp	v1.16b, v1.16b, v1.16b
	umov	w11, v1.h[0]
	rbit	w12, w11
	tst	w11, #0xffff
	mov	w11, #8                         // =0x8
	clz	w12, w12
	lsr	w12, w12, #1
	csel	w11, w11, w12, eq
	cmp	w11, #7
	b.ls	.LBB47_13
// %bb.12:                              // %join.8.i83.i
                                        //   in Loop: Header=BB47_11 Depth=1
	add	x8, x8, #8
	cmp	x8, x9
	b.lo	.LBB47_11
	b	.LBB47_14
.LBB47_13:                              // %then.6.i.i
	add	x8, x8, w11, uxtw
	cbz	x8, .LBB47_2
.LBB47_14:                              // %"utf_lanes::unit_blocks::units_len::<#951b42d46d2e9f62>.exit"
	add	x9, x0, x8, lsl #1
	ldurb	w9, [x9, #-1]
	and	w9, w9, #0xfc
	cmp	w9, #216
	cset	w9, eq
	sub	x23, x8, x9
	lsl	x19, x23, #1
	cbz	x19, .LBB47_24
// %bb.15:                              // %join.3
	mov	x24, x2
	ldp	x9, x20, [x24, #8]!
	sub	x8, x20, x9
	cmp	x19, x8
	b.hi	.LBB47_34
.LBB47_16:                              // %join.3.i
	ldr	x21, [x2]
	add	x22, x9, x19
	stp	xzr, xzr, [x24]
	add	x8, x21, x9
	sub	x10, x8, x0
	cmp	x10, x19
	b.hs	.LBB47_22
// %bb.17:                              // %iter.check
	cmp	x19, #7
	b.ls	.LBB47_19
// %bb.18:                              // %vector.memcheck
	add	x8, x9, x21
	sub	x8, x8, x0
	cmp	x8, #32
	b.hs	.LBB47_25
.LBB47_19:
	mov	x8, xzr
.LBB47_20:                              // %join.7.i.i.i.preheader
	add	x10, x8, x9
	sub	x9, x8, x19
	add	x8, x0, x8
	add	x10, x21, x10
.LBB47_21:                              // %join.7.i.i.i
                                        // =>This Inner Loop Header: Depth=1
	ldrb	w11, [x8], #1
	adds	x9, x9, #1
	strb	w11, [x10], #1
	b.lo	.LBB47_21
	b	.LBB47_23
.LBB47_22:                              // %apart.2.i.i.i
	mov	x1, x0
	mov	x0, x8
	mov	x23, x2
	mov	x2, x19
	bl	memmove
	mov	x2, x23
.LBB47_23:                              // %"core::slots::Slots::copy_in::<i8,20'core::clone::U8Clone{}>.exit.i"
	stp	x21, x22, [x2]
	str	x20, [x2, #16]
.LBB47_24:                              // %common.ret
	mov	x0, x19
	.cfi_def_cfa wsp, 96
	ldp	x20, x19, [sp, #80]             // 16-byte Folded Reload
	ldp	x22, x21, [sp, #64]             // 16-byte Folded Reload
	ldp	x24, x23, [sp, #48]             // 16-byte Folded Reload
	ldp	x29, x30, [sp, #32]             // 16-byte Folded Reload
	add	sp, sp, #96
	.cfi_def_cfa_offset 0
	.cfi_restore w19
	.cfi_restore w20
	.cfi_restore w21
	.cfi_restore w22
	.cfi_restore w23
	.cfi_restore w24
	.cfi_restore w30
	.cfi_restore w29
	ret
.LBB47_25:                              // %vector.main.loop.iter.check
	.cfi_restore_state
	cmp	x19, #32
	b.hs	.LBB47_27
// %bb.26:
	mov	x8, xzr
	b	.LBB47_31
.LBB47_27:                              // %vector.ph
	add	x11, x9, x21
	and	x8, x19, #0xffffffffffffffe0
	add	x10, x0, #16
	add	x11, x11, #16
	and	x12, x19, #0xffffffffffffffe0
.LBB47_28:                              // %vector.body
                                        // =>This Inner Loop Header: Depth=1
	ldp	q0, q1, [x10, #-16]
	subs	x12, x12, #32
	add	x10, x10, #32
	stp	q0, q1, [x11, #-16]
	add	x11, x11, #32
	b.ne	.LBB47_28
// %bb.29:                              // %middle.block
	cmp	x19, x8
	b.eq	.LBB47_23
// %bb.30:                              // %vec.epilog.iter.check
	tst	x23, #0xc
	b.eq	.LBB47_20
.LBB47_31:                              // %vec.epilog.ph
	mov	x11, x8
	and	x8, x19, #0xfffffffffffffff8
	add	x12, x9, x11
	sub	x10, x11, x8
	add	x11, x0, x11
	add	x12, x21, x12
.LBB47_32:                              // %vec.epilog.vector.body
                                        // =>This Inner Loop Header: Depth=1
	ldr	d0, [x11], #8
	adds	x10, x10, #8
	str	d0, [x12], #8
	b.ne	.LBB47_32
// %bb.33:                              // %vec.epilog.middle.block
	cmp	x19, x8
	b.ne	.LBB47_20
	b	.LBB47_23
.LBB47_34:                              // %"std_alloc::vec::Vec::grow::<#5fdc5e19576447a7>.exit.i"
	mov	x21, x0
	mov	x0, x2
	mov	x1, x19
	mov	x20, x2
	bl	"std_alloc::vec::Vec::grow_amortized::<#5fdc5e19576447a7>"
	cbz	w0, .LBB47_24
// %bb.35:                              // %"std_alloc::vec::Vec::grow::<#5fdc5e19576447a7>.exit.join.3_crit_edge.i"
	mov	x2, x20
	ldp	x9, x20, [x20, #8]
	mov	x0, x21
	b	.LBB47_16
.Lfunc_end47:
	.size	"recoding::turned::copy_units::<#aa491edf3e91f816>", .Lfunc_end47-"recoding::turned::copy_units::<#aa491edf3e91f816>"
	.cfi_endproc
                                        // -- End function
	.section	.rodata.cst16,"aM",@progbits,16
	.p2align	4, 0x0                          // -- Begin function recoding::kernels::put_windows::<#aa1056a8666f8679>
.LCPI48_0:
	.byte	1                               // 0x1
	.byte	2                               // 0x2
	.byte	4                               // 0x4
	.byte	8                               // 0x8
	.byte	16                              // 0x10
	.byte	32                              // 0x20
	.byte	64                              // 0x40
	.byte	128                             // 0x80
	.byte	1                               // 0x1
	.byte	2                               // 0x2
	.byte	4                               // 0x4
	.byte	8                               // 0x8
	.byte	16                              // 0x10
	.byte	32                              // 0x20
	.byte	64                              // 0x40
	.byte	128                             // 0x80
	.section	".text.recoding::kernels::put_windows::<#aa1056a8666f8679>","ax",@progbits
	.p2align	2
	.type	"recoding::kernels::put_windows::<#aa1056a8666f8679>",@function
"recoding::kernels::put_windows::<#aa1056a8666f8679>": // @"recoding::kernels::put_windows::<#aa1056a8666f8679>"
	.cfi_startproc
// %bb.0:                               // %start
	sub	sp, sp, #192
	.cfi_def_cfa_offset 192
	stp	x29, x30, [sp, #96]             // 16-byte Folded Spill
	stp	x28, x27, [sp, #112]            // 16-byte Folded Spill
	stp	x26, x25, [sp, #128]            // 16-byte Folded Spill
	stp	x24, x23, [sp, #144]            // 16-byte Folded Spill
	stp	x22, x21, [sp, #160]            // 16-byte Folded Spill
	stp	x20, x19, [sp, #176]            // 16-byte Folded Spill
	add	x29, sp, #96
	.cfi_def_cfa w29, 96
	.cfi_offset w19, -8
	.cfi_offset w20, -16
	.cfi_offset w21, -24
	.cfi_offset w22, -32
	.cfi_offset w23, -40
	.cfi_offset w24, -48
	.cfi_offset w25, -56
	.cfi_offset w26, -64
	.cfi_offset w27, -72
	.cfi_offset w28, -80
	.cfi_offset w30, -88
	.cfi_offset w29, -96
	mov	x21, x2
	mov	x23, x0
	mov	x19, xzr
	mov	x20, xzr
	mov	x24, xzr
	str	x1, [sp, #8]                    // 8-byte Spill
.LBB48_1:                               // %then.6
                                        // =>This Inner Loop Header: Depth=1
	ldp	x8, x25, [x21, #8]
	sub	x9, x25, x8
	cmp	x9, #112
	b.lo	.LBB48_11
// %bb.2:                               // %join.3.i
                                        //   in Loop: Header=BB48_1 Depth=1
	add	x9, x23, x19
	movi	v6.16b, #54
	movi	v19.2d, #0000000000000000
	ldp	q0, q2, [x9]
	movi	v17.16b, #55
	ldp	q4, q5, [x9, #32]
	movi	v22.16b, #216
	adrp	x9, .LCPI48_0
	ldr	x27, [x21]
	add	x22, x8, #32
	uzp2	v1.16b, v0.16b, v2.16b
	uzp1	v0.16b, v0.16b, v2.16b
	uzp2	v3.16b, v4.16b, v5.16b
	uzp1	v4.16b, v4.16b, v5.16b
	movi	v5.16b, #253
	add	x10, x27, x8
	sub	x8, x25, x22
	ushr	v16.16b, v1.16b, #2
	ushr	v7.16b, v3.16b, #2
	cmeq	v18.16b, v16.16b, v6.16b
	cmeq	v16.16b, v16.16b, v17.16b
	cmeq	v6.16b, v7.16b, v6.16b
	cmeq	v7.16b, v7.16b, v17.16b
	ext	v19.16b, v19.16b, v18.16b, #15
	ext	v20.16b, v18.16b, v6.16b, #15
	mov	v6.b[15], wzr
	eor	v19.16b, v19.16b, v16.16b
	eor	v17.16b, v20.16b, v7.16b
	movi	v20.16b, #252
	ext	v21.16b, v17.16b, v16.16b, #1
	ext	v23.16b, v19.16b, v17.16b, #1
	and	v7.16b, v7.16b, v17.16b
	and	v24.16b, v3.16b, v20.16b
	and	v17.16b, v1.16b, v20.16b
	and	v16.16b, v16.16b, v19.16b
	ldr	q20, [x9, :lo12:.LCPI48_0]
	mov	w9, #62                         // =0x3e
	and	v6.16b, v6.16b, v21.16b
	and	v18.16b, v18.16b, v23.16b
	cmeq	v19.16b, v24.16b, v22.16b
	cmeq	v17.16b, v17.16b, v22.16b
	orr	v6.16b, v6.16b, v7.16b
	orr	v7.16b, v18.16b, v16.16b
	and	v16.16b, v17.16b, v20.16b
	and	v17.16b, v19.16b, v20.16b
	cmeq	v6.16b, v6.16b, #0
	cmeq	v7.16b, v7.16b, #0
	addp	v2.16b, v16.16b, v17.16b
	bif	v4.16b, v5.16b, v6.16b
	bif	v0.16b, v5.16b, v7.16b
	orn	v3.16b, v3.16b, v6.16b
	addp	v2.16b, v2.16b, v2.16b
	orn	v1.16b, v1.16b, v7.16b
	stp	q6, q20, [sp, #32]              // 32-byte Folded Spill
	str	q7, [sp, #16]                   // 16-byte Spill
	addp	v2.16b, v2.16b, v2.16b
	zip1	v5.16b, v4.16b, v3.16b
	zip2	v3.16b, v4.16b, v3.16b
	zip1	v4.16b, v0.16b, v1.16b
	zip2	v0.16b, v0.16b, v1.16b
	fmov	w11, s2
	stp	q5, q3, [x29, #-32]
	stp	q4, q0, [x10]
	cmn	w11, #1
	mov	w11, #64                        // =0x40
	stp	x27, x22, [x21]
	csel	x26, x11, x9, gt
	str	x25, [x21, #16]
	sub	x28, x26, #32
	cmp	x28, x8
	b.hi	.LBB48_9
.LBB48_3:                               // %join.3.i109
                                        //   in Loop: Header=BB48_1 Depth=1
	add	x8, x27, x22
	sub	x9, x29, #32
	add	x0, x27, x22
	sub	x8, x8, x9
	sub	x1, x29, #32
	sub	x2, x26, #32
	cmp	x8, x28
	b.hs	.LBB48_5
// %bb.4:                               // %join.7.i.i.i122.preheader
                                        //   in Loop: Header=BB48_1 Depth=1
	bl	memcpy
	b	.LBB48_6
.LBB48_5:                               // %apart.2.i.i.i119
                                        //   in Loop: Header=BB48_1 Depth=1
	bl	memmove
.LBB48_6:                               // %"core::slots::Slots::copy_in::<i8,20'core::clone::U8Clone{}>.exit.i120"
                                        //   in Loop: Header=BB48_1 Depth=1
	add	x8, x22, x28
	str	x25, [x21, #16]
	stp	x27, x8, [x21]
.LBB48_7:                               // %"std_alloc::vec::Vec::extend_from_slice::<#0cd040e5c49bc722>.exit134"
                                        //   in Loop: Header=BB48_1 Depth=1
	ldp	q2, q1, [sp, #32]               // 32-byte Folded Reload
	add	x19, x26, x19
	ldr	q0, [sp, #16]                   // 16-byte Reload
	bic	v0.16b, v1.16b, v0.16b
	bic	v1.16b, v1.16b, v2.16b
	addp	v0.16b, v0.16b, v1.16b
	addp	v0.16b, v0.16b, v0.16b
	addp	v0.16b, v0.16b, v0.16b
	fmov	w8, s0
	fmov	s0, w8
	cmp	w8, #0
	mov	w8, #8                          // =0x8
	csinc	x24, xzr, x24, ne
	cnt	v0.8b, v0.8b
	addv	b0, v0.8b
	fmov	w9, s0
	add	x20, x20, x9
	cmp	x20, #8
	csel	x8, x20, x8, lo
	cmp	x24, x8
	b.hi	.LBB48_11
// %bb.8:                               // %"std_alloc::vec::Vec::extend_from_slice::<#0cd040e5c49bc722>.exit134"
                                        //   in Loop: Header=BB48_1 Depth=1
	ldr	x8, [sp, #8]                    // 8-byte Reload
	sub	x8, x8, x19
	cmp	x8, #63
	b.hi	.LBB48_1
	b	.LBB48_11
.LBB48_9:                               // %"std_alloc::vec::Vec::grow::<#5fdc5e19576447a7>.exit.i129"
                                        //   in Loop: Header=BB48_1 Depth=1
	sub	x1, x26, #32
	mov	x0, x21
	bl	"std_alloc::vec::Vec::grow_amortized::<#5fdc5e19576447a7>"
	cbz	w0, .LBB48_7
// %bb.10:                              // %"std_alloc::vec::Vec::grow::<#5fdc5e19576447a7>.exit.join.3_crit_edge.i131"
                                        //   in Loop: Header=BB48_1 Depth=1
	ldp	x22, x25, [x21, #8]
	ldr	x27, [x21]
	b	.LBB48_3
.LBB48_11:                              // %after.1
	mov	x0, x19
	mov	x1, x20
	.cfi_def_cfa wsp, 192
	ldp	x20, x19, [sp, #176]            // 16-byte Folded Reload
	ldp	x22, x21, [sp, #160]            // 16-byte Folded Reload
	ldp	x24, x23, [sp, #144]            // 16-byte Folded Reload
	ldp	x26, x25, [sp, #128]            // 16-byte Folded Reload
	ldp	x28, x27, [sp, #112]            // 16-byte Folded Reload
	ldp	x29, x30, [sp, #96]             // 16-byte Folded Reload
	add	sp, sp, #192
	.cfi_def_cfa_offset 0
	.cfi_restore w19
	.cfi_restore w20
	.cfi_restore w21
	.cfi_restore w22
	.cfi_restore w23
	.cfi_restore w24
	.cfi_restore w25
	.cfi_restore w26
	.cfi_restore w27
	.cfi_restore w28
	.cfi_restore w30
	.cfi_restore w29
	ret
.Lfunc_end48:
	.size	"recoding::kernels::put_windows::<#aa1056a8666f8679>", .Lfunc_end48-"recoding::kernels::put_windows::<#aa1056a8666f8679>"
	.cfi_endproc
                                        // -- End function
	.section	".text.recoding::engine::recode_faults::<#f602c80ce4e2d1ec>","ax",@progbits
	.p2align	2                               // -- Begin function recoding::engine::recode_faults::<#f602c80ce4e2d1ec>
	.type	"recoding::engine::recode_faults::<#f602c80ce4e2d1ec>",@function
"recoding::engine::recode_faults::<#f602c80ce4e2d1ec>": // @"recoding::engine::recode_faults::<#f602c80ce4e2d1ec>"
	.cfi_startproc
// %bb.0:                               // %start
	ldrb	w10, [x1]
	ldr	x11, [x1, #16]
	mov	x9, xzr
	mov	x8, xzr
	cmp	w10, #2
	ccmp	x11, #0, #0, eq
	mov	w11, #16                        // =0x10
	cset	w10, ne
	b	.LBB49_2
.LBB49_1:                               // %"recoding::text::Utf16Text::put_any::<#ec2bf5654938c731>.exit"
                                        //   in Loop: Header=BB49_2 Depth=1
	add	x8, x8, #1
	mov	w12, #2                         // =0x2
	add	x9, x12, x9
	cmp	x9, x11
	b.hs	.LBB49_14
.LBB49_2:                               // %join.5
                                        // =>This Inner Loop Header: Depth=1
	add	x12, x9, #4
	add	x13, x2, x9
	cmp	x12, x3
	b.ls	.LBB49_7
// %bb.3:                               // %join.3.i
                                        //   in Loop: Header=BB49_2 Depth=1
	sub	x17, x3, x9
	cmp	x17, #2
	b.lo	.LBB49_15
// %bb.4:                               // %join.3.i.i
                                        //   in Loop: Header=BB49_2 Depth=1
	ldrb	w15, [x13, #1]
	mov	w14, #56320                     // =0xdc00
	lsl	w16, w15, #8
	and	w1, w16, #0xfc00
	cmp	w1, w14
	b.eq	.LBB49_11
// %bb.5:                               // %join.3.i.i
                                        //   in Loop: Header=BB49_2 Depth=1
	mov	w5, #55296                      // =0xd800
	ldrb	w14, [x13]
	cmp	w1, w5
	b.ne	.LBB49_13
// %bb.6:                               // %join.6.i.i
                                        //   in Loop: Header=BB49_2 Depth=1
	cmp	x17, #4
	b.hs	.LBB49_9
	b	.LBB49_15
.LBB49_7:                               // %then.1.i82
                                        //   in Loop: Header=BB49_2 Depth=1
	ldrb	w15, [x13, #1]
	mov	w14, #56320                     // =0xdc00
	lsl	w16, w15, #8
	and	w17, w16, #0xfc00
	cmp	w17, w14
	b.eq	.LBB49_11
// %bb.8:                               // %then.1.i82
                                        //   in Loop: Header=BB49_2 Depth=1
	mov	w1, #55296                      // =0xd800
	ldrb	w14, [x13]
	cmp	w17, w1
	b.ne	.LBB49_13
.LBB49_9:                               // %join.15.i258.i
                                        //   in Loop: Header=BB49_2 Depth=1
	ldrb	w15, [x13, #3]
	and	w17, w15, #0xfc
	cmp	w17, #220
	b.ne	.LBB49_11
// %bb.10:                              // %arm.14.i109.i
                                        //   in Loop: Header=BB49_2 Depth=1
	ldrb	w12, [x13, #2]
	and	w13, w16, #0x300
	orr	w13, w13, w14
	bfi	w12, w15, #8, #2
	ldp	x15, x14, [x4]
	orr	w12, w12, w13, lsl #10
	mov	w13, #-10304                    // =0xffffd7c0
	add	w12, w12, #16, lsl #12          // =65536
	add	w13, w13, w12, lsr #10
	strb	w13, [x15, x14]
	ldr	x15, [x4]
	lsr	w13, w13, #8
	add	x15, x15, x14
	strb	w13, [x15, #1]
	ldr	x13, [x4]
	add	x13, x13, x14
	strb	w12, [x13, #2]
	mov	w13, #220                       // =0xdc
	ldr	x15, [x4]
	bfxil	w13, w12, #8, #2
	add	x12, x15, x14
	add	x14, x14, #4
	strb	w13, [x12, #3]
	mov	w12, #4                         // =0x4
	str	x14, [x4, #8]
	add	x9, x12, x9
	cmp	x9, x11
	b.lo	.LBB49_2
	b	.LBB49_14
.LBB49_11:                              // %arm.11
                                        //   in Loop: Header=BB49_2 Depth=1
	cmp	x12, #32
	mov	w11, #32                        // =0x20
	csel	x11, x12, x11, lo
	cbz	w10, .LBB49_1
// %bb.12:                              // %"recoding::text::Utf16Text::put_code::<#ec2bf5654938c731>.exit.i.i"
                                        //   in Loop: Header=BB49_2 Depth=1
	ldp	x13, x12, [x4]
	mov	w14, #253                       // =0xfd
	strb	w14, [x13, x12]
	mov	w14, #255                       // =0xff
	ldr	x13, [x4]
	add	x13, x13, x12
	add	x12, x12, #2
	strb	w14, [x13, #1]
	str	x12, [x4, #8]
	b	.LBB49_1
.LBB49_13:                              // %arm.1.i
                                        //   in Loop: Header=BB49_2 Depth=1
	ldp	x13, x12, [x4]
	strb	w14, [x13, x12]
	ldr	x13, [x4]
	add	x13, x13, x12
	add	x12, x12, #2
	strb	w15, [x13, #1]
	str	x12, [x4, #8]
	mov	w12, #2                         // =0x2
	add	x9, x12, x9
	cmp	x9, x11
	b.lo	.LBB49_2
.LBB49_14:                              // %after.1
	stp	x9, x8, [x0]
	str	xzr, [x0, #16]
	ret
.LBB49_15:                              // %arm.7
	stp	x9, x8, [x0]
	mov	w8, #256                        // =0x100
	strh	w8, [x0, #16]
	stur	wzr, [x0, #18]
	strh	wzr, [x0, #22]
	ret
.Lfunc_end49:
	.size	"recoding::engine::recode_faults::<#f602c80ce4e2d1ec>", .Lfunc_end49-"recoding::engine::recode_faults::<#f602c80ce4e2d1ec>"
	.cfi_endproc
                                        // -- End function
	.section	".text.recoding::recoder_runs::run_whole::<#daeca7e912b417d6>","ax",@progbits
	.p2align	2                               // -- Begin function recoding::recoder_runs::run_whole::<#daeca7e912b417d6>
	.type	"recoding::recoder_runs::run_whole::<#daeca7e912b417d6>",@function
"recoding::recoder_runs::run_whole::<#daeca7e912b417d6>": // @"recoding::recoder_runs::run_whole::<#daeca7e912b417d6>"
	.cfi_startproc
// %bb.0:                               // %start
	sub	sp, sp, #128
	.cfi_def_cfa_offset 128
	stp	x29, x30, [sp, #64]             // 16-byte Folded Spill
	str	x23, [sp, #80]                  // 8-byte Spill
	stp	x22, x21, [sp, #96]             // 16-byte Folded Spill
	stp	x20, x19, [sp, #112]            // 16-byte Folded Spill
	add	x29, sp, #64
	.cfi_def_cfa w29, 64
	.cfi_offset w19, -8
	.cfi_offset w20, -16
	.cfi_offset w21, -24
	.cfi_offset w22, -32
	.cfi_offset w23, -48
	.cfi_offset w30, -56
	.cfi_offset w29, -64
	mov	x22, x2
	mov	x21, x1
	mov	x23, x0
	mov	x19, xzr
	mov	x20, xzr
	b	.LBB50_2
.LBB50_1:                               // %"recoding::kernels::put_damaged_units::<#e34f862aaeb63555>.exit"
                                        //   in Loop: Header=BB50_2 Depth=1
	add	x0, x23, x20
	mov	x2, x22
	bl	"recoding::kernels::put_windows::<#e34f862aaeb63555>"
	add	x20, x0, x20
	add	x19, x1, x19
	cbz	x0, .LBB50_7
.LBB50_2:                               // %loop.2.i
                                        // =>This Loop Header: Depth=1
                                        //     Child Loop BB50_9 Depth 2
	sub	x8, x21, x20
	cmp	x8, #16
	b.lo	.LBB50_4
// %bb.3:                               // %"recoding::kernels::TurnedKernelUtf16Utf16::put_text::<#2cb43bbe79a2a8c3>.exit"
                                        //   in Loop: Header=BB50_2 Depth=1
	add	x0, x23, x20
	sub	x1, x21, x20
	mov	x2, x22
	bl	"recoding::turned::copy_units::<#671af64cce331956>"
	lsr	x8, x0, #2
	add	x20, x0, x20
	cmp	x8, #2046
	b.hi	.LBB50_2
.LBB50_4:                               // %join.5.i
                                        //   in Loop: Header=BB50_2 Depth=1
	subs	x1, x21, x20
	b.eq	.LBB50_19
// %bb.5:                               // %join.8.i
                                        //   in Loop: Header=BB50_2 Depth=1
	cmp	x1, #64
	b.hs	.LBB50_1
// %bb.6:                               // %join.14.i
                                        //   in Loop: Header=BB50_2 Depth=1
	cmp	x1, #128
	mov	w8, #128                        // =0x80
	csel	x9, x1, x8, lo
	cmp	x1, #2
	b.hs	.LBB50_8
	b	.LBB50_16
.LBB50_7:                               // %"recoding::kernels::put_damaged_units::<#e34f862aaeb63555>.exit.join.14.i_crit_edge"
                                        //   in Loop: Header=BB50_2 Depth=1
	sub	x1, x21, x20
	cmp	x1, #128
	mov	w8, #128                        // =0x80
	csel	x9, x1, x8, lo
	cmp	x1, #2
	b.lo	.LBB50_16
.LBB50_8:                               // %join.5.i39.preheader
                                        //   in Loop: Header=BB50_2 Depth=1
	mov	x8, xzr
	add	x10, x23, x20
	mov	x14, x9
.LBB50_9:                               // %join.5.i39
                                        //   Parent Loop BB50_2 Depth=1
                                        // =>  This Inner Loop Header: Depth=2
	add	x13, x10, x8
	mov	w16, #55296                     // =0xd800
	ldrb	w12, [x13, #1]
	lsl	w11, w12, #8
	and	w15, w11, #0xfc00
	ldrb	w11, [x13]
	cmp	w15, w16
	b.eq	.LBB50_12
// %bb.10:                              // %join.5.i39
                                        //   in Loop: Header=BB50_9 Depth=2
	mov	w13, #56320                     // =0xdc00
	cmp	w15, w13
	b.eq	.LBB50_15
// %bb.11:                              // %arm.7.i.thread
                                        //   in Loop: Header=BB50_9 Depth=2
	ldp	x14, x13, [x22]
	strb	w12, [x14, x13]
	ldr	x12, [x22]
	add	x12, x12, x13
	strb	w11, [x12, #1]
	add	x11, x13, #2
	mov	w12, #2                         // =0x2
	add	x8, x12, x8
	str	x11, [x22, #8]
	sub	x14, x9, x8
	cmp	x14, #1
	b.hi	.LBB50_9
	b	.LBB50_15
.LBB50_12:                              // %join.6.i.i
                                        //   in Loop: Header=BB50_9 Depth=2
	cmp	x14, #4
	b.lo	.LBB50_15
// %bb.13:                              // %join.15.i71.i.i
                                        //   in Loop: Header=BB50_9 Depth=2
	ldrb	w14, [x13, #3]
	and	w15, w14, #0xfc
	cmp	w15, #220
	b.ne	.LBB50_15
// %bb.14:                              // %arm.7.i
                                        //   in Loop: Header=BB50_9 Depth=2
	ldp	x17, x16, [x22]
	mov	w15, #216                       // =0xd8
	bfxil	w15, w12, #0, #2
	ldrb	w12, [x13, #2]
	strb	w15, [x17, x16]
	ldr	x13, [x22]
	add	x13, x13, x16
	strb	w11, [x13, #1]
	ldr	x11, [x22]
	add	x11, x11, x16
	strb	w14, [x11, #2]
	ldr	x11, [x22]
	add	x11, x11, x16
	strb	w12, [x11, #3]
	add	x11, x16, #4
	mov	w12, #4                         // =0x4
	add	x8, x12, x8
	str	x11, [x22, #8]
	sub	x14, x9, x8
	cmp	x14, #1
	b.hi	.LBB50_9
.LBB50_15:                              // %"recoding::engine::recode_text::<#83daf91f04e66afe>.exit"
                                        //   in Loop: Header=BB50_2 Depth=1
	cmp	x8, #124
	add	x20, x8, x20
	b.hi	.LBB50_2
.LBB50_16:                              // %then.15.i
                                        //   in Loop: Header=BB50_2 Depth=1
	subs	x3, x21, x20
	b.eq	.LBB50_19
// %bb.17:                              // %join.20.i
                                        //   in Loop: Header=BB50_2 Depth=1
	movi	v0.2d, #0000000000000000
	sub	x0, x29, #24
	mov	x1, sp
	add	x2, x23, x20
	mov	x4, x22
	stp	xzr, xzr, [x29, #-16]
	stur	xzr, [x29, #-24]
	str	xzr, [sp, #32]
	stp	q0, q0, [sp]
	bl	"recoding::engine::recode_faults::<#8dadd7d4866406da>"
	ldp	x8, x9, [x29, #-24]
	ldurb	w10, [x29, #-8]
	add	x20, x8, x20
	add	x19, x9, x19
	tbnz	w10, #0, .LBB50_20
// %bb.18:                              // %join.20.i
                                        //   in Loop: Header=BB50_2 Depth=1
	ldurb	w8, [x29, #-7]
	tbz	w8, #0, .LBB50_2
	b	.LBB50_20
.LBB50_19:
	mov	x20, x21
.LBB50_20:                              // %"recoding::engine::run::<#904cae1242d1b321>.exit"
	mov	x0, x20
	mov	x1, x19
	.cfi_def_cfa wsp, 128
	ldp	x20, x19, [sp, #112]            // 16-byte Folded Reload
	ldr	x23, [sp, #80]                  // 8-byte Reload
	ldp	x22, x21, [sp, #96]             // 16-byte Folded Reload
	ldp	x29, x30, [sp, #64]             // 16-byte Folded Reload
	add	sp, sp, #128
	.cfi_def_cfa_offset 0
	.cfi_restore w19
	.cfi_restore w20
	.cfi_restore w21
	.cfi_restore w22
	.cfi_restore w23
	.cfi_restore w30
	.cfi_restore w29
	ret
.Lfunc_end50:
	.size	"recoding::recoder_runs::run_whole::<#daeca7e912b417d6>", .Lfunc_end50-"recoding::recoder_runs::run_whole::<#daeca7e912b417d6>"
	.cfi_endproc
                                        // -- End function
	.section	.rodata.cst16,"aM",@progbits,16
	.p2align	4, 0x0                          // -- Begin function recoding::turned::copy_units::<#671af64cce331956>
.LCPI51_0:
	.byte	1                               // 0x1
	.byte	2                               // 0x2
	.byte	4                               // 0x4
	.byte	8                               // 0x8
	.byte	16                              // 0x10
	.byte	32                              // 0x20
	.byte	64                              // 0x40
	.byte	128                             // 0x80
	.byte	1                               // 0x1
	.byte	2                               // 0x2
	.byte	4                               // 0x4
	.byte	8                               // 0x8
	.byte	16                              // 0x10
	.byte	32                              // 0x20
	.byte	64                              // 0x40
	.byte	128                             // 0x80
	.section	".text.recoding::turned::copy_units::<#671af64cce331956>","ax",@progbits
	.p2align	2
	.type	"recoding::turned::copy_units::<#671af64cce331956>",@function
"recoding::turned::copy_units::<#671af64cce331956>": // @"recoding::turned::copy_units::<#671af64cce331956>"
	.cfi_startproc
// %bb.0:                               // %start
	sub	sp, sp, #176
	.cfi_def_cfa_offset 176
	stp	x29, x30, [sp, #112]            // 16-byte Folded Spill
	stp	x24, x23, [sp, #128]            // 16-byte Folded Spill
	stp	x22, x21, [sp, #144]            // 16-byte Folded Spill
	stp	x20, x19, [sp, #160]            // 16-byte Folded Spill
	add	x29, sp, #112
	.cfi_def_cfa w29, 64
	.cfi_offset w19, -8
	.cfi_offset w20, -16
	.cfi_offset w21, -24
	.cfi_offset w22, -32
	.cfi_offset w23, -40
	.cfi_offset w24, -48
	.cfi_offset w30, -56
	.cfi_offset w29, -64
	.cfi_remember_state
	ldr	q0, [x0]
	movi	v1.8h, #252, lsl #8
	sturh	wzr, [x29, #-32]
	movi	v3.16b, #220
	movi	v4.16b, #216
	adrp	x8, .LCPI51_0
	stur	q0, [x29, #-30]
	mov	x19, x2
	mov	x20, x0
	ldur	q0, [x29, #-30]
	ldur	q2, [x29, #-32]
	and	v0.16b, v0.16b, v1.16b
	and	v1.16b, v2.16b, v1.16b
	cmeq	v0.16b, v0.16b, v3.16b
	cmeq	v1.16b, v1.16b, v4.16b
	eor	v1.16b, v1.16b, v0.16b
	ldr	q0, [x8, :lo12:.LCPI51_0]
	and	v1.16b, v1.16b, v0.16b
	addp	v1.16b, v1.16b, v1.16b
	addp	v1.16b, v1.16b, v1.16b
	addp	v1.16b, v1.16b, v1.16b
	umov	w8, v1.h[0]
	cbz	w8, .LBB51_3
// %bb.1:
	umov	w8, v1.h[0]
	rbit	w8, w8
	clz	w8, w8
	lsr	w8, w8, #1
	cbnz	x8, .LBB51_14
.LBB51_2:
	mov	x21, xzr
	b	.LBB51_36
.LBB51_3:                               // %loop.2.i.preheader.i
	subs	x8, x1, #80
	b.lo	.LBB51_9
// %bb.4:                               // %join.5.i.i.preheader
	lsr	x8, x8, #1
	add	x10, x20, #32
	sub	x11, x1, #16
	and	x8, x8, #0x7fffffffffffffe0
	add	x9, x8, #40
	mov	w8, #8                          // =0x8
.LBB51_5:                               // %join.5.i.i
                                        // =>This Inner Loop Header: Depth=1
	movi	v1.8h, #252, lsl #8
	ldp	q2, q6, [x10, #-16]
	ldp	q7, q18, [x10, #16]
	movi	v4.16b, #220
	ldur	q3, [x10, #-18]
	ldur	q16, [x10, #14]
	movi	v5.16b, #216
	ldur	q17, [x10, #-2]
	ldur	q19, [x10, #30]
	and	v2.16b, v2.16b, v1.16b
	and	v3.16b, v3.16b, v1.16b
	and	v7.16b, v7.16b, v1.16b
	and	v16.16b, v16.16b, v1.16b
	and	v6.16b, v6.16b, v1.16b
	and	v17.16b, v17.16b, v1.16b
	and	v18.16b, v18.16b, v1.16b
	and	v1.16b, v19.16b, v1.16b
	cmeq	v2.16b, v2.16b, v4.16b
	cmeq	v3.16b, v3.16b, v5.16b
	cmeq	v7.16b, v7.16b, v4.16b
	cmeq	v16.16b, v16.16b, v5.16b
	cmeq	v6.16b, v6.16b, v4.16b
	cmeq	v4.16b, v18.16b, v4.16b
	cmeq	v1.16b, v1.16b, v5.16b
	eor	v2.16b, v3.16b, v2.16b
	cmeq	v3.16b, v17.16b, v5.16b
	eor	v5.16b, v16.16b, v7.16b
	eor	v1.16b, v1.16b, v4.16b
	mvn	v2.16b, v2.16b
	eor	v3.16b, v3.16b, v6.16b
	mvn	v5.16b, v5.16b
	bic	v2.16b, v2.16b, v3.16b
	bic	v1.16b, v5.16b, v1.16b
	and	v1.16b, v2.16b, v1.16b
	bic	v1.16b, v0.16b, v1.16b
	addp	v1.16b, v1.16b, v1.16b
	addp	v1.16b, v1.16b, v1.16b
	addp	v1.16b, v1.16b, v1.16b
	umov	w12, v1.h[0]
	cbnz	w12, .LBB51_8
// %bb.6:                               // %join.8.i.i
                                        //   in Loop: Header=BB51_5 Depth=1
	sub	x11, x11, #64
	add	x10, x10, #64
	add	x8, x8, #32
	cmp	x11, #63
	b.hi	.LBB51_5
// %bb.7:
	mov	x8, x9
.LBB51_8:                               // %"utf_lanes::unit_blocks::paired_wide::<#951b42d46d2e9f62>.exit.i"
	lsr	x9, x1, #1
	cmp	x8, x9
	b.lo	.LBB51_10
	b	.LBB51_14
.LBB51_9:
	mov	w8, #8                          // =0x8
	lsr	x9, x1, #1
	cmp	x8, x9
	b.hs	.LBB51_14
.LBB51_10:                              // %join.5.i66.lr.ph.i
	sub	x10, x9, #8
.LBB51_11:                              // %join.5.i66.i
                                        // =>This Inner Loop Header: Depth=1
	cmp	x10, x8
	movi	v1.8h, #252, lsl #8
	movi	v4.16b, #220
	csel	x8, x10, x8, lo
	movi	v5.16b, #216
	add	x11, x20, x8, lsl #1
	ldr	q2, [x11]
	ldur	q3, [x11, #-2]
	and	v2.16b, v2.16b, v1.16b
	and	v1.16b, v3.16b, v1.16b
	cmeq	v2.16b, v2.16b, v4.16b
	cmeq	v1.16b, v1.16b, v5.16b
	eor	v1.16b, v1.16b, v2.16b
	and	v1.16b, v1.16b, v0.16b
	addp	v1.16b, v1.16b, v1.16b
	addp	v1.16b, v1.16b, v1.16b
	addp	v1.16b, v1.16b, v1.16b
	umov	w11, v1.h[0]
	rbit	w12, w11
	tst	w11, #0xffff
	mov	w11, #8                         // =0x8
	clz	w12, w12
	lsr	w12, w12, #1
	csel	w11, w11, w12, eq
	cmp	w11, #7
	b.ls	.LBB51_13
// %bb.12:                              // %join.8.i83.i
                                        //   in Loop: Header=BB51_11 Depth=1
	add	x8, x8, #8
	cmp	x8, x9
	b.lo	.LBB51_11
	b	.LBB51_14
.LBB51_13:                              // %then.6.i.i
	add	x8, x8, w11, uxtw
	cbz	x8, .LBB51_2
.LBB51_14:                              // %"utf_lanes::unit_blocks::units_len::<#951b42d46d2e9f62>.exit"
	add	x9, x20, x8, lsl #1
	ldurb	w9, [x9, #-1]
	and	w9, w9, #0xfc
	cmp	w9, #216
	cset	w9, eq
	sub	x8, x8, x9
	lsl	x21, x8, #1
	cbz	x21, .LBB51_36
// %bb.15:                              // %join.3
	cmp	x21, #16
	b.hs	.LBB51_18
// %bb.16:                              // %loop.2.i.preheader
	ldr	x8, [x19, #8]
	add	x9, x20, #1
	mov	x10, x21
.LBB51_17:                              // %join.5.i
                                        // =>This Inner Loop Header: Depth=1
	ldr	x11, [x19]
	ldrb	w12, [x9]
	subs	x10, x10, #2
	ldurb	w13, [x9, #-1]
	add	x9, x9, #2
	strb	w12, [x11, x8]
	ldr	x11, [x19]
	add	x11, x11, x8
	add	x8, x8, #2
	strb	w13, [x11, #1]
	str	x8, [x19, #8]
	b.ne	.LBB51_17
	b	.LBB51_36
.LBB51_18:                              // %loop.2.i5.preheader
	cmp	x21, #64
	mov	x23, x20
	mov	x22, x21
	b.lo	.LBB51_31
// %bb.19:                              // %join.5.i9.lr.ph
	mov	x22, x21
	mov	x23, x20
.LBB51_20:                              // %join.5.i9
                                        // =>This Inner Loop Header: Depth=1
	ldp	q0, q1, [x23]
	ldp	q2, q3, [x23, #32]
	ldp	x9, x8, [x19, #8]
	rev16	v0.16b, v0.16b
	rev16	v1.16b, v1.16b
	rev16	v2.16b, v2.16b
	rev16	v3.16b, v3.16b
	sub	x10, x8, x9
	cmp	x10, #63
	stp	q0, q1, [sp, #16]
	stp	q2, q3, [sp, #48]
	b.ls	.LBB51_26
.LBB51_21:                              // %join.3.i77
                                        //   in Loop: Header=BB51_20 Depth=1
	ldr	x10, [x19]
	add	x12, sp, #16
	stp	xzr, xzr, [x19, #8]
	add	x11, x10, x9
	sub	x12, x11, x12
	cmp	x12, #63
	b.hi	.LBB51_23
// %bb.22:                              // %join.7.i.i.i.preheader
                                        //   in Loop: Header=BB51_20 Depth=1
	ldrb	w12, [sp, #16]
	strb	w12, [x11]
	ldrb	w12, [sp, #17]
	strb	w12, [x11, #1]
	ldrb	w12, [sp, #18]
	strb	w12, [x11, #2]
	ldrb	w12, [sp, #19]
	strb	w12, [x11, #3]
	ldrb	w12, [sp, #20]
	strb	w12, [x11, #4]
	ldrb	w12, [sp, #21]
	strb	w12, [x11, #5]
	ldrb	w12, [sp, #22]
	strb	w12, [x11, #6]
	ldrb	w12, [sp, #23]
	strb	w12, [x11, #7]
	ldrb	w12, [sp, #24]
	strb	w12, [x11, #8]
	ldrb	w12, [sp, #25]
	strb	w12, [x11, #9]
	ldrb	w12, [sp, #26]
	strb	w12, [x11, #10]
	ldrb	w12, [sp, #27]
	strb	w12, [x11, #11]
	ldrb	w12, [sp, #28]
	strb	w12, [x11, #12]
	ldrb	w12, [sp, #29]
	strb	w12, [x11, #13]
	ldrb	w12, [sp, #30]
	strb	w12, [x11, #14]
	ldrb	w12, [sp, #31]
	strb	w12, [x11, #15]
	ldrb	w12, [sp, #32]
	strb	w12, [x11, #16]
	ldrb	w12, [sp, #33]
	strb	w12, [x11, #17]
	ldrb	w12, [sp, #34]
	strb	w12, [x11, #18]
	ldrb	w12, [sp, #35]
	strb	w12, [x11, #19]
	ldrb	w12, [sp, #36]
	strb	w12, [x11, #20]
	ldrb	w12, [sp, #37]
	strb	w12, [x11, #21]
	ldrb	w12, [sp, #38]
	strb	w12, [x11, #22]
	ldrb	w12, [sp, #39]
	strb	w12, [x11, #23]
	ldrb	w12, [sp, #40]
	strb	w12, [x11, #24]
	ldrb	w12, [sp, #41]
	strb	w12, [x11, #25]
	ldrb	w12, [sp, #42]
	strb	w12, [x11, #26]
	ldrb	w12, [sp, #43]
	strb	w12, [x11, #27]
	ldrb	w12, [sp, #44]
	strb	w12, [x11, #28]
	ldrb	w12, [sp, #45]
	strb	w12, [x11, #29]
	ldrb	w12, [sp, #46]
	strb	w12, [x11, #30]
	ldrb	w12, [sp, #47]
	strb	w12, [x11, #31]
	ldrb	w12, [sp, #48]
	strb	w12, [x11, #32]
	ldrb	w12, [sp, #49]
	strb	w12, [x11, #33]
	ldrb	w12, [sp, #50]
	strb	w12, [x11, #34]
	ldrb	w12, [sp, #51]
	strb	w12, [x11, #35]
	ldrb	w12, [sp, #52]
	strb	w12, [x11, #36]
	ldrb	w12, [sp, #53]
	strb	w12, [x11, #37]
	ldrb	w12, [sp, #54]
	strb	w12, [x11, #38]
	ldrb	w12, [sp, #55]
	strb	w12, [x11, #39]
	ldrb	w12, [sp, #56]
	strb	w12, [x11, #40]
	ldrb	w12, [sp, #57]
	strb	w12, [x11, #41]
	ldrb	w12, [sp, #58]
	strb	w12, [x11, #42]
	ldrb	w12, [sp, #59]
	strb	w12, [x11, #43]
	ldrb	w12, [sp, #60]
	strb	w12, [x11, #44]
	ldrb	w12, [sp, #61]
	strb	w12, [x11, #45]
	ldrb	w12, [sp, #62]
	strb	w12, [x11, #46]
	ldrb	w12, [sp, #63]
	strb	w12, [x11, #47]
	ldrb	w12, [sp, #64]
	strb	w12, [x11, #48]
	ldrb	w12, [sp, #65]
	strb	w12, [x11, #49]
	ldrb	w12, [sp, #66]
	strb	w12, [x11, #50]
	ldrb	w12, [sp, #67]
	strb	w12, [x11, #51]
	ldrb	w12, [sp, #68]
	strb	w12, [x11, #52]
	ldrb	w12, [sp, #69]
	strb	w12, [x11, #53]
	ldrb	w12, [sp, #70]
	strb	w12, [x11, #54]
	ldrb	w12, [sp, #71]
	strb	w12, [x11, #55]
	ldrb	w12, [sp, #72]
	strb	w12, [x11, #56]
	ldrb	w12, [sp, #73]
	strb	w12, [x11, #57]
	ldrb	w12, [sp, #74]
	strb	w12, [x11, #58]
	ldrb	w12, [sp, #75]
	strb	w12, [x11, #59]
	ldrb	w12, [sp, #76]
	strb	w12, [x11, #60]
	ldrb	w12, [sp, #77]
	strb	w12, [x11, #61]
	ldrb	w12, [sp, #78]
	strb	w12, [x11, #62]
	ldrb	w12, [sp, #79]
	strb	w12, [x11, #63]
	b	.LBB51_24
.LBB51_23:                              // %apart.2.i.i.i
                                        //   in Loop: Header=BB51_20 Depth=1
	ldp	q1, q0, [sp, #48]
	ldp	q2, q3, [sp, #16]
	stp	q1, q0, [x11, #32]
	stp	q2, q3, [x11]
.LBB51_24:                              // %"core::slots::Slots::copy_in::<i8,20'core::clone::U8Clone{}>.exit.i"
                                        //   in Loop: Header=BB51_20 Depth=1
	add	x9, x9, #64
	str	x8, [x19, #16]
	stp	x10, x9, [x19]
.LBB51_25:                              // %"std_alloc::vec::Vec::extend_from_slice::<#0cd040e5c49bc722>.exit"
                                        //   in Loop: Header=BB51_20 Depth=1
	sub	x22, x22, #64
	add	x23, x23, #64
	cmp	x22, #63
	b.hi	.LBB51_20
	b	.LBB51_28
.LBB51_26:                              // %"std_alloc::vec::Vec::grow::<#5fdc5e19576447a7>.exit.i"
                                        //   in Loop: Header=BB51_20 Depth=1
	mov	x0, x19
	mov	w1, #64                         // =0x40
	bl	"std_alloc::vec::Vec::grow_amortized::<#5fdc5e19576447a7>"
	cbz	w0, .LBB51_25
// %bb.27:                              // %"std_alloc::vec::Vec::grow::<#5fdc5e19576447a7>.exit.join.3_crit_edge.i"
                                        //   in Loop: Header=BB51_20 Depth=1
	ldp	x9, x8, [x19, #8]
	b	.LBB51_21
.LBB51_28:                              // %"recoding::turned::put_blocks::<#d5cbf36e45a151c2>.exit"
	cmp	x22, #16
	b.hs	.LBB51_31
	b	.LBB51_34
.LBB51_29:                              // %"std_alloc::vec::Vec::grow::<#5fdc5e19576447a7>.exit.i109"
                                        //   in Loop: Header=BB51_31 Depth=1
	mov	x0, x19
	mov	w1, #16                         // =0x10
	str	q0, [sp]                        // 16-byte Spill
	bl	"std_alloc::vec::Vec::grow_amortized::<#5fdc5e19576447a7>"
	cbz	w0, .LBB51_33
// %bb.30:                              // %"std_alloc::vec::Vec::grow::<#5fdc5e19576447a7>.exit.join.3_crit_edge.i111"
                                        //   in Loop: Header=BB51_31 Depth=1
	ldp	x9, x8, [x19, #8]
	ldr	q0, [sp]                        // 16-byte Reload
	b	.LBB51_32
.LBB51_31:                              // %join.5.i21
                                        // =>This Inner Loop Header: Depth=1
	ldp	x9, x8, [x19, #8]
	ldr	q0, [x23], #16
	sub	x10, x8, x9
	cmp	x10, #15
	b.ls	.LBB51_29
.LBB51_32:                              // %join.3.i89
                                        //   in Loop: Header=BB51_31 Depth=1
	rev16	v0.16b, v0.16b
	ldr	x10, [x19]
	str	q0, [x10, x9]
	add	x9, x9, #16
	stp	x10, x9, [x19]
	str	x8, [x19, #16]
.LBB51_33:                              // %"std_alloc::vec::Vec::extend_from_slice::<#0cd040e5c49bc722>.exit114"
                                        //   in Loop: Header=BB51_31 Depth=1
	sub	x22, x22, #16
	cmp	x22, #15
	b.hi	.LBB51_31
.LBB51_34:                              // %"recoding::turned::put_blocks::<#efb3fef4d0ff1bf7>.exit"
	add	x8, x20, x21
	ldur	q0, [x8, #-16]
	ldp	x8, x20, [x19, #8]
	rev16	v0.16b, v0.16b
	sub	x9, x20, x8
	cmp	x22, x9
	str	q0, [sp, #16]
	b.hi	.LBB51_37
.LBB51_35:                              // %join.3.i119
	add	x9, sp, #16
	ldr	x23, [x19]
	mov	x2, x22
	sub	x9, x9, x22
	add	x24, x8, x22
	add	x0, x23, x8
	add	x1, x9, #16
	bl	memcpy
	stp	x23, x24, [x19]
	str	x20, [x19, #16]
.LBB51_36:                              // %common.ret
	mov	x0, x21
	.cfi_def_cfa wsp, 176
	ldp	x20, x19, [sp, #160]            // 16-byte Folded Reload
	ldp	x22, x21, [sp, #144]            // 16-byte Folded Reload
	ldp	x24, x23, [sp, #128]            // 16-byte Folded Reload
	ldp	x29, x30, [sp, #112]            // 16-byte Folded Reload
	add	sp, sp, #176
	.cfi_def_cfa_offset 0
	.cfi_restore w19
	.cfi_restore w20
	.cfi_restore w21
	.cfi_restore w22
	.cfi_restore w23
	.cfi_restore w24
	.cfi_restore w30
	.cfi_restore w29
	ret
.LBB51_37:                              // %"std_alloc::vec::Vec::grow::<#5fdc5e19576447a7>.exit.i139"
	.cfi_restore_state
	mov	x0, x19
	mov	x1, x22
	bl	"std_alloc::vec::Vec::grow_amortized::<#5fdc5e19576447a7>"
	cbz	w0, .LBB51_36
// %bb.38:                              // %"std_alloc::vec::Vec::grow::<#5fdc5e19576447a7>.exit.join.3_crit_edge.i141"
	ldp	x8, x20, [x19, #8]
	b	.LBB51_35
.Lfunc_end51:
	.size	"recoding::turned::copy_units::<#671af64cce331956>", .Lfunc_end51-"recoding::turned::copy_units::<#671af64cce331956>"
	.cfi_endproc
                                        // -- End function
	.section	.rodata.cst16,"aM",@progbits,16
	.p2align	4, 0x0                          // -- Begin function recoding::kernels::put_windows::<#e34f862aaeb63555>
.LCPI52_0:
	.byte	1                               // 0x1
	.byte	2                               // 0x2
	.byte	4                               // 0x4
	.byte	8                               // 0x8
	.byte	16                              // 0x10
	.byte	32                              // 0x20
	.byte	64                              // 0x40
	.byte	128                             // 0x80
	.byte	1                               // 0x1
	.byte	2                               // 0x2
	.byte	4                               // 0x4
	.byte	8                               // 0x8
	.byte	16                              // 0x10
	.byte	32                              // 0x20
	.byte	64                              // 0x40
	.byte	128                             // 0x80
	.section	".text.recoding::kernels::put_windows::<#e34f862aaeb63555>","ax",@progbits
	.p2align	2
	.type	"recoding::kernels::put_windows::<#e34f862aaeb63555>",@function
"recoding::kernels::put_windows::<#e34f862aaeb63555>": // @"recoding::kernels::put_windows::<#e34f862aaeb63555>"
	.cfi_startproc
// %bb.0:                               // %start
	sub	sp, sp, #192
	.cfi_def_cfa_offset 192
	stp	x29, x30, [sp, #96]             // 16-byte Folded Spill
	stp	x28, x27, [sp, #112]            // 16-byte Folded Spill
	stp	x26, x25, [sp, #128]            // 16-byte Folded Spill
	stp	x24, x23, [sp, #144]            // 16-byte Folded Spill
	stp	x22, x21, [sp, #160]            // 16-byte Folded Spill
	stp	x20, x19, [sp, #176]            // 16-byte Folded Spill
	add	x29, sp, #96
	.cfi_def_cfa w29, 96
	.cfi_offset w19, -8
	.cfi_offset w20, -16
	.cfi_offset w21, -24
	.cfi_offset w22, -32
	.cfi_offset w23, -40
	.cfi_offset w24, -48
	.cfi_offset w25, -56
	.cfi_offset w26, -64
	.cfi_offset w27, -72
	.cfi_offset w28, -80
	.cfi_offset w30, -88
	.cfi_offset w29, -96
	mov	x21, x2
	mov	x23, x0
	mov	x19, xzr
	mov	x20, xzr
	mov	x24, xzr
	str	x1, [sp, #8]                    // 8-byte Spill
.LBB52_1:                               // %then.6
                                        // =>This Inner Loop Header: Depth=1
	ldp	x8, x25, [x21, #8]
	sub	x9, x25, x8
	cmp	x9, #112
	b.lo	.LBB52_11
// %bb.2:                               // %join.3.i
                                        //   in Loop: Header=BB52_1 Depth=1
	add	x9, x23, x19
	movi	v6.16b, #54
	movi	v19.2d, #0000000000000000
	ldp	q0, q2, [x9]
	movi	v17.16b, #55
	ldp	q4, q5, [x9, #32]
	movi	v22.16b, #216
	adrp	x9, .LCPI52_0
	ldr	x27, [x21]
	add	x22, x8, #32
	uzp2	v1.16b, v0.16b, v2.16b
	uzp1	v0.16b, v0.16b, v2.16b
	uzp2	v3.16b, v4.16b, v5.16b
	uzp1	v4.16b, v4.16b, v5.16b
	movi	v5.16b, #253
	add	x10, x27, x8
	sub	x8, x25, x22
	ushr	v16.16b, v1.16b, #2
	ushr	v7.16b, v3.16b, #2
	cmeq	v18.16b, v16.16b, v6.16b
	cmeq	v16.16b, v16.16b, v17.16b
	cmeq	v6.16b, v7.16b, v6.16b
	cmeq	v7.16b, v7.16b, v17.16b
	ext	v19.16b, v19.16b, v18.16b, #15
	ext	v20.16b, v18.16b, v6.16b, #15
	mov	v6.b[15], wzr
	eor	v19.16b, v19.16b, v16.16b
	eor	v17.16b, v20.16b, v7.16b
	movi	v20.16b, #252
	ext	v21.16b, v17.16b, v16.16b, #1
	ext	v23.16b, v19.16b, v17.16b, #1
	and	v7.16b, v7.16b, v17.16b
	and	v24.16b, v3.16b, v20.16b
	and	v17.16b, v1.16b, v20.16b
	and	v16.16b, v16.16b, v19.16b
	ldr	q20, [x9, :lo12:.LCPI52_0]
	mov	w9, #62                         // =0x3e
	and	v6.16b, v6.16b, v21.16b
	and	v18.16b, v18.16b, v23.16b
	cmeq	v19.16b, v24.16b, v22.16b
	cmeq	v17.16b, v17.16b, v22.16b
	orr	v6.16b, v6.16b, v7.16b
	orr	v7.16b, v18.16b, v16.16b
	and	v16.16b, v17.16b, v20.16b
	and	v17.16b, v19.16b, v20.16b
	cmeq	v6.16b, v6.16b, #0
	cmeq	v7.16b, v7.16b, #0
	addp	v2.16b, v16.16b, v17.16b
	bif	v4.16b, v5.16b, v6.16b
	bif	v0.16b, v5.16b, v7.16b
	orn	v3.16b, v3.16b, v6.16b
	addp	v2.16b, v2.16b, v2.16b
	orn	v1.16b, v1.16b, v7.16b
	stp	q6, q20, [sp, #32]              // 32-byte Folded Spill
	str	q7, [sp, #16]                   // 16-byte Spill
	addp	v2.16b, v2.16b, v2.16b
	zip1	v5.16b, v3.16b, v4.16b
	zip2	v3.16b, v3.16b, v4.16b
	zip1	v4.16b, v1.16b, v0.16b
	zip2	v0.16b, v1.16b, v0.16b
	fmov	w11, s2
	stp	q5, q3, [x29, #-32]
	stp	q4, q0, [x10]
	cmn	w11, #1
	mov	w11, #64                        // =0x40
	stp	x27, x22, [x21]
	csel	x26, x11, x9, gt
	str	x25, [x21, #16]
	sub	x28, x26, #32
	cmp	x28, x8
	b.hi	.LBB52_9
.LBB52_3:                               // %join.3.i109
                                        //   in Loop: Header=BB52_1 Depth=1
	add	x8, x27, x22
	sub	x9, x29, #32
	add	x0, x27, x22
	sub	x8, x8, x9
	sub	x1, x29, #32
	sub	x2, x26, #32
	cmp	x8, x28
	b.hs	.LBB52_5
// %bb.4:                               // %join.7.i.i.i122.preheader
                                        //   in Loop: Header=BB52_1 Depth=1
	bl	memcpy
	b	.LBB52_6
.LBB52_5:                               // %apart.2.i.i.i119
                                        //   in Loop: Header=BB52_1 Depth=1
	bl	memmove
.LBB52_6:                               // %"core::slots::Slots::copy_in::<i8,20'core::clone::U8Clone{}>.exit.i120"
                                        //   in Loop: Header=BB52_1 Depth=1
	add	x8, x22, x28
	str	x25, [x21, #16]
	stp	x27, x8, [x21]
.LBB52_7:                               // %"std_alloc::vec::Vec::extend_from_slice::<#0cd040e5c49bc722>.exit134"
                                        //   in Loop: Header=BB52_1 Depth=1
	ldp	q2, q1, [sp, #32]               // 32-byte Folded Reload
	add	x19, x26, x19
	ldr	q0, [sp, #16]                   // 16-byte Reload
	bic	v0.16b, v1.16b, v0.16b
	bic	v1.16b, v1.16b, v2.16b
	addp	v0.16b, v0.16b, v1.16b
	addp	v0.16b, v0.16b, v0.16b
	addp	v0.16b, v0.16b, v0.16b
	fmov	w8, s0
	fmov	s0, w8
	cmp	w8, #0
	mov	w8, #8                          // =0x8
	csinc	x24, xzr, x24, ne
	cnt	v0.8b, v0.8b
	addv	b0, v0.8b
	fmov	w9, s0
	add	x20, x20, x9
	cmp	x20, #8
	csel	x8, x20, x8, lo
	cmp	x24, x8
	b.hi	.LBB52_11
// %bb.8:                               // %"std_alloc::vec::Vec::extend_from_slice::<#0cd040e5c49bc722>.exit134"
                                        //   in Loop: Header=BB52_1 Depth=1
	ldr	x8, [sp, #8]                    // 8-byte Reload
	sub	x8, x8, x19
	cmp	x8, #63
	b.hi	.LBB52_1
	b	.LBB52_11
.LBB52_9:                               // %"std_alloc::vec::Vec::grow::<#5fdc5e19576447a7>.exit.i129"
                                        //   in Loop: Header=BB52_1 Depth=1
	sub	x1, x26, #32
	mov	x0, x21
	bl	"std_alloc::vec::Vec::grow_amortized::<#5fdc5e19576447a7>"
	cbz	w0, .LBB52_7
// %bb.10:                              // %"std_alloc::vec::Vec::grow::<#5fdc5e19576447a7>.exit.join.3_crit_edge.i131"
                                        //   in Loop: Header=BB52_1 Depth=1
	ldp	x22, x25, [x21, #8]
	ldr	x27, [x21]
	b	.LBB52_3
.LBB52_11:                              // %after.1
	mov	x0, x19
	mov	x1, x20
	.cfi_def_cfa wsp, 192
	ldp	x20, x19, [sp, #176]            // 16-byte Folded Reload
	ldp	x22, x21, [sp, #160]            // 16-byte Folded Reload
	ldp	x24, x23, [sp, #144]            // 16-byte Folded Reload
	ldp	x26, x25, [sp, #128]            // 16-byte Folded Reload
	ldp	x28, x27, [sp, #112]            // 16-byte Folded Reload
	ldp	x29, x30, [sp, #96]             // 16-byte Folded Reload
	add	sp, sp, #192
	.cfi_def_cfa_offset 0
	.cfi_restore w19
	.cfi_restore w20
	.cfi_restore w21
	.cfi_restore w22
	.cfi_restore w23
	.cfi_restore w24
	.cfi_restore w25
	.cfi_restore w26
	.cfi_restore w27
	.cfi_restore w28
	.cfi_restore w30
	.cfi_restore w29
	ret
.Lfunc_end52:
	.size	"recoding::kernels::put_windows::<#e34f862aaeb63555>", .Lfunc_end52-"recoding::kernels::put_windows::<#e34f862aaeb63555>"
	.cfi_endproc
                                        // -- End function
	.section	".text.recoding::engine::recode_faults::<#8dadd7d4866406da>","ax",@progbits
	.p2align	2                               // -- Begin function recoding::engine::recode_faults::<#8dadd7d4866406da>
	.type	"recoding::engine::recode_faults::<#8dadd7d4866406da>",@function
"recoding::engine::recode_faults::<#8dadd7d4866406da>": // @"recoding::engine::recode_faults::<#8dadd7d4866406da>"
	.cfi_startproc
// %bb.0:                               // %start
	ldrb	w10, [x1]
	ldr	x11, [x1, #16]
	mov	x9, xzr
	mov	x8, xzr
	cmp	w10, #2
	ccmp	x11, #0, #0, eq
	mov	w11, #16                        // =0x10
	cset	w10, ne
	b	.LBB53_2
.LBB53_1:                               // %"recoding::text::Utf16Text::put_any::<#f52bd5352b4cd2db>.exit"
                                        //   in Loop: Header=BB53_2 Depth=1
	add	x8, x8, #1
	mov	w12, #2                         // =0x2
	add	x9, x12, x9
	cmp	x9, x11
	b.hs	.LBB53_14
.LBB53_2:                               // %join.5
                                        // =>This Inner Loop Header: Depth=1
	add	x12, x9, #4
	add	x14, x2, x9
	cmp	x12, x3
	b.ls	.LBB53_7
// %bb.3:                               // %join.3.i
                                        //   in Loop: Header=BB53_2 Depth=1
	sub	x17, x3, x9
	cmp	x17, #2
	b.lo	.LBB53_15
// %bb.4:                               // %join.3.i.i
                                        //   in Loop: Header=BB53_2 Depth=1
	ldrb	w15, [x14, #1]
	mov	w13, #56320                     // =0xdc00
	lsl	w16, w15, #8
	and	w1, w16, #0xfc00
	cmp	w1, w13
	b.eq	.LBB53_11
// %bb.5:                               // %join.3.i.i
                                        //   in Loop: Header=BB53_2 Depth=1
	mov	w5, #55296                      // =0xd800
	ldrb	w13, [x14]
	cmp	w1, w5
	b.ne	.LBB53_13
// %bb.6:                               // %join.6.i.i
                                        //   in Loop: Header=BB53_2 Depth=1
	cmp	x17, #4
	b.hs	.LBB53_9
	b	.LBB53_15
.LBB53_7:                               // %then.1.i
                                        //   in Loop: Header=BB53_2 Depth=1
	ldrb	w15, [x14, #1]
	mov	w13, #56320                     // =0xdc00
	lsl	w16, w15, #8
	and	w17, w16, #0xfc00
	cmp	w17, w13
	b.eq	.LBB53_11
// %bb.8:                               // %then.1.i
                                        //   in Loop: Header=BB53_2 Depth=1
	mov	w1, #55296                      // =0xd800
	ldrb	w13, [x14]
	cmp	w17, w1
	b.ne	.LBB53_13
.LBB53_9:                               // %join.15.i258.i
                                        //   in Loop: Header=BB53_2 Depth=1
	ldrb	w15, [x14, #3]
	and	w17, w15, #0xfc
	cmp	w17, #220
	b.ne	.LBB53_11
// %bb.10:                              // %arm.14.i109.i
                                        //   in Loop: Header=BB53_2 Depth=1
	ldrb	w12, [x14, #2]
	and	w14, w16, #0x300
	orr	w13, w14, w13
	bfi	w12, w15, #8, #2
	ldp	x15, x14, [x4]
	orr	w12, w12, w13, lsl #10
	mov	w13, #-10304                    // =0xffffd7c0
	add	w12, w12, #16, lsl #12          // =65536
	add	w13, w13, w12, lsr #10
	lsr	w16, w13, #8
	strb	w16, [x15, x14]
	ldr	x15, [x4]
	add	x15, x15, x14
	strb	w13, [x15, #1]
	mov	w13, #220                       // =0xdc
	ldr	x15, [x4]
	bfxil	w13, w12, #8, #2
	add	x15, x15, x14
	strb	w13, [x15, #2]
	ldr	x13, [x4]
	add	x13, x13, x14
	add	x14, x14, #4
	strb	w12, [x13, #3]
	mov	w12, #4                         // =0x4
	str	x14, [x4, #8]
	add	x9, x12, x9
	cmp	x9, x11
	b.lo	.LBB53_2
	b	.LBB53_14
.LBB53_11:                              // %arm.11
                                        //   in Loop: Header=BB53_2 Depth=1
	cmp	x12, #32
	mov	w11, #32                        // =0x20
	csel	x11, x12, x11, lo
	cbz	w10, .LBB53_1
// %bb.12:                              // %"recoding::text::Utf16Text::put_code::<#f52bd5352b4cd2db>.exit.i.i"
                                        //   in Loop: Header=BB53_2 Depth=1
	ldp	x13, x12, [x4]
	mov	w14, #255                       // =0xff
	strb	w14, [x13, x12]
	mov	w14, #253                       // =0xfd
	ldr	x13, [x4]
	add	x13, x13, x12
	add	x12, x12, #2
	strb	w14, [x13, #1]
	str	x12, [x4, #8]
	b	.LBB53_1
.LBB53_13:                              // %arm.1.i
                                        //   in Loop: Header=BB53_2 Depth=1
	ldp	x14, x12, [x4]
	strb	w15, [x14, x12]
	ldr	x14, [x4]
	add	x14, x14, x12
	add	x12, x12, #2
	strb	w13, [x14, #1]
	str	x12, [x4, #8]
	mov	w12, #2                         // =0x2
	add	x9, x12, x9
	cmp	x9, x11
	b.lo	.LBB53_2
.LBB53_14:                              // %after.1
	stp	x9, x8, [x0]
	str	xzr, [x0, #16]
	ret
.LBB53_15:                              // %arm.7
	stp	x9, x8, [x0]
	mov	w8, #256                        // =0x100
	strh	w8, [x0, #16]
	stur	wzr, [x0, #18]
	strh	wzr, [x0, #22]
	ret
.Lfunc_end53:
	.size	"recoding::engine::recode_faults::<#8dadd7d4866406da>", .Lfunc_end53-"recoding::engine::recode_faults::<#8dadd7d4866406da>"
	.cfi_endproc
                                        // -- End function
	.section	".text.recoding::recoder_runs::run_whole::<#8e1925640e2330c5>","ax",@progbits
	.p2align	2                               // -- Begin function recoding::recoder_runs::run_whole::<#8e1925640e2330c5>
	.type	"recoding::recoder_runs::run_whole::<#8e1925640e2330c5>",@function
"recoding::recoder_runs::run_whole::<#8e1925640e2330c5>": // @"recoding::recoder_runs::run_whole::<#8e1925640e2330c5>"
	.cfi_startproc
// %bb.0:                               // %start
	sub	sp, sp, #128
	.cfi_def_cfa_offset 128
	stp	x29, x30, [sp, #64]             // 16-byte Folded Spill
	str	x23, [sp, #80]                  // 8-byte Spill
	stp	x22, x21, [sp, #96]             // 16-byte Folded Spill
	stp	x20, x19, [sp, #112]            // 16-byte Folded Spill
	add	x29, sp, #64
	.cfi_def_cfa w29, 64
	.cfi_offset w19, -8
	.cfi_offset w20, -16
	.cfi_offset w21, -24
	.cfi_offset w22, -32
	.cfi_offset w23, -48
	.cfi_offset w30, -56
	.cfi_offset w29, -64
	mov	x22, x2
	mov	x21, x1
	mov	x23, x0
	mov	x19, xzr
	mov	x20, xzr
	b	.LBB54_2
.LBB54_1:                               // %"recoding::kernels::put_damaged_units::<#2b5f88d210fed041>.exit"
                                        //   in Loop: Header=BB54_2 Depth=1
	add	x0, x23, x20
	mov	x2, x22
	bl	"recoding::kernels::put_windows::<#2b5f88d210fed041>"
	add	x20, x0, x20
	add	x19, x1, x19
	cbz	x0, .LBB54_6
.LBB54_2:                               // %loop.2.i
                                        // =>This Loop Header: Depth=1
                                        //     Child Loop BB54_9 Depth 2
	add	x0, x23, x20
	sub	x1, x21, x20
	mov	x2, x22
	bl	"recoding::kernels::NarrowedKernelUtf16Utf8::put_text::<#adf464b980d50768>"
	lsr	x8, x0, #2
	add	x20, x0, x20
	cmp	x8, #2046
	b.hi	.LBB54_2
// %bb.3:                               // %join.5.i
                                        //   in Loop: Header=BB54_2 Depth=1
	subs	x1, x21, x20
	b.eq	.LBB54_22
// %bb.4:                               // %join.8.i
                                        //   in Loop: Header=BB54_2 Depth=1
	cmp	x1, #64
	b.hs	.LBB54_1
// %bb.5:                               // %join.14.i
                                        //   in Loop: Header=BB54_2 Depth=1
	cmp	x1, #128
	mov	w8, #128                        // =0x80
	csel	x9, x1, x8, lo
	cmp	x1, #2
	b.hs	.LBB54_7
	b	.LBB54_19
.LBB54_6:                               // %"recoding::kernels::put_damaged_units::<#2b5f88d210fed041>.exit.join.14.i_crit_edge"
                                        //   in Loop: Header=BB54_2 Depth=1
	sub	x1, x21, x20
	cmp	x1, #128
	mov	w8, #128                        // =0x80
	csel	x9, x1, x8, lo
	cmp	x1, #2
	b.lo	.LBB54_19
.LBB54_7:                               // %join.5.i36.preheader
                                        //   in Loop: Header=BB54_2 Depth=1
	mov	x8, xzr
	add	x10, x23, x20
	mov	x14, x9
	b	.LBB54_9
.LBB54_8:                               // %then.1.i.i
                                        //   in Loop: Header=BB54_9 Depth=2
	ldp	x12, x11, [x22]
	strb	w15, [x12, x11]
	add	x11, x11, #1
	str	x11, [x22, #8]
	mov	w11, #2                         // =0x2
	add	x8, x11, x8
	sub	x14, x9, x8
	cmp	x14, #1
	b.ls	.LBB54_18
.LBB54_9:                               // %join.5.i36
                                        //   Parent Loop BB54_2 Depth=1
                                        // =>  This Inner Loop Header: Depth=2
	add	x12, x10, x8
	mov	w17, #55296                     // =0xd800
	ldrb	w13, [x12]
	ldrb	w15, [x12, #1]
	lsl	w16, w13, #8
	mov	w11, w15
	bfi	w11, w13, #8, #8
	and	w16, w16, #0xfc00
	cmp	w16, w17
	b.eq	.LBB54_14
// %bb.10:                              // %join.5.i36
                                        //   in Loop: Header=BB54_9 Depth=2
	mov	w12, #56320                     // =0xdc00
	cmp	w16, w12
	b.eq	.LBB54_18
// %bb.11:                              // %arm.7.i
                                        //   in Loop: Header=BB54_9 Depth=2
	cmp	w11, #128
	b.lo	.LBB54_8
// %bb.12:                              // %join.3.i.i
                                        //   in Loop: Header=BB54_9 Depth=2
	mov	w12, #128                       // =0x80
	cmp	w13, #8
	mov	w14, #128                       // =0x80
	bfxil	w12, w11, #0, #6
	b.hs	.LBB54_17
// %bb.13:                              // %then.4.i.i
                                        //   in Loop: Header=BB54_9 Depth=2
	ldp	x14, x13, [x22]
	lsr	w11, w11, #6
	orr	w11, w11, #0xc0
	strb	w11, [x14, x13]
	ldr	x11, [x22]
	add	x11, x11, x13
	add	x13, x13, #2
	strb	w12, [x11, #1]
	str	x13, [x22, #8]
	mov	w11, #2                         // =0x2
	add	x8, x11, x8
	sub	x14, x9, x8
	cmp	x14, #1
	b.hi	.LBB54_9
	b	.LBB54_18
.LBB54_14:                              // %join.6.i
                                        //   in Loop: Header=BB54_9 Depth=2
	cmp	x14, #4
	b.lo	.LBB54_18
// %bb.15:                              // %join.15.i65.i
                                        //   in Loop: Header=BB54_9 Depth=2
	ldrb	w13, [x12, #2]
	and	w14, w13, #0xfc
	cmp	w14, #220
	b.ne	.LBB54_18
// %bb.16:                              // %join.7.i.i
                                        //   in Loop: Header=BB54_9 Depth=2
	ubfiz	w14, w11, #10, #10
	ldp	x16, x15, [x22]
	ldrb	w12, [x12, #3]
	add	w14, w14, #16, lsl #12          // =65536
	lsr	w17, w14, #18
	orr	w17, w17, #0xf0
	strb	w17, [x16, x15]
	mov	w16, #128                       // =0x80
	mov	w17, w12
	ldr	x0, [x22]
	bfxil	w16, w14, #12, #6
	bfi	w17, w13, #8, #2
	add	x13, x0, x15
	bfi	w17, w11, #10, #10
	strb	w16, [x13, #1]
	mov	w11, #128                       // =0x80
	ldr	x13, [x22]
	bfxil	w11, w17, #6, #6
	add	x13, x13, x15
	strb	w11, [x13, #2]
	mov	w11, #128                       // =0x80
	ldr	x13, [x22]
	bfxil	w11, w12, #0, #6
	add	x12, x13, x15
	add	x13, x15, #4
	strb	w11, [x12, #3]
	mov	w11, #4                         // =0x4
	str	x13, [x22, #8]
	add	x8, x11, x8
	sub	x14, x9, x8
	cmp	x14, #1
	b.hi	.LBB54_9
	b	.LBB54_18
.LBB54_17:                              // %join.7.i.i.thread
                                        //   in Loop: Header=BB54_9 Depth=2
	ldp	x16, x15, [x22]
	lsr	w13, w13, #4
	bfxil	w14, w11, #6, #6
	orr	w13, w13, #0xe0
	strb	w13, [x16, x15]
	ldr	x13, [x22]
	add	x11, x13, x15
	add	x13, x15, #3
	strb	w14, [x11, #1]
	ldr	x11, [x22]
	add	x11, x11, x15
	strb	w12, [x11, #2]
	str	x13, [x22, #8]
	mov	w11, #2                         // =0x2
	add	x8, x11, x8
	sub	x14, x9, x8
	cmp	x14, #1
	b.hi	.LBB54_9
.LBB54_18:                              // %"recoding::engine::recode_text::<#33bf286c3e467979>.exit"
                                        //   in Loop: Header=BB54_2 Depth=1
	cmp	x8, #124
	add	x20, x8, x20
	b.hi	.LBB54_2
.LBB54_19:                              // %then.15.i
                                        //   in Loop: Header=BB54_2 Depth=1
	subs	x3, x21, x20
	b.eq	.LBB54_22
// %bb.20:                              // %join.20.i
                                        //   in Loop: Header=BB54_2 Depth=1
	movi	v0.2d, #0000000000000000
	sub	x0, x29, #24
	mov	x1, sp
	add	x2, x23, x20
	mov	x4, x22
	stp	xzr, xzr, [x29, #-16]
	stur	xzr, [x29, #-24]
	str	xzr, [sp, #32]
	stp	q0, q0, [sp]
	bl	"recoding::engine::recode_faults::<#e857034c7a7c407f>"
	ldp	x8, x9, [x29, #-24]
	ldurb	w10, [x29, #-8]
	add	x20, x8, x20
	add	x19, x9, x19
	tbnz	w10, #0, .LBB54_23
// %bb.21:                              // %join.20.i
                                        //   in Loop: Header=BB54_2 Depth=1
	ldurb	w8, [x29, #-7]
	tbz	w8, #0, .LBB54_2
	b	.LBB54_23
.LBB54_22:
	mov	x20, x21
.LBB54_23:                              // %"recoding::engine::run::<#0eb0a5591a2f9e7a>.exit"
	mov	x0, x20
	mov	x1, x19
	.cfi_def_cfa wsp, 128
	ldp	x20, x19, [sp, #112]            // 16-byte Folded Reload
	ldr	x23, [sp, #80]                  // 8-byte Reload
	ldp	x22, x21, [sp, #96]             // 16-byte Folded Reload
	ldp	x29, x30, [sp, #64]             // 16-byte Folded Reload
	add	sp, sp, #128
	.cfi_def_cfa_offset 0
	.cfi_restore w19
	.cfi_restore w20
	.cfi_restore w21
	.cfi_restore w22
	.cfi_restore w23
	.cfi_restore w30
	.cfi_restore w29
	ret
.Lfunc_end54:
	.size	"recoding::recoder_runs::run_whole::<#8e1925640e2330c5>", .Lfunc_end54-"recoding::recoder_runs::run_whole::<#8e1925640e2330c5>"
	.cfi_endproc
                                        // -- End function
	.section	.rodata.cst16,"aM",@progbits,16
	.p2align	4, 0x0                          // -- Begin function recoding::kernels::NarrowedKernelUtf16Utf8::put_text::<#adf464b980d50768>
.LCPI55_0:
	.byte	1                               // 0x1
	.byte	2                               // 0x2
	.byte	4                               // 0x4
	.byte	8                               // 0x8
	.byte	16                              // 0x10
	.byte	32                              // 0x20
	.byte	64                              // 0x40
	.byte	128                             // 0x80
	.byte	1                               // 0x1
	.byte	2                               // 0x2
	.byte	4                               // 0x4
	.byte	8                               // 0x8
	.byte	16                              // 0x10
	.byte	32                              // 0x20
	.byte	64                              // 0x40
	.byte	128                             // 0x80
	.section	".text.recoding::kernels::NarrowedKernelUtf16Utf8::put_text::<#adf464b980d50768>","ax",@progbits
	.p2align	2
	.type	"recoding::kernels::NarrowedKernelUtf16Utf8::put_text::<#adf464b980d50768>",@function
"recoding::kernels::NarrowedKernelUtf16Utf8::put_text::<#adf464b980d50768>": // @"recoding::kernels::NarrowedKernelUtf16Utf8::put_text::<#adf464b980d50768>"
	.cfi_startproc
// %bb.0:                               // %start
	cmp	x1, #32
	b.lo	.LBB55_16
// %bb.1:                               // %then.3.i.lr.ph
	ldp	x10, x12, [x2, #8]
	sub	x8, x12, x10
	cmp	x8, #64
	b.lo	.LBB55_17
// %bb.2:                               // %join.5.i.preheader
	mov	x8, xzr
	mov	x9, x1
.LBB55_3:                               // %join.5.i
                                        // =>This Inner Loop Header: Depth=1
	add	x11, x0, x8
	ldp	q1, q2, [x11]
	adrp	x11, .LCPI55_0
	uzp2	v0.16b, v1.16b, v2.16b
	uzp1	v2.16b, v1.16b, v2.16b
	ushr	v1.16b, v0.16b, #7
	orr	v1.16b, v1.16b, v2.16b
	cmeq	v3.16b, v1.16b, #0
	ldr	q1, [x11, :lo12:.LCPI55_0]
	bic	v3.16b, v1.16b, v3.16b
	addp	v3.16b, v3.16b, v3.16b
	addp	v3.16b, v3.16b, v3.16b
	addp	v3.16b, v3.16b, v3.16b
	umov	w11, v3.h[0]
	cbz	w11, .LBB55_8
// %bb.4:                               // %join.3.i57
                                        //   in Loop: Header=BB55_3 Depth=1
	movi	v3.16b, #7
	movi	v4.2d, #0000000000000000
	ldr	x11, [x2]
	add	x13, x11, x10
	cmhi	v3.16b, v2.16b, v3.16b
	stp	q4, q4, [x13]
	stp	q4, q4, [x13, #32]
	add	x13, x10, #64
	stp	x11, x13, [x2]
	and	v3.16b, v3.16b, v1.16b
	str	x12, [x2, #16]
	addp	v3.16b, v3.16b, v3.16b
	addp	v3.16b, v3.16b, v3.16b
	addp	v3.16b, v3.16b, v3.16b
	umov	w14, v3.h[0]
	cbz	w14, .LBB55_9
// %bb.5:                               // %join.3.i35.i
                                        //   in Loop: Header=BB55_3 Depth=1
	movi	v3.16b, #248
	movi	v4.16b, #216
	and	v6.16b, v2.16b, v3.16b
	cmeq	v3.16b, v6.16b, v4.16b
	and	v3.16b, v3.16b, v1.16b
	addp	v3.16b, v3.16b, v3.16b
	addp	v3.16b, v3.16b, v3.16b
	addp	v3.16b, v3.16b, v3.16b
	umov	w12, v3.h[0]
	cbz	w12, .LBB55_14
// %bb.6:                               // %join.7.i.i
                                        //   in Loop: Header=BB55_3 Depth=1
	movi	v3.16b, #54
	ushr	v5.16b, v2.16b, #2
	movi	v7.16b, #55
	cmeq	v4.16b, v5.16b, v3.16b
	cmeq	v3.16b, v5.16b, v7.16b
	and	v5.16b, v4.16b, v1.16b
	and	v3.16b, v3.16b, v1.16b
	addp	v5.16b, v5.16b, v5.16b
	addp	v3.16b, v3.16b, v3.16b
	addp	v5.16b, v5.16b, v5.16b
	addp	v7.16b, v3.16b, v3.16b
	addp	v3.16b, v5.16b, v5.16b
	addp	v5.16b, v7.16b, v7.16b
	umov	w12, v3.h[0]
	umov	w13, v5.h[0]
	ubfiz	x12, x12, #1, #15
	cmp	x12, w13, uxth
	b.ne	.LBB55_15
// %bb.7:                               // %join.3.i251.i
                                        //   in Loop: Header=BB55_3 Depth=1
	movi	v5.16b, #60
	shl	v7.16b, v2.16b, #2
	adrp	x15, .Lstatic.20
	add	x15, x15, :lo12:.Lstatic.20
	movi	v16.16b, #12
	shl	v17.16b, v0.16b, #4
	movi	v19.16b, #2
	movi	v20.16b, #192
	movi	v22.16b, #8
	movi	v24.16b, #240
	movi	v25.16b, #3
	and	v18.16b, v7.16b, v5.16b
	movi	v5.16b, #48
	and	v21.16b, v7.16b, v16.16b
	movi	v7.16b, #216
	usra	v18.16b, v0.16b, #6
	and	v17.16b, v17.16b, v5.16b
	movi	v5.16b, #128
	usra	v21.16b, v0.16b, #6
	cmeq	v6.16b, v6.16b, v7.16b
	cmhi	v16.16b, v19.16b, v18.16b
	orr	v19.16b, v18.16b, v20.16b
	cmhi	v20.16b, v20.16b, v0.16b
	ext	v23.16b, v17.16b, v17.16b, #15
	cmhi	v17.16b, v22.16b, v2.16b
	movi	v22.16b, #241
	orr	v18.16b, v18.16b, v5.16b
	orr	v21.16b, v21.16b, v5.16b
	bic	v19.16b, v19.16b, v16.16b
	and	v16.16b, v17.16b, v16.16b
	bsl	v20.16b, v24.16b, v22.16b
	movi	v22.16b, #224
	bit	v18.16b, v19.16b, v17.16b
	orr	v19.16b, v21.16b, v23.16b
	and	v21.16b, v2.16b, v25.16b
	usra	v22.16b, v2.16b, #4
	bit	v18.16b, v19.16b, v6.16b
	add	v19.16b, v20.16b, v21.16b
	orr	v6.16b, v17.16b, v6.16b
	movi	v20.16b, #63
	movi	v21.16b, #16
	bsl	v4.16b, v19.16b, v18.16b
	bic	v18.16b, v22.16b, v6.16b
	and	v22.16b, v0.16b, v20.16b
	usra	v21.16b, v0.16b, #2
	zip1	v6.16b, v18.16b, v4.16b
	zip2	v4.16b, v18.16b, v4.16b
	orr	v17.16b, v22.16b, v5.16b
	bif	v0.16b, v17.16b, v16.16b
	cmlt	v19.16b, v6.16b, #0
	cmlt	v23.16b, v4.16b, #0
	and	v18.16b, v19.16b, v1.16b
	movi	v19.16b, #252
	and	v1.16b, v23.16b, v1.16b
	addp	v18.16b, v18.16b, v18.16b
	addp	v1.16b, v1.16b, v1.16b
	and	v2.16b, v2.16b, v19.16b
	and	v19.16b, v21.16b, v20.16b
	addp	v18.16b, v18.16b, v18.16b
	addp	v1.16b, v1.16b, v1.16b
	cmeq	v2.16b, v2.16b, v7.16b
	orr	v5.16b, v19.16b, v5.16b
	addp	v7.16b, v18.16b, v18.16b
	addp	v1.16b, v1.16b, v1.16b
	bit	v0.16b, v5.16b, v2.16b
	umov	w12, v7.h[0]
	umov	w14, v1.h[0]
	zip1	v2.16b, v0.16b, v0.16b
	zip2	v0.16b, v0.16b, v0.16b
	and	x13, x12, #0xff
	ubfx	x12, x12, #8, #8
	fmov	d5, x13
	ldr	q1, [x15, x13, lsl #4]
	zip1	v7.16b, v6.16b, v2.16b
	zip2	v2.16b, v6.16b, v2.16b
	fmov	d16, x12
	ldr	q6, [x15, x12, lsl #4]
	and	x12, x14, #0xff
	ubfx	x14, x14, #8, #8
	cnt	v5.8b, v5.8b
	cnt	v16.8b, v16.8b
	tbl	v2.16b, { v2.16b }, v6.16b
	fmov	d6, x14
	tbl	v1.16b, { v7.16b }, v1.16b
	fmov	w13, s5
	fmov	d5, x12
	fmov	w16, s16
	cnt	v6.8b, v6.8b
	str	q1, [x11, x10]
	zip1	v1.16b, v4.16b, v0.16b
	zip2	v0.16b, v4.16b, v0.16b
	cnt	v5.8b, v5.8b
	add	x13, x10, x13
	add	x13, x13, #4
	str	q2, [x11, x13]
	add	x13, x16, x13
	ldr	q2, [x15, x12, lsl #4]
	smov	w12, v3.h[0]
	ldr	q3, [x15, x14, lsl #4]
	fmov	w10, s5
	add	x13, x13, #4
	fmov	w14, s6
	tbl	v1.16b, { v1.16b }, v2.16b
	tbl	v0.16b, { v0.16b }, v3.16b
	add	x10, x13, x10
	cmn	w12, #1
	mov	w12, #15                        // =0xf
	add	x10, x10, #4
	str	q1, [x11, x13]
	cinc	x12, x12, gt
	add	x14, x14, x10
	str	q0, [x11, x10]
	add	x13, x14, #4
	add	x14, x14, #2
	csel	x10, x13, x14, gt
	ldr	x11, [x2, #8]
	cmp	x11, x10
	b.hi	.LBB55_10
	b	.LBB55_11
.LBB55_8:                               // %join.3.i
                                        //   in Loop: Header=BB55_3 Depth=1
	ldr	x9, [x2]
	str	q0, [x9, x10]
	add	x10, x10, #16
	stp	x9, x10, [x2]
	str	x12, [x2, #16]
	mov	w12, #16                        // =0x10
	b	.LBB55_12
.LBB55_9:                               // %then.1.i36.i
                                        //   in Loop: Header=BB55_3 Depth=1
	movi	v3.16b, #60
	shl	v4.16b, v2.16b, #2
	adrp	x14, .Lstatic.19
	add	x14, x14, :lo12:.Lstatic.19
	movi	v5.16b, #192
	movi	v6.16b, #8
	movi	v7.16b, #128
	and	v3.16b, v4.16b, v3.16b
	movi	v4.16b, #2
	cmhi	v2.16b, v6.16b, v2.16b
	usra	v3.16b, v0.16b, #6
	cmhi	v4.16b, v4.16b, v3.16b
	orr	v5.16b, v3.16b, v5.16b
	orr	v3.16b, v3.16b, v7.16b
	bic	v5.16b, v5.16b, v4.16b
	bit	v3.16b, v5.16b, v2.16b
	and	v2.16b, v2.16b, v4.16b
	cmlt	v5.16b, v3.16b, #0
	and	v1.16b, v5.16b, v1.16b
	movi	v5.16b, #63
	addp	v1.16b, v1.16b, v1.16b
	and	v5.16b, v0.16b, v5.16b
	addp	v1.16b, v1.16b, v1.16b
	addp	v1.16b, v1.16b, v1.16b
	umov	w12, v1.h[0]
	orr	v1.16b, v5.16b, v7.16b
	bif	v0.16b, v1.16b, v2.16b
	and	x13, x12, #0xff
	ubfx	x12, x12, #8, #8
	fmov	d1, x13
	fmov	d2, x12
	zip1	v4.16b, v3.16b, v0.16b
	zip2	v0.16b, v3.16b, v0.16b
	ldr	q3, [x14, x13, lsl #4]
	cnt	v1.8b, v1.8b
	cnt	v2.8b, v2.8b
	tbl	v3.16b, { v4.16b }, v3.16b
	fmov	w13, s1
	ldr	q1, [x14, x12, lsl #4]
	fmov	w12, s2
	tbl	v0.16b, { v0.16b }, v1.16b
	str	q3, [x11, x10]
	add	x13, x10, x13
	add	x13, x13, #8
	add	x12, x12, x13
	str	q0, [x11, x13]
	add	x10, x12, #8
	mov	w12, #16                        // =0x10
	ldr	x11, [x2, #8]
	cmp	x11, x10
	b.ls	.LBB55_11
.LBB55_10:                              // %join.3.i82
                                        //   in Loop: Header=BB55_3 Depth=1
	mov	x11, x10
	str	x10, [x2, #8]
.LBB55_11:                              // %"recoding::list::append_block::<#e3b2a9d4d2861db8>.exit.i"
                                        //   in Loop: Header=BB55_3 Depth=1
	mov	x10, x11
	cbz	x12, .LBB55_19
.LBB55_12:                              // %join.11.i
                                        //   in Loop: Header=BB55_3 Depth=1
	add	x8, x8, x12, lsl #1
	sub	x9, x1, x8
	cmp	x9, #31
	b.ls	.LBB55_25
// %bb.13:                              // %then.3.i
                                        //   in Loop: Header=BB55_3 Depth=1
	ldr	x12, [x2, #16]
	sub	x11, x12, x10
	cmp	x11, #64
	b.hs	.LBB55_3
	b	.LBB55_19
.LBB55_14:                              // %then.5.i.i
                                        //   in Loop: Header=BB55_3 Depth=1
	movi	v3.16b, #60
	shl	v4.16b, v2.16b, #2
	adrp	x15, .Lstatic.20
	add	x15, x15, :lo12:.Lstatic.20
	movi	v5.16b, #192
	movi	v6.16b, #8
	movi	v7.16b, #128
	movi	v16.16b, #224
	and	v3.16b, v4.16b, v3.16b
	movi	v4.16b, #2
	cmhi	v6.16b, v6.16b, v2.16b
	usra	v16.16b, v2.16b, #4
	usra	v3.16b, v0.16b, #6
	mov	v2.16b, v6.16b
	cmhi	v4.16b, v4.16b, v3.16b
	orr	v5.16b, v3.16b, v5.16b
	orr	v3.16b, v3.16b, v7.16b
	bic	v5.16b, v5.16b, v4.16b
	and	v4.16b, v6.16b, v4.16b
	bsl	v2.16b, v5.16b, v3.16b
	bic	v3.16b, v16.16b, v6.16b
	zip1	v5.16b, v3.16b, v2.16b
	zip2	v2.16b, v3.16b, v2.16b
	cmlt	v16.16b, v5.16b, #0
	cmlt	v17.16b, v2.16b, #0
	and	v3.16b, v16.16b, v1.16b
	movi	v16.16b, #63
	and	v1.16b, v17.16b, v1.16b
	addp	v3.16b, v3.16b, v3.16b
	addp	v1.16b, v1.16b, v1.16b
	and	v16.16b, v0.16b, v16.16b
	addp	v3.16b, v3.16b, v3.16b
	addp	v1.16b, v1.16b, v1.16b
	orr	v7.16b, v16.16b, v7.16b
	addp	v3.16b, v3.16b, v3.16b
	addp	v1.16b, v1.16b, v1.16b
	bif	v0.16b, v7.16b, v4.16b
	umov	w12, v3.h[0]
	umov	w14, v1.h[0]
	zip1	v3.16b, v0.16b, v0.16b
	zip2	v0.16b, v0.16b, v0.16b
	and	x13, x12, #0xff
	ubfx	x12, x12, #8, #8
	fmov	d4, x13
	ldr	q1, [x15, x13, lsl #4]
	and	x13, x14, #0xff
	zip1	v6.16b, v5.16b, v3.16b
	zip2	v3.16b, v5.16b, v3.16b
	fmov	d5, x12
	ldr	q7, [x15, x12, lsl #4]
	ubfx	x14, x14, #8, #8
	cnt	v4.8b, v4.8b
	tbl	v1.16b, { v6.16b }, v1.16b
	tbl	v3.16b, { v3.16b }, v7.16b
	fmov	w12, s4
	cnt	v4.8b, v5.8b
	fmov	d5, x13
	str	q1, [x11, x10]
	fmov	d1, x14
	cnt	v5.8b, v5.8b
	add	x12, x10, x12
	fmov	w10, s4
	add	x12, x12, #4
	cnt	v1.8b, v1.8b
	zip1	v4.16b, v2.16b, v0.16b
	str	q3, [x11, x12]
	zip2	v0.16b, v2.16b, v0.16b
	ldr	q2, [x15, x13, lsl #4]
	ldr	q3, [x15, x14, lsl #4]
	fmov	w13, s5
	add	x10, x10, x12
	add	x10, x10, #4
	fmov	w12, s1
	tbl	v2.16b, { v4.16b }, v2.16b
	tbl	v0.16b, { v0.16b }, v3.16b
	add	x13, x10, x13
	add	x13, x13, #4
	add	x12, x12, x13
	str	q2, [x11, x10]
	str	q0, [x11, x13]
	add	x10, x12, #4
	mov	w12, #16                        // =0x10
	ldr	x11, [x2, #8]
	cmp	x11, x10
	b.ls	.LBB55_11
	b	.LBB55_10
.LBB55_15:                              //   in Loop: Header=BB55_3 Depth=1
	mov	x12, xzr
	ldr	x11, [x2, #8]
	cmp	x11, x10
	b.hi	.LBB55_10
	b	.LBB55_11
.LBB55_16:
	mov	x8, xzr
	cmp	x1, #16
	b.hs	.LBB55_18
	b	.LBB55_26
.LBB55_17:
	mov	x8, xzr
.LBB55_18:
	mov	x9, x1
.LBB55_19:                              // %then.3.i8.lr.ph
	ldp	x14, x11, [x2, #8]
	sub	x10, x11, x14
	subs	x12, x10, #8
	b.lo	.LBB55_26
// %bb.20:                              // %join.5.i12.preheader
	mov	x10, xzr
	add	x13, x0, x8
	sub	x9, x9, #16
.LBB55_21:                              // %join.5.i12
                                        // =>This Inner Loop Header: Depth=1
	add	x15, x13, x10
	ld2	{ v0.8b, v1.8b }, [x15]
	shll	v2.8h, v0.8b, #8
	ushll	v0.8h, v1.8b, #0
	movi	v1.8h, #127
	orr	v0.16b, v2.16b, v0.16b
	cmhi	v0.8h, v0.8h, v1.8h
	umaxv	h0, v0.8h
	fmov	w16, s0
	tbnz	w16, #0, .LBB55_24
// %bb.22:                              // %arm.10.i
                                        //   in Loop: Header=BB55_21 Depth=1
	ldrb	w16, [x15, #1]
	ldrb	w17, [x15, #3]
	subs	x9, x9, #16
	ldrb	w0, [x15, #5]
	add	x10, x10, #16
	orr	x16, x16, x17, lsl #8
	ldrb	w17, [x15, #7]
	orr	x16, x16, x0, lsl #16
	ldrb	w0, [x15, #9]
	orr	x16, x16, x17, lsl #24
	ldrb	w17, [x15, #11]
	orr	x16, x16, x0, lsl #32
	ldrb	w0, [x15, #13]
	ldrb	w15, [x15, #15]
	orr	x16, x16, x17, lsl #40
	ldr	x17, [x2]
	orr	x16, x16, x0, lsl #48
	orr	x15, x16, x15, lsl #56
	str	x15, [x17, x14]
	add	x14, x14, #8
	stp	x17, x14, [x2]
	str	x11, [x2, #16]
	b.lo	.LBB55_24
// %bb.23:                              // %arm.10.i
                                        //   in Loop: Header=BB55_21 Depth=1
	cmp	x12, #7
	sub	x12, x12, #8
	b.hi	.LBB55_21
.LBB55_24:                              // %"recoding::kernels::narrow_ascii::<#f0e6fcfecd579859>.exit"
	add	x0, x10, x8
	ret
.LBB55_25:
	mov	x1, x9
	cmp	x9, #16
	b.hs	.LBB55_18
.LBB55_26:
	add	x0, xzr, x8
	ret
.Lfunc_end55:
	.size	"recoding::kernels::NarrowedKernelUtf16Utf8::put_text::<#adf464b980d50768>", .Lfunc_end55-"recoding::kernels::NarrowedKernelUtf16Utf8::put_text::<#adf464b980d50768>"
	.cfi_endproc
                                        // -- End function
	.section	.rodata.cst16,"aM",@progbits,16
	.p2align	4, 0x0                          // -- Begin function recoding::kernels::put_windows::<#2b5f88d210fed041>
.LCPI56_0:
	.byte	1                               // 0x1
	.byte	2                               // 0x2
	.byte	4                               // 0x4
	.byte	8                               // 0x8
	.byte	16                              // 0x10
	.byte	32                              // 0x20
	.byte	64                              // 0x40
	.byte	128                             // 0x80
	.byte	1                               // 0x1
	.byte	2                               // 0x2
	.byte	4                               // 0x4
	.byte	8                               // 0x8
	.byte	16                              // 0x10
	.byte	32                              // 0x20
	.byte	64                              // 0x40
	.byte	128                             // 0x80
	.section	".text.recoding::kernels::put_windows::<#2b5f88d210fed041>","ax",@progbits
	.p2align	2
	.type	"recoding::kernels::put_windows::<#2b5f88d210fed041>",@function
"recoding::kernels::put_windows::<#2b5f88d210fed041>": // @"recoding::kernels::put_windows::<#2b5f88d210fed041>"
	.cfi_startproc
// %bb.0:                               // %start
	stp	x29, x30, [sp, #-96]!           // 16-byte Folded Spill
	.cfi_def_cfa_offset 96
	str	x27, [sp, #16]                  // 8-byte Spill
	stp	x26, x25, [sp, #32]             // 16-byte Folded Spill
	stp	x24, x23, [sp, #48]             // 16-byte Folded Spill
	stp	x22, x21, [sp, #64]             // 16-byte Folded Spill
	stp	x20, x19, [sp, #80]             // 16-byte Folded Spill
	mov	x29, sp
	.cfi_def_cfa w29, 96
	.cfi_offset w19, -8
	.cfi_offset w20, -16
	.cfi_offset w21, -24
	.cfi_offset w22, -32
	.cfi_offset w23, -40
	.cfi_offset w24, -48
	.cfi_offset w25, -56
	.cfi_offset w26, -64
	.cfi_offset w27, -80
	.cfi_offset w30, -88
	.cfi_offset w29, -96
	mov	x21, x2
	mov	x22, x1
	mov	x23, x0
	mov	x19, xzr
	mov	x20, xzr
	mov	x25, xzr
.LBB56_1:                               // %then.6
                                        // =>This Inner Loop Header: Depth=1
	ldp	x9, x8, [x21, #8]
	sub	x8, x8, x9
	cmp	x8, #112
	b.lo	.LBB56_4
// %bb.2:                               // %join.5
                                        //   in Loop: Header=BB56_1 Depth=1
	add	x8, x23, x19
	movi	v6.16b, #54
	movi	v17.2d, #0000000000000000
	ldp	q0, q1, [x8]
	movi	v18.16b, #55
	ldp	q4, q5, [x8, #32]
	adrp	x8, .LCPI56_0
	mov	x1, x21
	uzp1	v2.16b, v0.16b, v1.16b
	uzp2	v0.16b, v0.16b, v1.16b
	movi	v1.16b, #253
	uzp1	v3.16b, v4.16b, v5.16b
	uzp2	v4.16b, v4.16b, v5.16b
	ushr	v16.16b, v2.16b, #2
	ushr	v7.16b, v3.16b, #2
	cmeq	v19.16b, v16.16b, v6.16b
	cmeq	v16.16b, v16.16b, v18.16b
	cmeq	v6.16b, v7.16b, v6.16b
	cmeq	v7.16b, v7.16b, v18.16b
	ext	v17.16b, v17.16b, v19.16b, #15
	ext	v20.16b, v19.16b, v6.16b, #15
	mov	v6.b[15], wzr
	eor	v17.16b, v17.16b, v16.16b
	eor	v18.16b, v20.16b, v7.16b
	ext	v20.16b, v17.16b, v18.16b, #1
	ext	v21.16b, v18.16b, v16.16b, #1
	and	v7.16b, v7.16b, v18.16b
	and	v16.16b, v16.16b, v17.16b
	and	v19.16b, v19.16b, v20.16b
	and	v6.16b, v6.16b, v21.16b
	orr	v16.16b, v19.16b, v16.16b
	orr	v6.16b, v6.16b, v7.16b
	movi	v19.16b, #252
	cmeq	v6.16b, v6.16b, #0
	cmeq	v7.16b, v16.16b, #0
	ldr	q16, [x8, :lo12:.LCPI56_0]
	and	v20.16b, v2.16b, v19.16b
	and	v19.16b, v3.16b, v19.16b
	bic	v17.16b, v16.16b, v7.16b
	bic	v18.16b, v16.16b, v6.16b
	bif	v0.16b, v1.16b, v7.16b
	bit	v1.16b, v4.16b, v6.16b
	orn	v2.16b, v2.16b, v7.16b
	orn	v3.16b, v3.16b, v6.16b
	addp	v17.16b, v17.16b, v18.16b
	movi	v18.16b, #216
	addp	v17.16b, v17.16b, v17.16b
	cmeq	v19.16b, v19.16b, v18.16b
	cmeq	v18.16b, v20.16b, v18.16b
	addp	v17.16b, v17.16b, v17.16b
	and	v18.16b, v18.16b, v16.16b
	and	v16.16b, v19.16b, v16.16b
	fmov	w26, s17
	addp	v16.16b, v18.16b, v16.16b
	fmov	s17, w26
	addp	v16.16b, v16.16b, v16.16b
	cnt	v17.8b, v17.8b
	addp	v5.16b, v16.16b, v16.16b
	fmov	w8, s5
	addv	b16, v17.8b
	cmn	w8, #1
	mov	w8, #31                         // =0x1f
	fmov	w27, s16
	cinc	x24, x8, gt
	mov	x0, x24
	bl	"recoding::list::append_text_units::<#e3b2a9d4d2861db8>"
	add	x20, x20, x27
	cmp	w26, #0
	mov	w8, #8                          // =0x8
	csinc	x25, xzr, x25, ne
	cmp	x20, #8
	add	x19, x19, x24, lsl #1
	csel	x8, x20, x8, lo
	cmp	x25, x8
	b.hi	.LBB56_4
// %bb.3:                               // %join.5
                                        //   in Loop: Header=BB56_1 Depth=1
	sub	x8, x22, x19
	cmp	x8, #63
	b.hi	.LBB56_1
.LBB56_4:                               // %after.1
	mov	x0, x19
	mov	x1, x20
	.cfi_def_cfa wsp, 96
	ldp	x20, x19, [sp, #80]             // 16-byte Folded Reload
	ldr	x27, [sp, #16]                  // 8-byte Reload
	ldp	x22, x21, [sp, #64]             // 16-byte Folded Reload
	ldp	x24, x23, [sp, #48]             // 16-byte Folded Reload
	ldp	x26, x25, [sp, #32]             // 16-byte Folded Reload
	ldp	x29, x30, [sp], #96             // 16-byte Folded Reload
	.cfi_def_cfa_offset 0
	.cfi_restore w19
	.cfi_restore w20
	.cfi_restore w21
	.cfi_restore w22
	.cfi_restore w23
	.cfi_restore w24
	.cfi_restore w25
	.cfi_restore w26
	.cfi_restore w27
	.cfi_restore w30
	.cfi_restore w29
	ret
.Lfunc_end56:
	.size	"recoding::kernels::put_windows::<#2b5f88d210fed041>", .Lfunc_end56-"recoding::kernels::put_windows::<#2b5f88d210fed041>"
	.cfi_endproc
                                        // -- End function
	.section	".text.recoding::engine::recode_faults::<#e857034c7a7c407f>","ax",@progbits
	.p2align	2                               // -- Begin function recoding::engine::recode_faults::<#e857034c7a7c407f>
	.type	"recoding::engine::recode_faults::<#e857034c7a7c407f>",@function
"recoding::engine::recode_faults::<#e857034c7a7c407f>": // @"recoding::engine::recode_faults::<#e857034c7a7c407f>"
	.cfi_startproc
// %bb.0:                               // %start
	ldrb	w10, [x1]
	ldr	x11, [x1, #16]
	mov	x9, xzr
	mov	x8, xzr
	cmp	w10, #2
	ccmp	x11, #0, #0, eq
	mov	w11, #16                        // =0x10
	cset	w10, eq
	b	.LBB57_2
.LBB57_1:                               // %"recoding::text::Utf8Text::put_any::<#345d457c2768aa28>.exit"
                                        //   in Loop: Header=BB57_2 Depth=1
	add	x8, x8, #1
	mov	w12, #2                         // =0x2
	add	x9, x12, x9
	cmp	x9, x11
	b.hs	.LBB57_18
.LBB57_2:                               // %join.5
                                        // =>This Inner Loop Header: Depth=1
	add	x13, x9, #4
	add	x14, x2, x9
	cmp	x13, x3
	b.ls	.LBB57_7
// %bb.3:                               // %join.3.i74
                                        //   in Loop: Header=BB57_2 Depth=1
	sub	x15, x3, x9
	cmp	x15, #2
	b.lo	.LBB57_19
// %bb.4:                               // %join.3.i.i
                                        //   in Loop: Header=BB57_2 Depth=1
	ldrb	w16, [x14]
	lsl	w12, w16, #8
	and	w17, w12, #0xfc00
	mov	w12, #56320                     // =0xdc00
	cmp	w17, w12
	b.eq	.LBB57_11
// %bb.5:                               // %join.3.i.i
                                        //   in Loop: Header=BB57_2 Depth=1
	ldrb	w12, [x14, #1]
	mov	w1, #55296                      // =0xd800
	cmp	w17, w1
	bfi	w12, w16, #8, #8
	b.ne	.LBB57_13
// %bb.6:                               // %join.6.i.i
                                        //   in Loop: Header=BB57_2 Depth=1
	cmp	x15, #4
	b.hs	.LBB57_9
	b	.LBB57_19
.LBB57_7:                               // %then.1.i68
                                        //   in Loop: Header=BB57_2 Depth=1
	ldrb	w15, [x14]
	lsl	w12, w15, #8
	and	w16, w12, #0xfc00
	mov	w12, #56320                     // =0xdc00
	cmp	w16, w12
	b.eq	.LBB57_11
// %bb.8:                               // %then.1.i68
                                        //   in Loop: Header=BB57_2 Depth=1
	ldrb	w12, [x14, #1]
	mov	w17, #55296                     // =0xd800
	cmp	w16, w17
	bfi	w12, w15, #8, #8
	b.ne	.LBB57_13
.LBB57_9:                               // %join.15.i74.i206.i
                                        //   in Loop: Header=BB57_2 Depth=1
	ldrb	w15, [x14, #2]
	and	w16, w15, #0xfc
	cmp	w16, #220
	b.ne	.LBB57_11
// %bb.10:                              // %arm.14.i201.i
                                        //   in Loop: Header=BB57_2 Depth=1
	ldrb	w13, [x14, #3]
	mov	w16, #32768                     // =0x8000
	bfi	w13, w15, #8, #2
	ldp	x15, x14, [x4]
	bfi	w13, w12, #10, #10
	add	w12, w13, #16, lsl #12          // =65536
	lsr	w13, w12, #18
	bfxil	w16, w12, #4, #14
	orr	w13, w13, #0xf0
	strb	w13, [x15, x14]
	lsr	w15, w16, #8
	ldr	x13, [x4]
	add	x13, x13, x14
	strb	w15, [x13, #1]
	mov	w13, #128                       // =0x80
	ldr	x15, [x4]
	bfxil	w13, w12, #6, #6
	add	x15, x15, x14
	strb	w13, [x15, #2]
	mov	w13, #128                       // =0x80
	ldr	x15, [x4]
	bfxil	w13, w12, #0, #6
	add	x12, x15, x14
	add	x14, x14, #4
	strb	w13, [x12, #3]
	mov	w12, #4                         // =0x4
	str	x14, [x4, #8]
	add	x9, x12, x9
	cmp	x9, x11
	b.lo	.LBB57_2
	b	.LBB57_18
.LBB57_11:                              // %arm.11
                                        //   in Loop: Header=BB57_2 Depth=1
	cmp	x13, #32
	mov	w11, #32                        // =0x20
	csel	x11, x13, x11, lo
	tbnz	w10, #0, .LBB57_1
// %bb.12:                              // %then.7.i.i.i
                                        //   in Loop: Header=BB57_2 Depth=1
	ldp	x13, x12, [x4]
	mov	w14, #239                       // =0xef
	strb	w14, [x13, x12]
	mov	w14, #191                       // =0xbf
	ldr	x13, [x4]
	add	x13, x13, x12
	strb	w14, [x13, #1]
	mov	w14, #189                       // =0xbd
	ldr	x13, [x4]
	add	x13, x13, x12
	add	x12, x12, #3
	strb	w14, [x13, #2]
	str	x12, [x4, #8]
	b	.LBB57_1
.LBB57_13:                              // %arm.10
                                        //   in Loop: Header=BB57_2 Depth=1
	cmp	w12, #128
	b.hs	.LBB57_15
// %bb.14:                              // %then.1.i
                                        //   in Loop: Header=BB57_2 Depth=1
	ldp	x14, x13, [x4]
	strb	w12, [x14, x13]
	add	x12, x13, #1
	str	x12, [x4, #8]
	mov	w12, #2                         // =0x2
	add	x9, x12, x9
	cmp	x9, x11
	b.lo	.LBB57_2
	b	.LBB57_18
.LBB57_15:                              // %join.3.i
                                        //   in Loop: Header=BB57_2 Depth=1
	mov	w13, #128                       // =0x80
	cmp	w12, #2048
	mov	w14, #128                       // =0x80
	bfxil	w13, w12, #0, #6
	b.hs	.LBB57_17
// %bb.16:                              // %then.4.i
                                        //   in Loop: Header=BB57_2 Depth=1
	ldp	x15, x14, [x4]
	lsr	w12, w12, #6
	orr	w12, w12, #0xc0
	strb	w12, [x15, x14]
	ldr	x12, [x4]
	add	x12, x12, x14
	add	x14, x14, #2
	strb	w13, [x12, #1]
	str	x14, [x4, #8]
	mov	w12, #2                         // =0x2
	add	x9, x12, x9
	cmp	x9, x11
	b.lo	.LBB57_2
	b	.LBB57_18
.LBB57_17:                              // %then.7.i
                                        //   in Loop: Header=BB57_2 Depth=1
	ldp	x17, x16, [x4]
	lsr	w15, w12, #12
	bfxil	w14, w12, #6, #6
	orr	w15, w15, #0xe0
	strb	w15, [x17, x16]
	ldr	x15, [x4]
	add	x12, x15, x16
	strb	w14, [x12, #1]
	add	x14, x16, #3
	ldr	x12, [x4]
	add	x12, x12, x16
	strb	w13, [x12, #2]
	str	x14, [x4, #8]
	mov	w12, #2                         // =0x2
	add	x9, x12, x9
	cmp	x9, x11
	b.lo	.LBB57_2
.LBB57_18:                              // %after.1
	stp	x9, x8, [x0]
	str	xzr, [x0, #16]
	ret
.LBB57_19:                              // %arm.7
	stp	x9, x8, [x0]
	mov	w8, #256                        // =0x100
	strh	w8, [x0, #16]
	stur	wzr, [x0, #18]
	strh	wzr, [x0, #22]
	ret
.Lfunc_end57:
	.size	"recoding::engine::recode_faults::<#e857034c7a7c407f>", .Lfunc_end57-"recoding::engine::recode_faults::<#e857034c7a7c407f>"
	.cfi_endproc
                                        // -- End function
	.section	".text.recoding::recoder_runs::run_whole::<#e742a82e1969306f>","ax",@progbits
	.p2align	2                               // -- Begin function recoding::recoder_runs::run_whole::<#e742a82e1969306f>
	.type	"recoding::recoder_runs::run_whole::<#e742a82e1969306f>",@function
"recoding::recoder_runs::run_whole::<#e742a82e1969306f>": // @"recoding::recoder_runs::run_whole::<#e742a82e1969306f>"
	.cfi_startproc
// %bb.0:                               // %start
	sub	sp, sp, #128
	.cfi_def_cfa_offset 128
	stp	x29, x30, [sp, #64]             // 16-byte Folded Spill
	str	x23, [sp, #80]                  // 8-byte Spill
	stp	x22, x21, [sp, #96]             // 16-byte Folded Spill
	stp	x20, x19, [sp, #112]            // 16-byte Folded Spill
	add	x29, sp, #64
	.cfi_def_cfa w29, 64
	.cfi_offset w19, -8
	.cfi_offset w20, -16
	.cfi_offset w21, -24
	.cfi_offset w22, -32
	.cfi_offset w23, -48
	.cfi_offset w30, -56
	.cfi_offset w29, -64
	mov	x22, x2
	mov	x21, x1
	mov	x23, x0
	mov	x19, xzr
	mov	x20, xzr
	b	.LBB58_2
.LBB58_1:                               // %"recoding::kernels::put_damaged_units::<#25a6102eeaa0b05f>.exit"
                                        //   in Loop: Header=BB58_2 Depth=1
	add	x0, x23, x20
	mov	x2, x22
	bl	"recoding::kernels::put_windows::<#25a6102eeaa0b05f>"
	add	x20, x0, x20
	add	x19, x1, x19
	cbz	x0, .LBB58_7
.LBB58_2:                               // %loop.2.i
                                        // =>This Loop Header: Depth=1
                                        //     Child Loop BB58_9 Depth 2
	sub	x8, x21, x20
	cmp	x8, #16
	b.lo	.LBB58_4
// %bb.3:                               // %"recoding::kernels::TurnedKernelUtf16Utf16::put_text::<#bdf9a2505b291bb3>.exit"
                                        //   in Loop: Header=BB58_2 Depth=1
	add	x0, x23, x20
	sub	x1, x21, x20
	mov	x2, x22
	bl	"recoding::turned::copy_units::<#7337b1eebc07c9e6>"
	lsr	x8, x0, #2
	add	x20, x0, x20
	cmp	x8, #2046
	b.hi	.LBB58_2
.LBB58_4:                               // %join.5.i
                                        //   in Loop: Header=BB58_2 Depth=1
	subs	x1, x21, x20
	b.eq	.LBB58_19
// %bb.5:                               // %join.8.i
                                        //   in Loop: Header=BB58_2 Depth=1
	cmp	x1, #64
	b.hs	.LBB58_1
// %bb.6:                               // %join.14.i
                                        //   in Loop: Header=BB58_2 Depth=1
	cmp	x1, #128
	mov	w8, #128                        // =0x80
	csel	x9, x1, x8, lo
	cmp	x1, #2
	b.hs	.LBB58_8
	b	.LBB58_16
.LBB58_7:                               // %"recoding::kernels::put_damaged_units::<#25a6102eeaa0b05f>.exit.join.14.i_crit_edge"
                                        //   in Loop: Header=BB58_2 Depth=1
	sub	x1, x21, x20
	cmp	x1, #128
	mov	w8, #128                        // =0x80
	csel	x9, x1, x8, lo
	cmp	x1, #2
	b.lo	.LBB58_16
.LBB58_8:                               // %join.5.i39.preheader
                                        //   in Loop: Header=BB58_2 Depth=1
	mov	x8, xzr
	add	x10, x23, x20
	mov	x14, x9
.LBB58_9:                               // %join.5.i39
                                        //   Parent Loop BB58_2 Depth=1
                                        // =>  This Inner Loop Header: Depth=2
	add	x13, x10, x8
	mov	w16, #55296                     // =0xd800
	ldrb	w11, [x13]
	lsl	w12, w11, #8
	and	w15, w12, #0xfc00
	ldrb	w12, [x13, #1]
	cmp	w15, w16
	b.eq	.LBB58_12
// %bb.10:                              // %join.5.i39
                                        //   in Loop: Header=BB58_9 Depth=2
	mov	w13, #56320                     // =0xdc00
	cmp	w15, w13
	b.eq	.LBB58_15
// %bb.11:                              // %arm.7.i.thread
                                        //   in Loop: Header=BB58_9 Depth=2
	ldp	x14, x13, [x22]
	strb	w12, [x14, x13]
	ldr	x12, [x22]
	add	x12, x12, x13
	strb	w11, [x12, #1]
	add	x11, x13, #2
	mov	w12, #2                         // =0x2
	add	x8, x12, x8
	str	x11, [x22, #8]
	sub	x14, x9, x8
	cmp	x14, #1
	b.hi	.LBB58_9
	b	.LBB58_15
.LBB58_12:                              // %join.6.i.i
                                        //   in Loop: Header=BB58_9 Depth=2
	cmp	x14, #4
	b.lo	.LBB58_15
// %bb.13:                              // %join.15.i65.i.i
                                        //   in Loop: Header=BB58_9 Depth=2
	ldrb	w14, [x13, #2]
	and	w15, w14, #0xfc
	cmp	w15, #220
	b.ne	.LBB58_15
// %bb.14:                              // %arm.7.i
                                        //   in Loop: Header=BB58_9 Depth=2
	ldp	x16, x15, [x22]
	ldrb	w13, [x13, #3]
	strb	w12, [x16, x15]
	mov	w12, #216                       // =0xd8
	ldr	x16, [x22]
	bfxil	w12, w11, #0, #2
	add	x11, x16, x15
	strb	w12, [x11, #1]
	mov	w12, #4                         // =0x4
	ldr	x11, [x22]
	add	x11, x11, x15
	strb	w13, [x11, #2]
	ldr	x11, [x22]
	add	x11, x11, x15
	strb	w14, [x11, #3]
	add	x11, x15, #4
	add	x8, x12, x8
	str	x11, [x22, #8]
	sub	x14, x9, x8
	cmp	x14, #1
	b.hi	.LBB58_9
.LBB58_15:                              // %"recoding::engine::recode_text::<#6c1029a9c4924fe6>.exit"
                                        //   in Loop: Header=BB58_2 Depth=1
	cmp	x8, #124
	add	x20, x8, x20
	b.hi	.LBB58_2
.LBB58_16:                              // %then.15.i
                                        //   in Loop: Header=BB58_2 Depth=1
	subs	x3, x21, x20
	b.eq	.LBB58_19
// %bb.17:                              // %join.20.i
                                        //   in Loop: Header=BB58_2 Depth=1
	movi	v0.2d, #0000000000000000
	sub	x0, x29, #24
	mov	x1, sp
	add	x2, x23, x20
	mov	x4, x22
	stp	xzr, xzr, [x29, #-16]
	stur	xzr, [x29, #-24]
	str	xzr, [sp, #32]
	stp	q0, q0, [sp]
	bl	"recoding::engine::recode_faults::<#dcf09f3d7e931f6a>"
	ldp	x8, x9, [x29, #-24]
	ldurb	w10, [x29, #-8]
	add	x20, x8, x20
	add	x19, x9, x19
	tbnz	w10, #0, .LBB58_20
// %bb.18:                              // %join.20.i
                                        //   in Loop: Header=BB58_2 Depth=1
	ldurb	w8, [x29, #-7]
	tbz	w8, #0, .LBB58_2
	b	.LBB58_20
.LBB58_19:
	mov	x20, x21
.LBB58_20:                              // %"recoding::engine::run::<#f92d4f60eb9211f4>.exit"
	mov	x0, x20
	mov	x1, x19
	.cfi_def_cfa wsp, 128
	ldp	x20, x19, [sp, #112]            // 16-byte Folded Reload
	ldr	x23, [sp, #80]                  // 8-byte Reload
	ldp	x22, x21, [sp, #96]             // 16-byte Folded Reload
	ldp	x29, x30, [sp, #64]             // 16-byte Folded Reload
	add	sp, sp, #128
	.cfi_def_cfa_offset 0
	.cfi_restore w19
	.cfi_restore w20
	.cfi_restore w21
	.cfi_restore w22
	.cfi_restore w23
	.cfi_restore w30
	.cfi_restore w29
	ret
.Lfunc_end58:
	.size	"recoding::recoder_runs::run_whole::<#e742a82e1969306f>", .Lfunc_end58-"recoding::recoder_runs::run_whole::<#e742a82e1969306f>"
	.cfi_endproc
                                        // -- End function
	.section	.rodata.cst16,"aM",@progbits,16
	.p2align	4, 0x0                          // -- Begin function recoding::turned::copy_units::<#7337b1eebc07c9e6>
.LCPI59_0:
	.byte	1                               // 0x1
	.byte	2                               // 0x2
	.byte	4                               // 0x4
	.byte	8                               // 0x8
	.byte	16                              // 0x10
	.byte	32                              // 0x20
	.byte	64                              // 0x40
	.byte	128                             // 0x80
	.byte	1                               // 0x1
	.byte	2                               // 0x2
	.byte	4                               // 0x4
	.byte	8                               // 0x8
	.byte	16                              // 0x10
	.byte	32                              // 0x20
	.byte	64                              // 0x40
	.byte	128                             // 0x80
	.section	".text.recoding::turned::copy_units::<#7337b1eebc07c9e6>","ax",@progbits
	.p2align	2
	.type	"recoding::turned::copy_units::<#7337b1eebc07c9e6>",@function
"recoding::turned::copy_units::<#7337b1eebc07c9e6>": // @"recoding::turned::copy_units::<#7337b1eebc07c9e6>"
	.cfi_startproc
// %bb.0:                               // %start
	sub	sp, sp, #176
	.cfi_def_cfa_offset 176
	stp	x29, x30, [sp, #112]            // 16-byte Folded Spill
	stp	x24, x23, [sp, #128]            // 16-byte Folded Spill
	stp	x22, x21, [sp, #144]            // 16-byte Folded Spill
	stp	x20, x19, [sp, #160]            // 16-byte Folded Spill
	add	x29, sp, #112
	.cfi_def_cfa w29, 64
	.cfi_offset w19, -8
	.cfi_offset w20, -16
	.cfi_offset w21, -24
	.cfi_offset w22, -32
	.cfi_offset w23, -40
	.cfi_offset w24, -48
	.cfi_offset w30, -56
	.cfi_offset w29, -64
	.cfi_remember_state
	ldr	q0, [x0]
	movi	v1.8h, #252
	sturh	wzr, [x29, #-32]
	movi	v3.16b, #220
	movi	v4.16b, #216
	adrp	x8, .LCPI59_0
	stur	q0, [x29, #-30]
	mov	x19, x2
	mov	x20, x0
	ldur	q0, [x29, #-30]
	ldur	q2, [x29, #-32]
	and	v0.16b, v0.16b, v1.16b
	and	v1.16b, v2.16b, v1.16b
	cmeq	v0.16b, v0.16b, v3.16b
	cmeq	v1.16b, v1.16b, v4.16b
	eor	v1.16b, v1.16b, v0.16b
	ldr	q0, [x8, :lo12:.LCPI59_0]
	and	v1.16b, v1.16b, v0.16b
	addp	v1.16b, v1.16b, v1.16b
	addp	v1.16b, v1.16b, v1.16b
	addp	v1.16b, v1.16b, v1.16b
	umov	w8, v1.h[0]
	cbz	w8, .LBB59_3
// %bb.1:
	umov	w8, v1.h[0]
	rbit	w8, w8
	clz	w8, w8
	lsr	w8, w8, #1
	cbnz	x8, .LBB59_14
.LBB59_2:
	mov	x21, xzr
	b	.LBB59_36
.LBB59_3:                               // %loop.2.i.preheader.i
	subs	x8, x1, #80
	b.lo	.LBB59_9
// %bb.4:                               // %join.5.i.i.preheader
	lsr	x8, x8, #1
	add	x10, x20, #32
	sub	x11, x1, #16
	and	x8, x8, #0x7fffffffffffffe0
	add	x9, x8, #40
	mov	w8, #8                          // =0x8
.LBB59_5:                               // %join.5.i.i
                                        // =>This Inner Loop Header: Depth=1
	movi	v1.8h, #252
	ldp	q2, q6, [x10, #-16]
	ldp	q7, q18, [x10, #16]
	movi	v4.16b, #220
	ldur	q3, [x10, #-18]
	ldur	q16, [x10, #14]
	movi	v5.16b, #216
	ldur	q17, [x10, #-2]
	ldur	q19, [x10, #30]
	and	v2.16b, v2.16b, v1.16b
	and	v3.16b, v3.16b, v1.16b
	and	v7.16b, v7.16b, v1.16b
	and	v16.16b, v16.16b, v1.16b
	and	v6.16b, v6.16b, v1.16b
	and	v17.16b, v17.16b, v1.16b
	and	v18.16b, v18.16b, v1.16b
	and	v1.16b, v19.16b, v1.16b
	cmeq	v2.16b, v2.16b, v4.16b
	cmeq	v3.16b, v3.16b, v5.16b
	cmeq	v7.16b, v7.16b, v4.16b
	cmeq	v16.16b, v16.16b, v5.16b
	cmeq	v6.16b, v6.16b, v4.16b
	cmeq	v4.16b, v18.16b, v4.16b
	cmeq	v1.16b, v1.16b, v5.16b
	eor	v2.16b, v3.16b, v2.16b
	cmeq	v3.16b, v17.16b, v5.16b
	eor	v5.16b, v16.16b, v7.16b
	eor	v1.16b, v1.16b, v4.16b
	mvn	v2.16b, v2.16b
	eor	v3.16b, v3.16b, v6.16b
	mvn	v5.16b, v5.16b
	bic	v2.16b, v2.16b, v3.16b
	bic	v1.16b, v5.16b, v1.16b
	and	v1.16b, v2.16b, v1.16b
	bic	v1.16b, v0.16b, v1.16b
	addp	v1.16b, v1.16b, v1.16b
	addp	v1.16b, v1.16b, v1.16b
	addp	v1.16b, v1.16b, v1.16b
	umov	w12, v1.h[0]
	cbnz	w12, .LBB59_8
// %bb.6:                               // %join.8.i.i
                                        //   in Loop: Header=BB59_5 Depth=1
	sub	x11, x11, #64
	add	x10, x10, #64
	add	x8, x8, #32
	cmp	x11, #63
	b.hi	.LBB59_5
// %bb.7:
	mov	x8, x9
.LBB59_8:                               // %"utf_lanes::unit_blocks::paired_wide::<#22d4087b0bf99cde>.exit.i"
	lsr	x9, x1, #1
	cmp	x8, x9
	b.lo	.LBB59_10
	b	.LBB59_14
.LBB59_9:
	mov	w8, #8                          // =0x8
	lsr	x9, x1, #1
	cmp	x8, x9
	b.hs	.LBB59_14
.LBB59_10:                              // %join.5.i51.lr.ph.i
	sub	x10, x9, #8
.LBB59_11:                              // %join.5.i51.i
                                        // =>This Inner Loop Header: Depth=1
	cmp	x10, x8
	movi	v1.8h, #252
	movi	v4.16b, #220
	csel	x8, x10, x8, lo
	movi	v5.16b, #216
	add	x11, x20, x8, lsl #1
	ldr	q2, [x11]
	ldur	q3, [x11, #-2]
	and	v2.16b, v2.16b, v1.16b
	and	v1.16b, v3.16b, v1.16b
	cmeq	v2.16b, v2.16b, v4.16b
	cmeq	v1.16b, v1.16b, v5.16b
	eor	v1.16b, v1.16b, v2.16b
	and	v1.16b, v1.16b, v0.16b
	addp	v1.16b, v1.16b, v1.16b
	addp	v1.16b, v1.16b, v1.16b
	addp	v1.16b, v1.16b, v1.16b
	umov	w11, v1.h[0]
	rbit	w12, w11
	tst	w11, #0xffff
	mov	w11, #8                         // =0x8
	clz	w12, w12
	lsr	w12, w12, #1
	csel	w11, w11, w12, eq
	cmp	w11, #7
	b.ls	.LBB59_13
// %bb.12:                              // %join.8.i74.i
                                        //   in Loop: Header=BB59_11 Depth=1
	add	x8, x8, #8
	cmp	x8, x9
	b.lo	.LBB59_11
	b	.LBB59_14
.LBB59_13:                              // %then.6.i.i
	add	x8, x8, w11, uxtw
	cbz	x8, .LBB59_2
.LBB59_14:                              // %"utf_lanes::unit_blocks::units_len::<#22d4087b0bf99cde>.exit"
	add	x9, x20, x8, lsl #1
	ldurb	w9, [x9, #-2]
	and	w9, w9, #0xfc
	cmp	w9, #216
	cset	w9, eq
	sub	x8, x8, x9
	lsl	x21, x8, #1
	cbz	x21, .LBB59_36
// %bb.15:                              // %join.3
	cmp	x21, #16
	b.hs	.LBB59_18
// %bb.16:                              // %loop.2.i.preheader
	ldr	x8, [x19, #8]
	add	x9, x20, #1
	mov	x10, x21
.LBB59_17:                              // %join.5.i
                                        // =>This Inner Loop Header: Depth=1
	ldr	x11, [x19]
	ldrb	w12, [x9]
	subs	x10, x10, #2
	ldurb	w13, [x9, #-1]
	add	x9, x9, #2
	strb	w12, [x11, x8]
	ldr	x11, [x19]
	add	x11, x11, x8
	add	x8, x8, #2
	strb	w13, [x11, #1]
	str	x8, [x19, #8]
	b.ne	.LBB59_17
	b	.LBB59_36
.LBB59_18:                              // %loop.2.i5.preheader
	cmp	x21, #64
	mov	x23, x20
	mov	x22, x21
	b.lo	.LBB59_31
// %bb.19:                              // %join.5.i9.lr.ph
	mov	x22, x21
	mov	x23, x20
.LBB59_20:                              // %join.5.i9
                                        // =>This Inner Loop Header: Depth=1
	ldp	q0, q1, [x23]
	ldp	q2, q3, [x23, #32]
	ldp	x9, x8, [x19, #8]
	rev16	v0.16b, v0.16b
	rev16	v1.16b, v1.16b
	rev16	v2.16b, v2.16b
	rev16	v3.16b, v3.16b
	sub	x10, x8, x9
	cmp	x10, #63
	stp	q0, q1, [sp, #16]
	stp	q2, q3, [sp, #48]
	b.ls	.LBB59_26
.LBB59_21:                              // %join.3.i78
                                        //   in Loop: Header=BB59_20 Depth=1
	ldr	x10, [x19]
	add	x12, sp, #16
	stp	xzr, xzr, [x19, #8]
	add	x11, x10, x9
	sub	x12, x11, x12
	cmp	x12, #63
	b.hi	.LBB59_23
// %bb.22:                              // %join.7.i.i.i.preheader
                                        //   in Loop: Header=BB59_20 Depth=1
	ldrb	w12, [sp, #16]
	strb	w12, [x11]
	ldrb	w12, [sp, #17]
	strb	w12, [x11, #1]
	ldrb	w12, [sp, #18]
	strb	w12, [x11, #2]
	ldrb	w12, [sp, #19]
	strb	w12, [x11, #3]
	ldrb	w12, [sp, #20]
	strb	w12, [x11, #4]
	ldrb	w12, [sp, #21]
	strb	w12, [x11, #5]
	ldrb	w12, [sp, #22]
	strb	w12, [x11, #6]
	ldrb	w12, [sp, #23]
	strb	w12, [x11, #7]
	ldrb	w12, [sp, #24]
	strb	w12, [x11, #8]
	ldrb	w12, [sp, #25]
	strb	w12, [x11, #9]
	ldrb	w12, [sp, #26]
	strb	w12, [x11, #10]
	ldrb	w12, [sp, #27]
	strb	w12, [x11, #11]
	ldrb	w12, [sp, #28]
	strb	w12, [x11, #12]
	ldrb	w12, [sp, #29]
	strb	w12, [x11, #13]
	ldrb	w12, [sp, #30]
	strb	w12, [x11, #14]
	ldrb	w12, [sp, #31]
	strb	w12, [x11, #15]
	ldrb	w12, [sp, #32]
	strb	w12, [x11, #16]
	ldrb	w12, [sp, #33]
	strb	w12, [x11, #17]
	ldrb	w12, [sp, #34]
	strb	w12, [x11, #18]
	ldrb	w12, [sp, #35]
	strb	w12, [x11, #19]
	ldrb	w12, [sp, #36]
	strb	w12, [x11, #20]
	ldrb	w12, [sp, #37]
	strb	w12, [x11, #21]
	ldrb	w12, [sp, #38]
	strb	w12, [x11, #22]
	ldrb	w12, [sp, #39]
	strb	w12, [x11, #23]
	ldrb	w12, [sp, #40]
	strb	w12, [x11, #24]
	ldrb	w12, [sp, #41]
	strb	w12, [x11, #25]
	ldrb	w12, [sp, #42]
	strb	w12, [x11, #26]
	ldrb	w12, [sp, #43]
	strb	w12, [x11, #27]
	ldrb	w12, [sp, #44]
	strb	w12, [x11, #28]
	ldrb	w12, [sp, #45]
	strb	w12, [x11, #29]
	ldrb	w12, [sp, #46]
	strb	w12, [x11, #30]
	ldrb	w12, [sp, #47]
	strb	w12, [x11, #31]
	ldrb	w12, [sp, #48]
	strb	w12, [x11, #32]
	ldrb	w12, [sp, #49]
	strb	w12, [x11, #33]
	ldrb	w12, [sp, #50]
	strb	w12, [x11, #34]
	ldrb	w12, [sp, #51]
	strb	w12, [x11, #35]
	ldrb	w12, [sp, #52]
	strb	w12, [x11, #36]
	ldrb	w12, [sp, #53]
	strb	w12, [x11, #37]
	ldrb	w12, [sp, #54]
	strb	w12, [x11, #38]
	ldrb	w12, [sp, #55]
	strb	w12, [x11, #39]
	ldrb	w12, [sp, #56]
	strb	w12, [x11, #40]
	ldrb	w12, [sp, #57]
	strb	w12, [x11, #41]
	ldrb	w12, [sp, #58]
	strb	w12, [x11, #42]
	ldrb	w12, [sp, #59]
	strb	w12, [x11, #43]
	ldrb	w12, [sp, #60]
	strb	w12, [x11, #44]
	ldrb	w12, [sp, #61]
	strb	w12, [x11, #45]
	ldrb	w12, [sp, #62]
	strb	w12, [x11, #46]
	ldrb	w12, [sp, #63]
	strb	w12, [x11, #47]
	ldrb	w12, [sp, #64]
	strb	w12, [x11, #48]
	ldrb	w12, [sp, #65]
	strb	w12, [x11, #49]
	ldrb	w12, [sp, #66]
	strb	w12, [x11, #50]
	ldrb	w12, [sp, #67]
	strb	w12, [x11, #51]
	ldrb	w12, [sp, #68]
	strb	w12, [x11, #52]
	ldrb	w12, [sp, #69]
	strb	w12, [x11, #53]
	ldrb	w12, [sp, #70]
	strb	w12, [x11, #54]
	ldrb	w12, [sp, #71]
	strb	w12, [x11, #55]
	ldrb	w12, [sp, #72]
	strb	w12, [x11, #56]
	ldrb	w12, [sp, #73]
	strb	w12, [x11, #57]
	ldrb	w12, [sp, #74]
	strb	w12, [x11, #58]
	ldrb	w12, [sp, #75]
	strb	w12, [x11, #59]
	ldrb	w12, [sp, #76]
	strb	w12, [x11, #60]
	ldrb	w12, [sp, #77]
	strb	w12, [x11, #61]
	ldrb	w12, [sp, #78]
	strb	w12, [x11, #62]
	ldrb	w12, [sp, #79]
	strb	w12, [x11, #63]
	b	.LBB59_24
.LBB59_23:                              // %apart.2.i.i.i
                                        //   in Loop: Header=BB59_20 Depth=1
	ldp	q1, q0, [sp, #48]
	ldp	q2, q3, [sp, #16]
	stp	q1, q0, [x11, #32]
	stp	q2, q3, [x11]
.LBB59_24:                              // %"core::slots::Slots::copy_in::<i8,20'core::clone::U8Clone{}>.exit.i"
                                        //   in Loop: Header=BB59_20 Depth=1
	add	x9, x9, #64
	str	x8, [x19, #16]
	stp	x10, x9, [x19]
.LBB59_25:                              // %"std_alloc::vec::Vec::extend_from_slice::<#0cd040e5c49bc722>.exit"
                                        //   in Loop: Header=BB59_20 Depth=1
	sub	x22, x22, #64
	add	x23, x23, #64
	cmp	x22, #63
	b.hi	.LBB59_20
	b	.LBB59_28
.LBB59_26:                              // %"std_alloc::vec::Vec::grow::<#5fdc5e19576447a7>.exit.i"
                                        //   in Loop: Header=BB59_20 Depth=1
	mov	x0, x19
	mov	w1, #64                         // =0x40
	bl	"std_alloc::vec::Vec::grow_amortized::<#5fdc5e19576447a7>"
	cbz	w0, .LBB59_25
// %bb.27:                              // %"std_alloc::vec::Vec::grow::<#5fdc5e19576447a7>.exit.join.3_crit_edge.i"
                                        //   in Loop: Header=BB59_20 Depth=1
	ldp	x9, x8, [x19, #8]
	b	.LBB59_21
.LBB59_28:                              // %"recoding::turned::put_blocks::<#d5cbf36e45a151c2>.exit"
	cmp	x22, #16
	b.hs	.LBB59_31
	b	.LBB59_34
.LBB59_29:                              // %"std_alloc::vec::Vec::grow::<#5fdc5e19576447a7>.exit.i109"
                                        //   in Loop: Header=BB59_31 Depth=1
	mov	x0, x19
	mov	w1, #16                         // =0x10
	str	q0, [sp]                        // 16-byte Spill
	bl	"std_alloc::vec::Vec::grow_amortized::<#5fdc5e19576447a7>"
	cbz	w0, .LBB59_33
// %bb.30:                              // %"std_alloc::vec::Vec::grow::<#5fdc5e19576447a7>.exit.join.3_crit_edge.i111"
                                        //   in Loop: Header=BB59_31 Depth=1
	ldp	x9, x8, [x19, #8]
	ldr	q0, [sp]                        // 16-byte Reload
	b	.LBB59_32
.LBB59_31:                              // %join.5.i21
                                        // =>This Inner Loop Header: Depth=1
	ldp	x9, x8, [x19, #8]
	ldr	q0, [x23], #16
	sub	x10, x8, x9
	cmp	x10, #15
	b.ls	.LBB59_29
.LBB59_32:                              // %join.3.i89
                                        //   in Loop: Header=BB59_31 Depth=1
	rev16	v0.16b, v0.16b
	ldr	x10, [x19]
	str	q0, [x10, x9]
	add	x9, x9, #16
	stp	x10, x9, [x19]
	str	x8, [x19, #16]
.LBB59_33:                              // %"std_alloc::vec::Vec::extend_from_slice::<#0cd040e5c49bc722>.exit114"
                                        //   in Loop: Header=BB59_31 Depth=1
	sub	x22, x22, #16
	cmp	x22, #15
	b.hi	.LBB59_31
.LBB59_34:                              // %"recoding::turned::put_blocks::<#efb3fef4d0ff1bf7>.exit"
	add	x8, x20, x21
	ldur	q0, [x8, #-16]
	ldp	x8, x20, [x19, #8]
	rev16	v0.16b, v0.16b
	sub	x9, x20, x8
	cmp	x22, x9
	str	q0, [sp, #16]
	b.hi	.LBB59_37
.LBB59_35:                              // %join.3.i119
	add	x9, sp, #16
	ldr	x23, [x19]
	mov	x2, x22
	sub	x9, x9, x22
	add	x24, x8, x22
	add	x0, x23, x8
	add	x1, x9, #16
	bl	memcpy
	stp	x23, x24, [x19]
	str	x20, [x19, #16]
.LBB59_36:                              // %common.ret
	mov	x0, x21
	.cfi_def_cfa wsp, 176
	ldp	x20, x19, [sp, #160]            // 16-byte Folded Reload
	ldp	x22, x21, [sp, #144]            // 16-byte Folded Reload
	ldp	x24, x23, [sp, #128]            // 16-byte Folded Reload
	ldp	x29, x30, [sp, #112]            // 16-byte Folded Reload
	add	sp, sp, #176
	.cfi_def_cfa_offset 0
	.cfi_restore w19
	.cfi_restore w20
	.cfi_restore w21
	.cfi_restore w22
	.cfi_restore w23
	.cfi_restore w24
	.cfi_restore w30
	.cfi_restore w29
	ret
.LBB59_37:                              // %"std_alloc::vec::Vec::grow::<#5fdc5e19576447a7>.exit.i139"
	.cfi_restore_state
	mov	x0, x19
	mov	x1, x22
	bl	"std_alloc::vec::Vec::grow_amortized::<#5fdc5e19576447a7>"
	cbz	w0, .LBB59_36
// %bb.38:                              // %"std_alloc::vec::Vec::grow::<#5fdc5e19576447a7>.exit.join.3_crit_edge.i141"
	ldp	x8, x20, [x19, #8]
	b	.LBB59_35
.Lfunc_end59:
	.size	"recoding::turned::copy_units::<#7337b1eebc07c9e6>", .Lfunc_end59-"recoding::turned::copy_units::<#7337b1eebc07c9e6>"
	.cfi_endproc
                                        // -- End function
	.section	.rodata.cst16,"aM",@progbits,16
	.p2align	4, 0x0                          // -- Begin function recoding::kernels::put_windows::<#25a6102eeaa0b05f>
.LCPI60_0:
	.byte	1                               // 0x1
	.byte	2                               // 0x2
	.byte	4                               // 0x4
	.byte	8                               // 0x8
	.byte	16                              // 0x10
	.byte	32                              // 0x20
	.byte	64                              // 0x40
	.byte	128                             // 0x80
	.byte	1                               // 0x1
	.byte	2                               // 0x2
	.byte	4                               // 0x4
	.byte	8                               // 0x8
	.byte	16                              // 0x10
	.byte	32                              // 0x20
	.byte	64                              // 0x40
	.byte	128                             // 0x80
	.section	".text.recoding::kernels::put_windows::<#25a6102eeaa0b05f>","ax",@progbits
	.p2align	2
	.type	"recoding::kernels::put_windows::<#25a6102eeaa0b05f>",@function
"recoding::kernels::put_windows::<#25a6102eeaa0b05f>": // @"recoding::kernels::put_windows::<#25a6102eeaa0b05f>"
	.cfi_startproc
// %bb.0:                               // %start
	sub	sp, sp, #192
	.cfi_def_cfa_offset 192
	stp	x29, x30, [sp, #96]             // 16-byte Folded Spill
	stp	x28, x27, [sp, #112]            // 16-byte Folded Spill
	stp	x26, x25, [sp, #128]            // 16-byte Folded Spill
	stp	x24, x23, [sp, #144]            // 16-byte Folded Spill
	stp	x22, x21, [sp, #160]            // 16-byte Folded Spill
	stp	x20, x19, [sp, #176]            // 16-byte Folded Spill
	add	x29, sp, #96
	.cfi_def_cfa w29, 96
	.cfi_offset w19, -8
	.cfi_offset w20, -16
	.cfi_offset w21, -24
	.cfi_offset w22, -32
	.cfi_offset w23, -40
	.cfi_offset w24, -48
	.cfi_offset w25, -56
	.cfi_offset w26, -64
	.cfi_offset w27, -72
	.cfi_offset w28, -80
	.cfi_offset w30, -88
	.cfi_offset w29, -96
	mov	x21, x2
	mov	x23, x0
	mov	x19, xzr
	mov	x20, xzr
	mov	x24, xzr
	str	x1, [sp, #8]                    // 8-byte Spill
.LBB60_1:                               // %then.6
                                        // =>This Inner Loop Header: Depth=1
	ldp	x8, x25, [x21, #8]
	sub	x9, x25, x8
	cmp	x9, #112
	b.lo	.LBB60_11
// %bb.2:                               // %join.3.i
                                        //   in Loop: Header=BB60_1 Depth=1
	add	x9, x23, x19
	movi	v6.16b, #54
	movi	v19.2d, #0000000000000000
	ldp	q1, q2, [x9]
	movi	v17.16b, #55
	ldp	q4, q5, [x9, #32]
	movi	v22.16b, #216
	adrp	x9, .LCPI60_0
	ldr	x27, [x21]
	add	x22, x8, #32
	uzp1	v0.16b, v1.16b, v2.16b
	uzp2	v1.16b, v1.16b, v2.16b
	uzp1	v3.16b, v4.16b, v5.16b
	uzp2	v4.16b, v4.16b, v5.16b
	movi	v5.16b, #253
	add	x10, x27, x8
	sub	x8, x25, x22
	ushr	v16.16b, v0.16b, #2
	ushr	v7.16b, v3.16b, #2
	cmeq	v18.16b, v16.16b, v6.16b
	cmeq	v16.16b, v16.16b, v17.16b
	cmeq	v6.16b, v7.16b, v6.16b
	cmeq	v7.16b, v7.16b, v17.16b
	ext	v19.16b, v19.16b, v18.16b, #15
	ext	v20.16b, v18.16b, v6.16b, #15
	mov	v6.b[15], wzr
	eor	v19.16b, v19.16b, v16.16b
	eor	v17.16b, v20.16b, v7.16b
	movi	v20.16b, #252
	ext	v21.16b, v17.16b, v16.16b, #1
	ext	v23.16b, v19.16b, v17.16b, #1
	and	v7.16b, v7.16b, v17.16b
	and	v24.16b, v3.16b, v20.16b
	and	v17.16b, v0.16b, v20.16b
	and	v16.16b, v16.16b, v19.16b
	ldr	q20, [x9, :lo12:.LCPI60_0]
	mov	w9, #62                         // =0x3e
	and	v6.16b, v6.16b, v21.16b
	and	v18.16b, v18.16b, v23.16b
	cmeq	v19.16b, v24.16b, v22.16b
	cmeq	v17.16b, v17.16b, v22.16b
	orr	v6.16b, v6.16b, v7.16b
	orr	v7.16b, v18.16b, v16.16b
	and	v16.16b, v17.16b, v20.16b
	and	v17.16b, v19.16b, v20.16b
	cmeq	v6.16b, v6.16b, #0
	cmeq	v7.16b, v7.16b, #0
	addp	v2.16b, v16.16b, v17.16b
	bif	v4.16b, v5.16b, v6.16b
	bif	v1.16b, v5.16b, v7.16b
	orn	v3.16b, v3.16b, v6.16b
	addp	v2.16b, v2.16b, v2.16b
	orn	v0.16b, v0.16b, v7.16b
	stp	q6, q20, [sp, #32]              // 32-byte Folded Spill
	str	q7, [sp, #16]                   // 16-byte Spill
	addp	v2.16b, v2.16b, v2.16b
	zip1	v5.16b, v4.16b, v3.16b
	zip2	v3.16b, v4.16b, v3.16b
	zip1	v4.16b, v1.16b, v0.16b
	zip2	v0.16b, v1.16b, v0.16b
	fmov	w11, s2
	stp	q5, q3, [x29, #-32]
	stp	q4, q0, [x10]
	cmn	w11, #1
	mov	w11, #64                        // =0x40
	stp	x27, x22, [x21]
	csel	x26, x11, x9, gt
	str	x25, [x21, #16]
	sub	x28, x26, #32
	cmp	x28, x8
	b.hi	.LBB60_9
.LBB60_3:                               // %join.3.i85
                                        //   in Loop: Header=BB60_1 Depth=1
	add	x8, x27, x22
	sub	x9, x29, #32
	add	x0, x27, x22
	sub	x8, x8, x9
	sub	x1, x29, #32
	sub	x2, x26, #32
	cmp	x8, x28
	b.hs	.LBB60_5
// %bb.4:                               // %join.7.i.i.i98.preheader
                                        //   in Loop: Header=BB60_1 Depth=1
	bl	memcpy
	b	.LBB60_6
.LBB60_5:                               // %apart.2.i.i.i95
                                        //   in Loop: Header=BB60_1 Depth=1
	bl	memmove
.LBB60_6:                               // %"core::slots::Slots::copy_in::<i8,20'core::clone::U8Clone{}>.exit.i96"
                                        //   in Loop: Header=BB60_1 Depth=1
	add	x8, x22, x28
	str	x25, [x21, #16]
	stp	x27, x8, [x21]
.LBB60_7:                               // %"std_alloc::vec::Vec::extend_from_slice::<#0cd040e5c49bc722>.exit110"
                                        //   in Loop: Header=BB60_1 Depth=1
	ldp	q2, q1, [sp, #32]               // 32-byte Folded Reload
	add	x19, x26, x19
	ldr	q0, [sp, #16]                   // 16-byte Reload
	bic	v0.16b, v1.16b, v0.16b
	bic	v1.16b, v1.16b, v2.16b
	addp	v0.16b, v0.16b, v1.16b
	addp	v0.16b, v0.16b, v0.16b
	addp	v0.16b, v0.16b, v0.16b
	fmov	w8, s0
	fmov	s0, w8
	cmp	w8, #0
	mov	w8, #8                          // =0x8
	csinc	x24, xzr, x24, ne
	cnt	v0.8b, v0.8b
	addv	b0, v0.8b
	fmov	w9, s0
	add	x20, x20, x9
	cmp	x20, #8
	csel	x8, x20, x8, lo
	cmp	x24, x8
	b.hi	.LBB60_11
// %bb.8:                               // %"std_alloc::vec::Vec::extend_from_slice::<#0cd040e5c49bc722>.exit110"
                                        //   in Loop: Header=BB60_1 Depth=1
	ldr	x8, [sp, #8]                    // 8-byte Reload
	sub	x8, x8, x19
	cmp	x8, #63
	b.hi	.LBB60_1
	b	.LBB60_11
.LBB60_9:                               // %"std_alloc::vec::Vec::grow::<#5fdc5e19576447a7>.exit.i105"
                                        //   in Loop: Header=BB60_1 Depth=1
	sub	x1, x26, #32
	mov	x0, x21
	bl	"std_alloc::vec::Vec::grow_amortized::<#5fdc5e19576447a7>"
	cbz	w0, .LBB60_7
// %bb.10:                              // %"std_alloc::vec::Vec::grow::<#5fdc5e19576447a7>.exit.join.3_crit_edge.i107"
                                        //   in Loop: Header=BB60_1 Depth=1
	ldp	x22, x25, [x21, #8]
	ldr	x27, [x21]
	b	.LBB60_3
.LBB60_11:                              // %after.1
	mov	x0, x19
	mov	x1, x20
	.cfi_def_cfa wsp, 192
	ldp	x20, x19, [sp, #176]            // 16-byte Folded Reload
	ldp	x22, x21, [sp, #160]            // 16-byte Folded Reload
	ldp	x24, x23, [sp, #144]            // 16-byte Folded Reload
	ldp	x26, x25, [sp, #128]            // 16-byte Folded Reload
	ldp	x28, x27, [sp, #112]            // 16-byte Folded Reload
	ldp	x29, x30, [sp, #96]             // 16-byte Folded Reload
	add	sp, sp, #192
	.cfi_def_cfa_offset 0
	.cfi_restore w19
	.cfi_restore w20
	.cfi_restore w21
	.cfi_restore w22
	.cfi_restore w23
	.cfi_restore w24
	.cfi_restore w25
	.cfi_restore w26
	.cfi_restore w27
	.cfi_restore w28
	.cfi_restore w30
	.cfi_restore w29
	ret
.Lfunc_end60:
	.size	"recoding::kernels::put_windows::<#25a6102eeaa0b05f>", .Lfunc_end60-"recoding::kernels::put_windows::<#25a6102eeaa0b05f>"
	.cfi_endproc
                                        // -- End function
	.section	".text.recoding::engine::recode_faults::<#dcf09f3d7e931f6a>","ax",@progbits
	.p2align	2                               // -- Begin function recoding::engine::recode_faults::<#dcf09f3d7e931f6a>
	.type	"recoding::engine::recode_faults::<#dcf09f3d7e931f6a>",@function
"recoding::engine::recode_faults::<#dcf09f3d7e931f6a>": // @"recoding::engine::recode_faults::<#dcf09f3d7e931f6a>"
	.cfi_startproc
// %bb.0:                               // %start
	ldrb	w10, [x1]
	ldr	x11, [x1, #16]
	mov	x9, xzr
	mov	x8, xzr
	cmp	w10, #2
	ccmp	x11, #0, #0, eq
	mov	w11, #16                        // =0x10
	cset	w10, ne
	b	.LBB61_2
.LBB61_1:                               // %"recoding::text::Utf16Text::put_any::<#ec2bf5654938c731>.exit"
                                        //   in Loop: Header=BB61_2 Depth=1
	add	x8, x8, #1
	mov	w12, #2                         // =0x2
	add	x9, x12, x9
	cmp	x9, x11
	b.hs	.LBB61_14
.LBB61_2:                               // %join.5
                                        // =>This Inner Loop Header: Depth=1
	add	x12, x9, #4
	add	x13, x2, x9
	cmp	x12, x3
	b.ls	.LBB61_7
// %bb.3:                               // %join.3.i
                                        //   in Loop: Header=BB61_2 Depth=1
	sub	x17, x3, x9
	cmp	x17, #2
	b.lo	.LBB61_15
// %bb.4:                               // %join.3.i.i
                                        //   in Loop: Header=BB61_2 Depth=1
	ldrb	w15, [x13]
	mov	w14, #56320                     // =0xdc00
	lsl	w16, w15, #8
	and	w1, w16, #0xfc00
	cmp	w1, w14
	b.eq	.LBB61_11
// %bb.5:                               // %join.3.i.i
                                        //   in Loop: Header=BB61_2 Depth=1
	mov	w5, #55296                      // =0xd800
	ldrb	w14, [x13, #1]
	cmp	w1, w5
	b.ne	.LBB61_13
// %bb.6:                               // %join.6.i.i
                                        //   in Loop: Header=BB61_2 Depth=1
	cmp	x17, #4
	b.hs	.LBB61_9
	b	.LBB61_15
.LBB61_7:                               // %then.1.i81
                                        //   in Loop: Header=BB61_2 Depth=1
	ldrb	w15, [x13]
	mov	w14, #56320                     // =0xdc00
	lsl	w16, w15, #8
	and	w17, w16, #0xfc00
	cmp	w17, w14
	b.eq	.LBB61_11
// %bb.8:                               // %then.1.i81
                                        //   in Loop: Header=BB61_2 Depth=1
	mov	w1, #55296                      // =0xd800
	ldrb	w14, [x13, #1]
	cmp	w17, w1
	b.ne	.LBB61_13
.LBB61_9:                               // %join.15.i74.i206.i
                                        //   in Loop: Header=BB61_2 Depth=1
	ldrb	w15, [x13, #2]
	and	w17, w15, #0xfc
	cmp	w17, #220
	b.ne	.LBB61_11
// %bb.10:                              // %arm.14.i201.i
                                        //   in Loop: Header=BB61_2 Depth=1
	ldrb	w12, [x13, #3]
	and	w13, w16, #0x300
	orr	w13, w13, w14
	bfi	w12, w15, #8, #2
	ldp	x15, x14, [x4]
	orr	w12, w12, w13, lsl #10
	mov	w13, #-10304                    // =0xffffd7c0
	add	w12, w12, #16, lsl #12          // =65536
	add	w13, w13, w12, lsr #10
	strb	w13, [x15, x14]
	ldr	x15, [x4]
	lsr	w13, w13, #8
	add	x15, x15, x14
	strb	w13, [x15, #1]
	ldr	x13, [x4]
	add	x13, x13, x14
	strb	w12, [x13, #2]
	mov	w13, #220                       // =0xdc
	ldr	x15, [x4]
	bfxil	w13, w12, #8, #2
	add	x12, x15, x14
	add	x14, x14, #4
	strb	w13, [x12, #3]
	mov	w12, #4                         // =0x4
	str	x14, [x4, #8]
	add	x9, x12, x9
	cmp	x9, x11
	b.lo	.LBB61_2
	b	.LBB61_14
.LBB61_11:                              // %arm.11
                                        //   in Loop: Header=BB61_2 Depth=1
	cmp	x12, #32
	mov	w11, #32                        // =0x20
	csel	x11, x12, x11, lo
	cbz	w10, .LBB61_1
// %bb.12:                              // %"recoding::text::Utf16Text::put_code::<#ec2bf5654938c731>.exit.i.i"
                                        //   in Loop: Header=BB61_2 Depth=1
	ldp	x13, x12, [x4]
	mov	w14, #253                       // =0xfd
	strb	w14, [x13, x12]
	mov	w14, #255                       // =0xff
	ldr	x13, [x4]
	add	x13, x13, x12
	add	x12, x12, #2
	strb	w14, [x13, #1]
	str	x12, [x4, #8]
	b	.LBB61_1
.LBB61_13:                              // %arm.1.i
                                        //   in Loop: Header=BB61_2 Depth=1
	ldp	x13, x12, [x4]
	strb	w14, [x13, x12]
	ldr	x13, [x4]
	add	x13, x13, x12
	add	x12, x12, #2
	strb	w15, [x13, #1]
	str	x12, [x4, #8]
	mov	w12, #2                         // =0x2
	add	x9, x12, x9
	cmp	x9, x11
	b.lo	.LBB61_2
.LBB61_14:                              // %after.1
	stp	x9, x8, [x0]
	str	xzr, [x0, #16]
	ret
.LBB61_15:                              // %arm.7
	stp	x9, x8, [x0]
	mov	w8, #256                        // =0x100
	strh	w8, [x0, #16]
	stur	wzr, [x0, #18]
	strh	wzr, [x0, #22]
	ret
.Lfunc_end61:
	.size	"recoding::engine::recode_faults::<#dcf09f3d7e931f6a>", .Lfunc_end61-"recoding::engine::recode_faults::<#dcf09f3d7e931f6a>"
	.cfi_endproc
                                        // -- End function
	.section	".text.recoding::recoder_runs::run_whole::<#9bba14706ba0829a>","ax",@progbits
	.p2align	2                               // -- Begin function recoding::recoder_runs::run_whole::<#9bba14706ba0829a>
	.type	"recoding::recoder_runs::run_whole::<#9bba14706ba0829a>",@function
"recoding::recoder_runs::run_whole::<#9bba14706ba0829a>": // @"recoding::recoder_runs::run_whole::<#9bba14706ba0829a>"
	.cfi_startproc
// %bb.0:                               // %start
	sub	sp, sp, #128
	.cfi_def_cfa_offset 128
	stp	x29, x30, [sp, #64]             // 16-byte Folded Spill
	str	x23, [sp, #80]                  // 8-byte Spill
	stp	x22, x21, [sp, #96]             // 16-byte Folded Spill
	stp	x20, x19, [sp, #112]            // 16-byte Folded Spill
	add	x29, sp, #64
	.cfi_def_cfa w29, 64
	.cfi_offset w19, -8
	.cfi_offset w20, -16
	.cfi_offset w21, -24
	.cfi_offset w22, -32
	.cfi_offset w23, -48
	.cfi_offset w30, -56
	.cfi_offset w29, -64
	mov	x22, x2
	mov	x21, x1
	mov	x23, x0
	mov	x19, xzr
	mov	x20, xzr
	b	.LBB62_2
.LBB62_1:                               // %"recoding::kernels::put_damaged_units::<#540345a75bfb5bf3>.exit"
                                        //   in Loop: Header=BB62_2 Depth=1
	add	x0, x23, x20
	mov	x2, x22
	bl	"recoding::kernels::put_windows::<#540345a75bfb5bf3>"
	add	x20, x0, x20
	add	x19, x1, x19
	cbz	x0, .LBB62_7
.LBB62_2:                               // %loop.2.i
                                        // =>This Loop Header: Depth=1
                                        //     Child Loop BB62_9 Depth 2
	sub	x8, x21, x20
	cmp	x8, #16
	b.lo	.LBB62_4
// %bb.3:                               // %"recoding::kernels::TurnedKernelUtf16Utf16::put_text::<#43398717c7bc3319>.exit"
                                        //   in Loop: Header=BB62_2 Depth=1
	add	x0, x23, x20
	sub	x1, x21, x20
	mov	x2, x22
	bl	"recoding::turned::copy_units::<#17d65846aaba8d30>"
	lsr	x8, x0, #2
	add	x20, x0, x20
	cmp	x8, #2046
	b.hi	.LBB62_2
.LBB62_4:                               // %join.5.i
                                        //   in Loop: Header=BB62_2 Depth=1
	subs	x1, x21, x20
	b.eq	.LBB62_19
// %bb.5:                               // %join.8.i
                                        //   in Loop: Header=BB62_2 Depth=1
	cmp	x1, #64
	b.hs	.LBB62_1
// %bb.6:                               // %join.14.i
                                        //   in Loop: Header=BB62_2 Depth=1
	cmp	x1, #128
	mov	w8, #128                        // =0x80
	csel	x9, x1, x8, lo
	cmp	x1, #2
	b.hs	.LBB62_8
	b	.LBB62_16
.LBB62_7:                               // %"recoding::kernels::put_damaged_units::<#540345a75bfb5bf3>.exit.join.14.i_crit_edge"
                                        //   in Loop: Header=BB62_2 Depth=1
	sub	x1, x21, x20
	cmp	x1, #128
	mov	w8, #128                        // =0x80
	csel	x9, x1, x8, lo
	cmp	x1, #2
	b.lo	.LBB62_16
.LBB62_8:                               // %join.5.i39.preheader
                                        //   in Loop: Header=BB62_2 Depth=1
	mov	x8, xzr
	add	x10, x23, x20
	mov	x14, x9
.LBB62_9:                               // %join.5.i39
                                        //   Parent Loop BB62_2 Depth=1
                                        // =>  This Inner Loop Header: Depth=2
	add	x13, x10, x8
	mov	w16, #55296                     // =0xd800
	ldrb	w12, [x13]
	lsl	w11, w12, #8
	and	w15, w11, #0xfc00
	ldrb	w11, [x13, #1]
	cmp	w15, w16
	b.eq	.LBB62_12
// %bb.10:                              // %join.5.i39
                                        //   in Loop: Header=BB62_9 Depth=2
	mov	w13, #56320                     // =0xdc00
	cmp	w15, w13
	b.eq	.LBB62_15
// %bb.11:                              // %arm.7.i.thread
                                        //   in Loop: Header=BB62_9 Depth=2
	ldp	x14, x13, [x22]
	strb	w12, [x14, x13]
	ldr	x12, [x22]
	add	x12, x12, x13
	strb	w11, [x12, #1]
	add	x11, x13, #2
	mov	w12, #2                         // =0x2
	add	x8, x12, x8
	str	x11, [x22, #8]
	sub	x14, x9, x8
	cmp	x14, #1
	b.hi	.LBB62_9
	b	.LBB62_15
.LBB62_12:                              // %join.6.i.i
                                        //   in Loop: Header=BB62_9 Depth=2
	cmp	x14, #4
	b.lo	.LBB62_15
// %bb.13:                              // %join.15.i65.i.i
                                        //   in Loop: Header=BB62_9 Depth=2
	ldrb	w14, [x13, #2]
	and	w15, w14, #0xfc
	cmp	w15, #220
	b.ne	.LBB62_15
// %bb.14:                              // %arm.7.i
                                        //   in Loop: Header=BB62_9 Depth=2
	ldp	x17, x16, [x22]
	mov	w15, #216                       // =0xd8
	bfxil	w15, w12, #0, #2
	ldrb	w12, [x13, #3]
	strb	w15, [x17, x16]
	ldr	x13, [x22]
	add	x13, x13, x16
	strb	w11, [x13, #1]
	ldr	x11, [x22]
	add	x11, x11, x16
	strb	w14, [x11, #2]
	ldr	x11, [x22]
	add	x11, x11, x16
	strb	w12, [x11, #3]
	add	x11, x16, #4
	mov	w12, #4                         // =0x4
	add	x8, x12, x8
	str	x11, [x22, #8]
	sub	x14, x9, x8
	cmp	x14, #1
	b.hi	.LBB62_9
.LBB62_15:                              // %"recoding::engine::recode_text::<#cb596da6ac655ae4>.exit"
                                        //   in Loop: Header=BB62_2 Depth=1
	cmp	x8, #124
	add	x20, x8, x20
	b.hi	.LBB62_2
.LBB62_16:                              // %then.15.i
                                        //   in Loop: Header=BB62_2 Depth=1
	subs	x3, x21, x20
	b.eq	.LBB62_19
// %bb.17:                              // %join.20.i
                                        //   in Loop: Header=BB62_2 Depth=1
	movi	v0.2d, #0000000000000000
	sub	x0, x29, #24
	mov	x1, sp
	add	x2, x23, x20
	mov	x4, x22
	stp	xzr, xzr, [x29, #-16]
	stur	xzr, [x29, #-24]
	str	xzr, [sp, #32]
	stp	q0, q0, [sp]
	bl	"recoding::engine::recode_faults::<#d9c9637553368c70>"
	ldp	x8, x9, [x29, #-24]
	ldurb	w10, [x29, #-8]
	add	x20, x8, x20
	add	x19, x9, x19
	tbnz	w10, #0, .LBB62_20
// %bb.18:                              // %join.20.i
                                        //   in Loop: Header=BB62_2 Depth=1
	ldurb	w8, [x29, #-7]
	tbz	w8, #0, .LBB62_2
	b	.LBB62_20
.LBB62_19:
	mov	x20, x21
.LBB62_20:                              // %"recoding::engine::run::<#0711687b94467fa5>.exit"
	mov	x0, x20
	mov	x1, x19
	.cfi_def_cfa wsp, 128
	ldp	x20, x19, [sp, #112]            // 16-byte Folded Reload
	ldr	x23, [sp, #80]                  // 8-byte Reload
	ldp	x22, x21, [sp, #96]             // 16-byte Folded Reload
	ldp	x29, x30, [sp, #64]             // 16-byte Folded Reload
	add	sp, sp, #128
	.cfi_def_cfa_offset 0
	.cfi_restore w19
	.cfi_restore w20
	.cfi_restore w21
	.cfi_restore w22
	.cfi_restore w23
	.cfi_restore w30
	.cfi_restore w29
	ret
.Lfunc_end62:
	.size	"recoding::recoder_runs::run_whole::<#9bba14706ba0829a>", .Lfunc_end62-"recoding::recoder_runs::run_whole::<#9bba14706ba0829a>"
	.cfi_endproc
                                        // -- End function
	.section	.rodata.cst16,"aM",@progbits,16
	.p2align	4, 0x0                          // -- Begin function recoding::turned::copy_units::<#17d65846aaba8d30>
.LCPI63_0:
	.byte	1                               // 0x1
	.byte	2                               // 0x2
	.byte	4                               // 0x4
	.byte	8                               // 0x8
	.byte	16                              // 0x10
	.byte	32                              // 0x20
	.byte	64                              // 0x40
	.byte	128                             // 0x80
	.byte	1                               // 0x1
	.byte	2                               // 0x2
	.byte	4                               // 0x4
	.byte	8                               // 0x8
	.byte	16                              // 0x10
	.byte	32                              // 0x20
	.byte	64                              // 0x40
	.byte	128                             // 0x80
	.section	".text.recoding::turned::copy_units::<#17d65846aaba8d30>","ax",@progbits
	.p2align	2
	.type	"recoding::turned::copy_units::<#17d65846aaba8d30>",@function
"recoding::turned::copy_units::<#17d65846aaba8d30>": // @"recoding::turned::copy_units::<#17d65846aaba8d30>"
	.cfi_startproc
// %bb.0:                               // %start
	sub	sp, sp, #96
	.cfi_def_cfa_offset 96
	stp	x29, x30, [sp, #32]             // 16-byte Folded Spill
	stp	x24, x23, [sp, #48]             // 16-byte Folded Spill
	stp	x22, x21, [sp, #64]             // 16-byte Folded Spill
	stp	x20, x19, [sp, #80]             // 16-byte Folded Spill
	add	x29, sp, #32
	.cfi_def_cfa w29, 64
	.cfi_offset w19, -8
	.cfi_offset w20, -16
	.cfi_offset w21, -24
	.cfi_offset w22, -32
	.cfi_offset w23, -40
	.cfi_offset w24, -48
	.cfi_offset w30, -56
	.cfi_offset w29, -64
	.cfi_remember_state
	ldr	q0, [x0]
	movi	v1.8h, #252
	strh	wzr, [sp]
	movi	v3.16b, #220
	movi	v4.16b, #216
	adrp	x8, .LCPI63_0
	stur	q0, [sp, #2]
	ldur	q0, [sp, #2]
	ldr	q2, [sp]
	and	v0.16b, v0.16b, v1.16b
	and	v1.16b, v2.16b, v1.16b
	cmeq	v0.16b, v0.16b, v3.16b
	cmeq	v1.16b, v1.16b, v4.16b
	eor	v1.16b, v1.16b, v0.16b
	ldr	q0, [x8, :lo12:.LCPI63_0]
	and	v1.16b, v1.16b, v0.16b
	addp	v1.16b, v1.16b, v1.16b
	addp	v1.16b, v1.16b, v1.16b
	addp	v1.16b, v1.16b, v1.16b
	umov	w8, v1.h[0]
	cbz	w8, .LBB63_3
// %bb.1:
	umov	w8, v1.h[0]
	rbit	w8, w8
	clz	w8, w8
	lsr	w8, w8, #1
	cbnz	x8, .LBB63_14
.LBB63_2:
	mov	x19, xzr
	b	.LBB63_24
.LBB63_3:                               // %loop.2.i.preheader.i
	subs	x8, x1, #80
	b.lo	.LBB63_9
// %bb.4:                               // %join.5.i.i.preheader
	lsr	x8, x8, #1
	add	x10, x0, #32
	sub	x11, x1, #16
	and	x8, x8, #0x7fffffffffffffe0
	add	x9, x8, #40
	mov	w8, #8                          // =0x8
.LBB63_5:                               // %join.5.i.i
                                        // =>This Inner Loop Header: Depth=1
	movi	v1.8h, #252
	ldp	q2, q6, [x10, #-16]
	ldp	q7, q18, [x10, #16]
	movi	v4.16b, #220
	ldur	q3, [x10, #-18]
	ldur	q16, [x10, #14]
	movi	v5.16b, #216
	ldur	q17, [x10, #-2]
	ldur	q19, [x10, #30]
	and	v2.16b, v2.16b, v1.16b
	and	v3.16b, v3.16b, v1.16b
	and	v7.16b, v7.16b, v1.16b
	and	v16.16b, v16.16b, v1.16b
	and	v6.16b, v6.16b, v1.16b
	and	v17.16b, v17.16b, v1.16b
	and	v18.16b, v18.16b, v1.16b
	and	v1.16b, v19.16b, v1.16b
	cmeq	v2.16b, v2.16b, v4.16b
	cmeq	v3.16b, v3.16b, v5.16b
	cmeq	v7.16b, v7.16b, v4.16b
	cmeq	v16.16b, v16.16b, v5.16b
	cmeq	v6.16b, v6.16b, v4.16b
	cmeq	v4.16b, v18.16b, v4.16b
	cmeq	v1.16b, v1.16b, v5.16b
	eor	v2.16b, v3.16b, v2.16b
	cmeq	v3.16b, v17.16b, v5.16b
	eor	v5.16b, v16.16b, v7.16b
	eor	v1.16b, v1.16b, v4.16b
	mvn	v2.16b, v2.16b
	eor	v3.16b, v3.16b, v6.16b
	mvn	v5.16b, v5.16b
	bic	v2.16b, v2.16b, v3.16b
	bic	v1.16b, v5.16b, v1.16b
	and	v1.16b, v2.16b, v1.16b
	bic	v1.16b, v0.16b, v1.16b
	addp	v1.16b, v1.16b, v1.16b
	addp	v1.16b, v1.16b, v1.16b
	addp	v1.16b, v1.16b, v1.16b
	umov	w12, v1.h[0]
	cbnz	w12, .LBB63_8
// %bb.6:                               // %join.8.i.i
                                        //   in Loop: Header=BB63_5 Depth=1
	sub	x11, x11, #64
	add	x10, x10, #64
	add	x8, x8, #32
	cmp	x11, #63
	b.hi	.LBB63_5
// %bb.7:
	mov	x8, x9
.LBB63_8:                               // %"utf_lanes::unit_blocks::paired_wide::<#22d4087b0bf99cde>.exit.i"
	lsr	x9, x1, #1
	cmp	x8, x9
	b.lo	.LBB63_10
	b	.LBB63_14
.LBB63_9:
	mov	w8, #8                          // =0x8
	lsr	x9, x1, #1
	cmp	x8, x9
	b.hs	.LBB63_14
.LBB63_10:                              // %join.5.i51.lr.ph.i
	sub	x10, x9, #8
.LBB63_11:                              // %join.5.i51.i
                                        // =>This Inner Loop Header: Depth=1
	cmp	x10, x8
	movi	v1.8h, #252
	movi	v4.16b, #220
	csel	x8, x10, x8, lo
	movi	v5.16b, #216
	add	x11, x0, x8, lsl #1
	ldr	q2, [x11]
	ldur	q3, [x11, #-2]
	and	v2.16b, v2.16b, v1.16b
	and	v1.16b, v3.16b, v1.16b
	cmeq	v2.16b, v2.16b, v4.16b
	cmeq	v1.16b, v1.16b, v5.16b
	eor	v1.16b, v1.16b, v2.16b
	and	v1.16b, v1.16b, v0.16b
	addp	v1.16b, v1.16b, v1.16b
	addp	v1.16b, v1.16b, v1.16b
	addp	v1.16b, v1.16b, v1.16b
	umov	w11, v1.h[0]
	rbit	w12, w11
	tst	w11, #0xffff
	mov	w11, #8                         // =0x8
	clz	w12, w12
	lsr	w12, w12, #1
	csel	w11, w11, w12, eq
	cmp	w11, #7
	b.ls	.LBB63_13
// %bb.12:                              // %join.8.i74.i
                                        //   in Loop: Header=BB63_11 Depth=1
	add	x8, x8, #8
	cmp	x8, x9
	b.lo	.LBB63_11
	b	.LBB63_14
.LBB63_13:                              // %then.6.i.i
	add	x8, x8, w11, uxtw
	cbz	x8, .LBB63_2
.LBB63_14:                              // %"utf_lanes::unit_blocks::units_len::<#22d4087b0bf99cde>.exit"
	add	x9, x0, x8, lsl #1
	ldurb	w9, [x9, #-2]
	and	w9, w9, #0xfc
	cmp	w9, #216
	cset	w9, eq
	sub	x23, x8, x9
	lsl	x19, x23, #1
	cbz	x19, .LBB63_24
// %bb.15:                              // %join.3
	mov	x24, x2
	ldp	x9, x20, [x24, #8]!
	sub	x8, x20, x9
	cmp	x19, x8
	b.hi	.LBB63_34
.LBB63_16:                              // %join.3.i
	ldr	x21, [x2]
	add	x22, x9, x19
	stp	xzr, xzr, [x24]
	add	x8, x21, x9
	sub	x10, x8, x0
	cmp	x10, x19
	b.hs	.LBB63_22
// %bb.17:                              // %iter.check
	cmp	x19, #7
	b.ls	.LBB63_19
// %bb.18:                              // %vector.memcheck
	add	x8, x9, x21
	sub	x8, x8, x0
	cmp	x8, #32
	b.hs	.LBB63_25
.LBB63_19:
	mov	x8, xzr
.LBB63_20:                              // %join.7.i.i.i.preheader
	add	x10, x8, x9
	sub	x9, x8, x19
	add	x8, x0, x8
	add	x10, x21, x10
.LBB63_21:                              // %join.7.i.i.i
                                        // =>This Inner Loop Header: Depth=1
	ldrb	w11, [x8], #1
	adds	x9, x9, #1
	strb	w11, [x10], #1
	b.lo	.LBB63_21
	b	.LBB63_23
.LBB63_22:                              // %apart.2.i.i.i
	mov	x1, x0
	mov	x0, x8
	mov	x23, x2
	mov	x2, x19
	bl	memmove
	mov	x2, x23
.LBB63_23:                              // %"core::slots::Slots::copy_in::<i8,20'core::clone::U8Clone{}>.exit.i"
	stp	x21, x22, [x2]
	str	x20, [x2, #16]
.LBB63_24:                              // %common.ret
	mov	x0, x19
	.cfi_def_cfa wsp, 96
	ldp	x20, x19, [sp, #80]             // 16-byte Folded Reload
	ldp	x22, x21, [sp, #64]             // 16-byte Folded Reload
	ldp	x24, x23, [sp, #48]             // 16-byte Folded Reload
	ldp	x29, x30, [sp, #32]             // 16-byte Folded Reload
	add	sp, sp, #96
	.cfi_def_cfa_offset 0
	.cfi_restore w19
	.cfi_restore w20
	.cfi_restore w21
	.cfi_restore w22
	.cfi_restore w23
	.cfi_restore w24
	.cfi_restore w30
	.cfi_restore w29
	ret
.LBB63_25:                              // %vector.main.loop.iter.check
	.cfi_restore_state
	cmp	x19, #32
	b.hs	.LBB63_27
// %bb.26:
	mov	x8, xzr
	b	.LBB63_31
.LBB63_27:                              // %vector.ph
	add	x11, x9, x21
	and	x8, x19, #0xffffffffffffffe0
	add	x10, x0, #16
	add	x11, x11, #16
	and	x12, x19, #0xffffffffffffffe0
.LBB63_28:                              // %vector.body
                                        // =>This Inner Loop Header: Depth=1
	ldp	q0, q1, [x10, #-16]
	subs	x12, x12, #32
	add	x10, x10, #32
	stp	q0, q1, [x11, #-16]
	add	x11, x11, #32
	b.ne	.LBB63_28
// %bb.29:                              // %middle.block
	cmp	x19, x8
	b.eq	.LBB63_23
// %bb.30:                              // %vec.epilog.iter.check
	tst	x23, #0xc
	b.eq	.LBB63_20
.LBB63_31:                              // %vec.epilog.ph
	mov	x11, x8
	and	x8, x19, #0xfffffffffffffff8
	add	x12, x9, x11
	sub	x10, x11, x8
	add	x11, x0, x11
	add	x12, x21, x12
.LBB63_32:                              // %vec.epilog.vector.body
                                        // =>This Inner Loop Header: Depth=1
	ldr	d0, [x11], #8
	adds	x10, x10, #8
	str	d0, [x12], #8
	b.ne	.LBB63_32
// %bb.33:                              // %vec.epilog.middle.block
	cmp	x19, x8
	b.ne	.LBB63_20
	b	.LBB63_23
.LBB63_34:                              // %"std_alloc::vec::Vec::grow::<#5fdc5e19576447a7>.exit.i"
	mov	x21, x0
	mov	x0, x2
	mov	x1, x19
	mov	x20, x2
	bl	"std_alloc::vec::Vec::grow_amortized::<#5fdc5e19576447a7>"
	cbz	w0, .LBB63_24
// %bb.35:                              // %"std_alloc::vec::Vec::grow::<#5fdc5e19576447a7>.exit.join.3_crit_edge.i"
	mov	x2, x20
	ldp	x9, x20, [x20, #8]
	mov	x0, x21
	b	.LBB63_16
.Lfunc_end63:
	.size	"recoding::turned::copy_units::<#17d65846aaba8d30>", .Lfunc_end63-"recoding::turned::copy_units::<#17d65846aaba8d30>"
	.cfi_endproc
                                        // -- End function
	.section	.rodata.cst16,"aM",@progbits,16
	.p2align	4, 0x0                          // -- Begin function recoding::kernels::put_windows::<#540345a75bfb5bf3>
.LCPI64_0:
	.byte	1                               // 0x1
	.byte	2                               // 0x2
	.byte	4                               // 0x4
	.byte	8                               // 0x8
	.byte	16                              // 0x10
	.byte	32                              // 0x20
	.byte	64                              // 0x40
	.byte	128                             // 0x80
	.byte	1                               // 0x1
	.byte	2                               // 0x2
	.byte	4                               // 0x4
	.byte	8                               // 0x8
	.byte	16                              // 0x10
	.byte	32                              // 0x20
	.byte	64                              // 0x40
	.byte	128                             // 0x80
	.section	".text.recoding::kernels::put_windows::<#540345a75bfb5bf3>","ax",@progbits
	.p2align	2
	.type	"recoding::kernels::put_windows::<#540345a75bfb5bf3>",@function
"recoding::kernels::put_windows::<#540345a75bfb5bf3>": // @"recoding::kernels::put_windows::<#540345a75bfb5bf3>"
	.cfi_startproc
// %bb.0:                               // %start
	sub	sp, sp, #192
	.cfi_def_cfa_offset 192
	stp	x29, x30, [sp, #96]             // 16-byte Folded Spill
	stp	x28, x27, [sp, #112]            // 16-byte Folded Spill
	stp	x26, x25, [sp, #128]            // 16-byte Folded Spill
	stp	x24, x23, [sp, #144]            // 16-byte Folded Spill
	stp	x22, x21, [sp, #160]            // 16-byte Folded Spill
	stp	x20, x19, [sp, #176]            // 16-byte Folded Spill
	add	x29, sp, #96
	.cfi_def_cfa w29, 96
	.cfi_offset w19, -8
	.cfi_offset w20, -16
	.cfi_offset w21, -24
	.cfi_offset w22, -32
	.cfi_offset w23, -40
	.cfi_offset w24, -48
	.cfi_offset w25, -56
	.cfi_offset w26, -64
	.cfi_offset w27, -72
	.cfi_offset w28, -80
	.cfi_offset w30, -88
	.cfi_offset w29, -96
	mov	x21, x2
	mov	x23, x0
	mov	x19, xzr
	mov	x20, xzr
	mov	x24, xzr
	str	x1, [sp, #8]                    // 8-byte Spill
.LBB64_1:                               // %then.6
                                        // =>This Inner Loop Header: Depth=1
	ldp	x8, x25, [x21, #8]
	sub	x9, x25, x8
	cmp	x9, #112
	b.lo	.LBB64_11
// %bb.2:                               // %join.3.i
                                        //   in Loop: Header=BB64_1 Depth=1
	add	x9, x23, x19
	movi	v6.16b, #54
	movi	v19.2d, #0000000000000000
	ldp	q1, q2, [x9]
	movi	v17.16b, #55
	ldp	q4, q5, [x9, #32]
	movi	v22.16b, #216
	adrp	x9, .LCPI64_0
	ldr	x27, [x21]
	add	x22, x8, #32
	uzp1	v0.16b, v1.16b, v2.16b
	uzp2	v1.16b, v1.16b, v2.16b
	uzp1	v3.16b, v4.16b, v5.16b
	uzp2	v4.16b, v4.16b, v5.16b
	movi	v5.16b, #253
	add	x10, x27, x8
	sub	x8, x25, x22
	ushr	v16.16b, v0.16b, #2
	ushr	v7.16b, v3.16b, #2
	cmeq	v18.16b, v16.16b, v6.16b
	cmeq	v16.16b, v16.16b, v17.16b
	cmeq	v6.16b, v7.16b, v6.16b
	cmeq	v7.16b, v7.16b, v17.16b
	ext	v19.16b, v19.16b, v18.16b, #15
	ext	v20.16b, v18.16b, v6.16b, #15
	mov	v6.b[15], wzr
	eor	v19.16b, v19.16b, v16.16b
	eor	v17.16b, v20.16b, v7.16b
	movi	v20.16b, #252
	ext	v21.16b, v17.16b, v16.16b, #1
	ext	v23.16b, v19.16b, v17.16b, #1
	and	v7.16b, v7.16b, v17.16b
	and	v24.16b, v3.16b, v20.16b
	and	v17.16b, v0.16b, v20.16b
	and	v16.16b, v16.16b, v19.16b
	ldr	q20, [x9, :lo12:.LCPI64_0]
	mov	w9, #62                         // =0x3e
	and	v6.16b, v6.16b, v21.16b
	and	v18.16b, v18.16b, v23.16b
	cmeq	v19.16b, v24.16b, v22.16b
	cmeq	v17.16b, v17.16b, v22.16b
	orr	v6.16b, v6.16b, v7.16b
	orr	v7.16b, v18.16b, v16.16b
	and	v16.16b, v17.16b, v20.16b
	and	v17.16b, v19.16b, v20.16b
	cmeq	v6.16b, v6.16b, #0
	cmeq	v7.16b, v7.16b, #0
	addp	v2.16b, v16.16b, v17.16b
	bif	v4.16b, v5.16b, v6.16b
	bif	v1.16b, v5.16b, v7.16b
	orn	v3.16b, v3.16b, v6.16b
	addp	v2.16b, v2.16b, v2.16b
	orn	v0.16b, v0.16b, v7.16b
	stp	q6, q20, [sp, #32]              // 32-byte Folded Spill
	str	q7, [sp, #16]                   // 16-byte Spill
	addp	v2.16b, v2.16b, v2.16b
	zip1	v5.16b, v3.16b, v4.16b
	zip2	v3.16b, v3.16b, v4.16b
	zip1	v4.16b, v0.16b, v1.16b
	zip2	v0.16b, v0.16b, v1.16b
	fmov	w11, s2
	stp	q5, q3, [x29, #-32]
	stp	q4, q0, [x10]
	cmn	w11, #1
	mov	w11, #64                        // =0x40
	stp	x27, x22, [x21]
	csel	x26, x11, x9, gt
	str	x25, [x21, #16]
	sub	x28, x26, #32
	cmp	x28, x8
	b.hi	.LBB64_9
.LBB64_3:                               // %join.3.i85
                                        //   in Loop: Header=BB64_1 Depth=1
	add	x8, x27, x22
	sub	x9, x29, #32
	add	x0, x27, x22
	sub	x8, x8, x9
	sub	x1, x29, #32
	sub	x2, x26, #32
	cmp	x8, x28
	b.hs	.LBB64_5
// %bb.4:                               // %join.7.i.i.i98.preheader
                                        //   in Loop: Header=BB64_1 Depth=1
	bl	memcpy
	b	.LBB64_6
.LBB64_5:                               // %apart.2.i.i.i95
                                        //   in Loop: Header=BB64_1 Depth=1
	bl	memmove
.LBB64_6:                               // %"core::slots::Slots::copy_in::<i8,20'core::clone::U8Clone{}>.exit.i96"
                                        //   in Loop: Header=BB64_1 Depth=1
	add	x8, x22, x28
	str	x25, [x21, #16]
	stp	x27, x8, [x21]
.LBB64_7:                               // %"std_alloc::vec::Vec::extend_from_slice::<#0cd040e5c49bc722>.exit110"
                                        //   in Loop: Header=BB64_1 Depth=1
	ldp	q2, q1, [sp, #32]               // 32-byte Folded Reload
	add	x19, x26, x19
	ldr	q0, [sp, #16]                   // 16-byte Reload
	bic	v0.16b, v1.16b, v0.16b
	bic	v1.16b, v1.16b, v2.16b
	addp	v0.16b, v0.16b, v1.16b
	addp	v0.16b, v0.16b, v0.16b
	addp	v0.16b, v0.16b, v0.16b
	fmov	w8, s0
	fmov	s0, w8
	cmp	w8, #0
	mov	w8, #8                          // =0x8
	csinc	x24, xzr, x24, ne
	cnt	v0.8b, v0.8b
	addv	b0, v0.8b
	fmov	w9, s0
	add	x20, x20, x9
	cmp	x20, #8
	csel	x8, x20, x8, lo
	cmp	x24, x8
	b.hi	.LBB64_11
// %bb.8:                               // %"std_alloc::vec::Vec::extend_from_slice::<#0cd040e5c49bc722>.exit110"
                                        //   in Loop: Header=BB64_1 Depth=1
	ldr	x8, [sp, #8]                    // 8-byte Reload
	sub	x8, x8, x19
	cmp	x8, #63
	b.hi	.LBB64_1
	b	.LBB64_11
.LBB64_9:                               // %"std_alloc::vec::Vec::grow::<#5fdc5e19576447a7>.exit.i105"
                                        //   in Loop: Header=BB64_1 Depth=1
	sub	x1, x26, #32
	mov	x0, x21
	bl	"std_alloc::vec::Vec::grow_amortized::<#5fdc5e19576447a7>"
	cbz	w0, .LBB64_7
// %bb.10:                              // %"std_alloc::vec::Vec::grow::<#5fdc5e19576447a7>.exit.join.3_crit_edge.i107"
                                        //   in Loop: Header=BB64_1 Depth=1
	ldp	x22, x25, [x21, #8]
	ldr	x27, [x21]
	b	.LBB64_3
.LBB64_11:                              // %after.1
	mov	x0, x19
	mov	x1, x20
	.cfi_def_cfa wsp, 192
	ldp	x20, x19, [sp, #176]            // 16-byte Folded Reload
	ldp	x22, x21, [sp, #160]            // 16-byte Folded Reload
	ldp	x24, x23, [sp, #144]            // 16-byte Folded Reload
	ldp	x26, x25, [sp, #128]            // 16-byte Folded Reload
	ldp	x28, x27, [sp, #112]            // 16-byte Folded Reload
	ldp	x29, x30, [sp, #96]             // 16-byte Folded Reload
	add	sp, sp, #192
	.cfi_def_cfa_offset 0
	.cfi_restore w19
	.cfi_restore w20
	.cfi_restore w21
	.cfi_restore w22
	.cfi_restore w23
	.cfi_restore w24
	.cfi_restore w25
	.cfi_restore w26
	.cfi_restore w27
	.cfi_restore w28
	.cfi_restore w30
	.cfi_restore w29
	ret
.Lfunc_end64:
	.size	"recoding::kernels::put_windows::<#540345a75bfb5bf3>", .Lfunc_end64-"recoding::kernels::put_windows::<#540345a75bfb5bf3>"
	.cfi_endproc
                                        // -- End function
	.section	".text.recoding::engine::recode_faults::<#d9c9637553368c70>","ax",@progbits
	.p2align	2                               // -- Begin function recoding::engine::recode_faults::<#d9c9637553368c70>
	.type	"recoding::engine::recode_faults::<#d9c9637553368c70>",@function
"recoding::engine::recode_faults::<#d9c9637553368c70>": // @"recoding::engine::recode_faults::<#d9c9637553368c70>"
	.cfi_startproc
// %bb.0:                               // %start
	ldrb	w10, [x1]
	ldr	x11, [x1, #16]
	mov	x9, xzr
	mov	x8, xzr
	cmp	w10, #2
	ccmp	x11, #0, #0, eq
	mov	w11, #16                        // =0x10
	cset	w10, ne
	b	.LBB65_2
.LBB65_1:                               // %"recoding::text::Utf16Text::put_any::<#f52bd5352b4cd2db>.exit"
                                        //   in Loop: Header=BB65_2 Depth=1
	add	x8, x8, #1
	mov	w12, #2                         // =0x2
	add	x9, x12, x9
	cmp	x9, x11
	b.hs	.LBB65_14
.LBB65_2:                               // %join.5
                                        // =>This Inner Loop Header: Depth=1
	add	x12, x9, #4
	add	x14, x2, x9
	cmp	x12, x3
	b.ls	.LBB65_7
// %bb.3:                               // %join.3.i
                                        //   in Loop: Header=BB65_2 Depth=1
	sub	x17, x3, x9
	cmp	x17, #2
	b.lo	.LBB65_15
// %bb.4:                               // %join.3.i.i
                                        //   in Loop: Header=BB65_2 Depth=1
	ldrb	w15, [x14]
	mov	w13, #56320                     // =0xdc00
	lsl	w16, w15, #8
	and	w1, w16, #0xfc00
	cmp	w1, w13
	b.eq	.LBB65_11
// %bb.5:                               // %join.3.i.i
                                        //   in Loop: Header=BB65_2 Depth=1
	mov	w5, #55296                      // =0xd800
	ldrb	w13, [x14, #1]
	cmp	w1, w5
	b.ne	.LBB65_13
// %bb.6:                               // %join.6.i.i
                                        //   in Loop: Header=BB65_2 Depth=1
	cmp	x17, #4
	b.hs	.LBB65_9
	b	.LBB65_15
.LBB65_7:                               // %then.1.i
                                        //   in Loop: Header=BB65_2 Depth=1
	ldrb	w15, [x14]
	mov	w13, #56320                     // =0xdc00
	lsl	w16, w15, #8
	and	w17, w16, #0xfc00
	cmp	w17, w13
	b.eq	.LBB65_11
// %bb.8:                               // %then.1.i
                                        //   in Loop: Header=BB65_2 Depth=1
	mov	w1, #55296                      // =0xd800
	ldrb	w13, [x14, #1]
	cmp	w17, w1
	b.ne	.LBB65_13
.LBB65_9:                               // %join.15.i74.i206.i
                                        //   in Loop: Header=BB65_2 Depth=1
	ldrb	w15, [x14, #2]
	and	w17, w15, #0xfc
	cmp	w17, #220
	b.ne	.LBB65_11
// %bb.10:                              // %arm.14.i201.i
                                        //   in Loop: Header=BB65_2 Depth=1
	ldrb	w12, [x14, #3]
	and	w14, w16, #0x300
	orr	w13, w14, w13
	bfi	w12, w15, #8, #2
	ldp	x15, x14, [x4]
	orr	w12, w12, w13, lsl #10
	mov	w13, #-10304                    // =0xffffd7c0
	add	w12, w12, #16, lsl #12          // =65536
	add	w13, w13, w12, lsr #10
	lsr	w16, w13, #8
	strb	w16, [x15, x14]
	ldr	x15, [x4]
	add	x15, x15, x14
	strb	w13, [x15, #1]
	mov	w13, #220                       // =0xdc
	ldr	x15, [x4]
	bfxil	w13, w12, #8, #2
	add	x15, x15, x14
	strb	w13, [x15, #2]
	ldr	x13, [x4]
	add	x13, x13, x14
	add	x14, x14, #4
	strb	w12, [x13, #3]
	mov	w12, #4                         // =0x4
	str	x14, [x4, #8]
	add	x9, x12, x9
	cmp	x9, x11
	b.lo	.LBB65_2
	b	.LBB65_14
.LBB65_11:                              // %arm.11
                                        //   in Loop: Header=BB65_2 Depth=1
	cmp	x12, #32
	mov	w11, #32                        // =0x20
	csel	x11, x12, x11, lo
	cbz	w10, .LBB65_1
// %bb.12:                              // %"recoding::text::Utf16Text::put_code::<#f52bd5352b4cd2db>.exit.i.i"
                                        //   in Loop: Header=BB65_2 Depth=1
	ldp	x13, x12, [x4]
	mov	w14, #255                       // =0xff
	strb	w14, [x13, x12]
	mov	w14, #253                       // =0xfd
	ldr	x13, [x4]
	add	x13, x13, x12
	add	x12, x12, #2
	strb	w14, [x13, #1]
	str	x12, [x4, #8]
	b	.LBB65_1
.LBB65_13:                              // %arm.1.i
                                        //   in Loop: Header=BB65_2 Depth=1
	ldp	x14, x12, [x4]
	strb	w15, [x14, x12]
	ldr	x14, [x4]
	add	x14, x14, x12
	add	x12, x12, #2
	strb	w13, [x14, #1]
	str	x12, [x4, #8]
	mov	w12, #2                         // =0x2
	add	x9, x12, x9
	cmp	x9, x11
	b.lo	.LBB65_2
.LBB65_14:                              // %after.1
	stp	x9, x8, [x0]
	str	xzr, [x0, #16]
	ret
.LBB65_15:                              // %arm.7
	stp	x9, x8, [x0]
	mov	w8, #256                        // =0x100
	strh	w8, [x0, #16]
	stur	wzr, [x0, #18]
	strh	wzr, [x0, #22]
	ret
.Lfunc_end65:
	.size	"recoding::engine::recode_faults::<#d9c9637553368c70>", .Lfunc_end65-"recoding::engine::recode_faults::<#d9c9637553368c70>"
	.cfi_endproc
                                        // -- End function
	.section	".text.recoding::recoder::Recoder::feed_joined::<#e3b2a9d4d2861db8>","ax",@progbits
	.p2align	2                               // -- Begin function recoding::recoder::Recoder::feed_joined::<#e3b2a9d4d2861db8>
	.type	"recoding::recoder::Recoder::feed_joined::<#e3b2a9d4d2861db8>",@function
"recoding::recoder::Recoder::feed_joined::<#e3b2a9d4d2861db8>": // @"recoding::recoder::Recoder::feed_joined::<#e3b2a9d4d2861db8>"
	.cfi_startproc
// %bb.0:                               // %start
	stp	x29, x30, [sp, #-80]!           // 16-byte Folded Spill
	.cfi_def_cfa_offset 80
	str	x25, [sp, #16]                  // 8-byte Spill
	stp	x24, x23, [sp, #32]             // 16-byte Folded Spill
	stp	x22, x21, [sp, #48]             // 16-byte Folded Spill
	stp	x20, x19, [sp, #64]             // 16-byte Folded Spill
	mov	x29, sp
	.cfi_def_cfa w29, 80
	.cfi_offset w19, -8
	.cfi_offset w20, -16
	.cfi_offset w21, -24
	.cfi_offset w22, -32
	.cfi_offset w23, -40
	.cfi_offset w24, -48
	.cfi_offset w25, -64
	.cfi_offset w30, -72
	.cfi_offset w29, -80
	.cfi_remember_state
	mov	x23, x0
	mov	x9, #6148914691236517205        // =0x5555555555555555
	mov	x20, x3
	ldr	x25, [x23], #8
	mov	x21, x2
	mov	x19, x0
	mov	x22, x1
	add	x8, x25, x2
	cmp	x8, x9
	csel	x8, x8, x9, lo
	ldp	x10, x9, [x3, #8]
	add	x8, x8, x8, lsl #1
	sub	x9, x9, x10
	cmp	x8, x9
	b.hi	.LBB66_7
// %bb.1:                               // %arm.1
	cmp	x25, #0
	csel	x8, x22, x23, eq
	cmp	x25, #1
	ldrb	w8, [x8]
	b.ls	.LBB66_9
.LBB66_2:                               // %"recoding::held::byte_of_both.exit95.i"
	ldrb	w9, [x19, #9]
	cmp	x25, #2
	b.eq	.LBB66_11
// %bb.3:                               // %"recoding::held::byte_of_both.exit83.i"
	ldrb	w10, [x19, #10]
	cmp	x25, #3
	b.ls	.LBB66_13
// %bb.4:                               // %"recoding::held::byte_of_both.exit71.i"
	ldrb	w11, [x19, #11]
	cmp	x25, #4
	b.eq	.LBB66_15
// %bb.5:                               // %"recoding::held::byte_of_both.exit59.i"
	ldrb	w12, [x19, #12]
	cmp	x25, #6
	b.lo	.LBB66_17
// %bb.6:                               // %then.1.i46.i
	ldrb	w13, [x19, #13]
	b	.LBB66_24
.LBB66_7:                               // %"std_alloc::vec::Vec::grow::<#5fdc5e19576447a7>.exit.i"
	mov	x0, x20
	mov	x1, x8
	bl	"std_alloc::vec::Vec::grow_amortized::<#5fdc5e19576447a7>"
	cbz	w0, .LBB66_75
// %bb.8:                               // %"std_alloc::vec::Vec::grow::<#5fdc5e19576447a7>.exit.i.arm.1_crit_edge"
	ldr	x25, [x19]
	cmp	x25, #0
	csel	x8, x22, x23, eq
	cmp	x25, #1
	ldrb	w8, [x8]
	b.hi	.LBB66_2
.LBB66_9:                               // %join.3.i85.i
	mov	w9, #1                          // =0x1
	sub	x9, x9, x25
	cmp	x9, x21
	b.hs	.LBB66_19
// %bb.10:                              // %then.4.i89.i
	ldrb	w9, [x22, x9]
.LBB66_11:                              // %join.3.i73.i
	mov	w10, #2                         // =0x2
	sub	x10, x10, x25
	cmp	x10, x21
	b.hs	.LBB66_20
.LBB66_12:                              // %then.4.i77.i
	ldrb	w10, [x22, x10]
.LBB66_13:                              // %join.3.i61.i
	mov	w11, #3                         // =0x3
	sub	x11, x11, x25
	cmp	x11, x21
	b.hs	.LBB66_21
.LBB66_14:                              // %then.4.i65.i
	ldrb	w11, [x22, x11]
.LBB66_15:                              // %join.3.i49.i
	mov	w12, #4                         // =0x4
	sub	x12, x12, x25
	cmp	x12, x21
	b.hs	.LBB66_22
.LBB66_16:                              // %then.4.i53.i
	ldrb	w12, [x22, x12]
.LBB66_17:                              // %join.3.i.i
	mov	w13, #5                         // =0x5
	sub	x13, x13, x25
	cmp	x13, x21
	b.hs	.LBB66_23
.LBB66_18:                              // %then.4.i.i
	ldrb	w13, [x22, x13]
	b	.LBB66_24
.LBB66_19:
	mov	w9, wzr
	mov	w10, #2                         // =0x2
	sub	x10, x10, x25
	cmp	x10, x21
	b.lo	.LBB66_12
.LBB66_20:
	mov	w10, wzr
	mov	w11, #3                         // =0x3
	sub	x11, x11, x25
	cmp	x11, x21
	b.lo	.LBB66_14
.LBB66_21:
	mov	w11, wzr
	mov	w12, #4                         // =0x4
	sub	x12, x12, x25
	cmp	x12, x21
	b.lo	.LBB66_16
.LBB66_22:
	mov	w12, wzr
	mov	w13, #5                         // =0x5
	sub	x13, x13, x25
	cmp	x13, x21
	b.lo	.LBB66_18
.LBB66_23:
	mov	w13, wzr
.LBB66_24:                              // %"recoding::held::byte_of_both.exit.i"
	strb	w8, [x29, #24]
	cmp	x21, #3
	mov	w8, #3                          // =0x3
	strb	w9, [x29, #25]
	ldrb	w9, [x19, #16]
	add	x0, x29, #24
	strb	w10, [x29, #26]
	csel	x10, x21, x8, lo
	ldrb	w8, [x19, #17]
	add	x24, x25, x10
	cmp	w9, #2
	mov	x2, x20
	mov	x1, x24
	strb	w11, [x29, #27]
	strb	w12, [x29, #28]
	strb	w13, [x29, #29]
	b.eq	.LBB66_29
// %bb.25:                              // %"recoding::held::byte_of_both.exit.i"
	cmp	w9, #1
	b.ne	.LBB66_32
// %bb.26:                              // %arm.2.i118.i
	cmp	w8, #2
	b.eq	.LBB66_35
// %bb.27:                              // %arm.2.i118.i
	cmp	w8, #1
	b.ne	.LBB66_37
// %bb.28:                              // %arm.11.i121.i
	bl	"recoding::recoder_runs::run_whole::<#06163603a29b5506>"
	mov	x23, x1
	cmp	x21, #3
	b.ls	.LBB66_40
	b	.LBB66_46
.LBB66_29:                              // %arm.3.i109.i
	cmp	w8, #2
	b.eq	.LBB66_36
// %bb.30:                              // %arm.3.i109.i
	cmp	w8, #1
	b.ne	.LBB66_38
// %bb.31:                              // %arm.15.i113.i
	bl	"recoding::recoder_runs::run_whole::<#e742a82e1969306f>"
	mov	x23, x1
	cmp	x21, #3
	b.ls	.LBB66_40
	b	.LBB66_46
.LBB66_32:                              // %arm.1.i125.i
	cmp	w8, #2
	b.eq	.LBB66_39
// %bb.33:                              // %arm.1.i125.i
	cmp	w8, #1
	b.ne	.LBB66_45
// %bb.34:                              // %arm.7.i128.i
	bl	"recoding::recoder_runs::run_whole::<#2857ed0d0693875d>"
	mov	x23, x1
	cmp	x21, #3
	b.ls	.LBB66_40
	b	.LBB66_46
.LBB66_35:                              // %arm.12.i119.i
	bl	"recoding::recoder_runs::run_whole::<#daeca7e912b417d6>"
	mov	x23, x1
	cmp	x21, #3
	b.ls	.LBB66_40
	b	.LBB66_46
.LBB66_36:                              // %arm.16.i110.i
	bl	"recoding::recoder_runs::run_whole::<#9bba14706ba0829a>"
	mov	x23, x1
	cmp	x21, #3
	b.ls	.LBB66_40
	b	.LBB66_46
.LBB66_37:                              // %arm.10.i123.i
	bl	"recoding::recoder_runs::run_whole::<#d46ce40aec13b609>"
	mov	x23, x1
	cmp	x21, #3
	b.ls	.LBB66_40
	b	.LBB66_46
.LBB66_38:                              // %arm.14.i115.i
	bl	"recoding::recoder_runs::run_whole::<#8e1925640e2330c5>"
	mov	x23, x1
	cmp	x21, #3
	b.ls	.LBB66_40
	b	.LBB66_46
.LBB66_39:                              // %arm.8.i126.i
	bl	"recoding::recoder_runs::run_whole::<#9c534bed186decad>"
	mov	x23, x1
	cmp	x21, #3
	b.hi	.LBB66_46
.LBB66_40:                              // %then.1.i5
	subs	x10, x24, x0
	str	x10, [x19]
	b.eq	.LBB66_72
// %bb.41:                              // %join.3.i.i22.i
	add	x8, x29, #24
	cmp	x10, #1
	add	x11, x8, x0
	ldrb	w8, [x11]
	b.ne	.LBB66_43
// %bb.42:
	mov	w9, wzr
	mov	w10, wzr
	b	.LBB66_58
.LBB66_43:                              // %join.6.i.i25.i
	ldrb	w9, [x11, #1]
	cmp	x10, #2
	b.ne	.LBB66_57
// %bb.44:
	mov	w10, wzr
	b	.LBB66_58
.LBB66_45:                              // %arm.6.i130.i
	bl	"recoding::recoder_runs::run_whole::<#d908eddfe8754f34>"
	mov	x23, x1
	cmp	x21, #3
	b.ls	.LBB66_40
.LBB66_46:                              // %join.3.i
	ldrb	w9, [x19, #16]
	sub	x10, x0, x25
	ldrb	w8, [x19, #17]
	add	x22, x22, x10
	sub	x21, x21, x10
	mov	x2, x20
	cmp	w9, #2
	mov	x0, x22
	mov	x1, x21
	b.eq	.LBB66_51
// %bb.47:                              // %join.3.i
	cmp	w9, #1
	b.ne	.LBB66_54
// %bb.48:                              // %arm.2.i.i
	cmp	w8, #2
	b.eq	.LBB66_59
// %bb.49:                              // %arm.2.i.i
	cmp	w8, #1
	b.ne	.LBB66_61
// %bb.50:                              // %arm.11.i.i
	bl	"recoding::recoder_runs::run_whole::<#06163603a29b5506>"
	subs	x10, x21, x0
	str	x10, [x19]
	b.ne	.LBB66_65
	b	.LBB66_71
.LBB66_51:                              // %arm.3.i.i
	cmp	w8, #2
	b.eq	.LBB66_60
// %bb.52:                              // %arm.3.i.i
	cmp	w8, #1
	b.ne	.LBB66_62
// %bb.53:                              // %arm.15.i.i
	bl	"recoding::recoder_runs::run_whole::<#e742a82e1969306f>"
	subs	x10, x21, x0
	str	x10, [x19]
	b.ne	.LBB66_65
	b	.LBB66_71
.LBB66_54:                              // %arm.1.i.i
	cmp	w8, #2
	b.eq	.LBB66_63
// %bb.55:                              // %arm.1.i.i
	cmp	w8, #1
	b.ne	.LBB66_64
// %bb.56:                              // %arm.7.i.i
	bl	"recoding::recoder_runs::run_whole::<#2857ed0d0693875d>"
	subs	x10, x21, x0
	str	x10, [x19]
	b.ne	.LBB66_65
	b	.LBB66_71
.LBB66_57:                              // %join.9.i.i29.i
	ldrb	w10, [x11, #2]
.LBB66_58:                              // %"recoding::held::padded_to_three.exit.i34.i"
	strb	w8, [x19, #8]
	strb	w9, [x19, #9]
	strb	w10, [x19, #10]
	b	.LBB66_72
.LBB66_59:                              // %arm.12.i.i
	bl	"recoding::recoder_runs::run_whole::<#daeca7e912b417d6>"
	subs	x10, x21, x0
	str	x10, [x19]
	b.ne	.LBB66_65
	b	.LBB66_71
.LBB66_60:                              // %arm.16.i.i
	bl	"recoding::recoder_runs::run_whole::<#9bba14706ba0829a>"
	subs	x10, x21, x0
	str	x10, [x19]
	b.ne	.LBB66_65
	b	.LBB66_71
.LBB66_61:                              // %arm.10.i.i
	bl	"recoding::recoder_runs::run_whole::<#d46ce40aec13b609>"
	subs	x10, x21, x0
	str	x10, [x19]
	b.ne	.LBB66_65
	b	.LBB66_71
.LBB66_62:                              // %arm.14.i.i
	bl	"recoding::recoder_runs::run_whole::<#8e1925640e2330c5>"
	subs	x10, x21, x0
	str	x10, [x19]
	b.ne	.LBB66_65
	b	.LBB66_71
.LBB66_63:                              // %arm.8.i.i
	bl	"recoding::recoder_runs::run_whole::<#9c534bed186decad>"
	subs	x10, x21, x0
	str	x10, [x19]
	b.ne	.LBB66_65
	b	.LBB66_71
.LBB66_64:                              // %arm.6.i.i
	bl	"recoding::recoder_runs::run_whole::<#d908eddfe8754f34>"
	subs	x10, x21, x0
	str	x10, [x19]
	b.eq	.LBB66_71
.LBB66_65:                              // %join.3.i.i.i
	add	x11, x22, x0
	cmp	x10, #1
	ldrb	w8, [x11]
	b.ne	.LBB66_67
// %bb.66:
	mov	w9, wzr
	mov	w10, wzr
	b	.LBB66_70
.LBB66_67:                              // %join.6.i.i.i
	ldrb	w9, [x11, #1]
	cmp	x10, #2
	b.ne	.LBB66_69
// %bb.68:
	mov	w10, wzr
	b	.LBB66_70
.LBB66_69:                              // %join.9.i.i.i
	ldrb	w10, [x11, #2]
.LBB66_70:                              // %"recoding::held::padded_to_three.exit.i.i"
	strb	w8, [x19, #8]
	strb	w9, [x19, #9]
	strb	w10, [x19, #10]
.LBB66_71:                              // %"recoding::held::Held::hold.exit.i"
	add	x23, x1, x23
.LBB66_72:                              // %"recoding::recoder::Recoder::append_joined::<#e3b2a9d4d2861db8>.exit"
	mov	w0, wzr
	cbz	x23, .LBB66_74
// %bb.73:                              // %then.1.i
	ldr	x8, [x19, #24]
	adds	x8, x23, x8
	csinv	x8, x8, xzr, lo
	str	x8, [x19, #24]
.LBB66_74:                              // %return.5
	.cfi_def_cfa wsp, 80
	ldp	x20, x19, [sp, #64]             // 16-byte Folded Reload
	ldr	x25, [sp, #16]                  // 8-byte Reload
	ldp	x22, x21, [sp, #48]             // 16-byte Folded Reload
	ldp	x24, x23, [sp, #32]             // 16-byte Folded Reload
	ldp	x29, x30, [sp], #80             // 16-byte Folded Reload
	.cfi_def_cfa_offset 0
	.cfi_restore w19
	.cfi_restore w20
	.cfi_restore w21
	.cfi_restore w22
	.cfi_restore w23
	.cfi_restore w24
	.cfi_restore w25
	.cfi_restore w30
	.cfi_restore w29
	ret
.LBB66_75:
	.cfi_restore_state
	mov	w0, #1                          // =0x1
	.cfi_def_cfa wsp, 80
	ldp	x20, x19, [sp, #64]             // 16-byte Folded Reload
	ldr	x25, [sp, #16]                  // 8-byte Reload
	ldp	x22, x21, [sp, #48]             // 16-byte Folded Reload
	ldp	x24, x23, [sp, #32]             // 16-byte Folded Reload
	ldp	x29, x30, [sp], #80             // 16-byte Folded Reload
	.cfi_def_cfa_offset 0
	.cfi_restore w19
	.cfi_restore w20
	.cfi_restore w21
	.cfi_restore w22
	.cfi_restore w23
	.cfi_restore w24
	.cfi_restore w25
	.cfi_restore w30
	.cfi_restore w29
	ret
.Lfunc_end66:
	.size	"recoding::recoder::Recoder::feed_joined::<#e3b2a9d4d2861db8>", .Lfunc_end66-"recoding::recoder::Recoder::feed_joined::<#e3b2a9d4d2861db8>"
	.cfi_endproc
                                        // -- End function
	.section	".text.text_programs::programs::stops::Stop::report::<#2daa2fb2be07fb73>","ax",@progbits
	.p2align	2                               // -- Begin function text_programs::programs::stops::Stop::report::<#2daa2fb2be07fb73>
	.type	"text_programs::programs::stops::Stop::report::<#2daa2fb2be07fb73>",@function
"text_programs::programs::stops::Stop::report::<#2daa2fb2be07fb73>": // @"text_programs::programs::stops::Stop::report::<#2daa2fb2be07fb73>"
	.cfi_startproc
// %bb.0:                               // %start
	sub	sp, sp, #160
	.cfi_def_cfa_offset 160
	stp	x29, x30, [sp, #96]             // 16-byte Folded Spill
	str	x23, [sp, #112]                 // 8-byte Spill
	stp	x22, x21, [sp, #128]            // 16-byte Folded Spill
	stp	x20, x19, [sp, #144]            // 16-byte Folded Spill
	add	x29, sp, #96
	.cfi_def_cfa w29, 64
	.cfi_offset w19, -8
	.cfi_offset w20, -16
	.cfi_offset w21, -24
	.cfi_offset w22, -32
	.cfi_offset w23, -48
	.cfi_offset w30, -56
	.cfi_offset w29, -64
	mov	w19, w0
	mov	x21, xzr
.LBB67_1:                               // %join.5.i70.i
                                        // =>This Inner Loop Header: Depth=1
	mov	w8, #6                          // =0x6
	adrp	x9, .Lstatic.1
	add	x9, x9, :lo12:.Lstatic.1
	sub	x20, x8, x21
	add	x1, x9, x21
	mov	w0, #2                          // =0x2
	mov	x2, x20
	bl	write
	tbnz	x0, #63, .LBB67_14
// %bb.2:                               // %arm.6.i78.i
                                        //   in Loop: Header=BB67_1 Depth=1
	cmp	x0, x20
	csel	x8, x0, x20, lo
	cbz	x8, .LBB67_15
// %bb.3:                               // %join.12.i82.i
                                        //   in Loop: Header=BB67_1 Depth=1
	add	x21, x8, x21
	cmp	x21, #6
	b.lo	.LBB67_1
// %bb.4:                               // %join.5.i41.i.peel
	adrp	x1, .Lstatic.22
	add	x1, x1, :lo12:.Lstatic.22
	mov	w0, #2                          // =0x2
	mov	w2, #2                          // =0x2
	bl	write
	tbnz	x0, #63, .LBB67_14
// %bb.5:                               // %arm.6.i49.i.peel
	cbz	x0, .LBB67_15
// %bb.6:                               // %arm.6.i49.i.peel
	cmp	x0, #1
	b.ne	.LBB67_9
// %bb.7:                               // %join.5.i41.i
	adrp	x1, .Lstatic.22+1
	add	x1, x1, :lo12:.Lstatic.22+1
	mov	w0, #2                          // =0x2
	mov	w2, #1                          // =0x1
	bl	write
	tbnz	x0, #63, .LBB67_14
// %bb.8:                               // %arm.6.i49.i
	cbz	x0, .LBB67_15
.LBB67_9:                               // %switch.lookup
	and	x8, x19, #0xff
	adrp	x9, ".Lswitch.table.text_programs::programs::stops::Stop::report::<#2daa2fb2be07fb73>.102.rel"
	add	x9, x9, :lo12:".Lswitch.table.text_programs::programs::stops::Stop::report::<#2daa2fb2be07fb73>.102.rel"
	ldrsw	x10, [x9, x8, lsl #2]
	adrp	x11, ".Lswitch.table.text_programs::programs::stops::Stop::report::<#2daa2fb2be07fb73>"
	add	x11, x11, :lo12:".Lswitch.table.text_programs::programs::stops::Stop::report::<#2daa2fb2be07fb73>"
	ldr	x21, [x11, x8, lsl #3]
	mov	x20, xzr
	add	x22, x9, x10
.LBB67_10:                              // %join.5.i12.i
                                        // =>This Inner Loop Header: Depth=1
	add	x1, x22, x20
	sub	x2, x21, x20
	mov	w0, #2                          // =0x2
	sub	x23, x21, x20
	bl	write
	tbnz	x0, #63, .LBB67_14
// %bb.11:                              // %arm.6.i20.i
                                        //   in Loop: Header=BB67_10 Depth=1
	cmp	x0, x23
	csel	x8, x0, x23, lo
	cbz	x8, .LBB67_15
// %bb.12:                              // %join.12.i24.i
                                        //   in Loop: Header=BB67_10 Depth=1
	add	x20, x8, x20
	cmp	x20, x21
	b.lo	.LBB67_10
// %bb.13:                              // %loop.2.i.i.preheader
	adrp	x1, .Lstatic.23
	add	x1, x1, :lo12:.Lstatic.23
	mov	w0, #2                          // =0x2
	mov	w2, #1                          // =0x1
	bl	write
	tbz	x0, #63, .LBB67_15
.LBB67_14:                              // %arm.7.i.i
	add	x0, sp, #8
	bl	"std_io::io::error::last_error"
.LBB67_15:                              // %"text_programs::programs::stops::Stop::write_line::<#2daa2fb2be07fb73>.exit"
	tst	w19, #0xff
	mov	w8, #2                          // =0x2
	cinc	w0, w8, ne
	.cfi_def_cfa wsp, 160
	ldp	x20, x19, [sp, #144]            // 16-byte Folded Reload
	ldr	x23, [sp, #112]                 // 8-byte Reload
	ldp	x22, x21, [sp, #128]            // 16-byte Folded Reload
	ldp	x29, x30, [sp, #96]             // 16-byte Folded Reload
	add	sp, sp, #160
	.cfi_def_cfa_offset 0
	.cfi_restore w19
	.cfi_restore w20
	.cfi_restore w21
	.cfi_restore w22
	.cfi_restore w23
	.cfi_restore w30
	.cfi_restore w29
	ret
.Lfunc_end67:
	.size	"text_programs::programs::stops::Stop::report::<#2daa2fb2be07fb73>", .Lfunc_end67-"text_programs::programs::stops::Stop::report::<#2daa2fb2be07fb73>"
	.cfi_endproc
                                        // -- End function
	.section	.rodata.cst16,"aM",@progbits,16
	.p2align	4, 0x0                          // -- Begin function main
.LCPI68_0:
	.byte	0                               // 0x0
	.byte	1                               // 0x1
	.byte	2                               // 0x2
	.byte	3                               // 0x3
	.byte	4                               // 0x4
	.byte	5                               // 0x5
	.byte	6                               // 0x6
	.byte	7                               // 0x7
	.byte	8                               // 0x8
	.byte	9                               // 0x9
	.byte	10                              // 0xa
	.byte	11                              // 0xb
	.byte	12                              // 0xc
	.byte	13                              // 0xd
	.byte	14                              // 0xe
	.byte	15                              // 0xf
.LCPI68_1:
	.byte	16                              // 0x10
	.byte	17                              // 0x11
	.byte	18                              // 0x12
	.byte	19                              // 0x13
	.byte	20                              // 0x14
	.byte	21                              // 0x15
	.byte	22                              // 0x16
	.byte	23                              // 0x17
	.byte	24                              // 0x18
	.byte	25                              // 0x19
	.byte	26                              // 0x1a
	.byte	27                              // 0x1b
	.byte	28                              // 0x1c
	.byte	29                              // 0x1d
	.byte	30                              // 0x1e
	.byte	31                              // 0x1f
	.section	.rodata.cst8,"aM",@progbits,8
	.p2align	3, 0x0
.LCPI68_2:
	.byte	32                              // 0x20
	.byte	33                              // 0x21
	.byte	34                              // 0x22
	.byte	35                              // 0x23
	.byte	36                              // 0x24
	.byte	37                              // 0x25
	.byte	38                              // 0x26
	.byte	39                              // 0x27
	.section	.text.main,"ax",@progbits
	.globl	main
	.p2align	2
	.type	main,@function
main:                                   // @main
	.cfi_startproc
// %bb.0:                               // %start
	stp	x29, x30, [sp, #-96]!           // 16-byte Folded Spill
	.cfi_def_cfa_offset 96
	stp	x28, x27, [sp, #16]             // 16-byte Folded Spill
	stp	x26, x25, [sp, #32]             // 16-byte Folded Spill
	stp	x24, x23, [sp, #48]             // 16-byte Folded Spill
	stp	x22, x21, [sp, #64]             // 16-byte Folded Spill
	stp	x20, x19, [sp, #80]             // 16-byte Folded Spill
	mov	x29, sp
	.cfi_def_cfa w29, 96
	.cfi_offset w19, -8
	.cfi_offset w20, -16
	.cfi_offset w21, -24
	.cfi_offset w22, -32
	.cfi_offset w23, -40
	.cfi_offset w24, -48
	.cfi_offset w25, -56
	.cfi_offset w26, -64
	.cfi_offset w27, -72
	.cfi_offset w28, -80
	.cfi_offset w30, -88
	.cfi_offset w29, -96
	.cfi_remember_state
	sub	x9, sp, #15, lsl #12            // =61440
	sub	x9, x9, #3072
.LBB68_1:                               // %start
                                        // =>This Inner Loop Header: Depth=1
	sub	sp, sp, #3072
	cmp	sp, x9
	str	xzr, [sp]
	b.ne	.LBB68_1
// %bb.2:                               // %start
	sub	sp, sp, #1232
	mov	w0, #13                         // =0xd
	mov	w1, #1                          // =0x1
	str	xzr, [sp]
	sub	x25, x29, #200
	bl	__sysv_signal
	mov	x26, xzr
	mov	x20, xzr
	sub	x19, x29, #24
	mov	x27, sp
	stp	xzr, xzr, [x25, #96]
	str	x19, [x25, #88]
.LBB68_3:                               // %join.5.i.i.i.i.i
                                        // =>This Loop Header: Depth=1
                                        //     Child Loop BB68_5 Depth 2
                                        //     Child Loop BB68_20 Depth 2
                                        //       Child Loop BB68_44 Depth 3
                                        //       Child Loop BB68_47 Depth 3
	mov	w28, #64                        // =0x40
	mov	w22, #256                       // =0x100
	b	.LBB68_5
.LBB68_4:                               // %"std_alloc::vec::Vec::drop::<#5cd7833235c0cf51>.exit45.i.i.i.i.i.i.i.i"
                                        //   in Loop: Header=BB68_5 Depth=2
	adds	x8, x22, x22
	csinv	x22, x8, xzr, lo
	subs	w28, w28, #1
	b.eq	.LBB68_119
.LBB68_5:                               // %join.5.i.i.i.i.i.i.i
                                        //   Parent Loop BB68_3 Depth=1
                                        // =>  This Inner Loop Header: Depth=2
	sub	x21, x29, #24
	stp	xzr, xzr, [x27, #8]
	str	x21, [sp]
	cbnz	x22, .LBB68_10
// %bb.6:                               //   in Loop: Header=BB68_5 Depth=2
	mov	x23, xzr
.LBB68_7:                               // %join.3.i.i.i.i.i.i.i.i
                                        //   in Loop: Header=BB68_5 Depth=2
	mov	x0, x20
	mov	x1, x21
	mov	x2, x23
	bl	rattle_arg
	mov	w8, #36                         // =0x24
	cmn	x0, #1
	mov	w9, #22                         // =0x16
	csel	w8, w9, w8, eq
	mov	x24, x0
	csel	w0, wzr, w8, gt
	bl	rattle_set_errno
	bl	rattle_errno
	cmp	w0, #36
	b.ne	.LBB68_13
// %bb.8:                               // %arm.8.i.i.i.i.i.i.i.i
                                        //   in Loop: Header=BB68_5 Depth=2
	ldr	x8, [sp, #16]
	cbz	x8, .LBB68_4
// %bb.9:                               // %then.1.i.i.i43.i.i.i.i.i.i.i.i
                                        //   in Loop: Header=BB68_5 Depth=2
	mov	x0, x21
	bl	rattle_dealloc
	b	.LBB68_4
.LBB68_10:                              // %"std_alloc::vec::Vec::grow::<#5fdc5e19576447a7>.exit.i.i.i.i.i.i.i.i.i.i"
                                        //   in Loop: Header=BB68_5 Depth=2
	mov	x0, sp
	mov	x1, x22
	bl	"std_alloc::vec::Vec::grow_amortized::<#5fdc5e19576447a7>"
	cbz	w0, .LBB68_117
// %bb.11:                              // %join.3.i2.i.i.i.i.i.i.i.i.i
                                        //   in Loop: Header=BB68_5 Depth=2
	ldp	x21, x8, [sp]
	add	x23, x8, x22
	cmp	x8, x23
	b.hs	.LBB68_7
// %bb.12:                              // %join.5.preheader.i.i.i.i.i.i.i.i.i.i.i
                                        //   in Loop: Header=BB68_5 Depth=2
	add	x0, x21, x8
	mov	w1, wzr
	mov	x2, x22
	bl	memset
	b	.LBB68_7
.LBB68_13:                              // %join.3.i.i.i.i.i.i.i.i
                                        //   in Loop: Header=BB68_3 Depth=1
	cbnz	w0, .LBB68_69
// %bb.14:                              // %arm.4.i.i.i.i.i.i.i.i
                                        //   in Loop: Header=BB68_3 Depth=1
	cmp	x24, x23
	csel	x8, x24, x23, lo
	cmp	x24, #0
	ldr	x23, [sp, #16]
	csel	x22, x8, xzr, gt
	cbz	x22, .LBB68_65
// %bb.15:                              // %join.5.lr.ph.i.i.i.i.i.i.i.i.i
                                        //   in Loop: Header=BB68_3 Depth=1
	mov	x9, xzr
	sub	x24, x22, #8
	b	.LBB68_20
.LBB68_16:                              // %join.8.i.i.i.i.i.i.i.i.i
                                        //   in Loop: Header=BB68_20 Depth=2
	and	w10, w10, #0xff
	tbnz	w10, #7, .LBB68_37
.LBB68_17:                              //   in Loop: Header=BB68_20 Depth=2
	mov	w8, #1                          // =0x1
.LBB68_18:                              // %loop.2.backedge.i.i.i.i.i.i.i.i.i
                                        //   in Loop: Header=BB68_20 Depth=2
	add	x8, x8, x9
.LBB68_19:                              // %loop.2.backedge.i.i.i.i.i.i.i.i.i
                                        //   in Loop: Header=BB68_20 Depth=2
	cmp	x8, x22
	mov	x9, x8
	b.hs	.LBB68_65
.LBB68_20:                              // %join.5.i.i.i.i.i.i.i.i.i
                                        //   Parent Loop BB68_3 Depth=1
                                        // =>  This Loop Header: Depth=2
                                        //       Child Loop BB68_44 Depth 3
                                        //       Child Loop BB68_47 Depth 3
	add	x8, x21, x9
	sub	x11, x22, x9
	ldrsb	w10, [x8]
	cmp	x11, #2
	b.lo	.LBB68_16
// %bb.21:                              // %join.5.i.i.i.i.i.i.i.i.i
                                        //   in Loop: Header=BB68_20 Depth=2
	tbnz	w10, #31, .LBB68_16
// %bb.22:                              // %"core::str::utf8::begins_ascii_run.exit.i.i.i.i.i.i.i.i.i"
                                        //   in Loop: Header=BB68_20 Depth=2
	ldrsb	w10, [x8, #1]
	tbnz	w10, #31, .LBB68_17
// %bb.23:                              // %then.6.i.i.i.i.i.i.i.i.i
                                        //   in Loop: Header=BB68_20 Depth=2
	cmp	x11, #7
	stp	x21, x22, [sp]
	b.hi	.LBB68_42
// %bb.24:                              // %join.5.i.i.i.i.i.i.i.i.i.i.i
                                        //   in Loop: Header=BB68_20 Depth=2
	ldrsb	w8, [x21, x9]
	tbnz	w8, #31, .LBB68_57
// %bb.25:                              // %join.8.i.i.i.i.i.i.i.i.i.i.i
                                        //   in Loop: Header=BB68_20 Depth=2
	add	x8, x9, #1
	cmp	x8, x22
	b.eq	.LBB68_65
// %bb.26:                              // %join.5.i.i.i.i.i.i.i.i.i.i.i.1
                                        //   in Loop: Header=BB68_20 Depth=2
	ldrsb	w10, [x21, x8]
	tbnz	w10, #31, .LBB68_19
// %bb.27:                              // %join.8.i.i.i.i.i.i.i.i.i.i.i.1
                                        //   in Loop: Header=BB68_20 Depth=2
	add	x8, x9, #2
	cmp	x8, x22
	b.eq	.LBB68_65
// %bb.28:                              // %join.5.i.i.i.i.i.i.i.i.i.i.i.2
                                        //   in Loop: Header=BB68_20 Depth=2
	ldrsb	w10, [x21, x8]
	tbnz	w10, #31, .LBB68_19
// %bb.29:                              // %join.8.i.i.i.i.i.i.i.i.i.i.i.2
                                        //   in Loop: Header=BB68_20 Depth=2
	add	x8, x9, #3
	cmp	x8, x22
	b.eq	.LBB68_65
// %bb.30:                              // %join.5.i.i.i.i.i.i.i.i.i.i.i.3
                                        //   in Loop: Header=BB68_20 Depth=2
	ldrsb	w10, [x21, x8]
	tbnz	w10, #31, .LBB68_19
// %bb.31:                              // %join.8.i.i.i.i.i.i.i.i.i.i.i.3
                                        //   in Loop: Header=BB68_20 Depth=2
	add	x8, x9, #4
	cmp	x8, x22
	b.eq	.LBB68_65
// %bb.32:                              // %join.5.i.i.i.i.i.i.i.i.i.i.i.4
                                        //   in Loop: Header=BB68_20 Depth=2
	ldrsb	w10, [x21, x8]
	tbnz	w10, #31, .LBB68_19
// %bb.33:                              // %join.8.i.i.i.i.i.i.i.i.i.i.i.4
                                        //   in Loop: Header=BB68_20 Depth=2
	add	x8, x9, #5
	cmp	x8, x22
	b.eq	.LBB68_65
// %bb.34:                              // %join.5.i.i.i.i.i.i.i.i.i.i.i.5
                                        //   in Loop: Header=BB68_20 Depth=2
	ldrsb	w10, [x21, x8]
	tbnz	w10, #31, .LBB68_19
// %bb.35:                              // %join.8.i.i.i.i.i.i.i.i.i.i.i.5
                                        //   in Loop: Header=BB68_20 Depth=2
	add	x8, x9, #6
	cmp	x8, x22
	b.eq	.LBB68_65
// %bb.36:                              // %join.5.i.i.i.i.i.i.i.i.i.i.i.6
                                        //   in Loop: Header=BB68_20 Depth=2
	ldrsb	w9, [x21, x8]
	tbnz	w9, #31, .LBB68_19
	b	.LBB68_65
.LBB68_37:                              // %else.2.i.i.i.i.i.i.i.i.i.i
                                        //   in Loop: Header=BB68_20 Depth=2
	cmp	w10, #194
	b.lo	.LBB68_103
// %bb.38:                              // %else.5.i.i.i.i.i.i.i.i.i.i
                                        //   in Loop: Header=BB68_20 Depth=2
	cmp	w10, #223
	b.hi	.LBB68_50
// %bb.39:                              // %then.7.i.i.i.i.i.i.i.i.i.i
                                        //   in Loop: Header=BB68_20 Depth=2
	cmp	x11, #2
	b.lo	.LBB68_103
// %bb.40:                              // %join.3.i.i.i.i.i.i.i.i.i.i.i
                                        //   in Loop: Header=BB68_20 Depth=2
	ldrsb	w8, [x8, #1]
	cmn	w8, #65
	b.gt	.LBB68_103
// %bb.41:                              //   in Loop: Header=BB68_20 Depth=2
	mov	w8, #2                          // =0x2
	b	.LBB68_18
.LBB68_42:                              // %join.3.i.i.i.i.i.i.i.i.i.i
                                        //   in Loop: Header=BB68_20 Depth=2
	ldr	x8, [x8]
	mov	w10, #8                         // =0x8
	ands	x8, x8, #0x8080808080808080
	rbit	x8, x8
	clz	x8, x8
	lsr	x8, x8, #3
	csel	x8, x10, x8, eq
	add	x8, x8, x9
	add	x9, x9, #8
	cmp	x8, x9
	b.lo	.LBB68_19
// %bb.43:                              // %join.6.i.i.i.i.i.i.i.i.i.i
                                        //   in Loop: Header=BB68_20 Depth=2
	sub	x9, x22, x8
	cmp	x9, #32
	b.lo	.LBB68_46
.LBB68_44:                              // %then.3.i.i.i.i.i.i.i.i.i.i.i
                                        //   Parent Loop BB68_3 Depth=1
                                        //     Parent Loop BB68_20 Depth=2
                                        // =>    This Inner Loop Header: Depth=3
	add	x9, x21, x8
	ldp	q1, q0, [x9]
	orr	v0.16b, v1.16b, v0.16b
	ext	v1.16b, v0.16b, v0.16b, #8
	orr	v0.8b, v0.8b, v1.8b
	fmov	x9, d0
	tst	x9, #0x8080808080808080
	b.ne	.LBB68_46
// %bb.45:                              // %join.5.i22.i.i.i.i.i.i.i.i.i.i
                                        //   in Loop: Header=BB68_44 Depth=3
	mov	x0, sp
	add	x1, x8, #32
	mov	x2, x22
	bl	"core::slice::words::skip_far::<#52f9edcae2f82f51>"
	sub	x9, x22, x0
	mov	x8, x0
	cmp	x9, #31
	b.hi	.LBB68_44
.LBB68_46:                              // %loop.8.i.i.i.i.i.i.i.i.i.i.preheader
                                        //   in Loop: Header=BB68_20 Depth=2
	sub	x9, x22, x8
.LBB68_47:                              // %loop.8.i.i.i.i.i.i.i.i.i.i
                                        //   Parent Loop BB68_3 Depth=1
                                        //     Parent Loop BB68_20 Depth=2
                                        // =>    This Inner Loop Header: Depth=3
	cmp	x9, #9
	b.lo	.LBB68_64
// %bb.48:                              // %join.11.i.i.i.i.i.i.i.i.i.i
                                        //   in Loop: Header=BB68_47 Depth=3
	ldr	x10, [x21, x8]
	mov	w11, #8                         // =0x8
	sub	x9, x9, #8
	ands	x10, x10, #0x8080808080808080
	rbit	x10, x10
	clz	x10, x10
	lsr	x10, x10, #3
	csel	x10, x11, x10, eq
	add	x11, x10, x8
	add	x8, x8, #8
	cmp	x11, x8
	b.hs	.LBB68_47
// %bb.49:                              // %loop.2.backedge.i.i.i.i.i.i.i.i.i.loopexit
                                        //   in Loop: Header=BB68_20 Depth=2
	add	x8, x10, x8
	sub	x8, x8, #8
	b	.LBB68_19
.LBB68_50:                              // %else.8.i.i.i.i.i.i.i.i.i.i
                                        //   in Loop: Header=BB68_20 Depth=2
	cmp	w10, #239
	b.hi	.LBB68_58
// %bb.51:                              // %then.10.i.i.i.i.i.i.i.i.i.i
                                        //   in Loop: Header=BB68_20 Depth=2
	cmp	x11, #3
	b.lo	.LBB68_103
// %bb.52:                              // %join.3.i6.i.i.i.i.i.i.i.i.i.i
                                        //   in Loop: Header=BB68_20 Depth=2
	ldrsb	w11, [x8, #1]
	cmn	w11, #65
	b.gt	.LBB68_103
// %bb.53:                              // %join.3.i6.i.i.i.i.i.i.i.i.i.i
                                        //   in Loop: Header=BB68_20 Depth=2
	ldrsb	w8, [x8, #2]
	cmn	w8, #65
	b.gt	.LBB68_103
// %bb.54:                              // %join.15.i.i.i.i.i.i.i.i.i.i.i
                                        //   in Loop: Header=BB68_20 Depth=2
	and	w8, w11, #0xff
	add	w8, w8, w10, lsl #6
	mov	w10, #-14464                    // =0xffffc780
	add	w10, w8, w10
	cmp	w10, #32
	b.lo	.LBB68_103
// %bb.55:                              // %else.17.i.i.i.i.i.i.i.i.i.i.i
                                        //   in Loop: Header=BB68_20 Depth=2
	cmp	w10, #896
	mov	w8, #3                          // =0x3
	csel	x11, xzr, x8, lo
	cmp	w10, #864
	b.lo	.LBB68_18
// %bb.56:                              //   in Loop: Header=BB68_20 Depth=2
	mov	x8, x11
	b	.LBB68_63
.LBB68_57:                              //   in Loop: Header=BB68_20 Depth=2
	mov	x8, x9
	b	.LBB68_19
.LBB68_58:                              // %else.11.i.i.i.i.i.i.i.i.i.i
                                        //   in Loop: Header=BB68_20 Depth=2
	cmp	x11, #4
	b.lo	.LBB68_103
// %bb.59:                              // %join.3.i11.i.i.i.i.i.i.i.i.i.i
                                        //   in Loop: Header=BB68_20 Depth=2
	ldrsb	w11, [x8, #1]
	cmn	w11, #65
	b.gt	.LBB68_103
// %bb.60:                              // %join.3.i11.i.i.i.i.i.i.i.i.i.i
                                        //   in Loop: Header=BB68_20 Depth=2
	ldrsb	w12, [x8, #2]
	cmn	w12, #65
	b.gt	.LBB68_103
// %bb.61:                              // %join.3.i11.i.i.i.i.i.i.i.i.i.i
                                        //   in Loop: Header=BB68_20 Depth=2
	ldrsb	w8, [x8, #3]
	cmn	w8, #65
	b.gt	.LBB68_103
// %bb.62:                              // %join.21.i.i.i.i.i.i.i.i.i.i.i
                                        //   in Loop: Header=BB68_20 Depth=2
	and	w8, w11, #0xff
	add	w8, w8, w10, lsl #6
	mov	w10, #-15488                    // =0xffffc380
	add	w10, w8, w10
	mov	w8, #4                          // =0x4
	cmp	w10, #272
	csel	x8, x8, xzr, lo
	cmp	w10, #16
	b.lo	.LBB68_103
.LBB68_63:                              // %"core::str::utf8::char_len_at.exit.i.i.i.i.i.i.i.i.i"
                                        //   in Loop: Header=BB68_20 Depth=2
	cbnz	x8, .LBB68_18
	b	.LBB68_103
.LBB68_64:                              // %after.7.i.i.i.i.i.i.i.i.i.i
                                        //   in Loop: Header=BB68_20 Depth=2
	ldr	x8, [x21, x24]
	mov	w9, #8                          // =0x8
	ands	x8, x8, #0x8080808080808080
	rbit	x8, x8
	clz	x8, x8
	lsr	x8, x8, #3
	csel	x8, x9, x8, eq
	add	x8, x8, x24
	b	.LBB68_19
.LBB68_65:                              // %arm.6.i.i.i.i.i
                                        //   in Loop: Header=BB68_3 Depth=1
	ldr	x8, [x25, #104]
	cmp	x8, x26
	b.eq	.LBB68_67
.LBB68_66:                              // %join.9.i.i.i.i.i
                                        //   in Loop: Header=BB68_3 Depth=1
	mov	w8, #24                         // =0x18
	add	x20, x20, #1
	madd	x8, x26, x8, x19
	add	x26, x26, #1
	cmn	x20, #1
	stp	x21, x22, [x8]
	str	x23, [x8, #16]
	str	x26, [x25, #96]
	b.ne	.LBB68_3
	b	.LBB68_71
.LBB68_67:                              // %"std_alloc::vec::Vec::grow::<#1b8c52373d8cd3cb>.exit.i.i.i.i.i.i"
                                        //   in Loop: Header=BB68_3 Depth=1
	sub	x0, x29, #112
	mov	w1, #1                          // =0x1
	bl	"std_alloc::vec::Vec::grow_amortized::<#1b8c52373d8cd3cb>"
	cbz	w0, .LBB68_209
// %bb.68:                              // %"std_alloc::vec::Vec::grow::<#1b8c52373d8cd3cb>.exit.join.3_crit_edge.i.i.i.i.i.i"
                                        //   in Loop: Header=BB68_3 Depth=1
	ldp	x19, x26, [x25, #88]
	b	.LBB68_66
.LBB68_69:                              // %arm.9.i.i.i.i.i.i.i.i
	ldr	x8, [sp, #16]
	cbz	x8, .LBB68_71
// %bb.70:                              // %then.1.i.i.i49.i.i.i.i.i.i.i.i
	mov	x0, x21
	bl	rattle_dealloc
.LBB68_71:                              // %arm.1.i.i.i.i
	ldr	x0, [x25, #88]
	ldr	x22, [x25, #104]
	cbz	x26, .LBB68_93
// %bb.72:                              // %join.3.i.i.i.i.i.preheader.i.i.i.i.i.i.i.i.preheader
	mov	x8, xzr
	mov	x21, xzr
	mov	x23, xzr
	mov	x9, xzr
	mov	x15, sp
	sub	x19, x29, #24
.LBB68_73:                              // %join.3.i.i.i.i.i.preheader.i.i.i.i.i.i.i.i
                                        // =>This Loop Header: Depth=1
                                        //     Child Loop BB68_74 Depth 2
	add	x10, x9, x9, lsl #1
	add	x11, x23, x23, lsl #1
	mov	x28, xzr
	lsl	x27, x10, #3
	lsl	x10, x11, #3
	sub	x11, x23, x8
.LBB68_74:                              // %join.3.i.i.i.i.i.i.i.i.i.i.i.i.i
                                        //   Parent Loop BB68_73 Depth=1
                                        // =>  This Inner Loop Header: Depth=2
	cmp	x11, x28
	add	x12, x0, x27
	b.eq	.LBB68_76
// %bb.75:                              // %join.9.i.i.i.i.i.i.i.i.i.i
                                        //   in Loop: Header=BB68_74 Depth=2
	ldr	x13, [x12, #16]
	ldr	q0, [x12]
	sub	x28, x28, #1
	add	x14, x19, x10
	cmn	x26, x28
	add	x27, x27, #24
	add	x10, x10, #24
	str	x13, [x14, #16]
	str	q0, [x14]
	b.ne	.LBB68_74
	b	.LBB68_83
.LBB68_76:                              // %arm.3.i.i.i.i.i.i.i.i
                                        //   in Loop: Header=BB68_73 Depth=1
	ldp	x20, x23, [x12]
	sub	x10, x21, x8
	ldr	x25, [x12, #16]
	add	x24, x26, x28
	str	x21, [sp, #16]
	cmp	x24, x10
	mov	x10, x21
	sub	x21, x9, x28
	stp	x19, x8, [sp]
	b.hi	.LBB68_78
.LBB68_77:                              // %join.10.i.i.i.i.i.i.i.i
                                        //   in Loop: Header=BB68_73 Depth=1
	mov	w9, #24                         // =0x18
	ldr	x19, [sp]
	sub	x26, x24, #1
	madd	x9, x8, x9, x19
	stp	x20, x23, [x9]
	adds	x23, x8, #1
	str	x25, [x9, #16]
	add	x9, x21, #1
	csel	x8, xzr, x10, hs
	sub	x25, x29, #200
	mov	x21, x10
	stp	xzr, xzr, [x15, #8]
	cbnz	x26, .LBB68_73
	b	.LBB68_84
.LBB68_78:                              // %"std_alloc::vec::Vec::grow::<#1b8c52373d8cd3cb>.exit.i.i.i.i.i.i.i.i.i"
                                        //   in Loop: Header=BB68_73 Depth=1
	mov	x19, x0
	mov	x0, sp
	add	x1, x26, x28
	bl	"std_alloc::vec::Vec::grow_amortized::<#1b8c52373d8cd3cb>"
	ldp	x8, x10, [sp, #8]
	tbnz	w0, #0, .LBB68_82
// %bb.79:                              // %"std_alloc::vec::Vec::grow::<#1b8c52373d8cd3cb>.exit.i.i.i.i.i.i.i.i.i"
                                        //   in Loop: Header=BB68_73 Depth=1
	cmp	x10, x8
	mov	x0, x19
	mov	x15, sp
	b.ne	.LBB68_77
// %bb.80:                              // %"std_alloc::vec::Vec::grow_by_hint::<#1b8c52373d8cd3cb>.exit.i.i.i.i.i.i.i.i"
                                        //   in Loop: Header=BB68_73 Depth=1
	mov	x0, sp
	mov	w1, #1                          // =0x1
	bl	"std_alloc::vec::Vec::grow_amortized::<#1b8c52373d8cd3cb>"
	cbz	w0, .LBB68_237
// %bb.81:                              // %"std_alloc::vec::Vec::grow_by_hint::<#1b8c52373d8cd3cb>.exit.join.10_crit_edge.i.i.i.i.i.i.i.i"
                                        //   in Loop: Header=BB68_73 Depth=1
	ldp	x8, x10, [sp, #8]
.LBB68_82:                              //   in Loop: Header=BB68_73 Depth=1
	mov	x0, x19
	mov	x15, sp
	b	.LBB68_77
.LBB68_83:                              // %arm.4.i.i.i.i5.i.i.i.i.loopexit
	sub	x23, x23, x28
.LBB68_84:                              // %arm.4.i.i.i.i5.i.i.i.i
	cbz	x22, .LBB68_86
.LBB68_85:                              // %then.1.i.i.i.i.i.i.i.i.i.i.i.i.i
	bl	rattle_dealloc
.LBB68_86:                              // %arm.1.i.i.i.i.i
	stp	xzr, xzr, [x25, #88]
	str	xzr, [x25, #104]
	cbz	x23, .LBB68_94
// %bb.87:                              // %then.5.i.i.i.i.i
	sub	x22, x23, #1
	ldr	x20, [x19]
	ldr	x24, [x19, #16]
	cmp	x22, #86
	b.lo	.LBB68_95
// %bb.88:                              // %"core::slots::Slots::move_at_once::<#483ec8513fd57e54>.exit.i.i.i.i.i.i.preheader"
	mov	x9, xzr
	mov	x0, x19
	sub	x8, x23, #1
.LBB68_89:                              // %"core::slots::Slots::move_at_once::<#483ec8513fd57e54>.exit.i.i.i.i.i.i"
                                        // =>This Inner Loop Header: Depth=1
	ldr	q1, [x0, #48]
	ldur	q0, [x0, #24]
	add	x10, x0, #264
	add	x11, x0, #312
	add	x12, x0, #360
	ldr	x13, [x0, #64]
	stur	q1, [x0, #24]
	ldr	q1, [x0, #96]
	sub	x8, x8, #85
	str	q0, [x0]
	ldur	q0, [x0, #72]
	cmp	x8, #85
	stur	q1, [x0, #72]
	ldr	q1, [x0, #144]
	sub	x9, x9, #85
	str	q0, [x0, #48]
	ldur	q0, [x0, #120]
	stur	q1, [x0, #120]
	ldr	q1, [x0, #192]
	str	q0, [x0, #96]
	ldur	q0, [x0, #168]
	stur	q1, [x0, #168]
	ldr	q1, [x0, #240]
	str	q0, [x0, #144]
	ldur	q0, [x0, #216]
	stur	q1, [x0, #216]
	ldr	q1, [x0, #288]
	str	q0, [x0, #192]
	ldr	q0, [x10]
	str	q1, [x10]
	ldr	q1, [x0, #336]
	add	x10, x0, #408
	str	q0, [x0, #240]
	ldr	q0, [x11]
	str	q1, [x11]
	ldr	q1, [x0, #384]
	add	x11, x0, #456
	str	q0, [x0, #288]
	ldr	q0, [x12]
	str	q1, [x12]
	ldr	q1, [x0, #432]
	add	x12, x0, #504
	str	q0, [x0, #336]
	ldr	q0, [x10]
	str	q1, [x10]
	ldr	q1, [x0, #480]
	add	x10, x0, #552
	str	q0, [x0, #384]
	ldr	q0, [x11]
	str	q1, [x11]
	ldr	q1, [x0, #528]
	add	x11, x0, #600
	str	q0, [x0, #432]
	ldr	q0, [x12]
	str	q1, [x12]
	ldr	q1, [x0, #576]
	add	x12, x0, #648
	str	q0, [x0, #480]
	ldr	q0, [x10]
	str	q1, [x10]
	ldr	q1, [x0, #624]
	add	x10, x0, #696
	str	q0, [x0, #528]
	ldr	q0, [x11]
	str	q1, [x11]
	ldr	q1, [x0, #672]
	add	x11, x0, #744
	str	q0, [x0, #576]
	ldr	q0, [x12]
	str	q1, [x12]
	ldr	q1, [x0, #720]
	add	x12, x0, #792
	str	q0, [x0, #624]
	ldr	q0, [x10]
	str	q1, [x10]
	ldr	q1, [x0, #768]
	add	x10, x0, #840
	str	q0, [x0, #672]
	ldr	q0, [x11]
	str	q1, [x11]
	ldr	q1, [x0, #816]
	add	x11, x0, #888
	str	q0, [x0, #720]
	ldr	q0, [x12]
	str	q1, [x12]
	ldr	q1, [x0, #864]
	add	x12, x0, #936
	str	q0, [x0, #768]
	ldr	q0, [x10]
	str	q1, [x10]
	ldr	q1, [x0, #912]
	add	x10, x0, #984
	str	q0, [x0, #816]
	ldr	q0, [x11]
	str	q1, [x11]
	ldr	q1, [x0, #960]
	add	x11, x0, #1032
	str	q0, [x0, #864]
	ldr	q0, [x12]
	str	q1, [x12]
	ldr	q1, [x0, #1008]
	add	x12, x0, #1080
	str	q0, [x0, #912]
	ldr	q0, [x10]
	str	q1, [x10]
	ldr	q1, [x0, #1056]
	add	x10, x0, #1128
	str	q0, [x0, #960]
	ldr	q0, [x11]
	str	q1, [x11]
	ldr	q1, [x0, #1104]
	add	x11, x0, #1176
	str	q0, [x0, #1008]
	ldr	q0, [x12]
	str	q1, [x12]
	ldr	q1, [x0, #1152]
	add	x12, x0, #1224
	str	q0, [x0, #1056]
	ldr	q0, [x10]
	str	q1, [x10]
	ldr	q1, [x0, #1200]
	add	x10, x0, #1272
	str	q0, [x0, #1104]
	ldr	q0, [x11]
	str	q1, [x11]
	ldr	q1, [x0, #1248]
	add	x11, x0, #1320
	str	q0, [x0, #1152]
	ldr	q0, [x12]
	str	q1, [x12]
	ldr	q1, [x0, #1296]
	add	x12, x0, #1368
	str	q0, [x0, #1200]
	ldr	q0, [x10]
	str	q1, [x10]
	ldr	q1, [x0, #1344]
	add	x10, x0, #1416
	str	q0, [x0, #1248]
	ldr	q0, [x11]
	str	q1, [x11]
	ldr	q1, [x0, #1392]
	add	x11, x0, #1464
	str	q0, [x0, #1296]
	ldr	q0, [x12]
	str	q1, [x12]
	ldr	q1, [x0, #1440]
	add	x12, x0, #1512
	str	q0, [x0, #1344]
	ldr	q0, [x10]
	str	q1, [x10]
	ldr	q1, [x0, #1488]
	add	x10, x0, #1560
	str	q0, [x0, #1392]
	ldr	q0, [x11]
	str	q1, [x11]
	ldr	q1, [x0, #1536]
	add	x11, x0, #1608
	str	q0, [x0, #1440]
	ldr	q0, [x12]
	str	q1, [x12]
	ldr	q1, [x0, #1584]
	add	x12, x0, #1656
	str	q0, [x0, #1488]
	ldr	q0, [x10]
	str	q1, [x10]
	ldr	q1, [x0, #1632]
	add	x10, x0, #1704
	str	q0, [x0, #1536]
	ldr	q0, [x11]
	str	q1, [x11]
	ldr	q1, [x0, #1680]
	add	x11, x0, #1752
	str	q0, [x0, #1584]
	ldr	q0, [x12]
	str	q1, [x12]
	ldr	q1, [x0, #1728]
	add	x12, x0, #1800
	str	q0, [x0, #1632]
	ldr	q0, [x10]
	str	q1, [x10]
	ldr	q1, [x0, #1776]
	add	x10, x0, #1848
	str	q0, [x0, #1680]
	ldr	q0, [x11]
	str	q1, [x11]
	ldr	q1, [x0, #1824]
	add	x11, x0, #1896
	str	q0, [x0, #1728]
	ldr	q0, [x12]
	str	q1, [x12]
	ldr	q1, [x0, #1872]
	add	x12, x0, #1944
	str	q0, [x0, #1776]
	ldr	q0, [x10]
	str	q1, [x10]
	ldr	q1, [x0, #1920]
	add	x10, x0, #1992
	str	q0, [x0, #1824]
	ldr	q0, [x11]
	str	q1, [x11]
	ldr	q1, [x0, #1968]
	add	x11, x0, #2040
	str	q0, [x0, #1872]
	ldr	q0, [x12]
	str	q1, [x12]
	ldr	x12, [x0, #40]
	ldr	q1, [x11]
	str	x13, [x0, #40]
	ldr	x13, [x0, #112]
	str	x12, [x0, #16]
	ldr	x12, [x0, #88]
	str	x13, [x0, #88]
	ldr	x13, [x0, #160]
	str	x12, [x0, #64]
	ldr	x12, [x0, #136]
	str	x13, [x0, #136]
	ldr	x13, [x0, #208]
	str	x12, [x0, #112]
	ldr	x12, [x0, #184]
	str	x13, [x0, #184]
	ldr	x13, [x0, #256]
	str	x12, [x0, #160]
	ldr	x12, [x0, #232]
	str	x13, [x0, #232]
	ldr	x13, [x0, #304]
	str	x12, [x0, #208]
	ldr	x12, [x0, #280]
	str	x13, [x0, #280]
	ldr	x13, [x0, #352]
	str	x12, [x0, #256]
	ldr	x12, [x0, #328]
	str	x13, [x0, #328]
	ldr	x13, [x0, #400]
	str	x12, [x0, #304]
	ldr	x12, [x0, #376]
	str	x13, [x0, #376]
	ldr	x13, [x0, #448]
	str	x12, [x0, #352]
	ldr	x12, [x0, #424]
	str	x13, [x0, #424]
	ldr	x13, [x0, #496]
	str	x12, [x0, #400]
	ldr	x12, [x0, #472]
	str	x13, [x0, #472]
	ldr	x13, [x0, #544]
	str	x12, [x0, #448]
	ldr	x12, [x0, #520]
	str	x13, [x0, #520]
	ldr	x13, [x0, #592]
	str	x12, [x0, #496]
	ldr	x12, [x0, #568]
	str	x13, [x0, #568]
	ldr	x13, [x0, #640]
	str	x12, [x0, #544]
	ldr	x12, [x0, #616]
	str	x13, [x0, #616]
	ldr	x13, [x0, #688]
	str	x12, [x0, #592]
	ldr	x12, [x0, #664]
	str	x13, [x0, #664]
	ldr	x13, [x0, #736]
	str	x12, [x0, #640]
	ldr	x12, [x0, #712]
	str	x13, [x0, #712]
	ldr	x13, [x0, #784]
	str	x12, [x0, #688]
	ldr	x12, [x0, #760]
	str	x13, [x0, #760]
	ldr	x13, [x0, #832]
	str	x12, [x0, #736]
	ldr	x12, [x0, #808]
	str	x13, [x0, #808]
	ldr	x13, [x0, #880]
	str	x12, [x0, #784]
	ldr	x12, [x0, #856]
	str	x13, [x0, #856]
	ldr	x13, [x0, #928]
	str	x12, [x0, #832]
	ldr	x12, [x0, #904]
	str	x13, [x0, #904]
	ldr	x13, [x0, #976]
	str	x12, [x0, #880]
	ldr	x12, [x0, #952]
	str	x13, [x0, #952]
	ldr	x13, [x0, #1024]
	str	x12, [x0, #928]
	ldr	x12, [x0, #1000]
	str	x13, [x0, #1000]
	ldr	x13, [x0, #1072]
	str	x12, [x0, #976]
	ldr	x12, [x0, #1048]
	str	x13, [x0, #1048]
	ldr	x13, [x0, #1120]
	str	x12, [x0, #1024]
	ldr	x12, [x0, #1096]
	str	x13, [x0, #1096]
	ldr	x13, [x0, #1168]
	str	x12, [x0, #1072]
	ldr	x12, [x0, #1144]
	str	x13, [x0, #1144]
	ldr	x13, [x0, #1216]
	str	x12, [x0, #1120]
	ldr	x12, [x0, #1192]
	str	x13, [x0, #1192]
	ldr	x13, [x0, #1264]
	str	x12, [x0, #1168]
	ldr	x12, [x0, #1240]
	str	x13, [x0, #1240]
	ldr	x13, [x0, #1312]
	str	x12, [x0, #1216]
	ldr	x12, [x0, #1288]
	str	x13, [x0, #1288]
	ldr	x13, [x0, #1360]
	str	x12, [x0, #1264]
	ldr	x12, [x0, #1336]
	str	x13, [x0, #1336]
	ldr	x13, [x0, #1408]
	str	x12, [x0, #1312]
	ldr	x12, [x0, #1384]
	str	x13, [x0, #1384]
	ldr	x13, [x0, #1456]
	str	x12, [x0, #1360]
	ldr	x12, [x0, #1432]
	str	x13, [x0, #1432]
	ldr	x13, [x0, #1504]
	str	x12, [x0, #1408]
	ldr	x12, [x0, #1480]
	str	x13, [x0, #1480]
	ldr	x13, [x0, #1552]
	str	x12, [x0, #1456]
	ldr	x12, [x0, #1528]
	str	x13, [x0, #1528]
	ldr	x13, [x0, #1600]
	str	x12, [x0, #1504]
	ldr	x12, [x0, #1576]
	str	x13, [x0, #1576]
	ldr	x13, [x0, #1648]
	str	x12, [x0, #1552]
	ldr	x12, [x0, #1624]
	str	x13, [x0, #1624]
	ldr	x13, [x0, #1696]
	str	x12, [x0, #1600]
	ldr	x12, [x0, #1672]
	str	x13, [x0, #1672]
	ldr	x13, [x0, #1744]
	str	x12, [x0, #1648]
	ldr	x12, [x0, #1720]
	str	x13, [x0, #1720]
	ldr	x13, [x0, #1792]
	str	x12, [x0, #1696]
	ldr	x12, [x0, #1768]
	str	x13, [x0, #1768]
	ldr	x13, [x0, #1840]
	str	x12, [x0, #1744]
	ldr	x12, [x0, #1816]
	str	x13, [x0, #1816]
	ldr	x13, [x0, #1888]
	str	x12, [x0, #1792]
	ldr	x12, [x0, #1864]
	str	x13, [x0, #1864]
	ldr	x13, [x0, #1936]
	str	x12, [x0, #1840]
	ldr	x12, [x0, #1912]
	str	x13, [x0, #1912]
	ldr	x13, [x0, #1984]
	str	x12, [x0, #1888]
	ldr	x12, [x0, #1960]
	str	q0, [x0, #1920]
	ldr	q0, [x10]
	str	x12, [x0, #1936]
	ldr	x12, [x0, #2008]
	str	x13, [x0, #1960]
	ldr	x13, [x0, #2032]
	str	x12, [x0, #1984]
	ldr	x12, [x0, #2056]
	str	q0, [x0, #1968]
	ldr	q0, [x0, #2016]
	str	q1, [x0, #2016]
	str	x13, [x0, #2008]
	str	x12, [x0, #2032]
	mov	x0, x11
	str	q0, [x10]
	b.hi	.LBB68_89
// %bb.90:                              // %"core::slots::Slots::move_back::<#483ec8513fd57e54>.exit.i.i.i.i.i.i"
	cmp	x9, #1
	b.ne	.LBB68_112
// %bb.91:                              // %join.5.i33.i.i.i.i.i.i.preheader
	mov	w9, #24                         // =0x18
	madd	x9, x23, x9, x19
	sub	x9, x9, #24
.LBB68_92:                              // %join.5.i33.i.i.i.i.i.i
                                        // =>This Inner Loop Header: Depth=1
	ldr	q0, [x9]
	ldr	x10, [x9, #16]
	sub	x11, x9, #24
	subs	x8, x8, #1
	stur	q0, [x9, #-24]
	stur	x10, [x9, #-8]
	mov	x9, x11
	b.ne	.LBB68_92
	b	.LBB68_97
.LBB68_93:
	mov	x21, xzr
	mov	x23, xzr
	sub	x19, x29, #24
	cbnz	x22, .LBB68_85
	b	.LBB68_86
.LBB68_94:                              // %arm.6.thread.i.i.i.i
	mov	w0, wzr
	bl	"text_programs::programs::stops::Stop::report::<#2daa2fb2be07fb73>"
	mov	w20, w0
	cbnz	x21, .LBB68_133
	b	.LBB68_134
.LBB68_95:
	mov	x0, x19
	mov	x8, x22
	cmp	x22, xzr
	b.eq	.LBB68_97
.LBB68_96:                              // %join.5.i25.i.preheader.i.i.i.i.i
	add	x8, x8, x8, lsl #1
	add	x1, x0, #24
	lsl	x2, x8, #3
	bl	memmove
.LBB68_97:                              // %"std_alloc::vec::Vec::remove::<#1b8c52373d8cd3cb>.exit.i.i.i.i.i"
	cbz	x24, .LBB68_99
// %bb.98:                              // %then.1.i.i.i.i.i37.i.i.i
	mov	x0, x20
	bl	rattle_dealloc
.LBB68_99:                              // %arm.1.i21.i.i.i
	cmp	x22, #2
	b.ne	.LBB68_131
.LBB68_100:                             // %then.6.i.i.i.i.i.i
	ldp	x9, x8, [x19]
	cmp	x8, #7
	b.eq	.LBB68_113
// %bb.101:                             // %then.6.i.i.i.i.i.i
	mov	x26, x21
	cmp	x8, #4
	b.ne	.LBB68_142
// %bb.102:                             // %"core::lang::str_eq.exit.i.i.i.i.i.i.i"
	ldr	w9, [x9]
	mov	x10, #29813                     // =0x7475
	mov	w8, wzr
	movk	x10, #14438, lsl #16
	mov	w0, wzr
	orr	x9, x9, x9, lsl #32
	orr	x10, x10, x10, lsl #32
	cmp	x9, x10
	b.eq	.LBB68_136
	b	.LBB68_143
.LBB68_103:                             // %arm.5.i.i.i.i.i.i.i
	cbz	x23, .LBB68_105
// %bb.104:                             // %then.1.i.i.i.i.i.i.i.i.i.i
	mov	x0, x21
	bl	rattle_dealloc
.LBB68_105:                             // %arm.18.i.i.i.i.i
	ldr	x20, [x25, #104]
	cbz	x26, .LBB68_110
// %bb.106:                             // %join.5.i.i.i.i.i49.i.i.i.i.i.preheader
	add	x21, x19, #16
	b	.LBB68_108
.LBB68_107:                             // %"core::mem::drop::<#f02d343d93693c10>.exit.i.i.i.i.i58.i.i.i.i.i"
                                        //   in Loop: Header=BB68_108 Depth=1
	subs	x26, x26, #1
	add	x21, x21, #24
	b.eq	.LBB68_110
.LBB68_108:                             // %join.5.i.i.i.i.i49.i.i.i.i.i
                                        // =>This Inner Loop Header: Depth=1
	ldr	x8, [x21]
	cbz	x8, .LBB68_107
// %bb.109:                             // %then.1.i.i.i.i.i.i.i.i.i.i56.i.i.i.i.i
                                        //   in Loop: Header=BB68_108 Depth=1
	ldur	x0, [x21, #-16]
	bl	rattle_dealloc
	b	.LBB68_107
.LBB68_110:                             // %"std_alloc::vec::Vec::clear::<#4feeb2b446188e7f>.exit.i61.i.i.i.i.i"
	cbz	x20, .LBB68_116
// %bb.111:                             // %then.1.i.i.i63.i.i.i.i.i
	mov	x0, x19
	bl	rattle_dealloc
	mov	w8, #21                         // =0x15
	b	.LBB68_127
.LBB68_112:
	neg	x9, x9
	cmp	x22, x9
	b.ne	.LBB68_96
	b	.LBB68_97
.LBB68_113:                             // %"core::lang::str_eq.exit18.i.i.i.i.i.i.i"
	ldr	w8, [x9]
	ldur	w9, [x9, #3]
	mov	x26, x21
	orr	x8, x8, x9, lsl #32
	mov	x9, #29813                      // =0x7475
	movk	x9, #12646, lsl #16
	movk	x9, #13873, lsl #32
	movk	x9, #25964, lsl #48
	cmp	x8, x9
	b.eq	.LBB68_135
// %bb.114:                             // %"core::lang::str_eq.exit18.i.i.i.i.i.i.i"
	mov	x9, #29813                      // =0x7475
	movk	x9, #12646, lsl #16
	movk	x9, #13873, lsl #32
	movk	x9, #25954, lsl #48
	cmp	x8, x9
	b.ne	.LBB68_142
// %bb.115:                             // %arm.9.fold.split.i.i.i.i.i.i
	mov	w8, #2                          // =0x2
	b	.LBB68_136
.LBB68_116:
	mov	w8, #21                         // =0x15
	b	.LBB68_127
.LBB68_117:                             // %then.1.i.i.i.i.i.i.i.i
	ldr	x8, [sp, #16]
	cbz	x8, .LBB68_119
// %bb.118:                             // %then.1.i.i.i.i.i.i.i.i.i.i.i
	ldr	x0, [sp]
	bl	rattle_dealloc
.LBB68_119:                             // %arm.17.i.i.i.i.i
	ldr	x20, [x25, #104]
	cbz	x26, .LBB68_124
// %bb.120:                             // %join.5.i.i.i.i.i25.i.i.i.i.i.preheader
	add	x21, x19, #16
	b	.LBB68_122
.LBB68_121:                             // %"core::mem::drop::<#f02d343d93693c10>.exit.i.i.i.i.i34.i.i.i.i.i"
                                        //   in Loop: Header=BB68_122 Depth=1
	subs	x26, x26, #1
	add	x21, x21, #24
	b.eq	.LBB68_124
.LBB68_122:                             // %join.5.i.i.i.i.i25.i.i.i.i.i
                                        // =>This Inner Loop Header: Depth=1
	ldr	x8, [x21]
	cbz	x8, .LBB68_121
// %bb.123:                             // %then.1.i.i.i.i.i.i.i.i.i.i32.i.i.i.i.i
                                        //   in Loop: Header=BB68_122 Depth=1
	ldur	x0, [x21, #-16]
	bl	rattle_dealloc
	b	.LBB68_121
.LBB68_124:                             // %"std_alloc::vec::Vec::clear::<#4feeb2b446188e7f>.exit.i37.i.i.i.i.i"
	cbz	x20, .LBB68_126
.LBB68_125:                             // %then.1.i.i.i16.i.i.i.i.i
	mov	x0, x19
	bl	rattle_dealloc
.LBB68_126:
	mov	w8, #38                         // =0x26
.LBB68_127:                             // %arm.2.i.i.i.i.i
	adrp	x9, .LCPI68_0
	stp	xzr, xzr, [x25, #88]
	ldr	q0, [x9, :lo12:.LCPI68_0]
	adrp	x9, .LCPI68_1
	str	xzr, [x25, #104]
	ldr	q1, [x9, :lo12:.LCPI68_1]
	adrp	x9, .LCPI68_2
	ldr	d2, [x9, :lo12:.LCPI68_2]
	mov	w9, #40                         // =0x28
	stp	q0, q1, [sp]
	str	d2, [sp, #32]
	strb	w9, [sp, #40]
	mov	x9, sp
	ldrb	w8, [x9, x8]
	cmp	w8, #21
	b.eq	.LBB68_129
.LBB68_128:                             // %arm.2.i1.i.i.i
	mov	w0, #3                          // =0x3
	bl	"text_programs::programs::stops::Stop::report::<#2daa2fb2be07fb73>"
	mov	w20, w0
	b	.LBB68_134
.LBB68_129:                             // %then.9.i.i.i.i.i
	sub	x20, x29, #24
	sub	x0, x29, #112
	mov	w1, #1                          // =0x1
	stp	xzr, xzr, [x25, #96]
	str	x20, [x25, #88]
	bl	"std_alloc::vec::Vec::grow_amortized::<#1b8c52373d8cd3cb>"
	ldr	x21, [x25, #104]
	cbz	w0, .LBB68_148
// %bb.130:                             // %"std_alloc::vec::Vec::grow::<#1b8c52373d8cd3cb>.exit.join.3_crit_edge.i.i.i15.i.i.i"
	ldp	x19, x8, [x25, #88]
	mov	w9, #24                         // =0x18
	madd	x9, x8, x9, x19
	add	x22, x8, #1
	stp	x20, xzr, [x9]
	str	xzr, [x9, #16]
	cmp	x22, #2
	b.eq	.LBB68_100
.LBB68_131:                             // %arm.6.i22.i.i.i
	mov	w0, wzr
	mov	x26, x21
	bl	"text_programs::programs::stops::Stop::report::<#2daa2fb2be07fb73>"
	mov	w20, w0
	cbnz	x22, .LBB68_144
.LBB68_132:
	cbz	x26, .LBB68_134
.LBB68_133:                             // %then.1.i.i.i34.i.i.i.i
	mov	x0, x19
	bl	rattle_dealloc
.LBB68_134:                             // %"recode::main+start.exit"
	and	w0, w20, #0xff
	add	sp, sp, #16, lsl #12            // =65536
	add	sp, sp, #208
	.cfi_def_cfa wsp, 96
	ldp	x20, x19, [sp, #80]             // 16-byte Folded Reload
	ldp	x22, x21, [sp, #64]             // 16-byte Folded Reload
	ldp	x24, x23, [sp, #48]             // 16-byte Folded Reload
	ldp	x26, x25, [sp, #32]             // 16-byte Folded Reload
	ldp	x28, x27, [sp, #16]             // 16-byte Folded Reload
	ldp	x29, x30, [sp], #96             // 16-byte Folded Reload
	.cfi_def_cfa_offset 0
	.cfi_restore w19
	.cfi_restore w20
	.cfi_restore w21
	.cfi_restore w22
	.cfi_restore w23
	.cfi_restore w24
	.cfi_restore w25
	.cfi_restore w26
	.cfi_restore w27
	.cfi_restore w28
	.cfi_restore w30
	.cfi_restore w29
	ret
.LBB68_135:
	.cfi_restore_state
	mov	w8, #1                          // =0x1
.LBB68_136:                             // %arm.9.i.i.i.i.i.i
	ldp	x10, x9, [x19, #24]
	cmp	x9, #7
	b.eq	.LBB68_139
// %bb.137:                             // %arm.9.i.i.i.i.i.i
	cmp	x9, #4
	b.ne	.LBB68_142
// %bb.138:                             // %"core::lang::str_eq.exit.i23.i.i.i.i.i.i"
	ldr	w10, [x10]
	mov	x11, #29813                     // =0x7475
	mov	w9, wzr
	movk	x11, #14438, lsl #16
	mov	w0, wzr
	orr	x10, x10, x10, lsl #32
	orr	x11, x11, x11, lsl #32
	cmp	x10, x11
	b.eq	.LBB68_156
	b	.LBB68_143
.LBB68_139:                             // %"core::lang::str_eq.exit18.i9.i.i.i.i.i.i"
	ldr	w9, [x10]
	ldur	w10, [x10, #3]
	orr	x9, x9, x10, lsl #32
	mov	x10, #29813                     // =0x7475
	movk	x10, #12646, lsl #16
	movk	x10, #13873, lsl #32
	movk	x10, #25964, lsl #48
	cmp	x9, x10
	b.eq	.LBB68_155
// %bb.140:                             // %"core::lang::str_eq.exit18.i9.i.i.i.i.i.i"
	mov	x10, #29813                     // =0x7475
	movk	x10, #12646, lsl #16
	movk	x10, #13873, lsl #32
	movk	x10, #25954, lsl #48
	cmp	x9, x10
	b.ne	.LBB68_142
// %bb.141:                             // %after.1.fold.split.i.i.i.i.i.i
	mov	w9, #2                          // =0x2
	b	.LBB68_156
.LBB68_142:
	mov	w0, wzr
.LBB68_143:                             // %arm.6.thread103.i.i.i.i
	bl	"text_programs::programs::stops::Stop::report::<#2daa2fb2be07fb73>"
	mov	w20, w0
	mov	w22, #2                         // =0x2
.LBB68_144:                             // %join.5.i.i.i.i.i20.preheader.i.i.i.i
	add	x21, x19, #16
	b	.LBB68_146
.LBB68_145:                             // %"core::mem::drop::<#7f8a914b9c4d666d>.exit.i.i.i.i.i29.i.i.i.i"
                                        //   in Loop: Header=BB68_146 Depth=1
	subs	x22, x22, #1
	add	x21, x21, #24
	b.eq	.LBB68_132
.LBB68_146:                             // %join.5.i.i.i.i.i20.i.i.i.i
                                        // =>This Inner Loop Header: Depth=1
	ldr	x8, [x21]
	cbz	x8, .LBB68_145
// %bb.147:                             // %then.1.i.i.i.i.i.i.i.i.i.i27.i.i.i.i
                                        //   in Loop: Header=BB68_146 Depth=1
	ldur	x0, [x21, #-16]
	bl	rattle_dealloc
	b	.LBB68_145
.LBB68_148:                             // %"std_alloc::vec::Vec::drop::<#81677c32190a458e>.exit8.i.i.i.i.i"
	ldp	x19, x20, [x25, #88]
	mov	x22, x21
	cbz	x20, .LBB68_153
// %bb.149:                             // %join.5.i.i.i.i.i.i.i4.i.i.i.preheader
	add	x21, x19, #16
	b	.LBB68_151
.LBB68_150:                             // %"core::mem::drop::<#7f8a914b9c4d666d>.exit.i.i.i.i.i.i.i.i.i.i"
                                        //   in Loop: Header=BB68_151 Depth=1
	subs	x20, x20, #1
	add	x21, x21, #24
	b.eq	.LBB68_153
.LBB68_151:                             // %join.5.i.i.i.i.i.i.i4.i.i.i
                                        // =>This Inner Loop Header: Depth=1
	ldr	x8, [x21]
	cbz	x8, .LBB68_150
// %bb.152:                             // %then.1.i.i.i.i.i.i.i.i.i.i.i.i11.i.i.i
                                        //   in Loop: Header=BB68_151 Depth=1
	ldur	x0, [x21, #-16]
	bl	rattle_dealloc
	b	.LBB68_150
.LBB68_153:                             // %"std_alloc::vec::Vec::clear::<#1ca9c52778c14e4e>.exit.i.i.i.i.i.i"
	cbz	x22, .LBB68_128
// %bb.154:                             // %then.1.i.i.i14.i.i.i.i.i
	mov	x0, x19
	bl	rattle_dealloc
	b	.LBB68_128
.LBB68_155:
	mov	w9, #1                          // =0x1
.LBB68_156:                             // %arm.1.i8.i.i.i.i
	sub	x20, x29, #24
	mov	x0, sp
	mov	w1, wzr
	mov	w2, #65536                      // =0x10000
	stp	xzr, xzr, [x25, #24]
	sub	x22, x29, #176
	strb	w8, [x25, #40]
	strb	w9, [x25, #41]
	stur	xzr, [x25, #42]
	str	xzr, [x25, #48]
	stp	x20, xzr, [x25]
	str	xzr, [x25, #16]
	bl	memset
	mov	x23, xzr
.LBB68_157:                             // %join.5.i.i.i.i.i.i
                                        // =>This Loop Header: Depth=1
                                        //     Child Loop BB68_192 Depth 2
	mov	x1, sp
	mov	w0, wzr
	mov	w2, #65536                      // =0x10000
	bl	read
	tbnz	x0, #63, .LBB68_161
// %bb.158:                             // %arm.6.i.i.i.i.i.i
                                        //   in Loop: Header=BB68_157 Depth=1
	cmp	x0, #16, lsl #12                // =65536
	mov	w9, #65536                      // =0x10000
	ldr	x8, [x25, #24]
	csel	x20, x0, x9, lo
	cbz	x0, .LBB68_206
// %bb.159:                             // %default.11.i.i.i.i.i.i
                                        //   in Loop: Header=BB68_157 Depth=1
	cbz	x8, .LBB68_163
// %bb.160:                             // %"recoding::recoder::Recoder::feed::<#e3b2a9d4d2861db8>.exit.i.i.i.i.i.i.i"
                                        //   in Loop: Header=BB68_157 Depth=1
	sub	x0, x29, #176
	mov	x1, sp
	sub	x3, x29, #200
	mov	x2, x20
	bl	"recoding::recoder::Recoder::feed_joined::<#e3b2a9d4d2861db8>"
	and	w8, w0, #0xff
	tbz	w8, #0, .LBB68_190
	b	.LBB68_198
.LBB68_161:                             // %arm.7.i.i.i.i.i.i
                                        //   in Loop: Header=BB68_157 Depth=1
	sub	x0, x29, #112
	sub	x21, x29, #112
	bl	"std_io::io::error::last_error"
	adrp	x9, .LCPI68_0
	ldr	x8, [x25, #88]
	adrp	x10, .LCPI68_1
	ldr	q0, [x9, :lo12:.LCPI68_0]
	adrp	x9, .LCPI68_2
	ldr	q1, [x10, :lo12:.LCPI68_1]
	ldr	d2, [x9, :lo12:.LCPI68_2]
	ubfx	w9, w8, #8, #8
	mov	w10, #40                        // =0x28
	stur	q0, [x25, #88]
	cmp	w9, #41
	stur	q1, [x25, #104]
	str	d2, [x25, #120]
	strb	w10, [x25, #128]
	b.hs	.LBB68_202
// %bb.162:                             // %"std_io::io::error::Error::kind.exit83.i.i.i.i.i.i"
                                        //   in Loop: Header=BB68_157 Depth=1
	ubfx	x8, x8, #8, #6
	ldrb	w8, [x21, x8]
	cmp	w8, #35
	b.eq	.LBB68_196
	b	.LBB68_202
.LBB68_163:                             // %then.5.i.i.i.i.i.i.i.i
                                        //   in Loop: Header=BB68_157 Depth=1
	add	x1, x20, x20, lsl #1
	ldr	x8, [x25, #16]
	cmp	x1, x8
	b.hi	.LBB68_197
.LBB68_164:                             // %arm.1.i.i.i.i.i.i.i.i
                                        //   in Loop: Header=BB68_157 Depth=1
	ldrb	w9, [x25, #40]
	ldrb	w8, [x25, #41]
	mov	x0, sp
	sub	x2, x29, #200
	mov	x1, x20
	cmp	w9, #2
	b.eq	.LBB68_169
// %bb.165:                             // %arm.1.i.i.i.i.i.i.i.i
                                        //   in Loop: Header=BB68_157 Depth=1
	cmp	w9, #1
	b.ne	.LBB68_172
// %bb.166:                             // %arm.2.i18.i.i.i.i.i.i.i
                                        //   in Loop: Header=BB68_157 Depth=1
	cmp	w8, #2
	b.eq	.LBB68_175
// %bb.167:                             // %arm.2.i18.i.i.i.i.i.i.i
                                        //   in Loop: Header=BB68_157 Depth=1
	cmp	w8, #1
	b.ne	.LBB68_177
// %bb.168:                             // %arm.11.i.i.i.i.i.i.i.i
                                        //   in Loop: Header=BB68_157 Depth=1
	bl	"recoding::recoder_runs::run_whole::<#06163603a29b5506>"
	b	.LBB68_181
.LBB68_169:                             // %arm.3.i.i.i.i.i25.i.i.i
                                        //   in Loop: Header=BB68_157 Depth=1
	cmp	w8, #2
	b.eq	.LBB68_176
// %bb.170:                             // %arm.3.i.i.i.i.i25.i.i.i
                                        //   in Loop: Header=BB68_157 Depth=1
	cmp	w8, #1
	b.ne	.LBB68_178
// %bb.171:                             // %arm.15.i.i.i.i.i.i.i.i
                                        //   in Loop: Header=BB68_157 Depth=1
	bl	"recoding::recoder_runs::run_whole::<#e742a82e1969306f>"
	b	.LBB68_181
.LBB68_172:                             // %arm.1.i20.i.i.i.i.i.i.i
                                        //   in Loop: Header=BB68_157 Depth=1
	cmp	w8, #2
	b.eq	.LBB68_179
// %bb.173:                             // %arm.1.i20.i.i.i.i.i.i.i
                                        //   in Loop: Header=BB68_157 Depth=1
	cmp	w8, #1
	b.ne	.LBB68_180
// %bb.174:                             // %arm.7.i22.i.i.i.i.i.i.i
                                        //   in Loop: Header=BB68_157 Depth=1
	bl	"recoding::recoder_runs::run_whole::<#2857ed0d0693875d>"
	b	.LBB68_181
.LBB68_175:                             // %arm.12.i.i.i.i.i.i.i.i
                                        //   in Loop: Header=BB68_157 Depth=1
	bl	"recoding::recoder_runs::run_whole::<#daeca7e912b417d6>"
	b	.LBB68_181
.LBB68_176:                             // %arm.16.i.i.i.i.i.i.i.i
                                        //   in Loop: Header=BB68_157 Depth=1
	bl	"recoding::recoder_runs::run_whole::<#9bba14706ba0829a>"
	b	.LBB68_181
.LBB68_177:                             // %arm.10.i.i.i.i.i.i.i.i
                                        //   in Loop: Header=BB68_157 Depth=1
	bl	"recoding::recoder_runs::run_whole::<#d46ce40aec13b609>"
	b	.LBB68_181
.LBB68_178:                             // %arm.14.i.i.i.i.i.i.i.i
                                        //   in Loop: Header=BB68_157 Depth=1
	bl	"recoding::recoder_runs::run_whole::<#8e1925640e2330c5>"
	b	.LBB68_181
.LBB68_179:                             // %arm.8.i.i.i.i.i32.i.i.i
                                        //   in Loop: Header=BB68_157 Depth=1
	bl	"recoding::recoder_runs::run_whole::<#9c534bed186decad>"
	b	.LBB68_181
.LBB68_180:                             // %arm.6.i24.i.i.i.i.i.i.i
                                        //   in Loop: Header=BB68_157 Depth=1
	bl	"recoding::recoder_runs::run_whole::<#d908eddfe8754f34>"
.LBB68_181:                             // %"recoding::recoder_runs::recode_whole::<#e3b2a9d4d2861db8>.exit.i.i.i.i.i.i.i"
                                        //   in Loop: Header=BB68_157 Depth=1
	subs	x10, x20, x0
	str	x10, [x25, #24]
	b.eq	.LBB68_188
// %bb.182:                             // %join.3.i.i.i.i.i.i.i26.i.i.i
                                        //   in Loop: Header=BB68_157 Depth=1
	mov	x8, sp
	cmp	x10, #1
	add	x8, x8, x0
	b.ne	.LBB68_184
// %bb.183:                             //   in Loop: Header=BB68_157 Depth=1
	mov	w9, wzr
	mov	w10, wzr
	b	.LBB68_187
.LBB68_184:                             // %join.6.i.i.i.i.i.i.i27.i.i.i
                                        //   in Loop: Header=BB68_157 Depth=1
	ldrb	w9, [x8, #1]
	cmp	x10, #2
	b.ne	.LBB68_186
// %bb.185:                             //   in Loop: Header=BB68_157 Depth=1
	mov	w10, wzr
	b	.LBB68_187
.LBB68_186:                             // %join.9.i.i.i.i.i.i.i31.i.i.i
                                        //   in Loop: Header=BB68_157 Depth=1
	ldrb	w10, [x8, #2]
.LBB68_187:                             // %"recoding::held::padded_to_three.exit.i.i.i.i.i.i.i.i.i"
                                        //   in Loop: Header=BB68_157 Depth=1
	ldrb	w8, [x8]
	strb	w9, [x25, #33]
	strb	w10, [x25, #34]
	strb	w8, [x25, #32]
.LBB68_188:                             // %"recoding::held::Held::hold.exit.i.i.i.i.i.i.i.i"
                                        //   in Loop: Header=BB68_157 Depth=1
	cbz	x1, .LBB68_190
// %bb.189:                             // %then.1.i25.i.i.i.i.i.i.i
                                        //   in Loop: Header=BB68_157 Depth=1
	ldr	x8, [x25, #48]
	adds	x8, x1, x8
	csinv	x8, x8, xzr, lo
	str	x8, [x25, #48]
.LBB68_190:                             // %join.3.i12.i.i.i.i.i.i
                                        //   in Loop: Header=BB68_157 Depth=1
	ldp	x20, x21, [x25]
	cbz	x21, .LBB68_196
// %bb.191:                             // %join.5.i.i13.i.i.i.i.i.i.preheader
                                        //   in Loop: Header=BB68_157 Depth=1
	mov	x24, xzr
.LBB68_192:                             // %join.5.i.i13.i.i.i.i.i.i
                                        //   Parent Loop BB68_157 Depth=1
                                        // =>  This Inner Loop Header: Depth=2
	add	x1, x20, x24
	sub	x2, x21, x24
	mov	w0, #1                          // =0x1
	sub	x25, x21, x24
	bl	write
	tbnz	x0, #63, .LBB68_199
// %bb.193:                             // %"text_runs::counted::Counted::put::<#cdc8ff12022c16a2>.exit.i18.i.i.i.i.i.i"
                                        //   in Loop: Header=BB68_192 Depth=2
	cmp	x0, x25
	csel	x8, x0, x25, lo
	cbz	x8, .LBB68_200
// %bb.194:                             // %loop.2.i.i21.i.i.i.i.i.i
                                        //   in Loop: Header=BB68_192 Depth=2
	add	x24, x8, x24
	cmp	x24, x21
	b.lo	.LBB68_192
// %bb.195:                             // %join.3.i.i.i.i.i.i.i.i.i
                                        //   in Loop: Header=BB68_157 Depth=1
	sub	x25, x29, #200
	str	xzr, [x25, #8]
.LBB68_196:                             // %join.9.i.i.i.i.i.i
                                        //   in Loop: Header=BB68_157 Depth=1
	add	x23, x23, #1
	cmn	x23, #1
	b.ne	.LBB68_157
	b	.LBB68_202
.LBB68_197:                             // %"std_alloc::vec::Vec::grow::<#5fdc5e19576447a7>.exit.i.i.i.i.i.i.i.i"
                                        //   in Loop: Header=BB68_157 Depth=1
	sub	x0, x29, #200
	bl	"std_alloc::vec::Vec::grow_amortized::<#5fdc5e19576447a7>"
	cbnz	w0, .LBB68_164
.LBB68_198:
	mov	w20, #2                         // =0x2
	ldr	x8, [x25, #16]
	cbnz	x8, .LBB68_201
	b	.LBB68_205
.LBB68_199:                             // %"text_runs::counted::Counted::put::<#cdc8ff12022c16a2>.exit.thread.i24.i.i.i.i.i.i"
	sub	x0, x29, #112
	bl	"std_io::io::error::last_error"
.LBB68_200:
	mov	w20, #1                         // =0x1
	sub	x25, x29, #200
	ldr	x8, [x25, #16]
	cbz	x8, .LBB68_205
.LBB68_201:                             // %then.1.i.i.i33.i.i.i.i.i.i
	ldr	x0, [x25]
	bl	rattle_dealloc
	b	.LBB68_205
.LBB68_202:                             // %after.1.i1.i.i.i.i.i
	ldr	x8, [x25, #16]
	cbz	x8, .LBB68_204
// %bb.203:                             // %then.1.i.i.i93.i.i.i.i.i.i
	mov	x0, x20
	bl	rattle_dealloc
.LBB68_204:                             // %"text_programs::programs::recode_stream::recode::<#357db40b776bb3e5>.exit.thread.i.i.i.i.i"
	mov	w20, wzr
.LBB68_205:                             // %arm.7.i.i24.i.i.i
	add	w0, w20, #1
	b	.LBB68_143
.LBB68_206:                             // %arm.10.i2.i.i.i.i.i
	movi	v0.2d, #0000000000000000
	str	xzr, [x25, #120]
	stur	q0, [x25, #88]
	stur	q0, [x25, #104]
	cbz	x8, .LBB68_217
// %bb.207:                             // %"recoding::recoder::Recoder::finish::<#e3b2a9d4d2861db8>.exit.i.i.i.i.i.i.i"
	ldur	q0, [x22, #8]
	str	x8, [x25, #56]
	sub	x0, x29, #112
	ldur	x8, [x22, #24]
	sub	x1, x29, #144
	sub	x2, x29, #200
	stur	q0, [x25, #64]
	str	x8, [x25, #80]
	bl	"recoding::recoder::Recoder::finish_held::<#e3b2a9d4d2861db8>"
	ldrb	w8, [x25, #88]
	cbz	w8, .LBB68_218
// %bb.208:
	mov	w21, wzr
	mov	w20, #2                         // =0x2
	b	.LBB68_227
.LBB68_209:                             // %arm.10.i.i.i.i.i
	cbz	x23, .LBB68_211
// %bb.210:                             // %then.1.i.i.i6.i.i.i.i.i
	mov	x0, x21
	bl	rattle_dealloc
.LBB68_211:                             // %then.13.i.i.i.i.i
	ldp	x19, x20, [x25, #88]
	ldr	x21, [x25, #104]
	cbz	x20, .LBB68_216
// %bb.212:                             // %join.5.i.i.i.i.i.i.i.i.i.i.preheader
	add	x22, x19, #16
	b	.LBB68_214
.LBB68_213:                             // %"core::mem::drop::<#f02d343d93693c10>.exit.i.i.i.i.i.i.i.i.i.i"
                                        //   in Loop: Header=BB68_214 Depth=1
	subs	x20, x20, #1
	add	x22, x22, #24
	b.eq	.LBB68_216
.LBB68_214:                             // %join.5.i.i.i.i.i.i.i.i.i.i
                                        // =>This Inner Loop Header: Depth=1
	ldr	x8, [x22]
	cbz	x8, .LBB68_213
// %bb.215:                             // %then.1.i.i.i.i.i.i.i.i.i.i.i.i.i.i.i
                                        //   in Loop: Header=BB68_214 Depth=1
	ldur	x0, [x22, #-16]
	bl	rattle_dealloc
	b	.LBB68_213
.LBB68_216:                             // %"std_alloc::vec::Vec::clear::<#4feeb2b446188e7f>.exit.i.i.i.i.i.i"
	cbnz	x21, .LBB68_125
	b	.LBB68_126
.LBB68_217:                             // %join.3.i3.i.thread.i.i.i.i.i
	mov	w20, wzr
	mov	w21, #1                         // =0x1
	b	.LBB68_227
.LBB68_218:                             // %join.3.i3.i.i.i.i.i.i
	ldr	x20, [x25, #8]
	cbz	x20, .LBB68_224
// %bb.219:                             // %join.5.i.i.i.i.i.i.i.i.preheader
	ldr	x22, [x25]
	mov	x23, xzr
.LBB68_220:                             // %join.5.i.i.i.i.i.i.i.i
                                        // =>This Inner Loop Header: Depth=1
	add	x1, x22, x23
	sub	x2, x20, x23
	mov	w0, #1                          // =0x1
	sub	x21, x20, x23
	bl	write
	tbnz	x0, #63, .LBB68_225
// %bb.221:                             // %"text_runs::counted::Counted::put::<#cdc8ff12022c16a2>.exit.i.i.i.i.i.i.i"
                                        //   in Loop: Header=BB68_220 Depth=1
	cmp	x0, x21
	csel	x8, x0, x21, lo
	cmp	x8, #0
	cset	w21, ne
	cbz	x8, .LBB68_226
// %bb.222:                             // %loop.2.i.i.i.i.i.i.i.i
                                        //   in Loop: Header=BB68_220 Depth=1
	add	x23, x8, x23
	cmp	x23, x20
	b.lo	.LBB68_220
// %bb.223:
	mov	w20, wzr
	b	.LBB68_227
.LBB68_224:
	mov	w21, #1                         // =0x1
	b	.LBB68_227
.LBB68_225:                             // %"text_runs::counted::Counted::put::<#cdc8ff12022c16a2>.exit.thread.i.i.i.i.i.i.i"
	sub	x0, x29, #112
	bl	"std_io::io::error::last_error"
	mov	w21, wzr
.LBB68_226:
	mov	w20, #1                         // =0x1
.LBB68_227:                             // %"text_programs::programs::recode_stream::write_end::<#c4d8ddccf98b9b73>.exit.i.i.i.i.i.i"
	ldr	x8, [x25, #16]
	cbz	x8, .LBB68_229
// %bb.228:                             // %then.1.i.i.i7.i.i.i.i.i.i
	ldr	x0, [x25]
	bl	rattle_dealloc
.LBB68_229:                             // %"text_programs::programs::recode_stream::recode::<#357db40b776bb3e5>.exit.i.i.i.i.i"
	cbz	w21, .LBB68_205
// %bb.230:                             // %join.5.i.i.i.i.i.i34.preheader.i.i.i
	ldr	x8, [x19, #16]
	cbz	x8, .LBB68_232
// %bb.231:                             // %then.1.i.i.i.i.i.i.i.i.i.i.i.i.i.i
	ldr	x0, [x19]
	bl	rattle_dealloc
.LBB68_232:                             // %"core::mem::drop::<#7f8a914b9c4d666d>.exit.i.i.i.i.i.i.i.i.i"
	ldr	x8, [x19, #40]
	cbz	x8, .LBB68_234
// %bb.233:                             // %then.1.i.i.i.i.i.i.i.i.i.i.i.1.i.i.i
	ldr	x0, [x19, #24]
	bl	rattle_dealloc
.LBB68_234:                             // %"core::mem::drop::<#7f8a914b9c4d666d>.exit.i.i.i.i.i.i.1.i.i.i"
	cbz	x26, .LBB68_236
// %bb.235:                             // %then.1.i.i.i.i.i.i.i
	mov	x0, x19
	bl	rattle_dealloc
.LBB68_236:
	mov	w20, wzr
	b	.LBB68_134
.LBB68_237:                             // %then.8.i.i.i.i.i.i.i.i
	add	x24, x26, x28
	sub	x23, x24, #1
	cbz	x25, .LBB68_239
// %bb.238:                             // %then.1.i.i.i.i.i.i.i.i.i.i.i.i
	mov	x0, x20
	bl	rattle_dealloc
.LBB68_239:                             // %"text_programs::std_alloc++string++String+Destruct::drop::<#e3b2a9d4d2861db8>.exit.i.i.i.i.i.i.i.i"
	cbz	x23, .LBB68_245
// %bb.240:                             // %join.3.i.i.i.i12.i.i.i.i.i.i.i.i
	add	x8, x21, #1
	add	x9, x24, x21
	cmp	x8, x9
	b.hs	.LBB68_245
// %bb.241:                             // %join.5.i.i.i.i.i35.i.i.i.i.i.i.i.i.preheader
	add	x8, x19, x27
	add	x20, x8, #40
	b	.LBB68_243
.LBB68_242:                             // %"core::mem::drop::<#7f8a914b9c4d666d>.exit.i.i.i.i.i44.i.i.i.i.i.i.i.i"
                                        //   in Loop: Header=BB68_243 Depth=1
	subs	x23, x23, #1
	add	x20, x20, #24
	b.eq	.LBB68_245
.LBB68_243:                             // %join.5.i.i.i.i.i35.i.i.i.i.i.i.i.i
                                        // =>This Inner Loop Header: Depth=1
	ldr	x8, [x20]
	cbz	x8, .LBB68_242
// %bb.244:                             // %then.1.i.i.i.i.i.i.i.i.i.i42.i.i.i.i.i.i.i.i
                                        //   in Loop: Header=BB68_243 Depth=1
	ldur	x0, [x20, #-16]
	bl	rattle_dealloc
	b	.LBB68_242
.LBB68_245:                             // %"std_alloc::vec::deque::VecDeque::clear::<#1ca9c52778c14e4e>.exit.i.i32.i.i.i.i.i.i.i.i"
	cbz	x22, .LBB68_247
// %bb.246:                             // %then.1.i.i.i.i.i34.i.i.i.i.i.i.i.i
	mov	x0, x19
	bl	rattle_dealloc
.LBB68_247:                             // %arm.2.i.i.i.i.i.i
	ldp	x19, x20, [sp]
	ldr	x21, [sp, #16]
	cbz	x20, .LBB68_252
// %bb.248:                             // %join.5.i.i.i.i.i.i.i8.i.i.i.i.preheader
	add	x22, x19, #16
	b	.LBB68_250
.LBB68_249:                             // %"core::mem::drop::<#7f8a914b9c4d666d>.exit.i.i.i.i.i.i.i.i.i.i.i"
                                        //   in Loop: Header=BB68_250 Depth=1
	subs	x20, x20, #1
	add	x22, x22, #24
	b.eq	.LBB68_252
.LBB68_250:                             // %join.5.i.i.i.i.i.i.i8.i.i.i.i
                                        // =>This Inner Loop Header: Depth=1
	ldr	x8, [x22]
	cbz	x8, .LBB68_249
// %bb.251:                             // %then.1.i.i.i.i.i.i.i.i.i.i.i.i.i.i.i.i
                                        //   in Loop: Header=BB68_250 Depth=1
	ldur	x0, [x22, #-16]
	bl	rattle_dealloc
	b	.LBB68_249
.LBB68_252:                             // %"std_alloc::vec::Vec::clear::<#1ca9c52778c14e4e>.exit.i.i.i.i.i.i.i"
	cbz	x21, .LBB68_254
// %bb.253:                             // %then.1.i.i.i.i.i.i.i.i.i
	mov	x0, x19
	bl	rattle_dealloc
.LBB68_254:                             // %arm.6.i.i.i.i
	mov	w8, #38                         // =0x26
	sub	x25, x29, #200
	b	.LBB68_127
.Lfunc_end68:
	.size	main, .Lfunc_end68-main
	.cfi_endproc
                                        // -- End function
	.type	.Lstatic.1,@object              // @static.1
	.section	.rodata..Lstatic.1,"a",@progbits
.Lstatic.1:
	.ascii	"recode"
	.size	.Lstatic.1, 6

	.type	.Lstatic.8,@object              // @static.8
	.section	.rodata..Lstatic.8,"a",@progbits
.Lstatic.8:
	.ascii	"\000\000\000\000\000\000\000\000\000\000\000\000\000\000\000\000\000\000\000\000\000\000\000\000\000\000\000\000\000\000\000\000\000\000\000\000\000\000\000\000\000\000\000\000\000\000\000\000\000\000\000\000\000\000\000\000\000\000\000\000\000\000\000\000\000\000\000\000\000\000\000\000\000\000\000\000\000\000\000\000\000\000\000\000\000\000\000\000\000\000\000\000\000\000\000\000\000\000\000\000\000\000\000\000\000\000\000\000\000\000\000\000\000\000\000\000\000\000\000\000\000\000\000\000\000\000\000\000\001\001\001\001\001\001\001\001\001\001\001\001\001\001\001\001\002\002\002\002\002\002\002\002\002\002\002\002\002\002\002\002\003\003\003\003\003\003\003\003\003\003\003\003\003\003\003\003\003\003\003\003\003\003\003\003\003\003\003\003\003\003\003\003\004\004\005\005\005\005\005\005\005\005\005\005\005\005\005\005\005\005\005\005\005\005\005\005\005\005\005\005\005\005\005\005\006\007\007\007\007\007\007\007\007\007\007\007\007\b\007\007\t\n\n\n\013\004\004\004\004\004\004\004\004\004\004\004"
	.size	.Lstatic.8, 256

	.type	.Lstatic.9,@object              // @static.9
	.section	.rodata..Lstatic.9,"a",@progbits
.Lstatic.9:
	.ascii	"\r\016\016\016\017\001\004\002\005\006\003\007\020\020\020\020\020\r\r\r\020\020\020\020\020\020\020\020\020\020\020\020\020\001\001\001\020\020\020\020\020\020\020\020\020\020\020\020\020\002\002\002\020\020\020\020\020\020\020\020\020\020\020\020\020\t\t\001\020\020\020\020\020\020\020\020\020\020\020\020\020\001\001\n\020\020\020\020\020\020\020\020\020\020\020\020\020\b\002\002\020\020\020\020\020\020\020\020\020\020\020\020\020\002\013\013\020\020\020\020\020\020\020\020\020\020\020\020\020\t\t\t\020\020\020\020\020\020\020\020\020\020\020\020\020\021\021\021\020\020\020\020\020\020\020\020\020\020\020\020\020\022\022\022\020\020\020\020\020\020\020\020\020\020\020\020\020\f\f\f\020\020\020\020\020\020\020\020\020\020\020\020\020\023\023\023\020\020\020\020\020\020\020\020\020\020\020\020"
	.size	.Lstatic.9, 208

	.type	.Lstatic.10,@object             // @static.10
	.section	.rodata..Lstatic.10,"a",@progbits
.Lstatic.10:
	.ascii	"\200\200\200\200\200\200\200\200\200\200\200\200\000\001\002\003\200\200\200\200\200\200\200\200\200\200\200\000\001\002\003\007\200\200\200\200\200\200\200\200\200\200\000\001\002\003\006\007\200\200\200\200\200\200\200\200\200\000\001\002\003\005\006\007\200\200\200\200\200\200\200\200\000\001\002\003\004\005\006\007\200\200\200\200\200\200\200\000\001\002\003\004\005\006\007\017\200\200\200\200\200\200\000\001\002\003\004\005\006\007\016\017\200\200\200\200\200\000\001\002\003\004\005\006\007\r\016\017\200\200\200\200\000\001\002\003\004\005\006\007\f\r\016\017\200\200\200\000\001\002\003\004\005\006\007\013\f\r\016\017\200\200\000\001\002\003\004\005\006\007\n\013\f\r\016\017\200\000\001\002\003\004\005\006\007\t\n\013\f\r\016\017\000\001\002\003\004\005\006\007\b\t\n\013\f\r\016\017"
	.size	.Lstatic.10, 208

	.type	.Lstatic.17,@object             // @static.17
	.section	.rodata..Lstatic.17,"a",@progbits
.Lstatic.17:
	.ascii	"\000\000\000\000\000\000\000\000\000\000\000\000\000\000\000\000\000\001\000\000\000\000\000\000\000\000\000\000\000\000\000\000\002\003\000\000\000\000\000\000\000\000\000\000\000\000\000\000\000\001\002\003\000\000\000\000\000\000\000\000\000\000\000\000\004\005\000\000\000\000\000\000\000\000\000\000\000\000\000\000\000\001\004\005\000\000\000\000\000\000\000\000\000\000\000\000\002\003\004\005\000\000\000\000\000\000\000\000\000\000\000\000\000\001\002\003\004\005\000\000\000\000\000\000\000\000\000\000\006\007\000\000\000\000\000\000\000\000\000\000\000\000\000\000\000\001\006\007\000\000\000\000\000\000\000\000\000\000\000\000\002\003\006\007\000\000\000\000\000\000\000\000\000\000\000\000\000\001\002\003\006\007\000\000\000\000\000\000\000\000\000\000\004\005\006\007\000\000\000\000\000\000\000\000\000\000\000\000\000\001\004\005\006\007\000\000\000\000\000\000\000\000\000\000\002\003\004\005\006\007\000\000\000\000\000\000\000\000\000\000\000\001\002\003\004\005\006\007\000\000\000\000\000\000\000\000\b\t\000\000\000\000\000\000\000\000\000\000\000\000\000\000\000\001\b\t\000\000\000\000\000\000\000\000\000\000\000\000\002\003\b\t\000\000\000\000\000\000\000\000\000\000\000\000\000\001\002\003\b\t\000\000\000\000\000\000\000\000\000\000\004\005\b\t\000\000\000\000\000\000\000\000\000\000\000\000\000\001\004\005\b\t\000\000\000\000\000\000\000\000\000\000\002\003\004\005\b\t\000\000\000\000\000\000\000\000\000\000\000\001\002\003\004\005\b\t\000\000\000\000\000\000\000\000\006\007\b\t\000\000\000\000\000\000\000\000\000\000\000\000\000\001\006\007\b\t\000\000\000\000\000\000\000\000\000\000\002\003\006\007\b\t\000\000\000\000\000\000\000\000\000\000\000\001\002\003\006\007\b\t\000\000\000\000\000\000\000\000\004\005\006\007\b\t\000\000\000\000\000\000\000\000\000\000\000\001\004\005\006\007\b\t\000\000\000\000\000\000\000\000\002\003\004\005\006\007\b\t\000\000\000\000\000\000\000\000\000\001\002\003\004\005\006\007\b\t\000\000\000\000\000\000\n\013\000\000\000\000\000\000\000\000\000\000\000\000\000\000\000\001\n\013\000\000\000\000\000\000\000\000\000\000\000\000\002\003\n\013\000\000\000\000\000\000\000\000\000\000\000\000\000\001\002\003\n\013\000\000\000\000\000\000\000\000\000\000\004\005\n\013\000\000\000\000\000\000\000\000\000\000\000\000\000\001\004\005\n\013\000\000\000\000\000\000\000\000\000\000\002\003\004\005\n\013\000\000\000\000\000\000\000\000\000\000\000\001\002\003\004\005\n\013\000\000\000\000\000\000\000\000\006\007\n\013\000\000\000\000\000\000\000\000\000\000\000\000\000\001\006\007\n\013\000\000\000\000\000\000\000\000\000\000\002\003\006\007\n\013\000\000\000\000\000\000\000\000\000\000\000\001\002\003\006\007\n\013\000\000\000\000\000\000\000\000\004\005\006\007\n\013\000\000\000\000\000\000\000\000\000\000\000\001\004\005\006\007\n\013\000\000\000\000\000\000\000\000\002\003\004\005\006\007\n\013\000\000\000\000\000\000\000\000\000\001\002\003\004\005\006\007\n\013\000\000\000\000\000\000\b\t\n\013\000\000\000\000\000\000\000\000\000\000\000\000\000\001\b\t\n\013\000\000\000\000\000\000\000\000\000\000\002\003\b\t\n\013\000\000\000\000\000\000\000\000\000\000\000\001\002\003\b\t\n\013\000\000\000\000\000\000\000\000\004\005\b\t\n\013\000\000\000\000\000\000\000\000\000\000\000\001\004\005\b\t\n\013\000\000\000\000\000\000\000\000\002\003\004\005\b\t\n\013\000\000\000\000\000\000\000\000\000\001\002\003\004\005\b\t\n\013\000\000\000\000\000\000\006\007\b\t\n\013\000\000\000\000\000\000\000\000\000\000\000\001\006\007\b\t\n\013\000\000\000\000\000\000\000\000\002\003\006\007\b\t\n\013\000\000\000\000\000\000\000\000\000\001\002\003\006\007\b\t\n\013\000\000\000\000\000\000\004\005\006\007\b\t\n\013\000\000\000\000\000\000\000\000\000\001\004\005\006\007\b\t\n\013\000\000\000\000\000\000\002\003\004\005\006\007\b\t\n\013\000\000\000\000\000\000\000\001\002\003\004\005\006\007\b\t\n\013\000\000\000\000\f\r\000\000\000\000\000\000\000\000\000\000\000\000\000\000\000\001\f\r\000\000\000\000\000\000\000\000\000\000\000\000\002\003\f\r\000\000\000\000\000\000\000\000\000\000\000\000\000\001\002\003\f\r\000\000\000\000\000\000\000\000\000\000\004\005\f\r\000\000\000\000\000\000\000\000\000\000\000\000\000\001\004\005\f\r\000\000\000\000\000\000\000\000\000\000\002\003\004\005\f\r\000\000\000\000\000\000\000\000\000\000\000\001\002\003\004\005\f\r\000\000\000\000\000\000\000\000\006\007\f\r\000\000\000\000\000\000\000\000\000\000\000\000\000\001\006\007\f\r\000\000\000\000\000\000\000\000\000\000\002\003\006\007\f\r\000\000\000\000\000\000\000\000\000\000\000\001\002\003\006\007\f\r\000\000\000\000\000\000\000\000\004\005\006\007\f\r\000\000\000\000\000\000\000\000\000\000\000\001\004\005\006\007\f\r\000\000\000\000\000\000\000\000\002\003\004\005\006\007\f\r\000\000\000\000\000\000\000\000\000\001\002\003\004\005\006\007\f\r\000\000\000\000\000\000\b\t\f\r\000\000\000\000\000\000\000\000\000\000\000\000\000\001\b\t\f\r\000\000\000\000\000\000\000\000\000\000\002\003\b\t\f\r\000\000\000\000\000\000\000\000\000\000\000\001\002\003\b\t\f\r\000\000\000\000\000\000\000\000\004\005\b\t\f\r\000\000\000\000\000\000\000\000\000\000\000\001\004\005\b\t\f\r\000\000\000\000\000\000\000\000\002\003\004\005\b\t\f\r\000\000\000\000\000\000\000\000\000\001\002\003\004\005\b\t\f\r\000\000\000\000\000\000\006\007\b\t\f\r\000\000\000\000\000\000\000\000\000\000\000\001\006\007\b\t\f\r\000\000\000\000\000\000\000\000\002\003\006\007\b\t\f\r\000\000\000\000\000\000\000\000\000\001\002\003\006\007\b\t\f\r\000\000\000\000\000\000\004\005\006\007\b\t\f\r\000\000\000\000\000\000\000\000\000\001\004\005\006\007\b\t\f\r\000\000\000\000\000\000\002\003\004\005\006\007\b\t\f\r\000\000\000\000\000\000\000\001\002\003\004\005\006\007\b\t\f\r\000\000\000\000\n\013\f\r\000\000\000\000\000\000\000\000\000\000\000\000\000\001\n\013\f\r\000\000\000\000\000\000\000\000\000\000\002\003\n\013\f\r\000\000\000\000\000\000\000\000\000\000\000\001\002\003\n\013\f\r\000\000\000\000\000\000\000\000\004\005\n\013\f\r\000\000\000\000\000\000\000\000\000\000\000\001\004\005\n\013\f\r\000\000\000\000\000\000\000\000\002\003\004\005\n\013\f\r\000\000\000\000\000\000\000\000\000\001\002\003\004\005\n\013\f\r\000\000\000\000\000\000\006\007\n\013\f\r\000\000\000\000\000\000\000\000\000\000\000\001\006\007\n\013\f\r\000\000\000\000\000\000\000\000\002\003\006\007\n\013\f\r\000\000\000\000\000\000\000\000\000\001\002\003\006\007\n\013\f\r\000\000\000\000\000\000\004\005\006\007\n\013\f\r\000\000\000\000\000\000\000\000\000\001\004\005\006\007\n\013\f\r\000\000\000\000\000\000\002\003\004\005\006\007\n\013\f\r\000\000\000\000\000\000\000\001\002\003\004\005\006\007\n\013\f\r\000\000\000\000\b\t\n\013\f\r\000\000\000\000\000\000\000\000\000\000\000\001\b\t\n\013\f\r\000\000\000\000\000\000\000\000\002\003\b\t\n\013\f\r\000\000\000\000\000\000\000\000\000\001\002\003\b\t\n\013\f\r\000\000\000\000\000\000\004\005\b\t\n\013\f\r\000\000\000\000\000\000\000\000\000\001\004\005\b\t\n\013\f\r\000\000\000\000\000\000\002\003\004\005\b\t\n\013\f\r\000\000\000\000\000\000\000\001\002\003\004\005\b\t\n\013\f\r\000\000\000\000\006\007\b\t\n\013\f\r\000\000\000\000\000\000\000\000\000\001\006\007\b\t\n\013\f\r\000\000\000\000\000\000\002\003\006\007\b\t\n\013\f\r\000\000\000\000\000\000\000\001\002\003\006\007\b\t\n\013\f\r\000\000\000\000\004\005\006\007\b\t\n\013\f\r\000\000\000\000\000\000\000\001\004\005\006\007\b\t\n\013\f\r\000\000\000\000\002\003\004\005\006\007\b\t\n\013\f\r\000\000\000\000\000\001\002\003\004\005\006\007\b\t\n\013\f\r\000\000\016\017\000\000\000\000\000\000\000\000\000\000\000\000\000\000\000\001\016\017\000\000\000\000\000\000\000\000\000\000\000\000\002\003\016\017\000\000\000\000\000\000\000\000\000\000\000\000\000\001\002\003\016\017\000\000\000\000\000\000\000\000\000\000\004\005\016\017\000\000\000\000\000\000\000\000\000\000\000\000\000\001\004\005\016\017\000\000\000\000\000\000\000\000\000\000\002\003\004\005\016\017\000\000\000\000\000\000\000\000\000\000\000\001\002\003\004\005\016\017\000\000\000\000\000\000\000\000\006\007\016\017\000\000\000\000\000\000\000\000\000\000\000\000\000\001\006\007\016\017\000\000\000\000\000\000\000\000\000\000\002\003\006\007\016\017\000\000\000\000\000\000\000\000\000\000\000\001\002\003\006\007\016\017\000\000\000\000\000\000\000\000\004\005\006\007\016\017\000\000\000\000\000\000\000\000\000\000\000\001\004\005\006\007\016\017\000\000\000\000\000\000\000\000\002\003\004\005\006\007\016\017\000\000\000\000\000\000\000\000\000\001\002\003\004\005\006\007\016\017\000\000\000\000\000\000\b\t\016\017\000\000\000\000\000\000\000\000\000\000\000\000\000\001\b\t\016\017\000\000\000\000\000\000\000\000\000\000\002\003\b\t\016\017\000\000\000\000\000\000\000\000\000\000\000\001\002\003\b\t\016\017\000\000\000\000\000\000\000\000\004\005\b\t\016\017\000\000\000\000\000\000\000\000\000\000\000\001\004\005\b\t\016\017\000\000\000\000\000\000\000\000\002\003\004\005\b\t\016\017\000\000\000\000\000\000\000\000\000\001\002\003\004\005\b\t\016\017\000\000\000\000\000\000\006\007\b\t\016\017\000\000\000\000\000\000\000\000\000\000\000\001\006\007\b\t\016\017\000\000\000\000\000\000\000\000\002\003\006\007\b\t\016\017\000\000\000\000\000\000\000\000\000\001\002\003\006\007\b\t\016\017\000\000\000\000\000\000\004\005\006\007\b\t\016\017\000\000\000\000\000\000\000\000\000\001\004\005\006\007\b\t\016\017\000\000\000\000\000\000\002\003\004\005\006\007\b\t\016\017\000\000\000\000\000\000\000\001\002\003\004\005\006\007\b\t\016\017\000\000\000\000\n\013\016\017\000\000\000\000\000\000\000\000\000\000\000\000\000\001\n\013\016\017\000\000\000\000\000\000\000\000\000\000\002\003\n\013\016\017\000\000\000\000\000\000\000\000\000\000\000\001\002\003\n\013\016\017\000\000\000\000\000\000\000\000\004\005\n\013\016\017\000\000\000\000\000\000\000\000\000\000\000\001\004\005\n\013\016\017\000\000\000\000\000\000\000\000\002\003\004\005\n\013\016\017\000\000\000\000\000\000\000\000\000\001\002\003\004\005\n\013\016\017\000\000\000\000\000\000\006\007\n\013\016\017\000\000\000\000\000\000\000\000\000\000\000\001\006\007\n\013\016\017\000\000\000\000\000\000\000\000\002\003\006\007\n\013\016\017\000\000\000\000\000\000\000\000\000\001\002\003\006\007\n\013\016\017\000\000\000\000\000\000\004\005\006\007\n\013\016\017\000\000\000\000\000\000\000\000\000\001\004\005\006\007\n\013\016\017\000\000\000\000\000\000\002\003\004\005\006\007\n\013\016\017\000\000\000\000\000\000\000\001\002\003\004\005\006\007\n\013\016\017\000\000\000\000\b\t\n\013\016\017\000\000\000\000\000\000\000\000\000\000\000\001\b\t\n\013\016\017\000\000\000\000\000\000\000\000\002\003\b\t\n\013\016\017\000\000\000\000\000\000\000\000\000\001\002\003\b\t\n\013\016\017\000\000\000\000\000\000\004\005\b\t\n\013\016\017\000\000\000\000\000\000\000\000\000\001\004\005\b\t\n\013\016\017\000\000\000\000\000\000\002\003\004\005\b\t\n\013\016\017\000\000\000\000\000\000\000\001\002\003\004\005\b\t\n\013\016\017\000\000\000\000\006\007\b\t\n\013\016\017\000\000\000\000\000\000\000\000\000\001\006\007\b\t\n\013\016\017\000\000\000\000\000\000\002\003\006\007\b\t\n\013\016\017\000\000\000\000\000\000\000\001\002\003\006\007\b\t\n\013\016\017\000\000\000\000\004\005\006\007\b\t\n\013\016\017\000\000\000\000\000\000\000\001\004\005\006\007\b\t\n\013\016\017\000\000\000\000\002\003\004\005\006\007\b\t\n\013\016\017\000\000\000\000\000\001\002\003\004\005\006\007\b\t\n\013\016\017\000\000\f\r\016\017\000\000\000\000\000\000\000\000\000\000\000\000\000\001\f\r\016\017\000\000\000\000\000\000\000\000\000\000\002\003\f\r\016\017\000\000\000\000\000\000\000\000\000\000\000\001\002\003\f\r\016\017\000\000\000\000\000\000\000\000\004\005\f\r\016\017\000\000\000\000\000\000\000\000\000\000\000\001\004\005\f\r\016\017\000\000\000\000\000\000\000\000\002\003\004\005\f\r\016\017\000\000\000\000\000\000\000\000\000\001\002\003\004\005\f\r\016\017\000\000\000\000\000\000\006\007\f\r\016\017\000\000\000\000\000\000\000\000\000\000\000\001\006\007\f\r\016\017\000\000\000\000\000\000\000\000\002\003\006\007\f\r\016\017\000\000\000\000\000\000\000\000\000\001\002\003\006\007\f\r\016\017\000\000\000\000\000\000\004\005\006\007\f\r\016\017\000\000\000\000\000\000\000\000\000\001\004\005\006\007\f\r\016\017\000\000\000\000\000\000\002\003\004\005\006\007\f\r\016\017\000\000\000\000\000\000\000\001\002\003\004\005\006\007\f\r\016\017\000\000\000\000\b\t\f\r\016\017\000\000\000\000\000\000\000\000\000\000\000\001\b\t\f\r\016\017\000\000\000\000\000\000\000\000\002\003\b\t\f\r\016\017\000\000\000\000\000\000\000\000\000\001\002\003\b\t\f\r\016\017\000\000\000\000\000\000\004\005\b\t\f\r\016\017\000\000\000\000\000\000\000\000\000\001\004\005\b\t\f\r\016\017\000\000\000\000\000\000\002\003\004\005\b\t\f\r\016\017\000\000\000\000\000\000\000\001\002\003\004\005\b\t\f\r\016\017\000\000\000\000\006\007\b\t\f\r\016\017\000\000\000\000\000\000\000\000\000\001\006\007\b\t\f\r\016\017\000\000\000\000\000\000\002\003\006\007\b\t\f\r\016\017\000\000\000\000\000\000\000\001\002\003\006\007\b\t\f\r\016\017\000\000\000\000\004\005\006\007\b\t\f\r\016\017\000\000\000\000\000\000\000\001\004\005\006\007\b\t\f\r\016\017\000\000\000\000\002\003\004\005\006\007\b\t\f\r\016\017\000\000\000\000\000\001\002\003\004\005\006\007\b\t\f\r\016\017\000\000\n\013\f\r\016\017\000\000\000\000\000\000\000\000\000\000\000\001\n\013\f\r\016\017\000\000\000\000\000\000\000\000\002\003\n\013\f\r\016\017\000\000\000\000\000\000\000\000\000\001\002\003\n\013\f\r\016\017\000\000\000\000\000\000\004\005\n\013\f\r\016\017\000\000\000\000\000\000\000\000\000\001\004\005\n\013\f\r\016\017\000\000\000\000\000\000\002\003\004\005\n\013\f\r\016\017\000\000\000\000\000\000\000\001\002\003\004\005\n\013\f\r\016\017\000\000\000\000\006\007\n\013\f\r\016\017\000\000\000\000\000\000\000\000\000\001\006\007\n\013\f\r\016\017\000\000\000\000\000\000\002\003\006\007\n\013\f\r\016\017\000\000\000\000\000\000\000\001\002\003\006\007\n\013\f\r\016\017\000\000\000\000\004\005\006\007\n\013\f\r\016\017\000\000\000\000\000\000\000\001\004\005\006\007\n\013\f\r\016\017\000\000\000\000\002\003\004\005\006\007\n\013\f\r\016\017\000\000\000\000\000\001\002\003\004\005\006\007\n\013\f\r\016\017\000\000\b\t\n\013\f\r\016\017\000\000\000\000\000\000\000\000\000\001\b\t\n\013\f\r\016\017\000\000\000\000\000\000\002\003\b\t\n\013\f\r\016\017\000\000\000\000\000\000\000\001\002\003\b\t\n\013\f\r\016\017\000\000\000\000\004\005\b\t\n\013\f\r\016\017\000\000\000\000\000\000\000\001\004\005\b\t\n\013\f\r\016\017\000\000\000\000\002\003\004\005\b\t\n\013\f\r\016\017\000\000\000\000\000\001\002\003\004\005\b\t\n\013\f\r\016\017\000\000\006\007\b\t\n\013\f\r\016\017\000\000\000\000\000\000\000\001\006\007\b\t\n\013\f\r\016\017\000\000\000\000\002\003\006\007\b\t\n\013\f\r\016\017\000\000\000\000\000\001\002\003\006\007\b\t\n\013\f\r\016\017\000\000\004\005\006\007\b\t\n\013\f\r\016\017\000\000\000\000\000\001\004\005\006\007\b\t\n\013\f\r\016\017\000\000\002\003\004\005\006\007\b\t\n\013\f\r\016\017\000\000\000\001\002\003\004\005\006\007\b\t\n\013\f\r\016\017"
	.size	.Lstatic.17, 4096

	.type	.Lstatic.19,@object             // @static.19
	.section	.rodata..Lstatic.19,"a",@progbits
.Lstatic.19:
	.ascii	"\001\003\005\007\t\013\r\017\000\000\000\000\000\000\000\000\000\001\003\005\007\t\013\r\017\000\000\000\000\000\000\000\001\002\003\005\007\t\013\r\017\000\000\000\000\000\000\000\000\001\002\003\005\007\t\013\r\017\000\000\000\000\000\000\001\003\004\005\007\t\013\r\017\000\000\000\000\000\000\000\000\001\003\004\005\007\t\013\r\017\000\000\000\000\000\000\001\002\003\004\005\007\t\013\r\017\000\000\000\000\000\000\000\001\002\003\004\005\007\t\013\r\017\000\000\000\000\000\001\003\005\006\007\t\013\r\017\000\000\000\000\000\000\000\000\001\003\005\006\007\t\013\r\017\000\000\000\000\000\000\001\002\003\005\006\007\t\013\r\017\000\000\000\000\000\000\000\001\002\003\005\006\007\t\013\r\017\000\000\000\000\000\001\003\004\005\006\007\t\013\r\017\000\000\000\000\000\000\000\001\003\004\005\006\007\t\013\r\017\000\000\000\000\000\001\002\003\004\005\006\007\t\013\r\017\000\000\000\000\000\000\001\002\003\004\005\006\007\t\013\r\017\000\000\000\000\001\003\005\007\b\t\013\r\017\000\000\000\000\000\000\000\000\001\003\005\007\b\t\013\r\017\000\000\000\000\000\000\001\002\003\005\007\b\t\013\r\017\000\000\000\000\000\000\000\001\002\003\005\007\b\t\013\r\017\000\000\000\000\000\001\003\004\005\007\b\t\013\r\017\000\000\000\000\000\000\000\001\003\004\005\007\b\t\013\r\017\000\000\000\000\000\001\002\003\004\005\007\b\t\013\r\017\000\000\000\000\000\000\001\002\003\004\005\007\b\t\013\r\017\000\000\000\000\001\003\005\006\007\b\t\013\r\017\000\000\000\000\000\000\000\001\003\005\006\007\b\t\013\r\017\000\000\000\000\000\001\002\003\005\006\007\b\t\013\r\017\000\000\000\000\000\000\001\002\003\005\006\007\b\t\013\r\017\000\000\000\000\001\003\004\005\006\007\b\t\013\r\017\000\000\000\000\000\000\001\003\004\005\006\007\b\t\013\r\017\000\000\000\000\001\002\003\004\005\006\007\b\t\013\r\017\000\000\000\000\000\001\002\003\004\005\006\007\b\t\013\r\017\000\000\000\001\003\005\007\t\n\013\r\017\000\000\000\000\000\000\000\000\001\003\005\007\t\n\013\r\017\000\000\000\000\000\000\001\002\003\005\007\t\n\013\r\017\000\000\000\000\000\000\000\001\002\003\005\007\t\n\013\r\017\000\000\000\000\000\001\003\004\005\007\t\n\013\r\017\000\000\000\000\000\000\000\001\003\004\005\007\t\n\013\r\017\000\000\000\000\000\001\002\003\004\005\007\t\n\013\r\017\000\000\000\000\000\000\001\002\003\004\005\007\t\n\013\r\017\000\000\000\000\001\003\005\006\007\t\n\013\r\017\000\000\000\000\000\000\000\001\003\005\006\007\t\n\013\r\017\000\000\000\000\000\001\002\003\005\006\007\t\n\013\r\017\000\000\000\000\000\000\001\002\003\005\006\007\t\n\013\r\017\000\000\000\000\001\003\004\005\006\007\t\n\013\r\017\000\000\000\000\000\000\001\003\004\005\006\007\t\n\013\r\017\000\000\000\000\001\002\003\004\005\006\007\t\n\013\r\017\000\000\000\000\000\001\002\003\004\005\006\007\t\n\013\r\017\000\000\000\001\003\005\007\b\t\n\013\r\017\000\000\000\000\000\000\000\001\003\005\007\b\t\n\013\r\017\000\000\000\000\000\001\002\003\005\007\b\t\n\013\r\017\000\000\000\000\000\000\001\002\003\005\007\b\t\n\013\r\017\000\000\000\000\001\003\004\005\007\b\t\n\013\r\017\000\000\000\000\000\000\001\003\004\005\007\b\t\n\013\r\017\000\000\000\000\001\002\003\004\005\007\b\t\n\013\r\017\000\000\000\000\000\001\002\003\004\005\007\b\t\n\013\r\017\000\000\000\001\003\005\006\007\b\t\n\013\r\017\000\000\000\000\000\000\001\003\005\006\007\b\t\n\013\r\017\000\000\000\000\001\002\003\005\006\007\b\t\n\013\r\017\000\000\000\000\000\001\002\003\005\006\007\b\t\n\013\r\017\000\000\000\001\003\004\005\006\007\b\t\n\013\r\017\000\000\000\000\000\001\003\004\005\006\007\b\t\n\013\r\017\000\000\000\001\002\003\004\005\006\007\b\t\n\013\r\017\000\000\000\000\001\002\003\004\005\006\007\b\t\n\013\r\017\000\000\001\003\005\007\t\013\f\r\017\000\000\000\000\000\000\000\000\001\003\005\007\t\013\f\r\017\000\000\000\000\000\000\001\002\003\005\007\t\013\f\r\017\000\000\000\000\000\000\000\001\002\003\005\007\t\013\f\r\017\000\000\000\000\000\001\003\004\005\007\t\013\f\r\017\000\000\000\000\000\000\000\001\003\004\005\007\t\013\f\r\017\000\000\000\000\000\001\002\003\004\005\007\t\013\f\r\017\000\000\000\000\000\000\001\002\003\004\005\007\t\013\f\r\017\000\000\000\000\001\003\005\006\007\t\013\f\r\017\000\000\000\000\000\000\000\001\003\005\006\007\t\013\f\r\017\000\000\000\000\000\001\002\003\005\006\007\t\013\f\r\017\000\000\000\000\000\000\001\002\003\005\006\007\t\013\f\r\017\000\000\000\000\001\003\004\005\006\007\t\013\f\r\017\000\000\000\000\000\000\001\003\004\005\006\007\t\013\f\r\017\000\000\000\000\001\002\003\004\005\006\007\t\013\f\r\017\000\000\000\000\000\001\002\003\004\005\006\007\t\013\f\r\017\000\000\000\001\003\005\007\b\t\013\f\r\017\000\000\000\000\000\000\000\001\003\005\007\b\t\013\f\r\017\000\000\000\000\000\001\002\003\005\007\b\t\013\f\r\017\000\000\000\000\000\000\001\002\003\005\007\b\t\013\f\r\017\000\000\000\000\001\003\004\005\007\b\t\013\f\r\017\000\000\000\000\000\000\001\003\004\005\007\b\t\013\f\r\017\000\000\000\000\001\002\003\004\005\007\b\t\013\f\r\017\000\000\000\000\000\001\002\003\004\005\007\b\t\013\f\r\017\000\000\000\001\003\005\006\007\b\t\013\f\r\017\000\000\000\000\000\000\001\003\005\006\007\b\t\013\f\r\017\000\000\000\000\001\002\003\005\006\007\b\t\013\f\r\017\000\000\000\000\000\001\002\003\005\006\007\b\t\013\f\r\017\000\000\000\001\003\004\005\006\007\b\t\013\f\r\017\000\000\000\000\000\001\003\004\005\006\007\b\t\013\f\r\017\000\000\000\001\002\003\004\005\006\007\b\t\013\f\r\017\000\000\000\000\001\002\003\004\005\006\007\b\t\013\f\r\017\000\000\001\003\005\007\t\n\013\f\r\017\000\000\000\000\000\000\000\001\003\005\007\t\n\013\f\r\017\000\000\000\000\000\001\002\003\005\007\t\n\013\f\r\017\000\000\000\000\000\000\001\002\003\005\007\t\n\013\f\r\017\000\000\000\000\001\003\004\005\007\t\n\013\f\r\017\000\000\000\000\000\000\001\003\004\005\007\t\n\013\f\r\017\000\000\000\000\001\002\003\004\005\007\t\n\013\f\r\017\000\000\000\000\000\001\002\003\004\005\007\t\n\013\f\r\017\000\000\000\001\003\005\006\007\t\n\013\f\r\017\000\000\000\000\000\000\001\003\005\006\007\t\n\013\f\r\017\000\000\000\000\001\002\003\005\006\007\t\n\013\f\r\017\000\000\000\000\000\001\002\003\005\006\007\t\n\013\f\r\017\000\000\000\001\003\004\005\006\007\t\n\013\f\r\017\000\000\000\000\000\001\003\004\005\006\007\t\n\013\f\r\017\000\000\000\001\002\003\004\005\006\007\t\n\013\f\r\017\000\000\000\000\001\002\003\004\005\006\007\t\n\013\f\r\017\000\000\001\003\005\007\b\t\n\013\f\r\017\000\000\000\000\000\000\001\003\005\007\b\t\n\013\f\r\017\000\000\000\000\001\002\003\005\007\b\t\n\013\f\r\017\000\000\000\000\000\001\002\003\005\007\b\t\n\013\f\r\017\000\000\000\001\003\004\005\007\b\t\n\013\f\r\017\000\000\000\000\000\001\003\004\005\007\b\t\n\013\f\r\017\000\000\000\001\002\003\004\005\007\b\t\n\013\f\r\017\000\000\000\000\001\002\003\004\005\007\b\t\n\013\f\r\017\000\000\001\003\005\006\007\b\t\n\013\f\r\017\000\000\000\000\000\001\003\005\006\007\b\t\n\013\f\r\017\000\000\000\001\002\003\005\006\007\b\t\n\013\f\r\017\000\000\000\000\001\002\003\005\006\007\b\t\n\013\f\r\017\000\000\001\003\004\005\006\007\b\t\n\013\f\r\017\000\000\000\000\001\003\004\005\006\007\b\t\n\013\f\r\017\000\000\001\002\003\004\005\006\007\b\t\n\013\f\r\017\000\000\000\001\002\003\004\005\006\007\b\t\n\013\f\r\017\000\001\003\005\007\t\013\r\016\017\000\000\000\000\000\000\000\000\001\003\005\007\t\013\r\016\017\000\000\000\000\000\000\001\002\003\005\007\t\013\r\016\017\000\000\000\000\000\000\000\001\002\003\005\007\t\013\r\016\017\000\000\000\000\000\001\003\004\005\007\t\013\r\016\017\000\000\000\000\000\000\000\001\003\004\005\007\t\013\r\016\017\000\000\000\000\000\001\002\003\004\005\007\t\013\r\016\017\000\000\000\000\000\000\001\002\003\004\005\007\t\013\r\016\017\000\000\000\000\001\003\005\006\007\t\013\r\016\017\000\000\000\000\000\000\000\001\003\005\006\007\t\013\r\016\017\000\000\000\000\000\001\002\003\005\006\007\t\013\r\016\017\000\000\000\000\000\000\001\002\003\005\006\007\t\013\r\016\017\000\000\000\000\001\003\004\005\006\007\t\013\r\016\017\000\000\000\000\000\000\001\003\004\005\006\007\t\013\r\016\017\000\000\000\000\001\002\003\004\005\006\007\t\013\r\016\017\000\000\000\000\000\001\002\003\004\005\006\007\t\013\r\016\017\000\000\000\001\003\005\007\b\t\013\r\016\017\000\000\000\000\000\000\000\001\003\005\007\b\t\013\r\016\017\000\000\000\000\000\001\002\003\005\007\b\t\013\r\016\017\000\000\000\000\000\000\001\002\003\005\007\b\t\013\r\016\017\000\000\000\000\001\003\004\005\007\b\t\013\r\016\017\000\000\000\000\000\000\001\003\004\005\007\b\t\013\r\016\017\000\000\000\000\001\002\003\004\005\007\b\t\013\r\016\017\000\000\000\000\000\001\002\003\004\005\007\b\t\013\r\016\017\000\000\000\001\003\005\006\007\b\t\013\r\016\017\000\000\000\000\000\000\001\003\005\006\007\b\t\013\r\016\017\000\000\000\000\001\002\003\005\006\007\b\t\013\r\016\017\000\000\000\000\000\001\002\003\005\006\007\b\t\013\r\016\017\000\000\000\001\003\004\005\006\007\b\t\013\r\016\017\000\000\000\000\000\001\003\004\005\006\007\b\t\013\r\016\017\000\000\000\001\002\003\004\005\006\007\b\t\013\r\016\017\000\000\000\000\001\002\003\004\005\006\007\b\t\013\r\016\017\000\000\001\003\005\007\t\n\013\r\016\017\000\000\000\000\000\000\000\001\003\005\007\t\n\013\r\016\017\000\000\000\000\000\001\002\003\005\007\t\n\013\r\016\017\000\000\000\000\000\000\001\002\003\005\007\t\n\013\r\016\017\000\000\000\000\001\003\004\005\007\t\n\013\r\016\017\000\000\000\000\000\000\001\003\004\005\007\t\n\013\r\016\017\000\000\000\000\001\002\003\004\005\007\t\n\013\r\016\017\000\000\000\000\000\001\002\003\004\005\007\t\n\013\r\016\017\000\000\000\001\003\005\006\007\t\n\013\r\016\017\000\000\000\000\000\000\001\003\005\006\007\t\n\013\r\016\017\000\000\000\000\001\002\003\005\006\007\t\n\013\r\016\017\000\000\000\000\000\001\002\003\005\006\007\t\n\013\r\016\017\000\000\000\001\003\004\005\006\007\t\n\013\r\016\017\000\000\000\000\000\001\003\004\005\006\007\t\n\013\r\016\017\000\000\000\001\002\003\004\005\006\007\t\n\013\r\016\017\000\000\000\000\001\002\003\004\005\006\007\t\n\013\r\016\017\000\000\001\003\005\007\b\t\n\013\r\016\017\000\000\000\000\000\000\001\003\005\007\b\t\n\013\r\016\017\000\000\000\000\001\002\003\005\007\b\t\n\013\r\016\017\000\000\000\000\000\001\002\003\005\007\b\t\n\013\r\016\017\000\000\000\001\003\004\005\007\b\t\n\013\r\016\017\000\000\000\000\000\001\003\004\005\007\b\t\n\013\r\016\017\000\000\000\001\002\003\004\005\007\b\t\n\013\r\016\017\000\000\000\000\001\002\003\004\005\007\b\t\n\013\r\016\017\000\000\001\003\005\006\007\b\t\n\013\r\016\017\000\000\000\000\000\001\003\005\006\007\b\t\n\013\r\016\017\000\000\000\001\002\003\005\006\007\b\t\n\013\r\016\017\000\000\000\000\001\002\003\005\006\007\b\t\n\013\r\016\017\000\000\001\003\004\005\006\007\b\t\n\013\r\016\017\000\000\000\000\001\003\004\005\006\007\b\t\n\013\r\016\017\000\000\001\002\003\004\005\006\007\b\t\n\013\r\016\017\000\000\000\001\002\003\004\005\006\007\b\t\n\013\r\016\017\000\001\003\005\007\t\013\f\r\016\017\000\000\000\000\000\000\000\001\003\005\007\t\013\f\r\016\017\000\000\000\000\000\001\002\003\005\007\t\013\f\r\016\017\000\000\000\000\000\000\001\002\003\005\007\t\013\f\r\016\017\000\000\000\000\001\003\004\005\007\t\013\f\r\016\017\000\000\000\000\000\000\001\003\004\005\007\t\013\f\r\016\017\000\000\000\000\001\002\003\004\005\007\t\013\f\r\016\017\000\000\000\000\000\001\002\003\004\005\007\t\013\f\r\016\017\000\000\000\001\003\005\006\007\t\013\f\r\016\017\000\000\000\000\000\000\001\003\005\006\007\t\013\f\r\016\017\000\000\000\000\001\002\003\005\006\007\t\013\f\r\016\017\000\000\000\000\000\001\002\003\005\006\007\t\013\f\r\016\017\000\000\000\001\003\004\005\006\007\t\013\f\r\016\017\000\000\000\000\000\001\003\004\005\006\007\t\013\f\r\016\017\000\000\000\001\002\003\004\005\006\007\t\013\f\r\016\017\000\000\000\000\001\002\003\004\005\006\007\t\013\f\r\016\017\000\000\001\003\005\007\b\t\013\f\r\016\017\000\000\000\000\000\000\001\003\005\007\b\t\013\f\r\016\017\000\000\000\000\001\002\003\005\007\b\t\013\f\r\016\017\000\000\000\000\000\001\002\003\005\007\b\t\013\f\r\016\017\000\000\000\001\003\004\005\007\b\t\013\f\r\016\017\000\000\000\000\000\001\003\004\005\007\b\t\013\f\r\016\017\000\000\000\001\002\003\004\005\007\b\t\013\f\r\016\017\000\000\000\000\001\002\003\004\005\007\b\t\013\f\r\016\017\000\000\001\003\005\006\007\b\t\013\f\r\016\017\000\000\000\000\000\001\003\005\006\007\b\t\013\f\r\016\017\000\000\000\001\002\003\005\006\007\b\t\013\f\r\016\017\000\000\000\000\001\002\003\005\006\007\b\t\013\f\r\016\017\000\000\001\003\004\005\006\007\b\t\013\f\r\016\017\000\000\000\000\001\003\004\005\006\007\b\t\013\f\r\016\017\000\000\001\002\003\004\005\006\007\b\t\013\f\r\016\017\000\000\000\001\002\003\004\005\006\007\b\t\013\f\r\016\017\000\001\003\005\007\t\n\013\f\r\016\017\000\000\000\000\000\000\001\003\005\007\t\n\013\f\r\016\017\000\000\000\000\001\002\003\005\007\t\n\013\f\r\016\017\000\000\000\000\000\001\002\003\005\007\t\n\013\f\r\016\017\000\000\000\001\003\004\005\007\t\n\013\f\r\016\017\000\000\000\000\000\001\003\004\005\007\t\n\013\f\r\016\017\000\000\000\001\002\003\004\005\007\t\n\013\f\r\016\017\000\000\000\000\001\002\003\004\005\007\t\n\013\f\r\016\017\000\000\001\003\005\006\007\t\n\013\f\r\016\017\000\000\000\000\000\001\003\005\006\007\t\n\013\f\r\016\017\000\000\000\001\002\003\005\006\007\t\n\013\f\r\016\017\000\000\000\000\001\002\003\005\006\007\t\n\013\f\r\016\017\000\000\001\003\004\005\006\007\t\n\013\f\r\016\017\000\000\000\000\001\003\004\005\006\007\t\n\013\f\r\016\017\000\000\001\002\003\004\005\006\007\t\n\013\f\r\016\017\000\000\000\001\002\003\004\005\006\007\t\n\013\f\r\016\017\000\001\003\005\007\b\t\n\013\f\r\016\017\000\000\000\000\000\001\003\005\007\b\t\n\013\f\r\016\017\000\000\000\001\002\003\005\007\b\t\n\013\f\r\016\017\000\000\000\000\001\002\003\005\007\b\t\n\013\f\r\016\017\000\000\001\003\004\005\007\b\t\n\013\f\r\016\017\000\000\000\000\001\003\004\005\007\b\t\n\013\f\r\016\017\000\000\001\002\003\004\005\007\b\t\n\013\f\r\016\017\000\000\000\001\002\003\004\005\007\b\t\n\013\f\r\016\017\000\001\003\005\006\007\b\t\n\013\f\r\016\017\000\000\000\000\001\003\005\006\007\b\t\n\013\f\r\016\017\000\000\001\002\003\005\006\007\b\t\n\013\f\r\016\017\000\000\000\001\002\003\005\006\007\b\t\n\013\f\r\016\017\000\001\003\004\005\006\007\b\t\n\013\f\r\016\017\000\000\000\001\003\004\005\006\007\b\t\n\013\f\r\016\017\000\001\002\003\004\005\006\007\b\t\n\013\f\r\016\017\000\000\001\002\003\004\005\006\007\b\t\n\013\f\r\016\017"
	.size	.Lstatic.19, 4096

	.type	.Lstatic.20,@object             // @static.20
	.section	.rodata..Lstatic.20,"a",@progbits
.Lstatic.20:
	.asciz	"\001\005\t\r\000\000\000\000\000\000\000\000\000\000\000\000\000\001\005\t\r\000\000\000\000\000\000\000\000\000\000\000\002\001\005\t\r\000\000\000\000\000\000\000\000\000\000\000\000\002\001\005\t\r\000\000\000\000\000\000\000\000\000\000\001\004\005\t\r\000\000\000\000\000\000\000\000\000\000\000\000\001\004\005\t\r\000\000\000\000\000\000\000\000\000\000\002\001\004\005\t\r\000\000\000\000\000\000\000\000\000\000\000\002\001\004\005\t\r\000\000\000\000\000\000\000\000\000\001\006\005\t\r\000\000\000\000\000\000\000\000\000\000\000\000\001\006\005\t\r\000\000\000\000\000\000\000\000\000\000\002\001\006\005\t\r\000\000\000\000\000\000\000\000\000\000\000\002\001\006\005\t\r\000\000\000\000\000\000\000\000\000\001\004\006\005\t\r\000\000\000\000\000\000\000\000\000\000\000\001\004\006\005\t\r\000\000\000\000\000\000\000\000\000\002\001\004\006\005\t\r\000\000\000\000\000\000\000\000\000\000\002\001\004\006\005\t\r\000\000\000\000\000\000\000\000\001\005\b\t\r\000\000\000\000\000\000\000\000\000\000\000\000\001\005\b\t\r\000\000\000\000\000\000\000\000\000\000\002\001\005\b\t\r\000\000\000\000\000\000\000\000\000\000\000\002\001\005\b\t\r\000\000\000\000\000\000\000\000\000\001\004\005\b\t\r\000\000\000\000\000\000\000\000\000\000\000\001\004\005\b\t\r\000\000\000\000\000\000\000\000\000\002\001\004\005\b\t\r\000\000\000\000\000\000\000\000\000\000\002\001\004\005\b\t\r\000\000\000\000\000\000\000\000\001\006\005\b\t\r\000\000\000\000\000\000\000\000\000\000\000\001\006\005\b\t\r\000\000\000\000\000\000\000\000\000\002\001\006\005\b\t\r\000\000\000\000\000\000\000\000\000\000\002\001\006\005\b\t\r\000\000\000\000\000\000\000\000\001\004\006\005\b\t\r\000\000\000\000\000\000\000\000\000\000\001\004\006\005\b\t\r\000\000\000\000\000\000\000\000\002\001\004\006\005\b\t\r\000\000\000\000\000\000\000\000\000\002\001\004\006\005\b\t\r\000\000\000\000\000\000\000\001\005\n\t\r\000\000\000\000\000\000\000\000\000\000\000\000\001\005\n\t\r\000\000\000\000\000\000\000\000\000\000\002\001\005\n\t\r\000\000\000\000\000\000\000\000\000\000\000\002\001\005\n\t\r\000\000\000\000\000\000\000\000\000\001\004\005\n\t\r\000\000\000\000\000\000\000\000\000\000\000\001\004\005\n\t\r\000\000\000\000\000\000\000\000\000\002\001\004\005\n\t\r\000\000\000\000\000\000\000\000\000\000\002\001\004\005\n\t\r\000\000\000\000\000\000\000\000\001\006\005\n\t\r\000\000\000\000\000\000\000\000\000\000\000\001\006\005\n\t\r\000\000\000\000\000\000\000\000\000\002\001\006\005\n\t\r\000\000\000\000\000\000\000\000\000\000\002\001\006\005\n\t\r\000\000\000\000\000\000\000\000\001\004\006\005\n\t\r\000\000\000\000\000\000\000\000\000\000\001\004\006\005\n\t\r\000\000\000\000\000\000\000\000\002\001\004\006\005\n\t\r\000\000\000\000\000\000\000\000\000\002\001\004\006\005\n\t\r\000\000\000\000\000\000\000\001\005\b\n\t\r\000\000\000\000\000\000\000\000\000\000\000\001\005\b\n\t\r\000\000\000\000\000\000\000\000\000\002\001\005\b\n\t\r\000\000\000\000\000\000\000\000\000\000\002\001\005\b\n\t\r\000\000\000\000\000\000\000\000\001\004\005\b\n\t\r\000\000\000\000\000\000\000\000\000\000\001\004\005\b\n\t\r\000\000\000\000\000\000\000\000\002\001\004\005\b\n\t\r\000\000\000\000\000\000\000\000\000\002\001\004\005\b\n\t\r\000\000\000\000\000\000\000\001\006\005\b\n\t\r\000\000\000\000\000\000\000\000\000\000\001\006\005\b\n\t\r\000\000\000\000\000\000\000\000\002\001\006\005\b\n\t\r\000\000\000\000\000\000\000\000\000\002\001\006\005\b\n\t\r\000\000\000\000\000\000\000\001\004\006\005\b\n\t\r\000\000\000\000\000\000\000\000\000\001\004\006\005\b\n\t\r\000\000\000\000\000\000\000\002\001\004\006\005\b\n\t\r\000\000\000\000\000\000\000\000\002\001\004\006\005\b\n\t\r\000\000\000\000\000\000\001\005\t\f\r\000\000\000\000\000\000\000\000\000\000\000\000\001\005\t\f\r\000\000\000\000\000\000\000\000\000\000\002\001\005\t\f\r\000\000\000\000\000\000\000\000\000\000\000\002\001\005\t\f\r\000\000\000\000\000\000\000\000\000\001\004\005\t\f\r\000\000\000\000\000\000\000\000\000\000\000\001\004\005\t\f\r\000\000\000\000\000\000\000\000\000\002\001\004\005\t\f\r\000\000\000\000\000\000\000\000\000\000\002\001\004\005\t\f\r\000\000\000\000\000\000\000\000\001\006\005\t\f\r\000\000\000\000\000\000\000\000\000\000\000\001\006\005\t\f\r\000\000\000\000\000\000\000\000\000\002\001\006\005\t\f\r\000\000\000\000\000\000\000\000\000\000\002\001\006\005\t\f\r\000\000\000\000\000\000\000\000\001\004\006\005\t\f\r\000\000\000\000\000\000\000\000\000\000\001\004\006\005\t\f\r\000\000\000\000\000\000\000\000\002\001\004\006\005\t\f\r\000\000\000\000\000\000\000\000\000\002\001\004\006\005\t\f\r\000\000\000\000\000\000\000\001\005\b\t\f\r\000\000\000\000\000\000\000\000\000\000\000\001\005\b\t\f\r\000\000\000\000\000\000\000\000\000\002\001\005\b\t\f\r\000\000\000\000\000\000\000\000\000\000\002\001\005\b\t\f\r\000\000\000\000\000\000\000\000\001\004\005\b\t\f\r\000\000\000\000\000\000\000\000\000\000\001\004\005\b\t\f\r\000\000\000\000\000\000\000\000\002\001\004\005\b\t\f\r\000\000\000\000\000\000\000\000\000\002\001\004\005\b\t\f\r\000\000\000\000\000\000\000\001\006\005\b\t\f\r\000\000\000\000\000\000\000\000\000\000\001\006\005\b\t\f\r\000\000\000\000\000\000\000\000\002\001\006\005\b\t\f\r\000\000\000\000\000\000\000\000\000\002\001\006\005\b\t\f\r\000\000\000\000\000\000\000\001\004\006\005\b\t\f\r\000\000\000\000\000\000\000\000\000\001\004\006\005\b\t\f\r\000\000\000\000\000\000\000\002\001\004\006\005\b\t\f\r\000\000\000\000\000\000\000\000\002\001\004\006\005\b\t\f\r\000\000\000\000\000\000\001\005\n\t\f\r\000\000\000\000\000\000\000\000\000\000\000\001\005\n\t\f\r\000\000\000\000\000\000\000\000\000\002\001\005\n\t\f\r\000\000\000\000\000\000\000\000\000\000\002\001\005\n\t\f\r\000\000\000\000\000\000\000\000\001\004\005\n\t\f\r\000\000\000\000\000\000\000\000\000\000\001\004\005\n\t\f\r\000\000\000\000\000\000\000\000\002\001\004\005\n\t\f\r\000\000\000\000\000\000\000\000\000\002\001\004\005\n\t\f\r\000\000\000\000\000\000\000\001\006\005\n\t\f\r\000\000\000\000\000\000\000\000\000\000\001\006\005\n\t\f\r\000\000\000\000\000\000\000\000\002\001\006\005\n\t\f\r\000\000\000\000\000\000\000\000\000\002\001\006\005\n\t\f\r\000\000\000\000\000\000\000\001\004\006\005\n\t\f\r\000\000\000\000\000\000\000\000\000\001\004\006\005\n\t\f\r\000\000\000\000\000\000\000\002\001\004\006\005\n\t\f\r\000\000\000\000\000\000\000\000\002\001\004\006\005\n\t\f\r\000\000\000\000\000\000\001\005\b\n\t\f\r\000\000\000\000\000\000\000\000\000\000\001\005\b\n\t\f\r\000\000\000\000\000\000\000\000\002\001\005\b\n\t\f\r\000\000\000\000\000\000\000\000\000\002\001\005\b\n\t\f\r\000\000\000\000\000\000\000\001\004\005\b\n\t\f\r\000\000\000\000\000\000\000\000\000\001\004\005\b\n\t\f\r\000\000\000\000\000\000\000\002\001\004\005\b\n\t\f\r\000\000\000\000\000\000\000\000\002\001\004\005\b\n\t\f\r\000\000\000\000\000\000\001\006\005\b\n\t\f\r\000\000\000\000\000\000\000\000\000\001\006\005\b\n\t\f\r\000\000\000\000\000\000\000\002\001\006\005\b\n\t\f\r\000\000\000\000\000\000\000\000\002\001\006\005\b\n\t\f\r\000\000\000\000\000\000\001\004\006\005\b\n\t\f\r\000\000\000\000\000\000\000\000\001\004\006\005\b\n\t\f\r\000\000\000\000\000\000\002\001\004\006\005\b\n\t\f\r\000\000\000\000\000\000\000\002\001\004\006\005\b\n\t\f\r\000\000\000\000\000\001\005\t\016\r\000\000\000\000\000\000\000\000\000\000\000\000\001\005\t\016\r\000\000\000\000\000\000\000\000\000\000\002\001\005\t\016\r\000\000\000\000\000\000\000\000\000\000\000\002\001\005\t\016\r\000\000\000\000\000\000\000\000\000\001\004\005\t\016\r\000\000\000\000\000\000\000\000\000\000\000\001\004\005\t\016\r\000\000\000\000\000\000\000\000\000\002\001\004\005\t\016\r\000\000\000\000\000\000\000\000\000\000\002\001\004\005\t\016\r\000\000\000\000\000\000\000\000\001\006\005\t\016\r\000\000\000\000\000\000\000\000\000\000\000\001\006\005\t\016\r\000\000\000\000\000\000\000\000\000\002\001\006\005\t\016\r\000\000\000\000\000\000\000\000\000\000\002\001\006\005\t\016\r\000\000\000\000\000\000\000\000\001\004\006\005\t\016\r\000\000\000\000\000\000\000\000\000\000\001\004\006\005\t\016\r\000\000\000\000\000\000\000\000\002\001\004\006\005\t\016\r\000\000\000\000\000\000\000\000\000\002\001\004\006\005\t\016\r\000\000\000\000\000\000\000\001\005\b\t\016\r\000\000\000\000\000\000\000\000\000\000\000\001\005\b\t\016\r\000\000\000\000\000\000\000\000\000\002\001\005\b\t\016\r\000\000\000\000\000\000\000\000\000\000\002\001\005\b\t\016\r\000\000\000\000\000\000\000\000\001\004\005\b\t\016\r\000\000\000\000\000\000\000\000\000\000\001\004\005\b\t\016\r\000\000\000\000\000\000\000\000\002\001\004\005\b\t\016\r\000\000\000\000\000\000\000\000\000\002\001\004\005\b\t\016\r\000\000\000\000\000\000\000\001\006\005\b\t\016\r\000\000\000\000\000\000\000\000\000\000\001\006\005\b\t\016\r\000\000\000\000\000\000\000\000\002\001\006\005\b\t\016\r\000\000\000\000\000\000\000\000\000\002\001\006\005\b\t\016\r\000\000\000\000\000\000\000\001\004\006\005\b\t\016\r\000\000\000\000\000\000\000\000\000\001\004\006\005\b\t\016\r\000\000\000\000\000\000\000\002\001\004\006\005\b\t\016\r\000\000\000\000\000\000\000\000\002\001\004\006\005\b\t\016\r\000\000\000\000\000\000\001\005\n\t\016\r\000\000\000\000\000\000\000\000\000\000\000\001\005\n\t\016\r\000\000\000\000\000\000\000\000\000\002\001\005\n\t\016\r\000\000\000\000\000\000\000\000\000\000\002\001\005\n\t\016\r\000\000\000\000\000\000\000\000\001\004\005\n\t\016\r\000\000\000\000\000\000\000\000\000\000\001\004\005\n\t\016\r\000\000\000\000\000\000\000\000\002\001\004\005\n\t\016\r\000\000\000\000\000\000\000\000\000\002\001\004\005\n\t\016\r\000\000\000\000\000\000\000\001\006\005\n\t\016\r\000\000\000\000\000\000\000\000\000\000\001\006\005\n\t\016\r\000\000\000\000\000\000\000\000\002\001\006\005\n\t\016\r\000\000\000\000\000\000\000\000\000\002\001\006\005\n\t\016\r\000\000\000\000\000\000\000\001\004\006\005\n\t\016\r\000\000\000\000\000\000\000\000\000\001\004\006\005\n\t\016\r\000\000\000\000\000\000\000\002\001\004\006\005\n\t\016\r\000\000\000\000\000\000\000\000\002\001\004\006\005\n\t\016\r\000\000\000\000\000\000\001\005\b\n\t\016\r\000\000\000\000\000\000\000\000\000\000\001\005\b\n\t\016\r\000\000\000\000\000\000\000\000\002\001\005\b\n\t\016\r\000\000\000\000\000\000\000\000\000\002\001\005\b\n\t\016\r\000\000\000\000\000\000\000\001\004\005\b\n\t\016\r\000\000\000\000\000\000\000\000\000\001\004\005\b\n\t\016\r\000\000\000\000\000\000\000\002\001\004\005\b\n\t\016\r\000\000\000\000\000\000\000\000\002\001\004\005\b\n\t\016\r\000\000\000\000\000\000\001\006\005\b\n\t\016\r\000\000\000\000\000\000\000\000\000\001\006\005\b\n\t\016\r\000\000\000\000\000\000\000\002\001\006\005\b\n\t\016\r\000\000\000\000\000\000\000\000\002\001\006\005\b\n\t\016\r\000\000\000\000\000\000\001\004\006\005\b\n\t\016\r\000\000\000\000\000\000\000\000\001\004\006\005\b\n\t\016\r\000\000\000\000\000\000\002\001\004\006\005\b\n\t\016\r\000\000\000\000\000\000\000\002\001\004\006\005\b\n\t\016\r\000\000\000\000\000\001\005\t\f\016\r\000\000\000\000\000\000\000\000\000\000\000\001\005\t\f\016\r\000\000\000\000\000\000\000\000\000\002\001\005\t\f\016\r\000\000\000\000\000\000\000\000\000\000\002\001\005\t\f\016\r\000\000\000\000\000\000\000\000\001\004\005\t\f\016\r\000\000\000\000\000\000\000\000\000\000\001\004\005\t\f\016\r\000\000\000\000\000\000\000\000\002\001\004\005\t\f\016\r\000\000\000\000\000\000\000\000\000\002\001\004\005\t\f\016\r\000\000\000\000\000\000\000\001\006\005\t\f\016\r\000\000\000\000\000\000\000\000\000\000\001\006\005\t\f\016\r\000\000\000\000\000\000\000\000\002\001\006\005\t\f\016\r\000\000\000\000\000\000\000\000\000\002\001\006\005\t\f\016\r\000\000\000\000\000\000\000\001\004\006\005\t\f\016\r\000\000\000\000\000\000\000\000\000\001\004\006\005\t\f\016\r\000\000\000\000\000\000\000\002\001\004\006\005\t\f\016\r\000\000\000\000\000\000\000\000\002\001\004\006\005\t\f\016\r\000\000\000\000\000\000\001\005\b\t\f\016\r\000\000\000\000\000\000\000\000\000\000\001\005\b\t\f\016\r\000\000\000\000\000\000\000\000\002\001\005\b\t\f\016\r\000\000\000\000\000\000\000\000\000\002\001\005\b\t\f\016\r\000\000\000\000\000\000\000\001\004\005\b\t\f\016\r\000\000\000\000\000\000\000\000\000\001\004\005\b\t\f\016\r\000\000\000\000\000\000\000\002\001\004\005\b\t\f\016\r\000\000\000\000\000\000\000\000\002\001\004\005\b\t\f\016\r\000\000\000\000\000\000\001\006\005\b\t\f\016\r\000\000\000\000\000\000\000\000\000\001\006\005\b\t\f\016\r\000\000\000\000\000\000\000\002\001\006\005\b\t\f\016\r\000\000\000\000\000\000\000\000\002\001\006\005\b\t\f\016\r\000\000\000\000\000\000\001\004\006\005\b\t\f\016\r\000\000\000\000\000\000\000\000\001\004\006\005\b\t\f\016\r\000\000\000\000\000\000\002\001\004\006\005\b\t\f\016\r\000\000\000\000\000\000\000\002\001\004\006\005\b\t\f\016\r\000\000\000\000\000\001\005\n\t\f\016\r\000\000\000\000\000\000\000\000\000\000\001\005\n\t\f\016\r\000\000\000\000\000\000\000\000\002\001\005\n\t\f\016\r\000\000\000\000\000\000\000\000\000\002\001\005\n\t\f\016\r\000\000\000\000\000\000\000\001\004\005\n\t\f\016\r\000\000\000\000\000\000\000\000\000\001\004\005\n\t\f\016\r\000\000\000\000\000\000\000\002\001\004\005\n\t\f\016\r\000\000\000\000\000\000\000\000\002\001\004\005\n\t\f\016\r\000\000\000\000\000\000\001\006\005\n\t\f\016\r\000\000\000\000\000\000\000\000\000\001\006\005\n\t\f\016\r\000\000\000\000\000\000\000\002\001\006\005\n\t\f\016\r\000\000\000\000\000\000\000\000\002\001\006\005\n\t\f\016\r\000\000\000\000\000\000\001\004\006\005\n\t\f\016\r\000\000\000\000\000\000\000\000\001\004\006\005\n\t\f\016\r\000\000\000\000\000\000\002\001\004\006\005\n\t\f\016\r\000\000\000\000\000\000\000\002\001\004\006\005\n\t\f\016\r\000\000\000\000\000\001\005\b\n\t\f\016\r\000\000\000\000\000\000\000\000\000\001\005\b\n\t\f\016\r\000\000\000\000\000\000\000\002\001\005\b\n\t\f\016\r\000\000\000\000\000\000\000\000\002\001\005\b\n\t\f\016\r\000\000\000\000\000\000\001\004\005\b\n\t\f\016\r\000\000\000\000\000\000\000\000\001\004\005\b\n\t\f\016\r\000\000\000\000\000\000\002\001\004\005\b\n\t\f\016\r\000\000\000\000\000\000\000\002\001\004\005\b\n\t\f\016\r\000\000\000\000\000\001\006\005\b\n\t\f\016\r\000\000\000\000\000\000\000\000\001\006\005\b\n\t\f\016\r\000\000\000\000\000\000\002\001\006\005\b\n\t\f\016\r\000\000\000\000\000\000\000\002\001\006\005\b\n\t\f\016\r\000\000\000\000\000\001\004\006\005\b\n\t\f\016\r\000\000\000\000\000\000\000\001\004\006\005\b\n\t\f\016\r\000\000\000\000\000\002\001\004\006\005\b\n\t\f\016\r\000\000\000\000\000\000\002\001\004\006\005\b\n\t\f\016\r\000\000\000"
	.size	.Lstatic.20, 4096

	.type	.Lstatic.22,@object             // @static.22
	.section	.rodata..Lstatic.22,"a",@progbits
.Lstatic.22:
	.ascii	": "
	.size	.Lstatic.22, 2

	.type	.Lstatic.23,@object             // @static.23
	.section	.rodata..Lstatic.23,"a",@progbits
.Lstatic.23:
	.byte	10
	.size	.Lstatic.23, 1

	.type	.Lstatic.24,@object             // @static.24
	.section	.rodata..Lstatic.24,"a",@progbits
.Lstatic.24:
	.ascii	"wrong arguments"
	.size	.Lstatic.24, 15

	.type	.Lstatic.25,@object             // @static.25
	.section	.rodata..Lstatic.25,"a",@progbits
.Lstatic.25:
	.ascii	"cannot read"
	.size	.Lstatic.25, 11

	.type	.Lstatic.26,@object             // @static.26
	.section	.rodata..Lstatic.26,"a",@progbits
.Lstatic.26:
	.ascii	"cannot write"
	.size	.Lstatic.26, 12

	.type	.Lstatic.27,@object             // @static.27
	.section	.rodata..Lstatic.27,"a",@progbits
.Lstatic.27:
	.ascii	"no memory"
	.size	.Lstatic.27, 9

	.type	".Lswitch.table.utf_chars::codes::utf8::missing_after",@object // @"switch.table.utf_chars::codes::utf8::missing_after"
	.section	".rodata..Lswitch.table.utf_chars::codes::utf8::missing_after","a",@progbits
	.p2align	3, 0x0
".Lswitch.table.utf_chars::codes::utf8::missing_after":
	.xword	0                               // 0x0
	.xword	1                               // 0x1
	.xword	2                               // 0x2
	.xword	3                               // 0x3
	.xword	2                               // 0x2
	.xword	2                               // 0x2
	.xword	3                               // 0x3
	.xword	3                               // 0x3
	.xword	2                               // 0x2
	.xword	1                               // 0x1
	.xword	1                               // 0x1
	.xword	2                               // 0x2
	.xword	1                               // 0x1
	.xword	0                               // 0x0
	.xword	0                               // 0x0
	.xword	0                               // 0x0
	.xword	0                               // 0x0
	.xword	0                               // 0x0
	.xword	0                               // 0x0
	.xword	0                               // 0x0
	.size	".Lswitch.table.utf_chars::codes::utf8::missing_after", 160

	.type	".Lswitch.table.text_programs::programs::stops::Stop::report::<#2daa2fb2be07fb73>",@object // @"switch.table.text_programs::programs::stops::Stop::report::<#2daa2fb2be07fb73>"
	.section	.rodata.cst32,"aM",@progbits,32
	.p2align	3, 0x0
".Lswitch.table.text_programs::programs::stops::Stop::report::<#2daa2fb2be07fb73>":
	.xword	15                              // 0xf
	.xword	11                              // 0xb
	.xword	12                              // 0xc
	.xword	9                               // 0x9
	.size	".Lswitch.table.text_programs::programs::stops::Stop::report::<#2daa2fb2be07fb73>", 32

	.type	".Lswitch.table.text_programs::programs::stops::Stop::report::<#2daa2fb2be07fb73>.102.rel",@object // @"switch.table.text_programs::programs::stops::Stop::report::<#2daa2fb2be07fb73>.102.rel"
	.section	".rodata..Lswitch.table.text_programs::programs::stops::Stop::report::<#2daa2fb2be07fb73>.102.rel","a",@progbits
	.p2align	2, 0x0
".Lswitch.table.text_programs::programs::stops::Stop::report::<#2daa2fb2be07fb73>.102.rel":
	.word	.Lstatic.24-".Lswitch.table.text_programs::programs::stops::Stop::report::<#2daa2fb2be07fb73>.102.rel"
	.word	.Lstatic.25-".Lswitch.table.text_programs::programs::stops::Stop::report::<#2daa2fb2be07fb73>.102.rel"
	.word	.Lstatic.26-".Lswitch.table.text_programs::programs::stops::Stop::report::<#2daa2fb2be07fb73>.102.rel"
	.word	.Lstatic.27-".Lswitch.table.text_programs::programs::stops::Stop::report::<#2daa2fb2be07fb73>.102.rel"
	.size	".Lswitch.table.text_programs::programs::stops::Stop::report::<#2daa2fb2be07fb73>.102.rel", 16

	.ident	"rattle logic=dac8208d650f15bf3e2dc313a14fa4c783a3acf887bdfab66e1714b038d9e11b"
	.section	".note.GNU-stack","",@progbits
