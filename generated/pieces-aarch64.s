	.file	"rattle"
	.section	".text.unlikely.std_alloc::vec::Vec::grow_amortized::<#5fdc5e19576447a7>","ax",@progbits
	.p2align	2                               // -- Begin function std_alloc::vec::Vec::grow_amortized::<#5fdc5e19576447a7>
	.type	"std_alloc::vec::Vec::grow_amortized::<#5fdc5e19576447a7>",@function
"std_alloc::vec::Vec::grow_amortized::<#5fdc5e19576447a7>": // @"std_alloc::vec::Vec::grow_amortized::<#5fdc5e19576447a7>"
	.cfi_startproc
// %bb.0:                               // %start
	ldr	x8, [x0, #8]
	cmn	x8, x1
	b.lo	.LBB0_2
// %bb.1:
	mov	w0, wzr
	ret
.LBB0_2:                                // %join.3
	stp	x29, x30, [sp, #-32]!           // 16-byte Folded Spill
	.cfi_def_cfa_offset 32
	stp	x20, x19, [sp, #16]             // 16-byte Folded Spill
	mov	x29, sp
	.cfi_def_cfa w29, 32
	.cfi_offset w19, -8
	.cfi_offset w20, -16
	.cfi_offset w30, -24
	.cfi_offset w29, -32
	.cfi_remember_state
	ldr	x10, [x0, #16]
	add	x9, x8, x1
	mov	w11, #8                         // =0x8
	cmp	x9, #8
	lsl	x12, x10, #1
	csel	x11, x9, x11, hi
	lsr	x13, x10, #62
	cmp	x11, x12
	csel	x9, x11, x12, hi
	cmp	x13, #0
	csel	x19, x9, x11, eq
	tbnz	x19, #63, .LBB0_7
// %bb.3:                               // %join.3.i
	cbz	x10, .LBB0_6
// %bb.4:                               // %then.1.i.i
	mov	x20, x0
	ldr	x0, [x0]
	mov	x1, x8
	mov	x2, x19
	mov	w3, #1                          // =0x1
	bl	rattle_realloc
	tbz	w0, #0, .LBB0_7
.LBB0_5:                                // %arm.5.i
	mov	w0, #1                          // =0x1
	str	x1, [x20]
	str	x19, [x20, #16]
	.cfi_def_cfa wsp, 32
	ldp	x20, x19, [sp, #16]             // 16-byte Folded Reload
	ldp	x29, x30, [sp], #32             // 16-byte Folded Reload
	.cfi_def_cfa_offset 0
	.cfi_restore w19
	.cfi_restore w20
	.cfi_restore w30
	.cfi_restore w29
	ret
.LBB0_6:                                // %"std_alloc::vec::resize::<#5fdc5e19576447a7>.exit.i"
	.cfi_restore_state
	mov	x20, x0
	mov	x0, x9
	mov	w1, #1                          // =0x1
	bl	rattle_alloc
	tbnz	w0, #0, .LBB0_5
.LBB0_7:
	mov	w0, wzr
	.cfi_def_cfa wsp, 32
	ldp	x20, x19, [sp, #16]             // 16-byte Folded Reload
	ldp	x29, x30, [sp], #32             // 16-byte Folded Reload
	.cfi_def_cfa_offset 0
	.cfi_restore w19
	.cfi_restore w20
	.cfi_restore w30
	.cfi_restore w29
	ret
.Lfunc_end0:
	.size	"std_alloc::vec::Vec::grow_amortized::<#5fdc5e19576447a7>", .Lfunc_end0-"std_alloc::vec::Vec::grow_amortized::<#5fdc5e19576447a7>"
	.cfi_endproc
                                        // -- End function
	.section	".text.core::slice::words::skip_far::<#52f9edcae2f82f51>","ax",@progbits
	.p2align	2                               // -- Begin function core::slice::words::skip_far::<#52f9edcae2f82f51>
	.type	"core::slice::words::skip_far::<#52f9edcae2f82f51>",@function
"core::slice::words::skip_far::<#52f9edcae2f82f51>": // @"core::slice::words::skip_far::<#52f9edcae2f82f51>"
	.cfi_startproc
// %bb.0:                               // %start
	sub	x8, x2, x1
	cmp	x8, #64
	b.lo	.LBB1_4
// %bb.1:                               // %then.3.lr.ph
	ldr	x9, [x0]
.LBB1_2:                                // %then.3
                                        // =>This Inner Loop Header: Depth=1
	add	x10, x9, x1
	ldp	q0, q1, [x10, #32]
	ldp	q2, q3, [x10]
	orr	v1.16b, v3.16b, v1.16b
	orr	v0.16b, v2.16b, v0.16b
	orr	v0.16b, v0.16b, v1.16b
	ext	v1.16b, v0.16b, v0.16b, #8
	orr	v0.8b, v0.8b, v1.8b
	fmov	x10, d0
	tst	x10, #0x8080808080808080
	b.ne	.LBB1_4
// %bb.3:                               // %join.5
                                        //   in Loop: Header=BB1_2 Depth=1
	sub	x8, x8, #64
	add	x1, x1, #64
	cmp	x8, #63
	b.hi	.LBB1_2
.LBB1_4:                                // %after.1
	mov	x0, x1
	ret
.Lfunc_end1:
	.size	"core::slice::words::skip_far::<#52f9edcae2f82f51>", .Lfunc_end1-"core::slice::words::skip_far::<#52f9edcae2f82f51>"
	.cfi_endproc
                                        // -- End function
	.section	".text.unlikely.std_alloc::vec::Vec::grow_amortized::<#1b8c52373d8cd3cb>","ax",@progbits
	.p2align	2                               // -- Begin function std_alloc::vec::Vec::grow_amortized::<#1b8c52373d8cd3cb>
	.type	"std_alloc::vec::Vec::grow_amortized::<#1b8c52373d8cd3cb>",@function
"std_alloc::vec::Vec::grow_amortized::<#1b8c52373d8cd3cb>": // @"std_alloc::vec::Vec::grow_amortized::<#1b8c52373d8cd3cb>"
	.cfi_startproc
// %bb.0:                               // %start
	ldr	x8, [x0, #8]
	cmn	x8, x1
	b.lo	.LBB2_2
// %bb.1:
	mov	w0, wzr
	ret
.LBB2_2:                                // %join.3
	stp	x29, x30, [sp, #-32]!           // 16-byte Folded Spill
	.cfi_def_cfa_offset 32
	stp	x20, x19, [sp, #16]             // 16-byte Folded Spill
	mov	x29, sp
	.cfi_def_cfa w29, 32
	.cfi_offset w19, -8
	.cfi_offset w20, -16
	.cfi_offset w30, -24
	.cfi_offset w29, -32
	.cfi_remember_state
	ldr	x9, [x0, #16]
	add	x10, x8, x1
	mov	w11, #4                         // =0x4
	cmp	x10, #4
	lsl	x12, x9, #1
	csel	x11, x10, x11, hi
	lsr	x13, x9, #62
	cmp	x11, x12
	csel	x10, x11, x12, hi
	cmp	x13, #0
	csel	x19, x10, x11, eq
	mov	x11, #6148914691236517205       // =0x5555555555555555
	movk	x11, #1365, lsl #48
	cmp	x19, x11
	b.hi	.LBB2_7
// %bb.3:                               // %join.3.i
	cbz	x9, .LBB2_6
// %bb.4:                               // %then.1.i.i
	add	x8, x8, x8, lsl #1
	add	x9, x19, x19, lsl #1
	mov	x20, x0
	ldr	x0, [x0]
	mov	w3, #8                          // =0x8
	lsl	x1, x8, #3
	lsl	x2, x9, #3
	bl	rattle_realloc
	tbz	w0, #0, .LBB2_7
.LBB2_5:                                // %arm.5.i
	mov	w0, #1                          // =0x1
	str	x1, [x20]
	str	x19, [x20, #16]
	.cfi_def_cfa wsp, 32
	ldp	x20, x19, [sp, #16]             // 16-byte Folded Reload
	ldp	x29, x30, [sp], #32             // 16-byte Folded Reload
	.cfi_def_cfa_offset 0
	.cfi_restore w19
	.cfi_restore w20
	.cfi_restore w30
	.cfi_restore w29
	ret
.LBB2_6:                                // %"std_alloc::vec::resize::<#1b8c52373d8cd3cb>.exit.i"
	.cfi_restore_state
	add	x8, x10, x10, lsl #1
	mov	x20, x0
	mov	w1, #8                          // =0x8
	lsl	x0, x8, #3
	bl	rattle_alloc
	tbnz	w0, #0, .LBB2_5
.LBB2_7:
	mov	w0, wzr
	.cfi_def_cfa wsp, 32
	ldp	x20, x19, [sp, #16]             // 16-byte Folded Reload
	ldp	x29, x30, [sp], #32             // 16-byte Folded Reload
	.cfi_def_cfa_offset 0
	.cfi_restore w19
	.cfi_restore w20
	.cfi_restore w30
	.cfi_restore w29
	ret
.Lfunc_end2:
	.size	"std_alloc::vec::Vec::grow_amortized::<#1b8c52373d8cd3cb>", .Lfunc_end2-"std_alloc::vec::Vec::grow_amortized::<#1b8c52373d8cd3cb>"
	.cfi_endproc
                                        // -- End function
	.section	".text.unlikely.std_alloc::vec::Vec::grow_amortized::<#c5e3cca411c51d6b>","ax",@progbits
	.p2align	2                               // -- Begin function std_alloc::vec::Vec::grow_amortized::<#c5e3cca411c51d6b>
	.type	"std_alloc::vec::Vec::grow_amortized::<#c5e3cca411c51d6b>",@function
"std_alloc::vec::Vec::grow_amortized::<#c5e3cca411c51d6b>": // @"std_alloc::vec::Vec::grow_amortized::<#c5e3cca411c51d6b>"
	.cfi_startproc
// %bb.0:                               // %start
	ldr	x1, [x0, #8]
	cmn	x1, #1
	b.eq	.LBB3_5
// %bb.1:                               // %join.3
	stp	x29, x30, [sp, #-32]!           // 16-byte Folded Spill
	.cfi_def_cfa_offset 32
	stp	x20, x19, [sp, #16]             // 16-byte Folded Spill
	mov	x29, sp
	.cfi_def_cfa w29, 32
	.cfi_offset w19, -8
	.cfi_offset w20, -16
	.cfi_offset w30, -24
	.cfi_offset w29, -32
	.cfi_remember_state
	ldr	x9, [x0, #16]
	cmp	x1, #7
	mov	w8, #7                          // =0x7
	csel	x10, x1, x8, hi
	lsl	x8, x9, #1
	add	x11, x10, #1
	lsr	x12, x9, #62
	cmp	x11, x8
	csinc	x8, x8, x10, ls
	cmp	x12, #0
	csinc	x19, x8, x10, eq
	tbnz	x19, #63, .LBB3_7
// %bb.2:                               // %join.3.i
	cbz	x9, .LBB3_6
// %bb.3:                               // %then.1.i.i
	mov	x20, x0
	ldr	x0, [x0]
	mov	x2, x19
	mov	w3, #1                          // =0x1
	bl	rattle_realloc
	tbz	w0, #0, .LBB3_7
.LBB3_4:                                // %arm.5.i
	mov	w0, #1                          // =0x1
	str	x1, [x20]
	str	x19, [x20, #16]
	.cfi_def_cfa wsp, 32
	ldp	x20, x19, [sp, #16]             // 16-byte Folded Reload
	ldp	x29, x30, [sp], #32             // 16-byte Folded Reload
	.cfi_def_cfa_offset 0
	.cfi_restore w19
	.cfi_restore w20
	.cfi_restore w30
	.cfi_restore w29
	ret
.LBB3_5:
	mov	w0, wzr
	ret
.LBB3_6:                                // %"std_alloc::vec::resize::<#c5e3cca411c51d6b>.exit.i"
	.cfi_restore_state
	mov	x20, x0
	mov	x0, x8
	mov	w1, #1                          // =0x1
	bl	rattle_alloc
	tbnz	w0, #0, .LBB3_4
.LBB3_7:
	mov	w0, wzr
	.cfi_def_cfa wsp, 32
	ldp	x20, x19, [sp, #16]             // 16-byte Folded Reload
	ldp	x29, x30, [sp], #32             // 16-byte Folded Reload
	.cfi_def_cfa_offset 0
	.cfi_restore w19
	.cfi_restore w20
	.cfi_restore w30
	.cfi_restore w29
	ret
.Lfunc_end3:
	.size	"std_alloc::vec::Vec::grow_amortized::<#c5e3cca411c51d6b>", .Lfunc_end3-"std_alloc::vec::Vec::grow_amortized::<#c5e3cca411c51d6b>"
	.cfi_endproc
                                        // -- End function
	.section	".text.std_io::io::error::last_error","ax",@progbits
	.p2align	2                               // -- Begin function std_io::io::error::last_error
	.type	"std_io::io::error::last_error",@function
"std_io::io::error::last_error":        // @"std_io::io::error::last_error"
	.cfi_startproc
// %bb.0:                               // %start
	stp	x29, x30, [sp, #-32]!           // 16-byte Folded Spill
	.cfi_def_cfa_offset 32
	str	x19, [sp, #16]                  // 8-byte Spill
	mov	x29, sp
	.cfi_def_cfa w29, 32
	.cfi_offset w19, -16
	.cfi_offset w30, -24
	.cfi_offset w29, -32
	.cfi_remember_state
	mov	x19, x0
	bl	rattle_errno
	tbnz	w0, #31, .LBB4_4
// %bb.1:                               // %else.2.i.i
	sub	w8, w0, #1
	cmp	w8, #121
	b.hi	.LBB4_4
// %bb.2:                               // %else.2.i.i
	adrp	x9, .LJTI4_0
	add	x9, x9, :lo12:.LJTI4_0
	adr	x10, .LBB4_3
	ldrb	w11, [x9, x8]
	add	x10, x10, x11, lsl #2
	mov	w8, #1                          // =0x1
	br	x10
.LBB4_3:                                // %arm.23.i.i.i
	mov	w8, #36                         // =0x24
	b	.LBB4_5
.LBB4_4:                                // %default.40.i.i.i
	mov	w8, #41                         // =0x29
.LBB4_5:                                // %"std_io::io::error::Error::from_raw_os_error.exit"
	movi	v0.2d, #0000000000000000
	strb	wzr, [x19]
	strb	w8, [x19, #1]
	strh	wzr, [x19, #2]
	str	w0, [x19, #4]
	stur	q0, [x19, #8]
	stur	q0, [x19, #24]
	stur	q0, [x19, #40]
	stur	q0, [x19, #56]
	stur	q0, [x19, #72]
	.cfi_def_cfa wsp, 32
	ldr	x19, [sp, #16]                  // 8-byte Reload
	ldp	x29, x30, [sp], #32             // 16-byte Folded Reload
	.cfi_def_cfa_offset 0
	.cfi_restore w19
	.cfi_restore w30
	.cfi_restore w29
	ret
.LBB4_6:                                // %arm.36.i.i.i
	.cfi_restore_state
	mov	w8, #4                          // =0x4
	b	.LBB4_5
.LBB4_7:                                // %arm.33.i.i.i
	mov	w8, #7                          // =0x7
	b	.LBB4_5
.LBB4_8:                                // %arm.39.i.i.i
	mov	w8, #26                         // =0x1a
	b	.LBB4_5
.LBB4_9:                                // %arm.37.i.i.i
	mov	w8, #39                         // =0x27
	b	.LBB4_5
.LBB4_10:                               // %arm.28.i.i.i
	mov	w8, #9                          // =0x9
	b	.LBB4_5
.LBB4_11:                               // %arm.27.i.i.i
	mov	w8, #8                          // =0x8
	b	.LBB4_5
.LBB4_12:                               // %arm.21.i.i.i
	mov	w8, #30                         // =0x1e
	b	.LBB4_5
.LBB4_13:                               // %arm.17.i.i.i
	mov	w8, #25                         // =0x19
	b	.LBB4_5
.LBB4_14:                               // %arm.19.i.i.i
	mov	w8, #32                         // =0x20
	b	.LBB4_5
.LBB4_15:                               // %arm.22.i.i.i
	mov	w8, #33                         // =0x21
	b	.LBB4_5
.LBB4_16:                               // %arm.34.i.i.i
	mov	w8, #22                         // =0x16
	b	.LBB4_5
.LBB4_17:                               // %arm.10.i.i.i
	mov	w8, #31                         // =0x1f
	b	.LBB4_5
.LBB4_18:                               // %arm.14.i.i.i
	mov	w8, #29                         // =0x1d
	b	.LBB4_5
.LBB4_19:                               // %arm.25.i.i.i
	mov	w8, #18                         // =0x12
	b	.LBB4_5
.LBB4_20:                               // %arm.29.i.i.i
	mov	w8, #10                         // =0xa
	b	.LBB4_5
.LBB4_21:                               // %arm.8.i.i.i
	mov	w8, #28                         // =0x1c
	b	.LBB4_5
.LBB4_22:                               // %arm.11.i.i.i
	mov	w8, #14                         // =0xe
	b	.LBB4_5
.LBB4_23:                               // %arm.9.i.i.i
	mov	w8, #12                         // =0xc
	b	.LBB4_5
.LBB4_24:                               // %arm.30.i.i.i
	mov	w8, #5                          // =0x5
	b	.LBB4_5
.LBB4_25:                               // %arm.32.i.i.i
	mov	w8, #3                          // =0x3
	b	.LBB4_5
.LBB4_26:                               // %arm.2.i.i.i
	mov	w8, wzr
	b	.LBB4_5
.LBB4_27:                               // %arm.5.i.i.i
	mov	w8, #13                         // =0xd
	b	.LBB4_5
.LBB4_28:                               // %arm.6.i.i.i
	mov	w8, #38                         // =0x26
	b	.LBB4_5
.LBB4_29:                               // %arm.20.i.i.i
	mov	w8, #11                         // =0xb
	b	.LBB4_5
.LBB4_30:                               // %arm.3.i.i.i
	mov	w8, #35                         // =0x23
	b	.LBB4_5
.LBB4_31:                               // %arm.4.i.i.i
	mov	w8, #34                         // =0x22
	b	.LBB4_5
.LBB4_32:                               // %arm.13.i.i.i
	mov	w8, #20                         // =0x14
	b	.LBB4_5
.LBB4_33:                               // %arm.12.i.i.i
	mov	w8, #15                         // =0xf
	b	.LBB4_5
.LBB4_34:                               // %arm.38.i.i.i
	mov	w8, #19                         // =0x13
	b	.LBB4_5
.LBB4_35:                               // %arm.24.i.i.i
	mov	w8, #16                         // =0x10
	b	.LBB4_5
.LBB4_36:                               // %arm.31.i.i.i
	mov	w8, #6                          // =0x6
	b	.LBB4_5
.LBB4_37:                               // %arm.15.i.i.i
	mov	w8, #27                         // =0x1b
	b	.LBB4_5
.LBB4_38:                               // %arm.16.i.i.i
	mov	w8, #24                         // =0x18
	b	.LBB4_5
.LBB4_39:                               // %arm.35.i.i.i
	mov	w8, #2                          // =0x2
	b	.LBB4_5
.LBB4_40:                               // %arm.18.i.i.i
	mov	w8, #17                         // =0x11
	b	.LBB4_5
.Lfunc_end4:
	.size	"std_io::io::error::last_error", .Lfunc_end4-"std_io::io::error::last_error"
	.cfi_endproc
	.section	".rodata.std_io::io::error::last_error","a",@progbits
.LJTI4_0:
	.byte	(.LBB4_5-.LBB4_3)>>2
	.byte	(.LBB4_26-.LBB4_3)>>2
	.byte	(.LBB4_4-.LBB4_3)>>2
	.byte	(.LBB4_30-.LBB4_3)>>2
	.byte	(.LBB4_4-.LBB4_3)>>2
	.byte	(.LBB4_4-.LBB4_3)>>2
	.byte	(.LBB4_31-.LBB4_3)>>2
	.byte	(.LBB4_4-.LBB4_3)>>2
	.byte	(.LBB4_4-.LBB4_3)>>2
	.byte	(.LBB4_4-.LBB4_3)>>2
	.byte	(.LBB4_27-.LBB4_3)>>2
	.byte	(.LBB4_28-.LBB4_3)>>2
	.byte	(.LBB4_5-.LBB4_3)>>2
	.byte	(.LBB4_4-.LBB4_3)>>2
	.byte	(.LBB4_4-.LBB4_3)>>2
	.byte	(.LBB4_21-.LBB4_3)>>2
	.byte	(.LBB4_23-.LBB4_3)>>2
	.byte	(.LBB4_17-.LBB4_3)>>2
	.byte	(.LBB4_4-.LBB4_3)>>2
	.byte	(.LBB4_22-.LBB4_3)>>2
	.byte	(.LBB4_33-.LBB4_3)>>2
	.byte	(.LBB4_32-.LBB4_3)>>2
	.byte	(.LBB4_4-.LBB4_3)>>2
	.byte	(.LBB4_4-.LBB4_3)>>2
	.byte	(.LBB4_4-.LBB4_3)>>2
	.byte	(.LBB4_18-.LBB4_3)>>2
	.byte	(.LBB4_37-.LBB4_3)>>2
	.byte	(.LBB4_38-.LBB4_3)>>2
	.byte	(.LBB4_13-.LBB4_3)>>2
	.byte	(.LBB4_40-.LBB4_3)>>2
	.byte	(.LBB4_14-.LBB4_3)>>2
	.byte	(.LBB4_29-.LBB4_3)>>2
	.byte	(.LBB4_4-.LBB4_3)>>2
	.byte	(.LBB4_4-.LBB4_3)>>2
	.byte	(.LBB4_12-.LBB4_3)>>2
	.byte	(.LBB4_15-.LBB4_3)>>2
	.byte	(.LBB4_4-.LBB4_3)>>2
	.byte	(.LBB4_3-.LBB4_3)>>2
	.byte	(.LBB4_35-.LBB4_3)>>2
	.byte	(.LBB4_19-.LBB4_3)>>2
	.byte	(.LBB4_4-.LBB4_3)>>2
	.byte	(.LBB4_4-.LBB4_3)>>2
	.byte	(.LBB4_4-.LBB4_3)>>2
	.byte	(.LBB4_4-.LBB4_3)>>2
	.byte	(.LBB4_4-.LBB4_3)>>2
	.byte	(.LBB4_4-.LBB4_3)>>2
	.byte	(.LBB4_4-.LBB4_3)>>2
	.byte	(.LBB4_4-.LBB4_3)>>2
	.byte	(.LBB4_4-.LBB4_3)>>2
	.byte	(.LBB4_4-.LBB4_3)>>2
	.byte	(.LBB4_4-.LBB4_3)>>2
	.byte	(.LBB4_4-.LBB4_3)>>2
	.byte	(.LBB4_4-.LBB4_3)>>2
	.byte	(.LBB4_4-.LBB4_3)>>2
	.byte	(.LBB4_4-.LBB4_3)>>2
	.byte	(.LBB4_4-.LBB4_3)>>2
	.byte	(.LBB4_4-.LBB4_3)>>2
	.byte	(.LBB4_4-.LBB4_3)>>2
	.byte	(.LBB4_4-.LBB4_3)>>2
	.byte	(.LBB4_4-.LBB4_3)>>2
	.byte	(.LBB4_4-.LBB4_3)>>2
	.byte	(.LBB4_4-.LBB4_3)>>2
	.byte	(.LBB4_4-.LBB4_3)>>2
	.byte	(.LBB4_4-.LBB4_3)>>2
	.byte	(.LBB4_4-.LBB4_3)>>2
	.byte	(.LBB4_4-.LBB4_3)>>2
	.byte	(.LBB4_4-.LBB4_3)>>2
	.byte	(.LBB4_4-.LBB4_3)>>2
	.byte	(.LBB4_4-.LBB4_3)>>2
	.byte	(.LBB4_4-.LBB4_3)>>2
	.byte	(.LBB4_4-.LBB4_3)>>2
	.byte	(.LBB4_4-.LBB4_3)>>2
	.byte	(.LBB4_4-.LBB4_3)>>2
	.byte	(.LBB4_4-.LBB4_3)>>2
	.byte	(.LBB4_4-.LBB4_3)>>2
	.byte	(.LBB4_4-.LBB4_3)>>2
	.byte	(.LBB4_4-.LBB4_3)>>2
	.byte	(.LBB4_4-.LBB4_3)>>2
	.byte	(.LBB4_4-.LBB4_3)>>2
	.byte	(.LBB4_4-.LBB4_3)>>2
	.byte	(.LBB4_4-.LBB4_3)>>2
	.byte	(.LBB4_4-.LBB4_3)>>2
	.byte	(.LBB4_4-.LBB4_3)>>2
	.byte	(.LBB4_4-.LBB4_3)>>2
	.byte	(.LBB4_4-.LBB4_3)>>2
	.byte	(.LBB4_4-.LBB4_3)>>2
	.byte	(.LBB4_4-.LBB4_3)>>2
	.byte	(.LBB4_4-.LBB4_3)>>2
	.byte	(.LBB4_4-.LBB4_3)>>2
	.byte	(.LBB4_4-.LBB4_3)>>2
	.byte	(.LBB4_4-.LBB4_3)>>2
	.byte	(.LBB4_4-.LBB4_3)>>2
	.byte	(.LBB4_4-.LBB4_3)>>2
	.byte	(.LBB4_4-.LBB4_3)>>2
	.byte	(.LBB4_3-.LBB4_3)>>2
	.byte	(.LBB4_4-.LBB4_3)>>2
	.byte	(.LBB4_4-.LBB4_3)>>2
	.byte	(.LBB4_11-.LBB4_3)>>2
	.byte	(.LBB4_10-.LBB4_3)>>2
	.byte	(.LBB4_20-.LBB4_3)>>2
	.byte	(.LBB4_24-.LBB4_3)>>2
	.byte	(.LBB4_4-.LBB4_3)>>2
	.byte	(.LBB4_36-.LBB4_3)>>2
	.byte	(.LBB4_25-.LBB4_3)>>2
	.byte	(.LBB4_4-.LBB4_3)>>2
	.byte	(.LBB4_4-.LBB4_3)>>2
	.byte	(.LBB4_7-.LBB4_3)>>2
	.byte	(.LBB4_4-.LBB4_3)>>2
	.byte	(.LBB4_4-.LBB4_3)>>2
	.byte	(.LBB4_16-.LBB4_3)>>2
	.byte	(.LBB4_39-.LBB4_3)>>2
	.byte	(.LBB4_4-.LBB4_3)>>2
	.byte	(.LBB4_6-.LBB4_3)>>2
	.byte	(.LBB4_4-.LBB4_3)>>2
	.byte	(.LBB4_9-.LBB4_3)>>2
	.byte	(.LBB4_34-.LBB4_3)>>2
	.byte	(.LBB4_4-.LBB4_3)>>2
	.byte	(.LBB4_4-.LBB4_3)>>2
	.byte	(.LBB4_4-.LBB4_3)>>2
	.byte	(.LBB4_4-.LBB4_3)>>2
	.byte	(.LBB4_4-.LBB4_3)>>2
	.byte	(.LBB4_8-.LBB4_3)>>2
                                        // -- End function
	.section	".text.text_programs::programs::listing::write_listing::<#cdc8ff12022c16a2>","ax",@progbits
	.p2align	2                               // -- Begin function text_programs::programs::listing::write_listing::<#cdc8ff12022c16a2>
	.type	"text_programs::programs::listing::write_listing::<#cdc8ff12022c16a2>",@function
"text_programs::programs::listing::write_listing::<#cdc8ff12022c16a2>": // @"text_programs::programs::listing::write_listing::<#cdc8ff12022c16a2>"
	.cfi_startproc
// %bb.0:                               // %start
	stp	x29, x30, [sp, #-96]!           // 16-byte Folded Spill
	.cfi_def_cfa_offset 96
	stp	x28, x27, [sp, #16]             // 16-byte Folded Spill
	stp	x26, x25, [sp, #32]             // 16-byte Folded Spill
	stp	x24, x23, [sp, #48]             // 16-byte Folded Spill
	stp	x22, x21, [sp, #64]             // 16-byte Folded Spill
	stp	x20, x19, [sp, #80]             // 16-byte Folded Spill
	mov	x29, sp
	.cfi_def_cfa w29, 96
	.cfi_offset w19, -8
	.cfi_offset w20, -16
	.cfi_offset w21, -24
	.cfi_offset w22, -32
	.cfi_offset w23, -40
	.cfi_offset w24, -48
	.cfi_offset w25, -56
	.cfi_offset w26, -64
	.cfi_offset w27, -72
	.cfi_offset w28, -80
	.cfi_offset w30, -88
	.cfi_offset w29, -96
	.cfi_remember_state
	sub	x9, sp, #15, lsl #12            // =61440
	sub	x9, x9, #3072
.LBB5_1:                                // %start
                                        // =>This Inner Loop Header: Depth=1
	sub	sp, sp, #3072
	cmp	sp, x9
	str	xzr, [sp]
	b.ne	.LBB5_1
// %bb.2:                               // %start
	sub	sp, sp, #1456
	movi	v0.2d, #0000000000000000
	str	xzr, [sp]
	mov	x21, x2
	str	x1, [sp, #24]                   // 8-byte Spill
	sub	x25, x29, #112
	mov	w1, wzr
	str	x0, [sp, #8]                    // 8-byte Spill
	add	x0, sp, #312
	mov	w2, #65536                      // =0x10000
	add	x20, sp, #248
	add	x19, sp, #312
	stp	q0, q0, [x25, #16]
	stp	q0, q0, [x25, #48]
	str	q0, [x25]
	stp	q0, q0, [sp, #48]
	stp	q0, q0, [sp, #80]
	stp	q0, q0, [sp, #112]
	stp	q0, q0, [sp, #144]
	stp	q0, q0, [sp, #176]
	stp	q0, q0, [sp, #208]
	bl	memset
	movi	v0.16b, #48
	mov	x8, #3472328296227680304        // =0x3030303030303030
	add	x15, x19, #16, lsl #12          // =65536
	stur	x8, [x20, #41]
	mov	w8, #19                         // =0x13
	str	xzr, [sp, #248]
	strb	wzr, [sp, #256]
	str	xzr, [x15]
	stur	q0, [x20, #9]
	stur	q0, [x20, #25]
	stur	wzr, [x20, #49]
	str	wzr, [sp, #300]
	str	x8, [sp, #304]
	str	x21, [sp, #40]                  // 8-byte Spill
	cbz	x21, .LBB5_57
// %bb.3:                               // %join.3.i.lr.ph
	mov	x19, xzr
	mov	x24, xzr
	mov	x26, xzr
	add	x8, x20, #9
	mov	w28, #19                        // =0x13
	str	x15, [sp, #16]                  // 8-byte Spill
	str	x8, [sp, #32]                   // 8-byte Spill
	b	.LBB5_7
.LBB5_4:                                //   in Loop: Header=BB5_7 Depth=1
	mov	w28, #19                        // =0x13
.LBB5_5:                                // %"text_programs::programs::lines::fill_decimal.exit"
                                        //   in Loop: Header=BB5_7 Depth=1
	ldr	x9, [sp, #32]                   // 8-byte Reload
	orr	w8, w8, #0x30
	strb	w8, [x9, x28]
	str	x28, [sp, #304]
.LBB5_6:                                // %"text_programs::programs::offset::Offset::count_on.exit"
                                        //   in Loop: Header=BB5_7 Depth=1
	ldr	x9, [sp, #40]                   // 8-byte Reload
	eor	w8, w23, #0x1
	add	x24, x24, x8
	cmp	x26, x9
	b.eq	.LBB5_58
.LBB5_7:                                // %join.3.i
                                        // =>This Loop Header: Depth=1
                                        //     Child Loop BB5_43 Depth 2
	ldr	x8, [sp, #24]                   // 8-byte Reload
	add	x21, x8, x26
	ldrsb	w8, [x21]
	and	w20, w8, #0xff
	tbnz	w8, #31, .LBB5_10
// %bb.8:                               //   in Loop: Header=BB5_7 Depth=1
	mov	w10, wzr
	mov	w9, wzr
	mov	w8, wzr
	mov	w21, #1                         // =0x1
.LBB5_9:                                // %arm.4.i
                                        //   in Loop: Header=BB5_7 Depth=1
	orr	w9, w10, w9, lsl #16
	add	x26, x21, x26
	mov	w23, #1                         // =0x1
	orr	w8, w9, w8, lsl #8
	orr	w27, w8, w20
	mov	w8, #65457                      // =0xffb1
	cmp	x19, x8
	b.lo	.LBB5_24
	b	.LBB5_37
.LBB5_10:                               // %join.3.i22
                                        //   in Loop: Header=BB5_7 Depth=1
	and	x8, x8, #0xff
	adrp	x23, .Lstatic.7
	add	x23, x23, :lo12:.Lstatic.7
	ldrb	w8, [x23, x8]
	adrp	x27, .Lstatic.8
	add	x27, x27, :lo12:.Lstatic.8
	ldrb	w22, [x27, x8]
	cmp	x22, #12
	b.hi	.LBB5_16
// %bb.11:                              // %then.4.i28
                                        //   in Loop: Header=BB5_7 Depth=1
	ldr	x8, [sp, #40]                   // 8-byte Reload
	sub	x25, x8, x26
	cmp	x25, #3
	b.ls	.LBB5_54
.LBB5_12:                               // %join.3.i45
                                        //   in Loop: Header=BB5_7 Depth=1
	ldrb	w8, [x21, #1]
	add	x10, x27, x22, lsl #4
	ldrb	w9, [x23, w8, uxtw]
	ldrb	w0, [x10, x9]
	cmp	x0, #12
	b.hi	.LBB5_20
// %bb.13:                              // %then.1.i75
                                        //   in Loop: Header=BB5_7 Depth=1
	ldrb	w9, [x21, #2]
	add	x10, x27, x0, lsl #4
	sub	x25, x29, #112
	ldrb	w9, [x23, x9]
	ldrb	w0, [x10, x9]
	cmp	x0, #12
	b.hi	.LBB5_45
// %bb.14:                              // %then.1.i109
                                        //   in Loop: Header=BB5_7 Depth=1
	ldrb	w9, [x21, #3]
	add	x10, x27, x0, lsl #4
	ldrb	w9, [x23, x9]
	ldrb	w0, [x10, x9]
	cmp	w0, #13
	b.eq	.LBB5_49
// %bb.15:                              // %then.1.i109
                                        //   in Loop: Header=BB5_7 Depth=1
	cmp	w0, #16
	b.eq	.LBB5_22
	b	.LBB5_48
.LBB5_16:                               // %join.6.i24
                                        //   in Loop: Header=BB5_7 Depth=1
	cmp	w22, #14
	b.eq	.LBB5_19
// %bb.17:                              // %join.6.i24
                                        //   in Loop: Header=BB5_7 Depth=1
	cmp	w22, #13
	b.eq	.LBB5_63
// %bb.18:                              // %arm.2.i177
                                        //   in Loop: Header=BB5_7 Depth=1
	mov	w0, #1                          // =0x1
	b	.LBB5_23
.LBB5_19:                               //   in Loop: Header=BB5_7 Depth=1
	mov	w0, #2                          // =0x2
	b	.LBB5_23
.LBB5_20:                               // %join.3.i61
                                        //   in Loop: Header=BB5_7 Depth=1
	cmp	w0, #13
	sub	x25, x29, #112
	b.eq	.LBB5_49
// %bb.21:                              // %join.3.i61
                                        //   in Loop: Header=BB5_7 Depth=1
	cmp	w0, #16
	b.ne	.LBB5_47
.LBB5_22:                               //   in Loop: Header=BB5_7 Depth=1
	mov	w0, #3                          // =0x3
.LBB5_23:                               // %arm.8.i
                                        //   in Loop: Header=BB5_7 Depth=1
	mov	w23, wzr
	and	w27, w0, #0xff
	add	x26, x26, #1
	mov	w21, #1                         // =0x1
	mov	w8, #65457                      // =0xffb1
	cmp	x19, x8
	b.hs	.LBB5_37
.LBB5_24:                               // %join.10
                                        //   in Loop: Header=BB5_7 Depth=1
	ldr	x20, [sp, #248]
	cbz	x20, .LBB5_26
// %bb.25:                              // %else.2.i
                                        //   in Loop: Header=BB5_7 Depth=1
	ldrb	w22, [sp, #256]
	mov	w8, #205                        // =0xcd
	mov	w9, #10                         // =0xa
	ldr	x10, [sp, #32]                  // 8-byte Reload
	ldr	x11, [x15]
	add	x12, sp, #312
	mul	w8, w22, w8
	add	x10, x10, x28
	ldr	q0, [x10]
	lsr	w8, w8, #11
	msub	w9, w8, w9, w22
	orr	w8, w8, w9, lsl #8
	ldr	w9, [x10, #16]
	add	x10, x12, x11
	str	q0, [x10]
	str	w9, [x10, #16]
	orr	w8, w8, #0x3000
	sub	x9, x11, x28
	add	w10, w8, #48
	add	x11, x12, x9
	add	x8, x9, #22
	strh	w10, [x25, #92]
	strh	w10, [x11, #20]
	b	.LBB5_29
.LBB5_26:                               // %then.1.i224
                                        //   in Loop: Header=BB5_7 Depth=1
	ldrb	w22, [sp, #256]
	cmp	x22, #9
	b.hi	.LBB5_28
// %bb.27:                              // %then.1.i231
                                        //   in Loop: Header=BB5_7 Depth=1
	ldr	x8, [x15]
	add	x9, sp, #312
	orr	w10, w22, #0x30
	strb	w10, [x9, x8]
	add	x8, x8, #1
	b	.LBB5_29
.LBB5_28:                               // %else.2.i229
                                        //   in Loop: Header=BB5_7 Depth=1
	add	x0, sp, #312
	mov	x1, x22
	bl	"text_programs::programs::lines::Lines::push_digits"
	ldr	x15, [sp, #16]                  // 8-byte Reload
	ldr	x8, [x15]
.LBB5_29:                               // %"text_programs::programs::entries::push_piece.exit"
                                        //   in Loop: Header=BB5_7 Depth=1
	add	x10, sp, #312
	mov	w12, #32                        // =0x20
	orr	w11, w21, #0x30
	add	x9, x10, x8
	add	x13, x8, #2
	strb	w12, [x9]
	strb	w11, [x9, #1]
	add	x9, x8, #3
	and	w11, w27, #0xff
	str	x13, [x15]
	strb	w12, [x10, x13]
	cbz	w23, .LBB5_32
// %bb.30:                              // %arm.1.i279
                                        //   in Loop: Header=BB5_7 Depth=1
	tbnz	w11, #7, .LBB5_33
// %bb.31:                              // %then.2.i
                                        //   in Loop: Header=BB5_7 Depth=1
	and	w10, w27, #0x7f
	b	.LBB5_39
.LBB5_32:                               // %switch.lookup
                                        //   in Loop: Header=BB5_7 Depth=1
	adrp	x8, .Lswitch.table.main
	add	x8, x8, :lo12:.Lswitch.table.main
	add	x0, x10, x9
	ldr	x2, [x8, w11, uxtw #3]
	adrp	x8, .Lswitch.table.main.145
	add	x8, x8, :lo12:.Lswitch.table.main.145
	ldr	x1, [x8, w11, uxtw #3]
	add	x19, x2, x9
	bl	memcpy
	ldr	x15, [sp, #16]                  // 8-byte Reload
	b	.LBB5_40
.LBB5_33:                               // %join.4.i285
                                        //   in Loop: Header=BB5_7 Depth=1
	cmp	w11, #223
	b.hi	.LBB5_35
// %bb.34:                              // %then.5.i
                                        //   in Loop: Header=BB5_7 Depth=1
	ubfx	w10, w27, #8, #6
	bfi	w10, w27, #6, #5
	b	.LBB5_39
.LBB5_35:                               // %join.7.i287
                                        //   in Loop: Header=BB5_7 Depth=1
	lsr	w10, w27, #8
	lsl	w12, w27, #12
	ubfx	w13, w27, #16, #6
	cmp	w11, #239
	ubfiz	w10, w10, #6, #6
	b.hi	.LBB5_38
// %bb.36:                              // %then.8.i
                                        //   in Loop: Header=BB5_7 Depth=1
	and	w11, w12, #0xf000
	orr	w11, w13, w11
	orr	w10, w11, w10
	b	.LBB5_39
.LBB5_37:                               // %then.8
                                        //   in Loop: Header=BB5_7 Depth=1
	add	x0, sp, #144
	add	x1, sp, #312
	bl	"text_programs::programs::lines::Lines::write_to::<#cdc8ff12022c16a2>"
	ldr	x15, [sp, #16]                  // 8-byte Reload
	ldrb	w8, [sp, #144]
	cbz	w8, .LBB5_24
	b	.LBB5_56
.LBB5_38:                               // %join.10.i
                                        //   in Loop: Header=BB5_7 Depth=1
	and	w11, w12, #0x7000
	ubfx	w12, w27, #24, #6
	orr	w11, w11, w13
	orr	w10, w11, w10
	orr	w10, w12, w10, lsl #6
.LBB5_39:                               // %"utf_chars::utf8_char::Utf8Char::scalar.exit"
                                        //   in Loop: Header=BB5_7 Depth=1
	lsr	w11, w10, #15
	lsr	w13, w10, #7
	ubfiz	x10, x10, #1, #8
	adrp	x12, .Lstatic.9
	add	x12, x12, :lo12:.Lstatic.9
	add	x14, sp, #312
	and	x11, x11, #0x3e
	and	x13, x13, #0x1fe
	ldrh	w10, [x12, x10]
	ldrh	w11, [x12, x11]
	ldrh	w13, [x12, x13]
	add	x9, x14, x9
	add	x19, x8, #9
	strh	w10, [x9, #4]
	strh	w11, [x9]
	strh	w13, [x9, #2]
.LBB5_40:                               // %"text_programs::programs::entries::push_answer.exit"
                                        //   in Loop: Header=BB5_7 Depth=1
	add	x9, sp, #312
	add	w8, w22, w21
	mov	w10, #10                        // =0xa
	strb	w10, [x9, x19]
	and	w9, w8, #0xff
	add	x19, x19, #1
	cmp	w9, #100
	str	x19, [x15]
	strb	w8, [sp, #256]
	b.lo	.LBB5_6
// %bb.41:                              // %then.1.i343
                                        //   in Loop: Header=BB5_7 Depth=1
	sub	w9, w8, #100
	add	x8, x20, #1
	cmp	x8, #10
	strb	w9, [sp, #256]
	str	x8, [sp, #248]
	b.lo	.LBB5_4
// %bb.42:                              // %join.5.i.preheader
                                        //   in Loop: Header=BB5_7 Depth=1
	mov	w9, #28                         // =0x1c
.LBB5_43:                               // %join.5.i
                                        //   Parent Loop BB5_7 Depth=1
                                        // =>  This Inner Loop Header: Depth=2
	mov	x10, x8
	mov	x8, #-3689348814741910324       // =0xcccccccccccccccc
	mov	w11, #10                        // =0xa
	movk	x8, #52429
	add	x12, sp, #248
	cmp	x10, #99
	umulh	x8, x10, x8
	lsr	x8, x8, #3
	msub	w11, w8, w11, w10
	orr	w10, w11, #0x30
	strb	w10, [x12, x9]
	sub	x9, x9, #1
	b.hi	.LBB5_43
// %bb.44:                              // %after.1.loopexit.i
                                        //   in Loop: Header=BB5_7 Depth=1
	sub	x28, x9, #9
	b	.LBB5_5
.LBB5_45:                               // %join.3.i92
                                        //   in Loop: Header=BB5_7 Depth=1
	cmp	w0, #13
	b.eq	.LBB5_49
// %bb.46:                              // %join.3.i92
                                        //   in Loop: Header=BB5_7 Depth=1
	cmp	w0, #16
	b.eq	.LBB5_22
.LBB5_47:                               // %arm.2.i161
                                        //   in Loop: Header=BB5_7 Depth=1
                                        // kill: def $w0 killed $w0 killed $x0
.LBB5_48:                               // %arm.2.i158
                                        //   in Loop: Header=BB5_7 Depth=1
	bl	"utf_base::table::walks::error_of_value"
	ldr	x15, [sp, #16]                  // 8-byte Reload
	b	.LBB5_23
.LBB5_49:                               // %join.4.i183
                                        //   in Loop: Header=BB5_7 Depth=1
	cmp	w20, #224
	b.hs	.LBB5_51
// %bb.50:                              //   in Loop: Header=BB5_7 Depth=1
	mov	w10, wzr
	mov	w9, wzr
	mov	w21, #2                         // =0x2
	b	.LBB5_9
.LBB5_51:                               // %arm.1.i
                                        //   in Loop: Header=BB5_7 Depth=1
	ldrb	w9, [x21, #2]
	cmp	w20, #240
	b.hs	.LBB5_53
// %bb.52:                              //   in Loop: Header=BB5_7 Depth=1
	mov	w10, wzr
	mov	w21, #3                         // =0x3
	b	.LBB5_9
.LBB5_53:                               // %default.4.i
                                        //   in Loop: Header=BB5_7 Depth=1
	ldrb	w10, [x21, #3]
	mov	w21, #4                         // =0x4
	lsl	w10, w10, #24
	b	.LBB5_9
.LBB5_54:                               // %"utf_chars::codes::utf8::are_too_few.exit"
                                        //   in Loop: Header=BB5_7 Depth=1
	mov	w0, w22
	bl	"utf_chars::codes::utf8::missing_after"
	ldr	x15, [sp, #16]                  // 8-byte Reload
	cmp	x25, x0
	b.hi	.LBB5_12
// %bb.55:                              //   in Loop: Header=BB5_7 Depth=1
	mov	w0, wzr
	sub	x25, x29, #112
	b	.LBB5_23
.LBB5_56:                               // %arm.12
	ldp	q0, q1, [sp, #192]
	mov	w9, #1                          // =0x1
	ldr	x10, [sp, #8]                   // 8-byte Reload
	ldr	x8, [sp, #152]
	stp	q0, q1, [x10, #48]
	ldr	q0, [sp, #224]
	stp	x9, x8, [x10]
	str	q0, [x10, #80]
	ldp	q0, q2, [sp, #160]
	b	.LBB5_60
.LBB5_57:
	mov	x24, xzr
.LBB5_58:                               // %after.1
	add	x0, sp, #48
	add	x1, sp, #312
	bl	"text_programs::programs::lines::Lines::write_to::<#cdc8ff12022c16a2>"
	ldrb	w8, [sp, #48]
	cbz	w8, .LBB5_61
// %bb.59:                              // %arm.15
	ldp	q0, q1, [sp, #96]
	mov	w9, #1                          // =0x1
	ldr	x10, [sp, #8]                   // 8-byte Reload
	ldr	x8, [sp, #56]
	stp	q0, q1, [x10, #48]
	ldr	q0, [sp, #128]
	stp	x9, x8, [x10]
	str	q0, [x10, #80]
	ldp	q0, q2, [sp, #64]
.LBB5_60:                               // %common.ret
	stp	q0, q2, [x10, #16]
	b	.LBB5_62
.LBB5_61:                               // %arm.14
	ldp	q0, q1, [x25, #32]
	ldr	x8, [sp, #8]                    // 8-byte Reload
	ldr	q2, [x25, #64]
	stp	xzr, x24, [x8]
	stp	q0, q1, [x8, #48]
	ldp	q1, q0, [x25]
	str	q2, [x8, #80]
	stp	q1, q0, [x8, #16]
.LBB5_62:                               // %common.ret
	add	sp, sp, #16, lsl #12            // =65536
	add	sp, sp, #432
	.cfi_def_cfa wsp, 96
	ldp	x20, x19, [sp, #80]             // 16-byte Folded Reload
	ldp	x22, x21, [sp, #64]             // 16-byte Folded Reload
	ldp	x24, x23, [sp, #48]             // 16-byte Folded Reload
	ldp	x26, x25, [sp, #32]             // 16-byte Folded Reload
	ldp	x28, x27, [sp, #16]             // 16-byte Folded Reload
	ldp	x29, x30, [sp], #96             // 16-byte Folded Reload
	.cfi_def_cfa_offset 0
	.cfi_restore w19
	.cfi_restore w20
	.cfi_restore w21
	.cfi_restore w22
	.cfi_restore w23
	.cfi_restore w24
	.cfi_restore w25
	.cfi_restore w26
	.cfi_restore w27
	.cfi_restore w28
	.cfi_restore w30
	.cfi_restore w29
	ret
.LBB5_63:                               // %join.4.i
	.cfi_restore_state
	brk	#0x1
.Lfunc_end5:
	.size	"text_programs::programs::listing::write_listing::<#cdc8ff12022c16a2>", .Lfunc_end5-"text_programs::programs::listing::write_listing::<#cdc8ff12022c16a2>"
	.cfi_endproc
                                        // -- End function
	.section	".text.unlikely.utf_chars::codes::utf8::missing_after","ax",@progbits
	.p2align	2                               // -- Begin function utf_chars::codes::utf8::missing_after
	.type	"utf_chars::codes::utf8::missing_after",@function
"utf_chars::codes::utf8::missing_after": // @"utf_chars::codes::utf8::missing_after"
	.cfi_startproc
// %bb.0:                               // %start
                                        // kill: def $w0 killed $w0 def $x0
	and	x8, x0, #0xff
	adrp	x9, ".Lswitch.table.utf_chars::codes::utf8::missing_after"
	add	x9, x9, :lo12:".Lswitch.table.utf_chars::codes::utf8::missing_after"
	ldr	x0, [x9, x8, lsl #3]
	ret
.Lfunc_end6:
	.size	"utf_chars::codes::utf8::missing_after", .Lfunc_end6-"utf_chars::codes::utf8::missing_after"
	.cfi_endproc
                                        // -- End function
	.section	".text.unlikely.utf_base::table::walks::error_of_value","ax",@progbits
	.p2align	2                               // -- Begin function utf_base::table::walks::error_of_value
	.type	"utf_base::table::walks::error_of_value",@function
"utf_base::table::walks::error_of_value": // @"utf_base::table::walks::error_of_value"
	.cfi_startproc
// %bb.0:                               // %start
                                        // kill: def $w0 killed $w0 def $x0
	and	x8, x0, #0xff
	adrp	x9, ".Lswitch.table.utf_base::table::walks::error_of_value"
	add	x9, x9, :lo12:".Lswitch.table.utf_base::table::walks::error_of_value"
	ldrb	w0, [x9, x8]
	ret
.Lfunc_end7:
	.size	"utf_base::table::walks::error_of_value", .Lfunc_end7-"utf_base::table::walks::error_of_value"
	.cfi_endproc
                                        // -- End function
	.section	".text.text_programs::programs::lines::Lines::push_digits","ax",@progbits
	.p2align	2                               // -- Begin function text_programs::programs::lines::Lines::push_digits
	.type	"text_programs::programs::lines::Lines::push_digits",@function
"text_programs::programs::lines::Lines::push_digits": // @"text_programs::programs::lines::Lines::push_digits"
	.cfi_startproc
// %bb.0:                               // %start
	sub	sp, sp, #48
	.cfi_def_cfa_offset 48
	movi	v0.2d, #0000000000000000
	mov	x9, sp
	mov	x8, xzr
	add	x9, x9, #19
	str	xzr, [sp, #32]
	stp	q0, q0, [sp]
.LBB8_1:                                // %join.5.i
                                        // =>This Inner Loop Header: Depth=1
	mov	x10, #-3689348814741910324      // =0xcccccccccccccccc
	mov	w11, #10                        // =0xa
	cmp	x1, #99
	movk	x10, #52429
	umulh	x10, x1, x10
	lsr	x10, x10, #3
	msub	w11, w10, w11, w1
	mov	x1, x10
	orr	w11, w11, #0x30
	strb	w11, [x9, x8]
	sub	x8, x8, #1
	b.hi	.LBB8_1
// %bb.2:                               // %"text_programs::programs::lines::fill_decimal.exit"
	mov	x9, sp
	mov	w11, #65536                     // =0x10000
	orr	w10, w10, #0x30
	add	x9, x9, x8
	ldr	x12, [x0, x11]
	strb	w10, [x9, #19]
	ldur	w10, [x9, #35]
	ldur	q0, [x9, #19]
	add	x13, x0, x12
	sub	x8, x12, x8
	str	w10, [x13, #16]
	add	x8, x8, #1
	str	q0, [x13]
	str	x8, [x0, x11]
	add	sp, sp, #48
	.cfi_def_cfa_offset 0
	ret
.Lfunc_end8:
	.size	"text_programs::programs::lines::Lines::push_digits", .Lfunc_end8-"text_programs::programs::lines::Lines::push_digits"
	.cfi_endproc
                                        // -- End function
	.section	".text.unlikely.text_programs::programs::lines::Lines::write_to::<#cdc8ff12022c16a2>","ax",@progbits
	.p2align	2                               // -- Begin function text_programs::programs::lines::Lines::write_to::<#cdc8ff12022c16a2>
	.type	"text_programs::programs::lines::Lines::write_to::<#cdc8ff12022c16a2>",@function
"text_programs::programs::lines::Lines::write_to::<#cdc8ff12022c16a2>": // @"text_programs::programs::lines::Lines::write_to::<#cdc8ff12022c16a2>"
	.cfi_startproc
// %bb.0:                               // %start
	stp	x29, x30, [sp, #-96]!           // 16-byte Folded Spill
	.cfi_def_cfa_offset 96
	str	x28, [sp, #16]                  // 8-byte Spill
	stp	x26, x25, [sp, #32]             // 16-byte Folded Spill
	stp	x24, x23, [sp, #48]             // 16-byte Folded Spill
	stp	x22, x21, [sp, #64]             // 16-byte Folded Spill
	stp	x20, x19, [sp, #80]             // 16-byte Folded Spill
	mov	x29, sp
	.cfi_def_cfa w29, 96
	.cfi_offset w19, -8
	.cfi_offset w20, -16
	.cfi_offset w21, -24
	.cfi_offset w22, -32
	.cfi_offset w23, -40
	.cfi_offset w24, -48
	.cfi_offset w25, -56
	.cfi_offset w26, -64
	.cfi_offset w28, -80
	.cfi_offset w30, -88
	.cfi_offset w29, -96
	sub	sp, sp, #496
	movi	v0.2d, #0000000000000000
	add	x22, x1, #16, lsl #12           // =65536
	mov	x19, x0
	ldr	x23, [x22]
	stp	q0, q0, [sp, #80]
	stp	q0, q0, [sp, #112]
	stp	q0, q0, [sp, #144]
	stp	q0, q0, [sp, #176]
	stp	q0, q0, [sp, #208]
	cbz	x23, .LBB9_8
// %bb.1:                               // %join.5.i.lr.ph
	mov	x20, x1
	mov	x24, xzr
	sub	x25, x29, #176
.LBB9_2:                                // %join.5.i
                                        // =>This Inner Loop Header: Depth=1
	add	x1, x20, x24
	sub	x2, x23, x24
	mov	w0, #1                          // =0x1
	sub	x26, x23, x24
	bl	write
	mov	x21, x0
	tbnz	x0, #63, .LBB9_4
// %bb.3:                               // %arm.5.i
                                        //   in Loop: Header=BB9_2 Depth=1
	movi	v0.2d, #0000000000000000
	cmp	x21, x26
	csel	x8, x21, x26, lo
	stp	q0, q0, [x29, #-176]
	stp	q0, q0, [x29, #-144]
	stur	q0, [x29, #-112]
	b	.LBB9_5
.LBB9_4:                                // %arm.4.i
                                        //   in Loop: Header=BB9_2 Depth=1
	sub	x0, x29, #176
	bl	"std_io::io::error::last_error"
	ldur	q1, [x25, #40]
	ldur	q2, [x25, #56]
	ldur	q3, [x25, #72]
	ldur	q0, [x25, #8]
	ldur	x8, [x29, #-176]
	stp	q1, q2, [sp, #272]
	ldur	q1, [x25, #24]
	str	q3, [sp, #304]
	stur	q0, [x29, #-80]
	stp	q0, q1, [sp, #240]
	ldp	q0, q2, [sp, #288]
	stp	q0, q2, [x29, #-128]
	ldp	q2, q1, [sp, #256]
	ldr	q0, [sp, #240]
	stp	q2, q1, [x29, #-160]
	stur	q0, [x29, #-176]
.LBB9_5:                                // %"text_runs::counted::Counted::put::<#cdc8ff12022c16a2>.exit"
                                        //   in Loop: Header=BB9_2 Depth=1
	ldp	q0, q1, [x29, #-128]
	ldur	q2, [x29, #-144]
	stp	q0, q1, [x29, #-32]
	stp	q2, q0, [sp, #112]
	ldp	q2, q0, [x29, #-176]
	str	q1, [sp, #144]
	stp	q2, q0, [sp, #80]
	tbnz	x21, #63, .LBB9_9
// %bb.6:                               // %arm.6.i
                                        //   in Loop: Header=BB9_2 Depth=1
	cbz	x8, .LBB9_10
// %bb.7:                               // %join.12.i
                                        //   in Loop: Header=BB9_2 Depth=1
	add	x24, x8, x24
	cmp	x24, x23
	b.lo	.LBB9_2
.LBB9_8:                                // %arm.1
	movi	v0.2d, #0000000000000000
	str	xzr, [x22]
	strb	wzr, [x19]
	str	xzr, [x19, #88]
	stur	q0, [x19, #8]
	stur	q0, [x19, #24]
	stur	q0, [x19, #40]
	stur	q0, [x19, #56]
	stur	q0, [x19, #72]
	b	.LBB9_12
.LBB9_9:                                // %arm.7.i
	ldp	q0, q1, [sp, #112]
	lsr	x10, x8, #8
	ldp	q4, q3, [sp, #80]
	lsr	x9, x8, #16
	ldr	q2, [sp, #144]
	stp	q0, q1, [sp, #32]
	str	q2, [sp, #64]
	stp	q4, q3, [sp]
	stp	q4, q3, [sp, #160]
	stp	q0, q1, [sp, #192]
	str	q2, [sp, #224]
	b	.LBB9_11
.LBB9_10:                               // %then.10.i
	movi	v0.2d, #0000000000000000
	mov	x9, xzr
	mov	w10, #23                        // =0x17
	mov	w8, #1                          // =0x1
	stp	q0, q0, [sp, #16]
	stp	q0, q0, [sp, #48]
	str	q0, [sp]
.LBB9_11:                               // %arm.2
	ldp	q0, q1, [sp, #32]
	mov	w11, #1                         // =0x1
	strb	w8, [x19, #8]
	lsr	x8, x9, #32
	ldr	q2, [sp, #64]
	strb	w11, [x19]
	stp	q0, q1, [x19, #48]
	ldp	q1, q0, [sp]
	strb	w10, [x19, #9]
	stur	w9, [x19, #10]
	strh	w8, [x19, #14]
	str	q2, [x19, #80]
	stp	q1, q0, [x19, #16]
.LBB9_12:                               // %arm.1
	add	sp, sp, #496
	.cfi_def_cfa wsp, 96
	ldp	x20, x19, [sp, #80]             // 16-byte Folded Reload
	ldr	x28, [sp, #16]                  // 8-byte Reload
	ldp	x22, x21, [sp, #64]             // 16-byte Folded Reload
	ldp	x24, x23, [sp, #48]             // 16-byte Folded Reload
	ldp	x26, x25, [sp, #32]             // 16-byte Folded Reload
	ldp	x29, x30, [sp], #96             // 16-byte Folded Reload
	.cfi_def_cfa_offset 0
	.cfi_restore w19
	.cfi_restore w20
	.cfi_restore w21
	.cfi_restore w22
	.cfi_restore w23
	.cfi_restore w24
	.cfi_restore w25
	.cfi_restore w26
	.cfi_restore w28
	.cfi_restore w30
	.cfi_restore w29
	ret
.Lfunc_end9:
	.size	"text_programs::programs::lines::Lines::write_to::<#cdc8ff12022c16a2>", .Lfunc_end9-"text_programs::programs::lines::Lines::write_to::<#cdc8ff12022c16a2>"
	.cfi_endproc
                                        // -- End function
	.section	".text.text_programs::programs::pieces_program::merge_all::<#e3b2a9d4d2861db8>","ax",@progbits
	.p2align	2                               // -- Begin function text_programs::programs::pieces_program::merge_all::<#e3b2a9d4d2861db8>
	.type	"text_programs::programs::pieces_program::merge_all::<#e3b2a9d4d2861db8>",@function
"text_programs::programs::pieces_program::merge_all::<#e3b2a9d4d2861db8>": // @"text_programs::programs::pieces_program::merge_all::<#e3b2a9d4d2861db8>"
	.cfi_startproc
// %bb.0:                               // %start
	sub	sp, sp, #160
	.cfi_def_cfa_offset 160
	stp	x29, x30, [sp, #64]             // 16-byte Folded Spill
	str	x27, [sp, #80]                  // 8-byte Spill
	stp	x26, x25, [sp, #96]             // 16-byte Folded Spill
	stp	x24, x23, [sp, #112]            // 16-byte Folded Spill
	stp	x22, x21, [sp, #128]            // 16-byte Folded Spill
	stp	x20, x19, [sp, #144]            // 16-byte Folded Spill
	add	x29, sp, #64
	.cfi_def_cfa w29, 96
	.cfi_offset w19, -8
	.cfi_offset w20, -16
	.cfi_offset w21, -24
	.cfi_offset w22, -32
	.cfi_offset w23, -40
	.cfi_offset w24, -48
	.cfi_offset w25, -56
	.cfi_offset w26, -64
	.cfi_offset w27, -80
	.cfi_offset w30, -88
	.cfi_offset w29, -96
	.cfi_remember_state
	mov	x20, x2
	mov	x21, x1
	mov	x19, x0
	mov	x22, xzr
	mov	w0, wzr
	mov	w24, wzr
	add	x23, x29, #31
	stp	xzr, xzr, [sp, #8]
	stur	xzr, [sp, #31]
	str	xzr, [sp, #24]
	stp	xzr, xzr, [x29, #-16]
	stur	x23, [x29, #-24]
	lsr	w8, w0, #24
.LBB10_1:                               // %loop.2.i
                                        // =>This Inner Loop Header: Depth=1
	cbnz	w8, .LBB10_4
// %bb.2:                               // %join.3.i.i
                                        //   in Loop: Header=BB10_1 Depth=1
	cbz	x20, .LBB10_43
// %bb.3:                               // %arm.6.i3.i
                                        //   in Loop: Header=BB10_1 Depth=1
	ldrb	w25, [x21], #1
	mov	w24, wzr
	sub	x20, x20, #1
	b	.LBB10_8
.LBB10_4:                               // %then.1.i.i
                                        //   in Loop: Header=BB10_1 Depth=1
	cmp	w8, #1
	b.eq	.LBB10_7
// %bb.5:                               // %after.1.i.i
                                        //   in Loop: Header=BB10_1 Depth=1
	cbz	w8, .LBB10_43
// %bb.6:                               // %join.13.i.i
                                        //   in Loop: Header=BB10_1 Depth=1
	mov	w8, w0
                                        // kill: def $w0 killed $w0 killed $x0
	and	x25, x8, #0xff
	bl	"encode_unicode::held_bytes::without_first"
                                        // kill: def $w0 killed $w0 def $x0
	b	.LBB10_8
.LBB10_7:                               // %then.5.i.i
                                        //   in Loop: Header=BB10_1 Depth=1
	and	x25, x0, #0xff
	mov	w0, wzr
.LBB10_8:                               // %arm.2.i.i
                                        //   in Loop: Header=BB10_1 Depth=1
	adrp	x11, .Lstatic.7
	add	x11, x11, :lo12:.Lstatic.7
	adrp	x12, .Lstatic.8
	add	x12, x12, :lo12:.Lstatic.8
	ldrb	w9, [x11, x25]
	ldrb	w8, [x12, w9, uxtw]
	cmp	w8, #13
	b.ne	.LBB10_11
// %bb.9:                               // %"encode_unicode::utf8_merger::code_of::<#8231def798dd03ff>.exit.thread508.i"
                                        //   in Loop: Header=BB10_1 Depth=1
	mov	w11, wzr
	mov	w10, wzr
	mov	w9, wzr
	and	x8, x25, #0x7f
.LBB10_10:                              // %arm.6.i.i
                                        //   in Loop: Header=BB10_1 Depth=1
	orr	w10, w11, w10, lsl #16
	mov	w25, wzr
	orr	w9, w10, w9, lsl #8
	orr	w26, w9, w8
	ldur	x8, [x29, #-8]
	cmp	x8, x22
	b.ne	.LBB10_24
	b	.LBB10_25
.LBB10_11:                              // %join.3.i16.i
                                        //   in Loop: Header=BB10_1 Depth=1
	b.hs	.LBB10_20
// %bb.12:                              // %join.6.i.i
                                        //   in Loop: Header=BB10_1 Depth=1
	tbnz	w24, #0, .LBB10_22
// %bb.13:                              // %join.9.i.i
                                        //   in Loop: Header=BB10_1 Depth=1
	cbz	x20, .LBB10_21
// %bb.14:                              // %arm.2.i30.i
                                        //   in Loop: Header=BB10_1 Depth=1
	mov	x26, x21
	add	x8, x12, x8, lsl #4
	sub	x27, x20, #1
	ldrb	w9, [x26], #1
	ldrb	w10, [x11, x9]
	ldrb	w8, [x8, x10]
	cmp	x8, #12
	b.hi	.LBB10_27
// %bb.15:                              // %then.5.i42.i
                                        //   in Loop: Header=BB10_1 Depth=1
	cbz	x27, .LBB10_35
// %bb.16:                              // %arm.2.i51.i
                                        //   in Loop: Header=BB10_1 Depth=1
	ldrb	w10, [x21, #1]
	add	x8, x12, x8, lsl #4
	add	x26, x21, #2
	sub	x27, x20, #2
	ldrb	w13, [x11, x10]
	ldrb	w8, [x8, x13]
	cmp	x8, #12
	b.hi	.LBB10_32
// %bb.17:                              // %then.5.i74.i
                                        //   in Loop: Header=BB10_1 Depth=1
	cbz	x27, .LBB10_40
// %bb.18:                              // %arm.2.i92.i
                                        //   in Loop: Header=BB10_1 Depth=1
	ldrb	w13, [x21, #2]
	add	x8, x12, x8, lsl #4
	add	x21, x21, #3
	sub	x20, x20, #3
	ldrb	w11, [x11, x13]
	ldrb	w8, [x8, x11]
	cmp	w8, #13
	b.ne	.LBB10_38
// %bb.19:                              // %"encode_unicode::utf8_merger::code_of::<#8231def798dd03ff>.exit.i"
                                        //   in Loop: Header=BB10_1 Depth=1
	mov	w8, #240                        // =0xf0
	lsl	w11, w13, #24
	bfxil	x8, x25, #0, #3
	b	.LBB10_10
.LBB10_20:                              // %then.4.i.i
                                        //   in Loop: Header=BB10_1 Depth=1
	sub	w8, w9, #1
	cmp	w8, #3
	mov	w8, #1                          // =0x1
	cinc	w8, w8, lo
	b	.LBB10_23
.LBB10_21:                              //   in Loop: Header=BB10_1 Depth=1
	mov	w0, wzr
.LBB10_22:                              //   in Loop: Header=BB10_1 Depth=1
	mov	w8, wzr
	mov	w24, #1                         // =0x1
.LBB10_23:                              // %arm.5.i.i
                                        //   in Loop: Header=BB10_1 Depth=1
	and	w26, w8, #0xff
	mov	w25, #1                         // =0x1
	ldur	x8, [x29, #-8]
	cmp	x8, x22
	b.eq	.LBB10_25
.LBB10_24:                              // %"core::result::ResultTry::branch::<#0788f82b7f7347db>.exit.i"
                                        //   in Loop: Header=BB10_1 Depth=1
	add	x8, x22, x22, lsl #2
	add	x22, x22, #1
	add	x8, x23, x8
	strb	w25, [x8]
	stur	w26, [x8, #1]
	stur	x22, [x29, #-16]
	lsr	w8, w0, #24
	tbz	w24, #0, .LBB10_1
	b	.LBB10_4
.LBB10_25:                              // %"std_alloc::vec::Vec::grow::<#5ddfc3724c8523c7>.exit.i.i"
                                        //   in Loop: Header=BB10_1 Depth=1
	mov	x27, x0
	sub	x0, x29, #24
	bl	"std_alloc::vec::Vec::grow_amortized::<#5ddfc3724c8523c7>"
	cbz	w0, .LBB10_45
// %bb.26:                              // %"std_alloc::vec::Vec::grow::<#5ddfc3724c8523c7>.exit.join.3_crit_edge.i.i"
                                        //   in Loop: Header=BB10_1 Depth=1
	ldp	x23, x22, [x29, #-24]
	mov	x0, x27
	b	.LBB10_24
.LBB10_27:                              // %join.7.i.i
                                        //   in Loop: Header=BB10_1 Depth=1
	cmp	w8, #13
	b.ne	.LBB10_29
// %bb.28:                              // %"encode_unicode::utf8_merger::code_of::<#8231def798dd03ff>.exit.thread678.i"
                                        //   in Loop: Header=BB10_1 Depth=1
	mov	w8, #192                        // =0xc0
	mov	w11, wzr
	mov	w10, wzr
	bfxil	x8, x25, #0, #5
	b	.LBB10_34
.LBB10_29:                              // %then.8.i.i
                                        //   in Loop: Header=BB10_1 Depth=1
	cmp	w8, #16
	orr	w0, w9, #0x1000000
	b.ne	.LBB10_37
.LBB10_30:                              //   in Loop: Header=BB10_1 Depth=1
	mov	w24, wzr
	mov	w8, #3                          // =0x3
.LBB10_31:                              // %arm.5.i.i
                                        //   in Loop: Header=BB10_1 Depth=1
	mov	x20, x27
	mov	x21, x26
	b	.LBB10_23
.LBB10_32:                              // %join.7.i62.i
                                        //   in Loop: Header=BB10_1 Depth=1
	cmp	w8, #13
	b.ne	.LBB10_36
// %bb.33:                              // %"encode_unicode::utf8_merger::code_of::<#8231def798dd03ff>.exit.thread765.i"
                                        //   in Loop: Header=BB10_1 Depth=1
	mov	w8, #224                        // =0xe0
	mov	w11, wzr
	bfxil	x8, x25, #0, #4
.LBB10_34:                              // %arm.6.i.i
                                        //   in Loop: Header=BB10_1 Depth=1
	mov	x20, x27
	mov	x21, x26
	b	.LBB10_10
.LBB10_35:                              // %arm.1.i78.i
                                        //   in Loop: Header=BB10_1 Depth=1
	mov	x20, xzr
	mov	w8, wzr
	orr	w0, w9, #0x1000000
	b	.LBB10_41
.LBB10_36:                              // %then.8.i66.i
                                        //   in Loop: Header=BB10_1 Depth=1
	orr	w9, w9, w10, lsl #8
	cmp	w8, #16
	orr	w0, w9, #0x2000000
	b.eq	.LBB10_30
.LBB10_37:                              // %arm.2.i.i68.i
                                        //   in Loop: Header=BB10_1 Depth=1
	mov	x20, x0
	mov	w0, w8
	bl	"utf_base::table::walks::error_of_value"
	mov	w8, w0
	mov	x0, x20
	mov	w24, wzr
	b	.LBB10_31
.LBB10_38:                              // %then.5.i108.i
                                        //   in Loop: Header=BB10_1 Depth=1
	orr	w9, w9, w10, lsl #8
	cmp	w8, #16
	orr	w9, w9, w13, lsl #16
	orr	w0, w9, #0x3000000
	b.ne	.LBB10_42
// %bb.39:                              //   in Loop: Header=BB10_1 Depth=1
	mov	w24, wzr
	mov	w8, #3                          // =0x3
	b	.LBB10_23
.LBB10_40:                              // %arm.1.i117.i
                                        //   in Loop: Header=BB10_1 Depth=1
	orr	w9, w9, w10, lsl #8
	mov	x20, xzr
	mov	w8, wzr
	orr	w0, w9, #0x2000000
.LBB10_41:                              // %arm.5.i.i
                                        //   in Loop: Header=BB10_1 Depth=1
	mov	w24, #1                         // =0x1
	mov	x21, x26
	b	.LBB10_23
.LBB10_42:                              // %arm.2.i.i111.i
                                        //   in Loop: Header=BB10_1 Depth=1
	mov	x24, x0
	mov	w0, w8
	bl	"utf_base::table::walks::error_of_value"
	mov	w8, w0
	mov	x0, x24
	mov	w24, wzr
	b	.LBB10_23
.LBB10_43:                              // %arm.1
	ldur	q0, [x29, #-24]
	ldur	x8, [x29, #-8]
	strb	wzr, [x19]
	stur	q0, [sp, #15]
	stur	x8, [sp, #31]
	stur	q0, [x19, #8]
	str	x8, [x19, #24]
.LBB10_44:                              // %common.ret
	.cfi_def_cfa wsp, 160
	ldp	x20, x19, [sp, #144]            // 16-byte Folded Reload
	ldr	x27, [sp, #80]                  // 8-byte Reload
	ldp	x22, x21, [sp, #128]            // 16-byte Folded Reload
	ldp	x24, x23, [sp, #112]            // 16-byte Folded Reload
	ldp	x26, x25, [sp, #96]             // 16-byte Folded Reload
	ldp	x29, x30, [sp, #64]             // 16-byte Folded Reload
	add	sp, sp, #160
	.cfi_def_cfa_offset 0
	.cfi_restore w19
	.cfi_restore w20
	.cfi_restore w21
	.cfi_restore w22
	.cfi_restore w23
	.cfi_restore w24
	.cfi_restore w25
	.cfi_restore w26
	.cfi_restore w27
	.cfi_restore w30
	.cfi_restore w29
	ret
.LBB10_45:                              // %arm.9.i
	.cfi_restore_state
	ldur	x8, [x29, #-8]
	cbz	x8, .LBB10_47
// %bb.46:                              // %then.1.i.i.i.i
	ldur	x0, [x29, #-24]
	bl	rattle_dealloc
.LBB10_47:                              // %arm.2
	mov	w8, #1                          // =0x1
	stp	xzr, xzr, [x19, #16]
	strb	w8, [x19]
	str	xzr, [x19, #8]
	b	.LBB10_44
.Lfunc_end10:
	.size	"text_programs::programs::pieces_program::merge_all::<#e3b2a9d4d2861db8>", .Lfunc_end10-"text_programs::programs::pieces_program::merge_all::<#e3b2a9d4d2861db8>"
	.cfi_endproc
                                        // -- End function
	.section	".text.unlikely.encode_unicode::held_bytes::without_first","ax",@progbits
	.p2align	2                               // -- Begin function encode_unicode::held_bytes::without_first
	.type	"encode_unicode::held_bytes::without_first",@function
"encode_unicode::held_bytes::without_first": // @"encode_unicode::held_bytes::without_first"
	.cfi_startproc
// %bb.0:                               // %start
	and	w8, w0, #0xff000000
	mov	w9, #-16777216                  // =0xff000000
	bfxil	w8, w0, #8, #16
	add	w0, w8, w9
	ret
.Lfunc_end11:
	.size	"encode_unicode::held_bytes::without_first", .Lfunc_end11-"encode_unicode::held_bytes::without_first"
	.cfi_endproc
                                        // -- End function
	.section	".text.unlikely.std_alloc::vec::Vec::grow_amortized::<#5ddfc3724c8523c7>","ax",@progbits
	.p2align	2                               // -- Begin function std_alloc::vec::Vec::grow_amortized::<#5ddfc3724c8523c7>
	.type	"std_alloc::vec::Vec::grow_amortized::<#5ddfc3724c8523c7>",@function
"std_alloc::vec::Vec::grow_amortized::<#5ddfc3724c8523c7>": // @"std_alloc::vec::Vec::grow_amortized::<#5ddfc3724c8523c7>"
	.cfi_startproc
// %bb.0:                               // %start
	ldr	x8, [x0, #8]
	cmn	x8, #1
	b.eq	.LBB12_5
// %bb.1:                               // %join.3
	stp	x29, x30, [sp, #-32]!           // 16-byte Folded Spill
	.cfi_def_cfa_offset 32
	stp	x20, x19, [sp, #16]             // 16-byte Folded Spill
	mov	x29, sp
	.cfi_def_cfa w29, 32
	.cfi_offset w19, -8
	.cfi_offset w20, -16
	.cfi_offset w30, -24
	.cfi_offset w29, -32
	.cfi_remember_state
	ldr	x9, [x0, #16]
	cmp	x8, #3
	mov	w10, #3                         // =0x3
	csel	x11, x8, x10, hi
	lsl	x10, x9, #1
	add	x12, x11, #1
	lsr	x13, x9, #62
	cmp	x12, x10
	csinc	x10, x10, x11, ls
	cmp	x13, #0
	csinc	x19, x10, x11, eq
	mov	x11, #-7378697629483820647      // =0x9999999999999999
	movk	x11, #6553, lsl #48
	cmp	x19, x11
	b.hi	.LBB12_7
// %bb.2:                               // %join.3.i
	cbz	x9, .LBB12_6
// %bb.3:                               // %then.1.i.i
	mov	x20, x0
	ldr	x0, [x0]
	add	x1, x8, x8, lsl #2
	add	x2, x19, x19, lsl #2
	mov	w3, #1                          // =0x1
	bl	rattle_realloc
	tbz	w0, #0, .LBB12_7
.LBB12_4:                               // %arm.5.i
	mov	w0, #1                          // =0x1
	str	x1, [x20]
	str	x19, [x20, #16]
	.cfi_def_cfa wsp, 32
	ldp	x20, x19, [sp, #16]             // 16-byte Folded Reload
	ldp	x29, x30, [sp], #32             // 16-byte Folded Reload
	.cfi_def_cfa_offset 0
	.cfi_restore w19
	.cfi_restore w20
	.cfi_restore w30
	.cfi_restore w29
	ret
.LBB12_5:
	mov	w0, wzr
	ret
.LBB12_6:                               // %"std_alloc::vec::resize::<#5ddfc3724c8523c7>.exit.i"
	.cfi_restore_state
	mov	x20, x0
	add	x0, x10, x10, lsl #2
	mov	w1, #1                          // =0x1
	bl	rattle_alloc
	tbnz	w0, #0, .LBB12_4
.LBB12_7:
	mov	w0, wzr
	.cfi_def_cfa wsp, 32
	ldp	x20, x19, [sp, #16]             // 16-byte Folded Reload
	ldp	x29, x30, [sp], #32             // 16-byte Folded Reload
	.cfi_def_cfa_offset 0
	.cfi_restore w19
	.cfi_restore w20
	.cfi_restore w30
	.cfi_restore w29
	ret
.Lfunc_end12:
	.size	"std_alloc::vec::Vec::grow_amortized::<#5ddfc3724c8523c7>", .Lfunc_end12-"std_alloc::vec::Vec::grow_amortized::<#5ddfc3724c8523c7>"
	.cfi_endproc
                                        // -- End function
	.section	".text.text_programs::programs::listing::write_merged::<#cdc8ff12022c16a2>","ax",@progbits
	.p2align	2                               // -- Begin function text_programs::programs::listing::write_merged::<#cdc8ff12022c16a2>
	.type	"text_programs::programs::listing::write_merged::<#cdc8ff12022c16a2>",@function
"text_programs::programs::listing::write_merged::<#cdc8ff12022c16a2>": // @"text_programs::programs::listing::write_merged::<#cdc8ff12022c16a2>"
	.cfi_startproc
// %bb.0:                               // %start
	stp	x29, x30, [sp, #-80]!           // 16-byte Folded Spill
	.cfi_def_cfa_offset 80
	stp	x28, x25, [sp, #16]             // 16-byte Folded Spill
	stp	x24, x23, [sp, #32]             // 16-byte Folded Spill
	stp	x22, x21, [sp, #48]             // 16-byte Folded Spill
	stp	x20, x19, [sp, #64]             // 16-byte Folded Spill
	mov	x29, sp
	.cfi_def_cfa w29, 80
	.cfi_offset w19, -8
	.cfi_offset w20, -16
	.cfi_offset w21, -24
	.cfi_offset w22, -32
	.cfi_offset w23, -40
	.cfi_offset w24, -48
	.cfi_offset w25, -56
	.cfi_offset w28, -64
	.cfi_offset w30, -72
	.cfi_offset w29, -80
	sub	x9, sp, #15, lsl #12            // =61440
	sub	x9, x9, #3072
.LBB13_1:                               // %start
                                        // =>This Inner Loop Header: Depth=1
	sub	sp, sp, #3072
	cmp	sp, x9
	str	xzr, [sp]
	b.ne	.LBB13_1
// %bb.2:                               // %start
	sub	sp, sp, #1312
	movi	v0.2d, #0000000000000000
	mov	x20, x2
	mov	w2, #8                          // =0x8
	mov	x21, x1
	mov	x19, x0
	add	x0, sp, #280
	mov	w1, wzr
	movk	w2, #1, lsl #16
	str	xzr, [sp]
	add	x23, sp, #280
	stp	q0, q0, [sp, #80]
	stp	q0, q0, [sp, #112]
	stp	q0, q0, [sp, #144]
	stp	q0, q0, [sp, #176]
	stp	q0, q0, [sp, #208]
	stp	q0, q0, [sp, #240]
	bl	memset
	cbz	x20, .LBB13_18
// %bb.3:                               // %join.6.i.preheader
	mov	x8, xzr
	mov	x22, xzr
	add	x23, x23, #16, lsl #12          // =65536
	add	x21, x21, #1
	b	.LBB13_6
.LBB13_4:                               // %switch.lookup
                                        //   in Loop: Header=BB13_6 Depth=1
	and	x8, x8, #0xff
	adrp	x9, .Lswitch.table.main
	add	x9, x9, :lo12:.Lswitch.table.main
	ldr	x2, [x9, x8, lsl #3]
	ldr	x9, [x23]
	adrp	x10, .Lswitch.table.main.145
	add	x10, x10, :lo12:.Lswitch.table.main.145
	ldr	x1, [x10, x8, lsl #3]
	add	x8, sp, #280
	add	x25, x9, x2
	add	x0, x8, x9
	bl	memcpy
.LBB13_5:                               // %"text_programs::programs::entries::ResultUtf8CharUtf8ErrorEntry::push_to.exit.i"
                                        //   in Loop: Header=BB13_6 Depth=1
	add	x8, sp, #280
	cmp	w24, #0
	mov	w9, #10                         // =0xa
	strb	w9, [x8, x25]
	add	x8, x25, #1
	cinc	x22, x22, ne
	subs	x20, x20, #1
	add	x21, x21, #5
	str	x8, [x23]
	b.eq	.LBB13_19
.LBB13_6:                               // %join.6.i
                                        // =>This Inner Loop Header: Depth=1
	mov	w9, #65457                      // =0xffb1
	cmp	x8, x9
	b.hs	.LBB13_14
.LBB13_7:                               // %join.10.i
                                        //   in Loop: Header=BB13_6 Depth=1
	ldurb	w24, [x21, #-1]
	ldr	w8, [x21]
	cbnz	w24, .LBB13_4
// %bb.8:                               // %arm.1.i.i.i
                                        //   in Loop: Header=BB13_6 Depth=1
	and	w9, w8, #0xff
	tbnz	w9, #7, .LBB13_10
// %bb.9:                               // %then.2.i.i.i
                                        //   in Loop: Header=BB13_6 Depth=1
	and	w9, w8, #0x7f
	b	.LBB13_16
.LBB13_10:                              // %join.4.i.i.i
                                        //   in Loop: Header=BB13_6 Depth=1
	cmp	w9, #223
	b.hi	.LBB13_12
// %bb.11:                              // %then.5.i.i.i
                                        //   in Loop: Header=BB13_6 Depth=1
	ubfx	w9, w8, #8, #6
	bfi	w9, w8, #6, #5
	b	.LBB13_16
.LBB13_12:                              // %join.7.i.i.i
                                        //   in Loop: Header=BB13_6 Depth=1
	lsr	w10, w8, #8
	lsl	w11, w8, #12
	ubfx	w12, w8, #16, #6
	cmp	w9, #239
	ubfiz	w10, w10, #6, #6
	b.hi	.LBB13_15
// %bb.13:                              // %then.8.i.i.i
                                        //   in Loop: Header=BB13_6 Depth=1
	and	w8, w11, #0xf000
	orr	w8, w8, w12
	orr	w9, w8, w10
	b	.LBB13_16
.LBB13_14:                              // %then.8.i
                                        //   in Loop: Header=BB13_6 Depth=1
	add	x0, sp, #176
	add	x1, sp, #280
	bl	"text_programs::programs::lines::Lines::write_to::<#cdc8ff12022c16a2>"
	ldrb	w8, [sp, #176]
	cbz	w8, .LBB13_7
	b	.LBB13_17
.LBB13_15:                              // %join.10.i.i.i
                                        //   in Loop: Header=BB13_6 Depth=1
	and	w9, w11, #0x7000
	ubfx	w8, w8, #24, #6
	orr	w9, w9, w12
	orr	w9, w9, w10
	orr	w9, w8, w9, lsl #6
.LBB13_16:                              // %"utf_chars::utf8_char::Utf8Char::scalar.exit.i.i"
                                        //   in Loop: Header=BB13_6 Depth=1
	lsr	w8, w9, #15
	lsr	w11, w9, #7
	ubfiz	x9, x9, #1, #8
	adrp	x10, .Lstatic.9
	add	x10, x10, :lo12:.Lstatic.9
	ldr	x12, [x23]
	and	x8, x8, #0x3e
	and	x11, x11, #0x1fe
	add	x13, sp, #280
	ldrh	w8, [x10, x8]
	ldrh	w11, [x10, x11]
	ldrh	w9, [x10, x9]
	add	x13, x13, x12
	add	x25, x12, #6
	strh	w8, [x13]
	strh	w11, [x13, #2]
	strh	w9, [x13, #4]
	b	.LBB13_5
.LBB13_17:                              // %arm.12.i
	ldp	q0, q1, [sp, #208]
	ldr	q3, [sp, #192]
	ldr	x22, [sp, #184]
	stp	q0, q1, [sp, #16]
	ldp	q2, q0, [sp, #240]
	b	.LBB13_21
.LBB13_18:
	mov	x22, xzr
.LBB13_19:                              // %after.1.i
	add	x0, sp, #80
	add	x1, sp, #280
	bl	"text_programs::programs::lines::Lines::write_to::<#cdc8ff12022c16a2>"
	ldrb	w8, [sp, #80]
	cbz	w8, .LBB13_22
// %bb.20:                              // %arm.16.i
	ldp	q0, q1, [sp, #112]
	ldr	q3, [sp, #96]
	ldr	x22, [sp, #88]
	stp	q0, q1, [sp, #16]
	ldp	q2, q0, [sp, #144]
.LBB13_21:                              // %"text_programs::programs::entries::write_entries::<#9b254750cbcc3b4e>.exit"
	stp	q2, q0, [sp, #48]
	mov	w8, #1                          // =0x1
	str	q3, [sp]
	b	.LBB13_23
.LBB13_22:                              // %arm.15.i
	movi	v0.2d, #0000000000000000
	mov	x8, xzr
	stp	q0, q0, [sp, #16]
	stp	q0, q0, [sp, #48]
	str	q0, [sp]
.LBB13_23:                              // %"text_programs::programs::entries::write_entries::<#9b254750cbcc3b4e>.exit"
	ldp	q0, q1, [sp, #32]
	ldr	q2, [sp, #64]
	stp	x8, x22, [x19]
	str	q2, [x19, #80]
	stp	q0, q1, [x19, #48]
	ldp	q1, q0, [sp]
	stp	q1, q0, [x19, #16]
	add	sp, sp, #16, lsl #12            // =65536
	add	sp, sp, #288
	.cfi_def_cfa wsp, 80
	ldp	x20, x19, [sp, #64]             // 16-byte Folded Reload
	ldp	x22, x21, [sp, #48]             // 16-byte Folded Reload
	ldp	x24, x23, [sp, #32]             // 16-byte Folded Reload
	ldp	x28, x25, [sp, #16]             // 16-byte Folded Reload
	ldp	x29, x30, [sp], #80             // 16-byte Folded Reload
	.cfi_def_cfa_offset 0
	.cfi_restore w19
	.cfi_restore w20
	.cfi_restore w21
	.cfi_restore w22
	.cfi_restore w23
	.cfi_restore w24
	.cfi_restore w25
	.cfi_restore w28
	.cfi_restore w30
	.cfi_restore w29
	ret
.Lfunc_end13:
	.size	"text_programs::programs::listing::write_merged::<#cdc8ff12022c16a2>", .Lfunc_end13-"text_programs::programs::listing::write_merged::<#cdc8ff12022c16a2>"
	.cfi_endproc
                                        // -- End function
	.section	".text.unlikely.encode_unicode::decoding_iterators::back_scan::decode_few","ax",@progbits
	.p2align	2                               // -- Begin function encode_unicode::decoding_iterators::back_scan::decode_few
	.type	"encode_unicode::decoding_iterators::back_scan::decode_few",@function
"encode_unicode::decoding_iterators::back_scan::decode_few": // @"encode_unicode::decoding_iterators::back_scan::decode_few"
	.cfi_startproc
// %bb.0:                               // %start
	cmp	x2, #1
	b.gt	.LBB14_3
// %bb.1:                               // %start
	cbnz	x2, .LBB14_5
// %bb.2:
	mov	w9, wzr
	mov	w8, wzr
	mov	w13, wzr
	b	.LBB14_7
.LBB14_3:                               // %start
	cmp	x2, #2
	b.ne	.LBB14_6
// %bb.4:                               // %arm.3.i
	ldrb	w8, [x1]
	ldrb	w9, [x1, #1]
	mov	w13, wzr
	b	.LBB14_7
.LBB14_5:                               // %arm.2.i
	ldrb	w9, [x1]
	mov	w8, wzr
	mov	w13, wzr
	b	.LBB14_7
.LBB14_6:                               // %default.4.i
	ldrb	w10, [x1]
	ldrb	w8, [x1, #1]
	ldrb	w9, [x1, #2]
	lsl	w13, w10, #8
.LBB14_7:                               // %"encode_unicode::decoding_iterators::back_scan::padded.exit"
	lsl	w9, w9, #24
	mov	w10, #-1073741824               // =0xc0000000
	orr	w14, w9, w8, lsl #16
	lsr	x12, x9, #24
	orr	w8, w14, w13
	cmp	w8, w10
	b.ge	.LBB14_11
// %bb.8:                               // %join.3.i
	cmp	x2, #1
	b.ne	.LBB14_13
.LBB14_9:
	mov	w8, wzr
	mov	x9, xzr
	mov	w10, #2                         // =0x2
	mov	w11, #1                         // =0x1
.LBB14_10:                              // %"encode_unicode::decoding_iterators::back_scan::scan.exit"
	mov	w8, w8
	strb	w11, [x0]
	strb	w10, [x0, #1]
	stp	x8, x9, [x0, #8]
	ret
.LBB14_11:                              // %join.3.i.i
	tbnz	w9, #31, .LBB14_19
// %bb.12:
	mov	w9, #1                          // =0x1
	mov	w8, w12
	strb	wzr, [x0]
	strb	wzr, [x0, #1]
	stp	x8, x9, [x0, #8]
	ret
.LBB14_13:                              // %join.6.i
	ubfx	w9, w14, #16, #8
	sxtb	w10, w9
	cmn	w10, #64
	b.ge	.LBB14_21
// %bb.14:                              // %join.9.i
	mov	x9, xzr
	mov	w8, wzr
	cmp	x2, #2
	mov	w10, #2                         // =0x2
	mov	w11, #1                         // =0x1
	b.eq	.LBB14_10
// %bb.15:                              // %join.9.i
	and	w15, w13, #0xf000
	cmp	w15, #14, lsl #12               // =57344
	b.ne	.LBB14_10
// %bb.16:                              // %after.1.i22
	lsr	w8, w13, #8
	mov	w9, #239                        // =0xef
	adrp	x10, .Lstatic.7
	add	x10, x10, :lo12:.Lstatic.7
	adrp	x11, .Lstatic.8
	add	x11, x11, :lo12:.Lstatic.8
	and	x8, x8, x9
	lsr	w9, w14, #16
	mov	w14, #191                       // =0xbf
	ldrb	w13, [x10, x8]
	and	x14, x9, x14
	ldrb	w13, [x11, x13]
	ldrb	w14, [x10, x14]
	add	x13, x11, x13, lsl #4
	ldrb	w13, [x13, x14]
	cmp	x13, #16
	b.eq	.LBB14_9
// %bb.17:                              // %join.13.i24
	ldrb	w10, [x10, x12]
	add	x11, x11, x13, lsl #4
	ldrb	w10, [x11, x10]
	cmp	w10, #13
	b.ne	.LBB14_9
// %bb.18:                              // %join.16.i
	mov	w13, #48896                     // =0xbf00
	and	w9, w13, w9, lsl #8
	orr	w9, w9, w12, lsl #16
	orr	w8, w9, w8
	mov	w9, #3                          // =0x3
	mov	w8, w8
	strb	wzr, [x0]
	strb	wzr, [x0, #1]
	stp	x8, x9, [x0, #8]
	ret
.LBB14_19:                              // %join.3.i15.i
	adrp	x8, .Lstatic.7
	add	x8, x8, :lo12:.Lstatic.7
	adrp	x9, .Lstatic.8
	add	x9, x9, :lo12:.Lstatic.8
	ldrb	w8, [x8, x12]
	ldrb	w8, [x9, x8]
	cmp	w8, #13
	b.hs	.LBB14_24
// %bb.20:
	mov	w11, #1                         // =0x1
	mov	w8, wzr
	strb	w11, [x0]
	strb	wzr, [x0, #1]
	stp	x8, xzr, [x0, #8]
	ret
.LBB14_21:                              // %then.7.i
	sub	w9, w9, #224
	cmn	w9, #30
	b.lo	.LBB14_9
// %bb.22:                              // %after.1.i
	adrp	x9, .Lstatic.7
	add	x9, x9, :lo12:.Lstatic.7
	adrp	x10, .Lstatic.8
	add	x10, x10, :lo12:.Lstatic.8
	ldrb	w9, [x9, x12]
	add	x9, x10, x9
	ldrb	w9, [x9, #16]
	cmp	w9, #13
	b.ne	.LBB14_9
// %bb.23:                              // %join.13.i
	ubfx	w8, w8, #16, #8
	mov	w9, #2                          // =0x2
	orr	w8, w8, w12, lsl #8
	mov	w8, w8
	strb	wzr, [x0]
	strb	wzr, [x0, #1]
	stp	x8, x9, [x0, #8]
	ret
.LBB14_24:                              // %join.6.i17.i
	cmp	w8, #14
	b.eq	.LBB14_9
// %bb.25:                              // %join.6.i17.i
	cmp	w8, #13
	b.eq	.LBB14_27
// %bb.26:                              // %arm.2.i161.i
	mov	w11, #1                         // =0x1
	mov	w10, #1                         // =0x1
	mov	w8, wzr
	strb	w11, [x0]
	strb	w10, [x0, #1]
	stp	x8, xzr, [x0, #8]
	ret
.LBB14_27:                              // %join.4.i.i
	brk	#0x1
.Lfunc_end14:
	.size	"encode_unicode::decoding_iterators::back_scan::decode_few", .Lfunc_end14-"encode_unicode::decoding_iterators::back_scan::decode_few"
	.cfi_endproc
                                        // -- End function
	.section	".text.unlikely.std_alloc::vec::Vec::grow_amortized::<#1ada1fecd8908aad>","ax",@progbits
	.p2align	2                               // -- Begin function std_alloc::vec::Vec::grow_amortized::<#1ada1fecd8908aad>
	.type	"std_alloc::vec::Vec::grow_amortized::<#1ada1fecd8908aad>",@function
"std_alloc::vec::Vec::grow_amortized::<#1ada1fecd8908aad>": // @"std_alloc::vec::Vec::grow_amortized::<#1ada1fecd8908aad>"
	.cfi_startproc
// %bb.0:                               // %start
	ldr	x8, [x0, #8]
	cmn	x8, #1
	b.eq	.LBB15_5
// %bb.1:                               // %join.3
	stp	x29, x30, [sp, #-32]!           // 16-byte Folded Spill
	.cfi_def_cfa_offset 32
	stp	x20, x19, [sp, #16]             // 16-byte Folded Spill
	mov	x29, sp
	.cfi_def_cfa w29, 32
	.cfi_offset w19, -8
	.cfi_offset w20, -16
	.cfi_offset w30, -24
	.cfi_offset w29, -32
	.cfi_remember_state
	ldr	x9, [x0, #16]
	cmp	x8, #3
	mov	w10, #3                         // =0x3
	csel	x11, x8, x10, hi
	lsl	x10, x9, #1
	add	x12, x11, #1
	lsr	x13, x9, #62
	cmp	x12, x10
	csinc	x10, x10, x11, ls
	cmp	x13, #0
	csinc	x19, x10, x11, eq
	lsr	x11, x19, #58
	cbnz	x11, .LBB15_7
// %bb.2:                               // %join.3.i
	cbz	x9, .LBB15_6
// %bb.3:                               // %then.1.i.i
	mov	x20, x0
	ldr	x0, [x0]
	lsl	x1, x8, #5
	lsl	x2, x19, #5
	mov	w3, #8                          // =0x8
	bl	rattle_realloc
	tbz	w0, #0, .LBB15_7
.LBB15_4:                               // %arm.5.i
	mov	w0, #1                          // =0x1
	str	x1, [x20]
	str	x19, [x20, #16]
	.cfi_def_cfa wsp, 32
	ldp	x20, x19, [sp, #16]             // 16-byte Folded Reload
	ldp	x29, x30, [sp], #32             // 16-byte Folded Reload
	.cfi_def_cfa_offset 0
	.cfi_restore w19
	.cfi_restore w20
	.cfi_restore w30
	.cfi_restore w29
	ret
.LBB15_5:
	mov	w0, wzr
	ret
.LBB15_6:                               // %"std_alloc::vec::resize::<#1ada1fecd8908aad>.exit.i"
	.cfi_restore_state
	mov	x20, x0
	lsl	x0, x10, #5
	mov	w1, #8                          // =0x8
	bl	rattle_alloc
	tbnz	w0, #0, .LBB15_4
.LBB15_7:
	mov	w0, wzr
	.cfi_def_cfa wsp, 32
	ldp	x20, x19, [sp, #16]             // 16-byte Folded Reload
	ldp	x29, x30, [sp], #32             // 16-byte Folded Reload
	.cfi_def_cfa_offset 0
	.cfi_restore w19
	.cfi_restore w20
	.cfi_restore w30
	.cfi_restore w29
	ret
.Lfunc_end15:
	.size	"std_alloc::vec::Vec::grow_amortized::<#1ada1fecd8908aad>", .Lfunc_end15-"std_alloc::vec::Vec::grow_amortized::<#1ada1fecd8908aad>"
	.cfi_endproc
                                        // -- End function
	.section	".text.text_programs::programs::stops::Stop::report::<#2daa2fb2be07fb73>","ax",@progbits
	.p2align	2                               // -- Begin function text_programs::programs::stops::Stop::report::<#2daa2fb2be07fb73>
	.type	"text_programs::programs::stops::Stop::report::<#2daa2fb2be07fb73>",@function
"text_programs::programs::stops::Stop::report::<#2daa2fb2be07fb73>": // @"text_programs::programs::stops::Stop::report::<#2daa2fb2be07fb73>"
	.cfi_startproc
// %bb.0:                               // %start
	sub	sp, sp, #160
	.cfi_def_cfa_offset 160
	stp	x29, x30, [sp, #96]             // 16-byte Folded Spill
	str	x23, [sp, #112]                 // 8-byte Spill
	stp	x22, x21, [sp, #128]            // 16-byte Folded Spill
	stp	x20, x19, [sp, #144]            // 16-byte Folded Spill
	add	x29, sp, #96
	.cfi_def_cfa w29, 64
	.cfi_offset w19, -8
	.cfi_offset w20, -16
	.cfi_offset w21, -24
	.cfi_offset w22, -32
	.cfi_offset w23, -48
	.cfi_offset w30, -56
	.cfi_offset w29, -64
	mov	w19, w0
	mov	x21, xzr
.LBB16_1:                               // %join.5.i70.i
                                        // =>This Inner Loop Header: Depth=1
	mov	w8, #6                          // =0x6
	adrp	x9, .Lstatic.1
	add	x9, x9, :lo12:.Lstatic.1
	sub	x20, x8, x21
	add	x1, x9, x21
	mov	w0, #2                          // =0x2
	mov	x2, x20
	bl	write
	tbnz	x0, #63, .LBB16_14
// %bb.2:                               // %arm.6.i78.i
                                        //   in Loop: Header=BB16_1 Depth=1
	cmp	x0, x20
	csel	x8, x0, x20, lo
	cbz	x8, .LBB16_15
// %bb.3:                               // %join.12.i82.i
                                        //   in Loop: Header=BB16_1 Depth=1
	add	x21, x8, x21
	cmp	x21, #6
	b.lo	.LBB16_1
// %bb.4:                               // %join.5.i41.i.peel
	adrp	x1, .Lstatic.19
	add	x1, x1, :lo12:.Lstatic.19
	mov	w0, #2                          // =0x2
	mov	w2, #2                          // =0x2
	bl	write
	tbnz	x0, #63, .LBB16_14
// %bb.5:                               // %arm.6.i49.i.peel
	cbz	x0, .LBB16_15
// %bb.6:                               // %arm.6.i49.i.peel
	cmp	x0, #1
	b.ne	.LBB16_9
// %bb.7:                               // %join.5.i41.i
	adrp	x1, .Lstatic.19+1
	add	x1, x1, :lo12:.Lstatic.19+1
	mov	w0, #2                          // =0x2
	mov	w2, #1                          // =0x1
	bl	write
	tbnz	x0, #63, .LBB16_14
// %bb.8:                               // %arm.6.i49.i
	cbz	x0, .LBB16_15
.LBB16_9:                               // %switch.lookup
	and	x8, x19, #0xff
	adrp	x9, ".Lswitch.table.text_programs::programs::stops::Stop::report::<#2daa2fb2be07fb73>.144.rel"
	add	x9, x9, :lo12:".Lswitch.table.text_programs::programs::stops::Stop::report::<#2daa2fb2be07fb73>.144.rel"
	ldrsw	x10, [x9, x8, lsl #2]
	adrp	x11, ".Lswitch.table.text_programs::programs::stops::Stop::report::<#2daa2fb2be07fb73>"
	add	x11, x11, :lo12:".Lswitch.table.text_programs::programs::stops::Stop::report::<#2daa2fb2be07fb73>"
	ldr	x21, [x11, x8, lsl #3]
	mov	x20, xzr
	add	x22, x9, x10
.LBB16_10:                              // %join.5.i12.i
                                        // =>This Inner Loop Header: Depth=1
	add	x1, x22, x20
	sub	x2, x21, x20
	mov	w0, #2                          // =0x2
	sub	x23, x21, x20
	bl	write
	tbnz	x0, #63, .LBB16_14
// %bb.11:                              // %arm.6.i20.i
                                        //   in Loop: Header=BB16_10 Depth=1
	cmp	x0, x23
	csel	x8, x0, x23, lo
	cbz	x8, .LBB16_15
// %bb.12:                              // %join.12.i24.i
                                        //   in Loop: Header=BB16_10 Depth=1
	add	x20, x8, x20
	cmp	x20, x21
	b.lo	.LBB16_10
// %bb.13:                              // %loop.2.i.i.preheader
	adrp	x1, .Lstatic.20
	add	x1, x1, :lo12:.Lstatic.20
	mov	w0, #2                          // =0x2
	mov	w2, #1                          // =0x1
	bl	write
	tbz	x0, #63, .LBB16_15
.LBB16_14:                              // %arm.7.i.i
	add	x0, sp, #8
	bl	"std_io::io::error::last_error"
.LBB16_15:                              // %"text_programs::programs::stops::Stop::write_line::<#2daa2fb2be07fb73>.exit"
	tst	w19, #0xff
	mov	w8, #2                          // =0x2
	cinc	w0, w8, ne
	.cfi_def_cfa wsp, 160
	ldp	x20, x19, [sp, #144]            // 16-byte Folded Reload
	ldr	x23, [sp, #112]                 // 8-byte Reload
	ldp	x22, x21, [sp, #128]            // 16-byte Folded Reload
	ldp	x29, x30, [sp, #96]             // 16-byte Folded Reload
	add	sp, sp, #160
	.cfi_def_cfa_offset 0
	.cfi_restore w19
	.cfi_restore w20
	.cfi_restore w21
	.cfi_restore w22
	.cfi_restore w23
	.cfi_restore w30
	.cfi_restore w29
	ret
.Lfunc_end16:
	.size	"text_programs::programs::stops::Stop::report::<#2daa2fb2be07fb73>", .Lfunc_end16-"text_programs::programs::stops::Stop::report::<#2daa2fb2be07fb73>"
	.cfi_endproc
                                        // -- End function
	.section	.rodata.cst16,"aM",@progbits,16
	.p2align	4, 0x0                          // -- Begin function main
.LCPI17_0:
	.byte	0                               // 0x0
	.byte	1                               // 0x1
	.byte	2                               // 0x2
	.byte	3                               // 0x3
	.byte	4                               // 0x4
	.byte	5                               // 0x5
	.byte	6                               // 0x6
	.byte	7                               // 0x7
	.byte	8                               // 0x8
	.byte	9                               // 0x9
	.byte	10                              // 0xa
	.byte	11                              // 0xb
	.byte	12                              // 0xc
	.byte	13                              // 0xd
	.byte	14                              // 0xe
	.byte	15                              // 0xf
.LCPI17_1:
	.byte	16                              // 0x10
	.byte	17                              // 0x11
	.byte	18                              // 0x12
	.byte	19                              // 0x13
	.byte	20                              // 0x14
	.byte	21                              // 0x15
	.byte	22                              // 0x16
	.byte	23                              // 0x17
	.byte	24                              // 0x18
	.byte	25                              // 0x19
	.byte	26                              // 0x1a
	.byte	27                              // 0x1b
	.byte	28                              // 0x1c
	.byte	29                              // 0x1d
	.byte	30                              // 0x1e
	.byte	31                              // 0x1f
	.section	.rodata.cst8,"aM",@progbits,8
	.p2align	3, 0x0
.LCPI17_2:
	.byte	32                              // 0x20
	.byte	33                              // 0x21
	.byte	34                              // 0x22
	.byte	35                              // 0x23
	.byte	36                              // 0x24
	.byte	37                              // 0x25
	.byte	38                              // 0x26
	.byte	39                              // 0x27
.LCPI17_3:
	.byte	110                             // 0x6e
	.byte	111                             // 0x6f
	.byte	110                             // 0x6e
	.byte	101                             // 0x65
	.zero	1
	.zero	1
	.zero	1
	.zero	1
	.section	.text.main,"ax",@progbits
	.globl	main
	.p2align	2
	.type	main,@function
main:                                   // @main
	.cfi_startproc
// %bb.0:                               // %start
	stp	x29, x30, [sp, #-96]!           // 16-byte Folded Spill
	.cfi_def_cfa_offset 96
	stp	x28, x27, [sp, #16]             // 16-byte Folded Spill
	stp	x26, x25, [sp, #32]             // 16-byte Folded Spill
	stp	x24, x23, [sp, #48]             // 16-byte Folded Spill
	stp	x22, x21, [sp, #64]             // 16-byte Folded Spill
	stp	x20, x19, [sp, #80]             // 16-byte Folded Spill
	mov	x29, sp
	.cfi_def_cfa w29, 96
	.cfi_offset w19, -8
	.cfi_offset w20, -16
	.cfi_offset w21, -24
	.cfi_offset w22, -32
	.cfi_offset w23, -40
	.cfi_offset w24, -48
	.cfi_offset w25, -56
	.cfi_offset w26, -64
	.cfi_offset w27, -72
	.cfi_offset w28, -80
	.cfi_offset w30, -88
	.cfi_offset w29, -96
	.cfi_remember_state
	sub	x9, sp, #15, lsl #12            // =61440
	sub	x9, x9, #3072
.LBB17_1:                               // %start
                                        // =>This Inner Loop Header: Depth=1
	sub	sp, sp, #3072
	cmp	sp, x9
	str	xzr, [sp]
	b.ne	.LBB17_1
// %bb.2:                               // %start
	sub	sp, sp, #1552
	mov	w0, #13                         // =0xd
	mov	w1, #1                          // =0x1
	str	xzr, [sp]
	bl	__sysv_signal
	mov	x25, xzr
	mov	x20, xzr
	sub	x19, x29, #16
	add	x26, sp, #496
	stp	xzr, xzr, [sp, #408]
	str	x19, [sp, #400]
.LBB17_3:                               // %join.5.i.i.i.i.i
                                        // =>This Loop Header: Depth=1
                                        //     Child Loop BB17_5 Depth 2
                                        //     Child Loop BB17_20 Depth 2
                                        //       Child Loop BB17_44 Depth 3
                                        //       Child Loop BB17_47 Depth 3
	mov	w27, #64                        // =0x40
	mov	w22, #256                       // =0x100
	b	.LBB17_5
.LBB17_4:                               // %"std_alloc::vec::Vec::drop::<#5cd7833235c0cf51>.exit45.i.i.i.i.i.i.i.i"
                                        //   in Loop: Header=BB17_5 Depth=2
	adds	x8, x22, x22
	csinv	x22, x8, xzr, lo
	subs	w27, w27, #1
	b.eq	.LBB17_127
.LBB17_5:                               // %join.5.i.i.i.i.i.i.i
                                        //   Parent Loop BB17_3 Depth=1
                                        // =>  This Inner Loop Header: Depth=2
	sub	x21, x29, #16
	stp	xzr, xzr, [x26, #8]
	str	x21, [sp, #496]
	cbnz	x22, .LBB17_10
// %bb.6:                               //   in Loop: Header=BB17_5 Depth=2
	mov	x23, xzr
.LBB17_7:                               // %join.3.i.i.i.i.i.i.i.i
                                        //   in Loop: Header=BB17_5 Depth=2
	mov	x0, x20
	mov	x1, x21
	mov	x2, x23
	bl	rattle_arg
	mov	w8, #36                         // =0x24
	cmn	x0, #1
	mov	w9, #22                         // =0x16
	csel	w8, w9, w8, eq
	mov	x24, x0
	csel	w0, wzr, w8, gt
	bl	rattle_set_errno
	bl	rattle_errno
	cmp	w0, #36
	b.ne	.LBB17_13
// %bb.8:                               // %arm.8.i.i.i.i.i.i.i.i
                                        //   in Loop: Header=BB17_5 Depth=2
	ldr	x8, [sp, #512]
	cbz	x8, .LBB17_4
// %bb.9:                               // %then.1.i.i.i43.i.i.i.i.i.i.i.i
                                        //   in Loop: Header=BB17_5 Depth=2
	mov	x0, x21
	bl	rattle_dealloc
	b	.LBB17_4
.LBB17_10:                              // %"std_alloc::vec::Vec::grow::<#5fdc5e19576447a7>.exit.i.i.i.i.i.i.i.i.i.i"
                                        //   in Loop: Header=BB17_5 Depth=2
	add	x0, sp, #496
	mov	x1, x22
	bl	"std_alloc::vec::Vec::grow_amortized::<#5fdc5e19576447a7>"
	cbz	w0, .LBB17_125
// %bb.11:                              // %join.3.i2.i.i.i.i.i.i.i.i.i
                                        //   in Loop: Header=BB17_5 Depth=2
	ldp	x21, x8, [sp, #496]
	add	x23, x8, x22
	cmp	x8, x23
	b.hs	.LBB17_7
// %bb.12:                              // %join.5.preheader.i.i.i.i.i.i.i.i.i.i.i
                                        //   in Loop: Header=BB17_5 Depth=2
	add	x0, x21, x8
	mov	w1, wzr
	mov	x2, x22
	bl	memset
	b	.LBB17_7
.LBB17_13:                              // %join.3.i.i.i.i.i.i.i.i
                                        //   in Loop: Header=BB17_3 Depth=1
	cbnz	w0, .LBB17_69
// %bb.14:                              // %arm.4.i.i.i.i.i.i.i.i
                                        //   in Loop: Header=BB17_3 Depth=1
	cmp	x24, x23
	csel	x8, x24, x23, lo
	cmp	x24, #0
	ldr	x23, [sp, #512]
	csel	x22, x8, xzr, gt
	cbz	x22, .LBB17_65
// %bb.15:                              // %join.5.lr.ph.i.i.i.i.i.i.i.i.i
                                        //   in Loop: Header=BB17_3 Depth=1
	mov	x9, xzr
	sub	x24, x22, #8
	b	.LBB17_20
.LBB17_16:                              // %join.8.i.i.i.i.i.i.i.i.i
                                        //   in Loop: Header=BB17_20 Depth=2
	and	w10, w10, #0xff
	tbnz	w10, #7, .LBB17_37
.LBB17_17:                              //   in Loop: Header=BB17_20 Depth=2
	mov	w8, #1                          // =0x1
.LBB17_18:                              // %loop.2.backedge.i.i.i.i.i.i.i.i.i
                                        //   in Loop: Header=BB17_20 Depth=2
	add	x8, x8, x9
.LBB17_19:                              // %loop.2.backedge.i.i.i.i.i.i.i.i.i
                                        //   in Loop: Header=BB17_20 Depth=2
	cmp	x8, x22
	mov	x9, x8
	b.hs	.LBB17_65
.LBB17_20:                              // %join.5.i.i.i.i.i.i.i.i.i
                                        //   Parent Loop BB17_3 Depth=1
                                        // =>  This Loop Header: Depth=2
                                        //       Child Loop BB17_44 Depth 3
                                        //       Child Loop BB17_47 Depth 3
	add	x8, x21, x9
	sub	x11, x22, x9
	ldrsb	w10, [x8]
	cmp	x11, #2
	b.lo	.LBB17_16
// %bb.21:                              // %join.5.i.i.i.i.i.i.i.i.i
                                        //   in Loop: Header=BB17_20 Depth=2
	tbnz	w10, #31, .LBB17_16
// %bb.22:                              // %"core::str::utf8::begins_ascii_run.exit.i.i.i.i.i.i.i.i.i"
                                        //   in Loop: Header=BB17_20 Depth=2
	ldrsb	w10, [x8, #1]
	tbnz	w10, #31, .LBB17_17
// %bb.23:                              // %then.6.i.i.i.i.i.i.i.i.i
                                        //   in Loop: Header=BB17_20 Depth=2
	cmp	x11, #7
	stp	x21, x22, [sp, #496]
	b.hi	.LBB17_42
// %bb.24:                              // %join.5.i.i.i.i.i.i.i.i.i.i.i
                                        //   in Loop: Header=BB17_20 Depth=2
	ldrsb	w8, [x21, x9]
	tbnz	w8, #31, .LBB17_57
// %bb.25:                              // %join.8.i.i.i.i.i.i.i.i.i.i.i
                                        //   in Loop: Header=BB17_20 Depth=2
	add	x8, x9, #1
	cmp	x8, x22
	b.eq	.LBB17_65
// %bb.26:                              // %join.5.i.i.i.i.i.i.i.i.i.i.i.1
                                        //   in Loop: Header=BB17_20 Depth=2
	ldrsb	w10, [x21, x8]
	tbnz	w10, #31, .LBB17_19
// %bb.27:                              // %join.8.i.i.i.i.i.i.i.i.i.i.i.1
                                        //   in Loop: Header=BB17_20 Depth=2
	add	x8, x9, #2
	cmp	x8, x22
	b.eq	.LBB17_65
// %bb.28:                              // %join.5.i.i.i.i.i.i.i.i.i.i.i.2
                                        //   in Loop: Header=BB17_20 Depth=2
	ldrsb	w10, [x21, x8]
	tbnz	w10, #31, .LBB17_19
// %bb.29:                              // %join.8.i.i.i.i.i.i.i.i.i.i.i.2
                                        //   in Loop: Header=BB17_20 Depth=2
	add	x8, x9, #3
	cmp	x8, x22
	b.eq	.LBB17_65
// %bb.30:                              // %join.5.i.i.i.i.i.i.i.i.i.i.i.3
                                        //   in Loop: Header=BB17_20 Depth=2
	ldrsb	w10, [x21, x8]
	tbnz	w10, #31, .LBB17_19
// %bb.31:                              // %join.8.i.i.i.i.i.i.i.i.i.i.i.3
                                        //   in Loop: Header=BB17_20 Depth=2
	add	x8, x9, #4
	cmp	x8, x22
	b.eq	.LBB17_65
// %bb.32:                              // %join.5.i.i.i.i.i.i.i.i.i.i.i.4
                                        //   in Loop: Header=BB17_20 Depth=2
	ldrsb	w10, [x21, x8]
	tbnz	w10, #31, .LBB17_19
// %bb.33:                              // %join.8.i.i.i.i.i.i.i.i.i.i.i.4
                                        //   in Loop: Header=BB17_20 Depth=2
	add	x8, x9, #5
	cmp	x8, x22
	b.eq	.LBB17_65
// %bb.34:                              // %join.5.i.i.i.i.i.i.i.i.i.i.i.5
                                        //   in Loop: Header=BB17_20 Depth=2
	ldrsb	w10, [x21, x8]
	tbnz	w10, #31, .LBB17_19
// %bb.35:                              // %join.8.i.i.i.i.i.i.i.i.i.i.i.5
                                        //   in Loop: Header=BB17_20 Depth=2
	add	x8, x9, #6
	cmp	x8, x22
	b.eq	.LBB17_65
// %bb.36:                              // %join.5.i.i.i.i.i.i.i.i.i.i.i.6
                                        //   in Loop: Header=BB17_20 Depth=2
	ldrsb	w9, [x21, x8]
	tbnz	w9, #31, .LBB17_19
	b	.LBB17_65
.LBB17_37:                              // %else.2.i.i.i.i.i.i.i.i.i.i
                                        //   in Loop: Header=BB17_20 Depth=2
	cmp	w10, #194
	b.lo	.LBB17_105
// %bb.38:                              // %else.5.i.i.i.i.i.i.i.i.i.i
                                        //   in Loop: Header=BB17_20 Depth=2
	cmp	w10, #223
	b.hi	.LBB17_50
// %bb.39:                              // %then.7.i.i.i.i.i.i.i.i.i.i
                                        //   in Loop: Header=BB17_20 Depth=2
	cmp	x11, #2
	b.lo	.LBB17_105
// %bb.40:                              // %join.3.i.i.i.i.i.i.i.i.i.i.i
                                        //   in Loop: Header=BB17_20 Depth=2
	ldrsb	w8, [x8, #1]
	cmn	w8, #65
	b.gt	.LBB17_105
// %bb.41:                              //   in Loop: Header=BB17_20 Depth=2
	mov	w8, #2                          // =0x2
	b	.LBB17_18
.LBB17_42:                              // %join.3.i.i.i.i.i.i.i.i.i.i
                                        //   in Loop: Header=BB17_20 Depth=2
	ldr	x8, [x8]
	mov	w10, #8                         // =0x8
	ands	x8, x8, #0x8080808080808080
	rbit	x8, x8
	clz	x8, x8
	lsr	x8, x8, #3
	csel	x8, x10, x8, eq
	add	x8, x8, x9
	add	x9, x9, #8
	cmp	x8, x9
	b.lo	.LBB17_19
// %bb.43:                              // %join.6.i.i.i.i.i.i.i.i.i.i
                                        //   in Loop: Header=BB17_20 Depth=2
	sub	x9, x22, x8
	cmp	x9, #32
	b.lo	.LBB17_46
.LBB17_44:                              // %then.3.i.i.i.i.i.i.i.i.i.i.i
                                        //   Parent Loop BB17_3 Depth=1
                                        //     Parent Loop BB17_20 Depth=2
                                        // =>    This Inner Loop Header: Depth=3
	add	x9, x21, x8
	ldp	q1, q0, [x9]
	orr	v0.16b, v1.16b, v0.16b
	ext	v1.16b, v0.16b, v0.16b, #8
	orr	v0.8b, v0.8b, v1.8b
	fmov	x9, d0
	tst	x9, #0x8080808080808080
	b.ne	.LBB17_46
// %bb.45:                              // %join.5.i22.i.i.i.i.i.i.i.i.i.i
                                        //   in Loop: Header=BB17_44 Depth=3
	add	x0, sp, #496
	add	x1, x8, #32
	mov	x2, x22
	bl	"core::slice::words::skip_far::<#52f9edcae2f82f51>"
	sub	x9, x22, x0
	mov	x8, x0
	cmp	x9, #31
	b.hi	.LBB17_44
.LBB17_46:                              // %loop.8.i.i.i.i.i.i.i.i.i.i.preheader
                                        //   in Loop: Header=BB17_20 Depth=2
	sub	x9, x22, x8
.LBB17_47:                              // %loop.8.i.i.i.i.i.i.i.i.i.i
                                        //   Parent Loop BB17_3 Depth=1
                                        //     Parent Loop BB17_20 Depth=2
                                        // =>    This Inner Loop Header: Depth=3
	cmp	x9, #9
	b.lo	.LBB17_64
// %bb.48:                              // %join.11.i.i.i.i.i.i.i.i.i.i
                                        //   in Loop: Header=BB17_47 Depth=3
	ldr	x10, [x21, x8]
	mov	w11, #8                         // =0x8
	sub	x9, x9, #8
	ands	x10, x10, #0x8080808080808080
	rbit	x10, x10
	clz	x10, x10
	lsr	x10, x10, #3
	csel	x10, x11, x10, eq
	add	x11, x10, x8
	add	x8, x8, #8
	cmp	x11, x8
	b.hs	.LBB17_47
// %bb.49:                              // %loop.2.backedge.i.i.i.i.i.i.i.i.i.loopexit
                                        //   in Loop: Header=BB17_20 Depth=2
	add	x8, x10, x8
	sub	x8, x8, #8
	b	.LBB17_19
.LBB17_50:                              // %else.8.i.i.i.i.i.i.i.i.i.i
                                        //   in Loop: Header=BB17_20 Depth=2
	cmp	w10, #239
	b.hi	.LBB17_58
// %bb.51:                              // %then.10.i.i.i.i.i.i.i.i.i.i
                                        //   in Loop: Header=BB17_20 Depth=2
	cmp	x11, #3
	b.lo	.LBB17_105
// %bb.52:                              // %join.3.i6.i.i.i.i.i.i.i.i.i.i
                                        //   in Loop: Header=BB17_20 Depth=2
	ldrsb	w11, [x8, #1]
	cmn	w11, #65
	b.gt	.LBB17_105
// %bb.53:                              // %join.3.i6.i.i.i.i.i.i.i.i.i.i
                                        //   in Loop: Header=BB17_20 Depth=2
	ldrsb	w8, [x8, #2]
	cmn	w8, #65
	b.gt	.LBB17_105
// %bb.54:                              // %join.15.i.i.i.i.i.i.i.i.i.i.i
                                        //   in Loop: Header=BB17_20 Depth=2
	and	w8, w11, #0xff
	add	w8, w8, w10, lsl #6
	mov	w10, #-14464                    // =0xffffc780
	add	w10, w8, w10
	cmp	w10, #32
	b.lo	.LBB17_105
// %bb.55:                              // %else.17.i.i.i.i.i.i.i.i.i.i.i
                                        //   in Loop: Header=BB17_20 Depth=2
	cmp	w10, #896
	mov	w8, #3                          // =0x3
	csel	x11, xzr, x8, lo
	cmp	w10, #864
	b.lo	.LBB17_18
// %bb.56:                              //   in Loop: Header=BB17_20 Depth=2
	mov	x8, x11
	b	.LBB17_63
.LBB17_57:                              //   in Loop: Header=BB17_20 Depth=2
	mov	x8, x9
	b	.LBB17_19
.LBB17_58:                              // %else.11.i.i.i.i.i.i.i.i.i.i
                                        //   in Loop: Header=BB17_20 Depth=2
	cmp	x11, #4
	b.lo	.LBB17_105
// %bb.59:                              // %join.3.i11.i.i.i.i.i.i.i.i.i.i
                                        //   in Loop: Header=BB17_20 Depth=2
	ldrsb	w11, [x8, #1]
	cmn	w11, #65
	b.gt	.LBB17_105
// %bb.60:                              // %join.3.i11.i.i.i.i.i.i.i.i.i.i
                                        //   in Loop: Header=BB17_20 Depth=2
	ldrsb	w12, [x8, #2]
	cmn	w12, #65
	b.gt	.LBB17_105
// %bb.61:                              // %join.3.i11.i.i.i.i.i.i.i.i.i.i
                                        //   in Loop: Header=BB17_20 Depth=2
	ldrsb	w8, [x8, #3]
	cmn	w8, #65
	b.gt	.LBB17_105
// %bb.62:                              // %join.21.i.i.i.i.i.i.i.i.i.i.i
                                        //   in Loop: Header=BB17_20 Depth=2
	and	w8, w11, #0xff
	add	w8, w8, w10, lsl #6
	mov	w10, #-15488                    // =0xffffc380
	add	w10, w8, w10
	mov	w8, #4                          // =0x4
	cmp	w10, #272
	csel	x8, x8, xzr, lo
	cmp	w10, #16
	b.lo	.LBB17_105
.LBB17_63:                              // %"core::str::utf8::char_len_at.exit.i.i.i.i.i.i.i.i.i"
                                        //   in Loop: Header=BB17_20 Depth=2
	cbnz	x8, .LBB17_18
	b	.LBB17_105
.LBB17_64:                              // %after.7.i.i.i.i.i.i.i.i.i.i
                                        //   in Loop: Header=BB17_20 Depth=2
	ldr	x8, [x21, x24]
	mov	w9, #8                          // =0x8
	ands	x8, x8, #0x8080808080808080
	rbit	x8, x8
	clz	x8, x8
	lsr	x8, x8, #3
	csel	x8, x9, x8, eq
	add	x8, x8, x24
	b	.LBB17_19
.LBB17_65:                              // %arm.6.i.i.i.i.i
                                        //   in Loop: Header=BB17_3 Depth=1
	ldr	x8, [sp, #416]
	cmp	x8, x25
	b.eq	.LBB17_67
.LBB17_66:                              // %join.9.i.i.i.i.i
                                        //   in Loop: Header=BB17_3 Depth=1
	mov	w8, #24                         // =0x18
	add	x20, x20, #1
	madd	x8, x25, x8, x19
	add	x25, x25, #1
	cmn	x20, #1
	stp	x21, x22, [x8]
	str	x23, [x8, #16]
	str	x25, [sp, #408]
	b.ne	.LBB17_3
	b	.LBB17_71
.LBB17_67:                              // %"std_alloc::vec::Vec::grow::<#1b8c52373d8cd3cb>.exit.i.i.i.i.i.i"
                                        //   in Loop: Header=BB17_3 Depth=1
	add	x0, sp, #400
	mov	w1, #1                          // =0x1
	bl	"std_alloc::vec::Vec::grow_amortized::<#1b8c52373d8cd3cb>"
	cbz	w0, .LBB17_342
// %bb.68:                              // %"std_alloc::vec::Vec::grow::<#1b8c52373d8cd3cb>.exit.join.3_crit_edge.i.i.i.i.i.i"
                                        //   in Loop: Header=BB17_3 Depth=1
	ldp	x19, x25, [sp, #400]
	b	.LBB17_66
.LBB17_69:                              // %arm.9.i.i.i.i.i.i.i.i
	ldr	x8, [sp, #512]
	cbz	x8, .LBB17_71
// %bb.70:                              // %then.1.i.i.i49.i.i.i.i.i.i.i.i
	mov	x0, x21
	bl	rattle_dealloc
.LBB17_71:                              // %arm.1.i.i.i.i
	ldr	x0, [sp, #400]
	ldr	x22, [sp, #416]
	cbz	x25, .LBB17_93
// %bb.72:                              // %join.3.i.i.i.i.i.preheader.i.i.i.i.i.i.i.i.preheader
	mov	x8, xzr
	mov	x27, xzr
	mov	x21, xzr
	mov	x9, xzr
	add	x15, sp, #496
	sub	x19, x29, #16
.LBB17_73:                              // %join.3.i.i.i.i.i.preheader.i.i.i.i.i.i.i.i
                                        // =>This Loop Header: Depth=1
                                        //     Child Loop BB17_74 Depth 2
	add	x10, x9, x9, lsl #1
	add	x11, x21, x21, lsl #1
	mov	x26, xzr
	lsl	x24, x10, #3
	lsl	x10, x11, #3
	sub	x11, x21, x8
.LBB17_74:                              // %join.3.i.i.i.i.i.i.i.i.i.i.i.i.i
                                        //   Parent Loop BB17_73 Depth=1
                                        // =>  This Inner Loop Header: Depth=2
	cmp	x11, x26
	add	x12, x0, x24
	b.eq	.LBB17_76
// %bb.75:                              // %join.9.i.i.i.i.i.i.i.i.i.i
                                        //   in Loop: Header=BB17_74 Depth=2
	ldr	x13, [x12, #16]
	ldr	q0, [x12]
	sub	x26, x26, #1
	add	x14, x19, x10
	cmn	x25, x26
	add	x24, x24, #24
	add	x10, x10, #24
	str	x13, [x14, #16]
	str	q0, [x14]
	b.ne	.LBB17_74
	b	.LBB17_83
.LBB17_76:                              // %arm.3.i.i.i.i.i.i.i.i
                                        //   in Loop: Header=BB17_73 Depth=1
	ldp	x20, x21, [x12]
	sub	x10, x27, x8
	ldr	x28, [x12, #16]
	add	x23, x25, x26
	mov	x11, x27
	cmp	x23, x10
	str	x27, [sp, #512]
	sub	x27, x9, x26
	stp	x19, x8, [sp, #496]
	b.hi	.LBB17_78
.LBB17_77:                              // %join.10.i.i.i.i.i.i.i.i
                                        //   in Loop: Header=BB17_73 Depth=1
	mov	w9, #24                         // =0x18
	ldr	x19, [sp, #496]
	sub	x25, x23, #1
	madd	x9, x8, x9, x19
	stp	x20, x21, [x9]
	adds	x21, x8, #1
	str	x28, [x9, #16]
	add	x9, x27, #1
	csel	x8, xzr, x11, hs
	mov	x27, x11
	stp	xzr, xzr, [x15, #8]
	cbnz	x25, .LBB17_73
	b	.LBB17_84
.LBB17_78:                              // %"std_alloc::vec::Vec::grow::<#1b8c52373d8cd3cb>.exit.i.i.i.i.i.i.i.i.i"
                                        //   in Loop: Header=BB17_73 Depth=1
	mov	x19, x0
	add	x0, sp, #496
	add	x1, x25, x26
	bl	"std_alloc::vec::Vec::grow_amortized::<#1b8c52373d8cd3cb>"
	ldp	x8, x11, [sp, #504]
	tbnz	w0, #0, .LBB17_82
// %bb.79:                              // %"std_alloc::vec::Vec::grow::<#1b8c52373d8cd3cb>.exit.i.i.i.i.i.i.i.i.i"
                                        //   in Loop: Header=BB17_73 Depth=1
	cmp	x11, x8
	mov	x0, x19
	add	x15, sp, #496
	b.ne	.LBB17_77
// %bb.80:                              // %"std_alloc::vec::Vec::grow_by_hint::<#1b8c52373d8cd3cb>.exit.i.i.i.i.i.i.i.i"
                                        //   in Loop: Header=BB17_73 Depth=1
	add	x0, sp, #496
	mov	w1, #1                          // =0x1
	bl	"std_alloc::vec::Vec::grow_amortized::<#1b8c52373d8cd3cb>"
	cbz	w0, .LBB17_355
// %bb.81:                              // %"std_alloc::vec::Vec::grow_by_hint::<#1b8c52373d8cd3cb>.exit.join.10_crit_edge.i.i.i.i.i.i.i.i"
                                        //   in Loop: Header=BB17_73 Depth=1
	ldp	x8, x11, [sp, #504]
.LBB17_82:                              //   in Loop: Header=BB17_73 Depth=1
	mov	x0, x19
	add	x15, sp, #496
	b	.LBB17_77
.LBB17_83:                              // %arm.4.i.i.i.i5.i.i.i.i.loopexit
	sub	x21, x21, x26
.LBB17_84:                              // %arm.4.i.i.i.i5.i.i.i.i
	cbz	x22, .LBB17_86
.LBB17_85:                              // %then.1.i.i.i.i.i.i.i.i.i.i.i.i.i
	bl	rattle_dealloc
.LBB17_86:                              // %arm.1.i.i.i.i.i
	stp	xzr, xzr, [sp, #400]
	str	xzr, [sp, #416]
	cbz	x21, .LBB17_94
// %bb.87:                              // %then.5.i.i.i.i.i
	sub	x25, x21, #1
	ldr	x20, [x19]
	ldr	x22, [x19, #16]
	cmp	x25, #86
	b.lo	.LBB17_96
// %bb.88:                              // %"core::slots::Slots::move_at_once::<#483ec8513fd57e54>.exit.i.i.i.i.i.i.preheader"
	mov	x9, xzr
	mov	x0, x19
	sub	x8, x21, #1
.LBB17_89:                              // %"core::slots::Slots::move_at_once::<#483ec8513fd57e54>.exit.i.i.i.i.i.i"
                                        // =>This Inner Loop Header: Depth=1
	ldr	q1, [x0, #48]
	ldur	q0, [x0, #24]
	add	x10, x0, #264
	add	x11, x0, #312
	add	x12, x0, #360
	ldr	x13, [x0, #64]
	stur	q1, [x0, #24]
	ldr	q1, [x0, #96]
	sub	x8, x8, #85
	str	q0, [x0]
	ldur	q0, [x0, #72]
	cmp	x8, #85
	stur	q1, [x0, #72]
	ldr	q1, [x0, #144]
	sub	x9, x9, #85
	str	q0, [x0, #48]
	ldur	q0, [x0, #120]
	stur	q1, [x0, #120]
	ldr	q1, [x0, #192]
	str	q0, [x0, #96]
	ldur	q0, [x0, #168]
	stur	q1, [x0, #168]
	ldr	q1, [x0, #240]
	str	q0, [x0, #144]
	ldur	q0, [x0, #216]
	stur	q1, [x0, #216]
	ldr	q1, [x0, #288]
	str	q0, [x0, #192]
	ldr	q0, [x10]
	str	q1, [x10]
	ldr	q1, [x0, #336]
	add	x10, x0, #408
	str	q0, [x0, #240]
	ldr	q0, [x11]
	str	q1, [x11]
	ldr	q1, [x0, #384]
	add	x11, x0, #456
	str	q0, [x0, #288]
	ldr	q0, [x12]
	str	q1, [x12]
	ldr	q1, [x0, #432]
	add	x12, x0, #504
	str	q0, [x0, #336]
	ldr	q0, [x10]
	str	q1, [x10]
	ldr	q1, [x0, #480]
	add	x10, x0, #552
	str	q0, [x0, #384]
	ldr	q0, [x11]
	str	q1, [x11]
	ldr	q1, [x0, #528]
	add	x11, x0, #600
	str	q0, [x0, #432]
	ldr	q0, [x12]
	str	q1, [x12]
	ldr	q1, [x0, #576]
	add	x12, x0, #648
	str	q0, [x0, #480]
	ldr	q0, [x10]
	str	q1, [x10]
	ldr	q1, [x0, #624]
	add	x10, x0, #696
	str	q0, [x0, #528]
	ldr	q0, [x11]
	str	q1, [x11]
	ldr	q1, [x0, #672]
	add	x11, x0, #744
	str	q0, [x0, #576]
	ldr	q0, [x12]
	str	q1, [x12]
	ldr	q1, [x0, #720]
	add	x12, x0, #792
	str	q0, [x0, #624]
	ldr	q0, [x10]
	str	q1, [x10]
	ldr	q1, [x0, #768]
	add	x10, x0, #840
	str	q0, [x0, #672]
	ldr	q0, [x11]
	str	q1, [x11]
	ldr	q1, [x0, #816]
	add	x11, x0, #888
	str	q0, [x0, #720]
	ldr	q0, [x12]
	str	q1, [x12]
	ldr	q1, [x0, #864]
	add	x12, x0, #936
	str	q0, [x0, #768]
	ldr	q0, [x10]
	str	q1, [x10]
	ldr	q1, [x0, #912]
	add	x10, x0, #984
	str	q0, [x0, #816]
	ldr	q0, [x11]
	str	q1, [x11]
	ldr	q1, [x0, #960]
	add	x11, x0, #1032
	str	q0, [x0, #864]
	ldr	q0, [x12]
	str	q1, [x12]
	ldr	q1, [x0, #1008]
	add	x12, x0, #1080
	str	q0, [x0, #912]
	ldr	q0, [x10]
	str	q1, [x10]
	ldr	q1, [x0, #1056]
	add	x10, x0, #1128
	str	q0, [x0, #960]
	ldr	q0, [x11]
	str	q1, [x11]
	ldr	q1, [x0, #1104]
	add	x11, x0, #1176
	str	q0, [x0, #1008]
	ldr	q0, [x12]
	str	q1, [x12]
	ldr	q1, [x0, #1152]
	add	x12, x0, #1224
	str	q0, [x0, #1056]
	ldr	q0, [x10]
	str	q1, [x10]
	ldr	q1, [x0, #1200]
	add	x10, x0, #1272
	str	q0, [x0, #1104]
	ldr	q0, [x11]
	str	q1, [x11]
	ldr	q1, [x0, #1248]
	add	x11, x0, #1320
	str	q0, [x0, #1152]
	ldr	q0, [x12]
	str	q1, [x12]
	ldr	q1, [x0, #1296]
	add	x12, x0, #1368
	str	q0, [x0, #1200]
	ldr	q0, [x10]
	str	q1, [x10]
	ldr	q1, [x0, #1344]
	add	x10, x0, #1416
	str	q0, [x0, #1248]
	ldr	q0, [x11]
	str	q1, [x11]
	ldr	q1, [x0, #1392]
	add	x11, x0, #1464
	str	q0, [x0, #1296]
	ldr	q0, [x12]
	str	q1, [x12]
	ldr	q1, [x0, #1440]
	add	x12, x0, #1512
	str	q0, [x0, #1344]
	ldr	q0, [x10]
	str	q1, [x10]
	ldr	q1, [x0, #1488]
	add	x10, x0, #1560
	str	q0, [x0, #1392]
	ldr	q0, [x11]
	str	q1, [x11]
	ldr	q1, [x0, #1536]
	add	x11, x0, #1608
	str	q0, [x0, #1440]
	ldr	q0, [x12]
	str	q1, [x12]
	ldr	q1, [x0, #1584]
	add	x12, x0, #1656
	str	q0, [x0, #1488]
	ldr	q0, [x10]
	str	q1, [x10]
	ldr	q1, [x0, #1632]
	add	x10, x0, #1704
	str	q0, [x0, #1536]
	ldr	q0, [x11]
	str	q1, [x11]
	ldr	q1, [x0, #1680]
	add	x11, x0, #1752
	str	q0, [x0, #1584]
	ldr	q0, [x12]
	str	q1, [x12]
	ldr	q1, [x0, #1728]
	add	x12, x0, #1800
	str	q0, [x0, #1632]
	ldr	q0, [x10]
	str	q1, [x10]
	ldr	q1, [x0, #1776]
	add	x10, x0, #1848
	str	q0, [x0, #1680]
	ldr	q0, [x11]
	str	q1, [x11]
	ldr	q1, [x0, #1824]
	add	x11, x0, #1896
	str	q0, [x0, #1728]
	ldr	q0, [x12]
	str	q1, [x12]
	ldr	q1, [x0, #1872]
	add	x12, x0, #1944
	str	q0, [x0, #1776]
	ldr	q0, [x10]
	str	q1, [x10]
	ldr	q1, [x0, #1920]
	add	x10, x0, #1992
	str	q0, [x0, #1824]
	ldr	q0, [x11]
	str	q1, [x11]
	ldr	q1, [x0, #1968]
	add	x11, x0, #2040
	str	q0, [x0, #1872]
	ldr	q0, [x12]
	str	q1, [x12]
	ldr	x12, [x0, #40]
	ldr	q1, [x11]
	str	x13, [x0, #40]
	ldr	x13, [x0, #112]
	str	x12, [x0, #16]
	ldr	x12, [x0, #88]
	str	x13, [x0, #88]
	ldr	x13, [x0, #160]
	str	x12, [x0, #64]
	ldr	x12, [x0, #136]
	str	x13, [x0, #136]
	ldr	x13, [x0, #208]
	str	x12, [x0, #112]
	ldr	x12, [x0, #184]
	str	x13, [x0, #184]
	ldr	x13, [x0, #256]
	str	x12, [x0, #160]
	ldr	x12, [x0, #232]
	str	x13, [x0, #232]
	ldr	x13, [x0, #304]
	str	x12, [x0, #208]
	ldr	x12, [x0, #280]
	str	x13, [x0, #280]
	ldr	x13, [x0, #352]
	str	x12, [x0, #256]
	ldr	x12, [x0, #328]
	str	x13, [x0, #328]
	ldr	x13, [x0, #400]
	str	x12, [x0, #304]
	ldr	x12, [x0, #376]
	str	x13, [x0, #376]
	ldr	x13, [x0, #448]
	str	x12, [x0, #352]
	ldr	x12, [x0, #424]
	str	x13, [x0, #424]
	ldr	x13, [x0, #496]
	str	x12, [x0, #400]
	ldr	x12, [x0, #472]
	str	x13, [x0, #472]
	ldr	x13, [x0, #544]
	str	x12, [x0, #448]
	ldr	x12, [x0, #520]
	str	x13, [x0, #520]
	ldr	x13, [x0, #592]
	str	x12, [x0, #496]
	ldr	x12, [x0, #568]
	str	x13, [x0, #568]
	ldr	x13, [x0, #640]
	str	x12, [x0, #544]
	ldr	x12, [x0, #616]
	str	x13, [x0, #616]
	ldr	x13, [x0, #688]
	str	x12, [x0, #592]
	ldr	x12, [x0, #664]
	str	x13, [x0, #664]
	ldr	x13, [x0, #736]
	str	x12, [x0, #640]
	ldr	x12, [x0, #712]
	str	x13, [x0, #712]
	ldr	x13, [x0, #784]
	str	x12, [x0, #688]
	ldr	x12, [x0, #760]
	str	x13, [x0, #760]
	ldr	x13, [x0, #832]
	str	x12, [x0, #736]
	ldr	x12, [x0, #808]
	str	x13, [x0, #808]
	ldr	x13, [x0, #880]
	str	x12, [x0, #784]
	ldr	x12, [x0, #856]
	str	x13, [x0, #856]
	ldr	x13, [x0, #928]
	str	x12, [x0, #832]
	ldr	x12, [x0, #904]
	str	x13, [x0, #904]
	ldr	x13, [x0, #976]
	str	x12, [x0, #880]
	ldr	x12, [x0, #952]
	str	x13, [x0, #952]
	ldr	x13, [x0, #1024]
	str	x12, [x0, #928]
	ldr	x12, [x0, #1000]
	str	x13, [x0, #1000]
	ldr	x13, [x0, #1072]
	str	x12, [x0, #976]
	ldr	x12, [x0, #1048]
	str	x13, [x0, #1048]
	ldr	x13, [x0, #1120]
	str	x12, [x0, #1024]
	ldr	x12, [x0, #1096]
	str	x13, [x0, #1096]
	ldr	x13, [x0, #1168]
	str	x12, [x0, #1072]
	ldr	x12, [x0, #1144]
	str	x13, [x0, #1144]
	ldr	x13, [x0, #1216]
	str	x12, [x0, #1120]
	ldr	x12, [x0, #1192]
	str	x13, [x0, #1192]
	ldr	x13, [x0, #1264]
	str	x12, [x0, #1168]
	ldr	x12, [x0, #1240]
	str	x13, [x0, #1240]
	ldr	x13, [x0, #1312]
	str	x12, [x0, #1216]
	ldr	x12, [x0, #1288]
	str	x13, [x0, #1288]
	ldr	x13, [x0, #1360]
	str	x12, [x0, #1264]
	ldr	x12, [x0, #1336]
	str	x13, [x0, #1336]
	ldr	x13, [x0, #1408]
	str	x12, [x0, #1312]
	ldr	x12, [x0, #1384]
	str	x13, [x0, #1384]
	ldr	x13, [x0, #1456]
	str	x12, [x0, #1360]
	ldr	x12, [x0, #1432]
	str	x13, [x0, #1432]
	ldr	x13, [x0, #1504]
	str	x12, [x0, #1408]
	ldr	x12, [x0, #1480]
	str	x13, [x0, #1480]
	ldr	x13, [x0, #1552]
	str	x12, [x0, #1456]
	ldr	x12, [x0, #1528]
	str	x13, [x0, #1528]
	ldr	x13, [x0, #1600]
	str	x12, [x0, #1504]
	ldr	x12, [x0, #1576]
	str	x13, [x0, #1576]
	ldr	x13, [x0, #1648]
	str	x12, [x0, #1552]
	ldr	x12, [x0, #1624]
	str	x13, [x0, #1624]
	ldr	x13, [x0, #1696]
	str	x12, [x0, #1600]
	ldr	x12, [x0, #1672]
	str	x13, [x0, #1672]
	ldr	x13, [x0, #1744]
	str	x12, [x0, #1648]
	ldr	x12, [x0, #1720]
	str	x13, [x0, #1720]
	ldr	x13, [x0, #1792]
	str	x12, [x0, #1696]
	ldr	x12, [x0, #1768]
	str	x13, [x0, #1768]
	ldr	x13, [x0, #1840]
	str	x12, [x0, #1744]
	ldr	x12, [x0, #1816]
	str	x13, [x0, #1816]
	ldr	x13, [x0, #1888]
	str	x12, [x0, #1792]
	ldr	x12, [x0, #1864]
	str	x13, [x0, #1864]
	ldr	x13, [x0, #1936]
	str	x12, [x0, #1840]
	ldr	x12, [x0, #1912]
	str	x13, [x0, #1912]
	ldr	x13, [x0, #1984]
	str	x12, [x0, #1888]
	ldr	x12, [x0, #1960]
	str	q0, [x0, #1920]
	ldr	q0, [x10]
	str	x12, [x0, #1936]
	ldr	x12, [x0, #2008]
	str	x13, [x0, #1960]
	ldr	x13, [x0, #2032]
	str	x12, [x0, #1984]
	ldr	x12, [x0, #2056]
	str	q0, [x0, #1968]
	ldr	q0, [x0, #2016]
	str	q1, [x0, #2016]
	str	x13, [x0, #2008]
	str	x12, [x0, #2032]
	mov	x0, x11
	str	q0, [x10]
	b.hi	.LBB17_89
// %bb.90:                              // %"core::slots::Slots::move_back::<#483ec8513fd57e54>.exit.i.i.i.i.i.i"
	cmp	x9, #1
	b.ne	.LBB17_123
// %bb.91:                              // %join.5.i33.i.i.i.i.i.i.preheader
	mov	w9, #24                         // =0x18
	madd	x9, x21, x9, x19
	sub	x9, x9, #24
.LBB17_92:                              // %join.5.i33.i.i.i.i.i.i
                                        // =>This Inner Loop Header: Depth=1
	ldr	q0, [x9]
	ldr	x10, [x9, #16]
	sub	x11, x9, #24
	subs	x8, x8, #1
	stur	q0, [x9, #-24]
	stur	x10, [x9, #-8]
	mov	x9, x11
	b.ne	.LBB17_92
	b	.LBB17_98
.LBB17_93:
	mov	x27, xzr
	mov	x21, xzr
	sub	x19, x29, #16
	cbnz	x22, .LBB17_85
	b	.LBB17_86
.LBB17_94:                              // %arm.1.thread.i.i.i.i
	str	x27, [sp, #64]                  // 8-byte Spill
	mov	x25, xzr
	mov	w20, wzr
	mov	x28, xzr
.LBB17_95:                              // %arm.1.i8.i.i.i.i
	str	xzr, [sp, #48]                  // 8-byte Spill
	mov	w8, #1                          // =0x1
	b	.LBB17_140
.LBB17_96:
	mov	x0, x19
	mov	x8, x25
	cmp	x25, xzr
	b.eq	.LBB17_98
.LBB17_97:                              // %join.5.i25.i.preheader.i.i.i.i.i
	add	x8, x8, x8, lsl #1
	add	x1, x0, #24
	lsl	x2, x8, #3
	bl	memmove
.LBB17_98:                              // %"std_alloc::vec::Vec::remove::<#1b8c52373d8cd3cb>.exit.i.i.i.i.i"
	cbz	x22, .LBB17_100
// %bb.99:                              // %then.1.i.i.i.i.i61.i.i.i
	mov	x0, x20
	bl	rattle_dealloc
.LBB17_100:                             // %arm.1.i21.i.i.i
	cbz	x25, .LBB17_139
.LBB17_101:                             // %arm.1.i21.i.i.i
	cmp	x25, #1
	b.ne	.LBB17_114
// %bb.102:                             // %then.5.i.i.i.i.i.i
	ldr	x8, [x19, #8]
	cmp	x8, #7
	b.ne	.LBB17_122
// %bb.103:                             // %"text_programs::programs::requests::request_of::<#40a73cb1e87492e9>.exit.i.i.i.i.i"
	ldr	x8, [x19]
	ldr	w9, [x8]
	ldur	w8, [x8, #3]
	orr	x8, x9, x8, lsl #32
	mov	x9, #11565                      // =0x2d2d
	movk	x9, #25965, lsl #16
	movk	x9, #29285, lsl #32
	movk	x9, #25959, lsl #48
	cmp	x8, x9
	b.ne	.LBB17_122
// %bb.104:
	mov	x28, xzr
	mov	w25, #1                         // =0x1
	mov	w20, #1                         // =0x1
	str	x27, [sp, #64]                  // 8-byte Spill
	b	.LBB17_95
.LBB17_105:                             // %arm.5.i.i.i.i.i.i.i
	cbz	x23, .LBB17_107
// %bb.106:                             // %then.1.i.i.i.i.i.i.i.i.i.i
	mov	x0, x21
	bl	rattle_dealloc
.LBB17_107:                             // %arm.18.i.i.i.i.i
	ldr	x20, [sp, #416]
	cbz	x25, .LBB17_112
// %bb.108:                             // %join.5.i.i.i.i.i49.i.i.i.i.i.preheader
	add	x21, x19, #16
	b	.LBB17_110
.LBB17_109:                             // %"core::mem::drop::<#f02d343d93693c10>.exit.i.i.i.i.i58.i.i.i.i.i"
                                        //   in Loop: Header=BB17_110 Depth=1
	subs	x25, x25, #1
	add	x21, x21, #24
	b.eq	.LBB17_112
.LBB17_110:                             // %join.5.i.i.i.i.i49.i.i.i.i.i
                                        // =>This Inner Loop Header: Depth=1
	ldr	x8, [x21]
	cbz	x8, .LBB17_109
// %bb.111:                             // %then.1.i.i.i.i.i.i.i.i.i.i56.i.i.i.i.i
                                        //   in Loop: Header=BB17_110 Depth=1
	ldur	x0, [x21, #-16]
	bl	rattle_dealloc
	b	.LBB17_109
.LBB17_112:                             // %"std_alloc::vec::Vec::clear::<#4feeb2b446188e7f>.exit.i61.i.i.i.i.i"
	cbz	x20, .LBB17_124
// %bb.113:                             // %then.1.i.i.i63.i.i.i.i.i
	mov	x0, x19
	bl	rattle_dealloc
	mov	w8, #21                         // =0x15
	b	.LBB17_135
.LBB17_114:                             // %join.7.i.i.i.i.i.i
	cmp	x25, #2
	b.hi	.LBB17_122
// %bb.115:                             // %then.11.i.i.i.i.i.i
	ldr	x8, [x19, #8]
	cmp	x8, #6
	b.ne	.LBB17_122
// %bb.116:                             // %"text_programs::programs::requests::is_text::<#e3b2a9d4d2861db8>.exit.i.i.i.i.i.i.i"
	ldr	x8, [x19]
	ldr	w9, [x8]
	ldur	w8, [x8, #2]
	orr	x8, x9, x8, lsl #32
	mov	x9, #11565                      // =0x2d2d
	movk	x9, #28261, lsl #16
	movk	x9, #28261, lsl #32
	movk	x9, #29540, lsl #48
	cmp	x8, x9
	b.ne	.LBB17_122
// %bb.117:                             // %then.1.i.i.i.i.i.i.i
	ldr	x20, [x19, #32]
	cbz	x20, .LBB17_122
// %bb.118:                             // %loop.2.i.i.preheader.i.i.i.i.i.i.i
	ldr	x21, [x19, #24]
	mov	x9, x20
	mov	x8, x21
.LBB17_119:                             // %loop.2.i.i.i.i.i.i.i.i.i
                                        // =>This Inner Loop Header: Depth=1
	cbz	x9, .LBB17_295
// %bb.120:                             // %arm.3.i.i.i.i.i.i.i.i.i
                                        //   in Loop: Header=BB17_119 Depth=1
	ldrb	w10, [x8], #1
	sub	x9, x9, #1
	and	w10, w10, #0xfffffffb
	cmp	w10, #66
	b.eq	.LBB17_119
// %bb.121:
	mov	w22, wzr
	mov	w0, w22
	bl	"text_programs::programs::stops::Stop::report::<#2daa2fb2be07fb73>"
	mov	w20, w0
	cbnz	x25, .LBB17_174
	b	.LBB17_352
.LBB17_122:                             // %arm.6.thread.i.i.i.i
	mov	w0, wzr
	bl	"text_programs::programs::stops::Stop::report::<#2daa2fb2be07fb73>"
	mov	w20, w0
	b	.LBB17_174
.LBB17_123:
	neg	x9, x9
	cmp	x25, x9
	b.ne	.LBB17_97
	b	.LBB17_98
.LBB17_124:
	mov	w8, #21                         // =0x15
	b	.LBB17_135
.LBB17_125:                             // %then.1.i.i.i.i.i.i.i.i
	ldr	x8, [sp, #512]
	cbz	x8, .LBB17_127
// %bb.126:                             // %then.1.i.i.i.i.i.i.i.i.i.i.i
	ldr	x0, [sp, #496]
	bl	rattle_dealloc
.LBB17_127:                             // %arm.17.i.i.i.i.i
	ldr	x20, [sp, #416]
	cbz	x25, .LBB17_132
// %bb.128:                             // %join.5.i.i.i.i.i25.i.i.i.i.i.preheader
	add	x21, x19, #16
	b	.LBB17_130
.LBB17_129:                             // %"core::mem::drop::<#f02d343d93693c10>.exit.i.i.i.i.i34.i.i.i.i.i"
                                        //   in Loop: Header=BB17_130 Depth=1
	subs	x25, x25, #1
	add	x21, x21, #24
	b.eq	.LBB17_132
.LBB17_130:                             // %join.5.i.i.i.i.i25.i.i.i.i.i
                                        // =>This Inner Loop Header: Depth=1
	ldr	x8, [x21]
	cbz	x8, .LBB17_129
// %bb.131:                             // %then.1.i.i.i.i.i.i.i.i.i.i32.i.i.i.i.i
                                        //   in Loop: Header=BB17_130 Depth=1
	ldur	x0, [x21, #-16]
	bl	rattle_dealloc
	b	.LBB17_129
.LBB17_132:                             // %"std_alloc::vec::Vec::clear::<#4feeb2b446188e7f>.exit.i37.i.i.i.i.i"
	cbz	x20, .LBB17_134
.LBB17_133:                             // %then.1.i.i.i.i.i.i.i.i.i
	mov	x0, x19
	bl	rattle_dealloc
.LBB17_134:                             // %arm.6.i.i.i.i
	mov	w8, #38                         // =0x26
.LBB17_135:                             // %arm.2.i.i.i.i.i
	adrp	x9, .LCPI17_0
	stp	xzr, xzr, [sp, #400]
	ldr	q0, [x9, :lo12:.LCPI17_0]
	adrp	x9, .LCPI17_1
	str	xzr, [sp, #416]
	ldr	q1, [x9, :lo12:.LCPI17_1]
	adrp	x9, .LCPI17_2
	ldr	d2, [x9, :lo12:.LCPI17_2]
	mov	w9, #40                         // =0x28
	stp	q0, q1, [sp, #496]
	str	d2, [sp, #528]
	strb	w9, [sp, #536]
	add	x9, sp, #496
	ldrb	w8, [x9, x8]
	cmp	w8, #21
	b.eq	.LBB17_137
.LBB17_136:                             // %arm.2.i1.i.i.i
	mov	w0, #3                          // =0x3
	bl	"text_programs::programs::stops::Stop::report::<#2daa2fb2be07fb73>"
	mov	w20, w0
	b	.LBB17_354
.LBB17_137:                             // %then.9.i.i.i.i.i
	sub	x20, x29, #16
	add	x0, sp, #400
	mov	w1, #1                          // =0x1
	stp	xzr, xzr, [sp, #408]
	str	x20, [sp, #400]
	bl	"std_alloc::vec::Vec::grow_amortized::<#1b8c52373d8cd3cb>"
	ldr	x27, [sp, #416]
	cbz	w0, .LBB17_256
// %bb.138:                             // %"std_alloc::vec::Vec::grow::<#1b8c52373d8cd3cb>.exit.join.3_crit_edge.i.i.i15.i.i.i"
	ldp	x19, x8, [sp, #400]
	mov	w9, #24                         // =0x18
	madd	x9, x8, x9, x19
	add	x25, x8, #1
	stp	x20, xzr, [x9]
	str	xzr, [x9, #16]
	cbnz	x25, .LBB17_101
.LBB17_139:
	mov	w8, #1                          // =0x1
	str	x27, [sp, #64]                  // 8-byte Spill
	mov	w20, wzr
	str	xzr, [sp, #48]                  // 8-byte Spill
	mov	x28, x25
.LBB17_140:                             // %arm.1.i8.i.i.i.i
	str	w8, [sp, #60]                   // 4-byte Spill
	sub	x21, x29, #16
	add	x0, sp, #496
	mov	w1, wzr
	mov	w2, #65536                      // =0x10000
	stp	xzr, xzr, [sp, #312]
	add	x23, sp, #496
	str	x21, [sp, #304]
	bl	memset
	mov	x22, xzr
	mov	x24, xzr
	add	x26, x23, #16
	str	xzr, [sp, #72]                  // 8-byte Spill
	b	.LBB17_144
.LBB17_141:                             // %apart.2.i.i.i.i.i.i.i.i.i.i
                                        //   in Loop: Header=BB17_144 Depth=1
	add	x0, x21, x22
	add	x1, sp, #496
	mov	x2, x23
	bl	memmove
.LBB17_142:                             // %.thread.i.i.i.i.i.i
                                        //   in Loop: Header=BB17_144 Depth=1
	ldr	x8, [sp, #72]                   // 8-byte Reload
	add	x22, x22, x23
	stp	x22, x8, [sp, #312]
.LBB17_143:                             // %join.9.i.i.i.i.i.i
                                        //   in Loop: Header=BB17_144 Depth=1
	add	x24, x24, #1
	cmn	x24, #1
	b.eq	.LBB17_166
.LBB17_144:                             // %join.5.i.i.i.i.i.i
                                        // =>This Loop Header: Depth=1
                                        //     Child Loop BB17_158 Depth 2
                                        //     Child Loop BB17_162 Depth 2
                                        //     Child Loop BB17_152 Depth 2
	add	x1, sp, #496
	mov	w0, wzr
	mov	w2, #65536                      // =0x10000
	bl	read
	tbnz	x0, #63, .LBB17_153
// %bb.145:                             // %arm.6.i.i.i.i.i.i
                                        //   in Loop: Header=BB17_144 Depth=1
	cmp	x0, #16, lsl #12                // =65536
	mov	w8, #65536                      // =0x10000
	csel	x23, x0, x8, lo
	cbz	x0, .LBB17_178
// %bb.146:                             // %default.11.i.i.i.i.i.i
                                        //   in Loop: Header=BB17_144 Depth=1
	ldr	x8, [sp, #72]                   // 8-byte Reload
	sub	x8, x8, x22
	cmp	x23, x8
	b.hi	.LBB17_164
// %bb.147:                             // %join.3.i.i.i16.i.i.i.i.i
                                        //   in Loop: Header=BB17_144 Depth=1
	add	x8, x21, x22
	add	x9, sp, #496
	sub	x8, x8, x9
	cmp	x8, x23
	b.hs	.LBB17_141
.LBB17_148:                             // %iter.check
                                        //   in Loop: Header=BB17_144 Depth=1
	cmp	x0, #7
	b.ls	.LBB17_150
// %bb.149:                             // %vector.memcheck
                                        //   in Loop: Header=BB17_144 Depth=1
	add	x8, sp, #496
	sub	x8, x22, x8
	add	x8, x8, x21
	cmp	x8, #32
	b.hs	.LBB17_155
.LBB17_150:                             //   in Loop: Header=BB17_144 Depth=1
	mov	x8, xzr
.LBB17_151:                             // %join.7.i.i.i.i.i.i.i.i.i.i.preheader
                                        //   in Loop: Header=BB17_144 Depth=1
	add	x10, sp, #496
	add	x11, x8, x22
	sub	x9, x23, x8
	add	x8, x10, x8
	add	x10, x21, x11
.LBB17_152:                             // %join.7.i.i.i.i.i.i.i.i.i.i
                                        //   Parent Loop BB17_144 Depth=1
                                        // =>  This Inner Loop Header: Depth=2
	ldrb	w11, [x8], #1
	subs	x9, x9, #1
	strb	w11, [x10], #1
	b.ne	.LBB17_152
	b	.LBB17_142
.LBB17_153:                             // %arm.7.i.i.i.i.i.i
                                        //   in Loop: Header=BB17_144 Depth=1
	add	x0, sp, #400
	add	x23, sp, #400
	bl	"std_io::io::error::last_error"
	adrp	x9, .LCPI17_0
	ldr	x8, [sp, #400]
	adrp	x10, .LCPI17_1
	ldr	q0, [x9, :lo12:.LCPI17_0]
	adrp	x9, .LCPI17_2
	ldr	q1, [x10, :lo12:.LCPI17_1]
	ldr	d2, [x9, :lo12:.LCPI17_2]
	ubfx	w9, w8, #8, #8
	mov	w10, #40                        // =0x28
	stp	q0, q1, [sp, #400]
	cmp	w9, #41
	str	d2, [sp, #432]
	strb	w10, [sp, #440]
	b.hs	.LBB17_168
// %bb.154:                             // %"std_io::io::error::Error::kind.exit51.i.i.i.i.i.i"
                                        //   in Loop: Header=BB17_144 Depth=1
	ubfx	x8, x8, #8, #6
	ldrb	w8, [x23, x8]
	cmp	w8, #35
	b.eq	.LBB17_143
	b	.LBB17_168
.LBB17_155:                             // %vector.main.loop.iter.check
                                        //   in Loop: Header=BB17_144 Depth=1
	cmp	x0, #32
	b.hs	.LBB17_157
// %bb.156:                             //   in Loop: Header=BB17_144 Depth=1
	mov	x8, xzr
	b	.LBB17_161
.LBB17_157:                             // %vector.ph
                                        //   in Loop: Header=BB17_144 Depth=1
	add	x10, x21, x22
	and	x9, x23, #0x18
	and	x8, x23, #0x1ffe0
	add	x10, x10, #16
	mov	x11, x26
	and	x12, x23, #0x1ffe0
.LBB17_158:                             // %vector.body
                                        //   Parent Loop BB17_144 Depth=1
                                        // =>  This Inner Loop Header: Depth=2
	ldp	q0, q1, [x11, #-16]
	subs	x12, x12, #32
	add	x11, x11, #32
	stp	q0, q1, [x10, #-16]
	add	x10, x10, #32
	b.ne	.LBB17_158
// %bb.159:                             // %middle.block
                                        //   in Loop: Header=BB17_144 Depth=1
	cmp	x23, x8
	b.eq	.LBB17_142
// %bb.160:                             // %vec.epilog.iter.check
                                        //   in Loop: Header=BB17_144 Depth=1
	cbz	x9, .LBB17_151
.LBB17_161:                             // %vec.epilog.ph
                                        //   in Loop: Header=BB17_144 Depth=1
	mov	x10, x8
	and	x8, x23, #0x1fff8
	add	x11, sp, #496
	add	x12, x22, x10
	sub	x9, x10, x8
	add	x10, x11, x10
	add	x11, x21, x12
.LBB17_162:                             // %vec.epilog.vector.body
                                        //   Parent Loop BB17_144 Depth=1
                                        // =>  This Inner Loop Header: Depth=2
	ldr	d0, [x10], #8
	adds	x9, x9, #8
	str	d0, [x11], #8
	b.ne	.LBB17_162
// %bb.163:                             // %vec.epilog.middle.block
                                        //   in Loop: Header=BB17_144 Depth=1
	cmp	x23, x8
	b.eq	.LBB17_142
	b	.LBB17_151
.LBB17_164:                             // %"std_alloc::vec::Vec::grow::<#5fdc5e19576447a7>.exit.i.i.i.i.i.i.i.i"
                                        //   in Loop: Header=BB17_144 Depth=1
	mov	x27, x0
	add	x0, sp, #304
	mov	x1, x23
	bl	"std_alloc::vec::Vec::grow_amortized::<#5fdc5e19576447a7>"
	cbz	w0, .LBB17_292
// %bb.165:                             // %"std_alloc::vec::Vec::grow::<#5fdc5e19576447a7>.exit.join.3_crit_edge.i.i.i.i.i.i.i.i"
                                        //   in Loop: Header=BB17_144 Depth=1
	ldp	x22, x8, [sp, #312]
	mov	x0, x27
	ldr	x21, [sp, #304]
	str	x8, [sp, #72]                   // 8-byte Spill
	add	x8, x21, x22
	add	x9, sp, #496
	sub	x8, x8, x9
	cmp	x8, x23
	b.hs	.LBB17_141
	b	.LBB17_148
.LBB17_166:                             // %after.1.i.i.i.i.i.i
	ldr	x8, [sp, #72]                   // 8-byte Reload
	cbz	x8, .LBB17_171
// %bb.167:                             // %then.1.i.i.i61.i.i.i.i.i.i
	ldr	x0, [sp, #304]
	b	.LBB17_170
.LBB17_168:                             // %join.19.i.i.i.i.i.i
	ldr	x8, [sp, #72]                   // 8-byte Reload
	cbz	x8, .LBB17_171
// %bb.169:                             // %then.1.i.i.i55.i.i.i.i.i.i
	mov	x0, x21
.LBB17_170:                             // %arm.6.i.i23.i.i.i
	bl	rattle_dealloc
.LBB17_171:
	mov	w22, #1                         // =0x1
	ldr	x27, [sp, #64]                  // 8-byte Reload
	ldr	w8, [sp, #60]                   // 4-byte Reload
	tbnz	w8, #0, .LBB17_173
.LBB17_172:                             // %then.1.i.i.i.i9.i.i.i.i
	ldr	x0, [sp, #48]                   // 8-byte Reload
	bl	rattle_dealloc
.LBB17_173:                             // %arm.6.i24.i.i.i
	mov	w0, w22
	bl	"text_programs::programs::stops::Stop::report::<#2daa2fb2be07fb73>"
	mov	w20, w0
	cbz	x25, .LBB17_352
.LBB17_174:                             // %join.5.i.i.i.i.i51.preheader.i.i.i.i
	add	x21, x19, #16
	b	.LBB17_176
.LBB17_175:                             // %"core::mem::drop::<#7f8a914b9c4d666d>.exit.i.i.i.i.i60.i.i.i.i"
                                        //   in Loop: Header=BB17_176 Depth=1
	subs	x25, x25, #1
	add	x21, x21, #24
	b.eq	.LBB17_352
.LBB17_176:                             // %join.5.i.i.i.i.i51.i.i.i.i
                                        // =>This Inner Loop Header: Depth=1
	ldr	x8, [x21]
	cbz	x8, .LBB17_175
// %bb.177:                             // %then.1.i.i.i.i.i.i.i.i.i.i58.i.i.i.i
                                        //   in Loop: Header=BB17_176 Depth=1
	ldur	x0, [x21, #-16]
	bl	rattle_dealloc
	b	.LBB17_175
.LBB17_178:                             // %arm.5.i.i.i.i.i
	movi	v0.2d, #0000000000000000
	ldr	x1, [sp, #304]
	cmp	w20, #2
	str	x1, [sp, #40]                   // 8-byte Spill
	stp	q0, q0, [sp, #80]
	stp	q0, q0, [sp, #112]
	stp	q0, q0, [sp, #144]
	stp	q0, q0, [sp, #176]
	stp	q0, q0, [sp, #208]
	stp	q0, q0, [sp, #240]
	stp	q0, q0, [sp, #272]
	b.eq	.LBB17_182
// %bb.179:                             // %arm.5.i.i.i.i.i
	cmp	w20, #1
	b.ne	.LBB17_255
// %bb.180:                             // %arm.2.i.i.i48.i.i.i
	add	x0, sp, #176
	mov	x2, x22
	bl	"text_programs::programs::pieces_program::merge_all::<#e3b2a9d4d2861db8>"
	ldrb	w8, [sp, #176]
	ldr	x27, [sp, #64]                  // 8-byte Reload
	ldr	w26, [sp, #60]                  // 4-byte Reload
	cbz	w8, .LBB17_264
.LBB17_181:                             // %"text_programs::programs::pieces_program::write_asked::<#1749da6181c3c90c>.exit.thread.i.i.i.i.i"
	ldr	x0, [sp, #40]                   // 8-byte Reload
	mov	w22, #3                         // =0x3
	b	.LBB17_315
.LBB17_182:                             // %arm.3.i.i.i.i.i.i
	sub	x8, x29, #16
	stp	xzr, xzr, [sp, #408]
	str	x8, [sp, #400]
	cbz	x28, .LBB17_266
// %bb.183:                             // %join.6.lr.ph.i.i26.i.i.i.i.i
	ldr	x15, [sp, #48]                  // 8-byte Reload
	mov	x20, xzr
	mov	x17, xzr
	sub	x16, x29, #16
	b	.LBB17_188
.LBB17_184:                             //   in Loop: Header=BB17_188 Depth=1
	mov	x24, xzr
	mov	x27, xzr
.LBB17_185:                             // %"text_runs::runs::walks::ask::<#c916d0d022654a2a>.exit.i.i.i.i.i.i.i"
                                        //   in Loop: Header=BB17_188 Depth=1
	mov	w26, wzr
	mov	w23, wzr
	mov	x21, xzr
	mov	x17, x22
.LBB17_186:                             // %"text_runs::runs::walks::ask::<#c916d0d022654a2a>.exit.i.i.i.i.i.i.i"
                                        //   in Loop: Header=BB17_188 Depth=1
	ldr	x8, [sp, #416]
	cmp	x8, x20
	b.eq	.LBB17_217
.LBB17_187:                             // %arm.8.i.i.i.i.i.i.i
                                        //   in Loop: Header=BB17_188 Depth=1
	add	x8, x16, x20, lsl #5
	add	x20, x20, #1
	subs	x28, x28, #1
	stp	x24, x27, [x8]
	strb	w26, [x8, #16]
	stur	w23, [x8, #17]
	str	x21, [x8, #24]
	str	x20, [sp, #408]
	b.eq	.LBB17_263
.LBB17_188:                             // %join.6.i.i27.i.i.i.i.i
                                        // =>This Inner Loop Header: Depth=1
	ldrb	w8, [x15], #1
	cbz	w8, .LBB17_199
// %bb.189:                             // %arm.2.i.i.i.i.i.i.i.i
                                        //   in Loop: Header=BB17_188 Depth=1
	subs	x2, x22, x17
	b.eq	.LBB17_184
// %bb.190:                             // %join.3.i.i.i30.i.i.i.i.i
                                        //   in Loop: Header=BB17_188 Depth=1
	cmp	x2, #4
	stp	xzr, xzr, [sp, #496]
	str	xzr, [sp, #512]
	b.lo	.LBB17_236
// %bb.191:                             // %join.3.i21.i.i.i.i.i.i.i
                                        //   in Loop: Header=BB17_188 Depth=1
	add	x8, x1, x22
	mov	w9, #-1073741824                // =0xc0000000
	ldur	w23, [x8, #-4]
	lsr	x8, x23, #24
	cmp	w23, w9
	b.ge	.LBB17_204
// %bb.192:                             // %join.3.i181.i.i.i.i.i.i.i
                                        //   in Loop: Header=BB17_188 Depth=1
	ubfx	x9, x23, #16, #8
	sxtb	w10, w9
	cmn	w10, #64
	b.ge	.LBB17_208
// %bb.193:                             // %join.9.i.i.i.i.i.i.i.i
                                        //   in Loop: Header=BB17_188 Depth=1
	ubfx	x10, x23, #8, #8
	lsr	x9, x23, #16
	sxtb	w11, w10
	cmn	w11, #64
	b.ge	.LBB17_221
// %bb.194:                             // %join.15.i.i.i.i.i.i.i.i
                                        //   in Loop: Header=BB17_188 Depth=1
	and	w10, w23, #0xff
	sub	w10, w10, #245
	cmn	w10, #5
	b.lo	.LBB17_225
// %bb.195:                             // %after.1.i239.i.i.i.i.i.i.i
                                        //   in Loop: Header=BB17_188 Depth=1
	and	x11, x23, #0xff
	adrp	x10, .Lstatic.7
	add	x10, x10, :lo12:.Lstatic.7
	ldrb	w12, [x10, x11]
	lsr	x13, x23, #8
	adrp	x11, .Lstatic.8
	add	x11, x11, :lo12:.Lstatic.8
	mov	w14, #191                       // =0xbf
	ldrb	w12, [x11, x12]
	and	x13, x13, x14
	ldrb	w13, [x10, x13]
	add	x12, x11, x12, lsl #4
	ldrb	w12, [x12, x13]
	cmp	x12, #16
	b.eq	.LBB17_225
// %bb.196:                             // %join.13.i240.i.i.i.i.i.i.i
                                        //   in Loop: Header=BB17_188 Depth=1
	mov	w13, #191                       // =0xbf
	add	x12, x11, x12, lsl #4
	and	x9, x9, x13
	ldrb	w9, [x10, x9]
	ldrb	w9, [x12, x9]
	cmp	x9, #16
	b.eq	.LBB17_225
// %bb.197:                             // %join.16.i241.i.i.i.i.i.i.i
                                        //   in Loop: Header=BB17_188 Depth=1
	ldrb	w8, [x10, x8]
	add	x9, x11, x9, lsl #4
	ldrb	w8, [x9, x8]
	cmp	w8, #13
	b.ne	.LBB17_225
// %bb.198:                             //   in Loop: Header=BB17_188 Depth=1
	mov	w21, #4                         // =0x4
	b	.LBB17_207
.LBB17_199:                             // %arm.1.i.i.i.i.i.i.i.i
                                        //   in Loop: Header=BB17_188 Depth=1
	subs	x27, x22, x17
	b.ne	.LBB17_201
// %bb.200:                             //   in Loop: Header=BB17_188 Depth=1
	mov	x24, xzr
	b	.LBB17_185
.LBB17_201:                             // %join.3.i.i.i.i.i.i.i.i.i
                                        //   in Loop: Header=BB17_188 Depth=1
	add	x21, x1, x17
	ldrsb	w8, [x21]
	and	w11, w8, #0xff
	tbnz	w8, #31, .LBB17_211
// %bb.202:                             //   in Loop: Header=BB17_188 Depth=1
	mov	w10, wzr
	mov	w9, wzr
	mov	w8, wzr
	mov	w21, #1                         // =0x1
.LBB17_203:                             // %arm.4.i.i.i.i.i.i.i.i.i
                                        //   in Loop: Header=BB17_188 Depth=1
	orr	w9, w10, w9, lsl #16
	mov	w26, wzr
	mov	x27, x17
	add	x17, x21, x17
	mov	w24, #1                         // =0x1
	orr	w8, w9, w8, lsl #8
	orr	w23, w8, w11
	b	.LBB17_186
.LBB17_204:                             // %join.3.i.i42.i.i.i.i.i.i.i
                                        //   in Loop: Header=BB17_188 Depth=1
	tbnz	w23, #31, .LBB17_219
// %bb.205:                             //   in Loop: Header=BB17_188 Depth=1
	mov	w21, #1                         // =0x1
.LBB17_206:                             // %arm.4.i.i.i.i.i47.i.i.i
                                        //   in Loop: Header=BB17_188 Depth=1
	mov	w23, w8
.LBB17_207:                             // %arm.4.i.i.i.i.i47.i.i.i
                                        //   in Loop: Header=BB17_188 Depth=1
	mov	w26, wzr
	sub	x27, x22, x21
	mov	w24, #1                         // =0x1
	b	.LBB17_235
.LBB17_208:                             // %then.7.i.i.i.i.i.i.i.i
                                        //   in Loop: Header=BB17_188 Depth=1
	sub	w9, w9, #224
	cmn	w9, #30
	b.lo	.LBB17_232
// %bb.209:                             // %after.1.i.i.i.i.i.i.i.i
                                        //   in Loop: Header=BB17_188 Depth=1
	adrp	x9, .Lstatic.7
	add	x9, x9, :lo12:.Lstatic.7
	adrp	x10, .Lstatic.8
	add	x10, x10, :lo12:.Lstatic.8
	ldrb	w9, [x9, x8]
	add	x9, x10, x9
	ldrb	w9, [x9, #16]
	cmp	w9, #13
	b.ne	.LBB17_232
// %bb.210:                             // %join.13.i.i.i.i.i.i.i.i
                                        //   in Loop: Header=BB17_188 Depth=1
	ubfx	w9, w23, #16, #8
	mov	w21, #2                         // =0x2
	orr	w8, w9, w8, lsl #8
	b	.LBB17_206
.LBB17_211:                             // %join.3.i22.i.i.i.i.i.i.i.i
                                        //   in Loop: Header=BB17_188 Depth=1
	and	x8, x8, #0xff
	adrp	x24, .Lstatic.7
	add	x24, x24, :lo12:.Lstatic.7
	ldrb	w8, [x24, x8]
	adrp	x26, .Lstatic.8
	add	x26, x26, :lo12:.Lstatic.8
	ldrb	w23, [x26, x8]
	cmp	x23, #12
	b.hi	.LBB17_226
// %bb.212:                             // %then.4.i28.i.i.i.i.i.i.i.i
                                        //   in Loop: Header=BB17_188 Depth=1
	cmp	x27, #3
	b.ls	.LBB17_253
.LBB17_213:                             // %join.3.i45.i.i.i.i.i.i.i.i
                                        //   in Loop: Header=BB17_188 Depth=1
	ldrb	w8, [x21, #1]
	add	x10, x26, x23, lsl #4
	ldrb	w9, [x24, w8, uxtw]
	ldrb	w0, [x10, x9]
	cmp	x0, #12
	b.hi	.LBB17_239
// %bb.214:                             // %then.1.i75.i.i.i.i.i.i.i.i
                                        //   in Loop: Header=BB17_188 Depth=1
	ldrb	w9, [x21, #2]
	add	x10, x26, x0, lsl #4
	ldrb	w9, [x24, x9]
	ldrb	w0, [x10, x9]
	cmp	x0, #12
	b.hi	.LBB17_243
// %bb.215:                             // %then.1.i109.i.i.i.i.i.i.i.i
                                        //   in Loop: Header=BB17_188 Depth=1
	ldrb	w9, [x21, #3]
	add	x10, x26, x0, lsl #4
	ldrb	w9, [x24, x9]
	ldrb	w0, [x10, x9]
	cmp	w0, #13
	b.eq	.LBB17_247
// %bb.216:                             // %then.1.i109.i.i.i.i.i.i.i.i
                                        //   in Loop: Header=BB17_188 Depth=1
	cmp	w0, #16
	b.eq	.LBB17_241
	b	.LBB17_246
.LBB17_217:                             // %"std_alloc::vec::Vec::grow::<#1ada1fecd8908aad>.exit.i.i.i.i.i.i.i.i"
                                        //   in Loop: Header=BB17_188 Depth=1
	add	x0, sp, #400
	stp	x17, x15, [sp, #24]             // 16-byte Folded Spill
	bl	"std_alloc::vec::Vec::grow_amortized::<#1ada1fecd8908aad>"
	cbz	w0, .LBB17_339
// %bb.218:                             // %"std_alloc::vec::Vec::grow::<#1ada1fecd8908aad>.exit.join.3_crit_edge.i.i.i.i.i.i.i.i"
                                        //   in Loop: Header=BB17_188 Depth=1
	ldp	x16, x20, [sp, #400]
	ldr	x17, [sp, #24]                  // 8-byte Reload
	ldp	x15, x1, [sp, #32]              // 16-byte Folded Reload
	b	.LBB17_187
.LBB17_219:                             // %join.3.i15.i.i.i.i.i.i.i.i
                                        //   in Loop: Header=BB17_188 Depth=1
	adrp	x9, .Lstatic.7
	add	x9, x9, :lo12:.Lstatic.7
	ldrb	w8, [x9, x8]
	adrp	x9, .Lstatic.8
	add	x9, x9, :lo12:.Lstatic.8
	ldrb	w8, [x9, x8]
	cmp	w8, #13
	b.hs	.LBB17_229
// %bb.220:                             //   in Loop: Header=BB17_188 Depth=1
	mov	w23, wzr
	b	.LBB17_233
.LBB17_221:                             // %then.13.i.i.i.i.i.i.i.i
                                        //   in Loop: Header=BB17_188 Depth=1
	and	w11, w10, #0xf0
	cmp	w11, #224
	b.ne	.LBB17_225
// %bb.222:                             // %after.1.i209.i.i.i.i.i.i.i
                                        //   in Loop: Header=BB17_188 Depth=1
	adrp	x11, .Lstatic.7
	add	x11, x11, :lo12:.Lstatic.7
	adrp	x12, .Lstatic.8
	add	x12, x12, :lo12:.Lstatic.8
	ldrb	w13, [x11, x10]
	mov	w14, #191                       // =0xbf
	and	x9, x9, x14
	ldrb	w13, [x12, x13]
	ldrb	w14, [x11, x9]
	add	x13, x12, x13, lsl #4
	ldrb	w13, [x13, x14]
	cmp	x13, #16
	b.eq	.LBB17_225
// %bb.223:                             // %join.13.i211.i.i.i.i.i.i.i
                                        //   in Loop: Header=BB17_188 Depth=1
	ldrb	w11, [x11, x8]
	add	x12, x12, x13, lsl #4
	ldrb	w11, [x12, x11]
	cmp	w11, #13
	b.ne	.LBB17_225
// %bb.224:                             // %join.16.i.i.i.i.i.i.i.i
                                        //   in Loop: Header=BB17_188 Depth=1
	lsl	w8, w8, #16
	mov	w21, #3                         // =0x3
	orr	w8, w8, w9, lsl #8
	orr	w23, w8, w10
	b	.LBB17_207
.LBB17_225:                             // %"encode_unicode::decoding_iterators::back_scan::decode_end.exit.i.thread.i.i.i.i.i.i"
                                        //   in Loop: Header=BB17_188 Depth=1
	mov	w26, #1                         // =0x1
	mov	w23, #2                         // =0x2
	b	.LBB17_234
.LBB17_226:                             // %join.6.i24.i.i.i.i.i.i.i.i
                                        //   in Loop: Header=BB17_188 Depth=1
	cmp	w23, #14
	b.eq	.LBB17_238
// %bb.227:                             // %join.6.i24.i.i.i.i.i.i.i.i
                                        //   in Loop: Header=BB17_188 Depth=1
	cmp	w23, #13
	b.eq	.LBB17_371
// %bb.228:                             // %arm.2.i177.i.i.i.i.i.i.i.i
                                        //   in Loop: Header=BB17_188 Depth=1
	mov	w0, #1                          // =0x1
	b	.LBB17_242
.LBB17_229:                             // %join.6.i17.i.i.i.i.i.i.i.i
                                        //   in Loop: Header=BB17_188 Depth=1
	cmp	w8, #14
	b.eq	.LBB17_232
// %bb.230:                             // %join.6.i17.i.i.i.i.i.i.i.i
                                        //   in Loop: Header=BB17_188 Depth=1
	cmp	w8, #13
	b.eq	.LBB17_371
// %bb.231:                             // %arm.2.i161.i115.i.i.i.i.i.i.i
                                        //   in Loop: Header=BB17_188 Depth=1
	mov	w23, #1                         // =0x1
	b	.LBB17_233
.LBB17_232:                             //   in Loop: Header=BB17_188 Depth=1
	mov	w23, #2                         // =0x2
.LBB17_233:                             // %arm.5.i.i.i.i.i.i.i.i
                                        //   in Loop: Header=BB17_188 Depth=1
	mov	w26, #1                         // =0x1
.LBB17_234:                             // %arm.5.i.i.i.i.i.i.i.i
                                        //   in Loop: Header=BB17_188 Depth=1
	sub	x27, x22, #1
	mov	w24, #1                         // =0x1
	mov	w21, #1                         // =0x1
.LBB17_235:                             // %"text_runs::runs::walks::ask::<#c916d0d022654a2a>.exit.i.i.i.i.i.i.i"
                                        //   in Loop: Header=BB17_188 Depth=1
	mov	x22, x27
	b	.LBB17_186
.LBB17_236:                             // %"encode_unicode::decoding_iterators::back_scan::decode_end.exit.i.i.i.i.i.i.i"
                                        //   in Loop: Header=BB17_188 Depth=1
	add	x0, sp, #496
	add	x1, x1, x17
	str	x16, [sp, #16]                  // 8-byte Spill
	mov	x24, x15
	mov	x27, x17
	bl	"encode_unicode::decoding_iterators::back_scan::decode_few"
	ldrb	w26, [sp, #496]
	cbz	w26, .LBB17_251
// %bb.237:                             //   in Loop: Header=BB17_188 Depth=1
	ldrb	w23, [sp, #497]
	ldr	x1, [sp, #40]                   // 8-byte Reload
	mov	x15, x24
	ldr	x16, [sp, #16]                  // 8-byte Reload
	mov	x17, x27
	b	.LBB17_234
.LBB17_238:                             //   in Loop: Header=BB17_188 Depth=1
	mov	w0, #2                          // =0x2
	b	.LBB17_242
.LBB17_239:                             // %join.3.i61.i.i.i.i.i.i.i.i
                                        //   in Loop: Header=BB17_188 Depth=1
	cmp	w0, #13
	b.eq	.LBB17_247
// %bb.240:                             // %join.3.i61.i.i.i.i.i.i.i.i
                                        //   in Loop: Header=BB17_188 Depth=1
	cmp	w0, #16
	b.ne	.LBB17_245
.LBB17_241:                             //   in Loop: Header=BB17_188 Depth=1
	mov	w0, #3                          // =0x3
.LBB17_242:                             // %arm.8.i.i.i.i.i.i.i.i.i
                                        //   in Loop: Header=BB17_188 Depth=1
	and	w23, w0, #0xff
	mov	x27, x17
	add	x17, x17, #1
	mov	w24, #1                         // =0x1
	mov	w26, #1                         // =0x1
	mov	w21, #1                         // =0x1
	b	.LBB17_186
.LBB17_243:                             // %join.3.i92.i.i.i.i.i.i.i.i
                                        //   in Loop: Header=BB17_188 Depth=1
	cmp	w0, #13
	b.eq	.LBB17_247
// %bb.244:                             // %join.3.i92.i.i.i.i.i.i.i.i
                                        //   in Loop: Header=BB17_188 Depth=1
	cmp	w0, #16
	b.eq	.LBB17_241
.LBB17_245:                             // %arm.2.i161.i.i.i.i.i.i.i.i
                                        //   in Loop: Header=BB17_188 Depth=1
                                        // kill: def $w0 killed $w0 killed $x0
.LBB17_246:                             // %arm.2.i158.i.i.i.i.i.i.i.i
                                        //   in Loop: Header=BB17_188 Depth=1
	mov	x21, x15
	mov	x23, x16
	mov	x24, x17
	bl	"utf_base::table::walks::error_of_value"
	ldr	x1, [sp, #40]                   // 8-byte Reload
	mov	x17, x24
	mov	x16, x23
	mov	x15, x21
	b	.LBB17_242
.LBB17_247:                             // %join.4.i183.i.i.i.i.i.i.i.i
                                        //   in Loop: Header=BB17_188 Depth=1
	cmp	w11, #224
	b.hs	.LBB17_249
// %bb.248:                             //   in Loop: Header=BB17_188 Depth=1
	mov	w10, wzr
	mov	w9, wzr
	mov	w21, #2                         // =0x2
	b	.LBB17_203
.LBB17_249:                             // %arm.1.i.i.i.i.i.i.i.i.i
                                        //   in Loop: Header=BB17_188 Depth=1
	ldrb	w9, [x21, #2]
	cmp	w11, #240
	b.hs	.LBB17_252
// %bb.250:                             //   in Loop: Header=BB17_188 Depth=1
	mov	w10, wzr
	mov	w21, #3                         // =0x3
	b	.LBB17_203
.LBB17_251:                             //   in Loop: Header=BB17_188 Depth=1
	ldr	w23, [sp, #504]
	ldr	x21, [sp, #512]
	mov	x15, x24
	ldr	x1, [sp, #40]                   // 8-byte Reload
	ldr	x16, [sp, #16]                  // 8-byte Reload
	mov	x17, x27
	b	.LBB17_207
.LBB17_252:                             // %default.4.i.i.i.i.i.i.i.i.i
                                        //   in Loop: Header=BB17_188 Depth=1
	ldrb	w10, [x21, #3]
	mov	w21, #4                         // =0x4
	lsl	w10, w10, #24
	b	.LBB17_203
.LBB17_253:                             // %"utf_chars::codes::utf8::are_too_few.exit.i.i.i.i.i.i.i.i"
                                        //   in Loop: Header=BB17_188 Depth=1
	mov	w0, w23
	stp	x17, x15, [sp, #24]             // 16-byte Folded Spill
	str	x16, [sp, #16]                  // 8-byte Spill
	str	w11, [sp, #12]                  // 4-byte Spill
	bl	"utf_chars::codes::utf8::missing_after"
	ldp	x16, x17, [sp, #16]             // 16-byte Folded Reload
	cmp	x27, x0
	ldp	x15, x1, [sp, #32]              // 16-byte Folded Reload
	ldr	w11, [sp, #12]                  // 4-byte Reload
	b.hi	.LBB17_213
// %bb.254:                             //   in Loop: Header=BB17_188 Depth=1
	mov	w0, wzr
	b	.LBB17_242
.LBB17_255:                             // %arm.5.i.i.i.i.i
	ldr	x1, [sp, #40]                   // 8-byte Reload
	ldr	x27, [sp, #64]                  // 8-byte Reload
	add	x0, sp, #208
	ldr	w26, [sp, #60]                  // 4-byte Reload
	mov	x2, x22
	bl	"text_programs::programs::listing::write_listing::<#cdc8ff12022c16a2>"
	ldrb	w20, [sp, #208]
	ldr	x8, [sp, #216]
	mov	w9, #2                          // =0x2
	ldr	x0, [sp, #40]                   // 8-byte Reload
	cmp	w20, #0
	csel	w22, wzr, w9, eq
	csel	x21, x8, xzr, eq
	b	.LBB17_314
.LBB17_256:                             // %"std_alloc::vec::Vec::drop::<#81677c32190a458e>.exit8.i.i.i.i.i"
	ldp	x19, x20, [sp, #400]
	cbz	x20, .LBB17_261
// %bb.257:                             // %join.5.i.i.i.i.i.i.i4.i.i.i.preheader
	add	x21, x19, #16
	b	.LBB17_259
.LBB17_258:                             // %"core::mem::drop::<#7f8a914b9c4d666d>.exit.i.i.i.i.i.i.i.i.i.i"
                                        //   in Loop: Header=BB17_259 Depth=1
	subs	x20, x20, #1
	add	x21, x21, #24
	b.eq	.LBB17_261
.LBB17_259:                             // %join.5.i.i.i.i.i.i.i4.i.i.i
                                        // =>This Inner Loop Header: Depth=1
	ldr	x8, [x21]
	cbz	x8, .LBB17_258
// %bb.260:                             // %then.1.i.i.i.i.i.i.i.i.i.i.i.i11.i.i.i
                                        //   in Loop: Header=BB17_259 Depth=1
	ldur	x0, [x21, #-16]
	bl	rattle_dealloc
	b	.LBB17_258
.LBB17_261:                             // %"std_alloc::vec::Vec::clear::<#1ca9c52778c14e4e>.exit.i.i.i.i.i.i"
	cbz	x27, .LBB17_136
// %bb.262:                             // %then.1.i.i.i14.i.i.i.i.i
	mov	x0, x19
	bl	rattle_dealloc
	b	.LBB17_136
.LBB17_263:                             // %arm.9.loopexit.i.i.i.i.i.i
	ldr	x8, [sp, #416]
	ldr	x9, [sp, #400]
	cmp	x8, #0
	str	x9, [sp, #32]                   // 8-byte Spill
	cset	w8, eq
	b	.LBB17_267
.LBB17_264:                             // %arm.6.i48.i.i.i.i.i
	ldp	x23, x2, [sp, #184]
	add	x0, sp, #80
	ldr	x24, [sp, #200]
	mov	x1, x23
	bl	"text_programs::programs::listing::write_merged::<#cdc8ff12022c16a2>"
	ldrb	w20, [sp, #80]
	ldr	x8, [sp, #88]
	mov	w9, #2                          // =0x2
	cmp	w20, #0
	csel	w22, wzr, w9, eq
	csel	x21, x8, xzr, eq
	cbz	x24, .LBB17_313
// %bb.265:                             // %then.1.i.i.i.i.i.i49.i.i.i
	mov	x0, x23
	b	.LBB17_312
.LBB17_266:
	str	x8, [sp, #32]                   // 8-byte Spill
	mov	x20, xzr
	mov	w8, #1                          // =0x1
.LBB17_267:                             // %arm.9.i.i.i.i.i.i
	movi	v0.2d, #0000000000000000
	mov	w2, #8                          // =0x8
	add	x0, sp, #496
	mov	w1, wzr
	movk	w2, #1, lsl #16
	str	w8, [sp, #24]                   // 4-byte Spill
	add	x22, sp, #496
	stp	q0, q0, [sp, #304]
	stp	q0, q0, [sp, #336]
	stp	q0, q0, [sp, #368]
	stp	q0, q0, [sp, #400]
	stp	q0, q0, [sp, #432]
	stp	q0, q0, [sp, #464]
	bl	memset
	cbz	x20, .LBB17_306
// %bb.268:                             // %join.6.i.i.i.i.i.i.i.i.preheader
	ldr	x9, [sp, #32]                   // 8-byte Reload
	mov	x8, xzr
	mov	x21, xzr
	add	x26, x22, #16, lsl #12          // =65536
	add	x28, x9, #16
	b	.LBB17_271
.LBB17_269:                             // %apart.2.i.i.i.i.i.i.i.i.i.i.i.i.i.i.i
                                        //   in Loop: Header=BB17_271 Depth=1
	mov	w11, #28526                     // =0x6f6e
	mov	w10, #10                        // =0xa
	movk	w11, #25966, lsl #16
	strb	w10, [x9, #4]
	str	w11, [x9]
.LBB17_270:                             // %"text_programs::programs::entries::OptionItemEntry::push_to.exit.i.i.i.i.i.i.i.i"
                                        //   in Loop: Header=BB17_271 Depth=1
	cmp	w23, #1
	add	x28, x28, #32
	str	x8, [x26]
	ccmp	w24, #0, #4, eq
	cinc	x21, x21, ne
	subs	x20, x20, #1
	b.eq	.LBB17_307
.LBB17_271:                             // %join.6.i.i.i.i.i.i.i.i
                                        // =>This Inner Loop Header: Depth=1
	mov	w9, #65457                      // =0xffb1
	cmp	x8, x9
	b.hs	.LBB17_286
.LBB17_272:                             // %join.10.i.i.i.i.i35.i.i.i
                                        //   in Loop: Header=BB17_271 Depth=1
	ldurb	w23, [x28, #-16]
	ldrb	w24, [x28]
	cmp	w23, #1
	b.ne	.LBB17_275
// %bb.273:                             // %arm.1.i.i.i32.i.i.i.i.i.i
                                        //   in Loop: Header=BB17_271 Depth=1
	ldur	x1, [x28, #-8]
	ldur	w27, [x28, #1]
	ldr	x22, [x28, #8]
	cmp	x1, #9
	b.hi	.LBB17_277
// %bb.274:                             // %then.1.i.i.i.i.i.i.i.i45.i.i.i
                                        //   in Loop: Header=BB17_271 Depth=1
	ldr	x8, [x26]
	add	x9, sp, #496
	orr	w10, w1, #0x30
	strb	w10, [x9, x8]
	add	x8, x8, #1
	b	.LBB17_278
.LBB17_275:                             // %arm.2.i15.i.i.i.i.i.i.i.i
                                        //   in Loop: Header=BB17_271 Depth=1
	ldr	x8, [x26]
	add	x9, sp, #496
	adrp	x10, .Lstatic.18
	add	x10, x10, :lo12:.Lstatic.18
	add	x9, x9, x8
	add	x8, x8, #5
	sub	x10, x9, x10
	cmp	x10, #4
	b.hi	.LBB17_269
// %bb.276:                             // %join.7.i.i.i.i.i.i.preheader.i.i.i.i.i.i.i.i.i
                                        //   in Loop: Header=BB17_271 Depth=1
	adrp	x10, .LCPI17_3
	ldr	d0, [x10, :lo12:.LCPI17_3]
	mov	w10, #10                        // =0xa
	strb	w10, [x9, #4]
	str	s0, [x9]
	b	.LBB17_270
.LBB17_277:                             // %else.2.i.i.i.i.i.i.i.i.i.i.i
                                        //   in Loop: Header=BB17_271 Depth=1
	add	x0, sp, #496
	bl	"text_programs::programs::lines::Lines::push_digits"
	ldr	x8, [x26]
.LBB17_278:                             // %"text_programs::programs::lines::Lines::push_decimal.exit.i.i.i.i.i.i.i.i.i.i"
                                        //   in Loop: Header=BB17_271 Depth=1
	add	x9, sp, #496
	add	x10, x8, #1
	cmp	x22, #9
	mov	w11, #32                        // =0x20
	strb	w11, [x9, x8]
	str	x10, [x26]
	b.hi	.LBB17_281
// %bb.279:                             // %then.1.i.i.i.i.i.i.i.i.i43.i.i.i
                                        //   in Loop: Header=BB17_271 Depth=1
	orr	w11, w22, #0x30
	strb	w11, [x9, x10]
	add	x8, x8, #2
	add	x10, sp, #496
	mov	w9, #32                         // =0x20
	strb	w9, [x10, x8]
	add	x9, x8, #1
	cbz	w24, .LBB17_282
.LBB17_280:                             // %switch.lookup
                                        //   in Loop: Header=BB17_271 Depth=1
	and	x8, x27, #0xff
	adrp	x11, .Lswitch.table.main
	add	x11, x11, :lo12:.Lswitch.table.main
	ldr	x2, [x11, x8, lsl #3]
	adrp	x11, .Lswitch.table.main.145
	add	x11, x11, :lo12:.Lswitch.table.main.145
	ldr	x1, [x11, x8, lsl #3]
	add	x0, x10, x9
	add	x22, x2, x9
	bl	memcpy
	b	.LBB17_291
.LBB17_281:                             // %else.2.i.i.i.i.i.i.i.i.i.i.i.i
                                        //   in Loop: Header=BB17_271 Depth=1
	add	x0, sp, #496
	mov	x1, x22
	bl	"text_programs::programs::lines::Lines::push_digits"
	ldr	x8, [x26]
	add	x10, sp, #496
	mov	w9, #32                         // =0x20
	strb	w9, [x10, x8]
	add	x9, x8, #1
	cbnz	w24, .LBB17_280
.LBB17_282:                             // %arm.1.i.i.i.i.i.i.i.i.i.i.i
                                        //   in Loop: Header=BB17_271 Depth=1
	and	w10, w27, #0xff
	tbnz	w10, #7, .LBB17_284
// %bb.283:                             // %then.2.i.i.i.i.i.i.i.i.i.i.i
                                        //   in Loop: Header=BB17_271 Depth=1
	and	w10, w27, #0x7f
	b	.LBB17_290
.LBB17_284:                             // %join.4.i.i.i.i.i.i.i.i.i.i.i
                                        //   in Loop: Header=BB17_271 Depth=1
	cmp	w10, #223
	b.hi	.LBB17_287
// %bb.285:                             // %then.5.i.i.i.i.i.i.i.i.i.i.i
                                        //   in Loop: Header=BB17_271 Depth=1
	ubfx	w10, w27, #8, #6
	bfi	w10, w27, #6, #5
	b	.LBB17_290
.LBB17_286:                             // %then.8.i.i.i.i.i31.i.i.i
                                        //   in Loop: Header=BB17_271 Depth=1
	add	x0, sp, #400
	add	x1, sp, #496
	bl	"text_programs::programs::lines::Lines::write_to::<#cdc8ff12022c16a2>"
	ldrb	w8, [sp, #400]
	cbz	w8, .LBB17_272
	b	.LBB17_308
.LBB17_287:                             // %join.7.i.i.i.i.i.i.i.i.i.i.i
                                        //   in Loop: Header=BB17_271 Depth=1
	lsr	w11, w27, #8
	lsl	w12, w27, #12
	ubfx	w13, w27, #16, #6
	cmp	w10, #239
	ubfiz	w11, w11, #6, #6
	b.hi	.LBB17_289
// %bb.288:                             // %then.8.i.i.i.i.i.i.i.i.i.i.i
                                        //   in Loop: Header=BB17_271 Depth=1
	and	w10, w12, #0xf000
	orr	w10, w10, w13
	orr	w10, w10, w11
	b	.LBB17_290
.LBB17_289:                             // %join.10.i.i.i.i.i.i.i.i.i.i.i
                                        //   in Loop: Header=BB17_271 Depth=1
	and	w10, w12, #0x7000
	ubfx	w12, w27, #24, #6
	orr	w10, w10, w13
	orr	w10, w10, w11
	orr	w10, w12, w10, lsl #6
.LBB17_290:                             // %"utf_chars::utf8_char::Utf8Char::scalar.exit.i.i.i.i.i.i.i.i.i.i"
                                        //   in Loop: Header=BB17_271 Depth=1
	lsr	w11, w10, #15
	lsr	w13, w10, #7
	ubfiz	x10, x10, #1, #8
	adrp	x12, .Lstatic.9
	add	x12, x12, :lo12:.Lstatic.9
	add	x14, sp, #496
	and	x11, x11, #0x3e
	and	x13, x13, #0x1fe
	ldrh	w10, [x12, x10]
	ldrh	w11, [x12, x11]
	ldrh	w13, [x12, x13]
	add	x9, x14, x9
	add	x22, x8, #7
	strh	w10, [x9, #4]
	strh	w11, [x9]
	strh	w13, [x9, #2]
.LBB17_291:                             // %"text_programs::programs::entries::ItemEntry::push_to.exit.i.i.i.i.i.i.i.i.i"
                                        //   in Loop: Header=BB17_271 Depth=1
	add	x8, sp, #496
	mov	w9, #10                         // =0xa
	strb	w9, [x8, x22]
	add	x8, x22, #1
	b	.LBB17_270
.LBB17_292:                             // %arm.14.i.i.i.i.i.i
	ldr	x8, [sp, #320]
	cbz	x8, .LBB17_294
// %bb.293:                             // %then.1.i.i.i3.i.i.i.i.i.i
	ldr	x0, [sp, #304]
	bl	rattle_dealloc
.LBB17_294:
	mov	w22, #3                         // =0x3
	ldr	x27, [sp, #64]                  // 8-byte Reload
	ldr	w8, [sp, #60]                   // 4-byte Reload
	tbz	w8, #0, .LBB17_172
	b	.LBB17_173
.LBB17_295:                             // %join.6.lr.ph.i.i.i.i.i.i.i
	sub	x8, x29, #16
	str	x27, [sp, #64]                  // 8-byte Spill
	mov	x28, xzr
	stp	xzr, xzr, [sp, #504]
	str	x8, [sp, #496]
.LBB17_296:                             // %join.6.i.i.i.i.i.i.i
                                        // =>This Inner Loop Header: Depth=1
	ldrb	w10, [x21], #1
	ldr	x9, [sp, #512]
	cmp	w10, #70
	b.ne	.LBB17_299
// %bb.297:                             // %then.8.split.i.i.i.i.i.i.i
                                        //   in Loop: Header=BB17_296 Depth=1
	cmp	x9, x28
	b.eq	.LBB17_301
// %bb.298:                             // %join.3.i.i.i.i.i55.i.i.i
                                        //   in Loop: Header=BB17_296 Depth=1
	ldr	x8, [sp, #496]
	strb	wzr, [x8, x28]
	add	x28, x28, #1
	subs	x20, x20, #1
	str	x28, [sp, #504]
	b.ne	.LBB17_296
	b	.LBB17_305
.LBB17_299:                             // %else.9.split.i.i.i.i.i.i.i
                                        //   in Loop: Header=BB17_296 Depth=1
	cmp	x9, x28
	b.eq	.LBB17_303
.LBB17_300:                             // %join.3.i8.i.i.i.i.i.i.i
                                        //   in Loop: Header=BB17_296 Depth=1
	mov	w9, #1                          // =0x1
	strb	w9, [x8, x28]
	add	x28, x28, #1
	subs	x20, x20, #1
	str	x28, [sp, #504]
	b.ne	.LBB17_296
	b	.LBB17_305
.LBB17_301:                             // %"std_alloc::vec::Vec::grow::<#c5e3cca411c51d6b>.exit.i.i.i.i.i.i.i.i"
                                        //   in Loop: Header=BB17_296 Depth=1
	add	x0, sp, #496
	bl	"std_alloc::vec::Vec::grow_amortized::<#c5e3cca411c51d6b>"
	cbz	w0, .LBB17_349
// %bb.302:                             // %"std_alloc::vec::Vec::grow::<#c5e3cca411c51d6b>.exit.join.3_crit_edge.i.i.i.i.i.i.i.i"
                                        //   in Loop: Header=BB17_296 Depth=1
	ldp	x8, x28, [sp, #496]
	strb	wzr, [x8, x28]
	add	x28, x28, #1
	subs	x20, x20, #1
	str	x28, [sp, #504]
	b.ne	.LBB17_296
	b	.LBB17_305
.LBB17_303:                             // %"std_alloc::vec::Vec::grow::<#c5e3cca411c51d6b>.exit.i16.i.i.i.i.i.i.i"
                                        //   in Loop: Header=BB17_296 Depth=1
	add	x0, sp, #496
	bl	"std_alloc::vec::Vec::grow_amortized::<#c5e3cca411c51d6b>"
	cbz	w0, .LBB17_349
// %bb.304:                             // %"std_alloc::vec::Vec::grow::<#c5e3cca411c51d6b>.exit.join.3_crit_edge.i18.i.i.i.i.i.i.i"
                                        //   in Loop: Header=BB17_296 Depth=1
	ldp	x8, x28, [sp, #496]
	b	.LBB17_300
.LBB17_305:                             // %arm.17.i.i.i.i.i.i
	ldr	x8, [sp, #512]
	ldr	x9, [sp, #496]
	mov	w20, #2                         // =0x2
	cmp	x8, #0
	str	x9, [sp, #48]                   // 8-byte Spill
	cset	w8, eq
	b	.LBB17_140
.LBB17_306:
	mov	x21, xzr
.LBB17_307:                             // %after.1.i.i31.i.i.i.i.i.i
	add	x0, sp, #304
	add	x1, sp, #496
	bl	"text_programs::programs::lines::Lines::write_to::<#cdc8ff12022c16a2>"
	ldrb	w8, [sp, #304]
	cbz	w8, .LBB17_309
.LBB17_308:                             // %arm.12.i.i.i.i.i.i.i.i
	mov	x21, xzr
	mov	w20, #1                         // =0x1
	mov	w22, #2                         // =0x2
	b	.LBB17_310
.LBB17_309:
	mov	w22, wzr
	mov	w20, wzr
.LBB17_310:
	ldr	x27, [sp, #64]                  // 8-byte Reload
	ldr	w26, [sp, #60]                  // 4-byte Reload
	ldr	w8, [sp, #24]                   // 4-byte Reload
	tbnz	w8, #0, .LBB17_313
// %bb.311:                             // %then.1.i.i.i43.i.i.i.i.i.i
	ldr	x0, [sp, #32]                   // 8-byte Reload
.LBB17_312:
	bl	rattle_dealloc
.LBB17_313:
	ldr	x0, [sp, #40]                   // 8-byte Reload
.LBB17_314:                             // %"text_programs::programs::pieces_program::write_asked::<#1749da6181c3c90c>.exit.i.i.i.i.i"
	cbz	w20, .LBB17_318
.LBB17_315:                             // %arm.12.i.i.i.i.i
	ldr	x8, [sp, #72]                   // 8-byte Reload
	cbz	x8, .LBB17_317
// %bb.316:                             // %then.1.i.i.i64.i.i.i.i.i
	bl	rattle_dealloc
.LBB17_317:                             // %"std_alloc::vec::Vec::drop::<#81677c32190a458e>.exit.i.i.i.i.i"
	tbnz	w26, #0, .LBB17_173
	b	.LBB17_172
.LBB17_318:                             // %arm.17.i.i32.i.i.i
	ldr	x8, [sp, #72]                   // 8-byte Reload
	cbz	x8, .LBB17_320
// %bb.319:                             // %then.1.i.i.i75.i.i.i.i.i
	bl	rattle_dealloc
.LBB17_320:                             // %"std_alloc::vec::Vec::drop::<#81677c32190a458e>.exit77.i.i.i.i.i"
	tbnz	w26, #0, .LBB17_322
// %bb.321:                             // %then.1.i.i.i81.i.i.i.i.i
	ldr	x0, [sp, #48]                   // 8-byte Reload
	bl	rattle_dealloc
.LBB17_322:                             // %arm.5.i33.i.i.i
	cbz	x21, .LBB17_330
// %bb.323:                             // %default.9.i.i.i.i
	cbz	x25, .LBB17_328
// %bb.324:                             // %join.5.i.i.i.i.i29.i.i.i.i.preheader
	add	x20, x19, #16
	b	.LBB17_326
.LBB17_325:                             // %"core::mem::drop::<#7f8a914b9c4d666d>.exit.i.i.i.i.i38.i.i.i.i"
                                        //   in Loop: Header=BB17_326 Depth=1
	subs	x25, x25, #1
	add	x20, x20, #24
	b.eq	.LBB17_328
.LBB17_326:                             // %join.5.i.i.i.i.i29.i.i.i.i
                                        // =>This Inner Loop Header: Depth=1
	ldr	x8, [x20]
	cbz	x8, .LBB17_325
// %bb.327:                             // %then.1.i.i.i.i.i.i.i.i.i.i36.i.i.i.i
                                        //   in Loop: Header=BB17_326 Depth=1
	ldur	x0, [x20, #-16]
	bl	rattle_dealloc
	b	.LBB17_325
.LBB17_328:                             // %"std_alloc::vec::Vec::clear::<#1ca9c52778c14e4e>.exit.i41.i.i.i.i"
	cbz	x27, .LBB17_337
// %bb.329:                             // %then.1.i.i.i43.i.i.i.i
	mov	x0, x19
	bl	rattle_dealloc
	mov	w20, #1                         // =0x1
	b	.LBB17_354
.LBB17_330:                             // %arm.8.i.i.i.i
	cbz	x25, .LBB17_335
// %bb.331:                             // %join.5.i.i.i.i.i.i34.i.i.i.preheader
	add	x20, x19, #16
	b	.LBB17_333
.LBB17_332:                             // %"core::mem::drop::<#7f8a914b9c4d666d>.exit.i.i.i.i.i.i.i.i.i"
                                        //   in Loop: Header=BB17_333 Depth=1
	subs	x25, x25, #1
	add	x20, x20, #24
	b.eq	.LBB17_335
.LBB17_333:                             // %join.5.i.i.i.i.i.i34.i.i.i
                                        // =>This Inner Loop Header: Depth=1
	ldr	x8, [x20]
	cbz	x8, .LBB17_332
// %bb.334:                             // %then.1.i.i.i.i.i.i.i.i.i.i.i.i.i.i
                                        //   in Loop: Header=BB17_333 Depth=1
	ldur	x0, [x20, #-16]
	bl	rattle_dealloc
	b	.LBB17_332
.LBB17_335:                             // %"std_alloc::vec::Vec::clear::<#1ca9c52778c14e4e>.exit.i.i.i.i.i"
	cbz	x27, .LBB17_338
// %bb.336:                             // %then.1.i.i.i22.i.i.i.i
	mov	x0, x19
	bl	rattle_dealloc
	mov	w20, wzr
	b	.LBB17_354
.LBB17_337:
	mov	w20, #1                         // =0x1
	b	.LBB17_354
.LBB17_338:
	mov	w20, wzr
	b	.LBB17_354
.LBB17_339:                             // %arm.9.i.i.i.i.i.i.i
	ldr	x8, [sp, #416]
	cbz	x8, .LBB17_341
// %bb.340:                             // %then.1.i.i.i.i.i40.i.i.i.i.i
	ldr	x0, [sp, #400]
	bl	rattle_dealloc
.LBB17_341:                             // %arm.10.i41.i.i.i.i.i
	ldr	x27, [sp, #64]                  // 8-byte Reload
	ldr	w26, [sp, #60]                  // 4-byte Reload
	b	.LBB17_181
.LBB17_342:                             // %arm.10.i.i.i.i.i
	cbz	x23, .LBB17_344
// %bb.343:                             // %then.1.i.i.i6.i.i.i.i.i
	mov	x0, x21
	bl	rattle_dealloc
.LBB17_344:                             // %then.13.i.i.i.i.i
	ldp	x19, x20, [sp, #400]
	ldr	x21, [sp, #416]
	cbz	x20, .LBB17_370
// %bb.345:                             // %join.5.i.i.i.i.i.i.i.i.i.i.preheader
	add	x22, x19, #16
	b	.LBB17_347
.LBB17_346:                             // %"core::mem::drop::<#f02d343d93693c10>.exit.i.i.i.i.i.i.i.i.i.i"
                                        //   in Loop: Header=BB17_347 Depth=1
	subs	x20, x20, #1
	add	x22, x22, #24
	b.eq	.LBB17_370
.LBB17_347:                             // %join.5.i.i.i.i.i.i.i.i.i.i
                                        // =>This Inner Loop Header: Depth=1
	ldr	x8, [x22]
	cbz	x8, .LBB17_346
// %bb.348:                             // %then.1.i.i.i.i.i.i.i.i.i.i.i.i.i.i.i
                                        //   in Loop: Header=BB17_347 Depth=1
	ldur	x0, [x22, #-16]
	bl	rattle_dealloc
	b	.LBB17_346
.LBB17_349:                             // %arm.12.i.i.i.i.i.i.i
	ldr	x8, [sp, #512]
	cbz	x8, .LBB17_351
// %bb.350:                             // %then.1.i.i.i.i.i.i.i54.i.i.i
	ldr	x0, [sp, #496]
	bl	rattle_dealloc
.LBB17_351:                             // %"text_programs::programs::requests::ends_of::<#e3b2a9d4d2861db8>.exit.i.i.i.i.i.i"
	ldr	x27, [sp, #64]                  // 8-byte Reload
	mov	w22, #3                         // =0x3
	mov	w0, w22
	bl	"text_programs::programs::stops::Stop::report::<#2daa2fb2be07fb73>"
	mov	w20, w0
	cbnz	x25, .LBB17_174
.LBB17_352:                             // %"std_alloc::vec::Vec::clear::<#1ca9c52778c14e4e>.exit.i63.i.i.i.i"
	cbz	x27, .LBB17_354
// %bb.353:                             // %then.1.i.i.i65.i.i.i.i
	mov	x0, x19
	bl	rattle_dealloc
.LBB17_354:                             // %"pieces::main+start.exit"
	and	w0, w20, #0xff
	add	sp, sp, #16, lsl #12            // =65536
	add	sp, sp, #528
	.cfi_def_cfa wsp, 96
	ldp	x20, x19, [sp, #80]             // 16-byte Folded Reload
	ldp	x22, x21, [sp, #64]             // 16-byte Folded Reload
	ldp	x24, x23, [sp, #48]             // 16-byte Folded Reload
	ldp	x26, x25, [sp, #32]             // 16-byte Folded Reload
	ldp	x28, x27, [sp, #16]             // 16-byte Folded Reload
	ldp	x29, x30, [sp], #96             // 16-byte Folded Reload
	.cfi_def_cfa_offset 0
	.cfi_restore w19
	.cfi_restore w20
	.cfi_restore w21
	.cfi_restore w22
	.cfi_restore w23
	.cfi_restore w24
	.cfi_restore w25
	.cfi_restore w26
	.cfi_restore w27
	.cfi_restore w28
	.cfi_restore w30
	.cfi_restore w29
	ret
.LBB17_355:                             // %then.8.i.i.i.i.i.i.i.i
	.cfi_restore_state
	add	x23, x25, x26
	sub	x21, x23, #1
	cbz	x28, .LBB17_357
// %bb.356:                             // %then.1.i.i.i.i.i.i.i.i.i.i.i.i
	mov	x0, x20
	bl	rattle_dealloc
.LBB17_357:                             // %"text_programs::std_alloc++string++String+Destruct::drop::<#e3b2a9d4d2861db8>.exit.i.i.i.i.i.i.i.i"
	cbz	x21, .LBB17_363
// %bb.358:                             // %join.3.i.i.i.i12.i.i.i.i.i.i.i.i
	add	x8, x27, #1
	add	x9, x23, x27
	cmp	x8, x9
	b.hs	.LBB17_363
// %bb.359:                             // %join.5.i.i.i.i.i35.i.i.i.i.i.i.i.i.preheader
	add	x8, x19, x24
	add	x20, x8, #40
	b	.LBB17_361
.LBB17_360:                             // %"core::mem::drop::<#7f8a914b9c4d666d>.exit.i.i.i.i.i44.i.i.i.i.i.i.i.i"
                                        //   in Loop: Header=BB17_361 Depth=1
	subs	x21, x21, #1
	add	x20, x20, #24
	b.eq	.LBB17_363
.LBB17_361:                             // %join.5.i.i.i.i.i35.i.i.i.i.i.i.i.i
                                        // =>This Inner Loop Header: Depth=1
	ldr	x8, [x20]
	cbz	x8, .LBB17_360
// %bb.362:                             // %then.1.i.i.i.i.i.i.i.i.i.i42.i.i.i.i.i.i.i.i
                                        //   in Loop: Header=BB17_361 Depth=1
	ldur	x0, [x20, #-16]
	bl	rattle_dealloc
	b	.LBB17_360
.LBB17_363:                             // %"std_alloc::vec::deque::VecDeque::clear::<#1ca9c52778c14e4e>.exit.i.i32.i.i.i.i.i.i.i.i"
	cbz	x22, .LBB17_365
// %bb.364:                             // %then.1.i.i.i.i.i34.i.i.i.i.i.i.i.i
	mov	x0, x19
	bl	rattle_dealloc
.LBB17_365:                             // %arm.2.i.i.i.i.i.i
	ldp	x19, x20, [sp, #496]
	ldr	x21, [sp, #512]
	cbz	x20, .LBB17_370
// %bb.366:                             // %join.5.i.i.i.i.i.i.i8.i.i.i.i.preheader
	add	x22, x19, #16
	b	.LBB17_368
.LBB17_367:                             // %"core::mem::drop::<#7f8a914b9c4d666d>.exit.i.i.i.i.i.i.i.i.i.i.i"
                                        //   in Loop: Header=BB17_368 Depth=1
	subs	x20, x20, #1
	add	x22, x22, #24
	b.eq	.LBB17_370
.LBB17_368:                             // %join.5.i.i.i.i.i.i.i8.i.i.i.i
                                        // =>This Inner Loop Header: Depth=1
	ldr	x8, [x22]
	cbz	x8, .LBB17_367
// %bb.369:                             // %then.1.i.i.i.i.i.i.i.i.i.i.i.i.i.i.i.i
                                        //   in Loop: Header=BB17_368 Depth=1
	ldur	x0, [x22, #-16]
	bl	rattle_dealloc
	b	.LBB17_367
.LBB17_370:                             // %"std_alloc::vec::Vec::clear::<#4feeb2b446188e7f>.exit.i.i.i.i.i.i"
	cbnz	x21, .LBB17_133
	b	.LBB17_134
.LBB17_371:                             // %join.4.i.i.i.i.i.i.i.i.i
	brk	#0x1
.Lfunc_end17:
	.size	main, .Lfunc_end17-main
	.cfi_endproc
                                        // -- End function
	.type	.Lstatic.1,@object              // @static.1
	.section	.rodata..Lstatic.1,"a",@progbits
.Lstatic.1:
	.ascii	"pieces"
	.size	.Lstatic.1, 6

	.type	.Lstatic.7,@object              // @static.7
	.section	.rodata..Lstatic.7,"a",@progbits
.Lstatic.7:
	.ascii	"\000\000\000\000\000\000\000\000\000\000\000\000\000\000\000\000\000\000\000\000\000\000\000\000\000\000\000\000\000\000\000\000\000\000\000\000\000\000\000\000\000\000\000\000\000\000\000\000\000\000\000\000\000\000\000\000\000\000\000\000\000\000\000\000\000\000\000\000\000\000\000\000\000\000\000\000\000\000\000\000\000\000\000\000\000\000\000\000\000\000\000\000\000\000\000\000\000\000\000\000\000\000\000\000\000\000\000\000\000\000\000\000\000\000\000\000\000\000\000\000\000\000\000\000\000\000\000\000\001\001\001\001\001\001\001\001\001\001\001\001\001\001\001\001\002\002\002\002\002\002\002\002\002\002\002\002\002\002\002\002\003\003\003\003\003\003\003\003\003\003\003\003\003\003\003\003\003\003\003\003\003\003\003\003\003\003\003\003\003\003\003\003\004\004\005\005\005\005\005\005\005\005\005\005\005\005\005\005\005\005\005\005\005\005\005\005\005\005\005\005\005\005\005\005\006\007\007\007\007\007\007\007\007\007\007\007\007\b\007\007\t\n\n\n\013\004\004\004\004\004\004\004\004\004\004\004"
	.size	.Lstatic.7, 256

	.type	.Lstatic.8,@object              // @static.8
	.section	.rodata..Lstatic.8,"a",@progbits
.Lstatic.8:
	.ascii	"\r\016\016\016\017\001\004\002\005\006\003\007\020\020\020\020\020\r\r\r\020\020\020\020\020\020\020\020\020\020\020\020\020\001\001\001\020\020\020\020\020\020\020\020\020\020\020\020\020\002\002\002\020\020\020\020\020\020\020\020\020\020\020\020\020\t\t\001\020\020\020\020\020\020\020\020\020\020\020\020\020\001\001\n\020\020\020\020\020\020\020\020\020\020\020\020\020\b\002\002\020\020\020\020\020\020\020\020\020\020\020\020\020\002\013\013\020\020\020\020\020\020\020\020\020\020\020\020\020\t\t\t\020\020\020\020\020\020\020\020\020\020\020\020\020\021\021\021\020\020\020\020\020\020\020\020\020\020\020\020\020\022\022\022\020\020\020\020\020\020\020\020\020\020\020\020\020\f\f\f\020\020\020\020\020\020\020\020\020\020\020\020\020\023\023\023\020\020\020\020\020\020\020\020\020\020\020\020"
	.size	.Lstatic.8, 208

	.type	.Lstatic.9,@object              // @static.9
	.section	.rodata..Lstatic.9,"a",@progbits
.Lstatic.9:
	.ascii	"000102030405060708090a0b0c0d0e0f101112131415161718191a1b1c1d1e1f202122232425262728292a2b2c2d2e2f303132333435363738393a3b3c3d3e3f404142434445464748494a4b4c4d4e4f505152535455565758595a5b5c5d5e5f606162636465666768696a6b6c6d6e6f707172737475767778797a7b7c7d7e7f808182838485868788898a8b8c8d8e8f909192939495969798999a9b9c9d9e9fa0a1a2a3a4a5a6a7a8a9aaabacadaeafb0b1b2b3b4b5b6b7b8b9babbbcbdbebfc0c1c2c3c4c5c6c7c8c9cacbcccdcecfd0d1d2d3d4d5d6d7d8d9dadbdcdddedfe0e1e2e3e4e5e6e7e8e9eaebecedeeeff0f1f2f3f4f5f6f7f8f9fafbfcfdfeff"
	.size	.Lstatic.9, 512

	.type	.Lstatic.10,@object             // @static.10
	.section	.rodata..Lstatic.10,"a",@progbits
.Lstatic.10:
	.ascii	"TooFewBytes"
	.size	.Lstatic.10, 11

	.type	.Lstatic.11,@object             // @static.11
	.section	.rodata..Lstatic.11,"a",@progbits
.Lstatic.11:
	.ascii	"NonUtf8Byte"
	.size	.Lstatic.11, 11

	.type	.Lstatic.12,@object             // @static.12
	.section	.rodata..Lstatic.12,"a",@progbits
.Lstatic.12:
	.ascii	"UnexpectedContinuationByte"
	.size	.Lstatic.12, 26

	.type	.Lstatic.13,@object             // @static.13
	.section	.rodata..Lstatic.13,"a",@progbits
.Lstatic.13:
	.ascii	"InterruptedSequence"
	.size	.Lstatic.13, 19

	.type	.Lstatic.14,@object             // @static.14
	.section	.rodata.cst16,"aM",@progbits,16
.Lstatic.14:
	.ascii	"OverlongEncoding"
	.size	.Lstatic.14, 16

	.type	.Lstatic.15,@object             // @static.15
	.section	.rodata..Lstatic.15,"a",@progbits
.Lstatic.15:
	.ascii	"Utf16ReservedCodepoint"
	.size	.Lstatic.15, 22

	.type	.Lstatic.16,@object             // @static.16
	.section	.rodata.cst16,"aM",@progbits,16
.Lstatic.16:
	.ascii	"TooHighCodepoint"
	.size	.Lstatic.16, 16

	.type	.Lstatic.18,@object             // @static.18
	.section	.rodata..Lstatic.18,"a",@progbits
.Lstatic.18:
	.ascii	"none\n"
	.size	.Lstatic.18, 5

	.type	.Lstatic.19,@object             // @static.19
	.section	.rodata..Lstatic.19,"a",@progbits
.Lstatic.19:
	.ascii	": "
	.size	.Lstatic.19, 2

	.type	.Lstatic.20,@object             // @static.20
	.section	.rodata..Lstatic.20,"a",@progbits
.Lstatic.20:
	.byte	10
	.size	.Lstatic.20, 1

	.type	.Lstatic.21,@object             // @static.21
	.section	.rodata..Lstatic.21,"a",@progbits
.Lstatic.21:
	.ascii	"wrong arguments"
	.size	.Lstatic.21, 15

	.type	.Lstatic.22,@object             // @static.22
	.section	.rodata..Lstatic.22,"a",@progbits
.Lstatic.22:
	.ascii	"cannot read"
	.size	.Lstatic.22, 11

	.type	.Lstatic.23,@object             // @static.23
	.section	.rodata..Lstatic.23,"a",@progbits
.Lstatic.23:
	.ascii	"cannot write"
	.size	.Lstatic.23, 12

	.type	.Lstatic.24,@object             // @static.24
	.section	.rodata..Lstatic.24,"a",@progbits
.Lstatic.24:
	.ascii	"no memory"
	.size	.Lstatic.24, 9

	.type	".Lswitch.table.utf_chars::codes::utf8::missing_after",@object // @"switch.table.utf_chars::codes::utf8::missing_after"
	.section	".rodata..Lswitch.table.utf_chars::codes::utf8::missing_after","a",@progbits
	.p2align	3, 0x0
".Lswitch.table.utf_chars::codes::utf8::missing_after":
	.xword	0                               // 0x0
	.xword	1                               // 0x1
	.xword	2                               // 0x2
	.xword	3                               // 0x3
	.xword	2                               // 0x2
	.xword	2                               // 0x2
	.xword	3                               // 0x3
	.xword	3                               // 0x3
	.xword	2                               // 0x2
	.xword	1                               // 0x1
	.xword	1                               // 0x1
	.xword	2                               // 0x2
	.xword	1                               // 0x1
	.xword	0                               // 0x0
	.xword	0                               // 0x0
	.xword	0                               // 0x0
	.xword	0                               // 0x0
	.xword	0                               // 0x0
	.xword	0                               // 0x0
	.xword	0                               // 0x0
	.size	".Lswitch.table.utf_chars::codes::utf8::missing_after", 160

	.type	".Lswitch.table.utf_base::table::walks::error_of_value",@object // @"switch.table.utf_base::table::walks::error_of_value"
	.section	".rodata..Lswitch.table.utf_base::table::walks::error_of_value","a",@progbits
	.p2align	2, 0x0
".Lswitch.table.utf_base::table::walks::error_of_value":
	.ascii	"\006\006\006\006\006\006\006\006\006\006\006\006\006\006\006\006\006\004\005\006"
	.size	".Lswitch.table.utf_base::table::walks::error_of_value", 20

	.type	".Lswitch.table.text_programs::programs::stops::Stop::report::<#2daa2fb2be07fb73>",@object // @"switch.table.text_programs::programs::stops::Stop::report::<#2daa2fb2be07fb73>"
	.section	.rodata.cst32,"aM",@progbits,32
	.p2align	3, 0x0
".Lswitch.table.text_programs::programs::stops::Stop::report::<#2daa2fb2be07fb73>":
	.xword	15                              // 0xf
	.xword	11                              // 0xb
	.xword	12                              // 0xc
	.xword	9                               // 0x9
	.size	".Lswitch.table.text_programs::programs::stops::Stop::report::<#2daa2fb2be07fb73>", 32

	.type	".Lswitch.table.text_programs::programs::stops::Stop::report::<#2daa2fb2be07fb73>.144.rel",@object // @"switch.table.text_programs::programs::stops::Stop::report::<#2daa2fb2be07fb73>.144.rel"
	.section	".rodata..Lswitch.table.text_programs::programs::stops::Stop::report::<#2daa2fb2be07fb73>.144.rel","a",@progbits
	.p2align	2, 0x0
".Lswitch.table.text_programs::programs::stops::Stop::report::<#2daa2fb2be07fb73>.144.rel":
	.word	.Lstatic.21-".Lswitch.table.text_programs::programs::stops::Stop::report::<#2daa2fb2be07fb73>.144.rel"
	.word	.Lstatic.22-".Lswitch.table.text_programs::programs::stops::Stop::report::<#2daa2fb2be07fb73>.144.rel"
	.word	.Lstatic.23-".Lswitch.table.text_programs::programs::stops::Stop::report::<#2daa2fb2be07fb73>.144.rel"
	.word	.Lstatic.24-".Lswitch.table.text_programs::programs::stops::Stop::report::<#2daa2fb2be07fb73>.144.rel"
	.size	".Lswitch.table.text_programs::programs::stops::Stop::report::<#2daa2fb2be07fb73>.144.rel", 16

	.type	.Lswitch.table.main,@object     // @switch.table.main
	.section	.rodata..Lswitch.table.main,"a",@progbits
	.p2align	3, 0x0
.Lswitch.table.main:
	.xword	11                              // 0xb
	.xword	11                              // 0xb
	.xword	26                              // 0x1a
	.xword	19                              // 0x13
	.xword	16                              // 0x10
	.xword	22                              // 0x16
	.xword	16                              // 0x10
	.size	.Lswitch.table.main, 56

	.type	.Lswitch.table.main.145,@object // @switch.table.main.145
	.section	.data.rel.ro..Lswitch.table.main.145,"aw",@progbits
	.p2align	3, 0x0
.Lswitch.table.main.145:
	.xword	.Lstatic.10
	.xword	.Lstatic.11
	.xword	.Lstatic.12
	.xword	.Lstatic.13
	.xword	.Lstatic.14
	.xword	.Lstatic.15
	.xword	.Lstatic.16
	.size	.Lswitch.table.main.145, 56

	.ident	"rattle logic=dac8208d650f15bf3e2dc313a14fa4c783a3acf887bdfab66e1714b038d9e11b"
	.section	".note.GNU-stack","",@progbits
