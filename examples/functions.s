// Three functions for the GNU assembler. examples/functions.o is made of it, by
//
//   ia64-linux-gnu-as -g --debug-prefix-map "$PWD=." -o examples/functions.o examples/functions.s
//
// and `./ia64 check examples/functions.o` says: in `swap` the move into r9 and the store of r9 want a stop between
// them; `twice` is accepted, and `sum`, in which one stands in for an instruction outside the integer profile.
	.explicit
	.text
	.global swap#
	.proc swap#
swap:
	{ .mmi
	ld8 r8=[r32]
	ld8 r9=[r33]
	nop.i 0 ;;
	}
	{ .mmi
	st8 [r32]=r9
	mov r9=r8
	nop.i 0
	}
	{ .mib
	st8 [r33]=r9
	nop.i 0
	br.ret.sptk.many b0 ;;
	}
	.endp swap#
	.global twice#
	.proc twice#
twice:
	{ .mii
	alloc r34=ar.pfs,2,3,2,0
	mov r35=b0
	nop.i 0 ;;
	}
	{ .mib
	mov r37=r32
	mov r38=r33
	br.call.sptk.many b0=swap# ;;
	}
	{ .mii
	cmp.eq p6,p7=r32,r33
	mov b0=r35
	mov.i ar.pfs=r34 ;;
	}
	{ .mib
	(p6) mov r8=1
	(p7) mov r8=2
	br.ret.sptk.many b0 ;;
	}
	.endp twice#
	.global sum#
	.proc sum#
sum:
	{ .mmi
	lfetch.nta [r33]
	ld8 r8=[r32],8
	nop.i 0 ;;
	}
	{ .mib
	ld8 r9=[r32]
	nop.i 0
	nop.b 0 ;;
	}
	{ .mib
	add r8=r8,r9
	nop.i 0
	br.ret.sptk.many b0 ;;
	}
	.endp sum#
