// A loose text: instructions without bundles. `ia64 stops` packs them and sets the stops that the rules need.
//
// The compare reads what the two additions write, and the moves read what the compare writes: they can't share a group.
// The moves can, since one of p6 and p7 is 0. The stop before `movl` is written, so it stays, and what follows it is a
// group of its own. The last two instructions need no stop between them.
//
// `ia64 stops` prints the text of the program, and then why each stop stands where it does:
//
//   // 0.1 RAW r8 0.0 0.2
//   // 0.2 RAW p6 0.2 1.0
//   // 1.2 written
//   // 2.1 RAW r14 2.1 3.0
//
// Packed and built it runs; `ia64 run 100` then ends with 7, the larger of the two numbers, in the data.
  adds r8=5,r0
  adds r9=7,r0
  cmp.lt p6,p7=r8,r9
  (p6) adds r10=0,r9
  (p7) adds r10=0,r8
  ;;
  movl r14=larger
  st8 [r14]=r10
  break.i 0
.data
larger:
  data8 0
