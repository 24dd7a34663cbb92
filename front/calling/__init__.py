"""`ia64 call FILE FUNCTION [ARG..]`: a compiled function of an object file is called, on the proved program.

- `arguments`: what the words of a call stand for.
- `linking`: the object files, linked by GNU's linker at the addresses of an image; what is missing in them; their symbols.
- `image`: the code and the data cut out into one image, behind a caller; what of it the program doesn't take.
- `ends`: how a run ended, by its printed state, and what data it changed.
- `thread_pointer`: whether an address was made of the thread pointer.
- `answer`: what is said of it, as lines and as JSON; `call_trace`: the run group by group.
- `command`: the words, and the call as a whole.

What is proved (docs/trust/claims.md): that the program's answer on the image is that of its run slot by slot, and that every order of
the writes of its groups leaves the same (`ordered`); with `--groups K`, which makes no verdict, that it is that of groups all at
once in this one order (`output`). What isn't: that the linker put the image's code and data together as a program
would have them, that they were cut out right, and that the caller does what a compiler's caller does.
"""
