/* Merges the sections of an object for Linux into those that an object for Windows has. Pointers that Linux writes
   before a program runs, .data.rel.ro, are read-only on Windows too. What is left out here a Windows program doesn't
   read: remarks, and the tables by which Linux walks through frames. Any other section stays, and elf.py rejects it. */
SECTIONS
{
  .text : { *(.text .text.*) }
  .rdata : { *(.rodata .rodata.* .data.rel.ro .data.rel.ro.*) }
  .data : { *(.data .data.*) }
  .bss : { *(.bss .bss.*) }
  /DISCARD/ : { *(.comment .note.* .llvm_addrsig .eh_frame) }
}
