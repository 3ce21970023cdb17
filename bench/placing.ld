/* Every compared function starts at a line of the processor's cache, 64 bytes, on both sides. Otherwise it is left to chance whether
   a short loop lies within a line; the loop of the levels takes half as long again where it does not. */
SECTIONS
{
  .text.compared : SUBALIGN(64)
  {
    *planner_c.o(.text .text.*)
    *(.text.*5bench5plain*)
  }
}
INSERT AFTER .text;
